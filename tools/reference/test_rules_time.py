#!/usr/bin/env python3
"""Tests that the calls of HTTP's rules take time linear in their texts, of the worst heads too: each is asked of a head and of one four times as long, and
takes at most eight times as long. It goes by the processor's time, so that a busy machine changes little. Lines by the names that are looked for among
them, where max_fields lets both grow, take time by their product, which is shown and passed over.

usage: tools/reference/test_rules_time.py       with the library that CACHE_TIER_LIBRARY names, and the package in python/src"""

import os
import sys
import time

sys.dont_write_bytecode = True
sys.path.insert(0, os.path.join(os.path.dirname(os.path.abspath(__file__)), "..", "..", "python", "src"))

from cache_tier.rules import BodyDecoder, Exchange, RejectedError, Rules  # noqa: E402

MOST = 8
LENGTHS = (12000, 48000)
LONG = {"max_request_line_bytes": 65536, "max_head_bytes": 65536, "max_field_bytes": 65536}
RULES = Rules(**LONG)
MANY = Rules(**LONG, max_fields=100000)
SETTINGS = Rules("query-drop: utm_*\nquery-drop: gclid\nquery-sort: yes\nencodings: br, gzip\ncookie-keep: sid\n", **LONG, max_fields=100000)
GET = b"GET /a HTTP/1.1\r\nHost: a.example\r\n"
OK = b"HTTP/1.1 200 OK\r\nDate: Thu, 01 Jan 1970 00:16:40 GMT\r\nCache-Control: max-age=60\r\n"


def filled(size, pieces):
    """Pieces by their number, joined, about as long as that."""
    text, number = [], 0
    while size > 0:
        piece = pieces(number)
        text.append(piece)
        size, number = size - len(piece), number + 1
    return b"".join(text)


def request(text, by=RULES):
    return by.parse_request(GET + text + b"\r\n")


def response(text, by=RULES):
    return by.parse_response(OK + text + b"\r\n", 1000)


PLAIN = request(b"")


def exchange(text, vary_index=b""):
    return Exchange(PLAIN, response(text), 1000, 1000, vary_index=vary_index)


def judged(text):
    return RULES.decide_store(exchange(text))


def chosen(text):
    return RULES.decide_reuse(request(text), judged(b"ETag: \"1\"\r\n"), 1010)


def answered(text):
    return RULES.serve_stored(request(text), judged(b"ETag: \"1\"\r\n"), 100, 1010, {"hit": True})


def variant(data):
    return RULES.secondary_keys(request(LINES), data)


def listed(data):
    return RULES.update_vary_index(exchange(b"Vary: A, B, C, D\r\n").response, 1000, data, b"0" * 32)


def varied(data):
    vary, known = data
    return RULES.update_vary_index(exchange(vary).response, 1000, known, b"0" * 32)


def decoded(data):
    return BodyDecoder(("chunked", None)).decode(data)


LINES = b"".join(b"a%d: b\r\n" % n for n in range(200))  # near the most that the default lets be
SHORT = lambda size: filled(size, lambda n: b"a%d:b\r\n" % n)
NAMES = lambda size: b"0" * 32 + b"\n" + filled(size, lambda n: b"n%d\n" % n)
LINE = lambda name, pieces, end=b"": lambda size: name + b": " + filled(size, pieces) + end + b"\r\n"
CASES = {
    "one long target": (lambda size: b"GET /" + b"a" * size + b" HTTP/1.1\r\nHost: a\r\n\r\n", RULES.parse_request),
    "empty lines in front": (lambda size: b"\r\n" * (size // 2) + GET + b"\r\n", RULES.parse_request),
    "one long line": (LINE(b"X", lambda n: b"a"), request),
    "blanks in a value": (LINE(b"X", lambda n: b" \t", b"a"), request),
    "names in Connection": (LINE(b"Connection", lambda n: b"n%d," % n), request),
    "codings": (LINE(b"X-Transfer", lambda n: b"a,"), request),
    "directives of a request": (LINE(b"Cache-Control", lambda n: b"a%d," % n), chosen),
    "tags": (LINE(b"If-None-Match", lambda n: b'"%d",' % n), answered),
    "ranges": (LINE(b"Range", lambda n: b"bytes=" if n == 0 else b"%d-%d," % (n, n)), answered),
    "directives": (LINE(b"Cache-Control", lambda n: b"a%d=b," % n), judged),
    "quotes without an end": (LINE(b"Cache-Control", lambda n: b'a="\\"'), judged),
    "names in private": (lambda size: b'Cache-Control: private="' + filled(size, lambda n: b"n%d," % n) + b'"\r\n', judged),
    "names in Vary": (LINE(b"Vary", lambda n: b"n%d," % n), judged),
    "short lines of a request": (SHORT, lambda text: request(text, MANY)),
    "short lines of a response": (SHORT, lambda text: response(text, MANY)),
    "lines beside names in Connection": (lambda size: LINES + LINE(b"Connection", lambda n: b"n%d," % n)(size), request),
    "lines beside names in private": (lambda size: LINES + b'Cache-Control: private="' + filled(size, lambda n: b"n%d," % n) + b'"\r\n', judged),
    "as many lines as names in Connection": (lambda size: SHORT(size // 2) + LINE(b"Connection", lambda n: b"n%d," % n)(size // 2), lambda text: request(text, MANY)),
    "names in a list, for a second key": (NAMES, variant),
    "names in a list, for a new one": (NAMES, listed),
    "names in Vary, and in a list": (lambda size: (LINE(b"Vary", lambda n: b"n%d," % n)(size // 2), NAMES(size // 2)), varied),
    "members of a targeted field": (LINE(b"CDN-Cache-Control", lambda n: b"max-age=1" if n == 0 else b",a%d" % n), judged),
    "parts of a query": (lambda size: b"GET /a?" + b"a&" * (size // 2) + b" HTTP/1.1\r\nHost: a\r\n\r\n", lambda data: SETTINGS.parse_request(data)),
    "parts of a query, the last first": (lambda size: b"GET /a?" + filled(size, lambda n: b"%d&" % (99999 - n)) + b" HTTP/1.1\r\nHost: a\r\n\r\n", lambda data: SETTINGS.parse_request(data)),
    "one part of a query": (lambda size: b"GET /a?" + b"a" * size + b" HTTP/1.1\r\nHost: a\r\n\r\n", lambda data: SETTINGS.parse_request(data)),
    "cookies": (LINE(b"Cookie", lambda n: b"sid;"), lambda text: request(text, SETTINGS)),
    "lines of cookies": (lambda size: b"Cookie: sid\r\n" * (size // 13), lambda text: request(text, SETTINGS)),
    "codings that are asked for": (LINE(b"Accept-Encoding", lambda n: b"gzip;q=0,"), lambda text: request(text, SETTINGS)),
    "chunks of a byte": (lambda size: b"1\r\na\r\n" * (size // 6), decoded),
    "extensions": (lambda size: b"1;" + b"a" * size, decoded),
}
BY_SQUARE = {"as many lines as names in Connection"}


def seconds(of, data):
    least = None
    for _ in range(3):
        began = time.process_time()
        try:
            of(data)
        except RejectedError:
            pass
        took = time.process_time() - began
        least = took if least is None else min(least, took)
    return least


def main():
    failed = 0
    for name, (make, of) in CASES.items():
        short, long = (seconds(of, make(size)) for size in LENGTHS)
        holds = long <= MOST * max(short, 0.0005) or name in BY_SQUARE
        failed += not holds
        print(f"{name}: {1000 * short:.1f} and {1000 * long:.1f} ms{'' if holds else ': MORE THAN LINEAR'}")
    return 1 if failed else 0


if __name__ == "__main__":
    sys.exit(main())
