#!/usr/bin/env python3
"""Makes a put line for tier-replay of an HTTP response as curl prints it, to see what the tier makes of it.

    curl -sSi https://example.org/a.js | response_to_trace.py /a.js > trace.jsonl
    response_to_trace.py --at 1000 --look 5 --look 60 /a.js < response.txt > trace.jsonl
    response_to_trace.py --explain /a.js < response.txt

The first line is a put of the response under the key at the moment --at (now, if left out). Each --look SECONDS adds a look-up so
many seconds after it: three lines, open, look and drop.

With --explain it prints no trace, and says instead which line of the head decides whether the response is stored and until when it is fresh: by the tier
alone (tier:, by its plain model, replay_model.py, and which lines it doesn't look at), and by HTTP's rules (rules:, by theirs, rules_model.py), which
heed a request's lines too: --request-header 'Cache-Control: no-cache'. Of a head that was saved earlier, --at says when it came.

What is changed is reported on standard error:
- A status line of HTTP/2 or HTTP/3, which has no reason and no minor version, is written as HTTP/1.1, since the tier reads HTTP/1.x alone.
- Where curl printed several heads (100 Continue, redirects with -L, a proxy's), only the last response is taken.
- A head alone, as of curl -sSI, gets as many bytes 'x' for a body as its Content-Length says, up to 1 MiB. A head whose empty line is
  missing, as in a copied text, gets one.

curl decodes a chunked body (but for --raw), and a packed one with --compressed; the tier takes the bytes as they are here. That the
chunks' framing isn't there is reported.
"""
import argparse
import json
import re
import os
import sys
import time

sys.dont_write_bytecode = True
# The plain models lie beside this in a release, and in tools/reference of the repository.
HERE = os.path.dirname(os.path.realpath(__file__))
sys.path[:0] = [HERE, os.path.join(os.path.dirname(HERE), "reference")]

import replay_model  # noqa: E402
import rules_explain  # noqa: E402

STATUS = re.compile(rb"HTTP/(\d)(?:\.(\d))? (\d{3})[^\r\n]*\r?\n")
HEAD = re.compile(rb".*?\n\r?\n", re.DOTALL)
LENGTH = re.compile(rb"^content-length:[ \t]*(\d+)[ \t]*\r?$", re.IGNORECASE | re.MULTILINE)
CODED = re.compile(rb"^transfer-encoding:", re.IGNORECASE | re.MULTILINE)
CHUNKED = re.compile(rb"^transfer-encoding:.*\bchunked[ \t]*\r?$", re.IGNORECASE | re.MULTILINE)
CHUNK = re.compile(rb"[0-9a-f]+[ \t]*(?:;[^\r\n]*)?\r?\n", re.IGNORECASE)
LONGEST, EMPTY = 2**20, (b"204", b"304")
# Fields that other caches heed, and the tier alone doesn't.
NOT_LOOKED_AT = (
    "age", "date", "vary", "set-cookie", "pragma", "transfer-encoding", "content-range", "cdn-cache-control", "surrogate-control", "x-accel-expires",
)


def note(text):
    print(text, file=sys.stderr)


def promises_body(head):
    """Whether a body is printed after a head that isn't the last: not after 1xx, 3xx, 401, 407 or a proxy's 200."""
    status = STATUS.match(head)[3]
    if status[:1] in b"13" or status in (b"401", b"407"):
        return False
    return bool(LENGTH.search(head) or CODED.search(head))


def last_response(data):
    """Returns the bytes of the last response, and how many heads stand before it."""
    dropped = 0
    while True:
        head = HEAD.match(data)
        if not head or not STATUS.match(data[head.end() :]) or promises_body(head[0]):
            return data, dropped
        data, dropped = data[head.end() :], dropped + 1


def as_http_1(data):
    """Returns the response with a status line of HTTP/1.x."""
    status = STATUS.match(data)
    if status[1] == b"1":
        return data
    note(f"the status line of HTTP/{status[1].decode()} is written as HTTP/1.1")
    return b"HTTP/1.1 " + status[3] + b"\r\n" + data[status.end() :]


def with_body(data):
    """Returns the response with its empty line, and with a body where the head stands alone and announces one."""
    head = HEAD.match(data)
    if not head:
        note("no empty line ends the head: one is added")
        data = data.rstrip(b"\r\n") + b"\r\n\r\n"
        head = HEAD.match(data)
    length = LENGTH.search(head[0])
    wanted, there = int(length[1]) if length else 0, len(data) - head.end()
    if not there and 0 < wanted <= LONGEST and STATUS.match(data)[3] not in EMPTY:
        note(f"no body follows the head: {wanted} bytes stand for it")
        return data + b"x" * wanted
    if there and CHUNKED.search(head[0]) and not CHUNK.match(data[head.end() :]):
        note(f"the body isn't in chunks, as its Transfer-Encoding says: {there} bytes, as curl decodes them, stand for it")
    if length and there != wanted and STATUS.match(data)[3] not in EMPTY:
        note(f"Content-Length is {wanted}, and {there} bytes follow the head")
    return data


def response_of(data):
    """Returns the response to put."""
    if not data:
        sys.exit("the input is empty")
    if not STATUS.match(data):
        sys.exit("the input doesn't begin with a status line: print the head too, as curl -sSi does")
    data, dropped = last_response(data)
    if dropped:
        note(f"earlier heads left out: {dropped}")
    return with_body(as_http_1(data))


def shown(name, value):
    """A directive as it stands in a line."""
    return (name if value is None else name + b"=" + value).decode("utf-8", "backslashreplace")


def decided_by(head):
    """Returns the line that says whether and how long the response is kept, by the order of RFC 9111, 4.2.1, and its meaning."""
    found = replay_model.directives(head.values("cache-control"))
    for name, meaning in ((b"no-store", "not stored"), (b"private", "not stored: the cache is shared"), (b"no-cache", "stored, and stale at once")):
        if name in found and (name == b"no-store" or found[name] is None):
            return f"Cache-Control: {shown(name, found[name])}", meaning
    for name in (b"s-maxage", b"max-age"):
        if found.get(name) is not None:
            if replay_model.seconds(found[name]) is not None:
                return f"Cache-Control: {shown(name, found[name])}", "the lifetime"
            break
    if len(head.values("expires")) == 1:
        return f"Expires: {head.values('expires')[0].decode('ascii', 'backslashreplace')}", "the last moment"
    for name in (b"s-maxage", b"max-age"):
        if name in found:
            return f"Cache-Control: {shown(name, found[name])}", "not stored: that is no number of seconds, and nothing else gives a lifetime"
    return "no line", "not stored: nothing gives a lifetime, and none is guessed"


def judged(data, now):
    """What the tier alone makes of a response that comes at that moment, a line each."""
    try:
        head = replay_model.head_of(data)
    except (replay_model.Bad, replay_model.Short) as why:
        yield "no response head that it reads" if isinstance(why, replay_model.Bad) else "the head isn't complete"
        return
    by, meaning = decided_by(head)
    yield f"decided by {by} ({meaning})"
    until = replay_model.kept_until(head, now)
    if until is not None:
        yield f"fresh up to {rules_explain.at(until)}" if until >= now else f"stale from {rules_explain.at(now)} on"
    found = replay_model.directives(head.values("cache-control"))
    for name in (b"stale-while-revalidate", b"stale-if-error"):
        if until is not None and found.get(name) is not None:
            yield f"{shown(name, found[name])}: whether to use it stale is the caller's decision"
    gone = {it.decode("ascii", "backslashreplace") for it in replay_model.listed(found) if it}
    for name in sorted(it for it in gone if head.values(it)):
        yield f"stored without {name}, which private or no-cache lists"
    for name in NOT_LOOKED_AT:
        if head.values(name) and name not in gone:
            yield f"not looked at: {name}"
    if head.status == 206:
        yield "status 206: what is stored is a part, and is served as the whole"


def explain(data, now, headers):
    """Says what the tier makes of a response, and what HTTP's rules do of it as the answer to a GET with these header lines."""
    for row in judged(data, now):
        print(f"tier: {row}")
    for row in rules_explain.explained(data, now, headers):
        print(f"rules: {row}")


def line(event):
    print(json.dumps(event, separators=(",", ":")))


def main():
    parser = argparse.ArgumentParser(description=__doc__, formatter_class=argparse.RawDescriptionHelpFormatter)
    parser.add_argument("key", help="the key under which the response is put")
    parser.add_argument("--at", type=int, default=int(time.time()), help="the moment of the put, in seconds since 1970 (default now)")
    parser.add_argument("--look", type=int, action="append", default=[], metavar="SECONDS", help="look the key up so many seconds later")
    parser.add_argument("--explain", action="store_true", help="say which line of the head decides, in place of a trace")
    parser.add_argument(
        "--request-header", type=os.fsencode, action="append", default=[], metavar="LINE", help="with --explain: a line of the request, as 'Authorization: Basic YQ=='"
    )
    options = parser.parse_args()
    data = response_of(sys.stdin.buffer.read())
    if options.explain:
        explain(data, options.at, options.request_header)
        return
    key = options.key.encode("utf-8", "surrogateescape").hex()
    line({"op": "put", "at": options.at, "key": key, "pieces": [data.hex()]})
    for number, after in enumerate(options.look):
        line({"op": "open", "at": options.at + after, "id": number, "key": key})
        line({"op": "look", "at": options.at + after, "id": number})
        line({"op": "drop", "at": options.at + after, "id": number})


if __name__ == "__main__":
    main()
