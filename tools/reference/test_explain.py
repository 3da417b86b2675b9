#!/usr/bin/env python3
"""Tests what response_to_trace.py --explain says of heads as servers, frameworks and networks send them: its lines of HTTP's rules, whole.

usage: tools/reference/test_explain.py [NAME ..]"""

import os
import subprocess
import sys

TOP = os.path.dirname(os.path.dirname(os.path.dirname(os.path.abspath(__file__))))
NOW = 1795886400  # Sat, 28 Nov 2026 17:20:00 GMT
DATE = "Date: Sat, 28 Nov 2026 17:20:00 GMT"
# A name, the lines of a head, the lines that are said of it, and the request's lines, where it has any.
HEADS = (
    (
        "a network's, which is old as it comes",
        ("HTTP/2 200", "date: Fri, 27 Nov 2026 19:06:40 GMT", 'etag: "5d41402abc4b2a76"', "cache-control: max-age=86400", "age: 80000", "vary: Accept-Encoding"),
        (
            "stored, 86400 seconds by Cache-Control: max-age=86400",
            "80000 seconds old as it came, by Age",
            "fresh before second 1795892800 (Sat, 28 Nov 2026 19:06:40 GMT)",
            "each request's own by accept-encoding",
        ),
    ),
    (
        "an object store's, without a lifetime",
        ("HTTP/1.1 200 OK", DATE, "Last-Modified: Wed, 18 Nov 2026 07:20:00 GMT", 'ETag: "1"'),
        (
            "stored, 86400 seconds by Last-Modified: Wed, 18 Nov 2026 07:20:00 GMT (a tenth of the time up to Date)",
            "fresh before second 1795972800 (Sun, 29 Nov 2026 17:20:00 GMT)",
        ),
    ),
    (
        "a page for who is logged in",
        ("HTTP/1.1 200 OK", DATE, "Expires: Wed, 11 Jan 1984 05:00:00 GMT", "Cache-Control: no-cache, max-age=0, no-store, private", "Set-Cookie: in=1"),
        ("not stored: Cache-Control: no-store",),
    ),
    (
        "a page with a cookie",
        ("HTTP/1.1 200 OK", DATE, "Cache-Control: max-age=3600", "Set-Cookie: session=abc; HttpOnly"),
        ("not stored: Set-Cookie (it is for one client)",),
    ),
    (
        "a page whose cookie is kept out",
        ("HTTP/1.1 200 OK", DATE, 'Cache-Control: private="Set-Cookie, X-User", max-age=60', "Set-Cookie: a=b", "X-User: 7"),
        (
            "stored, 60 seconds by Cache-Control: max-age=60",
            "fresh before second 1795886460 (Sat, 28 Nov 2026 17:21:00 GMT)",
            "stored without set-cookie, x-user: Cache-Control: private=Set-Cookie, X-User",
        ),
    ),
    (
        "an origin's behind a network, with a field for it",
        ("HTTP/1.1 200 OK", DATE, "CDN-Cache-Control: max-age=600", "Cache-Control: max-age=60"),
        ("stored, 600 seconds by Cdn-Cache-Control: max-age=600", "fresh before second 1795887000 (Sat, 28 Nov 2026 17:30:00 GMT)"),
    ),
    (
        "a server's whose clock is slow",
        ("HTTP/1.1 200 OK", "Date: Sat, 28 Nov 2026 15:20:00 GMT", "Expires: Sat, 28 Nov 2026 15:30:00 GMT"),
        (
            "stored, 600 seconds by Expires: Sat, 28 Nov 2026 15:30:00 GMT",
            "7200 seconds old as it came, by Date",
            "stale at once: the origin is asked first",
        ),
    ),
    (
        "one with Age and Date that nobody reads",
        ("HTTP/1.1 200 OK", "Date: yesterday", "Age: 1 day", "Cache-Control: max-age=60, must-revalidate, stale-if-error=5"),
        (
            "stored, 60 seconds by Cache-Control: max-age=60",
            "Age: 1 day, which is no number of digits: 0 seconds",
            "Date: yesterday, which is no date in GMT: the moment at which it came counts",
            "fresh before second 1795886460 (Sat, 28 Nov 2026 17:21:00 GMT)",
            "Cache-Control: stale-if-error=5: not used, since must-revalidate forbids stale use",
        ),
    ),
    (
        "one asked for with credentials",
        ("HTTP/1.1 200 OK", DATE, "Cache-Control: max-age=60"),
        ("not stored: the request's Authorization (no public, s-maxage or must-revalidate lets its response answer others)",),
        ("Authorization: Basic YQ==",),
    ),
    (
        "a reload",
        ("HTTP/1.1 200 OK", DATE, "Cache-Control: max-age=60"),
        (
            "stored, 60 seconds by Cache-Control: max-age=60",
            "fresh before second 1795886460 (Sat, 28 Nov 2026 17:21:00 GMT)",
            "the same request at once again is answered after the origin was asked whether it is the same still",
        ),
        ("Cache-Control: no-cache",),
    ),
    ("a part", ("HTTP/1.1 206 Partial Content", DATE, "Cache-Control: max-age=60", "Content-Range: bytes 0-1/10"), ("not stored: status 206: a part isn't stored",)),
)
# A name, the lines of a head, and what is said of it by the tier alone, among other lines.
OF_TIER = (
    ("a listed field", ("HTTP/1.1 200 OK", 'Cache-Control: private="Set-Cookie", max-age=60', "Set-Cookie: a=b"), ("stored without set-cookie, which private or no-cache lists",)),
    ("a day in letters", ("HTTP/1.1 200 OK", "Cache-Control: max-age=1d"), ("decided by Cache-Control: max-age=1d (not stored: that is no number of seconds, and nothing else gives a lifetime)",)),
    ("a network's field", ("HTTP/1.1 200 OK", "CDN-Cache-Control: max-age=60"), ("not looked at: cdn-cache-control",)),
    ("nginx's field", ("HTTP/1.1 200 OK", "X-Accel-Expires: 60"), ("not looked at: x-accel-expires",)),
)


def said(lines, headers=(), by="rules: "):
    """What is said of a head, by the rules alone or by the tier alone."""
    head = "".join(f"{it}\r\n" for it in (*lines, "Content-Length: 2")) + "\r\nhi"
    words = [sys.executable, "-B", os.path.join(TOP, "tools", "planner", "response_to_trace.py"), "--at", str(NOW), "--explain", "/a"]
    words += [word for it in headers for word in ("--request-header", it)]
    ran = subprocess.run(words, input=head.encode(), stdout=subprocess.PIPE, stderr=subprocess.DEVNULL, check=True)
    return tuple(it[len(by) :] for it in ran.stdout.decode().splitlines() if it.startswith(by))


def main(names):
    failed = 0
    for name, lines, wanted, *headers in HEADS:
        if names and name not in names:
            continue
        got = said(lines, *headers)
        if got != wanted:
            failed += 1
            print(f"{name}: said is\n    " + "\n    ".join(got) + "\nwanted is\n    " + "\n    ".join(wanted))
    for name, lines, wanted in OF_TIER:
        got = said(lines, by="tier: ")
        if (not names or name in names) and not set(wanted) <= set(got):
            failed += 1
            print(f"{name}: said is\n    " + "\n    ".join(got) + "\nand it lacks\n    " + "\n    ".join(set(wanted) - set(got)))
    print(f"explained heads: {len(HEADS) + len(OF_TIER)}, {failed} otherwise than the table")
    return 1 if failed else 0


if __name__ == "__main__":
    sys.exit(main(sys.argv[1:]))
