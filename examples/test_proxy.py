#!/usr/bin/env python3
"""Each attack that worked on an earlier proxy, against examples/proxy.py: `examples/test_proxy.py [NAME ..]`. It starts the proxy and an origin that
answers by a script; the package and its library are found as the proxy finds them. A name that fails is shown with what came. PROXY: another proxy
over the gateway, started by the same words: a program, or one in Python."""

import contextlib
import itertools
import os
import socket
import subprocess
import sys
import threading
import time

HERE = os.path.dirname(os.path.abspath(__file__))
TESTS = {}
PROXY = os.environ.get("PROXY", os.path.join(HERE, "proxy.py"))
FRESH = b"HTTP/1.1 200 OK\r\nCache-Control: max-age=60\r\nContent-Length: 4\r\n\r\npage"
STALE = b'HTTP/1.1 200 OK\r\nCache-Control: max-age=0\r\nETag: "1"\r\nContent-Length: 4\r\n\r\npage'


def test(of):
    TESTS[of.__name__] = of
    return of


def free_port():
    with socket.socket() as it:
        it.bind(("127.0.0.1", 0))
        return it.getsockname()[1]


class Origin(threading.Thread):
    """Answers each request by what `answers` gives of its head, bytes or pieces of them, and keeps the heads that came, and what came behind one
    that is chunked. With `keeps` a connection has more than one."""

    def __init__(self):
        super().__init__(daemon=True)
        self.socket = socket.create_server(("127.0.0.1", 0), backlog=64)
        self.port, self.heads, self.answers = self.socket.getsockname()[1], [], lambda head: FRESH
        self.behind, self.keeps = b"", False
        self.start()

    def run(self):
        while True:
            at, _ = self.socket.accept()
            threading.Thread(target=self.serve, args=(at,), daemon=True).start()

    def serve(self, at):
        with at, contextlib.suppress(OSError):
            while self.serve_one(at) and self.keeps:
                pass

    def serve_one(self, at):
        data = b""
        while b"\r\n\r\n" not in data:
            more = at.recv(65536)
            if not more:
                return False
            data += more
        head, _, self.behind = data.partition(b"\r\n\r\n")
        while b"transfer-encoding" in head.lower() and not self.behind.endswith(b"0\r\n\r\n"):
            more = at.recv(65536)
            if not more:
                return False
            self.behind += more
        self.heads.append(head)
        answer = self.answers(head)
        for piece in [answer] if isinstance(answer, bytes) else answer:
            at.sendall(piece)
        return True


class Place:
    """A proxy before a scripted origin."""

    def __init__(self, *options):
        self.origin, self.port = Origin(), free_port()
        python = [sys.executable] if PROXY.endswith(".py") else []
        self.run = subprocess.Popen([*python, PROXY, str(self.port), str(self.origin.port), *options])
        for _ in range(400):
            with contextlib.suppress(OSError):
                socket.create_connection(("127.0.0.1", self.port), 1).close()
                return
            time.sleep(0.05)
        sys.exit("the proxy doesn't listen")

    def __enter__(self):
        return self

    def __exit__(self, *_):
        self.run.terminate()
        self.run.wait(10)

    def raw(self, data, wait=0.6):
        """All that comes back on one connection."""
        with socket.create_connection(("127.0.0.1", self.port), 10) as at:
            at.sendall(data)
            got = b""
            at.settimeout(5)
            with contextlib.suppress(OSError):
                while True:
                    more = at.recv(65536)
                    if not more:
                        break
                    got += more
                    at.settimeout(wait)
            return got

    def ask(self, path="/a", method="GET", lines="", body=""):
        return self.raw(f"{method} {path} HTTP/1.1\r\nHost: a.example\r\n{lines}Connection: close\r\n\r\n{body}".encode())


def check(what, holds, got=None):
    if not holds:
        raise AssertionError(f"{what}: {got!r}")


def confirms_with_cookie(head):
    if b"if-none-match" in head.lower():
        return b'HTTP/1.1 304 Not Modified\r\nETag: "1"\r\nCache-Control: max-age=60\r\nSet-Cookie: victim=1\r\n\r\n'
    return STALE


@test
def cookie_through_a_304():
    with Place() as place:
        place.origin.answers = confirms_with_cookie
        place.ask()
        got = place.ask(lines="Cookie: victim\r\n")
        check("the victim gets the page", got.startswith(b"HTTP/1.1 200") and got.endswith(b"page"), got)
        check("who asked gets the cookie of the 304", b"Set-Cookie: victim=1" in got, got)
        got = place.ask()
        check("what was confirmed answers the next one", len(place.origin.heads) == 2 and got.endswith(b"page"), place.origin.heads)
        check("nobody else gets the cookie", b"victim" not in got, got)


@test
def cookie_through_a_304_with_a_purge():
    with Place() as place:
        place.ask(), time.sleep(0.2)

        def slowly(head):
            if b"if-none-match" in head.lower():
                time.sleep(0.8)
                return confirms_with_cookie(head)
            return STALE if head.startswith(b"GET") else b"HTTP/1.1 204 No Content\r\n\r\n"

        place.origin.answers = slowly
        place.ask("/b")
        asked = threading.Thread(target=place.ask, args=("/b",))
        asked.start()
        time.sleep(0.3)
        place.ask("/b", "DELETE")
        asked.join()
        place.origin.answers = lambda head: FRESH
        got = place.ask("/b")
        check("what was purged is fetched", b"victim" not in got and b"if-none-match" not in place.origin.heads[-1].lower(), got)


@test
def a_304_with_a_purge():
    with Place() as place:

        def slowly(head):
            if b"if-none-match" in head.lower():
                time.sleep(0.8)
                return b'HTTP/1.1 304 Not Modified\r\nETag: "1"\r\nCache-Control: max-age=60\r\n\r\n'
            return STALE if head.startswith(b"GET") else b"HTTP/1.1 204 No Content\r\n\r\n"

        place.origin.answers = slowly
        place.ask()
        got = []
        asked = threading.Thread(target=lambda: got.append(place.ask()))
        asked.start()
        time.sleep(0.3)
        place.ask(method="DELETE")
        asked.join()
        check("who asked gets the page", got[0].startswith(b"HTTP/1.1 200") and got[0].endswith(b"page"), got)
        place.origin.answers = lambda head: FRESH
        place.ask()
        check("what was purged is fetched", b"if-none-match" not in place.origin.heads[-1].lower() and len(place.origin.heads) == 4, place.origin.heads)


@test
def a_purge_during_a_body():
    with Place() as place:

        def slowly(head):
            if not head.startswith(b"GET"):
                return b"HTTP/1.1 204 No Content\r\n\r\n"
            return pieces()

        def pieces():
            yield b"HTTP/1.1 200 OK\r\nCache-Control: max-age=60\r\nTransfer-Encoding: chunked\r\n\r\n2\r\npa\r\n"
            time.sleep(0.9)
            yield b"2\r\nge\r\n0\r\n\r\n"

        place.origin.answers, got = slowly, []
        asks = b"GET /a HTTP/1.1\r\nHost: a.example\r\nConnection: close\r\n\r\n"
        readers = [threading.Thread(target=lambda: got.append(place.raw(asks, 2))) for _ in range(2)]
        for it in readers:
            it.start()
            time.sleep(0.2)
        place.ask(method="DELETE")
        for it in readers:
            it.join()
        check("fetcher and reader get all of it", all(it.endswith(b"2\r\nge\r\n0\r\n\r\n") for it in got) and len(got) == 2, got)
        check("by one fetch", len(place.origin.heads) == 2, place.origin.heads)


@test
def an_empty_chunked_request():
    with Place() as place:
        place.ask(method="POST", lines="Transfer-Encoding: chunked\r\n", body="0\r\n\r\n")
        check("it ends at the origin", place.origin.behind == b"0\r\n\r\n", (place.origin.heads, place.origin.behind))
        place.ask(method="POST", lines="Transfer-Encoding: chunked\r\n", body="2\r\nab\r\n1\r\nc\r\n0\r\n\r\n")
        check("so does a full one", place.origin.behind == b"3\r\nabc\r\n0\r\n\r\n", place.origin.behind)


@test
def a_bad_chunk():
    with Place() as place:
        got = place.raw(b"POST /a HTTP/1.1\r\nHost: a.example\r\nTransfer-Encoding: chunked\r\n\r\nx\r\nab\r\n0\r\n\r\nGET /b HTTP/1.1\r\n\r\n")
        check("of a request it is refused", got.startswith(b"HTTP/1.1 400") and b"bad-chunk" in got and not place.origin.heads, got)
        check("the connection ends", got.count(b"HTTP/1.1") == 1, got)


@test
def a_slow_client_of_something_stale():
    with Place() as place:
        body = b"x" * (1 << 24)
        place.origin.answers = lambda head: b'HTTP/1.1 200 OK\r\nCache-Control: max-age=0\r\nETag: "1"\r\nContent-Length: %d\r\n\r\n' % len(body) + body
        place.ask()
        with socket.create_connection(("127.0.0.1", place.port), 10) as slow:
            slow.sendall(b"GET /a HTTP/1.1\r\nHost: a.example\r\nCache-Control: max-stale=100\r\n\r\n")
            check("it is answered stale", b"hit" in slow.recv(1000), place.origin.heads)
            time.sleep(0.3)
            place.origin.answers = lambda head: FRESH
            began = time.time()
            got = place.ask()
            check("another's fetch doesn't wait for it", got.endswith(b"page") and time.time() - began < 5, (time.time() - began, got[:300]))


@test
def a_fetch_meanwhile():
    with Place() as place:
        place.origin.answers = lambda head: b"HTTP/1.1 200 OK\r\nCache-Control: max-age=1, stale-while-revalidate=60\r\nContent-Length: 4\r\n\r\npage"
        place.ask()
        time.sleep(2.1)
        got = place.ask(lines='If-None-Match: "x"\r\nRange: bytes=0-1\r\n')
        check("what is stale answers", b"hit" in got, got)
        time.sleep(0.5)
        sent = place.origin.heads[-1].lower()
        check("it is fetched without the client's conditions", len(place.origin.heads) == 2 and b"if-none-match" not in sent and b"range" not in sent, sent)


@test
def why_it_was_fetched():
    with Place() as place:
        place.ask()
        got = place.ask(lines="Cache-Control: no-cache\r\n")
        check("since the request says so", b"fwd=request" in got, got)


@test
def chunks_of_a_byte():
    with Place() as place:
        body = b"1\r\na\r\n" * 50000
        place.origin.answers = lambda head: b"HTTP/1.1 200 OK\r\nCache-Control: max-age=60\r\nTransfer-Encoding: chunked\r\n\r\n" + body + b"0\r\n\r\n"
        got = place.raw(b"GET /a HTTP/1.0\r\nHost: a.example\r\n\r\n", 20)
        check("each is there", got.count(b"a" * 50000) == 1, got[-100:])


@test
def cookie_through_a_304_with_an_eviction():
    with Place("max_bytes=40000") as place:
        big = b"HTTP/1.1 200 OK\r\nCache-Control: max-age=60\r\nContent-Length: 2000\r\n\r\n" + b"x" * 2000

        def slowly(head):
            if head.startswith(b"GET /big"):
                return big
            if b"if-none-match" in head.lower():
                time.sleep(1.5)
            return confirms_with_cookie(head)

        place.origin.answers = slowly
        place.ask()
        asked = threading.Thread(target=place.ask)
        asked.start()
        time.sleep(0.2)
        for i in range(24):
            place.raw(f"GET /big{i} HTTP/1.1\r\nHost: a.example\r\nConnection: close\r\n\r\n".encode(), 0.1)
        asked.join()
        got = place.ask()
        check("nobody is served a stored cookie", b"hit" not in got, got)
        hits = sum(b"hit" in place.raw(f"GET /big{i} HTTP/1.1\r\nHost: a.example\r\nConnection: close\r\n\r\n".encode(), 0.1) for i in range(24))
        check("something was evicted", hits < 24, hits)


@test
def methods_in_other_letters():
    for method in ("gEt", "hEAD"):
        with Place() as place:
            place.origin.answers = lambda head: FRESH if head.startswith(b"GET") else b"HTTP/1.1 200 OK\r\nCache-Control: max-age=60\r\nContent-Length: 6\r\n\r\npoison"
            place.ask(method=method)
            got = place.ask()
            check(f"{method} fills nothing", got.endswith(b"page") and len(place.origin.heads) == 2, got)
            place.ask(method=method)
            check(f"{method} reads nothing", len(place.origin.heads) == 3, place.origin.heads)


@test
def error_for_an_odd_request():
    with Place() as place:
        place.origin.answers = lambda head: FRESH if b"Range" not in head and b"X-Odd" not in head else b"HTTP/1.1 400 Bad\r\nContent-Length: 3\r\n\r\nbad"
        place.ask(lines="X-Odd: 1\r\n")
        got = place.ask()
        check("the error isn't stored", got.endswith(b"page"), got)


@test
def head_out_of_step():
    with Place() as place:
        place.origin.answers = lambda head: b"HTTP/1.1 200 OK\r\nContent-Length: 46\r\nCache-Control: no-store\r\n\r\nHTTP/1.1 200 OK\r\nX-Evil: 1\r\nContent-Length: 4\r\n"
        got = place.raw(b"HEAD /a HTTP/1.1\r\nHost: a.example\r\n\r\nGET /b HTTP/1.1\r\nHost: a.example\r\nConnection: close\r\n\r\n")
        check("an answer each", got.count(b"Cache-Status") == 2 and not got.partition(b"\r\n\r\n")[2].startswith(b"HTTP/1.1 200 OK\r\nX-Evil"), got)


@test
def unasked_304_out_of_step():
    with Place() as place:
        place.origin.answers = lambda head: b"HTTP/1.1 304 Not Modified\r\nContent-Length: 4\r\n\r\nevil"
        got = place.raw(b"GET /a HTTP/1.1\r\nHost: a.example\r\n\r\nGET /b HTTP/1.1\r\nHost: a.example\r\nConnection: close\r\n\r\n")
        # (nobody asked for it: it is no answer)
        check("no byte behind a 304", b"evil" not in got and got.count(b"HTTP/1.1 502") == 2, got)


def refused(name, data, reason):
    with Place() as place:
        got = place.raw(data)
        check(f"{name} is refused", got.startswith(b"HTTP/1.1 400") and reason in got and not place.origin.heads, got)
        check("the connection ends", got.count(b"HTTP/1.1") == 1, got)


@test
def blank_before_a_colon():
    refused("a blank", b"POST / HTTP/1.1\r\nHost: a.example\r\nContent-Length : 5\r\n\r\nGET /x HTTP/1.1\r\n\r\n", b"blank-before-colon")


@test
def folded_line():
    refused("a fold", b"GET / HTTP/1.1\r\nHost: a.example\r\nX: a\r\n b\r\n\r\n", b"folded")


@test
def bare_line_feed():
    refused("a bare LF", b"GET / HTTP/1.1\r\nHost: a.example\nX: a\r\n\r\n", b"bare-line-end")
    with Place() as place:
        place.origin.answers = lambda head: b"HTTP/1.1 200 OK\nCache-Control: private, max-age=60\nContent-Length: 4\n\npage"
        place.ask(), place.ask()
        check("no line of a response is dropped", len(place.origin.heads) == 2, place.origin.heads)


@test
def two_lengths():
    refused("two lengths", b"POST / HTTP/1.1\r\nHost: a.example\r\nContent-Length: 4\r\nContent-Length: 5\r\n\r\nabcde", b"bad-length")
    with Place() as place:
        place.origin.answers = lambda head: b"HTTP/1.1 200 OK\r\nContent-Length: 4\r\nContent-Length: 5\r\n\r\npages"
        got = place.ask()
        check("a response's too, by its name", got.startswith(b"HTTP/1.1 502") and b"bad-length" in got, got)


@test
def connection_names_cache_control():
    with Place() as place:
        place.origin.answers = lambda head: b"HTTP/1.1 200 OK\r\nCache-Control: private, max-age=60\r\nConnection: cache-control\r\nContent-Length: 4\r\n\r\npage"
        place.ask(), place.ask()
        check("private holds", len(place.origin.heads) == 2, place.origin.heads)


@test
def private_lists_vary():
    with Place() as place:
        place.origin.answers = lambda head: b'HTTP/1.1 200 OK\r\nCache-Control: max-age=60, private="vary"\r\nVary: Cookie\r\nContent-Length: 4\r\n\r\npage'
        place.ask(lines="Cookie: a\r\n"), place.ask(lines="Cookie: b\r\n")
        check("it isn't shared", len(place.origin.heads) == 2, place.origin.heads)


@test
def age_after_a_304():
    with Place() as place:

        def aged(head):
            if b"if-none-match" in head.lower():
                return b'HTTP/1.1 304 Not Modified\r\nETag: "1"\r\nCache-Control: max-age=60\r\nAge: 58\r\n\r\n'
            return STALE

        place.origin.answers = aged
        place.ask(), place.ask()
        got = place.ask()
        check("Age counts on", b"Age: 5" in got and len(place.origin.heads) == 2, got)
        time.sleep(2.2)
        place.ask()
        check("and ends its freshness", len(place.origin.heads) == 3, place.origin.heads)


@test
def x_forwarded_host():
    with Place("settings=drop: x-forwarded-host") as place:
        place.ask(lines="X-Forwarded-Host: evil\r\n")
        check("it doesn't reach the origin", b"evil" not in place.origin.heads[0], place.origin.heads)


UPLOAD = b"ab\r\n--cache-tier-part\r\nContent-Type: text/html\r\n\r\n<script>"


@test
def a_boundary_that_a_stranger_writes():
    page = b"HTTP/1.1 200 OK\r\nCache-Control: max-age=60\r\nContent-Length: %d\r\n\r\n%b" % (len(UPLOAD), UPLOAD)
    with Place() as place:
        place.origin.answers = lambda head: page
        place.ask()
        # (the gateway has a secret of its own)
        parts = [place.ask(lines="Range: bytes=0-1,4-40\r\n") for _ in range(2)]
        marks = [it.partition(b"boundary=")[2][:32] for it in parts]
        check("they are two", parts[0].startswith(b"HTTP/1.1 206 ") and parts[0].count(b"\r\n--" + marks[0]) == 3, parts[0])
        check("and nobody knows what stands between", marks[0] != marks[1] and marks[0].strip(b"0123456789abcdef") == b"", marks)


@test
def a_range_of_what_is_not_stored():
    with Place() as place:
        place.origin.answers = lambda head: b'HTTP/1.1 200 OK\r\nCache-Control: no-store\r\nETag: "1"\r\nContent-Length: 1000\r\n\r\n' + b"abcde" * 200
        got = place.ask(lines="Range: bytes=1-3\r\n")
        check("one part is sent", got.startswith(b"HTTP/1.1 206 ") and b"Content-Range: bytes 1-3/1000\r\n" in got and got.endswith(b"\r\n\r\nbcd"), got)
        got = place.ask("/b", lines="Range: bytes=5000-\r\n")
        check("none lies in the body", got.startswith(b"HTTP/1.1 416 ") and b"Content-Range: bytes */1000\r\n" in got, got)
        got = place.ask("/c", lines="Range: bytes=0-0,2-2\r\n")
        check("several are the whole", got.startswith(b"HTTP/1.1 200 ") and got.endswith(b"abcde" * 200), got)
        got = place.ask("/d", lines='If-None-Match: "1"\r\n')
        check("the client has it", got.startswith(b"HTTP/1.1 304 ") and got.endswith(b"\r\n\r\n"), got)


@test
def a_mirror_of_a_path():
    with Place("settings=origin-host: origin.example;origin-prefix: /app") as place:
        place.ask("/a"), place.ask("/b")
        head = place.origin.heads[0].decode("latin-1")
        check("the origin sees its own names", head.startswith("GET /app/a HTTP/1.1\r\nHost: origin.example\r\n"), head)
        place.origin.answers = lambda head: b"HTTP/1.1 201 x\r\nLocation: https://origin.example/app/b\r\nContent-Length: 0\r\n\r\n" if head.startswith(b"POST") else FRESH
        place.ask("/c", "POST", "Content-Length: 0\r\n")
        place.ask("/b")
        check("and what it names is purged here", place.origin.heads[-1].startswith(b"GET /app/b "), place.origin.heads)


@test
def phrases():
    with Place() as place:
        for code, phrase in ((201, b"Created"), (303, b"See Other"), (308, b"Permanent Redirect"), (403, b"Forbidden"), (429, b"Too Many Requests"), (499, b"Status")):
            place.origin.answers = lambda head, code=code: b"HTTP/1.1 %d x\r\nCache-Control: no-store\r\nContent-Length: 0\r\n\r\n" % code
            got = place.ask()
            check("the phrase", got.startswith(b"HTTP/1.1 %d %b\r\n" % (code, phrase)), got)


def answered(start, *lines):
    return "\r\n".join([f"HTTP/1.1 {start}", *lines, "Content-Length: 3", "", "bad"]).encode()


PAGE = b'HTTP/1.1 200 OK\r\nCache-Control: max-age=60\r\nETag: "1"\r\nContent-Length: 4\r\n\r\npage'
SHORT = PAGE.replace(b"max-age=60", b"max-age=1, stale-while-revalidate=60")
# What a stranger's odd request may make an origin answer, by the path.
ATTACKS = {
    "/400": answered("400 Bad Request"),
    "/400-for-a-while": answered("400 Bad Request", "Cache-Control: max-age=60"),
    "/403": answered("403 Forbidden"),
    "/406": answered("406 Not Acceptable"),
    "/416": answered("416 Range Not Satisfiable", "Content-Range: bytes */4"),
    "/429": answered("429 Too Many Requests", "Retry-After: 5"),
    "/503": answered("503 Service Unavailable"),
    "/503-for-a-while": answered("503 Service Unavailable", "Cache-Control: max-age=60"),
    "/private": answered("200 OK", "Cache-Control: private, max-age=60"),
    "/no-store": answered("200 OK", "Cache-Control: no-store"),
    "/another-tag": b'HTTP/1.1 304 Not Modified\r\nETag: "9"\r\n\r\n',
    "/another-vary": b'HTTP/1.1 304 Not Modified\r\nETag: "1"\r\nVary: Cookie\r\n\r\n',
}
# Of lifetime 0, and to be kept for its tag: that replaces nothing fresh.
STALE_AT_ONCE = {"/stale-at-once": answered("200 OK", "Cache-Control: max-age=0", 'ETag: "2"')}


def attacks(head):
    """What the origin answers to odd requests; a 304 only where it is asked by a tag."""
    path = head.split(b" ")[1].decode()
    answer = {**ATTACKS, **STALE_AT_ONCE}[path]
    return answer if b" 304 " not in answer or b"if-none-match" in head.lower() else ATTACKS["/503"]


def stays(place, path, how):
    asked = len(place.origin.heads)
    got = place.raw(f"GET {path} HTTP/1.1\r\nHost: a.example\r\nConnection: close\r\n\r\n".encode(), 0.2)
    check(f"{path}: {how}", got.startswith(b"HTTP/1.1 200") and got.endswith(b"page") and b"; hit" in got, got)
    return len(place.origin.heads) - asked


@test
def nobody_empties_what_is_fresh_by_a_reload():
    for options in ((), ("fill_on_range=False",)):
        with Place(*options) as place:
            place.origin.answers = lambda head: attacks(head) if b"X-Odd" in head else PAGE
            for path in {**ATTACKS, **STALE_AT_ONCE}:
                place.ask(path)
                got = place.ask(path, lines="Cache-Control: no-cache\r\nRange: bytes=9-\r\nX-Odd: 1\r\n")
                check(f"{path}: who asked gets what came", b"page" not in got or b" 304 " in attacks(b"GET %b " % path.encode()), got)
                check(f"{path}: and nobody else", stays(place, path, "it still answers") == 0, place.origin.heads)


@test
def nobody_empties_what_is_fresh_by_a_head():
    with Place("fill_on_head=False") as place:
        place.origin.answers = lambda head: PAGE if head.startswith(b"GET") else PAGE.replace(b'"1"', b'"2"').replace(b"page", b"")
        place.ask()
        place.ask(method="HEAD", lines="Cache-Control: no-cache\r\n")
        check("it is asked anew", len(place.origin.heads) == 2, place.origin.heads)
        stays(place, "/a", "it still answers")


@test
def nobody_empties_what_is_good_in_the_background():
    with Place() as place:
        place.origin.answers = lambda head: SHORT
        for path in ATTACKS:
            place.raw(f"GET {path} HTTP/1.1\r\nHost: a.example\r\nConnection: close\r\n\r\n".encode(), 0.1)
        time.sleep(2.1)
        place.origin.answers = attacks
        for path in ATTACKS:
            stays(place, path, "it answers while it is fetched anew")
        ends = time.time() + 20  # fetches that nobody waits for take as long as the host lets them
        while len(place.origin.heads) < 2 * len(ATTACKS) and time.time() < ends:
            time.sleep(0.1)
        check("each was fetched anew", len(place.origin.heads) >= 2 * len(ATTACKS), len(place.origin.heads))
        for path in ATTACKS:
            stays(place, path, "whatever came")


@test
def what_is_gone_goes():
    with Place() as place:
        place.origin.answers = lambda head: PAGE
        place.ask()
        place.origin.answers = lambda head: answered("404 Not Found")
        got = place.ask(lines="Cache-Control: no-cache\r\n")
        check("a reload finds it gone", got.startswith(b"HTTP/1.1 404"), got)
        got = place.ask()
        check("so does who comes next", got.startswith(b"HTTP/1.1 404") and len(place.origin.heads) == 3, got)


@test
def an_error_that_an_odd_request_causes():
    with Place() as place:
        for status in ("400 Bad Request", "405 Method Not Allowed", "406 Not Acceptable", "416 Range Not Satisfiable", "429 Too Many Requests", "431 Too Large"):
            place.origin.answers = lambda head: answered(status, "Cache-Control: max-age=60") if b"X-Odd" in head else PAGE
            path = f"/{status[:3]}"
            got = place.ask(path, lines="X-Odd: 1\r\n")
            check(f"{status} isn't stored, whatever it says", b"never-store" in got, got)
            got = place.ask(path)
            check(f"{status}: the next one gets the page", got.endswith(b"page"), got)
        place.origin.answers = lambda head: answered("400 Bad Request", "CDN-Cache-Control: max-age=60")
        place.ask("/asked-for")
        stored = place.ask("/asked-for")
        check("it is, where a targeted field says so", b"; hit" in stored, stored)
    with Place("settings=never-store:") as place:
        place.origin.answers = lambda head: answered("400 Bad Request", "Cache-Control: max-age=60")
        place.ask()
        stored = place.ask()
        check("or the operator", b"; hit" in stored, stored)


@test
def a_field_of_nine_thousand_bytes():
    with Place() as place:
        got = place.ask(lines=f"X-Odd: {'a' * 9000}\r\n")
        check("it is refused", got.startswith(b"HTTP/1.1 431") and b"field-too-long" in got and not place.origin.heads, got)
    with Place("max_field_bytes=10000") as place:
        got = place.ask(lines=f"X-Odd: {'a' * 9000}\r\n")
        check("unless the operator lets it", got.endswith(b"page"), got)


@test
def conditional_misses():
    with Place() as place:
        place.origin.answers = lambda head: PAGE
        got = [place.raw(b'GET /a HTTP/1.1\r\nHost: a.example\r\nIf-None-Match: "1"\r\nConnection: close\r\n\r\n', 0.1) for _ in range(10)]
        check("each is answered 304", all(it.startswith(b"HTTP/1.1 304") for it in got), got)
        check("by one fetch, without the client's condition", len(place.origin.heads) == 1 and b"if-none-match" not in place.origin.heads[0].lower(), place.origin.heads)
    with Place("fill_on_range=False") as place:
        place.ask(lines='Range: bytes=0-1\r\nIf-Range: "1"\r\n')
        sent = place.origin.heads[0].lower()
        check("If-Range goes where Range goes", b"if-range" in sent and b"\r\nrange" in sent, sent)


@test
def what_is_dropped_counts_for_nothing():
    with Place("settings=drop: cookie;drop: authorization") as place:
        place.origin.answers = lambda head: PAGE.replace(b"ETag", b"Vary: Cookie\r\nETag")
        for i in range(5):
            got = place.ask(lines=f"Cookie: id={i}\r\nAuthorization: Basic {i}\r\n")
        check("one fetch for all cookies and all users", len(place.origin.heads) == 1 and b"; hit" in got, (place.origin.heads, got))
        check("which the origin never sees", b"cookie" not in place.origin.heads[0].lower() and b"authorization" not in place.origin.heads[0].lower(), place.origin.heads)


@test
def a_dropped_length_is_no_smuggling():
    with Place("settings=drop: content-length;drop: transfer-encoding;drop: host;drop: connection;drop: expect;drop: te") as place:
        got = place.raw(b"POST /a HTTP/1.1\r\nHost: a.example\r\nContent-Length: 26\r\nConnection: close\r\n\r\nGET /evil HTTP/1.1\r\nX: y\r\n")
        check("a body is a body", got.count(b"HTTP/1.1 200") == 1 and len(place.origin.heads) == 1 and b"Content-Length: 26" in place.origin.heads[0], (got, place.origin.heads))
        got = place.raw(b"POST /a HTTP/1.1\r\nHost: a.example\r\nExpect: 100-continue\r\nContent-Length: 1\r\nConnection: close\r\n\r\nx")
        check("Expect is heeded", got.startswith(b"HTTP/1.1 100"), got)


@test
def vary_by_what_the_proxy_writes():
    for options, name in ((("add_x_forwarded_for=True",), b"X-Forwarded-For"), ((), b"Via"), ((), b"TE")):
        with Place(*options) as place:
            place.origin.answers = lambda head: PAGE.replace(b"ETag", b"Vary: " + name + b"\r\nETag")
            got = [place.ask(), place.ask()]
            check(f"by {name.decode()} nothing is stored", b"vary-any" in got[0] and len(place.origin.heads) == 2, got)
            check("nor the next one", b"predicted" in got[1], got)
    with Place() as place:
        place.origin.answers = lambda head: PAGE.replace(b"ETag", b"Vary: Host\r\nETag")
        place.ask()
        got = place.ask()
        check("Host is in the key", b"; hit" in got and len(place.origin.heads) == 1, got)


BY_ENCODING = b"HTTP/1.1 200 OK\r\nCache-Control: max-age=600\r\nVary: Accept-Encoding\r\nContent-Length: 4\r\n\r\npage"
BY_COOKIE = b"HTTP/1.1 404 Not Found\r\nCache-Control: max-age=1\r\nVary: Cookie\r\nContent-Length: 4\r\n\r\ngone"


def hits(place, count, first=0):
    """How many of so many requests under other cookies are hits."""
    asks = "GET /a HTTP/1.1\r\nHost: a.example\r\nCookie: id={}\r\nAccept-Encoding: gzip\r\nConnection: close\r\n\r\n"
    return sum(b"; hit" in place.raw(asks.format(i).encode(), 0.05) for i in range(first, first + count))


@test
def an_odd_set_of_vary():
    with Place() as place:
        place.origin.answers = lambda head: BY_COOKIE if b"X-Odd" in head else BY_ENCODING
        hits(place, 1)
        check("others' cookies don't count", hits(place, 5, 1) == 5, place.origin.heads)
        place.ask(lines="Accept-Encoding: gzip\r\nCache-Control: no-cache\r\nX-Odd: 1\r\n")
        time.sleep(1.1)
        hits(place, 1, 50)
        check("nor do they once an odd 404 varied by them", hits(place, 40, 100) == 40, len(place.origin.heads))


@test
def an_odd_set_of_vary_first():
    with Place() as place:
        place.origin.answers = lambda head: BY_COOKIE
        place.ask(lines="Accept-Encoding: gzip\r\n")
        place.origin.answers = lambda head: BY_ENCODING
        time.sleep(1.1)
        hits(place, 1)
        check("20 other cookies find the page", hits(place, 20, 1) == 20, len(place.origin.heads))


def rounds_by_turns(place, sets, rounds):
    """How many hits each round has, in which each of so many clients sends a field of its own, by which its answer varies."""
    page = lambda head: BY_ENCODING.replace(b"Accept-Encoding", next(b"X-%d" % i for i in range(sets) if b"\r\nX-%d:" % i in head))
    place.origin.answers = page
    return [sum(b"; hit" in place.ask(lines=f"X-{i}: 1\r\n") for i in range(sets)) for _ in range(rounds)]


@test
def five_sets_of_vary_in_turn():
    with Place() as place:
        found = rounds_by_turns(place, 4, 3)
        check("four sets of Vary have their places", found == [0, 4, 4], found)
    with Place() as place:
        found = rounds_by_turns(place, 5, 4)
        check("a page that sends five in turn finds nothing", found == [0, 0, 0, 0], found)


@test
def a_purge_takes_all_variants():
    with Place() as place:
        place.origin.answers = lambda head: BY_COOKIE.replace(b"404 Not Found", b"200 OK").replace(b"max-age=1", b"max-age=600") if b"X-Odd" in head else BY_ENCODING
        lines = ("Accept-Encoding: gzip\r\n", "Accept-Encoding: br\r\n", "Cookie: id=1\r\nX-Odd: 1\r\nCache-Control: no-cache\r\n")
        [place.ask(lines=it) for it in lines]
        check("each is stored", all(b"; hit" in place.ask(lines=it.partition("X-Odd")[0]) for it in lines), place.origin.heads)
        place.ask(method="POST", lines="Content-Length: 0\r\n")
        asked = len(place.origin.heads)
        got = [place.ask(lines=it.partition("X-Odd")[0]) for it in lines]
        check("nothing of before is found again", not any(b"; hit" in it for it in got[:2]) and len(place.origin.heads) >= asked + 2, got)
        check("the list is gone", b"fwd=uri-miss" in got[0], got[0])


@test
def a_304_of_another_set():
    with Place() as place:
        tagged = b'HTTP/1.1 200 OK\r\nCache-Control: max-age=0\r\nETag: "1"\r\nVary: Accept-Encoding\r\nContent-Length: 4\r\n\r\npage'
        place.origin.answers = lambda head: b'HTTP/1.1 304 Not Modified\r\nETag: "1"\r\nCache-Control: max-age=60\r\nVary: Cookie\r\n\r\n' if b"if-none-match" in head.lower() else tagged
        place.ask()
        got = place.ask()
        check("who asked gets the page", got.startswith(b"HTTP/1.1 200") and got.endswith(b"page"), got)
        check("nothing was renewed", b"; hit" not in place.ask() and len(place.origin.heads) == 3, place.origin.heads)
        check("what it was about is gone", b"if-none-match" not in place.origin.heads[2].lower(), place.origin.heads)


@test
def who_waits_finds_another_set():
    with Place() as place:
        place.origin.answers = lambda head: BY_ENCODING.replace(b"max-age=600", b"max-age=1")
        hits(place, 1)
        time.sleep(1.2)

        def slowly(_):
            time.sleep(0.6)
            return BY_ENCODING.replace(b"Accept-Encoding", b"X-New")

        place.origin.answers, got = slowly, []
        clients = [threading.Thread(target=lambda: got.append(place.ask(lines="Accept-Encoding: gzip\r\n"))) for _ in range(5)]
        [it.start() for it in clients], [it.join() for it in clients]
        check("all get the page", len(got) == 5 and all(it.endswith(b"page") for it in got), got)
        check("by one fetch", len(place.origin.heads) == 2, place.origin.heads)


def asked_at_once(place, count):
    """What so many clients get that ask for one page at once."""
    got = []
    clients = [threading.Thread(target=lambda: got.append(place.ask())) for _ in range(count)]
    [it.start() for it in clients], [it.join() for it in clients]
    return got


@test
def forty_clients_of_a_private_page():
    with Place() as place:
        private = b"HTTP/1.1 200 OK\r\nCache-Control: private\r\nContent-Length: 4\r\n\r\npage"
        fetches, rounds = itertools.count(), [threading.Barrier(39), threading.Barrier(40)]

        def together(_):
            # the first comes alone; of each later round all must have come before one is answered
            number = next(fetches)
            try:
                rounds[number // 40].wait(4) if number else time.sleep(1)
            except threading.BrokenBarrierError:
                return answered("500 Internal Server Error")
            return private

        place.origin.answers = together
        got = asked_at_once(place, 40)
        check("two rounds: who waits goes on at once", len(got) == 40 and all(it.endswith(b"page") for it in got), got)
        got = asked_at_once(place, 40)
        check("then one: nobody waits for what won't be stored", len(got) == 40 and all(it.endswith(b"page") for it in got), got)
        place.origin.answers = lambda head: FRESH
        got = [place.ask() for _ in range(3)]
        check("what can be stored after all is", b"; hit" in got[-1], got)


@test
def forty_clients_of_a_page_whose_fetch_fails():
    with Place() as place:
        fetches = itertools.count()

        def fails_once(_):
            number = next(fetches)
            time.sleep(0 if number else 1)
            return FRESH if number else b""

        place.origin.answers = fails_once
        got = asked_at_once(place, 40)
        # (those who waited are told of its failure)
        check("one of the others fetches for all", len(got) == 40 and len(place.origin.heads) <= 2, len(place.origin.heads))


@test
def a_page_without_vary_beside_one_with():
    with Place() as place:
        place.origin.answers = lambda head: BY_ENCODING
        hits(place, 1)
        place.origin.answers = lambda head: BY_ENCODING.replace(b"Vary: Accept-Encoding\r\n", b"").replace(b"page", b"bare")
        place.ask(lines="Cache-Control: no-cache\r\nAccept-Encoding: br\r\n")
        got = place.ask(lines="Accept-Encoding: zstd\r\n")
        check("it answers whoever asks", b"; hit" in got and got.endswith(b"bare"), got)


@test
def a_list_is_compared_as_a_list_and_nothing_else():
    for name, alike, fetches in (("Accept-Encoding", ("gzip, br", "gzip,br", " gzip ,br"), 1), ("Cookie", ("x=a, b", "x=a,b"), 2), ("User-Agent", ("a, b", "a,b"), 2)):
        with Place() as place:
            place.origin.answers = lambda head: PAGE.replace(b"ETag", b"Vary: %b\r\nETag" % name.encode())
            for value in alike:
                place.ask(lines=f"{name}: {value}\r\n")
            check(f"{name}: so many fetches", len(place.origin.heads) == fetches, place.origin.heads)


@test
def a_304_by_another_moment_of_change():
    then, later = "Mon, 01 Jan 2024 00:00:00 GMT", "Tue, 02 Jan 2024 00:00:00 GMT"
    with Place() as place:
        stale = STALE.replace(b"ETag", f"Last-Modified: {then}\r\nETag".encode())
        other = f"HTTP/1.1 304 Not Modified\r\nDate: {'Wed, 03 Jan 2024 00:00:00 GMT'}\r\nLast-Modified: {later}\r\nCache-Control: max-age=60\r\n\r\n".encode()
        place.origin.answers = lambda head: other if b"if-none-match" in head.lower() else stale if len(place.origin.heads) == 1 else PAGE.replace(b"page", b"anew")
        place.ask()
        got = place.ask()
        check("it is about another response: that is fetched", got.endswith(b"anew") and len(place.origin.heads) == 3, (got, place.origin.heads))


@test
def only_if_cached_never_asks_the_origin():
    with Place() as place:
        for method, lines in (("GET", ""), ("GET", "Cache-Control: no-store\r\n"), ("GET", "Authorization: Basic x\r\n"), ("POST", "Content-Length: 0\r\n"), ("DELETE", "")):
            got = place.ask(method=method, lines=f"Cache-Control: only-if-cached\r\n{lines}")
            check(f"{method} {lines}: 504", got.startswith(b"HTTP/1.1 504 "), got)
        check("nothing was asked", not place.origin.heads, place.origin.heads)
    with Place("honor_request_directives=False") as place:
        got = place.ask(lines="Cache-Control: only-if-cached\r\n")
        check("where requests aren't heeded, it is", got.endswith(b"page"), got)


@test
def minor_versions_past_one():
    with Place() as place:
        place.origin.answers = lambda head: FRESH.replace(b"HTTP/1.1", b"HTTP/1.5")
        got = place.raw(b"GET /a HTTP/1.2\r\nHost: a.example\r\nConnection: close\r\n\r\n")
        check("both are read as 1.1", got.startswith(b"HTTP/1.1 200 ") and got.endswith(b"page"), got)
        head = place.origin.heads[0]
        check("and handed on as 1.1", head.startswith(b"GET /a HTTP/1.1\r\n") and b"Via: 1.1 " in head, head)
        got = place.ask()
        check("which is stored", b"; hit" in got and b"via: 1.1 " in got.lower(), got)


@test
def several_dates():
    for first in (b"Mon, 01 Jan 2024 00:00:00 GMT", b"then"):
        with Place() as place:
            place.origin.answers = lambda head: PAGE.replace(b"ETag", b"Date: %b\r\nDate: Tue, 02 Jan 2024 00:00:00 GMT\r\nETag" % first)
            got = place.ask()
            check("one is handed on", got.lower().count(b"\r\ndate:") == 1 and b"02 Jan 2024" not in got, got)


@test
def a_targeted_lifetime_that_is_a_string():
    with Place() as place:
        place.origin.answers = lambda head: PAGE.replace(b"Cache-Control: max-age=60", b'CDN-Cache-Control: max-age="3600"')
        place.ask(), place.ask()
        check("it is none", len(place.origin.heads) == 2, place.origin.heads)


@test
def bytes_past_126_in_a_target():
    with Place() as place:
        for path in ("/\u00e4", "/a\x7f", "/a?b=\u20ac"):
            got = place.ask(path)
            check(f"{path!r} is refused", got.startswith(b"HTTP/1.1 400 ") and not place.origin.heads, got)


@test
def zeros_before_a_port():
    with Place() as place:
        for host in ("a.example", "a.example:80", "a.example:080", "a.example:00080"):
            got = place.raw(f"GET /a HTTP/1.1\r\nHost: {host}\r\nConnection: close\r\n\r\n".encode())
        check("one key for all", b"; hit" in got and len(place.origin.heads) == 1, (got, place.origin.heads))
        place.raw(b"GET /a HTTP/1.1\r\nHost: a.example:0081\r\nConnection: close\r\n\r\n")
        check("the origin sees none", b"\r\nHost: a.example:81\r\n" in place.origin.heads[1], place.origin.heads)


@test
def kept_connections_that_die_on_use():
    with Place() as place:
        own, all_are_open = threading.local(), threading.Barrier(4)

        def dies(head):
            if hasattr(own, "was_used"):
                raise OSError
            own.was_used = True
            if head.startswith(b"GET /first"):
                all_are_open.wait(10)
            return FRESH

        place.origin.answers, place.origin.keeps = dies, True
        threads = [threading.Thread(target=place.ask, args=(f"/first{i}",)) for i in range(4)]
        for it in threads:
            it.start()
        for it in threads:
            it.join()
        for path in ("/a", "/b", "/c", "/d"):
            got = place.ask(path)
            check("what is sent again goes on a new one", got.startswith(b"HTTP/1.1 200 ") and got.endswith(b"page"), (got, place.origin.heads))


def failure(of):
    """Why a test fails; none where it holds."""
    try:
        return of()
    except AssertionError as error:
        return error


def main(names):
    wrong = 0
    for name, of in TESTS.items():
        if names and name not in names:
            continue
        error = failure(of)
        wrong += bool(error)
        print(f"{name}: FAILS\n    {error}" if error else f"{name}: holds", flush=True)
    return int(wrong != 0)


if __name__ == "__main__":
    sys.exit(main(sys.argv[1:]))
