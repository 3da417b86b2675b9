"""Rows by hand: what attacks and bad days found, each with what it answers now."""

from .cases import rq
from .rows_of import CHUNKED, ERROR, LONG, N304, OK, PRIVATE, RELOAD, STALE, SWR, VARY, row, with_line

POST = rq("POST /a", "Content-Length: 9"), "POST 9 bytes"


def accepts(name):
    return rq("GET /a", f"Accept: {name}"), f"GET Accept: {name}"


@row
def b01(c):
    """who asks when the permit is past its age leads in that call"""
    c.start()
    c.t += 10
    c.start(), c.start()


@row
def b02(c):
    """a private page twice: the second is predicted; what may be stored is forgotten as that, and the next one is stored; after 120 s it is none"""
    c.start(), c.head(1, PRIVATE, "200 private"), c.body(1, b"page"), c.poll(1), c.start(), c.head(2, OK, "200 max-age=10"), c.body(2, b"page"), c.poll(2)
    c.start(), c.head(3, PRIVATE, "200 private"), c.body(3, b"page"), c.poll(3)
    c.t += 121
    c.start()


@row
def b03(c):
    """a writer that died: who follows is truncated, the next one leads"""
    c.start(), c.head(1, CHUNKED, "200 chunked"), c.start(), c.body(1, b"2\r\npa\r\n"), c.closed(1, "failed"), c.poll(2), c.poll(1), c.start()


@row
def b04(c):
    """an error over what is fresh: relayed, nothing removed, and never stored"""
    for status in ("400", "403", "429", "503"):
        answer = b"HTTP/1.1 %b X\r\nCache-Control: max-age=60\r\nContent-Length: 0\r\n\r\n" % status.encode()
        reloads(c, f"/{status}", answer, f"{status} max-age=60")


@row
def b05(c):
    """what replaces nothing good: private, no-store, and a lifetime of 0, to a reload; a 404 removes it"""
    for lines in ("private", "no-store", "max-age=0"):
        reloads(c, f"/{lines}", OK.replace(b"max-age=10", lines.encode()), f"200 {lines}")
    reloads(c, "/gone", b"HTTP/1.1 404 X\r\nCache-Control: no-store\r\nContent-Length: 0\r\n\r\n", "404 no-store")


def reloads(c, path, answer, label):
    """A client's reload of what is fresh, and who asks then."""
    c.fill(OK, request=rq(f"GET {path}"))
    x = c.start(rq(f"GET {path}", "Cache-Control: no-cache"), f"GET {path} no-cache").exchange
    c.head(x, answer, label), c.body(x, b"page"), c.poll(x), c.start(rq(f"GET {path}"))


@row
def b06(c):
    """two sets of Vary: each has its place, and what is newest counts"""
    c.start(*accepts("x")), c.head(1, VARY, "200 Vary: Accept"), c.body(1, b"page"), c.poll(1)
    c.t += 1
    c.start(rq("GET /a", "Accept: y", "Cookie: 1"), "GET Accept: y, Cookie: 1"), c.head(2, with_line(OK, b"Vary: Cookie"), "200 Vary: Cookie")
    c.body(2, b"cook"), c.poll(2), c.start(*accepts("x")), c.start(rq("GET /a", "Accept: x", "Cookie: 1"), "GET Accept: x, Cookie: 1")
    c.start(rq("GET /a", "Accept: z"), "GET Accept: z")


@row
def b07(c):
    """no Vary beside an index answers whoever asks; a 304 of another set freshens nothing"""
    c.fill(VARY.replace(b"max-age=10", b"max-age=1"), request=rq("GET /a", "Accept: x"))
    c.t += 2
    c.start(*accepts("y")), c.head(2, OK, "200 without Vary"), c.body(2, b"page"), c.poll(2), c.start(*accepts("z"))
    c.t += 20
    c.start(*accepts("x")), c.head(4, with_line(N304, b"Vary: Cookie"), "304 Vary: Cookie"), c.poll(4), c.start(*accepts("x"))


@row
def b08(c):
    """CLOSES: HTTP/1.0, Connection: close, close-delimited: not reusable"""
    for head in (OK.replace(b"HTTP/1.1", b"HTTP/1.0"), with_line(OK, b"Connection: close")):
        c.purge()
        x = c.start().exchange
        c.head(x, head, head.split(b"\r\n")[0].decode()), c.body(x, b"page"), c.poll(x)


@row
def b09(c):
    """40 clients of a private page: two rounds of fetches"""
    c.start(), c.start(), c.out("  .. 37 more"), [c.quiet_start() for _ in range(37)], c.start()
    c.head(1, PRIVATE, "200 private"), c.poll(2), c.poll(40)


@row
def b10(c):
    """REUSABLE only where the request went whole: a POST whose body is owed, by length and in chunks"""
    c.start(*POST), c.request(1, b"abc"), c.head(1, b"HTTP/1.1 200 OK\r\nContent-Length: 2\r\n\r\n", "200, 2 bytes"), c.body(1, b"ok"), c.poll(1)
    c.start(rq("POST /a", "Transfer-Encoding: chunked"), "POST chunked"), c.request(2, b"3\r\nabc\r\n")
    c.head(2, b"HTTP/1.1 403 No\r\nContent-Length: 0\r\n\r\n", "403"), c.request(2, b"3\r\nabc\r\n0\r\n\r\n"), c.poll(2)


@row(lock_age=10, lock_timeout=15)
def b11(c):
    """the whole wait is kept: once it is over one looks alone, and nothing spins"""
    c.start(), c.start(), c.start()
    c.t += 10
    c.poll(2), c.poll(3)
    c.t += 5
    c.poll(3)


@row
def b12(c):
    """who waits for another's permit isn't left beside a fresh page that somebody else stored"""
    c.start(), c.start(), c.start()
    c.t += 10
    c.poll(2), c.poll(3), c.head(1, LONG, "200 max-age=600"), c.poll(3), c.body(1, b"page"), c.poll(3)


@row
def b13(c):
    """a purge makes no herd: one leads anew, also of who asks after it"""
    c.start(), c.start(), c.start(), c.purge(), c.start(), c.poll(2), c.poll(3), c.head(1, OK, "200"), c.poll(1)


@row
def b14(c):
    """of two answers the one asked later stands: an earlier one that comes later is relayed"""
    c.fill(OK), c.start(*RELOAD)
    c.t += 5
    c.start(*RELOAD), c.head(3, OK.replace(b'"1"', b'"new"'), '200 "new"'), c.body(3, b"newv"), c.poll(3)
    c.head(2, OK.replace(b'"1"', b'"old"'), '200 "old"'), c.body(2, b"oldv"), c.poll(2), c.start()


@row
def b15(c):
    """one that is being stored is never found again once a later one begins; who follows it reads on"""
    c.start()
    c.t += 10
    c.start(), c.head(1, LONG.replace(b'"1"', b'"v1"'), '200 "v1"'), c.start(), c.body(1, b"v1"), c.head(2, LONG.replace(b'"1"', b'"v2"'), '200 "v2"')
    c.body(2, b"v2v2"), c.start(), c.body(1, b"__"), c.poll(3), c.poll(1), c.start()


@row
def b16(c):
    """an earlier answer removes and marks nothing that was asked later"""
    c.fill(STALE), c.start()
    c.t += 10
    c.start(), c.head(3, LONG.replace(b'"1"', b'"v2"'), '200 "v2"'), c.body(3, b"v2v2"), c.poll(3)
    c.head(2, b"HTTP/1.1 404 X\r\nContent-Length: 0\r\n\r\n", "404"), c.poll(2), c.start()


@row
def b17(c):
    """who waits for a fetch that fails shares its end: no herd"""
    for _ in range(4):
        c.start()
    c.closed(1, "failed"), c.poll(2), c.poll(3), c.closed(4), c.poll(4), c.poll(1)


@row
def b18(c):
    """a 5xx that is answered by what is stale: who waits too, where it may; who may not goes alone"""
    c.fill(STALE.replace(b"max-age=0", b"max-age=0, stale-if-error=60"))
    c.start(), c.start(), c.start(*RELOAD)
    c.head(2, ERROR, "503"), c.poll(3), c.poll(4), c.poll(2)


@row
def b19(c):
    """the origin says nothing: 504 at its moment, also for who waits; within a body it is truncated; a client that left doesn't keep it"""
    c.start(), c.start(rq("GET /b")), c.head(2, OK, "200, 4 bytes"), c.body(2, b"pa"), c.start(rq("GET /c")), c.leaves(3)
    c.t += 60
    c.poll(1), c.poll(2), c.poll(3)


@row
def b20(c):
    """a kept connection that ended unused: once more, where nothing can be done twice"""
    c.start(), c.closed(1, "unused"), c.closed(1, "unused"), c.poll(1)
    c.start(*POST), c.closed(2, "unused"), c.poll(2)
    c.start(rq("PUT /a", "Content-Length: 2"), "PUT 2 bytes"), c.request(3, b"o"), c.closed(3, "unused"), c.poll(3)


@row
def b21(c):
    """parts and conditions of what isn't stored: by a whole response the client's own are answered"""
    c.start(rq("GET /a", "Range: bytes=1-2"), "GET bytes=1-2"), c.head(1, PRIVATE, "200 private"), c.body(1, b"page"), c.poll(1)
    c.start(rq("GET /b", 'If-None-Match: "1"'), "GET /b If-None-Match"), c.head(2, PRIVATE, "200 private"), c.poll(2)
    c.start(rq("GET /c", "Range: bytes=9-"), "GET /c bytes=9-"), c.head(3, PRIVATE, "200 private"), c.poll(3)


@row
def b22(c):
    """a 503 behind stale-while-revalidate, and an origin that ends: what is stale stays"""
    c.fill(SWR)
    c.t += 5
    c.start(), c.head(2, ERROR, "503"), c.start(), c.closed(3), c.start()


@row
def b23(c):
    """a 304 to what was asked again without conditions is no answer"""
    c.fill(STALE), c.start(), c.head(2, N304.replace(b'"1"', b'"2"'), '304 "2"'), c.head(2, N304.replace(b'"1"', b'"2"'), '304 "2"'), c.poll(2)


@row(max_unread=3)
def b24(c):
    """what comes for nobody has a bound, unless half of it is there"""
    c.start(), c.head(1, OK.replace(b"Content-Length: 4", b"Content-Length: 20"), "200, 20 bytes"), c.leaves(1), c.body(1, b"page"), c.start()
    c.start(rq("GET /b")), c.head(3, OK, "200, 4 bytes"), c.leaves(3), c.body(3, b"pag"), c.body(3, b"e")


@row(max_bytes=40)
def b25(c):
    """bytes in flight in all have a bound: what would pass it is relayed"""
    c.start(), c.head(1, OK.replace(b"Content-Length: 4", b"Content-Length: 30"), "200, 30 bytes"), c.start(rq("GET /b"))


@row(max_relay_bytes=30)
def b26(c):
    """a client that leaves while its origin is BLOCKED by interim heads: CONTINUE"""
    c.start(), c.head(1, b"HTTP/1.1 103 X\r\nLink: </s>\r\n\r\n", "103"), c.head(1, OK, "200"), c.leaves(1), c.head(1, OK, "200")


@row
def b27(c):
    """the same of variants: an earlier answer that looked before there was an index"""
    c.start(*accepts("x"))
    c.t += 10
    c.start(*accepts("x")), c.head(2, VARY.replace(b'"1"', b'"new"'), '200 Vary: Accept, "new"'), c.body(2, b"newv"), c.poll(2)
    c.head(1, VARY.replace(b'"1"', b'"old"'), '200 Vary: Accept, "old"'), c.body(1, b"oldv"), c.poll(1), c.start(*accepts("x"))


@row
def b28(c):
    """an index over a page in flight: that one never takes its place"""
    c.start(*accepts("x"))
    c.t += 10
    c.start(*accepts("x")), c.head(1, OK, "200 without Vary"), c.body(1, b"pa"), c.head(2, VARY, "200 Vary: Accept"), c.body(2, b"newv"), c.poll(2)
    c.body(1, b"ge"), c.poll(1), c.start(*accepts("x"))


@row
def b29(c):
    """a 304 to what had no validator freshens nothing"""
    c.fill(SWR.replace(b'ETag: "1"\r\n', b""))
    c.t += 5
    c.start(), c.head(2, N304, "304"), c.start()


@row
def b30(c):
    """an answer that removes a variant: what was asked earlier for that isn't stored any more"""
    reload = rq("GET /a", "Accept: x", "Cache-Control: no-cache"), "GET Accept: x, no-cache"
    c.fill(VARY, request=rq("GET /a", "Accept: x")), c.start(*reload), c.start(*reload)
    c.head(3, b"HTTP/1.1 404 X\r\nContent-Length: 0\r\n\r\n", "404"), c.poll(3), c.head(2, VARY, "200 Vary: Accept"), c.body(2, b"page"), c.poll(2)
    c.start(*accepts("x"))


@row(options={"fill_on_conditional": False})
def b31(c):
    """where a client's own conditions go along, a 304 is for it alone"""
    c.fill(OK.replace(b'ETag: "1"\r\n', b""))
    c.t += 11
    c.start(rq("GET /a", 'If-None-Match: "9"'), 'GET If-None-Match: "9"')
    c.head(2, N304.replace(b'"1"', b'"9"'), '304 ETag "9"'), c.poll(2), c.start()


@row
def b32(c):
    """who reads on in what is stale and in flight holds no permit: the next one leads"""
    c.start(), c.head(1, CHUNKED.replace(b"max-age=10", b"max-age=1"), "200 chunked, max-age=1")
    c.t += 2
    c.start(rq("GET /a", "Cache-Control: max-stale"), "GET max-stale"), c.start()


@row
def b33(c):
    """what was predicted is said in the gateway's own Cache-Status: a field of the origin's that has the same words stays"""
    c.start(), c.head(1, PRIVATE, "200 private"), c.body(1, b"page"), c.poll(1), c.start()
    c.head(2, with_line(PRIVATE, b"X-Note: detail=unstored"), "200 private, X-Note: detail=unstored"), c.body(2, b"page"), c.poll(2)
