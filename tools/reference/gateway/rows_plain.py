"""Rows by hand: a gateway's way, from a hit to what is out of its phase."""

from .cases import rq
from .rows_of import CHUNKED, ERROR, N304, OK, PRIVATE, RELOAD, STALE, SWR, VARY, row, with_line


@row
def a01(c):
    """a miss, stored; a hit; a 304 to the client's own condition"""
    c.start(), c.head(1, OK, "200 max-age=10, 4 bytes"), c.body(1, b"page"), c.poll(1)
    c.start(), c.start(rq("GET /a", 'If-None-Match: "1"'), 'GET, If-None-Match: "1"')


@row
def a02(c):
    """two at once: the second waits, and follows the first's body"""
    c.start(), c.start(), c.head(1, OK, "200 max-age=10, 4 bytes"), c.poll(2), c.body(1, b"pa"), c.poll(2), c.body(1, b"ge"), c.poll(2), c.poll(1)


@row
def a03(c):
    """what isn't stored makes nobody wait in turn: who waited goes alone; who comes next is predicted"""
    c.start(), c.start(), c.head(1, PRIVATE, "200 private"), c.poll(2)
    c.start(rq("GET /a", 'If-None-Match: "9"', "Range: bytes=0-1"), "GET, If-None-Match, Range")


@row
def a04(c):
    """a permit past its age: one goes on, others wait for that"""
    c.start(), c.start(), c.start()
    c.t += 10
    c.poll(2), c.poll(3)


@row
def a05(c):
    """a body that breaks is nobody's"""
    c.start(), c.head(1, OK, "200, 4 bytes"), c.start(), c.body(1, b"pa"), c.poll(2), c.closed(1, "clean"), c.poll(1), c.poll(2), c.start()


@row
def a06(c):
    """a body until the end of the connection: a failure isn't its end"""
    c.start(), c.head(1, OK.replace(b"Content-Length: 4\r\n", b""), "200, close-delimited"), c.body(1, b"pa"), c.closed(1, "failed"), c.poll(1)


@row
def a07(c):
    """a purge while the origin thinks: the client is answered, nothing is stored; who waits leads anew at once"""
    c.start(), c.start(), c.purge(), c.poll(2), c.head(1, OK, "200 max-age=10"), c.body(1, b"page"), c.poll(1), c.start()


@row
def a08(c):
    """a purge while a body comes: its readers get all of it, the next one fetches"""
    c.start(), c.head(1, OK, "200, 4 bytes"), c.purge(), c.start(), c.body(1, b"page"), c.poll(1)


@row
def a09(c):
    """a 304 freshens; its cookie goes to who asked, and isn't stored"""
    c.fill(STALE), c.start(), c.head(2, N304, "304 max-age=10"), c.poll(2), c.start()
    c.t += 20
    c.start(), c.head(4, with_line(N304, b"Set-Cookie: s=1"), "304, Set-Cookie"), c.poll(4), c.start()


@row
def a10(c):
    """a 304 about another response: purged, since it isn't good, and asked again without conditions"""
    c.fill(STALE), c.start(), c.head(2, N304.replace(b'"1"', b'"2"'), '304 ETag "2"'), c.head(2, OK, "200, 4 bytes")


@row
def a11(c):
    """a 304 after a purge freshens nothing"""
    c.fill(STALE), c.start(), c.purge(), c.head(2, N304, "304"), c.poll(2), c.start()


@row
def a12(c):
    """two validations: the later one to come freshens nothing"""
    c.fill(OK), c.start(*RELOAD), c.start(*RELOAD), c.head(3, N304, "304"), c.head(2, N304, "304")


@row
def a12b(c):
    """the same, answered in their order: the second, asked before the first was answered, freshens nothing"""
    c.fill(OK), c.start(*RELOAD), c.start(*RELOAD), c.head(2, N304.replace(b"max-age=10", b"max-age=100"), "304 max-age=100")
    c.head(3, N304.replace(b"max-age=10", b"max-age=1"), "304 max-age=1")
    c.t += 20
    c.start()


@row
def a13(c):
    """stale while revalidate: answered at once, fetched behind by one; a 503 behind takes nothing away"""
    c.fill(SWR)
    c.t += 5
    c.start(), c.start(), c.head(2, ERROR, "503"), c.start(), c.head(4, N304, "304"), c.start()


@row
def a14(c):
    """behind, without a validator: asked without the client's conditions"""
    c.fill(SWR.replace(b'ETag: "1"\r\n', b""))
    c.t += 5
    c.start(rq("GET /a", "Range: bytes=0-1", 'If-None-Match: "x"'), "GET Range, If-None-Match")


@row
def a15(c):
    """stale if error, stale if down, and a reload that isn't spared"""
    c.fill(STALE.replace(b"max-age=0", b"max-age=0, stale-if-error=60")), c.start(), c.head(2, ERROR, "503"), c.poll(2)
    c.start(), c.closed(3, "timeout"), c.poll(3), c.start(*RELOAD), c.closed(4), c.poll(4), c.start(*RELOAD), c.closed(5, "timeout"), c.poll(5)


@row
def a16(c):
    """variants: an index, a second key; another variant is another fetch; a purge takes them all"""
    c.start(rq("GET /a", "Accept: x"), "GET Accept: x"), c.start(rq("GET /a", "Accept: y"), "GET Accept: y"), c.head(1, VARY, "200 Vary: Accept"), c.poll(2)
    c.body(1, b"page"), c.start(rq("GET /a", "Accept: x"), "GET Accept: x"), c.purge(), c.start(rq("GET /a", "Accept: x"), "GET Accept: x")


@row
def a17(c):
    """HEAD is filled as GET, and has no body; its client goes, the body comes and is stored"""
    c.start(rq("HEAD /a"), "HEAD /a"), c.head(1, OK, "200, 4 bytes"), c.poll(1), c.body(1, b"page"), c.start()


@row
def a18(c):
    """a range of what is fetched whole, in flight; several in flight: the whole; several of what is stored, the second part first"""
    c.start(rq("GET /a", "Range: bytes=2-3"), "GET bytes=2-3"), c.head(1, OK, "200, 4 bytes"), c.start(rq("GET /a", "Range: bytes=3-3,0-0"), "GET bytes=3-3,0-0")
    c.body(1, b"pag"), c.poll(1), c.body(1, b"e"), c.poll(1), c.poll(2), c.start(rq("GET /a", "Range: bytes=3-3,0-0"), "GET bytes=3-3,0-0")


@row
def a19(c):
    """a chunked body to 1.0 ends with the connection; trailers to whom takes them"""
    c.start(rq(v="1.0"), "GET 1.0"), c.start(rq("GET /b", "TE: trailers"), "GET /b, TE: trailers")
    for x in (1, 2):
        c.head(x, CHUNKED, "200 chunked"), c.body(x, b"4\r\npage\r\n0\r\nT: 1\r\n\r\n"), c.poll(x)


@row
def a20(c):
    """POST: its body goes on as it comes; what it changes is purged, also what flies; bytes behind a response: not reusable"""
    c.fill(OK), c.start(rq("POST /a", "Transfer-Encoding: chunked", "Expect: 100-continue"), "POST chunked, Expect")
    c.request(2, b"3\r\nab"), c.request(2, b"c\r\n0\r\n\r\n"), c.head(2, b"HTTP/1.1 200 OK\r\nLocation: /b\r\nContent-Length: 2\r\n\r\n", "200 Location: /b")
    c.body(2, b"okX"), c.poll(2), c.start()


@row
def a21(c):
    """a bad chunk of a request: 400, and nothing more goes to the origin"""
    c.start(rq("POST /a", "Transfer-Encoding: chunked"), "POST chunked"), c.request(1, b"zz\r\n"), c.poll(1)


@row
def a22(c):
    """an answer before the request's body is over: both connections end after it, and the head says so"""
    c.start(rq("POST /a", "Content-Length: 9"), "POST 9 bytes"), c.request(1, b"abc"), c.head(1, b"HTTP/1.1 403 X\r\nContent-Length: 0\r\n\r\n", "403"), c.poll(1)


@row
def a23(c):
    """interim heads go on, but 100, and none to 1.0; too many of them are no answer"""
    c.start(), c.head(1, b"HTTP/1.1 103 X\r\nLink: </s>\r\n\r\n", "103"), c.poll(1), c.head(1, b"HTTP/1.1 100 X\r\n\r\n", "100"), c.head(1, OK, "200")
    c.start(rq("GET /b"))
    for _ in range(17):
        c.head(2, b"HTTP/1.1 100 X\r\n\r\n", "100")
    c.poll(2)


@row
def a24(c):
    """a 304 that nobody asked for is 502; of its bytes none reaches the client"""
    c.start(rq("GET /a", 'If-None-Match: "9"'), 'GET If-None-Match: "9"'), c.head(1, b"HTTP/1.1 304 X\r\nContent-Length: 4\r\n\r\nevil", "304 + 'evil'"), c.poll(1)


@row
def a25(c):
    """a client goes: what is stored goes on, what is relayed stops; a waiter leaves nothing"""
    c.start(), c.start(), c.leaves(2), c.leaves(1), c.head(1, OK, "200"), c.body(1, b"page"), c.start()
    c.start(rq("GET /b")), c.head(4, OK.replace(b"max-age=10", b"no-store"), "200 no-store"), c.leaves(4)


@row
def a26(c):
    """Authorization: what nothing opens is passed by; only-if-cached: 504"""
    c.fill(OK), c.start(rq("GET /a", "Authorization: x"), "GET Authorization"), c.start(rq("GET /b", "Cache-Control: only-if-cached"), "GET /b only-if-cached")


@row
def a27(c):
    """no-cache of what is fresh: validated alone, beside no permit"""
    c.fill(OK), c.start(*RELOAD), c.start(), c.head(2, N304, "304"), c.poll(2)


@row(max_relay_bytes=200)
def a28(c):
    """what is relayed waits for its client: BLOCKED, and CONTINUE where that takes bytes"""
    c.start(), c.head(1, OK.replace(b"max-age=10", b"no-store"), "200 no-store"), c.body(1, b"page"), c.poll(1), c.body(1, b"page")


@row(max_body_bytes=3)
def a29(c):
    """a body longer than may be stored: said, or found out: it is read on in the tail, and nobody joins"""
    c.start(), c.head(1, OK, "200, 4 bytes"), c.body(1, b"page"), c.poll(1)
    c.start(rq("GET /b")), c.head(2, CHUNKED, "200 chunked"), c.body(2, b"2\r\npa\r\n"), c.start(rq("GET /b")), c.body(2, b"2\r\nge\r\n")
    c.start(rq("GET /b")), c.poll(2), c.poll(3), c.body(2, b"3\r\none\r\n0\r\n\r\n"), c.poll(2), c.poll(3), c.start(rq("GET /b"))


@row(max_body_bytes=3, max_tail=5)
def a29b(c):
    """the tail is bounded: BLOCKED while its own client lacks that much; who follows and is further behind is truncated"""
    c.start(), c.head(1, CHUNKED, "200 chunked"), c.body(1, b"2\r\npa\r\n"), c.start(), c.body(1, b"6\r\ngepage\r\n"), c.body(1, b"4\r\nmore\r\n")
    c.poll(1), c.body(1, b"4\r\nmore\r\n"), c.poll(1), c.body(1, b"4\r\nlast\r\n0\r\n\r\n"), c.poll(2), c.poll(1)


@row(max_body_bytes=3)
def a29c(c):
    """with its own client gone who follows is truncated"""
    c.start(), c.head(1, CHUNKED, "200 chunked"), c.body(1, b"2\r\npa\r\n"), c.start(), c.body(1, b"6\r\ngepage\r\n"), c.leaves(1), c.poll(2)


@row(max_exchanges=2)
def a30(c):
    """calls out of their phase change nothing; a refused head; too many"""
    c.start(), c.body(1, b"x"), c.request(1, b"x"), c.poll(7), c.head(7, OK, "200"), c.closed(1, "odd"), c.purge(b"http://h h/")
    c.start(b"GET /a HTTP/1.1\r\nHost : h\r\n\r\n", "a blank before a colon"), c.start(), c.start()


@row
def a31(c):
    """a fetch of its own index: who waited for it asks for the permit again, by the second key"""
    c.start(rq("GET /a", "Cookie: 1"), "GET Cookie: 1"), c.start(rq("GET /a", "Cookie: 2"), "GET Cookie: 2"), c.start(rq("GET /a", "Cookie: 2"), "GET Cookie: 2")
    c.head(1, with_line(OK, b"Vary: Cookie"), "200 Vary: Cookie"), c.poll(2), c.poll(3)


@row
def a32(c):
    """a purge of everything: nothing that was stored is found, what is stored later is"""
    c.fill(OK), c.fill(OK, request=rq("GET /b")), c.start(), c.purge_all()
    c.t += 1
    c.start(), c.start(), c.start(rq("GET /b", "Cache-Control: only-if-cached"), "GET /b only-if-cached")
    c.head(4, OK, "200 max-age=10"), c.poll(5), c.body(4, b"page"), c.poll(4), c.start()


@row
def a32b(c):
    """what was asked in that moment counts as asked before"""
    c.fill(OK), c.purge_all(), c.start(), c.start()
    c.t += 1
    c.head(2, OK, "200 max-age=10"), c.poll(3), c.start(), c.body(2, b"page"), c.poll(2), c.head(3, OK, "200 max-age=10"), c.body(3, b"page"), c.poll(3), c.start()


@row
def a33(c):
    """everything is purged while the origin thinks: the clients are answered, nothing is stored; who waits leads anew at once"""
    c.start(), c.start(), c.start(rq("GET /b")), c.purge_all(), c.poll(2), c.head(1, OK, "200 max-age=10"), c.body(1, b"page"), c.poll(1)
    c.head(3, OK, "200 max-age=10"), c.body(3, b"page"), c.poll(3), c.start()


@row
def a34(c):
    """everything is purged while bodies come: their readers get all of them, the next one fetches"""
    c.start(), c.head(1, OK, "200, 4 bytes"), c.start(), c.purge_all(), c.start(), c.body(1, b"page"), c.poll(1), c.poll(2), c.start()


@row
def a35(c):
    """an index of before counts as none, and what lies under its second keys"""
    x = c.start(rq("GET /a", "Accept: x"), "GET Accept: x").exchange
    c.head(x, VARY, "200 Vary: Accept"), c.body(x, b"page"), c.poll(x), c.start(rq("GET /a", "Accept: x"), "GET Accept: x"), c.purge_all()
    c.t += 1
    c.start(rq("GET /a", "Accept: x"), "GET Accept: x"), c.head(3, VARY, "200 Vary: Accept"), c.body(3, b"page"), c.poll(3)
    c.start(rq("GET /a", "Accept: y"), "GET Accept: y"), c.start(rq("GET /a", "Accept: x"), "GET Accept: x")


@row
def a35b(c):
    """such an index, which who goes alone leaves at the tier, counts as none where its response is stored either"""
    x = c.start(rq("GET /a", "Accept: x"), "GET Accept: x").exchange
    c.head(x, VARY, "200 Vary: Accept"), c.body(x, b"page"), c.poll(x)
    c.t += 20
    c.start(rq("GET /a", "Accept: x"), "GET Accept: x"), c.start(rq("GET /a", "Accept: x"), "GET Accept: x"), c.purge_all()
    c.t += 60
    c.poll(3), c.head(3, VARY, "200 Vary: Accept"), c.body(3, b"page"), c.poll(3), c.start(rq("GET /a", "Accept: x"), "GET Accept: x")


@row
def a36(c):
    """what is stale isn't validated any more; what was asked about it before freshens nothing"""
    c.fill(STALE), c.start(), c.purge_all()
    c.t += 1
    c.start(rq("GET /a", 'If-None-Match: "1"'), 'GET, If-None-Match: "1"'), c.head(2, N304, "304"), c.poll(2)
    c.head(3, OK, "200 max-age=10"), c.body(3, b"page"), c.poll(3), c.start()


@row
def a37(c):
    """moments that go back bring nothing back"""
    c.t += 10
    c.fill(OK), c.purge_all()
    c.t -= 5
    c.purge_all(), c.start(), c.head(2, OK, "200 max-age=10"), c.body(2, b"page"), c.poll(2)
    c.t += 6
    c.start(), c.head(3, OK, "200 max-age=10"), c.body(3, b"page"), c.poll(3), c.start()


@row
def a38(c):
    """nothing is served stale of before either; what isn't stored is predicted no more"""
    c.fill(SWR), c.start(rq("GET /b")), c.head(2, PRIVATE, "200 private"), c.body(2, b"page"), c.poll(2)
    c.t += 5
    c.purge_all(), c.start(), c.head(3, ERROR, "503"), c.poll(3), c.start(rq("GET /b"))


@row
def a39(c):
    """a stop: who asks from then on is told that its connection ends, whatever answers; who asked before isn't"""
    c.fill(OK), c.start(rq("GET /b")), c.stop(), c.start(), c.start(rq("GET /b"))
    c.head(2, OK, "200 max-age=10"), c.poll(4), c.body(2, b"page"), c.poll(2), c.poll(4), c.start(rq("GET /c", "Cache-Control: only-if-cached"), "GET /c only-if-cached")
    c.start(rq("GET /d")), c.head(6, PRIVATE, "200 private"), c.body(6, b"page"), c.poll(6), c.start(b"GET /a HTTP/1.1\r\nHost : h\r\n\r\n", "a blank before a colon")
