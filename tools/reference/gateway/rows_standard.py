"""Rows by hand: what a reading beside the standards found."""

from cache_tier import CacheTierError

from .cases import rq
from .rows_of import CHUNKED, OK, STALE, row

ONLY = "Cache-Control: only-if-cached"
MUST = STALE.replace(b"max-age=0", b"max-age=0, must-revalidate")


class Refuses:
    """A tier of which one call is refused, for want of memory: the first `open` after so many."""

    def __init__(self, tier, after):
        self.tier, self.left = tier, after

    def __getattr__(self, name):
        return getattr(self.tier, name) if name != "open" else self.open

    def open(self, *given):
        self.left -= 1
        if self.left == -1:
            raise CacheTierError(13)
        return self.tier.open(*given)


@row
def c01(c):
    """only-if-cached beside Authorization: what may not answer is none; nothing goes to the origin (RFC 9111, 5.2.1.7)"""
    c.fill(OK), c.start(rq("GET /a", "Authorization: x", ONLY), "GET Authorization, only-if-cached"), c.start(rq("GET /a", "Authorization: x"), "GET Authorization")


@row
def c02(c):
    """only-if-cached where what is in flight can't be read, for want of memory: 504, nothing goes to the origin"""
    c.start(), c.head(1, OK, "200, 4 bytes")
    c.g.tier = Refuses(c.g.tier, 1)
    c.start(rq("GET /a", ONLY), "GET only-if-cached")


@row
def c03(c):
    """no answer about what must be validated: 504, also for who waits (RFC 9111, 5.2.2.2); about what need not: 502"""
    c.fill(MUST), c.start(), c.start(), c.closed(2, "failed"), c.poll(2), c.poll(3)
    c.fill(STALE, request=rq("GET /b")), c.start(rq("GET /b")), c.closed(5, "failed"), c.poll(5)


@row(max_body_bytes=3)
def c04(c):
    """what is too long stays predicted: said, or found out while it is relayed"""
    c.start(), c.head(1, OK, "200, 4 bytes"), c.body(1, b"page"), c.poll(1), c.start(), c.head(2, OK, "200, 4 bytes"), c.body(2, b"page"), c.poll(2), c.start()
    c.start(rq("GET /b")), c.head(4, CHUNKED, "200 chunked"), c.body(4, b"4\r\npage\r\n0\r\n\r\n"), c.poll(4)
    c.start(rq("GET /b")), c.head(5, CHUNKED, "200 chunked"), c.body(5, b"4\r\npage\r\n0\r\n\r\n"), c.poll(5), c.start(rq("GET /b"))


@row
def c05(c):
    """a purge of a text with blanks or line ends is none of a URL"""
    c.fill(OK), c.purge(b"http://h/a HTTP/1.1\r\nX: "), c.purge(b"http://h/a#part")


@row(max_body_bytes=3)
def c06(c):
    """trailers are for whom was asked: of a tail, which others read on in, they have none"""
    takes = rq("GET /a", "TE: trailers"), "GET TE: trailers"
    c.start(*takes), c.head(1, CHUNKED, "200 chunked"), c.body(1, b"2\r\npa\r\n"), c.start(*takes), c.body(1, b"2\r\nge\r\n")
    c.body(1, b"0\r\nSet-Cookie: s=1\r\n\r\n"), c.poll(1), c.poll(2)
