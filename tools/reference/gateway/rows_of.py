"""The responses of rows by hand, and the rows."""

from .cases import rq

OK = b'HTTP/1.1 200 OK\r\nCache-Control: max-age=10\r\nETag: "1"\r\nContent-Length: 4\r\n\r\n'
LONG = OK.replace(b"max-age=10", b"max-age=600")
CHUNKED = OK.replace(b"Content-Length: 4", b"Transfer-Encoding: chunked")
STALE = OK.replace(b"max-age=10", b"max-age=0")
SWR = OK.replace(b"max-age=10", b"max-age=2, stale-while-revalidate=60")
PRIVATE = OK.replace(b"max-age=10", b"private")
N304 = b'HTTP/1.1 304 Not Modified\r\nCache-Control: max-age=10\r\nETag: "1"\r\n\r\n'
ERROR = b"HTTP/1.1 503 X\r\nContent-Length: 0\r\n\r\n"
VARY = OK.replace(b"\r\n\r\n", b"\r\nVary: Accept\r\n\r\n")
RELOAD = rq("GET /a", "Cache-Control: no-cache"), "GET no-cache"
ROWS = []


def row(of=None, **limits):
    """A row, of a gateway with these limits; `options`: of the rules."""
    if of is None:
        return lambda it: row(it, **limits)
    ROWS.append((of, limits))
    return of


def with_line(response, line):
    return response.replace(b"\r\n\r\n", b"\r\n" + line + b"\r\n\r\n")
