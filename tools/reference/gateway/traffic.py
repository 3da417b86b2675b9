"""What clients ask and origins answer in the simulated world: random requests and responses, by moods."""

import re
from email.utils import formatdate

PATHS = ["/a", "/b", "/c"]


def date(t):
    return formatdate(t, usegmt=True).encode()


def has_condition(head):
    return re.search(rb"(?i)\r\nif-(none-match|modified-since):", head) is not None


class Traffic:
    """Moods: 0 long lifetimes, reloads beside bodies in flight; 1 time passes while the origin thinks; 2 long lifetimes; 3 Vary on all; 4 request
    bodies that break behind an answer; 5 permits and waits that are over, slow origins; 6 bodies that grow too long; 7 private pages; 8 errors while
    others wait; 9 304s with cookies, and with another Vary; 10 parts of what isn't stored; 11 origins that say nothing more; 12 many who
    follow slow bodies; else none."""

    def __init__(self, r, mood):
        self.r, self.mood, self.version = r, mood, 0
        self.paths = PATHS[: r.choice([1, 2, 3, 3])] if mood > 12 else PATHS[: 2 if mood == 12 else 1]
        self.reloads = r.choice([0, 0, 0.4]) if mood != 5 else 0  # how often a client wants validation
        self.tags = r.choice([0.1, 0.8, 0.8]) if mood not in (8, 9) else 0.9  # how often a response has a validator
        self.calm = 0.15 if mood in (6, 8, 12) else r.choice([0.1, 0.5, 1]) if mood > 5 else 1 if mood == 4 else 0.3  # how often something odd is asked or answered

    # ---- requests

    def request(self, now):
        r = self.r
        if self.mood == 4 and r.random() < 0.6:
            ends = r.choice([b"zz\r\n", b"0\r\n\r\n", b"2\r\nabX"])
            return b"POST /a HTTP/1.1\r\nHost: h\r\nTransfer-Encoding: chunked\r\n\r\n3\r\nabc\r\n" + ends
        kinds = [60, 8, 6, 3, 2, 1, 1]
        method = "GET" if r.random() > self.calm else r.choices(["GET", "HEAD", "POST", "DELETE", "OPTIONS", "gEt", "PUT"], kinds)[0]
        version = r.choice(["1.1", "1.1", "1.1", "1.1", "1.0"])
        lines = ["Host: h", *self.request_lines(method, now)]
        body = b""
        if method in ("POST", "PUT") or r.random() < 0.02:
            body = self.request_body(version, lines)
        head = f"{method} {r.choice(self.paths)} HTTP/{version}\r\n" + "".join(it + "\r\n" for it in lines) + "\r\n"
        return head.encode() + body

    def request_lines(self, method, now):
        r, lines = self.r, []
        add = lambda p, *them: r.random() < p * self.calm and lines.append(r.choice(them))
        add(0.4, "Accept: a", "Accept: b")
        add(0.3, "Cookie: 1", "Cookie: 2")
        add(0.2, "Range: bytes=0-3", "Range: bytes=5-6,0-1", "Range: bytes=-2", "Range: bytes=90-", "Range: bytes=7-")
        add(0.15, 'If-None-Match: "1"', 'If-None-Match: "9"', "If-Modified-Since: " + date(now[0]).decode())
        add(0.2, "Cache-Control: no-cache", "Cache-Control: max-age=0", "Cache-Control: max-stale", "Cache-Control: max-stale=20",
            "Cache-Control: min-fresh=5", "Cache-Control: no-store", "Cache-Control: only-if-cached", "Pragma: no-cache")
        if r.random() < self.reloads:
            lines.append("Cache-Control: no-cache")
        if self.mood == 0 and r.random() < 0.4:
            lines.append("Cache-Control: " + r.choice(["only-if-cached", "no-cache", "only-if-cached, no-cache", "max-age=0, only-if-cached"]))
        if self.mood == 3:
            lines.append(r.choice(["Accept: a", "Accept: b"]))
        if self.mood == 9 and r.random() < 0.5:
            lines.append("Cookie: 1")
        if self.mood == 12 and r.random() < 0.2:
            lines.append(r.choice(["Range: bytes=0-1,5-6", "Range: bytes=3-9", "TE: trailers", "TE: trailers"]))
        if self.mood == 10 and r.random() < 0.7:
            lines.append(r.choice(["Range: bytes=0-3", "Range: bytes=2-", "Range: bytes=90-", 'If-None-Match: "1"', 'Range: bytes=0-1\r\nIf-Range: "1"']))
        add(0.08, "Authorization: x")
        add(0.1, "TE: trailers")
        add(0.04, "Connection: close")
        if method == "OPTIONS" or r.random() < 0.02:
            lines.append("Max-Forwards: 0")
        if r.random() < 0.02:
            lines.append("Bad Line : x")
        return lines

    def request_body(self, version, lines):
        r = self.r
        text = bytes(r.choice(b"xyz") for _ in range(r.choice([0, 1, 20])))
        if r.random() < 0.2:
            lines.append("Expect: 100-continue")
        if version == "1.1" and r.random() < 0.5:
            lines.append("Transfer-Encoding: chunked")
            body = (b"%x\r\n%b\r\n" % (len(text), text) if text else b"") + b"0\r\n\r\n"
            return b"zz\r\n" if r.random() < 0.1 else body
        lines.append(f"Content-Length: {len(text)}")
        return text

    # ---- responses: bytes, and how the connection ends then: stays, or a word of origin_closed

    def response(self, head, now):
        r, out = self.r, b""
        self.version += 1
        many = r.choice([0.06, 0.06, 0.06, 0.6, 0.95 if r.random() < 0.05 else 0])
        while r.random() < many:
            out += r.choice([b"HTTP/1.1 103 Early Hints\r\nLink: x\r\n\r\n", b"HTTP/1.1 100 Continue\r\n\r\n"])
        if r.random() < 0.03:
            return out, r.choice(["clean", "failed", "unused"])
        if r.random() < 0.02:
            return out + b"HTTP/1.1 200 OK\r\nBad : x\r\n\r\nabc", "clean"
        if self.mood in (1, 8) and (has_condition(head) or self.mood == 8) and r.random() < 0.6:
            return r.choice([b"HTTP/1.1 503 X\r\nContent-Length: 0\r\n\r\n", b"HTTP/1.1 200 OK\r\nBad : x\r\n\r\n", b""]), "failed"
        lines = self.response_lines(now)
        if has_condition(head) and r.random() < 0.6 or r.random() < 0.01:
            extra = r.choice([b"", b"", b"Content-Length: 4\r\n"])
            text = b"".join(it + b"\r\n" for it in lines)
            return out + b"HTTP/1.1 304 Not Modified\r\n" + text + extra + b"\r\n" + r.choice([b"", b"", b"", b"evil"]), r.choice(["stays", "clean"])
        final, ends = self.final(head, lines)
        return out + final, ends

    def response_lines(self, now):
        r = self.r
        fresh = r.choice(["max-age=10", "max-age=10", "max-age=3, stale-while-revalidate=20", "max-age=2, stale-if-error=50", "max-age=0", "no-store",
                          "private, max-age=10", "no-cache", "public, max-age=5", "max-age=4, must-revalidate", "", "expires"])
        if self.mood == 6 and r.random() < 0.7:
            fresh = "max-age=10"
        if self.mood in (0, 2):
            fresh = fresh.replace("max-age=10", "max-age=1000000")
        if self.mood == 1:
            fresh = "max-age=1, stale-if-error=4"
        if self.mood == 8:
            fresh = r.choice(["max-age=1, stale-if-error=40", "max-age=0, stale-if-error=4", "max-age=0"])
        if self.mood == 12:
            fresh = r.choice(["max-age=1", "max-age=2", "max-age=10", "max-age=10"])
        if self.mood == 9:
            fresh = r.choice(["max-age=1", "max-age=0", "max-age=1, stale-if-error=50", "no-cache"])
        if self.mood in (7, 10) and r.random() < 0.5:
            fresh = r.choice(["private", "no-store"])
        lines = [b"Expires: " + date(now[0] + 5) if fresh == "expires" else b"Cache-Control: " + fresh.encode() if fresh else b"X: y"]
        add = lambda p, *them: r.random() < p and lines.append(r.choice(them))
        odd = lambda p, *them: add(p * self.calm, *them)
        add(self.tags, b'ETag: "1"', b'ETag: "1"', b'ETag: "2"', b'ETag: W/"1"')
        add(self.tags * 0.4, b"Last-Modified: " + date(now[0] - 1000), b"Last-Modified: " + date(now[0] - 2000))
        if self.mood == 9:
            add(0.3, b"Set-Cookie: s=2")
        if self.mood == 3:
            lines.append(b"Vary: Accept")
        elif self.mood == 9:
            add(0.7, b"Vary: Accept", b"Vary: Cookie")
        else:
            odd(0.3, b"Vary: Accept", b"Vary: Accept", b"Vary: Cookie", b"Vary: Accept, Cookie", b"Vary: *")
        add(0.9, b"Date: " + date(now[0]), b"Date: " + date(now[0] - 3))
        add(0.1, b"Age: 2")
        odd(0.1, b"Set-Cookie: s=1")
        add(0.1, b"Location: /b", b"Content-Location: /c", b"Location: http://h/a")
        odd(0.1, b"Connection: close")
        lines.append(b"X-Version: %d" % self.version)
        return lines

    def final(self, head, lines):
        """A final response with its body, which has its number in front."""
        r = self.r
        codes = [200, 404, 500, 503, 204, 206, 301, 403, 410, 304]
        code = 200 if r.random() > self.calm else r.choices(codes, [70, 4, 4, 6, 3, 2, 2, 4, 1, 1])[0]
        code = 503 if has_condition(head) and r.random() < 0.1 else code
        sizes = [0, 6, 6, 30, 80] if self.mood not in (6, 12) else [30, 80, 200, 400] if self.mood == 12 else [150, 400, 600]
        body = b"%04d" % self.version + bytes(r.choice(b"abcd") for _ in range(r.choice(sizes)))
        if code == 206:
            lines.append(b"Content-Range: bytes 0-%d/%d" % (len(body) - 1, len(body)))
        version = b"1.0" if r.random() < 0.05 * self.calm else b"1.1"
        if code in (204, 304):
            return b"HTTP/%b %d X\r\n" % (version, code) + b"".join(it + b"\r\n" for it in lines) + b"\r\n", "stays"
        framing = r.choice(["length", "length", "chunked", "close"])
        if self.mood == 6:
            framing = r.choice(["length", "chunked", "chunked", "chunked", "chunked", "close"])
        if framing == "chunked" and version == b"1.0":
            framing = "length"
        raw, ends = self.framed(framing, body, lines)
        raw, ends = (b"", ends) if head.startswith(b"HEAD") else self.broken(raw, framing, ends)
        return b"HTTP/%b %d X\r\n" % (version, code) + b"".join(it + b"\r\n" for it in lines) + b"\r\n" + raw, ends

    def framed(self, framing, body, lines):
        r = self.r
        ends = r.choice(["stays", "clean"])
        if framing == "length":
            lines.append(b"Content-Length: %d" % len(body))
            return body, ends
        if framing == "chunked":
            lines.append(b"Transfer-Encoding: chunked")
            n = r.choice([1, 7, 50])
            raw = b"".join(b"%x\r\n%b\r\n" % (len(body[i : i + n]), body[i : i + n]) for i in range(0, len(body), n))
            return raw + b"0\r\n" + r.choice([b"", b"T: 1\r\n"]) + b"\r\n", ends
        return body, r.choice(["clean", "clean", "failed", "unused"])

    def broken(self, raw, framing, ends):
        r = self.r
        if r.random() < 0.1:
            raw = raw[: r.randrange(len(raw) + 1)]
            bad = b"\r\nzz" if framing == "chunked" and r.random() < 0.5 else b""
            return raw + bad, r.choice(["clean", "failed"])
        if framing != "close" and r.random() < 0.03:
            raw += b"HTTP/1.1 200 OK\r\n\r\n"
        return raw, ends
