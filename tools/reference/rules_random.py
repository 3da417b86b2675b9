"""Random exchanges for HTTP's rules, as calls of rules_calls.py: heads that mostly fit and sometimes don't, and what follows of them."""

import rules_model as model
from rules_calls import raw, shown_lines

MOMENT = 1795888800 * model.SECOND
DATES = ["Tue, 01 Jan 2019 00:00:00 GMT", "Sat, 28 Nov 2026 18:00:00 GMT", "Saturday, 28-Nov-26 18:00:00 GMT", "Sat Nov 28 18:00:00 2026"]
DATES_NEAR = ["sat, 28 nov 2026 17:59:00 gmt", "Sat, 28 Nov 2026 18:01:39 GMT", "Sat, 28 Nov 2026 18:00:00 UTC", "Fri, 28 Nov 2026 18:00:00 GMT", "Sat Nov  8 18:00:00 2026"]
DIRECTIVES = ["max-age=60", "no-store", "private", 'private="set-cookie"', 'no-cache="x"', "no-cache", "s-maxage=5", "max-age=0", "must-revalidate",
              "stale-while-revalidate=60", "stale-if-error=9", "max-stale", "max-stale=5", "min-fresh=3", "only-if-cached", "public", "must-understand",
              "proxy-revalidate", "max-age=60, max-age=1", 'x="\\", no-store"', "a=?0, max-age=3;x", 'private=""', 'no-cache="vary, foo"', "Max-Age = 7", 'max-age="8"',
              "max-age=1.5", "max-age=-5", "max-age", "=5, public", 'private="a\\"b"', "s-maxage=99999999999"]
TAGS = ['"a"', 'W/"a"', '","', '"b"', "abc", "*", 'W/"a", "b"', '"a""b"', '"\xe9"', ""]
RANGES = ["bytes=0-1", "bytes=-5", "bytes=0-1,4-5", "bytes=9-", "bytes=0-4,3-", "bytes=-0", "BYTES=2-3 , 5-", "bytes=5-2", "lines=0-1", "bytes=", "bytes=0-0,2-2,4-4",
          "bytes=99999999999999999999-", "bytes=0-18446744073709551615", "bytes= 0-1", "bytes=,0-1"]
OTHERS = ["", "5", "05", "-1", "9" * 30, "9" * 5000, "chunked", "gzip, chunked", "close", "foo, x", "cache-control", "set-cookie", "a.example", "A.example:80", "a.example:443",
          "[::1]:8080", "a@b", "foo", "Foo, Bar", "sid=1", "gzip", "/x", "/x?z=1&y=2&a", "/l#f", "http://a.example/x?y#z", "http://A.EXAMPLE:80?q", "//b.example/x", "https://b.example/l/x", "http://b.example:080/l?y", "http://b.example/lx", "/x/y", "//a.example", "https://a.example/",
          "l", "trailers", "7, 8", "?0", "\xe9", "\t x \t", "x\x00y", "x\x7fy"]
FIT = {
    "Cache-Control": DIRECTIVES, "Pragma": ["no-cache", "x"], "Vary": ["Foo", "foo, Bar", "*", "Cookie, foo", ",", "Accept-Encoding", "Host, foo", "Range", "If-None-Match, foo", "Expect, If-Range", "TE", "TE, Accept-Encoding", "X-Forwarded-For", "via, foo"], "ETag": TAGS, "Last-Modified": DATES + DATES_NEAR,
    "Date": DATES + DATES_NEAR + ["x"], "Expires": DATES + DATES_NEAR + ["0"], "Age": ["5", "-1", "9" * 30, "7, 8", "7s"], "Connection": ["close", "foo, x", "cache-control", "set-cookie, Foo"],
    "If-None-Match": TAGS, "If-Modified-Since": DATES + DATES_NEAR, "Range": RANGES, "If-Range": TAGS[:3] + DATES, "Content-Type": ["text/x"], "Via": ["1.1 up"],
    "Foo": ["1", "a, b", '"a, b"', "(a , b)", " a ,b ", ""], "CDN-Cache-Control": ["max-age=60", "no-store", "max-age=&", "max-age=1;x=2, private=?0", "max-age=1.5", "", 'max-age="8"', 'private="x", s-maxage="9"'],
    "Cookie": ["sid=1", "a, b", "a,b", "a=1; sid=2;b=3 ;; b=4", " sid = 5; Sid=6;sid", ";b="], "Set-Cookie": ["sid=1"], "Authorization": ["Basic x"],
}
RARE = {
    "Content-Length": ["0", "5", "5", "10", "05", "5, 5", "+5"], "Transfer-Encoding": ["chunked", "gzip, chunked", "chunked, chunked", "gzip"], "Host": ["a.example", "B.example", "a.example:080", "a.example:00", "a.example:0444"],
    "Cache-Status": ["up; hit"], "Accept-Ranges": ["none"], "Location": OTHERS, "Content-Location": OTHERS, "TE": ["trailers", "gzip"], "Max-Forwards": ["0", "1", "2", "x"], "Keep-Alive": ["1"], "Trailer": ["x"],
    "X-Forwarded-For": ["10.1.1.1"], "If-Match": ['"a"'], "Accept-Encoding": ["gzip, br", "GZIP", "gzip,br", "x-gzip;q=0.5, br;q=0", "*;q=0.001, br ; Q=0.000", "br;q=1.000, gzip;q=1.001", "gzip;q=0, *", "gzip;q, br;q=1., deflate", "*;q=0"], "If-Unmodified-Since": DATES, "Expect": ["100-continue"], "Upgrade": ["h2c"], "X-Drop": ["1"],
}
VALUES = {**FIT, **RARE}
OPTIONS = [
    {},
    {},
    {},
    {},
    {"stores_cookies": True, "authorized_reads": True, "folds_percent": True, "stale_if_down": 99, "heuristic_tenth": False, "lifetimes": [[404, 5], [404, 7], [200, 9]]},
    {"heeds_requests": False, "targeted": [], "fills_ranges": False, "fills_conditions": False, "fills_heads": False, "s_maxage_lets_stale": True, "most_ranges": 1},
    {"stale_while_revalidate": 7, "stale_if_error": 8, "hosts": ["a.example:080"], "drops": ["x-drop", "foo", "cookie", "authorization", "content-length", "host", "expect"], "forwards_for": True, "targeted": ["foo", "cdn-cache-control"]},
    {"origin_host": "b.example:080", "origin_prefix": "/l"},
    {"origin_prefix": "/x", "query_sorts": True, "trusts_date": False},
    {"query_drops": ["y", "utm_*"], "query_sorts": True, "encodings": ["br", "gzip"], "cookie_keeps": ["sid", "b"], "response_drops": ["set-cookie", "etag", "foo", "age"],
     "forced_lifetimes": [[200, 7], [404, 0], [404, 9], [400, 3], [302, 5]], "forces_private": True},
    {"query_drops": ["*"], "cookie_keeps": [], "encodings": ["gzip"], "trusts_date": False, "response_drops": ["cache-control", "expires"], "forces_private": True, "stores_cookies": True},
    {"most_head": 200, "most_target": 30, "most_lines": 5, "most_line": 60, "never_stored": [], "name": "n", "refuses": ["POST"], "most_heuristic": 10},
]
METHODS = ["GET"] * 24 + ["HEAD", "HEAD", "HEAD", "POST", "gEt", "TRACE", "OPTIONS", "OPTIONS", "PUT", "G T"]
TARGETS = ["/x"] * 24 + ["/x?y", "/x?b=2&a=1&y=0&utm_s=1&a=0&=&b", "/x?y", "/x?", "/x?&utm_&y=1", "http://a.example?b&a", "/x?a?b=1&%61=2", "*", "http://a.example/z", "http://A.example:80", "http://a.example?q", "https://a.example/", "/%61%2f%7E%e", "/a#b", "x", "/\xff", "http://a@b/", "http://a.example:0080/z",
                           "/\xc3\xa9"]
STATUSES = [200] * 20 + [204, 206, 301, 304, 400, 404, 405, 414, 429, 500, 503, 505, 599, 600, 999, 100, 101, 302]
# Bodies of lists of sets of Vary, some of them no list that a call wrote.
LISTS = ("", "\n", "11111111\n\n", "11111111\nfoo\n\n22222222\n\n", "11111111\nCookie\nfoo\n", "1\n\n2\na\n\n3\nb\n\n4\nfoo\n\n5\nd\n\n", "1\nfoo\n\n\n2\n\n", "xyz")


class Heads:
    """Random heads; the same for the same seed."""

    def __init__(self, random):
        self.random = random

    def value(self):
        pool = DIRECTIVES + TAGS + RANGES + DATES + OTHERS
        value = ", ".join(self.random.choice(pool) for _ in range(self.random.choice([1, 1, 1, 2, 3])))
        if self.random.random() < 0.1 and len(value) < 200:
            value = "".join(self.random.choice(value or "a") if self.random.random() < 0.9 else chr(self.random.randrange(256)) for _ in range(len(value) + 2))
        return value

    def fitting(self, name):
        count = self.random.choice([1, 1, 2, 3]) if name == "Cache-Control" else 1
        return ", ".join(self.random.choice(VALUES[name]) for _ in range(count))

    def line(self):
        name = self.random.choice(list(FIT)) if self.random.random() < 0.85 else self.random.choice(list(RARE))
        value = self.fitting(name) if self.random.random() < 0.95 else self.value()
        return (name.lower() if self.random.random() < 0.1 else name) + (" : " if self.random.random() < 0.002 else ": ") + value

    def head(self, start):
        rows = [self.line() for _ in range(self.random.randrange(9))]
        if not start.startswith("HTTP") and self.random.random() < 0.97:
            rows.insert(self.random.randrange(len(rows) + 1), "Host: a.example")
        text = "".join(row + ("\r\n" if self.random.random() < 0.9995 else "\n") for row in [start, *rows])
        return ("\r\n" if self.random.random() < 0.01 else "") + text + ("\r\n" if self.random.random() < 0.995 else "")

    def request(self):
        version = self.random.choice(["1.1"] * 20 + ["1.0", "1.0", "2.0"])
        return self.head(f"{self.random.choice(METHODS)} {self.random.choice(TARGETS)} HTTP/{version}")

    def response(self, status=None):
        return self.head(f"HTTP/1.{self.random.randrange(2)} {status or self.random.choice(STATUSES):03} x")


def kept_by(judgement):
    """What the model keeps, as a call is given it."""
    return {"status": judgement.status, "lines": shown_lines(judgement.lines), "arrival": judgement.arrival, "lifetime": judgement.lifetime,
            "stale_while_revalidate": judgement.stale_while_revalidate, "stale_if_error": judgement.stale_if_error}


class Exchanges:
    """The calls of random exchanges."""

    def __init__(self, random, options_of):
        self.random, self.heads, self.options_of = random, Heads(random), options_of

    def texts(self):
        """Calls over texts and lines."""
        for call, pool in (("digits", OTHERS), ("seconds", OTHERS), ("date_of", DATES + DATES_NEAR), ("tag_of", TAGS)):
            yield {"call": call, "text": self.random.choice(pool) if self.random.random() < 0.8 else self.heads.value()}
        yield {"call": "ranges", "text": self.random.choice(RANGES) if self.random.random() < 0.8 else self.heads.value(), "length": self.random.choice([0, 1, 3, 10, 2**63])}
        rows = [line.split(":", 1) for line in (self.heads.line() for _ in range(self.random.randrange(1, 6)))]
        rows += [(name, self.random.choice(FIT[name])) for name in self.random.sample(["Cache-Control", "CDN-Cache-Control", "Vary", "ETag", "Age"], 3)]
        lines = [[name.strip(), value.strip(" \t")] for name, value in rows]
        for call, names in (("tags_of", ["if-none-match", "etag"]), ("elements", ["vary", "connection", "foo"]), ("directives", ["cache-control"]), ("targeted", ["cdn-cache-control", "cache-control"])):
            yield {"call": call, "lines": lines, "name": self.random.choice(names)}
        yield {"call": "selecting", "lines": lines}
        yield {"call": "listing", "lines": lines, "list": self.random.choice(LISTS), "token": "00000000"}
        yield {"call": "arrival", "lines": lines, "asked": MOMENT - self.random.randrange(10**10), "came": MOMENT + self.random.choice([0, 1, 999999999])}

    def over_request(self, text, options):
        """Calls over a request alone."""
        yield {"call": "head_end", "text": text, "from": self.random.choice([0, 0, 5, 40])}
        for call in ("read_request", "key", "plan", "is_reload", "only_if_cached", "fill"):
            yield {"call": call, "request": text, "options": options}
        yield {"call": "forward", "request": text, "options": options, "peer": "10.0.0.1"}
        names = self.random.sample(["foo", "Bar", "cookie", "accept-encoding", "range"], self.random.randrange(4))
        yield {"call": "secondary", "request": text, "options": options, "names": names}
        yield {"call": "second_keys", "request": text, "options": options, "list": self.random.choice(LISTS)}
        yield {"call": "target_of", "request": text, "options": options, "text": self.random.choice(OTHERS)}

    def over_kept(self, base, kept, options):
        """Calls over a request and what is kept."""
        over = {**base, "kept": kept}
        yield {"call": "error_of", "options": options, "kept": kept}
        yield {**over, "call": "validate"}
        for late in self.random.sample([-5, 0, 3, 8, 59, 61, 70, 10**6], 3):
            now = MOMENT + late * model.SECOND + self.random.choice([0, 0, 1])
            yield {**over, "call": "use", "now": now}
            failure = self.random.choice([None, 503, 500, 404])
            yield {**over, "call": "may_spare", "now": now, **({"status": failure} if failure else {})}
            length = self.random.choice([None, 0, 1, 10, 5000])
            yield {**over, "call": "answer", "now": now, "how": self.random.choice([["hit"], ["hit", "ttl=5"], []]), **({} if length is None else {"length": length}),
                   **({"boundary": "b"} if self.random.random() < 0.7 else {})}

    def over_both(self, base, kept, options):
        """Calls over a request and a response, and a confirmation of what is kept."""
        yield {**base, "call": "judge"}
        for fetch in ("pass-on", self.random.choice(["fill", "confirm", "again"])):
            yield {**base, "call": "told", "how": ["fwd=miss"], "fetch": fetch}
        yield {**base, "call": "invalidates"}
        if kept is not None:
            for late in self.random.sample([0, 3, 5, 8, 59, 61, 70, 10**6], 2):
                came = MOMENT + late * model.SECOND + self.random.choice([0, 0, 1])
                over = {**base, "response": self.heads.response(), "asked": came - 10**9, "came": came, "found": kept}
                yield {**over, "call": "judge"}
                yield {**over, "call": "moves", "list": self.random.choice(LISTS)}
            later = {**base, "method": "GET", "response": self.heads.response(304), "came": MOMENT + 9 * model.SECOND, "asked": MOMENT + 8 * model.SECOND, "kept": kept}
            yield {**later, "call": "freshen"}
            yield {**later, "call": "renew"}
            yield {**later, "call": "freshen_by_head", "method": "HEAD", "response": self.heads.response(kept["status"] if self.random.random() < 0.9 else 404), "length": self.random.choice([5, 10])}

    def kept(self, base, options):
        """What is kept of an exchange; of one that isn't stored its head as it came, now and then."""
        request, response = self.read(base, options)
        if request is None or response is None:
            return None
        judged = model.judge(request, b"GET", response, base["asked"], base["came"], options)
        if isinstance(judged, model.Kept):
            return kept_by(judged)
        if self.random.random() < 0.5:
            return None
        return kept_by(model.Kept(response.status, response.lines, model.arrival(response.lines, base["asked"], base["came"], model.Options()), 5, 2, 3))

    def read(self, base, options):
        request = model.read_request(raw(base["request"]), options) if base["request"].endswith("\r\n\r\n") else None
        response = model.read_response(raw(base["response"]), raw(base["method"]), base["came"], options) if base["response"].endswith("\r\n\r\n") else None
        return (request if isinstance(request, model.Request) else None), (response if isinstance(response, model.Response) else None)

    def one(self):
        """The calls of one exchange."""
        options, request = self.random.choice(OPTIONS), self.heads.request()
        method = "HEAD" if request.startswith("HEAD") and self.random.random() < 0.5 else "GET" if self.random.random() < 0.9 else "POST"
        base = {"options": options, "request": request, "response": self.heads.response(), "method": method, "asked": MOMENT - self.random.randrange(10**10), "came": MOMENT}
        yield from self.texts()
        yield from self.over_request(request, options)
        yield {"call": "read_response", "options": options, "response": base["response"], "method": method, "came": base["came"]}
        kept = self.kept(base, self.options_of(options))
        yield from self.over_both(base, kept, options)
        if kept is not None:
            yield from self.over_kept({"options": options, "request": request}, kept, options)
