"""Logs with a JSON object a line, by the names of its fields: a dot goes into an object, and the parts of a key are joined."""
import collections
import json
import re

from .combined import request_of
from .records import LENGTHS, any_time, number, own_hit, unit_of, whole_length

try:
    # some four times as fast, where it is installed
    import orjson  # type: ignore[import]

    loads = orjson.loads
except ImportError:
    loads = json.loads

# The fields of a line. `request` is a request line, 'GET /a HTTP/1.1', whose target ends the key; `own` what the cache that wrote the line says
# of itself; `range` a Content-Range. Of names apart by a bar the first that the file's first line has counts.
Names = collections.namedtuple("Names", "time key bytes status method request own range", defaults=(None, None, None, None, None))
BUILT_IN = {
    "json-caddy": Names("ts", ("request.host", "request.uri"), "size", "status", "request.method"),
    "json-logpush": Names("EdgeStartTimestamp", ("ClientRequestHost", "ClientRequestURI"), "EdgeResponseBytes", "EdgeResponseStatus", "ClientRequestMethod", None, "CacheCacheStatus"),
    "json-traefik": Names("StartUTC", ("RequestHost", "RequestPath"), "DownstreamContentSize", "DownstreamStatus", "RequestMethod"),
    "json-google": Names("timestamp", ("httpRequest.requestUrl",), "httpRequest.responseSize", "httpRequest.status", "httpRequest.requestMethod", None, "httpRequest.cacheHit"),
    "json-nginx": Names("msec|time_local|time_iso8601|time", ("host|http_host|server_name", "request_uri"), "body_bytes_sent|bytes_sent", "status", "request_method", None,
                        "upstream_cache_status", "sent_http_content_range"),
    "json-nginx-request": Names("msec|time_local|time_iso8601|time", ("host|http_host|server_name",), "body_bytes_sent|bytes_sent", "status", None, "request",
                                "upstream_cache_status", "sent_http_content_range"),
    "json-envoy": Names("start_time", ("authority|:authority", "path"), "bytes_sent", "response_code", "method"),
    "json-fastly": Names("timestamp|time_start", ("host", "url"), "response_body_size|resp_body_bytes", "response_status|status", "request_method|method", None, "cache_status|fastly_info_state"),
    "json-akamai": Names("reqTimeSec", ("reqHost", "reqPath", "queryStr"), "objSize|totalBytes", "statusCode", "reqMethod", None, "cacheStatus"),
    "json-cloudfront": Names("date+time", ("x-host-header|cs(Host)", "cs-uri-stem", "cs-uri-query"), "sc-content-len|sc-bytes", "sc-status", "cs-method", None, "x-edge-result-type"),
}
# Of these a text of one dash stands for nothing, a path has no first slash, and a query has no mark.
QUERIES, PATHS = ("queryStr", "cs-uri-query"), ("reqPath",)
WORDS = {"HIT": True, "TRUE": True, "1": True, "FALSE": False, "0": False}


def names_of(text):
    """The names that 'time=ts,key=request.host+request.uri,bytes=size,status=..,method=..' says; request=, own= and range= besides."""
    told = {}
    for word in text.split(","):
        what, _, field = word.partition("=")
        if what not in Names._fields or not field or what in told:
            raise ValueError(word)
        told[what] = tuple(field.split("+")) if what == "key" else field
    told.setdefault("key", ())
    if any(what not in told for what in ("time", "bytes")) or not (told["key"] or "request" in told):
        raise ValueError(text)
    return Names(**told)


def field(record, name):
    if name in record:
        return record[name]
    for part in name.split("."):
        if not isinstance(record, dict) or part not in record:
            return None
        record = record[part]
    return record


def moment_of(value):
    """The second that a number or a text says, or None."""
    if isinstance(value, str):
        return any_time(value)
    if isinstance(value, bool) or not isinstance(value, (int, float)) or not 0 <= value < 2**64:
        return None
    return int(value // unit_of(value))


def chosen(names, record):
    """The names, each the one of its alternatives that this record has."""
    def one(name):
        return name and next((it for it in name.split("|") if field(record, it.split("+")[0]) is not None), name.split("|")[0])
    return Names(one(names.time), tuple(map(one, names.key)), *(one(it) for it in names[2:]))


def key_part(record, name):
    """The text of a part of the key, or None where it isn't there."""
    value = field(record, name)
    if not isinstance(value, (str, int)):
        return None
    if name in QUERIES:
        return "" if value in ("-", "") else f"?{value}"
    return f"/{value}" if name in PATHS and not str(value).startswith("/") else str(value)


def own_of(value):
    """Whether a field says that the cache which wrote the line had a hit, or None."""
    if isinstance(value, bool):
        return value
    return None if not isinstance(value, (str, int)) else WORDS.get(str(value).upper(), own_hit(str(value)))


def object_in(line):
    """The object of a line, or None."""
    try:
        record = loads(line)
    except (ValueError, RecursionError):
        return None
    return record if isinstance(record, dict) else None


def is_array(line):
    """Whether a line begins an array of objects, on this line or on many."""
    return re.match(r'\[\s*\{\s*(?:"|$)', line) is not None


def reader(rules, names, lines):
    """Reads lines by these names, of alternatives by those of the first line that is an object."""
    names = chosen(names, next(filter(None, map(object_in, lines[:10])), {}))
    times = names.time.split("+")

    def read(line):
        record = object_in(line)
        if record is None:
            return None
        moment = moment_of(field(record, times[0])) if len(times) == 1 else any_time(" ".join(str(field(record, it)) for it in times))
        parts = [key_part(record, it) for it in names.key]
        if moment is None or None in parts:
            return None
        method = str(field(record, names.method) or "GET") if names.method else "GET"
        if names.request:
            asked = request_of(str(field(record, names.request) or ""))
            if asked is None:
                return None
            method, parts = asked[0], [*parts, asked[1]]
        size = field(record, names.bytes)
        size = number(str(size)) if isinstance(size, (str, int)) and not isinstance(size, bool) else None
        status = str(field(record, names.status) or "200") if names.status else "200"
        total = whole_length(str(field(record, names.range) or "")) if names.range else None
        return rules.request(moment, rules.key("", "".join(parts)), size, method, status, total, own_of(field(record, names.own)) if names.own else None)
    return read


# What a key has that isn't written as it is: blanks and what steers a terminal.
UNPLAIN = re.compile("[\0- \x7f]")


def getter(names, record):
    """A function that takes the values of these names out of an object like this one, or raises KeyError or TypeError: each is the object's
    own field, or lies in objects within."""
    def path(name):
        return "".join(f"[{it!r}]" for it in ([name] if name in record else name.split(".")))
    return eval(f"lambda it: ({''.join(f'it{path(name)}, ' for name in names)})", {})


class Fast:
    """Reads whole blocks of lines whose requests are plain: a GET that was answered whole. Others go to the reader of lines, in their order."""

    def __init__(self, rules, names, record, slow, counts):
        self.slow, self.counts, self.names = slow, counts, names
        self.get = getter([names.time, names.bytes, *([names.status] if names.status else []), *([names.method] if names.method else []), *([names.own] if names.own else []), *names.key], record)
        self.at = 2 + bool(names.status)
        self.method = "GET" if names.method else None
        self.owns = {}
        self.moments = {}

    @staticmethod
    def suits(rules, names, record):
        """Whether lines of these names can be read so."""
        return bool(record and names.key and "+" not in names.time and not names.request and not rules.no_query and "GET" in rules.methods and "200" in rules.statuses
                    and not any(it in QUERIES or it in PATHS for it in names.key))

    def moment(self, value):
        """The second that a text says; those of the last ones are kept."""
        if len(self.moments) > 10000:
            self.moments.clear()
        made = self.moments[value] = moment_of(value)
        return made

    def own(self, value):
        """Counts what the cache that wrote the line says of its own answer."""
        told = own_of(value)
        if told is not None:
            self.counts.own += 1
            self.counts.own_hits += told

    def __call__(self, block, moments, lines, longest):
        """Adds the requests of a block, which ends with a line feed, to the moments and lines."""
        get, known, own_at, key_at = self.get, self.moments, self.names.own and self.at + bool(self.method), self.at + bool(self.method) + bool(self.names.own)
        status, method, most = self.names.status, self.method, min(longest, LENGTHS - 1)
        for at, line in enumerate(block[:-1].split(b"\n")):
            try:
                found = get(loads(line))
                time, size = found[0], found[1]
                if type(time) is str:
                    moment = known.get(time) or self.moment(time)
                elif type(time) is float or type(time) is int:
                    moment = moment_of(time) if time >= 10**11 else int(time)
                else:
                    moment = None
                key = found[key_at] if len(found) == key_at + 1 else "".join(found[key_at:])
                if not moment or moment < 0 or type(size) is not int or not 0 <= size <= most or status and (found[2] != 200 or type(found[2]) is not int) or method and found[self.at] != method or type(key) is not str:
                    self.slow(at, line)
                    continue
                text = key.encode()
            except (ValueError, KeyError, TypeError, RecursionError):
                self.slow(at, line)
                continue
            if UNPLAIN.search(key) or not key:
                self.slow(at, line)
                continue
            if own_at:
                self.own(found[own_at])
            moments.append(moment)
            lines.append(b"%d %b %d\n" % (moment, text, size))


def fast_of(rules, names, lines):
    """What makes a reader of blocks for lines of these names, or None."""
    record = next(filter(None, map(object_in, lines[:10])), None)
    names = chosen(names, record or {})
    if not Fast.suits(rules, names, record):
        return None
    return lambda slow, counts: Fast(rules, names, record, slow, counts)
