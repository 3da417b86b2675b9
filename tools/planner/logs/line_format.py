"""Log lines by the log_format of nginx or the LogFormat of Apache that wrote them, compiled to one expression."""
import re

from .combined import request_of
from .records import any_time, number, own_hit, whole_length

# What a variable of nginx, or a directive of Apache, tells. All others are passed over.
TOLD = {
    "time_local": "time", "time_iso8601": "time", "msec": "time", "%t": "time",
    "request": "request", "%r": "request", "request_method": "method", "%m": "method",
    "request_uri": "target", "uri": "path", "%U": "path", "args": "query", "query_string": "query", "%q": "query",
    "host": "host", "http_host": "host", "server_name": "host", "%v": "host", "%V": "host", "%{Host}i": "host",
    "status": "status", "%s": "status", "%>s": "status",
    "body_bytes_sent": "bytes", "bytes_sent": "bytes", "%b": "bytes", "%B": "bytes", "%O": "bytes",
    "sent_http_content_range": "range", "%{Content-Range}o": "range",
    "upstream_cache_status": "own", "sent_http_x_cache": "own", "%{X-Cache}o": "own",
}
# Lengths of whole responses, with their heads.
WITH_HEADS = ("bytes_sent", "%O")
FIELD = re.compile(r"\$(?:\{(\w+)\}|(\w+))|(%(?:[<>!\d,]*)(?:\{[^}]*\})?[A-Za-z])")
TIME = r"\d\d/\w\w\w/\d{4}:\d\d:\d\d:\d\d [+-]\d{4}"


class LineFormat:
    """An expression for the lines of a log_format. ValueError says why one tells no requests."""

    def __init__(self, text):
        self.heads, self.names, parts, at = False, [], [], 0
        # (as it stands within quotes in Apache's configuration)
        text = text.replace('\\"', '"')
        for found in FIELD.finditer(text):
            parts.append(re.escape(text[at:found.start()]))
            parts.append(self.field(found[1] or found[2] or found[3], text[found.end():]))
            at = found.end()
        self.line = re.compile("".join(parts) + re.escape(text[at:]) + "$", re.ASCII)
        if "time" not in self.names or "bytes" not in self.names:
            raise ValueError("a time ($time_local, $msec, %t) and the length of the body ($body_bytes_sent, %b) are wanted")
        if not {"request", "target", "path"} & set(self.names):
            raise ValueError("what was asked for is wanted: $request, $request_uri or $uri, %r or %U")

    def field(self, name, rest):
        """The expression of a field, by what stands behind it, so that each line is read in one pass."""
        name = name if not name.startswith("%") or name in TOLD else "%" + name[-1] if "{" not in name and "%" + name[-1] in TOLD else name
        what, behind = TOLD.get(name), rest[:1]
        shape = r'(?:[^"\\]|\\.)*' if behind == '"' else f"[^{re.escape(behind)}]*" if behind else ".*"
        if FIELD.match(rest):
            # a path ends where its query begins, and what stands before a target where that begins
            if what not in ("path", "host"):
                raise ValueError(f"nothing stands between {name} and the field behind it, so no line says where it ends")
            shape = r'[^?\s"]*' if what == "path" else r'[^/\s"]*'
        shape = r"\d+|-" if what in ("bytes", "status") else shape
        if what == "time" and behind == " ":
            shape = TIME if name in ("time_local", "%t") else r"\S*"
        if name == "%t":
            shape = r"\[" + (f"({TIME})" if what not in self.names else TIME) + r"\]"
            self.names.append(what)
            return shape
        if what is None or what in self.names:
            return f"(?:{shape})"
        self.heads = self.heads or name in WITH_HEADS
        self.names.append(what)
        return f"({shape})"

    def key(self):
        """What a key is made of, in words."""
        return "host and target" if "host" in self.names else "the target alone: the log_format names no host"

    def reader(self, rules):
        def read(line):
            found = self.line.match(line)
            if not found:
                return None
            told = dict(zip(self.names, found.groups()))
            moment = any_time(told["time"])
            asked = request_of(told["request"]) if "request" in told else (told.get("method", "GET"), told.get("target") or told["path"] + query_of(told.get("query", "")))
            if moment is None or asked is None:
                return None
            host = "" if told.get("host", "-") == "-" else told["host"]
            return rules.request(moment, rules.key(host, asked[1]), number(told["bytes"]), asked[0], told.get("status", "200"),
                                 whole_length(told.get("range")), own_hit(told.get("own", "").split(" ")[0]))
        return read


def query_of(text):
    """The query with its mark, which %q has and $args lacks."""
    return "" if text in ("", "-") else text if text.startswith("?") else f"?{text}"
