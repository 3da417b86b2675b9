"""The logs of Squid (native), of CloudFront, IIS and others by W3C's '#Fields:', and of S3's server access."""
import re

from .records import Pass, Request, iso_time, log_time, number, own_hit

SQUID = re.compile(
    r"(?P<time>\d{9,11})\.\d{3} +-?\d+ \S+ (?P<code>[A-Z_]+)/(?P<status>\d{3}) (?P<bytes>\d+) (?P<method>[A-Z_:-]+) (?P<url>\S+)"
    r" \S+ [A-Z_]+/\S+ \S+(?: .*)?$",
    re.ASCII,
)
NEEDED = ("date", "time", "cs-method", "sc-status")
HOSTS = ("x-host-header", "cs(host)", "cs-host")
REFUSED = {"Error", "LimitExceeded", "CapacityExceeded", "Redirect"}
S3 = re.compile(
    r"\S+ (?P<bucket>\S+) \[(?P<time>[^\]]+)\] \S+ \S+ \S+ (?P<op>[A-Z0-9]+\.[A-Z0-9_.]+) (?P<key>\S+) "
    r'(?:"(?:[^"\\]|\\.)*"|-) (?P<status>\d{3}|-) \S+ (?:\d+|-) (?P<size>\d+|-) (?:\d+|-) (?:\d+|-) .*$',
    re.ASCII,
)
OBJECTS = {"REST.GET.OBJECT", "REST.HEAD.OBJECT", "WEBSITE.GET.OBJECT", "WEBSITE.HEAD.OBJECT"}


def squid(rules):
    """Lines 'sec.ms took client CODE/status bytes method url user HIER/peer type'. The bytes are with the head."""
    def read(line):
        found = SQUID.match(line)
        if not found:
            return None
        code, method = found["code"], found["method"]
        if "DENIED" in code or code.startswith("NONE") or "ABORT" in code or found["status"] == "000" or method == "CONNECT":
            return Pass("method CONNECT" if method == "CONNECT" else "code " + code)
        return rules.request(int(found["time"]), rules.key("", found["url"]), int(found["bytes"]), method, found["status"], None, own_hit(code))
    return read


def w3c(rules, head):
    """The reader of lines whose columns the line '#Fields: ..' names, in any order; or None where it lacks one that is needed."""
    names = [it.lower() for it in head.split(":", 1)[1].split()]
    at = {name: place for place, name in enumerate(names)}
    if any(it not in at for it in NEEDED) or not ("cs-uri-stem" in at or "cs-uri" in at):
        return None
    days, has_lengths = {}, "sc-bytes" in at or "sc-content-len" in at

    def read(line):
        if line.startswith("#"):
            return Pass("a head line")
        words = line.split("\t") if "\t" in line else line.split(" ")
        if len(words) != len(names):
            return None

        def get(name):
            return words[at[name]] if name in at else "-"

        day, time = get("date"), get("time")
        if day not in days:
            if len(days) > 1000:
                days.clear()
            days[day] = iso_time(day + " 00:00:00")
        clock = re.match(r"([01]\d|2[0-3]):([0-5]\d):([0-5]\d|60)", time)
        if days[day] is None or not clock:
            return None
        if get("x-edge-result-type") in REFUSED:
            return Pass("result " + get("x-edge-result-type"))
        host = next((it for it in map(get, HOSTS) if it != "-"), "")
        query = "" if get("cs-uri-query") == "-" else "?" + get("cs-uri-query")
        target = get("cs-uri-stem") + query if "cs-uri-stem" in at else get("cs-uri")
        size = number(get("sc-content-len"))
        size = number(get("sc-bytes")) if size is None else size
        moment = days[day] + int(clock[1]) * 3600 + int(clock[2]) * 60 + int(clock[3])
        made = rules.request(moment, rules.key(host, target), size if has_lengths else 0, get("cs-method"), get("sc-status"), None, own_hit(get("x-edge-result-type")))
        return made if has_lengths or isinstance(made, Pass) else made._replace(bytes=None, partial="no lengths")
    return read


def w3c_name(lines, head):
    """What wrote such a log, and what its keys are made of."""
    if "x-edge-location" in head:
        return "cloudfront", "host and target"
    fields = set(head.lower().split())
    name = "iis" if any("Internet Information" in it for it in lines[:10]) else "w3c"
    return name, "host and target" if fields & set(HOSTS) or "cs-uri-stem" not in fields else "the target alone: the log names no host (IIS: the field cs-host)"


def s3(rules):
    """S3's server access log. The size is that of the whole object, of a part and of a HEAD too."""
    def read(line):
        found = S3.match(line)
        moment = log_time(found["time"]) if found else None
        if moment is None:
            return None
        if found["op"] not in OBJECTS:
            return Pass("operation " + found["op"][:32])
        if found["status"] not in rules.statuses:
            return Pass("status " + found["status"])
        size = number(found["size"])
        return Request(moment, found["bucket"] + "/" + found["key"], size, None if size is not None else "no object size")
    return read
