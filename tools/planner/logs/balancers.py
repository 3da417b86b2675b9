"""The logs of HAProxy, Envoy, AWS's load balancers, and CloudFront's real-time ones."""
import re

from .combined import request_of
from .records import Pass, any_time, is_host, number, own_hit

# (each part ends where the next begins, so that no line takes more than one pass)
HAPROXY = re.compile(
    r"(?<!\S)\S+:\d+ \[(?P<time>\d\d/\w\w\w/\d{4}:\d\d:\d\d:\d\d(?:\.\d+)?)\] \S+ [^\s/]+/\S+ [-\d/+]+ (?P<status>-?\d+) \+?(?P<bytes>\d+) \S+ \S+ \S{4} "
    r'[-\d/+]+ [-\d/+]+ (?:\{(?P<captured>[^}]*)\} )?(?:\{[^}]*\} )?"(?P<request>[^"]*)"',
    re.ASCII,
)
ENVOY = re.compile(
    r'\[(?P<time>\d{4}-[^\]]+)\] "(?P<request>[^"]*)" (?P<status>\d+) \S+ (?:\S+ "[^"]*" "[^"]*" )?\d+ (?P<bytes>\d+) -?\d+ \S+ "[^"]*" "[^"]*" "[^"]*" "(?P<host>[^"]*)"',
    re.ASCII,
)
BALANCER = re.compile(
    r'(?:https?|h2|grpcs|wss?) (?P<time>\S+) \S+ \S+ \S+ -?[\d.]+ -?[\d.]+ -?[\d.]+ (?P<status>\d+|-) (?:\d+|-) \d+ (?P<bytes>\d+) "(?P<request>[^"]*)"',
    re.ASCII,
)
REAL_TIME = re.compile(
    r"(?P<time>\d{10}\.\d{3})\t\S+\t[\d.]+\t(?P<status>\d{3})\t(?P<bytes>\d+)\t(?P<method>[A-Z]+)\t(?:https?|wss?)\t(?P<host>\S+)\t(?P<target>\S+)\t(?P<rest>.*)$",
    re.ASCII,
)
SCHEME = re.compile(r"[a-z]+://([^/:]+)(?::(?:80|443))?(?=[/:?]|$)")


def made(rules, found, host, own=None):
    """The request of a line with a request line of its own."""
    moment, asked = any_time(found["time"]), request_of(found["request"])
    if moment is None:
        return None
    if asked is None:
        return Pass("no request in it")
    target = SCHEME.sub(r"\1", asked[1], count=1)
    return rules.request(moment, rules.key(host, target), number(found["bytes"]), asked[0], found["status"], None, own)


def haproxy(rules):
    """Lines of `option httplog`, also behind syslog's words. A header that was captured is the host where it looks like one."""
    def read(line):
        found = HAPROXY.search(line)
        if not found:
            return None
        host = next((it for it in (found["captured"] or "").split("|") if is_host(it)), "")
        return made(rules, found, host)
    return read


def envoy(rules):
    """Envoy's default format."""
    def read(line):
        found = ENVOY.match(line)
        return found and made(rules, found, found["host"].replace("-", "", 1) if found["host"] == "-" else found["host"])
    return read


def balancer(rules):
    """AWS's application load balancer: the key is the URL without its scheme and usual port."""
    def read(line):
        found = BALANCER.match(line)
        return found and made(rules, found, "")
    return read


def real_time(rules):
    """CloudFront's real-time logs with their first eleven fields as they come by default."""
    def read(line):
        found = REAL_TIME.match(line)
        if not found:
            return None
        own = own_hit(found["rest"].rsplit("\t", 1)[-1])
        return rules.request(any_time(found["time"]), rules.key(found["host"], found["target"]), number(found["bytes"]), found["method"], found["status"], None, own)
    return read
