"""What a reader makes of a line: a Request, a Removal, a Pass (a line of the format that is no request of the cache, and why), or None:
no line of the format. Also the moments that logs write."""
import collections
import datetime
import re

# part: of a length that isn't told, how many bytes of the body the line shows at least; own: whether the cache that wrote the log had a hit.
Request = collections.namedtuple("Request", "moment key bytes partial lifetime times part own", defaults=(None, None, 1, 0, None))
Removal = collections.namedtuple("Removal", "moment key")
Pass = collections.namedtuple("Pass", "why")

# Past these no moment, no length and no lifetime is taken; and a line that stands for more requests isn't.
MOMENTS, LENGTHS, LIFETIMES = 2**63, 2**62, 2**62
MOST_TIMES = 1_000_000
START = datetime.datetime(1970, 1, 1)
MONTHS = {name: at for at, name in enumerate("Jan Feb Mar Apr May Jun Jul Aug Sep Oct Nov Dec".split(), 1)}
LOG_TIME = re.compile(r"(\d{2})/(\w{3})/(\d{4}):(\d{2}):(\d{2}):(\d{2})(?:\.\d+)?(?: ([+-])(\d{2})(\d{2}))?$", re.ASCII)
ISO_TIME = re.compile(r"(\d{4})-(\d{2})-(\d{2})[T ](\d{2}):(\d{2}):(\d{2})(?:[.,]\d+)?(Z|[+-]\d{2}:?\d{2})?$", re.ASCII)


METHODS, STATUSES = "GET,HEAD", "200,206,304"
# A number of seconds, or of milli-, micro- or nanoseconds, by its size: no log is from the year 5138.
UNITS = ((10**9, 10**17), (10**6, 10**14), (10**3, 10**11))
# What caches write of a request that they answered themselves, and of one for which they asked the origin.
HITS = frozenset("hit stale updating revalidated refreshhit originshieldhit tcp_hit tcp_mem_hit tcp_ims_hit tcp_inm_hit tcp_refresh_hit tcp_refresh_unmodified "
                 "tcp_refresh_fail_old tcp_offline_hit tcp_negative_hit tcp_cf_hit".split())
MISSES = frozenset("miss expired bypass dynamic pass hitpass hit-for-pass synth tcp_miss tcp_refresh_miss tcp_refresh_modified tcp_client_refresh_miss tcp_expired_miss "
                   "tcp_swapfail_miss tcp_tunnel tcp_cf_miss none".split())
RANGE = re.compile(r"bytes \d+-\d+/(\d+)", re.ASCII)
HOST = re.compile(r"(?=.*[a-z])[a-z0-9_-]+(\.[a-z0-9_-]+)+(:\d+)?", re.ASCII | re.IGNORECASE)


def unit_of(value):
    """How many units of such a number are a second."""
    return next((unit for unit, least in UNITS if value >= least), 1)


def own_hit(word):
    """Whether a word of a log says that its cache had a hit (or served something stale); None where it says neither."""
    word = word.lower()
    return True if word in HITS else False if word in MISSES else None


def whole_length(text):
    """The length that a Content-Range says of the whole body, or None (RFC 9110, 14.4)."""
    found = RANGE.search(text or "")
    return int(found[1]) if found and len(found[1]) < 20 else None


def is_host(word):
    """Whether a word looks like a host's name, and is no address."""
    return bool(HOST.fullmatch(word))


class Rules:
    """Which lines are requests of the cache, and what their keys are."""

    def __init__(self, methods=None, statuses=None, host_last=False, no_query=False, names=None, line=None, columns=None, skip=0):
        self.methods, self.statuses = frozenset(methods or METHODS.split(",")), frozenset(statuses or STATUSES.split(","))
        self.host_last, self.no_query = host_last, no_query
        # the fields of JSON lines, where the command line names them
        self.names = names
        # the log_format of lines, and the columns of a file without a head, where the command line has them
        self.line, self.columns, self.skip = line, columns, skip
        # whether a length that isn't told says what is known of it: the planner's readers want that
        self.parts = False
        # the options that the command line has
        given = (("--methods", methods), ("--statuses", statuses), ("--host-field-last", host_last), ("--ignore-query", no_query), ("--json-fields", names),
                 ("--line", line), ("--columns", columns))
        self.given = [name for name, value in given if value]

    def key(self, host, target):
        return host + (target.split("?")[0] if self.no_query else target)

    def request(self, moment, key, size, method, status, total=None, own=None):
        """The request of a line with this method and status, or why it is none. Of a part of a body, of a 304 and of a HEAD the line
        doesn't tell the length, unless a Content-Range has the total."""
        if method not in self.methods:
            return Pass("method " + method[:16])
        if status not in self.statuses:
            return Pass("status " + status[:16])
        partial = "status " + status if status in ("206", "304") else "method HEAD" if method == "HEAD" else None
        if status == "206" and total is not None:
            return Request(moment, key, total, own=own)
        if partial is None and size is None:
            return Pass("no length")
        part = (size or 0) if self.parts and status == "206" else 0
        return Request(moment, key, None if partial else size, partial, None, 1, part, own)


def rules_of(options):
    """The rules of a command line: of methods and statuses it has texts with commas, or None."""
    methods, statuses = (None if it is None else it.split(",") for it in (options.methods, options.statuses))
    return Rules(methods, statuses, options.host_field_last, options.ignore_query, options.json_fields, getattr(options, "line", None), getattr(options, "columns", None),
                 getattr(options, "skip_lines", None) or 0)


def number(word):
    """The number that a word of digits says, or None."""
    return int(word) if word.isascii() and word.isdigit() else None


def any_time(text):
    """The moment of a time as access logs write it: '28/Nov/2026:19:42:40 +0100', by ISO 8601, or seconds (also in ms, µs, ns); or None."""
    if re.fullmatch(r"\d+(\.\d+)?", text, re.ASCII):
        value = text.split(".")[0]
        return int(value) // unit_of(int(value)) if len(value) < 20 else None
    found = log_time(text)
    return iso_time(text) if found is None else found


def in_range(made):
    """Passes over what no program can count."""
    if isinstance(made, Pass) or made is None:
        return made
    if not 0 <= made.moment < MOMENTS:
        return Pass("time out of range")
    if isinstance(made, Request):
        if made.bytes is not None and made.bytes >= LENGTHS:
            return Pass("length out of range")
        if made.lifetime is not None and made.lifetime >= LIFETIMES:
            return Pass("lifetime out of range")
        if made.times > MOST_TIMES:
            return Pass("times out of range")
    return made


def seconds(year, month, day, hour, minute, second, offset):
    """Seconds since 1970, or None where there is no such day or time. A second 60 is a leap second."""
    if not 0 <= second <= 60:
        return None
    try:
        start = datetime.datetime(year, month, day, hour, minute)
    except ValueError:
        return None
    return (start - START) // datetime.timedelta(seconds=1) + second - offset


def log_time(text):
    """The moment that '28/Nov/2026:19:42:40 +0100' says, or None. Parts of a second are cut; without a zone it is of UTC."""
    found = LOG_TIME.match(text)
    if not found or found[2] not in MONTHS:
        return None
    offset = (int(found[8]) * 60 + int(found[9])) * (60 if found[7] == "+" else -60) if found[7] else 0
    return seconds(int(found[3]), MONTHS[found[2]], int(found[1]), int(found[4]), int(found[5]), int(found[6]), offset)


def iso_time(text):
    """The moment of a time by ISO 8601, of UTC where it names no zone; or None."""
    found = ISO_TIME.match(text)
    if not found:
        return None
    zone = (found[7] or "Z").replace(":", "")
    offset = 0 if zone == "Z" else (int(zone[1:3]) * 60 + int(zone[3:5])) * (60 if zone[0] == "+" else -60)
    return seconds(*(int(found[it]) for it in range(1, 7)), offset)
