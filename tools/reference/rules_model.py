"""A plain model of HTTP's rules for a shared cache that is a reverse proxy: pure functions, with no clock and no state. It shares no code with the
crates rules_*, which test_rules.py compares with it.

Bytes are `bytes`. A *line* is (name, value); a *head's lines* are a list of lines in their order, names in any case.
A *moment* is a number of nanoseconds since 1970, an argument everywhere; durations are whole seconds.
Sections are those of RFC 9110 (semantics), 9111 (caching), 9112 (HTTP/1.1); others by number.
"""
import calendar
import hashlib
import re
import time
from typing import NamedTuple, Optional

SECOND = 10**9
MOST_SECONDS = 2**31  # 9111 1.2.2: greater delta-seconds count as this


class Options(NamedTuple):
    """What an operator may choose, with the defaults."""
    name: bytes = b"cache-tier"            # pseudonym in Via and Cache-Status: a token
    scheme: bytes = b"http"                # what the listener speaks; part of each key
    most_head: int = 65536                 # bytes of a head, else 431 (502 of a response)
    most_target: int = 16384               # bytes of a target, else 414
    most_line: int = 8192                  # bytes of a field line of a request (name, colon, value), else 431
    most_lines: int = 250                  # field lines, else 431 (502); Date, Via and Content-Length may come to them, and the tier keeps 256
    heeds_requests: bool = True            # request directives count (9111 5.2.1: may be ignored)
    authorized_reads: bool = False         # whatever is stored may answer a request with Authorization; else what the origin opened for it
    stores_cookies: bool = False           # a response with Set-Cookie may be stored where it has explicit freshness
    fills_ranges: bool = True              # a Range that finds nothing fetches the whole
    fills_heads: bool = True               # a HEAD that finds nothing is fetched as GET
    fills_conditions: bool = True          # a client's conditions are left off where nothing is found; If-Range goes where Range goes
    folds_percent: bool = False            # %61 and a are one in keys (3986 6.2.2)
    targeted: tuple = (b"cdn-cache-control",)  # targeted fields in order of preference (9213); () for none
    heuristic_tenth: bool = True           # 9111 4.2.2: a tenth of Date - Last-Modified
    most_heuristic: int = 86400            # and at most this
    lifetimes: tuple = ()                  # (status, seconds) where the response says nothing
    never_stored: tuple = (400, 405, 406, 408, 411, 412, 413, 414, 415, 416, 417, 421, 425, 426, 428, 429, 431, 505)  # odd requests cause them
    stale_while_revalidate: int = 0        # where the response says nothing and allows it
    stale_if_error: int = 0
    stale_if_down: int = 0                 # where the origin can't be reached (9111 4.2.4)
    s_maxage_lets_stale: bool = False      # windows next to s-maxage count (against 9111 5.2.2.10; as CDNs do)
    most_ranges: int = 8                   # more parts than this, or parts that overlap: the whole
    drops: tuple = ()                      # names of request fields that don't reach the origin, as they are no part of keys
    hosts: tuple = ()                      # the hosts that are served, as host_of gives them; () for any. Others: 421
    refuses: tuple = (b"CONNECT", b"TRACE")  # 501
    forwards_for: bool = False             # X-Forwarded-For is added
    origin_host: bytes = b""               # the Host that the origin is sent; empty: the request's
    origin_prefix: bytes = b""             # in front of the target that it is sent
    trusts_date: bool = True               # Date counts for the age (9111 4.2.3); else Age alone
    query_drops: tuple = ()                # names of parts of a query that go; with a * behind, what a name begins with
    query_sorts: bool = False              # the parts in the order of their names
    encodings: tuple = ()                  # the codings that Accept-Encoding may name, in the order in which it then names them; () for any
    cookie_keeps: Optional[tuple] = None   # the names of the cookies that stay; None for all
    response_drops: tuple = ()             # names of response fields that are neither stored nor shown
    forced_lifetimes: tuple = ()           # (status, seconds) whatever the response says
    forces_private: bool = False           # private, no-store and no-cache of a response don't count
    secret: bytes = b""                    # hexadecimal digits of what boundaries of several parts are made by; empty: several parts are answered by the whole


class Refusal(NamedTuple):
    status: int
    reason: str


class Request(NamedTuple):
    """A request's head, read. `lines` are end to end: without Connection, what it names, and the fields of the hop."""
    method: bytes
    scheme: bytes
    host: bytes            # normalised; b"" if HTTP/1.0 had none
    target: bytes          # as it came: origin-form, or *
    minor: int
    lines: list
    framing: tuple         # ("none",), ("length", n) or ("chunked",)
    options: list          # the options of Connection, in small letters
    takes_trailers: bool   # TE has trailers
    expects: bool = False  # there is Expect


class Response(NamedTuple):
    status: int
    minor: int
    lines: list            # end to end
    framing: tuple         # also ("close",)
    came_with_date: bool = True
    closes: bool = False   # the connection ends behind it (9112 9.3, 9.6)


class Kept(NamedTuple):
    """What the tier is told, and tells again: the say of the rules over a body."""
    status: int
    lines: list            # the head as it is stored
    arrival: int           # the moment at which its age was 0
    lifetime: int
    stale_while_revalidate: int
    stale_if_error: int


class VarySet(NamedTuple):
    """A token, and the names by which the responses vary that are stored under it, in order of the alphabet."""
    token: bytes
    names: list


class Unkept(NamedTuple):
    """Why a response isn't stored, whether what was found under the key that was looked up goes, and whether the next one won't be stored either."""
    reason: str
    removes: bool
    predicts_uncacheable: bool


class Answer(NamedTuple):
    status: int
    lines: list
    parts: Optional[list]  # None: no body. Else (text before, from, to) in order; to is None where the length isn't known
    after: bytes = b""


# ---------------------------------------------------------------- tables
HOP = {b"connection", b"keep-alive", b"proxy-connection", b"proxy-authenticate", b"proxy-authorization",
       b"proxy-authentication-info", b"te", b"transfer-encoding", b"upgrade", b"http2-settings"}  # 9110 7.6.1, 9111 3.1
FRAMES = {b"content-length", b"host", b"expect"}       # the proxy writes or answers these itself
CONDITIONS = {b"if-none-match", b"if-modified-since", b"if-match", b"if-unmodified-since", b"if-range"}  # 9110 13.1
SAFE = {b"GET", b"HEAD", b"OPTIONS", b"TRACE"}         # 9110 9.2.1
HEURISTIC = {200, 203, 204, 300, 301, 308, 404, 405, 410, 414, 501}  # 9110 15.1, without 206
OF_THE_EXCHANGE = {"method", "request-no-store", "authorization", "set-cookie", "not-modified"}  # reasons that say nothing of what is stored already
LASTING = {"no-store", "private", "vary-any", "too-many-lines"}     # reasons that an origin has for each response of a page
MOST_NAMES, MOST_SETS = 16, 4                           # names in Vary; sets of names in a list
GONE = {404, 410}                                      # there is nothing any more
UNDERSTOOD = {200, 201, 202, 203, 204, 205, 300, 301, 302, 303, 305, 307, 308, 400, 401, 402, 403, 404, 405, 406, 407, 408,
              409, 410, 411, 412, 413, 414, 415, 416, 417, 421, 422, 426, 500, 501, 502, 503, 504, 505}  # 9110 15.3 to 15.6
ERRORS = {500, 502, 503, 504}                          # 5861 4
NEEDED = {b"cache-control", b"vary", b"date", b"expires", b"etag", b"last-modified", b"content-type", b"content-encoding",
          b"content-range", b"content-length", b"age", b"cdn-cache-control", b"surrogate-control"}  # listed by private or no-cache they count as unlisted forms
NOT_UPDATED = {b"content-length", b"content-encoding", b"content-range", b"trailer"}  # 9111 3.2: the stored body depends on them
NOT_IN_304 = {b"content-type", b"content-encoding", b"content-language", b"content-length", b"content-range"}  # 9110 15.4.5
LISTED = {b"accept", b"accept-charset", b"accept-encoding", b"accept-language", b"access-control-request-headers", b"cache-control", b"pragma", b"prefer",
          b"te", b"x-forwarded-for"}                   # request fields whose lines are one list (9110 5.6.1)
IN_SECONDS = {b"max-age", b"s-maxage", b"stale-while-revalidate", b"stale-if-error"}
SMALL = {b"accept-encoding", b"accept-language", b"accept-charset"}  # values are the same in any case

TOKEN = rb"[!#$%&'*+\-.^_`|~0-9A-Za-z]+"               # 9110 5.6.2
TAG = rb'(W/)?("[\x21\x23-\x7e\x80-\xff]*")'           # 9110 8.8.3
HOST = rb"(?:\[[0-9A-Fa-f:.]+\]|[A-Za-z0-9\-._~!$&'()*+,;=]*)(?::[0-9]*)?"  # 9110 7.2


# ---------------------------------------------------------------- texts and lines (9110 5)
def first_true(rows):
    """A first-match table: the first name whose test holds, or None."""
    return next((name for name, holds in rows if holds), None)


def values(lines, name):
    """The values of the lines of a name, in order (9110 5.2)."""
    return [v for n, v in lines if n.lower() == name]


def first(lines, name):
    return next(iter(values(lines, name)), None)


def elements(lines, name):
    """The elements of a list field over all its lines, without blanks round them; empty ones don't count (9110 5.6.1). Not for fields with quotes."""
    return [e for v in values(lines, name) for e in (x.strip(b" \t") for x in v.split(b",")) if e]


def tokens(lines, name):
    """The same in small letters."""
    return [e.lower() for e in elements(lines, name)]


def without(lines, names):
    return [l for l in lines if l[0].lower() not in names]


def end_to_end(lines):
    """Without Connection, the fields that it names and those of the hop (9110 7.6.1). Fields that are meant for all recipients stay, also where
    Connection names them, which it must not: else `Connection: cache-control` would take `private` away."""
    return without(lines, HOP | (set(tokens(lines, b"connection")) - NEEDED - {b"set-cookie"}))


def number(text):
    """1*DIGIT, else None. From 2^64 - 1 on all are that."""
    n = text.lstrip(b"0") if text is not None and re.fullmatch(rb"[0-9]+", text) else None
    return None if n is None else min(int(n or b"0"), 2**64 - 1) if len(n) <= 20 else 2**64 - 1


def seconds(text):
    """delta-seconds; a number that is too great counts as 2^31 (9111 1.2.2); None if unreadable."""
    n = number(text)
    return None if n is None else min(n, MOST_SECONDS)


DAYS = [b"Mon", b"Tue", b"Wed", b"Thu", b"Fri", b"Sat", b"Sun"]
LONG_DAYS = [b"monday", b"tuesday", b"wednesday", b"thursday", b"friday", b"saturday", b"sunday"]
MONTHS = [b"jan", b"feb", b"mar", b"apr", b"may", b"jun", b"jul", b"aug", b"sep", b"oct", b"nov", b"dec"]
DATES = [rb"(?P<w>[a-z]{3}), (?P<d>\d\d) (?P<m>[a-z]{3}) (?P<y>\d{4}) (?P<t>\d\d:\d\d:\d\d) gmt",
         rb"(?P<w>[a-z]{6,9}), (?P<d>\d\d)-(?P<m>[a-z]{3})-(?P<y>\d\d) (?P<t>\d\d:\d\d:\d\d) gmt",
         rb"(?P<w>[a-z]{3}) (?P<m>[a-z]{3}) (?P<d>[ \d]\d) (?P<t>\d\d:\d\d:\d\d) (?P<y>\d{4})"]


def date_of(text):
    """The second that an HTTP-date shows, in the three formats and in any case of letters (9110 5.6.7, 9111 4.2); None for any other text, also
    one with a zone but GMT or a wrong day of the week. This is httpdate's parse_secs of the text without blanks round it and with its letters in the
    case of the formats. Left out: of two digits of a year 70 and on are always 1970 and on."""
    m = next((m for m in (re.fullmatch(p, (text or b"").strip(b" \t").lower()) for p in DATES) if m), None)
    if not m or m["m"] not in MONTHS:
        return None
    y, month, day, t = int(m["y"]), MONTHS.index(m["m"]) + 1, int(m["d"]), [int(x) for x in m["t"].split(b":")]
    y += (1900 if y >= 70 else 2000) if len(m["y"]) == 2 else 0
    if not (y >= 1970 and 1 <= day <= calendar.monthrange(y, month)[1] and t[0] < 24 and t[1] < 60 and t[2] < 60):
        return None
    named = LONG_DAYS[calendar.weekday(y, month, day)]
    return calendar.timegm((y, month, day, *t)) if m["w"] == (named if b"-" in m[0] else named[:3]) else None


def date_text(moment):
    """IMF-fixdate of a moment (9110 5.6.7)."""
    t = time.gmtime(moment // SECOND)
    return b"%s, %02d %s %04d %02d:%02d:%02d GMT" % (DAYS[t.tm_wday], t.tm_mday, MONTHS[t.tm_mon - 1].title(), t.tm_year, t.tm_hour, t.tm_min, t.tm_sec)


def tag_of(text):
    """An entity tag (weak?, text in its quotes), else None (9110 8.8.3)."""
    m = re.fullmatch(TAG, text or b"")
    return (m[1] is not None, m[2]) if m else None


def tags_of(lines, name):
    """The tags of a list of entity tags over its lines; None if it is no such list (9110 13.1.2). A comma may be part of a tag."""
    text = b", ".join(values(lines, name))
    if not re.fullmatch(rb"[ \t,]*(?:" + TAG + rb"[ \t]*(?:,[ \t,]*|$))*", text):
        return None
    return [(m[1] is not None, m[2]) for m in re.finditer(TAG, text)]


# ---------------------------------------------------------------- directives (9111 5.2, 9213)
DIRECTIVE = re.compile(rb'([^,=]*)(?:=[ \t]*(?:"((?:[^"\\]|\\.)*)"[ \t]*(?=,|$)|([^,]*)))?(?:,|$)')


def directives(lines, name=b"cache-control"):
    """What a Cache-Control says: (name in small letters, value or None) in order, over all lines. A quoted value counts without its quotes and
    escapes; it begins right after `=` and ends before a comma or the end, else its quote is a byte like others. Blanks round `=` are passed over."""
    out = []
    for v in values(lines, name):
        for m in DIRECTIVE.finditer(v):
            value = re.sub(rb"\\(.)", rb"\1", m[2]) if m[2] is not None else m[3].strip(b" \t") if m[3] is not None else None
            out += [(m[1].strip(b" \t").lower(), value)] if m[1].strip(b" \t") else []
    return out


BARE = rb'(?:-?\d{1,15}|-?\d{1,12}\.\d{1,3}|"(?:[\x20-\x21\x23-\x5b\x5d-\x7e]|\\["\\])*"|[A-Za-z*][!#$%&\'*+\-.^_`|~0-9A-Za-z:/]*|\?[01]|:[A-Za-z0-9+/=]*:)'
KEY = rb"[a-z*][a-z0-9_\-.*]*"
MEMBER = rb"(" + KEY + rb")(?:=(" + BARE + rb"))?((?:;[ ]*" + KEY + rb"(?:=" + BARE + rb")?)*)"
DICTIONARY = rb"[ ]*" + MEMBER + rb"(?:[ \t]*,[ \t]*" + MEMBER + rb")*[ ]*"


def targeted(lines, name):
    """The directives of a targeted field: a dictionary of RFC 8941; None where it isn't there, is empty or can't be read (9213 2.1, 2.2). Of a key
    the last value counts; `=?0` takes it away, `=?1` is the same as no value. A string says no seconds: it stays in its quotes, and can't be read.
    Left out: inner lists."""
    text = b", ".join(values(lines, name))
    if not text or not re.fullmatch(DICTIONARY, text):
        return None
    last = {m[1]: m[2] for m in re.finditer(MEMBER + rb"(?:[ \t]*,[ \t]*|[ ]*$)", text)}
    plain = lambda k, v: None if v in (None, b"?1") else re.sub(rb"\\(.)", rb"\1", v[1:-1]) if v[:1] == b'"' and k not in IN_SECONDS else v
    return [(k, plain(k, v)) for k, v in last.items() if v != b"?0"]


def has(ds, name):
    return any(n == name for n, _ in ds)


def alone(ds, name):
    """The directive is there without a list of fields, lists none, or lists one that the cache itself needs: then it counts for the whole response
    (9111 5.2.2.4, 5.2.2.7)."""
    return any(n == name and (v is None or not listed(v) or NEEDED & set(listed(v))) for n, v in ds)


def listed(value):
    return [f.strip(b" \t").lower() for f in value.split(b",") if f.strip(b" \t")]


def fields_of(ds, name):
    """The fields that all directives of this name list."""
    return {f for n, v in ds if n == name and v is not None for f in listed(v)}


def seconds_under(ds, name):
    """Of the first directive of the name: its seconds, 0 if it can't be read (9111 4.2.1); None without one."""
    found = [v for n, v in ds if n == name]
    return None if not found else seconds(found[0]) or 0


class Says(NamedTuple):
    ds: list
    expires: Optional[bytes]   # the value of Expires that counts
    is_targeted: bool          # they are those of a targeted field


def says(lines, options):
    """The directives that count, and Expires where that counts: of the first targeted field that can be read alone, else of Cache-Control (9213 2.2)."""
    own = next((ds for ds in (targeted(lines, n) for n in options.targeted) if ds is not None), None)
    return Says(own, None, True) if own is not None else Says(directives(lines), first(lines, b"expires"), False)


# ---------------------------------------------------------------- reading heads (9112)
def framing(minor, lines, unstated, unchunked):
    """How a body ends (9112 6.3): a form, or the name of a refusal. `unstated`: what no field means; `unchunked`: what codings without `chunked`
    at the end mean. This is `http1`'s request_framing and response_framing."""
    te, cl = tokens(lines, b"transfer-encoding"), values(lines, b"content-length")
    coded = bool(values(lines, b"transfer-encoding"))
    return (("refused", "length-and-coding") if coded and cl else
            ("refused", "bad-length") if any(number(v) is None or number(v) >= 2**63 for v in cl) or len({number(v) for v in cl}) > 1 else
            ("length", number(cl[0])) if cl else
            unstated if not coded else
            ("refused", "coding-in-1-0") if minor == 0 else
            ("refused", "bad-coding") if not te or b"chunked" in te[:-1] or not all(re.fullmatch(TOKEN, t) for t in te) else
            ("chunked",) if te == [b"chunked"] else
            ("refused", "unknown-coding") if te[-1] == b"chunked" else unchunked)


def field_lines(text, most):
    """The lines of a head's fields; a name of a refusal where one isn't `token ":" value` (9112 5)."""
    rows = text.split(b"\r\n")[:-1] if text else []
    bad = next((r for r in rows if not re.fullmatch(TOKEN + rb":[\t\x20-\x7e\x80-\xff]*", r)), None)
    if len(rows) > most:
        return "too-many-fields"
    if bad is not None:
        return first_true((("folded", bad[:1] in (b" ", b"\t")), ("blank-before-colon", re.match(TOKEN + rb"[ \t]+:", bad)), ("bad-field", True)))
    return [(n, v.strip(b" \t")) for n, _, v in (r.partition(b":") for r in rows)]


def bare_ends(data):
    """A CR or LF that stands alone (9112 2.2)."""
    return re.search(rb"(?<!\r)\n|\r(?!\n)", data) is not None


def host_of(text, scheme):
    """A host and port in small letters, the port without zeros in front, and none where it is the scheme's own (9110 4.2.3); None if it is none."""
    if not re.fullmatch(HOST, text) or (text[:1] == b":"):
        return None
    text = re.sub(rb":0+([0-9]+)$", rb":\1", text.lower())
    return re.sub(rb":(?:%s)?$" % (b"443" if scheme == b"https" else b"80"), b"", text)


def head_end(data, begin=0):
    """The place behind the first empty line that follows one which isn't, looked for from a place on; None where there is none (9112 2.1)."""
    at, was_filled = 0, False
    while (end := data.find(b"\n", at)) >= 0:
        is_filled = data[at:end] not in (b"", b"\r")
        if end >= begin and was_filled and not is_filled:
            return end + 1
        at, was_filled = end + 1, is_filled
    return None


def part_name(part):
    """The name of a part of a query, its percent-codes as they are."""
    return part.partition(b"=")[0]


def names_part(word, name):
    """A word names a part: by its name, or with a * behind by what that begins with."""
    return name.startswith(word[:-1]) if word[-1:] == b"*" else name == word


def chosen_target(target, options):
    """A target as the operator's words leave it: the parts of its query between `&` without those that he drops by their name, to the first `=`, in the order of
    the names where he wants them sorted; where no part is left, without the `?`."""
    path, mark, query = target.partition(b"?")
    if not mark or not (options.query_drops or options.query_sorts):
        return target
    parts = [part for part in query.split(b"&") if not any(names_part(word, part_name(part)) for word in options.query_drops)]
    parts = sorted(parts, key=part_name) if options.query_sorts else parts
    return path + (b"?" + b"&".join(parts) if parts else b"")


def is_kept(crumb, names):
    """A cookie has one of these names, byte by byte."""
    return crumb.partition(b"=")[0] in names


def cookie_lines(lines, options):
    """The cookies that the operator keeps, of all lines, in one (6265 5.4); none where he chose none, or none is left."""
    if options.cookie_keeps is None:
        return []
    crumbs = [crumb.strip(b" \t") for v in values(lines, b"cookie") for crumb in v.split(b";")]
    kept = b"; ".join(crumb for crumb in crumbs if is_kept(crumb, options.cookie_keeps))
    return [(b"Cookie", kept)] if kept else []


QVALUE = rb"0(?:\.[0-9]{0,3})?|1(?:\.0{0,3})?"          # 9110 12.4.2


def is_above_zero(parameter):
    """A weight that can be read, and is above 0."""
    weight = re.fullmatch(rb"[qQ]=(" + QVALUE + rb")", parameter)
    return weight is not None and re.search(rb"[1-9]", weight[1]) is not None


def admitted(lines, coding):
    """A request asks for a coding: the first element that names it has a weight above 0, or none names it and the first `*` has (9110 12.5.3)."""
    found = [e.partition(b";") for e in elements(lines, b"accept-encoding")]
    own = [it for it in found if it[0].strip(b" \t").lower() in ((b"gzip", b"x-gzip") if coding == b"gzip" else (coding,))]
    first_one = next(iter(own or [it for it in found if it[0].strip(b" \t") == b"*"]), None)
    return first_one is not None and (not first_one[1] or is_above_zero(first_one[2].strip(b" \t")))


def encoding_lines(lines, options):
    """Accept-Encoding names of the operator's list what the request asks for, in the list's order; none where there is no list, or none is left."""
    asked = b", ".join(coding for coding in options.encodings if admitted(lines, coding))
    return [(b"Accept-Encoding", asked)] if asked else []


def read_request(data, options):
    """A request from the bytes of its head, up to and with its empty line: Request, or Refusal(400, 414, 421, 431, 501, 505) by name.
    9112 2.2 (line ends), 3 (request line), 3.2 (target, Host), 5.1 (no blank before the colon), 5.2 (no folding), 6 (framing). Stricter than the
    RFC: a lone LF; Transfer-Encoding beside Content-Length. Empty lines in front are passed over (2.2)."""
    data = re.sub(rb"\A(?:\r\n)+", b"", data)
    start, _, rest = data.partition(b"\r\n")
    m = re.fullmatch(rb"(" + TOKEN + rb") ([\x21-\x7e]+) (HTTP/[0-9]\.[0-9])", start)
    why = first_true((((414, "target-too-long"), len(start) > options.most_target), ((431, "head-too-long"), len(data) > options.most_head),
                      ((400, "bare-line-end"), bare_ends(data)), ((400, "bad-request-line"), not m), ((505, "version"), m and m[3][:7] != b"HTTP/1."),
                      ((501, "method"), m and m[1] in options.refuses)))
    if why:
        return Refusal(*why)
    lines = field_lines(rest[:-2], options.most_lines)
    if isinstance(lines, str):
        return Refusal(431 if lines == "too-many-fields" else 400, lines)
    if any(len(name) + 1 + len(value) > options.most_line for name, value in lines):
        return Refusal(431, "field-too-long")
    method, target, minor = m[1], m[2], min(int(m[3][-1:]), 1)  # 9110 2.5: a later one is read as 1.1
    body, hosts = framing(minor, lines, ("none",), ("refused", "bad-coding")), values(lines, b"host")
    form = re.fullmatch(rb"([A-Za-z][A-Za-z0-9+.\-]*)://([^/?#@]+)([/?].*)?", target)
    host = form[2] if form else hosts[0] if hosts else b""  # 9112 3.2.2: an absolute target's host counts, and Host is passed over
    scheme = form[1].lower() if form else options.scheme
    path = target if not form else (b"/" if form[3] is None else b"/" + form[3] if form[3][:1] == b"?" else form[3])
    path = b"*" if form and form[3] is None and method == b"OPTIONS" else path
    why = first_true((((501, "unknown-coding"), body == ("refused", "unknown-coding")), ((400, body[-1]), body[0] == "refused"),
                      ((400, "several-hosts"), len(hosts) > 1), ((400, "no-host"), not hosts and minor == 1),
                      ((400, "bad-host"), host_of(host, scheme) is None or any(host_of(h, scheme) is None for h in hosts)),
                      ((421, "other-scheme"), scheme != options.scheme),
                      ((421, "other-host"), options.hosts and host_of(host, scheme) not in [host_of(h, scheme) for h in options.hosts]),  # 9110 7.4
                      ((400, "bad-target"), b"#" in target or not (path[:1] == b"/" or (path == b"*" and method == b"OPTIONS")))))
    if why:
        return Refusal(*why)
    kept = without(end_to_end(lines), set(options.drops))  # once all of these were read of all lines, and seen by nothing later
    left = without(kept, ({b"cookie"} if options.cookie_keeps is not None else set()) | ({b"accept-encoding"} if options.encodings else set()))
    left += cookie_lines(kept, options) + encoding_lines(kept, options)
    return Request(method, scheme, host_of(host, scheme), chosen_target(path, options), minor, left, body, tokens(lines, b"connection"), b"trailers" in tokens(lines, b"te"),
                   bool(values(lines, b"expect")))


def read_response(data, method, came, options):
    """A response from the bytes of its head: Response, or Refusal(502) by name. A lone LF ends a line as CR LF does (9112 2.2: may), a lone CR
    doesn't. A folded line and a blank before the colon are refused (5.1, 5.2: neither may be forwarded as it is). Date is added where there is
    none: the moment at which it came (9110 6.6.1). Via has one more element, so that no answer adds one (7.6.3)."""
    most, data = len(data), re.sub(rb"(?<!\r)\n", b"\r\n", data)
    start, _, rest = data.partition(b"\r\n")
    m = re.fullmatch(rb"HTTP/1\.([0-9]) ([1-9][0-9][0-9])(?: [\t\x20-\x7e\x80-\xff]*)?", start)
    why = first_true((("head-too-long", most > options.most_head), ("bare-line-end", bare_ends(data)), ("bad-status-line", not m)))
    lines = "" if why else field_lines(rest[:-2], options.most_lines)
    if why or isinstance(lines, str):
        return Refusal(502, why or lines)
    status, minor = int(m[2]), min(int(m[1]), 1)
    bodiless = method == b"HEAD" or status < 200 or status in (204, 304)
    body = ("none",) if bodiless else framing(minor, lines, ("close",), ("refused", "unknown-coding"))
    if body[0] == "refused" or status == 101:
        return Refusal(502, body[-1] if status != 101 else "switched")
    length = number(first(lines, b"content-length"))
    body = ("head_length", length) if method == b"HEAD" and length is not None else body
    dated = bool(values(lines, b"date"))
    rest = without(end_to_end(lines), {b"content-length"})
    rest = [l for i, l in enumerate(rest) if l[0].lower() != b"date" or not values(rest[:i], b"date")]  # of several the first
    own = via(rest, minor, options) + ([] if dated else [(b"Date", date_text(came))])
    closes = minor == 0 or b"close" in tokens(lines, b"connection") or body == ("close",)
    return Response(status, minor, own, body, dated, closes)


# ---------------------------------------------------------------- keys (9111 2, 4.1)
def key_of(scheme, host, target, options):
    """scheme "://" host target; by option percent-codes of unreserved letters are those letters, others have capitals (3986 6.2.2)."""
    def plain(m):
        c = bytes([int(m[1], 16)])
        return c if re.fullmatch(rb"[A-Za-z0-9\-._~]", c) else b"%" + m[1].upper()
    return scheme + b"://" + host + (re.sub(rb"%([0-9A-Fa-f]{2})", plain, target) if options.folds_percent else target)


def key(request, options):
    """The first key: that of a GET of the same target (9111 2)."""
    return key_of(request.scheme, request.host, request.target, options)


def is_unkeyed(name, options):
    """A name in Vary by which no key can tell requests apart: anything, a field that the proxy writes itself, or one that no key has and the operator lets go
    along with what is fetched."""
    return name in (b"*", b"via", b"te") or (options.forwards_for and name == b"x-forwarded-for") or is_let_along(name, options)


def is_let_along(name, options):
    """A Range or a condition goes along with what is fetched."""
    return (name in (b"range", b"if-range") and not options.fills_ranges) or (name in CONDITIONS - {b"if-range"} and not options.fills_conditions)


def selecting(lines):
    """The names by which a response varies, in small letters, each once and in order of the alphabet (9110 12.5.5)."""
    return sorted(set(tokens(lines, b"vary")))


def goes_along(name):
    """A fetch sends this field as it came: it is no condition, no Range, and none that a proxy writes itself. Others count as absent in a second key."""
    return name not in CONDITIONS | FRAMES | {b"range"}


def secondary(names, request):
    """The second key: of each name the request's value, or that there is none; equal texts only for fields that match (9111 4.1). Lines of a field
    that is a list are one list, of which blanks round commas are no part, but where a value has quotes or brackets it is taken as it is; lines of
    another are joined by a comma and a blank (of Cookie by a semicolon and a blank), and compared byte for byte."""
    def value(name):
        v = (b"," if name in LISTED else b"; " if name == b"cookie" else b", ").join(values(request.lines, name))
        v = b",".join(x.strip(b" \t") for x in v.split(b",")) if name in LISTED and not re.search(rb'["(]', v) else v
        return v.lower() if name in SMALL else v
    return b"".join(name + (b":" + value(name) if values(request.lines, name) and goes_along(name) else b"") + b"\n" for name in names)


def counting(lines):
    """The names by which a response varies that count: host is in the first key."""
    return [name for name in selecting(lines) if name != b"host"]


def sets_of(body):
    """The sets of a list's body, newest first: each is a token, its names and an empty line, each with a LF. At most four count; none without a list."""
    lines, sets = body.split(b"\n"), []
    while len(sets) < MOST_SETS and lines and lines[0]:
        end = lines.index(b"") if b"" in lines else len(lines)
        sets.append(VarySet(lines[0], lines[1:end]))
        lines = lines[end + 1:]
    return sets


def second_keys(request, body, options):
    """The second keys of a request by a list, one for each set."""
    return [key(request, options) + b"\n" + it.token + b"\n" + secondary([n.lower() for n in it.names], request) for it in sets_of(body)]


def place_of(names, sets):
    """The place of the set of these names; where there is no list, and they are none, 0: the first key. None: it has none yet."""
    at = next((i for i, it in enumerate(sets) if it.names == names), None)
    return 0 if not sets and not names else at


def set_text(it):
    """A set as a list's body has it."""
    return it.token + b"\n" + b"".join(n + b"\n" for n in it.names) + b"\n"


def listing(lines, body, token):
    """Where a response is stored by the list that is there: the place of its set, or the body of a new list, with its set in front, and of the others
    as many as a list has."""
    names, sets = counting(lines), sets_of(body)
    place = place_of(names, sets)
    return place if place is not None else b"".join(map(set_text, (VarySet(token, names), *sets[:MOST_SETS - 1])))


def varies(lines, body):
    """The response's set isn't in the list."""
    return place_of(counting(lines), sets_of(body)) is None


def moves(body, found, lines, came):
    """By a list what is kept is under another set than what counted, which isn't fresh, and goes."""
    return bool(body) and found is not None and counting(found.lines) != counting(lines) and not is_fresh(found, came)


# ---------------------------------------------------------------- freshness (9111 4.2)
def date_value(lines, came):
    """The Date in seconds; that at which it came if it can't be read."""
    d = date_of(first(lines, b"date"))
    return came // SECOND if d is None else d


def age_value(lines):
    """What stands before the first comma of the first Age, 0 if it can't be read (9111 5.1)."""
    return seconds((first(lines, b"age") or b"").split(b",")[0].strip(b" \t")) or 0


def arrival(lines, asked, came, options):
    """The moment at which the response's age was 0, so that its age at `now` is now - arrival, at least 0 (9111 4.2.3): the earlier of the one by its Date and
    the one by its Age: corrected_initial_age + resident_time = max(apparent_age, age_value + response_delay) + (now - response_time). By option Date isn't trusted,
    and Age alone counts."""
    if not options.trusts_date:
        return asked - age_value(lines) * SECOND
    apparent = max(0, came // SECOND - date_value(lines, came))
    return min(came - apparent * SECOND, asked - age_value(lines) * SECOND)


def is_explicit(s):
    return has(s.ds, b"s-maxage") or has(s.ds, b"max-age") or s.expires is not None


def may_guess(s, status):
    """Heuristics are allowed by the status or by `public` (9111 4.2.2); where something is explicit that comes first in `lifetime`."""
    return status in HEURISTIC or has(s.ds, b"public")


def lifetime_by_status(status, options):
    """The first row of the status, else None."""
    return next((n for code, n in options.lifetimes if code == status), None)


def forced_by_status(status, options):
    """The first row of the status that counts whatever the response says, else None."""
    return next((n for code, n in options.forced_lifetimes if code == status), None)


def is_no_cache(s, options):
    """no-cache for the whole response, which an operator may pass over."""
    return alone(s.ds, b"no-cache") and not options.forces_private


def lifetime(s, status, lines, came, options):
    """freshness_lifetime (9111 4.2.1): the first that is there of: no-cache (0), a lifetime by status that is forced, s-maxage, max-age, Expires - Date, a lifetime by status, a tenth
    of Date - Last-Modified; else 0. Of several values the first counts; one that can't be read is 0."""
    date, expires, modified = date_value(lines, came), date_of(s.expires), date_of(first(lines, b"last-modified"))
    given, forced = lifetime_by_status(status, options), forced_by_status(status, options)
    rows = ((0, is_no_cache(s, options)), (forced, forced is not None), (seconds_under(s.ds, b"s-maxage"), has(s.ds, b"s-maxage")), (seconds_under(s.ds, b"max-age"), has(s.ds, b"max-age")),
            (min(max(0, (expires or 0) - date), MOST_SECONDS), s.expires is not None), (given, given is not None),
            (min(max(0, date - (modified or date)) // 10, options.most_heuristic), may_guess(s, status) and options.heuristic_tenth))
    return next((n for n, there in rows if there), 0)


def forbids_stale(s, options):
    """Nothing stale may be served (9111 4.2.4): must-revalidate, proxy-revalidate, s-maxage, no-cache."""
    return (has(s.ds, b"must-revalidate") or has(s.ds, b"proxy-revalidate") or is_no_cache(s, options)
            or (has(s.ds, b"s-maxage") and not options.s_maxage_lets_stale))


def window(s, name, default, options):
    """A stale window (5861 3, 4)."""
    given = seconds_under(s.ds, name)
    return 0 if forbids_stale(s, options) else default if given is None else given


# ---------------------------------------------------------------- what is stored (9111 3)
def has_validator(lines):
    return tag_of(first(lines, b"etag")) is not None or date_of(first(lines, b"last-modified")) is not None


def with_length(n):
    return [(b"Content-Length", b"%d" % n)] if n is not None else []


def stated(response):
    """The length that a response's framing states."""
    return response.framing[1] if response.framing[0] in ("length", "head_length") else None


def stored_lines(response, s, options):
    """The head as it is stored (9111 3.1, 5.2.2.4, 5.2.2.7): without the fields that private and no-cache list, but those that the cache itself needs
    (they count as unlisted, `alone`), without Age, which `arrival` holds, and without Trailer; with the Content-Length that was stated, for who reads while it is still written; and without what the operator drops. The lines were end to end before."""
    gone = (fields_of(s.ds, b"private") | fields_of(s.ds, b"no-cache")) - NEEDED | {b"age", b"trailer"} | set(options.response_drops)
    return without(response.lines, gone) + with_length(stated(response))


def is_fresh(kept, now):
    """The age is below the lifetime (9111 4.2)."""
    return max(0, now - kept.arrival) < kept.lifetime * SECOND


def is_good(kept, now):
    """Good for others, whatever a request says: fresh, or past that by at most its own stale-while-revalidate or stale-if-error (5861)."""
    window = max(kept.stale_while_revalidate, kept.stale_if_error)
    return is_fresh(kept, now) or (window > 0 and max(0, now - kept.arrival) <= (kept.lifetime + window) * SECOND)


def outlasts_error(found, code, now):
    """What was found is good, and keeps its place before an error, but 404 and 410."""
    return found is not None and is_good(found, now) and code >= 400 and code not in GONE


def outlasts_stale(found, life, now):
    """What was found is fresh, and keeps its place before what would be kept, and stale at once."""
    return found is not None and is_fresh(found, now) and life == 0


def removes(found, code, now, why):
    """What was found goes: there is nothing any more (404, 410), or no error came and it isn't good; unless `why` is of the exchange, by which the
    response isn't stored."""
    return found is not None and why not in OF_THE_EXCHANGE and (code in GONE or (code < 400 and not is_good(found, now)))


def predicts_uncacheable(why, request):
    """The next response of this key won't be stored either: an origin has that reason for each response of a page, and the request doesn't say who asks,
    which may be why."""
    return why in LASTING and not values(request.lines, b"authorization") and not values(request.lines, b"cookie")


def judge(request, method, response, asked, came, options, found=None, code=None):
    """Whether a response to a request is stored (9111 3): Kept, or Unkept by name. A first-match table. `method` is the one that was sent to the
    origin. What a 304 confirmed is judged by its merged head with this same function, as by GET. `found` is what was found under the key that was
    looked up, and `code` the status that came, where that isn't the response's."""
    why, kept = reason_of(request, method, response, came, options), kept_from(response, asked, came, options)
    code = response.status if code is None else code
    reason = first_true((("stored-is-good", outlasts_error(found, code, came)), (why, why is not None), ("stored-is-good", outlasts_stale(found, kept.lifetime, came))))
    return kept if reason is None else Unkept(reason, removes(found, code, came, reason), predicts_uncacheable(reason, request))


def kept_from(response, asked, came, options):
    """What would be stored."""
    s = says(response.lines, options)
    return Kept(response.status, stored_lines(response, s, options), arrival(response.lines, asked, came, options), lifetime(s, response.status, response.lines, came, options),
                window(s, b"stale-while-revalidate", options.stale_while_revalidate, options), window(s, b"stale-if-error", options.stale_if_error, options))


def reason_of(request, method, response, came, options):
    """Why a response isn't stored, by itself: the first that holds."""
    lines, status, s, rq = response.lines, response.status, says(response.lines, options), directives(request.lines)
    life = lifetime(s, status, lines, came, options)
    revalidate = window(s, b"stale-while-revalidate", options.stale_while_revalidate, options)
    error = window(s, b"stale-if-error", options.stale_if_error, options)
    given = lifetime_by_status(status, options) is not None or forced_by_status(status, options) is not None
    kept = stored_lines(response, s, options)
    return first_true((
        ("method", method != b"GET"),
        ("status", status < 200 or status > 599), ("partial", status == 206), ("not-modified", status == 304),
        ("never-store", status in options.never_stored and not given and not (s.is_targeted and is_explicit(s))),
        ("request-no-store", options.heeds_requests and has(rq, b"no-store")),                           # 5.2.1.5
        ("not-understood", has(s.ds, b"must-understand") and status not in UNDERSTOOD),                  # 5.2.2.3
        ("no-store", has(s.ds, b"no-store") and not has(s.ds, b"must-understand") and not options.forces_private),  # 5.2.2.5
        ("private", alone(s.ds, b"private") and not options.forces_private),                             # 5.2.2.7
        ("vary-any", any(is_unkeyed(name, options) for name in tokens(lines, b"vary"))                   # 4.1
         or len(counting(lines)) > MOST_NAMES),
        ("authorization", bool(values(request.lines, b"authorization")) and not opens_authorized(s)),                 # 3.5
        ("too-many-lines", len(kept) > 256),                                                             # as stored, or merged by a 304
        ("set-cookie", bool(values(kept, b"set-cookie")) and not (options.stores_cookies and is_explicit(s))),  # 7.3 leaves it to the cache
        ("no-freshness", not (is_explicit(s) or has(s.ds, b"public") or status in HEURISTIC or given)),  # 3, last item
        ("never-usable", life == 0 and revalidate == 0 and error == 0 and not has_validator(lines))))    # it could answer nothing


# ---------------------------------------------------------------- what is asked for
def plan(request, options):
    """What to do with a request first: ("look", key), ("pass", why) or Refusal. A pass is neither answered from what is stored nor stored."""
    ds = directives(request.lines)
    hops = number(first(request.lines, b"max-forwards"))
    why = first_true((("method", request.method not in (b"GET", b"HEAD")), ("content", request.framing not in (("none",), ("length", 0))),
                      ("precondition", bool(values(request.lines, b"if-match") or values(request.lines, b"if-unmodified-since"))),  # 4.3.2: not for a cache
                      ("no-store", options.heeds_requests and has(ds, b"no-store"))))
    if request.method in (b"TRACE", b"OPTIONS") and hops == 0:
        return Refusal(204 if request.method == b"OPTIONS" else 501, "last-forward")  # 9110 7.6.2
    if why and only_if_cached(request, options):
        return Refusal(504, "only-if-cached")  # 9111 5.2.1.7
    return ("pass", why) if why else ("look", key(request, options))


def is_reload(request, options):
    """The client wants it validated: no-cache, or Pragma: no-cache without a Cache-Control (9111 5.2.1.4, 5.4)."""
    ds = directives(request.lines)
    return options.heeds_requests and (has(ds, b"no-cache") or (not ds and b"no-cache" in tokens(request.lines, b"pragma")))


def only_if_cached(request, options):
    """Where nothing may be used the answer is 504 (9111 5.2.1.7)."""
    return options.heeds_requests and has(directives(request.lines), b"only-if-cached")


def opens_authorized(s):
    """A response to a request with Authorization may be stored and used (9111 3.5)."""
    return has(s.ds, b"public") or has(s.ds, b"s-maxage") or has(s.ds, b"must-revalidate")


def use(request, kept, now, options):
    """How what is stored may answer now: "fresh", "stale" (as the client lets it: max-stale), "meanwhile" (stale-while-revalidate: it is fetched
    anew meanwhile), "validate", or "pass": it is neither used nor replaced (9111 3.5, 4, 4.2, 4.2.4, 5.2.1.1 to 5.2.1.4; 5861 3)."""
    ds = directives(request.lines) if options.heeds_requests else []
    s = says(kept.lines, options)
    age, life = max(0, now - kept.arrival), kept.lifetime * SECOND
    most, least, late = (seconds_under(ds, n) for n in (b"max-age", b"min-fresh", b"max-stale"))
    late = MOST_SECONDS if (b"max-stale", None) in ds else late
    asks_more = is_reload(request, options) or (most is not None and age > most * SECOND)
    closed = bool(values(request.lines, b"authorization")) and not options.authorized_reads and not opens_authorized(s)
    return first_true((("pass", closed), ("validate", asks_more), ("fresh", life - age > (least or 0) * SECOND), ("validate", least is not None),
                       ("stale", late is not None and age - life <= late * SECOND and not forbids_stale(s, options)),
                       ("meanwhile", age - life <= kept.stale_while_revalidate * SECOND and kept.stale_while_revalidate > 0), ("validate", True)))


def may_spare(request, kept, now, status, options):
    """What is stale may answer in the place of an error: `status` is the origin's, None where there was no answer (5861 4; 9111 4.2.4). The
    request may ask for it too."""
    s, late = says(kept.lines, options), max(0, now - kept.arrival) - kept.lifetime * SECOND
    asked = seconds_under(directives(request.lines), b"stale-if-error") if options.heeds_requests else None
    most = max(kept.stale_if_error, 0 if forbids_stale(s, options) else asked or 0, options.stale_if_down if status is None and not forbids_stale(s, options) else 0)
    return (status is None or status in ERRORS) and not is_reload(request, options) and most > 0 and late <= most * SECOND


def error_of(kept, options):
    """The status where the origin gave no answer: 504 where what is stored must be validated (9111 5.2.2.2), else 502."""
    return 504 if kept is not None and forbids_stale(says(kept.lines, options), options) else 502


# ---------------------------------------------------------------- to the origin
def via(lines, minor, options):
    """Via has one more element (9110 7.6.3)."""
    return without(lines, {b"via"}) + [(b"Via", b", ".join(values(lines, b"via") + [b"1.%d %s" % (minor, options.name)]))]


def forward(request, peer, options):
    """The request's lines as they are sent on (9110 7.6): end to end, Host from the target, Max-Forwards one less (7.6.2), Via, TE if the client
    takes trailers. The proxy adds Content-Length or Transfer-Encoding by the framing."""
    lines = without(request.lines, FRAMES | set(options.drops))
    lines = [(n, b"%d" % max(0, number(v) - 1) if n.lower() == b"max-forwards" and number(v) is not None and request.method in (b"TRACE", b"OPTIONS") else v) for n, v in lines]
    far = b", ".join(values(lines, b"x-forwarded-for") + [peer])
    lines = without(lines, {b"x-forwarded-for"}) + [(b"X-Forwarded-For", far)] if options.forwards_for else lines
    return [(b"Host", request.host)] + via(lines, request.minor, options) + ([(b"TE", b"trailers"), (b"Connection", b"TE")] if request.takes_trailers else [])


def fill(request, options):
    """The request that fetches what may be stored: (method, lines). A HEAD becomes GET, and Range and conditions are left off, as the options say."""
    drop = ({b"range", b"if-range"} if options.fills_ranges else set()) | (CONDITIONS - {b"if-range"} if options.fills_conditions else set())
    return (b"GET" if options.fills_heads else request.method), without(request.lines, drop)


def validate(request, kept):
    """The lines of the request that validates what is stored, with its own validators in place of the client's conditions and range; None where it
    has no validator (9111 4.3.1)."""
    tag, modified = first(kept.lines, b"etag"), first(kept.lines, b"last-modified")
    own = ([(b"If-None-Match", tag)] if tag_of(tag) else []) + ([(b"If-Modified-Since", modified)] if date_of(modified) is not None else [])
    return without(request.lines, CONDITIONS | {b"range"}) + own if own else None


# ---------------------------------------------------------------- a confirmation (9111 4.3.3 to 4.3.5)
def confirms(kept_lines, lines):
    """The 304 is about this stored response (4.3.4): a strong tag is the same, of a weak one the text; else Last-Modified is the same; one without
    a validator answers what was asked. A Last-Modified counts where it is strong, a second or more before Date (9110 8.8.2.2), or nothing stored has
    a tag."""
    tag, mine, modified = tag_of(first(lines, b"etag")), tag_of(first(kept_lines, b"etag")), first(lines, b"last-modified")
    at, date = date_of(modified), date_of(first(lines, b"date"))
    counts = modified is not None and (mine is None or at is not None and date is not None and at < date)
    return (mine == tag if tag and not tag[0] else mine is not None and mine[1] == tag[1] if tag else
            date_of(modified) == date_of(first(kept_lines, b"last-modified")) if counts else True)


def merged(kept_lines, lines):
    """The stored lines with those that were sent in place of those of the same names (3.2): but Content-Length, and those by which the stored body is
    to be read."""
    sent = without(lines, NOT_UPDATED)
    return without(kept_lines, {n.lower() for n, _ in sent}) + sent


def freshen(kept, response):
    """The stored response with a 304's fields, to be judged anew and sent to this client; None: the 304 is about another (4.3.4)."""
    n = number(first(kept.lines, b"content-length"))
    lines = without(merged(kept.lines, response.lines), {b"content-length"})
    return Response(kept.status, response.minor, lines, ("length", n) if n is not None else ("close",)) if confirms(kept.lines, response.lines) else None


def stored_from(kept, response, merged_head, options):
    """What is stored of a merged head: without the Set-Cookie lines of the 304, which go to who asked, unless they may be stored (7.3)."""
    may = options.stores_cookies and is_explicit(says(merged_head.lines, options))
    return merged_head if may else freshen(kept, response._replace(lines=without(response.lines, {b"set-cookie"})))


def freshen_by_head(kept, length, response):
    """The same by a 200 to a HEAD (4.3.5): validators and length have to agree; None: what is stored is out of date."""
    same = lambda n: first(response.lines, n) is None or first(response.lines, n) == first(kept.lines, n)
    return freshen(kept, response) if kept.status == response.status and stated(response) in (None, length) and same(b"etag") and same(b"last-modified") else None


# ---------------------------------------------------------------- to the client
def matches(request, kept):
    """The client's condition lets the answer be 304 (9110 13.2.2; 9111 4.3.2): If-None-Match by weak comparison; without one If-Modified-Since, alone, by
    Last-Modified, else by Date. Only where the answer would be 2xx (13.2.1)."""
    tag, tags = tag_of(first(kept.lines, b"etag")), tags_of(request.lines, b"if-none-match")
    star = [v.strip(b" \t") for v in values(request.lines, b"if-none-match")] == [b"*"]
    since, modified = date_of(first(request.lines, b"if-modified-since")), date_of(first(kept.lines, b"last-modified") or first(kept.lines, b"date"))
    by_tag = star or (tag is not None and tags is not None and tag[1] in [t[1] for t in tags])
    by_date = len(values(request.lines, b"if-modified-since")) == 1 and since is not None and modified is not None and modified <= since
    return 200 <= kept.status < 300 and (by_tag if values(request.lines, b"if-none-match") else by_date)


def range_counts(request, kept):
    """A Range counts: GET, a stored 200, and If-Range, if there is one, is alone, and the strong tag, or the date of a Last-Modified that is strong: a second
    or more before Date (9110 14.2, 13.1.5, 8.8.2.2)."""
    cond, tag = first(request.lines, b"if-range"), tag_of(first(kept.lines, b"etag"))
    modified, date = date_of(first(kept.lines, b"last-modified")), date_of(first(kept.lines, b"date"))
    same = cond is None or len(values(request.lines, b"if-range")) == 1 and (tag_of(cond) == tag and tag is not None and not tag[0] or (
        date_of(cond) is not None and cond.strip(b" \t") == first(kept.lines, b"last-modified") and date is not None and modified < date))
    return request.method == b"GET" and kept.status == 200 and len(values(request.lines, b"range")) == 1 and same


def ranges(text, length, options):
    """The parts (from, to) of a body that a Range names, None where it doesn't count (another unit, no such form, too many parts, parts that overlap); none of
    them: 416 (9110 14.1.1, 14.1.2, 14.2)."""
    m = re.fullmatch(rb"(?i:bytes)=[ \t,]*((?:(?:[0-9]+-[0-9]*|-[0-9]+)[ \t]*(?:,[ \t,]*|$))+)", text)
    specs = re.findall(rb"([0-9]*)-([0-9]*)", m[1]) if m else []
    if not m or any(a and b and number(a) > number(b) for a, b in specs) or len(specs) > options.most_ranges:
        return None
    specs = [(number(a), number(b)) for a, b in specs]
    parts = [(a, length if b is None else min(b + 1, length)) if a is not None else (max(0, length - b), length) for a, b in specs]
    parts = [(a, b) for a, b in parts if a < b]
    overlap = any(x < d and c < y for i, (x, y) in enumerate(parts) for c, d in parts[:i])
    return None if overlap else parts


def cache_status(options, how):
    """An element of Cache-Status (9211 2): `how` are its parameters."""
    return (b"Cache-Status", b"; ".join([options.name] + how))


def sent(lines, how, extra, options):
    """Lines as they go to a client: one more element of Cache-Status after those that are there."""
    mine = cache_status(options, how)
    return without(lines, {b"cache-status"}) + extra + [(mine[0], b", ".join(values(lines, b"cache-status") + [mine[1]]))]


def boundary_of(request, now, options):
    """The boundary between parts (2046 5.1.1), where there is a secret: of that, the moment and the key, so that no stranger can write it into a body before."""
    moment = (now // SECOND).to_bytes(8, "big") + (now % SECOND).to_bytes(8, "big")
    return hashlib.blake2b(bytes.fromhex(options.secret.decode()) + moment + key(request, options), digest_size=16).hexdigest().encode()


def as_came(kept, response):
    """What is stored under the lines that came, for the answer to who fetched it: with the fields that aren't stored."""
    return kept._replace(lines=response.lines + with_length(stated(response)))


def answer(request, kept, length, now, how, options, boundary=None):
    """The answer from what is stored, or is being stored: to who fetched it `kept` has the lines that came, to others the stored ones (9111 4, 4.3.2; 9110 13.2.2, 14.2, 15.3.7, 15.4.5, 15.5.17): 304, 206 (one part or several), 416, or the stored status
    with the whole. `length`: of the body where all of it is there, else None: then the stored Content-Length counts; without one Range doesn't.
    `boundary`: between several parts, which without one are answered by the whole. `how`: of Cache-Status."""
    length = number(first(kept.lines, b"content-length")) if length is None else length
    age = [(b"Age", b"%d" % min(max(0, now - kept.arrival) // SECOND, MOST_SECONDS))]
    rows, own = without(kept.lines, {b"age", b"content-length"}), lambda extra, lines: sent(lines, how, age + extra, options)
    accepts = [(b"Accept-Ranges", b"bytes")] if kept.status == 200 and length is not None and not values(rows, b"accept-ranges") else []  # 9110 14.3
    if matches(request, kept):
        gone = NOT_IN_304 | ({b"last-modified"} if tag_of(first(rows, b"etag")) else set())
        return Answer(304, own([], without(rows, gone)), None)
    parts = ranges(first(request.lines, b"range"), length, options) if length is not None and range_counts(request, kept) else None
    parts = None if parts and len(parts) > 1 and boundary is None else parts
    if parts == []:
        return Answer(416, sent([l for l in rows if l[0].lower() in (b"date", b"via")], how, [(b"Content-Range", b"bytes */%d" % length)] + with_length(0), options), [])
    if parts is not None and len(parts) == 1:
        a, b = parts[0]
        return Answer(206, own(accepts + [(b"Content-Range", b"bytes %d-%d/%d" % (a, b - 1, length))] + with_length(b - a), rows), [(b"", a, b)])
    if parts:
        kind = b"".join(b"Content-Type: %s\r\n" % v for v in values(rows, b"content-type"))
        texts = [(b"\r\n--%s\r\n%sContent-Range: bytes %d-%d/%d\r\n\r\n" % (boundary, kind, a, b - 1, length), a, b) for a, b in parts]
        after = b"\r\n--%s--\r\n" % boundary
        total = sum(len(t) + b - a for t, a, b in texts) + len(after)
        return Answer(206, own(accepts + [(b"Content-Type", b"multipart/byteranges; boundary=" + boundary)] + with_length(total), without(rows, {b"content-type"})), texts, after)
    bodiless = kept.status == 204
    return Answer(kept.status, own(accepts + ([] if bodiless else with_length(length)), rows), None if request.method == b"HEAD" or bodiless else [(b"", 0, length)])


def without_drops(response, options):
    """A response without the fields that the operator drops."""
    return response._replace(lines=without(response.lines, set(options.response_drops)))


def told(response, request, asked, came, how, options, fetch="pass-on"):
    """What a client gets of a response that isn't stored, after what went to the origin, `fetch`: it goes on as it came, an Age grown by the time of
    the fetch (9111 5.1). Where the whole was asked for, without the client's Range and conditions, they are answered here: of a GET 304, 206 of one part,
    416; several parts by the whole (9110 13.2.2, 14.2). What the operator drops of responses goes, but of what was passed on."""
    response = response if fetch == "pass-on" else without_drops(response, options)
    age = [(b"Age", b"%d" % min((came - arrival(response.lines, asked, came, options)) // SECOND, MOST_SECONDS))] if values(response.lines, b"age") else []
    rows, kept = without(response.lines, {b"age"}), Kept(response.status, response.lines, 0, 0, 0, 0)
    whole = {"pass-on": False, "fill": options.fills_ranges or not values(request.lines, b"range"), "confirm": response.status == 200, "again": True}[fetch]
    length = response.framing[1] if response.framing[0] == "length" else None
    if whole and request.method == b"GET":
        if matches(request, kept):
            gone = NOT_IN_304 | ({b"last-modified"} if tag_of(first(rows, b"etag")) else set())
            return Answer(304, sent(without(rows, gone), how, age, options), None)
        parts = ranges(first(request.lines, b"range"), length, options) if length is not None and range_counts(request, kept) else None
        if parts == []:
            return Answer(416, sent([l for l in rows if l[0].lower() in (b"date", b"via")], how, [(b"Content-Range", b"bytes */%d" % length)] + with_length(0), options), [])
        if parts is not None and len(parts) == 1:
            a, b = parts[0]
            return Answer(206, sent(without(rows, {b"content-length"}), how, age + [(b"Content-Range", b"bytes %d-%d/%d" % (a, b - 1, length))] + with_length(b - a), options), [(b"", a, b)])
    bodiless = response.framing[0] in ("none", "head_length") or request.method == b"HEAD"
    return Answer(response.status, sent(rows, how, age + with_length(stated(response)), options), None if bodiless else [(b"", 0, length)])


# ---------------------------------------------------------------- invalidation (9111 4.4)
def mirrored(path, options):
    """A path of the origin's, as it is here: without the prefix that is sent in front of it."""
    rest = path[len(options.origin_prefix):]
    return (rest if rest[:1] == b"/" else b"/" + rest) if path.startswith(options.origin_prefix) and rest[:1] in (b"", b"/", b"?") else path


def key_of_reference(request, path, options):
    """The key of a path here, as that of a request for it."""
    return key_of(request.scheme, request.host, chosen_target(path, options), options)


def target_of(request, text, options):
    """The key that a URI reference names, if it is of the request's own origin, which knows itself by the host that it is sent; None for another, and for a
    path without a slash in front."""
    m = re.fullmatch(rb"(?:(?:(https?):)?//([^/?#]*))?([^#]*)(?:#.*)?", text.strip(b" \t"), re.I)
    if not m or (m[3][:1] != b"/" and not (m[2] is not None and m[3][:1] in (b"", b"?"))):
        return None
    scheme = (m[1] or request.scheme).lower()
    path = m[3] if m[3][:1] == b"/" else b"/" + m[3]
    host = None if m[2] is None else host_of(m[2], scheme)
    if m[2] is None or (options.origin_host and host == host_of(options.origin_host, scheme)):
        return key_of_reference(request, mirrored(path, options), options)
    if scheme != request.scheme or host != request.host:
        return None
    return key_of_reference(request, path if options.origin_host else mirrored(path, options), options)


def invalidates(request, response, options):
    """The keys to purge once a response has come to a request of an unsafe method: where it is no error its own target, and those that Location and
    Content-Location name of the same origin."""
    if request.method in SAFE or not 200 <= response.status < 400:
        return []
    more = [target_of(request, v, options) for n in (b"location", b"content-location") for v in values(response.lines, n)]
    return [key(request, options)] + [k for k in more if k is not None]
