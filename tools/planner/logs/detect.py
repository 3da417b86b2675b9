"""Says which format a file has, by its first lines."""
import struct

from . import balancers, columns, combined, json_lines, servers
from .records import Pass
from .unpack import Refused

# A format reads so many of the first lines, or the file isn't of it.
SHARE, MOST_LINES = 0.9, 1000
RECORD = struct.Struct("<IQIq")
HOST_AND_TARGET, URL, AS_WRITTEN = "host and target", "the URL", "as the log writes it"


def guarded(read):
    """A reader of lines that reads none with a number of more digits than Python takes."""

    def guard(line):
        try:
            return read(line)
        except ValueError:
            return None

    return guard


class Format:
    """A format: its reader of lines and, where there is one, of blocks; the options by which tier_curve reads such files itself."""

    def __init__(self, name, read, key=AS_WRITTEN, fast=None, options=None, columns_=None, heads=False, unordered=False):
        self.name, self.read, self.fast, self.options, self.columns = name, read and guarded(read), fast, options, columns_
        # key: what a key is made of; heads: lengths are those of bodies with their header lines; unordered: lines aren't in order of time
        self.key, self.heads, self.unordered, self.front = key, heads, unordered, ""

    def described(self):
        return self.name + self.front


def by_columns(name, read, its, lines, skip=0):
    """A format by columns; where its moments aren't seconds, tier_curve doesn't read it itself."""
    read, is_scaled = columns.in_seconds(guarded(read), lines)
    return Format(name, read, options=None if is_scaled else columns.options_of(its, skip), columns_=its)


def headed(lines):
    """The formats of comma-separated files whose head line names the columns."""
    names = [it.strip().strip("#").strip().lower() for it in lines[0].split(",")] if lines else []
    at = {name: place for place, name in enumerate(names, 1)}
    for name, needed, its in columns.HEADED:
        if needed <= set(names):
            inner, first = columns.reader(its(at)), lines[0]
            made = by_columns(name, lambda line, inner=inner, first=first: Pass("a head line") if line == first else inner(line), its(at), lines, 1)
            # blanks around words are none of tier_curve's
            made.options = None if any(", " in it or " ," in it for it in lines[1:]) else made.options
            yield made


def wikipedia(lines, rules):
    read = columns.wikipedia(rules)
    wide = len(lines[-1].split("\t")) if lines else 4
    skip = int(bool(lines) and isinstance(guarded(read)(lines[0]), Pass))
    return by_columns("wikipedia", read, columns.Columns(1, (2,), (wide - 1,), delimiter="\t"), lines, skip)


def of_combined(lines, rules):
    layout = combined.Layout(rules, lines)
    fast = None if layout.host_last or layout.is_odd_front else lambda slow, counts: combined.Fast(rules, layout, slow, counts)
    made = Format("combined", combined.reader(rules, layout), layout.key(), fast)
    made.front, made.doubt = layout.front, layout.doubt
    return made


def of_docker(lines, rules, named):
    """What docker's json-file driver wrapped: an object a line, which has the line."""
    def inner(line):
        record = json_lines.object_in(line)
        log = record.get("log") if record else None
        return log.rstrip("\r\n") if isinstance(log, str) else None

    made = next((it for it, _ in matching([it for it in map(inner, lines) if it is not None], rules, named)), None)
    if made is None:
        return None
    read = made.read
    wrapped = Format("docker, " + made.name, lambda line: read(inner(line) or ""), made.key, None, None, None, made.heads, made.unordered)
    wrapped.front, wrapped.doubt = made.front, getattr(made, "doubt", None)
    return wrapped


def candidates(lines, rules, named=None):
    """The formats in the order in which they are asked: first those that the command line or a head line names."""
    if rules.line:
        yield Format("line", rules.line.reader(rules), rules.line.key(), heads=rules.line.heads)
        return
    if rules.columns:
        inner, heads = columns.reader(rules.columns), frozenset(lines[:rules.skip])
        yield by_columns("columns", lambda line: Pass("a head line") if line in heads else inner(line), rules.columns, lines, rules.skip)
        return
    for line in lines[:10]:
        read = servers.w3c(rules, line) if line.lower().startswith("#fields:") else None
        if read:
            name, key = servers.w3c_name(lines, line)
            yield Format(name, read, key, unordered=True)
    yield from headed(lines)
    if rules.names:
        yield Format("json", json_lines.reader(rules, rules.names, lines), "the fields that --json-fields names", json_lines.fast_of(rules, rules.names, lines))
    if lines and lines[0].lstrip().startswith("{"):
        wrapped = of_docker(lines, rules, named) if '"log"' in lines[0] else None
        if wrapped:
            yield wrapped
        for name, names in json_lines.BUILT_IN.items():
            yield Format(name, json_lines.reader(rules, names, lines), URL if name == "json-google" else HOST_AND_TARGET, json_lines.fast_of(rules, names, lines))
    yield Format("s3", servers.s3(rules), "bucket and key")
    yield Format("squid", servers.squid(rules), URL, heads=True)
    yield of_combined(lines, rules)
    yield Format("haproxy", balancers.haproxy(rules), "the captured host, if any, and the target", heads=True)
    yield Format("envoy", balancers.envoy(rules), HOST_AND_TARGET)
    yield Format("alb", balancers.balancer(rules), HOST_AND_TARGET, heads=True)
    yield Format("cloudfront-realtime", balancers.real_time(rules), HOST_AND_TARGET, heads=True, unordered=True)
    yield by_columns("twitter", columns.twitter(rules), columns.TWITTER, lines)
    if named == "wikipedia" or lines[:1] and lines[0].startswith(("relative_unix", "hashed_")) or all(it.split("\t")[0].isdigit() and len(it.split("\t")[0]) < 9 for it in lines):
        yield wikipedia(lines, rules)
    if named == "tencent-cbs" or columns.are_sectors(lines):
        yield Format("tencent-cbs", columns.in_seconds(guarded(columns.tencent(rules)), lines)[0], "volume and offset")
    read, is_scaled = columns.in_seconds(columns.text(rules), lines)
    yield Format("text", read, options=None if is_scaled else [])


FORMATS = """A file's first 1,000 lines show its format, or --format NAME tells it. gzip and zstd are unpacked. Line 2 of the report says what a key is
made of.

  combined, common  of nginx and Apache, also after a host, with a host behind the client or at the end (--host-field-last says so where it
                    isn't seen), or with a list of addresses (X-Forwarded-For) as the client. Skipped are other methods than GET and HEAD
                    (--methods) and other statuses than 200, 206 and 304 (--statuses). A Content-Range anywhere behind the length
                    tells the length of a whole body.
  squid             its native log, and that of ATS. Lengths are with heads, so an entry weighs 38 bytes more, and not 438. Skipped are
                    also what was denied or aborted, and CONNECT.
  haproxy, envoy, alb
                    HAProxy's HTTP log, Envoy's default format, AWS's application load balancer.
  cloudfront, iis, w3c
                    and other logs with W3C's '#Fields:'. Lines aren't in order: they are sorted by time. Skipped are also errors and
                    redirects. Without a field of bytes (IIS by default) --lengths tells the lengths.
  cloudfront-realtime
                    with its default fields.
  s3                server access. Skipped is all but GET and HEAD of objects.
  json-caddy, json-logpush (Cloudflare), json-traefik, json-google, json-nginx, json-envoy, json-fastly, json-akamai, json-cloudfront
                    an object a line, also within docker's json-file. Others: --json-fields time=ts,key=request.host+request.uri,bytes=size,
                    status=..,method=.., where a dot goes into an object; request=.. is a whole request line, whose target ends the key.
  line              any lines, by the log_format or LogFormat that wrote them: --line '$remote_addr .. "$request" $status $body_bytes_sent'.
  columns           any columns: --columns time=1,key=2,bytes=3 with --delimiter , and --skip-lines 1.
  text              lines 'time key bytes': a dash removes the key, '?' is a length that isn't told.
  oracle-general, libcachesim-csv
                    of libCacheSim.
  twitter, meta-kv, meta-cdn, wikipedia, tencent-cbs
                    public traces. Operations that don't get are skipped, those that delete remove the key.

The line of a 304, a 206 or a HEAD doesn't tell the body's length: the greatest that a whole response of its key has anywhere in the files counts,
or that of --lengths FILE. A download that was broken off is short, with status 200."""
KNOWN = ["combined", "common", "squid", "haproxy", "envoy", "alb", "cloudfront", "iis", "w3c", "cloudfront-realtime", "s3", "json", *json_lines.BUILT_IN,
         *(it[0] for it in columns.HEADED), "twitter", "wikipedia", "tencent-cbs", "text", "oracle-general"]


# The options of the command line that formats take.
ASKED = frozenset(("--methods", "--statuses", "--ignore-query"))
TAKES = {"combined": ASKED | {"--host-field-last"}, "s3": {"--statuses"}, "line": ASKED | {"--line"}, "columns": {"--columns"},
         **{it: ASKED for it in ("squid", "cloudfront", "iis", "w3c", "cloudfront-realtime", "haproxy", "envoy", "alb")}}


def takes(name, rules):
    """Those of them that the format of this name takes."""
    if name.startswith("docker, "):
        return takes(name[8:], rules)
    if name == "json":
        told = {"--methods": rules.names.method or rules.names.request, "--statuses": rules.names.status}
        return {"--json-fields", "--ignore-query", *(it for it in told if told[it])}
    return ASKED if name in json_lines.BUILT_IN else TAKES.get(name, frozenset())


def is_oracle(front, length):
    """Whether these are libCacheSim's records: times that don't fall, sizes below 2^31, and the number of a later request or -1. Text
    has no byte 0."""
    if len(front) < 10 * RECORD.size or (length is not None and length % RECORD.size) or b"\0" not in front[:240]:
        return False
    front = front[:MOST_LINES * RECORD.size]
    records = list(RECORD.iter_unpack(front[:len(front) // RECORD.size * RECORD.size]))
    good = sum(a[0] <= b[0] and b[2] < 2**31 and (b[3] == -1 or b[3] > 0) for a, b in zip(records, records[1:]))
    return good >= 0.99 * (len(records) - 1)


def first_lines(front, at_end):
    lines = front.decode("utf-8", "surrogateescape").split("\n")
    if not at_end:
        lines.pop()
    return [it for it in (line.rstrip("\r") for line in lines) if it.strip()][:MOST_LINES]


def refusal(name, lines, counts, readers):
    """Why a file is of no format: what share each format read, the first lines that the best one didn't, and what to do."""
    if not lines:
        return Refused(f"{name}: nothing is in it")
    best = max(counts, key=counts.get)
    unread = [it for it in lines if counts[best] == 0 or readers[best](it) is None][:3]
    told = ", ".join(f"{it} {counts[it]}" for it in sorted(counts, key=counts.get, reverse=True) if counts[it]) or "none by any format"
    shown = "\n".join("    " + ascii(it[:160])[1:-1] for it in unread)
    return Refused(f"{name}: no known format. Of the first {len(lines)} lines were read: {told}. "
                   f"The first that {'the best' if counts[best] else 'none'} read{'' if not counts[best] else ' not'}:\n{shown}\n{what_to_do(lines)}")


def leaves(record, front=""):
    """The names of an object's fields, with dots into objects."""
    for name, value in record.items():
        if isinstance(value, dict):
            yield from leaves(value, f"{front}{name}.")
        elif isinstance(value, (str, int, float)):
            yield front + name


LOG_FORMAT = "Give the log_format or LogFormat that wrote it: --line '$remote_addr - $remote_user [$time_local] \"$request\" $status $body_bytes_sent'"
# What packs or wraps lines otherwise, by what a file begins with: what it is, and what makes lines of it.
WRAPPED = ((("\udcff\udcfe", "\udcfe\udcff"), "the text is UTF-16", "iconv -f UTF-16 -t UTF-8"), (("[{", "["), "it is an array of JSON", "jq -c '.[]'"),
           (("{",), "its objects stand on several lines", "jq -c ."))


def wrapped_words(lines):
    """What a file is whose requests don't stand a line each, and what puts them so; or None."""
    # (of random bytes half of the lines have one)
    if sum(it.count("\r") for it in lines) >= (3 * len(lines) if len(lines) > 1 else 1):
        return "its lines end with carriage returns alone: `tr '\\r' '\\n'` makes lines of it, into a pipe, read as '-'"
    front = lines[0].lstrip() if lines else ""
    for marks, what, program in WRAPPED:
        is_so = front.startswith(marks) and (marks[0] != "[{" or front == "[" or json_lines.is_array(front))
        if is_so and not any(json_lines.object_in(it) for it in lines[:10]):
            return f"{what}: `{program}` makes a line of each request, into a pipe, read as '-'"
    return None


def columned(lines, delimiter):
    """Whether lines look as columns apart by this: three or more, in each line as many."""
    counts = {it.count(delimiter) for it in lines}
    return len(counts) == 1 and min(counts) >= 2 and (delimiter != " " or not any('"' in it or "[" in it for it in lines))


def what_to_do(lines):
    """How such lines can be read all the same."""
    record = next(filter(None, map(json_lines.object_in, lines[:10])), None)
    if record:
        seen = ", ".join(list(leaves(record))[:40])
        return f"Its fields are: {ascii(seen)[1:-1]}\nName those that are meant: --json-fields time=..,key=..+..,bytes=..,status=..,method=.. (or request=..)"
    delimiter = next((it for it in ("\t", ",", " ") if columned(lines[:10], it)), None)
    if delimiter:
        shown = "\\t" if delimiter == "\t" else delimiter
        columns_ = f"Name its columns: --columns time=1,key=2,bytes=3 --delimiter '{shown}' (--skip-lines 1 where the first line is a head); --list-formats tells what is known"
        return columns_ if delimiter != " " else f"{columns_}. {LOG_FORMAT}"
    return f"{LOG_FORMAT}\nor --format NAME, one of: {', '.join(KNOWN)}"


def matching(lines, rules, named=None, counts=None, readers=None):
    """Yields the format that has these lines, or that name, with its count; notes what each other one read."""
    for it in candidates(lines, rules, named):
        if named is not None and it.name != ("combined" if named == "common" else named):
            continue
        count = sum(it.read(line) is not None for line in lines)
        if counts is not None:
            counts[it.name], readers[it.name] = max(count, counts.get(it.name, 0)), it.read
        if named is not None or (lines and count >= SHARE * len(lines)):
            yield it, count
            return


def detect(stream, rules, named=None):
    """The format of a stream, or that of this name. One is refused that is none."""
    front = stream.look()
    length = len(front) if stream.whole() else None
    if named == "oracle-general" or (named is None and not rules.given and is_oracle(front, length)):
        return Format("oracle-general", None, options=["--format", "oracle-general"])
    lines, counts, readers = first_lines(front, length is not None), {}, {}
    wrapped = wrapped_words(lines)
    if wrapped:
        raise Refused(f"{stream.name}: {wrapped}")
    found = next(matching(lines, rules, named, counts, readers), None)
    if found:
        doubt = getattr(found[0], "doubt", None)
        if doubt:
            raise Refused(f"{stream.name}: {doubt}")
        return found[0]
    if named is not None:
        raise Refused(f"{stream.name}: the first line doesn't say which columns are where, as --format {named} wants")
    raise refusal(stream.name, lines, counts or {"text": 0}, readers)
