"""Formats by columns: the lines 'time key bytes' and those of public traces. Columns tells tier_curve how to read such lines; the same
columns are read here, a line at a time, where they become a trace."""
import collections
import re

from .records import Pass, Removal, Request, number, unit_of

# The columns from 1 on; key and bytes may be several, which are joined and added. The words of op that ask and that remove.
Columns = collections.namedtuple("Columns", "time key bytes op ttl times delimiter asks removes", defaults=(None, None, None, None, ("get", "gets"), ("delete",)))
TWITTER = Columns(1, (2,), (3, 4), 6, 7, None, ",")
TWITTER_OPS = frozenset("get gets set add replace cas append prepend delete incr decr".split())
TEXT_LINE = re.compile(r"[ \t]*(\d+)(?:\.\d+)?[ \t]+([^ \t]+)[ \t]+(\d+|[-?])[ \t]*$", re.ASCII)
# Of so many keys the lifetimes are kept that lines without a request tell.
MOST_TOLD = 2**20
SECONDS = re.compile(r"\d*\.?\d+(?:[eE]-?\d+)?$", re.ASCII)


def meta_cdn(at):
    return Columns(at["timestamp"], (at["cachekey"],), (at["objectsize"],), at["optype"], at.get("ttl"), None, ",", ("get", "GET", "1", "read", "READ"), ("delete", "DELETE"))


def meta_kv(at):
    return Columns(at.get("op_time") or 1, (at["key"],), (at["size"],), at["op"], at.get("ttl"), at["op_count"], ",", ("get", "GET", "get_lease", "GET_LEASE"), ("delete", "DELETE"))


def libcachesim(at):
    return Columns(at["time"], (at["object"],), (at["size"],), None, None, None, ",")


# Comma-separated files by the names in the head line: what must be there, and the columns where the names stand.
HEADED = (
    ("meta-cdn", {"timestamp", "cachekey", "optype", "objectsize"}, meta_cdn),
    ("meta-kv", {"key", "op", "size", "op_count"}, meta_kv),
    ("libcachesim-csv", {"time", "object", "size"}, libcachesim),
)


def options_of(columns, skip):
    """The options of tier_curve that read these columns."""
    parts = [f"time={columns.time}", "key=" + "+".join(map(str, columns.key)), "bytes=" + "+".join(map(str, columns.bytes))]
    parts += [f"{name}={at}" for name, at in (("op", columns.op), ("ttl", columns.ttl), ("times", columns.times)) if at]
    words = ["--columns", ",".join(parts)]
    if columns.delimiter:
        words += ["--delimiter", columns.delimiter.replace("\t", "\\t")]
    if skip:
        words += ["--skip-lines", str(skip)]
    if columns.op:
        words += ["--get-ops", ",".join(columns.asks), "--delete-ops", ",".join(columns.removes)]
    return words


def reader(columns):
    """Reads a line by its columns. With op and ttl a line that neither asks nor removes tells the lifetime of its key, and a line that
    asks has its own where that isn't 0."""
    told, need = {}, max(it or 0 for it in (columns.time, columns.op, columns.ttl, columns.times, *columns.key, *columns.bytes))

    def read(line):
        words = [it.strip() for it in line.split(columns.delimiter)]
        if len(words) < need:
            return None
        key, sizes = columns.delimiter.join(words[it - 1] for it in columns.key), [number(words[it - 1]) for it in columns.bytes]
        moment = number(words[columns.time - 1].split(".")[0])
        if moment is None or not key:
            return None
        what = words[columns.op - 1] if columns.op else columns.asks[0]
        if what in columns.removes:
            return Removal(moment, key)
        life = number(words[columns.ttl - 1]) if columns.ttl else None
        if what not in columns.asks:
            if life and (key in told or len(told) < MOST_TOLD):
                told[key] = life
            return Pass("operation " + what[:16]) if re.match(r"\w+$", what, re.ASCII) else None
        if None in sizes:
            return None
        # of several columns the last is the body: of length 0 it wasn't there
        size = None if len(sizes) > 1 and sizes[-1] == 0 else sum(sizes)
        times = number(words[columns.times - 1]) if columns.times else 1
        if not times:
            return None if times is None else Pass("0 times")
        return Request(moment, key, size, None if size is not None else "no value", life or told.get(key), times)
    return read


def twitter(_rules):
    inner = reader(TWITTER)

    def read(line):
        words = line.split(",")
        # a key may have commas of its own: the last five columns are counted from the end
        if len(words) < 7 or words[-2] not in TWITTER_OPS or number(words[0]) is None:
            return None
        return inner(",".join([words[0], ";".join(words[1:-5]), *words[-5:]]))
    return read


def named(text, delimiter):
    """The columns that 'time=1,key=2+3,bytes=4,op=5,ttl=6,times=7' says."""
    told = {}
    for word in text.split(","):
        what, _, places = word.partition("=")
        if what not in ("time", "key", "bytes", "op", "ttl", "times") or what in told:
            raise ValueError(word)
        told[what] = tuple(int(it) if it.isdigit() and 0 < int(it) < 1000 else int("column " + it) for it in places.split("+"))
        if what not in ("key", "bytes") and len(told[what]) > 1:
            raise ValueError(word)
    if any(it not in told for it in ("time", "key", "bytes")):
        raise ValueError(text)
    one = (told.get(it, (None,))[0] for it in ("op", "ttl", "times"))
    return Columns(told["time"][0], told["key"], told["bytes"], *one, delimiter.replace("\\t", "\t"), ("get", "gets", "GET", "read", "READ"), ("delete", "DELETE"))


def in_seconds(read, lines):
    """The same reader, where the first moment is one in milli-, micro- or nanoseconds, with seconds in their place; and whether it is so."""
    first = next((it.moment for it in map(read, lines) if isinstance(it, (Request, Removal))), 0)
    unit = unit_of(first)

    def scaled(line):
        made = read(line)
        return made._replace(moment=made.moment // unit) if isinstance(made, (Request, Removal)) else made
    return (scaled, True) if unit > 1 else (read, False)


def wikipedia(_rules):
    """Lines of Wikipedia's caches of 2019: time from 0 on, hash as a whole number, [type], size and seconds, apart by tabs."""
    def read(line):
        words = line.split("\t")
        if line.startswith(("relative_unix", "hashed_", "#")):
            return Pass("a head line")
        if len(words) not in (4, 5) or number(words[0]) is None or number(words[1]) is None or number(words[-2]) is None or not SECONDS.match(words[-1]):
            return None
        return Request(int(words[0]), words[1], int(words[-2]))
    return read


def are_sectors(lines):
    """Whether lines have Tencent's marks: offsets and lengths in pages of eight sectors, reads and writes."""
    words = [it.split(",") for it in lines[:100]]
    return bool(words) and all(len(it) == 5 and all(number(word) is not None for word in it) and int(it[1]) % 8 == int(it[2]) % 8 == 0 for it in words)


def tencent(_rules):
    """Tencent's block storage: second, offset, sectors, 0 for a read, volume."""
    def read(line):
        words = line.split(",")
        if len(words) != 5 or any(number(it) is None for it in words) or words[3] not in ("0", "1"):
            return None
        return Request(int(words[0]), words[4] + "/" + words[1], int(words[2]) * 512) if words[3] == "0" else Pass("a write")
    return read


def text(_rules):
    """Lines 'time key bytes': a dash removes the key, '?' is a length that isn't told."""
    def read(line):
        found = TEXT_LINE.match(line)
        if not found:
            return None
        moment, key, size = int(found[1]), found[2], found[3]
        return Removal(moment, key) if size == "-" else Request(moment, key, None if size == "?" else int(size), "?" if size == "?" else None)
    return read
