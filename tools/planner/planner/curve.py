"""The text that the curve program writes: rows, totals and the rows by intervals."""
import re

HEAD = "size,hits,hit_bytes,hit_percent,byte_hit_percent"
FRESH = HEAD + ",fresh_hits,fresh_hit_bytes,fresh_hit_percent,fresh_byte_hit_percent"
# where moments are told, first_eviction_at is one, else the number of a request
HELD, AGED = HEAD + ",entries,first_eviction_at", FRESH + ",entries,first_eviction_at,lru_victim_used_at"
HEADS = (HEAD, HELD, FRESH, AGED)
HOURS = "interval_end,size,requests,request_bytes,hits,hit_bytes,fresh_hits,fresh_hit_bytes,lru_victim_used_at"
ANY = 2**64 - 1
NONE = "no curve of a part"
# The words of the line of totals in their order; those of a part come last.
WORDS = ("format", "requests", "unique_keys", "deletes", "size_changes", "skipped_lines", "request_bytes", "stated_bytes", "requests_without_size", "other_ops",
         "repeated_keys", "repeated_key_bytes", "ttl", "first_at", "last_at", "part", "parts", "entry_overhead", "lines_read", "total_requests", "total_bytes")
NEEDED = frozenset(WORDS[:7])


class Refused(Exception):
    """Why a text is no curve, or why curves don't belong together."""


def percent(part, whole):
    hundredths = part * 10000 // whole if whole else 0
    return f"{hundredths // 100}.{hundredths % 100:02}"


class Row:
    """What caches of one limit find; of a curve without lifetimes the later figures are None."""

    def __init__(self, limit, finds, found, fresh=None, fresh_bytes=None, entries=None, full_at=None, oldest_at=None):
        self.limit, self.finds, self.found, self.fresh, self.fresh_bytes = limit, finds, found, fresh, fresh_bytes
        self.entries, self.full_at, self.oldest_at = entries, full_at, oldest_at

    def text(self, requests, weight):
        name = "unlimited" if self.limit == ANY and self.fresh is not None else str(self.limit)
        words = [name, self.finds, self.found, percent(self.finds, requests), percent(self.found, weight)]
        if self.fresh is not None:
            words += [self.fresh, self.fresh_bytes, percent(self.fresh, requests), percent(self.fresh_bytes, weight)]
        if self.entries is not None:
            told = (self.full_at, self.oldest_at) if self.fresh is not None else (self.full_at,)
            words += [self.entries, *("" if it is None else it for it in told)]
        return ",".join(map(str, words))


class Curve:
    """The rows and totals of one block; a part is its number and the number of parts."""

    def __init__(self, name, rows, totals, kind):
        self.name, self.rows, self.totals, self.kind = name, rows, totals, kind
        self.timed, held = bool(rows) and rows[-1].fresh is not None, bool(rows) and rows[-1].entries is not None
        self.aged, self.head = self.timed and held, HEADS[2 * self.timed + held]
        self.part, self.parts = map(int, totals.get("part", "0/1").split("/"))
        # rows so far, by moments: at each the requests, their weight, and a Row for each limit
        self.hours = {}

    def __getattr__(self, name):
        if name in WORDS:
            return self.totals.get(name)
        raise AttributeError(name)

    def text(self):
        rows = [it.text(self.requests, self.request_bytes) for it in self.rows]
        return "\n".join([self.head, *rows, totals_text(self.totals), self.kind]) + "\n"


def totals_text(totals):
    return "# " + " ".join(f"{name}={'' if value is None else value}" for name, value in totals.items())


def totals_of(line):
    """The words of the line of totals, or None where it isn't one."""
    pairs = re.findall(r" ([a-z_]+)=(\d*(?:/\d+)?)", line)
    names = [name for name, _ in pairs]
    if not line.startswith("# ") or names != [it for it in WORDS if it in names] or not NEEDED <= set(names) or pairs[0] != ("format", "1"):
        return None
    return {name: value if name == "part" else int(value) if value else None for name, value in pairs}


def row_of(line, wide):
    """The row of a line of so many words."""
    words = line.split(",")
    if len(words) != wide:
        raise ValueError(line)
    limit = ANY if words[0] == "unlimited" else int(words[0])
    found, rest = words[1:3], words[5:]
    fresh, held = (rest[:2], rest[4:]) if wide > 7 else (["", ""], rest)
    return Row(limit, *(int(it) if it else None for it in (*found, *fresh, *held)))


def block_of(name, lines):
    """The curve at the beginning of these lines, and the lines after it."""
    if not lines or lines[0] not in HEADS:
        raise Refused(f"{name}: {NONE}")
    end = next((at for at, line in enumerate(lines) if line.startswith("#")), None)
    totals = totals_of(lines[end]) if end is not None else None
    if totals is None or len(lines) < end + 2 or not lines[end + 1].startswith("# "):
        raise Refused(f"{name}: {NONE}")
    try:
        made = Curve(name, [row_of(it, len(lines[0].split(","))) for it in lines[1:end]], totals, lines[end + 1])
    except (ValueError, TypeError) as why:
        raise Refused(f"{name}: {NONE}") from why
    if made.text() != "\n".join(lines[:end + 2]) + "\n":
        raise Refused(f"{name}: {NONE}: a line isn't that of its numbers")
    return made, lines[end + 2:]


def hours_of(lines):
    """The rows so far, by moments."""
    out = {}
    for line in lines:
        at, limit, *words = line.split(",")
        requests, weight, finds, found, fresh, fresh_bytes = map(int, words[:-1])
        oldest_at = int(words[-1]) if words[-1] else None
        block = out.setdefault(int(at), (requests, weight, []))
        block[2].append(Row(ANY if limit == "unlimited" else int(limit), finds, found, fresh, fresh_bytes, oldest_at=oldest_at))
    return out


def curves_of(name, text):
    """The curves of a text: one, or those of several parts."""
    if not text.endswith("\n"):
        raise Refused(f"{name}: {NONE}: it ends early")
    lines, out = text[:-1].split("\n"), []
    while lines and lines[0] != HOURS:
        made, lines = block_of(name, lines)
        out.append(made)
    if lines:
        try:
            out[0].hours = hours_of(lines[1:])
        except (ValueError, IndexError) as why:
            raise Refused(f"{name}: no rows by intervals") from why
    return out


def read_curves(name):
    try:
        with open(name, encoding="ascii", newline="") as file:
            return curves_of(name, file.read())
    except UnicodeDecodeError as why:
        raise Refused(f"{name}: {NONE}") from why


def check_alike(curves):
    """Refuses curves that aren't those of parts of the same requests, with the same options."""
    first, seen = curves[0], {}
    for it in curves:
        pair = f"{first.name} and {it.name}"
        if "part" not in it.totals or it.kind != f"# estimate: one of {it.parts} parts of the keys":
            raise Refused(f"{it.name}: {NONE}")
        if it.parts != first.parts:
            raise Refused(f"{pair}: the numbers of parts differ")
        if it.entry_overhead != first.entry_overhead:
            raise Refused(f"{pair}: the entries' overheads differ")
        if (it.ttl, it.timed) != (first.ttl, first.timed):
            raise Refused(f"{pair}: the lifetimes differ")
        if [row.limit for row in it.rows] != [row.limit for row in first.rows]:
            raise Refused(f"{pair}: the sizes differ")
        if (it.lines_read, it.skipped_lines, it.other_ops) != (first.lines_read, first.skipped_lines, first.other_ops):
            raise Refused(f"{pair}: the numbers of lines or records differ")
        if "total_requests" in it.totals and (it.total_requests, it.total_bytes) != next((other.total_requests, other.total_bytes) for other in curves if "total_requests" in other.totals):
            raise Refused(f"{pair}: the numbers of requests in all differ")
        if it.part >= it.parts:
            raise Refused(f"{it.name}: there is no part {it.part} of {it.parts}")
        if it.part in seen:
            raise Refused(f"{seen[it.part]} and {it.name}: part {it.part} is there twice")
        seen[it.part] = it.name
