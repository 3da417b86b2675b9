"""A file of a known format as blocks of requests: as lines 'time key bytes', or as it is where tier_curve reads its format itself."""
import collections
import itertools

from . import detect
from .columns import text
from .records import MOMENTS, Pass, Removal, Request, in_range
from .unpack import Stream

# How many lines that weren't read are named.
MOST_NAMED = 10
BLANKS = {code: f"%{code:02X}" for code in (*range(33), 127)}
# A line that stands for many requests is repeated so many bytes at a time, and so many of these pieces are handed on at once.
PIECE, PIECES = 4096, 4096


def line_of(made):
    """The line 'time key bytes' of a request or a removal. Blanks within the key are written as in a URL."""
    key = made.key.translate(BLANKS) if not made.key.isalnum() else made.key
    size = "-" if isinstance(made, Removal) else f"?{made.part or ''}" if made.bytes is None else made.bytes
    return f"{made.moment} {key or '-'} {size}\n".encode("utf-8", "surrogateescape")


def times_of(made):
    """How many requests a line stands for."""
    return 1 if isinstance(made, Removal) else made.times


def repeated(made):
    """Yields the line of a request so often as it asks, in pieces of few bytes, each with how many lines it has."""
    line, left = line_of(made), times_of(made)
    each = max(1, PIECE // len(line))
    while left:
        count = min(each, left)
        yield line * count, count
        left -= count


def printable(text):
    """A text of a log without bytes that steer a terminal."""
    return "".join(it if it.isprintable() else "?" for it in text)


class Counts:
    """What was read: lines, requests, those passed over by reason, and those not read, of which the first are kept."""

    def __init__(self):
        # empty: lines of a file that is left as it is, in which nothing stands
        self.lines = self.requests = self.back = self.unread = self.empty = 0
        self.passed, self.named = collections.Counter(), []
        self.first = self.last = None
        # requests of which the log says whether its own cache had a hit, and those of them that were hits
        self.own = self.own_hits = 0

    def name(self, name, number, line):
        if len(self.named) < MOST_NAMED:
            self.named.append((name, number, line))

    def not_read(self, name, number, line):
        self.unread += 1
        self.name(name, number, line)

    def pass_over(self, why, name, number, line):
        if why:
            self.passed[why] += 1
        if why.endswith("out of range"):
            self.name(name, number, line)

    def add(self, other):
        """Adds the counts of another log, whose lines come later; but not how many moments go back."""
        for name in ("lines", "requests", "unread", "empty", "own", "own_hits"):
            setattr(self, name, getattr(self, name) + getattr(other, name))
        self.passed.update(other.passed)
        self.named += other.named[:MOST_NAMED - len(self.named)]
        if other.first is not None:
            self.first = other.first if self.first is None else min(self.first, other.first)
            self.last = other.last if self.last is None else max(self.last, other.last)

    def told(self):
        """The counts in words."""
        reasons = ", ".join(f"{printable(what.replace('method ', '').replace('status ', ''))} {count:,}" for what, count in self.passed.most_common(8))
        out = f"{self.lines:,} lines: {self.requests:,} requests"
        out += f"; skipped {sum(self.passed.values()):,} ({reasons})" if self.passed else ""
        out += f"; not read {self.unread:,}" if self.unread else ""
        return out + (f"; {self.back:,} requests go back in time" if self.back else "") + "."


class Log:
    """A file whose format is known."""

    def __init__(self, path, rules, named, longest):
        self.stream = Stream(path)
        self.rules, self.longest = rules, longest
        self.format = detect.detect(self.stream, rules, named)
        # by these files that are the same are seen, also where one of them is packed
        self.front_lines = tuple(detect.first_lines(self.stream.look(), self.stream.whole())[:100])
        self.first = next((it.moment for it in self.front_made()), 0)
        self.stream.park()

    def front_made(self):
        """The requests of the first lines."""
        if self.format.read is None:
            front = self.stream.look()
            return (text(self.rules)(f"{it[0]} {it[1]} {it[2]}") for it in detect.RECORD.iter_unpack(front[:len(front) // 24 * 24]))
        lines = detect.first_lines(self.stream.look(), self.stream.whole())
        return (it for it in map(self.format.read, lines) if isinstance(it, tuple) and not isinstance(it, Pass))

    def take(self, line, number, counts):
        """The request or the removal of a line, or None. Counts what isn't taken."""
        words = line.rstrip(b"\r").decode("utf-8", "surrogateescape")
        made = in_range(self.format.read(words)) if words.strip() else Pass("")
        if made is None:
            counts.not_read(self.stream.name, number, words)
        elif isinstance(made, Pass):
            counts.pass_over(made.why, self.stream.name, number, words)
            return None
        elif isinstance(made, Request) and made.own is not None:
            counts.own += 1
            counts.own_hits += made.own
        return made

    def short(self, line, number, counts):
        """The same, where its body isn't longer than is wanted."""
        made = self.take(line, number, counts)
        if isinstance(made, Request) and made.bytes is not None and made.bytes > self.longest:
            counts.passed[f"longer than {self.longest}"] += 1
            return None
        return made

    def blocks(self, counts):
        """Yields moments and lines, as lists of the same length; a line that asks often is several of each. Counts what isn't taken."""
        if self.format.read is None:
            for moments, records in self.records(counts):
                yield moments, [b"%d %d %d\n" % detect.RECORD.unpack(it)[:3] for it in records]
            return
        number = 0

        def slow(at, line):
            made = self.short(line, number + at + 1, counts)
            if made is not None:
                moments.append(made.moment)
                lines.append(line_of(made))

        fast = self.format.fast and self.format.fast(slow, counts)
        for block in self.stream.blocks():
            moments, lines = [], []
            if fast:
                fast(block, moments, lines, self.longest)
            for at, line in () if fast else enumerate(block[:-1].split(b"\n"), number + 1):
                made = self.short(line, at, counts)
                for piece, count in () if made is None else repeated(made):
                    counts.requests += count - 1
                    moments.append(made.moment)
                    lines.append(piece)
                    if len(lines) == PIECES:
                        yield moments, lines
                        moments, lines = [], []
            more = block.count(b"\n")
            number += more
            counts.lines += more
            yield moments, lines

    def made(self, counts):
        """Yields the requests and removals, each of them. Counts what isn't taken."""
        if self.format.read is None:
            read, blocks = text(self.rules), (b"".join(lines) for _, lines in self.blocks(counts))
            yield from (read(line.decode()) for block in blocks for line in block[:-1].split(b"\n"))
            return
        number = 0
        for block in self.stream.blocks():
            for line in block[:-1].split(b"\n"):
                number += 1
                made = self.take(line, number, counts)
                if made is not None:
                    yield from itertools.repeat(made, times_of(made))
        counts.lines += number

    def raw_blocks(self, counts, alone):
        """Yields moments and lines or records as they are, of a format that tier_curve reads itself. A line without a moment has that
        of the line before it. Of a file that is alone the moments don't matter."""
        columns, moment = self.format.columns, self.first
        if self.format.name == "oracle-general":
            yield from self.records(counts)
            return
        separator, place = (columns.delimiter.encode(), columns.time - 1) if columns else (None, 0)
        need = max(columns.time, *columns.key, columns.op or 1) if columns else 3
        for block in self.stream.blocks():
            moments, lines = [], [it + b"\n" for it in block[:-1].split(b"\n")]
            if alone:
                moments = [moment] * len(lines)
            for line in () if alone else lines:
                words = line.split(separator)
                word = words[place].split(b".")[0].strip() if len(words) >= need else b""
                told = int(word) if word.isdigit() and len(word) < 20 else MOMENTS
                moment = told if told < MOMENTS else moment
                moments.append(moment)
            counts.lines += len(lines)
            counts.empty += sum(map(bytes.isspace, lines))
            yield moments, lines

    def records(self, counts):
        size, rest = detect.RECORD.size, b""
        for data in self.stream.bytes():
            data = rest + data
            whole = len(data) // size * size
            lines, rest = [data[at:at + size] for at in range(0, whole, size)], data[whole:]
            counts.lines += len(lines)
            yield [int.from_bytes(it[:4], "little") for it in lines], lines
