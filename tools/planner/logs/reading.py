"""Several files as one stream of requests in order of time."""
import heapq
import os
import subprocess
import threading

from .detect import KNOWN, takes
from .records import LENGTHS
from .sources import Counts, Log
from .unpack import BLOCK, Refused

# So many lines are handed on at once.
MANY = 4096
# Past this share of lines that aren't read a log is refused, where nothing else is said.
MOST_UNREAD = 0.5


def sorted_lines(logs, counts):
    """Yields the moments and lines of logs whose lines aren't in order, sorted by time."""
    with subprocess.Popen(["sort", "-s", "-n", "-k1,1"], stdin=subprocess.PIPE, stdout=subprocess.PIPE, env={**os.environ, "LC_ALL": "C"}) as program:
        failed = []

        def feed():
            try:
                for log in logs:
                    for _, lines in log.blocks(counts):
                        program.stdin.write(b"".join(lines))
            except (Refused, OSError) as why:
                failed.append(why)
            program.stdin.close()

        feeder = threading.Thread(target=feed, daemon=True)
        feeder.start()
        while True:
            lines = program.stdout.readlines(BLOCK)
            if not lines:
                break
            yield [int(it.split(b" ", 1)[0]) for it in lines], lines
        feeder.join()
        if failed:
            raise failed[0] if isinstance(failed[0], Refused) else Refused(f"sort: {failed[0].strerror}")
        if program.wait():
            raise Refused(f"sort ended with status {program.returncode}")


class Source:
    """The blocks of one file, or of several that were sorted, at a place. Nothing is read before its first moment comes."""

    def __init__(self, rank, first, blocks):
        self.rank, self.blocks = rank, blocks
        self.moments, self.lines, self.at, self.top = [first], [], 0, first

    def head(self):
        return (self.moments[self.at], self.rank)

    def upto(self, other):
        """The lines up to the head of another source, or all of the block without one."""
        begin, end = self.at, len(self.moments)
        if other is not None and (self.top, self.rank) >= other:
            end = begin + 1
            while end < len(self.moments) and (self.moments[end], self.rank) < other:
                end += 1
        self.at = end
        return (self.moments[begin:end], self.lines[begin:end]) if self.lines else ([], [])

    def more(self):
        """Whether lines follow: reads the next block where this one is at its end."""
        while self.at == len(self.moments):
            block = next(self.blocks, None)
            if block is None:
                return False
            self.moments, self.lines = block
            self.at, self.top = 0, max(self.moments, default=0)
        return True


def merged(sources):
    """Yields moments and lines of all sources by time, many at once. A source is begun when its first moment comes, so few are open."""
    heap = [(it.head(), it) for it in sources]
    heapq.heapify(heap)
    moments, lines = [], []
    while heap:
        _, source = heapq.heappop(heap)
        more_moments, more_lines = source.upto(heap[0][0] if heap else None)
        moments += more_moments
        lines += more_lines
        if source.more():
            heapq.heappush(heap, (source.head(), source))
        if len(lines) >= MANY or not heap:
            yield moments, lines
            moments, lines = [], []


def not_with(options, formats):
    """That options don't go with formats, in words."""
    return f"{' and '.join(options)} {'doesn' if len(options) == 1 else 'don'}'t go with {' and '.join(dict.fromkeys(it.name for it in formats))}"


def kind_of(key):
    """Which keys those that are so described can meet: of URLs, of hosts with targets, or of targets alone; None of any."""
    kinds = {"the URL": "URL", "host and target": "host", "the host at each line's end": "host", "the target alone": "target"}
    return next((kind for front, kind in kinds.items() if key.startswith(front)), None)


class Reading:
    """Several files, read as one. Files of a format that is among the `raw` ones are left as they are; `options` reads them."""

    def __init__(self, paths, rules, named=None, longest=LENGTHS - 1, raw=(), sort=False, moments=False, most_unread=MOST_UNREAD):
        self.counts, self.logs = Counts(), [Log(it, rules, named, longest) for it in paths]
        # whether the moments of a file that is alone are wanted too
        self.moments, self.most_unread = moments, most_unread
        formats = [it.format for it in self.logs]
        idle = [it for it in rules.given if not any(it in takes(each.name, rules) for each in formats)]
        if idle:
            raise Refused(not_with(idle, formats), 2)
        for it in formats:
            if it.options is not None and (it.options[0] if it.options else "text") not in raw:
                it.options = None
        alike = len({it.name for it in formats}) == 1 and all(it.options == formats[0].options for it in formats)
        # what has an operation or a lifetime would lose it as a line of three words
        if raw and not alike and any(it.options for it in formats):
            raise Refused("files that don't go together: " + ", ".join(sorted({it.name for it in formats})) + ": one run for each")
        changed = [name for name, is_so in (("--sort", sort), ("--max-body", longest < LENGTHS - 1)) if is_so]
        if raw and changed and any(it.options for it in formats):
            raise Refused(f"{not_with(changed, formats[:1])}, which is read as it is", 2)
        self.raw, self.sort = bool(raw) and alike and formats[0].options is not None and not changed, sort
        self.options = formats[0].options if self.raw else []
        self.heads = any(it.heads for it in formats)
        # what is called as blocks are read, with how many bytes of the files were
        self.tell = None

    def check_keys(self):
        """Refuses files whose keys can't meet, so that one and the same page would count as several, and files of the same requests."""
        fronts = {}
        for it in self.logs:
            if it.front_lines in fronts:
                raise Refused(f"{fronts[it.front_lines]} and {it.stream.name} begin with the same lines: each request would count twice", 2)
            if len(it.front_lines) >= 10:
                fronts[it.front_lines] = it.stream.name
        kinds = {kind_of(it.format.key): it for it in self.logs if kind_of(it.format.key)}
        if len(kinds) > 1:
            said = "; ".join(f"{it.stream.name}: {it.format.key}" for it in kinds.values())
            raise Refused(f"keys that can't meet, by what each is made of: {said}. One run for each; or --line '.. $host ..' where one of the logs has the host elsewhere")

    def taken(self):
        """How many bytes of the files were read."""
        return sum(it.stream.taken for it in self.logs)

    def described(self):
        """The files, packings and formats in words."""
        packings = sorted({it.stream.packing for it in self.logs if it.stream.packing})
        kinds = list(dict.fromkeys(it.format.described() for it in self.logs))
        return ", ".join([f"{len(self.logs)} files"] * (len(self.logs) > 1) + packings + [" and ".join(kinds)])

    def told_lifetimes(self):
        """Whether tier_curve reads lifetimes of the lines themselves."""
        return self.raw and any(it.format.columns and it.format.columns.ttl for it in self.logs)

    def sources(self):
        unordered = [it for it in self.logs if self.sort or it.format.unordered]
        if unordered and not self.raw:
            yield Source(0, min(it.first for it in unordered), sorted_lines(unordered, self.counts))
        for rank, log in enumerate(self.logs, 1):
            if self.raw:
                skip = int(self.options[self.options.index("--skip-lines") + 1]) if "--skip-lines" in self.options and rank > 1 else 0
                yield Source(rank, log.first, without(log.raw_blocks(self.counts, len(self.logs) == 1 and not self.moments), skip))
            elif log not in unordered:
                yield Source(rank, log.first, log.blocks(self.counts))

    def blocks(self):
        """Yields moments and lines by time, and counts them."""
        counts, last = self.counts, None
        for moments, lines in merged(list(self.sources())):
            if not lines:
                continue
            # the least and the greatest, since moments may go back
            counts.first = min(moments if counts.first is None else (counts.first, *moments))
            counts.last = max(moments if counts.last is None else (counts.last, *moments))
            counts.back += sum(map(int.__gt__, [moments[0] if last is None else last, *moments[:-1]], moments))
            last = moments[-1]
            counts.requests += len(lines)
            if self.tell:
                self.tell(self.taken)
            yield moments, lines
        for log in self.logs:
            log.stream.close()
        self.check()

    def check_read(self, unread, lines):
        """Refuses a log of which too many lines weren't read: the rest of it is no answer."""
        if unread > self.most_unread * lines:
            shown = "".join(f"\n    {name}:{number}: {ascii(line[:160])[1:-1]}" for name, number, line in self.counts.named[:3])
            raise Refused(f"{self.described()}: of {lines:,} lines {unread:,} weren't read{', the first of them:' if shown else ''}{shown}\n--format NAME takes one of: {', '.join(KNOWN)}")

    def check_raw(self, passed_over):
        """Refuses the same of a log that is read as it is, of which so many lines were passed over; empty ones are among these."""
        self.check_read(passed_over - self.counts.empty, self.counts.lines - self.counts.empty)

    def made(self):
        """Yields the requests and removals by time, each of them, and counts them. What isn't in order is sorted in memory."""
        def moment(it):
            return it.moment

        parts = [it.made(self.counts) for it in self.logs]
        parts = [sorted(part, key=moment) if self.sort or log.format.unordered else part for log, part in zip(self.logs, parts)]
        for made in heapq.merge(*parts, key=moment):
            self.counts.requests += 1
            yield made
        self.check()

    def check(self):
        """Refuses what had too few lines of its format, or no request."""
        counts = self.counts
        if self.raw:
            return
        self.check_read(counts.unread, counts.lines)
        if not counts.requests:
            raise Refused(f"{self.described()}: the log was read, and no line of it is a request of the cache. {counts.told()}")


def without(blocks, count):
    """The blocks without their first lines, as many as count."""
    for moments, lines in blocks:
        cut, count = min(count, len(lines)), max(0, count - len(lines))
        yield moments[cut:], lines[cut:]
