"""Reads logs by as many processes as there are processors, a log each, and joins what they made: the requests in order of time, as one process that merges
the logs has them, the counts of their lines, and what is known of their keys."""
import multiprocessing
import os
import shutil
import subprocess
import tempfile

from logs.sources import Counts
from logs.unpack import Refused

from .lengths import Lengths


class Part:
    """What one log gave: counts of its lines, what is known of keys, and its first and its last moment as they stand."""

    def __init__(self, overhead):
        self.counts, self.lengths, self.begin, self.end = Counts(), Lengths(overhead), None, None

    def take(self, moments, lines):
        counts, last = self.counts, moments[0] if self.end is None else self.end
        self.begin = moments[0] if self.begin is None else self.begin
        counts.first = min(moments if counts.first is None else (counts.first, *moments))
        counts.last = max(moments if counts.last is None else (counts.last, *moments))
        counts.back += sum(map(int.__gt__, [last, *moments[:-1]], moments))
        counts.requests += len(lines)
        self.end = moments[-1]


def read_log(log, path, overhead, tell):
    """Writes the requests of a log as lines to the file of the path."""
    part = Part(overhead)
    with open(path, "wb") as out:
        for moments, lines in log.blocks(part.counts):
            if lines:
                data = b"".join(lines)
                out.write(data)
                part.lengths.take_lines(data)
                part.take(moments, lines)
            tell(log.stream.taken)
    log.stream.close()
    part.lengths.finish()
    return part


class Work:
    """The logs of a reading, and the folder that gets a file for each."""

    def __init__(self, reading, overhead, folder):
        self.logs, self.overhead, self.folder, self.tell = reading.logs, overhead, folder, reading.tell
        self.taken = [0] * len(self.logs)

    def path(self, at):
        return os.path.join(self.folder, str(at))

    def note(self, at, taken):
        self.taken[at] = taken
        if self.tell:
            self.tell(lambda: sum(self.taken))

    def read(self, at):
        return read_log(self.logs[at], self.path(at), self.overhead, lambda taken: self.note(at, taken))

    def one_by_one(self):
        return list(map(self.read, range(len(self.logs))))

    def at_once(self, processes):
        """The parts by so many processes, in the order of the logs."""
        context = multiprocessing.get_context("fork")
        shared, tell = context.Array("Q", len(self.logs)), self.tell
        self.taken, self.tell = shared, None
        # (what a process inherits needn't be written to it)
        CHILD.append(self)
        try:
            with context.Pool(processes) as pool:
                done = pool.map_async(read_in_child, range(len(self.logs)), chunksize=1)
                while tell and not done.ready():
                    tell(lambda: sum(shared))
                    done.wait(1)
                return done.get()
        finally:
            CHILD.pop()


CHILD = []


def read_in_child(at):
    return CHILD[-1].read(at)


def processors():
    return len(os.sched_getaffinity(0)) if hasattr(os, "sched_getaffinity") else os.cpu_count() or 1


def read_all(reading, overhead, folder):
    """The part of each log, whose requests are in the folder's file of its number."""
    work, count = Work(reading, overhead, folder), min(processors(), len(reading.logs))
    return work.at_once(count) if count > 1 and "fork" in multiprocessing.get_all_start_methods() else work.one_by_one()


def added(parts, counts, lengths):
    """Adds what parts counted, in their order. How many moments go back is another matter."""
    for part in parts:
        own = part.counts
        counts.add(own)
        lengths.add(part.lengths)
    return lengths


def sort(words, paths, out):
    """Has the program sort write lines in order of time to a file."""
    try:
        with open(out, "wb") as file:
            ran = subprocess.run(["sort", "-s", "-n", "-k1,1", *words, *paths], stdin=subprocess.DEVNULL, stdout=file, stderr=subprocess.PIPE, env={**os.environ, "LC_ALL": "C"}, check=False)
    except OSError as why:
        raise Refused(f"sort: {why.strerror}") from why
    if ran.returncode:
        raise Refused(f"sort ended with status {ran.returncode}: {ran.stderr.decode(errors='replace').strip()}")
    for it in paths:
        os.unlink(it)
    return out


def concatenated(paths):
    """Adds files to the first of them."""
    with open(paths[0], "ab") as out:
        for it in paths[1:]:
            with open(it, "rb") as more:
                shutil.copyfileobj(more, out, 2**20)
            os.unlink(it)
    return paths[0]


class Source:
    """The lines of one log, or of several that were sorted. Where two have the same moment those of the lesser rank come first."""

    def __init__(self, rank, path, parts, is_sorted=False):
        self.rank, self.path = rank, path
        self.first, self.last = min(it.counts.first for it in parts), max(it.counts.last for it in parts)
        self.begin, self.end = (self.first, self.last) if is_sorted else (parts[0].begin, parts[0].end)
        self.back = 0 if is_sorted else parts[0].counts.back

    def is_before(self, other):
        return (self.last, self.rank) < (other.first, other.rank)


def back_in(path):
    """How many moments of a file of lines are less than the one before."""
    with open(path, "rb") as file:
        last, back = None, 0
        for lines in iter(lambda: file.readlines(2**20), []):
            moments = [int(it.split(b" ", 1)[0]) for it in lines]
            back += sum(map(int.__gt__, [moments[0] if last is None else last, *moments[:-1]], moments))
            last = moments[-1]
        return back


def merged(sources, folder):
    """The path of a file of all lines in order of time, and how many moments of it go back."""
    sources = sorted(sources, key=lambda it: (it.first, it.rank))
    if all(one.is_before(other) for one, other in zip(sources, sources[1:])):
        back = sum(it.back for it in sources) + sum(one.end > other.begin for one, other in zip(sources, sources[1:]))
        return concatenated([it.path for it in sources]), back
    sources = sorted(sources, key=lambda it: it.rank)
    path = sort(["-m", f"--batch-size={min(len(sources), 500)}"], [it.path for it in sources], os.path.join(folder, "merged"))
    return path, back_in(path) if any(it.back for it in sources) else 0


def requests_of(reading, overhead):
    """The requests of a reading's logs in a temporary file, in order of time as far as those of each are, and what is known of their keys."""
    with tempfile.TemporaryDirectory(prefix="cache-plan-") as folder:
        parts = read_all(reading, overhead, folder)
        order = sorted(range(len(parts)), key=lambda at: (reading.logs[at].first, at))
        lengths = added([parts[at] for at in order], reading.counts, Lengths(overhead))
        told = [at for at in range(len(parts)) if parts[at].counts.requests]
        loose = [at for at in told if reading.sort or reading.logs[at].format.unordered]
        sources = [Source(at + 1, os.path.join(folder, str(at)), [parts[at]]) for at in told if at not in loose]
        if loose:
            path = sort([], [os.path.join(folder, str(at)) for at in loose], os.path.join(folder, "sorted"))
            sources.append(Source(0, path, [parts[at] for at in loose], True))
        path, reading.counts.back = merged(sources, folder) if sources else (os.devnull, 0)
        reading.check()
        return open(path, "r+b"), lengths
