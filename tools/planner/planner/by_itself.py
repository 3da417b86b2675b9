"""A log that the curve program reads itself: lines 'time key bytes' in one file, of which its totals tell all that the report wants."""
import os
import subprocess

from .curve import curves_of
from .figures import loads
from .program import Program

# The end of a file in which its last line is looked for.
TAIL = 2**17


class CurveKeys:
    """What is known of the keys by the curve's own totals. All keys have one length here, and none is left out."""

    mask = 0

    def __init__(self, curve):
        self.keys, self.repeated, self.repeated_bytes = curve.unique_keys, curve.repeated_keys, curve.repeated_key_bytes
        # (no key is loaded twice at any size)
        self.footprint = curve.request_bytes - curve.rows[-1].found

    def lacking(self):
        return 0

    def weight(self):
        return self.footprint

    def once(self):
        """The shares of keys and of room that were asked once, and how many requests they are; None without keys."""
        once = self.keys - self.repeated
        return (once / self.keys, (self.footprint - self.repeated_bytes) / self.footprint, once) if self.keys else None


class Order:
    """The program sort, which looks through a file while others count: whether its moments go back."""

    def __init__(self, path):
        try:
            self.run = subprocess.Popen(["sort", "-C", "-s", "-n", "-k1,1", path], stdin=subprocess.DEVNULL, stderr=subprocess.DEVNULL, env={**os.environ, "LC_ALL": "C"})
        except OSError:
            self.run = None

    def holds(self):
        return self.run is not None and self.run.wait() == 0

    def stop(self):
        if self.run:
            self.run.kill()
            self.run.wait()


def may_be(options, reading):
    """Whether the program can read the log itself, as far as it is seen before: one file of plain lines, of which nothing else is wanted."""
    log = reading.logs[0]
    others = options.sample or options.lengths or options.by_label
    return reading.raw and reading.options == [] and len(reading.logs) == 1 and log.stream.path != "-" and not log.stream.packing and not others


def last_moment(path):
    """The moment of the last line; None where that isn't one of a request."""
    with open(path, "rb") as file:
        file.seek(max(0, os.path.getsize(path) - TAIL))
        words = file.read().strip().rpartition(b"\n")[2].split()
    word = words[0].split(b".")[0] if len(words) == 3 else b""
    return int(word) if word.isdigit() else None


def counted(options, reading, words, progress):
    """The curves of such a log, by programs of these command lines side by side, and what is known of its keys; None where more has to be known: moments
    go back, lengths change or lack, or a line is skipped."""
    path, programs = reading.logs[0].stream.path, []
    order, files = Order(path), [open(path, "rb") for _ in words]
    progress.start("counted", os.path.getsize(path))
    try:
        programs += [Program(options.curve_program, [*it, "--quiet"], file) for it, file in zip(words, files)]
        tell = (lambda: progress.tell(lambda: os.lseek(files[0].fileno(), 0, os.SEEK_CUR))) if progress.is_wanted else None
        curves = [curves_of("the curve program", it.text(tell)) for it in programs]
        first, last = curves[0][0], last_moment(path)
        is_told = first.repeated_keys is not None and not (first.skipped_lines or first.requests_without_size or first.size_changes)
        if not is_told or loads(first) != first.unique_keys or last is None or not order.holds():
            progress.start("read", os.path.getsize(path))
            return None
    except BaseException:
        for it in programs:
            it.stop()
        raise
    finally:
        order.stop()
        for it in files:
            it.close()
    counts = reading.counts
    counts.lines = counts.requests = first.lines_read
    counts.first, counts.last = reading.logs[0].first, last
    return curves, CurveKeys(first), None
