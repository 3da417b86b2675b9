"""How far a run over large logs has come: told each 5 seconds, where standard error is a terminal."""
import os
import sys
import time

from .words import duration, percent, short_size

EACH = 5


class Progress:
    """The bytes of all files, and how many of them were read. Of a pipe it isn't known how many there are."""

    def __init__(self, paths, out=None, clock=time.monotonic):
        self.out, self.clock = out or sys.stderr, clock
        self.is_wanted = self.out.isatty()
        self.whole = None if "-" in paths else sum(map(size_of, paths))
        self.start("read", self.whole)

    def start(self, what, whole):
        """Something begins of which there are so many bytes."""
        self.what, self.whole, self.begun = what, whole, self.clock()
        self.due, self.width = self.begun + EACH, getattr(self, "width", 0)

    def tell(self, done):
        """Tells how many bytes were dealt with, if it is time: `done` counts them."""
        if not self.is_wanted or self.clock() < self.due:
            return
        now = self.clock()
        self.due = now + EACH
        self.show(self.text(done(), now - self.begun))

    def text(self, done, took):
        if not self.whole:
            return f"{short_size(done)} {self.what}"
        done = min(done, self.whole)
        left = f", some {duration(round(took * (self.whole - done) / done))} left" if done else ""
        return f"{short_size(done)} of {short_size(self.whole)} {self.what} ({percent(done / self.whole, 0)}){left}"

    def show(self, text):
        """Writes a line over the one before it."""
        self.out.write("\r" + text.ljust(self.width) + ("\r" if not text else ""))
        self.out.flush()
        self.width = len(text)

    def end(self):
        """Takes what was told off the terminal."""
        if self.width:
            self.show("")


def size_of(path):
    """The bytes of a file; 0 where there is none, which is refused elsewhere."""
    try:
        return os.path.getsize(path)
    except OSError:
        return 0
