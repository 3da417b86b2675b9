"""The requests of files, read once into a temporary file, by as many processes as there are processors."""
import os
import subprocess
import tempfile

from logs.unpack import BLOCK, Refused

from .side_by_side import requests_of


class Spool:
    """A temporary file of lines 'moment key size', in order of time, each with its key's length."""

    def __init__(self, reading, overhead, lengths=None, most_back=0.01):
        try:
            self.file, self.lengths = requests_of(reading, overhead)
        except OSError as why:
            raise Refused(f"{tempfile.gettempdir()}: {why.strerror}: the requests are written there first; TMPDIR names another folder") from why
        self.is_sorted = reading.counts.back > most_back * max(1, reading.counts.requests)
        if lengths:
            self.lengths.tell(lengths)
        self.lengths.settle()
        if self.is_sorted:
            self.file = sorted_by_time(self.file)
        if self.lengths.is_changed or self.lengths.untold:
            self.fill()

    def blocks(self):
        """Yields the lines in blocks."""
        self.file.seek(0)
        rest = b""
        while True:
            data = self.file.read(BLOCK)
            if not data:
                break
            cut = data.rfind(b"\n") + 1
            if cut:
                yield rest + data[:cut]
                rest = b""
            rest += data[cut:]

    def fill(self):
        """Writes each request with its key's length."""
        out, tails = tempfile.TemporaryFile(prefix="cache-plan-"), {}
        for key, length in self.lengths.known.items():
            tails[key] = b" %b %d\n" % (key, length)
        for block in self.blocks():
            lines = []
            for line in block.split(b"\n")[:-1]:
                moment, key, size = line.split(b" ")
                lines.append(line + b"\n" if size == b"-" else moment + tails[key])
            out.write(b"".join(lines))
        self.file.close()
        self.file = out

    def size(self):
        """How many bytes it has."""
        self.file.flush()
        return os.fstat(self.file.fileno()).st_size

    def place(self):
        """How many of them were read, by a program too."""
        return os.lseek(self.file.fileno(), 0, os.SEEK_CUR)

    def start(self):
        """The file from its beginning on, as a program's input."""
        self.file.flush()
        os.lseek(self.file.fileno(), 0, os.SEEK_SET)
        return self.file


def sorted_by_time(file):
    """The lines of a temporary file in order of time, by the program sort, in bounded memory."""
    out = tempfile.TemporaryFile(prefix="cache-plan-")
    file.flush()
    file.seek(0)
    try:
        ran = subprocess.run(["sort", "-s", "-n", "-k1,1"], stdin=file, stdout=out, stderr=subprocess.PIPE, env={**os.environ, "LC_ALL": "C"}, check=False)
    except OSError as why:
        raise Refused(f"sort: {why.strerror}") from why
    if ran.returncode:
        raise Refused(f"sort ended with status {ran.returncode}: {ran.stderr.decode(errors='replace').strip()}")
    file.close()
    return out
