"""Opens files, standard input too, unpacks gzip and zstd by their first bytes, and reads them in blocks of whole lines."""
import shutil
import subprocess
import sys
import threading
import zlib

BLOCK = 2**20
# A line that is longer and fills a block is passed by, so that none takes the memory; this stands for it, which no format reads.
LONGEST, UNREAD = 2**16, b"\0\n"
PACKINGS = ((b"\x1f\x8b", "gzip"), (b"\x28\xb5\x2f\xfd", "zstd"), (b"BZh", "bzip2"), (b"\xfd7zXZ\x00", "xz"), (b"PK\x03\x04", "zip"))
UNPACKED_BY = {"bzip2": "bzip2 -dc", "xz": "xz -dc", "zip": "unzip -p"}
MARK = b"\xef\xbb\xbf"


class Refused(Exception):
    """Why a file isn't read. The exit status is 1, or 2 where the command line is at fault."""

    def __init__(self, text, status=1):
        super().__init__(text, status)
        self.text, self.status = text, status

    def __str__(self):
        return self.text


def plain(front, file):
    yield front
    while True:
        data = file.read(BLOCK)
        if not data:
            return
        yield data


def gunzipped(name, packed):
    """Yields what gzip packed, member after member. Zeros after the last one are padding."""
    inner, data = None, b""
    for data in packed:
        while data:
            if inner is None:
                data = data.lstrip(b"\0") if ended(data) else data
                if not data:
                    break
                inner = zlib.decompressobj(31)
            try:
                made = inner.decompress(data, BLOCK)
            except zlib.error as why:
                raise Refused(f"{name}: the gzip data is broken ({why})") from why
            if made:
                yield made
            data = inner.unconsumed_tail
            if inner.eof:
                data, inner = inner.unused_data, None
    if inner is not None:
        raise Refused(f"{name}: the gzip data ends early: the file is cut short")


def ended(data):
    """Whether data begins with padding and not with a member."""
    return data[:1] == b"\0"


def unzstd(name, packed):
    """Yields what zstd packed, by the program of that name."""
    if not shutil.which("zstd"):
        raise Refused(f"{name}: packed by zstd, and the program zstd isn't installed")
    program = subprocess.Popen(["zstd", "-dcq"], stdin=subprocess.PIPE, stdout=subprocess.PIPE, stderr=subprocess.DEVNULL)

    def feed():
        try:
            with program.stdin as out:
                for data in packed:
                    out.write(data)
        except OSError:
            # the program ended before it had all
            pass

    feeder = threading.Thread(target=feed, daemon=True)
    feeder.start()
    status = None
    try:
        yield from plain(b"", program.stdout)
        feeder.join()
        status = program.wait()
    finally:
        # it is stopped where no more is wanted
        program.kill()
        feeder.join()
        program.stdout.close()
        program.wait()
    if status:
        raise Refused(f"{name}: the zstd data is broken or ends early")


class Stream:
    """The unpacked bytes of a file, of which the front can be looked at first. A file is opened when it is read, so that many can wait."""

    def __init__(self, path):
        self.path, self.name = path, "standard input" if path == "-" else path
        self.file, self.parts, self.packing = None, None, ""
        # how many bytes of the file were read, packed as they are
        self.taken = 0
        self.open()

    def open(self):
        try:
            self.file = sys.stdin.buffer if self.path == "-" else open(self.path, "rb")
            first = self.file.read(BLOCK)
        except OSError as why:
            raise Refused(f"{self.path}: {why.strerror}", 2) from why
        self.packing = next((it for mark, it in PACKINGS if first.startswith(mark)), "")
        if self.packing in UNPACKED_BY:
            raise Refused(f"{self.name}: packed by {self.packing}, which isn't read here: `{UNPACKED_BY[self.packing]} .. | ..` unpacks it into a pipe, read as '-'")
        self.front, self.at_end = b"", False
        self.taken = len(first)
        packed = self.packed(first)
        self.parts = gunzipped(self.name, packed) if self.packing == "gzip" else unzstd(self.name, packed) if self.packing == "zstd" else packed

    def packed(self, first):
        """Yields the bytes of the file as they are, and counts them."""
        for data in plain(first, self.file):
            self.taken += len(data) if data is not first else 0
            yield data

    def look(self):
        """The first bytes, one block or more where there are as many."""
        if self.parts is None:
            self.open()
        while not self.at_end and len(self.front) < BLOCK:
            data = next(self.parts, None)
            self.at_end = data is None
            self.front += data or b""
        if self.front.startswith(MARK):
            self.front = self.front[len(MARK):]
        return self.front

    def park(self):
        """Closes a file, to be opened again when it is read."""
        if self.path != "-":
            self.close()
            self.parts, self.front, self.taken = None, b"", 0

    def whole(self):
        """Whether the front is all that there is."""
        self.look()
        return self.at_end

    def bytes(self):
        """Yields the bytes in parts."""
        front, self.front = self.look(), b""
        yield front
        yield from self.parts

    def blocks(self):
        """Yields blocks of whole lines, each of which ends with a line feed."""
        rest, long = b"", False
        for data in self.bytes():
            if long:
                data = data[data.find(b"\n") + 1:] if b"\n" in data else b""
                long = not data
            cut = data.rfind(b"\n") + 1
            if cut:
                yield rest + data[:cut]
                rest = b""
            rest += data[cut:]
            if len(rest) > LONGEST and not cut:
                rest, long = b"", True
                yield UNREAD
        if rest:
            yield rest + b"\n"

    def close(self):
        if self.parts is not None:
            self.parts.close()
        if self.path != "-":
            self.file.close()
