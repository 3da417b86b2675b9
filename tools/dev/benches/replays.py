"""What tier-replay takes as it fills: beside many open requests, in memory, and in seconds by the number of bodies."""
import glob
import os
import random
import re
import resource
import subprocess
import sys
import tempfile
import threading

from .common import REPLAY, folder, greatest, line

WRITTEN = b"HTTP/1.1 200 OK\r\nContent-Type: text/plain\r\nCache-Control: max-age=60\r\n\r\n".hex()
WHOLE = b"HTTP/1.1 200 OK\r\nContent-Type: text/plain\r\nCache-Control: max-age=60\r\nContent-Length: 5\r\n\r\nhello".hex()


def key_of(word, i):
    return f"https://example.org/{word}/{i:07d}".encode().hex()


def begin(i, word):
    return [line("open", id=i, key=key_of(word, i)), line("look", id=i), line("begin", id=i, head=WRITTEN)]


def background(count):
    """The open requests that stand beside the events: their numbers are below 4 * count."""
    lines = []
    for i in range(count // 4):
        lines.append(line("open", id=4 * i, key=key_of("opened", i)))
        lines += [line("open", id=4 * i + 1, key=key_of("absent", i)), line("look", id=4 * i + 1)]
        lines += begin(4 * i + 2, "written") + [line("piece", id=4 * i + 2, bytes="6162")]
        lines += [line("open", id=4 * i + 3, key=key_of("written", 4 * i + 2)), line("look", id=4 * i + 3)]
    for i in range(count):
        lines += [line("open", id=2 * count + i, key=key_of("waited for", 0), lock=True), line("look", id=2 * count + i)]
    return lines


def kinds(first, n):
    """The kinds: what is done before, which isn't counted, and the n events. Request numbers begin at `first`."""
    at = range(first, first + n)
    opened = [line("open", id=i, key=key_of("own", i)) for i in at]
    drops = [line("drop", id=i) for i in at]
    looks = [line("look", id=i) for i in at]
    locked = [line("open", id=i, key=key_of("own", i), lock=True) for i in at]
    waiting = [line("open", id=i, key=key_of("waited for", 0), lock=True) for i in at]
    stored = [line("put", key=key_of("stored", i), pieces=[WHOLE]) for i in at]
    hits = [line("open", id=i, key=key_of("stored", i)) for i in at]
    yield "open", [], opened
    yield "look, nothing found", [], looks
    yield "begin", [], [line("begin", id=i, head=WRITTEN) for i in at]
    yield "piece", [], [line("piece", id=i, bytes="6162") for i in at]
    yield "look, a write in flight found", [line("open", id=n + i, key=key_of("own", i)) for i in at], [line("look", id=n + i) for i in at]
    yield "read of a write in flight", [], [line("read", id=n + i) for i in at]
    yield "finish", [], [line("finish", id=i) for i in at]
    yield "drop", [line("drop", id=n + i) for i in at], drops
    yield "put", [], stored
    yield "look, a body found", hits, looks
    yield "read of a body", [], [line("read", id=i) for i in at]
    yield "purge", drops, [line("purge", key=key_of("stored", i)) for i in at]
    yield "look, a permit given", locked, looks
    yield "drop of a permit", [], drops
    yield "look, a wait given", waiting, looks
    yield "poll", [], [line("poll", id=i) for i in at]
    yield "drop of a wait", [], drops


class Counted:
    """The program under callgrind, fed line by line."""

    def __init__(self, program, room):
        self.out = f"{room}/counts"
        command = ["valgrind", "--tool=callgrind", f"--callgrind-out-file={self.out}", program, "--limit", str(1 << 40)]
        self.run = subprocess.Popen(command, stdin=subprocess.PIPE, stdout=subprocess.PIPE, stderr=subprocess.DEVNULL)

    def feed(self, lines):
        """Writes the lines, and waits for their answers."""
        text = "".join(lines).encode()

        def write():
            self.run.stdin.write(text)
            self.run.stdin.flush()

        writer = threading.Thread(target=write)
        writer.start()
        answers = [self.run.stdout.readline() for _ in lines]
        writer.join()
        return answers

    def count(self):
        """Returns how many instructions were run since the last call."""
        subprocess.run(["callgrind_control", "--dump", str(self.run.pid)], stdout=subprocess.DEVNULL, check=True)
        total = 0
        for dump in glob.glob(f"{self.out}*"):
            with open(dump, encoding="utf-8") as it:
                found = re.search(r"^(?:totals|summary): (\d+)", it.read(), re.M)
            total += int(found[1]) if found else 0
            os.remove(dump)
        return total


def open_requests(program=REPLAY, events=2000):
    """Of the open requests a quarter was just opened, a quarter found nothing, a quarter writes, each a body of its own, and a quarter reads these
    writes as they come; as many again wait for one permit. The program is fed line by line, and its counts are read between the kinds."""
    table = {}
    for beside in (1_000, 100_000):
        with folder() as room:
            counted = Counted(program, room)
            lines = background(beside)
            for start in range(0, len(lines), 1000):
                counted.feed(lines[start : start + 1000])
            for title, before, of_kind in kinds(4 * beside, int(events)):
                counted.feed(before)
                counted.count()
                answers = counted.feed(of_kind)
                if answers[0].startswith(b"fault"):
                    sys.exit(f"{title}: {answers[0].decode()}")
                table.setdefault(title, []).append(counted.count() / len(of_kind))
            counted.run.stdin.close()
            counted.run.stdout.read()
            counted.run.wait()
    print("| Event | beside 10^3 open requests | beside 10^5 |\n|---|---|---|")
    for title, (few, many) in table.items():
        print(f"| {title} | {few:,.0f} | {many:,.0f} |")


HEAD = "HTTP/1.1 200 OK\r\nContent-Type: text/plain\r\nCache-Control: max-age=86400\r\nContent-Length: 1\r\n"


def key(i, more=0):
    return (f"https://example.org/assets/{i:07d}" + "k" * more).encode().hex()


def put(i, head=0, more=0, tag=0):
    extra = "X-More: " + "h" * (head - 10) + "\r\n" if head else ""
    return line("put", key=key(i, more), tag="t" * tag, pieces=[(HEAD + extra + "\r\nx").encode().hex()])


def opened(i, more=0, tag=0):
    return line("open", id=i, key=key(i, more), tag="t" * tag)


def found(i, at=1000):
    return line("open", at=at, id=i, key=key(0)) + line("look", at=at, id=i)


def found_stale(i):
    return found(i, at=100000)


def begun(i):
    return opened(i) + line("look", id=i) + line("begin", id=i, head=(HEAD + "\r\n").encode().hex())


def peak(program, lines):
    """The greatest memory of a run over the lines, in bytes."""
    with tempfile.TemporaryFile("w+b") as trace:
        for it in lines:
            trace.write(it.encode())
        trace.seek(0)
        return 1024 * greatest([program, "--limit", 1 << 40], stdin=trace)


ROWS = (
    ("an entry: four lines of head, no tag, beside its body", lambda n: map(put, range(n))),
    ("the same with 200 bytes more of head", lambda n: (put(i, head=200) for i in range(n))),
    ("the same with 200 bytes more of key", lambda n: (put(i, more=200) for i in range(n))),
    ("the same with a tag of 100 bytes", lambda n: (put(i, tag=100) for i in range(n))),
    ("an open request", lambda n: map(opened, range(n))),
    ("the same with 200 bytes more of key", lambda n: (opened(i, more=200) for i in range(n))),
    ("the same with a tag of 100 bytes", lambda n: (opened(i, tag=100) for i in range(n))),
    ("an open request that found a fresh body, which it shares", lambda n: [put(0), *map(found, range(n))]),
    ("one that began a write of a head of four lines, beside its bytes", lambda n: map(begun, range(n))),
    ("one that found a stale body with 1,000 bytes more of head", lambda n: [put(0, head=1000), *map(found_stale, range(n))]),
)


def memory(program=REPLAY):
    """The program's greatest memory after 10^4 and 10^5 puts, opens or begins, less that of an empty trace, divided by their number."""
    none = peak(program, [])
    print(f"an empty trace: {none // 1024} KiB")
    print("| Bytes for | 10,000 | 100,000 |\n|---|---|---|")
    for title, lines in ROWS:
        print(f"| {title} |", " | ".join(f"{(peak(program, lines(n)) - none) / n:,.0f}" for n in (10_000, 100_000)), "|", flush=True)


CALLS = 100_000
# What a body of one byte weighs with its meta.
WEIGHT = 108
OF_LENGTH = b"HTTP/1.1 200 OK\r\nContent-Type: text/plain\r\nCache-Control: max-age=86400\r\nContent-Length: %d\r\n\r\n"


def looked(ident, i):
    return line("open", id=ident, key=key(i)) + line("look", id=ident) + line("drop", id=ident)


def seconds_of(program, parts, limit):
    """The least user time of three runs over the parts, one after another."""
    with tempfile.TemporaryFile("w+") as trace:
        for part in parts:
            trace.writelines(part())
        trace.flush()
        best = None
        for _ in range(3):
            os.lseek(trace.fileno(), 0, os.SEEK_SET)
            before = resource.getrusage(resource.RUSAGE_CHILDREN).ru_utime
            subprocess.run([program, "--limit", str(limit)], stdin=trace, stdout=subprocess.DEVNULL, check=True)
            taken = resource.getrusage(resource.RUSAGE_CHILDREN).ru_utime - before
            best = taken if best is None else min(best, taken)
    return best


def long_puts(size, many):
    pieces = [(OF_LENGTH % size).hex()] + [bytes(65536).hex()] * (size // 65536)
    return lambda: (line("put", key=key(i), pieces=pieces) for i in range(many))


def tier_speed(program=REPLAY):
    """100,000 look-ups that hit, that find nothing, puts of new keys, of which each evicts one entry, and purges, each with the put of the same key; the
    filling is measured by itself and taken off. Then bodies of 1 MiB in pieces of 64 KiB."""
    for bodies in (1_000, 10_000, 100_000, 1_000_000):
        chosen = random.Random(1)
        some = [chosen.randrange(bodies) for _ in range(CALLS)]
        kinds_of = {
            "hits": lambda: (looked(n, i) for n, i in enumerate(some)),
            "nothing found": lambda: (looked(n, bodies + i) for n, i in enumerate(some)),
            "puts that evict": lambda: (put(bodies + n) for n in range(CALLS)),
            "purges with puts": lambda: (line("purge", key=key(i)) + put(i) for i in some),
        }
        limit = bodies * WEIGHT
        filled = seconds_of(program, [lambda: map(put, range(bodies))], limit)
        told = ", ".join(f"{kind} {seconds_of(program, [lambda: map(put, range(bodies)), calls], limit) - filled:.2f}" for kind, calls in kinds_of.items())
        print(f"{bodies} bodies: {told} (filling {filled:.2f})", flush=True)
    many = 50
    none, full = seconds_of(program, [long_puts(0, many)], 1 << 24), seconds_of(program, [long_puts(1 << 20, many)], 1 << 24)
    print(f"puts of 1 MiB in pieces of 64 KiB: {1000 * (full - none) / many:.2f} ms each")
