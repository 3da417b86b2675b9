#!/usr/bin/env python3
"""Compares what `cache-curve --misses SIZE=FILE` copies with an LRU of its own: random requests with removals, lengths that aren't told, lines that are none, under
sizes and bounds of entries, as lines, columns and records, with lifetimes and without. Then two tiers: what the edge hits and what a shield hits of its misses are what
an LRU behind an LRU hits. It wants the program's path."""
import collections
import os
import random
import struct
import subprocess
import sys
import tempfile

PROGRAM = os.path.abspath(sys.argv[1]) if len(sys.argv) > 1 else sys.exit(__doc__)
OVERHEAD = 3
# a dash and a question mark in the place of a length
REMOVED, UNTOLD = -1, -2


class Cache:
    """An LRU of so many bytes, and of so many entries at most."""

    def __init__(self, size, most, ttl):
        self.size, self.most, self.ttl = size, most, ttl
        self.rows, self.room, self.lengths = collections.OrderedDict(), 0, {}
        self.hits = 0

    def serves(self, moment, key, length):
        """Whether it serves a request, as it is: None of one that asks for nothing."""
        if length == REMOVED:
            if key in self.rows:
                del self.rows[key]
                self.room -= self.lengths[key]
            return None
        held = key in self.rows
        if length == UNTOLD and key not in self.lengths:
            return False
        self.lengths.setdefault(key, max(1, length + OVERHEAD))
        # what is fresh for no time is stale at the moment of its load; moments may go back before it
        fresh = held and (self.ttl is None or moment < self.rows[key] + (self.ttl and self.ttl + 1))
        loaded = self.rows.pop(key) if held else None
        self.room += 0 if held else self.lengths[key]
        self.rows[key] = loaded if fresh else moment
        while self.room > self.size or (self.most is not None and len(self.rows) > self.most):
            gone, _ = self.rows.popitem(last=False)
            self.room -= self.lengths[gone]
        self.hits += held
        return fresh


def requests(draw):
    """Random requests: moments that mostly rise, keys, lengths."""
    moment, keys, many = 0, draw.randint(2, 40), draw.choice([60, 400, 1500])
    lengths = [draw.randrange(0, 90) for _ in range(keys)]
    for _ in range(many):
        moment = max(0, moment + draw.choice([0, 0, 1, 1, 2, 5, 30, -3]))
        key = min(draw.randrange(keys), draw.randrange(keys))
        yield moment, key, draw.choice([REMOVED] + [UNTOLD] + [lengths[key]] * 14 + [lengths[key] + 1])


def word(length):
    return "-" if length == REMOVED else "?" if length == UNTOLD else str(length)


def as_lines(draw, made):
    """Lines of three words, some apart by more, some of which are none: each with its request, or None."""
    for moment, key, length in made:
        if draw.random() < 0.05:
            yield draw.choice(["\n", "one two\n", "1 /a b c\n", "5 /0 1x\n", "7 " + "k" * 70000 + " 5\n", "\0\n"]).encode(), None
        form = draw.choice(["{} /{} {}\n"] * 6 + [" {}\t/{}  {} \n", "{} /{} {}\r\n"])
        yield form.format(moment, key, word(length)).encode(), (moment, key, length)


def as_columns(draw, made):
    """Lines of columns: an operation, a time, a key of two columns, a length; other operations between them."""
    for moment, key, length in made:
        if draw.random() < 0.1:
            yield draw.choice([b"set,1,0,a,5\n", b"get,1,0\n", b"\n"]), None
        op = "del" if length == REMOVED else "get"
        yield f"{op},{moment},{key % 7},{key},{0 if length == REMOVED else word(length)}\n".encode(), (moment, key, length)


def as_records(draw, made):
    for moment, key, length in made:
        length = 5 if length == UNTOLD else length
        yield struct.pack("<QQ", key, 2**64 - 1 if length == REMOVED else length), (moment, key, length)


def as_oracle(draw, made):
    for moment, key, length in made:
        length = 5 if length < 0 else length
        yield struct.pack("<IQIq", moment, key, length, -1), (moment, key, length)


FORMS = {(): as_lines, ("--columns", "op=1,time=2,key=3+4,bytes=5", "--delimiter", ",", "--get-ops", "get", "--delete-ops", "del"): as_columns,
         ("--format", "records"): as_records, ("--format", "oracle-general"): as_oracle}


def run(words, data, want=0):
    ran = subprocess.run([PROGRAM, "--quiet", *words], input=data, stdout=subprocess.PIPE, stderr=subprocess.PIPE, check=False)
    if ran.returncode != want:
        sys.exit(f"{words}: status {ran.returncode}, not {want}: {ran.stderr.decode()}")
    return ran.stdout.decode()


def hits(text, size):
    """The hits of a size, by the program's rows."""
    return next(int(it.split(",")[1]) for it in text.split("\n") if it.startswith(f"{size},"))


def one(draw, path):
    """One text, copied by the program and by lists."""
    (options, form), size = draw.choice(list(FORMS.items())), draw.choice([1, 40, 100, 250, 1000, 20000])
    most, ttl = draw.choice([None, None, 1, 5]), None if form is as_records else draw.choice([None, None, 0, 1, 10, 100])
    lines = list(form(draw, list(requests(draw))))
    cut = form in (as_lines, as_columns) and draw.random() < 0.3 and lines[-1][1] is not None
    if cut:
        lines[-1] = lines[-1][0].rstrip(b"\r\n"), lines[-1][1]
    cache, want = Cache(size, most, ttl), []
    for line, made in lines:
        if made is not None and not cache.serves(*made):
            want.append(line)
    words = [*options, "--entry-overhead", str(OVERHEAD), *(["--max-entries", str(most)] if most else []), *(["--ttl", str(ttl)] if ttl is not None else [])]
    words += draw.choice([[], ["--sizes", "30,100,5K"], ["--standard-sizes"]])
    text = run([*words, "--misses", f"{size}={path}"], b"".join(line for line, _ in lines))
    with open(path, "rb") as file:
        if file.read() != b"".join(want):
            sys.exit(f"{words}, --misses {size}: the copy isn't what an LRU lets through")
    if hits(text, size) != cache.hits:
        sys.exit(f"{words}, --misses {size}: {hits(text, size)} hits and not {cache.hits}")


def tiers(draw, path):
    """An edge, and a shield that gets its misses."""
    lines = list(as_lines(draw, list(requests(draw))))
    edge, shield = Cache(100, None, None), Cache(400, None, None)
    for _, made in lines:
        if made is not None and not edge.serves(*made):
            shield.serves(*made)
    front = run(["--misses", f"100={path}", "--entry-overhead", str(OVERHEAD)], b"".join(line for line, _ in lines))
    with open(path, "rb") as file:
        behind = run(["--sizes", "400", "--entry-overhead", str(OVERHEAD)], file.read())
    if (hits(front, 100), hits(behind, 400)) != (edge.hits, shield.hits):
        sys.exit(f"edge and shield: {hits(front, 100)}, {hits(behind, 400)} hits and not {edge.hits}, {shield.hits}")


def refused(path):
    for words in (["--part", "0/2"], ["--sample", "1/10"], ["--columns", "time=1,key=2,bytes=3,times=4"]):
        run(["--sizes", "100", *words, "--misses", f"100={path}.not"], b"", 2)
    for word_ in ("100", "100=", "=x", "1X=x", ""):
        run(["--sizes", "100", "--misses", word_], b"", 2)
    run(["--sizes", "100", "--misses", f"100={path}/not"], b"1 /a 1\n", 1)
    if os.path.exists(path + ".not"):
        sys.exit("a file was made of a command line that is refused")
    if os.path.exists("/dev/full"):
        run(["--misses", "100=/dev/full"], b"1 /a 1\n", 1)


def main():
    draw = random.Random(1)
    with tempfile.TemporaryDirectory() as room:
        path = os.path.join(room, "missed")
        for _ in range(300):
            one(draw, path)
        for _ in range(20):
            tiers(draw, path)
        refused(path)
    print("misses: what is copied is what an LRU lets through, and a shield behind an edge hits as often as one by lists")


if __name__ == "__main__":
    main()
