#!/usr/bin/env python3
"""What plain lists find, one for each limit: to compare with tier_curve. --make SEED writes requests to try, in a --format; --part I/K
takes the keys of one part, and lists of a K-th of each limit. Each row ends with what the list holds: how many entries, which request put
one out first, and with lifetimes when the one was asked for that was used longest ago. --ttl counts what is found fresh too, and so does
--columns, which has a lifetime on each line; --make-times SEED writes requests at moments to try that on, --options-for-times SEED options for
them."""
import argparse
import random
import re
import struct
import sys
from decimal import Decimal, getcontext

# The longest line that can have a request, in bytes.
LONGEST = 65535
# The columns that are known here.
COLUMNS = "time=1,key=2,bytes=3,ttl=4"


def make(seed):
    draw = random.Random(seed)
    sizes = [draw.randrange(0, 90) for _ in range(30)]
    for number in range(600):
        key = min(draw.randrange(30), draw.randrange(30))
        what = draw.random()
        if what < 0.1:
            print(f"{number} /{key} -")
        elif what < 0.13:
            print(draw.choice(["", "one two", f"{number}  a b c", f"{number} /{key} 1x", f"{number} /{key} 18446744073709551616"]))
        else:
            odd = seed == 3 and what > 0.97
            print(f"{number}\t/{key} {sizes[key] + (1 if odd else 0)}")


def make_times(seed):
    """Writes requests at moments: equal ones, some that go back, removals, sometimes other lengths, and words that are no times; of an even
    seed with a lifetime each."""
    draw = random.Random(seed)
    keys, top, step = draw.randint(1, 14), draw.choice([1, 3, 20, 1000]), draw.choice([0, 1, 1, 3, 10])
    sizes = [draw.randint(0, top) for _ in range(keys)]
    back, removals, now = draw.choice([0, 0, 0.05]), draw.choice([0, 0.03, 0.2]), draw.randint(0, 3)
    odd = draw.choice([0, 0, 0.1])
    for _ in range(draw.randint(5, 140)):
        now += draw.randint(0, step) if draw.random() < 0.8 else 0
        moment = max(0, now - draw.randint(0, 8)) if draw.random() < back else now
        key, what = min(draw.randrange(keys), draw.randrange(keys)), draw.random()
        if what < removals:
            line = f"{moment} /{key} -"
        elif what > 0.98:
            line = draw.choice([f"x /{key} 1", f".5 /{key} 1", f"1.x /{key} 1", f"{2**63} /{key} 1", f"-1 /{key} 1"])
        else:
            size = sizes[key] if draw.random() >= odd else draw.randint(0, top)
            line = f"{moment}{draw.choice(['', '', '.9', '.'])} /{key} {size}"
        print(line if seed % 2 else f"{line} {draw.choice(['0', '1', '3', '10', '30', '-', 'x', str(2**62)] if seed % 4 else ['0', '1', '3', '10', '30'])}")


def options_for_times(seed):
    """Returns options for the requests of --make-times: 40 sizes, a lifetime, and sometimes a watermark."""
    draw = random.Random(-1 - seed)
    limits = sorted(draw.randint(1, draw.choice([20, 200, 10000])) for _ in range(40))
    mark = draw.choice([None, None, None, draw.randint(1, 14)])
    life = f" --ttl {draw.choice([0, 1, 2, 5, 10, 40, 10**6])}"
    given = f"--sizes {','.join(map(str, limits))}" + (f" --columns {COLUMNS}" if seed % 2 == 0 else "") + (life if seed % 4 else "")
    return given if mark is None else f"{given} --max-entries {mark}"


def make_records(seed, form):
    """Writes records, with odd sizes, sizes that can't be counted, and a last record that is cut short."""
    draw = random.Random(seed)
    sizes = [draw.randrange(0, 90) for _ in range(30)]
    for number in range(600):
        key = min(draw.randrange(30), draw.randrange(30))
        what = draw.random()
        size = sizes[key] + (1 if seed == 3 and what > 0.97 else 0)
        if form == "records":
            size = 2**64 - 1 if what < 0.1 else 2**64 - 2 if what < 0.12 else size
            sys.stdout.buffer.write(struct.pack("<QQ", key << 59 | key, size))
        else:
            sys.stdout.buffer.write(struct.pack("<IQIq", number, key << 59 | key, size, -1))
    sys.stdout.buffer.write(b"short")


def moment_of(time):
    """Returns the whole seconds of a time, or None."""
    seconds = re.fullmatch(rb"([0-9]+)(\.[0-9]*)?", time)
    return int(seconds[1]) if seconds and int(seconds[1]) < 2**63 else None


def lifetime_of(word, whole):
    """Returns the seconds of a column of lifetimes, or None; where it tells none they are those of all."""
    if word == b"-":
        return whole
    return int(word) if word.isdigit() and int(word) < 2**62 else None


def columns(stream, whole):
    """Yields the same of lines of columns, with their lifetimes."""
    for line in stream:
        words = line.removesuffix(b"\n").split()
        # of a removal neither is read
        removal = len(words) > 2 and words[2] == b"-"
        moment, life = (0, 0) if removal else (moment_of(words[0]), lifetime_of(words[3], whole)) if len(words) > 3 else (None, None)
        yield None if moment is None or life is None else (words[1], words[2].decode("latin-1"), moment, life)


def requests(form, stream, timed, whole):
    """Yields a key, its bytes, '-' for a removal, the moment, 0 where times don't count, and the lifetime; None for what has no request."""
    if form == "text":
        for line in stream:
            line = line.removesuffix(b"\n")
            words = line.replace(b"\r", b" ").replace(b"\t", b" ").split(b" ")
            words = [it for it in words if it]
            moment = moment_of(words[0]) if timed and words else 0
            yield (words[1], words[2].decode("latin-1"), moment, whole) if len(words) == 3 and len(line) <= LONGEST and moment is not None else None
        return
    length = 16 if form == "records" else 24
    while record := stream.read(length):
        if len(record) < length:
            yield None
        elif form == "records":
            size = int.from_bytes(record[8:], "little")
            yield record[:8], "-" if size == 2**64 - 1 else str(size), 0, whole
        else:
            yield record[4:12], str(int.from_bytes(record[12:16], "little")), int.from_bytes(record[:4], "little"), whole


def part_of(key, parts):
    """Returns the part of a key: FNV-1a of 64 bits, modulo a prime, modulo the number of parts."""
    number = 14695981039346656037
    for byte in key:
        number = (number ^ byte) * 1099511628211 % 2**64
    return number % 1000000007 % parts


def check_ratios(low, high, steps, limits):
    """Checks that the limits are low * (high / low) ** (i / (steps - 1)), to the nearest whole number."""
    getcontext().prec = 60
    assert len(limits) == steps and limits[0] == low and limits[-1] == high and limits == sorted(limits), limits
    for at, limit in enumerate(limits):
        exact = Decimal(low) * (Decimal(high) / low) ** (Decimal(at) / (steps - 1))
        assert abs(limit - exact) <= Decimal("0.501"), (at, limit, exact)


class PlainList:
    """A cache of one list, the latest first."""

    def __init__(self, limit, mark):
        self.limit, self.mark, self.rows, self.finds, self.bytes = limit, mark, [], 0, 0
        self.fresh, self.fresh_bytes = 0, 0
        # when each entry was asked for last, how many requests asked, and the number and the moment of the first that put an entry out
        self.asked_at, self.asks, self.full = {}, 0, None

    def ask(self, key, weight, moment=0, lifetime=0):
        self.asks += 1
        self.asked_at[key] = moment
        row = next((row for row in self.rows if row[0] == key), None)
        if row:
            self.finds += 1
            self.bytes += weight
        if row and moment < row[2]:
            self.fresh += 1
            self.fresh_bytes += weight
        else:  # it is loaded: fresh through the last second of its lifetime, and never where that is 0
            row = (key, weight, moment + lifetime + 1 if lifetime else moment)
        self.remove(key)
        self.rows.insert(0, row)
        while sum(row[1] for row in self.rows) > self.limit or (self.mark is not None and len(self.rows) > self.mark):
            self.rows.pop()
            self.full = self.full or (self.asks, moment)

    def held(self, timed):
        """The columns of what is held: the entries, when it was full first, and with moments the one that was used longest ago."""
        full = "" if self.full is None else self.full[1 if timed else 0]
        oldest = min((self.asked_at[row[0]] for row in self.rows), default="")
        return f",{len(self.rows)},{full}" + (f",{oldest}" if timed else "")

    def remove(self, key):
        self.rows = [row for row in self.rows if row[0] != key]


def size_of(word, overhead):
    """Returns the weight that a word says, or None."""
    if not (word.isascii() and word.isdigit()) or int(word) + overhead >= 2**64:
        return None
    return max(1, int(word) + overhead)


def percent(part, whole):
    hundredths = part * 10000 // whole if whole else 0
    return f"{hundredths // 100}.{hundredths % 100:02}"


def main():
    parser = argparse.ArgumentParser(description=__doc__)
    parser.add_argument("--make", type=int)
    parser.add_argument("--make-times", type=int)
    parser.add_argument("--options-for-times", type=int, metavar="SEED")
    parser.add_argument("--ttl", type=int)
    parser.add_argument("--columns", choices=[COLUMNS])
    parser.add_argument("--sizes", default="")
    parser.add_argument("--max-entries", type=int)
    parser.add_argument("--entry-overhead", type=int, default=0)
    parser.add_argument("--format", default="text")
    parser.add_argument("--part")
    parser.add_argument("--check-ratios", type=int, nargs=3, metavar=("FROM", "TO", "STEPS"), help="check the limits of a curve")
    options = parser.parse_args()
    if options.check_ratios:
        check_ratios(*options.check_ratios, [int(it.split(",")[0]) for it in sys.stdin if it[:1].isdigit()])
        return
    if options.make is not None:
        make(options.make) if options.format == "text" else make_records(options.make, options.format)
        return
    if options.make_times is not None:
        make_times(options.make_times)
        return
    if options.options_for_times is not None:
        print(options_for_times(options.options_for_times))
        return
    index, parts = map(int, options.part.split("/")) if options.part else (0, 1)
    limits = [int(it) for it in options.sizes.split(",")]
    timed = options.ttl is not None or options.columns is not None
    if timed:
        limits.append(2**64 - 1)
    mark = options.max_entries if options.max_entries is None else options.max_entries // parts
    lists = [PlainList(it if it == 2**64 - 1 else it // parts, mark) for it in limits]
    weights, again, asks, removed, odd, wrong, weighed, read = {}, set(), 0, 0, 0, 0, 0, 0
    stream = sys.stdin.buffer
    for request in columns(stream, options.ttl) if options.columns else requests(options.format, stream, timed, options.ttl or 0):
        read += 1
        key, word, moment, lifetime = request or (b"", "", 0, 0)
        weight = size_of(word, options.entry_overhead)
        if weight is None and word != "-":
            wrong += 1
        elif part_of(key, parts) != index:
            pass
        elif word == "-":
            removed += key in weights
            for it in lists:
                it.remove(key)
        else:
            if key in weights:
                again.add(key)
            own = weights.setdefault(key, weight)
            asks, odd, weighed = asks + 1, odd + (own != weight), weighed + own
            for it in lists:
                it.ask(key, own, moment, lifetime)
    head = "size,hits,hit_bytes,hit_percent,byte_hit_percent"
    print(f"{head},fresh_hits,fresh_hit_bytes,fresh_hit_percent,fresh_byte_hit_percent,entries,first_eviction_at,lru_victim_used_at" if timed else f"{head},entries,first_eviction_at")
    for limit, it in zip(limits, lists):
        name = "unlimited" if timed and limit == 2**64 - 1 else limit
        row = f"{name},{it.finds},{it.bytes},{percent(it.finds, asks)},{percent(it.bytes, weighed)}"
        row += f",{it.fresh},{it.fresh_bytes},{percent(it.fresh, asks)},{percent(it.fresh_bytes, weighed)}" if timed else ""
        print(row + it.held(timed))
    counts = f"# format=1 requests={asks} unique_keys={len(weights)} deletes={removed} size_changes={odd} skipped_lines={wrong} request_bytes={weighed}"
    counts += f" repeated_keys={len(again)} repeated_key_bytes={sum(weights[it] for it in again)}"
    if timed:
        counts += f" ttl={'' if options.ttl is None else options.ttl}"
    if options.part:
        print(f"{counts} part={index}/{parts} entry_overhead={options.entry_overhead} lines_read={read}")
        print(f"# estimate: one of {parts} parts of the keys")
        return
    print(f"{counts} lines_read={read}")
    if odd:
        print(f"# estimate: one shard; requests by another length than their entry's first: {odd}")
    else:
        print("# exact: one shard, each entry has one length")


if __name__ == "__main__":
    main()
