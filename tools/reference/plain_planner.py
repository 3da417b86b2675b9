#!/usr/bin/env python3
"""What plain lists say of fresh finds, hours, columns and samples, one list for each limit: to compare with tier_curve, whose options and
output these are. It is slow; --make SEED COUNT writes requests to try."""
import argparse
import sys
from collections import OrderedDict
from decimal import Decimal, getcontext

from plain_curve import part_of, percent, size_of
from plain_requests import make, make_columns, options_for_columns

ANY = 2**64 - 1
STEPS = (100, 112, 125, 140, 160, 180, 200, 224, 250, 280, 315, 355, 400, 450, 500, 560, 630, 710, 800, 900)
LADDER = [step * 10**power // 100 for power in range(4, 14) for step in STEPS] + [10**14]
UNITS = {"K": 10**3, "M": 10**6, "G": 10**9, "T": 10**12}
MOST_TIMES = 1_000_000
HEAD = "size,hits,hit_bytes,hit_percent,byte_hit_percent"
HELD = ",entries,first_eviction_at"
TIMED = ",fresh_hits,fresh_hit_bytes,fresh_hit_percent,fresh_byte_hit_percent,entries,first_eviction_at,lru_victim_used_at"


class Cache:
    """A cache of one list, the latest used last. A row has its weight, the first moment at which its last load is stale, and the moment
    of its last request."""

    def __init__(self, limit, mark):
        self.limit, self.mark, self.rows, self.total = limit, mark, OrderedDict(), 0
        self.finds = self.bytes = self.fresh = self.fresh_bytes = 0
        self.full_at = self.full_number = None

    def ask(self, key, weight, moment, lifetime, number):
        row = self.rows.pop(key, None)
        if row:
            self.finds += 1
            self.bytes += weight
        else:
            self.total += weight
        if row and moment < row[1]:
            self.fresh += 1
            self.fresh_bytes += weight
            since = row[1]
        else:
            since = moment if lifetime == 0 else moment + lifetime + 1
        self.rows[key] = (weight, since, moment)
        while self.total > self.limit or (self.mark is not None and len(self.rows) > self.mark):
            self.total -= self.rows.popitem(last=False)[1][0]
            self.full_at = moment if self.full_at is None else self.full_at
            self.full_number = self.full_number or number

    def remove(self, key):
        row = self.rows.pop(key, None)
        self.total -= row[0] if row else 0

    def counts(self):
        return [self.finds, self.bytes, self.fresh, self.fresh_bytes]

    def oldest(self):
        return min((row[2] for row in self.rows.values()), default="")


class Curve:
    """The caches of all limits, for the keys of one part."""

    def __init__(self, options, index, parts):
        self.options, self.index, self.parts = options, index, parts
        mark = options.max_entries if options.max_entries is None else options.max_entries // parts
        self.caches = [Cache(it // parts, mark) for it in options.sizes]
        self.timed = options.ttl is not None or "ttl" in (options.columns or {})
        if self.timed:
            self.caches.append(Cache(ANY, mark))
        self.weights, self.again = {}, set()
        self.asks = self.removed = self.odd = self.bytes = self.said = self.unweighed = 0
        self.first = self.last = ""

    def ask(self, key, weight, moment, lifetime):
        if key in self.weights:
            self.again.add(key)
        own = self.weights.setdefault(key, weight) if weight is not None else self.weights[key]
        self.asks, self.odd = self.asks + 1, self.odd + (weight is not None and own != weight)
        self.bytes, self.said = self.bytes + own, self.said + (own if weight is None else weight)
        # moments may go back
        self.first, self.last = (moment, moment) if self.first == "" else (min(self.first, moment), max(self.last, moment))
        for it in self.caches:
            it.ask(key, own, moment, lifetime, self.asks)

    def remove(self, key):
        self.removed += key in self.weights
        for it in self.caches:
            it.remove(key)

    def named(self):
        return zip([*map(str, self.options.sizes), "unlimited"], self.caches)

    def rows(self):
        for limit, it in self.named():
            row = [limit, it.finds, it.bytes, percent(it.finds, self.asks), percent(it.bytes, self.bytes)]
            if self.timed:
                row += [it.fresh, it.fresh_bytes, percent(it.fresh, self.asks), percent(it.fresh_bytes, self.bytes), len(it.rows)]
                row += ["" if it.full_at is None else it.full_at, it.oldest()]
            else:
                row += [len(it.rows), "" if it.full_number is None else it.full_number]
            yield ",".join(map(str, row))

    def so_far(self, at):
        for limit, it in self.named():
            yield ",".join(map(str, [at, limit, self.asks, self.bytes, *it.counts(), it.oldest()]))

    def text(self, run):
        options = self.options
        totals = f"# format=1 requests={self.asks} unique_keys={len(self.weights)} deletes={self.removed} size_changes={self.odd} skipped_lines={run.wrong} request_bytes={self.bytes}"
        totals += f" stated_bytes={self.said}" if options.sample else ""
        totals += "".join(f" {name}={count}" for name, count in (("requests_without_size", self.unweighed), ("other_ops", run.other)) if count)
        totals += f" repeated_keys={len(self.again)} repeated_key_bytes={sum(self.weights[it] for it in self.again)}"
        if self.timed:
            totals += f" ttl={'' if options.ttl is None else options.ttl} first_at={self.first} last_at={self.last}"
        kind = f"# estimate: one shard; requests by another length than their entry's first: {self.odd}" if self.odd else "# exact: one shard, each entry has one length"
        if self.parts > 1 or options.part:
            totals += f" part={self.index}/{self.parts} entry_overhead={options.entry_overhead}"
            kind = f"# estimate: one of {self.parts} parts of the keys"
        totals += f" lines_read={run.read}"
        totals += f" total_requests={run.asked} total_bytes={run.said}" if options.sample else ""
        return "\n".join([HEAD + (TIMED if self.timed else HELD), *self.rows(), totals, kind])


def between(low, high, steps):
    """So many limits by equal ratios, to the nearest whole number."""
    getcontext().prec = 60
    return [round(low * (Decimal(high) / low) ** (Decimal(at) / (steps - 1))) for at in range(steps)]


def columns_of(text):
    told = dict(word.split("=") for word in text.split(","))
    return {name: [int(it) - 1 for it in at.split("+")] for name, at in told.items()}


class Run:
    """Reads the requests, and hands each to the curve of its part."""

    def __init__(self, options):
        self.options, self.wrong, self.other, self.read, self.asked, self.said = options, 0, 0, 0, 0, 0
        index, parts = map(int, (options.part or "0/1").split("/"))
        if options.sample:
            parts = int(options.sample.split("/")[1])
        self.parts = parts
        self.curves = [Curve(options, it, parts) for it in (range(options.sample_parts) if options.sample else [index])]
        self.told, self.hours, self.next = {}, [], None
        self.timed = options.ttl is not None or "ttl" in (options.columns or {})

    def moment_of(self, word):
        if not self.timed:
            return 0
        digits, _, part = word.partition(b".")
        good = digits.isdigit() and len(digits) < 20 and (part.isdigit() or not part) and int(digits) < 2**63
        return int(digits) if good else None

    def line(self, line):
        """The operation, key, bytes, moment, lifetime and times of a line of columns, or None."""
        its, options = self.options.columns, self.options
        line = line.removesuffix(b"\n").removesuffix(b"\r") if options.delimiter else line
        words = line.split(options.delimiter) if options.delimiter else line.split()
        get = lambda name: (words + [None] * 99)[its[name][0]] if name in its else None
        if not line or max(its["key"]) >= len(words) or ("op" in its and get("op") is None):
            return None
        key = (options.delimiter or b" ").join(words[it] for it in its["key"])
        what = "ask" if "op" not in its or get("op").decode() in options.get_ops else "remove" if get("op").decode() in options.delete_ops else "other"
        if what == "remove" or (what == "other" and "ttl" not in its):
            self.other += what == "other"
            return (what, key, None, 0, None, 1) if key else None
        # of a removal nothing else is read
        if what == "ask" and len(words) > max(its["bytes"]) and [words[it] for it in its["bytes"]] == [b"-"]:
            return ("remove", key, None, 0, None, 1) if key else None
        # columns that aren't used needn't be there
        used = {"times", *(("time", "ttl") if self.timed else ()), *(("bytes",) if what == "ask" else ())}
        if max((max(at) for name, at in its.items() if name in used), default=0) >= len(words) or not key:
            return None
        ttl, times = get("ttl"), get("times")
        moment = self.moment_of(get("time"))
        life = options.ttl if ttl in (None, b"", b"-") else int(ttl) if ttl.isdigit() and int(ttl) < 2**62 else None
        if moment is None or (self.timed and life is None) or (times is not None and not (times.isdigit() and len(times) < 20 and int(times) <= MOST_TIMES)):
            return None
        if what == "other":
            self.other += 1
            self.told[key] = life
            return "other", key, None, moment, None, 1
        life = self.told.get(key, 0) if life == 0 else life
        times = 1 if times is None else int(times)
        sizes = [words[it] for it in its["bytes"]]
        # of several columns the last is the body: of length 0 it wasn't there
        if b"?" in sizes or (len(sizes) > 1 and sizes[-1].isdigit() and int(sizes[-1]) == 0):
            return "ask", key, None, moment, life, times
        if not all(it.isdigit() for it in sizes):
            return None
        size = size_of(str(sum(map(int, sizes))), options.entry_overhead)
        return None if size is None else ("ask", key, size, moment, life, times)

    def made(self, stream):
        """Yields what each line or record says, None for what has no request."""
        if self.options.columns:
            for number, line in enumerate(stream):
                if number >= self.options.skip_lines:
                    yield self.line(line)
        elif self.options.format == "text":
            for line in stream:
                words = [it for it in line.rstrip(b"\n").replace(b"\r", b" ").replace(b"\t", b" ").split(b" ") if it]
                moment = self.moment_of(words[0]) if len(words) == 3 and len(line) <= 65536 else None
                size = size_of(words[2].decode("latin-1"), self.options.entry_overhead) if moment is not None else None
                good = moment is not None and (size is not None or words[2] in (b"-", b"?"))
                yield ("remove" if words[2] == b"-" else "ask", words[1], size, moment, None, 1) if good else None
        else:
            data = stream.read()
            for at in range(0, len(data), 24):
                it = data[at:at + 24]
                size = size_of(str(int.from_bytes(it[12:16], "little")), self.options.entry_overhead)
                yield ("ask", it[4:12], size, int.from_bytes(it[:4], "little"), None, 1) if len(it) == 24 else None

    def run(self, stream):
        by = self.options.interval
        for made in self.made(stream):
            self.read += 1
            if made is None:
                self.wrong += 1
                continue
            what, key, weight, moment, lifetime, times = made
            if what == "other":
                continue
            curve = next((it for it in self.curves if it.index == part_of(key, self.parts)), None)
            if what == "remove":
                if curve:
                    curve.remove(key)
                continue
            self.asked, self.said = self.asked + times, self.said + times * (weight or 0)
            if curve and weight is None and key not in curve.weights:
                curve.unweighed += 1
                continue
            if by and curve and times:
                at = moment // by * by
                if self.next is None:
                    self.next = at + by
                elif moment >= self.next:
                    self.hours += curve.so_far(at)
                    self.next = at + by
            for _ in range(times if curve else 0):
                curve.ask(key, weight, moment, (self.options.ttl or 0) if lifetime is None else lifetime)
        out = [it.text(self) for it in self.curves]
        return "\n".join([*out, *(["interval_end,size,requests,request_bytes,hits,hit_bytes,fresh_hits,fresh_hit_bytes,lru_victim_used_at", *self.hours] if by else [])]) + "\n"


def size(text):
    return int(text[:-1]) * UNITS[text[-1]] if text[-1] in UNITS else int(text)


def main():
    parser = argparse.ArgumentParser(description=__doc__)
    parser.add_argument("--make", type=int, nargs=2)
    parser.add_argument("--make-columns", type=int)
    parser.add_argument("--options-for-columns", type=int)
    parser.add_argument("--standard-sizes", action="store_true")
    for name in ("ttl", "interval", "max-entries", "sample-parts", "skip-lines", "entry-overhead"):
        parser.add_argument("--" + name, type=int, default=0 if name in ("skip-lines", "entry-overhead") else None)
    for name in ("sizes", "columns", "delimiter", "sample", "part"):
        parser.add_argument("--" + name)
    parser.add_argument("--steps", type=int, default=40)
    parser.add_argument("--get-ops", default="get,gets")
    parser.add_argument("--delete-ops", default="delete")
    parser.add_argument("--format", default="text")
    parser.add_argument("--quiet", action="store_true")
    options = parser.parse_args()
    if options.make:
        make(*options.make)
        return
    if options.make_columns is not None:
        make_columns(options.make_columns)
        return
    if options.options_for_columns is not None:
        print(options_for_columns(options.options_for_columns))
        return
    of = int((options.sample or options.part or "0/1").split("/")[1])
    if options.standard_sizes:
        options.sizes = [it for it in LADDER if it % of == 0]
    elif ".." in (options.sizes or ""):
        options.sizes = between(*map(size, options.sizes.split("..")), options.steps)
    else:
        options.sizes = [size(it) for it in (options.sizes or "").split(",") if it]
    if any(it % of for it in [*options.sizes, options.max_entries or 0]):
        parser.error(f"each size must be a multiple of {of}, and --max-entries too")
    options.columns = options.columns and columns_of(options.columns)
    options.delimiter = options.delimiter and options.delimiter.replace("\\t", "\t").encode()
    options.get_ops, options.delete_ops = options.get_ops.split(","), options.delete_ops.split(",")
    sys.stdout.write(Run(options).run(sys.stdin.buffer))


if __name__ == "__main__":
    main()
