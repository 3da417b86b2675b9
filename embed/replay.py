#!/usr/bin/env python3
"""Replays traces through the C library by each wrapper, and compares what it answers with what tier-replay writes, line by line.

    python3 replay.py LIB.so [--by NAME=COMMAND ..]               the traces of ../traces, and those of restarts with their files
    python3 replay.py LIB.so [--by NAME=COMMAND ..] FOLDER ..     traces that tools/reference/random_traces.py --cases FOLDER wrote, beside the answers of
                                                                  the plain model

What a trace's answer doesn't tell of an end, whether a whole body was read or a write that was given up, is compared with the plain model.

Always by ctypes alone and by the Python package; by replay.c and the crate's example `replay` where they are named. Package and crate take metadata
always, so they replay the traces whose heads the tier doesn't judge itself. The library takes events and no lines: a line that the stored answers refuse as a line is passed over. Look-ups of odd requests are a `find`, some keys are handed in as digests, and
the bytes of a put are split in two."""

import hashlib
import json
import os
import shlex
import subprocess
import sys

TOP = os.path.join(os.path.dirname(os.path.abspath(__file__)), "..")
sys.path.insert(0, os.path.join(TOP, "python", "src"))
sys.path.insert(0, os.path.join(TOP, "tools", "reference"))
import replay_model as model  # noqa: E402  (the folders come first)
import traces as texts  # noqa: E402
from cache_tier import CacheTierError, Digest, Meta, Tier, raw as ct, words as ct_words  # noqa: E402

PLAIN = {
    ct.OPENED: "opened",
    ct.BEGUN: "begun",
    ct.WRITTEN: "written",
    ct.WAITING: "pending",
    ct.PENDING: "pending",
    ct.CLOSED: "dropped",
    ct.PURGED: "purged",
    ct.NOT_FOUND: "nothing",
    ct.GIVEN_UP: "uncacheable OriginNotCache",
}
# Where a trace names a fault otherwise.
FAULTS = {4: "Waiting", 9: "Incomplete"}
WAITED = "waiting done transient-error give-up dangling wait-timeout age-timeout".split()
LOCK = ("none", "write", "read")
WHOLE = ("given-up", "whole")
REPORT = "found absent bodies bytes meta tracked weight evicted external".split()
STATS = "found misses bodies body_bytes head_bytes entries weight evicted external_bytes".split()
# The events that have metadata, or are judged by their head, which their last word says.
OF_META = ("begin", "revalidate", "put")


def text_of(told):
    """The line of a trace's answer, of status, number, evicted, fresh, complete, permit and bytes."""
    *numbers, data = told.split(" ")
    status, number, evicted, fresh, complete, permit = map(int, numbers)
    if status in PLAIN:
        return PLAIN[status]
    if status <= 15:
        return f"fault {status} {FAULTS.get(status, ct.NAMES.get(status))}"
    if status == ct.NOT_STORED:
        return "fault 17 NotStored"
    if status == ct.FOUND:
        return f"found {'fresh' if fresh else 'stale'} {'complete' if complete else 'partial'} lock={LOCK[permit]}"
    if status == ct.END:
        return f"end {WHOLE[complete]}"
    if status == ct.MISS:
        return f"absent lock={LOCK[permit]}"
    if status == ct.WAIT_ENDED:
        return f"waited {WAITED[number]}"
    if status == ct.DATA:
        return f"bytes {data}"
    if status == ct.STORED:
        return f"finished {number} evicted={evicted}"
    if status == ct.REVALIDATED:
        return f"revalidated evicted={evicted}"
    return f"status {status}"


def report_of(told):
    counts = dict(zip(REPORT, map(int, told.split())))
    external = counts.pop("external")
    return "report " + " ".join(f"{name}={count}" for name, count in counts.items()) + (f" external={external}" if external else "")


def hexed(data):
    return data.hex() or "-"


def key_words(event):
    """Whether the key is digested, its bytes, its tag."""
    tag = hexed(event.get("tag", "").encode())
    if event["op"] == "restore":
        return ["1", (event["digest"] + event.get("variance", "")).lower(), tag]
    key = bytes.fromhex(event["key"])
    if (len(tag) + event["at"]) % 3 == 0:
        return ["1", hashlib.blake2b(key, digest_size=16).hexdigest(), tag]
    return ["0", hexed(key), tag]


def meta_word(event):
    if not event["op"].endswith("-given") and event["op"] != "restore":
        return "-"
    created = event.get("created", event["at"])
    moments = [event["until"], created, event.get("updated", event["at"]), event.get("provenance", created)]
    return ",".join(map(str, moments + [event.get(it, 0) for it in ("while", "error", "external")]))


def words_of(line):
    """The words that an event of a trace is asked by."""
    event = json.loads(line)
    op, at, id = event["op"].replace("-given", ""), str(event["at"]), str(event.get("id", 0))
    if op == "open":
        return ["open", id, "1" if event.get("lock") else "0", *key_words(event)]
    if op == "look":
        return ["find" if int(id) % 2 else "look", at, id]
    if op == "poll":
        return ["poll", at, id]
    if op in ("begin", "revalidate"):
        return [op, at, id, event["head"].lower() or "-", meta_word(event)]
    if op == "piece":
        return ["piece", id, "1" if event.get("end") else "0", event["bytes"].lower() or "-"]
    if op in ("finish", "read", "drop"):
        return [op, id]
    if op == "purge":
        return ["purge", *key_words(event)]
    data = bytes.fromhex("".join(event["pieces"]))
    cut = len(data) * 5 % (len(data) + 1)
    return ["put", at, *key_words(event), hexed(data[:cut]), hexed(data[cut:]), meta_word(event)]


def option(words, name, default=None):
    """The value of an option, which its word has after '=', or the next word is."""
    words = [part for word in words for part in word.split("=")]
    return int(words[words.index(name) + 1]) if name in words else default


def new_words(words):
    of = lambda name, default=ct.NONE: str(option(words, name, default))
    return ["new", of("--limit"), of("--watermark"), of("--age", 10), of("--wait"), of("--shards", 1), of("--seed", 0)]


def unhex(word):
    return b"" if word == "-" else bytes.fromhex(word)


class ByPackage:
    """Answers by the Python package, as replay.c does by the header."""

    def __init__(self, library):
        self.library, self.tier, self.files, self.given = library, None, [], {}

    def key(self, words):
        return (Digest if words[0] == "1" else bytes)(unhex(words[1])), unhex(words[2]).decode()

    def meta(self, word):
        return None if word == "-" else Meta(*map(int, word.split(",")))

    def new(self, words):
        none = lambda it: None if int(it) == ct.NONE else int(it)
        limit, watermark, age, wait, shards, seed = words
        self.tier = Tier(int(limit), none(watermark), int(age), none(wait), int(shards), int(seed), 0, self.library, None)
        self.given = {}
        return (0,)

    def event(self, op, words):
        tier, number = self.tier, lambda at: int(words[at])
        if op == "open":
            key, tag = self.key(words[2:])
            tier.open(number(0), key, words[1] == "1", tag)
            return (ct.OPENED,)
        if op in ("look", "find"):
            look = tier.lookup(number(0), number(1))
            return ct.MISS if look.response is None else ct.FOUND, 0, 0, look.fresh, look.complete, ct_words.PERMITS.index(look.permit)
        if op == "poll":
            how = tier.poll(number(0), number(1))
            return (ct.WAITING,) if how is None else (ct.WAIT_ENDED, ct_words.LOCK_STATUSES.index(how))
        if op == "begin":
            tier.begin(number(0), number(1), unhex(words[2]), self.meta(words[3]))
            return (ct.BEGUN,)
        if op == "revalidate":
            return ct.REVALIDATED, 0, len(tier.revalidate(number(0), number(1), unhex(words[2]), self.meta(words[3])))
        if op == "piece":
            tier.write(number(0), unhex(words[2]), words[1] == "1")
            return (ct.WRITTEN,)
        return self.more(op, words)

    def more(self, op, words):
        tier, number = self.tier, lambda at: int(words[at])
        if op == "finish":
            length, gone = tier.finish(number(0))
            return ct.STORED, length, len(gone)
        if op == "read":
            got = tier.read(number(0))
            if isinstance(got, memoryview):
                return ct.DATA, len(got), 0, 0, 0, 0, hexed(got)
            return (ct.PENDING,) if got is None else (ct.END, 0, 0, 0, got == "end")
        if op == "drop":
            return (ct.CLOSED if tier.close_request(number(0)) else 1,)
        if op == "purge":
            return (ct.PURGED if tier.purge(*self.key(words)) else ct.NOT_FOUND,)
        if op == "put":
            key, tag = self.key(words[1:])
            done = tier.put(number(0), key, unhex(words[4]), unhex(words[5]), self.meta(words[6]), tag)
            return ct.STORED, done.body_len, len(done.evicted)
        if op == "hand_file":
            self.given[number(0)] = unhex(words[1])
            return (0,)
        if op == "start":
            return ct.RESTORED, *tier.lru_restore([self.given.get(it) for it in range(max(self.given, default=-1) + 1)])
        assert op == "save"
        self.files = tier.lru_save()
        return ct.SAVED, len(self.files) - self.files.count(None), self.files.count(None)

    def line(self, words):
        op, *words = words
        if op == "report":
            return " ".join(str(getattr(self.tier.stats(), name)) for name in STATS)
        if op == "file":
            file = self.files[int(words[0])]
            return "!" if file is None else hexed(file)
        try:
            told = self.new(words) if op == "new" else self.event(op, words)
        except CacheTierError as why:
            told = (why.status,)
        numbers, data = told[:6], "".join(told[6:]) or "-"
        return " ".join(map(str, map(int, [*numbers, 0, 0, 0, 0, 0][:6]))) + " " + data

    def __call__(self, asked):
        return [self.line(it) for it in asked]


class ByCalls(ByPackage):
    """Answers by ctypes alone."""

    def new(self, words):
        if self.tier:
            self.tier.end()
        limit, watermark, age, wait, shards, seed = map(int, words)
        self.tier = ct.RawTier(ct.loaded(self.library), limit, watermark, age, wait, shards, seed, hash_seed=0, max_body_bytes=ct.NONE)
        return (self.tier.state,)

    def told(self, name, *arguments):
        out = self.tier.call(name, *arguments)
        answer = out.result if isinstance(out, ct.Response) else out
        found = (hexed(ct.text(out.body)),) if answer.status == ct.DATA else ()
        if isinstance(out, ct.Response):
            self.tier.release(out)
        return (answer.status, answer.value, answer.evicted, answer.fresh, answer.complete, answer.permit, *found)

    def meta(self, word):
        if word == "-":
            return self.tier.meta(None)
        until, created, updated, provenance, *rest = map(int, word.split(","))
        return self.tier.meta(ct.Meta(*((it, 0) for it in (until, created, updated, provenance)), *rest))

    def key(self, words):
        return int(words[0]), unhex(words[1]), unhex(words[2])

    def event(self, op, words):
        number = lambda at: int(words[at])
        if op == "open":
            return self.told("open", number(0), number(1), *self.key(words[2:]))
        if op in ("look", "find", "poll"):
            return self.told("poll" if op == "poll" else "lookup", number(0), 0, number(1))
        if op in ("begin", "revalidate"):
            return self.told(op, number(0), 0, number(1), unhex(words[2]), *self.meta(words[3]))
        if op == "piece":
            return self.told("write", number(0), number(1), unhex(words[2]))
        if op in ("finish", "read", "drop"):
            return self.told("close" if op == "drop" else op, number(0))
        if op == "purge":
            return self.told("purge", *self.key(words))
        if op == "put":
            return self.told("put", number(0), 0, *self.key(words[1:]), unhex(words[4]), unhex(words[5]), *self.meta(words[6]))
        if op == "hand_file":
            return self.told("lru_load", number(0), unhex(words[1]))
        out = self.tier.call({"start": "lru_restore", "save": "lru_save"}[op])
        return (out.status, out.value, out.value2, out.shards_corrupt)

    def line(self, words):
        if words[0] == "report":
            out = self.tier.call("get_stats")
            return " ".join(str(getattr(out, name)) for name in STATS)
        if words[0] == "file":
            out = self.tier.call("lru_file", int(words[1]))
            return hexed(ct.text(out.content)) if out.status == ct.ITEM else "!"
        return super().line(words)


def piped(command):
    def run(asked):
        text = "".join(" ".join(it) + "\n" for it in asked)
        done = subprocess.run(shlex.split(command), input=text, stdout=subprocess.PIPE, text=True, check=True)
        return done.stdout.splitlines()

    return run


class Traces:
    """Of each trace what is asked, for each answer the line that is wanted, and whether all its events have metadata."""

    def __init__(self):
        self.every = []

    def trace(self, name, words, trace, wanted, before=(), after=(), folder=None):
        rows = [(new_words(words), None, None, text_of), *before]
        *wanted, report = wanted
        for at, (line, answer, whole) in enumerate(zip(lines_of(trace), wanted, ends(words, trace, folder))):
            if answer == "end":
                answer = f"end {WHOLE[whole]}"
            if not answer.startswith("refused "):
                rows.append((words_of(line), f"{name}, line {at + 1}", answer, text_of))
        rows += [(["report"], f"{name}, the report", report, report_of), *after]
        self.every.append((rows, not any(asked[0] in OF_META and asked[-1] == "-" for asked, *_ in rows)))

    def differ(self, what, by, run, judges):
        """How many answers differ. `judges`: it takes events without metadata too."""
        every = [rows for rows, has_metadata in self.every if judges or has_metadata]
        rows, differ = [row for rows in every for row in rows], 0
        told = run([asked for asked, *_ in rows])
        if len(told) != len(rows):
            print(f"{what} by {by}: {len(told)} answers of {len(rows)}")
            return 1
        for line, (_, name, wanted, text) in zip(told, rows):
            if wanted is not None and text(line) != wanted:
                differ += 1
                if differ < 4:
                    print(f"{what} by {by}: {name}: {text(line)!r} in place of {wanted!r}")
        print(f"{what} by {by}: {len(every)} of {len(self.every)}, {differ} differences")
        return differ


def lines_of(trace):
    lines = trace.split(b"\n")
    return lines[:-1] if lines[-1] == b"" else lines


def ends(words, trace, folder):
    """Of each line, whether all came of what it read to its end, by the plain model, since no answer of a trace tells it."""
    tier = model.Tier(**model.options_of(words))
    if folder is not None:
        tier.load(folder)
    for line in lines_of(trace):
        told = model.answer(tier, line)
        yield told == "end" and tier.requests[model.event_of(line)[1]["id"]].reader.came_whole()


def stored():
    traces = Traces()
    for it in texts.stored():
        traces.trace(it.name, it.words, it.lines, it.answers.decode().splitlines())
    return traces


def restarts():
    """Traces that start from files, and save at the end."""
    traces = Traces()
    for restart in texts.restarts():
        name, words = restart.name, restart.words
        first, *wanted, saved = restart.answers.decode().splitlines()
        shards = range(option(words, "--shards", 1))
        of = lambda files, shard: files.get(f"lru.data.{shard}", b"").hex()
        before = [(["hand_file", str(it), of(restart.before, it) or "-"], None, None, text_of) for it in shards if f"lru.data.{it}" in restart.before]
        loaded = lambda told: "recency loaded={1} missing={2} errored={3}".format(*told.split())
        before.append((["start"], f"{name}, the start", first, loaded))
        kept = [(["save"], f"{name}, the save", saved, lambda told: "recency saved={1} failed={2}".format(*told.split()))]
        kept += [(["file", str(it)], f"{name}, file {it}", of(restart.after, it) or "-", str) for it in shards]
        traces.trace(name, words, restart.lines, wanted, before, kept, restart.before)
    return traces


def cases(folder):
    """Traces that tools/reference/random_traces.py --cases wrote, with the answers of the plain model."""
    traces = Traces()
    for name in sorted(it[: -len(".args")] for it in os.listdir(folder) if it.endswith(".args")):
        path = os.path.join(folder, name)
        with open(path, "rb") as trace, open(path + ".args") as args, open(path + ".stdout") as out:
            traces.trace(name, args.read().split(), trace.read(), out.read().splitlines())
    return traces


def main(words):
    library, ways, folders = words[0], [], []
    left = iter(words[1:])
    for it in left:
        if it == "--by":
            name, _, command = next(left).partition("=")
            ways.append((name, piped(command)))
        else:
            folders.append(it)
    ways = [("ctypes", ByCalls(library), True), ("the package", ByPackage(library), False), *((name, run, name != "Rust") for name, run in ways)]
    every = [("random traces", cases(it)) for it in folders] or [("traces", stored()), ("restarts", restarts())]
    return sum(traces.differ(what, by, run, judges) for what, traces in every for by, run, judges in ways)


if __name__ == "__main__":
    if len(sys.argv) < 2:
        sys.exit(__doc__)
    sys.exit(bool(main(sys.argv[1:])))
