"""Traces, tiers of the plain model's text, and the calls of a tier held to the promise."""

import copy
import os
import random
import subprocess
import sys
import tempfile
from functools import cache, lru_cache
from typing import NamedTuple

import replay_model as model
from traces import stored
from promise import calls, told
from promise.changes import stored_key
from promise.heads import head_of
from promise.room import Settings

SCRIPTS = os.path.join(os.path.dirname(os.path.abspath(__file__)), "..")
# changes of which bodies are others than before, or weigh otherwise
SETTLES = ("lands", "renews", "weighs", "takes")


class Trace(NamedTuple):
    name: str
    words: list
    lines: list
    events: list
    folder: dict | None = None

    def options(self):
        return {"limit": 0, "watermark": None, "shards": 1, "seed": 0, "age": 10, "wait": None} | model.options_of(self.words)


def event_of(line):
    """An event, or none where the line is refused as such."""
    try:
        return model.event_of(line)
    except model.Refused:
        return None


def trace_of(name, words, data, folder=None):
    lines = model.lines_of(data)
    return Trace(name, words, lines, [event_of(line) for line in lines], folder)


def data_of(*path):
    with open(os.path.join(*path), "rb") as it:
        return it.read()


def repository_traces():
    return [trace_of(it.name, it.words, it.lines) for it in stored()]


def random_traces(count, seed):
    """Those of random_traces.py; some begin with an order of use that another left, with entries of an id among its rows."""
    with tempfile.TemporaryDirectory() as place:
        script = os.path.join(SCRIPTS, "random_traces.py")
        subprocess.run([sys.executable, script, "--cases", place, str(count), seed], check=True)
        names = [f"trace{at:05}" for at in range(count)]
        found = [trace_of(name, data_of(place, name + ".args").decode().split("\n"), data_of(place, name)) for name in names]
    r, before, some = random.Random(seed), None, []
    for it in found:
        some.append(it._replace(folder=left_by(r, before)) if before and r.random() < 0.3 else it)
        before = it
    return some


def left_by(r, trace):
    """The files that a run of the trace leaves, some of whose entries have an id."""
    tier = tier_of(model.Tier, trace)
    for event in filter(None, trace.events):
        told.by_tier(tier, model.Fault, *event)
    for row in tier.rows():
        if r.random() < 0.2:
            row[0] = (*row[0][:3], r.randrange(2))
    folder = {}
    tier.save(folder)
    return folder


def tier_of(kind, trace):
    tier = told.noted(kind(**trace.options()))
    if trace.folder:
        tier.load(dict(trace.folder))
    return tier


class Watch:
    """The calls of a tier so far, held to the promise."""

    def __init__(self, trace):
        options = trace.options()
        self.s = Settings(options["shards"], options["limit"], options["watermark"], options["age"], options["wait"])
        self.words, self.taken = model.Words(options["seed"]), 0
        self.now = calls.now_of([tuple(row) for row in tier_of(model.Tier, trace).rows()])

    def entering(self, op, given):
        """What the answer to an event lets into the order of use."""
        return calls.after(self.s, calls.Call(op, given, ("Ok", ("any",))), self.now).row.needs.entering

    def by_line(self, op, given, line):
        return told.by_line(line, op, self.s, self.now, self.entering(op, given), copy.copy(self.words))

    def refusal(self, call):
        """Why the call breaks the promise, or none; the tier moves on by its row."""
        came = calls.after(self.s, call, self.now)
        why = calls.were_drawn(self.s, call, self.now, came.row, self.words)
        why = why or calls.is_right(self.s, self.taken, call, self.now, came.row)
        settles = any(it[0] in SETTLES for it in came.row.changes)
        self.now, self.taken = calls.now_after(call, self.now, came), self.taken + 1
        return why or (self.unheld() if settles else None)

    def unheld(self):
        """What doesn't hold of the bodies."""
        held = calls.bodies(self.now.changes)
        return calls.are_within(self.s, held, self.now.changes) or calls.are_tracked(held, self.now.changes)

    def hidden(self, tier, call, head):
        """What the tier of the plain model tells beside its answers: which words it drew, and the head of what it found."""
        if (tier.words.state, tier.words.step) != (self.words.state, self.words.step):
            return "other words are drawn"
        if call.op == "look" and call.outcome[1][0] == "Found":
            write = tier.shown(stored_key(tier.requests[call.given["id"]].entry))
            if write is None or head is None or vars(write.meta) != vars(head):
                return "another head is found"
        return None


def refused_tier(trace, tier, answer):
    """The event of the trace at which the tier breaks the promise, its outcome and why; none where it keeps it. `answer` gives the outcome of an event,
    and whether its response or head was read."""
    watch = Watch(trace)
    for at, event in enumerate(trace.events):
        if event is None:
            continue
        call = calls.Call(*event, *answer(*event))
        head = calls.head_found(event[1]["id"], watch.now) if event[0] == "look" else None
        why = watch.refusal(call) or watch.hidden(tier, call, head)
        if why:
            return at, call.outcome, why
    why = calls.found(watch.now.changes)
    return (len(trace.events), None, why) if why else None


def refused_lines(trace, lines):
    """The same of the lines that a program wrote."""
    watch = Watch(trace)
    if len(lines) != len(trace.events):
        return len(lines), None, "so many lines"
    for at, (event, line) in enumerate(zip(trace.events, lines)):
        if event is None:
            continue
        try:
            outcome = watch.by_line(*event, line)
        except told.Unread:
            return at, line, "the line tells no answer"
        why = watch.refusal(calls.Call(*event, outcome))
        if why:
            return at, line, why
    why = calls.found(watch.now.changes)
    return (len(lines), None, why) if why else None


# What is read over and over of the same heads, read once.
packed_entry = cache(model.packed_entry)
kept_until = lru_cache(10000)(model.kept_until)


@cache
def directives_of(lines):
    return model.directives(lines)


def directives(lines):
    return directives_of(tuple(lines))


@cache
def text_of():
    with open(os.path.join(SCRIPTS, "replay_model.py"), encoding="utf-8") as it:
        return it.read()


def edited(edits):
    """The classes Tier and Fault of the plain model's text with other words; heads are read by the model's own."""
    text = text_of()
    text = text[text.index("class Meta:") : text.index("# Lines.\n")]
    for old, new in edits:
        if text.count(old) != 1:
            raise SystemExit(f"stands {text.count(old)} times in the plain model, not once: {old!r}")
        text = text.replace(old, new)
    names = dict(vars(model)) | {"head_of": head_of, "kept_until": kept_until, "directives": directives, "packed_entry": packed_entry}
    exec(compile(text, "replay_model.py, edited", "exec"), names)
    return names["Tier"], names["Fault"]
