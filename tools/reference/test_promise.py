#!/usr/bin/env python3
"""Runs the promise of a tier, crates/tier_promise/specs/Promise.antt, as tools/reference/promise transcribes it, over calls of tiers.

    tools/reference/test_promise.py [--traces N] [--seed S] [--program PATH] [--each]

- The tier of the plain model, replay_model.py, keeps it over the repository's traces, some crafted ones and N random ones, and draws its words.
- With --program the lines that this tier-replay writes for them keep it.
- Each wrong tier, an edit of the plain model's text, breaks it in each trace in which it answers otherwise than the right one.
- Each tier that refuses without a cause breaks it in each trace in which it does; those that ran out of memory where they may keep it.

What fails is shown, with --each all of them, and the wrong tiers that answer as the right one does in all these traces. Each tier counts once, the right
one and the program once a trace. The exit status is 1 where something fails. What a proof can't show is shown here: that the file refuses."""

import argparse
import os
import subprocess
import sys
import tempfile

sys.dont_write_bytecode = True

import replay_model as model
from promise import crafted, refusing, told, trial, wrong

TRACES = 60
# a tier that refuses is tried in so many traces in which it does
MOST = 12


def answers_of(tier, fault):
    return lambda op, given: (told.by_tier(tier, fault, op, given), True)


def shown(trace, broken):
    at, outcome, why = broken
    line = trace.lines[at].decode("latin-1")[:200] if at < len(trace.lines) else "the end"
    return f"{why}, {trace.name} {' '.join(trace.words)}, line {at + 1}: {line}\n    {str(outcome)[:200]}"


def replayed(kind, fault, trace):
    """The kinds of the events, with what a tier answers; what it breaks down by, if it does, is its last answer."""
    tier, got = trial.tier_of(kind, trace), []
    try:
        for event in filter(None, trace.events):
            got.append((event[0], told.by_tier(tier, fault, *event)))
    except Exception as it:
        got.append(("", repr(it)))
    return got


def broken_by(kind, fault, trace):
    tier = trial.tier_of(kind, trace)
    return trial.refused_tier(trace, tier, answers_of(tier, fault))


def lines_by(program, trace):
    """The lines that a program writes for the events."""
    with tempfile.TemporaryDirectory() as folder:
        words = [program, *trace.words]
        if trace.folder:
            words += ["--recency", folder]
        for name, data in (trace.folder or {}).items():
            with open(os.path.join(folder, name), "wb") as it:
                it.write(data)
        lines = subprocess.run(words, input=b"\n".join(trace.lines), stdout=subprocess.PIPE).stdout.decode().splitlines()
    return lines[1:-2] if trace.folder else lines[:-1]


class Counts:
    def __init__(self, each):
        self.each, self.passed, self.failed = each, 0, 0

    def count(self, passed, text):
        self.passed, self.failed = self.passed + passed, self.failed + (not passed)
        if self.each or not passed:
            print(("" if passed else "FAILED ") + text, flush=True)


def right_ones(traces, program, counts):
    for trace in traces:
        broken = broken_by(model.Tier, model.Fault, trace)
        counts.count(not broken, "the plain model: " + (shown(trace, broken) if broken else trace.name))
        if program:
            broken = trial.refused_lines(trace, lines_by(program, trace))
            counts.count(not broken, "the program: " + (shown(trace, broken) if broken else trace.name))


def wrong_one(name, edits, traces, right, counts):
    """Whether it differs anywhere."""
    kind, fault = trial.edited(edits)
    differing = [trace for trace, want in zip(traces, right) if replayed(kind, fault, trace) != want]
    broken = []
    for trace in differing:
        try:
            broken.append(broken_by(kind, fault, trace))
        except Exception as it:
            # it answers no more, or with what is no answer
            broken.append((0, repr(it), "breaks down"))
    kept = [trace.name for trace, it in zip(differing, broken) if not it]
    if differing:
        first = f"; {shown(differing[0], broken[0])}" if broken[0] else ""
        counts.count(not kept, f"wrong tier: {name}: differs in {len(differing)} traces, refused in {len(differing) - len(kept)}{first}, passed in {kept[:3]}")
    return bool(differing)


def refusing_one(it, traces, right, wanted, counts):
    """Whether it refused anywhere. `wanted`: whether that breaks the promise."""
    kind, fault = trial.edited(())
    met = [trace for trace, got in zip(traces, right) if any(op == it.op and refusing.is_met(it, outcome) for op, outcome in got)][:MOST]
    wrongly = []
    for trace in met:
        tier = trial.tier_of(kind, trace)
        broken = trial.refused_tier(trace, tier, refusing.Answers(it, tier, fault))
        if bool(broken) != wanted:
            wrongly.append(shown(trace, broken) if broken else trace.name)
    if met:
        counts.count(not wrongly, f"refusing tier: {it.name}: in {len(met)} traces, {'passed' if wanted else 'refused'} in {len(wrongly)}: {wrongly[:3]}")
    return bool(met)


def main():
    parser = argparse.ArgumentParser()
    parser.add_argument("--traces", type=int, default=TRACES)
    parser.add_argument("--seed", default="0")
    parser.add_argument("--program")
    parser.add_argument("--each", action="store_true")
    options = parser.parse_args()
    traces = trial.repository_traces() + crafted.traces() + trial.random_traces(options.traces, options.seed)
    counts = Counts(options.each)
    right_ones(traces, options.program, counts)
    right = [replayed(model.Tier, model.Fault, trace) for trace in traces]
    same = [name for name, edits in wrong.WRONG.items() if not wrong_one(name, edits, traces, right, counts)]
    for wanted, kinds in ((True, refusing.WITHOUT_CAUSE), (False, refusing.ALLOWED)):
        same += [it.name for it in kinds if not refusing_one(it, traces[::-1], right[::-1], wanted, counts)]
    for name in same:
        print(f"answers as the right tier does in these traces: {name}")
    print(f"promise: {counts.passed} passed, {counts.failed} failed")
    sys.exit(bool(counts.failed))


main()
