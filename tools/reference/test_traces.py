#!/usr/bin/env python3
"""Replays the traces of traces/ by tier-replay, and compares what is written with what is expected: what another program wrote for them, or what was
worked by hand. Traces that differ are shown. With paths of binaries it runs those, else the two that the last run of the gate left, one by each compiler.

traces.py says how they are written; the exit status must be 0. Those of traces/restarts.traces test_recency.py replays.

The examples of docs/trace-format.md are replayed too: each block of lines and answers, in its order, and each operation that the page names is in one."""

import os
import re
import subprocess
import sys

import traces

TOP = os.path.join(os.path.dirname(os.path.abspath(__file__)), "..", "..")
OUT = os.path.join(TOP, "crates", "tier_replay", "out")


def built():
    programs = [os.path.join(OUT, name) for name in ("tier_replay", "tier_replay.by-rattle")]
    lacking = [it for it in programs if not os.access(it, os.X_OK)]
    if lacking:
        sys.exit(f"there is no {os.path.relpath(lacking[0], TOP)}: run rt ci, or name a binary")
    return programs


def agrees(program, trace):
    ran = subprocess.run([program, *trace.words], input=trace.lines, stdout=subprocess.PIPE, stderr=subprocess.DEVNULL)
    return ran.returncode == 0 and ran.stdout == trace.answers


def examples():
    """The blocks of the page's examples: each the lines, and the answers that stand beside or below them."""
    with open(os.path.join(TOP, "docs", "trace-format.md"), encoding="utf-8") as it:
        page = it.read()
    blocks = [re.findall(r'(\{"op":.*\})\s+(.*)', it) for it in re.findall(r'(?:^    .*\n)+', page, re.M) if it.startswith('    {"op":')]
    named = set(re.findall(r"`([a-z-]+)`", "".join(re.findall(r"^\| (`[^|]*) \| `at`", page, re.M))))
    shown = {re.match(r'\{"op":"([a-z-]+)"', line)[1] for block in blocks for line, _ in block}
    return blocks, sorted(named - shown)


def answered(program, block):
    """Whether the program answers the lines of a block as the page says; a report follows."""
    given = "".join(line + "\n" for line, _ in block).encode()
    ran = subprocess.run([program, "--limit", "1000000"], input=given, stdout=subprocess.PIPE, stderr=subprocess.DEVNULL)
    return ran.returncode == 0 and ran.stdout.decode().splitlines()[:-1] == [answer for _, answer in block]


def main():
    stored = traces.stored()
    programs = sys.argv[1:] or built()
    blocks, unshown = examples()
    for name in unshown:
        print(f"docs/trace-format.md has no example of {name}")
    differ = 0
    for program in programs:
        for at, block in enumerate(blocks):
            if not answered(program, block):
                differ += 1
                print(f"{os.path.basename(program)}: block {at + 1} of the examples of docs/trace-format.md")
        for trace in stored:
            if not agrees(program, trace):
                differ += 1
                print(f"{os.path.basename(program)}: {trace.name} {' '.join(trace.words)}")
    print(f"traces: {len(stored)}, and {sum(map(len, blocks))} lines of examples, by {len(programs)} programs, {differ} differences")
    sys.exit(bool(differ or unshown) or not stored or not blocks)


main()
