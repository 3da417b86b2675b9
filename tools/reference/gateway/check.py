#!/usr/bin/env python3
"""The gate's step, of a minute: the rows, a world of 20,000 calls, a tier without memory, partitions, and 20 wrong gateways by turns (which, the text of
the package says). `check.py [WRONG]`: so many wrong gateways."""

import hashlib
import os
import sys
import time

if not __package__:
    sys.path.insert(0, os.path.dirname(os.path.dirname(os.path.abspath(__file__))))
    __package__ = "gateway"
    import gateway  # noqa: F401
from . import costs, explore, mutants, oracle, refuse, rows, rows_written, slices

CALLS, HISTORIES = 20_000, 64


def turn(count):
    """So many wrong gateways, others after each change."""
    names = sorted(mutants.WRONG)
    text = "".join(mutants.text_of(module) for module in mutants.MODULES)
    start = int.from_bytes(hashlib.sha256(text.encode()).digest()[:4], "big") % len(names)
    return [names[(start + i * 7) % len(names)] for i in range(min(count, len(names)))]


def world():
    """Whether the promise holds over so many calls."""
    calls, seed = 0, 0
    while calls < CALLS:
        total, _, wrong, told = explore.main(explore.MOODS, 400, seed)
        calls, seed = calls + total, seed + explore.MOODS
        if told:
            print(f"seed {wrong}: {told}")
            return False
    print(f"{calls} calls: the promise holds")
    return True


def judged():
    """Whether the second judge finds no fault, over one gateway and over partitions; and nothing is wrong where the tier has no memory."""
    calls, fault = oracle.judge(explore.real, explore.MOODS, 0)
    more, other = oracle.judge(explore.real, explore.MOODS, 0, slices.Sliced)
    few, kinds = refuse.run(explore.MOODS, 0.1, refuse.ALL.split())
    print(f"{calls} and {more} calls before the second judge, {few} without memory: {fault or other or list(kinds) or 'no fault'}")
    early, behind, is_woken = slices.early()
    grown = costs.faults()
    print(*grown, *["an answer is given before others were purged"] * bool(early), "counted", sep="; ")
    return not (fault or other or kinds or early or grown) and bool(behind) and is_woken


def wrong(count):
    kept = []
    for name in mutants.WRONG:  # all of them still change the present text
        mutants.texts_of(name)
    for name in turn(count):
        _, told = mutants.refused(name, HISTORIES)
        kept += [] if told else [name]
    print(f"{count} wrong gateways, not refused: {kept or 'none'}")
    return not kept


def main(count=20):
    began = time.process_time()
    passed = [rows.main(["--check"]) == 0, rows_written.main(["--check"]) == 0, world(), judged(), wrong(count)]
    print(f"{time.process_time() - began:.0f} s of a processor")
    return int(not all(passed))


if __name__ == "__main__":
    sys.exit(main(*[int(it) for it in sys.argv[1:]]))
