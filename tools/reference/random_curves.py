#!/usr/bin/env python3
"""Compares tier_curve with plain lists on random requests: at moments, of every second seed with a lifetime each (plain_curve.py), the same by
spans as a second writing has them (plain_planner.py), and lines of columns (plain_planner.py).

usage: random_curves.py MOMENTS COLUMNS [PROGRAM]

The first two say how many seeds of each are tried. Without a program `rt try` runs it. It ends with status 1 at the first difference.
"""
import contextlib
import difflib
import io
import os
import re
import subprocess
import sys

import plain_curve
import plain_planner

CRATE = os.path.join(os.path.dirname(os.path.abspath(__file__)), "..", "..", "crates", "tier_curve")
# what the plain lists tell beside the program
ENDS = re.compile(rb" first_at=\d* last_at=\d*")


def plain(module, words, text=b""):
    """What one of the two scripts writes, run in this process."""
    sys.argv, sys.stdin = [module.__name__, *words], io.TextIOWrapper(io.BytesIO(text))
    out = io.TextIOWrapper(io.BytesIO(), newline="", write_through=True)
    with contextlib.redirect_stdout(out):
        module.main()
    return ENDS.sub(b"", out.buffer.getvalue())


def program(named, words, text):
    """What the program writes."""
    command, room = ([named, *words], None) if named else (["rt", "try", "--seconds", "600", "--", *words], CRATE)
    return subprocess.run(command, input=text, stdout=subprocess.PIPE, stderr=subprocess.DEVNULL, cwd=room, check=False).stdout


def compare(what, expected, told):
    if expected == told:
        return
    texts = (it.decode("ascii", "replace").splitlines() for it in (expected, told))
    print(what, *list(difflib.unified_diff(*texts, "plain lists", "tier_curve", lineterm="", n=0))[:20], sep="\n", file=sys.stderr)
    sys.exit(1)


def main():
    moments, columns, named = int(sys.argv[1]), int(sys.argv[2]), os.path.abspath(sys.argv[3]) if len(sys.argv) > 3 else None
    for seed in range(1, moments + 1):
        text = plain(plain_curve, ["--make-times", str(seed)])
        words = plain(plain_curve, ["--options-for-times", str(seed)]).decode().split()
        compare(f"requests of seed {seed}: {words}", plain(plain_curve, words, text), program(named, words, text))
        words += ["--interval", str(seed % 7 + 1)]
        compare(f"spans of seed {seed}: {words}", plain(plain_planner, words, text), program(named, words, text))
    for seed in range(1, columns + 1):
        text = plain(plain_planner, ["--make-columns", str(seed)])
        words = plain(plain_planner, ["--options-for-columns", str(seed)]).decode().split()
        compare(f"lines of columns of seed {seed}: {words}", plain(plain_planner, words, text), program(named, words, text))


if __name__ == "__main__":
    main()
