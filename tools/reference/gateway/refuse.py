#!/usr/bin/env python3
"""A tier that refuses at random, for want of memory: refuse.py HISTORIES [PERCENT] [CALLS,..]. Does anything raise, hang, leak, or lie to the second
judge?"""

import collections
import random
import sys

from cache_tier import CacheTierError

from . import explore, oracle

MEMORY = 13
ALL = "get open lookup lookup_stale poll begin revalidate write finish put read peek"


class Refusing:
    """A tier of which so many calls of each name are refused."""

    def __init__(self, tier, r, part, names):
        self.tier, self.r, self.part, self.names = tier, r, part, names

    def __getattr__(self, name):
        call = getattr(self.tier, name)
        if name not in self.names:
            return call

        def refusing(*given):
            if self.r.random() < self.part:
                raise CacheTierError(MEMORY)
            return call(*given)

        return refusing


def run(histories, part, names, seed=0):
    """How many calls there were, and what was wrong, by kind."""
    kinds, calls = collections.Counter(), 0
    for s in range(seed, seed + histories):
        w = oracle.Judged(s, explore.real, steps=300)
        w.g.tier = Refusing(w.g.tier, random.Random(s), part, names)
        try:
            w.runs()
            left = [(e.x, e.client, e.origin, e.source, e.held) for e in w.g.open.values()]
            told = f"seed {s}: still open {left[:2]}" if left else f"seed {s}: {w.faults[0]}" if w.faults else ""
        except Exception as error:
            told = f"seed {s}: raises {type(error).__name__} {error}"
        calls += len(w.calls)
        if told:
            kinds[told] += 1
    return calls, kinds


if __name__ == "__main__":
    names = sys.argv[3].split(",") if len(sys.argv) > 3 else ALL.split()
    calls, kinds = run(int(sys.argv[1]), int(sys.argv[2] if len(sys.argv) > 2 else 10) / 100, names)
    print(calls, "calls,", f"{len(kinds)} wrong" if kinds else "nothing wrong", *list(kinds)[:5], sep="\n")
    sys.exit(bool(kinds))
