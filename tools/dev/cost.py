#!/usr/bin/env python3
"""Says what a change in a crate costs before it is made: the crates that stand on it, which are proved again, and their minutes.

    cost.py CRATE ..     of a change in these crates together

The minutes are of gate/minutes.txt, so of a reference host's processor; the last lines reckon with this host. A change of a contract costs all of it.
Where no contract changes, a proof of a crate above is found again if the kit kept it."""
import os
import sys

sys.dont_write_bytecode = True
TOP = os.path.dirname(os.path.dirname(os.path.dirname(os.path.realpath(__file__))))
sys.path.insert(0, os.path.join(TOP, "tools", "dev", "gate"))

import reckoning  # noqa: E402
import tree  # noqa: E402


def touched(uses, names):
    """The crates that a change in these touches: they, and all that stand on them."""
    return [it for it in uses if it in names or tree.below(uses, it) & set(names)]


def told(names):
    """What a change in these crates costs, in lines."""
    uses = tree.uses_of(TOP)
    proved = [it for it in touched(uses, names) if not tree.is_of_tests(it)]
    tests = [it for it in touched(uses, names) if tree.is_of_tests(it)]
    minutes = reckoning.minutes_of(TOP, proved)
    sums = {name: sum(row.values()) for name, row in minutes.items()}
    yield f"a change in {', '.join(names)} has {len(proved)} of {sum(not tree.is_of_tests(it) for it in uses)} crates proved again:"
    for name in sorted(proved, key=lambda it: -sums[it]):
        yield f"{sums[name]:8.1f}  {name}"
    yield f"{sum(sums.values()):8.1f}  processor minutes in all, {reckoning.longest_chain(uses, minutes):.1f} in the longest chain of crates"
    if tests:
        yield f"          and these crates of tests run: {' '.join(sorted(tests))}"
    at_once, seconds = reckoning.lanes(), reckoning.blake2b_seconds()
    by_clock = reckoning.SHARED * reckoning.side_by_side(uses, minutes, at_once) * seconds / reckoning.REFERENCE
    yield f"{by_clock:8.0f}  minutes of the clock here, with {at_once} side by side and nothing else running"


def main(names):
    uses = tree.uses_of(TOP)
    unknown = [it for it in names if it not in uses]
    if unknown or not names:
        print(f"cost: there is no crate {unknown[0]}" if unknown else __doc__.strip(), file=sys.stderr)
        return 2
    for line in told(names):
        print(line)
    return 0


if __name__ == "__main__":
    sys.exit(main(sys.argv[1:]))
