#!/usr/bin/env python3
"""Notices where tier-replay, or the calls of HTTP's rules, got slower, or faster than the page says: counts their instructions, and fails where one is more
than 3 % away from its row in docs/performance.md. Each takes half a minute.

    tools/dev/test_counts.py [PROGRAM]             tier-replay, by kind of line
    tools/dev/test_counts.py --rules [LIBRARY]     the calls of the rules, of a library that embed/test.sh made

The rows are of builds without proofs, which differ from proved ones by some 2 %: where none is named there is nothing to compare."""
import sys

sys.dont_write_bytecode = True

from benches import events, rules  # noqa: E402


def of_rules(libraries):
    if not libraries:
        print("instructions: passed over, since this run has the library as it is proved, and the page's rows are of a build without proofs")
        return 0
    return rules.rules_calls("--check", libraries[0])


def main(programs):
    if programs[:1] == ["--rules"]:
        return of_rules(programs[1:])
    if not programs:
        print("instructions: passed over, since this run has tier-replay as it is proved, and the page's rows are of a build without proofs")
        return 0
    if events.instructions("--check", programs[0]):
        print("Where that is meant: python3 tools/dev/bench.py instructions --write PROGRAM")
        return 1
    return 0


if __name__ == "__main__":
    sys.exit(main(sys.argv[1:]))
