#!/usr/bin/env python3
"""Compares HTTP's rules, as rules-replay answers, with a plain model of them (rules_model.py): the table of calls in crates/rules_replay, whose cases were
worked by hand, and those of random exchanges.

usage: tools/reference/test_rules.py [PROGRAM..] [--exchanges N] [--seed S] [--write]

Without programs those that the last run of the gate left, one by each compiler. Calls that differ are shown. --write writes the table's answers by
the model, once a rule was changed there. Each wrong rule of rules_wrong.py must be seen by the table."""

import argparse
import collections
import json
import os
import random
import subprocess
import sys
import time

sys.dont_write_bytecode = True

from rules_calls import answered, options_of, written  # noqa: E402
from rules_random import Exchanges  # noqa: E402
from rules_wrong import unseen  # noqa: E402

TOP = os.path.join(os.path.dirname(os.path.abspath(__file__)), "..", "..")
CRATE = os.path.join(TOP, "crates", "rules_replay")
SHOWN = 10


def built():
    """The programs that the gate left."""
    found = [os.path.join(CRATE, "out", name) for name in ("rules_replay", "rules_replay.by-rattle")]
    lacking = [it for it in found if not os.access(it, os.X_OK)]
    if lacking:
        sys.exit(f"there is no {os.path.relpath(lacking[0], TOP)}: run rt ci, or name a program")
    return found


def table():
    """The table's calls and their answers."""
    with open(os.path.join(CRATE, "stdin"), encoding="utf-8") as file:
        calls = file.read().splitlines()
    with open(os.path.join(CRATE, "stdout"), encoding="utf-8") as file:
        return calls, file.read().splitlines()


def by_program(program, calls):
    """What a program answers to lines."""
    ran = subprocess.run([program], input="".join(it + "\n" for it in calls).encode(), stdout=subprocess.PIPE, check=False)
    if ran.returncode:
        sys.exit(f"{program} ended with {ran.returncode}")
    return ran.stdout.decode().splitlines()


def differences(title, calls, wanted, found):
    """Shows the calls that differ, and says how many."""
    if len(wanted) != len(found):
        print(f"{title}: {len(found)} answers to {len(wanted)} calls")
        return 1
    differ = [row for row in zip(calls, wanted, found) if row[1] != row[2]]
    for call, want, got in differ[:SHOWN]:
        print(f"{title}: {call}\n    the model: {want}\n    it:        {got}")
    return len(differ)


def main():
    parser = argparse.ArgumentParser()
    parser.add_argument("programs", nargs="*")
    parser.add_argument("--exchanges", type=int, default=1000)
    parser.add_argument("--seed", type=int, default=1)
    parser.add_argument("--write", action="store_true")
    arguments = parser.parse_args()
    calls, answers = table()
    modelled = [written(answered(json.loads(line))) for line in calls]
    if arguments.write:
        with open(os.path.join(CRATE, "stdout"), "w", encoding="utf-8") as file:
            file.writelines(it + "\n" for it in modelled)
        return 0
    began, exchanges = time.time(), Exchanges(random.Random(arguments.seed), options_of)
    asked = [call for _ in range(arguments.exchanges) for call in exchanges.one()]
    rows, wanted = [json.dumps(it) for it in asked], [written(answered(it)) for it in asked]
    differ = differences("the table", calls, answers, modelled)
    for name in unseen(calls, answers):
        print(f"no call of the table sees a wrong rule: {name}")
        differ += 1
    for program in arguments.programs or built():
        name = os.path.basename(program)
        differ += differences(f"{name}, table", calls, answers, by_program(program, calls))
        differ += differences(f"{name}, random", rows, wanted, by_program(program, rows))
    kinds = collections.Counter(it["call"] for it in asked)
    print(f"rules: {len(calls)} calls of the table and {len(rows)} of {arguments.exchanges} exchanges, {len(kinds)} kinds, {differ} differences, in {time.time() - began:.0f} s")
    return 1 if differ or not calls else 0


if __name__ == "__main__":
    sys.exit(main())
