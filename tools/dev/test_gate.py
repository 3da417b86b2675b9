#!/usr/bin/env python3
"""Tests tools/dev/gate.py over a tree of five crates and a kit that only looks like one: what is proved by the ledger's state and the bound, slips, crates
that end with a reason and without one, and what the ledger says afterwards. It says nothing of the true kit's rt ci."""
import contextlib
import io
import os
import re
import shutil
import sys
import tempfile

sys.dont_write_bytecode = True
TOP = os.path.dirname(os.path.dirname(os.path.dirname(os.path.realpath(__file__))))
sys.path[:0] = [os.path.join(TOP, "tools", "dev"), os.path.join(TOP, "tools", "dev", "gate")]

import gate  # noqa: E402
import ledger  # noqa: E402
import reckoning  # noqa: E402
import steps  # noqa: E402
import tests  # noqa: E402

# A kit's command: a crate whose text has the word false is refused with a reason; one with the word dies ends without a reason where another check may run;
# of one with the word keeps the kit keeps a proof, where it keeps those of all below; while one with the word moves is proved, the repository gets another text.
COMMAND = '''#!/usr/bin/env python3
import contextlib, os, sys

class Crate:
    is_program = False
    def __init__(self, name, uses=()):
        self.name, self.folder, self.rlib, self.uses, self.out = name, "crates/" + name, "crates/" + name + "/out/rlib/" + name + ".rlib", uses, None
        with open(self.folder + "/src/lib.rt") as it:
            self.text = it.read()
    def below(self):
        return [*self.uses, *[it for use in self.uses for it in use.below()]]
    def words(self, flags, keeps=True):
        return ["--links", self.name + "="]
    def ci(self, flags, tests):
        if "false" in self.text:
            print("src/lib.rt:1:1: error: it is not proved")
        with open("../dies", "a") as it:
            dies = "dies" in self.text and not it.tell()
            it.write("x" * dies)
        if "moves" in self.text:
            with open("../../repository/crates/aside/src/lib.rt", "w") as it:
                it.write("moved")
        with open("../checked", "a") as it:
            it.write(self.name + " ")
        with open(self.folder + "/out/made", "w") as it:
            it.write(self.name)
        return 1 if dies or "false" in self.text else 0

class Kept:
    def keep(self, crate, tests, key):
        with open("../kept", "a") as it:
            it.write(crate.name + " ")

class rtlib:
    RATTLE = "states"
    @staticmethod
    def guarded():
        return ["env"]

def say(text, out=None):
    print("rt: " + text, flush=True)

def edits_of(crate):
    return [], []

def run(*_):
    return True

def ci():
    bad, made, kept = [], {}, set()
    with open("crates.txt") as it:
        rows = [line.replace(":", "").split() for line in it if line.strip() and line[0] != "#"]
    for name, *uses in rows:
        uses = [it for it in uses if it in made or it in bad]
        below = next((it for it in uses if it in bad), None)
        if below:
            say(name + " NOT PROVED: its library " + below + " failed")
            bad.append(name)
            continue
        crate = made[name] = Crate(name, [made[it] for it in uses])
        if "keeps" in crate.text and kept >= set(uses):
            kept.add(name)
            say(name + " is kept: an earlier run on this machine proved the same")
            continue
        print("== " + name)
        os.makedirs("crates/" + name + "/out", exist_ok=True)
        status = crate.ci([], False)
        if status:
            bad.append(name)
        else:
            Kept().keep(crate, False, "")
        say(name + (" NOT PROVED" if status else " proved"))
    if bad:
        print("rt: FAILED: " + " ".join(bad))
    print(f"{len(rows) - len(bad)} passed, {len(bad)} failed")
    return 1 if bad else 0

if __name__ == "__main__":
    if sys.argv[1] == "version":
        with open(os.path.join(os.path.dirname(__file__), "logic")) as it:
            print("a-kit logic " + it.read())
    sys.exit(ci() if sys.argv[1] == "ci" else 0)
'''
CRATES = {"low": "", "middle": "low", "high": "middle", "aside": "", "test_low": "low"}
MINUTES = {"low": 10, "middle": 10, "high": 10, "aside": 10, "after*": 0, "test_low": 0}
ALL = ("low", "middle", "high", "aside")


def held(*names, **dates):
    """What the ledger has before a case: these crates, proved at these moments."""
    return {it: dates.get(it, "2026-01-01T00:00") for it in names}


# Of each case: the crates' texts before the ledger is written and after, what the ledger has, the bound, whether the whole is wanted, the status, what the
# first line says, which crates are checked in which order, which stated, and what the last line says.
CASES = (
    ("an empty ledger", {}, {}, {}, "1", "", 0, "of 4 crates this run proves 4, and 0 stand by the ledger", "low middle high aside", "", "4 of 4 crates were proved by this run; none"),
    ("all stands", {}, {}, held(*ALL), "1", "", 0, "this run proves 0, and 4 stand", "", "", "0 of 4 crates were proved by this run; 4 stand by the ledger alone: low middle high aside"),
    ("the whole", {}, {}, held(*ALL), "1", "1", 0, "this run proves 4", "low middle high aside", "", "4 of 4 crates were proved by this run, the whole; none"),
    ("a changed source", {}, {"middle": "new"}, held(*ALL), "1", "", 0, "this run proves 2, and 2 stand", "middle high", "low", "2 of 4 crates were proved by this run; 2 stand by the ledger alone: low aside"),
    ("a changed source at the top", {}, {"aside": "new"}, held(*ALL), "1", "", 0, "this run proves 1, and 3", "aside", "", "; 3 stand by the ledger alone: low middle high"),
    ("a changed spec below", {}, {"low/specs/Lib.antt": "new"}, held(*ALL), "1", "", 0, "this run proves 3, and 1", "low middle high", "", "; 1 stand by the ledger alone: aside"),
    ("a changed proof", {}, {"high/proofs/Lib.antt": "new"}, held(*ALL), "1", "", 0, "this run proves 1, and 3", "high", "low middle", "; 3 stand"),
    ("another line of crates.txt", {}, {"crates.txt": "low:\nmiddle: low\nhigh: middle low\naside:\ntest_low: low\n"}, held(*ALL), "1", "", 0, "this run proves 1, and 3", "high", "low middle", "; 3 stand"),
    ("handles", {}, {"HANDLES": "Handles allowed: Threads.\n"}, held(*ALL), "1", "", 0, "this run proves 4", "low middle high aside", "", "4 of 4"),
    ("another logic", {}, {"kit": "1"}, held(*ALL), "1", "", 0, "this run proves 4", "low middle high aside", "", "4 of 4"),
    ("a test changes nothing", {}, {"test_low": "new"}, held(*ALL), "1", "", 0, "this run proves 0", "", "", "0 of 4"),
    ("a forged line", {}, {"gate/PROVED": "low " + 64 * "0" + " 2026-01-01T00:00Z\n"}, held(*ALL), "1", "", 0, "this run proves 4", "low middle high aside", "", "4 of 4"),
    ("a line that isn't one", {}, {"gate/PROVED": "low proved\n"}, held(*ALL), "1", "", 0, "this run proves 4", "low middle high aside", "", "4 of 4"),
    ("a removed crate", {}, {"crates.txt": "low:\nmiddle: low\nhigh: middle\ntest_low: low\n"}, held(*ALL), "1", "", 0, "of 3 crates this run proves 0, and 3", "", "", "; 3 stand"),
    ("the longest unproved", {}, {}, held(*ALL, aside="2025-01-01T00:00"), "12", "", 0, "this run proves 1, and 3 stand", "aside", "", "1 of 4"),
    ("the lowest of two", {}, {}, held(*ALL, aside="2026-02-01T00:00"), "12", "", 0, "this run proves 1, and 3 stand", "low", "", "; 3 stand by the ledger alone: middle high aside"),
    ("two of them", {}, {}, held(*ALL, aside="2026-02-01T00:00"), "23", "", 0, "this run proves 2, and 2 stand", "low middle", "", "; 2 stand by the ledger alone: high aside"),
    ("what must be proved, and more", {}, {"high": "new"}, held(*ALL, aside="2025-01-01T00:00"), "26", "", 0, "this run proves 2, and 2 stand", "high aside", "low middle", "2 of 4"),
    ("a slip", {}, {"high": "slip"}, held(*ALL), "1", "", 1, "this run proves 1", "", "", "FAILED: 0 of 4"),
    ("refused", {}, {"middle": "false"}, held(*ALL), "1", "", 1, "this run proves 2", "middle", "low", "FAILED: 0 of 4"),
    ("dies", {}, {"middle": "dies"}, held(*ALL), "1", "", 0, "this run proves 2", "middle middle high", "low", "2 of 4"),
    ("dies for good", {}, {"middle": "dies", "high": "false"}, held(*ALL), "1", "", 1, "this run proves 2", "middle middle high", "low", "FAILED"),
    ("kept by the kit", {}, {"low": "keeps"}, held(*ALL), "1", "", 0, "this run proves 2, the kit keeps 1 proved, and 1 stand", "middle high", "", "2 of 4 crates were proved by this run, 1 by runs of which the kit keeps"),
    ("a test fails", {}, {"middle": "new", "test_low": "fails"}, held(*ALL), "1", "", 1, "this run proves 2, and 2", "middle high", "low", "FAILED: 2 of 4"),
    ("a wrong body let through", {}, {"test_low": "lets"}, {}, "1", "", 1, "this run proves 4", "low middle high aside", "", "FAILED: 4 of 4"),
    ("too much for a run", {}, {}, {}, "1", "", 3, "of 4 crates this run proves 2, and 0 stand", "low aside", "", "NOT DONE: 2 of 4 crates were proved by this run; none stands by the ledger alone; 2 were left out, and no run proved their present text: middle high"),
    ("too much, with a ledger", {}, {"middle": "new"}, held(*ALL), "1", "", 3, "this run proves 1, and 2 stand", "middle", "low", "; 2 stand by the ledger alone: low aside; 1 were left out, and no run proved their present text: high"),
    ("one at least", {}, {}, {}, "1", "", 3, "this run proves 1, and 0 stand", "aside", "", "NOT DONE: 1 of 4"),
    ("too much, and refused", {}, {"low": "false"}, {}, "1", "", 1, "this run proves 2", "low aside", "", "FAILED: 0 of 4"),
    ("a text that changes", {}, {"middle": "moves"}, held(*ALL), "1", "", 0, "this run proves 2, and 2", "middle high", "low", "2 of 4"),
    ("statements that can't be made", {"low": "unstated"}, {"middle": "new"}, held(*ALL), "1", "", 0, "this run proves 2, and 2", "low middle high", "", "3 of 4 crates were proved by this run; 1 stand"),
)
# The minutes that a run takes at last, where they are other than those of a true one.
AT_LAST = {"too much for a run": 25, "too much, with a ledger": 20, "one at least": 1, "too much, and refused": 25}
# The cases in which all is proved, and what comes after fails: their lines are written all the same. In the other one nothing is.
PROVED, CHANGES = ("a test fails", "a wrong body let through"), "a text that changes"


def write(path, text, mode=0o644):
    os.makedirs(os.path.dirname(path), exist_ok=True)
    with open(path, "w", encoding="utf-8") as file:
        file.write(text)
    os.chmod(path, mode)


def laid_out(room, words):
    """Lays out the kit and the tree, and returns the tree's folder."""
    top, kit = os.path.join(room, "repository"), os.path.join(room, "kit", "bin")
    write(os.path.join(kit, "rt"), COMMAND, 0o755)
    write(os.path.join(kit, "logic"), "0\n")
    write(os.path.join(kit, "rattle"), '#!/bin/sh\nshift 2\n! grep -q slip "$@"\n', 0o755)
    # (makes a library of statements, as `rattle build` does)
    write(os.path.join(kit, "states"), '#!/bin/sh\ngrep -q unstated src/*.rt && exit 1\nfor it in "$@"; do last=$it; done\nname=${last##*/}\nprintf "%s " "${name%.rlib}" >>"$STATED"\n', 0o755)
    for name, uses in CRATES.items():
        write(os.path.join(top, "crates", name, "src", "lib.rt"), "\n")
    write(os.path.join(top, "crates.txt"), "".join(f"{name}: {uses}\n" for name, uses in CRATES.items()))
    write(os.path.join(top, "HANDLES"), "Handles allowed: none.\n")
    change(room, words)
    return top


def change(room, words):
    """Writes what a case says into the tree."""
    for name, text in words.items():
        if name == "kit":
            write(os.path.join(room, "kit", "bin", "logic"), text + "\n")
        else:
            path = name if name in ("crates.txt", "HANDLES", "gate/PROVED") else os.path.join("crates", name if "/" in name else f"{name}/src/lib.rt")
            write(os.path.join(room, "repository", path), text)


def begin(room, case):
    """Lays out what a case starts from, and has the gate work there."""
    name, before, after, lines, bound, whole, *_ = case
    gate.TOP, gate.AT_LAST = laid_out(room, before), AT_LAST.get(name, 175)
    path = os.path.join(room, "kit", "bin") + os.pathsep + os.environ["PATH"]
    os.environ.update(MINUTES=bound, WHOLE=whole, PATH=path, TMPDIR=room, STATED=os.path.join(room, "stated"), NAMED=os.path.join(room, "named"))
    tempfile.tempdir = None
    wanted = ledger.digests(gate.TOP, ALL, ledger.logic())
    write(os.path.join(gate.TOP, ledger.FILE), ledger.HEAD.format("proved") + "".join(f"{name} {wanted[name]} {date}Z\n" for name, date in lines.items()))
    change(room, after)


def fault_of(room, case):
    """What comes out otherwise than the case says, in words; none where all does."""
    name, _, _, _, _, _, status, first, checked, stated, last = case
    begin(room, case)
    said, seen = io.StringIO(), {"checked": [], "kept": []}
    gate.shutil.rmtree, remove = (lambda path, *rest, **how: (note(path, seen), remove(path, *rest, **how))), shutil.rmtree
    try:
        with contextlib.redirect_stdout(said):
            found = gate.main(["--write-ledger"])
    finally:
        shutil.rmtree = remove
    lines, made = said.getvalue().splitlines(), read(os.environ["STATED"]).split()
    told = f"{name}: status {found}, checked {' '.join(seen['checked'])}, stated {' '.join(made)}\n{said.getvalue()}"
    if (found, " ".join(seen["checked"]), sorted(set(made))) != (status, checked, stated.split()) or first not in lines[0] or last not in lines[-1]:
        return told
    # (a crate over statements is none that the kit may keep)
    over = {"low": ("low", "middle", "high"), "middle": ("middle", "high"), "high": ("high",), "aside": ("aside",)}
    if any(it in over[of] for of in made for it in seen["kept"]):
        return f"{name}: the kit kept {' '.join(seen['kept'])} over statements\n{told}"
    return wrong_lines(name, status, checked) or (f"{name}: no sum\n{told}" if checked and not status and not any(re.fullmatch(r"\d+ passed, 0 failed", it) for it in lines) else "")


def wrong_lines(name, status, checked):
    """Whether the ledger has lines afterwards that no run wrote, or lacks some that this one did."""
    top = gate.TOP
    crates = [it for it in gate.tree.uses_of(top) if it in ALL]
    dates = ledger.held(top, ledger.digests(top, crates, ledger.logic()))
    new = {it for it, date in dates.items() if not date.startswith(("2025-", "2026-01-01", "2026-02-01"))}
    wanted = set() if status == 1 and name not in PROVED or name == CHANGES else set(checked.split())
    wanted_named = ledger.named(top, ledger.digests(top, crates, ledger.logic()), steps.NAMED)
    tried = set(ledger.held(top, wanted_named, ledger.OF_NAMED))
    if tried != (set(steps.NAMED) & set(crates) if name in ("an empty ledger", "the whole") else set() if status == 1 else tried):
        return f"{name}: the ledger has named wrong bodies of {sorted(tried)}\n"
    if new != wanted | ({"low"} if name == "kept by the kit" else set()):
        return f"{name}: the ledger has new lines of {sorted(new)}, and not of {sorted(wanted)}\n"
    return ""


def kept_fault(room):
    """What is wrong where only the lines are wanted of what the kit keeps: of one of four crates, and nothing runs."""
    begin(room, ("", {}, {"low": "keeps"}, {}, "1", ""))
    with contextlib.redirect_stdout(io.StringIO()) as said:
        found = gate.main(["--write-ledger", "--kept"])
    lines = set(ledger.held(gate.TOP, ledger.digests(gate.TOP, ALL, ledger.logic())))
    return f"lines of what the kit keeps: status {found}, lines of {sorted(lines)}\n{said.getvalue()}" if (found, lines) != (0, {"low"}) or read(os.environ["STATED"]) else ""


def read(path):
    if not os.path.isfile(path):
        return ""
    with open(path, encoding="utf-8") as it:
        return it.read()


def note(path, seen):
    """Takes down which crates were checked, in order, and which the kit kept, before the folder that says so goes."""
    for word, names in seen.items():
        names += read(os.path.join(str(path), word)).split()


# The names of a crate's tests, and the words by which they run in parts.
PARTS = [
    (["cells::a", "cells::b", "slow_cells::a", "ways::a"], ["cells::", "ways::"]),
    (["ways::a", "ways::deep::b", "lone", "ways::lone_one"], ["ways::", "lone"]),
    ([], []),
]


def parts_fault(names, wanted):
    """What is wrong with the parts of these tests."""
    words = tests.parts_of(names)
    missed = [it for it in names if not any(word in it for word in words)]
    return f"the parts of {names} are {words}, and {missed} are in none\n" if words != wanted or missed else ""


def main():
    reckoning.blake2b_seconds, reckoning.lanes = (lambda: reckoning.REFERENCE), (lambda: 1)
    reckoning.rows = lambda: {name: {**dict.fromkeys(reckoning.KINDS, 0.0), "proofs": float(each)} for name, each in MINUTES.items()}
    reckoning.NEEDED = ()
    # (a loaded host takes its time over each case, and the bound is a minute)
    reckoning.Host.named_minutes = lambda *_: 0.001
    steps.FIRST, steps.WARNS, steps.AFTER, steps.WHOLE, steps.RELEASE = (), (), (), (), ()
    steps.NAMED, steps.TRIES_NAMED = ("low", "aside"), ("sh", "-c", 'echo "$@" >>"$NAMED"; ! grep -q lets crates/test_low/src/lib.rt')
    steps.unproved, steps.for_allocations = (lambda place, *_: "fails" not in read(os.path.join(place, "crates", "test_low", "src", "lib.rt"))), (lambda *_: True)
    path, faults = os.environ["PATH"], [parts_fault(*it) for it in PARTS]
    for case in (*CASES, None):
        with tempfile.TemporaryDirectory(prefix="test-gate-") as room:
            faults.append(fault_of(room, case) if case else kept_fault(room))
        os.environ.update(PATH=path)
        tempfile.tempdir = None
        os.environ.pop("TMPDIR")
    print("\n".join(filter(None, faults)), end="")
    print(f"gate: {sum(not it for it in faults)} passed, {sum(map(bool, faults))} failed")
    return 1 if any(faults) else 0


if __name__ == "__main__":
    sys.exit(main())
