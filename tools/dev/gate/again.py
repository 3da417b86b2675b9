#!/usr/bin/env python3
"""Runs the kit's merge gate, rt ci, in the present folder, and takes some crates as they are:

    python3 tools/dev/gate/again.py [--kept FOLDER] [--stated NAME,..] [--alone NAME,..]
    python3 tools/dev/gate/again.py --list-kept

--kept names a folder that has the folders out/ of crates that an earlier run of the same gate proved, by their names: these are taken as they are.
--stated names libraries that aren't proved, since they stand by the ledger: of each its statements alone are made (statements.py), for those above.
Nothing of theirs, nor of what stands on them, is kept by the kit. Those of --alone are proved while no other check runs.
All else is the kit's own: what refuses a crate, what is run, what is printed, the exit status.

--list-kept proves nothing, and prints 'rt: NAME is kept ..' for each crate of which the kit keeps a proof of the present text.

Only proving.py calls it, in a copy of the tree that nothing else works in, so what is taken is what that very gate proved of that very text.
Where the kit's command has another form it is run as it is, with one check at a time."""
import argparse
import contextlib
import importlib.machinery
import importlib.util
import inspect
import os
import shutil
import subprocess
import sys
import tempfile
import threading

sys.dont_write_bytecode = True
sys.path.insert(0, os.path.dirname(os.path.realpath(__file__)))

import statements  # noqa: E402


class Turns:
    """Lets several work side by side, or one alone."""

    def __init__(self):
        self.changed, self.working, self.waiting, self.is_alone = threading.Condition(), 0, 0, False

    @contextlib.contextmanager
    def turn(self, alone):
        with self.changed:
            self.waiting += alone
            self.changed.wait_for(lambda: not self.is_alone and not (self.working if alone else self.waiting))
            self.waiting -= alone
            self.working, self.is_alone = self.working + 1, alone
        try:
            yield
        finally:
            with self.changed:
                self.working, self.is_alone = self.working - 1, False
                self.changed.notify_all()


def command():
    """The kit's command rt, a Python script, as a module; None where it isn't one of the form that is known here."""
    path = os.path.realpath(shutil.which("rt") or sys.exit("there is no command rt: put the kit's on PATH"))
    loader = importlib.machinery.SourceFileLoader("rt", path)
    made = importlib.util.module_from_spec(importlib.util.spec_from_loader("rt", loader))
    try:
        loader.exec_module(made)
        inspect.signature(made.Crate.ci).bind("crate", "flags", "tests")
        # (a newer kit's takes whether all is to be proved anew)
        made.given = [False] if inspect.signature(made.ci).parameters else []
        inspect.signature(made.ci).bind(*made.given)
        return made
    except (AttributeError, SyntaxError, TypeError, ValueError):
        return None


class Statements:
    """Makes the libraries that are only stated."""

    def __init__(self, made, names):
        self.made, self.names, self.done = made, names, set()
        self.cited = statements.citations(os.getcwd()) if names else {}

    def build(self, crate, flags):
        """Makes a library of the crate's statements where its own goes; returns the exit status."""
        of_rt = self.made.rtlib
        with tempfile.TemporaryDirectory(prefix="gate-stated-") as room:
            folder = os.path.join(room, crate.name)
            statements.state(crate.folder, crate.name, folder, self.cited.get(crate.name, set()))
            words = crate.words(flags, keeps=False)
            words[words.index("--links") + 1] = f"{crate.name}=c"
            shutil.rmtree(os.path.dirname(crate.rlib), ignore_errors=True)
            os.makedirs(os.path.dirname(crate.rlib))
            words = [*of_rt.guarded(), of_rt.RATTLE, "build", *words, "--statements", "-o", crate.rlib]
            ran = subprocess.run(words, cwd=folder, stdin=subprocess.DEVNULL, stdout=subprocess.PIPE, stderr=subprocess.STDOUT, errors="replace", check=False)
        if not ran.returncode:
            self.done.add(crate.name)
        return ran.returncode

    def is_over(self, crate):
        """Whether the crate, or one below it, was only stated."""
        return crate.name in self.done or any(it.name in self.done for it in crate.below())

    def keeps(self):
        """Has the kit keep nothing that stands on what was only stated, and say of what was stated that it was."""
        made, say = self.made, self.made.say
        if hasattr(made, "Kept"):
            keep = made.Kept.keep
            made.Kept.keep = lambda kept, crate, tests, key: None if self.is_over(crate) else keep(kept, crate, tests, key)
        ends = {f"{it} proved": f"{it} stated, not proved: it stands by the ledger" for it in self.names}

        def told(text, out=None):
            name = text.partition(" ")[0]
            say(ends[text] if text in ends and name in self.done else text, out)

        made.say = told


def over(made, words):
    """Has the kit's gate take what is kept, state what is to be stated, and prove some crates alone."""
    turns, moving = Turns(), threading.Lock()
    names = set(os.listdir(words.kept)) if words.kept else set()
    stated, alone = Statements(made, set(filter(None, words.stated.split(",")))), set(words.alone.split(","))
    if stated.names:
        # (of those that an earlier run made too)
        stated.done |= stated.names & names
        stated.keeps()

    class Crate(made.Crate):
        """A crate of the gate's, which is proved only where it wasn't yet, and has to be."""

        def ci(self, flags, tests):
            if self.name in names:
                with moving:
                    taken = os.path.join(words.kept, self.name)
                    for it in os.listdir(taken):
                        shutil.move(os.path.join(taken, it), os.path.join(self.folder, "out", it))
                return 0
            with turns.turn(self.name in alone):
                if self.name in stated.names:
                    if tests or not stated.build(self, flags):
                        return 0
                    # (then it is proved as any other)
                    made.say(f"{self.name}: its statements could not be made alone", self.out)
                if self.is_program and stated.is_over(self):
                    return self.prove(["check", *self.words(flags, keeps=False)])
                return super().ci(flags, tests)

    made.Crate = Crate


def list_kept(made):
    """Has the kit's gate prove nothing, and say what it keeps."""
    made.Crate.ci = lambda crate, flags, tests: 1
    made.run = lambda *_: True
    made.edits_of = lambda crate: ([], [])
    # (what the run that proves looks at again)
    made.stop_on_words = made.rtlib.stop_on_text = made.rtlib.stop_on_unread = made.rtlib.stop_on_links = lambda *_: None
    made.rtlib.fmt, made.rtlib.code_of = (lambda *_: 0), (lambda folder: "")
    if hasattr(made, "Kept"):
        # (what another run proves just now isn't waited for)
        made.Kept.in_turn = lambda *_: contextlib.nullcontext(False)


def main():
    reader = argparse.ArgumentParser()
    for it in ("--kept", "--stated", "--alone"):
        reader.add_argument(it, default="")
    reader.add_argument("--list-kept", action="store_true")
    words, made = reader.parse_args(), command()
    if not made:
        if words.list_kept or words.stated:
            sys.exit(3)
        os.environ["RT_JOBS"] = "1"
        os.execvp("rt", ["rt", "ci"])
    if words.list_kept:
        list_kept(made)
    else:
        over(made, words)
    return made.ci(*made.given)


if __name__ == "__main__":
    sys.exit(main())
