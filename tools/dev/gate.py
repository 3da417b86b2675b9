#!/usr/bin/env python3
"""The whole test, which .ci/run calls: docs/gate.md says what it checks, and what a run has shown.

    sh .ci/run              proves what has no line in gate/PROVED, and of the rest as much as 100 minutes of the clock let it
    MINUTES=N sh .ci/run    of the rest as much as N minutes let it
    WHOLE=1 sh .ci/run      leaves nothing out, however long it takes

    tools/dev/gate.py [--write-ledger [--kept]]

--write-ledger writes the lines of the crates into gate/PROVED as soon as the run has proved them, whatever the steps after say, and those of the named
wrong bodies into gate/NAMED once these are refused.

First and last line say how many crates this run proves, and how many stand by the ledger. Where what has no line doesn't go into 175 minutes, the
highest are left out and named, and the exit status is 3: with --write-ledger the next run goes on from there. What takes seconds comes first. All of it runs in a copy of
the tree outside the repository, so that nothing has a part in it that was made before, or is edited meanwhile. In the end the programs that it made
lie in crates/NAME/out."""
import argparse
import os
import shutil
import signal
import subprocess
import sys
import tempfile
import time

sys.dont_write_bytecode = True
TOP = os.path.dirname(os.path.dirname(os.path.dirname(os.path.realpath(__file__))))
sys.path.insert(0, os.path.join(TOP, "tools", "dev", "gate"))

import ledger  # noqa: E402
import plan  # noqa: E402
import proving  # noqa: E402
import reckoning  # noqa: E402
import steps  # noqa: E402
import tree  # noqa: E402

# The minutes of the clock that a run may take, and those that it takes where so much has no line of the ledger: CI gives three hours.
MOST, AT_LAST = 100, 175


class Words:
    """Says what the run does; a file keeps it, for the release's manifest."""

    def __init__(self, path):
        self.path = path

    def plain(self, words):
        """Says a line as it stands."""
        print(words, flush=True)
        with open(self.path, "a", encoding="utf-8") as file:
            file.write(f"{words}\n")

    def __call__(self, words):
        self.plain(f"gate: {words}")


class Run:
    """A run of the gate in a folder of its own."""

    def __init__(self, room, is_whole, writes):
        self.text, self.place, self.is_whole, self.writes = os.path.join(room, "text"), os.path.join(room, "tree"), is_whole, writes
        self.room, self.say, self.proved = room, Words(os.path.join(room, "said")), set()
        tree.copy(TOP, self.text, lambda _: True)
        self.uses = tree.uses_of(self.text)
        self.tests = [it for it in self.uses if tree.is_of_tests(it)]
        self.crates = [it for it in self.uses if not tree.is_of_tests(it)]
        self.host = reckoning.Host(self.text, self.uses, float(os.environ.get("MINUTES") or MOST), AT_LAST)
        said = subprocess.run(["rt", "version"], stdin=subprocess.DEVNULL, stdout=subprocess.PIPE, text=True, check=True).stdout
        self.kit, self.wanted = said.split()[0], ledger.digests(self.text, self.crates, ledger.logic())
        self.plan, self.named, self.unnamed, self.began = None, [], [], time.time()

    def decide(self):
        """Decides what this run proves."""
        kept = self.list_kept()
        minutes = reckoning.minutes_of(self.text, self.crates, of_edits=self.is_whole)
        self.plan = plan.Plan(self.uses, minutes, ledger.held(self.text, self.wanted), kept)
        must = self.plan.clock(self.host, self.plan.proved)
        self.plan.fill(self.host, self.is_whole)
        return must

    def list_kept(self):
        """The crates of which the kit keeps a proof of this very text."""
        tree.list_crates(self.text, self.place, self.crates.__contains__, self.is_whole)
        found = proving.list_kept(self.place) & set(self.crates)
        tree.clear(self.place)
        return found

    def begin(self):
        """Says the first line."""
        must = self.decide()
        chosen, kept, left, out = self.plan.proved, self.plan.kept, self.plan.by_ledger(), self.plan.left_out()
        takes = self.host.clock(self.plan.work(chosen), len(self.plan.unbuilt(chosen)), self.is_whole)
        host = f"{self.kit}, {self.host.at_once} checks side by side, BLAKE2b over 256 MiB in {self.host.seconds:.2f} s"
        words = f"of {len(self.crates)} crates this run proves {len(chosen)}{f', the kit keeps {len(kept)} proved' if kept else ''}, and {len(left)} stand by the ledger"
        words += f": some {takes:.0f} minutes here ({host})"
        if self.is_whole:
            words += ", the whole"
        elif must > self.host.bound:
            words += f", past the {self.host.bound:.0f} that it may take, since {len(self.plan.due)} have no line of their present text"
            words += f"; {len(out)} of these don't go into {self.host.most:.0f} minutes and are left out: {' '.join(out)}" if out else ""
        else:
            words += f", of {self.host.bound:.0f}"
        self.say(words)

    def prove(self):
        """Proves what was chosen; returns whether all of it is proved."""
        names, stated = self.plan.proved, self.plan.stated(self.plan.proved)
        listed = names | stated | self.plan.kept
        tree.list_crates(self.text, self.place, listed.__contains__, self.is_whole)
        if not listed:
            return True
        progress = proving.Progress(self.plan.work(names), self.host.at_once, self.host.seconds)
        with open(os.path.join(self.room, "log"), "w", encoding="utf-8") as log:
            outcome = proving.gate(self.place, stated, self.host.at_once, progress, log)
        self.say.plain(f"{outcome.passed - len(outcome.stated)} passed, {outcome.failed} failed")
        self.proved = listed - outcome.stated if not outcome.status else set()
        return not outcome.status

    def after(self):
        """Runs what comes after the proofs."""
        unbuilt, began = self.plan.unbuilt(self.plan.proved), time.time()
        tree.list_crates(self.text, self.place, lambda _: True, False)
        if not steps.unproved(self.place, self.tests, unbuilt, self.host, self.say):
            return False
        self.say(f"what runs without a proof took {(time.time() - began) / 60:.0f} minutes")
        if self.is_whole and not steps.for_allocations(self.place, self.say):
            return False
        if not steps.after(self.place, self.is_whole, unbuilt, self.say) or not self.try_named():
            return False
        put_programs(self.place)
        if unbuilt or self.plan.left_out():
            self.say(f"no release is tried, since this run built without a proof, or left out: {' '.join([*unbuilt, *self.plan.left_out()])}")
            return True
        return steps.released(TOP, self.place, self.say)

    def try_named(self):
        """Tries the named wrong bodies of those crates that have no line of their present text, as far as the bound lets it."""
        wanted = ledger.named(self.text, self.wanted, steps.NAMED)
        held, each = ledger.held(self.text, wanted, ledger.OF_NAMED), self.host.named_minutes(len(steps.NAMED))
        ready = [it for it in wanted if it in self.proved and not self.plan.stated(self.plan.proved)]
        left = len(ready) if self.is_whole else int(max(0.0, self.host.bound - (time.time() - self.began) / 60) / each)
        self.named = [it for it in ready if self.is_whole or it not in held][:left]
        self.unnamed = [it for it in wanted if it not in held and it not in self.named]
        is_well = not self.named or steps.run((*steps.TRIES_NAMED, *self.named), self.place, self.say)
        if is_well:
            self.write(ledger.OF_NAMED, self.named)
        return is_well

    def whole(self):
        """Runs all of it; returns whether all has passed."""
        self.begin()
        if not steps.first(self.text, self.say) or not self.prove():
            return False
        # (a line says that a run proved the crate: what comes after has no part in it)
        self.write(ledger.FILE, self.proved)
        return self.after()

    def last(self, is_well):
        """The last line."""
        # (one of which the statements could not be made alone was proved)
        left, out = [it for it in self.plan.by_ledger() if it not in self.proved], self.plan.left_out()
        words = f"{'FAILED' if not is_well else 'NOT DONE' if out else 'passed'}: {len(self.proved - self.plan.kept)} of {len(self.crates)} crates were proved by this run"
        words += f", {len(self.proved & self.plan.kept)} by runs of which the kit keeps the proofs" if self.plan.kept else ""
        words += ", the whole" if self.is_whole else ""
        words += f"; {len(left)} stand by the ledger alone: {' '.join(left)}" if left else "; none stands by the ledger alone"
        words += f"; {len(out)} were left out, and no run proved their present text: {' '.join(out)}" if out else ""
        words += f"; named wrong bodies of {' '.join(self.unnamed)} have no verdict of the present text" if self.unnamed else ""
        words += "" if steps.has_proxy() else f"; nijpdra-proxy is left out, since {steps.CRATES_OF_PROXY} has no crates"
        return words + ("" if self.is_whole else "; tests with each allocation refused are left to WHOLE=1")

    def write(self, file, names):
        """Writes the lines of these crates, where lines are wanted, unless the text in the repository is another by now."""
        if not self.writes:
            return
        wanted = {top: ledger.digests(top, [it for it in self.crates if it in tree.uses_of(top)], ledger.logic()) for top in (self.text, TOP)}
        if file == ledger.OF_NAMED:
            wanted = {top: ledger.named(top, of, steps.NAMED) for top, of in wanted.items()}
        if wanted[self.text] != wanted[TOP]:
            self.say(f"nothing is written into {file}: the text changed while the gate ran")
            return
        ledger.write(TOP, wanted[TOP], names, file)
        self.say(f"{file} has {len(names)} lines more or anew; commit it")


def put_programs(place):
    """Lays what was made beside the libraries, as programs and archives, where the repository keeps it."""
    for name in [os.path.join("crates", it) for it in os.listdir(os.path.join(place, "crates"))] + ["embed"]:
        made, to = os.path.join(place, name, "out"), os.path.join(TOP, name, "out")
        for it in os.listdir(made) if os.path.isdir(made) and os.path.isdir(os.path.dirname(to)) else []:
            if os.path.isfile(os.path.join(made, it)):
                os.makedirs(to, exist_ok=True)
                shutil.copy2(os.path.join(made, it), os.path.join(to, it))


def main(words=None):
    """Runs the gate, and returns the exit status."""
    reader = argparse.ArgumentParser(description=__doc__, formatter_class=argparse.RawDescriptionHelpFormatter)
    reader.add_argument("--write-ledger", action="store_true", help="write what this run proved into gate/PROVED")
    reader.add_argument("--kept", action="store_true", help="with --write-ledger: run nothing, and write the lines of what the kit keeps proved, as after rt ci NAME")
    words = reader.parse_args(words)
    if words.kept and not words.write_ledger:
        reader.error("--kept says what --write-ledger writes")
    os.chdir(TOP)
    if not shutil.which("rt"):
        sys.exit("gate: there is no command rt: put the kit's on PATH")
    for it in (signal.SIGTERM, signal.SIGHUP):
        signal.signal(it, lambda number, _: sys.exit(128 + number))
    with tempfile.TemporaryDirectory(prefix="gate-") as room:
        run = Run(room, os.environ.get("WHOLE") == "1", words.write_ledger)
        if words.kept:
            run.write(ledger.FILE, run.list_kept())
            return 0
        is_well = run.whole()
        last = run.last(is_well)
    print(f"gate: {last}", flush=True)
    return 1 if not is_well else 3 if run.plan.left_out() else 0


if __name__ == "__main__":
    sys.exit(main())
