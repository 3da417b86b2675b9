"""Runs the kit's merge gate, rt ci, in a copy of the tree, and tells a line a crate as each ends, with the minutes that are left."""
import contextlib
import os
import re
import shutil
import signal
import subprocess
import sys
import time

import reckoning

AGAIN = os.path.join(os.path.dirname(os.path.realpath(__file__)), "again.py")
BEGINS = re.compile(r"== (\w+)(: its tests)?$")
ENDS = re.compile(r"rt: (\w+)(: its tests are)? (proved|NOT PROVED|stated, not proved)\b(: its library \w+ failed)?")
KEPT = re.compile(r"rt: (\w+) is kept\b")
TRIES = re.compile(r"rt: (\w+): trying its must-fail edits \(\d+\)$")
EDIT = re.compile(r"(?:rt: )?must-fail (\w+)/\S+: (refused)?")
SUM = re.compile(r"(\d+) passed, (\d+) failed$")
# What a check says where it refuses something. One that was killed, as for memory, or a compiler that was, says nothing of the kind.
REASON = re.compile(r"(.*: )?error\b|.*: (not proved|no proof)|logic=not-proved|rt: (?!the check was killed|LLVM did not compile|note: |chose )")
# For so many minutes what was reckoned counts as much as what is seen.
TRUST = 10
# Lanes stand idle where a crate waits for those below it: an hour and a half was seen where an even share was an hour.
UNEVEN = 1.5


class Outcome:
    """What a run of rt ci told."""

    def __init__(self):
        # (crate, whether its tests) of each task that was proved, and of each that was not what it said
        self.proved, self.refused = set(), {}
        # crates that were not judged, since a library below wasn't proved
        self.unjudged = set()
        # the crates of which the kit keeps a proof, and those of which statements alone were made
        self.kept, self.stated = set(), set()
        # edits that were refused as they must, and the other failures that it names at its end
        self.edits, self.others = 0, []
        self.passed = self.failed = 0
        self.status = 2

    def are_unexplained(self):
        """The crates that ended without a reason, if nothing else failed but what stands on them."""
        refused = {name for name, _ in self.refused}
        # (what is refused before its check has said nothing under its name)
        with_reason = any(said is None or any(map(REASON.match, said)) for said in self.refused.values())
        return set() if with_reason or set(self.others) - refused - self.unjudged else refused


class Progress:
    """Tells how far the gate is."""

    def __init__(self, minutes, at_once, seconds):
        self.begun, self.minutes, self.done = time.time(), minutes, {}
        # minutes of the reference host's processors that go by in one of the clock, by what was reckoned
        self.rate = at_once * reckoning.REFERENCE / seconds / UNEVEN

    def elapsed(self):
        return (time.time() - self.begun) / 60

    def end(self, name, kinds):
        """Notes that these kinds of a crate's minutes are over; gives the minutes of the clock that are left."""
        self.done[name] = self.done.get(name, set()) | set(kinds)
        over = sum(self.minutes[it][kind] for it, ended in self.done.items() if it in self.minutes for kind in ended)
        whole = sum(sum(row.values()) for row in self.minutes.values())
        rate = (over + TRUST * self.rate) / (self.elapsed() + TRUST)
        return max(0.0, whole - over) / rate

    def say(self, text, left=None):
        print(f"{self.elapsed():6.1f} min  {text}" + ("" if left is None else f"; some {left:.0f} min left"), flush=True)


class Reader:
    """Reads the lines of a run of rt ci: what a crate said is shown only where it isn't proved."""

    def __init__(self, outcome, progress, log):
        self.outcome, self.progress, self.log = outcome, progress, log
        self.task, self.said = None, []

    def take(self, line):
        print(line, file=self.log)
        begins, ends, kept = BEGINS.match(line), ENDS.match(line), KEPT.match(line)
        if kept:
            self.outcome.kept.add(kept[1])
            self.progress.end(kept[1], ["proofs", "programs"])
            print(line, flush=True)
        elif begins:
            self.flush()
            self.task, self.said = (begins[1], bool(begins[2])), []
        elif ends:
            self.end(ends)
        elif TRIES.match(line):
            self.progress.say(line[len("rt: ") :])
        elif self.task:
            self.said.append(line)
        else:
            self.tell(line)

    def flush(self):
        """Shows what a crate said whose end has another form than this reader knows."""
        for it in self.said if self.task else []:
            print(it, flush=True)
        self.task, self.said = None, []

    def end(self, found):
        task = found[1], bool(found[2])
        is_own = task == self.task
        said, what = self.said if is_own else None, f"{task[0]}{': its tests are' if task[1] else ''} {found[3]}"
        if is_own:
            self.task, self.said = None, []
        left = self.progress.end(task[0], ["tests"] if task[1] else ["proofs", "programs"])
        if found[3] == "proved":
            self.outcome.proved.add(task)
            last = next((it for it in reversed(said or []) if it.startswith("logic=")), "")
            self.progress.say(what + (f" ({last.partition(' native=')[0]})" if last else ""), left)
        elif found[3].startswith("stated"):
            self.outcome.stated.add(task[0])
            self.progress.say(what, left)
        elif found[4]:
            self.outcome.unjudged.add(task[0])
            self.progress.say(what + found[4])
        else:
            self.outcome.refused[task] = said
            for it in said or []:
                print(it)
            self.progress.say(what)

    def tell(self, line):
        """A line outside of what a crate said: of edits, tests and programs, and of the end."""
        edit, found = EDIT.match(line), SUM.match(line)
        if edit:
            self.progress.end(edit[1], ["edits"])
            self.outcome.edits += bool(edit[2])
        if line.startswith("rt: FAILED: "):
            self.outcome.others = re.sub(r" \((tests|run)\)", r"-\1", line[len("rt: FAILED: ") :]).split()
        if found:
            self.outcome.passed, self.outcome.failed = int(found[1]), int(found[2])
        else:
            print(line, flush=True)


def end(ran):
    """Ends a run of rt ci that hasn't ended, with all that it started, so that nothing writes in its folder any more."""
    for it in (signal.SIGTERM, signal.SIGKILL):
        if ran.poll() is None:
            os.killpg(ran.pid, it)
            with contextlib.suppress(subprocess.TimeoutExpired):
                ran.wait(timeout=20)
    with contextlib.suppress(ProcessLookupError):
        os.killpg(ran.pid, signal.SIGKILL)


def run(place, words, at_once, progress, log):
    """Runs rt ci, or what stands for it, in a copy of the tree."""
    outcome = Outcome()
    reader = Reader(outcome, progress, log)
    how = {"stdin": subprocess.DEVNULL, "stdout": subprocess.PIPE, "stderr": subprocess.STDOUT, "text": True, "errors": "replace"}
    ran = subprocess.Popen(words, cwd=place, env={**os.environ, "RT_JOBS": str(at_once)}, start_new_session=True, **how)
    try:
        for line in ran.stdout:
            reader.take(line.rstrip("\n"))
        reader.flush()
        outcome.status = ran.wait()
    finally:
        end(ran)
    return outcome


def list_kept(place):
    """The crates of which the kit keeps a proof of the text in a copy of the tree."""
    ran = subprocess.run([sys.executable, AGAIN, "--list-kept"], cwd=place, stdin=subprocess.DEVNULL, stdout=subprocess.PIPE, stderr=subprocess.DEVNULL, text=True, errors="replace", check=False)
    return {found[1] for found in map(KEPT.match, ran.stdout.splitlines()) if found}


def gate(place, stated, at_once, progress, log):
    """Runs rt ci, over libraries of which the statements alone are made. A crate that ends without a reason is proved once more, alone, and what stands
    on it then; gives what was told of all in the end."""
    given = ["--stated", ",".join(sorted(stated))]
    outcome, tried = run(place, [sys.executable, AGAIN, *given] if stated else ["rt", "ci"], at_once, progress, log), set()
    while True:
        again = outcome.are_unexplained() - tried
        if not outcome.status or not again:
            return outcome
        tried |= again
        progress.say(f"without a reason ended {' '.join(sorted(again))}: once more, alone, over what was just proved, and then what stands on it")
        kept = os.path.join(os.path.dirname(place), f"proved-{len(tried)}")
        set_aside(place, kept, outcome)
        words = [sys.executable, AGAIN, *given, "--kept", kept, "--alone", ",".join(sorted(again))]
        outcome = joined(outcome, run(place, words, at_once, progress, log))


def set_aside(place, kept, outcome):
    """Moves what the run made of each crate that it proved to a folder of its own, and removes the rest, and the edits that it tried."""
    os.mkdir(kept)
    bad = {name for name, _ in outcome.refused} | outcome.unjudged
    for name in os.listdir(os.path.join(place, "crates")):
        made = os.path.join(place, "crates", name, "out")
        if name not in bad and os.path.isdir(made):
            os.rename(made, os.path.join(kept, name))
            shutil.rmtree(os.path.join(place, "crates", name, "must-fail"), ignore_errors=True)
        shutil.rmtree(made, ignore_errors=True)


def joined(first, again):
    """What two runs told, of which the second took what the first proved, and tried no edit of that."""
    again.passed += first.edits
    again.edits += first.edits
    again.kept |= first.kept
    again.stated |= first.stated
    return again
