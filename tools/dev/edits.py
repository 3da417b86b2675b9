#!/usr/bin/env python3
"""Tries edits that the prover must refuse, many by one check, and records which it refused.

usage: tools/dev/edits.py [CRATE..] [--all] [--named] [--again] [--edit NAME] [--apply] [--recorded] [--jobs N] [--log FOLDER]

Without names it tries the edits whose verdict in edits/CRATE.edits is missing or old, since the edit or its crate's src or specs
changed; with names all edits of those crates; with --all those of all crates. A crate's edits are those of the file edits/CRATE.edits.
Before any check each edit of each crate is applied to the texts, and each of wrong-bodies/: one that names a text that isn't there,
or stands there twice, fails the run at once.

--named tries the named wrong bodies alone, those of edits/CRATE.edits that a line of wrong-bodies/CRATE.edits names; with names those of these crates. Each is tried over
the functions that it changes and what these call. The unchanged functions are checked too, unless rt ci or rt lib left the crate's
library in its present form, so that it is proved. Nothing is recorded.

--apply tries none, once every edit of every crate was applied to the texts, and says of how many edits the record holds a verdict: it takes a second.

--recorded tries none either: it fails where the record holds no verdict of the present text of an edit of a public function, and says which; with names
of those crates.

--jobs says how many crates are tried side by side; the default goes by cores and memory, at 3 GB each. --log names a folder
that gets all that the checks said. What an earlier `rt check` kept in a crate's out/ is copied and used. Where nothing is kept, the
edits are tried over what they change and what that calls if the crate's library is proved, as of named ones; else the unchanged
crate is checked first. The libraries below a crate are built where they aren't.

An edit must come out as REFUSED: its own function isn't proved at a goal of its own. Of a function that is proved by hand (a file Answers.antt or
Proof.antt of its own) that says only that the proof breaks: the edit is tried once more with that file set aside, and comes out as REFUSED AGAIN where
it isn't proved without it either, or as LET THROUGH where it is. --again tries only that, of the edits that the record has as REFUSED. --edit names
edits of the crates, which alone are tried. NOT REFUSED, REFUSED ONLY BY NAMES (a proof
names something that the edit took away) and BAD EDIT (it doesn't compile) are failures. Edits with known verdicts, canaries, are
tried first at each run. The exit status is 0 where all that was tried was refused, and without names the record is then complete.
"""
import argparse
import contextlib
import os
import shutil
import sys
import tempfile
import threading
import time
from concurrent.futures import ThreadPoolExecutor, as_completed

sys.dont_write_bytecode = True
TOP = os.path.dirname(os.path.dirname(os.path.dirname(os.path.realpath(__file__))))
sys.path.insert(0, os.path.join(TOP, "tools", "dev", "judge"))

import canaries  # noqa: E402
import kit  # noqa: E402
import record  # noqa: E402
import rounds  # noqa: E402
import sources  # noqa: E402
from verdicts import LET_THROUGH, NOT_REFUSED, ONLY_BY_NAMES, REFUSED, REFUSED_AGAIN, WELL  # noqa: E402

PRINTING = threading.Lock()


def say(text):
    """Prints a line, whichever thread says it."""
    with PRINTING:
        print(f"edits: {text}", flush=True)


def misfits(crate, entries):
    """What can't be applied of a crate's edits, in words."""
    texts, found = sources.texts_of(crate.folder), []
    for entry in entries.values():
        try:
            sources.applied(sources.pairs_of(entry.text), texts)
        except sources.BadEdit as why:
            found.append(f"{entry.crate}/{entry.name}: BAD EDIT: {why}")
    return found


def misfits_let_through(crates):
    """What can't be applied of the wrong bodies of wrong-bodies/, in words."""
    for crate, name, edit, _ in record.let_through(TOP):
        try:
            if crate not in crates:
                raise sources.BadEdit("there is no such crate")
            sources.applied(sources.pairs_of(edit), sources.texts_of(crates[crate].folder))
        except sources.BadEdit as why:
            yield f"wrong-bodies/{crate}.edits: {name}: BAD EDIT: {why}"


def is_of_public(entry, texts):
    """Whether an edit changes a public function."""
    for path, old, _ in sources.pairs_of(entry.text):
        at = sources.place(texts[path], old) if old in texts[path] else None
        if at is not None and sources.functions(texts[path])[at].is_public:
            return True
    return False


def look_up(arguments, crates, entries, held):
    """Says which edits of public functions have no verdict of the present text, and returns the exit status."""
    passed = failed = 0
    for name, crate in crates.items():
        if arguments.crates and name not in arguments.crates:
            continue
        texts = sources.texts_of(crate.folder)
        public = [it for it in entries[name].values() if is_of_public(it, texts)]
        lacking = sorted(it.name for it in public if not held.holds(it))
        passed, failed = passed + len(public) - len(lacking), failed + len(lacking)
        if lacking:
            say(f"{name}: {len(lacking)} of {len(public)} edits of public functions have no verdict of the present text: {' '.join(lacking)}")
    say(counted(crates, entries, held))
    print(f"{passed} passed, {failed} failed")
    return 1 if failed else 0


def counted(crates, entries, held):
    """How many edits of the present text have which verdict, in words."""
    found, once = dict.fromkeys(WELL, 0), 0
    for name, crate in crates.items():
        verdicts = {it.name: held.verdict(it) for it in entries[name].values() if held.holds(it)}
        for verdict in verdicts.values():
            found[verdict] += 1
        refused = {it: sources.pairs_of(entries[name][it].text) for it, verdict in verdicts.items() if verdict == REFUSED}
        once += len(rounds.proved_by_hand(crate, refused))
    words = f"{found[REFUSED] - once} refused, of functions with no proof by hand; with that set aside {found[REFUSED_AGAIN]} refused again, "
    return words + f"{found[LET_THROUGH]} let through; {once} refused over a proof by hand, and not tried without it"


def wanted(arguments, entries, crates, held):
    """The names of the edits to be tried by crate."""
    chosen, named = {}, record.named(TOP) if arguments.named else {}
    for name in crates:
        if arguments.again:
            pairs = {it.name: sources.pairs_of(it.text) for it in entries[name].values() if held.verdict(it) == REFUSED}
            chosen[name] = sorted(rounds.proved_by_hand(crates[name], pairs)) if not arguments.crates or name in arguments.crates else []
        elif arguments.named:
            chosen[name] = sorted(named.get(name, ())) if not arguments.crates or name in arguments.crates else []
        elif arguments.all or name in arguments.crates:
            chosen[name] = sorted(entries[name])
        elif not arguments.crates:
            chosen[name] = sorted(it.name for it in entries[name].values() if not held.holds(it))
    if arguments.edit:
        chosen = {name: [it for it in found if it in arguments.edit] for name, found in chosen.items()}
    return {name: found for name, found in chosen.items() if found}


def build_below(crates, chosen):
    """Builds the libraries below the crates to be tried, lowest first; returns by crate the library that isn't proved."""
    below = [it for it in crates.values() if any(it in crates[name].below() for name in chosen)]
    lacking = []
    if kit.left_by_gate(below):
        return {}
    for crate in below:
        if any(it in lacking for it in crate.below()):
            lacking.append(crate)
            continue
        if not crate.is_built():
            say(f"building the library {crate.name}")
        with tempfile.TemporaryFile("w+") as crate.out:
            if crate.build_rlib(["--jobs", "1"], anew=False):
                crate.out.seek(0)
                say(f"{crate.name} is not proved: {' / '.join(crate.out.read().splitlines()[-3:])[:500]}")
                lacking.append(crate)
    return {name: low.name for name in chosen for low in crates[name].below() if low in lacking}


def without_proofs(crate, pairs, outcome, kept, tell, is_alone):
    """Tries once more, with their proofs by hand set aside, those of the edits that were refused, by names too, and have one; gives all verdicts."""
    refused = {name: pairs[name] for name, (verdict, _) in outcome.verdicts.items() if verdict in (REFUSED, ONLY_BY_NAMES)}
    chosen = {name: pairs[name] for name in rounds.proved_by_hand(crate, refused)}
    if outcome.failure or not chosen:
        return outcome
    again = rounds.try_crate(crate, chosen, kept, tell, is_alone=is_alone, is_proved=True, sets_aside=True)
    words = {REFUSED: REFUSED_AGAIN, NOT_REFUSED: LET_THROUGH}
    told = {name: (words[verdict], why) for name, (verdict, why) in again.verdicts.items() if verdict in words}
    return rounds.Outcome({**outcome.verdicts, **told}, outcome.rounds + again.rounds, again.failure)


def try_crate(crate, entries, names, log, arguments):
    """Tries edits of a crate over a copy of what its own checks kept, and says what came out; named ones alone, over nothing, what they change and what
    that calls."""
    is_alone = arguments.named
    started = time.time()
    with tempfile.TemporaryDirectory(prefix="edits-kept-") as room, contextlib.ExitStack() as stack:
        tell = logger(log, crate.name, stack)
        kept = os.path.join(room, "incremental")
        is_kept = not is_alone and os.path.isdir(kit.kept_work(crate))
        # (what is proved isn't checked once more only to have its work kept)
        is_alone = is_alone or not is_kept and kit.is_proved(crate)
        if is_kept:
            shutil.copytree(kit.kept_work(crate), kept)
        else:
            os.mkdir(kept)
        if not is_alone and not os.listdir(kept):
            say(f"{crate.name}: nothing is kept of it, so the unchanged crate is checked first")
            if kit.check(crate, {}, kept)[0]:
                return rounds.Outcome({}, [], "the unchanged crate is not proved")
        pairs = {name: sources.pairs_of(entries[name].text) for name in names}
        outcome = rounds.Outcome({name: (REFUSED, "") for name in names}, [], None)
        if not arguments.again:
            outcome = rounds.try_crate(crate, pairs, kept, tell, is_alone=is_alone, is_proved=is_alone and kit.is_proved(crate))
        if not arguments.named:
            outcome = without_proofs(crate, pairs, outcome, kept, tell, is_alone)
    now = record.entries_of(TOP, crate)
    if any(now.get(name) != entries[name] for name in names):
        return rounds.Outcome({}, outcome.rounds, "the crate or its edits changed since the run began")
    refused = sum(verdict in WELL for verdict, _ in outcome.verdicts.values())
    took = f"{crate.seconds:.0f} processor seconds, {time.time() - started:.0f} s"
    say(f"{crate.name}: {refused} of {len(names)} edits refused, by rounds of {', '.join(map(str, outcome.rounds))}; {took}")
    return outcome


def logger(folder, name, stack):
    """A function that writes what it is told to a file of the folder, if there is one."""
    if not folder:
        return lambda text: None
    os.makedirs(folder, exist_ok=True)
    file = stack.enter_context(open(os.path.join(folder, name + ".log"), "w", encoding="utf-8"))
    return lambda text: print(text, file=file, flush=True)


def try_all(crates, chosen, entries, held, arguments):
    """Tries the chosen edits, crates side by side, and records what came out; returns how many were refused, and how many not."""
    passed = failed = 0
    lacking = build_below(crates, chosen)

    def work(name):
        if name in lacking:
            return rounds.Outcome({}, [], f"its library {lacking[name]} is not proved")
        return try_crate(crates[name], entries[name], chosen[name], arguments.log, arguments)

    # those with the most edits first
    order = sorted(chosen, key=lambda name: -len(chosen[name]))
    with ThreadPoolExecutor(arguments.jobs or kit.work_side_by_side()) as pool:
        running = {pool.submit(work, name): name for name in order}
        for done in as_completed(running):
            name, outcome = running[done], done.result()
            if outcome.failure:
                say(f"{name}: NOT JUDGED: {outcome.failure}")
            for edit, (verdict, reason) in sorted(outcome.verdicts.items()):
                if verdict != REFUSED:
                    say(f"{name}/{edit}: {verdict}: {reason[:300]}")
            refused = sum(verdict in WELL for verdict, _ in outcome.verdicts.values())
            passed, failed = passed + refused, failed + len(chosen[name]) - refused
            if not arguments.named:
                held.note(entries[name], outcome.verdicts)
                held.write()
    return passed, failed


def arguments_of(words):
    """The command line."""
    parser = argparse.ArgumentParser(description=__doc__, formatter_class=argparse.RawDescriptionHelpFormatter, usage=argparse.SUPPRESS)
    parser.add_argument("crates", nargs="*", metavar="CRATE")
    parser.add_argument("--all", action="store_true")
    parser.add_argument("--named", action="store_true")
    parser.add_argument("--again", action="store_true")
    parser.add_argument("--edit", action="append", default=[])
    parser.add_argument("--apply", action="store_true")
    parser.add_argument("--recorded", action="store_true")
    parser.add_argument("--jobs", type=int)
    parser.add_argument("--log")
    return parser.parse_args(words)


def main(words):
    """Runs the command line, and returns the exit status."""
    arguments = arguments_of(words)
    crates = kit.crates_of(TOP)
    unknown = [it for it in arguments.crates if it not in crates]
    if unknown:
        sys.exit(f"edits: there is no crate {unknown[0]}")
    entries = {name: record.entries_of(TOP, crate) for name, crate in crates.items()}
    bad = record.strays(TOP, crates) + [line for name, crate in crates.items() for line in misfits(crate, entries[name])]
    bad += misfits_let_through(crates)
    for line in bad:
        say(line)
    if bad:
        print(f"0 passed, {len(bad)} failed")
        return 1
    if arguments.recorded:
        return look_up(arguments, crates, entries, record.Record(TOP))
    if arguments.apply:
        held = record.Record(TOP)
        everything = [it for found in entries.values() for it in found.values()]
        good = sum(held.holds(it) for it in everything)
        say(f"{len(everything)} edits apply; the record holds {good} of them as refused")
        print(f"{len(everything)} passed, 0 failed")
        return 0
    with tempfile.TemporaryDirectory(prefix="edits-canaries-") as room, contextlib.ExitStack() as stack:
        passed, wrong = canaries.fly(room, logger(arguments.log, "canaries", stack), arguments.named)
    for line in wrong:
        say(line)
    if wrong:
        print(f"{passed} passed, {len(wrong)} failed")
        return 1
    return judge(arguments, crates, entries, passed)


def judge(arguments, crates, entries, canaries_passed):
    """Tries what is to be tried once the canaries came out right, and returns the exit status."""
    held = record.Record(TOP)
    chosen = wanted(arguments, entries, crates, held)
    passed = failed = 0
    if chosen:
        needed = [it for it in crates.values() if it.name in chosen or any(it in crates[name].below() for name in chosen)]
        locks = kit.library().lock(needed)
        passed, failed = try_all(crates, chosen, entries, held, arguments)
        for it in locks:
            os.close(it)
    everything = [it for found in entries.values() for it in found.values()]
    if not arguments.named:
        held.write()
    good = sum(held.holds(it) for it in everything)
    seconds = sum(getattr(it, "seconds", 0) for it in crates.values())
    tried = f"{passed + failed} edits tried, {passed} refused, in {seconds:.0f} processor seconds" if chosen else "no edit was to be tried"
    say(f"{tried}; {canaries_passed} canaries came out as they must; the record holds {good} of {len(everything)} edits as refused")
    print(f"{passed + canaries_passed} passed, {failed} failed")
    is_lacking = not arguments.crates and not arguments.named and good < len(everything)
    return 1 if failed or is_lacking else 0


if __name__ == "__main__":
    sys.exit(main(sys.argv[1:]))
