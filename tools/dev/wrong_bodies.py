#!/usr/bin/env python3
"""Shows for wrong bodies an input on which they answer otherwise: applies each to a copy of the sources, builds it without a proof, and runs what is to fail.

usage: tools/dev/wrong_bodies.py [NAME..]

wrong-bodies/CRATE.edits has them, each with one or several lines 'test: ' that say what fails. One with an edit below these no contract refuses, and a
test does; one without is a named one: the edit of that name in edits/CRATE.edits, which the prover refuses too. What fails is

    traces                of traces/, replayed by tier-replay, some are answered otherwise
    CRATE stdout          the program CRATE writes something else than its file stdout
    CRATE TEST            of the crate of tests CRATE that test
    CRATE TEST refused N  that test, where one of its allocations fails: the Nth, the first, the second, .., until it fails
    CRATE unbuilt WORD    the build of that crate, which says the word: the body asks for what its caller has no leave for

Without names all are tried; each thing that fails takes two to four processor minutes, the last form as much for each allocation: so it names one that shows it. It prints a line for each, and fails where one is not shown.
A proof that is refused says that contract and proof no longer fit; an answer that is wrong shows that the body is.
"""
import os
import re
import shutil
import subprocess
import sys
import tempfile

sys.dont_write_bytecode = True
TOP = os.path.dirname(os.path.dirname(os.path.dirname(os.path.realpath(__file__))))
sys.path[:0] = [os.path.join(TOP, "tools", "dev", "judge"), os.path.join(TOP, "tools", "reference")]

import record  # noqa: E402
import sources  # noqa: E402
import traces  # noqa: E402

# A test of a refused growth makes fewer allocations than that.
MOST_ALLOCATIONS = 100


def rows():
    """Gives for each thing that fails under a wrong body the crate that is edited, the body's name, the text of its edit and the words of what fails."""
    for crate, name, edit, hows in record.wrong_bodies(TOP):
        for how in hows:
            yield crate, name, edit or record.read_edits(TOP, crate)[0][name], how


def copied(room, crate, edit):
    """Copies the sources, and applies the edit there."""
    left_out = shutil.ignore_patterns("out")
    shutil.copytree(os.path.join(TOP, "crates"), os.path.join(room, "crates"), ignore=left_out)
    for name in ("crates.txt", "HANDLES"):
        shutil.copy(os.path.join(TOP, name), room)
    pairs = sources.pairs_of(edit)
    folder = os.path.join(room, "crates", crate)
    texts = {path: sources.read(os.path.join(folder, path)) for path, _, _ in pairs}
    for path, text in sources.applied(pairs, texts).items():
        with open(os.path.join(folder, path), "w", encoding="utf-8") as it:
            it.write(text)


def tried(room, crate, words):
    ran = subprocess.run(["rt", "try", *words], cwd=os.path.join(room, "crates", crate), stdin=subprocess.DEVNULL, stdout=subprocess.PIPE, stderr=subprocess.STDOUT, text=True)
    return ran.returncode, ran.stdout


def write_cases(folder):
    os.mkdir(folder)
    for trace in traces.stored():
        case = os.path.join(folder, trace.name.replace("/", "--"))
        args = "".join(word + "\n" for word in trace.words).encode()
        for end, data in (("", trace.lines), (".stdout", trace.answers), (".args", args)):
            with open(case + end, "wb") as it:
                it.write(data)


def shown_by_traces(room):
    cases = os.path.join(room, "cases")
    write_cases(cases)
    status, said = tried(room, "tier_replay", ["--seconds", "600", "--cases", cases])
    wrong = re.findall(r"(?m)^case=(\S+) .*\boutput=differs\b", said)
    return status == 5 and wrong, f"{len(wrong)} traces are answered otherwise, as {wrong[0].replace('--', '/')}" if wrong else said[-600:]


def words_of_data(crate):
    """The words that lay the files of the crate's data where its program runs."""
    folder = os.path.join(TOP, "crates", crate, "data")
    for name in sorted(os.listdir(folder)) if os.path.isdir(folder) else []:
        yield from ("--data", f"{name}={os.path.join(folder, name)}")


def shown_by_output(room, crate):
    wanted = sources.read(os.path.join(TOP, "crates", crate, "stdout"))
    ran = subprocess.run(["rt", "try", "--seconds", "600", *words_of_data(crate)], cwd=os.path.join(room, "crates", crate), stdin=subprocess.DEVNULL, stdout=subprocess.PIPE, stderr=subprocess.PIPE, text=True)
    lines = [it for it in wanted.splitlines() if it not in ran.stdout]
    return ran.returncode not in (1, 2, 3) and lines, f"{crate} doesn't write: {lines[0]}" if lines else ran.stderr[-600:]


def shown_by_test(room, crate, test, *words):
    status, said = tried(room, crate, ["--test", *words])
    failed = re.search(rf"(?m)\b{re.escape(test)}\b \.\.\. FAILED", said)
    return status not in (0, 1, 2, 3) and failed, f"{crate}: {test} fails" if failed else said[-600:]


def shown_by_build(room, crate, word):
    status, said = tried(room, crate, ["--test"])
    told = [it for it in said.splitlines() if "error" in it and word in it]
    return status != 0 and told, f"{crate} isn't built: {told[0]}" if told else said[-600:]


def shown_by_refusals(room, crate, test, first="1"):
    for at in (int(first), *range(1, MOST_ALLOCATIONS + 1)):
        is_shown, what = shown_by_test(room, crate, test, "--fail-alloc", str(at))
        if is_shown:
            return True, f"{what} where allocation {at} fails"
    return False, f"{crate}: {test} fails at none of {MOST_ALLOCATIONS} allocations"


def shown(room, how):
    if how == ["traces"]:
        return shown_by_traces(room)
    if how[1:2] == ["unbuilt"]:
        return shown_by_build(room, how[0], how[2])
    if how[2:3] == ["refused"]:
        return shown_by_refusals(room, *how[:2], *how[3:])
    return shown_by_output(room, how[0]) if how[1] == "stdout" else shown_by_test(room, *how)


def main():
    asked, unshown = set(sys.argv[1:]), 0
    for crate, name, edit, how in rows():
        if asked and name not in asked:
            continue
        with tempfile.TemporaryDirectory() as room:
            copied(room, crate, edit)
            is_shown, what = shown(room, how)
        unshown += not is_shown
        print(f"{crate} {name}: {'shown' if is_shown else 'NOT SHOWN'}: {what}", flush=True)
    sys.exit(bool(unshown))


main()
