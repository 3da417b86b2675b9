#!/usr/bin/env python3
"""Checks a crate over the statements of the libraries below it, of which nothing is proved, for a quick look while one writes: `rt check` proves all of
those first.

    tools/dev/check.py CRATE [words for rattle check, as --only a::b::f, --allow-holes, --jobs 2]
    tools/dev/check.py CRATE --edits [NAME ..]     tries the wrong bodies of edits/CRATE.edits, or those of these names

What it says is no verdict: the gate's is. The statements of a library are kept in out/statements, by the digest of what they are made of, which has no bodies
and no proofs, and made anew where that changed: some 20 to 60 s a library, the first time."""
import argparse
import contextlib
import fcntl
import hashlib
import os
import re
import shutil
import subprocess
import sys
import tempfile

sys.dont_write_bytecode = True
TOP = os.path.dirname(os.path.dirname(os.path.dirname(os.path.realpath(__file__))))
sys.path.insert(0, os.path.join(TOP, "tools", "dev", "gate"))

import again  # noqa: E402
import ledger  # noqa: E402
import statements  # noqa: E402

KEPT = os.path.realpath(os.path.join(TOP, "out", "statements"))
INCREMENTAL = ["--incremental", "out/incremental"]


def words_of(crate, **how):
    """The words of a check of it, without what the kit's command says as it chooses them."""
    with open(os.devnull, "w", encoding="utf-8") as nothing, contextlib.redirect_stdout(nothing):
        return crate.words(how.pop("flags", []), **how)


def text_of_statements(crate, wanted):
    """The digest of a library's sources without bodies, as its statements are made of them; kept by the digest of the whole sources."""
    made = hashlib.sha256(repr(sorted(wanted)).encode())
    for path in ledger.files_of(TOP, crate.name):
        made.update(repr((path, ledger.read(os.path.join(crate.folder, path)))).encode())
    kept = os.path.join(KEPT, "texts", made.hexdigest()[:24])
    if os.path.isfile(kept):
        return ledger.read(kept).decode()
    with tempfile.TemporaryDirectory(prefix="check-") as room:
        folder, found = os.path.join(room, crate.name), hashlib.sha256()
        statements.state(crate.folder, crate.name, folder, wanted)
        for at, folders, names in os.walk(folder):
            folders.sort()
            for it in sorted(names):
                path = os.path.join(at, it)
                found.update(repr((os.path.relpath(path, folder), ledger.read(path))).encode())
        os.makedirs(os.path.dirname(kept), exist_ok=True)
        with open(os.path.join(room, "text"), "w", encoding="utf-8") as file:
            file.write(found.hexdigest())
        shutil.move(os.path.join(room, "text"), kept)
    return found.hexdigest()


def opened(made, name):
    """The crate; of each library below, the place where its statements are kept."""
    made.rtlib.Crate = made.Crate
    crate = made.Crate(os.path.join(TOP, "crates", name), TOP, {})
    of_kit = ledger.logic()
    cited = statements.citations(TOP)
    for it in crate.below():
        # (each behind those that it uses, whose statements it is made over)
        wanted = cited.get(it.name, set())
        text = of_kit, ledger.line_of(TOP, it.name), text_of_statements(it, wanted), [low.rlib for low in it.below()]
        key = hashlib.sha256(repr(text).encode()).hexdigest()[:24]
        it.rlib = os.path.join(KEPT, f"{it.name}-{key}", "rlib", f"{it.name}.rlib")
    return crate, cited


def state(made, crate, cited):
    """Makes the statements of a library, unless they are kept."""
    place = os.path.dirname(os.path.dirname(crate.rlib))
    os.makedirs(place, exist_ok=True)
    with open(os.path.join(place, "lock"), "w", encoding="utf-8") as lock, tempfile.TemporaryDirectory(prefix="check-") as room:
        fcntl.flock(lock, fcntl.LOCK_EX)
        if os.path.isdir(crate.rlib):
            return
        folder, part = os.path.join(room, crate.name), os.path.join(place, "part")
        statements.state(crate.folder, crate.name, folder, cited.get(crate.name, set()))
        words = words_of(crate, keeps=False)
        words[words.index("--links") + 1] = f"{crate.name}=c"
        shutil.rmtree(part, ignore_errors=True)
        os.makedirs(part)
        words = [made.rtlib.RATTLE, "build", *words, "--statements", "-o", os.path.join(part, os.path.basename(crate.rlib))]
        ran = subprocess.run(words, cwd=folder, stdin=subprocess.DEVNULL, stdout=subprocess.PIPE, stderr=subprocess.STDOUT, text=True, errors="replace", check=False)
        if ran.returncode:
            sys.exit(f"{ran.stdout}\ncheck: the statements of {crate.name} could not be made alone")
        os.rename(part, os.path.dirname(crate.rlib))
        print(f"check: stated {crate.name}", flush=True)


def edits_in(path):
    """The edits of a file: a name, a path, and what is changed to what."""
    found = []
    with open(path, encoding="utf-8") as file:
        for line in file.read().splitlines():
            word, _, text = line.partition(" ")
            if word == "==":
                found.append((text, [], []))
            elif word == "file:":
                found[-1][1].append(text.strip())
            elif word in ("old:", "new:"):
                found[-1][2].append(text)
    return found


def tried(made, crate, name, path, texts):
    """What becomes of one edit."""
    with tempfile.TemporaryDirectory(prefix="check-edit-") as room:
        folder = os.path.join(room, crate.name)
        shutil.copytree(crate.folder, folder, ignore=shutil.ignore_patterns("must-fail"))
        with open(os.path.join(folder, path), encoding="utf-8") as file:
            text = file.read()
        for old, new in zip(texts[::2], texts[1::2]):
            if text.count(old) != 1:
                return f"{name}: its text stands {text.count(old)} times"
            text = text.replace(old, new)
        with open(os.path.join(folder, path), "w", encoding="utf-8") as file:
            file.write(text)
        words = [made.rtlib.RATTLE, "check", *words_of(crate, keeps=True), *INCREMENTAL]
        ran = subprocess.run(words, cwd=folder, stdin=subprocess.DEVNULL, stdout=subprocess.PIPE, stderr=subprocess.STDOUT, text=True, errors="replace", check=False)
    lines = ran.stdout.splitlines()
    # (of what calls it nothing is said)
    where = re.findall(r"^fn (\S+): (?:not proved|no proof)(?!: it calls)|^note: (\S+): it is not proved", ran.stdout, re.M)
    verdict = "REFUSED" if "logic=not-proved" in ran.stdout else "LET THROUGH" if "logic=proved" in ran.stdout else f"not compiled: {lines[-1:]}"
    return f"{name}: {verdict} {' '.join(dict.fromkeys(map(''.join, where)))}"


def main():
    reader = argparse.ArgumentParser(description=__doc__, formatter_class=argparse.RawDescriptionHelpFormatter)
    reader.add_argument("crate")
    reader.add_argument("--edits", nargs="*")
    words, flags = reader.parse_known_args()
    made = again.command() or sys.exit("check: the kit's command has another form than this one knows")
    crate, cited = opened(made, words.crate)
    for it in crate.below():
        state(made, it, cited)
    if words.edits is None:
        os.makedirs(os.path.join(crate.folder, "out"), exist_ok=True)
        return subprocess.run([made.rtlib.RATTLE, "check", *words_of(crate, flags=flags), *INCREMENTAL], cwd=crate.folder, stdin=subprocess.DEVNULL, check=False).returncode
    told = [tried(made, crate, name, paths[0], texts) for name, paths, texts in edits_in(os.path.join(TOP, "edits", f"{words.crate}.edits")) if not words.edits or name in words.edits]
    print(*told, sep="\n")
    return int(not all(": REFUSED" in it for it in told))


if __name__ == "__main__":
    sys.exit(main())
