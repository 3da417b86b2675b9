"""The ledger, gate/PROVED: a line for each library and program, with the digest of all that its proof read and the moment when a run of the gate proved it.
Beside it gate/NAMED has the like of each crate whose named wrong bodies a run tried: its digest is over these too.

Only a run that proved the crate writes its line (gate.py --write-ledger). A line whose digest isn't that of the present text is none."""
import hashlib
import os
import re
import subprocess
import time

import tree

FILE, OF_NAMED = os.path.join("gate", "PROVED"), os.path.join("gate", "NAMED")
LINE = re.compile(r"(\w+) ([0-9a-f]{64}) (\d{4}-\d\d-\d\dT\d\d:\d\d)Z")
HEAD = "# The crates that runs of the gate {}: the digest of all that they read, and when. tools/dev/gate.py --write-ledger alone writes this file.\n"
WORDS = {FILE: "proved", OF_NAMED: "tried the named wrong bodies of"}
# What of a crate a proof reads.
PARTS = ("src", "specs", "proofs", "must-fail", "c")


def logic():
    """The logic of the kit, as `rt version` tells it: the rules that a proof is checked by, and the statements of the kit's libraries."""
    said = subprocess.run(["rt", "version"], stdin=subprocess.DEVNULL, stdout=subprocess.PIPE, text=True, check=True).stdout
    return said.partition(" logic ")[2].strip() or said.strip()


def files_of(top, name):
    """The files of a crate that its proof reads, by their paths in it."""
    folder = os.path.join(top, "crates", name)
    for part in PARTS:
        for at, folders, files in os.walk(os.path.join(folder, part)):
            folders.sort()
            for it in sorted(files):
                yield os.path.relpath(os.path.join(at, it), folder)


def read(path):
    try:
        with open(path, "rb") as file:
            return file.read()
    except OSError:
        return b""


def line_of(top, name):
    """The crate's line of crates.txt, without its comment."""
    with open(os.path.join(top, "crates.txt"), encoding="utf-8") as file:
        for line in file:
            line = line.partition("#")[0]
            if line.replace(":", " ").split()[:1] == [name]:
                return " ".join(line.split())
    return ""


def digests(top, names, of_kit):
    """By name of each of these crates the digest of all that its proof reads: its own texts, those of the crates below, what it may use, the kit's logic."""
    uses, found = tree.uses_of(top), {}

    def digest(name):
        if name not in found:
            made = hashlib.sha256(repr((of_kit, read(os.path.join(top, "HANDLES")), line_of(top, name))).encode())
            for path in files_of(top, name):
                made.update(repr((path, hashlib.sha256(read(os.path.join(top, "crates", name, path))).digest())).encode())
            # (texts, not lines of the ledger: what isn't proved below a crate changes nothing of what its own proof read)
            made.update(repr([(it, digest(it)) for it in sorted(set(uses[name])) if it in uses]).encode())
            found[name] = made.hexdigest()
        return found[name]

    return {name: digest(name) for name in names}


def named(top, wanted, names):
    """By name of each of these crates the digest of all that its named wrong bodies read."""
    # (without verdicts: what came out of an edit is nothing that it reads)
    files = {it: [re.sub(rb"(?m)^verdict: .*\n", b"", read(os.path.join(top, folder, f"{it}.edits"))) for folder in ("edits", "wrong-bodies")] for it in names}
    return {it: hashlib.sha256(repr((wanted[it], files[it])).encode()).hexdigest() for it in names if it in wanted}


def held(top, wanted, file=FILE):
    """The moments at which the crates were proved whose line has the wanted digest, by name."""
    text, found = read(os.path.join(top, file)).decode(errors="replace"), {}
    for line in text.splitlines():
        told = LINE.fullmatch(line)
        if told and wanted.get(told[1]) == told[2]:
            found[told[1]] = told[3]
    return found


def write(top, wanted, proved, name=FILE):
    """Writes the lines of the crates that this run proved, and keeps those of others that still fit."""
    lines = {**held(top, wanted, name), **dict.fromkeys(proved, time.strftime("%Y-%m-%dT%H:%M", time.gmtime()))}
    os.makedirs(os.path.join(top, os.path.dirname(name)), exist_ok=True)
    with open(os.path.join(top, name + ".new"), "w", encoding="utf-8") as file:
        file.write(HEAD.format(WORDS[name]))
        file.writelines(f"{it} {wanted[it]} {lines[it]}Z\n" for it in sorted(lines))
    os.replace(os.path.join(top, name + ".new"), os.path.join(top, name))
