#!/usr/bin/env python3
"""The traces of the repository, traces/*.traces: each with its options, its lines, and what tier-replay must write for them.

    traces.py                           the names of all, each with its options
    traces.py NAME                      the lines of one, as given/take-all-is-a-get, to be piped into a program
    traces.py --answers NAME            what must be written for them

A file has its traces one after another:

    == NAME WORDS..        a trace's name, and the words of its options
    {"op":"open", ..}      a line
    > opened               what is written for it; the last of these is the report
    hex 7b7dff             a line that isn't plain text, or would be read as another of these, in hex; an empty one is `hex` alone
    before lru.data.0 90   a file of the directory before a restart, in hex
    after lru.data.0 90    and after it
    \\ No newline at end of file

The last of these stands after a trace whose last line has no end. Empty lines between traces are passed over. A trace's full name has the file's before it:
given/NAME of given.traces. Those of restarts.traces run over a directory; test_recency.py says how.
"""
import glob
import os
import sys
from typing import Dict, List, NamedTuple

FOLDER = os.path.join(os.path.dirname(os.path.abspath(__file__)), "..", "..", "traces")
RESTARTS = "restarts"
MARKS = (b"== ", b"> ", b"hex", b"before ", b"after ", b"\\")
UNENDED = b"\\ No newline at end of file"


class Wrong(Exception):
    """A file of traces isn't written as it must be."""


class Stored(NamedTuple):
    """A trace: its full name, the words of its options, its bytes, what must be written, and the files before and after by name."""

    name: str
    words: List[str]
    lines: bytes
    answers: bytes
    before: Dict[str, bytes]
    after: Dict[str, bytes]


def taken(made, line):
    """Adds a line of the file to the trace that it belongs to."""
    lines, answers, files = made
    if line.startswith(b"> "):
        answers.append(line[2:] + b"\n")
    elif line == UNENDED:
        lines[-1] = lines[-1][:-1]
    elif line == b"hex" or line.startswith(b"hex "):
        lines.append(bytes.fromhex(line[4:].decode("ascii")) + b"\n")
    elif line.startswith((b"before ", b"after ")):
        when, file, *data = line.decode("ascii").split(" ")
        files[when][file] = bytes.fromhex("".join(data))
    else:
        lines.append(line + b"\n")


def read(path):
    """The traces of a file, in its order."""
    folder, found = os.path.basename(path)[: -len(".traces")], []
    with open(path, "rb") as it:
        rows = it.read().split(b"\n")
    for number, row in enumerate(rows, 1):
        try:
            if row.startswith(b"== "):
                name, *words = row[3:].decode("ascii").split()
                if any(it[0] == f"{folder}/{name}" for it in found):
                    raise ValueError(f"there are two of the name {name}")
                made = [], [], {"before": {}, "after": {}}
                found.append((f"{folder}/{name}", words, made))
            elif row:
                taken(found[-1][2], row)
        except (ValueError, IndexError) as why:
            raise Wrong(f"traces/{folder}.traces:{number}: {why}") from why
    return [Stored(name, words, b"".join(lines), b"".join(answers), **files) for name, words, (lines, answers, files) in found]


def restarts():
    """The traces that start from a directory's files and save into it."""
    return read(os.path.join(FOLDER, RESTARTS + ".traces"))


def stored():
    """All others."""
    paths = sorted(glob.glob(os.path.join(FOLDER, "*.traces")))
    return [trace for path in paths if os.path.basename(path) != RESTARTS + ".traces" for trace in read(path)]


def main(words):
    every = {it.name: it for it in (*stored(), *restarts())}
    if not words:
        for name, it in every.items():
            print(name, *it.words)
        return 0
    if len(words) > 2 or words[-1] not in every or words[:-1] not in ([], ["--answers"]):
        print(__doc__.strip(), file=sys.stderr)
        return 2
    it = every[words[-1]]
    sys.stdout.buffer.write(it.lines if len(words) == 1 else it.answers)
    return 0


if __name__ == "__main__":
    sys.exit(main(sys.argv[1:]))
