"""The record of verdicts: in `edits/CRATE.edits`, under the heading of each edit, a line `verdict: ` with a digest and its verdict.

The digest is of the edit's text and of all files of its crate's src and specs but for their comments, so a line is old once one of these
changes.
"""
import hashlib
import os
import threading
from collections import namedtuple

from sources import edits_in, read
from verdicts import WELL

# An edit's crate and name, its text, and the digest by which its line of the record is told old.
Entry = namedtuple("Entry", "crate name text digest")
WRITING = threading.Lock()
# What begins the line of an edit that says what came out, and the lines of a wrong body that say what shows it.
VERDICT, TEST = "verdict: ", "test: "


def file_of(root, crate):
    """The file of a crate's edits, whether it is there or not."""
    return os.path.join(root, "edits", crate + ".edits")


def read_edits(root, crate):
    """The texts of a crate's edits by name, without their verdicts, and what is wrong with their file, in words."""
    path = file_of(root, crate)
    return edits_in(without_verdicts(read(path))) if os.path.isfile(path) else ({}, [])


def without_verdicts(text):
    """A file of edits as who wrote them left it."""
    return "".join(it for it in text.splitlines(keepends=True) if not it.startswith(VERDICT))


def with_verdicts(text, verdicts):
    """The same with these verdicts by name, each under its heading."""
    lines = without_verdicts(text).splitlines(keepends=True)
    told = {f"== {name}\n": f"{VERDICT}{' '.join(verdict)}\n" for name, verdict in verdicts.items()}
    return "".join(it + told.get(it, "") for it in lines)


def wrong_bodies(root):
    """The wrong bodies of wrong-bodies/CRATE.edits: of each the crate, the name, the text of its edit (empty where it is that of edits/CRATE.edits),
    and the words of each thing that shows it."""
    folder = os.path.join(root, "wrong-bodies")
    for file in sorted(os.listdir(folder)):
        for name, text in edits_in(read(os.path.join(folder, file)))[0].items():
            lines = text.splitlines()
            tests = [it[len(TEST) :].split() for it in lines if it.startswith(TEST)]
            yield file[: -len(".edits")], name, "\n".join(it for it in lines if not it.startswith(TEST)), tests


def named(root):
    """The names by crate of the named wrong bodies: edits of edits/CRATE.edits, of which wrong-bodies/CRATE.edits says what shows them."""
    found = {}
    for crate, name, edit, _ in wrong_bodies(root):
        if not edit:
            found.setdefault(crate, set()).add(name)
    return found


def let_through(root):
    """The wrong bodies that no contract refuses: those that have an edit of their own."""
    return (it for it in wrong_bodies(root) if it[2])


def entries_of(root, crate):
    """The edits of a crate by name."""
    below = digest_of_crate(crate.folder)
    return {
        name: Entry(crate.name, name, text, hashlib.blake2b(below + text.encode(), digest_size=16).hexdigest())
        for name, text in read_edits(root, crate.name)[0].items()
    }


def strays(root, crates):
    """What lies among the edits and is none that a run tries, in words."""
    found = []
    for folder in ("edits", "wrong-bodies"):
        for name in sorted(os.listdir(os.path.join(root, folder))):
            if name not in {crate + ".edits" for crate in crates}:
                found.append(f"{folder}/{name}: a file has the name of a crate and ends in .edits")
            else:
                found += [f"{folder}/{name}: {it}" for it in edits_in(read(os.path.join(root, folder, name)))[1]]
    for crate, name, edit, tests in wrong_bodies(root):
        if not tests:
            found.append(f"wrong-bodies/{crate}.edits: {name}: nothing shows it")
        if not edit and name not in read_edits(root, crate)[0]:
            found.append(f"wrong-bodies/{crate}.edits: {name}: it has no edit, and edits/{crate}.edits has none of the name")
    return found


def without_comments(data):
    """A file's lines without those that are empty or a comment alone, by which nothing is proved."""
    marks = (b"//", b"--")
    return b"\n".join(line for line in data.split(b"\n") if line.strip() and not line.strip().startswith(marks))


def digest_of_crate(folder):
    """A digest of all files of a crate's src and specs with their paths, in the order of the paths, without their comments."""
    made, paths = hashlib.blake2b(digest_size=16), []
    for part in ("src", "specs"):
        for at, _, names in os.walk(os.path.join(folder, part)):
            paths += [os.path.relpath(os.path.join(at, name), folder) for name in names]
    for path in sorted(paths):
        with open(os.path.join(folder, path), "rb") as it:
            data = without_comments(it.read())
        made.update(f"{path}\0{len(data)}\0".encode() + data)
    return made.digest()


class Record:
    """The verdicts by crate and edit."""

    def __init__(self, root):
        self.folder, self.lines = os.path.join(root, "edits"), {}
        for crate in self.crates():
            name = ""
            for line in read(self.path(crate)).splitlines():
                name = line[len("== ") :] if line.startswith("== ") else name
                if line.startswith(VERDICT):
                    digest, verdict = line[len(VERDICT) :].split(" ", 1)
                    self.lines[crate, name] = digest, verdict

    def crates(self):
        """The crates that have a file."""
        return sorted(it[: -len(".edits")] for it in os.listdir(self.folder) if it.endswith(".edits"))

    def path(self, crate):
        """A crate's file."""
        return os.path.join(self.folder, crate + ".edits")

    def holds(self, entry):
        """Whether the record has a verdict on the edit in its present form: it was refused, over a proof by hand at least."""
        return self.verdict(entry) in WELL

    def verdict(self, entry):
        """The verdict on the edit in its present form, or None."""
        digest, verdict = self.lines.get((entry.crate, entry.name), (None, None))
        return verdict if digest == entry.digest else None

    def note(self, entries, verdicts):
        """Takes in the verdicts on a crate's edits, by their names."""
        with WRITING:
            for name, (verdict, _) in verdicts.items():
                entry = entries[name]
                self.lines[entry.crate, name] = entry.digest, verdict

    def write(self):
        """Puts the verdicts into the files, each at once. One that stays as it was isn't touched."""
        with WRITING:
            for crate in self.crates():
                its = {name: verdict for (of, name), verdict in self.lines.items() if of == crate}
                text = read(self.path(crate))
                self.replace(self.path(crate), text, with_verdicts(text, its))

    @staticmethod
    def replace(path, was, text):
        if text != was:
            with open(path + ".new", "w", encoding="utf-8") as it:
                it.write(text)
            os.replace(path + ".new", path)
