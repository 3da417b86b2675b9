"""The crates of the repository: which there are, which are of tests, what stands below each, and copies of the tree that list some of them."""
import os
import shutil

# A crate of tests has a name that begins so. Whatever tells tests from libraries and programs asks here.
BEGINNING = "test_"

# What a run makes, and no copy takes.
MADE = shutil.ignore_patterns(".git", "out", "__pycache__")


def is_of_tests(name):
    """Whether a crate has tests alone, on which nothing stands."""
    return name.startswith(BEGINNING)


def uses_of(top):
    """The libraries that each crate names in crates.txt, by the crate's name; those of the kit are among them."""
    with open(os.path.join(top, "crates.txt"), encoding="utf-8") as file:
        rows = [line.partition("#")[0].partition(":") for line in file]
    return {name.split()[0]: uses.replace(",", " ").split() for name, _, uses in rows if name.split()}


def below(uses, name):
    """The crates of the repository that stand below one."""
    found, left = set(), [name]
    while left:
        for it in uses[left.pop()]:
            if it in uses and it not in found:
                found.add(it)
                left.append(it)
    return found


def copy(top, room, is_listed, with_edits=True):
    """Copies the tree into a folder that isn't there yet: its crates.txt lists those crates alone, and only their folders are there. The edits of
    must-fail are left out where they aren't wanted."""
    shutil.copytree(top, room, symlinks=True, ignore=MADE)
    list_crates(top, room, is_listed, with_edits)


def clear(room):
    """Removes what was made of each crate in a copy of the tree."""
    for name in os.listdir(os.path.join(room, "crates")):
        shutil.rmtree(os.path.join(room, "crates", name, "out"), ignore_errors=True)


def list_crates(top, room, is_listed, with_edits):
    """Lists those crates in a copy of the tree, which is made if it isn't there. What their folders there hold besides, as what was made, stays."""
    if not os.path.isdir(room):
        shutil.copytree(top, room, symlinks=True, ignore=MADE)
    with open(os.path.join(top, "crates.txt"), encoding="utf-8") as file:
        lines = file.readlines()
    with open(os.path.join(room, "crates.txt"), "w", encoding="utf-8") as file:
        for line in lines:
            words = line.partition("#")[0].replace(":", " ").split()
            if not words or is_listed(words[0]):
                file.write(line)
    for name in os.listdir(os.path.join(top, "crates")):
        folder, its = os.path.join(room, "crates", name), os.path.join(top, "crates", name)
        if not is_listed(name):
            shutil.rmtree(folder, ignore_errors=True)
        elif not os.path.isdir(folder):
            shutil.copytree(its, folder, symlinks=True, ignore=MADE)
        edits = os.path.join(folder, "must-fail")
        if not with_edits:
            shutil.rmtree(edits, ignore_errors=True)
        elif is_listed(name) and os.path.isdir(os.path.join(its, "must-fail")) and not os.path.isdir(edits):
            shutil.copytree(os.path.join(its, "must-fail"), edits, symlinks=True)
