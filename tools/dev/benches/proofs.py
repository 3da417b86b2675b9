"""What the proofs of a crate take, by function."""
import glob
import os
import re
import shutil
import sys
import tempfile
from collections import Counter

from .common import TOP

sys.path.insert(0, os.path.join(TOP, "tools", "dev", "judge"))

import kit  # noqa: E402


def seconds_of(crate, kept, *more):
    """The processor seconds of a check, its exit status and what it said."""
    crate.seconds = 0
    status, said = kit.check(crate, {}, kept, *more)
    return crate.seconds, status, said


def forget(crate, kept, function):
    """Removes what is kept of a function's proof."""
    module = "-".join(["Rattle", crate.name, "proofs"]) + "." + ".".join(function.split("::")[1:]) + "."
    for path in glob.glob(os.path.join(glob.escape(kept), "*", glob.escape(module) + "*")):
        os.remove(path)


def dearest(*names):
    """A function's proof is checked by itself, as `rt check --only` does, over kept work of all else, and what an empty --only takes is taken off. It works
    on a copy of what the crate's own checks kept; the libraries below must have been built. A crate takes some five seconds a function and its proofs once
    more."""
    crates = kit.crates_of(TOP)
    for name in names:
        crate = crates.get(name) or sys.exit(f"there is no crate {name}")
        with tempfile.TemporaryDirectory() as room:
            kept = os.path.join(room, "incremental")
            if os.path.isdir(kit.kept_work(crate)):
                shutil.copytree(kit.kept_work(crate), kept)
            else:
                os.mkdir(kept)
            _, status, said = seconds_of(crate, kept)
            if status:
                sys.exit(f"{name} is not proved: {said.splitlines()[-1]}")
            empty = seconds_of(crate, kept, "--only", "")[0]
            costs = []
            for function in re.findall(r"^fn (\S+): proved", said, re.M):
                forget(crate, kept, function)
                taken, status, _ = seconds_of(crate, kept, "--only", function)
                # (drops and the like, which the prover writes, have no name for it)
                if not status:
                    costs.append((taken - empty, function.partition("::")[2]))
        of_ten = ", ".join(f"`{function}` {taken:.1f}" for taken, function in sorted(costs, reverse=True)[:10])
        print(f"{name}: {of_ten} ({len(costs)} functions; an empty check {empty:.1f})", flush=True)


# What the prover makes of a function, a module each: its steps, what ties them to the code, the layout of its types, its proof, and so on.
KINDS = ("Answers", "Code", "Given", "Goals", "Key", "Kinds", "Layout", "Link", "Lts", "Met", "Mir", "Named", "Proof", "Reads", "Statement", "Symbol", "TheLink", "Tie")


def modules_of(crate):
    """The kept modules of a crate, in the order in which they were written: the time, the name and the size of each."""
    found = []
    for at, _, names in os.walk(os.path.join(TOP, "crates", crate, "out", "incremental")):
        for name in names:
            if name.endswith(".oantt"):
                file = os.lstat(os.path.join(at, name))
                found.append((file.st_mtime_ns, name, file.st_size))
    return sorted(found)


def function_and_kind(crate, name):
    """The function of which a module is, and its kind."""
    path = re.sub(rf"^Rattle[-.]{crate}[-.]", "", name[: -len(".oantt")]).split(".")
    at = next((number for number, part in enumerate(path) if part in KINDS), len(path))
    kind = path[at] if at < len(path) else "other"
    return "::".join(part for part in path[:at] if part not in ("proofs", "specs", "contracts", "decls")), kind


def by_function(crate, rows=20):
    """Prints what a crate's proof took, by function and by kind of the prover's modules, in seconds of the clock and in megabytes:

        (cd crates/NAME && rm -rf out/incremental && rt check --jobs 1)
        python3 tools/dev/bench.py by-function NAME [ROWS]

    A check keeps each module that it proved as a file of out/incremental. With one job it writes them one after another, so a module took about the time
    since the one before it. That is a guide, not a measurement: checks beside it count too. The sizes of these files are the same on each machine, and
    grow as the prover's work does: compare changes by them. Unlike `dearest` it costs no further check."""
    modules = modules_of(crate)
    if not modules:
        sys.exit(f"nothing is kept of {crate}: check it first")
    functions, kinds, sizes, before = Counter(), Counter(), Counter(), modules[0][0]
    for at, name, size in modules:
        function, kind = function_and_kind(crate, name)
        functions[function, kind] += at - before
        kinds[kind] += at - before
        sizes[function, kind] += size
        before = at
    print(f"{crate}: {sum(kinds.values()) / 1e9:.0f} s, {len(modules)} modules of {sum(sizes.values()) / 1e6:.0f} MB")
    print("seconds by kind: " + ", ".join(f"{kind} {took / 1e9:.0f}" for kind, took in kinds.most_common(8)))
    for (function, kind), took in functions.most_common(int(rows)):
        print(f"{took / 1e9:8.1f} s {sizes[function, kind] / 1e6:6.1f} MB  {kind:9} {function}")
