#!/usr/bin/env python3
"""Makes the archive over the libraries that a whole `rt ci` of this checkout left in crates/NAME/out/rlib.

    archive.py                      crates/cache_tier_c/out/libcache_tier_c.a
    archive.py --cpu x86-64-v3      the same for that processor, in out/x86-64-v3, by the proof that the first one has just made

`rt lib` takes no library that `rt ci` proved, and would prove each once more. This proves cache_tier_c alone. Only a run that
comes right after `rt ci`, over the same text, may use it.
"""
import os
import shutil
import subprocess
import sys

TOP = os.path.dirname(os.path.dirname(os.path.realpath(__file__)))
CRATE = "cache_tier_c"


def lines_of():
    """Returns the names of a crate's libraries, by its name."""
    with open(f"{TOP}/crates.txt", encoding="utf-8") as file:
        rows = [line.split(":") for line in file if ":" in line and not line.startswith("#")]
    return {name.split()[0]: deps.split() for name, deps in rows}


def below(name, uses):
    """Returns the crates of this repository below one."""
    found, left = {}, [name]
    while left:
        for it in uses[left.pop()]:
            if it in uses and it not in found:
                found[it] = f"{TOP}/crates/{it}/out/rlib/{it}.rlib"
                left.append(it)
    return found


def main(asked):
    if asked and (len(asked) != 2 or asked[0] != "--cpu"):
        sys.exit(__doc__.strip())
    kit = os.path.dirname(os.path.dirname(os.path.realpath(shutil.which("rt"))))
    uses = lines_of()
    own = below(CRATE, uses)
    lacking = sorted(it for it, folder in own.items() if not os.path.isdir(folder))
    if lacking:
        sys.exit(f"archive: no library of {', '.join(lacking)}: run rt ci first")
    words = [f"{kit}/bin/rattle", "build", "--crate-name", CRATE, "src/lib.rt", "--crate-type", "staticlib"]
    words += ["--extern", f"std={kit}/rlibs/std.rlib", "-L", f"dependency={kit}/rlibs"]
    for it in uses[CRATE]:
        words += ["--extern", f"{it}={own.get(it, f'{kit}/rlibs/{it}.rlib')}"]
    for folder in own.values():
        words += ["-L", f"dependency={os.path.dirname(folder)}"]
    words += ["--antt-project", f"{kit}/rattle/logic/antt-project.json", "--logic-built", f"{kit}/logic_built"]
    made = os.path.join("out", *asked[1:])
    words += ["--links", f"{CRATE}=", "--jobs", "2", "--toolchain", f"{kit}/toolchain", "--incremental", "out/archive", *asked, "-o", f"{made}/lib{CRATE}.a"]
    if not asked:  # what an earlier text left there
        shutil.rmtree(f"{TOP}/crates/{CRATE}/out/archive", ignore_errors=True)
    os.makedirs(f"{TOP}/crates/{CRATE}/{made}", exist_ok=True)
    sys.exit(subprocess.run(words, cwd=f"{TOP}/crates/{CRATE}", check=False).returncode)


if __name__ == "__main__":
    main(sys.argv[1:])
