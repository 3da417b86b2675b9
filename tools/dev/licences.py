#!/usr/bin/env python3
"""Prints the licences of the toolchain's crates of which parts are in the programs and the library, each text once, and names the crates that
have none.

    licences.py TOOLCHAIN
"""
import os
import re
import sys

TOP = os.path.join(os.path.dirname(os.path.abspath(__file__)), "..", "..")
MADE = ("tier_replay", "tier_curve", "cache_tier_c")


def lines_of():
    with open(os.path.join(TOP, "crates.txt"), encoding="utf-8") as file:
        rows = [line.split(":") for line in file if ":" in line and not line.startswith("#")]
    return {name.split()[0]: uses.split() for name, uses in rows}


def below(kit):
    uses, found, left = lines_of(), set(), list(MADE)
    while left:
        it = left.pop()
        deps = uses.get(it)
        if deps is None:
            with open(f"{kit}/rlibs/{it}.rlib/format", encoding="utf-8") as file:
                deps = re.findall(r"^dep (\w+)$", file.read(), re.M)
            found.add(it)
        left += [dep for dep in deps if dep not in found]
    return sorted(found)


def main(kit):
    texts, without = {}, []
    for it in below(kit):
        names = sorted(name for name in os.listdir(f"{kit}/rattle/{it}") if name.startswith("LICENSE"))
        if not names:
            without.append(it)
        for name in names:
            with open(f"{kit}/rattle/{it}/{name}", encoding="utf-8") as file:
                texts.setdefault(file.read(), []).append(f"{it} ({name})")
    print("Parts of these crates of the toolchain are in the programs and the library, each under the licence below its name.")
    print("Without a licence text of their own:", ", ".join(without))
    for text, names in sorted(texts.items(), key=lambda it: it[1]):
        print(f"\n{'=' * 80}\n{', '.join(names)}\n\n{text}")


main(sys.argv[1])
