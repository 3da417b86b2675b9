#!/usr/bin/env python3
"""Counts the lines of code, specification and proof, by towers of crates: lines that are neither empty nor a comment alone.

    sizes.py            prints the table
    sizes.py --write    puts it into docs/artifact.md
    sizes.py --check    fails where the table there is another one

Of src/ a line of a contract (requires, ensures, ghost, invariant, with the lines that go on within its braces) counts as specification, and
so do specs/. Proof is proofs/. Crates of tests are counted by themselves. Each crate of crates.txt belongs to the first tower that takes its name.
"""
import glob
import os
import re
import sys

TOP = os.path.join(os.path.dirname(os.path.abspath(__file__)), "..", "..")
PAGE = os.path.join(TOP, "docs", "artifact.md")
TABLE = re.compile(r"(<!-- sizes -->\n\n)(.*?)(\n\n<!-- end -->)", re.S)
TOWERS = (
    ("heads, words", r"head_|cache_words|cache_heads|cache_entries|cache_changes"),
    ("lists, order of use, files", r"lru_|pingora_lru|cache_evict|seeded_hashing"),
    ("store, lock, requests", r"store_|cache_store|cache_lock|request_|pingora_cache"),
    ("tier", r"tier_(?!replay|curve|calls)|cache_tier$"),
    ("traces, C", r"trace_|tier_replay|tier_calls|cache_tier_c"),
    ("curves", r"curve_|tier_curve"),
    ("HTTP's rules, gateway", r"rules_|http1_|structured_fields|gateway"),
    ("tests, examples", r"test_|example_"),
)
CLAUSE = re.compile(r"\s*(requires|ensures|ghost|invariant)\b")


def lines(path, comment):
    with open(path, encoding="utf-8") as file:
        return [it for it in file.read().splitlines() if it.strip() and not it.lstrip().startswith(comment)]


def of_source(path):
    """The lines of code and those of contracts."""
    code = clauses = depth = 0
    for it in lines(path, "//"):
        if depth > 0 or CLAUSE.match(it):
            clauses += 1
            depth += it.count("{") - it.count("}")
        else:
            code += 1
    return code, clauses


def of_crate(name):
    code = clauses = 0
    for path in glob.glob(f"{TOP}/crates/{name}/src/**/*.rt", recursive=True):
        more = of_source(path)
        code, clauses = code + more[0], clauses + more[1]
    texts = [sum(len(lines(it, "--")) for it in glob.glob(f"{TOP}/crates/{name}/{part}/**/*.antt", recursive=True)) for part in ("specs", "proofs")]
    return code, clauses, *texts


def crates():
    """The crates of crates.txt, by name."""
    with open(f"{TOP}/crates.txt", encoding="utf-8") as file:
        return sorted(re.findall(r"^(\w+)", file.read(), re.M))


def by_tower(names):
    """The crates of each tower."""
    found = {tower: [] for tower, _ in TOWERS}
    for name in names:
        tower = next((tower for tower, pattern in TOWERS if re.match(pattern, name)), None)
        if tower is None:
            sys.exit(f"sizes: no tower takes the crate {name}: add it to TOWERS of tools/dev/sizes.py")
        found[tower].append(name)
    return found


def table():
    rows = []
    for tower, own in by_tower(crates()).items():
        sums = [sum(column) for column in zip(*map(of_crate, own))] or [0] * 4
        rows.append((tower, len(own), *sums))
    rows.append(("all but tests and examples", *(sum(column) for column in zip(*(row[1:] for row in rows[:-1])))))
    out = ["| Crates | Number | Code | Clauses | `specs/` | `proofs/` | Lines of proof for a line of code |", "|---|---|---|---|---|---|---|"]
    for tower, number, code, clauses, specs, proofs in rows:
        out.append(f"| {tower} | {number} | {code:,} | {clauses:,} | {specs:,} | {proofs:,} | {proofs / max(code, 1):.1f} |")
    return "\n".join(out)


def page():
    """The page, and the table in it."""
    with open(PAGE, encoding="utf-8") as file:
        text = file.read()
    found = TABLE.search(text)
    if not found:
        sys.exit("sizes: docs/artifact.md has no place for the table")
    return text, found[2]


def main(words):
    if words == ["--write"]:
        text, made = page()[0], table()
        with open(PAGE, "w", encoding="utf-8") as file:
            file.write(TABLE.sub(lambda it: it[1] + made + it[3], text))
    elif words == ["--check"]:
        has, made = page()[1].splitlines(), table().splitlines()
        if has != made:
            print(*(f"- {it}" for it in has if it not in made), *(f"+ {it}" for it in made if it not in has), sep="\n")
            sys.exit("sizes: the table in docs/artifact.md is another one: run tools/dev/sizes.py --write")
    elif words:
        sys.exit(__doc__.strip())
    else:
        print(table())


if __name__ == "__main__":
    main(sys.argv[1:])
