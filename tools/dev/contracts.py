#!/usr/bin/env python3
"""Lists the public functions of all crates that have no clause on what they return or leave.

usage: tools/dev/contracts.py [CRATE..]

A public function is a `pub fn`, or a method that a `pub trait` declares. One without `ensures` is a failure, unless tools/dev/contracts.list
has a line for it: CRATE NAME REASON.., where NAME is the function with its type, as `Lru::len`. The reason is in words, or the names of
wrong bodies that tests refuse, of wrong-bodies/, each with a + before it. A line that no function needs is a failure too.

It reads the layout of `rt fmt`, and takes a second. The exit status is 1 where one fails.
"""
import os
import re
import sys

sys.dont_write_bytecode = True
TOP = os.path.dirname(os.path.dirname(os.path.dirname(os.path.realpath(__file__))))
LIST = os.path.join(TOP, "tools", "dev", "contracts.list")
sys.path.insert(0, os.path.join(TOP, "tools", "dev", "judge"))

import record  # noqa: E402

BODIES = {(crate, name) for crate, name, _, _ in record.let_through(TOP)}
HEAD = re.compile(r"^( *)(pub )?(?:const )?fn (\w+)")
BLOCK = re.compile(r"^(pub )?(impl|trait)\b")


def name_of_block(text):
    """The type of an `impl`, or the name of a trait, by the text before its brace: without its parameters and bounds."""
    text = re.sub(r"\bwhere\b.*", "", text)
    while re.search(r"<[^<>]*>", text.replace("->", "  ")):
        text = re.sub(r"<[^<>]*>", "", text.replace("->", "  "))
    words = re.findall(r"\w+", text.split(" for ")[-1].split(":")[0])
    return words[-1] if words else ""


def functions(path):
    """Gives of each public function of a file its name, with that of its type, and whether it has an `ensures`."""
    with open(path, encoding="utf-8") as it:
        lines = it.read().split("\n")
    block, is_trait, is_for = "", False, False
    at = 0
    while at < len(lines):
        line = lines[at]
        if BLOCK.match(line):
            head = line
            while "{" not in lines[at].split("//")[0] and at + 1 < len(lines):
                at += 1
                head += " " + lines[at].strip()
            head = head.split("{")[0]
            block, is_trait, is_for = name_of_block(head), head.startswith("pub trait"), " for " in head and "trait" not in head.split()[:2]
        elif line == "}":
            block, is_trait, is_for = "", False, False
        found = HEAD.match(line)
        if found and not is_for and (found.group(2) or (is_trait and len(found.group(1)) == 4)):
            indent, first = found.group(1), at
            while not re.match(rf"^{indent}(.*;|.*\{{\}}?)$", lines[at]) and at + 1 < len(lines):
                at += 1
            clauses = [it for it in lines[first : at + 1] if re.match(r"^ *ensures\b", it)]
            yield (block + "::" if block else "") + found.group(3), bool(clauses)
        at += 1


def sources_of(crate):
    for folder, _, files in sorted(os.walk(os.path.join(TOP, "crates", crate, "src"))):
        for file in sorted(files):
            if file.endswith(".rt"):
                yield os.path.join(folder, file)


def crates():
    """The libraries of crates.txt; programs and crates of tests have no callers."""
    with open(os.path.join(TOP, "crates.txt"), encoding="utf-8") as it:
        names = [line.split(":")[0].split()[0] for line in it if line.strip() and not line.startswith("#")]
    return sorted(it for it in names if not it.startswith("test_") and os.path.exists(os.path.join(TOP, "crates", it, "src", "lib.rt")))


def excepted():
    """Gives of each line of the list its crate, its function and its reason."""
    with open(LIST, encoding="utf-8") as it:
        for line in it:
            if line.strip() and not line.startswith("#"):
                crate, name, *reason = line.split()
                yield crate, name, reason


def unfit(crate, reason):
    """What is wrong with a reason, in words."""
    if not reason:
        yield "has no reason"
    for word in reason:
        if word.startswith("+") and (crate, word[1:]) not in BODIES:
            yield f"names no wrong body of this crate: {word[1:]}"


def main():
    asked = set(sys.argv[1:])
    bare = {(crate, name) for crate in crates() for path in sources_of(crate) for name, has in functions(path) if not has}
    lines = list(excepted())
    known = {(crate, name) for crate, name, _ in lines}
    wrong = [f"{crate} {name} has no ensures" for crate, name in sorted(bare - known)]
    wrong += [f"{crate} {name} needs no line of tools/dev/contracts.list" for crate, name in sorted(known - bare)]
    wrong += [f"{crate} {name} {what}" for crate, name, reason in lines for what in unfit(crate, reason)]
    wrong = [it for it in wrong if not asked or it.split()[0] in asked]
    for it in wrong:
        print(f"contracts: {it}")
    print(f"contracts: {len(bare & known)} public functions without a clause are shown by tests, {len(wrong)} lines are wrong")
    sys.exit(bool(wrong))


main()
