#!/usr/bin/env python3
"""The steps of the gate, as docs/gate.md has them: each script of tools/dev/gate/steps.py with the first sentence of its own text.

    gate_page.py --write    puts them into the page
    gate_page.py --check    fails where the page has others
"""
import os
import re
import sys

TOP = os.path.dirname(os.path.dirname(os.path.dirname(os.path.realpath(__file__))))
PAGE = "docs/gate.md"
BLOCK = re.compile(r"(<!-- steps_(\w+) -->\n\n)(.*?)(\n\n<!-- end -->)", re.S)
sys.path.insert(0, os.path.join(TOP, "tools", "dev", "gate"))

import steps  # noqa: E402

BY_BLOCK = {"first": (*steps.FIRST, *steps.WARNS), "after": (*steps.AFTER, *steps.WHOLE, steps.TRIES_NAMED, steps.RELEASE)}


def sentence(path):
    """The first sentence of a script's text."""
    with open(os.path.join(TOP, path), encoding="utf-8") as file:
        text = file.read().split("\n", 1)[1]
    if text.startswith('"""'):
        words = text[3:].split('"""')[0].split("\n\n")[0]
    else:
        words = "\n".join(it[2:] for it in re.match(r"(?:# ?\S.*\n)+", text)[0].splitlines())
    words = " ".join(words.split())
    return re.match(r"(.*?[.:])(?= [A-Z`]|$)", words)[1].rstrip(".:")


def row(words):
    """A step as it is called, without what runs it, and what it says of itself."""
    at = next(at for at, it in enumerate(words) if "/" in it and it.endswith((".py", ".sh")))
    return f"| `{' '.join(words[at:])}` | {sentence(words[at]).replace('|', chr(92) + '|')} |"


def main(words):
    if words not in (["--write"], ["--check"]):
        print(__doc__.strip(), file=sys.stderr)
        return 2
    with open(os.path.join(TOP, PAGE), encoding="utf-8") as file:
        page = file.read()
    faults = [f"{PAGE}: it has no place for steps_{it}" for it in BY_BLOCK if f"<!-- steps_{it} -->" not in page]
    text = BLOCK.sub(lambda it: it[1] + "\n".join(["| Step | What it does |", "|---|---|", *map(row, BY_BLOCK[it[2]])]) + it[4], page)
    if words == ["--write"]:
        with open(os.path.join(TOP, PAGE), "w", encoding="utf-8") as file:
            file.write(text)
    elif text != page:
        faults.append(f"{PAGE} has other steps than tools/dev/gate/steps.py: run tools/dev/gate_page.py --write")
    print("\n".join(faults) or f"{PAGE}: {sum(map(len, BY_BLOCK.values()))} steps in their scripts' own words")
    return int(bool(faults))


if __name__ == "__main__":
    sys.exit(main(sys.argv[1:]))
