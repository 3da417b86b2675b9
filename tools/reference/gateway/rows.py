#!/usr/bin/env python3
"""Rows worked by hand: each a short history of a new gateway, with what it answers. `rows.py` prints them, `rows.py --check` compares them with rows.txt,
which was read and found right; `rows.py NAME ..` prints those whose name begins so."""

import os
import sys

from . import gateway, rows_attack, rows_plain, rows_standard  # noqa: F401
from .cases import Case
from .rows_of import ROWS
from .values import Limits


def told(names, module=gateway):
    lines = []
    for of, limits in ROWS:
        if not names or any(of.__name__.startswith(it) for it in names):
            of(Case(f"{of.__name__}. {of.__doc__}", Limits(**{k: v for k, v in limits.items() if k != "options"}), lines.append, module, limits.get("options")))
    return "\n".join(lines) + "\n"


def differs(module=gateway):
    """The first line that isn't as it was read; none: the rows hold."""
    with open(os.path.join(os.path.dirname(os.path.abspath(__file__)), "rows.txt"), encoding="utf-8") as file:
        wanted = file.read().splitlines()
    got = told([], module).splitlines()
    for number, (is_now, was) in enumerate(zip(got, wanted), 1):
        if is_now != was:
            return f"rows.txt:{number}\n  was {was}\n  is  {is_now}"
    return "" if len(got) == len(wanted) else f"rows.txt has {len(wanted)} lines, and there are {len(got)}"


def main(given):
    if given != ["--check"]:
        print(told(given), end="")
        return 0
    is_wrong = differs()
    print(is_wrong or f"{len(ROWS)} rows hold")
    return int(bool(is_wrong))


if __name__ == "__main__":
    sys.exit(main(sys.argv[1:]))
