#!/usr/bin/env python3
"""Lints the scripts: shellcheck over those of the shell (warnings and errors), pyflakes over those of Python (`# noqa` excepts a line), mypy over the
planner. Each file of Python is parsed as the oldest Python reads it that the README names. A tool that isn't installed is passed over by name; Debian
has all three: apt-get install shellcheck pyflakes3 mypy."""
import ast
import os
import shutil
import subprocess
import sys

TOP = os.path.dirname(os.path.dirname(os.path.dirname(os.path.realpath(__file__))))
PLACES = ("tools", "embed", "python", "examples", "release", "rust", "scripts", ".ci")
MADE = {"out", "target", "build", "__pycache__"}
OLDEST = (3, 10)


def files():
    """The files of the folders that have scripts, without what is made."""
    for place in PLACES:
        for at, folders, names in os.walk(os.path.join(TOP, place)):
            folders[:] = sorted(set(folders) - MADE)
            yield from (os.path.relpath(os.path.join(at, it), TOP) for it in sorted(names))


def first_line(path):
    """A file's first bytes, which tell a script without an ending."""
    with open(os.path.join(TOP, path), "rb") as it:
        return it.read(20).split(b"\n")[0]


def tool(*names):
    """The first of these commands that is installed."""
    return next((it for it in names if shutil.which(it)), None)


def ran(words, folder=TOP):
    return subprocess.run(words, cwd=folder, stdin=subprocess.DEVNULL, check=False).returncode == 0


def unused(command, paths):
    """Whether pyflakes finds nothing, but in lines that say why they stand by `noqa`."""
    ran = subprocess.run([command, *paths], cwd=TOP, stdin=subprocess.DEVNULL, stdout=subprocess.PIPE, stderr=subprocess.STDOUT, text=True, check=False)
    found = []
    for told in ran.stdout.splitlines():
        path, number = (told.split(":") + [""])[:2]
        line = lines_of(path)[int(number) - 1] if path in paths and number.isdigit() else ""
        found += [] if "# noqa" in line else [told]
    print("".join(it + "\n" for it in found), end="")
    return not found


def lines_of(path):
    with open(os.path.join(TOP, path), encoding="utf-8") as it:
        return it.read().splitlines()


def parsed(paths):
    """Whether the oldest Python reads each file."""
    is_well = True
    for path in paths:
        with open(os.path.join(TOP, path), encoding="utf-8") as it:
            try:
                ast.parse(it.read(), path, feature_version=OLDEST)
            except SyntaxError as why:
                is_well = False
                print(f"{path}:{why.lineno}: {why.msg}, by Python {OLDEST[0]}.{OLDEST[1]}")
    return is_well


def main():
    every = list(files())
    shell = [it for it in every if it.endswith(".sh") or ("." not in os.path.basename(it) and first_line(it) == b"#!/bin/sh")]
    python = [it for it in every if it.endswith(".py")]
    steps = (
        ("shellcheck", tool("shellcheck"), lambda it: ran([it, "--severity=warning", *shell])),
        ("pyflakes", tool("pyflakes3", "pyflakes"), lambda it: unused(it, python)),
        ("mypy", tool("mypy"), lambda it: ran([it, "--no-error-summary"], os.path.join(TOP, "tools", "planner"))),
    )
    failed = [] if parsed(python) else ["the syntax of Python"]
    for name, command, step in steps:
        if command is None:
            print(f"passed over, since {name} isn't there")
        elif not step(command):
            failed.append(name)
    print(f"lint: {len(shell)} scripts of the shell, {len(python)} of Python: " + (f"FAILED by {', '.join(failed)}" if failed else "passed"))
    return int(bool(failed))


if __name__ == "__main__":
    sys.exit(main())
