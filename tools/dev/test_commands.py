#!/usr/bin/env python3
"""Runs the commands of the tutorials that need no compiler, one page after the other, as a reader does in the folder of a release, and compares what
they write with the block that follows.

    tools/dev/test_commands.py FOLDER

A block that is set in by four blanks is commands; a fenced one behind it is what they write. The blocks of a page run in one shell, in a folder of
their own that has the release's, so that nothing is left behind."""
import os
import subprocess
import sys
import tempfile

from test_blocks import blocks_of

PAGES = ("docs/tutorials/size-a-cache.md", "docs/tutorials/replay-a-trace.md")
END = "\001\n"  # what no command writes


def lines(text):
    return [it.rstrip() for it in text.rstrip("\n").split("\n")]


def steps_of(text):
    """The commands of a page, each with the line it stands at and what they write: none where no block says it."""
    blocks, steps = blocks_of(text), []
    fenced = {number for number, line in enumerate(text.split("\n"), 1) if line.startswith("```")}
    for (line, _, block), behind in zip(blocks, [*blocks[1:], None]):
        if line not in fenced:
            steps.append((line, block, behind[2] if behind and behind[0] in fenced else None))
    return steps


def tried(folder, page):
    """What is wrong with a page."""
    with open(os.path.join(folder, page), encoding="utf-8") as file:
        steps = steps_of(file.read())
    if not any(wanted for _, _, wanted in steps):
        yield f"{page}: no block says what a command writes"
    script = "".join(f"{commands}\nprintf '\\001\\n'\n" for _, commands, _ in steps)
    with tempfile.TemporaryDirectory(prefix="commands-") as room:
        for name in os.listdir(folder):
            os.symlink(os.path.realpath(os.path.join(folder, name)), f"{room}/{name}")
        ran = subprocess.run(["sh", "-e", "-c", script], cwd=room, stdin=subprocess.DEVNULL, stdout=subprocess.PIPE, stderr=subprocess.PIPE, check=False)
    wrote = ran.stdout.decode(errors="replace").split(END)[:-1]
    if len(wrote) < len(steps):
        yield f"{page}:{steps[len(wrote)][0]}: it ended with {ran.returncode}: {ran.stderr.decode(errors='replace')[-300:]}"
    for (line, _, wanted), said in zip(steps, wrote):
        if wanted is not None and lines(wanted) != lines(said):
            yield f"{page}:{line}: it writes\n{said}"


def main(words):
    if len(words) != 1 or not os.path.isdir(words[0]):
        print(__doc__, file=sys.stderr)
        return 2
    faults = [fault for page in PAGES for fault in tried(words[0], page)]
    print("\n".join([*faults, f"commands of {len(PAGES)} pages: {len(faults)} faults"]))
    return int(bool(faults))


if __name__ == "__main__":
    sys.exit(main(sys.argv[1:]))
