#!/usr/bin/env python3
"""Runs the commands of docs/tutorials/a-caching-proxy-in-front-of-my-site.md from its second step on, on other ports, with the program that NIJPDRA_PROXY
names: they write what the page says, but for ages and lengths of a server's own pages."""

import os
import re
import subprocess
import sys
import tempfile

TOP = os.path.dirname(os.path.dirname(os.path.dirname(os.path.abspath(__file__))))
sys.path[:0] = [os.path.join(TOP, "tools", "dev"), os.path.dirname(os.path.abspath(__file__))]

import test_blocks  # noqa: E402
from places import PROXY, free_port  # noqa: E402

PAGE = os.path.join(TOP, "docs", "tutorials", "a-caching-proxy-in-front-of-my-site.md")
SECOND_STEP = "## 2. "


def plain(text):
    """The text without what differs from run to run."""
    text = re.sub(r"(?m)^(Age: |Cache-Status: .*ttl=)\d+", r"\1N", text)
    return [it.rstrip() for it in re.sub(r'(" 404) \d+', r"\1 N", text).strip("\n").split("\n")]


def main():
    with open(PAGE, encoding="utf-8") as file:
        text = SECOND_STEP + file.read().partition(SECOND_STEP)[2]
    site, listen, admin = (str(free_port()) for _ in range(3))
    # (without --listen it would be the usual port)
    text = text.replace("--origin http://127.0.0.1:8080 2>", f"--origin http://127.0.0.1:8080 --listen 127.0.0.1:{listen} 2>")
    text = text.replace("8080", site).replace("8000", listen).replace("9180", admin)
    blocks = test_blocks.blocks_of(text)
    fenced = {number for number, line in enumerate(text.split("\n"), 1) if line.startswith("```")}
    script = "\n".join(it for line, _, it in blocks if line not in fenced)
    wanted = "\n".join(it for line, _, it in blocks if line in fenced)
    path = os.path.dirname(os.path.abspath(PROXY)) + os.pathsep + os.environ["PATH"]
    with tempfile.TemporaryDirectory(prefix="tutorial-") as room:
        os.symlink(os.path.abspath(PROXY), os.path.join(room, "nijpdra-proxy"))
        ran = subprocess.run(["sh", "-c", script], cwd=room, env={**os.environ, "PATH": room + os.pathsep + path}, stdin=subprocess.DEVNULL, stdout=subprocess.PIPE, timeout=120, check=False)
    wrote = ran.stdout.decode(errors="replace")
    if plain(wrote) != plain(wanted):
        print(f"{os.path.basename(PAGE)}: its commands write\n{wrote}")
        return 1
    print(f"{os.path.basename(PAGE)}: its commands write what it says")
    return 0


if __name__ == "__main__":
    if not PROXY:
        sys.exit("NIJPDRA_PROXY names no program")
    sys.exit(main())
