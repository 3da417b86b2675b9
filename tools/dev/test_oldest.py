#!/usr/bin/env python3
"""Runs the README's lines that need Python alone by the oldest Python that the README names. Where that isn't found, that is said, and nothing is run;
lint.py has at least parsed all files as it would."""
import glob
import os
import re
import shlex
import shutil
import subprocess
import sys
import tempfile

sys.dont_write_bytecode = True
TOP = os.path.dirname(os.path.dirname(os.path.dirname(os.path.realpath(__file__))))
RESPONSE = b"HTTP/1.1 200 OK\r\nCache-Control: max-age=60\r\n\r\nhi"
# What stands in the README for what a reader has, and what makes a line of a minute one of seconds.
INSTEAD = (("access.log.gz", "examples/logs/combined.log.gz"), ("test_promise.py", "test_promise.py --traces 1"))


def starts(python):
    """Whether that Python runs: a command of pyenv's may stand for one that isn't chosen."""
    return subprocess.run([python, "-c", ""], stdin=subprocess.DEVNULL, stderr=subprocess.DEVNULL, check=False).returncode == 0


def oldest(readme):
    """The version that the README names, and the command of that Python, or None."""
    version = re.search(r"Python (3\.\d+) or later", readme)[1]
    kept = glob.glob(os.path.expanduser(f"~/.pyenv/versions/{version}.*/bin/python{version}"))
    return version, next((it for it in (shutil.which(f"python{version}"), *sorted(kept)) if it and starts(it)), None)


def lines_of(readme):
    """Its commands that need Python alone, without their comments."""
    block = re.search(r"^These need Python alone.*?\n\n((?:    .*\n)+)", readme, re.M)[1]
    return [it.split("  #")[0].strip() for it in block.splitlines()]


def runs(python, line, out):
    """Whether a line ends well by that Python."""
    for word, instead in INSTEAD:
        line = line.replace(word, instead)
    line, _, given = line.rpartition("| ")[2].partition(" < ")
    words = [python, "-B", *shlex.split(line)[1:]]
    if words[2].endswith("plan.py"):
        # (by the plain lists, which need Python alone too)
        lists = os.path.join(TOP, "tools", "reference", "plain_planner.py")
        words += ["--output-prefix", os.path.join(out, "curve"), "--curve-program", shlex.join([python, lists])]
    data = RESPONSE
    if given:
        with open(os.path.join(TOP, given), "rb") as it:
            data = it.read()
    ran = subprocess.run(words, cwd=TOP, input=data, stdout=subprocess.PIPE, stderr=subprocess.STDOUT, check=False)
    if ran.returncode:
        print(f"{line}: exit status {ran.returncode}\n{ran.stdout.decode(errors='replace')[-1000:]}")
    return not ran.returncode


def main():
    with open(os.path.join(TOP, "README.md"), encoding="utf-8") as it:
        readme = it.read()
    version, python = oldest(readme)
    lines = lines_of(readme)
    if python is None:
        print(f"passed over, since Python {version} isn't there: the README's {len(lines)} lines that need Python alone")
        return 0
    with tempfile.TemporaryDirectory() as out:
        failed = [it for it in lines if not runs(python, it, out)]
    print(f"the README's lines by Python {version}: {len(lines)}, {len(failed)} fail")
    return int(bool(failed) or not lines)


if __name__ == "__main__":
    sys.exit(main())
