"""What benches share: the sources of their programs, how these are built, and what a run takes."""
import contextlib
import json
import os
import re
import subprocess
import sys
import tempfile

TOP = os.path.dirname(os.path.dirname(os.path.dirname(os.path.dirname(os.path.realpath(__file__)))))
sys.path.insert(0, os.path.join(TOP, "tools", "dev", "gate"))

import tree  # noqa: E402

PROGRAMS = os.path.join(os.path.dirname(os.path.realpath(__file__)), "programs.txt")
REPLAY = os.path.join(TOP, "crates", "tier_replay", "out", "tier_replay")
ARCHIVE = os.path.join(TOP, "embed", "out", "libcache_tier.a")
PAGE = os.path.join(TOP, "docs", "performance.md")
# By how much a count may be away from the page's.
MOST = 0.03
# Memory is cleared and copied by instructions that count alike: callgrind counts each byte of `rep stosb` and `rep movsb`.
EVENLY = {"GLIBC_TUNABLES": "glibc.cpu.x86_rep_stosb_threshold=1000000000:glibc.cpu.x86_rep_movsb_threshold=1000000000"}


def text_of(*names):
    """The texts of these names in programs.txt, one after another."""
    with open(PROGRAMS, encoding="utf-8") as file:
        parts = re.split(r"(?m)^== (\S+)\n", file.read())
    return "\n".join(dict(zip(parts[1::2], parts[2::2]))[it] for it in names)


def write(path, text):
    os.makedirs(os.path.dirname(path), exist_ok=True)
    with open(path, "w", encoding="utf-8") as file:
        file.write(text)


@contextlib.contextmanager
def folder():
    """A folder that goes afterwards."""
    with tempfile.TemporaryDirectory(prefix="bench-") as room:
        yield room


def words_of(words):
    return [str(it) for it in words]


def timed(form, words, **how):
    """What GNU time says of a run by that form, as numbers: a child's greatest memory begins with that of the process that made it, so time stands between."""
    with tempfile.NamedTemporaryFile("r") as note:
        how = {"stdin": subprocess.DEVNULL, "stdout": subprocess.DEVNULL, **how}
        subprocess.run(["/usr/bin/time", "-f", form, "-o", note.name, *words_of(words)], check=True, **how)
        return [float(it) for it in note.read().splitlines()[-1].split()]


def seconds(words, runs=5):
    """The user time of a command in seconds, the best of so many runs."""
    return min(timed("%U", words)[0] for _ in range(runs))


def greatest(words, **how):
    """The greatest memory of a run in KiB."""
    return int(timed("%M", words, **how)[0])


def counted(words, *of_valgrind, **how):
    """The instructions of a command, as valgrind's callgrind counts them."""
    how = {"stdin": subprocess.DEVNULL, **how}
    command = ["valgrind", "--tool=callgrind", "--callgrind-out-file=/dev/null", *of_valgrind, *words_of(words)]
    said = subprocess.run(command, stdout=subprocess.DEVNULL, stderr=subprocess.PIPE, text=True, errors="replace", check=False, **how).stderr
    return int((re.search(r"Collected : (\d+)", said) or sys.exit(f"{' '.join(command)}: {said}"))[1])


def differ(bench, rows, page):
    """Says which counts are away from those of the page, each by its title; returns whether there is one."""
    away = [f"{title}: {now:,}, and the page says {page.get(title, 0):,}" for title, now in rows if abs(now - page.get(title, 0)) > MOST * max(page.get(title, 0), 1)]
    print(f"{bench}: {len(away)} counts are more than {MOST:.0%} away from the page's")
    print("".join(it + "\n" for it in away), end="")
    return bool(away)


def line(op, at=1000, **fields):
    """A line of a trace."""
    return json.dumps({"op": op, "at": at, **fields}, separators=(",", ":")) + "\n"


def counted_over(program, options, lines):
    """The instructions of a program that reads these lines."""
    with tempfile.TemporaryFile("w+b") as trace:
        trace.write("".join(lines).encode())
        trace.seek(0)
        return counted([program, *options.split()], stdin=trace)


def build(room, uses, text, given, *words):
    """The program of this text over these libraries: proved here, or with UNPROVED=1 built without proofs, or the one that was given."""
    if given:
        return os.path.realpath(given)
    of_all = tree.uses_of(TOP)
    below = set(uses.split()) & set(of_all)
    below |= set().union(*(tree.below(of_all, it) for it in below))
    tree.copy(TOP, os.path.join(room, "tree"), below.__contains__, False)
    top = os.path.join(room, "tree")
    write(os.path.join(top, "crates", "calls", "src", "main.rt"), text)
    with open(os.path.join(top, "crates.txt"), "a", encoding="utf-8") as file:
        file.write(f"calls: {uses}\n")
    made = os.path.join(top, "crates", "calls", "out", "calls")
    if os.environ.get("UNPROVED"):
        os.makedirs(os.path.dirname(made), exist_ok=True)
        command, at = [sys.executable, "tools/dev/build_unproved.py", "program", "calls", made], top
    else:
        command, at = ["rt", "run", "--", *words_of(words)], os.path.join(top, "crates", "calls")
    ran = subprocess.run(command, cwd=at, stdin=subprocess.DEVNULL, stdout=subprocess.PIPE, stderr=subprocess.STDOUT, text=True, errors="replace", check=False)
    if ran.returncode:
        said = [it for it in ran.stdout.splitlines() if ": proved" not in it]
        sys.exit("\n".join(said[-30:]))
    return made


def plain(room, *names):
    """The Rust program of these texts."""
    made = os.path.join(room, "plain")
    write(f"{made}.rs", text_of(*names))
    subprocess.run(["rustc", "-O", "-o", made, f"{made}.rs"], check=True)
    return made


def of_c(source, archive, made, *words):
    """A C program over the library."""
    command = ["gcc", "-O2", "-Wall", "-Wextra", f"-I{os.path.join(TOP, 'embed')}", source, os.path.realpath(archive), *words, "-o", made]
    subprocess.run(command, check=True)
    return made
