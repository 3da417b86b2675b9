#!/usr/bin/env python3
"""Replays the traces of traces/restarts.traces by tier-replay over a real directory, and compares what is written, the exit status and
what is left in the directory. With the path of a binary it runs that one, else the one that the last run of the gate or of rt run left.

A trace names the files of the directory before it and after it. Traces whose names differ in the last letter alone, as a restart-1a and its restart-1b,
follow one another over one directory."""

import os
import subprocess
import sys
import tempfile

import traces

TOP = os.path.join(os.path.dirname(os.path.abspath(__file__)), "..", "..")
failures = []


def built():
    program = os.path.join(TOP, "crates", "tier_replay", "out", "tier_replay")
    if not os.access(program, os.X_OK):
        words = ["rt", "run", "--", "--limit", "1"]
        subprocess.run(words, cwd=os.path.join(TOP, "crates", "tier_replay"), stdin=subprocess.DEVNULL, stdout=subprocess.DEVNULL, check=True)
    return program


def held(folder):
    found = {}
    for name in os.listdir(folder):
        with open(os.path.join(folder, name), "rb") as it:
            found[name] = it.read()
    return found


def same(what, got, want):
    if got != want:
        failures.append(what)
        print(f"{what}: {got!r} and not {want!r}")


def replay(program, words, folder, trace):
    ran = subprocess.run([program, *words, "--recency", folder], input=trace, stdout=subprocess.PIPE, stderr=subprocess.PIPE)
    return ran.returncode, ran.stdout


def unloaded(program, place):
    """A shard's file that is there and can't be loaded is named on standard error with the reason, and replaced: one that is too long to be
    read, and one whose bytes are none of a save's. A folder in a shard's place is named, and stays."""
    folder = os.path.join(place, "unloaded")
    words = [program, "--limit", "1", "--shards", "4", "--recency", folder]
    subprocess.run(words, stdin=subprocess.DEVNULL, stdout=subprocess.DEVNULL, check=True)
    os.truncate(os.path.join(folder, "lru.data.0"), 2**34 + 1)
    os.remove(os.path.join(folder, "lru.data.1"))
    os.mkdir(os.path.join(folder, "lru.data.1"))
    with open(os.path.join(folder, "lru.data.3"), "wb") as it:
        it.write(b"garbage")
    ran = subprocess.run(words, stdin=subprocess.DEVNULL, stdout=subprocess.PIPE, stderr=subprocess.PIPE)
    told = [
        b"[WARN  tier_replay] shard 0 was not loaded: Read of its file failed",
        b"[WARN  tier_replay] shard 1 was not loaded: Open of its file failed",
        b"[WARN  tier_replay] shard 3 was not loaded: a value of another kind",
    ]
    same("shards that can't be loaded, on standard error", ran.stderr.splitlines(), told)
    lines = ran.stdout.splitlines()
    same("the lines of that run", (ran.returncode, lines[0], lines[-1]), (0, b"recency loaded=1 missing=0 errored=3", b"recency saved=3 failed=1"))
    sizes = [os.path.getsize(os.path.join(folder, f"lru.data.{at}")) for at in (0, 2, 3)]
    same("the files that were replaced", sizes, [1, 1, 1])


def restart(program, trace, place):
    """Runs a trace over its series' directory, which the first of them fills."""
    name = os.path.basename(trace.name)
    folder = os.path.join(place, name[:-1] if name[-1].isalpha() else name)
    if not os.path.isdir(folder):
        os.mkdir(folder)
        for file, data in trace.before.items():
            with open(os.path.join(folder, file), "wb") as it:
                it.write(data)
    same(f"{name}, the directory before", held(folder), trace.before)
    status, text = replay(program, trace.words, folder, trace.lines)
    same(f"{name}, what is written", text, trace.answers)
    same(f"{name}, the exit status", status, 0)
    same(f"{name}, the directory after", held(folder), trace.after)


def others(program, place):
    """A directory that isn't there yet is made; a file in its place can't be one, and nothing is saved."""
    report = b"report found=0 absent=0 bodies=0 bytes=0 meta=0 tracked=0 weight=0 evicted=0\n"
    new = os.path.join(place, "new")
    made = b"recency loaded=0 missing=4 errored=0\n" + report + b"recency saved=4 failed=0\n"
    same("a new directory", replay(program, ["--limit", "1", "--shards", "4"], new, b""), (0, made))
    same("a new directory's files", held(new), {f"lru.data.{at}": b"\x90" for at in range(4)})
    again = b"recency loaded=4 missing=0 errored=0\n" + report + b"recency saved=4 failed=0\n"
    same("that directory again", replay(program, ["--limit", "1", "--shards", "4"], new, b""), (0, again))
    file = os.path.join(new, "lru.data.0")
    status, text = replay(program, ["--limit", "1", "--shards", "4"], file, b"")
    same("a file in its place", (status, text.splitlines()[-1]), (1, b"recency saved=0 failed=4"))


def main():
    program = os.path.abspath(sys.argv[1]) if len(sys.argv) > 1 else built()
    with tempfile.TemporaryDirectory() as place:
        restarts = traces.restarts()
        for it in restarts:
            restart(program, it, place)
        others(program, place)
        unloaded(program, place)
    print(f"restarts: {len(restarts)} traces, {len(failures)} differences")
    sys.exit(bool(failures) or not restarts)


main()
