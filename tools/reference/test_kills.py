#!/usr/bin/env python3
"""Kills tier-replay at each of its system calls while it loads an order of use, answers and saves it, and looks at what is left: each
shard's file is as it was before the run or as a whole run leaves it, and a later run loads all of them. With the path of a binary it runs
that one, else the one that the last run of the gate or of rt run left; one that was built without proofs serves too.

A kill is SIGKILL at the beginning or at the end of a call, by ptrace (Linux on x86-64). At least 600 runs are killed."""

import collections
import ctypes
import json
import os
import re
import shutil
import signal
import subprocess
import sys
import tempfile

TOP = os.path.join(os.path.dirname(os.path.abspath(__file__)), "..", "..")
LEAST = 600
TRACEME, SYSCALL, SETOPTIONS = 0, 24, 0x4200
EXITKILL = 0x100000
TEMPORARY = re.compile(r"lru\.data\.[0-9]+\..*\.tmp")
libc = ctypes.CDLL(None, use_errno=True)
libc.ptrace.argtypes = [ctypes.c_long, ctypes.c_long, ctypes.c_void_p, ctypes.c_void_p]
libc.ptrace.restype = ctypes.c_long


def built():
    program = os.path.join(TOP, "crates", "tier_replay", "out", "tier_replay")
    if not os.access(program, os.X_OK):
        sys.exit("test-kills: run the gate first, or name a binary")
    return program


def trace(first, count, length):
    """Puts of so many keys, the first of which has this number, with bodies of one length."""
    head = f"HTTP/1.1 200 OK\r\nCache-Control: max-age=60\r\nContent-Length: {length}\r\n\r\n".encode()
    lines = (
        json.dumps({"op": "put", "at": 1000 + it, "key": f"/{it}".encode().hex(), "pieces": [(head + b"x" * length).hex()]})
        for it in range(first, first + count)
    )
    return "".join(f"{it}\n" for it in lines).encode()


def held(folder):
    found = {}
    for name in sorted(os.listdir(folder)) if os.path.isdir(folder) else []:
        with open(os.path.join(folder, name), "rb") as it:
            found[name] = it.read()
    return found


def run(words, text):
    ran = subprocess.run(words, input=text, stdout=subprocess.PIPE, stderr=subprocess.PIPE)
    if ran.returncode:
        sys.exit(f"test-kills: {words}: exit status {ran.returncode}: {ran.stderr.decode(errors='replace')}")
    return ran.stdout.decode()


def killed(words, file, stop):
    """Runs the program over this input, and kills it at its stop of that number. Returns whether it came so far."""
    child = os.fork()
    if child == 0:
        try:
            os.dup2(os.open(file, os.O_RDONLY), 0)
            null = os.open(os.devnull, os.O_WRONLY)
            os.dup2(null, 1)
            os.dup2(null, 2)
            if libc.ptrace(TRACEME, 0, None, None) == 0:
                os.execv(words[0], words)
        finally:
            os._exit(126)
    _, status = os.waitpid(child, 0)
    if not os.WIFSTOPPED(status):
        sys.exit("test-kills: this system lets no process be traced")
    libc.ptrace(SETOPTIONS, child, None, EXITKILL)
    for _ in range(stop):
        if libc.ptrace(SYSCALL, child, None, None) != 0:
            sys.exit(f"test-kills: ptrace: {os.strerror(ctypes.get_errno())}")
        _, status = os.waitpid(child, 0)
        if not os.WIFSTOPPED(status):
            if not os.WIFEXITED(status) or os.WEXITSTATUS(status):
                sys.exit(f"test-kills: the run under the trace ended by {status}")
            return False
    os.kill(child, signal.SIGKILL)
    _, status = os.waitpid(child, 0)
    if not os.WIFSIGNALED(status):
        sys.exit(f"test-kills: the run was not killed: {status}")
    return True


def faults(words, folder, before, after, shards):
    """What is wrong in the folder after a kill, and how many shards' files are old, new and absent."""
    found, wrong, seen = held(folder), [], collections.Counter()
    for at in range(shards):
        name = f"lru.data.{at}"
        data = found.pop(name, None)
        if data is not None and data == after[name] and data != before.get(name):
            seen["new"] += 1
        elif data == before.get(name):
            seen["absent" if data is None else "old"] += 1
        else:
            wrong.append(f"{name} is torn")
    seen["temporary"] += len(found)
    wrong += [f"{name} is nobody's" for name in found if not TEMPORARY.fullmatch(name)]
    first = run(words, b"").splitlines()[0]
    if first != f"recency loaded={seen['old'] + seen['new']} missing={seen['absent']} errored=0":
        wrong.append(f"a later run says {first!r}")
    if any(TEMPORARY.fullmatch(name) for name in held(folder)):
        wrong.append("a later run leaves a temporary file")
    return wrong, seen


def case(program, place, what, shards, first, second):
    """All kills of a run over the second trace, in a folder that a run over the first has left, if there is one."""
    base, folder = os.path.join(place, "base"), os.path.join(place, "folder")
    words = [program, "--limit", "100000000", "--shards", str(shards), "--recency", folder]
    for it in (base, folder):
        shutil.rmtree(it, ignore_errors=True)
    if first is not None:
        run(words, first)
        shutil.copytree(folder, base)
    before = held(base)
    run(words, second)
    after = held(folder)
    if len(after) != shards or any(after[name] == before.get(name) for name in after):
        sys.exit(f"test-kills: {what}: a whole run doesn't change each shard's file")
    file = os.path.join(place, "trace")
    with open(file, "wb") as it:
        it.write(second)
    kills, bad, seen = 0, 0, collections.Counter()
    while True:
        shutil.rmtree(folder, ignore_errors=True)
        if first is not None:
            shutil.copytree(base, folder)
        if not killed(words, file, kills + 1):
            break
        kills += 1
        wrong, more = faults(words, folder, before, after, shards)
        seen += more
        bad += bool(wrong)
        for it in wrong:
            print(f"{what}, killed at stop {kills}: {it}")
    told = ", ".join(f"{seen[it]} {it}" for it in ("old", "new", "absent", "temporary"))
    print(f"{what}: {kills} kills; files {told}; {bad} wrong", flush=True)
    if not seen["new"] or not seen["temporary"] or not seen["old"] + seen["absent"]:
        sys.exit(f"test-kills: {what}: the kills don't cover the save")
    return kills, bad


def main():
    program = os.path.abspath(sys.argv[1]) if len(sys.argv) > 1 else built()
    total = bad = 0
    with tempfile.TemporaryDirectory() as place:
        for what, shards, first, second in [
            ("sixteen shards, saved again", 16, trace(0, 200, 10), trace(200, 200, 10)),
            ("four shards, in a new folder", 4, None, trace(0, 60, 10)),
            ("one shard of 3,000 rows, saved again", 1, trace(0, 3000, 1), trace(3000, 500, 1)),
        ]:
            kills, wrong = case(program, place, what, shards, first, second)
            total += kills
            bad += wrong
    print(f"kills: {total}, {bad} that left something torn")
    if total < LEAST:
        sys.exit(f"test-kills: fewer than {LEAST} kills")
    sys.exit(bool(bad))


main()
