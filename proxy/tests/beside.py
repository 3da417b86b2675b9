#!/usr/bin/env python3
"""Measures hits of nijpdra-proxy, which NIJPDRA_PROXY names, beside nginx with proxy_cache and Varnish, those that are installed, in one run in which they take
turns: system calls a hit (strace), requests and microseconds of processor time a hit at 32 connections for 10 KB and 1 MB (wrk, one thread), and memory of a
connection that is kept: `proxy/tests/beside.py [ROUNDS [SECONDS]]`. Instructions are cost.py's. Nothing here is a test."""

import contextlib
import os
import re
import resource
import shutil
import signal
import socket
import statistics
import subprocess
import sys
import tempfile
import time

sys.path.insert(0, os.path.dirname(os.path.abspath(__file__)))

import cost  # noqa: E402
from places import PROXY, Origin, fresh, free_port  # noqa: E402

BODIES = {"/10k": b"x" * 10240, "/1m": b"x" * (1 << 20)}
CONNECTIONS, HELD = 32, 2000
TICK = os.sysconf("SC_CLK_TCK")
NAMES = {"own": PROXY, "nginx": "nginx", "varnish": "varnishd"}


def words_of(name, room, port, origin):
    """How one is started, with one thread that serves, where it can be told so."""
    if name == "varnish":
        os.chmod(room, 0o755)
        return ["varnishd", "-F", "-n", f"{room}/varnish", "-a", f"127.0.0.1:{port}", "-b", f"127.0.0.1:{origin}", "-s", "malloc,256m", "-t", "3600"]
    file = os.path.join(room, "configuration")
    with open(file, "w", encoding="utf-8") as it:
        text = cost.NGINX.replace("512", "8192") if name == "nginx" else cost.OWN + "[limits]\nconnections_by_client = 8192\n"
        it.write(text.format(room=room, port=port, origin=origin, admin=free_port()))
    return [NAMES[name], *(["-c"] if name == "nginx" else []), file]


def family(pid):
    """A process and those below it."""
    with contextlib.suppress(OSError), open(f"/proc/{pid}/task/{pid}/children", encoding="ascii") as file:
        return [pid, *(it for child in file.read().split() for it in family(int(child)))]
    return [pid]


def processor(pid):
    """Seconds of user and kernel that a family took."""
    took = 0
    for it in family(pid):
        with contextlib.suppress(OSError), open(f"/proc/{it}/stat", encoding="ascii") as file:
            took += sum(int(word) for word in file.read().rpartition(")")[2].split()[11:13])
    return took / TICK


def memory(pid):
    """Bytes of a family in memory that it shares with nobody."""
    held = 0
    for it in family(pid):
        with contextlib.suppress(OSError), open(f"/proc/{it}/smaps_rollup", encoding="ascii") as file:
            held += sum(int(line.split()[1]) << 10 for line in file if line.startswith(("Private_Clean", "Private_Dirty")))
    return held


def ask(at, path):
    at.sendall(f"GET {path} HTTP/1.1\r\nHost: h.example\r\n\r\n".encode())
    got = b""
    while b"\r\n\r\n" not in got or len(got) - got.index(b"\r\n\r\n") - 4 < len(BODIES[path]):
        more = at.recv(1 << 17)
        if not more:
            raise OSError("the connection was closed")
        got += more


@contextlib.contextmanager
def running(name, before=()):
    """One that serves what it has stored: its process and port."""
    origin, port = Origin(), free_port()
    origin.answers = lambda head: fresh(BODIES[head.split()[1].decode()], "Content-Type: text/html\r\n")
    with tempfile.TemporaryDirectory(prefix="beside-") as room:
        with subprocess.Popen([*before, *words_of(name, room, port, origin.port)], stdout=subprocess.DEVNULL, stderr=subprocess.DEVNULL) as run:
            try:
                for left in reversed(range(300)):
                    try:
                        with socket.create_connection(("127.0.0.1", port), 30) as at:
                            for path in BODIES:
                                ask(at, path), ask(at, path)
                        break
                    except OSError:
                        time.sleep(0.1)
                        if not left:
                            raise
                yield run.pid, port
            finally:
                # (strace keeps such signals off)
                os.kill(family(run.pid)[1 if before else 0], signal.SIGTERM)
                run.wait(60)


def calls(name):
    """System calls a hit, of one connection."""
    counted = []
    for count in (100, 1100):
        with tempfile.NamedTemporaryFile() as told:
            with running(name, ["strace", "-f", "-c", "-o", told.name]) as (_, port), socket.create_connection(("127.0.0.1", port), 30) as at:
                for _ in range(count):
                    ask(at, "/10k")
            counted.append({line.split()[-1]: int(line.split()[3]) for line in told.read().decode().splitlines() if re.match(r"\s*\d+\.\d\d", line) and "total" not in line})
    more = {it: (count - counted[0].get(it, 0)) / 1000 for it, count in counted[1].items()}
    return sorted(((count, it) for it, count in more.items() if count > 0.05), reverse=True)


def served(name, path, seconds):
    """Requests a second, and microseconds of processor time a request."""
    with running(name) as (pid, port):
        before = processor(pid)
        words = ["wrk", "-t1", f"-c{CONNECTIONS}", f"-d{seconds}", "-H", "Host: h.example", f"http://127.0.0.1:{port}{path}"]
        told = subprocess.run(words, stdout=subprocess.PIPE, text=True, check=True).stdout
        requests = int(re.search(r"(\d+) requests in", told)[1])
        return float(re.search(r"Requests/sec:\s+([\d.]+)", told)[1]), (processor(pid) - before) * 1e6 / requests


def held(name):
    """Bytes of memory a connection that was served and is kept."""
    with running(name) as (pid, port), contextlib.ExitStack() as stack:
        before = memory(pid)
        for _ in range(HELD):
            ask(stack.enter_context(socket.create_connection(("127.0.0.1", port), 30)), "/10k")
        return (memory(pid) - before) / HELD


def main(words):
    rounds, seconds = ([int(it) for it in words] + [5, 4])[:2] if len(words) == 2 else (int(words[0]) if words else 5, 4)
    resource.setrlimit(resource.RLIMIT_NOFILE, (resource.getrlimit(resource.RLIMIT_NOFILE)[1],) * 2)
    names = [name for name, program in NAMES.items() if shutil.which(program)]
    for name in names:
        print(f"{name}: {', '.join(f'{count:.2f} {it}' for count, it in calls(name))} a hit", flush=True)
        print(f"{name}: {held(name):.0f} bytes a kept connection", flush=True)
    for path in BODIES:
        all_ = {name: [] for name in names}
        for _ in range(rounds):
            for name in names:
                all_[name].append(served(name, path, seconds))
        for name, of in all_.items():
            rate, cpu = (statistics.median(it[at] for it in of) for at in (0, 1))
            print(f"{path} {name}: {rate:.0f} requests a second, {cpu:.1f} us of processor time a request (medians of {rounds})", flush=True)
    print(f"load {os.getloadavg()[0]:.1f}, {os.cpu_count()} processors")


if __name__ == "__main__":
    main(sys.argv[1:])
