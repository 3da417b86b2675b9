"""What the gate's proofs take, by crate and by kind."""
import os
import re
import subprocess
import sys
import tempfile
import threading
import time

from .common import TOP

sys.path.insert(0, os.path.join(TOP, "tools", "dev", "gate"))

import reckoning  # noqa: E402
import tree  # noqa: E402

KINDS = ("proofs", "tests", "edits", "runs")


def read(path):
    with open(path, "rb") as it:
        return it.read().decode(errors="replace")


def kind_of(words, folder):
    """What a process of these words does, and for which crate."""
    name = words[words.index("--crate-name") + 1] if "--crate-name" in words else ""
    if not name:
        return "runs", ""
    if "rt-edit" in folder:
        return "edits", name
    if "--test" in words or any(it.endswith("_tests.o") for it in words):
        return "tests", name if os.path.isdir(os.path.join(TOP, "crates", name)) else re.sub("_tests$", "", name)
    return ("runs" if "--crate-checked" in words else "proofs"), name


def below(root):
    """The processes that stand below one, with what the system says of each."""
    parents, stats = {}, {}
    for pid in filter(str.isdigit, os.listdir("/proc")):
        try:
            stat = read(f"/proc/{pid}/stat").rpartition(")")[2].split()
        except OSError:
            continue
        parents[int(pid)], stats[int(pid)] = int(stat[1]), stat
    ours, more = {root}, {root}
    while more:
        more = {pid for pid, parent in parents.items() if parent in ours} - ours
        ours |= more
    return {pid: stats[pid] for pid in ours & stats.keys()}


class Watch:
    """The processes of a run: their kinds, crates, ticks and greatest memory, read five times a second."""

    def __init__(self, root):
        self.root, self.seen = root, {}

    def sample(self):
        for pid, stat in below(self.root).items():
            key = pid, stat[19]
            try:
                # (its words are another program's until it has begun its own)
                if key not in self.seen or not self.seen[key][1] and self.seen[key][4] < 5:
                    words, tries = read(f"/proc/{pid}/cmdline").split("\0"), self.seen[key][4] + 1 if key in self.seen else 0
                    self.seen[key] = [*kind_of(words, os.readlink(f"/proc/{pid}/cwd")), 0, 0, tries]
                peak = re.search(r"VmHWM:\s+(\d+)", read(f"/proc/{pid}/status"))
            except OSError:
                continue
            self.seen[key][2] = int(stat[11]) + int(stat[12])
            self.seen[key][3] = max(self.seen[key][3], int(peak[1]) if peak else 0)

    def watch(self, runs):
        while runs():
            self.sample()
            time.sleep(0.2)

    def sums(self):
        """The minutes by crate and kind, and the greatest memory of each crate in gigabytes."""
        sums, peaks = {}, {}
        for kind, crate, ticks, peak, _ in self.seen.values():
            sums[crate, kind] = sums.get((crate, kind), 0) + ticks / os.sysconf("SC_CLK_TCK") / 60
            peaks[crate] = max(peaks.get(crate, 0), peak / 1e6)
        return sums, peaks


class Told:
    """What the gate said: the functions and the edits of each crate, and its last line."""

    def __init__(self):
        self.functions, self.edits, self.last, self.name = {}, {}, "", ""

    def take(self, line):
        self.last = line.strip() or self.last
        tries, begins = re.match(r"rt: (\S+): trying its must-fail edits \((\d+)\)", self.last), re.match(r"== (\S+?)(:.*)?$", self.last)
        proved = re.search(r"^logic=proved (?:tests=\d+ )?functions=(\d+)", self.last)
        if tries:
            self.edits[tries[1]] = int(tries[2])
        if begins:
            self.name = begins[1]
        if proved:
            self.functions[self.name] = max(self.functions.get(self.name, 0), int(proved[1]))


def show(watch, told, begun, speed):
    """Prints the table and its sums."""
    sums, peaks = watch.sums()
    print("| Crate | Functions | Edits | Proofs | Tests | Edits tried | Programs | Memory, GB |\n|---|---|---|---|---|---|---|---|")
    for crate in sorted({it for it, _ in sums} - {""}, key=lambda it: -sum(sums.get((it, k), 0) for k in KINDS)):
        row = " | ".join(f"{sums.get((crate, k), 0):.1f}" for k in KINDS)
        print(f"| `{crate}` | {told.functions.get(crate, 0)} | {told.edits.get(crate, 0)} | {row} | {peaks[crate]:.1f} |")
    whole = {k: sum(v for (_, it), v in sums.items() if it == k) for k in KINDS}
    functions, total, wall = sum(told.functions.values()), sum(whole.values()), (time.time() - begun) / 60
    lines = sum(reckoning.lines_of(TOP, it) for it in tree.uses_of(TOP))
    print(f"| all | {functions} | {sum(told.edits.values())} | " + " | ".join(f"{whole[k]:.1f}" for k in KINDS) + " | |")
    print(f"\nTotal: {wall:.0f} min on {os.cpu_count()} cores\n")
    print(f"{total:.0f} processor minutes, {total / max(1, functions):.2f} a function, {total / max(0.001, lines):.1f} for each thousand lines of source.")
    print(f"On {time.strftime('%Y-%m-%d')}; BLAKE2b over 256 MiB took {speed:.2f} s, the best of five; the run is {60 * total / speed:.0f} times that.")
    print(f"The gate's last line: {told.last}")


def gate_time(*words):
    """Runs rt ci in a copy without the crates of tests, which run unproved, and prints what it took. What it prints itself goes to LOG (gate.log without
    one). GATE=PROCESS watches a gate that runs already, under that number, and reads its LOG when it has ended. Times are processor minutes."""
    log, watched = next((it for it in words if it != "--write"), "gate.log"), int(os.environ.get("GATE", 0))
    told, speed, begun, status = Told(), reckoning.blake2b_seconds(), time.time(), 0
    if watched:
        watch = Watch(watched)
        watch.watch(lambda: os.path.isdir(f"/proc/{watched}") and read(f"/proc/{watched}/stat").rpartition(")")[2].split()[0] != "Z")
        for line in read(log).splitlines():
            told.take(line)
    else:
        with tempfile.TemporaryDirectory(prefix="gate-time-") as room, open(log, "w", encoding="utf-8") as out:
            place = os.path.join(room, "tree")
            tree.copy(TOP, place, lambda name: not tree.is_of_tests(name))
            gate = subprocess.Popen(["rt", "ci"], cwd=place, stdin=subprocess.DEVNULL, stdout=subprocess.PIPE, stderr=subprocess.STDOUT, text=True, errors="replace")
            watch = Watch(gate.pid)
            threading.Thread(target=watch.watch, args=(lambda: gate.poll() is None,), daemon=True).start()
            for line in gate.stdout:
                print(f"{(time.time() - begun) / 60:6.1f} {line}", end="", file=out, flush=True)
                told.take(line)
            status = gate.wait()
    show(watch, told, begun, speed)
    if "--write" in words and not status:
        sums, _ = watch.sums()
        reckoning.write(TOP, {name: [sums.get((name, kind), 0) * reckoning.REFERENCE / speed for kind in KINDS] for name, _ in sums if name})
    return status
