"""How long the gate takes on this host: its speed, its processors and its memory, and minutes.txt, which has the processor minutes of each crate.

tools/dev/bench.py gate-time --write makes that file anew. Its minutes are those of a host on which Python's BLAKE2b takes 0.40 s for 256 MiB."""
import glob
import hashlib
import heapq
import os
import re
import time

import tree

FILE = os.path.join(os.path.dirname(os.path.realpath(__file__)), "minutes.txt")
REFERENCE = 0.40
KINDS = ("proofs", "tests", "edits", "programs")
# A check may take as much memory; rt reckons with three times what these crates take.
CHECK_NEEDS = 5_000_000_000
# What is reckoned is too little by so much, as lanes may share a core: 80 minutes were seen of four lanes where 75 were reckoned.
SHARED = 1.06
# The minutes of a library's statements alone: of each, and for each minute of its proof, as measured on eight of the lists, words and curves.
STATED = (0.25, 0.15)
# The programs, and the library for C, that the steps after the proofs take, and the minutes of one that is built without a proof.
NEEDED = ("tier_replay", "tier_curve", "rules_replay", "gateway_replay", "cache_tier_c")
UNBUILT = 1.7
# Where a control group bounds processors and memory, in its two versions.
QUOTAS = (("cpu.max", r"^(\d+)", "cpu.max", r"\d (\d+)"), ("cpu/cpu.cfs_quota_us", r"^(\d+)", "cpu/cpu.cfs_period_us", r"^(\d+)"))
LIMITS = (("memory.max", "memory.stat", r"anon (\d+)"), ("memory/memory.limit_in_bytes", "memory/memory.stat", r"total_rss (\d+)"))


def blake2b_seconds():
    """The seconds that BLAKE2b takes for 256 MiB, the best of five."""
    data, best = bytes(1 << 20), None
    for _ in range(5):
        made, before = hashlib.blake2b(), time.process_time()
        for _ in range(256):
            made.update(data)
        taken = time.process_time() - before
        best = taken if best is None else min(best, taken)
    return best


def number_in(path, pattern):
    """The number that a file of the system's has there, or None."""
    try:
        with open(path, encoding="ascii", errors="replace") as file:
            found = re.search(pattern, file.read(), re.M)
    except OSError:
        return None
    return int(found[1]) if found else None


def processors():
    """How many processors this process may use."""
    found = len(os.sched_getaffinity(0))
    for quota, its, period, of in QUOTAS:
        given, each = number_in(f"/sys/fs/cgroup/{quota}", its), number_in(f"/sys/fs/cgroup/{period}", of)
        if given and each:
            found = min(found, max(given // each, 1))
    return found


def free_memory():
    """The free memory in bytes, under a control group's bound too."""
    found = 1024 * (number_in("/proc/meminfo", r"MemAvailable:\s+(\d+)") or 0)
    for limit, held, pattern in LIMITS:
        bound, has = number_in(f"/sys/fs/cgroup/{limit}", r"^(\d+)"), number_in(f"/sys/fs/cgroup/{held}", pattern)
        if bound and has is not None:
            found = min(found, bound - has)
    return found


def lanes():
    """How many checks go side by side: RT_JOBS, or one a processor, as far as there is memory for each."""
    asked = os.environ.get("RT_JOBS", "")
    if asked.isdigit() and int(asked):
        return int(asked)
    return max(1, min(processors(), free_memory() // CHECK_NEEDS))


def rows():
    """What minutes.txt has: the minutes of each kind by the name of the crate, and those of a thousand lines of any other crate."""
    found = {}
    with open(FILE, encoding="ascii") as file:
        for line in file:
            name, *minutes = line.partition("#")[0].split() or [""]
            if name:
                found[name] = dict(zip(KINDS, map(float, minutes)))
    return found


def lines_of(top, name):
    """The lines of a crate's code, in thousands."""
    count = 0
    for path in glob.glob(os.path.join(glob.escape(top), "crates", name, "src", "**", "*.rt"), recursive=True):
        with open(path, "rb") as file:
            count += file.read().count(b"\n")
    return count / 1000


def minutes_of(top, names, of_edits=True):
    """The processor minutes of each of these crates on the reference host, by name and kind; edits of must-fail count where they are there and wanted."""
    known, found = rows(), {}
    for name in names:
        row = known.get(name)
        if row is None:
            row = {kind: each * lines_of(top, name) for kind, each in known["tests*" if tree.is_of_tests(name) else "others*"].items()}
        has_edits = of_edits and os.path.isdir(os.path.join(top, "crates", name, "must-fail"))
        found[name] = {**row, "edits": row["edits"] if has_edits else 0.0}
    return found


def write(top, minutes):
    """Writes minutes.txt: the minutes of each crate in the order of KINDS, and from their sums those of a thousand lines of any other crate."""
    known, head = rows(), []
    with open(FILE, encoding="ascii") as file:
        head = [line for line in file if line.startswith("#")]
    alike = [it for it in tree.uses_of(top) if it in minutes]
    lines = sum(lines_of(top, it) for it in alike)
    found = {"others*": [sum(minutes[it][at] for it in alike) / max(lines, 0.001) for at in range(len(KINDS))]}
    # (those of tests aren't proved, so they stay as they are)
    found.update({name: [row[kind] for kind in KINDS] for name, row in known.items() if name in ("tests*", "after*") or tree.is_of_tests(name)})
    found.update(sorted(minutes.items(), key=lambda row: -sum(row[1])))
    with open(FILE, "w", encoding="ascii") as file:
        file.writelines(head)
        for name, each in found.items():
            file.write(f"{name:<18}" + "".join(f"{it:7.1f}" for it in each) + "\n")


def longest_chain(uses, minutes):
    """The minutes of the dearest chain of crates, each of which stands on the one before: however many lanes there are, no run takes less."""
    proved = {}

    def until_proved(name):
        if name not in proved:
            proved[name] = minutes[name]["proofs"] + max((until_proved(it) for it in uses[name] if it in minutes), default=0.0)
        return proved[name]

    return max((until_proved(it) + max(minutes[it][kind] for kind in KINDS[1:]) for it in minutes), default=0.0)


def side_by_side(uses, minutes, lanes):
    """The minutes until all of these are proved, by so many lanes: each takes the first crate, in the order of crates.txt, that waits for none below it."""
    left, ended, running, now = [it for it in uses if it in minutes], set(), [], 0.0
    while left or running:
        ready = [it for it in left if ended.issuperset(use for use in uses[it] if use in minutes)]
        for name in ready[: max(1, lanes) - len(running)]:
            left.remove(name)
            heapq.heappush(running, (now + sum(minutes[name].values()), name))
        now, name = heapq.heappop(running)
        ended.add(name)
    return now


def stated(row):
    """The minutes of a library of which the statements alone are made, by kind."""
    return {**dict.fromkeys(row, 0.0), "proofs": STATED[0] + STATED[1] * row["proofs"]}


class Host:
    """What a run has here: how many checks go side by side, the host's speed, and the minutes of the clock that it may take, for what is due the most."""

    def __init__(self, top, uses, bound, most):
        self.uses, self.bound, self.most, self.at_once, self.seconds = uses, bound, max(bound, most), lanes(), blake2b_seconds()
        self.after = rows()["after*"]
        self.tests = minutes_of(top, [it for it in uses if tree.is_of_tests(it)])

    def named_minutes(self, number):
        """The minutes of the clock that the named wrong bodies of one of so many crates take."""
        return max(self.after["edits"], 1.0) / max(number, 1) / self.at_once * self.seconds / REFERENCE

    def clock(self, minutes, unbuilt, is_whole=False):
        """The minutes of the clock for these minutes of the reference host's processors, and what comes after the proofs: the tests, so many programs that
        are built without a proof, the scripts, and, of the whole, the wrong bodies."""
        later = UNBUILT * unbuilt + sum(row["tests"] + row["programs"] for row in self.tests.values())
        beside = self.after["programs"] + (self.after["edits"] / self.at_once if is_whole else 0)
        reckoned = SHARED * (side_by_side(self.uses, minutes, self.at_once) + later / self.at_once) + beside
        return reckoned * self.seconds / REFERENCE
