#!/usr/bin/env python3
"""Tests that several logs are read by several processes as by one, and as one stream that merges them: the same requests, counts and lengths, and the same report
to the byte. Then that a log of lines 'time key bytes' goes to the curve program as it is, and says what it says when Python reads it. It wants the curve program's words."""
import gzip
import os
import random
import re
import subprocess
import sys
import tempfile
import time

HERE = os.path.dirname(os.path.realpath(__file__))
sys.path.insert(0, HERE)

from logs.reading import Reading  # noqa: E402
from logs.records import Rules  # noqa: E402
from planner import side_by_side  # noqa: E402
from planner.lengths import Lengths  # noqa: E402

PROGRAM = sys.argv[1] if len(sys.argv) > 1 else f"{sys.executable} {os.path.join(HERE, '..', 'reference', 'plain_planner.py')}"
START, FAILED = 1795894961, []
# Runs plan.py as if there were so many processors; with `alone` where nothing but the curve program may read the requests.
RUN = """
import sys
sys.path.insert(0, {here!r})
from planner import side_by_side
from logs import reading
side_by_side.processors = lambda: {processors}
if {alone}:
    reading.Reading.blocks = None
import plan
sys.argv = ["cache-plan", *{words!r}]
plan.main()
"""


def check(name, it, want):
    if it != want:
        FAILED.append(f"{name}: {str(it)[:500]}, not {str(want)[:500]}")


def combined(draw, start, count, back):
    """The lines of a log of so many requests, of which some go back in time."""
    moments = sorted(draw.randrange(start, start + 900) for _ in range(count))
    for _ in range(back):
        moments[draw.randrange(count)] = draw.randrange(start, start + 900)
    for at in moments:
        key, status = draw.randrange(30), draw.choice(["200"] * 6 + ["206", "304", "404"])
        size = 100 + key + (draw.randrange(3) if draw.random() < 0.1 else 0)
        when = time.strftime("%d/%b/%Y:%H:%M:%S +0000", time.gmtime(at))
        yield f'192.0.2.1 - - [{when}] "GET /k{key} HTTP/1.1" {status} {size}\n' if draw.random() < 0.99 else "no request\n"


def logs(draw, room):
    """The paths of one to four logs, one after another in time or not, in any order."""
    apart, paths = draw.random() < 0.5, []
    for at in range(draw.randint(1, 4)):
        path = os.path.join(room, f"log{at}")
        text = "".join(combined(draw, START + (at * 1000 if apart else draw.randrange(3) * 300), draw.choice([10, 300, 2000]), draw.choice([0, 0, 3, 40])))
        with (gzip.open if draw.random() < 0.3 else open)(path, "wt") as out:
            out.write(text)
        paths.append(path)
    return draw.sample(paths, len(paths))


def of_reading(paths, is_sorted):
    rules = Rules()
    rules.parts = True
    return Reading(paths, rules, sort=is_sorted, moments=True)


def test_requests(seed):
    draw = random.Random(seed)
    with tempfile.TemporaryDirectory() as room:
        paths, is_sorted = logs(draw, room), draw.random() < 0.3
        whole, lengths, lines = of_reading(paths, is_sorted), Lengths(38), []
        for _, block in whole.blocks():
            lines.append(b"".join(block))
            lengths.take_lines(lines[-1])
        lengths.finish()
        for processors in (1, 3):
            side_by_side.processors = lambda processors=processors: processors
            reading = of_reading(paths, is_sorted)
            file, found = side_by_side.requests_of(reading, 38)
            with file:
                check(f"{seed}: requests by {processors}", file.read(), b"".join(lines))
            # (of several logs the lines that aren't read are named log by log)
            counts, want = dict(vars(reading.counts)), dict(vars(whole.counts))
            check(f"{seed}: lines that are named", len(counts.pop("named")), len(want.pop("named")))
            check(f"{seed}: counts by {processors}", counts, want)
            check(f"{seed}: lengths by {processors}", vars(found), vars(lengths))


def report(words, prefix, processors, alone=False):
    """What the planner prints and writes, but for the names of its files; or None where it ends otherwise."""
    text = RUN.format(here=HERE, processors=processors, alone=alone, words=[*words, "--curve-program", PROGRAM, "--sizes", "2K,5K,20K", "--entry-overhead", "38", "--output-prefix", prefix])
    ran = subprocess.run([sys.executable, "-c", text], stdout=subprocess.PIPE, stderr=subprocess.PIPE, check=False)
    if ran.returncode:
        return ran.returncode, ran.stderr
    written = [open(prefix + it, "rb").read().replace(os.path.basename(prefix).encode(), b"") for it in (".csv", ".svg")]
    return ran.stdout.split(b"\nwritten: ")[0], *written


def test_reports(room):
    draw = random.Random(1)
    for count in (1, 2, 3):
        paths = []
        for at in range(count):
            paths.append(os.path.join(room, f"{count}.{at}"))
            with open(paths[-1], "w", encoding="ascii") as out:
                out.write("".join(combined(draw, START + at * 400, 1000, 0)))
        one, many = (report(paths, os.path.join(room, f"prefix{it}"), it) for it in (1, 3))
        check(f"{count} logs: a report", bool(re.search(rb"requests", one[0])) if isinstance(one[0], bytes) else one, True)
        check(f"{count} logs by one process and by several", many, one)


def test_text(room):
    draw, path = random.Random(2), os.path.join(room, "text")
    lines = [f"{START + at} /k{min(draw.randrange(200), draw.randrange(200))}" for at in range(3000)]
    with open(path, "w", encoding="ascii") as out:
        out.write("".join(f"{it} {100 + 7 * len(it)}\n" for it in lines))
    for more in ([], ["--ttl", "60"]):
        words = ["--interval", "300", *more]
        alone = report([path, *words], os.path.join(room, "prefix1"), 1, True)
        check("a text goes to the program as it is", isinstance(alone[0], bytes) and b"One-hit wonders" in alone[0], True)
        # what is asked for by label is read by its lines
        read = report([path, *words, "--by-label", "prefix"], os.path.join(room, "prefix2"), 1)
        check("and says what it says when it is read", alone[0].split(b"\n")[1:12], read[0].split(b"\n")[1:12])
        check("its curve and its picture", alone[1:], read[1:])
    # of a file whose moments go back, whose lengths change or lack, or of which a line is none, more has to be known
    for name, line in (("back", f"{START} /k1 {100 + 7 * len(lines[0])}"), ("changed", f"{START + 4000} /k1 7"), ("untold", f"{START + 4000} /new ?"), ("none", "no line")):
        with open(path, "a", encoding="ascii") as out:
            size = out.tell()
            out.write(line + "\n")
        ran = report([path, "--interval", "300"], os.path.join(room, "prefix1"), 1, True)
        check(f"{name}: the program alone doesn't do", isinstance(ran[0], bytes), False)
        ran = report([path, "--interval", "300"], os.path.join(room, "prefix1"), 1)
        check(f"{name}: it is read: {ran}", isinstance(ran[0], bytes), True)
        os.truncate(path, size)


def main():
    for seed in range(25):
        test_requests(seed)
    with tempfile.TemporaryDirectory() as room:
        test_reports(room)
        test_text(room)
    if FAILED:
        sys.exit("\n".join(FAILED))
    print("logs: several are read by several processes as by one, and a text in order is read by the curve program alone")


if __name__ == "__main__":
    main()
