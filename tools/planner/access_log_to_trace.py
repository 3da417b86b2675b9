#!/usr/bin/env python3
"""Turns logs of web servers and public traces into a trace for tier-replay, into requests for tier_curve, or into hit ratios.

    access_log_to_trace.py --count access.log
    access_log_to_trace.py --requests access.log.*.gz | cache-curve --sizes 1M,10M,100M
    access_log_to_trace.py --drive "tier-replay --limit 1000000" access.log
    access_log_to_trace.py --cases FOLDER --sizes 100000,400000 access.log      and then --answers FILE access.log
    access_log_to_trace.py < access.log > trace.jsonl

Without files, and for '-', it reads standard input. What is packed by gzip or zstd is unpacked; several files are merged by time. Which
format a file has is seen by its first 1,000 lines, or told by --format. What is of no known format is refused, with status 1, and so is
a log in which there is no request.

Each request becomes four events: open, look, put, drop. The put follows whether or not the body was found, since a trace can't know:
so after each request its key is the one used last, as in a cache that fills what it lacks, and the look-ups found are those of such a
cache. What this changes is freshness, which each put renews. What a log removes is a purge.

With --requests lines 'time key bytes' are written; a length that the log doesn't tell is '?', and a dash removes the key.

With --drive tier-replay is run by that command, its path in the place of its name, and a put is sent only where its answer was
'absent' or 'stale', as a cache does; the hit ratios are printed in place of a trace.

With --cases the trace is written into a new folder, once for each limit, with the options that belong to it; --answers reads what the
runs of these cases wrote, with the same log and options, and prints how much each found.

A line with status 304 or 206, or of a HEAD request, doesn't say how long the whole body is. It is a request for its key like any
other; in a trace it has the length of the key's last whole response before it, and without one, of the next after it. Such lines are
counted on standard error too.

Lines that are passed over are counted, by reason, on standard error; none stops the run.
"""
import argparse
import collections
import json
import os
import shlex
import signal
import subprocess
import sys
import zlib

from logs import json_lines, traced
from logs.detect import FORMATS
from logs.records import LENGTHS, METHODS, STATUSES, Removal, rules_of
from logs.reading import Reading
from logs.unpack import Refused

# what `rt try` takes of a program's output, and about what the answers to a request take of it
MOST_ANSWERS, ANSWERS_EACH = 2**20, 69


def put_of(asked, options):
    lifetime = options.ttl if asked.lifetime is None else asked.lifetime
    lines = f"Cache-Control: max-age={lifetime}\r\nContent-Length: {asked.size}\r\n"
    lacking = options.head - len(lines) - len("x:\r\n")
    if lacking >= 0:
        lines += "x:" + "x" * lacking + "\r\n"
    head = f"HTTP/1.1 200 OK\r\n{lines}\r\n"
    return {"op": "put", "at": asked.moment, "key": asked.key, "pieces": [head.encode().hex(), "78" * asked.size]}


def text_of(event):
    return json.dumps(event, separators=(",", ":")) + "\n"


def write_trace(asked, options, out):
    """Writes the trace, and returns how many requests it has."""
    count = 0
    for it in asked:
        if isinstance(it, Removal):
            out.write(text_of({"op": "purge", "at": it.moment, "key": it.key}))
            continue
        out.write(text_of({"op": "open", "at": it.moment, "id": count, "key": it.key}))
        out.write(text_of({"op": "look", "at": it.moment, "id": count}))
        out.write(text_of(put_of(it, options)))
        out.write(text_of({"op": "drop", "at": it.moment, "id": count}))
        count += 1
    return count


def write_requests(reading, options, out):
    """Writes a line 'time key bytes' for each request, or for those of one key in so many, with scaled lengths."""
    for _, lines in reading.blocks():
        if options.one_in > 1 or options.scale != 1:
            lines = [it for it in (scaled_line(line, options) for block in lines for line in block.splitlines()) if it]
        out.write(b"".join(lines))


def scaled_line(line, options):
    moment, key, size = line.split()
    if options.one_in > 1 and zlib.crc32(key) % options.one_in:
        return None
    if size.isdigit():
        size = b"%d" % traced.scaled(int(size), options.scale)
    return b"%b %b %b\n" % (moment, key, size)


def write_cases(asked, options):
    """Writes the trace for each limit, with the limit that fits its scaled lengths."""
    folder = options.cases
    try:
        os.mkdir(folder)
    except OSError as why:
        sys.exit(f"{folder}: {why.strerror}")
    first = os.path.join(folder, str(options.sizes[0]))
    with open(first, "w", encoding="ascii") as out:
        count = write_trace(asked, options, out)
    for limit in options.sizes:
        path = os.path.join(folder, str(limit))
        if path != first:
            os.link(first, path)
        with open(path + ".args", "w", encoding="ascii") as out:
            out.write(f"--limit\n{round(limit / options.scale / options.one_in)}\n")
    if count * ANSWERS_EACH > MOST_ANSWERS:
        least = -(-count * ANSWERS_EACH * options.one_in // MOST_ANSWERS)
        print(f"{count} requests: their answers may pass the 1 MiB that `rt try` takes; --one-in {least} would do", file=sys.stderr)
    return count


def print_ratios(counts, lengths, names):
    """Prints what share of the requests and of their bytes had an answer of these names."""
    share = lambda part: 100 * sum(part[it] for it in names) / max(1, sum(part.values()))
    print(f"requests={sum(counts.values())} " + " ".join(f"{what}={count}" for what, count in counts.items()))
    print(f"hit ratio {share(counts):.1f} % of requests, {share(lengths):.1f} % of bytes")


def read_answers(asked, path):
    """Prints, for each case whose answers are there, how many look-ups of the requests found something."""
    asked, cases, name = [it for it in asked if not isinstance(it, Removal)], {}, ""
    with open(path, encoding="utf-8", errors="replace") as lines:
        for line in lines:
            words = line.split()
            if words[:1] == ["=="]:
                name = words[1]
            elif words[:1] in (["found"], ["absent"]):
                cases.setdefault(name, []).append(words[0])
    for name, answers in sorted(cases.items(), key=lambda it: (len(it[0]), it[0])):
        if len(answers) != len(asked):
            sys.exit(f"{name}: {len(answers)} look-ups were answered, and the log has {len(asked)} requests by these options")
        counts = {"found": 0, "absent": 0}
        lengths = dict(counts)
        for what, it in zip(answers, asked):
            counts[what] += 1
            lengths[what] += it.size
        print(f"== {name}")
        print_ratios(counts, lengths, ["found"])
    if not cases:
        sys.exit(f"{path}: no look-up was answered")


class Driven:
    """A run of tier-replay that is asked line by line."""

    def __init__(self, command):
        try:
            self.program = subprocess.Popen(shlex.split(command), stdin=subprocess.PIPE, stdout=subprocess.PIPE, text=True, bufsize=1)
        except (OSError, ValueError) as why:
            sys.exit(f"{command}: {getattr(why, 'strerror', why)}")

    def answer(self, event):
        try:
            self.program.stdin.write(text_of(event))
            line = self.program.stdout.readline()
        except BrokenPipeError:
            line = ""
        if not line:
            sys.exit("the program ended early")
        return line.strip()

    def report(self):
        self.program.stdin.close()
        report = self.program.stdout.read().strip()
        self.program.wait()
        return report


def drive(asked, options):
    """Runs the program over the requests, and prints how many were fresh hits."""
    driven = Driven(options.drive)
    counts = {"fresh": 0, "stale": 0, "absent": 0}
    lengths, refused = dict(counts), collections.Counter()
    for it in asked:
        if isinstance(it, Removal):
            driven.answer({"op": "purge", "at": it.moment, "key": it.key})
            continue
        driven.answer({"op": "open", "at": it.moment, "id": 1, "key": it.key})
        said = driven.answer({"op": "look", "at": it.moment, "id": 1})
        what = "absent" if said.startswith("absent") else said.split()[1]
        if what not in counts:
            sys.exit(f"a look-up was answered {said}")
        counts[what] += 1
        lengths[what] += it.size
        driven.answer({"op": "drop", "at": it.moment, "id": 1})
        if what != "fresh":
            said = driven.answer(put_of(it, options))
            if not said.startswith("finished"):
                refused[said] += 1
    report = driven.report()
    print_ratios(counts, lengths, ["fresh"])
    print(report)
    if refused:
        print(f"puts refused: {counted(refused)}", file=sys.stderr)


def counted(counts):
    return ", ".join(f"{count} {what}" for what, count in counts.most_common()) or "none"


def options_of(words):
    parser = argparse.ArgumentParser(description=__doc__, formatter_class=argparse.RawDescriptionHelpFormatter)
    parser.add_argument("files", nargs="*", default=["-"], metavar="FILE", help="the logs; '-' is standard input (the default)")
    what = parser.add_mutually_exclusive_group()
    what.add_argument("--count", action="store_true", help="only count the requests: write no trace")
    what.add_argument("--requests", action="store_true", help="write lines 'time key bytes' for tier_curve, in place of a trace")
    what.add_argument("--drive", metavar="COMMAND", help="run this tier-replay command over the requests, and print hit ratios")
    what.add_argument("--cases", metavar="FOLDER", help="write the trace for each of --sizes into this new folder, for `rt try --cases`")
    what.add_argument("--answers", metavar="FILE", help="read what the runs of the cases wrote, and print hit ratios")
    parser.add_argument("--format", metavar="NAME", help="the format of the logs, where it isn't to be seen by their first lines")
    parser.add_argument("--list-formats", action="version", version=FORMATS, help="tell the formats, their keys and what is passed over")
    parser.add_argument("--json-fields", metavar="NAMES", help="the fields of JSON lines: time=ts,key=request.host+request.uri,bytes=size,status=..,method=..")
    parser.add_argument("--sort", action="store_true", help="sort the requests by time first")
    parser.add_argument("--sizes", metavar="BYTES,..", default="", help="the sizes of --cases, of the cache as it is to be")
    parser.add_argument("--head", type=int, default=0, metavar="BYTES", help="how long the header lines of the origin's responses are, which count against the limit: those of the trace are padded to that (default: two short lines)")
    parser.add_argument("--scale", type=float, default=1, help="divide each body's length by this, to keep the trace small (default 1); heads stay as long as they are, so --one-in tells more of small bodies")
    parser.add_argument("--one-in", type=int, default=1, metavar="COUNT", help="take one key in so many, by its hash, to keep the trace short (default 1)")
    parser.add_argument("--max-body", type=int, metavar="BYTES", help="the longest body, after --scale, that is taken (default 64 MiB; with --requests any)")
    parser.add_argument("--ttl", type=int, default=3600, help="how long a response is fresh, in seconds, where the log doesn't say (default 3600)")
    parser.add_argument("--methods", help=f"the request methods to take, with commas (default {METHODS})")
    parser.add_argument("--statuses", help=f"the statuses to take, with commas (default {STATUSES})")
    parser.add_argument("--host-field-last", action="store_true", help="the last word of a log line is the host, which the key begins with")
    parser.add_argument("--ignore-query", action="store_true", help="leave the query out of the key")
    options = parser.parse_intermixed_args(words)
    if not options.scale > 0 or options.ttl < 0 or options.one_in < 1:
        parser.error("--scale is above 0, --ttl is from 0, --one-in from 1")
    try:
        options.sizes = [int(it) for it in options.sizes.split(",") if it]
    except ValueError:
        parser.error("--sizes are whole numbers of bytes, with commas")
    if bool(options.cases) != bool(options.sizes):
        parser.error("--cases and --sizes go together")
    try:
        options.json_fields = json_lines.names_of(options.json_fields) if options.json_fields else None
    except ValueError as why:
        parser.error(f"--json: {why}: wanted are time=, key= and bytes=, each with the name of a field")
    return options


def run(options, reading, taken):
    if options.requests:
        signal.signal(signal.SIGPIPE, signal.SIG_DFL)
        write_requests(reading, options, sys.stdout.buffer)
        return
    asked = traced.requests(reading, options, taken)
    if options.drive:
        drive(asked, options)
    elif options.count:
        print(f"requests={sum(not isinstance(it, Removal) for it in asked)}")
    elif options.cases:
        print(f"requests={write_cases(asked, options)}")
    elif options.answers:
        read_answers(asked, options.answers)
    else:
        # ends quietly where the reader of a pipe has enough
        signal.signal(signal.SIGPIPE, signal.SIG_DFL)
        write_trace(asked, options, sys.stdout)


def main():
    options, taken = options_of(sys.argv[1:]), collections.Counter()
    # a scaled length is compared where it is scaled
    longest = options.max_body if options.requests and options.max_body is not None else LENGTHS - 1
    try:
        reading = Reading(options.files, rules_of(options), options.format, longest, sort=options.sort)
        run(options, reading, taken)
    except Refused as why:
        print(f"access-log-to-trace: {why}", file=sys.stderr)
        sys.exit(why.status)
    counts = reading.counts
    print(f"read as {reading.described()}", file=sys.stderr)
    if not options.requests:
        print(f"lengths taken from another line: {counted(taken)}", file=sys.stderr)
    print(f"lines passed over: {counted(counts.passed)}", file=sys.stderr)
    for name, number, line in counts.named:
        print(f"{name}:{number}: not read: {ascii(line[:160])[1:-1]}", file=sys.stderr)
    if counts.unread:
        print(f"lines not read: {counts.unread}", file=sys.stderr)


if __name__ == "__main__":
    main()
