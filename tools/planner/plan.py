#!/usr/bin/env python3
"""How large must the cache be? Prints the hit ratio of LRU caches of many sizes, from logs of requests, and draws it.

    plan.py access.log
    plan.py access.log.*.gz --ttl 10m --price-per-gb 0.02
    zcat logs/*.gz | plan.py - --sizes 2M..200M --output-prefix day

It reads the logs and traces that docs/planning.md names, packed or not, and has the curve program count the hits at all sizes, in one
pass. It prints a table, and writes the curve beside the first log as CSV and as a picture (SVG), or where --output-prefix says.

The exit status is 1 where nothing is read, where a tenth of the lines isn't, where the log has no request, where lengths lack, where a sample
would be wrong, and where the curve program fails; 2 on a bad command line.
"""
import os
import re
import signal
import struct
import sys

from logs.reading import Reading
from logs.records import MOST_TIMES, rules_of
from logs.unpack import Refused
from planner import by_itself, curve, estimate, figures, labels, page, policies, running, told
from planner.command import too_few, words_of
from planner.keys import Keys
from planner.options import ENTRY, HEADS, options_of
from planner.picture import Picture
from planner.program import Failed, Program, is_built, lists
from planner.progress import Progress
from planner.spool import Spool
from planner.table import policies_table, table

# The key and the length of a line of three words.
THREE = re.compile(rb"^[ \t]*\S+[ \t]+(\S+)[ \t]+(\S{1,19})[ \t\r]*$", re.MULTILINE)


def size_of(words):
    """What a trace's columns of bytes say: their sum; '?' where it isn't told, as by a last one of several that is 0; or None."""
    words = [it.strip() for it in words]
    if b"?" in words:
        return b"?"
    if not all(it.isdigit() and len(it) < 20 for it in words):
        return None
    return b"?" if len(words) > 1 and int(words[-1]) == 0 else b"%d" % sum(map(int, words))


def times_in(columns, words):
    """How many requests a line of columns stands for."""
    word = words[columns.times - 1].strip() if columns.times and len(words) >= columns.times else b"1" if not columns.times else b""
    times = int(word) if word.isdigit() and len(word) < 20 else 0
    return times if times <= MOST_TIMES else 0


def pairs_of(data, lines, reading):
    """The keys and lengths of lines or records, also joined, as far as they are requests. Of a line that asks more than twice the others are
    beside them: lengths, each with how often."""
    columns = reading.logs[0].format.columns if reading.raw else None
    if reading.raw and reading.logs[0].format.read is None:
        return [(it[4:12], b"%d" % struct.unpack_from("<I", it, 12)) for it in lines], []
    if columns is None:
        return THREE.findall(data), []
    delimiter, out, more = columns.delimiter.encode(), [], []
    asks = {it.encode() for it in columns.asks}
    for line in lines:
        words = line.rstrip(b"\r\n").split(delimiter)
        if len(words) < max(*columns.key, *columns.bytes, columns.op or 1) or (columns.op and words[columns.op - 1] not in asks):
            continue
        size, times = size_of([words[at - 1] for at in columns.bytes]), times_in(columns, words)
        if size is not None:
            out += [(delimiter.join(words[at - 1] for at in columns.key), size)] * min(times, 2)
            more += [(size, times - 2)] if times > 2 else []
    return out, more


def fed(options, reading, programs):
    """Writes the requests to the programs as they are read, and returns what is known of the keys."""
    keys = Keys(options.entry_overhead)
    try:
        for _, lines in reading.blocks():
            data = b"".join(lines)
            pairs, more = pairs_of(data, lines, reading)
            keys.take(pairs)
            if options.sample:
                keys.count(pairs, more)
            for it in programs:
                it.write(data)
    except BaseException:
        for it in programs:
            it.stop()
        raise
    return keys


def run(options, reading, built):
    """The curves of each lifetime, and what is known of the keys. The requests of files are read once into a temporary file, and counted from
    there, since what a line says of a length depends on the others; what the program reads itself, and a pipe, go to it as they come."""
    words = [words_of(options, reading, built, it) for it in options.ttls]
    progress = Progress(options.logs)
    reading.tell = progress.tell
    try:
        return counted_by(options, reading, words, progress, built)
    finally:
        progress.end()


def counted_by(options, reading, words, progress, built):
    """The same, by programs of these command lines."""
    alone = by_itself.counted(options, reading, words, progress) if built and by_itself.may_be(options, reading) else None
    if alone:
        return alone
    if reading.raw or "-" in options.logs:
        programs = [Program(options.curve_program, it) for it in words]
        keys = fed(options, reading, programs)
        check_order(options, reading.counts)
        return [curve.curves_of("the curve program", it.text()) for it in programs], keys, None
    spool = Spool(reading, options.entry_overhead, options.lengths)
    texts = []
    for at, it in enumerate(words, 1):
        progress.start(f"counted, {at} of {len(words)}" if len(words) > 1 else "counted", spool.size())
        texts.append(Program(options.curve_program, it, spool.start()).text((lambda: progress.tell(spool.place)) if progress.is_wanted else None))
    return [curve.curves_of("the curve program", it) for it in texts], spool.lengths, spool


def check_order(options, counts):
    """Refuses a pipe whose moments go back: it is read once, and so isn't sorted unless that is said."""
    if "-" in options.logs and counts.back > 0.01 * max(1, counts.lines):
        raise Refused(f"{counts.back:,} of {counts.lines:,} lines go back in time: --sort puts requests in order, or name the files in place of a pipe; lines 'time key bytes' are sorted by sort -s -n -k1,1")


def reread(options, reading, keys, curves):
    """Whether a file that the program read itself has to be read by its lines: for lengths that aren't told, or moments that go back."""
    first = curves[0][0]
    lacks, back = first.requests_without_size or keys.lacking(), reading.counts.back > 0.01 * max(1, reading.counts.lines)
    if not reading.raw or "-" in options.logs or not (lacks or back or options.lengths or options.by_label):
        return False
    columns_ = reading.logs[0].format.columns
    if columns_ and (columns_.op or columns_.ttl or columns_.times):
        if back:
            raise Refused(f"{reading.described()}: {reading.counts.back:,} of {reading.counts.lines:,} lines go back in time: sort the file by its time first")
        return False
    return reading.logs[0].format.read is not None


def check_lengths(plan, curves, spool, counts):
    """Refuses requests of which too many tell no length: with the ways out."""
    lacks = plan.reckoned if spool else curves[0].requests_without_size or 0
    asked = plan.requests if spool else plan.requests + lacks
    if lacks > figures.MOST_RECKONED * max(1, asked):
        others = " or name files in place of a pipe" if not spool and not counts.lines == 0 else ""
        raise Refused(f"{told.share_words(lacks, asked)} tell no length of their body, nor does any other line of their keys (206, 304, HEAD): no size can be named by them. "
                      f"Log the whole length ($sent_http_content_range of nginx, %{{Content-Range}}o of Apache), or give the lengths: find . -printf '/%P %s\\n' > lengths, and --lengths lengths{others}")


def written(path, content):
    try:
        with open(path, "w", encoding="utf-8") as out:
            out.write(content)
    except OSError as why:
        raise Failed(f"{path}: {why.strerror}") from why
    return path


def read(options, raw):
    rules = rules_of(options)
    rules.parts = "-" not in options.logs
    reading = Reading(options.logs, rules, options.format, options.max_body, raw=raw, sort=options.sort, moments=True, most_unread=figures.MOST_UNREAD)
    reading.check_keys()
    return reading


def counted(options):
    """Reads the logs and counts; of a file that the program reads itself once more by its lines, where that is needed."""
    built = is_built(options.curve_program)
    # (`rt try` compiles anew for each run)
    options.ttls = options.ttls if built or options.ttl is not None else (3600,)
    reading = read(options, ("--format", "--columns", "text"))
    overhead = options.entry_overhead
    options.entry_overhead = (ENTRY if reading.heads else HEADS + ENTRY) if overhead is None else overhead
    curves, keys, spool = run(options, reading, built)
    if reread(options, reading, keys, curves):
        reading = read(options, ())
        curves, keys, spool = run(options, reading, built)
    return reading, curves, keys, spool


def plans_of(options, reading, curves, keys):
    """The plan; where no lifetime is named, with those of several."""
    prices = figures.Prices(options.price_per_gb, options.price_per_10k_requests, options.memory_price_per_gb_month)
    moments, made = (reading.counts.first, reading.counts.last), None
    for it in (each for those in curves for each in those):
        if it.first_at is None and (options.sample or it.aged):
            it.totals.update(first_at=moments[0], last_at=moments[1])
    if options.sample:
        made = estimate.Estimates(curves[0], keys.weight(), keys.lacking(), reading.told_lifetimes(), keys.is_heavy())
        plans = [figures.of_estimates(made, prices)]
    else:
        plans = [figures.of_curve(it[0], keys, prices, moments, options.warmup) for it in curves]
    for it, ttl in zip(plans, options.ttls):
        too_few(it)
        it.lifetime, it.cap = ttl, it.any.fresh
    plan = plans[-1]
    if len(plans) > 1:
        plan.others = plans
        for at, size in enumerate(plan.sizes):
            size.fresh_by = [it.sizes[at].fresh for it in plans]
    return plan, made


def plan_of(options):
    options.curve_program = options.curve_program or lists()
    given = options.entry_overhead is not None
    reading, curves, keys, spool = counted(options)
    told_by = "--entry-overhead" if given or not reading.heads else "--entry-overhead; the log's lengths are with heads"
    first = curves[0][0]
    if reading.raw:
        reading.check_raw(first.skipped_lines)
    if not any(it.requests for it in curves[0]):
        raise Refused(f"{reading.described()}: the log was read, and no line of it is a request of the cache: {first.skipped_lines:,} skipped, {first.requests_without_size or 0:,} without a length")
    plan, made = plans_of(options, reading, curves, keys)
    plan.reckoned = spool.lengths.reckoned if spool else first.requests_without_size or 0
    # (a get of a trace of operations that found no value is none of the cache's: it is left out)
    columns_ = reading.logs[0].format.columns if reading.raw else None
    if not options.sample and not (columns_ and columns_.op):
        check_lengths(plan, curves[0], spool, reading.counts)
    if not options.sizes:
        plan.keep()
    plan.mark()
    return plan, reading, keys, curves[-1], made, told_by, spool


def simulated_blocks(options, spool):
    """The requests once more, as lines 'moment key size' in order of time."""
    if spool:
        return (it.split(b"\n")[:-1] for it in spool.blocks())
    return (lines for _, lines in read(options, ()).blocks())


def other_policies(options, plan, whole, spool):
    """The lines of the table of other policies. It is refused where the simulation's LRU isn't what the curve says."""
    size = plan.taken() or plan.least("found", 0.8) or plan.sizes[len(plan.sizes) // 2]
    limits = sorted({min(plan.sizes, key=lambda it: abs(it.limit - wanted)).limit for wanted in (size.limit / 2, size.limit, size.limit * 2)})
    runs, asks = policies.simulated(simulated_blocks(options, spool), limits, options.entry_overhead)
    rows = {it.limit: it for it in whole.rows}
    for lru in (it[0] for it in runs):
        if (lru.finds, asks) != (rows[lru.limit].finds, whole.requests):
            raise Refused(f"the simulation's LRU hits {lru.finds:,} of {asks:,} requests at {lru.limit:,} bytes, and the curve says {rows[lru.limit].finds:,} of {whole.requests:,}: the policies aren't printed")
    return policies_table(runs, asks)


def labels_lines(options, plan, whole, spool):
    """The lines of the table of labels, at the size to take."""
    size = plan.taken() or plan.least("found", 0.9) or plan.sizes[-1]
    found = labels.by_label(simulated_blocks(options, spool), options.by_label, size.limit, options.entry_overhead)
    row = next(it for it in whole.rows if it.limit == size.limit)
    if sum(it.hits for it in found.values()) != row.finds:
        raise Refused(f"the simulation's LRU hits {sum(it.hits for it in found.values()):,} requests at {size.limit:,} bytes, and the curve says {row.finds:,}: the labels aren't printed")
    return labels.table(found, options.by_label, size.limit)


def report(options, plan, reading, keys, curves, made, told_by, spool):
    """Writes the files, and returns what is printed."""
    prefix, shown = options.output_prefix or options.logs[0], {it.limit for it in plan.sizes}
    text = estimate.estimate_csv(made) if made else told.curve_text(curves[0], shown)
    picture = Picture(plan).svg(os.path.basename(prefix))
    paths = [written(prefix + ".csv", text), written(prefix + ".svg", picture)]
    if options.interval:
        paths.insert(1, written(prefix + ".hours.csv", told.hours_text(curves[0], shown)))
    lines = [told.read_words(reading, curves[0]) + told.lengths_words(plan, curves[0], spool), told.keys_words(options, plan, keys, reading, told_by), ""]
    lines += [*table(plan, options.all_sizes or bool(options.sizes)), "", plan.conclusion(), *told.notes(plan, curves[0], keys, made, reading, spool)]
    own = told.own_words(plan, reading.counts)
    lines += [own] if own else []
    lines += ["", *labels_lines(options, plan, curves[0], spool)] if options.by_label else []
    if options.html:
        paths.append(written(prefix + ".html", page.html_page(os.path.basename(prefix), picture, lines)))
    lines.append("written: " + ", ".join(paths))
    return "\n".join(lines)


def main():
    # a release runs this by the name of cache-plan
    name = os.environ.get("CACHE_PLAN_NAME", "plan.py")
    options = options_of(sys.argv[1:], __doc__.replace("plan.py", name), name)
    try:
        counts = running.counts_of(options.compare) if options.compare else None
        plan, reading, keys, curves, made, told_by, spool = plan_of(options)
        text = report(options, plan, reading, keys, curves, made, told_by, spool)
        for path, number, line in reading.counts.named:
            print(f"    not read: {path}:{number}: {ascii(line[:120])[1:-1]}", file=sys.stderr)
        # ends quietly where the reader of a pipe has enough
        signal.signal(signal.SIGPIPE, signal.SIG_DFL)
        print(text, flush=True)
        if counts:
            print("\n".join(running.compared(options.compare, counts, plan, options.ttl is not None)))
        if options.compare_policies:
            print("\n" + "\n".join(other_policies(options, plan, curves[0], spool)))
    except (Refused, curve.Refused, Failed) as why:
        print(f"{name}: {why}", file=sys.stderr)
        sys.exit(getattr(why, "status", 1))


if __name__ == "__main__":
    main()
