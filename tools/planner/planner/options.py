"""The command line of plan.py (cache-plan)."""
import argparse
import os
import re

from logs import columns, json_lines
from logs.detect import FORMATS
from logs.line_format import LineFormat
from logs.records import LENGTHS, LIFETIMES, METHODS, STATUSES

from .words import bytes_of, seconds_of

# A head of 400 bytes, and what a tier counts for an entry beside that.
HEADS, ENTRY = 400, 38
# The lifetimes of which each is answered where --ttl names none.
TTLS = (60, 3600, 86400)
# By the planner's name, which curve program it runs where none is told.
PROGRAMS = {"plan.py": "the proved one where it is built, else that of scripts/try.sh, else `rt try` of its crate", "cache-plan": "the one beside cache-plan"}
# Numbers, from the least to below the most.
RANGES = (("ttl", 0, LIFETIMES), ("entry_overhead", 0, LENGTHS), ("max_entries", 1, 2**64), ("interval", 1, LIFETIMES), ("warmup", 0, LIFETIMES),
          ("price_per_gb", 0, 1e300), ("price_per_10k_requests", 0, 1e300), ("memory_price_per_gb_month", 0, 1e300))
SIZES = "a size is such as 1500, 10M, 10MB (10^6 bytes each) or 10MiB (2^20 bytes)"


def size_of(text):
    """The bytes of a size; argparse says its words where it is none."""
    try:
        return bytes_of(text)
    except ValueError:
        raise argparse.ArgumentTypeError(f"{text!r}: {SIZES}") from None


def duration_of(text):
    """The seconds of a duration, as 90, 90s, 15m, 1h, 7d."""
    try:
        return seconds_of(text)
    except ValueError:
        raise argparse.ArgumentTypeError(f"{text!r}: a duration is such as 90, 90s, 15m, 1h or 7d") from None


def limits_of(text, steps):
    """The options of the curve program that name the sizes: two ends with equal ratios between them, or a list."""
    if ".." in text:
        low, high = (bytes_of(it) for it in text.split("..", 1))
        if not 0 < low < high < 2**64 or not 2 <= steps <= 100000:
            raise ValueError(text)
        return ["--sizes", f"{low}..{high}", "--steps", str(steps)]
    sizes = sorted({bytes_of(it) for it in text.split(",")})
    if not 0 < sizes[0] <= sizes[-1] < 2**64:
        raise ValueError(text)
    return ["--sizes", ",".join(map(str, sizes))]


def parser_of(text, name):
    """The options of the program of that name, whose help has the text."""
    parser = argparse.ArgumentParser(prog=name, description=text, formatter_class=argparse.RawDescriptionHelpFormatter)
    add = parser.add_argument
    add("logs", nargs="+", metavar="LOG", help="the logs, merged by time; '-' is standard input")
    which = parser.add_argument_group("sizes and what is counted")
    add = which.add_argument
    add("--sizes", metavar="SIZES", help="the sizes, as 2M..200M or 1M,10M,1GiB; M is 10^6 bytes, MiB 2^20 (default: round ones from 1 %% to all of the footprint)")
    add("--steps", type=int, metavar="COUNT", help="how many sizes between two ends (default 40)")
    add("--all-sizes", action="store_true", help="print each size, not every third")
    add("--ttl", type=duration_of, metavar="SECONDS", help="how long a response stays fresh, where the log doesn't say (default: the answers for 60, 3,600 and 86,400 seconds)")
    add("--entry-overhead", type=size_of, metavar="BYTES", help=f"what an entry weighs beside its body: its header lines and some {ENTRY} bytes (default {HEADS + ENTRY}; {ENTRY} where the log counts heads)")
    add("--max-entries", type=int, metavar="ENTRIES", help="the most entries that a cache holds")
    add("--interval", type=duration_of, metavar="SECONDS", help="also write the hits of each so many seconds (3600: by hours)")
    add("--warmup", type=duration_of, metavar="SECONDS", help="leave the first seconds, while the caches fill, out of the shares")
    add("--sample", metavar="1/K", help="estimate from parts of the keys (SHARDS), where the log has too many for the memory")
    add("--sample-parts", type=int, metavar="COUNT", help="how many parts of K (default 5)")
    add("--price-per-gb", type=float, default=0, metavar="AMOUNT", help="what a gigabyte from the origin costs")
    add("--price-per-10k-requests", type=float, default=0, metavar="AMOUNT", help="what 10,000 requests to the origin cost")
    add("--memory-price-per-gb-month", type=float, default=0, metavar="AMOUNT", help="what a gigabyte of memory costs for 30 days")
    add("--compare-policies", action="store_true", help="also simulate other policies than LRU at the size to take, half and double")
    add("--compare", metavar="URL", help="hold the plan against the hits of a running nijpdra-proxy, as http://127.0.0.1:9180/metrics")
    add("--by-label", choices=("host", "prefix", "type"), help="at the size to take: what each host, first part of the path, or type of file takes and hits")
    add = parser.add_argument_group("the logs").add_argument
    add("--format", metavar="NAME", help="the format of the logs, where it isn't to be seen by their first lines")
    add("--list-formats", action="version", version=FORMATS, help="tell the formats, their keys and what is skipped")
    add("--line", metavar="FORMAT", help="the log_format (nginx) or LogFormat (Apache) that wrote the lines")
    add("--columns", metavar="COLUMNS", help="the columns of lines, from 1 on: time=1,key=2,bytes=3, perhaps op=N, ttl=N, times=N")
    add("--delimiter", metavar="BYTE", help="with --columns, what stands between them (default: a comma)")
    add("--skip-lines", type=int, metavar="LINES", help="with --columns, how many lines of heads are skipped")
    add("--json-fields", metavar="NAMES", help="the fields of JSON lines: time=ts,key=request.host+request.uri,bytes=size,status=..,method=.. or request=..")
    add("--lengths", metavar="FILE", help="lines 'key bytes' of whole lengths, as find -printf '/%%P %%s\\n' writes them")
    add("--sort", action="store_true", help="sort the requests by time first")
    add("--methods", metavar="METHODS", help=f"the request methods to take, with commas (default {METHODS})")
    add("--statuses", metavar="STATUSES", help=f"the statuses to take, with commas (default {STATUSES})")
    add("--host-field-last", action="store_true", help="the last word of a log line is the host, which the key begins with")
    add("--ignore-query", action="store_true", help="leave the query out of the key")
    add("--max-body", type=size_of, metavar="SIZE", help="skip bodies past this (default: any length counts)")
    add = parser.add_argument_group("what is written").add_argument
    add("--output-prefix", metavar="PATH", help="where to write, without the ending (default: beside the first log)")
    add("--html", action="store_true", help="also write the report with its picture as one page, PREFIX.html")
    add("--curve-program", metavar="COMMAND", help="the curve program to run, with its first words (default: " + PROGRAMS.get(name, PROGRAMS["plan.py"]) + ")")
    return parser


def options_of(words, text, name):
    """The options of a command line. What is out of range or doesn't go together is refused by name."""
    parser = parser_of(text, name)
    options = parser.parse_intermixed_args(words)
    try:
        options.limits = limits_of(options.sizes, 40 if options.steps is None else options.steps) if options.sizes else None
    except ValueError as why:
        parser.error(f"--sizes: {why}: such as 2M..200M or 1M,10M,100M are wanted, each from 1 byte on to below 2^64, and --steps from 2 to 100000; {SIZES}")
    if options.steps is not None and ".." not in (options.sizes or ""):
        parser.error("--steps goes with --sizes of two ends, as 2M..200M")
    for each, least, most in RANGES:
        value = getattr(options, each)
        if value is not None and not least <= value < most:
            parser.error(f"--{each.replace('_', '-')} is from {least} to below {most:.3g}")
    check_sample(parser, options)
    options.max_body = LENGTHS - 1 if options.max_body is None else options.max_body
    options.ttls = TTLS if options.ttl is None and not options.sample else (3600 if options.ttl is None else options.ttl,)
    if options.ttl is None and (options.price_per_gb or options.price_per_10k_requests):
        parser.error("a price wants --ttl: how often the origin is asked depends on how long responses stay fresh")
    check_formats(parser, options)
    check_files(parser, options)
    return options


def check_sample(parser, options):
    """Refuses a sample that is none, or doesn't go with other options."""
    if not options.sample:
        if options.sample_parts is not None:
            parser.error("--sample-parts goes with --sample")
        return
    found = re.fullmatch(r"1/(\d{1,9})", options.sample, re.ASCII)
    if not found or int(found[1]) < 3:
        parser.error("--sample is such as 1/100, from 1/3 on")
    options.sample_parts = 5 if options.sample_parts is None else options.sample_parts
    if not 2 <= options.sample_parts < int(found[1]):
        parser.error(f"--sample-parts is from 2 to {int(found[1]) - 1}: fewer than K")
    for each in ("interval", "warmup", "compare_policies", "by_label"):
        if getattr(options, each) not in (None, False):
            parser.error(f"--{each.replace('_', '-')} doesn't go with --sample")


def check_formats(parser, options):
    """Reads what says how lines are read, and refuses what says it twice."""
    ways = [each for each in ("line", "columns", "json_fields", "format") if getattr(options, each)]
    if len(ways) > 1:
        parser.error(" and ".join(f"--{it.replace('_', '-')}" for it in ways) + " don't go together")
    for each in ("delimiter", "skip_lines"):
        if getattr(options, each) is not None and not options.columns:
            parser.error(f"--{each.replace('_', '-')} goes with --columns")
    for each, read in (("line", LineFormat), ("json_fields", json_lines.names_of), ("columns", lambda text: columns.named(text, options.delimiter or ","))):
        try:
            setattr(options, each, read(getattr(options, each)) if getattr(options, each) else None)
        except ValueError as why:
            wanted = {"line": "", "json_fields": ": wanted are time=, bytes= and key= or request=, each with the name of a field",
                      "columns": ": such as time=1,key=2,bytes=3 are wanted, columns from 1 on"}[each]
            parser.error(f"--{each.replace('_', '-')}: {why}{wanted}")


def check_files(parser, options):
    """Refuses logs that can't be read as the options want, and a place to write that is a log or can't be written."""
    if options.compare_policies and options.max_entries is not None:
        parser.error("--compare-policies are by weight alone: they don't go with --max-entries")
    for each in ("compare_policies", "by_label", "lengths"):
        if getattr(options, each) and "-" in options.logs:
            parser.error(f"--{each.replace('_', '-')} reads the log a second time: it doesn't go with standard input")
    if options.by_label and options.max_entries is not None:
        parser.error("--by-label is by weight alone: it doesn't go with --max-entries")
    if options.logs[0] == "-" and not options.output_prefix:
        parser.error("--output-prefix says where to write what is read from standard input")
    seen = {}
    for path in options.logs:
        real = path if path == "-" else os.path.realpath(path)
        if real in seen:
            parser.error(f"{'standard input' if path == '-' else path} is named twice: each of its requests would count twice")
        seen[real] = path
    prefix = options.output_prefix or options.logs[0]
    for path in (prefix + ending for ending in (".csv", ".svg", ".hours.csv", ".html")):
        if any(os.path.exists(it) and os.path.exists(path) and os.path.samefile(it, path) for it in options.logs):
            parser.error(f"{path} is a log: --output-prefix says where to write")
    folder = os.path.dirname(prefix) or "."
    if not os.access(folder, os.W_OK):
        parser.error(f"{folder} can't be written: --output-prefix says where to write")
