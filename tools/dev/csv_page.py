#!/usr/bin/env python3
"""Writes docs/reference/csv.md: the columns and totals of curves. Their names stand in the sources, and here what each means; the example is answered by the
plain model of the program.

    csv_page.py --write    writes the page
    csv_page.py --check    fails where it isn't what the sources give, or where a name has no meaning here, or a meaning no name
"""
import argparse
import glob
import os
import re
import subprocess
import sys

sys.dont_write_bytecode = True
TOP = os.path.dirname(os.path.dirname(os.path.dirname(os.path.realpath(__file__))))

from pages.files import change, read  # noqa: E402

PAGE = "docs/reference/csv.md"
PROGRAM = "crates/curve_lines/src/*.rt"
PLANNER = ("tools/planner/planner/curve.py", "tools/planner/planner/estimate.py", "tools/planner/planner/told.py")
REQUESTS = "1 /a 5\n2 /b 4\n3 /a 5\n4 /c 6\n5 /a 5\n"
COLUMNS = {
    "size": "the size of the cache in bytes; `unlimited` in the last row of a curve with `--ttl`",
    "hits": "requests whose body the cache holds, fresh or stale",
    "hit_bytes": "what these requests weigh, in bytes",
    "hit_percent": "the share of requests, with two digits, cut off",
    "byte_hit_percent": "the share of bytes",
    "fresh_hits": "hits of what was fetched no longer ago than its lifetime",
    "fresh_hit_bytes": "what these weigh, in bytes",
    "fresh_hit_percent": "the share of requests that are fresh hits",
    "fresh_byte_hit_percent": "the share of bytes that are",
    "entries": "entries that the cache holds at the end",
    "first_eviction_at": "the first request that evicts: with `--ttl` its moment, else its number among those that get; empty where none does",
    "lru_victim_used_at": "when the entry that goes next was asked for last",
    "interval_end": "the moment at which the next interval begins: the row is of all requests before it",
    "interval_start": "the moment at which the interval begins: the row is of its requests alone",
    "requests": "requests so far, or of the interval",
    "request_bytes": "what these weigh, in bytes",
    "hit_percent_error": "the ± of `hit_percent`, in percent of all requests",
    "byte_hit_percent_error": "the ± of `byte_hit_percent`",
    "fresh_hit_percent_error": "the ± of `fresh_hit_percent`",
    "fresh_byte_hit_percent_error": "the ± of `fresh_byte_hit_percent`",
}
TOTALS = {
    "format": "the number of this format: 1",
    "requests": "requests that get",
    "unique_keys": "keys that were asked for",
    "deletes": "requests that remove a key",
    "size_changes": "requests for a key by other bytes than its first one; where there are any the last line says `estimate`",
    "skipped_lines": "lines that are no request, and were passed over",
    "request_bytes": "what the requests weigh",
    "stated_bytes": "what they weigh by their own lines; with `--sample`",
    "requests_without_size": "requests that were left out, since nothing before them told their key's length",
    "other_ops": "lines whose operation neither gets nor removes",
    "repeated_keys": "keys that were asked for more than once; the others are one-hit wonders",
    "repeated_key_bytes": "what these keys weigh",
    "ttl": "the lifetime of `--ttl`, in seconds",
    "part": "the part of the keys that was counted, and of how many",
    "parts": "how many parts an estimate is of, and of how many",
    "entry_overhead": "what each entry weighs beside its body",
    "lines_read": "all lines or records",
    "total_requests": "requests of all parts; with `--sample`",
    "total_bytes": "what these weigh",
}
TABLES = (
    ("A curve", "curve_lines/src/text.rt", "Of `cache-curve`, and of `cache-plan` beside the log as `.csv`: a row for each size."),
    ("A curve with lifetimes", "curve_lines/src/timed_text.rt", "With `--ttl`, or where lines tell lifetimes. Its last row is of a cache without a limit."),
    ("By intervals", "curve_lines/src/mark_text.rt", "With `--interval` a second table follows: for each moment at which an interval begins that has requests, but the first one, "
     "a row for each size."),
    ("By hours", "tools/planner/planner/told.py", "`cache-plan --interval 3600` writes the differences as `.hours.csv`."),
)


def heads(text):
    """The lines of columns that a source has in quotes."""
    return [it.removesuffix("\\n").split(",") for it in re.findall(r'"((?:size|interval_end|interval_start),[a-z_,]+(?:\\n)?)"', text)]


def head_of(path):
    found = heads(read(path if path.startswith("tools/") else f"crates/{path}"))
    if len(found) != 1:
        raise SystemExit(f"csv_page: {path} has {len(found)} lines of columns")
    return found[0]


def errors():
    """The columns that an estimate adds."""
    return [it for text in re.findall(r'"((?:,[a-z_]+_error)+)"', read("tools/planner/planner/estimate.py")) for it in text.split(",") if it]


def totals():
    """The words of the line of totals in their order."""
    texts = [read(os.path.relpath(it, TOP)) for it in sorted(glob.glob(os.path.join(TOP, PROGRAM)))] + [read("tools/planner/planner/estimate.py")]
    named = {it for text in texts for line in re.findall(r'"[^"\n]*"', text) for it in re.findall(r"[ \"](\w+)=\{", line)} | {"format", "ttl"}
    order = re.findall(r'"(\w+)"', re.search(r"\nWORDS = \((.*?)\)\n", read(PLANNER[0]), re.S)[1])
    strange = named - set(order)
    if strange:
        raise SystemExit(f"csv_page: {PLANNER[0]} doesn't know {', '.join(sorted(strange))}")
    return [it for it in order if it in named]


def meaning(name, known, seen):
    if name not in known:
        raise SystemExit(f"csv_page: nothing says what {name} means")
    seen.add(name)
    return f"| `{name}` | {known[name]} |"


def example():
    command = [sys.executable, os.path.join(TOP, "tools/reference/plain_curve.py"), "--sizes", "8,20"]
    told = subprocess.run(command, input=REQUESTS.encode(), stdout=subprocess.PIPE, check=True).stdout.decode()
    return ["```text", *REQUESTS.splitlines(), "```", "", "`cache-curve --sizes 8,20` writes", "", "```text", *told.splitlines(), "```", ""]


def page():
    seen, seen_totals = set(), set()
    out = ["<!-- generated by tools/dev/csv_page.py -->", "", "# Curves as CSV", "", "A curve is a table of how many requests are hits at each size of a cache. Of these requests, a time, a key and its bytes each,", "",
           *example(), "A cache of 20 bytes holds all three bodies, and answers the second and third request for `/a`: 2 of 5 requests, 40 %, are hits.", "",
           "Columns are promised **by name**: more may come at the end. Counts are whole numbers, and moments seconds as the log has them.", ""]
    before = []
    for title, path, said in TABLES:
        columns = head_of(path)
        new = [it for it in columns if it not in before]
        out += [f"## {title}", "", said, "", "```text", ",".join(columns), "```", ""]
        if new:
            out += ["| Column | Means |", "|---|---|", *(meaning(it, COLUMNS, seen) for it in new), ""]
        before += columns
    out += ["## Estimates", "", "`cache-plan --sample`, and `merge_curves.py --estimate --csv`, write the same columns with these behind them.", "", "| Column | Means |", "|---|---|",
            *(meaning(it, COLUMNS, seen) for it in errors()), "",
            "## Totals", "", "Behind the rows a line begins with `#` and has words `NAME=NUMBER`, those alone that apply.", "", "| Word | Means |", "|---|---|",
            *(meaning(it, TOTALS, seen_totals) for it in totals()), "", "The line behind it says `exact` or `estimate`, and of what.", ""]
    left = [it for it in COLUMNS if it not in seen] + [it for it in TOTALS if it not in seen_totals]
    if left:
        raise SystemExit(f"csv_page: no source has {', '.join(left)}")
    return "\n".join(out)


def main():
    parser = argparse.ArgumentParser(description=__doc__, formatter_class=argparse.RawDescriptionHelpFormatter)
    way = parser.add_mutually_exclusive_group(required=True)
    way.add_argument("--write", action="store_true")
    way.add_argument("--check", action="store_true")
    return change("csv_page", {PAGE: page()}, parser.parse_args().write)


if __name__ == "__main__":
    sys.exit(main())
