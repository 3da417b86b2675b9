#!/usr/bin/env python3
"""Adds the curves of all parts of the keys, or estimates the curve of the whole from some of them.

usage: merge_curves.py [--estimate [--csv]] FILE..

Without --estimate the files are those of all parts that the curve program wrote with --part I/K. It writes the sums at each limit as CSV, with
percents of the sums, cut off. That is what K caches find together among which keys are dealt by their hash, each of a K-th of the limit.

With --estimate they are of some parts: of --sample 1/K --sample-parts M, or further ones of --part. It writes for each limit what one cache of
that limit finds, each with a ± (--csv: as columns). A dash stands where the parts tell too little.

Files are refused, with status 2, where their sizes, K, overhead, lifetime or number of requests read differ, where a part is there
twice, and, without --estimate, where one is missing; with it where more than 1 % of the requests tell no length. Rows of --interval are left
out, by name.
"""
import argparse
import sys

from planner.curve import ANY, Curve, Refused, Row, check_alike, read_curves
from planner.estimate import Estimates, estimate_csv

ADDED = ("requests", "unique_keys", "deletes", "size_changes", "request_bytes", "requests_without_size")


def least(moments):
    return min((it for it in moments if it is not None), default=None)


def added(rows):
    """The sums of the rows of one limit. The first cache that lets an entry go, and the oldest entry, are those of all; without moments
    each part numbers its own requests, so that nothing can be told of all."""
    row = Row(rows[0].limit, sum(it.finds for it in rows), sum(it.found for it in rows))
    if rows[0].fresh is not None:
        row.fresh, row.fresh_bytes = sum(it.fresh for it in rows), sum(it.fresh_bytes for it in rows)
    if rows[0].entries is not None and rows[0].fresh is not None:
        row.entries = sum(it.entries for it in rows)
        row.full_at, row.oldest_at = least(it.full_at for it in rows), least(it.oldest_at for it in rows)
    return row


def merged(curves):
    """The text of the sums. What is passed over, and what was read, each part counts alike."""
    first = curves[0]
    whole = {name: sum(getattr(it, name) or 0 for it in curves) for name in ADDED}
    totals = {"format": 1, **{name: whole[name] for name in ADDED[:4]}}
    totals.update(skipped_lines=first.skipped_lines, request_bytes=whole["request_bytes"])
    totals.update((name, count) for name, count in (("requests_without_size", whole["requests_without_size"]), ("other_ops", first.other_ops)) if count)
    if all("repeated_keys" in it.totals for it in curves):
        totals.update((name, sum(getattr(it, name) for it in curves)) for name in ("repeated_keys", "repeated_key_bytes"))
    if first.timed:
        totals.update(ttl=first.ttl)
    if "first_at" in first.totals:
        lasts = [it.last_at for it in curves if it.last_at is not None]
        totals.update(first_at=least(it.first_at for it in curves), last_at=max(lasts, default=None))
    totals.update(parts=first.parts, entry_overhead=first.entry_overhead, lines_read=first.lines_read)
    kind = f"# exact for {first.parts} caches, keys by hash"
    if whole["size_changes"]:
        kind = f"# estimate for {first.parts} caches, keys by hash; requests by another length than their entry's first: {whole['size_changes']}"
    return Curve("", [added(rows) for rows in zip(*(it.rows for it in curves))], totals, kind).text()


def shown(share):
    return "-" if share is None else f"{100 * share[0]:.1f} % ± {100 * share[1]:.1f}"


def estimate_text(made):
    """The estimates as a table for people."""
    names = ["hit ratio", "byte hit ratio"] + (["fresh hits", "fresh byte hits"] if made.timed else [])
    out = [f"{'size':>15}" + "".join(f"{it:>18}" for it in names)]
    for it in made.rows:
        shares = [it.requests, it.weight, it.fresh, it.fresh_weight][:len(names)]
        out.append(f"{'unlimited' if it.limit == ANY else it.limit:>15}" + "".join(f"{shown(share):>18}" for share in shares))
    return "\n".join([*out, made.told()]) + "\n"


def main():
    parser = argparse.ArgumentParser(description=__doc__, formatter_class=argparse.RawDescriptionHelpFormatter)
    parser.add_argument("--estimate", action="store_true", help="estimate the whole from some of the parts")
    parser.add_argument("--total-requests", type=int, metavar="N", help="with --estimate, where no file says it: how many requests all parts have together")
    parser.add_argument("--total-bytes", type=int, metavar="BYTES", help="what these weigh by their own lines, with --entry-overhead for each")
    parser.add_argument("--csv", action="store_true", help="write the estimate as CSV")
    parser.add_argument("files", nargs="+", metavar="FILE", help="the curves of parts")
    options = parser.parse_intermixed_args()
    if options.csv and not options.estimate:
        parser.error("--csv goes with --estimate; sums are CSV anyway")
    if (options.total_requests is None) != (options.total_bytes is None) or (options.total_requests is not None and not options.estimate):
        parser.error("--total-requests and --total-bytes go together, with --estimate")
    try:
        curves = [it for name in options.files for it in read_curves(name)]
        check_alike(curves)
        for it in curves:
            if it.hours:
                print(f"merge-curves: {it.name}: its rows of --interval are left out: each part has marks of its own", file=sys.stderr)
        if options.estimate:
            if options.total_requests is not None:
                curves[0].totals.update(total_requests=options.total_requests, total_bytes=options.total_bytes)
            made = Estimates(curves)
            text = estimate_csv(made) if options.csv else estimate_text(made)
        else:
            parts = {it.part for it in curves}
            missing = next((it for it in range(curves[0].parts) if it not in parts), None)
            if missing is not None:
                raise Refused(f"part {missing} of {curves[0].parts} is missing")
            text = merged(curves)
    except Refused as why:
        print(f"merge-curves: {why}", file=sys.stderr)
        sys.exit(2)
    except OSError as error:
        print(f"merge-curves: {error}", file=sys.stderr)
        sys.exit(1)
    sys.stdout.write(text)


if __name__ == "__main__":
    main()
