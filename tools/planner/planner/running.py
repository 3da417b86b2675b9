"""Holds the plan against a running nijpdra-proxy: its hits since its start beside what an LRU of its memory hits of the log."""
import re
import urllib.error
import urllib.request

from logs.unpack import Refused

from .words import many, percent, short_size

MOST_BYTES = 1 << 20
SECONDS = 10
# What is counted apart by as many points isn't as planned.
AS_PLANNED = 0.02
COUNT = re.compile(r"^nijpdra_(\w+) (\d+)$", re.M)
NEEDED = ("requests_total", "hits_total", "collapsed_total", "revalidated_total", "stale_on_error_total", "relayed_total", "evicted_total", "memory_bytes")


def counts_of(url):
    """The counts of a proxy by its admin address."""
    try:
        # (an admin address is asked itself, whatever proxy the environment names)
        with urllib.request.build_opener(urllib.request.ProxyHandler({})).open(url, timeout=SECONDS) as answer:
            text = answer.read(MOST_BYTES).decode("ascii", "replace")
    except (OSError, ValueError, urllib.error.URLError) as why:
        raise Refused(f"--compare: {url}: {getattr(why, 'reason', why)}") from why
    counts = {name: int(count) for name, count in COUNT.findall(text)}
    lacks = [it for it in NEEDED if it not in counts]
    if lacks:
        raise Refused(f"--compare: {url}: these aren't the counts of a nijpdra-proxy: nijpdra_{lacks[0]} isn't there")
    if not counts["requests_total"]:
        raise Refused(f"--compare: {url}: the proxy had no request yet")
    return counts


def planned(plan, memory, what):
    """The shares of the sizes beside the proxy's memory: of the greatest that is no larger, and of the least that is no smaller, where they are told."""
    told = [it for it in plan.sizes if getattr(it, what) is not None]
    return [it for it in (next((it for it in reversed(told) if it.limit <= memory), None), next((it for it in told if it.limit >= memory), None)) if it]


def compared(url, counts, plan, by_lifetime):
    """The lines that say how the proxy does beside the plan. Where a lifetime is named only fresh hits count, else also what the origin confirmed."""
    what, asked = ("fresh" if by_lifetime else "found"), counts["requests_total"]
    names = ("hits_total", "collapsed_total", "stale_on_error_total", *(() if by_lifetime else ("revalidated_total",)))
    ratio = sum(counts[it] for it in names) / asked
    beside = planned(plan, counts["memory_bytes"], what)
    if not beside:
        raise Refused("--compare: the plan tells no share of such hits")
    shares = [getattr(it, what) for it in beside]
    if ratio < min(shares) - AS_PLANNED:
        verdict = "fewer than planned"
    elif ratio > max(shares) + AS_PLANNED:
        verdict = "more than planned"
    else:
        verdict = "as planned"
    sizes = " and ".join(dict.fromkeys(f"{percent(share)} at {short_size(it.limit)}" for it, share in zip(beside, shares)))
    lines = [f"{url}: {percent(ratio)} of {many(asked, 'request')} since its start were hits, of {short_size(counts['memory_bytes'])} of memory; an LRU has {sizes} of the log's: {verdict}."]
    if verdict != "as planned":
        others = "" if not by_lifetime else f", {percent(counts['revalidated_total'] / asked)} by what the origin confirmed"
        lines.append(f"Of its requests {percent(counts['relayed_total'] / asked)} were answered by what wasn't stored{others}; {counts['evicted_total']:,} entries went for room. A cache that began a short while ago has few hits yet.")
    return lines
