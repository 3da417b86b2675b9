"""What the curve program is asked for: by the options of the planner."""
import os

from logs.unpack import Refused

from .words import short_size

# The seconds between rows so far, of which some BLOCKS are wanted.
STEPS = (1, 2, 5, 10, 15, 30, 60, 120, 300, 600, 900, 1800, 3600, 7200, 10800, 21600, 43200, 86400, 604800)
BLOCKS = 40


def interval(options, reading):
    """The seconds of --interval: so that some 20 to 40 blocks come of the log, as its first file looks, or as the command line says."""
    if options.interval:
        return options.interval
    first = min(reading.logs, key=lambda it: it.first)
    if options.warmup is not None:
        # the first multiple of this is the end of the warm-up
        return max(1, first.first + options.warmup)
    guess = 86400
    moments = [it.moment for it in first.front_made()]
    front = first.stream.look()
    if len(moments) > 1 and max(moments) > min(moments):
        files = [os.path.getsize(it) for it in options.logs if it != "-"]
        packed = 8 if first.stream.packing else 1
        used = min(len(front), sum(len(it) + 1 for it in front.split(b"\n")[:1000]))
        guess = (max(moments) - min(moments)) * max(1, packed * sum(files) / max(1, used))
    return next((it for it in STEPS if it * BLOCKS >= guess), STEPS[-1])


def words_of(options, reading, built, ttl):
    """The command line of the curve program for one lifetime."""
    words = [*(options.limits or ["--standard-sizes"]), *reading.options, "--entry-overhead", str(options.entry_overhead), "--ttl", str(ttl)]
    words += ["--max-entries", str(options.max_entries)] if options.max_entries else []
    if options.sample:
        return [*words, "--sample", options.sample, "--sample-parts", str(options.sample_parts)]
    # `rt try` takes no more of a program's output than the rows
    by = built or options.interval or options.warmup is not None
    return [*words, "--interval", str(interval(options, reading))] if by else words


def too_few(plan):
    """Refuses parts that tell of no size."""
    if not plan.sizes:
        raise Refused("the parts hold too few bodies to tell of any of these sizes: fewer, larger parts (a lesser K) do"
                      + (f", of keys that weigh {short_size(plan.footprint)}" if plan.footprint else ""))
