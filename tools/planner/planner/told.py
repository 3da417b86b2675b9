"""What plan.py prints around the table, and what it writes beside the picture."""
from . import curve
from .words import duration, many, moment, percent, short_size


def read_words(reading, first):
    """The first line: what was read."""
    counts = reading.counts
    if not reading.raw:
        return f"{reading.described()}. {counts.told()}"
    others = f"; other operations {first.other_ops:,}" if first.other_ops else ""
    asked = first.requests if first.total_requests is None else first.total_requests
    back = f"; {counts.back:,} go back in time" if counts.back else ""
    return f"{reading.described()}. {counts.lines:,} lines or records: {asked:,} requests; skipped {first.skipped_lines:,}{others}{back}."


def share_words(count, requests):
    """A count with its share of the requests."""
    return f"{many(count, 'request')} ({100 * count / max(1, requests):.1f} %)"


def lengths_words(plan, first, spooled):
    """What the first line says of requests whose length isn't known, if there are some."""
    if not spooled and first.requests_without_size:
        return f" {share_words(first.requests_without_size, first.requests + first.requests_without_size)} are left out: the length of their keys' bodies came later, or never."
    if plan.reckoned:
        return f" {share_words(plan.reckoned, plan.requests)} count with a reckoned length: no whole response of their keys was logged."
    return ""


def own_words(plan, counts):
    """How the log's own cache did, beside an LRU: the strongest check that there is of these figures."""
    if not counts.own or counts.own < counts.requests / 2:
        return None
    ratio = counts.own_hits / counts.own
    same = next((it for it in plan.sizes if it.found is not None and it.found >= ratio), None)
    beside = f"an LRU has as many from {short_size(same.limit)} on" if same else "none of these sizes has as many"
    return f"Your cache: {percent(ratio)} of {counts.own:,} requests were hits by its own words; {beside}. LRU of your cache's size stands in the table: where it differs much, so does the log from what the cache was asked."


def keys_words(options, plan, keys, reading, told_by):
    about = "some " if keys.mask or not plan.exact else ""
    kinds = list(dict.fromkeys(it.format.key for it in reading.logs))
    out = [f"Key: {' and '.join(kinds)}. {about}{plan.entries:,} keys; footprint {short_size(plan.footprint)} with {options.entry_overhead} bytes of overhead an entry ({told_by})."]
    once = keys.once()
    if once:
        some = "some " if keys.mask else ""
        out.append(f"One-hit wonders: {some}{100 * once[0]:.0f} % of the keys, {100 * once[2] / max(1, plan.requests):.0f} % of the requests, {100 * once[1]:.0f} % of the footprint.")
    return " ".join(out) + "\n" + ttl_words(options, plan, reading)


def ttl_words(options, plan, reading):
    """How long responses are fresh, and how many of the requests can be fresh hits at any size."""
    under = " under this --max-entries" if plan.bound else ""
    if plan.others:
        shares = ", ".join(f"{duration(it.lifetime)}: {percent(it.cap)}" for it in plan.others if it.cap is not None)
        return f"No --ttl: at any size{under} at most so many of the requests can be fresh hits, by how long responses stay fresh: {shares}."
    text = f"Responses are fresh for {options.ttls[0]} s ({'--ttl' if options.ttl is not None else 'by default: --ttl'})"
    if reading.told_lifetimes():
        text += " where the log doesn't say"
    if plan.cap is not None:
        return text + f": at any size{under} {percent(plan.cap)} of the requests can be fresh hits."
    return text + (", too short for a sample to tell fresh hits." if not reading.told_lifetimes() else ".")


def unread_words(counts):
    """A warning where more than a hundredth of the lines wasn't read."""
    return [f"Warning: {counts.unread:,} of {counts.lines:,} lines ({100 * counts.unread / counts.lines:.1f} %) weren't read."] if counts.unread > 0.01 * max(1, counts.lines) else []


def sorted_words(counts, spool):
    if spool and spool.is_sorted:
        return [f"{many(counts.back, 'request')} went back in time: the requests were sorted first."]
    return [f"Warning: {counts.back:,} requests ({100 * counts.back / max(1, counts.lines):.1f} %) go back in time: --sort puts them in order."] if counts.back > 0.01 * max(1, counts.lines) else []


def notes(plan, first, keys, made, reading, spool):
    """The last lines: what the figures are worth."""
    return [*exactness(plan, first, keys, made), *sorted_words(reading.counts, spool), *unread_words(reading.counts), *short_words(plan, made)]


def short_words(plan, made):
    """That a short log asks for a small cache."""
    return [] if made or not plan.exact or plan.span >= 86400 else [f"The log spans {duration(plan.span)}: a longer one asks for a larger cache."]


def exactness(plan, first, keys, made):
    if made:
        out = [made.told()[2:] + "."]
        if plan.told_from is not None:
            out.append(f"Below {short_size(plan.told_from)} the caches of the parts hold too few bodies to tell.")
        if keys.lacking():
            out.append(f"{many(keys.lacking(), 'request')} without a length, {100 * keys.lacking() / made.asked:.2f} %: the shares of requests may be somewhat high by them, and those of bytes somewhat low.")
        if made.by_lines:
            out.append("Lines tell lifetimes here: how far a sample's fresh hits are off isn't known, so they are left out.")
        elif made.swings:
            out.append("Fresh hits swing too much for so few parts: fewer, larger parts (a lesser K) tell them.")
        return out
    out = []
    if first.size_changes:
        count, up, down = keys.sideways()
        about = "about " if keys.mask else "at most "
        out.append(f"{many(first.size_changes, 'request')} for {many(count, 'key')} by another length than the key's first: a share may be that of a size {about}{short_size(max(up, down))} smaller or larger. "
                   "Exact otherwise, for one LRU.")
    elif plan.is_reckoned():
        out.append("Not exact: requests are left out whose keys' lengths came later, or never." if first.requests_without_size else
                   "Not exact: the lengths of some keys are reckoned (the mean of the others, at least the greatest part seen).")
    else:
        out.append("Exact, for one LRU: each key has one length.")
    if plan.warm is not None:
        out.append(f"The shares are of the requests from {moment(plan.warm)} on (--warmup); before it the caches fill.")
    elif plan.half_from is not None:
        out.append(f"2nd half: the requests from {moment(plan.half_from)} on.")
    return out


def hours_text(curve_, shown):
    """The hits of each hour, or so, as CSV: the differences of the rows so far."""
    out, before = ["interval_start,size,requests,request_bytes,hits,hit_bytes,fresh_hits,fresh_hit_bytes"], None
    ends = sorted(curve_.hours) + [None]
    start = curve_.first_at
    for at in ends:
        requests, weight, rows = curve_.hours[at] if at is not None else (curve_.requests, curve_.request_bytes, curve_.rows)
        for place, row in enumerate(rows):
            if row.limit in shown or row.limit == curve.ANY:
                now = [requests, weight, row.finds, row.found, row.fresh, row.fresh_bytes]
                less = before[2][place] if before else None
                then = [*before[:2], less.finds, less.found, less.fresh, less.fresh_bytes] if before else [0] * 6
                name = "unlimited" if row.limit == curve.ANY else row.limit
                out.append(",".join(map(str, [start, name, *(a - b for a, b in zip(now, then))])))
        before, start = (requests, weight, rows), at
    return "\n".join(out) + "\n"


def curve_text(curve_, shown):
    """The program's text, with the rows of the shown sizes."""
    kept = curve.Curve(curve_.name, [it for it in curve_.rows if it.limit in shown or it.limit == curve.ANY], curve_.totals, curve_.kind)
    return kept.text()
