"""The table that plan.py prints: the columns of which something is known."""
from .words import duration, percent, size, times


def share(value, error):
    if value is None:
        return "-"
    return percent(value) if error is None else f"{percent(value)} ± {100 * error:.1f}"


def shown(value, how):
    return "-" if value is None else how(value)


def columns(plan):
    """The columns: two words of head, the width, and the words of a size. A bar stands before some."""
    wide, when = 10 if plan.exact else 14, "a day" if plan.daily else "in all"
    never = "never" if plan.exact else "-"
    out = [(" ", "", "size", 9, lambda it: size(it.limit)),
           (" ", "hit", "ratio", wide, lambda it: share(it.found, it.errors[0])),
           (" ", "byte hit", "ratio", wide, lambda it: share(it.weight, it.errors[1]))]
    for at, other in enumerate(plan.others):
        out.append((" | " if at == 0 else " ", "fresh" if at else "fresh hits,", f"{duration(other.lifetime)}", 11 if at == 0 else 8, lambda it, at=at: share(it.fresh_by[at], None)))
    if plan.timed and not plan.others:
        out.append((" ", "fresh", "hits", wide, lambda it: share(it.fresh, it.errors[2])))
    if plan.half_from is not None:
        out.append((" ", "hit ratio", "2nd half", 9, lambda it: share(it.half, None)))
    if not plan.others:
        out.append((" | ", "origin", when, 7, lambda it: shown(it.origin, size)))
        out.append((" ", "saved", when, 7, lambda it: shown(it.saved, size)))
        if plan.timed:
            out.append((" ", "of origin", "stale", 9, lambda it: shown(it.stale, size)))
    out.append((" | " if plan.others else " ", "turnover", when, 8, lambda it: shown(it.turned, times)))
    if plan.aged:
        out += [(" | ", "first", "eviction", 8, lambda it: never if it.full_after is None else duration(it.full_after)),
                (" ", "victim", "idle", 7, lambda it: shown(it.age, duration)),
                (" ", "", "memory", 8, lambda it: shown(it.memory, size))]
    if any(it.cost is not None for it in plan.sizes):
        out.append((" | ", "cost", "a month", 9, lambda it: shown(it.cost, "{:,.2f}".format)))
    return out


def line(parts):
    return "".join(bar + text.rjust(width) for bar, text, width in parts)[1:]


def table(plan, each):
    """The lines of the table: every third size and those with a mark, or each."""
    its = columns(plan)
    sizes = [it for at, it in enumerate(plan.sizes) if each or it.marks or at % 3 == 0 or at == len(plan.sizes) - 1]
    heads = [line((bar, head[at], width) for bar, *head, width, _ in its) for at in (0, 1)]
    rows = (line((bar, how(it), width) for bar, _, _, width, how in its) + ("   " + "; ".join(it.marks) if it.marks else "") for it in sizes)
    return [*heads, *rows]


def policies_table(runs, asks):
    """The lines of the table of other policies: of each size the hits and what was written."""
    out = ["simulated, not proved (but LRU, which is the curve's): hit ratio / written bytes",
           f"{'size':>9}" + "".join(f"{it.name:>19}" for it in runs[0])]
    for run in runs:
        cells = (f"{percent(it.finds / asks)} / {size(it.written)}" for it in run)
        out.append(f"{size(run[0].limit):>9}" + "".join(f"{it:>19}" for it in cells))
    return [*out, "2nd request: LRU that admits a key at its second request; the memory of the keys that it has seen isn't counted."]
