"""What a planner decides by: the figures of each size, from an exact curve or from estimates."""
import statistics

from .curve import ANY
from .words import duration, percent, short_size

# Bytes that a tier takes for an entry beside its weight, as docs/measurements.md has them.
ENTRY = 540
# Below this many seconds a log isn't reckoned up to a day.
SHORTEST = 3600
# Past these shares of requests with a reckoned length nothing is called exact, and nothing is answered.
RECKONED, MOST_RECKONED = 0.01, 0.1
# Past this share of lines that aren't read there is no answer either.
MOST_UNREAD = 0.1
MONTH = 30 * 86400


class Prices:
    """What a gigabyte from the origin, ten thousand requests to it, and a gigabyte of memory for a month cost."""

    def __init__(self, price=0.0, ask=0.0, memory=0.0):
        self.price, self.ask, self.memory = price, ask, memory

    def any(self):
        return self.price > 0 or self.ask > 0 or self.memory > 0


class Size:
    """The figures of one size. Shares run from 0 to 1; errors are half the width of their intervals, or None."""

    def __init__(self, limit, shares, errors):
        self.limit, self.errors = limit, errors
        self.found, self.weight, self.fresh, self.fresh_weight = shares
        self.half = self.entries = self.full_after = self.age = self.memory = self.cost = None
        self.origin = self.stale = self.turned = None
        # the fresh hits by each lifetime, where none was named; the bytes that the origin needn't send
        self.fresh_by, self.saved = [], None
        # what the origin is asked and sends while the cache is warm, of which its cost is reckoned
        self.billed = None
        self.marks = []


class Plan:
    """All sizes that are shown, and what holds of the log as a whole."""

    def __init__(self, requests, weight, entries, footprint, lifetime, first, last, prices):
        self.requests, self.weight, self.entries, self.footprint = requests, weight, entries, footprint
        self.lifetime, self.first, self.prices = lifetime, first, prices
        self.span = (last - first) if first is not None else 0
        # the factor that makes sums of the log those of a day
        self.daily = self.span >= SHORTEST
        self.scale = 86400 / self.span if self.daily else 1
        self.sizes, self.any, self.warm, self.exact, self.timed, self.aged = [], None, None, True, True, True
        self.half_from = self.cap = None
        # whether some key was let go at every size, and was asked for again
        self.bound = False
        # the least size of which the parts of an estimate tell enough, where they don't of all
        self.told_from = None
        # the plans of other lifetimes, where none was named; this one's fresh hits are those of the longest
        self.others = []
        # requests that count with a reckoned length
        self.reckoned = 0
        # the requests and bytes of which a month's cost is reckoned, and their seconds
        self.billed = None

    def add(self, size, entries, full_at, ages):
        """Takes a size, with the figures that follow from its shares; of the ages of its oldest entry while it was full the median."""
        if size.weight is not None:
            missed = self.weight * (1 - size.weight)
            size.turned = missed / size.limit * self.scale
            size.origin = missed * self.scale
            if size.fresh_weight is not None:
                size.origin = self.weight * (1 - size.fresh_weight) * self.scale
                size.stale = self.weight * (size.weight - size.fresh_weight) * self.scale
            size.saved = self.weight * self.scale - size.origin
        if entries is not None and size.limit != ANY:
            size.entries, size.memory = entries, size.limit + ENTRY * entries
        size.full_after = None if full_at is None else full_at - self.first
        size.age = statistics.median_low(ages) if ages else None
        if size.limit == ANY:
            self.any = size
            return
        if self.prices.any() and size.billed and self.billed >= SHORTEST:
            asks, sent = (it * MONTH / self.billed for it in size.billed)
            memory = size.limit if size.memory is None else size.memory
            size.cost = sent / 10**9 * self.prices.price + asks / 10**4 * self.prices.ask + memory / 10**9 * self.prices.memory
        self.sizes.append(size)

    def keep(self):
        """Keeps the sizes from 1 % of what the keys weigh, or from those that are marked, to the first that holds all."""
        end = next((at for at, it in enumerate(self.sizes) if it.limit >= self.footprint), len(self.sizes) - 1)
        marked = [it.limit / 2 for it in (self.least("fresh", 0.8), self.least("found", 0.8)) if it]
        low = min([self.footprint / 100, *marked])
        self.sizes = [it for it in self.sizes[:end + 1] if it.limit >= low] or self.sizes[end:end + 1]

    def is_reckoned(self):
        """Whether so many requests count with a reckoned length that nothing is called exact."""
        return self.reckoned > RECKONED * max(1, self.requests)

    def drop_untold(self):
        """Drops the sizes of which the parts tell too little."""
        told = [it for it in self.sizes if it.found is not None]
        if told and len(told) < len(self.sizes):
            self.told_from = told[0].limit
        self.sizes = told

    def least(self, what, share):
        """The least size with so much of what any size has, or None: also where a lesser one, of which nothing is told, may have it."""
        top = getattr(self.any, what) if self.any else None
        if not top:
            return None
        found = next((it for it in self.sizes if getattr(it, what) is not None and getattr(it, what) >= share * top), None)
        return None if found is not None and found.limit == self.told_from else found

    def knee(self):
        """The least size from which on none finds 1 % of the requests more when it is doubled; None where that is so of the last sizes alone."""
        found = None
        for it in reversed(self.sizes):
            double = next((other for other in self.sizes if other.limit >= it.limit * 1.96), self.any)
            if double.found - it.found >= 0.01:
                break
            found = it
        return found if found and 2 * found.limit <= self.sizes[-1].limit else None

    def mark_ends(self, say):
        """Says from which sizes on a greater one gives nothing more, and what would: that differs by what bounds the hits of any size.
        Returns the size that hits all, where that is said."""
        if not self.timed or self.any.fresh is None:
            return None
        whole, stale = self.least("found", 1), self.any.found > self.any.fresh
        if stale and not self.others:
            more = "a longer TTL or more entries give" if self.bound else "a longer TTL gives"
            say(self.least("fresh", 0.999), f"beyond this only {more} more fresh hits")
        if stale and self.bound:
            return None
        say(whole, "beyond this only more entries give more hits" if self.bound else "every repeated request is a hit")
        return whole

    def mark(self):
        """Says at which sizes there is something to say."""
        def say(size, text):
            if size is not None and text not in size.marks:
                size.marks.append(text)

        for other in self.others:
            taken = other.taken()
            say(taken and next((it for it in self.sizes if it.limit == taken.limit), None), f"<- take, if fresh for {duration(other.lifetime)}")
        if self.others:
            say(self.least("found", 0.9), "<- take, if fresh for ever")
        else:
            say(self.taken(), "<- take this")
            say(self.least("found", 0.8), "8 of 10 of all hits")
        whole, flat = self.mark_ends(say), self.knee()
        say(None if flat is whole else flat, "knee: beyond this a doubling adds less than 1 %")
        if self.exact and self.aged:
            say(next((it for it in self.sizes if it.full_after is None), None), "the log doesn't fill it")

    def filled(self):
        """The greatest size that the log fills, or None."""
        return next((it for it in reversed(self.sizes) if it.full_after is not None), None)

    def cheapest(self):
        """The size of the least cost, or None where costs aren't told."""
        return min((it for it in self.sizes if it.cost is not None), key=lambda it: it.cost, default=None)

    def taken(self):
        """The size to take: the cheapest where prices tell, else the least that serves 9 of 10 of what any size can; None where none does."""
        return self.cheapest() or self.least("fresh", 0.9) or (self.least("found", 0.9) if self.any and self.any.fresh is None else None)

    def doubling(self, size, what):
        """What the next size of twice as much or more adds, in words."""
        double = next((it for it in self.sizes if it.limit >= 1.96 * size.limit), None)
        more = None if double is None else getattr(double, what) - getattr(size, what)
        return "" if more is None else f" {short_size(double.limit)} adds {100 * more:.1f} points."

    def conclusion(self):
        """The size to take, and why, in words: for each lifetime where none was named."""
        if self.others:
            out = [f"  {'for ever':>12}  {self.chosen('found', 'hit ratio')}"]
            out += [f"  {duration(it.lifetime):>12}  {it.chosen('fresh', 'fresh hits')}" for it in reversed(self.others)]
            return "\n".join(["Take, by how long responses stay fresh (--ttl says it):", *out])
        taken = self.cheapest()
        if taken:
            return f"Take {short_size(taken.limit)}: it costs least, {taken.cost:,.2f} a month, and serves {percent(taken.fresh)} without asking the origin."
        out = f"Take {self.chosen('fresh', 'fresh hits')}" if self.any and self.any.fresh is not None else f"Take {self.chosen('found', 'hit ratio')}"
        out = out.replace("Take none", "None")
        if self.prices.any():
            out += "\nNo cost is told: it needs an hour of log in which the caches are warm."
        fresh, found = self.least("fresh", 0.9), self.least("found", 0.8)
        if fresh and found and found.limit > fresh.limit and found.fresh is not None:
            out += f"\nTo save bytes take {short_size(found.limit)}: hit ratio {percent(found.found)}; {percent(1 - found.fresh / found.found, 0)} of the hits are stale:"
            out += " for these the origin is asked, and a 304 sends no body."
        return out

    def chosen(self, what, word):
        """The size that serves 9 of 10 of what any size can, with its share; or how far the greatest one goes."""
        size, last, top = self.least(what, 0.9), self.sizes[-1], getattr(self.any, what) if self.any else None
        under = " under this --max-entries" if self.bound else ""
        if size is None:
            share = getattr(last, what)
            more = f" Name larger --sizes, up to the footprint of {short_size(self.footprint)}." if last.limit < self.footprint and not under else ""
            return f"none of these sizes: the greatest, {short_size(last.limit)}, has {word} {percent(share or 0)} of {percent(top or 0)} that any size can{under}.{more}"
        byte = size.fresh_weight if what == "fresh" else size.weight
        bytes_saved = "" if byte is None else f", {percent(byte)} of the bytes"
        return f"{short_size(size.limit)}: {word} {percent(getattr(size, what))}{bytes_saved}; at least 9 of 10 of what any size can{under}.{self.doubling(size, what)}"


def second_half(curve):
    """The moment and the rows nearest to half of the requests, where they are between a quarter and three."""
    best = min(curve.hours, key=lambda at: abs(2 * curve.hours[at][0] - curve.requests), default=None)
    if best is None or not curve.requests <= 4 * curve.hours[best][0] <= 3 * curve.requests:
        return None
    return best


def ages_of(curve, at, start, last):
    """How long ago the entry that a size used longest ago was asked for, at each moment of the rows so far and at the end, once it was full."""
    row = curve.rows[at]
    if row.full_at is None:
        return []
    told = [(moment, curve.hours[moment][2][at].oldest_at) for moment in curve.hours if row.full_at < moment and (start is None or start <= moment)]
    return [moment - oldest for moment, oldest in [*told, (last, row.oldest_at)] if oldest is not None]


def loads(curve):
    """How many requests no size finds."""
    return curve.requests - curve.rows[-1].finds


def footprint_of(curve, keys):
    """What all keys weigh, each once. What no size finds says that where no key is loaded twice; a watermark, a removal, or a curve without
    the row of any size lets that be more, and then the log's own pass over the keys says it."""
    return curve.request_bytes - curve.rows[-1].found if loads(curve) == curve.unique_keys else keys.weight()


def is_bound(curves):
    """Whether keys were loaded more often than once and after each removal, at every size: what alone a watermark does."""
    return all(it.rows[-1].limit == ANY for it in curves) and sum(loads(it) - it.unique_keys - it.deletes for it in curves) > 0


def ratio(part, whole):
    return part / whole if whole else 0.0


def of_curve(curve, keys, prices, moments, warm=None):
    """The plan of an exact curve of these keys, of requests from the first to the last of the moments. With `warm`, seconds at the beginning,
    the finds are those after the first rows so far past them."""
    start = None
    first_at, last_at = moments if curve.first_at is None else (curve.first_at, curve.last_at)
    if warm is not None and first_at is not None:
        start = next((at for at in sorted(curve.hours) if at >= first_at + warm), None)
    requests, weight, rows = curve.hours[start] if start is not None else (0, 0, None)
    plan = Plan(curve.requests - requests, curve.request_bytes - weight, curve.unique_keys, footprint_of(curve, keys), curve.ttl,
                first_at, last_at, prices)
    plan.warm, half, plan.aged, plan.bound = start, second_half(curve), curve.aged, is_bound([curve])
    if start is not None:
        plan.span = last_at - start
        plan.daily = plan.span >= SHORTEST
        plan.scale = 86400 / plan.span if plan.daily else 1
    plan.half_from = half
    # a cold start isn't what a month costs: the part past the warm-up, else the second half, is reckoned up
    warm_from = start if start is not None else half
    plan.billed = last_at - warm_from if warm_from is not None else 0
    for at, row in enumerate(curve.rows):
        less = rows[at] if rows else None
        named = ((row.finds, "finds"), (row.found, "found"), (row.fresh, "fresh"), (row.fresh_bytes, "fresh_bytes"))
        counts = [None if own is None else own - (getattr(less, name) if less else 0) for own, name in named]
        size = Size(row.limit, [count if count is None else ratio(count, of) for count, of in zip(counts, (plan.requests, plan.weight) * 2)], [None] * 4)
        if half is not None:
            size.half = ratio(row.finds - curve.hours[half][2][at].finds, curve.requests - curve.hours[half][0])
        if warm_from is not None and row.fresh is not None:
            asks, sent, then = curve.hours[warm_from]
            size.billed = (curve.requests - asks) - (row.fresh - then[at].fresh), (curve.request_bytes - sent) - (row.fresh_bytes - then[at].fresh_bytes)
        plan.add(size, row.entries, row.full_at, ages_of(curve, at, start, last_at))
    if plan.any is None:
        # without a row of any size the greatest one stands for it
        plan.any, plan.timed = plan.sizes[-1], False
    return plan


def of_estimates(made, prices):
    """The plan of estimates."""
    curves = made.curves
    first = min((it.first_at for it in curves if it.first_at is not None), default=None)
    last = max((it.last_at for it in curves if it.last_at is not None), default=None)
    plan = Plan(made.asked, made.weight, made.entries * made.parts // len(curves), made.footprint, curves[0].ttl, first, last, prices)
    plan.exact, plan.aged, plan.bound = False, curves[0].aged, is_bound(curves)
    for it in made.rows:
        shares = [it.requests, it.weight, it.fresh, it.fresh_weight]
        size = Size(it.limit, [share and share[0] for share in shares], [share and share[1] for share in shares])
        row = it.row
        full = row is not None and row.full_at is not None and row.oldest_at is not None
        plan.add(size, row and row.entries, row and row.full_at, [last - row.oldest_at] if full else [])
    plan.drop_untold()
    return plan
