"""What a cache of the whole size finds, estimated from some parts of the keys, and how far off that may be.

Of each part what it doesn't find, times the number of parts, isn't found; all else is. The estimate is the mean over the parts. Half
the width of its interval is Student's t times the standard error of the mean, the less the more of all parts were taken."""
import math

from .curve import AGED, ANY, HEAD, Refused, Row

# The 97.5 % point of Student's t for so many parts.
STUDENT = {2: 12.706, 3: 4.303, 4: 3.182, 5: 2.776, 6: 2.571, 7: 2.447, 8: 2.365, 9: 2.306, 10: 2.262, 11: 2.228, 12: 2.201, 13: 2.179,
           14: 2.160, 15: 2.145, 16: 2.131, 17: 2.120, 18: 2.110, 19: 2.101, 20: 2.093, 25: 2.064, 30: 2.045, 40: 2.023}
# Of each kind of row, how many of 100 intervals held in trials of so many parts; of whole curves 7 of 10. Of more and smaller parts fewer
# held: 88 of 10 of 200, 79 of 25 of 500.
HELD, HELD_OF, HELD_WHOLE = 92, "5 of 100", "7 of 10"
# The same where the greatest hundredth of the keys has more than half of the footprint.
HELD_HEAVY = 75
# A part's cache of fewer mean weights, and parts of fewer keys, tell little.
LEAST_WEIGHTS, FEW_KEYS = 100, 5000
# Of so many of the requests the length may be untold.
MOST_UNTOLD = 0.01


def student(parts):
    return STUDENT[max(it for it in STUDENT if it <= parts)]


def share(asked, found, whole, parts):
    """The share of the whole that is found, by one part of so many."""
    return min(1.0, max(0.0, 1 - parts * (asked - found) / whole)) if whole else 0.0


def interval(shares, parts):
    """The mean of the shares, and half the width of its interval."""
    count = len(shares)
    mean = sum(shares) / count
    spread = sum((it - mean) ** 2 for it in shares) / (count - 1)
    return mean, student(count) * math.sqrt(spread / count * (1 - count / parts))


def check_told(untold, asked):
    """Refuses parts of requests of which too many tell no length: `total_requests` counts these, and `total_bytes` not their weight, while a part
    counts the weight of a known key, and leaves the others out."""
    if untold > MOST_UNTOLD * asked:
        raise Refused(f"{untold:,} of {asked:,} requests tell no length ('?', a 206, a 304, a HEAD): a sample wants lengths, or its shares are off by as much; plan without --sample")


class Estimate:
    """The shares of one limit, each with its ±; None where the parts tell too little."""

    def __init__(self, limit, requests, weight, fresh, fresh_weight, row):
        self.limit, self.requests, self.weight, self.fresh, self.fresh_weight = limit, requests, weight, fresh, fresh_weight
        # the whole numbers that the means stand for
        self.row = row


class Estimates:
    """The estimates of all limits, from curves of some parts of the keys. `footprint` is what all keys weigh and `untold` how many requests
    tell no length, where that is known. With `by_lines` lines told lifetimes of their own."""

    def __init__(self, curves, footprint=None, untold=None, by_lines=False, heavy=False):
        first = curves[0]
        told = next((it for it in curves if "total_requests" in it.totals), None)
        if told is None:
            raise Refused("no file says how many requests there are in all (total_requests=): one must be of --sample")
        if not 2 <= len(curves) < first.parts:
            raise Refused(f"an estimate wants 2 to {first.parts - 1} of {first.parts} parts, not {len(curves)}")
        self.curves, self.parts, self.asked, self.weight, self.timed = curves, first.parts, told.total_requests, told.total_bytes, first.timed
        check_told(sum(it.requests_without_size or 0 for it in curves) * self.parts // len(curves) if untold is None else untold, self.asked)
        self.entries = sum(it.unique_keys for it in curves)
        # a request that nothing finds loads its key: where a watermark bounds the caches, or keys are removed, one key more than once
        loads = sum(it.requests - it.rows[-1].finds for it in curves)
        self.mean_weight = sum(it.request_bytes - it.rows[-1].found for it in curves) / loads if loads else 0
        self.few = self.entries / len(curves) < FEW_KEYS
        self.footprint = round(self.mean_weight * self.entries * self.parts / len(curves)) if footprint is None else footprint
        moments = [(it.first_at, it.last_at) for it in curves if it.first_at is not None]
        self.span = max(it[1] for it in moments) - min(it[0] for it in moments) if moments else 0
        # a key that is asked often is loaded once a lifetime: then its finds swing with the parts that have it. How long those are that
        # lines told isn't known
        self.by_lines = self.timed and (by_lines or first.ttl is None)
        self.swings = self.by_lines or (self.timed and self.parts * self.span > self.asked * max(1, first.ttl) / 200)
        self.heavy = heavy
        self.rows = [self.row(at) for at in range(len(first.rows))]

    def of(self, pairs, whole):
        return interval([share(asked, found, whole, self.parts) for asked, found in pairs], self.parts)

    def row(self, at):
        rows, limit = [it.rows[at] for it in self.curves], self.curves[0].rows[at].limit
        if limit / self.parts < LEAST_WEIGHTS * self.mean_weight:
            return Estimate(limit, None, None, None, None, None)
        said = [it.request_bytes if it.stated_bytes is None else it.stated_bytes for it in self.curves]
        asks = [it.requests for it in self.curves]
        shares = [self.of(zip(asks, (it.finds for it in rows)), self.asked), self.of(zip(said, (it.found for it in rows)), self.weight)]
        if self.timed and not self.swings:
            shares += [self.of(zip(asks, (it.fresh for it in rows)), self.asked), self.of(zip(said, (it.fresh_bytes for it in rows)), self.weight)]
        else:
            shares += [None, None]
        whole = [None if it is None else round(it[0] * of) for it, of in zip(shares, (self.asked, self.weight) * 2)]
        middle = [sorted(it, key=lambda moment: (moment is None, moment or 0))[len(rows) // 2] for it in ([row.full_at for row in rows], [row.oldest_at for row in rows])]
        entries = sum(it.entries for it in rows) * self.parts // len(rows) if self.curves[0].aged else None
        return Estimate(limit, *shares, Row(limit, *whole, entries, *middle))

    def told(self):
        """What the ± are worth."""
        if self.heavy:
            return (f"# estimate: {len(self.curves)} of {self.parts} parts of the keys; 1 % of the keys weigh more than the others together: in trials of such sizes "
                    f"each ± held {HELD_HEAVY} times in 100" + ("; few keys" if self.few else ""))
        return f"# estimate: {len(self.curves)} of {self.parts} parts of the keys; in trials of {HELD_OF} each ± held {HELD} times in 100, a whole curve in {HELD_WHOLE}" + ("; few keys" if self.few else "")


def csv_share(share, add):
    """The mean as a percent, or, with `add`, its ±; empty where there is none."""
    return "" if share is None else f"{100 * share[1]:.2f}" if add else f"{100 * share[0]:.2f}"


def estimate_csv(made):
    head = AGED if made.timed else HEAD
    head += ",hit_percent_error,byte_hit_percent_error" + (",fresh_hit_percent_error,fresh_byte_hit_percent_error" if made.timed else "")
    out = [head]
    for it in made.rows:
        row = it.row or Row(it.limit, None, None)
        shares = [it.requests, it.weight, it.fresh, it.fresh_weight]
        words = ["unlimited" if it.limit == ANY else it.limit, row.finds, row.found, *(csv_share(share, False) for share in shares[:2])]
        if made.timed:
            words += [row.fresh, row.fresh_bytes, *(csv_share(share, False) for share in shares[2:]), row.entries, row.full_at, row.oldest_at]
        words += [csv_share(share, True) for share in shares[:4 if made.timed else 2]]
        out.append(",".join("" if word is None else str(word) for word in words))
    return "\n".join([*out, f"# format=1 requests={made.asked} request_bytes={made.weight} parts={len(made.curves)}/{made.parts} entry_overhead={made.curves[0].entry_overhead}", made.told()]) + "\n"
