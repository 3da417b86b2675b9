"""Other policies than LRU, simulated on the requests of a log at a few sizes. Nothing here is proved; its LRU is compared with the curve.

The second LRU admits a key at its second request. SIEVE and S3-FIFO are those of their papers, by weight. What is heavier than the size passes them
by; LRU takes it as the curve does."""
from collections import OrderedDict


class Policy:
    """A cache of one limit; finds, and what was written into it."""

    def __init__(self, limit):
        self.limit, self.finds, self.written = limit, 0, 0


class Lru(Policy):
    name = "LRU"

    def __init__(self, limit):
        super().__init__(limit)
        self.rows, self.total = OrderedDict(), 0

    def ask(self, key, weight):
        if key in self.rows:
            self.finds += 1
            self.rows.move_to_end(key)
        elif self.takes(key, weight):
            self.written += weight
            self.rows[key] = weight
            self.total += weight
            while self.total > self.limit:
                self.total -= self.rows.popitem(last=False)[1]

    def takes(self, _key, _weight):
        return True

    def remove(self, key):
        self.total -= self.rows.pop(key, 0)


class LruSecond(Lru):
    name = "2nd request"

    def __init__(self, limit):
        super().__init__(limit)
        self.seen = set()

    def takes(self, key, weight):
        if weight > self.limit or key in self.seen:
            return weight <= self.limit
        self.seen.add(key)
        return False


class Sieve(Policy):
    """A queue of keys, newest first. A hand goes from the oldest towards the newest: what was asked for since is passed, else it goes."""

    name = "SIEVE"

    def __init__(self, limit):
        super().__init__(limit)
        self.weights, self.asked, self.newer, self.older = {}, set(), {}, {}
        self.newest = self.oldest = self.hand = None
        self.total = 0

    def ask(self, key, weight):
        if key in self.weights:
            self.finds += 1
            self.asked.add(key)
            return
        if weight > self.limit:
            return
        while self.total + weight > self.limit:
            self.evict()
        self.written += weight
        self.weights[key], self.older[key], self.newer[key] = weight, self.newest, None
        if self.newest is not None:
            self.newer[self.newest] = key
        else:
            self.oldest = key
        self.newest, self.total = key, self.total + weight

    def evict(self):
        at = self.oldest if self.hand is None else self.hand
        while at in self.asked:
            self.asked.remove(at)
            at = self.oldest if self.newer[at] is None else self.newer[at]
        self.hand = at
        self.remove(at)

    def remove(self, key):
        if key not in self.weights:
            return
        self.total -= self.weights.pop(key)
        self.asked.discard(key)
        newer, older = self.newer.pop(key), self.older.pop(key)
        if self.hand == key:
            self.hand = newer
        if newer is None:
            self.newest = older
        else:
            self.older[newer] = older
        if older is None:
            self.oldest = newer
        else:
            self.newer[older] = newer


class S3Fifo(Policy):
    """Two queues, a small one of a tenth and the main one, and the keys that went from the small one of late."""

    name = "S3-FIFO"

    def __init__(self, limit):
        super().__init__(limit)
        self.small, self.main, self.ghosts, self.count = OrderedDict(), OrderedDict(), OrderedDict(), {}
        self.in_small = self.in_main = self.in_ghosts = 0

    def ask(self, key, weight):
        if key in self.small or key in self.main:
            self.finds += 1
            self.count[key] = min(3, self.count[key] + 1)
            return
        if weight > self.limit:
            return
        ghost = self.ghosts.pop(key, None)
        self.in_ghosts -= ghost or 0
        while self.in_small + self.in_main + weight > self.limit:
            if self.in_small > self.limit // 10 or not self.main:
                self.evict_small()
            else:
                self.evict_main()
        self.written += weight
        self.count[key] = 0
        if ghost is None:
            self.small[key] = weight
            self.in_small += weight
        else:
            self.main[key] = weight
            self.in_main += weight

    def evict_small(self):
        most = self.limit - self.limit // 10
        while self.small:
            key, weight = self.small.popitem(last=False)
            self.in_small -= weight
            if self.count[key] > 1:
                self.count[key] = 0
                self.main[key] = weight
                self.in_main += weight
                while self.in_main > most:
                    self.evict_main()
            else:
                del self.count[key]
                self.ghosts[key] = weight
                self.in_ghosts += weight
                while self.in_ghosts > most:
                    self.in_ghosts -= self.ghosts.popitem(last=False)[1]
                return

    def evict_main(self):
        while self.main:
            key, weight = self.main.popitem(last=False)
            if self.count[key]:
                self.count[key] -= 1
                self.main[key] = weight
            else:
                del self.count[key]
                self.in_main -= weight
                return

    def remove(self, key):
        self.in_small -= self.small.pop(key, 0)
        self.in_main -= self.main.pop(key, 0)
        self.count.pop(key, None)


POLICIES = (Lru, LruSecond, Sieve, S3Fifo)


def simulated(blocks, limits, overhead):
    """The policies at each of the limits, after all requests: lines 'time key bytes'. A key weighs what its first request says."""
    runs, weights, asks = [[it(limit) for it in POLICIES] for limit in limits], {}, 0
    every = [it for run in runs for it in run]
    for lines in blocks:
        for words in (it.split() for line in lines for it in line.splitlines()):
            key, size = words[1], words[2]
            if size == b"-":
                for it in every:
                    it.remove(key)
                continue
            weight = weights.get(key)
            if weight is None:
                if size == b"?":
                    continue
                weight = weights[key] = max(1, int(size) + overhead)
            asks += 1
            for it in every:
                it.ask(key, weight)
    return runs, asks
