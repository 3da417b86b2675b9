"""Counts the keys that are asked once, and how far lengths that change can move a curve, in bounded memory: of very many keys those of a
sample by their hash."""
import zlib

MOST_KEYS = 2**19


def is_heavy(lengths):
    """Whether the greatest hundredth of these lengths is more than half of them all."""
    order = sorted(lengths, reverse=True)
    return 2 * sum(order[:len(order) // 100]) > sum(order)


class Keys:
    def __init__(self, overhead, most=MOST_KEYS):
        self.overhead, self.most, self.mask, self.untold = overhead, most, 0, 0
        # the first length of each key; the keys that were asked again; the least and the greatest length of those whose length changed
        self.first, self.again, self.odd = {}, set(), {}

    def take(self, pairs):
        """Counts requests: keys with the bytes of their length, '?' or '-'."""
        first, again, mask = self.first, self.again, self.mask
        for key, size in pairs:
            if mask and zlib.crc32(key) & mask:
                continue
            own = first.get(key)
            if own is None:
                if size.isdigit():
                    first[key] = size
            elif size != b"-":
                again.add(key)
                if size != own and size.isdigit():
                    low, high = self.odd.get(key, (int(own), int(own)))
                    self.odd[key] = min(low, int(size)), max(high, int(size))
        while len(first) > self.most:
            self.halve()

    def count(self, pairs, more):
        """Counts the requests of all keys that tell no length, and those of lines that stand for more, of which a length comes so often."""
        self.untold += sum(size == b"?" for _, size in pairs) + sum(times for size, times in more if size == b"?")

    def lacking(self):
        """How many requests tell no length."""
        return self.untold

    def halve(self):
        """Keeps the keys of a sample of half as many."""
        self.mask = 2 * self.mask + 1
        self.first = {key: size for key, size in self.first.items() if not zlib.crc32(key) & self.mask}
        self.again = {key for key in self.again if key in self.first}
        self.odd = {key: it for key, it in self.odd.items() if key in self.first}

    def weight(self):
        """What all keys weigh together, each once, by its first length: what a cache needs that lets none go. Reckoned from the sample, where
        there is one."""
        return sum(max(1, int(size) + self.overhead) for size in self.first.values()) * (self.mask + 1)

    def is_heavy(self):
        return is_heavy(map(int, self.first.values()))

    def once(self):
        """The shares of keys and of room that were asked once, and how many requests they are; None without keys."""
        if not self.first:
            return None
        once_weight, once = 0, 0
        for key, size in self.first.items():
            if key not in self.again:
                once, once_weight = once + 1, once_weight + max(1, int(size) + self.overhead)
        return once / len(self.first), once_weight * (self.mask + 1) / self.weight(), once * (self.mask + 1)

    def sideways(self):
        """How many keys changed their length, and by how many bytes the curve can move: to the right, and to the left."""
        up = sum(high - int(self.first[key]) for key, (low, high) in self.odd.items())
        down = sum(int(self.first[key]) - low for key, (low, high) in self.odd.items())
        return len(self.odd) * (self.mask + 1), up * (self.mask + 1), down * (self.mask + 1)
