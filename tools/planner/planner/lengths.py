"""What a log tells of each key's length, and how often keys are asked for.

A key has one length: the greatest that a whole response of it has anywhere, or that of --lengths. The line of a 206, a 304 or a HEAD doesn't
tell it (RFC 9110, 15.3.7, 15.4.5, 9.3.2), and a download that was broken off tells too little. A key of which nothing tells a length has
the mean of the others, and at least the greatest part of it that was sent: such requests are counted."""
from logs.unpack import Refused

from .keys import is_heavy


class Lengths:
    """What is known of each key's length, and how often keys were asked for."""

    def __init__(self, overhead):
        self.overhead = overhead
        # the greatest whole length of each key; the keys that were asked again; of keys without one the requests and the greatest part
        self.known, self.again, self.untold = {}, set(), {}
        # whether some line has another length than its key
        self.is_changed = False
        self.requests = self.reckoned = 0
        # all keys are known here, and none is a sample's
        self.mask = 0

    def take_lines(self, data):
        """Counts lines 'moment key size'."""
        words, known, again = data.split(), self.known, self.again
        sizes = words[2::3]
        self.requests += len(sizes) - sizes.count(b"-")
        for key, size in zip(words[1::3], sizes):
            if known.get(key) == size:
                again.add(key)
            elif size != b"-":
                self.take(key, size)

    def take(self, key, size):
        """Counts a request whose key has another length so far, or none. While lines are read lengths are words."""
        if size[:1] == b"?":
            self.take_untold(key, int(size[1:] or 0))
            return
        known = self.known.get(key)
        if known is None:
            self.known[key] = size
            if key in self.untold:
                self.again.add(key)
        else:
            self.again.add(key)
            if int(size) != int(known):
                self.is_changed = True
                self.known[key] = max(size, known, key=int)

    def finish(self):
        """All lines were counted: lengths are numbers from now on."""
        self.known = {key: int(size) for key, size in self.known.items()}

    def take_untold(self, key, part):
        if key in self.known:
            self.again.add(key)
        count, most = self.untold.get(key, (0, 0))
        self.untold[key] = count + 1, max(part, most)
        if count:
            self.again.add(key)

    def add(self, other):
        """Adds what another log tells, once all lines of both were counted."""
        mine, theirs = self.known, other.known
        self.again |= other.again | {key for key in (*theirs, *other.untold) if key in mine or key in self.untold}
        for key in mine.keys() & theirs.keys():
            if mine[key] != theirs[key]:
                self.is_changed, theirs[key] = True, max(mine[key], theirs[key])
        mine.update(theirs)
        for key, (count, part) in other.untold.items():
            own, most = self.untold.get(key, (0, 0))
            self.untold[key] = own + count, max(most, part)
        self.is_changed = self.is_changed or other.is_changed
        self.requests += other.requests

    def tell(self, path):
        """Takes the lengths of a file of lines 'key bytes'. A key that begins with / is that of any host, without a query."""
        told = {}
        try:
            with open(path, "rb") as file:
                for number, line in enumerate(file, 1):
                    key, _, size = line.strip().rpartition(b" ")
                    if line.strip() and (not key or not size.isdigit() or len(size) > 18):
                        raise Refused(f"{path}:{number}: lines 'key bytes' are wanted, as find -printf '/%P %s\\n' writes them: {ascii(line[:80])}", 2)
                    told[key] = int(size or 0)
        except OSError as why:
            raise Refused(f"{path}: {why.strerror}", 2) from why
        for key in (*self.known, *self.untold):
            length = told.get(key)
            length = told.get(path_of(key)) if length is None else length
            if length is not None and self.known.get(key) != length:
                self.known[key], self.is_changed = length, True

    def settle(self):
        """Reckons the lengths of keys of which nothing tells one; returns how many requests have such a length."""
        mean = sum(self.known.values()) // len(self.known) if self.known else 0
        for key, (count, part) in self.untold.items():
            if key not in self.known:
                self.known[key] = max(mean, part)
                self.reckoned += count
        return self.reckoned

    def lacking(self):
        """How many requests count with a length that nothing tells."""
        return self.reckoned

    def weight(self):
        """What all keys weigh together, each once: the log's footprint."""
        return sum(self.known.values()) + self.overhead * len(self.known)

    def is_heavy(self):
        return is_heavy(self.known.values())

    def once(self):
        """The shares of keys and of room that were asked for once, and how many requests these are; None without keys."""
        if not self.known:
            return None
        ones = [length for key, length in self.known.items() if key not in self.again]
        return len(ones) / len(self.known), (sum(ones) + self.overhead * len(ones)) / max(1, self.weight()), len(ones)


def path_of(key):
    """The path of a key that is a URL, a host with a target, or a target."""
    rest = key[key.find(b"://") + 3:] if 0 < key.find(b"://") < key.find(b"/") else key
    return rest[max(rest.find(b"/"), 0):].split(b"?")[0]
