"""Several tiers, each with its own lock, and requests of them."""

import itertools
import os

from . import raw
from .tables import DEFAULTS
from .tier import Tier
from .words import Digest, Stats, number


class Partitions:
    """Several tiers, each with its own lock and its share of the limits: what is larger than its share never stays. All calls for a key go to the tier of its
    digest, so each key has the promise of one tier."""

    def __init__(
        self,
        max_bytes,
        count,
        max_entries=DEFAULTS["max_entries"],
        lock_age=DEFAULTS["lock_age"],
        lock_timeout=DEFAULTS["lock_timeout"],
        hash_seed=None,
        library_path=None,
        max_body_bytes=DEFAULTS["max_body_bytes"],
    ):
        if hasattr(self, "_tiers"):
            raise TypeError("partitions are made once")
        if not 0 < number(count, "the partitions", 2**32):
            raise ValueError("there is one partition at least")
        number(max_bytes, "max_bytes")
        share = lambda it, at: it if it is None else it // count + (at < it % count)
        seed = int.from_bytes(os.urandom(8), "little") if hash_seed is None else hash_seed
        of = lambda at: Tier(share(max_bytes, at), share(max_entries, at), lock_age, lock_timeout, 1, at, seed, library_path, max_body_bytes)
        self._tiers = [of(at) for at in range(count)]
        self._numbers = [itertools.count() for _ in range(count)]

    __reduce_ex__ = __copy__ = __deepcopy__ = raw.never_copied

    def __len__(self):
        return len(self._tiers)

    def close(self):
        for it in self._tiers:
            it.close()

    def __enter__(self):
        return self

    def __exit__(self, *_):
        self.close()

    def _at(self, key):
        key = key if isinstance(key, Digest) else Digest.of(key)
        return key, key.partition(len(self._tiers))

    def tier_of(self, key):
        """The tier that has a key."""
        return self._tiers[self._at(key)[1]]

    def tiers(self):
        """Each tier, as for a save."""
        return list(self._tiers)

    def get(self, now, key):
        """As `Tier.get`."""
        key, at = self._at(key)
        return self._tiers[at].get(now, key)

    def open(self, key, lock=False):
        """Opens a request, which its `with` closes."""
        key, at = self._at(key)
        number = next(self._numbers[at])
        self._tiers[at].open(number, key, lock)
        return Request(self._tiers[at], number)

    def purge(self, key):
        key, at = self._at(key)
        return self._tiers[at].purge(key)

    def put(self, now, key, head, body, meta):
        key, at = self._at(key)
        return self._tiers[at].put(now, key, head, body, meta)

    def peek(self, key):
        key, at = self._at(key)
        return self._tiers[at].peek(key)

    def weight(self):
        """The sum of the entries' weights, and how many there are."""
        return tuple(map(sum, zip(*(it.weight() for it in self._tiers))))

    def stats(self):
        """Summed over the tiers, one after the other."""
        return Stats(*map(sum, zip(*(it.stats() for it in self._tiers))))


class Request:
    """An open request: its calls are the tier's. It is closed with its `with`, by `close`, or with the object."""

    def __init__(self, tier, request_id):
        self._tier, self.id, self._open = tier, request_id, True

    __reduce_ex__ = __copy__ = __deepcopy__ = raw.never_copied

    def _of(self):
        if not self._open:
            raise ValueError("the request is closed")
        return self._tier

    def lookup(self, now):
        return self._of().lookup(now, self.id)

    def lookup_stale(self):
        return self._of().lookup_stale(self.id)

    def poll(self, now):
        return self._of().poll(now, self.id)

    def begin(self, now, head, meta):
        self._of().begin(now, self.id, head, meta)

    def revalidate(self, now, head, meta):
        return self._of().revalidate(now, self.id, head, meta)

    def write(self, data, last=False):
        self._of().write(self.id, data, last)

    def finish(self):
        return self._of().finish(self.id)

    def read(self):
        return self._of().read(self.id)

    def give_up(self):
        self._of().give_up(self.id)

    def close(self):
        if self._open:
            self._open = False
            if self._tier._raw is not None:
                self._tier.close_request(self.id)

    def __enter__(self):
        return self

    def __exit__(self, *_):
        self.close()

    def __del__(self):
        if getattr(self, "_open", False):
            self._tier._gone.append(self.id)
