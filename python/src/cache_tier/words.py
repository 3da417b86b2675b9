"""What calls are given, and what they answer."""

import collections
import hashlib

from . import raw
from .tables import LOCK_STATUSES, PERMITS  # noqa: F401 (what calls answer stands here together)

# `response` is None where nothing is stored; `complete`: all of its body is there.
Lookup = collections.namedtuple("Lookup", "response fresh complete permit")
# `evicted`: the keys of the bodies that were evicted, perhaps its own.
Stored = collections.namedtuple("Stored", "body_len evicted")
Entry = collections.namedtuple("Entry", "key user_tag foreign external_bytes")
LruRestored = collections.namedtuple("LruRestored", "ok missing corrupt")
Stats = collections.namedtuple("Stats", [name for name, _ in raw.Stats._fields_ if name != "reserved"])


class Meta(
    collections.namedtuple(
        "Meta", "fresh_until created updated provenance stale_while_revalidate stale_if_error external_bytes", defaults=(None, None, None, 0, 0, 0)
    )
):
    """What the caller says about a response: how long it is fresh, and what it weighs besides. Moments that are left out are the call's (`created`), or
    `created`."""

    __slots__ = ()

    @classmethod
    def ttl(cls, now, seconds, **others):
        """Fresh for so many seconds from `now`, as by max-age: while the age is less than that (RFC 9111, 4.2)."""
        at, nanoseconds = moment(now)
        last = divmod((at + number(seconds, "the ttl", 2**63)) * 10**9 + nanoseconds - 1, 10**9) if seconds else (0, 0)
        return cls(last, (at, nanoseconds), **others)


class Digest(bytes):
    """16 bytes by which a tier knows a name, or 32 with the digest of a secondary key."""

    __slots__ = ()

    def __new__(cls, given=b""):
        made = super().__new__(cls, given)
        if len(made) not in (16, 32):
            raise ValueError(f"a digest has 16 bytes, or 32 with that of a secondary key, and not {len(made)}")
        return made

    @classmethod
    def of(cls, name):
        return cls(hashlib.blake2b(data(name), digest_size=16).digest())

    def partition(self, count):
        """The partition of so many that has this key."""
        return int.from_bytes(self[12:16], "little") * count >> 32

    def combined(self):
        """The 16 bytes under which its body is stored."""
        return self if len(self) == 16 else Digest.of(bytes(self))


class CacheTierError(Exception):
    """A call that was refused. `status` and `kind` say why; the rest what was done all the same."""

    def __init__(self, status, body_removed=False, entry_removed=False, evicted=()):
        super().__init__(status)
        self.status, self.kind = status, raw.NAMES.get(status, "Unknown")
        self.body_removed, self.entry_removed, self.evicted = body_removed, entry_removed, list(evicted)

    def __str__(self):
        return f"{raw.TEXTS.get(self.status, raw.UNKNOWN)} ({self.kind}, {self.status})"


def data(given):
    """The bytes of an argument."""
    if isinstance(given, str):
        raise TypeError("bytes are wanted, not a text")
    return given if isinstance(given, bytes) else bytes(memoryview(given))


def number(given, what, below=2**64):
    if isinstance(given, bool) or not isinstance(given, int) or not 0 <= given < below:
        raise ValueError(f"{what} is no number from 0 to {below - 1}: {given!r}")
    return given


def moment(given):
    """The two words of a moment."""
    seconds, nanoseconds = given if isinstance(given, tuple) else (given, 0)
    return number(seconds, "the moment", 2**63), number(nanoseconds, "the moment's nanoseconds", 10**9)


def key(given):
    """The first words of a key: whether it is a digest, and its bytes."""
    return (1 if isinstance(given, Digest) else 0), data(given)


def meta(given, now):
    """The library's struct of metadata."""
    if not isinstance(given, Meta):
        raise TypeError(f"a Meta is wanted, as of Meta.ttl or of a decision of the rules, and not {given!r}")
    created = now if given.created is None else given.created
    told = [given.fresh_until, created]
    told += [created if it is None else it for it in (given.updated, given.provenance)]
    return raw.Meta(
        *(raw.Moment(*moment(it)) for it in told),
        number(given.stale_while_revalidate, "stale_while_revalidate", 2**32),
        number(given.stale_if_error, "stale_if_error", 2**32),
        number(given.external_bytes, "external_bytes", 2**62),
    )


def entry(it):
    """An entry of the LRU order, copied."""
    return Entry(Digest(raw.text(it.primary) + raw.text(it.variance)), raw.text(it.user_tag).decode(), it.foreign != 0, it.external_bytes)
