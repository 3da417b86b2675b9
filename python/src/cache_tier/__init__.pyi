"""The types of the package.

A tier and partitions may be called from any thread: each call holds a lock of its own. A moment is whole seconds, or (seconds, nanoseconds). A key is
the bytes of a name, or a Digest. Views that are lent are read-only and keep what they show: they hold after their request, their tier and their Response
are gone. Below Python 3.12 the `obj` of such a view can be written: leave it alone. A call of a tier within a call of it, as of a signal handler, is a
RuntimeError.
"""

from collections.abc import Iterator, Sequence
from contextlib import AbstractContextManager
from types import TracebackType
from typing import Literal, NamedTuple

from .tables import ErrorKind as ErrorKind, LockStatus as LockStatus, Permit as Permit, Stats as Stats

Moment = int | tuple[int, int]

class Digest(bytes):
    """16 bytes by which a tier knows a name, or 32 with the digest of a secondary key."""
    @classmethod
    def of(cls, name: bytes) -> Digest: ...
    def partition(self, count: int) -> int:
        """The partition of so many that has this key."""
    def combined(self) -> Digest:
        """The 16 bytes under which its body is stored."""

Key = bytes | Digest

class CacheTierError(Exception):
    """A call that was refused. `status` and `kind` say why; the rest what was done all the same."""
    status: int
    kind: ErrorKind
    body_removed: bool
    entry_removed: bool
    evicted: list[Digest]

class Meta(NamedTuple):
    """What the caller says about a response: how long it is fresh, and what it weighs besides."""
    fresh_until: Moment
    created: Moment | None = None  # the call's moment
    updated: Moment | None = None  # created
    provenance: Moment | None = None  # created
    stale_while_revalidate: int = 0
    stale_if_error: int = 0
    external_bytes: int = 0
    @classmethod
    def ttl(
        cls, now: Moment, seconds: int, *, updated: Moment | None = None, provenance: Moment | None = None, stale_while_revalidate: int = 0,
        stale_if_error: int = 0, external_bytes: int = 0,
    ) -> Meta:
        """Fresh for so many seconds from `now`, as by max-age: while the age is less than that (RFC 9111, 4.2)."""

class Response:
    """Head and body of a stored response. Released when it and its views are gone, or by `close`, which is refused while a view is there."""
    status_code: int
    fresh_until: tuple[int, int]
    created: tuple[int, int]
    updated: tuple[int, int]
    provenance: tuple[int, int]
    stale_while_revalidate: int
    stale_if_error: int
    external_bytes: int
    @property
    def body_len(self) -> int | None:
        """Bytes of a complete body; None while it is being written."""
    @property
    def body(self) -> memoryview: ...
    @property
    def fields(self) -> memoryview:
        """The field lines of the head, each `name: value` and CR LF, names in lower case."""
    def iter_fields(self) -> Iterator[tuple[bytes, bytes]]: ...
    def to_head(self) -> bytes:
        """The head as a text that a write takes, with its empty line."""
    def close(self) -> None: ...
    def __enter__(self) -> Response: ...
    def __exit__(self, kind: type[BaseException] | None, value: BaseException | None, trace: TracebackType | None) -> None: ...

class Lookup(NamedTuple):
    response: Response | None  # None: nothing is stored
    fresh: bool
    complete: bool  # all of its body is there
    permit: Permit

class Stored(NamedTuple):
    body_len: int
    evicted: list[Digest]

class Entry(NamedTuple):
    key: Digest
    user_tag: str
    foreign: bool
    external_bytes: int  # of the finished body of its key; 0 without one

class LruRestored(NamedTuple):
    ok: int
    missing: int
    corrupt: int

class Tier:
    """One tier. Numbers out of their range are a ValueError, a call after close too."""
    def __init__(
        self, max_bytes: int, max_entries: int | None = None, lock_age: int = 10, lock_timeout: int | None = None, lru_shards: Literal[1, 4, 16] = 16,
        eviction_seed: int = 0,
        hash_seed: int | None = None,  # at random
        library_path: str | None = None,
        max_body_bytes: int | None = 0,  # half of max_bytes; None: no bound
    ) -> None: ...
    def close(self) -> None: ...
    def __enter__(self) -> Tier: ...
    def __exit__(self, kind: type[BaseException] | None, value: BaseException | None, trace: TracebackType | None) -> None: ...
    def get(self, now: Moment, key: Key, user_tag: str = "") -> Response | None: ...
    def open(self, request_id: int, key: Key, lock: bool = False, user_tag: str = "") -> None: ...
    def lookup(self, now: Moment, request_id: int) -> Lookup: ...
    def lookup_stale(self, request_id: int) -> Lookup:
        """The same, but what it finds counts as stale; of a request that was opened without `lock`."""
    def poll(self, now: Moment, request_id: int) -> LockStatus | None: ...
    def begin(self, now: Moment, request_id: int, head: bytes, meta: Meta) -> None: ...
    def revalidate(self, now: Moment, request_id: int, head: bytes, meta: Meta) -> list[Digest]:
        """The keys of the bodies that were evicted."""
    def write(self, request_id: int, data: bytes, last: bool = False) -> None: ...
    def finish(self, request_id: int) -> Stored:
        """The bytes so far are the body, whatever Content-Length says. If bytes are missing, close the request instead."""
    def read(self, request_id: int) -> memoryview | Literal["end", "given-up"] | None:
        """Bytes; None while more may come; "end" of a whole body, "given-up" of a write that was abandoned."""
    def give_up(self, request_id: int) -> None:
        """Says that the response will not be stored: who waits goes on at once. After it only `close_request` is allowed."""
    def close_request(self, request_id: int) -> bool: ...
    def purge(self, key: Key, user_tag: str = "") -> bool: ...
    def put(self, now: Moment, key: Key, head: bytes, body: bytes, meta: Meta, user_tag: str = "") -> Stored: ...
    def peek(self, key: Key) -> Response | None: ...
    def lru_entries(self, shard: int = 0) -> list[Entry]:
        """Most recently used first."""
    def lru_save(self) -> Sequence[bytes | None]: ...
    def lru_restore(self, files: Sequence[bytes | None]) -> LruRestored: ...
    def weight(self) -> tuple[int, int]:
        """The sum of the entries' weights, and how many there are, in constant time."""
    def stats(self) -> Stats: ...
    def locked(self) -> AbstractContextManager[Tier]:
        """Several calls while no other thread calls this tier."""

class Request:
    """An open request, which the end of its `with` closes: its calls are the tier's."""
    id: int
    def lookup(self, now: Moment) -> Lookup: ...
    def lookup_stale(self) -> Lookup: ...
    def poll(self, now: Moment) -> LockStatus | None: ...
    def begin(self, now: Moment, head: bytes, meta: Meta) -> None: ...
    def revalidate(self, now: Moment, head: bytes, meta: Meta) -> list[Digest]: ...
    def write(self, data: bytes, last: bool = False) -> None: ...
    def finish(self) -> Stored: ...
    def read(self) -> memoryview | Literal["end", "given-up"] | None: ...
    def give_up(self) -> None: ...
    def close(self) -> None: ...
    def __enter__(self) -> Request: ...
    def __exit__(self, kind: type[BaseException] | None, value: BaseException | None, trace: TracebackType | None) -> None: ...

class Partitions:
    """Several tiers, each with its own lock and its share of the limits."""
    def __init__(
        self, max_bytes: int, count: int, max_entries: int | None = None, lock_age: int = 10, lock_timeout: int | None = None,
        hash_seed: int | None = None, library_path: str | None = None,
        max_body_bytes: int | None = 0,  # half of a share; None: no bound
    ) -> None: ...
    def __len__(self) -> int: ...
    def close(self) -> None: ...
    def __enter__(self) -> Partitions: ...
    def __exit__(self, kind: type[BaseException] | None, value: BaseException | None, trace: TracebackType | None) -> None: ...
    def tier_of(self, key: Key) -> Tier: ...
    def tiers(self) -> list[Tier]:
        """Each tier, as for a save."""
    def get(self, now: Moment, key: Key) -> Response | None: ...
    def open(self, key: Key, lock: bool = False) -> Request: ...
    def purge(self, key: Key) -> bool: ...
    def put(self, now: Moment, key: Key, head: bytes, body: bytes, meta: Meta) -> Stored: ...
    def peek(self, key: Key) -> Response | None: ...
    def weight(self) -> tuple[int, int]: ...
    def stats(self) -> Stats: ...
