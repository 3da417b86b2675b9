"""Words that the package answers."""
# Written by tools/dev/interface.py: change the tables in embed, and run it with --write.
from typing import Literal, NamedTuple

Permit = Literal["none", "write", "wait"]
LockStatus = Literal["done", "transient-error", "give-up", "dangling", "wait-timeout", "age-timeout"]
Reuse = Literal["fresh", "stale", "while-revalidating", "after-validation", "bypass"]
Fetch = Literal["pass", "full", "conditional", "unconditional"]
Fwd = Literal["none", "uri-miss", "vary-miss", "miss", "stale", "request", "method", "bypass"]
Plan = Literal["lookup", "pass", "respond"]
MessageFlag = Literal["connection-close", "accepts-trailers", "expects-continue", "is-head", "only-if-cached", "forces-validation", "has-date"]
FramingName = Literal["none", "length", "chunked", "close"]
ErrorKind = Literal["NoRequest", "IdInUse", "WrongPhase", "IsWaiting", "AfterEnd", "BadHead", "WriteRemoved", "BeforeEpoch", "NumbersSpent", "TooHeavy", "TooLong", "Memory", "Folder", "NotStored", "BadArgument", "NotNew", "NoItem", "BufferTooSmall", "BodyTooLarge"]
Reason = Literal["", "target-too-long", "head-too-long", "bare-line-end", "bad-request-line", "version", "method", "too-many-fields", "folded", "blank-before-colon", "bad-field", "length-and-coding", "bad-length", "coding-in-1-0", "unknown-coding", "bad-coding", "several-hosts", "no-host", "bad-host", "other-scheme", "other-host", "bad-target", "bad-status-line", "switched", "last-forward", "content", "precondition", "no-store", "status", "partial", "not-modified", "request-no-store", "not-understood", "private", "vary-any", "authorization", "set-cookie", "no-freshness", "never-usable", "too-many-lines", "bad-chunk", "bad-trailer", "stored-is-good", "never-store", "field-too-long", "no-answer", "only-if-cached", "stale-while-revalidate", "stale-if-error", "stale-if-down", "purged", "unstored", "body-too-long", "too-busy"]

class Stats(NamedTuple):
    """Counters of a tier since it was made, and what it holds now."""
    found: int  # Lookups that found something, and gets that hit.
    misses: int  # Lookups that found nothing.
    bodies: int  # Finished bodies.
    body_bytes: int  # Their bytes.
    head_bytes: int  # Bytes of their heads as stored.
    external_bytes: int  # Their external bytes.
    entries: int  # Entries of the LRU order.
    weight: int  # The sum of their weights, which max_bytes bounds.
    evicted: int  # Entries evicted so far.
