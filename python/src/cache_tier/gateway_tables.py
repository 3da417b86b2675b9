"""The structs, numbers and texts of the gateway's header."""
# Written by tools/dev/interface.py: change the tables in embed, and run it with --write.
import ctypes

from .tables import Moment, Slice, U64

NO_EXCHANGE = 25
DONE = 80
NEED_MORE = 81
BLOCKED = 82
CLIENT_ENDS = {0: "nothing", 1: "wait", 2: "end", 3: "close", 4: "truncated"}
ORIGIN_ACTIONS = {0: "nothing", 1: "send_request", 2: "send_data", 3: "receive_body", 4: "continue", 5: "reusable", 6: "close_origin"}
CLOSED = {1: "clean", 2: "failed", 3: "timeout", 4: "unused"}
REUSES = {1: "fresh", 2: "stale", 3: "while-revalidating", 4: "after-validation", 5: "bypass"}
FETCHES = {1: "pass", 2: "full", 3: "conditional", 4: "unconditional", 5: "unstored"}
EVENT_NAMES = {1: "requested", 2: "hit", 3: "waiting", 4: "collapsed", 5: "stale_on_error", 6: "stored", 7: "completed", 8: "truncated", 9: "relayed", 10: "revalidated", 11: "freshened", 12: "generated", 13: "purged", 14: "vary_index", 15: "purged_all"}
LIST_PIECES = 0
LIST_WAKES = 1
LIST_EVICTED = 2
LIST_PURGES = 3
LIST_EVENTS = 4
DEFAULTS = {
    "max_bytes": 268435456,
    "lock_age": 10,
    "lock_timeout": 60,
    "max_exchanges": 4096,
    "max_body_bytes": 16777216,
    "max_relay_bytes": 131072,
    "max_unread": 16777216,
    "max_interim_responses": 16,
    "first_byte_timeout": 60,
    "between_bytes_timeout": 60,
    "max_predicted": 1024,
    "predicted_seconds": 120,
    "hash_seed": 0,
    "max_tail": 1048576,
}


class Limits(ctypes.Structure):
    """The bounds of one gateway; each is at least 1. Start from cache_gateway_default_limits."""

    _fields_ = [("max_bytes", U64), ("lock_age", U64), ("lock_timeout", U64), ("max_exchanges", U64), ("max_body_bytes", U64), ("max_relay_bytes", U64), ("max_unread", U64), ("max_interim_responses", U64), ("first_byte_timeout", U64), ("between_bytes_timeout", U64), ("max_predicted", U64), ("predicted_seconds", U64), ("hash_seed", U64), ("max_tail", U64), ("reserved", U64 * 2)]


class Request(ctypes.Structure):
    """The head of a request that was parsed, for cache_gateway_start alone. Initialize by `= CACHE_TIER_RESPONSE_INIT`; do not copy."""

    _fields_ = [("status", U64), ("head_len", U64), ("is_rejected", U64), ("place", U64), ("key", Slice), ("method", Slice), ("host", Slice), ("target", Slice), ("reserved", U64 * 2), ("keep", U64 * 40)]


class Out(ctypes.Structure):
    """What a call answers. It owns the bytes that it lends until cache_gateway_out_free or the next call that fills it, whatever is called on the gateway meanwhile. Initialize by `= CACHE_TIER_RESPONSE_INIT`; do not copy."""

    _fields_ = [("status", U64), ("exchange", U64), ("used", U64), ("client", U64), ("origin", U64), ("body_follows", U64), ("last", U64), ("found", U64), ("has_at", U64), ("at", Moment), ("to_origin", Slice), ("pieces", U64), ("wakes", U64), ("evicted", U64), ("purges", U64), ("events", U64), ("reserved", U64 * 4), ("keep", U64 * 48)]


class Item(ctypes.Structure):
    """An item of a list of an out."""

    _fields_ = [("status", U64), ("number", U64), ("first", U64), ("second", U64), ("data", Slice), ("reserved", U64 * 2)]


class Counts(ctypes.Structure):
    """What a gateway holds."""

    _fields_ = [("status", U64), ("exchanges", U64), ("weight", U64), ("tracked", U64)]


# The parameters of each export: g the gateway, n a number, b bytes with their length, s options with their settings, p an address.
EXPORTS = {
    "sizeof": ("", True),
    "request_sizeof": ("", True),
    "out_sizeof": ("", True),
    "init": ("gnnpsbp", False),
    "end": ("g", False),
    "parse_request": ("sbnpp", False),
    "request_free": ("p", False),
    "start": ("gnnpbpp", False),
    "poll": ("gnnnpp", False),
    "request_data": ("gnnnbpp", False),
    "response_head": ("gnnnbpp", False),
    "response_data": ("gnnnbpp", False),
    "origin_closed": ("gnnnnpp", False),
    "client_closed": ("gnnnpp", False),
    "purge": ("gbpp", False),
    "purge_key": ("gbpp", False),
    "purge_all": ("gnnpp", False),
    "stop": ("g", False),
    "get_counts": ("gp", False),
    "out_item": ("pnnp", False),
    "out_free": ("p", False),
}
