"""HTTP's rules for a shared cache: each call is pure, and any thread may make it at any time."""

from collections.abc import Mapping
from typing import NamedTuple

from . import Meta, Moment, Response
from .tables import Fetch, FramingName, MessageFlag, Plan, Reason, Reuse

FWD: tuple[str, ...]  # names for `fwd` of a cache status: none, uri-miss, vary-miss, miss, stale, request, method, bypass
REASONS: dict[int, str]  # the names that `reason` may have, and `detail` of a cache status
VARY_INDEX_STATUS: int  # the status code of what is found: it is a vary index, and no response
Framing = tuple[FramingName, int | None]
# "hit", "fwd": (a name of FWD, the origin's status code or 0), "stored", "collapsed", "detail": a name of REASONS, "fetch", "connection_close"
CacheStatus = Mapping[str, object]

class RequestHead:
    plan: Plan | None  # None: it was rejected
    reason: Reason
    error_code: int
    minor_version: int
    head_len: int
    key: bytes
    method: bytes
    host: bytes
    target: bytes
    fields: bytes
    framing: Framing
    flags: frozenset[MessageFlag]

class ResponseHead:
    status_code: int
    reason: Reason
    minor_version: int
    head_len: int
    fields: bytes
    framing: Framing
    flags: frozenset[MessageFlag]

class Exchange(NamedTuple):
    """A request that was forwarded, its response, and their moments (RFC 9111, 4.2.3)."""
    request: RequestHead
    response: ResponseHead
    request_time: Moment
    response_time: Moment
    head_request: bool = False
    vary_index: bytes = b""

class OnError(NamedTuple):
    serve_stale: bool
    status_code: int | None  # what to send instead

class Message:
    head: bytes
    parts: list[tuple[bytes, int, int | None]]  # what is sent before each part of the body, and from where to where that goes; None: to the end
    tail: bytes
    status_code: int
    reason: Reason
    framing: Framing
    flags: frozenset[MessageFlag]
    fetch: Fetch | None  # of forward_request: what was written

class StoreDecision:
    store: bool
    mismatch: bool  # of freshen: it is about another response
    reason: Reason
    purge: bool
    predicts_uncacheable: bool  # nor will the next response of this key be stored
    needs_vary_index: bool  # its set of Vary is not in the index
    place: int  # of update_vary_index: of its set
    status_code: int
    head: bytes
    fields: bytes
    body: bytes
    meta: Meta

StoredHead = Response | StoreDecision

class RejectedError(Exception):
    """A head or a body that is rejected: `status_code` is what to answer with, `request` what `make_response` takes, of a request."""
    status_code: int
    reason: Reason
    request: RequestHead | None

class Rules:
    """The rules by their options. `settings` are lines `name: value`: name, secret, origin-host, origin-prefix, targeted, lifetime (STATUS SECONDS), host,
    refuse, drop, never-store (STATUS), query-drop, query-sort, encodings, cookie-keep, response-drop, force-lifetime (STATUS SECONDS), force-private. What
    is wrong is a ValueError, which says which."""
    def __init__(
        self, settings: str = "", *, honor_request_directives: bool = True, serve_authorized: bool = False, store_set_cookie: bool = False,
        fill_on_range: bool = True, fill_on_head: bool = True, fill_on_conditional: bool = True, normalize_percent: bool = False,
        heuristic_freshness: bool = True, stale_despite_s_maxage: bool = False, add_x_forwarded_for: bool = False, https: bool = False,
        trust_date: bool = True, max_head_bytes: int = 65536, max_request_line_bytes: int = 16384, max_fields: int = 250, max_ranges: int = 8,
        max_heuristic_ttl: int = 86400, stale_while_revalidate: int = 0, stale_if_error: int = 0, stale_if_down: int = 0, max_field_bytes: int = 8192,
    ) -> None: ...
    def parse_request(self, data: bytes) -> RequestHead | None:
        """None: it goes on."""
    def parse_response(self, data: bytes, response_time: Moment, head_request: bool = False) -> ResponseHead | None: ...
    def secondary_keys(self, request: RequestHead, vary_index: bytes) -> list[bytes]: ...
    def update_vary_index(self, response: ResponseHead, now: Moment, vary_index: bytes, token: bytes) -> StoreDecision:
        """`vary_index`: of the one that is stored under the first key now. `store`: a new one, to put there. `token`: 8 to 64 bytes that cannot be guessed,
        none of them LF."""
    def decide_reuse(self, request: RequestHead, stored: StoredHead, now: Moment) -> Reuse: ...
    def stale_on_error(self, request: RequestHead, stored: StoredHead | None, now: Moment, origin_status: int | None = None) -> OnError: ...
    def forward_request(self, request: RequestHead, fetch: Fetch, stored: StoredHead | None = None, peer: bytes = b"") -> Message: ...
    def decide_store(self, exchange: Exchange, stored: StoredHead | None = None) -> StoreDecision:
        """`stored`: what was found under the key that was looked up, never a vary index; what is good for others keeps its place."""
    def freshen(self, exchange: Exchange, stored: StoredHead, body_len: int | None = None) -> StoreDecision: ...
    def serve_stored(
        self, request: RequestHead, stored: StoredHead, body_len: int | None, now: Moment, cache_status: CacheStatus | None = None,
    ) -> Message: ...
    def reuse_stored(
        self, request: RequestHead, stored: StoredHead, body_len: int | None, now: Moment, cache_status: CacheStatus | None = None,
    ) -> tuple[Reuse, Message | None]: ...
    def relay_response(self, exchange: Exchange, cache_status: CacheStatus | None = None) -> Message: ...
    def make_response(self, request: RequestHead, status_code: int, reason: Reason, now: Moment) -> Message: ...
    def invalidated_keys(self, request: RequestHead, response: ResponseHead) -> list[bytes]: ...

def head_end(data: bytes, start: int = 0) -> int:
    """How many bytes the head has in the bytes that came; 0: it goes on."""

class BodyDecoder:
    trailers: bytes
    def __init__(self, framing: Framing, max_trailer_bytes: int = 65536) -> None: ...
    def decode(self, data: bytes) -> tuple[bytes, int, bool]:
        """Data, bytes that are done with, whether the body is whole. A rejected one raises RejectedError."""

def encode_chunk(data: bytes) -> bytes:
    """Data as a chunk of a body; of no data the last chunk, without trailers."""
