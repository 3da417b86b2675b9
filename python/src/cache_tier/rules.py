"""HTTP's rules for a shared cache: each call is pure, and any thread may make it at any time. The library's header, cache_rules.h, says the way of a
request through them; its page on rules, what each decides."""

import ctypes
import re
from typing import NamedTuple

from . import raw, words
from .response import Response
from .tables import FETCHES, FRAMINGS, FWD, MESSAGE_FLAGS, OPTION_FLAGS, PLANS, REASONS, REUSES, RULES, RULES_DEFAULTS, U64
from .tables import RulesBodyChunk, RulesBodyDecoder, RulesCacheStatus, RulesMessage, RulesOptions, RulesRequestHead, RulesResponseHead, RulesStoreDecision
from .tables import RULES_BODY_END, RULES_DATA, RULES_MISMATCH, RULES_NEED_MORE, RULES_REJECTED, RULES_STORE

VARY_INDEX_STATUS = 600  # the status code of what is found: it is a vary index, and no response
PARTS = 16
_NUMBERS = {name: number for number, name in REASONS.items()}
# What each letter of an export's parameters stands for.
_P = ctypes.c_void_p
_TYPES = {
    "n": [U64],
    "b": [ctypes.c_char_p, ctypes.c_size_t],
    "s": [_P, _P, ctypes.c_size_t],
    "w": [_P, ctypes.c_size_t],
    "p": [_P],
    "q": [_P, ctypes.c_size_t],
}


def _call(name, *arguments):
    library = raw.loaded()
    function = library.__dict__.get("rules_" + name)
    if function is None:
        function = getattr(library.lib, "cache_rules1_" + name)
        kinds, out = RULES.get(name, ("bn", None))
        types = [it for kind in kinds for it in _TYPES[kind]] + ([_P] if out else [])
        function.argtypes, function.restype = types, None if out else U64
        setattr(library, "rules_" + name, function)
    return function(*arguments)


def _written(name, kind, bytes_given, *arguments, after=lambda out: (), size=None):
    """A call that writes a struct, and texts into a buffer, which grows where it was too small."""
    size = 3 * bytes_given + 4096 if size is None else size
    while True:
        out, buf = kind(), ctypes.create_string_buffer(size)
        _call(name, *arguments, ctypes.addressof(buf), size, *after(out), ctypes.addressof(out))
        if out.status != raw.BUFFER_TOO_SMALL or out.buf_needed <= size:
            break
        size = out.buf_needed
    return _fine(out), buf


def _fine(out):
    if out.status < 32:
        raise words.CacheTierError(out.status)
    return out


def _span(buf, span):
    return ctypes.string_at(ctypes.addressof(buf) + span.start, span.end - span.start) if span.end > span.start else b""


def _framing(it):
    name = FRAMINGS[it.framing]
    return name, it.body_len if name == "length" and it.body_len != raw.NONE else None


def _flags(number):
    return frozenset(name for bit, name in enumerate(MESSAGE_FLAGS) if number >> bit & 1)


class RejectedError(Exception):
    """A head or a body that is rejected: `status_code` is what to answer with, `request` what `make_response` takes, of a request."""

    def __init__(self, status_code, reason, request=None):
        super().__init__(status_code, reason)
        self.status_code, self.reason, self.request = status_code, reason, request


class _Head:
    """What was parsed of a head: numbers and spans in a buffer that it keeps."""

    def __init__(self, told, buf):
        told.buf, told.buf_len = ctypes.addressof(buf), told.written.end
        self._raw, self._buf = told, buf
        self.reason, self.head_len = REASONS.get(told.reason, ""), told.head_len
        self.framing, self.flags, self.fields = _framing(told), _flags(told.flags), _span(buf, told.fields)

    def _lent(self):
        return ctypes.addressof(self._raw), self._raw.buf, self._raw.buf_len


class RequestHead(_Head):
    def __init__(self, told, buf):
        super().__init__(told, buf)
        self.plan, self.error_code, self.minor_version = PLANS[told.plan] if told.plan < 4 else None, told.error_code, told.minor_version
        self.key, self.method, self.host, self.target = (_span(buf, it) for it in (told.key, told.method, told.host, told.target))


class ResponseHead(_Head):
    def __init__(self, told, buf):
        super().__init__(told, buf)
        self.status_code, self.minor_version = told.status_code, told.minor_version


class Exchange(NamedTuple):
    """A request that was forwarded, its response, and their moments (RFC 9111, 4.2.3)."""

    request: RequestHead
    response: ResponseHead
    request_time: object  # when the request was sent
    response_time: object  # when the head of the response came
    head_request: bool = False  # what was forwarded is a HEAD
    vary_index: bytes = b""  # the body of the vary index that was found

    def _moments(self):
        return *words.moment(self.request_time), *words.moment(self.response_time)


class OnError(NamedTuple):
    """Whether what is stale answers in place of an error; else the status code to send."""

    serve_stale: bool
    status_code: object


class Message:
    """A message to send: a whole head, the parts of the body (what is sent before each, and from where to where it goes; None: to the end), what follows."""

    def __init__(self, told, buf):
        self.head, self.tail, self.reason = _span(buf, told.head), _span(buf, told.tail), REASONS.get(told.reason, "")
        self.status_code, self.framing, self.flags = told.status_code, _framing(told), _flags(told.flags)
        self.fetch = FETCHES[told.fetch] if told.fetch < len(FETCHES) else None
        every = told.parts[: min(told.part_count, PARTS)]
        self.parts = [(_span(buf, it.prefix), it.start, None if it.end == raw.NONE else it.end) for it in every]


class StoreDecision:
    """Whether a response is stored (`store`), by `head` and `meta`, or why not; and what `serve_stored` shows to the client that fetched it, which takes this
    object. `purge`: purge what was found. `predicts_uncacheable`: nor will the next response of this key be stored. `mismatch`, of freshen: it is about
    another response."""

    def __init__(self, told, buf):
        told.served_head.fields.ptr, told.served_head.fields.len = ctypes.addressof(buf) + told.fields.start, told.fields.end - told.fields.start
        self._raw, self._buf = told, buf
        self.store, self.mismatch, self.reason = told.status == RULES_STORE, told.status == RULES_MISMATCH, REASONS.get(told.reason, "")
        self.purge, self.needs_vary_index, self.place = told.purge != 0, told.needs_vary_index != 0, told.place
        self.predicts_uncacheable = told.predicts_uncacheable != 0
        self.head, self.body, self.fields = (_span(buf, it) for it in (told.head, told.body, told.fields))
        at = lambda it: (it.seconds, it.nanoseconds)
        moments = (at(getattr(told.meta, it)) for it in ("fresh_until", "created", "updated", "provenance"))
        self.meta = words.Meta(*moments, told.meta.stale_while_revalidate, told.meta.stale_if_error, told.meta.external_bytes)
        self.status_code = told.served_head.status_code


_NO_HEAD = raw.Head()


def _stored(it):
    """A head as calls look at it; its owner stays while the call runs."""
    if it is None:
        return ctypes.addressof(_NO_HEAD), ctypes.addressof(_NO_HEAD), 0
    head = it._head() if isinstance(it, Response) else it._raw.served_head
    if isinstance(it, Response) and not it._held.raw.held:
        raise ValueError("the response is closed")
    return ctypes.addressof(head), head.fields.ptr or ctypes.addressof(_NO_HEAD), head.fields.len


def _reason(name, what):
    if name not in _NUMBERS:
        raise ValueError(f"{what} is none of {', '.join(filter(None, _NUMBERS))}: {name!r}")
    return _NUMBERS[name]


def _cache_status(given):
    given = dict(given or {})
    way = given.pop("fwd", None) or ("none", 0)
    if not isinstance(way, (tuple, list)) or len(way) != 2:
        raise ValueError(f"fwd is a name and the origin's status code, or 0, as ('miss', 200): {way!r}")
    fwd, status = way
    if fwd not in FWD:
        raise ValueError(f"fwd is none of {', '.join(FWD)}: {fwd!r}")
    hit = given.pop("hit", fwd == "none")
    told = RulesCacheStatus(bool(hit), FWD.index(fwd), status or 0, bool(given.pop("stored", False)), bool(given.pop("collapsed", False)))
    told.detail = _reason(given.pop("detail", None) or "", "detail")
    told.fetch, told.connection_close = _fetch(given.pop("fetch", None)), bool(given.pop("connection_close", False))
    if given:
        raise ValueError(f"a cache status has hit, fwd, stored, collapsed, detail, fetch and connection_close, and no {', '.join(given)}")
    return told


def _fetch(name):
    if name not in FETCHES:
        raise ValueError(f"what is fetched is none of {', '.join(FETCHES[1:])}: {name!r}")
    return FETCHES.index(name)


def _bytes(data):
    data = words.data(data)
    return data, len(data)


def _length(body_len):
    return raw.NONE if body_len is None else words.number(body_len, "the length")


def _size(*heads):
    return sum(it._raw.buf_len for it in heads)


def _parts(out):
    return ctypes.addressof(out) + RulesMessage.parts.offset, PARTS


class Rules:
    """The rules by their options: flags and numbers by their names, and `settings`: lines `name: value`. A wrong one is a ValueError, which says which.

    Flags: honor_request_directives, serve_authorized, store_set_cookie, fill_on_range, fill_on_head, fill_on_conditional, normalize_percent,
    heuristic_freshness, stale_despite_s_maxage, add_x_forwarded_for, https, trust_date. Numbers: max_head_bytes, max_request_line_bytes, max_fields, max_ranges,
    max_heuristic_ttl, stale_while_revalidate, stale_if_error, stale_if_down, max_field_bytes. Settings: name, secret, origin-host, origin-prefix, targeted,
    lifetime (STATUS SECONDS), host, refuse, drop, never-store (STATUS), query-drop, query-sort, encodings, cookie-keep, response-drop,
    force-lifetime (STATUS SECONDS), force-private."""

    def __init__(self, settings="", **options):
        text = "".join(it.strip() + "\r\n" for it in settings.splitlines() if it.strip()).encode()
        unknown = options.keys() - RULES_DEFAULTS.keys()
        if unknown:
            raise ValueError(f"no option: {', '.join(sorted(unknown))}")
        chosen = {**RULES_DEFAULTS, **options}
        flags = {it: chosen.pop(it) for it in OPTION_FLAGS}
        numbers = [words.number(value, name) for name, value in chosen.items()]
        self._settings = ctypes.create_string_buffer(text, len(text) + 1)
        flags = sum(bool(on) << bit for bit, on in enumerate(flags.values()))
        self._raw = RulesOptions(flags, *numbers, (U64 * 2)(), ctypes.addressof(self._settings), len(text))
        out = RulesMessage()
        _call("check_options", *self._lent(), ctypes.addressof(out))
        if out.status == raw.BAD_ARGUMENT:
            raise ValueError(f"line {out.bad_line} of the settings is wrong" if out.bad_line else "a number is out of its range")
        _fine(out)
        # prepared, so that no call reads and checks them anew
        told, buf = _written("prepare_settings", RulesMessage, self._raw.settings_len, *self._lent())
        self._settings, self._raw.settings, self._raw.settings_len = buf, ctypes.addressof(buf), told.head.end

    def _lent(self):
        return ctypes.addressof(self._raw), self._raw.settings, self._raw.settings_len

    def parse_request(self, data):
        """Parses a request's head, and plans; None: it goes on. A rejected one raises RejectedError."""
        told, buf = _written("parse_request", RulesRequestHead, len(data), *self._lent(), *_bytes(data))
        if told.status == RULES_NEED_MORE:
            return None
        made = RequestHead(told, buf)
        if told.status == RULES_REJECTED:
            raise RejectedError(told.error_code, made.reason, made)
        return made

    def parse_response(self, data, response_time, head_request=False):
        """Parses a response's head; None: it goes on. A rejected one raises RejectedError, with 502. `response_time`: when its first byte came."""
        given = (*self._lent(), int(bool(head_request)), *words.moment(response_time), *_bytes(data))
        told, buf = _written("parse_response", RulesResponseHead, len(data), *given)
        if told.status == RULES_NEED_MORE:
            return None
        made = ResponseHead(told, buf)
        if told.status == RULES_REJECTED:
            raise RejectedError(502, made.reason)
        return made

    def secondary_keys(self, request, vary_index):
        """The secondary keys of a request (RFC 9111, 4.1) by the body of a vary index, one for each of its sets, in their order."""
        given = (*self._lent(), *request._lent(), *_bytes(vary_index))
        told, buf = _written("secondary_keys", RulesMessage, 4 * _size(request) + len(vary_index), *given, after=_parts)
        return [_span(buf, it.prefix) for it in told.parts[: told.key_count]]

    def update_vary_index(self, response, now, vary_index, token):
        """Under which key a response that is stored goes; `vary_index` is the body of the one that is stored under the first key now. `store`: put the new
        one there, and the response under the first of its secondary keys. Else under that of the set at `place`, or under the first key if there is no
        index. `token`: 8 to 64 bytes that cannot be guessed, none of them LF, as the hexadecimal digits of 16 random bytes."""
        given = (*self._lent(), *response._lent(), *words.moment(now), *_bytes(vary_index), *_bytes(token))
        return StoreDecision(*_written("update_vary_index", RulesStoreDecision, _size(response) + len(vary_index) + len(token), *given))

    def decide_reuse(self, request, stored, now):
        """Whether a stored response may answer (RFC 9111, 4): "fresh", "stale", "while-revalidating", "after-validation" or "bypass"."""
        out = RulesMessage()
        _call("decide_reuse", *self._lent(), *request._lent(), *_stored(stored), *words.moment(now), ctypes.addressof(out))
        return REUSES[_fine(out).reuse]

    def stale_on_error(self, request, stored, now, origin_status=None):
        """Whether a stale response answers in place of an error (RFC 5861, 4): an OnError. `origin_status`: the origin's; None: it gave no answer. Only after
        decide_reuse said "after-validation" or "while-revalidating": it does not look at Authorization."""
        out, head = RulesMessage(), _stored(stored)
        _call("stale_on_error", *self._lent(), *request._lent(), *head, *words.moment(now), origin_status or 0, ctypes.addressof(out))
        return OnError(True, None) if _fine(out).serve_stale else OnError(False, out.status_code)

    def forward_request(self, request, fetch, stored=None, peer=b""):
        """The head of the request to the origin. `fetch`: "pass", "full", "conditional" (with the validators of `stored`), "unconditional" (as "full",
        without the client's conditions and range). What was written is the `fetch` of the message. `peer`: the client's address, for X-Forwarded-For."""
        head = _stored(stored)
        if fetch is None:
            raise ValueError(f"what is fetched is one of {', '.join(FETCHES[1:])}")
        given = (*self._lent(), *request._lent(), _fetch(fetch), *head, *_bytes(peer))
        return Message(*_written("forward_request", RulesMessage, _size(request) + head[2] + len(peer), *given))

    def decide_store(self, exchange, stored=None):
        """Whether a response is stored (RFC 9111, 3), and as what. `stored`: what was found under the key that was looked up, never a vary index; what is
        good for others keeps its place."""
        request, response, head = exchange.request, exchange.response, _stored(stored)
        given = (*self._lent(), *request._lent(), int(bool(exchange.head_request)), *response._lent(), *exchange._moments(), *_bytes(exchange.vary_index))
        size = _size(request, response) + head[2] + len(exchange.vary_index)
        return StoreDecision(*_written("decide_store", RulesStoreDecision, size, *given, *head))

    def freshen(self, exchange, stored, body_len=None):
        """What a 304 makes of a stored response (RFC 9111, 4.3.4; `body_len` None), or a 200 to HEAD (`body_len`: of the stored body); `mismatch`: it is about
        another response, after a 304 fetch again. Only after a forward_request whose `fetch` is "conditional": another 304 answers the client's own
        condition, and goes to decide_store."""
        request, response, head = exchange.request, exchange.response, _stored(stored)
        given = (*self._lent(), *request._lent(), *head, _length(body_len), *response._lent(), *exchange._moments())
        return StoreDecision(*_written("freshen", RulesStoreDecision, _size(request, response) + head[2], *given))

    def serve_stored(self, request, stored, body_len, now, cache_status=None):
        """The response from what is stored, or is being stored. `body_len`: of the body if all of it is there, else None.

        `cache_status` says how it came about (RFC 9211): {} of a hit; else "fwd": (name, the origin's status code or 0), where the name is one of FWD; and,
        each where it is so, "stored": True, "collapsed": True (it waited for another request's fetch), "hit": True, "detail": one of the names of REASONS,
        which a rejection or a decision has as `reason`; "connection_close": True writes Connection: close."""
        head, how = _stored(stored), _cache_status(cache_status)
        given = (*self._lent(), *request._lent(), *head, _length(body_len), *words.moment(now), ctypes.addressof(how))
        return Message(*_written("serve_stored", RulesMessage, _size(request) + head[2], *given, after=_parts))

    def reuse_stored(self, request, stored, body_len, now, cache_status=None):
        """decide_reuse, and where it may be reused serve_stored too, in one call: what was decided, and a Message, or None."""
        head, how = _stored(stored), _cache_status(cache_status)
        given = (*self._lent(), *request._lent(), *head, _length(body_len), *words.moment(now), ctypes.addressof(how))
        told, buf = _written("reuse_stored", RulesMessage, _size(request) + head[2], *given, after=_parts)
        reuse = REUSES[told.reuse]
        return reuse, None if reuse in ("after-validation", "bypass") else Message(told, buf)

    def relay_response(self, exchange, cache_status=None):
        """The head of a response that is handed on and not stored, and the parts of its body that are sent; also of one from 100 to 199, which no client of
        HTTP/1.0 gets (RFC 9110, 15.2). `cache_status`: as of serve_stored; "fetch" is what forward_request wrote: the client's conditions and its Range,
        which were not sent, are answered here, and bytes that are in no part passed over."""
        request, response, how = exchange.request, exchange.response, _cache_status(cache_status)
        given = (*self._lent(), *request._lent(), *response._lent(), *exchange._moments(), ctypes.addressof(how))
        return Message(*_written("relay_response", RulesMessage, _size(request, response), *given, after=_parts))

    def make_response(self, request, status_code, reason, now):
        """A response of the proxy's own, to a request that may have been rejected: head, and the body in `tail`. `reason`: a name of REASONS, or ""."""
        given = (*self._lent(), *request._lent(), status_code, _reason(reason, "the reason"), *words.moment(now))
        return Message(*_written("make_response", RulesMessage, _size(request), *given))

    def invalidated_keys(self, request, response):
        """The keys to purge once this response has come (RFC 9111, 4.4)."""
        told, buf = _written("invalidated_keys", RulesMessage, _size(request, response), *self._lent(), *request._lent(), *response._lent())
        return re.findall(rb"([^\n]*)\n", _span(buf, told.tail)) if told.key_count else []


def head_end(data, start=0):
    """How many bytes the head has in the bytes that came; 0: it goes on. `start`: how many were there at the last call. For a head that `parse_request` gave
    None for: call that first, and this only then, to see cheaply whether the rest has come."""
    return _call("head_end", *_bytes(data), start)


class BodyDecoder:
    """Decodes a body as it comes. One that stops before its end is not whole, but for framing "close"."""

    def __init__(self, framing, max_trailer_bytes=65536):
        name, body_len = framing
        state = (FRAMINGS.index(name), raw.NONE if body_len is None else body_len, max_trailer_bytes)
        self._raw, self.trailers = RulesBodyDecoder((U64 * 8)(*state)), b""

    def decode(self, data):
        """Data, bytes that are done with, whether the body is whole. A rejected one raises RejectedError."""
        data = words.data(data)
        told, buf = _written("decode_body", RulesBodyChunk, 0, ctypes.addressof(self._raw), data, len(data), size=64)  # trailers alone want a buffer
        if told.status == RULES_REJECTED:
            raise RejectedError(502, REASONS.get(told.reason, ""))
        if told.status == RULES_BODY_END:
            self.trailers = _span(buf, told.trailers)
        return data[told.start : told.end] if told.status == RULES_DATA else b"", told.consumed, told.status == RULES_BODY_END


def encode_chunk(data):
    """Data as a chunk of a body; of no data the last chunk, without trailers."""
    data = words.data(data)
    told, buf = _written("encode_chunk", RulesMessage, 0, len(data))
    return _span(buf, told.head) + data + _span(buf, told.tail)
