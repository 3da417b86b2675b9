"""The gateway: the protocol between HTTP's rules and a tier as one value. It is given bytes and moments and gives bytes to send: it opens no socket, starts no
thread and reads no clock. What a program over it owes it, a mover of bytes, the library's header says, cache_gateway.h.

    gateway = Gateways(4, started=now())
    request = gateway.parse_request(data)                # None: the head goes on
    handle, out = gateway.start(now(), request, b"127.0.0.1")
    # out.origin, out.to_origin: to the origin; out.pieces: to the client, then out.client; out.wakes: to poll; out.at: to poll then
    out = gateway.response_head(now(), handle, received)
    out = gateway.poll(now(), handle)

A call that isn't lawful is answered by `status`, and changes nothing. What a caller may not give at all, as a number out of its range, raises ValueError."""

import collections
import ctypes
import os
import threading

from . import gateway_tables as tables
from . import raw, words
from .rules import REASONS, Rules
from .tables import OPTION_FLAGS, RULES_DEFAULTS, RulesOptions

STATUSES = {tables.DONE: "done", tables.NEED_MORE: "more", tables.BLOCKED: "blocked", tables.NO_EXCHANGE: "no_exchange", 3: "wrong_phase", 13: "memory", 20: "bad_argument"}
Counts = collections.namedtuple("Counts", "exchanges weight tracked")
_CLOSED = {name: number for number, name in tables.CLOSED.items()}
_LEAST = 1 << 14  # a piece of at least so many bytes is lent; a shorter one is copied
_P = ctypes.c_void_p
_TYPES = {"g": [_P], "p": [_P], "n": [ctypes.c_uint64], "b": [ctypes.c_char_p, ctypes.c_size_t], "s": [_P, _P, ctypes.c_size_t]}
_OUT, _REQUEST = tables.Out.keep.offset, tables.Request.keep.offset


def _exports(path=None):
    """The exports of the library of a path, by their names."""
    library = raw.loaded(path)
    bound = library.__dict__.get("gateway")
    if bound is None:
        bound = {}
        for name, (letters, has_result) in tables.EXPORTS.items():
            function = getattr(library.lib, "cache_gateway1_" + name)
            function.argtypes = [it for letter in letters for it in _TYPES[letter]]
            function.restype = ctypes.c_size_t if has_result else None
            bound[name] = function
        library.gateway = bound
    return bound


class _Held:
    """A struct that the library filled, and what it keeps besides, which is freed once."""

    exports = free = None

    def __init__(self, exports, kind, free):
        self.told, self.exports = kind(), exports
        self.at, self.keep = ctypes.addressof(self.told), ctypes.addressof(self.told) + kind.keep.offset
        self.name = free

    def filled(self):
        self.free = self.exports[self.name]

    def release(self):
        free, self.free = self.free, None
        if free is not None:
            free(self.keep)

    def __del__(self):
        self.release()


class RequestHead:
    """The head of a request that was parsed: `start` takes it, once. `key`, `method`, `host` and `target` are empty where it is rejected, which `start`
    answers."""

    __slots__ = ("_held", "head_len", "is_rejected", "key", "method", "host", "target", "_place")
    __reduce_ex__ = __copy__ = __deepcopy__ = raw.never_copied

    def __init__(self, held):
        told = held.told
        self._held, self.head_len, self.is_rejected, self._place = held, told.head_len, told.is_rejected != 0, told.place
        self.key, self.method, self.host, self.target = (raw.text(it) for it in (told.key, told.method, told.host, told.target))

    def partition(self, count):
        """The partition of so many that has its key."""
        return self._place * count >> 32


class Out:
    """What a call answers.

    status      done; more: come again with more bytes; blocked: nothing more is taken, before `origin` says continue. Else the call was refused, and nothing
                was changed: no_exchange, wrong_phase, bad_argument; memory, which may come in the middle: then the exchange is to be ended, by
                client_closed and origin_closed, and all others are to be polled
    exchange    of start: its number
    used        bytes that are done with
    client      of start and poll, behind the pieces: wait, end, close (the client's connection too), truncated (close it: the answer isn't whole)
    pieces      for the client: bytes, or views of a stored body, which keep what they show
    origin      send_request: `to_origin` on a connection; send_data: `to_origin` on it; receive_body: what comes next is for response_data; continue: it is
                read on; reusable: it may serve another exchange; close_origin
    body_follows, last      of start: the request's body, by request_data; of request_data: it is over
    at          poll at that moment
    found       of purge: something was there
    wakes, purges, evicted  exchanges to poll; keys to purge in the other partitions; digests of keys that went for room
    events      what was done: a name, and what the header says of it"""

    __slots__ = "status exchange used client pieces origin to_origin body_follows last at found wakes purges evicted events".split()

    def __init__(self, status="done", exchange=0, client="nothing"):
        self.status, self.exchange, self.client, self.used, self.origin, self.to_origin, self.at = status, exchange, client, 0, "nothing", b"", None
        self.body_follows = self.last = self.found = False
        self.pieces, self.wakes, self.purges, self.evicted, self.events = [], [], [], [], []

    @classmethod
    def _of(cls, held):
        it, told = cls.__new__(cls), held.told
        it.status, it.exchange, it.used = STATUSES[told.status], told.exchange, told.used
        it.client, it.origin, it.to_origin = tables.CLIENT_ENDS[told.client], tables.ORIGIN_ACTIONS[told.origin], raw.text(told.to_origin)
        it.body_follows, it.last, it.found = told.body_follows != 0, told.last != 0, told.found != 0
        it.at = (told.at.seconds, told.at.nanoseconds) if told.has_at else None
        it.pieces = [_piece(held, item.data) for item in _items(held, tables.LIST_PIECES, told.pieces)]
        it.wakes = [item.number for item in _items(held, tables.LIST_WAKES, told.wakes)]
        it.purges = [raw.text(item.data) for item in _items(held, tables.LIST_PURGES, told.purges)]
        it.evicted = [raw.text(item.data) for item in _items(held, tables.LIST_EVICTED, told.evicted)]
        it.events = [_event(item) for item in _items(held, tables.LIST_EVENTS, told.events)]
        return it


def _items(held, which, count):
    item = tables.Item()
    for place in range(count):
        held.exports["out_item"](held.keep, which, place, ctypes.addressof(item))
        yield item


def _piece(held, lent):
    if lent.len < _LEAST:
        return raw.text(lent)
    array = (ctypes.c_ubyte * lent.len).from_address(lent.ptr)
    array.keeps = held
    return memoryview(array).cast("B").toreadonly()


def _event(item):
    name, key = tables.EVENT_NAMES[item.number], raw.text(item.data)
    if name == "requested":
        return (name, tables.FETCHES[item.first], key or None, item.second != 0)
    if name in ("hit", "collapsed"):
        return (name, tables.REUSES[item.first])
    if name == "generated":
        return (name, item.first, REASONS.get(item.second, item.second))
    if name == "relayed":
        return (name, item.first)
    return (name, key) if key else (name,)


def _bytes(given):
    given = words.data(given)
    return given, len(given)


def _number(exchange):
    return words.number(exchange, "the exchange")


def _limits(given):
    chosen = {**tables.DEFAULTS, "hash_seed": int.from_bytes(os.urandom(8), "little"), **given}
    return tables.Limits(*(words.number(value, name) for name, value in chosen.items()))


class _Parser:
    """The options of the rules, by which a request is parsed: they never change, so no lock is needed."""

    def __init__(self, exports, settings, options):
        self.exports, self.rules = exports, Rules(settings, **options)

    def parse(self, data, looked):
        held = _Held(self.exports, tables.Request, "request_free")
        given = _bytes(data)
        self.exports["parse_request"](*self.rules._lent(), *given, words.number(looked, "looked"), held.at, held.keep)
        held.filled()
        if held.told.status == tables.NEED_MORE:
            return None
        if held.told.status != tables.DONE:
            raise words.CacheTierError(held.told.status)
        return RequestHead(held)


class Gateway:
    """A gateway. `started`: the present moment; `secret`: at least 16 random bytes, drawn where none are given; `settings` and the options are those of
    cache_tier.rules.Rules; of the limits, max_bytes, lock_age, lock_timeout, max_exchanges, max_body_bytes, max_relay_bytes, max_unread,
    max_interim_responses, first_byte_timeout, between_bytes_timeout, max_predicted, predicted_seconds, hash_seed and max_tail, each is at least 1.

    It may be called from any thread: each call holds a lock of its own, but parse_request, which needs none."""

    __reduce_ex__ = __copy__ = __deepcopy__ = raw.never_copied
    _live = False
    _purging = None  # in a partition: exchanges that give nothing till their keys are purged in the others, and whether they were polled meanwhile

    def __init__(self, started, secret=None, settings="", library_path=None, **options):
        limits = {name: options.pop(name) for name in tables.DEFAULTS if name in options}
        self._exports = _exports(library_path)
        self._parser = _Parser(self._exports, settings, options)
        text = "".join(it.strip() + "\r\n" for it in settings.splitlines() if it.strip()).encode()
        self._lock = threading.Lock()
        self._room = ctypes.create_string_buffer(self._exports["sizeof"]() + 16)
        self._at = (ctypes.addressof(self._room) + 15) // 16 * 16
        secret = os.urandom(16) if secret is None else words.data(secret)
        counts, bounds, numbers = tables.Counts(), _limits(limits), _numbers(options)
        self._exports["init"](self._at, *words.moment(started), ctypes.addressof(bounds), ctypes.addressof(numbers), text, len(text), secret, len(secret), ctypes.addressof(counts))
        self._live = True
        if counts.status == 20:
            self.close()
            raise ValueError("a limit is out of its range, or the secret has less than 16 bytes")
        if counts.status:
            self.close()
            raise words.CacheTierError(counts.status)

    def close(self):
        """Frees it. What was answered stays."""
        if self._live:
            self._live = False
            self._exports["end"](self._at)

    def __del__(self):
        self.close()

    def __enter__(self):
        return self

    def __exit__(self, *_):
        self.close()

    def exchanges(self):
        """How many are open."""
        return self.counts().exchanges

    def counts(self):
        """What it holds, in constant time: open exchanges; the weight of its whole bodies in bytes, which max_bytes bounds; and how many these are."""
        counts = tables.Counts()
        with self._lock:
            self._is_open()
            self._exports["get_counts"](self._at, ctypes.addressof(counts))
        return Counts(counts.exchanges, counts.weight, counts.tracked)

    def _is_open(self):
        if not self._live:
            raise ValueError("the gateway is closed")

    def _call(self, name, *given):
        held = _Held(self._exports, tables.Out, "out_free")
        with self._lock:
            self._is_open()
            if name == "poll" and self._purging and given[2] in self._purging:
                self._purging[given[2]] = True
                return Out(exchange=given[2], client="wait")
            self._exports[name](self._at, *given, held.at, held.keep)
            held.filled()
            if self._purging is not None and held.told.purges:
                self._purging[held.told.exchange] = False
        return Out._of(held)

    def _purged(self, exchange):
        """The other partitions were purged: whether it was polled meanwhile."""
        with self._lock:
            return self._purging.pop(exchange)

    def parse_request(self, data, looked=0):
        """The head of the next request, also of one that is rejected; None: it goes on. `looked`: so many of these bytes were given before."""
        return self._parser.parse(data, looked)

    def start(self, now, request, peer=b""):
        """A request begins. Its first `poll` is in it: a hit is this one call."""
        held, moment, peer = request._held, words.moment(now), _bytes(peer)
        if held is None:
            raise ValueError("the request was started")
        request._held, held.free = None, None  # (the library takes it)
        return self._call("start", *moment, held.keep, *peer)

    def poll(self, now, exchange):
        """What the client is sent next, and what is due on either side."""
        return self._call("poll", *words.moment(now), _number(exchange))

    def request_data(self, now, exchange, data):
        """Bytes of the request's body, as they came."""
        return self._call("request_data", *words.moment(now), _number(exchange), *_bytes(data))

    def response_head(self, now, exchange, data):
        """Bytes of the origin's connection, from the response's head on. The first call of a head is its arrival."""
        return self._call("response_head", *words.moment(now), _number(exchange), *_bytes(data))

    def response_data(self, now, exchange, data):
        """Bytes of the response's body, as they came."""
        return self._call("response_data", *words.moment(now), _number(exchange), *_bytes(data))

    def origin_closed(self, now, exchange, why):
        """The origin's connection ended: clean, failed, timeout, or unused."""
        if why not in _CLOSED:
            raise ValueError(f"none of {', '.join(_CLOSED)}: {why!r}")
        return self._call("origin_closed", *words.moment(now), _number(exchange), _CLOSED[why])

    def client_closed(self, now, exchange):
        """The client went away."""
        return self._call("client_closed", *words.moment(now), _number(exchange))

    def purge(self, url):
        """Purges a URL as people write it: `found` says whether anything was there."""
        return self._call("purge", *_bytes(url))

    def purge_key(self, key):
        """Purges a key that another partition named."""
        return self._call("purge_key", *_bytes(key))

    def purge_all(self, now):
        """Purges everything: nothing that was asked until now answers who asks from now on, and nothing that is on its way is stored.

        Who asked before may get what is stale in the place of an error.
        """
        return self._call("purge_all", *words.moment(now))

    def stop(self):
        """Before an end: each exchange that begins from now on says that its connection ends behind the answer."""
        with self._lock:
            self._is_open()
            self._exports["stop"](self._at)


def _numbers(options):
    """The numbers of the rules' options, for the library to copy."""
    chosen = {**RULES_DEFAULTS, **options}
    flags = sum(bool(chosen.pop(it)) << bit for bit, it in enumerate(OPTION_FLAGS))
    return RulesOptions(flags, *chosen.values())


class Gateways:
    """As many gateways as `count`, each with a lock of its own and its share of max_bytes; a request goes to the partition of its key. A handle names the
    partition and the exchange. No lock is held while another is taken, and what an unsafe method changes is purged in every partition before its answer is
    given."""

    __reduce_ex__ = __copy__ = __deepcopy__ = raw.never_copied

    def __init__(self, count, started, secret=None, max_bytes=tables.DEFAULTS["max_bytes"], **options):
        secret = os.urandom(16) if secret is None else words.data(secret)
        share = words.number(max_bytes, "max_bytes") // words.number(count, "the partitions", 2**32) if count else 0
        self._parts = [Gateway(started, secret + b"%d" % at, max_bytes=share, **options) for at in range(count)]
        if not self._parts:
            raise ValueError("there is one partition at least")
        for it in self._parts:
            it._purging = {}

    def exchanges(self):
        """How many are open."""
        return sum(it.exchanges() for it in self._parts)

    def counts(self, partition):
        """What a partition holds, as one gateway tells it; they are numbered from 0."""
        if words.number(partition, "the partition") >= len(self._parts):
            raise ValueError(f"there is no partition {partition}")
        return self._parts[partition].counts()

    def close(self):
        for it in self._parts:
            it.close()

    def parse_request(self, data, looked=0):
        return self._parts[0].parse_request(data, looked)

    def start(self, now, request, peer=b""):
        """The handle, and what is answered."""
        part = request.partition(len(self._parts))
        out = self._within(part, "start", now, request, peer)
        return (part, out.exchange), out

    def poll(self, now, handle):
        """As of one gateway; nothing is given while other partitions are purged for this exchange: it is woken then."""
        return self._within(handle[0], "poll", now, handle[1])

    def request_data(self, now, handle, data):
        return self._within(handle[0], "request_data", now, handle[1], data)

    def response_head(self, now, handle, data):
        return self._within(handle[0], "response_head", now, handle[1], data)

    def response_data(self, now, handle, data):
        return self._within(handle[0], "response_data", now, handle[1], data)

    def origin_closed(self, now, handle, why):
        return self._within(handle[0], "origin_closed", now, handle[1], why)

    def client_closed(self, now, handle):
        return self._within(handle[0], "client_closed", now, handle[1])

    def purge(self, url):
        """Purges a URL, which lies in one of the partitions."""
        outs = [self._within(part, "purge", url) for part in range(len(self._parts))]
        for it in outs[1:]:
            outs[0].found, outs[0].wakes = outs[0].found or it.found, outs[0].wakes + it.wakes
        return outs[0]

    def purge_all(self, now):
        """Purges everything, in each partition."""
        outs = [self._within(part, "purge_all", now) for part in range(len(self._parts))]
        for it in outs[1:]:
            outs[0].wakes = outs[0].wakes + it.wakes
        return outs[0]

    def stop(self):
        """As of one gateway, in each partition."""
        for it in self._parts:
            it.stop()

    def _within(self, part, name, *given):
        """A call in a partition; then, with no lock held, each key that it names is purged in the others. Of what is answered the exchanges to wake are
        handles."""
        if words.number(part, "the partition") >= len(self._parts):
            return Out("no_exchange")
        out = getattr(self._parts[part], name)(*given)
        out.wakes = [(part, x) for x in out.wakes]
        for key in out.purges:
            other = words.Digest.of(key).partition(len(self._parts))
            if other != part:
                told = self._parts[other].purge_key(key)
                out.wakes += [(other, x) for x in told.wakes]
                out.events += told.events
        if out.purges and self._parts[part]._purged(out.exchange) and (part, out.exchange) not in out.wakes:
            out.wakes.append((part, out.exchange))
        return out
