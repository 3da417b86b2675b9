"""A tier, with a lock round each call."""

import collections
import contextlib
import os
import threading

from . import raw, words
from .response import Held, Response
from .tables import DEFAULTS
from .words import CacheTierError, Lookup, LruRestored, Stats, Stored


class Tier:
    """One tier. `max_bytes` bounds the bytes of all bodies, heads and external bytes, `max_entries` the number of entries; `lock_age` (after which a permit
    no longer makes others wait) and `lock_timeout` (how long one request waits in all) are seconds; `lru_shards` is 1, 4 or 16; `hash_seed` is drawn where
    it is left out; `max_body_bytes` bounds one body with its external bytes (0: half of `max_bytes`; None: no bound). Numbers out of their range are a
    ValueError, a call after close too.

    A `user_tag` names the owner of a key. A key found under several tags has an entry for each, and each weighs all of the body: past `max_bytes` until the
    next put or finish. So use few, and none that a client chooses."""

    def __init__(
        self,
        max_bytes,
        max_entries=DEFAULTS["max_entries"],
        lock_age=DEFAULTS["lock_age"],
        lock_timeout=DEFAULTS["lock_timeout"],
        lru_shards=DEFAULTS["lru_shards"],
        eviction_seed=DEFAULTS["eviction_seed"],
        hash_seed=None,
        library_path=None,
        max_body_bytes=DEFAULTS["max_body_bytes"],
    ):
        if hasattr(self, "_turn"):
            raise TypeError("a tier is made once")
        # One thread at a time, and within its turn one call at a time. Each is held by a `with` of the lock itself: an exception of a signal may
        # come between any two steps, and lets go of what is held.
        self._turn, self._busy = threading.RLock(), threading.Lock()
        # The numbers of requests that went without a call: a finalizer may run between two calls of a turn, so it only leaves its number here.
        self._gone = collections.deque()
        self._raw = None
        if lru_shards not in (1, 4, 16):
            raise ValueError(f"lru_shards is 1, 4 or 16: {lru_shards!r}")
        seed = int.from_bytes(os.urandom(8), "little") if hash_seed is None else hash_seed
        for what, it in (("max_bytes", max_bytes), ("lock_age", lock_age), ("eviction_seed", eviction_seed), ("hash_seed", seed)):
            words.number(it, what)
        for what, it in (("max_entries", max_entries), ("lock_timeout", lock_timeout), ("max_body_bytes", max_body_bytes)):
            it is None or words.number(it, what)
        most = raw.NONE if max_body_bytes is None else max_body_bytes
        made = raw.RawTier(raw.loaded(library_path), max_bytes, max_entries, lock_age, lock_timeout, lru_shards, eviction_seed, seed, most)
        if made.state != raw.OK:
            raise CacheTierError(made.state)
        self._raw, self._shards = made, lru_shards

    __reduce_ex__ = __copy__ = __deepcopy__ = raw.never_copied

    def _alone(self, run, *arguments):
        """A call, while no other is made. A signal handler or a finalizer may run within a call, and may not call the tier there."""
        with self._turn:
            # (the turn is this thread's, so that a call which goes on is one of this thread's)
            if self._busy.locked():
                raise RuntimeError("a call of a tier within a call of it")
            with self._busy:
                return run(*arguments)

    def _call(self, run, *arguments):
        """A call over the raw tier."""
        return self._alone(lambda: run(self._of(), *arguments))

    def close(self):
        """Frees the tier, and closes its requests. A Response stays valid."""
        self._alone(self._end)

    def _end(self):
        of, self._raw = self._raw, None
        if of is not None:
            of.end()

    def __enter__(self):
        return self

    def __exit__(self, *_):
        self.close()

    def __del__(self):
        if getattr(self, "_raw", None) is not None:
            self._raw.end()

    def _of(self):
        """The raw tier, under the lock, without the requests that went."""
        of = self._raw
        if of is None:
            raise ValueError("the tier is closed")
        while self._gone:
            of.call("close", self._gone.popleft())
        return of

    def _keys(self, of, result):
        """The keys of the entries that the last event evicted."""
        every = (of.call("evicted_entry", index) for index in range(result.evicted))
        return [words.entry(it).key.combined() for it in every if it.status == raw.ITEM]

    def _event(self, name, *arguments):
        """An event, which is done, and what it evicted."""
        return self._call(self._take, name, *arguments)

    def _take(self, of, name, *arguments):
        result = of.call(name, *arguments)
        return self._done(of, result), self._keys(of, result)

    def _done(self, of, result):
        if result.status < 32:
            raise CacheTierError(result.status, result.body_removed != 0, result.entry_removed != 0, self._keys(of, result))
        return result

    def _show(self, name, *arguments):
        """A call that fills a response: the result, and what it found."""
        return self._call(self._fill, name, *arguments)

    def _fill(self, of, name, *arguments):
        # (made first: what is handed over is released, whatever comes between)
        held = Held(of.library, raw.Response())
        of.fill(held.raw, name, *arguments)
        return self._done(of, held.raw.result), held

    def _tag(self, user_tag):
        return user_tag.encode()

    def get(self, now, key, user_tag=""):
        """The stored response if it is fresh and complete; counts as a use. None: nothing has changed; open a request."""
        result, held = self._show("get", *words.moment(now), *words.key(key), self._tag(user_tag))
        return Response(held) if result.status == raw.FOUND else None

    def open(self, request_id, key, lock=False, user_tag=""):
        """Opens a request by a number that isn't open. With `lock` its lookups ask for the permit to write if they find nothing fresh."""
        self._event("open", words.number(request_id, "the request"), int(bool(lock)), *words.key(key), self._tag(user_tag))

    def lookup(self, now, request_id):
        """Looks up what is stored or being written under the request's key, with its head. What `read` gives then is of the same response."""
        return self._found(*self._show("lookup", *words.moment(now), words.number(request_id, "the request")))

    def _found(self, result, held):
        response = Response(held) if result.status == raw.FOUND else None
        return Lookup(response, result.fresh != 0, result.complete != 0, words.PERMITS[result.permit])

    def lookup_stale(self, request_id):
        """The same, but what it finds counts as stale, as for a request with `Cache-Control: no-cache`; of a request that was opened without `lock`."""
        return self._found(*self._show("lookup_stale", words.number(request_id, "the request")))

    def poll(self, now, request_id):
        """How the wait for another request's permit ended; None: it goes on."""
        result, _ = self._event("poll", *words.moment(now), words.number(request_id, "the request"))
        return words.LOCK_STATUSES[result.lock_status] if result.status == raw.WAIT_ENDED else None

    def begin(self, now, request_id, head, meta):
        """Begins a write with the head of the response, up to its empty line. Other requests find it from now on; the permit is given back."""
        meta = self._meta(meta, now)
        self._event("begin", *words.moment(now), words.number(request_id, "the request"), words.data(head), *meta)

    def revalidate(self, now, request_id, head, meta):
        """Replaces head and metadata of the stale response that the last lookup found: the keys of the bodies that were evicted."""
        meta = self._meta(meta, now)
        return self._event("revalidate", *words.moment(now), words.number(request_id, "the request"), words.data(head), *meta)[1]

    def write(self, request_id, data, last=False):
        """Adds bytes to the body. `last`: none follow."""
        self._event("write", words.number(request_id, "the request"), int(bool(last)), words.data(data))

    def finish(self, request_id):
        """Ends the write: the bytes so far are the body, whatever Content-Length says. If bytes are missing, close the request instead."""
        result, evicted = self._event("finish", words.number(request_id, "the request"))
        return Stored(result.body_len, evicted)

    def read(self, request_id):
        """Bytes; None while more may come; "end" of a whole body, "given-up" of a write that was abandoned."""
        result, held = self._show("read", words.number(request_id, "the request"))
        if result.status == raw.DATA:
            return held.view(held.raw.body)
        return None if result.status == raw.PENDING else "end" if result.complete else "given-up"

    def close_request(self, request_id):
        """Closes the request, and abandons its write and its permit. False: no request with this number is open."""
        words.number(request_id, "the request")
        return self._call(lambda of: of.call("close", request_id).status == raw.CLOSED)

    def give_up(self, request_id):
        """Says that the response will not be stored, as a private one: who waits for the permit goes on at once, and what is stale stays. After it only
        `close_request` is allowed."""
        self._event("give_up", words.number(request_id, "the request"))

    def purge(self, key, user_tag=""):
        """Removes what is stored or being written under the key: whether anything was."""
        result, _ = self._event("purge", *words.key(key), self._tag(user_tag))
        return result.status == raw.PURGED

    def put(self, now, key, head, body, meta, user_tag=""):
        """Stores a whole response: the bytes of `head`, up to its empty line, and of `body`, whatever Content-Length says."""
        meta = self._meta(meta, now)
        told = (*words.moment(now), *words.key(key), self._tag(user_tag), words.data(head), words.data(body))
        result, evicted = self._event("put", *told, *meta)
        return Stored(result.body_len, evicted)

    def _meta(self, meta, now):
        return self._call(lambda of: of.meta(words.meta(meta, now)))

    def peek(self, key):
        """The finished response of a key, fresh or stale; no lookup and no use."""
        return self._call(self._peek, *words.key(key))

    def _peek(self, of, *key):
        held = Held(of.library, raw.Response())
        of.fill(held.raw, "peek", *key)
        if held.raw.result.status == raw.NO_ITEM:
            return None
        self._done(of, held.raw.result)
        return Response(held)

    def lru_entries(self, shard=0):
        """The entries of a shard, most recently used first."""
        return self._call(self._entries, words.number(shard, "the shard"))

    def _entries(self, of, shard):
        count = self._done(of, of.call("lru_snapshot", shard)).entry_count
        return [words.entry(of.call("lru_entry", index)) for index in range(count)]

    def lru_save(self):
        """The serialized LRU order, by shard; None where one wasn't saved. It has no body."""
        return self._call(self._files)

    def _files(self, of):
        self._done(of, of.call("lru_save"))
        return [self._file(of.call("lru_file", shard)) for shard in range(self._shards)]

    def _file(self, told):
        if told.status not in (raw.ITEM, raw.NO_ITEM):
            raise CacheTierError(told.status)
        return raw.text(told.content) if told.status == raw.ITEM else None

    def lru_restore(self, files):
        """Restores the LRU order of a new tier from what was saved: how many shards were restored, had no file, and had a corrupt one."""
        return self._call(self._restore, files)

    def _restore(self, of, files):
        for shard, file in enumerate(files):
            if file is not None and of.call("lru_load", shard, words.data(file)).status != raw.OK:
                raise CacheTierError(raw.MEMORY)
        result = self._done(of, of.call("lru_restore"))
        return LruRestored(result.shards_ok, result.shards_missing, result.shards_corrupt)

    def weight(self):
        """The sum of the entries' weights, which `max_bytes` bounds, and how many there are, in constant time."""
        told = self._call(lambda of: of.call("weight"))
        return told.weight, told.entries

    def stats(self):
        """The counters. It takes time in proportion to the number of bodies."""
        told = self._call(lambda of: of.call("get_stats"))
        return Stats(*(getattr(told, name) for name in Stats._fields))

    @contextlib.contextmanager
    def locked(self):
        """Several calls while no other thread calls this tier: `with tier.locked() as tier:`."""
        with self._turn:
            yield self
