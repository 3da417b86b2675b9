"""The exports of the C library by ctypes, as `cache_tier.h` has them: for tests, and for the package itself.

One call at a time on one tier. What the tier itself lends (entries, files) stays till its next event; what a `Response` lends, till it is released. `cache_tier.Tier` sees to all of that.
"""

import ctypes
import os

from .tables import *  # noqa: F403 (all that the header has stands here as well)
from .tables import DATA, EXPORTS, FOUND, NONE, OK, U64, Meta, Options, Response, Result

_TYPES = {
    "t": [ctypes.c_void_p],
    "n": [U64],
    "b": [ctypes.c_char_p, ctypes.c_size_t],
    "m": [ctypes.POINTER(Meta)],
    "o": [ctypes.POINTER(Options)],
}
# Calls that move more bytes than this let go of the interpreter's lock; of the first four it is known by the bytes that they are given.
MANY = 64 << 10
BY_BYTES = ("put", "begin", "write", "lru_load")
LONG = (*BY_BYTES, "finish", "lru_snapshot", "lru_save", "lru_restore", "get_stats")
_LOADED = {}


class Library:
    """The loaded exports, each as a function by its name without `cache_tier1_`."""

    def __init__(self, path):
        # PyDLL and not CDLL: most calls take less than a microsecond, which is less than to let the interpreter's lock go and take it again.
        self.lib = lib = ctypes.PyDLL(path)
        try:
            self.version = self._bound("version", [], U64)
        except AttributeError:
            raise OSError(f"{path} is no cache tier of interface 1") from None
        self.sizeof = self._bound("sizeof", [], ctypes.c_size_t)
        self.digest = self._bound("digest", [ctypes.c_char_p, ctypes.c_size_t, ctypes.c_char_p, ctypes.c_size_t])
        self.release = self._bound("release", [ctypes.c_void_p])
        for name, (kinds, out) in EXPORTS.items():
            types = [it for kind in kinds for it in _TYPES[kind]]
            types += [] if out is None else [ctypes.POINTER(out)]
            types += [ctypes.c_void_p] if out is Response else []
            setattr(self, name, self._bound(name, types))
        self.path = lib._name
        # The calls that may move many bytes, as they let go of that lock meanwhile.
        free = ctypes.CDLL(path)
        self.long = {name: self._bound(name, getattr(self, name).argtypes, None, free) for name in LONG}

    def _bound(self, name, types, result=None, lib=None):
        function = getattr(lib or self.lib, "cache_tier1_" + name)
        function.argtypes, function.restype = types, result
        return function


def loaded(path=None):
    """The library of a path; else of CACHE_TIER_LIBRARY, or of this package."""
    at = path or os.environ.get("CACHE_TIER_LIBRARY") or os.path.join(os.path.dirname(os.path.abspath(__file__)), "libcache_tier.so")
    if at not in _LOADED:
        _LOADED[at] = Library(at)
    return _LOADED[at]


def text(lent):
    """A copy of lent bytes."""
    return ctypes.string_at(lent.ptr, lent.len) if lent.len else b""


NO_META = ctypes.pointer(Meta())
KEEP = Response.keep.offset


def release(library, response):
    """Releases what a response holds, once."""
    if response.held:
        response.held = 0
        if response.result.status in (FOUND, DATA):
            library.release(ctypes.addressof(response) + KEEP)


def never_copied(self, *_):
    """What has memory of the library: a copy would free it twice."""
    raise TypeError(f"a {type(self).__name__} is never copied or pickled")


def _words(arguments):
    """The arguments as an export takes them, and whether their bytes are many."""
    words, length = [], 0
    for it in arguments:
        if isinstance(it, bytes):
            words += (it, len(it))
            length += len(it)
        else:
            words.append(it)
    return words, length > MANY


class RawTier:
    """A tier whose calls return the struct that the library wrote: nothing is checked, and nothing raised."""

    __reduce_ex__ = __copy__ = __deepcopy__ = never_copied

    def __init__(self, library, max_bytes, max_entries, lock_age, lock_timeout, lru_shards, eviction_seed, hash_seed, max_body_bytes):
        self.library = library
        self._room = ctypes.create_string_buffer(library.sizeof() + 16)
        self.at = (ctypes.addressof(self._room) + 15) // 16 * 16
        none = lambda it: NONE if it is None else it
        options = Options(max_bytes, none(max_entries), lock_age, none(lock_timeout), lru_shards, eviction_seed, hash_seed, max_body_bytes)
        result = Result()
        library.init(self.at, options, result)
        self.state, self.live = result.status, result.status == OK

    def end(self):
        if self.live:
            self.live = False
            self.library.end(self.at)

    def call(self, name, *arguments):
        """Calls an export, and returns what it wrote. Bytes go with their length."""
        out = EXPORTS[name][1]()
        if isinstance(out, Response):
            self.fill(out, name, *arguments)
        else:
            words, many = _words(arguments)
            export = self.library.long[name] if many or name in LONG and name not in BY_BYTES else getattr(self.library, name)
            export(self.at, *words, out)
        return out

    def fill(self, out, name, *arguments):
        """The same of one that hands bytes over: `out` holds them from the moment at which they are."""
        words, _ = _words(arguments)
        out.held = 1
        getattr(self.library, name)(self.at, *words, out, ctypes.addressof(out) + KEEP)
        out.held = out.result.status in (FOUND, DATA)

    def release(self, response):
        release(self.library, response)

    def meta(self, meta):
        """The two arguments of metadata. None: the tier judges the head itself, as the traces have it; the package never asks for that."""
        return (0, NO_META) if meta is None else (1, ctypes.pointer(meta))
