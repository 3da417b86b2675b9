"""What was found, and views of it."""

import ctypes
import threading

from . import raw


class Held:
    """A filled `cache_tier_response`, which is released once, when nobody shows it any more."""

    library = raw = None

    def __init__(self, library, filled):
        self.library, self.raw, self.views, self.lock = library, filled, set(), threading.Lock()

    def release(self):
        # (none was made where an exception of a signal came first)
        if self.raw is not None:
            raw.release(self.library, self.raw)

    def __del__(self):
        self.release()

    def view(self, lent):
        """A read-only view, which keeps this."""
        with self.lock:
            if not self.raw.held:
                raise ValueError("the response is closed")
            if not lent.len:
                return memoryview(b"")
            array = (_Byte * lent.len).from_address(lent.ptr)
            array.keeps = _Shown(self)
        return memoryview(array).cast("B").toreadonly()


_Byte = ctypes.c_ubyte


class _Shown:
    """Counts a view as long as something of it is held."""

    def __init__(self, held):
        self.held = held
        held.views.add(id(self))

    def __del__(self):
        self.held.views.discard(id(self))


def _moment(name):
    return property(lambda self: (lambda it: (it.seconds, it.nanoseconds))(getattr(self._head(), name)))


def _number(name):
    return property(lambda self: getattr(self._head(), name))


class Response:
    """Head and body of a stored response. Released when it and its views are gone, or by `close`, which is refused while a view is there."""

    __slots__ = ("_held", "__weakref__")

    def __init__(self, held):
        self._held = held

    __reduce_ex__ = __copy__ = __deepcopy__ = raw.never_copied

    def _head(self):
        return self._held.raw.head

    status_code = _number("status_code")
    fresh_until, created, updated, provenance = _moment("fresh_until"), _moment("created"), _moment("updated"), _moment("provenance")
    stale_while_revalidate, stale_if_error, external_bytes = _number("stale_while_revalidate"), _number("stale_if_error"), _number("external_bytes")

    @property
    def body_len(self):
        """Bytes of a complete body; None while it is being written."""
        length = self._head().body_len
        return None if length == raw.NONE else length

    @property
    def body(self):
        return self._held.view(self._held.raw.body)

    @property
    def fields(self):
        """The field lines of the head, each `name: value` and CR LF, names in lower case."""
        return self._held.view(self._held.raw.head.fields)

    def iter_fields(self):
        """The field lines, as name and value."""
        for line in bytes(self.fields).split(b"\r\n")[:-1]:
            name, _, value = line.partition(b": ")
            yield name, value

    def to_head(self):
        """The head as a text that a write takes, with its empty line."""
        return b"HTTP/1.1 %03d \r\n%b\r\n" % (self.status_code, bytes(self.fields))

    def close(self):
        held = self._held
        with held.lock:
            if held.views:
                raise BufferError("a view of the response is still held")
            held.release()

    def __enter__(self):
        return self

    def __exit__(self, *_):
        self.close()

    def __repr__(self):
        return f"<Response {self.status_code}, {self._held.raw.body.len} bytes>"
