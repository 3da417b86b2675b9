"""The words of the promise: what a history says of bodies, writes, permits, fetches and exchanges."""

from dataclasses import dataclass, field

from cache_tier import CacheTierError

from .library import Tier

SCRATCH = Tier(1 << 30, 10, 60)


class Broken(Exception):
    pass


def holds(what, *told):
    if not what:
        raise Broken(" ".join(str(it)[:400] for it in told))


@dataclass
class Body:  # a response's body as it came
    bytes: bytearray = field(default_factory=bytearray)
    decoder: object = None
    framing: str = ""
    length: int = None
    whole: bool = False
    broken: bool = False
    trailers: bytes = b""
    after: int = None  # where its tail begins: it grew too long to be stored
    kept_from: int = 0  # of the tail, what is kept
    unread: int = 0
    changed: bool = False  # in this call


@dataclass
class Write:  # what is stored, or being stored
    key: bytes
    head: object
    body: Body
    of: object = None  # the fetch
    index: bytes = None  # of a Vary index: its body
    place: int = 0  # the later, the later it was finished; 0: in flight


@dataclass
class Permit:  # to fetch a key, while others wait; over: lost, done, given_up; aged: past its age, and then taken
    given: tuple
    over: str = ""


@dataclass
class Fetch:  # what the origin was asked
    x: int
    fetch: str
    asked: tuple
    sent: object
    key: bytes
    permit: Permit
    sequence: int
    word: tuple = None
    spoke: bool = False
    came: tuple = None
    interims: int = 0
    sent_again: bool = False
    body_sent: bool = False
    blocked: bool = False
    found: object = None  # a head
    old: object = None  # a write
    old_head: object = None
    index: bytes = b""
    cause: str = ""
    reason: str = ""
    phase: str = "awaiting_head"  # storing, relaying, over
    closes: bool = False
    storable: bool = False  # by what it says itself
    removed: bool = False  # a purge of its keys came since
    superseded: bool = False  # the answer to what was asked later has come
    overtaken: bool = False  # what it validates was freshened since, or replaced
    hides: bool = False  # what is too old, and fresh by the tier: its own response isn't stored in the place of that
    body: Body = None
    write: Write = None


@dataclass
class Exchange:
    x: int
    q: object
    peer: bytes
    closes: bool = False
    key: bytes = b""
    waits_for: Permit = None
    moved: bool = False
    shares: tuple = None
    since: tuple = None
    collapsed: bool = False
    alone: bool = False
    fetch: Fetch = None
    gone: bool = False
    taking: object = None  # the request's body
    took: bytearray = field(default_factory=bytearray)
    to_origin: bytearray = field(default_factory=bytearray)
    to_origin_framing: str = ""
    interims: bytes = b""
    made: object = None  # its answer: the head, the parts
    body: Body = None
    text: bytes = None
    told: bool = False  # it is relayed
    window: int = None  # of what is relayed, the end of the part that the client gets
    reads_write: bool = False  # what is being stored
    passed: bool = False  # it reads in the tail
    behind: bool = False  # and what it lacks isn't kept any more
    begun: bool = False  # a `poll` came since its answer was made
    trailers: bytes = b""
    sent: bytearray = field(default_factory=bytearray)
    payload: int = 0  # of what was sent, bytes behind the head, without the sizes of chunks
    queued: int = 0  # bytes that wait for the client, of heads and of what is relayed
    asleep: bool = False  # it was told to wait, and not woken since
    spoiled: bool = False  # its own body was bad

    def place(self):
        """Of a body that is read, the next byte that is sent."""
        start = self.made.parts[0][1] if self.made.parts else 0
        return start + self.payload if self.begun else 0

    def reads(self, body):
        return self.reads_write and self.body is body and not self.gone and not self.is_answered()

    def is_answered(self):
        """It got all of its part."""
        end = self.made.parts[0][2] if self.made.parts else 0
        return end is not None and self.place() >= end


class Told:
    """A tier of which is written down what it stored, let go for room, and was told to purge: the promise ties a gateway's account to that."""

    def __init__(self, tier):
        self.tier, self.calls, self.opened = tier, [], set()

    def open(self, x, *given):
        self.tier.open(x, *given)
        self.opened.add(x)

    def close_request(self, x):
        self.tier.close_request(x)
        self.opened.discard(x)

    def __getattr__(self, name):
        call = getattr(self.tier, name)
        return call if name not in ("begin", "finish", "put", "revalidate", "purge") else lambda *given: self.tells(name, call, given)

    def tells(self, name, call, given):
        try:
            it = call(*given)
        except CacheTierError as refused:
            self.calls.append((name, given, False, refused.evicted))
            raise
        done = it is None if name == "begin" else isinstance(it, list) if name == "revalidate" else hasattr(it, "evicted") or name == "purge"
        self.calls.append((name, given, done, it if isinstance(it, list) else getattr(it, "evicted", [])))
        return it

    def taken(self):
        calls, self.calls = self.calls, []
        return calls


def as_stored(kept, old=None):
    """A head as the tier gives it back."""
    moment = kept.meta.created
    SCRATCH.put(moment, b"k", old.to_head() if old else kept.head, b"", kept.meta)
    if old:
        SCRATCH.open(1, b"k")
        SCRATCH.lookup((2**40, 0), 1)
        SCRATCH.revalidate(moment, 1, kept.head, kept.meta)
        SCRATCH.close_request(1)
    return SCRATCH.peek(b"k")


def later(moment, seconds):
    return moment[0] + seconds, moment[1]


def parts_of(made, body):
    """What of a body is sent, as far as it is there, and whether that is all."""
    out = b""
    for before, start, end in made.parts:
        there = bytes(body.bytes[start:end])
        out += before + there
        if not (body.whole if end is None else len(there) == end - start):
            return out, False
    return out + made.tail, True


def chunked(data):
    return len(b"%x\r\n\r\n" % len(data)) + len(data) if data else 0


def unchunked(data):
    """The data of chunks, what ended them, and what is left."""
    out = b""
    while data:
        line, _, data = data.partition(b"\r\n")
        size = int(line, 16)
        if size == 0:
            at = data.find(b"\r\n\r\n") + 4 if not data.startswith(b"\r\n") else 2
            return out, data[:at], data[at:]
        out += data[:size]
        holds(data[size : size + 2] == b"\r\n", "chunk", data[:40])
        data = data[size + 2 :]
    return out, None, b""
