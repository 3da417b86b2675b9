"""The shapes: limits, what a call answers, an exchange."""

from dataclasses import dataclass, field, fields


@dataclass
class Limits:
    """Bounds of one partition; each is at least 1."""

    max_bytes: int = 1 << 28  # of the tier; of what is in flight, with its tails, half of that
    lock_age: int = 10  # seconds that a permit to fetch holds
    lock_timeout: int = 60  # seconds that an exchange waits for others' permits, in all
    max_exchanges: int = 4096  # one more is answered 503
    max_body_bytes: int = 1 << 24  # of a body that is stored
    max_tail: int = 1 << 20  # of what grew past that, and its own client hasn't taken
    max_relay_bytes: int = 1 << 17  # relayed, and not taken
    max_unread: int = 1 << 24  # of a body that comes for nobody
    max_interim_responses: int = 16
    first_byte_timeout: int = 60
    between_bytes_timeout: int = 60
    max_predicted: int = 1024  # keys whose next response won't be stored, as their last one wasn't
    predicted_seconds: int = 120  # for so long

    def __post_init__(self):
        for it in fields(self):
            setattr(self, it.name, max(1, getattr(self, it.name)))


@dataclass
class Out:
    status: str = "done"  # done; more: come again with more bytes; blocked; no_exchange, wrong_phase, bad_argument: nothing was changed
    exchange: int = None  # of start: its number
    used: int = 0  # bytes that are done with
    # of start and poll, behind the pieces: wait, end, close (the client's connection too), truncated (close it: the answer isn't whole)
    client: str = "nothing"
    data: list = field(default_factory=list)  # pieces for the client
    # send_request: `to_origin` on a connection; send_data: `to_origin` on it; receive_body: what comes next is for `response_data`; continue: it is
    # read on; reusable: the exchange with it is over; close_origin: close it
    origin: str = "nothing"
    to_origin: bytes = b""
    body_follows: bool = False  # of start: the request's body, by `request_data`
    last: bool = False  # of request_data: the request's body is over
    at: tuple = None  # call `poll` at that moment
    found: bool = False  # of purge: something was there
    wakes: list = field(default_factory=list)  # exchanges for which `poll` is to be called
    evicted: list = field(default_factory=list)  # stored keys that went for room
    purges: list = field(default_factory=list)  # keys to purge in other partitions
    events: list = field(default_factory=list)  # what was done, for logs and counts


class Tail:
    """What comes of a body past what is stored of it. `after`: so many bytes were; `start`: place of the first byte that is kept here."""

    def __init__(self, after):
        self.after, self.start, self.data, self.ended, self.trailers = after, after, bytearray(), "", b""
        self.readers = set()  # who reads in what was stored yet

    def end(self):
        return self.start + len(self.data)

    def take(self, data, place, most):
        """Keeps what its own client, at that place, lacks; of what that has taken, no more than so many bytes."""
        self.data += data
        drop = max(self.after, min(place, self.end() - most)) - self.start
        if drop > 0:
            del self.data[:drop]
            self.start += drop


@dataclass
class Exchange:
    """A client's request, and all that is done for it. Its two sides end apart:

    client    waiting   for another's permit to fetch
              awaiting  the head of what its own origin's side fetches
              sending   its head was made; `poll` gives it, and the body
              done      it was answered to the end, or went away
    origin    idle, awaiting_head; storing, relaying (its body comes)"""

    x: int
    request: object
    peer: bytes
    # where it looks
    first: bytes = b""
    key: bytes = b""
    index: bytes = b""  # the Vary index that was found
    held: bool = False  # its request at the tier is open
    writes: bool = False  # its write is in flight
    joinable: bool = False  # and is found
    permit: tuple = None  # since when it has the permit
    # the client's side
    client: str = "awaiting"
    collapsed: bool = False
    alone: bool = False  # it fetches without a permit
    since: tuple = None  # when it began to wait
    holder: int = None  # for whose permit
    moved: bool = False  # what it waits for has begun, or goes on under another key
    shares: tuple = None  # how the holder's fetch failed: the origin's status or 0, whether that came, an answer's status and reason
    buffer: bytearray = field(default_factory=bytearray)  # what is sent first
    began: bool = False  # a final head was made
    framing: str = "none"
    closes: bool = False
    source: str = "text"  # of the body: text (all is in the buffer), body (`whole`), write (in the tier, then the tail), relay (comes into the buffer)
    whole: object = b""
    parts: list = field(default_factory=list)
    place: int = None  # of a body, the next byte that is sent
    writer: int = None  # whose write it reads
    seen: int = 0  # so many bytes of a write were read, or passed over
    tail: object = None
    after: bytes = b""
    ended: str = ""  # of write and relay: "" it goes on, end, truncated
    trailers: bytes = b""
    # the request's body
    taking: object = None
    taking_framing: str = "none"
    body_sent: bool = False  # bytes of it went to the origin
    # the origin's side
    origin: str = "idle"
    fetch: str = ""
    sent: object = None  # the request as it went
    sent_again: bool = False
    sequence: int = 0  # requests to the origin are counted
    reason: str = ""
    cause: str = ""
    asked: tuple = None
    word: tuple = None  # when the origin was told something last, or said something
    spoke: bool = False  # bytes of its response came
    came: tuple = None  # when the head began to come
    looked: int = 0  # so far its end was sought
    interims: int = 0
    blocked: bool = False
    found: object = None  # what stood under the key when it was asked
    found_key: bytes = b""
    old: object = None  # the same, where its body is whole
    old_body: object = b""
    leads: bool = False
    purged: bool = False  # a purge named its key since
    overtaken: bool = False  # what it validates was freshened since, or replaced
    superseded: bool = False  # the answer to what was asked later has come
    body: object = None
    close_delimited: bool = False
    reusable: bool = False
    storable: bool = False  # its response could be stored
    length: int = None  # of the body, where it is said
    size: int = 0  # so much came
    unread: int = 0  # of that, for nobody
