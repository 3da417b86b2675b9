"""What the reference's client side sends of bodies that look drawn, cut anywhere, as crates/test_gateway writes what gateway_frames does: a line a
text, a CR as `.` and a LF as `/`, and behind a blank what came of it (e: the end, t: truncated)."""

from types import SimpleNamespace

from .client_side import chunk, end_of, ends_relay, framed, relays_bytes, sends_parts
from .values import Out

CASES, WORD = 150, 1 << 64
SIZES = (0, 1, 9, 10, 15, 16, 255, 256, 4095, 65535, 1 << 32, (1 << 63) - 1)
FRAMINGS = ("length", "chunked", "close")
TRAILERS = b"X: 1\r\nY: 2\r\n"


class Drawn:
    """Numbers that look drawn."""

    def __init__(self, seed):
        self.now = seed

    def below(self, bound):
        self.now = (self.now * 6364136223846793005 + 1442695040888963407) % WORD
        return (self.now >> 33) % max(1, bound)

    def text(self, length):
        return bytes(b"abcdefghijklmnopqrstuvwxyz"[self.below(26)] for _ in range(length))

    def part(self, length):
        start = self.below(length)
        size = self.below(max(0, length - start))
        return ((0, None), (start, None), (start, min(length, start + size + 1)))[self.below(3)]

    def body(self):
        """A body, a part of it, and how much of it comes, where it breaks off."""
        length = self.below(60)
        body, part = self.text(length), self.part(length)
        breaks = self.below(4) == 0
        return body, part, breaks, length // 2 if breaks else length


def exchange(seed, **more):
    flags = {"accepts-trailers"} if seed % 2 == 0 else set()
    base = {"x": 1, "framing": FRAMINGS[seed % 3], "request": SimpleNamespace(flags=flags), "trailers": TRAILERS, "after": b"", "whole": b"", "place": None}
    base |= {"seen": 0, "ended": "", "tail": None, "writer": 2, "buffer": bytearray(), "size": 0, "parts": []}
    return SimpleNamespace(**{**base, **more})


def shown(text, said):
    return text.replace(b"\r", b".").replace(b"\n", b"/").decode() + " " + said


class Write:
    """What is stored of a body, read piece by piece as it comes."""

    def __init__(self, body, end, breaks):
        self.body, self.end, self.breaks, self.there, self.at = body, end, breaks, 0, 0

    def read(self, _):
        if self.at < self.there:
            piece, self.at = self.body[self.at : self.there], self.there
            return piece
        return None if self.there < self.end else "given-up" if self.breaks else "end"


def stored(seed):
    drawn = Drawn(seed)
    body, part, breaks, end = drawn.body()
    write, text = Write(body, end, breaks), b""
    e = exchange(seed, source="write", parts=[(b"", *part)])
    g = SimpleNamespace(tier=write)
    while e.source == "write" and not e.ended:
        write.there = min(end, write.there + drawn.below(12) + 1)
        out = Out()
        sends_parts(g, e, out)
        text += b"".join(out.data)
    return shown(text, "t" if e.ended == "truncated" else "e")


def relayed(seed):
    drawn = Drawn(seed)
    body, part, breaks, end = drawn.body()
    e = exchange(seed, parts=[(b"", *part)])
    while e.size < end and not e.ended:
        piece = body[e.size : min(end, e.size + drawn.below(12) + 1)]
        done = relays_bytes(e, piece, Out())
        e.size += len(piece)
        if done:
            ends_relay(e, "end", Out())
    if not e.ended:
        ends_relay(e, "truncated" if breaks else "end", Out())
    return shown(bytes(e.buffer), e.ended[0])


def parts(seed):
    drawn = Drawn(seed)
    body = drawn.text(drawn.below(60))
    given = [(drawn.text(drawn.below(6)), *drawn.part(len(body))) for _ in range(drawn.below(4))]
    e, out = exchange(seed, source="body", whole=body, parts=given, after=drawn.text(drawn.below(6))), Out()
    sends_parts(None, e, out)
    return shown(b"".join(out.data), "e")


def taken(seed):
    """Of a piece that was sent in part, how many bytes of the body."""
    drawn, e = Drawn(seed), exchange(seed)
    size, sent = drawn.below(300), drawn.below(320)
    head = len(framed(e, b"x" * size)) - size - 2 if e.framing == "chunked" and size else 0
    return f"{size} {sent} {len((b' ' * head + b'x' * size)[:sent][head:])}"


def lines():
    """What stands round the data of a chunk."""

    class Sized(bytes):  # so many bytes, as far as a chunk's size goes
        def __len__(self):
            return self.size

    for size in SIZES:
        piece = Sized()
        piece.size = size
        yield shown(chunk(piece)[:-2], "-")
    last = end_of(exchange(1, framing="chunked"), b"")
    yield shown(last[:-2], "-")
    yield shown(last[-2:], "-")


def written():
    yield from lines()
    for seed in range(CASES):
        yield from (stored(seed), relayed(seed), parts(seed), taken(seed))
