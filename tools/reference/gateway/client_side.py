"""What the client is sent: heads, and bodies in their framing."""

from .at_tier import forgets_if_over, lets_go, try_tier, wake

CHUNK_END = b"0\r\n%b\r\n"


def starts(e, made, source, out):
    e.client, e.began, e.source, e.framing = "sending", True, source, made.framing[0]
    e.closes = e.closes or "connection-close" in made.flags or e.framing == "close"
    e.buffer += made.head
    e.parts, e.after = list(made.parts), made.tail
    wake(out, e.x)


def closes_after(e):
    """Whether its head says that the connection ends: the request wasn't read, or its body isn't over."""
    return e.closes or e.taking is not None


def generates(g, e, code, reason, now, out):
    """An answer of the gateway's own."""
    made = g.rules.make_response(e.request, code, reason, now, closes_after(e))
    starts(e, made, "text", out)
    e.buffer += made.tail
    e.parts, e.after, e.framing = [], b"", "length"
    out.events.append(("generated", code, reason))


def serves(g, e, head, length, now, status, source, whole, out):
    """An answer from what is stored, or is being stored."""
    made = g.rules.serve_stored(e.request, head, length, now, {**status, "connection_close": closes_after(e)}, source == "write")
    starts(e, made, source, out)
    e.whole, e.place, e.seen = whole, None, 0


def relays(g, e, response, came, status, out):
    """A response that isn't stored is handed on; of a whole one the client may get a part, or that it has it."""
    status = {**status, "connection_close": closes_after(e)}
    fetch = "pass" if e.fetch == "unstored" else e.fetch
    made = g.rules.relay_response(e.request, response, e.asked, came, status, fetch, e.sent.has_range)
    starts(e, made, "relay", out)
    if made.status_code == response.status_code and made.framing[0] != "none" and not e.parts:
        e.parts = [(b"", 0, None)]
    e.place = 0


def chunk(data):
    return b"%x\r\n%b\r\n" % (len(data), data) if len(data) else b""


def framed(e, data):
    return chunk(data) if e.framing == "chunked" else data


def end_of(e, trailers):
    """What ends the body."""
    if e.framing != "chunked":
        return b""
    return CHUNK_END % (trailers if "accepts-trailers" in e.request.flags else b"")


# ==== what is relayed


def relays_bytes(e, piece, out):
    """The part of a body that the client gets, of its next bytes. Whether that is all."""
    before, start, end = e.parts[0]
    first = max(start - e.size, 0)
    last = len(piece) if end is None else min(end - e.size, len(piece))
    if last > first:
        e.buffer += framed(e, piece[first:last])
        wake(out, e.x)
    return end is not None and e.size + len(piece) >= end


def ends_relay(e, how, out):
    e.ended = how
    if how == "end":
        e.buffer += end_of(e, e.trailers)
    wake(out, e.x)


# ==== what is stored, or is being stored


def sends_parts(g, e, out):
    """The parts of the body, as far as they are there; and what ends it."""
    if e.source == "write":
        sends_write(g, e, out)
        return
    while e.parts:
        before, start, end = e.parts.pop(0)
        out.data += [framed(e, it) for it in (before, e.whole[start:end]) if len(it)]
    ends_body(e, e.trailers, out)


def ends_body(e, trailers, out):
    out.data += [it for it in (framed(e, e.after), end_of(e, trailers)) if len(it)]
    e.source = "text"


def sends_write(g, e, out):
    """One part of what is being stored: nothing of it is kept here, it is read on where the client has taken what came before."""
    if not e.parts:
        return ends_body(e, b"", out)
    _, start, end = e.parts[0]
    e.place = start if e.place is None else e.place
    while not e.ended and e.place != end:
        piece, at = reads(g, e, out)
        if piece is None:
            break
        piece = piece[max(0, e.place - at) :]
        piece = piece if end is None else piece[: end - e.place]
        if len(piece):
            out.data.append(framed(e, piece))
            e.place += len(piece)
    if e.place == end or e.ended == "end":
        trailers = e.trailers if e.tail is None or e.writer != e.x else e.tail.trailers  # another's may have its cookies
        leaves_write(g, e, out)
        e.ended = "end"
        ends_body(e, trailers, out)


def reads(g, e, out):
    """The next bytes, and their place; None: none are there yet."""
    tail = e.tail
    if tail is not None and e.place < tail.start and tail.start > tail.after:
        e.ended = "truncated"
        return None, 0
    if tail is not None and e.seen >= tail.after:
        leaves_write(g, e, out)
        at = max(e.place, tail.start)
        if at >= tail.end():
            e.ended = tail.ended
            return None, 0
        return bytes(tail.data[at - tail.start :]), at
    done, it = try_tier(out, g.tier.read, e.x)
    if not done or it == "given-up":
        e.ended = "truncated"
    elif it == "end":
        e.ended = "end"
    elif it is not None:
        e.seen += len(it)
        return it, e.seen - len(it)
    return None, 0


def leaves_write(g, e, out):
    """It has passed what was stored of a body that grew too long. The write is let go when the last one has."""
    if e.tail is None or e.x not in e.tail.readers:
        return
    e.tail.readers.discard(e.x)
    if not e.writes:
        lets_go(g, e, out)
    if not e.tail.readers:
        for y in list(g.open.values()):
            if y.tail is e.tail and y.writes:
                y.writes = False
                lets_go(g, y, out)
                forgets_if_over(g, y)
