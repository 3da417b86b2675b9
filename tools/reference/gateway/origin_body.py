"""The body of a response: decoded, and stored, relayed, or kept in a tail; how it ends, and how its connection does."""

from . import rows_table as rows
from .at_tier import forgets_if_over, lets_go, purges_writes, try_tier, wake, wakes_readers
from .client_side import ends_relay, relays_bytes
from .library import MEMORY, Rejected
from .origin_side import fails, in_flight, stops, teaches
from .values import Tail

WINDOW = 4096  # bytes of which a body's next piece is sought first


def decoded(body, given):
    """All that these bytes have of a body: the data, how many are done with, whether it is over, why it is broken. Small chunks are sought in a small
    window, so that many cost no more than their bytes."""
    at, window, over, pieces = 0, WINDOW, False, []
    while not over:
        seen = given[at : at + window]
        try:
            piece, used, over = body.decode(seen)
        except Rejected as refused:
            return b"".join(pieces), at, False, refused.reason or "unreadable"
        at += used
        window = WINDOW if used < len(seen) and piece else 2 * window
        if piece:
            pieces.append(bytes(piece))
        elif not over and at + len(seen) - used >= len(given):
            break
    return b"".join(pieces), at, over, ""


def comes(g, e, given, now, out):
    """Decodes, and stores or relays."""
    piece, at, over, bad = decoded(e.body, given)
    if piece and not takes(g, e, piece, out) or bad:
        return truncates(g, e, out)
    out.used += at
    if e.origin != "idle" and over:
        left = at < len(given)
        e.trailers = e.body.trailers
        if ends(g, e, out):
            out.origin = "reusable" if rows.is_reusable(not e.reusable, True, left, e.taking is not None) else "close_origin"
        forgets_if_over(g, e)


def is_reader(e, y):
    """Whether y's client lacks bytes of what e stores."""
    return y.writer == e.x and y.client == "sending" and y.source == "write" and bool(y.parts)


def takes(g, e, piece, out):
    """Whether a body's next bytes went where its row says."""
    limits, size = g.limits, e.size + len(piece)
    reads, read = is_reader(e, e), any(is_reader(e, y) for y in g.open.values())
    unread = 0 if read else e.unread + len(piece)
    unread_past = unread > limits.max_unread and not (e.length and 2 * size >= e.length)
    past = size > limits.max_body_bytes or in_flight(g) - max(e.size, e.length or 0) + max(size, e.length or 0) > limits.max_bytes // 2
    does = rows.body_row(e.origin, e.tail is not None, past, reads, unread_past, False)
    if does == "store":
        done, _ = try_tier(out, g.tier.write, e.x, piece)
        does = rows.body_row(e.origin, False, past, reads, unread_past, not done)
    if does == "truncate":
        return False
    e.unread = unread
    if does == "relay":
        done = relays_bytes(e, piece, out)
        if e.storable and e.size <= limits.max_body_bytes < size:
            teaches(g, e.key, e.word)
        e.size = size
        if done:
            ends_relay(e, "end", out)
            over = e.body.decode(b"")[2]
            if not over:
                stops(g, e, out)
        return True
    if does == "begin_tail":
        begins_tail(g, e, size > limits.max_body_bytes, out)
    if does != "store":
        e.tail.take(piece, e.place or 0, limits.max_tail)
    e.size = size
    wakes_readers(g, e.x, out)
    return True


def begins_tail(g, e, is_long, out):
    """It grew too long to be stored: nobody finds it any more, and who follows reads on, in the tail once what was stored is passed."""
    if e.joinable:
        purges_writes(g, e.key)
    if is_long:
        teaches(g, e.key, e.word)
    e.tail, e.origin = Tail(e.size), "relaying"
    for y in g.open.values():
        if is_reader(e, y):
            y.tail = e.tail
            e.tail.readers.add(y.x)


def ends(g, e, out):
    """The body is over. Whether it is whole where it was to be."""
    refused = False
    if e.origin == "storing":
        done, why = try_tier(out, g.tier.write, e.x, b"", True)
        refused = not done and why == MEMORY
    does = rows.end_row(e.origin, e.tail is not None, refused)
    if does == "truncate":
        truncates(g, e, out)
        return False
    e.origin, e.body, e.blocked = "idle", None, False
    if does == "complete":
        if not e.ended:
            ends_relay(e, "end", out)
    elif does == "end_tail":
        e.tail.ended, e.tail.trailers = "end", e.trailers
        wakes_readers(g, e.x, out)
    else:
        finishes(g, e, out)
    return True


def finishes(g, e, out):
    done, stored = try_tier(out, g.tier.finish, e.x)  # a purge may have taken the write away: the body is whole all the same
    if done:
        out.evicted += stored.evicted
        out.events.append(("completed", e.key))
    e.writes, e.joinable = not done and e.writes, False
    wakes_readers(g, e.x, out)
    if e.source != "write" or e.client == "done":
        lets_go(g, e, out)


def truncates(g, e, out):
    """The body broke off: nobody is told that it ended."""
    was, e.origin, e.body, e.blocked, out.origin = e.origin, "idle", None, False, "close_origin"
    out.events.append(("truncated",))
    if e.tail is not None:
        e.tail.ended = "truncated"
        wakes_readers(g, e.x, out)
    if e.client == "sending" and (e.source == "relay" or is_reader(e, e)) and not e.ended:
        e.ended = "truncated"
        wake(out, e.x)
    if was == "storing" or e.tail is not None:
        lets_go(g, e, out)
    forgets_if_over(g, e)


def closes(g, e, why, now, out):
    """The origin's connection ended."""
    does = rows.closed_row(e.origin, why, e.close_delimited, e.request.method, e.spoke, e.body_sent, e.sent_again)
    if does == "send_again":
        e.sent_again, e.word = True, now
        out.origin, out.to_origin = "send_request", e.sent.head
        out.events.append(("requested", e.fetch, e.key, e.leads))
    elif does in ("timeout", "no_answer"):
        fails(g, e, now, 504 if does == "timeout" else 502, "no-answer", 0, out)
    elif does == "end":
        e.trailers = b""
        if ends(g, e, out):
            out.origin = "nothing"
        forgets_if_over(g, e)
    else:
        truncates(g, e, out)
    if does != "send_again":
        out.origin = "nothing"
