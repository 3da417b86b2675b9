"""The gateway: the protocol between HTTP's rules and the tier as one value. It is given bytes and moments, and gives bytes to send; it opens no
socket, reads no clock, draws no random number.

Calls: start, request_data, response_head, response_data, origin_closed, poll, client_closed, purge, purge_all; each answers an Out; one that isn't lawful says so
and changes nothing. parse_request is pure, and stop answers nothing."""

from cache_tier import Digest

from . import rows_table as rows
from .at_tier import forgets_if_over, is_read_on, later, lets_go, remove, remove_all, wake
from .client_side import chunk, generates, leaves_write, sends_parts
from .library import RequestHead, Rules, Tier, head_end
from .lookups import begins_exchange, polls
from .origin_body import closes, comes, decoded, truncates
from .origin_head import hears
from .origin_side import deadline, fails, is_blocked, stops
from .values import Exchange, Limits, Out

WHY = ("clean", "failed", "timeout", "unused")


class Gateway:
    """`secret`: 16 bytes or more, drawn; `started`: a moment, so that no token comes twice under one secret."""

    def __init__(self, secret, started=(0, 0), limits=None, settings="", **options):
        self.limits = limits or Limits()
        self.secret = Digest.of(secret + b"%d.%d" % started)
        self.rules = Rules(self.secret, settings, **options)
        self.tier = Tier(self.limits.max_bytes, self.limits.lock_age, self.limits.lock_timeout)
        self.open, self.number, self.sequence, self.tokens, self.predicted = {}, 0, 0, 0, {}
        self.latest = (0, 0)  # of the moments at which something may have been asked: they may go back
        self.floor, self.stopping = None, False  # what was asked until then was purged; no connection is kept any more


def parse_request(g, data, looked=0):
    """The head of the next request, also of one that is refused; None: it goes on. `looked`: so many of these bytes were given before."""
    if not head_end(data, looked) and len(data) <= g.rules.max_head_bytes:
        return None
    return g.rules.parse_request(data)


def found_exchange(g, x, lawful):
    """The exchange, and an Out; or why the call isn't lawful."""
    e = g.open.get(x)
    return e, Out("no_exchange" if e is None else "done" if lawful(e) else "wrong_phase", exchange=x)


def each_once(g, wakes):
    return [y for y in dict.fromkeys(wakes) if y in g.open]


def told(g, e, now, out):
    """What each call says besides: the next moment of either side."""
    out.wakes = each_once(g, out.wakes)
    if e.x not in g.open:
        return out
    ends = [deadline(g, e)]
    if e.client == "waiting":
        holder = g.open.get(e.holder)
        ends += [later(e.since, g.limits.lock_timeout), later(holder.permit, g.limits.lock_age) if holder and holder.permit else None]
    ends = [it for it in ends if it is not None]
    out.at = max(now, min(ends)) if ends else None
    return out


# ==== a request


def start(g, now, request, peer=b""):
    """A request begins: an answer, a wait, or a request to the origin. Its first `poll` is in it: a hit is this one call."""
    if not isinstance(request, RequestHead):
        return Out("bad_argument")
    g.latest = max(g.latest, now)
    g.number += 1
    e, out = Exchange(g.number, request, peer), Out(exchange=g.number)
    g.open[e.x] = e
    out.used = request.head_len
    begins_exchange(g, e, now, out)
    if e.client == "waiting":
        polls(g, e, now, out)
    sends_client(g, e, now, out)
    out.body_follows = e.taking is not None
    out.wakes = [y for y in out.wakes if y != e.x]
    return told(g, e, now, out)


def request_data(g, now, x, data):
    """Bytes of the request's body, as they came on the connection."""
    e, out = found_exchange(g, x, lambda e: e.taking is not None)
    if out.status != "done":
        return out
    piece, at, over, bad = decoded(e.taking, data)
    if bad:
        bad_body(g, e, now, bad, out)
        return told(g, e, now, out)
    if over:
        e.taking = None
    out.used, out.last = at, over
    goes_on(g, e, now, piece, over, out)
    return told(g, e, now, out)


def goes_on(g, e, now, piece, over, out):
    """A request's body goes to the origin as it comes, framed."""
    if e.taking_framing == "chunked":
        piece = chunk(piece) + (b"0\r\n\r\n" if over else b"")
    if e.origin != "idle" and e.fetch == "pass" and piece:
        out.origin, out.to_origin, e.body_sent = "send_data", piece, True
        e.word = e.word if e.spoke else now


def bad_body(g, e, now, reason, out):
    """A request's body that doesn't read: the origin's side is given up, and the connection ends."""
    e.taking, out.last = None, True
    stops(g, e, out)
    if not e.began:
        lets_go(g, e, out)
        e.closes = True
        generates(g, e, 400, reason, now, out)
    elif e.source == "relay" and not e.ended:
        e.ended = "truncated"
        wake(out, e.x)
    forgets_if_over(g, e)


# ==== a response


def response_head(g, now, x, data):
    """The bytes that came on the origin's connection, from a response's head on. The first call of a head is its arrival."""
    e, out = found_exchange(g, x, lambda e: e.origin == "awaiting_head")
    if out.status != "done":
        return out
    g.latest = max(g.latest, now)
    if is_blocked(g, e):  # interim heads that the client doesn't take
        e.blocked, out.status = True, "blocked"
        return told(g, e, now, out)
    if not data:
        out.status = "more"
        return told(g, e, now, out)
    e.came, e.word, e.spoke, e.blocked = e.came or now, now, True, False
    if not head_end(data, e.looked) and len(data) <= g.rules.max_head_bytes:
        e.looked, out.status = len(data), "more"
        return told(g, e, now, out)
    e.looked = 0
    hears(g, e, now, data, out)
    if e.origin in ("storing", "relaying"):
        out.origin = "receive_body"
    if out.origin == "reusable" and out.used < len(data):  # more than a response came
        out.origin = "close_origin"
    return told(g, e, now, out)


def response_data(g, now, x, data):
    """Bytes of the response's body, as they came."""
    e, out = found_exchange(g, x, lambda e: e.origin in ("storing", "relaying"))
    if out.status != "done":
        return out
    if is_blocked(g, e):
        e.blocked, out.status = True, "blocked"
        return told(g, e, now, out)
    e.word, e.blocked = now, False
    comes(g, e, data, now, out)
    return told(g, e, now, out)


def origin_closed(g, now, x, why):
    """The origin's connection ended: clean (its own end), failed, timeout, or unused (a kept one, on which nothing came)."""
    e, out = found_exchange(g, x, lambda e: e.origin != "idle")
    if out.status == "done" and why not in WHY:
        out.status = "bad_argument"
    if out.status == "done":
        closes(g, e, why, now, out)
        told(g, e, now, out)
    return out


# ==== what the client is sent next


def poll(g, now, x):
    """What the client is sent next; and what is due on either side."""
    e, out = found_exchange(g, x, lambda e: True)
    if out.status != "done":
        return out
    g.latest = max(g.latest, now)
    due = deadline(g, e)
    if due is not None and now >= due:
        times_out(g, e, now, out)
    if e.client == "waiting":
        polls(g, e, now, out)
    sends_client(g, e, now, out)
    out.wakes = [y for y in out.wakes if y != x]
    return told(g, e, now, out)


def times_out(g, e, now, out):
    if e.origin != "awaiting_head":
        return truncates(g, e, out)
    stops(g, e, out)
    fails(g, e, now, 504, "no-answer", 0, out)


def sends_client(g, e, now, out):
    """The pieces that are there, and what comes behind them."""
    if e.client == "done":
        return
    out.client = "wait"
    if e.client == "waiting":
        return
    if e.buffer:
        out.data.append(bytes(e.buffer))
        e.buffer.clear()
    if e.client == "sending" and e.source in ("body", "write"):
        sends_parts(g, e, out)
    if e.blocked and not is_blocked(g, e):
        e.blocked, e.word, out.origin = False, now, "continue"
    if e.client == "awaiting" or e.source in ("write", "relay") and not e.ended:
        return
    ends_client(g, e, "truncated" if e.ended == "truncated" else "close" if e.closes else "end", out)


def ends_client(g, e, how, out):
    out.client, e.client = how, "done"
    e.whole, e.source = b"", "text"
    leaves_write(g, e, out)
    if e.tail is not None and e.origin == "relaying":
        truncates(g, e, out)
    if e.origin == "idle" and not is_read_on(e):
        lets_go(g, e, out)
    forgets_if_over(g, e)


def client_closed(g, now, x):
    """The client went away."""
    e, out = found_exchange(g, x, lambda e: e.client != "done")
    if out.status != "done":
        return out
    does = rows.client_row(e.origin, e.tail is not None, e.taking is not None)
    e.client, e.source, e.whole, e.taking = "done", "text", b"", None
    e.buffer.clear()
    leaves_write(g, e, out)
    if does == "truncate":
        truncates(g, e, out)
    elif does == "close_origin":
        stops(g, e, out)
        lets_go(g, e, out)
    elif does == "nothing" and not is_read_on(e):
        lets_go(g, e, out)
    elif e.blocked:  # by what its client lacked
        e.blocked, e.word, out.origin = False, now, "continue"
    forgets_if_over(g, e)
    return told(g, e, now, out)


def purge(g, url):
    """Of a URL as people write it. Whether anything was there."""
    key, _ = g.rules.url_key(url)
    if key is None:
        return Out("bad_argument")
    return purge_key(g, key)


def purge_key(g, key):
    """Of a key as the rules write it, which another partition named."""
    out = Out()
    out.found = remove(g, key, out)
    out.wakes = each_once(g, out.wakes)
    return out


def purge_all(g, now):
    """Of everything that was stored until now."""
    out = Out()
    remove_all(g, now, out)
    out.wakes = each_once(g, out.wakes)
    return out


def stop(g):
    """It is to end: each exchange that begins from now on says that its connection ends behind the answer."""
    g.stopping = True


def counts(g):
    """How many exchanges are open, how many requests at the tier."""
    return len(g.open), sum(e.held for e in g.open.values())
