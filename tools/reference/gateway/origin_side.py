"""The origin's side: what it is asked, when it is late, and what becomes of who waits where nothing comes."""

from . import rows_table as rows
from .at_tier import forgets_if_over, later, lets_go
from .client_side import generates, serves


# ==== what it is asked


def sends(g, e, fetch, now, out):
    """Asks the origin."""
    made = g.rules.forward_request(e.request, "pass" if fetch == "unstored" else fetch, e.old if fetch == "conditional" else None, e.peer)
    if e.client == "sending" and made.fetch == "full":  # nobody's conditions go on behind an answer
        made = g.rules.forward_request(e.request, "unconditional", None, e.peer)
    e.origin, e.fetch, e.sent = "awaiting_head", fetch if fetch == "unstored" else made.fetch, made
    g.sequence += 1
    e.sequence, e.asked, e.word = g.sequence, now, now
    e.spoke, e.came, e.looked, e.interims, e.sent_again = False, None, 0, 0, False
    e.purged, e.overtaken, e.superseded = False, False, False
    e.taking_framing = made.framing[0]
    e.leads = e.permit is not None and e.fetch not in ("pass", "unstored")
    out.origin, out.to_origin = "send_request", made.head
    out.events.append(("requested", e.fetch, e.key, e.leads))


def stops(g, e, out):
    """Its connection is closed."""
    if e.origin != "idle":
        e.origin, e.body, e.blocked, out.origin = "idle", None, False, "close_origin"


def deadline(g, e):
    """The moment past which the origin is late; none while it isn't read on."""
    if e.origin == "idle" or e.blocked:
        return None
    limits = g.limits
    return later(e.word, limits.between_bytes_timeout if e.spoke else limits.first_byte_timeout)


def is_blocked(g, e):
    """Whether its client lacks so much that nothing more is taken."""
    if e.tail is not None and e.origin == "relaying":
        return e.client == "sending" and e.tail.end() - max(e.place or 0, e.tail.after) >= g.limits.max_tail
    relayed = e.origin == "relaying" or e.origin == "awaiting_head" and e.client == "awaiting"
    return relayed and len(e.buffer) >= g.limits.max_relay_bytes


def in_flight(g):
    """Bytes of bodies in flight, as far as they are said, and of tails."""
    stored = sum(y.tail.after if y.tail is not None else max(y.size, y.length or 0) for y in g.open.values() if y.writes)
    tails = {id(y.tail): len(y.tail.data) for y in g.open.values() if y.tail is not None}
    return stored + sum(tails.values())


def gives_up(g, e, out):
    """The rest of the response isn't wanted. Where nothing is left its connection may be kept."""
    whole = e.body is not None and e.body.decode(b"")[2]
    reusable = rows.is_reusable(not e.reusable, whole, False, e.taking is not None)
    e.origin, e.body, e.blocked, out.origin = "idle", None, False, "reusable" if reusable else "close_origin"
    forgets_if_over(g, e)


def answers_stale(g, e, now, status, out):
    if e.client == "awaiting":
        serves(g, e, e.old, len(e.old_body), now, status, "body", e.old_body, out)
        out.events.append(("stale_on_error",))


def teaches(g, key, now):
    g.predicted.pop(key, None)
    g.predicted[key] = now
    while len(g.predicted) > g.limits.max_predicted:
        g.predicted.pop(next(iter(g.predicted)))


# ==== no response


def shares(g, e, origin_status, is_response, code, reason):
    """Who waits for it shares its end."""
    for y in g.open.values():
        if y.client == "waiting" and y.holder == e.x and e.permit and not y.moved:
            y.shares = (origin_status, is_response, code, reason)


def fails(g, e, now, code, reason, origin_status, out):
    """No response came (origin_status 0), or one that doesn't read."""
    e.origin, e.body, e.blocked = "idle", None, False
    stored = e.fetch not in ("pass", "unstored")
    if stored and code == 502 and not origin_status:
        code = g.rules.error_status(e.request, e.old, now)
    shares(g, e, origin_status, False, code, reason)
    lets_go(g, e, out)
    if e.client != "awaiting":
        return forgets_if_over(g, e)
    if stored and g.rules.stale_on_error(e.request, e.old, now, origin_status):
        status = {"fwd": (e.cause, 0), "detail": "stale-if-error" if origin_status else "stale-if-down"}
        return answers_stale(g, e, now, status, out)
    generates(g, e, code, reason, now, out)
