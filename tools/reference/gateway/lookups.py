"""What a request finds, and what is done by that: an answer, a wait, or a request to the origin."""

from . import rows_table as rows
from .at_tier import later, lets_go, seek, seek_place, try_tier, wake
from .client_side import generates, serves
from .origin_side import sends

CONTINUE_100 = b"HTTP/1.1 100 Continue\r\n\r\n"


def begins_exchange(g, e, now, out):
    request = e.request
    e.closes = g.stopping or request.rejected
    if request.rejected:
        return generates(g, e, request.error_code, request.reason, now, out)
    if request.framing[0] != "none" and request.framing != ("length", 0):
        e.taking = g.rules.decoder(request.framing)
    if len(g.open) > g.limits.max_exchanges:
        generates(g, e, 503, "too-busy", now, out)
    elif request.plan == "respond":
        generates(g, e, request.error_code, request.reason, now, out)
    elif request.plan == "pass":
        passes(g, e, request.reason, now, out)
    else:
        looks(g, e, now, out)


def passes(g, e, reason, now, out):
    if "expects-continue" in e.request.flags and e.taking is not None:
        e.buffer += CONTINUE_100
        wake(out, e.x)
    e.reason, e.found, e.old, e.old_body = reason, None, None, b""
    sends(g, e, "pass", now, out)


def is_predicted(g, e, now):
    at = g.predicted.get(e.key)
    return at is not None and now <= later(at, g.limits.predicted_seconds)


def looks(g, e, now, out):
    """Looks up, and does what the table says."""
    look, past = seek_place(g, e, now, out), False
    does, reuse = looked(g, e, look, past, now)
    if does == "look_past":  # the tier calls it fresh: a look-up without the permit, at which nothing is
        lets_go(g, e, out)
        past, look = True, seek(g, e, e.key, now, False, True, out)
        does, reuse = looked(g, e, look, past, now)
    if e.shares:
        status, is_response, _, _ = e.shares
        stale = look.whole and g.rules.stale_on_error(e.request, look.found, now, status)
        does = rows.share_row(does, reuse, stale, is_response)
        if does in ("stale_on_error", "generated"):
            return shares_end(g, e, does, look, now, out)
        if does == "alone":
            does = "conditional" if look.whole else "full"
    acts(g, e, does, look, past, reuse, now, out)


def looked(g, e, look, past, now):
    reuse = g.rules.decide_reuse(e.request, look.found, now) if look.found else "after-validation"
    only = "only-if-cached" in e.request.flags
    return rows.look_row(look.found, reuse, look.whole, look.fresh, past, look.permit, only, is_predicted(g, e, now)), reuse


def shares_end(g, e, does, look, now, out):
    """It waited for a fetch that failed, and ends as that."""
    status, _, code, reason = e.shares
    lets_go(g, e, out)
    if does == "generated":
        return generates(g, e, code, reason, now, out)
    told_status = {"fwd": ("stale", status), "collapsed": True, "detail": "stale-if-error" if status else "stale-if-down"}
    serves(g, e, look.found, len(look.body), now, told_status, "body", look.body, out)
    out.events.append(("stale_on_error",))


def acts(g, e, does, look, past, reuse, now, out):
    status = {"fwd": ("miss", 0), "collapsed": True} if e.collapsed else {"hit": True}
    if does == "pass":
        lets_go(g, e, out)
        passes(g, e, "authorization", now, out)
    elif does == "unavailable":
        lets_go(g, e, out)
        generates(g, e, 504, "only-if-cached", now, out)
    elif does in ("hit", "hit_and_validate"):
        if does == "hit":
            lets_go(g, e, out)
        else:
            status["detail"] = "stale-while-revalidate"
        serves(g, e, look.found, len(look.body), now, status, "body", look.body, out)
        out.events.append(("hit", reuse))
        if does == "hit_and_validate":
            fetches(g, e, "conditional", look, past, now, out)
    elif does == "collapse":
        collapses(g, e, status, reuse, now, out)
    elif does == "wait":
        e.client, e.collapsed, e.since = "waiting", True, e.since or now
        e.holder = next((y.x for y in g.open.values() if y.key == e.key and y.permit), None)
        out.events.append(("waiting",))
    elif does == "unstored":
        lets_go(g, e, out)
        fetches(g, e, does, look, past, now, out)
    else:
        fetches(g, e, does, look, past, now, out)


def collapses(g, e, status, reuse, now, out):
    """Reads on in what another stores."""
    lets_go(g, e, out)
    writer = next((y.x for y in g.open.values() if y.joinable and y.key == e.key), None)
    look = seek(g, e, e.key, now, False, False, out)
    if not look.found or look.whole or writer is None:
        does = rows.look_row(False, "", False, False, False, "none", "only-if-cached" in e.request.flags, False)
        return acts(g, e, does, look, False, "after-validation", now, out)
    e.writer = writer
    serves(g, e, look.found, None, now, status, "write", b"", out)
    out.events.append(("collapsed", reuse))


def fetches(g, e, fetch, look, past, now, out):
    """Asks the origin for what isn't there, or about what is there."""
    e.found, e.found_key = look.found, e.key
    e.old, e.old_body = (look.found, look.body) if fetch == "conditional" else (None, b"")
    e.cause = ("request" if past else "stale") if e.old else "vary-miss" if e.index else "uri-miss"
    sends(g, e, fetch, now, out)


def polls(g, e, now, out):
    """Whether its wait has ended; then it looks again. A permit past its age is taken in the same call."""
    done, ended = try_tier(out, g.tier.poll, now, e.x)
    over = now >= later(e.since, g.limits.lock_timeout)
    does = rows.wait_row(over, e.moved, e.shares, not done, ended)
    if does == "wait":
        return
    e.alone = does in ("alone", "share")
    e.client, e.moved, e.holder = "awaiting", False, None
    lets_go(g, e, out)
    looks(g, e, now, out)
    e.shares = None
