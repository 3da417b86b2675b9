"""The head of a response: read, and what its row says."""

from . import rows_table as rows
from .at_tier import begins, freshens, gives_up_permit, lets_go, remove, wake
from .client_side import relays, serves
from .origin_body import comes
from .origin_side import answers_stale, fails, gives_up, in_flight, sends, shares, stops, teaches


def hears(g, e, now, data, out):
    e.came = e.came or now
    response, reason = g.rules.parse_response("is-head" in e.sent.flags, e.came, data)
    if response is None:
        stops(g, e, out)
        return fails(g, e, now, 502, reason, 502, out)
    out.used = response.head_len
    if response.status_code < 200:
        return interim(g, e, response, now, out)
    e.body, e.size, e.unread = g.rules.decoder(response.framing), 0, 0
    e.close_delimited, e.length = response.framing[0] == "close", response.framing[1]
    e.reusable = "connection-close" not in response.flags
    responds(g, e, response, now, out)


def interim(g, e, response, now, out):
    came, e.came, e.interims = e.came, None, e.interims + 1
    if e.interims > g.limits.max_interim_responses:
        stops(g, e, out)
        return fails(g, e, now, 502, "too-many-interim", 502, out)
    if e.client == "awaiting" and response.status_code != 100 and e.request.minor_version == 1:
        e.buffer += g.rules.relay_response(e.request, response, e.asked, came, {}).head
        wake(out, e.x)


def responds(g, e, response, now, out):
    """By its row."""
    status, came = response.status_code, e.came
    stored = e.fetch not in ("pass", "unstored")
    stale = stored and g.rules.stale_on_error(e.request, e.old, now, status)
    unasked = status == 304 and not e.sent.is_conditional and e.request.method in (b"GET", b"HEAD")
    revalidates = e.fetch == "conditional" and (status == 304 or "is-head" in e.sent.flags and status == 200)
    kept = None
    if e.fetch != "pass" and not revalidates:
        kept = g.rules.decide_store(e.request, "is-head" in e.sent.flags, response, e.asked, came, e.found, e.index)
    too_long = (e.length or 0) > g.limits.max_body_bytes
    too_much = (e.length or 0) + in_flight(g) > g.limits.max_bytes // 2
    e.storable = kept is not None and kept.store
    stores = kept is not None and rows.may_store(kept.store, e.purged, e.superseded, too_long, too_much)
    if kept is not None and e.fetch == "unstored":
        predicts(g, e, kept.store and not too_long, kept.predicts_uncacheable or too_long, status, now)
    elif kept is not None:
        predicts(g, e, False, kept.predicts_uncacheable or kept.store and too_long, status, now)
    good = kept is not None and kept.reason == "stored-is-good"
    does = rows.response_row(e.fetch, status, unasked, stale, good, revalidates, stores)
    cause = {"fwd": (e.cause, status)}
    if does == "store" and begins(g, e, response, kept, now, out):
        return stores_it(g, e, kept, now, cause, out)
    if does == "store" or does == "relay_and_remove":
        if not kept.store and kept.purge and not (e.purged or e.superseded):
            remove(g, e.found_key, out, e)
        reason = kept.reason or ("purged" if e.purged else "body-too-long" if too_long else "unstored")
        return relays_it(g, e, response, now, {**cause, "detail": reason}, out)
    answers_by(g, e, response, does, cause, now, out)


def answers_by(g, e, response, does, cause, now, out):
    """The rows in which nothing is stored."""
    if does == "relay_and_purge":
        for key in g.rules.invalidated_keys(e.request, response):
            remove(g, key, out)
            out.purges.append(key)
        cause = {"fwd": ("method" if e.reason == "method" else "bypass", response.status_code), "detail": e.reason}
        relays_it(g, e, response, now, cause, out)
    elif does == "relay_unstored":
        relays_it(g, e, response, now, {**cause, "detail": "predicted"}, out)
    elif does == "bad":
        stops(g, e, out)
        fails(g, e, now, 502, "not-modified", 502, out)
    elif does == "stale_on_error":
        shares(g, e, response.status_code, True, 502, "no-answer")
        answers_stale(g, e, now, {**cause, "detail": "stale-if-error"}, out)
        lets_go(g, e, out)
        gives_up(g, e, out)
    elif does == "relay":
        relays_it(g, e, response, now, {**cause, "detail": "stored-is-good"}, out)
    else:
        revalidates_it(g, e, response, now, cause, out)


def predicts(g, e, forgets, is_learnt, status, now):
    """Whether the next response of this place won't be stored either. A part, or a 304, says nothing of it."""
    if status in (206, 304):
        return
    if forgets:
        g.predicted.pop(e.key, None)
    elif is_learnt:
        teaches(g, e.key, now)


def stores_it(g, e, kept, now, cause, out):
    e.origin = "storing"
    g.predicted.pop(e.key, None)
    out.events.append(("stored", e.key))
    if kept.purge and e.found_key != e.key:  # another set's, that isn't fresh
        remove(g, e.found_key, out, e)
    if e.client == "awaiting":
        e.writer = e.x
        serves(g, e, kept.shown, None, now, {**cause, "stored": True}, "write", b"", out)
    comes(g, e, b"", now, out)


def relays_it(g, e, response, now, status, out):
    """Relays a response to the client, if there is one that waits for it."""
    gives_up_permit(g, e, out)
    if e.client != "awaiting":
        return gives_up(g, e, out)
    relays(g, e, response, e.came, status, out)
    e.origin = "relaying"
    out.events.append(("relayed", response.status_code))
    if not e.parts and response.framing[0] != "none":  # its client has it, or wants none of it
        e.ended = "end"
        return gives_up(g, e, out)
    comes(g, e, b"", now, out)


def revalidates_it(g, e, response, now, cause, out):
    """A 304, or a 200 to HEAD, after what is stored was asked about."""
    kept = g.rules.freshen(e.request, e.old, len(e.old_body), response, e.asked, e.came, e.index)
    outdated = e.purged or e.overtaken or e.superseded
    may = kept.store and e.held and not outdated
    does = rows.revalidate_row(response.status_code, kept.other, may)
    if kept.purge and not outdated:
        remove(g, e.found_key, out, e)
    if does == "again":
        e.cause, e.old, e.old_body = "vary-miss" if e.index else "uri-miss", None, b""
        e.found = None if kept.purge else e.found
        return sends(g, e, "unconditional", now, out)
    if does.startswith("freshen"):
        freshens(g, e, kept, now, out)
    if kept.store:
        lets_go(g, e, out)
    else:
        gives_up_permit(g, e, out)
    if does.endswith("relay"):
        return relays_it(g, e, response, now, cause, out)
    if e.client == "awaiting":
        serves(g, e, kept.shown, len(e.old_body), now, cause, "body", e.old_body, out)
        out.events.append(("revalidated",))
    gives_up(g, e, out)
