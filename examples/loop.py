"""HTTP's rules over a tier, for one request at a time: all that a proxy does but its sockets. `ask(head)` asks the origin: the bytes that came, when it
was asked and when they came. Nothing waits for another's fetch; proxy.py does that too."""

import os

from cache_tier.rules import VARY_INDEX_STATUS, BodyDecoder, Exchange


def finds(tier, rules, request):
    """The key to go on by, what was found under it, and the vary index under the first key."""
    found = tier.peek(request.key)
    if not found or found.status_code != VARY_INDEX_STATUS:
        return request.key, found, b""
    each = [(key, tier.peek(key)) for key in rules.secondary_keys(request, bytes(found.body))]
    return *max(each, key=lambda it: it[1].updated if it[1] else (0, 0)), bytes(found.body)


def stores(tier, rules, exchange, key, decision, body, now):
    """Stores a response, under the key of its set of Vary."""
    first = exchange.request.key
    if decision.needs_vary_index or exchange.vary_index:
        stored = tier.peek(first)
        index = bytes(stored.body) if stored and stored.status_code == VARY_INDEX_STATUS else b""
        new = rules.update_vary_index(exchange.response, now, index, os.urandom(16).hex().encode())
        if new.store:
            tier.put(now, first, new.head, new.body, new.meta)
        index = new.body or index
        key = rules.secondary_keys(exchange.request, index)[new.place] if index else first
    tier.put(now, key, decision.head, body, decision.meta)


def serves(tier, rules, data, now, ask, again=False):
    """What a client is sent for a request's head: a message, and the body whose parts it names."""
    request = rules.parse_request(data)
    if request.plan == "respond":
        return rules.make_response(request, request.error_code, request.reason, now), b""
    key, found, index = finds(tier, rules, request) if request.plan == "lookup" else (request.key, None, b"")
    reuse = rules.decide_reuse(request, found, now) if found else "after-validation"
    if reuse in ("fresh", "stale", "while-revalidating") and not again:
        return rules.serve_stored(request, found, len(found.body), now), found.body
    if request.plan == "lookup" and "only-if-cached" in request.flags:
        return rules.make_response(request, 504, "only-if-cached", now), b""
    passes = request.plan == "pass" or reuse == "bypass"
    fetch = "pass" if passes else "unconditional" if again else "conditional" if found else "full"
    sent = rules.forward_request(request, fetch, found if fetch == "conditional" else None)
    answer, asked, came = ask(sent.head)
    response = rules.parse_response(answer, came, "is-head" in sent.flags)
    body = BodyDecoder(response.framing).decode(answer[response.head_len :])[0]
    code, status = response.status_code, {"fwd": ("miss", response.status_code), "fetch": sent.fetch}
    exchange = Exchange(request, response, asked, came, "is-head" in sent.flags, index)
    if passes:
        [tier.purge(it) for it in rules.invalidated_keys(request, response)]
        return rules.relay_response(exchange, status), body
    if found and rules.stale_on_error(request, found, came, code).serve_stale:
        return rules.serve_stored(request, found, len(found.body), came, {"fwd": ("stale", code)}), found.body
    confirms = sent.fetch == "conditional" and (code == 304 or request.method == b"HEAD" and code == 200)
    decision = rules.freshen(exchange, found, len(found.body)) if confirms else rules.decide_store(exchange, found)
    if decision.purge:
        tier.purge(key)
    if decision.store and confirms:
        tier.put(came, key, decision.head, bytes(found.body), decision.meta)
    elif decision.store:
        stores(tier, rules, exchange, key, decision, body, came)
    if decision.mismatch and code == 304:
        return serves(tier, rules, data, now, ask, again=True)
    if confirms and code == 304:
        return rules.serve_stored(request, decision, len(found.body), came, {"fwd": ("stale", 304)}), found.body
    if decision.store and not confirms:
        return rules.serve_stored(request, decision, len(body), came, {**status, "stored": True}), body
    return rules.relay_response(exchange, status), body
