"""What a gateway does at the tier: looks up, lets go, begins, lists, purges. Each call there is answered by a value; what it refuses is an outcome."""

from dataclasses import dataclass

from cache_tier import CacheTierError, Digest

from .library import VARY_INDEX_STATUS


@dataclass
class Look:
    found: object = None  # a head
    body: object = b""  # where it is whole
    fresh: bool = False
    whole: bool = False
    permit: str = "none"


def try_tier(out, call, *arguments):
    """Whether it was done, and what it gave."""
    try:
        return True, call(*arguments)
    except CacheTierError as refused:
        out.evicted += refused.evicted
        return False, refused.kind


def wake(out, x):
    out.wakes.append(x)  # each once in the end: `told`


def wakes_readers(g, x, out):
    """Something came of that write, or it ended."""
    for y in g.open.values():
        if y.writer == x and y.client == "sending" and y.source == "write":
            wake(out, y.x)


def wakes_waiters(g, x, out):
    """That permit ended."""
    for y in g.open.values():
        if y.holder == x and y.client == "waiting":
            wake(out, y.x)


def later(moment, seconds):
    return moment[0] + seconds, moment[1]


# ==== look-ups


def is_too_old(g, head):
    """Everything was purged since."""
    return g.floor is not None and head.updated <= g.floor


def seek(g, e, key, now, lock, past, out):
    """Looks up. What is fresh and whole is a hit, and opens no request. What is too old is as nothing found."""
    e.key = key
    if lock and not past:
        done, it = try_tier(out, g.tier.get, now, key)
        if done and it and not is_too_old(g, it):
            return Look(it, it.body, True, True)
        if done and it:  # the tier would call it fresh, and give no permit
            purges_writes(g, key)
    done, _ = try_tier(out, g.tier.open, e.x, key, lock)
    if not done:
        return Look()
    e.held = True
    done, look = try_tier(out, g.tier.lookup_stale, e.x) if past else try_tier(out, g.tier.lookup, now, e.x)
    if not done:
        return Look()
    if look.permit == "write":
        takes_permit(g, e, now, out)
    if look.response and is_too_old(g, look.response):
        return Look(permit=look.permit)
    body = b""
    if look.complete:
        done, body = try_tier(out, g.tier.read, e.x)
        if not done:
            return Look(permit=look.permit)
    return Look(look.response, body, look.fresh, look.complete, look.permit)


def takes_permit(g, e, now, out):
    """Who had it before has none any more: it was past its age. Who waited for that one waits for this one."""
    for y in g.open.values():
        y.permit = None if y.key == e.key else y.permit
        if y.client == "waiting" and y.key == e.key and y is not e:
            wake(out, y.x)
    e.permit = now


def seek_place(g, e, now, out):
    """Looks up under the first key, and where a Vary index stands there under each set's second key: of what is found the newest counts, else the
    first set's key is the place."""
    e.first, e.index = e.request.key, b""
    look = seek(g, e, e.first, now, not e.alone, False, out)
    if not look.found or look.found.status_code != VARY_INDEX_STATUS:
        return look
    e.index = bytes(look.body)
    lets_go(g, e, out)
    keys = g.rules.secondary_keys(e.request, e.index)
    best, at = keys[0], None
    for key in keys if len(keys) > 1 else []:
        look = seek(g, e, key, now, False, False, out)
        lets_go(g, e, out)
        if look.found and (at is None or look.found.updated > at):
            best, at = key, look.found.updated
    return seek(g, e, best, now, not e.alone, False, out)


def lets_go(g, e, out):
    """Ends its request at the tier, and with that its permit, its write, its reading. Only the end of a permit or of an unfinished write wakes."""
    if not e.held:
        return
    had_permit, wrote = e.permit, e.writes
    e.held, e.permit, e.writes, e.joinable = False, None, False, False
    g.tier.close_request(e.x)
    if had_permit:
        wakes_waiters(g, e.x, out)
    if wrote:
        wakes_readers(g, e.x, out)


def is_read_on(e):
    """Others read on in what it stored of a body that grew too long."""
    return e.writes and e.tail is not None and bool(e.tail.readers)


def forgets_if_over(g, e):
    if e.client == "done" and e.origin == "idle" and not is_read_on(e):
        g.open.pop(e.x, None)


def gives_up_permit(g, e, out):
    """Its response won't be stored: who waits for it goes on alone, and not one after the other."""
    if e.held and e.permit:
        try_tier(out, g.tier.give_up, e.x)
    lets_go(g, e, out)


# ==== what is stored


def keys_of(g, e, index):
    return [e.first, *(g.rules.secondary_keys(e.request, index) if index else [])]


def place_of(g, e, response, now, out):
    """The key under which its response is stored, by what stands under the first key now; None: it can't be."""
    done, it = try_tier(out, g.tier.peek, e.first)
    index = bytes(it.body) if done and it is not None and it.status_code == VARY_INDEX_STATUS else b""
    index = b"" if index and is_too_old(g, it) else index
    g.tokens += 1
    made = g.rules.update_vary_index(response, now, index, Digest.of(g.secret + b"%d" % g.tokens).hex().encode())
    if made is None:
        e.index = b""
        return e.first
    if made.is_new and not puts_index(g, e, made, now, out):
        return None
    e.index = made.body
    return g.rules.secondary_keys(e.request, made.body)[made.place]


def puts_index(g, e, made, now, out):
    """Whether the new index stands under the first key. A write in flight there is never found again: it would replace the index."""
    if any(y.joinable and y.key == e.first for y in g.open.values()):
        purges_writes(g, e.first)
    done, stored = try_tier(out, g.tier.put, now, e.first, made.head, made.body, made.meta)
    if not done or not hasattr(stored, "evicted"):
        return False
    out.evicted += stored.evicted
    out.events.append(("vary_index", e.first))
    for y in g.open.values():
        y.overtaken = y.overtaken or y is not e and y.key == e.first
    return True


def purges_writes(g, key):
    """At the tier alone: who reads on there gets all of it, and nobody finds it."""
    g.tier.purge(key)
    for y in g.open.values():
        y.joinable = y.joinable and y.key != key


def begins(g, e, response, kept, now, out):
    """Whether its write has begun. Who waits for that key, or for its permit, looks again."""
    place = place_of(g, e, response, now, out)
    if place is None:
        return False
    if place != e.key:
        moves_waiters(g, e, out)
        lets_go(g, e, out)
    if not e.held:
        seek(g, e, place, now, False, True, out)  # what is fresh there is replaced too
    if not e.held:
        return False
    wakes_at(g, e, out)
    if any(y.joinable and y.key == place for y in g.open.values()):  # asked earlier
        purges_writes(g, place)
    done, _ = try_tier(out, g.tier.begin, now, e.x, kept.head, kept.meta)
    if not done:
        return False
    moves_waiters(g, e, out)
    e.permit, e.writes, e.joinable = None, True, True
    for y in g.open.values():
        if y is not e and y.origin == "awaiting_head":
            y.overtaken = y.overtaken or y.key == place
            y.superseded = y.superseded or y.sequence < e.sequence and y.first == e.first and place in keys_of(g, y, e.index)
    return True


def wakes_at(g, e, out):
    """Who waits for its key, also where its write doesn't begin then: what may lack memory comes first."""
    for y in g.open.values():
        if y.client == "waiting" and y.key == e.key:
            wake(out, y.x)


def moves_waiters(g, e, out):
    for y in g.open.values():
        if y.client == "waiting" and (y.key == e.key or y.holder == e.x):
            y.moved = True
            wake(out, y.x)


def freshens(g, e, kept, now, out):
    """What is stored has a new head. Others that validate it by its old one won't freshen it; what was asked earlier won't replace it."""
    done, gone = try_tier(out, g.tier.revalidate, now, e.x, kept.head, kept.meta)
    if not done:
        return
    out.evicted += gone
    out.events.append(("freshened", e.key))
    for y in g.open.values():
        if y is not e and y.key == e.key:
            y.overtaken, y.superseded = True, y.superseded or y.sequence < e.sequence


def remove(g, key, out, by=None):
    """Purges a key: what is stored or in flight under it, and what is fetched for it won't be stored; `by`: a response, which says nothing of what was
    asked later. A permit of what is fetched for it ends: who waits looks again. Whether anything was there."""
    there = g.tier.purge(key)
    g.predicted.pop(key, None)
    out.events.append(("purged", key))
    for y in list(g.open.values()):
        y.joinable = y.joinable and y.key != key
        if y is by or y.origin == "idle" or key not in (y.first, y.key) or by and y.sequence > by.sequence:
            continue
        y.purged = True
        if y.origin == "awaiting_head" and y.permit:
            lets_go(g, y, out)
    return there


def remove_all(g, now, out):
    """Purges everything, as `remove` does of each key; of what is stored nothing that is older is found any more."""
    g.floor = max(now, g.latest, g.floor or now)
    g.predicted.clear()
    out.events.append(("purged_all",))
    for y in list(g.open.values()):
        if y.joinable:
            purges_writes(g, y.key)
        if y.origin == "idle":
            continue
        y.purged = True
        if y.origin == "awaiting_head" and y.permit:
            lets_go(g, y, out)
