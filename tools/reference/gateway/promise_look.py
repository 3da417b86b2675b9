"""Of the promise: what is found, and what a look-up leads to."""

from cache_tier import Digest

from .library import VARY_INDEX_STATUS, Rules
from .promise_words import Body, Fetch, Permit, Write, as_stored, holds, later


class Shelf:
    """What was said to be stored, and not removed, as of one tier. In flight: the first begun; else what was finished last."""

    def __init__(self, secret, started, limits, options):
        self.secret = Digest.of(secret + b"%d.%d" % started)
        self.rules, self.limits = Rules(self.secret, **options), limits
        self.shelf, self.open, self.permits, self.predicted = {}, {}, {}, {}
        self.finished = self.tokens = self.sequence = self.number = 0
        self.floor, self.latest, self.stopping = None, (0, 0), False
        self.stirred = set()  # who in this call may be woken for nothing
        self.newest = {}  # by key, of what was finished the last asked
        self.exp, self.gone, self.may_purge = [], [], False  # the account and the purges at the tier, as this call's rows have them

    def flying(self, key):
        return [w for w in self.shelf.get(key, []) if not w.place]

    def kept(self, key):
        return max((w for w in self.shelf.get(key, []) if w.place), key=lambda w: w.place, default=None)

    def there(self, key):
        flying = self.flying(key)
        return flying[0] if flying else self.kept(key)

    def is_too_old(self, w):
        """Everything was purged since."""
        return w is not None and self.floor is not None and w.head.updated <= self.floor

    def shown(self, key):
        w = self.there(key)
        return None if self.is_too_old(w) else w

    def forgets(self, key, t):
        """What is too old goes, where the tier would answer by it."""
        w = self.there(key)
        if w and w.place and self.is_too_old(w) and t <= w.head.fresh_until:
            self.takes_away(key)

    def found(self, q, t, alone):
        """What a request finds, under which key, by which index: of each set's the newest, else the first set's key is the place."""
        if not alone:
            self.forgets(q.key, t)
        w = self.shown(q.key)
        if w is None or w.index is None:
            return w, q.key, b""
        keys = self.rules.secondary_keys(q, w.index)
        best = keys[0]
        there = [(key, self.shown(key)) for key in keys if self.shown(key)]
        if there:
            best = max(there, key=lambda it: (it[1].head.updated, -keys.index(it[0])))[0]
        if not alone:
            self.forgets(best, t)
        return self.shown(best), best, w.index

    def drops(self, key):
        """Nothing is found under the key any more: it went for room."""
        self.shelf.pop(key, None)
        self.newest.pop(key, None)

    def takes_away(self, key):
        """The same, by a purge at the tier."""
        self.gone.append(key)
        self.drops(key)

    def removes(self, key, by=None):
        """A purge: what flies for the key won't be stored, and who waits for it looks again; a response says nothing of what was asked later."""
        self.takes_away(key)
        self.predicted.pop(key, None)
        for e in self.open.values():
            f = e.fetch
            if not f or f is by or f.phase == "over" or key not in (e.q.key if f.fetch != "pass" else b"", f.key) or by and f.sequence > by.sequence:
                continue
            f.removed = True
            if f.phase == "awaiting_head":
                self.settles(f, "lost")

    def removes_all(self, t):
        """The same, of all keys."""
        self.floor = max(t, self.latest, self.floor or t)
        self.predicted.clear()
        for key in [it for it in self.shelf if self.flying(it)]:
            self.takes_away(key)
        for e in self.open.values():
            f = e.fetch
            if f and f.phase != "over":
                f.removed = True
                if f.phase == "awaiting_head":
                    self.settles(f, "lost")

    def tier_is(self, out, calls):
        """What the tier was told in this call, and let go for room, is what the account says, and the rows; `calls`: of the tier, as they were."""
        done = lambda name: sum(it[2] for it in calls if it[0] == name)
        said = lambda word: sum(it[0] == word for it in out.events)
        for name, word in ("begin", "stored"), ("finish", "completed"), ("put", "vary_index"), ("revalidate", "freshened"):
            holds(done(name) == said(word), "the tier's", name, "and the account's", word, done(name), said(word))
        purged = sorted(bytes(it[1][0]) for it in calls if it[0] == "purge")
        holds(purged == sorted(self.gone), "purges at the tier", purged, self.gone)
        evicted = [bytes(digest) for it in calls for digest in it[3]]
        holds([bytes(it) for it in out.evicted] == evicted, "names what went for room", out.evicted, evicted)
        self.evicts(evicted)

    def evicts(self, digests):
        there = {bytes(Digest.of(key)): key for key in [*self.shelf, *self.gone]}  # also what was purged after it went
        for it in digests:
            holds(it in there, "evicts what isn't there")
            self.drops(there[it])

    def finishes(self, w):
        self.finished += 1
        if w in self.shelf.get(w.key, []):
            w.place = self.finished
            if w.index is None:
                self.exp.append(("completed", w.key))
                holds(w.of.sequence >= self.newest.get(w.key, 0), "what was asked earlier takes the place of", w.key)
                self.newest[w.key] = w.of.sequence

    def gives_up(self, w):
        if w and w in self.shelf.get(w.key, []) and not w.place:
            self.shelf[w.key].remove(w)

    def leader(self, key):
        p = self.permits.get(key)
        return p if p and not p.over else None

    def settles(self, f, how):
        """A fetch's permit ends, where it has one. Of one that somebody found past its age nothing is given up: who waits looks again."""
        if f.permit and f.permit.over in ("", "aged"):
            f.permit.over = "lost" if (f.permit.over, how) == ("aged", "given_up") else how

    def moves(self, f):
        """Who waits for its key, or its permit, looks again."""
        for y in self.open.values():
            if y.waits_for and (y.key == f.key or f.permit and y.waits_for is f.permit):
                y.moved = True


class Looks(Shelf):
    def is_predicted(self, key, t):
        at = self.predicted.get(key)
        return at is not None and t <= later(at, self.limits.predicted_seconds)

    def teaches(self, key, t):
        self.predicted.pop(key, None)
        self.predicted[key] = t
        while len(self.predicted) > self.limits.max_predicted:
            del self.predicted[next(iter(self.predicted))]

    def is_fresh(self, key, t):
        """By the tier, which knows nothing of a purge of everything."""
        w = self.there(key)
        return w is not None and t <= w.head.fresh_until

    def looks(self, e, t):
        """By what is found, what may be done."""
        w, e.key, index = self.found(e.q, t, e.alone)
        use = self.rules.decide_reuse(e.q, w.head, t) if w else "after-validation"
        before = self.permits.get(e.key)
        if before and before.over == "aged" and not e.alone and not self.is_fresh(e.key, t):
            before.over = "taken"
        status = {"fwd": ("miss", 0), "collapsed": True} if e.collapsed else {"hit": True}
        shared, e.shares = e.shares, None
        if use == "bypass" and "only-if-cached" not in e.q.flags:
            return self.is_sent(e, "pass", t, None, b"", "authorization")
        if use not in ("after-validation", "bypass"):
            return self.reuses(e, w, use, t, status, index, shared)
        if "only-if-cached" in e.q.flags:
            return self.generates(e, 504, "only-if-cached", t)
        if shared:
            return self.shares(e, w, index, t, shared)
        if w is None and self.is_predicted(e.key, t):
            return self.is_sent(e, "unstored", t, None, index, "")
        return self.fetches(e, w, index, t)

    def reuses(self, e, w, use, t, status, index, shared):
        if not w.place:
            self.exp.append(("collapsed", use))
            return self.shows(e, w.head, w.body, None, t, status, True)
        self.exp.append(("hit", use))
        holds(w.of is None or w.of.sequence >= self.newest.get(w.key, 0), e.x, "is sent what is older", w.key)
        behind = use == "while-revalidating" and not self.leader(e.key) and not e.alone
        self.shows(e, w.head, w.body, len(w.body.bytes), t, {**status, "detail": "stale-while-revalidate"} if behind else status)
        if behind:
            self.is_sent(e, "conditional", t, w, index, "stale", True)
        return None

    def shares(self, e, w, index, t, shared):
        """Its holder's fetch failed."""
        origin_status, is_response, code, reason = shared
        old = w if w and w.place else None
        if old and self.rules.stale_on_error(e.q, old.head, t, origin_status):
            self.exp.append(("stale_on_error",))
            told = {"fwd": ("stale", origin_status), "collapsed": True, "detail": "stale-if-error" if origin_status else "stale-if-down"}
            return self.shows(e, old.head, old.body, len(old.body.bytes), t, told)
        if not is_response:
            return self.generates(e, code, reason, t)
        return self.fetches(e, w, index, t)

    def fetches(self, e, w, index, t):
        fresh = self.is_fresh(e.key, t)
        leader = self.leader(e.key)
        if leader and not fresh and not e.alone:
            e.waits_for, e.moved, e.collapsed, e.since = leader, False, True, e.since or t
            self.exp.append(("waiting",))
            holds(not [it for it in self.out.events if it[0] == "requested"] or t >= later(leader.given, self.limits.lock_age), e.x, "fetches what another fetches")
            return
        old = w if w and w.place else None
        cause = ("request" if fresh else "stale") if old else "vary-miss" if index else "uri-miss"
        self.is_sent(e, "conditional" if old else "full", t, w, index, cause)
        holds(bool(e.fetch.permit) == (not fresh and not e.alone), e.x, "leads", e.fetch.permit, fresh, e.alone)

    def is_sent(self, e, fetch, t, w, index, cause, behind=False, again=None):
        """The origin is asked, as `forward_request` says, with a permit or without."""
        out = self.out
        holds(out.origin == "send_request", e.x, "must ask the origin:", fetch, out.origin, out.events)
        old = w if fetch == "conditional" else None
        made = self.rules.forward_request(e.q, "pass" if fetch == "unstored" else fetch, old and old.head, e.peer)
        if behind and made.fetch == "full":
            made = self.rules.forward_request(e.q, "unconditional", None, e.peer)
        holds(out.to_origin == made.head, e.x, "sends another head", out.to_origin, made.head)
        said = [it for it in out.events if it[0] == "requested"][0]
        key, permit = (b"", None) if fetch == "pass" else (e.key, again)
        holds(fetch == "pass" or said[2] == key, e.x, "fetches under another key", said)
        if said[3] and not permit:
            holds(fetch not in ("pass", "unstored") and not self.leader(e.key), e.x, "leads beside another")
            permit = self.permits[e.key] = Permit(t)
        self.exp.append(("requested", "unstored" if fetch == "unstored" else made.fetch, said[2], said[3]))
        self.sequence += 1
        f = e.fetch = Fetch(e.x, self.exp[-1][1], t, made, said[2], permit, self.sequence, word=t, cause=cause, reason=cause)
        f.found, f.old, f.old_head, f.index = w and w.head, old, old and old.head, index
        f.hides = w is None and fetch == "full" and self.is_fresh(e.key, t)
        if fetch == "unstored":
            f.cause = "vary-miss" if index else "uri-miss"
        e.to_origin_framing = made.framing[0]

    def indexes(self, e, f, r, t):
        """The key under which a response is stored, by what stands under the first key now; the index then."""
        self.tokens += 1
        there = self.kept(e.q.key)
        index = there.index if there and there.index is not None and not self.is_too_old(there) else b""
        made = self.rules.update_vary_index(r, t, index, Digest.of(self.secret + b"%d" % self.tokens).hex().encode())
        if made is None:
            return e.q.key, b""
        if made.is_new:
            self.exp.append(("vary_index", e.q.key))
            if self.flying(e.q.key):
                self.takes_away(e.q.key)
            w = Write(e.q.key, as_stored(made), Body(bytearray(made.body), whole=True), index=made.body)
            holds(w.head.status_code == VARY_INDEX_STATUS, "an index is no response")
            self.shelf.setdefault(w.key, []).append(w)
            self.finishes(w)
            for g in self.others(f):
                g.overtaken = g.overtaken or g.key == e.q.key
        return self.rules.secondary_keys(e.q, made.body)[made.place], made.body
