"""Of the promise: the rows of a response's head, and of none."""

from .promise_body import Bodies
from .promise_words import Body, Write, as_stored, holds


def is_good(stored, moment):
    """While its age is below its lifetime, or past it by no more than a window of its own, whatever the request says."""
    base = stored.fresh_until if stored.fresh_until > (0, 0) else stored.updated
    window = max(stored.stale_while_revalidate, stored.stale_if_error)
    return moment <= stored.fresh_until or window > 0 and moment <= (base[0] + window, base[1])


class Responses(Bodies):
    # ---- a head

    def response_head(self, out, t, x, data):
        e = self.open.get(x)
        f = e and e.fetch
        if not f or f.phase != "awaiting_head":
            return holds(out.status == ("wrong_phase" if e else "no_exchange"), x, "awaits no head", out.status)
        self.latest = max(self.latest, t)
        holds((out.status == "blocked") == self.is_blocked(e), x, "is blocked", out.status, e.queued)
        if out.status == "blocked":
            f.blocked = True
            return holds(not out.used, x, "takes nothing")
        f.word, f.spoke, f.came, f.blocked = t, True, f.came or t, False
        if out.status == "more":
            return holds(not out.used and not out.events and not self.is_head(data), x, "head goes on")
        holds(self.is_head(data) or len(data) > self.rules.max_head_bytes, x, "reads a head that isn't whole")
        is_head = "is-head" in f.sent.flags
        r, reason = self.rules.parse_response(is_head, f.came, data)
        if r is None:
            holds(out.origin == "close_origin", x, "closes what doesn't read")
            return self.fails(e, f, t, 502, reason, 502)
        holds(out.used == r.head_len, x, "takes the head")
        if r.status_code < 200:
            return self.interim(e, f, r, t)
        f.body = Body(decoder=self.rules.decoder(r.framing), framing=r.framing[0], length=r.framing[1])
        f.body.whole, f.closes = f.body.decoder.decode(b"")[2], "connection-close" in r.flags
        self.response(e, f, r, t)
        if e.fetch is f:
            self.origin_after(e, f, data)
        return None

    def is_head(self, data):
        return b"\r\n\r\n" in data or b"\n\n" in data or b"\n\r\n" in data

    def interim(self, e, f, r, t):
        came, f.came, f.interims = f.came, None, f.interims + 1
        if f.interims > self.limits.max_interim_responses:
            holds(self.out.origin == "close_origin", e.x, "closes where interim heads don't end")
            return self.fails(e, f, t, 502, "too-many-interim", 502)
        if not e.made and not e.gone and r.status_code != 100 and e.q.minor_version == 1:
            more = self.rules.relay_response(e.q, r, f.asked, came, {}).head
            e.interims += more
            e.queued += len(more)
        return holds(not self.out.events and self.out.origin == "nothing", e.x, "an interim head decides nothing")

    def origin_after(self, e, f, data):
        """What becomes of the origin's connection."""
        out = self.out
        if f.phase == "over" or f.body.whole:
            clean = f.body is not None and f.body.whole and out.used == len(data) and e.taking is None and not f.closes
            holds(out.origin == ("reusable" if clean else "close_origin"), e.x, "origin", out.origin, clean)
            f.phase = "over"
        else:
            holds(out.origin == "receive_body", e.x, "origin", out.origin)

    def purges_are(self, keys, by=None):
        said = [it[1] for it in self.out.events if it[0] == "purged"]
        holds(said == keys, "purges", said, keys)
        for key in keys:
            self.exp.append(("purged", key))
            self.removes(key, by)

    def response(self, e, f, r, t):
        """By its row."""
        status, awaits, rules = r.status_code, not e.gone and not e.made, self.rules
        cause, is_head = {"fwd": (f.cause, status)}, "is-head" in f.sent.flags
        is_unasked = status == 304 and not f.sent.is_conditional and e.q.method in (b"GET", b"HEAD")
        if is_unasked and f.fetch in ("pass", "unstored"):
            return self.is_unasked(e, f, t)
        if f.fetch == "pass":
            keys = rules.invalidated_keys(e.q, r)
            self.purges_are(keys)
            holds(self.out.purges == keys, e.x, "tells other partitions")
            self.may_purge = True
            return self.relayed(e, f, r, {"fwd": ("method" if f.reason == "method" else "bypass", status), "detail": f.reason}, awaits)
        revalidates = f.fetch == "conditional" and (status == 304 or is_head and status == 200)
        too_long = (r.framing[1] or 0) > self.limits.max_body_bytes
        kept = None if revalidates else rules.decide_store(e.q, is_head, r, f.asked, f.came, f.found, f.index)
        f.storable = kept is not None and kept.store
        if kept is not None and status not in (206, 304):
            if f.fetch == "unstored" and kept.store and not too_long:
                self.predicted.pop(f.key, None)
            elif kept.predicts_uncacheable or too_long and (kept.store or f.fetch == "unstored"):
                self.teaches(f.key, t)
        if f.fetch == "unstored":
            self.purges_are([])
            return self.relayed(e, f, r, {**cause, "detail": "predicted"}, awaits)
        if is_unasked:
            return self.is_unasked(e, f, t)
        if f.old and rules.stale_on_error(e.q, f.old_head, t, status):
            return self.stale(e, f, t, {**cause, "detail": "stale-if-error"}, awaits, status)
        if f.found and is_good(f.found, f.came) and status >= 400 and status not in (404, 410):
            self.purges_are([])
            return self.relayed(e, f, r, {**cause, "detail": "stored-is-good"}, awaits)
        if revalidates:
            return self.revalidates(e, f, r, t, cause, awaits)
        too_much = (r.framing[1] or 0) + self.in_flight() > self.limits.max_bytes // 2
        if kept.store and not f.removed and not f.superseded and not too_long and not too_much:
            return self.stored(e, f, r, kept, t, cause, awaits)
        old = f.removed or f.superseded
        self.purges_are([f.key] if kept.purge and not kept.store and not old else [], f)
        reason = kept.reason or ("purged" if f.removed else "body-too-long" if too_long else "unstored")
        return self.relayed(e, f, r, {**cause, "detail": reason}, awaits)

    def is_unasked(self, e, f, t):
        """A 304 that nobody asked for is no answer."""
        f.closes = True
        self.fails(e, f, t, 502, "not-modified", 502)

    def stale(self, e, f, t, status, awaits, origin_status):
        f.phase = "over"
        self.purges_are([])
        self.shared(f, origin_status, True, 502, "no-answer")
        if awaits:
            self.shows(e, f.old_head, f.old.body, len(f.old.body.bytes), t, status)
            self.exp.append(("stale_on_error",))

    def shared(self, f, origin_status, is_response, code, reason):
        """Who waits for it shares its end."""
        for y in self.open.values():
            if y.waits_for and f.permit and y.waits_for is f.permit and f.permit.over in ("", "aged") and not y.moved:
                y.shares = (origin_status, is_response, code, reason)
        self.settles(f, "lost")

    def relayed(self, e, f, r, status, awaits):
        self.settles(f, "given_up")
        f.phase = "relaying" if awaits else "over"
        if not awaits:
            return
        self.relays(e, f, r, status)
        self.exp.append(("relayed", r.status_code))
        if not e.made.parts and r.framing[0] != "none":
            f.phase = "over"

    def revalidates(self, e, f, r, t, cause, awaits):
        """A 304, or a 200 to HEAD, says what of what was found."""
        kept = self.rules.freshen(e.q, f.old_head, len(f.old.body.bytes), r, f.asked, f.came, f.index)
        again, old = kept.other and r.status_code == 304, f.removed or f.superseded
        is_there = f.old is self.kept(f.key) and f.old.head is f.old_head
        overtaken = f.overtaken
        holds(overtaken or old or is_there or f.old not in self.shelf.get(f.key, []), e.x, "what it validates is another now")
        freshened = [it for it in self.out.events if it[0] == "freshened"]
        may = kept.store and not old and not overtaken and is_there
        self.purges_are([f.key] if kept.purge and not old and not overtaken else [], f)
        holds(bool(freshened) == bool(may), e.x, "freshens", freshened, may)
        if may:
            self.exp.append(("freshened", f.key))
            f.old.head = as_stored(kept, f.old_head)
            for g in self.others(f):
                if g.key == f.key:
                    g.overtaken, g.superseded = True, g.superseded or g.sequence < f.sequence
        f.phase = "over"
        if again:
            permit = f.permit if f.permit and f.permit.over in ("", "aged") else None
            found = None if kept.purge else f.found
            self.is_sent(e, "unconditional", t, None, f.index, "vary-miss" if f.index else "uri-miss", False, permit)
            e.fetch.found = found
            return
        self.settles(f, "done" if kept.store else "given_up")
        if r.status_code == 200:
            return self.relayed(e, f, r, cause, awaits)
        if awaits:
            self.shows(e, kept.shown, f.old.body, len(f.old.body.bytes), t, cause)
            self.exp.append(("revalidated",))

    def others(self, f):
        """Whose answers haven't come."""
        every = [y.fetch for y in self.open.values() if y.fetch is not None and y.fetch is not f]
        return [g for g in every if g.phase == "awaiting_head" and g.fetch != "pass"]

    def stored(self, e, f, r, kept, t, cause, awaits):
        place, index = self.indexes(e, f, r, t)
        if f.hides and place == f.key:
            self.stirred = {y.x for y in self.open.values() if y.waits_for and y.key == place}
            if self.flying(place):
                self.takes_away(place)
            return self.relayed(e, f, r, {**cause, "detail": kept.reason or "unstored"}, awaits)
        said = [it for it in self.out.events if it[0] == "stored"]
        holds(said == [("stored", place)], e.x, "stores what may be stored", said, place)
        self.exp.append(("stored", place))
        self.moves(f)
        found_key, f.key = f.key, place
        if self.flying(place):
            self.takes_away(place)
        self.moves(f)
        self.settles(f, "done")
        f.write = Write(place, as_stored(kept), f.body, f)
        self.shelf.setdefault(place, []).append(f.write)
        f.phase = "storing"
        self.predicted.pop(place, None)
        for g in self.others(f):
            q = self.open[g.x].q
            keys = [q.key] + (self.rules.secondary_keys(q, index) if index else [])
            g.overtaken = g.overtaken or g.key == place
            g.superseded = g.superseded or g.sequence < f.sequence and place in keys
        self.purges_are([found_key] if kept.purge and found_key != place else [], f)
        if awaits:
            self.shows(e, kept.shown, f.body, None, t, {**cause, "stored": True}, True)
        if f.body.whole:
            self.finishes(f.write)

    # ---- no response

    def fails(self, e, f, t, code, reason, origin_status):
        f.phase = "over"
        if f.fetch not in ("pass", "unstored") and code == 502 and not origin_status:
            code = self.rules.error_status(e.q, f.old and f.old_head, t)
        self.shared(f, origin_status, False, code, reason)
        if e.gone or e.made:
            return
        if f.old and self.rules.stale_on_error(e.q, f.old_head, t, origin_status):
            status = {"fwd": (f.cause, 0), "detail": "stale-if-error" if origin_status else "stale-if-down"}
            self.shows(e, f.old_head, f.old.body, len(f.old.body.bytes), t, status)
            self.exp.append(("stale_on_error",))
            return
        self.generates(e, code, reason, t)
