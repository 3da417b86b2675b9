"""Of the promise: a response's body, and how its connection ends."""

from .library import Rejected
from .promise_look import Looks
from .promise_words import chunked, holds

IDEMPOTENT = (b"GET", b"HEAD", b"OPTIONS", b"TRACE", b"PUT", b"DELETE")


class Bodies(Looks):
    def is_blocked(self, e):
        """Its client lacks so much that nothing more is taken."""
        f = e.fetch
        if f.body is not None and f.body.after is not None:
            body = f.body
            return not e.gone and e.reads_write and len(body.bytes) - max(e.place(), body.after) >= self.limits.max_tail
        relayed = f.phase == "relaying" or f.phase == "awaiting_head" and not e.made and not e.gone
        return relayed and e.queued >= self.limits.max_relay_bytes

    def in_flight(self):
        every = {id(e.fetch.body): e for e in self.open.values() if e.fetch and e.fetch.body is not None and e.fetch.write}
        total = 0
        for e in every.values():
            body = e.fetch.body
            if body.after is None:
                total += max(len(body.bytes), body.length or 0) if e.fetch.phase == "storing" else 0
            elif self.is_read_on(body):
                total += body.after
        tails = {}
        for e in self.open.values():
            own = e.fetch and e.fetch.body
            for body in (own, e.body if e.reads_write and not e.gone else None):
                if body is not None and body.after is not None:
                    tails[id(body)] = len(body.bytes) - body.kept_from
        return total + sum(tails.values())

    def is_read_on(self, body):
        """Others read on in what was stored of a body that grew too long."""
        return not body.broken and any(y.reads(body) and not y.passed for y in self.open.values())

    # ---- a body

    def response_data(self, out, t, x, given):
        e = self.open.get(x)
        f = e and e.fetch
        if not f or f.phase not in ("storing", "relaying"):
            return holds(out.status == ("wrong_phase" if e else "no_exchange"), x, "awaits no body")
        holds((out.status == "blocked") == self.is_blocked(e), x, "is blocked", out.status, e.queued)
        if out.status == "blocked":
            f.blocked = True
            return holds(not out.used, x, "takes nothing")
        f.word, f.blocked = t, False
        f.body.changed = True
        return self.takes(e, f, given, out)

    def takes(self, e, f, given, out):
        """The body's bytes, as they come."""
        over, at, bad, came = f.body.whole, 0, False, b""
        while not over and not bad:
            try:
                piece, used, over = f.body.decoder.decode(given[at:])
            except Rejected:
                bad = True
                break
            came += piece
            at += used
            if not piece and not used:
                break
        goes_on = not came or self.grows(e, f, came)
        if not goes_on or bad:
            holds(out.origin == "close_origin", e.x, "closes what broke", out)
            return self.truncates(f)
        holds(out.used == at, e.x, "takes what it can", out.used, at)
        if f.phase == "over":
            if over:
                f.body.whole = True
            clean = over and at == len(given) and e.taking is None and not f.closes
            return holds(out.origin == ("reusable" if clean else "close_origin"), e.x, "origin", out.origin, clean)
        if not over:
            return holds(out.origin == "nothing", e.x, "origin", out.origin)
        f.body.whole, f.body.trailers = True, f.body.decoder.trailers
        clean = at == len(given) and e.taking is None and not f.closes
        holds(out.origin == ("reusable" if clean else "close_origin"), e.x, "origin", out.origin, clean)
        return self.body_ends(e, f)

    def body_ends(self, e, f):
        if e.body is f.body:
            e.trailers = f.body.trailers
        if f.phase == "storing":
            self.finishes(f.write)
        f.phase = "over"

    def grows(self, e, f, piece):
        """Whether the body goes on: stored, relayed, or in its tail."""
        body, limits, size = f.body, self.limits, len(f.body.bytes) + len(piece)
        if f.phase == "relaying" and body.after is None:
            before = len(body.bytes)
            body.bytes += piece
            if f.storable and before <= limits.max_body_bytes < size:
                self.teaches(f.key, f.word)
            if e.made and e.made.parts:
                _, start, end = e.made.parts[0]
                shown = piece[max(start - before, 0) : len(piece) if end is None else max(0, end - before)]
                e.queued += chunked(shown) if e.made.framing[0] == "chunked" else len(shown)
                if end is not None and size >= end:
                    f.phase = "over"
            return True
        own = e.reads(body)
        if body.after is None:
            read = any(y.reads(body) for y in self.open.values())
            body.unread = 0 if read else body.unread + len(piece)
            past_total = self.in_flight() - max(len(body.bytes), body.length or 0) + max(size, body.length or 0) > limits.max_bytes // 2
            if body.unread > limits.max_unread and not (body.length and 2 * size >= body.length):
                return False
            if size > limits.max_body_bytes or past_total:
                if not own:
                    return False
                self.begins_tail(f, size > limits.max_body_bytes)
        elif not own:
            return False
        body.bytes += piece
        if body.after is not None:
            body.kept_from = max(body.kept_from, body.after, min(e.place(), size - limits.max_tail))
        return True

    def begins_tail(self, f, is_long):
        if f.write in self.shelf.get(f.key, []):
            self.takes_away(f.key)
        if is_long:
            self.teaches(f.key, f.word)
        f.body.after = f.body.kept_from = len(f.body.bytes)
        f.phase = "relaying"

    def truncates(self, f):
        self.exp.append(("truncated",))
        self.gives_up(f.write)
        f.body.broken, f.body.changed, f.phase = True, True, "over"

    def origin_closed(self, out, t, x, why):
        e = self.open.get(x)
        f = e and e.fetch
        if not f or f.phase == "over":
            return holds(out.status == ("wrong_phase" if e else "no_exchange"), x, "asked nothing", out.status)
        if why not in ("clean", "failed", "timeout", "unused"):
            return holds(out.status == "bad_argument", x, "no word of an end")
        if f.phase == "awaiting_head":
            if why == "unused" and not f.spoke and not f.body_sent and not f.sent_again and e.q.method in IDEMPOTENT:
                f.sent_again, f.word = True, t
                self.exp.append(("requested", f.fetch, f.key, bool(f.permit)))
                return holds(out.to_origin == f.sent.head, x, "sends another head")
            return self.fails(e, f, t, 504 if why == "timeout" else 502, "no-answer", 0)
        f.body.changed = True
        if f.body.framing == "close" and why == "clean":
            f.body.whole = True
            return self.body_ends(e, f)
        return self.truncates(f)
