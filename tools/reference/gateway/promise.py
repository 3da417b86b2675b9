"""What a gateway promises, of the history of its calls alone: each call with what it was given, its Out, and what the tier beneath was told in it and
let go. Nothing is looked up in a gateway.

Read it from the end: `keeps` goes through the calls. Each answer is given for one reason (`Out.events`), and the reason's row says when it is lawful,
and which bytes it means. Beside the rules' own functions it needs: the shelf (what was said to be stored, and not removed), fetches, exchanges."""

from .library import Rejected
from .promise_sent import Answers
from .promise_words import Broken, Exchange, Told, holds, later, unchunked  # noqa: F401


class History(Answers):
    # ---- calls of the client's side

    def start(self, out, t, q, peer):
        self.number += 1
        self.latest = max(self.latest, t)
        e = self.open[self.number] = Exchange(self.number, q, peer)
        holds(out.exchange == e.x and out.status == "done" and out.used == q.head_len, e.x, "begins", out.exchange)
        e.closes = self.stopping
        if q.rejected:
            e.closes = True
            self.generates(e, q.error_code, q.reason, t)
        else:
            if q.framing[0] != "none" and q.framing != ("length", 0):
                e.taking = self.rules.decoder(q.framing)
            self.begins(e, t)
        holds(out.body_follows == (e.taking is not None), e.x, "a body follows")
        self.polled(e, out, t)

    def begins(self, e, t):
        q = e.q
        if len(self.open) > self.limits.max_exchanges:
            self.generates(e, 503, "too-busy", t)
        elif q.plan == "respond":
            self.generates(e, q.error_code, q.reason, t)
        elif q.plan == "pass":
            if "expects-continue" in q.flags and e.taking:
                e.interims = b"HTTP/1.1 100 Continue\r\n\r\n"
                e.queued += len(e.interims)
            self.is_sent(e, "pass", t, None, b"", q.reason)
        else:
            self.looks(e, t)

    def request_data(self, out, t, x, data):
        e = self.open.get(x)
        if not e or e.taking is None:
            return holds(out.status == ("wrong_phase" if e else "no_exchange"), x, "takes no body")
        holds(out.used <= len(data), x, "used")
        at, over, bad = 0, False, ""
        while not over and not bad:
            try:
                piece, used, over = e.taking.decode(data[at:])
                e.took += piece
                at += used
                if not piece and not used:
                    break
            except Rejected as it:
                bad = it.reason
        holds(out.last == (over or bool(bad)), x, "the request's body is over")
        if bad:
            return self.bad_body(e, t, bad, out)
        holds(out.used == at, x, "takes what it can of a body", out.used, at)
        self.goes_on(e, t, over, out)
        if over:
            e.taking = None
        return None

    def goes_on(self, e, t, over, out):
        """A request's body goes to the origin as it comes."""
        f = e.fetch
        e.to_origin += out.to_origin if out.origin == "send_data" else b""
        if not f or f.phase == "over":
            return
        if f.fetch == "pass":
            got, want = bytes(e.to_origin), bytes(e.took)
            if e.to_origin_framing == "chunked":
                got, ended, rest = unchunked(got)
                holds(ended == (b"\r\n" if over else None) and not rest, e.x, "ends the request's body", got)
            holds(got == want, e.x, "hands the request's body on", got, want)
        if out.origin == "send_data":
            f.body_sent = True
            f.word = f.word if f.spoke else t

    def bad_body(self, e, t, bad, out):
        f, was_closing = e.fetch, self.is_closing(e)
        e.spoiled = True
        if f and f.phase != "over":
            holds(out.origin == "close_origin", e.x, "a bad body must not go on")
            if f.phase == "awaiting_head":
                self.settles(f, "lost")
            if f.write:
                self.gives_up(f.write)
            if f.body:
                f.body.broken, f.body.changed = f.body.broken or not f.body.whole, True
            f.phase = "over"
        if not e.made:
            e.waits_for, e.closes = None, True
            e.taking = None
            self.generates(e, 400, bad, t)
        e.taking = None
        holds(was_closing, e.x, "closes")

    def poll(self, out, t, x):
        e = self.open.get(x)
        if not e:
            return holds(out.status == "no_exchange", x, "is over")
        self.latest = max(self.latest, t)
        f, due = e.fetch, self.deadline(e)
        if due is not None and t >= due:
            holds(out.origin == "close_origin", x, "is late", out.origin)
            if f.phase == "awaiting_head":
                self.fails(e, f, t, 504, "no-answer", 0)
            else:
                self.truncates(f)
        return self.polled(e, out, t)

    def polled(self, e, out, t):
        """How a wait ends; and what the client is sent."""
        if e.gone:
            return holds(out.client == "nothing" and not out.data, e.x, "is gone")
        if e.waits_for:
            self.waits(e, t)
        for it in out.data:
            e.sent += it
        e.queued = 0
        if not e.waits_for:
            e.begun = e.made is not None
            e.passed = e.body is not None and e.body.after is not None
        e.behind = self.is_behind(e)  # before it was sent anything
        self.fits(e, out)
        f = e.fetch
        if f and f.blocked and f.phase != "over" and not self.is_blocked(e):
            holds(out.origin == "continue", e.x, "is read on", out.origin)
            f.blocked, f.word = False, t
        if out.client in ("end", "close", "truncated"):
            e.gone = True
            if f and f.phase == "relaying" and f.body.after is not None:
                holds(out.origin == "close_origin", e.x, "a tail without its client", out.origin)
                self.truncates(f)
        return None

    def waits(self, e, t):
        p = e.waits_for
        over = t >= later(e.since, self.limits.lock_timeout)
        aged = not p.over and t >= later(p.given, self.limits.lock_age)
        if not (e.shares or over or e.moved or p.over or aged):
            return
        e.alone = bool(e.shares or over or not e.moved and p.over == "given_up")
        if aged:
            p.over = "aged"
        e.waits_for = None
        self.looks(e, t)

    def client_closed(self, out, t, x):
        e = self.open.get(x)
        if not e or e.gone:
            return holds(out.status == ("wrong_phase" if e else "no_exchange"), x, "is gone")
        f, owes = e.fetch, e.taking is not None
        e.gone, e.waits_for, e.taking = True, None, None
        if not f or f.phase == "over":
            return None
        if f.phase == "storing" or f.phase == "awaiting_head" and not owes:
            holds(out.origin == ("continue" if f.blocked else "nothing"), x, "ends what may go on", out.origin)
            f.word, f.blocked = t if f.blocked else f.word, False
            return None
        holds(out.origin == "close_origin", x, "goes on for nobody", f.phase)
        if f.body is not None and f.body.after is not None:
            return self.truncates(f)
        f.phase = "over"
        return self.settles(f, "lost")

    def purge(self, out, url):
        key, _ = self.rules.url_key(url)
        if key is None:
            return holds(out.status == "bad_argument", "is no URL")
        return self.purge_key(out, key)

    def purge_key(self, out, key):
        holds(out.found == bool(self.shelf.get(key)), "says what was there", out.found, self.shelf.get(key))
        self.purges_are([key])

    def purge_all(self, out, t):
        holds(not out.found, "says what was there")
        self.exp.append(("purged_all",))
        self.removes_all(t)

    def stop(self, out):
        self.stopping = True

    # ---- of every call

    def deadline(self, e):
        f = e.fetch
        if not f or f.phase == "over" or f.blocked:
            return None
        return later(f.word, self.limits.between_bytes_timeout if f.spoke else self.limits.first_byte_timeout)

    def at_is(self, out, x, t):
        e = self.open.get(x)
        if not e or e.gone and (not e.fetch or e.fetch.phase == "over"):
            return holds(out.at is None, x, "at", out.at)
        ends = [self.deadline(e)]
        if e.waits_for:
            ends += [later(e.since, self.limits.lock_timeout), None if e.waits_for.over not in ("", "aged") else later(e.waits_for.given, self.limits.lock_age)]
        ends = [it for it in ends if it is not None]
        return holds(out.at == (max(t, min(ends)) if ends else None), x, "at", out.at, ends)

    def news(self, e):
        """Whether there is something for a client that sleeps."""
        if e.waits_for:
            return bool(e.waits_for.over not in ("", "aged") or e.moved or e.shares)
        if not e.made or len(e.sent) < len(e.interims) + len(e.made.head):
            return len(e.sent) < len(e.interims) or bool(e.made)
        want, whole = self.meant(e)
        return e.payload < len(want) or whole or e.body.broken or e.spoiled or self.is_behind(e)

    def wakes(self, out, name, x):
        """Who sleeps is woken by what is news for it, and by nothing else."""
        for e in self.open.values():
            if name in ("start", "poll") and x == e.x:
                e.asleep = out.client == "wait"
            if e.x in out.wakes:
                reads = e.body is not None and e.body.changed
                holds(e.gone or e.x == x or reads or self.news(e) or e.x in self.stirred, e.x, "is woken by nothing", name, x)
                e.asleep = False
            holds(not (e.asleep and not e.gone and self.news(e)), e.x, "sleeps on")
        holds(all(y in self.open for y in out.wakes) and len(set(out.wakes)) == len(out.wakes), "wakes nobody", out.wakes)

    def forget(self):
        for x, e in list(self.open.items()):
            f = e.fetch
            if e.gone and (not f or f.phase == "over") and not (f and f.body is not None and f.body.after is not None and self.is_read_on(f.body)):
                del self.open[x]

    def account(self, out, name, given, before):
        """The words of the account are the row's words; and nothing is told besides."""
        holds(sorted(map(str, out.events)) == sorted(map(str, self.exp)), "account", out.events, self.exp)
        holds(not out.purges or self.may_purge, "names keys for other partitions", out.purges)
        holds((out.origin == "send_request") == any(it[0] == "requested" for it in out.events), "SEND_REQUEST without an account", out.events)
        if name in ("start", "purge", "purge_key", "purge_all", "stop", "origin_closed"):
            holds(out.origin in ("nothing", "send_request"), name, "origin", out.origin)
        if name not in ("start", "poll"):
            holds(not out.data and out.client == "nothing", name, "gives pieces")
        if name == "poll" and out.origin == "close_origin":
            holds(before[0], "closes what is over")
        if name == "poll":
            holds(out.origin in ("nothing", "send_request", "continue", "close_origin"), name, "origin", out.origin)
        if name == "request_data" and out.origin == "send_data":
            holds(before[1], "SEND_DATA to nobody")


def standing(history, x):
    """Of an exchange: whether the origin's side is open, and that of a PASS."""
    e = history.open.get(x)
    f = e and e.fetch
    is_open = f is not None and f.phase != "over"
    return is_open, is_open and f.fetch == "pass"


def unlawful(out):
    """A call that is refused, or takes nothing, says no more."""
    holds(not (out.used or out.data or out.events or out.wakes or out.evicted or out.purges), "changes something", out)
    holds(out.client == "nothing" and out.origin == "nothing", "changes something", out)


def keeps(history, calls):
    """Goes through calls, and says which breaks the promise, and how."""
    for number, (name, given, out, told) in enumerate(calls):
        x = out.exchange if name == "start" else given[1] if len(given) > 1 and name not in ("purge", "purge_key") else None
        history.out, history.exp, history.gone, history.may_purge, history.stirred = out, [], [], False, set()
        try:
            for e in history.open.values():
                for body in (e.body, e.fetch and e.fetch.body):
                    if body:
                        body.changed = False
            before = standing(history, x)
            getattr(history, name)(out, *given)
            if out.status in ("no_exchange", "wrong_phase", "bad_argument"):
                unlawful(out)
                holds(not told, "changes the tier", told)
                continue
            if out.status == "blocked":
                unlawful(out)
            history.account(out, name, given, before)
            history.tier_is(out, told)
            history.forget()
            history.wakes(out, name, x)
            if x is not None:
                history.at_is(out, x, given[0])
        except Broken as it:
            return f"call {number} {name}{tuple(g[:60] if isinstance(g, bytes) else g if isinstance(g, (int, tuple, str)) else '..' for g in given)}: {it}"
    return ""


def unanswered(history):
    """At the end, where no connection to the origin is open and each wait is over: everybody was answered."""
    stuck = [e.x for e in history.open.values() if not e.gone]
    return f"never answered: {stuck}" if stuck else ""
