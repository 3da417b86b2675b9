"""Of the promise: what a client is sent, by the row of each reason, and its bytes."""

from .promise_response import Responses
from .promise_words import holds, parts_of, unchunked


class Answers(Responses):
    # ---- what a client is sent: the row of each reason

    def answers(self, e, made, body=None, text=None):
        holds(e.made is None, e.x, "is answered twice")
        e.made, e.body, e.text, e.begun = made, body, text, False
        e.closes = e.closes or "connection-close" in made.flags or made.framing[0] == "close"
        e.queued += len(made.head)

    def is_closing(self, e):
        return e.closes or e.taking is not None

    def generates(self, e, code, reason, t):
        made = self.rules.make_response(e.q, code, reason, t, self.is_closing(e))
        self.exp.append(("generated", code, reason))
        self.answers(e, made, text=made.tail)

    def shows(self, e, head, body, length, t, status, in_flight=False):
        e.reads_write = in_flight
        self.answers(e, self.rules.serve_stored(e.q, head, length, t, {**status, "connection_close": self.is_closing(e)}, in_flight), body=body)

    def relays(self, e, f, r, status):
        e.told = True
        fetch = "pass" if f.fetch == "unstored" else f.fetch
        made = self.rules.relay_response(e.q, r, f.asked, f.came, {**status, "connection_close": self.is_closing(e)}, fetch, f.sent.has_range)
        if made.status_code == r.status_code and made.framing[0] != "none" and not made.parts:
            made.parts = [(b"", 0, None)]
        self.answers(e, made, body=f.body)

    # ---- what was sent so far is its answer, framed

    def fits(self, e, out):
        got, n = bytes(e.sent), len(e.interims)
        if len(got) < n or not e.made:
            return holds(e.interims.startswith(got) and out.client == "wait", e.x, "is sent what isn't its answer", got[:200], out.client)
        holds(got[:n] == e.interims, e.x, "interim heads")
        got, head = got[n:], e.made.head
        holds(got.startswith(head) or out.client == "wait" and not got, e.x, "is sent another head", got[:600], head)
        got = got[len(head) :]
        want, whole = self.meant(e)
        over = got == want and whole
        if e.text is None and e.made.framing[0] == "chunked":
            got, ended, rest = unchunked(got)
            trailers = e.trailers if "accepts-trailers" in e.q.flags else b""
            if e.fetch and e.body is e.fetch.body and e.reads_write and e.body.after is not None and "accepts-trailers" in e.q.flags:
                trailers = e.body.trailers
            holds(ended in (None, trailers + b"\r\n") and not rest, e.x, "ends its chunks", ended, rest)
            over = ended is not None
        e.payload = len(got)
        holds(want.startswith(got), e.x, "is sent other bytes", got[:200], want[:200])
        return self.is_told(e, out, over and whole and got == want, (over, whole, got, want))

    def meant(self, e):
        """The bytes of its answer behind the head, as far as they are there; and whether that is all."""
        if e.text is not None:
            return e.text, True
        if e.made.framing[0] == "none" or not e.made.parts and e.told:
            return b"", True
        return parts_of(e.made, e.body)

    def is_told(self, e, out, done, told):
        broke = e.body is not None and e.body.broken or e.spoiled or e.behind
        if out.client in ("end", "close"):
            holds(done and not e.behind, e.x, "ends what isn't whole", *told)
            holds(out.client == ("close" if e.closes else "end"), e.x, "connection", out.client)
        elif out.client == "truncated":
            holds(broke and not done, e.x, "is truncated without cause")
        else:
            holds(e.body is not None and not done and not broke, e.x, "waits for nothing", done, broke)

    def is_behind(self, e):
        """It reads in a tail, and what it lacks isn't kept."""
        body = e.body
        return e.reads_write and body.after is not None and body.kept_from > body.after and e.place() < body.kept_from and not e.is_answered()
