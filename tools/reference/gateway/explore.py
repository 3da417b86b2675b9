#!/usr/bin/env python3
"""A simulated world round a gateway: explore.py [HISTORIES] [STEPS] [SEED]. It drives a gateway in random interleavings, and the promise is checked over
each history."""

import random
import sys

from . import gateway as real
from . import promise
from .traffic import Traffic
from .values import Limits, Out

MOODS = 16
SECRET = b"secret"


class World:
    def __init__(self, seed, gw=real, steps=400):
        r = self.r = random.Random(seed)
        self.gw, self.steps, self.mood = gw, steps, seed % MOODS
        options = dict(fill_on_conditional=r.random() < 0.7, fill_on_range=r.random() < 0.8, fill_on_head=r.random() < 0.8,
                       stale_if_down=r.choice([0, 600]), stale_if_error=r.choice([0, 0, 100]), add_x_forwarded_for=r.random() < 0.3)
        self.traffic = Traffic(r, self.mood)
        limits = self.limits()
        self.t, self.calls, self.counts = (1_000_000_000, 0), [], {}
        self.g = gw.Gateway(SECRET, self.t, limits, **options)
        self.told = self.g.tier = promise.Told(self.g.tier)
        self.history = promise.History(SECRET, self.t, limits, options)
        self.clients = [{"in": self.script(), "at": 0, "shown": 0, "x": None, "lazy": r.random() < 0.5} for _ in range(r.choice([3, 6, 10]) if self.mood not in (6, 12) else 12)]
        self.state = {}  # of exchanges whose client is there: client, feeding, awake
        self.at = {}  # of exchanges, the moment that was said
        self.origins = {}  # by exchange: bytes to come, how they end
        self.known, self.draining = set(), False
        self.purges_all = random.Random(seed) if seed // MOODS % 4 == 3 else None  # of its own: else each history would be another

    def limits(self):
        r = self.r
        age, wait = r.choice([2, 10]), r.choice([5, 60])
        if self.mood in (3, 9):
            age, wait = 2, 60
        if self.mood == 5:
            age, wait = r.choice([(10, 3), (4, 6), (10, 15)])
        small, is_slow = self.mood == 6, self.mood in (6, 12)
        if is_slow:
            age, wait = 10, 60
        room = [700, 900, 1 << 20] if self.mood > 12 else [600, 1500, 1 << 20, 1 << 20] if not small else [1 << 20]
        return Limits(max_bytes=r.choice(room), lock_age=age, lock_timeout=wait,
                      max_exchanges=r.choice([6, 100]) if self.mood not in (5, 6, 12) else 100, max_body_bytes=r.choice([60, 1 << 16]) if self.mood not in (6, 12) else r.choice([60, 150]) if small else 1 << 16,
                      max_tail=r.choice([20, 50, 400]), max_relay_bytes=r.choice([30, 1 << 16]), max_unread=r.choice([30, 1 << 16]) if not small else 1 << 16,
                      max_interim_responses=r.choice([2, 16]), first_byte_timeout=r.choice([4, 60, 60 * is_slow or 4]),
                      between_bytes_timeout=60 if is_slow else r.choice([4, 60]),
                      max_predicted=r.choice([1, 3, 100]), predicted_seconds=r.choice([5, 120]) if not small else 1)

    def script(self):
        return b"".join(self.traffic.request(self.t) for _ in range(self.r.choice([1, 3, 8])))

    # ---- calls

    def call(self, name, *given):
        out = getattr(self.gw, name)(self.g, *given) or Out()
        self.calls.append((name, given, out, self.told.taken()))
        for it in out.events:
            self.counts[it[0]] = self.counts.get(it[0], 0) + 1
        for y in out.wakes:
            if y in self.state:
                self.state[y]["awake"] = True
        x = out.exchange if name == "start" else given[1] if name not in ("purge", "purge_key", "purge_all", "stop") else None
        if x is not None and out.status not in ("no_exchange", "wrong_phase", "bad_argument"):
            self.at[x] = out.at
            if out.origin in ("send_request", "close_origin", "reusable"):
                self.origins.pop(x, None)
            if out.origin == "send_request":
                self.answers(x, out.to_origin)
            if out.origin == "continue" and x in self.origins:
                self.origins[x]["blocked"] = False
        return out

    def answers(self, x, head):
        data, ends = self.response(head)
        if self.mood == 1:
            self.t = (self.t[0] + self.r.choice([0, 0, 1, 2]), self.t[1])
        if self.r.random() < 0.03:
            data, ends = b"", "unused"
        stalls = self.r.random() < (0.3 if self.mood == 11 else 0.01)
        cut = self.r.randrange(len(data) + 1) if stalls else None
        self.origins[x] = {"data": data[:cut], "at": 0, "taken": 0, "body": False, "ends": "stalls" if stalls else ends, "blocked": False}

    def response(self, head):
        return self.traffic.response(head, self.t)

    def split(self, left):
        return min(left, self.r.choice([1, 5, 40, 1000, 1000]) if self.mood not in (6, 12) else 1000)

    def split_of_origin(self, o):
        left = len(o["data"]) - o["at"]
        return min(left, self.r.choice([7, 20, 60] if self.mood != 6 else [7, 20])) if self.mood in (6, 8, 9, 11, 12) and o["body"] else self.split(left)

    def asks(self, c):
        """A client's next bytes come."""
        if c["at"] >= len(c["in"]):
            if self.r.random() < 0.3:
                c["in"] += self.script()
            return
        c["at"] += self.split(len(c["in"]) - c["at"])
        q = self.gw.parse_request(self.g, c["in"][: c["at"]], c["shown"])
        if q is None:
            c["shown"] = c["at"]
            return
        out = self.call("start", self.t, q, b"1.2.3.4")
        x = out.exchange
        self.known.add(x)
        c["in"], c["at"], c["shown"], c["x"] = c["in"][out.used :], max(0, c["at"] - out.used), 0, x
        self.state[x] = {"client": c, "feeding": out.body_follows, "awake": False}
        self.ends(c, x, out)

    def feeds(self, c):
        x = c["x"]
        if not self.state[x]["feeding"]:
            return
        if not c["at"]:
            c["at"] = self.split(len(c["in"]))
        out = self.call("request_data", self.t, x, c["in"][: c["at"]])
        c["in"], c["at"] = c["in"][out.used :], c["at"] - out.used
        if out.last or out.status != "done":
            self.state[x]["feeding"] = False
        elif not out.used:
            c["at"] += self.split(len(c["in"]) - c["at"])

    def is_due(self, x):
        return self.at.get(x) is not None and self.t >= self.at[x]

    def polls(self, c):
        x = c["x"]
        s = self.state[x]
        if not (s["awake"] or self.is_due(x)) or self.mood == 6 and c["lazy"] and self.r.random() < 0.9:
            return
        s["awake"] = False
        self.ends(c, x, self.call("poll", self.t, x))

    def ends(self, c, x, out):
        if out.client in ("end", "close", "truncated"):
            self.gone(c, x, out.client)

    def polls_origin(self):
        """An exchange whose client is gone: its origin may be late."""
        late = [x for x in sorted(self.at) if x not in self.state and self.is_due(x)]
        if late:
            x = self.r.choice(late)
            out = self.call("poll", self.t, x)
            self.at.pop(x) if out.status != "done" or out.at is None else None

    def gone(self, c, x, how):
        del self.state[x]
        c["x"] = None
        if how != "end":
            c["in"], c["at"], c["shown"] = self.script(), 0, 0

    def leaves(self, c):
        if c["x"] is not None:
            x = c["x"]
            self.call("client_closed", self.t, x)
            self.gone(c, x, "left")

    def comes(self, x):
        """Bytes of the origin come, or its connection ends."""
        o = self.origins[x]
        if o["blocked"] and self.r.random() < 0.9 and not (self.draining and x not in self.state):
            return
        if o["at"] >= len(o["data"]) and not o["taken"] < o["at"]:
            if o["ends"] == "stalls" and not (self.draining and self.r.random() < 0.1):
                return
            if o["ends"] != "stays" or self.r.random() < 0.02 or self.draining:
                del self.origins[x]
                self.call("origin_closed", self.t, x, o["ends"] if o["ends"] not in ("stays", "stalls") else self.r.choice(["failed", "timeout"]))
            return
        o["at"] += self.split_of_origin(o)
        while o["taken"] < o["at"]:
            given = o["data"][o["taken"] : o["at"]]
            out = self.call("response_data" if o["body"] else "response_head", self.t, x, given)
            o["taken"] += out.used
            o["blocked"] = out.status == "blocked"
            if self.origins.get(x) is not o or o["blocked"]:
                return
            o["body"] = o["body"] or out.origin == "receive_body"
            if not out.used and out.origin != "receive_body":
                if o["at"] >= len(o["data"]):  # nothing more comes
                    o["taken"] = o["at"]
                return

    def unlawful(self):
        """A call that isn't lawful changes nothing."""
        x = self.r.choice([max(self.known, default=0) + 1, self.r.randrange(1, max(self.known, default=0) + 2)])
        name = self.r.choice(["response_head", "response_data", "origin_closed", "poll", "client_closed", "request_data", "odd", "purge"])
        o, s = self.origins.get(x), self.state.get(x)
        if name == "response_head" and not (o and not o["body"]):
            self.call(name, self.t, x, b"HTTP/1.1 200 OK\r\n\r\n")
        elif name == "response_data" and not (o and o["body"]):
            self.call(name, self.t, x, b"evil")
        elif name == "origin_closed" and not o:
            self.call(name, self.t, x, "clean")
        elif name == "odd" and o:
            self.call("origin_closed", self.t, x, "odd")
        elif name == "request_data" and not (s and s["feeding"]):
            self.call(name, self.t, x, b"evil")
        elif name == "client_closed" and s is None:
            self.call(name, self.t, x)
        elif name == "poll" and not (s and not s["awake"]):
            out = self.call(name, self.t, x)
            if s is not None:
                s["awake"] = False
                self.ends(s["client"], x, out)
        elif name == "purge":
            self.call("purge", b"http://h h/")

    # ---- time

    def passes(self):
        r, s = self.r, self.t[0]
        steps = [0, 0, 0, 1, 1, 3, 12 if self.traffic.calm > 0.3 else 2, -1] if self.mood != 5 else [1, 2, 3, 5]
        steps = [0, 0, 0, 1] if self.mood == 12 else [0, 1, 2] if self.mood == 6 else steps
        self.t = (s + r.choice(steps), r.randrange(10**9) if self.mood not in (3, 9) else 0)

    def purges_or_stops(self):
        p = self.purges_all.random()
        if p < 0.01:
            self.call("purge_all", self.t)
        elif p < 0.011:
            self.call("stop")

    def step(self):
        r = self.r
        if self.purges_all:
            self.purges_or_stops()
        p = r.random()
        if p < 0.04 or self.mood in (1, 3, 5, 9, 11) and p < 0.09:
            self.passes()
        elif p < 0.10:
            if r.random() < self.traffic.calm and r.random() < 0.2:
                self.call("purge", b"http://h" + r.choice(self.traffic.paths).encode())
        elif p < 0.11:
            self.unlawful()
        elif p < 0.12:
            self.leaves(r.choice(self.clients))
        elif p < 0.14:
            self.polls_origin()
        elif p < (0.2 if self.mood == 6 else 0.25 if self.mood in (3, 5, 8, 9, 12) else 0.48) and self.origins:
            self.comes(r.choice(sorted(self.origins)))
        else:
            self.moves(r.choice(self.clients))

    def moves(self, c):
        if c["x"] is None:
            self.asks(c)
        elif self.r.random() < 0.4:
            self.feeds(c)
        else:
            self.polls(c)

    def drain(self):
        """All that was asked comes to its end."""
        self.draining = True
        for _ in range(3000):
            busy = [c for c in self.clients if c["x"] is not None]
            for x in sorted(self.origins):
                if x in self.origins:
                    self.comes(x)
            self.polls_origin()
            for c in busy:
                if c["x"] is None:
                    continue
                if self.state[c["x"]]["feeding"]:
                    self.feeds(c) if c["in"] else self.leaves(c)
                if c["x"] is not None:
                    self.polls(c)
            if not busy and not self.origins:
                return
            if self.r.random() < 0.1:
                self.t = (self.t[0] + 2, self.t[1])

    def run(self):
        for _ in range(self.steps):
            self.step()
        self.drain()
        told = promise.keeps(self.history, self.calls)
        left = (*self.gw.counts(self.g), len(self.told.opened))
        return told or promise.unanswered(self.history) or (f"still open: {left}" if any(left) else "")


def main(histories=200, steps=400, seed=0, gw=real, quiet=False, stride=1):
    """How many calls there were, and the first history that broke the promise."""
    total, counts = 0, {}
    for i in range(0, histories * stride, stride):
        w = World(seed + i, gw, steps)
        try:
            told = w.run()
        except Exception as error:
            if gw is real and not quiet:
                print("seed", seed + i)
                raise
            told = f"fails: {type(error).__name__} {error}"
        total += len(w.calls)
        for k, v in w.counts.items():
            counts[k] = counts.get(k, 0) + v
        if told:
            return total, counts, seed + i, told
    return total, counts, None, ""


if __name__ == "__main__":
    total, counts, seed, told = main(*[int(it) for it in sys.argv[1:]])
    print(f"{total} calls, {counts}")
    print(f"seed {seed}: {told}" if told else "the promise holds")
    sys.exit(1 if told else 0)
