#!/usr/bin/env python3
"""A second judge, which knows neither the rules nor the promise: it reads what clients were sent as HTTP, and asks where each body came from, by the
number that the origin wrote into it. oracle.py HISTORIES [SEED] [MUTANT ..]"""

import re
import sys

from . import explore

SHARED = rb"public|must-revalidate|s-maxage"


def head(data):
    """First line, fields, what comes behind."""
    text, _, rest = data.partition(b"\r\n\r\n")
    first, *lines = text.split(b"\r\n")
    fields = {}
    for line in lines:
        name, _, value = line.partition(b":")
        fields.setdefault(name.strip().lower(), []).append(value.strip())
    return first, fields, rest


def body(fields, rest, none):
    """The body, and whether it is whole (None: until the end of the connection)."""
    if none:
        return b"", not rest
    if b"transfer-encoding" in fields:
        out = b""
        while True:
            line, found, rest = rest.partition(b"\r\n")
            if not found:
                return out, False
            size = int(line, 16)
            if not size:
                return out, rest.endswith(b"\r\n")
            out, rest = out + rest[:size], rest[size + 2 :]
    if b"content-length" in fields:
        n = int(fields[b"content-length"][0])
        return rest[:n], len(rest) == n
    return rest, None


class Judged(explore.World):
    def __init__(self, *given, **named):
        super().__init__(*given, **named)
        self.asked, self.sends, self.purges, self.faults = {}, {}, [], []

    def answers(self, x, sent):
        super().answers(x, sent)
        data = self.origins[x]["data"]
        first, fields, rest = head(re.sub(rb"^(HTTP/1.1 1\d\d .*?\r\n\r\n)*", b"", data, flags=re.S))
        status = int(first.split()[1]) if first.startswith(b"HTTP") and len(first.split()) > 1 and first.split()[1].isdigit() else 0
        self.sends[self.traffic.version] = dict(at=len(self.calls), x=x, head=head(sent), status=status, fields=fields, raw=rest)

    def call(self, name, *given):
        n = len(self.calls) + 1
        if name == "start":
            self.asked[self.g.number + 1] = dict(at=n, q=given[1], sent=b"")
        out = super().call(name, *given)
        if name in ("purge", "purge_all"):
            self.purges.append((n, given[0] if name == "purge" else None))
        elif name in ("start", "poll") and out.status == "done" and out.exchange in self.asked:
            a = self.asked[out.exchange]
            a["sent"] += b"".join(bytes(it) for it in out.data)
            if out.client in ("end", "close", "truncated"):
                self.judges(out.exchange, a, out.client)
        elif name == "response_head" and out.origin != "send_request" and out.used:
            self.unsafe(n, given[1], given[2])
        return out

    def unsafe(self, n, x, data):
        first, fields, _ = head(data)
        code = int(first.split()[1]) if first.startswith(b"HTTP") else 0
        a = self.asked.get(x)
        if a and 200 <= code < 400 and a["q"].method not in (b"GET", b"HEAD", b"OPTIONS", b"TRACE"):
            self.purges.append((n, a["q"].key or b"http://h/a"))
            for place in fields.get(b"location", []) + fields.get(b"content-location", []):
                self.purges.append((n, place if place.startswith(b"http") else b"http://h" + place))

    def wrong(self, *told):
        self.faults.append(" ".join(str(it)[:300] for it in told))

    def judges(self, x, a, how):
        q, data = a["q"], a["sent"]
        fields_of = head(b"\r\n" + q.fields + b"\r\n")[1]
        first, fields, rest = head(data)
        while first.startswith(b"HTTP/1.1 1"):
            data = rest
            first, fields, rest = head(data)
        if not first.startswith(b"HTTP/1.1 "):
            return how == "truncated" or self.wrong(x, "no answer", data)
        code = int(first.split()[1])
        got, whole = body(fields, rest, q.method == b"HEAD" or code in (204, 304))
        if how == "end" and whole is not True:
            return self.wrong(x, "goes on behind an answer that isn't whole", data)
        if (how == "close") != (b"close" in fields.get(b"connection", [])) and how != "truncated":
            self.wrong(x, "says of its connection what isn't so", how, fields)
        if q.minor_version == 0 and b"transfer-encoding" in fields:
            self.wrong(x, "chunks to 1.0")
        number = fields.get(b"x-version")
        from_body = re.match(rb"\d{4}", got)
        v = int(from_body[0]) if from_body and code == 200 and number else None
        if v in self.sends:
            self.judges_source(x, a, q, fields_of, fields, got, whole and how != "truncated", self.sends[v], int(number[0]))
        return None

    def judges_source(self, x, a, q, asked, fields, got, is_whole, o, number):
        own = o["x"] == x and o["at"] >= a["at"] - 1
        if o["head"][0].split()[1] != b"/" + q.key.split(b"/", 3)[3]:
            self.wrong(x, "is sent another page", q.key, o["head"][0])
        if is_whole and self.whole(o) not in (None, got):
            self.wrong(x, "is sent another body", got, self.whole(o))
        if own:
            return
        if q.method not in (b"GET", b"HEAD"):
            self.wrong(x, "an unsafe method is answered from the store")
        for name in b",".join(o["fields"].get(b"vary", [])).split(b","):
            name = name.strip().lower()
            if name == b"*" or name and asked.get(name) != o["head"][1].get(name):
                self.wrong(x, "another variant", name, asked.get(name), o["head"][1].get(name))
        self.judges_shared(x, a, asked, fields, o, number)
        key = q.key
        if any(o["at"] < n <= a["at"] - 1 and it in (key, None) for n, it in self.purges):
            self.wrong(x, "is sent what was purged before it asked")

    def judges_shared(self, x, a, asked, fields, o, number):
        now = b",".join(fields.get(b"cache-control", []))  # as 304s made it
        first = b",".join(o["fields"].get(b"cache-control", []))
        last = self.sends.get(number, o)
        mine = last["x"] == x and last["at"] >= a["at"] - 1  # its own validation: what that says is for it
        cookie = b"set-cookie" in o["fields"] or b"set-cookie" in fields and not mine
        if re.search(rb"no-store|private", first if mine else now + first) or cookie:
            self.wrong(x, "is sent what is another's", now, fields)
        if not mine and b"authorization" in asked and not re.search(SHARED, now):
            self.wrong(x, "authorization is answered from the store", now)
        if b"authorization" in o["head"][1] and not re.search(SHARED, first):
            self.wrong(x, "is sent what came to an authorized request", now)

    def whole(self, o):
        if o["head"][0].startswith(b"HEAD"):
            return None
        try:
            got, whole = body(o["fields"], o["raw"], False)
        except ValueError:
            return None
        return got if whole is not False else None

    def runs(self):
        for _ in range(self.steps):
            self.step()
        self.drain()
        return self.faults


def judge(gw, histories, seed, of=Judged):
    """How many calls there were, and the first fault."""
    calls = 0
    for s in range(seed, seed + histories):
        w = of(s, gw, steps=400)
        try:
            w.runs()
        except Exception as error:
            w.faults.append(f"fails {type(error).__name__} {error}")
        calls += len(w.calls)
        if w.faults:
            return calls, (s, w.faults[0])
    return calls, None


if __name__ == "__main__":
    histories, seed = int(sys.argv[1]), int(sys.argv[2]) if len(sys.argv) > 2 else 0
    wrongs = [("the gateway", explore.real)]
    if len(sys.argv) > 3:
        from . import mutants
        wrongs = [(name, mutants.made(name)) for name in (mutants.WRONG if sys.argv[3] == "all" else sys.argv[3:])]
    for name, gw in wrongs:
        calls, fault = judge(gw, histories, seed)
        print(f"{name}: {calls} calls, {fault or 'no fault'}", flush=True)
