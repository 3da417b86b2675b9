#!/usr/bin/env python3
"""The gateway in Rattle beside the reference: replay.py PROGRAM [HISTORIES] [STEPS] [SEED]. PROGRAM is crates/gateway_replay, built. First the rows by hand, then
random histories: each is run here and recorded, call by call, and what the program answers to the same calls is compared, all of it.

    replay.py PROGRAM rows [NAME ..]       the rows alone, and where each differs
    replay.py PROGRAM 200 400 0            histories, of so many steps, from that seed on

What is sent to the client is compared as bytes, whatever the pieces; keys in events by their digests."""

import json
import subprocess
import sys
import types

from cache_tier import Digest, rules
from cache_tier.tables import OPTION_FLAGS, RULES_DEFAULTS

from . import explore, gateway as real, rows_attack, rows_plain, rows_standard  # noqa: F401
from .cases import Case
from .rows_of import ROWS
from .values import Limits

LIMITS = ("max_bytes lock_age lock_timeout max_exchanges max_body_bytes max_relay_bytes max_unread max_interim_responses first_byte_timeout"
          " between_bytes_timeout max_predicted predicted_seconds max_tail").split()
# Reasons by their numbers; those that the rules have none for are from 1000 on.
REASONS = {**{name: number for number, name in rules.REASONS.items()}, "predicted": 1000, "too-many-interim": 1001}
# Calls over an exchange, with what they are given behind the moment and its number.
OF_BYTES = ("request_data", "response_head", "response_data")
# What an event names by its key.
OF_KEYS = ("stored", "completed", "freshened", "purged", "vary_index")


def opens(secret, started, limits, settings, options):
    """The line that makes a gateway."""
    chosen = {**RULES_DEFAULTS, **options}
    flags = sum(bool(chosen.pop(it)) << bit for bit, it in enumerate(OPTION_FLAGS))
    words = "".join(it.strip() + "\r\n" for it in settings.splitlines() if it.strip())
    return {"call": "open", "numbers": [flags, *chosen.values()], "words": words, "secret": secret.hex(), "started": started, "limits": [getattr(limits, it) for it in LIMITS]}


class Recorder(types.SimpleNamespace):
    """The reference, whose calls are written down with what they answer."""

    def __init__(self):
        super().__init__(lines=[], wanted=[])
        self.counts = real.counts

    def add(self, line, wanted):
        self.lines.append(line)
        self.wanted.append(wanted)

    def Gateway(self, secret, started=(0, 0), limits=None, settings="", **options):
        self.add(opens(secret, started, limits or Limits(), settings, options), None)
        return real.Gateway(secret, started, limits, settings, **options)

    def parse_request(self, g, data, looked=0):
        q = real.parse_request(g, data, looked)
        self.add({"call": "parse", "bytes": bytes(data).hex(), "looked": looked}, "more" if q is None else "done")
        if q is not None:
            q.data = bytes(data)
        return q

    def start(self, g, now, request, peer=b""):
        out = real.start(g, now, request, peer)
        self.add({"call": "start", "now": now, "bytes": request.data.hex(), "peer": peer.hex()}, told(out))
        return out

    def purge(self, g, url):
        out = real.purge(g, url)
        self.add({"call": "purge", "bytes": url.hex()}, told(out))
        return out

    def purge_key(self, g, key):
        out = real.purge_key(g, key)
        self.add({"call": "purge_key", "bytes": key.hex()}, told(out))
        return out

    def purge_all(self, g, now):
        out = real.purge_all(g, now)
        self.add({"call": "purge_all", "now": now}, told(out))
        return out

    def stop(self, g):
        real.stop(g)
        self.add({"call": "stop"}, "done")

    def origin_closed(self, g, now, x, why):
        out = real.origin_closed(g, now, x, why)
        if why in real.WHY:  # the program has no other
            self.add({"call": "origin_closed", "now": now, "exchange": x, "why": why}, told(out))
        return out

    def over(self, name, g, now, x, *given):
        out = getattr(real, name)(g, now, x, *given)
        line = {"call": name, "now": now, "exchange": x}
        self.add({**line, "bytes": bytes(given[0]).hex()} if given else line, told(out))
        return out


def over(name):
    return lambda self, g, now, x, *given: self.over(name, g, now, x, *given)


for name in (*OF_BYTES, "poll", "client_closed"):
    setattr(Recorder, name, over(name))


def named(key):
    return Digest.of(key).hex() if key else None


def told_event(event):
    word, *more = event
    if word in OF_KEYS:
        return [word, named(more[0])]
    if word == "requested":
        return [word, more[0], named(more[1]), bool(more[2])]
    if word == "generated":
        return [word, more[0], REASONS[more[1]]]
    return [word, *more]


def told(out):
    """An Out, as the program writes it."""
    return {"status": out.status, "exchange": out.exchange or 0, "used": out.used, "client": out.client, "data": b"".join(bytes(it) for it in out.data).hex(),
            "origin": out.origin, "to_origin": bytes(out.to_origin).hex(), "body_follows": bool(out.body_follows), "last": bool(out.last), "found": bool(out.found),
            "at": list(out.at) if out.at else None, "wakes": list(out.wakes), "evicted": [it if isinstance(it, str) else bytes(it).hex() for it in out.evicted],
            "purges": [bytes(it).hex() for it in out.purges], "events": [told_event(it) for it in out.events]}


class World(explore.World):
    """The simulated world, without a promise."""

    def run(self):
        for _ in range(self.steps):
            self.step()
        self.drain()


def is_same(line, name, answer, wanted):
    """Whether that is answered which is wanted; whom a purge of everything wakes it says in no order."""
    if line["call"] == "purge_all" and name == "wakes":
        return sorted(answer or []) == sorted(wanted)
    return answer == wanted


def shown(value):
    return bytes.fromhex(value) if isinstance(value, str) and value and all(it in "0123456789abcdef" for it in value) and len(value) % 2 == 0 else value


def compared(program, recorder):
    """The first call whose answer differs: its place, the call, and what."""
    given = "".join(json.dumps(it) + "\n" for it in recorder.lines)
    ran = subprocess.run([program], input=given, stdout=subprocess.PIPE, stderr=subprocess.PIPE, text=True, check=False)
    answers = ran.stdout.splitlines()
    for place, (line, wanted) in enumerate(zip(recorder.lines, recorder.wanted)):
        if place >= len(answers):
            return place, line, f"no answer: status {ran.returncode} {ran.stderr[-300:]}"
        answer = json.loads(answers[place])
        if line["call"] in ("open", "parse", "stop"):
            if answer["status"] != (wanted or "done"):
                return place, line, f"status: {answer['status']}, and not {wanted}"
            continue
        for name, it in wanted.items():
            if not is_same(line, name, answer.get(name), it):
                return place, line, f"{name}: is {shown(answer.get(name))!r}\n    was {shown(it)!r}"
    return None


def told_line(line):
    return json.dumps({k: (repr(bytes.fromhex(v))[1:200] if k == "bytes" else v) for k, v in line.items()})


def of_rows(program, names):
    agree, differ = [], []
    for of, limits in ROWS:
        if names and not any(of.__name__.startswith(it) for it in names):
            continue
        recorder = Recorder()
        of(Case(of.__name__, Limits(**{k: v for k, v in limits.items() if k != "options"}), lambda _: None, recorder, limits.get("options")))
        found = compared(program, recorder)
        (differ if found else agree).append(of.__name__)
        if found:
            place, line, what = found
            print(f"{of.__name__}. {of.__doc__}\n  call {place} of {len(recorder.lines)}: {told_line(line)}\n  {what}")
    print(f"{len(agree)} rows agree: {' '.join(agree)}\n{len(differ)} differ: {' '.join(differ)}")
    return differ


def of_histories(program, histories, steps, seed):
    calls, wrong, counts = 0, 0, {}
    for i in range(seed, seed + histories):
        recorder = Recorder()
        world = World(i, recorder, steps)
        world.run()
        calls += len(recorder.lines)
        for k, v in world.counts.items():
            counts[k] = counts.get(k, 0) + v
        found = compared(program, recorder)
        if found:
            wrong += 1
            place, line, what = found
            print(f"history {i} (mood {world.mood}), call {place} of {len(recorder.lines)}: {told_line(line)}\n  {what}", flush=True)
    print(f"{histories} histories, {calls} calls, {counts}: {wrong} differ")
    return wrong


def main(given):
    program, *more = given
    if more and more[0] == "rows":
        return int(bool(of_rows(program, more[1:])))
    numbers = [int(it) for it in more]
    differ = [] if len(numbers) > 2 else of_rows(program, [])
    wrong = of_histories(program, *(numbers + [200, 400, 0][len(numbers):]))
    return int(bool(differ or wrong))


if __name__ == "__main__":
    sys.exit(main(sys.argv[1:]))
