#!/usr/bin/env python3
"""Several partitions under the second judge: what one purges is purged in the others. slices.py HISTORIES [forget]: with `forget` it isn't, which must
be seen."""

import sys

from . import explore, oracle
from .gateways import Gateways

COUNT = 3


class Whole:
    """A Gateways as one gateway, whose exchanges have numbers of their own."""

    def __init__(self, g, forgets):
        self.g, self.forgets, self.number, self.handles, self.numbers = g, forgets, 0, {}, {}
        self.rules, self.limits = g.parts[0].rules, g.parts[0].limits

    def handle(self, x):
        return self.handles.get(x, (0, 1 << 60))

    def told(self, out):
        out.wakes = [self.numbers[it] for it in out.wakes if it in self.numbers]
        return out


class Module:
    """The calls of a gateway, over a Whole."""

    @staticmethod
    def parse_request(g, data, looked=0):
        return g.g.parse_request(data, looked)

    @staticmethod
    def start(g, now, request, peer):
        g.number += 1
        if g.forgets:
            g.g.partition = lambda key, real=g.g.partition: real(key)
        handle, out = g.g.start(now, request, peer)
        g.handles[g.number], g.numbers[handle] = handle, g.number
        out.exchange = g.number
        return g.told(out)

    @staticmethod
    def purge(g, url):
        return g.told(g.g.purge(url))

    @staticmethod
    def purge_all(g, now):
        return g.told(g.g.purge_all(now))

    @staticmethod
    def stop(g):
        g.g.stop()

    @staticmethod
    def counts(g):
        return sum(len(it.open) for it in g.g.parts), 0


def passed(name):
    def call(g, now, x, *given):
        out = getattr(g.g, name)(now, g.handle(x), *given)
        out.exchange = x
        return g.told(out)

    return staticmethod(call)


for it in ("poll", "request_data", "response_head", "response_data", "origin_closed", "client_closed"):
    setattr(Module, it, passed(it))


class Sliced(oracle.Judged):
    forgets = False

    def __init__(self, *given, **named):
        super().__init__(*given, **named)
        one = self.g
        parts = Gateways(COUNT, explore.SECRET, (0, 0), one.limits, **one.rules.numbers)
        if self.forgets:
            real = parts.partition
            parts.within = lambda part, of, *rest: forgetting(parts, part, of, *rest)
            parts.partition = real
        self.g, self.gw = Whole(parts, False), Module


def forgetting(g, part, of, *given):
    with g.locks[part]:
        out = of(g.parts[part], *given)
    out.wakes = [(part, x) for x in out.wakes]
    return out


class Peeking:
    """A partition's lock: before it is taken somebody polls."""

    def __init__(self, polls):
        self.polls = polls

    def __enter__(self):
        self.polls()

    def __exit__(self, *_):
        pass


def early():
    """The pieces of an answer to an unsafe method that are given before other partitions were purged; those behind; who is woken for them."""
    g, now = Gateways(COUNT, explore.SECRET), (1_000_000_000, 0)
    handle, _ = g.start(now, g.parse_request(b"POST /a HTTP/1.1\r\nHost: h\r\nContent-Length: 0\r\n\r\n"))
    other = next(path for path in (b"/%d" % i for i in range(100)) if g.partition(b"http://h" + path) != handle[0])
    given = []
    g.locks = [it if i == handle[0] else Peeking(lambda: given.extend(g.poll(now, handle).data)) for i, it in enumerate(g.locks)]
    out = g.response_head(now, handle, b"HTTP/1.1 201 X\r\nContent-Length: 0\r\nLocation: %b\r\n\r\n" % other)
    return given, g.poll(now, handle).data, out.wakes == [handle]


if __name__ == "__main__":
    Sliced.forgets = len(sys.argv) > 2
    calls, fault = oracle.judge(explore.real, int(sys.argv[1]), 12, Sliced)
    print(f"{calls} calls over {COUNT} partitions, {fault or 'no fault'}")
    sys.exit(bool(fault) != Sliced.forgets)
