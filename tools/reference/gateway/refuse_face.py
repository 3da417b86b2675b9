#!/usr/bin/env python3
"""The package's gateway without memory: refuse_face.py [HISTORIES] [OF_10000] [SEED]. Of the library's own allocations so many in 10,000 are refused, at random, in
each call (refusing.c, preloaded). A mover ends an exchange whose call says MEMORY, by client_closed and origin_closed, and polls all others. Does anything
raise, hang or leak, or lie to the second judge? Where there is no gcc, or no library, it is passed over by name."""

import collections
import ctypes
import os
import shutil
import subprocess
import sys
import tempfile

if not __package__:
    TOP = os.path.dirname(os.path.dirname(os.path.dirname(os.path.dirname(os.path.abspath(__file__)))))
    sys.path[:0] = [os.path.join(TOP, "tools/reference"), os.path.join(TOP, "python/src")]
    os.environ.setdefault("CACHE_TIER_LIBRARY", os.path.join(TOP, "embed/out/libcache_tier.so"))
    __package__ = "gateway"
    import gateway  # noqa: F401

REFUSING = "REFUSING_LIBRARY"  # where it is built, in the run that has it preloaded
STEPS = 300


class Face:
    """The calls of a gateway, over the package's: what explore.py's world drives."""

    def __init__(self, refusing, part):
        from . import by_face, replay

        self.refusing, self.part, self.by_face, self.replay, self.counted = refusing, part, by_face, replay, collections.Counter()

    def Gateway(self, secret, started, limits, **options):
        line = self.replay.opens(secret.ljust(16, b"."), started, limits, "", options)
        g = self.replay.real.Gateway(secret, started, limits, **options)  # its rules parse requests, and its tier is looked at by nobody
        g.over, g.ended, g.fresh = self.by_face.opened(line), set(), set()
        return g

    def refused(self, of, *given):
        """A call whose allocations may be refused."""
        self.refusing.refusing_some(self.part)
        try:
            return of(*given)
        finally:
            self.refusing.refusing_some(0)

    def parse_request(self, g, data, looked=0):
        q = self.replay.real.parse_request(g, data, looked)
        if q is not None:
            q.data = bytes(data)
        return q

    def start(self, g, now, q, peer=b""):
        from cache_tier import CacheTierError

        while True:
            try:
                request = self.refused(g.over.parse_request, q.data)
            except CacheTierError:
                self.counted["parse_request"] += 1
                continue
            out = self.refused(g.over.start, now, request, peer)
            if out.status != "memory" or out.exchange:
                break
            self.counted["start"] += 1  # nothing was changed: asked again
        g.number = max(g.number, out.exchange)
        return self.told(g, now, "start", out.exchange, out, q.head_len)

    def told(self, g, now, name, x, out, used=0):
        """What a call answered. Where memory ran out in its middle the exchange is ended, and nothing more is known of it."""
        it = self.replay.real.Out(out.status, exchange=x)
        if out.status == "memory":
            self.counted[name] += 1
            it.status, it.used, it.client, it.origin = "done", used, "truncated" if name in ("start", "poll") else "nothing", "close_origin"
            it.wakes = list(dict.fromkeys([*out.wakes, *self.ends(g, now, x)]))
            g.ended.add(x)
            g.fresh.add(x)
            return it
        for word in "used client origin to_origin body_follows last at found wakes purges evicted events".split():
            setattr(it, word, getattr(out, word))
        it.data = list(out.pieces)
        return it

    def ends(self, g, now, x):
        """Both sides of an exchange end: whom that wakes."""
        outs = [self.refused(g.over.client_closed, now, x), self.refused(g.over.origin_closed, now, x, "failed")]
        outs += [g.over.client_closed(now, x), g.over.origin_closed(now, x, "failed")]  # (what was told without memory was done all the same)
        return [y for out in outs for y in out.wakes if y != x]

    def over(self, name, g, now, x, *given):
        return self.told(g, now, name, x, self.refused(getattr(g.over, name), now, x, *given))

    def origin_closed(self, g, now, x, why):
        return self.over("origin_closed", g, now, x, why) if why in self.replay.real.WHY else self.replay.real.Out("bad_argument")

    def purges(self, g, name, given):
        """A purge is made again where there was no memory to say what it did."""
        out = self.refused(getattr(g.over, name), given)
        again = getattr(g.over, name)(given) if out.status == "memory" else None
        wakes = out.wakes
        out = again or out
        out.wakes = list(dict.fromkeys([*wakes, *out.wakes]))
        return self.told(g, None, name, None, out)

    def purge(self, g, url):
        return self.purges(g, "purge", url)

    def purge_all(self, g, now):
        return self.purges(g, "purge_all", now)

    def stop(self, g):
        g.over.stop()

    def counts(self, g):
        return g.over.exchanges(), 0


def over(name):
    return lambda self, g, now, x, *given: self.over(name, g, now, x, *given)


for it in ("poll", "request_data", "response_head", "response_data", "client_closed"):
    setattr(Face, it, over(it))


def world_of(face, seed):
    """The second judge's world, which knows of those that were ended."""
    from . import oracle

    class World(oracle.Judged):
        def call(self, name, *given):
            out = super().call(name, *given)
            for it in self.state.values() if self.g.fresh else ():
                it["awake"] = True
            for x in self.g.fresh:
                self.origins.pop(x, None)
                if x in self.state and name not in ("start", "poll"):
                    self.gone(self.state[x]["client"], x, "left")
            self.g.fresh.clear()
            return out

        def wrong(self, x, *told):
            if x not in self.g.ended:
                super().wrong(x, *told)

    return World(seed, face, steps=STEPS)


def tried(face, seed):
    """How many calls a history has, and what is wrong with it."""
    face.refusing.refusing_begins(seed)
    world = world_of(face, seed)
    try:
        world.runs()
        left = world.g.over.exchanges()
        told = f"{left} are open at the end" if left else world.faults[0] if world.faults else ""
    except Exception as error:
        told = f"raises {type(error).__name__} {error}"
    world.g.over.close()
    return len(world.calls), told


def run(histories, part, seed):
    from cache_tier import raw

    refusing = ctypes.CDLL(os.environ[REFUSING])
    refusing.refusing_begins.argtypes, refusing.refusing_some.argtypes = [ctypes.c_uint64], [ctypes.c_uint32]
    refusing.refusing_asked.restype = refusing.refusing_refused.restype = ctypes.c_uint64
    face, calls, wrong = Face(refusing, part), 0, 0
    raw.loaded(None)
    if not refusing.refusing_finds(os.path.basename(os.environ["CACHE_TIER_LIBRARY"]).encode()):
        print("the library isn't found")
        return 1
    for it in range(seed, seed + histories):
        count, told = tried(face, it)
        calls += count
        if told:
            wrong += 1
            print(f"history {it}: {told}", flush=True)
    few = refusing.refusing_refused()
    print(f"{histories} histories, {calls} calls, {few} of {refusing.refusing_asked()} allocations refused; {sum(face.counted.values())} calls said so; {wrong} wrong")
    return int(bool(wrong) or not few)


def main(histories=160, part=100, seed=0):
    if REFUSING in os.environ:
        return run(histories, part, seed)
    library = os.environ["CACHE_TIER_LIBRARY"]
    if not os.path.exists(library) or not shutil.which("gcc"):
        print(f"passed over, since {library} or gcc isn't there: tools/reference/gateway/refuse_face.py")
        return 0
    with tempfile.TemporaryDirectory() as room:
        made, source = os.path.join(room, "refusing.so"), os.path.join(os.path.dirname(os.path.abspath(__file__)), "refusing.c")
        subprocess.run(["gcc", "-O1", "-shared", "-fPIC", "-Wall", "-Wextra", "-o", made, source, "-ldl"], check=True)
        words = [sys.executable, "-B", os.path.abspath(__file__), *map(str, (histories, part, seed))]
        return subprocess.run(words, env={**os.environ, "LD_PRELOAD": made, REFUSING: made}, check=False).returncode


if __name__ == "__main__":
    sys.exit(main(*[int(it) for it in sys.argv[1:]]))
