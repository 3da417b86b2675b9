#!/usr/bin/env python3
"""A caching reverse proxy over the gateway: an example, and what the checks of caching run against. It isn't for load.

usage: examples/proxy.py PORT ORIGIN_PORT [NAME=VALUE ..]

It moves bytes, and nothing else. No rule of HTTP stands here: what is read, stored, served, sent on and purged, and how heads and bodies are framed, is the
gateway's.
NAME=VALUE is an option of the rules or a limit of the gateway; `settings=` has lines of settings, between semicolons. The package is found as any other
(PYTHONPATH=python/src), its library by CACHE_TIER_LIBRARY."""

import asyncio
import collections
import contextlib
import sys
import time

from cache_tier.gateway import Gateways

PATIENCE, KEPT, PARTITIONS, PIECE = 60, 32, 4, 65536


latest = 0


def now():
    """Never less than last time: the host's clock may be set back."""
    global latest
    latest = max(latest, time.time_ns())
    return divmod(latest, 10**9)


def seconds_to(at):
    return max(0, at[0] - time.time() + at[1] / 1e9 + 0.001)


class Origin:
    """The connection to the origin of one exchange."""

    def __init__(self, mover, handle, request, is_again):
        self.mover, self.handle, self.is_again, self.unsent, self.wire, self.has_head, self.rest = mover, handle, is_again, [request], None, False, b""
        self.goes_on = asyncio.Event()
        self.task = asyncio.create_task(self.runs())
        mover.tasks.add(self.task)
        self.task.add_done_callback(mover.tasks.discard)

    def write(self, data):
        self.unsent.append(data)
        if self.wire:
            self.wire[1].writelines(self.unsent)
            self.unsent = []

    async def runs(self):
        why, is_kept, came = "failed", False, False
        with contextlib.closing(self), contextlib.suppress(OSError):
            is_kept, self.wire = await self.mover.connects(self.is_again)
            self.write(b"")
            while data := await self.wire[0].read(PIECE):
                came = True
                if await self.gives(data):
                    return
                await asyncio.sleep(0)  # others have their turn, where more is there already
            why = "clean"
        if self.mover.origins.get(self.handle) is self:
            why = "unused" if is_kept and not came else why
            self.mover.obey(self.handle, self.mover.gateways.origin_closed(now(), self.handle, why))

    async def gives(self, data):
        """Gives what came; whether nothing more is wanted on this connection."""
        gateways, self.rest = self.mover.gateways, self.rest + data
        while self.rest:
            self.goes_on.clear()
            out = (gateways.response_data if self.has_head else gateways.response_head)(now(), self.handle, self.rest)
            self.rest = self.rest[out.used :]
            self.mover.obey(self.handle, out)
            if self.mover.origins.get(self.handle) is not self or out.status in ("no_exchange", "wrong_phase"):
                return True
            begins = out.origin == "receive_body"
            self.has_head = self.has_head or begins
            if out.status == "blocked":
                await self.goes_on.wait()
            elif not out.used and not begins:
                break
        return False

    def close(self):
        if self.wire:
            self.wire[1].close()
            self.wire = None


class Mover:
    def __init__(self, origin, options):
        self.gateways = Gateways(PARTITIONS, now(), **options)
        self.origin, self.origins, self.clients, self.tasks, self.kept, self.broken = origin, {}, {}, set(), collections.deque(), set()

    async def connects(self, is_again):
        """A kept connection on which nothing came, or a new one, as for what is sent again. What came on an idle one closes it."""
        while self.kept and not is_again:
            reader, writer = self.kept.pop()
            if not reader.at_eof() and not writer.is_closing() and not reader._buffer:
                return True, (reader, writer)
            writer.close()
        return False, await asyncio.open_connection("127.0.0.1", self.origin)

    def keeps(self, wire):
        self.kept.append(wire)
        if len(self.kept) > KEPT:
            self.kept.popleft()[1].close()

    def obey(self, handle, out):
        """What an answer asks besides of its own client."""
        if out.status == "memory":  # perhaps in the middle: its exchange is ended, and all others look
            self.broken.add(handle)
            for it in self.clients.values():
                it.set()
        for it in out.wakes:
            if it in self.clients:
                self.clients[it].set()
            else:
                self.obey(it, self.gateways.poll(now(), it))
        origin = self.origins.get(handle)
        if out.origin == "send_data" and origin:
            origin.write(out.to_origin)
        elif out.origin == "continue" and origin:
            origin.goes_on.set()
        elif out.origin in ("send_request", "close_origin", "reusable"):
            self.ends(handle, self.origins.pop(handle, None), out)
        if out.at and handle not in self.clients and handle in self.origins:
            asyncio.get_running_loop().call_later(seconds_to(out.at), self.is_due, handle)

    def ends(self, handle, origin, out):
        """The connection of an exchange is over, or is another."""
        if origin and origin.wire and out.origin == "reusable":
            origin.wire = self.keeps(origin.wire)
        if origin and origin.task is not asyncio.current_task():
            origin.task.cancel()
        if out.origin == "send_request":
            self.origins[handle] = Origin(self, handle, out.to_origin, is_again=origin is not None)

    def is_due(self, handle):
        """The moment of an exchange whose client is gone."""
        if handle in self.origins and handle not in self.clients:
            self.obey(handle, self.gateways.poll(now(), handle))

    async def serves(self, reader, writer):
        rest = bytearray()
        with contextlib.closing(writer), contextlib.suppress(OSError, asyncio.TimeoutError):
            while await self.answers(reader, writer, rest) == "end":
                pass

    async def answers(self, reader, writer, rest):
        """Moves the bytes of one exchange; how it ended."""
        looked, feeding = 0, None
        while (request := self.gateways.parse_request(bytes(rest), looked)) is None:
            looked = len(rest)
            if not await self.grows(reader, rest):
                return "close"
        handle, out = self.gateways.start(now(), request, b"127.0.0.1")
        del rest[: out.used]
        woken = self.clients[handle] = asyncio.Event()
        if out.body_follows:
            feeding = asyncio.create_task(self.feeds(handle, reader, rest))
        try:
            while True:
                self.obey(handle, out)
                if handle in self.broken:
                    self.obey(handle, self.gateways.origin_closed(now(), handle, "failed"))
                    return "truncated"
                writer.writelines(out.pieces)
                await writer.drain()
                if out.client != "wait":
                    return out.client
                with contextlib.suppress(asyncio.TimeoutError):
                    await asyncio.wait_for(woken.wait(), seconds_to(out.at) if out.at else PATIENCE)
                woken.clear()  # before the call: what wakes it from now on counts
                out = self.gateways.poll(now(), handle)
        finally:
            if feeding:
                feeding.cancel()
            del self.clients[handle]
            self.obey(handle, self.gateways.client_closed(now(), handle))
            self.broken.discard(handle)

    async def feeds(self, handle, reader, rest):
        """The body of a request."""
        while True:
            out = self.gateways.request_data(now(), handle, bytes(rest))
            del rest[: out.used]
            self.obey(handle, out)
            if out.last or out.status != "done":
                return
            if not out.used and not await self.grows(reader, rest):
                return self.obey(handle, self.gateways.client_closed(now(), handle))

    async def grows(self, reader, rest):
        rest += (data := await asyncio.wait_for(reader.read(PIECE), PATIENCE))
        return bool(data)


def option(text):
    name, _, value = text.partition("=")
    return name, value.replace(";", "\n") if name == "settings" else value == "True" if value in ("True", "False") else int(value)


async def main(port, origin, options):
    mover = Mover(origin, options)
    async with await asyncio.start_server(mover.serves, "127.0.0.1", port, backlog=512) as server:
        await server.serve_forever()


if __name__ == "__main__":
    if len(sys.argv) < 3:
        sys.exit(__doc__)
    asyncio.run(main(int(sys.argv[1]), int(sys.argv[2]), dict(option(it) for it in sys.argv[3:])))
