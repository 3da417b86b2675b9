#!/usr/bin/env python3
"""A caching reverse proxy, a mover of bytes round the gateway: pump.py PORT ORIGIN_PORT [NAME=VALUE ..], as examples/proxy.py. Connections to the
origin are kept where the gateway says that they are reusable."""

import asyncio
import collections
import contextlib
import os
import sys
import time

if not __package__:
    sys.path.insert(0, os.path.dirname(os.path.dirname(os.path.abspath(__file__))))
    __package__ = "gateway"
    import gateway  # noqa: F401
from .gateways import Gateways
from .values import Limits

PATIENCE, KEPT, PARTITIONS = 60, 32, 4


def now():
    return divmod(time.time_ns(), 10**9)


class Origin:
    """The connection to the origin of one exchange."""

    def __init__(self, pump, handle, head, is_again):
        self.is_again = is_again
        self.pump, self.handle, self.queue, self.wire, self.body, self.rest = pump, handle, [head], None, False, b""
        self.goes_on = asyncio.Event()
        self.goes_on.set()
        self.task = asyncio.create_task(self.run())
        pump.tasks.add(self.task)
        self.task.add_done_callback(pump.tasks.discard)

    def write(self, data):
        self.queue.append(data)
        if self.wire:
            self.wire[1].writelines(self.queue)
            self.queue = []

    async def run(self):
        why, is_kept, came = "failed", False, False
        try:
            is_kept, self.wire = await self.pump.connect(self.is_again)
            self.write(b"")
            while data := await self.wire[0].read(65536):
                came = True
                if await self.gives(data):
                    return
                await asyncio.sleep(0)  # others have their turn, where more is there already
            why = "unused" if is_kept and not came else "clean"
        except OSError:
            why = "unused" if is_kept and not came else why
        finally:
            self.close()
        if self.pump.origins.get(self.handle) is self:
            self.pump.obey(self.handle, self.pump.g.origin_closed(now(), self.handle, why))

    async def gives(self, data):
        """Whether nothing more is wanted."""
        g, self.rest = self.pump.g, self.rest + data
        while self.rest:
            out = (g.response_data if self.body else g.response_head)(now(), self.handle, self.rest)
            self.rest = self.rest[out.used :]
            if out.status == "blocked":
                self.goes_on.clear()
            self.pump.obey(self.handle, out)
            if out.origin in ("send_request", "close_origin", "reusable") or out.status in ("no_exchange", "wrong_phase"):
                return True
            self.body = self.body or out.origin == "receive_body"
            if out.status == "blocked":
                await self.goes_on.wait()
            elif not out.used and out.origin != "receive_body":
                break
        return False

    def keep(self):
        """The connection may serve another exchange."""
        wire, self.wire = self.wire, None
        self.pump.keeps(wire)

    def close(self):
        if self.wire:
            self.wire[1].close()
            self.wire = None


class Pump:
    def __init__(self, origin, options, max_bytes):
        self.g = Gateways(PARTITIONS, os.urandom(16), now(), Limits(max_bytes=max_bytes // PARTITIONS), options.pop("settings", ""), **options)
        self.origin, self.origins, self.events, self.tasks, self.kept = origin, {}, {}, set(), collections.deque()

    async def connect(self, is_again):
        """A kept connection on which nothing came, or a new one. What came on an idle connection closes it."""
        while self.kept and not is_again:
            reader, writer = self.kept.pop()
            if not reader.at_eof() and not writer.is_closing() and not reader._buffer:
                return True, (reader, writer)
            writer.close()
        return False, await asyncio.open_connection("127.0.0.1", self.origin)

    def keeps(self, wire):
        if wire and len(self.kept) < KEPT:
            self.kept.append(wire)
        elif wire:
            wire[1].close()

    def obey(self, handle, out):
        for it in out.wakes:
            if it in self.events:
                self.events[it].set()
            elif it in self.origins:
                self.obey(it, self.g.poll(now(), it))
        origin = self.origins.get(handle)
        if out.origin == "send_data":
            origin.write(out.to_origin)
        elif out.origin == "continue" and origin:
            origin.goes_on.set()
        elif out.origin in ("send_request", "close_origin", "reusable"):
            self.ends(handle, origin, out)
        if out.at and handle not in self.events and handle in self.origins:
            asyncio.get_running_loop().call_later(max(0, out.at[0] - now()[0] + 1), self.is_due, handle)

    def ends(self, handle, origin, out):
        self.origins.pop(handle, None)
        if origin and out.origin == "reusable":
            origin.keep()
        if origin and origin.task is not asyncio.current_task():
            origin.task.cancel()
        if out.origin == "send_request":
            self.origins[handle] = Origin(self, handle, out.to_origin, origin is not None)

    def is_due(self, handle):
        """Of an exchange whose client is gone."""
        if handle in self.origins and handle not in self.events:
            self.obey(handle, self.g.poll(now(), handle))

    # ---- clients

    async def serves(self, reader, writer):
        rest = bytearray()
        with contextlib.closing(writer), contextlib.suppress(OSError, asyncio.TimeoutError):
            while await self.answers(reader, writer, rest) == "end":
                pass

    async def answers(self, reader, writer, rest):
        looked, feeding = 0, None
        while (request := self.g.parse_request(bytes(rest), looked)) is None:
            looked = len(rest)
            if not await self.grows(reader, rest):
                return "close"
        handle, out = self.g.start(now(), request, b"127.0.0.1")
        del rest[: out.used]
        event = self.events[handle] = asyncio.Event()
        if out.body_follows:
            feeding = asyncio.create_task(self.feeds(handle, reader, rest))
        try:
            while True:
                self.obey(handle, out)
                writer.writelines(out.data)
                await writer.drain()
                if out.client != "wait":
                    return out.client
                await self.sleep(event, out.at)
                event.clear()  # before the call: what wakes it from now on counts
                out = self.g.poll(now(), handle)
        finally:
            if feeding:
                feeding.cancel()
            del self.events[handle]
            self.obey(handle, self.g.client_closed(now(), handle))

    async def sleep(self, event, at):
        with contextlib.suppress(asyncio.TimeoutError):
            await asyncio.wait_for(event.wait(), max(0, at[0] - now()[0] + 1) if at else PATIENCE)

    async def feeds(self, handle, reader, rest):
        while True:
            out = self.g.request_data(now(), handle, bytes(rest))
            del rest[: out.used]
            self.obey(handle, out)
            if out.last or out.status != "done":
                return
            if not out.used and not await self.grows(reader, rest):
                return self.obey(handle, self.g.client_closed(now(), handle))

    async def grows(self, reader, rest):
        rest += (data := await asyncio.wait_for(reader.read(65536), PATIENCE))
        return bool(data)


def option(text):
    name, _, value = text.partition("=")
    return name, value.replace(";", "\n") if name == "settings" else value == "True" if value in ("True", "False") else int(value)


async def main(port, origin, options):
    pump = Pump(origin, options, options.pop("max_bytes", 1 << 28))
    async with await asyncio.start_server(pump.serves, "127.0.0.1", port, backlog=512) as server:
        await server.serve_forever()


if __name__ == "__main__":
    asyncio.run(main(int(sys.argv[1]), int(sys.argv[2]), dict(option(it) for it in sys.argv[3:])))
