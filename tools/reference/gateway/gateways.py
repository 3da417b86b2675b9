"""Partitions: gateways of one lock each, by the digest of the request's first key. A lock is let go before another is taken; what an unsafe method
changes is purged in every partition before its answer's pieces are given."""

import threading

from cache_tier import Digest

from . import gateway as gw


class Gateways:
    """As many gateways as `count`. A handle is the partition and the number of an exchange there."""

    def __init__(self, count, secret, started=(0, 0), limits=None, settings="", **options):
        make = lambda i: gw.Gateway(secret + b"%d" % i, started, limits, settings, **options)
        self.parts = [make(i) for i in range(count)]
        self.locks = [threading.Lock() for _ in self.parts]
        self.purging = set()  # handles whose answer waits until other partitions were purged

    def partition(self, key):
        return Digest.of(key).partition(len(self.parts))

    def parse_request(self, data, looked=0):
        """Pure: no lock is held."""
        return gw.parse_request(self.parts[0], data, looked)

    def start(self, now, request, peer=b""):
        """The handle, and the Out."""
        part = self.partition(request.key)
        out = self.within(part, gw.start, now, request, peer)
        return (part, out.exchange), out

    def poll(self, now, handle):
        """Nothing is given while other partitions are purged: then it is woken."""

        def polls(part, now, x):
            is_sending = x in part.open and part.open[x].client != "done"
            return gw.Out(exchange=x, client="wait") if is_sending and handle in self.purging else gw.poll(part, now, x)

        return self.call(polls, now, handle)

    def request_data(self, now, handle, data):
        return self.call(gw.request_data, now, handle, data)

    def response_head(self, now, handle, data):
        return self.call(gw.response_head, now, handle, data)

    def response_data(self, now, handle, data):
        return self.call(gw.response_data, now, handle, data)

    def origin_closed(self, now, handle, why):
        return self.call(gw.origin_closed, now, handle, why)

    def client_closed(self, now, handle):
        return self.call(gw.client_closed, now, handle)

    def purge(self, url):
        key, _ = self.parts[0].rules.url_key(url)
        if key is None:
            return gw.Out("bad_argument")
        return self.within(self.partition(key), gw.purge_key, key)

    def purge_all(self, now):
        """Of every partition, one after the other."""
        out = gw.Out()
        for part in range(len(self.parts)):
            told = self.within(part, gw.purge_all, now)
            out.wakes += told.wakes
            out.events += told.events
        return out

    def stop(self):
        for part, lock in zip(self.parts, self.locks):
            with lock:
                gw.stop(part)

    def call(self, of, now, handle, *given):
        return self.within(handle[0], of, now, handle[1], *given)

    def within(self, part, of, *given):
        """One call under one lock; then, with none held, each key that it names is purged in its own partition. Of the Out the exchanges to wake
        are handles."""
        with self.locks[part]:
            out = of(self.parts[part], *given)
            handle = (part, out.exchange)
            if out.purges:
                self.purging.add(handle)
        out.wakes = [(part, x) for x in out.wakes]
        for key in out.purges:
            other = self.partition(key)
            if other != part:
                with self.locks[other]:
                    told = gw.purge_key(self.parts[other], key)
                out.wakes += [(other, x) for x in told.wakes]
                out.events += told.events
        if out.purges:
            with self.locks[part]:
                self.purging.discard(handle)
        return out
