"""An HTTP cache tier: what it finds, calls fresh, keeps and evicts is proved. This package calls the compiled library; of the package
itself nothing is proved.

    from cache_tier import Meta, Tier
    tier = Tier(max_bytes=1 << 30)

    def load(url, now, fetch):
        stored = tier.get(now, url)
        if stored:                                       # a hit
            return bytes(stored.body)
        head, body = fetch(url)                          # a miss
        tier.put(now, url, head, body, Meta.ttl(now, 60))
        return body

A tier and partitions may be called from any thread: each call holds a lock of its own. A moment is whole seconds, or (seconds, nanoseconds). A key is
the bytes of a name, or a Digest. Views that are lent are read-only and keep what they show: they hold after their request, their tier and their
Response are gone. A call that is refused raises CacheTierError; a number out of its range, and a call on what is closed, raise ValueError.
"""

from .partitions import Partitions, Request
from .response import Response
from .tier import Tier
from .words import CacheTierError, Digest, Entry, Lookup, LruRestored, Meta, Stats, Stored

__version__ = "0.1.0"
__all__ = ["CacheTierError", "Digest", "Entry", "Lookup", "LruRestored", "Meta", "Partitions", "Request", "Response", "Stats", "Stored", "Tier"]
