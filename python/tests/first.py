"""A first hit from Python."""
from cache_tier import Meta, Tier

tier = Tier(max_bytes=1 << 30)
if tier.get(1000, b"/a") is None:  # a miss: fetch it, and store it
    tier.put(1000, b"/a", b"HTTP/1.1 200 OK\r\nContent-Type: text/plain\r\n\r\n", b"hello", Meta.ttl(1000, 60))
stored = tier.get(1030, b"/a")  # a hit
tier.purge(b"/a")  # takes nothing from who holds it
print(bytes(stored.body).decode())
