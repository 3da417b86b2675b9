"""The requests of logs as a trace wants them: each with the length of its body, and with its key in hex."""
import collections
import zlib

from .records import Removal

# What a trace has for a request.
Asked = collections.namedtuple("Asked", "moment key size lifetime")


class Waiting:
    """A request in the order of the log, whose length may still be awaited."""

    def __init__(self, made):
        self.made, self.length = made, 0 if isinstance(made, Removal) else made.bytes


def with_lengths(made, passed):
    """Yields requests and removals in their order, each with a length. A request whose line gives none has the length of the key's
    last whole response, or waits, and all after it, for the next; what never gets a length is counted and left out."""
    last, waiting, queue = {}, {}, collections.deque()
    for request in made:
        it = Waiting(request)
        if isinstance(request, Removal):
            pass
        elif it.length is not None:
            last[request.key] = it.length
            for earlier in waiting.pop(request.key, ()):
                earlier.length = it.length
        elif request.key in last:
            it.length = last[request.key]
        else:
            waiting.setdefault(request.key, []).append(it)
        queue.append(it)
        while queue and queue[0].length is not None:
            yield queue.popleft()
    yield from (it for it in queue if it.length is not None)
    for it in queue:
        if it.length is None:
            passed[f"{it.made.partial} without a length"] += 1


def scaled(length, scale):
    return length if scale == 1 or length == 0 else max(1, round(length / scale))


def requests(reading, options, taken):
    """Yields an Asked for each request, and a Removal, with their keys in hex, in order."""
    passed, longest = reading.counts.passed, 2**26 if options.max_body is None else options.max_body
    for it in with_lengths(reading.made(), passed):
        key = it.made.key.encode("utf-8", "surrogateescape")
        if options.one_in > 1 and zlib.crc32(key) % options.one_in:
            passed["key not in the sample"] += 1
            continue
        if isinstance(it.made, Removal):
            yield Removal(it.made.moment, key.hex())
            continue
        size = scaled(it.length, options.scale)
        if size > longest:
            passed[f"longer than {longest}"] += 1
            continue
        if it.made.partial:
            taken[it.made.partial] += 1
        yield Asked(it.made.moment, key.hex(), size, it.made.lifetime)
