"""Traces for what others hardly show."""

import json

import replay_model as model
from promise.trial import trace_of


def head(line, *more):
    return "\r\n".join((f"HTTP/1.1 {line}", *more, "", "")).encode()


def fresh_for(seconds):
    return head("200 OK", f"Cache-Control: max-age={seconds}")


def event(op, at, **fields):
    return json.dumps({"op": op, "at": at} | {name: it.hex() if isinstance(it, bytes) else it for name, it in fields.items()}).encode()


def opened_and_looked(at, id):
    return [event("open", at, id=id, key=b"a"), event("look", at, id=id)]


def traces():
    return [*with_an_id(), *merged_twice(), *too_heavy()]


def with_an_id():
    """An entry with an id goes, and the body of its key stays."""
    entry = (*model.event_of(event("purge", 0, key=b"a"))[1]["entry"][:3], 7)
    files = {"lru.data.0": model.packed_array(1) + model.packed_array(2) + model.packed_entry(entry) + model.packed(5)}
    lines = [event("put", 1000, key=b"a", pieces=[(fresh_for(100) + b"abc").hex()]), *opened_and_looked(1000, 1), event("read", 1000, id=1)]
    lines += [event("put", 1000, key=b"a", pieces=[(fresh_for(100) + b"abcd").hex()]), *opened_and_looked(1000, 2), event("read", 1000, id=2)]
    return [trace_of(f"an entry with an id, limit {limit}", ["--limit", str(limit)], b"\n".join(lines), files) for limit in range(58, 72)]


def merged_twice():
    """Two requests confirm what both found, each with the head that it found then."""
    lines = [event("put", 100, key=b"a", pieces=[(fresh_for(1) + b"abc").hex()]), *opened_and_looked(200, 1), *opened_and_looked(200, 2)]
    lines += [event("revalidate", 200, id=1, head=head("304 Not Modified", "Cache-Control: max-age=100"))]
    lines += [event("revalidate", 200, id=2, head=head("304 Not Modified", "ETag: a")), *opened_and_looked(250, 3)]
    return [trace_of("merged twice", ["--limit", "1000"], b"\n".join(lines))]


def too_heavy():
    """Of bodies whose weights a shard can't count together the last is refused, and found no more."""
    far = {"until": 2000, "external": 2**62 - 1}
    lines = [event("put-given", 1000, key=bytes([97 + at]), pieces=[fresh_for(1).hex()], **far) for at in (1, 2, 3, 4, 0)]
    return [trace_of("too heavy together", ["--limit", str(2**64 - 1)], b"\n".join(lines + opened_and_looked(1000, 1)))]
