"""What a put's response gives, and the head of a begin or of a revalidation, by the plain model's words on heads: what Promise.antt takes from
`tier_model/specs/Response` and `cache_heads/specs/Merged`. Each function is named as there."""

import copy
from functools import lru_cache

import replay_model as model

NOT_READ, TOO_EARLY = ("not_read",), ("too_early",)


def not_kept(reason):
    return "not_kept", reason


def kept(meta):
    return "kept", meta


@lru_cache(maxsize=None)
def reading(data):
    """The head at the front, none where there is none, or `begun` where more bytes may make one."""
    try:
        return model.head_of(data)
    except model.Short:
        return "begun"
    except model.Bad:
        return None


def head_of(data):
    """The plain model's word, where heads are read once."""
    read = reading(data)
    if not isinstance(read, model.Head):
        raise model.Bad if read is None else model.Short
    return read


def changed(meta, **fields):
    """A meta with other fields, and so with the length that it has as it is written."""
    other = copy.copy(meta)
    vars(other).update(fields)
    other.length = len(model.packed_internal(other)) + len(model.packed_head(other))
    return other


def with_provenance_of(old, meta):
    return meta if old is None else changed(meta, origin=old.origin)


def judged(at, head):
    until = model.kept_until(head, at)
    if until is None:
        return not_kept("OriginNotCache")
    return TOO_EARLY if until < 0 else kept(model.Meta(head, until, at))


def has_own_body(status):
    return status >= 200 and status != 304


def as_given(said, head):
    return kept(model.Given(head, said)) if has_own_body(head.status) else NOT_READ


def judged_with(said, at, head):
    return judged(at, head) if said is None else as_given(said, head)


def whole_head(data):
    """The bytes are one head with nothing after it."""
    read = reading(data)
    return read if isinstance(read, model.Head) and read.length == len(data) else None


def judged_of(call):
    """What a begin's head gives, where it was read."""
    if not call.read:
        return None
    head = whole_head(call.given["head"])
    return NOT_READ if head is None else judged_with(call.given.get("said"), call.given["at"], head)


def renewed_by(old, found):
    """With the creation and the provenance of what it renews, and what that has outside."""
    return kept(changed(found[1], created=old.created, origin=old.origin, external=old.external)) if found[0] == "kept" else found


def confirmed_of(old, call):
    """What the head of a revalidation gives, where it was read, by the meta that was found (RFC 9111, 4.3.4)."""
    if old is None or not call.read:
        return None
    head, said = whole_head(call.given["head"]), call.given.get("said")
    if head is None:
        return NOT_READ
    if said is not None:
        return renewed_by(old, as_given(said, head)) if head.status < 600 else NOT_READ
    return renewed_by(old, judged(call.given["at"], model.Merged(old, head))) if head.status == 304 else NOT_READ


def read_by(call):
    """What a put's response gives, where it was read: its verdict, and with `Stored` the bytes of its body and their meta."""
    if not call.read:
        return None
    data, said = b"".join(call.given["pieces"]), call.given.get("said")
    head = reading(data)
    if head is None:
        return ("BadHead",)
    if head == "begun":
        return ("Incomplete",)
    body = data[head.length :]
    length = None if said is not None else model.body_length(head)
    if length is not None and len(body) < length:
        return ("Incomplete",)
    found = judged_with(said, call.given["at"], head)
    if found[0] == "kept":
        return "Stored", body[:length], found[1]
    if found == NOT_READ:
        return ("BadHead",)
    return ("BeforeEpoch",) if found == TOO_EARLY else ("Uncacheable", found[1])
