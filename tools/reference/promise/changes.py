"""What calls change, and what the changes leave: the first two parts of Promise.antt, each function named as there. Changes are a list, the oldest
first; one is a tuple whose first word is its kind."""

import dataclasses
import hashlib
from functools import lru_cache

import replay_model as model


@dataclasses.dataclass(frozen=True)
class Write:
    number: int
    entry: tuple
    meta: object


@dataclasses.dataclass(frozen=True)
class Permit:
    number: int
    key: bytes
    given: int


def begins(write):
    return "begins", write


def appends(number, data, last):
    return "appends", number, data, last


def lands(number, whole):
    return "lands", number, whole


def puts(entry, weight):
    return "puts", entry, weight


def renews(number, entry, meta):
    return "renews", number, entry, meta


def weighs(entry, weight):
    return "weighs", entry, weight


def takes(entry):
    return "takes", entry


def gives(permit):
    return "gives", permit


def ends(number, how):
    return "ends", number, how


# Words on entries and rows of `cache_changes` and `cache_entries`. An entry is (primary hash, variance or none, tag, id or none).


@lru_cache(maxsize=None)
def stored_key(entry):
    return model.key_of(entry)


def alone(entry):
    """The entry of a key has no id."""
    return (*entry[:3], None)


def is_entry_of(key, entry):
    return entry[3] is None and stored_key(entry) == key


@lru_cache(maxsize=None)
def entry_hash(entry):
    return int.from_bytes(hashlib.blake2b(model.packed_entry(entry), digest_size=16).digest()[:8], "big")


def without_row(entry, rows):
    return [row for row in rows if row[0] != entry]


def admitted(entry, weight, rows):
    return [(entry, weight), *without_row(entry, rows)]


def weight_of(entry, rows):
    return next((row[1] for row in rows if row[0] == entry), None)


def reweighed(entry, weight, rows):
    if weight_of(entry, rows) is None:
        return admitted(entry, weight, rows)
    return [(row[0], weight) if row[0] == entry else row for row in rows]


# What they leave.


def has_number(number, write):
    return number == write.number


def with_meta(number, entry, meta, write):
    return dataclasses.replace(write, entry=entry, meta=meta) if has_number(number, write) else write


def bytes_of(number, changes):
    return b"".join(it[2] for it in changes if it[0] == "appends" and it[1] == number)


def size_of(write, changes):
    """What the body that a write is takes: its bytes, what it has outside, and its meta as it is written."""
    return len(bytes_of(write.number, changes)) + write.meta.external + write.meta.length


def weight_for(write, changes):
    return max(1, size_of(write, changes))


def is_done(number, changes):
    return any(it[0] == "appends" and it[1] == number and it[3] or it[0] == "lands" and it[1] == number for it in changes)


def flying_after(key, it, flying):
    """The alive writes of the key in flight after one more change."""
    if it[0] == "begins":
        return [*flying, it[1]] if stored_key(it[1].entry) == key else flying
    if it[0] == "lands":
        return [write for write in flying if not has_number(it[1], write)]
    if it[0] == "renews":
        return [with_meta(*it[1:], write) for write in flying]
    return [] if it[0] == "takes" and is_entry_of(key, it[1]) else flying


def flying(key, changes):
    alive = []
    for it in changes:
        alive = flying_after(key, it, alive)
    return alive


def body_of(key, changes):
    alive, body = [], None
    for it in changes:
        if it[0] == "lands" and it[2]:
            body = next((write for write in alive if has_number(it[1], write)), body)
        elif it[0] == "renews" and body:
            body = with_meta(*it[1:], body)
        elif it[0] == "takes" and is_entry_of(key, it[1]):
            body = None
        alive = flying_after(key, it, alive)
    return body


def shown(key, changes):
    first = flying(key, changes)
    return first[0] if first else body_of(key, changes)


def rows(changes):
    found = []
    for it in changes:
        if it[0] == "puts":
            found = admitted(*it[1:], found)
        elif it[0] == "weighs":
            found = reweighed(*it[1:], found)
        elif it[0] == "takes":
            found = without_row(it[1], found)
    return found


def ended(number, changes):
    return next((it[2] for it in reversed(changes) if it[0] == "ends" and it[1] == number), None)


def waiting(key, changes):
    permit = None
    for it in changes:
        if it[0] == "gives" and it[1].key == key:
            permit = it[1]
        elif it[0] == "ends" and permit and permit.number == it[1]:
            permit = None
    return permit
