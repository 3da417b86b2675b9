"""What comes into the order of use, why it doesn't, what goes for it, and what an answer takes: that part of Promise.antt, each function named as
there. An outcome is ("Ok", (answer, ..)) or ("Err", fault, done), where done is none at a fault that tells none, else (stored, admitted, evicted)."""

from typing import NamedTuple

from promise.changes import entry_hash, puts, rows, weighs, weight_of, without_row

MOST_ROWS = 2415919104
NOTHING_DONE, STORED_ALONE = (False, False, ()), (True, False, ())
NOTHING = ("nothing",)


class Settings(NamedTuple):
    shards: int
    limit: int
    watermark: object
    age: int
    wait: object


def all_done(evicted):
    return True, True, evicted


def done_of(outcome):
    return outcome[2] or NOTHING_DONE


def a_use(entry, weight):
    return "a_use", entry, weight


def a_body(entry, weight):
    return "a_body", entry, weight


def a_renewal(entry, weight):
    return "a_renewal", entry, weight


def enters(entering, changes):
    if entering == NOTHING:
        return []
    kind, entry, weight = entering
    if kind == "a_use":
        found = weight_of(entry, rows(changes))
        return [puts(entry, weight if found is None else found)]
    return [puts(entry, weight) if kind == "a_body" else weighs(entry, weight)]


def rows_with(entering, changes):
    return rows(changes + enters(entering, changes))


def shard_bound(shards):
    return (2**64 - 1) // shards


def shard_of(shards, entry):
    return entry_hash(entry) % shards


def all_weights(found):
    return sum(row[1] for row in found)


def in_shard(shards, at, found):
    return [row for row in found if shard_of(shards, row[0]) == at]


def beside(s, entry, found):
    return in_shard(s.shards, shard_of(s.shards, entry), found)


def fits_beside(s, entry, found):
    mine = beside(s, entry, found)
    return all_weights(mine) <= shard_bound(s.shards) and len(mine) <= shard_bound(s.shards)


def would_be_heavy(s, entry, weight, found):
    return shard_bound(s.shards) < all_weights(without_row(entry, beside(s, entry, found))) + weight


def would_be_long(s, entry, found):
    return shard_bound(s.shards) <= len(beside(s, entry, found)) or MOST_ROWS <= len(found)


def would_be_full(s, entry, found):
    return 2**64 <= shard_of(s.shards, entry) + s.shards * len(beside(s, entry, found))


def keeps_out(s, entry, weight, done, fault, found):
    name, told = fault
    heavy, is_new = would_be_heavy(s, entry, weight, found), weight_of(entry, found) is None
    long, full = would_be_long(s, entry, found), would_be_full(s, entry, found)
    why = {"TooHeavy": heavy, "TooLong": is_new and long, "NumbersSpent": is_new and full, "Memory": is_new and not (heavy or long or full)}
    return told == done and why.get(name, False)


def is_over(s, found):
    return s.limit < all_weights(found) or s.watermark is not None and s.watermark < len(found)


def is_last(entry, found):
    return bool(found) and found[-1][0] == entry


def go_in_turn(s, over, gone, found):
    for entry in gone:
        if not is_over(s, found) or not is_last(entry, beside(s, entry, found)):
            return False
        found = without_row(entry, found)
    return is_over(s, found) == over


def far_of(outcome):
    """How far a call came, as its outcome tells: (whole_way, entries), (cut, entries) or (kept_out, fault)."""
    if outcome[0] == "Ok":
        return "whole_way", outcome[1][-1] if outcome[1][0] in ("Finished", "Revalidated") else ()
    done = done_of(outcome)
    return ("cut", done[2]) if done[1] else ("kept_out", outcome[1:])


def gone_by(far):
    return () if far[0] == "kept_out" else far[1]


def comes_so(s, entering, far, changes):
    if entering == NOTHING:
        return True
    kind, entry, weight = entering
    if far[0] == "kept_out" and kind != "a_use":
        return kind == "a_body" and keeps_out(s, entry, weight, STORED_ALONE, far[1], rows(changes))
    found = rows_with(entering, changes)
    return fits_beside(s, entry, found) and (kind == "a_use" or go_in_turn(s, far[0] == "cut", far[1], found))


def stays_out(s, entering, fault, found):
    kind = entering[0]
    if kind == "a_use":
        return weight_of(entering[1], found) is None and keeps_out(s, *entering[1:], NOTHING_DONE, fault, found)
    return kind == "a_renewal" and keeps_out(s, *entering[1:], NOTHING_DONE, fault, found)


class Needs(NamedTuple):
    memory: bool = False
    number: bool = False
    entering: tuple = NOTHING


NO_NEEDS, SOME_MEMORY = Needs(), Needs(memory=True)


def some_ran_out(s, used, needs, outcome, changes):
    if outcome == ("Err", "Memory", NOTHING_DONE) and needs.memory:
        return True
    if outcome == ("Err", "NumbersSpent", NOTHING_DONE) and needs.number and 2**64 - 1 <= used:
        return True
    return outcome[0] == "Err" and stays_out(s, needs.entering, outcome[1:], rows(changes))
