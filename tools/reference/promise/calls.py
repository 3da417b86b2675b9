"""Calls, and the promise: the last parts of Promise.antt, each function named as there. What is a type there is here a function that gives none where
it holds, else the name of what doesn't."""

from typing import NamedTuple

from promise import rows
from promise.changes import alone, body_of, is_entry_of, puts, shown, size_of, stored_key, weight_of, without_row
from promise.changes import rows as rows_of
from promise.heads import confirmed_of, judged_of, read_by
from promise.requests import Request, answer_alone, err
from promise.room import comes_so, done_of, far_of, gone_by, in_shard, rows_with, shard_of, some_ran_out

ROOM = ("NumbersSpent", "TooHeavy", "TooLong", "Memory")


class Call(NamedTuple):
    """An event, its outcome, and whether its response or head was read."""

    op: str
    given: dict
    outcome: tuple
    read: bool = True


class Now(NamedTuple):
    changes: list
    request: dict


class Came(NamedTuple):
    row: rows.EventRow
    now: Now


def came(number, row, now):
    others = {it: q for it, q in now.request.items() if it != number}
    return Came(row, Now(now.changes + row.changes, others | ({number: row.request} if row.request else {})))


def of_open(number, answer, now):
    """A request's event; where it isn't open there is none."""
    q = now.request.get(number)
    return came(number, answer_alone(err("NoRequest")) if q is None else answer(q, now.changes), now)


def of_key(row, now):
    return Came(row, now._replace(changes=now.changes + row.changes))


def confirmed_by(q, call):
    return confirmed_of(q.seen and q.seen[1], call)


def after(s, call, now):
    at, given, far = call.given["at"], call.given, far_of(call.outcome)
    if call.op == "open":
        return came(given["id"], rows.open_row(now.request.get(given["id"]), Request(given["entry"], given["lock"])), now)
    if call.op == "purge":
        return of_key(rows.purge_row(given["entry"], now.changes), now)
    if call.op == "put":
        return of_key(rows.put_row(given["entry"], read_by(call), far, now.changes), now)
    answers = {
        "look": lambda q, c: rows.look_by(at, q, c),
        "poll": lambda q, c: rows.poll_by(s, at, q, c),
        "begin": lambda q, c: rows.begin_by(judged_of(call), q, c),
        "revalidate": lambda q, c: rows.revalidate_by(confirmed_by(q, call), far, q, c),
        "piece": lambda q, c: rows.piece_by(given["bytes"], given["end"], q, c),
        "finish": lambda q, c: rows.finish_by(far, q, c),
        "read": rows.read_by_reader,
        "drop": lambda q, c: rows.drop_row(q),
    }
    return of_open(given["id"], answers[call.op], now)


def ran_out(outcome):
    return outcome[0] == "Err" and outcome[1] in ROOM and not done_of(outcome)[0]


def now_after(call, now, came_of):
    return now if ran_out(call.outcome) else came_of.now


def now_of(loaded):
    """A tier that began with this order of use, before any call."""
    return Now([puts(*row) for row in reversed(loaded)], {})


def head_found(number, now):
    q = now.request.get(number)
    write = q and shown(stored_key(q.entry), now.changes)
    return write and write.meta


# The promise.


def is_right(s, used, call, before, row):
    if ran_out(call.outcome):
        return None if some_ran_out(s, used, row.needs, call.outcome, before.changes) else "nothing that the answer takes ran out"
    if call.outcome != row.outcome:
        return "another answer"
    return None if comes_so(s, row.needs.entering, far_of(call.outcome), before.changes) else "it doesn't come so far"


def ends_life(key, number, it):
    return it[0] == "takes" and is_entry_of(key, it[1]) or it[0] == "lands" and it[1] == number and not it[2]


def keys_of(changes):
    return {stored_key(it[1].entry) for it in changes if it[0] == "begins"}


def is_alive(key, at, changes):
    """The write that the change there began met no removal of its key since, nor was it given up."""
    it = changes[at]
    return it[0] == "begins" and stored_key(it[1].entry) == key and not any(ends_life(key, it[1].number, later) for later in changes[at + 1 :])


def found(changes):
    for key in keys_of(changes):
        if (shown(key, changes) is not None) != any(is_alive(key, at, changes) for at in range(len(changes))):
            return "found"
    return None


def bodies(changes):
    """Those of all keys, of which there are no more."""
    return [body for body in (body_of(key, changes) for key in keys_of(changes)) if body]


def are_within(s, held, changes):
    if sum(size_of(it, changes) for it in held) > s.limit:
        return "within the limit"
    return "within the watermark" if s.watermark is not None and len(held) > s.watermark else None


def are_tracked(held, changes):
    tracked = rows_of(changes)
    for body in held:
        weight = weight_of(alone(body.entry), tracked)
        if weight is None or size_of(body, changes) > weight:
            return "tracked"
    return None


# Which words pick the entries that go.


def picked(shards, found, a, b):
    """Of the two shards that two words name the longer, and from it on the first that isn't empty."""
    sizes = [len(in_shard(shards, at, found)) for at in range(shards)]
    longer = b % shards if sizes[a % shards] < sizes[b % shards] else a % shards
    around = [(longer + more) % shards for more in range(shards)]
    return next((at for at in around if sizes[at]), longer)


def pick_by_draws(shards, found, words):
    a = words.next()
    return picked(shards, found, a, words.next())


def are_picked(s, gone, found, words):
    for entry in gone:
        if shard_of(s.shards, entry) != pick_by_draws(s.shards, found, words):
            return "another shard than the words pick"
        found = without_row(entry, found)
    return None


def were_drawn(s, call, before, row, words):
    """Draws the words of one call."""
    return are_picked(s, gone_by(far_of(call.outcome)), rows_with(row.needs.entering, before.changes), words)
