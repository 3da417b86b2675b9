"""Outcomes, as a tier of the plain model or a line of tier-replay tells them."""

import re

import replay_model as model
from promise.room import NOTHING_DONE, STORED_ALONE, in_shard, rows_with, without_row
from promise.calls import ROOM, pick_by_draws

# in the place of one that went without a trace
NO_ENTRY = (bytes(16), None, "no entry", None)
PLAIN = {"opened": "Opened", "begun": "Begun", "written": "Written", "dropped": "Dropped", "end": "End"}


class Unread(Exception):
    """A line that tells no outcome."""


class Shard(list):
    """The rows of a shard, which note what is taken from an end of them."""

    def __init__(self, gone):
        super().__init__()
        self.gone = gone

    def pop(self, at=-1):
        row = super().pop(at)
        self.gone.append(row[0])
        return row


def noted(tier):
    """The tier, which notes from now on in `gone` which entries it evicts."""
    tier.gone = []
    tier.shards = [Shard(tier.gone) for _ in tier.shards]
    return tier


def refusal(op, fault, done=None):
    """What the plain model does before each refusal for want of room: a body that finishes is stored, and taken back."""
    if fault in ROOM and done is None:
        done = STORED_ALONE if op in ("put", "finish") else NOTHING_DONE
    return "Err", fault, done


def answer_of(op, line, evicted):
    """The answer that a line tells. `evicted` gives the entries that went, by their count."""
    if line in PLAIN:
        return (PLAIN[line],)
    if line in ("purged", "nothing"):
        return "Purged", line == "purged"
    if line == "pending":
        return ("Waited", None) if op == "poll" else ("Pending",)
    words = line.split(" ")
    if words[0] == "found" and len(words) == 4:
        return "Found", words[1] == "fresh", words[2] == "complete", words[3].removeprefix("lock=")
    if words[0] == "absent":
        return "Absent", words[1].removeprefix("lock=")
    if words[0] in ("waited", "uncacheable"):
        return words[0].capitalize(), words[1]
    if words[0] == "bytes":
        return "Bytes", b"" if words[1] == "-" else bytes.fromhex(words[1])
    ended = re.fullmatch(r"(?:revalidated|finished (\d+)) evicted=(\d+)", line)
    if not ended:
        raise Unread(line)
    gone = evicted(int(ended[2]))
    return ("Revalidated", gone) if ended[1] is None else ("Finished", int(ended[1]), gone)


def by_tier(tier, fault, op, given):
    """What a tier of the plain model answers; `fault` is the class of its faults."""
    del tier.gone[:]

    def evicted(count):
        return tuple(tier.gone[:count]) + (NO_ENTRY,) * (count - len(tier.gone))

    try:
        return "Ok", answer_of(op, getattr(tier, op)(**given), evicted)
    except fault as it:
        return refusal(op, *it.args)


def by_line(line, op, s, before, entering, words):
    """What a line tells. It has only the count of the entries that went: they are those that the words of the generator pick."""
    fault = re.fullmatch(r"fault (\d+) (\w+)", line)
    if fault:
        if model.Fault.NUMBERS.get(fault[2], 0) not in (0, int(fault[1])):
            raise Unread(line)
        return refusal(op, fault[2])

    def evicted(count):
        found, gone = rows_with(entering, before.changes), []
        for _ in range(min(count, len(found))):
            gone.append(in_shard(s.shards, pick_by_draws(s.shards, found, words), found)[-1][0])
            found = without_row(gone[-1], found)
        return tuple(gone) + (NO_ENTRY,) * (count - len(gone))

    return "Ok", answer_of(op, line, evicted)
