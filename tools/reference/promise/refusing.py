"""Tiers that refuse where they could answer: of the events of one kind those whose right answer is of a form, with one fault. Those of ALLOWED ran out of
memory where an answer takes some, which nobody outside can know better; the others have no such excuse."""

import copy
from typing import NamedTuple

import replay_model as model
from promise import told
from promise.room import NOTHING_DONE, STORED_ALONE

MADE_UP = (bytes(16), None, "made up", None)


class Refusing(NamedTuple):
    name: str
    op: str
    # the beginning of the outcome that it has none of
    right: tuple
    outcome: tuple
    # whether the response or head was read before
    read: bool = True
    effect: object = None


def fault(name, done=NOTHING_DONE):
    return "Err", name, done


def takes_back(tier, given, outcome):
    """What was stored of the key is removed."""
    tier.remove(model.key_of(given["entry"]))
    tier.untrack(given["entry"])
    return outcome


def evicts_one(tier, given, outcome):
    """The first of those that would go went, in a tier that admitted the entry; then what was stored is taken back."""
    went = outcome[2][2][0]
    tier.untrack(went)
    if went[3] is None:
        tier.remove(model.key_of(went))
    return takes_back(tier, given, ("Err", outcome[1], (True, True, (went,))))


WITHOUT_CAUSE = [
    Refusing("a put is too long", "put", ("Ok", "Finished"), fault("TooLong")),
    Refusing("a put is too heavy", "put", ("Ok", "Finished"), fault("TooHeavy")),
    Refusing("a put is too heavy, and is taken back", "put", ("Ok", "Finished"), fault("TooHeavy", STORED_ALONE), effect=takes_back),
    Refusing("a put that ran out of memory tells evictions", "put", ("Ok", "Finished"), fault("Memory", (False, True, (MADE_UP,) * 2))),
    Refusing("a put that may not be kept tells that it stored", "put", ("Ok", "Uncacheable"), fault("Memory", STORED_ALONE)),
    Refusing("a put that may not be kept is out of memory", "put", ("Ok", "Uncacheable"), fault("Memory")),
    Refusing("a put cut short is too heavy", "put", ("Ok", "Finished"), fault("TooHeavy"), effect=evicts_one),
    Refusing("a begin is too heavy", "begin", ("Ok", "Begun"), fault("TooHeavy")),
    Refusing("a begin has no number", "begin", ("Ok", "Begun"), fault("NumbersSpent")),
    Refusing("a begin is in a wrong phase", "begin", ("Ok", "Begun"), ("Err", "WrongPhase", None)),
    Refusing("a bad head is out of memory, read", "begin", ("Err", "BadHead"), fault("Memory")),
    Refusing("a look-up that finds is too long", "look", ("Ok", "Found"), fault("TooLong")),
    Refusing("a look-up that finds has no number", "look", ("Ok", "Found"), fault("NumbersSpent")),
    Refusing("a look-up that gives a permit is too heavy", "look", ("Ok", "Absent", "write"), fault("TooHeavy")),
    Refusing("a look-up that finds nothing is out of memory", "look", ("Ok", "Absent", "none"), fault("Memory")),
    Refusing("a look-up that gives a wait is out of memory", "look", ("Ok", "Absent", "read"), fault("Memory")),
    Refusing("a look-up that gives a wait is too heavy", "look", ("Ok", "Absent", "read"), fault("TooHeavy")),
    Refusing("a revalidation has no number", "revalidate", ("Ok", "Revalidated"), fault("NumbersSpent")),
    Refusing("a revalidation is too heavy", "revalidate", ("Ok", "Revalidated"), fault("TooHeavy")),
    Refusing("a revalidation is not stored", "revalidate", ("Ok", "Revalidated"), ("Err", "NotStored", None)),
    Refusing("an open is too long", "open", ("Ok", "Opened"), fault("TooLong")),
    Refusing("an open is in a wrong phase", "open", ("Ok", "Opened"), ("Err", "WrongPhase", None)),
    Refusing("a purge that finds is out of memory", "purge", ("Ok", "Purged", True), fault("Memory")),
    Refusing("a purge that finds nothing is out of memory", "purge", ("Ok", "Purged", False), fault("Memory")),
    Refusing("a poll is out of memory", "poll", ("Ok", "Waited"), fault("Memory")),
    Refusing("a drop is out of memory", "drop", ("Ok", "Dropped"), fault("Memory")),
    Refusing("a finish is too heavy with nothing done", "finish", ("Ok", "Finished"), fault("TooHeavy")),
    Refusing("a finish of a removed write is out of memory", "finish", ("Err", "WriteRemoved"), fault("Memory")),
    Refusing("a piece is too long", "piece", ("Ok", "Written"), fault("TooLong")),
    Refusing("a piece in a wrong phase is out of memory", "piece", ("Err", "WrongPhase"), fault("Memory")),
    Refusing("a read at an end is out of memory", "read", ("Ok", "End"), fault("Memory")),
    Refusing("a read with nothing new is out of memory", "read", ("Ok", "Pending"), fault("Memory")),
    Refusing("a read is in a wrong phase", "read", ("Ok", "Bytes"), ("Err", "WrongPhase", None)),
]
ALLOWED = [
    Refusing("an open is out of memory", "open", ("Ok", "Opened"), fault("Memory")),
    Refusing("a put is out of memory, unread", "put", ("Ok", "Finished"), fault("Memory"), read=False),
    Refusing("a put is out of memory, read", "put", ("Ok", "Finished"), fault("Memory")),
    Refusing("a begin is out of memory", "begin", ("Ok", "Begun"), fault("Memory")),
    Refusing("a bad head is out of memory, unread", "begin", ("Err", "BadHead"), fault("Memory"), read=False),
    Refusing("a piece is out of memory", "piece", ("Ok", "Written"), fault("Memory")),
    Refusing("a finish is out of memory", "finish", ("Ok", "Finished"), fault("Memory")),
    Refusing("a look-up that finds is out of memory", "look", ("Ok", "Found"), fault("Memory")),
    Refusing("a look-up that gives a permit is out of memory", "look", ("Ok", "Absent", "write"), fault("Memory")),
    Refusing("a revalidation is out of memory, unread", "revalidate", ("Ok", "Revalidated"), fault("Memory"), read=False),
]


def is_met(it, outcome):
    """The outcome is of the form that it has none of; one cut short has two evictions at least."""
    flat = (outcome[0], *(outcome[1] if outcome[0] == "Ok" else outcome[1:]))
    return flat[: len(it.right)] == it.right and (it.effect is not evicts_one or len(flat[-1]) > 1)


class Answers:
    """What such a tier answers, and whether it read the response or head."""

    def __init__(self, refusing, tier, fault):
        self.refusing, self.tier, self.fault = refusing, tier, fault

    def as_ever(self, tier, op, given):
        return told.by_tier(tier, self.fault, op, given)

    def __call__(self, op, given):
        it = self.refusing
        if op != it.op:
            return self.as_ever(self.tier, op, given), True
        right = self.as_ever(copy.deepcopy(self.tier), op, given)
        if not is_met(it, right):
            return self.as_ever(self.tier, op, given), True
        if it.effect is evicts_one:
            return evicts_one(self.tier, given, fault(it.outcome[1], (True, True, right[1][2]))), it.read
        return (it.effect(self.tier, given, it.outcome) if it.effect else it.outcome), it.read
