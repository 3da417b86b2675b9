"""Requests, and the form of a row: that part of Promise.antt, each function named as there. What a request holds of the lock is (no_lock,),
(holds, permit) or (waits, permit, moment of its first poll); its reader is (closed,), (unread, bytes), (spent,) or (streaming, number, place)."""

import dataclasses
from typing import NamedTuple

from promise.room import NO_NEEDS, NOTHING_DONE, SOME_MEMORY, Needs

NO_LOCK, CLOSED, SPENT = ("no_lock",), ("closed",), ("spent",)


@dataclasses.dataclass(frozen=True)
class Request:
    entry: tuple
    asks: bool
    phase: str = "cache_key"
    hold: tuple = NO_LOCK
    waited: object = None
    gave_read: bool = False
    seen: object = None
    write: object = None
    reader: tuple = CLOSED


class EventRow(NamedTuple):
    outcome: tuple
    changes: list
    request: object
    needs: Needs


def ok(*answer):
    return "Ok", answer


def err(fault, done=None):
    return "Err", fault, done


def refused(q, fault):
    return EventRow(err(fault), [], q, NO_NEEDS)


def answer_alone(outcome):
    return EventRow(outcome, [], None, NO_NEEDS)


def unread_row(q):
    return EventRow(err("Memory", NOTHING_DONE), [], q, SOME_MEMORY)
