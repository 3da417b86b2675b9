#!/usr/bin/env python3
"""Each table of rows_table.py at all that it may be given, a line a table, a letter a row of what is given, as crates/test_gateway writes those of
gateway_rows; and behind them what frames_written.py says. rows_written.py prints them; `--check` compares them with its stdout."""

import os
import sys
from itertools import product

from . import frames_written
from . import rows_table as rows

NO_YES = (False, True)
REUSE = ("bypass", "fresh", "stale", "while-revalidating", "after-validation")
LOOK = "hit hit_and_validate collapse look_past pass unavailable unstored wait conditional full".split()
ENDED = ("", "done", "give-up", "dangling", "transient-error", "age-timeout", "wait-timeout")
STATUS = (200, 304, 399, 400, 403, 404, 410, 500, 503)
ORIGIN = ("idle", "awaiting_head", "storing", "relaying")
WORDS = {
    "wait": "share alone again wait",
    "share": "as_found stale_on_error alone generated",
    "response": "bad relay_and_purge relay_unstored stale_on_error relay revalidate store relay_and_remove",
    "revalidate": "again freshen_and_answer freshen_and_relay answer relay",
    "body": "tail truncate relay begin_tail store",
    "end": "complete end_tail truncate finish",
    "closed": "send_again timeout no_answer end truncate",
    "client": "nothing goes_on truncate close_origin",
}


def letters(words, said):
    return "".join("abcdefghij"[words.index(it)] for it in said)


def looks():
    for found, whole in ((False, False), (True, False), (True, True)):
        given = product(REUSE, ("none", "wait", "write"), *[NO_YES] * 5)
        yield letters(LOOK, (rows.look_row(found, reuse, whole, fresh, past, permit, only, predicted, too_old) for reuse, permit, fresh, past, only, predicted, too_old in given))


def waits():
    yield letters(WORDS["wait"].split(), (rows.wait_row(over, moved, shares, refused, ended) for ended, shares, over, moved, refused in product(ENDED, *[NO_YES] * 4)))
    given = product(LOOK, REUSE, NO_YES, NO_YES)
    said = ((does, rows.share_row(does, *rest)) for does, *rest in given)
    yield letters(WORDS["share"].split(), ("as_found" if does == it else it for does, it in said))


def responses():
    for fetch in ("pass", "unstored", "full", "conditional", "unconditional"):
        given = product(STATUS, *[NO_YES] * 5)
        yield letters(WORDS["response"].split(), (rows.response_row(fetch, *it) for it in given))
    yield letters(WORDS["revalidate"].split(), (rows.revalidate_row(*it) for it in product(STATUS, NO_YES, NO_YES)))
    yield "".join("ny"[rows.may_store(*it)] for it in product(*[NO_YES] * 5))


def bodies():
    for origin in ORIGIN:
        yield letters(WORDS["body"].split(), (rows.body_row(origin, *it) for it in product(*[NO_YES] * 5)))
    yield letters(WORDS["end"].split(), (rows.end_row(*it) for it in product(ORIGIN, NO_YES, NO_YES)))
    for origin in ORIGIN:
        given = product(("clean", "failed", "timeout", "unused"), NO_YES, (b"POST", b"GET"), *[NO_YES] * 3)
        yield letters(WORDS["closed"].split(), (rows.closed_row(origin, *it) for it in given))
    yield letters(WORDS["client"].split(), (rows.client_row(*it) for it in product(ORIGIN, NO_YES, NO_YES)))
    yield "".join("ny"[rows.is_reusable(*it)] for it in product(*[NO_YES] * 4))


def written():
    return "".join(line + "\n" for part in (looks, waits, responses, bodies, frames_written.written) for line in part())


def differs():
    path = os.path.join(os.path.dirname(os.path.abspath(__file__)), "../../../crates/test_gateway/stdout")
    with open(path, encoding="ascii") as file:
        return "" if file.read() == written() else "crates/test_gateway/stdout isn't what the tables say: rows_written.py"


def main(given):
    if given != ["--check"]:
        print(written(), end="")
        return 0
    is_wrong = differs()
    print(is_wrong or "the tables are written as they are")
    return int(bool(is_wrong))


if __name__ == "__main__":
    sys.exit(main(sys.argv[1:]))
