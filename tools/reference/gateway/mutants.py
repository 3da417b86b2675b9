#!/usr/bin/env python3
"""Wrong gateways: each is the gateway with some text of it changed (wrong_served.py, wrong_fetched.py). mutants.py [HISTORIES] [NAME ..]: which does the
promise, the second judge, or a row refuse, and after how many calls? `+N` for a name: from the Nth on."""

import os
import sys
import types

from . import explore, oracle, rows
from .wrong_fetched import WRONG as FETCHED
from .wrong_served import WRONG as SERVED

# The mood of the world in which it shows.
MOODS = {name: mood for mood, names in {
    0: "asks_for_only_if_cached_beside_authorization",
    1: "tells_502_of_what_must_be_validated tells_504_of_all_that_is_stored never_stale_when_nothing_came stale_when_nothing_came",
    3: "supersedes_by_one_key_alone supersedes_all_variants an_older_answer_takes_its_place takes_the_oldest_of_the_sets takes_the_first_set_alone",
    6: "begins_the_tail_a_byte_late keeps_too_little_of_a_tail keeps_all_of_a_tail sends_on_behind_a_gap ends_a_tail_early never_ends_a_tail"
       " lets_a_tailed_write_go_at_once joins_what_grew_too_long a_tail_without_bound goes_on_with_a_tail_whose_client_left"
       " breaks_what_grows_too_long begins_a_tail_for_nobody stores_what_is_too_long learns_nothing_of_long_bodies",
    7: "forgets_a_prediction_of_what_is_too_long learns_nothing_of_long_relays learns_from_all_that_is_long predicts_nothing predicts_for_ever predicts_without_bound never_forgets_a_prediction learns_from_who_is_known"
       " stores_what_was_predicted predicts_with_the_permit asks_unstored_without_the_clients_range never_gives_up waits_again_after_give_up"
       " purges_no_prediction",
    8: "shares_stale_without_asking shares_an_error_with_who_may_fetch shares_nothing shares_with_who_waits_for_another stale_without_asking",
    9: "indexes_over_what_is_in_flight takes_the_last_set_of_equals hides_the_cookie_of_a_304 freshens_with_a_cookie keeps_another_sets_page"
       " indexes_by_what_was_found judges_without_the_index removes_the_first_key",
    10: "a_relayed_part_too_long",
    11: "waits_for_the_origin_for_ever its_patience_ends_early tells_lateness_as_502 is_late_while_it_is_blocked forgets_its_moment",
    12: "trailers_of_another loses_trailers trailers_to_whom_takes_none splices_a_newer_body several_ranges_of_what_is_in_flight joins_what_was_purged stores_too_much_in_flight lets_what_is_in_flight_grow"
        " follows_as_another_reads follows_what_was_given_up follows_over_its_own_write",
    13: "tells_no_eviction serves_another_key names_evictions_that_were_none purges_what_it_completed",
    4: "asks_again_behind_a_body goes_on_with_half_a_request",
}.items() for name in names.split()}
PLACE = os.path.dirname(os.path.abspath(__file__))
MODULES = ("values", "rows_table", "at_tier", "client_side", "origin_side", "origin_body", "origin_head", "lookups", "gateway")
WRONG = {**SERVED, **FETCHED}
SEED = 5_000_000 * explore.MOODS


def text_of(module):
    with open(os.path.join(PLACE, module + ".py"), encoding="utf-8") as file:
        return file.read()


def texts_of(name):
    """The gateway's modules, with what a wrong one changes."""
    texts = {module: text_of(module) for module in MODULES}
    for old, new in WRONG[name]:
        if not any(old in text for text in texts.values()):
            raise SystemExit(f"{name}: the gateway has no {old!r}")
        texts = {module: text.replace(old, new) for module, text in texts.items()}
    return texts


def made(name):
    """The module `gateway` of a package of changed texts."""
    texts = texts_of(name)
    package = f"wrong_{name}"
    sys.modules[package] = types.ModuleType(package)
    sys.modules[package].__path__ = []
    sys.modules[package + ".library"] = sys.modules[__package__ + ".library"]
    for module in MODULES:
        it = types.ModuleType(f"{package}.{module}")
        it.__package__ = package
        sys.modules[it.__name__] = it
        setattr(sys.modules[package], module, it)
        exec(compile(texts[module], f"{name}:{module}", "exec"), it.__dict__)
    return sys.modules[package + ".gateway"]


def refused(name, histories):
    """By whom, and after how many calls. Where a mood is told, that first."""
    it, mood, total, told = made(name), MOODS.get(name), 0, ""
    if mood is not None:
        total, _, _, told = explore.main(histories // 2, 400, SEED + mood, it, True, explore.MOODS)
    if not told:
        calls, _, _, told = explore.main(histories, 400, SEED, it, True)
        total += calls
    if not told:
        calls, fault = oracle.judge(it, histories // 4, SEED)
        total, told = total + calls, str(fault[1]) if fault else ""
    if not told:
        told = by_rows(it)
    return total, told


def by_rows(it):
    try:
        return rows.differs(it)
    except Exception as error:
        return f"rows: {type(error).__name__} {error}"


def main(histories, names):
    """`names`: none, all; `+N`: from the Nth on."""
    kept = []
    if names and names[0].startswith("+"):
        names = list(WRONG)[int(names[0]) :]
    for name in names or WRONG:
        total, told = refused(name, histories)
        print(f"{name:46s} {'refused' if told else 'PASSES'} after {total:6d} calls {told[:150]!r}", flush=True)
        if not told:
            kept.append(name)
    print(f"{len(names or WRONG)} wrong gateways, not refused: {kept}")
    return int(bool(kept))


if __name__ == "__main__":
    sys.exit(main(int(sys.argv[1]) if len(sys.argv) > 1 else 200, sys.argv[2:]))
