#!/usr/bin/env python3
"""Runs a bench, whose figures the pages quote; without a name it lists all.

    python3 tools/dev/bench.py [NAME [WORD ..]]

PROGRAM is a program that was built before: tier-replay of crates/tier_replay/out if none is named, or the bench's own small one, which it else
builds in a temporary folder, proved, or with UNPROVED=1 without proofs. ARCHIVE is embed/out/libcache_tier.a, if none is named, as embed/build.sh makes
it. Instructions are those that valgrind's callgrind counts: other work on the machine doesn't change them. Seconds and memory are GNU time's."""
import sys

sys.dont_write_bytecode = True

from benches import events, gate_time, library, lists, proofs, replays, rules, stores  # noqa: E402

# By name: what runs, the words that it takes, and what it measures.
BENCHES = {
    "instructions": (events.instructions, "[--check] [--write] [PROGRAM]", "instructions of tier-replay for a line by kind of line, beside a plain program; --check as rules-calls"),
    "chosen-names": (events.chosen_names, "[PROGRAM]", "instructions of a put of 255 lines, with names that an attacker chooses and with others"),
    "look-ups": (events.look_ups, "[PROGRAM]", "look-ups in hash tables that one event makes, and by whom, over tier-replay in which find_slot is a call"),
    "open-requests": (replays.open_requests, "[PROGRAM [EVENTS]]", "instructions of an event of each kind, beside 10^3 and 10^5 open requests"),
    "memory": (replays.memory, "[PROGRAM]", "bytes that tier-replay takes for an entry beside its body, an open request and a write in flight"),
    "tier-speed": (replays.tier_speed, "[PROGRAM]", "seconds of calls by the number of bodies that the tier holds, and of puts of long bodies"),
    "embed-calls": (library.embed_calls, "[FOLDER-OF-ARCHIVES]", "instructions of calls of the C library, by each archive of embed/out, beside a plain core's"),
    "rules-calls": (rules.rules_calls, "[--check] [ARCHIVE]", "instructions of the calls of HTTP's rules; --check fails where one is 3 % away from the page's"),
    "heads": (library.heads, "[ARCHIVE]", "instructions of a hit by the lines of its head, and of a look-up that finds something stale, with the bytes then held"),
    "thread-hits": (library.thread_hits, "[ARCHIVE]", "instructions of hits by 1, 2 and 4 threads on one tier and a set of four, those under a lock, and turns of locks"),
    "shared-speed": (library.shared_speed, "[PROGRAM]", "calls of four threads on one shared tier (example_threads), beside a plain Rust tier under a Mutex"),
    "lru-speed": (lists.lru_speed, "[PROGRAM]", "instructions of mixed calls on a core of 1,000 and of 100,000 rows, and its memory, beside a Rust list"),
    "locked-speed": (lists.locked_speed, "[PROGRAM]", "seconds of mixed calls on a list under locks, by one thread and by four, beside a Rust list under one Mutex"),
    "actor-rows": (lists.actor_rows, "[PROGRAM]", "the greatest number of rows of a list of actors that takes 200,000 without a pause"),
    "evict-speed": (lists.evict_speed, "[PROGRAM]", "seconds of calls of both managers of entries, beside a Rust hash map with an index list"),
    "store-speed": (stores.store_speed, "[PROGRAM]", "instructions, memory and seconds of the store in memory, beside a Rust hash map of shared bodies"),
    "hit-speed": (stores.hit_speed, "[PROGRAM]", "instructions of a hit through HttpCache that reads a body of one byte, with keys that have a ready digest and without"),
    "digest-speed": (lists.digest_speed, "", "bytes and keys a second of the digest, beside Python's hashlib"),
    "gate-time": (gate_time.gate_time, "[--write] [LOG]", "processor minutes of rt ci by crate and kind; --write makes gate/minutes.txt; nothing else may run"),
    "dearest": (proofs.dearest, "CRATE ..", "the ten dearest functions of each crate, in processor seconds of their own proofs"),
    "by-function": (proofs.by_function, "CRATE [ROWS]", "seconds and megabytes of a crate's proof by function, as its last check with one job left them"),
}


def main(words):
    if not words or words[0] not in BENCHES:
        print(__doc__.strip(), *(f"  {name} {takes}\n      {what}" for name, (_, takes, what) in BENCHES.items()), sep="\n")
        return 2 if words else 0
    return BENCHES[words[0]][0](*words[1:]) or 0


if __name__ == "__main__":
    sys.exit(main(sys.argv[1:]))
