"""The lists of the order of use, beside plain ones in Rust, and the digest, beside Python's."""
import os
import subprocess
import sys

from .common import build, counted, folder, greatest, plain, seconds, text_of, timed

CALLS = 100_000


def lru_speed(program=None):
    """Mixed calls: half of them promotions, a quarter admissions with the eviction that follows, a quarter look-ups."""
    with folder() as room:
        ours = build(room, "lru_core", text_of("lru.rt", "turns.rt", "words.rt"), program, 10, 10)
        theirs = plain(room, "list.rs", "turns.rs", "lru.rs")
        for rows in (1000, 100_000):
            for name, it in (("calls", ours), ("rust_calls", theirs)):
                taken = counted([it, rows, CALLS]) - counted([it, rows, 0])
                print(f"{rows} rows, {name}: {taken // CALLS} instructions a call, {greatest([it, rows, 0])} KiB", flush=True)


def least(words):
    """The least seconds that passed, and the least of all processors, of three runs."""
    runs = [timed("%e %U %S", words) for _ in range(3)]
    return min(it[0] for it in runs), min(it[1] + it[2] for it in runs)


def locked_speed(program=None):
    """Ten million mixed calls on a list under locks of 4 and of 16 shards; a time is the best of three runs, less the best of three that only fill."""
    with folder() as room:
        ours = build(room, "pingora_lru", text_of("locked.rt", "turns.rt", "words.rt"), program, 4, 2, 10, 10)
        theirs = plain(room, "list.rs", "turns.rs", "locked.rs")
        for rows in (1000, 1_000_000):
            for threads in (1, 4):
                for name, it, shards in (("4 shards", ours, 4), ("16 shards", ours, 16), ("Rust, one Mutex", theirs, 0)):
                    filled, done = least([it, shards, threads, rows, 0]), least([it, shards, threads, rows, 10_000_000])
                    passed, spent = done[0] - filled[0], done[1] - filled[1]
                    print(f"{rows} rows, {name}, threads: {threads}: {passed:.2f} s pass, {spent:.2f} s of all processors", flush=True)


def actor_rows(program=None):
    """Four shards that are actors, one eviction worker, limit 1,000, and 200,000 rows of weight 1."""
    with folder() as room:
        ours = build(room, "lru_async rand_core rand_pcg", text_of("rows.rt"), program)
        subprocess.run([ours], check=True)


def evict_speed(program=None):
    """A million each of looks, uses, admissions with the eviction that follows, and removals with the admission of the same entry."""
    calls = 1_000_000
    with folder() as room:
        uses = "cache_evict cache_entries cache_words rand_core rand_pcg"
        ours = build(room, uses, text_of("evict.rt", "turns.rt", "words.rt"), program, 0, 10, 1, 10)
        theirs = plain(room, "turns.rs", "evict.rs")
        for rows in (1000, 1_000_000):
            for kind, name in enumerate(("peek", "access", "admit", "remove")):
                taken = []
                for it, which in ((ours, 0), (ours, 1), (theirs, 2)):
                    taken.append(seconds([it, which, rows, kind, calls]) - seconds([it, which, rows, kind, 0]))
                words = " ".join(f"{it:.2f}" for it in taken)
                print(f"{rows} entries, {name}, seconds a million calls: {words} (lru::Manager<4>, simple_lru::Manager, the Rust list)", flush=True)


# What megabytes.rt and keys.rt do.
HASHES = """import hashlib
h = hashlib.blake2b(digest_size=16)
p = bytes([7]) * 1048576
for _ in range(512): h.update(p)"""
DIGESTS = """import hashlib
k = bytearray([7]) * 40
for _ in range(3000000): k[0:3] = hashlib.blake2b(k, digest_size=16).digest()[0:3]"""


def digest_speed():
    """Bytes a second over pieces of 1 MiB, and keys of 40 bytes a second, each beside Python's hashlib on the same machine."""
    with folder() as room:
        taken = []
        for name, python in (("megabytes", HASHES), ("keys", DIGESTS)):
            ours = build(os.path.join(room, name), "cache_words", text_of(f"{name}.rt"), None)
            taken += [seconds([ours]), seconds([sys.executable, "-c", python])]
    a, b, c, d = taken
    print(f"512 MiB: {a:.2f} s, {512 / a:.0f} MiB a second; hashlib {b:.2f} s, {512 / b:.0f} MiB a second")
    print(f"3000000 keys of 40 bytes: {c:.2f} s, {3 / c:.2f} million a second; hashlib {d:.2f} s, {3 / d:.2f} million a second")
