"""The store in memory, and a request's hit over it."""
from .common import build, counted, folder, greatest, plain, text_of, timed

CALLS = 20_000
OF_STORE = "store_memory cache_store cache_heads cache_words bytes http http_header"
OF_HITS = "pingora_cache request_cache request_store store_memory cache_evict cache_lock cache_store cache_heads cache_words bytes http http_header rand_core rand_pcg"


def of_mixed_calls(both):
    """Look-ups of absent keys, hits, hits that read, and purges with the write of the same body."""
    for rows in (1000, 100_000):
        for kind, name in enumerate(("absent", "hit", "read", "purge")):
            taken = ((counted([it, rows, kind, CALLS]) - counted([it, rows, kind, 0])) // CALLS for it in both.values())
            print(f"{rows} bodies, {name}, instructions a call: {' '.join(map(str, taken))} (MemCache, the Rust map)", flush=True)


def store_speed(program=None):
    """Bodies of one byte; one that is written in pieces of one byte; and one of 1 GiB in pieces of 64 KiB."""
    with folder() as room:
        ours = build(room, OF_STORE, text_of("store.rt", "turns.rt", "words.rt"), program, 10, 1, 10)
        both = {"calls": ours, "rust_calls": plain(room, "turns.rs", "store.rs")}
        of_mixed_calls(both)
        for name, it in both.items():
            print(f"100,000 bodies, {name}: {greatest([it, 100_000, 1, 0])} KiB", flush=True)
        for pieces in (100_000, 1_000_000):
            for name, it in both.items():
                taken = (counted([it, 0, 5, pieces]) - counted([it, 0, 5, 0])) // pieces
                print(f"{pieces} pieces of one byte, {name}: {taken} instructions a piece, {greatest([it, 0, 5, pieces])} KiB (of none {greatest([it, 0, 5, 0])})", flush=True)
        for name, it in both.items():
            for _ in range(3):
                passed, user, system, most = timed("%e %U %S %M", [it, 0, 4, 16_384])
                print(f"1 GiB in pieces of 64 KiB, {name}: {passed:.2f} s, of these user {user:.2f}, system {system:.2f}; {most:.0f} KiB", flush=True)


def hit_speed(program=None):
    """A hit by the calls of a request, over 1,000 bodies; the key's making is among them: for a name that takes memory."""
    with folder() as room:
        ours = build(room, OF_HITS, text_of("hit.rt", "words.rt"), program, 10, 0, 10)
        for kind, name in enumerate(("ready", "without")):
            taken = (counted([ours, 1000, kind, 21_000]) - counted([ours, 1000, kind, 1000])) // 20_000
            print(f"a hit by a request, its key {name} digest: {taken} instructions", flush=True)
