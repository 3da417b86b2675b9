"""The C library: its calls, heads, threads; and the shared tier under four threads."""
import os
import subprocess

from .common import ARCHIVE, EVENLY, TOP, counted, folder, greatest, of_c, plain, text_of, timed, write

# The calls of embed/calls.c, and what a plain Rust core takes for the first six behind a header of the same calls, as it was measured once; its own moves
# of words count as ours do. `purge` has the put of the same key anew, `nothing` finds none to purge.
CALLS = {"open": 1175, "look": 1690, "absent": 1475, "read": 1780, "put": 4697, "write": 11368, **dict.fromkeys(("hit", "head", "digested", "find", "digest", "purge", "nothing"))}


def embed_calls(out=os.path.join(TOP, "embed", "out")):
    """Each call 2,000 times, by the archive for x86-64-v2, and for x86-64-v3 where it is there."""
    archives = {"v2": os.path.join(out, "libcache_tier.a"), "v3": os.path.join(out, "x86-64-v3", "libcache_tier.a")}
    with folder() as room:
        made = {cpu: of_c(os.path.join(TOP, "embed", "calls.c"), it, os.path.join(room, cpu)) for cpu, it in archives.items() if os.path.isfile(it)}
        how = {"env": {**os.environ, **EVENLY}}
        empty = {cpu: counted([it, "empty", 2000], **how) for cpu, it in made.items()}
        print(f"call: {' '.join(made)}, the plain core")
        for call, core in CALLS.items():
            taken = " ".join(str((counted([it, call, 2000], **how) - empty[cpu]) // 2000) for cpu, it in made.items())
            print(f"{call}: {taken}, {core or '-'}", flush=True)


def heads(archive=ARCHIVE):
    """Bytes are those that malloc gives."""
    how = {"env": {**os.environ, **EVENLY}}
    with folder() as room:
        source, program = os.path.join(room, "heads.c"), os.path.join(room, "heads")
        write(source, text_of("heads.c"))
        of_c(source, archive, program, "-Wl,--wrap=malloc,--wrap=realloc,--wrap=free")

        def told(*words):
            return subprocess.run([program, *map(str, words)], stdout=subprocess.PIPE, text=True, check=True).stdout.split()

        print("lines of a head, their bytes: instructions of a hit")
        for lines in (0, 9, 99):
            taken = counted([program, lines, 16, 1000, 0, 0], **how) - counted([program, lines, 16, 0, 0, 0], **how)
            print(f"{lines + 1}, {told(lines, 16, 1, 0, 0)[0]}: {taken // 1000}", flush=True)
        print("lines of a stale head, their bytes: instructions of a look-up; bytes that 500 open requests hold, and after it more")
        for row in ((3, 16), (16, 65536)):
            block, opened, more = told(*row, 1, 500, 500)
            taken = counted([program, *row, 0, 100, 100], **how) - counted([program, *row, 0, 100, 0], **how)
            print(f"{row[0] + 1}, {block}: {taken // 100}; {opened}, {more}", flush=True)


def thread_hits(archive=ARCHIVE):
    """8,000 hits by their digests. Valgrind lets one thread run at a time: no wait for a lock is among them."""
    calls = 8000
    with folder() as room:
        source, program = os.path.join(room, "hits.c"), os.path.join(room, "hits")
        write(source, text_of("hits.c"))
        of_c(source, archive, program, "-lpthread")
        print("tiers, threads: instructions of a hit, of these under a lock; turns of a lock a hit, of these at the busiest lock")
        for tiers in (1, 4):
            for threads in (1, 2, 4):
                taken = counted([program, tiers, threads, calls]) - counted([program, tiers, threads, 0])
                # (of the library's hit and all that it calls)
                under = counted([program, tiers, threads, calls], "--toggle-collect=cache_tier1_get")
                said = subprocess.run([program, str(tiers), str(threads), str(calls)], stdout=subprocess.PIPE, text=True, check=True).stdout
                turns, most = map(int, said.split())
                print(f"{tiers}, {threads}: {taken // calls}, {under // calls}; {turns * 100 // calls} %, {most * 100 // turns} %", flush=True)


def said_by(words):
    return subprocess.run([str(it) for it in words], stdin=subprocess.DEVNULL, stdout=subprocess.PIPE, text=True, check=True).stdout.splitlines()


def best(room, words):
    """The least microseconds of the threads' calls, and the least processor seconds of the whole program, of five runs."""
    runs = []
    for _ in range(5):
        with open(os.path.join(room, "said"), "w+", encoding="utf-8") as said:
            spent = sum(timed("%U %S", words, stdout=said))
            said.seek(0)
            took = next(int(it.partition("=")[2]) for it in said if it.startswith("microseconds="))
        runs.append((took, spent))
    return min(it[0] for it in runs), min(it[1] for it in runs)


def shared_speed(program=os.path.join(TOP, "crates", "example_threads", "out", "example_threads")):
    """Four threads of 100,000 calls each; src/mix.rt of example_threads describes the events. `kept` gathers and compares its passes with the history after
    the threads' calls, which is in the processor seconds and the instructions. The memory a call is the growth from 10,000 calls a thread to 100,000."""
    with folder() as room:
        theirs = plain(room, "shared.rs")
        runs = {kind: [theirs if kind == "plain" else program, kind] for kind in ("kept", "counted", "plain")}
        # (all do the same)
        assert len({said_by([*it, 10_000, "timed"])[0] for it in runs.values()}) == 1, "they don't do the same"
        for kind, words in runs.items():
            took, spent = best(room, [*words, 100_000, "timed"])
            few, many = (greatest([*words, calls, "timed"]) for calls in (10_000, 100_000))
            print(f"{kind}: {400_000 * 1e6 / took:.0f} calls a second, {spent:.2f} processor seconds, {many} KiB at most, {(many - few) * 1024 / 360_000:.1f} bytes a call", flush=True)
            print(f"{kind}: {(counted([*words, 10_000]) - counted([*words, 5000])) // 20_000} instructions a call", flush=True)
