#!/usr/bin/env python3
"""Compares the gateway with its reference: compare.py [PROGRAM] [HISTORIES]. The calls of the rows by hand, and those of so many random histories, are run
by the reference; what PROGRAM (crates/gateway_replay, built) and the package's gateway (over the C library) answer to each is compared, all of it. LACKS names the
rows that differ: one that isn't named and differs fails, as does one that is named and agrees.

The library is CACHE_TIER_LIBRARY's, or the one that embed/test.sh made; where there is no library, or no program, that part is passed over by name."""

import json
import os
import subprocess
import sys

TOP = os.path.dirname(os.path.dirname(os.path.dirname(os.path.dirname(os.path.abspath(__file__)))))
LIBRARY = os.environ.setdefault("CACHE_TIER_LIBRARY", os.path.join(TOP, "embed/out/libcache_tier.so"))
sys.path[:0] = [os.path.join(TOP, "tools/reference"), os.path.join(TOP, "python/src")]

PROGRAM, HISTORIES, STEPS = os.path.join(TOP, "crates/gateway_replay/out/gateway_replay"), 1000, 400
# A tier without memory, which is made up in the row.
LACKS = {"c02"}


def recorder_of(replay):
    class Recorder(replay.Recorder):
        """With a secret that is long enough for each face."""

        def Gateway(self, secret, *given, **options):
            return super().Gateway(secret.ljust(16, b"."), *given, **options)

    return Recorder


def by_program(lines, _):
    given = "".join(json.dumps(it) + "\n" for it in lines)
    ran = subprocess.run([PROGRAM], input=given, stdout=subprocess.PIPE, text=True, check=False)
    return [json.loads(it) for it in ran.stdout.splitlines()]


def difference(replay, recorder, answers):
    """The first call that is answered otherwise, and how; nothing where none is."""
    for place, (line, wanted) in enumerate(zip(recorder.lines, recorder.wanted)):
        if place >= len(answers):
            return f"call {place}, {line['call']}: no answer"
        wanted = wanted if isinstance(wanted, dict) else {"status": wanted or "done"}
        for name, it in wanted.items():
            if not replay.is_same(line, name, answers[place].get(name), it):
                return f"call {place} of {len(recorder.lines)}, {line['call']}: {name} is {answers[place].get(name)!r}, and was {it!r}"
    return None


def rows(replay, runs):
    """Each row by each way."""
    wrong = 0
    for of, limits in replay.ROWS:
        recorder = recorder_of(replay)()
        options = {k: v for k, v in limits.items() if k != "options"}
        of(replay.Case(of.__name__, replay.Limits(**options), lambda _: None, recorder, limits.get("options")))
        for name, run in runs.items():
            found = difference(replay, recorder, run(recorder.lines, replay.REASONS))
            if bool(found) != (of.__name__ in LACKS):
                wrong += 1
                print(f"row {of.__name__}, by {name}: {found or 'agrees, and is named as what differs'}\n  {of.__doc__}")
    print(f"{len(replay.ROWS) - len(LACKS)} rows agree, but {', '.join(sorted(LACKS))}; by {', '.join(runs)}: {wrong} wrong")
    return wrong


def histories(replay, runs, count):
    wrong = calls = 0
    for seed in range(count):
        recorder = recorder_of(replay)()
        replay.World(seed, recorder, STEPS).run()
        calls += len(recorder.lines)
        for name, run in runs.items():
            found = difference(replay, recorder, run(recorder.lines, replay.REASONS))
            if found:
                wrong += 1
                print(f"history {seed}, by {name}: {found}", flush=True)
    print(f"{count} histories, {calls} calls, by {', '.join(runs)}: {wrong} differ")
    return wrong


def main(given):
    global PROGRAM
    PROGRAM = given[0] if given else PROGRAM
    if not os.path.exists(LIBRARY):
        print(f"passed over, since {LIBRARY} isn't there: tools/reference/gateway/compare.py")
        return 0
    from gateway import by_face, replay

    runs = {"the package": by_face.replayed}
    if os.path.exists(PROGRAM):
        runs["the program"] = by_program
    else:
        print(f"passed over, since it isn't there: {PROGRAM}")
    return int(bool(rows(replay, runs) + histories(replay, runs, int(given[1]) if len(given) > 1 else HISTORIES)))


if __name__ == "__main__":
    sys.exit(main(sys.argv[1:]))
