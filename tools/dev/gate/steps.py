"""The steps of the gate beside rt ci: what takes seconds and comes first, what runs without a proof, and what comes after."""
import os
import shutil
import subprocess
import sys
import time
from concurrent.futures import ThreadPoolExecutor

import tests
import tree

# What takes seconds, so that a slip is told at once.
FIRST = (
    ("python3", "tools/dev/interface.py", "--changed", "--check", "--against", "release/stable"),
    ("python3", "tools/dev/public_names.py"),
    ("python3", "tools/dev/lint.py"),
    ("python3", "tools/dev/test_oldest.py"),
    ("sh", "tools/planner/test-access-log.sh"),
    ("python3", "tools/planner/test_formats.py"),
    ("python3", "tools/planner/test_side_by_side.py"),
    ("python3", "tools/planner/test_answers.py"),
    ("python3", "tools/planner/option_pages.py", "--check"),
    ("sh", "tools/planner/test-planner.sh"),
    ("python3", "tools/reference/test_explain.py"),
    ("python3", "tools/dev/definition_lines.py", "--check"),
    ("python3", "tools/dev/definition_words.py", "--check"),
    ("python3", "tools/dev/sizes.py", "--check"),
    ("python3", "tools/dev/gateway_page.py", "--check"),
    ("python3", "tools/dev/towers.py", "--check"),
    ("python3", "tools/dev/gate_page.py", "--check"),
    ("python3", "tools/dev/contract_pages.py", "--check"),
    ("python3", "tools/dev/caller_pages.py", "--check"),
    ("python3", "tools/dev/program_pages.py", "--check"),
    ("python3", "tools/dev/csv_page.py", "--check"),
    ("python3", "tools/dev/test_pages.py"),
    ("python3", "tools/dev/test_gate.py"),
    ("python3", "tools/dev/edits.py", "--apply"),
    ("python3", "tools/dev/memory_errors.py", "--test"),
    ("python3", "tools/dev/memory_errors.py"),
    ("python3", "tools/dev/refusals.py"),
)
# What takes seconds and only warns: who changes a crate proves it before its edits are tried.
WARNS = (("python3", "tools/dev/edits.py", "--recorded"),)
# What comes after rt ci, over the programs that it made, where it made them.
AFTER = (
    ("sh", "tools/dev/test-exit-status.sh"),
    ("python3", "tools/dev/program_pages.py", "--built"),
    ("python3", "tools/reference/test_traces.py"),
    ("python3", "tools/dev/test_counts.py"),
    ("python3", "tools/reference/test_recency.py"),
    ("python3", "tools/reference/random_traces.py", "crates/tier_replay/out/tier_replay", "500"),
    ("python3", "tools/reference/test_promise.py", "--program", "crates/tier_replay/out/tier_replay"),
    ("python3", "tools/reference/test_rules.py"),
    ("python3", "tools/reference/test_quick.py"),
    ("sh", "tools/planner/test-curve.sh"),
    # (once more, with the program: before, it leaves out what compares it with plain lists)
    ("sh", "tools/planner/test-planner.sh"),
    ("sh", "tools/planner/test-parts.sh"),
    ("env", "AFTER_GATE=1", "sh", "embed/test.sh"),
    # (over the library that embed/test.sh made)
    ("python3", "tools/dev/test_counts.py", "--rules"),
    ("sh", "tools/dev/test-proxy.sh"),
    ("python3", "tools/reference/gateway/compare.py"),
    ("python3", "tools/dev/test_blocks.py"),
    # (over the same library)
    ("sh", "proxy/test.sh"),
    ("sh", "packaging/test.sh"),
)
# The crates that nijpdra-proxy is built of: where they aren't, it is left out.
CRATES_OF_PROXY = "/usr/share/cargo/registry"
# What takes a program as each compiler makes it, or one that is named, which is then one without a proof.
BY_NAME = {
    "tools/reference/test_traces.py": "tier_replay",
    "tools/dev/test_counts.py": "tier_replay",
    "tools/reference/test_rules.py": "rules_replay",
    "tools/reference/test_quick.py": "rules_replay",
    "tools/reference/gateway/compare.py": "gateway_replay",
}
# Where the library for C is built without a proof, and how embed/test.sh then finds it.
ARCHIVES = ("crates/cache_tier_c/out/libcache_tier_c.a", "crates/cache_tier_c/out/x86-64-v3/libcache_tier_c.a")
# The crates whose named wrong bodies are tried here. `edits.py --named` alone tries those of all.
NAMED = (
    "cache_evict", "cache_lock", "cache_words", "head_parse", "lru_core", "lru_files", "lru_numbers", "request_cache", "request_puts", "request_store",
    "store_memory", "tier_pairs", "tier_recorded", "tier_requests", "tier_single", "trace_replay",
)
# The crates of which fail-alloc.sh takes tests.
REFUSING = ("test_tier", "test_lru", "test_words", "test_store")
# What comes besides where nothing is left out: tests with each allocation refused.
WHOLE = (("sh", "tools/dev/fail-alloc.sh"),)
# What tries the named wrong bodies of crates, with its canaries.
TRIES_NAMED = ("python3", "tools/dev/edits.py", "--named")
# What makes and tries a release of all that was made, in the checkout.
RELEASE = ("sh", "tools/dev/test-release.sh")


def run(words, place, say):
    """Runs a step, and returns whether it passed."""
    began = time.time()
    status = subprocess.run(words, cwd=place, stdin=subprocess.DEVNULL, check=False).returncode
    say(f"{' '.join(words)}: {'passed' if not status else f'FAILED, with status {status}'}, in {time.time() - began:.0f} s")
    return not status


def has_proxy():
    """Whether nijpdra-proxy is built and tested here."""
    return bool(shutil.which("cargo")) and os.path.isdir(CRATES_OF_PROXY)


def layout(place, say):
    """Whether rt fmt leaves each file as it is."""
    kit = os.path.dirname(os.path.dirname(os.path.realpath(shutil.which("rt"))))
    files, began = [], time.time()
    for name in sorted(tree.uses_of(place)):
        for part in ("src", "specs", "proofs"):
            for folder, _, names in os.walk(os.path.join(place, "crates", name, part)):
                files += [os.path.join(folder, it) for it in names if it.endswith((".rt", ".antt"))]
    are_well = True
    for at in range(0, len(files), 500):
        ran = subprocess.run([os.path.join(kit, "bin", "rattle"), "fmt", "--check", *files[at : at + 500]], stdin=subprocess.DEVNULL, check=False)
        are_well = are_well and not ran.returncode
    say(f"rt fmt --check of {len(files)} files: {'passed' if are_well else 'FAILED: run rt fmt in the crate'}, in {time.time() - began:.0f} s")
    return are_well


def first(place, say):
    """Runs what takes seconds."""
    are_well = layout(place, say) and all(run(it, place, say) for it in FIRST)
    for it in WARNS if are_well else ():
        if subprocess.run(it, cwd=place, stdin=subprocess.DEVNULL, check=False).returncode:
            say(f"WARNING: {' '.join(it)}: edits have no verdict of the present text; nothing fails for it")
    return are_well


def after(place, whole, unbuilt, say):
    """Runs what comes after rt ci; unbuilt are the programs, and the library for C, that were built without a proof, which one compiler does."""
    plain, fast = (os.path.join(place, it) for it in ARCHIVES)
    given = {"AFTER_GATE=1": [f"ARCHIVE={plain}", f"ARCHIVE_V3={fast}"], "--rules": ["--rules", "embed/out/libcache_tier.a"]} if "cache_tier_c" in unbuilt else {}
    given.update({script: [script, f"crates/{name}/out/{name}"] for script, name in BY_NAME.items() if name in unbuilt})
    words = ([word for it in step for word in given.get(it, [it])] for step in (*AFTER, *(WHOLE if whole else ())))
    return all(run(it, place, say) for it in words)


def released(top, place, say):
    """Makes a release of what was made in that place, and tries it."""
    return not RELEASE or run((*RELEASE, place, say.path), top, say)


def build(place, words, say):
    """Builds something without a proof; returns whether that succeeds."""
    began = time.time()
    ran = subprocess.run([sys.executable, "tools/dev/build_unproved.py", *words], cwd=place, stdin=subprocess.DEVNULL, stdout=subprocess.PIPE, stderr=subprocess.STDOUT, check=False)
    if ran.returncode:
        print(ran.stdout.decode(errors="replace"), end="", flush=True)
    say(f"{words[0]} {os.path.relpath(words[1], place)} built without a proof: {'FAILED' if ran.returncode else 'done'}, in {time.time() - began:.0f} s")
    return not ran.returncode


def unproved(place, crates, unbuilt, host, say):
    """Runs the tests of these crates with no proof, and builds these programs without one, and runs them; returns whether all is as it must be."""
    of_programs = [it for it in crates if os.path.isfile(os.path.join(place, "crates", it, "src", "main.rt"))]
    for it in ARCHIVES if "cache_tier_c" in unbuilt else ():
        os.makedirs(os.path.dirname(os.path.join(place, it)), exist_ok=True)

    def work(name):
        if name == "cache_tier_c":
            return build(place, ["library", *(os.path.join(place, it) for it in ARCHIVES)], say)
        return tests.tried_programs(place, [name], host.seconds, say)

    with ThreadPoolExecutor(host.at_once) as pool:
        are_well = all(list(pool.map(work, [*unbuilt, *of_programs])))
    return are_well and tests.tried(place, [it for it in crates if it not in of_programs], host.at_once, host.seconds, say)


def for_allocations(place, say):
    """Builds the programs of tests that fail-alloc.sh takes, which have no sanitizer with an allocator of its own, where it looks for them."""
    for it in REFUSING:
        os.makedirs(os.path.join(place, "crates", it, "out"), exist_ok=True)
    return all(build(place, ["tests", it, os.path.join(place, "crates", it, "out", f"{it}_tests")], say) for it in REFUSING)
