#!/usr/bin/env python3
"""Compiles the blocks of code of docs/calling.md, docs/embedding.md, the tutorials and the how-tos, and runs what runs: over the library that
embed/test.sh made, and over the crates' sources, without proofs. A block that this script knows no way for is a fault. Of a tutorial the blocks of its language are one program,
which writes what its last block says. Each block of a how-to is a program of its own, over a tier that has /a; where a block without a language follows, it
writes that.

    tools/dev/test_blocks.py [--only c|rust|python|rattle]

A fragment is set into what stands around it in a program, which is written here."""
import argparse
import glob
import os
import re
import shutil
import signal
import socket
import subprocess
import sys
import tempfile

sys.dont_write_bytecode = True
TOP = os.path.dirname(os.path.dirname(os.path.dirname(os.path.realpath(__file__))))
PAGES = ("docs/calling.md", "docs/embedding.md")
TUTORIALS = {it: f"docs/tutorials/first-hit-in-{it}.md" for it in ("c", "rust", "python")}
PROXY = "docs/tutorials/a-proxy-in-python.md"
CURVE = "docs/concepts/how-the-curve-is-counted.md"
PLANNING = ("docs/how-to/read-your-own-log.md", "docs/how-to/size-a-huge-log.md")
# Of these packaging/test.sh runs the configurations, which are packaging/examples.
OF_PROXY = ("docs/how-to/put-tls-in-front.md", "docs/how-to/run-several-machines.md")
# Pages whose blocks are tried: here, by tools/dev/test_commands.py, by tools/reference/test_traces.py.
TRIED = (*PAGES, "docs/tutorials/", "docs/how-to/", CURVE, "docs/trace-format.md")
# The other blocks, by their beginnings: by which step each is run, or why by none.
BY_STEP = {
    "python3 tools/planner/plan.py access.log.gz": "tools/dev/test_oldest.py",
    "(cd crates/tier_replay && rt run": "the gate",
    "cache-plan access.log --sizes 5M,20M": "tools/dev/test_commands.py",
    "cache-curve --sizes 1M,10M,100M < requests": "tools/planner/test-curve.sh",
    "cache-curve --standard-sizes --columns": "tools/planner/test-curve.sh",
    "cache-curve --sizes 100M,1G,10G --misses": "tools/planner/test-curve.sh",
    "/a: put 11 bytes, 0 evicted": "the gate",
    "cd crates/rules_replay": "tools/reference/test_rules.py",
}
BY_NONE = {
    "sh scripts/try.sh && cd out/try": "minutes of building",
    "sh .ci/run": "the gate itself",
    "python3 tools/dev/gate.py --write-ledger": "the gate itself",
    "== public_reads_private": "the form of a file",
    "impl<const N: usize, S: BuildHasher> Tier<N, S>": "the form of a contract",
    "FOLDER/ ": "a picture of a folder",
    "open -- lookup": "a picture of calls",
}
MOST_BY_NONE = 25
PORTS = ("8080", "8000")  # of that page; others are taken in their place
FENCE = re.compile(r"```(\w*)$")

C = """#include <stdint.h>
#include <stdlib.h>
#include <time.h>
#include "cache_tier.h"

int shown(GIVEN);
int shown(GIVEN)
{
BLOCK
    return 0;
}
"""
RUST = """#![allow(unused)]
use cache_tier::*;
fn send(_block: &[u8], _body: impl AsRef<[u8]>) {}
pub fn shown(GIVEN) -> std::result::Result<(), Box<dyn std::error::Error>> {
BLOCK
    Ok(())
}
"""
PYTHON = """import time
from cache_tier import Meta, Partitions, Tier
def send(*_): pass
now, head, body = 1000, b"HTTP/1.1 200 OK\\r\\n\\r\\n", [b"hel", b"lo"]
BLOCK
"""
RATTLE = """//! What stands around a fragment.
#![tactic(auto)]

use cache_tier::{CacheKey, Hit, Moment, Pass, SharedTier, Tier, TierFault};
use rand_pcg::Pcg64;
use std::io;
use std::sync::Wait;
use std::sync::ledger::Ledger;

enum Trouble {
    Tier(TierFault),
    Written(io::Error),
}

impl From<TierFault> for Trouble {
    fn from(fault: TierFault) -> Trouble {
        Trouble::Tier(fault)
    }
}

impl From<io::Error> for Trouble {
    fn from(error: io::Error) -> Trouble {
        Trouble::Written(error)
    }
}

GIVEN
BLOCK
    Ok(())
}

fn main(_rt: HostRuntime) {}
"""
# What stands around a block of a how-to: a tier, and partitions, which have "hello" under /a from second 1000 on, fresh for 60 seconds.
HOW_TO = {
    "c": r'''#include <stdio.h>
#include "cache_rules.h"
#include "cache_tier_files.h"
int main(void)
{
    static const char head[] = "HTTP/1.1 200 OK\r\nContent-Type: text/plain\r\n\r\n", folder[] = ".";
    const size_t head_len = sizeof head - 1;
    const uint64_t hash_seed = 42;
    cache_tier *tier;
    cache_tier_moment now = {1000, 0};
    cache_tier_key key = cache_tier_key_from_name("/a", 2);
    cache_tier_meta meta = cache_tier_meta_ttl(now, 60);
    cache_tier_response found = CACHE_TIER_RESPONSE_INIT;
    cache_tier_result result;
    cache_tier_options made = cache_tier_default_options(1 << 20, hash_seed);
    (void)folder;
    if (cache_tier_new(&tier, &made) != CACHE_TIER_OK || cache_tier_put(tier, now, key, head, head_len, "hello", 5, &meta, &result) != CACHE_TIER_STORED) return 1;
    {
BLOCK
    }
    cache_tier_release(&found);
    cache_tier_free(tier);
    return 0;
}
''',
    "rust": r'''#![allow(unused)]
use cache_tier::{file_store::{DiskDirectory, FileStore, StoreOptions}, rules::Rules, Digest, Meta, Moment, Options, Partitions, Permit, Tier};
fn send(_head: &[u8], _body: impl AsRef<[u8]>) {}
fn main() -> Result<(), Box<dyn std::error::Error>> {
    let (now, hash_seed, head) = (Moment::at(1000), 42, b"HTTP/1.1 200 OK\r\nContent-Type: text/plain\r\n\r\n");
    let path = std::path::PathBuf::from("bodies");
    let mut tier = Tier::new(&Options::new(1 << 20, hash_seed))?;
    let _ = tier.put(now, b"/a", head, b"hello", &Meta::ttl(now, 60))?;
BLOCK
    Ok(())
}
''',
    "python": r'''from cache_tier import CacheTierError, Digest, Meta, Partitions, Tier
from cache_tier.rules import Exchange, Rules
now, head = 1000, b"HTTP/1.1 200 OK\r\nContent-Type: text/plain\r\n\r\n"
tier, partitions = Tier(1 << 20), Partitions(1 << 20, 4)
for it in (tier, partitions): it.put(now, b"/a", head, b"hello", Meta.ttl(now, 60))
BLOCK
''',
}
OTHERS = ("nginx", "vcl")  # languages of other programs
C_OF_REQUEST = "cache_tier *tier, cache_tier_moment now, cache_tier_key key, uint64_t id, int origin_status, const uint8_t *head, size_t len, cache_tier_meta meta, cache_tier_result result, cache_tier_response found"
C_OF_META = "cache_tier *tier, cache_tier_moment now, cache_tier_key key, const uint8_t *head, size_t head_len, const uint8_t *body, size_t body_len, cache_tier_result result"
RATTLE_OF_SHARED = """fn send(_hit: &Hit) -> Result<(), Trouble> { Ok(()) }
fn fetch(_request: u64, _key: CacheKey) -> Result<(), Trouble> { Ok(()) }
fn answer<W: Wait + Drop, L: Ledger>(rt: W, tier: &SharedTier<16, Pcg64, L>, mut pass: Pass<L>, moment: Moment, request: u64, key: CacheKey) -> Result<(), Trouble> {"""
# By the beginning of a block's first line: how it is tried, and what stands around it.
HOW = {
    "//! Puts a response, looks it up while it is fresh": ("program", ""),
    "Finished { length: 3, evicted": ("output", ""),
    "let Some(hit) = tier.hit_alone(": ("rattle", "fn answer<W: io::Write>(rt: &impl Print, out: &mut W, tier: &mut Tier<16>, moment: Moment, key: CacheKey) -> Result<(), Trouble> {"),
    "match tier.hit(&rt, &mut pass": ("rattle", RATTLE_OF_SHARED),
    "fn shared<L: Ledger>(alloc: Global, blank: Blank)": ("quoted", "crates/example_threads/src"),
    "let blank = Blank::new(LEDGER_PARTS);": ("quoted", "crates/example_threads/src"),
    "sh embed/build.sh": ("step", "embed/test.sh"),
    "curl -sSi https://example.org/a.js": ("step", "tools/reference/test_explain.py"),
    "tier: decided by Cache-Control": ("output", ""),
    "finished 5 evicted=0": ("output", ""),
    "bin/cache-plan access.log --sizes 10M..10G": ("step", "tools/dev/check-release.sh"),
    "cache-tier = { path =": ("step", "tools/dev/check-release.sh"),
    "gcc -Iembed embed/first.c": ("step", "embed/test.sh"),
    "gcc -D_GNU_SOURCE -std=c11 -O2 examples/mover.c": ("step", "examples/test_mover.py"),
    '[[site]]\nhost = ["www.example.com"]': ("step", "proxy/tests/test_paths.py"),
    "cache_tier_options options = ": ("c", "uint64_t hash_seed"),
    "cache_tier_open(tier, id, key, 1": ("c", C_OF_REQUEST),
    "if (origin_status == 304)": ("c", C_OF_REQUEST),
    "cache_tier_meta meta = cache_tier_meta_ttl": ("c", C_OF_META),
    "let mut request = partitions.open(": ("rust", "partitions: &Partitions, key: Digest, now: Moment, head: &[u8], body: &[&[u8]]"),
    "partitions = Partitions(1 << 30, 16)": ("python", ""),
}


def blocks_of(text):
    """The blocks of a page with their line and language, which is none of one that is set in by four blanks."""
    found, lines, at = [], text.split("\n"), 0
    while at < len(lines):
        fence = FENCE.match(lines[at])
        begin = at
        if fence:
            at = lines.index("```", at + 1)
            found.append((begin + 1, fence[1], "\n".join(lines[begin + 1 : at])))
        elif lines[at].startswith("    ") and (not at or not lines[at - 1].strip() or lines[at - 1].startswith("<!--")):
            while at + 1 < len(lines) and (lines[at + 1].startswith("    ") or not lines[at + 1].strip()):
                at += 1
            found.append((begin + 1, "", "\n".join(it[4:] for it in lines[begin : at + 1]).strip("\n")))
        at += 1
    return found


def unmarked(page, text):
    """The blocks of a page that nothing runs and nothing excuses."""
    if not page.startswith(TRIED):
        for line, _, block in blocks_of(text):
            if not block.startswith((*BY_STEP, *BY_NONE)):
                yield f"{page}:{line}: no step runs this block, and tools/dev/test_blocks.py doesn't say why: {block[:40]}"


def how_of(text):
    """How a block is tried, and what stands around it; None of one that isn't known."""
    return next((how for begins, how in HOW.items() if text.startswith(begins)), None)


def set_into(template, given, text):
    """A fragment with what stands around it."""
    return template.replace("GIVEN", given).replace("BLOCK", text)


def fault_of(words, folder, **environment):
    """Runs a command; what it said where it failed, else nothing."""
    ran = subprocess.run(words, cwd=folder, env={**os.environ, **environment}, stdin=subprocess.DEVNULL, stdout=subprocess.PIPE, stderr=subprocess.STDOUT, check=False)
    return ran.stdout.decode(errors="replace") if ran.returncode else ""


def put(path, text):
    os.makedirs(os.path.dirname(path), exist_ok=True)
    with open(path, "w", encoding="utf-8") as file:
        file.write(text)
    return path


def try_c(given, text, room):
    path = put(f"{room}/shown.c", set_into(C, given, text))
    return fault_of(["gcc", "-std=c11", "-Wall", "-Wextra", "-Werror", "-Wno-unused-parameter", "-Wno-unused-but-set-parameter", f"-I{TOP}/embed", "-fsyntax-only", path], room)


def try_rust(given, text, room):
    crate = f'[package]\nname = "shown"\nversion = "0.0.0"\nedition = "2021"\n[dependencies]\ncache-tier = {{ path = "{TOP}/rust/cache-tier", features = ["file_store"] }}\n'
    put(f"{room}/Cargo.toml", crate)
    put(f"{room}/src/lib.rs", set_into(RUST, given, text))
    return fault_of(["cargo", "check", "-q", "--offline"], room, CARGO_TARGET_DIR=f"{TOP}/embed/out/cargo-blocks", CACHE_TIER_LIB=f"{TOP}/embed/out")


def try_python(given, text, room):
    path = put(f"{room}/shown.py", set_into(PYTHON, given, text))
    return fault_of([sys.executable, path], room, CACHE_TIER_LIBRARY=f"{TOP}/embed/out/libcache_tier.so", PYTHONPATH=f"{TOP}/python/src", PYTHONDONTWRITEBYTECODE="1")


def built(text, room):
    """Builds a program in Rattle over the crates, with no proof; gives its path and what was said where that fails."""
    os.makedirs(f"{room}/crates")
    for it in os.listdir(f"{TOP}/crates"):
        os.symlink(f"{TOP}/crates/{it}", f"{room}/crates/{it}")
    shutil.copytree(f"{TOP}/tools/dev", f"{room}/tools/dev", ignore=shutil.ignore_patterns("__pycache__"))
    with open(f"{TOP}/crates.txt", encoding="utf-8") as file:
        put(f"{room}/crates.txt", file.read() + "shown: cache_tier rand_core rand_pcg\n")
    put(f"{room}/crates/shown/src/main.rt", text)
    return f"{room}/program", fault_of([sys.executable, f"{room}/tools/dev/build_unproved.py", "program", "shown", f"{room}/program"], room)


def try_rattle(given, text, room):
    said = built(set_into(RATTLE, given, text), room)[1]
    return "" if "checked: ended status=0" in said else said  # (what nothing calls is compiled, and leaves no program to keep)


def try_quoted(given, text, _room):
    """Whether the block's lines stand one after the other in a file of that folder, blanks aside."""
    wanted = [it.strip() for it in text.split("\n")]
    for name in sorted(os.listdir(os.path.join(TOP, given))):
        with open(os.path.join(TOP, given, name), encoding="utf-8") as file:
            lines = [it.strip() for it in file]
        if any(lines[at : at + len(wanted)] == wanted for at in range(len(lines))):
            return ""
    return f"no file of {given} has these lines"


def try_program(output, text, room):
    """Whether a program writes what the block behind it says."""
    program, said = built(text, room)
    if said:
        return said
    wrote = subprocess.run([program], stdin=subprocess.DEVNULL, stdout=subprocess.PIPE, check=False).stdout.decode(errors="replace").strip("\n")
    return "" if wrote == output else f"it writes\n{wrote}"


def tried_tutorial(language, text, room):
    """Whether a tutorial's program, the blocks of its language one after the other, writes what its last block says."""
    blocks = blocks_of(text)
    program = "\n".join(it for _, of, it in blocks if of == language) + "\n"
    return ran(language, program, [it for _, of, it in blocks if not of][-1], room)


def tried_how_to(page, only):
    """The blocks of a how-to, each with its line and what is wrong with it."""
    with open(os.path.join(TOP, page), encoding="utf-8") as file:
        blocks = blocks_of(file.read())
    for at, (line, language, text) in enumerate(blocks):
        if language in HOW_TO and only in (None, language) and (language != "rust" or shutil.which("cargo")):
            behind = blocks[at + 1] if at + 1 < len(blocks) else (0, "none", "")
            with tempfile.TemporaryDirectory(prefix="block-") as room:
                yield line, ran(language, set_into(HOW_TO[language], "", text), None if behind[1] or how_of(behind[2]) else behind[2], room)
        elif language not in (*HOW_TO, *OTHERS) and not only and not how_of(text) and (not at or blocks[at - 1][1] not in HOW_TO):
            yield line, "no way to try it is known"


def ran(language, program, output, room):
    """What is wrong with a program, which writes this where it isn't None."""
    if language == "python":
        words, said = [sys.executable, "-B", put(f"{room}/shown.py", program)], ""
    elif language == "c":
        words = [f"{room}/shown"]
        made = ["gcc", "-std=c11", "-Wall", "-Wextra", "-Werror", f"-I{TOP}/embed", put(f"{room}/shown.c", program), f"{TOP}/embed/out/libcache_tier.a", "-o", f"{room}/shown"]
        said = fault_of(made, room)
    else:
        put(f"{room}/Cargo.toml", f'[package]\nname = "shown"\nversion = "0.0.0"\nedition = "2021"\n[dependencies]\ncache-tier = {{ path = "{TOP}/rust/cache-tier", features = ["file_store"] }}\n')
        put(f"{room}/src/main.rs", program)
        target = f"{TOP}/embed/out/cargo-blocks"
        said = fault_of(["cargo", "build", "-q", "--offline"], room, CARGO_TARGET_DIR=target, CACHE_TIER_LIB=f"{TOP}/embed/out")
        words = [f"{target}/debug/shown"]
    if said:
        return said
    here = {"CACHE_TIER_LIBRARY": f"{TOP}/embed/out/libcache_tier.so", "PYTHONPATH": f"{TOP}/python/src"}
    done = subprocess.run(words, cwd=room, env={**os.environ, **here}, stdin=subprocess.DEVNULL, stdout=subprocess.PIPE, stderr=subprocess.STDOUT, check=False)
    wrote = done.stdout.decode(errors="replace").strip("\n")
    return "" if wrote == output or output is None and not done.returncode else f"it writes\n{wrote}"


def free_ports(count):
    held = [socket.create_server(("127.0.0.1", 0)) for _ in range(count)]
    ports = [str(it.getsockname()[1]) for it in held]
    for it in held:
        it.close()
    return ports


def tried_commands(text, room):
    """Whether the commands of a page, one after the other in one shell, write what the fenced blocks behind them say."""
    for was, port in zip(PORTS, free_ports(len(PORTS))):
        text = text.replace(was, port)
    blocks = blocks_of(text)
    fenced = {number for number, line in enumerate(text.split("\n"), 1) if line.startswith("```")}
    script = "\n".join(it for line, _, it in blocks if line not in fenced)
    # (as a release has them; and the curve program by plain lists, which write the same)
    lists = f"{sys.executable} -B {TOP}/tools/reference/plain_planner.py"
    moved = {"bin/cache-curve": lists, "bin/cache-plan": f"{sys.executable} -B {TOP}/tools/planner/plan.py --curve-program '{lists}'",
             "libexec/cache-tier": f"{TOP}/tools/planner", "examples/make-log.py": f"{TOP}/release/make-log.py"}
    for was, name in moved.items():
        script = script.replace(was, name)
    for name in ("python", "examples"):
        os.symlink(f"{TOP}/{name}", f"{room}/{name}")
    here = {"CACHE_TIER_LIBRARY": f"{TOP}/embed/out/libcache_tier.so", "PYTHONDONTWRITEBYTECODE": "1"}
    with subprocess.Popen(["sh", "-c", script], cwd=room, env={**os.environ, **here}, stdin=subprocess.DEVNULL, stdout=subprocess.PIPE, start_new_session=True) as shell:
        try:
            wrote = shell.communicate(timeout=120)[0].decode(errors="replace")
        except subprocess.TimeoutExpired:
            wrote = "nothing within 120 s"
        finally:
            try:
                os.killpg(shell.pid, signal.SIGKILL)  # what the page started, where it didn't end it
            except ProcessLookupError:
                pass
    wanted = "\n".join(it for line, _, it in blocks if line in fenced)
    return "" if [it.rstrip() for it in wrote.split("\n")] == [*(it.rstrip() for it in wanted.split("\n")), ""] else f"it writes\n{wrote}"


WAYS = {"c": try_c, "rust": try_rust, "python": try_python, "rattle": try_rattle, "quoted": try_quoted, "program": try_program}


def main():
    parser = argparse.ArgumentParser(description="Compiles and runs the blocks of code of pages.")
    parser.add_argument("--only", choices=sorted(WAYS))
    only, faults, number = parser.parse_args().only, 0, 0
    if not shutil.which("cargo"):
        print("passed over, since cargo isn't there: blocks of Rust")
    for page in PAGES:
        with open(os.path.join(TOP, page), encoding="utf-8") as file:
            blocks = blocks_of(file.read())
        for (line, _, text), behind in zip(blocks, [*blocks[1:], (0, "", "")]):
            way, given = how_of(text) or ("", "")
            if way in ("step", "output") or (only and way not in ("", only)) or (way == "rust" and not shutil.which("cargo")):
                continue
            number += 1
            with tempfile.TemporaryDirectory(prefix="block-") as room:
                said = WAYS[way](behind[2] if way == "program" else given, text, room) if way else "no way to try it is known"
            if said:
                faults += 1
                print(f"{page}:{line}: {said}")
    for language, page in TUTORIALS.items():
        if only not in (None, language) or (language == "rust" and not shutil.which("cargo")):
            continue
        number += 1
        with open(os.path.join(TOP, page), encoding="utf-8") as file, tempfile.TemporaryDirectory(prefix="block-") as room:
            said = tried_tutorial(language, file.read(), room)
        if said:
            faults += 1
            print(f"{page}: {said}")
    for page in sorted({*glob.glob("docs/how-to/*.md", root_dir=TOP)} - {*PLANNING, *OF_PROXY}) if only in (None, *HOW_TO) else ():
        for line, said in tried_how_to(page, only):
            number += 1
            if said:
                faults += 1
                print(f"{page}:{line}: {said}")
    if only in (None, "python") and not shutil.which("curl"):
        print(f"passed over, since curl isn't there: {PROXY}")
    for page in (*([PROXY] if shutil.which("curl") else []), CURVE, *PLANNING) if only in (None, "python") else ():
        number += 1
        with open(os.path.join(TOP, page), encoding="utf-8") as file, tempfile.TemporaryDirectory(prefix="block-") as room:
            said = tried_commands(file.read(), room)
        if said:
            faults += 1
            print(f"{page}: {said}")
    print(f"blocks of code: {number}, {faults} faults")
    return 1 if faults or not number else 0


if __name__ == "__main__":
    sys.exit(main())
