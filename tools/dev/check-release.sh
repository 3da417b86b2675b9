#!/bin/sh
# Tries a release as one who has no toolchain and no network: unpacks it into an empty folder, and runs what its README says, with the host's gcc
# and python3, and cargo or rustc where they are. Prints the seconds of each step.
#   sh tools/dev/check-release.sh RELEASE.tar.xz [OTHER.tar.xz]
# With OTHER, made of a text that is to be the same: where both manifests name one text and one toolchain, programs and libraries must be the
# same byte for byte; else it says how the manifests differ, and goes on.
# Before that, while there is a network, apt installs packages over the release's library, where root and an archive are (packaging/apt.sh).
set -eu
file=$(readlink -f "$1")
other=${2:+$(readlink -f "$2")}
top=$(cd "$(dirname "$0")/../.." && pwd)
# (apt.sh says itself what it passes over)
by_apt() {
    packages=$(mktemp -d)
    tar -xJf "$file" -C "$packages"
    status=0
    LIBRARY=$(echo "$packages"/*/lib) sh "$top/packaging/apt.sh" "$packages/debs" || status=1
    rm -rf "$packages"
    return $status
}
# (the script stands in the repository, as this one)
if [ -z "${ALONE:-}" ] && [ -f "$top/packaging/apt.sh" ]; then by_apt || export APT_FAILED=1; fi
# Where the system lets us, the rest runs in a mount and a network of its own: the toolchain's folder is empty there, and nothing is reached.
if [ -z "${ALONE:-}" ]; then
    kit=$(dirname "$(dirname "$(readlink -f "$(command -v rt || echo /bin/rt)")")")
    case $kit in /|/usr|/usr/local) kit='' ;; esac
    if unshare -mn true 2>/dev/null; then
        # shellcheck disable=SC2016
        exec env ALONE=1 unshare -mn sh -c '[ -z "$1" ] || mount -t tmpfs none "$1"; shift; exec sh "$@"' sh "$kit" "$0" "$file" ${other:+"$other"}
    fi
    echo 'check-release: this system gives no mount and network of its own, so the toolchain and the network are only left off the PATH' >&2
fi
room=$(mktemp -d)
trap 'rm -rf "$room"' EXIT
cargo=$(command -v cargo || command -v rustc || true)
# A PATH of the system's own folders, and the one of cargo; HOME stays for the rustc of rustup.
unset RUSTFLAGS PYTHONPATH LD_LIBRARY_PATH PKG_CONFIG_PATH CACHE_TIER_LIB CACHE_TIER_LIBRARY || true
PATH=/usr/bin:/bin${cargo:+:$(dirname "$cargo")}
export PATH
if [ -n "$(command -v rt || true)" ] && rt version >/dev/null 2>&1; then echo 'check-release: rt runs here, so this does not show that a release needs no toolchain' >&2; fi
has() { command -v "$1" >/dev/null 2>&1; }
failed=${APT_FAILED:-0}
step() { # NAME COMMAND..: a function or a command, whose output is kept where it fails
    name=$1 since=$(date +%s.%N)
    shift
    # (not as the condition of an if, where -e would say nothing)
    set +e
    (set -e; "$@") >"$room/said" 2>&1
    status=$?
    set -e
    if [ "$status" = 0 ]; then so=ok; else so=FAILED failed=1; fi
    printf '%-58s %6.2f s  %s\n' "$name" "$(echo "$(date +%s.%N) $since" | awk '{ print $1 - $2 }')" "$so"
    [ "$so" = ok ] || sed 's/^/    /' "$room/said"
}
# hello COMMAND..: it writes exactly that word.
hello() { [ "$("$@")" = hello ]; }

unpacked() { mkdir "$room/r"; tar -xJf "$file" -C "$room/r"; }
step 'unpack' unpacked
cd "$room/r"/*
here=$PWD
interface=$(($(sed -n 's/^#define CACHE_TIER_VERSION \([0-9]*\)\b.*$/\1/p' include/cache_tier.h) / 1000))
version=$(sed -n 's/^version: \([0-9.]*\),.*$/\1/p' MANIFEST)
sed -n 's/^proved: NO/check-release: this release is NOT PROVED/p' MANIFEST
step 'the hash of each file' sha256sum --quiet -c MANIFEST.sha256
versions() {
    [ "$(cat VERSION)" = "$version" ]
    for it in tier-replay cache-curve; do [ "$("bin/$it" --version </dev/null | sed 's/.* //')" = "$version" ]; done
    grep -q "^version = \"$version\"" rust/cache-tier/Cargo.toml
    grep -q "^__version__ = \"$version\"" python/src/cache_tier/__init__.py
    grep -q "^Version: $version" lib/pkgconfig/cache_tier.pc
    [ -f "lib/libcache_tier.so.$interface" ]
}
step 'one version everywhere' versions
pages_lead() {
    for it in tier-replay cache-curve cache-plan; do grep -q "^\.TH" "share/man/man1/$it.1"; done
    [ -z "$(sed -n '/^proved: NO/p' MANIFEST)" ] || head -n 4 README.md | grep -q 'NOT PROVED'
    # (the check stands in the repository, as this script)
    [ ! -f "$top/tools/dev/release_pages.py" ] || python3 -B "$top/tools/dev/release_pages.py" --check .
}
step 'the pages: links, commands, what is proved' pages_lead
curve() {
    bin/cache-plan --help | grep -q '^usage: cache-plan '
    if bin/cache-plan "$room/absent" 2>"$room/why"; then false; fi
    grep -q '^cache-plan: ' "$room/why"
    if { bin/cache-plan --help; cat "$room/why"; } | grep -q 'plan\.py'; then false; fi
    bin/cache-plan examples/combined.log --sizes 10K,100K,1M --output-prefix "$room/curve"
    [ "$(grep -c '^[0-9]' "$room/curve.csv")" = 3 ]
    grep -q '<svg' "$room/curve.svg"
}
step 'a curve of examples/combined.log' curve
long() {
    python3 examples/make-log.py 100000 >"$room/access.log"
    bin/cache-plan "$room/access.log" --sizes 1M..1G | grep -q '^Take'
    [ "$(grep -c '^[0-9]' "$room/access.log.csv")" -ge 40 ]
}
step 'a log of 100,000 requests is made, and its curve' long
first_trace() {
    bin/tier-replay --limit 100 <examples/first-run.jsonl >"$room/out"
    [ "$(sed -n 4p "$room/out")" = 'bytes 616263' ]
    [ "$(wc -l <"$room/out")" = 9 ]
}
step 'the first trace' first_trace
# (the check stands in the repository, as this script)
if [ -f "$top/tools/dev/test_commands.py" ]; then step 'the commands of two tutorials' python3 -B "$top/tools/dev/test_commands.py" .; fi
explained() {
    printf 'HTTP/1.1 200 OK\r\nCache-Control: max-age=60\r\nContent-Length: 2\r\n\r\nhi' >"$room/response"
    python3 -B libexec/cache-tier/response_to_trace.py --at 1000 --explain /a <"$room/response" >"$room/out"
    grep -qx 'rules: stored, 60 seconds by Cache-Control: max-age=60' "$room/out"
    python3 -B libexec/cache-tier/response_to_trace.py --at 1000 --look 5 /a <"$room/response" | bin/tier-replay --limit 100 >"$room/out"
    [ "$(wc -l <"$room/out")" = 5 ]
}
step 'a response explained, and put as a trace' explained
# (the repository's traces, where this script stands in it)
if [ -d "$top/traces" ]; then
    step 'all traces by bin/tier-replay' python3 -B "$top/tools/reference/test_traces.py" "$here/bin/tier-replay"
    step 'all restarts by bin/tier-replay' python3 -B "$top/tools/reference/test_recency.py" "$here/bin/tier-replay"
    step 'all traces and restarts through the shared library' python3 -B "$top/embed/replay.py" "$here/lib/libcache_tier.so"
fi

c_static() { gcc -Wall -Werror -Iinclude examples/first.c "$1" -o "$room/first"; hello "$room/first"; }
c_shared() {
    # shellcheck disable=SC2046
    gcc examples/first.c $(PKG_CONFIG_PATH=lib/pkgconfig pkg-config --cflags --libs cache_tier) -Wl,-rpath,"$here/lib" -o "$room/first"
    hello "$room/first"
}
cxx() { for it in include/cache_*.h; do g++ -std=c++17 -Wall -Werror -fsyntax-only -x c++ "$it"; done; }
# What the shared object exports is what the headers declare, at the version of the interface.
exports() {
    cat include/cache_*.h | grep -oE "\bcache_(tier|rules|gateway)${interface}_[a-z_]+\(" | tr -d '(' | sort -u >"$room/declared"
    for so in lib/libcache_tier.so."$interface" $(find lib/glibc-hwcaps -name '*.so.*' 2>/dev/null); do
        objdump -p "$so" | grep -q "SONAME  *libcache_tier.so.$interface$"
        objdump -T "$so" | sed -n "s/^.* CACHE_TIER_$interface  *//p" | grep -v CACHE_TIER | sort -u | diff "$room/declared" -
    done
}
if has objdump; then step 'the shared library exports what the headers declare' exports; else echo 'passed over, since objdump is not there: the exports'; fi
if has gcc; then
    step 'C: first.c with the archive' c_static lib/libcache_tier.a
    if [ -d lib/x86-64-v3 ] && grep -q avx2 /proc/cpuinfo && grep -q bmi2 /proc/cpuinfo; then
        step 'C: first.c with the archive for x86-64-v3' c_static lib/x86-64-v3/libcache_tier.a
    fi
    if has pkg-config; then step 'C: first.c with the shared library, by pkg-config' c_shared; else echo 'passed over, since pkg-config is not there: C with the shared library'; fi
    if has g++; then step 'C++: the headers' cxx; fi
else
    echo 'passed over, since gcc is not there: C'
fi
installed() {
    make -s install DESTDIR="$room/d" PREFIX=/usr
    "$room/d/usr/bin/cache-plan" examples/combined.log --sizes 10K,1M --output-prefix "$room/again"
    for it in README.md CHANGELOG.md VERSION docs/rules.md docs/proved/tier.md; do [ -f "$room/d/usr/share/doc/cache-tier/$it" ]; done
    [ -f "$room/d/usr/share/man/man1/cache-plan.1" ]
    # shellcheck disable=SC2046
    gcc -I"$room/d/usr/include" examples/first.c -L"$room/d/usr/lib" $(sed -n 's/^Libs: .* \(-l.*\)$/\1/p' "$room/d/usr/lib/pkgconfig/cache_tier.pc") -o "$room/first"
    [ "$(LD_LIBRARY_PATH=$room/d/usr/lib "$room/first")" = hello ]
    make -s uninstall DESTDIR="$room/d" PREFIX=/usr
    [ -z "$(find "$room/d" -type f -o -type l)" ]
}
if has make && has gcc; then step 'make install and uninstall, DESTDIR=, first.c over it' installed; else echo 'passed over, since make or gcc is not there: make install'; fi

example() { cd rust/cache-tier; CARGO_TARGET_DIR=$room/t CARGO_NET_OFFLINE=true hello cargo run -q --example first; }
tests() { cd rust/cache-tier; CARGO_TARGET_DIR=$room/t CARGO_NET_OFFLINE=true cargo test -q; }
pages() { cd rust/cache-tier; CARGO_TARGET_DIR=$room/t CARGO_NET_OFFLINE=true RUSTDOCFLAGS='-D warnings' cargo doc -q --no-deps; }
by_rustc() {
    rustc --edition 2021 -O --crate-type rlib --crate-name cache_tier rust/cache-tier/src/lib.rs -L lib -l static=cache_tier --out-dir "$room"
    rustc --edition 2021 -O rust/cache-tier/examples/first.rs --extern cache_tier="$room/libcache_tier.rlib" -o "$room/first_rs"
    hello "$room/first_rs"
}
if has rustc; then step 'Rust: first.rs by rustc' by_rustc; else echo 'passed over, since rustc is not there: Rust'; fi
if has cargo; then
    step 'Rust: first.rs by cargo' example
    step 'Rust: the tests of the crate' tests
    step 'Rust: the pages of the crate' pages
else
    echo 'passed over, since cargo is not there: the tests of the crate'
fi

by_path() { PYTHONDONTWRITEBYTECODE=1 PYTHONPATH=python/src hello python3 python/tests/first.py; }
step 'Python: first.py by PYTHONPATH' by_path
calls() { for it in calls bounds $([ ! -f include/cache_rules.h ] || echo rules); do PYTHONDONTWRITEBYTECODE=1 PYTHONPATH=python/src python3 python/tests/$it.py; done; }
step 'Python: the tests of the package' calls
wheel() {
    python3 -m venv "$room/venv"
    "$room/venv/bin/pip" install -q --no-index python/*.whl
    hello "$room/venv/bin/python" python/tests/first.py
}
if python3 -c 'import ensurepip' 2>/dev/null; then step 'Python: a venv, the wheel by pip, first.py' wheel; else echo 'passed over, since python3-venv is not there: the wheel'; fi

if [ -n "$other" ]; then
    mkdir "$room/o"
    tar -xJf "$other" -C "$room/o"
    names() { sed -n 's/^text.*: //p; s/^toolchain: //p; s/^proved: //p' "$1"; }
    made_alike() { # what the toolchain alone makes: pages, wrappers and their wheel may have changed since
        pattern='  (bin/tier-|lib/.*[.](a|so[.0-9]*)$)'
        grep -E "$pattern" MANIFEST.sha256 >"$room/a"
        grep -E "$pattern" "$room"/o/*/MANIFEST.sha256 | diff "$room/a" -
    }
    if [ "$(names MANIFEST)" = "$(names "$room"/o/*/MANIFEST)" ]; then
        step 'programs and libraries are the same byte for byte' made_alike
    else
        echo 'not compared: the two are of another text or toolchain:'
        names "$room"/o/*/MANIFEST >"$room/names"
        names MANIFEST | diff - "$room/names" || true
    fi
fi
[ $failed = 0 ] && echo 'release: passed'
exit $failed
