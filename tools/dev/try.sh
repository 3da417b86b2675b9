#!/bin/sh
# A first look, where the toolchain is: builds the programs and the library WITHOUT PROOFS, in six to nine processor minutes, into
# out/try, which is laid out as a release is, and prints what can be run there. Nothing is proved by it.
#   sh scripts/try.sh [FOLDER]
set -eu
cd "$(dirname "$0")/../.."
folder=${1:-out/try}
command -v rt >/dev/null || { echo "try: there is no rt on the PATH, the toolchain's command: see README.md for what runs without it" >&2; exit 1; }
room=$(mktemp -d)
mkdir -p "$room/built"
ends() {
    for it in $jobs; do kill "$it" 2>/dev/null || true; done
    rm -rf "$room"
}
jobs=''
trap ends EXIT
trap 'exit 130' INT
trap 'exit 143' TERM
echo 'try: this builds without proofs. What is proved, and how, is another command: sh .ci/run'
echo 'try: two programs and a library are built side by side, in six to nine processor minutes. Each tells when it is compiled and when it is'
echo 'try: done, three lines each; between these nothing is written for minutes. The last lines say what to run.'
start=$(date +%s)
# (each in a process of its own, which a stop of this script ends)
build() { exec python3 tools/dev/build_unproved.py "$@"; }
build program tier_replay "$room/built/tier_replay" &
jobs=$!
build program tier_curve "$room/built/tier_curve" &
jobs="$jobs $!"
build library "$room/built/libcache_tier_c.a" &
jobs="$jobs $!"
for it in $jobs; do wait "$it" || { echo 'try: a build failed' >&2; exit 1; }; done
jobs=''
sh tools/dev/release.sh --built "$room/built" --unproved --folder "$folder"
python3 "$folder/examples/make-log.py" 100000 >"$folder/access.log"

has() { command -v "$1" >/dev/null 2>&1; }
echo "try: done in $(($(date +%s) - start)) s. Nothing in $folder is proved: MANIFEST there says of which text it was built. Run there:"
echo
echo "    cd $folder"
echo '    bin/cache-plan access.log --sizes 1M..1G                 # what caches of 40 sizes find of a log of 100,000 requests, with a picture'
echo '    bin/tier-replay --limit 100 < examples/first-run.jsonl   # a body is put, read after 5 seconds, and stale after 11'
! has gcc || echo '    gcc -Iinclude examples/first.c lib/libcache_tier.a -o first && ./first                          # a hit from C'
echo '    PYTHONPATH=python/src python3 python/tests/first.py                                             # from Python'
if has cargo; then
    echo '    (cd rust/cache-tier && cargo run -q --example first)                                            # from Rust'
elif has rustc; then
    echo '    rustc --edition 2021 -O --crate-type rlib --crate-name cache_tier rust/cache-tier/src/lib.rs -L lib -l static=cache_tier &&'
    echo '    rustc --edition 2021 -O rust/cache-tier/examples/first.rs --extern cache_tier=libcache_tier.rlib && ./first # from Rust'
fi
