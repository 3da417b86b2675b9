#!/bin/sh
# Makes release/nijpdra-VERSION-linux-x86_64.tar.xz of what a whole .ci/run of this text has left, with the toolchain's own linker and tools, so
# that the same text and toolchain give the same bytes.
#   sh tools/dev/release.sh [--built FOLDER] [--to FOLDER] [--gate FILE] [--unproved] [--folder FOLDER]
# --built: where tier_replay, tier_curve, libcache_tier_c.a and libcache_tier_c.v3.a lie, if not where the gate leaves them.
# --gate: what .ci/run wrote, whose last lines go into the manifest.
# --unproved: what is taken was built without proofs; name and manifest say so.
# --folder: makes that folder alone, and no tarball; it may do without the archive for x86-64-v3.
set -eu
from=$PWD
cd "$(dirname "$0")/../.."
top=$PWD
export LC_ALL=C TZ=UTC0 SOURCE_DATE_EPOCH=0
umask 022
built='' to=$top/release gate=/dev/null folder='' proved=yes
stop() { echo "release: $1" >&2; exit "${2:-1}"; }
while [ $# -gt 0 ]; do
    case $1 in
    --built) built=$(cd "$from" && cd "$2" && pwd); shift ;;
    --to) to=$(cd "$from" && mkdir -p "$2" && cd "$2" && pwd); shift ;;
    --gate) gate=$(cd "$from" && readlink -f "$2"); shift ;;
    --folder) folder=$(cd "$from" && mkdir -p "$2" && cd "$2" && pwd); shift ;;
    --unproved) proved=no ;;
    *) stop "$1 is no option" 2 ;;
    esac
    shift
done
version=$(cat VERSION)
interface=$(sh tools/dev/interface.sh)
sh tools/dev/test-version.sh >/dev/null || stop 'VERSION is not what programs and packages say: sh tools/dev/test-version.sh'
[ "$proved" = no ] || git diff --quiet HEAD -- crates crates.txt || stop 'crates/ has changes that no commit holds'

kit=$(dirname "$(dirname "$(readlink -f "$(command -v rt)")")")
[ -d "$kit/toolchain" ] || kit=$(dirname "$(rt doc | head -n 1)")
work=$(mktemp -d)
trap 'rm -rf "$work"' EXIT
ln -s "$kit/toolchain/bin/clang" "$work/llvm-strip"
if [ -n "$built" ]; then
    replay=$built/tier_replay curve=$built/tier_curve plain=$built/libcache_tier_c.a fast=$built/libcache_tier_c.v3.a
else
    replay=crates/tier_replay/out/tier_replay curve=crates/tier_curve/out/tier_curve
    plain=crates/cache_tier_c/out/libcache_tier_c.a fast=crates/cache_tier_c/out/x86-64-v3/libcache_tier_c.a
fi
[ -z "$folder" ] || [ -f "$fast" ] || fast=''
for it in "$replay" "$curve" "$plain" ${fast:+"$fast"}; do [ -f "$it" ] || stop "there is no $it: run .ci/run first"; done

name=nijpdra-$version-linux-x86_64
[ "$proved" = yes ] || name=$name-unproved
out=$work/$name
mkdir -p "$out/bin" "$out/include" "$out/lib/pkgconfig" "$out/share/man/man1" "$out/examples" "$out/libexec/cache-tier" "$out/docs" "$out/rust" "$out/python"

# Programs
"$work/llvm-strip" --strip-all -o "$out/bin/tier-replay" "$replay"
"$work/llvm-strip" --strip-all -o "$out/bin/cache-curve" "$curve"
install -m 755 release/cache-plan "$out/bin/"
cp tools/planner/plan.py tools/planner/access_log_to_trace.py tools/planner/merge_curves.py "$out/libexec/cache-tier/"
cp tools/planner/response_to_trace.py tools/reference/replay_model.py tools/reference/rules_explain.py tools/reference/rules_model.py "$out/libexec/cache-tier/"
for it in logs planner; do mkdir "$out/libexec/cache-tier/$it" && cp tools/planner/$it/*.py "$out/libexec/cache-tier/$it/"; done

# The library
sh tools/dev/link-library.sh "$plain" "$out/lib"
[ -z "$fast" ] || sh tools/dev/link-library.sh "$fast" "$out/lib/x86-64-v3" "$out/lib/glibc-hwcaps/x86-64-v3"
ln -s "libcache_tier.so.$interface" "$out/lib/libcache_tier.so"
cp embed/cache_*.h "$out/include/"
sed "s/@VERSION@/$version/" release/cache_tier.pc >"$out/lib/pkgconfig/cache_tier.pc"

# The crate, the package
mkdir "$out/rust/cache-tier"
(cd rust/cache-tier && cp -r Cargo.toml Cargo.lock README.md build.rs src examples tests "$out/rust/cache-tier/")
cp LICENSE "$out/rust/cache-tier/"
(cd python && cp -r src tests pyproject.toml backend.py "$out/python/")
find "$out/python" -name __pycache__ -prune -exec rm -rf {} +
cp "$out/lib/libcache_tier.so.$interface" "$out/python/src/cache_tier/libcache_tier.so"
(cd "$out/python" && python3 -B backend.py . >/dev/null)

# Examples, licences, pages
cp release/man/*.1 "$out/share/man/man1/"
cp LICENSE VERSION "$out/"
sed "s/@INTERFACE@/$interface/g" release/Makefile >"$out/Makefile"
cp embed/first.c embed/first_rules.c examples/loop.c examples/mover.c examples/proxy.rs examples/first-run.jsonl examples/logs/combined.log release/make-log.py "$out/examples/"
for it in examples/*.py; do [ ! -f "$it" ] || cp "$it" "$out/examples/"; done
python3 tools/dev/licences.py "$kit" >"$out/LICENSES-OF-LIBRARIES"
cp docs/planning.svg "$out/docs/"
if [ "$proved" = yes ]; then python3 -B tools/dev/release_pages.py "$out"; else python3 -B tools/dev/release_pages.py --unproved "$out"; fi

# The manifest
files_hash() { git ls-files "$@" | sort | xargs sha256sum | sha256sum | cut -c1-64; }
{
    echo "version: $version, interface of C: $interface"
    if [ "$proved" = yes ]; then
        echo "proved: the text below, by the gate"
    else
        echo "proved: NO. This was built of the text below without proofs; nothing is promised of it"
    fi
    echo "text (crates/*/src, specs, proofs, crates.txt): $(files_hash 'crates/*/src/*' 'crates/*/specs/*' 'crates/*/proofs/*' crates.txt)"
    echo "wrappers and scripts (embed, rust, python, tools, release): $(files_hash embed rust python tools release)"
    echo "commit: $(git rev-parse HEAD)$(git diff --quiet HEAD -- . ':!gate' || echo ', with changes')"
    echo "toolchain: $(rt version); compiler $(sed -n 's/^compiler //p' "$kit/WHAT" 2>/dev/null)"
    echo "least processor: x86-64-v2 (from 2009 on), but x86-64-v3 (AVX2 and BMI2, from 2013 on) for what lies in folders named x86-64-v3"
    echo "least glibc: 2.34 for the programs, 2.14 for the shared library"
    if [ -s "$gate" ]; then
        echo "the last lines of the gate's run:"
        tail -n 5 "$gate" | sed 's/^/    /'
    fi
} >"$out/MANIFEST"
(cd "$out" && find . -type f ! -name MANIFEST.sha256 | sort | sed 's|^\./||' | xargs sha256sum >MANIFEST.sha256)

if [ -n "$folder" ]; then
    rm -rf "$folder"
    cp -a "$out" "$folder"
    exit
fi
cd "$work"
tar --sort=name --format=ustar --owner=0 --group=0 --numeric-owner --mtime=@0 --mode=u+rw,go=rX -cf "$name.tar" "$name"
mkdir -p "$to"
xz -9e --threads=1 -c "$name.tar" >"$to/$name.tar.xz"
echo "$to/$name.tar.xz: $(wc -c <"$to/$name.tar.xz") bytes, unpacked $(du -sb --apparent-size "$name" | cut -f1)"
