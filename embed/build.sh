#!/bin/sh
# Makes out/: the library as an archive and as a shared object, for x86-64-v2 and for x86-64-v3, and the example. It is made from the proved crate, or
# from the archive that ARCHIVE names, and for x86-64-v3 from the one that ARCHIVE_V3 names, if any.
set -eu
cd "$(dirname "$0")"
crate=../crates/cache_tier_c
plain=${ARCHIVE:-$crate/out/libcache_tier_c.a}
fast=${ARCHIVE_V3:-}
if [ -n "${ARCHIVE:-}" ]; then
    :
elif [ -n "${AFTER_GATE:-}" ]; then
    # over what the gate has just proved
    python3 archive.py
    python3 archive.py --cpu x86-64-v3
    fast=$crate/out/x86-64-v3/libcache_tier_c.a
else
    # `rt lib` takes what it proved before, and nothing that has changed since; for another processor it compiles alone
    (cd $crate && rt lib && cp out/libcache_tier_c.a out/made.a && rt lib --cpu x86-64-v3 && mkdir -p out/x86-64-v3 && mv out/libcache_tier_c.a out/x86-64-v3/ && mv out/made.a out/libcache_tier_c.a)
    fast=$crate/out/x86-64-v3/libcache_tier_c.a
fi
mkdir -p out
sh ../tools/dev/link-library.sh "$plain" out
[ -z "$fast" ] || sh ../tools/dev/link-library.sh "$fast" out/x86-64-v3 out/glibc-hwcaps/x86-64-v3
(cd out && ln -sf libcache_tier.so.[0-9]* libcache_tier.so)
gcc -O2 -Wall -Wextra first.c out/libcache_tier.a -o out/first
