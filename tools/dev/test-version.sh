#!/bin/sh
# Compares the file VERSION with what programs, packages and the list of changes say. With the folder of built programs it runs these, else
# it reads their sources.
set -eu
cd "$(dirname "$0")/../.."
version=$(cat VERSION)
failed=0
same() { [ "$2" = "$version" ] || { echo "$1 says '$2' and not $version"; failed=1; }; }
for it in replay curve; do
    program=${1:-crates/tier_$it/out}/tier_$it
    if [ -x "$program" ]; then
        same "tier-$it --version" "$("$program" --version </dev/null | sed 's/.* //')"
    fi
done
same crates/trace_replay "$(sed -n 's/^ *\.version("\(.*\)")$/\1/p' crates/trace_replay/src/command.rt)"
same crates/tier_curve "$(cat crates/tier_curve/src/*.rt | sed -n 's/^ *\.version("\(.*\)")$/\1/p')"
same rust/cache-tier "$(sed -n 's/^version = "\(.*\)"$/\1/p' rust/cache-tier/Cargo.toml)"
same rust/cache-tier/Cargo.lock "$(sed -n 's/^version = "\(.*\)"$/\1/p' rust/cache-tier/Cargo.lock)"
same python/pyproject.toml "$(sed -n 's/^version = "\(.*\)"$/\1/p' python/pyproject.toml)"
same tools/planner/pyproject.toml "$(sed -n 's/^version = "\(.*\)"$/\1/p' tools/planner/pyproject.toml)"
same python/src/cache_tier "$(sed -n 's/^__version__ = "\(.*\)"$/\1/p' python/src/cache_tier/__init__.py)"
same CHANGELOG.md "$(sed -n 's/^## \([0-9.]*\).*$/\1/p' CHANGELOG.md | head -n 1)"
# One number for the interface of C, in the header and the library, and its interface in the list of changes.
header=$(sed -n 's/^#define CACHE_TIER_VERSION \([0-9]*\)\b.*$/\1/p' embed/cache_tier.h)
library=$(cat crates/tier_calls/src/*.rt | sed -n 's/^pub const VERSION: u64 = \([0-9]*\);$/\1/p')
listed=$(sed -n 's/^| \([0-9][0-9]*\) | .*$/\1/p' CHANGELOG.md | head -n 1)
[ "$header" = "$library" ] && [ "$((header / 1000))" = "$listed" ] || { echo "the interface of C: header $header, library $library, list of changes $listed"; failed=1; }
[ "$failed" = 0 ] && echo "version $version, interface of C $header: the same everywhere"
exit "$failed"
