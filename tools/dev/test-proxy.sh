#!/bin/sh
# Tests examples/proxy.py, proxy.rs and mover.c, the mover over the gateway's reference, that reference, and that HTTP's rules take time linear in their texts,
# over the library that embed/test.sh made, or else over the archive of crates/cache_tier_c. It makes nothing that stays. Where neither is there, they are
# passed over by name; so is what cargo builds without cargo, and what gcc does without gcc.
#   sh tools/dev/test-proxy.sh [LIBRARY.so]
set -eu
from=$PWD
cd "$(dirname "$0")/../.."
archive=crates/cache_tier_c/out/libcache_tier_c.a
library=embed/out/libcache_tier.so
room=$(mktemp -d)
trap 'rm -rf "$room"' EXIT
if [ $# -gt 0 ]; then
    library=$(cd "$from" && readlink -f "$1")
elif [ ! -e "$library" ] && [ -f "$archive" ]; then
    sh tools/dev/link-library.sh "$archive" "$room"
    library=$(ls "$room"/libcache_tier.so.*)
fi
if [ ! -e "$library" ]; then
    echo "passed over, since neither $library nor $archive is there: the movers and HTTP's rules"
    exit 0
fi
CACHE_TIER_LIBRARY=$(readlink -f "$library")
PYTHONPATH=$PWD/python/src
export CACHE_TIER_LIBRARY PYTHONPATH
python3 -B examples/test_proxy.py
PROXY=$PWD/tools/reference/gateway/pump.py python3 -B examples/test_proxy.py
if command -v gcc >"$room/found"; then
    python3 -B examples/test_mover.py
    python3 -B examples/test_clock.py
else
    echo "passed over, since there is no gcc: examples/mover.c, and clocks that are set back"
fi
if command -v cargo >"$room/found"; then
    printf '[package]\nname = "proxy"\nversion = "0.0.0"\nedition = "2021"\n[[bin]]\nname = "proxy"\npath = "%s"\n[dependencies]\ncache-tier = { path = "%s" }\n' \
        "$PWD/examples/proxy.rs" "$PWD/rust/cache-tier" >"$room/Cargo.toml"
    (cd "$room" && CACHE_TIER_LIB=$(dirname "$CACHE_TIER_LIBRARY") CARGO_TARGET_DIR=$room/target cargo build --quiet --offline)
    PROXY=$room/target/debug/proxy python3 -B examples/test_proxy.py
    ! command -v gcc >"$room/found" || PROXY=$room/target/debug/proxy python3 -B examples/test_clock.py
else
    echo "passed over, since there is no cargo: examples/proxy.rs"
fi
for it in tools/reference/gateway/check.py tools/reference/gateway/refuse_face.py tools/reference/test_variants.py tools/reference/test_rules_time.py; do python3 -B "$it"; done
