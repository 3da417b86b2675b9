#!/bin/sh
# Builds and tests nijpdra-proxy over the library that embed/test.sh made, offline, from Debian's crates (packages librust-tokio-dev, librust-serde-dev,
# librust-serde-derive-dev, librust-toml-dev), or those that cargo has. Where cargo, the crates or the library aren't there it is passed over, by name.
#   sh proxy/test.sh [FOLDER-OF-THE-LIBRARY]
set -eu
cd "$(dirname "$0")"
library=$(cd "${1:-../embed/out}" 2>/dev/null && pwd) || library=
room=$(mktemp -d)
trap 'rm -rf "$room"' EXIT
over() { echo "passed over, since $1: nijpdra-proxy"; exit 0; }

command -v cargo >"$room/cargo" || over 'there is no cargo'
[ -n "$library" ] && [ -f "$library/libcache_tier.a" ] || over 'there is no libcache_tier.a'
registry=/usr/share/cargo/registry
if [ -d $registry ] && ls $registry | grep -q '^tokio-1'; then
    set -- --config 'source.crates-io.replace-with="debian"' --config "source.debian.directory=\"$registry\""
else
    cargo fetch --offline --locked >"$room/fetch" 2>&1 || over 'there are no crates of Debian, and cargo has none'
    set --
fi
CACHE_TIER_LIB=$library
CARGO_TARGET_DIR=${CARGO_TARGET_DIR:-$room/target}
export CACHE_TIER_LIB CARGO_TARGET_DIR
cargo "$@" test --release --offline --quiet
cargo "$@" build --release --offline --quiet
NIJPDRA_PROXY=$CARGO_TARGET_DIR/release/nijpdra-proxy
export NIJPDRA_PROXY
python3 -B tests/test_proxy.py
python3 -B tests/test_limits.py
python3 -B tests/test_paths.py
python3 -B tests/attacks.py
python3 -B tests/tutorial.py
"$NIJPDRA_PROXY" --check example.toml
echo 'nijpdra-proxy: its tests passed'
