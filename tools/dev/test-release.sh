#!/bin/sh
# Makes the release twice, from two folders, of what a run of the gate has made; compares the two byte for byte, and tries the first as one who has no
# toolchain and no network (tools/dev/check-release.sh).
#   sh tools/dev/test-release.sh PLACE SAID
# PLACE: the tree in which programs and archives were made. SAID: a file with what the gate has said so far, for the manifest. Run in a checkout,
# it passes over, by name, what it can't do: where a commit doesn't hold all of crates/, nothing is released.
set -eu
place=$(readlink -f "$1") said=$(readlink -f "$2")
cd "$(dirname "$0")/../.."
lacks() { echo "passed over, since $1: the release"; exit 0; }
command -v xz >/dev/null 2>&1 || lacks "xz isn't there"
git rev-parse HEAD >/dev/null 2>&1 || lacks 'this is no checkout of git'
# (the ledger, which the same run of the gate may have written, has no part in a release)
[ -z "$(git status --porcelain -- . ':!gate')" ] || lacks 'there are changes that no commit holds'
room=$(mktemp -d)
trap 'rm -rf "$room"' EXIT
crate=$place/crates/cache_tier_c/out
[ -f "$crate/x86-64-v3/libcache_tier_c.a" ] || lacks "the archive for x86-64-v3 isn't there"
mkdir "$room/built"
cp "$place/crates/tier_replay/out/tier_replay" "$place/crates/tier_curve/out/tier_curve" "$crate/libcache_tier_c.a" "$room/built/"
cp "$crate/x86-64-v3/libcache_tier_c.a" "$room/built/libcache_tier_c.v3.a"
git clone -q . "$room/other"
sh tools/dev/release.sh --built "$room/built" --gate "$said" --to "$room/one"
(cd "$room/other" && sh tools/dev/release.sh --built "$room/built" --gate "$said" --to "$room/two")
name=$(basename "$room"/one/*.tar.xz)
cmp "$room/one/$name" "$room/two/$name"
echo "release: made twice, the same bytes"
sh tools/dev/check-release.sh "$room/one/$name"
