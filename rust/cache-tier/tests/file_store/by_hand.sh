#!/bin/sh
# What the gate has no time for: each call and 300 losses of power, a million bodies in 256 MB of memory, 200 kills, and all wrong forms of plants.py. An
# hour of four free cores.
#   CACHE_TIER_LIB=LIB sh rust/cache-tier/tests/file_store/by_hand.sh FOLDER     FOLDER: of a disk with 12 GB of room
set -eu
folder=$1
cd "$(dirname "$0")/../.."
FILE_STORE_WHOLE=1 cargo test --offline --release --features file_store --test file_store -- --nocapture
cargo run --offline --release --features file_store --example mirror -- "$folder/mirror" 200 1000000
rm -rf "$folder/mirror"
python3 tests/file_store/plants.py
echo 'by hand: passed'
