#!/bin/sh
# Tests the C library, from C, Python and Rust. It wants gcc, python3 and the proved archive; cargo and valgrind are passed over, by name, where they
# aren't there. `rt` makes the archive, which proves the crates below it first.
set -eu
cd "$(dirname "$0")"
sh build.sh
out=$PWD/out
links=$out/libcache_tier.a
library=$out/libcache_tier.so
lacks() { echo "passed over, since $1 isn't there: $2"; }
has() { command -v "$1" >/dev/null 2>&1; }
made() { # NAME WORDS..: a program of this folder over the archive
    name=$1
    shift
    gcc -D_GNU_SOURCE -std=c11 -Wall -Wextra "$name.c" "$@" -lpthread
}
package() { CACHE_TIER_LIBRARY=$library PYTHONPATH=../python/src python3 -B "$@"; }
crate() { (cd ../rust/cache-tier && CARGO_NET_OFFLINE=true CARGO_TARGET_DIR="$out/cargo" CACHE_TIER_LIB="$out" cargo "$@"); }
sanitized='-O1 -g -fsanitize=address,undefined -fno-sanitize-recover=undefined'

# The headers, as C11 and C++17, without a warning; a first hit.
for it in cache_*.h; do
    gcc -std=c11 -Wall -Wextra -Wpedantic -Werror -fsyntax-only -x c "$it"
    if has g++; then g++ -std=c++17 -Wall -Wextra -Wpedantic -Werror -fsyntax-only -x c++ "$it"; fi
done
made header "$links" -o "$out/header"
"$out/header"
if has g++; then
    # shellcheck disable=SC2086
    g++ -std=c++17 -Wall -Wextra $sanitized scoped.cpp "$links" -o "$out/scoped"
    "$out/scoped"
else
    lacks g++ 'what is found in C++'
fi
[ "$("$out/first")" = hello ]
made first_rules "$links" -o "$out/first_rules"
[ "$("$out/first_rules" | tr '\n' ' ')" = "miss hit hello miss 2 fetches " ]
made first_gateway "$links" -o "$out/first_gateway"
[ "$("$out/first_gateway")" = "miss HTTP/1.1 200 OK hello hit HTTP/1.1 200 OK hello 0 open" ]
# shellcheck disable=SC2086
made gateway $sanitized "$links" -o "$out/gateway"
"$out/gateway"
[ "$(package ../python/tests/first.py)" = hello ]
[ "$(package ../python/tests/first_rules.py)" = '/a: 2 fetches /r: 2 fetches /p: 3 fetches' ]

# A loop over the rules and a tier, in C and in Python: one fetch, and two hits of its variant.
made ../examples/loop -I. "$links" -o "$out/loop"
[ "$("$out/loop")" = "$(printf '200 hello 1\n200 hello 1\n200 hello 1')" ]
package ../examples/test_loop.py

package ../python/tests/calls.py -q
package ../python/tests/bounds.py -q
if [ -f cache_rules.h ]; then package ../python/tests/rules.py -q; fi
package ../python/tests/gateway.py -q

# Each argument out of its range at each export that has one, and each refused allocation of a call: the tables speak of every export.
exports() { cat cache_*.h | grep -oE "\bcache_$1[0-9]+_[a-z_]+\(" | sed 's/^cache_[a-z]*[0-9]*_//; s/($//' | LC_ALL=C sort -u; }
bad() { # NAME WHICH
    # shellcheck disable=SC2086
    made "$1" $sanitized "$links" -Wl,--wrap=malloc,--wrap=realloc -o "$out/$1"
    made "$1" -O1 -g "$links" -Wl,--wrap=malloc,--wrap=realloc -o "$out/$1_plain"
    "$out/$1"
    if has valgrind; then valgrind -q --error-exitcode=9 --leak-check=full "$out/$1_plain"; fi
    [ "$("$out/$1" names | LC_ALL=C sort)" = "$(exports "$2")" ]
}
bad bad_calls tier
if [ -f cache_rules.h ]; then bad bad_rules rules; fi
bad bad_gateway gateway

# The traces, those of restarts and random ones, by each wrapper.
made replay -O2 "$links" -o "$out/replay"
set -- --by "C=$out/replay"
if has cargo; then
    crate test -q --features file_store
    [ "$(crate run -q --example first)" = hello ]
    [ "$(crate run -q --example first_rules | tr '\n' ' ')" = "/a: 2 fetches /r: 2 fetches /p: 3 fetches " ]
    crate build -q --examples --features file_store
    set -- "$@" --by "Rust=$out/cargo/debug/examples/replay"
    rm -rf "$out/mirror"
    "$out/cargo/debug/examples/mirror" "$out/mirror" "${KILLS:-20}" "${BODIES:-100000}"
    rm -rf "$out/mirror"
    (cd ../rust/cache-tier && CARGO_NET_OFFLINE=true CARGO_TARGET_DIR="$out/cargo" CACHE_TIER_LIB="$out" python3 -B tests/file_store/plants.py --minutes "${PLANTS:-1}")
else
    lacks cargo 'the Rust crate'
fi
python3 replay.py "$library" "$@"
rm -rf "$out/random"
mkdir -p "$out/random"
python3 ../tools/reference/random_traces.py --cases "$out/random" "${RANDOM_TRACES:-500}"
python3 replay.py "$library" "$@" "$out/random"

# A day of calls with each allocation failing in turn, by threads, and what takes no memory; random calls on two tiers. With the sanitizers on the side
# of C, and under valgrind.
made day -O1 -g "$links" -Wl,--wrap=malloc,--wrap=realloc -o "$out/day"
"$out/day"
"$out/day" --fail
"$out/day" --no-malloc
# shellcheck disable=SC2086
made day $sanitized "$links" -Wl,--wrap=malloc,--wrap=realloc -o "$out/day_asan"
"$out/day_asan"
"$out/day_asan" --threads
# shellcheck disable=SC2086
made random $sanitized "$links" -o "$out/random_asan"
for seed in 1 2 3 4; do "$out/random_asan" "$seed" "${RANDOM_CALLS:-12000}"; done
if has valgrind; then
    made random -O1 -g "$links" -o "$out/random_calls"
    valgrind -q --error-exitcode=9 --leak-check=full "$out/random_calls" 5 4000
    valgrind -q --error-exitcode=9 --leak-check=full "$out/day"
else
    lacks valgrind 'the look for lost memory'
fi
echo 'embed: passed'
