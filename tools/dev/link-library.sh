#!/bin/sh
# Makes of an archive of crates/cache_tier_c what programs link, by the toolchain's own linker and tools, so that the same archive gives the
# same bytes: libcache_tier.a, one object with the toolchain's heap calls that shows the header's calls alone, and libcache_tier.so.N, where N
# is the interface that the header names.
#   sh tools/dev/link-library.sh ARCHIVE FOLDER-OF-A [FOLDER-OF-SO]
set -eu
archive=$1 folder=$2 shared=${3:-$2}
top=$(cd "$(dirname "$0")/../.." && pwd)
kit=$(dirname "$(dirname "$(readlink -f "$(command -v rt)")")")
[ -d "$kit/toolchain" ] || kit=$(dirname "$(rt doc | head -n 1)")
interface=$(sh "$top/tools/dev/interface.sh")
work=$(mktemp -d)
trap 'rm -rf "$work"' EXIT
for it in llvm-nm llvm-objcopy llvm-strip llvm-ar ld.lld; do ln -s "$kit/toolchain/bin/clang" "$work/$it"; done

"$work/llvm-nm" --defined-only --extern-only --just-symbol-name "$archive" | grep -E "^cache_(tier|rules|gateway)${interface}_[a-z_]*$" | LC_ALL=C sort -u >"$work/calls"
# The archive exports what the headers declare, and all of it.
cat "$top"/embed/cache_*.h | grep -oE "\bcache_(tier|rules|gateway)${interface}_[a-z_]+\(" | tr -d '(' | LC_ALL=C sort -u >"$work/declared"
diff "$work/declared" "$work/calls" >&2 || { echo 'link-library: < a header declares it alone, > the archive alone has it' >&2; exit 1; }
{ echo "CACHE_TIER_$interface {"; echo '  global:'; sed 's/$/;/' "$work/calls"; echo '  local: *;'; echo '};'; } >"$work/map"

"$work/ld.lld" -r -o "$work/all.o" --whole-archive "$archive" "$kit/c/liblibc_c.a"
"$work/llvm-objcopy" --keep-global-symbols="$work/calls" --strip-unneeded --remove-section=.llvm_addrsig "$work/all.o" "$work/cache_tier.o"
(cd "$work" && ./llvm-ar rcsD made.a cache_tier.o)
"$work/ld.lld" -shared -soname "libcache_tier.so.$interface" --version-script "$work/map" --gc-sections --no-undefined -z relro -z now -z noexecstack \
    --hash-style=gnu --build-id=sha1 -o "$work/made.so" --whole-archive "$archive" --no-whole-archive "$kit/c/liblibc_c.a" "$kit/toolchain/lib/libc.so.6"
"$work/llvm-strip" --strip-all -o "$work/stripped.so" "$work/made.so"
mkdir -p "$folder" "$shared"
install -m 644 "$work/made.a" "$folder/libcache_tier.a"
install -m 755 "$work/stripped.so" "$shared/libcache_tier.so.$interface"
