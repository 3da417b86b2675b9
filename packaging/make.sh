#!/bin/sh
# Makes packages of Debian in OUT, the same bytes of the same text wherever it lies: nijpdra (nijpdra-proxy with its unit, configuration and man pages; and the
# programs tier-replay, cache-curve and cache-plan where they are built), libcache-tier1 and libcache-tier-dev.
#   sh packaging/make.sh OUT
# LIBRARY: the folder of libcache_tier.a and libcache_tier.so.N, embed/out if not given. PROGRAMS: that of tier_replay and tier_curve, or of tier-replay and
# cache-curve, as a release names them, if not where the gate leaves them. PROXY: a nijpdra-proxy that is built already, by this script. SOURCE_DATE_EPOCH: the
# time of all files, that of the last commit if not given.
# Where dpkg-deb, cargo, its crates or the library aren't there it is passed over, by name.
set -eu
[ $# = 1 ] || { sed -n '2,8s/^# *//p' "$0" >&2; exit 2; }
mkdir -p "$1"
out=$(cd "$1" && pwd)
cd "$(dirname "$0")/.."
top=$PWD
export LC_ALL=C TZ=UTC0 DPKG_DEB_THREADS_MAX=1
umask 022
over() { echo "passed over, since $1: packages"; exit 0; }
room=$(mktemp -d)
trap 'rm -rf "$room"' EXIT

library=$(cd "${LIBRARY:-embed/out}" 2>/dev/null && pwd) || library=
version=$(cat VERSION)
interface=$(sh tools/dev/interface.sh)
command -v dpkg-deb >"$room/found" || over 'there is no dpkg-deb'
[ -n "$library" ] && [ -f "$library/libcache_tier.a" ] && [ -f "$library/libcache_tier.so.$interface" ] || over "there is no libcache_tier.a and libcache_tier.so.$interface"
SOURCE_DATE_EPOCH=${SOURCE_DATE_EPOCH:-$(git log -1 --format=%ct 2>/dev/null || echo 0)}
export SOURCE_DATE_EPOCH

# The proxy, in a workspace of its own: cargo and the compiler name what is in a workspace by where it is in that.
if [ -z "${PROXY:-}" ]; then
    command -v cargo >"$room/found" || over 'there is no cargo'
    work=$room/work
    mkdir -p "$work/rust/cache-tier"
    cp -r proxy/src "$work/proxy-src"
    mkdir "$work/proxy" && mv "$work/proxy-src" "$work/proxy/src"
    sed '/^\[profile/,$d' proxy/Cargo.toml >"$work/proxy/Cargo.toml"
    { printf '[workspace]\nmembers = ["proxy"]\nresolver = "2"\n'; sed -n '/^\[profile/,$p' proxy/Cargo.toml; printf 'strip = true\n'; } | sed '/^debug/d' >"$work/Cargo.toml"
    cp proxy/Cargo.lock "$work/"
    cp -r rust/cache-tier/src rust/cache-tier/build.rs rust/cache-tier/Cargo.toml rust/cache-tier/README.md "$work/rust/cache-tier/"
    cp -r rust/cache-tier/examples "$work/rust/cache-tier/"
    registry=/usr/share/cargo/registry
    if [ -d $registry ] && ls $registry | grep -q '^tokio-1'; then
        set -- --config 'source.crates-io.replace-with="debian"' --config "source.debian.directory=\"$registry\""
    else
        (cd "$work" && cargo fetch --offline) >"$room/fetch" 2>&1 || over 'there are no crates of Debian, and cargo has none'
        set --
    fi
    cargo_home=${CARGO_HOME:-$HOME/.cargo}
    (cd "$work" && CARGO_INCREMENTAL=0 CACHE_TIER_LIB=$library CARGO_TARGET_DIR=$room/target \
        RUSTFLAGS="--remap-path-prefix=$work=/usr/src/nijpdra --remap-path-prefix=$room/target=/usr/src/target --remap-path-prefix=$cargo_home=/usr/src/cargo" \
        cargo "$@" build --release --offline --quiet)
    (cd "$work" && cargo "$@" metadata --format-version 1 --offline --filter-platform x86_64-unknown-linux-gnu) >"$room/crates.json"
    python3 -B packaging/licences.py "$room/crates.json" >"$out/nijpdra-proxy.licences"
    install -m 755 "$room/target/release/nijpdra-proxy" "$out/"
    PROXY=$out/nijpdra-proxy
fi

put() { mode=$1 where=$2; shift 2; install -D -m "$mode" -t "$where" "$@"; }
# The newest glibc of which a program asks for something.
least_glibc() { cat "$@" | grep -aoE 'GLIBC_2\.[0-9.]+' | sed 's/GLIBC_//; s/\.$//' | sort -uV | tail -n 1; }
# What a package has in /usr/share/doc, and what it says of itself; then its file: NAME DEPENDS SECTION.
finish() {
    name=$1 depends=$2 section=$3 root=$room/$1
    doc=$root/usr/share/doc/$name
    mkdir -p "$doc"
    { cat packaging/copyright; [ "$name" != nijpdra ] || cat "$PROXY.licences"; cat "$room/licences-of-library"; } >"$doc/copyright"
    gzip -9nc CHANGELOG.md >"$doc/changelog.gz"
    find "$root" -type d -exec chmod 755 {} +
    (cd "$root" && find . -path ./DEBIAN -prune -o -type f -print | sed 's|^\./||' | sort | xargs md5sum) >"$room/md5sums"
    mkdir -p "$root/DEBIAN"
    cp "$room/md5sums" "$root/DEBIAN/md5sums"
    chmod 644 "$root/DEBIAN/md5sums"
    size=$(cd "$root" && find . -path ./DEBIAN -prune -o -type f -printf '%s\n' | awk '{ it += int(($1 + 1023) / 1024) } END { print it + 0 }')
    {
        printf 'Package: %s\nVersion: %s\nArchitecture: amd64\n' "$name" "$version"
        [ "$name" = nijpdra ] || echo 'Source: nijpdra'
        printf 'Maintainer: Nijpdra maintainers <maintainers@users.noreply.nijpdra.example>\n'
        printf 'Installed-Size: %s\nDepends: %s\nSection: %s\nPriority: optional\n' "$size" "$depends" "$section"
        [ ! -x "$root/usr/bin/cache-plan" ] || echo 'Recommends: python3'
        cat "packaging/$name.control"
        [ ! -x "$root/usr/bin/cache-plan" ] || printf ' .\n cache-plan tells from an access log the hit ratio of caches of all sizes.\n'
    } >"$root/DEBIAN/control"
    chmod 644 "$root/DEBIAN/control"
    find "$root" -exec touch -h -d "@$SOURCE_DATE_EPOCH" {} +
    dpkg-deb --root-owner-group -Zxz -z6 --build "$root" "$out/${name}_${version}_amd64.deb" >"$room/said" || { cat "$room/said" >&2; exit 1; }
    echo "${name}_${version}_amd64.deb: $(wc -c <"$out/${name}_${version}_amd64.deb") bytes"
}

# (the parts of the toolchain's own library that are in the programs and the libraries)
: >"$room/licences-of-library"
! command -v rt >"$room/found" || python3 -B tools/dev/licences.py "$(dirname "$(rt doc | head -n 1)")" >"$room/licences-of-library"

# nijpdra
to=$room/nijpdra
put 755 "$to/usr/bin" "$PROXY"
put 644 "$to/usr/lib/systemd/system" proxy/nijpdra-proxy.service
install -D -m 644 proxy/example.toml "$to/etc/nijpdra-proxy.toml"
put 644 "$to/usr/share/doc/nijpdra" packaging/README.Debian
put 644 "$to/usr/share/doc/nijpdra/examples" packaging/examples/*
mkdir -p "$to/usr/share/man/man8" "$to/usr/share/man/man5" "$to/usr/share/man/man1"
"$PROXY" --help >"$room/help"
python3 -B packaging/man.py program "$version" <"$room/help" | gzip -9nc >"$to/usr/share/man/man8/nijpdra-proxy.8.gz"
python3 -B packaging/man.py file "$version" <proxy/example.toml | gzip -9nc >"$to/usr/share/man/man5/nijpdra-proxy.toml.5.gz"
built=${PROGRAMS:-}
program() { # NAME CRATE
    path=${built:-crates/$2/out}/$2
    [ -x "$path" ] || [ -z "$built" ] || path=$built/$1
    [ -x "$path" ] || { echo "nijpdra: without $1, since there is no $path"; return 0; }
    install -D -m 755 "$path" "$to/usr/bin/$1"
    ! command -v strip >"$room/found" || strip --strip-all "$to/usr/bin/$1"
    gzip -9nc "release/man/$1.1" >"$to/usr/share/man/man1/$1.1.gz"
}
program tier-replay tier_replay
program cache-curve tier_curve
if [ -x "$to/usr/bin/cache-curve" ]; then
    put 755 "$to/usr/bin" release/cache-plan
    gzip -9nc release/man/cache-plan.1 >"$to/usr/share/man/man1/cache-plan.1.gz"
    put 644 "$to/usr/libexec/cache-tier" tools/planner/plan.py tools/planner/access_log_to_trace.py tools/planner/merge_curves.py
    for it in logs planner; do put 644 "$to/usr/libexec/cache-tier/$it" tools/planner/$it/*.py; done
fi
rmdir "$to/usr/share/man/man1" 2>/dev/null || true
find "$to/usr/share/man" -type f -exec chmod 644 {} +
mkdir -p "$to/DEBIAN"
echo /etc/nijpdra-proxy.toml >"$to/DEBIAN/conffiles"
for it in postinst prerm postrm; do install -m 755 "packaging/nijpdra.$it" "$to/DEBIAN/$it"; done
chmod 644 "$to/DEBIAN/conffiles"
finish nijpdra "libc6 (>= $(least_glibc "$to"/usr/bin/*)), libgcc-s1" net

# libcache-tier1
to=$room/libcache-tier1 multiarch=usr/lib/x86_64-linux-gnu
put 644 "$to/$multiarch" "$library/libcache_tier.so.$interface"
fast=glibc-hwcaps/x86-64-v3
[ ! -f "$library/$fast/libcache_tier.so.$interface" ] || put 644 "$to/$multiarch/$fast" "$library/$fast/libcache_tier.so.$interface"
mkdir -p "$to/DEBIAN"
echo 'activate-noawait ldconfig' >"$to/DEBIAN/triggers"
echo "libcache_tier $interface libcache-tier$interface" >"$to/DEBIAN/shlibs"
chmod 644 "$to/DEBIAN/triggers" "$to/DEBIAN/shlibs"
finish "libcache-tier$interface" "libc6 (>= $(least_glibc "$to/$multiarch/libcache_tier.so.$interface"))" libs

# libcache-tier-dev
to=$room/libcache-tier-dev
put 644 "$to/usr/include" embed/cache_*.h
put 644 "$to/$multiarch" "$library/libcache_tier.a"
ln -s "libcache_tier.so.$interface" "$to/$multiarch/libcache_tier.so"
[ ! -f "$library/x86-64-v3/libcache_tier.a" ] || put 644 "$to/$multiarch/x86-64-v3" "$library/x86-64-v3/libcache_tier.a"
mkdir -p "$to/$multiarch/pkgconfig"
sed -e "s/@VERSION@/$version/" -e 's|^prefix=.*|prefix=/usr|' -e "s|^libdir=.*|libdir=/$multiarch|" release/cache_tier.pc >"$to/$multiarch/pkgconfig/cache_tier.pc"
chmod 644 "$to/$multiarch/pkgconfig/cache_tier.pc"
finish libcache-tier-dev "libcache-tier$interface (= $version)" libdevel
