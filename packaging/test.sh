#!/bin/sh
# Makes the packages of packaging/make.sh in two folders, which are the same bytes; looks at them as lintian does; runs nijpdra-proxy as it lies in its package for a
# miss and a hit; and has systemd look at its unit. What isn't installed here is passed over, by name.
#   sh packaging/test.sh [FOLDER-OF-THE-LIBRARY]
# With WHOLE=1 the program is compiled in both folders, else in the first. With APT=1 apt installs them too (packaging/apt.sh).
set -eu
cd "$(dirname "$0")/.."
top=$PWD
library=$(cd "${1:-embed/out}" 2>/dev/null && pwd) || library=
room=$(mktemp -d)
proxy=''
ends() {
    [ -z "$proxy" ] || kill $proxy 2>/dev/null || true
    rm -rf "$room"
}
trap ends EXIT
SOURCE_DATE_EPOCH=$(git log -1 --format=%ct 2>/dev/null || echo 1000000000)
LIBRARY=$library
PROGRAMS=${PROGRAMS:-}
if [ -z "$PROGRAMS" ]; then
    mkdir "$room/programs"
    for it in tier_replay tier_curve; do [ ! -x crates/$it/out/$it ] || cp crates/$it/out/$it "$room/programs/"; done
    PROGRAMS=$room/programs
fi
export SOURCE_DATE_EPOCH LIBRARY PROGRAMS
fail() { echo "packaging: $1" >&2; exit 1; }

# Twice, in two folders
sh packaging/make.sh "$room/one" | tee "$room/said"
! grep -q '^passed over' "$room/said" || exit 0
mkdir -p "$room/far/away/rust" "$room/far/away/embed"
cp -r VERSION CHANGELOG.md LICENSE crates.txt packaging release tools "$room/far/away/"
cp embed/*.h "$room/far/away/embed/"
cp -r rust/cache-tier "$room/far/away/rust/"
mkdir "$room/far/away/proxy"
cp -r proxy/src proxy/Cargo.* proxy/example.toml proxy/nijpdra-proxy.service "$room/far/away/proxy/"
chmod -R go-rwx "$room/far"
[ "${WHOLE:-0}" = 1 ] || PROXY=$room/one/nijpdra-proxy
export PROXY="${PROXY:-}"
(umask 077 && sh "$room/far/away/packaging/make.sh" "$room/two" >"$room/said")
for it in "$room"/one/*.deb; do
    cmp "$it" "$room/two/$(basename "$it")" || fail "$(basename "$it") isn't the same bytes in another folder"
done

# As lintian looks
for it in "$room"/one/*.deb; do dpkg-deb -R "$it" "${it%.deb}"; done
python3 -B packaging/check.py "$room/one" "$top" "$room" "${room%/*}/tmp."
own=$room/nijpdra
dpkg-deb -x "$room"/one/nijpdra_*.deb "$own"

# A miss and a hit, then behind others and in front of them
python3 -B packaging/first_hit.py "$own/usr/bin/nijpdra-proxy" "$own/etc/nijpdra-proxy.toml"
NIJPDRA_PROXY=$own/usr/bin/nijpdra-proxy python3 -B packaging/fronts.py

# A program in C over the other two
if command -v gcc >"$room/found" && command -v pkg-config >"$room/found"; then
    for it in "$room"/one/libcache-tier*.deb; do dpkg-deb -x "$it" "$room/c"; done
    lib=$room/c/usr/lib/x86_64-linux-gnu
    flags=$(PKG_CONFIG_LIBDIR=$lib/pkgconfig PKG_CONFIG_SYSROOT_DIR=$room/c pkg-config --cflags --libs cache_tier)
    # shellcheck disable=SC2086 # several words
    gcc embed/first.c $flags -L"$lib" -I"$room/c/usr/include" -o "$room/first"
    LD_LIBRARY_PATH=$lib "$room/first" >"$room/said" || fail 'embed/first.c over the packages'
else
    echo 'passed over, since there is no gcc or pkg-config: a program in C over the packages'
fi

# Installed, kept by an operator's change, and removed, in a room; the scripts of the package are run
if [ "$(id -u)" = 0 ] && command -v dpkg >"$room/found"; then
    (
        umask 022
        mkdir -p "$room/host/var/lib/dpkg/info" "$room/host/var/lib/dpkg/updates"
        : >"$room/host/var/lib/dpkg/status"
        host() { dpkg --root="$room/host" --log="$room/log" --force-script-chrootless --force-depends --force-confold "$@" >"$room/said" 2>&1 || fail "dpkg $1: $(cat "$room/said")"; }
        host -i "$room"/one/*.deb
        ! grep -q "won't start" "$room/said" || fail "$(cat "$room/said")"
        sed -i 's/^memory/memroy/' "$room/host/etc/nijpdra-proxy.toml"
        host -i "$room"/one/nijpdra_*.deb
        grep -q "won't start.*:4: unknown field" "$room/said" || fail "a wrong configuration isn't told: $(cat "$room/said")"
        grep -q '^memroy' "$room/host/etc/nijpdra-proxy.toml" || fail 'the configuration was taken away'
        host -r nijpdra
        [ ! -e "$room/host/usr/bin/nijpdra-proxy" ] && [ -e "$room/host/etc/nijpdra-proxy.toml" ] || fail 'what a removal leaves'
        host -P nijpdra
        [ ! -e "$room/host/etc/nijpdra-proxy.toml" ] || fail 'what a purge leaves'
    )
    echo 'the packages: installed, kept and removed in a room'
else
    echo 'passed over, since this is not root: an installation in a room'
fi

if [ "${APT:-0}" = 1 ]; then
    sh packaging/apt.sh "$room/one"
else
    echo 'passed over, since it takes a network and APT=1: an installation by apt'
fi

# The unit
if command -v systemd-analyze >"$room/found"; then
    mkdir "$own/bin"
    install -m 755 /bin/kill "$own/bin/" # (the unit's command for a reload is another package's)
    systemd-analyze verify --recursive-errors=no --man=no --root="$own" nijpdra-proxy.service 2>"$room/said" || fail "the unit: $(cat "$room/said")"
    systemd-analyze security --offline=yes --root="$own" --threshold=25 --no-pager nijpdra-proxy.service >"$room/said" 2>&1 || fail "the unit: $(tail -n 3 "$room/said")"
    tail -n 1 "$room/said"
else
    echo 'passed over, since there is no systemd-analyze: a look at the unit'
fi
echo 'packaging: its tests passed'
