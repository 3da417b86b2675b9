#!/bin/sh
# Installs the packages of a folder by apt in a root of their own, with what they depend on from Debian's archive: runs nijpdra-proxy for a miss and a hit there,
# compiles a program of C over the other two, and removes and purges them. It wants root, mmdebstrap and an archive; where one isn't there it is passed over,
# by name. It isn't in the gate, which has no network. Where the folder has no packages they are made there, as packaging/make.sh makes them by LIBRARY.
#   sh packaging/apt.sh FOLDER-OF-PACKAGES [ROOT-OF-DEBIAN]
set -eu
mkdir -p "$1"
debs=$(cd "$1" && pwd)
cd "$(dirname "$0")/.."
room=$(mktemp -d)
chmod 755 "$room"
proxy=''
ends() {
    [ -z "$proxy" ] || kill "$proxy" 2>/dev/null || true
    rm -rf "$room"
}
trap ends EXIT
over() { echo "passed over, since $1: an installation by apt"; exit 0; }
fail() { echo "apt: $1" >&2; exit 1; }
[ "$(id -u)" = 0 ] || over 'this is not root'
root=${2:-$room/root}
if [ ! -d "$root/usr" ]; then
    command -v mmdebstrap >"$room/found" || over 'there is no mmdebstrap'
    mmdebstrap --quiet --variant=apt bookworm "$root" >"$room/said" 2>&1 || over "there is no archive of Debian ($(tail -n 1 "$room/said"))"
fi
within() { env -i PATH=/usr/sbin:/usr/bin:/sbin:/bin DEBIAN_FRONTEND=noninteractive chroot "$root" "$@"; }
ls "$debs"/*.deb >"$room/found" 2>&1 || sh packaging/make.sh "$debs"
ls "$debs"/*.deb >"$room/found" 2>&1 || over 'there are no packages'

mkdir -p "$root/packages"
cp "$debs"/*.deb embed/first.c "$root/packages/"
# (a service isn't started in a room without systemd)
printf '#!/bin/sh\nexit 101\n' >"$root/usr/sbin/policy-rc.d"
chmod 755 "$root/usr/sbin/policy-rc.d"
within sh -c 'apt-get update -qq && apt-get install -qq -y --no-install-recommends /packages/*.deb gcc libc6-dev pkg-config' >"$room/said" 2>&1 || fail "it isn't installed: $(tail -n 5 "$room/said")"
within dpkg --verify nijpdra libcache-tier1 libcache-tier-dev >"$room/said" || fail "what is installed isn't what is packed: $(cat "$room/said")"
within nijpdra-proxy --check /etc/nijpdra-proxy.toml || fail 'its configuration'
within sh -c 'gcc /packages/first.c $(pkg-config --cflags --libs cache_tier) -o /packages/first && /packages/first' >"$room/said" || fail 'a program of C'
[ "$(cat "$room/said")" = hello ] || fail "a program of C says $(cat "$room/said")"
cat >"$room/proxy" <<PROXY
#!/bin/sh
! [ -f "\$1" ] || { cp "\$1" $root/packages/proxy.toml && set -- /packages/proxy.toml; }
exec chroot $root /usr/bin/nijpdra-proxy "\$@"
PROXY
chmod 755 "$room/proxy"
python3 -B packaging/first_hit.py "$room/proxy" "$root/etc/nijpdra-proxy.toml"
within apt-get purge -qq -y nijpdra libcache-tier1 libcache-tier-dev >"$room/said" 2>&1 || fail "it isn't removed: $(tail -n 5 "$room/said")"
left=$(cd "$root" && find etc usr var/lib -name '*nijpdra*' -o -name '*cache_tier*' | grep -v '^var/lib/dpkg/\|^var/lib/systemd' || true)
[ -z "$left" ] || fail "a purge leaves $left"
echo 'the packages: installed by apt, run, and purged'
