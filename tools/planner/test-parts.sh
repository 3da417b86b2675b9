#!/bin/sh
# Runs tier_curve over eight parts of the keys by GNU parallel and by Dask, merges the curves, and compares the sums with plain
# lists. It wants the packages parallel and python3-distributed, and the program, built or by its path as the first argument;
# where one of them is absent it says so and ends with status 0.
set -eu
cd "$(dirname "$0")/../.."
program=$(realpath -m "${1:-crates/tier_curve/out/tier_curve}")
[ -x "$program" ] || { echo "tier_curve isn't built: the parts aren't tried"; exit 0; }
command -v parallel > /dev/null || { echo "the package parallel is absent: the parts aren't tried"; exit 0; }
python=
for it in python3 /usr/bin/python3; do
    if "$it" -c 'import distributed' 2> /dev/null; then python=$it; break; fi
done
[ -n "$python" ] || { echo "the package python3-distributed is absent: the parts aren't tried"; exit 0; }
room=$(mktemp -d)
trap 'rm -rf "$room"' EXIT
limits=8,80,400,800,1600,80000
python3 tools/reference/plain_curve.py --make 1 > "$room/requests"
for part in 0 1 2 3 4 5 6 7; do
    python3 tools/reference/plain_curve.py --sizes "$limits" --entry-overhead 3 --part "$part/8" < "$room/requests" > "$room/plain$part.csv"
done
python3 tools/planner/merge_curves.py "$room"/plain?.csv > "$room/plain"

parallel --will-cite --jobs 4 "'$program' --sizes $limits --entry-overhead 3 --part {}/8 < '$room/requests' > '$room/part{}.csv'" ::: 0 1 2 3 4 5 6 7
python3 tools/planner/merge_curves.py "$room"/part?.csv > "$room/told"
diff "$room/plain" "$room/told"
echo "GNU parallel: the merged curve is that of the plain lists"

rm "$room"/part?.csv
cat > "$room/run.py" << 'END'
"""Runs the parts on workers of Dask, processes of their own on loopback."""
import subprocess
import sys

from distributed import Client, LocalCluster


def run_part(part, program, limits, room):
    with open(f"{room}/requests", "rb") as requests, open(f"{room}/part{part}.csv", "wb") as told:
        subprocess.run([program, "--sizes", limits, "--entry-overhead", "3", "--part", f"{part}/8"], stdin=requests, stdout=told, check=True)


def main():
    with LocalCluster(n_workers=2, threads_per_worker=2, host="127.0.0.1", dashboard_address=None) as cluster, Client(cluster) as client:
        client.gather(client.map(run_part, range(8), program=sys.argv[1], limits=sys.argv[2], room=sys.argv[3]))


if __name__ == "__main__":
    main()
END
(cd "$room" && "$python" run.py "$program" "$limits" "$room" 2> "$room/dask.log") || { cat "$room/dask.log" >&2; exit 1; }
python3 tools/planner/merge_curves.py "$room"/part?.csv > "$room/told"
diff "$room/plain" "$room/told"
echo "Dask: the merged curve is that of the plain lists"
