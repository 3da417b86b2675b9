#!/bin/sh
# Tests the planner's scripts: each format of logs with its sample, packed and merged files, what is refused.
# It needs Python 3 alone; zstd is tried where it is installed.
set -eu
cd "$(dirname "$0")/../.."
room=$(mktemp -d)
trap 'rm -rf "$room"' EXIT
read_log() { python3 tools/planner/access_log_to_trace.py --requests "$@" > "$room/out" 2> "$room/told"; }
fail() { echo "$*" >&2; exit 1; }

# each sample is seen to be of its format, and has these requests and removals
sample() {
    read_log "examples/logs/$1" || fail "$1: status $?"
    grep -qx "read as $2" "$room/told" || fail "$1: $(head -n 1 "$room/told")"
    [ "$(wc -l < "$room/out")" -eq "$3" ] || fail "$1: $(wc -l < "$room/out") requests"
    [ -z "${4:-}" ] || [ "$(sed -n 2p "$room/out")" = "$4" ] || fail "$1: $(sed -n 2p "$room/out")"
    ! grep -q '^lines not read' "$room/told" || fail "$1: $(cat "$room/told")"
}
at=1795894961
for name in combined common; do sample "$name.log" combined 8 "$at /b.png?v=2 51200"; done
sample combined.log.gz "gzip, combined" 8 "$at /b.png?v=2 51200"
if command -v zstd > /dev/null; then sample combined.log.zst "zstd, combined" 8 "$at /b.png?v=2 51200"; fi
sample vhost.log "combined with a host in front" 8 "$at www.example.org:443/b.png?v=2 51200"
sample vhost-noport.log "combined with a host in front" 8 "$at www.example.org/b.png?v=2 51200"
sample xff.log "combined with a list of addresses in front" 8 "$at /b.png?v=2 51200"
sample xff-quoted.log "combined with a list of addresses in front" 8 "$at /b.png?v=2 51200"
sample vhost-xff.log "combined with a host and a list of addresses in front" 8 "$at www.example.org/b.png?v=2 51200"
sample squid.log squid 8 "$at http://www.example.org/b.png?v=2 51500"
sample cloudfront.log cloudfront 8 "$at www.example.org/b.png?v=2 51200"
sample s3.log s3 8 "$at pics/b.png 51200"
sample caddy.json json-caddy 8 "$at www.example.org/b.png?v=2 51200"
sample logpush.json json-logpush 8 "$at www.example.org/b.png?v=2 51200"
sample twitter.csv twitter 7 "0 yDqF:3q:1AJrrJ1nnCJKKrnGx1A 54"
sample wikipedia-2019-upload.tsv wikipedia 10 "1 2147483647 5210"
sample meta-cdn.csv meta-cdn 10 "1678000001 k1 2000"
# a line of two operations is two requests, a write none
sample meta-kv-2024.csv meta-kv 12 "2 7602 300"
sample tencent-cbs.csv tencent-cbs 9 "1538323201 1283/64 4096"
sample libcachesim.csv libcachesim-csv 10 "1 11 8192"
sample plain.txt text 10 "$at /k1 200"
sample oracle.bin oracle-general 10 "1 1099511627777 1024"
# a 304, a HEAD and a part of a body don't tell the length; a get that missed has no value; a dash removes
read_log examples/logs/combined.log
[ "$(grep -c ' ?$' "$room/out")" -eq 3 ] || fail "lengths that aren't told: $(cat "$room/out")"
read_log examples/logs/twitter.csv
grep -qx '1 N:1H:1:1N ?' "$room/out" && grep -qx '2 q:q:1:8WTfjZU14ee -' "$room/out" || fail "twitter: $(cat "$room/out")"

# what no format reads is refused with status 1, with its first lines and the formats that are known
refused() {
    want=$1 text=$2
    shift 2
    status=0
    read_log "$@" || status=$?
    [ "$status" -eq "$want" ] && grep -q -- "$text" "$room/told" || fail "status $status, not $want with '$text': $* $(cat "$room/told")"
    [ ! -s "$room/out" ] || fail "something was written: $*"
}
for name in none syslog; do
    refused 1 "no known format" "examples/logs/$name.log"
    grep -q 'one of: combined, common, squid\|--columns time=1' "$room/told" || fail "$name: nothing to do is named: $(cat "$room/told")"
done
grep -q 'Nov 28 19:42:00 host nginx' "$room/told" || fail "no lines are shown"
refused 1 "nothing is in it" examples/logs/empty.log
printf '%s\n' '192.0.2.1 - - [22/Nov/2026:10:00:00 +0000] "POST /a HTTP/1.1" 200 300 "-" "test"' > "$room/posts"
refused 1 "the log was read, and no line of it is a request" "$room/posts"
refused 2 "No such file" "$room/absent"
refused 1 "doesn't say which columns" --format cloudfront examples/logs/plain.txt
refused 1 "10 weren't read" --format squid examples/logs/plain.txt
for mark in 'BZh91AY' '\3757zXZ\0' 'PK\003\004'; do printf "$mark and more" > "$room/packed"; refused 1 "which isn't read here" "$room/packed"; done
head -c 150 examples/logs/combined.log.gz > "$room/cut"
refused 1 "cut short" "$room/cut"

# standard input, two members of gzip, a mark at the beginning, lines that end with CR LF
cat examples/logs/combined.log.gz examples/logs/combined.log.gz | python3 tools/planner/access_log_to_trace.py --requests - > "$room/out" 2> /dev/null
[ "$(wc -l < "$room/out")" -eq 16 ] || fail "two members: $(wc -l < "$room/out")"
read_log examples/logs/combined.log && cp "$room/out" "$room/want"
{ printf '\357\273\277'; sed 's/$/\r/' examples/logs/combined.log; } > "$room/marked"
read_log "$room/marked" && diff "$room/want" "$room/out"

# several files by time, in whatever order they are named, also where they overlap
awk 'NR % 2' examples/logs/combined.log > "$room/odd.log"
awk 'NR % 2 == 0' examples/logs/combined.log | gzip > "$room/even.log.gz"
read_log "$room/odd.log" "$room/even.log.gz" && sort -s -n -k1,1 "$room/want" | cut -d ' ' -f 1 > "$room/moments"
cut -d ' ' -f 1 "$room/out" | diff "$room/moments" - || fail "merged files aren't in order"
sort "$room/out" > "$room/sorted" && sort "$room/want" | diff - "$room/sorted"
head -n 5 examples/logs/combined.log > "$room/first" && tail -n 5 examples/logs/combined.log > "$room/second"
read_log "$room/second" "$room/first" && diff "$room/want" "$room/out"
# CloudFront's lines are in no order
{ head -n 2 examples/logs/cloudfront.log; tail -n 10 examples/logs/cloudfront.log | tac; } > "$room/back.log"
read_log "$room/back.log" && cut -d ' ' -f 1 "$room/out" | sort -n -c || fail "CloudFront's aren't in order"

# a moment and a length out of range are passed over and named, a line of another kind is not read
{ printf '%s\n' '1 a 5' '99999999999999999999 b 5' '3 c 99999999999999999999' '4 d 5' 'no line'; seq 5 24 | sed 's/$/ e 5/'; } > "$room/range"
read_log --format text "$room/range"
[ "$(wc -l < "$room/out")" -eq 22 ] || fail "out of range: $(cat "$room/out")"
grep -qx "lines passed over: 1 time out of range, 1 length out of range" "$room/told" || fail "$(cat "$room/told")"
for line in 2 3 5; do grep -q "range:$line: not read: " "$room/told" || fail "line $line isn't named"; done

# options that no file's format takes are refused by name
refused 2 "--host-field-last doesn't go with squid" --host-field-last examples/logs/squid.log
refused 2 "--methods and --ignore-query don't go with twitter" --methods GET --ignore-query examples/logs/twitter.csv
refused 2 "--methods doesn't go with s3" --methods GET --statuses 200 examples/logs/s3.log
refused 2 "--json-fields doesn't go with combined" --json-fields time=when,key=path,bytes=size examples/logs/combined.log
read_log --host-field-last --ignore-query examples/logs/combined.log examples/logs/squid.log || fail "$(cat "$room/told")"

# a line of 0 operations is none, and one of more than 1,000,000 is passed over and named; one of so many takes no more memory
{ head -n 1 examples/logs/meta-kv-2024.csv; for times in 2 0 1000001 99999999999999999999 x 1; do echo "5,k,get,300,$times,1"; done; for it in $(seq 30); do echo "5,k,set,300,1,1"; done; } > "$room/head"
sed 's/^op_time.*/op_time,key,op,size,op_count,key_size/' "$room/head" > "$room/times"
read_log --format meta-kv "$room/times" || fail "$(cat "$room/told")"
[ "$(grep -cx '5 k 300' "$room/out")" -eq 3 ] && [ "$(wc -l < "$room/out")" -eq 3 ] || fail "times: $(cat "$room/out")"
grep -qx "lines passed over: 30 operation set, 2 times out of range, 1 a head line, 1 0 times" "$room/told" || fail "$(cat "$room/told")"
for line in 4 5 6; do grep -q "times:$line: not read: " "$room/told" || fail "line $line isn't named: $(cat "$room/told")"; done
{ head -n 1 "$room/times"; echo "5,$(head -c 1000 /dev/zero | tr '\0' k),get,300,1000000,1"; } > "$room/many"
# shellcheck disable=SC3045 # dash and bash have -v
[ "$( (ulimit -v 250000; python3 tools/planner/access_log_to_trace.py --requests "$room/many" 2> /dev/null) | wc -l)" -eq 1000000 ] || fail "a line of 1,000,000 requests"

# lines by blocks are what they are one by one
cat examples/logs/combined.log examples/logs/vhost.log examples/logs/xff.log examples/logs/vhost-xff.log examples/logs/common.log > "$room/all.log"
read_log --format combined "$room/all.log" && cp "$room/out" "$room/fast"
python3 - "$room/all.log" << 'EOF' > "$room/slow"
import sys

sys.path.insert(0, "tools/planner")
from logs import combined, records, sources

read = combined.reader(records.Rules(), combined.Layout(records.Rules(), []))
for line in open(sys.argv[1], encoding="utf-8"):
    made = read(line.rstrip("\n"))
    if isinstance(made, records.Request):
        sys.stdout.write(sources.line_of(made).decode())
EOF
diff "$room/slow" "$room/fast"
# and so are lines of any kind, made of what logs have
python3 - << 'EOF' || fail "blocks and single lines differ"
import random
import sys

sys.path.insert(0, "tools/planner")
from logs import combined, records, sources

WORDS = ["203.0.113.7", "2001:db8::7:1", "[2001:db8::1]:443", "10.0.0.1:80", "unknown", "-", "www.example.org", "a.example:443", "frank", "beef", "a,b", "10.0.0.1,", '"x y"', "café"]
TIMES = ["28/Nov/2026:19:42:40 +0000"] * 5 + ["28/Nov/2026:19:42:60 +0130", "28/Nov/2026:19:42:61 +0000", "31/Feb/2026:19:42:40 +0000", "01/Jan/1960:00:00:00 +0000"]
TARGETS = ["/a", "/b?x=1", "/c d", "/\\x22", '/q\\"z', "?", "/\udcff"]
draw = random.Random(1)
lines = []
for _ in range(5000):
    front = " ".join(draw.choice(WORDS) for _ in range(draw.randint(1, 3))) + draw.choice([" - -", " - frank", ""])
    asked = draw.choice(["GET", "GET", "HEAD", "POST"]) + " " + draw.choice(TARGETS) + draw.choice([" HTTP/1.1", ""])
    lines.append(f'{front} [{draw.choice(TIMES)}] "{asked}" {draw.choice(["200", "304", "404"])} {draw.choice(["5", "-", "9" * 30])}{draw.choice(["", " x"])}')
data = "\n".join(lines).encode("utf-8", "surrogateescape") + b"\n"
for rules in (records.Rules(), records.Rules(no_query=True), records.Rules(methods=["HEAD"], statuses=["404"])):
    told = []
    for one_by_one in (True, False):
        layout = combined.Layout(rules, [])
        counts, moments, out, read = sources.Counts(), [], [], combined.reader(rules, layout)

        def slow(at, line):
            made = records.in_range(read(line.decode("utf-8", "surrogateescape")))
            if made is None:
                counts.not_read("", at, "")
            elif isinstance(made, records.Pass):
                counts.pass_over(made.why, "", at, "")
            else:
                moments.append(made.moment)
                out.append(sources.line_of(made))

        if one_by_one:
            for at, line in enumerate(data[:-1].split(b"\n")):
                slow(at, line)
        else:
            combined.Fast(rules, layout, slow, counts)(data, moments, out, records.LENGTHS - 1)
        told.append((moments, out, counts.passed, counts.unread))
    assert told[0] == told[1] and told[0][1], rules
EOF
# fields of JSON by their names
printf '%s\n' '{"when":"2026-11-28T19:42:41Z","at":{"host":"a"},"path":"/b","size":7}' > "$room/own.json"
read_log --json-fields time=when,key=at.host+path,bytes=size "$room/own.json"
[ "$(cat "$room/out")" = "$at a/b 7" ] || fail "JSON: $(cat "$room/out")"
refused 2 "wanted are time=" --json-fields time=when "$room/own.json"
echo "logs: each sample is read as its format, the others are refused"

# the planner, by the plain lists where no program with these options is built: the worked figures of docs/planning.md
program=${1:-crates/tier_curve/out/tier_curve}
for option in ttl standard-sizes interval columns sample; do
    [ -x "$program" ] && "$program" --help | grep -q -- "--$option" || program="python3 tools/reference/plain_planner.py"
done
plan() { python3 tools/planner/plan.py --curve-program "$program" "$@" > "$room/out" 2> "$room/told"; }
has() { grep -q -- "$1" "$room/out" || fail "'$1' isn't there: $(cat "$room/out" "$room/told")"; }
printf '%s\n' '0 a 2' '1 b 1' '2 a 2' '3 c 2' '13 a 2' '14 b 1' '20 d 1' '21 a 2' '24 a 2' '25 b 1' > "$room/worked"
worked="$room/worked --sizes 2,3,5,6 --ttl 10 --entry-overhead 0"
plan $worked --interval 10 || fail "$(cat "$room/told")"
has '^Key: as the log writes it. 4 keys; footprint 6 with 0 bytes .* One-hit wonders: 50 % of the keys, 20 % of the requests, 50 % of the footprint.$'
has '^Responses are fresh for 10 s (--ttl): at any size 20.0 % of the requests can be fresh hits.$'
# size, hit ratio, byte hit ratio, fresh hits, second half; origin, saved, stale of it, turnover; first eviction, idle, memory. Idle is that of 7, 7 and 1 seconds in the middle
has '^ *3  *20.0 %  *25.0 %  *20.0 %  *16.7 % |  *12  *4  *0  *4.0x |  *3s  *7s  *1.08K   <- take this'
has '^ *5  *60.0 %  *62.5 %  *20.0 %  *83.3 % |  *12  *4  *6  *1.2x |  *20s  *5s  *1.62K   8 of 10 of all hits'
has '^ *6  *60.0 %  *62.5 %  *20.0 %  *83.3 % |  *12  *4  *6  *1.0x |  *never  *-  *2.17K   .*the log doesn.t fill it$'
has '^Take 3: fresh hits 20.0 %, 25.0 % of the bytes; at least 9 of 10 of what any size can. 6 adds 0.0 points.$'
has '^To save bytes take 5: hit ratio 60.0 %; 67 % of the hits are stale: for these the origin is asked, and a 304 sends no body.$'
has 'beyond this only a longer TTL gives more fresh hits'
! grep -q 'more entries\|--max-entries' "$room/out" || fail "a bound that isn't there: $(cat "$room/out")"
grep '^5,' "$room/worked.csv" | grep -qx '5,6,10,60.00,62.50,2,4,20.00,25.00,3,20,20' || fail "csv: $(cat "$room/worked.csv")"
# of each ten seconds: requests, hits and fresh hits
for row in '0,5,4,7,1,2,1,2' '10,5,2,3,2,3,0,0' '20,5,4,6,3,5,1,2'; do
    grep -qx "$row" "$room/worked.hours.csv" || fail "no $row: $(cat "$room/worked.hours.csv")"
done
# past a warm-up of ten seconds 5 of 6 requests are hits, and 1 is fresh
plan $worked --warmup 10
has '^ *5  *83.3 %  *[0-9.]* %  *16.7 %'
has 'are of the requests from 10 on'
# no month's bill comes of 25 seconds
plan $worked --price-per-gb 1000000 --price-per-10k-requests 10
has '^No cost is told: it needs an hour of log in which the caches are warm.$'
# of two hours the second is reckoned up: there a is asked for and fresh but each third minute, a new key each minute never
awk 'BEGIN { for (at = 0; at <= 120; at++) { print at * 60, "a", 1000; print at * 60, "b" at, 500 } }' > "$room/steady"
plan "$room/steady" --sizes 1000,5000,100000 --ttl 120 --entry-overhead 0 --price-per-gb 1000000 --price-per-10k-requests 1000 --memory-price-per-gb-month 1 || fail "$(cat "$room/told")"
has '^Take 5K: it costs least, '
python3 - "$room/out" "$room/steady.csv" << 'EOF' || fail "the cost: $(cat "$room/out")"
import re
import sys

text = open(sys.argv[1], encoding="utf-8").read()
costs = {size: float(cost.replace(",", "")) for size, cost in re.findall(r"^ *([0-9.]+K) .*\| +([0-9,.]+)(?:   .*)?$", text, re.MULTILINE)}
assert set(costs) == {"1.00K", "5.00K", "100K"} and costs["5.00K"] == min(costs.values()), (costs, text)
# of 5K: half of the log is from the 60th minute on; it fetches each b and each third a
minutes = float(re.search(r"2nd half: the requests from (\d+) on", text)[1]) / 60
asks = (121 - minutes) + (121 - minutes) / 3
wanted = (asks * 1000 / 10**4 + ((121 - minutes) * 500 + (121 - minutes) / 3 * 1000) / 10**9 * 10**6) * 30 * 86400 / (7200 - minutes * 60)
assert abs(costs["5.00K"] - wanted) < 0.02 * wanted, (costs, wanted)
EOF
plan $worked
python3 - "$room/worked.svg" << 'EOF' || fail "the picture"
import sys
import xml.dom.minidom

text = open(sys.argv[1], encoding="utf-8").read()
words = [it.firstChild.data for it in xml.dom.minidom.parseString(text).getElementsByTagName("text")]
wanted = ["10 s: at most 20.0 % fresh hits", "take this", "hit ratio 60 %", "fresh hits 20 %", "byte hit ratio 62 %", "fresh byte hits 25 %"]
assert all(it in words for it in wanted), words
assert any("exact" in it for it in words) and text.count("stroke-dasharray") >= 4 and "<script" not in text
EOF
# with a lifetime past the log's end nothing is stale: then no longer one gives more
plan "$room/worked" --sizes 2,3,5,6,12 --ttl 1000 --entry-overhead 0
has '^ *5  *60.0 %  *62.5 %  *60.0 % .*every repeated request is a hit'
has '^Take 5: fresh hits 60.0 %, 62.5 % of the bytes; at least 9 of 10 of what any size can. 12 adds 0.0 points.$'
! grep -q 'longer TTL\|To save bytes\|knee' "$room/out" || fail "something gives more: $(cat "$room/out")"
# where no size has as many it is said how far others go: up to what all keys weigh
plan "$room/worked" --sizes 2,3 --ttl 1000 --entry-overhead 0
has '^None of these sizes: the greatest, 3, has fresh hits [0-9.]* % of 60.0 % that any size can. Name larger --sizes, up to the footprint of 6.$'
# at most two entries let keys go at every size: the footprint doesn't change by it, and what bounds the hits is named
plan "$room/worked" --sizes 2,3,5,6,12 --ttl 1000 --entry-overhead 0 --max-entries 2
has '4 keys; footprint 6 with'
has '^ *5  *30.0 %  *[0-9.]* %  *30.0 % .*beyond this only more entries give more hits$'
has 'at any size under this --max-entries 30.0 % of the requests can be fresh hits.$'
! grep -q 'every repeated\|longer TTL' "$room/out" || fail "not the watermark: $(cat "$room/out")"
plan "$room/worked" --sizes 2,3,5,6,12 --ttl 10 --entry-overhead 0 --max-entries 2
has '^ *3  *20.0 %  *[0-9.]* %  *20.0 % .*beyond this only a longer TTL or more entries give more fresh hits$'
# a bound of entries that lets no key go that is asked for again bounds nothing
plan "$room/worked" --sizes 2,3,5,6,12 --ttl 10 --entry-overhead 0 --max-entries 3
! grep -q -- '--max-entries' "$room/out" || fail "a bound that isn't there: $(cat "$room/out")"
# a key that is removed and loaded again weighs once
printf '%s\n' '0 a 2' '1 b 1' '2 a -' '3 a 2' '4 b 1' > "$room/removed"
plan "$room/removed" --sizes 2,3,5 --entry-overhead 0
has '2 keys; footprint 3 with'
# 1,000 keys that are asked once, and one that is asked 1,000 times: from its size on no doubling finds 1 % more, which is said of the least size
awk 'BEGIN { for (at = 0; at < 1000; at++) { print at, "k", 10; print at, "once" at, 10 } for (at = 0; at < 10; at++) print 1000, "once" at, 10 }' > "$room/flat"
plan "$room/flat" --sizes 10,30,100,200,400,1000,4000,20000 --entry-overhead 0
has '^ *30  *49.7 % .*knee: beyond this a doubling adds less than 1 %'
[ "$(grep -c knee "$room/out")" -eq 1 ] || fail "marked twice: $(cat "$room/out")"
# lengths that change: a key of 2 bytes has 5, and then 1
printf '%s\n' '0 a 2' '1 b 1' '2 a 5' '3 a 1' > "$room/odd"
plan "$room/odd" --sizes 2,5 --entry-overhead 0
has '^2 requests for 1 key by another length than the key.s first: a share may be that of a size at most 3 smaller or larger. '
# a length that isn't told is that of the key, wherever the log tells it
printf '%s\n' '0 a ?' '1 a 2' '2 a ?' > "$room/untold"
plan "$room/untold" --sizes 2,5 --entry-overhead 0 || fail "$(cat "$room/told")"
! grep -q 'left out\|reckoned' "$room/out" || fail "a length that is told: $(cat "$room/out")"
grep -q '^2,2,4,66.66,66.66,' "$room/untold.csv" || fail "lengths that aren't told: $(cat "$room/untold.csv")"
# moments that go back are put in order first: b at 3, a at 10, c at 13
printf '%s\n' '10 a 2' '3 b 2' '13 c 2' > "$room/back"
plan "$room/back" --sizes 2,5 --entry-overhead 0 --ttl 10 || fail "$(cat "$room/told")"
has '^ *2  .* |  *7s  *0s  '
has '^ *5  .* |  *10s  *3s  '
has '^1 request went back in time: the requests were sorted first.$'
# so is a log of which a hundredth goes back, and one that is turned round answers as before
plan "$room/worked" --sizes 2,3,5,6 --ttl 10 --entry-overhead 0
grep '^[0-9u]' "$room/worked.csv" > "$room/forward"
tac "$room/worked" > "$room/turned"
plan "$room/turned" --sizes 2,3,5,6 --ttl 10 --entry-overhead 0 || fail "$(cat "$room/told")"
grep '^[0-9u]' "$room/turned.csv" | diff "$room/forward" -
# heads: 438 bytes an entry, 38 where the log counts them
plan examples/logs/squid.log --sizes 1K,20K --output-prefix "$room/squid"
has 'with 38 bytes of overhead an entry (--entry-overhead; the log.s lengths are with heads)'
# the round sizes from 1 % to all of what the keys weigh, and the other policies beside the same LRU
python3 tools/reference/plain_planner.py --make 5 3000 > "$room/day"
plan "$room/day" --compare-policies
cut -d, -f1 "$room/day.csv" | grep -c '^[0-9]' > "$room/count"
[ "$(cat "$room/count")" -ge 40 ] && [ "$(cat "$room/count")" -le 46 ] || fail "$(cat "$room/count") sizes"
has 'simulated, not proved'
lru=$(python3 - "$room/day.csv" << 'EOF'
import sys

rows = [it.split(",") for it in open(sys.argv[1]) if it[:1].isdigit()]
print(*(f"{100 * int(it[1]) / 3000:.1f}" for it in rows))
EOF
)
for share in $(sed -n '/^simulated/,$p' "$room/out" | awk 'NR > 2 && $3 == "%" { print $2 }'); do
    case " $lru " in *" $share "*) ;; *) fail "LRU $share isn't the curve's: $lru" ;; esac
done
# a simulation that isn't the curve's is refused: here the program counts other heads
cat > "$room/other" << EOF
#!/bin/sh
exec $(case $program in python3*) echo python3 "$PWD/tools/reference/plain_planner.py" ;; *) realpath "$program" ;; esac) "\$@" --max-entries 100
EOF
chmod +x "$room/other"
status=0
python3 tools/planner/plan.py --curve-program "$room/other" "$room/day" --compare-policies > "$room/out" 2> "$room/told" || status=$?
[ "$status" -eq 1 ] && grep -q "the policies aren't printed" "$room/told" && ! grep -q simulated "$room/out" || fail "status $status: other policies"

# options that don't go together, by name and with status 2
wrong() {
    text=$1
    shift
    status=0
    plan "$room/worked" "$@" || status=$?
    [ "$status" -eq 2 ] && grep -q -- "$text" "$room/told" && [ ! -s "$room/out" ] || fail "status $status: $* $(cat "$room/told")"
}
wrong "--sample-parts goes with --sample" --sample-parts 3
wrong "--interval doesn't go with --sample" --sample 1/10 --interval 5
wrong "--warmup doesn't go with --sample" --sample 1/10 --warmup 5
wrong "--compare-policies doesn't go with --sample" --sample 1/10 --compare-policies
wrong "don't go with --max-entries" --compare-policies --max-entries 5
wrong "--sample is such as 1/100" --sample 2/10
wrong "--sample-parts is from 2 to 4" --sample 1/5 --sample-parts 5
wrong "--steps goes with --sizes" --steps 3
wrong "such as 2M..200M or 1M,10M,100M are wanted" --sizes 5..1
wrong "such as 2M..200M or 1M,10M,100M are wanted" --sizes 10X
wrong "a duration is such as" --ttl 1y
wrong "a duration is such as" --ttl=-1
wrong "--sort doesn't go with twitter" --sort --format twitter
wrong "wanted are time=" --json-fields time=x
wrong "--ignore-query doesn't go with text" --ignore-query
wrong "--methods and --statuses don't go with text" --methods GET --statuses 200
wrong "--host-field-last doesn't go with text" --host-field-last
wrong "--json-fields doesn't go with text" --json-fields time=a,key=b,bytes=c
wrong "--sort and --max-body don't go with twitter" --sort --max-body 1M --format twitter
# what the program refuses as a bad command line is one of the planner's: K doesn't divide the limit
wrong "the curve program ended with status 2" --sample 1/3 --sample-parts 2 --sizes 10
status=0
plan - < "$room/worked" || status=$?
[ "$status" -eq 2 ] && grep -q -- '--output-prefix says where' "$room/told" || fail "standard input without --out"
cp "$room/worked" "$room/worked2.csv"
status=0
plan "$room/worked2.csv" --output-prefix "$room/worked2" || status=$?
[ "$status" -eq 2 ] && grep -q 'is a log: --output-prefix says where' "$room/told" && cmp "$room/worked" "$room/worked2.csv" || fail "a log is written over"
status=0
plan "$room/worked" --output-prefix "$room/absent/x" || status=$?
[ "$status" -eq 2 ] && grep -q "can't be written" "$room/told" || fail "a folder that isn't there"
status=0
plan examples/logs/none.log || status=$?
[ "$status" -eq 1 ] && [ ! -s "$room/out" ] && [ ! -e examples/logs/none.log.csv ] || fail "a log of no format"
status=0
plan "$room/worked" examples/logs/twitter.csv || status=$?
[ "$status" -eq 1 ] && grep -q "don't go together: text, twitter" "$room/told" || fail "two kinds of files"
# a log that the program reads itself, of which more than a tenth of the lines wasn't read; empty ones don't count
{ seq 1000 | sed 's/$/ a 5/'; seq 1001 | sed 's/$/ wrong/'; } > "$room/half"
status=0
plan "$room/half" --sizes 10 || status=$?
[ "$status" -eq 1 ] && grep -q "of 2,001 lines 1,001 weren't read" "$room/told" && [ ! -e "$room/half.csv" ] || fail "status $status: half of the lines: $(cat "$room/told")"
{ seq 1000 | sed 's/$/ a 5/'; seq 100 | sed 's/$/ wrong/'; seq 1001 | sed 's/.*//'; } > "$room/half"
plan "$room/half" --sizes 10 || fail "empty lines: $(cat "$room/told")"
# lines of 0 and of too many operations, where the program reads them itself
plan "$room/times" --format meta-kv --sizes 10K --entry-overhead 0 || fail "$(cat "$room/told")"
grep -q '^# format=1 requests=3 .* skipped_lines=3 ' "$room/times.csv" || fail "the program has no bound of times: $(grep requests= "$room/times.csv")"
has '1 keys; footprint 300 '
# the public traces that tier_curve reads by columns: each line is what the script reads of it
for it in twitter.csv:5 meta-kv-2024.csv:11 meta-cdn.csv:10 wikipedia-2019-upload.tsv:10 libcachesim.csv:10 oracle.bin:10 plain.txt:9 tencent-cbs.csv:9; do
    plan "examples/logs/${it%:*}" --sizes 1K,20K --output-prefix "$room/trace" || fail "${it%:*}: $(cat "$room/told")"
    grep -q "^# format=1 requests=${it#*:} " "$room/trace.csv" || fail "${it%:*}: $(cat "$room/trace.csv")"
done
echo "the planner: figures, hours, picture, policies and refusals as expected"

# the program that is built, with the options that it has, finds what the plain lists find
built=${1:-crates/tier_curve/out/tier_curve}
if [ ! -x "$built" ]; then
    echo "tier_curve isn't built: that it finds what the plain lists find is left out"
else
    sed '/^179583/s/ [0-9]*$/ ?/' "$room/day" > "$room/partly"
    name=built
    for it in "$built" "python3 tools/reference/plain_planner.py"; do
        python3 tools/planner/plan.py --curve-program "$it" "$room/partly" --sizes 100K,1M,10M --output-prefix "$room/by" > "$room/out" 2> "$room/told" || fail "$it: $(cat "$room/told")"
        grep '^[0-9]' "$room/by.csv" | cut -d, -f1-5 > "$room/rows.$name"
        has 'at any size at most so many of the requests can be fresh hits'
        sed -n 's/^No --ttl/No --ttl/p' "$room/out" >> "$room/rows.$name"
        name=plain
    done
    diff "$room/rows.plain" "$room/rows.built"
    # public traces by their columns, and a sample
    for log in twitter.csv meta-kv-2024.csv meta-cdn.csv libcachesim.csv wikipedia-2019-upload.tsv plain.txt "day --sample 1/4 --sample-parts 3"; do
        case $log in day*) set -- "$room/"$log ;; *) set -- "examples/logs/$log" ;; esac
        name=built
        for it in "$built" "python3 tools/reference/plain_planner.py"; do
            python3 tools/planner/plan.py --curve-program "$it" "$@" --sizes 3K,1M,20M,40M --output-prefix "$room/by" > "$room/out" 2> "$room/told" || fail "$it: $log: $(cat "$room/told")"
            grep '^[0-9u]' "$room/by.csv" | cut -d, -f1-9 > "$room/rows.$name"
            grep -q '^unlimited,[1-9]' "$room/rows.$name" || fail "$it: $log: nothing is found"
            name=plain
        done
        diff "$room/rows.plain" "$room/rows.built" || fail "$log"
    done
fi

# fresh and stale finds are those of a tier, driven line by line: an entry weighs its body and its meta, which takes 85 bytes and the
# digits of the body's length
cat > "$room/model.py" << 'EOF'
import sys

sys.path.insert(0, "tools/reference")
import replay_model

tier = replay_model.Tier(**replay_model.options_of(sys.argv[1:]))
for line in sys.stdin.buffer:
    print(replay_model.answer(tier, line.rstrip(b"\n")), flush=True)
print(tier.report())
EOF
python3 tools/reference/plain_curve.py --make 2 | awk 'NF == 3 && $3 ~ /^([1-9][0-9]*|-)$/ && length($3) < 9 { print $1 * 50 + 100000, $2, $3 }' > "$room/log"
awk '{ print $1, $2, $3 == "-" ? $3 : $3 + 85 + length($3) }' "$room/log" > "$room/weighed"
plan "$room/weighed" --sizes 300,900,3500 --entry-overhead 0 --ttl 3600 || fail "$(cat "$room/told")"
for limit in 300 900 3500; do
    python3 tools/planner/access_log_to_trace.py --drive "python3 $room/model.py --limit $limit" "$room/log" 2> /dev/null | sed -n 1p > "$room/driven"
    want=$(awk -F, -v limit="$limit" '$1 == limit { print "fresh=" $6 " stale=" $2 - $6 }' "$room/weighed.csv")
    grep -q " $want " "$room/driven" || fail "a tier: $(cat "$room/driven"), the curve: $want"
done
echo "fresh finds: those of a tier at three limits"

# the estimate worked by hand: of 1,000 requests 500, 520 and 480 aren't found by ten times each part
part() {
    printf '%s\n' size,hits,hit_bytes,hit_percent,byte_hit_percent "100000,$3,$4,$5" \
        "# format=1 requests=$1 unique_keys=5000 deletes=0 size_changes=0 skipped_lines=0 request_bytes=$7 stated_bytes=$2 part=$6/10 entry_overhead=0 lines_read=1000 total_requests=1000 total_bytes=50000" \
        "# estimate: one of 10 parts of the keys"
}
# what is found is by the first lengths, what is asked by those of the lines
part 120 5600 70 2500 58.33,50.00 0 5000 > "$room/part0"
part 80 4300 28 1500 35.00,34.88 1 4300 > "$room/part1"
part 95 5100 47 2300 49.47,41.81 2 5500 > "$room/part2"
merge() { python3 tools/planner/merge_curves.py "$@" > "$room/out" 2> "$room/told"; }
merge --estimate "$room/part0" "$room/part1" "$room/part2"
has '^ *100000  *50.0 % ± 4.2  *42.0 % ± 7.2$'
has '^# estimate: 3 of 10 parts of the keys; in trials of 5 of 100 each ± held 92 times in 100, a whole curve in 7 of 10$'
! grep -q exact "$room/out" || fail "an estimate says exact"
merge --estimate --csv "$room/part2" "$room/part0" "$room/part1"
has '^100000,500,21000,50.00,42.00,4.16,7.20$'
# each row has an interval of its own
for it in 0 1 2; do sed 's/^100000,\(.*\)/&\n200000,\1/' "$room/part$it" > "$room/twice$it"; done
merge --estimate "$room/twice0" "$room/twice1" "$room/twice2"
has '^ *100000  *50.0 % ± 4.2  *42.0 % ± 7.2$'
has '^ *200000  *50.0 % ± 4.2  *42.0 % ± 7.2$'
# the interval without the share of the parts that were taken: 5.0, of two parts alone 12.7 times the error
merge --estimate "$room/part0" "$room/part1"
has '^ *100000  *49.0 % ± 11.4 '
# one of the files may be of --part: the others say how many requests there are
sed 's/ stated_bytes=[0-9]*//;s/ total_requests=.*//' "$room/part1" > "$room/plain1"
merge --estimate "$room/part0" "$room/plain1" "$room/part2"
has '^ *100000  *50.0 % ± 4.2 '
# few keys a part, and a cache of fewer than 100 mean weights
sed 's/unique_keys=5000/unique_keys=4999/' "$room/part0" > "$room/few0"
merge --estimate "$room/few0" "$room/part1" "$room/part2"
has '; few keys$'
# of 1,000 requests 10 may be without a length, reckoned from those that the parts left out; 13 are too many
sed 's/ stated_bytes=[0-9]*/& requests_without_size=3/' "$room/part0" > "$room/untold0"
merge --estimate "$room/untold0" "$room/part1" "$room/part2"
has '^ *100000  *50.0 % ± 4.2 '
for it in 0 1 2; do sed 's/unique_keys=5000/unique_keys=50/' "$room/part$it" > "$room/heavy$it"; done
sed -i 's/^100000,/50000,/' "$room"/heavy?
merge --estimate "$room/heavy0" "$room/heavy1" "$room/heavy2"
has '^ *50000  *-  *-$'
refuse() {
    text=$1
    shift
    status=0
    merge "$@" || status=$?
    [ "$status" -eq 2 ] && grep -q -- "$text" "$room/told" && [ ! -s "$room/out" ] || fail "status $status, '$text': $* $(cat "$room/told")"
}
refuse "part 0 is there twice" --estimate "$room/part0" "$room/part0"
refuse "wants 2 to 9 of 10 parts, not 1" --estimate "$room/part0"
for it in 0 1 2; do sed 's|/10 |/3 |;s/one of 10/one of 3/' "$room/part$it" > "$room/whole$it"; done
refuse "wants 2 to 2 of 3 parts, not 3" --estimate "$room/whole0" "$room/whole1" "$room/whole2"
refuse "part 3 of 10 is missing" "$room/part0" "$room/part1" "$room/part2"
refuse "one must be of --sample" --estimate "$room/plain1"
refuse "--csv goes with --estimate" --csv "$room/part0"
sed 's/ stated_bytes=[0-9]*/& requests_without_size=4/' "$room/part0" > "$room/untold0"
refuse "13 of 1,000 requests tell no length" --estimate "$room/untold0" "$room/part1" "$room/part2"
sed 's/total_requests=1000/total_requests=1001/' "$room/part1" > "$room/wrong"
refuse "the numbers of requests in all differ" --estimate "$room/part0" "$room/wrong"
sed 's/50.00,42/50.00,43/;s/,34.88/,34.89/' "$room/part1" > "$room/wrong"
refuse "no curve of a part" --estimate "$room/part0" "$room/wrong"
# rows of --interval are left out, by name
for it in 0 1; do python3 tools/reference/plain_planner.py --sizes 2,6 --ttl 10 --interval 10 --part "$it/2" < "$room/worked" > "$room/by$it"; done
merge "$room/by0" "$room/by1" || fail "$(cat "$room/told")"
for it in 0 1; do grep -q "by$it: its rows of --interval are left out" "$room/told" || fail "no word of --by: $(cat "$room/told")"; done
# where lines tell lifetimes, how far fresh finds are off isn't known
awk '{ print $0, 40000 }' "$room/day" | python3 tools/reference/plain_planner.py --sizes 2M,20M,40M --sample 1/4 --sample-parts 3 --columns time=1,key=2,bytes=3,ttl=4 > "$room/told-lives"
merge --estimate "$room/told-lives"
has '^ *20000000  .* % ± .* % ± [0-9.]*  *-  *-$'
sed 's/ ttl= / ttl=40000 /' "$room/told-lives" > "$room/all-lives"
merge --estimate "$room/all-lives"
has '^ *20000000  .* % ± .* % ± .* % ± .* % ± '
# through the planner: the estimate's columns, bands and words
plan "$room/day" --sample 1/4 --sample-parts 3 --ttl 40000 --sizes 2M,20M,40M || fail "$(cat "$room/told")"
has '^Below 20M the caches of the parts hold too few bodies to tell.$'
has ' some .* keys; footprint '
has ' % ± [0-9.]* '
has '^estimate: 3 of 4 parts of the keys; in trials of 5 of 100 each ± held 92 times in 100, a whole curve in 7 of 10; few keys.$'
! grep -q exact "$room/out" || fail "an estimate says exact"
grep -q 'opacity="0.15"' "$room/day.svg" && grep -q ' estimate; ' "$room/day.svg" || fail "no bands"
# what the keys weigh is the same under a watermark, which lets keys go that are loaded again
sed -n 's/^.* keys; footprint \(.*\)$/\1/p' "$room/out" > "$room/weigh"
plan "$room/day" --sample 1/4 --sample-parts 3 --ttl 40000 --sizes 2M,20M,40M --max-entries 40 || fail "$(cat "$room/told")"
has 'at any size under this --max-entries '
sed -n 's/^.* keys; footprint \(.*\)$/\1/p' "$room/out" | diff "$room/weigh" - && [ -s "$room/weigh" ] || fail "another weight under a watermark"
plan "$room/day" --sample 1/4 --sample-parts 3 --ttl 40000 --sizes 2M,20M,40M
# where few keys have most of the footprint an interval holds less often
awk '{ if (substr($2, 2) % 151 == 0 && $3 != "-") $3 = 90000000 } 1' "$room/day" > "$room/tailed"
plan "$room/tailed" --sample 1/4 --sample-parts 3 --ttl 40000 --sizes 20M,400M || fail "$(cat "$room/told")"
has '^estimate: 3 of 4 parts of the keys; 1 % of the keys weigh more than the others together: .* each ± held 75 times in 100'
# loads of a key that is asked for often come once a lifetime: of 5 seconds each part has other ones
plan "$room/day" --sample 1/4 --sample-parts 3 --ttl 5 --sizes 2M,20M,40M || fail "$(cat "$room/told")"
has '^Responses are fresh for 5 s (--ttl), too short for a sample to tell fresh hits.$'
has '^Fresh hits swing too much for so few parts: '
grep -q '^unlimited,[0-9]*,[0-9]*,[0-9.]*,[0-9.]*,,,,,' "$room/day.csv" || fail "fresh finds: $(cat "$room/day.csv")"
# lengths that aren't told have those of other lines of their keys; where none has one it says so up to 1 %, and refuses past that
sample="--sample 1/4 --sample-parts 3 --ttl 40000 --sizes 20M,40M"
awk 'NR % 150 == 0 { $3 = "?" } 1' "$room/day" > "$room/few"
plan "$room/few" $sample || fail "$(cat "$room/told")"
has '^1 request without a length, 0.03 %: the shares of requests may be somewhat high by them, and those of bytes somewhat low.$'
awk 'NR % 90 == 0 { $3 = "?" } 1' "$room/day" > "$room/more"
as_combined() { awk '{ print "192.0.2.1 - - [28/Nov/2026:1" int(NR / 600) ":00:00 +0000] \"GET", $2, "HTTP/1.1\"", ($3 == "?") ? "304 0" : "200 " $3 }' "$1"; }
as_combined "$room/few" > "$room/few.log"
plan "$room/few.log" $sample || fail "$(cat "$room/told")"
has '^1 request without a length, 0.03 %: '
# of a trace of operations, which the program reads itself
awk '{ print $1 "," $2 ",4," (($3 == "?") ? 0 : $3) ",1,get,40000" }' "$room/more" > "$room/more.csv2"
# and of keys that nowhere have a length
awk 'NR % 40 == 0 { $2 = $2 "x"; $3 = "?" } 1' "$room/day" > "$room/never"
for it in more.csv2 never; do
    status=0
    plan "$room/$it" $sample || status=$?
    [ "$status" -eq 1 ] && grep -q ' of 3,000 requests tell no length .* a sample wants lengths, .* plan without --sample$' "$room/told" && [ ! -s "$room/out" ] || fail "$it: status $status: $(cat "$room/told")"
    plan "$room/$it" --sizes 20M,40M || fail "$it: $(cat "$room/told")"
done
# past 1 % of reckoned lengths nothing is exact, past 10 % there is no answer, and --lengths tells them; the first line says how many they are
has '^Not exact: the lengths of some keys are reckoned'
sed -n 1p "$room/out" | grep -q ' 75 requests (2.5 %) count with a reckoned length: ' || fail "the first line: $(sed -n 1p "$room/out")"
awk 'NR % 110 == 0 { $2 = $2 "x"; $3 = "?" } 1' "$room/day" > "$room/hardly"
plan "$room/hardly" --sizes 20M || fail "$(cat "$room/told")"
has '^Exact, for one LRU'
sed -n 1p "$room/out" | grep -q ' 27 requests (0.9 %) count with a reckoned length: ' || fail "the first line: $(sed -n 1p "$room/out")"
awk 'NR % 5 == 0 { $2 = $2 "x"; $3 = "?" } 1' "$room/day" > "$room/lacking"
status=0
plan "$room/lacking" --sizes 20M || status=$?
[ "$status" -eq 1 ] && grep -q '600 requests (20.0 %) tell no length .* --lengths lengths$' "$room/told" && [ ! -s "$room/out" ] || fail "status $status: $(cat "$room/told")"
awk '$3 == "?" { print $2, 500 }' "$room/lacking" | sort -u > "$room/lengths"
plan "$room/lacking" --sizes 20M --lengths "$room/lengths" || fail "$(cat "$room/told")"
has '^Exact, for one LRU: each key has one length.$'
echo 'no length' > "$room/lengths"
status=0
plan "$room/lacking" --sizes 20M --lengths "$room/lengths" || status=$?
[ "$status" -eq 2 ] && grep -q "lengths:1: lines 'key bytes' are wanted" "$room/told" || fail "status $status: $(cat "$room/told")"
# a pipe is read once: what comes before its key's length is left out, which is no reckoned length
for it in '1 0.5' '3 1.5'; do
    seq 0 199 | awk -v count="${it% *}" '{ what = ($1 < count) ? "304 0" : "200 " 1000 + $1 % 20
        printf "192.0.2.1 - - [28/Nov/2026:10:%02d:%02d +0000] \"GET /%d HTTP/1.1\" %s\n", $1 / 60, $1 % 60, $1 % 20, what }' > "$room/before.log"
    plan - --sizes 5K,20K --output-prefix "$room/before" < "$room/before.log" || fail "$(cat "$room/told")"
    sed -n 1p "$room/out" | grep -q " ${it% *} requests* (${it#* } %) are left out: " || fail "the first line: $(sed -n 1p "$room/out")"
done
has '^Not exact: requests are left out '
plan "$room/before.log" --sizes 5K,20K || fail "$(cat "$room/told")"
has '^Exact, for one LRU: each key has one length.$'
# where its moments go back --sort is wanted
as_combined "$room/day" | awk '{ print NR * 7919 % 3000 "\t" $0 }' | sort -n | cut -f 2- > "$room/back.log"
status=0
plan - --sizes 20M --output-prefix "$room/back" < "$room/back.log" || status=$?
[ "$status" -eq 1 ] && grep -q 'go back in time: --sort ' "$room/told" && [ ! -s "$room/out" ] || fail "status $status: $(cat "$room/told")"
plan - --sizes 20M --output-prefix "$room/back" --sort < "$room/back.log" || fail "$(cat "$room/told")"
# files of URLs beside files of targets are refused
sed 's|"GET |&http://a|' "$room/back.log" > "$room/urls.log"
status=0
plan "$room/back.log" "$room/urls.log" --sizes 20M || status=$?
[ "$status" -eq 1 ] && grep -q "keys that can't meet.*back.log: the target alone.*urls.log: the URL" "$room/told" || fail "status $status: $(cat "$room/told")"
# lifetimes of the lines' own
awk '{ print $1 "," $2 ",4," $3 ",1,get,40000" }' "$room/day" > "$room/lives"
plan "$room/lives" $sample || fail "$(cat "$room/told")"
has '^Responses are fresh for 40000 s (--ttl) where the log doesn.t say.$'
has '^Lines tell lifetimes here: '
grep -q '^unlimited,[0-9]*,[0-9]*,[0-9.]*,[0-9.]*,,,,,' "$room/lives.csv" || fail "fresh finds: $(cat "$room/lives.csv")"
plan "$room/day" --sample 1/4 --sample-parts 3 --ttl 40000 --sizes 2M,20M,40M
head -n 1 "$room/day.csv" | grep -q 'entries,first_eviction_at,lru_victim_used_at,hit_percent_error,byte_hit_percent_error,fresh_hit_percent_error,fresh_byte_hit_percent_error$' || fail "no columns of errors"
echo "the estimates: as worked by hand"
python3 -B tools/planner/test_compare.py
