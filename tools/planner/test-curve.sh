#!/bin/sh
# Compares what tier_curve counts with plain lists in Python: random requests with removals, under limits and watermarks, with odd
# sizes and wrong lines among them, as text and as records; eight parts of the keys, their merged curve and what merging refuses; and
# the limits between two ends with their exact ratios. It needs the program, built or by its path as the first argument; without one `rt try` runs it.
set -eu
cd "$(dirname "$0")/../.."
room=$(mktemp -d)
trap 'rm -rf "$room"' EXIT
program=${1:-crates/tier_curve/out/tier_curve}
replay=crates/tier_replay/out/tier_replay
run() {
    if [ -x "$program" ]; then "$program" "$@"; else (cd crates/tier_curve && rt try --seconds 600 -- "$@" 2> /dev/null); fi
}
ends_with() {
    want=$1
    shift
    status=0
    run "$@" < /dev/null > "$room/told" 2> /dev/null || status=$?
    [ "$status" -eq "$want" ] || { echo "status $status, not $want: $*" >&2; exit 1; }
    [ ! -s "$room/told" ] || { echo "something was written: $*" >&2; exit 1; }
}
for format in text records oracle-general; do
    for seed in 1 2 3; do
        for mark in "" 5; do
            python3 tools/reference/plain_curve.py --make "$seed" --format "$format" > "$room/requests"
            run --sizes 1,40,100,250,1K,20K ${mark:+--max-entries $mark} --entry-overhead 3 --format "$format" < "$room/requests" > "$room/told"
            python3 tools/reference/plain_curve.py --sizes 1,40,100,250,1000,20000 ${mark:+--max-entries $mark} --entry-overhead 3 --format "$format" < "$room/requests" > "$room/plain"
            diff "$room/plain" "$room/told"
        done
    done
done
# a record that no program made: key 7 twice with 5 bytes, a removal, and key 7 again
printf '\007\0\0\0\0\0\0\0\005\0\0\0\0\0\0\0\007\0\0\0\0\0\0\0\005\0\0\0\0\0\0\0' > "$room/requests"
printf '\007\0\0\0\0\0\0\0\377\377\377\377\377\377\377\377\007\0\0\0\0\0\0\0\005\0\0\0\0\0\0\0' >> "$room/requests"
run --sizes 10 --format records < "$room/requests" | grep -q '^10,1,5,33.33,33.33,1,$'
# libCacheSim's: time 1, key 7, 5 bytes, next use 2; then time 2
printf '\001\0\0\0\007\0\0\0\0\0\0\0\005\0\0\0\002\0\0\0\0\0\0\0\002\0\0\0\007\0\0\0\0\0\0\0\005\0\0\0\377\377\377\377\377\377\377\377' > "$room/requests"
run --sizes 10 --format oracle-general < "$room/requests" | grep -q '^10,1,5,50.00,50.00,1,$'
# a line of 65,535 bytes has a request; a longer one is passed over whole, however its bytes fall into blocks, and the lines around it count
keys() { head -c "$1" /dev/zero | tr '\0' k; }
for length in 65530 65531 65532 65533 131068 200000; do
    for front in 1 2 30000; do
        { awk -v n="$front" 'BEGIN { for (i = 0; i < n; i++) print i, "/" i % 7, 5 }'; printf '1 '; keys "$length"; printf ' 5\n'; printf '1 /0 5\n2 '; keys "$length"; printf ' 5\n3 /1 5'; } > "$room/requests"
        run --sizes 10,40,100 < "$room/requests" > "$room/told"
        python3 tools/reference/plain_curve.py --sizes 10,40,100 < "$room/requests" > "$room/plain"
        diff "$room/plain" "$room/told"
    done
done
# such a line is named, and a stream without a line feed takes no more memory than another
if [ -x "$program" ]; then
    { printf '1 /a 5\n2 '; keys 70000; printf ' 5\nwrong\n3 /a 5\n'; } > "$room/requests"
    "$program" --sizes 10 < "$room/requests" 2> "$room/why" | grep -q '^# format=1 requests=2 unique_keys=1 deletes=0 size_changes=0 skipped_lines=2 '
    grep -q 'line 2 is longer than 65535 bytes: passed over' "$room/why"
    grep -q 'line or record 3 has no request: passed over' "$room/why"
    # shellcheck disable=SC3045 # dash and bash have -v
    head -c 300000000 /dev/zero | (ulimit -v 100000; "$program" --sizes 10 2> "$room/why") | grep -q '^# format=1 requests=0 unique_keys=0 deletes=0 size_changes=0 skipped_lines=1 '
    grep -q 'line 1 is longer than 65535 bytes: passed over' "$room/why"
fi
# entries that are soon removed don't slow the later ones
awk 'BEGIN { for (i = 0; i < 300000; i++) { print i, "/" i, 5; print i, "/" i, "-" } }' > "$room/requests"
run --sizes 10 < "$room/requests" | grep -q '^# format=1 requests=300000 unique_keys=300000 deletes=300000 size_changes=0 skipped_lines=0 '
# eight parts of the keys, each a cache of an eighth, and their sums
refused() {
    want=$1
    shift
    status=0
    python3 tools/planner/merge_curves.py "$@" > "$room/told" 2> "$room/why" || status=$?
    [ "$status" -eq 2 ] && [ ! -s "$room/told" ] && grep -q "$want" "$room/why" || { echo "status $status: $want: $*" >&2; exit 1; }
}
sums() {
    awk -F, '/^[0-9]/ { finds[$1] += $2; bytes[$1] += $3 } END { for (it in finds) print it "," finds[it] "," bytes[it] }' "$@" | sort -n
}
limits=8,80,400,1600,80000
for seed in 1 3; do
    python3 tools/reference/plain_curve.py --make "$seed" > "$room/requests"
    for part in 0 1 2 3 4 5 6 7; do
        run --sizes "$limits" --max-entries 40 --entry-overhead 3 --part "$part/8" < "$room/requests" > "$room/part$part"
        python3 tools/reference/plain_curve.py --sizes "$limits" --max-entries 40 --entry-overhead 3 --part "$part/8" < "$room/requests" > "$room/plain$part"
        diff "$room/plain$part" "$room/part$part"
    done
    python3 tools/planner/merge_curves.py "$room"/part? > "$room/merged"
    sums "$room"/plain? > "$room/sums"
    grep '^[0-9]' "$room/merged" | cut -d, -f1-3 | diff "$room/sums" -
done
tail -n 1 "$room/merged" | grep -q '^# estimate for 8 caches, keys by hash; '
rest="$room/part2 $room/part3 $room/part4 $room/part5 $room/part6 $room/part7"
wrong() {
    sed "$1" "$room/part1" > "$room/wrong"
    ! cmp -s "$room/part1" "$room/wrong" || { echo "nothing was changed: $1" >&2; exit 1; }
    refused "$2" "$room/part0" "$room/wrong" $rest
}
wrong 's/^80,/88,/' "the sizes differ"
wrong 's/^80,.*$/&/;/^400,/d' "the sizes differ"
wrong 's|part=1/8|part=1/9|;s/one of 8/one of 9/' "the numbers of parts differ"
wrong 's/entry_overhead=3/entry_overhead=4/' "the entries. overheads differ"
wrong 's/lines_read=600/lines_read=601/' "the numbers of lines or records differ"
wrong 's|part=1/8|part=0/8|' "part 0 is there twice"
wrong 's|part=1/8|part=8/8|' "there is no part 8 of 8"
wrong 's/^80000,/80000,1/' "no curve of a part"
wrong '$d' "no curve of a part"
wrong 's/estimate/exact/' "no curve of a part"
refused "part 0 of 8 is missing" "$room/part1" $rest
run --sizes 8 < "$room/requests" > "$room/wrong"
refused "no curve of a part" "$room/wrong"
# sums worked by hand
printf '%s\n' size,hits,hit_bytes,hit_percent,byte_hit_percent 20,1,5,50.00,50.00 \
    "# format=1 requests=2 unique_keys=1 deletes=0 size_changes=0 skipped_lines=1 request_bytes=10 part=0/2 entry_overhead=0 lines_read=8" "# estimate: one of 2 parts of the keys" > "$room/one"
printf '%s\n' size,hits,hit_bytes,hit_percent,byte_hit_percent 20,2,4,40.00,40.00 \
    "# format=1 requests=5 unique_keys=3 deletes=0 size_changes=0 skipped_lines=1 request_bytes=10 part=1/2 entry_overhead=0 lines_read=8" "# estimate: one of 2 parts of the keys" > "$room/other"
printf '%s\n' size,hits,hit_bytes,hit_percent,byte_hit_percent 20,3,9,42.85,45.00 \
    "# format=1 requests=7 unique_keys=4 deletes=0 size_changes=0 skipped_lines=1 request_bytes=20 parts=2 entry_overhead=0 lines_read=8" "# exact for 2 caches, keys by hash" > "$room/sum"
python3 tools/planner/merge_curves.py "$room/one" "$room/other" | diff "$room/sum" -
# the limits of a part between two ends are those of all parts together
run --sizes 8..8000 --steps 5 --part 3/8 < "$room/requests" | cut -d, -f1 | sed -n 2,6p | tr '\n' ' ' | grep -q '^8 48 256 1424 8000 $'
run --sizes 8,81 --part 0/8 < /dev/null 2>&1 > /dev/null | grep -q 'each size must be a multiple of K' || [ ! -x "$program" ]
# what a tier finds of three traces at three limits, where its program is built: an entry weighs its body and its meta, which takes 85 bytes and
# the digits of the body's length
if [ -x "$replay" ]; then
    for seed in 1 2 4; do
        python3 tools/reference/plain_curve.py --make "$seed" | awk 'NF == 3 && $3 ~ /^[1-9][0-9]*$/ && length($3) < 9 { print $1 + 100000, $2, $3 }' > "$room/log"
        python3 tools/planner/access_log_to_trace.py < "$room/log" > "$room/trace" 2> /dev/null
        python3 tools/planner/access_log_to_trace.py --requests < "$room/log" 2> /dev/null | awk '{ print $1, $2, $3 + 85 + length($3) }' > "$room/requests"
        run --sizes 300,900,3500 < "$room/requests" > "$room/told"
        for limit in 300 900 3500; do
            finds=$("$replay" --limit "$limit" < "$room/trace" | grep -c '^found') || true
            grep -q "^$limit,$finds," "$room/told" || { echo "a tier finds $finds at $limit" >&2; exit 1; }
        done
        # and what it finds fresh and stale, where it is asked line by line and what lacks or is stale is put: a lifetime of two digits, not of four
        awk '{ print $1, $2, $3 - 2 }' "$room/requests" > "$room/weighed"
        run --ttl 20 --sizes 300,900,3500 < "$room/weighed" > "$room/told" 2> /dev/null
        for limit in 300 900 3500; do
            python3 tools/planner/access_log_to_trace.py --ttl 20 --drive "$replay --limit $limit" < "$room/log" 2> /dev/null | sed -n 1p > "$room/driven"
            want=$(awk -F, -v limit="$limit" '$1 == limit { print "fresh=" $6 " stale=" $2 - $6 }' "$room/told")
            grep -q " $want " "$room/driven" || { echo "a tier: $(cat "$room/driven"), the curve at $limit: $want" >&2; exit 1; }
        done
    done
else
    echo "tier_replay isn't built: that a tier finds as many at three limits, fresh and stale, is left out"
fi
# what is found and found fresh, worked by hand, at one size after another
fresh() {
    name=$1
    printf "$5" > "$room/requests"
    run --ttl "$2" --sizes "$3" $6 < "$room/requests" > "$room/told"
    told=$(awk -F, '/^[0-9]/ { printf "%s%s,%s", gap, $2, $6; gap = " " }' "$room/told")
    [ "$told" = "$4" ] || { echo "$name: $told, not $4" >&2; exit 1; }
}
# (a load for 60 seconds is fresh 60 seconds later and stale after 61, each shown by a key of its own)
fresh lifetime_bound 60 2 "2,1" '1000 a 1\n1060 a 1\n2000 b 1\n2061 b 1\n' ""
own=--columns\ time=1,key=2,bytes=3,ttl=4
fresh lifetime_0 0 1 "2,0" '5 a 1 0\n5 a 1 0\n5 a 1 9\n' "$own"
# (the find at 5 neither renews nor has its own lifetime: then that at 11 would be fresh)
fresh the_lifetime_of_the_load_counts 0 1 "2,1" '0 a 1 10\n5 a 1 100\n11 a 1 100\n' "$own"
fresh a_greater_size_may_find_less_fresh 0 1,2 "3,3 4,1" '0 a 1 10\n1 b 1 10\n6 a 1 99\n12 a 1 0\n13 a 1 0\n14 a 1 0\n' "$own"
fresh each_size_has_its_own_moment 10 1,2 "1,1 2,1" '0 a 1\n1 b 1\n6 a 1\n12 a 1\n' ""
fresh a_lesser_size_is_ahead_only_once 10 1,2 "2,1 3,2" '0 a 1\n1 b 1\n6 a 1\n12 a 1\n17 a 1\n' ""
fresh a_removal_ends_a_load 10 1 "1,1" '0 a 1\n0 a -\n1 a 1\n11 a 1\n' ""
fresh a_stale_find_is_a_use 4 2 "2,1" '0 a 1\n1 b 1\n5 a 1\n6 c 1\n7 a 1\n8 b 1\n' ""
fresh moments_that_go_back 5 1 "3,2" '10 a 1\n3 a 1\n16 a 1\n15 a 1\n' ""
fresh the_watermark_counts 10 9 "1,1" '0 a 1\n1 b 1\n2 a 1\n12 a 1\n' "--max-entries 1"
# what is held at the end, worked by hand, at one size after another: the entries, the first request that puts one out (its number, or its
# moment where bodies have lifetimes), and then when the one was asked for that was used longest ago
held() {
    name=$1 width=$2 limits=$3 want=$4
    printf "$5" > "$room/requests"
    shift 5
    run --sizes "$limits" "$@" < "$room/requests" > "$room/told" 2> /dev/null
    told=$(awk -F, -v "width=$width" '/^[0-9]/ { printf "%s", gap; for (at = NF - width + 1; at <= NF; at++) printf "%s%s", (at > NF - width + 1) ? "," : "", $at; gap = " " }' "$room/told")
    [ "$told" = "$want" ] || { echo "$name: $told, not $want" >&2; exit 1; }
}
ten='0 a 2\n1 b 1\n2 a 2\n3 c 2\n13 a 2\n14 b 1\n20 d 1\n21 a 2\n24 a 2\n25 b 1\n'
held four_keys_by_moments 3 3,5,6 "2,3,24 3,20,20 4,,3" "$ten" --ttl 10
held four_keys_by_numbers 2 3,5,6 "2,4 3,7 4," "$ten"
held a_limit_that_is_just_reached 2 4,5 "1,2 2," '1 a 3\n2 b 2\n'
held a_removal_makes_room 2 3 "1," '1 a 3\n2 a -\n3 b 3\n'
held a_body_past_the_limit_puts_all_out 3 5,10 "0,2, 2,,1" '1 a 1\n2 b 9\n' --ttl 10
held what_was_put_out_may_come_again 2 1 "1,2" '1 a 1\n2 b 1\n3 a 1\n'
held a_find_is_a_use 3 1,2 "1,2,3 2,,2" '1 a 1\n2 b 1\n3 a 1\n' --ttl 10
held a_greater_number_than_the_watermark 3 9 "1,2,2" '1 a 1\n2 b 1\n' --ttl 10 --max-entries 1
held the_least_moment_though_moments_go_back 3 1,5 "1,3,3 2,,3" '10 a 1\n3 b 1\n' --ttl 10
held removals_are_not_counted 2 1 "1,3" '1 a 1\n2 a -\n3 b 1\n4 c 1\n'
# what was found up to each moment at which a span begins, worked by hand: moment, requests, finds and fresh hits at one size, and when the
# one of the entries held then was asked for that was used longest ago
spans() {
    name=$1 want=$2
    printf "$3" > "$room/requests"
    shift 3
    run --ttl 10 "$@" < "$room/requests" > "$room/told" 2> /dev/null
    told=$(sed '1,/^interval_end,size,/d' "$room/told" | awk -F, '$2 != "unlimited" { printf "%s%s:%s,%s,%s,%s", gap, $1, $3, $5, $7, $9; gap = " " }')
    [ "$told" = "$want" ] || { echo "$name: $told, not $want" >&2; exit 1; }
    grep -qx 'interval_end,size,requests,request_bytes,hits,hit_bytes,fresh_hits,fresh_hit_bytes,lru_victim_used_at' "$room/told" || { echo "$name: no head" >&2; exit 1; }
}
spans three_spans_of_ten_seconds "10:4,1,1,1 20:6,3,1,3" "$ten" --sizes 5 --interval 10
spans a_request_at_the_end_is_of_the_next_span "10:2,1,1,9" '0 a 1\n9 a 1\n10 a 1\n19 a 1\n' --sizes 5 --interval 10
spans a_span_without_requests_has_no_row "40:1,0,0,5" '5 a 1\n41 a 1\n' --sizes 5 --interval 10
spans spans_begin_at_multiples "120:1,0,0,119" '119 a 1\n121 a 1\n' --sizes 5 --interval 60
spans what_goes_back_is_of_the_span_that_is_open "20:2,1,1,19 30:4,3,3,12" '15 a 1\n19 a 1\n21 a 1\n12 a 1\n30 a 1\n' --sizes 5 --interval 10
spans a_removal_begins_no_span "20:1,0,0," '15 a 1\n25 a -\n29 a 1\n' --sizes 5 --interval 10
spans what_was_put_out_is_not_the_oldest "10:2,0,0,1 20:4,0,0,11" '1 a 1\n2 b 1\n11 c 1\n12 a 1\n21 a 1\n' --sizes 2 --interval 10
spans one_span "" '15 a 1\n16 a 1\n' --sizes 5 --interval 10
# a fraction is cut off, other words are no times, and the last row is of any size
printf '1.9 a 1\n11 a 1\n12 a 1\nx a 1\n1. a 1\n.5 a 1\n9223372036854775808 a 1\n' > "$room/requests"
run --ttl 10 --sizes 5 < "$room/requests" > "$room/told" 2> /dev/null
grep -q '^unlimited,3,3,75.00,75.00,2,2,50.00,50.00,1,,1$' "$room/told"
grep -q '^# format=1 requests=4 unique_keys=1 deletes=0 size_changes=0 skipped_lines=3 request_bytes=4 repeated_keys=1 repeated_key_bytes=1 ttl=10 lines_read=7$' "$room/told"
# random requests at 40 sizes, and lines of columns, beside plain lists; few, where the program isn't built
if [ -x "$program" ]; then python3 tools/reference/random_curves.py 300 60 "$program"; else python3 tools/reference/random_curves.py 3 3; fi
python3 tools/reference/plain_curve.py --make-times 299 > "$room/requests"
for part in 0 1; do
    run --ttl 10 --sizes 8,80,400 --part "$part/2" < "$room/requests" > "$room/told" 2> /dev/null
    python3 tools/reference/plain_curve.py --ttl 10 --sizes 8,80,400 --part "$part/2" < "$room/requests" | diff - "$room/told"
done
# lines of columns, lengths that aren't told, operations and lifetimes, worked by hand: a row, and the words of the totals
columns() {
    name=$1 row=$2 words=$3 text=$4
    shift 4
    printf "$text" > "$room/requests"
    run "$@" < "$room/requests" > "$room/told" 2> /dev/null
    cut -d, "-f1-$(echo "$row" | awk -F, '{ print NF }')" "$room/told" | grep -qx "$row" && grep -q "$words" "$room/told" || { echo "$name: $(cat "$room/told")" >&2; exit 1; }
}
columns a_length_that_is_not_told "10,1,5,50.00,50.00" "requests=2 unique_keys=1 deletes=0 size_changes=0 skipped_lines=0 request_bytes=10 requests_without_size=1 repeated_keys=1 repeated_key_bytes=5 lines_read=3$" \
    '1 a 5\n2 a ?\n3 b ?\n' --sizes 10
columns a_return_at_the_end "10,1,5,50.00,50.00" "requests=2 " 'a,1,5\r\na,2,5\r\n' --sizes 10 --columns time=2,key=1,bytes=3 --delimiter ,
columns keys_keep_the_delimiter "10,0,0,0.00,0.00" "unique_keys=2 " 'ab,c,1,5\na,bc,2,5\n' --sizes 10 --columns time=3,key=1+2,bytes=4 --delimiter ,
columns bytes_are_added "7,1,7,50.00,50.00" "unique_keys=1 " 'k,3,4,1\nk,3,4,2\n' --sizes 6,7 --columns time=4,key=1,bytes=2+3 --delimiter ,
columns a_value_that_is_absent "10,1,7,50.00,50.00" "size_changes=0 skipped_lines=0 request_bytes=14 requests_without_size=1 repeated_keys=1 repeated_key_bytes=7 lines_read=3$" 'k,3,0,1\nk,3,4,2\nk,3,0,3\n' --sizes 10 --columns time=4,key=1,bytes=2+3 --delimiter ,
columns other_operations "10,0,0,0.00,0.00" "requests=2 unique_keys=1 deletes=1 size_changes=0 skipped_lines=0 request_bytes=10 other_ops=1 repeated_keys=1 repeated_key_bytes=5 lines_read=4$" 'k get 5 1\nk put 5 2\nk del 5 3\nk get 5 4\n' \
    --sizes 10 --columns time=4,key=1,op=2,bytes=3 --get-ops get --delete-ops del
columns a_lifetime_that_was_told "10,2,10,66.66,66.66,1,5,33.33,33.33" "other_ops=1 repeated_keys=1 repeated_key_bytes=5 ttl= lines_read=4$" '1,k,set,5,10\n2,k,get,5,0\n12,k,get,5,0\n13,k,get,5,0\n' \
    --sizes 10 --columns time=1,key=2,op=3,bytes=4,ttl=5 --delimiter , --get-ops get
columns an_own_lifetime "10,1,5,50.00,50.00,0,0,0.00,0.00" "ttl= lines_read=2$" '1,k,5,3\n5,k,5,3\n' --sizes 10 --columns time=1,key=2,bytes=3,ttl=4 --delimiter ,
columns a_dash_has_the_lifetime_of_all "10,1,5,50.00,50.00,1,5,50.00,50.00" "skipped_lines=0 request_bytes=10 repeated_keys=1 repeated_key_bytes=5 ttl=4 lines_read=2$" '1,k,5,-\n5,k,5,\n' \
    --sizes 10 --ttl 4 --columns time=1,key=2,bytes=3,ttl=4 --delimiter ,
columns a_dash_without_a_lifetime "10,0,0,0.00,0.00,0,0,0.00,0.00" "requests=0 unique_keys=0 deletes=0 size_changes=0 skipped_lines=1 " '1,k,5,-\n' --sizes 10 --columns time=1,key=2,bytes=3,ttl=4 --delimiter ,
columns a_line_of_three_requests "10,2,10,66.66,66.66" "requests=3 " 'k 5 3 1\n' --sizes 10 --columns time=4,key=1,bytes=2,times=3
columns a_column_that_is_missing "10,0,0,0.00,0.00" "requests=1 unique_keys=1 deletes=0 size_changes=0 skipped_lines=2 " 'k,5,1\nk\n,5,1\n' --sizes 10 --columns time=3,key=1,bytes=2 --delimiter ,
columns columns_that_are_not_used "10,1,5,50.00,50.00" "requests=2 unique_keys=1 deletes=0 size_changes=0 skipped_lines=0 request_bytes=10 other_ops=1 repeated_keys=1 repeated_key_bytes=5 lines_read=3$" 'k,put\nk,get,5\nk,get,5,1\n' \
    --sizes 10 --columns time=4,key=1,op=2,bytes=3 --delimiter , --get-ops get
columns lines_that_are_skipped "10,1,5,50.00,50.00" "requests=2 .* skipped_lines=0 " 'time,key,bytes\n1,k,5\n2,k,5\n' --sizes 10 --skip-lines 1 --columns time=1,key=2,bytes=3 --delimiter ,
# a sample: each part has the rows of that part alone, and all requests are counted; as plain lists say
for seed in 1 2 3 4; do
    python3 tools/reference/plain_planner.py --make-columns "$seed" > "$room/requests"
    options=$(python3 tools/reference/plain_planner.py --options-for-columns "$seed" | sed 's/--sizes [0-9,]*/--sizes 4,20,80,400/; s/ --max-entries 3//')
    [ $((seed % 2)) -eq 1 ] || options="$options --max-entries 12"
    run $options --sample 1/4 --sample-parts 3 < "$room/requests" > "$room/told" 2> /dev/null
    python3 tools/reference/plain_planner.py $options --sample 1/4 --sample-parts 3 < "$room/requests" \
        | sed 's/ first_at=[0-9]* last_at=[0-9]*//' > "$room/plain"
    diff "$room/plain" "$room/told" || { echo "a sample of seed $seed: $options" >&2; exit 1; }
    for part in 0 1 2; do
        run $options --part "$part/4" < "$room/requests" 2> /dev/null | grep -v '^#'
    done > "$room/plain"
    grep -v '^#' "$room/told" | diff "$room/plain" - || { echo "parts of seed $seed: $options" >&2; exit 1; }
done
# what it estimates lies beside the curve of the whole
python3 tools/reference/plain_planner.py --make 1 60000 > "$room/requests"
run --ttl 3600 --sizes 4M,20M,40M < "$room/requests" > "$room/whole" 2> /dev/null
run --ttl 3600 --sizes 4M,20M,40M --sample 1/4 --sample-parts 3 < "$room/requests" > "$room/told" 2> /dev/null
python3 tools/planner/merge_curves.py --estimate --csv "$room/told" > "$room/estimate"
python3 - "$room/whole" "$room/estimate" << 'EOF' || { echo "a sample is far from the whole" >&2; exit 1; }
import sys

whole, made = ({it.split(",")[0]: it.rstrip("\n").split(",") for it in open(name) if it[:1].isdigit() or it[:9] == "unlimited"} for name in sys.argv[1:])
assert list(whole) == list(made) == ["4000000", "20000000", "40000000", "unlimited"], (list(whole), list(made))
for limit, row in made.items():
    for at, error, add in ((3, -4, 1), (4, -3, 3), (7, -2, 1)):
        assert not row[at] or abs(float(row[at]) - float(whole[limit][at])) <= 3 * float(row[error]) + add, (limit, at, row, whole[limit])
assert any(row[3] for row in made.values()), made
EOF
# the ladder has 20 rungs to each factor of ten
run --standard-sizes < /dev/null > "$room/told"
[ "$(grep -c '^[0-9]' "$room/told")" -eq 201 ]
cut -d, -f1 "$room/told" | sed -n '2p;3p;9p;22p;202p' | tr '\n' ' ' | grep -q '^10000 11200 22400 100000 100000000000000 $'
# limits by equal ratios
for ends in "1000000 1000000000000 100" "200000 2000000000 40" "1 5 10" "5 5 2" "1 18446744073709551615 2"; do
    set -- $ends
    run --sizes "$1".."$2" --steps "$3" < /dev/null | python3 tools/reference/plain_curve.py --check-ratios "$1" "$2" "$3"
done
# weights whose sum passes 2^64 end the run by name, and nothing is written
printf '1 a 18446744073709551615\n2 b 1\n' > "$room/requests"
if run --sizes 1M < "$room/requests" > "$room/told" 2> /dev/null; then exit 1; fi
[ ! -s "$room/told" ] || exit 1
# a bad command line has status 2
ends_with 2 --sizes 10,5
ends_with 2 --sizes ""
ends_with 2 --sizes K
ends_with 2 --sizes 20000000T
ends_with 2 --sizes 10 --format csv
ends_with 2 --sizes 10 --format records --ttl 60
ends_with 2 --sizes 10 --ttl x
ends_with 2 --sizes 10 --ttl 4611686018427387904
ends_with 2 --sizes 10 --standard-sizes
ends_with 2 --sizes 10 --interval 60
ends_with 2 --sizes 10 --ttl 60 --interval 0
ends_with 2 --sizes 10 --ttl 60 --interval x
ends_with 2 --sizes 8 --ttl 60 --interval 60 --sample 1/4 --sample-parts 2
ends_with 2 --sizes 10 --columns time=1,key=2
ends_with 2 --sizes 10 --columns time=1,key=0,bytes=3
ends_with 2 --sizes 10 --columns time=1,time=1,key=2,bytes=3
ends_with 2 --sizes 10 --columns time=1,key=2,bytes=3,op=4
ends_with 2 --sizes 10 --columns time=1,key=2,bytes=3 --get-ops get
ends_with 2 --sizes 10 --columns time=1,key=2,bytes=3 --delimiter ,,
ends_with 2 --sizes 10 --columns time=1,key=2,bytes=3 --format text
ends_with 2 --sizes 10 --delimiter ,
ends_with 2 --sizes 10 --format records --skip-lines 1
ends_with 2 --sizes 1..5 --standard-sizes
ends_with 2 --sizes 10 --sizes 1..2
ends_with 2 --sizes 10 --steps 3
ends_with 2 --from 1
ends_with 2 --sizes 0..5
ends_with 2 --sizes 5..1
ends_with 2 --sizes 1..5 --steps 1
ends_with 2
for part in 8/8 0/0 1 1/2/3 a/2 /2 1/ 1/x; do ends_with 2 --sizes 8 --part "$part"; done
for sample in "1/4 --sample-parts 4" "1/4 --sample-parts 1" "2/4 --sample-parts 2" "1/4/2 --sample-parts 2" "x --sample-parts 2" "1/2" "1/4 --sample-parts 2 --part 0/4"; do ends_with 2 --sizes 8 --sample $sample; done
ends_with 2 --sizes 8 --sample-parts 2
ends_with 2 --sizes 9 --sample 1/4 --sample-parts 2
ends_with 2 --sizes 8 --max-entries 9 --sample 1/4 --sample-parts 2
ends_with 2 --sizes 8,81 --part 0/8
ends_with 2 --sizes 8 --max-entries 9 --part 0/8
ends_with 2 --sizes 8..81 --part 0/8
ends_with 2 --sizes 0..8 --part 0/8
if [ -x "$program" ]; then
    python3 tools/planner/test_misses.py "$program"
    python3 tools/planner/test_side_by_side.py "$(realpath "$program")"
    python3 tools/planner/test_answers.py "$(realpath "$program")"
fi
echo "the curves are those of plain lists"
