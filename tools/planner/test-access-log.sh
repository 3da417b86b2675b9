#!/bin/sh
# Compares what access_log_to_trace.py makes of the example's log, bad lines among it, with what it must be. It needs
# Python 3 alone.
set -eu
cd "$(dirname "$0")/../.."
room=$(mktemp -d)
trap 'rm -rf "$room"' EXIT
python3 tools/planner/access_log_to_trace.py --ignore-query --format combined < examples/logs/access-log.txt > "$room/trace" 2> "$room/told"
diff examples/logs/access.jsonl "$room/trace"
{
    echo "read as combined"
    echo "lengths taken from another line: none"
    echo "lines passed over: 1 method POST, 1 status 404, 1 no request in it, 1 status 304 without a length"
    echo 'standard input:8: not read: 192.0.2.3 - - [not a time] "GET /a.js HTTP/1.1" 200 300 "-" "test"'
    echo "standard input:10: not read: this is no log line"
    echo "lines not read: 2"
} | diff - "$room/told"
# an eighth of each length, another lifetime, another method, and bytes that aren't UTF-8
line_of() { printf '%b\n' "- - - [01/Jan/1970:01:00:0$1 +0100] \"PUT /$2 HTTP/1.1\" 201 $3 \"-\" \"-\""; }
{ line_of 0 '\0377' 16; line_of 5 k 7; } |
    python3 tools/planner/access_log_to_trace.py --scale 8 --ttl 9 --methods PUT --statuses 201 2> /dev/null > "$room/trace"
[ "$(wc -l < "$room/trace")" -eq 8 ]
grep -q '"op":"look","at":0,"id":0' "$room/trace"
grep -q '"key":"2fff"' "$room/trace"
grep -q "\"put\",\"at\":0.*$(printf 'max-age=9' | od -An -tx1 | tr -d ' \n').*\"7878\"\\]" "$room/trace"
grep -q '"put","at":5,"key":"2f6b".*"78"\]' "$room/trace"
# lines that don't give the whole length: of each, the moment and the length that its put has must be these
lengths() {
    python3 tools/planner/access_log_to_trace.py 2> "$room/told" | python3 -c '
import json, sys
puts = [json.loads(line) for line in sys.stdin if "\"put\"" in line]
print(*("%d:%d" % (it["at"], len(it["pieces"][1]) // 2) for it in puts))'
}
line() { printf -- '- - - [01/Jan/1970:00:00:0%s +0000] "%s /%s HTTP/1.1" %s "-" "-"\n' "$1" "$2" "$3" "$4"; }
expect() { [ "$(lengths)" = "$1" ] && grep -qx "$2" "$room/told"; }
# a 304 before the whole response, and one after it
{ line 1 GET a '304 0'; line 2 GET a '200 10'; line 3 GET b '200 5'; line 4 GET a '304 -'; line 5 GET a '200 20'; line 6 GET a '304 0'; } |
    expect "1:10 2:10 3:5 4:10 5:20 6:20" "lengths taken from another line: 3 status 304"
# a HEAD, and a part of a body
{ line 1 HEAD a '200 0'; line 2 GET a '206 3'; line 3 GET a '200 10'; line 4 HEAD a '200 -'; line 5 GET a '206 4'; } |
    expect "1:10 2:10 3:10 4:10 5:10" "lengths taken from another line: 2 method HEAD, 2 status 206"
# what never gets a length is left out, and holds nothing else back
{ line 1 GET a '304 0'; line 2 GET b '200 7'; line 3 HEAD c '200 0'; line 4 GET d '206 9'; line 5 GET b '206 1'; } |
    expect "2:7 5:7" "lines passed over: 1 status 304 without a length, 1 method HEAD without a length, 1 status 206 without a length"
# lines that real logs have: the host of a virtual host, users with a blank, a target with one, two blanks, no such day, no request
logged() { printf -- '%s [%s] "%s" %s "-" "-"\n' "$1" "$2" "$3" "$4"; }
keys() {
    python3 tools/planner/access_log_to_trace.py "$@" 2> "$room/told" | python3 -c '
import json, sys
print(*(bytes.fromhex(json.loads(line)["key"]).decode() for line in sys.stdin if "\"open\"" in line), sep="|")'
}
{
    logged 'www.example.org:443 192.0.2.1 - -' '01/Jan/1970:00:00:01 +0000' 'GET /a HTTP/1.1' '200 5'
    logged '2001:db8::1 - john doe' '01/Jan/1970:00:00:02 +0000' 'GET /b HTTP/2.0' '200 5'
    logged '192.0.2.1 - "john doe"' '01/Jan/1970:00:00:03 +0000' 'GET /c d HTTP/1.1' '200 5'
    logged '192.0.2.1 - -' '01/Jan/1970:00:00:04 +0000' 'GET  /e' '200 5'
    logged '192.0.2.1 - -' '31/Feb/1970:00:00:05 +0000' 'GET /f HTTP/1.1' '200 5'
    logged '192.0.2.1 - -' '01/Jan/1970:99:00:05 +0000' 'GET /f HTTP/1.1' '200 5'
    logged '192.0.2.1 - -' '01/Jan/1970:00:00:06 +0000' '\x16\x03 \x01' '400 5'
    logged '192.0.2.1 - -' '01/Jan/1970:00:00:07 +0000' 'GET /iso HTTP/1.1' '200 40000000000'
} > "$room/odd"
[ "$(keys --format combined < "$room/odd")" = "www.example.org:443/a|/b|/c d|/e" ]
grep -qx "lines passed over: 1 no request in it, 1 longer than 67108864" "$room/told"
grep -qx "lines not read: 2" "$room/told"
[ "$(python3 tools/planner/access_log_to_trace.py --format common --count < "$room/odd" 2> "$room/told")" = "requests=4" ]
# a host before the client without a port, and one at the line's end, or behind the client: two sites stay two
{
    logged 'a.example 192.0.2.1 - -' '01/Jan/1970:00:00:01 +0000' 'GET / HTTP/1.1' '200 5'
    logged 'b.example 2001:db8::1 - john doe' '01/Jan/1970:00:00:02 +0000' 'GET / HTTP/1.1' '200 5'
    logged '192.0.2.7 client.example.net - "john doe"' '01/Jan/1970:00:00:03 +0000' 'GET / HTTP/1.1' '200 5'
    logged 'client.example.net - john doe' '01/Jan/1970:00:00:04 +0000' 'GET /alone HTTP/1.1' '200 5'
} > "$room/hosts"
[ "$(keys < "$room/hosts")" = "a.example/|b.example/|client.example.net/|/alone" ]
{ sed 's/$/ c.example/' "$room/hosts"; sed 's/$/ "d.example"/;q' "$room/hosts"; cat "$room/hosts"; } > "$room/last"
[ "$(keys --host-field-last < "$room/last")" = "c.example/|c.example/|c.example/|c.example/alone|d.example/" ]
grep -qx "lines passed over: 4 no host at its end" "$room/told"
# cases for several limits, and what their answers say
printf '%s\n' '1 a 1000' '2 b 500' '3 a 1000' > "$room/plain"
python3 tools/planner/access_log_to_trace.py --scale 10 --cases "$room/cases" --sizes 1000,20000 < "$room/plain" > /dev/null 2> "$room/told"
[ "$(tr '\n' ' ' < "$room/cases/20000.args")" = "--limit 2000 " ]
cmp "$room/cases/1000" "$room/cases/20000"
for limit in 1000 20000; do
    echo "== $limit"
    # shellcheck disable=SC2046 # the words of its options
    python3 tools/reference/replay_model.py $(cat "$room/cases/$limit.args") < "$room/cases/$limit"
done > "$room/answers"
python3 tools/planner/access_log_to_trace.py --scale 10 --answers "$room/answers" < "$room/plain" > "$room/ratios" 2> "$room/told"
printf '%s\n' '== 1000' 'requests=3 found=0 absent=3' 'hit ratio 0.0 % of requests, 0.0 % of bytes' \
    '== 20000' 'requests=3 found=1 absent=2' 'hit ratio 33.3 % of requests, 40.0 % of bytes' | diff - "$room/ratios"
# driven by the plain model, line by line: a 304 before a body that is too heavy for the limit with its meta is no hit
cat > "$room/model.py" << 'END'
import sys

sys.path.insert(0, "tools/reference")
import replay_model

tier = replay_model.Tier(**replay_model.options_of(sys.argv[1:]))
for line in sys.stdin.buffer:
    print(replay_model.answer(tier, line.rstrip(b"\n")), flush=True)
print(tier.report())
END
driven() {
    { line 1 GET a '304 0'; line 2 GET a '200 1000'; } |
        python3 tools/planner/access_log_to_trace.py --drive "python3 $room/model.py --limit $1" 2> "$room/told" | sed -n 2p
}
[ "$(driven 1074)" = "hit ratio 0.0 % of requests, 0.0 % of bytes" ]
[ "$(driven 1075)" = "hit ratio 50.0 % of requests, 50.0 % of bytes" ]
# header lines as long as the origin's: padded by one line, of four bytes at least
for length in 300 53 52 40; do
    head=$(line 1 GET a '200 10' | python3 tools/planner/access_log_to_trace.py --head $length 2> "$room/told" | sed -n 's/.*"pieces":\["\([0-9a-f]*\)".*/\1/p')
    echo "$length: $((${#head} / 2 - 19))"
done | tr '\n' ' ' | grep -qx "300: 300 53: 53 52: 49 40: 49 "
# a response as curl prints it: the last of several heads, with a status line of HTTP/1.1
printf 'HTTP/1.1 301 Moved\r\nLocation: /b\r\n\r\nHTTP/2 200 \r\ncache-control: max-age=5\r\n\r\nabc' |
    python3 tools/planner/response_to_trace.py --at 1000 --look 6 /a 2> "$room/told" > "$room/trace"
head=$(printf 'HTTP/1.1 200\r\ncache-control: max-age=5\r\n\r\nabc' | od -An -v -tx1 | tr -d ' \n')
{
    echo "{\"op\":\"put\",\"at\":1000,\"key\":\"2f61\",\"pieces\":[\"$head\"]}"
    echo '{"op":"open","at":1006,"id":0,"key":"2f61"}'
    echo '{"op":"look","at":1006,"id":0}'
    echo '{"op":"drop","at":1006,"id":0}'
} | diff - "$room/trace"
printf 'earlier heads left out: 1\nthe status line of HTTP/2 is written as HTTP/1.1\n' | diff - "$room/told"
# a head alone, one without its empty line, a body that begins like a head, a decoded body, and no input
response() { printf "$1" | python3 tools/planner/response_to_trace.py --at 1 /a 2> "$room/told" | python3 -c '
import json, sys
print(repr(bytes.fromhex(json.loads(sys.stdin.readline())["pieces"][0]))[2:-1])'; }
[ "$(response 'HTTP/1.1 200 OK\r\nContent-Length: 3\r\n\r\n')" = 'HTTP/1.1 200 OK\r\nContent-Length: 3\r\n\r\nxxx' ]
grep -qx "no body follows the head: 3 bytes stand for it" "$room/told"
[ "$(response 'HTTP/1.1 200 OK\nExpires: 0\n')" = 'HTTP/1.1 200 OK\nExpires: 0\r\n\r\n' ]
grep -qx "no empty line ends the head: one is added" "$room/told"
[ "$(response 'HTTP/1.1 200 OK\r\nContent-Length: 16\r\n\r\nHTTP/1.1 404 No\n')" = 'HTTP/1.1 200 OK\r\nContent-Length: 16\r\n\r\nHTTP/1.1 404 No\n' ]
[ ! -s "$room/told" ]
response 'HTTP/1.1 200 OK\r\nContent-Length: 9\r\n\r\nabc' > "$room/trace"
grep -qx "Content-Length is 9, and 3 bytes follow the head" "$room/told"
# a chunked body as it came, and as curl decodes it
response 'HTTP/1.1 200 OK\r\nTransfer-Encoding: chunked\r\n\r\n3\r\nabc\r\n0\r\n\r\n' > "$room/trace"
[ ! -s "$room/told" ]
response 'HTTP/1.1 200 OK\r\ntransfer-encoding: gzip, chunked\r\n\r\nabc' > "$room/trace"
grep -qx "the body isn't in chunks, as its Transfer-Encoding says: 3 bytes, as curl decodes them, stand for it" "$room/told"
# which line of a head decides, by the tier alone and by HTTP's rules; the moment for people is left off
explained() { printf "$1" | python3 tools/planner/response_to_trace.py --at 1000 --explain /a | sed 's/ (Thu, 01 Jan 1970 [0-9:]* GMT)//' | tr '\n' '|'; }
is_explained() { [ "$(explained "$1")" = "$2" ] || { echo "explained otherwise: $1" >&2; exit 1; }; }
is_explained 'HTTP/1.1 200 OK\r\nCache-Control: max-age=60\r\nAge: 50\r\n\r\n' 'tier: decided by Cache-Control: max-age=60 (the lifetime)|tier: fresh up to second 1060|tier: not looked at: age|rules: stored, 60 seconds by Cache-Control: max-age=60|rules: 50 seconds old as it came, by Age|rules: fresh before second 1010|'
is_explained 'HTTP/1.1 206 P\r\nExpires: 0\r\n\r\n' 'tier: decided by Expires: 0 (the last moment)|tier: stale from second 1000 on|tier: status 206: what is stored is a part, and is served as the whole|rules: not stored: status 206: a part isn'\''t stored|'
is_explained 'HTTP/1.1 200 OK\r\nCache-Control: private, max-age=9\r\n\r\n' 'tier: decided by Cache-Control: private (not stored: the cache is shared)|rules: not stored: Cache-Control: private (the cache is shared)|'
is_explained 'HTTP/1.1 200 OK\r\nCache-Control: max-age=9, s-maxage=x\r\n\r\n' 'tier: decided by Cache-Control: s-maxage=x (not stored: that is no number of seconds, and nothing else gives a lifetime)|rules: not stored: Cache-Control: s-maxage=x, which is no number of digits: 0 seconds: it is stale at once, and has no ETag or Last-Modified to ask by|'
is_explained 'HTTP/1.1 200 OK\r\nCache-Control: s-maxage=60, stale-if-error=9, private="x-user"\r\nX-User: a\r\n\r\n' 'tier: decided by Cache-Control: s-maxage=60 (the lifetime)|tier: fresh up to second 1060|tier: stale-if-error=9: whether to use it stale is the caller'\''s decision|tier: stored without x-user, which private or no-cache lists|rules: stored, 60 seconds by Cache-Control: s-maxage=60|rules: fresh before second 1060|rules: Cache-Control: stale-if-error=9: not used, since s-maxage forbids stale use|rules: stored without x-user: Cache-Control: private=x-user|'
is_explained 'HTTP/1.1 304 N\r\nCache-Control: max-age=60\r\n\r\n' 'tier: decided by Cache-Control: max-age=60 (the lifetime)|tier: fresh up to second 1060|rules: not stored: status 304: a 304 confirms what is stored, and renews its lines; it is never stored itself|'
is_explained 'HTTP/1.1 200 OK\r\nCache-Control: max-age=60\r\nA : b\r\n\r\n' 'tier: decided by Cache-Control: max-age=60 (the lifetime)|tier: fresh up to second 1060|rules: refused with 502: blank-before-colon|'
if python3 tools/planner/response_to_trace.py /a < /dev/null 2> "$room/told"; then exit 1; fi
grep -qx "the input is empty" "$room/told"
echo "access_log_to_trace.py, response_to_trace.py: as expected"
