#!/usr/bin/env python3
"""Tests that the planner's answers are right, or refused, on logs that CDNs have: parts and 304s in the place of whole responses, downloads that were broken off, columns
that look like a public trace's. Hits are compared with those of an LRU of its own, which knows each length. It may be given the curve program's words."""
import collections
import datetime
import os
import random
import re
import subprocess
import sys
import tempfile

HERE = os.path.dirname(os.path.realpath(__file__))
sys.path.insert(0, HERE)

from planner.words import bytes_of, seconds_of  # noqa: E402

PROGRAM = sys.argv[1] if len(sys.argv) > 1 else f"{sys.executable} {os.path.join(HERE, '..', 'reference', 'plain_planner.py')}"
SIZES, OVERHEAD, FAILED = (20_000_000, 60_000_000), 438, []


def check(name, it, want):
    if it != want:
        FAILED.append(f"{name}: {it}, not {want}")


def length_of(key):
    return 100_000 + key * 7919 % 900_000


def requests(count=4000, keys=400):
    """The moments and keys of requests, some keys far more often than others."""
    draw, now = random.Random(3), 1_764_460_800
    for key in draw.choices(range(keys), [1 / (it + 1) ** 0.9 for it in range(keys)], k=count):
        now += draw.randint(0, 1)
        yield now, key


def hits(made):
    """How many of the requests an LRU of each size hits, each key by its whole length."""
    out = []
    for limit in SIZES:
        rows, room, found = collections.OrderedDict(), 0, 0
        for _, key in made:
            if key in rows:
                found += 1
                rows.move_to_end(key)
                continue
            rows[key] = length_of(key) + OVERHEAD
            room += rows[key]
            while room > limit:
                room -= rows.popitem(last=False)[1]
        out.append(found)
    return out


def combined(moment, key, status, sent, rest=""):
    when = datetime.datetime.fromtimestamp(moment, datetime.timezone.utc).strftime("%d/%b/%Y:%H:%M:%S +0000")
    return f'203.0.113.9 - - [{when}] "GET /v/{key} HTTP/1.1" {status} {sent} "-" "UA"{rest}\n'


def log_of(made, share, seed=4, has_range=False):
    """A log in which that share of the requests are whole responses; of the others a part, or a 304."""
    draw = random.Random(seed)
    for moment, key in made:
        status, sent = (200, length_of(key)) if draw.random() < share else draw.choice([(206, 65536), (304, 0)])
        rest = f' "bytes 0-65535/{length_of(key)}"' if status == 206 else ' "-"'
        yield combined(moment, key, status, sent, rest if has_range else "")


def squid(made):
    """ATS's log: one in ten downloads is broken off, which fixes nothing."""
    draw = random.Random(5)
    for moment, key in made:
        # (its lengths are with heads)
        whole = length_of(key) + OVERHEAD - 38
        if draw.random() < 0.1:
            yield f"{moment}.000 5 203.0.113.9 ERR_CLIENT_ABORT/200 {whole // 7} GET http://a.example/v/{key} - DIRECT/b text/html\n"
        yield f"{moment}.000 5 203.0.113.9 TCP_HIT/200 {whole} GET http://a.example/v/{key} - NONE/- text/html\n"


def plan(room, lines, *words):
    """The exit status, the hits of each size, and all that was said."""
    path = os.path.join(room, "log")
    with open(path, "w", encoding="utf-8") as out:
        out.write("".join(lines))
    ran = subprocess.run([sys.executable, os.path.join(HERE, "plan.py"), "--curve-program", PROGRAM, path, "--sizes", ",".join(map(str, SIZES)), "--ttl", "3600", *words],
                         stdout=subprocess.PIPE, stderr=subprocess.STDOUT, encoding="utf-8", check=False)
    if ran.returncode:
        return ran.returncode, None, ran.stdout
    with open(path + ".csv", encoding="ascii") as file:
        rows = dict(it.split(",")[:2] for it in file if it[:1].isdigit())
    return 0, [int(rows[str(it)]) for it in SIZES], ran.stdout


def has(name, said, words):
    check(f"{name}: {said}: is {words!r} in it", words in said, True)


def test_parts(room, made, want):
    """Parts and 304s count with the whole length that the log tells elsewhere, or that a file tells; where too few are told there is no answer."""
    whole = [list(log_of(made, share)) + [combined(made[-1][0], key, 200, length_of(key)) for key in range(400)] for share in (0.95, 0.4)]
    more = hits([*made, *((0, key) for key in range(400))])
    for share, lines in zip(("95 %", "40 %"), whole):
        status, found, said = plan(room, lines)
        check(f"{share} whole responses", (status, found), (0, more))
        has(share, said, "Exact, for one LRU")
    status, found, said = plan(room, log_of(made, 0.02))
    check("few whole responses", status, 1)
    has("few whole responses", said, "$sent_http_content_range")
    has("few whole responses", said, "--lengths lengths")
    lengths = os.path.join(room, "lengths")
    with open(lengths, "w", encoding="ascii") as out:
        out.write("".join(f"/v/{key} {length_of(key)}\n" for key in range(400)))
    status, found, said = plan(room, log_of(made, 0.02), "--lengths", lengths)
    check("few whole responses, with --lengths", (status, found), (0, want))
    # most of its 304s stand beside a part that has the length in its Content-Range
    status, found, said = plan(room, log_of(made, 0.02, has_range=True))
    check("few whole responses, with a Content-Range", status, 0)
    check(f"few whole responses, with a Content-Range: {found}", all(abs(a - b) < 0.01 * len(made) for a, b in zip(found, want)), True)


def test_aborted(room, made, want):
    status, found, said = plan(room, squid(made))
    check("downloads that were broken off", (status, found), (0, want))
    has("downloads that were broken off", said, "ERR_CLIENT_ABORT")


def test_columns(room, made):
    """Columns as many as a public trace has are none of it."""
    for name, line in (("five by tabs", "{0}\t203.0.113.{1}\t/v/{1}\t{2}\t0.004\n"), ("four by tabs", "{0}\t/v/{1}\t200\t{2}\n"), ("five by commas", "{0},{1},{2},1,edge7\n")):
        status, found, said = plan(room, [line.format(moment, key, length_of(key)) for moment, key in made])
        check(name, status, 1)
        has(name, said, "--columns time=1,key=2,bytes=3")


def test_own(room, made):
    """Where each line says what the log's own cache did, its hit ratio stands beside the LRU's; each label has its part, and the page fetches nothing."""
    lines = [combined(moment, key, 200, length_of(key), f' {"HIT" if key % 3 else "MISS"}') for moment, key in made]
    own = sum(key % 3 > 0 for _, key in made)
    status, found, said = plan(room, lines, "--html")
    check("the log's own hits", (status, found), (0, hits(made)))
    has("the log's own hits", said, f"Your cache: {100 * own / len(made):.1f} % of {len(made):,} requests were hits by its own words; ")
    with open(os.path.join(room, "log.html"), encoding="utf-8") as file:
        page = file.read()
    check("the page has its picture, and fetches nothing", "<svg" in page and "Your cache" in page and not re.search(r'(src|href)="|@import|url\(', page), True)
    status, found, said = plan(room, [it.replace("/v/", "/even/") if key % 2 == 0 else it for it, (_, key) in zip(lines, made)], "--by-label", "prefix")
    even = sum(key % 2 == 0 for _, key in made)
    for label, count in (("/even/", even), ("/v/", len(made) - even)):
        check(f"{said}: the requests of {label}", bool(re.search(rf"^ +{label} +{count:,} ", said, re.MULTILINE)), True)


def test_words(room):
    """Sizes and times are read as people write them, and a log that is named twice is refused."""
    for text, want in (("10GB", 10**10), ("10GiB", 10 * 2**30), ("0.5G", 5 * 10**8), ("1500", 1500), ("2K", 2000)):
        check(text, bytes_of(text), want)
    for text, want in (("1h", 3600), ("90", 90), ("7d", 604800), ("15m", 900)):
        check(text, seconds_of(text), want)
    path = os.path.join(room, "log")
    for words, said in (([path, path], "is named twice"), ([path, "--price-per-gb", "0.02"], "a price wants --ttl")):
        ran = subprocess.run([sys.executable, os.path.join(HERE, "plan.py"), *words], stdout=subprocess.PIPE, stderr=subprocess.STDOUT, encoding="utf-8", check=False)
        check(f"{words[1:]}: its status", ran.returncode, 2)
        has(str(words[1:]), ran.stdout, said)


def main():
    made = list(requests())
    want = hits(made)
    with tempfile.TemporaryDirectory() as room:
        test_parts(room, made, want)
        test_aborted(room, made, want)
        test_columns(room, made)
        test_own(room, made)
        test_words(room)
    if FAILED:
        sys.exit("\n".join(FAILED))
    print("answers: parts, 304s, broken downloads and columns of any kind are answered as an LRU hits, or refused")


if __name__ == "__main__":
    main()
