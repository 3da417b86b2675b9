#!/usr/bin/env python3
"""Tests the readers of logs: one and the same list of requests, written by many formats, is read as it was made, and hits as often in an LRU; what can't
be read is refused, in words that say what to do. Then files that are broken, cut, mixed, or of no format at all."""
import collections
import gzip
import io
import json
import os
import random
import re
import sys
import tempfile
import time

sys.path.insert(0, os.path.dirname(os.path.realpath(__file__)))

from format_lines import HOST, READ, REFUSED, TARGET, line_of, requests  # noqa: E402
from logs import columns, json_lines  # noqa: E402
from logs.line_format import LineFormat  # noqa: E402
from logs.reading import Reading  # noqa: E402
from logs.records import Rules  # noqa: E402
from logs.unpack import Refused  # noqa: E402
from planner.figures import MOST_UNREAD  # noqa: E402
from planner.progress import Progress  # noqa: E402
from planner.lengths import path_of  # noqa: E402

LENGTHS, FAILED = (60_000, 400_000), []


def hits(seen):
    """How many of requests (keys and lengths, '?' where none is told) an LRU hits, at each size."""
    out = []
    for limit in LENGTHS:
        rows, room, found = collections.OrderedDict(), 0, 0
        for key, size in seen:
            if key in rows:
                found += 1
                rows.move_to_end(key)
                continue
            rows[key] = 1 if size == "?" else int(size)
            room += rows[key]
            while room > limit:
                room -= rows.popitem(last=False)[1]
        out.append(found)
    return len(seen), len({key for key, _ in seen}), seen and [size for _, size in seen].count("?"), out


def wanted(made, key, told=True):
    """The same of the requests as they were made."""
    return hits([(("" if key.startswith(TARGET) else it.host) + it.path + ("" if key.startswith("bucket") else it.query), it.size if told else "?")
                 for it in made if (it.method, it.status) == ("GET", 200)])


def read(path, **rules):
    """What is read of a file: what its keys are made of, and its hits. Refused, where it is."""
    compiled = {"line": LineFormat, "names": json_lines.names_of, "skip": int, "columns": lambda text: columns.named(text, ",")}
    reading = Reading([path], Rules(**{name: compiled[name](text) for name, text in rules.items()}), moments=True, most_unread=MOST_UNREAD)
    lines = [it.decode().split(" ") for _, block in reading.blocks() for it in b"".join(block).split(b"\n")[:-1]]
    return reading, hits([(it[1], it[2][:1] if it[2].startswith("?") else it[2]) for it in lines]), [int(it[0]) for it in lines]


def check(name, it, want):
    if it != want:
        FAILED.append(f"{name}: {it}, not {want}")


def check_refused(name, path, words, **rules):
    try:
        read(path, **rules)
    except Refused as why:
        check(f"{name}: {why}: is {words!r} in it", bool(re.search(words, str(why), re.DOTALL)), True)
        check(f"{name}: no bytes that steer a terminal", all(it.isprintable() for it in str(why).split("\n")), True)
    else:
        check(name, "read", f"refused with {words!r}")


def test_formats(room, made):
    moments = [it.ms // 1000 for it in made if (it.method, it.status) == ("GET", 200)]
    taken = [it for it in made if (it.method, it.status) == ("GET", 200)]
    for name, (key, shape, *head) in READ.items():
        path = os.path.join(room, name)
        with open(path, "w", encoding="utf-8", newline="") as out:
            out.write("".join(head) + "".join(line_of(shape, it) + ("\r\n" if name == "iis-host" else "\n") for it in (made if "<st>" in shape and "<m>" in shape else taken)))
        reading, found, when = read(path)
        said = reading.logs[0].format.key
        check(f"{name}: its keys are of {said!r}: is {key!r}", said.startswith(key), True)
        check(name, found, wanted(made, key, name != "iis"))
        check(name + ", moments", when, moments)
    for name, (words, shape, head, way) in REFUSED.items():
        path = os.path.join(room, name)
        with open(path, "w", encoding="utf-8") as out:
            out.write(head + "".join(line_of(shape, it) + "\n" for it in (made if "<st>" in shape and "<m>" in shape else taken)))
        check_refused(name, path, words)
        if way:
            reading, found, when = read(path, **way)
            check(name, found, wanted(made, TARGET if "line" in way and "<h>" not in shape or name in ("took-then-bytes", "iso8601-first", "fraction-then-bytes") else HOST))
            check(name + ", moments", when, moments)


def broken(made):
    """Files that are packed, marked or cut, by their names: their bytes, and None where all requests are read, else words of the refusal."""
    draw = random.Random(7)
    lines = [line_of(READ["nginx-combined"][1], it) + "\n" for it in made]
    squid = [line_of(READ["squid"][1], it) + "\n" for it in made]
    plain, caddy = "".join(lines).encode(), [line_of(READ["caddy"][1], it) for it in made]
    half = len("".join(lines[:200]))
    bad = bytearray(gzip.compress(plain))
    bad[len(bad) // 2] ^= 0x55
    return {
        "gz": (gzip.compress(plain), None), "two-members.gz": (gzip.compress(plain[:half]) + gzip.compress(plain[half:]), None),
        "zeros-after.gz": (gzip.compress(plain) + bytes(512), None), "cut.gz": (gzip.compress(plain)[:-2000], "cut short|broken"), "broken.gz": (bytes(bad), "broken|cut short"),
        "mark": (b"\xef\xbb\xbf" + plain, None), "returns": (plain.replace(b"\n", b"\r\n"), None), "no-line-feed": (plain[:-1], None),
        "binary-inside": (plain[:half] + draw.randbytes(3000).replace(b"\n", b"") + b"\n" + plain[half:], None), "zeros-inside": (plain[:half] + bytes(3000) + b"\n" + plain[half:], None),
        "long-line": (plain[:half] + b"A" * 1_500_000 + b"\n" + plain[half:], None), "blanks-inside": (plain[:half] + b" " * 60_000 + b"\n" + plain[half:], None),
        "utf-16": (plain.decode().encode("utf-16"), "UTF-16"), "only-returns": (plain.replace(b"\n", b"\r"), "carriage returns"),
        "random": (draw.randbytes(300_000), "no known format"), "records": (draw.randbytes(24 * 5000), "no known format"), "zeros": (bytes(50_000), "no known format|weren't read|nothing is in it"),
        "mixed-half": ("".join(lines[:200] + squid[200:]).encode(), "no known format"), "mixed-late": ("".join(lines * 3 + squid).encode(), "weren't read"),
        "empty": (b"", "nothing is in it"), "blank": (b"\n\n\n", "nothing is in it"), "html": (b"<html>\n" * 500, "no known format"),
        "posts": (plain.replace(b'"GET', b'"POST'), "no line of it is a request"), "zip": (b"PK\x03\x04" + draw.randbytes(100), "unzip"),
        "error-log": (b'2026/11/30 00:00:00 [error] 12#12: *1 open() "/x" failed (2: No such file), client: 1.2.3.4, request: "GET / HTTP/1.1"\n' * 200, "no known format"),
        "json-array": (("[" + ",\n".join(caddy) + "]").encode(), "jq"), "json-pretty": ("\n".join(it.replace(",", ",\n ") for it in caddy).encode(), "jq"),
        "steers": (b"\x1b]0;x\x07 \x9b31m a b c\n" * 100, "no known format"),
    }


def test_broken(room, made):
    want = wanted(made, TARGET)
    for name, (data, words) in broken(made).items():
        path = os.path.join(room, "x-" + name)
        with open(path, "wb") as out:
            out.write(data)
        if words:
            check_refused(name, path, words)
        else:
            check(name, read(path)[1], want)
    return len(broken(made))


def test_order(room, made):
    """Lines that stand the other way round, or in no order, are all read; sorted they hit as they were made."""
    lines, taken = [line_of(READ["nginx-combined"][1], it) + "\n" for it in made], wanted(made, TARGET)
    path = os.path.join(room, "order")
    for name, those in (("reversed", lines[::-1]), ("shuffled", random.Random(1).sample(lines, len(lines)))):
        with open(path, "w", encoding="utf-8") as out:
            out.write("".join(those))
        reading, found, _ = read(path)
        check(name, found[:2], taken[:2])
        check(name + ": it goes back in time", reading.counts.back > 100, True)


def test_time(room):
    """Lines that somebody chose take one pass: of such ones a reader that tries each place from each place takes minutes."""
    log = '203.0.113.9 - - [28/Nov/2026:19:42:40 +0000] "GET /a HTTP/1.1" 200 5 "-" "'
    chosen = (" " * 60_000, "x" * 60_000, "\0" * 60_000, "z" * 60_000 + "! " + log, " [1" * 20_000, ' [1] "' * 9_000, "/" * 60_000, "a:1 " * 15_000, "a:1 [28/Nov/2026:19:42:40] b " + "/" * 60_000,
              log + " " * 60_000, "\\" * 60_000, '"' * 60_000, "203.0.113.9, " * 4_500, "{" * 60_000, "[" * 60_000, "1" * 60_000, "," * 60_000, "\t" * 60_000, "a b " * 15_000)
    for front in ("", log):
        for it in chosen:
            path, began = os.path.join(room, "chosen"), time.process_time()
            with open(path, "w", encoding="utf-8") as out:
                out.write((log + '"\n') * 100 + (front + it + "\n") * 10)
            reading, found, _ = read(path)
            took = time.process_time() - began
            check(f"{front[:4]}{it[:12]!r}: {took:.1f} s of the processor, few", took < 3, True)
            check(f"{front[:4]}{it[:12]!r}", found[0] >= 100, True)


def test_keys(room):
    """Files whose keys can't meet are refused by name, those whose keys can aren't."""
    for first, second, meet in (("nginx-combined", "nginx-url", False), ("nginx-host-first", "nginx-combined", False), ("squid", "caddy", False), ("caddy", "nginx-host-last", True),
                                ("syslog", "traefik", True), ("text-sec", "squid", True)):
        reading = Reading([os.path.join(room, first), os.path.join(room, second)], Rules())
        try:
            reading.check_keys()
        except Refused as why:
            check(f"{first} beside {second}: {why}", not meet and first in str(why) and second in str(why), True)
        else:
            check(f"{first} beside {second}", meet, True)
    # the same file once more, packed
    with open(os.path.join(room, "nginx-url"), "rb") as file, gzip.open(os.path.join(room, "again.gz"), "wb") as out:
        out.write(file.read())
    try:
        Reading([os.path.join(room, it) for it in ("nginx-url", "again.gz")], Rules()).check_keys()
        check("the same file twice", "read", "refused")
    except Refused as why:
        check(f"{why}: of the same lines", "begin with the same lines" in str(why), True)
    for key in (b"/a/b", b"www.example.com/a/b?x=http://c/d", b"https://www.example.com:443/a/b?x", b"/a/b?http://x/y"):
        check(f"the path of {key!r}", path_of(key), b"/a/b")


def odd_json(draw, it):
    """An object a line as Caddy writes it, mostly a plain one; a plain one without `draw`."""
    if not draw:
        return json.dumps({"ts": it.ms / 1000, "request": {"host": it.host, "uri": it.path + it.query, "method": it.method}, "size": it.size, "status": 200})
    size = draw.choice([it.size] * 20 + [-1, True, None, "77", 2**63, 1.5])
    uri = draw.choice([it.path + it.query] * 20 + ["/a b", "/\x1b[0m", "/\u00e9", 7, None, "", "/\ud800", "\u2028"])
    when = draw.choice([it.ms / 1000] * 20 + [it.ms, "2026-11-30T10:00:00Z", it.ms * 1000, -1, 0, None, True, 1e300, "soon"])
    line = json.dumps({"ts": when, "request": draw.choice([{"host": it.host, "uri": uri, "method": draw.choice(["GET"] * 20 + ["HEAD", "POST", None, 1])}] * 30 + [7, None, {}]),
                       "size": size, "status": draw.choice([200] * 20 + [206, 304, 404, "200", 200.0, None, True])}, ensure_ascii=draw.random() < 0.5)
    return draw.choice([line] * 30 + [line[:-3], "", "[1]", "7", line + " ", line.replace("{", '{"size": 5, ', 1)])


def test_fast(room, made):
    """Blocks of objects are read as their lines are one by one, whatever stands in them."""
    draw, path = random.Random(3), os.path.join(room, "odd.json")
    for _ in range(5):
        with open(path, "w", encoding="utf-8", errors="surrogatepass") as out:
            out.write("".join(odd_json(at > 1000 and draw, it) + "\n" for at, it in enumerate(made)))
        seen = []
        for is_fast in (True, False):
            reading = Reading([path], Rules(), moments=True, most_unread=1)
            check("odd objects are read in blocks", reading.logs[0].format.fast is not None, True)
            reading.logs[0].format.fast = reading.logs[0].format.fast if is_fast else None
            lines = b"".join(line for _, block in reading.blocks() for line in block)
            seen.append((lines, sorted(reading.counts.passed.items()), reading.counts.unread, reading.counts.requests, reading.counts.named))
        for fast, slow in zip(*seen):
            check("odd objects", fast, slow)
        check("odd objects: most of them are plain", seen[0][0].count(b"\n") > len(made) // 2, True)


class Screen(io.StringIO):
    """Stands for standard error: a terminal, or none."""

    def __init__(self, is_terminal):
        super().__init__()
        self.isatty = lambda: is_terminal


def test_progress(room):
    """Of several files, packed or not, it is told every 5 seconds how many bytes were read of all that there are, and nothing where there is no terminal."""
    paths = [os.path.join(room, it) for it in ("nginx-combined", "again.gz", "squid")]
    whole = sum(map(os.path.getsize, paths))
    for is_terminal, step in ((True, 3), (True, 2.4), (False, 3)):
        screen, now = Screen(is_terminal), [0.0]
        progress = Progress(paths, screen, lambda: now[0])
        for at in range(1, 6):
            now[0] += step
            progress.tell(lambda: whole * at // 5)
        told = [it.rstrip() for it in screen.getvalue().split("\r") if it.strip()]
        shares = [re.search(r"read \((\d+) %\)", it)[1] for it in told]
        check(f"progress by steps of {step} s", shares, [] if not is_terminal else ["40", "80"] if step == 3 else ["60"])
        check("progress: what is left", all(it.endswith(want) for it, want in zip(told, ("some 9s left", "some 3s left"))), True) if step == 3 else None
        progress.end()
        check("progress: it is taken off the terminal", screen.getvalue().endswith("\r") or not is_terminal, True)
    # what is told are the bytes of the files as they lie there, each once
    reading, seen = Reading(paths[:1] + paths[2:], Rules()), []
    reading.tell = lambda done: seen.append(done())
    collections.deque(reading.blocks(), 0)
    check("progress: the bytes of all files", seen[-1], sum(map(os.path.getsize, paths[:1] + paths[2:])))
    reading = Reading([paths[1]], Rules())
    reading.tell = lambda done: seen.append(done())
    collections.deque(reading.blocks(), 0)
    check("progress: the bytes of a packed file", seen[-1], os.path.getsize(paths[1]))
    screen = Screen(True)
    progress = Progress(["-"], screen, iter((0, 6, 6, 12)).__next__)
    progress.tell(lambda: 3_000_000)
    check("progress of a pipe", screen.getvalue().strip(), "3M read")


def main():
    made = requests()
    with tempfile.TemporaryDirectory() as room:
        test_formats(room, made)
        count = test_broken(room, made)
        test_order(room, made)
        test_keys(room)
        test_fast(room, made)
        test_progress(room)
        test_time(room)
    if FAILED:
        sys.exit("\n".join(FAILED))
    print(f"logs: {len(READ)} formats are read as they were made, {len(REFUSED)} are refused with what to do, and {count} broken files answer as they should")


if __name__ == "__main__":
    main()
