#!/usr/bin/env python3
"""Compares tier-replay with the plain model in replay_model.py over random traces of all events.

    tools/reference/random_traces.py PROGRAM COUNT [SEED]     runs the program; where it differs, prints the shortest trace found that shows it
    tools/reference/random_traces.py --cases FOLDER COUNT [SEED]   writes the traces as cases for `rt try --cases FOLDER`, which needs no proof

An event is mostly one that its request may ask for, as the model tells, and else any. In half of the traces some writes and renewals come with a given
meta, or by the hashes of a key. Some runs start from what an earlier one saved, in part damaged. The same seed gives the same traces."""

import hashlib
import json
import os
import random
import subprocess
import sys
import tempfile

import replay_model as model

KEYS = ("61", "62", "63", "64", "")
TAGS = ("", "", "", "1", "é")
IDS = (0, 1, 2, 3, 18446744073709551615)
STATUS = ("200 OK", "200 OK", "200 OK", "200", "404 Not Found", "204 No Content", "304 Not Modified", "099 x", "600 List")
CONFIRMS = ("304 Not Modified",) * 12 + ("304", "200 OK")
CONTROLS = ("max-age=100", "max-age=100", "max-age=10", "max-age=2", "max-age=0", "no-store", "no-cache", "public", "private", 'private="x-a"')
CONTROLS += ("s-maxage=5, max-age=1", "max-age=x", "s-maxage=x, max-age=9", 'max-age="7"', "max-age=9223372036854775807", "a=b;max-age=3", "max-age=1, max-age=4")
CONTROLS += ("max-age=9, stale-while-revalidate=300, stale-if-error=70000", 'max-age=9, no-cache="x-a, x-nnn"', "max-age=9, must-revalidate, stale-if-error=60")
EXPIRES = ("0", "Thu, 01 Jan 1970 00:16:45 GMT", "Thursday, 01-Jan-70 00:16:50 GMT", "Thu Jan  1 00:17:00 1970", "Fri, 01 Jan 1970 00:16:45 GMT")
ODD = ('{"op":"look","at":1', "[]", "", "{}", '{"op":"looks","at":1,"id":1}', '{"op":"look","at":-1,"id":1}', '{"op":"look","at":1,"id":1.0}', '"open"', "\xff{}")
ODD += ('{"op":"open","at":1,"id":1,"key":"6"}', '{"op":"open","at":1,"id":9,"key":"61","lock":1}', '{"op":"piece","at":1,"id":1,"bytes":"6g"}', '{"op":"begin","at":1,"id":1}')
ODD += ('{"op":"piece","at":1,"id":1,"bytes":"","end":null}', '{"op":"put","at":1,"key":"","pieces":"48"}', '{"op":"poll","at":9223372036854775808,"id":1}', '{"op":"poll","at":1e999,"id":1}')


def head(r, statuses=STATUS):
    end = r.choice(("\r\n", "\r\n", "\r\n", "\n"))
    lines = [f"HTTP/1.{r.choice('01')} {r.choice(statuses)}"]
    for _ in range(r.choice((0, 1, 1, 1, 1, 1, 2))):
        lines.append(f"{r.choice(('Cache-Control', 'cache-control'))}:{r.choice(('', ' '))}{r.choice(CONTROLS)}")
    if r.random() < 0.1:
        lines.append(f"Expires: {r.choice(EXPIRES)}")
    if r.random() < 0.2:
        lines.append(f"Content-Length: {r.choice(('0', '1', '2', '+3', '5', 'x'))}")
    if r.random() < 0.1:
        lines.append(f"ETag: {r.choice(('a', 'bb', ''))}")
    if r.random() < 0.05:
        lines.append(r.choice(("x-a: 1" + end + " 2", "x-a : 1", "bad line", "x-a:")))
    if r.random() < 0.1:
        # names and values that are written in the shortest form and in the next one
        lines.append(f"x-{'n' * r.choice((1, 3, 29, 30))}: {'v' * r.choice((0, 1, 255, 256))}")
    text = r.choice(("", "", "", end)) + end.join(lines) + end * 2
    data = text.encode()
    if r.random() < 0.05:
        data = data[: r.randrange(len(data))]
    return data + b"x" if r.random() < 0.02 else data


def body(r):
    return bytes(r.choice(b"abcx\0\xff") for _ in range(r.choice((0, 1, 1, 2, 3, 5, 9))))


def cut(r, data):
    at = sorted(r.randrange(len(data) + 1) for _ in range(r.choice((0, 0, 1, 2, 4))))
    return [data[a:b].hex() for a, b in zip([0, *at], [*at, len(data)])]


def said(r, at):
    """The fields of a given meta; now and then a bad one."""
    near = (0, 0, 1, 2, 5, 10, 100, -1, -3, -100)
    given = {"until": max(0, min(2**63 - 1, at + r.choice(near))) if r.random() < 0.9 else r.choice((0, 127, 128, 70000, 2**63 - 1))}
    for name in ("created", "updated", "provenance"):
        if r.random() < 0.3:
            given[name] = r.choice((0, 100, 200, 1000, 70000, 2**40, at))
    for name in ("while", "error"):
        if r.random() < 0.2:
            given[name] = r.choice((0, 1, 128, 300, 70000, 2**32 - 1))
    if r.random() < 0.6:
        given["external"] = r.choice((0, 1, 3, 30, 30, 60, 100, 1000, 2**62 - 1))
    if r.random() < 0.04:
        given[r.choice(list(given))] = r.choice((None, -1, 1.5, "1", 2**32, 2**62, 2**63, 2**64))
    if r.random() < 0.02:
        del given["until"]
    return given


def hashes(r, given):
    """The fields of a restore in the place of the key's."""
    key = bytes.fromhex(given.pop("key"))
    hashed = hashlib.blake2b(key, digest_size=16).hexdigest()
    given |= {"op": "restore", "digest": r.choice((hashed, hashed, hashed, hashed.upper(), "00" * 16, key.hex() if r.random() < 0.1 else hashed))}
    return given | ({"variance": r.choice(("00" * 16, hashed, "0g" * 16 if r.random() < 0.1 else hashed))} if r.random() < 0.2 else {})


def wanted(r, tier, id):
    """An event that the request may ask for."""
    it = tier.requests.get(id)
    if it is None:
        return "open"
    choices = ["drop"] if r.random() < 0.25 else []
    choices += ["poll"] * 3 if it.wait else []
    choices += ["look"] * 2 if it.phase in ("CacheKey", "Stale") and not it.permit and not it.wait else []
    choices += ["begin"] * 2 if it.phase == "Miss" or it.phase == "Stale" and not it.gave_read else []
    choices += ["revalidate"] * 3 if it.phase == "Stale" and not it.gave_read else []
    choices += ["piece", "piece", "finish"] if it.write else []
    choices += ["read"] if it.reader else []
    return r.choice(choices or ["drop"])


def event(r, tier, at, asks, says):
    op, id = r.choice(("open", "look", "poll", "begin", "revalidate", "piece", "finish", "read", "drop", "purge", "put")), r.choice(IDS[: r.choice((3, 5))])
    if r.random() < 0.75:
        op = wanted(r, tier, id) if r.random() < 0.85 else r.choice(("put", "put", "put", "purge"))
    given = {"op": op, "at": at, "id": id}
    if op in ("open", "purge", "put"):
        given |= {"key": r.choice(KEYS[: r.choice((1, 2, 5))]), "tag": r.choice(TAGS)}
    if op == "open" and r.random() < asks:
        given["lock"] = True
    if op == "begin":
        given["head"] = head(r).hex()
    by_caller = op in ("begin", "revalidate", "put") and r.random() < says
    if op == "revalidate":
        given["head"] = head(r, STATUS if by_caller else CONFIRMS).hex()
    if op == "piece":
        given |= {"bytes": body(r).hex(), "end": r.random() < 0.3}
    if op == "put":
        given["pieces"] = cut(r, head(r) + body(r))
    if by_caller:
        given |= {"op": op + "-given"} | said(r, at)
        given = hashes(r, given) if op == "put" and r.random() < 0.4 else given
    return json.dumps(given).encode()


def options(r):
    words = ["--limit", str(r.choice((0, 58, 60, 100, 120, 180, 250, 400, 1000, 2**64 - 1)))]
    words += ["--watermark", str(r.choice((0, 1, 2, 5)))] if r.random() < 0.3 else []
    words += ["--shards", r.choice(("1", "4", "16")), "--seed", str(r.choice((0, 2, 77, 2**64 - 1, r.randrange(2**64))))] if r.random() < 0.5 else []
    words += ["--age", str(r.choice((0, 1, 2, 3, 10, 2**64 - 1)))] if r.random() < 0.6 else []
    return words + (["--wait", str(r.choice((0, 1, 2, 3, 5, 2**64 - 1)))] if r.random() < 0.5 else [])


def trace(r, words):
    tier, lines = model.Tier(**model.options_of(words)), []
    at, asks = r.choice((0, 1000, 1000, 1000, 2**63 - 8)), r.choice((0, 0.3, 0.8, 1))
    says = r.choice((0, 0, 0, 0.3, 0.6, 1))
    for _ in range(r.choice((10, 30, 60, 120))):
        at = max(0, min(2**63 - 1, at + r.choice((0, 0, 0, 1, 1, 2, 3, -1, -2, r.choice((10, 100, -50))))))
        lines.append(r.choice(ODD).encode("latin-1") if r.random() < 0.03 else event(r, tier, at, asks, says))
        model.answer(tier, lines[-1])
    return lines


def damaged(r, files):
    """The files of a directory, some of them not as they were saved."""
    files = dict(files)
    for name in list(files):
        data, way = bytearray(files[name]), r.random()
        if way < 0.1:
            del files[name]
        elif way < 0.2:
            files[name] = bytes(data[: r.randrange(len(data) + 1)])
        elif way < 0.4 and data:
            data[r.randrange(len(data))] = r.choice((0, 1, 0x7F, 0x90, 0x92, 0xA1, 0xC0, 0xCC, 0xCF, 0xDC, 0xFF))
            files[name] = bytes(data)
    if r.random() < 0.2:
        files[r.choice(("lru.data.0.12ab34cd.tmp", "lru.data.tmp", "lru.data.0.bak", "xlru.data.tmp"))] = b"x"
    return files


def by_program(program, words, lines, files):
    """What the program writes, and the directory's files where it has one."""
    trace = b"\n".join(lines)
    if files is None:
        return subprocess.run([program, *words], input=trace, stdout=subprocess.PIPE).stdout, None
    with tempfile.TemporaryDirectory() as folder:
        for name, data in files.items():
            with open(os.path.join(folder, name), "wb") as it:
                it.write(data)
        text = subprocess.run([program, *words, "--recency", folder], input=trace, stdout=subprocess.PIPE).stdout
        left = {}
        for name in os.listdir(folder):
            with open(os.path.join(folder, name), "rb") as it:
                left[name] = it.read()
        return text, left


def by_model(words, lines, files):
    left = None if files is None else dict(files)
    return model.replay(b"\n".join(lines), model.options_of(words), left), left


def differs(program, words, lines, files):
    return by_program(program, words, lines, files) != by_model(words, lines, files)


def shortest(program, words, lines, files):
    """Leaves out lines as long as the program still differs from the model."""
    size = len(lines)
    while size:
        at = 0
        while at < len(lines):
            fewer = lines[:at] + lines[at + size :]
            if differs(program, words, fewer, files):
                lines = fewer
            else:
                at += size
        size //= 2
    return lines


def show(program, words, lines, files):
    print("options:", " ".join(words))
    for name, data in (files or {}).items():
        print(f"{name}: {data.hex()}")
    (want, after), (got, left) = by_model(words, lines, files), by_program(program, words, lines, files)
    asked = [*lines, b"the report"] if files is None else [b"what is loaded", *lines, b"the report", b"what is saved"]
    for line, *both in zip(asked, want.split(b"\n"), got.split(b"\n")):
        print(f"{line.decode('latin-1')}\n    model {both[0].decode()}\n    program {both[1].decode()}")
    for name in sorted({*(after or {}), *(left or {})}):
        if after.get(name) != left.get(name):
            print(f"{name}:\n    model {after.get(name, b'').hex()}\n    program {left.get(name, b'').hex()}")


def write_case(path, words, lines):
    files = ((path, b"\n".join(lines)), (path + ".args", "\n".join(words).encode()), (path + ".stdout", by_model(words, lines, None)[0]))
    for name, data in files:
        with open(name, "wb") as it:
            it.write(data)


def main():
    words = sys.argv[1:]
    cases = words[0] == "--cases"
    place, count = words[cases], int(words[cases + 1])
    r = random.Random(words[cases + 2] if len(words) > cases + 2 else "0")
    bad, saved = 0, {}
    for at in range(count):
        given = options(r)
        lines = trace(r, given)
        if cases:
            write_case(os.path.join(place, f"trace{at:05}"), given, lines)
            continue
        # Some of the runs follow one another over one directory.
        files = damaged(r, saved) if r.random() < 0.3 else None
        if differs(place, given, lines, files):
            bad += 1
            if bad == 1:
                show(place, given, shortest(place, given, lines, files), files)
        saved = by_model(given, lines, files)[1] or saved
    if not cases:
        print(f"random traces: {count - bad} agree, {bad} differ")
        sys.exit(bool(bad))


main()
