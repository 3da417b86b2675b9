"""What an event costs tier-replay: instructions by kind of line, names that an attacker chooses, look-ups in hash tables."""
import collections
import itertools
import os
import random
import re
import shutil
import subprocess
import sys

from .common import PAGE, REPLAY, TOP, counted_over, differ, folder, line


def key(i):
    return f"https://example.org/assets/{i:06d}".encode().hex()


def usual_put(i, size, chosen):
    """A put of a body of that size under a usual head of some 200 bytes."""
    lines = ["HTTP/1.1 200 OK", "Date: Thu, 26 Apr 2018 05:42:05 GMT", "Content-Type: text/html; charset=utf-8", "Server: origin"]
    lines += [f"Cache-Control: public, max-age={chosen.choice([60, 300, 86400])}", f'ETag: "{chosen.getrandbits(64):016x}"']
    if chosen.random() < 0.7:
        lines.append(f"Content-Length: {size}")
    head = "\r\n".join(lines) + "\r\n\r\n"
    return line("put", key=key(i), pieces=[head.encode().hex() + bytes(chosen.getrandbits(8) for _ in range(size)).hex()])


def puts(size):
    def lines(n):
        chosen = random.Random(1)
        return [usual_put(i, size, chosen) for i in range(n)]

    return lines


def opens(n):
    return [text for i in range(n // 2) for text in (line("open", id=i, key=key(i)), line("drop", id=i))]


def hits(n):
    trace = [usual_put(1, 200, random.Random(1))]
    for i in range(n // 5):
        trace.append(line("open", id=i, key=key(1)))
        trace += [line(op, id=i) for op in ("look", "read", "read", "drop")]
    return trace


# The kind, as the page has it, its options, its trace of some lines, how many lines, and what the plain program takes for a line.
KINDS = (
    ("lines that are refused", "--limit 1000", lambda n: ["{}\n"] * n, 5_000, 725),
    ("opens and drops", "--limit 1000", opens, 5_000, 3_224),
    ("hits: open, look, two reads, drop", "--limit 100000", hits, 5_000, 2_726),
    ("purges of absent keys", "--limit 1000", lambda n: [line("purge", key=key(i)) for i in range(n)], 5_000, 3_631),
    ("puts of 2 KB", "--limit 1000000 --watermark 1", puts(2000), 1_000, 31_298),
    ("puts of 20 bytes", "--limit 1000000 --watermark 1", puts(20), 1_000, 11_702),
)


def taken_by(program):
    """What each kind takes for a line: it is run over N and over 3 N lines, and what the first run takes is taken off."""
    for title, options, trace, count, plain in KINDS:
        few, many = trace(count), trace(3 * count)
        yield title, round((counted_over(program, options, many) - counted_over(program, options, few)) / (len(many) - len(few))), plain


def instructions(*words):
    """Prints the first rows of the page's table. --check fails where one is away from it, --write puts them there."""
    if not shutil.which("valgrind"):
        print("instructions: passed over, since valgrind isn't there")
        return 0
    made = []
    with open(PAGE, encoding="utf-8") as file:
        page = file.read()
    was = {title: int(count.replace(",", "")) for title, count in re.findall(r"^\| ([^|]+) \| ([\d,]+) \|", page, re.M)}
    for title, taken, plain in taken_by(next((it for it in words if it[:2] != "--"), REPLAY)):
        row = f"| {title} | {taken:,} | {plain:,} | {taken / plain:.2f} |"
        print(row, flush=True)
        made.append((title, taken))
        page = re.sub(rf"^\| {re.escape(title)} \|(?:[^|\n]*\|){{3}}", row, page, flags=re.M)
    if "--write" in words:
        with open(PAGE, "w", encoding="utf-8") as file:
            file.write(page)
    return int("--check" in words and differ("instructions", made, was))


LINES = 255
# The quick hash is FNV-1a, of which 15 bits count; they depend on no others.
MASK = 0x7FFF
START, FACTOR = 0xCBF29CE484222325 & MASK, 0x100000001B3 & MASK
INVERSE = pow(FACTOR, (1 << 13) - 1, 1 << 15)


def after(state, text):
    for byte in text.encode():
        state = (state ^ byte) * FACTOR & MASK
    return state


def before(state, text):
    for byte in reversed(text.encode()):
        state = state * INVERSE & MASK ^ byte
    return state


def chosen():
    """Names of one hash."""
    fronts = {}
    for i in range(100_000):
        front = f"zq{i:05d}"
        fronts.setdefault(after(START, front), []).append(front)
    for i in itertools.count():
        end = f"{i:04d}"
        for front in fronts.get(before(1, end), []):
            yield front + end


def others():
    return (f"zq{i * 3_921_568 % 10**9:09d}" for i in itertools.count())


def put_of(names):
    lines = ["HTTP/1.1 200 OK"] + [f"{name}: 1" for name in itertools.islice(names, LINES)]
    head = "\r\n".join(lines) + "\r\n\r\n"
    return line("put", key="61", pieces=[head.encode().hex()])


def chosen_names(program=REPLAY):
    """A put of 255 lines, of names that collide under the quick hash of a map of header lines, and of others of the same length."""
    assert FACTOR * INVERSE & MASK == 1 and len({after(START, name) for name in itertools.islice(chosen(), LINES)}) == 1
    for title, names in (("chosen", chosen()), ("other", others())):
        text = put_of(names)
        taken = (counted_over(program, "--limit 1000000", [text] * 21) - counted_over(program, "--limit 1000000", [text])) // 20
        print(f"{title} names: {taken:,} instructions a put", flush=True)


OK = b"HTTP/1.1 200 OK\r\nCache-Control: max-age=%d\r\n\r\n"
CONFIRMED = b"HTTP/1.1 304 Not Modified\r\n\r\n"


def put(i, age=86400):
    return line("put", key=key(i), pieces=[(OK % age + b"x").hex()])


def opened(i):
    return line("open", id=1, key=key(i), lock=True) + line("look", id=1)


FULL = "".join(map(put, range(20)))
# The event, the options, the lines before it, itself, and at most how many look-ups it is to make.
LOOKS = (
    ("hit", "--limit 100000", FULL + line("open", id=1, key=key(7), lock=True), line("look", id=1), 3),
    ("revalidation", "--limit 100000", FULL + put(7, 0) + opened(7), line("revalidate", id=1, head=CONFIRMED.hex()), 8),
    ("put that evicts one", "--limit 100000 --watermark 20", FULL, put(20), 6),
    ("finish that evicts one", "--limit 100000 --watermark 20", FULL + opened(20) + line("begin", id=1, head=(OK % 86400).hex()) + line("piece", id=1, bytes="78"), line("finish", id=1), 8),
)


def calls_of(program, work, lines, options):
    """How often each caller calls the search, and the answer to the last line, which stands before the report."""
    out = f"{work}/calls"
    command = ["valgrind", "--tool=callgrind", f"--callgrind-out-file={out}", program, *options.split()]
    said = subprocess.run(command, input=lines, stdout=subprocess.PIPE, stderr=subprocess.DEVNULL, text=True, check=True).stdout
    names, found, caller, called = {}, collections.Counter(), "", ""

    def name(text):
        number, _, rest = text.partition(" ")
        return names.setdefault(number, rest) if rest else names.get(number, number)

    with open(out, encoding="utf-8", errors="replace") as it:
        for row in it:
            row = row.rstrip("\n")
            if row.startswith("fn="):
                caller = name(row[3:])
            elif row.startswith("cfn="):
                called = name(row[4:])
            elif row.startswith("calls=") and "find_slot" in called:
                found[caller] += int(row[6:].split()[0])
    return found, said.splitlines()[-2]


def look_ups(program=None):
    """A look-up is a call of find_slot, the search in a table of the kit, removals and insertions too: of a trace with the event, less those without it.
    Without a program it builds one, in some two processor minutes. Below each figure stands who calls, where it is one that isn't inlined."""
    with folder() as work:
        if not program:
            program = os.path.join(work, "tier_replay")
            subprocess.run([sys.executable, os.path.join(TOP, "tools/dev/build_unproved.py"), "--apart", "find_slot", "program", "tier_replay", program], check=True)
        wrong = False
        for kind, options, before, event, most in LOOKS:
            less, _ = calls_of(program, work, before, options)
            more, answer = calls_of(program, work, before + event, options)
            taken = more - less
            wrong |= sum(taken.values()) > most
            print(f"{kind}: {sum(taken.values())} look-ups, {most} at most ({answer})")
            for caller, count in taken.most_common():
                print(f"    {count} by {re.sub(r'<.*', '', caller)}")
    return int(wrong)
