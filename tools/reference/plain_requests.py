"""Requests to try the planner on: those of a day, and lines of columns with the options that read them."""
import random
import sys


def make(seed, count):
    """Requests of a day, drawn by Zipf's law: what is asked for seldom is longer."""
    draw, keys, moment = random.Random(seed), max(10, count // 7), 1795824000.0
    shares = [1 / (at + 1) ** 0.9 for at in range(keys)]
    sizes = [int(draw.lognormvariate(8, 1.2) * (1 + 9 * at / keys)) for at in range(keys)]
    for key in draw.choices(range(keys), shares, k=count):
        moment += draw.expovariate(count / 86400)
        print(f"{int(moment)} /{key} {sizes[key]}")


def make_columns(seed):
    """Lines of columns that --options-for-columns of the same seed reads: operations, lifetimes, sums, lengths that aren't told, and lines
    that lack something."""
    draw = random.Random(seed)
    mark = b"," if seed % 2 else b" "
    keys, now = draw.randint(1, 9), 0
    sizes = [draw.randint(0, 9) for _ in range(keys)]
    for _ in range(draw.randint(5, 140)):
        now += draw.randint(0, 3)
        key, what = draw.randrange(keys), draw.choices(["get", "gets", "set", "delete", "touch"], [8, 2, 2, 1, 1])[0]
        size = draw.choice(["?", "0", "x", "18446744073709551616"]) if draw.random() < 0.1 else str(sizes[key])
        life = draw.choice(["0", "0", "3", "9", "-", str(2**62)] if seed % 2 else ["0", "2", "-"])
        words = [str(now), "k", str(key), "1", size, what, life, draw.choice(["1", "1", "1", "2", "0", "x"])]
        if draw.random() < 0.05:
            words = words[:draw.randint(0, 7)]
        sys.stdout.buffer.write(mark.join(it.encode() for it in words) + draw.choice([b"\n", b"\r\n"]))


def options_for_columns(seed):
    draw = random.Random(-1 - seed)
    limits = ",".join(str(it) for it in sorted(draw.randint(1, 60) for _ in range(12)))
    its = "time=1,key=2+3," + draw.choice(["bytes=5", "bytes=4+5"])
    its += draw.choice(["", ",op=6", ",op=6,ttl=7", ",ttl=7"]) + draw.choice(["", ",times=8"])
    words = ["--sizes", limits, "--columns", its, *(["--delimiter", ","] if seed % 2 else [])]
    words += ["--get-ops", "get,gets", "--delete-ops", "delete"] if "op=" in its else []
    words += draw.choice([[], ["--ttl", str(draw.choice([0, 2, 20]))]])
    words += draw.choice([[], ["--max-entries", "3"], ["--entry-overhead", "2"], ["--skip-lines", "2"]])
    return " ".join(words)
