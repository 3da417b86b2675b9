#!/usr/bin/env python3
"""Compares the calls over lists of variants, as the built library answers them, with the plain model (rules_model.py), over random sets of names.

usage: tools/reference/test_variants.py [--seed S] [--rounds N]

The package is found as any other (PYTHONPATH=python/src), its library by CACHE_TIER_LIBRARY."""

import argparse
import random
import sys

sys.dont_write_bytecode = True

import rules_model as model  # noqa: E402
from cache_tier.rules import Exchange, Rules  # noqa: E402

NAMES = ["accept", "Accept-Language", "cookie", "x-a", "X-B", "host", "a", "ab"]
BODIES = [b"", b"\n", b"11111111\n\n", b"11111111\na\n\n22222222\n\n", b"11111111\nA\n", b"1\n\n2\n\n3\n\n4\n\n5\n\n", b"11111111\na\nab\n\n\n22222222\n\n", b"xyz"]


def head(random):
    lines = [f"{name}: {random.choice(['1', 'DE, en', ''])}" for name in random.sample(NAMES, 3) if name != "host"]
    return "\r\n".join(["GET /a?b HTTP/1.1", "Host: a.example", *lines, "", ""]).encode()


def answer(random):
    vary = [", ".join(random.choice(NAMES) for _ in range(random.randrange(4))) for _ in range(random.randrange(3))]
    many = [", ".join(f"n{i}" for i in range(random.choice([15, 16, 17])))] if random.random() < 0.1 else []
    says = random.choice(["max-age=60"] * 5 + ["private", "no-store", "max-age=5"])
    return "\r\n".join(["HTTP/1.1 200 OK", "Date: Thu, 01 Jan 1970 00:16:40 GMT", f"Cache-Control: {says}", *(f"Vary: {it}" for it in vary + many), "", ""]).encode()


class Rounds:
    """Random rounds, each over the list and what is kept of the one before."""

    def __init__(self, random):
        self.random, self.body, self.kept, self.modelled = random, b"", None, None

    def one(self):
        """A round: what was given where the library and the model differ, else nothing."""
        rules, plain = Rules(), model.Options()
        if self.random.random() < 0.2:
            self.body = self.random.choice(BODIES)
        data, came, body, now = head(self.random), answer(self.random), self.body, self.random.choice([1000, 1005, 1060])
        q, mq = rules.parse_request(data), model.read_request(data, plain)
        r, mr = rules.parse_response(came, now), model.read_response(came, b"GET", now * model.SECOND, plain)
        token = b"%016x" % self.random.randrange(2**64)
        new, wanted = rules.update_vary_index(r, now, body, token), model.listing(mr.lines, body, token)
        told = rules.decide_store(Exchange(q, r, now, now, vary_index=body), self.kept)
        judged = model.judge(mq, b"GET", mr, now * model.SECOND, now * model.SECOND, plain, self.modelled)
        right = (new.body == wanted if new.store else new.place == wanted) and rules.secondary_keys(q, body) == model.second_keys(mq, body, plain)
        right = right and told.store == isinstance(judged, model.Kept)
        if told.store and right:
            right = (told.needs_vary_index, told.purge) == (model.varies(mr.lines, body), model.moves(body, self.modelled, mr.lines, now * model.SECOND))
            self.kept, self.modelled = told, judged
        elif right:
            right = (told.reason, told.purge, told.predicts_uncacheable) == judged
        self.body = new.body if new.store else body
        return () if right else (data, came, body, now)


def main():
    parser = argparse.ArgumentParser()
    parser.add_argument("--seed", type=int, default=1)
    parser.add_argument("--rounds", type=int, default=2000)
    arguments = parser.parse_args()
    rounds, wrong = Rounds(random.Random(arguments.seed)), 0
    for _ in range(arguments.rounds):
        given = rounds.one()
        if given:
            wrong += 1
            print(f"the library and the model differ: {given}")
    print(f"variants: {arguments.rounds} rounds, {wrong} differences")
    return 1 if wrong else 0


if __name__ == "__main__":
    sys.exit(main())
