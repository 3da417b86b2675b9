#!/usr/bin/env python3
"""Compares the quick readers of HTTP's rules with those that read line by line, as rules-replay has both: each number and each byte that they tell of the
requests and responses of random exchanges, plain ones and others, some of them with a byte too many, too few or changed.

usage: tools/reference/test_quick.py [PROGRAM..] [--exchanges N] [--seed S]

Without programs those that the last run of the gate left, one by each compiler. 150,000 exchanges take some minutes. What is told differently is
shown, and it is a failure too where the quick readers take less than a third, since then little was compared."""

import argparse
import json
import os
import random
import subprocess
import sys
import time

sys.dont_write_bytecode = True

from rules_random import MOMENT, OPTIONS, Heads  # noqa: E402
from test_rules import SHOWN, built  # noqa: E402

# Lines of requests as browsers send them, and of responses; and lines of which some make a quick reader hand over.
ASKED = ["User-Agent: Mozilla/5.0 (X11; Linux x86_64)", "Accept: text/html,*/*;q=0.8", "Accept-Language: en-US,en;q=0.5", "Accept-Encoding: gzip, deflate",
         "Connection: keep-alive", "Sec-Fetch-Dest: document", "Upgrade-Insecure-Requests: 1", "Cookie: a=b; c=d", 'If-None-Match: "a"',
         "If-Modified-Since: Sat, 28 Nov 2026 18:00:00 GMT", "Range: bytes=0-1", "Authorization: Basic x", "Upgrade: h2c", "Proxy-Connection: keep-alive"]
ASKED_ODDLY = ["connection: close", "CONNECTION: Keep-Alive", "Cache-Control: max-age=0", "x:y", "X-Empty:", "X-A:  y", "X-A: y ", "Pragma: no-cache", "HTTP2-Settings: x", "TE: trailers",
               "Host: a.example", "Content-Length: 0", "close: x", "Expect: 100-continue"]
ANSWERED = ["Server: x", "Content-Type: text/html", 'ETag: "a"', "Last-Modified: Sat, 21 Nov 2026 09:12:33 GMT", "Cache-Control: max-age=60", "Vary: Accept-Encoding",
            "Age: 3", "Content-Language: en", "Connection: keep-alive", "Keep-Alive: timeout=5", "Set-Cookie: a=b", "Cache-Status: up; hit"]
ANSWERED_ODDLY = ["Content-Length: 05", "Content-Length: 9223372036854775808", "content-length: 10240", "Transfer-Encoding: Chunked", "Transfer-Encoding: gzip, chunked", "transfer-encoding: chunked",
                  "X-A:", "X-A:  y", "x:y", "connection: close", "Connection: x", "Via: 1.1 up", "Upgrade: h2c", "Proxy-Authenticate: Basic", "HTTP2-Settings: x", "TE: x",
                  "close: x", "date: x", "Date: Sat, 28 Nov 2026 18:00:00 GMT"]
FRAMED = ["Content-Length: 10240", "Content-Length: 0", "Transfer-Encoding: chunked"]
AT_LEAST = 3


class Exchanges(Heads):
    """Heads of random exchanges; the same for the same seed."""

    def mixed(self, usual, odd):
        """Usual lines, and at times odd ones among them."""
        lines = self.random.sample(usual, self.random.randrange(9)) + self.random.sample(odd, self.random.choice([0, 0, 0, 1, 1, 2]))
        self.random.shuffle(lines)
        return lines

    def plain_request(self):
        method, target = self.random.choice(["GET"] * 8 + ["HEAD"]), self.random.choice(["/x", "/x?y", "/a/b/c.html"])
        return "\r\n".join([f"{method} {target} HTTP/1.1", "Host: a.example", *self.mixed(ASKED, ASKED_ODDLY)]) + "\r\n\r\n"

    def plain_response(self):
        start = f"HTTP/1.{self.random.choice('1111110')} {self.random.choice([200] * 8 + [404, 204, 304, 301, 206])}{self.random.choice([' OK', ' OK', ' ', ''])}"
        usual = ["Date: Sat, 28 Nov 2026 18:00:00 GMT"] * (self.random.random() < 0.7) + self.random.sample(FRAMED, self.random.random() < 0.8)
        return "\r\n".join([start, *usual, *self.mixed(ANSWERED, ANSWERED_ODDLY)]) + "\r\n\r\n"

    def bent(self, text):
        """The same, or with a byte or two changed, dropped or added, or with another end of a line."""
        for _ in range(self.random.choice([1, 1, 2]) if self.random.random() < 0.1 else 0):
            at, kind = self.random.randrange(len(text) + 1), self.random.random()
            more = "" if 0.4 <= kind < 0.7 else self.random.choice('\r\n :\0\x7f\xff\t,"aA')
            text = text[:at] + more + text[at + (kind < 0.7):]
        if self.random.random() < 0.06:
            rows = text.split("\r\n")
            at = self.random.choice([0, self.random.randrange(len(rows))])
            text = "\r\n".join(rows[: at + 1]) + self.random.choice(["\r\r\n", "\n", "\r", "\r\n ", "\r\n\t"]) + "\r\n".join(rows[at + 1 :])
        return text + ("GET /next HTTP/1.1\r\n" if self.random.random() < 0.05 else "")

    def calls(self):
        """The two calls of an exchange."""
        options = self.random.choice(OPTIONS) if self.random.random() < 0.3 else {}
        if self.random.random() < 0.1:
            options = {**options, "scheme": "https"}
        request = self.plain_request() if self.random.random() < 0.8 else self.request()
        response = self.plain_response() if self.random.random() < 0.7 else self.response()
        yield {"call": "twice_request", "request": self.bent(request), "options": options}
        yield {"call": "twice_response", "response": self.bent(response), "came": MOMENT, "options": options}


def compared(name, calls):
    """How many heads the quick readers took, and of how many they told something else."""
    ran = subprocess.run([name], input="".join(json.dumps(it) + "\n" for it in calls).encode(), stdout=subprocess.PIPE, check=False)
    answers = [json.loads(line) for line in ran.stdout.splitlines()]
    if ran.returncode or len(answers) != len(calls):
        sys.exit(f"{name} ended with {ran.returncode}, and {len(answers)} answers to {len(calls)} calls")
    taken = [(call, told[1:]) for call, told in zip(calls, answers) if told != ["left"]]
    differ = [(call, told) for call, told in taken if told[: len(told) // 2] != told[len(told) // 2 :]]
    for call, told in differ[:SHOWN]:
        print(f"{json.dumps(call)}\n    quick: {told[: len(told) // 2]}\n    plain: {told[len(told) // 2 :]}")
    return len(taken), len(differ)


def main():
    parser = argparse.ArgumentParser()
    parser.add_argument("programs", nargs="*")
    parser.add_argument("--exchanges", type=int, default=2000)
    parser.add_argument("--seed", type=int, default=1)
    arguments = parser.parse_args()
    are_well, exchanges = True, Exchanges(random.Random(arguments.seed))
    asked = [call for _ in range(arguments.exchanges) for call in exchanges.calls()]
    for program in arguments.programs or built():
        began = time.time()
        by_kind = {kind: compared(program, [it for it in asked if it["call"] == kind]) for kind in ("twice_request", "twice_response")}
        are_well &= all(AT_LEAST * taken >= arguments.exchanges and not differ for taken, differ in by_kind.values())
        (requests, wrong), (responses, also) = by_kind.values()
        print(f"quick readers, {os.path.basename(program)}: of {arguments.exchanges} exchanges they took {requests} requests and {responses} responses, "
              f"{wrong + also} differences, in {time.time() - began:.0f} s")
    return 0 if are_well else 1


if __name__ == "__main__":
    sys.exit(main())
