#!/usr/bin/env python3
"""What examples/mover.c does: it is compiled as its first lines say, over the library that CACHE_TIER_LIBRARY names, and each attack of test_proxy.py that
wants no options is tried on it; then what a mover owes. `examples/test_mover.py [NAME ..]`"""

import os
import socket
import subprocess
import sys
import tempfile
import threading
import time

HERE = os.path.dirname(os.path.abspath(__file__))
sys.path.insert(0, HERE)

import test_clock  # noqa: E402, F401 (its test is tried too)
import test_proxy  # noqa: E402
from test_proxy import FRESH, Place, check, test  # noqa: E402


class WantsOptions(Exception):
    pass


class Plain(Place):
    def __init__(self, *options):
        if options:
            raise WantsOptions
        super().__init__()


@test
def one_fetch_for_all():
    with Plain() as place:
        place.origin.answers = lambda head: (time.sleep(0.5), FRESH)[1]
        got, threads = [], []
        for _ in range(20):
            threads.append(threading.Thread(target=lambda: got.append(place.ask())))
            threads[-1].start()
        for it in threads:
            it.join()
        check("all have the page", len(got) == 20 and all(it.endswith(b"page") for it in got), got)
        check("one fetch", len(place.origin.heads) == 1, place.origin.heads)


@test
def what_is_fetched_goes_on_without_its_client():
    with Plain() as place:
        goes_on = threading.Event()

        def slowly(_):
            yield FRESH[:-2]
            goes_on.wait(10)
            yield FRESH[-2:]

        place.origin.answers = slowly
        with socket.create_connection(("127.0.0.1", place.port), 10) as at:
            at.sendall(b"GET /a HTTP/1.1\r\nHost: a.example\r\n\r\n")
            at.recv(1000)
        time.sleep(0.3)
        goes_on.set()
        time.sleep(0.3)
        check("it is stored", place.ask().endswith(b"page") and len(place.origin.heads) == 1, place.origin.heads)


@test
def a_body_of_some_length():
    with Plain() as place:
        body = os.urandom(3 << 20)
        place.origin.answers = lambda head: b"HTTP/1.1 200 OK\r\nCache-Control: max-age=60\r\nContent-Length: %d\r\n\r\n" % len(body) + body
        check("is whole, twice", place.ask().endswith(body) and place.ask().endswith(body) and len(place.origin.heads) == 1)


def main(names):
    with tempfile.TemporaryDirectory() as room:
        program = os.path.join(room, "mover")
        library = os.path.join(os.path.dirname(os.path.realpath(os.environ["CACHE_TIER_LIBRARY"])), "libcache_tier.a")
        words = ["gcc", "-D_GNU_SOURCE", "-std=c11", "-O2", "-Wall", "-Wextra", "-Werror", os.path.join(HERE, "mover.c"), "-I", os.path.join(os.path.dirname(HERE), "embed")]
        subprocess.run([*words, library, "-lpthread", "-o", program], check=True)
        test_proxy.PROXY, test_proxy.Place = program, Plain
        of = test_proxy.failure

        def failure(it):
            try:
                return of(it)
            except WantsOptions:
                return None

        test_proxy.failure = failure
        return test_proxy.main(names)


if __name__ == "__main__":
    sys.exit(main(sys.argv[1:]))
