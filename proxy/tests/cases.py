"""Tests by their names, of a proxy that NIJPDRA_PROXY names."""

import sys
import threading
import time

from places import PROXY

TESTS = {}
PAGE = b"GET /a HTTP/1.1\r\nHost: a.example\r\n\r\n"


def test(of):
    TESTS[of.__name__] = of
    return of


def check(what, holds, got=None):
    if not holds:
        raise AssertionError(f"{what}: {got!r}"[:2000])


def at_once(count, run):
    """What so many threads give."""
    got = []
    threads = [threading.Thread(target=lambda: got.append(run())) for _ in range(count)]
    for it in threads:
        it.start()
    for it in threads:
        it.join()
    return got


def failure(of, tries=3):
    """Why a test fails; none where it holds. What is bound by seconds may fail on a loaded host: what is wrong fails each time."""
    for left in reversed(range(tries)):
        try:
            return of()
        except (AssertionError, OSError) as error:
            if not left:
                return error
    return None


def main(names):
    if not PROXY:
        sys.exit("NIJPDRA_PROXY names no program")
    failures = 0
    for name, of in TESTS.items():
        if names and name not in names:
            continue
        begun, error = time.time(), failure(of)
        failures += bool(error)
        print(f"{name}: FAILS\n    {error}" if error else f"{name}: holds ({time.time() - begun:.1f} s)", flush=True)
    return int(failures != 0)
