#!/usr/bin/env python3
"""What a mover owes where the host's clock is set back: moments never less than the last. It is tried on examples/proxy.py, or on what PROXY names, as
test_proxy.py is; it wants gcc."""

import os
import subprocess
import sys
import tempfile
import unittest.mock

HERE = os.path.dirname(os.path.abspath(__file__))
sys.path.insert(0, HERE)

import test_proxy  # noqa: E402
from test_proxy import check, test  # noqa: E402

# The host's clock, a thousand seconds back from when a file is there.
BACK = """#include <stdlib.h>
#include <sys/syscall.h>
#include <time.h>
#include <unistd.h>
int clock_gettime(clockid_t clock, struct timespec *t) {
    int result = (int)syscall(SYS_clock_gettime, clock, t);
    if (clock == CLOCK_REALTIME && !access(getenv("CLOCK_IS_BACK"), F_OK)) t->tv_sec -= 1000;
    return result;
}
"""


@test
def a_clock_that_is_set_back():
    with tempfile.TemporaryDirectory() as room:
        clock, is_back = os.path.join(room, "clock.so"), os.path.join(room, "is_back")
        subprocess.run(["gcc", "-D_GNU_SOURCE", "-shared", "-fPIC", "-x", "c", "-", "-o", clock], input=BACK.encode(), check=True)
        with unittest.mock.patch.dict(os.environ, {"LD_PRELOAD": clock, "CLOCK_IS_BACK": is_back}):
            place = test_proxy.Place()
        with place:
            place.ask("/a")
            with open(is_back, "w", encoding="utf-8"):
                place.ask("/b")
            got = place.ask("/a")
            lifetime = int((got.partition(b"; hit; ttl=")[2].split() or [b"0"])[0])
            check("what is fresh is so no longer than before", 0 < lifetime <= 60, got)
            os.remove(is_back)
            check("what came meanwhile is fresh", b"; hit" in place.ask("/b"), place.origin.heads)


if __name__ == "__main__":
    sys.exit(test_proxy.main(["a_clock_that_is_set_back"]))
