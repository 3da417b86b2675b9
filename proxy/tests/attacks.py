#!/usr/bin/env python3
"""Each attack of examples/test_proxy.py, by name, against nijpdra-proxy, which NIJPDRA_PROXY names: `proxy/tests/attacks.py [NAME ..]`."""

import os
import sys

HERE = os.path.dirname(os.path.abspath(__file__))
EXAMPLES = os.path.join(os.path.dirname(os.path.dirname(HERE)), "examples")
SHIM = os.path.join(HERE, "shim.py")
sys.path.insert(0, EXAMPLES)

import test_proxy  # noqa: E402


def main(names):
    test_proxy.PROXY = SHIM
    # What is bound by seconds may fail on a loaded host: what is wrong fails each time.
    of = test_proxy.failure
    test_proxy.failure = lambda it: of(it) and of(it) and of(it)
    return test_proxy.main(names)


if __name__ == "__main__":
    sys.exit(main(sys.argv[1:]))
