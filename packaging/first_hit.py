#!/usr/bin/env python3
"""Starts a proxy with a configuration as it is installed, but for its ports, in front of a page: the first answer is a miss, the second a hit, and it ends at
SIGTERM: `first_hit.py PROGRAM CONFIGURATION`."""

import os
import subprocess
import sys
import tempfile

TOP = os.path.dirname(os.path.dirname(os.path.abspath(__file__)))
sys.path.insert(0, os.path.join(TOP, "proxy", "tests"))

import places  # noqa: E402


class Installed(places.Place):
    """A proxy by that file, with other ports in the place of its own."""

    def write(self, **parts):
        with open(sys.argv[2], encoding="utf-8") as file:
            text = file.read()
        for was, port in (("127.0.0.1:8000", self.port), ("127.0.0.1:8080", self.origin.port), ("127.0.0.1:9180", self.admin)):
            if was not in text:
                raise AssertionError(f"{sys.argv[2]} has no {was}")
            text = text.replace(was, f"127.0.0.1:{port}").replace("# admin", "admin")
        with open(self.file, "w", encoding="utf-8") as file:
            file.write(text)


def main():
    places.PROXY = sys.argv[1]
    with tempfile.TemporaryDirectory(), Installed() as place:
        told = [place.get()[1]["Cache-Status"] for _ in range(2)]
    if not ("uri-miss" in told[0] and "; hit" in told[1]) or place.run.returncode:
        print(f"first_hit: {told}, and status {place.run.returncode} at the end", file=sys.stderr)
        return 1
    version = subprocess.run([sys.argv[1], "--version"], stdout=subprocess.PIPE, text=True, check=True).stdout.split()
    with open(os.path.join(TOP, "VERSION"), encoding="ascii") as file:
        if version != ["nijpdra-proxy", file.read().strip()]:
            print(f"first_hit: it says {version}", file=sys.stderr)
            return 1
    print("nijpdra-proxy of its package: a miss, a hit, and a stop")
    return 0


if __name__ == "__main__":
    sys.exit(main())
