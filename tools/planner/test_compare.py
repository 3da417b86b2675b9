#!/usr/bin/env python3
"""Tests cache-plan --compare: the plan beside the counts that a scripted admin address has, and what is refused of such an address."""
import http.server
import os
import subprocess
import sys
import tempfile
import threading

HERE = os.path.dirname(os.path.realpath(__file__))
sys.path.insert(0, HERE)
sys.path.insert(0, os.path.join(HERE, "..", "reference"))

from planner import running  # noqa: E402

CURVE = f"{sys.executable} {os.path.join(HERE, '..', 'reference', 'plain_planner.py')}"
FAILED = []


class Admin(http.server.BaseHTTPRequestHandler):
    """Answers with the text of the server."""

    def do_GET(self):
        self.send_response(200)
        self.end_headers()
        self.wfile.write(self.server.text.encode())

    def log_message(self, *_):
        pass


def text_of(**counts):
    given = {**dict.fromkeys(running.NEEDED, 0), **counts}
    return "".join(f"# HELP nijpdra_{name} Some.\n# TYPE nijpdra_{name} counter\nnijpdra_{name} {count}\n" for name, count in given.items())


def compared(server, text, *words):
    """The status of cache-plan over a log of a hundred requests for ten keys, and what it says of the proxy."""
    server.text = text
    url = f"http://127.0.0.1:{server.server_address[1]}/metrics"
    with tempfile.TemporaryDirectory() as room:
        log = os.path.join(room, "log")
        with open(log, "w", encoding="ascii") as out:
            out.writelines(f"{1764460800 + it * 60} /{it % 10} 1000\n" for it in range(100))
        ran = subprocess.run([sys.executable, "-B", os.path.join(HERE, "plan.py"), log, "--sizes", "1K,100K", "--curve-program", CURVE, "--compare", url, *words],
                             stdout=subprocess.PIPE, stderr=subprocess.STDOUT, text=True, check=False)
    return ran.returncode, ran.stdout.replace(url, "URL")


def check(name, told, status, *texts):
    if told[0] != status or not all(it in told[1] for it in texts):
        FAILED.append(f"{name}: {told}")


def main():
    with http.server.ThreadingHTTPServer(("127.0.0.1", 0), Admin) as server:
        threading.Thread(target=server.serve_forever, daemon=True).start()
        room = {"requests_total": 1000, "memory_bytes": 100_000, "relayed_total": 80}
        check("as planned", compared(server, text_of(hits_total=700, collapsed_total=100, revalidated_total=100, **room)), 0,
              "URL: 90.0 % of 1,000 requests since its start were hits, of 100K of memory; an LRU has 90.0 % at 100K of the log's: as planned.")
        check("fewer", compared(server, text_of(hits_total=300, evicted_total=7, **room)), 0, "fewer than planned.\nOf its requests 8.0 % were", "; 7 entries went for room.")
        check("more", compared(server, text_of(hits_total=990, **room)), 0, "more than planned.\n")
        # between two sizes of the plan anything between their shares is as planned
        check("between", compared(server, text_of(hits_total=500, **{**room, "memory_bytes": 50_000})), 0, "an LRU has 0.0 % at 1K and 90.0 % at 100K of the log's: as planned.")
        # requests for a key come each ten minutes: none is fresh for one
        check("fresh", compared(server, text_of(hits_total=5, revalidated_total=800, **room), "--ttl", "60"), 0, "an LRU has 0.0 % at 100K of the log's: as planned.")
        check("another's counts", compared(server, "up 1\n"), 1, "nijpdra_requests_total isn't there")
        check("no request yet", compared(server, text_of(memory_bytes=1)), 1, "had no request yet")
    check("nobody", compared(server, ""), 1, "--compare: URL: ")
    for it in FAILED:
        print(it)
    print(f"--compare: {8 - len(FAILED)} of 8 as they must be")
    return int(bool(FAILED))


if __name__ == "__main__":
    sys.exit(main())
