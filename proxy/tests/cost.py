#!/usr/bin/env python3
"""Counts the instructions of a hit of 10 KB on a kept connection, in user space, by the shortest request and a browser's: `proxy/tests/cost.py [nginx]`, of
nijpdra-proxy, which NIJPDRA_PROXY names, or of nginx with proxy_cache. It wants valgrind: the same program gives the same counts."""

import os
import re
import signal
import socket
import subprocess
import sys
import tempfile
import time

sys.path.insert(0, os.path.dirname(os.path.abspath(__file__)))

from places import PROXY, Origin, fresh, free_port  # noqa: E402

BODY, FEW, MANY = b"x" * 10240, 100, 1100
SHORTEST = "GET /a HTTP/1.1\r\nHost: h.example\r\n\r\n"
BROWSER = SHORTEST[:-2] + (
    "User-Agent: Mozilla/5.0 (X11; Linux x86_64; rv:109.0) Gecko/20100101 Firefox/115.0\r\n"
    "Accept: text/html,application/xhtml+xml,application/xml;q=0.9,image/avif,image/webp,*/*;q=0.8\r\nAccept-Language: en-US,en;q=0.5\r\n"
    "Accept-Encoding: gzip, deflate, br\r\nReferer: https://h.example/index\r\nSec-Fetch-Dest: document\r\nSec-Fetch-Mode: navigate\r\n"
    "Sec-Fetch-Site: same-origin\r\nUpgrade-Insecure-Requests: 1\r\n\r\n"
)
NGINX = """daemon off; master_process off; pid {room}/pid; error_log {room}/errors;
events {{ worker_connections 512; }}
http {{ access_log off; keepalive_requests 100000; open_file_cache max=1000; proxy_cache_path {room}/cache levels=1 keys_zone=c:10m;
  server {{ listen 127.0.0.1:{port}; location / {{ proxy_pass http://127.0.0.1:{origin}; proxy_cache c; proxy_http_version 1.1; }} }} }}
"""
OWN = """memory = "256MiB"
threads = 1
admin = "127.0.0.1:{admin}"
[[listen]]
address = "127.0.0.1:{port}"
[[site]]
[[site.origin]]
address = "127.0.0.1:{origin}"
"""


def drive(port, request, count):
    """So many requests on one connection, one after the other."""
    for _ in range(600):
        try:
            at = socket.create_connection(("127.0.0.1", port), 60)
            break
        except OSError:
            time.sleep(0.1)
    with at:
        for _ in range(count):
            at.sendall(request.encode())
            got = b""
            while b"\r\n\r\n" not in got or len(got) - got.index(b"\r\n\r\n") - 4 < len(BODY):
                got += at.recv(65536)


def instructions(of_nginx, request, count):
    """All that a run takes in which so many requests come."""
    origin, port = Origin(), free_port()
    origin.answers = lambda head: fresh(BODY, "Content-Type: text/html\r\n")
    with tempfile.TemporaryDirectory() as room:
        file = os.path.join(room, "configuration")
        with open(file, "w", encoding="utf-8") as it:
            it.write((NGINX if of_nginx else OWN).format(room=room, port=port, origin=origin.port, admin=free_port()))
        words = ["nginx", "-c", file] if of_nginx else [PROXY, file]
        with subprocess.Popen(["valgrind", "--tool=callgrind", f"--callgrind-out-file={room}/out", *words], stderr=subprocess.PIPE, text=True) as run:
            drive(port, request, count)
            run.send_signal(signal.SIGQUIT if of_nginx else signal.SIGTERM)
            told = run.stderr.read()
    return int(re.search(r"Collected : (\d+)", told)[1])


def main(words):
    for name, request in (("shortest", SHORTEST), ("browser", BROWSER)):
        few, many = (instructions("nginx" in words, request, it) for it in (FEW, MANY))
        print(f"{name}: {(many - few) // (MANY - FEW)} instructions a hit", flush=True)


if __name__ == "__main__":
    main(sys.argv[1:])
