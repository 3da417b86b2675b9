"""A proxy in front of a scripted origin, for tests: `with Place() as place: place.get("/a")`. NIJPDRA_PROXY names the program."""

import contextlib
import http.client
import os
import socket
import subprocess
import tempfile
import threading
import time

PROXY = os.environ.get("NIJPDRA_PROXY", "")


def free_port():
    with socket.socket() as it:
        it.bind(("127.0.0.1", 0))
        return it.getsockname()[1]


def fresh(body=b"page", lines=""):
    return f"HTTP/1.1 200 OK\r\nCache-Control: max-age=600\r\n{lines}Content-Length: {len(body)}\r\n\r\n".encode() + body


class Origin(threading.Thread):
    """Answers each request by what `answers` gives of its head: bytes, or pieces of them; an answer keeps its connection unless it says otherwise. Meanwhile
    `sent.body` is the request's body."""

    def __init__(self, port=0):
        super().__init__(daemon=True)
        self.socket = socket.create_server(("127.0.0.1", port), backlog=512)
        self.port, self.heads, self.answers, self.connections, self.open = self.socket.getsockname()[1], [], lambda head: fresh(), 0, set()
        self.sent = threading.local()
        self.start()

    def run(self):
        with contextlib.suppress(OSError):
            while True:
                at, _ = self.socket.accept()
                self.connections += 1
                self.open.add(at)
                threading.Thread(target=self.serve, args=(at,), daemon=True).start()

    def serve(self, at):
        with at, contextlib.suppress(OSError):
            self.converse(at)
        self.open.discard(at)

    def converse(self, at):
        data = b""
        while True:
            while b"\r\n\r\n" not in data:
                more = at.recv(65536)
                if not more:
                    return
                data += more
            head, _, data = data.partition(b"\r\n\r\n")
            length = next((int(it.split(b":")[1]) for it in head.split(b"\r\n") if it.lower().startswith(b"content-length:")), 0)
            while len(data) < length:
                more = at.recv(65536)
                if not more:
                    return
                data += more
            self.sent.body, data = data[:length], data[length:]
            self.heads.append(head)
            answer = self.answers(head)
            for piece in [answer] if isinstance(answer, bytes) else answer:
                at.sendall(piece)
            if isinstance(answer, bytes) and b"Connection: close" in answer:
                return


class Place:
    """A proxy in front of an origin, by a configuration: lines at its top, of its limits, and behind everything."""

    def __init__(self, top="", limits="", end="", sites=None, listen="", threads=2):
        self.origin, self.port, self.admin = Origin(), free_port(), free_port()
        self.folder = tempfile.TemporaryDirectory()
        self.file = os.path.join(self.folder.name, "proxy.toml")
        self.parts = {"top": top, "limits": limits, "end": end, "sites": sites, "listen": listen, "threads": threads}
        self.write()
        self.run = subprocess.Popen([PROXY, self.file], stderr=subprocess.PIPE)
        self.said = []
        threading.Thread(target=lambda: self.said.extend(self.run.stderr), daemon=True).start()
        self.wait()

    def write(self, **parts):
        """Writes the configuration, with what is given in the place of its parts."""
        self.parts.update(parts)
        it = self.parts
        sites = it["sites"] or f'[[site]]\n[[site.origin]]\naddress = "127.0.0.1:{self.origin.port}"\n'
        with open(self.file, "w", encoding="utf-8") as file:
            file.write(f'admin = "127.0.0.1:{self.admin}"\nthreads = {it["threads"]}\nmemory = "64MiB"\nmax_body = "1MiB"\n{it["top"]}\n')
            file.write(f'[[listen]]\naddress = "127.0.0.1:{self.port}"\n{it["listen"]}\n{sites}[limits]\n{it["limits"]}\n{it["end"]}\n')

    def wait(self):
        for _ in range(400):
            with contextlib.suppress(OSError):
                socket.create_connection(("127.0.0.1", self.admin), 1).close()
                if any(b" threads" in it for it in self.said):
                    return
            time.sleep(0.025)
        raise AssertionError(f"the proxy doesn't listen: {self.said}")

    def __enter__(self):
        return self

    def __exit__(self, *_):
        self.run.terminate()
        try:
            self.run.wait(20)
        except subprocess.TimeoutExpired:
            self.run.kill()
            raise
        finally:
            self.folder.cleanup()
            self.origin.socket.close()

    def connect(self, timeout=15):
        return socket.create_connection(("127.0.0.1", self.port), timeout)

    def raw(self, data, timeout=15):
        """All that comes back on one connection, till its end."""
        with self.connect(timeout) as at:
            at.sendall(data)
            got = b""
            with contextlib.suppress(ConnectionResetError):
                while more := at.recv(1 << 16):
                    got += more
            return got

    def get(self, path="/a", method="GET", body=None, headers=None):
        """Status, fields and body of an answer."""
        at = http.client.HTTPConnection("127.0.0.1", self.port, timeout=30)
        try:
            at.request(method, path, body, {"Host": "a.example", **(headers or {})})
            got = at.getresponse()
            return got.status, dict(got.getheaders()), got.read()
        finally:
            at.close()

    def ask_admin(self, path="/metrics", method="GET", body=None):
        at = http.client.HTTPConnection("127.0.0.1", self.admin, timeout=10)
        try:
            at.request(method, path, body)
            got = at.getresponse()
            return got.status, got.read().decode()
        finally:
            at.close()

    def count(self, name):
        _, text = self.ask_admin()
        return next(float(it.split()[1]) for it in text.splitlines() if it.split()[0] == f"nijpdra_{name}")

    def memory(self):
        """Bytes of the process in memory."""
        with open(f"/proc/{self.run.pid}/statm", encoding="ascii") as file:
            return int(file.read().split()[1]) * 4096
