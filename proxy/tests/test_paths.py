#!/usr/bin/env python3
"""What nijpdra-proxy lets rules of paths, and peers, say: lifetimes, queries, cookies and encodings by the longest prefix, whose request it is, half-closed
connections, upgrades. NIJPDRA_PROXY names the program: `proxy/tests/test_paths.py [NAME ..]`."""

import os
import signal
import socket
import subprocess
import sys
import time

sys.path.insert(0, os.path.dirname(os.path.abspath(__file__)))

from cases import PAGE, check, main, test  # noqa: E402
from places import PROXY, Place, fresh  # noqa: E402

SITE = '[[site]]\n[[site.origin]]\naddress = "127.0.0.1:{port}"\n'
PATHS = """[[site.path]]
prefix = "/short/"
settings = ["force-lifetime: 200 1"]
[[site.path]]
prefix = "/short/long/"
settings = ["force-lifetime: 200 600"]
[[site.path]]
prefix = "/search"
settings = ["query-drop: utm_*", "query-sort: yes", "cookie-keep: session", "encodings: gzip"]
[[site.path]]
prefix = "/reload/"
options = { honor_request_directives = true }
"""


class Paths(Place):
    """A proxy whose one site has these paths."""

    def __init__(self, paths=PATHS, **more):
        self.paths = paths
        super().__init__(**more)

    def write(self, **parts):
        sites = SITE.format(port=self.origin.port) + self.paths
        super().write(**{"sites": sites, **parts})


def lines_of(head):
    """The fields that the origin was sent, by their names in small letters."""
    lines = [it.decode().partition(": ") for it in head.split(b"\r\n")[1:]]
    return {name.lower(): value for name, _, value in lines}


# ==== paths


@test
def the_longest_prefix_says_how_long():
    with Paths() as place:
        for path in ("/short/a", "/short/long/a", "/a"):
            place.get(path)
        check("each is fetched", len(place.origin.heads) == 3)
        time.sleep(2.2)
        for path in ("/short/long/a", "/a", "/short/a"):
            place.get(path)
        check("one second is over for one of them", [it.split()[1] for it in place.origin.heads[3:]] == [b"/short/a"], place.origin.heads[3:])


@test
def a_prefix_is_of_the_path_alone():
    with Paths() as place:
        for path in ("/other?/short/", "/short", "/SHORT/a"):
            place.get(path), time.sleep(0.1)
        time.sleep(2)
        for path in ("/other?/short/", "/short", "/SHORT/a"):
            place.get(path)
        check("these are hits", len(place.origin.heads) == 3, place.origin.heads)


@test
def what_a_path_never_stores():
    with Paths('[[site.path]]\nprefix = "/account/"\nsettings = ["never-store: 200", "never-store: 301", "targeted:"]\n') as place:
        place.origin.answers = lambda head: fresh(lines="CDN-Cache-Control: max-age=60\r\n")
        for path in ("/account/a", "/account/a", "/a", "/a"):
            place.get(path)
        check("is fetched each time", [it.split()[1] for it in place.origin.heads] == [b"/account/a", b"/account/a", b"/a"], place.origin.heads)


@test
def a_path_that_an_origin_may_read_otherwise():
    paths = '[[site.path]]\nprefix = "/static/"\nsettings = ["force-lifetime: 200 600"]\n[[site.path]]\nprefix = "/admin/"\nsettings = ["never-store: 200"]\n'
    unclear = ("/static/..%2fadmin/i", "/static/..%2Fadmin/i", "/static/%2e%2e/admin/i", "/static/%2E%2e/admin/i", "/static/../admin/i", "//admin/i", "/static//i",
               "/static/./i", "/static/..%5cadmin/i", "/static/..\\admin/i", "/static/..;/admin/i")
    for rules in ("", "[rules.options]\nnormalize_percent = true\n"):
        with Paths(paths, end=rules) as place:
            place.origin.answers = lambda head: fresh(b"admin's" if b"Cookie" in head else b"page")
            for path in unclear:
                got = [place.get(path, headers=it) for it in ({"Cookie": "admin=1"}, {})]
                check("refused", [it[0] for it in got] == [400, 400] and not place.origin.heads, (path, got))
            check("also where Host names it otherwise", place.raw(b"GET http://a.example/static/%2e%2e/admin/i HTTP/1.1\r\nHost: b\r\n\r\n").startswith(b"HTTP/1.1 400"))
            place.get("/%61dmin/i", headers={"Cookie": "admin=1"})
            check("a letter as its number is that letter", place.get("/%61dmin/i")[2] == b"page", place.origin.heads)
            check("a query is no path", place.get("/static/i?a=//..%2f")[0] == 200 and place.get("/static/..i/.b")[0] == 200)
    with Place() as place:
        check("without paths it goes on", place.get("/a/..%2fb//c")[0] == 200 and len(place.origin.heads) == 1)


@test
def queries_cookies_and_encodings():
    with Paths() as place:
        place.get("/search?b=2&utm_source=x&a=1", headers={"Cookie": "t=1; session=5", "Accept-Encoding": "br, gzip"})
        head = place.origin.heads[0]
        got = lines_of(head)
        check("as the path's rules have it", head.split()[1] == b"/search?a=1&b=2" and (got["cookie"], got["accept-encoding"]) == ("session=5", "gzip"), head)
        place.get("/search?a=1&b=2&utm_id=7")
        check("a hit", len(place.origin.heads) == 1, place.origin.heads)
        place.get("/other?b=2&utm_source=x&a=1", headers={"Cookie": "t=1", "Accept-Encoding": "br"})
        got = lines_of(place.origin.heads[1])
        check("elsewhere nothing goes", place.origin.heads[1].split()[1] == b"/other?b=2&utm_source=x&a=1" and (got["cookie"], got["accept-encoding"]) == ("t=1", "br"), got)


@test
def a_client_asks_for_no_fetch():
    with Paths() as place:
        for _ in range(2):
            place.get("/a", headers={"Cache-Control": "no-cache"}), place.get("/reload/a", headers={"Cache-Control": "no-cache"})
        asked = [it.split()[1] for it in place.origin.heads]
        check("but where a path lets it", asked == [b"/a", b"/reload/a", b"/reload/a"], asked)


@test
def a_purge_reaches_every_path():
    with Paths() as place:
        urls = ["http://a.example" + it for it in ("/a", "/short/long/a", "/search?b=2&utm_x=1&a=1")]
        for _ in range(2):
            for it in urls:
                place.get(it.partition("example")[2])
        check("three are stored", len(place.origin.heads) == 3)
        status, told = place.ask_admin("/purge", "POST", "\n".join(urls))
        check("each is purged", status == 200 and told.count(": purged\n") == 3, told)
        for it in urls:
            place.get(it.partition("example")[2])
        check("and fetched again", len(place.origin.heads) == 6)


@test
def a_change_reaches_another_path():
    with Paths() as place:
        place.get("/short/long/a"), place.get("/a")
        place.origin.answers = lambda head: b"HTTP/1.1 201 Created\r\nLocation: /short/long/a\r\nContent-Length: 0\r\n\r\n" if head.startswith(b"POST") else fresh(b"other")
        place.get("/a", "POST", b"x")
        check("its own is fetched again", place.get("/a")[2] == b"other")
        check("and what its Location names", place.get("/short/long/a")[2] == b"other")


@test
def memory_is_shared_by_paths():
    paths = PATHS + '[[site.path]]\nprefix = "/small/"\nmemory = "4MiB"\noptions = { stale_if_error = 1 }\n'
    with Paths(paths) as place:
        told = [it.split(b": ", 1)[1] for it in place.said if b"partitions" in it]
        # (60 MiB by five)
        check("each has its part", len(told) == 6 and any(it.startswith(b"*/small/: 4194304 bytes in 1 part") for it in told) and told[-1].startswith(b"12582912 bytes in 3 part"), told)
        place.origin.answers = lambda head: fresh(b"z" * 100_000)
        place.get("/a")
        for it in range(100):
            place.get(f"/small/{it}")
        check("what goes for room goes in its own", place.count("evicted_total") > 50 and (place.get("/a"), len(place.origin.heads))[1] == 101, place.count("evicted_total"))


@test
def a_reload_with_paths():
    with Paths() as place:
        place.get("/short/long/a")
        place.paths = PATHS.replace("/short/long/", "/other/")
        place.write(limits="idle_timeout = 30\n")
        place.run.send_signal(signal.SIGHUP)
        time.sleep(0.5)
        place.get("/other/a"), time.sleep(1.5), place.get("/other/a")
        check("rules that are there may be another path's", [it.split()[1] for it in place.origin.heads[1:]] == [b"/other/a"], place.origin.heads)
        check("and a purge finds what lies in the old place", "purged" in place.ask_admin("/purge", "POST", "http://a.example/short/long/a")[1])
        place.paths = PATHS.replace("200 600", "200 700")
        place.write()
        place.run.send_signal(signal.SIGHUP)
        time.sleep(0.5)
        check("new ones take a new start", any(b"of paths take a new start" in it for it in place.said), place.said)
        place.get("/reload/b")
        place.paths = PATHS.partition('[[site.path]]\nprefix = "/reload/"')[0]
        place.write()
        place.run.send_signal(signal.SIGHUP)
        time.sleep(0.5)
        check("and so does one that goes", sum(b"of paths take a new start" in it for it in place.said) == 2, place.said)
        count = len(place.origin.heads)
        place.get("/reload/b", headers={"Cache-Control": "no-cache"})
        check("its rules stand", len(place.origin.heads) == count + 1, place.origin.heads[count:])


@test
def a_file_whose_paths_are_wrong():
    with Paths() as place:
        for paths, said in (
            (PATHS + PATHS, "it is there twice"),
            ('[[site.path]]\nprefix = "/a"\nsettings = ["lifetme: 200 1"]\n', "line 1 is wrong"),
            ('[[site.path]]\nprefix = "/a"\noptions = { normalize_percent = true }\n', "normalize_percent: it is of all requests"),
            ('[[site.path]]\nprefix = "/a"\nmemory = "65MiB"\n', "memory"),
            ('[[site.path]]\nprefix = "a"\n', "begin with /"),
        ):
            place.paths = paths
            place.write()
            ran = subprocess.run([PROXY, "--check", place.file], stderr=subprocess.PIPE, text=True, check=False, timeout=10)
            check("it is told", ran.returncode == 2 and said in ran.stderr, ran)


@test
def the_pages_example():
    page = os.path.join(os.path.dirname(os.path.abspath(__file__)), "..", "..", "docs", "how-to", "choose-options.md")
    with open(page, encoding="utf-8") as file:
        text = file.read().partition("```toml\n")[2].partition("```")[0]
    with Place() as place:
        place.write(sites=text)
        ran = subprocess.run([PROXY, "--check", place.file], stderr=subprocess.PIPE, text=True, check=False, timeout=10)
        check("is well", text and ran.returncode == 0, ran)


# ==== whose request it is


FORWARDED = {"X-Forwarded-For": "192.0.2.1, 192.0.2.2", "Forwarded": "for=192.0.2.1", "X-Real-IP": "192.0.2.1", "X-Forwarded-Host": "b.example"}


@test
def strangers_say_nothing_of_whose_request_it_is():
    with Paths() as place:
        for path in ("/a", "/search"):
            place.get(path, headers=FORWARDED)
            got = lines_of(place.origin.heads[-1])
            check("the proxy says it", got.get("x-forwarded-for") == "127.0.0.1" and "forwarded" not in got and "x-real-ip" not in got, got)
            place.get(path)
        check("what is stored is everybody's", len(place.origin.heads) == 2)
        place.get("/b", headers={"x-forwarded-host": "evil.example", "X-Forwarded-Proto": "https", "X-Forwarded-Port": "1"})
        got = lines_of(place.origin.heads[-1])
        check("nor by which name and scheme", "x-forwarded-host" not in got and "x-forwarded-proto" not in got, got)
        check("other lines stay", got["x-forwarded-port"] == "1", got)


@test
def balancers_do():
    with Paths(top='trust_forwarded = ["127.0.0.0/8"]\n', limits="connections_by_client = 2\n") as place:
        path = os.path.join(place.folder.name, "log")
        place.write(end=f'[log]\nfile = "{path}"\n')
        place.run.send_signal(signal.SIGHUP)
        time.sleep(0.5)
        place.get("/a", headers=FORWARDED)
        got = lines_of(place.origin.heads[-1])
        check("it goes on", got["x-forwarded-for"] == "192.0.2.1, 192.0.2.2, 127.0.0.1" and (got["forwarded"], got["x-real-ip"]) == ("for=192.0.2.1", "192.0.2.1"), got)
        check("and so does the name", got["x-forwarded-host"] == "b.example", got)
        place.get("/b"), place.get("/c", headers={"X-Forwarded-For": "nobody"}), place.get("/d", headers={"X-Forwarded-For": "192.0.2.9, 127.0.0.2"})
        time.sleep(1.2)
        with open(path, encoding="ascii") as file:
            logged = [it.split()[0] for it in file]
        check("the log has the client", logged == ["192.0.2.2", "127.0.0.1", "127.0.0.1", "192.0.2.9"], logged)
        held = [place.connect() for _ in range(5)]
        for it in held:
            it.sendall(PAGE)
            check("its connections are many clients'", it.recv(65536).startswith(b"HTTP/1.1 200"))
            it.close()


@test
def a_client_behind_a_balancer_is_limited_alone():
    with Place(top='trust_forwarded = ["127.0.0.1"]\n', limits="requests_by_client = 3\n") as place:
        of = lambda who, count: [place.get(headers={"X-Forwarded-For": who})[0] for _ in range(count)]
        got = of("192.0.2.1", 8)
        check("one has too many", got.count(429) >= 3, got)
        check("another doesn't", of("192.0.2.2", 2) == [200, 200])


# ==== connections


@test
def a_client_that_half_closes_gets_its_answer():
    with Place() as place:
        place.origin.answers = lambda head: (time.sleep(0.7), fresh(b"x" * 200_000))[1]
        for path in (b"/a", b"/a", b"/b"):
            with place.connect() as at:
                at.sendall(PAGE.replace(b"/a", path))
                at.shutdown(socket.SHUT_WR)
                got = b""
                while more := at.recv(1 << 16):
                    got += more
            check("whole", got.startswith(b"HTTP/1.1 200") and got.endswith(b"x" * 200_000), (path, got[:300], len(got)))
        with place.connect() as at:
            at.sendall(PAGE + PAGE.replace(b"/a", b"/c"))
            at.shutdown(socket.SHUT_WR)
            got = b""
            while more := at.recv(1 << 16):
                got += more
            check("what it sent before too", got.count(b"HTTP/1.1 200") == 2, got[:300])
        with place.connect() as at:
            at.sendall(b"POST /d HTTP/1.1\r\nHost: a.example\r\nContent-Length: 9\r\n\r\nhalf")
            at.shutdown(socket.SHUT_WR)
            check("half a request is none", at.recv(100) == b"")
        time.sleep(1)
        check("nothing is left", place.count("open_exchanges") == 0 and place.count("open_connections") == 0, place.ask_admin()[1])


@test
def a_client_that_is_gone_is_noticed():
    with Place() as place:

        def endless(_):
            yield b"HTTP/1.1 200 OK\r\nCache-Control: no-store\r\n\r\n"
            while True:
                yield b"x" * 1000
                time.sleep(0.05)

        place.origin.answers = endless
        with place.connect() as at:
            at.sendall(PAGE)
            at.recv(1000)
        time.sleep(1.5)
        check("its exchange is over", place.count("open_exchanges") == 0, place.ask_admin()[1])


@test
def an_upgrade_is_not_passed_on():
    with Place() as place:
        ask = PAGE.replace(b"\r\n\r\n", b"\r\nConnection: Upgrade\r\nUpgrade: websocket\r\nSec-WebSocket-Key: x\r\n\r\n")
        with place.connect() as at:
            at.sendall(ask)
            got = at.recv(65536)
            check("the answer is the page", got.startswith(b"HTTP/1.1 200") and b"pgrade" not in got.partition(b"\r\n\r\n")[0], got)
            sent = lines_of(place.origin.heads[-1])
            check("the origin isn't asked to", "upgrade" not in sent and "upgrade" not in sent.get("connection", "").lower(), sent)
            at.sendall(PAGE)
            check("the connection goes on", at.recv(65536).startswith(b"HTTP/1.1 200"))
        place.origin.answers = lambda head: b"HTTP/1.1 101 Switching Protocols\r\nConnection: Upgrade\r\nUpgrade: websocket\r\n\r\n\x81\x05hello"
        got = place.raw(ask.replace(b"/a", b"/b").replace(b"Connection: Upgrade", b"Connection: Upgrade, close"))
        check("nobody switches unasked", got.startswith(b"HTTP/1.1 502"), got)
        place.origin.answers = lambda head: b"HTTP/1.1 426 Upgrade Required\r\nConnection: Upgrade\r\nUpgrade: websocket\r\nContent-Length: 0\r\n\r\n"
        got = place.get("/c", headers={"Connection": "Upgrade", "Upgrade": "websocket"})
        check("one who insists is heard", got[0] == 426, got)


if __name__ == "__main__":
    sys.exit(main(sys.argv[1:]))
