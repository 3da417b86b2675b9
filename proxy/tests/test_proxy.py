#!/usr/bin/env python3
"""What nijpdra-proxy does besides what its gateway decides, over sockets: flights, limits, slow and rude peers, reload, stop, the admin address, the log.
NIJPDRA_PROXY names the program: `proxy/tests/test_proxy.py [NAME ..]`."""

import contextlib
import json
import os
import random
import resource
import signal
import socket
import struct
import subprocess
import sys
import threading
import time

sys.path.insert(0, os.path.dirname(os.path.abspath(__file__)))

from cases import PAGE, at_once, check, main, test  # noqa: E402
from places import PROXY, Place, free_port, fresh  # noqa: E402


# ==== flights


@test
def a_cold_key_is_fetched_once():
    with Place() as place:
        place.origin.answers = lambda head: (time.sleep(0.5), fresh(b"x" * 5000))[1]
        got = at_once(60, place.get)
        check("all have the page", len(got) == 60 and all(it[0] == 200 and it[2] == b"x" * 5000 for it in got), [it[0] for it in got])
        check("one fetch", len(place.origin.heads) == 1, len(place.origin.heads))
        check("it is counted", place.count("collapsed_total") + place.count("hits_total") == 59, place.ask_admin()[1])


@test
def a_body_is_read_while_it_comes():
    with Place() as place:
        goes_on = threading.Event()

        def slowly(_):
            yield b"HTTP/1.1 200 OK\r\nCache-Control: max-age=60\r\nContent-Length: 8\r\n\r\npage"
            goes_on.wait(10)
            yield b"page"

        place.origin.answers = slowly
        with place.connect() as first, place.connect() as second:
            first.sendall(PAGE)
            while b"page" not in first.recv(65536):
                pass
            second.sendall(PAGE)
            got = b""
            while b"page" not in got:
                got += second.recv(65536)
            goes_on.set()
            check("the rest comes to both", first.recv(100) == b"page" and second.recv(100) == b"page")
        check("one fetch", len(place.origin.heads) == 1, place.origin.heads)


@test
def who_fetches_may_go():
    with Place() as place:
        goes_on = threading.Event()

        def slowly(_):
            yield b"HTTP/1.1 200 OK\r\nCache-Control: max-age=60\r\nContent-Length: 8\r\n\r\npage"
            goes_on.wait(10)
            yield b"page"

        place.origin.answers = slowly
        with place.connect() as first:
            first.sendall(PAGE)
            first.recv(65536)
        time.sleep(0.2)
        goes_on.set()
        time.sleep(0.3)
        status, fields, body = place.get()
        check("what it fetched is stored", (status, body, len(place.origin.heads)) == (200, b"pagepage", 1), (status, fields, body))


@test
def a_body_that_breaks_off_is_no_answer():
    with Place() as place:
        place.origin.answers = lambda head: b"HTTP/1.1 200 OK\r\nCache-Control: max-age=60\r\nContent-Length: 9\r\nConnection: close\r\n\r\npage"
        got = place.raw(PAGE)
        check("its client sees that", got.endswith(b"page"), got)
        place.origin.answers = lambda head: fresh()
        check("nothing is stored of it", place.get()[2] == b"page" and len(place.origin.heads) == 2, place.origin.heads)


@test
def a_body_past_max_body_is_relayed():
    with Place() as place:
        body = os.urandom(3 << 20)
        place.origin.answers = lambda head: fresh(body)
        check("it is whole", place.get()[2] == body and place.get()[2] == body)
        check("and not stored", len(place.origin.heads) == 2, len(place.origin.heads))


@test
def a_body_that_grows_past_max_body():
    with Place() as place:
        body = os.urandom(3 << 20)
        goes_on = threading.Event()

        def grows(_):
            yield b"HTTP/1.1 200 OK\r\nCache-Control: max-age=60\r\nTransfer-Encoding: chunked\r\n\r\n"
            for at in range(0, len(body), 1 << 16):
                yield b"10000\r\n" + body[at : at + (1 << 16)] + b"\r\n"
                # (who falls 1 MiB behind the client that asked is cut off)
                goes_on.wait(10) if at == 1 << 18 else time.sleep(0.03)
            yield b"0\r\n\r\n"

        place.origin.answers = grows
        got = []
        threads = [threading.Thread(target=lambda: got.append(place.get()[2])) for _ in range(5)]
        threads[0].start()
        time.sleep(0.3)
        for it in threads[1:]:
            it.start()
        time.sleep(0.5)
        goes_on.set()
        for it in threads:
            it.join()
        check("all who read it have it whole", [it == body for it in got] == [True] * 5, [len(it) for it in got])
        check("by one fetch", len(place.origin.heads) == 1, len(place.origin.heads))
        check("nothing broke off", place.count("truncated_total") == 0, place.ask_admin()[1])
        check("it isn't stored", place.get()[2] == body and len(place.origin.heads) == 2, len(place.origin.heads))


@test
def responses_that_vary():
    with Place() as place:
        place.origin.answers = lambda head: fresh(b"gzip" if b"gzip" in head else b"page", "Vary: Accept-Encoding\r\n")
        ask = lambda coding: place.get(headers={"Accept-Encoding": coding})[2]
        check("each has its own", [ask(it) for it in ("gzip", "br", "gzip", "br")] == [b"gzip", b"page", b"gzip", b"page"])
        check("by a fetch each", len(place.origin.heads) == 2, place.origin.heads)
        place.origin.answers = lambda head: (time.sleep(0.5), fresh(b"page", "Vary: Cookie\r\n"))[1]
        got = at_once(20, lambda: place.get("/b", headers={"Cookie": "a=1"})[0])
        check("one fetch for all who ask alike", got == [200] * 20 and len(place.origin.heads) == 3, len(place.origin.heads))
        check("a purge takes all", "purged" in place.ask_admin("/purge", "POST", "http://a.example/a")[1])
        place.origin.answers = lambda head: fresh(b"other", "Vary: Accept-Encoding\r\n")
        check("of them", (ask("gzip"), ask("br")) == (b"other", b"other"))


@test
def a_slow_client_holds_up_nobody():
    with Place(limits="body_timeout = 2\n") as place:
        body = b"x" * (8 << 20)
        place.origin.answers = lambda head: fresh(body) if b"/big" in head else fresh()
        with place.connect() as slow:
            slow.setsockopt(socket.SOL_SOCKET, socket.SO_RCVBUF, 4096)
            slow.sendall(PAGE.replace(b"/a", b"/big"))
            begun = time.time()
            check("another is answered", place.get()[2] == b"page")
            check("at once", time.time() - begun < 1, time.time() - begun)
            time.sleep(5)
            check("it was ended", place.count("open_exchanges") == 0 and place.count("open_connections") == 0, place.ask_admin()[1])


@test
def a_hit_beside_a_long_fetch():
    with Place() as place:
        piece = b"x" * (1 << 16)

        def long(head):
            if b"/big" not in head:
                yield fresh()
                return
            yield b"HTTP/1.1 200 OK\r\nCache-Control: no-store\r\nContent-Length: %d\r\n\r\n" % (len(piece) * 1600)
            for _ in range(1600):
                yield piece

        place.origin.answers = long
        place.get()
        reader = threading.Thread(target=lambda: place.get("/big"))
        reader.start()
        longest, hits = 0, 0
        while reader.is_alive():
            begun = time.time()
            place.get()
            longest, hits = max(longest, time.time() - begun), hits + 1
        check("hits go on", hits > 5, hits)
        check("none waits for it", longest < 0.5, longest)


# ==== the origin


@test
def an_origin_that_is_silent():
    with Place(limits="first_byte_timeout = 1\nfetch_wait = 1\n") as place:
        place.origin.answers = lambda head: (time.sleep(8), fresh())[1]
        begun = time.time()
        status, fields, _ = place.get()
        check("504 by the limit", status == 504 and time.time() - begun < 6, (status, time.time() - begun, fields))


@test
def an_origin_that_is_not_there():
    port = free_port()
    with Place(sites=f'[[site]]\n[[site.origin]]\naddress = "127.0.0.1:{port}"\n') as place:
        status, fields, _ = place.get()
        check("502", status == 502 and "no-answer" in fields["Cache-Status"], (status, fields))
        for _ in range(5):
            place.get()
        time.sleep(0.6)
        told = [it for it in place.said if b"origin 127.0.0.1:%d: " % port in it and b"refused" in it]
        check("it is told once a second", len(told) == 1, place.said)


@test
def one_of_two_origins_is_down():
    down = free_port()
    with Place() as place:
        place.write(sites=f'[[site]]\n[[site.origin]]\naddress = "127.0.0.1:{down}"\n[[site.origin]]\naddress = "127.0.0.1:{place.origin.port}"\n')
        place.run.send_signal(signal.SIGHUP)
        time.sleep(0.5)
        got = [place.get(f"/{it}")[0] for it in range(20)]
        check("after three failures it is passed over", got.count(502) <= 3 and got[-8:] == [200] * 8, got)


@test
def a_kept_connection_that_was_closed():
    with Place(threads=1) as place:
        place.get("/1")
        check("connections are kept", place.get("/2")[0] == 200 and place.origin.connections == 1, place.origin.connections)
        place.origin.answers = lambda head: b"HTTP/1.1 200 OK\r\nCache-Control: max-age=9\r\nContent-Length: 4\r\nConnection: close\r\n\r\npage"
        check("one that says so isn't", [place.get(f"/{it}")[0] for it in "3456"] == [200] * 4, place.origin.connections)


@test
def kept_connections_that_die_on_use():
    with Place(threads=1) as place:
        own, all_are_open = threading.local(), threading.Barrier(4)

        def dies(head):
            if hasattr(own, "was_used"):
                raise OSError
            own.was_used = True
            if head.startswith(b"GET /first"):
                all_are_open.wait(10)
            return fresh()

        place.origin.answers, paths = dies, iter(range(4))
        at_once(4, lambda: place.get(f"/first{next(paths)}"))
        check("four connections are kept", place.origin.connections == 4, place.origin.connections)
        got = [place.get(f"/{i}")[0] for i in range(4)]
        check("what is sent again goes on a new one", got == [200] * 4, (got, place.origin.heads))


@test
def an_answer_before_the_body_is_whole():
    with Place() as place:
        place.origin.answers = lambda head: b"HTTP/1.1 413 Content Too Large\r\nContent-Length: 0\r\nConnection: close\r\n\r\n"
        with place.connect() as at:
            at.sendall(b"POST /up HTTP/1.1\r\nHost: a.example\r\nContent-Length: 300000\r\n\r\n")
            with contextlib.suppress(OSError):
                for _ in range(30):
                    at.sendall(b"x" * 10000)
            got = at.recv(65536)
            check("the answer comes all the same", got.startswith(b"HTTP/1.1 413") or got.startswith(b"HTTP/1.1 502"), got)


@test
def a_long_upload():
    with Place() as place:
        body = os.urandom(2 << 20)
        check("it goes through", place.get("/up", "POST", body)[0] == 200)
        check("with its length", b"Content-Length: %d" % len(body) in place.origin.heads[-1] or b"content-length: %d" % len(body) in place.origin.heads[-1].lower(), place.origin.heads)


# ==== limits


@test
def heads_that_come_slowly():
    with Place(limits="head_timeout = 1\nidle_timeout = 2\n") as place:
        with place.connect() as slow, place.connect() as idle:
            begun = time.time()
            slow.sendall(b"GET / HT")
            check("a head has so long", slow.recv(100) == b"" and 0.7 < time.time() - begun < 4, time.time() - begun)
            check("an idle connection too", idle.recv(100) == b"" and 1.5 < time.time() - begun < 6, time.time() - begun)
        check("others are served", place.get()[0] == 200)


@test
def bodies_that_come_slowly():
    with Place(limits="body_timeout = 1\n") as place:
        with place.connect() as silent, place.connect() as slow:
            begun = time.time()
            silent.sendall(b"POST /1 HTTP/1.1\r\nHost: a.example\r\nContent-Length: 100\r\n\r\nx")
            slow.sendall(b"POST /2 HTTP/1.1\r\nHost: a.example\r\nContent-Length: 100000\r\n\r\nx")
            with contextlib.suppress(OSError):
                for _ in range(30):
                    slow.sendall(b"x")
                    time.sleep(0.25)
            check("a byte now and then isn't enough", time.time() - begun < 6, time.time() - begun)
            with contextlib.suppress(OSError):
                check("nor is none", silent.recv(100) == b"")
        check("nothing is left", place.count("open_exchanges") == 0, place.ask_admin()[1])


@test
def a_head_without_end():
    with Place() as place:
        got = place.raw(b"GET / HTTP/1.1\r\nHost: a.example\r\nX: " + b"y" * (1 << 20))
        check("it is refused", got.startswith(b"HTTP/1.1 431") or got.startswith(b"HTTP/1.1 400") or got == b"", got[:200])


@test
def connections_by_client():
    with Place(limits="connections_by_client = 3\n") as place:
        held = [place.connect() for _ in range(3)]
        for it in held:
            it.sendall(PAGE)
            check("three are served", it.recv(65536).startswith(b"HTTP/1.1 200"))
        check("a fourth is closed", place.raw(PAGE) == b"")
        for it in held:
            it.close()
        time.sleep(0.3)
        check("and served once they are gone", place.get()[0] == 200)
        check("it is counted", place.count("connections_refused_total") == 1)
        time.sleep(0.6)
        check("and told", any(b"1 connections closed" in it and b"127.0.0.1" in it for it in place.said), place.said)


@test
def requests_by_client():
    with Place(limits="requests_by_client = 5\n") as place:
        got = [place.get() for _ in range(12)]
        limited = [it for it in got if it[0] == 429]
        check("some are answered 429", len(limited) >= 4 and limited[0][1]["Retry-After"] == "1", [it[0] for it in got])
        time.sleep(1.2)
        check("later it may again", place.get()[0] == 200)


@test
def what_is_stored_stays_within_memory():
    with Place(top="") as place:
        place.origin.answers = lambda head: fresh(b"z" * 100_000)
        for it in range(300):
            place.get(f"/{it}")
        before = place.memory()
        for it in range(300, 1500):
            place.get(f"/{it}")
        check("misses without end", place.memory() < before + (48 << 20), (before, place.memory()))
        check("things went for room", place.count("evicted_total") > 500, place.ask_admin()[1])


@test
def posts_leave_nothing():
    with Place() as place:

        def post(first, count):
            with place.connect() as at:
                file = at.makefile("rb")
                for it in range(first, first + count):
                    at.sendall(b"POST /%d HTTP/1.1\r\nHost: a.example\r\nContent-Length: 2\r\n\r\nhi" % it)
                    while file.readline() != b"\r\n":
                        pass
                    file.read(4)

        post(0, 2000)
        before = place.memory()
        post(10_000, int(os.environ.get("POSTS", "8000")))
        check("memory is flat", place.memory() < before + (4 << 20), (before, place.memory()))
        check("no exchange is left", place.count("open_exchanges") == 0 and place.count("waiting_exchanges") == 0)


# ==== what nobody should send


REQUESTS = (
    PAGE,
    b"POST /b HTTP/1.1\r\nHost: a.example\r\nTransfer-Encoding: chunked\r\n\r\n3\r\nabc\r\n0\r\n\r\n",
    b"GET /c HTTP/1.0\r\nHost: a.example\r\nRange: bytes=0-1,3-\r\n\r\n",
    b"PUT /d HTTP/1.1\r\nHost: a.example\r\nContent-Length: 5\r\nExpect: 100-continue\r\n\r\nhello",
)
RESPONSES = (
    b"HTTP/1.1 200 OK\r\nCache-Control: max-age=60\r\nContent-Length: 4\r\n\r\npage",
    b"HTTP/1.1 200 OK\r\nTransfer-Encoding: chunked\r\n\r\n4\r\npage\r\n0\r\nX: y\r\n\r\n",
    b"HTTP/1.1 103 Early Hints\r\nLink: x\r\n\r\nHTTP/1.1 304 Not Modified\r\nETag: \"1\"\r\n\r\n",
    b"HTTP/1.0 200 OK\r\n\r\ntill the end",
)


def spoilt(random, text):
    """A text with some bytes changed, left out or doubled."""
    text = bytearray(text)
    for _ in range(random.randrange(4)):
        at = random.randrange(len(text))
        what = random.randrange(3)
        if what == 0:
            text[at] = random.choice(b"\r\n :;,\0\xff0123456789abcfx\t\"")
        elif what == 1:
            del text[at : at + random.randrange(1, 8)]
        else:
            text[at:at] = text[at : at + random.randrange(1, 30)]
        text = text or bytearray(b"x")
    return bytes(text)


@test
def spoilt_bytes_on_both_sides():
    with Place(limits="head_timeout = 1\nidle_timeout = 1\nbody_timeout = 1\nfirst_byte_timeout = 1\nbetween_bytes_timeout = 1\nfetch_wait = 1\n") as place:
        source = random.Random(7)
        lock = threading.Lock()

        def spoil(texts):
            with lock:
                return b"".join(spoilt(source, source.choice(texts)) for _ in range(source.randrange(1, 4)))

        place.origin.answers = lambda head: [spoil(RESPONSES), b""] if len(head) % 2 else spoil(RESPONSES) + b"Connection: close"

        def run():
            for _ in range(int(os.environ.get("SPOILT", "40"))):
                with contextlib.suppress(OSError), place.connect(5) as at:
                    at.sendall(spoil(REQUESTS))
                    at.settimeout(0.3)
                    while at.recv(65536):
                        pass

        at_once(8, run)
        place.origin.answers = lambda head: fresh()
        time.sleep(4)
        check("it still serves", place.get("/last")[2] == b"page", place.said)
        check("nothing is left", place.count("open_exchanges") == 0 and place.count("open_connections") <= 1, place.ask_admin()[1])
        check("and it never said a word", len([it for it in place.said if b"descriptors" not in it]) == 1, place.said)


# ==== the operator


@test
def purge_and_health():
    with Place() as place:
        place.get(), place.get()
        check("a hit", len(place.origin.heads) == 1)
        check("by URL", "purged" in place.ask_admin("/purge", "POST", "http://a.example/a\n")[1])
        place.get()
        check("it is fetched again", len(place.origin.heads) == 2)
        check("what isn't there", "not stored" in place.ask_admin("/purge", "POST", "http://a.example/none")[1])
        check("it is well", place.ask_admin("/healthz") == (200, "ok\n"))
        check("also by HEAD", place.ask_admin("/healthz", "HEAD") == (200, ""))
        check("no such page", place.ask_admin("/")[0] == 404)


def of_partitions(place, name):
    """The values of a family by its partitions, in their order."""
    lines = [it for it in place.ask_admin()[1].splitlines() if it.startswith(f"nijpdra_{name}{{")]
    check("each has its number", [it.split()[0] for it in lines] == [f'nijpdra_{name}{{partition="{at}"}}' for at in range(len(lines))], lines)
    return [int(it.split()[1]) for it in lines]


def shown(place):
    """The first screen of `nijpdra-proxy stat`, by its names."""
    with subprocess.Popen([PROXY, "stat", f"127.0.0.1:{place.admin}"], stdout=subprocess.PIPE, text=True) as run:
        lines = [run.stdout.readline()]
        while "answer_seconds_count" not in lines[-1] and lines[-1]:
            lines.append(run.stdout.readline())
        run.terminate()
    return {it.split()[0]: float(it.split()[1]) for it in lines[1:] if it}


@test
def what_partitions_hold():
    with Place() as place:
        check("nothing at first", set(of_partitions(place, "cache_bytes") + of_partitions(place, "cache_bodies")) == {0}, place.ask_admin()[1])
        limits = of_partitions(place, "cache_limit_bytes")
        check("each has its share of memory", len(limits) >= 8 and set(limits) == {(64 << 20) // len(limits)} and place.count("memory_bytes") == 64 << 20, limits)
        place.origin.answers = lambda head: fresh(b"x" * 10_000)
        for it in range(40):
            place.get(f"/{it}")
        held, bodies = of_partitions(place, "cache_bytes"), of_partitions(place, "cache_bodies")
        check("bodies lie in several", sum(bodies) == 40 and len(held) == len(bodies) == len(limits) and max(bodies) < 40, bodies)
        check("with their heads they weigh more than they are long", 400_000 < sum(held) < 480_000, held)
        check("one that has none weighs nothing", all((weight > 0) == (count > 0) for weight, count in zip(held, bodies)), (held, bodies))
        told = shown(place)
        check("stat has the sums", (told["cache_bytes"], told["cache_bodies"], told["cache_limit_bytes"]) == (sum(held), 40, sum(limits)), told)
        text = place.ask_admin()[1].splitlines()
        for name in ("cache_bytes", "cache_limit_bytes", "cache_bodies"):
            check("one HELP and one TYPE", [sum(it.startswith(f"# {word} nijpdra_{name} ") for it in text) for word in ("HELP", "TYPE")] == [1, 1], text)
        place.ask_admin("/purge", "POST", "http://a.example/1")
        check("a purge is seen", sum(of_partitions(place, "cache_bodies")) == 39 and sum(of_partitions(place, "cache_bytes")) < sum(held))
        place.origin.answers = lambda head: fresh(b"y" * 100_000)
        for it in range(1000):
            place.get(f"/more/{it}")
        held = of_partitions(place, "cache_bytes")
        check("none is past its limit", all(weight <= limit for weight, limit in zip(held, limits)) and sum(held) > sum(limits) / 2, held)


@test
def what_a_purge_is_not():
    with Place() as place:
        place.get("/a*b"), place.get()
        for url, status, told in (
            ("http://a.example/a*b", 200, "purged"),
            ("http://a.example/*", 400, "no prefixes are purged: give a URL, or * alone"),
            ("https://a.example/a", 400, "keys begin with http://"),
            ("http://a.example/none", 200, "not stored"),
        ):
            got = place.ask_admin("/purge", "POST", url)
            check("told", got == (status, f"{url}: {told}\n"), got)
        check("what was found counts", place.count("purged_total") == 1, place.count("purged_total"))


@test
def a_purge_of_everything():
    with Place() as place:
        paths = [f"/{it}" for it in range(30)]
        for it in paths + paths:
            place.get(it)
        check("all are stored", len(place.origin.heads) == 30)
        check("it is said", place.ask_admin("/purge", "POST", "*") == (200, "*: purged\n"))
        for it in paths + paths:
            place.get(it)
        check("each is fetched once more", len(place.origin.heads) == 60, len(place.origin.heads))
        check("it is counted", place.count("purged_all_total") == 1)
        held = threading.Thread(target=lambda: place.get("/held"))
        place.origin.answers = lambda head: (time.sleep(0.6), fresh())[1]
        held.start()
        time.sleep(0.3)
        place.ask_admin("/purge", "POST", "*")
        held.join()
        place.get("/held")
        check("what was on its way isn't stored", len(place.origin.heads) == 62, len(place.origin.heads))


@test
def a_log_of_each_format():
    for kind in ("combined", "json"):
        with Place(limits="head_timeout = 1\n") as place:
            path = os.path.join(place.folder.name, "log")
            place.write(end=f'[log]\nfile = "{path}"\nformat = "{kind}"\n')
            place.run.send_signal(signal.SIGHUP)
            time.sleep(0.5)
            place.get(headers={"User-Agent": 'odd"\xe9', "Referer": "http://r.example/"})
            place.get()
            place.raw(b"GET /b d HTTP/1.1\r\nHost: a.example\r\n\r\n")
            place.raw(b"GET /b HTTP/1.1\r\n\r\n")
            place.origin.answers = lambda head: b"HTTP/1.1 200 OK\r\nCache-Control: private\r\nCache-Status: up; hit; detail=x\r\nContent-Length: 0\r\n\r\n"
            place.get("/private")
            place.get(headers={"Host": "b.example"}), place.get()
            slow = place.connect()
            slow.sendall(b"GET /c")
            check("a head that comes slowly is ended", slow.recv(9) == b"")
            time.sleep(1.2)
            with open(path, encoding="ascii") as file:
                lines = file.read().splitlines()
            check("a line an answer", len(lines) == 8, lines)
            reasons = [(it.get("cache"), it.get("reason")) for it in map(json.loads, lines)] if kind == "json" else [tuple((it.rpartition('" ')[2] + " ").split(" ")[:2]) for it in lines]
            check("and why", reasons[2:5] == [("generated", "bad-request-line"), ("generated", "no-host"), ("miss", "private")] and reasons[7] == ("aborted", "head-timeout"), reasons)
            check("of a hit no reason", reasons[6] == ("hit", ""), reasons)
            if kind == "json":
                told = [json.loads(it) for it in lines]
                check("of a miss and a hit", [(it["cache"], it["status"]) for it in told[:2]] == [("miss", 200), ("hit", 200)] and told[0]["agent"] == 'odd"\xe9', told)
            else:
                check("of a miss and a hit", '"GET /a HTTP/1.1" 200' in lines[0] and lines[0].endswith(" miss") and lines[1].endswith(" hit") and '\\"\\xe9' in lines[0], lines)
            os.rename(path, path + ".1")
            place.run.send_signal(signal.SIGHUP)
            time.sleep(0.3)
            place.get()
            time.sleep(1.2)
            check("another file after its name went", os.path.exists(path) and len(open(path, encoding="ascii").readlines()) == 1, os.listdir(place.folder.name))


@test
def a_reload_loses_no_connection():
    with Place() as place:
        stop, failures = threading.Event(), []

        def run():
            with place.connect() as at:
                file = at.makefile("rb")
                while not stop.is_set():
                    at.sendall(PAGE)
                    if not file.readline().startswith(b"HTTP/1.1 200"):
                        return failures.append("an answer")
                    while file.readline() != b"\r\n":
                        pass
                    file.read(4)

        threads = [threading.Thread(target=run) for _ in range(4)]
        for it in threads:
            it.start()
        for it in range(10):
            place.write(limits=f"idle_timeout = {60 + it}\n")
            place.run.send_signal(signal.SIGHUP)
            time.sleep(0.1)
        place.write(limits="idle_timeout = 0\n")
        place.run.send_signal(signal.SIGHUP)
        time.sleep(0.3)
        stop.set()
        for it in threads:
            it.join()
        check("each is answered", not failures, failures)
        check("a wrong file changes nothing, and is told", any(b"idle_timeout" in it and b"stands" in it for it in place.said), place.said)


@test
def a_reload_keeps_what_origins_have():
    with Place(threads=1, limits="fetches_by_origin = 1\nfetch_wait = 1\n") as place:
        goes_on = threading.Event()
        place.get("/1")
        place.run.send_signal(signal.SIGHUP)
        time.sleep(0.4)
        place.get("/2")
        check("a connection that is kept", place.origin.connections == 1, place.origin.connections)
        place.origin.answers = lambda head: (goes_on.wait(10), fresh())[1] if b"/held" in head else fresh()
        held = threading.Thread(target=lambda: place.get("/held"))
        held.start()
        time.sleep(0.3)
        place.run.send_signal(signal.SIGHUP)
        time.sleep(0.4)
        check("the bound of its fetches", place.get("/3")[0] == 504)
        goes_on.set()
        held.join()
        place.write(limits="")
        place.run.send_signal(signal.SIGHUP)
        time.sleep(0.4)
        check("new limits hold", place.get("/4")[0] == 200)
        check("each reload is told", sum(b"read again" in it for it in place.said) >= 1, place.said)


@test
def what_takes_a_new_start_is_told_each_time():
    with Place() as place:
        place.write(end="[rules.options]\nhttps = true\n")
        for told in (1, 2):
            place.run.send_signal(signal.SIGHUP)
            time.sleep(0.5)
            check("a reload says so", sum(b"take a new start" in it for it in place.said) == told, place.said)
        place.get()
        check("and what ran before stands", "purged" in place.ask_admin("/purge", "POST", "http://a.example/a")[1])


@test
def two_by_one_configuration():
    with Place() as place:
        ran = subprocess.run([PROXY, place.file], stdout=subprocess.PIPE, stderr=subprocess.PIPE, text=True, check=False, timeout=10)
        check("the second ends, and says why", ran.returncode == 2 and f"127.0.0.1:{place.admin}: " in ran.stderr, ran)
        check("the first goes on", place.get()[0] == 200)


@test
def two_at_one_address():
    with Place() as place:
        text = open(place.file, encoding="utf-8").read()
        with open(place.file, "w", encoding="utf-8") as file:
            file.write(text.replace(f'"127.0.0.1:{place.admin}"', f'"127.0.0.1:{free_port()}"'))
        ran = subprocess.run([PROXY, place.file], stdout=subprocess.PIPE, stderr=subprocess.PIPE, text=True, check=False, timeout=10)
        check("the second ends, and says why", ran.returncode == 2 and f"listen: 127.0.0.1:{place.port}: " in ran.stderr, ran)
        check("the first has all", [place.get(f"/{it}")[0] for it in range(20)] == [200] * 20)


@test
def a_log_of_what_is_refused():
    with Place(limits="requests_by_client = 2\n") as place:
        path = os.path.join(place.folder.name, "log")
        place.write(end=f'[log]\nfile = "{path}"\n')
        place.run.send_signal(signal.SIGHUP)
        time.sleep(0.5)
        got = [place.get()[0] for _ in range(8)]
        time.sleep(1.2)
        with open(path, encoding="ascii") as file:
            lines = file.read().splitlines()
        limited = [it for it in lines if '"GET /a HTTP/1.1" 429' in it]
        check("each has its line", len(lines) == 8 and len(limited) == got.count(429) >= 4 and all(it.endswith(" refused rate") for it in limited), lines)


@test
def a_host_that_no_site_has():
    with Place() as place:
        path = os.path.join(place.folder.name, "log")
        site = f'[[site]]\nhost = ["b.example"]\n[[site.origin]]\naddress = "127.0.0.1:{place.origin.port}"\n'
        place.write(sites=site, end=f'[log]\nfile = "{path}"\n')
        place.run.send_signal(signal.SIGHUP)
        time.sleep(0.5)
        check("421", place.get()[0] == 421 and not place.origin.heads)
        check("its own is answered", place.get(headers={"Host": "B.example:80"})[0] == 200)
        time.sleep(1.2)
        with open(path, encoding="ascii") as file:
            lines = file.read().splitlines()
        check("the log says why", '"GET /a HTTP/1.1" 421' in lines[0] and lines[0].endswith(" no-site") and lines[1].endswith(" miss"), lines)


@test
def a_stop_ends_what_is_under_way():
    with Place() as place:
        place.origin.answers = lambda head: (time.sleep(1), fresh(b"x" * 1000))[1]
        got = []
        asks = threading.Thread(target=lambda: got.append(place.get()))
        asks.start()
        time.sleep(0.3)
        place.run.send_signal(signal.SIGTERM)
        asks.join()
        check("its answer is whole", got[0][0] == 200 and len(got[0][2]) == 1000, got)
        check("exit 0", place.run.wait(10) == 0)


@test
def a_stop_says_that_connections_end():
    with Place() as place:
        place.get()
        with place.connect() as at, place.connect() as busy:
            at.sendall(PAGE), at.recv(65536)
            place.origin.answers = lambda head: (time.sleep(1), fresh())[1]
            busy.sendall(PAGE.replace(b"/a", b"/b"))
            time.sleep(0.3)
            place.run.send_signal(signal.SIGTERM)
            time.sleep(0.08)
            at.sendall(PAGE)
            got = at.recv(65536)
            check("its answer says so", got.startswith(b"HTTP/1.1 200") and b"\r\nConnection: close\r\n" in got and at.recv(10) == b"", got)
            check("and one that was under way is whole", busy.recv(65536).endswith(b"page"))
        check("exit 0", place.run.wait(10) == 0)


@test
def a_stop_answers_who_has_asked():
    with Place() as place:
        place.get()
        got, closes = [], PAGE.replace(b"\r\n\r\n", b"\r\nConnection: close\r\n\r\n")

        def run():
            with contextlib.suppress(ConnectionRefusedError):
                while True:
                    got.append(place.raw(closes)[:12])

        threads = [threading.Thread(target=run) for _ in range(20)]
        for it in threads:
            it.start()
        time.sleep(0.5)
        place.run.send_signal(signal.SIGTERM)
        for it in threads:
            it.join()
        # (a connection that the kernel took while the last socket was closed is reset)
        check("all but a few", len(got) > 100 and sum(it != b"HTTP/1.1 200" for it in got) <= 2, (len(got), [it for it in got if it != b"HTTP/1.1 200"]))


@test
def whose_connection_it_is():
    with Place(listen='proxy_protocol_from = ["127.0.0.0/8"]\n') as place:
        lines = {
            "version 1": b"PROXY TCP4 192.0.2.7 192.0.2.1 4000 80\r\n",
            "version 2": b"\r\n\r\n\0\r\nQUIT\n\x21\x11\0\x0c" + socket.inet_aton("192.0.2.7") + socket.inet_aton("192.0.2.1") + struct.pack(">HH", 4000, 80),
        }
        for name, line in lines.items():
            got = place.raw(line + PAGE.replace(b"/a", b"/" + name[-1:].encode()).replace(b"\r\n\r\n", b"\r\nConnection: close\r\n\r\n"))
            check(name, got.startswith(b"HTTP/1.1 200"), got)
        check("without one nothing is served", place.raw(PAGE) == b"")


@contextlib.contextmanager
def another(place, change, **more):
    """Another proxy by the same configuration, but for what a function makes of its text, once it says that it runs."""
    other = os.path.join(place.folder.name, "other.toml")
    with open(place.file, encoding="utf-8") as file:
        text = file.read().replace(f"127.0.0.1:{place.admin}", f"127.0.0.1:{free_port()}")
    with open(other, "w", encoding="utf-8") as file:
        file.write(change(text))
    with subprocess.Popen([PROXY, other], stderr=subprocess.PIPE, **more) as run:
        said = [run.stderr.readline()]
        while said[-1] and b"partitions" not in said[-1]:
            said.append(run.stderr.readline())
        time.sleep(0.3)
        try:
            yield run, said
        finally:
            run.terminate()


@test
def addresses_of_both_kinds():
    with Place(end="[rules.options]\nadd_x_forwarded_for = true\n") as place:
        port = free_port()
        listen = f'"[::]:{port}"\nproxy_protocol_from = ["127.0.0.0/8"]'
        with another(place, lambda text: text.replace(f'"127.0.0.1:{place.port}"', listen)):
            for host, line, told in (("127.0.0.1", b"PROXY TCP4 192.0.2.7 192.0.2.1 4000 80\r\n", b"192.0.2.7"), ("::1", b"", b"::1"), ("127.0.0.1", b"PROXY UNKNOWN\r\n", b"127.0.0.1")):
                with socket.create_connection((host, port), 10) as at:
                    at.sendall(line + PAGE.replace(b"/a", b"/" + told))
                    got = at.recv(65536)
                check("it is served", got.startswith(b"HTTP/1.1 200"), (host, line, got))
                check("and told without ::ffff:", b"X-Forwarded-For: " + told in place.origin.heads[-1].split(b"\r\n"), place.origin.heads[-1])


@test
def a_path_that_is_taken():
    with Place() as place:
        path = os.path.join(place.folder.name, "kept")
        at_path = lambda text: text.replace(f'"127.0.0.1:{place.port}"', f'"unix:{path}"')
        with open(path, "w", encoding="ascii") as file:
            file.write("a file")
        with another(place, at_path) as (run, _):
            check("a file isn't taken away", run.wait(10) == 2 and os.path.isfile(path))
        os.remove(path)
        with another(place, at_path) as (first, _), another(place, at_path) as (second, _):
            check("nor is a socket that one listens at", second.wait(10) == 2 and first.poll() is None)
            check("all who reach it may connect", os.stat(path).st_mode & 0o777 == 0o666, oct(os.stat(path).st_mode))
        with another(place, at_path) as (run, _):
            check("one that nobody listens at is", run.poll() is None)


@test
def few_descriptors():
    few = lambda: resource.setrlimit(resource.RLIMIT_NOFILE, (264, 264))
    with Place(limits="connections_by_client = 5000\n") as place:
        port = free_port()
        with another(place, lambda text: text.replace(f"127.0.0.1:{place.port}", f"127.0.0.1:{port}"), preexec_fn=few) as (_, said):
            check("it says how many connections they let", b"264 descriptors let 100 connections" in said[0], said)
            held = [socket.create_connection(("127.0.0.1", port), 10) for _ in range(300)]
            time.sleep(0.5)
            for it in held[:50]:
                it.sendall(PAGE.replace(b"/a", b"/%d" % it.fileno()))
            got = [it.recv(100)[:12] for it in held[:50]]
            check("misses have theirs", got == [b"HTTP/1.1 200"] * 50, got)
            for it in held:
                it.close()


@test
def a_socket_of_this_host():
    with Place() as place:
        path = os.path.join(place.folder.name, "socket")
        port = free_port()
        text = open(place.file, encoding="utf-8").read().replace(f"127.0.0.1:{place.port}", f"unix:{path}").replace(f"127.0.0.1:{place.admin}", f"127.0.0.1:{port}")
        other = os.path.join(place.folder.name, "other.toml")
        with open(other, "w", encoding="utf-8") as file:
            file.write(text)
        with subprocess.Popen([PROXY, other], stderr=subprocess.DEVNULL) as run:
            for _ in range(200):
                if os.path.exists(path):
                    break
                time.sleep(0.025)
            with socket.socket(socket.AF_UNIX) as at:
                at.connect(path)
                at.sendall(PAGE)
                check("it serves", at.recv(65536).startswith(b"HTTP/1.1 200"))
            run.terminate()


@test
def the_command_line():
    run = lambda *words: subprocess.run([PROXY, *words], stdout=subprocess.PIPE, stderr=subprocess.PIPE, text=True, check=False, timeout=10)
    check("help", "usage:" in run("--help").stdout)
    check("no words", run().returncode == 2)
    for origin in ("http://127.0.0.1:1/app", "http://", "http://a/app", "http://a b:1", "http://a:99999", "http://[::1", "https://a"):
        check("an origin that is none", run("--origin", origin).returncode == 2, origin)
    with Place() as place:
        check("a file that is well", run("--check", place.file).returncode == 0)
        place.write(limits="connections = -1\n")
        told = run("--check", place.file)
        check("one that isn't", told.returncode == 2 and "connections" in told.stderr, told)
        place.write(limits="", end='[rules]\nsettings = ["lifetime: 200 60", "lifetme: 200 60"]\n')
        told = run("--check", place.file)
        check("a setting by its line", told.returncode == 2 and "line 2" in told.stderr, told)
        place.write(end="[rules.options]\nmax_head = 1\n")
        told = run("--check", place.file)
        check("an option by its name", told.returncode == 2 and "rules.options.max_head" in told.stderr, told)


if __name__ == "__main__":
    sys.exit(main(sys.argv[1:]))
