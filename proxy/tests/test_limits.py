#!/usr/bin/env python3
"""Each limit of nijpdra-proxy that test_proxy.py doesn't try, and what it does with several origins. NIJPDRA_PROXY names the program:
`proxy/tests/test_limits.py [NAME ..]`."""

import os
import signal
import socket
import sys
import threading
import time

sys.path.insert(0, os.path.dirname(os.path.abspath(__file__)))

from cases import PAGE, at_once, check, main, test  # noqa: E402
from places import Origin, Place, free_port, fresh  # noqa: E402

# ==== clients


@test
def connections_in_all():
    with Place(limits="connections = 3\n") as place:
        held = [place.connect() for _ in range(3)]
        for it in held:
            it.sendall(PAGE)
            check("three are served", it.recv(65536).startswith(b"HTTP/1.1 200"))
        check("a fourth is closed", place.raw(PAGE) == b"")
        held.pop().close()
        time.sleep(0.3)
        check("and served in the place of one that went", place.get()[0] == 200)
        for it in held:
            it.close()


@test
def bytes_of_a_head():
    with Place() as place:

        def head(count):
            own = PAGE[:-2] + b"Connection: close\r\n" + b"".join(b"X-%02d: %s\r\n" % (it, b"y" * 8000) for it in range(8))
            return own + b"Z: " + b"z" * (count - len(own) - 7) + b"\r\n\r\n"

        check("64 KB are read", len(head(65536)) == 65536 and place.raw(head(65536))[:12] == b"HTTP/1.1 200", place.raw(head(65536)))
        check("a byte more is answered 431", place.raw(head(65537))[:12] == b"HTTP/1.1 431", place.raw(head(65537)))
        check("and so is one long line", place.raw(PAGE[:-2] + b"X: " + b"y" * 8200 + b"\r\n\r\n")[:12] == b"HTTP/1.1 431")
    with Place(end="[rules.options]\nmax_head_bytes = 1000\n") as place:
        check("by the file's number", place.raw(PAGE[:-2] + b"X: " + b"y" * 1000 + b"\r\n\r\n")[:12] == b"HTTP/1.1 431")


@test
def a_reader_at_less_than_the_least_rate():
    with Place(limits='body_timeout = 1\nmin_rate = "100kB"\n') as place:
        place.origin.answers = lambda head: fresh(b"x" * (900 << 10))
        place.get()
        with place.connect() as slow:
            slow.setsockopt(socket.SOL_SOCKET, socket.SO_RCVBUF, 4096)
            slow.sendall(PAGE * 8)
            begun = time.time()
            while place.count("open_connections") and time.time() - begun < 20:
                time.sleep(0.05)
                slow.recv(1000)
            # (what the kernel had taken still comes)
            check("it is ended, though it always read some", time.time() - begun < 15, time.time() - begun)


@test
def a_peer_that_is_not_listed_has_no_proxy_protocol():
    with Place(listen='proxy_protocol_from = ["192.0.2.0/24"]\n') as place:
        got = place.raw(b"PROXY TCP4 192.0.2.7 192.0.2.1 4000 80\r\n" + PAGE)
        check("it is no request", got.startswith(b"HTTP/1.1 400"), got)
        check("and a request is one", place.get()[0] == 200)


@test
def a_stop_waits_so_long():
    with Place(limits="stop_timeout = 1\n") as place:
        goes_on = threading.Event()
        place.origin.answers = lambda head: (goes_on.wait(30), fresh())[1]
        with place.connect() as at:
            at.sendall(PAGE)
            time.sleep(0.3)
            begun = time.time()
            place.run.send_signal(signal.SIGTERM)
            check("and ends by 0", place.run.wait(10) == 0 and 0.8 < time.time() - begun < 5, time.time() - begun)
            goes_on.set()


# ==== bodies


@test
def bytes_in_flight():
    with Place() as place:
        goes_on, body = threading.Event(), b"x" * 900_000

        def held(_):
            yield fresh(body)[:-1]
            goes_on.wait(20)
            yield b"x"

        place.origin.answers = lambda head: fresh()
        at_once(100, place.get)
        before = place.memory()
        place.origin.answers = held
        got, paths = [], iter(range(1, 200))
        threads = [threading.Thread(target=lambda path=next(paths): got.append(len(place.get(f"/{path}")[2]))) for _ in range(150)]
        for it in threads:
            it.start()
        time.sleep(4)
        # (135 MB in all; half of 64 MiB, and for each that isn't stored what its client hasn't taken)
        most = place.memory() - before
        goes_on.set()
        for it in threads:
            it.join()
        check("each has its page", got == [len(body)] * 150, got)
        check("memory is bounded", most < (32 << 20) + 150 * (256 << 10), most)
        check("what was too much isn't stored", 20 < place.count("stored_total") - 1 < 60, place.count("stored_total"))


# ==== origins


@test
def fetches_at_once_by_origin():
    with Place(limits="fetches_by_origin = 3\nfetch_wait = 20\n") as place:
        lock, now, most = threading.Lock(), [0], [0]

        def slowly(_):
            with lock:
                now[0] += 1
                most[0] = max(most[0], now[0])
            time.sleep(0.2)
            with lock:
                now[0] -= 1
            return fresh()

        place.origin.answers = slowly
        paths = iter(range(100))
        got = at_once(15, lambda: place.get(f"/{next(paths)}")[0])
        check("all have their turn", got == [200] * 15, got)
        check("three at once", most[0] == 3, most)


@test
def who_waits_for_a_fetch_too_long():
    with Place(limits="fetches_by_origin = 1\nfetch_wait = 1\n") as place:
        goes_on = threading.Event()
        place.origin.answers = lambda head: (goes_on.wait(20), fresh())[1]
        first = threading.Thread(target=lambda: place.get("/1"))
        first.start()
        time.sleep(0.3)
        begun = time.time()
        status, fields, _ = place.get("/2")
        check("504, in a second", status == 504 and 0.8 < time.time() - begun < 5, (status, time.time() - begun, fields))
        goes_on.set()
        first.join()


@test
def an_origin_that_takes_no_connection():
    with socket.socket() as full:
        full.bind(("127.0.0.1", 0))
        full.listen(0)
        port, held = full.getsockname()[1], []
        for _ in range(3):
            it = socket.socket()
            it.setblocking(False)
            it.connect_ex(("127.0.0.1", port))
            held.append(it)
        with Place(sites=f'[[site]]\n[[site.origin]]\naddress = "127.0.0.1:{port}"\n', limits="connect_timeout = 1\n") as place:
            begun = time.time()
            status, fields, _ = place.get()
            check("504, in a second", status == 504 and 0.8 < time.time() - begun < 6, (status, time.time() - begun, fields))
        for it in held:
            it.close()


@test
def an_origin_that_stops_within_a_body():
    with Place(limits="between_bytes_timeout = 1\n") as place:

        def stops(_):
            yield fresh(b"x" * 1000)[:-500]
            time.sleep(15)

        place.origin.answers = stops
        begun = time.time()
        got = place.raw(PAGE)
        check("its client is told, in a second or two", got.startswith(b"HTTP/1.1 200") and got.endswith(b"x" * 500) and time.time() - begun < 8, (time.time() - begun, got[:200]))
        place.origin.answers = lambda head: fresh()
        check("nothing is stored of it", place.get()[2] == b"page")


@test
def connections_that_are_kept():
    with Place(threads=1, limits="idle_by_origin = 2\n") as place:
        place.origin.answers = lambda head: (time.sleep(0.5), fresh())[1]
        paths = iter(range(100))
        at_once(6, lambda: place.get(f"/{next(paths)}"))
        time.sleep(0.5)
        check("two of six", place.origin.connections == 6 and len(place.origin.open) == 2, (place.origin.connections, len(place.origin.open)))


@test
def an_origin_that_is_down_is_asked_again():
    port = free_port()
    with Place() as place:
        place.write(sites=f'[[site]]\n[[site.origin]]\naddress = "127.0.0.1:{port}"\n[[site.origin]]\naddress = "127.0.0.1:{place.origin.port}"\n')
        place.run.send_signal(signal.SIGHUP)
        time.sleep(0.5)
        got = [place.get(f"/{it}")[0] for it in range(20)]
        begun = time.time()
        check("three failures, and it is passed over", got.count(502) == 3 and got[-10:] == [200] * 10, got)
        up = Origin(port)
        got = [place.get(f"/b{it}")[0] for it in range(20)]
        check("for ten seconds", got == [200] * 20 and not up.heads, (got, up.heads))
        time.sleep(max(0, 11.5 - (time.time() - begun)))
        got = [place.get(f"/c{it}")[0] for it in range(20)]
        check("then it has its turns", got == [200] * 20 and len(up.heads) == 10, (got, len(up.heads)))


@test
def origins_that_are_all_down():
    port = free_port()
    with Place(sites=f'[[site]]\n[[site.origin]]\naddress = "127.0.0.1:{port}"\n') as place:
        got = [place.get(f"/{it}")[0] for it in range(5)]
        up = Origin(port)
        check("are asked all the same", got == [502] * 5 and place.get("/up")[0] == 200 and len(up.heads) == 1, got)


if __name__ == "__main__":
    sys.exit(main(sys.argv[1:]))
