"""The gateway by the package: a miss stored, a hit, a follower, a 304, purges, a stop, unlawful calls, and partitions by threads. CACHE_TIER_LIBRARY names the library,
where it doesn't lie in the package."""
import copy
import gc
import threading
import unittest

from cache_tier import CacheTierError, Digest
from cache_tier.gateway import Counts, Gateway, Gateways

SECRET = b"sixteen random.."
FRESH = b'HTTP/1.1 200 OK\r\nCache-Control: max-age=10\r\nETag: "1"\r\nContent-Length: 4\r\n\r\n'


def get(path, lines=b""):
    return b"GET %b HTTP/1.1\r\nHost: a.example\r\n%b\r\n" % (path, lines)


def sent(out):
    return b"".join(bytes(it) for it in out.pieces)


class Calls(unittest.TestCase):
    def setUp(self):
        self.gateway = Gateway(1000, SECRET)

    def start(self, now, head, of=None):
        of = of or self.gateway
        handle = of.start(now, of.parse_request(head), b"127.0.0.1")
        return handle if isinstance(handle, tuple) else (handle.exchange, handle)

    def stored(self, path=b"/a", now=1000, body=b"page", of=None):
        of = of or self.gateway
        x, out = self.start(now, get(path), of)
        self.assertEqual(out.origin, "send_request")
        out = of.response_head(now, x, FRESH.replace(b"4", b"%d" % len(body)))
        self.assertEqual((out.origin, out.status), ("receive_body", "done"))
        self.assertEqual(of.response_data(now, x, body).used, len(body))
        out = of.poll(now, x)
        self.assertEqual((out.client, sent(out)[-len(body) :]), ("end", body))

    def test_a_head_is_parsed_as_it_comes(self):
        head = get(b"/a")
        self.assertIsNone(self.gateway.parse_request(head[:-1]))
        request = self.gateway.parse_request(head, len(head) - 1)
        self.assertEqual((request.head_len, request.key, request.is_rejected), (len(head), b"http://a.example/a", False))
        self.assertEqual((request.method, request.host, request.target), (b"GET", b"a.example", b"/a"))
        self.assertEqual(request.partition(7), Digest.of(request.key).partition(7))
        with self.assertRaises(TypeError):
            copy.copy(request)
        self.gateway.start(1000, request)
        with self.assertRaisesRegex(ValueError, "was started"):
            self.gateway.start(1000, request)
        bad = self.gateway.parse_request(b"GET / HTTP/1.1\r\nHost : a\r\n\r\n")
        self.assertEqual((bad.is_rejected, bad.key, bad.method, bad.host, bad.target), (True, b"", b"", b"", b""))
        out = self.gateway.start(1000, bad)
        self.assertEqual((out.client, sent(out)[:13]), ("close", b"HTTP/1.1 400 "))

    def test_a_hit_is_one_call(self):
        self.stored()
        _, out = self.start(1002, get(b"/a"))
        self.assertEqual((out.client, out.origin, out.events), ("end", "nothing", [("hit", "fresh")]))
        self.assertTrue(sent(out).endswith(b"\r\n\r\npage"))
        self.assertEqual(self.gateway.exchanges(), 0)

    def test_who_comes_meanwhile_follows(self):
        x, out = self.start(1000, get(b"/a"))
        y, waits = self.start(1000, get(b"/a"))
        self.assertEqual((out.client, waits.client, waits.origin, waits.at), ("wait", "wait", "nothing", (1010, 0)))
        self.assertEqual(self.gateway.response_head(1000, x, b"HTTP/1.1").status, "more")
        out = self.gateway.response_head(1000, x, FRESH + b"pa")
        self.assertEqual((out.used, sorted(out.wakes)), (len(FRESH), [x, y]))
        self.gateway.response_data(1000, x, b"pa")
        out = self.gateway.poll(1000, y)
        self.assertEqual((out.client, out.events), ("wait", [("collapsed", "fresh")]))
        self.assertTrue(sent(out).endswith(b"\r\n\r\npa"))
        self.assertEqual(self.gateway.response_data(1000, x, b"ge").origin, "reusable")
        out = self.gateway.poll(1000, y)
        self.assertEqual((out.client, sent(out)), ("end", b"ge"))

    def test_what_it_holds_is_told(self):
        self.assertEqual(self.gateway.counts(), Counts(exchanges=0, weight=0, tracked=0))
        self.stored()
        one = self.gateway.counts()
        self.stored(b"/b", body=b"x" * 1000)
        self.start(1000, get(b"/c"))
        two = self.gateway.counts()
        self.assertEqual((one.exchanges, one.tracked, two.exchanges, two.tracked), (0, 1, 1, 2))
        self.assertTrue(one.weight >= 4 and two.weight >= one.weight + 1000, (one, two))
        with self.assertRaises(AttributeError):
            two.weight = 0
        self.gateway.purge(b"http://a.example/b")
        self.assertEqual(self.gateway.counts(), one._replace(exchanges=1))
        self.gateway.close()
        with self.assertRaisesRegex(ValueError, "closed"):
            self.gateway.counts()

    def test_a_304_renews(self):
        self.stored()
        x, out = self.start(1020, get(b"/a"))
        self.assertIn(b'\r\nIf-None-Match: "1"\r\n', out.to_origin)
        out = self.gateway.response_head(1020, x, b'HTTP/1.1 304 Not Modified\r\nETag: "1"\r\nCache-Control: max-age=10\r\n\r\n')
        self.assertIn(("freshened", bytes(Digest.of(b"http://a.example/a"))), out.events)
        out = self.gateway.poll(1020, x)
        self.assertEqual((out.client, sent(out)[-4:]), ("end", b"page"))
        self.assertEqual(self.start(1025, get(b"/a"))[1].events, [("hit", "fresh")])

    def test_what_is_purged_in_flight_is_not_stored(self):
        x, _ = self.start(1000, get(b"/a"))
        self.assertIs(self.gateway.purge(b"http://a.example/a").found, False)
        self.assertIn(("relayed", 200), self.gateway.response_head(1000, x, FRESH).events)
        self.gateway.response_data(1000, x, b"page")
        self.assertIn(b"detail=purged", sent(self.gateway.poll(1000, x)))
        self.stored()
        self.assertIs(self.gateway.purge(b"http://a.example/a").found, True)
        self.assertEqual(self.gateway.purge(b"http://a.example/ a").status, "bad_argument")

    def test_everything_is_purged(self):
        self.stored()
        x, _ = self.start(1000, get(b"/b"))
        self.assertEqual(self.start(1001, get(b"/a"))[1].events, [("hit", "fresh")])
        out = self.gateway.purge_all(1001)
        self.assertEqual((out.status, out.events), ("done", [("purged_all",)]))
        self.gateway.response_head(1001, x, FRESH)
        self.gateway.response_data(1001, x, b"page")
        self.assertIn(b"detail=purged", sent(self.gateway.poll(1001, x)))
        self.stored(now=1002)
        self.assertEqual(self.start(1003, get(b"/a"))[1].events, [("hit", "fresh")])
        with self.assertRaises(ValueError):
            self.gateway.purge_all((0, 10**9))

    def test_who_asks_after_a_stop_is_told_to_go(self):
        self.stored()
        x, _ = self.start(1000, get(b"/b"))
        self.gateway.stop()
        _, out = self.start(1001, get(b"/a"))
        self.assertEqual(out.client, "close")
        self.assertIn(b"\r\nConnection: close\r\n", sent(out))
        self.gateway.origin_closed(1001, x, "failed")
        out = self.gateway.poll(1001, x)
        self.assertEqual(out.client, "end")
        self.assertNotIn(b"Connection: close", sent(out))
        self.gateway.close()
        with self.assertRaisesRegex(ValueError, "closed"):
            self.gateway.stop()

    def test_an_index_of_vary_is_told(self):
        x, _ = self.start(1000, get(b"/v", b"Accept: x\r\n"))
        out = self.gateway.response_head(1000, x, FRESH.replace(b"ETag", b"Vary: Accept\r\nETag"))
        self.assertIn(("vary_index", bytes(Digest.of(b"http://a.example/v"))), out.events)
        self.gateway.response_data(1000, x, b"page")
        self.assertEqual(self.start(1001, get(b"/v", b"Accept: x\r\n"))[1].events, [("hit", "fresh")])
        self.assertEqual(self.start(1001, get(b"/v", b"Accept: y\r\n"))[1].origin, "send_request")

    def test_what_is_lent_stays(self):
        body = bytes(range(256)) * 1000
        self.stored(body=body)
        _, out = self.start(1001, get(b"/a"))
        view = out.pieces[1][5:]
        self.assertIsInstance(view, memoryview)
        self.assertTrue(view.readonly)
        self.gateway.purge(b"http://a.example/a")
        self.gateway.close()
        del out
        gc.collect()
        self.assertEqual(view, body[5:])
        with self.assertRaisesRegex(ValueError, "closed"):
            self.gateway.poll(1001, 1)

    def test_a_body_goes_to_the_origin(self):
        x, out = self.start(1000, b"POST /b HTTP/1.1\r\nHost: a.example\r\nTransfer-Encoding: chunked\r\n\r\n")
        self.assertTrue(out.body_follows)
        out = self.gateway.request_data(1000, x, b"5\r\nhello\r\n0\r\n\r\nGET")
        self.assertEqual((out.used, out.last, out.origin), (15, True, "send_data"))
        self.assertIn(b"hello", out.to_origin)
        out = self.gateway.response_head(1000, x, b"HTTP/1.1 204 No Content\r\nLocation: /c\r\n\r\n")
        self.assertEqual(out.purges[0], b"http://a.example/b")

    def test_unlawful_calls_change_nothing(self):
        x, _ = self.start(1000, get(b"/a"))
        self.assertEqual(self.gateway.poll(1000, x + 1).status, "no_exchange")
        self.assertEqual(self.gateway.response_data(1000, x, b"x").status, "wrong_phase")
        self.assertEqual(self.gateway.request_data(1000, x, b"x").status, "wrong_phase")
        self.assertEqual(self.gateway.exchanges(), 1)
        for wrong in (-1, (0, 10**9), 2**63):
            with self.assertRaises(ValueError):
                self.gateway.poll(wrong, x)
        for wrong in (-1, 2**64 + x, "1", None):
            with self.assertRaises(ValueError):
                self.gateway.poll(1000, wrong)
        with self.assertRaisesRegex(ValueError, "none of clean"):
            self.gateway.origin_closed(1000, x, "ended")
        self.gateway.client_closed(1000, x)
        self.gateway.origin_closed(1000, x, "failed")
        self.assertEqual(self.gateway.exchanges(), 0)

    def test_wrong_options(self):
        for options in ({"secret": b"short"}, {"max_bytes": -1}, {"settings": "nothing: like it"}, {"no_option": 1}, {"lock_age": 2**63}):
            with self.assertRaises(ValueError, msg=options):
                Gateway(1000, **{"secret": SECRET, **options})
        with self.assertRaises(ValueError):
            Gateways(0, 1000)
        self.assertEqual(CacheTierError(13).kind, "Memory")


class Partitions(Calls):
    def test_what_another_partition_has_goes_before_the_answer(self):
        of = Gateways(3, 1000, SECRET)
        for i in range(8):
            self.stored(b"/%d" % i, of=of)
        for i in range(8):
            x, out = self.start(1001, b"POST /x HTTP/1.1\r\nHost: a.example\r\nContent-Length: 0\r\n\r\n", of)
            of.response_head(1001, x, b"HTTP/1.1 201 Created\r\nLocation: /%d\r\nContent-Length: 0\r\n\r\n" % i)
            self.assertEqual(of.poll(1001, x).client, "end")
            self.assertEqual(self.start(1001, get(b"/%d" % i), of)[1].origin, "send_request")
        held = [of.counts(it) for it in range(3)]
        self.assertEqual((sum(it.tracked for it in held), sum(it.exchanges for it in held)), (0, of.exchanges()))
        for wrong in (-1, 3, "0"):
            with self.assertRaises(ValueError):
                of.counts(wrong)
        self.assertIs(of.purge(b"http://a.example/1").found, False)
        self.assertEqual(of.poll(1000, (3, 1)).status, "no_exchange")
        self.assertEqual(of.purge_all(1001).status, "done")
        of.stop()
        for i in range(8):
            x, out = self.start(1001, get(b"/%d" % i), of)
            self.assertEqual(out.origin, "send_request")
            of.origin_closed(1001, x, "failed")
            self.assertEqual(of.poll(1001, x).client, "close")
        with self.assertRaises(ValueError):
            of.poll(1000, (-1, 1))
        of.close()

    def test_nothing_is_given_while_others_are_purged(self):
        of = Gateways(2, 1000, SECRET)
        handle, out = of.start(1000, of.parse_request(get(b"/a")))
        of.response_head(1000, handle, FRESH + b"page")
        part = of._parts[handle[0]]
        part._purging[handle[1]] = False  # as while a call of another thread purges
        out = of.poll(1000, handle)
        self.assertEqual((out.status, out.client, out.pieces), ("done", "wait", []))
        self.assertIs(part._purged(handle[1]), True)
        self.assertNotEqual(of.poll(1000, handle).pieces, [])

    def test_by_threads(self):
        of, wrong = Gateways(4, 1000, SECRET), []

        def asks(seed):
            for i in range(300):
                path = b"/%d" % ((i * seed) % 40)
                x, out = of.start(1000, of.parse_request(get(path)))
                while out.client == "wait":
                    if out.origin == "send_request":
                        of.response_head(1000, x, FRESH)
                        of.response_data(1000, x, b"page")
                    out = of.poll(1000, x)
                    if out.status != "done":
                        wrong.append(out.status)
                        return
                if out.client != "end":
                    wrong.append(out.client)

        threads = [threading.Thread(target=asks, args=(seed,)) for seed in (1, 3, 7, 11)]
        [it.start() for it in threads]
        [it.join() for it in threads]
        self.assertEqual(wrong, [])
        self.assertEqual(of.exchanges(), 0)


if __name__ == "__main__":
    unittest.main()
