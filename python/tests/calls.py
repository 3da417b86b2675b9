"""The calls of the package, one after the other and by threads that share a tier. CACHE_TIER_LIBRARY names the library, where it doesn't lie
in the package."""
import copy
import ctypes
import gc
import pickle
import signal
import sys
import threading
import unittest

import cache_tier
from cache_tier import CacheTierError, Digest, Meta, Partitions, Stored, Tier, raw

HEAD = b"HTTP/1.1 200 OK\r\nCache-Control: max-age=60, stale-if-error=5\r\nContent-Length: 5\r\nX-A: 1\r\n\r\n"
PLAIN = b"HTTP/1.1 200 OK\r\n\r\n"
MINUTE = Meta(1060, 1000, stale_if_error=5)


class Calls(unittest.TestCase):
    def setUp(self):
        self.tier = Tier(max_bytes=1 << 20, lru_shards=4, eviction_seed=1)

    def test_a_hit_ends_with_its_lifetime(self):
        self.assertEqual(self.tier.put(1000, b"/a", HEAD, b"hello", MINUTE), Stored(5, []))
        hit = self.tier.get(1060, b"/a")
        self.assertEqual((hit.body, hit.status_code, hit.fresh_until, hit.created, hit.stale_if_error), (b"hello", 200, (1060, 0), (1000, 0), 5))
        self.assertIn((b"x-a", b"1"), list(hit.iter_fields()))
        self.assertEqual(hit.fields, b"".join(b"%b: %b\r\n" % it for it in hit.iter_fields()))
        self.assertIsNone(self.tier.get(1061, b"/a"))
        self.assertIsNone(self.tier.get(1000, b"/b"))
        for wrong in (None, 60, (1060, 0)):
            with self.assertRaisesRegex(TypeError, "a Meta is wanted"):
                self.tier.put(1000, b"/n", PLAIN, b"", wrong)
        self.assertEqual(self.tier.stats()[:4], (1, 0, 1, 5))

    def test_what_was_found_outlives_all(self):
        self.tier.put(1000, b"/a", HEAD, b"hello", MINUTE)
        found = self.tier.get(1001, b"/a")
        body = found.body
        self.assertTrue(body.readonly)
        self.assertIs(self.tier.purge(b"/a"), True)
        self.assertIs(self.tier.purge(b"/a"), False)
        with self.assertRaises(BufferError):
            found.close()
        part = body[1:3]
        del body, found
        gc.collect()
        self.tier.put(1001, b"/a", HEAD, b"other", MINUTE)
        again = self.tier.get(1001, b"/a")
        self.tier.close()
        self.assertEqual((part, again.body), (b"el", b"other"))
        gc.collect()
        again.close()
        again.close()
        with self.assertRaises(ValueError):
            again.body
        with self.assertRaises(ValueError):
            self.tier.get(1001, b"/a")

    def test_one_writes_and_one_waits(self):
        with Partitions(1 << 20, 2) as tiers, tiers.open(b"/a", lock=True) as one, tiers.open(b"/a", lock=True) as two:
            self.assertEqual(one.lookup(1000), (None, False, False, "write"))
            self.assertEqual(two.lookup(1000), (None, False, False, "wait"))
            self.assertIsNone(two.poll(1000))
            self.assertIsNone(one.begin(1000, HEAD, MINUTE))
            self.assertEqual(two.poll(1001), "done")
            look = two.lookup(1001)
            self.assertEqual((look[1:], look.response.status_code, look.response.body), ((True, False, "none"), 200, b""))
            self.assertIsNone(two.read())
            one.write(b"hel")
            self.assertEqual(two.read(), b"hel")
            one.write(bytearray(b"lo"), last=True)
            self.assertEqual(one.finish(), (5, []))
            self.assertEqual(two.read(), b"lo")
            self.assertEqual(two.read(), "end")
            two.close()
            with self.assertRaises(ValueError):
                two.read()
            self.assertEqual(tiers.get(1002, b"/a").body, b"hello")
            self.assertEqual(tiers.get(1002, Digest.of(b"/a")).body, b"hello")

    def test_a_write_is_given_up(self):
        for key, last, end in ((b"/a", False, "given-up"), (b"/b", True, "end")):
            self.tier.open(1, key)
            self.tier.lookup(1000, 1)
            self.tier.begin(1000, 1, HEAD, MINUTE)
            self.tier.write(1, b"hel", last)
            self.tier.open(2, key)
            self.assertEqual(self.tier.lookup(1000, 2)[1:], (True, False, "none"))
            self.assertIs(self.tier.close_request(1), True)
            self.assertIs(self.tier.close_request(1), False)
            self.assertEqual(self.tier.read(2), b"hel")
            self.assertEqual(self.tier.read(2), end)
            self.assertIsNone(self.tier.peek(key))
            self.tier.close_request(2)
        self.tier.put(1000, b"/a", HEAD, b"hello", MINUTE)
        self.tier.open(1, b"/a")
        self.tier.lookup(1000, 1)
        self.assertEqual((self.tier.read(1), self.tier.read(1)), (b"hello", "end"))

    def test_who_waits_goes_on_where_nothing_is_stored(self):
        with Partitions(1 << 20, 1) as tiers:
            requests = [tiers.open(b"/private", lock=True) for _ in range(40)]
            self.assertEqual([it.lookup(1000).permit for it in requests], ["write"] + ["wait"] * 39)
            requests[0].give_up()
            self.assertEqual({it.poll(1001) for it in requests[1:]}, {"give-up"})
            with self.assertRaisesRegex(CacheTierError, "WrongPhase"):
                requests[0].give_up()
            requests[0].close()
        with self.assertRaisesRegex(CacheTierError, "NoRequest"):
            self.tier.give_up(1)

    def test_a_whole_new_head_renews(self):
        self.tier.put(1000, b"/a", HEAD, b"hello", MINUTE)
        self.tier.open(1, b"/a")
        self.assertEqual(self.tier.lookup(1030, 1)[1:], (True, True, "none"))
        self.tier.close_request(1)
        self.tier.open(1, b"/a")
        self.assertEqual(self.tier.lookup_stale(1)[1:], (False, True, "none"))
        self.assertEqual(self.tier.lookup(1070, 1)[1:3], (False, True))
        self.assertEqual(self.tier.revalidate(1070, 1, PLAIN, Meta(1130)), [])
        self.assertEqual(self.tier.get(1129, b"/a").body, b"hello")

    def test_a_ttl_ends_as_by_max_age(self):
        self.tier.put(1000, b"/a", PLAIN, b"hello", Meta.ttl(1000, 60))
        self.assertEqual([self.tier.get(it, b"/a") is None for it in ((1059, 10**9 - 1), 1060)], [False, True])
        self.assertEqual(Meta.ttl((1000, 500_000_000), 59).fresh_until, (1059, 499_999_999))
        self.tier.put(1000, b"/b", PLAIN, b"hello", Meta.ttl(1000, 0))
        self.assertIsNone(self.tier.get(1000, b"/b"))

    def test_a_given_meta(self):
        given = Meta(2000, created=(900, 5), stale_while_revalidate=7, external_bytes=1000)
        self.assertEqual(self.tier.put(1000, b"/a", PLAIN, b"token", given), (5, []))
        hit = self.tier.get(2000, b"/a")
        self.assertEqual((hit.fresh_until, hit.created, hit.updated, hit.provenance), ((2000, 0), (900, 5), (900, 5), (900, 5)))
        self.assertEqual((hit.stale_while_revalidate, hit.stale_if_error, hit.external_bytes), (7, 0, 1000))
        self.assertEqual((self.tier.stats().external_bytes, self.tier.get(2001, b"/a")), (1000, None))
        for wrong in (Meta(2**63), Meta((1, 10**9)), Meta(1, external_bytes=2**62), Meta(1, stale_if_error=2**32), Meta(1, created=-1)):
            with self.assertRaises(ValueError):
                self.tier.put(1000, b"/a", PLAIN, b"token", wrong)

    def test_keys_by_their_digests(self):
        one, both = Digest.of(b"/a"), Digest(Digest.of(b"/a") + Digest.of(b"x"))
        room = ctypes.create_string_buffer(16)
        raw.loaded().digest(b"/a", 2, room, 16)
        self.assertEqual((room.raw, one.partition(1), one.combined()), (one, 0, one))
        self.assertEqual((Digest(b"\xff" * 16).partition(3), Digest(bytes(15) + b"\x80").partition(3)), (2, 1))
        self.tier.put(1000, both, HEAD, b"hello", MINUTE)
        self.assertIsNone(self.tier.get(1000, one))
        self.assertEqual(self.tier.get(1000, both).body, b"hello")
        self.assertEqual(self.tier.peek(both.combined()).body, b"hello")
        self.assertEqual(sorted(len(it.key) for shard in range(4) for it in self.tier.lru_entries(shard)), [32])
        with self.assertRaises(ValueError):
            Digest(b"1234")

    def test_what_goes_is_told(self):
        with Tier(max_bytes=10**6, max_entries=2, lru_shards=1) as tier:
            for at, name in enumerate((b"/a", b"/b", b"/c")):
                gone = tier.put(1000 + at, name, HEAD, b"hello", MINUTE).evicted
            self.assertEqual(gone, [Digest.of(b"/a")])
            self.assertEqual([it.key for it in tier.lru_entries()], [Digest.of(b"/c"), Digest.of(b"/b")])
            self.assertEqual(tier.peek(b"/c").to_head()[:15], b"HTTP/1.1 200 \r\n")
            self.assertIsNone(tier.peek(b"/a"))

    def test_the_order_of_use_outlives_a_restart(self):
        self.tier.put(1000, b"/a", HEAD, b"hello", MINUTE, user_tag="é")
        saved = self.tier.lru_save()
        self.assertEqual((len(saved), saved.count(None)), (4, 0))
        with Tier(max_bytes=1 << 20, lru_shards=4) as new:
            self.assertEqual(new.lru_restore(saved), (4, 0, 0))
            self.assertEqual((new.stats().entries, new.stats().bodies), (1, 0))
            self.assertEqual([it.user_tag for shard in range(4) for it in new.lru_entries(shard)], ["é"])
            new.put(1000, b"/a", HEAD, b"hello", MINUTE)
            with self.assertRaisesRegex(CacheTierError, "NotNew"):
                new.lru_restore(saved)

    def test_what_is_refused(self):
        with self.assertRaisesRegex(CacheTierError, "BadHead") as caught:
            self.tier.put(1000, b"/a", b"no response\r\n\r\n", b"", MINUTE)
        self.assertEqual((caught.exception.status, caught.exception.body_removed, caught.exception.evicted), (6, False, []))
        with self.assertRaisesRegex(CacheTierError, "NoRequest"):
            self.tier.read(1)
        with self.assertRaisesRegex(CacheTierError, "BadArgument"):
            self.tier.lru_entries(4)
        for moment in (-1, 2**63, 1.5, "1", (1000, 10**9), True):
            with self.assertRaises(ValueError):
                self.tier.put(moment, b"/a", HEAD, b"hello", MINUTE)
        for words in ({"max_bytes": 2**64}, {"max_bytes": 1, "lru_shards": 3}, {"max_bytes": 1, "lock_timeout": -1}):
            with self.assertRaises(ValueError):
                Tier(**words)
        with self.assertRaises(TypeError):
            self.tier.put(1000, "/a", HEAD, b"", MINUTE)

    def test_no_call_within_a_call(self):
        with self.assertRaisesRegex(RuntimeError, "within a call"):
            self.tier._alone(self.tier.stats)
        with self.tier.locked() as it:
            self.assertEqual((it is self.tier, it.stats().found, it.get(1000, b"/a")), (True, 0, None))

    def test_an_exception_of_a_signal_leaves_it_whole(self):
        self.tier.put(1000, b"/a", HEAD, b"hello", MINUTE)

        def stop(*_):
            raise KeyboardInterrupt

        # (a finalizer passes over an exception that comes within it, and tells this)
        told, sys.unraisablehook = sys.unraisablehook, lambda _: None
        was = signal.signal(signal.SIGALRM, stop)
        try:
            for turn in range(300):
                try:
                    signal.setitimer(signal.ITIMER_REAL, 0.0003 + turn % 20 * 0.00007)
                    for _ in range(400):
                        self.tier.get(1000, b"/a")
                    signal.setitimer(signal.ITIMER_REAL, 0)
                except KeyboardInterrupt:
                    pass
        finally:
            signal.setitimer(signal.ITIMER_REAL, 0)
            signal.signal(signal.SIGALRM, was)
            sys.unraisablehook = told
        bodies = []
        other = threading.Thread(target=lambda: bodies.append(bytes(self.tier.get(1000, b"/a").body)), daemon=True)
        other.start()
        other.join(20)
        self.assertEqual((bodies, bytes(self.tier.get(1000, b"/a").body)), ([b"hello"], b"hello"))

    def test_it_is_made_once_and_never_copied(self):
        self.tier.put(1000, b"/a", HEAD, b"hello", MINUTE)
        with Partitions(1 << 20, 2) as tiers, tiers.open(b"/a") as request:
            for it in (self.tier, self.tier._raw, self.tier.get(1000, b"/a"), tiers, request):
                for made in (copy.copy, copy.deepcopy, pickle.dumps):
                    with self.assertRaisesRegex(TypeError, "never copied"):
                        made(it)
            with self.assertRaises(TypeError):
                tiers.__init__(1 << 20, 2)
        with self.assertRaises(TypeError):
            self.tier.__init__(1 << 20)
        self.assertEqual(self.tier.get(1000, b"/a").body, b"hello")

    def test_a_call_that_moves_much_lets_other_threads_go_on(self):
        of, seen = self.tier._raw, []
        holds = lambda export: bool(export._flags_ & 4)  # (of PyDLL: FUNCFLAG_PYTHONAPI)
        self.assertEqual({holds(it) for it in of.library.long.values()}, {False})
        for name in raw.BY_BYTES:
            self.assertTrue(holds(getattr(of.library, name)))

        class Seen(dict):
            def __getitem__(self, name):
                seen.append(name)
                return super().__getitem__(name)

        was, of.library.long = of.library.long, Seen(of.library.long)
        try:
            for length in (raw.MANY - len(PLAIN) - 2, raw.MANY):
                self.tier.put(1000, b"/a", PLAIN, bytes(length), Meta(2000))
            self.tier.get(1000, b"/a")
            self.tier.lru_entries()
        finally:
            of.library.long = was
        self.assertEqual(seen, ["put", "lru_snapshot"])

    def test_threads_share_it(self):
        for shared in (self.tier, Partitions(1 << 20, 4)):
            self.share(shared)

    def share(self, shared):
        wrong = []

        def work(own):
            for turn in range(3000):
                key = b"%d/%d" % (own if turn % 2 else 9, turn % 7)
                body = b"%d" % (turn % 7)
                shared.put(1000, key, b"HTTP/1.1 200 OK\r\nCache-Control: max-age=60\r\nContent-Length: 1\r\n\r\n", body, MINUTE)
                found = shared.get(1001, key)
                if found is None or found.body != body:
                    wrong.append((key, found))
                if turn % 11 == 0 and isinstance(shared, Partitions):
                    with shared.open(key) as request:
                        look = request.lookup(1001)
                        if look.response is None or look.response.status_code != 200 or request.read() != body:
                            wrong.append((key, look))

        threads = [threading.Thread(target=work, args=(own,)) for own in range(4)]
        for it in threads:
            it.start()
        for it in threads:
            it.join()
        self.assertEqual(wrong, [])

    def test_all_names_are_there(self):
        self.assertEqual([it for it in cache_tier.__all__ if not hasattr(cache_tier, it)], [])


if __name__ == "__main__":
    unittest.main()
