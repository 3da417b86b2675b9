"""Bodies that are too large, look-ups of what is stale, and heads with metadata."""
import unittest

from cache_tier import CacheTierError, Meta, Partitions, Tier

HEAD = b"HTTP/1.1 200 OK\r\nCache-Control: max-age=60\r\nContent-Length: 5\r\n\r\n"
PLAIN = b"HTTP/1.1 200 OK\r\n\r\n"


class Bounds(unittest.TestCase):
    def setUp(self):
        self.tier = Tier(max_bytes=1 << 20, lru_shards=4, eviction_seed=1)

    def test_a_body_past_the_limit_evicts_nothing(self):
        # In one tier, and in sixteen, where a share is a sixteenth.
        for count in (1, 16):
            with Partitions(100_000, count) as tiers:
                for at in range(50):
                    tiers.put(1000, b"/%d" % at, PLAIN, b"x" * 500, Meta(2000))
                before = tiers.weight()
                self.assertEqual((before[1], before), (50, (tiers.stats().weight, tiers.stats().entries)))
                for body, outside in ((b"x" * 150_000, 0), (b"", 150_000)):
                    with self.assertRaisesRegex(CacheTierError, "BodyTooLarge"):
                        tiers.put(1000, b"/large", PLAIN, body, Meta(2000, external_bytes=outside))
                with tiers.open(b"/large", lock=True) as one, tiers.open(b"/large") as two:
                    one.lookup(1000)
                    with self.assertRaisesRegex(CacheTierError, "BodyTooLarge"):
                        one.begin(1000, PLAIN, Meta(2000, external_bytes=150_000))
                    self.assertIsNone(one.begin(1000, PLAIN, Meta(2000)))
                    one.write(b"some")
                    two.lookup(1000)
                    with self.assertRaisesRegex(CacheTierError, "BodyTooLarge"):
                        one.write(b"x" * 150_000, last=True)
                    one.close()
                    self.assertEqual((two.read(), two.read()), (b"some", "given-up"))
                self.assertEqual((tiers.weight(), tiers.stats().evicted), (before, 0))
        with Tier(max_bytes=100_000, max_body_bytes=None, lru_shards=1) as tier:
            tier.put(1000, b"/a", PLAIN, b"x", Meta(2000))
            self.assertEqual(len(tier.put(1000, b"/large", PLAIN, b"x" * 150_000, Meta(2000)).evicted), 2)

    def test_what_is_fresh_is_found_as_stale(self):
        self.tier.put(1000, b"/a", HEAD, b"hello", Meta(1060))
        self.tier.open(1, b"/a", lock=True)
        with self.assertRaisesRegex(CacheTierError, "WrongPhase"):
            self.tier.lookup_stale(1)
        self.tier.open(2, b"/a")
        found, *look = self.tier.lookup_stale(2)
        self.assertEqual((look, found.status_code, found.body_len, found.body), ([False, True, "none"], 200, 5, b""))
        with Partitions(1 << 20, 2) as tiers, tiers.open(b"/b", lock=True) as one, tiers.open(b"/b", lock=True) as two, tiers.open(b"/b") as three:
            self.assertEqual((one.lookup(1000).permit, two.lookup(1000).permit), ("write", "wait"))
            self.assertEqual(three.lookup_stale(), (None, False, False, "none"))
            self.assertEqual(two.poll(1010), "age-timeout")

    def test_metadata_goes_with_a_head_that_has_its_own_body(self):
        no = b"HTTP/1.1 304 Not Modified\r\n\r\n"
        with self.assertRaisesRegex(CacheTierError, "BadHead"):
            self.tier.put(1000, b"/a", no, b"token", Meta(2000))
        self.tier.put(1000, b"/a", PLAIN, b"token", Meta(2000, external_bytes=700))
        self.assertEqual([it.external_bytes for shard in range(4) for it in self.tier.lru_entries(shard)], [700])
        self.tier.open(1, b"/a")
        self.tier.lookup(2001, 1)
        with self.assertRaisesRegex(CacheTierError, "BadHead"):
            self.tier.revalidate(2001, 1, no, Meta(3000))
        self.assertEqual(self.tier.revalidate(2001, 1, PLAIN, Meta(3000)), [])
        self.assertEqual(self.tier.get(3000, b"/a").status_code, 200)


if __name__ == "__main__":
    unittest.main()
