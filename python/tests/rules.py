"""HTTP's rules by the package: a request's way from its bytes to the answer."""
import unittest

from cache_tier import Tier
from cache_tier.rules import BodyDecoder, Exchange, RejectedError, Rules, encode_chunk, head_end

REQUEST = b"GET /a HTTP/1.1\r\nHost: a.example\r\nRange: bytes=1-2\r\n\r\n"
DATE = b"Date: Thu, 01 Jan 1970 00:16:40 GMT\r\n"
RESPONSE = b"HTTP/1.1 200 OK\r\nCache-Control: max-age=60\r\nETag: \"1\"\r\nContent-Length: 5\r\n" + DATE + b"\r\n"


class Way(unittest.TestCase):
    def setUp(self):
        self.rules = Rules("name: me", max_ranges=4)
        self.q = self.rules.parse_request(REQUEST)
        self.r = self.rules.parse_response(RESPONSE, 1000)
        self.first = Exchange(self.q, self.r, 1000, 1000)

    def test_options_are_checked(self):
        with self.assertRaisesRegex(ValueError, "line 2"):
            Rules("name: me\nno-such: x")
        with self.assertRaisesRegex(ValueError, "range"):
            Rules(max_ranges=17)
        with self.assertRaisesRegex(ValueError, "no option: most"):
            Rules(most=1)

    def test_each_option_of_the_page_is_one(self):
        words = "name: me\nsecret: 00112233445566778899AABBCCDDEEFF\ntargeted: cdn-cache-control\nlifetime: 404 60\nhost: a.example\nhost: b.example\nrefuse:\ndrop: x-forwarded-host"
        words += "\nquery-drop: utm_*\nquery-sort: yes\nencodings: br, gzip\ncookie-keep: sid\nresponse-drop: server\nforce-lifetime: 404 60\nforce-private: yes"
        rules = Rules(words, trust_date=False, https=True, normalize_percent=True, stale_if_down=60, max_fields=100, add_x_forwarded_for=True)
        self.assertEqual(rules.parse_request(REQUEST).key, b"https://a.example/a")
        self.assertEqual(rules.parse_request(REQUEST.replace(b"/a ", b"/a?b&utm_x=1&a ")).key, b"https://a.example/a?a&b")
        with self.assertRaises(RejectedError) as refused:
            rules.parse_request(REQUEST.replace(b"a.example", b"c.example"))
        self.assertEqual((refused.exception.status_code, refused.exception.reason), (421, "other-host"))


    def test_names_that_are_none_are_told_with_those_that_are(self):
        for how, text in (
            ({"fwd": ("uri_miss", 200)}, "none, uri-miss, .*, bypass: 'uri_miss'"),
            ({"fwd": "miss"}, "as \\('miss', 200\\): 'miss'"),
            ({"fwd": ("miss", 200), "detail": "no"}, "detail is none of target-too-long, .*, too-busy: 'no'"),
            ({"kept": True}, "and no kept"),
        ):
            with self.assertRaisesRegex(ValueError, text):
                self.rules.relay_response(self.first, how)
        with self.assertRaisesRegex(ValueError, "pass, full, conditional, unconditional: 'validate'"):
            self.rules.forward_request(self.q, "validate")
        with self.assertRaisesRegex(ValueError, "the reason is none of"):
            self.rules.make_response(self.q, 400, "nohost", 1000)

    def test_heads_are_read(self):
        self.assertEqual((head_end(REQUEST + b"rest"), head_end(REQUEST[:20])), (len(REQUEST), 0))
        self.assertIsNone(self.rules.parse_request(REQUEST[:30]))
        q, r = self.q, self.r
        self.assertEqual((q.plan, q.key, q.method, q.host, q.target), ("lookup", b"http://a.example/a", b"GET", b"a.example", b"/a"))
        self.assertEqual((q.framing, q.head_len, r.status_code, r.framing), (("none", None), len(REQUEST), 200, ("length", 5)))
        with self.assertRaises(RejectedError) as refused:
            self.rules.parse_request(b"GET /a HTTP/1.1\r\n\r\n")
        self.assertEqual((refused.exception.status_code, refused.exception.reason), (400, "no-host"))
        out = self.rules.make_response(refused.exception.request, 400, "no-host", 1000)
        self.assertEqual((out.status_code, out.head[:12], out.tail), (400, b"HTTP/1.1 400", b"no-host\n"))

    def test_a_way_through(self):
        rules, q = self.rules, self.q
        self.assertTrue(rules.forward_request(q, "full").head.startswith(b"GET /a HTTP/1.1\r\n"))
        decision = rules.decide_store(self.first)
        self.assertEqual((decision.store, decision.needs_vary_index, decision.meta.fresh_until), (True, False, (1059, 999999999)))
        tier = Tier(1 << 20)
        tier.put(1000, q.key, decision.head, b"hello", decision.meta)
        found = tier.get(1030, q.key)
        told = rules.decide_reuse(q, found, 1030), rules.decide_reuse(q, decision, 1030), rules.decide_reuse(q, found, 1060)
        self.assertEqual(told, ("fresh", "fresh", "after-validation"))
        for stored in (found, decision):
            out = rules.serve_stored(q, stored, 5, 1030)
            self.assertEqual((out.status_code, out.parts, out.framing), (206, [(b"", 1, 3)], ("length", 2)))
        self.assertIn(b"hit", out.head)
        reuse, served = rules.reuse_stored(q, found, 5, 1030)
        out = rules.serve_stored(q, found, 5, 1030)
        self.assertEqual((reuse, served.head, served.parts), ("fresh", out.head, out.parts))
        self.assertEqual(rules.reuse_stored(q, found, 5, 1060), ("after-validation", None))
        sent = rules.forward_request(q, "conditional", found)
        self.assertEqual((b'If-None-Match: "1"' in sent.head, sent.fetch), (True, "conditional"))
        exchange = lambda data, now: Exchange(q, rules.parse_response(data, now), now, now)
        confirmed = exchange(b'HTTP/1.1 304 Not Modified\r\nETag: "1"\r\nCache-Control: max-age=60\r\n\r\n', 1100)
        self.assertEqual(rules.freshen(confirmed, found).meta.created, (1100, 0))
        other = b'HTTP/1.1 304 Not Modified\r\nETag: "2"\r\n\r\n'
        decisions = [rules.freshen(exchange(other, now), found) for now in (1030, 1100)]
        self.assertEqual([(it.store, it.mismatch, it.purge) for it in decisions], [(False, True, False), (False, True, True)])
        error = b"HTTP/1.1 503 Service Unavailable\r\nCache-Control: max-age=60\r\n\r\n"
        decisions = [rules.decide_store(exchange(error, now), found) for now in (1030, 1100)]
        self.assertEqual([(it.store, it.reason, it.purge) for it in decisions], [(False, "stored-is-good", False), (True, "", False)])
        self.assertEqual(rules.stale_on_error(q, None, 1100), (False, 502))
        lenient = Rules(stale_if_error=60)
        kept = lenient.decide_store(self.first)
        self.assertEqual([lenient.stale_on_error(q, kept, now, 503) for now in (1100, 1200)], [(True, None), (False, 502)])
        self.assertIn(b"fwd=uri-miss", rules.relay_response(self.first, {"fwd": ("uri-miss", 200)}).head)

    def test_what_was_fetched_as_a_whole_is_cut(self):
        how = {"fwd": ("uri-miss", 200), "fetch": "full", "connection_close": True}
        out = self.rules.relay_response(self.first, how)
        self.assertEqual((out.status_code, out.parts, out.framing), (206, [(b"", 1, 3)], ("length", 2)))
        self.assertTrue("connection-close" in out.flags and b"Connection: close\r\n" in out.head)
        out = self.rules.relay_response(self.first, {**how, "fetch": "pass"})
        self.assertEqual((out.status_code, out.parts), (200, [(b"", 0, 5)]))
        with self.assertRaisesRegex(ValueError, "pass, full, conditional, unconditional: 'whole'"):
            self.rules.relay_response(self.first, {"fetch": "whole"})

    def test_chunks_are_written_and_read(self):
        body = BodyDecoder(("chunked", None))
        sent = encode_chunk(b"a" * 26) + encode_chunk(b"")
        self.assertEqual(sent, b"1a\r\n" + b"a" * 26 + b"\r\n0\r\n\r\n")
        data, used, over = body.decode(sent)
        self.assertEqual((data, over), (b"a" * 26, False))
        self.assertTrue(body.decode(sent[used:])[2])

    def test_secondary_keys(self):
        rules, q = self.rules, self.q
        head = b"HTTP/1.1 200 OK\r\nVary: Accept\r\nCache-Control: max-age=60\r\nContent-Length: 5\r\n\r\n"
        varies = rules.parse_response(head, 1000)
        self.assertIs(rules.decide_store(Exchange(q, varies, 1000, 1000)).needs_vary_index, True)
        new = rules.update_vary_index(varies, 1000, b"", b"12345678")
        self.assertEqual((new.store, new.place, new.body), (True, 0, b"12345678\naccept\n\n"))
        more = rules.update_vary_index(self.r, 1000, new.body, b"87654321")
        self.assertEqual((more.store, more.body), (True, b"87654321\n\n12345678\naccept\n\n"))
        again = rules.update_vary_index(varies, 1000, more.body, b"00000000")
        self.assertEqual((again.store, again.place), (False, 1))
        self.assertEqual(rules.secondary_keys(q, more.body), [q.key + b"\n87654321\n", q.key + b"\n12345678\naccept\n"])
        old = rules.decide_store(Exchange(q, varies, 1000, 1000, False, more.body))
        moved = [rules.decide_store(Exchange(q, self.r, now, now, False, more.body), old) for now in (1059, 1060)]
        self.assertEqual([(it.store, it.purge, it.needs_vary_index) for it in moved], [(True, False, False), (True, True, False)])
        other = rules.parse_response(b"HTTP/1.1 304 Not Modified\r\nVary: Cookie\r\nCache-Control: max-age=60\r\n\r\n", 1060)
        renewed = rules.freshen(Exchange(q, other, 1060, 1060), old)
        self.assertEqual((renewed.store, renewed.mismatch, renewed.purge), (False, False, True))

    def test_what_is_predicted(self):
        private = self.rules.parse_response(b"HTTP/1.1 200 OK\r\nCache-Control: private\r\n\r\n", 1000)
        cookie = self.rules.parse_request(b"GET /a HTTP/1.1\r\nHost: a.example\r\nCookie: id=1\r\n\r\n")
        told = [self.rules.decide_store(Exchange(q, private, 1000, 1000)) for q in (self.q, cookie)]
        self.assertEqual([(it.reason, it.predicts_uncacheable) for it in told], [("private", True), ("private", False)])

    def test_bodies_and_purges(self):
        post = self.rules.parse_request(b"POST /a HTTP/1.1\r\nHost: a.example\r\nContent-Length: 3\r\n\r\n")
        self.assertEqual((post.plan, post.reason, post.framing), ("pass", "method", ("length", 3)))
        self.assertEqual(self.rules.invalidated_keys(post, self.r), [b"http://a.example/a"])
        whole, left = b"", b"3\r\nabc\r\n0\r\nX: 1\r\n\r\nnext"
        body, over = BodyDecoder(("chunked", None)), False
        while not over:
            came, used, over = body.decode(left)
            whole, left = whole + came, left[used:]
        self.assertEqual((whole, left, body.trailers), (b"abc", b"next", b"X: 1\r\n"))
        with self.assertRaises(RejectedError):
            BodyDecoder(("chunked", None)).decode(b"no\r\n")


if __name__ == "__main__":
    unittest.main()
