#!/usr/bin/env python3
"""A way of each kind through examples/loop.py, before an origin that answers by a script. The package and its library are found as anywhere."""

import sys
import unittest

sys.dont_write_bytecode = True

import loop  # noqa: E402
from cache_tier import Tier  # noqa: E402
from cache_tier.rules import Rules  # noqa: E402

PAGE = b'HTTP/1.1 200 OK\r\nCache-Control: max-age=60\r\nETag: "1"\r\nVary: Accept-Language\r\nContent-Length: 4\r\n\r\npage'
ODD = b"HTTP/1.1 404 Not Found\r\nCache-Control: max-age=1\r\nVary: Cookie\r\nContent-Length: 4\r\n\r\ngone"
SAME = b'HTTP/1.1 304 Not Modified\r\nETag: "1"\r\nVary: Accept-Language\r\nCache-Control: max-age=60\r\n\r\n'


class Loop(unittest.TestCase):
    def setUp(self):
        self.rules, self.tier, self.heads, self.answers, self.now = Rules(), Tier(1 << 20), [], PAGE, 1000

    def ask(self, head):
        self.heads.append(head)
        return self.answers, (self.now, 0), (self.now, 0)

    def sent(self, lines="", method="GET"):
        out, body = loop.serves(self.tier, self.rules, f"{method} /a HTTP/1.1\r\nHost: a.example\r\n{lines}\r\n".encode(), (self.now, 0), self.ask)
        return out.status_code, b"".join(bytes(body)[start:end] for _, start, end in out.parts), b"; hit" in out.head

    def test_a_page_is_found_by_its_variant(self):
        german, french = "Accept-Language: de\r\n", "Accept-Language: fr\r\n"
        self.assertEqual([self.sent(it) for it in (german, german, french, german)], [(200, b"page", hit) for hit in (False, True, False, True)])

    def test_an_odd_answer_costs_no_other_a_hit(self):
        self.sent()
        self.answers = ODD
        self.assertEqual(self.sent("Cookie: id=1\r\nCache-Control: no-cache\r\n")[0], 404)
        self.answers, self.now = PAGE, 1002
        self.assertEqual([self.sent(f"Cookie: id={i}\r\n")[2] for i in range(2, 12)], [True] * 10)

    def test_what_is_stale_is_confirmed(self):
        self.sent()
        self.answers, self.now = SAME, 1100
        self.assertEqual([self.sent(), self.sent()], [(200, b"page", False), (200, b"page", True)])
        self.assertIn(b"If-None-Match", self.heads[1])

    def test_a_confirmation_of_another_is_fetched_anew(self):
        self.sent()
        told = iter((SAME.replace(b'"1"', b'"2"'), PAGE.replace(b"page", b"news")))
        self.now, self.ask = 1100, lambda head: (next(told), (1100, 0), (1100, 0))
        self.assertEqual(self.sent(), (200, b"news", False))

    def test_an_unsafe_request_purges(self):
        self.sent()
        self.sent("Content-Length: 0\r\n", "POST")
        self.assertEqual((self.sent()[2], len(self.heads)), (False, 3))


if __name__ == "__main__":
    unittest.main()
