"""What a call costs beside much that it has nothing to do with: counted, where that can be."""

import time

from . import gateway as gw
from .values import Limits

T = 1_000_000_000, 0
STORED = b"HTTP/1.1 200 OK\r\nCache-Control: max-age=10\r\nVary: Accept\r\nTransfer-Encoding: chunked\r\n\r\n"


def get(path):
    return b"GET %b HTTP/1.1\r\nHost: h\r\n\r\n" % path


def started(g, data):
    return gw.start(g, T, gw.parse_request(g, data), b"").exchange


def keys_made(count):
    """How many second keys are made as a response is stored, beside so many fetches of other pages."""
    g, made = gw.Gateway(b"s" * 16, T), []
    for i in range(count):
        started(g, get(b"/%d" % i))
    real = g.rules.secondary_keys
    g.rules.secondary_keys = lambda *given: made.append(1) or real(*given)
    x = started(g, get(b"/last"))
    gw.response_head(g, T, x, STORED)
    return len(made)


class Counting:
    def __init__(self, body):
        self.body, self.given = body, 0

    def decode(self, data):
        self.given += len(data)
        return self.body.decode(data)


def bytes_decoded(count):
    """How many bytes are looked at of a request's body of so many chunks of one byte, a chunk."""
    g = gw.Gateway(b"s" * 16, T)
    x = started(g, b"POST /a HTTP/1.1\r\nHost: h\r\nTransfer-Encoding: chunked\r\n\r\n")
    counting = g.open[x].taking = Counting(g.open[x].taking)
    gw.request_data(g, T, x, b"1\r\nx\r\n" * count)
    return counting.given // count


def wake(count):
    """Seconds of a processor that a piece of a body takes which so many read."""
    g = gw.Gateway(b"s" * 16, T, Limits(max_exchanges=count + 1))
    x = started(g, get(b"/a"))
    gw.response_head(g, T, x, STORED)
    for _ in range(count):
        started(g, get(b"/a"))
    began = time.process_time()
    for _ in range(3):
        woken = gw.response_data(g, T, x, b"1\r\nx\r\n").wakes
    assert len(woken) == count + 1, len(woken)
    return time.process_time() - began


def faults():
    """What grows by more than it may."""
    keys, given, few, many = keys_made(100), bytes_decoded(10_000), wake(500), wake(4000)
    told = [f"{keys} second keys beside 100 other fetches"] * (keys > 2) + [f"{given} bytes looked at for a chunk of one"] * (given > 5000)
    return told + [f"{few:.4f} s of 500 readers, {many:.4f} s of 4,000"] * (many > 24 * few)
