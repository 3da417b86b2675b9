"""The rules and the tier, by the names under which the gateway calls them. What the library beneath doesn't have yet is made up here in a few lines;
each such place is marked NOT YET, with what replaces it."""

import types

from cache_tier import CacheTierError, Meta, rules
from cache_tier import Tier as LibraryTier

MEMORY = CacheTierError(13).kind
VARY_INDEX_STATUS = rules.VARY_INDEX_STATUS
CONDITIONS = (b"if-none-match", b"if-modified-since")  # those to which a 304 is the answer
head_end, Rejected = rules.head_end, rules.RejectedError


def values(fields, name):
    """The values of a field, by the lines of a block."""
    fields = bytes(fields)
    if name not in fields.lower():
        return []
    lines = (line.partition(b":") for line in fields.split(b"\r\n"))
    return [value.strip() for it, _, value in lines if it.strip().lower() == name]


class RequestHead:
    def __init__(self, it, error_code=0, reason=""):
        self.raw, self.plan, self.rejected = it, it.plan, error_code != 0
        self.error_code, self.reason = error_code or it.error_code, reason or it.reason
        self.head_len, self.minor_version, self.key, self.method, self.fields = it.head_len, it.minor_version, it.key, it.method, it.fields
        self.framing, self.flags = it.framing, it.flags


class ResponseHead:
    def __init__(self, it, head, request_is_head, came):
        self.raw, self.head, self.args = it, head, (request_is_head, came)
        self.head_len, self.status_code, self.fields, self.framing = it.head_len, it.status_code, it.fields, it.framing
        self.flags = it.flags


class Message:
    """What is sent: its head, the parts of its body, what follows them."""

    def __init__(self, it, detail="", closes=False):
        self.head, self.parts, self.tail, self.status_code = it.head, list(it.parts), it.tail, it.status_code
        self.framing, self.flags = it.framing, it.flags
        if detail:  # in its own member of Cache-Status, which is the last one
            front, _, behind = self.head.rpartition(b"detail=unstored")
            self.head = front + b"detail=" + detail.encode() + behind
        if closes and "connection-close" not in self.flags:  # NOT YET: an answer of the proxy's own that closes
            self.head = self.head[:-2] + b"Connection: close\r\n\r\n"
            self.flags |= {"connection-close"}


class StoreDecision:
    def __init__(self, it):
        self.raw, self.shown, self.store, self.reason = it, it, it.store, it.reason
        self.head, self.meta, self.fields = it.head, it.meta, bytes(it.fields)
        self.purge, self.predicts_uncacheable, self.other = it.purge, it.predicts_uncacheable, False


class VaryIndex:
    head = b"HTTP/1.1 600 List\r\n\r\n"

    def __init__(self, is_new, body, place, now):
        self.is_new, self.body, self.place = is_new, body, place
        self.meta = Meta((now[0] + 31535999, 999999999), now)


class Rules:
    """The rules with their options. `secret`: bytes, of which boundaries and tokens are made."""

    def __init__(self, secret=b"", settings="", **numbers):
        self.secret, self.numbers = secret, numbers
        self.rules = rules.Rules(f"{settings}\nsecret: {secret.hex()}" if secret else settings, **numbers)
        self.one_range = rules.Rules(settings, **{**numbers, "max_ranges": 1})
        self.max_head_bytes = numbers.get("max_head_bytes", 65536)

    def parse_request(self, data):
        try:
            return RequestHead(self.rules.parse_request(data))
        except Rejected as it:
            return RequestHead(it.request, it.status_code, it.reason)

    def parse_response(self, request_is_head, came, data):
        """The head; or why it doesn't read."""
        try:
            it = self.rules.parse_response(data, came, request_is_head)
            return ResponseHead(it, bytes(data[: it.head_len]), request_is_head, came), ""
        except Rejected as refused:
            return None, refused.reason

    def url_key(self, url):
        """The first key of a URL as people write it; none, and why, of one that can't be read."""
        text = url.partition(b"#")[0]
        if any(it <= 32 or it == 127 for it in text):
            return None, "bad-target"
        text = text if b"://" in text else (b"https" if self.numbers.get("https") else b"http") + b"://" + text
        host = text.partition(b"://")[2].partition(b"/")[0].partition(b"?")[0]
        try:
            it = self.rules.parse_request(b"GET %b HTTP/1.1\r\nHost: %b\r\n\r\n" % (text, host))
        except Rejected as refused:
            return None, refused.reason
        return (it.key, "") if it is not None and it.key else (None, "bad-target")

    def secondary_keys(self, request, index):
        """One key for each set of a Vary index."""
        return self.rules.secondary_keys(request.raw, bytes(index))

    def update_vary_index(self, response, now, index, token):
        """The index under which a response is stored, and whether it is new; None: it is stored under the first key."""
        it = self.rules.update_vary_index(response.raw, now, bytes(index), token)
        if it.store:
            return VaryIndex(True, it.body, 0, now)
        return VaryIndex(False, bytes(index), it.place, now) if index else None

    def decide_reuse(self, request, stored, now):
        return self.rules.decide_reuse(request.raw, stored, now)

    def stale_on_error(self, request, stored, now, origin_status):
        """Whether what is stale answers in the place of an error; 0: nothing came."""
        return stored is not None and self.rules.stale_on_error(request.raw, stored, now, origin_status).serve_stale

    def error_status(self, request, stored, now):
        """Where nothing came, and what is stored doesn't answer: 504 where that must be validated (RFC 9111, 5.2.2.2), else 502."""
        return (stored is not None and self.rules.stale_on_error(request.raw, stored, now).status_code) or 502

    def forward_request(self, request, fetch, stored=None, peer=b""):
        it = self.rules.forward_request(request.raw, fetch, stored, peer)
        made = Message(it)
        made.fetch = it.fetch
        made.is_conditional = any(values(made.head, name) for name in CONDITIONS)
        made.has_range = bool(values(made.head, b"range"))
        return made

    def decide_store(self, request, request_is_head, response, asked, came, stored, index):
        return StoreDecision(self.rules.decide_store(rules.Exchange(request.raw, response.raw, asked, came, request_is_head, bytes(index)), stored))

    def freshen(self, request, stored, body_len, response, asked, came, index):
        it = self.rules.freshen(rules.Exchange(request.raw, response.raw, asked, came), stored, None if response.status_code == 304 else body_len)
        if it.mismatch:
            return types.SimpleNamespace(other=True, store=False, purge=it.purge)
        return StoreDecision(it)

    def serve_stored(self, request, stored, body_len, now, status, in_flight=False):
        """The answer of what is stored. Several ranges of what is in flight are answered by the whole."""
        detail, how = told_as(status)
        by = self.one_range if in_flight or not self.secret else self.rules
        return Message(by.serve_stored(request.raw, stored, body_len, now, how), detail)

    def relay_response(self, request, response, asked, came, status, fetch="pass", has_range=False):
        """The head of a response that isn't stored. A whole one answers the client's own conditions and Range, where these didn't go along."""
        detail, how = told_as(status)
        if fetch != "pass" and not has_range:
            how["fetch"] = fetch
        return Message(self.rules.relay_response(rules.Exchange(request.raw, response.raw, asked, came), how), detail)

    def make_response(self, request, status_code, reason, now, closes=False):
        known = reason if reason in rules.REASONS.values() else "no-answer"
        return Message(self.rules.make_response(request.raw, status_code, known, now), closes=closes)

    def invalidated_keys(self, request, response):
        return self.rules.invalidated_keys(request.raw, response.raw)

    def decoder(self, framing):
        return rules.BodyDecoder(framing, self.max_head_bytes)


def told_as(status):
    """A detail that the library has no number for, and the rest by the library's names."""
    status = dict(status)
    detail = status.get("detail", "")
    is_known = not detail or detail in rules.REASONS.values()
    return ("", status) if is_known else (detail, {**status, "detail": "unstored"})


class Tier(LibraryTier):
    """A tier with one LRU list, whose hashes start from nothing."""

    def __init__(self, max_bytes, lock_age, lock_timeout):
        super().__init__(max_bytes, lock_age=lock_age, lock_timeout=lock_timeout, hash_seed=0, lru_shards=1)
