"""A cache by a lifetime, and one by HTTP's rules: a hit is served, a miss is fetched and stored. The origin is made up."""
from cache_tier import Meta, Tier
from cache_tier.rules import Exchange, Rules

tier, rules, fetches = Tier(max_bytes=1 << 30), Rules(), []


def fetch(name, control):
    fetches.append(name)
    return f"HTTP/1.1 200 OK\r\nCache-Control: {control}\r\nContent-Length: 5\r\n\r\n".encode(), b"hello"


def load(url, now):
    stored = tier.get(now, url)
    if stored:  # a hit
        return bytes(stored.body)
    head, body = fetch(url.decode(), "private")  # a miss
    tier.put(now, url, head, body, Meta.ttl(now, 60))
    return body


def load_by_rules(data, now, control):
    request = rules.parse_request(data)
    stored = tier.get(now, request.key)
    if stored and rules.decide_reuse(request, stored, now) == "fresh":
        return bytes(stored.body)
    head, body = fetch(request.target.decode(), control)
    exchange = Exchange(request, rules.parse_response(head, now), now, now)
    decision = rules.decide_store(exchange)
    if decision.store:
        tier.put(now, request.key, decision.head, body, decision.meta)
    return body


for now in (1000, 1059, 1060):
    assert load(b"/a", now) == b"hello"
    for path, control in (("/r", "max-age=60"), ("/p", "private")):
        assert load_by_rules(f"GET {path} HTTP/1.1\r\nHost: a.example\r\n\r\n".encode(), now, control) == b"hello"
print(" ".join(f"{it}: {fetches.count(it)} fetches" for it in ("/a", "/r", "/p")))
