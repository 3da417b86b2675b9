"""The package's gateway, by the calls that replay.py writes down: what it answers to each, as the program does. So the face in C, which it calls, and its own are
compared with the reference too."""

from cache_tier import CacheTierError
from cache_tier.gateway import Gateway
from cache_tier.tables import OPTION_FLAGS, RULES_DEFAULTS

LIMITS = ("max_bytes lock_age lock_timeout max_exchanges max_body_bytes max_relay_bytes max_unread max_interim_responses first_byte_timeout"
          " between_bytes_timeout max_predicted predicted_seconds max_tail").split()
OF_BYTES = ("request_data", "response_head", "response_data")


def opened(line):
    """A gateway by its line."""
    flags, *numbers = line["numbers"]
    names = [it for it in RULES_DEFAULTS if it not in OPTION_FLAGS]
    options = {it: bool(flags >> bit & 1) for bit, it in enumerate(OPTION_FLAGS)}
    options.update(zip(names, numbers), hash_seed=0, **dict(zip(LIMITS, line["limits"])))
    return Gateway(tuple(line["started"]), bytes.fromhex(line["secret"]), line["words"], **options)


def event(it):
    """An event as the program writes it: keys by their digits, reasons by their numbers."""
    name, *more = it
    return [name, *(part.hex() if isinstance(part, bytes) else part for part in more)]


def told(out, reasons):
    events = [event(it) for it in out.events]
    for it in events:
        if it[0] == "generated":
            it[2] = reasons.get(it[2], it[2])
    return {"status": out.status, "exchange": out.exchange, "used": out.used, "client": out.client, "data": b"".join(bytes(it) for it in out.pieces).hex(),
            "origin": out.origin, "to_origin": out.to_origin.hex(), "body_follows": out.body_follows, "last": out.last, "found": out.found,
            "at": list(out.at) if out.at else None, "wakes": out.wakes, "evicted": [it.hex() for it in out.evicted], "purges": [it.hex() for it in out.purges],
            "events": events}


def answered(gateway, line, reasons):
    """What one call answers."""
    name, data = line["call"], bytes.fromhex(line.get("bytes", ""))
    now = tuple(line.get("now", (0, 0)))
    if name == "parse":
        return {"status": "more" if gateway.parse_request(data, line["looked"]) is None else "done"}
    if name == "start":
        request = gateway.parse_request(data)
        out = gateway.start(now, request, bytes.fromhex(line["peer"]))
    elif name in ("purge", "purge_key"):
        out = getattr(gateway, name)(data)
    elif name == "purge_all":
        out = gateway.purge_all(now)
    elif name == "stop":
        gateway.stop()
        return {"status": "done"}
    elif name in OF_BYTES:
        out = getattr(gateway, name)(now, line["exchange"], data)
    elif name == "origin_closed":
        out = gateway.origin_closed(now, line["exchange"], line["why"])
    else:
        out = getattr(gateway, name)(now, line["exchange"])
    return told(out, reasons)


def replayed(lines, reasons):
    """What all calls answer, one after the other."""
    gateway, answers = None, []
    for line in lines:
        if line["call"] == "open":
            try:
                gateway = opened(line)
                answers.append({"status": "done"})
            except (ValueError, CacheTierError):
                answers.append({"status": "bad_argument"})
        else:
            answers.append(answered(gateway, line, reasons))
    return answers
