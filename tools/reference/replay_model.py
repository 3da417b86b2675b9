"""A plain model of tier-replay: a list of what was done, and answers read off it. It shares no code with the program, and is as slow as it
is plain. `random_traces.py` and `test_recency.py` compare the program with it.

    python3 tools/reference/replay_model.py --limit 100 [--watermark W] [--shards N] [--seed S] [--age A] [--wait T] < trace.jsonl

prints what tier-replay has to write."""

import contextlib
import hashlib
import json
import math
import re
import sys
from datetime import datetime, timezone

LAST_MOMENT = 2**63 - 1
TOKEN = set(range(0x21, 0x100)) - {0x7F} - set(b'()<>@,;:\\"/[]?={}')
NAME = TOKEN & set(range(0x80))
VALUE = {9} | set(range(0x20, 0x7F)) | set(range(0x80, 0x100))


# Words of PCG64, whose seed comes from the words of a PCG32.


class Words:
    MULTIPLIER = 0x2360ED051FC65DA44385DF649FCCF645

    def __init__(self, seed):
        state, parts = seed, b""
        for _ in range(8):
            state = (state * 6364136223846793005 + 11634580027462260723) % 2**64
            mixed, turn = (((state >> 18) ^ state) >> 27) % 2**32, state >> 59
            parts += ((mixed >> turn | mixed << (32 - turn)) % 2**32).to_bytes(4, "little")
        self.step = int.from_bytes(parts[16:], "little") | 1
        self.state = (int.from_bytes(parts[:16], "little") + self.step) % 2**128
        self.advance()

    def advance(self):
        self.state = (self.state * self.MULTIPLIER + self.step) % 2**128

    def next(self):
        self.advance()
        turn, word = self.state >> 122, (self.state >> 64 ^ self.state) % 2**64
        return (word >> turn | word << (64 - turn)) % 2**64


# MessagePack, as far as files of the order of use and metas go.


def packed(number):
    if number < 0x80:
        return bytes([number])
    for mark, size in ((0xCC, 1), (0xCD, 2), (0xCE, 4), (0xCF, 8)):
        if number < 256**size:
            return bytes([mark]) + number.to_bytes(size, "big")


def packed_text(text):
    data = text.encode()
    size = len(data)
    if size < 32:
        return bytes([0xA0 | size]) + data
    for mark, width in ((0xD9, 1), (0xDA, 2), (0xDB, 4)):
        if size < 256**width:
            return bytes([mark]) + size.to_bytes(width, "big") + data


def packed_bytes(data):
    size = len(data)
    for mark, width in ((0xC4, 1), (0xC5, 2), (0xC6, 4)):
        if size < 256**width:
            return bytes([mark]) + size.to_bytes(width, "big") + data


def packed_array(count):
    if count < 16:
        return bytes([0x90 | count])
    return b"\xdc" + count.to_bytes(2, "big") if count < 65536 else b"\xdd" + count.to_bytes(4, "big")


def packed_hash(sixteen):
    return packed_array(16) + b"".join(map(packed, sixteen))


def packed_entry(entry):
    """An entry is (primary hash, variance or none, tag, id or none)."""
    primary, variance, tag, number = entry
    key = packed_array(3) + packed_hash(primary) + (b"\xc0" if variance is None else packed_hash(variance)) + packed_text(tag)
    return key if number is None else packed_array(2) + key + packed(number)


def packed_moment(at):
    return packed_array(2) + packed(at) + packed(0)


def packed_internal(meta):
    """The version of a meta, until when it is fresh, when it was created and updated, both windows, no variance, no override, and its origin."""
    moments = packed_moment(meta.until) + packed_moment(meta.created) + packed_moment(meta.updated)
    return packed_array(9) + packed(2) + moments + b"".join(map(packed, meta.windows)) + 2 * b"\xc0" + packed_moment(meta.origin)


def packed_head(meta):
    lines = b"".join(packed_array(2) + packed_text(name) + packed_bytes(value) for name, value in meta.lines)
    return packed_array(2) + packed(meta.status) + packed_array(len(meta.lines)) + lines


class Faulty(Exception):
    pass


class Reader:
    def __init__(self, data):
        self.data, self.at = data, 0

    def take(self, count):
        if self.at + count > len(self.data):
            raise Faulty
        self.at += count
        return self.data[self.at - count : self.at]

    def number(self, most=2**64 - 1):
        mark = self.take(1)[0]
        sizes = {0xCC: 1, 0xCD: 2, 0xCE: 4, 0xCF: 8}
        value = mark if mark < 0x80 else int.from_bytes(self.take(sizes[mark]), "big") if mark in sizes else None
        if value is None or value > most:
            raise Faulty
        return value

    def array(self):
        mark = self.take(1)[0]
        sizes = {0xDC: 2, 0xDD: 4}
        if mark & 0xF0 == 0x90:
            return mark & 15
        if mark not in sizes:
            raise Faulty
        return int.from_bytes(self.take(sizes[mark]), "big")

    def is_nil(self):
        if self.data[self.at : self.at + 1] == b"\xc0":
            self.at += 1
            return True
        return False

    def text(self):
        mark = self.take(1)[0]
        sizes = {0xD9: 1, 0xDA: 2, 0xDB: 4}
        if mark & 0xE0 != 0xA0 and mark not in sizes:
            raise Faulty
        size = mark & 31 if mark not in sizes else int.from_bytes(self.take(sizes[mark]), "big")
        try:
            return self.take(size).decode()
        except UnicodeDecodeError:
            raise Faulty

    def sixteen(self):
        if self.array() != 16:
            raise Faulty
        return bytes(self.number(255) for _ in range(16))

    def key(self, count):
        if count != 3:
            raise Faulty
        return self.sixteen(), None if self.is_nil() else self.sixteen(), self.text()

    def entry(self):
        count = self.array()
        if count == 2:
            key = self.key(self.array())
            return (*key, None if self.is_nil() else self.number())
        return (*self.key(count), None)


# Heads of responses.


class Bad(Exception):
    pass


class Short(Exception):
    pass


class Head:
    """The first line and the header lines at the front of some bytes; `length` is where the body begins."""

    def __init__(self, data, lenient):
        self.data, self.at, self.lenient = data, 0, lenient
        while (byte := self.next()) in b"\r\n":
            if byte == 13 and self.next() != 10:
                raise Bad
        self.at -= 1
        for want in b"HTTP/1.":
            if self.next() != want:
                raise Bad
        if self.next() not in b"01" or self.next() != 32:
            raise Bad
        digits = []
        for _ in range(3):
            digits.append(self.next())
            if digits[-1] not in b"0123456789":
                raise Bad
        self.status = int(bytes(digits))
        self.reason()
        self.lines = []
        while self.line():
            pass
        self.length = self.at

    def next(self):
        if self.at >= len(self.data):
            raise Short
        self.at += 1
        return self.data[self.at - 1]

    def ends(self, byte):
        """Whether this byte, with a line feed after a carriage return, ends a line."""
        if byte == 13 and self.next() != 10:
            raise Bad
        return byte in (10, 13)

    def reason(self):
        byte = self.next()
        if self.ends(byte):
            return
        if byte != 32:
            raise Bad
        while not self.ends(byte := self.next()):
            if byte not in VALUE:
                raise Bad

    def folds(self):
        """Whether the line goes on in the next one. Of the first line too many this isn't asked."""
        if self.lenient and self.at >= len(self.data):
            raise Short
        if len(self.lines) == 256:
            raise Bad
        return self.lenient and self.data[self.at] in b" \t"

    def line(self):
        byte = self.next()
        if self.ends(byte):
            return False
        start = self.at - 1
        while byte in NAME:
            byte = self.next()
        name = self.data[start : self.at - 1]
        if not name:
            raise Bad
        while self.lenient and byte in b" \t":
            byte = self.next()
        if byte != 58:
            raise Bad
        value = bytearray()
        while True:
            while not self.ends(byte := self.next()):
                if byte not in VALUE:
                    raise Bad
                value.append(byte)
            if not self.folds():
                break
            value += b"  " if self.data[self.at - 2] == 13 else b" "
        self.lines.append((name.decode().lower(), bytes(value).strip(b" \t")))
        return True

    def values(self, name):
        return [value for it, value in self.lines if it == name]


def head_of(data):
    """The head at the front, `Short` where more bytes may make one, else `Bad`."""
    try:
        found = Head(data, False)
    except Bad:
        found = Head(data, True)
    if found.status < 100 or any(len(name) > 65535 for name, _ in found.lines):
        raise Bad
    return found


# Directives, and the last moment at which a response is fresh.


def directives(lines):
    found = {}
    for line in lines:
        at, first = 0, True
        while at <= len(line):
            start = None
            if first and at == 0 and line[:1] and line[0] in TOKEN:
                start = 0
            else:
                apart = re.compile(rb"[\t\n\v\f\r ]*[,;][\t\n\v\f\r ]*").match(line, at)
                if apart and apart.end() < len(line) and line[apart.end()] in TOKEN:
                    start = apart.end()
            first = False
            if start is None:
                at += 1
                continue
            end = start
            while end < len(line) and line[end] in TOKEN:
                end += 1
            name, value = line[start:end], None
            if line[end : end + 1] == b"=":
                stop = end + 1
                while stop < len(line) and line[stop] in TOKEN:
                    stop += 1
                quoted = re.compile(rb'"(?:[^"\\]|\\[^\n])*"').match(line, end + 1)
                if stop > end + 1:
                    value, end = line[end + 1 : stop], stop
                elif quoted:
                    value, end = quoted[0], quoted.end()
            with contextlib.suppress(UnicodeDecodeError):
                name.decode()
                found[name.lower()] = value
            at = end
    return found


def seconds(value):
    if len(value) > 1 and value[:1] == value[-1:] == b'"':
        value = value[1:-1]
    try:
        value.decode()
    except UnicodeDecodeError:
        return None
    digits = value[1:] if value[:1] == b"+" else value
    number = 0
    for byte in digits:
        if byte not in b"0123456789":
            return None
        number = number * 10 + byte - 48
        if number > 4294967295:
            return 2147483647
    return number if digits else None


def date(text):
    """The moment that a date in one of three forms tells (RFC 9110, 5.6.7); a year of two digits is 1970 to 2069."""
    for form in ("%a, %d %b %Y %H:%M:%S GMT", "%A, %d-%b-%y %H:%M:%S GMT", "%a %b %d %H:%M:%S %Y"):
        with contextlib.suppress(ValueError):
            read = datetime.strptime(text, form)
            if "%y" in form and read.year < 1970:
                read = read.replace(year=read.year + 100)
            again = read.strftime(form)
            # the third form may pad a day below 10 with a space
            padded = re.sub("^(.{7}) 0", r"\1  ", again) if form.endswith("%Y") else again
            if text in (again, padded) and read.year >= 1970:
                return int(read.replace(tzinfo=timezone.utc).timestamp())
    return 0


def expires(values):
    if len(values) != 1:
        return None
    return date(values[0].decode("ascii", "replace"))


def kept_until(head, now):
    """The last moment at which the response is fresh; none if it may not be kept."""
    found = directives(head.values("cache-control"))
    if b"no-store" in found or b"private" in found and found[b"private"] is None:
        return None
    lifetime = None
    if b"no-cache" in found and found[b"no-cache"] is None:
        lifetime = 0
    elif found.get(b"s-maxage") is not None:
        lifetime = seconds(found[b"s-maxage"])
    elif found.get(b"max-age") is not None:
        lifetime = seconds(found[b"max-age"])
    if lifetime is not None:
        until = now - 1 if lifetime == 0 else now + lifetime
        if until <= LAST_MOMENT:
            return until
    return expires(head.values("expires"))


def windows(found):
    """How long the response may be used stale: while it is revalidated, and after an error."""
    if any(name in found for name in (b"must-revalidate", b"proxy-revalidate", b"s-maxage")):
        return 0, 0
    given = [found.get(name) for name in (b"stale-while-revalidate", b"stale-if-error")]
    return tuple(value and seconds(value) or 0 for value in given)


def listed(found):
    """The names that `private` and `no-cache` list: lines of these aren't kept."""
    names = set()
    for value in (found.get(b"private"), found.get(b"no-cache")):
        if value is not None:
            bare = value[1:-1] if len(value) > 1 and value[:1] == value[-1:] == b'"' else value
            names |= {name.strip(b" \t").lower() for name in bare.split(b",")}
    return names


class Meta:
    """What is kept of a head, how long that is as it is written, and what its body has outside. `origin` is when it came; begun over something stale,
    it has the origin of that. One that confirms something stale has its creation, its origin, and what that has outside."""

    def __init__(self, head, until, now, old=None, confirms=False):
        found = directives(head.values("cache-control"))
        gone = listed(found)
        self.until, self.updated, self.windows = until, now, windows(found)
        self.begin(now, now, 0, old, confirms)
        self.keep(head.status, [line for line in head.lines if line[0].encode() not in gone])

    def begin(self, created, origin, external, old, confirms):
        self.created, self.external = (old.created, old.external) if confirms else (created, external)
        self.origin = old.origin if old else origin

    def keep(self, status, lines):
        self.status, self.lines = status, lines
        self.length = len(packed_internal(self)) + len(packed_head(self))

    def values(self, name):
        return [value for it, value in self.lines if it == name]


class Given(Meta):
    """A head that is kept whole, with what was said of it in place of the judgement by its lines."""

    def __init__(self, head, said, old=None, confirms=False):
        self.until, self.updated, self.windows = said["until"], said["updated"], (said["while"], said["error"])
        self.begin(said["created"], said["provenance"], said["external"], old, confirms)
        self.keep(head.status, head.lines)


RENEWED = ("cache-control", "expires", "cache-tag", "cdn-cache-control", "etag")


class Merged(Meta):
    """The head of a stale response with the lines that one of status 304 sends anew, in the place of those under their names."""

    def __init__(self, old, sent):
        self.status, self.lines = old.status, list(old.lines)
        for name in RENEWED:
            values = sent.values(name)
            if values:
                self.lines = [line for line in self.lines if line[0] != name] + [(name, value) for value in values]


def has_own_body(status):
    """A final response's status that speaks of its own body: with a given meta none other is stored."""
    return status >= 200 and status != 304


def body_length(head):
    if head.status in (204, 304):
        return 0
    values = head.values("content-length")
    if values and re.fullmatch(rb"\+?[0-9]+", values[0]) and int(values[0]) < 2**64:
        return int(values[0])
    return None


# The tier.


class Fault(Exception):
    NUMBERS = {"NoRequest": 1, "IdInUse": 2, "WrongPhase": 3, "Waiting": 4, "AfterEnd": 5, "BadHead": 6, "WriteRemoved": 7, "BeforeEpoch": 8, "Incomplete": 9, "TooHeavy": 11,
               "NotStored": 17}

    def __str__(self):
        return f"fault {self.NUMBERS[self.args[0]]} {self.args[0]}"


class Write:
    def __init__(self, entry, meta):
        self.entry, self.meta, self.data = entry, meta, b""
        self.ended = self.removed = self.flies = self.finished = False

    def weight(self):
        return max(1, len(self.data) + self.meta.length + self.meta.external)


class Permit:
    def __init__(self, since):
        self.since, self.status = since, None


class Request:
    def __init__(self, entry, asks):
        self.entry, self.asks = entry, asks
        self.phase, self.permit, self.wait, self.first, self.waited = "CacheKey", None, None, None, 0
        self.gave_read, self.write, self.reader, self.seen = False, None, None, None


class Reading:
    def __init__(self, write, whole):
        self.write, self.whole, self.place = write, whole, None if whole else 0
        self.data = write.data

    def read(self):
        if self.whole:
            if self.place is None:
                self.place = len(self.data)
                return "bytes " + (self.data.hex() or "-")
            return "end"
        rest = self.write.data[self.place :]
        self.place += len(rest)
        return f"bytes {rest.hex()}" if rest else "end" if self.write.ended or not self.write.flies else "pending"

    def came_whole(self):
        """Whether all came of what was read to its end: else its write was given up before."""
        return self.whole or self.write.ended or self.write.finished


def key_of(entry):
    primary, variance, _, _ = entry
    return primary if variance is None else hashlib.blake2b(primary + variance, digest_size=16).digest()


class Tier:
    def __init__(self, limit, watermark=None, shards=1, seed=0, age=10, wait=None):
        self.limit, self.watermark, self.age, self.wait = limit, watermark, age, wait
        self.words, self.shards = Words(seed), [[] for _ in range(shards)]
        self.bodies, self.flying, self.requests, self.permits = {}, [], {}, {}
        self.found = self.absent = self.evicted = 0

    # The order of use: in each shard rows [entry, weight], latest first.

    def shard_of(self, entry):
        digest = hashlib.blake2b(packed_entry(entry), digest_size=16).digest()
        return self.shards[int.from_bytes(digest[:8], "big") % len(self.shards)]

    def untrack(self, entry):
        rows = self.shard_of(entry)
        gone = [row for row in rows if row[0] == entry]
        rows[:] = [row for row in rows if row[0] != entry]
        return gone

    def fits(self, rows, weight):
        return sum(row[1] for row in rows) + weight <= (2**64 - 1) // len(self.shards)

    def track(self, entry, weight):
        self.untrack(entry)
        rows = self.shard_of(entry)
        if not self.fits(rows, weight):
            self.remove(key_of(entry))
            raise Fault("TooHeavy")
        rows.insert(0, [entry, weight])

    def use(self, entry, weight):
        rows = self.shard_of(entry)
        tracked = any(row[0] == entry for row in rows)
        if not tracked and not self.fits(rows, weight):
            raise Fault("TooHeavy")
        rows.insert(0, self.untrack(entry)[0] if tracked else [entry, weight])

    def reweigh(self, entry, weight):
        rows = self.shard_of(entry)
        if not self.fits([row for row in rows if row[0] != entry], weight):
            raise Fault("TooHeavy")
        mine = [row for row in rows if row[0] == entry]
        if mine:
            mine[0][1] = weight
        else:
            rows.insert(0, [entry, weight])

    def rows(self):
        return [row for rows in self.shards for row in rows]

    def evict(self):
        count = 0
        while sum(row[1] for row in self.rows()) > self.limit or self.watermark is not None and len(self.rows()) > self.watermark:
            n = len(self.shards)
            a, b = self.words.next() % n, self.words.next() % n
            at = b if len(self.shards[b]) > len(self.shards[a]) else a
            while not self.shards[at]:
                at = (at + 1) % n
            entry = self.shards[at].pop()[0]
            if entry[3] is None:
                self.remove(key_of(entry))
            count += 1
        self.evicted += count
        return count

    # What is stored under a key.

    def remove(self, key):
        was = self.shown(key) is not None
        self.bodies.pop(key, None)
        for write in self.flying:
            write.removed |= key_of(write.entry) == key
        return was

    def shown(self, key):
        flying = [it for it in self.flying if key_of(it.entry) == key and not it.removed]
        return flying[0] if flying else self.bodies.get(key)

    def land(self, write):
        write.flies = False
        self.flying.remove(write)

    def finished(self, write):
        self.bodies[key_of(write.entry)] = write
        self.track(write.entry, write.weight())
        return f"finished {len(write.data)} evicted={self.evict()}"

    # Events.

    def request(self, number):
        if number not in self.requests:
            raise Fault("NoRequest")
        return self.requests[number]

    def open(self, at, id, entry, lock):
        if id in self.requests:
            raise Fault("IdInUse")
        self.requests[id] = Request(entry, lock)
        return "opened"

    def ask(self, request, at):
        """Gives a permit, or a wait for the one that waits."""
        key = key_of(request.entry)
        if not request.asks:
            return "none"
        last = self.permits.get(key)
        if last and last.status not in ("dangling", "age-timeout"):
            request.wait, request.first = last, None
            return "read"
        request.permit = self.permits[key] = Permit(at)
        return "write"

    def look(self, at, id):
        request = self.request(id)
        if request.phase not in ("CacheKey", "Stale") or request.permit:
            raise Fault("WrongPhase")
        if request.wait:
            raise Fault("Waiting")
        write = self.shown(key_of(request.entry))
        if write is None:
            self.absent += 1
            lock, request.reader, request.seen = self.ask(request, at), None, None
            request.phase = request.phase if lock == "read" else "Miss"
            request.gave_read = lock == "read"
            return f"absent lock={lock}"
        fresh, whole = write.meta.until >= at, not write.flies
        if whole:
            self.use(request.entry, write.weight())
        self.found += 1
        # what is stale, with its meta then: another request may renew that
        request.seen = None if fresh else (write, write.meta)
        lock = "none" if fresh else self.ask(request, at)
        request.gave_read, request.phase, request.reader = lock == "read", "Hit" if fresh else "Stale", Reading(write, whole)
        return f"found {'fresh' if fresh else 'stale'} {'complete' if whole else 'partial'} lock={lock}"

    def poll(self, at, id):
        request = self.request(id)
        if not request.wait:
            raise Fault("WrongPhase")
        first = at if request.first is None else request.first
        permit, spent = request.wait, max(0, at - first)
        if permit.status is None and max(0, at - permit.since) >= self.age:
            permit.status = "age-timeout"
        outcome = permit.status
        if outcome is None and self.wait is not None and spent >= max(0, self.wait - request.waited):
            outcome = "wait-timeout"
        if outcome is None:
            request.first = first
            return "pending"
        request.wait, request.waited = None, request.waited + spent
        return f"waited {outcome}"

    def release(self, request, status):
        permit, request.permit = request.permit, None
        if permit and permit.status is None:
            permit.status = status
            self.permits.pop(key_of(request.entry))

    def begin(self, at, id, head, said=None):
        request = self.request(id)
        if not (request.phase == "Miss" or request.phase == "Stale" and not request.gave_read):
            raise Fault("WrongPhase")
        try:
            read = head_of(head)
        except (Bad, Short):
            raise Fault("BadHead")
        if read.length != len(head) or said is not None and not has_own_body(read.status):
            raise Fault("BadHead")
        old = request.seen and request.seen[1]
        if said is None:
            until = kept_until(read, at)
            if until is None:
                self.release(request, "give-up")
                request.phase, request.reader = "Disabled", None
                return "uncacheable OriginNotCache"
            if until < 0:
                raise Fault("BeforeEpoch")
        write = Write(request.entry, Meta(read, until, at, old) if said is None else Given(read, said, old))
        write.flies = True
        self.flying.append(write)
        self.release(request, "done")
        request.phase, request.write, request.reader = "Begun", write, Reading(write, False)
        return "begun"

    def revalidate(self, at, id, head, said=None):
        request = self.request(id)
        if request.phase != "Stale" or request.gave_read:
            raise Fault("WrongPhase")
        try:
            sent = head_of(head)
        except (Bad, Short):
            raise Fault("BadHead")
        confirms = sent.status == 304 if said is None else has_own_body(sent.status) and sent.status < 600
        if sent.length != len(head) or not confirms:
            raise Fault("BadHead")
        write, old = request.seen
        if self.bodies.get(key_of(request.entry)) is not write:
            raise Fault("NotStored")
        if said is None:
            merged = Merged(old, sent)
            until = kept_until(merged, at)
            if until is None:
                self.release(request, "give-up")
                request.phase = "RevalidatedNoCache"
                return "uncacheable OriginNotCache"
            if until < 0:
                raise Fault("BeforeEpoch")
        meta = Meta(merged, until, at, old, True) if said is None else Given(sent, said, old, True)
        self.reweigh(request.entry, max(1, len(write.data) + meta.length + meta.external))
        write.meta = meta
        self.release(request, "done")
        request.phase = "Revalidated"
        return f"revalidated evicted={self.evict()}"

    def writing(self, id):
        request = self.request(id)
        if not request.write:
            raise Fault("WrongPhase")
        return request

    def piece(self, at, id, bytes, end):
        write = self.writing(id).write
        if write.ended:
            raise Fault("AfterEnd")
        write.data += bytes
        write.ended = end
        return "written"

    def finish(self, at, id):
        request = self.writing(id)
        write, request.write = request.write, None
        self.land(write)
        if write.removed:
            raise Fault("WriteRemoved")
        write.finished = True
        return self.finished(write)

    def read(self, at, id):
        request = self.request(id)
        if not request.reader:
            raise Fault("WrongPhase")
        return request.reader.read()

    def drop(self, at, id):
        request = self.request(id)
        if request.write:
            self.land(request.write)
        if request.permit:
            request.permit.status = "dangling"
        del self.requests[id]
        return "dropped"

    def purge(self, at, entry):
        if not self.remove(key_of(entry)):
            return "nothing"
        self.untrack(entry)
        return "purged"

    def put(self, at, entry, pieces, said=None):
        data = b"".join(pieces)
        try:
            head = head_of(data)
        except Bad:
            raise Fault("BadHead")
        except Short:
            raise Fault("Incomplete")
        body = data[head.length :]
        if said is not None:
            if not has_own_body(head.status):
                raise Fault("BadHead")
            write = Write(entry, Given(head, said))
            write.data = body
            return self.finished(write)
        length = body_length(head)
        if length is not None and len(body) < length:
            raise Fault("Incomplete")
        until = kept_until(head, at)
        if until is None:
            return "uncacheable OriginNotCache"
        if until < 0:
            raise Fault("BeforeEpoch")
        write = Write(entry, Meta(head, until, at))
        write.data = body if length is None else body[:length]
        return self.finished(write)

    def report(self):
        bodies = self.bodies.values()
        external = min(2**64 - 1, sum(it.meta.external for it in bodies))
        return (
            f"report found={self.found} absent={self.absent} bodies={len(bodies)} bytes={sum(len(it.data) for it in bodies)}"
            f" meta={sum(it.meta.length for it in bodies)} tracked={len(self.rows())} weight={sum(row[1] for row in self.rows())} evicted={self.evicted}"
            + (f" external={external}" if external else "")
        )

    # A folder is a map from names to bytes.

    def load(self, folder):
        for name in [it for it in folder if it.startswith("lru.data") and it.endswith(".tmp")]:
            del folder[name]
        loaded = missing = errored = 0
        for at in range(len(self.shards)):
            data = folder.get(f"lru.data.{at}")
            if data is None:
                missing += 1
            elif self.load_rows(Reader(data)):
                loaded += 1
            else:
                errored += 1
        return f"recency loaded={loaded} missing={missing} errored={errored}"

    def load_rows(self, reader):
        try:
            for _ in range(reader.array()):
                if reader.array() != 2:
                    return False
                entry, weight = reader.entry(), reader.number()
                rows = self.shard_of(entry)
                if any(row[0] == entry for row in rows):
                    continue
                if not self.fits(rows, weight):
                    return False
                rows.append([entry, weight])
            return True
        except Faulty:
            return False

    def save(self, folder):
        for at, rows in enumerate(self.shards):
            folder[f"lru.data.{at}"] = packed_array(len(rows)) + b"".join(packed_array(2) + packed_entry(row[0]) + packed(row[1]) for row in rows)
        return f"recency saved={len(self.shards)} failed=0"


# Lines.


SAID = ("until", "created", "updated", "provenance", "while", "error", "external")
FIELDS = {
    "open": ("at", "id", "key", "tag", "lock"),
    "look": ("at", "id"),
    "poll": ("at", "id"),
    "begin": ("at", "id", "head"),
    "revalidate": ("at", "id", "head"),
    "piece": ("at", "id", "bytes", "end"),
    "finish": ("at", "id"),
    "read": ("at", "id"),
    "drop": ("at", "id"),
    "purge": ("at", "key", "tag"),
    "put": ("at", "key", "tag", "pieces"),
    "begin-given": ("at", "id", "head", *SAID),
    "revalidate-given": ("at", "id", "head", *SAID),
    "put-given": ("at", "key", "tag", "pieces", *SAID),
    "restore": ("at", "digest", "variance", "tag", "pieces", *SAID),
}
EVENTS = {"begin-given": "begin", "revalidate-given": "revalidate", "put-given": "put", "restore": "put"}
USUAL = {"tag": "", "lock": False, "end": False, "while": 0, "error": 0, "external": 0}
# fields that are left out mean what these do
SAME = {"created": "at", "updated": "at", "provenance": "created"}
END = {"while": 2**32, "error": 2**32, "external": 2**62}


class Refused(Exception):
    pass


def whole(text):
    number = int(text)
    return number if text != "-0" and -(2**63) <= number < 2**64 else floating(text)


def floating(text):
    if math.isinf(float(text)):
        raise ValueError
    return float(text)


def depth(value):
    if isinstance(value, list):
        return 1 + max(map(depth, value), default=0)
    return 1 + max(map(depth, value.values()), default=0) if isinstance(value, dict) else 0


def constant(_):
    raise ValueError


def json_of(line):
    try:
        value = json.loads(line.decode(), parse_int=whole, parse_float=floating, parse_constant=constant)
        json.dumps(value, ensure_ascii=False).encode()
    except (ValueError, RecursionError):
        raise Refused("refused NotJson")
    if depth(value) > 127:
        raise Refused("refused NotJson")
    return value


def bytes_of(value):
    return bytes.fromhex(value) if isinstance(value, str) and re.fullmatch("(?:[0-9a-fA-F]{2})*", value) else None


def field(name, value):
    """The value of a field; none where it is bad."""
    if name in ("at", "id", *SAID):
        end = END.get(name, 2**64 if name == "id" else LAST_MOMENT + 1)
        return value if type(value) is int and 0 <= value < end else None
    if name in ("digest", "variance"):
        return bytes_of(value) if isinstance(value, str) and len(value) == 32 else None
    if name == "tag":
        return value if isinstance(value, str) else None
    if name in ("lock", "end"):
        return value if isinstance(value, bool) else None
    if name == "pieces":
        pieces = list(map(bytes_of, value)) if isinstance(value, list) else [None]
        return None if None in pieces else pieces
    return bytes_of(value)


def event_of(line):
    value = json_of(line)
    if not isinstance(value, dict):
        raise Refused("refused NotObject")
    op = value.get("op")
    if not isinstance(op, str) or op not in FIELDS:
        raise Refused("refused Op")
    given = {}
    for name in FIELDS[op]:
        if name == "variance" and name not in value:
            continue
        got = field(name, value[name]) if name in value else given[SAME[name]] if name in SAME else USUAL.get(name)
        if got is None:
            raise Refused(f"refused Field {name}")
        given[name] = got
    if "until" in given:
        given["said"] = {name: given.pop(name) for name in SAID}
    if "key" in given:
        given["entry"] = (hashlib.blake2b(given.pop("key"), digest_size=16).digest(), None, given.pop("tag"), None)
    if "digest" in given:
        given["entry"] = (given.pop("digest"), given.pop("variance", None), given.pop("tag"), None)
    return EVENTS.get(op, op), given


def answer(tier, line):
    try:
        op, given = event_of(line)
        return getattr(tier, op)(**given)
    except (Refused, Fault) as it:
        return str(it)


def lines_of(data):
    lines = data.split(b"\n")
    return lines[:-1] if not lines[-1] else lines


def replay(data, options, folder=None):
    """What is written for the trace; the folder is changed as a run with --recency changes it."""
    tier = Tier(**options)
    lines = [] if folder is None else [tier.load(folder)]
    lines += [answer(tier, line) for line in lines_of(data)]
    lines.append(tier.report())
    if folder is not None:
        lines.append(tier.save(folder))
    return "".join(it + "\n" for it in lines).encode()


def options_of(words):
    options, rest = {}, list(words)
    while rest:
        name, _, value = rest.pop(0).partition("=")
        options[name[2:]] = value or rest.pop(0)
    options.pop("recency", None)
    return {name: int(value) for name, value in options.items()}


if __name__ == "__main__":
    sys.stdout.buffer.write(replay(sys.stdin.buffer.read(), options_of(sys.argv[1:])))
