"""The combined and the common format of nginx and Apache, also after a host or a list of addresses."""
import ipaddress
import re

from .records import LENGTHS, Pass, any_time, is_host, log_time, number, own_hit, whole_length

LOGGED = re.compile(
    r'(?P<who>\S.*?) \[(?P<time>\d[^\]]{1,40})\] "(?P<request>(?:[^"\\]|\\.)*)" (?P<status>\d{3}) (?P<bytes>\d+|-)(?: (?P<rest>.*))?$',
    re.ASCII,
)
METHOD = re.compile(r"[A-Za-z_-]+", re.ASCII)
VERSION = re.compile(r"HTTP/[\d.]+", re.ASCII)
WITH_PORT = re.compile(r"[^\s:]+:\d+$", re.ASCII)
BRACKETS = re.compile(r"\[([^\]]+)\](?::\d+)?$")
FOUR_WITH_PORT = re.compile(r"(\d+\.\d+\.\d+\.\d+):\d+$", re.ASCII)

# Most lines as one expression: an address or a list of them, after a host that is no address or alone. The last group has a line that
# isn't such.
ADDRESSES = rb"[0-9a-fA-F.:]+(?:, ?[0-9a-fA-F.:]+)*"
PLAIN = re.compile(
    rb"^(?:(?:(?!unknown )((?=[a-z][a-z0-9.-]*[g-z])[a-z][a-z0-9.-]*(?::\d+)?) )?" + ADDRESSES + rb" - [^\s\"\[,]+ "
    rb"\[(\d\d/\w\w\w/\d{4}:\d\d:\d\d:\d\d [+-]\d{4})\] \"([A-Z]+) ([^\s\"\\]+) HTTP/[\d.]+\" (\d\d\d) (\d+|-)()(?: .*)?"
    rb"|(.*))\n",
    re.MULTILINE,
)
# The same with what stands behind the length.
WITH_REST = re.compile(PLAIN.pattern.replace(b"()(?: .*)?", b"(?: (.*))?"), re.MULTILINE)


def is_address(word):
    if word.lower() == "unknown":
        return True
    found = BRACKETS.match(word) or FOUR_WITH_PORT.match(word)
    try:
        ipaddress.ip_address((found[1] if found else word).split("%")[0])
    except ValueError:
        return False
    return True


def is_client(word):
    """Whether a word is an address, or a list of addresses (X-Forwarded-For), bare or in quotes."""
    return all(is_address(it.strip()) for it in word.strip('"').split(","))


def front_words(who):
    """The words before the time. What is in quotes is one word, and a word that ends with a comma goes on with the next."""
    out, quoted = [], False
    for word in who.split(" "):
        if out and (quoted or out[-1].endswith(",")):
            out[-1] += " " + word
        else:
            out.append(word)
        if word.count('"') % 2:
            quoted = not quoted
    return out


def request_of(text):
    """The method and the target of a request line, or None. One pass, however many blanks a client sends."""
    method, _, rest = text.partition(" ")
    target = rest.strip(" ")
    front, _, last = target.rpartition(" ")
    target = front.rstrip(" ") if VERSION.fullmatch(last) else target
    return (method, target) if METHOD.fullmatch(method) and target else None


def host_in(words):
    """The host that a line begins with, or that stands behind the client (as lighttpd has it), or the empty text. Neither a list nor an address is a host, nor is the dash of a list that is
    lacking. The client is followed by its identity, '-' as a rule, and by its user, whose name may have blanks."""
    if len(words) > 2 and is_host(words[1]) and (is_client(words[0]) or len(words) == 3 and is_host(words[0])):
        return words[1]
    if len(words) < 4 or words[0] == "-" or "," in words[0] or is_client(words[0]):
        return ""
    if words[1:4] == ["-", "-", "-"]:
        return words[0]
    begins = WITH_PORT.match(words[0]) or is_client(words[1]) or (words[1] != "-" and words[2] == "-")
    return words[0] if begins else ""


def host_after(rest):
    """The host that a line ends with, with or without quotes, or None."""
    words = (rest or "").split()
    host = words[-1].strip('"') if words else ""
    return None if host in ("", "-") else host


class Layout:
    """What lines have besides the format's own fields, as most of the first ones show: a host at their end, the word of the cache that
    wrote them (by its place from the end), a Content-Range. `names` says where the host stands."""

    def __init__(self, rules, lines):
        found = [it for it in map(LOGGED.match, lines) if it]
        self.host_last = rules.host_last or most(found, lambda it: is_host(host_after(it["rest"]) or ""), 0.95)
        words = [(it["rest"] or "").replace('"', " ").split() for it in found]
        self.own_at = next((-at for at in range(1, 9) if self.is_own(words, at)), None)
        self.ranged = any(whole_length(it["rest"]) for it in found if it["status"] == "206")
        numbers = [it for it in found if (it["rest"] or "").split(" ")[0].isdigit()]
        # (words of the user agent have no dots between letters)
        within = [at for at in range(2, 9) if most(words, lambda it, at=at: len(it) >= at and is_host(it[-at]), 0.95)]
        self.host_within = next((it[-at] for at in within[:1] for it in words if len(it) >= at), None)
        self.doubt = ("two numbers follow the status, and nothing says which of them is the body's length: name it by --line "
                      "'$remote_addr - $remote_user [$time_local] \"$request\" $status $request_time $body_bytes_sent', or with the two turned round"
                      if found and len(numbers) >= 0.9 * len(found) else None)
        fronts = [front_words(it["who"]) for it in found]
        hosts = sum(bool(host_in(it)) for it in fronts)
        lists = sum(any("," in word for word in it[:2]) for it in fronts)
        self.host_first = 2 * hosts > len(fronts)
        self.urls = most([it["request"] for it in found], lambda it: " http://" in it or " https://" in it, 0.5)
        # a host behind the client: such lines are read one by one
        self.is_odd_front = most(fronts, lambda it: len(it) > 2 and is_host(it[1]) and is_client(it[0]), 0.5)
        told = [what for what, count in (("a host", hosts), ("a list of addresses", lists)) if 2 * count > len(fronts)]
        self.front = " with " + " and ".join(told) + " in front" if told else ""

    @staticmethod
    def is_own(words, at):
        """Whether the words at this place from the end say what the cache did: or a dash, where it did nothing."""
        told = [it[-at] for it in words if len(it) >= at]
        return most(told, lambda it: it == "-" or own_word(it) is not None, 0.95) and most(told, lambda it: own_word(it) is not None, 0.3)

    def key(self):
        """What a key is made of, in words."""
        if self.urls:
            return "the URL"
        if self.host_last:
            return "the host at each line's end, and the target"
        if self.host_first:
            return "host and target"
        seen = f", but for words such as {self.host_within}: if that is one, --line '.. $host ..' takes it" if self.host_within else ""
        return "the target alone: the log names no host" + seen


def most(those, holds, share):
    """Whether that share of them holds, and there are some."""
    return bool(those) and sum(map(holds, those)) >= share * len(those)


def own_word(word):
    """What a word says of the cache that wrote the line: Squid's `combined` has TCP_HIT:HIER_NONE."""
    return own_hit(word.split(":")[0])


def reader(rules, layout):
    def own_of(rest):
        words = (rest or "").replace('"', " ").split() if layout.own_at else ()
        return own_word(words[layout.own_at]) if len(words) >= -(layout.own_at or 0) > 0 else None

    def read(line):
        found = LOGGED.match(line)
        if not found:
            return None
        moment, words = any_time(found["time"]), front_words(found["who"])
        if moment is None or len(words) < 3:
            return None
        asked = request_of(found["request"])
        if not asked:
            return Pass("no request in it")
        host = host_after(found["rest"]) if layout.host_last else host_in(words)
        if host is None:
            return Pass("no host at its end")
        return rules.request(moment, rules.key(host, asked[1]), number(found["bytes"]), asked[0], found["status"],
                             whole_length(found["rest"]), own_of(found["rest"]))
    return read


class Fast:
    """Reads whole blocks of lines. Lines that aren't plain go to the reader of lines, in their order."""

    def __init__(self, rules, layout, slow, counts):
        self.rules, self.slow, self.counts = rules, slow, counts
        self.own_at, self.ranged = layout.own_at, layout.ranged
        self.lines = WITH_REST if layout.own_at or layout.ranged else PLAIN
        self.stamps, self.minutes = {}, {}
        self.methods, self.statuses = ({it.encode() for it in words} for words in (rules.methods, rules.statuses))
        self.plain = b"GET" in self.methods and b"200" in self.statuses and not rules.no_query

    def moment(self, stamp):
        """The moment of a time of the log and its digits, or None; those of the last seconds and minutes are kept."""
        minute = stamp[:17] + stamp[20:]
        base = self.minutes.get(minute)
        if base is None:
            text = stamp.decode()
            base = log_time(text[:18] + "00" + text[20:])
            if len(self.minutes) > 10000:
                self.minutes.clear()
            self.minutes[minute] = base
        second = int(stamp[18:20])
        if base is None or second > 60 or base + second < 0:
            return None
        if len(self.stamps) > 10000:
            self.stamps.clear()
        self.stamps[stamp] = base + second, b"%d " % (base + second)
        return self.stamps[stamp]

    def other(self, found, passed):
        """The key and the size of a request that isn't a plain GET, or None. Counts why it is none."""
        host, _, method, target, status, size, rest, _ = found
        if method not in self.methods:
            passed["method " + method[:16].decode()] += 1
        elif status not in self.statuses:
            passed["status " + status.decode()] += 1
        elif status == b"206" and self.ranged and whole_length(rest.decode("latin-1")) is not None:
            return host + self.cut(target), b"%d" % whole_length(rest.decode("latin-1"))
        elif status in (b"206", b"304") or method == b"HEAD":
            return host + self.cut(target), b"?" + (size if self.rules.parts and status == b"206" and size.strip(b"-0") else b"")
        elif size == b"-":
            passed["no length"] += 1
        else:
            return host + self.cut(target), size
        return None

    def cut(self, target):
        return target.split(b"?")[0] if self.rules.no_query else target

    def own(self, rest):
        """Counts what the cache that wrote the line says of its own answer."""
        words = rest.replace(b'"', b" ").split()
        told = own_word(words[self.own_at].decode("latin-1")) if len(words) >= -self.own_at else None
        if told is not None:
            self.counts.own += 1
            self.counts.own_hits += told

    def __call__(self, block, moments, lines, longest):
        """Adds the requests of a block, which ends with a line feed, to the moments and lines. Counts what is passed over."""
        stamps, plain, digits, passed = self.stamps, self.plain, len(str(longest)), self.counts.passed
        for at, found in enumerate(self.lines.findall(block)):
            host, stamp, method, target, status, size, rest, line = found
            moment = stamps.get(stamp) or (stamp and self.moment(stamp))
            if not moment:
                # where there is no such time, the reader of lines says so
                self.slow(at, line or (stamp and b'- - - [%b] "%b %b" %b %b' % found[1:6]))
                continue
            if plain and status == b"200" and method == b"GET" and size != b"-":
                key = host + target
            else:
                made = self.other(found, passed)
                if made is None:
                    continue
                key, size = made
            if len(size) >= digits and (len(size) > 19 or (size.isdigit() and int(size) > longest)):
                passed[f"longer than {longest}" if longest < LENGTHS - 1 else "length out of range"] += 1
                continue
            if self.own_at:
                self.own(rest)
            moments.append(moment[0])
            lines.append(moment[1] + (key or b"-") + b" " + size + b"\n")
