"""A short history of a new gateway, told as it goes: for rows by hand."""

import re

from . import gateway as gw
from .values import Limits

T = 1_000_000_000


def rq(line="GET /a", *lines, v="1.1", body=b""):
    return f"{line} HTTP/{v}\r\nHost: h\r\n".encode() + b"".join(it.encode() + b"\r\n" for it in lines) + b"\r\n" + body


def told_event(event):
    words = [it for it in event if it is not False and it is not True]
    return " ".join(str(it.decode() if isinstance(it, bytes) else it) for it in words)


def told_request(head):
    first = head.split(b"\r\n")[0].decode()
    return first + "".join(f" [{a.decode()}: {b.decode()}]" for a, b in re.findall(rb"(?i)(if-none-match|range|if-modified-since): ?([^\r]*)", head))


def told_part(part):
    if not part.startswith(b"HTTP/"):
        return "-> " + repr(part)[1:]
    head, _, body = part.partition(b"\r\n\r\n")
    lines = head.replace(b"\r\n", b"\n")
    status = re.findall(rb"(?im)^cache-status: cache-tier; ?(.*)$", lines)
    more = [it.decode() for it in re.findall(rb"(?im)^(?:connection: close|set-cookie: .*|content-range: .*)$", lines)]
    said = f"-> {head.split(chr(13).encode())[0].decode()[9:]}" + (f" ({status[0].decode()})" if status else "")
    return said + "".join(f" [{it}]" for it in more) + (" " + repr(body)[1:] if body else "")


class Case:
    def __init__(self, name, limits=None, out=print, module=gw, options=None):
        self.gw, self.g, self.t, self.out = module, module.Gateway(b"s", (T, 0), limits or Limits(), **(options or {})), T, out
        self.over, self.follows = set(), {}
        out(f"\n{name}")

    def now(self):
        return self.t, 0

    def show(self, what, x, out):
        told = [out.status] if out.status != "done" else []
        told += [told_event(it) for it in out.events]
        if out.origin == "send_request":
            told.append("SEND_REQUEST " + told_request(out.to_origin))
        elif out.origin == "send_data":
            told.append("SEND_DATA " + repr(out.to_origin)[2:-1])
        elif out.origin != "nothing":
            told.append(out.origin.upper())
        told += [told_part(it) for it in re.split(rb"(?=HTTP/1\.[01] )", b"".join(bytes(it) for it in out.data)) if it]
        if out.client in ("end", "close", "truncated"):
            self.over.add(x)
        if out.client != "nothing":
            told.append(out.client.upper())
        if out.at:
            told.append(f"at +{out.at[0] - T}")
        if out.found:
            told.append("found")
        if out.wakes:
            told.append("wakes " + ",".join(map(str, out.wakes)))
        if out.purges:
            told.append("purges " + ",".join(k.decode() for k in out.purges))
        told = [re.sub(r"\b[0-9a-f]{32}\b", lambda it: "TOKEN", it).replace("\n", "|") for it in told]
        self.out(f"  +{self.t - T:<4d}{what:44s} {'; '.join(told) or 'done'}")
        return out

    def start(self, data=None, label=None):
        data = data or rq()
        q = self.gw.parse_request(self.g, data)
        out = self.gw.start(self.g, self.now(), q, b"192.0.2.1")
        return self.show(f"start {out.exchange} {label or data.split(b' HTTP')[0].decode()}", out.exchange, out)

    def quiet_start(self):
        self.gw.start(self.g, self.now(), self.gw.parse_request(self.g, rq()))

    def poll(self, x):
        if x not in self.over:
            return self.show(f"poll {x}", x, self.gw.poll(self.g, self.now(), x))

    def head(self, x, data, label):
        return self.show(f"response_head {x} {label}", x, self.gw.response_head(self.g, self.now(), x, data))

    def body(self, x, data):
        shown = repr(data)[1:] if len(data) < 40 else f"{len(data)} bytes"
        return self.show(f"response_data {x} {shown}", x, self.gw.response_data(self.g, self.now(), x, data))

    def request(self, x, data):
        return self.show(f"request_data {x} {data!r}".replace("b'", "'"), x, self.gw.request_data(self.g, self.now(), x, data))

    def closed(self, x, why="failed"):
        return self.show(f"origin_closed {x} {why}", x, self.gw.origin_closed(self.g, self.now(), x, why))

    def leaves(self, x):
        return self.show(f"client_closed {x}", x, self.gw.client_closed(self.g, self.now(), x))

    def purge(self, url=b"http://h/a"):
        return self.show(f"purge {url.decode()}".replace("\r\n", "|"), 0, self.gw.purge(self.g, url))

    def purge_all(self):
        return self.show("purge_all", 0, self.gw.purge_all(self.g, self.now()))

    def stop(self):
        self.gw.stop(self.g)
        self.out(f"  +{self.t - T:<4d}stop")

    def fill(self, response, body=b"page", request=None):
        """Stores a page, without a word."""
        x = self.gw.start(self.g, self.now(), self.gw.parse_request(self.g, request or rq())).exchange
        self.gw.response_head(self.g, self.now(), x, response)
        self.gw.response_data(self.g, self.now(), x, body)
        while self.gw.poll(self.g, self.now(), x).client not in ("end", "close", "nothing"):
            pass
        return x
