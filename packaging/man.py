#!/usr/bin/env python3
"""Makes a man page: `man.py program VERSION` of what --help says, `man.py file VERSION` of the configuration with comments; each on standard input."""

import re
import sys

PROGRAM = r""".TH NIJPDRA-PROXY 8 "" "nijpdra %s"
.SH NAME
nijpdra-proxy \- a caching HTTP proxy in front of a site
.SH SYNOPSIS
.nf
%s
.fi
.SH DESCRIPTION
It answers from memory what may be answered so by RFC 9111, and asks the site for all else.
%s
.SH EXIT STATUS
0 after SIGTERM; 1 where stat finds no proxy; 2 where the configuration, an argument or an address is wrong, which is told on standard error.
.SH FILES
.TP
.I /etc/nijpdra\-proxy.toml
the configuration that the unit nijpdra\-proxy.service starts with
.SH SEE ALSO
.BR nijpdra-proxy.toml (5),
.BR cache-plan (1)
"""
FILE = r""".TH NIJPDRA-PROXY.TOML 5 "" "nijpdra %s"
.SH NAME
nijpdra-proxy.toml \- the configuration of nijpdra-proxy
.SH DESCRIPTION
A file of TOML.
.B nijpdra-proxy --check
.I FILE
says what is wrong in it, by line and reason; SIGHUP has it read again: sites, limits and log.
This is the one that comes with the package:
.PP
.nf
%s
.fi
.SH SETTINGS
Each is a line "name: value" of settings; of a list one line for each, or an empty one for none.
%s
.SH SEE ALSO
.BR nijpdra-proxy (8)
"""
SETTINGS = """targeted: targeted fields that count in the place of Cache-Control and Expires (cdn-cache-control)
lifetime: STATUS SECONDS, where the response says nothing
force-lifetime: STATUS SECONDS, whatever the response says
force-private: yes: private, no-store and no-cache of a response keep it from nothing
never-store: a status that is stored only with a lifetime of these settings (400, 405 and others that an odd request causes)
host: a host that is served; others are answered 421
refuse: a method that is answered by 501 (CONNECT, TRACE)
drop: a request field that doesn't reach the origin
response-drop: a response field that is neither stored nor shown
query-drop: a part of a query that goes; with * at the end what begins so
query-sort: yes: the parts of a query are sorted
encodings: codings that Accept-Encoding may name
cookie-keep: a cookie that stays; all others go
origin-host: the Host that the origin is sent
origin-prefix: what stands in front of the target that the origin is sent
name: the name in Via and Cache-Status (cache-tier)
secret: hexadecimal digits, of which boundaries of several parts are made"""


def plain(line):
    """A line as it stands, for roff."""
    line = line.replace("\\", r"\e").replace("-", r"\-")
    return r"\&" + line if line.startswith((".", "'")) else line


def main(what, version):
    text = sys.stdin.read().rstrip()
    if what == "file":
        settings = [it.partition(": ") for it in SETTINGS.splitlines()]
        told = "\n".join(f".TP\n.B {plain(name)}\n{plain(what)}" for name, _, what in settings)
        sys.stdout.write(FILE % (version, "\n".join(map(plain, text.splitlines())), told))
        return
    usage, *rest = text.split("\n\n")
    usage = re.sub(r"^(usage:)?\s+", "", usage, flags=re.M)
    paragraphs = "\n".join(".PP\n" + "\n".join(map(plain, it.splitlines())) for it in rest)
    sys.stdout.write(PROGRAM % (version, "\n".join(map(plain, usage.splitlines())), paragraphs))


if __name__ == "__main__":
    main(sys.argv[1], sys.argv[2])
