#!/usr/bin/env python3
"""Starts nijpdra-proxy as examples/proxy.py is started, PORT ORIGIN_PORT [NAME=VALUE ..], so that what is run against that runs against this one:

    NIJPDRA_PROXY=proxy/target/release/nijpdra-proxy PROXY=proxy/tests/shim.py python3 examples/test_proxy.py"""

import os
import sys
import tempfile

LIMITS = {"max_bytes": "memory", "max_body_bytes": "max_body"}


def configuration(port, origin, options):
    """The file of one site, with these options."""
    top, rules, settings = {"memory": 1 << 28, "max_body": 1 << 24}, {"honor_request_directives": "true", "add_x_forwarded_for": "false"}, []
    for it in options:
        name, _, value = it.partition("=")
        if name in LIMITS:
            top[LIMITS[name]] = int(value)
        elif name == "settings":
            settings += value.replace("\n", ";").split(";")
        else:
            rules[name] = value.lower()
    top["max_body"] = min(top["max_body"], top["memory"] // 16)
    lines = [f"{name} = {value}" for name, value in top.items()]
    lines += ['trust_forwarded = ["127.0.0.1"]']
    lines += [f'admin = "unix:{tempfile.mkdtemp()}/admin"', "threads = 1", "[[listen]]", f'address = "127.0.0.1:{port}"', "[[site]]", "[[site.origin]]", f'address = "127.0.0.1:{origin}"']
    lines += ["[rules]", "settings = [" + ", ".join(f"'{it}'" for it in settings) + "]", "[rules.options]"]
    lines += [f"{name} = {value}" for name, value in rules.items()]
    return "\n".join(lines) + "\n"


def main():
    port, origin, *options = sys.argv[1:]
    file, path = tempfile.mkstemp(suffix=".toml")
    os.write(file, configuration(port, origin, options).encode())
    proxy = os.environ["NIJPDRA_PROXY"]
    os.execv(proxy, [proxy, path])


if __name__ == "__main__":
    main()
