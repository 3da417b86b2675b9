#!/usr/bin/env python3
"""Runs packaging/examples in front of nijpdra-proxy, which NIJPDRA_PROXY names, each where its program is installed, on other ports: TLS and HTTP/2 by nginx,
HAProxy and hitch; and three proxies behind one HAProxy, or nginx, by consistent hashing, with purges to all and one that goes away."""

import contextlib
import os
import re
import shutil
import subprocess
import sys
import tempfile
import time

HERE = os.path.dirname(os.path.abspath(__file__))
EXAMPLES = os.path.join(HERE, "examples")
sys.path.insert(0, os.path.join(os.path.dirname(HERE), "proxy", "tests"))

import places  # noqa: E402
from places import Place, free_port  # noqa: E402

URLS = [f"/{it}" for it in range(60)]
TRUSTING = 'proxy_protocol_from = ["127.0.0.1"]\n'
FORWARDED = 'trust_forwarded = ["127.0.0.1"]\n'


def check(what, holds, got=None):
    if not holds:
        raise AssertionError(f"{what}: {got!r}"[:2000])


def words_of(program, config, room):
    """How a program is started, so that it stays and writes into a folder of its own."""
    return {
        "nginx": ["nginx", "-p", room, "-c", config, "-e", "stderr", "-g", f"daemon off; pid {room}/pid;"],
        "haproxy": ["haproxy", "-db", "-q", "-f", config],
        "hitch": ["hitch", "--config", config, *(["--user", "nobody"] if os.geteuid() == 0 else [])],
    }[program]


@contextlib.contextmanager
def front(program, example, changes):
    """A front by an example, with texts changed in it: all of these are there."""
    with open(os.path.join(EXAMPLES, example), encoding="utf-8") as file:
        text = file.read()
    with tempfile.TemporaryDirectory(prefix="front-") as room:
        os.chmod(room, 0o755)
        for was, now in changes.items():
            check(f"{example} has {was}", was in text)
            text = text.replace(was, now)
        text = text.replace("/etc/ssl/private/site.pem", certificate(room))
        if program == "nginx":  # (its folders are the packager's, which only root writes)
            kinds = ("client_body", "proxy", "fastcgi", "uwsgi", "scgi")
            text = text.replace("http {", "http {\n" + "".join(f"    {it}_temp_path {room}/{it};\n" for it in kinds), 1)
        config = os.path.join(room, "config")
        with open(config, "w", encoding="utf-8") as file:
            file.write(text)
        with open(os.path.join(room, "said"), "w+", encoding="utf-8") as said:
            with subprocess.Popen(words_of(program, config, room), stdout=said, stderr=said, start_new_session=True) as run:
                try:
                    yield run, said
                finally:
                    run.terminate()
                    run.wait(20)


def certificate(room):
    """A certificate with its key, of its own signature, in one file."""
    key, signed, both = (os.path.join(room, it) for it in ("key", "signed", "site.pem"))
    words = ["openssl", "req", "-x509", "-newkey", "rsa:2048", "-nodes", "-keyout", key, "-out", signed, "-days", "2", "-subj", "/CN=www.example.com"]
    subprocess.run(words, check=True, stdout=subprocess.DEVNULL, stderr=subprocess.DEVNULL)
    with open(both, "w", encoding="utf-8") as out:
        for it in (signed, key):
            with open(it, encoding="utf-8") as file:
                out.write(file.read())
    os.chmod(both, 0o644)
    return both


def curl(url, *more):
    ran = subprocess.run(["curl", "-sk", "-m", "10", "-D", "-", *more, url], stdout=subprocess.PIPE, text=True, check=False)
    return ran.stdout


def wait(url, said, *more):
    for _ in range(100):
        if " 200" in curl(url, *more).partition("\n")[0]:
            return
        time.sleep(0.1)
    said.seek(0)
    raise AssertionError(f"nothing at {url}: {said.read()}")


def tls(program, example, listens, speaks, behind):
    """One front with TLS: a miss, a hit, its protocol, and the client's address at the origin."""
    with Place(**behind) as place:
        port = free_port()
        address = "[127.0.0.1]" if program == "hitch" else "127.0.0.1"
        with front(program, example, {f"{address}:8000": f"{address}:{place.port}", listens: listens.replace("443", str(port))}) as (_, said):
            more = ("--resolve", f"www.example.com:{port}:127.0.0.1", "--http2")
            url = f"https://www.example.com:{port}"
            wait(f"{url}/wait", said, *more)
            told = [curl(f"{url}/a", *more) for _ in range(2)]
            check("a miss, then a hit", "fwd=uri-miss" in told[0] and "; hit" in told[1], told)
            check("its protocol", told[0].startswith(speaks), told)
            check("the client is told", re.search(rb"(?mi)^x-forwarded-for: (.*, )?127\.0\.0\.1\r?$", place.origin.heads[-1] + b"\r\n"), place.origin.heads[-1])


def answers(port):
    return [curl(f"http://127.0.0.1:{port}{it}") for it in URLS]


def several(program, example, listens):
    """Three proxies behind one front: each URL is fetched once; a purge goes to all; where one goes, only its URLs are fetched again."""
    with contextlib.ExitStack() as stack:
        all_ = [stack.enter_context(Place()) for _ in range(3)]
        fetched = lambda: sum(len(it.origin.heads) for it in all_)
        port = free_port()
        changes = {listens: f"{listens.partition(' ')[0]} 127.0.0.1:{port}"}
        for at, it in enumerate(all_, 1):
            if program == "haproxy":
                changes[f"192.0.2.{at}:8000 port 9180"] = f"127.0.0.1:{it.port} port {it.admin}"
            else:
                changes[f"192.0.2.{at}:8000"] = f"127.0.0.1:{it.port}"
        with front(program, example, changes) as (_, said):
            wait(f"http://127.0.0.1:{port}/wait", said)
            before = fetched()
            check("misses", all("fwd=uri-miss" in it for it in answers(port)))
            check("then hits", all("; hit" in it for it in answers(port)))
            check("each is fetched once", fetched() - before == len(URLS), fetched() - before)
            shares = [int(it.count("stored_total")) for it in all_]
            check("each has some", min(shares) >= 5, shares)
            urls = "".join(f"http://127.0.0.1:{port}{it}\n" for it in URLS)
            words = ["sh", os.path.join(EXAMPLES, "purge-all"), *(f"127.0.0.1:{it.admin}" for it in all_)]
            purged = subprocess.run(words, input=urls, stdout=subprocess.PIPE, text=True, check=True).stdout
            check("each was purged once", purged.count(": purged\n") == len(URLS), purged)
            check("then misses", all("fwd=uri-miss" in it for it in answers(port)))
            all_[0].run.terminate()
            all_[0].run.wait(20)
            before = fetched()
            told = answers(port)
            check("one is gone, and nobody sees it", all(it.startswith("HTTP/1.1 200") for it in told), [it[:20] for it in told])
            check("its URLs alone are fetched again", fetched() - before <= shares[0] + 3, (fetched() - before, shares))
            ran = subprocess.run(words, input=urls, stdout=subprocess.PIPE, text=True, check=False)
            check("a purge says that one didn't answer", ran.returncode == 1 and f"127.0.0.1:{all_[0].admin}: not done" in ran.stdout, ran)


TESTS = (
    ("nginx", "TLS and HTTP/2", lambda: tls("nginx", "nginx.conf", "listen 443", "HTTP/2 200", {"top": FORWARDED})),
    ("haproxy", "TLS and HTTP/2", lambda: tls("haproxy", "haproxy.cfg", "bind :443", "HTTP/2 200", {"listen": TRUSTING})),
    ("hitch", "TLS", lambda: tls("hitch", "hitch.conf", '"[*]:443"', "HTTP/1.1 200", {"listen": TRUSTING})),
    ("haproxy", "three machines", lambda: several("haproxy", "haproxy-several.cfg", "bind :80")),
    ("nginx", "three machines", lambda: several("nginx", "nginx-several.conf", "listen 80")),
)


def main():
    failures = 0
    for program, what, run in TESTS:
        missing = next((it for it in (program, "curl", "openssl") if not shutil.which(it, path=os.environ["PATH"] + ":/usr/sbin")), None)
        if missing:
            print(f"passed over, since there is no {missing}: {what} by {program}")
            continue
        begun = time.time()
        try:
            run()
        except (AssertionError, OSError, subprocess.SubprocessError) as error:
            failures += 1
            print(f"{what} by {program}: FAILS\n    {error}")
            continue
        print(f"{what} by {program}: holds ({time.time() - begun:.1f} s)", flush=True)
    return int(failures != 0)


if __name__ == "__main__":
    if not places.PROXY:
        sys.exit("NIJPDRA_PROXY names no program")
    os.environ["PATH"] += ":/usr/sbin"
    sys.exit(main())
