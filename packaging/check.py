#!/usr/bin/env python3
"""Checks packages as lintian would, without a network: `check.py FOLDER TEXT ..`, whose folder has packages, each unpacked beside itself (NAME/, with NAME/DEBIAN);
no file may have one of the texts, which are names of places that only the maker has."""

import glob
import gzip
import hashlib
import os
import re
import shutil
import stat
import subprocess
import sys

FIELDS = ("Package", "Version", "Architecture", "Maintainer", "Installed-Size", "Depends", "Section", "Priority", "Description")
PLACES = re.compile(r"etc/nijpdra-proxy\.toml$|usr/(bin|include|libexec/cache-tier|lib/systemd/system|lib/x86_64-linux-gnu|share/(doc|man))/")


def read(path):
    with open(path, "rb") as file:
        return file.read()


def faults_of_control(folder, name):
    text = read(os.path.join(folder, "DEBIAN", "control")).decode()
    fields = dict(re.findall(r"^([\w-]+): (.*)$", text, re.M))
    yield from (f"control has no {it}" for it in FIELDS if not fields.get(it))
    if fields.get("Package") != name.partition("_")[0] or len(fields.get("Description", "")) > 80:
        yield "control: its name is another's, or its first line is long"
    yield from (f"control: a line of {len(it)} characters" for it in text.splitlines() if it.startswith(" ") and len(it) > 80)


def faults_of_script(path):
    if os.stat(path).st_mode & 0o777 != 0o755 or subprocess.run(["sh", "-n", path], check=False).returncode:
        yield f"{path}: it isn't run, or isn't a script"


def faults_of_file(folder, path, secrets):
    """What is wrong with a file that is installed."""
    whole = os.path.join(folder, path)
    it = os.lstat(whole)
    if not PLACES.match(path):
        yield "nothing is installed there"
    if stat.S_ISLNK(it.st_mode):
        if not os.path.basename(os.readlink(whole)) == os.readlink(whole):
            yield "a link to another folder"
        return
    runs = path.startswith("usr/bin/")
    if it.st_mode & 0o7777 != (0o755 if runs else 0o644):
        yield f"its mode is {it.st_mode & 0o7777:o}"
    data = read(whole)
    if path.endswith(".gz"):
        if data[4:8] != b"\0\0\0\0":
            yield "packed with a time"
        data = gzip.decompress(data)
    yield from (f"it names {secret}" for secret in secrets if secret.encode() in data)
    if data.startswith(b"\x7fELF") and shutil.which("readelf"):
        told = subprocess.run(["readelf", "-WSd", whole], stdout=subprocess.PIPE, text=True, check=True).stdout
        if ".symtab" in told or ".debug" in told:
            yield "it has symbols that nothing needs"
        if runs and re.search(r"RPATH|RUNPATH", told):
            yield "it names a folder of libraries"
    if "/man/" in path and shutil.which("man"):
        told = subprocess.run(["man", "--warnings", "-E", "UTF-8", "-l", "-Tutf8", "-Z", whole], stdout=subprocess.DEVNULL, stderr=subprocess.PIPE, text=True, check=False, env={**os.environ, "MANROFFSEQ": "", "MANWIDTH": "160", "LC_ALL": "C.UTF-8"}).stderr
        if told.strip():
            yield f"man: {told.strip()[:200]}"


def faults_of(folder, name, secrets):
    yield from faults_of_control(folder, name)
    files = [os.path.relpath(os.path.join(at, it), folder) for at, _, names in os.walk(folder) for it in names]
    installed = sorted(it for it in files if not it.startswith("DEBIAN/"))
    for path in installed:
        yield from (f"{path}: {it}" for it in faults_of_file(folder, path, secrets))
    sums = dict(reversed(it.split("  ")) for it in read(os.path.join(folder, "DEBIAN", "md5sums")).decode().splitlines())
    for path in (it for it in installed if not os.path.islink(os.path.join(folder, it))):
        if sums.pop(path, "") != hashlib.md5(read(os.path.join(folder, path))).hexdigest():
            yield f"{path}: md5sums has another"
    yield from (f"md5sums has {it}, which isn't there" for it in sums)
    doc = f"usr/share/doc/{name.partition('_')[0]}"
    yield from (f"there is no {doc}/{it}" for it in ("copyright", "changelog.gz") if f"{doc}/{it}" not in installed)
    wanted = {f"/{it}" for it in installed if it.startswith("etc/")}
    conffiles = os.path.join(folder, "DEBIAN", "conffiles")
    if wanted != (set(read(conffiles).decode().split()) if os.path.exists(conffiles) else set()):
        yield "conffiles aren't the files of /etc"
    for it in ("postinst", "prerm", "postrm"):
        if os.path.exists(os.path.join(folder, "DEBIAN", it)):
            yield from faults_of_script(os.path.join(folder, "DEBIAN", it))
    programs = {os.path.basename(it) for it in installed if it.startswith("usr/bin/")}
    pages = {os.path.basename(it).rsplit(".", 2)[0] for it in installed if "/man/" in it}
    yield from (f"{it} has no man page" for it in programs - pages)


def main(folder, *secrets):
    faults, count = [], 0
    for path in sorted(glob.glob(os.path.join(folder, "*.deb"))):
        count += 1
        name = os.path.basename(path)
        told = subprocess.run(["dpkg-deb", "-c", path], stdout=subprocess.PIPE, text=True, check=True).stdout
        faults += [f"{name}: {it}" for it in told.splitlines() if it.split()[1] != "root/root"]
        faults += [f"{name}: {it}" for it in faults_of(path[: -len(".deb")], name, secrets)]
    print("\n".join([*faults, f"packages: {count}, {len(faults)} faults"]))
    return int(bool(faults) or not count)


if __name__ == "__main__":
    sys.exit(main(*sys.argv[1:]))
