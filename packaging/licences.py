#!/usr/bin/env python3
"""Prints what crates a program is built of, each with its version and licence, and the texts of licences that ask to be handed on, each once:
`licences.py METADATA`, which is what `cargo metadata` writes."""

import glob
import json
import os
import sys

# Of a choice of licences the first is taken.
TEXTS = ("LICENSE-MIT", "LICENSE-MIT.txt", "LICENSE", "LICENSE.txt", "COPYING")


def text_of(folder):
    """The text of a crate's licence, if it has one."""
    for name in TEXTS:
        for path in glob.glob(os.path.join(folder, name)):
            with open(path, encoding="utf-8") as file:
                return file.read().strip()
    return ""


def main(path):
    with open(path, encoding="utf-8") as file:
        told = json.load(file)
    used = {it["id"] for it in told["resolve"]["nodes"]}
    texts = {}
    print("nijpdra-proxy has parts of these crates of Rust:\n")
    for it in sorted((it for it in told["packages"] if it["id"] in used and it["source"]), key=lambda it: (it["name"], it["version"])):
        print(f"  {it['name']} {it['version']}: {it['license']}")
        text = text_of(os.path.dirname(it["manifest_path"]))
        if text:
            texts.setdefault(text, []).append(it["name"])
    for text, names in sorted(texts.items(), key=lambda it: it[1]):
        print(f"\nOf {', '.join(names)}:\n\n{text}")


if __name__ == "__main__":
    main(sys.argv[1])
