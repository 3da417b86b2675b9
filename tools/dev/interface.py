#!/usr/bin/env python3
"""Writes what C, Rust, Python and the pages have of the interface, which the tables embed/interface*.toml say once, and checks it.

    tools/dev/interface.py --write          writes the files
    tools/dev/interface.py --changed        status 1 where a file isn't what the tables say
    tools/dev/interface.py --check          status 1 where numbers, structs, exports or defaults of the Rattle sources differ from the tables, defaults of
                                            the stubs do, or a method of a deprecated call doesn't warn
    tools/dev/interface.py --against WHERE  status 1 where a program written by the tables there would break: of a tag, or of a folder that a release
                                            leaves them in (none before the first)

A Rattle source may have another word than the table: then the row says which. So the proofs never wait on a name.
"""
import argparse
import pathlib
import subprocess
import sys

sys.dont_write_bytecode = True
HERE = pathlib.Path(__file__).resolve().parent
TOP = HERE.parent.parent

from face import against, c, defaults, deprecated, gateway, lookups, pages, python, rattle, rust  # noqa: E402
from face.table import Face, load, read_table  # noqa: E402

TABLES = ("embed/interface.toml", "embed/interface_rules.toml", "embed/interface_gateway.toml")


def faces():
    tier, *above = (load(TOP / it) for it in TABLES)
    below = Face(tier)
    return below, *(Face(it, below) for it in above)


def template(face):
    """The parts of a header that are written by hand, with the defaults among its helpers."""
    text = (HERE / "face" / "templates" / f"{face.low}.h").read_text(encoding="utf-8")
    return text.replace("@DEFAULTS@\n", defaults.in_c(face)) if "options" in face.structs else text


def written(faces):
    """The files, and what is in each."""
    tier, rules, over = faces
    of_tier, of_rules, of_gateway = (template(it) for it in faces)
    both = (tier, rules)
    return {
        "embed/cache_tier.h": c.header(tier, of_tier),
        "embed/cache_rules.h": c.header(rules, of_rules),
        "embed/cache_gateway.h": gateway.header(over, of_gateway),
        "rust/cache-tier/src/raw.rs": rust.raw(tier),
        "rust/cache-tier/src/rules/raw.rs": rust.raw(rules),
        "rust/cache-tier/src/enums.rs": rust.enums(tier),
        "rust/cache-tier/src/rules/enums.rs": rust.rules_enums(rules),
        "rust/cache-tier/src/ffi/exports.rs": rust.exports(tier),
        "rust/cache-tier/src/ffi/rules.rs": rust.rules_exports(rules),
        "python/src/cache_tier/tables.py": python.tables(both),
        "python/src/cache_tier/tables.pyi": python.stub(both),
        "rust/cache-tier/src/gateway/raw.rs": gateway.in_rust(over),
        "rust/cache-tier/src/gateway/enums.rs": gateway.enums_in_rust(over),
        "rust/cache-tier/src/ffi/gateway_exports.rs": gateway.exports_in_rust(over),
        "python/src/cache_tier/gateway_tables.py": gateway.in_python(over),
        "docs/reference/c.md": pages.page(tier, of_tier, TOP),
        "docs/reference/c-rules.md": pages.page(rules, of_rules, TOP),
        "docs/reference/c-gateway.md": pages.gateway_page(over, of_gateway),
        "docs/reference/statuses.md": lookups.statuses(both, TOP),
        "docs/reference/options.md": lookups.options(faces, TOP),
    }


def write(both):
    for name, text in written(both).items():
        path = TOP / name
        path.parent.mkdir(parents=True, exist_ok=True)
        path.write_text(text, encoding="utf-8")
    return []


def changed(both):
    read = lambda path: path.read_text(encoding="utf-8") if path.is_file() else None
    return [f"{name}: not what the tables say: tools/dev/interface.py --write" for name, text in written(both).items() if read(TOP / name) != text]


def compared(both):
    wrong, seen = rattle.check(both, TOP / "crates")
    wrong += defaults.repeated(both[:2], TOP) + deprecated.lacking(both[:2], TOP)
    return wrong or print(f"interface: {seen} names of the Rattle sources are those of the tables") or []


def earlier(where, table):
    """A table of a folder, or of a tag; None where it isn't there."""
    path = TOP / where / pathlib.Path(table).name
    if path.is_file() or "/" in where:
        return load(path) if path.is_file() else None
    ran = subprocess.run(["git", "show", f"{where}:{table}"], cwd=TOP, stdin=subprocess.DEVNULL, stdout=subprocess.PIPE, stderr=subprocess.DEVNULL, check=False)
    return None if ran.returncode else read_table(ran.stdout.decode())


def broken(where):
    """What a program by earlier tables loses."""
    pairs = [(earlier(where, it), load(TOP / it)) for it in TABLES]
    if not any(was for was, _ in pairs):
        print(f"interface: {where} has no tables, so nothing is promised yet")
    return [it for was, now in pairs if was for it in against.lost(was, now)]


def main():
    parser = argparse.ArgumentParser(description=__doc__, formatter_class=argparse.RawDescriptionHelpFormatter)
    for it in ("write", "changed", "check"):
        parser.add_argument(f"--{it}", action="store_true")
    parser.add_argument("--against", metavar="WHERE")
    options = parser.parse_args()
    if not (options.write or options.changed or options.check or options.against):
        parser.error("one of --write, --changed, --check and --against")
    both, wrong = faces(), []
    for wanted, step in ((options.write, write), (options.changed, changed), (options.check, compared)):
        wrong += step(both) if wanted else []
    wrong += broken(options.against) if options.against else []
    print("".join(it + "\n" for it in wrong), end="")
    return 1 if wrong else 0


if __name__ == "__main__":
    sys.exit(main())
