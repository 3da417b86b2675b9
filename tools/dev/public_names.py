#!/usr/bin/env python3
"""Compares the public names of the headers, the crate, the package and the programs with tools/dev/face/names.tsv: no name is left that went, and of C, of
options and of columns each that came is there. `public_names.py --list` prints the names instead, a language and a name a line.

    C        macros, types, fields, functions and exports of embed/cache_*.h
    Rust     public types, fields, variants, functions and methods of the crate's sources
    Python   what the modules of the package show, its classes' attributes, and the arguments of their calls
    CLI      cache-plan, cache-curve and merge-curves, and their options
    CSV      the columns that these write, and the words of their totals
"""
import inspect
import os
import re
import sys

sys.dont_write_bytecode = True
TOP = os.path.dirname(os.path.dirname(os.path.dirname(os.path.realpath(__file__))))
sys.path[:0] = [os.path.join(TOP, "python", "src"), os.path.join(TOP, "tools", "planner")]
# Where the heads of CSV stand.
OF_CSV = ("crates/curve_lines/src/text.rt", "crates/curve_lines/src/mark_text.rt", "crates/curve_lines/src/timed_text.rt",
          *(f"tools/planner/planner/{it}.py" for it in ("curve", "told", "estimate")))


def read(path):
    with open(path, encoding="utf-8") as file:
        return file.read()


def of_c():
    """Names of the headers; a field as type.field."""
    names = set()
    for it in ("cache_tier.h", "cache_rules.h", "cache_tier_files.h"):
        text = re.sub(r"/\*.*?\*/", "", read(os.path.join(TOP, "embed", it)), flags=re.S)
        names |= set(re.findall(r"\b(?:cache_(?:tier|rules)|CACHE_(?:TIER|RULES))\w*", text))
        for fields, owner in re.findall(r"typedef struct \w+ \{(.*?)\n\} (\w+);", text, re.S):
            for row in re.findall(r"(?:const )?\w+ \*?([^;{}]+);", fields.replace("union {", "")):
                names |= {f"{owner}.{re.sub(r'.[0-9]+.$', '', name.strip())}" for name in row.split(",")}
    return names


def of_rust():
    """Names of the crate's sources; methods and variants as Type::name, fields as Type.name."""
    names, top = set(), os.path.join(TOP, "rust", "cache-tier", "src")
    for at, _, files in os.walk(top):
        module = os.path.relpath(at, top).split(os.sep)[0]
        prefix = {".": "", "rules": "rules::", "file_store": "file_store::"}.get(module)
        for it in files if prefix is not None else ():
            if it not in ("raw.rs", "ffi.rs", "told.rs"):
                names |= items(read(os.path.join(at, it)), prefix)
    return names


def items(text, prefix):
    names, owner, kind = set(), "", ""
    for line in text.split("#[cfg(test)]\nmod ")[0].split("\n"):
        head = re.match(r"(?:pub(\(\w+\))? )?(struct|enum|trait|impl|type)\b(?:<[^>]*>)? (?:.* for )?(\w+)", line)
        if head:
            kind, owner = head[2], prefix + head[3]
            names |= {owner} if line.startswith("pub ") else set()
            owner = "" if head[1] or (kind in ("struct", "enum", "trait") and not line.startswith("pub ")) else owner
        free = re.match(r"pub (?:const )?fn (\w+)", line)
        method = re.match(r"    pub (?:const )?fn (\w+)", line) or (kind == "trait" and re.match(r"    fn (\w+)", line))
        field = kind == "struct" and re.match(r"    pub (\w+):", line)
        variant = kind == "enum" and re.match(r"    ([A-Z]\w*)\b", line)
        names |= {prefix + free[1]} if free else set()
        names |= {f"{owner}::{it[1]}" for it in (method, variant) if it and owner}
        names |= {f"{owner}.{field[1]}"} if field and owner else set()
    return names


def of_python():
    """Names of the package; arguments as Type.call(argument)."""
    import cache_tier
    from cache_tier import rules

    names = set()
    for module, prefix, shown in ((cache_tier, "", cache_tier.__all__), (rules, "rules.", [it for it in vars(rules) if not it.startswith("_")])):
        for name in shown:
            it = getattr(module, name)
            if inspect.ismodule(it) or (prefix and getattr(it, "__module__", rules.__name__) not in (rules.__name__, "builtins")):
                continue
            names.add(prefix + name)
            members = [(name, it)] if inspect.isfunction(it) else [(f"{name}.{key}", value) for key, value in inspect.getmembers(it) if key == "__init__" or key[0] != "_"]
            for path, member in members if inspect.isclass(it) or inspect.isfunction(it) else ():
                path = path.replace("__init__", "init")
                names.add(prefix + path)
                if inspect.isfunction(member):
                    names |= {f"{prefix}{path}({arg})" for arg in inspect.signature(member).parameters if arg != "self"}
            if inspect.isclass(it):
                names |= {f"{prefix}{name}.{key}" for key in re.findall(r"self\.([a-z]\w*)(?=,|\s*=)", source(it))}
    return names


def source(it):
    try:
        return inspect.getsource(it)
    except (OSError, TypeError):
        return ""


def of_cli():
    """The programs, and each with its options."""
    from option_pages import COMMAND, OPTIONS

    names = {(program, it[0]) for program, rows in OPTIONS.items() for it in rows()}
    names |= {("merge-curves", it) for it in re.findall(r'add_argument\("--([\w-]+)"', read(os.path.join(TOP, "tools", "planner", "merge_curves.py")))}
    names |= {(program, "help") for program, _ in names}
    names |= {("cache-curve", "version")} if '.version("' in read(os.path.join(TOP, COMMAND)) else set()
    return {program for program, _ in names} | {f"{program} --{it}" for program, it in names}


def of_csv():
    """Columns, and words of totals."""
    texts = [read(os.path.join(TOP, it)) for it in OF_CSV]
    heads = {name for text in texts for head in re.findall(r'"(,?[a-z_]+(?:,[a-z_]+)+)(?:\\n)?"', text) for name in head.split(",") if name}
    from planner.curve import WORDS

    return heads | set(WORDS) | {name for text in texts for it in (r"[ #](\w+)=(?:\d|\{)", r'"(unlimited)"', r"\b(exact|estimate)\b") for name in re.findall(it, text)}


def main():
    there = {"C": of_c(), "Rust": of_rust(), "Python": of_python(), "CLI": of_cli(), "CSV": of_csv()}
    if sys.argv[1:] == ["--list"]:
        print("".join(f"{language}\t{name}\n" for language in there for name in sorted(there[language])), end="")
        return 0
    rows = [line.split("\t") for line in read(os.path.join(TOP, "tools", "dev", "face", "names.tsv")).splitlines()[1:]]
    new = {(language, name) for language, _, _, name, _ in rows}
    old = [(language, name) for language, _, name, _, verdict in rows if verdict in ("rename", "goes") and (language, name) not in new]
    left = [f"{language}: {name} is an old name" for language, name in old if name in there[language]]
    exact = {(language, name) for language, kind, _, name, verdict in rows if verdict != "goes" and not re.search(r"[{(]", name) and kind != "parameter"}
    lost = [f"{language}: {name} isn't there" for language, name in sorted(exact) if language in ("C", "CLI", "CSV") and name not in there[language]]
    print("".join(it + "\n" for it in left + lost), end="")
    print(f"public names: {sum(map(len, there.values()))}, of {len(old)} that went {len(left)} are left")
    return 1 if left or lost else 0


if __name__ == "__main__":
    sys.exit(main())
