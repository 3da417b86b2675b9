#!/usr/bin/env python3
"""Lists what a reader must read to believe the promise, and counts the lines of definitions that it and `Tier::step` rest on.

    tools/dev/definition_lines.py                       the lines by crate: the first table of docs/definitions.md, and of which crates
    tools/dev/definition_lines.py --files               the files of the promise with their lines, its other table; then what of the code
                                                      and of the libraries the promise names
    tools/dev/definition_lines.py --write, --check      puts the tables into docs/definitions.md; compares them with it
    tools/dev/definition_lines.py CRATE MODULE NAME     the definitions on which another one rests

A definition counts once, with its clauses, wherever it is cited; imports, comments and empty lines don't count. Types that the
code declares are listed with --files, with the types of their fields and with what contracts see of them; words of the libraries
are not in `crates/*/specs`, and are named alone.
"""

import os
import re
import sys

ROOT = os.path.dirname(os.path.dirname(os.path.dirname(os.path.abspath(__file__))))
PAGE = os.path.join(ROOT, "docs", "definitions.md")

# What the contract of `answers` names, and what that of `Tier::step` does.
PROMISE = ("tier_promise", "Promise", "Keeps")
STEP = ("tier_single", "Takes", "Takes")

# What is counted: a row of the table, the definition from which it starts, those beside it, and the crates whose words it leaves out.
GRAMMARS = ("cache_words", "cache_heads", "head_directives", "head_lines", "head_metas")
TABLE = (
    ("the promise", PROMISE, (), GRAMMARS),
    ("the promise, with time, hashes, freshness and directives", PROMISE, (), ()),
    ("`Tier::step`", STEP, (), GRAMMARS),
    ("`Tier::step`, with all that it cites", STEP, (), ()),
)

# A word of antt: letters, digits and signs of names. A dot joins a module's name in this file to a word of it.
WORD = re.compile(r"[^\s(){}\[\];,.λ∷×→≡⊎¬]+")
OPENS = re.compile(r"^(?:abbrev|unfoldable|pub|record|data)\s")
MUTUAL = re.compile(r"^(?:(?:abbrev|unfoldable) )?mutual$")


def uncommented(line):
    """Returns a line without its comment."""
    return re.sub(r"--(?: .*)?$", "", line).rstrip()


def imports_of(text):
    """Returns what `use` lines bring: names with the crate, module and name they stand for, and names of modules."""
    names, modules = {}, {}
    for crate, path, rest in re.findall(r"^\s*(?:ghost )?use Rattle\.(\w+)\.specs\.([\w.]+?)(\.\{[^}]*\}| as \S+);?$", text, re.M):
        if rest.startswith(" as "):
            modules[rest[4:]] = (crate, path)
            continue
        for item in rest[2:-1].split(","):
            name, _, given = item.strip().partition(" as ")
            names[given or name] = (crate, path, name)
    return names, modules


def definitions_of(text):
    """Returns the definitions of a file: each name with its lines. Those of a `mutual` block stand two spaces in."""
    found, name, block = {}, None, False
    for line in map(uncommented, text.splitlines()):
        if not line or line.startswith("use ") or line.startswith("pub use "):
            continue
        if MUTUAL.match(line):
            block, name = True, None
            continue
        block = block and line.startswith("  ")
        line = line[2:] if block else line
        if OPENS.match(line):
            words = [it for it in line.split() if it not in ("abbrev", "unfoldable", "pub", "record", "data")]
            name = words[0].rstrip(":")
            found[name] = []
        if name is not None:
            found[name].append(line)
    return found


def read(path):
    if not os.path.isfile(path):
        return None
    with open(path, encoding="utf-8") as it:
        return it.read()


class Definitions:
    """The definitions of all crates, read as they are asked for."""

    def __init__(self):
        self.files = {}

    def file(self, crate, module):
        """Returns the names, modules and definitions of a file, or none where it isn't one of the repository."""
        key = (crate, module)
        if key not in self.files:
            text = read(os.path.join(ROOT, "crates", crate, "specs", module.replace(".", "/") + ".antt"))
            self.files[key] = None if text is None else (*imports_of(text), definitions_of(text))
        return self.files[key]

    def place(self, crate, module, name):
        """Returns the definition of a name: of itself, or of the data or record that has it as a case or field."""
        file = self.file(crate, module)
        if file is None:
            return None
        if name in file[2]:
            return (crate, module, name)
        for other, lines in file[2].items():
            if any(re.match(rf"\s+(?:pub )?{re.escape(name)}\s*:", line) for line in lines[1:]):
                return (crate, module, other)
        return None

    def named(self, text, names, modules):
        """Yields the crate, module and name of each word of a text that a `use` line brings."""
        for alias, place in modules.items():
            for word in re.findall(rf"(?<![\w.]){re.escape(alias)}\.({WORD.pattern})", text):
                yield (*place, word)
        for word in set(WORD.findall(text)):
            if word in names:
                yield names[word]

    def cited(self, crate, module, name):
        """Returns the definitions that a definition cites."""
        names, modules, own = self.file(crate, module)
        text = "\n".join(own[name])
        found = {self.place(*it) for it in self.named(text, {}, modules)}
        # a field that is set or read is no definition of its name
        text = re.sub(r"([{;]\s*)[\w-]+ = ", r"\1", re.sub(r"(?<=[\w)])\.[a-z_]\w*", "", text))
        found |= {self.place(*it) for it in self.named(text, names, {})}
        for word in set(WORD.findall(text)) - set(names):
            found.add((crate, module, word) if word in own else self.place(crate, module, word))
        return found - {None, (crate, module, name)}

    def reached(self, root, without, beside=()):
        """Returns all definitions on which one rests, but for those of some crates, with those beside it."""
        seen, open_ = set(), [root]
        while open_:
            it = open_.pop()
            if it in seen or it[0] in without:
                continue
            seen.add(it)
            open_ += self.cited(*it)
        return seen | set(beside)

    def lines(self, place):
        return len(self.file(*place[:2])[2][place[2]])

    def outside(self, reached):
        """Returns the types and constants of the code that definitions name, each with its crate, and the words of libraries, with
        their modules too."""
        types, words = set(), set()
        for crate, module, name in reached:
            names, modules, own = self.file(crate, module)
            for place in self.named("\n".join(own[name]), names, modules):
                if self.place(*place):
                    continue
                if place[1].startswith("declared."):
                    where = place[1].split(".")[-2 if place[1].endswith(".TheVariants") else -1]
                    types.add((place[0], place[2] if where == "TheConstants" else where))
                else:
                    words.add(place)
        return types, words


class Types:
    """The types and constants that the code declares: each with its lines, and what contracts see of it where it has a model."""

    def __init__(self):
        self.texts = {}

    def sources(self, crate):
        """Returns the files of a crate's code, by path."""
        if crate not in self.texts:
            self.texts[crate] = {}
            for folder, _, files in sorted(os.walk(os.path.join(ROOT, "crates", crate, "src"))):
                for name in sorted(files):
                    if name.endswith(".rt"):
                        path = os.path.join(folder, name)
                        self.texts[crate][os.path.relpath(path, ROOT)] = read(path)
        return self.texts[crate]

    def declared(self, crate, name):
        """Returns the file and the lines of a type or constant of a crate, with its model: none where it declares none of the name."""
        for path, text in self.sources(crate).items():
            found = re.search(rf"^pub (?:struct|enum|const) {name}\b[^;{{(]*(?:\{{.*?^\}}|\([^;]*\);|;)", text, re.M | re.S)
            if found:
                model = re.search(rf"^impl[^\n]* Model for {name}\b.*?^\}}", text, re.M | re.S)
                block = found[0] + "\n" + (model[0] if model else "")
                return path, [it for it in block.splitlines() if it.strip() and not re.match(r"\s*(//|#\[|ghost use)", it)]
        return None

    def reached(self, crates, types):
        """Returns the types, and those of the repository that their fields have."""
        seen, open_ = {}, sorted(types)
        while open_:
            crate, name = open_.pop()
            found = self.declared(crate, name) if (crate, name) not in seen else None
            if not found:
                continue
            seen[crate, name] = found
            for word in set(re.findall(r"\b[A-Z]\w+", "\n".join(found[1]))):
                own = self.declared(crate, word)
                used = re.search(rf"\buse (\w+)(?:::\w+)*::(?:{word}\b|\{{[^}}]*\b{word}\b)", self.sources(crate)[found[0]])
                owner = crate if own else used and used[1]
                if owner in crates:
                    open_.append((owner, word))
        return seen


def lines_table(definitions, by_crate=False):
    """Returns the table of lines, by crate too."""
    rows = ["| What is read | Lines |" + " By crate |" * by_crate, "|---|---|" + "---|" * by_crate]
    for title, root, beside, without in TABLE:
        lines = {}
        for place in definitions.reached(root, without, beside):
            lines[place[0]] = lines.get(place[0], 0) + definitions.lines(place)
        parts = ", ".join(f"`{crate}` {lines[crate]}" for crate in sorted(lines))
        rows.append(f"| {title} | {sum(lines.values())} |" + f" {parts} |" * by_crate)
    code = sum(lines for its in types_of(definitions)[0].values() for _, lines in its)
    rows.append(f"| types and constants of the code that the promise names | {code} |" + " |" * by_crate)
    return rows


def types_of(definitions):
    """Returns the types and constants of the code that the promise names, each file's with their lines, and the words of libraries."""
    types, words = definitions.outside(definitions.reached(PROMISE, ()))
    crates = set(os.listdir(os.path.join(ROOT, "crates")))
    by_file = {}
    for (_, name), (path, lines) in Types().reached(crates, types).items():
        by_file.setdefault(path, []).append((name, len(lines)))
    return by_file, {it for it in words if it[0] not in crates}


def files_tables(definitions):
    """Returns the three tables of files: definitions, types of the code, words of libraries."""
    reached = definitions.reached(PROMISE, ())
    by_file, words = types_of(definitions)
    files = {}
    for place in reached:
        files.setdefault(place[:2], []).append(definitions.lines(place))
    rows = ["| Files in `specs` of | Lines to read |", "|---|---|"]
    by_crate = {}
    for (crate, module), lines in sorted(files.items(), key=lambda it: (it[0][0] in GRAMMARS, it[0])):
        by_crate.setdefault(crate, []).append(f"`{module}` {sum(lines)}")
    specs = rows + [f"| `{crate}` | {', '.join(its)} |" for crate, its in by_crate.items()]
    code = ["| File of the code | Lines of its types and constants |", "|---|---|"]
    for path, its in sorted(by_file.items()):
        code.append(f"| `{path[len('crates/'):]}` | " + ", ".join(f"`{name}` {lines}" for name, lines in sorted(its)) + " |")
    library_words = ["| Library | Words, by module |", "|---|---|"]
    for library in sorted({it[0] for it in words}):
        modules = {}
        for crate, module, word in words:
            if crate == library:
                modules.setdefault(module, set()).add(word)
        # std's words of lists, numbers and texts are many: its modules are enough
        told = {it: "" if library == "std" else ": " + ", ".join(f"`{word}`" for word in sorted(modules[it])) for it in sorted(modules)}
        library_words.append(f"| `{library}` | {'; '.join(f'`{it}`{words}' for it, words in told.items())} |")
    return specs, code, library_words


def with_tables(page, tables):
    """Returns the page with each table in its place, between a line `<!-- NAME -->` and a line `<!-- end -->`."""
    for name, rows in tables.items():
        pattern = rf"(?<=<!-- {name} -->\n).*?(?=\n<!-- end -->)"
        if not re.search(pattern, page, re.S):
            sys.exit(f"{PAGE} has no place for the table '{name}'")
        page = re.sub(pattern, lambda _: "\n".join(["", *rows, ""]), page, count=1, flags=re.S)
    return page


def main(words):
    definitions = Definitions()
    if not words:
        print("\n".join(lines_table(definitions, by_crate=True)))
        return 0
    if words == ["--files"]:
        print("\n\n".join("\n".join(it) for it in files_tables(definitions)))
        return 0
    if words in (["--write"], ["--check"]):
        old = read(PAGE)
        new = with_tables(old, {"lines": lines_table(definitions), "files": files_tables(definitions)[0]})
        if words == ["--check"]:
            same = "docs/definitions.md has these tables"
            print(same if new == old else "docs/definitions.md has other tables: run tools/dev/definition_lines.py --write")
            return int(new != old)
        with open(PAGE, "w", encoding="utf-8") as it:
            it.write(new)
        return 0
    if len(words) != 3 or definitions.place(*words) is None:
        print(__doc__.strip(), file=sys.stderr)
        return 2
    reached = definitions.reached(tuple(words), ())
    for place in sorted(reached):
        print(f"{definitions.lines(place):4} {'.'.join(place)}")
    print(f"{sum(map(definitions.lines, reached)):4} in all")
    return 0


if __name__ == "__main__":
    sys.exit(main(sys.argv[1:]))
