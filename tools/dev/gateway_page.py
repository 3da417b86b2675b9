#!/usr/bin/env python3
"""The gateway's tables, as docs/concepts/gateway.md has them: from the definitions that gateway_rows and gateway_frames are proved to keep, in the words
of their types.

    gateway_page.py --write    puts them into the page
    gateway_page.py --check    fails where the page has others, or where a row that is worked by hand there comes out otherwise by its definition

Between `<!-- given_TYPE -->` or `<!-- table_NAME -->` and `<!-- end -->` stands what is written. A row that is worked by hand is a row of a table whose
second column begins with the name of a definition: `look_row`: what is given, `NAME VALUE` or `NAME` for what holds, the rest doesn't; its third column
is what the definition says.
"""
import argparse
import glob
import os
import re
import sys
import textwrap

TOP = os.path.dirname(os.path.dirname(os.path.dirname(os.path.realpath(__file__))))
PAGE = "docs/concepts/gateway.md"
SPECS = ("crates/gateway_rows/specs", "crates/gateway_frames/specs")
SOURCES = ("crates/gateway_types/src", "crates/gateway_frames/src")
BLOCK = re.compile(r"(<!-- (given|table)_(\w+) -->\n\n)(.*?)(\n*<!-- end -->)", re.S)
WORKED = re.compile(r"^\| [^|]+ \| `(\w+)`: ([^|]*) \| ([^|]+) \|$", re.M)
PLAIN = ("not", "nat_le", "nat_lt", "is_none")
TOKEN = re.compile(r"&&|\|\||==|∷|\[\]|[(),=]|[^\s(),=]+")


def read(path):
    with open(os.path.join(TOP, path), encoding="utf-8") as file:
        return file.read()


# ==== words: of each type its fields or variants, each with what stands above it


def words_of(text):
    """By type: the type's own words, and those of its fields or variants."""
    types, above, inside = {}, [], None
    for line in text.splitlines():
        it = line.strip()
        if it.startswith("///"):
            above.append(it[3:].strip())
            continue
        begins, names = re.match(r"pub (?:struct|enum) (\w+)", it), re.match(r"(?:pub )?(\w+)[:,(]", it)
        if begins:
            inside = begins[1]
            types[inside] = {"": " ".join(above)}
        elif inside and names and above:
            types[inside][names[1]] = " ".join(above)
        if not it.startswith("#"):
            above = []
        if it == "}":
            inside = None
    return types


# ==== definitions


class Reader:
    """Reads a term of a definition: what stands in a contract's tables, and no more."""

    def __init__(self, text):
        self.tokens, self.at = TOKEN.findall(text), 0

    def peek(self):
        return self.tokens[self.at] if self.at < len(self.tokens) else ""

    def take(self, wanted=None):
        it = self.peek()
        if wanted and it != wanted:
            raise ValueError(f"{wanted} is wanted, not {it}")
        self.at += 1
        return it

    def joined(self, word, kind, part):
        parts = [part()]
        while self.peek() == word:
            self.take()
            parts.append(part())
        return parts[0] if len(parts) == 1 else (kind, *parts)

    def term(self):
        return self.joined("||", "or", lambda: self.joined("&&", "and", lambda: self.joined("==", "is", self.applied)))

    def applied(self):
        parts = [self.atom()]
        while self.peek() and self.peek() not in ("&&", "||", "==", "∷", ")", ",", "="):
            parts.append(self.atom())
        return parts[0] if len(parts) == 1 else ("of", *parts)

    def atom(self):
        if self.peek() != "(":
            return self.take()
        self.take()
        it = self.term()
        self.take(")")
        return it

    def rows(self):
        """The rows of a table, and its last word."""
        self.take("first_of")
        self.take("(")
        rows = []
        while self.peek() != "[]":
            self.take("(")
            condition = self.term()
            self.take(",")
            rows.append((condition, self.term()))
            self.take(")")
            self.take("∷")
        self.take("[]")
        self.take(")")
        return rows, self.atom()


class Definition:
    """A definition by cases of one variant each, a table, or a term; or one that is none of these, of which only its words are known."""

    def __init__(self, words, name, lines):
        self.words, self.name, self.cases, self.rows, self.term, self.given = words, name, [], None, None, []
        try:
            self.reads(lines)
        except ValueError:
            self.cases, self.rows, self.term = [], None, None

    def reads(self, lines):
        cases = [re.fullmatch(rf"{self.name} \(?(?:Some )?([\w.]+)\)? = (true|false)", it) for it in lines]
        if all(cases):
            some = [" (Some " in it for it in lines]
            self.cases = [("any" if is_some and it[1] == "_" else it[1].rpartition(".")[2], it[2] == "true") for it, is_some in zip(cases, some)]
            return
        head, _, body = " ".join(lines).partition(" = ")
        self.given = head.split()[1:]
        reader = Reader(body)
        if reader.peek() == "first_of":
            self.rows = reader.rows()
        else:
            self.term = reader.term()
        if reader.peek():
            raise ValueError(f"more than a term: {reader.peek()}")


def definitions_of(text):
    found, above, lines = {}, [], text.splitlines() + [""]
    for i, line in enumerate(lines):
        begins = re.match(r"(?:abbrev|unfoldable) pub (\w+) :", line)
        if begins:
            end = lines.index("", i)
            found[begins[1]] = Definition(" ".join(above), begins[1], lines[i + 1 : end])
        above = above + [line[3:]] if line.startswith("-- ") else []
    return found


# ==== what a definition says


class Table:
    def __init__(self):
        self.types, self.known = {}, {}
        for folder in SOURCES:
            for path in sorted(glob.glob(f"{TOP}/{folder}/*.rt")):
                self.types.update(words_of(read(os.path.relpath(path, TOP))))
        for folder in SPECS:
            for path in sorted(glob.glob(f"{TOP}/{folder}/*.antt")):
                self.known.update(definitions_of(read(os.path.relpath(path, TOP))))

    # ---- in words

    def is_one_of(self, of, values, holds):
        words = ["none" if it in ("None", "none") else f"`{it}`" for it in values]
        return f"{of} {'is' if holds else 'isn' + chr(39) + 't'} {' or '.join(words)}"

    def said_of(self, definition, of, holds):
        """Whether a value is one of these variants."""
        usual = dict(definition.cases).get("_", dict(definition.cases).get("any", False))
        values = [it for it, says in definition.cases if it not in ("_", "any") and says != usual]
        return self.is_one_of(of, values, holds != usual)

    def said(self, term, bound, holds=True, inner=False):
        """A condition in words; `bound`: what the names of a definition stand for."""
        if isinstance(term, str):
            it = self.name(term, bound)
            return it if holds else f"not {it}"
        kind, *parts = term
        if kind in ("and", "or"):
            word = kind if holds else ("or" if kind == "and" else "and")
            text = f" {word} ".join(self.said(it, bound, holds, True) for it in parts)
            return f"({text})" if inner and word == "or" else text
        if kind == "is":
            return self.is_one_of(self.name(parts[0], bound), [], holds).rstrip() + f" {self.name(parts[1], bound)}"
        return self.said_call(parts, bound, holds, inner)

    def said_call(self, parts, bound, holds, inner):
        name, *given = parts
        if name == "not":
            return self.said(given[0], bound, not holds, inner)
        if name in ("nat_le", "nat_lt"):
            low, high = (self.name(it, bound) for it in given)
            return f"{high} is {'' if holds else 'not '}{'at least' if name == 'nat_le' else 'above'} {low}"
        if name == "is_none":
            return self.is_one_of(self.name(given[0], bound), ["none"], holds)
        definition = self.known[name]
        if definition.cases:
            return self.said_of(definition, self.name(given[0], bound), holds)
        if not self.is_plain(definition.term):
            return definition.words if holds else f"not: {definition.words}"
        stands = dict(zip(definition.given, (bound.get(it, it) if isinstance(it, str) else it for it in given)))
        return self.said(definition.term, stands, holds, inner)

    def is_plain(self, term):
        """Whether a condition can be told by the names of what is given: else its own words say it."""
        if term is None or isinstance(term, str):
            return term is not None
        kind, *parts = term
        if kind != "of":
            return all(self.is_plain(it) for it in parts)
        it = self.known.get(parts[0])
        return all(self.is_plain(part) for part in parts[1:]) and (parts[0] in PLAIN or it is not None and bool(it.cases or self.is_plain(it.term)))

    def name(self, term, bound):
        if not isinstance(term, str):
            return self.said(term, bound)
        first, _, field = term.partition(".")
        it = bound.get(first, first) + ("." + field if field else "")
        return it if it.isdigit() else f"`{it.rpartition('.')[2]}`"

    def verdict(self, term):
        if not isinstance(term, str):
            inner = self.known.get(term[1])
            return f"the rows of `{term[1]}`" if inner and inner.rows else self.verdict(inner.term if inner else term[1])
        kind, _, name = term.rpartition(".")
        return f"**{name}**: {self.types[kind][name]}" if kind else f"`{term}`"

    # ---- blocks

    def given(self, name):
        rows = [f"| `{field}` | {words} |" for field, words in self.types[name].items() if field]
        return "\n".join([f"| `{name}` | {self.types[name]['']} |", "|---|---|", *rows])

    def table(self, name):
        it = self.known[name]
        head = [textwrap.fill(it.words[:1].upper() + it.words[1:] + ".", 108), ""] if it.words else []
        if it.rows is None:
            return "\n".join([*head, textwrap.fill(f"`{name}`: {self.said(it.term, {})}.", 108)])
        rows, last = it.rows
        lines = [f"| {i} | {self.said(condition, {})} | {self.verdict(says)} |" for i, (condition, says) in enumerate(rows, 1)]
        return "\n".join([*head, f"| `{name}` | where | |", "|---|---|---|", *lines, f"| | else | {self.verdict(last)} |"])

    def written(self, page):
        return BLOCK.sub(lambda it: it[1] + (self.given if it[2] == "given" else self.table)(it[3]) + "\n\n<!-- end -->", page)

    # ---- by hand

    def value(self, term, bound, given):
        """What a term comes out as, where this is given."""
        if isinstance(term, str):
            first, _, field = term.partition(".")
            if term.isdigit():
                return int(term)
            if term[0].isupper():
                return term.rpartition(".")[2]
            return given.get(field, False) if field else bound.get(term, given)
        kind, *parts = term
        if kind in ("and", "or"):
            return (all if kind == "and" else any)(self.value(it, bound, given) for it in parts)
        if kind == "is":
            return self.value(parts[0], bound, given) == self.value(parts[1], bound, given)
        return self.call(parts[0], [self.value(it, bound, given) for it in parts[1:]], given)

    def call(self, name, values, given):
        plain = {"not": lambda it: not it, "nat_le": lambda a, b: a <= b, "nat_lt": lambda a, b: a < b, "is_none": lambda it: it is False}
        if name in plain:
            return plain[name](*values)
        it = self.known[name]
        if it.cases:
            value = "None" if values[0] is False else values[0]
            return next(says for case, says in it.cases if case in (value, "_") or case == "any" and value != "None")
        if it.rows is None:
            return self.value(it.term, dict(zip(it.given, values)), given)
        rows, last = it.rows
        bound = dict(zip(it.given, values))
        return self.value(next((says for condition, says in rows if self.value(condition, bound, given)), last), bound, given)

    def worked(self, page):
        """The rows that are worked by hand, and what is wrong of them."""
        rows = WORKED.findall(page)
        for name, words, wanted in rows:
            given = dict((it.split() + [True])[:2] for it in words.replace(";", ",").split(",") if it.strip())
            given = {field: int(value) if str(value).isdigit() else value for field, value in given.items()}
            said = self.call(name, [given], given)
            if {True: "yes", False: "no"}.get(said, said) != wanted.strip():
                yield f"{name}: {words}: {said}, not {wanted}"
        left = {name for name, it in self.known.items() if it.rows} - {row[0] for row in rows} - {"next_piece"}
        yield from (f"no row of {it} is worked by hand" for it in sorted(left))


def main():
    parser = argparse.ArgumentParser(description=__doc__, formatter_class=argparse.RawDescriptionHelpFormatter)
    parser.add_argument("--write", action="store_true")
    parser.add_argument("--check", action="store_true")
    given = parser.parse_args()
    page, table = read(PAGE), Table()
    text = table.written(page)
    faults = list(table.worked(text))
    if given.write and text != page:
        with open(os.path.join(TOP, PAGE), "w", encoding="utf-8") as file:
            file.write(text)
    elif text != page:
        faults.append(f"{PAGE} has other tables than the definitions: tools/dev/gateway_page.py --write")
    print("\n".join(faults) or f"{PAGE}: {len(BLOCK.findall(text))} tables as they are defined, {len(WORKED.findall(text))} rows by hand")
    return int(bool(faults))


if __name__ == "__main__":
    sys.exit(main())
