#!/usr/bin/env python3
"""Writes the pages of contracts: of each crate that the cache is made of each public function with its signature, its clauses and what is said of it, and of
each definition that a clause names the line where it stands.

    contract_pages.py --write    writes docs/reference/contracts, and the tables of docs/proved.md and of the pages of docs/proved
    contract_pages.py --check    fails where one of them isn't what the sources give

What no contract says stands by hand in the pages of docs/proved: one for each face below, which leads to its crates. A page of contracts that is longer
than MOST_LINES is cut between modules.
"""
import argparse
import os
import re
import sys

sys.dont_write_bytecode = True
TOP = os.path.dirname(os.path.dirname(os.path.dirname(os.path.realpath(__file__))))

from pages.definitions import Specs  # noqa: E402
from pages.files import change, linked, read  # noqa: E402
from pages.rattle_source import Crate  # noqa: E402
from towers import sentence  # noqa: E402

FOLDER = "docs/reference/contracts"
MOST_LINES = 400
# By the page of docs/proved: what it is about, and its crates, those that are called first before those below them.
FACES = {
    "tier": ("the tier and its promise", "tier_single tier_promise tier_laws tier_model tier_requests"),
    "requests": ("requests over a store", "request_cache request_puts request_store request_phases head_parse"),
    "store": ("the store, the lock, the predictor", "store_memory cache_store head_packed cache_lock request_predictor"),
    "order": ("the order of use: eviction", "cache_evict lru_numbers lru_core lru_list lru_files seeded_hashing pingora_lru lru_actors lru_async lru_async_manager"),
    "words": ("keys, moments, heads, entries", "cache_words cache_entries cache_changes head_lines head_directives cache_heads head_metas"),
    "sharing": ("a tier that threads share", "tier_shared tier_recorded"),
    "traces": ("traces and their program", "trace_replay trace_lines"),
    "embedding": ("the C library", "cache_tier_c tier_calls"),
    "planning": ("curves of hits over sizes", "curve_lines curve_keys curve_timed curve_held curve_runs curve_fresh curve_sizes curve_heights curve_sums curve_loads "
                 "curve_words curve_laws tier_served tier_pairs tier_loads"),
    "rules": ("HTTP's rules", "rules_ffi rules_serving rules_quick rules_ffi_results rules_ffi_arguments http1_message rules_storage rules_reuse rules_response "
              "rules_forward http1_message_parts rules_fields structured_fields rules_laws"),
    "gateway": ("the gateway: its calls, tables, framing and steps", "gateway gateway_calls gateway_responses gateway_sides gateway_tier gateway_state gateway_exchanges gateway_rules gateway_steps gateway_rows gateway_frames"),
}
# Crates without a page: what they have is another's or plain data, or not all of it is proved yet.
WITHOUT = re.compile(r"cache_tier|pingora_cache|gateway(_\w+)?")
BLOCK = re.compile(r"<!-- contracts -->\n.*?<!-- end -->", re.S)


def beside(face):
    """The page that has what no contract of a face says."""
    return f"docs/proved/{face}.md"


def libraries():
    """The crates of crates.txt that others call."""
    names = [it.split(":")[0].split()[0] for it in read("crates.txt").splitlines() if it.strip() and not it.startswith("#")]
    return [it for it in names if not it.startswith(("test_", "example_")) and os.path.exists(os.path.join(TOP, "crates", it, "src", "lib.rt"))]


def reasons():
    """Why a function has no clause, by its crate and name: what tools/dev/contracts.list says."""
    rows = (it.split(" ", 2) for it in read("tools/dev/contracts.list").splitlines() if it.strip() and not it.startswith("#"))
    return {(crate, name): why for crate, name, why in rows}


def said(above):
    """What stands above a function, as a page has it: its headings as the beginning of a paragraph, without links into the sources."""
    text = re.sub(r"\[(`[^`\]]*`)\](?:\([^)\s]*\))?", r"\1", "\n".join(above).strip())
    text = re.sub(r"(?m)^#+ (\w.*)\n+(?=\S)", r"**\1.** ", text)
    return text.replace("<!--", "&lt;!--")


def clause(word, name, text):
    return "\n".join(["    " + (f"{word} {name}" if name else word) + ": " + text.split("\n")[0], *("    " + it for it in text.split("\n")[1:])])


class Page:
    """The page of a crate, or a part of it."""

    def __init__(self, crate, specs, why):
        self.crate, self.specs, self.why = crate, specs, why

    def in_c(self, name):
        """Where the call of C stands that an export is for."""
        found = re.fullmatch(r"cache_(tier|rules)1_(\w+)", name) if self.crate.name == "cache_tier_c" else None
        if not found:
            return []
        page, table = {"tier": ("c", "interface"), "rules": ("c-rules", "interface_rules")}[found[1]]
        return [f"What [`cache_{found[1]}_{found[2]}`](../{page}.md#{found[2]}) calls.", ""] if f"\n[call.{found[2]}]\n" in read(f"embed/{table}.toml") else []

    def shown(self, it):
        """The lines of a function."""
        title = it.title if it.type else "::".join([*([] if it.module == "lib" else [it.module]), it.name])
        if it.block.is_for:
            title += f" of `{re.sub('^impl *(<.*?>)? *', '', it.block.head).split(' for ')[0].split('<')[0]}`"
            title = f"`{title.replace(' of ', '` of ', 1)}"
        else:
            title = f"`{title}`"
        head = [it.block.head] if it.type and not it.block.is_for and "<" in it.block.head else [it.block.head] if it.block.is_for else []
        lines = [f"### {title}", "", *([said(it.above), ""] if it.above else self.in_c(it.name)), "```text", *head, it.signature, *(clause(*its) for its in it.clauses), "```", ""]
        if not it.clauses:
            lines += [self.without(it), ""]
        return "\n".join(lines).split("\n")

    def without(self, it):
        """What is said of a function without a clause."""
        told = self.why.get((self.crate.name, it.title if it.type else it.name), "")
        tests = [f"`{word[1:]}`" for word in told.split() if word.startswith("+")]
        words = " ".join(word for word in told.split() if not word.startswith("+"))
        plain = "No clause: it is proved safe, and to return."
        return " ".join([plain, *([words] if words else []), *([f"Tests refuse {', '.join(tests)}."] if tests else [])])

    def groups(self, functions):
        """Functions by their types, in the order in which these come; free ones by their modules."""
        found = {}
        for it in functions:
            found.setdefault((it.type, "" if it.type else it.module), []).append(it)
        return found

    def section(self, key, functions):
        """The lines of a type, or of a module's free functions."""
        name, module = key
        where = self.crate.type_at(name) if name else None
        title = f"## `{name}`" if name else f"## Functions of `{self.crate.name if module == 'lib' else module}`"
        above = [said(where[2]), ""] if where and where[2] else []
        value, always, _ = self.crate.model(name) if name else (None, None, "")
        above += [f"A contract sees it as `{value}`" + (", of which this always holds:" if always else "."), ""] if value else []
        above += ["```text", always, "```", ""] if value and always else []
        return [title, "", *"\n".join(above).split("\n"), *(line for it in functions for line in self.shown(it))]

    def named(self, functions):
        """The table of the definitions that the clauses of these functions name."""
        found = {}
        for name in {it.type for it in functions if it.type}:
            value, always, text = self.crate.model(name)
            found.update(self.specs.named(f"{value} {always}", text) if value else {})
        for it in functions:
            text = "\n".join(text for _, _, text in it.clauses)
            found.update(self.specs.named(text, self.crate.texts[it.module]))
        rows = [f"| [`{name}`]({linked(FOLDER, path)}#L{line}) | {said.replace('|', chr(92) + '|')} |" for name, (path, line, said) in sorted(found.items())]
        places = sorted({(path, line) for path, line, _ in found.values()})
        records = [lines for lines in (self.specs.record(self.crate.name, *it) for it in places if it[0].endswith(".antt")) if lines]
        quoted = ["## Records among these", "", "A record that is a claim holds where each of its fields does.", "", "```text", *"\n\n".join("\n".join(it) for it in records).split("\n"), "```", ""]
        return ["## Definitions", "", "What the clauses above name. What isn't here is of a library: `rt doc` leads there.", "", "| Definition | It says |",
                "|---|---|", *rows, "", *(quoted if records else [])] if rows else []

    def length(self, functions):
        return sum(len(self.shown(it)) for it in functions) + len(self.named(functions))

    def units(self, functions, deep=0):
        """Functions in units that stay together: those of a module, or where these are too many of the modules within it, or of a type."""
        def key(it):
            parts = it.module.split("::")
            return parts[0] if deep == 0 else parts[-1] if deep == 1 else it.type.lower() or parts[-1]
        found = {}
        for it in functions:
            found.setdefault(key(it), []).append(it)
        for its in found.values():
            yield from self.units(its, deep + 1) if deep < 2 and self.length(its) > MOST_LINES - 40 else [its]

    def cut(self, functions):
        """Functions in parts of about MOST_LINES lines."""
        parts = []
        for its in self.units(functions):
            if parts and self.length(parts[-1] + its) <= MOST_LINES - 40:
                parts[-1] += its
            else:
                parts.append(its)
        return parts

    def files(self, face):
        """The path and the text of each part."""
        parts = self.cut(self.crate.functions) or [[]]
        names = [self.crate.name + (f"-{i + 1}" if i else "") for i in range(len(parts))]
        others = [f"[{name}]({name}.md)" for name in names]
        for i, (name, functions) in enumerate(zip(names, parts)):
            part = f", part {i + 1} of {len(names)}" if len(names) > 1 else ""
            rest = [it for it in others if not it.startswith(f"[{name}]")]
            head = ["<!-- generated by tools/dev/contract_pages.py -->", "", f"# Contracts of `{self.crate.name}`{part}", "", said(self.crate.about), ""]
            head += [f"The rest of `{self.crate.name}`: {', '.join(rest)}.", ""] if rest else []
            head += [f"[What of this isn't proved]({linked(FOLDER, beside(face))}) · [how to read a contract]({linked(FOLDER, 'docs/proved.md')}#how-to-read-a-contract)", ""]
            body = [line for key, its in self.groups(functions).items() for line in self.section(key, its)]
            text = "\n".join([*head, *body, *self.named(functions)])
            yield f"{FOLDER}/{name}.md", re.sub(r"\n{3,}", "\n\n", text).rstrip("\n") + "\n", len(functions)


def crate_table(face, pages):
    """The table of a face's crates, for its page in docs/proved."""
    rows = ["| Contracts of | What it is | Functions |", "|---|---|---|"]
    for name in FACES[face][1].split():
        its = pages[name]
        rows.append(f"| {', '.join(f'[`{os.path.basename(path)[:-3]}`]({linked(os.path.dirname(beside(face)), path)})' for path, _, _ in its)} | {sentence(name)} | {sum(n for _, _, n in its)} |")
    return rows


def face_table(pages):
    """The table of faces, for docs/proved.md."""
    rows = ["| What | Contracts |", "|---|---|"]
    for face, (title, names) in FACES.items():
        links = (f"[`{name}`]({linked('docs', pages[name][0][0])})" for name in names.split())
        rows.append(f"| [{title}]({linked('docs', beside(face))}) | {', '.join(links)} |")
    return rows


def filled(text, rows):
    """A page with a table in its place."""
    return BLOCK.sub(lambda _: "\n".join(["<!-- contracts -->", "", *rows, "", "<!-- end -->"]), text)


def texts():
    """All that is to be written, by path."""
    every = libraries()
    crates = {it: Crate(TOP, it) for it in every}
    named = [it for _, names in FACES.values() for it in names.split()]
    lost = [it for it in every if it not in named and not WITHOUT.fullmatch(it)]
    if lost:
        raise SystemExit(f"contract_pages: on no page: {', '.join(sorted(lost))}: FACES or WITHOUT names each crate")
    specs, why = Specs(TOP, crates), reasons()
    pages = {name: list(Page(crates[name], specs, why).files(face)) for face, (_, names) in FACES.items() for name in names.split()}
    found = {path: text for its in pages.values() for path, text, _ in its}
    for face in FACES:
        found[beside(face)] = filled(read(beside(face)), crate_table(face, pages))
    found["docs/proved.md"] = filled(read("docs/proved.md"), face_table(pages))
    return found


def main():
    parser = argparse.ArgumentParser(description=__doc__, formatter_class=argparse.RawDescriptionHelpFormatter)
    way = parser.add_mutually_exclusive_group(required=True)
    way.add_argument("--write", action="store_true")
    way.add_argument("--check", action="store_true")
    return change("contract_pages", texts(), parser.parse_args().write, FOLDER)


if __name__ == "__main__":
    sys.exit(main())
