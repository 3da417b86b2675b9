"""The definitions in specs that a contract names: where each stands, and what is said of it."""
import os
import re

from definition_lines import WORD, imports_of

BEGINS = r"^(?:  )?(?:(?:abbrev|unfoldable|pub|record|data|mutual) )*{}(?: |:|$)"
MOST_WORDS = 60


class Specs:
    """The files of specs of all crates, read as they are asked for."""

    def __init__(self, top, crates):
        self.top, self.crates, self.files = top, crates, {}

    def file(self, crate, module):
        """The path and the lines of a file of specs; none where the repository has none."""
        key = (crate, module)
        if key not in self.files:
            path = os.path.join("crates", crate, "specs", module.replace(".", "/") + ".antt")
            full = os.path.join(self.top, path)
            text = None
            if os.path.isfile(full):
                with open(full, encoding="utf-8") as it:
                    text = it.read()
            self.files[key] = text and (path, text.splitlines(), imports_of(text.replace("\npub use ", "\nuse "))[0])
        return self.files[key]

    def place(self, crate, module, name, deep=4):
        """The path, the line and the comment of a definition, of a type where it is one of the code; none of a library's."""
        if crate not in self.crates or not deep:
            return None
        if module.startswith("declared."):
            return self.declared(crate, module, name)
        it = self.file(crate, module)
        if it is None:  # a case of a type, which its type's name stands before
            return self.place(crate, *module.rsplit(".", 1), deep - 1) if "." in module else None
        path, lines, used = it
        for i, line in enumerate(lines):
            if re.match(BEGINS.format(re.escape(name)), line) and not line.startswith(("use ", "pub use ")):
                return path, i + 1, comment_above(lines, i) or declared_as(line)
        for i, line in enumerate(lines):  # a case or a field
            if re.match(rf"\s+(?:pub )?{re.escape(name)}\s*:", line):
                return path, i + 1, comment_above(lines, i)
        return self.place(*used[name], deep - 1) if name in used else None

    def record(self, crate, path, line):
        """The lines of a record of a crate, with what stands above its fields; none of another definition."""
        own = next((lines for at, lines, _ in filter(None, self.files.values()) if at == path), [])
        if not path.startswith(f"crates/{crate}/specs/") or not re.match(r"(?:\w+ )*record ", own[line - 1]):
            return []
        end = line
        while end < len(own) and own[end].startswith("  "):
            end += 1
        return [re.sub(r"^(?:unfoldable )?pub record", "record", own[line - 1]), *(re.sub(r"^  pub ", "  ", it) for it in own[line:end])]

    def declared(self, crate, module, name):
        """A type of the code; of a variant its type."""
        parts = module.split(".")
        it = name if parts[-1] == "TheConstants" else parts[-2] if parts[-1] == "TheVariants" else parts[-1]
        found = self.crates[crate].type_at(it)
        return found and (found[0], found[1], " ".join(found[2]).split("  ")[0])

    def named(self, text, source):
        """Of each name in a contract that the repository defines, its place."""
        names, modules = imports_of(source)
        found = {}
        for alias, place in modules.items():
            for word in re.findall(rf"(?<![\w.]){re.escape(alias)}\.({WORD.pattern})", text):
                found[word] = self.place(*place, word)
        for word in set(WORD.findall(text)) & set(names):
            found[word] = self.place(*names[word])
        # (a type's field or method stands behind a dot, as `State.found`)
        for word in {it.split(".")[0] for it in WORD.findall(text) if "." in it} & set(names):
            found.setdefault(word, self.place(*names[word]))
        return {word: it for word, it in found.items() if it}


def declared_as(line):
    """The type of a definition without a comment, as it is declared."""
    text = re.sub(r"^ *(?:(?:abbrev|unfoldable|pub|record|data) )*", "", line).removesuffix(" where").strip()
    return f"`{text}`"


def comment_above(lines, at):
    """The comment that ends right above a line, cut off past MOST_WORDS words."""
    first = at
    while first and re.match(r"\s*-- (?!---)", lines[first - 1]):
        first -= 1
    words = " ".join(re.sub(r"^\s*-- ", "", it) for it in lines[first:at]).split()
    return " ".join(words[:MOST_WORDS]) + (" .." if len(words) > MOST_WORDS else "")


def definition_texts(folder):
    """Each definition of a folder of specs as it stands there, without comments, from its declared type on."""
    found = {}
    for path in sorted(folder.glob("**/*.antt")):
        text = re.sub(r"(?m)^\s*--.*\n", "", path.read_text(encoding="utf-8"))
        for it in re.split(r"(?m)^(?=(?:abbrev|unfoldable|record|pub|data) )", text):
            head = re.match(r"(?:(?:abbrev|unfoldable|pub|record|data) )+([\w-]+)", it)
            if head and not it.startswith("pub use "):
                found[head[1]] = it
    return found
