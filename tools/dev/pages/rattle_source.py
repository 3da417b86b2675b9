"""The public functions of a crate in Rattle, as its files in src have them: each with what stands above it, its signature and its clauses."""
import os
import re

HEAD = re.compile(r'^( *)(pub )?(?:const )?(?:unsafe )?(?:extern "C" )?(?:async )?fn (\w+)')
BLOCK = re.compile(r"^(?:pub )?(?:unsafe )?(impl|trait)\b")
TYPE = re.compile(r"^pub (?:struct|enum|trait|const|type) (\w+)")
CLAUSE = re.compile(r"^(requires|ensures|ghost|raises|reads|writes|waits|decreases)\b(\*?) *([\w ,]*?):? *$")
OPEN, SHUT = "([{", ")]}"


class Function:
    """A function: its module and type, what stands above it, its signature, and its clauses: each a word, a name and a text."""

    def __init__(self, **its):
        self.__dict__.update(its)

    @property
    def title(self):
        return f"{self.type}::{self.name}" if self.type else self.name


def name_of_block(head):
    """The type of an `impl`, or the name of a trait: without parameters and bounds."""
    text = re.sub(r"\bwhere\b.*", "", head)
    while re.search(r"<[^<>]*>", text.replace("->", "  ")):
        text = re.sub(r"<[^<>]*>", "", text.replace("->", "  "))
    words = re.findall(r"\w+", text.split(" for ")[-1].split(":")[0])
    return words[-1] if words else ""


def shifted(text):
    """A clause's text on its lines, those after the first set in alike."""
    lines = [it.rstrip() for it in text.strip().splitlines() if not it.strip().startswith("//")]
    least = min((len(it) - len(it.lstrip()) for it in lines[1:]), default=0)
    return "\n".join([lines[0], *("  " + it[least:] for it in lines[1:])]) if lines else ""


def parts(lines, at):
    """The signature of the function that begins at a line, its clauses, and the line where it ends."""
    text = re.sub(r"(?m)^\s*//.*$", "", "\n".join(lines[at:]))
    depth, begun, opened, signature, clauses, word = 0, 0, 0, None, [], None
    for i, sign in enumerate(text):
        if depth == 0 and sign in "{;":
            before = text[begun:i]
            if signature is None:
                found = re.search(r"\n\s+(?:requires|ensures|ghost|raises|reads|writes|waits|decreases)\b", before)
                signature, before = (before[: found.start()], before[found.start() :]) if found else (before, "")
            word = CLAUSE.match(" ".join(before.split())) if sign == "{" else None
            if not word:
                return signature, clauses, at + text[:i].count("\n")
            opened = i + 1
        depth += (sign in OPEN) - (sign in SHUT)
        if depth == 0 and sign == "}" and word:
            clauses.append((word[1] + word[2], word[3].strip(), shifted(text[opened:i])))
            begun, word = i + 1, None
    raise SystemExit(f"a function without an end: {lines[at]}")


def plain_signature(text):
    """A signature on its lines as they are, without what they are set in by."""
    lines = text.rstrip().splitlines()
    least = len(lines[0]) - len(lines[0].lstrip())
    return "\n".join(it[least:] for it in lines)


class Block:
    """An `impl` or a trait that is being read."""

    def __init__(self, head=""):
        self.head, self.type = head, name_of_block(head) if head else ""
        self.is_trait = re.match(r"pub (?:unsafe )?trait\b", head) is not None
        self.is_for = head.startswith("impl") and " for " in re.sub(r"<[^<>]*>", "", head)


def functions_of(module, text):
    """The functions of a file that another crate can call, and those of an `impl` of a trait that have clauses of their own."""
    lines, block, above, at = text.split("\n"), Block(), [], 0
    while at < len(lines):
        line = lines[at]
        if line.strip().startswith("///"):
            above.append(line.strip()[3:].removeprefix(" "))
        elif BLOCK.match(line):
            head = line
            while "{" not in lines[at].split("//")[0] and at + 1 < len(lines):
                at += 1
                head += " " + lines[at].strip()
            block, above = Block(head.split("{")[0].strip()), []
        elif line == "}":
            block, above = Block(), []
        elif HEAD.match(line):
            found = HEAD.match(line)
            signature, clauses, end = parts(lines, at)
            is_shown = found[2] or (len(found[1]) == 4 and (block.is_trait or (block.is_for and clauses)))
            if is_shown and len(found[1]) <= 4:
                yield Function(module=module, type=block.type if found[1] else "", name=found[3], block=block, above=above,
                               signature=plain_signature(signature), clauses=clauses, line=at + 1)
            at, above = end, []
        elif not line.strip().startswith("#["):
            above = []
        at += 1


class Crate:
    """A crate's files, what its first lines say, its public types and its public functions."""

    def __init__(self, top, name):
        self.name, self.folder = name, os.path.join("crates", name, "src")
        self.texts = {}
        for at, _, files in sorted(os.walk(os.path.join(top, self.folder))):
            for file in sorted(it for it in files if it.endswith(".rt")):
                path = os.path.join(at, file)
                with open(path, encoding="utf-8") as it:
                    self.texts[os.path.relpath(path, os.path.join(top, self.folder))[:-3].replace(os.sep, "::")] = it.read()
        self.about = [it[3:].strip() for it in self.texts["lib"].splitlines() if it.startswith("//!")]
        self.functions = [it for module in self.in_order() for it in functions_of(module, self.texts[module]) if self.is_public(it)]

    def in_order(self):
        """The modules: each before those within it, these in the order in which it names them, and laws last."""
        def below(module):
            yield module
            for name in re.findall(r"^(?:pub(?:\(crate\))? )?mod (\w+);", self.texts[module], re.M):
                inner = name if module == "lib" else f"{module}::{name}"
                if inner in self.texts:
                    yield from below(inner)
        return sorted(below("lib"), key=lambda it: "laws" in it.split("::"))

    def is_public(self, function):
        """Whether another crate can name a free function; of a method its type decides."""
        if function.type or function.module == "lib":
            return True
        at, named = "lib", function.module.split("::")
        used = re.compile(rf"^pub use [^;]*\b{function.name}\b[^;]*;", re.M)
        for i, name in enumerate(named):
            if not re.search(rf"^pub mod {name};", self.texts[at], re.M):
                return any(used.search(text) for text in self.texts.values())
            at = "::".join(named[: i + 1])
        return True

    def path(self, module):
        return os.path.join(self.folder, module.replace("::", os.sep) + ".rt")

    def model(self, name):
        """What a contract sees of a type, what always holds of it, and the text that names these; none where it has no model."""
        for text in self.texts.values():
            found = re.search(rf"^impl[^\n]* Model for {name}\b.*?^\}}", text, re.M | re.S)
            if found:
                value, always = (re.search(rf"ghost {it} = \{{(.*?)\}};\n", found[0], re.S) for it in ("Value", "invariant"))
                return value and " ".join(value[1].split()), always and shifted(always[1]), text
        return None, None, ""

    def type_at(self, name):
        """The file and the line of a public type, and what stands above it; none where there is none."""
        for module, text in self.texts.items():
            lines = text.splitlines()
            for i, line in enumerate(lines):
                found = TYPE.match(line)
                if found and found[1] == name:
                    above = i
                    while above and lines[above - 1].startswith(("///", "#[")):
                        above -= 1
                    return self.path(module), i + 1, [it[3:].removeprefix(" ") for it in lines[above:i] if it.startswith("///")]
        return None
