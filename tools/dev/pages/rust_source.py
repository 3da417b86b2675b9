"""What a module of the crate in Rust exports: its types with fields, variants and methods, its functions, each with what stands above it."""
import re

PRIVATE = ("ffi", "raw")  # the exports and structs of the library
ITEM = r"^pub (struct|enum|trait|fn|type|const) {}\b"


def docs(lines, at):
    """The lines of documentation right above a line, whatever attributes stand between."""
    first = at
    while first and re.match(r"\s*(///|#\[)", lines[first - 1]):
        first -= 1
    return [it.strip()[3:].removeprefix(" ") for it in lines[first:at] if it.strip().startswith("///")]


def body_of(lines, at):
    """The line behind the block, or the item, that begins at a line."""
    indent = re.match(r" *", lines[at])[0]
    if lines[at].rstrip().endswith((";", "}")):
        return at + 1
    while lines[at] not in (indent + "}", indent + "};") and not re.match(rf"{indent}\S.*;$", lines[at]):
        at += 1
    return at + 1


def signature(lines, at):
    """The head of a function on one line."""
    text = ""
    while True:
        text += " " + lines[at].strip()
        if text.rstrip().endswith(("{", ";", "}")):
            return re.sub(r"\s*(\{.*|;)$", "", re.sub(r",\s*\)", ")", text.strip()).replace("( ", "("))
        at += 1


class Source:
    """The files of a module and of what it takes from others."""

    def __init__(self, folder, main):
        paths = sorted(folder.glob("**/*.rs" if folder.name != "src" else "*.rs"))
        self.files = {it: it.read_text(encoding="utf-8").splitlines() for it in paths if it.stem not in PRIVATE}
        self.lines = (folder / main).read_text(encoding="utf-8").splitlines()
        self.beside = {path: path.read_text(encoding="utf-8").splitlines() for path in sorted(folder.parent.glob("*.rs"))}
        self.about = [it[3:].removeprefix(" ") for it in self.lines if it.startswith("//!")]

    def names(self):
        """What is exported, in the order in which it stands there."""
        text = re.sub(r"(?m)^\s*//.*$", "", "\n".join(self.lines))
        for module, many, one in re.findall(r"^pub use (\w+)::(?:\{([^}]*)\}|(\w+));", text, re.M):
            yield from ((module, name) for name in re.findall(r"\w+", many or one))
        yield from (("", name) for name in re.findall(r"^pub (?:fn|type|struct|enum|trait) (\w+)", text, re.M))

    def item(self, module, name):
        """The lines of the file that declares a name, and where: that of its module, or one from which this has it."""
        own = [lines for path, lines in self.files.items() if path.stem == module or path.parent.name == module]
        for lines in [*own, self.lines, *self.files.values(), *self.beside.values()]:
            for at, line in enumerate(lines):
                if re.match(ITEM.format(name), line):
                    return lines, at
        raise SystemExit(f"rust_source: nothing declares {name}")

    def parts(self, lines, at):
        """The public fields of a struct, or the variants of an enum: each with its type and what stands above it."""
        kind, found = re.match(r"pub (\w+)", lines[at])[1], []
        inside = "    " if kind != "fn" else None
        end, i = body_of(lines, at), at + 1
        while i < end - 1:
            row = re.match(rf"{inside}(?:pub )?(\w+)(.*?),?(?: //.*)?$", lines[i])
            if row and lines[i].startswith(inside) and lines[i][4] != " " and (kind == "enum" or "pub " in lines[i]):
                more, last = row[2], i
                while kind == "enum" and more.count("{") > more.count("}"):
                    last += 1
                    more += " " + lines[last].strip()
                found.append((row[1], re.sub(r"^: ", "", more).strip().rstrip(",").replace(", }", " }"), docs(lines, i)))
                i = last
            i += 1
        return found

    def methods(self, name):
        """The public methods of a type, or what a trait asks for: each with its signature and what stands above it."""
        block = re.compile(rf"^(?:impl(?:<.*?>)? {name}\b(?!.* for )|pub trait {name}\b)")
        for lines in self.files.values():
            for at, line in enumerate(lines):
                if block.match(line) and line.endswith("{"):
                    is_trait = line.startswith("pub trait")
                    for i in range(at + 1, body_of(lines, at)):
                        found = re.match(r"    (pub )?(?:const )?(?:unsafe )?fn (\w+)", lines[i])
                        if found and (found[1] or is_trait):
                            yield found[2], signature(lines, i), docs(lines, i)
