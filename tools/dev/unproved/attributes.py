"""The inline attributes of functions, read from the sources by the names that functions have in a module."""
import os
import re


class Attributes:
    """The inline attributes in the sources of the checkout and of the kit, by the names that functions have in a module."""

    FN = re.compile(r"\s*(?:pub(?:\([a-z ]+\))? )?(?:const )?(?:unsafe )?(?:extern \"C\" )?fn (\w+)")
    MARK = re.compile(r"\s*#\[inline(?:\((always|never)\))?\]")

    def __init__(self, folders, apart=()):
        # functions of these names are never inlined
        self.found, self.apart = {}, apart
        for crate, folder in folders.items():
            for at, _, names in os.walk(f"{folder}/src"):
                for name in names:
                    if name.endswith(".rt"):
                        module = os.path.relpath(f"{at}/{name}", f"{folder}/src")[:-3].split("/")
                        self.read(crate, [it for it in module if it not in ("lib", "main", "mod")], f"{at}/{name}")

    def read(self, crate, module, path):
        with open(path, encoding="utf-8", errors="replace") as file:
            lines = file.read().split("\n")
        owners, end, mark, head = [""], None, None, None
        for line in lines:
            if end is None and re.match(r"\s*(?:unsafe )?impl\b", line):
                head, end = "", line[: len(line) - len(line.lstrip())] + "}"
            if head is not None:
                head += f" {line.strip()}"
                if "{" in line:
                    owners, head = self.owners(head), None
                if "}" in line and line.rstrip().endswith("}") and line.count("{") == line.count("}"):
                    owners, end, head = [""], None, None
                continue
            if line == end:
                owners, end = [""], None
            it = self.MARK.match(line)
            if it and mark != "cold":
                mark = it[1] or "hint"
            elif line.strip() == "#[cold]":
                mark = "cold"
            it = self.FN.match(line)
            if it:
                for owner in owners:
                    self.found.setdefault((crate, it[1]), {}).setdefault(owner, {}).setdefault("::".join(module), set()).add(mark)
                mark = None
            elif re.match(r"\s*[^/#]*\bfn \$", line):
                mark = None  # a macro's, whose name isn't known here

    @staticmethod
    def owners(head):
        """The names that a module has for an impl: `impl Trait<X> for Type` is TypeTrait there, or TypeTraitX; Drop is Type alone.
        *Trait is for a type that has another name there: a reference, a number, a tuple, what a macro puts in."""
        text = re.sub(r"^\s*(unsafe )?impl\b", "", head)
        flat, depth = "", 0
        for at, it in enumerate(text):
            depth += (it in "<([") - (it in ")]" or it == ">" and text[at - 1] != "-")
            flat += it if depth == 0 and it not in ">)]" else ""
        name = lambda it: (re.findall(r"\w+", re.split(r"\bwhere\b|\{", it)[0].replace("mut ", "")) or [""])[-1]
        trait, has, of = flat.partition(" for ")
        return [name(of) + name(trait), f"*{name(trait)}", *[name(of)] * (name(trait) == "Drop")] if has else [name(flat)]

    def of(self, symbol):
        """Returns always, never, hint or None. A method of a type has the type's path, wherever its impl stands."""
        crate, _, path = re.sub(r"::<.*$", "", symbol).partition("::")
        *inner, fn = path.split("::")
        if fn in self.apart:
            return "never"
        by = self.found.get((crate, fn), {})
        last = inner[-1] if inner else ""
        if last[:1].isupper():
            inner = inner[:-1]
            here = [it for it in by if it and "::".join(inner) in by[it]]
            owners = [last] if last in by else sorted((it for it in by if it and last.startswith(it)), key=len)[-1:]
            owners = owners or sorted((it for it in here if it[0] == "*" and last.endswith(it[1:])), key=len)[-1:]
        else:
            owners = [""] if "::".join(inner) in by.get("", {}) else []
        marks = set()
        for it in owners:
            here = by[it].get("::".join(inner))
            marks |= here or set().union(*by[it].values())
        if len(marks) < 2:
            return next(iter(marks), None)
        # several functions of one name that can't be told apart
        return "always" if "always" in marks and "never" not in marks else "hint"
