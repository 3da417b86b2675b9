"""What an edit says, what it makes of a crate's texts, and in which function it stands."""
import os
import re
from collections import namedtuple

Pair = namedtuple("Pair", "path old new")
# A function of a text: its first and last line from 1 (with the comments and attributes above it), its name, the impl or
# trait that it stands in, the name of its cycle of calls, whether it is a const one, and whether it is public: a trait's methods are.
Function = namedtuple("Function", "first last name owner cycle is_const is_public")
# An impl of a trait ('' for none) for a type, or a trait as the type; the words of the type, and the impl's parameters.
Owner = namedtuple("Owner", "kind trait words parameters")
FUNCTION = re.compile(r"(\s*)(?:pub(?:\([\w ]+\))? )?(const )?(?:unsafe )?fn (\w+)")
OWNER = re.compile(r"(\s*)(?:unsafe )?(?:pub(?:\([\w ]+\))? )?(impl|trait)\b(.*)")
# The heading of an edit in a file of edits.
HEADING = re.compile(r"== ([a-z][a-z0-9_]*)")


class BadEdit(Exception):
    """Why an edit can't be applied."""


def read(path):
    """A text file of the repository."""
    with open(path, encoding="utf-8") as it:
        return it.read()


def edits_in(text):
    """The texts of a file of edits by their names, and what is wrong with the file, in words: an edit is a heading '== NAME' with its lines below, and an empty line stands between two."""
    found, wrong, name = {}, [], None
    for number, line in enumerate(text.removesuffix("\n").split("\n"), 1):
        told = HEADING.fullmatch(line)
        if told and told[1] not in found:
            name = told[1]
            found[name] = ""
        elif told or line.startswith("=="):
            wrong.append(f"line {number}: {'a heading that stands above another edit too' if told else 'a heading is == NAME_IN_SNAKE_CASE'}: {line[:60]}")
        elif line and name is None:
            wrong.append(f"line {number}: it stands under no heading: {line[:60]}")
        elif line:
            found[name] += line + "\n"
    return found, wrong


def pairs_of(text):
    """The pairs of old and new text of an edit; of each pair the file is the one last named."""
    path, old, pairs = None, None, []
    for line in text.split("\n"):
        if line.startswith("file: "):
            path = line[len("file: ") :].strip()
            if os.path.normpath(path) != path or not path.startswith("src/"):
                raise BadEdit("a 'file:' line names no file below src/")
        elif line.startswith("old: "):
            old = line[len("old: ") :]
        elif line.startswith("new:"):
            if not path or not old:
                raise BadEdit("a 'new:' line stands before any 'file:' or 'old:' line")
            new = line[len("new:") :]
            new = new[1:] if new.startswith(" ") else new
            if new == old:
                raise BadEdit("a 'new:' text is its 'old:' text")
            pairs.append(Pair(path, old, new))
            old = None
        elif line.strip():
            raise BadEdit(f"a line is none of 'file:', 'old:' and 'new:': {line[:60]}")
    if not pairs or old:
        raise BadEdit("it has no 'old:' and 'new:' pair, or a last 'old:' with no 'new:'")
    return pairs


def applied(pairs, texts):
    """The texts by path after the pairs in their order; an old text must stand exactly once when its turn comes."""
    made = dict(texts)
    for path, old, new in pairs:
        if path not in made:
            raise BadEdit(f"there is no file {path}")
        found = made[path].count(old)
        if found != 1:
            raise BadEdit(f"an 'old:' text is in {path} {found} times, and not once: {old.strip()[:80]}")
        made[path] = made[path].replace(old, new)
    if all(made[path] == texts[path] for path in made):
        raise BadEdit("its pairs together change nothing")
    return made


def texts_of(folder):
    """The texts of the crate's src by their path in the crate."""
    found = {}
    for at, _, names in os.walk(os.path.join(folder, "src")):
        for name in names:
            if name.endswith(".rt"):
                path = os.path.join(at, name)
                found[os.path.relpath(path, folder)] = read(path)
    return found


def functions(text):
    """The functions of a text in the layout of rt fmt, in their order; one inside another's body is part of that one."""
    lines, found, free = text.split("\n"), [], 0
    owners = owners_of(lines)
    for at, line in enumerate(lines):
        told = FUNCTION.match(line)
        if not told or at < free:
            continue
        last = end_of(lines, at, told[1])
        first = at
        while first > free and re.match(r"\s*(//|#!?\[)", lines[first - 1]):
            first -= 1
        cycle = re.search(r"#\[cycle\((\w+)\)\]", "\n".join(lines[first:at]))
        is_public = line.lstrip().startswith("pub ") or bool(owners[at] and (owners[at].trait or not owners[at].words))
        found.append(Function(first + 1, last + 1, told[3], owners[at], cycle and cycle[1], bool(told[2]), is_public))
        free = last + 1
    return found


def end_of(lines, at, indent):
    """The line that ends the function whose first line is given: of a body the bracket at its indentation, else a ';'."""
    has_body, depth = False, 0
    for n in range(at, len(lines)):
        line = lines[n].rstrip()
        # (a clause of several lines may have a ';' within its brackets)
        depth += line.count("{") - line.count("}")
        is_level = line.startswith(indent) and not line[len(indent) : len(indent) + 1].isspace()
        if line == indent + "}":
            return n
        if not has_body and (line.endswith(";") and depth <= 0 or is_level and line.endswith("}")):
            return n
        has_body = has_body or is_level and line.endswith("{")
    return len(lines) - 1


def owners_of(lines):
    """For each line the impl or trait around it, or None."""
    owners, at = [None] * len(lines), 0
    while at < len(lines):
        told = OWNER.match(lines[at])
        if told:
            opens = next((n for n in range(at, len(lines)) if lines[n].rstrip().endswith(("{", "{}"))), at)
            closes = opens if lines[opens].endswith("{}") else next((n for n in range(opens, len(lines)) if lines[n] == told[1] + "}"), opens)
            head = " ".join(lines[at : opens + 1])
            owners[at : closes + 1] = [owner_of(head[head.index(told[2]) + len(told[2]) :], told[2] == "trait")] * (closes + 1 - at)
            at = closes
        at += 1
    return owners


def owner_of(head, is_trait):
    """The impl or trait that has this head after its first word."""
    head, parameters = head.strip(), set()
    if head.startswith("<"):
        end = closing(head)
        parameters = set(re.findall(r"(?:^<|,)\s*(?:const )?(\w+)\s*(?=[:,>])", head[: end + 1]))
        head = head[end + 1 :]
    head = re.split(r"\bwhere\b|\{", head)[0].strip()
    if is_trait:
        return Owner(re.match(r"\w+", head)[0], "", (), parameters)
    parts = [it.strip() for it in re.split(r"\bfor\b", head)]
    trait, kind = parts if len(parts) == 2 else ("", parts[0])
    return Owner(kind, trait, tuple(re.findall(r"\w+", re.sub(r"'\w+|\w+::", "", kind))), parameters)


def closing(text):
    """The index of the bracket that closes the one at the start."""
    depth = 0
    for at, sign in enumerate(text):
        depth += (sign == "<") - (sign == ">" and text[at - 1] != "-")
        if not depth:
            return at
    return len(text) - 1


def place(text, old):
    """The function in which all of the old text stands, by its number in the text, or None."""
    start = text.index(old)
    first, last = text.count("\n", 0, start) + 1, text.count("\n", 0, start + len(old)) + 1
    return next((n for n, it in enumerate(functions(text)) if it.first <= first and last <= it.last), None)


def module_of(path):
    """The modules that a file of src is, as the prover names them."""
    parts = path[len("src/") : -len(".rt")].split("/")
    if parts[-1] in ("lib", "main", "mod"):
        parts.pop()
    return tuple(parts)
