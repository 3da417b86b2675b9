#!/usr/bin/env python3
"""Checks by syntax that an error which says that memory ran out is made only where a growth was refused.

    tools/dev/memory_errors.py          fails where one is made otherwise, and says where
    tools/dev/memory_errors.py --test   fails where a wrong body isn't told

Contracts can't tell a refusal of the allocator from one that code makes up: a tier that evicts nothing and says that memory ran out keeps each clause.
So each `Memory`, `OutOfMemory` and `AllocError` that a body of `crates/*/src` makes, but for crates of tests, must stand in the error arm of a call
that may be refused: one that takes an allocator, a growth of std's, or a function of the repository whose own error may say so, of which the same is checked.
An arm whose pattern names such an error passes it on. The same holds of each `Err` of a function whose error is a `Vec` or what it was given.

tools/dev/memory_errors.list has the exceptions: a line FILE FUNCTION: REASON. Where the reason is MADE_FOR its callers, a call of the function is held to
the same."""
import os
import re
import sys

sys.dont_write_bytecode = True
HERE = os.path.dirname(os.path.realpath(__file__))
TOP = os.path.dirname(os.path.dirname(HERE))
sys.path.insert(0, os.path.join(HERE, "judge"))

import sources  # noqa: E402

LIST = os.path.join(HERE, "memory_errors.list")
# What says that memory ran out.
MADE = re.compile(r"(?<![\w.])(?:(?:\w+::)*(?:Memory|OutOfMemory|NoMemory)\b(?!\s*::)|AllocError\b(?!\s*(?:::|>|,\s*\w+>)))")
NAMED = re.compile(r"\b(?:Memory|OutOfMemory|NoMemory|AllocError|AllocFailed)\b")
# Growths of std's, and of the kit's libraries, that take their allocator from what they grow.
GROWS = "from_vec|into_vec|slice|reserve|reserve_exact|try_reserve|push|push_str|push_front|push_back|insert|extend|extend_from_slice|resize|clone|to_vec|to_owned|to_string|try_send|send|append|collect|entry|write_fmt|put|spawn|build"
TAKES = re.compile(rf"\balloc(?:ator)?\b|\bGlobal\b|(?:\.|::)(?:{GROWS})\s*(?:::<[^()]*>)?\(|\b(?:format|vec)!")
# The reason of a function that makes the error of others.
MADE_FOR = "made for its callers"
# An error that hands back what was done, or was given, and says by that alone that memory ran out.
HANDS_BACK = re.compile(r"Result<.*,\s*Vec<[^,]*(?:,[^,]*)?>\s*>\s*$")


def blanked(text):
    """A text with its comments and strings blank, of the same length."""
    pattern = r"//[^\n]*|\"(?:[^\"\\]|\\.)*\"|b?'(?:[^'\\\n]|\\[^\n]+?)'(?!\w)"
    return re.sub(pattern, lambda found: re.sub(r"[^\n]", " ", found[0]), text)


class Body:
    """A function of a file: its name, its result type, and its body's text with the line at which it begins."""

    def __init__(self, path, function, lines):
        own = "\n".join(lines[function.first - 1 : function.last])
        at = re.search(rf"\bfn {function.name}\b", own).start()
        indent = re.match(r"\s*", own[own.rfind("\n", 0, at) + 1 :])[0]
        opens = re.search(rf"\n{indent}\{{(?=\n|\}})", own[at:])
        opens = at + opens.end() - 1 if opens else own.find("{", at)
        self.path, self.name, self.line = path, function.name, function.first
        head, self.text = own[at:opens], own[opens:] if opens > 0 else ""
        self.before = own[:opens].count("\n")
        told = re.search(r"->\s*(.*?)(?=\n\s*(?:where|requires|ensures|ghost)\b|$)", head, re.S)
        self.result = " ".join(told[1].split()) if told else ""
        self.is_from = bool(function.owner and re.match(r"(?:\w+::)*From<.*(?:Alloc|Fault|Error|Failure)", function.owner.trait or ""))

    def place(self, at):
        return self.line + self.before + self.text.count("\n", 0, at)


def bodies_of(top):
    """The functions of all crates but those of tests."""
    for crate in sorted(os.listdir(os.path.join(top, "crates"))):
        if crate.startswith("test_") or not os.path.isdir(os.path.join(top, "crates", crate, "src")):
            continue
        for path, text in sorted(sources.texts_of(os.path.join(top, "crates", crate)).items()):
            yield from bodies_in(f"{crate}/{path}", text)


def bodies_in(path, text):
    clean = blanked(text)
    lines = clean.split("\n")
    for it in sources.functions(clean):
        yield Body(path, it, lines)


def memory_types(top):
    """The types of errors that may say that memory ran out: enums with such a variant, and those that hold one of these."""
    enums = {}
    for crate in os.listdir(os.path.join(top, "crates")):
        folder = os.path.join(top, "crates", crate)
        for text in sources.texts_of(folder).values() if os.path.isdir(os.path.join(folder, "src")) else ():
            for name, inner in re.findall(r"\benum (\w+)[^{;]*\{(.*?)\n\}", blanked(text), re.S):
                enums[name] = inner
    found, grown = {"AllocError", "AllocFailed", "HeaderMapError", "HeaderNameError", "SendError", "TrySendError"}, True
    while grown:
        more = {name for name, inner in enums.items() if NAMED.search(inner) or found & set(re.findall(r"\w+", inner))} - found
        found, grown = found | more, bool(more)
    return found


def judged(bodies, types):
    """The names of functions whose error may say that memory ran out."""
    word = re.compile(r"\b(?:" + "|".join(sorted(types)) + r")\b")
    return {it.name for it in bodies if word.search(it.result) or HANDS_BACK.search(it.result)}


def depth_back(text, at):
    """The places of the brackets that are open at a place, the innermost first."""
    depth = 0
    for n in range(at - 1, -1, -1):
        sign = text[n]
        if sign in ")]}":
            depth += 1
        elif sign in "([{":
            if depth:
                depth -= 1
            else:
                yield n


def statement_before(text, at):
    """What stands before a place, back to the end of the statement or arm before it."""
    depth = 0
    for n in range(at - 1, -1, -1):
        sign = text[n]
        if sign == "}" and not depth and re.match(r"\s*(?:\.|\?|else\b|\))", text[n + 1 : at] + "."  ) is None:
            return text[n + 1 : at]
        if sign in ")]}":
            depth += 1
        elif sign in "([{":
            if not depth:
                return text[n + 1 : at]
            depth -= 1
        elif sign in ";," and not depth:
            return text[n + 1 : at]
    return text[:at]


class Judge:
    """Says of each place in a body whether an error of memory may be made there."""

    def __init__(self, names, rooms, makers):
        self.rooms = re.compile(r"!\s*(?:\w+(?:::|\.))*(?:" + "|".join(sorted(rooms) or ["(?!)"]) + r")\(")
        self.makers = re.compile(r"\b(?:" + "|".join(sorted(makers) or ["(?!)"]) + r")\(")
        self.calls = re.compile(r"\b(?:" + "|".join(sorted(map(re.escape, names)) or ["(?!)"]) + r")\s*(?:::<[^()]*>)?\(")

    def may_be_refused(self, text):
        return bool(TAKES.search(text) or self.calls.search(text))

    def is_pattern(self, text, at):
        """Whether what stands there is a pattern: left of => or of a let's =, or in matches!."""
        rest = text[at:]
        depth = 0
        for n, sign in enumerate(rest):
            if sign in "([{":
                depth += 1
            elif sign in ")]}":
                depth -= 1
            elif depth <= 0 and rest.startswith("=>", n):
                return True
            elif depth <= 0 and sign == "=" and rest[n + 1 : n + 2] not in "=>" and rest[n - 1 : n] not in "=!<>":
                return bool(re.search(r"\blet\b[^;{}=]*$", text[:at]))
            elif depth <= 0 and sign in ";{," and not re.match(r",\s*[)\]]", rest[n:]):
                break
        before = text[max(0, at - 200) : at]
        return bool(re.search(r"\bmatches!\s*\([^;]*$", before)) or bool(re.search(r"\bif let\b[^={};]*$", before))

    def arm(self, text, at):
        """The pattern of the arm in which a place stands, with what is matched on; None where it stands in none."""
        for opens in [at, *depth_back(text, at)]:
            before = statement_before(text, opens)
            told = re.match(r"(.*?)=>", before, re.S)
            if told:
                block = next((n for n in depth_back(text, opens) if text[n] == "{"), None)
                of = re.search(r"\bmatch\b(.*)$", statement_before(text, block), re.S) if block is not None else None
                yield told[1], of[1] if of else ""
            if text[opens : opens + 1] == "{":
                yield None, before

    def is_fair(self, body, at):
        """Whether the error that is made at this place of a body passes one on, or stands where a growth was refused."""
        for pattern, of in self.arm(body.text, at):
            if pattern is not None:
                if NAMED.search(pattern) or re.search(r"\b(?:Err|None)\b", pattern) and self.may_be_refused(bound(body.text, of)):
                    return True
                continue
            if re.search(r"\bif\b", of) and self.rooms.search(of):
                return True
            told = re.search(r"\blet\s+(?:Ok|Some)\b.*?=(?!=)(.*)\belse\s*$", of, re.S) or re.search(r"\bif\s+let\s+(?:Err|None)\b.*?=(?!=)(.*)$", of, re.S)
            told = told or re.search(r"\bif\b(.*?)\.is_(?:err|none)\(\)", of, re.S)
            if told and self.may_be_refused(bound(body.text, told[1])):
                return True
            if re.search(r"\bif\s+let\b", of) and NAMED.search(of):
                return True
        before = statement_before(body.text, at)
        around = body.text[max(0, at - 400) : at]
        told = re.search(r"([^;{}]*)\.(?:map_err|ok_or|ok_or_else|map_or|map_or_else)\s*\([^;{}]*$", around, re.S)
        return bool(told and self.may_be_refused(told[1])) or bool(re.search(r"\|[^|]*$", before) and told)


def bound(text, words):
    """What is matched on: of a variable what it was bound to."""
    name = re.fullmatch(r"\s*(\w+)\s*", words)
    told = re.search(rf"\blet\s+(?:mut\s+)?{name[1]}\b[^=;]*=([^;]*);", text) if name else None
    return told[1] if told else words


def makings(body, makers=None):
    """The places in a body at which an error of memory is made."""
    found = [it.start() for it in MADE.finditer(body.text)]
    found += [it.start() for it in makers.finditer(body.text)] if makers else []
    if HANDS_BACK.search(body.result):
        found += [it.start() for it in re.finditer(r"\bErr\(", body.text)]
    return sorted(found)


def faults(bodies, types, listed):
    """What is made otherwise, in words; and the exceptions that nothing needs."""
    makers = {name for (_, name), reason in listed.items() if reason.startswith(MADE_FOR)}
    rooms = {it.name for it in bodies if it.result == "bool" and re.search(r"\.reserve\([^;]*\)\s*\.is_ok\(\)", it.text)}
    judge, used = Judge(judged(bodies, types), rooms, makers), set()
    for body in bodies:
        if body.is_from:
            continue
        for at in makings(body, judge.makers if body.name not in makers else None):
            if judge.is_pattern(body.text, at) or judge.is_fair(body, at):
                continue
            if (body.path, body.name) in listed:
                used.add((body.path, body.name))
                continue
            yield f"crates/{body.path}:{body.place(at)}: {body.name} says that memory ran out, in the error arm of no call that may be refused"
    for path, name in sorted(set(listed) - used):
        yield f"tools/dev/memory_errors.list: {path} {name}: nothing needs this exception"


def exceptions():
    """The exceptions by file and function."""
    found = {}
    with open(LIST, encoding="utf-8") as file:
        for line in file:
            told = re.fullmatch(r"(\S+) (\w+): (.+)\n?", line)
            if told and not line.startswith("#"):
                found[told[1], told[2]] = told[3]
    return found


# Bodies that must be told, and what they are.
WRONG = {
    "a tier that evicts nothing": "pub fn evict(&mut self, alloc: Global) -> Result<u64, Fault>\n    ensures { ⊤ }\n{\n    if self.is_over() {\n        return Err(Fault::Memory);\n    }\n    Ok(0)\n}\n",
    "a call that is always refused": "pub fn of(alloc: Global) -> Result<u64, AllocError> {\n    Err(AllocError)\n}\n",
    "an answer that no call gave": "pub fn at(list: &[u64]) -> Result<u64, Fault> {\n    match list.first() {\n        Some(it) => Ok(*it),\n        None => Err(Fault::Memory),\n    }\n}\n",
    "pairs that no growth cut short": "pub fn evict(&mut self, alloc: Global) -> Result<Vec<u64>, Vec<u64>> {\n    let pairs = Vec::new(alloc);\n    if self.is_over() {\n        return Err(pairs);\n    }\n    Ok(pairs)\n}\n",
}
# And bodies that may be.
RIGHT = {
    "a refused growth": "pub fn of(alloc: Global) -> Result<u64, Fault> {\n    let mut made = Vec::new(alloc);\n    if made.push(1).is_err() {\n        return Err(Fault::Memory);\n    }\n    Ok(1)\n}\n",
    "an arm of a call": "pub fn of(alloc: Global) -> Result<u64, Fault> {\n    match made(alloc) {\n        Ok(it) => Ok(it),\n        Err(_) => Err(Fault::Memory),\n    }\n}\n",
    "an error passed on": "pub fn of(it: Result<u64, Fault>) -> Result<u64, Other> {\n    match it {\n        Ok(it) => Ok(it),\n        Err(Fault::Memory) => Err(Other::Memory),\n        Err(Fault::Wrong) => Err(Other::Wrong),\n    }\n}\n",
    "a let": "pub fn of(alloc: Global) -> Result<u64, Fault> {\n    let Ok(it) = made(alloc) else {\n        return Err(Fault::Memory);\n    };\n    Ok(it)\n}\n",
}


def test():
    """Tries bodies that must be told, and others that may not be; returns the exit status."""
    wrong = [f"{name}: not told" for name, text in WRONG.items() if not list(faults(list(bodies_in("it", text)), {"Fault", "AllocError"}, {}))]
    wrong += [f"{name}: told: {it}" for name, text in RIGHT.items() for it in faults(list(bodies_in("it", text)), {"Fault", "AllocError"}, {})]
    for it in wrong:
        print(it)
    print(f"memory errors: {len(WRONG) + len(RIGHT) - len(wrong)} passed, {len(wrong)} failed")
    return 1 if wrong else 0


def main(words):
    if words == ["--test"]:
        return test()
    bodies = list(bodies_of(TOP))
    found = list(faults(bodies, memory_types(TOP), exceptions()))
    for it in found:
        print(it)
    print(f"memory errors: {sum(len(makings(it)) for it in bodies)} places, {len(found)} faults")
    return 1 if found else 0


if __name__ == "__main__":
    sys.exit(main(sys.argv[1:]))
