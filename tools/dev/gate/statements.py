"""Makes of a library its statements alone, for the crates above it: the same types, contracts, definitions and lemmas, with no function's proof made anew.

In a copy of its sources the body of each function is a call of a function of C that promises a contradiction, and `unreachable!()`. From that the prover
has each contract at once. What this library says is therefore what the true one says, and nothing of it is shown: the crates above are proved
*given* these statements. No program is ever linked with such a library: the C function isn't there."""
import os
import re
import shutil
import sys

sys.path.insert(0, os.path.join(os.path.dirname(os.path.dirname(os.path.realpath(__file__))), "judge"))

import sources  # noqa: E402

# The module that is added to a crate, whose name no text of the repository may have.
NAME = "bodies_left_out"
MODULE = f"""//! Stands for the bodies that were left out.
ghost use Rattle.std.specs.Prelude.{{◌<◌}};

unsafe extern "C" {{
    fn {NAME}_foreign()
        ensures {{ 1 < 0 }};
}}

pub(crate) fn {NAME}()
    ensures {{ 1 < 0 }}
{{
    unsafe {{ {NAME}_foreign() }}
}}
"""
FUNCTION = re.compile(r"\s*(?:pub(?:\([\w ]+\))? )?(?:const )?(?:unsafe )?fn \w+")
OF_FUNCTIONS = ("Answers.antt", "Invariants.antt", "Proof.antt")


def head_of(lines, indent):
    """The lines of a function up to the bracket that opens its body; None where it has none."""
    at = next(n for n, line in enumerate(lines) if FUNCTION.match(line))
    if lines[-1].endswith("{}"):
        return [*lines[:-1], lines[-1][:-1]]
    if lines[-1] != indent + "}":
        return None
    alone = next((n for n in range(at, len(lines)) if lines[n] == indent + "{"), None)
    opens = next((n for n in range(at, len(lines)) if lines[n].endswith("{")), None) if alone is None else alone
    return None if opens is None else lines[: opens + 1]


def without_bodies(text, kept):
    """A source's text with no bodies but those of the functions of these names."""
    lines = text.split("\n")
    for it in reversed(sources.functions(text)):
        own = lines[it.first - 1 : it.last]
        indent = re.match(r"\s*", next(line for line in own if FUNCTION.match(line)))[0]
        head = None if it.name in kept else head_of(own, indent)
        if head:
            head = [line for line in head if not re.match(r"\s*#\[(cycle|tactic)\b", line)]
            body = [f"{indent}    crate::{NAME}::{NAME}();", f"{indent}    unreachable!()", f"{indent}}}"]
            lines[it.first - 1 : it.last] = head + body
    return "\n".join(lines)


def with_bodies(texts):
    """The names of the functions whose bodies stay: those that may be computed while the crate is compiled, and those that stand on one line."""
    found = set()
    for text in texts.values():
        lines = text.split("\n")
        for it in sources.functions(text):
            head = next(n for n in range(it.first - 1, it.last) if FUNCTION.match(lines[n]))
            if it.is_const or head == it.last - 1 and lines[head].endswith(" }"):
                found.add(it.name)
    return found


def cited(text, name):
    """The modules of lemmas of a crate that a text cites."""
    return {it.split(".")[0] for it in re.findall(rf"\bRattle\.{name}\.proofs\.([\w-]+)", text)}


def citations(top):
    """The modules of lemmas that the crates above each crate cite, by its name."""
    found = {}
    for at, _, names in os.walk(os.path.join(top, "crates")):
        of = os.path.relpath(at, os.path.join(top, "crates")).split(os.sep)[0]
        for it in names:
            if it.endswith((".antt", ".rt")):
                for name, module in re.findall(r"\bRattle\.(\w+)\.proofs\.([\w-]+)", sources.read(os.path.join(at, it))):
                    if name != of:
                        found.setdefault(name, set()).add(module)
    return found


def lemmas_left(folder, name, wanted):
    """Drops the files of lemmas that nothing wants, in a copy of a crate."""
    root = os.path.join(folder, "proofs", "Lib.antt")
    if not os.path.isfile(root):
        return
    there = {it[: -len(".antt")] for it in os.listdir(os.path.dirname(root)) if it.endswith(".antt") and it != "Lib.antt"}
    left, kept = list(wanted & there), set()
    while left:
        it = left.pop()
        if it not in kept:
            kept.add(it)
            left += cited(sources.read(os.path.join(folder, "proofs", f"{it}.antt")), name) & there
    # (one that is a node of others stays, with all of those)
    dropped = {it for it in there - kept if not os.path.isdir(os.path.join(folder, "proofs", it))}
    lines = sources.read(root).split("\n")
    with open(root, "w", encoding="utf-8") as file:
        file.write("\n".join(it for it in lines if re.sub(r"^(pub )?mod ", "", it) not in dropped))
    for it in dropped:
        os.remove(os.path.join(folder, "proofs", f"{it}.antt"))


def state(folder, name, to, wanted):
    """Makes a copy of a library's sources that has its statements and no bodies; its lemmas are those of these modules, and what they cite."""
    shutil.copytree(folder, to, ignore=shutil.ignore_patterns("out", "must-fail"))
    texts = sources.texts_of(folder)
    stay = with_bodies(texts)
    for path, text in texts.items():
        made = without_bodies(text, stay)
        if path == "src/lib.rt":
            made = re.sub(r"(?m)^(pub )?(mod|use|fn|struct|enum|trait|impl|const|type|ghost) ", rf"mod {NAME};\n\n\g<0>", made, count=1)
        # (what a tactic of the whole crate uses stays too)
        wanted = wanted | cited(text, name) | set(re.findall(r"\bcrate::proofs::([\w-]+)", made))
        with open(os.path.join(to, path), "w", encoding="utf-8") as file:
            file.write(made)
    with open(os.path.join(to, "src", f"{NAME}.rt"), "w", encoding="utf-8") as file:
        file.write(MODULE)
    for at, _, names in os.walk(os.path.join(to, "proofs"), topdown=False):
        if os.path.basename(at) not in stay:
            for it in set(names) & set(OF_FUNCTIONS):
                os.remove(os.path.join(at, it))
        if not os.listdir(at):
            os.rmdir(at)
    lemmas_left(to, name, wanted)
