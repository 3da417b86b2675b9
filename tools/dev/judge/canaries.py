"""Edits whose verdict is known, tried at each run in a small crate of their own: where one comes out otherwise, no verdict counts."""
import os

import kit
import rounds
import sources
from verdicts import BAD, NOT_REFUSED, ONLY_BY_NAMES, REFUSED

LIB = """\
//! Functions whose changes the judge of edits must tell apart.
#![tactic(auto)]

ghost use Rattle.std.specs.Prelude.{◌≡◌};

pub mod hands;

pub fn echo(value: u8) -> u8
    ensures { result ≡ value }
{
    value
}

pub fn beside(value: u8) -> u8
    ensures { result ≡ value }
{
    value
}

pub fn calls(value: u8) -> u8
    ensures { result ≡ value }
{
    echo(value)
}

pub fn cites(value: u8) -> u8
    ensures { result ≡ value }
{
    beside(value)
}

pub fn spaced(value: u8) -> u8
    ensures { result ≡ value }
{
    value
}

pub fn typed(value: u8) -> u8
    ensures { result ≡ value }
{
    value
}
"""
HANDS = """\
//! Two types with methods of one name.

ghost use Rattle.std.specs.Prelude.{◌≡◌};

pub struct Left {
    pub value: u8,
}

pub struct Right {
    pub value: u8,
}

impl Left {
    pub fn peek(&self) -> u8
        ensures { result ≡ self.now.value }
    {
        let left = self.value;
        left
    }
}

impl Right {
    pub fn peek(&self) -> u8
        ensures { result ≡ self.now.value }
    {
        let right = self.value;
        right
    }
}
"""
ANSWER = """\
use Rattle.std.proofs.Common.{{rules}}
use Rattle.canary.proofs.{module}.Goals as goal

pub returns : goal.returns
returns c = {answer}
"""
FILES = {
    "src/lib.rt": LIB,
    "src/hands.rt": HANDS,
    "proofs/cites/Answers.antt": ANSWER.format(module="cites", answer="c.beside.ensures"),
    "proofs/hands/Left/peek/Answers.antt": ANSWER.format(module="hands.Left.peek", answer="search rules"),
    "proofs/hands/Right/peek/Answers.antt": ANSWER.format(module="hands.Right.peek", answer="search rules"),
}


def of(function, old, new):
    """A change of a function of the crate's root, by its line."""
    head = f"pub fn {function}(value: u8) -> u8\n    ensures {{ result ≡ value }}\n{{\n"
    return [sources.Pair("src/lib.rt", f"{head}    {old}\n", f"{head}    {new}\n")]


# What each canary changes, and what it must come out as.
CANARIES = {
    "a_wrong_body": (of("echo", "value", "value / 2"), REFUSED),
    "a_harmless_change_beside_it": (of("beside", "value", "let same = value;\n    same"), NOT_REFUSED),
    "a_harmless_call_of_it": (of("calls", "echo(value)", "let same = echo(value);\n    same"), NOT_REFUSED),
    "white_space": (of("spaced", "value", "value "), NOT_REFUSED),
    "another_type": (of("typed", "value", "true"), BAD),
    "a_step_that_a_proof_names_is_gone": (of("cites", "beside(value)", "value"), ONLY_BY_NAMES),
    "a_wrong_method": ([sources.Pair("src/hands.rt", "        left\n", "        left / 2\n")], REFUSED),
    "a_harmless_method_of_its_name": ([sources.Pair("src/hands.rt", "        right\n", "        right + 0\n")], NOT_REFUSED),
}
# The same of functions that are proved by hand, with those proofs set aside.
SET_ASIDE = {"a_step_that_a_proof_names_is_gone": NOT_REFUSED, "a_wrong_method": REFUSED}


def fly(room, say, is_alone=False):
    """Tries the canaries in a folder, over their functions alone where the edits are tried so; returns how many came out as they must, and what to
    say of the others."""
    folder = os.path.join(room, "crates", "canary")
    for path, text in {os.path.join(room, "crates.txt"): "canary:\n", **{os.path.join(folder, path): text for path, text in FILES.items()}}.items():
        os.makedirs(os.path.dirname(path), exist_ok=True)
        with open(path, "w", encoding="utf-8") as it:
            it.write(text)
    crate, kept = kit.crates_of(room)["canary"], os.path.join(room, "kept")
    os.mkdir(kept)
    outcome = rounds.try_crate(crate, {name: pairs for name, (pairs, _) in CANARIES.items()}, kept, say, is_alone=is_alone)
    if outcome.failure:
        return 0, [f"the canaries were not judged: {outcome.failure}"]
    wrong = []
    for name, (_, wanted) in CANARIES.items():
        verdict, reason = outcome.verdicts[name]
        if verdict != wanted:
            wrong.append(f"the canary {name} came out as {verdict} and not as {wanted}: {reason}")
    again = rounds.try_crate(crate, {name: CANARIES[name][0] for name in SET_ASIDE}, kept, say, is_alone=is_alone, is_proved=True, sets_aside=True)
    for name, wanted in SET_ASIDE.items():
        verdict, reason = again.verdicts.get(name, (None, again.failure))
        if verdict != wanted:
            wrong.append(f"with its proof set aside the canary {name} came out as {verdict} and not as {wanted}: {reason}")
    return len(CANARIES) + len(SET_ASIDE) - len(wrong), wrong
