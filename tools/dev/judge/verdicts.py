"""Reads what a check said, and judges edits by it.

An edit is refused where a function that it changes isn't proved at a goal of its own: the check says so of the function by its
name, at a place in its lines, or in a file of its proof folder. That it calls a function that isn't proved is no goal of its own.
"""
import re

from sources import functions

REFUSED, ONLY_BY_NAMES, NOT_REFUSED, BAD = "REFUSED", "REFUSED ONLY BY NAMES", "NOT REFUSED", "BAD EDIT"
# Of an edit that is refused over a proof written by hand, once that proof was set aside: it is not proved without it either, or it is.
REFUSED_AGAIN, LET_THROUGH = "REFUSED AGAIN", "LET THROUGH"
# What an edit may come out as.
WELL = (REFUSED, REFUSED_AGAIN, LET_THROUGH)
OF_FUNCTION = re.compile(r"^fn (\S+): (proved|not proved|no proof)\b(?:: |; )?(.*)$", re.M)
OF_SOURCE = re.compile(r"^(?:note: )?(?:\./)?(src/\S+\.rt):(\d+):\d+: (.*)$", re.M)
OF_PROOF = re.compile(r"^(?:\./)?proofs/(\S+)/(Answers|Proof|Invariants)\.antt:\d+:\d+: (error.*)$", re.M)
# of the reasons that a function isn't proved, those that are another function's
ANOTHERS = re.compile(r"it .*, which (?:is|are) not proved|it waits for .*|it stands on .*")
# of an error of a proof, that it names something which the edit took away, and that it only follows from another of the proof
NAMES = re.compile(r"has no field|is not in scope|has no `|was not admitted|is no name")
FOLLOWS = re.compile(r"which w(?:as|ere) rejected, w(?:as|ere) not checked")


class Report:
    """What a check said of a crate: whether it reached the prover, and each function's state."""

    def __init__(self, crate, status, said):
        last = said.rstrip("\n").split("\n")[-1]
        self.crate, self.last = crate, last
        self.reached_prover = status in (0, 1) and last.startswith(("logic=", "only="))
        self.is_proved = status == 0 and bool(re.match(r"logic=proved|only=(\d+) proved=\1$", last))
        self.failure = f"a check was ended by signal {-status}" if status < 0 else None
        self.proved, self.own, self.known = set(), {}, set()
        for name, word, reasons in OF_FUNCTION.findall(said):
            self.known.add(name)
            self.note(name, word, reasons)
        self.places = [(path, int(line), text) for path, line, text in OF_SOURCE.findall(said)]
        self.of_proofs = {}
        for folder, file, text in OF_PROOF.findall(said):
            name = "::".join([crate, *folder.split("/")])
            self.known.add(name)
            self.of_proofs.setdefault(name, []).append(f"proofs/{folder}/{file}.antt: {text}")

    def note(self, name, word, reasons):
        """Notes that a function is proved, or why it is not proved by a goal of its own, if so."""
        own = [it for it in reasons.split("; ") if it and not ANOTHERS.fullmatch(it)]
        if word == "proved":
            self.proved.add(name)
        elif own or not reasons:
            self.own[name] = f"fn {name}: {'; '.join([word, *own])}"

    def open_goals(self, path, function):
        """The goals that are open at places of the function's own lines."""
        return [f"{at}:{line}: {text}" for at, line, text in self.places if at == path and function.first <= line <= function.last and "it is not proved" in text]

    def errors_in(self, path, function):
        """The errors of the text in the function's own lines."""
        return [f"{at}:{line}: {text}" for at, line, text in self.places if at == path and function.first <= line <= function.last and text.startswith("error")]


def changed_by(edit, texts):
    """The functions that an edit changes, with their paths: where it stands in none, as in a constant, all of its files."""
    if edit.is_outside:
        return [(path, it) for path in sorted({pair.path for pair in edit.pairs}) for it in functions(texts[path])]
    return [(path, functions(texts[path])[at]) for path, at in edit.sites]


def judged(edit, report, texts, names, is_alone):
    """The verdict on an edit of a round with its reason, or None where the round doesn't tell."""
    changed = changed_by(edit, texts)
    if not report.reached_prover:
        errors = [it for path, function in changed for it in report.errors_in(path, function)]
        if is_alone:
            return BAD, (errors or [it[2] for it in report.places] or [report.last])[0]
        return (BAD, errors[0]) if errors else None
    own = set().union(*(names.of(path, function, report.known) for path, function in changed))
    goals = [it for path, function in changed for it in report.open_goals(path, function)]
    errors = [it for name in sorted(own) for it in report.of_proofs.get(name, []) if not FOLLOWS.search(it)]
    meant = [it for it in errors if not NAMES.search(it)]
    reasons = [report.own[it] for it in sorted(own) if it in report.own]
    if goals or meant or reasons and not errors:
        return REFUSED, (goals or meant or reasons)[0]
    if errors:
        return ONLY_BY_NAMES, errors[0]
    unread = [it for path, function in changed for it in report.errors_in(path, function)]
    if unread:
        return BAD, unread[0]
    if is_alone or own and own <= report.proved:
        return NOT_REFUSED, "its function is proved" if own and own <= report.proved else "its function is refused at no goal of its own"
    return None


def strangers(edits, report, texts, names):
    """The functions that are refused at goals of their own though none of the round's edits changes them."""
    changed = [it for edit in edits for it in changed_by(edit, texts)]
    own = set().union(*(names.of(path, function, report.known) for path, function in changed))
    # a trait's default is proved again in each impl that has it
    lent = {function.name for _, function in changed}
    return [it for it in sorted(report.own) if it not in own and it.split("::")[-1] not in lent]
