"""Tries the edits of a crate, many by one check, each in functions of its own.

An edit comes first in a round with others that stand in other functions, the called before those that call them. What that
round can't decide, since a function that it calls was broken in it, comes again in a round in which no changed function
reaches another by calls, and then alone. So an edit counts as not refused only where its function was proved with it, or
where it stood alone; and as one that doesn't compile, or that is refused only by names, only where it stood alone. A round of
which no verdict counts, since a function that no edit changes was refused in it, is taken apart in the same way.
"""
import os
import re
from collections import namedtuple

import kit
import sources
from naming import Names
from verdicts import ONLY_BY_NAMES, Report, judged, strangers

TOGETHER, APART, ALONE = range(3)
# The files of a function's proof by hand that can be set aside.
BY_HAND = ("Answers.antt", "Proof.antt")
# What a crate's edits came out as: (verdict, reason) by edit, how many each round tried, and why nothing is judged, if so.
Outcome = namedtuple("Outcome", "verdicts rounds failure")


class Edit:
    """An edit of a crate: its pairs, and the functions in which they stand, each by its path and its number there."""

    def __init__(self, name, pairs, texts):
        self.name, self.pairs, self.sites, self.is_outside, self.stage = name, pairs, [], False, TOGETHER
        now = dict(texts)
        for path, old, new in pairs:
            site = path, sources.place(now[path], old)
            self.is_outside = self.is_outside or site[1] is None
            self.sites += [site] * (site not in self.sites)
            now[path] = now[path].replace(old, new)
        before, after = [shape(texts, path) for path, _ in self.sites], [shape(now, path) for path, _ in self.sites]
        self.is_outside = self.is_outside or [[it[:2] for it in one] for one in before] != [[it[:2] for it in one] for one in after]
        # what a head says, others may rest on; and what a const function gives may stand in a type or a constant
        changed = [] if self.is_outside else [(path, at, sources.functions(texts[path])[at]) for path, at in self.sites]
        if self.is_outside or before != after or any(it.is_const for _, _, it in changed):
            self.stage = ALONE
        # the functions of a cycle of calls have one proof
        self.proofs = {(path, it.cycle or at) for path, at, it in changed}


def shape(texts, path):
    """Of each function of a file its owner, its name and its head."""
    lines = texts[path].split("\n")
    return [(it.owner and it.owner[:2], it.name, head(lines[it.first - 1 : it.last])) for it in sources.functions(texts[path])]


def head(lines):
    """The lines of a function up to where its body opens, without the comments above it."""
    lines = [it for it in lines if not it.lstrip().startswith("//")]
    indent = next(told[1] for told in map(sources.FUNCTION.match, lines) if told)
    ends = (n for n, it in enumerate(lines) if it.startswith(indent) and not it[len(indent) : len(indent) + 1].isspace() and it.endswith("{"))
    return lines[: next(ends, len(lines)) + 1]


class Calls:
    """Which functions of a crate may call which, by the names that stand in them: more than do."""

    def __init__(self, texts):
        self.below, by_name, words = {}, {}, {}
        for path, text in texts.items():
            lines = text.split("\n")
            for at, it in enumerate(sources.functions(text)):
                by_name.setdefault(it.name, set()).add((path, at))
                words[path, at] = set(re.findall(r"\w+", "\n".join(lines[it.first - 1 : it.last])))
        for site, named in words.items():
            self.below[site] = set().union(*(by_name[it] for it in named & by_name.keys())) - {site}
        self.reached = {}

    def reach(self, site):
        """The functions that a function may call, directly or through others."""
        if site not in self.reached:
            found, left = set(), [site]
            while left:
                more = self.below.get(left.pop(), set()) - found
                found |= more
                left += more
            self.reached[site] = found
        return self.reached[site]

    def are_near(self, one, other):
        """Whether one of two functions may call the other."""
        return one in self.reach(other) or other in self.reach(one)


def next_round(left, calls):
    """The edits of the next round: of the lowest stage that is left, as many as stand in functions of their own."""
    stage = min(it.stage for it in left)
    ready = [it for it in left if it.stage == stage]
    ready.sort(key=lambda it: (max(len(calls.reach(site)) for site in it.sites), it.name))
    taken, used, proofs = [], set(), set()
    for edit in ready[:1] if stage == ALONE else ready:
        is_near = stage == APART and any(calls.are_near(one, other) for one in edit.sites for other in used)
        if not is_near and not proofs & edit.proofs:
            taken.append(edit)
            used.update(edit.sites)
            proofs |= edit.proofs
    return taken


def applied(edits, texts):
    """Those of the edits that can be applied after one another, and the texts with them; the first can."""
    taken, made = [], texts
    for edit in edits:
        try:
            made = sources.applied(edit.pairs, made)
            taken.append(edit)
        except sources.BadEdit:
            # another has put there the text that it names
            continue
    return taken, made


def only(edits, texts, names, known):
    """The words by which a check looks at the functions of the edits alone, and so not at those above them; none where one has no name of its own."""
    words = []
    for edit in edits:
        own = [set()] if edit.is_outside else [names.of(path, sources.functions(texts[path])[at], known) for path, at in edit.sites]
        if any(len(it) != 1 for it in own):
            return []
        words += [word for it in own for name in it for word in ("--only", name)]
    return words


def ends(edits, texts, names):
    """The words by which a check looks at the functions of the edits alone, by the ends of their names: none where one stands in no function."""
    words = []
    for edit in edits:
        inside = [(path, at) for path, at in edit.sites if at is not None]
        if not inside:
            return []
        words += [word for path, at in inside for word in ("--only", names.end_of(path, sources.functions(texts[path])[at]))]
    return words


def by_hand(crate, edit, texts, names):
    """The files by which the functions of an edit are proved by hand, but for their invariants, which no proof does without."""
    found = {}
    for at, _, files in os.walk(os.path.join(crate.folder, "proofs")):
        folder = os.path.relpath(at, os.path.join(crate.folder, "proofs"))
        paths = [os.path.relpath(os.path.join(at, it), crate.folder) for it in files if it in BY_HAND]
        if paths and folder != ".":
            found["::".join([crate.name, *folder.split(os.sep)])] = paths
    inside = [(path, at) for path, at in edit.sites if at is not None]
    own = set().union(*(names.of(path, sources.functions(texts[path])[at], set(found)) for path, at in inside))
    return [path for name in sorted(own) for path in found[name]]


def proved_by_hand(crate, edits):
    """Which of the edits (their pairs by name) change a function that is proved by hand."""
    texts = sources.texts_of(crate.folder)
    names = Names(crate.name, texts)
    return {name for name, pairs in edits.items() if by_hand(crate, Edit(name, pairs, texts), texts, names)}


def try_crate(crate, edits, kept, say, check=kit.check, is_alone=False, is_proved=False, sets_aside=False):
    """Tries the edits (their pairs by name) over kept work, and tells what came out. Where they are tried alone, the checks look at their functions and
    at what these call. Where it sets aside, no function of theirs has a proof by hand. The unchanged crate is checked last, unless nothing was kept of it
    and it is proved."""
    texts = sources.texts_of(crate.folder)
    left, verdicts, rounds, halves = [Edit(name, pairs, texts) for name, pairs in sorted(edits.items())], {}, [], []
    calls, names, known = Calls(texts), Names(crate.name, texts), set()
    own = ends(left, texts, names) if is_alone else []
    while left:
        now, made = applied(halves.pop() if halves else next_round(left, calls), texts)
        words = ends(now, texts, names) if own else only(now, texts, names, known)
        changed = {path: text for path, text in made.items() if text != texts[path]}
        changed.update({path: None for it in now if sets_aside for path in by_hand(crate, it, texts, names)})
        status, said = check(crate, changed, kept, *words)
        if own and "has no function" in said:
            say(f"== not looked at alone\n{said}")
            own = []
            continue
        say(f"== round of {', '.join(it.name for it in now)}\n{said}")
        report = Report(crate.name, status, said)
        if report.failure:
            return Outcome({}, rounds, report.failure)
        known |= report.known
        halves += decide(now, report, made, names, verdicts)
        rounds.append(len(now))
        left = [it for it in left if it.name not in verdicts]
    if is_proved:
        return Outcome(verdicts, rounds, None)
    status, said = check(crate, {}, kept, *own)
    say(f"== unchanged\n{said}")
    if not Report(crate.name, status, said).is_proved:
        return Outcome({}, rounds, f"{'what they change' if own else 'the unchanged crate'} is not proved over the same kept work")
    return Outcome(verdicts, rounds, None)


def decide(now, report, made, names, verdicts):
    """Notes what a round decides of its edits, and puts off the others; returns the halves of a round that must be tried apart."""
    is_alone = len(now) == 1
    found = {edit.name: judged(edit, report, made, names, is_alone) for edit in now}
    if is_alone:
        verdicts.update(found)
        return []
    if not report.reached_prover:
        # those that the errors name come again alone, the others as before; where no error names one, each half comes by itself
        blamed = [edit for edit in now if found[edit.name]]
        for edit in blamed:
            edit.stage = ALONE
        return [] if blamed else [now[: len(now) // 2], now[len(now) // 2 :]]
    strange = strangers(now, report, made, names)
    for edit in now:
        verdict = found[edit.name]
        if strange or not verdict:
            # with a function refused at a goal of its own that no edit changes, nothing can be told apart here
            edit.stage += 1
        elif verdict[0] == ONLY_BY_NAMES:
            edit.stage = ALONE
        else:
            verdicts[edit.name] = verdict
    return []
