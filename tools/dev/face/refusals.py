"""Why a call may be refused: at most for what its contract lets it answer below 32.

The contract of an export (crates/cache_tier_c) names definitions of crates/tier_calls, in which the statuses stand as numbers; of an event the checks, the need
of memory and the late faults of crates/tier_model tell the tier's own. The rules' contracts say alike of each call what may lack."""
import re

from face.table import camel
from pages.definitions import definition_texts
from pages.rattle_source import Crate

EVENTS = {"open": "Open", "lookup": "LookUp", "lookup_stale": "LookUp", "get": "LookUp", "poll": "Poll", "begin": "Begin", "revalidate": "Revalidate", "write": "Piece",
          "finish": "Finish", "read": "Read", "close": "Drop", "give_up": "Begin", "purge": "Purge", "put": "Put"}
LATE = ("MayTakeMemory", "IsLateFault")
# What counts of an event where not all does: `give_up` is the begin of a head that is never stored, `get` opens no request of its own.
ONLY = {"give_up": ("refusal",), "get": LATE}
FAULT = re.compile(r"\b(NoRequest|IdInUse|WrongPhase|Waiting|AfterEnd|BadHead|WriteRemoved|BeforeEpoch|NumbersSpent|TooHeavy|TooLong|Memory|NotStored)\b")
NUMBER = re.compile(r"(?:IsRefused|plain|IsNothingOut|status ≡) (\d+)\b")
SAVES = {13, 14}  # the faults of a save, whose number its contract gives by a function
ABSENT = {"IsWithout"}  # there is no tier: no program sees that
RULES = {"ropts": {13, 20}, "rhead": {20}, "rresp": {20}, "at": {20}, "how": {20}, "decoder": {20}, "shead": {20}, "buffer": {13, 23}}


def reached(known, text, seen, sign):
    """What `sign` finds in a text, and in the definitions that it leads to."""
    found = set(sign.findall(text))
    for name in set(re.findall(r"\w+", text)) - seen:
        if name in known:
            seen.add(name)
            found |= reached(known, known[name], seen, sign)
    return found


def of_event(model, action, parts):
    """The tier's faults of an event."""
    faults = set()
    for part in parts:
        for line in model[part].splitlines():
            found = re.match(rf"{part} .*?\({action}\b[^)]*\)[^=]* = (.*)$", line)
            if found and part == "MayTakeMemory":
                faults |= set() if found[1] == "⊥" else {"Memory"}
            elif found:
                of_faults = {name: text for name, text in model.items() if "TierFault" in text.split("\n")[0]}
                faults |= reached(of_faults, found[1], {"refusal", *LATE}, FAULT)
    return faults


def of_export(calls, exports, name):
    """The numbers below 32 that an export's contract names."""
    text = " ".join(text for it in exports if it.name == name for _, _, text in it.clauses)
    found = {int(it) for it in reached(calls, text, set(ABSENT), NUMBER)}
    if name.endswith("_lru_save"):
        found |= SAVES
    return {it for it in found if 0 < it < 32}


def of_calls(face, root):
    """Of each call the statuses with which it may be refused, in the order of their numbers."""
    names = {v.number: v.name for v in (face.base or face).enums["status"].values if 0 < v.number < 32}
    by_fault = {camel(name).replace("IsWaiting", "Waiting"): number for number, name in names.items()}
    found = {}
    if face.base:
        for it in face.calls:
            found[it.name] = sorted({n for a in it.args for n in RULES.get(a.kind, ())})
    else:
        model, calls = (definition_texts(root / "crates" / it / "specs") for it in ("tier_model", "tier_calls"))
        exports = Crate(root, "cache_tier_c").functions
        for it in face.calls:
            numbers = of_export(calls, exports, f"{face.symbol}_{it.export}")
            if it.name == "init":  # its contract has the status of what was made
                numbers |= {number for number, name in names.items() if re.search(rf"\b{name}\b", it.doc)}
            if it.name in EVENTS:
                numbers |= {by_fault[fault] for fault in of_event(model, EVENTS[it.name], ONLY.get(it.name, ("refusal", *LATE)))}
            found[it.name] = sorted(numbers)
    return {name: [names[it] for it in numbers] for name, numbers in found.items()}
