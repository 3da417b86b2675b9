"""The tables of the package."""
from face import defaults
from face.table import array_of, camel

BY = "# Written by tools/dev/interface.py: change the tables in embed, and run it with --write."
# The parameters of each export: t the tier, n a number, b bytes with their length, m metadata, o options, and what is written.
TIER = {"tier": "t", "ctier": "t", "u64": "n", "bool": "n", "moment": "nn", "at": "nn", "bytes": "b", "slice": "b", "key": "nbb", "keyid": "nb", "meta": "nm", "options": "o"}
# Of the rules besides: s a struct with its text, w a buffer that is written, p what is handed as an address, q parts with their number.
RULES = {**TIER, "ropts": "s", "rhead": "s", "rresp": "s", "shead": "s", "shead0": "s", "buffer": "w", "how": "p", "decoder": "p", "parts": "q"}

def word(face, f, own):
    name = f.name
    if f.kind in ("u64", "usize"):
        return name
    if f.kind in ("ptr", "text"):
        return name + ":pointer"
    kind, count = array_of(f.kind) or (f.kind, "")
    if kind == "u64":
        return f"{name}:{count}"
    of, it = face.shown(kind)
    return f"{name}:{own(of, it)}" + (f"*{count}" if count else "")


def structs(face, own):
    """Each struct in a line, and the other names of its words."""
    out = []
    for it in face.structs.values():
        if it.c_only and it.key != "body_decoder":
            continue
        out.append(f'{own(face, it)} = struct("{own(face, it)}", "{" ".join(word(face, f, own) for f in it.fields)}")')
        for f in it.fields:
            out += [f"{own(face, it)}.{other} = property(lambda self: self.{f.name})" for other in f.aka]
    return out


def exports(face, letters, own, name):
    out = [f"{name} = {{"]
    for it in face.calls:
        out.append(f'    "{it.export}": ("{"".join(letters[a.kind] for a in it.args)}", {own(face, face.structs[it.out]) if it.out else None}),')
    return [*out, "}"]


def tables(faces):
    tier, rules = faces
    status = tier.enums["status"]
    own = lambda face, it: ("Rules" if face.base else "") + it.camel
    out = [f'"""The structs, numbers and texts of the headers."""\n{BY}', "import ctypes", "", "U64 = ctypes.c_uint64", "NONE = 2**64 - 1"]
    out += [f"{v.name} = {v.number}" for v in status.values]
    out += [f"RULES_{v.name} = {v.number}" for e in tier.enums.values() if e.joins for v in e.values]
    refusals = [v for v in status.values if 0 < v.number < 32]
    out += ["NAMES = {", *(f'    {v.number}: "{camel(v.name)}",' for v in refusals), "}", "TEXTS = {", *(f'    {v.number}: "{v.text}",' for v in refusals), "}"]
    out += [f'UNKNOWN = "{status.unknown}"']
    out += [texts(tier.enums[key], name) for key, name in (("permit", "PERMITS"), ("lock_status", "LOCK_STATUSES"))]
    out += [texts(rules.enums[key], name) for key, name in (("framing", "FRAMINGS"), ("plan", "PLANS"), ("reuse", "REUSES"), ("fetch", "FETCHES"), ("fwd", "FWD"))]
    out += ["REASONS = {", *(f'    {v.number}: "{v.text}",' for v in rules.enums["reason"].values), "}"]
    out += bits(rules.enums["message_flag"], "MESSAGE_FLAGS", lambda v: v.text) + bits(rules.enums["option_flag"], "OPTION_FLAGS", lambda v: v.name.lower())
    out += defaults.in_python(tier, "DEFAULTS") + defaults.in_python(rules, "RULES_DEFAULTS")
    out += ["", "", "def struct(name, words):", '    """A struct whose fields are words of 8 bytes, or of a type that stands after a colon."""', "    fields = []", "    for word in words.split():",
            '        field, _, kind = word.partition(":")', '        of, _, count = kind.partition("*")',
            '        made = U64 * int(of) if of.isdigit() else {"": U64, **KINDS}[of]', "        fields.append((field, made * int(count) if count else made))",
            '    KINDS[name] = type(name, (ctypes.Structure,), {"_fields_": fields})', "    return KINDS[name]", "", "", 'KINDS = {"pointer": ctypes.c_void_p}']
    out += structs(tier, own) + structs(rules, own)
    out += ["", "# The parameters of each export: t the tier, n a number, b bytes with their length, m metadata, o options; s a struct with its text, w a buffer,",
            "# p an address, q parts with their number; and the struct that is written."]
    out += exports(tier, TIER, own, "EXPORTS") + exports(rules, RULES, own, "RULES")
    return "\n".join(out) + "\n"


def texts(enum, name):
    """The texts of an enum, at their numbers."""
    at = {v.number: v.text for v in enum.values}
    return f"{name} = (" + ", ".join(f'"{at[n]}"' if n in at else "None" for n in range(max(at) + 1)) + ")"


def bits(enum, name, text):
    """The texts of flags, from the first bit on."""
    return [f"{name} = (", *(f'    "{text(v)}",' for v in enum.values), ")"]


def literal(values):
    return ", ".join(f'"{it}"' for it in values)


def stub(faces):
    """The types of words, and of the counters."""
    tier, rules = faces
    out = [f'"""Words that the package answers."""\n{BY}', "from typing import Literal, NamedTuple", ""]
    for face, key, name in ((tier, "permit", "Permit"), (tier, "lock_status", "LockStatus"), (rules, "reuse", "Reuse"), (rules, "fetch", "Fetch"), (rules, "fwd", "Fwd"),
                            (rules, "plan", "Plan"), (rules, "message_flag", "MessageFlag"), (rules, "framing", "FramingName")):
        out.append(f"{name} = Literal[{literal(v.text for v in face.enums[key].values)}]")
    refusals = [camel(v.name) for v in tier.enums["status"].values if 0 < v.number < 32]
    out += [f"ErrorKind = Literal[{literal(refusals)}]", f"Reason = Literal[{literal(v.text for v in rules.enums['reason'].values)}]", "", "class Stats(NamedTuple):",
            f'    """{tier.structs["stats"].doc}"""']
    out += [f"    {f.name}: int  # {f.doc}" for f in tier.structs["stats"].fields if f.name != "reserved"]
    return "\n".join(out) + "\n"
