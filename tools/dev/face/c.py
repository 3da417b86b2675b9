"""The declarations of the headers."""
from face import c_calls
from face.lines import code, comment
from face.table import array_of

KINDS = {"u64": "uint64_t ", "usize": "size_t ", "ptr": "const uint8_t *", "cptr": "const void *", "text": "const char *"}
ASSERT = "CACHE_TIER_ASSERT"


def field_of(face, field):
    kind, count = array_of(field.kind) or (field.kind, None)
    if kind[0] == "&":
        return f"const {face.low}_{face.structs[kind[1:]].name} *{field.name};"
    if kind not in KINDS:
        of, it = face.shown(kind)
    kind = KINDS.get(kind) or f"{of.low}_{it.name} "
    if field.aka:
        return f"union {{ uint64_t {', '.join(field.aka)}; }};"
    return f"{kind}{field.name}[{count}];" if count else f"{kind}{field.name};"


def struct_of(face, it):
    rows = []
    for field in it.fields:
        text = "    " + field_of(face, field)
        rows.append(f"{text.ljust(39)} /* {field.doc} */" if field.doc else text)
    body = "\n".join(rows)
    return f"{comment(it.doc)}\ntypedef struct {face.low}_{it.name} {{\n{body}\n}} {face.low}_{it.name};\n"


def asserts(face):
    out = [f"{ASSERT}(sizeof(void *) == 8 && sizeof(size_t) == 8);"] if not face.base else []
    for it in face.structs.values():
        name = f"{face.low}_{it.name}"
        last = [(f.aka or [f.name])[0] for f in it.fields[1:]]
        facts = [f"sizeof({name}) == {it.size}"] + [f"offsetof({name}, {n}) == {f.offset}" for n, f in zip(last, it.fields[1:])]
        out.append(f"{ASSERT}({' && '.join(facts)});")
    return "\n".join(code(it, "                  ") for it in out) + "\n"


def texts_of(face, what, name):
    """The function that gives the text of a number."""
    return (f"static inline const char *{face.low}_{name}(uint64_t {what}) {{\n    switch ({what}) {{\n"
            f"#define {face.up}_X(name, number, text) case number: return text;\n        {face.up}_{what.upper()}{'ES' if what == 'status' else 'S'}({face.up}_X)\n"
            f"#undef {face.up}_X\n    default: return \"{face.enums[what].unknown}\";\n    }}\n}}\n")


def statuses(faces):
    """The statuses of the tier and of the rules, in one list."""
    tier = faces[0]
    joined = [tier.enums["status"], *(e for it in faces for e in it.enums.values() if e.joins == "status")]
    rows = [f'    X({e.prefix}{v.name}, {v.number}, "{v.text}")' + (f" /* {v.doc} */" if v.doc else "") for e in joined for v in e.values]
    return "\n".join([
        comment(joined[0].doc), "#define CACHE_TIER_STATUSES(X) \\\n" + " \\\n".join(rows),
        "#define CACHE_TIER_X(name, number, text) name = number,\nenum cache_tier_status { CACHE_TIER_STATUSES(CACHE_TIER_X) };\n#undef CACHE_TIER_X",
        texts_of(tier, "status", "strerror")])


def reasons(face, it):
    rows = [f'X({it.prefix}{v.name}, {v.number}, "{v.text}")' for v in it.values[1:]]
    lines = " \\\n    ".join(" ".join(rows[at : at + 3]) for at in range(0, len(rows), 3))
    return "\n".join([
        comment(it.doc), f"#define {face.up}_REASONS(X) \\\n    {lines}",
        f"#define {face.up}_X(name, number, text) name = number,\nenum {face.low}_{it.name} {{ {face.up}_REASONS({face.up}_X) {it.prefix}{it.values[0].name} = 0 }};\n"
        f"#undef {face.up}_X", texts_of(face, "reason", "reason_name")])


def enums(face):
    out = [statuses([face])] if not face.base else []
    for it in face.enums.values():
        if it.key == "status" or it.joins:
            continue
        if face.base and it.key == "reason":
            out.append(reasons(face, it))
            continue
        rows = [f"    {it.prefix}{v.name} = {v.number}" + ("," if v is not it.values[-1] else "") + (f" /* {v.doc} */" if v.doc else "") for v in it.values]
        out.append(f"{comment(it.doc)}\nenum {face.low}_{it.name} {{\n" + "\n".join(rows) + "\n};\n")
    return "\n".join(out)


def low(face, arg):
    """The parameters of an export for an argument."""
    name, kind = arg.name, arg.kind
    own = lambda key: f"{face.low}_{face.structs[key].name}" if key in face.structs else ""
    in_buffer = lambda key: [f"const {own(key)} *{name}", f"const uint8_t *{name}_buf", f"size_t {name}_buf_len"]
    return {
        "tier": [f"{face.low} *{name}"],
        "ctier": [f"const {face.low} *{name}"],
        "u64": [f"uint64_t {name}"],
        "bool": [f"uint64_t {name}"],
        "moment": ["uint64_t seconds", "uint64_t nanoseconds"],
        "at": [f"uint64_t {name}", f"uint64_t {name}_ns"],
        "bytes": [f"const uint8_t *{name}", f"size_t {name}_len"],
        "slice": [f"const uint8_t *{name}", f"size_t {name}_len"],
        "buffer": [f"uint8_t *{name}", f"size_t {name}_len"],
        "keep": ["uint64_t *keep"],
        "key": ["uint64_t is_digest", "const uint8_t *key", "size_t key_len", "const uint8_t *user_tag", "size_t user_tag_len"],
        "keyid": ["uint64_t is_digest", "const uint8_t *key", "size_t key_len"],
        "meta": ["uint64_t has_meta", f"const {face.low}_meta *meta"],
        "options": [f"const {face.low}_options *options"],
        "ropts": [f"const {face.low}_options *options", "const uint8_t *settings", "size_t settings_len"],
        "rhead": in_buffer("request_head"),
        "rresp": in_buffer("response_head"),
        "shead": ["const cache_tier_head *stored", "const uint8_t *fields", "size_t fields_len"],
        "shead0": ["const cache_tier_head *stored", "const uint8_t *fields", "size_t fields_len"],
        "how": [f"const {own('cache_status')} *{name}"],
        "parts": [f"{own('body_part')} *parts", "size_t parts_len"],
        "decoder": [f"{own('body_decoder')} *decoder"],
    }[kind]


def outs(face, call):
    if not call.out:
        return []
    own = f"{face.low}_{face.structs[call.out].name} *out"
    return [own, "uint64_t *keep"] if call.out == "response" else [own]


def exports(face):
    out = []
    for it in [*face.exports, *face.calls]:
        params = [p for a in it.args for p in low(face, a)] + outs(face, it)
        kind = {"u64": "uint64_t", "usize": "size_t", None: "void"}[getattr(it, "returns", None)]
        out.append(code(f"{kind} {face.symbol}_{it.export}({', '.join(params) or 'void'});", "                      "))
    return "\n".join(out) + "\n"


def declarations(face):
    """What stands in the place of @DECLARATIONS@ in a header's template."""
    known = {"NONE": "UINT64_MAX"}
    out = [f"{comment(it.doc)}\n#define {face.up}_{it.name} {known.get(it.name, it.value)}" for it in face.constants] + [""]
    out.append(enums(face))
    if not face.base:
        out.append(f"/* {face.low}_sizeof() bytes, aligned to {face.up}_ALIGN; never moved or copied. */\ntypedef struct {face.low} {face.low};\n")
    out += [struct_of(face, it) for it in face.structs.values()]
    out.append(asserts(face))
    said = "structs stand for their bytes before `settings`, `buf` and `parts`, whose text is beside them" if face.base else "no pointer is null"
    out.append(f"/* What the library exports: {said}. Call the functions below instead. */\n{exports(face)}")
    return "\n".join(out)


def header(face, template):
    """A whole header: the parts by hand stand around what is written here."""
    calls = "\n".join(c_calls.inline(face, it) for it in face.calls if it.inline not in ("by hand",))
    return template.replace("@DECLARATIONS@\n", declarations(face)).replace("@CALLS@\n", calls).replace("@SYMBOL@", face.symbol)
