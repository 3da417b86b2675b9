"""The gateway's header, and what Rust and Python have of it: constants, structs and exports; its calls are written by hand."""
import re

from face import c, python, rust
from face.lines import code, comment
from face.table import array_of, camel, shared

OUT = "out_"
# Its enums in Rust: what the crate answers as a value.
ENUMS = {"client": "ClientEnd", "origin": "OriginAction", "closed": "Closed", "reuse": "Reuse", "fetch": "Fetch"}


def is_out(kind):
    return kind[len(OUT) :] if kind.startswith(OUT) else None


# ---- C

KINDS = {"u64": "uint64_t"}


def params(face, a):
    low, n = face.low, a.name
    if is_out(a.kind):
        return [f"{low}_{is_out(a.kind)} *{n}"]
    return {
        "gateway": ["void *gateway"], "room": [f"uint64_t *{n}"], "keep": ["uint64_t *keep"], "limits": [f"const {low}_limits *limits"],
        "ropts": ["const cache_rules_options *options", "const uint8_t *settings", "size_t settings_len"],
    }.get(a.kind) or c.low(face, a)


def exports(face):
    out = []
    for it in face.exports:
        words = [p for a in it.args for p in params(face, a)]
        kind = {"usize": "size_t", None: "void"}[it.returns]
        out.append(code(f"{kind} {face.symbol}_{it.export}({', '.join(words) or 'void'});", "                      "))
    return "\n".join(out) + "\n"


def enum(face, it):
    rows = [f"    {it.prefix}{v.name} = {v.number}" + ("," if v is not it.values[-1] else "") + (f" /* {v.doc} */" if v.doc else "") for v in it.values]
    return f"{comment(it.doc)}\nenum {face.low}_{it.name} {{\n" + "\n".join(rows) + "\n};\n"


def declarations(face):
    out = [enum(face, it) for it in face.enums.values()] + [c.struct_of(face, it) for it in face.structs.values()]
    out.append(c.asserts(face))
    out.append(f"/* What the library exports: no pointer is null. Call the functions below instead. */\n{exports(face)}")
    return "\n".join(out)


def limits(face):
    return face.structs["limits"].fields


def defaults_in_c(face):
    values = ", ".join("{0}" if array_of(it.kind) else str(it.default) for it in limits(face))
    told = "; ".join(f"{it.name} {it.default}" for it in limits(face) if it.default is not None)
    kind = f"{face.low}_limits"
    lines = [f"static inline {kind} {face.low}_default_limits(void) {{", code(f"    {kind} l = {{{values}}};", " " * 8), "    return l;", "}"]
    return "\n".join([comment(f"The defaults: {told}."), *lines]) + "\n"


def header(face, template):
    return template.replace("@DECLARATIONS@\n", declarations(face)).replace("@DEFAULTS@\n", defaults_in_c(face)).replace("@SYMBOL@", face.symbol)


def limits_of_rattle(face, root):
    """What the gateway's own limits are otherwise, where nothing is chosen."""
    path = "gateway_exchanges/src/limits.rt"
    body = re.search(r"fn usual\(\).*?\n    \}\n", (root / path).read_text(encoding="utf-8"), re.S)[0]
    number = lambda text: 1 << int(text.split("<<")[1]) if "<<" in text else int(text)
    has = {name: number(text) for name, text in re.findall(r"^\s+(\w+): ([\d<> ]+),$", body, re.M)}
    want = {it.name: it.default for it in limits(face) if it.default is not None and it.name != "hash_seed"}
    return [f"{path}: {name} is {has.get(name)}, and {want.get(name)} in the table" for name in sorted({*has, *want}) if has.get(name) != want.get(name)], len(want)


# ---- Rust

def rust_params(face, a):
    if is_out(a.kind):
        return [("out", f"*mut {face.structs[is_out(a.kind)].camel}")]
    return {
        "gateway": [("gateway", "*mut u8")], "room": [(a.name, "*mut u64")], "limits": [("limits", "*const Limits")],
        "ropts": [("options", "*const Options"), ("settings", "*const u8"), ("settings_len", "usize")],
    }.get(a.kind) or rust.low(face, a)


def in_rust(face):
    """The structs and numbers."""
    out = [f"//! The structs and numbers of `{face.low}.h`. {rust.BY}", "#![cfg_attr(rustfmt, rustfmt_skip)]", "#![allow(dead_code)]", "",
           "use crate::raw::{Moment, Slice};", ""]
    for it in face.structs.values():
        out += rust.struct_of(face, it)
        if it.shared:
            out += ["/// What keeps one of them: the library's own.", f"pub type {it.camel}Keep = {rust.kind_of(face, it.fields[-1].kind)};"]
    rows = [f"        {it.name}: {it.default}," for it in limits(face) if it.default]
    out += ["impl Limits {", "    /// What a program has that chooses nothing.", "    pub const DEFAULT: Limits = Limits {", *rows, "        ..Limits::ZERO", "    };", "}"]
    for it in face.enums.values():
        out += rust.module(it) if it.key not in ENUMS else []
    return "\n".join(out) + "\n"


def enums_in_rust(face):
    """What calls answer and are given."""
    out = [f"//! Numbers of the gateway as enums. {rust.BY}", "#![cfg_attr(rustfmt, rustfmt_skip)]", ""]
    for key, name in ENUMS.items():
        out += rust.enum_of(face.enums[key].doc, name, face.enums[key].values, number="word")
    return "\n".join(out) + "\n"


def exports_in_rust(face):
    out = [f"//! The exports of `{face.low}.h`. {rust.BY}", "#![cfg_attr(rustfmt, rustfmt_skip)]", "",
           f"use crate::gateway::raw::{{{', '.join(sorted(it.camel for it in face.structs.values()))}}};", "use crate::rules::raw::Options;", "", 'extern "C" {']
    for it in face.exports:
        words = [f"{n}: {k}" for a in it.args for n, k in rust_params(face, a)]
        back = f" -> {it.returns}" if it.returns else ""
        out.append(f"    pub(super) fn {face.symbol}_{it.export}({', '.join(words)}){back};")
    return "\n".join([*out, "}"]) + "\n"


# ---- Python

TEXTS = {"client": "CLIENT_ENDS", "origin": "ORIGIN_ACTIONS", "closed": "CLOSED", "reuse": "REUSES", "fetch": "FETCHES", "event": "EVENT_NAMES"}
LETTERS = {"gateway": "g", "room": "p", "keep": "p", "limits": "p", "ropts": "s", "moment": "nn", "u64": "n", "bytes": "b"}


def in_python(face):
    own = lambda it: it.camel
    out = ['"""The structs, numbers and texts of the gateway\'s header."""', python.BY, "import ctypes", "", "from .tables import Moment, Slice, U64", ""]
    out += [f"{v.name} = {v.number}" for v in face.enums["status"].values]
    for it in face.enums.values():
        if it.key not in ("status", "list"):
            out.append(f"{TEXTS[it.key]} = {{{', '.join(f'{v.number}: {chr(34)}{v.text}{chr(34)}' for v in it.values)}}}")
    out += [f"LIST_{v.name} = {v.number}" for v in face.enums["list"].values]
    out += ["DEFAULTS = {", *(f'    "{it.name}": {it.default},' for it in limits(face) if it.default is not None), "}"]
    for it in face.structs.values():
        fields = [f'("{f.name}", {field_in_python(f)})' for f in shared(it)]
        size = [f'("keep", U64 * {array_of(it.fields[-1].kind)[1]})'] if it.shared else []
        out += ["", "", f"class {own(it)}(ctypes.Structure):", f'    """{it.doc}"""', "", "    _fields_ = [" + ", ".join(fields + size) + "]"]
    out += ["", "", "# The parameters of each export: g the gateway, n a number, b bytes with their length, s options with their settings, p an address.", "EXPORTS = {"]
    for it in face.exports:
        letters = "".join(LETTERS.get(a.kind, "p") for a in it.args)
        out.append(f'    "{it.export}": ("{letters}", {bool(it.returns)}),')
    return "\n".join([*out, "}"]) + "\n"


def field_in_python(f):
    if array_of(f.kind):
        return f"U64 * {array_of(f.kind)[1]}"
    return {"u64": "U64", "usize": "ctypes.c_size_t"}.get(f.kind) or camel(f.kind.removeprefix("tier."))
