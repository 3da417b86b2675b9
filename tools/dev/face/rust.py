"""The structs, numbers and exports of the crate."""
from face import defaults
from face.table import array_of, camel, shared

BY = "Written by tools/dev/interface.py: change the tables in embed, and run it with --write."
NULL = {"ptr": "std::ptr::null()", "u64": "0", "usize": "0"}
OWN = {"ptr": "*const u8", "u64": "u64", "usize": "usize"}


def kind_of(face, kind):
    if array_of(kind):
        return f"[u64; {array_of(kind)[1]}]"
    return OWN.get(kind) or face.shown(kind)[1].camel


def zero_of(face, kind):
    if array_of(kind):
        return f"[0; {array_of(kind)[1]}]"
    return NULL.get(kind) or face.shown(kind)[1].camel + "::ZERO"


def struct_of(face, it):
    fields = shared(it)
    out = [f"/// {it.doc}", "#[repr(C)]", "#[derive(Clone, Copy, Debug)]", f"pub struct {it.camel} {{"]
    for f in fields:
        out += ([f"    /// {f.doc}"] if f.doc else []) + [f"    pub {f.name}: {kind_of(face, f.kind)},"]
    out += ["}", f"impl {it.camel} {{", f"    pub const ZERO: {it.camel} = {it.camel} {{"]
    out += [f"        {f.name}: {zero_of(face, f.kind)}," for f in fields] + ["    };"]
    for f in fields:
        for other in f.aka:
            out += [f"    pub fn {other}(&self) -> u64 {{", f"        self.{f.name}", "    }"]
    out += ["}", f"impl Default for {it.camel} {{", f"    fn default() -> {it.camel} {{", f"        {it.camel}::ZERO", "    }", "}"]
    return [*out, f"const _: () = assert!(std::mem::size_of::<{it.camel}>() == {it.shared or it.size});"]


def module(enum, name=None):
    out = [f"/// {enum.doc}", f"pub mod {name or enum.name} {{"]
    return [*out, *(f"    pub const {v.name}: u64 = {v.number};" for v in enum.values), "}"]


def statuses(face):
    every = [face.enums["status"], *(e for e in face.enums.values() if e.joins == "status")]
    out, taken = ["/// What calls answer.", "pub mod status {"], set()
    for e in every:
        for v in e.values:
            name = v.name if v.name not in taken else "RULES_" + v.name  # (two have DATA)
            taken.add(name)
            out += [f"    /// {v.text}", f"    pub const {name}: u64 = {v.number};"]
    return [*out, "    /// Below it a call was refused.", "    pub const FIRST_DONE: u64 = 32;", "}"]


def raw(face):
    """The structs of a header, word by word, and its numbers."""
    made = [it for it in face.structs.values() if not it.c_only or it.key == "body_decoder"]
    out = [f"//! The structs and numbers of `{face.low}.h`. {BY}", "#![allow(dead_code)]"]
    out += ["use crate::raw::{Head, Meta};", ""] if face.base else ["", "/// A tier, in memory of its own.", "#[repr(C)]", "pub struct Raw {", "    _private: [u8; 0],", "}"]
    for it in made:
        out += struct_of(face, it)
    out += defaults.in_rust(face)
    if face.base:
        for e in face.enums.values():
            out += module(e) if e.key in ("framing", "plan", "message_flag", "option_flag") else []
        return "\n".join(out) + "\n"
    response = face.structs["response"]
    out += [f"/// What keeps a {response.camel}: the library's own.", f"pub type Keep = {kind_of(face, response.fields[-1].kind)};"]
    out += statuses(face)
    return "\n".join(out) + "\n"


def low(face, arg):
    """The parameters of an export for an argument."""
    own = lambda key: face.structs[key].camel if key in face.structs else ""
    pair = lambda name, of: [(name, f"*{of} u8"), (name + "_len", "usize")]
    in_buffer = lambda key: [(arg.name, "*const " + own(key)), *pair(arg.name + "_buf", "const")]
    return {
        "tier": [("tier", "*mut Raw")], "ctier": [("tier", "*const Raw")], "u64": [(arg.name, "u64")], "bool": [(arg.name, "u64")],
        "moment": [("seconds", "u64"), ("nanoseconds", "u64")], "at": [(arg.name, "u64"), (arg.name + "_ns", "u64")],
        "bytes": pair(arg.name, "const"), "slice": pair(arg.name, "const"), "buffer": pair(arg.name, "mut"), "keep": [("keep", "*mut u64")],
        "key": [("is_digest", "u64"), *pair("key", "const"), *pair("user_tag", "const")],
        "keyid": [("is_digest", "u64"), *pair("key", "const")],
        "meta": [("has_meta", "u64"), ("meta", "*const Meta")], "options": [("options", "*const Options")],
        "ropts": [("options", "*const Options"), *pair("settings", "const")],
        "rhead": in_buffer("request_head"), "rresp": in_buffer("response_head"),
        "shead": [("stored", "*const Head"), *pair("fields", "const")], "shead0": [("stored", "*const Head"), *pair("fields", "const")],
        "how": [(arg.name, "*const " + own("cache_status"))], "parts": [("parts", "*mut " + own("body_part")), ("parts_len", "usize")],
        "decoder": [("decoder", "*mut " + own("body_decoder"))],
    }[arg.kind]


def externs(face):
    out = ['extern "C" {']
    for it in [*face.exports, *face.calls]:
        params = [f"{n}: {k}" for a in it.args for n, k in low(face, a)]
        if it.out:
            params += [f"out: *mut {face.structs[it.out].camel}"] + (["keep: *mut u64"] if it.out == "response" else [])
        back = f" -> {it.returns}" if getattr(it, "returns", None) else ""
        out.append(f"    pub(super) fn {face.symbol}_{it.export}({', '.join(params)}){back};")
    return [*out, "}"]


SAFE = {"u64": "u64", "bool": "bool", "moment": "Moment", "at": "Moment", "bytes": "&[u8]", "slice": "&[u8]", "buffer": "&mut [u8]", "key": "&Key<'_>", "keyid": "&Key<'_>",
        "ropts": "&O<'_>", "rhead": "&Q<'_>", "rresp": "&R<'_>", "shead": "&H<'_>", "shead0": "&H<'_>"}


def words(face, a):
    """What an export is called with for an argument of a safe function."""
    n = a.name
    of_key = ["key.is_digest", "key.bytes.as_ptr()", "key.bytes.len()"]
    beside = [f"&{n}.raw", f"{n}.text.as_ptr()", f"{n}.text.len()"]
    return {
        "u64": [n], "bool": [f"{n}.into()"], "moment": [f"{n}.seconds", f"{n}.nanoseconds"], "at": [f"{n}.seconds", f"{n}.nanoseconds"],
        "bytes": [f"{n}.as_ptr()", f"{n}.len()"], "slice": [f"{n}.as_ptr()", f"{n}.len()"], "buffer": [f"{n}.as_mut_ptr()", f"{n}.len()"],
        "key": [*of_key, "key.user_tag.as_ptr()", "key.user_tag.len()"], "keyid": of_key,
        "meta": ["1", "meta"],
        "ropts": beside, "rhead": beside, "rresp": beside, "shead": beside, "shead0": beside, "how": [n], "decoder": [n], "parts": ["parts.as_mut_ptr()", "parts.len()"],
    }[a.kind]


def kind_safe(face, a):
    own = lambda key: face.structs[key].camel
    if a.kind in SAFE:
        return SAFE[a.kind]
    return {"meta": lambda: "&Meta", "how": lambda: "&" + own("cache_status"), "parts": lambda: f"&mut [{own('body_part')}]",
            "decoder": lambda: "&mut " + own("body_decoder")}[a.kind]()


def tier_call(face, it):
    """A call of a tier as a method of what owns its memory."""
    result, stats = (face.structs[key].camel for key in ("result", "stats"))
    params = ["&mut self", *(f"{a.name}: {kind_safe(face, a)}" for a in it.args[1:])]
    given = ["self.at.as_ptr()", *(w for a in it.args[1:] for w in words(face, a))]
    call = lambda *more: f"{face.symbol}_{it.export}({', '.join([*given, *more])})"
    head = f"    pub fn {it.name}({', '.join(params)})"
    if it.out == "result":
        return [f"{head} -> {result} {{", f"        answered(|out| unsafe {{ {call('out')} }})", "    }"]
    if it.out == "response":
        return [f"{head} -> Held {{", f"        Held::filled(|out, keep| unsafe {{ {call('out', 'keep')} }})", "    }"]
    if it.out == "entry":
        return [f"{head} -> Option<OwnedEntry> {{", f"        entry(|out| unsafe {{ {call('out')} }})", "    }"]
    return [f"{head} -> {stats} {{", f"        let mut out = {stats}::default();", f"        unsafe {{ {call('&mut out')} }};", "        out", "    }"]


def exports(face):
    """The exports of the tier, and each call as a safe method."""
    out = [f"//! The exports of `{face.low}.h`, and each as a safe call. {BY}", "use super::{answered, entry, Held, Key, OwnedEntry, Room};", "use crate::raw::*;", "",
           "#[rustfmt::skip]", *externs(face), "", "#[rustfmt::skip]", "impl Room {"]
    for it in face.calls:
        if it.key not in ("init", "end") and it.out != "file":
            out += [f"    /// {it.doc}", *tier_call(face, it)]
    return "\n".join([*out, "}"]) + "\n"


def rules_exports(face):
    """The exports of the rules, each as a safe function: it writes into a buffer and into the last of its arguments, and keeps nothing."""
    own = sorted({it.camel for it in face.structs.values() if it.key not in ("span", "exchange")})
    names = {key: face.structs[key].camel for key in ("options", "request_head", "response_head")}
    out = [f"//! The exports of `{face.low}.h`, each as a safe function. {BY}", "#![allow(clippy::too_many_arguments)]", "use super::Beside;", "use crate::raw::{Head, Moment};",
           f"use crate::rules::raw::{{{', '.join(own)}}};", "", f"type O<'a> = Beside<'a, {names['options']}>;", f"type Q<'a> = Beside<'a, {names['request_head']}>;",
           f"type R<'a> = Beside<'a, {names['response_head']}>;", "type H<'a> = Beside<'a, Head>;", "", "#[rustfmt::skip]"]
    out += [it.replace("pub(super) ", "") for it in externs(face)]
    for it in [*face.exports, *face.calls]:
        params = [f"{a.name}: {kind_safe(face, a)}" for a in it.args]
        given = [w for a in it.args for w in words(face, a)]
        back = f" -> {it.returns}" if getattr(it, "returns", None) else ""
        if it.out:
            params.append(f"out: &mut {face.structs[it.out].camel}")
            given.append("out")
        doc = [f"/// {it.doc}"] if hasattr(it, "doc") else []
        out += [*doc, "#[rustfmt::skip]", f"pub fn {it.name}({', '.join(params)}){back} {{", f"    unsafe {{ {face.symbol}_{it.export}({', '.join(given)}) }}", "}"]
    return "\n".join(out) + "\n"


def enum_of(doc, name, values, unknown=None, texts=False, number="u64", text_of_unknown="", of_number=""):
    """An enum that programs see: made of its number, by them too where `of_number` says why; with texts where they are asked for."""
    out = [f"/// {doc}", "#[derive(Clone, Copy, Debug, PartialEq, Eq, Hash)]", *(["#[non_exhaustive]"] if unknown else []), f"pub enum {name} {{"]
    for v in values:
        out += [f"    /// {v.doc or v.text}", f"    {camel(v.name)},"]
    out += [f"    /// {unknown}", "    Unknown,"] if unknown else []
    out += ["}", "#[allow(dead_code)]", f"impl {name} {{", *([f"    /// {of_number}"] if of_number else []),
            f"    {'pub' if of_number else 'pub(crate)'} fn from_word(word: u64) -> {name} {{", "        match word {"]
    last = "Unknown" if unknown else camel(values[-1].name)
    out += [f"            {v.number} => {name}::{camel(v.name)}," for v in (values if unknown else values[:-1])]
    out += [f"            _ => {name}::{last},", "        }", "    }"]
    if texts:
        out += [f"    /// {texts}", "    pub fn as_str(self) -> &'static str {", "        match self {"]
        out += [f'            {name}::{camel(v.name)} => "{v.text}",' for v in values] + ([f'            {name}::Unknown => "{text_of_unknown}",'] if unknown else [])
        out += ["        }", "    }"]
    if number == "word":
        out += ["    pub(crate) fn word(self) -> u64 {", "        match self {"]
        out += [f"            {name}::{camel(v.name)} => {v.number}," for v in values] + ([f"            {name}::Unknown => 0,"] if unknown else []) + ["        }", "    }"]
    return [*out, "}"]


def enums(face):
    """Why calls are refused, permits, and how waits end."""
    out = [f"//! What calls answer. {BY}", "#![cfg_attr(rustfmt, rustfmt_skip)]", ""]
    refusals = [v for v in face.enums["status"].values if 0 < v.number < 32]
    out += enum_of("Why a call was refused.", "ErrorKind", refusals, "a status that this crate does not know", "The text of `cache_tier_strerror`.",
                   text_of_unknown=face.enums["status"].unknown)
    for key in ("permit", "lock_status"):
        out += enum_of(face.enums[key].doc, camel(key), face.enums[key].values)
    return "\n".join(out) + "\n"


def rules_enums(face):
    """Reasons, and what calls of the rules answer or are asked for."""
    out = [f"//! Numbers of the rules as enums. {BY}", "#![cfg_attr(rustfmt, rustfmt_skip)]", ""]
    reasons = face.enums["reason"].values[1:]
    out += enum_of(face.enums["reason"].doc, "Reason", reasons, "a reason that this crate does not know", "Its name, as it stands in Cache-Status.", "word",
                   face.enums["reason"].unknown, "The reason of a number, as an event of the gateway has it for logs; of 0, which is none, Unknown.")
    out += enum_of(face.enums["reuse"].doc, "Reuse", face.enums["reuse"].values)
    out += enum_of(face.enums["fwd"].doc, "Fwd", face.enums["fwd"].values[1:], number="word")
    out += enum_of("What forward_request wrote.", "FetchKind", face.enums["fetch"].values, number="word")
    return "\n".join(out) + "\n"
