"""The check of the Rattle sources against the tables: numbers, the fields of structs with their types and order, and the exports with their parameters."""
import re

from face import defaults, gateway
from face.table import shared

KINDS = {"u64": "u64", "usize": "usize", "*const u8": "ptr"}
# A number of an export that has another name in the table.
SAME = {"digested": "is_digest", "given": "has_meta", "place": "index", "head_sent": "head_request", "length": "body_len", "code": "status_code", "what": "fetch",
        "from": "start", "asked_seconds": "request_time", "asked_nanoseconds": "request_time_ns", "came_seconds": "response_time", "came_nanoseconds": "response_time_ns"}
# Where it depends on the export.
SAME_OF = {("parse_response", "seconds"): "response_time", ("parse_response", "nanoseconds"): "response_time_ns", ("stale_on_error", "code"): "origin_status",
           ("update_vary_index", "seconds"): "response_time", ("update_vary_index", "nanoseconds"): "response_time_ns", ("encode_chunk", "length"): "chunk_len"}


def plain(name):
    return name.replace("_", "").upper()


def numbers(face, root):
    """Numbers of constants, and of the arms of matches; `path#Type` takes the arms of that type alone."""
    wrong, seen = [], 0
    for it in face.enums.values():
        other = dict(word.split("=") for word in it.rattle_names.split())  # where one source has another name than the rest
        said = {plain(other.get(v.name, v.rattle)): v.number for v in it.values}
        for path in (it.rattle or "").split():
            path, _, kinds = path.partition("#")
            text = (root / path).read_text(encoding="utf-8")
            found = re.findall(r"const (\w+): u64 = (\d+);", text)
            found += [(name, number) for kind, name, number in re.findall(r"(\w+)::(\w+)(?:\(\w+\))? => \(?(\d+)[,)]", text) if not kinds or kind in kinds.split(",")]
            there = {plain(name): int(number) for name, number in found if plain(name) in said}
            seen += len(there)
            wrong += [f"{path}: {name} is {number}, and {said[name]} in the table" for name, number in there.items() if said[name] != number]
            if not there:
                wrong.append(f"{path}: has no number of {it.name}")
            wrong += [f"{path}: has no {name} of {it.name}" for name in said if it.rattle_all and name not in there and said[name]]
    return wrong, seen


def structs(face, root):
    wrong, seen = [], 0
    known = {it.rattle[1]: key for key, it in face.structs.items() if it.rattle}
    known.update({"MetaShape": "tier.meta", "HeadShape": "tier.head", "Moment": "tier.moment", "LentBytes": "tier.slice"} if face.base else {})
    for it in face.structs.values():
        if not it.rattle:
            continue
        path, name = it.rattle
        body = re.search(r"#\[repr\(C\)\]\s*(?:#\[[^\]]*\]\s*)*pub struct " + name + r" \{(.*?)\n\}", (root / path).read_text(encoding="utf-8"), re.S)
        if not body:
            wrong.append(f"{path}: no struct {name}")
            continue
        fields = [(n, " ".join(k.split())) for n, k in re.findall(r"^\s*pub (\w+): ([^,\n]+),", body[1], re.M)]
        has = [(n, re.sub(r"\[u64; (\d+)\]", r"u64[\1]", known.get(k, KINDS.get(k, k)))) for n, k in fields]
        want = [(f.rattle, f.kind) for f in shared(it)]
        seen += len(want)
        for a, b in zip(has + [("", "")] * len(want), want):
            if a != b:
                wrong.append(f"{path}: {name} has {a[0]}: {a[1]}, and the table {b[0]}: {b[1]}")
                break
    return wrong, seen


def parameters(face, call):
    """The parameters of an export as the crate cache_tier_c has them: (name, type)."""
    shape = lambda key: face.structs[key].rattle[1] if key in face.structs else "OptionNumbers"
    out = []
    for a in call.args:
        n = a.name
        out += {
            "tier": [(n, "*mut u8")], "ctier": [(n, "*mut u8")], "keep": [(n, "*mut u8")], "u64": [(n, "u64")], "bool": [(n, "u64")], "bytes": [(n, "&[u8]")], "slice": [(n, "&[u8]")],
            "gateway": [(n, "*mut u8")], "room": [(n, "*mut u8")], "buffer": [(n, "&mut [u8]")], "moment": [("seconds", "u64"), ("nanoseconds", "u64")],
            "at": [("seconds" if n == "now" else n, "u64"), ("nanoseconds" if n == "now" else n + "_ns", "u64")],
            "key": [("is_digest", "u64"), ("key", "&[u8]"), ("tag", "&[u8]")], "keyid": [("is_digest", "u64"), ("key", "&[u8]")],
        }.get(a.kind) or {
            "meta": lambda: [("has_meta", "u64"), (n, "&" + shape("meta"))], "options": lambda: [(n, "&" + shape("options"))],
            "ropts": lambda: [(n, "&" + shape("options")), (n, "&[u8]")], "rhead": lambda: [(n, "&" + shape("request_head")), (n, "&[u8]")],
            "rresp": lambda: [(n, "&" + shape("response_head")), (n, "&[u8]")], "shead": lambda: [(n, "&HeadShape"), (n, "&[u8]")],
            "shead0": lambda: [(n, "&HeadShape"), (n, "&[u8]")], "how": lambda: [(n, "&" + shape("cache_status"))],
            "parts": lambda: [(n, "&mut [" + shape("body_part") + "]")], "decoder": lambda: [(n, "&mut BodyShape")], "limits": lambda: [(n, "&" + shape("limits"))],
            **{f"out_{key}": lambda key=key: [(n, "&mut " + shape(key))] for key in face.structs},
        }[a.kind]()
    if call.out:
        out.append(("out", "&mut " + shape(call.out)))
        out += [("keep", "*mut u8")] if call.out == "response" else []
    return out


def exports(face, root):
    """Names, and of each export the kinds of its parameters in order, and the names of those that are numbers."""
    text = "".join(it.read_text(encoding="utf-8") for it in sorted((root / "cache_tier_c/src").rglob("*.rt")))
    found = re.findall(r'extern "C" fn ' + face.symbol + r"_(\w+)\(([^)]*)\)", text, re.S)
    wanted = {it.export: it for it in [*face.exports, *face.calls]}
    there = {name for name, _ in found}
    wrong = [f"cache_tier_c has no export {it}" for it in sorted(set(wanted) - there)] + [f"the table has no call {it}" for it in sorted(there - set(wanted))]
    seen = len(wanted)
    for name, params in found:
        if name not in wanted:
            continue
        has = [it.split(": ", 1) for it in re.findall(r"\w+: [^,]+", " ".join(params.split()))]
        has = [(n, re.sub(r"\w+::", "", k).strip()) for n, k in has if k.strip() != "Global"]
        want = parameters(face, wanted[name])
        seen += len(want)
        if [k for _, k in has] != [k for _, k in want]:
            wrong.append(f"cache_tier_c: {face.symbol}_{name} takes {', '.join(k for _, k in has)}, and in the table {', '.join(k for _, k in want)}")
            continue
        for (a, kind), (b, _) in zip(has, want):
            a = a.strip("_")
            if kind == "u64" and b not in (a, SAME.get(a), SAME_OF.get((wanted[name].key, a))):
                wrong.append(f"cache_tier_c: {face.symbol}_{name} has {a} where the table has {b}")
    return wrong, seen


def reason_texts(face, root):
    """The names of reasons, which stand in Cache-Status."""
    wrong, text = [], (root / "rules_ffi_results/src/reasons.rt").read_text(encoding="utf-8")
    lists = [re.findall(r'b"([^"]*)"', it) for it in re.findall(r"const OF_\w+: &\[&\[u8\]\] = &\[(.*?)\];", text, re.S)]
    there = {**dict(enumerate(lists[0], 1)), **dict(enumerate(lists[1], 50))}
    said = {v.number: v.text for v in face.enums["reason"].values if v.number}
    wrong += [f"rules_ffi_results/src/reasons.rt: reason {n} is {there.get(n)}, and {said.get(n)} in the table" for n in sorted({*there, *said}) if there.get(n) != said.get(n)]
    return wrong, len(said)


def check(faces, root):
    """Differences, and how many names were compared."""
    told = [part(face, root) for face in faces for part in (numbers, structs, exports)]
    told += [reason_texts(faces[1], root), defaults.of_rattle(faces[1], root), gateway.limits_of_rattle(faces[2], root)]
    return [it for wrong, _ in told for it in wrong], sum(seen for _, seen in told)
