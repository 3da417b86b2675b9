"""The calls of the headers, each an inline function over an export."""
from face.lines import code, comment

# What the library fills, as a parameter.
OUTS = {"response": "response", "result": "result", "entry": "entry", "file": "file", "stats": "stats", "message": "message", "request_head": "request",
        "response_head": "response", "store_decision": "decision", "body_chunk": "chunk"}


def params(face, a):
    """The parameters of a call for an argument."""
    low, n = face.low, a.name
    own = lambda key: f"{low}_{key}"
    return {
        "tier": [f"{low} *tier"], "ctier": [f"const {low} *tier"], "u64": [f"uint64_t {n}"], "bool": [f"int {n}"], "moment": [f"cache_tier_moment {n}"],
        "at": [f"cache_tier_moment {n}"], "bytes": [f"const void *{n}", f"size_t {n}_len"], "slice": [f"cache_tier_slice {n}"],
        "buffer": [f"uint8_t *{n}", f"size_t {n}_len"], "key": [f"{low}_key key"], "keyid": [f"{low}_key key"], "meta": [f"const {low}_meta *meta"],
        "options": [f"const {low}_options *options"], "ropts": [f"const {low}_options *options"], "rhead": [f"const {own('request_head')} *{n}"],
        "rresp": [f"const {own('response_head')} *{n}"], "shead": ["const cache_tier_head *stored"], "shead0": ["const cache_tier_head *stored"],
        "how": [f"const {own('cache_status')} *{n}"], "parts": [], "decoder": [f"{own('body_decoder')} *{n}"],
    }[a.kind]


def words(a, n, out):
    """What the export is called with for an argument, which is read as `n`."""
    lent = lambda ptr, count: [f"cache_tier_i_bytes({ptr})", count]
    of_key = ["key.is_digest", *lent("key.name", "key.len")]
    return {
        "tier": ["tier"], "ctier": ["tier"], "u64": [n], "bool": [f"{n} != 0"], "moment": [f"{n}.seconds", f"{n}.nanoseconds"],
        "at": [f"{n}.seconds", f"{n}.nanoseconds"], "bytes": lent(n, f"{n}_len"), "slice": lent(f"{n}.ptr", f"{n}.len"), "buffer": [n, f"{n}_len"],
        "key": [*of_key, *lent("key.user_tag", "key.user_tag_len")], "keyid": of_key, "meta": ["1", "meta"], "options": ["options"],
        "ropts": ["options", *lent("options->settings", "options->settings_len")], "rhead": [n, *lent(f"{n}->buf", f"{n}->buf_len")],
        "rresp": [n, *lent(f"{n}->buf", f"{n}->buf_len")], "shead": ["stored", *lent("stored->fields.ptr", "stored->fields.len")],
        "shead0": ["stored", *lent("stored->fields.ptr", "stored->fields.len")], "how": [n], "parts": [f"{out}->parts", "CACHE_RULES_MAX_RANGES"], "decoder": [n],
    }[a.kind]


def ordered(call):
    """The arguments as the call takes them, without those that come in an exchange."""
    return [it for it in call.order if it.name not in call.exchange]


def signature(face, call):
    """The head of the inline function, without its mark."""
    out, given = OUTS.get(call.out), []
    for it in ordered(call):
        given += params(face, it)
        if it.kind == "ropts" and call.exchange:
            given.append("const cache_rules_exchange *exchange")
    returns = "void" if call.out in ("stats", None) else "int"
    if out and call.inline != "status":
        given.append(f"{face.low}_{call.out} *{out}")
    return f"{returns} {face.low}_{call.name}({', '.join(given)})"


def body(face, call):
    """What the inline function does."""
    out = OUTS.get(call.out)
    given = [w for a in call.args for w in words(a, f"exchange->{a.name}" if a.name in call.exchange else a.name, out)]
    export = lambda *more: f"    {face.symbol}_{call.export}({', '.join([*given, *more])});"
    rows = ["    stored = cache_rules_i_stored(stored);"] if any(a.kind == "shead0" for a in call.args) else []
    if call.out == "response":
        return [f"    {face.low}_release(response);", export("response", "response->keep"),
                f"    response->held = response->result.status == {face.up}_{call.held};", "    return (int)response->result.status;"]
    if call.inline == "status":
        return [f"    {face.low}_result result;", export("&result"), "    return (int)result.status;"]
    if call.out in ("stats", None):
        return [export(*([out] if out else []))]
    rows.append(export(out))
    rows += [f"    {call.then}"] if call.then else []
    return [*rows, f"    return (int){out}->status;"]


def inline(face, call):
    doc = call.doc + (f" Answers {', '.join(call.answers)}." if call.answers else "")
    mark = f'{face.up}_DEPRECATED("{call.deprecated}") ' if call.deprecated else ""
    rows = [f"{mark}static inline {signature(face, call)} {{", *body(face, call), "}"]
    return comment(doc) + "\n" + "\n".join(code(it, "        ") for it in rows) + "\n"
