"""The pages of numbers and of options: statuses.md, options.md."""
import re

from face import defaults
from face.pages import BY, cell, linked
from face.table import camel

# Where reasons are decided, each with the standard of which it names sections alone.
REASONS = (("crates/http1_message_parts/src/reason.rt", "RFC 9112"), ("crates/rules_storage/src/reason.rt", "RFC 9111"))
# The fields of the rules' own options that settings are, where these aren't of the same name.
SETTINGS = {"lifetime": "lifetimes", "never-store": "never_stored", "host": "hosts", "refuse": "refuses", "drop": "drops", "query-drop": "query_drops",
            "query-sort": "query_sorts", "cookie-keep": "cookie_keeps", "response-drop": "response_drops", "force-lifetime": "forced_lifetimes",
            "force-private": "forces_private"}
# What bounds a request or a file whatever the options are, each with its constant.
LIMITS = (
    ("crates/lru_core/src/rows.rt", "MOST_ROWS", "entries that one tier tracks"),
    ("crates/rules_fields/src/number.rt", "MOST_SECONDS", "seconds that a directive may name: from here on they count as that"),
    ("crates/curve_lines/src/input.rt", "LONGEST", "bytes of a line that `cache-curve` reads"),
    ("crates/curve_words/src/limits.rt", "MOST_STEPS", "sizes between two ends of `--sizes`"),
)


def documented(text, opened):
    """Of a struct or an enum that begins with a line: each field or variant with what stands above it."""
    found, above = {}, []
    for line in text[re.search(opened, text, re.M).end() :].splitlines():
        it = line.strip()
        if it == "}":
            return found
        name = re.match(r"(?:pub )?(\w+)(?::|,|\(|$)", it)
        if it.startswith("///"):
            above.append(it[3:].strip())
        elif name:
            found[name[1]], above = " ".join(above), []
    return found


def heading(title, doc, columns):
    return [f"## {title}", "", linked(doc), "", "| " + " | ".join(columns) + " |", "|---" * len(columns) + "|"]


def refusal_statuses(text):
    """With which status code a request is answered, by the reason for which its head is rejected."""
    rows = re.search(r"pub fn status\(self\).*?\n    \}\n", text, re.S)[0]
    known = {name: int(code) for names, code in re.findall(r"((?:Reason::\w+(?: \| )?)+) => (\d+)", rows) for name in re.findall(r"Reason::(\w+)", names)}
    return lambda name: known.get(name, int(re.search(r"_ => (\d+)", rows)[1]))


def reasons(face, root):
    """The rows of reasons: what each means is told by the table, or else where the rules decide it."""
    texts = [(root / path).read_text(encoding="utf-8") for path, _ in REASONS]
    heads, stored = ({name: re.sub(r"\((\d+(?:\.\d+)*)\)", rf"({of}, \1)", said) for name, said in documented(text, r"^pub enum Reason \{").items()}
                     for text, (_, of) in zip(texts, REASONS))
    code, enum = refusal_statuses(texts[0]), face.enums["reason"]
    for v in enum.values[1:]:
        name = camel(v.rattle)
        said = [v.doc] if v.doc else [it for it in (heads.get(name), stored.get(name)) if it]
        yield f"| {v.number} | `{enum.prefix}{v.name}` | {v.text} | {cell(linked(' Or: '.join(said)))} | {code(name) if name in heads else ''} |"


def statuses(faces, root):
    """The page of statuses and other numbers."""
    tier, rules = faces
    out = [BY, "", "# Statuses, reasons and other numbers", "", "A status is what a call answers, and below 32 the call was refused: `cache_tier_get` answers `CACHE_TIER_FOUND`, 33, or "
           "`CACHE_TIER_NO_HIT`, 51, or is refused as `CACHE_TIER_MEMORY`, 13. Numbers and names [keep their meaning](../stability.md).", ""]
    status = tier.enums["status"]
    out += heading("Statuses of the tier", f"{status.doc} Rust has a refusal as an `ErrorKind`, Python as the `kind` of a `CacheTierError`.", ("Number", "In C", "In Rust, Python", "Text", "Meaning"))
    for v in status.values:
        name = f"`{camel(v.name)}`" if 0 < v.number < 32 else ""
        out.append(f"| {v.number} | `{status.prefix}{v.name}` | {name} | {v.text} | {cell(linked(v.doc))} |")
    for key in ("rules_status", "permit", "lock_status"):
        it = tier.enums[key]
        out += ["", *heading({"rules_status": "Statuses of the rules", "permit": "Permits", "lock_status": "How a wait ended"}[key], it.doc, ("Number", "In C", "Text", "Meaning"))]
        out += [f"| {v.number} | `{it.prefix}{v.name}` | {v.text} | {cell(linked(v.doc))} |" for v in it.values]
    titles = {"plan": "Plans", "reuse": "Reuse", "fetch": "Fetches", "fwd": "Why it was forwarded", "framing": "Framings", "message_flag": "Flags of a message"}
    for key, title in titles.items():
        it = rules.enums[key]
        out += ["", *heading(title, it.doc, ("Number", "In C", "Text", "Meaning"))]
        out += [f"| {v.number} | `{it.prefix}{v.name}` | {v.text} | {cell(linked(v.doc))} |" for v in it.values]
    out += ["", *heading("Reasons", rules.enums["reason"].doc + " A reason of a request's head has the status code with which it is answered.",
                         ("Number", "In C", "Text", "Where", "Answered")), *reasons(rules, root)]
    return "\n".join(out) + "\n"


def shown(value):
    """A default, as a page has it."""
    return {True: "yes", False: "no"}[value] if isinstance(value, bool) else "none" if value == "NONE" else str(value)


def of_settings(text):
    """What each setting is where none is chosen, by the field of the rules' options."""
    body = re.search(r"fn usual\(\).*?\n    \}\n", text, re.S)[0]
    known = {name: re.sub(r"\s+", " ", found).strip() for name, found in re.findall(r"^const (\w+)[^=]*= &\[(.*?)\];", text.replace("pub const", "const"), re.M | re.S)}
    found = {}
    for name, value in re.findall(r"^ +(\w+): (.*),$", body, re.M):
        value = known.get(value, value)
        value = ", ".join(it.strip() for it in re.findall(r'b"([^"]*)"', value) if it) or value
        found[name] = {"&[]": "none", "None": "all", "true": "yes", "false": "no", 'b""': "none"}.get(value, value.strip(", "))
    return found


def limits(root):
    for path, name, what in LIMITS:
        value = re.search(rf"pub const {name}: \w+ = ([^;]+);", (root / path).read_text(encoding="utf-8"))[1]
        number = eval(value, {"__builtins__": {}})  # a number, or one that is shifted
        yield f"| {number:,} | {what} |"


def options(faces, root):
    """The page of options."""
    tier, rules, over = faces
    text = (root / "crates" / defaults.RATTLE).read_text(encoding="utf-8")
    fields, values = documented(text, r"^pub struct Options<'a> \{"), of_settings(text)
    out = [BY, "", "# Options", "", "Options say how large a tier is and how HTTP's rules decide. A program chooses `max_bytes` and `hash_seed`; all else has a default:", "", "```c",
           "cache_tier_options options = cache_tier_default_options(1 << 30, hash_seed); /* 1 GiB; hash_seed: random if strangers choose keys */",
           "options.max_entries = 100000;", "cache_rules_options rules = cache_rules_default_options();", "rules.flags |= CACHE_RULES_HTTPS;", "```", "",
           "In Rust they are fields of `Options`, in Python arguments of `Tier`, `Partitions` and `Rules`, by the same names: none is `u64::MAX` in C and Rust, `None` in Python. "
           "[Programs](programs.md) have their own.", ""]
    out += ["## The tier", "", "| Option | Default | What it is |", "|---|---|---|"]
    for f in defaults.options_of(tier).fields:
        if not f.name.startswith("reserved"):
            out.append(f"| `{f.name}` | {'chosen' if f.default is None else shown(f.default)} | {cell(linked(f.doc))} |")
    out += ["", "## HTTP's rules: yes or no", "", "Each is a flag in C.", "", "| Option | Default | What holds with it |", "|---|---|---|"]
    for v, on in defaults.flags(rules):
        out.append(f"| `{v.name.lower()}` | {shown(on)} | {cell(linked(v.doc or fields.get(v.rattle.lower(), '')))} |")
    out += ["", "## HTTP's rules: numbers", "", "| Option | Default | What it is |", "|---|---|---|"]
    out += [f"| `{f.name}` | {shown(f.default)} | {cell(linked(f.doc))} |" for f in defaults.numbers(rules)]
    out += ["", "## HTTP's rules: settings", "", "A setting is a line `name: value`: of a list one line for each, or an empty one, as `refuse:`, for none; of lifetimes one for each status, as "
            "`lifetime: 404 60`. `prepare_settings` reads and checks them once in C, `with_settings` takes them in Rust, `Rules` in Python.", "", "| Setting | Default | What it is |", "|---|---|---|"]
    for name in rules.settings:
        field = SETTINGS.get(name, name.replace("-", "_"))
        out.append(f"| `{name}` | {values[field]} | {cell(linked(fields[field]))} |")
    out += ["", "## The gateway", "", "Each is at least 1; `cache_gateway_default_limits` gives them.", "", "| Limit | Default | What it bounds |", "|---|---|---|"]
    out += [f"| `{f.name}` | {'chosen' if f.default is None else f'{f.default:,}'} | {cell(linked(f.doc))} |" for f in over.structs["limits"].fields if f.name != "reserved"]
    out += ["", "## Limits that no option moves", "", "| At most | Of what |", "|---|---|", *limits(root)]
    return "\n".join(out) + "\n"
