"""What options are where a program chooses nothing: the rows `defaults` of a table's options, what is written of them, and the check of what repeats them."""
import re

from face.lines import code, comment
from face.table import array_of

# Where they stand by hand: stubs, which a reader wants whole.
STUBS = ("python/src/cache_tier/__init__.pyi", "python/src/cache_tier/rules.pyi")
RATTLE = "rules_fields/src/types.rt"
# The texts that list the settings.
SETTINGS = {
    "rust/cache-tier/src/rules/options.rs": r"Lines `name: value`: (.*?)\.\n",
    "python/src/cache_tier/rules.py": r"Settings: (.*?)\.\"",
    "python/src/cache_tier/rules.pyi": r"are lines `name: value`: (.*?)\. What",
}


def options_of(face):
    return face.structs["options"]


def chosen(face):
    """The fields of the options that a program must choose."""
    return [it.name for it in options_of(face).fields if it.kind == "u64" and it.default is None]


def flags(face):
    """Each flag of the options, and whether it is set by default."""
    on = next((it.default for it in options_of(face).fields if it.name == "flags"), [])
    return [(it, it.name in on) for it in face.enums["option_flag"].values] if "option_flag" in face.enums else []


def numbers(face):
    """The other fields that have a default."""
    return [it for it in options_of(face).fields if it.default is not None and it.name != "flags"]


def named(face):
    """Each option by the name that Rust and Python have of it."""
    none = lambda it: None if it == "NONE" else it
    return {**{it.name.lower(): on for it, on in flags(face)}, **{it.name: none(it.default) for it in numbers(face)}}


def value_in_c(face, field):
    if array_of(field.kind):
        return "{0}"
    if field.kind == "text":
        return "NULL"
    if field.name == "flags":
        enum = face.enums["option_flag"]
        return " | ".join(enum.prefix + it.name for it, on in flags(face) if on)
    known = {"NONE": f"{face.up}_NONE", None: field.name if field.name in chosen(face) else "0"}
    return known.get(field.default, str(field.default))


def in_c(face):
    """The function that makes them, with what it makes."""
    kind = f"{face.low}_options"
    params = ", ".join(f"uint64_t {it}" for it in chosen(face)) or "void"
    on = [it.name for it, is_on in flags(face) if is_on]
    told = ([f"flags {', '.join(on)}"] if on else []) + [f"{it.name} {it.default}" for it in numbers(face)]
    values = ", ".join(value_in_c(face, it) for it in options_of(face).fields)
    doc = f"The defaults: {'; '.join(told)}." + (" No settings." if face.base else "")
    lines = [f"static inline {kind} {face.low}_default_options({params}) {{", code(f"    {kind} o = {{{values}}};", " " * 8), "    return o;", "}"]
    return "\n".join([comment(doc), *lines]) + "\n"


def in_rust(face):
    """The options as the library takes them, where nothing is chosen."""
    rows = [f"        flags: {' | '.join(f'option_flag::{it.name}' for it, on in flags(face) if on)},"] if flags(face) else []
    rows += [f"        {it.name}: {'u64::MAX' if it.default == 'NONE' else it.default}," for it in numbers(face) if it.default]
    return ["impl Options {", "    /// What a program has that chooses nothing.", "    pub const DEFAULT: Options = Options {", *rows, "        ..Options::ZERO", "    };", "}"]


def in_python(face, name):
    return [f"{name} = {{", *(f'    "{it}": {value},' for it, value in named(face).items()), "}"]


def of_stub(face, path, root):
    """What a stub says otherwise."""
    text = (root / path).read_text(encoding="utf-8")
    wrong = []
    for name, value in named(face).items():
        found = re.findall(rf"\b{name}: [^=\n]*? = (\w+),", text)
        wrong += [] if found else [f"{path}: has no default of {name}"]
        wrong += [f"{path}: {name} is {it} by default, and {value} in the table" for it in found if it != str(value)]
    return wrong


def of_rattle(face, root):
    """What the rules' own options are otherwise, where nothing is chosen."""
    text = (root / RATTLE).read_text(encoding="utf-8")
    body = re.search(r"fn usual\(\).*?\n    \}\n", text, re.S)[0]
    has = dict(re.findall(r"^\s+(\w+): (\w+),$", body, re.M))
    has["https"] = "true" if 'scheme: b"https"' in body else "false"
    want = {it.rattle.lower(): str(on).lower() for it, on in flags(face)}
    want.update({it.rattle: str(it.default) for it in numbers(face)})
    return [f"{RATTLE}: {name} is {has.get(name)} by default, and {it} in the table" for name, it in want.items() if has.get(name) != it], len(want)


def of_settings(face, root):
    """What the rules and the texts of Rust and Python have of the settings' names otherwise."""
    read = lambda path: (root / path).read_text(encoding="utf-8")
    listed = lambda path: re.findall(r"\b[a-z]+(?:-[a-z]+)*", re.sub(r"\([^)]*\)|///", "", re.search(SETTINGS[path], read(path), re.S)[1]))
    there = {"crates/rules_ffi_arguments/src/words.rt": re.findall(r'Word::\w+ => b"([a-z-]+)"', read("crates/rules_ffi_arguments/src/words.rt"))}
    there.update({path: listed(path) for path in SETTINGS})
    return [f"{path}: has settings otherwise: {', '.join(sorted(set(names) ^ set(face.settings)))}" for path, names in there.items() if sorted(names) != sorted(face.settings)]


def repeated(faces, root):
    """Differences of what repeats the defaults, and the names of settings, by hand."""
    return [it for face, path in zip(faces, STUBS) for it in of_stub(face, path, root)] + of_settings(faces[1], root)
