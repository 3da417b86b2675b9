"""The tables of the interface: how they are read, and what they say."""
import json
import re


def read_table(text):
    """The tables of a TOML text whose values are strings, whole numbers and arrays, each on its line: each value is JSON too."""
    root = {}
    table = root
    for number, line in enumerate(text.splitlines(), 1):
        line = line.strip()
        if not line or line.startswith("#"):
            continue
        head = re.fullmatch(r"\[([\w.]+)\]", line)
        row = re.fullmatch(r"(\w+) *= *(.*)", line)
        if head:
            table = root
            for name in head[1].split("."):
                table = table.setdefault(name, {})
        elif row:
            table[row[1]] = json.loads(row[2])
        else:
            raise SystemExit(f"line {number}: neither a table nor a row")
    return root


def load(path):
    """A table; where this Python has a reader of TOML (3.11), both readings are compared."""
    text = path.read_text(encoding="utf-8")
    table = read_table(text)
    try:
        import tomllib
    except ImportError:
        return table
    if tomllib.loads(text) != table:
        raise SystemExit(f"{path}: it is read otherwise as TOML")
    return table


class Row:
    """A row of a table: its columns are attributes."""

    def __init__(self, **its):
        self.__dict__.update(its)


def camel(text):
    return "".join(it.title() for it in text.lower().split("_"))


class Face:
    """What a table says, and how names are made of it; `base` is the face of the tier, under that of the rules."""

    def __init__(self, table, base=None):
        self.of, self.base = table["interface"], base
        self.low = self.of["name"]
        self.up = self.low.upper()
        self.symbol = f"{self.low}{self.of['number']}"
        self.constants = [Row(name=name, **row) for name, row in table.get("constant", {}).items()]
        self.enums = {name: self.enum(name, row) for name, row in table["enum"].items()}
        self.structs = {name: self.struct(name, row) for name, row in table["struct"].items()}
        self.exports = [Row(name=name, key=name, export=name, returns=row.get("returns"), args=arguments(row["args"]), out=None) for name, row in table["export"].items()]
        self.calls = [self.call(name, row) for name, row in table.get("call", {}).items()]
        self.settings = table.get("settings", {}).get("names", [])
        check_places(self)

    def enum(self, name, row):
        values = []
        for new, it in row["values"].items():
            number, text, doc, rattle = (*it, "")[:4]
            values.append(Row(name=new, rattle=rattle or new, number=number, text=text, doc=doc))
        prefix = f"{row['prefix']}_" if row.get("prefix") else ""
        return Row(name=name, key=name, prefix=f"{row.get('c_prefix', self.up)}_{prefix}", values=values, doc=row["doc"],
                   joins=row.get("joins"), unknown=row.get("unknown"), rattle=row.get("rattle"), rattle_names=row.get("rattle_names", ""), rattle_all="rattle_all" in row)

    def struct(self, name, row):
        fields = []
        for new, it in row["fields"].items():
            kind, offset, doc, rattle, others = (*it, "", "")[:5]
            fields.append(Row(name=new, kind=kind, offset=offset, doc=doc, aka=others.split(), rattle=rattle or new, default=row.get("defaults", {}).get(new)))
        return Row(name=name, key=name, camel=camel(name), fields=fields, doc=row["doc"], size=row["size"], shared=row.get("shared"),
                   c_only="c_only" in row, rattle=row.get("rattle"))

    def call(self, name, row):
        its = arguments(row["args"])
        order = [next(it for it in its if it.name == word) for word in row["order"].split()] if "order" in row else its
        return Row(name=name, key=name, export=name, doc=row["doc"], args=its, order=order, out=row.get("out"), inline=row.get("inline"), held=row.get("held"),
                   answers=row.get("answers", "").split(), exchange=row.get("exchange", "").split(), then=row.get("then"), deprecated=row.get("deprecated"))

    def shown(self, kind):
        """The face that has a struct, and the struct: `tier.meta` is one of the face below."""
        if kind.startswith("tier."):
            return self.base, self.base.structs[kind[5:]]
        return self, self.structs[kind]


def arguments(text):
    return [Row(name=name, kind=kind) for name, kind in (it.split(":") for it in text.split())]


def array_of(kind):
    """What an array has, and how many; nothing of another kind."""
    found = re.fullmatch(r"([\w.]+)\[(\d+)\]", kind)
    return (found[1], int(found[2])) if found else None


def shared(struct):
    """The fields that the library sees: of some structs the header keeps words of its own behind them."""
    return [it for it in struct.fields if struct.shared is None or it.offset < struct.shared]


def size_of(face, kind):
    if array_of(kind):
        of, count = array_of(kind)
        return count * size_of(face, of)
    return 8 if kind in ("u64", "usize", "ptr", "cptr", "text") or kind[0] == "&" else face.shown(kind)[1].size


def check_places(face):
    """Each field stands where the fields before it end: all are of whole words."""
    for it in face.structs.values():
        at = 0
        for field in it.fields:
            if field.offset != at:
                raise SystemExit(f"{it.name}.{field.name} stands at {at} and not at {field.offset}")
            at += size_of(face, field.kind)
        if at != it.size:
            raise SystemExit(f"{it.name} has {at} bytes and not {it.size}")
    for it in face.enums.values():
        numbers = [v.number for v in it.values]
        if len(set(numbers)) != len(numbers):
            raise SystemExit(f"a number of {it.name} is there twice")
