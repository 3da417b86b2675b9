"""What a program that was written by an earlier table loses by the present one: names that went, numbers and places that changed."""


# Enums of whose texts nothing is promised: errors, and what stands nowhere.
UNPROMISED = ("status", "rules_status", "option_flag")


def enums(name, row, now):
    lost = [f"{name}.{v} is gone" for v in row["values"] if v not in now["values"]]
    for v, it in row["values"].items():
        has = now["values"].get(v, it)
        lost += [f"{name}.{v} is {has[0]}, and was {it[0]}"] if has[0] != it[0] else []
        lost += [f"{name}.{v} is told as {has[1]}, and was as {it[1]}"] if has[1] != it[1] and name not in UNPROMISED else []
    return lost


def structs(name, row, now):
    lost = [f"{name} has {now['size']} bytes, and had {row['size']}"] if now["size"] != row["size"] else []
    for f, it in row["fields"].items():
        has = now["fields"].get(f, ["gone"])[:2]
        # (a reserved word may get a name)
        if not f.startswith("reserved") and has != it[:2]:
            lost.append(f"{name}.{f} is {has}, and was {it[:2]}")
    return lost


def calls(name, row, now):
    parts = ("args", "order", "out", "inline", "exchange")
    return [f"the call {name} takes or fills something else"] if any(now.get(it) != row.get(it) for it in parts) else []


def constants(name, row, now):
    return [f"{name} is {now['value']}, and was {row['value']}"] if name != "VERSION" and now["value"] != row["value"] else []


PARTS = {"enum": enums, "struct": structs, "call": calls, "constant": constants}


def lost(old, new):
    if old["interface"]["number"] != new["interface"]["number"]:
        return []  # another interface: a program is compiled anew
    out = []
    for kind, part in PARTS.items():
        for name, row in old.get(kind, {}).items():
            now = new.get(kind, {}).get(name)
            if now is not None:
                out += part(name, row, now)
            elif "deprecated" not in row:
                out.append(f"{kind} {name} is gone, and wasn't deprecated")
    settings = [table.get("settings", {}).get("names", []) for table in (old, new)]
    return out + [f"setting {it} is gone" for it in settings[0] if it not in settings[1]]
