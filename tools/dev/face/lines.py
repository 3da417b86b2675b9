"""Lines of C: broken where they are too long."""

WIDTH = 150


def wrapped(text, indent="   ", width=WIDTH):
    out, line = [], ""
    for word in text.split():
        if line and len(line) + 1 + len(word) > width:
            out.append(line)
            line = indent + word
        else:
            line = f"{line} {word}" if line else word
    return "\n".join([*out, line])


def comment(text):
    return wrapped(f"/* {text} */")


def code(line, indent, width=WIDTH):
    """A line of code, broken behind commas and operators where it is too long."""
    out = []
    while len(line) > width:
        at = max(line.rfind(sign, 0, width - len(sign) + 1) + len(sign) - 1 for sign in (", ", " && ", " | "))
        if at <= len(indent):
            break
        out.append(line[:at].rstrip())
        line = indent + line[at:].lstrip()
    return "\n".join([*out, line])
