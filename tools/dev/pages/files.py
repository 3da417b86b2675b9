"""Files of the repository that scripts write."""
import os

TOP = os.path.dirname(os.path.dirname(os.path.dirname(os.path.dirname(os.path.realpath(__file__)))))


def read(path):
    full = os.path.join(TOP, path)
    if not os.path.isfile(full):
        return ""
    with open(full, encoding="utf-8") as it:
        return it.read()


def linked(folder, path):
    """A link from a page of that folder."""
    return os.path.relpath(path, folder)


def change(name, texts, writes, owned=None):
    """Writes these texts by path, or says which of the files have others; `owned` is a folder that has no other pages. Returns the exit status."""
    full = os.path.join(TOP, owned) if owned else ""
    left = [f"{owned}/{it}" for it in sorted(os.listdir(full)) if f"{owned}/{it}" not in texts] if owned and os.path.isdir(full) else []
    old = [path for path, text in texts.items() if read(path) != text]
    if not writes:
        print("\n".join([*(f"{it}: not what the sources give: tools/dev/{name}.py --write" for it in [*old, *left]), f"{name}: {len(texts)} pages, {len(old) + len(left)} are old"]))
        return int(bool(old or left))
    for path in old:
        os.makedirs(os.path.dirname(os.path.join(TOP, path)), exist_ok=True)
        with open(os.path.join(TOP, path), "w", encoding="utf-8") as it:
            it.write(texts[path])
    for path in left:
        os.remove(os.path.join(TOP, path))
    print(f"{name}: {len(texts)} pages, {len(old)} written")
    return 0
