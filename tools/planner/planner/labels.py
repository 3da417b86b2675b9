"""Which part of a cache each host, path or type of file takes, and what each hits: by a simulated LRU, whose hits are compared with the curve's."""
import collections
import re

from .words import percent, size

# So many labels are shown; the others stand together in a last row.
MOST = 20
NAME = re.compile(rb"[a-z]+://")
TYPE = re.compile(rb"\.([A-Za-z0-9]{1,8})$")


class Label:
    """The requests of one label, their bytes, those that were hits, and the room that its bodies take at the end."""

    def __init__(self):
        self.requests = self.bytes = self.hits = self.hit_bytes = self.room = self.keys = 0


def label_of(key, kind):
    """The host, the first part of the path, or the type of a key that is a URL, or a host and a target, or a target."""
    rest = NAME.sub(b"", key, count=1)
    host, slash, path = rest.partition(b"/")
    path = (slash + path).split(b"?")[0]
    if kind == "host":
        return host.lower() or b"(no host)"
    if kind == "prefix":
        return b"/".join(path.split(b"/")[:2]) + (b"/" if path.count(b"/") > 1 else b"") if path.count(b"/") > 1 else b"/"
    found = TYPE.search(path)
    return b"." + found[1].lower() if found else b"(no type)"


def by_label(blocks, kind, limit, overhead):
    """Simulates one LRU, and counts by label."""
    rows, total, found, labels, weights = collections.OrderedDict(), 0, collections.defaultdict(Label), {}, {}
    for lines in blocks:
        for line in (it for piece in lines for it in piece.splitlines()):
            _, key, word = line.split()
            if word == b"-":
                total -= rows.pop(key, 0)
                continue
            weight = weights.get(key)
            if weight is None:
                if not word.isdigit():
                    continue
                weight = weights[key] = max(1, int(word) + overhead)
            label = labels.get(key)
            if label is None:
                label = labels[key] = found[label_of(key, kind)]
                label.keys += 1
            label.requests += 1
            label.bytes += weight
            if key in rows:
                label.hits += 1
                label.hit_bytes += weight
                rows.move_to_end(key)
                continue
            rows[key] = weight
            total += weight
            while total > limit:
                total -= rows.popitem(last=False)[1]
    for key, weight in rows.items():
        labels[key].room += weight
    return found


def table(found, kind, limit):
    """The lines of the table: the labels with most requests first."""
    def row(name, those):
        requests, hits, sent, spared, room = (sum(getattr(it, what) for it in those) for what in ("requests", "hits", "bytes", "hit_bytes", "room"))
        return f"{name[:32]:>32}{requests:>12,}{percent(hits / max(1, requests)):>10}{percent(spared / max(1, sent)):>10}{size(room):>9}{percent(room / limit):>9}"

    order = sorted(found.items(), key=lambda it: -it[1].requests)
    out = [f"By {kind}, at {size(limit)} (simulated; its hits are the curve's):", f"{kind:>32}{'requests':>12}{'hit ratio':>10}{'byte hits':>10}{'room':>9}{'of all':>9}"]
    out += [row("".join(it if it.isprintable() else "?" for it in name.decode("utf-8", "replace")), [those]) for name, those in order[:MOST]]
    rest = [those for _, those in order[MOST:]]
    return [*out, row(f"({len(rest):,} others)", rest)] if rest else out
