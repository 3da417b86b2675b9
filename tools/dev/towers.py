#!/usr/bin/env python3
"""The towers of crates, from crates.txt: the picture of docs/concepts/architecture.md, and the list of docs/map.md.

    towers.py --write   writes docs/concepts/towers.svg, and the list between <!-- crates --> and <!-- end --> of docs/map.md
    towers.py --check   fails where these are others, or where a crate uses one of a tower above its own

Each crate belongs to the first tower whose pattern its name begins with. An arrow says that a tower stands on another, and isn't drawn where one
over a third tower says so already. What a crate is, the first sentence of its src/lib.rt says, or of src/main.rt.
"""
import os
import re
import sys

TOP = os.path.dirname(os.path.dirname(os.path.dirname(os.path.realpath(__file__))))
PICTURE, PAGE = "docs/concepts/towers.svg", "docs/map.md"
BLOCK = re.compile(r"(<!-- crates -->\n\n)(.*?)(\n\n<!-- end -->)", re.S)
# A tower: its name, its place (column and row) and how many columns it takes, and what the names of its crates begin with. Those above come first.
TOWERS = (
    ("tests, examples", 0, 0, 3, r"test_|example_"),
    ("doors: C, traces, Rattle", 1, 1, 1, r"cache_tier|tier_calls|tier_replay|trace_"),
    ("gateway", 2, 1, 1, r"gateway"),
    ("what curves say of tiers", 0, 1, 1, r"curve_laws|tier_(pairs|served|loads)"),
    ("threads", 1, 2, 1, r"tier_(shared|recorded)"),
    ("tier", 1, 3, 1, r"tier_(laws|single|requests|promise|model)"),
    ("curves", 0, 3, 1, r"curve_|tier_curve"),
    ("requests, store, lock", 1, 4, 1, r"request_|store_|cache_store|cache_lock|head_packed|pingora_cache"),
    ("order of use", 1, 5, 1, r"lru_|pingora_lru|cache_evict|seeded_hashing"),
    ("HTTP's rules", 2, 3, 1, r"rules_|http1_|structured_fields"),
    ("heads, words", 0, 6, 3, r"head_|cache_(heads|words|entries|changes)"),
)
# The crates that a hit goes through, in this order.
HIT = ("cache_tier_c", "tier_calls", "tier_single", "store_memory", "request_store", "cache_evict", "lru_numbers", "lru_core")
WIDTH, GAP, LINE, LETTER = 310, 34, 22, 6.7


def read(path):
    with open(os.path.join(TOP, path), encoding="utf-8") as file:
        return file.read()


def used():
    """The crates of crates.txt, each with those that it uses."""
    rows = [it.replace(" staticlib:", ":").split(":") for it in read("crates.txt").splitlines() if it and not it.startswith("#")]
    names = {row[0] for row in rows}
    return {name: [it for it in uses.split() if it in names] for name, uses in rows}


def tower_of(name):
    found = next((at for at, tower in enumerate(TOWERS) if re.match(tower[4], name)), None)
    if found is None:
        sys.exit(f"towers: no tower takes the name {name}: see TOWERS")
    return found


def ordered(tower, uses):
    """The crates of a tower, those that stand on others of it first."""
    left, found = sorted(it for it in uses if tower_of(it) == tower), []
    while left:
        top = next(it for it in left if not any(it in uses[other] for other in left))
        found.append(top)
        left.remove(top)
    return found


def rising(uses):
    """What a crate uses of a tower above its own: there must be none."""
    return [f"{name} uses {it}, of a tower above" for name in uses for it in uses[name] if tower_of(it) < tower_of(name)]


def arrows(uses):
    """The pairs of towers of which one stands on the other, without those that others imply; tests stand on all."""
    pairs = {(tower_of(name), tower_of(it)) for name in uses for it in uses[name] if 0 < tower_of(name) < tower_of(it)}

    def reaches(one, other, without):
        return any(pair[0] == one and pair != without and (pair[1] == other or reaches(pair[1], other, without)) for pair in pairs)

    return sorted(it for it in pairs if not reaches(it[0], it[1], it))


def rows_of(names, width):
    """The crates of a tower in lines that fit its width, each with where it begins."""
    lines, x = [[]], 10
    for name in names:
        wide = len(name) * LETTER + 12
        if lines[-1] and x + wide > width - 6:
            lines, x = [*lines, []], 10
        lines[-1].append((x, wide, name))
        x += wide + 4
    return lines


class Picture:
    def __init__(self, uses):
        self.uses, self.rows = uses, [rows_of(ordered(at, uses), self.width(at)) for at in range(len(TOWERS))]
        heights = [max((self.height(at) for at in range(len(TOWERS)) if TOWERS[at][2] == row), default=0) for row in range(7)]
        self.tops = [10 + sum(heights[:row]) + row * GAP for row in range(8)]

    def width(self, at):
        return TOWERS[at][3] * (WIDTH + GAP) - GAP

    def height(self, at):
        return 28 + LINE * len(self.rows[at])

    def corner(self, at):
        return 10 + TOWERS[at][1] * (WIDTH + GAP), self.tops[TOWERS[at][2]]

    def tower(self, at):
        x, y = self.corner(at)
        yield f'<rect x="{x}" y="{y}" width="{self.width(at)}" height="{self.height(at)}" rx="4" fill="#f4f4f4" stroke="#999"/>'
        yield f'<text x="{x + 10}" y="{y + 16}" font-weight="bold">{TOWERS[at][0]}</text>'
        for number, line in enumerate(self.rows[at]):
            for left, wide, name in line:
                yield from self.crate(x + left, y + 24 + LINE * number, wide, name)

    def crate(self, x, y, wide, name):
        on_way = name in HIT
        yield f'<rect x="{x:.1f}" y="{y}" width="{wide:.1f}" height="18" rx="3" fill="{"#ffd9a0" if on_way else "white"}" stroke="#bbb"/>'
        yield f'<text x="{x + 6:.1f}" y="{y + 13}" font-family="monospace" font-size="11">{name}</text>'
        if on_way:
            yield f'<circle cx="{x + wide:.1f}" cy="{y}" r="7" fill="#c60"/>'
            yield f'<text x="{x + wide:.1f}" y="{y + 3.5}" fill="white" font-size="10" text-anchor="middle">{HIT.index(name) + 1}</text>'

    def arrow(self, above, below):
        """From a tower to one that it stands on: straight down, from side to side, or out of the middle column and into it by a side."""
        (x, y), (to_x, to_y) = self.corner(above), self.corner(below)
        bottom, right = y + self.height(above), to_x > x
        if TOWERS[below][3] > 1 or to_x == x:
            begin, end = (x + WIDTH / 2, bottom), (x + WIDTH / 2, to_y)
        elif y == to_y:
            begin, end = (x + WIDTH * right, y + 30), (to_x + WIDTH * (not right), y + 30)
        elif TOWERS[above][1] == 1:
            begin, end = (x + WIDTH * right, bottom - 8), (to_x + WIDTH / 2, to_y)
        else:
            begin, end = (x + WIDTH * 0.8, bottom), (to_x, to_y + 20)
        return f'<path d="M{begin[0]:.0f},{begin[1]:.0f} L{end[0]:.0f},{end[1]:.0f}" stroke="#555" marker-end="url(#tip)"/>'

    def text(self):
        wide, high = 3 * (WIDTH + GAP) - GAP + 20, self.tops[7] - GAP + 10
        tip = '<marker id="tip" viewBox="0 0 10 10" refX="9" refY="5" markerWidth="8" markerHeight="8" orient="auto"><path d="M0,1 L10,5 L0,9 z" fill="#555"/></marker>'
        lines = [f'<svg xmlns="http://www.w3.org/2000/svg" viewBox="0 0 {wide} {high}" font-family="sans-serif" font-size="12">']
        lines += [f"<defs>{tip}</defs>", '<rect width="100%" height="100%" fill="white"/>']
        lines += [self.arrow(*it) for it in arrows(self.uses)]
        lines += [line for at in range(len(TOWERS)) for line in self.tower(at)]
        return "\n".join([*lines, "</svg>"]) + "\n"


def sentence(name):
    """The first sentence of a crate's text."""
    path = next(it for it in (f"crates/{name}/src/{file}.rt" for file in ("lib", "main")) if os.path.exists(os.path.join(TOP, it)))
    text = " ".join(" ".join(it[3:] for it in re.match(r"(?://!.*\n)+", read(path))[0].splitlines()).split())
    return re.match(r"(.*?[.:])( [A-Z`]|$)", text)[1].rstrip(":").rstrip(".").strip().replace("|", "\\|") + "."


def titled(name):
    """The name of a crate, which leads to its contracts where they have a page."""
    page = f"reference/contracts/{name}.md"
    return f"[`{name}`]({page})" if os.path.exists(os.path.join(TOP, "docs", page)) else f"`{name}`"


def listed(uses):
    lines = ["| Crate | |", "|---|---|"]
    for at, (tower, *_) in enumerate(TOWERS):
        lines += [f"| **{tower}** | |", *(f"| {titled(name)} | {sentence(name)} |" for name in ordered(at, uses))]
    return "\n".join(lines)


def main(words):
    if words not in (["--write"], ["--check"]):
        print(__doc__.strip(), file=sys.stderr)
        return 2
    uses, page = used(), read(PAGE)
    made = {PICTURE: Picture(uses).text(), PAGE: BLOCK.sub(lambda it: it[1] + listed(uses) + it[3], page)}
    faults = rising(uses) + [f"{PAGE}: it has no place for the list"] * (not BLOCK.search(page))
    for path, text in made.items():
        if words == ["--write"]:
            with open(os.path.join(TOP, path), "w", encoding="utf-8") as file:
                file.write(text)
        elif not os.path.exists(os.path.join(TOP, path)) or read(path) != text:
            faults.append(f"{path} is not what crates.txt gives: run tools/dev/towers.py --write")
    print("\n".join(faults) or f"towers: {len(uses)} crates in {len(TOWERS)} towers, each of which uses none above it")
    return int(bool(faults))


if __name__ == "__main__":
    sys.exit(main(sys.argv[1:]))
