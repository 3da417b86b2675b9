"""The curve as a picture (SVG): hit ratios, byte hit ratios and fresh hits over the size, what the TTL caps, the size to take, what the log
fills, and the bands of estimates. Lines differ by their dashes and widths as well as by colour."""
import html
import math

from .words import duration, percent, short_size

LEFT, TOP, WIDE, HIGH, RIGHT = 60, 60, 640, 330, 150
# Behind words that may stand on a line.
HALO = ' paint-order="stroke" stroke="white" stroke-width="4"'
BLUE, ORANGE, GREY = "#1f5fa8", "#c4621d", "#555"
# What of a size, its name, colour, dashes and width, and the place of its error.
LINES = (
    ("weight", "byte hit ratio", ORANGE, "", 1.2, 1),
    ("fresh_weight", "fresh byte hits", ORANGE, "2 3", 1.2, 3),
    ("found", "hit ratio", BLUE, "", 2.5, 0),
    ("fresh", "fresh hits", BLUE, "7 4", 2.5, 2),
)
DASHES = ("2 3", "5 3", "9 3")


def apart(places, least, top, bottom):
    """Moves places apart, so that labels don't cover each other, and keeps their order."""
    order = sorted(range(len(places)), key=lambda at: places[at])
    out = list(places)
    for before, at in zip([None, *order], order):
        out[at] = max(out[at], top if before is None else out[before] + least)
    for after, at in zip([None, *reversed(order)], reversed(order)):
        out[at] = min(out[at], bottom if after is None else out[after] - least)
    return out


class Picture:
    def __init__(self, plan):
        self.plan, self.out = plan, []
        limits = [it.limit for it in plan.sizes]
        self.low, self.high = math.log(limits[0]), math.log(limits[-1])

    def x(self, size):
        return LEFT + WIDE * (math.log(size) - self.low) / max(self.high - self.low, 1e-9)

    def y(self, share):
        return TOP + HIGH * (1 - share)

    def text(self, x, y, words, more=""):
        self.out.append(f'<text x="{x:.1f}" y="{y:.1f}"{more}>{html.escape(words)}</text>')

    def axes(self):
        for share in range(0, 101, 20):
            self.out.append(f'<path d="M{LEFT},{self.y(share / 100):.1f} h{WIDE}" stroke="#ddd"/>')
            self.text(LEFT - 8, self.y(share / 100) + 4, f"{share} %", ' text-anchor="end"')
        steps = [step * 10**power for power in range(21) for step in (1, 2, 5)]
        limits = self.plan.sizes
        for size in steps:
            if limits[0].limit <= size <= limits[-1].limit:
                self.out.append(f'<path d="M{self.x(size):.1f},{TOP} v{HIGH}" stroke="#ddd"/>')
                self.text(self.x(size), TOP + HIGH + 18, short_size(size), ' text-anchor="middle"')
        self.text(LEFT + WIDE / 2, TOP + HIGH + 40, "size of the cache in bytes", ' text-anchor="middle"')

    def unfilled(self):
        """Grey right of the greatest size that the log fills."""
        filled = self.plan.filled()
        begin = LEFT if filled is None else self.x(filled.limit)
        if self.plan.exact and self.plan.aged and begin < LEFT + WIDE - 0.5:
            self.out.append(f'<rect x="{begin:.1f}" y="{TOP}" width="{LEFT + WIDE - begin:.1f}" height="{HIGH}" fill="#eee"/>')
            if LEFT + WIDE - begin > 60:
                self.text((begin + LEFT + WIDE) / 2, TOP + HIGH - 8, "not filled", f' text-anchor="middle" fill="{GREY}"')

    def series(self):
        """The lines: what of a size, its name, colour, dashes, width, and the width of its band."""
        plan = self.plan
        for what, name, colour, dashes, width, error in LINES:
            if not plan.others or what in ("weight", "found"):
                yield lambda it, what=what: getattr(it, what), name, colour, dashes, width, lambda it, error=error: it.errors[error]
        for at, other in enumerate(plan.others):
            yield lambda it, at=at: it.fresh_by[at], f"fresh {duration(other.lifetime)}", BLUE, DASHES[at % len(DASHES)], 1.6, lambda _: None

    def lines(self):
        ends = []
        for value, name, colour, dashes, width, error in self.series():
            points = [(self.x(it.limit), value(it), error(it)) for it in self.plan.sizes if value(it) is not None]
            if not points:
                continue
            if points[0][2] is not None:
                above = [f"{x:.1f},{self.y(min(1, share + more)):.1f}" for x, share, more in points]
                under = [f"{x:.1f},{self.y(max(0, share - more)):.1f}" for x, share, more in reversed(points)]
                self.out.append(f'<path d="M{" L".join(above + under)} Z" fill="{colour}" opacity="0.15"/>')
            path = " L".join(f"{x:.1f},{self.y(share):.1f}" for x, share, _ in points)
            self.out.append(f'<path d="M{path}" fill="none" stroke="{colour}" stroke-width="{width}"' + (f' stroke-dasharray="{dashes}"' if dashes else "") + "/>")
            ends.append((self.y(points[-1][1]), f"{name} {percent(points[-1][1], 0)}", colour))
        for y, (_, name, colour) in zip(apart([it[0] for it in ends], 15, TOP + 4, TOP + HIGH - 2), ends):
            self.text(LEFT + WIDE + 8, y + 4, name, f' fill="{colour}"')

    def cap(self):
        plan = self.plan
        if plan.cap is None or plan.others:
            return
        y = self.y(plan.cap)
        # past the size that reaches the cap the line of fresh requests runs on it
        end = next((self.x(it.limit) for it in plan.sizes if it.fresh is not None and it.fresh >= 0.999 * plan.cap), LEFT + WIDE)
        self.out.append(f'<path d="M{LEFT},{y:.1f} h{end - LEFT:.1f}" stroke="{BLUE}" stroke-width="0.8" stroke-dasharray="9 3 1 3"/>')
        self.text(LEFT + 6, y - 5, f"{plan.lifetime} s: at most {percent(plan.cap)} fresh hits", f' fill="{BLUE}"' + HALO)

    def clear(self, left, right, wanted):
        """The place nearest to the wanted one at which two lines of words between these ends cover no curve."""
        values = [value(it) for value, *_ in self.series() for it in self.plan.sizes if left - 20 <= self.x(it.limit) <= right + 20]
        places = [self.y(it) for it in values if it is not None]
        free = (at for at in range(TOP + 30, TOP + HIGH - 24) if all(not at - 16 <= it <= at + 22 for it in places))
        return min(free, key=lambda at: abs(at - wanted), default=wanted)

    def mark(self, size, share, words, below, right, room):
        """A size: its words stand on that side of it where there is room, else on the other."""
        if size is None or share is None:
            return
        x, y = self.x(size.limit), self.y(share)
        self.out.append(f'<path d="M{x:.1f},{y:.1f} V{TOP + HIGH}" stroke="black" stroke-dasharray="1 3"/><circle cx="{x:.1f}" cy="{y:.1f}" r="4.5" fill="white" stroke="black" stroke-width="1.5"/>')
        if (LEFT + WIDE - x if right else x - LEFT) < room:
            right = not right
        below = self.clear(*((x, x + room) if right else (x - room, x)), below)
        for line, text in enumerate((short_size(size.limit), words)):
            self.text(x + (9 if right else -9), below + 15 * line, text, f' text-anchor="{"start" if right else "end"}"' + (' font-weight="bold"' if line == 0 else "") + HALO)

    def marks(self):
        """The sizes that the report says to take."""
        plan = self.plan
        if plan.others:
            for at, other in enumerate(plan.others):
                size = next((it for it in plan.sizes if other.taken() and it.limit == other.taken().limit), None)
                self.mark(size, size and size.fresh_by[at], f"take, if fresh for {duration(other.lifetime)}", TOP + HIGH - 40 - 45 * at, False, 160)
            return
        taken = plan.taken()
        self.mark(taken, taken and (taken.found if taken.fresh is None else taken.fresh), "take this", TOP + HIGH - 60, False, 120)

    def svg(self, name):
        plan, kind = self.plan, "estimate" if not self.plan.exact else "reckoned lengths" if self.plan.is_reckoned() else "exact"
        days = plan.span / 86400
        spans = f"{days:.1f} days" if days >= 2 else f"{plan.span / 3600:.1f} hours" if plan.span >= 7200 else f"{plan.span} s"
        self.unfilled()
        self.axes()
        self.cap()
        self.lines()
        self.marks()
        front = (f'<svg xmlns="http://www.w3.org/2000/svg" viewBox="0 0 {LEFT + WIDE + RIGHT} {TOP + HIGH + 55}" font-family="sans-serif" font-size="12">\n'
                 '<rect width="100%" height="100%" fill="white"/>\n'
                 f'<text x="{LEFT}" y="24" font-size="15">{html.escape(name)}</text>\n'
                 f'<text x="{LEFT}" y="44" fill="{GREY}">{plan.requests:,} requests in {spans}; {kind}; hits as a share of requests, and of bytes, by size</text>')
        return "\n".join([front, *self.out, "</svg>"]) + "\n"
