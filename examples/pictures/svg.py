"""The picture as SVG: a lane for each thread, a box for each turn, races as arcs, decisions as signs on the lanes."""

from html import escape

from rows import Box, counted
from shown import KINDS

MONO = "ui-monospace, 'DejaVu Sans Mono', Menlo, Consolas, monospace"
SANS = "'DejaVu Sans', 'Segoe UI', Helvetica, Arial, sans-serif"
LETTER = 7.3
# of each group of kinds the colour of its boxes and of their edges, and what it's called
COLOURS = {
    "thread": ("#e7edff", "#5672d8", "threads"),
    "mutex": ("#fff2cf", "#d19a12", "mutexes"),
    "condition": ("#f1e6fc", "#9461d6", "condition variables"),
    "barrier": ("#def5e6", "#2f9e62", "barriers"),
    "print": ("#eceff2", "#76828d", "prints"),
    "access": ("#ffe1de", "#d9382c", "racing accesses"),
}
RACE, LINK, PINNED, EXACT, INK, FAINT = "#d9382c", "#9aa7d8", "#20252b", "#0b8a9a", "#20252b", "#8a949e"
BOX, GAP, SIGN, MOST_SIGNS = 24, 10, 13, 36
LEFT, TOP, HEAD = 58, 70, 44
CHARS = 62
MOST_CHECKS, MOST_LINES = 60, 12


def number(value):
    """A coordinate, as short as it can be written."""
    return f"{value:.1f}".rstrip("0").rstrip(".")


def cut(text, count):
    return text if len(text) <= count else text[: max(1, count - 1)] + "…"


def tell(lines):
    return f"<title>{escape(chr(10).join(lines), quote=False)}</title>" if lines else ""


def text_at(x, y, text, kind="", more=""):
    named = f' class="{kind}"' if kind else ""
    return f'<text x="{number(x)}" y="{number(y)}"{named}{more}>{escape(text, quote=False)}</text>'


def sign(kind, x, y, told=()):
    """The sign of a decision, in the middle of a place."""
    if kind == "pinned":
        shape = f'<path class="pinned" d="M{number(x)} {number(y - 5)}l5 5l-5 5l-5 -5z"/>'
    else:
        shape = f'<circle class="exact" cx="{number(x)}" cy="{number(y)}" r="4"/>'
    return f"<g>{tell(told)}{shape}</g>"


class Drawing:
    def __init__(self, picture):
        self.picture = picture
        labels = [len(f"{row.kind} {row.object}") for row in picture.rows if isinstance(row, Box)]
        heads = [len(it) for it in picture.lanes] + [len("thread 00")]
        self.box = min(230, max(112, LETTER * max(labels + heads) + 22))
        # a lane for each thread that has a turn
        life = picture.life()
        self.pitch = self.box + (58 if len(life) > 1 else 30)
        self.column = {lane: i for i, lane in enumerate(sorted(life))}
        self.per_line = max(4, int(self.box // SIGN))
        self.tops, y = [], TOP + HEAD + 12
        for row in picture.rows:
            self.tops.append(y)
            y += self.height(row) + (GAP if isinstance(row, Box) else 2)
        self.lanes_end = y
        self.right = LEFT + len(self.column) * self.pitch
        self.side = self.right + 16

    def height(self, row):
        if isinstance(row, Box):
            return BOX
        lines = 1 if len(row.decisions) > MOST_SIGNS else (len(row.decisions) + self.per_line - 1) // self.per_line
        return SIGN * lines + 2

    def middle(self, lane):
        return LEFT + self.column[lane] * self.pitch + self.pitch / 2

    def edge(self, row, is_right):
        """The middle of a box's right or left edge."""
        x = self.middle(self.picture.rows[row].lane) + (self.box / 2 if is_right else -self.box / 2)
        return x, self.tops[row] + BOX / 2

    def lanes(self):
        for lane, (first, last) in sorted(self.picture.life().items()):
            x, end = self.middle(lane), self.tops[last] + BOX / 2
            yield f'<rect class="lane" x="{number(x - self.pitch / 2 + 4)}" y="{TOP}" width="{number(self.pitch - 8)}" height="{number(self.lanes_end - TOP)}" rx="8"/>'
            yield f'<path class="life" d="M{number(x)} {number(self.tops[first])}V{number(end)}"/>'
            name = self.picture.lanes[lane]
            yield text_at(x, TOP + (19 if name else 27), f"thread {lane}", "head")
            if name:
                yield text_at(x, TOP + 36, cut(name, int(self.pitch / LETTER) - 2), "name")

    def way(self, one, other, short=0):
        """From a box to one of another lane: on the first one's row, which has no other box, up to the gap beside the
        other lane, and through that gap. Its text, and its two ends."""
        is_right = self.middle(self.picture.rows[other].lane) > self.middle(self.picture.rows[one].lane)
        sign = 1 if is_right else -1
        (x, y), (to, down) = self.edge(one, is_right), self.edge(other, not is_right)
        gap = to - sign * (self.pitch - self.box)
        bend = 0.55 * sign * (self.pitch - self.box)
        to -= sign * short
        return f"M{number(x)} {number(y)}H{number(gap)}C{number(gap + bend)} {number(y)} {number(to - bend)} {number(down)} {number(to)} {number(down)}", (x, y), (to, down)

    def links(self):
        for link in self.picture.links:
            if self.picture.rows[link.one].lane != self.picture.rows[link.other].lane:
                path, _, _ = self.way(link.one, link.other, 4)
                yield f'<path class="link" d="{path}" marker-end="url(#tip)"/>'

    def boxes(self):
        for row, top in zip(self.picture.rows, self.tops):
            if isinstance(row, Box):
                yield from self.one_box(row, top)
            else:
                yield from self.signs(row, top)

    def one_box(self, row, top):
        x = self.middle(row.lane) - self.box / 2
        turns = str(row.first) if row.first == row.last else f"{row.first}–{row.last}"
        yield text_at(LEFT - 12, top + 16, turns, "turn")
        yield f'<g>{tell(row.more)}<rect class="{row.group}" x="{number(x)}" y="{number(top)}" width="{number(self.box)}" height="{BOX}" rx="5"/>'
        room = int((self.box - 14) / LETTER) - len(row.kind) - 1 - (2 if row.exact else 0)
        behind = f' <tspan class="object">{escape(cut(row.object, room), quote=False)}</tspan>' if row.object else ""
        yield f'<text class="box" x="{number(x + 10)}" y="{number(top + 16)}">{row.kind}{behind}</text></g>'
        if row.exact:
            yield sign("exact", x + self.box - 10, top + BOX / 2, row.more)

    def signs(self, row, top):
        """The decisions of a thread between two of its turns; where they are too many only how many."""
        x = self.middle(row.lane)
        if len(row.decisions) > MOST_SIGNS:
            at = x - 44
            for kind in ("pinned", "exact"):
                count = sum(it.kind == kind for it in row.decisions)
                yield sign(kind, at, top + SIGN / 2) + text_at(at + 9, top + SIGN / 2 + 4, f"×{count}", "count")
                at += 52
            return
        for i in range(0, len(row.decisions), self.per_line):
            some = row.decisions[i : i + self.per_line]
            at, y = x - SIGN * (len(some) - 1) / 2, top + SIGN * (i // self.per_line) + SIGN / 2
            yield f'<rect class="under" x="{number(at - 7)}" y="{number(y - 6)}" width="{number(SIGN * len(some) + 1)}" height="{SIGN}" rx="6"/>'
            for decision in some:
                yield sign(decision.kind, at, y, self.told(decision))
                at += SIGN

    def told(self, decision):
        lines = [f"{decision.kind}: step {decision.step} of the reference run, instruction {decision.instr}"]
        return lines + ([self.picture.program.told(decision.instr)] if self.picture.program else [])

    def races(self):
        for race in self.picture.races:
            path, ends, kind = *self.ends(race), "race" if race.is_sure else "race perhaps"
            more = [*race.named, *race.more, *([] if race.is_sure else ["(one of several pairs of turns that this may be)"])]
            yield f'<g>{tell(more)}<path class="{kind}" d="{path}"/>'
            yield f"{ends}</g>"

    def ends(self, race):
        """The arc of a race, and the dots at its ends."""
        path, one, other = self.way(race.one, race.other)
        return path, "".join(f'<circle class="end" cx="{number(x)}" cy="{number(y)}" r="3.2"/>' for x, y in (one, other))

    def legend(self):
        """What stands beside the lanes, each piece with its height."""
        used = {row.group for row in self.picture.rows if isinstance(row, Box)}
        for group in KINDS:
            if group in used:
                fill = f'<rect class="{group}" x="{number(self.side)}" y="%s" width="22" height="14" rx="3"/>'
                yield 21, lambda y, fill=fill, group=group: fill % number(y - 11) + text_at(self.side + 32, y, COLOURS[group][2], "note")
        if self.picture.races:
            yield 21, lambda y: f'<path class="race" d="M{number(self.side)} {number(y - 4)}h22"/>' + text_at(self.side + 32, y, "race: both are turns, in this order", "note")
        if not all(it.is_sure for it in self.picture.races):
            yield 21, lambda y: f'<path class="race perhaps" d="M{number(self.side)} {number(y - 4)}h22"/>' + text_at(self.side + 32, y, "a race, and one of several pairs that it may be", "note")
        if self.picture.links:
            yield 21, lambda y: f'<path class="link" d="M{number(self.side)} {number(y - 4)}h18" marker-end="url(#tip)"/>' + text_at(self.side + 32, y, "create to start, exit to join", "note")

    def output(self):
        """The printed text."""
        lines = self.picture.shown.output.decode("utf-8", "backslashreplace").splitlines()
        if lines:
            yield 34, lambda y: text_at(self.side, y, "What it printed", "part")
        for line in lines[:MOST_LINES]:
            line = cut("".join(c if c.isprintable() else "·" for c in line), CHARS)
            yield 17, lambda y, line=line: text_at(self.side + 8, y, line, "code")
        if len(lines) > MOST_LINES:
            yield 17, lambda y: text_at(self.side + 8, y, f"and {len(lines) - MOST_LINES} lines more", "note")

    def checks(self):
        """The decisions, by instruction."""
        checks = self.picture.checks
        yield 34, lambda y: text_at(self.side, y, "What must come out the same", "part")
        if not checks:
            yield 19, lambda y: text_at(self.side, y, "no branch and no address; the operands of pthread calls alone", "note")
        for kind, told in (("pinned", "a branch, pinned to its edge"), ("exact", "a load or store, with its exact address")):
            if any(it.kind == kind for it in checks):
                yield 20, lambda y, kind=kind, told=told: sign(kind, self.side + 6, y - 4) + text_at(self.side + 18, y, told, "note")
        if checks and not self.picture.is_placed:
            why = "with --program they stand between the turns" if not self.picture.program else "where they stand among the turns couldn't be told"
            yield 20, lambda y: text_at(self.side, y, why, "note")
        for check in checks[:MOST_CHECKS]:
            yield 18, lambda y, check=check: self.check(check, y)
        if len(checks) > MOST_CHECKS:
            yield 18, lambda y: text_at(self.side + 18, y, f"and {len(checks) - MOST_CHECKS} instructions more", "note")

    def check(self, check, y):
        steps = f"{'steps' if len(check.steps) > 1 else 'step'} {', '.join(map(str, check.steps))}"
        times = f"×{len(check.steps)}" if len(check.steps) > 1 else ""
        said = cut(check.told or f"instruction {check.instr}: {steps}", CHARS - 4)
        about = tell([f"instruction {check.instr}, {steps} of the reference run", *([check.told] if check.told else [])])
        return f"<g>{about}{sign(check.kind, self.side + 6, y - 4)}{text_at(self.side + 18, y, said, 'code')}" + (
            text_at(self.side + 24 + 6.7 * len(said), y, times, "count") if times else ""
        ) + "</g>"

    def beside(self):
        y, found = TOP + 16, []
        for height, draw in [*self.legend(), *self.output(), *self.checks()]:
            y += height
            found.append(draw(y - height + (14 if height > 30 else 0)))
        return found, y

    def widest(self):
        """How many letters the longest line beside the lanes has."""
        printed = [len(it) for it in self.picture.shown.output.decode("utf-8", "backslashreplace").splitlines()]
        return min(CHARS, max([46, *printed, *(len(it.told) + 4 for it in self.picture.checks)]))

    def style(self):
        yield f"text{{font-family:{SANS};font-size:12px;fill:{INK}}}"
        yield f".name,.turn,.box,.code,.count{{font-family:{MONO}}} .turn,.code,.count{{font-size:11px}}"
        yield ".title{font-size:17px} .part,.head{font-size:13px} .title,.part,.head,.box{font-weight:bold} .object{font-weight:normal}"
        yield f".head,.name{{text-anchor:middle}} .turn{{text-anchor:end}} .name,.turn,.count{{fill:{FAINT}}} .note{{fill:#4b555f}}"
        yield ".code{white-space:pre}"
        for group, (fill, edge, _) in COLOURS.items():
            yield f".{group}{{fill:{fill};stroke:{edge}}}"
        yield f".lane{{fill:#f7f8fa}} .life{{stroke:#cdd4da;stroke-width:2}} .under{{fill:#f7f8fa}}"
        yield f".link{{fill:none;stroke:{LINK};stroke-width:1.3}} .tip{{fill:{LINK}}}"
        yield f".race{{fill:none;stroke:{RACE};stroke-width:2}} .perhaps{{stroke-dasharray:4 4}} .end{{fill:{RACE}}}"
        yield f".pinned{{fill:{PINNED}}} .exact{{fill:{EXACT}}}"

    def drawn(self):
        beside, side_end = self.beside()
        width, height = max(640, self.side + 6.7 * self.widest() + 40), max(self.lanes_end, side_end) + 20
        yield f'<svg xmlns="http://www.w3.org/2000/svg" width="{number(width)}" height="{number(height)}" viewBox="0 0 {number(width)} {number(height)}">'
        yield "<style>" + "\n".join(self.style()) + "</style>"
        yield '<defs><marker id="tip" viewBox="0 0 8 8" refX="6" refY="4" markerWidth="7" markerHeight="7" orient="auto"><path class="tip" d="M0 0L8 4L0 8z"/></marker></defs>'
        yield '<rect width="100%" height="100%" fill="#ffffff"/>'
        yield text_at(20, 34, self.picture.title(), "title")
        yield text_at(20, 54, f"the turns of an entry, from top to bottom; {counted(len(self.picture.shown.races), 'race')}, {counted(len(self.picture.shown.decisions), 'decision')}", "note")
        yield from self.lanes()
        yield from self.links()
        yield from self.boxes()
        yield from self.races()
        yield from beside
        yield "</svg>"


def drawn(picture):
    return "\n".join(Drawing(picture).drawn()) + "\n"
