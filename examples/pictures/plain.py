"""The picture as plain text for a terminal: a line for each turn, a column for each thread, races drawn at the right."""

from rows import Box

MOST_WIDE = 34
SIGNS = {"pinned": "◆", "exact": "●"}
MOST_MARKS = 3
MOST_STEPS = 12


def label(row):
    if isinstance(row, Box):
        exact = " ●" if row.exact else ""
        return f"{row.kind} {row.object}".rstrip() + exact
    found = [f"{SIGNS[it.kind]}{it.instr}" for it in row.decisions[:MOST_MARKS]]
    rest = len(row.decisions) - MOST_MARKS
    return " ".join(found) + (f" +{rest}" if rest > 0 else "")


def cut(text, width):
    return text if len(text) <= width else text[: width - 1] + "…"


def columns(races):
    """A column for each arc, so that no two meet in one: the shortest stand nearest."""
    taken, found = [], {}
    for race in sorted(races, key=lambda it: (it.other - it.one, it.one)):
        for at, spans in enumerate(taken + [[]]):
            if all(race.other < one or other < race.one for one, other in spans):
                break
        if at == len(taken):
            taken.append([])
        taken[at].append((race.one, race.other))
        found[race] = at
    return found, len(taken)


def gutter(races, count):
    """What stands at the right of each row."""
    at, width = races
    found = []
    for row in range(count):
        line = [" "] * (2 * width)
        for race, column in sorted(at.items(), key=lambda it: -it[1]):
            bar = "│" if race.is_sure else "┆"
            if row in (race.one, race.other):
                for i in range(2 * column + 1):
                    line[i] = "┼" if line[i] in "│┆" else "─" if line[i] == " " else line[i]
                line[2 * column + 1] = "╮" if row == race.one else "╯"
            elif race.one < row < race.other:
                line[2 * column + 1] = "┼" if line[2 * column + 1] == "─" else bar
        found.append("".join(line).rstrip())
    return found


def picture_lines(picture):
    labels = [label(row) for row in picture.rows]
    heads = [f"thread {t}" + (f" {name}" if name else "") for t, name in enumerate(picture.lanes)]
    widest = max(len(it) for it in labels + heads)
    width = min(MOST_WIDE, widest) + 2
    number = max(4, len(str(len(picture.shown.turns))))
    right = gutter(columns(picture.races), len(picture.rows))
    life = picture.life()
    yield " " * number + "  " + "".join(cut(it, width - 2).ljust(width) for it in heads).rstrip()
    ends = {row for race in picture.races for row in (race.one, race.other)}
    for i, (row, text, arc) in enumerate(zip(picture.rows, labels, right)):
        cells = ""
        for lane in range(len(picture.lanes)):
            lives = lane in life and life[lane][0] <= i <= life[lane][1]
            reaches = i in ends and lane > row.lane
            cell = cut(text, width - 2) if lane == row.lane else ("┼" if reaches else "│") if lives else ""
            cells += cell.ljust(width, "─") if reaches else (cell + " ").ljust(width, "─") if i in ends and lane == row.lane else cell.ljust(width)
        turn = str(row.first) if isinstance(row, Box) else ""
        yield (turn.rjust(number) + "  " + cells + arc).rstrip()


def check_lines(picture):
    for check in picture.checks:
        times = f" ×{len(check.steps)}" if len(check.steps) > 1 else ""
        some = ", ".join(map(str, check.steps[:MOST_STEPS])) + (", …" if len(check.steps) > MOST_STEPS else "")
        what = check.told or f"{'step' if len(check.steps) == 1 else 'steps'} {some}"
        yield f"  {SIGNS[check.kind]}{check.instr}{times}   {what}"


def drawn(picture):
    lines = [picture.title(), "", *picture_lines(picture), ""]
    if picture.races:
        lines += ["─╮ a race: both are turns, in this order" + ("; ┆ one of several that it may be" if not all(it.is_sure for it in picture.races) else "")]
        lines += list(dict.fromkeys(f"  {it.named[0]}: {it.named[1]}; {it.named[2]}" for it in picture.races if it.named))
    if picture.checks:
        lines += ["What must come out the same for an input that uses these turns again:"]
        lines += ["  ◆N is a branch at instruction N, pinned to its edge; ●N a load or store there with its exact address"]
        lines += check_lines(picture)
    return "\n".join(lines).rstrip() + "\n"
