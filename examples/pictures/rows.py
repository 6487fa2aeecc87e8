"""What a picture of an entry shows, from top to bottom, for both forms of it."""

from collections import namedtuple

import naming
import walk
from arcs import arcs
from shown import GROUP_OF, NotShown
from texts import place_name

# a box: the first and the last of its turns, its lane, its kind and what stands behind that, the exact steps on it, and
# the lines that tell more
Box = namedtuple("Box", "first last lane group kind object exact more")
# the decisions that stand in a lane before its next box, or among the turns of that box
Marks = namedtuple("Marks", "lane decisions")
# an arc between two rows, with its variable and accesses as words; a thin line from a create to its start, or from an exit to its join
Race = namedtuple("Race", "one other is_sure named more")
Link = namedtuple("Link", "one other")
# all decisions at one instruction: how many, and the lines that tell of them
Check = namedtuple("Check", "kind instr steps told")


def readable(printed):
    """Printed bytes as they may stand on a line."""
    return printed.decode("utf-8", "backslashreplace").encode("unicode_escape").decode() if printed else ""


def counted(number, one, many=None):
    return f"{number} {one if number == 1 else many or one + 's'}"


class Picture:
    def __init__(self, shown, program):
        self.shown = shown
        self.program = program
        self.refuse_another_program()
        self.lanes = self.titles()
        self.placed, self.is_placed = self.places()
        self.rows = list(self.make_rows())
        self.row_of = {n: i for i, row in enumerate(self.rows) if isinstance(row, Box) for n in range(row.first, row.last + 1)}
        self.races = [
            Race(self.row_of[it.one], self.row_of[it.other], it.is_sure, self.named(it), tuple(self.told_race(race) for race in it.races))
            for it in arcs(shown, program.written() if program else {})
        ]
        self.links = list(self.make_links())
        self.checks = list(self.make_checks())

    def refuse_another_program(self):
        for it in [*self.shown.turns, *self.shown.decisions] if self.program else []:
            if not self.program.may_be(it.kind, it.instr):
                raise NotShown(f"{self.program.name} isn't the program that was shown: its instruction {it.instr} is no {it.kind}")

    def titles(self):
        """Of each thread the function that it begins with, or nothing where that isn't known."""
        found = [""] * (1 + max(turn.thread for turn in self.shown.turns))
        for turn in self.shown.turns:
            if turn.kind == "start" and self.program:
                found[turn.thread] = self.program.instrs[turn.instr].function
        return found

    def places(self):
        """For each turn the decisions that stand before it in its lane, or on it; and whether they could be placed."""
        found = {}
        if not self.program:
            return found, not self.shown.decisions
        try:
            for decision, turns in walk.places(self.shown, self.program).items():
                found.setdefault(turns[0], []).append(decision)
        except walk.Lost:
            return {}, False
        return {turn: sorted(marks, key=lambda it: (it.step, it.kind)) for turn, marks in found.items()}, True

    def make_rows(self):
        boxes = []
        for turn in self.shown.turns:
            last = boxes[-1][-1] if boxes else None
            # bytes that are printed one after another stand in one box, with the decisions between them before it
            if last and turn.kind == last.kind == "putchar" and turn.thread == last.thread:
                boxes[-1].append(turn)
            else:
                boxes.append([turn])
        for turns in boxes:
            marks = [it for turn in turns for it in self.placed.get(turn.number, []) if not self.is_on(it, turn)]
            if marks:
                yield Marks(turns[0].thread, marks)
            yield self.box(turns)

    @staticmethod
    def is_on(decision, turn):
        """Whether an exact step before whose end a turn comes is that turn."""
        return decision.kind == "exact" and decision.instr == turn.instr and GROUP_OF[turn.kind] == "access"

    def box(self, turns):
        turn = turns[0]
        exact = [it for it in self.placed.get(turn.number, []) if self.is_on(it, turn)]
        printed = readable(b"".join(it.printed for it in turns))
        more = [f"turn {turn.number}: thread {turn.thread}, {turn.kind} at instruction {turn.instr}, on {turn.object}"]
        if len(turns) > 1:
            more = [f"turns {turn.number} to {turns[-1].number}: thread {turn.thread}, {turn.kind}, {len(turns)} times"]
        if self.program:
            more.append(self.program.told(turn.instr))
        more += [f"exact: step {it.step} of the reference run" for it in exact]
        return Box(turn.number, turns[-1].number, turn.thread, GROUP_OF[turn.kind], turn.kind, self.object(turn, printed), exact, more)

    def object(self, turn, printed):
        if turn.kind in ("create", "join"):
            return f"thread {turn.object}"
        if turn.kind in ("start", "exit"):
            return ""
        if turn.kind == "out":
            return printed.removesuffix("\\n")
        return f'"{printed}"' if turn.kind == "putchar" else place_name(turn.object, self.program)

    def make_links(self):
        turns = self.shown.turns
        starts = {turn.thread: turn.number for turn in turns if turn.kind == "start"}
        exits = {turn.thread: turn.number for turn in turns if turn.kind == "exit"}
        for turn in turns:
            if turn.kind == "create" and turn.object in starts:
                yield Link(self.row_of[turn.number], self.row_of[starts[turn.object]])
            if turn.kind == "join" and turn.object in exits:
                yield Link(self.row_of[exits[turn.object]], self.row_of[turn.number])

    def named(self, arc):
        """The variable, the lines and the threads of a race; nothing without the program."""
        return naming.told(arc, self.shown.turns, self.program) if self.program else ()

    def told_race(self, race):
        return f"race at instruction {race.instr}: steps {race.step} and {race.other} of the recorded run"

    def make_checks(self):
        found = {}
        for it in self.shown.decisions:
            found.setdefault((it.kind != "pinned", it.instr), []).append(it.step)
        for (is_exact, instr), steps in sorted(found.items()):
            told = ""
            if self.program:
                told = f"{self.program.instrs[instr].function}: {self.program.told(instr)}"
            yield Check("exact" if is_exact else "pinned", instr, steps, told)

    def title(self):
        name = f"{self.program.name}: " if self.program else ""
        threads = len({turn.thread for turn in self.shown.turns})
        return f"{name}{counted(len(self.shown.turns), 'turn')} of {counted(threads, 'thread')}, exit {self.shown.value}"

    def life(self):
        """Of each lane the first and the last row with a box of it."""
        found = {}
        for i, row in enumerate(self.rows):
            found.setdefault(row.lane, [i, i])[1] = i
        return found
