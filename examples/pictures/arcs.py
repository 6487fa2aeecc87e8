"""Between which turns the races of an entry are.

`race at ID steps S W` names two steps of the recorded run, and not the turns that they are. But each racing access is a
turn, the turns stand in the order of their steps, and the turns alone tell which of them may race: accesses of two
threads to one place, one of which writes, whose intervals among the other events overlap.
"""

from collections import namedtuple

from shown import GROUP_OF

# two turns that race, the races that name them, and whether no other turns may be meant
Arc = namedtuple("Arc", "one other races is_sure")

WRITES = {"store", "create", "join"}
MOST_TRIES = 20000


def is_access(turn):
    return GROUP_OF[turn.kind] == "access"


def intervals(turns):
    """Of each turn the last and the next turn of its thread that is no load or store; itself where it is none."""
    last, found = {}, []
    for turn in turns:
        if not is_access(turn):
            last[turn.thread] = turn.number
        found.append([last.get(turn.thread, -1), None])
    coming = {}
    for turn in reversed(turns):
        if not is_access(turn):
            coming[turn.thread] = turn.number
        found[turn.number][1] = coming.get(turn.thread, len(turns))
    return found


def overlap(one, other):
    return one[1] > other[0] and other[1] > one[0]


class Meeting:
    """Which turns may race. `written` has the places that creates and joins write, by their instructions, where the
    program tells: None where a join writes nothing."""

    def __init__(self, turns, written):
        self.turns = turns
        self.spans = intervals(turns)
        self.written = written

    def place(self, turn):
        """Where a turn accesses memory: a place, None where it doesn't, -1 where that isn't known."""
        if is_access(turn):
            return turn.object
        return self.written.get(turn.instr, -1) if turn.kind in ("create", "join") else None

    def likeness(self, one, other):
        """2 where two turns race, 1 where they may, 0 where they don't."""
        if one.thread == other.thread or not (one.kind in WRITES or other.kind in WRITES):
            return 0
        places = self.place(one), self.place(other)
        if None in places or not overlap(self.spans[one.number], self.spans[other.number]):
            return 0
        if -1 in places:
            return 1
        # a place is that of the first byte, and how many are accessed isn't told; no access leaves its granule
        return 2 if places[0] == places[1] else int(places[0] // 8 == places[1] // 8)

    def candidates(self, race):
        """The pairs of turns that a race may be, the likeliest first: its step is the first of its instruction that
        races, and the other step the least that races with it."""
        found = []
        for one in self.turns:
            if one.instr != race.instr or not is_access(one) or one.number > race.step:
                continue
            is_sure = False
            for other in self.turns:
                alike = self.likeness(one, other)
                if alike and other.number <= race.other:
                    found.append((2 - alike, one.number, other.number))
                if alike == 2:
                    is_sure = True
                    break
            if is_sure:
                break
        return [(one, other) for _, one, other in sorted(found)]


def fits(known, step, turn):
    """Whether a step may be a turn beside those known: later turns are later steps, with room for those between."""
    for other_step, other_turn in known.items():
        if (step == other_step) != (turn == other_turn):
            return False
        if (step - other_step) * (turn - other_turn) < 0 or abs(step - other_step) < abs(turn - other_turn):
            return False
    return True


def solutions(races, choices):
    """For each race its two turns, so that all fit: each way to choose them, up to a number of tries."""
    tries = 0

    def search(at, known):
        nonlocal tries
        tries += 1
        if at == len(races):
            yield []
        elif tries < MOST_TRIES:
            race = races[at]
            for one, other in choices[race]:
                if fits(known, race.step, one) and fits({**known, race.step: one}, race.other, other):
                    for rest in search(at + 1, {**known, race.step: one, race.other: other}):
                        yield [(one, other), *rest]

    return list(search(0, {})), tries < MOST_TRIES


def arcs(shown, written):
    """The arcs of an entry, in the order of the turns."""
    meeting = Meeting(shown.turns, written)
    choices = {race: meeting.candidates(race) for race in shown.races}
    races = sorted((race for race in shown.races if choices[race]), key=lambda it: (len(choices[it]), it))
    ways, are_all = solutions(races, choices)
    first = ways[0] if ways else [choices[race][0] for race in races]
    found = {}
    for i, (race, pair) in enumerate(zip(races, first)):
        is_sure = are_all and bool(ways) and all(way[i] == pair for way in ways)
        found.setdefault(tuple(sorted(pair)), []).append((race, is_sure))
    return [
        Arc(one, other, sorted(race for race, _ in named), any(is_sure for _, is_sure in named))
        for (one, other), named in sorted(found.items())
    ]
