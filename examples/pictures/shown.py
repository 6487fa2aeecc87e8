"""The text of `show`, read: the turns, races and decisions of an entry, and what its run printed."""

import re
from collections import namedtuple

KINDS = {
    "thread": ["start", "exit", "create", "join"],
    "mutex": ["mutex-init", "lock", "trylock", "unlock", "mutex-destroy"],
    "condition": ["cond-init", "wait", "wake", "signal", "broadcast", "cond-destroy"],
    "barrier": ["barrier-init", "arrive", "leave", "barrier-destroy"],
    "print": ["out", "putchar"],
    "access": ["load", "store"],
}
GROUP_OF = {kind: group for group, kinds in KINDS.items() for kind in kinds}

Turn = namedtuple("Turn", "number thread kind instr object printed")
Race = namedtuple("Race", "instr step other")
Decision = namedtuple("Decision", "kind step instr")
Shown = namedtuple("Shown", "turns races decisions output value")

TURN = re.compile(rb"turn (\d+) thread (\d+) ([a-z-]+) at (\d+) on (\d+)\n")
RACE = re.compile(rb"race at (\d+) steps (\d+) (\d+)\n")
DECISION = re.compile(rb"(pinned|exact) (\d+) at (\d+)\n")
END = re.compile(rb"exit (-?\d+) after (\d+) turns\n\Z")
NUMBER = re.compile(rb"-?(?:0|[1-9]\d{0,18})")


class NotShown(Exception):
    """A text that no picture can be made of: the sentence says why."""


def refusal(text):
    """The sentence for a text that has no entry."""
    first = text.split(b"\n")[0].decode("utf-8", "replace")
    if not text:
        return "there is no text; give me what `./peregrine show FILE NUMBERS` prints"
    if first.startswith("program refused "):
        return f"the program text was refused ({first[16:]}), so there is no entry"
    if first.startswith("refused "):
        return f"the run was refused ({first[8:]}), so there is no entry"
    if re.match(r"(recorded|reused) \d+$", first):
        return "this is a reply of serve; show tells the turns of an entry"
    return f"this isn't the text of show: its first line is {first[:60]!r}"


def all_of(pattern, text, at):
    """The matches of a pattern that stand behind each other, from a place on."""
    found = []
    while match := pattern.match(text, at):
        found.append(match)
        at = match.end()
    return found


def ends(turn, output, at, program):
    """Where what a turn prints from a place on may end: a byte of putchar, a number of pg_print, and one with a line feed
    of pg_out. Both numbers are turns of the kind out; where no program tells which it is, it may be either."""
    if turn.kind == "putchar":
        return [at + 1] if at < len(output) else []
    if turn.kind != "out":
        return [at]
    number = NUMBER.match(output, at)
    if not number:
        return []
    callee = program.instrs[turn.instr].callee if program and turn.instr < len(program.instrs) else None
    found = [number.end() + 1] if callee != "pg_print" and output[number.end() : number.end() + 1] == b"\n" else []
    if callee != "pg_out":
        # the next turn's number may follow without a byte between
        least = at + 2 if output[at : at + 1] == b"-" else at + 1
        found += range(number.end(), least - 1, -1)
    return found


def prints(turns, output, program):
    """What each turn printed; None where that isn't the output."""
    reached = [{0}]
    for turn in turns:
        reached.append({end for at in reached[-1] for end in ends(turn, output, at, program)})
    if len(output) not in reached[-1]:
        return None
    end, printed = len(output), []
    for turn, places in zip(reversed(turns), reversed(reached[:-1])):
        begin = max(at for at in places if end in ends(turn, output, at, program))
        printed.append(output[begin:end])
        end = begin
    return printed[::-1]


def turns_of(text):
    found = all_of(TURN, text, len(b"recorded 0\n"))
    turns = []
    for i, it in enumerate(found):
        number, thread, instr, place = (int(it[n]) for n in (1, 2, 4, 5))
        kind = it[3].decode()
        if number != i:
            raise NotShown(f"turn {number} stands where turn {i} is due")
        if kind not in GROUP_OF:
            raise NotShown(f"turn {i} has the kind {kind}, which isn't one of the 23")
        turns.append(Turn(number, thread, kind, instr, place, b""))
    return turns, found[-1].end() if found else 0


def read(text, program=None):
    """The entry that a text of show tells; the program, where there is one, tells what kind of number a turn prints."""
    if not text.startswith(b"recorded 0\n"):
        raise NotShown(refusal(text))
    turns, at = turns_of(text)
    if not turns:
        raise NotShown("there are no turns; this is a reply of serve, and show tells the turns of an entry")
    races = all_of(RACE, text, at)
    decisions = all_of(DECISION, text, races[-1].end() if races else at)
    end = END.search(text)
    if not end:
        raise NotShown("the text breaks off: its last line isn't `exit V after K turns`")
    if int(end[2]) != len(turns):
        raise NotShown(f"the end speaks of {int(end[2])} turns, and there are {len(turns)}")
    # a program may print what looks like a decision: the turns tell how much is printed
    for count in range(len(decisions), -1, -1):
        begin = decisions[count - 1].end() if count else (races[-1].end() if races else at)
        printed = prints(turns, text[begin : end.start()], program)
        if printed is not None:
            break
    else:
        raise NotShown("what stands before the last line isn't what the turns print")
    return Shown(
        [turn._replace(printed=it) for turn, it in zip(turns, printed)],
        [Race(*(int(n) for n in it.groups())) for it in races],
        [Decision(it[1].decode(), int(it[2]), int(it[3])) for it in decisions[:count]],
        text[begin : end.start()],
        int(end[1]),
    )
