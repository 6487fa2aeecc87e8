"""A race in a person's words: the variable, and of both accesses the line in C and the thread."""

from texts import place_name


def variable(turn, other, program):
    """What both access, in C's names: a create and a join that write tell no place, so it is the other's."""
    place = (turn if turn.kind in ("load", "store") else other).object
    name = place_name(place, program)
    if name.startswith("@"):
        variable, _, behind = name[1:].partition("+")
        return f"{variable}, byte {behind}" if behind else variable
    if name.startswith("memory "):
        thread, behind = name[7:].split("+")
        return f"memory of thread {thread}'s stack or heap, byte {behind}"
    return f"place {name}"


def access(turn, begins, program):
    """One access: what it does, its line in C or in the text, and its thread with the function that this began with."""
    instr = program.instrs[turn.instr]
    place = program.c_places.of_line(program.lines[instr.line - 1])
    where = f"{place.file}:{place.line}" if place else f"{program.name}:{instr.line}"
    return f"{turn.kind} at {where} in {instr.function}, thread {turn.thread} ({begins.get(turn.thread, '?')})"


def told(arc, turns, program):
    """The lines that tell a race: the variable, and the two accesses."""
    begins = {it.thread: program.instrs[it.instr].function for it in turns if it.kind == "start"}
    one, other = turns[arc.one], turns[arc.other]
    sure = "race" if arc.is_sure else "perhaps a race"
    return f"{sure} on {variable(one, other, program)}", access(one, begins, program), access(other, begins, program)
