"""From an instruction's number, as `trap NAME at N` has it, to its line in the text and in C."""

import re

from module import CALL, Refused, name_in
from places import Places

# lines that are no instruction and have no number
DROPPED = re.compile(r"\s*(?:#dbg_|(?:%\S+ = )?(?:tail )?call .*@\"?llvm\.(?:lifetime|dbg)\.)")
# so many C lines are told of the calls of a function that stands in no C file
CALLS_TOLD = 4


def instructions(text):
    """Each instruction of the text, in order: its function and the number of its line, from 1."""
    function, found, is_switch = None, [], False
    for number, line in enumerate(text.split("\n"), 1):
        words = line.split(";")[0].rstrip() if '"' not in line else line.rstrip()
        head = re.match(r'define .*?@("[^"]*"|[-\w$.]+)\(', words)
        if head:
            function = head[1]
        elif words == "}":
            function = None
        elif function and is_switch:
            is_switch = "]" not in words
        elif function and words and not re.match(r'\S+:$|"[^"]*":$', words) and not DROPPED.match(words):
            found.append((function, number))
            is_switch = bool(re.match(r"\s*switch ", words)) and "]" not in words
    return found


def calls_in_c(found, lines, places, name):
    """The places in C from which a function is called, through others that stand in no C file."""
    reached, waiting, told = {name}, [name], []
    while waiting:
        callee = waiting.pop()
        for function, number in found:
            call = CALL.match(lines[number - 1])
            if not call or call[4] != callee:
                continue
            place = places.of_line(lines[number - 1])
            if place:
                told.append(place)
            elif function not in reached:
                reached.add(function)
                waiting.append(function)
    return sorted({f"{it.file}:{it.line}" for it in told}, key=lambda it: (it.split(":")[0], int(it.split(":")[1])))


def without_place(found, lines, places, function):
    """What is told of an instruction that has no place in C."""
    if not any("!DISubprogram(" in it for it in places.items.values()):
        return "compile with -- -g to see the C line"
    head = places.of_line(next(it for it in lines if it.startswith("define ") and f"@{function}(" in it))
    if head:
        return f"{head.file}, line {head.line}, where {function} begins"
    calls = calls_in_c(found, lines, places, function)
    if not calls:
        return f"{function} stands in no C file"
    more = ", .." if len(calls) > CALLS_TOLD else ""
    return f"{function} is of the library and stands in no C file of yours; it is called from {', '.join(calls[:CALLS_TOLD])}{more}"


def told(number, file):
    with open(file, encoding="utf-8", errors="surrogateescape") as it:
        text = it.read()
    found, lines, places = instructions(text), text.split("\n"), Places(text)
    if number >= len(found):
        raise Refused(f"{file} has {len(found)} instructions, numbered from 0")
    function, line = found[number]
    place = places.of_line(lines[line - 1])
    in_c = f"{place.file}, line {place.line}" + (f", column {place.column}" if place.column else "") if place else None
    return f"{file}:{line}: in {function}: {lines[line - 1].strip()}\n{in_c or without_place(found, lines, places, function)}"


CURES = {
    "Unsupported": "docs/C.md lists the C forms that are left out, and what to write in their place",
    "TooLarge": "the program is over a limit: docs/C.md has the limits",
    "BadSignature": "a function of the known ones is declared with other types: include its header",
    "UnknownName": "a name is used that nothing defines: add the C file that defines it",
    "WrongType": "a value of a type that is left out: docs/C.md has the table",
    "NoMain": "there is no main: add the C file that has it",
}


def cure_of(refusal, text):
    """A refusal line of the program as one of the rules: with its line of the text, its place in C, and a cure."""
    found = re.search(r"(\d+):(\d+)", refusal)
    cure = next((CURES[it] for it in CURES if it in refusal), "docs/C.md has the forms that are accepted")
    lines = text.split("\n")
    if not found or int(found[1]) > len(lines) or "NoMain" in refusal:
        return Refused(f"{refusal}: {cure}")
    line = lines[int(found[1]) - 1]
    # a declaration has no place in C, and its first call has one
    call = re.escape("@" + name_in(line) + "(")
    used = next((it for it in lines if re.search(rf" call .*{call}", it)), line) if line.startswith("declare ") else line
    return Refused(f"{refusal}: {cure} (at: {line.strip()[:100]})", used)
