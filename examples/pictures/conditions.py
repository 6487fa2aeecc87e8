"""The text of `conditions`, read: the values of an entry's precondition, its checks, and which of them a line of input meets.

`docs/FORMATS.md` has the form of the text. What each value is, is that of `crates/pg_precondition/specs/Values.antt`.
"""

import re
from collections import namedtuple

# a value: the words behind `value N =`, and the values before it that they name
Value = namedtuple("Value", "words nodes")
# a check of a value: is, isn't or has, and one number or two
Check = namedtuple("Check", "node kind numbers")
Conditions = namedtuple("Conditions", "values checks")

OPERATIONS = "add|sub|mul|udiv|sdiv|urem|srem|shl|lshr|ashr|and|or|xor"
PREDICATES = "eq|ne|ugt|uge|ult|ule|sgt|sge|slt|sle"
WIDTH = "i(?:1|8|16|32|64)"
# each form, and from which word on values are named, with the word behind the last
FORMS = [
    (r"const \d+", 2, 2),
    (r"input \d+", 1, 2),
    (r"length", 1, 1),
    (rf"(?:{OPERATIONS}) {WIDTH} \d+ \d+", 2, 4),
    (rf"icmp (?:{PREDICATES}) {WIDTH} \d+ \d+", 3, 5),
    (rf"(?:trunc|zext|sext) {WIDTH} \d+ to {WIDTH}", 2, 3),
    (r"select \d+ \d+ \d+", 1, 4),
    (r"move \d+ \d+", 1, 3),
    (r"byte [0-7] \d+", 2, 3),
    (r"join(?: \d+){1,8}", 1, 9),
]
VALUE = re.compile(r"value (\d+) = (.*)")
CHECK = re.compile(r"check (\d+) (?:(is|isn't) (\d+)|(has) (\d+) (\d+))")
# a pointer's word: where its start stands, in granules of 8 bytes, and its length in bytes; the offset is below
START_AT, LENGTH_AT, OFFSETS = 42, 21, 1 << 21


class NotConditions(Exception):
    """A text that isn't that of conditions: the sentence says why."""


# ---- the text


def value_of(text, number):
    """The value of a number, by the text of its line."""
    for form, begin, end in FORMS:
        if re.fullmatch(form, text):
            words = text.split(" ")
            nodes = [int(it) for it in words[begin:end]]
            if all(it < number for it in nodes):
                return Value(words, nodes)
    raise NotConditions(f"value {number} has the form {text[:60]!r}, which isn't one of docs/FORMATS.md")


def check_of(line, count):
    """The check of a line, where there are so many values."""
    found = CHECK.fullmatch(line)
    if not found or int(found[1]) >= count:
        raise NotConditions(f"the line {line[:60]!r} is neither a value nor a check")
    return Check(int(found[1]), found[2] or found[4], [int(it) for it in (found[3], found[5], found[6]) if it])


def read(text):
    """The conditions that a text tells."""
    first, *lines = text.split("\n")
    if first.startswith("program refused "):
        raise NotConditions(f"the program text was refused ({first[16:]})")
    if first.startswith("refused "):
        raise NotConditions(f"the run was refused ({first[8:]}), so there is no entry")
    if first != "recorded 0" or lines.pop() != "":
        raise NotConditions(f"this isn't the text of conditions: its first line is {first[:60]!r}")
    values = []
    for line in lines:
        found = VALUE.fullmatch(line)
        if not found or int(found[1]) != len(values):
            break
        values.append(value_of(found[2], len(values)))
    return Conditions(values, [check_of(it, len(values)) for it in lines[len(values) :]])


# ---- numbers


def signed(number, bits):
    """A number of so many bits, read with a sign."""
    return number - (1 << bits) if number >> (bits - 1) & 1 else number


def divided(op, bits, a, b):
    """A quotient or a remainder, cut toward zero; None where there is none."""
    if b == 0:
        return None
    if op in ("udiv", "urem"):
        return a // b if op == "udiv" else a % b
    a, b = signed(a, bits), signed(b, bits)
    if (a, b) == (-1 << (bits - 1), -1):
        return None
    quotient = abs(a) // abs(b) * (1 if (a < 0) == (b < 0) else -1)
    return quotient if op == "sdiv" else a - quotient * b


def shifted(op, bits, a, places):
    """A number shifted; by its width or more it is 0, or its sign."""
    if op == "ashr":
        return signed(a, bits) >> min(places, bits - 1)
    if places >= bits:
        return 0
    return a << places if op == "shl" else a >> places


def operated(op, bits, a, b):
    """The result of an operation on numbers of so many bits; None where there is none."""
    if op in ("udiv", "sdiv", "urem", "srem"):
        return divided(op, bits, a, b)
    if op in ("shl", "lshr", "ashr"):
        return shifted(op, bits, a, b)
    return {"add": a + b, "sub": a - b, "mul": a * b, "and": a & b, "or": a | b, "xor": a ^ b}[op]


def compared(predicate, bits, a, b):
    """Whether a comparison of numbers of so many bits is true."""
    if predicate[0] == "s":
        a, b = signed(a, bits), signed(b, bits)
    kind = predicate[-2:]
    return {"eq": a == b, "ne": a != b, "gt": a > b, "ge": a >= b, "lt": a < b, "le": a <= b}[kind]


def moved(word, by):
    """A pointer's word with its offset moved."""
    return word // OFFSETS * OFFSETS + (word + signed(by, 64)) % OFFSETS


def bits_in(word):
    """The width that a word as i64 names."""
    return int(word[1:])


def computed(value, parts, line):
    """The number of a value on a line, by those of the values that it names."""
    words = value.words
    kind = words[0]
    if kind == "const":
        return int(words[1])
    if kind == "length":
        return len(line)
    if kind == "input":
        at = signed(parts[0], 64)
        return line[at] % 2**64 if 0 <= at < len(line) else 0
    if kind == "icmp":
        bits = bits_in(words[2])
        return int(compared(words[1], bits, *(it % 2**bits for it in parts)))
    if kind in ("trunc", "zext", "sext"):
        begin, end = bits_in(words[1]), bits_in(words[4])
        number = parts[0] % 2**begin
        return (signed(number, begin) if kind == "sext" else number) % 2**end
    if kind == "move":
        return moved(*parts)
    if kind == "byte":
        return parts[0] >> 8 * int(words[1]) & 255
    if kind == "join":
        return sum((it & 255) << 8 * at for at, it in enumerate(parts))
    bits = bits_in(words[1])
    found = operated(kind, bits, *(it % 2**bits for it in parts))
    return None if found is None else found % 2**bits


def numbers_of(conditions, line):
    """The number of each value on a line of input; None where it has none."""
    known = []
    for value in conditions.values:
        parts = [known[it] for it in value.nodes]
        if value.words[0] == "select":
            # the part that isn't chosen needs no number
            known.append(None if parts[0] is None else parts[1] if parts[0] % 2 else parts[2])
        else:
            known.append(None if None in parts else computed(value, parts, line))
    return known


def bounds_of(word):
    """The bounds of a pointer's word: the granule at which they begin, and how many bytes they hold."""
    return word >> START_AT, (word >> LENGTH_AT) % OFFSETS


def pointed_at(word):
    """The place of the byte to which a pointer's word points."""
    return 8 * (word >> START_AT) + word % OFFSETS


def meets(check, number):
    """Whether a number, or None, meets a check."""
    if number is None:
        return False
    if check.kind == "has":
        return list(bounds_of(number)) == check.numbers
    return (number == check.numbers[0]) == (check.kind == "is")


def first_failing(conditions, line):
    """The place of the first check that a line doesn't meet, and the number of its value; None where it meets all."""
    known = numbers_of(conditions, line)
    for at, check in enumerate(conditions.checks):
        if not meets(check, known[check.node]):
            return at, known[check.node]
    return None
