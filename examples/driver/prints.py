"""`printf` with a constant format, as calls that print its parts.

`printf("%d of %ld\\n", a, b)` is `pg_print(a)`, the text ` of ` byte by byte, and `pg_out(b)`, which prints a line feed
too: each number is one turn, so what it is doesn't change how many turns there are. The conversions are
`%d %i %u %x %c %s %%` with `l`, `ll`, `h`, `hh`, `z`, a width and a `0` before it. With a width, in hexadecimal, and
where the program reads how many bytes were printed, a number is printed by its digits.
"""

import re

from intrinsics import plain
from module import Call, Refused, is_call, name_in
from program import is_debug, uses

PART = re.compile(r"%(0?)(\d*)(hh|h|ll|l|z|j|t)?([diuxcs%])|%(.?)")
# the bits of a number by the letters before a conversion
BITS = {"hh": 8, "h": 16, None: 32}
DECLARED = ["declare void @pg_print(i64)", "declare void @pg_out(i64)"]


def bytes_of(text):
    """The bytes of an IR string without its quotes."""
    out, i = bytearray(), 0
    while i < len(text):
        if text[i] == "\\" and text[i + 1] == "\\":
            out.append(0x5C)
            i += 2
        elif text[i] == "\\":
            out.append(int(text[i + 1 : i + 3], 16))
            i += 3
        else:
            out += text[i].encode()
            i += 1
    return bytes(out)


def quoted(data):
    return "".join(chr(b) if 32 <= b < 127 and b not in (0x22, 0x5C) else f"\\{b:02X}" for b in data)


class Prints:
    def __init__(self, module):
        self.module, self.count = module, 0
        self.texts = {}
        for line in module.globals:
            found = re.match(r'@(\S+) = .*?constant \[\d+ x i8\] c"(.*)"', line)
            if found:
                self.texts[found[1]] = bytes_of(found[2])

    def name(self, what):
        self.count += 1
        return f"pg.print.{what}.{self.count}"

    def text(self, data):
        """A constant text that ends with a zero byte."""
        name = self.name("text")
        data += b"\0"
        self.module.globals.append(f'@{name} = private constant [{len(data)} x i8] c"{quoted(data)}"')
        return f"call i32 @pg_print_text(ptr @{name})"

    def format_of(self, call):
        name = name_in(call.arguments[0])
        data = self.texts.get(name)
        if data is None or data.find(b"\0") != len(data) - 1:
            raise Refused("printf with a format that isn't a constant text")
        return data[:-1].decode("latin-1")

    def extended(self, found, argument, lines):
        """The number that a conversion prints, as 64 bits."""
        bits, signed = BITS.get(found[3], 64), found[4] in "di"
        type_text, value = plain(argument).split(" ", 1)
        if type_text not in ("i64", "i32", "i16", "i8"):
            raise Refused(f"printf prints a number and gets a value of type {type_text}")
        if int(type_text[1:]) > bits:
            name = f"%{self.name('cut')}"
            lines.append(f"  {name} = trunc {type_text} {value} to i{bits}")
            type_text, value = f"i{bits}", name
        if type_text == "i64":
            return value
        name = f"%{self.name('wide')}"
        lines.append(f"  {name} = {'sext' if signed else 'zext'} {type_text} {value} to i64")
        return name

    def by_digits(self, found, argument, lines):
        """The call that prints a number by its digits."""
        zero, width, kind = found[1], found[2] or "0", found[4]
        fill = 48 if zero else 32
        value = self.extended(found, argument, lines)
        if kind in "di":
            return f"call i32 @pg_print_signed(i64 {value}, i32 {width}, i32 {fill})"
        base = 16 if kind == "x" else 10
        return f"call i32 @pg_print_unsigned(i64 {value}, i32 {base}, i32 0, i32 {width}, i32 {fill})"

    def in_a_turn(self, found, argument, ends_line, lines):
        """The call that prints a number in a turn, and how many bytes of the text behind it."""
        value = self.extended(found, argument, lines)
        if found[4] == "u" and found[3] not in ("hh", "h", None):
            return f"call void @pg_print_natural(i64 {value})", 0
        return (f"call void @pg_out(i64 {value})", 1) if ends_line else (f"call void @pg_print(i64 {value})", 0)

    def part(self, found, argument, lines):
        """The call that prints one conversion, and gives how many bytes it printed."""
        if found[4] == "c":
            return f"call i32 @pg_print_char(i32 {plain(argument).split(' ', 1)[1]})"
        if found[4] == "s":
            if found[2]:
                raise Refused("printf with a width for %s")
            return f"call i32 @pg_print_text(ptr {plain(argument).split(' ', 1)[1]})"
        return self.by_digits(found, argument, lines)

    def rewritten(self, call, counted):
        """The calls for one of printf; counted where the program reads how many bytes it printed."""
        form, arguments = self.format_of(call), call.arguments[1:]
        lines, counts, at, literal = [], [], 0, ""

        def put(words):
            counts.append(f"%{self.name('count')}")
            lines.append(f"  {counts[-1]} = {words}")

        for found in PART.finditer(form):
            literal += form[at : found.start()]
            at = found.end()
            if found[4] == "%":
                literal += "%"
                continue
            if literal:
                put(self.text(literal.encode("latin-1")))
                literal = ""
            argument = taken(found, arguments)
            if counted or found[2] or found[4] not in "diu":
                put(self.part(found, argument, lines))
            else:
                line, behind = self.in_a_turn(found, argument, form[at : at + 1] == "\n", lines)
                lines.append(f"  {line}")
                at += behind
        literal += form[at:]
        if literal:
            put(self.text(literal.encode("latin-1")))
        return lines + (total(call.sets, counts, self) if counted else [])


def taken(found, arguments):
    """The argument of a conversion."""
    if found[4] is None:
        raise Refused(f"printf with %{found[5]}: the driver knows %d %i %u %x %c %s %% with l, ll, h, hh, z, a width and 0")
    if not arguments:
        raise Refused("printf has fewer arguments than its format asks for")
    return arguments.pop(0)


def total(sets, counts, prints):
    """How many bytes were printed."""
    last, lines = "0", []
    for count in counts[:-1]:
        name = f"%{prints.name('sum')}"
        lines.append(f"  {name} = add i32 {last}, {count}")
        last = name
    return [*lines, f"  {sets} = add i32 {last}, {counts[-1] if counts else 0}"]


def is_read(line, register, function):
    """Whether another line of the function reads the register that this one sets."""
    return any(it != line and not is_debug(it) for it in uses(function.lines, register))


def rewrite(module):
    prints, defined = Prints(module), module.defined()

    def change(function, line):
        if not is_call(line) or Call(line).name != "printf" or "printf" in defined:
            return [line]
        call = Call(line)
        return prints.rewritten(call, call.sets is not None and is_read(line, call.sets, function))

    module.change_lines(change)
    module.declared += DECLARED
