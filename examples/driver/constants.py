"""Constants that the accepted language doesn't have: packed structures, and expressions that can be computed.

`@t = global <{ i32, [9 x i32] }> <{ i32 1, [9 x i32] zeroinitializer }>` becomes a plain structure, where no
padding comes in. `@n = global i64 ptrtoint (ptr @x to i64)` holds a pointer's word, so it becomes `@n = global ptr
@x`. In a function an expression becomes a line before the one that has it.
"""

import re

from layout import as_plain
from module import Refused, closing, refusals_at, split, without_names

# none behind the sign of a name: a function may be called so in C
EXPRESSION = re.compile(r"(?<![%@\w$.-])(ptrtoint|sub|add|mul|icmp|trunc|zext|sext|and|or|xor|shl|lshr|ashr|bitcast|addrspacecast|select)\s*((?:nuw |nsw |exact |eq |ne |ult |ugt |ule |uge |slt |sgt |sle |sge )*)\(")


def outside_strings(line, change):
    """Changes the parts of a line that stand outside strings."""
    parts = re.split(r'(c?"[^"]*")', line)
    for i in range(0, len(parts), 2):
        parts[i] = change(parts[i])
    return "".join(parts)


def without_texts(line):
    """A line of the same length with nothing in its strings."""
    return re.sub(r'"[^"]*"', lambda it: "_" * len(it[0]), line)


def check_packed(module, line):
    """Each packed structure's type of a line has a plain form."""
    at = line.find("<{")
    while at >= 0:
        end = closing(line, at)
        inner = line[at : end + 1]
        if is_type(inner):
            as_plain(module, inner)
        at = line.find("<{", at + 2)


def is_type(text):
    """A packed structure's type, and no value of one: no field has a value."""
    text = without_names(text)
    first = split(text[2:-2])[0] if split(text[2:-2]) else ""
    return bool(re.fullmatch(r"i\d+|ptr|\[.*\]|%[-\w$.]+|\{.*\}|<\{.*\}>", first)) and not re.search(r"zeroinitializer|\bi\d+ -?\d|\bnull\b|@", text)


def unpacked(module, line):
    if "<{" not in without_texts(line):
        return line
    check_packed(module, without_texts(line))
    return outside_strings(line, lambda part: part.replace("<{", "{").replace("}>", "}"))


def word_global(line):
    """A global number whose initial value is a pointer's word."""
    found = re.match(r"(@.* (?:global|constant)) i64 ptrtoint \(ptr (.*) to i64\)(.*)$", line)
    return f"{found[1]} ptr {found[2]}{found[3]}" if found else line


def rewrite_globals(module):
    """What names a global so that the compiler keeps it, as `@llvm.used`, does nothing here."""
    module.globals = [line for line in module.globals if not line.startswith(("@llvm.used ", "@llvm.compiler.used "))]
    for lines in (module.types, module.globals):
        for i, line in enumerate(lines):
            with refusals_at(line):
                lines[i] = word_global(unpacked(module, line))
    for line in module.globals:
        if EXPRESSION.search(without_texts(line)):
            raise Refused(f"the initial value of {line.split(' ')[0][1:]} is computed from addresses: set it at the start of main", line)


class Lines:
    """Puts expressions into lines of their own, each with a register of its own name."""

    def __init__(self):
        self.count = 0

    def taken(self, line):
        """The lines that compute the expressions of a line, innermost first, and the line with their names."""
        before = []
        while True:
            found = self.innermost(line)
            if not found:
                return before, line
            start, end, text = found
            self.count += 1
            name = f"%pg.value.{self.count}"
            before.append(f"  {name} = {text}")
            line = line[:start] + name + line[end:]

    def innermost(self, line):
        """The place of an expression that holds no other, and its instruction."""
        for found in reversed(list(EXPRESSION.finditer(without_texts(line)))):
            if line[: found.start()].strip().endswith("=") or not line[: found.start()].strip():
                continue
            end = closing(line, found.end() - 1)
            return found.start(), end + 1, instruction(found[1], found[2], line[found.end() : end])
        return None


def instruction(name, flags, inside):
    """The instruction of a constant expression: `sub (i64 a, i64 b)` is `sub i64 a, b`."""
    if name in ("ptrtoint", "trunc", "zext", "sext"):
        return f"{name} {inside}"
    if name in ("bitcast", "addrspacecast"):
        return f"getelementptr i8, {inside.split(' to ')[0]}, i64 0"
    if name == "select":
        return f"select {inside}"
    first, second = split(inside)[:2]
    return f"{name} {flags}{first}, {second.split(' ', 1)[1]}"


def rewrite_functions(module):
    lines = Lines()

    def change(_, line):
        line = unpacked(module, line)
        if not EXPRESSION.search(without_texts(line)):
            return [line]
        before, line = lines.taken(line)
        if before and re.match(r"\s*%\S+ = phi ", line):
            raise Refused("an address is computed in a phi: compile with -O0")
        return [*before, line]

    module.change_lines(change)
