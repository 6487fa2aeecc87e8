"""Intrinsics of LLVM as calls of helpers, or taken away where they do nothing.

`call void @llvm.memset.p0.i64(ptr align 8 %p, i8 0, i64 16, i1 false)` is
`call void @pg.set.words(ptr %p, i8 0, i64 16)`; `%r = call i32 @llvm.abs.i32(i32 %x, i1 true)` is
`%r = call i32 @pg.abs.i32(i32 %x)`.
"""

import re

from helpers import MEMORY, number_helper
from module import Call, Refused, function_of, is_call

# what does nothing here, and has no result
NOTHING = ("llvm.assume", "llvm.experimental.noalias.scope.decl", "llvm.donothing", "llvm.prefetch", "llvm.invariant.start", "llvm.invariant.end", "llvm.var.annotation")
# the result is the first argument
FIRST = ("llvm.expect", "llvm.ssa.copy", "llvm.annotation", "llvm.launder.invariant.group", "llvm.strip.invariant.group")


def has_words(argument):
    """A pointer that is known to be at a multiple of 8 from where its bounds begin."""
    found = re.search(r"\balign (\d+)\b", argument)
    return found is not None and int(found[1]) % 8 == 0


def plain(argument):
    """An argument without attributes: its type and its value."""
    words = re.sub(r"(?<![%@\w$.-])(align \d+|noundef|nonnull|noalias|nocapture|readonly|writeonly|readnone|immarg|captures\([^)]*\)|dereferenceable(_or_null)?\(\d+\)|signext|zeroext|inreg|returned|allocptr) ?", "", argument)
    return re.sub(r"\s+", " ", words).strip()


def count_of(argument):
    found = re.match(r"i(?:32|64) (\d+)$", plain(argument))
    return int(found[1]) if found else None


def memory_call(call):
    """The helper of a set, a copy or a move, and its arguments."""
    kind = call.name.split(".")[1]
    first, second, count = call.arguments[:3]
    whole = count_of(count) is not None and count_of(count) % 8 == 0
    if plain(count).startswith("i32"):
        count = "i64" + plain(count)[3:] if count_of(count) is not None else None
        if count is None:
            raise Refused(f"{call.name} with a length of 32 bits that isn't constant")
    if kind == "memset":
        name = "pg.set.words" if whole and has_words(first) else "pg.set"
    elif kind == "memmove":
        name = "pg.move"
    else:
        name = "pg.copy.words" if whole and has_words(first) and has_words(second) else "pg.copy"
    return name, [plain(first), plain(second), plain(count)]


class Intrinsics:
    """Collects the helpers that a module needs."""

    def __init__(self, module):
        self.module = module
        self.needed = {}

    def helper(self, name, text):
        if name not in self.needed:
            lines = text.split("\n")
            self.needed[name] = function_of(lines[0], lines[1:-1])
        if name == "pg.move":
            self.helper("pg.copy", MEMORY["pg.copy"])

    def rewritten(self, line):
        """The lines in place of a line."""
        if not is_call(line):
            return [line]
        call = Call(line)
        if not call.name.startswith("llvm."):
            return [line]
        if call.name.startswith(("llvm.lifetime.", "llvm.dbg.")):
            return [line]
        if call.name.startswith(NOTHING):
            return []
        if call.name.startswith(("llvm.memset.", "llvm.memcpy.", "llvm.memmove.")):
            return [self.memory(call)]
        if call.name.startswith(FIRST):
            return [same(call.sets, plain(call.arguments[0]))]
        if call.name == "llvm.trap" or call.name == "llvm.debugtrap":
            return ["  unreachable", f"pg.dead.{id(call)}:"]
        if call.name.startswith("llvm.objectsize."):
            return [same(call.sets, f"{call.returns()} -1")]
        return [self.number(call)]

    def memory_helper(self, name):
        self.helper(name, MEMORY[name])

    def memory(self, call):
        name, arguments = memory_call(call)
        self.memory_helper(name)
        return f"  call void @{name}({', '.join(arguments)})"

    def number(self, call):
        found = re.match(r"llvm\.(\w+)\.i(\d+)$", call.name)
        text = number_helper(found[1], int(found[2])) if found else None
        if text is None or int(found[2]) not in (8, 16, 32, 64):
            raise Refused(f"the intrinsic {call.name} has no form in the accepted language{cure(call.name)}")
        name = f"pg.{found[1]}.i{found[2]}"
        self.helper(name, text)
        count = {"fshl": 3, "fshr": 3, "smin": 2, "smax": 2, "umin": 2, "umax": 2}.get(found[1], 1)
        arguments = ", ".join(plain(it) for it in call.arguments[:count])
        return f"  {call.sets} = call i{found[2]} @{name}({arguments})"


def same(sets, argument):
    """A register with the value of another."""
    type_text, value = argument.split(" ", 1)
    if type_text == "ptr":
        return f"  {sets} = getelementptr i8, ptr {value}, i64 0"
    return f"  {sets} = add {type_text} {value}, 0"


def cure(name):
    if ".with.overflow." in name:
        return ": test the operands before the sum, in place of __builtin_add_overflow and its kin"
    if name.startswith("llvm.va_"):
        return ": a function can't take a variable number of arguments"
    if name.startswith("llvm.stack"):
        return ": give the array a constant length, or take malloc"
    if ".f" in name:
        return ": floating point is left out"
    return ""


def rewrite(module, intrinsics):
    """Every intrinsic of the module."""
    module.change_lines(lambda _, line: intrinsics.rewritten(line))
    module.declared = [line for line in module.declared if not re.search(r"@llvm\.(?!lifetime\.|dbg\.)", line)]
