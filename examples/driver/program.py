"""What is special of main, and of calls that end the program.

`main(int, char **)` becomes `main()` where it doesn't read its parameters. `exit(n)` in main is its return; `abort()`
ends by the trap Unreachable. `freeze` is its operand.
"""

import re

from intrinsics import plain, same
from module import Call, Refused, closing, is_call, split


def uses(lines, name):
    """The lines that name a register."""
    found = re.compile(re.escape(name) + r"(?![-\w$.])")
    return [line for line in lines if found.search(line)]


def is_debug(line):
    return "llvm.dbg." in line or "#dbg_" in line


def reads_of(lines, name):
    """The lines that read a parameter: it may be stored into places on the stack that nothing else names."""
    found = []
    for line in uses(lines, name):
        stored = re.match(r"\s*store \S+ " + re.escape(name) + r", ptr (%[-\w$.]+)", line)
        if stored:
            found += [it for it in uses(lines, stored[1]) if it != line and " = alloca " not in it and not is_debug(it)]
        elif not is_debug(line):
            found.append(line)
    return found


def without_parameters(module):
    for function in module.functions:
        if function.name != "main":
            continue
        opened = function.head.index("(", function.head.index("@main"))
        closed = closing(function.head, opened)
        names = [it.rsplit(" ", 1)[1] for it in split(function.head[opened + 1 : closed])]
        for name in names:
            for line in reads_of(function.lines, name):
                raise Refused("main reads argc or argv: a program gets its numbers from pg_in and pg_in_len, and main has no parameters", line)
            function.lines = [line for line in function.lines if line not in uses(function.lines, name)]
        function.head = function.head[: opened + 1] + function.head[closed:]


def ended(function, line, labels):
    """The lines in place of a call that ends the program."""
    call = Call(line)
    if call.name in ("exit", "_exit", "_Exit", "quick_exit"):
        if function.name != "main":
            raise Refused(f"{call.name} is called in {function.name}: only main can end the program, by its return")
        labels.append(f"pg.dead.{len(labels)}")
        return [f"  ret {plain(call.arguments[0])}", f"{labels[-1]}:"]
    if call.name == "abort":
        labels.append(f"pg.dead.{len(labels)}")
        return ["  unreachable", f"{labels[-1]}:"]
    return [line]


def rewrite(module):
    without_parameters(module)
    defined, labels = module.defined(), []

    def change(function, line):
        frozen = re.match(r"\s*(%[-\w$.]+) = freeze (.*)$", line)
        if frozen:
            return [same(frozen[1], frozen[2])]
        return ended(function, line, labels) if is_call(line) and Call(line).name not in defined else [line]

    module.change_lines(change)
    gone = r"@(exit|_exit|_Exit|quick_exit|abort)\("
    module.declared = [line for line in module.declared if not re.search(gone, line)]
