"""What no rule takes away, told in C's terms, with a cure: instructions, types, variables, main, threads' functions."""

import re
from contextlib import contextmanager

from aggregates import result_type
from intrinsics import plain
from layout import layout
from module import Call, Refused, closing, is_call, placed, refusals_at, split, without_names
from program import is_debug, uses

# a variable has at most so many bytes, and all variables together so many granules of 8 (docs/LANGUAGE.md)
MOST_BYTES = 2_097_151
MOST_GRANULES = 2**21 - 1
WIDTH = r"\bi(?!1\b|8\b|16\b|32\b|64\b)(\d+)\b"
ODD_WIDTH = "an integer of {} bits is left out: where bit fields make it, add one without a name, as unsigned : 8, so that they fill 8, 16, 32 or 64 bits; where -O1 makes it, take -O0"

TOLD = [
    (r"\b(float|double|x86_fp80|half)\b", "floating point is left out: count in whole numbers"),
    (r"<\d+ x ", "vectors are left out: compile with -O0, or with -fno-vectorize -fno-slp-vectorize"),
    (r"\b(atomicrmw|cmpxchg|fence)\b|\bload atomic\b|\bstore atomic\b", "atomics are left out: take a mutex"),
    (r"\bi(128|256)\b", "an integer of this width is left out: take 8, 16, 32 or 64 bits"),
    (r"\bcall .*\basm\b", "inline assembly is left out"),
    (r"\bcall [^@]*%[-\w$.]+\(", "a call by a function pointer is left out: call functions by name, in a switch"),
    (r"\balloca .*, i\d+ %", "an array of variable length is left out: give it a constant length, or take malloc"),
    (r"\b(indirectbr|blockaddress)\b", "computed goto is left out: take a switch"),
    (r"\b(invoke|landingpad|resume)\b", "exceptions are left out"),
    (r"\bva_arg\b", "a variable number of arguments is left out"),
]


def told(line):
    """Why an instruction is refused, by its own words: a name may be any word. A label is no instruction."""
    text = without_names(line)
    if "metadata" in text or "#dbg_" in text or text.endswith(":"):
        return None
    width = re.search(WIDTH, text)
    found = next((why for form, why in TOLD if re.search(form, text)), None)
    return found or (ODD_WIDTH.format(width[1]) if width else None)


def check_instruction(module, function, line):
    """What an instruction's own words refuse, and a local array that is too large."""
    why = told(line)
    if why:
        raise Refused(f"in {function.name}: {why}")
    array = re.search(r" = alloca (?=\[)", line)
    size = layout(module, line[array.end() : closing(line, array.end()) + 1])[0] if array else 0
    if size > MOST_BYTES:
        raise Refused(f"in {function.name}: a local variable has {size} bytes, and {MOST_BYTES} are the most: make it smaller")


@contextmanager
def declarations_of(function):
    """A refusal of an `alloca`, which has no place in C, is about the variable's declaration."""
    try:
        yield
    except Refused as it:
        if it.line and " = alloca " in it.line:
            it.line = next((line for line in uses(function.lines, it.line.split()[0]) if is_debug(line)), None)
        it.line = placed(it.line or "", function)
        raise


def check_type(line):
    width = re.search(WIDTH, without_names(line))
    if width:
        raise Refused(f"{line.split(' ')[0][1:].replace('.', ' ', 1)}: {ODD_WIDTH.format(width[1])}")


def type_of_variable(line):
    """The type behind the word `global` or `constant`, None where there is none, as in an alias."""
    found = re.search(r" (?:global|constant) (.*)", line)
    if not found:
        return None
    text = found[1]
    return text[: closing(text, 0) + 1] if text[0] in "{[<" else re.split(r"[ ,]", text)[0]


def check_variable(module, line):
    """Gives the granules that a variable takes."""
    name, words = line.split(" ")[0][1:], without_names(line)
    if re.search(r"\bthread_local\b", words):
        raise Refused(f"{name} is thread-local: hand a structure to each thread")
    if re.search(r"\b(float|double|x86_fp80)\b", words):
        raise Refused(f"{name} holds floating point, which is left out")
    if name.startswith(("llvm.global_ctors", "llvm.global_dtors")) and " [0 x " not in line:
        heads = [it.head for it in module.functions if f"ptr @{it.name}," in line]
        raise Refused("a constructor or destructor is left out: call it in main", next(iter(heads), None))
    if re.search(r"\b(alias|ifunc)\b", words):
        raise Refused(f"{name} is another name for {line.split('@')[-1]}: write that name in its place")
    # one that is declared alone is told where it is used
    type_text = None if " external " in words else type_of_variable(line)
    size = layout(module, type_text)[0] if type_text else 0
    if size > MOST_BYTES:
        raise Refused(f"{name} has {size} bytes, and {MOST_BYTES} are the most: make it smaller, or divide it into several")
    return max(1, (size + 7) // 8)


def signature(function):
    """The result's type of a function, and its parameters' types."""
    at = function.head.index("@" + function.name + "(")
    opened = at + len(function.name) + 1
    parameters = split(function.head[opened + 1 : closing(function.head, opened)])
    return result_type(function.head[:at].strip()), [plain(it).split(" ")[0] for it in parameters]


def check_main(function):
    result = signature(function)[0]
    if result != "i32":
        given = "nothing" if result == "void" else "another type"
        raise Refused(f"main gives {given}: write int main(void)")


def check_create(module, line):
    """A thread's function is named in the call, and goes from a pointer to a pointer."""
    operand = plain(Call(line).arguments[2])
    found = re.fullmatch(r"ptr @([-\w$.]+)", operand)
    if not found:
        raise Refused("pthread_create gets its function from a variable or a choice: name one in the call, with an if around two calls")
    function = next((it for it in module.functions if it.name == found[1]), None)
    if function and signature(function) != ("ptr", ["ptr"]):
        raise Refused(f"a thread begins with {found[1]}, which has other types: write void *{found[1]}(void *of)")


def check(module):
    """Refuses what no rule takes away."""
    granules, defined = 0, module.defined()
    for line in module.types:
        with refusals_at(line):
            check_type(line)
    for line in module.globals:
        with refusals_at(line):
            granules += check_variable(module, line)
            if granules > MOST_GRANULES:
                raise Refused(f"the variables up to {line.split(' ')[0][1:]} take {8 * granules} bytes, and {8 * MOST_GRANULES} are the most")
    for function in module.functions:
        if function.name == "main":
            with refusals_at(function.head):
                check_main(function)
        with declarations_of(function):
            for line in function.lines:
                with refusals_at(line):
                    check_instruction(module, function, line)
                    if "pthread_create" not in defined and is_call(line) and Call(line).name == "pthread_create":
                        check_create(module, line)
