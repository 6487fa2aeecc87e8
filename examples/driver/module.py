"""The text of a module as clang writes it, cut into its items: types, globals, declarations and functions.

A rule of the driver changes lines of these items. First of all each value without a name gets one (`%3` is
`%v.3`, the block `11:` is `v.11:`), so that lines can come and go.
"""

import re
from contextlib import contextmanager


class Refused(Exception):
    """The program can't be made to fit: the sentence says why, and what helps; the line is that of the compiler's text
    that it is about, from which its place in C is told."""

    def __init__(self, sentence, line=None):
        super().__init__(sentence)
        self.sentence = sentence
        self.line = line
        self.place = None


@contextmanager
def refusals_at(line):
    """A refusal within is about this line of the compiler's text, where it names none itself."""
    try:
        yield
    except Refused as it:
        it.line = it.line or line
        raise


class Function:
    """A defined function: its head, up to the `{`, and its lines."""

    def __init__(self, head, lines):
        self.head = head
        self.lines = lines

    @property
    def name(self):
        return name_in(self.head)


class Module:
    """A module's items, each kind in the order of the text."""

    def __init__(self):
        self.before = []
        self.types = []
        self.globals = []
        self.declared = []
        self.functions = []
        self.after = []

    def text(self):
        parts = self.before + [""] + self.types + [""] + self.globals + [""]
        for function in self.functions:
            parts += [function.head] + function.lines + ["}", ""]
        return "\n".join(parts + self.declared + [""] + self.after) + "\n"

    def defined(self):
        return {function.name for function in self.functions}

    def change_lines(self, change):
        """Puts for each line of a function those that a rule gives for it; they keep its place in C."""
        for function in self.functions:
            lines = []
            for line in function.lines:
                with refusals_at(placed(line, function)):
                    new = change(function, line)
                lines += new if new == [line] else [with_place_of(line, it) for it in new]
            function.lines = lines

    def type_of(self, name):
        """The text of a named type."""
        for line in self.types:
            at, _, body = line.partition(" = type ")
            if at == name:
                return body
        raise Refused(f"the type {name} isn't defined in this file (an incomplete type has no size)")


PLACE = re.compile(r", !dbg !\d+")


def with_place_of(line, new):
    """A new instruction with the place in C of the one that it stands for."""
    place = PLACE.search(line)
    return new + place[0] if place and not new.endswith(":") and not PLACE.search(new) else new


def placed(line, function):
    """A line that has a place in C: this one, or the head of its function."""
    return line if PLACE.search(line) else function.head


def without_names(text):
    """A text without strings, and with one name in place of all: what is left are the language's own words."""
    return re.sub(r"([%@])[-\w$.]+", r"\1_", re.sub(r'"[^"]*"', "_", text))


def name_in(text):
    """The first global name of a text, without its `@`."""
    found = re.search(r'@("[^"]*"|[-\w$.]+)', text)
    return found[1] if found else ""


def named(line, comment=True):
    """A line of a function with names in place of numbers, outside strings."""
    parts = re.split(r'("[^"]*")', line)
    for i in range(0, len(parts), 2):
        parts[i] = re.sub(r"%(\d+)\b", r"%v.\1", parts[i])
    return re.sub(r"^(\d+):", r"v.\1:", "".join(parts))


def without_comment(line):
    """A line without its comment, and without blanks at its end."""
    quoted = False
    for i, c in enumerate(line):
        if c == '"':
            quoted = not quoted
        elif c == ";" and not quoted:
            return line[:i].rstrip()
    return line.rstrip()


def entry_label(head, lines):
    """The label of the first block, where it has none: the number behind the unnamed parameters'."""
    first = next((line for line in lines if line), "")
    if re.match(r'[-\w$."]+:', first):
        return []
    numbers = [int(n) for n in re.findall(r"%v\.(\d+)\b", head)]
    return [f"v.{max(numbers, default=-1) + 1}:"]


def function_of(head, lines):
    head = named(head)
    body = [named(line) for line in map(without_comment, lines) if line.strip()]
    return Function(head, entry_label(head, body) + body)


def module_of(text):
    """Cuts a module's text into its items."""
    module = Module()
    lines = iter(text.split("\n"))
    for line in lines:
        if line.startswith("define "):
            body = []
            for inner in lines:
                if inner == "}":
                    break
                body.append(inner)
            module.functions.append(function_of(without_comment(line), body))
        elif re.match(r"%.* = type ", line):
            module.types.append(without_comment(line))
        elif line.startswith("@"):
            module.globals.append(without_comment(line))
        elif line.startswith("declare "):
            module.declared.append(without_comment(line))
        elif line.startswith(("source_filename", "target ")):
            module.before.append(line)
        elif line.startswith(("attributes ", "!")):
            module.after.append(line)
        elif line.strip() and not line.startswith((";", "$")):
            raise Refused(f"the compiler wrote an item that no rule knows: {line.strip()[:80]}")
    return module


def split(text, mark=","):
    """The parts of a list between marks that stand outside all brackets and strings."""
    parts, depth, quoted, start = [], 0, False, 0
    for i, c in enumerate(text):
        if c == '"':
            quoted = not quoted
        elif quoted:
            continue
        elif c in "([{<":
            depth += 1
        elif c in ")]}>":
            depth -= 1
        elif c == mark and depth == 0:
            parts.append(text[start:i].strip())
            start = i + 1
    last = text[start:].strip()
    return parts + [last] if last or parts else []


def closing(text, at):
    """The place of the bracket that closes the one at this place."""
    depth, quoted = 0, False
    for i in range(at, len(text)):
        c = text[i]
        if c == '"':
            quoted = not quoted
        elif quoted:
            continue
        elif c in "([{<":
            depth += 1
        elif c in ")]}>":
            depth -= 1
            if depth == 0:
                return i
    raise Refused(f"a bracket isn't closed: {text.strip()[:80]}")


CALL = re.compile(r'^(\s*)(?:(%[-\w$.]+) = )?(?:tail |musttail |notail )?call (.*?)@("[^"]*"|[-\w$.]+)\(')


class Call:
    """A call of a function by its name: the register that it sets, what stands before the name, the
    arguments as texts, and what stands behind them."""

    def __init__(self, line):
        found = CALL.match(line)
        self.sets, self.before, self.name = found[2], found[3], found[4]
        opened = found.end() - 1
        closed = closing(line, opened)
        self.arguments = split(line[opened + 1 : closed])
        self.behind = line[closed + 1 :]

    def text(self):
        sets = f"{self.sets} = " if self.sets else ""
        return f"  {sets}call {self.before}@{self.name}({', '.join(self.arguments)}){self.behind}"

    def returns(self):
        """The type that it gives."""
        words = re.sub(r"\(.*\)\s*$", "", self.before).split()
        return type_in(self.before) if "{" in self.before or "[" in self.before else words[-1]


def type_in(text):
    """The type at the end of the words before a called name: attributes stand before it."""
    text = text.strip()
    for i, c in enumerate(text):
        if c in "{[":
            return text[i : closing(text, i) + 1]
    return text.split()[-1]


def is_call(line):
    return CALL.match(line) is not None


def value_of(argument):
    """The value of an argument: what stands behind its type and attributes."""
    words = argument.strip()
    found = re.search(r"(%[-\w$.]+|@[-\w$.]+|-?\d+|true|false|null|undef|poison|zeroinitializer)$", words)
    if found and not words.endswith(")"):
        return found[1]
    found = re.search(r"(getelementptr|inttoptr|ptrtoint|bitcast|add|sub)\b.*\)$", words)
    if found:
        return found[0]
    raise Refused(f"an argument of a form that no rule knows: {argument[:80]}")
