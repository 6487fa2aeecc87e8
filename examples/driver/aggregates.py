"""Values of aggregate types taken apart: each gets a place on the stack.

`%r = load { i64, i64 }, ptr %p` copies to the place of `%r`; `extractvalue` loads a field of it; a function that
returns such a value writes it to a place that it is handed. A `byval` argument is copied by the caller, and `sret`
is a pointer like another.
"""

import re

from intrinsics import plain
from layout import layout, structure, fields
from module import Call, Refused, closing, is_call, refusals_at, split

AGGREGATE = r"(?:\{|\[|<\{|%(?!v\.)[-\w$.]+)"


def type_ahead(text):
    """The type at the front of a text, and the rest."""
    text = text.strip()
    if text[0] in "{[<":
        end = closing(text, 0) + 1
        return text[:end], text[end:].strip()
    words = text.split(None, 1)
    return words[0].rstrip(","), (words[1] if len(words) > 1 else "")


def is_aggregate_type(module, text):
    return text.startswith(("{", "[", "<{")) or text.startswith("%") and any(line.startswith(text + " = type") for line in module.types)


class Apart:
    """Takes the aggregate values of one function apart."""

    def __init__(self, module, function, intrinsics):
        self.module, self.function, self.intrinsics = module, function, intrinsics
        self.places = []
        self.count = 0

    def fresh(self, what):
        self.count += 1
        return f"%pg.{what}.{self.count}"

    def place(self, register, type_text):
        """A place on the stack for a register's value."""
        name = f"%pg.of.{register[1:]}"
        self.places.append(f"  {name} = alloca {type_text}, align 8")
        return name

    def copy(self, to, source, type_text):
        size = layout(self.module, type_text)[0]
        name = "pg.copy.words" if size % 8 == 0 and layout(self.module, type_text)[1] == 8 else "pg.copy"
        self.intrinsics.memory_helper(name)
        return f"  call void @{name}(ptr {to}, ptr {source}, i64 {size})"

    def field(self, place, type_text, index):
        """The lines for the address of a field, the address, and the field's type."""
        body = self.module.type_of(type_text) if type_text.startswith("%") else type_text
        array = re.match(r"\[(\d+) x (.*)\]$", body)
        inner = array[2] if array else fields(body)[0][index]
        at = layout(self.module, inner)[0] * index if array else structure(self.module, body)[2][index]
        name = self.fresh("field")
        return f"  {name} = getelementptr i8, ptr {place}, i64 {at}", name, inner

    def written(self, place, type_text, value):
        """The lines that put an aggregate value into a place."""
        if value.startswith("%"):
            return [self.copy(place, f"%pg.of.{value[1:]}", type_text)]
        if value in ("zeroinitializer", "undef", "poison"):
            self.intrinsics.memory_helper("pg.set")
            return [f"  call void @pg.set(ptr {place}, i8 0, i64 {layout(self.module, type_text)[0]})"]
        raise Refused("a constant structure as a value: store its fields one by one")

    def extract(self, sets, rest):
        type_text, rest = type_ahead(rest)
        value, index = [it.strip() for it in split(rest)][:2]
        line, at, inner = self.field(f"%pg.of.{value[1:]}", type_text, int(index))
        if is_aggregate_type(self.module, inner):
            raise Refused("a structure within a structure that is returned by value: hand a pointer in")
        return [line, f"  {sets} = load {inner}, ptr {at}"]

    def insert(self, sets, rest):
        type_text, rest = type_ahead(rest)
        parts = split(rest)
        inner_type, inner_value = type_ahead(parts[1])
        place = self.place(sets, type_text)
        line, at, _ = self.field(place, type_text, int(parts[2]))
        return [*self.written(place, type_text, parts[0]), line, f"  store {inner_type} {inner_value}, ptr {at}"]

    def load(self, sets, rest):
        type_text, rest = type_ahead(rest)
        address = split(rest.lstrip(", "))[0]
        return [self.copy(self.place(sets, type_text), address.split(" ", 1)[1], type_text)]

    def store(self, rest):
        type_text, rest = type_ahead(rest)
        value, address = split(rest)[:2]
        return self.written(address.split(" ", 1)[1], type_text, value)

    def returned(self, rest):
        type_text, rest = type_ahead(rest)
        value, *behind = split(rest)
        return [*self.written("%pg.result", type_text, value), ", ".join(["  ret void", *behind])]

    def called(self, line):
        """A call that gives an aggregate, or takes one by value."""
        call, lines = Call(line), []
        result = call.returns()
        if is_aggregate_type(self.module, result):
            place = self.place(call.sets or self.fresh("unread"), result)
            call.arguments.insert(0, f"ptr {place}")
            call.sets, call.before = None, "void "
        for i, argument in enumerate(call.arguments):
            at = argument.find("byval(")
            if at >= 0:
                type_text = argument[at + 6 : closing(argument, at + 5)]
                copy = self.place(self.fresh("byval"), type_text)
                lines.append(self.copy(copy, argument.rsplit(" ", 1)[1], type_text))
                call.arguments[i] = f"ptr {copy}"
            at = argument.find("sret(")
            if at >= 0:
                call.arguments[i] = f"ptr {argument.rsplit(' ', 1)[1]}"
        return [*lines, call.text()]

    def rewritten(self, line):
        words = line.strip()
        found = re.match(r"(%[-\w$.]+) = (extractvalue|insertvalue|load|freeze|phi|select)\s+(?:volatile )?(.*)", words)
        if found and found[2] in ("extractvalue", "insertvalue"):
            return (self.extract if found[2] == "extractvalue" else self.insert)(found[1], found[3])
        if is_call(line):
            call = Call(line)
            if is_aggregate_type(self.module, call.returns()) or any("byval(" in it or "sret(" in it for it in call.arguments):
                return self.called(line)
            return [line]
        if found and found[2] == "load" and is_aggregate_type(self.module, type_ahead(found[3])[0]):
            return self.load(found[1], found[3])
        if found and found[2] in ("phi", "select") and is_aggregate_type(self.module, type_ahead(found[3])[0]):
            raise Refused("a choice between two structures as values: take an if")
        found = re.match(r"(store|ret)\s+(?:volatile )?(.*)", words)
        if found and is_aggregate_type(self.module, type_ahead(found[2])[0]):
            return self.store(found[2]) if found[1] == "store" else self.returned(found[2])
        return [line]

    def head(self):
        """The head with a pointer to the result's place, and without `byval` and `sret`."""
        head = self.function.head
        at = head.index("@" + self.function.name)
        opened = head.index("(", at)
        closed = closing(head, opened)
        parameters = [without_by(it) for it in split(head[opened + 1 : closed])]
        before = head[:at].strip()
        result = result_type(before)
        if is_aggregate_type(self.module, result):
            before = before[: before.index(result)] + "void"
            parameters.insert(0, "ptr %pg.result")
        self.function.head = f"{before} @{self.function.name}({', '.join(parameters)}){head[closed + 1:]}"

    def finish(self):
        """Behind the rewriting of the lines: the places for their values stand first in the function."""
        with refusals_at(self.function.head):
            self.head()
        lines = self.function.lines
        first = next(i for i, line in enumerate(lines) if line.endswith(":")) + 1
        self.function.lines = lines[:first] + self.places + lines[first:]


def result_type(before):
    """The result's type in a head: what stands last before the name."""
    words = before.removeprefix("define").strip()
    for i, c in enumerate(words):
        if c in "{[":
            return words[i : closing(words, i) + 1]
    return words.split()[-1]


def without_by(parameter):
    for word in ("byval(", "sret("):
        at = parameter.find(word)
        if at >= 0:
            end = closing(parameter, at + len(word) - 1) + 1
            parameter = parameter[:at] + parameter[end:]
    return re.sub(r"\s+", " ", parameter)


def rewrite(module, intrinsics):
    apart = {id(function): Apart(module, function, intrinsics) for function in module.functions}
    module.change_lines(lambda function, line: apart[id(function)].rewritten(line))
    for each in apart.values():
        each.finish()
