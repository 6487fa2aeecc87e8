"""The texts that wrong bodies change: what an edit file says, and which function a line of a source file belongs to.

The layout is that of `rt fmt`, which the gate asks of every file: a function ends at the first line that is its
closing bracket alone, as far from the margin as its first line.
"""

import dataclasses
import os
import re

from toolchain import PARTS

FUNCTION = re.compile(r'( *)(?:pub(?:\([^)]*\))? )?(?:(?:const|unsafe|ghost|extern "C") )*fn (\w+)')
CONTEXT = re.compile(r"( *)(?:pub(?:\([^)]*\))? )?(?:unsafe )?(impl|trait|mod)\b(.*)")
TYPE = re.compile(r"^ *(?:pub(?:\([^)]*\))? )?(?:struct|enum|union|trait|type) (\w+)", re.M)


@dataclasses.dataclass
class Function:
    """A function of a source file: its lines, from 0, where its body begins, and the name that a check prints."""

    first: int
    body: int
    last: int
    name: str


@dataclasses.dataclass
class Edit:
    """One wrong body: the file that it changes, that file's text with the change, and the functions that it changes."""

    name: str
    path: str
    text: str
    functions: list
    # the first and the last line of each of these functions, from 0
    spans: list
    # whether it changes a type, a constant, a contract or a definition, and no body alone
    is_of_no_body: bool


class BadEdit(Exception):
    """Why an edit cannot be applied."""


def pairs_of(file):
    """Returns the path that an edit file names, and its pairs of an old and a new text, each one line."""
    with open(file, encoding="utf-8") as it:
        lines = it.read().split("\n")
    paths = [it[len("file: ") :].strip() for it in lines if it.startswith("file: ")]
    if len(paths) != 1:
        raise BadEdit("it must name one file, by a line 'file: PATH'")
    if os.path.normpath(paths[0]) != paths[0] or not paths[0].startswith(tuple(f"{it}/" for it in PARTS)):
        raise BadEdit("its file is none below src/, specs/ or proofs/")
    pairs, old = [], None
    for line in lines:
        if line.startswith("old: "):
            old = line[len("old: ") :]
        elif line.startswith("new:"):
            if not old:
                raise BadEdit("a 'new:' line stands before any 'old:' line")
            pairs.append((old, re.sub(r"\A ", "", line[len("new:") :])))
            old = None
    if not pairs:
        raise BadEdit("it has no 'old:' and 'new:' pair")
    return paths[0], pairs


def replaced(text, path, pairs):
    """Returns the text after each pair in turn, and the lines, from 0, that are changed. Lines keep their numbers."""
    lines = []
    for old, new in pairs:
        if text.count(old) != 1:
            raise BadEdit(f"an 'old:' text is in {path} {text.count(old)} times, and not once")
        lines.append(text[: text.index(old)].count("\n"))
        text = text.replace(old, new)
    return text, sorted(lines)


def read_edit(file, folder, types):
    """Reads an edit of the crate in the folder, whose types stand in the modules that `types` names."""
    path, pairs = pairs_of(file)
    if not os.path.isfile(f"{folder}/{path}"):
        raise BadEdit(f"there is no file {path}")
    with open(f"{folder}/{path}", encoding="utf-8") as it:
        was = it.read()
    text, lines = replaced(was, path, pairs)
    if text == was:
        raise BadEdit("it changes nothing")
    functions = functions_of(path, was, types) if path.endswith(".rt") else []
    owners = [owner_of(functions, it) for it in lines]
    is_of_no_body = any(it is None or line < it.body for it, line in zip(owners, lines))
    owners = {it.name: it for it in owners if it}
    spans = [(it.first, it.last) for it in owners.values()]
    return Edit(os.path.basename(file), path, text, sorted(owners), spans, is_of_no_body)


def owner_of(functions, line):
    """Returns the innermost function with this line, or None."""
    found = [it for it in functions if it.first <= line <= it.last]
    return max(found, key=lambda it: it.first, default=None)


def module_of(path):
    """Returns the path of the module that a file below src/ is, as a list of names."""
    names = path[len("src/") : -len(".rt")].split("/")
    return [] if names in (["lib"], ["main"]) else names[:-1] if names[-1] == "mod" else names


def types_of(folder):
    """Returns, for each name of a type of the crate, the modules that declare one of that name."""
    found = {}
    for at, _, files in os.walk(f"{folder}/src"):
        for name in sorted(it for it in files if it.endswith(".rt")):
            with open(f"{at}/{name}", encoding="utf-8") as it:
                text = it.read()
            module = module_of(os.path.relpath(f"{at}/{name}", folder))
            for declared in TYPE.findall(text):
                found.setdefault(declared, []).append(module)
    return found


def functions_of(path, text, types):
    """Returns the functions of a source file."""
    lines, found, outer = text.split("\n"), [], []
    for number, line in enumerate(lines):
        while outer and line == " " * outer[-1][0] + "}":
            outer.pop()
        context, function = CONTEXT.match(line), FUNCTION.match(line)
        if context and line.endswith("{"):
            outer.append((len(context[1]), context[2], context[3][:-1].strip()))
        elif function:
            body, last = extent(lines, number, len(function[1]))
            names = [it[2] for it in outer if it[1] == "mod"]
            impl = next((it for it in reversed(outer) if it[1] != "mod"), None)
            name = printed(module_of(path) + names, impl, function[2], types)
            found.append(Function(number, body, last, name))
    return found


def extent(lines, first, indent):
    """Returns the first line of a function's body, and its last line."""
    if lines[first].endswith(("}", ";")):
        return first, first
    body = None
    for number in range(first, len(lines)):
        line = lines[number]
        if body is None and (line == " " * indent + "{" or is_head_with_bracket(line, indent, number == first)):
            body = number + 1
        elif body is None and line.endswith(";") and is_closed("\n".join(lines[first : number + 1])):
            return number + 1, number
        elif body is not None and line == " " * indent + "}":
            return body, number
    return body or first, len(lines) - 1


def is_closed(text):
    """Returns whether as many brackets of clauses end in the text as begin there."""
    return text.count("{") == text.count("}")


def is_head_with_bracket(line, indent, is_first):
    """Returns whether a head without clauses ends here and the body begins."""
    return line.endswith(" {") and (is_first or line.startswith(" " * indent + ")"))


def without_generics(text):
    """Returns the text without what stands in angle brackets."""
    kept, depth = [], 0
    for character in text.replace("->", ""):
        depth += (character == "<") - (character == ">" and depth > 0)
        if depth == 0 and character != ">":
            kept.append(character)
    return "".join(kept)


def printed(module, impl, function, types):
    """Returns the path below the crate by which a check names a function: that of a type's own method begins with
    the module of the type, and that of a trait's with the module of the impl, the two names run together."""
    if impl is None:
        return "::".join([*module, function])
    head = without_generics(impl[2]).split(" where ")[0]
    last = lambda it: re.findall(r"\w+", it.split("::")[-1])[-1]
    if impl[1] == "trait":
        return "::".join([*module, last(head.split(":")[0]), function])
    of, is_of_trait, trait = (it.strip() for it in reversed(head.partition(" for ")))
    if is_of_trait:
        given = re.search(rf"\b{last(trait)}<([^>]*)> for ", impl[2])
        words = [last(it) for it in given[1].split(",")] if given else []
        return "::".join([*module, "".join([last(of), last(trait), *words]), function])
    at = types.get(last(head), [module])
    return "::".join([*(module if module in at else at[0]), last(head), function])
