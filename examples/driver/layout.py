"""Sizes and alignments of types, as the System V ABI for x86-64 and the accepted language have them."""

import re

from module import Refused, split

WIDTHS = {"i1": 1, "i8": 1, "i16": 2, "i32": 4, "i64": 8, "ptr": 8}


def fields(text):
    """The types of a structure's fields, and whether it is packed."""
    packed = text.startswith("<{")
    inner = text[2:-2] if packed else text[1:-1]
    return split(inner.strip()), packed


def layout(module, text):
    """The size and the alignment of a type."""
    text = text.strip()
    if text in WIDTHS:
        return WIDTHS[text], WIDTHS[text]
    if text.startswith("%"):
        return layout(module, module.type_of(text))
    array = re.match(r"\[(\d+) x (.*)\]$", text)
    if array:
        size, alignment = layout(module, array[2])
        return int(array[1]) * size, alignment
    if text.startswith(("{", "<{")):
        return structure(module, text)[:2]
    raise Refused(f"a value of type {text} isn't accepted (floating point and vectors are left out)")


def structure(module, text):
    """The size, the alignment and the places of the fields of a structure."""
    types, packed = fields(text)
    at, most, places = 0, 1, []
    for each in types:
        size, alignment = layout(module, each)
        alignment = 1 if packed else alignment
        at = (at + alignment - 1) // alignment * alignment
        places.append(at)
        at += size
        most = max(most, alignment)
    return (at + most - 1) // most * most, most, places


def as_plain(module, text):
    """A packed structure's type as a plain one, where no padding would come between its fields or behind."""
    plain = "{ " + ", ".join(fields(text)[0]) + " }" if fields(text)[0] else "{}"
    if structure(module, plain)[0] != structure(module, text)[0] or structure(module, plain)[2] != structure(module, text)[2]:
        raise Refused("a packed structure has a field that isn't at a multiple of its size: take __attribute__((packed)) away")
    return plain


def is_aggregate(text):
    return text.startswith(("{", "[", "<{")) or text.startswith("%")
