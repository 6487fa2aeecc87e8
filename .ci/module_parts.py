"""Cuts the text of an LLVM module into parts that are compiled side by side.

Functions that `main` doesn't reach are left out. Each other one stands in one part, and is declared in those that call
it; a short one stands in each part that calls it, so that it can still be inlined there.
"""

import re

FUNCTION = re.compile(r"^define .*?^}\n", re.M | re.S)
NAME = re.compile(r'@("[^"]*"|[\w.$-]+)')
# functions of fewer bytes than this are short
SHORT = 2_000


class Module:
    """The functions of a module by their names, with those that each calls, and the rest of its text."""

    def __init__(self, text):
        self.rest = FUNCTION.sub("", text)
        self.bodies = {NAME.search(it)[1]: it for it in FUNCTION.findall(text)}
        # of each function that main reaches, those that it names
        self.calls, left = {}, ["main"]
        while left:
            name = left.pop()
            if name not in self.calls:
                named = dict.fromkeys(NAME.findall(self.bodies[name]))
                self.calls[name] = [it for it in named if it in self.bodies and it != name]
                left += self.calls[name]

    def is_short(self, name):
        """Returns whether a function stands in each part that calls it."""
        return name != "main" and len(self.bodies[name]) < SHORT

    def short_below(self, names):
        """Returns the short functions that these call, and those that those call in turn."""
        found, left = set(), [it for name in names for it in self.calls[name]]
        while left:
            name = left.pop()
            if self.is_short(name) and name not in found:
                found.add(name)
                left += self.calls[name]
        return found

    def part(self, own):
        """Returns the text of the part that has these functions."""
        copies = self.short_below(own)
        called = {it for name in {*own, *copies} for it in self.calls[name]}
        text = [self.rest]
        text += [declared(self.bodies[it]) for it in sorted(called - copies - {*own})]
        text += [self.bodies[it] for it in self.bodies if it in copies]
        return "".join(text + [shared(self.bodies[it]) for it in own])

    def parts(self, count):
        """Returns the texts of so many parts, of about one size."""
        long = [it for it in self.bodies if it in self.calls and not self.is_short(it)]
        whole = sum(len(self.bodies[it]) for it in long)
        owned, before = [[] for _ in range(count)], 0
        for name in long:
            owned[before * count // whole].append(name)
            before += len(self.bodies[name])
        return [self.part(it) for it in owned if it]


def shared(body):
    """Returns a function that other parts of the program may call."""
    return body.replace("define internal ", "define hidden ", 1)


def declared(body):
    """Returns the declaration of such a function."""
    head = body.partition("\n")[0].removesuffix(" {")
    return re.sub(r"^define (internal )?", "declare hidden ", head) + "\n"
