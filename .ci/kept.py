"""What stands of a tree's crates, and of which texts it was made.

A library stands in crates/NAME/out/rlib, and the program in crates/peregrine/out. Each has a mark beside it, a checksum
of all that it was made from. A library also has the stamp by which `rt check` takes it as built.
"""

import contextlib
import functools
import hashlib
import importlib.machinery
import importlib.util
import os
import re

from toolchain import sum_of_files, text_of

PROGRAM = "peregrine"


def program_of(tree):
    """Returns where the proved program stands."""
    return f"{tree.at(PROGRAM)}/out/{PROGRAM}"


def identity_of(kit):
    """Returns what tells one toolchain from another."""
    prover = os.stat(f"{kit}/bin/rattle")
    return [text_of(f"{kit}/{it}") for it in ("KIT-ID", "WHAT")] + [prover.st_size, prover.st_mtime_ns]


def mark_of_program(key, program):
    """Returns the mark of a program that was made from what this key tells: another one may be put in its place."""
    with open(program, "rb") as it:
        return f"{key} {hashlib.sha256(it.read()).hexdigest()}"


def write(path, text):
    """Makes this the text of a file."""
    with open(path, "w", encoding="utf-8") as it:
        it.write(text)


def stamps_of_rt(tree):
    """Returns, by crate, the stamps that rt gives to the libraries of the texts that stand. The toolchain's own rt works
    them out; where it does so by other means there are none, and `rt check` builds libraries of its own."""
    try:
        loader = importlib.machinery.SourceFileLoader("rtlib", f"{tree.kit}/bin/rtlib.py")
        rtlib = importlib.util.module_from_spec(importlib.util.spec_from_loader("rtlib", loader))
        loader.exec_module(rtlib)
        # it may work out a library's anew on each path that leads to it
        rtlib.Crate.stamp = functools.lru_cache(maxsize=None)(rtlib.Crate.stamp)
        with open(os.devnull, "w", encoding="utf-8") as nowhere, contextlib.redirect_stderr(nowhere):
            program = rtlib.Crate(tree.at(PROGRAM), tree.folder, {})
            return {it.name: it.stamp() for it in program.below()}
    except (Exception, SystemExit):
        return {}


class Kept:
    """What stands of these crates, beside the texts that stood when the run began."""

    def __init__(self, tree, crates):
        self.tree, self.identity, self.stamps = tree, identity_of(tree.kit), stamps_of_rt(tree)
        self.keys, self.formats = {}, {}
        for crate in crates:
            self.key(crate)

    def key(self, crate):
        """Returns a checksum of all that a crate is made from: the toolchain, its texts, and those of the crates below."""
        if crate not in self.keys:
            below = [self.key(it) for it in self.tree.named(crate)]
            own = (self.identity, self.tree.crates[crate], sum_of_files(self.tree.at(crate)))
            self.keys[crate] = hashlib.sha256(repr((own, below)).encode()).hexdigest()
        return self.keys[crate]

    def is_built(self, crate):
        """Returns whether what stands of a crate was made from the texts that stand, over the libraries that stand."""
        if crate == PROGRAM:
            program = program_of(self.tree)
            return os.path.isfile(program) and text_of(f"{program}.key") == mark_of_program(self.key(crate), program)
        rlib = f"{self.tree.at(crate)}/out/rlib"
        stamp = self.stamps.get(crate)
        is_of_rt = stamp is not None and text_of(f"{rlib}/stamp") == stamp
        return (is_of_rt or text_of(f"{rlib}/key") == self.key(crate)) and self.fits(crate)

    def fits(self, crate):
        """Returns whether a library was built over the libraries that stand: one of statements names the checksum of each
        one's file `format`."""
        text, _ = self.format(crate)
        over = [it for it in re.findall(r"^over (\w+) (\w+)$", text, re.M) if it[0] in self.tree.crates]
        return bool(text) and all(self.format(name)[1] == made for name, made in over)

    def format(self, crate):
        """Returns the text of the file that tells what a library is, as it stood when it was first read, and its sum."""
        if crate not in self.formats:
            text = text_of(f"{self.tree.library(crate)}/format")
            self.formats[crate] = text, hashlib.sha256(text.encode()).hexdigest()
        return self.formats[crate]

    def is_unchanged(self, crate):
        """Returns whether the texts of a crate are those that stood when the run began."""
        key = self.keys.pop(crate)
        return self.key(crate) == key

    def note(self, crate):
        """Marks what was just built of a crate as made from the texts that stood when the run began."""
        if crate == PROGRAM:
            program = program_of(self.tree)
            write(f"{program}.key", mark_of_program(self.key(crate), program))
            return
        rlib = f"{self.tree.at(crate)}/out/rlib"
        write(f"{rlib}/key", self.key(crate))
        if crate in self.stamps:
            write(f"{rlib}/stamp", self.stamps[crate])
