"""Trials of a crate's wrong bodies: those of different functions together, in one check, and the others alone."""

import dataclasses
import os
import re
import shutil

from edit_checks import Room
from edit_output import GOAL, LIMIT, LOST, PROVED
from edit_texts import BadEdit, read_edit, types_of
from toolchain import Stopped


@dataclasses.dataclass
class Result:
    """What the trials of a crate's wrong bodies came to."""

    crate: str
    refused: list = dataclasses.field(default_factory=list)
    # names of edits, each with the reason why it isn't refused
    failed: dict = dataclasses.field(default_factory=dict)
    checks: int = 0
    alone: int = 0
    # processor seconds: of the libraries below and the crate as it stands, and of all checks with edits
    base: float = 0.0
    seconds: float = 0.0


def read_edits(folder, result):
    """Reads the edits of the crate in the folder, and notes those that cannot be applied."""
    found, types = [], types_of(folder)
    for name in sorted(os.listdir(f"{folder}/edits")):
        if name.endswith(".md"):
            continue
        try:
            if not re.fullmatch(r"[A-Za-z0-9_-][A-Za-z0-9_.-]*\.edit", name):
                raise BadEdit("a file of edits/ is named with letters, digits, _, - and ., and ends in .edit")
            found.append(read_edit(f"{folder}/edits/{name}", folder, types))
        except (BadEdit, OSError, UnicodeDecodeError) as error:
            result.failed[name] = f"it can't be applied: {error}"
    return found


def groups_of(edits):
    """Returns groups in which no two edits change one function."""
    groups = []
    for edit in edits:
        free = (it for it in groups if not any(set(edit.functions) & set(other.functions) for other in it))
        group = next(free, None)
        if group is None:
            groups.append([edit])
        else:
            group.append(edit)
    return groups


def merged(folder, edits):
    """Returns the texts with all these edits, by their paths. Each changes lines of its own, one for one."""
    texts = {}
    for path in sorted({it.path for it in edits}):
        with open(f"{folder}/{path}", encoding="utf-8") as it:
            was = it.read().split("\n")
        now = list(was)
        for edit in edits:
            if edit.path == path:
                for number, line in enumerate(edit.text.split("\n")):
                    now[number] = line if line != was[number] else now[number]
        texts[path] = "\n".join(now)
    return texts


class Trials:
    """The trials of one crate."""

    def __init__(self, scratch, crate):
        self.scratch, self.folder, self.result = scratch, scratch.at(crate), Result(crate)

    def run(self):
        """Tries all wrong bodies of the crate."""
        edits = read_edits(self.folder, self.result)
        try:
            if edits:
                self.room = Room(self.scratch, self.result.crate)
                self.all(edits)
        except (Stopped, OSError, shutil.Error) as why:
            done = {*self.result.refused, *self.result.failed}
            self.result.failed.update({it.name: f"it wasn't tried: {why}" for it in edits if it.name not in done})
        return self.result

    def all(self, edits):
        with_body = [it for it in edits if not it.is_of_no_body]
        # (a check of the whole crate is of use to those that are tried alone, for what it keeps)
        if len(with_body) == len(edits) and self.room.is_known():
            together = with_body
        else:
            names = sorted({name for it in with_body for name in it.functions})
            base = self.room.prepare(names if len(with_body) == len(edits) else [])
            self.result.base = self.room.seconds
            together = [it for it in with_body if all(base.of(name) == PROVED for name in it.functions)]
        for group in groups_of(together):
            self.try_group(group)
        done = {*self.result.refused, *self.result.failed}
        for edit in [it for it in edits if it.name not in done]:
            self.try_alone(edit)

    def check(self, edits, only):
        self.result.checks += 1
        output = self.room.check(merged(self.folder, edits), only)
        self.result.seconds = self.room.seconds - self.result.base
        return output

    def try_group(self, edits):
        """Tries edits of different functions in one check, and notes each of which a goal of its own function fails.
        The others are left to be tried alone."""
        output = self.check(edits, sorted({name for it in edits for name in it.functions}))
        if output.is_no_program():
            self.split(edits, output)
            return
        for edit in edits:
            if any(output.of(name) == GOAL for name in edit.functions):
                self.result.refused.append(edit.name)

    def split(self, edits, output):
        """Tries the edits of a group with a text that is no program again, apart those in whose functions the errors
        are."""
        if len(edits) == 1:
            self.result.failed[edits[0].name] = f"it doesn't compile: {output.first_error()}"
            return
        places = output.broken()
        is_broken = lambda edit: any(
            path == edit.path and first <= line <= last for path, line in places for first, last in edit.spans
        )
        broken = [it for it in edits if is_broken(it)]
        if not broken or len(broken) == len(edits):
            broken = edits[: len(edits) // 2]
        for part in (broken, [it for it in edits if it not in broken]):
            self.try_group(part)

    def try_alone(self, edit):
        """Tries an edit alone, where any goal of the crate that fails refuses it."""
        self.result.alone += 1
        output = self.check([edit], ())
        if output.is_no_program():
            self.result.failed[edit.name] = f"it doesn't compile: {output.first_error()}"
        elif output.has_failed_goal():
            self.result.refused.append(edit.name)
        else:
            self.result.failed[edit.name] = why_not(output)


def why_not(output):
    """Returns why an edit whose check named no goal isn't refused."""
    if output.status == 0:
        return "it isn't refused: the crate is still proved with it"
    if LIMIT in output.said.values() or output.status == 3:
        return "it isn't refused: the prover met a limit of its own, and gave no verdict"
    if LOST in output.said.values():
        return "it shows nothing: only a proof that names what it took away fails"
    return f"it isn't refused: no goal is named: {output.first_error()}"
