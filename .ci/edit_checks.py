"""Checks of a crate with some of its texts changed, over what earlier checks kept.

They run in a scratch copy of the repository, so that nothing in the checkout is changed. A crate is checked in a
room of its own with copies of its texts; the libraries below it stay as they are.
"""

import os
import shutil
import signal
import subprocess
import threading

from edit_output import STALE, Output
from toolchain import PARTS, Stopped, Tree


def link_or_copy(one, other):
    """Gives a file of kept work a second name: a check replaces such a file and changes none."""
    try:
        os.link(one, other)
    except OSError:
        shutil.copy2(one, other)


def copy_kept(one, other):
    """Gives what a check proved a second name, and copies what it may write into."""
    (link_or_copy if one.endswith(".oantt") else shutil.copy2)(one, other)


class Scratch(Tree):
    """A copy of the repository in which crates are checked, and the processor time that this took."""

    def __init__(self, root, folder, after_ci):
        self.root, self.after_ci = root, after_ci
        self.running, self.is_stopped, self.lock = set(), False, threading.Lock()
        self.built, self.building = set(), threading.Lock()
        os.makedirs(f"{folder}/crates")
        os.mkdir(f"{folder}/.git")
        for name in ("crates.txt", "HANDLES"):
            if os.path.isfile(f"{root}/{name}"):
                shutil.copyfile(f"{root}/{name}", f"{folder}/{name}")
        super().__init__(folder)
        for crate in self.crates:
            for part in (*PARTS, "edits"):
                if os.path.isdir(f"{root}/crates/{crate}/{part}"):
                    shutil.copytree(f"{root}/crates/{crate}/{part}", f"{self.at(crate)}/{part}")
            self.copy_library(crate)

    def copy_library(self, crate):
        if os.path.isdir(f"{self.root}/crates/{crate}/out/rlib"):
            to = f"{self.at(crate)}/out/rlib"
            shutil.copytree(f"{self.root}/crates/{crate}/out/rlib", to, copy_function=link_or_copy)

    def copy_kept_work(self, crate):
        kept = f"{self.root}/crates/{crate}/out/incremental"
        to = f"{self.at(crate)}/out/incremental"
        if os.path.isdir(kept):
            shutil.copytree(kept, to, copy_function=copy_kept)

    def forget(self, crate):
        """Removes the kept work and the room of a crate that is done with."""
        shutil.rmtree(f"{self.folder}/rooms/{crate}", ignore_errors=True)
        shutil.rmtree(f"{self.at(crate)}/out/incremental", ignore_errors=True)

    def is_of_ci(self, crate):
        """Returns whether a crate's library is the one that rt ci has just built of these files, after it had proved
        them: it marks none, and other commands mark theirs with a stamp or a key."""
        it = self.library(crate)
        has_mark = any(os.path.exists(f"{os.path.dirname(it)}/{mark}") for mark in ("stamp", "key"))
        return self.after_ci and os.path.isfile(f"{it}/format") and not has_mark

    def has_libraries_of_ci(self, crate):
        """Returns whether all libraries below a crate are those that rt ci has just built of these files."""
        return all(map(self.is_of_ci, self.below(crate)))

    def build_below(self, crate):
        """Has rt build the libraries below a crate, where they aren't built yet, and take what checks in other
        checkouts kept of the crate, where there is no such work here. Returns the processor seconds."""
        with self.building:
            if self.built.issuperset(self.below(crate)) and os.path.isdir(f"{self.at(crate)}/out/incremental"):
                return 0.0
            status, text, seconds = self.run(["rt", "check", "--jobs", "1", "--only", ""], self.at(crate))
            if status == 2:
                # (an older toolchain has no word for some functions alone)
                status, text, more = self.run(["rt", "check", "--jobs", "1"], self.at(crate))
                seconds += more
            if status:
                raise Stopped(f"it isn't proved as it stands: {Output(crate, status, text).first_error()}")
            self.built.update(self.below(crate))
            return seconds

    def check_words(self, crate, only):
        """Returns the command that checks a crate over the libraries that stand in the scratch copy."""
        words = [f"{self.kit}/bin/rattle", "check", *self.words(crate), "--jobs", "1"]
        words += ["--incremental", f"{self.at(crate)}/out/incremental"]
        return words + [word for it in only for word in ("--only", it)]

    def run(self, words, at):
        """Runs a command, and returns its status, its output and its processor seconds."""
        with open(f"{at}/output", "w+", errors="replace") as output:
            with self.lock:
                if self.is_stopped:
                    raise Stopped("the run was ended")
                how = {"cwd": at, "stdin": subprocess.DEVNULL, "stdout": output, "stderr": subprocess.STDOUT}
                process = subprocess.Popen(words, start_new_session=True, **how)
                self.running.add(process.pid)
            _, status, used = os.wait4(process.pid, 0)
            process.returncode = os.waitstatus_to_exitcode(status)
            with self.lock:
                self.running.discard(process.pid)
            output.seek(0)
            return process.returncode, output.read(), used.ru_utime + used.ru_stime

    def stop(self):
        """Ends the checks that are running, and has none begin."""
        with self.lock:
            self.is_stopped = True
            for it in self.running:
                os.killpg(it, signal.SIGTERM)


class Room:
    """A crate in a room of its own, in which its texts are changed and checked."""

    def __init__(self, scratch, crate):
        self.scratch, self.crate, self.seconds = scratch, crate, 0.0
        self.at = f"{scratch.folder}/rooms/{crate}"
        for part in PARTS:
            if os.path.isdir(f"{scratch.at(crate)}/{part}"):
                shutil.copytree(f"{scratch.at(crate)}/{part}", f"{self.at}/{part}")
        scratch.copy_kept_work(crate)

    def is_known(self):
        """Returns whether rt ci has just proved the crate as it stands, and built all libraries below it."""
        return self.scratch.is_of_ci(self.crate) and self.scratch.has_libraries_of_ci(self.crate)

    def prepare(self, only):
        """Has the libraries below the crate stand in the scratch copy, and says what a check finds of these
        functions, or with none of the whole crate, as they stand."""
        if not self.scratch.has_libraries_of_ci(self.crate):
            self.seconds += self.scratch.build_below(self.crate)
        status, text = self.checked(only)
        if status == 2 and only:
            # (an older toolchain has no word for some functions alone)
            status, text = self.checked(())
        if status:
            raise Stopped(f"it isn't proved as it stands: {Output(self.crate, status, text).first_error()}")
        return Output(self.crate, status, text)

    def checked(self, only):
        """Checks these functions, or with none the whole crate, as the room's texts stand."""
        for _ in range(2):
            status, text, seconds = self.scratch.run(self.scratch.check_words(self.crate, only), self.at)
            self.seconds += seconds
            # (killed, most likely for memory: once more)
            if status != -signal.SIGKILL:
                break
        return status, text

    def check(self, texts, only=()):
        """Checks the crate with these texts in place of its own, by their paths, and puts its own back."""
        for path, text in texts.items():
            with open(f"{self.at}/{path}", "w", encoding="utf-8") as it:
                it.write(text)
        try:
            status, text = self.checked(only)
            if status == 2 and only:
                # (an older toolchain has no word for some functions alone)
                status, text = self.checked(())
        finally:
            for path in texts:
                shutil.copyfile(f"{self.scratch.at(self.crate)}/{path}", f"{self.at}/{path}")
        if status not in (0, 1, 3) or STALE.search(text):
            raise Stopped(f"its check ended with status {status}: {Output(self.crate, status, text).first_error()}")
        return Output(self.crate, status, text)
