"""The toolchain, and the crates of a checkout as its prover is told of them."""

import hashlib
import os
import re
import shutil
import sys

PARTS = ("src", "specs", "proofs")


class Stopped(Exception):
    """Why there is no answer."""


def say(text):
    """Says this to the person who waits."""
    print(f"peregrine: {text}", file=sys.stderr, flush=True)


def text_of(path):
    """Returns the text of a file, or nothing where there is none."""
    try:
        with open(path, encoding="utf-8") as it:
            return it.read()
    except FileNotFoundError:
        return ""


def toolchain():
    """Returns the folder of the toolchain that the command rt belongs to."""
    command = shutil.which("rt")
    folder = os.path.dirname(os.path.dirname(os.path.realpath(command))) if command else ""
    if not os.path.isfile(f"{folder}/bin/rattle"):
        raise Stopped("the toolchain's command rt wasn't found")
    return folder


def crates_of(root):
    """Returns the crates of crates.txt, lowest first as there, with the libraries that each names."""
    found = {}
    with open(f"{root}/crates.txt", encoding="utf-8") as it:
        for line in it:
            head, is_crate, below = line.partition("#")[0].partition(":")
            if is_crate and head.split():
                found[head.split()[0]] = below.replace(",", " ").split()
    return found


def sum_of_files(folder, parts=PARTS):
    """Returns a checksum of the files in these parts of a crate's folder."""
    made = hashlib.sha256()
    for part in parts:
        for at, folders, files in os.walk(f"{folder}/{part}"):
            folders.sort()
            for name in sorted(files):
                with open(f"{at}/{name}", "rb") as it:
                    made.update(repr((os.path.relpath(f"{at}/{name}", folder), it.read())).encode())
    return made.hexdigest()


class Tree:
    """A folder with crates.txt and crates/, in whose crates/NAME/out/rlib the libraries stand."""

    def __init__(self, folder):
        self.folder, self.kit, self.crates = folder, toolchain(), crates_of(folder)
        self.known = {}

    def at(self, crate):
        """Returns a crate's folder."""
        return f"{self.folder}/crates/{crate}"

    def named(self, crate):
        """Returns the repository's libraries that a crate names."""
        return [it for it in self.crates[crate] if it in self.crates]

    def below(self, crate):
        """Returns the repository's libraries below a crate, each after those that it stands on."""
        if crate not in self.known:
            found = {}
            for name in self.named(crate):
                found.update(dict.fromkeys([*self.below(name), name]))
            self.known[crate] = [*found]
        return self.known[crate]

    def library(self, crate):
        """Returns where a crate's library stands."""
        return f"{self.at(crate)}/out/rlib/{crate}.rlib"

    def root_file(self, crate):
        """Returns the file with which a crate's code begins."""
        return "src/main.rt" if os.path.isfile(f"{self.at(crate)}/src/main.rt") else "src/lib.rt"

    def words(self, crate):
        """Returns the words by which the prover is told of a crate, its libraries and the logic."""
        words = ["--crate-name", crate, self.root_file(crate)]
        for name in ["std", *[it for it in self.crates[crate] if it not in self.crates]]:
            words += ["--extern", f"{name}={self.kit}/rlibs/{name}.rlib"]
        words += ["-L", f"dependency={self.kit}/rlibs"]
        for name in self.named(crate):
            words += ["--extern", f"{name}={self.library(name)}"]
        for name in self.below(crate):
            words += ["-L", f"dependency={os.path.dirname(self.library(name))}"]
        words += ["--antt-project", f"{self.kit}/rattle/logic/antt-project.json"]
        return words + ["--logic-built", f"{self.kit}/logic_built", "--links", f"{crate}="]


def number_in(path, pattern):
    """Returns the number that a file of the system has there, or None."""
    try:
        with open(path, encoding="ascii") as it:
            return int(re.search(pattern, it.read(), re.M)[1])
    except (OSError, TypeError, ValueError):
        return None


def processors():
    """Returns how many processors there are to use: those that a process may run on, or fewer by the group's quota."""
    found = len(os.sched_getaffinity(0))
    quota, period = (number_in("/sys/fs/cgroup/cpu.max", it) for it in (r"^(\d+)", r" (\d+)"))
    return max(1, min(found, quota // period)) if quota and period else found


def free_memory():
    """Returns the bytes of memory that are free, under the group's limit too."""
    free = 1024 * number_in("/proc/meminfo", r"^MemAvailable:\s+(\d+)")
    limit = number_in("/sys/fs/cgroup/memory.max", r"^(\d+)")
    held = number_in("/sys/fs/cgroup/memory.stat", r"^anon (\d+)")
    return min(free, limit - held) if limit and held is not None else free
