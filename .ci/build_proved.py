"""Proves the crates that the program is made of, each once and over the libraries that stand, and links the program.

What is proved stays in crates/NAME/out, as `kept.py` says. A later run proves only what isn't there yet or what changed.
Libraries are built with their statements alone: they are small, and so is what a check over them takes of memory.
"""

import contextlib
import dataclasses
import fcntl
import os
import shutil
import signal
import subprocess
import time

from kept import PROGRAM, Kept, program_of
from toolchain import Stopped, free_memory, processors, say, text_of

# how often the script says what it is at, in seconds
TELL_EACH = 30
# no check gains from more processors than these
MOST_JOBS = 4


@dataclasses.dataclass
class Size:
    """How many lines of code, and of definitions and proofs, a crate has."""

    code: int
    proofs: int

    def seconds(self):
        """Returns about how many seconds one processor proves it, as seen beside other work. Laws, which have no code,
        cost next to nothing."""
        return 10 + 0.12 * self.code


@dataclasses.dataclass
class Run:
    """A crate that is being proved."""

    crate: str
    jobs: int
    memory: int
    process: subprocess.Popen


def lines_in(folder, part, ending):
    """Returns how many lines the files of this kind have in a part of a crate."""
    count = 0
    for at, _, names in os.walk(f"{folder}/{part}"):
        for name in names:
            if name.endswith(ending):
                with open(f"{at}/{name}", "rb") as it:
                    count += it.read().count(b"\n")
    return count


def size_of(folder):
    """Returns the size of the crate in this folder."""
    proofs = lines_in(folder, "specs", ".antt") + lines_in(folder, "proofs", ".antt")
    return Size(lines_in(folder, "src", ".rt"), proofs)


class Build:
    """The crates in their order, those that are left to be proved, and those that are at work."""

    def __init__(self, tree):
        self.tree, self.crates = tree, [*tree.below(PROGRAM), PROGRAM]
        self.kept = Kept(tree, self.crates)
        self.sizes = {it: size_of(tree.at(it)) for it in self.crates}
        self.left = set()
        for crate in self.crates:
            if self.left.intersection(tree.named(crate)) or not self.kept.is_built(crate):
                self.left.add(crate)
        self.ahead = self.longest_paths()
        self.processors, self.memory = processors(), free_memory()
        # those at work, and those that were killed, most likely for memory, and are to run alone
        self.running, self.alone = [], set()

    def seconds(self, crate):
        """Returns about how many processor seconds a crate takes, if it is left."""
        return self.sizes[crate].seconds() if crate in self.left else 0

    def longest_paths(self):
        """Returns, by crate, about how many seconds lie between its start and the end of the program, on the longest
        path that leads there."""
        ahead = {}
        for crate in reversed(self.crates):
            above = [ahead[it] for it in ahead if crate in self.tree.named(it)]
            ahead[crate] = self.seconds(crate) + max(above, default=0)
        return ahead

    def minutes(self):
        """Returns about how many minutes are left on idle processors."""
        shared = sum(map(self.seconds, self.left)) / self.processors
        return max(1, round(max([shared, *[self.ahead[it] for it in self.left]]) / 60))

    def memory_of(self, crate, jobs):
        """Returns about the most bytes that a check of a crate takes. Crates of up to 2,400 lines of code took 0.7 to
        2.4 GB, and the program, for which the code of all libraries is read, 3.2 GB; this is as much for the dearest, and
        up to three times as much for laws."""
        size, below = self.sizes[crate], sum(self.sizes[it].code for it in self.tree.below(crate))
        of_libraries = below * (50_000 if crate == PROGRAM else 20_000)
        one = 900_000_000 + 500_000 * size.code + 120_000 * size.proofs + of_libraries
        return int(one * (1 + (jobs - 1) / 3))

    def fits(self, crate, jobs):
        """Returns whether memory lasts for a check beside those at work: alone and on one processor it has to. One that
        was killed is to run alone."""
        if not self.running and jobs == 1:
            return True
        at_work = [it.crate for it in self.running]
        if self.running and self.alone.intersection([crate, *at_work]):
            return False
        return sum(it.memory for it in self.running) + self.memory_of(crate, jobs) <= self.memory

    def ready(self):
        """Returns the crates that can begin, those with the longest path ahead first."""
        at_work = {it.crate for it in self.running}
        able = [it for it in self.left - at_work if not self.left.intersection(self.tree.named(it))]
        return sorted(able, key=lambda it: (-self.ahead[it], it))

    def start_what_fits(self):
        """Has crates begin, one a processor, as long as memory lasts. Where fewer are ready than processors are idle,
        each gets several."""
        while True:
            ready, idle = self.ready(), self.processors - sum(it.jobs for it in self.running)
            if not ready or idle < 1:
                return
            jobs = max(1, min(MOST_JOBS, idle // len(ready)))
            while jobs > 1 and not self.fits(ready[0], jobs):
                jobs -= 1
            if not self.fits(ready[0], jobs):
                return
            self.start(ready[0], jobs)

    def start(self, crate, jobs):
        """Has the prover begin with a crate. What it makes stands in out/made until it is proved."""
        made = f"{self.tree.at(crate)}/out/made"
        shutil.rmtree(made, ignore_errors=True)
        os.makedirs(f"{made}/rlib")
        words = [f"{self.tree.kit}/bin/rattle", "build", *self.tree.words(crate), "--jobs", str(jobs)]
        if crate == PROGRAM:
            words += ["--toolchain", f"{self.tree.kit}/toolchain", "--backend", "llvm", "-o", f"out/made/{crate}.o"]
        else:
            words += ["--statements", "-o", f"out/made/rlib/{crate}.rlib"]
        with open(f"{made}/said", "w", encoding="utf-8") as said:
            how = {"cwd": self.tree.at(crate), "stdin": subprocess.DEVNULL, "stdout": said, "stderr": said}
            process = subprocess.Popen(words, start_new_session=True, **how)
        self.running.append(Run(crate, jobs, self.memory_of(crate, jobs), process))

    def end_one(self, run):
        """Takes what a crate's run made, if it was proved."""
        self.running.remove(run)
        crate, out, status = run.crate, f"{self.tree.at(run.crate)}/out", run.process.returncode
        if status == -signal.SIGKILL and crate not in self.alone:
            say(f"the check of {crate} was killed, most likely for memory: once more, with nothing beside it")
            self.alone.add(crate)
            return
        if status < 0:
            raise Stopped(f"the check of {crate} was ended by signal {-status}")
        if status > 0:
            raise Stopped(f"{crate} isn't proved; the end of {out}/made/said:\n{last_lines(f'{out}/made/said')}")
        if not self.kept.is_unchanged(crate):
            raise Stopped(f"the texts of {crate} changed while it was proved: run it again")
        if crate == PROGRAM:
            link(self.tree.kit, f"{out}/made")
            os.replace(f"{out}/made/{PROGRAM}", program_of(self.tree))
        else:
            shutil.rmtree(f"{out}/rlib", ignore_errors=True)
            os.rename(f"{out}/made/rlib", f"{out}/rlib")
        self.kept.note(crate)
        shutil.rmtree(f"{out}/made")
        self.left.remove(crate)

    def prove(self):
        """Proves what is left, and says each half minute what it is at."""
        told = 0
        while self.left:
            self.start_what_fits()
            if time.monotonic() - told >= TELL_EACH:
                names = ", ".join(it.crate for it in self.running)
                say(f"proving {names}; {len(self.left)} of {len(self.crates)} crates are left")
                told = time.monotonic()
            time.sleep(0.2)
            for run in [it for it in self.running if it.process.poll() is not None]:
                self.end_one(run)

    def stop(self):
        """Ends what is at work, and leaves nothing of it behind."""
        for run in self.running:
            if run.process.poll() is None:
                os.killpg(run.process.pid, signal.SIGKILL)
                run.process.wait()
            shutil.rmtree(f"{self.tree.at(run.crate)}/out/made", ignore_errors=True)


def link(kit, made):
    """Links the program from the object file that stands in this folder."""
    words = [f"{kit}/bin/rattle-link", "--target", "x86_64-unknown-linux-gnu", "--toolchain", f"{kit}/toolchain"]
    words += ["-o", f"{made}/{PROGRAM}", f"{made}/{PROGRAM}.o", f"{kit}/c/libos_c.a", f"{kit}/c/liblibc_c.a"]
    ran = subprocess.run(words, stdin=subprocess.DEVNULL, capture_output=True, text=True)
    if ran.returncode:
        raise Stopped(f"the program wasn't linked:\n{ran.stdout}{ran.stderr}")


def last_lines(path):
    """Returns the end of what a check said."""
    return "".join(text_of(path).splitlines(True)[-20:]).rstrip()


@contextlib.contextmanager
def by_itself(tree):
    """Waits until no other run works in the crates' folders, and keeps others out, by the locks that rt has."""
    held = [os.open(tree.at(it), os.O_RDONLY) for it in sorted([*tree.below(PROGRAM), PROGRAM])]
    try:
        for it in held:
            try:
                fcntl.flock(it, fcntl.LOCK_EX | fcntl.LOCK_NB)
            except BlockingIOError:
                say("waiting for another run that works in this checkout")
                fcntl.flock(it, fcntl.LOCK_EX)
        yield
    finally:
        for it in held:
            os.close(it)


def run(tree):
    """Proves what isn't proved yet, and links the program."""
    with by_itself(tree):
        began, build = time.time(), Build(tree)
        count, left = len(build.crates), len(build.left)
        if left:
            say(f"proving and building the program: {left} of {count} crates are to be proved")
            say(f"this takes about {build.minutes()} min on {build.processors} idle processors")
        try:
            build.prove()
        finally:
            build.stop()
            if build.left:
                say(f"{count - len(build.left)} of {count} crates are proved, and that stays")
        # a text that changes from here on is newer than the program
        os.utime(program_of(tree), (began, began))
    return 0
