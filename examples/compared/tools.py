"""The tools that a Debian machine has, each with how a C program is built for it and run, and what it tells of races.

A race is told with an address, and the program's symbols tell the variable: so each tool's words are read alike. The
programs are built without -pie, so that the addresses stay.
"""

import os
import re
import shutil
import subprocess
from collections import namedtuple

EXAMPLES = os.path.dirname(os.path.dirname(os.path.realpath(__file__)))
TOP = os.path.dirname(EXAMPLES)
PROGRAM = os.environ.get("PEREGRINE", f"{TOP}/peregrine")
SECONDS = 600
QUANTA = range(1, 31)
BUILD = ["-w", "-g", "-O0", "-no-pie"]

# the compiler and its flags, the words before the program, what stands before an address, and how often it is run
Tool = namedtuple("Tool", "name compiler flags before address runs")


def clang():
    return next((it for it in ("clang-16", "clang-17", "clang-15", "clang") if shutil.which(it)), "clang")


def tools():
    """The detectors that are there."""
    helgrind = r"Possible data race .* at 0x([0-9A-Fa-f]+)"
    drd = r"Conflicting (?:load|store) .* at 0x([0-9A-Fa-f]+)"
    sanitizer = r"(?:Read|Write) of size \d+ at 0x([0-9a-f]+)"
    thread, fixed = ["-fsanitize=thread"], ["setarch", "-R"]
    every = [
        Tool("helgrind", "gcc", [], ["valgrind", "--tool=helgrind"], helgrind, 3),
        Tool("drd", "gcc", [], ["valgrind", "--tool=drd"], drd, 3),
        Tool("ThreadSanitizer, gcc", "gcc", thread, fixed, sanitizer, 5),
        Tool("ThreadSanitizer, clang", clang(), thread, fixed, sanitizer, 5),
    ]
    return [it for it in every if shutil.which(it.compiler) and shutil.which(it.before[0])]


def run(words, **more):
    return subprocess.run(words, capture_output=True, text=True, errors="replace", timeout=SECONDS, **more)


def built(source, compiler, flags, folder):
    """A native program of a C file."""
    name = f"{folder}/{os.path.basename(source)[:-2]}"
    common = [compiler, *BUILD, f"-I{EXAMPLES}", *flags]
    subprocess.run([*common, "-Dmain=program", "-c", "-o", f"{name}.o", source], check=True)
    subprocess.run([*common, "-o", name, f"{name}.o", f"{EXAMPLES}/native.c", "-lpthread"], check=True)
    return name


def text_of(source, folder):
    """The program text of a C file, with debug information."""
    text = f"{folder}/{os.path.basename(source)[:-2]}.ll"
    subprocess.run([f"{TOP}/peregrine-c", source, "-o", text, "--", "-g"], check=True, stderr=subprocess.DEVNULL)
    return text


def symbols(program):
    """The address, the size and the name of each variable of a program."""
    rows = [it.split() for it in run(["nm", "-S", program]).stdout.splitlines()]
    return [(int(it[0], 16), int(it[1], 16), it[3]) for it in rows if len(it) == 4 and it[2] in "bBdD"]


def variables(tool, program, words):
    """The variables that a detector tells of in some of its runs."""
    table, found = symbols(program), set()
    for _ in range(tool.runs):
        ran = run([*tool.before, program, *words])
        for address in re.findall(tool.address, ran.stderr):
            at = int(address, 16)
            found.add(next((name for begin, size, name in table if begin <= at < begin + size), "other memory"))
    return found


def shown_variables(text, words, quanta):
    """The variables of the races that `show` prints at these quanta."""
    found = set()
    for quantum in quanta:
        shown = run([PROGRAM, "show", "--quantum", str(quantum), text, *words])
        told = run([f"{EXAMPLES}/races", "--program", text], input=shown.stdout)
        found |= set(re.findall(r"race on ([\w.]+)", told.stdout))
    return found
