"""What is kept of each probe and example, so that the rules are tried without a compiler: the text that clang made,
and what a native run printed and returned.

    python3 examples/driver/kept.py    makes all of it anew (clang and a C library are wanted)

`probes/NAME.c` is a small C text for one feature, and `../NAME.c` an example. `probes/NAME.ll` and `programs/NAME.ll`
are clang's texts of them, `../NAME.ll` what the rules make of an example's. `probes.txt` and `programs.txt` have a line
for each: its name, `accepted`, `ends` or `refused`, and for the first the exit status and the printed text of a native
run; one that is refused has the sentence. `ends` is a native run that a signal ends, here a trap.

A probe has `// refused here` behind the line that is refused, or `// trap here` behind the one that ends it; an example
has `// race here` behind lines that race. Their texts are kept with debug information, and `lines.txt` has for those
with a trap the lines that have code, by clang's own line table.
"""

import os
import re
import subprocess
import sys
import tempfile

sys.dont_write_bytecode = True
HERE = os.path.dirname(os.path.abspath(__file__))
EXAMPLES = os.path.dirname(HERE)
# the examples, each of which runs on the second list of numbers; the probes run on the first
PROGRAMS = ["radix_sort", "thread_pool", "philosophers", "readers_writers", "bank", "bank_racy", "matrix", "bounded_buffer", "word_count", "prefix_sums", "quicksort", "quicksort_apart", "radix_sort_apart", "extremes", "extremes_apart", "two_locks"]
# the racy bank's threads run one after another in long shares, as they mostly do natively
SHARES = {"bank_racy": ["--quantum", "10000"]}
INPUTS = {"probes": ["0", "5"], "programs": ["5", "3", "9", "1", "7", "12", "2", "8"]}

import driver
from module import Refused
from rewriting import rewritten


def names(kind):
    """The names of the probes, or of the programs."""
    return PROGRAMS if kind == "programs" else sorted(it[:-2] for it in os.listdir(f"{HERE}/probes") if it.endswith(".c"))


def source(kind, name):
    """The C file, as it is named from the folder of the examples."""
    return f"{name}.c" if kind == "programs" else f"driver/probes/{name}.c"


def read(path):
    with open(path, encoding="utf-8") as it:
        return it.read()


def text_of(kind, name):
    """Clang's text, as it is kept."""
    return read(f"{HERE}/{kind}/{name}.ll")


def rows(kind):
    """The kept outcomes, by name: what it came to, and its words."""
    found = {}
    for line in read(f"{HERE}/{kind}.txt").splitlines():
        if line and not line.startswith("#"):
            name, outcome, rest = line.split(" ", 2)
            found[name] = (outcome, rest.encode().decode("unicode_escape"))
    return found


def marks(kind, name, word=r"\w+"):
    """The numbers of the lines of a source behind which this word stands as a mark."""
    lines = enumerate(read(f"{EXAMPLES}/{source(kind, name)}").split("\n"), 1)
    return [number for number, line in lines if re.search(rf"// {word} here$", line)]


def lines_with_code():
    """The kept lines of clang's line tables, by name."""
    rows = (line.split() for line in read(f"{HERE}/lines.txt").splitlines() if not line.startswith("#"))
    return {name: {int(it) for it in lines} for name, *lines in rows}


def line_table(name, folder):
    """The lines of a probe that have code in a native build, as objdump reads clang's line table."""
    file = source("probes", name)
    words = [driver.compiler(), "-w", "-O0", "-g", f"-I{EXAMPLES}", "-c", "-o", f"{folder}/lines.o", f"{EXAMPLES}/{file}"]
    driver.run(words)
    table = driver.run(["objdump", "--dwarf=decodedline", f"{folder}/lines.o"])
    return sorted({int(it) for it in re.findall(rf"^{name}\.c\s+(\d+) ", table, re.M)} - {0})


def compiled(kind, name, flags):
    """Clang's text of now."""
    words = [driver.compiler(), "-w", *driver.FLAGS, *flags, "-I.", "-o", "-", source(kind, name)]
    return subprocess.run(words, cwd=EXAMPLES, check=True, capture_output=True, text=True).stdout


def native(kind, name, folder):
    """The status and the printed text of a native run, by this compiler."""
    clang, whole = driver.compiler(), f"{folder}/{name}"
    flags = ["-w", "-O0", f"-I{EXAMPLES}"]
    driver.run([clang, *flags, "-Dmain=program", "-c", "-o", f"{whole}.o", f"{EXAMPLES}/{source(kind, name)}"])
    driver.run([clang, *flags, "-o", whole, f"{whole}.o", f"{EXAMPLES}/native.c", "-lpthread"])
    ran = subprocess.run([whole, *INPUTS[kind]], capture_output=True, text=True, timeout=20)
    return ran.returncode, ran.stdout


def outcome(kind, name, text, folder):
    """The line of a probe or a program."""
    try:
        rewritten(text)
    except Refused as it:
        return f"{name} refused {it.sentence}"
    status, printed = native(kind, name, folder)
    if status < 0:
        return f"{name} ends -"
    return f"{name} accepted {status}:{printed.encode('unicode_escape').decode()}"


def write(path, text):
    with open(path, "w", encoding="utf-8") as it:
        it.write(text)


def make(kind):
    """Compiles each and runs it natively, and writes what is kept."""
    lines = ["# made by kept.py: name, outcome, and what a native run returned and printed, or why it is refused"]
    os.makedirs(f"{HERE}/{kind}", exist_ok=True)
    with tempfile.TemporaryDirectory() as folder:
        for name in names(kind):
            text = compiled(kind, name, ["-O0", "-g"] if marks(kind, name) else ["-O0"])
            write(f"{HERE}/{kind}/{name}.ll", text)
            if kind == "programs":
                write(f"{EXAMPLES}/{name}.ll", rewritten(text))
            lines.append(outcome(kind, name, text, folder))
    write(f"{HERE}/{kind}.txt", "\n".join(lines) + "\n")


def make_lines():
    """Writes the lines that have code, from a native build's line table and from nothing of the rules."""
    lines = ["# made by kept.py: the lines that have code, of each probe that a trap ends"]
    with tempfile.TemporaryDirectory() as folder:
        for name in names("probes"):
            if marks("probes", name, "trap"):
                lines.append(" ".join([name, *map(str, line_table(name, folder))]))
    write(f"{HERE}/lines.txt", "\n".join(lines) + "\n")


def make_library():
    words = [driver.compiler(), *driver.FLAGS, "-O0", "-fno-builtin", "-ffreestanding", "-o", "library.ll", "library.c"]
    subprocess.run(words, cwd=HERE, check=True)


if __name__ == "__main__":
    make_library()
    make("probes")
    make_lines()
    make("programs")
