"""The text of docs/COMPARED.md: what was run, what it told, and what each tool does that Peregrine doesn't."""

import datetime
import os
import re

import measured
import races
from tools import clang, run

HEAD = """# Beside the tools that people use

What helgrind and drd (valgrind), ThreadSanitizer, rr, LLVM's interpreter lli and a native run do with the same C programs.
`examples/compare-tools{seconds}` makes this page.

The figures are of {day}, on a machine with {processors} processors ({model}), by

{versions}
"""

WORDS = """
## What each does that Peregrine doesn't

- **helgrind and drd** take a compiled program as it is: any language, the whole C library, files, signals, floating point,
  atomics, as many steps and as much memory as there is. They order accesses by locks, creates, joins and semaphores alone,
  and so tell a race where a lock happened to stand between the two (`two_locks`). They give the stack of calls of both
  accesses. Helgrind also tells locks that are taken in two orders, and wrong uses of pthread calls that end well.
- **ThreadSanitizer** does so too, with the memory orders of atomics and with C++, in a program that is compiled for it;
  it slows a program down far less than valgrind, so that large programs are tested with it.
- **rr** records a whole process with all of its system calls, and replays that very run under a debugger, backwards too.
- **lli** runs all of LLVM IR: floating point, vectors, exceptions, and the machine's C library.
- **A native run** takes all processors, and none of the limits of docs/C.md.

## What Peregrine does that they don't

- It keeps the order of a run and repeats it, on the same input and on others that the entry's checks admit; that every
  run along it prints the same is proved (docs/THEOREM.md). The detectors look at one run and repeat none; rr repeats a
  run on its own input.
- What it tells of a run is the same each time. A detector's runs differ from one another, and a race on a seldom way
  (`hidden`) shows when the threads happen to meet; here another quantum takes it, and takes it again.
- Its `race` says another thing: two accesses that no turn of the recorded run orders (docs/SCHEDULES.md). So at one
  quantum it tells less than a detector. Over many quanta it may tell more, where a seldom way is taken, and still less,
  where a race needs an order that no rotation makes.
"""


def first_line(words):
    try:
        return (run(words).stdout.strip().splitlines() or [""])[0]
    except OSError:
        return ""


def versions():
    """The tools' own words for their versions."""
    found = [first_line([it, "--version"]) for it in ("valgrind", "gcc", clang(), "rr")]
    return "\n".join(f"- {it}" for it in found if it)


def head(with_seconds):
    """The day, the machine and the tools, without which no figure says much."""
    with open("/proc/cpuinfo", encoding="utf-8") as it:
        model = re.search(r"model name\s*: (.*)", it.read())
    return HEAD.format(
        seconds=" --seconds" if with_seconds else "",
        day=datetime.date.today().isoformat(),
        processors=os.cpu_count(),
        model=model[1] if model else "of an unknown model",
        versions=versions(),
    )


def made(folder, with_seconds):
    parts = [head(with_seconds), races.table(folder), measured.agreement(folder), measured.outputs(folder), measured.replays(folder)]
    if with_seconds:
        parts.append(measured.seconds(folder))
    return "\n".join(parts) + WORDS
