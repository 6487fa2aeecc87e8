"""Native runs beside Peregrine's, rr, and times."""

import os
import re
import resource
import shutil
import statistics

from tools import EXAMPLES, PROGRAM, TOP, built, clang, run, text_of, tools

RUNS = 300
# of loop.ll, as `pg_bench steps` counts them
STEPS = 399_999
REPLY = re.compile(r"^(?:recorded|reused) \d+\n(.*?)^exit (-?\d+) after \d+ turns$", re.M | re.S)
# a race decides what they print
RACY = {"bank_racy"}


def lines_of(name):
    with open(f"{EXAMPLES}/{name}.lines", encoding="utf-8") as it:
        return it.read().splitlines()


def agreement(folder):
    """How many lines of the examples' inputs print natively what `serve` answers."""
    names = sorted(it[:-6] for it in os.listdir(EXAMPLES) if it.endswith(".lines"))
    names = [it for it in names if it not in RACY and os.path.exists(f"{EXAMPLES}/{it}.c")]
    total = same = 0
    for name in names:
        lines, program = lines_of(name), built(f"{EXAMPLES}/{name}.c", "gcc", [], folder)
        served = run([PROGRAM, "serve", f"{EXAMPLES}/{name}.ll"], input="".join(it + "\n" for it in lines))
        for line, (printed, status) in zip(lines, REPLY.findall(served.stdout)):
            native = run([program, *line.split()])
            total, same = total + 1, same + ((native.stdout, native.returncode) == (printed, int(status) & 255))
    return f"""## Native runs

Of {total} lines of input of {len(names)} examples without a race, {same} print natively, and return, what `serve` answers for them.
"""


def outputs(folder):
    """How many different texts a racy program prints in many runs."""
    rows, numbers = [], [str(it) for it in range(1, 513)]
    for name in ("compared/count", "bank_racy"):
        program = built(f"{EXAMPLES}/{name}.c", "gcc", [], folder)
        native = {run([program, *numbers]).stdout for _ in range(RUNS)}
        rows.append(f"| {os.path.basename(name)} | {len(native)} |")
    head = f"Two programs with a race, on the numbers 1 to 512, print so many different texts in {RUNS} native runs; each recorded run,\nand each run along an entry, prints one text:\n"
    return "\n".join([head, "| Program | Different texts |", "|---|---|", *rows]) + "\n"


def replays(folder):
    """Whether rr records here."""
    if not shutil.which("rr"):
        return "## rr\n\nIt wasn't there.\n"
    program = built(f"{EXAMPLES}/two_locks.c", "gcc", [], folder)
    ran = run(["rr", "record", "-o", f"{folder}/trace", program, "3", "5"], env={**os.environ, "_RR_TRACE_DIR": folder})
    if ran.returncode == 0:
        replayed = run(["rr", "replay", "-a", f"{folder}/trace"])
        return f"## rr\n\nIt recorded `two_locks` and replayed it: {replayed.stdout.strip()!r} for {ran.stdout.strip()!r}.\n"
    said = re.sub(r"^\[[^]]*\]\s*", "", (ran.stderr.strip().splitlines() or ["it failed"])[0])
    return f"## rr\n\nIt doesn't run on this machine:\n\n```\n{said}\n```\n"


def best(words, times=7, **more):
    """The least and the middle of the seconds of the processor that a command takes."""
    taken = []
    for _ in range(times):
        begin = resource.getrusage(resource.RUSAGE_CHILDREN)
        run(words, **more)
        end = resource.getrusage(resource.RUSAGE_CHILDREN)
        taken.append(end.ru_utime + end.ru_stime - begin.ru_utime - begin.ru_stime)
    return min(taken), statistics.median(taken)


def told(pair):
    return f"{1000 * pair[0]:.1f} | {1000 * pair[1]:.1f}"


def steps_row(name, words, **more):
    """A command on loop.ll: its times, and how many of the loop's steps it does in a second, with its start."""
    pair = best(words, **more)
    return f"| {name}: {STEPS / 1e6 / pair[0]:.1f} million steps a second | {told(pair)} |"


def steps_rows():
    """loop.ll by `once`, by lli's interpreter, and compiled."""
    loop, lli = f"{EXAMPLES}/loop.ll", clang().replace("clang", "lli")
    with open(loop, encoding="utf-8") as it:
        rows = [steps_row("`once < loop.ll`", [PROGRAM, "once"], input=it.read())]
    if shutil.which(lli):
        interpreter = [lli, "-jit-kind=mcjit", "-force-interpreter"]
        rows.append(steps_row(f"`{' '.join(interpreter)} loop.ll`", [*interpreter, loop]))
        rows.append(steps_row(f"`{lli} loop.ll`, which compiles it", [lli, loop]))
    return rows


def seconds(folder):
    """Times of the processor, of whole commands with their start."""
    source, words = f"{EXAMPLES}/bank_racy.c", ["5", "3", "9", "12", "7", "2"]
    rows = [f"| `bank_racy` natively | {told(best([built(source, 'gcc', [], folder), *words]))} |"]
    rows.append(f"| `bank_racy`, `show` | {told(best([PROGRAM, 'show', text_of(source, folder), *words]))} |")
    for tool in tools():
        program = built(source, tool.compiler, tool.flags, folder)
        rows.append(f"| `bank_racy`, {tool.name} | {told(best([*tool.before, program, *words]))} |")
    is_script = PROGRAM == f"{TOP}/peregrine"
    head = f"""## Times

Milliseconds of the processor, which other work changes little, of a whole command with its start, of seven runs. `once` and
`show` are called {'by the script `./peregrine`' if is_script else 'without the script `./peregrine`'}.
"""
    return "\n".join([head, "| Command | Least | Middle |", "|---|---|---|", *rows, *steps_rows()]) + "\n"
