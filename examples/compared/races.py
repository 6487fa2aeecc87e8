"""Which variables race, by the tools and by the program's own text."""

import os
import re

from tools import BUILD, EXAMPLES, QUANTA, built, shown_variables, text_of, tools, variables

# a program, the numbers of its input, and the variables that race in it: those of compared/ are marked in their texts
RACY = ["compared/count", "compared/flag", "compared/first_use", "compared/parts", "compared/hidden", "bank_racy", "two_locks"]
KNOWN = {"bank_racy": {"accounts"}, "two_locks": {"total"}}
FREE = ["bank", "queue", "barrier", "prefix_sums", "bounded_buffer", "readers_writers"]
INPUT = ["5", "3", "9", "12", "7", "2"]


def raced(name):
    """The variables that race, as the text of a program marks them."""
    with open(f"{EXAMPLES}/{name}.c", encoding="utf-8") as it:
        return KNOWN.get(name) or set(re.findall(r"(\w+)(?:\[\w+\])?;\s*// raced", it.read()))


def cell(found, wanted):
    """The variables found, and how many of those that race are missing."""
    words = ", ".join(f"`{it}`" for it in sorted(found & wanted))
    wrong = ", ".join(sorted(found - wanted))
    return (words or "none") + (f"; wrongly {wrong}" if wrong else "")


def row(name, folder):
    """What each tool tells of one program."""
    source, wanted = f"{EXAMPLES}/{name}.c", raced(name) if name in RACY else set()
    cells = [os.path.basename(name), ", ".join(f"`{it}`" for it in sorted(wanted)) or "none"]
    text = text_of(source, folder)
    cells.append(cell(shown_variables(text, INPUT, [100]), wanted))
    cells.append(cell(shown_variables(text, INPUT, QUANTA), wanted))
    for tool in tools():
        cells.append(cell(variables(tool, built(source, tool.compiler, tool.flags, folder), INPUT), wanted))
    return "| " + " | ".join(cells) + " |"


def table(folder):
    """All programs: those that race, and those that don't, of which nothing may be told."""
    names, words = [it.name for it in tools()], " ".join(INPUT)
    head = [
        "## Which variables race",
        "",
        "Each program on one input. The second column is what races in some run, by its text. `show` is taken",
        f"at its quantum of 100, and then at {QUANTA[0]} to {QUANTA[-1]}. A detector's cell has all that its runs told.",
        "",
        "| Tool | Built by | Run by | Runs |",
        "|---|---|---|---|",
        f"| `show` | `peregrine-c NAME.c -o NAME.ll -- -g` | `peregrine show --quantum Q NAME.ll {words}`, told by `examples/races` | 1, 30 |",
        *(f"| {it.name} | `{' '.join([it.compiler, *BUILD, *it.flags])}` | `{' '.join([*it.before, './NAME', words])}` | {it.runs} |" for it in tools()),
        "",
        "| Program | Races | `show` | `show`, 30 quanta | " + " | ".join(names) + " |",
        "|---" * (4 + len(names)) + "|",
    ]
    return "\n".join([*head, *(row(name, folder) for name in [*RACY, *FREE])]) + "\n"
