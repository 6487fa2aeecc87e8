"""A program text as far as a picture needs it: its instructions by number, where they lead, and its globals' places."""

import os
import re
import sys
from collections import namedtuple

sys.path.insert(0, os.path.join(os.path.dirname(os.path.dirname(os.path.abspath(__file__))), "driver"))

from places import Places
from where import DROPPED

NAME = r'(?:"[^"]*"|[-\w$.]+)'
EVENTS = {
    "pthread_create": ["create"], "pthread_join": ["join"], "pthread_exit": ["exit"],
    "pthread_mutex_init": ["mutex-init"], "pthread_mutex_lock": ["lock"], "pthread_mutex_trylock": ["trylock"],
    "pthread_mutex_unlock": ["unlock"], "pthread_mutex_destroy": ["mutex-destroy"],
    "pthread_cond_init": ["cond-init"], "pthread_cond_wait": ["wait", "wake"], "pthread_cond_signal": ["signal"],
    "pthread_cond_broadcast": ["broadcast"], "pthread_cond_destroy": ["cond-destroy"],
    "pthread_barrier_init": ["barrier-init"], "pthread_barrier_wait": ["arrive", "leave"],
    "pthread_barrier_destroy": ["barrier-destroy"], "pg_out": ["out"], "pg_print": ["out"], "putchar": ["putchar"],
}
SIZES = {"i1": 1, "i8": 1, "i16": 2, "i32": 4, "i64": 8, "ptr": 8}
# granules of 8 bytes; those of a thread's stack and heap begin here, and have this many
THREADS_FROM, THREAD_HAS = 1 << 21, 1 << 15

Instr = namedtuple("Instr", "function line text op labels callee")


def without_comment(line):
    """A line without its comment and without blanks at its ends."""
    is_quoted = False
    for i, c in enumerate(line):
        is_quoted ^= c == '"'
        if c == ";" and not is_quoted:
            return line[:i].strip()
    return line.strip()


def bare(name):
    return name.strip('"')


def type_at(text):
    """The type at the front of a text."""
    if text[:1] not in "[{<":
        return re.match(rf"%?{NAME}", text)[0]
    depth = 0
    for i, c in enumerate(text):
        depth += (c in "[{<(") - (c in "]}>)")
        if depth == 0:
            return text[: i + 1]
    return text


def parts(text):
    """The types between commas, at the outer level."""
    found, depth, begin = [], 0, 0
    for i, c in enumerate(text):
        depth += (c in "[{<(") - (c in "]}>)")
        if c == "," and depth == 0:
            found.append(text[begin:i].strip())
            begin = i + 1
    return [it for it in found + [text[begin:].strip()] if it]


def operand(instr, at):
    """An operand of a call: the last word of one of its arguments."""
    inner = instr.text[instr.text.index("(", instr.text.index("@")) + 1 : instr.text.rindex(")")]
    found = re.findall(rf"(?:getelementptr[^(]*\([^()]*\)|[@%]{NAME}|\w+)\s*(?:,|$)", inner)
    return found[at].rstrip(", ") if at < len(found) else ""


class Program:
    """A program text, read line by line as clang writes it."""

    def __init__(self, text, name):
        self.name = name
        self.c_places = Places(text)
        self.lines = text.split("\n")
        self.instrs = []
        self.entries = {}
        self.blocks = {}
        self.types = {}
        self.globals = []
        self.read()

    def read(self):
        function, written = None, []
        for number, whole in enumerate(self.lines, 1):
            line = without_comment(whole)
            if head := re.match(rf"define .*?@({NAME})\(", line):
                function = bare(head[1])
                self.entries[function] = self.blocks[function, None] = len(self.instrs)
            elif line == "}":
                function = None
            elif function is not None:
                self.read_line(function, number, line)
            elif named := re.match(rf"%({NAME}) = type (.*)", line):
                self.types[bare(named[1])] = named[2]
            elif found := re.match(rf"@({NAME}) = .*?\b(?:global|constant) (.*)", line):
                written.append((bare(found[1]), type_at(found[2])))
        granule = 1
        for name, kind in written:
            size = self.layout(kind)[0]
            self.globals.append((name, 8 * granule, size))
            granule += max(1, (size + 7) // 8)

    def read_line(self, function, number, line):
        label = re.match(rf"({NAME}):$", line)
        last = self.instrs[-1] if self.instrs else None
        if last and last.op == "switch" and last.function == function and "]" not in last.text:
            # the cases of a switch stand on lines of their own
            self.instrs[-1] = last._replace(text=f"{last.text} {line}", labels=last.labels + self.labels(line))
        elif label:
            self.blocks[function, bare(label[1])] = len(self.instrs)
        elif line and not DROPPED.match(line):
            op = re.sub(rf"^%{NAME} = ", "", line).split(" ")
            op = op[1] if op[0] in ("tail", "musttail", "notail") else op[0]
            callee = re.search(rf"@({NAME})\(", line) if op == "call" else None
            self.instrs.append(Instr(function, number, line, op, self.labels(line), callee and bare(callee[1])))

    @staticmethod
    def labels(line):
        return [bare(it) for it in re.findall(rf"label %({NAME})", line)]

    def layout(self, kind):
        """The size and the alignment of a type, by the System V ABI for x86-64."""
        if kind in SIZES:
            return SIZES[kind], SIZES[kind]
        if kind.startswith("%"):
            return self.layout(self.types[bare(kind[1:])])
        if array := re.match(r"\[\s*(\d+) x (.*)\]$", kind):
            size, alignment = self.layout(array[2].strip())
            return int(array[1]) * size, alignment
        at, most = 0, 1
        for part in parts(kind[1:-1]):
            size, alignment = self.layout(part)
            at = (at + alignment - 1) // alignment * alignment + size
            most = max(most, alignment)
        return (at + most - 1) // most * most, most

    def target(self, function, label):
        """The number of the first instruction of a block that is a step of its own: a phi is done on the edge."""
        at = self.blocks[function, label]
        while self.instrs[at].op == "phi":
            at += 1
        return at

    def events(self, instr):
        """The kinds of event that an instruction's steps are; none where it has no event but for a gated access."""
        callee = self.instrs[instr].callee
        return EVENTS.get(callee, []) if callee else []

    def written(self):
        """The place that a create or a join writes, by its instruction, where the text tells: None where it is null."""
        starts = {name: at for name, at, _ in self.globals}
        found = {}
        for number, instr in enumerate(self.instrs):
            if self.events(number) in (["create"], ["join"]):
                inner = parts(instr.text[instr.text.index("(") + 1 : instr.text.rindex(")")])
                operand = inner[0 if instr.callee == "pthread_create" else 1].split(" ")[-1]
                if operand == "null":
                    found[number] = None
                elif bare(operand[1:]) in starts and operand.startswith("@"):
                    found[number] = starts[bare(operand[1:])]
        return found

    def may_be(self, kind, at):
        """Whether an instruction can be an event of a kind, or a decision."""
        if at >= len(self.instrs):
            return False
        instr = self.instrs[at]
        if kind == "start":
            return at in self.entries.values()
        if kind == "exit":
            return instr.op == "ret" or instr.callee == "pthread_exit"
        if kind == "pinned":
            return instr.op in ("br", "switch") and len(instr.labels) > 1
        return instr.op in ("load", "store") if kind == "exact" else kind == instr.op or kind in self.events(at)

    def told(self, instr):
        """An instruction's line, with its place in C where the text has it."""
        line = self.lines[self.instrs[instr].line - 1]
        place = self.c_places.of_line(line)
        text = re.sub(r", !dbg !\d+|, !llvm\.loop !\d+|, align \d+", "", without_comment(line))
        return text + (f"   ({place.file}, line {place.line}, column {place.column})" if place else "")


def place_name(place, program):
    """A name for a place of memory: a global's, or the thread whose stack or heap it lies in, with the bytes behind."""
    if place // 8 >= THREADS_FROM:
        thread, granule = divmod(place // 8 - THREADS_FROM, THREAD_HAS)
        return f"memory {thread}+{8 * granule + place % 8}"
    for name, at, size in program.globals if program else []:
        if at <= place < at + max(8, size):
            return f"@{name}+{place - at}" if place > at else f"@{name}"
    return str(place)
