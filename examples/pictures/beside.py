"""A program text with a first thread beside it, so that a run that ends by Deadlock exits and `show` tells its turns.

The rotation goes round in number order. So where main becomes thread 1, and all others come one later, a thread 0 between
the last and the first changes nothing of the order in which these take their steps, as long as it takes whole quanta and
touches nothing of theirs. It makes main, spins, rings, spins again, and returns, which ends the run.

Where each instruction becomes three steps, and the quantum three times as long, the order is that of before in all but
rare cases, of which the turns tell. So before a lock and a join there is room to print what they ask for.
"""

import re

from texts import operand

MAIN, THREAD, BELL, PAD, ASKED = "pg.waits.main", "pg.waits.thread", "pg.waits.bell", "pg.waits.pad", "%pg.waits.asked"
# an instruction of the text that prints what it asks for is so many steps
STEPS_AN_INSTRUCTION = 3
# a turn of the loop is three steps
STEPS_A_TURN = 3
HEAD = re.compile(r"^(define .*?)\bi32 @main\(\)", re.M)
RET = re.compile(r"^(\s*)ret i32 (?:-?\w+|%\S+?)(?=\s*(?:,|;|$))")
# before an instruction; before a lock and a join, with the operand that they ask for
PADDED = f"  call void @{PAD}()"
ASKS = {
    "lock": "  {name} = ptrtoint ptr {operand} to i64\n  call void @pg_out(i64 {name})",
    "join": "  {name} = add i64 {operand}, 0\n  call void @pg_out(i64 {name})",
}
DECLARED = {
    "pthread_create": "declare i32 @pthread_create(ptr, ptr, ptr, ptr)",
    "pthread_cond_signal": "declare i32 @pthread_cond_signal(ptr)",
    "pg_out": "declare void @pg_out(i64)",
}
FIRST = """\
@{thread} = global i64 0
@{bell} = global [64 x i8] zeroinitializer
define i32 @main() {{
start:
  %made = call i32 @pthread_create(ptr @{thread}, ptr null, ptr @{main}, ptr null)
  br label %before
before:
  %i = phi i64 [ 0, %start ], [ %i.next, %before ]
  %i.next = add i64 %i, 1
  %i.more = icmp ult i64 %i.next, {turns}
  br i1 %i.more, label %before, label %ring
ring:
  %rung = call i32 @pthread_cond_signal(ptr @{bell})
  br label %behind
behind:
  %k = phi i64 [ 0, %ring ], [ %k.next, %behind ]
  %k.next = add i64 %k, 1
  %k.more = icmp ult i64 %k.next, {turns}
  br i1 %k.more, label %behind, label %end
end:
  ret i32 0
}}
"""


def with_first(text, steps):
    """The text with a thread 0 beside that takes so many steps before it rings, and as many behind; None where main has
    another form, or is called by name."""
    head = HEAD.search(text)
    if not head or len(re.findall(r"@main(?![-\w$.])", text)) != 1:
        return None
    begin, end = head.end(), text.index("\n}", head.end())
    # main as a thread's function: it has a parameter, of which nothing is read, and gives a pointer back
    body = "\n".join(RET.sub(r"\1ret ptr null", line) for line in text[begin:end].split("\n"))
    parts = [text[: head.start()], head[1], f"ptr @{MAIN}(ptr %pg.waits.given)", body, text[end:]]
    whole = "".join(parts).rstrip("\n") + "\n"
    missing = [line for name, line in DECLARED.items() if not re.search(rf"^declare .*@{name}\(", text, re.M)]
    first = FIRST.format(thread=THREAD, bell=BELL, main=MAIN, turns=max(1, steps // STEPS_A_TURN))
    return whole + "".join(line + "\n" for line in missing) + first


def that_asks(program):
    """The text of a program in which a lock and a join print what they ask for, and each instruction is three steps."""
    lines = list(program.lines)
    for number, instr in enumerate(program.instrs):
        if instr.op == "phi":
            continue
        kinds = program.events(number)
        form = ASKS.get(kinds[0]) if kinds else None
        before = form.format(name=f"{ASKED}.{number}", operand=operand(instr, 0)) if form else PADDED
        lines[instr.line - 1] = f"{before}\n{lines[instr.line - 1]}"
    return "\n".join(lines).rstrip("\n") + f"\ndefine void @{PAD}() {{\n  ret void\n}}\n"
