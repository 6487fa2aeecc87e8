"""Calls by a function pointer that is constant, as a function of its own for each: `pthread_once` and `qsort`."""

import re

from intrinsics import plain
from module import Call, Refused, function_of, is_call


def once(name):
    """Calls a function once, whoever comes first; all others wait until it is done."""
    text = f"""define i32 @pg.once.{name}(ptr %state) {{
start:
  %first = call i32 @pg_once_begin(ptr %state)
  %mine = icmp ne i32 %first, 0
  br i1 %mine, label %run, label %end
run:
  call void @{name}()
  call void @pg_once_end(ptr %state)
  br label %end
end:
  ret i32 0
}}"""
    lines = text.split("\n")
    return function_of(lines[0], lines[1:-1])


def sort(name):
    """Sorts by insertion: elements of any size, equal ones stay in order."""
    text = f"""define void @pg.sort.{name}(ptr %base, i64 %count, i64 %size) {{
start:
  br label %outer
outer:
  %i = phi i64 [ 1, %start ], [ %next, %placed ]
  %more = icmp ult i64 %i, %count
  br i1 %more, label %inner, label %end
inner:
  %j = phi i64 [ %i, %outer ], [ %before, %swapped ]
  %first = icmp eq i64 %j, 0
  br i1 %first, label %placed, label %compare
compare:
  %before = sub i64 %j, 1
  %left.at = mul i64 %before, %size
  %left = getelementptr i8, ptr %base, i64 %left.at
  %right = getelementptr i8, ptr %left, i64 %size
  %order = call i32 @{name}(ptr %left, ptr %right)
  %wrong = icmp sgt i32 %order, 0
  br i1 %wrong, label %swap, label %placed
swap:
  %k = phi i64 [ 0, %compare ], [ %k.next, %swap.byte ]
  %rest = icmp ult i64 %k, %size
  br i1 %rest, label %swap.byte, label %swapped
swap.byte:
  %one = getelementptr i8, ptr %left, i64 %k
  %other = getelementptr i8, ptr %right, i64 %k
  %a = load i8, ptr %one
  %b = load i8, ptr %other
  store i8 %b, ptr %one
  store i8 %a, ptr %other
  %k.next = add i64 %k, 1
  br label %swap
swapped:
  br label %inner
placed:
  %next = add i64 %i, 1
  br label %outer
end:
  ret void
}}"""
    lines = text.split("\n")
    return function_of(lines[0], lines[1:-1])


# the call, which of its arguments is the function, and what stands for it
RULES = {"pthread_once": (1, "pg.once.", once), "qsort": (3, "pg.sort.", sort)}


def rewrite(module):
    made, defined = {}, module.defined()

    def change(_, line):
        if not is_call(line) or Call(line).name not in RULES or Call(line).name in defined:
            return [line]
        call = Call(line)
        at, prefix, make = RULES[call.name]
        found = re.fullmatch(r"ptr @([-\w$.]+)", plain(call.arguments[at]))
        if not found:
            raise Refused(f"{call.name} with a function that isn't named in the call")
        if (found[1], prefix) not in made:
            made[found[1], prefix] = make(found[1])
        call.name = prefix + found[1]
        del call.arguments[at]
        call.before = re.sub(r"\(.*\)\s*$", "", call.before) + ("" if call.before.endswith(" ") else " ")
        return [call.text()]

    module.change_lines(change)
    module.functions += made.values()
