"""Functions in the accepted subset that stand for intrinsics. Each is appended once, where it is called."""

SET = """define void @pg.set(ptr %to, i8 %byte, i64 %count) {
start:
  br label %test
test:
  %i = phi i64 [ 0, %start ], [ %next, %body ]
  %more = icmp ult i64 %i, %count
  br i1 %more, label %body, label %end
body:
  %at = getelementptr i8, ptr %to, i64 %i
  store i8 %byte, ptr %at
  %next = add i64 %i, 1
  br label %test
end:
  ret void
}"""

# by 8 bytes: both pointers are at multiples of 8, and so is the count
SET_WORDS = """define void @pg.set.words(ptr %to, i8 %byte, i64 %count) {
start:
  %wide = zext i8 %byte to i64
  %word = mul i64 %wide, 72340172838076673
  br label %test
test:
  %i = phi i64 [ 0, %start ], [ %next, %body ]
  %more = icmp ult i64 %i, %count
  br i1 %more, label %body, label %end
body:
  %at = getelementptr i8, ptr %to, i64 %i
  store i64 %word, ptr %at
  %next = add i64 %i, 8
  br label %test
end:
  ret void
}"""


def copying(name, type_text, size):
    """Copies from the front."""
    return f"""define void @{name}(ptr %to, ptr %from, i64 %count) {{
start:
  br label %test
test:
  %i = phi i64 [ 0, %start ], [ %next, %body ]
  %more = icmp ult i64 %i, %count
  br i1 %more, label %body, label %end
body:
  %source = getelementptr i8, ptr %from, i64 %i
  %part = load {type_text}, ptr %source
  %place = getelementptr i8, ptr %to, i64 %i
  store {type_text} %part, ptr %place
  %next = add i64 %i, {size}
  br label %test
end:
  ret void
}}"""


# from the back where the target lies behind the source: only pointers with the same bounds can have bytes in common
MOVE = """define void @pg.move(ptr %to, ptr %from, i64 %count) {
start:
  %behind = icmp ugt ptr %to, %from
  br i1 %behind, label %back, label %forth
forth:
  call void @pg.copy(ptr %to, ptr %from, i64 %count)
  ret void
back:
  %left = phi i64 [ %count, %start ], [ %i, %body ]
  %none = icmp eq i64 %left, 0
  br i1 %none, label %end, label %body
body:
  %i = sub i64 %left, 1
  %source = getelementptr i8, ptr %from, i64 %i
  %part = load i8, ptr %source
  %place = getelementptr i8, ptr %to, i64 %i
  store i8 %part, ptr %place
  br label %back
end:
  ret void
}"""

MEMORY = {
    "pg.set": SET,
    "pg.set.words": SET_WORDS,
    "pg.copy": copying("pg.copy", "i8", 1),
    "pg.copy.words": copying("pg.copy.words", "i64", 8),
    "pg.move": MOVE,
}


def abs_of(width):
    return f"""define i{width} @pg.abs.i{width}(i{width} %a) {{
  %negative = icmp slt i{width} %a, 0
  %minus = sub i{width} 0, %a
  %result = select i1 %negative, i{width} %minus, i{width} %a
  ret i{width} %result
}}"""


def least_of(name, width):
    """smin, smax, umin, umax."""
    predicate = {"smin": "slt", "smax": "sgt", "umin": "ult", "umax": "ugt"}[name]
    return f"""define i{width} @pg.{name}.i{width}(i{width} %a, i{width} %b) {{
  %first = icmp {predicate} i{width} %a, %b
  %result = select i1 %first, i{width} %a, i{width} %b
  ret i{width} %result
}}"""


def funnel_of(name, width):
    """fshl and fshr: the two numbers side by side, moved by the count modulo the width."""
    one, other = ("shl", "lshr") if name == "fshl" else ("lshr", "shl")
    first, second = ("%a", "%b") if name == "fshl" else ("%b", "%a")
    return f"""define i{width} @pg.{name}.i{width}(i{width} %a, i{width} %b, i{width} %n) {{
  %count = and i{width} %n, {width - 1}
  %rest = sub i{width} {width}, %count
  %main = {one} i{width} {first}, %count
  %other = {other} i{width} {second}, %rest
  %result = or i{width} %main, %other
  ret i{width} %result
}}"""


def swapped_of(width):
    """bswap, byte by byte."""
    count = width // 8
    lines = [f"define i{width} @pg.bswap.i{width}(i{width} %a) {{"]
    last = "0"
    for i in range(count):
        lines.append(f"  %down{i} = lshr i{width} %a, {8 * i}")
        lines.append(f"  %byte{i} = and i{width} %down{i}, 255")
        lines.append(f"  %up{i} = shl i{width} %byte{i}, {8 * (count - 1 - i)}")
        lines.append(f"  %sum{i} = or i{width} {last}, %up{i}")
        last = f"%sum{i}"
    return "\n".join([*lines, f"  ret i{width} {last}", "}"])


def counted_of(name, width):
    """ctpop, ctlz, cttz: one bit after another; the count of a number without ones is the width."""
    shift = {"ctpop": "lshr", "cttz": "lshr", "ctlz": "shl"}[name]
    bit = 1 << (width - 1) if name == "ctlz" else 1
    stop = "eq" if name == "ctpop" else "ne"
    if name == "ctpop":
        step = f"  %one = and i{width} %left, 1\n  %more = add i{width} %count, %one"
        test = f"  %done = icmp eq i{width} %left, 0"
    else:
        step = f"  %more = add i{width} %count, 1"
        test = f"  %top = and i{width} %left, {bit if bit < 1 << 63 else bit - (1 << 64)}\n  %isset = icmp {stop} i{width} %top, 0\n  %isfull = icmp eq i{width} %count, {width}\n  %done = or i1 %isset, %isfull"
    return f"""define i{width} @pg.{name}.i{width}(i{width} %a) {{
start:
  br label %test
test:
  %left = phi i{width} [ %a, %start ], [ %next, %body ]
  %count = phi i{width} [ 0, %start ], [ %more, %body ]
{test}
  br i1 %done, label %end, label %body
body:
{step}
  %next = {shift} i{width} %left, 1
  br label %test
end:
  ret i{width} %count
}}"""


def number_helper(name, width):
    """The function for an intrinsic on numbers of a width, None where there is none."""
    if name == "abs":
        return abs_of(width)
    if name in ("smin", "smax", "umin", "umax"):
        return least_of(name, width)
    if name in ("fshl", "fshr"):
        return funnel_of(name, width)
    if name == "bswap":
        return swapped_of(width)
    if name in ("ctpop", "ctlz", "cttz"):
        return counted_of(name, width)
    return None
