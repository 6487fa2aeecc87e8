"""Values of conditions as formulas over the numbers of a line, in the signs of C.

What doesn't hang on the line stands as a number. A u behind a sign says that its operands are read without a sign. `i32(x)`
is x cut to 32 bits, `u32(x)` is x read as 32 bits without a sign. A formula that is too long is dots.
"""

from conditions import bits_in, computed, pointed_at, signed

SIGNS = {
    "add": "+", "sub": "-", "mul": "*", "udiv": "/u", "sdiv": "/", "urem": "%u", "srem": "%",
    "shl": "<<", "lshr": ">>u", "ashr": ">>", "and": "&", "or": "|", "xor": "^",
    "eq": "==", "ne": "!=", "ugt": ">u", "uge": ">=u", "ult": "<u", "ule": "<=u", "sgt": ">", "sge": ">=", "slt": "<", "sle": "<=",
}
CASTS = ("trunc", "zext", "sext")
# the most characters of a formula
LONGEST = 160


class Formulas:
    """The formula of each value."""

    def __init__(self, conditions):
        self.values = conditions.values
        # by value: its number, where that doesn't hang on the line; how many bits it has at most; whether it is a truth
        self.numbers, self.bits, self.truths, self.texts = [], [], [], []
        for value in self.values:
            self.numbers.append(self.number(value))
            self.bits.append(self.most_bits(value))
            self.truths.append(self.makes_truth(value))
            text = self.text(value)
            self.texts.append(text if len(text) <= LONGEST else "..")

    def of(self, node):
        """The formula of a value; a number is read with a sign."""
        return self.read(node, 64)

    def is_truth(self, node):
        """Whether a value is the result of a comparison, or is made of such."""
        return self.truths[node]

    # ---- what is known of a value

    def number(self, value):
        """The number of a value that doesn't hang on the line, else None."""
        if value.words[0] in ("input", "length"):
            return None
        parts = [self.numbers[it] for it in value.nodes]
        if value.words[0] == "select":
            return None if parts[0] is None else parts[1] if parts[0] % 2 else parts[2]
        return None if None in parts else computed(value, parts, [])

    def most_bits(self, value):
        """How many bits the number of a value has at most."""
        kind = value.words[0]
        if self.numbers[-1] is not None:
            return self.numbers[-1].bit_length()
        if kind == "icmp":
            return 1
        if kind in ("zext", "trunc"):
            return min(self.bits[value.nodes[0]], bits_in(value.words[1]), bits_in(value.words[4]))
        if kind == "sext":
            return bits_in(value.words[4])
        if kind == "and":
            return min(self.bits[it] for it in value.nodes)
        if kind in ("byte", "join"):
            return 8 * max(1, len(value.nodes))
        if kind == "select":
            return max(self.bits[it] for it in value.nodes[1:])
        return 64 if kind in ("input", "length", "move") else bits_in(value.words[1])

    def makes_truth(self, value):
        kind = value.words[0]
        if kind == "select":
            return all(self.truths[it] for it in value.nodes[1:])
        if kind in CASTS:
            return bits_in(value.words[4]) == 1
        return kind == "icmp" or kind in SIGNS and bits_in(value.words[1]) == 1

    # ---- parts of a formula

    def read(self, node, bits):
        """The formula of a value; a number is read as one of so many bits with a sign."""
        number = self.numbers[node]
        return self.texts[node] if number is None else str(signed(number % 2**bits, bits))

    def operand(self, node, bits, with_sign=True):
        """The formula of a value within another one."""
        text = self.read(node, bits) if with_sign else self.texts[node]
        return f"({text})" if " " in text else text

    def place(self, node):
        """The formula of a pointer: the place of its byte, where it doesn't hang on the line."""
        number = self.numbers[node]
        if number is None:
            return self.operand(node, 64)
        return f"place {pointed_at(number)}"

    def cast(self, value):
        """The formula of a value in another width: itself where nothing is cut or read in another way."""
        kind, begin, _, _, end = value.words
        node, begin, end = value.nodes[0], bits_in(begin), bits_in(end)
        if kind == "sext":
            return self.read(node, begin)
        inner = self.values[node].words
        if kind == "trunc" and inner[0] in ("zext", "sext") and bits_in(inner[1]) == end:
            return self.texts[self.values[node].nodes[0]]
        if self.bits[node] <= min(begin, end):
            return self.texts[node]
        return f"{'i' if kind == 'trunc' else 'u'}{min(begin, end)}({self.of(node)})"

    def joined(self, value):
        """The formula of bytes: that of the value whose lowest bytes they are, where they are those of one."""
        parts = [self.values[it] for it in value.nodes]
        if any(it.words[:2] != ["byte", str(at)] or it.nodes != parts[0].nodes for at, it in enumerate(parts)):
            return f"bytes {', '.join(self.operand(it, 8, False) for it in value.nodes)}"
        whole, bits = parts[0].nodes[0], 8 * len(parts)
        return self.texts[whole] if self.bits[whole] <= bits else f"i{bits}({self.of(whole)})"

    def text(self, value):
        words, nodes = value.words, value.nodes
        kind = words[0]
        if self.numbers[-1] is not None:
            return str(self.numbers[-1])
        if kind == "length":
            return "pg_in_len()"
        if kind == "input":
            return f"pg_in({self.read(nodes[0], 64)})"
        if kind in CASTS:
            return self.cast(value)
        if kind == "select":
            return f"{self.operand(nodes[0], 1)} ? {self.operand(nodes[1], 64)} : {self.operand(nodes[2], 64)}"
        if kind == "move":
            return f"{self.place(nodes[0])} + {self.operand(nodes[1], 64)}"
        if kind == "byte":
            return f"byte {words[1]} of {self.operand(nodes[0], 64)}"
        if kind == "join":
            return self.joined(value)
        name, bits = (words[1], bits_in(words[2])) if kind == "icmp" else (kind, bits_in(words[1]))
        with_sign = not SIGNS[name].endswith("u")
        return f"{self.operand(nodes[0], bits, with_sign)} {SIGNS[name]} {self.operand(nodes[1], bits, with_sign)}"
