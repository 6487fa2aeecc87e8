"""Where a line of a compiler's text stands in C, as its debug information has it.

An instruction ends with `!dbg !26`, and `!26 = !DILocation(line: 9, column: 5, scope: !20)`; the file is that of the
scope or of one around it. A function's head and a variable name their items alike; a structure's type and an alias are
found by name.
"""

import re
from collections import namedtuple

# the column is None where an item has none
Place = namedtuple("Place", "file line column")


class Places:
    def __init__(self, text):
        self.items = dict(re.findall(r"^!(\d+) = (.*)$", text, re.M))

    def field(self, number, name):
        """A field of an item, as it is written, or None."""
        found = re.search(rf"[(,] ?{name}: (\"[^\"]*\"|[^,)]*)", self.items.get(number, ""))
        return found[1] if found else None

    def file_of(self, number):
        """The name of the file of an item, by its own field or that of the scopes around it."""
        while number in self.items:
            file = self.field(number, "file")
            if file:
                return (self.field(file[1:], "filename") or '""')[1:-1]
            number = (self.field(number, "scope") or "!")[1:]
        return None

    def of_item(self, number):
        """The place that an item names, or None."""
        variable = self.field(number, "var")
        number = variable[1:] if variable else number
        line, file, column = self.field(number, "line"), self.file_of(number), self.field(number, "column")
        # line 0 is the compiler's own code
        return Place(file, int(line), int(column) if column else None) if file and line and line != "0" else None

    def of_name(self, kind, name):
        """The place of a structure's or a union's definition, or of a second name, by its name in C."""
        for number, item in self.items.items():
            if re.match(rf'(?:distinct )?!DI{kind}\(tag: \w+, name: "{re.escape(name)}"', item):
                return self.of_item(number)
        return None

    def of_line(self, line):
        """The place of a line of the text, or None where it has none."""
        found = re.search(r"!dbg !(\d+)", line)
        if found:
            return self.of_item(found[1])
        named = re.match(r'(%"?(?:struct|union)\.|@)([\w$]+)', line)
        kind = {"%": "CompositeType", "@": "ImportedEntity"}[named[1][0]] if named else None
        return self.of_name(kind, named[2]) if named else None
