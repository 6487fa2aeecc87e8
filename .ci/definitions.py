"""What a statement rests on: the definitions, the types, the constants and the traits that it names, and those that these name.

An item is (crate, module, name): a definition of specs/, or a type, a constant or a trait of src/. A text names an item by
a word that its file imports or defines. A type with a model stands for the definitions that its model names, and any other
for what its declaration names. A local name that is also that of a definition of the same file counts as this, so more may
be found than is needed, and never less.
"""

import os
import re

# a word, an operator, or the dot before a field or a name of a module: the dot behind a lambda's names has a blank behind it
WORD = re.compile(r"[^\W\d][\w'-]*|[^\s\w(){}\[\];,.\"λ]+|(?<=[\w')])\.(?=[^\W\d])")
DEFINITION = re.compile(r"(?:(?:abbrev|unfoldable|opaque|pub|record|data)\s+)*(◌?[^\s(){};.◌]+◌?)(?=\s|$)")
KEYWORDS = {"infixl", "infixr", "infix"}
# a block of definitions, each further in by two blanks
BLOCK = re.compile(r"(?:\w+ )*(?:module|mutual)\b")
CONSTRUCTOR = re.compile(r"^\s+(?:pub )?([^\W\d][\w']*)\s*:", re.M)
IMPORT = re.compile(r"^\s*(pub )?(?:ghost )?use ([\w:.]+?)(?:(?:\.|::)\{([^}]*)\}| as (\w+))?;?\s*$", re.M)
DECLARATION = re.compile(r"^(?:pub(?:\([^)]*\))? )?(struct|enum|trait|const|type) (\w+)", re.M)


def read(path):
    with open(path, encoding="utf-8") as file:
        return file.read()


def bare(name):
    """The word that stands for an operator, `or` of ◌or◌, or the name itself."""
    return name.strip("◌")


def without_comments(text):
    return "\n".join(line for line in text.split("\n") if not line.lstrip().startswith(("--", "//")))


def block_from(text, start):
    """The declaration that begins at `start`: up to the bracket that closes its first one, or to the first semicolon."""
    depth = 0
    for at in range(start, len(text)):
        if text[at] in "({[":
            depth += 1
        elif text[at] in ")}]":
            depth -= 1
            if depth == 0 and text[at] == "}":
                return text[start : at + 1]
        elif text[at] == ";" and depth == 0:
            return text[start : at + 1]
    return text[start:]


class Texts:
    """The texts of a checkout: its definitions with what each names, and the declarations of its code."""

    def __init__(self, top):
        self.top = top
        # of each file of specs/, by (crate, module): its path, its imports, its definitions by name
        self.specs = {}
        # of each file of src/, by (crate, module): its path and its text
        self.sources = {}
        # where a crate declares a type, a constant or a trait of this name, and those of other crates that it passes on
        self.declared = {}
        self.passed_on = {}
        # the names that a file imports and that weren't found: with any, less may be found than is needed
        self.missing = set()
        for crate in sorted(os.listdir(os.path.join(top, "crates"))):
            for kind, ending in (("specs", ".antt"), ("src", ".rt")):
                for path, module in self.files_of(crate, kind, ending):
                    if kind == "specs":
                        self.add_definitions(crate, module, path)
                    else:
                        self.add_source(crate, module, path)

    def files_of(self, crate, kind, ending):
        """The files of a part of a crate, each with its module."""
        folder = os.path.join(self.top, "crates", crate, kind)
        for here, _, names in sorted(os.walk(folder)):
            for name in sorted(names):
                if name.endswith(ending):
                    path = os.path.join(here, name)
                    module = os.path.relpath(path, folder)[: -len(ending)].replace("/", ".")
                    yield os.path.relpath(path, self.top), module

    def add_definitions(self, crate, module, path):
        text = without_comments(read(os.path.join(self.top, path)))
        definitions, now, header = {}, None, ""
        inside = False
        for line in text.split("\n"):
            if line and not line[0].isspace():
                inside = BLOCK.match(line) is not None
                header = line if inside else ""
                if inside:
                    now = None
                    continue
            elif inside:
                line = line[2:]
            found = DEFINITION.match(line)
            if line.startswith(("use ", "pub use ")):
                now = None
            elif found and not line[0].isspace() and found.group(1) not in KEYWORDS:
                now = bare(found.group(1))
                definitions.setdefault(now, [header] if header else [])
            if now and line.strip():
                definitions[now].append(line)
        definitions = {name: "\n".join(lines) for name, lines in definitions.items()}
        self.specs[crate, module] = (path, self.imports_of(crate, text), definitions)

    def add_source(self, crate, module, path):
        text = without_comments(read(os.path.join(self.top, path)))
        self.sources[crate, module] = (path, text)
        for found in DECLARATION.finditer(text):
            self.declared.setdefault((crate, found.group(2)), (module, found.group(1), found.start()))
        for name, item in self.imports_of(crate, text)[2].items():
            if item[0] != crate:
                self.passed_on[crate, name] = item

    # ---- names

    def imports_of(self, crate, text):
        """What a text imports: the items that its words stand for, and the modules."""
        names, modules, public = {}, {}, {}
        for found in IMPORT.finditer(text):
            is_public, path, listed, alias = found.groups()
            parts = re.split(r"\.|::", path)
            if parts[0] == "Rattle":
                parts = parts[1:]
                into = self.of_specs
            else:
                if parts[0] == "crate":
                    parts[0] = crate
                into = self.of_source
            if not parts[0].startswith("pg_"):
                continue
            parts = self.home_of(parts)
            if listed is None:
                word = alias or parts[-1]
                if into is self.of_source:
                    names[word] = (parts[0], None, parts[-1])
                    if is_public:
                        public[word] = names[word]
                elif "declared" in parts:
                    names[word] = into(parts, None)
                else:
                    modules[word] = (parts[0], ".".join(parts[2:]))
                continue
            for item in listed.split(","):
                item, _, other = item.strip().partition(" as ")
                if item:
                    names[bare(other.strip() or item)] = into(parts, bare(item))
                    if is_public:
                        public[bare(other.strip() or item)] = names[bare(other.strip() or item)]
        return names, modules, public

    @staticmethod
    def home_of(parts):
        """The parts of a path, from the crate on whose item it names: a crate may hand on the ones below it by their names."""
        at = max((at for at, it in enumerate(parts) if it.startswith("pg_")), default=0)
        return [parts[at], *(["specs"] if at and parts[1] == "specs" else []), *parts[at + 1 :]]

    @staticmethod
    def of_specs(parts, name):
        """The item that a path of specs names: a definition of a module, a type with its variants and views, or a constant."""
        crate, rest = parts[0], parts[2:]
        if rest[:1] == ["contracts"] and name == "the_type":
            return (crate, None, rest[-1])
        if rest[:1] != ["declared"]:
            return (crate, ".".join(rest), name)
        if rest[-1] == "TheConstants":
            return (crate, None, name)
        if rest[-1].startswith("The"):
            rest = rest[:-1]
        return (crate, None, rest[-1])

    @staticmethod
    def of_source(parts, name):
        return (parts[0], None, name)

    def item_of(self, item):
        """The item as it stands: a name that a file only passes on is that of its own file, and a variant is its type."""
        crate, module, name = item
        if module is None:
            found = self.declared.get((crate, name))
            if not found and (crate, name) in self.passed_on:
                return self.item_of(self.passed_on[crate, name])
            return found and ("src", crate, found[0], name)
        if (crate, module) not in self.specs:
            return self.item_of((*self.handed_on(crate)[module], name)) if module in self.handed_on(crate) else None
        _, (names, _, public), definitions = self.specs[crate, module]
        if name in definitions:
            return ("specs", crate, module, name)
        for of, text in definitions.items():
            if re.search(r"^(?:pub )?data ", text, re.M) and name in CONSTRUCTOR.findall(text):
                return ("specs", crate, module, of)
        if name in public:
            return self.item_of(public[name])
        return None

    def handed_on(self, crate):
        """The modules of other crates that a crate hands on as its own, by a line `pub use` of specs/Lib.antt."""
        _, (_, modules, _), _ = self.specs.get((crate, "Lib"), ("", ({}, {}, {}), {}))
        return modules

    # ---- what an item names

    def words_of(self, text):
        """The words of a text, each with the word before its dot, if it has one. The name of a field that is set or
        declared is none."""
        text = re.sub(r"(?m)^(\s+pub )[^\W\d][\w']*(\s*:)", r"\1\2", text)
        text = re.sub(r"([{;]\s*)[^\W\d][\w']*(\s*=[^=])", r"\1\2", text)
        words = WORD.findall(text)
        for at, word in enumerate(words):
            if word != ".":
                behind_dot = at >= 1 and words[at - 1] == "."
                yield (words[at - 2] if behind_dot and at >= 2 else "" if behind_dot else None), word

    def named_in(self, crate, module, text, imports, own):
        """The items that a text names, by its imports and the names of its own file."""
        names, modules, _ = imports
        for before, word in self.words_of(text):
            if before in modules:
                item = self.item_of((*modules[before], word))
            elif before is not None:
                continue
            elif word in own:
                item = self.item_of((crate, module, word))
            elif word in names:
                item = self.item_of(names[word])
                if item is None:
                    self.missing.add(f"{crate}, {module or 'a contract'}: {word}")
            else:
                continue
            if item:
                yield item
        for of, path, word in re.findall(r"Rattle\.(pg_\w+)\.specs\.([\w.]+)\.([\w']+)", text):
            of, _, *path = self.home_of([of, "specs", *path.split(".")])
            item = self.item_of((of, ".".join(path), word))
            if item:
                yield item

    def own_words(self, crate, module):
        definitions = self.specs[crate, module][2]
        own = set(definitions)
        for text in definitions.values():
            if re.search(r"^(?:pub )?data ", text, re.M):
                own.update(CONSTRUCTOR.findall(text))
        return own

    def names_of(self, item):
        kind, crate, module, name = item
        if kind == "specs":
            _, imports, definitions = self.specs[crate, module]
            yield from self.named_in(crate, module, definitions[name], imports, self.own_words(crate, module))
            return
        text = self.sources[crate, module][1]
        model = re.search(rf"^impl(?:<[^{{]*>)? Model for {name}\b", text, re.M)
        if model:
            block = block_from(text, model.start())
            value = re.search(r"ghost Value = \{(.*?)\};", block, re.S)
            text_of, names = value.group(1) if value else "", self.imports_of(crate, text + "\n" + block)
            yield from self.named_in(crate, module, text_of, names, set())
            return
        yield from self.named_by_source(crate, module, self.declaration(item))

    def declaration(self, item):
        _, crate, module, name = item
        return block_from(self.sources[crate, module][1], self.declared[crate, name][2])

    def named_by_source(self, crate, module, text):
        """The items that a text of src/ names: what its file imports, and the types, constants and traits of its crate."""
        imports = self.imports_of(crate, self.sources[crate, module][1])
        names = dict(imports[0])
        for (of, name), _ in self.declared.items():
            if of == crate:
                names.setdefault(name, (crate, None, name))
        yield from self.named_in(crate, module, text, (names, imports[1], {}), set())

    def has_model(self, item):
        _, crate, module, name = item
        return re.search(rf"^impl(?:<[^{{]*>)? Model for {name}\b", self.sources[crate, module][1], re.M) is not None

    # ---- statements

    def contract(self, crate, module, function):
        """The items that the contract of a public function names, its types and their traits among them."""
        text = self.sources[crate, module][1]
        found = re.search(rf"^pub fn {function}\b.*?^\{{", text, re.M | re.S)
        if not found:
            raise LookupError(f"crates/{crate}/src/{module.replace('.', '/')}.rt has no function {function}")
        return list(self.named_by_source(crate, module, found.group(0)))

    def definition(self, path):
        """The item of a path such as pg_run.specs.Permitted.IsFull."""
        crate, _, *module, name = path.split(".")
        item = self.item_of((crate, ".".join(module), name))
        if not item:
            raise LookupError(f"no definition {path}")
        return item

    def closure(self, items):
        """The items, and all that they rest on."""
        seen, left = set(), list(items)
        while left:
            item = left.pop()
            if item not in seen:
                seen.add(item)
                left.extend(self.names_of(item))
        return seen

    # ---- files

    def path_of(self, item):
        kind, crate, module, _ = item
        return (self.specs if kind == "specs" else self.sources)[crate, module][0]

    def lines_of(self, item):
        """How many lines the item has that aren't blank and no comments."""
        kind, crate, module, name = item
        text = self.specs[crate, module][2][name] if kind == "specs" else self.declaration(item)
        return len([line for line in text.split("\n") if line.strip()])
