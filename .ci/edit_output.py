"""What a check's output says of each function of the crate that it checked."""

import re

LINE = re.compile(r"fn ([^\s:]+(?:::[^\s:]+)*): (.*)")
# an open goal of the function whose line comes next
OPEN = re.compile(r"note: src/\S+?:\d+:\d+: it is not proved that ")
PROOF_ERROR = re.compile(r"(?:\./)?proofs/((?:[^/\s]+/)*)[^/\s]+\.antt:\d+:\d+: error: (.*)")
# a proof that names what the text no longer has shows nothing of the contract
GONE = re.compile(r"has no field|is not in scope|has no `|was not admitted|is no name")
# the text is no program
NO_PROGRAM = re.compile(r"(?:\./)?(src/\S+?):(\d+):\d+: error\[[\w-]+\]")
# a text of src/, specs/ or an edited file cannot be read by the prover
UNREAD = re.compile(r"(?:\./)?((?:src|specs)/\S+?):(\d+):\d+: error: (?:`[^`]*`: )?(.*)")
UNREAD_WORDS = re.compile(
    r"is not in scope|has no field|is no name|operand is missing|expected the end|cannot continue"
)
STALE = re.compile(r"module .Rattle-(\w+)-.*Run the lower steps again")

PROVED, GOAL, CALLS, LOST, LIMIT = "proved", "goal", "calls", "lost", "limit"


class Output:
    """The functions that a check named, and what it said of each: that it is proved, that a goal of its own isn't,
    that only a function that it calls isn't proved, that only a proof names what is gone, or a limit of the prover."""

    def __init__(self, crate, status, text):
        self.status, self.text, self.said = status, text, {}
        lines = text.split("\n")
        # folder of a proof: whether an error there is more than a name that is gone
        self.errors = {}
        for it in filter(None, map(PROOF_ERROR.match, lines)):
            folder = it[1].rstrip("/")
            self.errors[folder] = self.errors.get(folder, False) or not GONE.search(it[2])
        open_goals = False
        for line in lines:
            function = LINE.match(line)
            if function and function[1].startswith(f"{crate}::"):
                name = function[1][len(crate) + 2 :]
                self.said[name] = self.kind(name, function[2], open_goals)
                open_goals = False
            elif OPEN.match(line):
                open_goals = True

    def kind(self, name, said, open_goals):
        """Returns what is said of a function, by its line and whether open goals stand above it."""
        if said.startswith("proved"):
            return PROVED
        if "could not tell" in said:
            return LIMIT
        folder = name.replace("::", "/")
        if open_goals or "did not prove" in said or self.errors.get(folder):
            return GOAL
        if folder in self.errors or said.startswith("not proved"):
            return LOST
        return CALLS if "it calls" in said else GOAL

    def of(self, function):
        """Returns what is said of a function and its closures: of several, the one that tells most, or None."""
        found = [self.said[function]] if function in self.said else []
        for name, kind in self.said.items():
            at = name.find("fn::")
            if at >= 0 and (name[:at] + name[at + 4 :]).startswith(f"{function}::"):
                found.append(kind)
        return next((it for it in (GOAL, LIMIT, LOST, CALLS, PROVED) if it in found), None)

    def has_failed_goal(self):
        """Returns whether a goal of some function or lemma failed."""
        return GOAL in self.said.values() or any(self.errors.values())

    def broken(self):
        """Returns the places, as file and line from 0, where the text is no program or cannot be read."""
        found = [(it[1], int(it[2]) - 1) for it in map(NO_PROGRAM.match, self.text.split("\n")) if it]
        for it in filter(None, map(UNREAD.match, self.text.split("\n"))):
            if "`: " not in it[0] or UNREAD_WORDS.search(it[3]):
                found.append((it[1], int(it[2]) - 1))
        return found

    def is_no_program(self):
        return self.status == 1 and (bool(self.broken()) or bool(re.search(r"\berror\[[\w-]+\]", self.text)))

    def first_error(self):
        """Returns the first line that tells of an error, or how the check ended."""
        found = (it for it in self.text.split("\n") if "error" in it)
        return next(found, f"the check ended with status {self.status}")[:200]
