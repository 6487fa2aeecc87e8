"""Where the pinned and exact steps of an entry stand among its turns.

`pinned S at ID` numbers the steps of the guided run on the entry's own input, and this run isn't told. But in it the
owner of the next turn takes steps alone until it has done that turn; each step goes along the program; and at step S
it stands at ID. So all ways are followed that the run may have gone through the program's blocks, and those that miss a
turn or a decision are dropped. What is left says before which turn each decision stands.
"""

from shown import GROUP_OF

MOST_WORK = 3_000_000
START, FIRST, SECOND, ENDED = range(4)


class Lost(Exception):
    """No way through the program has all turns and decisions, or there are too many to follow."""


class Walk:
    def __init__(self, shown, program):
        self.turns = shown.turns
        self.program = program
        self.gated = {turn.instr for turn in shown.turns if GROUP_OF[turn.kind] == "access"}
        self.work = 0
        self.known = {}

    def begin(self):
        """The first state: the number of turns done, and of each thread its phase and its place with those that it
        returns to."""
        places = {turn.thread: turn.instr for turn in self.turns if turn.kind == "start"}
        return 0, tuple((START, places.get(t), ()) for t in range(1 + max(turn.thread for turn in self.turns)))

    def ways_on(self, thread, turn):
        """The states of a thread after its next step, and whether this step is the turn; none where it's another."""
        if (thread, turn) not in self.known:
            self.known[thread, turn] = list(self.find_ways_on(thread, turn))
        return self.known[thread, turn]

    def find_ways_on(self, thread, turn):
        phase, at, returns = thread
        instr = self.program.instrs[at] if at is not None and at < len(self.program.instrs) else None
        if instr is None or phase == ENDED:
            return
        event = self.event(phase, at, instr, returns)
        if event:
            if (event, at) == (turn.kind, turn.instr):
                yield self.after_event(event, at, returns), True
        elif instr.op == "ret":
            yield (FIRST, returns[0], returns[1:]), False
        elif instr.op == "call" and instr.callee in self.program.entries:
            yield (FIRST, self.program.entries[instr.callee], (at + 1, *returns)), False
        elif instr.op in ("br", "switch"):
            for label in dict.fromkeys(instr.labels):
                yield (FIRST, self.program.target(instr.function, label), returns), False
        elif instr.op != "unreachable":
            yield (FIRST, at + 1, returns), False

    def event(self, phase, at, instr, returns):
        """The kind of event that the next step is, or None."""
        kinds = self.program.events(at)
        if phase == START:
            return "start"
        if phase == SECOND:
            return kinds[1]
        if instr.op == "ret" and not returns:
            return "exit"
        if kinds:
            return kinds[0]
        return instr.op if at in self.gated and instr.op in ("load", "store") else None

    @staticmethod
    def after_event(event, at, returns):
        if event == "exit":
            return ENDED, at, ()
        if event == "start":
            return FIRST, at, returns
        return (SECOND, at, returns) if event in ("wait", "arrive") else (FIRST, at + 1, returns)

    def step(self, state):
        """The states after the next step, that of the owner of the next turn."""
        done, threads = state
        if done == len(self.turns):
            return
        turn = self.turns[done]
        for thread, is_turn in self.ways_on(threads[turn.thread], turn):
            yield done + is_turn, (*threads[: turn.thread], thread, *threads[turn.thread + 1 :])

    def stands_at(self, state, decision):
        """Whether the next step of a state may be this decision."""
        done, threads = state
        if done == len(self.turns):
            return False
        phase, at, _ = threads[self.turns[done].thread]
        if at != decision.instr or phase != FIRST:
            return False
        op = self.program.instrs[at].op
        return op in ("br", "switch") if decision.kind == "pinned" else op in ("load", "store")

    def forward(self, decisions):
        """For each decision the states that may be there, each with those that it may come from."""
        states, at, found = {self.begin(): {None}}, 0, []
        for decision in decisions:
            while at < decision.step:
                coming = {}
                for state, origins in states.items():
                    for after in self.step(state):
                        coming.setdefault(after, set()).update(origins)
                self.work += len(states)
                states, at = coming, at + 1
                if not states or self.work > MOST_WORK:
                    raise Lost
            here = {state: origins for state, origins in states.items() if self.stands_at(state, decision)}
            found.append(here)
            states = {state: {state} for state in here}
        return found


def places(shown, program):
    """For each decision the numbers of the turns that may be the next where it stands: all there are, ascending, and
    mostly one. Raises Lost."""
    decisions = sorted(shown.decisions, key=lambda it: (it.step, it.kind))
    found = Walk(shown, program).forward(decisions)
    at, kept = {}, None
    for decision, here in zip(reversed(decisions), reversed(found)):
        states = here if kept is None else [state for state in here if state in kept]
        if not states:
            raise Lost
        at[decision] = sorted({done for done, _ in states})
        kept = set().union(*(here[state] for state in states))
    return at
