"""Where each thread waits at the end of a run that can't go on, and for what: from the turns of the run and its program.

The turns tell which threads have ended, who holds a mutex, who waits on a condition variable and who has arrived at a
barrier. A thread that waits stands at the first event behind its last turn that the program's ways lead to. Where the text
names no object for it, it is one of those that can't be had.
"""

import re
from collections import namedtuple

from texts import NAME, THREADS_FROM, operand, place_name
from walk import ENDED, FIRST, SECOND, START, Walk

# a thread, the instruction at which it waits, where that is and for what, in words
Waiting = namedtuple("Waiting", "thread instr place for_what")

BLOCKING = {"lock": "pthread_mutex_lock", "join": "pthread_join", "wake": "pthread_cond_wait", "leave": "pthread_barrier_wait"}


class Unclear(Exception):
    """The turns and the program don't tell where a thread waits."""


class Roots:
    """What an operand is made of: the global or the local variable from which its pointer is moved or loaded."""

    def __init__(self, program):
        self.program = program
        self.made = {}
        for it in program.instrs:
            named = re.match(rf"(%{NAME}) = ", it.text)
            if named:
                self.made[it.function, named[1]] = it

    def of(self, function, name):
        seen = set()
        while name.startswith("%") and name not in seen:
            seen.add(name)
            instr = self.made.get((function, name))
            if instr is None or instr.op == "alloca":
                return function, name
            if instr.op not in ("load", "getelementptr"):
                return None
            found = re.search(rf"\bptr ([@%]{NAME}|getelementptr.*)", instr.text)
            if not found:
                return None
            name = found[1]
        named = re.search(rf"@{NAME}", name)
        return (None, named[0]) if named else None


class Objects:
    """Who holds what behind the turns."""

    def __init__(self, turns, program, roots):
        self.program, self.roots = program, roots
        self.holder, self.arrived, self.waiters, self.signalled = {}, {}, {}, {}
        self.mutex_of, self.ended, self.made, self.joined = {}, set(), {}, set()
        for turn in turns:
            self.take(turn)

    def take(self, turn):
        thread, place = turn.thread, turn.object
        if turn.kind == "create":
            self.made[place] = turn
        elif turn.kind == "exit":
            self.ended.add(thread)
        elif turn.kind == "join":
            self.joined.add(place)
        elif turn.kind == "lock" or turn.kind == "trylock" and place not in self.holder:
            self.holder[place] = turn
        elif turn.kind in ("unlock", "mutex-init", "mutex-destroy"):
            self.holder.pop(place, None)
        elif turn.kind == "wait":
            self.mutex_of[thread] = self.mutex_at(turn)
            self.holder.pop(self.mutex_of[thread], None)
            self.waiters.setdefault(place, []).append(thread)
        elif turn.kind in ("signal", "broadcast"):
            for woken in self.waiters.get(place, [])[: 1 if turn.kind == "signal" else None]:
                self.waiters[place].remove(woken)
                self.signalled[woken] = turn
        elif turn.kind == "wake":
            self.signalled.pop(thread, None)
            if self.mutex_of.get(thread) is not None:
                self.holder[self.mutex_of[thread]] = turn
        elif turn.kind == "arrive":
            self.arrived[place] = self.arrived.get(place, []) + [thread]
        elif turn.kind == "leave":
            # who leaves was released, and with it all that had arrived
            self.arrived[place] = [it for it in self.arrived.get(place, []) if it != thread]

    def mutex_at(self, turn):
        """The mutex of a wait: the one that its thread holds, or that of those which the operand may be."""
        held = self.possible(turn.instr, 1, [place for place, it in self.holder.items() if it.thread == turn.thread])
        return held[-1] if held else None

    def possible(self, instr, at, places):
        """Those of the places that an operand may be, by the variable that the text names."""
        it = self.program.instrs[instr]
        root = self.roots.of(it.function, operand(it, at))
        if not root or root[0] is not None:
            return places
        for name, begin, size in self.program.globals:
            if root[1] in (f"@{name}", f'@"{name}"'):
                within = [place for place in places if begin <= place < begin + max(8, size)]
                # a pointer that was loaded out of a variable leads elsewhere
                return within or places
        return places


class Waits:
    """What the threads wait for behind these turns. `asked` has of threads the number that their last step asks for: the
    word of a lock's pointer, or a thread's; the others' is worked out as far as the text tells."""

    def __init__(self, turns, program, asked):
        self.turns, self.program, self.asked = turns, program, asked
        self.roots = Roots(program)
        self.objects = Objects(turns, program, self.roots)
        shown = type("Turns", (), {"turns": turns})
        self.walk = Walk(shown, program)
        # of each turn the calls that it stands in, as the instructions to which they return
        self.calls = {}

    def all(self):
        """Of each thread that hasn't ended, in their order, where it waits and for what."""
        threads = sorted({it.thread for it in self.turns} | set(self.objects.made))
        own = {thread: [it for it in self.turns if it.thread == thread] for thread in threads}
        coming = {thread: self.next_events(own[thread]) for thread in threads if thread not in self.objects.ended}
        return [self.of(thread, own[thread][-1], found) for thread, found in coming.items()]

    def of(self, thread, last, found):
        """Where a thread waits whose next event is one of those found, with the calls that it stands in."""
        ways = sorted(it for it in found if it[0] in BLOCKING)
        told = [(at, calls, kind, words) for kind, at, calls in ways if (words := self.for_what(thread, kind, at, last))]
        if not told:
            raise Unclear(f"where thread {thread} waits isn't clear")
        at, calls, kind, words = told[0]
        others = len({it[0] for it in told}) - 1
        return Waiting(thread, at, self.where(at, calls), f"{BLOCKING[kind]} {words}" + (f", or at {others} other places" if others else ""))

    def next_events(self, own):
        """The events behind a thread's last turn that the ways of the program lead to, with their instructions and calls."""
        if not own:
            raise Unclear("a thread has no turn")
        states = {(START, own[0].instr, ())}
        for turn in own:
            found = {it for kind, it in self.reach(states) if (kind, it[1]) == (turn.kind, turn.instr)}
            if not found:
                raise Unclear(f"the ways of the program don't lead to turn {turn.number}")
            self.calls[turn.number] = min(found)[2]
            states = {self.walk.after_event(turn.kind, at, calls) for _, at, calls in found}
        return {(kind, at, calls) for kind, (_, at, calls) in self.reach(states)}

    def reach(self, states):
        """The events to which quiet steps lead from these states of a thread, each with the state before it."""
        seen, waiting = set(states), list(states)
        while waiting:
            state = waiting.pop()
            phase, at, returns = state
            instr = self.program.instrs[at] if at < len(self.program.instrs) else None
            if instr is None or phase == ENDED:
                continue
            kind = self.walk.event(phase, at, instr, returns)
            if kind:
                yield kind, state
                continue
            for after in self.quiet(at, instr, returns):
                if after not in seen:
                    seen.add(after)
                    waiting.append(after)

    def quiet(self, at, instr, returns):
        if instr.op == "ret":
            yield FIRST, returns[0], returns[1:]
        elif instr.op == "call" and instr.callee in self.program.entries:
            # a function that calls itself has no end of such ways
            if len(returns) < 64:
                yield FIRST, self.program.entries[instr.callee], (at + 1, *returns)
        elif instr.op in ("br", "switch"):
            for label in dict.fromkeys(instr.labels):
                yield FIRST, self.program.target(instr.function, label), returns
        elif instr.op != "unreachable":
            yield FIRST, at + 1, returns

    def for_what(self, thread, kind, at, last):
        """What a thread waits for at such an event; nothing where it wouldn't wait."""
        if kind == "lock":
            held = self.objects.possible(at, 0, sorted(self.objects.holder))
            if thread in self.asked:
                held = [place for place in held if place == place_of(self.asked[thread])]
            return "of " + ", or of ".join(self.held(place, thread) for place in held) if held else None
        if kind == "join":
            live = [it for it in self.joinable(at) if it != thread]
            if thread in self.asked:
                live = [it for it in live if it == self.asked[thread]]
            return "for the end of thread " + " or ".join(str(it - 1) for it in live) if live else None
        place = self.name(last.object)
        if kind == "leave":
            others = [it for it in self.objects.arrived.get(last.object, [])]
            return f"at the barrier {place}, at which {len(others)} wait"
        mutex = self.objects.mutex_of.get(thread)
        if thread in self.objects.signalled:
            return f"on {place}, signalled, for the mutex " + (self.held(mutex, thread) if mutex in self.objects.holder else "")
        return f"on {place}, which nobody signals"

    def joinable(self, at):
        """The threads that haven't ended and may be a join's operand: those of the creates that write its variable."""
        instr = self.program.instrs[at]
        root = self.roots.of(instr.function, operand(instr, 0))
        live = [it for it in self.objects.made if it not in self.objects.ended]
        made = [
            it
            for it in live
            if root and root == self.roots.of(self.program.instrs[self.objects.made[it].instr].function, operand(self.program.instrs[self.objects.made[it].instr], 0))
        ]
        return made or live

    def held(self, place, thread):
        turn = self.objects.holder[place]
        who = "which it holds itself" if turn.thread == thread else f"which thread {turn.thread - 1} holds"
        return f"{self.name(place)}, {who} since {self.where(turn.instr, self.calls.get(turn.number, ()))}"

    def where(self, instr, calls):
        """An instruction's line in C, that of the first call of those it stands in where it has none; else its line in the
        text."""
        program, it = self.program, self.program.instrs[instr]
        for at in [instr, *(call - 1 for call in calls)]:
            place = program.c_places.of_line(program.lines[program.instrs[at].line - 1])
            if place:
                return f"{place.file}:{place.line}" + ("" if at == instr else f", within {it.function}")
        return f"{program.name}:{it.line}"

    def name(self, place):
        """A place in C's names."""
        name = place_name(place, self.program)
        if name.startswith("@"):
            variable, _, behind = name[1:].partition("+")
            return f"{variable}, byte {behind}" if behind else variable
        if place // 8 >= THREADS_FROM:
            thread, behind = name[7:].split("+")
            return f"memory of thread {int(thread) - 1}, byte {behind}"
        return f"place {name}"


def place_of(word):
    """The byte place of a pointer's word."""
    return 8 * (word % 2**64 >> 42) + word % 2**21
