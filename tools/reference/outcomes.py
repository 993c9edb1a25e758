"""What every run of a text has in common, whatever order its locks are granted in: the program `outcomes`, computed from the rules alone.

A value is ("known", v), or ("offset", w, k), which is what word w held when its lock was taken, plus k, or ("varying",)."""

import random

from .isa import MASK, alu, decode, signed
from .one_memory import flat
from .report import answer_text, outcome
from .task import TaskState

VARYING = ("varying",)


def known(number):
    return "known", number & MASK


def is_known(value):
    return value[0] == "known"


class Open(Exception):
    """Why it is open what the runs have in common; the message is the line's end."""


def computed(op, a, b):
    """The result of an ALU operation on two values."""
    if is_known(a) and is_known(b):
        return known(alu(op, a[1], b[1]))
    if op == (0, 0) and a[0] == "offset" and is_known(b):
        return "offset", a[1], a[2] + b[1] & MASK
    if op == (0, 0) and is_known(a) and b[0] == "offset":
        return "offset", b[1], b[2] + a[1] & MASK
    if op == (0, 32) and a[0] == "offset" and is_known(b):
        return "offset", a[1], a[2] - b[1] & MASK
    return VARYING


class Alone:
    """A task that runs alone from the memory at its phase's beginning, with values in place of numbers."""

    def __init__(self, program, decoded, number, phase, core, fuel, memory):
        self.number, self.core, self.decl, self.first = number, core, phase[core], memory
        self.task = TaskState(program, decoded, self.decl, fuel)
        self.regs = [known(value) for value in self.task.regs]
        self.others = [phase[other] for other in phase if other != core]
        self.own = {}           # what it has stored last in words that aren't shared
        self.section = {}       # what it has stored last in shared words, in the present sections
        self.effects = []       # (word, effect) of its sections that have ended
        self.acquired, self.over = set(), set()

    def is_shared(self, word):
        return any(word in other.writes or any(word in words for words in other.gwrites.values()) for other in self.others)

    def is_guarded_by(self, word, lock):
        return word in self.decl.gwrites.get(lock, ()) or word in self.decl.greads.get(lock, ())

    def seen(self, word):
        if self.is_shared(word):
            return self.section.get(word, ("offset", word, 0))
        return self.own.get(word, self.first[word])

    def value(self, register):
        return self.regs[register] if register else known(0)

    def write(self, register, value):
        if register:
            self.regs[register] = value

    def deciding(self, instr):
        """The registers that decide what the next instruction does."""
        name = instr[0] if instr else None
        if name in ("load", "store"):
            return [instr[3]]
        if name == "jalr":
            return [instr[2]]
        if name == "branch":
            return [] if instr[2] == instr[3] else [instr[2], instr[3]]
        if name == "ecall":
            return [17, 10] if self.value(17) in (known(1), known(2)) else [17]
        return []

    def next_instr(self):
        place = (self.task.pc - 0x1000) // 4
        return self.task.decoded[place] if self.task.pc % 4 == 0 and 0 <= place < len(self.task.decoded) else None

    def run(self):
        while self.task.end is None:
            instr = None
            if self.task.retired != self.task.fuel:
                instr = self.next_instr()
                if not all(is_known(self.value(register)) for register in self.deciding(instr)):
                    raise Open("control %d %d 0x%08x" % (self.number, self.core, self.task.pc))
            self.task.regs = [value[1] if is_known(value) else 0 for value in self.regs]
            self.step(instr, self.task.need())

    def step(self, instr, need):
        if need[0] == "end":
            self.task.stop(need[1])
            for lock in sorted(self.task.held):
                self.end_section(lock)
        elif need[0] == "load":
            self.load(instr, need[1])
        elif need[0] == "store":
            self.store(instr, need[1])
        elif need[0] == "acquire":
            self.over |= {(held, need[1]) for held in self.task.held}
            self.acquired.add(need[1])
            self.task.held.add(need[1])
            self.task.retire()
        elif need[0] == "release":
            self.end_section(need[1])
            self.task.held.discard(need[1])
            self.task.retire()
        else:
            self.local(instr)

    def local(self, instr):
        self.task.local()
        if instr[0] == "alui":
            self.write(instr[2], computed(instr[1], self.value(instr[3]), known(instr[4])))
        elif instr[0] == "alu":
            self.write(instr[2], computed(instr[1], self.value(instr[3]), self.value(instr[4])))
        elif instr[0] in ("const", "auipc", "jal", "jalr"):
            self.write(instr[1], known(self.task.regs[instr[1]]))

    def load(self, instr, word):
        value = self.seen(word)
        if is_known(value):
            self.task.loaded(value[1])
            self.write(instr[2], known(self.task.regs[instr[2]]))
        else:
            self.task.loaded(0)
            self.write(instr[2], value if instr[1] == 2 else VARYING)

    def store(self, instr, word):
        shared, value, before = self.is_shared(word), self.value(instr[2]), self.seen(word)
        if instr[1] != 2:
            value = known(self.task.merged(before[1])) if is_known(before) and is_known(value) else VARYING
        elif value[0] == "offset" and not (shared and value[1] == word):
            value = VARYING
        (self.section if shared else self.own)[word] = value
        self.task.retire()

    def end_section(self, lock):
        for word in [word for word in self.section if self.is_guarded_by(word, lock)]:
            value = self.section.pop(word)
            self.effects.append((word, {"known": ("set", value[-1]), "offset": ("add", value[-1])}.get(value[0], ("other", 0))))
        for register, value in enumerate(self.regs):
            if value[0] == "offset" and self.is_guarded_by(value[1], lock):
                self.regs[register] = VARYING


def after(memory, phase, alone):
    """Memory after a phase, word by word."""
    def writes(core, word):
        decl = phase[core]
        return word in decl.writes or any(word in words for words in decl.gwrites.values())

    made = list(memory)
    for word, before in enumerate(memory):
        writers = [core for core in phase if writes(core, word)]
        if len(writers) == 1:
            made[word] = alone[writers[0]].own.get(word, before)
        elif writers:
            effects = [effect for core in writers for at, effect in alone[core].effects if at == word]
            if effects and all(kind == "add" for kind, _ in effects) and is_known(before):
                made[word] = known(before[1] + sum(k for _, k in effects))
            elif effects and all(effect == effects[0] for effect in effects) and effects[0][0] == "set":
                made[word] = known(effects[0][1])
            elif effects:
                made[word] = VARYING
    return made


def on_a_circle(lock, edges):
    reached, fresh = set(), {lock}
    while fresh:
        fresh = {b for a, b in edges if a in fresh} - reached
        reached |= fresh
    return lock in reached


def outcomes(program, fuel):
    """The ends of all tasks, and the memory, in which a word may be None: it may vary. `Open` if that isn't settled."""
    memory, decoded, ends = [known(word) for word in program.memory], [decode(word) for word in program.code], []
    for number, phase in enumerate(program.phases):
        alone = {core: Alone(program, decoded, number, phase, core, fuel, memory) for core in sorted(phase)}
        for task in alone.values():
            task.run()
        for core, task in alone.items():
            for lock in sorted(task.task.held):
                if any(lock in other.acquired for at, other in alone.items() if at != core):
                    raise Open("held %d %d %d" % (number, core, lock))
        edges = set().union(*(task.over for task in alone.values())) if alone else set()
        for lock in range(len(program.locks)):
            if on_a_circle(lock, edges):
                raise Open("stuck %d %d" % (number, lock))
        memory = after(memory, phase, alone)
        ends += [(number, core, task.task.end, task.task.retired) for core, task in alone.items()]
        if any(task.task.end != "finished" for task in alone.values()):
            break
    return ends, [value[1] if is_known(value) else None for value in memory]


def outcomes_text(program, fuel):
    """The exit code and the lines of the program `outcomes`."""
    try:
        ends, memory = outcomes(program, fuel)
    except Open as why:
        return 3, ["open " + str(why)]
    lines = answer_text((ends, [value or 0 for value in memory]))
    return 0, lines + ["varies 0x%08x" % (0x10000000 + 4 * word) for word, value in enumerate(memory) if value is None]


def against(program, fuel, orders, seed=1):
    """Holds a settled answer against random orders of grants: the differences, as texts. None if it isn't settled."""
    try:
        ends, memory = outcomes(program, fuel)
    except Open:
        return None
    drawn, differ = random.Random(seed), []
    for _ in range(orders):
        (found, words), _, grants = flat(program, fuel, pick=drawn.choice)
        if outcome(found) != outcome(ends) or found != ends:
            differ.append("ends %s by %s" % (found, grants))
        differ += ["word %d is %d and not %d by %s" % (at, word, value, grants)
                   for at, (word, value) in enumerate(zip(words, memory)) if value is not None and word != value]
    return differ
