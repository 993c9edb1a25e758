"""One task: its registers, what its next instruction needs, and what the instruction does.

The machine of many cores and the machine of one memory both run their tasks by this."""

from .isa import MASK, alu, signed, taken


class TaskState:
    """A task, its registers, and how far it is. `end` is None, or what the report says of its end."""

    def __init__(self, program, decoded, decl, fuel):
        self.program, self.decoded, self.decl, self.fuel = program, decoded, decl, fuel
        self.regs, self.pc, self.held, self.retired, self.end = [0] * 32, decl.entry, set(), 0, None
        self.regs[10] = decl.arg

    def allowed(self, word, is_store):
        decl = self.decl
        if word in decl.writes or not is_store and word in decl.reads:
            return True
        return any(word in decl.gwrites.get(lock, ()) or not is_store and word in decl.greads.get(lock, ())
                   for lock in self.held)

    def need(self):
        """What the next instruction needs: (kind, ..)."""
        def trap(kind, value):
            return "end", "trap %s pc 0x%08x value 0x%08x" % (kind, self.pc, value & MASK)
        if self.retired == self.fuel:
            return "end", "fuel"
        if self.pc % 4 or not 0 <= self.pc - 0x1000 < 4 * len(self.decoded):
            return trap("fetch", self.pc)
        instr = self.decoded[(self.pc - 0x1000) // 4]
        if instr is None:
            return trap("illegal", self.program.code[(self.pc - 0x1000) // 4])
        regs, name = self.regs, instr[0]
        if name == "branch":
            if taken(instr[1], regs[instr[2]], regs[instr[3]]) and (self.pc + instr[4]) % 4:
                return trap("target", self.pc + instr[4])
            return ("local",)
        if name == "jal":
            return trap("target", self.pc + instr[2]) if (self.pc + instr[2]) % 4 else ("local",)
        if name == "jalr":
            goal = regs[instr[2]] + instr[3] & MASK & ~1
            return trap("target", goal) if goal % 4 else ("local",)
        if name in ("load", "store"):
            at = regs[instr[3]] + instr[4] & MASK
            width = 1 << (instr[1] & 3)
            if at % width:
                return trap("misaligned", at)
            word = (at - 0x10000000) // 4
            if not 0 <= word < len(self.program.memory) or not self.allowed(word, name == "store"):
                return trap("outside", at)
            return (name, word) if name == "load" else (name, word, width == 4)
        if name == "ebreak":
            return trap("break", 0)
        if name == "ecall":
            call, lock = regs[17], regs[10]
            if call > 2:
                return trap("call", call)
            if call == 0:
                return trap("heldend", min(self.held)) if self.held else ("end", "finished")
            if lock >= len(self.program.locks):
                return trap("nolock", lock)
            if call == 1:
                return trap("held", lock) if lock in self.held else ("acquire", lock)
            return ("release", lock) if lock in self.held else trap("nothold", lock)
        return ("local",)

    def write(self, rd, value):
        if rd:
            self.regs[rd] = value & MASK

    def instr(self):
        return self.decoded[(self.pc - 0x1000) // 4]

    def retire(self, goal=None):
        self.pc = (self.pc + 4 if goal is None else goal) & MASK
        self.retired += 1

    def local(self):
        instr, regs, goal = self.instr(), self.regs, None
        name = instr[0]
        if name == "const":
            self.write(instr[1], instr[2])
        elif name == "auipc":
            self.write(instr[1], self.pc + instr[2])
        elif name == "jal":
            goal = self.pc + instr[2]
            self.write(instr[1], self.pc + 4)
        elif name == "jalr":
            goal = regs[instr[2]] + instr[3] & ~1
            self.write(instr[1], self.pc + 4)
        elif name == "branch":
            if taken(instr[1], regs[instr[2]], regs[instr[3]]):
                goal = self.pc + instr[4]
        elif name == "alui":
            self.write(instr[2], alu(instr[1], regs[instr[3]], instr[4]))
        elif name == "alu":
            self.write(instr[2], alu(instr[1], regs[instr[3]], regs[instr[4]]))
        self.retire(goal)

    def at(self):
        instr = self.instr()
        return (self.regs[instr[3]] + instr[4]) & 3

    def loaded(self, value):
        instr = self.instr()
        bits = 8 << (instr[1] & 3)
        part = value >> 8 * self.at() & ((1 << bits) - 1)
        self.write(instr[2], part if instr[1] & 4 else signed(part, bits))
        self.retire()

    def merged(self, old):
        instr = self.instr()
        part = (1 << (8 << instr[1])) - 1
        shift = 8 * self.at()
        return old & ~(part << shift) & MASK | (self.regs[instr[2]] & part) << shift

    def stop(self, end):
        self.end = end
        if end == "finished":
            self.retired += 1
