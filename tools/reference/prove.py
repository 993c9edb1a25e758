"""The prover of effects: ranges of registers, the least closed table of a task, and whether each access is inside what is declared."""

from .isa import MASK, alu, decode, signed, taken

EVERY = 0, MASK


def in_one_stretch(least, greatest):
    """The numbers of 32 bits that whole numbers from one to another are, where they keep their order."""
    return (least & MASK, greatest & MASK) if least >> 32 == greatest >> 32 else EVERY


def ranged(op, a, b, offset=None):
    """The range of an operation's result. An immediate comes as its 32 bits in b, and with its sign as the offset."""
    if a[0] == a[1] and b[0] == b[1]:
        return (alu(op, a[0], b[0]),) * 2
    if op == (0, 0):
        return in_one_stretch(a[0] + (b[0] if offset is None else offset), a[1] + (b[1] if offset is None else offset))
    if op == (0, 32):
        return in_one_stretch(a[0] - b[1], a[1] - b[0])
    if op == (7, 0):
        return 0, min(a[1], b[1])
    if op == (1, 0) and offset is not None:
        n = offset & 31
        return (a[0] << n, a[1] << n) if a[1] << n <= MASK else EVERY
    if op == (5, 0) and offset is not None:
        return a[0] >> (offset & 31), a[1] >> (offset & 31)
    return (0, 1) if op in ((2, 0), (3, 0)) else EVERY


class Table:
    """The least closed table of a task: for each code word that it reaches, the ranges of its registers and its locks."""

    def __init__(self, program, decl):
        self.program, self.decl = program, decl
        self.decoded = [decode(word) for word in program.code]
        self.heads = {place for at, instr in enumerate(self.decoded)
                      for place in [self.place(self.goal(at, instr))] if place is not None and place <= at}
        self.rows, todo = {}, []
        ranges = [(0, 0)] * 32
        ranges[10] = decl.arg, decl.arg
        self.give(self.place(decl.entry), (ranges, frozenset()), todo)
        while todo:
            at = todo.pop()
            for place, row in self.successors(at):
                self.give(place, row, todo)

    def place(self, address):
        if address is None or address % 4 or not 0 <= address - 0x1000 < 4 * len(self.decoded):
            return None
        return (address - 0x1000) // 4

    def goal(self, at, instr):
        if instr and instr[0] == "jal":
            return 0x1000 + 4 * at + instr[2] & MASK
        if instr and instr[0] == "branch":
            return 0x1000 + 4 * at + instr[4] & MASK
        return None

    def widened(self, r):
        """The least range with ends of a head that has the numbers of r."""
        if r[0] == r[1]:
            return r
        ends = sorted({0, self.decl.arg, (1 << 31) - 1, 1 << 31, MASK})
        return max(end for end in ends if end <= r[0]), min(end for end in ends if end >= r[1])

    def give(self, place, row, todo):
        if place is None:
            return
        ranges, held = row
        old = self.rows.get(place)
        if old:
            ranges = [(min(a[0], b[0]), max(a[1], b[1])) for a, b in zip(old[0], ranges)]
            held = held & old[1]
        if place in self.heads:
            ranges = [self.widened(r) for r in ranges]
        if (ranges, held) != old:
            self.rows[place] = ranges, held
            todo.append(place)

    def successors(self, at):
        """The places that an instruction goes on to, each with what it gives."""
        ranges, held = self.rows[at]
        instr, pc = self.decoded[at], 0x1000 + 4 * at
        name, following, goal = instr and instr[0], at + 1, self.place(self.goal(at, instr))

        def with_range(rd, r):
            return [r if rd and i == rd else old for i, old in enumerate(ranges)], held
        if name in ("const", "auipc"):
            return [(self.behind(following), with_range(instr[1], ((instr[2] + (pc if name == "auipc" else 0)) & MASK,) * 2))]
        if name == "jal":
            return [(goal, with_range(instr[1], (pc + 4, pc + 4)))]
        if name == "load":
            r = {4: (0, 255), 5: (0, 65535)}.get(instr[1], EVERY)
            return [(self.behind(following), with_range(instr[2], r))]
        if name in ("store", "fence"):
            return [(self.behind(following), (ranges, held))]
        if name == "alui":
            r = ranged(instr[1], ranges[instr[3]], (instr[4],) * 2, signed(instr[4]))
            return [(self.behind(following), with_range(instr[2], r))]
        if name == "alu":
            return [(self.behind(following), with_range(instr[2], ranged(instr[1], ranges[instr[3]], ranges[instr[4]])))]
        if name == "ecall":
            call, lock = ranges[17], ranges[10]
            if call[0] != call[1]:
                return [(self.behind(following), (ranges, frozenset()))]
            if call[0] == 1:
                more = {lock[0]} if lock[0] == lock[1] < len(self.program.locks) else set()
                return [(self.behind(following), (ranges, held | more))]
            if call[0] == 2:
                return [(self.behind(following), (ranges, held - {lock[0]} if lock[0] == lock[1] else frozenset()))]
            return []
        if name == "branch":
            return [(place, (self.narrowed(ranges, instr[2], instr[3], pair), held))
                    for place, pair in self.ways(instr, ranges, self.behind(following), goal) if pair]
        return []

    def behind(self, place):
        return place if place < len(self.decoded) else None

    def narrowed(self, ranges, a, b, pair):
        return [(0, 0) if i == 0 else pair[1] if i == b and b != a else pair[0] if i == a else r for i, r in enumerate(ranges)]

    def ways(self, instr, ranges, following, goal):
        """The next word and the target, each with the two registers' ranges there, or None where it isn't a successor."""
        test, a, b = instr[1], ranges[instr[2]], ranges[instr[3]]
        if instr[2] == instr[3]:
            return [(goal if taken(test, 0, 0) else following, (a, a))]

        def pair(x, y):
            return (x, y) if x[0] <= x[1] and y[0] <= y[1] else None
        if test in (0, 1):
            same = max(a[0], b[0]), min(a[1], b[1])
            equal, other = pair(same, same), None if a[0] == a[1] == b[0] == b[1] else (a, b)
            return [(following, other), (goal, equal)] if test == 0 else [(following, equal), (goal, other)]
        if test in (4, 5) and max(a[1], b[1]) >= 1 << 31:
            return [(following, (a, b)), (goal, (a, b))]
        less = pair((a[0], min(a[1], b[1] - 1)), (max(b[0], a[0] + 1), b[1]))
        not_less = pair((max(a[0], b[0]), a[1]), (b[0], min(b[1], a[1])))
        return [(following, less), (goal, not_less)] if test & 1 else [(following, not_less), (goal, less)]

    def is_inside(self, at):
        ranges, held = self.rows[at]
        instr = self.decoded[at]
        name = instr and instr[0]
        if name not in ("load", "store"):
            return name != "jalr"
        low, high = ranged((0, 0), ranges[instr[3]], (instr[4] & MASK,) * 2, instr[4])
        width, decl, is_store = 1 << (instr[1] & 3), self.decl, name == "store"
        allowed = set(decl.writes) if is_store else decl.reads | decl.writes
        for lock in held:
            allowed |= decl.gwrites.get(lock, set())
            if not is_store:
                allowed |= decl.greads.get(lock, set())
        first, last = low + -low % width, high - high % width
        if first > last:
            return True
        words = range((first - 0x10000000) // 4, (last - 0x10000000) // 4 + 1)
        return first >= 0x10000000 and words[-1] < len(self.program.memory) and all(word in allowed for word in words)


def proved(program):
    for number, phase in enumerate(program.phases):
        for core in sorted(phase):
            table = Table(program, phase[core])
            for at in sorted(table.rows):
                if not table.is_inside(at):
                    return ["unbounded %d %d 0x%08x" % (number, core, 0x1000 + 4 * at)]
    return ["proved inside"]
