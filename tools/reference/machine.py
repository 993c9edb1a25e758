"""The machine: its parts, the mails in flight, which events may come, and the run of a seed."""

from .isa import MASK, decode
from .kinds import KINDS
from .parts import Bank, Keeper, Node


# The rules that can be left out, and what the machine then does.
LEFT_OUT = {"drop": "no copy is dropped at a Go or a Grant", "touched": "no copy is marked when it is read",
            "signatures": "a Grant drops all copies of the words that the lock guards"}


class Pcg32:
    """The generator PCG XSH RR 64/32, with the seed's 16 bytes filled from a number of 64 bits by the same output function."""

    STEP = 6364136223846793005

    def __init__(self, seed):
        words = []
        for _ in range(4):
            seed = (seed * self.STEP + 11634580027462260723) & 0xFFFFFFFFFFFFFFFF
            words.append(self.output(seed))
        self.more = (words[3] << 32 | words[2]) | 1
        self.state = ((words[1] << 32 | words[0]) + self.more) & 0xFFFFFFFFFFFFFFFF
        self.advance()

    @staticmethod
    def output(state):
        word = (((state >> 18) ^ state) >> 27) & MASK
        turn = state >> 59
        return (word >> turn | word << (32 - turn)) & MASK

    def advance(self):
        self.state = (self.state * self.STEP + self.more) & 0xFFFFFFFFFFFFFFFF

    def next_u32(self):
        word = self.output(self.state)
        self.advance()
        return word


class Machine:
    """The machine. A mail is (sender, number, to, message); an event is (instr, core), (evict, core, word), (arrive, core) or
    (handle, sender, number). With a rule left out it isn't the protocol's machine any more: see LEFT_OUT."""

    # the rule that every machine leaves out, if one is left out
    left_out = None

    def __init__(self, program, banks=4, sets=64, ways=4, fuel=32768):
        self.program, self.banks, self.sets, self.ways, self.fuel = program, banks, sets, ways, fuel
        self.plans = program.plans()
        self.decoded = [decode(word) for word in program.code]
        self.cores = program.cores()
        self.nodes = [Node(self, core) for core in range(self.cores)]
        self.homes = [Bank(bank, banks, program.memory, len(program.locks)) for bank in range(banks)]
        self.keeper = Keeper(self.cores, len(program.phases))
        self.pool, self.numbers = [], {}
        self.ends, self.grants, self.loads = [], [], {}
        self.counts = dict.fromkeys(KINDS, 0)
        self.owns = [node.own() for node in self.nodes]

    def enabled(self, event):
        if event[0] == "handle":
            return any(mail[:2] == event[1:] for mail in self.pool)
        if event[1] >= self.cores:
            return False
        node = self.nodes[event[1]]
        if event[0] == "instr":
            return node.may_instr()
        return node.may_arrive() if event[0] == "arrive" else node.may_evict(event[2])

    def step(self, event, place=None):
        """Makes an event, and answers the load that it saw and the grant that it handled."""
        seen = grant = None
        if event[0] == "handle":
            if place is None:
                place = next(i for i, mail in enumerate(self.pool) if mail[:2] == event[1:])
            to, message = self.pool[place][2:]
            last = self.pool.pop()
            if place < len(self.pool):
                self.pool[place] = last
            kind, actor = message[0], to
            if to == "keeper":
                sent = self.keeper.handle(message)
            elif to[0] == "bank":
                sent = self.homes[to[1]].handle(message)
            else:
                sent, grant = self.nodes[to[1]].receive(message)
                self.owns[to[1]] = self.nodes[to[1]].own()
        else:
            kind, actor, node = event[0], ("core", event[1]), self.nodes[event[1]]
            if kind == "instr":
                sent, seen = node.instr()
            elif kind == "evict":
                sent = node.evict(event[2])
            else:
                end = node.shown()
                if end is not None:
                    self.ends.append(end)
                sent = node.arrive()
            self.owns[event[1]] = node.own()
            if seen is not None:
                self.loads.setdefault((node.phase, node.core), []).append(seen)
        for to, message in sent:
            number = self.numbers.get(actor, 0)
            self.numbers[actor] = number + 1
            self.pool.append((actor, number, to, message))
        self.counts[kind] += 1
        if grant is not None:
            self.grants.append(grant)
        return seen, grant

    def pick(self, draw):
        own = [event for event in self.owns if event is not None]
        many = len(own) + len(self.pool)
        if not many:
            return None, None
        at = draw % many
        if at < len(own):
            return own[at], None
        return ("handle",) + self.pool[at - len(own)][:2], at - len(own)

    def run(self, seed, trace=None):
        draws = Pcg32(seed)
        while True:
            event, place = self.pick(draws.next_u32())
            if event is None:
                return
            if trace is not None:
                trace(event)
            self.step(event, place)

    def word(self, word):
        for node in self.nodes:
            entry = node.entry(word)
            if entry and entry[0] == "R" and entry[2]:
                return entry[1]
        state, what = self.homes[word % self.banks].words[word]
        return what if state == "home" else self.nodes[what].entry(word)[1]

    def ending(self):
        ends = self.ends + [node.shown() for node in self.nodes
                            if node.shown() and node.shown()[2].startswith("waits")]
        return sorted(ends), [self.word(word) for word in range(len(self.program.memory))]
