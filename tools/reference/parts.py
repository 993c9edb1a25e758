"""The parts of the machine: a core with its cache, a bank, and the keeper of the phases. Each answers a message with those that it sends."""

from .kinds import reach
from .signatures import inserted, joined, may_hold
from .task import TaskState


class Node:
    """A core. Its cache is a dict for each set, the least recently used word first, with entries (state, value, flag):
    V with the mark, R with whether it is pending, L."""

    def __init__(self, machine, core):
        self.machine, self.core = machine, core
        self.cache = [{} for _ in range(machine.sets)]
        self.has_arrived, self.is_halted = False, not machine.program.phases
        self.pending = 0
        self.begin(0)

    def begin(self, phase):
        machine = self.machine
        self.phase, self.wait = phase, None
        self.signatures = [(0, phase)] * len(machine.program.locks)
        self.task = None
        if phase < len(machine.program.phases):
            decl = machine.program.phases[phase].get(self.core)
            if decl:
                self.task = TaskState(machine.program, machine.decoded, decl, machine.fuel)
        self.know()

    def know(self):
        """Looks at the next instruction anew."""
        self.next = self.task.need() if self.task and self.task.end is None else None

    def of(self, word):
        return self.cache[word % self.machine.sets]

    def entry(self, word):
        return self.of(word).get(word)

    def room(self, word):
        return len(self.of(word)) < self.machine.ways

    def set(self, word, entry):
        places = self.of(word)
        places.pop(word, None)
        places[word] = entry

    def victim(self, word):
        for other, entry in self.of(word).items():
            if entry[0] == "V" or entry[0] == "R" and not entry[2]:
                return other
        return None

    def may_instr(self):
        if self.is_halted or self.has_arrived or self.next is None or self.wait and self.wait[0] != "filled":
            return False
        kind = self.next[0]
        if kind == "release":
            return self.pending == 0
        if kind in ("load", "store"):
            entry = self.entry(self.next[1])
            return entry[0] in "VR" if entry else self.room(self.next[1])
        return True

    def may_evict(self, word):
        if self.is_halted or self.has_arrived or self.next is None or self.wait or self.next[0] not in ("load", "store"):
            return False
        wanted = self.next[1]
        if self.entry(wanted) or self.room(wanted) or word % self.machine.sets != wanted % self.machine.sets:
            return False
        entry = self.entry(word)
        return entry is not None and (entry[0] == "V" or entry[0] == "R" and not entry[2])

    def may_arrive(self):
        return not self.is_halted and not self.has_arrived and self.next is None and self.pending == 0

    def own(self):
        if self.may_instr():
            return "instr", self.core
        if self.next is not None and self.next[0] in ("load", "store"):
            word = self.victim(self.next[1])
            if word is not None and self.may_evict(word):
                return "evict", self.core, word
        if self.may_arrive():
            return "arrive", self.core
        return None

    def home(self, word):
        return "bank", word % self.machine.banks

    def instr(self):
        """What is sent, as a list of (to, message), and the load that was seen."""
        task, need, kind = self.task, self.next, self.next[0]
        sent, seen = [], None
        if kind in ("local", "end", "acquire", "release"):
            reach("core: " + kind)
        if kind == "local":
            task.local()
        elif kind == "end":
            task.stop(need[1])
        elif kind == "acquire":
            sent = [(("bank", need[1] % self.machine.banks), ("acquire", need[1], self.core))]
            self.wait = "locking", need[1]
        elif kind == "release":
            sent = [(("bank", need[1] % self.machine.banks), ("release", need[1], self.core, self.signatures[need[1]]))]
            task.held.discard(need[1])
            task.retire()
        else:
            word = need[1]
            entry = self.entry(word)
            if entry is None and (kind == "load" or not need[2]):
                reach("core: read of a missing word")
                sent = [(self.home(word), ("read-req", word, self.core))]
                self.wait = "reading", word
            elif kind == "load":
                reach("core: load of a copy" if entry[0] == "V" else "core: load of an own word")
                seen = word, entry[1]
                is_plain = word in task.decl.reads or word in task.decl.writes
                marks = is_plain and self.machine.left_out != "touched"
                self.set(word, (entry[0], entry[1], True) if entry[0] == "V" and marks else entry)
                task.loaded(entry[1])
                self.wait = None
            else:
                value = task.merged(entry[1] if entry else 0)
                reach("core: whole store to a missing word" if entry is None
                      else "core: store to an own word" if entry[0] == "R" else "core: store to a copy")
                if entry is not None and entry[0] == "R":
                    self.set(word, ("R", value, entry[2]))
                else:
                    self.set(word, ("R", value, True))
                    self.pending += 1
                    sent = [(self.home(word), ("reg-req", word, self.core))]
                for lock in task.held:
                    if word in task.decl.gwrites.get(lock, ()):
                        reach("core: store that a signature notes")
                        self.signatures[lock] = inserted(self.signatures[lock], word, self.phase)
                task.retire()
                self.wait = None
        self.know()
        return sent, seen

    def evict(self, word):
        state, value, _ = self.entry(word)
        reach("core: eviction of a copy" if state == "V" else "core: eviction of an own word")
        if state == "V":
            del self.of(word)[word]
            return []
        self.of(word)[word] = ("L", value, False)
        return [(self.home(word), ("write-back", word, value, self.core))]

    def arrive(self):
        self.has_arrived = True
        bad = self.task is not None and self.task.end != "finished"
        reach("core: bad arrival" if bad else "core: arrival")
        return [("keeper", ("arrived", self.core, bad))]

    def receive(self, message):
        """What is sent, and the grant that was handled."""
        kind = message[0]
        if kind == "go":
            following = message[1]
            if self.has_arrived and not self.is_halted and following == self.phase + 1 \
                    and following < len(self.machine.program.phases):
                written = self.machine.plans[self.phase][0]
                before = sum(map(len, self.cache))
                for places in self.cache:
                    for word, entry in list(places.items()):
                        if entry[0] == "V":
                            if word in written and not entry[2] and self.machine.left_out != "drop":
                                del places[word]
                            else:
                                places[word] = ("V", entry[1], False)
                reach("core: go that drops copies" if sum(map(len, self.cache)) < before else "core: go that drops none")
                self.has_arrived = False
                self.begin(following)
            return [], None
        if kind == "halt":
            reach("core: halt")
            self.is_halted = self.is_halted or self.has_arrived
            return [], None
        if kind == "grant":
            lock, signature = message[1:]
            if self.wait != ("locking", lock):
                return [], None
            guarded = self.machine.plans[self.phase][1][lock]
            before = sum(map(len, self.cache))
            for places in self.cache:
                for word, entry in list(places.items()):
                    held = may_hold(signature, word, self.phase) or self.machine.left_out == "signatures"
                    if entry[0] == "V" and word in guarded and held and self.machine.left_out != "drop":
                        del places[word]
            reach("core: grant that drops copies" if sum(map(len, self.cache)) < before else "core: grant that drops none")
            self.signatures[lock] = signature if signature[1] == self.phase else (0, self.phase)
            self.task.held.add(lock)
            self.task.retire()
            self.wait = None
            self.know()
            return [], (self.phase, self.core, lock)
        word = message[1]
        entry = self.entry(word)
        if kind == "data-reply":
            if self.wait == ("reading", word) and entry is None and self.room(word):
                reach("core: reply")
                self.set(word, ("V", message[2], False))
                self.wait = "filled", word
            return [], None
        if kind == "reg-ack":
            if entry and entry[0] == "R" and entry[2]:
                reach("core: acknowledgement")
                self.of(word)[word] = ("R", entry[1], False)
                self.pending -= 1
            return [], None
        if kind == "reg-fwd":
            takes = entry and entry[0] == "R" and not entry[2]
            reach("core: forward that takes a word" if takes else "core: forward that finds it elsewhere")
            if takes:
                del self.of(word)[word]
            return [(("core", message[2]), ("reg-ack", word))], None
        if kind == "read-fwd":
            has = entry and entry[0] in "RL"
            reach("core: read that is answered" if has else "core: read that is sent back")
            if has:
                return [(("core", message[2]), ("data-reply", word, entry[1]))], None
            return [(self.home(word), ("read-req", word, message[2]))], None
        if kind == "wb-ack" and entry and entry[0] == "L":
            reach("core: word that is given back")
            del self.of(word)[word]
        return [], None

    def shown(self):
        """How the task stands, where it has ended or waits for a lock."""
        if self.task is None:
            return None
        if self.task.end is not None:
            return self.phase, self.core, self.task.end, self.task.retired
        if self.wait and self.wait[0] == "locking":
            return self.phase, self.core, "waits %d" % self.wait[1], self.task.retired
        return None


class Bank:
    def __init__(self, number, banks, memory, locks):
        self.words = {word: ("home", value) for word, value in enumerate(memory) if word % banks == number}
        self.locks = {lock: [None, [], (0, 0)] for lock in range(locks) if lock % banks == number}

    def handle(self, message):
        kind, name = message[0], message[1]
        if kind in ("acquire", "release"):
            home = self.locks[name]
            if kind == "acquire":
                reach("bank: acquire of a free lock" if home[0] is None else "bank: acquire that waits")
                if home[0] is None:
                    home[0] = message[2]
                    return [(("core", message[2]), ("grant", name, home[2]))]
                if message[2] not in home[1]:
                    home[1].append(message[2])
                return []
            if home[0] != message[2]:
                return []
            reach("bank: release to the next" if home[1] else "bank: release to nobody")
            home[2] = joined(home[2], message[3])
            home[0] = home[1].pop(0) if home[1] else None
            return [] if home[0] is None else [(("core", home[0]), ("grant", name, home[2]))]
        state, what = self.words[name]
        if kind == "read-req":
            reach("bank: read at home" if state == "home" else "bank: read that is forwarded")
            if state == "home":
                return [(("core", message[2]), ("data-reply", name, what))]
            return [(("core", what), ("read-fwd", name, message[2]))]
        if kind == "reg-req":
            self.words[name] = "reg", message[2]
            reach("bank: registration at home" if state == "home" else "bank: registration that is forwarded")
            if state == "home" or what == message[2]:
                return [(("core", message[2]), ("reg-ack", name))]
            return [(("core", what), ("reg-fwd", name, message[2]))]
        taken_back = (state, what) == ("reg", message[3])
        reach("bank: write-back that is taken" if taken_back else "bank: late write-back")
        if taken_back:
            self.words[name] = "home", message[2]
        return [(("core", message[3]), ("wb-ack", name))]


class Keeper:
    def __init__(self, cores, phases):
        self.cores, self.phases = cores, phases
        self.phase, self.there, self.bad, self.is_over = 0, set(), False, False

    def handle(self, message):
        core, bad = message[1:]
        if self.is_over or core in self.there:
            return []
        self.there.add(core)
        self.bad = self.bad or bad
        if len(self.there) < self.cores:
            reach("keeper: arrival that waits")
            return []
        reach("keeper: last arrival that halts" if self.bad or self.phase + 1 >= self.phases
              else "keeper: last arrival that goes on")
        if self.bad or self.phase + 1 >= self.phases:
            self.is_over = True
            letter = ("halt",)
        else:
            self.phase += 1
            self.there = set()
            letter = "go", self.phase
        return [(("core", core), letter) for core in range(self.cores)]
