#!/usr/bin/env python3
"""A machine with a directory: the protocol MSI or MESI of the textbooks with lines of words, run by the same programs, ticks, network, banks, locks
and barrier as denovo. docs/BASELINE.md says what it is for, and has its states as a picture.

    baseline/directory.py [OPTIONS] < TEXT

The protocol is in baseline/protocol.py, as two tables; here are the machine that they run, what their rows ask, and what they do. A load that misses
stops its core; a store waits at its line, and its core goes on. An event for which a state has no row can't come there: the machine stops if
it does.

The exit code is 0, 1 for wrong words, or 2 for a text that doesn't assemble."""
import collections
import os
import sys

sys.dont_write_bytecode = True
sys.path[:0] = [os.path.dirname(os.path.abspath(__file__)), os.path.join(os.path.dirname(os.path.abspath(__file__)), "../tools")]
from command import Log, words_of_command  # noqa: E402: the folders of this program
from orders import in_drawn_order, in_time_order  # noqa: E402
from protocol import (AT_A_CORE, AT_A_HOME, CORE_KINDS, HEAD_BYTES, KINDS, LEAVING, MASK, STABLE, WITH_A_LINE, WORD_BYTES, Actor, Impossible,  # noqa: E402
                      rows_of, ticks_by)
from reference import Network, TaskState, Unfit, answer_text, assemble, claim_text, decode  # noqa: E402

# ---------------------------------------------------------------- a core

class Line:
    """A line at a core: its state, its words, how many acknowledgements it needs and has, the stores and the messages that wait at it."""

    __slots__ = ("state", "words", "needed", "got", "stores", "waiting")

    def __init__(self):
        self.state, self.words, self.needed, self.got, self.stores, self.waiting = "I", None, None, 0, [], []


class Core(Actor):
    """A core: its task, its cache of sets, the least recently used line first, and the lines that are leaving it."""

    def __init__(self, machine, number):
        self.machine, self.number, self.rows = machine, number, machine.core_rows
        self.sets, self.leaving = [{} for _ in range(machine.sets)], {}
        self.has_arrived, self.is_halted = False, not machine.program.phases
        self.begin(0)

    def begin(self, phase):
        """`asked` is the line for which the core is stopped at a store, `filled` the value that came for its access, and `pending` says how many
        lines have stores."""
        machine = self.machine
        self.phase, self.asked, self.filled, self.locking, self.pending, self.task = phase, None, None, None, 0, None
        declared = machine.program.phases[phase].get(self.number) if phase < len(machine.program.phases) else None
        if declared:
            self.task = TaskState(machine.program, machine.decoded, declared, machine.fuel)
            machine.loads[phase, self.number] = []
        self.look()

    def look(self):
        """Looks at the next instruction."""
        self.next = self.task.need() if self.task and self.task.end is None else None

    def line(self, number):
        return self.sets[number % self.machine.sets].get(number) or self.leaving.get(number) or Line()

    def home(self, number):
        return self.machine.cores + number % self.machine.banks

    def receiver(self, name, number, line, message):
        return self.home(number) if name == "home" else message.core

    def words(self, number, line):
        return list(line.words)

    def about(self, message):
        """The core that a message of its own names."""
        return self.number

    # what it does by itself

    def own(self):
        """Its own event, if one may come: its instruction, the eviction that its next access needs, or its arrival at the barrier."""
        if self.is_halted or self.has_arrived:
            return None
        if self.filled is not None:
            return "instr", self.number
        if self.locking is not None:
            return None
        if self.next is None:
            return ("arrive", self.number) if self.pending == 0 else None
        kind = self.next[0]
        if kind == "release":
            return ("instr", self.number) if self.may_release() else None
        return self.own_access(kind, self.next[1] // self.machine.line) if kind in ("load", "store") else ("instr", self.number)

    def own_access(self, kind, number):
        line = self.line(number)
        if self.row(kind, number, line) is not None:
            return "instr", self.number
        if line.state == "I":
            for other, old in self.sets[number % self.machine.sets].items():
                if old.state in STABLE:
                    return "evict", self.number, other
        return None

    def may_release(self):
        """A release waits for all stores, as an arrival does."""
        return self.pending == 0

    def instr(self):
        task, kind = self.task, self.next[0]
        if self.filled is not None:
            self.retire_load(self.filled) if kind == "load" else task.retire()
            self.filled = None
        elif kind in ("load", "store"):
            number = self.next[1] // self.machine.line
            self.machine.accessed(self.number, self.next[1], kind == "store")
            self.change(kind, number, self.line(number))
        elif kind == "local":
            task.local()
        elif kind == "end":
            task.stop(self.next[1])
        else:
            self.send(self.home(self.next[1]), kind, self.next[1], self.number)
            if kind == "acquire":
                self.locking = self.next[1]
                return
            task.held.discard(self.next[1])
            task.retire()
        self.look()

    def retire_load(self, value):
        self.machine.loads[self.phase, self.number].append((self.next[1], value))
        self.task.loaded(value)

    def arrive(self):
        self.has_arrived = True
        self.send(self.machine.actors - 1, "arrived", None, self.number, self.task is not None and self.task.end != "finished")
        if self.task is not None:
            self.machine.ends.append((self.phase, self.number, self.task.end, self.task.retired))

    # what happens to a line

    def change(self, event, number, line, message=None):
        """Does what the row says, and keeps the line where its state belongs: in its set, among those that leave, or nowhere."""
        places, before = self.sets[number % self.machine.sets], line.state
        self.happens(event, number, line, message)
        if line.state == "I" or line.state in LEAVING:
            places.pop(number, None)
            self.leaving.pop(number, None)
            if line.state != "I":
                self.leaving[number] = line
        elif before == "I" or event in ("load", "store"):
            places.pop(number, None)
            places[number] = line
        if line.waiting and line.state in STABLE:
            waiting, line.waiting = line.waiting, []
            for one in waiting:
                self.receive(one)

    def receive(self, message):
        kind = message.kind
        if kind == "go":
            self.has_arrived = False
            self.begin(message.about)
        elif kind == "halt":
            self.is_halted = True
        elif kind == "grant":
            self.machine.grants.append((self.phase, self.number, message.about))
            self.task.held.add(message.about)
            self.task.retire()
            self.locking = None
            self.look()
        else:
            line = self.line(message.about)
            self.change(self.event(message, line), message.about, line, message)

    @staticmethod
    def event(message, line):
        if message.kind in ("data-own", "grant-own"):
            return "reply" if line.got < message.needed else "last reply"
        if message.kind == "inv-ack" and line.got + 1 == line.needed:
            return "last inv-ack"
        return message.kind

    # what the rows ask

    def if_room(self, number, line):
        return len(self.sets[number % self.machine.sets]) < self.machine.ways

    def if_covered(self, number, line):
        return self.value(line) is not None

    # what the rows do

    def value(self, line):
        """What the next load finds: the line's word with the waiting stores on top; or, without a word, what they make up alone, or None."""
        word, has_word = self.next[1], line.state[0] != "I"
        value, missing = (line.words[word % self.machine.line], 0) if has_word else (0, MASK)
        for stored, kept, bits in line.stores:
            if stored == word:
                value, missing = value & kept | bits, missing & kept
        return value if missing == 0 else None

    def do_hit(self, number, line, message):
        self.retire_load(self.value(line))

    def do_write(self, number, line, message):
        self.put(line, *self.store())
        self.task.retire()

    def do_buffer(self, number, line, message):
        """The store waits at its line, the first of a line for all that it needs. With `--stores wait` the core stops."""
        if not line.stores:
            line.needed, line.got = None, 0
            self.pending += 1
        line.stores.append(self.store())
        if self.machine.stores == "go":
            self.task.retire()
        else:
            self.asked = number

    def store(self):
        """The next instruction's store: its word, the bits that stay, and those that are stored."""
        bits = self.task.merged(0)
        return self.next[1], bits ^ self.task.merged(MASK), bits

    def put(self, line, word, kept, bits):
        place = word % self.machine.line
        line.words[place] = line.words[place] & kept | bits

    def do_fill(self, number, line, message):
        if message.words is not None:
            line.words = list(message.words)

    def do_load_it(self, number, line, message):
        """The load has its value, and retires by an event of its own."""
        self.filled = line.words[self.next[1] % self.machine.line]

    def do_count_needed(self, number, line, message):
        line.needed = message.needed

    def do_count_ack(self, number, line, message):
        line.got += 1

    def do_make_stores(self, number, line, message):
        for store in line.stores:
            self.put(line, *store)
        line.stores = []
        self.pending -= 1
        if self.asked == number:
            self.asked, self.filled = None, 0

    def do_lose_words(self, number, line, message):
        line.words = None

    def do_wait(self, number, line, message):
        line.waiting.append(message)


# ---------------------------------------------------------------- a bank: homes of lines and locks, and the barrier

class Entry:
    """What a home knows of a line: its state, its owner, the sharers, whether there were more than pointers, and the requests that wait."""

    __slots__ = ("state", "owner", "listed", "is_over", "waiting")

    def __init__(self):
        self.state, self.owner, self.listed, self.is_over, self.waiting = "I", None, set(), False, []


class Bank(Actor):
    def __init__(self, machine):
        self.machine, self.rows, self.entries, self.locks = machine, machine.home_rows, {}, {}

    def receive(self, message):
        if message.kind in ("acquire", "release"):
            self.lock(message)
            return
        number = message.about
        entry = self.entries.setdefault(number, Entry())
        is_owners = message.kind in ("put-m", "put-e") and entry.state == "X" and entry.owner == message.core
        self.happens("owner's " + message.kind if is_owners else message.kind, number, entry, message)
        self.rest(entry)
        if entry.waiting and entry.state != "SD":
            waiting, entry.waiting = entry.waiting, []
            for one in waiting:
                self.receive(one)

    @staticmethod
    def rest(entry):
        """In S somebody is listed; else the line is the home's alone."""
        if entry.state == "S" and not entry.listed:
            entry.state = "I"
        if entry.state == "I":
            entry.owner, entry.is_over = None, False
            entry.listed.clear()

    def lock(self, message):
        """The queue of a lock: the first has it."""
        queue = self.locks.setdefault(message.about, [])
        if message.kind == "acquire":
            queue.append(message.core)
            if len(queue) > 1:
                return
        else:
            queue.pop(0)
        if queue:
            self.send(queue[0], "grant", message.about)

    def words(self, number, entry):
        size = self.machine.line
        return self.machine.memory[number * size:(number + 1) * size]

    def receiver(self, name, number, entry, message):
        return entry.owner if name == "owner" else message.core

    def about(self, message):
        """The core that a message names: that of the request."""
        return message.core

    def told(self, entry, core):
        """The cores that have to drop their copies before this one may store."""
        others = range(self.machine.cores) if entry.is_over else sorted(entry.listed)
        return [other for other in others if other != core]

    def do_reply(self, number, entry, message):
        """With words, unless the core has them and is listed for certain."""
        needed = len(self.told(entry, message.core))
        if message.words and message.core in entry.listed and not entry.is_over:
            self.send(message.core, "grant-own", number, None, None, needed)
        else:
            self.send(message.core, "data-own", number, None, self.words(number, entry), needed)

    def do_inv_to_listed(self, number, entry, message):
        for other in self.told(entry, message.core):
            self.send(other, "inv", number, message.core)

    def do_own_by_c(self, number, entry, message):
        entry.owner, entry.is_over = message.core, False
        entry.listed.clear()

    def do_list_c(self, number, entry, message):
        entry.listed.add(message.core)
        pointers = self.machine.pointers
        entry.is_over = entry.is_over or pointers is not None and len(entry.listed) > pointers

    def do_list_owner(self, number, entry, message):
        entry.listed, entry.owner = {entry.owner}, None

    def do_unlist_c(self, number, entry, message):
        entry.listed.discard(message.core)

    def do_memory(self, number, entry, message):
        size = self.machine.line
        self.machine.memory[number * size:(number + 1) * size] = message.words

    def do_wait(self, number, entry, message):
        entry.waiting.append(message)


class Barrier(Actor):
    def __init__(self, machine):
        self.machine, self.phase, self.there, self.is_bad = machine, 0, 0, False

    def receive(self, message):
        """When all cores have arrived they go on to the next phase, if there is one and all tasks finished."""
        self.there, self.is_bad = self.there + 1, self.is_bad or message.words
        if self.there < self.machine.cores:
            return
        ends = self.is_bad or self.phase + 1 == len(self.machine.program.phases)
        self.phase, self.there = self.phase + 1, 0
        for core in range(self.machine.cores):
            self.send(core, "halt" if ends else "go", self.phase)


# ---------------------------------------------------------------- the machine

class Directory:
    """The machine. `tables` has other rows in place of the protocol's, where a bug is tried."""

    def __init__(self, program, banks=4, sets=64, ways=4, fuel=32768, line=4, states="mesi", shared="silent", stores="go", pointers=None,
                 tables=(AT_A_CORE, AT_A_HOME)):
        self.program, self.banks, self.line, self.sets, self.ways, self.fuel = program, banks, line, sets // line, ways, fuel
        self.stores, self.pointers = stores, pointers
        core_table, home_table = tables
        self.core_rows, self.home_rows = rows_of(core_table, Core, (states, shared, stores)), rows_of(home_table, Bank, (states, shared, stores))
        self.decoded = [decode(word) for word in program.code]
        self.cores = program.cores()
        self.actors = self.cores + banks + 1
        self.memory = list(program.memory) + [0] * (-len(program.memory) % line)
        self.loads, self.grants, self.ends, self.sent = {}, [], [], []
        self.numbers, self.counts, self.reached = [0] * self.actors, dict.fromkeys(KINDS, 0), collections.Counter()
        self.nodes = [Core(self, core) for core in range(self.cores)]
        self.everybody = self.nodes + [Bank(self) for _ in range(banks)] + [Barrier(self)]
        self.owns = [node.own() for node in self.nodes]

    def accessed(self, core, word, is_store):
        """An access begins. A check looks at it."""

    def is_filled(self, core):
        return self.nodes[core].filled is not None

    def words_of(self, mail):
        return self.line if mail[3].kind in WITH_A_LINE else 0

    def make(self, event, mail):
        """Makes an own event of a core, or handles a message: its kind, and the messages that it sent."""
        if mail is not None:
            actor, kind = mail[2], mail[3].kind
            self.everybody[actor].receive(mail[3])
        else:
            kind, actor = event[:2]
            node = self.nodes[actor]
            if kind == "instr":
                node.instr()
            elif kind == "evict":
                node.change("evict", event[2], node.line(event[2]))
            else:
                node.arrive()
        if actor < self.cores:
            self.owns[actor] = self.nodes[actor].own()
        self.counts[kind] += 1
        sent, self.sent = self.sent, []
        first = self.numbers[actor]
        self.numbers[actor] += len(sent)
        return kind, [(actor, first + at, to, message) for at, (to, message) in enumerate(sent)]

    def ending(self):
        """How each task ended or waits, and the memory with the lines that are Modified at the end."""
        waits = [(node.phase, node.number, "waits %d" % node.locking, node.task.retired) for node in self.nodes if node.locking is not None]
        memory = list(self.memory)
        for node in self.nodes:
            for places in node.sets:
                for number, line in places.items():
                    if line.state == "M":
                        memory[number * self.line:(number + 1) * self.line] = line.words
        return sorted(self.ends + waits), memory[:len(self.program.memory)]

    def claim(self, text):
        return claim_text(text, self.fuel, self.grants, self.loads, answer_text(self.ending()))

    def bytes_of(self, kind):
        return self.counts[kind] * (HEAD_BYTES + (WORD_BYTES * self.line if kind in WITH_A_LINE else 0))

    def check_end(self):
        """At the end of a run nothing is on its way; homes know who has a line, at most one core may store to it, and clean copies are the memory's.
        Each request had a reply, each inv its acknowledgement, each put its acknowledgement, and each forward of a read came back to the home."""
        count = self.counts
        sums = [(count["read"] + count["own"], sum(count[kind] for kind in ("data", "data-e", "data-own", "grant-own"))), (count["inv"], count["inv-ack"]),
                (count["put-m"] + count["put-e"] + count["put-s"], count["put-ack"]), (count["fwd-read"], count["put-back"] + count["put-clean"])]
        if any(asked != answered for asked, answered in sums) or any(node.leaving or node.pending for node in self.nodes):
            raise Impossible("something is on its way at the end")
        for home in self.everybody[self.cores:-1]:
            for number, entry in home.entries.items():
                having = {node.number: node.line(number) for node in self.nodes if node.line(number).state != "I"}
                clean = all(line.words == home.words(number, entry) for line in having.values() if line.state in ("S", "E"))
                right = (all(line.state in ("E", "M") for line in having.values()) and set(having) == {entry.owner}) if entry.state == "X" else (
                    all(line.state == "S" for line in having.values()) and set(having) <= entry.listed and entry.state != "SD")
                if not clean or not right or entry.waiting:
                    raise Impossible("caches and home differ at line %d" % number)


def main():
    words = words_of_command(__doc__)
    try:
        o = words.parse_args()
        if o.sets % o.line:
            words.error("--sets is a multiple of --line")
        if o.order == "seed" and o.form == "log":
            words.error("a log has the times of time order")
    except SystemExit as stop:
        return 1 if stop.code else 0
    text = sys.stdin.buffer.read()
    try:
        program = assemble(text.decode("latin-1"))
    except (Unfit, KeyError, ValueError, IndexError) as why:
        print("directory.py: the text doesn't assemble: %s" % why, file=sys.stderr)
        return 2
    machine = Directory(program, o.banks, o.sets, o.ways, o.fuel, o.line, o.states, o.shared, o.stores, o.pointers)
    log, ticks = Log(machine), []
    if o.order == "time":
        network = Network(machine.cores, o.banks, o.latency, o.net)
        note = log.note if o.form == "log" else None
        ticks = ["ticks %d" % in_time_order(machine, ticks_by(o.tick_core, o.tick_bank, o.tick_mail), network, o.tick_word, note)]
    else:
        in_drawn_order(machine, o.seed)
    if o.form == "claim":
        sys.stdout.buffer.write(machine.claim(text))
    elif o.form == "log":
        print("\n".join(log.lines))
    else:
        print("\n".join(ticks + ["count %s %d bytes %d" % (kind, machine.counts[kind], machine.bytes_of(kind)) for kind in KINDS[3:]]))
    return 0


if __name__ == "__main__":
    sys.exit(main())
