"""The machine of the rules: its states as tuples of numbers, and the events that lead from one to the next.

A state is the numbers of its nodes, each word at its home, the numbers of its locks and of the controller, the memory to which each store is applied
as it retires, and the numbers of the messages in flight, sorted: they have no order. What an actor does depends on the actor alone, so each step of
an actor is computed once. The order of use of a cache isn't kept: the rules allow the eviction of each entry that may go."""
import bisect

from actors import CONTROLLER, EMPTY, HOME, Controller, Lock, Node
from core import Core
from homes import BarrierController, LockHome, Word
from table import changed
from tasks import Tasks

OWN = ("instr", "evict", "arrive")


class Numbers:
    """Numbers for values, from 0 on."""

    def __init__(self):
        self.numbers, self.values = {}, []

    def of(self, value):
        number = self.numbers.get(value)
        if number is None:
            number = self.numbers[value] = len(self.values)
            self.values.append(value)
        return number


class Happened:
    """What a step of an actor comes to: its new number, what it sends, and what it loads, stores, and which lock it gets."""

    __slots__ = ("number", "sent", "seen", "stored", "granted", "row")

    def __init__(self, number, sent, row, seen=None, stored=None, granted=None):
        self.number, self.sent, self.row, self.seen, self.stored, self.granted = number, sent, row, seen, stored, granted


class World:
    """The machine of a program with these rules. With `barrier` a phase's end is one event, without messages."""

    def __init__(self, program, sets=1, ways=4, changes="", barrier=False):
        self.program, self.sets, self.ways, self.barrier = program, sets, ways, barrier
        self.cores, self.plans, self.tasks = program.cores(), program.plans(), Tasks(program)
        self.core_rows, self.home_rows = changed(changes)
        self.nodes, self.locks, self.controllers, self.messages = Numbers(), Numbers(), Numbers(), Numbers()
        self.word_count, self.lock_count = len(program.memory), len(program.locks)
        # where the parts of a state begin
        self.words_at = self.cores
        self.locks_at = self.words_at + self.word_count
        self.controller_at = self.locks_at + self.lock_count
        self.memory_at = self.controller_at + 1
        self.pool_at = self.memory_at + self.word_count
        self.known, self.owned, self.settled_tasks, self.senders, self.caches = {}, {}, {}, {}, {}

    # what the actors ask

    def settled(self, task):
        found = self.settled_tasks.get(task)
        if found is None:
            found = self.settled_tasks[task] = self.tasks.settled(task)
        return found

    def sender(self, kind):
        if kind not in self.senders:
            self.senders[kind] = lambda actor, receiver: actor.send(kind, receiver)
        return self.senders[kind]

    # states

    def first(self):
        """The state before the first event."""
        nodes = []
        for core in range(self.cores):
            node = Node(0, None, False, not self.program.phases, self.tasks.first(0, core), ((EMPTY, 0),) * self.lock_count, ())
            nodes.append(self.nodes.of(Core(self, core, node).node()))
        locks = [self.locks.of(Lock(None, (), (EMPTY, 0)))] * self.lock_count
        controller = self.controllers.of(Controller(0, (), False, False))
        return (*nodes, *self.program.memory, *locks, controller, *self.program.memory)

    def own_events(self, core, number):
        found = self.owned.get((core, number))
        if found is None:
            found = Core(self, core, self.nodes.values[number]).own_events()
            found = self.owned[core, number] = [(event[0], core, *event[1:]) for event in found if not (self.barrier and event[0] == "arrive")]
        return found

    def events(self, state):
        """The events that are enabled: (instr, core), (evict, core, word), (arrive, core), (handle, number of a message), and (barrier,)."""
        found = []
        for core in range(self.cores):
            found += self.own_events(core, state[core])
        last = None
        for message in state[self.pool_at:]:
            if message != last:
                found.append(("handle", message))
                last = message
        if self.barrier and self.all_may_arrive(state):
            found.append(("barrier",))
        return found

    def all_may_arrive(self, state):
        makers = [Core(self, core, self.nodes.values[state[core]]) for core in range(self.cores)]
        return all(not core.halted and core.own_row(("arrive",)) is not None for core in makers)

    # steps of actors

    def core_step(self, core, number, event):
        """`event` is an own event without its core, or a message."""
        key = core, number, event
        found = self.known.get(key)
        if found is None:
            actor = Core(self, core, self.nodes.values[number])
            row = actor.make(event)
            found = self.known[key] = Happened(self.nodes.of(actor.node()), self.numbered(actor.sent), row, actor.seen, actor.stored, actor.granted)
        return found

    def numbered(self, sent):
        return tuple(self.messages.of(message) for message in sent)

    def word_step(self, value, message):
        key = "word", value, message
        found = self.known.get(key)
        if found is None:
            actor = Word(self, value, message)
            row = self.made(actor)
            found = self.known[key] = Happened(actor.state, self.numbered(actor.sent), row)
        return found

    def lock_step(self, number, message):
        key = "lock", number, message
        found = self.known.get(key)
        if found is None:
            actor = LockHome(self, self.locks.values[number], message)
            row = self.made(actor)
            found = self.known[key] = Happened(self.locks.of(Lock(actor.holder, tuple(actor.queue), actor.kept)), self.numbered(actor.sent), row)
        return found

    def controller_step(self, number, message):
        key = "controller", number, message
        found = self.known.get(key)
        if found is None:
            actor = BarrierController(self, self.controllers.values[number], message)
            row = self.made(actor)
            state = Controller(actor.phase, tuple(sorted(actor.there)), actor.bad, actor.over)
            found = self.known[key] = Happened(self.controllers.of(state), self.numbered(actor.sent), row)
        return found

    @staticmethod
    def made(actor):
        row = actor.row(actor.message[1])
        if row is not None:
            actor.act(row)
        return row

    # steps of the machine

    def place(self, message):
        """Where the receiver of a message stands in a state, and the function that makes its step."""
        to, kind, about = message[:3]
        if to == CONTROLLER:
            return self.controller_at, self.controller_step
        if to == HOME:
            return (self.locks_at + about, self.lock_step) if kind in ("acquire", "release") else (self.words_at + about, self.word_step)
        return to, None

    def step(self, state, event):
        """The state after an event, and what happened in it."""
        pool, rest = state[self.pool_at:], state[:self.pool_at]
        if event[0] == "barrier":
            return self.end_phase(state), None
        if event[0] == "handle":
            at = pool.index(event[1])
            pool = pool[:at] + pool[at + 1:]
            message = self.messages.values[event[1]]
            place, function = self.place(message)
            happened = function(rest[place], message) if function else self.core_step(place, rest[place], message)
        else:
            place = event[1]
            happened = self.core_step(place, rest[place], (event[0], *event[2:]))
        rest = rest[:place] + (happened.number,) + rest[place + 1:]
        if happened.stored is not None:
            word, kept, bits = happened.stored
            at = self.memory_at + word
            rest = rest[:at] + (rest[at] & kept | bits,) + rest[at + 1:]
        return rest + self.with_sent(pool, happened.sent), happened

    @staticmethod
    def with_sent(pool, sent):
        if not sent:
            return pool
        if len(sent) == 1:
            at = bisect.bisect(pool, sent[0])
            return pool[:at] + sent + pool[at:]
        return tuple(sorted(pool + sent))

    def end_phase(self, state):
        """The barrier as one event: all cores arrive, and each goes on to the next phase or halts."""
        parts, letters = list(state[:self.pool_at]), []
        for core in range(self.cores):
            happened = self.core_step(core, parts[core], ("arrive",))
            parts[core] = happened.number
            for sent in happened.sent:
                told = self.controller_step(parts[self.controller_at], self.messages.values[sent])
                parts[self.controller_at] = told.number
                letters += told.sent
        for letter in letters:
            message = self.messages.values[letter]
            parts[message[0]] = self.core_step(message[0], parts[message[0]], message).number
        return tuple(parts) + state[self.pool_at:]

    # what a state has

    def cache_of(self, number):
        """The cache of a node as a dict, by the node's number."""
        found = self.caches.get(number)
        if found is None:
            found = self.caches[number] = {word: (letter, value) for word, letter, value in self.nodes.values[number].cache}
        return found

    def node(self, state, core):
        return self.nodes.values[state[core]]

    def letter_name(self, message):
        """A message in words: its kind, its word or lock, and the core that it names."""
        to, kind, about, core, _ = message
        return "%s of %s%d to %s" % (kind, "lock " if kind in ("acquire", "release", "grant") else "word ", about, to)
