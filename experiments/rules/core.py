"""What a core does: the conditions and the actions of the rows of cores."""
from actors import CONTROLLER, EMPTY, HOME, Actor, Node, inserted, may_hold


class Core(Actor):
    """A core. `word` is what its present event is about, and `need` what its next instruction needs."""

    def __init__(self, world, core, node):
        super().__init__(world)
        self.core, self.word, self.lock, self.seen, self.stored, self.granted = core, None, None, None, None, None
        self.phase, self.wait, self.arrived, self.halted, self.task, signatures, cache = node
        self.signatures, self.cache = list(signatures), {word: (letter, value) for word, letter, value in cache}
        self.look()

    @staticmethod
    def rows_in(world):
        return world.core_rows

    def look(self):
        """Makes what concerns the task's registers alone, where an instruction is enabled, and looks what it needs next."""
        is_ready = not self.arrived and not self.halted and (self.wait is None or self.wait[0] == "filled")
        if is_ready:
            self.task, self.need = self.world.settled(self.task)
        elif self.task is not None and self.task.end is None:
            self.need = self.world.settled(self.task)[1]
        else:
            self.need = None
        self.is_ready = is_ready

    def node(self):
        cache = tuple(sorted((word, letter, value) for word, (letter, value) in self.cache.items()))
        return Node(self.phase, self.wait, self.arrived, self.halted, self.task, tuple(self.signatures), cache)

    def letter(self):
        return self.cache.get(self.word, "I")[0]

    # the events of its own

    def own_events(self):
        """The events that are enabled: an instruction, evictions, or the arrival at the phase's end."""
        if self.arrived or self.halted:
            return []
        found = [("instr",)] if self.own_row(("instr",)) else []
        found += [("evict", word) for word in sorted(self.cache) if self.own_row(("evict", word))]
        return found + ([("arrive",)] if self.own_row(("arrive",)) else [])

    def own_row(self, event):
        if event[0] == "instr":
            if not self.is_ready or self.need is None:
                return None
            kind, about = self.need[:2]
            self.word, self.lock = (None, about) if kind in ("acquire", "release") else (about, None)
            return self.row(kind)
        self.word = event[1] if event[0] == "evict" else None
        return self.row(event[0])

    def make(self, event):
        """Makes an event of its own, or handles a message. Without a row nothing happens."""
        if event[0] in ("instr", "evict", "arrive"):
            row = self.own_row(event)
        else:
            self.message = event
            self.word = event[2]
            self.lock = event[2] if event[1] == "grant" else None
            row = self.row(event[1])
        if row is not None:
            self.act(row)
        self.look()
        return row

    # conditions

    def places(self, word):
        return [other for other in self.cache if other % self.world.sets == word % self.world.sets]

    def if_room(self):
        return len(self.places(self.word)) < self.world.ways

    def if_room_beside_leaving(self):
        return sum(self.cache[other][0] != "L" for other in self.places(self.word)) < self.world.ways

    def if_full_beside_leaving(self):
        return self.wanted() is not None and sum(self.cache[other][0] != "L" for other in self.places(self.wanted())) >= self.world.ways

    def if_whole(self):
        return self.need[2]

    def if_part(self):
        return not self.need[2]

    def if_none_pending(self):
        return all(letter != "P" for letter, _ in self.cache.values())

    def wanted(self):
        return self.need[1] if self.need is not None and self.need[0] in ("load", "store") else None

    def if_missing(self):
        return self.wanted() is not None and self.wanted() not in self.cache

    def if_full(self):
        return self.wanted() is not None and len(self.places(self.wanted())) >= self.world.ways

    def if_same_set(self):
        return self.wanted() is not None and self.word % self.world.sets == self.wanted() % self.world.sets

    def if_idle(self):
        return self.wait is None and self.need is not None

    def if_always(self):
        return True

    def if_filled(self):
        return self.wait is not None and self.wait[0] == "filled"

    def if_unfilled(self):
        return not self.if_filled()

    def if_over(self):
        return self.need is None

    def if_reading(self):
        return self.wait == ("reading", self.word)

    def if_locking(self):
        return self.wait == ("locking", self.lock)

    def if_arrived(self):
        return self.arrived and not self.halted

    def if_next(self):
        return self.message[2] == self.phase + 1

    # actions on the task

    def retire(self):
        self.task, self.wait = self.world.tasks.retired(self.task), None

    def do_load(self):
        value = self.cache[self.word][1]
        self.seen = self.word, value
        self.task, self.wait = self.world.tasks.loaded(self.task, value), None

    def do_store(self):
        kept, bits = self.stored_bits()
        letter, value = self.cache.get(self.word, ("R", 0))
        self.cache[self.word] = "R" if letter in "VM" else letter, value & kept | bits
        self.stored = self.word, kept, bits
        self.retire()

    def stored_bits(self):
        return self.world.tasks.stored(self.task)

    def declared(self):
        return self.world.tasks.declared(self.phase, self.core)

    def do_note(self):
        """A store under a lock goes into the core's signature of that lock."""
        for lock in self.task.held:
            if self.word in self.declared().gwrites.get(lock, ()):
                self.signatures[lock] = inserted(self.signatures[lock], self.word, self.phase)

    def do_wait_reading(self):
        self.wait = "reading", self.word

    def do_wait_filled(self):
        self.wait = "filled", self.word

    def do_wait_filled_if_reading(self):
        if self.if_reading():
            self.do_wait_filled()

    def do_wait_none(self):
        self.wait = None

    def do_wait_locking(self):
        self.wait = "locking", self.lock

    def do_unhold(self):
        self.retire()
        self.task = self.task._replace(held=tuple(lock for lock in self.task.held if lock != self.lock))

    def do_hold(self):
        self.retire()
        self.task = self.task._replace(held=tuple(sorted({*self.task.held, self.lock})))
        self.granted = self.lock

    # actions on the entry

    def do_mark_plain(self):
        decl = self.declared()
        if self.word in decl.reads or self.word in decl.writes:
            self.do_mark()

    def do_mark(self):
        self.cache[self.word] = "M", self.cache[self.word][1]

    def do_pend(self):
        self.cache[self.word] = "P", self.cache[self.word][1]

    def do_settle(self):
        self.cache[self.word] = "R", self.cache[self.word][1]

    def do_drop(self):
        self.cache.pop(self.word, None)

    def do_leave(self):
        self.cache[self.word] = "L", self.cache[self.word][1]

    def do_fill(self):
        self.cache[self.word] = "V", self.message[4]

    def do_fill_marked(self):
        self.cache[self.word] = "M", self.message[4]

    # actions at a grant

    def drop_copies(self, may_go):
        for word, (letter, _) in list(self.cache.items()):
            if letter in "VM" and may_go(word, letter):
                del self.cache[word]

    def guarded(self):
        return self.world.plans[self.phase][1][self.lock]

    def do_drop_signed(self):
        self.drop_copies(lambda word, _: word in self.guarded() and may_hold(self.message[4], word, self.phase))

    def do_drop_guarded(self):
        self.drop_copies(lambda word, _: word in self.guarded())

    def do_drop_signed_unguarded(self):
        self.drop_copies(lambda word, _: may_hold(self.message[4], word, self.phase))

    def do_drop_signed_ever(self):
        signature = self.message[4][0], self.phase
        self.drop_copies(lambda word, _: word in self.guarded() and may_hold(signature, word, self.phase))

    def do_drop_signed_unmarked(self):
        self.drop_copies(lambda word, letter: letter == "V" and word in self.guarded() and may_hold(self.message[4], word, self.phase))

    def do_take_signature(self):
        signature = self.message[4]
        self.signatures[self.lock] = signature if signature[1] == self.phase else (EMPTY, self.phase)

    def do_take_signature_as_it_is(self):
        self.signatures[self.lock] = self.message[4]

    # actions at a phase's end

    def written(self):
        return self.world.plans[self.phase][0]

    def do_drop_written(self):
        self.drop_copies(lambda word, letter: word in self.written() and letter == "V")

    def do_drop_written_touched_too(self):
        self.drop_copies(lambda word, _: word in self.written())

    def do_drop_untouched(self):
        self.drop_copies(lambda _, letter: letter == "V")

    def do_drop_plainly_written(self):
        """The regions that tasks write without a lock."""
        phase = self.world.program.phases[self.phase]
        plain = set().union(*(task.writes for task in phase.values())) if phase else set()
        regions = [set(range(start, start + length)) for start, length in self.world.program.regions.values()]
        self.drop_copies(lambda word, letter: letter == "V" and any(word in region and region & plain for region in regions))

    def do_unmark(self):
        self.cache = {word: ("V" if letter == "M" else letter, value) for word, (letter, value) in self.cache.items()}

    def do_begin(self, with_signatures=False):
        self.phase, self.wait, self.arrived = self.message[2], None, False
        if not with_signatures:
            self.signatures = [(EMPTY, self.phase)] * len(self.signatures)
        self.task = self.world.tasks.first(self.phase, self.core)

    def do_begin_with_signatures(self):
        self.do_begin(with_signatures=True)

    def do_be_arrived(self):
        self.arrived = True

    def do_be_halted(self):
        self.halted = True

    # what it sends

    def is_bad(self):
        return self.task is not None and self.task.end != "finished"

    def send(self, kind, receiver):
        """A message names the core itself, unless it answers for another: a read that goes back names its reader."""
        message = self.message
        if receiver == "controller":
            self.sent.append((CONTROLLER, kind, 0, self.core, self.is_bad()))
        elif receiver == "c":
            carried = self.cache[self.word][1] if kind == "data-reply" else 0
            self.sent.append((message[3], kind, self.word, 0, carried))
        elif kind in ("acquire", "release", "release-empty"):
            carried = {"acquire": 0, "release": self.signatures[self.lock], "release-empty": (EMPTY, self.phase)}[kind]
            self.sent.append((HOME, kind.removesuffix("-empty"), self.lock, self.core, carried))
        else:
            named = message[3] if message is not None else self.core
            self.sent.append((HOME, kind, self.word, named, self.cache[self.word][1] if kind == "write-back" else 0))
