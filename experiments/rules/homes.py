"""What the homes of words and locks do, and the barrier controller."""
from actors import Actor, joined


class Word(Actor):
    """A word at its home: its value, or ~c where core c is the owner."""

    def __init__(self, world, state, message):
        super().__init__(world)
        self.state, self.message = state, message

    def letter(self):
        return "H" if self.state >= 0 else "O" if ~self.state == self.message[3] else "X"

    def do_own_by_c(self):
        self.state = ~self.message[3]

    def do_take_value(self):
        self.state = self.message[4]

    def send(self, kind, receiver):
        to = self.message[3] if receiver == "c" else ~self.state
        named = self.message[3] if receiver == "owner" else 0
        self.sent.append((to, kind, self.message[2], named, self.state if kind == "data-reply" else 0))


class LockHome(Actor):
    """A lock at its home: its holder, those that wait, and the signature that is kept."""

    def __init__(self, world, state, message):
        super().__init__(world)
        self.holder, queue, self.kept = state
        self.queue, self.message = list(queue), message

    def letter(self):
        return "F" if self.holder is None else "B" if self.holder == self.message[3] else "K"

    def if_unqueued(self):
        return self.message[3] not in self.queue

    def if_queued(self):
        return bool(self.queue)

    def do_lock_by_c(self):
        self.holder = self.message[3]

    def do_queue_c(self):
        self.queue.append(self.message[3])

    def do_queue_c_first(self):
        self.queue.insert(0, self.message[3])

    def do_join(self):
        self.kept = joined(self.kept, self.message[4])

    def do_keep_the_second(self):
        self.kept = self.message[4]

    def do_lock_by_first(self):
        self.holder = self.queue.pop(0)

    def do_unlock(self):
        self.holder = None

    def send(self, kind, receiver):
        self.sent.append((self.message[3] if receiver == "c" else self.holder, kind, self.message[2], 0, self.kept))


class BarrierController(Actor):
    def __init__(self, world, state, message):
        super().__init__(world)
        self.phase, there, self.bad, self.over = state
        self.there, self.message = set(there), message

    def letter(self):
        return ""

    def if_new(self):
        return not self.over and self.message[3] not in self.there

    def if_last(self):
        return len(self.there | {self.message[3]}) == self.world.cores

    def if_good(self):
        return self.if_follows() and not (self.bad or self.message[4])

    def if_follows(self):
        return self.phase + 1 < len(self.world.program.phases)

    def do_count(self):
        self.there.add(self.message[3])
        self.bad = self.bad or bool(self.message[4])

    def do_next_phase(self):
        self.phase += 1
        self.there = set()

    def do_end_run(self):
        self.over = True

    def send(self, kind, receiver):
        self.sent += [(core, kind, self.phase if kind == "go" else 0, 0, 0) for core in range(self.world.cores)]
