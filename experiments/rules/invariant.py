"""The invariant of docs/PROTOCOL.md in its eight parts, and what can be seen of a run: checked in a state of the machine of the rules.

Each function answers with a sentence on the first thing that is wrong, or None."""
import collections

from actors import CONTROLLER, HOME, joined, may_hold


class View:
    """A state, and its messages counted: `count(kind, about, core, to)`, where None stands for any."""

    def __init__(self, world, state):
        self.world, self.state = world, state
        self.nodes = [world.nodes.values[number] for number in state[:world.cores]]
        self.caches = [world.cache_of(number) for number in state[:world.cores]]
        self.words = state[world.words_at:world.locks_at]
        self.locks = [world.locks.values[number] for number in state[world.locks_at:world.controller_at]]
        self.controller = world.controllers.values[state[world.controller_at]]
        self.memory = state[world.memory_at:world.pool_at]
        self.pool = [world.messages.values[number] for number in state[world.pool_at:]]
        self.tally = collections.Counter()
        for to, kind, about, core, _ in self.pool:
            self.tally[kind, about, core if to >= HOME or kind in ("read-fwd", "reg-fwd") else to] += 1

    def count(self, kind, about, core):
        """Messages of a kind about a word or a lock: requests, forwards and puts of a core, and answers to one."""
        return self.tally[kind, about, core]

    def cores(self):
        return range(self.world.cores)

    def entry(self, core, word):
        return self.caches[core].get(word, ("I", None))

    def declared(self, phase, core):
        return self.world.tasks.declared(phase, core)

    def held(self, core):
        return self.nodes[core].task.held if self.nodes[core].task else ()

    def is_alive(self, core):
        return self.nodes[core].arrived and not self.nodes[core].halted

    def is_bad(self, core):
        task = self.nodes[core].task
        return task is not None and task.end not in (None, "finished")

    def value(self, word):
        """The value of a word in this state: of a pending entry, at its home, or in its owner's entry."""
        for core in self.cores():
            letter, value = self.entry(core, word)
            if letter == "P":
                return value
        state = self.words[word]
        return state if state >= 0 else self.entry(~state, word)[1]


def phases(view):
    """1. Phases."""
    now = view.controller.phase
    for core, node in enumerate(view.nodes):
        going, halting = view.count("go", now, core), view.count("halt", 0, core)
        late = sum(count for (kind, _, to), count in view.tally.items() if kind == "go" and to == core) - going
        waits = len(view.controller.there) < view.world.cores and core in view.controller.there
        if not node.halted and node.phase != now and not (node.phase + 1 == now and node.arrived and going + late):
            return "core %d is in phase %d, and the controller in phase %d" % (core, node.phase, now)
        if view.count("arrived", 0, core) + waits + going + late + halting != view.is_alive(core):
            return "the arrival of core %d is lost or doubled" % core
        over = node.task is None or node.task.end is not None
        if node.arrived and not (over and node.wait is None and all(letter != "P" for letter, _ in view.caches[core].values())):
            return "core %d has arrived, and isn't done" % core
        if going + late and view.held(core):
            return "core %d goes on with a lock" % core
    bad = {core: view.is_bad(core) for core in view.cores()}
    if any(message[1] == "arrived" and bool(message[4]) != bad[message[3]] for message in view.pool):
        return "an arrival says wrongly whether its task was bad"
    if view.controller.bad != any(bad[core] for core in view.controller.there):
        return "the controller is wrong about bad tasks"
    return None


def locks(view):
    """2. Locks."""
    now = view.controller.phase
    for number, lock in enumerate(view.locks):
        if lock.holder is None and lock.queue:
            return "lock %d is free, and core %d waits for it" % (number, lock.queue[0])
        for core in view.cores():
            granted = view.count("grant", number, core)
            holds = number in view.held(core)
            if granted + holds + view.count("release", number, core) != (lock.holder == core):
                return "core %d and the home of lock %d differ on who holds it" % (core, number)
            waits = view.nodes[core].wait == ("locking", number)
            if view.count("acquire", number, core) + lock.queue.count(core) + granted != waits:
                return "the request of core %d for lock %d is lost or doubled" % (core, number)
        if lock.kept[1] > now:
            return "the signature of lock %d is of a later phase" % number
    for _, kind, about, _, carried in view.pool:
        if kind == "grant" and carried != view.locks[about].kept:
            return "a grant of lock %d has another signature than its home" % about
        if kind == "release" and carried[1] > now:
            return "a release has a signature of a later phase"
    for core, node in enumerate(view.nodes):
        if any(signature[1] != node.phase for signature in node.signatures) or node.phase > now:
            return "a signature of core %d is of another phase" % core
    return None


def owners(view):
    """3. Owners."""
    for word, state in enumerate(view.words):
        if state < 0 and view.entry(~state, word)[0] not in "PRL":
            return "the home of word %d names core %d, which hasn't the word" % (word, ~state)
        for core in view.cores():
            told = any(message[:3] == (core, "reg-fwd", word) for message in view.pool)
            if view.entry(core, word)[0] == "R" and state != ~core and not told:
                return "core %d has word %d registered, isn't its owner, and won't hear of it" % (core, word)
    return None


def may_store(view, core, word):
    decl, held = view.declared(view.nodes[core].phase, core), view.held(core)
    return decl is not None and (word in decl.writes or any(word in decl.gwrites.get(lock, ()) for lock in held))


def pending(view):
    """4. Pending words."""
    for word, state in enumerate(view.words):
        having = [core for core in view.cores() if view.entry(core, word)[0] == "P"]
        if len(having) > 1:
            return "two cores register word %d" % word
        for core in having:
            asked, passed, answered = (view.count(kind, word, core) for kind in ("reg-req", "reg-fwd", "reg-ack"))
            if not may_store(view, core, word):
                return "core %d registers word %d, to which it may not store" % (core, word)
            if asked + passed + answered != 1:
                return "the registration of word %d by core %d is lost or doubled" % (word, core)
            if (state == ~core) == bool(asked):
                return "the home of word %d is wrong about core %d, which registers it" % (word, core)
    if any(message[1] == "reg-fwd" and message[0] == message[3] for message in view.pool):
        return "a registration is passed on to the core that asked"
    return None


def leaving(view):
    """5. Leaving words."""
    for core, cache in enumerate(view.caches):
        for word, (letter, value) in cache.items():
            if letter == "L":
                put = sum(message[1:] == ("write-back", word, core, value) for message in view.pool)
                if put + view.count("wb-ack", word, core) != 1:
                    return "the write-back of word %d by core %d is lost or doubled" % (word, core)
                if view.count("wb-ack", word, core) and view.words[word] == ~core:
                    return "core %d is told that it gave word %d back, and is its owner" % (core, word)
    return None


def reads(view):
    """6. Reads."""
    for core, node in enumerate(view.nodes):
        if node.wait is None or node.wait[0] not in ("reading", "filled"):
            continue
        word = node.wait[1]
        need = view.world.settled(node.task)[1]
        wants = need is not None and (need == ("load", word) or need == ("store", word, False))
        if node.wait[0] == "filled":
            if view.entry(core, word)[0] not in "VM" or not wants:
                return "core %d waits to use word %d, and hasn't it" % (core, word)
            continue
        sets = view.world.sets
        if view.entry(core, word)[0] != "I" or not wants or sum(other % sets == word % sets for other in view.caches[core]) >= view.world.ways:
            return "core %d waits for word %d without a place for it" % (core, word)
        if any(view.entry(other, word)[0] == "P" for other in view.cores()):
            return "a core registers word %d, which core %d reads" % (word, core)
        if sum(view.count(kind, word, core) for kind in ("read-req", "read-fwd", "data-reply")) != 1:
            return "the read of word %d by core %d is lost or doubled" % (word, core)
    for to, kind, word, _, carried in view.pool:
        if kind == "data-reply" and carried != view.value(word):
            return "an answer brings core %d an old value of word %d" % (to, word)
        if kind == "read-fwd":
            letter, value = view.entry(to, word)
            if view.words[word] < 0 and view.words[word] != ~to:
                return "a read of word %d is passed on to core %d, which isn't its owner" % (word, to)
            if letter in "RPL" and value != view.value(word):
                return "core %d is asked for word %d, and has an old value" % (to, word)
    return None


def is_expected(view, message):
    to, kind, about, core, carried = message
    letter = lambda who: view.entry(who, about)[0]  # noqa: E731
    waits = lambda who, what: view.nodes[who].wait == (what, about)  # noqa: E731
    if kind in ("reg-req", "reg-fwd"):
        return letter(core) == "P"
    if kind == "reg-ack":
        return letter(to) == "P"
    if kind == "write-back":
        return view.entry(core, about) == ("L", carried)
    if kind == "wb-ack":
        return letter(to) == "L"
    if kind in ("read-req", "read-fwd"):
        return waits(core, "reading")
    if kind == "data-reply":
        return waits(to, "reading")
    if kind == "acquire":
        return waits(core, "locking")
    if kind == "grant":
        return waits(to, "locking")
    if kind == "release":
        return view.locks[about].holder == core
    if kind == "go":
        return about == view.controller.phase and view.is_alive(to)
    return view.is_alive(core if to == CONTROLLER else to)


def strays(view):
    """7. No strays."""
    for message in view.pool:
        if not is_expected(view, message):
            return "nobody waits for a message: %s" % view.world.letter_name(message)
    return None


def lock_signature(view, number):
    """What is known of the words written under a lock: at its home, and with its holder or in its release."""
    lock = view.locks[number]
    if lock.holder is None:
        return lock.kept
    if number in view.held(lock.holder):
        return joined(lock.kept, view.nodes[lock.holder].signatures[number])
    sent = next((message[4] for message in view.pool if message[1] == "release" and message[2] == number), None)
    return lock.kept if sent is None else joined(lock.kept, sent)


def may_be_stale(view, core, word, letter):
    """Whether the core drops its copy before it reads it, or can't read it."""
    node, now = view.nodes[core], view.controller.phase
    if node.phase + 1 == now and word in view.world.plans[node.phase][0] and letter == "V":
        return True
    for other in view.cores():
        decl = view.declared(now, other)
        if other == core or decl is None:
            continue
        if word in decl.writes:
            return True
        for lock, words in decl.gwrites.items():
            if word in words and lock not in view.held(core) and may_hold(lock_signature(view, lock), word, now):
                return True
    return False


def copies(view):
    """8. Copies."""
    for core, cache in enumerate(view.caches):
        for word, (letter, value) in cache.items():
            if letter not in "VM":
                continue
            decl = view.declared(view.nodes[core].phase, core)
            if letter == "M" and (decl is None or word not in decl.reads | decl.writes):
                return "core %d has word %d touched, and its task doesn't use it without a lock" % (core, word)
            if value != view.value(word) and not may_be_stale(view, core, word, letter):
                return "core %d has an old copy of word %d that it can read" % (core, word)
    return None


PARTS = collections.OrderedDict((("phases", phases), ("locks", locks), ("owners", owners), ("pending", pending), ("leaving", leaving), ("reads", reads),
                                 ("strays", strays), ("copies", copies)))


def broken_part(view):
    """The first part of the invariant that doesn't hold, as its name and a sentence; or None."""
    for name, part in PARTS.items():
        told = part(view)
        if told is not None:
            return name, told
    return None


# ---------------------------------------------------------------- what can be seen of a run

def wrong_load(state, world, happened):
    """A load that another value than the memory's, to which each store is applied as it retires."""
    if happened is not None and happened.seen is not None:
        word, value = happened.seen
        right = state[world.memory_at + word]
        if value != right:
            return "a load of word %d gives %d, and memory has %d" % (word, value, right)
    return None


def seen_in(view, ends):
    """What is wrong with a state for who looks at tasks alone: two hold a lock, two phases overlap, or a task ends as it can't on one memory."""
    held = collections.Counter(lock for core in view.cores() for lock in view.held(core))
    if held and max(held.values()) > 1:
        return "two cores hold lock %d" % max(held, key=held.get)
    running = {node.phase for node in view.nodes if not node.halted and not node.arrived and node.task is not None}
    if len(running) > 1:
        return "tasks of the phases %s run at once" % " and ".join(map(str, sorted(running)))
    for core, node in enumerate(view.nodes):
        if (node.arrived or node.halted) and node.task is not None and node.task.end is None:
            return "core %d ends the phase %d in the middle of its task" % (core, node.phase)
        if node.task is not None and node.task.end is not None and ends.get((node.phase, core)) != (node.task.end, node.task.retired):
            return "the task of core %d in phase %d ends as it can't: %s" % (core, node.phase, node.task.end)
    return None


def wrong_end(view):
    """What is wrong with a state in which no event is enabled."""
    if not all(node.halted for node in view.nodes):
        stuck = [str(core) for core, node in enumerate(view.nodes) if not node.halted]
        return "the run is stuck: core %s never halts" % ", ".join(stuck)
    for word, value in enumerate(view.memory):
        if view.value(word) != value:
            return "word %d is %s at the end, and memory has %d" % (word, view.value(word), value)
    return None
