"""States of the directory machine of baseline/directory.py, beside those of the machine of the rules, on the same texts.

The directory has lines of one word, the states M, E, S, I, silent evictions of copies, and one bank. Its messages between two actors arrive in order,
as its protocol needs it; those of the machine of the rules have no order. On both machines what concerns registers alone is done at once, and
each entry that may be evicted may be the one. With the barrier as one event a phase ends in one step when all tasks have ended and no store is
open; else the messages of the barrier are counted too."""
import collections
import csv
import pathlib
import sys

sys.path.insert(0, str(pathlib.Path(__file__).resolve().parent.parent.parent / "baseline"))
from directory import Bank, Barrier, Directory, Entry, Line  # noqa: E402: the folder above
from machine import World  # noqa: E402
from protocol import STABLE  # noqa: E402
from search import Search  # noqa: E402
from tasks import Tasks  # noqa: E402
from small_texts import program_of  # noqa: E402

COLUMNS = ["pattern", "cores", "words", "ways", "barrier", "rules", "rules-whole", "directory", "directory-whole"]


# ---------------------------------------------------------------- texts of both

def readers(cores, words):
    """All cores read all words; then core 0 writes them."""
    reads, writes = (" ".join(kind + str(word) for word in range(words)) for kind in "rw")
    return "%d | %s ; 0: %s" % (words, " / ".join("%d: %s" % (core, reads) for core in range(cores)), writes)


def turns(cores, words):
    """The cores write all words in turn, and after each all read them."""
    reads, writes = (" ".join(kind + str(word) for word in range(words)) for kind in "rw")
    phases = []
    for core in range(cores):
        phases += ["%d: %s" % (core, writes), " / ".join("%d: %s" % (other, reads) for other in range(cores))]
    return "%d | %s" % (words, " ; ".join(phases))


def counter(cores, _):
    """All cores add to a word under a lock."""
    return "1 | " + " / ".join("%d: l0 r0 w0 u0" % core for core in range(cores))


def race(cores, _):
    """Core 0 evicts a word that another core writes, and the last core reads it in the next phase."""
    return "1,1 | 0: w0 ; 0: w1 / 1: w0 ; %d: r0" % (cores - 1)


PATTERNS = {"readers": readers, "turns": turns, "counter": counter, "race": race}
CASES = [("readers", 2, 1, 4), ("readers", 3, 1, 4), ("readers", 4, 1, 4), ("readers", 2, 2, 4), ("readers", 2, 2, 1), ("turns", 2, 1, 4), ("turns", 3, 1, 4),
         ("turns", 2, 2, 4), ("turns", 2, 2, 1), ("turns", 3, 2, 1), ("counter", 2, 1, 4), ("counter", 3, 1, 4), ("counter", 4, 1, 4), ("race", 2, 2, 1), ("race", 3, 2, 1)]


# ---------------------------------------------------------------- the directory's states as tuples

def line_kept(number, line):
    """A line as a tuple, without what no row looks at any more: words that have been given away, and counts when no store waits."""
    words = None if line.words is None or line.state in ("SI_A", "II_A", "IS_D", "IS_DI") else tuple(line.words)
    needed, got = (line.needed, line.got) if line.stores else (None, 0)
    return number, line.state, words, needed, got, tuple(line.stores), tuple(line.waiting)


def line_made(kept):
    line = Line()
    line.state, line.needed, line.got, line.stores, line.waiting = kept[1], kept[3], kept[4], list(kept[5]), list(kept[6])
    line.words = None if kept[2] is None else list(kept[2])
    return line


class Directories:
    """The directory machine of a program: its states as (actors, messages), and the events that lead from one to the next. One machine makes all
    steps: an actor is put into it, makes its step, and is taken out."""

    def __init__(self, program, ways, barrier):
        self.machine = Directory(program, banks=1, sets=1, ways=ways, line=1)
        self.machine.loads = collections.defaultdict(list)
        self.tasks, self.cores, self.barrier, self.known = Tasks(program), self.machine.cores, barrier, {}

    # actors in and out

    def keep(self, number):
        actor = self.machine.everybody[number]
        if isinstance(actor, Bank):
            entries = tuple((at, entry.state, entry.owner, tuple(sorted(entry.listed)), entry.is_over, tuple(entry.waiting))
                            for at, entry in sorted(actor.entries.items()) if entry.state != "I" or entry.waiting)
            return entries, tuple(self.machine.memory), tuple((lock, tuple(queue)) for lock, queue in sorted(actor.locks.items()))
        if isinstance(actor, Barrier):
            return actor.phase, actor.there, actor.is_bad
        task = None if actor.task is None else Tasks.kept(actor.task, number, actor.phase)
        lines = tuple(sorted(line_kept(at, line) for at, line in actor.sets[0].items()))
        left = tuple(sorted(line_kept(at, line) for at, line in actor.leaving.items()))
        return actor.phase, actor.asked, actor.filled, actor.locking, actor.pending, task, actor.has_arrived, actor.is_halted, lines, left

    def put(self, number, kept):
        actor = self.machine.everybody[number]
        if isinstance(actor, Bank):
            actor.entries, self.machine.memory, actor.locks = {}, list(kept[1]), {lock: list(queue) for lock, queue in kept[2]}
            for at, state, owner, listed, is_over, waiting in kept[0]:
                entry = actor.entries[at] = Entry()
                entry.state, entry.owner, entry.listed, entry.is_over, entry.waiting = state, owner, set(listed), is_over, list(waiting)
        elif isinstance(actor, Barrier):
            actor.phase, actor.there, actor.is_bad = kept
        else:
            actor.phase, actor.asked, actor.filled, actor.locking, actor.pending, task, actor.has_arrived, actor.is_halted, lines, left = kept
            actor.task = None if task is None else self.tasks.state(task)
            actor.sets[0], actor.leaving = {line[0]: line_made(line) for line in lines}, {line[0]: line_made(line) for line in left}
            actor.look()
        return actor

    # steps

    def settle(self, core):
        """Makes what concerns registers alone."""
        while core.filled is None and core.locking is None and not core.has_arrived and core.next is not None and core.next[0] in ("local", "end"):
            core.instr()

    def first(self):
        for node in self.machine.nodes:
            self.settle(node)
        return tuple(self.keep(number) for number in range(len(self.machine.everybody))), ()

    def own_events(self, core, kept):
        key = "own", core, kept
        if key not in self.known:
            actor = self.put(core, kept)
            own = actor.own()
            if own is not None and own[0] == "evict":
                events = [("evict", core, number) for number, line in sorted(actor.sets[0].items()) if line.state in STABLE]
            else:
                events = [] if own is None or self.barrier and own[0] == "arrive" else [own]
            self.known[key] = events, own is not None and own[0] == "arrive"
        return self.known[key]

    def events(self, state):
        actors, pool = state
        found, arriving = [], 0
        for core in range(self.cores):
            events, may_arrive = self.own_events(core, actors[core])
            found += events
            arriving += may_arrive
        found += [("handle", pair) for pair, _ in pool]
        return found + ([("barrier",)] if self.barrier and arriving == self.cores else [])

    def actor_step(self, number, kept, event, message):
        key = number, kept, event, message
        if key not in self.known:
            actor = self.put(number, kept)
            self.machine.sent = []
            if message is not None:
                actor.receive(message)
            elif event[0] == "instr":
                actor.instr()
            elif event[0] == "evict":
                actor.change("evict", event[2], actor.line(event[2]))
            else:
                actor.arrive()
            if number < self.cores:
                self.settle(actor)
            sent = tuple((to, letter._replace(words=tuple(letter.words)) if isinstance(letter.words, list) else letter) for to, letter in self.machine.sent)
            self.known[key] = self.keep(number), sent
        return self.known[key]

    def step(self, state, event):
        actors, pool = list(state[0]), dict(state[1])
        if event[0] == "barrier":
            return self.end_phase(actors), state[1]
        number, message = event[1], None
        if event[0] == "handle":
            pair = event[1]
            number, message = pair[1], pool[pair][0]
            pool[pair] = pool[pair][1:]
        actors[number], sent = self.actor_step(number, actors[number], event if message is None else None, message)
        for to, letter in sent:
            pool[number, to] = pool.get((number, to), ()) + (letter,)
        return tuple(actors), tuple(sorted((pair, letters) for pair, letters in pool.items() if letters))

    def end_phase(self, actors):
        """The barrier as one event: its messages are handled at once."""
        last = len(actors) - 1
        for core in range(self.cores):
            actors[core], sent = self.actor_step(core, actors[core], ("arrive", core), None)
            for _, letter in sent:
                actors[last], answers = self.actor_step(last, actors[last], None, letter)
        for to, letter in answers:
            actors[to] = self.actor_step(to, actors[to], None, letter)[0]
        return tuple(actors)


def directory_states(program, ways, barrier, most):
    """How many states the directory machine has, and whether these are all."""
    machine = Directories(program, ways, barrier)
    seen = {machine.first()}
    front = list(seen)
    while front and len(seen) <= most:
        following = []
        for state in front:
            for event in machine.events(state):
                after = machine.step(state, event)
                if after not in seen:
                    seen.add(after)
                    following.append(after)
        front = following
    return len(seen), not front


def rule_states(program, ways, barrier, most):
    found = Search(World(program, 1, ways, barrier=barrier), most, parts=False).search()
    return found.states, found.whole and found.seen is None


def row_of(case, barrier, most):
    pattern, cores, words, ways = case
    program = program_of(PATTERNS[pattern](cores, words))
    rules, directory = rule_states(program, ways, barrier, most), directory_states(program, ways, barrier, most)
    return dict(zip(COLUMNS, (*case, "one event" if barrier else "messages", rules[0], "yes" if rules[1] else "no", directory[0], "yes" if directory[1] else "no")))


def write_states(path, most):
    with open(path, "w", newline="") as file:
        writer = csv.DictWriter(file, COLUMNS, lineterminator="\n")
        writer.writeheader()
        for case in CASES:
            for barrier in (True, False):
                writer.writerow(row_of(case, barrier, most))
                file.flush()
