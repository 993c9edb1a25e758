#!/usr/bin/env python3
"""A second simulator of another kind, which writes claims: caches with lines of several words, and a directory that tells the sharers.

    examples/another-simulator/directory.py [--seed N] [--line WORDS] [--sets N] [--ways N] [--fuel N] [--counts] [--bug NAME] < TEXT > CLAIM
    examples/another-simulator/directory.py --list-bugs
    ./referee < CLAIM

A line is Modified in one cache, or Shared in some, or in none. A core that misses asks the home, which serves one request of a line at
a time and lets the others wait. For a store the home tells each sharer to drop its copy, and waits until all have answered. A line that
is Modified elsewhere is fetched from there. An evicted Modified line goes home by a write-back. Stores retire into a store buffer; a load
of a word that is in it waits. Messages are in flight, and come in any order. How a text is read and what an instruction does is
tools/reference.py's; the rest is here.

--counts writes to standard error how many messages of each kind were sent.

--bug switches one of twelve bugs on; they stand in the code where `self.bug` is asked. README.md in this folder says which texts find which.

The exit code is 0 where a claim was written, 1 where the words aren't these, and 2 where the text has no program that could be run.
"""
import argparse
import random
import sys
from pathlib import Path

sys.path.insert(0, str(Path(__file__).resolve().parents[2] / "tools"))
from ending import end  # noqa: E402
from reference import TaskState, Unfit, answer_text, assemble, claim_text, decode

BUGS = {
    "lost-invalidation": "the home doesn't tell the last of the sharers that a line is stored to",
    "early-acknowledgement": "a core says that its copy is gone, and drops it only when it misses the next time",
    "dropped-write-back": "the home acknowledges a write-back, and doesn't take its words",
    "gone-line-answers": "a core whose line is on its way home answers a fetch with what stands in the line's place now",
    "byte-clobbers-word": "a store of a byte or half word sets the rest of the word to 0",
    "lost-neighbour": "of a line that comes home only the word is taken that was stored to last",
    "owner-not-downgraded": "a core whose line was fetched for a reader goes on storing to it",
    "stale-at-grant": "a core that waits for a lock answers invalidations, and keeps its copy",
    "granted-twice": "a lock that is held is granted to the next that asks for it",
    "starving-grant": "a lock goes to the last that waits for it, and those before are forgotten",
    "load-ahead-of-store": "a load doesn't wait for a store to its word that is in the store buffer",
    "last-dirty-line": "the answer lacks the last of the lines that are Modified at the end",
}
# the kinds of messages: those about words, and those by which the home knows that a core has a line, and of locks
OF_WORDS = ("read", "own", "fetch", "fetched", "data", "invalidate", "invalidated", "write-back", "written-back")
KINDS = OF_WORDS + ("done", "acquire", "release", "grant")
MODIFIED, SHARED = "Modified", "Shared"
HOME = -1
BUFFERED = 4                                    # how many stores a store buffer has room for
MASK = 0xFFFFFFFF


class Line:
    """A line in a cache: its state, its words, when it was used last, and which of its words was stored to last."""

    def __init__(self, state, words, now):
        self.state, self.words, self.used, self.last = state, words, now, 0


class Core:
    def __init__(self, machine, number):
        self.machine, self.number, self.bug, self.size = machine, number, machine.bug, machine.line
        self.lines, self.leaving = {}, {}       # the cache, and the words of lines that are on their way home
        self.stores = []                        # the store buffer: (word, the bits that stay, the bits that are stored)
        self.asked = None                       # the line that was asked for: there is one miss at a time
        self.is_locking = False                 # whether it waits for a lock
        self.dooms = set()                      # for one of the bugs: copies that should be gone
        self.task, self.need = None, None

    def begin(self, task):
        self.task, self.need = task, task.need()

    def is_done(self):
        return self.task is None or self.task.end is not None

    def send(self, kind, *what):
        self.machine.post((HOME, kind, self.number) + what)

    # ------------------------------------------------------------ what a core does by itself

    def may_step(self):
        if self.is_done() or self.is_locking:
            return False
        kind = self.need[0]
        if kind == "load":
            return self.may_load(self.need[1])
        if kind == "store":
            return len(self.stores) < BUFFERED
        return kind in ("local", "acquire") or not self.stores

    def may_load(self, word):
        if self.bug != "load-ahead-of-store" and any(store[0] == word for store in self.stores):
            return False
        return word // self.size in self.lines or self.may_ask(word // self.size)

    def may_ask(self, line):
        return self.asked is None and line not in self.leaving

    def may_drain(self):
        if not self.stores:
            return False
        line = self.stores[0][0] // self.size
        return self.is_own(line) or self.may_ask(line)

    def is_own(self, line):
        return line in self.lines and self.lines[line].state == MODIFIED

    def step(self):
        kind = self.need[0]
        if kind == "load":
            if self.need[1] // self.size not in self.lines:
                self.ask("read", self.need[1] // self.size)
            else:
                self.load()
            return
        if kind == "acquire":
            self.is_locking = True
            self.send("acquire", self.need[1])
            return
        if kind == "store":
            part, kept = self.task.merged(0), self.task.merged(0) ^ self.task.merged(MASK)
            self.stores.append((self.need[1], 0 if self.bug == "byte-clobbers-word" else kept, part))
            self.task.retire()
        elif kind == "release":
            self.send("release", self.need[1])
            self.task.held.discard(self.need[1])
            self.task.retire()
        elif kind == "end":
            self.task.stop(self.need[1])
        else:
            self.task.local()
        self.go_on()

    def go_on(self):
        self.need = None if self.is_done() else self.task.need()

    def load(self):
        word = self.need[1]
        line = self.lines[word // self.size]
        line.used = self.machine.tick()
        value = line.words[word % self.size]
        self.machine.note_load(self.number, word, value)
        self.task.loaded(value)
        self.go_on()

    def drain(self):
        """The oldest store of the buffer is made, or its line is asked for."""
        word, kept, part = self.stores[0]
        if not self.is_own(word // self.size):
            self.ask("own", word // self.size)
            return
        line, place = self.lines[word // self.size], word % self.size
        line.words[place] = line.words[place] & kept | part
        line.used, line.last = self.machine.tick(), place
        self.stores.pop(0)

    def ask(self, kind, line):
        for doomed in self.dooms:
            self.lines.pop(doomed, None)
        self.dooms.clear()
        if line not in self.lines:
            self.make_room(line)
        self.asked = line
        self.send(kind, line)

    def make_room(self, line):
        rivals = self.rivals(line)
        if len(rivals) < self.machine.ways:
            return
        victim = min(rivals, key=lambda other: self.lines[other].used)
        gone = self.lines.pop(victim)
        if gone.state == MODIFIED:
            self.leaving[victim] = gone.words
            self.send("write-back", victim, list(gone.words), gone.last)

    def rivals(self, line):
        return [other for other in self.lines if other % self.machine.sets == line % self.machine.sets]

    # ------------------------------------------------------------ what a core does with a message

    def receive(self, kind, *what):
        {"data": self.fill, "invalidate": self.invalidate, "fetch": self.fetch, "written-back": self.leaving.pop, "grant": self.grant}[kind](*what)

    def fill(self, line, state, words):
        """The line that was asked for has come: the access that waits for it is made at once."""
        self.lines[line] = Line(state, words, self.machine.tick())
        self.asked = None
        self.dooms.discard(line)
        self.send("done", line)
        if state == SHARED:
            self.load()
        else:
            self.drain()

    def invalidate(self, line):
        if self.bug == "early-acknowledgement":
            self.dooms.add(line)
        elif not (self.bug == "stale-at-grant" and self.is_locking):
            self.lines.pop(line, None)
        self.send("invalidated", line)

    def fetch(self, line, for_reader):
        """The home wants the words of an own line, for a core that reads or stores. They may be on their way to it already."""
        if line in self.leaving:
            words = self.leaving[line]
            if self.bug == "gone-line-answers":
                words = next((self.lines[other].words for other in self.rivals(line)), [0] * self.size)
            self.send("fetched", line, list(words), 0, False)
            return
        own = self.lines[line]
        if not for_reader:
            self.lines.pop(line)
        elif self.bug != "owner-not-downgraded":
            own.state = SHARED
        self.send("fetched", line, list(own.words), own.last, for_reader)

    def grant(self, lock):
        self.is_locking = False
        self.task.held.add(lock)
        self.task.retire()
        self.go_on()


class Home:
    """The memory, the directory, and the queues of the locks."""

    def __init__(self, machine, memory):
        self.machine, self.bug, self.size = machine, machine.bug, machine.line
        self.memory = memory + [0] * (-len(memory) % self.size)
        self.owners, self.sharers = {}, {}
        self.served, self.unanswered = {}, {}   # by line: the request that is served, and how many sharers haven't answered it
        self.waiting = {}                       # by line: the requests that came meanwhile
        self.holders, self.queues = {}, {}

    def send(self, core, kind, *what):
        self.machine.post((core, kind) + what)

    def receive(self, kind, core, *what):
        if kind in ("read", "own", "write-back"):
            self.waiting.setdefault(what[0], []).append((kind, core) + what)
            self.serve(what[0])
        elif kind == "fetched":
            self.take_fetched(core, *what)
        elif kind == "invalidated":
            self.unanswered[what[0]] -= 1
            if self.unanswered[what[0]] == 0:
                self.reply(what[0])
        elif kind == "done":
            del self.served[what[0]]
            self.serve(what[0])
        elif kind == "acquire":
            self.acquire(core, *what)
        else:
            self.release(core, *what)

    # ------------------------------------------------------------ lines

    def serve(self, line):
        """The requests for a line, one after the other: a read and a store are served until their core has the line."""
        while line not in self.served and self.waiting.get(line):
            kind, core, *what = self.waiting[line].pop(0)
            if kind == "write-back":
                self.take_back(core, *what)
                continue
            self.served[line] = kind, core
            if line in self.owners:
                self.send(self.owners[line], "fetch", line, kind == "read")
            elif kind == "own" and self.told(line, core):
                self.unanswered[line] = len(self.told(line, core))
                for sharer in self.told(line, core):
                    self.send(sharer, "invalidate", line)
            else:
                self.reply(line)

    def told(self, line, core):
        """The sharers that have to drop their copies before the core may store."""
        sharers = sorted(self.sharers.get(line, set()) - {core})
        return sharers[:-1] if self.bug == "lost-invalidation" else sharers

    def reply(self, line):
        kind, core = self.served[line]
        if kind == "read":
            self.sharers.setdefault(line, set()).add(core)
        else:
            self.sharers.pop(line, None)
            self.owners[line] = core
        at = line * self.size
        self.send(core, "data", line, SHARED if kind == "read" else MODIFIED, self.memory[at:at + self.size])

    def take_fetched(self, core, line, words, last, is_kept):
        self.write(line, words, last)
        del self.owners[line]
        if is_kept:
            self.sharers.setdefault(line, set()).add(core)
        self.reply(line)

    def take_back(self, core, line, words, last):
        """A write-back is late where the line was fetched from its core before."""
        if self.owners.get(line) == core:
            del self.owners[line]
            if self.bug != "dropped-write-back":
                self.write(line, words, last)
        self.send(core, "written-back", line)

    def write(self, line, words, last):
        at = line * self.size
        if self.bug == "lost-neighbour":
            self.memory[at + last] = words[last]
        else:
            self.memory[at:at + self.size] = words

    # ------------------------------------------------------------ locks

    def acquire(self, core, lock):
        if lock in self.holders and self.bug != "granted-twice":
            self.queues.setdefault(lock, []).append(core)
        else:
            self.hand(core, lock)

    def release(self, core, lock):
        self.holders.pop(lock, None)
        queue = self.queues.get(lock)
        if queue and self.bug == "starving-grant":
            self.hand(queue[-1], lock)
            queue.clear()
        elif queue:
            self.hand(queue.pop(0), lock)

    def hand(self, core, lock):
        self.holders[lock] = core
        self.machine.note_grant(core, lock)
        self.send(core, "grant", lock)


class Machine:
    def __init__(self, program, line=4, sets=4, ways=2, fuel=32768, bug=None):
        self.program, self.line, self.sets, self.ways, self.fuel, self.bug = program, line, sets, ways, fuel, bug
        self.decoded = [decode(word) for word in program.code]
        self.flight = []                        # the messages in flight: (receiver, kind, ..)
        self.sent = {}                          # how many messages of each kind were sent
        self.home = Home(self, list(program.memory))
        self.cores = [Core(self, number) for number in range(program.cores())]
        self.phase, self.clock = 0, 0
        self.grants, self.loads, self.ends = [], {}, []

    def tick(self):
        self.clock += 1
        return self.clock

    def post(self, message):
        self.sent[message[1]] = self.sent.get(message[1], 0) + 1
        self.flight.append(message)

    def note_load(self, core, word, value):
        self.loads[self.phase, core].append((word, value))

    def note_grant(self, core, lock):
        self.grants.append((self.phase, core, lock))

    def able(self):
        """All that may come next."""
        steps = [core.step for core in self.cores if core.may_step()]
        return steps + [core.drain for core in self.cores if core.may_drain()] + list(range(len(self.flight)))

    def make(self, event):
        if not isinstance(event, int):
            event()
            return
        receiver, *message = self.flight.pop(event)
        (self.home if receiver == HOME else self.cores[receiver]).receive(*message)

    def run_phase(self, tasks, draw):
        for core in self.cores:
            core.task = None
            if core.number in tasks:
                self.loads[self.phase, core.number] = []
                core.begin(TaskState(self.program, self.decoded, tasks[core.number], self.fuel))
        while not all(core.is_done() for core in self.cores):
            able = self.able()
            if not able:
                break
            self.make(draw.choice(able))
        working = [core for core in self.cores if core.task]
        for core in working:
            end = core.task.end or "waits %d" % core.need[1]
            self.ends.append((self.phase, core.number, end, core.task.retired))
        return all(core.task.end == "finished" for core in working)

    def run(self, draw):
        for self.phase, tasks in enumerate(self.program.phases):
            if not self.run_phase(tasks, draw):
                break
        while self.flight:
            self.make(draw.randrange(len(self.flight)))

    def memory(self):
        """The data words as a task behind the last phase would find them."""
        memory = list(self.home.memory)
        dirty = sorted((line, core.number) for core in self.cores for line in core.lines if core.is_own(line))
        for line, core in dirty[:-1] if self.bug == "last-dirty-line" else dirty:
            memory[line * self.line:(line + 1) * self.line] = self.cores[core].lines[line].words
        return memory[:len(self.program.memory)]

    def claim(self, text):
        return claim_text(text, self.fuel, self.grants, self.loads, answer_text((self.ends, self.memory())))


def arguments():
    words = argparse.ArgumentParser(description=__doc__, formatter_class=argparse.RawDescriptionHelpFormatter)
    words.add_argument("--seed", type=int, default=1)
    words.add_argument("--line", type=int, default=4, help="words of a line")
    words.add_argument("--sets", type=int, default=4, help="sets of a cache")
    words.add_argument("--ways", type=int, default=2, help="lines of a set")
    words.add_argument("--fuel", type=int, default=32768)
    words.add_argument("--counts", action="store_true", help="write to standard error how many messages of each kind were sent")
    words.add_argument("--bug", choices=sorted(BUGS))
    words.add_argument("--list-bugs", action="store_true", help="say what each bug is")
    return words.parse_args()


def main():
    try:
        asked = arguments()
    except SystemExit as stop:
        return 1 if stop.code else 0
    if asked.list_bugs:
        print("".join("%-22s %s\n" % bug for bug in BUGS.items()), end="")
        return 0
    text = sys.stdin.buffer.read()
    try:
        program = assemble(text.decode("latin-1"))
    except Unfit as why:
        print(f"directory.py: the text has no program that could be run ({why}): ./denovo says why", file=sys.stderr)
        return 2
    machine = Machine(program, asked.line, asked.sets, asked.ways, asked.fuel, asked.bug)
    machine.run(random.Random(asked.seed))
    sys.stdout.buffer.write(machine.claim(text))
    if asked.counts:
        print("messages %d" % sum(count for kind, count in machine.sent.items() if kind in OF_WORDS), file=sys.stderr)
        print("".join("count %s %d\n" % (kind, machine.sent.get(kind, 0)) for kind in KINDS), end="", file=sys.stderr)
    return 0


if __name__ == "__main__":
    sys.exit(end("directory.py", main))
