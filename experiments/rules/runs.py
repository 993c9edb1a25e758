"""Runs of a machine with a changed rule: stored as lines, replayed, and followed with all rules as long as these do the same.

In a stored run an event is a line: `instr CORE`, `evict CORE WORD`, `arrive CORE`, or `handle TO KIND ABOUT CORE CARRIED`. What happens to registers
alone has no line."""
import collections

from agree import events_of, settle
from invariant import View, seen_in, wrong_end, wrong_load
from machine import World
from reference import Machine, document
from search import right_ends
from small_texts import program_of, text_of

# a stored kill: `events` are the lines of the run; behind `differs` events the machine with all rules doesn't do the same, and these are
# `trace_events` events of its trace
Kill = collections.namedtuple("Kill", "rule text sets ways differs trace_events wrong events")
ACTORS = {100: "home", 101: "controller"}


def carried_text(carried):
    return "%x@%d" % carried if isinstance(carried, tuple) else str(int(carried))


def event_line(world, event):
    if event[0] != "handle":
        return " ".join(map(str, event))
    to, kind, about, core, carried = world.messages.values[event[1]]
    return "handle %s %s %d %d %s" % (ACTORS.get(to, to), kind, about, core, carried_text(carried))


def event_of(world, state, line):
    """The enabled event that a line names, or None."""
    return next((event for event in world.events(state) if event_line(world, event) == line), None)


def world_of(kill, changes=""):
    return World(program_of(kill.text), kill.sets, kill.ways, changes)


def played(world, lines):
    """The states of a run from the first one on, and what happened in each step; it ends before an event that isn't enabled."""
    states, happenings = [world.first()], []
    for line in lines:
        event = event_of(world, states[-1], line)
        if event is None:
            break
        after, happened = world.step(states[-1], event)
        states.append(after)
        happenings.append(happened)
    return states, happenings


def wrong_with(world, lines):
    """What is wrong at the end of a run, as the search says it; None where the run can't be made or nothing is wrong."""
    states, happenings = played(world, lines)
    if len(happenings) < len(lines):
        return None
    ends = right_ends(world.program)
    told = wrong_load(states[-2], world, happenings[-1]) if happenings else None
    told = told or seen_in(View(world, states[-1]), ends)
    if told is None and not world.events(states[-1]):
        told = wrong_end(View(world, states[-1]))
    if told is None and states[-1] in states[:-1]:
        told = "a run has no end: it comes back to a state"
    most = world.cores * (1 + world.word_count + 2 * world.lock_count)
    if told is None and len(states[-1]) - world.pool_at > most:
        told = "messages in flight without end"
    return told


class Followed:
    """A run of a machine with a changed rule, and the machine with all rules beside it, as far as that does the same."""

    def __init__(self, changes, text, sets, ways, lines, banks=1):
        program = program_of(text)
        self.changed, self.right = World(program, sets, ways, changes), World(program, sets, ways)
        for numbers in ("nodes", "locks", "controllers", "messages"):
            setattr(self.changed, numbers, getattr(self.right, numbers))
        self.text, self.banks, self.lines = text, banks, lines
        self.machine = Machine(program, banks, sets, ways)
        self.events, self.differs = settle(self.machine), len(lines)
        self.follow()
        self.trace_events = len(self.events)

    def follow(self):
        state = self.changed.first()
        for number, line in enumerate(self.lines):
            event = event_of(self.changed, state, line)
            after, _ = self.changed.step(state, event)
            if event not in self.right.events(state) or self.right.step(state, event)[0] != after:
                self.differs = number
                return
            made = events_of(self.right, self.machine)[event]
            self.events.append(made)
            self.machine.step(made)
            self.events += settle(self.machine)
            state = after

    def trace(self):
        """The trace of the machine with all rules: the run as far as it does the same, and then on to an end."""
        while True:
            event, place = self.machine.pick(0)
            if event is None:
                break
            self.events.append(event)
            self.machine.step(event, place)
        sizes = {"banks": self.banks, "sets": self.machine.sets, "ways": self.machine.ways, "fuel": self.machine.fuel}
        return "".join(line + "\n" for line in document(text_of(self.text), sizes, self.events))


# ---------------------------------------------------------------- the file of kills

def kill_text(kill):
    head = ["kill %s" % kill.rule, "text %s" % kill.text, "sets %d ways %d" % (kill.sets, kill.ways), "differs %d trace %d" % (kill.differs, kill.trace_events),
            "wrong %s" % kill.wrong]
    return "\n".join(head + kill.events) + "\n"


def read_kills(path):
    kills = []
    for part in path.read_text().split("\n\n"):
        lines = [line for line in part.splitlines() if line and not line.startswith("#")]
        if not lines:
            continue
        sets, ways = (int(word) for word in lines[2].split()[1::2])
        differs, trace = (int(word) for word in lines[3].split()[1::2])
        kills.append(Kill(lines[0].split()[1], lines[1].partition(" ")[2], sets, ways, differs, trace, lines[4].partition(" ")[2], lines[5:]))
    return kills
