"""The verdict on each rule: it is taken out, and all states of texts are searched until something goes wrong, or until enough states were reached.

First the machine with all rules is searched. A rule that makes no difference in any step that it comes to leaves exactly these states: such a rule
isn't searched again. Every other one is tried on the texts of texts.txt; of the texts that show what is wrong, the one with the shortest run counts.
If none does, texts are drawn."""
import collections
import pathlib

from machine import World
from search import Search
from small_texts import drawn, program_of

HERE = pathlib.Path(__file__).resolve().parent
SHAPES = ((1, 1), (1, 2), (1, 4), (2, 1))
Case = collections.namedtuple("Case", "line sets ways")
Verdict = collections.namedtuple("Verdict", "rule verdict steps shape text what part part_steps part_shape part_text part_what states texts")


def hand_made():
    lines = [line for line in (HERE / "texts.txt").read_text().splitlines() if line and not line.startswith("#")]
    return [Case(line, *shape) for line in lines for shape in SHAPES]


def drawn_cases():
    """Texts of the seeds 1, 2, ..: every third has three cores with less to do. The shape of the caches changes with the seed."""
    seed = 0
    while True:
        seed += 1
        cores = 3 if seed % 3 == 0 else 2
        yield Case(drawn(seed, cores, 2 if cores == 3 else 3), *SHAPES[seed % 4])


def world_of(case, changes="", **options):
    return World(program_of(case.line), case.sets, case.ways, changes, **options)


def enough(most, cases, changes, each=30000, parts=True, look=None):
    """Searches texts until something is wrong or so many states were reached: what was found, the case, the states and the texts."""
    states = texts = 0
    broken = None
    for case in cases:
        world = world_of(case, changes)
        found = Search(world, min(each, most), parts=parts and broken is None).search()
        states, texts = states + found.states, texts + 1
        if look is not None:
            look(world, case)
        if found.broken is not None and broken is None:
            broken = found.broken, case
        if found.seen is not None:
            return (found.seen, case), broken, states, texts
        if states >= most:
            break
    return None, broken, states, texts


class Differences:
    """Which rules have made a difference: to a step of an actor that the machine with all rules makes, or to the events that are enabled."""

    def __init__(self, rules):
        self.left = dict(rules)

    def look(self, world, case):
        for name, rule in list(self.left.items()):
            if self.differs(world, world_of(case, rule.changes)):
                del self.left[name]

    @staticmethod
    def differs(world, other):
        other.nodes, other.locks, other.controllers, other.messages = world.nodes, world.locks, world.controllers, world.messages
        for (core, number), events in list(world.owned.items()):
            if other.own_events(core, number) != events:
                return True
        functions = {"word": other.word_step, "lock": other.lock_step, "controller": other.controller_step}
        for (what, state, event), happened in list(world.known.items()):
            found = functions[what](state, event) if what in functions else other.core_step(what, state, event)
            if (found.number, found.sent, found.seen, found.stored) != (happened.number, happened.sent, happened.seen, happened.stored):
                return True
        return False


def shortest(changes, cases, each=20000):
    """Of these cases the one with the shortest run to what can be seen, and that with the shortest run to a part of the invariant."""
    seen = broken = None
    states = texts = 0
    for case in cases:
        found = Search(world_of(case, changes), each).search()
        states, texts = states + found.states, texts + 1
        if found.seen and (seen is None or len(found.seen.run) < len(seen[0].run)):
            seen = found.seen, case
        if found.broken and (broken is None or len(found.broken.run) < len(broken[0].run)):
            broken = found.broken, case
    return seen, broken, states, texts


def shape_of(case):
    return "%dx%d" % (case.sets, case.ways)


def verdict(rule, most):
    seen, broken, states, texts = shortest(rule.changes, hand_made())
    if seen is None:
        seen, more, others, count = enough(most, drawn_cases(), rule.changes, parts=False)
        broken, states, texts = broken or more, states + others, texts + count
    name = "killed" if seen else "breaks the invariant" if broken else "survives"
    told = (len(seen[0].run), shape_of(seen[1]), seen[1].line, seen[0].what) if seen else ("", "", "", "")
    part = (broken[0].what[0], len(broken[0].run), shape_of(broken[1]), broken[1].line, broken[0].what[1]) if broken else ("", "", "", "", "")
    return Verdict(rule.name, name, *told, *part, states, texts)


def survey(rules, most, tell):
    """The verdicts on these rules; `tell` hears each."""
    same = Differences(rules)
    cases = [*hand_made()]
    found = enough(most, (case for source in (cases, drawn_cases()) for case in source), "", look=same.look)
    if found[0] or found[1]:
        raise RuntimeError("the machine with all rules goes wrong: %s" % (found,))
    tell(Verdict("", "all rules", "", "", "", "", "", "", "", "", "", found[2], found[3]))
    for name, rule in rules.items():
        if name in same.left:
            tell(Verdict(name, "no difference", "", "", "", "", "", "", "", "", "", found[2], found[3]))
        else:
            tell(verdict(rule, most))
