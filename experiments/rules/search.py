"""All states of a text on the machine of the rules, breadth first: how many there are, and a shortest run to what is wrong.

States are merged: a state that was reached before isn't looked at again. Two kinds of wrong are told apart: what can be seen of a run, and a part of
the invariant that doesn't hold, which need not be seen."""
import array
import collections

from invariant import View, broken_part, seen_in, wrong_end, wrong_load
from reference import flat
from small_texts import program_of

# a run to what is wrong: how many events it has, what is wrong, and the events
Wrong = collections.namedtuple("Wrong", "what run")
Found = collections.namedtuple("Found", "states steps finals seen broken whole")


def right_ends(program, fuel=32768):
    """How each task ends on one memory: no order of grants changes it in these texts, whose tasks have no branches."""
    ends = flat(program, fuel)[0][0]
    return {(phase, core): (end, retired) for phase, core, end, retired in ends}


class Search:
    """The search. With `parts` the invariant is checked too; with `stop` it ends at the first thing that can be seen."""

    def __init__(self, world, limit=100000, parts=True, stop=True):
        self.world, self.limit, self.parts, self.stop = world, limit, parts, stop
        self.ends = right_ends(world.program)
        self.numbers, self.states = {}, []
        self.parents, self.events, self.event_numbers = array.array("i"), array.array("i"), {}
        self.looked = {}                # what seen_in says, by the numbers of the nodes: it looks at tasks alone
        self.event_list, self.edges = [], (array.array("i"), array.array("i"))
        self.finals, self.steps, self.seen, self.broken, self.flood = 0, 0, None, None, None
        # no more messages can be in flight: each core waits for one answer, and has one for each word and two for each lock
        self.most_messages = world.cores * (1 + world.word_count + 2 * world.lock_count)

    def add(self, state, parent, event):
        """The number of a state, and whether it is new."""
        number = self.numbers.get(state)
        if number is not None:
            return number, False
        number = self.numbers[state] = len(self.states)
        self.states.append(state)
        self.parents.append(parent)
        self.events.append(self.event_number(event))
        return number, True

    def event_number(self, event):
        number = self.event_numbers.get(event)
        if number is None:
            number = self.event_numbers[event] = len(self.event_list)
            self.event_list.append(event)
        return number

    def run_to(self, number):
        """The events of a shortest run to a state."""
        run = []
        while self.parents[number] >= 0:
            run.append(self.event_list[self.events[number]])
            number = self.parents[number]
        return run[::-1]

    def tell(self, kind, what, run):
        """The first of each kind is kept."""
        if getattr(self, kind) is None:
            setattr(self, kind, Wrong(what, run))

    def look(self, number):
        """Looks at a new state."""
        state = self.states[number]
        nodes = state[:self.world.cores]
        if nodes not in self.looked:
            self.looked[nodes] = seen_in(View(self.world, state), self.ends)
        if self.looked[nodes] is not None:
            self.tell("seen", self.looked[nodes], self.run_to(number))
        if len(state) - self.world.pool_at > self.most_messages:
            self.tell("flood", "messages in flight without end", self.run_to(number))
        if self.parts and self.broken is None:
            part = broken_part(View(self.world, state))
            if part is not None:
                self.tell("broken", part, self.run_to(number))

    def expand(self, number):
        state = self.states[number]
        if len(state) - self.world.pool_at > self.most_messages:
            return
        events = self.world.events(state)
        if not events:
            self.finals += 1
            told = wrong_end(View(self.world, state))
            if told is not None:
                self.tell("seen", told, self.run_to(number))
        for event in events:
            after, happened = self.world.step(state, event)
            self.steps += 1
            told = wrong_load(state, self.world, happened)
            if told is not None:
                self.tell("seen", told, self.run_to(number) + [event])
            other, is_new = self.add(after, number, event)
            self.edges[0].append(number)
            self.edges[1].append(other)
            if is_new:
                self.look(other)

    def search(self):
        self.add(self.world.first(), -1, None)
        self.look(0)
        at = 0
        while at < len(self.states) and len(self.states) <= self.limit and not (self.stop and self.seen):
            self.expand(at)
            at += 1
        whole = at == len(self.states)
        if self.seen is None and self.flood is None and whole:
            self.look_for_circles()
        self.seen = self.seen or self.flood
        return Found(len(self.states), self.steps, self.finals, self.seen, self.broken, whole)

    def look_for_circles(self):
        """A run without an end. States from which each way leads to an end are taken away, and those to which none leads from a circle."""
        forward = self.without_ends(*self.edges)
        left = self.without_ends(*([number for number in side] for side in zip(*self.among(forward, reverse=True)))) & forward if forward else set()
        for start in sorted(left):
            way = self.way_around(start, left)
            if way is not None:
                self.tell("seen", "a run has no end: it comes back to a state", self.run_to(start) + way)
                return

    def among(self, chosen, reverse=False):
        """The edges between these states."""
        pairs = [(source, target) for source, target in zip(*self.edges) if source in chosen and target in chosen]
        return [(target, source) for source, target in pairs] if reverse else pairs

    def without_ends(self, sources, targets):
        """The states with an edge to one that is left, where states are taken away that have none."""
        out, back = collections.Counter(sources), collections.defaultdict(list)
        for source, target in zip(sources, targets):
            back[target].append(source)
        ready = [number for number in back if not out[number]]
        while ready:
            for source in back.pop(ready.pop(), ()):
                out[source] -= 1
                if out[source] == 0:
                    ready.append(source)
        return {number for number, count in out.items() if count}

    def way_around(self, start, left):
        """The events of a shortest way from a state back to it."""
        following = collections.defaultdict(list)
        for source, target in self.among(left):
            following[source].append(target)
        came, front = {start: None}, [start]
        while front:
            following_front = []
            for number in front:
                for target in following.get(number, ()):
                    if target == start:
                        return self.events_along(self.back(came, number) + [start])
                    if target not in came:
                        came[target] = number
                        following_front.append(target)
            front = following_front
        return None

    @staticmethod
    def back(came, number):
        way = [number]
        while came[number] is not None:
            number = came[number]
            way.append(number)
        return way[::-1]

    def events_along(self, way):
        found = []
        for source, target in zip(way, way[1:]):
            state = self.states[source]
            found.append(next(event for event in self.world.events(state) if self.world.step(state, event)[0] == self.states[target]))
        return found
