"""The orders in which a machine's events are made: time order, a drawn order, and one access at a time.

A machine has `owns`, which is each core's own event or None; `actors`, the number of its cores, banks and barrier, which are numbered in this order;
`words_of(mail)`, the words of data that a message has; and `make(event, mail)`, which makes an own event or handles a message, and answers with
the kind of the event and the messages that it sent. A message is (sender, number of the sender's, receiver, what it says).

Time order is defined in docs/COMMAND.md. tools/reference/time_order.py picks by a look at all events that may come. Here each actor keeps what is on
its way to it, sorted, and a heap has the first event of each; `baseline/check` holds the two against each other."""
import heapq
import random

WEIGHTS = (1, 1, 5, 50)


class Clock:
    """When each actor is free, and what is on its way to it: (arrival, sender, number, message)."""

    def __init__(self, machine, ticks, network, tick_word):
        self.machine, self.ticks, self.tick_word = machine, ticks, tick_word
        self.delays = [[network.delay(sender, receiver) for receiver in range(machine.actors)] for sender in range(machine.actors)]
        self.free = [0] * machine.actors
        self.inbox = [[] for _ in range(machine.actors)]
        self.heap, self.version = [], [0] * machine.actors

    def push(self, actor):
        """Puts the actor's first event on the heap, in place of the one that stood there."""
        self.version[actor] += 1
        free, inbox = self.free[actor], self.inbox[actor]
        has_own = actor < len(self.machine.owns) and self.machine.owns[actor] is not None
        start = max(inbox[0][0], free) if inbox else None
        if inbox and (not has_own or start <= free):
            heapq.heappush(self.heap, (start, actor, self.version[actor], True))
        elif has_own:
            heapq.heappush(self.heap, (free, actor, self.version[actor], False))

    def pop(self):
        """The next event: its start, its actor, and whether it handles a message. None where no event may come."""
        while self.heap:
            start, actor, version, is_message = heapq.heappop(self.heap)
            if version == self.version[actor]:
                return start, actor, is_message
        return None

    def make(self, start, actor, is_message):
        """Makes an event: its kind, the message that it handled, when it finished, and what it sent."""
        mail = heapq.heappop(self.inbox[actor])[3] if is_message else None
        kind, sent = self.machine.make(None if is_message else self.machine.owns[actor], mail)
        finish = start + self.ticks[kind]
        if self.tick_word and is_message:
            finish += self.tick_word * max(0, self.machine.words_of(mail) - 1)
        self.free[actor] = finish
        for one in sent:
            receiver = one[2]
            heapq.heappush(self.inbox[receiver], (finish + self.delays[actor][receiver], actor, one[1], one))
            if receiver != actor:
                self.push(receiver)
        self.push(actor)
        return kind, mail, finish, sent


def in_time_order(machine, ticks, network, tick_word=0, note=None):
    """Makes the run in time order: how many ticks it takes. `note` is told each event: its actor, its kind, its message, its start, its finish and
    the messages that it sent."""
    clock = Clock(machine, ticks, network, tick_word)
    for actor in range(machine.actors):
        clock.push(actor)
    while True:
        first = clock.pop()
        if first is None:
            return max(clock.free)
        kind, mail, finish, sent = clock.make(*first)
        if note is not None:
            note(first[1], kind, mail, first[0], finish, sent)


class Pairs:
    """The messages in flight by sender and receiver: those of a pair are handled in the order in which they were sent."""

    def __init__(self):
        self.queues = {}

    def add(self, sent):
        for mail in sent:
            self.queues.setdefault((mail[0], mail[2]), []).append(mail)

    def take(self, pair):
        queue = self.queues[pair]
        mail = queue.pop(0)
        if not queue:
            del self.queues[pair]
        return mail


def in_drawn_order(machine, seed, weighted=True):
    """Draws each event from all that may come. With weights some cores and some pairs are slow for a while: each has a weight, which is drawn
    anew at one event of 100."""
    draw, pairs, weights = random.Random(seed), Pairs(), {}
    while True:
        able = [(event, event[1]) for event in machine.owns if event is not None] + [(None, pair) for pair in pairs.queues]
        if not able:
            return
        if weighted:
            chances = [weights.setdefault(who, draw.choice(WEIGHTS)) for _, who in able]
            event, who = draw.choices(able, chances)[0]
            if draw.random() < 0.01:
                weights.clear()
        else:
            event, who = draw.choice(able)
        mail = pairs.take(who) if event is None else None
        _, sent = machine.make(event, mail)
        pairs.add(sent)


def one_at_a_time(machine, seed):
    """A core's next access begins when nothing is in flight, and the events of an access follow each other."""
    draw, flight, last = random.Random(seed), [], None
    while True:
        if flight:
            _, sent = machine.make(None, flight.pop(0))
        else:
            own = [event for event in machine.owns if event is not None]
            if not own:
                return
            same = [event for event in own if last is not None and event[1] == last[1]]
            goes_on = same and (last[0] == "evict" or machine.is_filled(last[1]))
            last = same[0] if goes_on else draw.choice(own)
            _, sent = machine.make(last, None)
        flight += sent
