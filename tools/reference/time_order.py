"""A run in time order, and the network that its messages take.

An actor is a core, a bank or the keeper of the phases, by its index: the cores come first, then the banks, then the keeper. A message arrives
when the event that sent it has finished and its latency has passed; an event starts as soon as its actor is free and its message is there. The
next event of a run in time order is the one that can start first. Each turn looks at all events that may come, and keeps nothing but when each
actor is free and when each message arrives."""

# the mesh has four rows of four tiles, and the keeper stands on this one
SIDE, KEEPER_TILE = 4, 5
NETS = ("uniform", "mesh")


def index(machine, actor):
    """An actor's index."""
    if actor == "keeper":
        return machine.cores + machine.banks
    return actor[1] if actor[0] == "core" else machine.cores + actor[1]


class Network:
    """How long a message is on its way: so many ticks for each hop."""

    def __init__(self, cores, banks, latency=0, net="uniform"):
        self.cores, self.banks, self.latency, self.net = cores, banks, latency, net

    def place(self, actor):
        """The column and the row of the tile of an actor, by its index."""
        tile = KEEPER_TILE
        if actor < self.cores:
            tile = actor
        elif actor < self.cores + self.banks:
            tile = (actor - self.cores) * SIDE * SIDE // self.banks
        return tile % SIDE, tile // SIDE

    def hops(self, sender, receiver):
        """One in the uniform net; in the mesh the columns and the rows between the two tiles."""
        if self.net == "uniform":
            return 1
        (column, row), (other_column, other_row) = self.place(sender), self.place(receiver)
        return abs(column - other_column) + abs(row - other_row)

    def delay(self, sender, receiver):
        return self.latency * self.hops(sender, receiver)


class Clock:
    """When each actor is free, and when each message in flight arrives."""

    def __init__(self, machine, ticks, network):
        self.machine, self.ticks, self.network = machine, ticks, network
        self.free = [0] * (machine.cores + machine.banks + 1)
        self.arrival = {}
        self.last_of_pair = {}

    def candidates(self):
        """The events that may come, each behind its key: its start; its actor; a message before an own event; and of two messages the one that
        arrives first, then the sender and its number."""
        for event in self.machine.owns:
            if event is not None:
                core = event[1]
                yield (self.free[core], core, 1, 0, 0, 0), event
        for sender, number, to, _ in self.machine.pool:
            actor, arrival = index(self.machine, to), self.arrival[sender, number]
            key = max(arrival, self.free[actor]), actor, 0, arrival, index(self.machine, sender), number
            yield key, ("handle", sender, number)

    def finished(self, event, start):
        """Makes an event, which starts then: its start and its finish."""
        machine = self.machine
        if event[0] == "handle":
            to, message = next(mail[2:] for mail in machine.pool if mail[:2] == event[1:])
            actor, kind = index(machine, to), message[0]
            # what one actor sends another is handled in the order in which it was sent
            assert self.last_of_pair.get((event[1], to), -1) < event[2]
            self.last_of_pair[event[1], to] = event[2]
        else:
            actor, kind = event[1], event[0]
        before = {mail[:2] for mail in machine.pool}
        machine.step(event)
        finish = self.free[actor] = start + self.ticks[kind]
        for sender, number, to, _ in machine.pool:
            if (sender, number) not in before:
                self.arrival[sender, number] = finish + self.network.delay(index(machine, sender), index(machine, to))
        return start, finish


def run_in_time_order(machine, ticks, network, trace=None, spans=None):
    """Makes the run in time order. `trace` is told each event before it is made, and `spans` gets its start and its finish. No event starts
    before the one that was made before it."""
    clock, last = Clock(machine, ticks, network), 0
    while True:
        key, event = min(clock.candidates(), default=(None, None))
        if event is None:
            return
        if trace is not None:
            trace(event)
        span = clock.finished(event, key[0])
        assert last <= span[0]
        last = span[0]
        if spans is not None:
            spans.append(span)
