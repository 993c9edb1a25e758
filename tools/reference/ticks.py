"""How long a run takes: the ticks of its events, and its longest chain of events that depend on each other.

Of runs with few events all chains are made too, one after another, which has to come to the same."""

from .kinds import KINDS
from .time_order import index

# of so many events all chains are made, one after another, and of which runs that was done
MOST_SEARCHED = 16
searched = []


def slowest(behind, ticks):
    """The greatest cost of a chain, of all chains one after another: behind[i] has the events on which event i depends, each with the
    latency of this step."""
    most, chains = 0, [([i], 0) for i in range(len(behind))]
    while chains:
        chain, latency = chains.pop()
        most = max(most, sum(ticks[i] for i in chain) + latency)
        chains += [([i] + chain, latency + step) for i, step in behind[chain[0]].items()]
    return most


def ticks_by(core, bank, mail):
    """The ticks of each kind of event, where a core's own event, one of a bank and another take so many."""
    return {kind: core if kind in ("instr", "evict", "arrive") else
            bank if kind in ("read-req", "reg-req", "write-back", "acquire", "release") else mail for kind in KINDS}


def timed(machine, run, ticks, network=None, finish=None):
    """The longest chain of the events of a run, which `run` makes, as the lines of the mode time. A list that is given gets the finish of each
    event."""
    latencies = []
    total, links = longest(machine, run, ticks, finish, network, latencies)
    on_the_way = ["network %d" % sum(latencies)] if network is not None and network.latency else []
    return ["time %d" % total, "chain %d" % len(links)] + on_the_way + ["link %d %s %d" % link for link in links]


def longest(machine, run, ticks, finish=None, network=None, latencies=None):
    """The longest chain of the events of a run: the total, and the number, kind and finish of each link. An event depends on the one
    before it of its actor, and on its mail's sender, from which the mail takes the latency of the network. A list that is given gets the
    finish of each event, and the latency of each step of the chain."""
    finish = [] if finish is None else finish
    before, kinds, last, sender, both, way = [], [], {}, {}, [], []

    def see(event):
        if event[0] == "handle":
            mail = next(mail for mail in machine.pool if mail[:2] == event[1:])
            actor, kind = mail[2], mail[3][0]
        else:
            actor, kind = ("core", event[1]), event[0]
        at = len(finish)
        own, sent = last.get(actor), sender.get(event[1:]) if event[0] == "handle" else None
        behind, latency, steps = own, 0, {} if own is None else {own: 0}
        if sent is not None:
            delay = network.delay(index(machine, event[1]), index(machine, actor)) if network else 0
            if own is None or finish[sent] + delay > finish[own]:
                behind, latency = sent, delay
            steps[sent] = delay
        both.append(steps)
        kinds.append(kind)
        before.append(behind)
        way.append(latency)
        finish.append(ticks[kind] + latency + (finish[behind] if behind is not None else 0))
        last[actor] = at
        seen.append((actor, at))

    seen, numbers = [], {}

    def trace(event):
        note_sent()
        see(event)

    def note_sent():
        if seen:
            actor, at = seen[-1]
            for number in range(numbers.get(actor, 0), machine.numbers.get(actor, 0)):
                sender[actor, number] = at
            numbers[actor] = machine.numbers.get(actor, 0)
    run(trace)
    note_sent()
    chain, total = [], max(finish, default=0)
    at = finish.index(total) if finish else None
    while at is not None:
        chain.append(at)
        if latencies is not None:
            latencies.append(way[at])
        at = before[at]
    if len(both) <= MOST_SEARCHED:
        assert total == slowest(both, [ticks[kind] for kind in kinds])
        searched.append(len(both))
    return total, [(at, kinds[at], finish[at]) for at in reversed(chain)]
