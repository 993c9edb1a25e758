"""Holds the machine of the rules against that of tools/reference: the same events are enabled, and lead to the same states.

A walk draws each event from all that the rules allow, also evictions that a run of a seed doesn't pick."""
import random

from actors import CONTROLLER, HOME, Controller, Lock, Node
from reference import Machine
from tasks import Tasks


def of_actor(to):
    return CONTROLLER if to == "keeper" else HOME if to[0] == "bank" else to[1]


def of_message(to, message):
    """A message of tools/reference as the machine of the rules has it."""
    kind, *rest = message
    to = of_actor(to)
    if kind == "arrived":
        return to, kind, 0, rest[0], rest[1]
    if kind == "halt":
        return to, kind, 0, 0, 0
    if kind in ("go", "reg-ack", "wb-ack"):
        return to, kind, rest[0], 0, 0
    if kind == "write-back":
        return to, kind, rest[0], rest[2], rest[1]
    if kind == "release":
        return to, kind, rest[0], rest[1], rest[2]
    if kind in ("data-reply", "grant"):
        return to, kind, rest[0], 0, rest[1]
    return to, kind, rest[0], rest[1], 0


def of_node(world, node):
    cache = []
    for places in node.cache:
        for word, (letter, value, flag) in places.items():
            cache.append((word, {("V", True): "M", ("R", True): "P"}.get((letter, flag), letter), value))
    task = None if node.task is None else Tasks.kept(node.task, node.core, node.phase)
    return Node(node.phase, node.wait, node.has_arrived, node.is_halted, task, tuple(node.signatures), tuple(sorted(cache)))


def of_machine(world, machine, memory):
    """The state of a machine of tools/reference, and the memory to which its stores were applied."""
    homes = {}
    for bank in machine.homes:
        homes.update(bank.words)
    locks = {}
    for bank in machine.homes:
        locks.update(bank.locks)
    controller = Controller(machine.keeper.phase, tuple(sorted(machine.keeper.there)), machine.keeper.bad, machine.keeper.is_over)
    return (*(world.nodes.of(of_node(world, node)) for node in machine.nodes),
            *(homes[word][1] if homes[word][0] == "home" else ~homes[word][1] for word in range(world.word_count)),
            *(world.locks.of(Lock(locks[lock][0], tuple(locks[lock][1]), locks[lock][2])) for lock in range(world.lock_count)),
            world.controllers.of(controller), *memory, *sorted(world.messages.of(of_message(*mail[2:])) for mail in machine.pool))


def settle(machine):
    """Makes what concerns registers alone, as the machine of the rules does at once: the events that it makes."""
    made = []
    for node in machine.nodes:
        while node.may_instr() and node.next[0] in ("local", "end"):
            machine.step(("instr", node.core))
            made.append(("instr", node.core))
    return made


def events_of(world, machine):
    """The events that are enabled, as the machine of the rules names them, each with a way to make it."""
    found = {}
    for node in machine.nodes:
        own = [("instr", node.core)] if node.may_instr() else []
        own += [("evict", node.core, word) for places in node.cache for word in places if node.may_evict(word)]
        own += [("arrive", node.core)] if node.may_arrive() else []
        found.update({event: event for event in own})
    for mail in machine.pool:
        found.setdefault(("handle", world.messages.of(of_message(*mail[2:]))), ("handle",) + mail[:2])
    return found


def walk(world, banks, seed):
    """Walks through a run: what differs first, or None; and how many events it had."""
    draw = random.Random(seed)
    machine = Machine(world.program, banks, world.sets, world.ways)
    settle(machine)
    state, events = world.first(), 0
    while True:
        if of_machine(world, machine, state[world.memory_at:world.pool_at]) != state:
            return "the states differ after %d events" % events, events
        may = events_of(world, machine)
        if set(may) != set(world.events(state)):
            return "other events are enabled after %d events" % events, events
        if not may:
            return None, events
        event = draw.choice(sorted(may, key=str))
        machine.step(may[event])
        settle(machine)
        state, _ = world.step(state, event)
        events += 1
