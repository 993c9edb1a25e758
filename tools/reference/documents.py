"""The document of a run, as the mode trace writes it and the mode replay reads it."""

import re

from .machine import Machine
from .report import STATUS, agree_with_flat, outcome, run_text
from .texts import assemble


def document(text, o, events):
    def line(event):
        if event[0] != "handle":
            return " ".join([event[0][0]] + [str(part) for part in event[1:]])
        actor = "k" if event[1] == "keeper" else "%s %d" % (event[1][0][0], event[1][1])
        return "h %s %d" % (actor, event[2])
    head = ["denovo-trace 1", "banks %d sets %d ways %d fuel %d" % (o["banks"], o["sets"], o["ways"], o["fuel"]),
            "source %d" % len(text.encode()), text, "events %d" % len(events)]
    return head + [line(event) for event in events]


NUMBER = rb"(0|[1-9][0-9]*)"
HEAD = re.compile(rb"denovo-trace 1\nbanks N sets N ways N fuel N\nsource N\n".replace(b"N", NUMBER))
COUNT = re.compile(rb"\nevents N\n".replace(b"N", NUMBER))
EVENT = re.compile(rb"(i|a) N\n|(e) N N\n|h (c|b) N N\n|h (k) N\n".replace(b"N", NUMBER))


def told_event(data, at):
    """The event whose line begins there, and where the next line begins; or None."""
    found = EVENT.match(data, at)
    if not found:
        return None
    parts = [part.decode() for part in found.groups() if part is not None]
    kind, numbers = parts[0], [int(part) for part in parts[1:]]
    most = {"i": [15], "a": [15], "e": [15, 65535], "c": [15, 2 ** 32 - 1], "b": [15, 2 ** 32 - 1], "k": [2 ** 32 - 1]}[kind]
    if any(number > limit for number, limit in zip(numbers, most)):
        return None
    if kind in "iae":
        event = ({"i": "instr", "a": "arrive", "e": "evict"}[kind],) + tuple(numbers)
    else:
        event = "handle", "keeper" if kind == "k" else ({"c": "core", "b": "bank"}[kind], numbers[0]), numbers[-1]
    return event, found.end()


def read_document(data):
    """What a document tells: the sizes, the text and the events; or, as a string, what is wrong with the bytes."""
    if len(data) > 536870912:
        return "too-large"
    head = HEAD.match(data)
    if not head:
        return "head"
    *sizes, length = (int(group) for group in head.groups())
    limits = [(1, 16), (1, 256), (1, 16), (1, 32768)]
    if length > 1048576 or any(not low <= size <= high for size, (low, high) in zip(sizes, limits)):
        return "head"
    text = data[head.end():head.end() + length]
    count = COUNT.match(data, head.end() + length)
    if not count or int(count.group(1)) > 25169664:
        return "head"
    events, at = [], count.end()
    for number in range(int(count.group(1))):
        told = told_event(data, at)
        if told is None:
            return "event %d" % number
        events.append(told[0])
        at = told[1]
    return "rest" if at < len(data) else (sizes, text, events)


def replay(data):
    """The machine after the events of a document, and the text; or, as a string, the line that refuses the bytes. A text that they tell
    assembles and checks."""
    told = read_document(data)
    if isinstance(told, str):
        return "refused trace " + told
    sizes, text, events = told
    text = text.decode("utf-8", "replace")
    machine = Machine(assemble(text), *sizes)
    for number, event in enumerate(events):
        if not machine.enabled(event):
            return "refused trace not-enabled %d" % number
        machine.step(event)
    if machine.pick(0)[0] is not None:
        return "refused trace incomplete"
    return machine, text


def replayed(data):
    """The exit code and the lines of the mode replay for these bytes."""
    run = replay(data)
    if isinstance(run, str):
        return 2, [run]
    machine, _ = run
    agree_with_flat(machine)
    return STATUS[outcome(machine.ending()[0])], run_text(machine)
