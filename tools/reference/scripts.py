"""Scripts of events: crates/worked_rows/data/README.md has their form."""

from .texts import Unfit


def event_of(words):
    """The event that the words of a line name."""
    if words[0] == "handle":
        actor = "keeper" if words[1] == "keeper" else (words[1], int(words[2]))
        return "handle", actor, int(words[-1])
    return (words[0],) + tuple(int(word) for word in words[1:])


def event_line(event):
    if event[0] != "handle":
        return " ".join(str(part) for part in event)
    return "handle %s %d" % (event[1] if event[1] == "keeper" else "%s %d" % event[1], event[2])


def play(machine, lines):
    seen = None
    for line in lines:
        words = line.split()
        if words[0] == "loads":
            good = seen == (int(words[1]), int(words[2]))
        elif words[0] == "word":
            good = machine.word(int(words[1])) == int(words[2])
        else:
            many, good = 1, True
            if len(words) > 2 and words[-2] == "times":
                many, words = int(words[-1]), words[:-2]
            event = event_of(words)
            for _ in range(many):
                good = good and machine.enabled(event)
                if good:
                    seen = machine.step(event)[0]
        if not good:
            raise Unfit("script: " + line)
    if machine.pick(0)[0] is not None:
        raise Unfit("script: an event may come still")
