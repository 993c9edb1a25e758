"""What is written of a run: its outcome, its tasks' ends, its memory, its grants and its counts.

`agree_with_flat` holds each run of the machine against the machine of one memory."""

from .isa import MASK
from .kinds import KINDS
from .one_memory import flat


def outcome(ends):
    shown = [end[2].split()[0] for end in ends]
    for word, name in (("waits", "stuck"), ("trap", "trapped"), ("fuel", "fuel")):
        if word in shown:
            return name
    return "done"


STATUS = {"done": 0, "trapped": 3, "fuel": 4, "stuck": 5}


def answer_text(ending):
    ends, memory = ending
    out = ["outcome " + outcome(ends)]
    out += ["task %d %d %s retired %d" % end for end in ends]
    out.append("words %d" % len(memory))
    out += ["word 0x%08x 0x%08x" % (0x10000000 + 4 * word, value) for word, value in enumerate(memory) if value]
    return out


def grant_text(grants):
    return ["grant %d %d %d" % grant for grant in grants]


def count_text(counts):
    return ["count events %d" % sum(counts.values())] + ["count %s %d" % (kind, counts[kind]) for kind in KINDS]


def run_text(machine):
    return answer_text(machine.ending()) + grant_text(machine.grants) + count_text(machine.counts)


def summary(ending):
    ends, memory = ending
    return ["outcome " + outcome(ends), "tasks %d" % len(ends), "retired %d" % sum(end[3] for end in ends),
            "words %d" % len(memory), "sum 0x%08x" % (sum(memory) & MASK)]


def agree_with_flat(machine):
    """That the flat machine's run by the grants has the run's ending and loads, unless a rule of the protocol is left out."""
    if machine.left_out:
        return
    other = flat(machine.program, machine.fuel, machine.grants)
    loads = {task: seen for task, seen in other[1].items() if seen}
    assert machine.ending()[0] == other[0][0] and machine.ending()[1] == other[0][1] and machine.loads == loads
