"""The runs of one text by many seeds, as the program `sweep` prints them."""

from .answers import opened
from .kinds import KINDS
from .report import agree_with_flat, answer_text, grant_text, outcome
from .texts import Unfit, assemble

MOST_SEEDS = 1000000


def checksum(lines):
    """FNV-1a with 64 bits, of lines."""
    hashed = 0xCBF29CE484222325
    for byte in "".join(line + "\n" for line in lines).encode():
        hashed = (hashed ^ byte) * 0x100000001B3 % 2 ** 64
    return "0x%016x" % hashed


def asked(words):
    """What the words ask for."""
    given = {"seeds": "1..1000", "form": "summary", "retired": "on", "banks": "4", "sets": "64", "ways": "4", "fuel": "32768"}
    words = [piece for word in words for piece in word.split("=")]
    while words:
        if words[0][2:] not in given or len(words) < 2:
            raise Unfit("words")
        given[words[0][2:]] = words[1]
        words = words[2:]
    if given["form"] not in FORMS or given["retired"] not in ("on", "off"):
        raise Unfit("form")
    first, last = (int(seed) for seed in given["seeds"].split(".."))
    if not first <= last < first + MOST_SEEDS:
        raise Unfit("seeds")
    return range(first, last + 1), given["form"], given["retired"] == "on", {name: int(given[name]) for name in ("banks", "sets", "ways", "fuel")}


def numbers(machine):
    """The instructions that all tasks of a run retired, how many events it had, and how many of each kind."""
    return [sum(end[3] for end in machine.ending()[0]), sum(machine.counts.values())] + [machine.counts[kind] for kind in KINDS]


def row(seed, machine):
    """The row of a seed's run."""
    cells = [seed, outcome(machine.ending()[0]), *numbers(machine), checksum(answer_text(machine.ending())), checksum(grant_text(machine.grants))]
    return ",".join(map(str, cells))


def compared(machine, retired):
    """The lines by which answers are compared: all, or without the counts of retired instructions."""
    return [line if retired else line.partition(" retired ")[0] for line in answer_text(machine.ending())]


def table(runs, retired):
    """A row for each seed."""
    return [",".join(["seed", "outcome", "retired", "events", *KINDS, "answer", "grants"])] + [row(seed, machine) for seed, machine in runs]


def answers(runs, retired):
    """A row for each different answer, in the order of the least seeds."""
    counted = {}
    for seed, machine in runs:
        counted.setdefault(tuple(compared(machine, retired)), []).append((seed, machine))
    lines = ["seed,runs,outcome,retired,answer"]
    for text, having in counted.items():
        seed, machine = having[0]
        lines.append("%d,%d,%s,%d,%s" % (seed, len(having), outcome(machine.ending()[0]), numbers(machine)[0], checksum(text)))
    return lines


def summary(runs, retired):
    """What the runs have in all."""
    outcomes = [outcome(machine.ending()[0]) for seed, machine in runs]
    different = [len({tuple(compared(machine, retired)) for seed, machine in runs}), len({checksum(grant_text(machine.grants)) for seed, machine in runs})]
    columns = list(zip(*(numbers(machine) for seed, machine in runs), strict=True))
    spreads = ["least %d most %d" % (min(column), max(column)) for column in columns]
    return (["runs %d" % len(runs)] + ["outcome %s %d" % (name, outcomes.count(name)) for name in ("done", "trapped", "fuel", "stuck")]
            + ["answers %d" % different[0], "grants %d" % different[1]]
            + ["%s %s sum %d" % (name, spread, sum(column)) for name, spread, column in zip(("retired", "events"), spreads, columns)]
            + ["count %s %s" % (kind, spread) for kind, spread in zip(KINDS, spreads[2:], strict=True)])


FORMS = {"summary": summary, "answers": answers, "csv": table}


def sweep(words, text):
    """The exit code and the lines of the program, for a text that assembles and checks."""
    seeds, form, retired, o = asked(words)
    program = assemble(text)
    runs = []
    for seed in seeds:
        machine = opened(program, o)
        machine.run(seed, lambda event: None)
        agree_with_flat(machine)
        runs.append((seed, machine))
    return 0, FORMS[form](runs, retired)
