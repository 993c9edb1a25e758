"""The answer of a document's run for readers, in the lines of docs/VIEWS.md: tasks, regions and locks by their names."""

from .documents import replay
from .report import outcome
from .texts import number, statements


def task_entries(text):
    """The entry of each task as its line names it, by its phase and core."""
    entries, phase = {}, -1
    for _, word, operands in statements(text):
        if word == ".phase":
            phase += 1
        elif word == ".task":
            entries[phase, number(operands[0])] = operands[1]
        elif word == ".forall":
            entries.update(((phase, number(operands[0]) + i), operands[2]) for i in range(number(operands[1])))
    return entries


def end_words(end, locks):
    """How a task ended; a lock that it waits for has its name."""
    if end == "fuel":
        return "out of fuel"
    if end.startswith("waits "):
        return "waits for " + locks[int(end.split()[1])]
    return end


def region_lines(name, words, base):
    """The words of a region, eight in a line, in columns as wide as the widest number."""
    numbers = ["%d" % word if base == 10 else "0x%08x" % word for word in words]
    width = max(len(number) for number in numbers)
    return ["region " + name] + ["  " + " ".join(number.rjust(width) for number in numbers[at:at + 8]) for at in range(0, len(numbers), 8)]


def readers_answer(data, base):
    """The exit code and the lines of the answer for readers, with numbers of base 10 or 16."""
    run = replay(data)
    if isinstance(run, str):
        return 2, [run]
    machine, text = run
    ends, memory = machine.ending()
    locks = ["%s (lock %d)" % (name, lock) for lock, name in enumerate(machine.program.locks)]
    entries = task_entries(text)
    out = ["outcome " + outcome(ends)]
    out += ["task %s of core %d in phase %d: %s, retired %d" % (entries[phase, core], core, phase, end_words(end, locks), retired)
            for phase, core, end, retired in ends]
    for name, (start, length) in machine.program.regions.items():
        out += region_lines(name, memory[start:start + length], base)
    out += ["grant of %s to core %d in phase %d" % (locks[lock], core, phase) for phase, core, lock in machine.grants]
    return 0, out
