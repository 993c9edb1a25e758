"""Tasks as values: what tools/reference computes of an instruction, on a task that is a tuple and is never changed."""
import collections
import pathlib
import sys

sys.path.insert(0, str(pathlib.Path(__file__).resolve().parent.parent.parent / "tools"))
from reference import TaskState, decode  # noqa: E402: the folder above

MASK = 0xFFFFFFFF
Task = collections.namedtuple("Task", "core phase pc regs held retired end")


class Tasks:
    """The tasks of a program. What only concerns a task's registers is done at once: no other core can see when."""

    def __init__(self, program, fuel=32768):
        self.program, self.fuel = program, fuel
        self.decoded = [decode(word) for word in program.code]

    def state(self, task):
        """The task as tools/reference has it."""
        made = TaskState(self.program, self.decoded, self.declared(task.phase, task.core), self.fuel)
        made.regs, made.pc, made.held, made.retired, made.end = list(task.regs), task.pc, set(task.held), task.retired, task.end
        return made

    @staticmethod
    def kept(state, core, phase):
        return Task(core, phase, state.pc, tuple(state.regs), tuple(sorted(state.held)), state.retired, state.end)

    def declared(self, phase, core):
        return self.program.phases[phase].get(core) if phase < len(self.program.phases) else None

    def first(self, phase, core):
        """The core's task of a phase before its first instruction, or None."""
        decl = self.declared(phase, core)
        if decl is None:
            return None
        return self.kept(TaskState(self.program, self.decoded, decl, self.fuel), core, phase)

    def settled(self, task):
        """The task at its next access, lock or end, and what it needs there: None where it has ended."""
        if task is None or task.end is not None:
            return task, None
        state = self.state(task)
        while True:
            need = state.need()
            if need[0] == "local":
                state.local()
            elif need[0] == "end":
                state.stop(need[1])
                return self.kept(state, task.core, task.phase), None
            else:
                return self.kept(state, task.core, task.phase), need

    def loaded(self, task, value):
        state = self.state(task)
        state.loaded(value)
        return self.kept(state, task.core, task.phase)

    def retired(self, task):
        state = self.state(task)
        state.retire()
        return self.kept(state, task.core, task.phase)

    def stored(self, task):
        """The bits of the word that the next store keeps, and those that it sets."""
        state = self.state(task)
        bits = state.merged(0)
        return bits ^ state.merged(MASK), bits
