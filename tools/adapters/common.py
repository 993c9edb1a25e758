"""What the adapters share: a run as a log tells it, instruction by instruction, and the claim of that run.

An adapter reads a log line by line and gives an `Instruction` for each that retired, in the order of the log. `Run` finds those of the text's tasks
among them by their addresses, and learns by marks where tasks begin and end and where locks are granted: a mark is a store to a word of the core's
own, as tools/bare_metal/runtime.c makes it."""
import argparse
import dataclasses
import pathlib
import sys

TOP = pathlib.Path(__file__).resolve().parents[2]
sys.path.insert(0, str(TOP / "tools"))
sys.dont_write_bytecode = True
import reference  # noqa: E402
from ending import end  # noqa: E402

CODE, DATA, MARKS, CORES = 0x1000, 0x10000000, 0x80100000, 16
BEGINS, GRANTED, RELEASED, ENDS = 1, 2, 3, 4
FINISHED = 1
ECALL = 0x73


class NotALog(Exception):
    """What is wrong with a log, or why it isn't one of this text."""


@dataclasses.dataclass
class Instruction:
    """An instruction that retired: its hart and address, its code word, where a load or store was, and what was found or stored there. What a log
    doesn't say is None."""
    hart: int
    pc: int
    word: "int | None" = None
    address: "int | None" = None
    value: "int | None" = None
    is_store: bool = False


@dataclasses.dataclass
class Task:
    """A task that has begun."""
    phase: int
    core: int
    loads: list = dataclasses.field(default_factory=list)
    retired: int = 0
    has_ended: bool = False


class Run:
    """The run of a text, as a log tells it."""

    def __init__(self, text, marks=MARKS):
        self.text, self.program, self.marks = text, reference.assemble(text.decode("latin-1")), marks
        self.memory = list(self.program.memory)
        self.tasks, self.current, self.grants = {}, {}, []

    def take(self, instruction):
        """Takes the next instruction of the log."""
        task, place = self.current.get(instruction.hart), (instruction.pc - CODE) // 4
        if task and 0 <= place < len(self.program.code):
            self.retire(task, instruction, self.program.code[place])
        elif instruction.is_store and 0 <= instruction.address - self.marks < 4 * CORES:
            self.mark(instruction.hart, (instruction.address - self.marks) // 4, instruction.value)

    def mark(self, hart, core, mark):
        """A mark: a task begins or ends, or a lock is granted. Claims have no line for a release."""
        kind, number = mark >> 16, mark & 0xffff
        if core != hart:
            raise NotALog(f"hart {hart} stores a mark of core {core}")
        if kind == BEGINS:
            if number >= len(self.program.phases) or core not in self.program.phases[number] or (number, core) in self.tasks:
                raise NotALog(f"no task of core {core} begins in phase {number}")
            self.current[core] = self.tasks[number, core] = Task(number, core)
            return
        task = self.current.get(core)
        if task is None:
            raise NotALog(f"core {core} has no task, and stores the mark 0x{mark:08x}")
        if kind == GRANTED:
            self.grants.append((task.phase, core, number))
        elif kind == ENDS and number == FINISHED:
            task.has_ended = True
            self.current[core] = None
        elif kind != RELEASED:
            raise NotALog(f"the task of core {core} in phase {task.phase} ends otherwise than by finishing: the mark 0x{mark:08x}")

    def retire(self, task, instruction, word):
        """An instruction of a task."""
        if instruction.word not in (None, word):
            raise NotALog(f"at 0x{instruction.pc:08x} the log has the word 0x{instruction.word:08x}, and the text 0x{word:08x}")
        task.retired += 1
        name, kind = (reference.decode(word) or ("none",))[0], (word >> 12) & 3
        if name in ("load", "store"):
            self.access(task, instruction, name, 1 << kind)

    def access(self, task, instruction, name, width):
        """A load or store of a task. Of a part of a word the log tells that part: the others are those that the log has stored so far."""
        address = instruction.address
        if address is None or not 0 <= address - DATA < 4 * len(self.memory):
            raise NotALog(f"the {name} at 0x{instruction.pc:08x} has no address in the text's data")
        at, shift, part = (address - DATA) // 4, 8 * (address % 4), (1 << 8 * width) - 1
        if name == "store" and instruction.value is None:
            raise NotALog(f"the store at 0x{instruction.pc:08x} has no value")
        value = self.memory[at]
        if instruction.value is not None:
            value = value & ~(part << shift) | (instruction.value & part) << shift
        if name == "store":
            self.memory[at] = value
        else:
            task.loads.append((at, value))

    def claim(self, fuel, memory=None):
        """The claim of the run, whose tasks have all ended. The final memory is what the log has stored, or the bytes that are given."""
        if not self.tasks and any(self.program.phases):
            raise NotALog("no task of the text begins: the log has no marks, or they are elsewhere (--marks)")
        for task in self.tasks.values():
            if not task.has_ended:
                raise NotALog(f"the task of core {task.core} in phase {task.phase} doesn't end")
        if memory is not None:
            if len(memory) < 4 * len(self.memory):
                raise NotALog(f"the memory has {len(memory)} bytes, and the text's data {4 * len(self.memory)}")
            self.memory = [int.from_bytes(memory[at:at + 4], "little") for at in range(0, 4 * len(self.memory), 4)]
        ends = [(*task, "finished", self.tasks[task].retired) for task in sorted(self.tasks)]
        loads = {task: self.tasks[task].loads for task in self.tasks}
        return reference.claim_text(self.text, fuel, self.grants, loads, reference.answer_text((ends, self.memory)))


def arguments(page):
    words = argparse.ArgumentParser(description=page, formatter_class=argparse.RawDescriptionHelpFormatter)
    words.add_argument("text", type=pathlib.Path, help="the program's source file")
    words.add_argument("--fuel", type=int, default=32768, help="how many instructions a task may retire")
    words.add_argument("--marks", type=lambda word: int(word, 0), default=MARKS, help="the address of the word for core 0's marks (0x%x)" % MARKS)
    words.add_argument("--memory", type=pathlib.Path, help="a file with the bytes of the data at the end, in place of what the log has stored")
    return words.parse_args()


def adapt(name, page, instructions):
    """The command of an adapter: its page, and the function that gives the instructions of a log's lines."""
    def main():
        try:
            asked = arguments(page)
        except SystemExit as stop:
            return 1 if stop.code else 0
        number = 0

        def lines():
            nonlocal number
            for number, line in enumerate(sys.stdin, 1):  # noqa: B007 the number is told where a line is refused
                yield line.rstrip("\r\n")
        try:
            run = Run(asked.text.read_bytes(), asked.marks)
            for instruction in instructions(lines()):
                run.take(instruction)
            memory = asked.memory.read_bytes() if asked.memory else None
            sys.stdout.buffer.write(run.claim(asked.fuel, memory))
        except NotALog as why:
            print(f"{name}: line {number} of the log: {why}", file=sys.stderr)
            return 2
        except reference.Unfit as why:
            print(f"{name}: the text has no program that could be run ({why}): ./denovo says why", file=sys.stderr)
            return 2
        return 0
    sys.exit(end(name, main))
