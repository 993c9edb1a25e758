#!/usr/bin/env python3
"""A simulator of another kind, which writes claims: threads that step one instruction at a time over one memory.

    examples/another-simulator/simulate.py [--seed N] [--fuel N] [--no-loads] [--grant-twice] < TEXT > CLAIM
    ./referee < CLAIM

In each phase a thread that is picked at random goes on by one instruction, until none can. There are no caches and no messages:
a store is seen by all at once. How a text is read and what an instruction does is tools/reference.py's; the rest is here.

--grant-twice switches a bug on: a lock is granted though another thread holds it. ./referee says where.

The exit code is 0 where a claim was written, 1 where the words aren't these, and 2 where the text has no program that could be run.
"""
import argparse
import random
import sys
from pathlib import Path

sys.path.insert(0, str(Path(__file__).resolve().parents[2] / "tools"))
from ending import end  # noqa: E402
from reference import TaskState, Unfit, answer_text, assemble, claim_text, decode


class Simulator:
    def __init__(self, program, fuel, grants_twice):
        self.program, self.fuel, self.grants_twice = program, fuel, grants_twice
        self.decoded = [decode(word) for word in program.code]
        self.memory = list(program.memory)
        self.holders = {}                       # who holds which lock
        self.grants, self.loads, self.ends = [], {}, []

    def may_step(self, task):
        if task.end is not None:
            return False
        need = task.need()
        return need[0] != "acquire" or self.grants_twice or need[1] not in self.holders

    def step(self, phase, task):
        need = task.need()
        kind = need[0]
        if kind == "local":
            task.local()
        elif kind == "end":
            task.stop(need[1])
        elif kind == "load":
            self.loads[phase, task.decl.core].append((need[1], self.memory[need[1]]))
            task.loaded(self.memory[need[1]])
        elif kind == "store":
            self.memory[need[1]] = task.merged(self.memory[need[1]])
            task.retire()
        elif kind == "acquire":
            self.holders[need[1]] = task.decl.core
            task.held.add(need[1])
            self.grants.append((phase, task.decl.core, need[1]))
            task.retire()
        else:
            task.held.discard(need[1])
            self.holders.pop(need[1], None)
            task.retire()

    def run_phase(self, number, phase, draw):
        tasks = [TaskState(self.program, self.decoded, phase[core], self.fuel) for core in sorted(phase)]
        for task in tasks:
            self.loads[number, task.decl.core] = []
        while True:
            able = [task for task in tasks if self.may_step(task)]
            if not able:
                break
            self.step(number, draw.choice(able))
        for task in tasks:
            end = "waits %d" % task.need()[1] if task.end is None else task.end
            self.ends.append((number, task.decl.core, end, task.retired))
        return all(task.end == "finished" for task in tasks)

    def run(self, draw):
        for number, phase in enumerate(self.program.phases):
            if not self.run_phase(number, phase, draw):
                break


def main():
    words = argparse.ArgumentParser(description=__doc__, formatter_class=argparse.RawDescriptionHelpFormatter)
    words.add_argument("--seed", type=int, default=1)
    words.add_argument("--fuel", type=int, default=32768)
    words.add_argument("--no-loads", action="store_true")
    words.add_argument("--grant-twice", action="store_true")
    try:
        asked = words.parse_args()
    except SystemExit as stop:
        return 1 if stop.code else 0
    text = sys.stdin.buffer.read()
    try:
        program = assemble(text.decode("latin-1"))
    except Unfit as why:
        print(f"simulate.py: the text has no program that could be run ({why}): ./denovo says why", file=sys.stderr)
        return 2
    simulator = Simulator(program, asked.fuel, asked.grant_twice)
    simulator.run(random.Random(asked.seed))
    loads = None if asked.no_loads else simulator.loads
    answer = answer_text((simulator.ends, simulator.memory))
    sys.stdout.buffer.write(claim_text(text, asked.fuel, simulator.grants, loads, answer))
    return 0


if __name__ == "__main__":
    sys.exit(end("simulate.py", main))
