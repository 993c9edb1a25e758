#!/usr/bin/env python3
"""Writes a text that assembles and checks down as the numbers that `plain` reads: the code's words, the memory's words, how many
locks there are, and the phases with their tasks. Sets of words are intervals. A list begins with its length.

    bench/workers/numbers_of.py < TEXT
"""
import os
import sys

ROOT = os.path.dirname(os.path.dirname(os.path.dirname(os.path.abspath(__file__))))
sys.path.insert(0, os.path.join(ROOT, "tools"))
sys.dont_write_bytecode = True
import reference  # noqa: E402


def intervals(words):
    out = []
    for word in sorted(words):
        if out and out[-1][1] == word:
            out[-1][1] = word + 1
        else:
            out.append([word, word + 1])
    return [len(out)] + [bound for interval in out for bound in interval]


def numbers(program):
    locks = range(len(program.locks))
    yield [len(program.code)] + program.code
    yield [len(program.memory)] + program.memory
    yield [len(program.locks)]
    yield [len(program.phases)]
    for phase, (written, guarded) in zip(program.phases, program.plans()):
        yield [len(phase)]
        for _, task in sorted(phase.items()):
            yield [task.core, task.entry, task.arg]
            yield intervals(task.reads)
            yield intervals(task.writes)
            for sets in task.greads, task.gwrites:
                for lock in locks:
                    yield intervals(sets.get(lock, ()))
        yield intervals(written)
        for lock in locks:
            yield intervals(guarded[lock])


if __name__ == "__main__":
    for line in numbers(reference.assemble(sys.stdin.read())):
        print(*line)
