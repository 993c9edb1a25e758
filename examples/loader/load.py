#!/usr/bin/env python3
"""Reads a listing into what a simulator runs, and prints it: ./denovo --mode list < TEXT | examples/loader/load.py

load.c beside it prints the same. tools/check_litmus compares both with the program that tools/reference.py makes of the text."""
import os
import re
import sys


def load(listing):
    """The data words, the number of locks, the phases with their tasks, and the code: pairs of a mnemonic and its numbers."""
    memory, phases, code, regions, locks = [], [], [], {}, {}
    for line in listing:
        word, *rest = re.findall(r"[^\s,()]+", line)
        if word == ".region":
            regions[rest[0]] = len(memory)
            memory += [0] * int(rest[1])
        elif word == ".word":
            memory[regions[rest[0]] + int(rest[1])] = int(rest[2], 16)
        elif word == ".lock":
            locks[rest[0]] = len(locks)
        elif word == ".phase":
            phases.append([])
        elif word == ".task":
            effects = []                        # (may it store, the lock or -1, from which data word on, before which)
            phases[-1].append((int(rest[0]), int(rest[1], 16), int(rest[2], 16), effects))
        elif word in (".reads", ".writes", ".greads", ".gwrites"):
            lock = locks[rest.pop(0)] if word.startswith(".g") else -1
            low, high = (regions[rest[0]] + int(index) for index in rest[1:])
            effects.append((word.endswith("writes"), lock, low, high))
        elif word != ".version":
            code.append((word, [int(operand.removeprefix("x"), 0) for operand in rest]))
    return memory, len(locks), phases, code


def tell(memory, locks, phases, code):
    print("words", len(memory), "locks", locks)
    for place, value in enumerate(memory):
        if value:
            print("word", place, value)
    for phase, tasks in enumerate(phases):
        for core, entry, argument, effects in tasks:
            print("task", phase, core, entry, argument)
            for may_store, lock, low, high in effects:
                print("stores" if may_store else "loads", lock, low, high)
    for word, numbers in code:
        print("code", word, *numbers)


def main():
    try:
        loaded = load(sys.stdin)
    except (LookupError, ValueError, UnboundLocalError):
        print("load.py: this isn't what './denovo --mode list' prints", file=sys.stderr)
        return 2
    try:
        tell(*loaded)
        sys.stdout.flush()
    except OSError as fault:
        print(f"load.py: standard output failed: {fault.strerror}", file=sys.stderr)
        os.dup2(os.open(os.devnull, os.O_WRONLY), 1)
        return 7
    return 0


if __name__ == "__main__":
    sys.exit(main())
