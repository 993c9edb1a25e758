#!/usr/bin/env python3
"""Makes a claim of the trace that gem5 writes with the debug flag Exec.

    gem5.opt --debug-flags=Exec --debug-file=LOG CONFIG.py ..
    tools/adapters/gem5.py TEXT < LOG | ./referee --mode diagnose

A line of the trace has the tick, the core, its thread, the address with a symbol perhaps, the instruction, its class, and behind D= and A= the value
and the address:

    1500: system.cpu0: A0 T0 : 0x1010 @entry_00001000+16    : lw t1, 0(t0)     : MemRead :  D=0x0000000000000005 A=0x10000000
    2000: system.cpu0: A0 T0 : 0x1018 @entry_00001000+24    : sw t1, 0(t0)     : MemWrite :  D=0x0000000000000008 A=0x10000000

The core is the number at the end of its name, or 0. Of an instruction of several micro-operations, whose lines have their numbers behind the address, the first line
counts. Lines of other debug flags are passed over."""
import re

from common import Instruction, adapt

LINE = re.compile(r" *\d+: ([\w.]+): (?:A\d+ )?(?:T\d+ : )?0x([0-9a-f]+)(?: @\S+?)?(?:\. ?(\d+))?\s* : (.*)")
VALUE, ADDRESS, CORE = re.compile(r"\bD=0x([0-9a-f]+)"), re.compile(r"\bA=0x([0-9a-f]+)"), re.compile(r"(\d+)$")


def number(found):
    return int(found[1], 16) if found else None


def instructions(lines):
    for line in lines:
        found = LINE.fullmatch(line)
        if found is None or int(found[3] or 0):
            continue
        core = CORE.search(found[1])
        yield Instruction(int(core[1]) if core else 0, int(found[2], 16), None, number(ADDRESS.search(found[4])), number(VALUE.search(found[4])),
                          ": MemWrite :" in found[4])


if __name__ == "__main__":
    adapt("gem5.py", __doc__, instructions)
