#!/usr/bin/env python3
"""Makes a claim of the commit log of Spike, the simulator of RISC-V International.

    spike --isa=rv32ima_zicsr -p4 -m0x80000000:0x4000000 -l --log-commits --log=LOG TEXT.elf
    tools/adapters/spike.py TEXT < LOG | ./referee --mode diagnose

A line of the log is an instruction that is fetched, one that is committed with what it wrote, or an exception:

    core   0: 0x00001010 (0x0002a303) lw      t1, 0(t0)
    core   0: 0 0x00001010 (0x0002a303) x6  0x00000005 mem 0x10000000
    core   0: 0 0x00001018 (0x0062a023) mem 0x10000000 0x00000008
    core   0: exception trap_user_ecall, epc 0x0000100c

Committed instructions are taken, and ecalls, which are an exception and never committed. A load of x0 has no value in the log. Other lines are
passed over."""
import re

from common import ECALL, Instruction, NotALog, adapt

COMMIT = re.compile(r"core +(\d+): \d+ (0x[0-9a-f]+) \((0x[0-9a-f]+)\)(.*)")
TRAPPED_ECALL = re.compile(r"core +(\d+): exception trap_(?:user|supervisor|machine)_ecall, epc (0x[0-9a-f]+)")
MEMORY = re.compile(r" mem (0x[0-9a-f]+)(?: (0x[0-9a-f]+))?")
REGISTER = re.compile(r" x(\d+) +(0x[0-9a-f]+)")


def committed(found):
    """The instruction of a line that tells what was committed: a store has its value behind the address, and a load its value in a register."""
    hart, pc, word, wrote = int(found[1]), int(found[2], 16), int(found[3], 16), found[4]
    memory, register = MEMORY.search(wrote), REGISTER.search(wrote)
    if memory is None:
        return Instruction(hart, pc, word)
    if memory[2]:
        return Instruction(hart, pc, word, int(memory[1], 16), int(memory[2], 16), True)
    return Instruction(hart, pc, word, int(memory[1], 16), int(register[2], 16) if register else None)


def instructions(lines):
    for line in lines:
        if found := TRAPPED_ECALL.fullmatch(line):
            yield Instruction(int(found[1]), int(found[2], 16), ECALL)
        elif found := COMMIT.fullmatch(line):
            yield committed(found)
        elif not line.startswith("core"):
            raise NotALog(f"no line of Spike's: {line[:80]}")


if __name__ == "__main__":
    adapt("spike.py", __doc__, instructions)
