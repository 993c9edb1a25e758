#!/usr/bin/env python3
"""Makes a claim of a log of RVFI, the RISC-V formal interface, as CSV.

    tools/adapters/rvfi.py TEXT < LOG.csv | ./referee --mode diagnose

The first line names the columns, by the names of the interface, with rvfi_ before them or without: it needs pc_rdata, insn, mem_addr, mem_rmask, mem_wmask,
mem_rdata and mem_wdata; order, trap, intr and the others may be there. A column hart says whose instruction it is; without it all are hart 0's. A column
valid that is 0 leaves a row out. Each other row is an instruction that retired, in the order in which the harts' instructions retire. An ecall is a row
with trap 1; so is any other instruction that traps, which doesn't count. Numbers are hexadecimal behind 0x, else decimal."""
import csv

from common import ECALL, Instruction, NotALog, adapt

NEEDED = ("pc_rdata", "insn", "mem_addr", "mem_rmask", "mem_wmask", "mem_rdata", "mem_wdata")


def numbers(row):
    """A row by the names of its columns, without the interface's own name before them."""
    try:
        return {name.strip().removeprefix("rvfi_"): int(value, 0) for name, value in row.items() if value.strip()}
    except (AttributeError, ValueError):
        raise NotALog("a row whose columns aren't numbers, or are more or fewer than their names") from None


def accessed(row):
    """The address, the value, and whether it was stored: the mask has a bit for each byte from the address on."""
    mask = row["mem_wmask"] or row["mem_rmask"]
    if mask == 0:
        return None, None, False
    shift = (mask & -mask).bit_length() - 1
    value = row["mem_wdata"] if row["mem_wmask"] else row["mem_rdata"]
    return row["mem_addr"] + shift, value >> 8 * shift, row["mem_wmask"] != 0


def rows_of(lines):
    """The rows of the log, by the names of its columns."""
    try:
        rows = csv.DictReader(lines)
        named = {name.strip().removeprefix("rvfi_") for name in rows.fieldnames or ()}
        if lacking := [name for name in NEEDED if name not in named]:
            raise NotALog(f"there is no column {', '.join(lacking)}")
        yield from map(numbers, rows)
    except csv.Error as why:
        raise NotALog(f"no CSV: {why}") from None


def instructions(lines):
    for row in rows_of(lines):
        if lacking := [name for name in NEEDED if name not in row]:
            raise NotALog(f"there is no value of {', '.join(lacking)}")
        if row.get("valid", 1) and (not row.get("trap", 0) or row["insn"] == ECALL):
            yield Instruction(row.get("hart", 0), row["pc_rdata"], row["insn"], *accessed(row))


if __name__ == "__main__":
    adapt("rvfi.py", __doc__, instructions)
