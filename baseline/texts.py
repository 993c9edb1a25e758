#!/usr/bin/env python3
"""The texts of the study: the seven patterns of experiments/sharing, and six kernels of 512 words (`product`: 256), whose work is the same for each
number of cores. No text has more than 64 tasks at 16 cores.

    baseline/texts.py NAME CORES > TEXT          CORES is 2, 4, 8 or 16
    baseline/texts.py                            the names, one a line

The exit code is 0, or 1 for other words."""
import importlib.machinery
import importlib.util
import pathlib
import sys

SHARING = pathlib.Path(__file__).resolve().parent.parent / "experiments/sharing/texts"
WORDS, SIDE, BINS = 512, 16, 16
MOST_TASKS = 64
END = " li a7, 0\n ecall\n"


def sharing():
    """The program of the patterns, as a module."""
    loader = importlib.machinery.SourceFileLoader("sharing_texts", str(SHARING))
    module = importlib.util.module_from_spec(importlib.util.spec_from_loader(loader.name, loader))
    loader.exec_module(module)
    return module


def pattern(name, cores):
    """The pattern's text, with as many of its rounds, 4 at most, as give 16 cores no more tasks than a text may have here."""
    made = sharing()
    for made.ROUNDS in (4, 3, 2):
        if str(made.PATTERNS[name](16)).count(".task") <= MOST_TASKS:
            break
    return str(made.PATTERNS[name](cores))


# ---------------------------------------------------------------- the kernels

def text(regions, *phases):
    """The head of a text: its regions, and the lines of each phase."""
    lines = [".version 2"] + [".region %s, %d" % region for region in regions]
    for phase in phases:
        lines += [".phase"] + phase
    return "\n".join(lines) + "\n"


def family(cores, entry, first, step, *effects):
    """A task for each core, and its effects."""
    return [".forall 0, %d, %s, %d, %d" % (cores, entry, first, step)] + list(effects)


def part(kind, region, words, first=0, step=None):
    """So many words of a region for each core, one core's behind the other's."""
    return ".%s %s, %d, %d, %d" % (kind, region, first, first + words, words if step is None else step)


def fill(label, region, words):
    """Fills words of a region from index a0 on: word i has 3i + 1, of which 6 bits."""
    return """LABEL: la t0, REGION
 slli t1, a0, 2
 add t0, t0, t1
 li t2, WORDS
 slli t3, a0, 1
 add t3, t3, a0
 addi t3, t3, 1
LABEL_n: andi t4, t3, 63
 sw t4, 0(t0)
 addi t3, t3, 3
 addi t0, t0, 4
 addi t2, t2, -1
 bnez t2, LABEL_n
""".replace("LABEL", label).replace("REGION", region).replace("WORDS", str(words))


def go_to_part(label, register, words):
    """Moves a register to the part of core a0, of so many words."""
    return """ mv t2, a0
LABEL: beqz t2, LABEL_there
 addi REGISTER, REGISTER, BYTES
 addi t2, t2, -1
 j LABEL
LABEL_there:
""".replace("LABEL", label).replace("REGISTER", register).replace("BYTES", str(4 * words))


def stencil(cores):
    """Sums of three neighbours, in three sweeps between two buffers."""
    chunk = WORDS // cores
    sweeps = [family(cores, "from_" + read, 0, chunk, ".reads %s, 0, %d, %d" % (read, chunk + 2, chunk), part("writes", write, chunk, 1))
              for read, write in ("ab", "ba", "ab")]
    head = text([("a", WORDS + 2), ("b", WORDS + 2)], family(cores, "ini", 1, chunk, part("writes", "a", chunk, 1)), *sweeps)
    return head + fill("ini", "a", chunk) + END + """from_a: la t0, a
 la t1, b
 j body
from_b: la t0, b
 la t1, a
 j body
body: slli t2, a0, 2
 add t0, t0, t2
 add t1, t1, t2
 li t3, CHUNK
next: lw t4, 0(t0)
 lw t5, 4(t0)
 lw t6, 8(t0)
 add t4, t4, t5
 add t4, t4, t6
 sw t4, 4(t1)
 addi t0, t0, 4
 addi t1, t1, 4
 addi t3, t3, -1
 bnez t3, next
""".replace("CHUNK", str(chunk)) + END


def product(cores):
    """The product of two square matrices with least sums in place of sums of products: a part of the rows for each core."""
    rows, words = SIDE // cores, SIDE * SIDE // cores
    head = text([(name, SIDE * SIDE) for name in "abc"],
                family(cores, "ini", 0, words, part("writes", "a", words), part("writes", "b", words)),
                family(cores, "mul", 0, words, part("reads", "a", words), ".reads b", part("writes", "c", words)))
    again = """ bnez a6, done
 li a6, 1
 la t0, b
 slli t1, a0, 2
 add t0, t0, t1
 li t2, WORDS
 slli t3, a0, 1
 add t3, t3, a0
 addi t3, t3, 1
 j ini_n
done:
""".replace("WORDS", str(words))
    return head + fill("ini", "a", words) + again + END + """mul: la s0, a
 la s2, c
 slli t0, a0, 2
 add s0, s0, t0
 add s2, s2, t0
 li s3, ROWS
row: la s1, b
 li s4, SIDE
col: li t3, 32767
 mv t0, s0
 mv t1, s1
 li t2, SIDE
dot: lw t4, 0(t0)
 lw t5, 0(t1)
 add t4, t4, t5
 bge t4, t3, keep
 mv t3, t4
keep: addi t0, t0, 4
 addi t1, t1, BYTES
 addi t2, t2, -1
 bnez t2, dot
 sw t3, 0(s2)
 addi s2, s2, 4
 addi s1, s1, 4
 addi s4, s4, -1
 bnez s4, col
 addi s0, s0, BYTES
 addi s3, s3, -1
 bnez s3, row
""".replace("ROWS", str(rows)).replace("SIDE", str(SIDE)).replace("BYTES", str(4 * SIDE)) + END


def summed(label, words):
    """Adds up the words of core a0's part of m, into t3; t0 is behind them at the end."""
    return """LABEL: la t0, m
 li t1, WORDS
""".replace("LABEL", label).replace("WORDS", str(words)) + go_to_part(label + "_at", "t0", words) + """ li t3, 0
LABEL_n: lw t4, 0(t0)
 add t3, t3, t4
 addi t0, t0, 4
 addi t1, t1, -1
 bnez t1, LABEL_n
""".replace("LABEL", label)


STORE_SUM = """ la t0, part
 slli t1, a0, 2
 add t0, t0, t1
 sw t3, 0(t0)
"""


def total(cores):
    """Core 0 writes the words, each core adds up its part, and core 0 adds up the sums."""
    chunk = WORDS // cores
    head = text([("m", WORDS), ("part", cores), ("sum", 1)], [".task 0, ini, 0", ".writes m"],
                family(cores, "add", 0, 1, part("reads", "m", chunk), part("writes", "part", 1)), [".task 0, all, 0", ".reads part", ".writes sum"])
    return head + fill("ini", "m", WORDS) + END + summed("add", chunk) + STORE_SUM + END + """all: la t0, part
 li t1, CORES
 li t3, 0
all_n: lw t4, 0(t0)
 add t3, t3, t4
 addi t0, t0, 4
 addi t1, t1, -1
 bnez t1, all_n
 la t0, sum
 sw t3, 0(t0)
""".replace("CORES", str(cores)) + END


def histogram(cores):
    """The words by 16 bins: each core fills bins of its own, and then adds up its share of the bins over all cores."""
    chunk, share = WORDS // cores, BINS // cores
    head = text([("m", WORDS), ("h", BINS * cores), ("out", BINS)], family(cores, "ini", 0, chunk, part("writes", "m", chunk)),
                family(cores, "count", 0, 1, part("reads", "m", chunk), part("writes", "h", BINS)),
                family(cores, "merge", 0, share, ".reads h", part("writes", "out", share)))
    return head + fill("ini", "m", chunk) + END + """count: la t0, m
 la s0, h
 mv t2, a0
 li t1, CHUNK
cpos: beqz t2, cgot
 addi t0, t0, CHUNK_BYTES
 addi s0, s0, BIN_BYTES
 addi t2, t2, -1
 j cpos
cgot: lw t4, 0(t0)
 andi t4, t4, 15
 slli t4, t4, 2
 add t4, t4, s0
 lw t5, 0(t4)
 addi t5, t5, 1
 sw t5, 0(t4)
 addi t0, t0, 4
 addi t1, t1, -1
 bnez t1, cgot
""".replace("CHUNK_BYTES", str(4 * chunk)).replace("BIN_BYTES", str(4 * BINS)).replace("CHUNK", str(chunk)) + END + """merge: la s0, h
 la s1, out
 slli t0, a0, 2
 add s0, s0, t0
 add s1, s1, t0
 li s2, SHARE
bin: mv t0, s0
 li t1, CORES
 li t3, 0
bin_n: lw t4, 0(t0)
 add t3, t3, t4
 addi t0, t0, BIN_BYTES
 addi t1, t1, -1
 bnez t1, bin_n
 sw t3, 0(s1)
 addi s0, s0, 4
 addi s1, s1, 4
 addi s2, s2, -1
 bnez s2, bin
""".replace("SHARE", str(share)).replace("CORES", str(cores)).replace("BIN_BYTES", str(4 * BINS)) + END


def prefix(cores):
    """Sums of all words before: first those of the parts, and then each core adds the parts before its own to its words."""
    chunk = WORDS // cores
    head = text([("m", WORDS), ("part", cores)], family(cores, "ini", 0, chunk, part("writes", "m", chunk)),
                family(cores, "add", 0, 1, part("reads", "m", chunk), part("writes", "part", 1)),
                family(cores, "scan", 0, 1, ".reads part", part("writes", "m", chunk)))
    return head + fill("ini", "m", chunk) + END + summed("add", chunk) + STORE_SUM + END + """scan: la t0, m
 la t5, part
 li t1, CHUNK
 li t3, 0
 mv t2, a0
spos: beqz t2, sgot
 lw t4, 0(t5)
 add t3, t3, t4
 addi t5, t5, 4
 addi t0, t0, BYTES
 addi t2, t2, -1
 j spos
sgot: lw t4, 0(t0)
 add t3, t3, t4
 sw t3, 0(t0)
 addi t0, t0, 4
 addi t1, t1, -1
 bnez t1, sgot
""".replace("CHUNK", str(chunk)).replace("BYTES", str(4 * chunk)) + END


def cyclic(cores):
    """Each core counts up words that lie between those of all others, in three phases."""
    words = [".writes m, %d, %d, 1" % (first, first + 1) for first in range(0, WORDS, cores)]
    return text([("m", WORDS)], *[family(cores, "bump", 0, 1, *words)] * 3) + """bump: la t0, m
 slli t1, a0, 2
 add t0, t0, t1
 li t1, CHUNK
bump_n: lw t4, 0(t0)
 addi t4, t4, 1
 sw t4, 0(t0)
 addi t0, t0, BYTES
 addi t1, t1, -1
 bnez t1, bump_n
""".replace("CHUNK", str(WORDS // cores)).replace("BYTES", str(4 * cores)) + END


KERNELS = {"stencil": stencil, "product": product, "total": total, "histogram": histogram, "prefix": prefix, "cyclic": cyclic}
NAMES = tuple(sharing().PATTERNS) + tuple(KERNELS)


def make(name, cores):
    return KERNELS[name](cores) if name in KERNELS else pattern(name, cores)


if __name__ == "__main__":
    if sys.argv[1:] == []:
        print("\n".join(NAMES))
    elif len(sys.argv) == 3 and sys.argv[1] in NAMES and sys.argv[2] in ("2", "4", "8", "16"):
        print(make(sys.argv[1], int(sys.argv[2])), end="")
    else:
        print(__doc__, file=sys.stderr)
        sys.exit(1)
