"""Small texts whose answers were worked out by hand, and whether the runs of 50 seeds of each come to them."""

from .answers import answer
from .kinds import KINDS
from .machine import Pcg32
from .report import count_text

STORE_FIVE = """.region m, 1
.phase
.task 0, go, 0
.writes m
go: lui t0, 0x10000
 addi t1, x0, 5
 sw t1, 0(t0)
 addi a7, x0, 0
 ecall
"""
SHARED = """.region s, 1
.region o, 2
.word s, 0, 7
.phase
.task 0, go, 0
.reads s
.writes o, 0, 1
.task 1, go, 4
.reads s
.writes o, 1, 2
go: la t0, s
 lw t1, 0(t0)
 la t2, o
 add t2, t2, a0
 sw t1, 0(t2)
 li a7, 0
 ecall
"""
STALE = """.region m, 4
.region o, 1
.phase
.task 1, read, 0
.reads m
.writes o
.phase
.task 0, put, 9
.writes m
.task 1, stop, 0
.phase
.task 1, read, 0
.reads m
.writes o
read: la t0, m
 lw t1, 12(t0)
 la t2, o
 sw t1, 0(t2)
stop: li a7, 0
 ecall
put: la t0, m
 sw a0, 12(t0)
 j stop
"""
IDLE = STALE.replace(".task 1, stop, 0\n", "")
ONE_PLACE = """.region m, 2
.phase
.task 0, go, 5
.writes m
go: la t0, m
 sw a0, 0(t0)
 sw a0, 4(t0)
 sw t0, 0(t0)
 li a7, 0
 ecall
"""
PART = """.region m, 1
.word m, 0, 0x11223344
.phase
.task 0, go, 0
.writes m
go: la t0, m
 li t1, 0xAA
 sb t1, 1(t0)
 ecall
"""
COUNTER = ".region c, 1\n.lock k\n.phase\n" + "".join(".task %d, go, 100\n.gwrites k, c\n" % n for n in range(4)) + """go: mv s0, a0
 la t0, c
l: li a0, 0
 li a7, 1
 ecall
 lw t1, 0(t0)
 addi t1, t1, 1
 sw t1, 0(t0)
 li a7, 2
 ecall
 addi s0, s0, -1
 bnez s0, l
 li a7, 0
 ecall
"""
CROSSED = """.lock a
.lock b
.phase
.task 0, go, 0
.task 1, go, 1
go: mv s0, a0
 xori s1, a0, 1
 li a7, 1
 mv a0, s0
 ecall
 mv a0, s1
 ecall
 li a7, 2
 ecall
 mv a0, s0
 ecall
 li a7, 0
 ecall
"""
TRAP = """.region m, 1
.lock k
.phase
.task 0, bad, 0
.task 1, ok, 0
.phase
.task 0, end, 0
bad: li a7, 1
 ecall
 la t0, m
 lw t1, 0(t0)
ok: li a7, 1
 ecall
 li a7, 2
 ecall
end: li a7, 0
 ecall
"""
MARKS = """.region m, 2
.phase
.task 0, rd, 0
.reads m, 0, 1
.task 1, wr, 9
.writes m, 1, 2
.phase
.task 0, rd, 0
.reads m, 0, 1
rd: la t0, m
 lw t1, 0(t0)
stop: li a7, 0
 ecall
wr: la t0, m
 sw a0, 4(t0)
 j stop
"""


def finished(core, retired, phase=0):
    return "task %d %d finished retired %d" % (phase, core, retired)


def rows():
    """The small examples by 50 seeds each: what a run has to write up to its counts, and the counts that aren't 0."""
    def word(number, value):
        return "word 0x%08x 0x%08x" % (0x10000000 + 4 * number, value)
    stale = dict(instr=30, arrive=6, read_req=2, read_fwd=1, data_reply=2, reg_req=2, reg_ack=2, arrived=6, go=4, halt=2)
    examples = [
        ("store-five", STORE_FIVE, [], [finished(0, 5), "words 1", word(0, 5)],
         dict(instr=5, arrive=1, reg_req=1, reg_ack=1, arrived=1, halt=1)),
        ("no text", "", [], ["words 0"], {}),
        ("shared reads", SHARED, [], [finished(0, 10), finished(1, 10), "words 3"] + [word(n, 7) for n in range(3)],
         dict(instr=22, arrive=2, read_req=2, data_reply=2, reg_req=2, reg_ack=2, arrived=2, halt=2)),
        ("stale copy", STALE, [], [finished(1, 9), finished(0, 7, 1), finished(1, 3, 1), finished(1, 9, 2), "words 5", word(3, 9),
          word(4, 9)], stale),
        ("idle core", IDLE, [], [finished(1, 9), finished(0, 7, 1), finished(1, 9, 2), "words 5", word(3, 9), word(4, 9)],
         dict(stale, instr=27)),
        ("one place", ONE_PLACE, ["--sets", "1", "--ways", "1"], [finished(0, 8), "words 2", word(0, 0x10000000), word(1, 5)],
         dict(instr=8, evict=2, arrive=1, reg_req=3, reg_ack=3, write_back=2, wb_ack=2, arrived=1, halt=1)),
        ("part of a word", PART, [], [finished(0, 6), "words 1", word(0, 0x1122aa44)],
         dict(instr=7, arrive=1, read_req=1, data_reply=1, reg_req=1, reg_ack=1, arrived=1, halt=1)),
        ("64 phases", ".phase\n" * 64, [], ["words 0"], dict(arrive=64, arrived=64, go=63, halt=1)),
        ("marks", MARKS, [], [finished(0, 6), finished(1, 7), finished(0, 6, 1), "words 2", word(1, 9)],
         dict(instr=20, arrive=4, read_req=1, data_reply=1, reg_req=1, reg_ack=1, arrived=4, go=2, halt=2)),
        ("cut after 12 bytes", STORE_FIVE[:12], [], ["words 1"], {}),
        ("cut after 20 bytes", STORE_FIVE[:20], [], ["words 1"], dict(arrive=1, arrived=1, halt=1)),
    ]
    good = Pcg32(1).next_u32() == 866585574
    for name, text, words, wanted, counts in examples:
        fine = 0
        for seed in range(1, 51):
            status, lines = answer(words + ["--seed", str(seed)], text)
            whole = dict.fromkeys(KINDS, 0)
            whole.update({kind.replace("_", "-"): many for kind, many in counts.items()})
            fine += status == 0 and lines == ["outcome done"] + wanted + count_text(whole)
        print("%s: %d of 50 seeds, %d events" % (name, fine, sum(counts.values())))
        good = good and fine == 50
    fine, ways = 0, {}
    for seed in range(1, 51):
        status, lines = answer(["--seed", str(seed)], COUNTER)
        fine += status == 0 and lines[1:7] == [finished(core, 1306) for core in range(4)] + ["words 1", word(0, 400)] \
            and len([line for line in lines if line.startswith("grant")]) == 400 and "count grant 400" in lines
    print("counter under a lock: %d of 50 seeds" % fine)
    good = good and fine == 50
    fine = 0
    for seed in range(1, 51):
        status, lines = answer(["--seed", str(seed)], CROSSED)
        granted = [line for line in lines if line.startswith("grant")]
        if status == 5:
            fine += lines[:4] == ["outcome stuck", "task 0 0 waits 1 retired 7", "task 0 1 waits 0 retired 7", "words 0"] \
                and sorted(granted) == ["grant 0 0 0", "grant 0 1 1"]
        else:
            fine += status == 0 and lines[1:4] == [finished(0, 16), finished(1, 16), "words 0"] and len(granted) == 4
        ways[status] = ways.get(status, 0) + 1
    print("two locks crosswise: %d of 50 seeds, by exit code %s" % (fine, ways))
    good = good and fine == 50
    fine, ways = 0, {}
    trap = "task 0 0 trap outside pc 0x00001014 value 0x10000000 retired 5"
    for seed in range(1, 51):
        status, lines = answer(["--seed", str(seed)], TRAP)
        granted = [line for line in lines if line.startswith("grant")]
        if granted[0] == "grant 0 0 0":
            fine += status == 5 and lines[:4] == ["outcome stuck", trap, "task 0 1 waits 0 retired 2", "words 1"] and len(granted) == 1
        else:
            fine += status == 3 and lines[:4] == ["outcome trapped", trap, finished(1, 9), "words 1"]
        ways[status] = ways.get(status, 0) + 1
    print("trap under a lock: %d of 50 seeds, by exit code %s" % (fine, ways))
    good = good and fine == 50
    for size, retired, many, total in ((1, 2262, 128, 0x8f40), (4, 8598, 512, 0x8fd00)):
        status, lines = answer(["--mode", "work", "--size", str(size)], "")
        wanted = ["outcome done", "tasks 12", "retired %d" % retired, "words %d" % many, "sum 0x%08x" % total]
        print("work of size %d: %s" % (size, lines == wanted))
        good = good and lines == wanted
    return good
