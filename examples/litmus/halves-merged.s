# A store of a half word into a word that another core wrote changes the other half, at one of the two offsets.
# All protocols: a store of a part of a word keeps the rest of it.
.version 2
.region x, 16
.region seen, 16
.phase
.task 0, words, 0
.writes x
.phase
.task 1, halves, 0xbbcc
.writes x
.phase
.task 0, copy, 0
.reads x
.writes seen
words: la t0, x
 li t1, 0x11223344
 sw t1, 0(t0)
 sw t1, 4(t0)
 li a7, 0
 ecall
halves: la t0, x
 sh a0, 0(t0)
 sh a0, 6(t0)
 li a7, 0
 ecall
copy: la t0, x
 la t1, seen
 lw t2, 0(t0)
 sw t2, 0(t1)
 lhu t2, 4(t0)
 sw t2, 4(t1)
 lhu t2, 6(t0)
 sw t2, 8(t1)
 lb t2, 7(t0)
 sw t2, 12(t1)
 li a7, 0
 ecall
