# A store of a byte into a word that another core wrote changes the rest of the word, at one of the four offsets.
# All protocols: a store of a part of a word keeps the rest of it.
.version 2
.region x, 16
.region seen, 16
.phase
.task 0, words, 0
.writes x
.phase
.task 1, bytes, 0xaa
.writes x
.phase
.task 0, copy, 0
.reads x
.writes seen
words: la t0, x
 li t1, 0x11223344
 sw t1, 0(t0)
 sw t1, 4(t0)
 sw t1, 8(t0)
 sw t1, 12(t0)
 li a7, 0
 ecall
bytes: la t0, x
 sb a0, 0(t0)
 sb a0, 5(t0)
 sb a0, 10(t0)
 sb a0, 15(t0)
 li a7, 0
 ecall
copy: la t0, x
 la t1, seen
 lw t2, 0(t0)
 sw t2, 0(t1)
 lw t2, 4(t0)
 sw t2, 4(t1)
 lw t2, 8(t0)
 sw t2, 8(t1)
 lw t2, 12(t0)
 sw t2, 12(t1)
 li a7, 0
 ecall
