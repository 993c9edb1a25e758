# Four cores store one byte each of the same word, in a phase each, and one byte is lost.
# All protocols: a store of a part of a word keeps the rest of it. And lines that are merged by masks of bytes.
.version 2
.region x, 16
.phase
.task 0, byte, 0
.writes x
.phase
.task 1, byte, 1
.writes x
.phase
.task 2, byte, 2
.writes x
.phase
.task 3, byte, 3
.writes x
byte: la t0, x
 add t0, t0, a0
 addi t1, a0, 1
 slli t2, t1, 4
 add t1, t1, t2
 sb t1, 0(t0)
 li a7, 0
 ecall
