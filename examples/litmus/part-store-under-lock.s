# Four cores store one byte each of the same word, in one phase and under one lock, and one byte is lost.
# All protocols: a store of a part of a word keeps the rest of it. And what was written under a lock is seen by its next holder.
.version 2
.region x, 16
.lock k
.phase
.forall 0, 4, byte, 0, 1
.gwrites k, x
byte: la t0, x
 add t0, t0, a0
 addi t1, a0, 1
 li a0, 0
 li a7, 1
 ecall
 sb t1, 0(t0)
 li a7, 2
 ecall
 li a7, 0
 ecall
