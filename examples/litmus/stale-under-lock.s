# A core that only reads a word under a lock keeps its copy, though another core stores to the word under the lock.
# All protocols: what was written under a lock is seen by its next holder. Copies that a grant or a message has to drop.
.version 2
.region x, 16
.region back, 48
.lock k
.phase
.task 0, count, 0
.gwrites k, x
.forall 1, 3, watch, 0, 64
.greads k, x
.writes back, 0, 16, 16
count: la s1, x
 li s2, 8
more: li a0, 0
 li a7, 1
 ecall
 lw t1, 0(s1)
 addi t1, t1, 1
 sw t1, 0(s1)
 li t1, 10
hold: addi t1, t1, -1
 bnez t1, hold
 li a7, 2
 ecall
 addi s2, s2, -1
 bnez s2, more
 li a7, 0
 ecall
watch: la s0, back
 add s0, s0, a0
 la s1, x
 li s2, 8
 li s3, 0
 li s4, 0
look: li a0, 0
 li a7, 1
 ecall
 lw t1, 0(s1)
 li a7, 2
 ecall
 bgeu t1, s3, on
 addi s4, s4, 1
on: mv s3, t1
 addi s2, s2, -1
 bnez s2, look
 sw s4, 0(s0)
 li t1, 1
 sw t1, 4(s0)
 li a7, 0
 ecall
