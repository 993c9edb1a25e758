# A lock is handed from core 0 through two cores and back. A holder doesn't see what the one before it wrote, or gets it too early.
# All protocols: what was written under a lock is seen by its next holder. And queues of waiting cores.
.version 2
.region x, 32
.lock k
.phase
.forall 0, 3, go, 1, 1
.gwrites k, x
.phase
.task 0, go, 100
.gwrites k, x
go: mv s0, a0
 la s1, x
 li s2, 4
round: li a0, 0
 li a7, 1
 ecall
 lw t1, 0(s1)
 addi t1, t1, 1
 sw t1, 0(s1)
 lw t2, 64(s1)
 add t2, t2, s0
 sw t2, 64(s1)
 li a0, 0
 li a7, 2
 ecall
 addi s2, s2, -1
 bnez s2, round
 li a7, 0
 ecall
