# Two cores count up a word under a lock. A release that overtakes the store before it lets the other core read the old value.
# All protocols: a release waits for all stores before it. The word isn't at the lock's bank: lock 0, and word 21, in lines of 1 to 16 words.
.version 2
.region x, 32
.lock k
.phase
.forall 0, 2, go, 0, 0
.gwrites k, x
go: la s1, x
 li s2, 8
round: li a0, 0
 li a7, 1
 ecall
 lw t1, 84(s1)
 addi t1, t1, 1
 sw t1, 84(s1)
 li a0, 0
 li a7, 2
 ecall
 addi s2, s2, -1
 bnez s2, round
 li a7, 0
 ecall
