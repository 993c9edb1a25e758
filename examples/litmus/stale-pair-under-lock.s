# Of two words that are written together under a lock a core sees one new and one old value.
# All protocols: what was written under a lock is seen by its next holder. Here the words lie in different lines and homes.
.version 2
.region x, 16
.region y, 16
.region odd, 64
.lock k
.phase
.forall 0, 4, go, 0, 64
.gwrites k, x
.gwrites k, y
.writes odd, 0, 16, 16
go: la s0, odd
 add s0, s0, a0
 la s1, x
 la s5, y
 li s2, 6
 li s4, 0
round: li a0, 0
 li a7, 1
 ecall
 lw t1, 0(s1)
 lw t2, 0(s5)
 add t3, t1, t1
 beq t2, t3, even
 addi s4, s4, 1
even: addi t1, t1, 1
 sw t1, 0(s1)
 addi t2, t2, 2
 sw t2, 0(s5)
 li a7, 2
 ecall
 addi s2, s2, -1
 bnez s2, round
 sw s4, 0(s0)
 sw s2, 4(s0)
 li t1, 1
 sw t1, 8(s0)
 li a7, 0
 ecall
