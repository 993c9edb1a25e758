# Two locks guard the even and the odd words of a line. A store under one of them is lost by a store under the other.
# Protocols with lines of several words, and those that keep a lock and the words it guards together.
.version 2
.region x, 16
.lock even
.lock odd
.phase
.forall 0, 4, go, 0, 1
.gwrites even, x, 0, 1
.gwrites even, x, 2, 3
.gwrites odd, x, 1, 2
.gwrites odd, x, 3, 4
go: andi s0, a0, 1
 la s1, x
 slli t1, s0, 2
 add s1, s1, t1
 li s2, 5
more: mv a0, s0
 li a7, 1
 ecall
 lw t1, 0(s1)
 addi t1, t1, 1
 sw t1, 0(s1)
 lw t1, 8(s1)
 addi t1, t1, 2
 sw t1, 8(s1)
 mv a0, s0
 li a7, 2
 ecall
 addi s2, s2, -1
 bnez s2, more
 li a7, 0
 ecall
