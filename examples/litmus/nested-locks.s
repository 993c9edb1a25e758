# A core takes a second lock under a first one. A copy that the first grant should have dropped is read under the second.
# Protocols that drop copies, or tell what was written, lock by lock.
.version 2
.region x, 16
.region y, 16
.lock a
.lock b
.phase
.forall 0, 3, both, 1, 1
.gwrites a, x
.gwrites b, y
.forall 3, 2, inner, 1, 1
.gwrites b, y
both: mv s0, a0
 la s1, x
 la s3, y
 li s2, 4
more: li a0, 0
 li a7, 1
 ecall
 lw t1, 0(s1)
 li a0, 1
 li a7, 1
 ecall
 lw t2, 0(s3)
 addi t2, t2, 1
 sw t2, 0(s3)
 li a7, 2
 ecall
 lw t3, 4(s1)
 addi t1, t1, 1
 sw t1, 0(s1)
 add t3, t3, s0
 sw t3, 4(s1)
 li a0, 0
 li a7, 2
 ecall
 addi s2, s2, -1
 bnez s2, more
 li a7, 0
 ecall
inner: mv s0, a0
 la s3, y
 li s2, 4
turn: li a0, 1
 li a7, 1
 ecall
 lw t2, 0(s3)
 addi t2, t2, 1
 sw t2, 0(s3)
 lw t2, 4(s3)
 add t2, t2, s0
 sw t2, 4(s3)
 li a7, 2
 ecall
 addi s2, s2, -1
 bnez s2, turn
 li a7, 0
 ecall
