# Copies are kept or dropped by a signature of what was written under the lock, and one is kept that was written.
# Protocols with signatures: the words 3, 259 and 515 differ above bit 7 alone, and 3 and 380 share their second bit.
.version 2
.region x, 528
.region odd, 48
.lock k
.phase
.task 0, count, 0
.gwrites k, x
.forall 1, 3, watch, 0, 64
.greads k, x
.writes odd, 0, 16, 16
count: la s1, x
 addi s3, s1, 1024
 addi s5, s1, 2047
 addi s5, s5, 1
 li s2, 6
more: li a0, 0
 li a7, 1
 ecall
 andi t1, s2, 1
 beqz t1, even
 lw t1, 12(s3)
 addi t1, t1, 1
 sw t1, 12(s3)
 lw t1, 496(s3)
 addi t1, t1, 1
 sw t1, 496(s3)
 j free
even: lw t1, 12(s1)
 addi t1, t1, 1
 sw t1, 12(s1)
 lw t1, 12(s5)
 addi t1, t1, 1
 sw t1, 12(s5)
free: li a7, 2
 ecall
 addi s2, s2, -1
 bnez s2, more
 li a7, 0
 ecall
watch: la s0, odd
 add s0, s0, a0
 la s1, x
 addi s3, s1, 1024
 addi s5, s1, 2047
 addi s5, s5, 1
 li s2, 6
 li s4, 0
look: li a0, 0
 li a7, 1
 ecall
 lw t1, 12(s3)
 lw t2, 496(s3)
 sub t1, t1, t2
 or s4, s4, t1
 lw t1, 12(s1)
 lw t2, 12(s5)
 sub t1, t1, t2
 or s4, s4, t1
 li a7, 2
 ecall
 addi s2, s2, -1
 bnez s2, look
 sw s4, 0(s0)
 li t1, 1
 sw t1, 4(s0)
 li a7, 0
 ecall
