# Two cores store to two words, 16 bytes apart. Where both lie in one line, a store of one of them is lost.
# Protocols with lines of 32 bytes and more, or whose comparison of addresses leaves bit 4 out.
.version 2
.region x, 16
.phase
.task 0, count, 0
.writes x, 0, 1
.task 1, count, 16
.writes x, 4, 5
.phase
.task 0, count, 16
.writes x, 4, 5
.task 1, count, 0
.writes x, 0, 1
count: la t0, x
 add t0, t0, a0
 li t1, 20
more: lw t2, 0(t0)
 addi t2, t2, 1
 sw t2, 0(t0)
 addi t1, t1, -1
 bnez t1, more
 li a7, 0
 ecall
