# A load runs ahead of a store of the same core to the same word, and reads the value before.
# All cores with a store buffer.
.version 2
.region x, 16
.region seen, 16
.phase
.task 0, go, 0
.writes x
.writes seen
go: la t0, x
 la t1, seen
 li t2, 8
more: sw t2, 0(t0)
 lw t3, 0(t0)
 sw t3, 0(t1)
 addi t0, t0, 4
 addi t1, t1, 4
 addi t2, t2, -1
 bnez t2, more
 li a7, 0
 ecall
