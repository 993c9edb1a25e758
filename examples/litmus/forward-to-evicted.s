# A read is forwarded to the owner just after it has evicted the line, and the owner answers with what stands there now.
# Where homes forward requests to owners. Caches of at most 4 ways of at most 256 bytes.
.version 2
.region a, 320
.region seen, 16
.phase
.task 0, fill, 9
.writes a, 0, 64
.phase
.task 0, loads, 7
.reads a, 64, 320
.task 1, sum, 4
.reads a, 0, 64
.writes seen, 1, 2
.phase
.task 2, sum, 8
.reads a, 0, 64
.writes seen, 2, 3
fill: la t0, a
 li t1, 4
one: sw a0, 0(t0)
 addi t0, t0, 64
 addi t1, t1, -1
 bnez t1, one
 li a7, 0
 ecall
stores: la t0, a
 addi t0, t0, 256
 li t1, 16
two: sw a0, 0(t0)
 addi t0, t0, 64
 addi t1, t1, -1
 bnez t1, two
 li a7, 0
 ecall
loads: la t0, a
 addi t0, t0, 256
 li t1, 16
three: lw t2, 0(t0)
 addi t0, t0, 64
 addi t1, t1, -1
 bnez t1, three
 li a7, 0
 ecall
sum: la t0, a
 li t1, 4
 li t3, 0
four: lw t2, 0(t0)
 add t3, t3, t2
 addi t0, t0, 64
 addi t1, t1, -1
 bnez t1, four
 la t0, seen
 add t0, t0, a0
 sw t3, 0(t0)
 li a7, 0
 ecall
