# A word that a core stored to and then evicted comes back with the value that it had before: the write-back was lost.
# Caches of at most 4 ways of at most 256 bytes.
.version 2
.region a, 272
.region seen, 2
.phase
.task 0, fill, 1
.writes a
.phase
.task 0, sum, 0
.reads a
.writes seen, 0, 1
.task 1, sum, 4
.reads a
.writes seen, 1, 2
fill: la t0, a
 li t1, 5
more: sw a0, 0(t0)
 addi a0, a0, 1
 addi t0, t0, 256
 addi t1, t1, -1
 bnez t1, more
 li a7, 0
 ecall
sum: la t0, a
 li t1, 5
 li t3, 0
add: lw t2, 0(t0)
 add t3, t3, t2
 addi t0, t0, 256
 addi t1, t1, -1
 bnez t1, add
 la t0, seen
 add t0, t0, a0
 sw t3, 0(t0)
 li a7, 0
 ecall
