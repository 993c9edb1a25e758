# A line comes home with only some of the words that were stored to: the words beside the last one are lost.
# Protocols with lines of several words and masks of dirty words. Caches of at most 4 ways of at most 256 bytes.
.version 2
.region a, 272
.region seen, 16
.phase
.task 0, fill, 1
.writes a
.phase
.task 1, sum, 0
.reads a
.writes seen
fill: la t0, a
 li t1, 5
more: sw a0, 0(t0)
 addi t2, a0, 16
 sw t2, 4(t0)
 addi t2, a0, 32
 sw t2, 8(t0)
 addi a0, a0, 1
 addi t0, t0, 256
 addi t1, t1, -1
 bnez t1, more
 li a7, 0
 ecall
sum: la t0, a
 li t1, 5
 li t3, 0
add: lw t2, 0(t0)
 add t3, t3, t2
 lw t2, 4(t0)
 add t3, t3, t2
 lw t2, 8(t0)
 add t3, t3, t2
 addi t0, t0, 256
 addi t1, t1, -1
 bnez t1, add
 la t0, seen
 sw t3, 0(t0)
 li a7, 0
 ecall
