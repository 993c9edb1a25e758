# Readers of one word of a line get another word's value, or an old one, while a core stores to the word beside it.
# Protocols with lines of several words: a copy comes and goes while it is read.
.version 2
.region x, 16
.region seen, 64
.word x, 1, 3
.word x, 2, 5
.word x, 3, 7
.phase
.task 0, count, 0
.writes x, 0, 1
.forall 1, 3, sum, 4, 4
.reads x, 1, 4
.writes seen, 0, 16, 16
.phase
.forall 1, 3, last, 0, 64
.reads x, 0, 1
.writes seen, 0, 16, 16
count: la t0, x
 li t1, 30
more: lw t2, 0(t0)
 addi t2, t2, 1
 sw t2, 0(t0)
 addi t1, t1, -1
 bnez t1, more
 li a7, 0
 ecall
sum: la t0, x
 add t0, t0, a0
 li t1, 20
 li t3, 0
add: lw t2, 0(t0)
 add t3, t3, t2
 addi t1, t1, -1
 bnez t1, add
 la t0, seen
 addi t1, a0, -4
 slli t1, t1, 4
 add t0, t0, t1
 sw t3, 0(t0)
 li a7, 0
 ecall
last: la t0, x
 lw t2, 0(t0)
 la t0, seen
 add t0, t0, a0
 sw t2, 4(t0)
 li a7, 0
 ecall
