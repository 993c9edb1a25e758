# Four cores add up a quarter each, and put their sums together under a lock. A sum is lost, or added twice.
# All protocols: private words, words that all read, and one word under a lock, as in a reduction.
.version 2
.region a, 32
.region total, 16
.region seen, 64
.lock k
.phase
.forall 0, 4, fill, 0, 8
.writes a, 0, 8, 8
.phase
.forall 0, 4, sum, 0, 8
.reads a
.gwrites k, total
.phase
.forall 0, 4, read, 0, 64
.reads total
.writes seen, 0, 16, 16
fill: la t0, a
 slli t1, a0, 2
 add t0, t0, t1
 li t2, 8
one: addi a0, a0, 1
 sw a0, 0(t0)
 addi t0, t0, 4
 addi t2, t2, -1
 bnez t2, one
 li a7, 0
 ecall
sum: la t0, a
 slli t1, a0, 2
 add t0, t0, t1
 li t2, 8
 li t3, 0
two: lw t1, 0(t0)
 add t3, t3, t1
 addi t0, t0, 4
 addi t2, t2, -1
 bnez t2, two
 li a0, 0
 li a7, 1
 ecall
 la t0, total
 lw t1, 0(t0)
 add t1, t1, t3
 sw t1, 0(t0)
 li a7, 2
 ecall
 li a7, 0
 ecall
read: la t0, total
 lw t1, 0(t0)
 la t0, seen
 add t0, t0, a0
 sw t1, 0(t0)
 li a7, 0
 ecall
