# One word more than a set has ways is stored to, in three rounds. A store of a round is lost, or the wrong word goes.
# Caches of at most 8 ways of at most 4,096 bytes, where nine words that far apart have one set.
.version 2
.region a, 8208
.region seen, 16
.phase
.task 0, rounds, 3
.writes a
.phase
.task 1, sum, 0
.reads a
.writes seen
rounds: li s0, 4096
round: la t0, a
 li t1, 9
more: lw t2, 0(t0)
 add t2, t2, t1
 sw t2, 0(t0)
 add t0, t0, s0
 addi t1, t1, -1
 bnez t1, more
 addi a0, a0, -1
 bnez a0, round
 li a7, 0
 ecall
sum: li s0, 4096
 la t0, a
 li t1, 9
 li t3, 0
add: lw t2, 0(t0)
 add t3, t3, t2
 add t0, t0, s0
 addi t1, t1, -1
 bnez t1, add
 la t0, seen
 sw t3, 0(t0)
 li a7, 0
 ecall
