# Four cores count up one word under a lock, three times each.
# Look at the lines `grant 0 CORE 0`: they tell in which order the cores got the lock, and another seed gives another order. The last
# value of the counter is 12 by any order: the critical sections came one after the other.
#   ./denovo < examples/locked-counter.s
#   ./denovo --seed 2 < examples/locked-counter.s
.version 2
.region counter, 1
.lock guard
.phase
.forall 0, 4, count, 3, 0     # four tasks, on the cores 0 to 3, each with the argument 3
.gwrites guard, counter
count: mv s0, a0
 la t0, counter
again: li a0, 0               # lock number 0
 li a7, 1                     # acquire
 ecall
 lw t1, 0(t0)
 addi t1, t1, 1
 sw t1, 0(t0)
 li a7, 2                     # release
 ecall
 addi s0, s0, -1
 bnez s0, again
 li a7, 0                     # finish
 ecall
