# The race mended by a lock: each core adds its half's sum to the common one while it holds the lock.
#   ./denovo < examples/tutorial-lock.s
.region from, 4
.word from, 0, 10
.word from, 1, 20
.word from, 2, 30
.word from, 3, 40
.region sum, 1
.lock guard
.phase
.task 0, add, 0
.reads from, 0, 2
.gwrites guard, sum
.task 1, add, 8
.reads from, 2, 4
.gwrites guard, sum
add: la t0, from
 add t0, t0, a0
 lw t1, 0(t0)
 lw t2, 4(t0)
 add t1, t1, t2      # the sum of this half
 li a0, 0            # the number of the lock
 li a7, 1            # acquire it
 ecall
 la t0, sum
 lw t2, 0(t0)
 add t1, t1, t2
 sw t1, 0(t0)
 li a7, 2            # release it
 ecall
 li a7, 0            # finish
 ecall
