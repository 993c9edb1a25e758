# Two cores take two locks, each in its own order.
# Look at the outcome: by seed 1 each core has its first lock and waits for the other's for ever, and the answer says `outcome stuck`
# and who waits for which lock; the exit code is 5. By seed 6 one core has both locks first, and both finish: the exit code is 0.
#   ./denovo --seed 1 < examples/crossed-locks.s
#   ./denovo --seed 6 < examples/crossed-locks.s
.lock first
.lock second
.phase
.task 0, go, 0
.task 1, go, 1
go: mv s0, a0        # the lock to take first: 0 on core 0, 1 on core 1
 xori s1, a0, 1      # and the other one
 li a7, 1
 mv a0, s0
 ecall
 mv a0, s1
 ecall
 li a7, 2
 ecall
 mv a0, s0
 ecall
 li a7, 0
 ecall
