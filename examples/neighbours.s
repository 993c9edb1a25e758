# Two cores write neighbouring words, a hundred times each.
# Look at `count reg-req 2` and `count reg-fwd 0`: each core registered its word once and then wrote to its own cache. Words travel
# one by one, so the two words, which one cache line would hold, are never taken from one core by the other (no false sharing).
#   ./denovo < examples/neighbours.s
.region m, 2
.phase
.task 0, go, 0
.writes m, 0, 1
.task 1, go, 4
.writes m, 1, 2
go: la t0, m
 add t0, t0, a0
 li t1, 100
again: sw t1, 0(t0)
 addi t1, t1, -1
 bnez t1, again
 li a7, 0
 ecall
