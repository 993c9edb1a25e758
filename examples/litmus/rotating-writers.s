# Of a word that each core reads and then writes in its turn an old value comes back: a read gets what stood before the last store.
# All protocols in which a word moves from writer to writer: ownership that passes on, and values that pass by the home.
.version 2
.region x, 16
.region seen, 16
.phase
.task 0, step, 0
.writes x
.writes seen, 0, 1
.phase
.task 1, step, 4
.writes x
.writes seen, 1, 2
.phase
.task 2, step, 8
.writes x
.writes seen, 2, 3
.phase
.task 3, step, 12
.writes x
.writes seen, 3, 4
.phase
.task 0, step, 16
.writes x
.writes seen, 4, 5
.phase
.task 1, step, 20
.writes x
.writes seen, 5, 6
.phase
.task 2, step, 24
.writes x
.writes seen, 6, 7
.phase
.task 3, step, 28
.writes x
.writes seen, 7, 8
step: la t0, x
 lw t1, 0(t0)
 la t2, seen
 add t2, t2, a0
 sw t1, 0(t2)
 add t1, t1, t1
 addi t1, t1, 1
 sw t1, 0(t0)
 li a7, 0
 ecall
