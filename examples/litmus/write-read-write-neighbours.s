# As write-read-write, with a line whose words two cores store to in turn, and which a third one reads in between.
# Protocols with lines of several words whose owner has to ask again once its line is shared.
.version 2
.region x, 16
.region seen, 16
.phase
.task 0, step, 0
.writes x, 0, 1
.phase
.task 2, read, 0
.reads x, 0, 2
.writes seen
.phase
.task 1, step, 1
.writes x, 1, 2
.phase
.task 2, read, 4
.reads x, 0, 2
.writes seen
.phase
.task 0, step, 2
.writes x, 0, 1
.phase
.task 2, read, 8
.reads x, 0, 2
.writes seen
.phase
.task 1, step, 3
.writes x, 1, 2
.phase
.task 2, read, 12
.reads x, 0, 2
.writes seen
step: la t0, x
 slli t2, a0, 2
 andi t2, t2, 4
 add t0, t0, t2
 lw t1, 0(t0)
 addi t1, t1, 5
 sw t1, 0(t0)
 li a7, 0
 ecall
read: la t0, x
 lw t1, 0(t0)
 lw t2, 4(t0)
 slli t1, t1, 8
 add t1, t1, t2
 la t0, seen
 add t0, t0, a0
 sw t1, 0(t0)
 li a7, 0
 ecall
