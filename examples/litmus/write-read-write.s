# The owner of a word goes on storing to it after another core has read it, and tells nobody: the reader keeps its first value.
# Protocols in which an owner has to ask again once its line is shared: MSI, MESI and their kin.
.version 2
.region x, 16
.region seen, 16
.phase
.task 0, put, 1
.writes x
.phase
.task 1, read, 0
.reads x
.writes seen
.phase
.task 0, put, 2
.writes x
.phase
.task 1, read, 4
.reads x
.writes seen
.phase
.task 0, put, 3
.writes x
.phase
.task 2, read, 8
.reads x
.writes seen
read: la t0, x
 lw t1, 0(t0)
 la t0, seen
 add t0, t0, a0
 sw t1, 0(t0)
 li a7, 0
 ecall
put: la t0, x
 sw a0, 0(t0)
 li a7, 0
 ecall
