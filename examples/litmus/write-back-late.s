# Two cores store to a word in turn and evict it. The first write-back comes after the second, and its old value stays.
# Protocols whose write-backs may overtake each other. Caches of at most 4 ways of at most 256 bytes.
.version 2
.region a, 272
.region seen, 16
.phase
.task 0, put, 1
.writes a, 0, 1
.reads a, 64, 257
.phase
.task 1, put, 2
.writes a, 0, 1
.reads a, 64, 257
.phase
.task 0, put, 3
.writes a, 0, 1
.reads a, 64, 257
.phase
.task 1, put, 4
.writes a, 0, 1
.reads a, 64, 257
.phase
.task 0, put, 5
.writes a, 0, 1
.reads a, 64, 257
.phase
.task 1, put, 6
.writes a, 0, 1
.reads a, 64, 257
.phase
.task 2, read, 0
.reads a, 0, 1
.writes seen, 0, 1
put: la t0, a
 lw t1, 0(t0)
 add t1, t1, a0
 sw t1, 0(t0)
 li t2, 4
more: addi t0, t0, 256
 lw t1, 0(t0)
 addi t2, t2, -1
 bnez t2, more
 li a7, 0
 ecall
read: la t0, a
 lw t1, 0(t0)
 la t0, seen
 sw t1, 0(t0)
 li a7, 0
 ecall
