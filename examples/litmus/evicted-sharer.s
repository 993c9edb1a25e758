# A core evicts its copy without a word and reads again. The home counts it as a sharer no more, or the copy comes too late.
# Where sharers are told and copies go silently. Caches of at most 4 ways of at most 256 bytes.
.version 2
.region a, 272
.region seen, 16
.word a, 0, 5
.phase
.task 1, read, 0
.reads a
.writes seen
.phase
.task 0, put, 9
.writes a, 0, 1
.phase
.task 1, read, 8
.reads a
.writes seen
.phase
.task 0, put, 11
.writes a, 0, 1
.phase
.task 1, read, 16
.reads a
.writes seen
read: la t0, a
 lw t3, 0(t0)
 mv t1, t0
 li t2, 4
more: addi t1, t1, 256
 lw t4, 0(t1)
 addi t2, t2, -1
 bnez t2, more
 lw t4, 0(t0)
 la t0, seen
 add t0, t0, a0
 sw t3, 0(t0)
 sw t4, 4(t0)
 li a7, 0
 ecall
put: la t0, a
 sw a0, 0(t0)
 li a7, 0
 ecall
