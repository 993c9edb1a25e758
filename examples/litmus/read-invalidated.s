# Three cores read a line to which a fourth stores. A read is invalidated on its way, and then it alone has the line, which is lost.
# Directories with lines and Exclusive: a line that comes as the only copy is kept or given back. It shows where some messages are slow.
.version 2
.region x, 16
.region y, 64
.phase
.forall 0, 3, read, 0, 1
.reads x, 0, 2
.writes y, 0, 16, 16
.task 3, write, 3
.writes x, 2, 4
.writes y, 48, 64
read: la s0, x
 la s1, y
 slli t0, a0, 6
 add s1, s1, t0
 li s2, 20
reads: lw t1, 0(s0)
 lw t2, 0(s1)
 addi s2, s2, -1
 bnez s2, reads
 li a7, 0
 ecall
write: la s0, x
 la s1, y
 slli t0, a0, 6
 add s1, s1, t0
 li s2, 20
writes: sw s2, 8(s0)
 lw t2, 0(s1)
 addi s2, s2, -1
 bnez s2, writes
 li a7, 0
 ecall
