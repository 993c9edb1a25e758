# Words that nobody writes change, since words beside them, or in the same set, are written and evicted.
# All protocols. Caches of at most 4 ways of at most 256 bytes.
.version 2
.region a, 272
.region seen, 32
.word a, 0, 1
.word a, 64, 10
.word a, 128, 100
.word a, 192, 1000
.word a, 256, 10000
.phase
.forall 0, 2, both, 0, 64
.reads a, 0, 1
.reads a, 64, 65
.reads a, 128, 129
.reads a, 192, 193
.reads a, 256, 257
.writes a, 1, 2, 1
.writes a, 65, 66, 1
.writes a, 129, 130, 1
.writes a, 193, 194, 1
.writes a, 257, 258, 1
.writes seen, 0, 16, 16
both: la s0, a
 li s1, 3
 li s2, 0
round: mv t0, s0
 li t1, 5
more: lw t2, 0(t0)
 add s2, s2, t2
 srli t3, a0, 4
 add t3, t3, t0
 lw t2, 4(t3)
 addi t2, t2, 1
 sw t2, 4(t3)
 addi t0, t0, 256
 addi t1, t1, -1
 bnez t1, more
 addi s1, s1, -1
 bnez s1, round
 la t0, seen
 add t0, t0, a0
 sw s2, 0(t0)
 li a7, 0
 ecall
