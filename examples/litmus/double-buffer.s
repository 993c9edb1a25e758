# Two buffers change their parts from phase to phase: what was read is written next. A core computes with the buffer before last.
# All protocols, above all those that keep copies from phase to phase because their core has read them.
.version 2
.region a, 16
.region b, 16
.phase
.forall 0, 4, first, 0, 16
.writes a, 0, 4, 4
.phase
.forall 0, 4, forth, 0, 16
.reads a
.writes b, 0, 4, 4
.phase
.forall 0, 4, back, 0, 16
.reads b
.writes a, 0, 4, 4
.phase
.forall 0, 4, forth, 0, 16
.reads a
.writes b, 0, 4, 4
.phase
.forall 0, 4, back, 0, 16
.reads b
.writes a, 0, 4, 4
first: la t0, a
 add t0, t0, a0
 addi t1, a0, 1
 sw t1, 0(t0)
 sw t1, 4(t0)
 sw t1, 8(t0)
 sw t1, 12(t0)
 li a7, 0
 ecall
forth: la s0, a
 la s1, b
 j turn
back: la s0, b
 la s1, a
turn: li t2, 4
more: addi t3, a0, 16
 andi t3, t3, 63
 add t3, t3, s0
 lw t4, 0(t3)
 add t3, s0, a0
 lw t5, 0(t3)
 add t4, t4, t5
 add t3, s1, a0
 sw t4, 0(t3)
 addi a0, a0, 4
 addi t2, t2, -1
 bnez t2, more
 li a7, 0
 ecall
