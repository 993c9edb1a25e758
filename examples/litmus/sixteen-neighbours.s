# Sixteen cores store to the sixteen words of 64 bytes, and each reads the word of the next core in the next phase.
# Protocols with lines of several words and up to sixteen cores that want one: a store or a sharer is lost.
.version 2
.region x, 16
.region y, 16
.phase
.forall 0, 16, put, 0, 4
.writes x, 0, 1, 1
.phase
.forall 0, 16, next, 0, 4
.reads x
.writes y, 0, 1, 1
.phase
.forall 0, 16, back, 0, 4
.reads y
.writes x, 0, 1, 1
.phase
.forall 0, 16, next, 0, 4
.reads x
.writes y, 0, 1, 1
put: la t0, x
 add t0, t0, a0
 addi t1, a0, 4
 sw t1, 0(t0)
 li a7, 0
 ecall
next: la s0, x
 la s1, y
 j turn
back: la s0, y
 la s1, x
turn: addi t0, a0, 4
 andi t0, t0, 63
 add t0, t0, s0
 lw t1, 0(t0)
 add t2, s1, a0
 addi t1, t1, 1
 sw t1, 0(t2)
 li a7, 0
 ecall
