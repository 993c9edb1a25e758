# A sharer has work of its own while another core stores to the word. It isn't told, or forgets it, and reads its old copy.
# Wherever sharers are told: directories and buses. And where cores drop copies by themselves at the end of a phase.
.version 2
.region x, 16
.region own, 48
.region seen, 32
.word x, 0, 5
.phase
.forall 1, 2, read, 0, 0
.reads x
.phase
.task 0, put, 9
.writes x
.forall 1, 2, work, 60, 128     # their words are 124 and 252 bytes behind x: in no cache with two sets or more does x share its set with them
.writes own, 15, 16, 32
.phase
.forall 1, 2, look, 0, 64
.reads x
.writes seen, 0, 16, 16
read: la t0, x
 lw t1, 0(t0)
 li a7, 0
 ecall
put: la t0, x
 sw a0, 0(t0)
 li a7, 0
 ecall
work: la t0, own
 add t0, t0, a0
 li t2, 10
more: lw t1, 0(t0)
 addi t1, t1, 3
 sw t1, 0(t0)
 addi t2, t2, -1
 bnez t2, more
 li a7, 0
 ecall
look: la t0, x
 lw t1, 0(t0)
 la t0, seen
 add t0, t0, a0
 sw t1, 0(t0)
 li a7, 0
 ecall
