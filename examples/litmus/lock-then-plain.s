# Words that a lock guarded in one phase are used without it in the next, and a core reads a copy from before.
# Protocols that drop copies of guarded words at grants alone, and not at the end of the phase.
.version 2
.region x, 16
.region seen, 64
.lock k
.phase
.forall 0, 4, count, 1, 1
.gwrites k, x
.phase
.forall 0, 4, read, 0, 64
.reads x
.writes seen, 0, 16, 16
.phase
.task 2, plain, 100
.writes x
.phase
.forall 0, 4, count, 1, 1
.gwrites k, x
.phase
.forall 0, 4, read, 4, 64
.reads x
.writes seen, 0, 16, 16
count: mv s0, a0
 la s1, x
 li a0, 0
 li a7, 1
 ecall
 lw t1, 0(s1)
 add t1, t1, s0
 sw t1, 0(s1)
 li a7, 2
 ecall
 li a7, 0
 ecall
read: la t0, x
 lw t1, 0(t0)
 la t0, seen
 add t0, t0, a0
 sw t1, 0(t0)
 li a7, 0
 ecall
plain: la t0, x
 lw t1, 0(t0)
 add t1, t1, a0
 sw t1, 0(t0)
 li a7, 0
 ecall
