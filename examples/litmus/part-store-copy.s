# A store of a part of a word of which the core has a copy, and others too, is merged with an older value or not passed on.
# All protocols: a store of a part of a word keeps the rest of it. And sharers are told of such a store too.
.version 2
.region x, 16
.region seen, 32
.word x, 0, 0x11223344
.phase
.forall 0, 2, read, 0, 64
.reads x
.writes seen, 0, 16, 16
.phase
.task 0, put, 0xee
.writes x
.phase
.forall 0, 2, read, 4, 64
.reads x
.writes seen, 0, 16, 16
read: la t0, x
 lw t1, 0(t0)
 la t0, seen
 add t0, t0, a0
 sw t1, 0(t0)
 li a7, 0
 ecall
put: la t0, x
 sb a0, 1(t0)
 li a7, 0
 ecall
