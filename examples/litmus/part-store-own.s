# A store of a part of a word that the core itself stored to before is merged with the value before that store.
# All protocols: a store of a part of a word keeps the rest of it. Store buffers that merge stores, too.
.version 2
.region x, 16
.region seen, 16
.word x, 0, 0x11223344
.phase
.task 0, put, 0xee
.writes x
.phase
.task 1, read, 0
.reads x
.writes seen
put: la t0, x
 li t1, 0x55667788
 sw t1, 0(t0)
 sb a0, 3(t0)
 sh a0, 0(t0)
 li a7, 0
 ecall
read: la t0, x
 lw t1, 0(t0)
 la t0, seen
 sw t1, 0(t0)
 li a7, 0
 ecall
