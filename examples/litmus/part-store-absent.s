# A store of a part of a word that the core doesn't have fills the rest with 0, or with what stood in the cache there.
# All protocols: a store of a part of a word keeps the rest of it.
.version 2
.region x, 16
.word x, 0, 0x11223344
.word x, 1, 0x55667788
.word x, 2, 0x99aabbcc
.phase
.task 0, put, 0xee
.writes x
put: la t0, x
 sb a0, 2(t0)
 sh a0, 4(t0)
 sb a0, 11(t0)
 li a7, 0
 ecall
