# A load of a word runs ahead of a store of the same core to a part of it, or gets only that part.
# All cores with a store buffer, above all those that hand a buffered store to a load.
.version 2
.region x, 16
.region seen, 16
.word x, 0, 0x11223344
.word x, 1, 0x11223344
.phase
.task 0, go, 0xee
.writes x
.writes seen
go: la t0, x
 la t1, seen
 sb a0, 1(t0)
 lw t2, 0(t0)
 sw t2, 0(t1)
 sh a0, 6(t0)
 lw t2, 4(t0)
 sw t2, 4(t1)
 lbu t2, 6(t0)
 sw t2, 8(t1)
 li a7, 0
 ecall
