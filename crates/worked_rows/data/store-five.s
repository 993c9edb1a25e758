.region m, 1
.phase
.task 0, go, 0
.writes m
go: lui t0, 0x10000
 addi t1, x0, 5
 sw t1, 0(t0)
 addi a7, x0, 0
 ecall
