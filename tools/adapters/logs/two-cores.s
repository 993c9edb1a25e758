# Two cores add their arguments to one word under a lock. Then core 1 reads its lowest byte.
.region sum, 1
.region seen, 1
.word sum, 0, 5
.lock k
.phase
.task 0, add, 2
.gwrites k, sum
.task 1, add, 3
.gwrites k, sum
.phase
.task 1, look, 0
.reads sum
.writes seen
add: mv s0, a0
 mv a0, x0
 addi a7, x0, 1       # acquire the lock
 ecall
 lui t0, 0x10000
 lw t1, 0(t0)
 add t1, t1, s0
 sw t1, 0(t0)
 addi a7, x0, 2       # release it
 ecall
 addi a7, x0, 0
 ecall
look: lui t0, 0x10000
 lbu t1, 0(t0)
 sb t1, 4(t0)
 addi a7, x0, 0
 ecall
