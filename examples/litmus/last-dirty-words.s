# Words that the last phase stores to are missing at the end: they are still in caches, store buffers or write-backs.
# All simulators: the final memory is that of all stores, wherever their values are.
.version 2
.region a, 64
.region b, 272
.phase
.forall 0, 4, put, 0, 64
.writes a, 0, 16, 16
.task 4, far, 5
.writes b
put: la t0, a
 add t0, t0, a0
 addi t1, a0, 1
 sw t1, 0(t0)
 sb t1, 7(t0)
 sh t1, 10(t0)
 sw t1, 60(t0)
 li a7, 0
 ecall
far: la t0, b
more: sw a0, 0(t0)
 addi t0, t0, 256
 addi a0, a0, -1
 bnez a0, more
 li a7, 0
 ecall
