# Cores wait for a lock that is held for long. One of them is forgotten, or two get the lock at once.
# All lock queues, above all those with three and more that wait.
.version 2
.region x, 16
.lock k
.phase
.forall 0, 6, go, 1, 1
.gwrites k, x
go: mv s0, a0
 la s1, x
 li a0, 0
 li a7, 1
 ecall
 lw t1, 0(s1)
 li t2, 40
wait: addi t2, t2, -1
 bnez t2, wait
 add t1, t1, s0
 sw t1, 0(s1)
 li a0, 0
 li a7, 2
 ecall
 li a7, 0
 ecall
