# The last holder of a lock takes it again, and keeps copies that another core has made stale since, or loses its own stores.
# Protocols with a short way for a lock's last holder.
.version 2
.region x, 16
.lock k
.phase
.task 0, go, 3
.gwrites k, x
.phase
.task 1, go, 2
.gwrites k, x
.phase
.task 0, go, 4
.gwrites k, x
.task 1, go, 1
.gwrites k, x
go: mv s0, a0
 la s1, x
again: li a0, 0
 li a7, 1
 ecall
 lw t1, 0(s1)
 addi t1, t1, 10
 sw t1, 0(s1)
 li a7, 2
 ecall
 li a7, 1
 ecall
 lw t1, 0(s1)
 addi t1, t1, 1
 sw t1, 0(s1)
 li a7, 2
 ecall
 addi s0, s0, -1
 bnez s0, again
 li a7, 0
 ecall
