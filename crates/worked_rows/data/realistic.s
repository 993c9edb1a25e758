.version 2
.region a, 2048
.region b, 2048
.region c, 1
.lock k
.phase
.forall 0, 8, init, 0, 256
.writes a, 0, 256, 256
.phase
.forall 0, 8, first, 0, 256
.reads a
.writes b, 0, 256, 256
.phase
.forall 0, 8, second, 0, 256
.reads b
.writes a, 0, 256, 256
.phase
.forall 0, 8, first, 0, 256
.reads a
.writes b, 0, 256, 256
.phase
.forall 0, 8, second, 0, 256
.reads b
.writes a, 0, 256, 256
.phase
.forall 0, 8, sum, 0, 256
.reads a, 0, 256, 256
.gwrites k, c
init:
la t0, a
slli t1, a0, 2
add t0, t0, t1
li t2, 256
slli t3, a0, 1
add t3, t3, a0
addi t3, t3, 1
i1:
sw t3, 0(t0)
addi t3, t3, 3
addi t0, t0, 4
addi t2, t2, -1
bnez t2, i1
li a7, 0
ecall
first:
la s0, a
la s1, b
j body
second:
la s0, b
la s1, a
body:
li t2, 256
li t4, 2048
mv t1, a0
b1:
slli t5, t1, 2
add t6, s0, t5
lw a1, 0(t6)
addi t3, t1, 1
bne t3, t4, b2
mv t3, zero
b2:
slli a2, t3, 2
add a2, s0, a2
lw a3, 0(a2)
add a1, a1, a3
add t6, s1, t5
sw a1, 0(t6)
addi t1, t1, 1
addi t2, t2, -1
bnez t2, b1
li a7, 0
ecall
sum:
la t0, a
slli t1, a0, 2
add t0, t0, t1
li t2, 256
mv t3, zero
s1:
lw t4, 0(t0)
add t3, t3, t4
addi t0, t0, 4
addi t2, t2, -1
bnez t2, s1
mv a0, zero
li a7, 1
ecall
la t0, c
lw t4, 0(t0)
add t4, t4, t3
sw t4, 0(t0)
li a7, 2
ecall
li a7, 0
ecall
