# A sum in two phases: each of four cores fills and adds up its quarter of a and stores its part, and then core 0 adds the four parts.
.region a, 64
.region part, 4
.region total, 1
.phase
.task 0, quarter, 0
.writes a, 0, 16
.writes part, 0, 1
.task 1, quarter, 1
.writes a, 16, 32
.writes part, 1, 2
.task 2, quarter, 2
.writes a, 32, 48
.writes part, 2, 3
.task 3, quarter, 3
.writes a, 48, 64
.writes part, 3, 4
.phase
.task 0, add, 0
.reads part
.writes total
quarter: la t0, a
 slli t1, a0, 4
 slli t2, t1, 2
 add t0, t0, t2
 li t3, 16
 li t4, 0
fill: sw t1, 0(t0)
 lw t5, 0(t0)
 add t4, t4, t5
 addi t0, t0, 4
 addi t1, t1, 1
 addi t3, t3, -1
 bne t3, zero, fill
 la t0, part
 slli t1, a0, 2
 add t0, t0, t1
 sw t4, 0(t0)
 li a7, 0
 ecall
add: la t0, part
 li t1, 0
 li t3, 4
next: lw t2, 0(t0)
 add t1, t1, t2
 addi t0, t0, 4
 addi t3, t3, -1
 bne t3, zero, next
 la t0, total
 sw t1, 0(t0)
 li a7, 0
 ecall
