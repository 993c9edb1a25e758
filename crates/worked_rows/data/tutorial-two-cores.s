# The tutorial's second program: two cores copy two words each. A task's argument, in a0, is where its half begins, in bytes.
#   ./denovo < examples/tutorial-two-cores.s
.region from, 4
.word from, 0, 10
.word from, 1, 20
.word from, 2, 30
.word from, 3, 40
.region to, 4
.phase
.task 0, copy, 0
.reads from, 0, 2
.writes to, 0, 2
.task 1, copy, 8
.reads from, 2, 4
.writes to, 2, 4
copy: la t0, from
 la t1, to
 add t0, t0, a0
 add t1, t1, a0
 li t2, 2            # words left
again: lw t3, 0(t0)
 sw t3, 0(t1)
 addi t0, t0, 4
 addi t1, t1, 4
 addi t2, t2, -1
 bnez t2, again
 li a7, 0            # finish
 ecall
