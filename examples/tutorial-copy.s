# The tutorial's first program: one core copies a region of four words into another.
#   ./denovo < examples/tutorial-copy.s
.region from, 4
.word from, 0, 10
.word from, 1, 20
.word from, 2, 30
.word from, 3, 40
.region to, 4
.phase
.task 0, copy, 0
.reads from
.writes to
copy: la t0, from
 la t1, to
 li t2, 4            # words left
again: lw t3, 0(t0)
 sw t3, 0(t1)
 addi t0, t0, 4
 addi t1, t1, 4
 addi t2, t2, -1
 bnez t2, again
 li a7, 0            # finish
 ecall
