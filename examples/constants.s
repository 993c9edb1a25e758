# What a touched bit keeps. Four cores run three phases. In each phase a core reads constants at the front of a region, as many as the
# line with the comment `constants` says, and writes four words of its own behind them. What a phase may have written is told by whole
# regions, so at the end of a phase each copy of a constant could be stale. It is marked, because the core read it by its plain effects
# in that phase, and stays.
# Look at `count read-req 64`: each core asks for each of the 16 constants once, in the first phase.
#   ./denovo < examples/constants.s
.region m, 80
.word m, 0, 5
.phase
.task 0, go, 0
.reads m, 0, 16      # constants
.writes m, 64, 68
.task 1, go, 1
.reads m, 0, 16      # constants
.writes m, 68, 72
.task 2, go, 2
.reads m, 0, 16      # constants
.writes m, 72, 76
.task 3, go, 3
.reads m, 0, 16      # constants
.writes m, 76, 80
.phase
.task 0, go, 0
.reads m, 0, 16      # constants
.writes m, 64, 68
.task 1, go, 1
.reads m, 0, 16      # constants
.writes m, 68, 72
.task 2, go, 2
.reads m, 0, 16      # constants
.writes m, 72, 76
.task 3, go, 3
.reads m, 0, 16      # constants
.writes m, 76, 80
.phase
.task 0, go, 0
.reads m, 0, 16      # constants
.writes m, 64, 68
.task 1, go, 1
.reads m, 0, 16      # constants
.writes m, 68, 72
.task 2, go, 2
.reads m, 0, 16      # constants
.writes m, 72, 76
.task 3, go, 3
.reads m, 0, 16      # constants
.writes m, 76, 80
go: la t0, m
 li t1, 16            # constants
 li t3, 0
read: lw t2, 0(t0)
 add t3, t3, t2
 addi t0, t0, 4
 addi t1, t1, -1
 bnez t1, read
 la t0, m
 addi t0, t0, 256
 slli t1, a0, 4
 add t0, t0, t1
 li t1, 4
write: sw t3, 0(t0)
 addi t0, t0, 4
 addi t1, t1, -1
 bnez t1, write
 li a7, 0
 ecall
