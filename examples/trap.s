# A task stores outside the effects that it declares.
# Look at `task 0 1 trap outside pc 0x00001018 value 0x10000008`: the instruction at that address wanted to store data word 2, and the
# task may write words 0 and 1 alone. Core 0's task of the same phase still finishes, and phase 1 doesn't begin. The exit code is 3.
#   ./denovo < examples/trap.s
.region m, 4
.phase
.task 0, good, 0
.writes m, 3, 4
.task 1, bad, 0
.writes m, 0, 2
.phase
.task 0, good, 0
.writes m, 3, 4
bad: la t0, m        # two words of code each
 li t1, 9
 sw t1, 0(t0)
 sw t1, 4(t0)
 sw t1, 8(t0)
good: la t0, m
 li t1, 5
 sw t1, 12(t0)
 li a7, 0
 ecall
