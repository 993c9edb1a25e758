# Two tasks of one phase use a word, and one of them writes it, under no lock. The check refuses the text before it runs: there would
# be no one answer, and no end of a phase after which a copy may go.
# Look at the one line that is written: `refused check phase 0 plain-conflict cores 0 1 word 1`. Core 0's task may write data word 1,
# which core 1's task may read. The exit code is 2. With `.writes m, 0, 1` for core 0 the text is taken.
#   ./denovo < examples/conflict.s
.region m, 2
.phase
.task 0, put, 9
.writes m, 0, 2
.task 1, get, 0
.reads m, 1, 2
put: la t0, m
 sw a0, 0(t0)
 li a7, 0
 ecall
get: la t0, m
 lw t1, 4(t0)
 li a7, 0
 ecall
