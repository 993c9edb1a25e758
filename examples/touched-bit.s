# A copy that stays though its region was written. Core 0 reads the first word of a region in the phases 0, 1 and 3; core 1 writes
# the second word in the phases 0, 1 and 2. What a phase may have written is told by whole regions, so each of these ends could take
# core 0's copy. But a word that a task has read by its plain effects was written by no other task of that phase, so its copy is marked
# (the touched bit), and a marked copy outlives the end of the phase, and loses its mark.
# Look at `count read-req 2`: the copy outlives the phases 0 and 1, in which core 0 read it, and goes at the end of phase 2, in which
# core 0 has no task.
#   ./denovo < examples/touched-bit.s
.region m, 2
.word m, 0, 5
.phase
.task 0, get, 0
.reads m, 0, 1
.task 1, put, 7
.writes m, 1, 2
.phase
.task 0, get, 0
.reads m, 0, 1
.task 1, put, 8
.writes m, 1, 2
.phase
.task 1, put, 9
.writes m, 1, 2
.phase
.task 0, get, 0
.reads m, 0, 1
get: la t0, m
 lw t1, 0(t0)
 li a7, 0
 ecall
put: la t0, m
 sw a0, 4(t0)
 li a7, 0
 ecall
