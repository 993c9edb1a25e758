# A stale copy that must go. Core 1 reads a word in phase 0 and keeps a copy; core 0 writes the word in phase 1, and nobody tells
# core 1; in phase 2 core 1 reads the word again, and sees 9.
# Look at `count read-req 2`: core 1 asked twice, because it dropped its copy by itself as phase 1 ended, whose tasks declare that
# they write the region. And at `count read-fwd 1`: the second time the home had no value, and passed the read on to core 0.
#   ./denovo < examples/stale-copy.s
.region shared, 1
.region seen, 2
.word shared, 0, 5
.phase
.task 1, copy, 0
.reads shared
.writes seen, 0, 1
.phase
.task 0, put, 9
.writes shared
.phase
.task 1, copy, 4
.reads shared
.writes seen, 1, 2
copy: la t0, shared
 lw t1, 0(t0)
 la t2, seen
 add t2, t2, a0
 sw t1, 0(t2)
 li a7, 0
 ecall
put: la t0, shared
 sw a0, 0(t0)
 li a7, 0
 ecall
