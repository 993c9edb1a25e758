# Two cores read one word, twice each, and none knows of the other.
# Look at `count read-req 2`: each core asked the word's home once, in phase 0, and kept a copy; in phase 1 both read their copies, and
# sent nothing. The home keeps no list of the two copies: no message tells anybody of them, and none has to go when they are dropped.
#   ./denovo < examples/read-sharing.s
.region shared, 1
.region seen, 4
.word shared, 0, 7
.phase
.task 0, copy, 0
.reads shared
.writes seen, 0, 1
.task 1, copy, 4
.reads shared
.writes seen, 1, 2
.phase
.task 0, copy, 8
.reads shared
.writes seen, 2, 3
.task 1, copy, 12
.reads shared
.writes seen, 3, 4
copy: la t0, shared
 lw t1, 0(t0)
 la t2, seen
 add t2, t2, a0       # the argument: the offset of the task's own word
 sw t1, 0(t2)
 li a7, 0
 ecall
