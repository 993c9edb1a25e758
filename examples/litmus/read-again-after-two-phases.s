# A copy outlives the phase in which its word was written, since its core looks only at the phase that has just ended.
# Where cores drop copies by themselves by what a phase wrote. Sharers that are told a phase late show it too.
.version 2
.region x, 16
.region own, 16
.region seen, 16
.word x, 0, 5
.phase
.task 1, read, 0
.reads x
.phase
.task 0, put, 9
.writes x
.task 1, work, 1
.writes own
.phase
.task 1, work, 2
.writes own
.phase
.task 1, look, 0
.reads x
.writes seen
read: la t0, x
 lw t1, 0(t0)
 li a7, 0
 ecall
put: la t0, x
 sw a0, 0(t0)
 li a7, 0
 ecall
work: la t0, own
 lw t1, 60(t0)        # 124 bytes behind x: in no cache with two sets or more does it share the set of x
 add t1, t1, a0
 sw t1, 60(t0)
 li a7, 0
 ecall
look: la t0, x
 lw t1, 0(t0)
 la t0, seen
 sw t1, 0(t0)
 li a7, 0
 ecall
