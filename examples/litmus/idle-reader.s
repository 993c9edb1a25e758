# A core without a task in a phase keeps a copy that the phase made stale, or isn't there to give up what it wrote.
# Where cores drop copies by themselves and an idle core leaves that out. Directories whose messages to an idle core wait.
.version 2
.region x, 16
.region y, 16
.region seen, 16
.word x, 0, 5
.phase
.task 1, both, 0
.reads x
.writes y
.writes seen
.phase
.task 0, both, 8
.writes x
.reads y
.writes seen
.phase
.task 0, put, 9
.writes x
.phase
.task 1, both, 16
.reads x
.writes y
.writes seen
both: la t0, x
 lw t1, 0(t0)
 la t2, seen
 add t2, t2, a0
 sw t1, 0(t2)
 la t0, y
 lw t1, 0(t0)
 sw t1, 4(t2)
 bnez a0, done
 li t1, 7
 sw t1, 0(t0)
done: li a7, 0
 ecall
put: la t0, x
 sw a0, 0(t0)
 li a7, 0
 ecall
