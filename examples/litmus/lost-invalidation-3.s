# One of three sharers isn't told, or doesn't know by itself, that another core stored to the word: it reads its old copy.
# Wherever sharers are told: directories and buses. And where cores drop copies by themselves at the end of a phase.
.version 2
.region x, 16
.region seen, 48
.word x, 0, 5
.phase
.forall 1, 3, read, 0, 0      # they use no other word, so that the copies stay, in the smallest cache too
.reads x
.phase
.task 0, put, 9
.writes x
.phase
.forall 1, 3, look, 0, 64
.reads x
.writes seen, 0, 16, 16
read: la t0, x
 lw t1, 0(t0)
 li a7, 0
 ecall
put: la t0, x
 sw a0, 0(t0)
 li a7, 0
 ecall
look: la t0, x
 lw t1, 0(t0)
 la t0, seen
 add t0, t0, a0
 sw t1, 0(t0)
 li a7, 0
 ecall
