# Two accounts, each with a lock. Core 0 moves 30 from the first to the second, core 1 moves 5 from the second to the first, and both take the
# locks in the same order, so that neither waits for the other.
.region first, 1
.region second, 1
.lock one
.lock two
.word first, 0, 100
.word second, 0, 20
.phase
.task 0, move, 30
.gwrites one, first
.gwrites two, second
.task 1, move, -5
.gwrites one, first
.gwrites two, second
move: mv s0, a0
 li a7, 1             # acquire
 li a0, 0             # the lock one
 ecall
 li a0, 1             # the lock two
 ecall
 la t0, first
 lw t1, 0(t0)
 sub t1, t1, s0
 sw t1, 0(t0)
 la t0, second
 lw t1, 0(t0)
 add t1, t1, s0
 sw t1, 0(t0)
 li a7, 2             # release
 li a0, 1             # the lock two
 ecall
 li a0, 0             # the lock one
 ecall
 li a7, 0
 ecall
