# The race mended by intervals: each core stores its half's sum in a word of its own, and a second phase adds the two.
#   ./denovo < examples/tutorial-intervals.s
.region from, 4
.word from, 0, 10
.word from, 1, 20
.word from, 2, 30
.word from, 3, 40
.region halves, 2
.region sum, 1
.phase
.task 0, add, 0
.reads from, 0, 2
.writes halves, 0, 1
.task 1, add, 1
.reads from, 2, 4
.writes halves, 1, 2
.phase
.task 0, join, 0
.reads halves
.writes sum
add: la t0, from
 slli t3, a0, 3      # a half is two words, 8 bytes
 add t0, t0, t3
 lw t1, 0(t0)
 lw t2, 4(t0)
 add t1, t1, t2      # the sum of this half
 la t0, halves
 slli t3, a0, 2
 add t0, t0, t3
 sw t1, 0(t0)
 li a7, 0            # finish
 ecall
join: la t0, halves
 lw t1, 0(t0)
 lw t2, 4(t0)
 add t1, t1, t2
 la t0, sum
 sw t1, 0(t0)
 li a7, 0
 ecall
