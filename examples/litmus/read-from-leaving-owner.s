# Owner and readers use words of a line that is on its way home: the owner misses on it again, and readers are sent to it.
# Where an evicted line is kept until the home has answered, in lines of at least 16 bytes. Caches of at most 4 ways of at most 256 bytes.
.version 2
.region a, 320
.region seen, 64
.phase
.task 0, fill, 3
.writes a, 0, 64
.phase
.task 0, evict, 3
.writes a, 64, 320
.writes a, 0, 1
.writes a, 16, 17
.writes a, 32, 33
.writes a, 48, 49
.forall 1, 3, read, 0, 64
.reads a, 1, 16
.reads a, 17, 32
.reads a, 33, 48
.reads a, 49, 64
.writes seen, 0, 16, 16
fill: la t0, a
 li t1, 4
one: sw a0, 0(t0)
 addi t2, a0, 10
 sw t2, 4(t0)
 addi t0, t0, 64
 addi t1, t1, -1
 bnez t1, one
 li a7, 0
 ecall
evict: la s0, a
 li s1, 4
each: mv t0, s0
 li t1, 4
two: addi t0, t0, 256
 sw a0, 0(t0)
 addi t1, t1, -1
 bnez t1, two
 lw t2, 0(s0)
 addi t2, t2, 1
 sw t2, 0(s0)
 addi s0, s0, 64
 addi s1, s1, -1
 bnez s1, each
 li a7, 0
 ecall
read: la t0, a
 li t1, 4
 li t3, 0
three: lw t2, 4(t0)
 add t3, t3, t2
 addi t0, t0, 64
 addi t1, t1, -1
 bnez t1, three
 la t0, seen
 add t0, t0, a0
 sw t3, 0(t0)
 li a7, 0
 ecall
