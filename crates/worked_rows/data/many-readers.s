# How many copies a writer needn't tell. The cores 1 to 15 read 16 words in the first phase, as many of them as the number in the line
# with the comment `readers` says, and core 0 writes the words in the second phase. A home with a list of sharers would have to tell
# each copy of each word; here nobody is told. If a third phase followed, each reader would drop its copies by itself when it begins.
# Look at `count reg-req 31`: 16 of them are core 0's, 15 the readers' own; and `count reg-fwd 0`: no message goes to a reader.
#   ./denovo < examples/many-readers.s
.region shared, 16
.region seen, 16
.phase
.task 1, read, 1
.reads shared
.writes seen, 1, 2
.task 2, read, 2
.reads shared
.writes seen, 2, 3
.task 3, read, 3
.reads shared
.writes seen, 3, 4
.task 4, read, 4
.reads shared
.writes seen, 4, 5
.task 5, read, 5
.reads shared
.writes seen, 5, 6
.task 6, read, 6
.reads shared
.writes seen, 6, 7
.task 7, read, 7
.reads shared
.writes seen, 7, 8
.task 8, read, 8
.reads shared
.writes seen, 8, 9
.task 9, read, 9
.reads shared
.writes seen, 9, 10
.task 10, read, 10
.reads shared
.writes seen, 10, 11
.task 11, read, 11
.reads shared
.writes seen, 11, 12
.task 12, read, 12
.reads shared
.writes seen, 12, 13
.task 13, read, 13
.reads shared
.writes seen, 13, 14
.task 14, read, 14
.reads shared
.writes seen, 14, 15
.task 15, read, 15
.reads shared
.writes seen, 15, 16
.phase
.task 0, write, 7
.writes shared
read: li t0, 15      # readers
 bltu t0, a0, done
 la t0, shared
 li t1, 16
 li t3, 0
more: lw t2, 0(t0)
 add t3, t3, t2
 addi t0, t0, 4
 addi t1, t1, -1
 bnez t1, more
 la t0, seen
 slli t1, a0, 2
 add t0, t0, t1
 sw t3, 0(t0)
done: li a7, 0
 ecall
write: la t0, shared
 li t1, 16
each: sw a0, 0(t0)
 addi t0, t0, 4
 addi t1, t1, -1
 bnez t1, each
 li a7, 0
 ecall
