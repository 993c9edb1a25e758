# What a signature keeps and drops. Four cores take one lock three times each. Under it a core reads all words that the lock guards, as
# many as the line with the comment `words` says, and adds 1 to a sixteenth of them that is its own. A core keeps its copies of words
# that the lock's signature doesn't hold; the more words were written, the more copies go needlessly.
# Look at `count read-req 352`: without signatures each core would ask for all 64 words again behind each of its three grants.
#   ./denovo < examples/guarded-words.s
.region shared, 512
.lock guard
.phase
.task 0, go, 0
.gwrites guard, shared
.task 1, go, 1
.gwrites guard, shared
.task 2, go, 2
.gwrites guard, shared
.task 3, go, 3
.gwrites guard, shared
go: mv s0, a0
 la s1, shared
 li s2, 64            # words
 li s3, 3
 srli s4, s2, 4
round: li a0, 0
 li a7, 1
 ecall
 mv t0, s1
 mv t1, s2
read: lw t2, 0(t0)
 addi t0, t0, 4
 addi t1, t1, -1
 bnez t1, read
 mv t0, s1
 mv t1, s0
 slli t2, s4, 2
skip: beqz t1, write
 add t0, t0, t2
 addi t1, t1, -1
 j skip
write: mv t1, s4
next: lw t2, 0(t0)
 addi t2, t2, 1
 sw t2, 0(t0)
 addi t0, t0, 4
 addi t1, t1, -1
 bnez t1, next
 li a0, 0
 li a7, 2
 ecall
 addi s3, s3, -1
 bnez s3, round
 li a7, 0
 ecall
