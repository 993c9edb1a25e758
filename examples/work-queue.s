# A work queue that the check accepts. Four cores share eight items: whoever is free takes the next one, so the order of grants decides which
# core gets which. The number of the next item is taken under the lock. What an item gives is written where only the taker may write: a core
# has places of its own for eight pairs of an item's number, from 1, and its result. In the next phase core 0 puts the results in order.
# Look at the eight words from 0x10000124 on, the results: they are the same for every seed, though the pairs before them aren't.
#   ./denovo < examples/work-queue.s
#   ./denovo --seed 2 < examples/work-queue.s
.version 2
.region items, 8
.word items, 0, 3
.word items, 1, 1
.word items, 2, 4
.word items, 3, 1
.word items, 4, 5
.word items, 5, 9
.word items, 6, 2
.word items, 7, 6
.region next, 1
.region found, 64
.region results, 8
.lock queue
.phase
.forall 0, 4, work, 0, 16
.reads items
.gwrites queue, next
.writes found, 0, 16, 16     # for each core its own 16 words
.phase
.task 0, collect, 0
.reads found
.writes results
work: la s0, found
 slli t0, a0, 2
 add s0, s0, t0       # where this core's next pair goes
take: li a0, 0
 li a7, 1             # acquire the queue
 ecall
 la t0, next
 lw s1, 0(t0)         # the item that is taken
 addi t1, s1, 1
 sw t1, 0(t0)
 li a7, 2             # release it
 ecall
 li t0, 8
 bge s1, t0, over     # none is left
 la t0, items
 slli t1, s1, 2
 add t0, t0, t1
 lw t2, 0(t0)
 slli t2, t2, 1       # the work: its double
 addi t1, s1, 1
 sw t1, 0(s0)
 sw t2, 4(s0)
 addi s0, s0, 8
 j take
over: li a7, 0
 ecall
collect: la s0, found
 la s1, results
 li s2, 32            # so many pairs may be there
pair: lw t0, 0(s0)
 beqz t0, none        # a pair that was never written
 lw t1, 4(s0)
 slli t0, t0, 2
 add t0, t0, s1
 sw t1, -4(t0)
none: addi s0, s0, 8
 addi s2, s2, -1
 bnez s2, pair
 li a7, 0
 ecall
