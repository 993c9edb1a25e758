# A program that the prover takes: no run of it can reach outside the effects that its tasks declare.
# Look at the answer `proved inside`. The task takes an index from memory, of which the prover knows nothing, and masks it; so the
# address of the load lies in the region whatever the index is.
#   ./denovo --mode prove < examples/inside.s
.region index, 1
.region table, 8
.region found, 1
.word index, 0, 0x12345675
.word table, 5, 9
.phase
.task 0, look, 0
.reads index
.reads table
.writes found
look: la t0, index
 lw t1, 0(t0)
 andi t1, t1, 7      # 0 to 7
 slli t1, t1, 2      # 0 to 28
 la t0, table
 add t0, t0, t1
 lw t2, 0(t0)
 la t0, found
 sw t2, 0(t0)
 li a7, 0
 ecall
