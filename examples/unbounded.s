# A program that the prover doesn't take, though its runs end well.
# Look at the answer `unbounded 0 0 0x0000101c`: the load at that address, of the task of phase 0 on core 0, may have any address, for
# all that the text says of the index. What the words of the memory are isn't looked at: the mode run ends with `outcome done`.
#   ./denovo --mode prove < examples/unbounded.s
#   ./denovo < examples/unbounded.s
.region index, 1
.region table, 8
.region found, 1
.word index, 0, 5
.word table, 5, 9
.phase
.task 0, look, 0
.reads index
.reads table
.writes found
look: la t0, index
 lw t1, 0(t0)
 slli t1, t1, 2
 la t0, table
 add t0, t0, t1
 lw t2, 0(t0)
 la t0, found
 sw t2, 0(t0)
 li a7, 0
 ecall
