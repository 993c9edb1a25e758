# A stale copy under a lock. Core 0 reads a word twice, each time under the lock that guards it; core 1 writes the word under the
# lock, once. The lock carries a signature of the words that were written under it in the phase, and whoever is granted the lock
# drops the copies of its words that the signature may hold: no phase ends here, so nothing else would take them.
# Look at the lines `grant 0 CORE 0` and at `count read-req`:
# - by seed 1 core 1 has the lock between core 0's two times: core 0 asked twice (`count read-req 2`), and read 5 and then 9;
# - by seed 86 core 1 has the lock last: the signature is empty, one request serves both reads (`count read-req 1`), which are 5 and 5;
# - by seed 2 core 1 has it first: core 0 reads 9 and 9, and still asks twice. The signature says what was written in the phase, not
#   what was written since core 0's copy was made, so a good copy may go too.
#   ./denovo --seed 1 < examples/signature.s
#   ./denovo --seed 86 < examples/signature.s
#   ./denovo --seed 2 < examples/signature.s
.region shared, 1
.region seen, 2
.word shared, 0, 5
.lock guard
.phase
.task 0, reader, 0
.greads guard, shared
.writes seen
.task 1, writer, 9
.gwrites guard, shared
reader: la t0, shared
 la t1, seen
 li a7, 1
 ecall
 lw t2, 0(t0)
 sw t2, 0(t1)
 li a7, 2
 ecall
 li a7, 1
 ecall
 lw t2, 0(t0)
 sw t2, 4(t1)
 li a7, 2
 ecall
 li a7, 0
 ecall
writer: mv t1, a0
 la t0, shared
 li a0, 0
 li a7, 1
 ecall
 sw t1, 0(t0)
 li a7, 2
 ecall
 li a7, 0
 ecall
