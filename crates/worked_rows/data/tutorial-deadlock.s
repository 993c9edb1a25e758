# The tutorial's deadlock: core 0 takes the lock of the debit and then that of the credit, and core 1 the other way round.
#   ./denovo < examples/tutorial-deadlock.s
#   ./denovo --seed 6 < examples/tutorial-deadlock.s
.region debit, 1
.region credit, 1
.lock debits
.lock credits
.phase
.task 0, move, 0x0100    # the locks' numbers, the first one in the low byte
.gwrites debits, debit
.gwrites credits, credit
.task 1, move, 0x0001
.gwrites debits, debit
.gwrites credits, credit
move: andi t0, a0, 1     # the first lock
 srli t1, a0, 8          # the second one
 mv a0, t0
 li a7, 1                # acquire the first
 ecall
 mv a0, t1
 ecall                   # and the second
 la t2, debit
 lw t3, 0(t2)
 addi t3, t3, -5
 sw t3, 0(t2)
 la t2, credit
 lw t3, 0(t2)
 addi t3, t3, 5
 sw t3, 0(t2)
 li a7, 2                # release the second
 ecall
 mv a0, t0
 ecall                   # and the first
 li a7, 0                # finish
 ecall
