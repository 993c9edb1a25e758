# Where a hart begins, and where it comes from a task: registers are kept in the hart's frame, which lies above its stack.
    .option norvc
    .section .text.start, "ax"
    .globl _start
_start:
    csrr a0, mhartid
    li t0, 16
    bgeu a0, t0, parked
    la t0, denovo_cores
    lw t0, 0(t0)
    srl t0, t0, a0
    andi t0, t0, 1
    beqz t0, parked
    la sp, stacks
    addi t0, a0, 1
    slli t0, t0, 12
    add sp, sp, t0
    addi sp, sp, -128
    csrw mscratch, sp
    la t0, enter
    csrw mtvec, t0
    mv a1, sp
    call begin
    j leave

parked:                     # a hart without a task in any phase
    wfi
    j parked

    .balign 4
enter:                      # mscratch has the frame, and sp is the task's
    csrrw sp, mscratch, sp
    .irp number, 1, 3, 4, 5, 6, 7, 8, 9, 10, 11, 12, 13, 14, 15, 16, 17, 18, 19, 20, 21, 22, 23, 24, 25, 26, 27, 28, 29, 30, 31
    sw x\number, 4 * \number(sp)
    .endr
    csrr t0, mscratch
    sw t0, 8(sp)
    csrw mscratch, sp
    mv a0, sp
    call handle
leave:
    .irp number, 1, 3, 4, 5, 6, 7, 8, 9, 10, 11, 12, 13, 14, 15, 16, 17, 18, 19, 20, 21, 22, 23, 24, 25, 26, 27, 28, 29, 30, 31
    lw x\number, 4 * \number(sp)
    .endr
    lw sp, 8(sp)
    mret

    .section .bss
    .balign 4096
stacks:
    .zero 16 * 4096
