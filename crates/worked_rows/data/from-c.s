# A text made from C: the words of histogram.c, with a stack for each core. docs/FROM_C.md says how it was made.
#   ./denovo < examples/from-c.s
.region numbers, 32
.region counts, 8
.lock sums
.region guard_0, 128
.region stack_0, 64
.region guard_1, 128
.region stack_1, 64
.phase
.task 0, fill_on_0, 0
.writes stack_0
.writes numbers, 0, 16
.task 1, fill_on_1, 16
.writes stack_1
.writes numbers, 16, 32
.phase
.task 0, count_on_0, 0
.writes stack_0
.reads numbers, 0, 16
.gwrites sums, counts
.task 1, count_on_1, 16
.writes stack_1
.reads numbers, 16, 32
.gwrites sums, counts
fill_on_0:
 la sp, stack_0
 li t0, 256
 add sp, sp, t0
 jal ra, fill
 li a7, 0
 ecall
fill_on_1:
 la sp, stack_1
 li t0, 256
 add sp, sp, t0
 jal ra, fill
 li a7, 0
 ecall
count_on_0:
 la sp, stack_0
 li t0, 256
 add sp, sp, t0
 jal ra, count
 li a7, 0
 ecall
count_on_1:
 la sp, stack_1
 li t0, 256
 add sp, sp, t0
 jal ra, count
 li a7, 0
 ecall
fill:
 .raw 0xfe010113  # add sp,sp,-32
 .raw 0x01212823  # sw s2,16(sp)
 .raw 0x10000937  # lui s2,0x10000
 .raw 0x00812c23  # sw s0,24(sp)
 .raw 0x01312623  # sw s3,12(sp)
 .raw 0x00112e23  # sw ra,28(sp)
 .raw 0x00912a23  # sw s1,20(sp)
 .raw 0x00050413  # mv s0,a0
 .raw 0x01050993  # add s3,a0,16
 .raw 0x00090913  # mv s2,s2
 .raw 0x00241493  # sll s1,s0,0x2
 .raw 0x00040593  # mv a1,s0
 .raw 0x00040513  # mv a0,s0
 .raw 0x012484b3  # add s1,s1,s2
 .raw 0x00000097  # auipc ra,0x0
 .raw 0x0e8080e7  # jalr 232(ra) # 11b0 <__mulsi3>
 .raw 0x00a4a023  # sw a0,0(s1)
 .raw 0x00140413  # add s0,s0,1
 .raw 0xff3410e3  # bne s0,s3,10b8 <fill+0x28>
 .raw 0x01c12083  # lw ra,28(sp)
 .raw 0x01812403  # lw s0,24(sp)
 .raw 0x01412483  # lw s1,20(sp)
 .raw 0x01012903  # lw s2,16(sp)
 .raw 0x00c12983  # lw s3,12(sp)
 .raw 0x02010113  # add sp,sp,32
 .raw 0x00008067  # ret
count:
 .raw 0x100007b7  # lui a5,0x10000
 .raw 0xfe010113  # add sp,sp,-32
 .raw 0x00251513  # sll a0,a0,0x2
 .raw 0x00078793  # mv a5,a5
 .raw 0x00012023  # sw zero,0(sp)
 .raw 0x00012223  # sw zero,4(sp)
 .raw 0x00012423  # sw zero,8(sp)
 .raw 0x00012623  # sw zero,12(sp)
 .raw 0x00012823  # sw zero,16(sp)
 .raw 0x00012a23  # sw zero,20(sp)
 .raw 0x00012c23  # sw zero,24(sp)
 .raw 0x00012e23  # sw zero,28(sp)
 .raw 0x00f50533  # add a0,a0,a5
 .raw 0x00000713  # li a4,0
 .raw 0x01000613  # li a2,16
 .raw 0x00052783  # lw a5,0(a0)
 .raw 0x00170713  # add a4,a4,1
 .raw 0x00450513  # add a0,a0,4
 .raw 0x0077f793  # and a5,a5,7
 .raw 0x00279793  # sll a5,a5,0x2
 .raw 0x02078793  # add a5,a5,32 # 10000020 <numbers+0x20>
 .raw 0x002787b3  # add a5,a5,sp
 .raw 0xfe07a683  # lw a3,-32(a5)
 .raw 0x00168693  # add a3,a3,1
 .raw 0xfed7a023  # sw a3,-32(a5)
 .raw 0xfcc71ce3  # bne a4,a2,1134 <count+0x3c>
 .raw 0x00000513  # li a0,0
 .raw 0x00100893  # li a7,1
 .raw 0x00000073  # ecall
 .raw 0x100007b7  # lui a5,0x10000
 .raw 0x08078793  # add a5,a5,128 # 10000080 <counts>
 .raw 0x00000713  # li a4,0
 .raw 0x02000613  # li a2,32
 .raw 0x00e105b3  # add a1,sp,a4
 .raw 0x0007a683  # lw a3,0(a5)
 .raw 0x0005a583  # lw a1,0(a1)
 .raw 0x00470713  # add a4,a4,4
 .raw 0x00478793  # add a5,a5,4
 .raw 0x00b686b3  # add a3,a3,a1
 .raw 0xfed7ae23  # sw a3,-4(a5)
 .raw 0xfec712e3  # bne a4,a2,117c <count+0x84>
 .raw 0x00000513  # li a0,0
 .raw 0x00200893  # li a7,2
 .raw 0x00000073  # ecall
 .raw 0x02010113  # add sp,sp,32
 .raw 0x00008067  # ret
__mulsi3:
 .raw 0x00050613  # mv a2,a0
 .raw 0x00000513  # li a0,0
 .raw 0x0015f693  # and a3,a1,1
 .raw 0x00068463  # beqz a3,11c4 <__mulsi3+0x14>
 .raw 0x00c50533  # add a0,a0,a2
 .raw 0x0015d593  # srl a1,a1,0x1
 .raw 0x00161613  # sll a2,a2,0x1
 .raw 0xfe0596e3  # bnez a1,11b8 <__mulsi3+0x8>
 .raw 0x00008067  # ret
