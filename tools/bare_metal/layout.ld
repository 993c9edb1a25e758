/* One program in the memory of QEMU's machine virt. The marks have an address of their own, which the adapters know. */
OUTPUT_ARCH(riscv)
ENTRY(_start)
SECTIONS
{
    . = 0x80000000;
    .text : { *(.text.start) *(.text .text.*) }
    .rodata : { *(.rodata .rodata.*) *(.srodata .srodata.*) }
    . = ALIGN(4096);
    denovo_code = .;
    .task_code : { *(.task_code) }
    . = denovo_code + 0x10000;
    denovo_data = .;
    .task_data : { *(.task_data) }
    . = denovo_data + 0x40000;
    .data : { *(.data .data.*) *(.sdata .sdata.*) }
    . = 0x80100000;
    .marks (NOLOAD) : { *(.marks) }
    . = ALIGN(4096);
    .bss (NOLOAD) : { *(.bss .bss.* .sbss .sbss.* COMMON) }
}
