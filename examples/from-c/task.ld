/* Where the code and the data of a task stand: of task 0, or of the task whose number -Wl,--defsym=task_number=N gives. */
OUTPUT_ARCH(riscv)
ENTRY(_start)
number = DEFINED(task_number) ? task_number : 0;
data_words = 256;
stack_top = 0x108000 + 0x10000 * number + 4 * data_words;
SECTIONS {
    .text 0x100000 + 0x10000 * number : { *(.text.start) *(.text .text.*) *(.rodata .rodata.* .srodata .srodata.*) . = ALIGN(4); }
    .bss 0x108000 + 0x10000 * number (NOLOAD) : { *(.sbss .sbss.*) *(.bss .bss.*) *(COMMON) }
    .data : { *(.data .data.* .sdata .sdata.*) }
    /DISCARD/ : { *(.comment) *(.riscv.attributes) *(.eh_frame*) *(.note*) }
}
ASSERT(SIZEOF(.data) == 0, "a task's data begins as 0: no variable may have another first value")
ASSERT(SIZEOF(.text) <= 4 * 4096, "a task has at most 4096 words of code")
