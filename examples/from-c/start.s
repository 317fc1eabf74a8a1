# The start of a task that is written in C: the stack is at the end of the data, main is called, and its result is the exit code.
    .section .text.start
    .globl _start
_start:
    lui sp, %hi(stack_top)
    addi sp, sp, %lo(stack_top)
    jal ra, main
    li a7, 0
    ecall
