# Where each virtual CPU begins: its number in rdi, how many there are in rsi, how often the BAR is to move in rdx; it takes its own stack.
.globl _start
_start:
    mov %rdi, %rax
    shl $12, %rax
    lea stacks+4096(%rax), %rsp
    call guest
.bss
.align 4096
stacks:
    .skip 8 * 4096
.section .note.GNU-stack, "", @progbits
