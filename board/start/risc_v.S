# Start-up of a RISC-V core: a stack, a place to go on a fault, data copied, bss cleared, then main.
    .option arch, +zicsr
    .section .vectors, "ax"
    .globl reset
reset:
    la sp, stack_top
    la t0, fault
    csrw mtvec, t0
    la a0, data_start
    la a1, data_kept
    la a2, data_end
    sub a2, a2, a0
    call memcpy
    la a0, bss_start
    li a1, 0
    la a2, bss_end
    sub a2, a2, a0
    call memset
    call main
    j leave

    .balign 4
fault:
    la a0, words
    call say
    li a0, 3
    j leave

words:
    .asciz "fault\n"
