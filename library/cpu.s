# The calls of the library as a program reaches them. ./build links this with the proved code.
#
# A call refuses null pointers, which the proved code must not be given: the outcome is FLOWSHOP_NULL, at place 0. The
# proved code is compiled for x86-64-v2. So a call then tests the processor, once, by instructions of every x86-64
# processor. Where it has what is needed, the call goes on to the proved code, with the stack and the arguments as the
# caller left them. Else the outcome is FLOWSHOP_CPU, at place 0. Threads may test at once: all find and write the same.
# Nothing of this is proved.

# The beginning of a call. It has a section of its own, so that a linker can leave it out where nobody makes it.
.macro begin name
        .section .text.\name, "ax", @progbits
        .globl \name
        .type \name, @function
        .balign 16
\name:
.endm

# Tests the pointers of a call, which are in registers or in the records that these point to, and goes on.
.macro go_on name, pointers:vararg
        .irp pointer, \pointers
        cmpq $0, \pointer
        je is_null
        .endr
        cmpb $0, is_enough(%rip)
        jne proved_\name
        leaq proved_\name(%rip), %r11
        jmp test_processor
        .size \name, . - \name
.endm

.macro entry name, pointers:vararg
        begin \name
        go_on \name, \pointers
.endm

# A call whose seventh argument, on the stack, is a record that begins with a pointer.
.macro entry_with_text name, pointers:vararg
        begin \name
        movq 8(%rsp), %r11
        go_on \name, \pointers, %r11, (%r11)
.endm

        .local is_enough
        .comm is_enough, 1 # 1 where a test has found all that is needed

# Tests the processor, and then goes to the code at %r11. cpuid writes to %rbx, %rcx and %rdx too.
        .text
        .type test_processor, @function
        .balign 16
test_processor:
        movq %rbx, %xmm0
        movq %rcx, %xmm1
        movq %rdx, %xmm2
        movl $0x80000001, %eax
        cpuid
        movl %ecx, %r10d
        movl $1, %eax
        cpuid
        notl %ecx
        notl %r10d
        andl $0x982201, %ecx # bits 0, 9, 13, 19, 20, 23: SSE3, SSSE3, CMPXCHG16B, SSE4.1, SSE4.2, POPCNT
        andl $1, %r10d # bit 0: LAHF and SAHF
        orl %ecx, %r10d
        movq %xmm0, %rbx
        movq %xmm1, %rcx
        movq %xmm2, %rdx
        jnz .Lis_lacking
        movb $1, is_enough(%rip)
        jmp *%r11
.Lis_lacking:
        movl $3, %eax
        xorl %edx, %edx
        ret
        .size test_processor, . - test_processor

# The outcome of a call with a null pointer.
        .type is_null, @function
is_null:
        movl $4, %eax
        xorl %edx, %edx
        ret
        .size is_null, . - is_null

# A shop is in %rdi, and its times at 8(%rdi); its sequence in %rsi. A record of results begins with a pointer.
        entry flowshop_limits, %rdi
        entry flowshop_generate, %rcx
        entry flowshop_block, %rdi, %rcx, 8(%rcx)
        entry flowshop_makespan, %rdi, 8(%rdi), %rsi, %rcx
        entry flowshop_makespans, %rdi, 8(%rdi), %rsi, %rcx
        entry flowshop_timetable, %rdi, 8(%rdi), %rsi, %rcx, (%rcx), 16(%rcx)
        entry flowshop_picture, %rdi, 8(%rdi), %rsi, %r8, (%r8)
        entry flowshop_neh, %rdi, 8(%rdi), %rsi, (%rsi)
        entry flowshop_improve, %rdi, 8(%rdi), %rsi, %rcx, %r8, (%r8)
        entry flowshop_check, %rdi, 8(%rdi), %rsi, %rcx, (%rcx)
        entry flowshop_check_within, %rdi, 8(%rdi), %rsi, %r8, (%r8)
        entry flowshop_solve, %rdi, 8(%rdi), %rsi, %rcx, %r8, (%r8), %r9, (%r9)
        entry_with_text flowshop_certify, %rdi, 8(%rdi), %rsi, %rcx, %r9, (%r9)
        entry flowshop_run, %rdi, 8(%rdi), %rsi, %r9
        entry flowshop_run_next, %rdi, %rsi, %rdx
        entry flowshop_run_put, %rdi, %rsi, %rdx, %rcx
        entry_with_text flowshop_run_text, %rdi, 8(%rdi), %rsi, %r8
        entry flowshop_run_counted, %rdi, 8(%rdi), %rsi, %r9, (%r9)
        entry flowshop_search, %rsi, %rcx
        entry flowshop_search_give, %rdi, %rsi, %rcx
        entry flowshop_search_put, %rdi, %rsi, %r8, %r9
        entry flowshop_search_found, %rdi, %rsi, %rdx
        entry flowshop_prove, %rdi, 8(%rdi), %rsi, (%rsi), 16(%rsi), %rcx, (%rcx), 16(%rcx), 32(%rcx)
        entry flowshop_tally, %rdi, 8(%rdi), %rsi, (%rsi), 16(%rsi), %r8, (%r8), 32(%r8)
        entry flowshop_beam, %rdi, 8(%rdi), %rsi, %rcx, %r8, (%r8)
        entry flowshop_rounds, %rdi, 8(%rdi), %rsi, %rcx, %r8, (%r8)

        .section .note.GNU-stack, "", @progbits
