/* memcpy and memset for where there is no C library: weak, so that another definition comes first. */
    .text
    .weak memcpy
    .hidden memcpy
    .type memcpy, @function
memcpy:
    movq %rdi, %rax
    movq %rdx, %rcx
    rep movsb
    ret
    .size memcpy, . - memcpy

    .weak memset
    .hidden memset
    .type memset, @function
memset:
    movq %rdi, %r8
    movl %esi, %eax
    movq %rdx, %rcx
    rep stosb
    movq %r8, %rax
    ret
    .size memset, . - memset

    .section .note.GNU-stack, "", @progbits
