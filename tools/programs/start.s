# Where the program begins, and the two system calls that it makes.
        .section .text.start, "ax"
        .globl  _start
_start: xorl    %ebp, %ebp
        andq    $-16, %rsp
        call    main
        movl    %eax, %edi
        movl    $60, %eax
        syscall
        .section .text.put, "ax"
        .globl  put
put:    movq    %rsi, %rdx
        movq    %rdi, %rsi
        movl    $1, %edi
        movl    $1, %eax
        syscall
        ret
