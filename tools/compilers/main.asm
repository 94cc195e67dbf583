; A table, variables, calls to another object; for nasm and yasm.
        bits 64
        global answer
        extern twice, shared
        section .text
answer: xor eax, eax
        xor ecx, ecx
.next:  add eax, [rows + rcx * 4]
        inc ecx
        cmp ecx, 4
        jne .next
        add [rel total], eax
        mov rdx, [rel address]
        mov edi, [rdx]
        call twice
        sub eax, [shared]
        sub eax, 32
        ret
        section .data
total:  dd 32
address: dq total
        section .rodata
rows:   dd 3, 4, 5, 6
