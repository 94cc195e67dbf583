# A kernel's first steps: a Multiboot header, page tables for the first gigabyte at 0 and in the top two gigabytes, long
# mode, and a jump to the higher half. BASE is how far addresses are from where the bytes are loaded.
        .set    BASE, 0xffffffff80000000

        .section .multiboot, "a"
        .balign 4
header: .long   0x1BADB002                      # magic
        .long   0x00010000                      # the addresses below are given
        .long   -(0x1BADB002 + 0x00010000)      # checksum
        .long   header - BASE                   # header_addr
        .long   load_start                      # load_addr
        .long   load_end                        # load_end_addr
        .long   bss_end                         # bss_end_addr
        .long   start - BASE                    # entry_addr

        .section .text.start, "ax"
        .code32
        .globl  start
start:  cli
        movl    $(tables - BASE), %edi          # three tables: PML4, PDPT, PD
        leal    4096(%edi), %eax
        orl     $3, %eax
        movl    %eax, (%edi)                    # PML4[0]
        movl    %eax, 4088(%edi)                # PML4[511]
        leal    8192(%edi), %eax
        orl     $3, %eax
        movl    %eax, 4096(%edi)                # PDPT[0]
        movl    %eax, 8176(%edi)                # PDPT[510]
        movl    $0x83, %eax                     # PD: 512 pages of 2 MiB
        xorl    %ecx, %ecx
1:      movl    %eax, 8192(%edi,%ecx,8)
        addl    $0x200000, %eax
        incl    %ecx
        cmpl    $512, %ecx
        jne     1b
        movl    %edi, %cr3
        movl    %cr4, %eax
        orl     $0x20, %eax                     # PAE
        movl    %eax, %cr4
        movl    $0xC0000080, %ecx               # EFER.LME
        rdmsr
        orl     $0x100, %eax
        wrmsr
        movl    %cr0, %eax
        orl     $0x80000000, %eax               # paging
        movl    %eax, %cr0
        lgdt    (descriptor - BASE)
        ljmp    $8, $(long_mode - BASE)

        .code64
long_mode:
        movw    $16, %ax
        movw    %ax, %ds
        movw    %ax, %es
        movw    %ax, %ss
        movq    $higher, %rax
        jmp     *%rax
higher: movq    $stack_top, %rsp
        call    kernel_main
1:      hlt
        jmp     1b

        .section .rodata.boot, "a"
        .balign 8
table:  .quad   0, 0x00AF9A000000FFFF, 0x00CF92000000FFFF
descriptor:
        .word   23
        .long   table - BASE

        .section .bss.boot, "aw", @nobits
        .balign 4096
tables: .skip   3 * 4096
        .skip   16384
stack_top:
