# A table, variables, calls to another object.
	.globl	answer
answer:	xorl	%eax, %eax
	xorl	%ecx, %ecx
1:	addl	rows(,%rcx,4), %eax
	incl	%ecx
	cmpl	$4, %ecx
	jne	1b
	addl	%eax, total(%rip)
	movq	address, %rdx
	movl	(%rdx), %edi
	call	twice
	subl	shared, %eax
	subl	$32, %eax
	ret
	.data
total:	.long	32
address:	.quad	total
	.section .rodata
rows:	.long	3, 4, 5, 6
