# Functions that test rules of the program (planted/rules.py). What stands before the first one is shared.
	.macro	code
	.section	.text$rule,"xr"
	.endm
	.macro	function
	.section	.text$rule,"xr"
	.globl	fotsgure_aes_key_length_v2
	.def	fotsgure_aes_key_length_v2; .scl	2; .type	32; .endef
fotsgure_aes_key_length_v2:
	.endm
	.macro	read
	movl	(%rcx), %ecx
	.endm
	.macro	return
	movq	%rcx, %rax
	xorl	%ecx, %ecx
	retq
	.endm
	.section	.rdata,"dr"
	.p2align	4
.Lconstant:
	.zero	16, 15
# RULE a function that does no more than it has to | proved
	function; read; return
# RULE a read before the first constant | which aren't in a section
	function; read; movq .Lconstant-16(%rip), %rax; addq %rax, %rcx; return
# RULE a read behind the last constant | which aren't in a section
	function; read; movq .Lconstant+16(%rip), %rax; addq %rax, %rcx; return
# RULE a part of the key in the room that libc's functions may use | bytes in stack (key), from -
	function; subq $56, %rsp; movq %rcx, 48(%rsp); movq 4(%rcx), %rax; movq %rax, (%rsp)
	leaq 32(%rsp), %rcx; xorl %eax, %eax; xorl %edx, %edx; movl $8, %r8d; callq memset
	movq 48(%rsp), %rcx; movq $0, 48(%rsp); addq $56, %rsp; read; return
# RULE addresses of two functions of libc compared | compares addresses of which the distance depends on a length, or on where code lies
	function; leaq memset(%rip), %rax; leaq memcpy+96(%rip), %rdx; cmpq %rax, %rdx; je 77f; addq $1, %rcx
	77:; xorl %eax, %eax; xorl %edx, %edx; read; return
# RULE more of the stack touched than the header says | touches the stack deeper than the header says
	function; movl $30000, %eax; callq ___chkstk_ms; xorl %eax, %eax; read; return
# RULE a word of the key that ___chkstk_ms puts on the stack | bytes in stack (key), from -
	function; movq %rcx, %r11; movq 8(%rcx), %rcx; movl $8, %eax; callq ___chkstk_ms; movq %r11, %rcx
	xorl %eax, %eax; read; return
# RULE a call into the middle of memset | jumps into a function of libc, and not to its beginning
	function; movq %rcx, %r11; subq $56, %rsp; movl $5, 32(%rsp); leaq 32(%rsp), %rcx; xorl %edx, %edx
	movl $8, %r8d; callq memset+3; addq $56, %rsp; movq %r11, %rcx; read; return
# RULE the distance of code and constants as a number | has a number that depends on where code lies
	function; movl $.Lconstant-77f, %eax; 77:; shrl $14, %eax; andl $1, %eax; addq %rax, %rcx; read
	return
# RULE the place of a constant in its section as a number | has a number that depends on where code lies
	function; movl $.Lconstant@SECREL32, %eax; shrl $6, %eax; andl $1, %eax; addq %rax, %rcx; read; return
# RULE the place of a function in its section as a number | has a number that depends on where code lies
	function; movl $fotsgure_aes_key_length_v2@SECREL32, %eax; shrl $6, %eax; andl $1, %eax
	addq %rax, %rcx; read; return
# RULE the address of a constant as a number | has a number that depends on where code lies
	function; movabsq $.Lconstant, %rax; shrq $28, %rax; cmpq $0x12345, %rax; je 77f; xorl %eax, %eax
	retq; 77:; read; return
