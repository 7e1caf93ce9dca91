# Functions that test rules of the program (planted/rules.py). What stands before the first one is shared.
	.macro	code
	.section	.text.rule,"ax",@progbits
	.endm
	.macro	function
	.section	.text.rule,"ax",@progbits
	.globl	fotsgure_aes_key_length_v3
	.hidden	fotsgure_aes_key_length_v3
	.type	fotsgure_aes_key_length_v3,@function
fotsgure_aes_key_length_v3:
	endbr64
	.endm
	.macro	read
	movl	(%rdi), %ecx
	.endm
	.macro	return
	movq	%rcx, %rax
	xorl	%ecx, %ecx
	retq
	.endm
	.section	".note.GNU-stack","",@progbits
	.section	".note.gnu.property","a",@note
	.p2align	3, 0x0
	.long	4, 16, 5
	.asciz	"GNU"
	.long	0xc0000002, 4, 3, 0
# RULE a function that does no more than it has to | proved
	function; read; return
# RULE round keys in the higher half of a register over memset | bytes in registers (key), in vector
	function; movq %rdi, %r11; read; movq %rcx, %rax; xorl %ecx, %ecx; subq $24, %rsp; movq %rax, 16(%rsp)
	vmovdqu 4(%r11), %ymm0; xorl %esi, %esi; xorl %edx, %edx; movq %rsp, %rdi
	callq *memset@GOTPCREL(%rip); movq $0, (%rsp); movq $0, 8(%rsp); movq 16(%rsp), %rax; addq $24, %rsp
	xorl %ecx, %ecx; xorl %edx, %edx; xorl %esi, %esi; xorl %edi, %edi; xorl %r8d, %r8d; xorl %r9d, %r9d
	xorl %r10d, %r10d; pxor %xmm0, %xmm0; movl $0, %r11d; retq
# RULE vectors of 32 bytes in a frame that is aligned to 16 | of which the alignment isn't known
	function; pushq %rbp; movq %rsp, %rbp; subq $16, %rsp; vpxor %xmm0, %xmm0, %xmm0
	vmovdqa %ymm0, -32(%rsp); movq %rbp, %rsp; popq %rbp; vzeroupper; read; return
# RULE an aligned store of 32 bytes, 8 past a multiple of 16 below the return address | of which the alignment isn't known
	function; vpxor %xmm0, %xmm0, %xmm0; vmovdqa %ymm0, -72(%rsp); vzeroupper; read; return
# RULE the same, 16 bytes further | of which the alignment isn't known
	function; vpxor %xmm0, %xmm0, %xmm0; vmovdqa %ymm0, -88(%rsp); vzeroupper; read; return
