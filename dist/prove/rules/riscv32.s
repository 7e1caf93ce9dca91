# Functions that test rules of the program (planted/rules.py). What stands before the first one is shared.
	.macro	code
	.section	.text.rule,"ax",@progbits
	.endm
	.macro	function
	.section	.text.rule,"ax",@progbits
	.globl	fotsgure_aes_key_length
	.p2align	1
	.type	fotsgure_aes_key_length,@function
fotsgure_aes_key_length:
	.endm
	.macro	read
	lw	a0, 0(a0)
	.endm
	.macro	return
	ret
	.endm
	.section	".note.GNU-stack","",@progbits
# RULE a function that does no more than it has to | proved
	function; read; return
# RULE addresses compared with a sign | a branch or a condition depends on an undefined flag
	function; mv a4, a0; read; beqz a0, 76f; sltu a2, a4, sp; slt a3, a4, sp; j 77f; 76:; li a2, 1
	li a3, 0; 77:; xor a2, a2, a3; add a0, a0, a2; li a4, 0; return
# RULE a branch on two numbers that are 0 if the same word of the key is | a branch or a condition depends on an undefined flag
	function; mv a4, a0; read; bnez a0, 76f; li a2, 0; li a3, 1; j 77f; 76:; lw a2, 4(a4); xori a3, a2, 2
	addi a3, a3, -2; xori a2, a2, 8; addi a2, a2, -8; 77:; bltu a2, a3, 78f; j 79f; 78:; li a0, 0
	li a2, 1; li a3, 1; j 77b; 79:; li a3, 0; return
# RULE the address of a function as a number | has a relocation of kind
	function; lui a5, %hi(fotsgure_aes_key_length); srli a5, a5, 24; xori a5, a5, 35; read; add a0, a0, a5
	li a5, 0; return
