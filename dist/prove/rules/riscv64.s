# Functions that test rules of the program (planted/rules.py). What stands before the first one is shared.
	.macro	code
	.section	.text.rule,"ax",@progbits
	.endm
	.macro	function
	.section	.text.rule,"ax",@progbits
	.globl	fotsgure_aes_key_length
	.p2align	1
	.type	fotsgure_aes_key_length,@function
fotsgure_aes_key_length:
	.endm
	.macro	read
	ld	a1, 0(a0)
	.endm
	.macro	return
	mv	a0, a1
	li	a1, 0
	ret
	.endm
	.section	.rodata.constant,"a",@progbits
	.p2align	3
.Lconstant:
	.zero	16, 15
	.section	".note.GNU-stack","",@progbits
# RULE a function that does no more than it has to | proved
	function; read; return
# RULE two words compared that nobody wrote | computes with a byte that is undefined: undefined
	function; addi sp, sp, -16; read; bnez a1, 77f; li a3, 1; sd zero, 0(sp); sd a3, 8(sp); 77:
	ld a2, 0(sp); ld a3, 8(sp); bltu a2, a3, 78f; j 79f; 78:; li a1, 0; li a2, 1; sd a2, 0(sp); j 77b; 79:
	addi sp, sp, 16; return
# RULE t1 kept on the way to another function | returns
	function; ld t1, 0(a0); tail rest; .Lback:; .section .text.rest,"ax",@progbits; .type rest,@function
	rest:; mv a1, t1; tail .Lback; code; return
# RULE the lower part of an address as a number | computes with a part of an address, as with a number
	function; .LhiX:; auipc a5, %pcrel_hi(.Lconstant); li a6, 0; addi a5, a6, %pcrel_lo(.LhiX)
	srli a5, a5, 8; andi a5, a5, 1; xori a5, a5, 1; add a0, a0, a5; read; li a5, 0; return
# RULE the lower part of a function's address as a number | has a relocation of kind
	function; li a5, 0; addi a5, a5, %lo(fotsgure_aes_key_length); srli a5, a5, 5; andi a5, a5, 1
	xori a5, a5, 1; add a0, a0, a5; read; li a5, 0; return
# RULE the distance of two functions as a number | has constants that depend on where code lies
	function; .section .rodata.tab,"a",@progbits; .p2align 4; .Ltab:; .word other-fotsgure_aes_key_length
	.section .text.other,"ax",@progbits; .type other,@function; other:; ret; code; .LhiX:
	auipc a5, %pcrel_hi(.Ltab); lw a5, %pcrel_lo(.LhiX)(a5); srli a5, a5, 4; andi a5, a5, 1
	xori a5, a5, 1; add a0, a0, a5; read; li a5, 0; return
# RULE a number added to the upper part of an address | adds the lower part of an address to something else than the upper one
	function; .LhiX:; auipc a5, %pcrel_hi(fotsgure_aes_key_length); addi a5, a5, -36
	addi a5, a5, %pcrel_lo(.LhiX); addi sp, sp, -16; sd ra, 0(sp); sd a0, 8(sp); jalr a5; ld a1, 8(sp)
	ld ra, 0(sp); addi sp, sp, 16; addi a0, a0, -400; add a0, a0, a1; read; return
# RULE a word of the key in a register, where an instruction follows that a linker may leave out | bytes in registers (key), in t5
	function; ld t5, 8(a0); read; mv a0, a1; li a1, 0; .LhiX:; auipc t5, %pcrel_hi(.Lconstant)
	addi t6, t5, %pcrel_lo(.LhiX); ret
# RULE a jump over a call that a linker makes shorter | an address beside one in the code, by the name of another section, or a number
	function; j .Lx+4; .Lx:; call memset; read; return
# RULE the same with an address in a register | goes on at an address that depends on where code lies
	function; .LhiX:; auipc a5, %pcrel_hi(.Lx); addi a5, a5, %pcrel_lo(.LhiX); addi a5, a5, 4; jr a5; .Lx:
	call memset; li a5, 0; read; return
# RULE t1 kept on the way into the middle of another function | an address is the sum of two addresses
	function; tail rest; .Lback:; add a0, a0, t1; li t1, 0; .section .text.rest,"ax",@progbits
	.type rest,@function; rest:; li t1, 0; tail .Lback; code; read; return
# RULE a call of the second instruction of memset | goes on at an address that depends on where code lies
	function; addi sp, sp, -32; sd ra, 0(sp); sd a0, 8(sp); addi a0, sp, 16; li a1, 0; li a2, 8
	la t1, memset; addi t1, t1, 4; jalr t1; ld ra, 0(sp); ld a0, 8(sp); addi sp, sp, 32; read; return
# RULE a result that isn't extended by its sign | and not
	function; read; lui a2, 1; slli a2, a2, 24; add a1, a1, a2; li a2, 0; return
