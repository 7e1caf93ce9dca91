// Functions that test rules of the program (planted/rules.py). What stands before the first one is shared.
	.macro	code
	.section	.text.rule,"ax",@progbits
	.endm
	.macro	function
	.section	.text.rule,"ax",@progbits
	.globl	fotsgure_aes_key_length
	.p2align	2
	.type	fotsgure_aes_key_length,@function
fotsgure_aes_key_length:
	hint	#34
	.endm
	.macro	read
	ldr	w0, [x0]
	.endm
	.macro	return
	.irp	n, 8, 9, 10, 11
	mov	x\n, #0
	.endr
	ret
	.endm
	.section	.rodata.cst16,"aM",@progbits,16
	.p2align	4
.Lconstant:
	.zero	16, 15
	.section	.rodata.other,"a",@progbits
	.p2align	4
.Lother:
	.zero	16, 1
	.macro	two_constants kind, first
	.section	.rodata.one,"a",@progbits
	.p2align	4
.Lone:
	\kind	\first
	.section	.rodata.two,"a",@progbits
	.p2align	4
.Ltwo:
	.quad	3, 4
	.section	.text.rule,"ax",@progbits
	.endm
	.section	".note.GNU-stack","",@progbits
	.section	".note.gnu.property","a",%note
	.p2align	3, 0x0
	.long	4, 16, 5
	.asciz	"GNU"
	.long	0xc0000000, 4, 1, 0
// RULE a function that does no more than it has to | proved
	function; read; return
// RULE a sum with a byte of a register: the bytes above are no part of it, and the lower half is wiped | proved
	function; ldr w10, [x0, #4]; mov x9, #0; add x9, x9, w10, uxtb; sub sp, sp, #32; str x9, [sp, #12]
	str x9, [sp, #8]; str xzr, [sp, #8]; add sp, sp, #32; read; return
// RULE a wipe by an exclusive store without the load before it | an exclusive store that isn't tried until it succeeds
	function; sub sp, sp, #16; ldr x9, [x0, #4]; str x9, [sp]; mov x11, sp; stlxr w10, xzr, [x11]
	add sp, sp, #16; read; return
// RULE two loads into one register | gcc warns
	function; ldp q0, q0, [x0]; movi v0.2d, #0; read; return
// RULE a jump to where no mark is | an indirect jump or call arrives where no mark is
	function; adrp x16, 77f; add x16, x16, :lo12:77f; br x16; 77:; read; return
// RULE the lower part of an address as a number | computes with a part of an address, as with a number
	function; mov x11, #0; adrp x9, .Lconstant; add x9, x11, :lo12:.Lconstant; ubfx x9, x9, #10, #1
	eor x9, x9, #1; sub x0, x0, x9; read; return
// RULE upper parts of two addresses compared | computes with addresses
	function; adrp x9, .Lconstant; adrp x10, .Lother; cmp x9, x10; b.eq 77f; add x0, x0, #1; 77:
	add x9, x9, :lo12:.Lconstant; add x10, x10, :lo12:.Lother; read; return
// RULE the end of a function compared with another function | compares addresses of which the distance depends on
	function; adrp x9, 79f; add x9, x9, :lo12:79f; adrp x10, fotsgure_aes_wipe
	add x10, x10, :lo12:fotsgure_aes_wipe; cmp x9, x10; b.ne 77f; add x0, x0, #1; 77:; read; return; 79:
	.section .text.other,"ax",@progbits; .globl fotsgure_aes_wipe; .type fotsgure_aes_wipe,@function
	fotsgure_aes_wipe:; hint #34; ret
// RULE a constant at a distance from another one | reads constants of another section than the one from which the address was made
	function; two_constants .quad, 1; adrp x9, .Lone; add x9, x9, :lo12:.Lone; sub x9, x9, #64
	ldr x10, [x9]; sub x10, x10, #3; add x0, x0, x10; read; return
// RULE x16 kept on the way into another section | computes with a byte that is undefined: lost
	function; mov x16, #1; b 78f; 77:; sub x16, x16, #1; add x0, x0, x16
	.section .text.other,"ax",@progbits; .type other,@function; other:; hint #34; 78:; add x16, x16, #0
	b 77b; code; read; return
// RULE upper parts of two addresses exchanged | accesses memory at
	function; adrp x9, .Lconstant; adrp x10, .Lother; ldr x9, [x9, :lo12:.Lother]
	ldr x10, [x10, :lo12:.Lconstant]; read; return
// RULE an export that isn't marked as a function | depends on what else is linked: fotsgure_aes_key_length
	code; .globl fotsgure_aes_key_length; fotsgure_aes_key_length:; hint #34; read; return
