# Functions that test rules of the program (planted/rules.py). What stands before the first one is shared.
	.macro	code
	.section	.text.rule,"ax",@progbits
	.endm
	.macro	function
	.section	.text.rule,"ax",@progbits
	.globl	fotsgure_aes_key_length_v2
	.hidden	fotsgure_aes_key_length_v2
	.type	fotsgure_aes_key_length_v2,@function
fotsgure_aes_key_length_v2:
	endbr64
	.endm
	.macro	read
	movl	(%rdi), %ecx
	.endm
	.macro	return
	movq	%rcx, %rax
	xorl	%ecx, %ecx
	retq
	.endm
	.macro	two_constants kind, first
	.section	.rodata.one,"a",@progbits
	.p2align	4
.Lone:
	\kind	\first
	.section	.rodata.two,"a",@progbits
	.p2align	4
.Ltwo:
	.quad	3, 4
	.section	.text.rule,"ax",@progbits
	.endm
	.section	".note.GNU-stack","",@progbits
	.section	".note.gnu.property","a",@note
	.p2align	3, 0x0
	.long	4, 16, 5
	.asciz	"GNU"
	.long	0xc0000002, 4, 3, 0
# RULE a function that does no more than it has to | proved
	function; read; return
# RULE a return by a jump | where a jump leads isn't constant
	function; read; movq %rcx, %rax; xorl %ecx, %ecx; xorl %r11d, %r11d; popq %rcx; notrack jmpq	*%rcx
# RULE two bytes pushed and popped | moves fewer bytes than a word to the stack, or from it, or pops into memory
	function; pushw %ax; popw %ax; xorl %eax, %eax; read; return
# RULE a stack pointer that is deeper for a while | the stack pointer is deeper than the header says
	function; subq $60000, %rsp; addq $60000, %rsp; read; return
# RULE a sum with a negated address that is one more | returns 17 and not 16
	function; read; movl $1000, %eax; subq %rdi, %rax; subq $5, %rax; addq %rdi, %rax; subq $994, %rax
	addq %rax, %rcx; return
# RULE a negated address used as the address | an address depends on the key or on data
	function; movq %rdi, -8(%rsp); xorl %eax, %eax; subq %rdi, %rax; movq %rax, -8(%rsp)
	movq -8(%rsp), %rdi; read; return
# RULE a constant read at a number | accesses memory at
	function; movabsq $0x123456714000, %rax; movq (%rax), %rax; read; return
# RULE a jump to a number | goes on at a number
	function; movabsq $0x123456702321, %rcx; notrack jmpq	*%rcx; read; return
# RULE the bytes behind a constant taken for granted | which aren't in a section
	function; read; .section .rodata.one,"a",@progbits; .p2align 4; .Lone:; .quad 0, 0
	.section .rodata.two,"a",@progbits; .p2align 4; .Ltwo:; .quad 0, 0; code; movq .Ltwo+16(%rip), %rax
	movabsq $0xa5a5a5a5a5a5a5a5, %rdx; xorq %rdx, %rax; addq %rax, %rcx; addq .Lone(%rip), %rcx; return
# RULE a constant of another object | an address that depends on where code lies
	function; read; .section .rodata.zz,"a",@progbits; .p2align 4; .Lzz:
	.quad 1311768467463790320, 1147797409030816545; code; movzbl .Lzz+49(%rip), %eax; decl %eax
	addq %rax, %rcx; return
# RULE code that goes on in the section before it, where an instruction not covered lies | instruction not covered: int3
	function; read; movq %rcx, %rax; xorl %ecx, %ecx; xorl %r11d, %r11d
	.section .text.before,"ax",@progbits; retq; code
# RULE another result where the struct lies at 4,096 | computes with a byte of which only the name is known: (
	function; leaq -4096(%rdi), %rax; testq %rax, %rax; jne 77f; xorl %eax, %eax; retq; 77:; read; return
# RULE flags of a comparison that depends on the key | leaves flags that depend on the key or on data: c, z, s, o
	function; movq %rdi, %r11; read; movq %rcx, %rax; pxor %xmm0, %xmm0; movdqu 4(%r11), %xmm1
	pcmpeqb %xmm1, %xmm0; pmovmskb %xmm0, %ecx; pxor %xmm0, %xmm0; pxor %xmm1, %xmm1; cmpl $5, %ecx
	movl $0, %ecx; movl $0, %r11d; retq
# RULE a flag of a byte of the key, shifted by more than its size | leaves flags that depend on the key or on data: c
	function; movq %rdi, %r11; read; movq %rcx, %rax; xorl %ecx, %ecx; movzbl 4(%r11), %ecx; sarb $9, %cl
	movl $0, %ecx; incl %ecx; movl $0, %ecx; movl $0, %r11d; retq
# RULE a flag of a rotated byte of the key | leaves flags that depend on the key or on data: o
	function; movq %rdi, %r11; read; movq %rcx, %rax; xorl %ecx, %ecx; movzbl 4(%r11), %ecx
	andl $0x7f, %ecx; xorl %edx, %edx; rolb $1, %cl; movl $0, %ecx; movl $0, %r11d; retq
# RULE memset with a byte of the key | bytes in registers (key), in vector
	function; movq %rdi, %r11; read; movq %rcx, %rax; xorl %ecx, %ecx; subq $24, %rsp; movq %rax, 16(%rsp)
	movzbl 4(%r11), %esi; movl $16, %edx; movq %rsp, %rdi; callq *memset@GOTPCREL(%rip); movq $0, (%rsp)
	movq $0, 8(%rsp); movq 16(%rsp), %rax; addq $24, %rsp; xorl %ecx, %ecx; xorl %edx, %edx
	xorl %esi, %esi; xorl %edi, %edi; xorl %r8d, %r8d; xorl %r9d, %r9d; xorl %r10d, %r10d; movl $0, %r11d
	retq
# RULE a constant at a distance that no name says | which aren't in a section
	function; read; addq 0x10000(%rip), %rcx; return
# RULE a jump to a distance that no name says | which aren't in a section
	function; read; jmp .+0x200; return
# RULE the distance of a table added to another address | which aren't in a section
	function; read; xorl %eax, %eax; leaq .Ltab(%rip), %rdx; leaq 77f(%rip), %r8
	movslq (%rdx,%rax,4), %rax; addq %r8, %rax; notrack jmpq	*%rax; 77:
	.section .rodata.tab,"a",@progbits; .p2align 4; .Ltab:; .long 77b-.Ltab; code; return
# RULE a number that isn't from a table, added where a distance from one is added | which aren't in a section
	function; read; xorl %r8d, %r8d; xorl %eax, %eax; leaq .Ltab(%rip), %rdx; movslq (%rdx,%rax,4), %rax
	78:; addq %rdx, %rax; notrack jmpq	*%rax; 77:; testq %r8, %r8; jne 76f; movl $1, %r8d
	movq $-73294, %rax; jmp 78b; 76:; xorl %ecx, %ecx; xorl %eax, %eax; xorl %edx, %edx; xorl %r8d, %r8d
	.section .rodata.tab,"a",@progbits; .p2align 4; .Ltab:; .long 77b-.Ltab; code; return
# RULE the address of a function of libc beside another one | an address beside one of another file
	function; read; pushq memset@GOTPCREL(%rip); addq $8, %rsp; pushq memcpy@GOTPCREL(%rip); popq %rdx
	movq memset@GOTPCREL-8(%rip), %rax; cmpq %rdx, %rax; je 77f; xorl %ecx, %ecx; 77:; xorl %eax, %eax
	xorl %edx, %edx; return
# RULE addresses of two functions of libc compared | compares addresses of which the distance depends on a length, or on where code lies
	function; read; pushq memset@GOTPCREL(%rip); popq %rax; pushq memcpy@GOTPCREL(%rip); popq %rdx
	addq $96, %rdx; cmpq %rdx, %rax; je 77f; xorl %ecx, %ecx; 77:; xorl %eax, %eax; xorl %edx, %edx
	return
# RULE a constant at a distance from another one | reads constants of another section than the one from which the address was made
	function; read; two_constants .quad, 1; leaq .Lone(%rip), %rax; addq -64(%rax), %rcx; subq $3, %rcx
	return
# RULE the distance of two constants as a number | reads a number that depends on where code lies
	function; read; two_constants .long, .Ltwo-.Lone; movslq .Lone(%rip), %rax; addq $64, %rax
	addq %rax, %rcx; return
# RULE the highest byte of the distance of two constants | reads a number that depends on where code lies
	function; read; two_constants .long, .Ltwo-.Lone; movzbl .Lone+3(%rip), %eax; addl $1, %eax
	andl $255, %eax; addq %rax, %rcx; return
# RULE two instructions after a carriage return, which only some assemblers read | is no line that an assembly file may have
	function
#	xorl	%eax, %eax	retq
	read
	return
# RULE addresses of two constants compared | compares addresses of which the distance depends on a length, or on where code lies
	function; read; two_constants .quad, 1; leaq .Lone(%rip), %rax; subq $64, %rax; leaq .Ltwo(%rip), %rdx
	cmpq %rdx, %rax; je 77f; xorl %ecx, %ecx; 77:; return
# RULE a bit of the key in a flag | leaves flags that depend on the key or on data: z, s
	function; movq %rdi, -8(%rsp); read; movq %rcx, %rax; xorl %ecx, %ecx; xorl %r11d, %r11d
	movq -8(%rsp), %r11; testb $1, 4(%r11); movl $0, %r11d; retq
# RULE bits of the key in flags of a double shift | leaves flags that depend on the key or on data: c, z, s, o
	function; movq %rdi, -8(%rsp); read; movq %rcx, %rax; xorl %ecx, %ecx; xorl %r11d, %r11d
	movq -8(%rsp), %r11; movl 4(%r11), %r11d; shldl $1, %r11d, %r11d; movl $0, %r11d; retq
# RULE a bit of the key in a flag that an instruction needn't change | leaves flags that depend on the key or on data: s, o
	function; movq %rdi, -8(%rsp); read; movq %rcx, %rax; xorl %ecx, %ecx; xorl %r11d, %r11d
	movq -8(%rsp), %r11; movl 4(%r11), %r11d; orl $1, %r11d; movl $0, %r11d; btl $0, %r11d; retq
# RULE a call that takes more stack than the header says | the stack pointer is deeper than the header says
	function; subq $3280, %rsp; movb $0, (%rsp); subq $3280, %rsp; movb $0, (%rsp); subq $3280, %rsp
	movb $0, (%rsp); subq $3280, %rsp; movb $0, (%rsp); subq $3280, %rsp; movb $0, (%rsp)
	addq $16400, %rsp; read; return
# RULE the distance of code and constants as a number | has a number that depends on where code lies
	function; read; two_constants .quad, 1; movl $.Lone-77f, %eax; 77:; shrl $20, %eax; andl $1, %eax
	addq %rax, %rcx; return
# RULE instructions behind a constant that a linker may move | which aren't in a section
	function; read; .section .rodata.cst16,"aM",@progbits,16; .p2align 4; .Lmoved:; .quad 1, 2; .rept 16
	nop; .endr; code; movq .Lmoved+16(%rip), %rax; movabsq $0x9090909090909090, %r10; xorq %r10, %rax
	addq %rax, %rcx; return
# RULE constants that go on in the section behind them | which aren't in a section
	function; read; two_constants .quad, 0; movq .Lone+64(%rip), %rax; subq $3, %rax; addq %rax, %rcx
	return
# RULE code that goes on in the section behind it | instruction not covered: int3
	function; read; movq %rcx, %rax; xorl %ecx, %ecx; .section .text.behind,"ax",@progbits; retq
# RULE zeros in the code, which write to an address | accesses memory at
	function; .zero 32; read; return
# RULE code that runs before all calls | has more than code and constants: .init_array
	function; .section .init_array,"aw"; .quad 0; code; read; return
# RULE room for a state of its own | has more than code and constants: .data
	function; .data; .quad 0; code; read; return
# RULE room in memory that is never used | has more than code and constants: .bss
	function; .lcomm room, 64; read; return
# RULE a stack that may be run | has more than code and constants: a stack that may be run
	function; .pushsection .note.GNU-stack,"x",@progbits,unique,7; .popsection; read; return
# RULE a note that asks for other processors | a note that says something else of marks or processors
	function; .pushsection .note.gnu.property,"a"; .long 4, 16, 5; .asciz "GNU"; .long 0xc0008002, 4, 8, 0
	.popsection; read; return
# RULE a second note without the marks of indirect calls | a note that says something else of marks or processors
	function; .pushsection .note.gnu.property,"a"; .long 4, 16, 5; .asciz "GNU"; .long 0xc0000002, 4, 0, 0
	.popsection; read; return
# RULE a section that a linker acts on, though it isn't loaded | has more than code and constants: .gnu.warning
	function; .pushsection .gnu.warning,"",@progbits; .ascii "beware"; .popsection; read; return
# RULE a function of libc that a program may do without | is no line that an assembly file may have
	function; .weak memset; read; return
# RULE a file of the machine that builds | is no line that an assembly file may have
	function; .pushsection .note.fotsgure,"a"; .incbin "/etc/os-release"; .popsection; read; return
# RULE other code by an assembler that keeps blanks | is no line that an assembly file may have
	function; .ifnc a  b,a b; movb $1, (%rdi); .endif; read; return
# RULE a function that another library may have | depends on what else is linked: hook
	function; .weak hook; movq hook@GOTPCREL(%rip), %rax; testq %rax, %rax; je 77f; callq *%rax; 77:; read
	return
# RULE an instruction that not all processors have | has an instruction that not all of its processors have
	function; vpxor %xmm0, %xmm0, %xmm0; read; return
# RULE an instruction that not all processors have, as bytes | has an instruction that not all of its processors have
	function; .byte 0xc4, 0xe2, 0x7d, 0x58, 0xc0; read; return
# RULE a jump with a prefix, which is not covered | instruction not covered: data16 jmp
	function; .byte 0x66; jmp 77f; 77:; read; return
# RULE a store below the red zone | accesses the stack below the red zone
	function; movq %rax, -136(%rsp); read; return
# RULE a function that nothing calls | has functions that no export leads to: unreached
	function; read; return; unreached:; xorl %eax, %eax; retq
# RULE a function of its own with the name of libc's | defines a name that is taken: memset
	function; read; return; memset:; retq
# RULE a function that another file may have instead | depends on what else is linked: fotsgure_aes_key_length_v2
	function; read; return; .weak fotsgure_aes_key_length_v2
