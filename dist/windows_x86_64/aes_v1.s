# Made by tools/dist from the proved crate aes_c; BUILD says from what. Don't edit it.
/* A Rust crate defines in_rust; for x86-64, a static library of both builds defines chosen, and choose_*.c calls these names. */
	.macro	export_aes_v1 name
	.ifdef	in_rust
	.globl	aes_v1.\name
	.def	aes_v1.\name; .scl	2; .type	32; .endef
	.else
	.globl	\name\()_v1
	.set	\name\()_v1, aes_v1.\name
	.def	\name\()_v1; .scl	2; .type	32; .endef
	.endif
	.endm
	.file	"rattle"
	.def	aes_v1.aes_narrow.word_room.expand_words;
	.scl	3;
	.type	32;
	.endef
	.section	.rdata,"dr"
	.p2align	4, 0x0                          # -- Begin function aes_narrow::word_room::expand_words::<#6af90bfc14753d47>
.Laes_v1_CPI0_0:
	.zero	16,3
.Laes_v1_CPI0_1:
	.zero	16,252
.Laes_v1_CPI0_2:
	.zero	16,240
.Laes_v1_CPI0_3:
	.long	50529027                        # 0x3030303
	.long	50529027                        # 0x3030303
	.zero	4
	.zero	4
.Laes_v1_CPI0_4:
	.long	4244438268                      # 0xfcfcfcfc
	.long	4244438268                      # 0xfcfcfcfc
	.zero	4
	.zero	4
.Laes_v1_CPI0_5:
	.long	4042322160                      # 0xf0f0f0f0
	.long	4042322160                      # 0xf0f0f0f0
	.zero	4
	.zero	4
.Laes_v1_CPI0_6:
	.long	202310400                       # 0xc0f0300
	.long	202310400                       # 0xc0f0300
	.long	202310400                       # 0xc0f0300
	.long	202310400                       # 0xc0f0300
.Laes_v1_CPI0_7:
	.long	855651072                       # 0x33003300
	.long	855651072                       # 0x33003300
	.long	855651072                       # 0x33003300
	.long	855651072                       # 0x33003300
.Laes_v1_CPI0_8:
	.long	251662080                       # 0xf000f00
	.long	251662080                       # 0xf000f00
	.long	251662080                       # 0xf000f00
	.long	251662080                       # 0xf000f00
.Laes_v1_CPI0_9:
	.long	51317760                        # 0x30f0c00
	.long	51317760                        # 0x30f0c00
	.long	51317760                        # 0x30f0c00
	.long	51317760                        # 0x30f0c00
.Laes_v1_CPI0_10:
	.long	4294967295                      # 0xffffffff
	.long	4294967295                      # 0xffffffff
	.long	0                               # 0x0
	.long	0                               # 0x0
.Laes_v1_CPI0_11:
	.long	0                               # 0x0
	.long	4294967295                      # 0xffffffff
	.long	4294967295                      # 0xffffffff
	.long	0                               # 0x0
	.text
	.p2align	4
aes_v1.aes_narrow.word_room.expand_words: # @aes_v1.aes_narrow.word_room.expand_words
.seh_proc aes_v1.aes_narrow.word_room.expand_words
# %bb.0:                                # %start
	pushq	%rbp
	.seh_pushreg %rbp
	pushq	%r15
	.seh_pushreg %r15
	pushq	%r14
	.seh_pushreg %r14
	pushq	%r13
	.seh_pushreg %r13
	pushq	%r12
	.seh_pushreg %r12
	pushq	%rbx
	.seh_pushreg %rbx
	subq	$216, %rsp
	.seh_stackalloc 216
	.seh_endprologue
	movq	%rdi, %r12
	cmpq	$24, %rdx
	movq	%rdx, 208(%rsp)                 # 8-byte Spill
	movq	%rdi, 200(%rsp)                 # 8-byte Spill
	leaq	144(%rsp), %rdi
	je	.Laes_v1_BB0_4
# %bb.1:                                # %start
	cmpq	$16, %rdx
	jne	.Laes_v1_BB0_6
# %bb.2:                                # %then.1.i157
	callq	aes_v1.aes_planes.soft.word.word32.U32Word.in_every_slot
	movl	144(%rsp), %r10d
	movl	148(%rsp), %r15d
	movl	152(%rsp), %edi
	movl	156(%rsp), %eax
	movl	160(%rsp), %r8d
	movl	164(%rsp), %r9d
	movl	168(%rsp), %edx
	movl	172(%rsp), %esi
	movl	%r10d, (%r12)
	movl	%r15d, 4(%r12)
	movl	%edi, 8(%r12)
	movl	%eax, 12(%r12)
	movl	%r8d, 16(%r12)
	movl	%r9d, 20(%r12)
	movl	%edx, 24(%r12)
	movl	%esi, 28(%r12)
	leaq	48(%r12), %rbx
	xorl	%ebp, %ebp
	.p2align	4
.Laes_v1_BB0_3:                                # %join.5.i.i158
                                        # =>This Inner Loop Header: Depth=1
	movq	%rbp, 40(%rsp)                  # 8-byte Spill
	movq	%rbx, 80(%rsp)                  # 8-byte Spill
	xorl	%edx, %r9d
	movl	%esi, %ecx
	xorl	%r8d, %ecx
	movl	%ecx, %ebp
	movl	%r9d, %r11d
	xorl	%r10d, %r11d
	movl	%r11d, %ecx
	xorl	%r8d, %ecx
	movl	%ecx, 96(%rsp)                  # 4-byte Spill
	andl	%r10d, %ecx
	movl	%esi, %ebx
	xorl	%r15d, %ebx
	movl	%ebx, 48(%rsp)                  # 4-byte Spill
	xorl	%edi, %r8d
	movl	%r10d, %r14d
	movl	%r10d, 60(%rsp)                 # 4-byte Spill
	movl	%ebx, %r10d
	xorl	%r8d, %r10d
	xorl	%r10d, %eax
	movl	%r10d, %ebx
	movl	%r10d, 16(%rsp)                 # 4-byte Spill
	movl	%edi, %r10d
	movl	%eax, %edi
	xorl	%r10d, %edi
	xorl	%edx, %eax
	xorl	%esi, %r10d
	movl	%r10d, %r12d
	movl	%edi, %r10d
	andl	%ebx, %r10d
	movl	%edi, %edx
	xorl	%r9d, %edx
	xorl	%r12d, %ecx
	xorl	%edx, %ecx
	xorl	%r10d, %ecx
	xorl	%eax, %r10d
	movl	%ebp, 24(%rsp)                  # 4-byte Spill
	xorl	%ebp, %eax
	movl	%eax, %ebx
	andl	%ebp, %ebx
	movl	%eax, %ebp
	movl	%edx, 64(%rsp)                  # 4-byte Spill
	xorl	%edx, %ebp
	movl	%ebp, 32(%rsp)                  # 4-byte Spill
	andl	%r8d, %ebp
	movl	%r12d, 12(%rsp)                 # 4-byte Spill
	andl	%r12d, %edx
	xorl	%ebx, %ebp
	xorl	%ebx, %edx
	xorl	%r11d, %r15d
	movl	%r15d, %ebx
	movl	%edi, %r15d
	xorl	%r14d, %r15d
	movl	%ebx, %r13d
	movl	%ebx, %r14d
	movl	%ebx, 20(%rsp)                  # 4-byte Spill
	xorl	%r12d, %r13d
	movl	%r13d, 28(%rsp)                 # 4-byte Spill
	movl	%r15d, %ebx
	andl	%r13d, %ebx
	xorl	%ebx, %r10d
	xorl	%eax, %r9d
	movl	%r14d, %ebx
	andl	%r11d, %ebx
	movl	%r9d, %r13d
	movl	48(%rsp), %r14d                 # 4-byte Reload
	andl	%r14d, %r13d
	xorl	%ebp, %r10d
	xorl	%r9d, %ebx
	xorl	%r13d, %ebx
	xorl	%r14d, %ebx
	xorl	%ebp, %ebx
	movl	%r11d, %ebp
	xorl	%esi, %ebp
	movl	%ebp, 112(%rsp)                 # 4-byte Spill
	xorl	%esi, %r13d
	movl	%eax, %esi
	movl	60(%rsp), %r14d                 # 4-byte Reload
	xorl	%r14d, %esi
	movl	%esi, 36(%rsp)                  # 4-byte Spill
	andl	%ebp, %esi
	xorl	%r9d, %esi
	xorl	%esi, %r13d
	xorl	%edx, %ecx
	xorl	%edx, %r13d
	movl	%ebx, %r12d
	andl	%r10d, %r12d
	movl	%r12d, %esi
	xorl	%ecx, %esi
	movl	%r13d, %edx
	xorl	%ebx, %edx
	andl	%esi, %edx
	xorl	%ecx, %r10d
	movl	%edx, %ebp
	xorl	%r12d, %edx
	xorl	%r13d, %r12d
	movl	%r12d, %esi
	andl	%r10d, %esi
	xorl	%ecx, %esi
	xorl	%r13d, %ebp
	andl	%r13d, %edx
	xorl	%edx, %r12d
	andl	%esi, %r12d
	xorl	%r10d, %r12d
	xorl	%ebx, %edx
	andl	%ebp, 96(%rsp)                  # 4-byte Folded Spill
	movl	%edx, %r10d
	xorl	%ebp, %r10d
	movl	%esi, %r13d
	xorl	%ebp, %r13d
	andl	%r14d, %ebp
	movl	%r12d, %ebx
	xorl	%r10d, %ebx
	andl	%r13d, %eax
	movl	%ebx, %r14d
	xorl	%r13d, %r14d
	andl	24(%rsp), %r13d                 # 4-byte Folded Reload
	movl	%r12d, %ecx
	xorl	%esi, %ecx
	andl	%ecx, %r9d
	andl	48(%rsp), %ecx                  # 4-byte Folded Reload
	andl	%r12d, %r11d
	andl	20(%rsp), %r12d                 # 4-byte Folded Reload
	andl	%r10d, %r15d
	andl	28(%rsp), %r10d                 # 4-byte Folded Reload
	andl	%r14d, %r8d
	andl	32(%rsp), %r14d                 # 4-byte Folded Reload
	andl	%esi, 112(%rsp)                 # 4-byte Folded Spill
	andl	36(%rsp), %esi                  # 4-byte Folded Reload
	andl	%edx, %edi
	andl	16(%rsp), %edx                  # 4-byte Folded Reload
	xorl	%edi, %r15d
	xorl	%ebp, %edi
	movq	40(%rsp), %rbp                  # 8-byte Reload
	xorl	%r9d, %r11d
	xorl	%edi, %esi
	xorl	%r9d, %esi
	xorl	%r13d, %r8d
	xorl	%r8d, %r10d
	xorl	%esi, %r12d
	xorl	%r8d, %r12d
	xorl	%r11d, %r14d
	xorl	%r11d, %r15d
	movl	64(%rsp), %r8d                  # 4-byte Reload
	andl	%ebx, %r8d
	xorl	%r8d, %edi
	xorl	%ecx, %edi
	xorl	%r14d, %edi
	xorl	%eax, %r14d
	leaq	.Laes_v1_static.0(%rip), %rax
	movzbl	(%rbp,%rax), %r9d
	andl	12(%rsp), %ebx                  # 4-byte Folded Reload
	movl	%r9d, %eax
	andl	$4, %eax
	shll	$12, %eax
	leal	(%rax,%rax,2), %r8d
	xorl	96(%rsp), %r8d                  # 4-byte Folded Reload
	movl	%r9d, %eax
	andl	$32, %eax
	shll	$9, %eax
	leal	(%rax,%rax,2), %eax
	xorl	%ebx, %eax
	movl	%r9d, %r11d
	andl	$8, %r11d
	shll	$11, %r11d
	leal	(%r11,%r11,2), %r11d
	xorl	%esi, %r11d
	xorl	%r13d, %eax
	xorl	%r10d, %edx
	movl	112(%rsp), %r13d                # 4-byte Reload
	xorl	%edi, %r13d
	xorl	%r10d, %r8d
	movl	%r9d, %esi
	andl	$2, %esi
	shll	$13, %esi
	leal	(%rsi,%rsi,2), %esi
	xorl	%r12d, %esi
	xorl	%edi, %esi
	movl	%r9d, %edi
	andl	$1, %edi
	shll	$14, %edi
	leal	(%rdi,%rdi,2), %r10d
	xorl	%ecx, %r10d
	xorl	%r12d, %r10d
	movl	%r9d, %ebx
	xorl	%r14d, %eax
	xorl	%r13d, %r8d
	xorl	%r13d, %eax
	movl	%r9d, %ecx
	andl	$64, %ecx
	shll	$8, %ecx
	leal	(%rcx,%rcx,2), %ecx
	shll	$7, %r9d
	andl	$16384, %r9d                    # imm = 0x4000
	leal	(%r9,%r9,2), %edi
	xorl	%r14d, %ecx
	xorl	%r14d, %edi
	xorl	%edx, %r15d
	xorl	%edx, %edi
	andl	$16, %ebx
	shll	$10, %ebx
	leal	(%rbx,%rbx,2), %edx
	movq	80(%rsp), %rbx                  # 8-byte Reload
	xorl	%r15d, %r11d
	xorl	%r15d, %ecx
	xorl	%edx, %r15d
	notl	%esi
	notl	%r10d
	roll	$18, %r8d
	roll	$18, %esi
	roll	$18, %r10d
	movdqu	-48(%rbx), %xmm1
	movdqu	-32(%rbx), %xmm0
	notl	%ecx
	notl	%eax
	roll	$18, %r11d
	movd	%r8d, %xmm2
	movd	%r11d, %xmm3
	punpckldq	%xmm3, %xmm2            # xmm2 = xmm2[0],xmm3[0],xmm2[1],xmm3[1]
	movd	%esi, %xmm3
	movd	%r10d, %xmm4
	punpckldq	%xmm3, %xmm4            # xmm4 = xmm4[0],xmm3[0],xmm4[1],xmm3[1]
	punpcklqdq	%xmm2, %xmm4            # xmm4 = xmm4[0],xmm2[0]
	movdqa	.Laes_v1_CPI0_0(%rip), %xmm2           # xmm2 = [50529027,50529027,50529027,50529027]
	pand	%xmm2, %xmm4
	pxor	%xmm1, %xmm4
	movdqa	%xmm4, %xmm5
	pslld	$2, %xmm5
	movdqa	.Laes_v1_CPI0_1(%rip), %xmm3           # xmm3 = [4244438268,4244438268,4244438268,4244438268]
	pand	%xmm3, %xmm5
	pxor	%xmm4, %xmm5
	movdqa	%xmm5, %xmm1
	pslld	$4, %xmm1
	movdqa	.Laes_v1_CPI0_2(%rip), %xmm4           # xmm4 = [4042322160,4042322160,4042322160,4042322160]
	pand	%xmm4, %xmm1
	pxor	%xmm5, %xmm1
	roll	$18, %edi
	roll	$18, %ecx
	roll	$18, %eax
	roll	$18, %r15d
	movd	%ecx, %xmm5
	movd	%edi, %xmm6
	punpckldq	%xmm6, %xmm5            # xmm5 = xmm5[0],xmm6[0],xmm5[1],xmm6[1]
	movd	%eax, %xmm6
	movd	%r15d, %xmm7
	punpckldq	%xmm6, %xmm7            # xmm7 = xmm7[0],xmm6[0],xmm7[1],xmm6[1]
	punpcklqdq	%xmm5, %xmm7            # xmm7 = xmm7[0],xmm5[0]
	pand	%xmm2, %xmm7
	pxor	%xmm0, %xmm7
	movdqa	%xmm7, %xmm0
	pslld	$2, %xmm0
	pand	%xmm3, %xmm0
	pxor	%xmm7, %xmm0
	movdqa	%xmm0, %xmm2
	pslld	$4, %xmm2
	pand	%xmm4, %xmm2
	pxor	%xmm0, %xmm2
	movdqu	%xmm1, -16(%rbx)
	movdqu	%xmm2, (%rbx)
	incq	%rbp
	movd	%xmm1, %r10d
	pshufd	$85, %xmm1, %xmm0               # xmm0 = xmm1[1,1,1,1]
	movd	%xmm0, %r15d
	pshufd	$238, %xmm1, %xmm0              # xmm0 = xmm1[2,3,2,3]
	movd	%xmm0, %edi
	pshufd	$255, %xmm1, %xmm0              # xmm0 = xmm1[3,3,3,3]
	movd	%xmm0, %eax
	movd	%xmm2, %r8d
	pshufd	$85, %xmm2, %xmm0               # xmm0 = xmm2[1,1,1,1]
	movd	%xmm0, %r9d
	pshufd	$238, %xmm2, %xmm0              # xmm0 = xmm2[2,3,2,3]
	movd	%xmm0, %edx
	pshufd	$255, %xmm2, %xmm0              # xmm0 = xmm2[3,3,3,3]
	movd	%xmm0, %esi
	addq	$32, %rbx
	cmpq	$10, %rbp
	jne	.Laes_v1_BB0_3
	jmp	.Laes_v1_BB0_9
.Laes_v1_BB0_4:                                # %then.4.i154
	movq	%rsi, %r15
	callq	aes_v1.aes_planes.soft.word.word32.U32Word.in_every_slot
	movaps	144(%rsp), %xmm0
	movaps	%xmm0, 96(%rsp)                 # 16-byte Spill
	movdqa	160(%rsp), %xmm0
	movdqa	%xmm0, 80(%rsp)                 # 16-byte Spill
	addq	$8, %r15
	leaq	144(%rsp), %rdi
	movq	%r15, %rsi
	callq	aes_v1.aes_planes.soft.word.word32.U32Word.in_every_slot
	movdqa	96(%rsp), %xmm8                 # 16-byte Reload
	movdqa	80(%rsp), %xmm9                 # 16-byte Reload
	movdqa	144(%rsp), %xmm4
	movdqa	160(%rsp), %xmm3
	movdqu	%xmm8, (%r12)
	movdqu	%xmm9, 16(%r12)
	leaq	124(%r12), %rax
	movq	%rax, 112(%rsp)                 # 8-byte Spill
	movq	$0, 48(%rsp)                    # 8-byte Folded Spill
	.p2align	4
.Laes_v1_BB0_5:                                # %join.5.i165.i
                                        # =>This Inner Loop Header: Depth=1
	pshufd	$85, %xmm3, %xmm0               # xmm0 = xmm3[1,1,1,1]
	movd	%xmm0, %eax
	movl	%eax, 32(%rsp)                  # 4-byte Spill
	pshufd	$238, %xmm3, %xmm0              # xmm0 = xmm3[2,3,2,3]
	movd	%xmm0, %ecx
	movl	%ecx, %ebp
	movl	%ecx, 24(%rsp)                  # 4-byte Spill
	xorl	%eax, %ebp
	movd	%xmm3, %edi
	movl	%edi, 28(%rsp)                  # 4-byte Spill
	pshufd	$255, %xmm3, %xmm0              # xmm0 = xmm3[3,3,3,3]
	movd	%xmm0, %eax
	movl	%eax, %r10d
	xorl	%edi, %r10d
	movd	%xmm4, %r14d
	movl	%ebp, %r9d
	xorl	%r14d, %r9d
	movl	%r9d, %esi
	xorl	%edi, %esi
	movl	%esi, 36(%rsp)                  # 4-byte Spill
	andl	%r14d, %esi
	pshufd	$85, %xmm4, %xmm0               # xmm0 = xmm4[1,1,1,1]
	movd	%xmm0, %r12d
	movl	%eax, %edx
	movl	%eax, %ebx
	xorl	%r12d, %edx
	movl	%edx, 64(%rsp)                  # 4-byte Spill
	movl	%r12d, 40(%rsp)                 # 4-byte Spill
	pshufd	$238, %xmm4, %xmm0              # xmm0 = xmm4[2,3,2,3]
	movd	%xmm0, %eax
	movl	%eax, 80(%rsp)                  # 4-byte Spill
	xorl	%eax, %edi
	movl	%edx, %r8d
	xorl	%edi, %r8d
	movl	%edi, %r13d
	movl	%edi, 184(%rsp)                 # 4-byte Spill
	pshufd	$255, %xmm4, %xmm0              # xmm0 = xmm4[3,3,3,3]
	movd	%xmm0, %edi
	movl	%edi, 20(%rsp)                  # 4-byte Spill
	movl	%r8d, %r11d
	movl	%r8d, 76(%rsp)                  # 4-byte Spill
	xorl	%edi, %r11d
	movl	%r11d, %r15d
	xorl	%eax, %r15d
	xorl	%ecx, %r11d
	movl	%ebx, %ecx
	xorl	%eax, %ecx
	movl	%ecx, %edx
	movl	%r15d, %eax
	andl	%r8d, %eax
	movl	%r15d, %ecx
	xorl	%ebp, %ecx
	movl	%ecx, %r8d
	movl	%ecx, 196(%rsp)                 # 4-byte Spill
	xorl	%edx, %esi
	xorl	%ecx, %esi
	xorl	%eax, %esi
	xorl	%r11d, %eax
	movl	%r10d, 180(%rsp)                # 4-byte Spill
	xorl	%r10d, %r11d
	movl	%r11d, %ecx
	andl	%r10d, %ecx
	movl	%r11d, %r10d
	xorl	%r8d, %r10d
	movl	%r10d, 192(%rsp)                # 4-byte Spill
	andl	%r13d, %r10d
	movl	%edx, %r13d
	movl	%edx, 136(%rsp)                 # 4-byte Spill
	andl	%edx, %r8d
	xorl	%ecx, %r10d
	xorl	%ecx, %r8d
	movl	%r9d, %edi
	xorl	%r12d, %edi
	movl	%r15d, %ecx
	movl	%r14d, 96(%rsp)                 # 4-byte Spill
	xorl	%r14d, %ecx
	movl	%ecx, 188(%rsp)                 # 4-byte Spill
	movl	%edi, %edx
	xorl	%r13d, %edx
	movl	%edx, 140(%rsp)                 # 4-byte Spill
	andl	%edx, %ecx
	xorl	%ecx, %eax
	xorl	%r11d, %ebp
	movl	%edi, %ecx
	andl	%r9d, %ecx
	movl	%ebp, %r12d
	movl	64(%rsp), %edx                  # 4-byte Reload
	andl	%edx, %r12d
	xorl	%r10d, %eax
	xorl	%ebp, %ecx
	xorl	%r12d, %ecx
	xorl	%edx, %ecx
	xorl	%r10d, %ecx
	movl	%r9d, %edx
	movl	%ebx, 60(%rsp)                  # 4-byte Spill
	xorl	%ebx, %edx
	movl	%edx, 16(%rsp)                  # 4-byte Spill
	movl	%r11d, %r13d
	xorl	%r14d, %r13d
	movl	%r13d, %r10d
	andl	%edx, %r10d
	xorl	%ebp, %r10d
	xorl	%ebx, %r12d
	xorl	%r10d, %r12d
	xorl	%r8d, %esi
	xorl	%r8d, %r12d
	movl	%ecx, %r10d
	andl	%eax, %r10d
	movl	%r10d, %r8d
	xorl	%esi, %r8d
	movl	%r12d, %ebx
	xorl	%ecx, %ebx
	andl	%r8d, %ebx
	xorl	%esi, %eax
	movl	%ebx, %edx
	xorl	%r10d, %ebx
	xorl	%r12d, %r10d
	movl	%r10d, %r8d
	andl	%eax, %r8d
	xorl	%esi, %r8d
	xorl	%r12d, %edx
	andl	%r12d, %ebx
	xorl	%ebx, %r10d
	andl	%r8d, %r10d
	xorl	%eax, %r10d
	xorl	%ecx, %ebx
	movl	%ebx, %r12d
	movl	%edx, %eax
	movl	%edx, 12(%rsp)                  # 4-byte Spill
	xorl	%edx, %r12d
	movl	%r10d, %ecx
	xorl	%r12d, %ecx
	movl	%r8d, %edx
	xorl	%eax, %edx
	andl	%edx, %r11d
	movl	%ecx, %eax
	xorl	%edx, %eax
	andl	180(%rsp), %edx                 # 4-byte Folded Reload
	movl	%r10d, %esi
	xorl	%r8d, %esi
	andl	%esi, %ebp
	andl	64(%rsp), %esi                  # 4-byte Folded Reload
	movl	%esi, 64(%rsp)                  # 4-byte Spill
	andl	%r10d, %r9d
	andl	%edi, %r10d
	movl	184(%rsp), %r14d                # 4-byte Reload
	andl	%eax, %r14d
	andl	192(%rsp), %eax                 # 4-byte Folded Reload
	andl	%r8d, 16(%rsp)                  # 4-byte Folded Spill
	andl	%r13d, %r8d
	movl	12(%rsp), %edi                  # 4-byte Reload
	andl	96(%rsp), %edi                  # 4-byte Folded Reload
	movl	188(%rsp), %r13d                # 4-byte Reload
	andl	%r12d, %r13d
	andl	%ebx, %r15d
	xorl	%r15d, %r13d
	xorl	%edi, %r15d
	xorl	%ebp, %r9d
	xorl	%r15d, %r8d
	xorl	%ebp, %r8d
	xorl	%r9d, %eax
	xorl	%r9d, %r13d
	movl	196(%rsp), %edi                 # 4-byte Reload
	andl	%ecx, %edi
	xorl	%edi, %r15d
	xorl	%esi, %r15d
	xorl	%eax, %r15d
	xorl	%r11d, %eax
	andl	136(%rsp), %ecx                 # 4-byte Folded Reload
	leaq	.Laes_v1_static.0(%rip), %rdi
	movq	48(%rsp), %r9                   # 8-byte Reload
	movzbl	(%rdi,%r9,2), %r11d
	movq	%r9, 48(%rsp)                   # 8-byte Spill
	movl	%r11d, %esi
	andl	$32, %esi
	shll	$9, %esi
	leal	(%rsi,%rsi,2), %ebp
	xorl	%ecx, %ebp
	xorl	%r8d, %r10d
	movl	%r11d, %ecx
	andl	$8, %ecx
	shll	$11, %ecx
	leal	(%rcx,%rcx,2), %edi
	xorl	%r8d, %edi
	xorl	%edx, %r14d
	xorl	%edx, %ebp
	movl	%r11d, %ecx
	andl	$64, %ecx
	shll	$8, %ecx
	leal	(%rcx,%rcx,2), %esi
	movl	%r11d, %ecx
	shll	$7, %ecx
	andl	$16384, %ecx                    # imm = 0x4000
	leal	(%rcx,%rcx,2), %ecx
	xorl	%eax, %ebp
	xorl	%eax, %esi
	xorl	%eax, %ecx
	movl	%ecx, 136(%rsp)                 # 4-byte Spill
	andl	140(%rsp), %r12d                # 4-byte Folded Reload
	andl	76(%rsp), %ebx                  # 4-byte Folded Reload
	movl	12(%rsp), %ecx                  # 4-byte Reload
	andl	36(%rsp), %ecx                  # 4-byte Folded Reload
	xorl	%r14d, %r10d
	xorl	%r14d, %r12d
	movl	%r11d, %eax
	andl	$4, %eax
	shll	$12, %eax
	leal	(%rax,%rax,2), %eax
	xorl	%ecx, %eax
	xorl	%r12d, %ebx
	xorl	%r12d, %eax
	movl	16(%rsp), %r14d                 # 4-byte Reload
	xorl	%r15d, %r14d
	movl	%r11d, %ecx
	andl	$2, %ecx
	shll	$13, %ecx
	leal	(%rcx,%rcx,2), %edx
	xorl	%r10d, %edx
	xorl	%r15d, %edx
	movl	%r11d, %ecx
	andl	$1, %r11d
	shll	$14, %r11d
	leal	(%r11,%r11,2), %r8d
	xorl	64(%rsp), %r8d                  # 4-byte Folded Reload
	xorl	%r10d, %r8d
	xorl	%r14d, %ebp
	xorl	%r14d, %eax
	roll	$18, %eax
	movd	%eax, %xmm0
	movl	%r13d, %r14d
	xorl	%ebx, %r14d
	xorl	%r14d, %edi
	roll	$18, %edi
	movd	%edi, %xmm1
	notl	%edx
	roll	$18, %edx
	movd	%edx, %xmm5
	notl	%r8d
	roll	$18, %r8d
	movd	%r8d, %xmm2
	andl	$16, %ecx
	shll	$10, %ecx
	leal	(%rcx,%rcx,2), %eax
	movl	96(%rsp), %ecx                  # 4-byte Reload
	shrl	$4, %ecx
	andl	$252645135, %ecx                # imm = 0xF0F0F0F
	movl	%ecx, 96(%rsp)                  # 4-byte Spill
	movl	40(%rsp), %ecx                  # 4-byte Reload
	shrl	$4, %ecx
	andl	$252645135, %ecx                # imm = 0xF0F0F0F
	movl	%ecx, 40(%rsp)                  # 4-byte Spill
	movl	80(%rsp), %ecx                  # 4-byte Reload
	shrl	$4, %ecx
	andl	$252645135, %ecx                # imm = 0xF0F0F0F
	movl	%ecx, 80(%rsp)                  # 4-byte Spill
	movl	20(%rsp), %r15d                 # 4-byte Reload
	shrl	$4, %r15d
	andl	$252645135, %r15d               # imm = 0xF0F0F0F
	movl	28(%rsp), %r10d                 # 4-byte Reload
	shrl	$4, %r10d
	andl	$252645135, %r10d               # imm = 0xF0F0F0F
	movl	32(%rsp), %edx                  # 4-byte Reload
	shrl	$4, %edx
	andl	$252645135, %edx                # imm = 0xF0F0F0F
	movl	24(%rsp), %edi                  # 4-byte Reload
	shrl	$4, %edi
	andl	$252645135, %edi                # imm = 0xF0F0F0F
	movl	60(%rsp), %r8d                  # 4-byte Reload
	shrl	$4, %r8d
	andl	$252645135, %r8d                # imm = 0xF0F0F0F
	leaq	.Laes_v1_static.0(%rip), %rcx
	movzbl	1(%rcx,%r9,2), %ecx
	movq	%rcx, 64(%rsp)                  # 8-byte Spill
	xorl	%r14d, %esi
	punpckldq	%xmm1, %xmm0            # xmm0 = xmm0[0],xmm1[0],xmm0[1],xmm1[1]
	punpckldq	%xmm5, %xmm2            # xmm2 = xmm2[0],xmm5[0],xmm2[1],xmm5[1]
	punpcklqdq	%xmm0, %xmm2            # xmm2 = xmm2[0],xmm0[0]
	movdqa	.Laes_v1_CPI0_0(%rip), %xmm0           # xmm0 = [50529027,50529027,50529027,50529027]
	pand	%xmm0, %xmm2
	pxor	%xmm8, %xmm2
	movdqa	%xmm2, %xmm5
	pslld	$2, %xmm5
	movdqa	.Laes_v1_CPI0_1(%rip), %xmm1           # xmm1 = [4244438268,4244438268,4244438268,4244438268]
	pand	%xmm1, %xmm5
	pxor	%xmm2, %xmm5
	movdqa	%xmm5, %xmm2
	psrld	$2, %xmm2
	pand	%xmm0, %xmm2
	pxor	%xmm4, %xmm2
	movdqa	%xmm2, %xmm6
	pslld	$2, %xmm6
	pand	%xmm1, %xmm6
	pxor	%xmm2, %xmm6
	movdqa	%xmm6, %xmm4
	pslld	$4, %xmm4
	movdqa	.Laes_v1_CPI0_2(%rip), %xmm2           # xmm2 = [4042322160,4042322160,4042322160,4042322160]
	pand	%xmm2, %xmm4
	pxor	%xmm6, %xmm4
	movq	112(%rsp), %rcx                 # 8-byte Reload
	movdqu	%xmm4, -60(%rcx)
	xorl	136(%rsp), %ebx                 # 4-byte Folded Reload
	movd	%xmm4, %r13d
	pshufd	$85, %xmm4, %xmm6               # xmm6 = xmm4[1,1,1,1]
	xorl	%eax, %r14d
	movd	%xmm6, %r11d
	pshufd	$238, %xmm4, %xmm6              # xmm6 = xmm4[2,3,2,3]
	notl	%esi
	roll	$18, %esi
	movd	%esi, %xmm7
	movd	%xmm6, %r12d
	pshufd	$255, %xmm4, %xmm6              # xmm6 = xmm4[3,3,3,3]
	roll	$18, %ebx
	notl	%ebp
	roll	$18, %ebp
	movd	%ebx, %xmm8
	movd	%xmm6, %esi
	roll	$18, %r14d
	punpckldq	%xmm8, %xmm7            # xmm7 = xmm7[0],xmm8[0],xmm7[1],xmm8[1]
	movd	%ebp, %xmm6
	movd	%r14d, %xmm8
	punpckldq	%xmm6, %xmm8            # xmm8 = xmm8[0],xmm6[0],xmm8[1],xmm6[1]
	punpcklqdq	%xmm7, %xmm8            # xmm8 = xmm8[0],xmm7[0]
	pand	%xmm0, %xmm8
	pxor	%xmm9, %xmm8
	movdqa	%xmm8, %xmm6
	pslld	$2, %xmm6
	pand	%xmm1, %xmm6
	pxor	%xmm8, %xmm6
	movdqa	%xmm6, %xmm7
	psrld	$2, %xmm7
	pand	%xmm0, %xmm7
	pxor	%xmm3, %xmm7
	movdqa	%xmm7, %xmm8
	pslld	$2, %xmm8
	pand	%xmm1, %xmm8
	pxor	%xmm7, %xmm8
	movdqa	%xmm8, %xmm3
	pslld	$4, %xmm3
	pand	%xmm2, %xmm3
	pxor	%xmm8, %xmm3
	movq	%rcx, %rbx
	movq	%rcx, 112(%rsp)                 # 8-byte Spill
	movdqu	%xmm3, -44(%rcx)
	pshufd	$85, %xmm3, %xmm7               # xmm7 = xmm3[1,1,1,1]
	movd	%xmm7, %r14d
	pshufd	$238, %xmm3, %xmm8              # xmm8 = xmm3[2,3,2,3]
	movdqa	%xmm6, %xmm7
	pslld	$4, %xmm7
	pand	%xmm2, %xmm7
	pshufd	$85, %xmm7, %xmm9               # xmm9 = xmm7[1,1,1,1]
	movd	%xmm9, %eax
	orl	%edx, %eax
	movd	%xmm8, %ecx
	xorl	%ecx, %r14d
	movl	%eax, -72(%rbx)
	movd	%xmm7, %eax
	orl	%r10d, %eax
	pshufd	$238, %xmm7, %xmm8              # xmm8 = xmm7[2,3,2,3]
	movd	%xmm8, %edx
	orl	%edi, %edx
	pshufd	$255, %xmm7, %xmm8              # xmm8 = xmm7[3,3,3,3]
	movd	%xmm8, %edi
	orl	%r8d, %edi
	movd	%xmm3, %ebp
	pshufd	$255, %xmm3, %xmm8              # xmm8 = xmm3[3,3,3,3]
	movl	%eax, -76(%rbx)
	movd	%xmm8, %eax
	movl	%edx, -68(%rbx)
	movl	%ebp, %edx
	xorl	%eax, %edx
	movl	%edx, 16(%rsp)                  # 4-byte Spill
	movl	%edi, -64(%rbx)
	movdqa	%xmm5, %xmm8
	pslld	$4, %xmm8
	pand	%xmm2, %xmm8
	movd	%xmm8, %edx
	addl	96(%rsp), %edx                  # 4-byte Folded Reload
	pshufd	$85, %xmm8, %xmm9               # xmm9 = xmm8[1,1,1,1]
	movd	%xmm9, %edi
	addl	40(%rsp), %edi                  # 4-byte Folded Reload
	pshufd	$238, %xmm8, %xmm9              # xmm9 = xmm8[2,3,2,3]
	movd	%xmm9, %r8d
	addl	80(%rsp), %r8d                  # 4-byte Folded Reload
	pshufd	$255, %xmm8, %xmm9              # xmm9 = xmm8[3,3,3,3]
	movd	%xmm9, %r9d
	orl	%r15d, %r9d
	movl	%r14d, %r10d
	xorl	%r13d, %r10d
	movl	%edx, -92(%rbx)
	movl	%ebp, %edx
	xorl	%r12d, %edx
	movl	%edx, %r15d
	movl	%edi, -88(%rbx)
	movl	%r10d, %edx
	xorl	%r11d, %edx
	movl	%edx, 40(%rsp)                  # 4-byte Spill
	movl	%eax, 76(%rsp)                  # 4-byte Spill
	xorl	%eax, %r11d
	movl	%r11d, 12(%rsp)                 # 4-byte Spill
	movl	%r8d, -84(%rbx)
	xorl	%r12d, %eax
	movl	%r9d, -80(%rbx)
	xorl	%r10d, %ebp
	movl	%ebp, 32(%rsp)                  # 4-byte Spill
	xorl	%r15d, %r11d
	movl	%r15d, 80(%rsp)                 # 4-byte Spill
	xorl	%r11d, %esi
	movl	%r11d, 28(%rsp)                 # 4-byte Spill
	xorl	%esi, %r12d
	xorl	%ecx, %esi
	movl	%ebp, %edi
	andl	%r13d, %edi
	movl	%r13d, %ebp
	movl	%r12d, %edx
	andl	%r11d, %edx
	movl	%r12d, %ecx
	xorl	%r14d, %ecx
	movl	%ecx, 20(%rsp)                  # 4-byte Spill
	movl	%eax, %r8d
	movl	%eax, 24(%rsp)                  # 4-byte Spill
	xorl	%eax, %edi
	xorl	%ecx, %edi
	xorl	%edx, %edi
	xorl	%esi, %edx
	movl	%esi, %r11d
	movl	16(%rsp), %eax                  # 4-byte Reload
	xorl	%eax, %r11d
	movl	%r11d, %esi
	andl	%eax, %esi
	movl	%r11d, %r9d
	xorl	%ecx, %r9d
	movl	%r9d, 36(%rsp)                  # 4-byte Spill
	andl	%r15d, %r9d
	andl	%r8d, %ecx
	xorl	%esi, %r9d
	xorl	%esi, %ecx
	movl	40(%rsp), %eax                  # 4-byte Reload
	movl	%eax, %ebx
	xorl	%r8d, %ebx
	movl	%ebx, 140(%rsp)                 # 4-byte Spill
	movl	%r12d, %r13d
	movl	%ebp, 60(%rsp)                  # 4-byte Spill
	xorl	%ebp, %r13d
	movl	%r13d, %esi
	andl	%ebx, %esi
	xorl	%esi, %edx
	movl	%eax, %esi
	andl	%r10d, %esi
	xorl	%r11d, %r14d
	movl	%r14d, %r8d
	movl	12(%rsp), %eax                  # 4-byte Reload
	andl	%eax, %r8d
	xorl	%r9d, %edx
	xorl	%r14d, %esi
	xorl	%r8d, %esi
	xorl	%eax, %esi
	xorl	%r9d, %esi
	movl	%r10d, %r9d
	movl	76(%rsp), %eax                  # 4-byte Reload
	xorl	%eax, %r9d
	movl	%r9d, 96(%rsp)                  # 4-byte Spill
	xorl	%eax, %r8d
	movl	%r11d, %eax
	xorl	%ebp, %eax
	movl	%eax, 76(%rsp)                  # 4-byte Spill
	andl	%r9d, %eax
	xorl	%r14d, %eax
	xorl	%eax, %r8d
	xorl	%ecx, %edi
	xorl	%ecx, %r8d
	movl	%esi, %r9d
	andl	%edx, %r9d
	movl	%r9d, %eax
	xorl	%edi, %eax
	movl	%r8d, %ebx
	xorl	%esi, %ebx
	andl	%eax, %ebx
	xorl	%edi, %edx
	movl	%ebx, %ecx
	xorl	%r9d, %ebx
	xorl	%r8d, %r9d
	movl	%r9d, %eax
	andl	%edx, %eax
	xorl	%edi, %eax
	xorl	%r8d, %ecx
	andl	%r8d, %ebx
	xorl	%ebx, %r9d
	andl	%eax, %r9d
	xorl	%edx, %r9d
	xorl	%esi, %ebx
	movl	%ebx, %esi
	xorl	%ecx, %esi
	movl	%r9d, %edx
	xorl	%esi, %edx
	movl	%eax, %r8d
	xorl	%ecx, %r8d
	andl	%r8d, %r11d
	movl	%edx, %ebp
	xorl	%r8d, %ebp
	andl	16(%rsp), %r8d                  # 4-byte Folded Reload
	movl	%r9d, %r15d
	xorl	%eax, %r15d
	andl	%r15d, %r14d
	andl	12(%rsp), %r15d                 # 4-byte Folded Reload
	andl	%r9d, %r10d
	andl	40(%rsp), %r9d                  # 4-byte Folded Reload
	andl	%esi, %r13d
	andl	140(%rsp), %esi                 # 4-byte Folded Reload
	andl	%ebp, 80(%rsp)                  # 4-byte Folded Spill
	andl	36(%rsp), %ebp                  # 4-byte Folded Reload
	andl	%eax, 96(%rsp)                  # 4-byte Folded Spill
	andl	76(%rsp), %eax                  # 4-byte Folded Reload
	movl	60(%rsp), %edi                  # 4-byte Reload
	andl	%ecx, %edi
	andl	%ebx, %r12d
	xorl	%r12d, %r13d
	xorl	%edi, %r12d
	xorl	%r14d, %r10d
	xorl	%r12d, %eax
	xorl	%r14d, %eax
	andl	28(%rsp), %ebx                  # 4-byte Folded Reload
	andl	32(%rsp), %ecx                  # 4-byte Folded Reload
	movq	64(%rsp), %rdi                  # 8-byte Reload
	movl	%edi, %r14d
	andl	$4, %r14d
	shll	$12, %r14d
	leal	(%r14,%r14,2), %r14d
	xorl	%r14d, %ecx
	movl	80(%rsp), %r14d                 # 4-byte Reload
	xorl	%r8d, %r14d
	xorl	%r14d, %esi
	xorl	%eax, %r9d
	xorl	%r14d, %r9d
	xorl	%r10d, %ebp
	xorl	%r10d, %r13d
	movl	20(%rsp), %r10d                 # 4-byte Reload
	andl	%edx, %r10d
	xorl	%r10d, %r12d
	xorl	%r15d, %r12d
	xorl	%ebp, %r12d
	xorl	%r11d, %ebp
	andl	24(%rsp), %edx                  # 4-byte Folded Reload
	movq	%rdi, %r14
	movl	%r14d, %r10d
	andl	$32, %r10d
	shll	$9, %r10d
	leal	(%r10,%r10,2), %r10d
	xorl	%r10d, %edx
	movl	%r14d, %r10d
	andl	$8, %r10d
	shll	$11, %r10d
	leal	(%r10,%r10,2), %r10d
	xorl	%r10d, %eax
	movl	%r14d, %r10d
	xorl	%r8d, %edx
	xorl	%esi, %ebx
	xorl	%esi, %ecx
	movl	%r14d, %esi
	andl	$2, %esi
	shll	$13, %esi
	leal	(%rsi,%rsi,2), %r11d
	movl	96(%rsp), %r8d                  # 4-byte Reload
	xorl	%r12d, %r8d
	xorl	%r9d, %r11d
	xorl	%r12d, %r11d
	movl	%r14d, %esi
	andl	$1, %r14d
	shll	$14, %r14d
	leal	(%r14,%r14,2), %r14d
	xorl	%r15d, %r14d
	xorl	%r8d, %ecx
	roll	$18, %ecx
	xorl	%r9d, %r14d
	movd	%ecx, %xmm9
	xorl	%ebx, %r13d
	xorl	%r13d, %eax
	roll	$18, %eax
	movd	%eax, %xmm11
	notl	%r11d
	roll	$18, %r11d
	movd	%r11d, %xmm12
	notl	%r14d
	roll	$18, %r14d
	movd	%r14d, %xmm10
	xorl	%ebp, %edx
	xorl	%r8d, %edx
	andl	$64, %edi
	shll	$8, %edi
	leal	(%rdi,%rdi,2), %eax
	shll	$7, %esi
	andl	$16384, %esi                    # imm = 0x4000
	leal	(%rsi,%rsi,2), %ecx
	xorl	%ebp, %eax
	xorl	%ecx, %ebp
	xorl	%ebx, %ebp
	andl	$16, %r10d
	shll	$10, %r10d
	leal	(%r10,%r10,2), %ecx
	xorl	%r13d, %eax
	xorl	%ecx, %r13d
	notl	%eax
	roll	$18, %eax
	movd	%eax, %xmm13
	notl	%edx
	roll	$18, %ebp
	roll	$18, %edx
	movd	%ebp, %xmm14
	movd	%edx, %xmm15
	roll	$18, %r13d
	punpckldq	%xmm11, %xmm9           # xmm9 = xmm9[0],xmm11[0],xmm9[1],xmm11[1]
	movd	%r13d, %xmm11
	punpckldq	%xmm12, %xmm10          # xmm10 = xmm10[0],xmm12[0],xmm10[1],xmm12[1]
	punpcklqdq	%xmm9, %xmm10           # xmm10 = xmm10[0],xmm9[0]
	pand	%xmm0, %xmm10
	por	%xmm8, %xmm10
	pxor	%xmm5, %xmm10
	movdqa	%xmm10, %xmm5
	pslld	$2, %xmm5
	pand	%xmm1, %xmm5
	pxor	%xmm10, %xmm5
	punpckldq	%xmm14, %xmm13          # xmm13 = xmm13[0],xmm14[0],xmm13[1],xmm14[1]
	movdqa	%xmm5, %xmm8
	pslld	$4, %xmm8
	pand	%xmm2, %xmm8
	pxor	%xmm5, %xmm8
	punpckldq	%xmm15, %xmm11          # xmm11 = xmm11[0],xmm15[0],xmm11[1],xmm15[1]
	punpcklqdq	%xmm13, %xmm11          # xmm11 = xmm11[0],xmm13[0]
	pand	%xmm0, %xmm11
	por	%xmm7, %xmm11
	pxor	%xmm6, %xmm11
	movdqa	%xmm11, %xmm6
	pslld	$2, %xmm6
	pand	%xmm1, %xmm6
	pxor	%xmm11, %xmm6
	movdqa	%xmm6, %xmm9
	pslld	$4, %xmm9
	pand	%xmm2, %xmm9
	pxor	%xmm6, %xmm9
	psrld	$2, %xmm5
	pand	%xmm0, %xmm5
	pxor	%xmm4, %xmm5
	movdqa	%xmm5, %xmm7
	pslld	$2, %xmm7
	pand	%xmm1, %xmm7
	pxor	%xmm5, %xmm7
	movdqa	%xmm7, %xmm4
	pslld	$4, %xmm4
	pand	%xmm2, %xmm4
	pxor	%xmm7, %xmm4
	psrld	$2, %xmm6
	pand	%xmm0, %xmm6
	pxor	%xmm3, %xmm6
	movdqa	%xmm6, %xmm0
	pslld	$2, %xmm0
	pand	%xmm1, %xmm0
	pxor	%xmm6, %xmm0
	movdqa	%xmm0, %xmm3
	pslld	$4, %xmm3
	pand	%xmm2, %xmm3
	pxor	%xmm0, %xmm3
	movq	112(%rsp), %rcx                 # 8-byte Reload
	movdqu	%xmm8, -28(%rcx)
	movdqu	%xmm9, -12(%rcx)
	movq	48(%rsp), %rax                  # 8-byte Reload
	incq	%rax
	addq	$96, %rcx
	movq	%rcx, 112(%rsp)                 # 8-byte Spill
	movq	%rax, 48(%rsp)                  # 8-byte Spill
	cmpq	$4, %rax
	jne	.Laes_v1_BB0_5
	jmp	.Laes_v1_BB0_9
.Laes_v1_BB0_6:                                # %else.5.i
	movq	%rsi, %r15
	callq	aes_v1.aes_planes.soft.word.word32.U32Word.in_every_slot
	addq	$16, %r15
	movaps	144(%rsp), %xmm0
	movaps	%xmm0, 96(%rsp)                 # 16-byte Spill
	movaps	160(%rsp), %xmm0
	movaps	%xmm0, 112(%rsp)                # 16-byte Spill
	leaq	144(%rsp), %rdi
	movq	%r15, %rsi
	callq	aes_v1.aes_planes.soft.word.word32.U32Word.in_every_slot
	movl	144(%rsp), %edi
	movl	148(%rsp), %r13d
	movl	152(%rsp), %esi
	movl	156(%rsp), %r10d
	movl	160(%rsp), %ebp
	movl	164(%rsp), %r8d
	movl	168(%rsp), %ecx
	movl	172(%rsp), %ebx
	movaps	96(%rsp), %xmm0                 # 16-byte Reload
	movups	%xmm0, (%r12)
	movdqa	112(%rsp), %xmm0                # 16-byte Reload
	movdqu	%xmm0, 16(%r12)
	movl	%edi, 32(%r12)
	movl	%r13d, 36(%r12)
	movl	%esi, 40(%r12)
	movl	%r10d, 44(%r12)
	movl	%ebp, 48(%r12)
	movl	%r8d, 52(%r12)
	movl	%ecx, 56(%r12)
	movl	%ebx, 60(%r12)
	leaq	124(%r12), %rax
	movq	%rax, 96(%rsp)                  # 8-byte Spill
	movq	$0, 112(%rsp)                   # 8-byte Folded Spill
	.p2align	4
.Laes_v1_BB0_7:                                # %join.5.i351.i
                                        # =>This Inner Loop Header: Depth=1
	movl	%edi, 60(%rsp)                  # 4-byte Spill
	xorl	%ecx, %r8d
	movl	%ebx, %r12d
	xorl	%ebp, %r12d
	movl	%r8d, %r15d
	xorl	%edi, %r15d
	movl	%r15d, %eax
	xorl	%ebp, %eax
	movl	%eax, 48(%rsp)                  # 4-byte Spill
	andl	%edi, %eax
	movl	%ebx, %edx
	xorl	%r13d, %edx
	movl	%edx, 80(%rsp)                  # 4-byte Spill
	xorl	%esi, %ebp
	movl	%ebp, 20(%rsp)                  # 4-byte Spill
	xorl	%ebp, %edx
	xorl	%edx, %r10d
	movl	%edx, 64(%rsp)                  # 4-byte Spill
	movl	%r13d, %r14d
	movl	%r10d, %r11d
	xorl	%esi, %r11d
	xorl	%ecx, %r10d
	xorl	%ebx, %esi
	movl	%r11d, %ecx
	andl	%edx, %ecx
	movl	%r11d, %edx
	xorl	%r8d, %edx
	xorl	%esi, %eax
	xorl	%edx, %eax
	xorl	%ecx, %eax
	xorl	%r10d, %ecx
	movl	%r10d, %r9d
	movl	%r12d, 40(%rsp)                 # 4-byte Spill
	xorl	%r12d, %r9d
	movl	%esi, %r13d
	movl	%esi, 16(%rsp)                  # 4-byte Spill
	movl	%r9d, %esi
	andl	%r12d, %esi
	movl	%r9d, %r12d
	movl	%edx, 28(%rsp)                  # 4-byte Spill
	xorl	%edx, %r12d
	movl	%r12d, 32(%rsp)                 # 4-byte Spill
	andl	%ebp, %r12d
	andl	%r13d, %edx
	xorl	%esi, %r12d
	xorl	%esi, %edx
	movl	%r14d, %ebp
	xorl	%r15d, %ebp
	movl	%r11d, %r10d
	xorl	%edi, %r10d
	movl	%ebx, %r14d
	movl	%ebp, %ebx
	movl	%ebp, 12(%rsp)                  # 4-byte Spill
	xorl	%r13d, %ebx
	movl	%ebx, 24(%rsp)                  # 4-byte Spill
	movl	%r10d, %esi
	andl	%ebx, %esi
	xorl	%esi, %ecx
	xorl	%r9d, %r8d
	movl	%ebp, %edi
	andl	%r15d, %edi
	movl	%r8d, %r13d
	movl	80(%rsp), %esi                  # 4-byte Reload
	andl	%esi, %r13d
	xorl	%r12d, %ecx
	xorl	%r8d, %edi
	xorl	%r13d, %edi
	xorl	%esi, %edi
	xorl	%r12d, %edi
	movl	%r15d, %ebx
	xorl	%r14d, %ebx
	movl	%ebx, 36(%rsp)                  # 4-byte Spill
	xorl	%r14d, %r13d
	movl	%r9d, %r14d
	movl	60(%rsp), %ebp                  # 4-byte Reload
	xorl	%ebp, %r14d
	movl	%r14d, %esi
	andl	%ebx, %esi
	xorl	%r8d, %esi
	xorl	%esi, %r13d
	xorl	%edx, %eax
	xorl	%edx, %r13d
	movl	%edi, %r12d
	andl	%ecx, %r12d
	movl	%r12d, %esi
	xorl	%eax, %esi
	movl	%r13d, %edx
	xorl	%edi, %edx
	andl	%esi, %edx
	xorl	%eax, %ecx
	movl	%edx, %ebx
	xorl	%r12d, %edx
	xorl	%r13d, %r12d
	movl	%r12d, %esi
	andl	%ecx, %esi
	xorl	%eax, %esi
	xorl	%r13d, %ebx
	andl	%r13d, %edx
	xorl	%edx, %r12d
	andl	%esi, %r12d
	xorl	%ecx, %r12d
	xorl	%edi, %edx
	andl	%ebx, 48(%rsp)                  # 4-byte Folded Spill
	movl	%edx, %ecx
	xorl	%ebx, %ecx
	movl	%esi, %eax
	xorl	%ebx, %eax
	andl	%ebp, %ebx
	movl	%r12d, %edi
	xorl	%ecx, %edi
	andl	%eax, %r9d
	movl	%edi, %r13d
	xorl	%eax, %r13d
	andl	40(%rsp), %eax                  # 4-byte Folded Reload
	movl	%eax, 40(%rsp)                  # 4-byte Spill
	movl	%r12d, %eax
	xorl	%esi, %eax
	andl	%eax, %r8d
	andl	80(%rsp), %eax                  # 4-byte Folded Reload
	movl	%eax, 80(%rsp)                  # 4-byte Spill
	andl	%r12d, %r15d
	andl	12(%rsp), %r12d                 # 4-byte Folded Reload
	andl	%ecx, %r10d
	andl	24(%rsp), %ecx                  # 4-byte Folded Reload
	movl	20(%rsp), %ebp                  # 4-byte Reload
	andl	%r13d, %ebp
	andl	32(%rsp), %r13d                 # 4-byte Folded Reload
	movl	36(%rsp), %eax                  # 4-byte Reload
	andl	%esi, %eax
	andl	%r14d, %esi
	andl	%edx, %r11d
	andl	64(%rsp), %edx                  # 4-byte Folded Reload
	xorl	%r11d, %r10d
	xorl	%ebx, %r11d
	xorl	%r8d, %r15d
	xorl	%r11d, %esi
	xorl	%r8d, %esi
	movl	%ebp, %r8d
	xorl	40(%rsp), %r8d                  # 4-byte Folded Reload
	xorl	%r8d, %ecx
	xorl	%esi, %r12d
	xorl	%r8d, %r12d
	xorl	%r15d, %r13d
	xorl	%r15d, %r10d
	movl	28(%rsp), %r8d                  # 4-byte Reload
	andl	%edi, %r8d
	xorl	%r8d, %r11d
	leaq	.Laes_v1_static.0(%rip), %r8
	movq	112(%rsp), %rbx                 # 8-byte Reload
	movzbl	(%rbx,%r8), %r14d
	xorl	%ecx, %edx
	xorl	80(%rsp), %r11d                 # 4-byte Folded Reload
	xorl	%r13d, %r11d
	xorl	%r11d, %eax
	xorl	%r9d, %r13d
	andl	16(%rsp), %edi                  # 4-byte Folded Reload
	movl	%r14d, %r8d
	andl	$1, %r8d
	shll	$14, %r8d
	leal	(%r8,%r8,2), %r9d
	movl	%r14d, %r8d
	andl	$4, %r8d
	shll	$12, %r8d
	leal	(%r8,%r8,2), %ebp
	xorl	48(%rsp), %ebp                  # 4-byte Folded Reload
	movl	%r14d, %r8d
	andl	$32, %r8d
	shll	$9, %r8d
	leal	(%r8,%r8,2), %r8d
	xorl	%edi, %r8d
	movl	%r14d, %ebx
	andl	$8, %ebx
	shll	$11, %ebx
	leal	(%rbx,%rbx,2), %ebx
	xorl	%esi, %ebx
	movl	%r14d, %esi
	andl	$2, %esi
	shll	$13, %esi
	leal	(%rsi,%rsi,2), %r15d
	xorl	40(%rsp), %r8d                  # 4-byte Folded Reload
	movl	%r14d, %esi
	andl	$16, %esi
	shll	$10, %esi
	leal	(%rsi,%rsi,2), %edi
	xorl	%ecx, %ebp
	movl	%r14d, %ecx
	andl	$64, %ecx
	shll	$8, %ecx
	leal	(%rcx,%rcx,2), %ecx
	shll	$7, %r14d
	andl	$16384, %r14d                   # imm = 0x4000
	leal	(%r14,%r14,2), %esi
	xorl	%r12d, %r15d
	xorl	%r13d, %r8d
	xorl	%r13d, %ecx
	xorl	%r11d, %r15d
	xorl	80(%rsp), %r9d                  # 4-byte Folded Reload
	xorl	%r12d, %r9d
	xorl	%eax, %ebp
	notl	%r15d
	notl	%r9d
	roll	$18, %ebp
	roll	$18, %r15d
	roll	$18, %r9d
	movq	96(%rsp), %r11                  # 8-byte Reload
	movdqu	-124(%r11), %xmm1
	movdqu	-108(%r11), %xmm4
	xorl	%eax, %r8d
	xorl	%r13d, %esi
	xorl	%edx, %r10d
	xorl	%r10d, %ebx
	xorl	%r10d, %ecx
	xorl	%edx, %esi
	notl	%ecx
	notl	%r8d
	roll	$18, %ebx
	xorl	%edi, %r10d
	movd	%ebp, %xmm0
	movd	%ebx, %xmm2
	punpckldq	%xmm2, %xmm0            # xmm0 = xmm0[0],xmm2[0],xmm0[1],xmm2[1]
	movd	%r15d, %xmm2
	movd	%r9d, %xmm3
	punpckldq	%xmm2, %xmm3            # xmm3 = xmm3[0],xmm2[0],xmm3[1],xmm2[1]
	punpcklqdq	%xmm0, %xmm3            # xmm3 = xmm3[0],xmm0[0]
	movdqa	.Laes_v1_CPI0_0(%rip), %xmm0           # xmm0 = [50529027,50529027,50529027,50529027]
	pand	%xmm0, %xmm3
	pxor	%xmm1, %xmm3
	movdqa	%xmm3, %xmm5
	pslld	$2, %xmm5
	movdqa	.Laes_v1_CPI0_1(%rip), %xmm1           # xmm1 = [4244438268,4244438268,4244438268,4244438268]
	pand	%xmm1, %xmm5
	pxor	%xmm3, %xmm5
	movdqa	%xmm5, %xmm3
	pslld	$4, %xmm3
	movdqa	.Laes_v1_CPI0_2(%rip), %xmm2           # xmm2 = [4042322160,4042322160,4042322160,4042322160]
	pand	%xmm2, %xmm3
	roll	$18, %esi
	roll	$18, %ecx
	roll	$18, %r8d
	roll	$18, %r10d
	pxor	%xmm5, %xmm3
	movd	%ecx, %xmm5
	movd	%esi, %xmm6
	punpckldq	%xmm6, %xmm5            # xmm5 = xmm5[0],xmm6[0],xmm5[1],xmm6[1]
	movd	%r8d, %xmm6
	movd	%r10d, %xmm7
	punpckldq	%xmm6, %xmm7            # xmm7 = xmm7[0],xmm6[0],xmm7[1],xmm6[1]
	punpcklqdq	%xmm5, %xmm7            # xmm7 = xmm7[0],xmm5[0]
	pand	%xmm0, %xmm7
	pxor	%xmm4, %xmm7
	movdqa	%xmm7, %xmm5
	pslld	$2, %xmm5
	pand	%xmm1, %xmm5
	pxor	%xmm7, %xmm5
	movdqa	%xmm5, %xmm4
	pslld	$4, %xmm4
	pand	%xmm2, %xmm4
	pxor	%xmm5, %xmm4
	pshufd	$85, %xmm4, %xmm5               # xmm5 = xmm4[1,1,1,1]
	movd	%xmm5, %r10d
	pshufd	$238, %xmm4, %xmm5              # xmm5 = xmm4[2,3,2,3]
	movd	%xmm5, %edx
	xorl	%edx, %r10d
	movd	%xmm4, %r11d
	pshufd	$255, %xmm4, %xmm5              # xmm5 = xmm4[3,3,3,3]
	movd	%xmm5, %ecx
	movl	%r11d, %ebp
	xorl	%ecx, %ebp
	movd	%xmm3, %r8d
	movl	%r10d, %ebx
	xorl	%r8d, %ebx
	movl	%ebx, %eax
	xorl	%r11d, %eax
	movl	%eax, 48(%rsp)                  # 4-byte Spill
	andl	%r8d, %eax
	pshufd	$85, %xmm3, %xmm5               # xmm5 = xmm3[1,1,1,1]
	movd	%xmm5, %edi
	movl	%ebx, %esi
	xorl	%edi, %esi
	movl	%esi, %r14d
	xorl	%ecx, %edi
	movl	%edi, 40(%rsp)                  # 4-byte Spill
	pshufd	$238, %xmm3, %xmm5              # xmm5 = xmm3[2,3,2,3]
	movd	%xmm5, %esi
	xorl	%esi, %r11d
	xorl	%r11d, %edi
	pshufd	$255, %xmm3, %xmm5              # xmm5 = xmm3[3,3,3,3]
	movd	%xmm5, %r12d
	xorl	%edi, %r12d
	movl	%edi, %r9d
	movl	%edi, 16(%rsp)                  # 4-byte Spill
	movl	%r12d, %r13d
	xorl	%esi, %r13d
	xorl	%edx, %r12d
	xorl	%ecx, %esi
	movl	%esi, %edi
	movl	%r13d, %r15d
	andl	%r9d, %r15d
	movl	%r13d, %edx
	xorl	%r10d, %edx
	movl	%edx, %esi
	xorl	%edi, %eax
	xorl	%edx, %eax
	xorl	%r15d, %eax
	xorl	%r12d, %r15d
	movl	%ebp, 20(%rsp)                  # 4-byte Spill
	xorl	%ebp, %r12d
	movl	%r12d, %edx
	andl	%ebp, %edx
	movl	%r12d, %ebp
	movl	%esi, 64(%rsp)                  # 4-byte Spill
	xorl	%esi, %ebp
	movl	%ebp, 32(%rsp)                  # 4-byte Spill
	andl	%r11d, %ebp
	movl	%edi, 12(%rsp)                  # 4-byte Spill
	andl	%edi, %esi
	xorl	%edx, %ebp
	xorl	%edx, %esi
	movl	%r13d, %r9d
	xorl	%r8d, %r9d
	movl	%r14d, 24(%rsp)                 # 4-byte Spill
	movl	%r14d, %edx
	xorl	%edi, %edx
	movl	%edx, %edi
	movl	%edx, 28(%rsp)                  # 4-byte Spill
	movl	%r9d, %edx
	andl	%edi, %edx
	xorl	%edx, %r15d
	xorl	%r12d, %r10d
	movl	%r14d, %edx
	andl	%ebx, %edx
	movl	%r10d, %edi
	movl	40(%rsp), %r14d                 # 4-byte Reload
	andl	%r14d, %edi
	xorl	%ebp, %r15d
	xorl	%r10d, %edx
	xorl	%edi, %edx
	xorl	%r14d, %edx
	xorl	%ebp, %edx
	movl	%ebx, %ebp
	xorl	%ecx, %ebp
	movl	%ebp, 80(%rsp)                  # 4-byte Spill
	xorl	%ecx, %edi
	movl	%r12d, %ecx
	xorl	%r8d, %ecx
	movl	%ecx, 36(%rsp)                  # 4-byte Spill
	andl	%ebp, %ecx
	xorl	%r10d, %ecx
	xorl	%ecx, %edi
	xorl	%esi, %eax
	xorl	%esi, %edi
	movl	%edx, %ebp
	andl	%r15d, %ebp
	movl	%ebp, %ecx
	xorl	%eax, %ecx
	movl	%edi, %r14d
	xorl	%edx, %r14d
	andl	%ecx, %r14d
	xorl	%eax, %r15d
	movl	%r14d, %esi
	xorl	%ebp, %r14d
	xorl	%edi, %ebp
	movl	%ebp, %ecx
	andl	%r15d, %ecx
	xorl	%eax, %ecx
	xorl	%edi, %esi
	andl	%edi, %r14d
	xorl	%r14d, %ebp
	andl	%ecx, %ebp
	xorl	%r15d, %ebp
	xorl	%edx, %r14d
	andl	%esi, 48(%rsp)                  # 4-byte Folded Spill
	movl	%r14d, %edx
	xorl	%esi, %edx
	movl	%ecx, %edi
	xorl	%esi, %edi
	andl	%r8d, %esi
	movl	%ebp, %r8d
	xorl	%edx, %r8d
	andl	%edi, %r12d
	movl	%r8d, %r15d
	xorl	%edi, %r15d
	andl	20(%rsp), %edi                  # 4-byte Folded Reload
	movl	%ebp, %eax
	xorl	%ecx, %eax
	andl	%eax, %r10d
	andl	40(%rsp), %eax                  # 4-byte Folded Reload
	andl	%ebp, %ebx
	andl	24(%rsp), %ebp                  # 4-byte Folded Reload
	andl	%edx, %r9d
	andl	28(%rsp), %edx                  # 4-byte Folded Reload
	andl	%r15d, %r11d
	andl	32(%rsp), %r15d                 # 4-byte Folded Reload
	andl	%ecx, 80(%rsp)                  # 4-byte Folded Spill
	andl	36(%rsp), %ecx                  # 4-byte Folded Reload
	andl	%r14d, %r13d
	andl	16(%rsp), %r14d                 # 4-byte Folded Reload
	xorl	%r13d, %r9d
	xorl	%esi, %r13d
	xorl	%r10d, %ebx
	xorl	%r13d, %ecx
	xorl	%r10d, %ecx
	xorl	%edi, %r11d
	xorl	%r11d, %edx
	xorl	%ecx, %ebp
	xorl	%r11d, %ebp
	movl	64(%rsp), %esi                  # 4-byte Reload
	andl	%r8d, %esi
	xorl	%esi, %r13d
	andl	12(%rsp), %r8d                  # 4-byte Folded Reload
	movq	96(%rsp), %r11                  # 8-byte Reload
	movdqu	%xmm3, -60(%r11)
	movdqu	%xmm4, -44(%r11)
	xorl	%eax, %r13d
	xorl	%ebp, %eax
	notl	%eax
	xorl	%edi, %r8d
	shrl	$6, %eax
	andl	$50529027, %eax                 # imm = 0x3030303
	xorl	-92(%r11), %eax
	leal	(,%rax,4), %esi
	andl	$-50529028, %esi                # imm = 0xFCFCFCFC
	xorl	%eax, %esi
	movl	%esi, %edi
	shll	$4, %edi
	andl	$-252645136, %edi               # imm = 0xF0F0F0F0
	xorl	%esi, %edi
	xorl	%ebx, %r15d
	xorl	%ebx, %r9d
	xorl	%r15d, %r13d
	xorl	%r12d, %r15d
	xorl	%edx, %r14d
	xorl	48(%rsp), %edx                  # 4-byte Folded Reload
	movl	80(%rsp), %ebx                  # 4-byte Reload
	xorl	%r13d, %ebx
	xorl	%ebp, %r13d
	notl	%r13d
	movd	%r13d, %xmm3
	movq	-88(%r11), %xmm5                # xmm5 = mem[0],zero
	xorl	%r14d, %r9d
	xorl	%r15d, %r14d
	xorl	%r9d, %ecx
	xorl	%ebx, %edx
	xorl	%r15d, %r8d
	movd	%edx, %xmm4
	punpckldq	%xmm4, %xmm3            # xmm3 = xmm3[0],xmm4[0],xmm3[1],xmm4[1]
	psrld	$6, %xmm3
	movdqa	.Laes_v1_CPI0_3(%rip), %xmm4           # xmm4 = [50529027,50529027,u,u]
	pand	%xmm4, %xmm3
	pxor	%xmm5, %xmm3
	movdqa	%xmm3, %xmm7
	pslld	$2, %xmm7
	movdqa	.Laes_v1_CPI0_4(%rip), %xmm5           # xmm5 = [4244438268,4244438268,u,u]
	pand	%xmm5, %xmm7
	pxor	%xmm3, %xmm7
	movdqa	%xmm7, %xmm3
	pslld	$4, %xmm3
	movdqa	.Laes_v1_CPI0_5(%rip), %xmm6           # xmm6 = [4042322160,4042322160,u,u]
	pand	%xmm6, %xmm3
	pxor	%xmm7, %xmm3
	shrl	$6, %ecx
	andl	$50529027, %ecx                 # imm = 0x3030303
	xorl	-80(%r11), %ecx
	leal	(,%rcx,4), %eax
	andl	$-50529028, %eax                # imm = 0xFCFCFCFC
	xorl	%ecx, %eax
	movl	%eax, %r10d
	shll	$4, %r10d
	andl	$-252645136, %r10d              # imm = 0xF0F0F0F0
	xorl	%eax, %r10d
	movd	%xmm3, %r13d
	pshufd	$85, %xmm3, %xmm7               # xmm7 = xmm3[1,1,1,1]
	movd	%r14d, %xmm8
	movd	%xmm7, %esi
	movd	%r9d, %xmm7
	punpckldq	%xmm7, %xmm8            # xmm8 = xmm8[0],xmm7[0],xmm8[1],xmm7[1]
	psrld	$6, %xmm8
	pand	%xmm4, %xmm8
	movd	-76(%r11), %xmm7                # xmm7 = mem[0],zero,zero,zero
	movd	-64(%r11), %xmm9                # xmm9 = mem[0],zero,zero,zero
	punpckldq	%xmm7, %xmm9            # xmm9 = xmm9[0],xmm7[0],xmm9[1],xmm7[1]
	pxor	%xmm8, %xmm9
	movdqa	%xmm9, %xmm8
	pslld	$2, %xmm8
	pand	%xmm5, %xmm8
	pxor	%xmm9, %xmm8
	movdqa	%xmm8, %xmm7
	pslld	$4, %xmm7
	pand	%xmm6, %xmm7
	pxor	%xmm8, %xmm7
	pshufd	$85, %xmm7, %xmm8               # xmm8 = xmm7[1,1,1,1]
	xorl	%r15d, %r9d
	movd	%xmm8, %ebp
	xorl	%ebx, %r8d
	movd	%xmm7, %ebx
	movl	%edi, -28(%r11)
	movq	%xmm3, -24(%r11)
	movl	%r10d, -16(%r11)
	movd	%xmm8, -12(%r11)
	movq	-72(%r11), %xmm8                # xmm8 = mem[0],zero
	movd	%r8d, %xmm9
	movd	%r9d, %xmm10
	punpckldq	%xmm10, %xmm9           # xmm9 = xmm9[0],xmm10[0],xmm9[1],xmm10[1]
	pcmpeqd	%xmm10, %xmm10
	pxor	%xmm9, %xmm10
	psrld	$6, %xmm10
	pand	%xmm4, %xmm10
	pxor	%xmm8, %xmm10
	movdqa	%xmm10, %xmm4
	pslld	$2, %xmm4
	pand	%xmm5, %xmm4
	pxor	%xmm10, %xmm4
	movdqa	%xmm4, %xmm5
	pslld	$4, %xmm5
	pand	%xmm6, %xmm5
	pxor	%xmm4, %xmm5
	movq	%xmm5, -8(%r11)
	movd	%xmm7, (%r11)
	movq	112(%rsp), %rdx                 # 8-byte Reload
	incq	%rdx
	movd	%xmm5, %r8d
	pshufd	$85, %xmm5, %xmm4               # xmm4 = xmm5[1,1,1,1]
	movd	%xmm4, %ecx
	addq	$64, %r11
	movq	%r11, 96(%rsp)                  # 8-byte Spill
	movq	%rdx, 112(%rsp)                 # 8-byte Spill
	cmpq	$6, %rdx
	jne	.Laes_v1_BB0_7
# %bb.8:                                # %after.1.i.i
	xorl	%ecx, %r8d
	movl	%ebx, %r12d
	xorl	%ebp, %r12d
	pxor	%xmm3, %xmm7
	movd	%xmm7, %r9d
	movl	%r9d, 80(%rsp)                  # 4-byte Spill
	pshufd	$85, %xmm7, %xmm3               # xmm3 = xmm7[1,1,1,1]
	movd	%xmm3, %edx
	xorl	%edx, %r9d
	movl	%r9d, 112(%rsp)                 # 4-byte Spill
	movl	%edx, 96(%rsp)                  # 4-byte Spill
	xorl	%r9d, %r10d
	movl	%r10d, %r15d
	xorl	%esi, %r15d
	xorl	%ecx, %r10d
	xorl	%ebx, %esi
	movl	%r10d, %ecx
	movl	%r12d, %r9d
	movl	%r12d, 32(%rsp)                 # 4-byte Spill
	xorl	%r12d, %ecx
	movl	%ecx, %eax
	movl	%ecx, %r12d
	andl	%r9d, %eax
	movl	%r15d, %r9d
	xorl	%r8d, %r9d
	movl	%ecx, %r11d
	xorl	%r9d, %r11d
	movl	%r11d, 40(%rsp)                 # 4-byte Spill
	movl	%esi, %ecx
	movl	%r11d, %esi
	andl	%edx, %esi
	movl	%r9d, %edx
	movl	%r9d, 64(%rsp)                  # 4-byte Spill
	andl	%ecx, %edx
	movl	%ecx, %r14d
	xorl	%eax, %esi
	xorl	%eax, %edx
	movl	%r8d, %r11d
	xorl	%edi, %r11d
	xorl	%r11d, %ebp
	movl	%ebp, %eax
	andl	%edi, %eax
	movl	%ecx, 16(%rsp)                  # 4-byte Spill
	xorl	%r9d, %ecx
	xorl	%eax, %ecx
	movl	%r15d, %eax
	andl	112(%rsp), %eax                 # 4-byte Folded Reload
	xorl	%eax, %ecx
	xorl	%r10d, %eax
	xorl	%r11d, %r13d
	movl	%r13d, 12(%rsp)                 # 4-byte Spill
	movl	%r15d, %r9d
	xorl	%edi, %r9d
	movl	%r13d, %r10d
	xorl	%r14d, %r10d
	movl	%r10d, 28(%rsp)                 # 4-byte Spill
	movl	%edi, %r14d
	movl	%r9d, %edi
	andl	%r10d, %edi
	xorl	%edi, %eax
	movl	%r12d, %edi
	movl	%r12d, 48(%rsp)                 # 4-byte Spill
	xorl	%r12d, %r8d
	movl	%r13d, %r12d
	andl	%r11d, %r12d
	movl	%r8d, %r13d
	movl	80(%rsp), %r10d                 # 4-byte Reload
	andl	%r10d, %r13d
	xorl	%esi, %eax
	xorl	%r8d, %r12d
	xorl	%r13d, %r12d
	xorl	%r10d, %r12d
	xorl	%esi, %r12d
	movl	%r11d, %r10d
	xorl	%ebx, %r10d
	movl	%r10d, 20(%rsp)                 # 4-byte Spill
	xorl	%ebx, %r13d
	movl	%edi, %esi
	xorl	%r14d, %esi
	movl	%esi, 24(%rsp)                  # 4-byte Spill
	andl	%r10d, %esi
	xorl	%r8d, %esi
	xorl	%esi, %r13d
	xorl	%edx, %ecx
	xorl	%edx, %r13d
	movl	%r12d, %r10d
	andl	%eax, %r10d
	movl	%r10d, %esi
	xorl	%ecx, %esi
	movl	%r13d, %edx
	xorl	%r12d, %edx
	andl	%esi, %edx
	xorl	%ecx, %eax
	movl	%edx, %esi
	xorl	%r10d, %edx
	xorl	%r13d, %r10d
	movl	%r10d, %edi
	andl	%eax, %edi
	xorl	%ecx, %edi
	xorl	%r13d, %esi
	andl	%r13d, %edx
	xorl	%edx, %r10d
	andl	%edi, %r10d
	xorl	%eax, %r10d
	xorl	%r12d, %edx
	andl	%esi, %ebp
	movl	%edx, %r12d
	xorl	%esi, %r12d
	movl	%edi, %ebx
	xorl	%esi, %ebx
	andl	%r14d, %esi
	movl	%r10d, %ecx
	xorl	%r12d, %ecx
	andl	%ebx, 48(%rsp)                  # 4-byte Folded Spill
	movl	%ecx, %eax
	xorl	%ebx, %eax
	andl	32(%rsp), %ebx                  # 4-byte Folded Reload
	movl	%r10d, %r13d
	xorl	%edi, %r13d
	andl	%r13d, %r8d
	andl	80(%rsp), %r13d                 # 4-byte Folded Reload
	andl	%r10d, %r11d
	andl	12(%rsp), %r10d                 # 4-byte Folded Reload
	andl	%r12d, %r9d
	andl	28(%rsp), %r12d                 # 4-byte Folded Reload
	andl	%eax, 96(%rsp)                  # 4-byte Folded Spill
	andl	40(%rsp), %eax                  # 4-byte Folded Reload
	movl	20(%rsp), %r14d                 # 4-byte Reload
	andl	%edi, %r14d
	andl	24(%rsp), %edi                  # 4-byte Folded Reload
	andl	%edx, %r15d
	andl	112(%rsp), %edx                 # 4-byte Folded Reload
	xorl	%r15d, %r9d
	xorl	%esi, %r15d
	xorl	%r8d, %r11d
	xorl	%r11d, %eax
	xorl	%r11d, %r9d
	movl	64(%rsp), %esi                  # 4-byte Reload
	andl	%ecx, %esi
	xorl	%r15d, %edi
	xorl	%esi, %r15d
	xorl	%r13d, %r15d
	xorl	%eax, %r15d
	xorl	48(%rsp), %eax                  # 4-byte Folded Reload
	andl	16(%rsp), %ecx                  # 4-byte Folded Reload
	movl	96(%rsp), %esi                  # 4-byte Reload
	xorl	%ebx, %esi
	xorl	%ebx, %ecx
	xorl	%r8d, %edi
	xorl	%esi, %r12d
	xorl	%edi, %r10d
	xorl	%esi, %r10d
	xorl	%r12d, %edx
	xorl	%ebp, %r12d
	movl	%r14d, %esi
	xorl	%r15d, %esi
	xorl	%r10d, %r13d
	xorl	%r15d, %r10d
	xorl	%eax, %ecx
	xorl	%esi, %ecx
	xorl	%esi, %r12d
	notl	%ecx
	roll	$18, %ecx
	xorl	%edx, %r9d
	movl	%r9d, %esi
	roll	$18, %esi
	movd	%ecx, %xmm4
	movd	%esi, %xmm3
	xorl	%eax, %edx
	xorl	%r9d, %eax
	xorl	$-1061158720, %eax              # imm = 0xC0C000C0
	roll	$18, %eax
	movd	%eax, %xmm5
	roll	$18, %edx
	movd	%edx, %xmm6
	xorl	%edi, %r9d
	notl	%r10d
	roll	$18, %r10d
	movd	%r10d, %xmm8
	notl	%r13d
	roll	$18, %r13d
	movd	%r13d, %xmm7
	roll	$18, %r12d
	roll	$18, %r9d
	movd	%r12d, %xmm9
	movd	%r9d, %xmm10
	punpckldq	%xmm4, %xmm3            # xmm3 = xmm3[0],xmm4[0],xmm3[1],xmm4[1]
	punpckldq	%xmm6, %xmm5            # xmm5 = xmm5[0],xmm6[0],xmm5[1],xmm6[1]
	punpcklqdq	%xmm5, %xmm3            # xmm3 = xmm3[0],xmm5[0]
	movq	200(%rsp), %rax                 # 8-byte Reload
	movdqu	400(%rax), %xmm4
	pand	%xmm0, %xmm3
	pxor	%xmm4, %xmm3
	movdqa	%xmm3, %xmm4
	pslld	$2, %xmm4
	pand	%xmm1, %xmm4
	pxor	%xmm3, %xmm4
	movdqa	%xmm4, %xmm3
	pslld	$4, %xmm3
	pand	%xmm2, %xmm3
	pxor	%xmm4, %xmm3
	punpckldq	%xmm8, %xmm7            # xmm7 = xmm7[0],xmm8[0],xmm7[1],xmm8[1]
	movdqu	384(%rax), %xmm4
	punpckldq	%xmm10, %xmm9           # xmm9 = xmm9[0],xmm10[0],xmm9[1],xmm10[1]
	punpcklqdq	%xmm9, %xmm7            # xmm7 = xmm7[0],xmm9[0]
	pand	%xmm0, %xmm7
	pxor	%xmm4, %xmm7
	movdqa	%xmm7, %xmm0
	pslld	$2, %xmm0
	pand	%xmm1, %xmm0
	pxor	%xmm7, %xmm0
	movdqa	%xmm0, %xmm1
	pslld	$4, %xmm1
	pand	%xmm2, %xmm1
	pxor	%xmm0, %xmm1
	movdqu	%xmm1, 448(%rax)
	movdqu	%xmm3, 464(%rax)
.Laes_v1_BB0_9:                                # %"aes_planes::expansion::expand::<#389ec886eeff95cb>.exit"
	movq	208(%rsp), %rdi                 # 8-byte Reload
	shrq	$2, %rdi
	movq	200(%rsp), %r8                  # 8-byte Reload
	addq	$48, %r8
	movq	$-6, %rax
	subq	%rdi, %rax
	addq	$6, %rdi
	movl	$1, %ecx
	jmp	.Laes_v1_BB0_10
.Laes_v1_BB0_13:                               # %then.4.i
                                        #   in Loop: Header=BB0_10 Depth=1
	movdqa	%xmm1, %xmm2
	psrld	$4, %xmm2
	pxor	%xmm1, %xmm2
	movdqa	.Laes_v1_CPI0_8(%rip), %xmm3           # xmm3 = [251662080,251662080,251662080,251662080]
	pand	%xmm3, %xmm2
	movdqa	%xmm2, %xmm4
	pslld	$4, %xmm4
	por	%xmm2, %xmm4
	pxor	%xmm4, %xmm1
	movdqa	%xmm0, %xmm2
	psrld	$4, %xmm2
	pxor	%xmm0, %xmm2
	pand	%xmm3, %xmm2
	movdqa	%xmm2, %xmm3
	pslld	$4, %xmm3
	por	%xmm2, %xmm3
.Laes_v1_BB0_16:                               # %join.8.i
                                        #   in Loop: Header=BB0_10 Depth=1
	pxor	%xmm3, %xmm0
.Laes_v1_BB0_17:                               # %join.8.i
                                        #   in Loop: Header=BB0_10 Depth=1
	pxor	.Laes_v1_CPI0_10(%rip), %xmm1
	movdqu	%xmm1, -16(%r8)
	pxor	.Laes_v1_CPI0_11(%rip), %xmm0
	movdqu	%xmm0, (%r8)
	addq	$32, %r8
	leaq	(%rax,%rcx), %rdx
	incq	%rdx
	incq	%rcx
	cmpq	$1, %rdx
	je	.Laes_v1_BB0_18
.Laes_v1_BB0_10:                               # %join.5.i
                                        # =>This Inner Loop Header: Depth=1
	movdqu	-16(%r8), %xmm1
	movdqu	(%r8), %xmm0
	cmpq	%rdi, %rcx
	jae	.Laes_v1_BB0_17
# %bb.11:                               # %ok.10.i
                                        #   in Loop: Header=BB0_10 Depth=1
	movl	%ecx, %edx
	andl	$3, %edx
	leaq	.Laes_v1_JTI0_0(%rip), %rsi
	movslq	(%rsi,%rdx,4), %rdx
	addq	%rsi, %rdx
	jmpq	*%rdx
.Laes_v1_BB0_12:                               # %then.1.i
                                        #   in Loop: Header=BB0_10 Depth=1
	movdqa	%xmm1, %xmm3
	psrld	$4, %xmm3
	movdqa	%xmm0, %xmm2
	psrld	$4, %xmm2
	pxor	%xmm1, %xmm3
	movdqa	.Laes_v1_CPI0_9(%rip), %xmm4           # xmm4 = [51317760,51317760,51317760,51317760]
	jmp	.Laes_v1_BB0_15
.Laes_v1_BB0_14:                               # %then.7.i
                                        #   in Loop: Header=BB0_10 Depth=1
	movdqa	%xmm1, %xmm3
	psrld	$4, %xmm3
	movdqa	%xmm0, %xmm2
	psrld	$4, %xmm2
	pxor	%xmm1, %xmm3
	movdqa	.Laes_v1_CPI0_6(%rip), %xmm4           # xmm4 = [202310400,202310400,202310400,202310400]
.Laes_v1_BB0_15:                               # %join.8.i
                                        #   in Loop: Header=BB0_10 Depth=1
	pand	%xmm4, %xmm3
	movdqa	%xmm3, %xmm5
	pslld	$4, %xmm5
	por	%xmm3, %xmm5
	pxor	%xmm1, %xmm5
	movdqa	%xmm5, %xmm3
	psrld	$2, %xmm3
	pxor	%xmm5, %xmm3
	movdqa	.Laes_v1_CPI0_7(%rip), %xmm6           # xmm6 = [855651072,855651072,855651072,855651072]
	pand	%xmm6, %xmm3
	movdqa	%xmm3, %xmm1
	pslld	$2, %xmm1
	por	%xmm3, %xmm1
	pxor	%xmm5, %xmm1
	pxor	%xmm0, %xmm2
	pand	%xmm4, %xmm2
	movdqa	%xmm2, %xmm3
	pslld	$4, %xmm3
	por	%xmm2, %xmm3
	pxor	%xmm0, %xmm3
	movdqa	%xmm3, %xmm2
	psrld	$2, %xmm2
	pxor	%xmm3, %xmm2
	pand	%xmm6, %xmm2
	movdqa	%xmm2, %xmm0
	pslld	$2, %xmm0
	por	%xmm2, %xmm0
	jmp	.Laes_v1_BB0_16
.Laes_v1_BB0_18:                               # %"aes_soft::soft::key_layout::store::<#dfb00681c6d298fe>.exit"
	addq	$216, %rsp
	popq	%rbx
	popq	%r12
	popq	%r13
	popq	%r14
	popq	%r15
	popq	%rbp
	retq
	.section	.rdata,"dr"
	.p2align	2, 0x0
.Laes_v1_JTI0_0:
	.long	.Laes_v1_BB0_17-.Laes_v1_JTI0_0
	.long	.Laes_v1_BB0_12-.Laes_v1_JTI0_0
	.long	.Laes_v1_BB0_13-.Laes_v1_JTI0_0
	.long	.Laes_v1_BB0_14-.Laes_v1_JTI0_0
	.text
	.seh_endproc
                                        # -- End function
	.def	aes_v1.aes_planes.soft.word.word32.U32Word.in_every_slot;
	.scl	3;
	.type	32;
	.endef
	.p2align	4                               # -- Begin function aes_planes::soft::word::word32::U32Word::in_every_slot
aes_v1.aes_planes.soft.word.word32.U32Word.in_every_slot: # @aes_v1.aes_planes.soft.word.word32.U32Word.in_every_slot
.seh_proc aes_v1.aes_planes.soft.word.word32.U32Word.in_every_slot
# %bb.0:                                # %start
	pushq	%rbp
	.seh_pushreg %rbp
	pushq	%r14
	.seh_pushreg %r14
	pushq	%rbx
	.seh_pushreg %rbx
	.seh_endprologue
	movl	(%rsi), %edx
	movl	4(%rsi), %r8d
	movl	8(%rsi), %r10d
	movl	12(%rsi), %ecx
	movl	%edx, %eax
	shrl	%eax
	xorl	%edx, %eax
	andl	$1431655765, %eax               # imm = 0x55555555
	leal	(%rax,%rax), %esi
	xorl	%edx, %esi
	xorl	%edx, %eax
	movl	%r8d, %edx
	shrl	%edx
	xorl	%r8d, %edx
	andl	$1431655765, %edx               # imm = 0x55555555
	leal	(%rdx,%rdx), %r9d
	xorl	%r8d, %r9d
	xorl	%r8d, %edx
	movl	%r10d, %r8d
	shrl	%r8d
	xorl	%r10d, %r8d
	andl	$1431655765, %r8d               # imm = 0x55555555
	leal	(%r8,%r8), %ebp
	xorl	%r10d, %ebp
	xorl	%r10d, %r8d
	movl	%ecx, %r10d
	shrl	%r10d
	xorl	%ecx, %r10d
	andl	$1431655765, %r10d              # imm = 0x55555555
	leal	(%r10,%r10), %r14d
	xorl	%ecx, %r14d
	xorl	%ecx, %r10d
	movl	%esi, %ecx
	shrl	$2, %ecx
	xorl	%r9d, %ecx
	andl	$858993459, %ecx                # imm = 0x33333333
	leal	(,%rcx,4), %r11d
	xorl	%esi, %r11d
	xorl	%r9d, %ecx
	movl	%ebp, %esi
	shrl	$2, %esi
	xorl	%r14d, %esi
	andl	$858993459, %esi                # imm = 0x33333333
	leal	(,%rsi,4), %ebx
	xorl	%ebp, %ebx
	xorl	%r14d, %esi
	movl	%eax, %r9d
	shrl	$2, %r9d
	xorl	%edx, %r9d
	andl	$858993459, %r9d                # imm = 0x33333333
	leal	(,%r9,4), %ebp
	xorl	%eax, %ebp
	xorl	%edx, %r9d
	movl	%r8d, %eax
	shrl	$2, %eax
	xorl	%r10d, %eax
	andl	$858993459, %eax                # imm = 0x33333333
	leal	(,%rax,4), %r14d
	xorl	%r8d, %r14d
	xorl	%r10d, %eax
	movl	%r11d, %edx
	shrl	$4, %edx
	xorl	%ebx, %edx
	andl	$252645135, %edx                # imm = 0xF0F0F0F
	movl	%edx, %r8d
	shll	$4, %r8d
	xorl	%r11d, %r8d
	xorl	%ebx, %edx
	movl	%ebp, %r10d
	shrl	$4, %r10d
	xorl	%r14d, %r10d
	andl	$252645135, %r10d               # imm = 0xF0F0F0F
	movl	%r10d, %r11d
	shll	$4, %r11d
	xorl	%ebp, %r11d
	xorl	%r14d, %r10d
	movl	%ecx, %ebx
	shrl	$4, %ebx
	xorl	%esi, %ebx
	andl	$252645135, %ebx                # imm = 0xF0F0F0F
	movl	%ebx, %ebp
	shll	$4, %ebp
	xorl	%ecx, %ebp
	xorl	%esi, %ebx
	movl	%r9d, %ecx
	shrl	$4, %ecx
	xorl	%eax, %ecx
	andl	$252645135, %ecx                # imm = 0xF0F0F0F
	movl	%ecx, %esi
	shll	$4, %esi
	xorl	%r9d, %esi
	xorl	%eax, %ecx
	movl	%r8d, (%rdi)
	movl	%r11d, 4(%rdi)
	movl	%ebp, 8(%rdi)
	movl	%esi, 12(%rdi)
	movl	%edx, 16(%rdi)
	movl	%r10d, 20(%rdi)
	movl	%ebx, 24(%rdi)
	movl	%ecx, 28(%rdi)
	popq	%rbx
	popq	%r14
	popq	%rbp
	retq
	.seh_endproc
                                        # -- End function
	.def	aes_v1.aes_cipher.zeroize.stack.wipe_stack.768;
	.scl	3;
	.type	32;
	.endef
	.p2align	4                               # -- Begin function aes_cipher::zeroize::stack::wipe_stack::<=768>
aes_v1.aes_cipher.zeroize.stack.wipe_stack.768: # @aes_v1.aes_cipher.zeroize.stack.wipe_stack.768
.seh_proc aes_v1.aes_cipher.zeroize.stack.wipe_stack.768
# %bb.0:                                # %start
	subq	$808, %rsp                      # imm = 0x328
	.seh_stackalloc 808
	.seh_endprologue
	#APP
	xorl	%edi, %edi
	xorl	%esi, %esi
	#NO_APP
	leaq	40(%rsp), %rcx
	movl	$768, %r8d                      # imm = 0x300
	xorl	%edx, %edx
	callq	memset
	movq	$0, 32(%rsp)
	#APP
	#NO_APP
	movq	32(%rsp), %rax
	#APP
	#NO_APP
	cmpq	$768, %rax                      # imm = 0x300
	jae	.Laes_v1_BB2_2
# %bb.1:                                # %then.1
	movzbl	40(%rsp,%rax), %eax
	#APP
	#NO_APP
	xchgq	%rax, 32(%rsp)
	#APP
	#NO_APP
.Laes_v1_BB2_2:                                # %common.ret
	addq	$808, %rsp                      # imm = 0x328
	retq
	.seh_endproc
                                        # -- End function
	.def	aes_v1.aes_ctr.add_in_batches.add_keystream;
	.scl	3;
	.type	32;
	.endef
	.p2align	4                               # -- Begin function aes_ctr::add_in_batches::add_keystream::<#4f733d09d7f6c6b4>
aes_v1.aes_ctr.add_in_batches.add_keystream: # @aes_v1.aes_ctr.add_in_batches.add_keystream
.seh_proc aes_v1.aes_ctr.add_in_batches.add_keystream
# %bb.0:                                # %start
	pushq	%r15
	.seh_pushreg %r15
	pushq	%r14
	.seh_pushreg %r14
	pushq	%r12
	.seh_pushreg %r12
	pushq	%rbx
	.seh_pushreg %rbx
	subq	$56, %rsp
	.seh_stackalloc 56
	.seh_endprologue
	movq	%r8, %r14
	movq	%rcx, %rbx
	movdqu	(%rsi), %xmm0
	movdqa	%xmm0, 32(%rsp)
	movl	%edx, %r12d
	andl	$15, %r12d
	movl	$16, %eax
	subq	%r12, %rax
	cmpq	%rax, %r8
	jbe	.Laes_v1_BB3_1
# %bb.21:                               # %else.2.i
	leaq	32(%rsp), %rax
	movq	%rax, (%rsp)
	movq	%rdx, 8(%rsp)
	movq	%rbx, 16(%rsp)
	movq	%r14, 24(%rsp)
	movq	(%rdi), %rax
	movq	8(%rdi), %rsi
	movq	%rsp, %rdx
	movq	%rax, %rdi
	callq	aes_v1.aes_narrow.borrowed_words.call_to_encrypt
	callq	aes_v1.aes_cipher.zeroize.stack.wipe_stack.2032
	jmp	.Laes_v1_BB3_22
.Laes_v1_BB3_1:                                # %then.1.i
	movq	%rdi, %rax
	movq	(%rdi), %rdi
	movq	8(%rax), %rsi
	movq	32(%rsp), %rax
	movq	40(%rsp), %rcx
	shrq	$4, %rdx
	bswapq	%rax
	bswapq	%rcx
	addq	%rdx, %rcx
	adcq	$0, %rax
	movq	%rax, %xmm0
	movq	%rcx, %xmm1
	pxor	%xmm2, %xmm2
	punpcklbw	%xmm2, %xmm1            # xmm1 = xmm1[0],xmm2[0],xmm1[1],xmm2[1],xmm1[2],xmm2[2],xmm1[3],xmm2[3],xmm1[4],xmm2[4],xmm1[5],xmm2[5],xmm1[6],xmm2[6],xmm1[7],xmm2[7]
	pshufd	$78, %xmm1, %xmm1               # xmm1 = xmm1[2,3,0,1]
	pshuflw	$27, %xmm1, %xmm1               # xmm1 = xmm1[3,2,1,0,4,5,6,7]
	pshufhw	$27, %xmm1, %xmm1               # xmm1 = xmm1[0,1,2,3,7,6,5,4]
	punpcklbw	%xmm2, %xmm0            # xmm0 = xmm0[0],xmm2[0],xmm0[1],xmm2[1],xmm0[2],xmm2[2],xmm0[3],xmm2[3],xmm0[4],xmm2[4],xmm0[5],xmm2[5],xmm0[6],xmm2[6],xmm0[7],xmm2[7]
	pshufd	$78, %xmm0, %xmm0               # xmm0 = xmm0[2,3,0,1]
	pshuflw	$27, %xmm0, %xmm0               # xmm0 = xmm0[3,2,1,0,4,5,6,7]
	pshufhw	$27, %xmm0, %xmm0               # xmm0 = xmm0[0,1,2,3,7,6,5,4]
	packuswb	%xmm1, %xmm0
	movdqa	%xmm0, (%rsp)
	movq	%rsp, %r15
	movl	$1, %ecx
	movq	%r15, %rdx
	callq	aes_v1.aes_narrow.blocks.process_all_batches.1
	callq	aes_v1.aes_cipher.zeroize.stack.wipe_stack.1024
	xorl	%ecx, %ecx
	testq	%r12, %r12
	je	.Laes_v1_BB3_11
# %bb.2:                                # %then.1.i
	testq	%r14, %r14
	je	.Laes_v1_BB3_11
# %bb.3:                                # %join.8.i68.lr.ph.i.i
	leaq	-1(%r14), %rcx
	movl	%r14d, %eax
	andl	$3, %eax
	cmpq	$3, %rcx
	jae	.Laes_v1_BB3_5
# %bb.4:
	xorl	%edx, %edx
	jmp	.Laes_v1_BB3_8
.Laes_v1_BB3_5:                                # %join.8.i68.lr.ph.i.i.new
	movq	%r14, %rcx
	andq	$-4, %rcx
	leaq	(%r12,%r15), %rsi
	addq	$3, %rsi
	xorl	%edx, %edx
	.p2align	4
.Laes_v1_BB3_6:                                # %join.8.i68.i.i
                                        # =>This Inner Loop Header: Depth=1
	movzbl	-3(%rsi,%rdx), %edi
	xorb	%dil, (%rbx,%rdx)
	movzbl	-2(%rsi,%rdx), %edi
	xorb	%dil, 1(%rbx,%rdx)
	movzbl	-1(%rsi,%rdx), %edi
	xorb	%dil, 2(%rbx,%rdx)
	movzbl	(%rsi,%rdx), %edi
	xorb	%dil, 3(%rbx,%rdx)
	addq	$4, %rdx
	cmpq	%rdx, %rcx
	jne	.Laes_v1_BB3_6
# %bb.7:                                # %join.3.i.i.i.loopexit.unr-lcssa
	movq	%r14, %rcx
	testq	%rax, %rax
	je	.Laes_v1_BB3_11
.Laes_v1_BB3_8:                                # %join.8.i68.i.i.epil.preheader
	leaq	(%rbx,%rdx), %rcx
	addq	%r12, %rdx
	addq	%rsp, %rdx
	xorl	%esi, %esi
	.p2align	4
.Laes_v1_BB3_9:                                # %join.8.i68.i.i.epil
                                        # =>This Inner Loop Header: Depth=1
	movzbl	(%rdx,%rsi), %edi
	xorb	%dil, (%rcx,%rsi)
	incq	%rsi
	cmpq	%rsi, %rax
	jne	.Laes_v1_BB3_9
# %bb.10:
	movq	%r14, %rcx
.Laes_v1_BB3_11:                               # %join.3.i.i.i
	movq	%r14, %rax
	subq	%rcx, %rax
	cmpq	$16, %rax
	jb	.Laes_v1_BB3_13
	.p2align	4
.Laes_v1_BB3_12:                               # %join.8.i.i.i
                                        # =>This Inner Loop Header: Depth=1
	leaq	(%r12,%rcx), %rdx
	andq	$-16, %rdx
	movdqu	(%rbx,%rcx), %xmm0
	pxor	(%rsp,%rdx), %xmm0
	movdqu	%xmm0, (%rbx,%rcx)
	addq	$16, %rcx
	addq	$-16, %rax
	cmpq	$15, %rax
	ja	.Laes_v1_BB3_12
.Laes_v1_BB3_13:                               # %after.4.i.i.i
	cmpq	%r14, %rcx
	jae	.Laes_v1_BB3_22
# %bb.14:                               # %then.9.i.i.i
	testq	%rax, %rax
	je	.Laes_v1_BB3_22
# %bb.15:                               # %iter.check
	addq	%rcx, %r12
	andq	$-16, %r12
	leaq	(%rsp,%r12), %rdx
	addq	%rcx, %rbx
	cmpq	$4, %rax
	jae	.Laes_v1_BB3_17
# %bb.16:
	xorl	%ecx, %ecx
	jmp	.Laes_v1_BB3_20
.Laes_v1_BB3_17:                               # %vec.epilog.ph
	movl	%eax, %ecx
	andl	$12, %ecx
	xorl	%esi, %esi
	.p2align	4
.Laes_v1_BB3_18:                               # %vec.epilog.vector.body
                                        # =>This Inner Loop Header: Depth=1
	movl	(%rdx,%rsi), %edi
	xorl	%edi, (%rbx,%rsi)
	addq	$4, %rsi
	cmpq	%rsi, %rcx
	jne	.Laes_v1_BB3_18
.Laes_v1_BB3_19:                               # %vec.epilog.middle.block
	cmpq	%rcx, %rax
	je	.Laes_v1_BB3_22
.Laes_v1_BB3_20:                               # %join.8.i11.i.i
	movzbl	(%rdx,%rcx), %esi
	xorb	%sil, (%rbx,%rcx)
	incq	%rcx
	jmp	.Laes_v1_BB3_19
.Laes_v1_BB3_22:                               # %"aes_ctr::add_in_batches::add_stream::<#72982bb057555e7c>.exit"
	addq	$56, %rsp
	popq	%rbx
	popq	%r12
	popq	%r14
	popq	%r15
	retq
	.seh_endproc
                                        # -- End function
	.def	aes_v1.aes_narrow.blocks.process_all_batches.1;
	.scl	3;
	.type	32;
	.endef
	.p2align	4                               # -- Begin function aes_narrow::blocks::process_all_batches::<#1a21aa7f601e7603>
aes_v1.aes_narrow.blocks.process_all_batches.1: # @aes_v1.aes_narrow.blocks.process_all_batches.1
.seh_proc aes_v1.aes_narrow.blocks.process_all_batches.1
# %bb.0:                                # %start
	pushq	%r15
	.seh_pushreg %r15
	pushq	%r14
	.seh_pushreg %r14
	pushq	%r13
	.seh_pushreg %r13
	pushq	%r12
	.seh_pushreg %r12
	pushq	%rbx
	.seh_pushreg %rbx
	.seh_endprologue
	testq	%rcx, %rcx
	je	.Laes_v1_BB4_3
# %bb.1:                                # %join.5.preheader
	movq	%rcx, %rbx
	movq	%rdx, %r14
	movq	%rsi, %r15
	movq	%rdi, %r12
	xorl	%edx, %edx
	.p2align	4
.Laes_v1_BB4_2:                                # %join.5
                                        # =>This Inner Loop Header: Depth=1
	movq	%rbx, %rax
	subq	%rdx, %rax
	cmpq	$2, %rax
	movl	$2, %ecx
	cmovbq	%rax, %rcx
	leaq	(%rcx,%rdx), %r13
	shlq	$4, %rdx
	addq	%r14, %rdx
	movq	%r12, %rdi
	movq	%r15, %rsi
	callq	aes_v1.aes_soft.soft.blocks.filled_up.process_filled_up.1
	movq	%r13, %rdx
	cmpq	%rbx, %r13
	jb	.Laes_v1_BB4_2
.Laes_v1_BB4_3:                                # %after.1
	popq	%rbx
	popq	%r12
	popq	%r13
	popq	%r14
	popq	%r15
	retq
	.seh_endproc
                                        # -- End function
	.def	aes_v1.aes_soft.soft.blocks.filled_up.process_filled_up.1;
	.scl	3;
	.type	32;
	.endef
	.p2align	4                               # -- Begin function aes_soft::soft::blocks::filled_up::process_filled_up::<#1a21aa7f601e7603>
aes_v1.aes_soft.soft.blocks.filled_up.process_filled_up.1: # @aes_v1.aes_soft.soft.blocks.filled_up.process_filled_up.1
.seh_proc aes_v1.aes_soft.soft.blocks.filled_up.process_filled_up.1
# %bb.0:                                # %start
	pushq	%r14
	.seh_pushreg %r14
	pushq	%rbx
	.seh_pushreg %rbx
	subq	$136, %rsp
	.seh_stackalloc 136
	.seh_endprologue
	movq	%rcx, %r14
	movq	%rdx, %rbx
	movq	%rsi, %rdx
	movq	%rdi, %rsi
	xorps	%xmm0, %xmm0
	movaps	%xmm0, 112(%rsp)
	movaps	%xmm0, 96(%rsp)
	movaps	%xmm0, (%rsp)
	movaps	%xmm0, 16(%rsp)
	movaps	%xmm0, 64(%rsp)
	movaps	%xmm0, 80(%rsp)
	movups	(%rbx), %xmm0
	movaps	%xmm0, 32(%rsp)
	movups	(%rbx), %xmm0
	movaps	%xmm0, 48(%rsp)
	shrq	$3, %rdx
	decq	%rdx
	testq	%rcx, %rcx
	je	.Laes_v1_BB5_1
# %bb.2:                                # %join.8.i
	movups	(%rbx), %xmm0
	movaps	%xmm0, 32(%rsp)
	cmpq	$1, %r14
	jne	.Laes_v1_BB5_3
.Laes_v1_BB5_1:                                # %then.6.i
	movaps	32(%rsp), %xmm0
	movaps	48(%rsp), %xmm1
	movaps	%xmm1, 16(%rsp)
	movaps	%xmm0, (%rsp)
	jmp	.Laes_v1_BB5_4
.Laes_v1_BB5_3:                                # %join.8.i.1
	movups	16(%rbx), %xmm0
	movaps	%xmm0, 48(%rsp)
	movaps	32(%rsp), %xmm1
	movaps	%xmm1, (%rsp)
	movaps	%xmm0, 16(%rsp)
.Laes_v1_BB5_4:                                # %"aes_soft::soft::blocks::filled_up::filled_up::<#7d3b633001169d8c>.exit"
	leaq	64(%rsp), %rdi
	movq	%rsp, %rcx
	callq	aes_v1.aes_soft.soft.ciphers.planes.process_outlined.1
	movaps	64(%rsp), %xmm0
	movaps	80(%rsp), %xmm1
	movaps	%xmm1, 112(%rsp)
	movaps	%xmm0, 96(%rsp)
	testq	%r14, %r14
	je	.Laes_v1_BB5_7
# %bb.5:                                # %join.8.i19.preheader
	xorl	%eax, %eax
	cmpq	$1, %r14
	setne	%al
	incq	%rax
	xorl	%ecx, %ecx
	.p2align	4
.Laes_v1_BB5_6:                                # %join.8.i19.epil
                                        # =>This Inner Loop Header: Depth=1
	movups	96(%rsp,%rcx), %xmm0
	movups	%xmm0, (%rbx,%rcx)
	addq	$16, %rcx
	decq	%rax
	jne	.Laes_v1_BB5_6
.Laes_v1_BB5_7:                                # %"aes_soft::soft::blocks::filled_up::copy_first::<#7d3b633001169d8c>.exit"
	addq	$136, %rsp
	popq	%rbx
	popq	%r14
	retq
	.seh_endproc
                                        # -- End function
	.def	aes_v1.aes_soft.soft.ciphers.planes.process_outlined.1;
	.scl	3;
	.type	32;
	.endef
	.section	.rdata,"dr"
	.p2align	4, 0x0                          # -- Begin function aes_soft::soft::ciphers::planes::process_outlined::<#18f5f0e5023a24e4>
.Laes_v1_CPI6_0:
	.long	252645135                       # 0xf0f0f0f
	.long	252645135                       # 0xf0f0f0f
	.zero	4
	.zero	4
	.text
	.p2align	4
aes_v1.aes_soft.soft.ciphers.planes.process_outlined.1: # @aes_v1.aes_soft.soft.ciphers.planes.process_outlined.1
.seh_proc aes_v1.aes_soft.soft.ciphers.planes.process_outlined.1
# %bb.0:                                # %start
	pushq	%rbp
	.seh_pushreg %rbp
	pushq	%r15
	.seh_pushreg %r15
	pushq	%r14
	.seh_pushreg %r14
	pushq	%r13
	.seh_pushreg %r13
	pushq	%r12
	.seh_pushreg %r12
	pushq	%rbx
	.seh_pushreg %rbx
	subq	$112, %rsp
	.seh_stackalloc 112
	.seh_endprologue
	movq	%rdi, 104(%rsp)                 # 8-byte Spill
	movl	16(%rcx), %r8d
	movl	(%rcx), %r9d
	movl	4(%rcx), %r10d
	movl	20(%rcx), %r11d
	movl	8(%rcx), %ebx
	movl	24(%rcx), %ebp
	movl	12(%rcx), %r14d
	movl	28(%rcx), %ecx
	movl	%r9d, %edi
	shrl	%edi
	xorl	%r8d, %edi
	andl	$1431655765, %edi               # imm = 0x55555555
	leal	(%rdi,%rdi), %eax
	xorl	%r9d, %eax
	xorl	%r8d, %edi
	movl	%r10d, %r9d
	shrl	%r9d
	xorl	%r11d, %r9d
	andl	$1431655765, %r9d               # imm = 0x55555555
	leal	(%r9,%r9), %r8d
	xorl	%r10d, %r8d
	xorl	%r11d, %r9d
	movl	%ebx, %r11d
	shrl	%r11d
	xorl	%ebp, %r11d
	andl	$1431655765, %r11d              # imm = 0x55555555
	leal	(%r11,%r11), %r10d
	xorl	%ebx, %r10d
	xorl	%ebp, %r11d
	movl	%r14d, %ebx
	shrl	%ebx
	xorl	%ecx, %ebx
	andl	$1431655765, %ebx               # imm = 0x55555555
	leal	(%rbx,%rbx), %ebp
	xorl	%r14d, %ebp
	xorl	%ecx, %ebx
	movl	%eax, %ecx
	shrl	$2, %ecx
	xorl	%r8d, %ecx
	andl	$858993459, %ecx                # imm = 0x33333333
	leal	(,%rcx,4), %r12d
	xorl	%eax, %r12d
	xorl	%r8d, %ecx
	movl	%r10d, %r13d
	shrl	$2, %r13d
	xorl	%ebp, %r13d
	andl	$858993459, %r13d               # imm = 0x33333333
	leal	(,%r13,4), %r8d
	xorl	%r10d, %r8d
	xorl	%ebp, %r13d
	movl	%edi, %r14d
	shrl	$2, %r14d
	xorl	%r9d, %r14d
	andl	$858993459, %r14d               # imm = 0x33333333
	leal	(,%r14,4), %eax
	xorl	%edi, %eax
	xorl	%r9d, %r14d
	movl	%r11d, %r15d
	shrl	$2, %r15d
	xorl	%ebx, %r15d
	andl	$858993459, %r15d               # imm = 0x33333333
	leal	(,%r15,4), %r10d
	xorl	%r11d, %r10d
	xorl	%ebx, %r15d
	movl	%r12d, %r9d
	shrl	$4, %r9d
	xorl	%r8d, %r9d
	andl	$252645135, %r9d                # imm = 0xF0F0F0F
	xorl	16(%rsi), %r8d
	xorl	%r9d, %r8d
	shll	$4, %r9d
	movl	%eax, %ebp
	shrl	$4, %ebp
	xorl	%r10d, %ebp
	andl	$252645135, %ebp                # imm = 0xF0F0F0F
	xorl	20(%rsi), %r10d
	xorl	%ebp, %r10d
	shll	$4, %ebp
	xorl	(%rsi), %r9d
	xorl	%r12d, %r9d
	movl	%ecx, %edi
	shrl	$4, %edi
	xorl	%r13d, %edi
	andl	$252645135, %edi                # imm = 0xF0F0F0F
	xorl	24(%rsi), %r13d
	xorl	%edi, %r13d
	shll	$4, %edi
	xorl	4(%rsi), %ebp
	xorl	%eax, %ebp
	movl	%r14d, %r11d
	shrl	$4, %r11d
	xorl	%r15d, %r11d
	andl	$252645135, %r11d               # imm = 0xF0F0F0F
	xorl	28(%rsi), %r15d
	xorl	%r11d, %r15d
	shll	$4, %r11d
	xorl	8(%rsi), %edi
	xorl	%ecx, %edi
	movq	%rdx, 80(%rsp)                  # 8-byte Spill
	leaq	-2(%rdx), %rax
	xorl	12(%rsi), %r11d
	xorl	%r14d, %r11d
	movq	%rax, %rcx
	shrq	$2, %rcx
	testq	%rcx, %rcx
	movq	%rsi, 88(%rsp)                  # 8-byte Spill
	movq	%rax, 96(%rsp)                  # 8-byte Spill
	je	.Laes_v1_BB6_3
# %bb.1:                                # %join.7.i.preheader
	leaq	156(%rsi), %rax
	movq	%rax, 48(%rsp)                  # 8-byte Spill
	.p2align	4
.Laes_v1_BB6_2:                                # %join.7.i
                                        # =>This Inner Loop Header: Depth=1
	movq	%rcx, 64(%rsp)                  # 8-byte Spill
	xorl	%r13d, %r10d
	movl	%r8d, %r14d
	xorl	%r15d, %r14d
	movl	%r9d, %r12d
	xorl	%r10d, %r12d
	movl	%r12d, 4(%rsp)                  # 4-byte Spill
	movl	%r12d, %ecx
	xorl	%r8d, %ecx
	movl	%ecx, 8(%rsp)                   # 4-byte Spill
	andl	%r9d, %ecx
	xorl	%ebp, %r12d
	xorl	%r15d, %ebp
	xorl	%edi, %r8d
	movl	%ebp, %eax
	xorl	%r8d, %eax
	xorl	%eax, %r11d
	movl	%eax, 16(%rsp)                  # 4-byte Spill
	movl	%r11d, %edx
	xorl	%edi, %edx
	xorl	%r13d, %r11d
	xorl	%r15d, %edi
	movl	%edx, %ebx
	andl	%eax, %ebx
	movl	%edx, %r13d
	movl	%edx, 20(%rsp)                  # 4-byte Spill
	xorl	%r10d, %edx
	xorl	%edi, %ecx
	xorl	%edx, %ecx
	xorl	%ebx, %ecx
	xorl	%r11d, %ebx
	movl	%r14d, 40(%rsp)                 # 4-byte Spill
	xorl	%r14d, %r11d
	movl	%r11d, %esi
	andl	%r14d, %esi
	movl	%r11d, %r14d
	movl	%edx, %eax
	movl	%edx, 24(%rsp)                  # 4-byte Spill
	xorl	%edx, %r14d
	movl	%r14d, 28(%rsp)                 # 4-byte Spill
	andl	%r8d, %r14d
	andl	%edi, %eax
	xorl	%esi, %r14d
	xorl	%esi, %eax
	movl	%r13d, %esi
	xorl	%r9d, %esi
	movl	%esi, 12(%rsp)                  # 4-byte Spill
	movl	%r12d, 36(%rsp)                 # 4-byte Spill
	movl	%r12d, %r13d
	xorl	%edi, %r13d
	movl	%r13d, 32(%rsp)                 # 4-byte Spill
	andl	%r13d, %esi
	xorl	%esi, %ebx
	xorl	%r11d, %r10d
	movl	%r9d, %edx
	movl	%r11d, %r9d
	movl	%r12d, %r11d
	movl	4(%rsp), %r12d                  # 4-byte Reload
	andl	%r12d, %r11d
	movl	%r10d, %r13d
	andl	%ebp, %r13d
	xorl	%r14d, %ebx
	xorl	%r10d, %r11d
	xorl	%r13d, %r11d
	xorl	%ebp, %r11d
	xorl	%r14d, %r11d
	xorl	%r15d, %r12d
	xorl	%r15d, %r13d
	movl	%r9d, %esi
	xorl	%edx, %esi
	movl	%esi, 44(%rsp)                  # 4-byte Spill
	andl	%r12d, %esi
	xorl	%r10d, %esi
	xorl	%esi, %r13d
	xorl	%eax, %ecx
	xorl	%eax, %r13d
	movl	%r11d, %r15d
	andl	%ebx, %r15d
	movl	%r15d, %eax
	xorl	%ecx, %eax
	movl	%r13d, %r14d
	xorl	%r11d, %r14d
	andl	%eax, %r14d
	xorl	%ecx, %ebx
	movl	%r14d, %eax
	xorl	%r15d, %r14d
	xorl	%r13d, %r15d
	movl	%r15d, %esi
	andl	%ebx, %esi
	xorl	%ecx, %esi
	xorl	%r13d, %eax
	andl	%r13d, %r14d
	xorl	%r14d, %r15d
	andl	%esi, %r15d
	xorl	%ebx, %r15d
	movl	%r15d, %r13d
	xorl	%r11d, %r14d
	andl	%eax, 8(%rsp)                   # 4-byte Folded Spill
	movl	%r14d, %ecx
	xorl	%eax, %ecx
	movl	%esi, %ebx
	xorl	%eax, %ebx
	andl	%edx, %eax
	movl	%r15d, %r11d
	xorl	%ecx, %r11d
	andl	%ebx, %r9d
	movl	%r9d, 60(%rsp)                  # 4-byte Spill
	movl	%r11d, %r9d
	xorl	%ebx, %r9d
	andl	40(%rsp), %ebx                  # 4-byte Folded Reload
	xorl	%esi, %r15d
	andl	%r15d, %r10d
	andl	%ebp, %r15d
	andl	%r13d, 4(%rsp)                  # 4-byte Folded Spill
	andl	36(%rsp), %r13d                 # 4-byte Folded Reload
	movl	12(%rsp), %edx                  # 4-byte Reload
	andl	%ecx, %edx
	andl	32(%rsp), %ecx                  # 4-byte Folded Reload
	andl	%r9d, %r8d
	andl	28(%rsp), %r9d                  # 4-byte Folded Reload
	andl	%esi, %r12d
	andl	44(%rsp), %esi                  # 4-byte Folded Reload
	movl	20(%rsp), %ebp                  # 4-byte Reload
	andl	%r14d, %ebp
	andl	16(%rsp), %r14d                 # 4-byte Folded Reload
	xorl	%ebp, %edx
	xorl	%eax, %ebp
	movl	4(%rsp), %eax                   # 4-byte Reload
	xorl	%r10d, %eax
	xorl	%ebp, %esi
	xorl	%r10d, %esi
	xorl	%ebx, %r8d
	xorl	%r8d, %ecx
	movl	%r13d, %r10d
	xorl	%esi, %r10d
	xorl	%r8d, %r10d
	xorl	%eax, %r9d
	xorl	%eax, %edx
	movl	24(%rsp), %eax                  # 4-byte Reload
	andl	%r11d, %eax
	xorl	%ecx, %r14d
	xorl	%eax, %ebp
	xorl	%r15d, %ebp
	xorl	%r9d, %ebp
	xorl	%ebp, %r12d
	xorl	%r14d, %edx
	xorl	%r10d, %ebp
	xorl	60(%rsp), %r9d                  # 4-byte Folded Reload
	movl	%edx, %r8d
	xorl	%r9d, %r8d
	xorl	%r15d, %r10d
	xorl	8(%rsp), %ecx                   # 4-byte Folded Reload
	xorl	%edx, %esi
	andl	%edi, %r11d
	xorl	%r12d, %ecx
	xorl	%r9d, %r14d
	xorl	%ebx, %r11d
	xorl	%r9d, %r11d
	xorl	%r12d, %r11d
	movl	%r10d, %eax
	roll	$22, %eax
	movl	%r10d, %edi
	roll	$30, %edi
	andl	$1061109567, %eax               # imm = 0x3F3F3F3F
	andl	$-1061109568, %edi              # imm = 0xC0C0C0C0
	orl	%eax, %edi
	movl	%edi, %ebx
	movl	%ebp, %eax
	roll	$22, %eax
	movl	%ebp, %r15d
	movl	%ebp, %r12d
	roll	$30, %r15d
	andl	$1061109567, %eax               # imm = 0x3F3F3F3F
	andl	$-1061109568, %r15d             # imm = 0xC0C0C0C0
	movl	%ecx, %edi
	roll	$22, %edi
	orl	%eax, %r15d
	movl	%ecx, %ebp
	roll	$30, %ebp
	andl	$1061109567, %edi               # imm = 0x3F3F3F3F
	movl	%esi, %eax
	roll	$22, %eax
	andl	$-1061109568, %ebp              # imm = 0xC0C0C0C0
	movl	%esi, %r9d
	roll	$30, %r9d
	orl	%edi, %ebp
	movl	%ebp, 24(%rsp)                  # 4-byte Spill
	andl	$1061109567, %eax               # imm = 0x3F3F3F3F
	andl	$-1061109568, %r9d              # imm = 0xC0C0C0C0
	orl	%eax, %r9d
	movl	%r9d, 16(%rsp)                  # 4-byte Spill
	movl	%edx, %eax
	roll	$22, %eax
	movl	%edx, %ebp
	movl	%edx, %r9d
	roll	$30, %ebp
	andl	$1061109567, %eax               # imm = 0x3F3F3F3F
	andl	$-1061109568, %ebp              # imm = 0xC0C0C0C0
	orl	%eax, %ebp
	movl	%r11d, %eax
	roll	$22, %eax
	movl	%r11d, %edx
	roll	$30, %edx
	andl	$1061109567, %eax               # imm = 0x3F3F3F3F
	andl	$-1061109568, %edx              # imm = 0xC0C0C0C0
	movl	%r8d, 4(%rsp)                   # 4-byte Spill
	movl	%r8d, %edi
	roll	$22, %edi
	orl	%eax, %edx
	movl	%edx, 28(%rsp)                  # 4-byte Spill
	movl	%r8d, %edx
	roll	$30, %edx
	andl	$1061109567, %edi               # imm = 0x3F3F3F3F
	movl	%r14d, %eax
	roll	$22, %eax
	andl	$-1061109568, %edx              # imm = 0xC0C0C0C0
	movl	%r14d, %r8d
	roll	$30, %r8d
	orl	%edi, %edx
	movl	%edx, 32(%rsp)                  # 4-byte Spill
	andl	$1061109567, %eax               # imm = 0x3F3F3F3F
	andl	$-1061109568, %r8d              # imm = 0xC0C0C0C0
	orl	%eax, %r8d
	movl	%r8d, %eax
	movl	%r8d, 40(%rsp)                  # 4-byte Spill
	xorl	%ebx, %r10d
	movl	%ebx, %edx
	movl	%r10d, %edi
	roll	$12, %edi
	movl	%r12d, %ebx
	xorl	%r15d, %ebx
	movl	%ebx, 20(%rsp)                  # 4-byte Spill
	movl	%r10d, %r12d
	roll	$20, %r12d
	andl	$252645135, %edi                # imm = 0xF0F0F0F
	movl	%ebx, %r8d
	roll	$12, %r8d
	andl	$-252645136, %r12d              # imm = 0xF0F0F0F0
	roll	$20, %ebx
	orl	%edi, %r12d
	movl	%r12d, 36(%rsp)                 # 4-byte Spill
	andl	$252645135, %r8d                # imm = 0xF0F0F0F
	andl	$-252645136, %ebx               # imm = 0xF0F0F0F0
	orl	%r8d, %ebx
	movl	%r10d, %edi
	xorl	%r15d, %edi
	xorl	24(%rsp), %ecx                  # 4-byte Folded Reload
	movl	%r9d, %r10d
	xorl	%ebp, %r10d
	xorl	%eax, %r14d
	xorl	%r14d, %edx
	xorl	%r14d, %edi
	movl	%edi, 8(%rsp)                   # 4-byte Spill
	xorl	%r14d, %ebp
	movl	%r14d, %edi
	movl	%r14d, %r9d
	xorl	%ecx, %r14d
	movl	%ecx, %r8d
	roll	$12, %ecx
	roll	$20, %r8d
	andl	$252645135, %ecx                # imm = 0xF0F0F0F
	andl	$-252645136, %r8d               # imm = 0xF0F0F0F0
	orl	%ecx, %r8d
	xorl	16(%rsp), %esi                  # 4-byte Folded Reload
	xorl	%esi, %ebp
	movl	%esi, %ecx
	roll	$12, %ecx
	roll	$20, %esi
	andl	$252645135, %ecx                # imm = 0xF0F0F0F
	andl	$-252645136, %esi               # imm = 0xF0F0F0F0
	movl	%r10d, 12(%rsp)                 # 4-byte Spill
	movl	%r10d, %r15d
	roll	$12, %r15d
	orl	%ecx, %esi
	movl	%r10d, %ecx
	roll	$20, %ecx
	andl	$252645135, %r15d               # imm = 0xF0F0F0F
	andl	$-252645136, %ecx               # imm = 0xF0F0F0F0
	orl	%r15d, %ecx
	xorl	28(%rsp), %r11d                 # 4-byte Folded Reload
	movl	4(%rsp), %eax                   # 4-byte Reload
	movl	32(%rsp), %r10d                 # 4-byte Reload
	xorl	%r10d, %eax
	movl	%eax, 4(%rsp)                   # 4-byte Spill
	movl	%r11d, %r12d
	roll	$12, %r12d
	movl	%r11d, %r15d
	roll	$20, %r15d
	andl	$252645135, %r12d               # imm = 0xF0F0F0F
	andl	$-252645136, %r15d              # imm = 0xF0F0F0F0
	movl	%eax, %r13d
	roll	$12, %r13d
	orl	%r12d, %r15d
	movl	%eax, %r12d
	roll	$20, %r12d
	andl	$252645135, %r13d               # imm = 0xF0F0F0F
	andl	$-252645136, %r12d              # imm = 0xF0F0F0F0
	roll	$12, %edi
	orl	%r13d, %r12d
	roll	$20, %r9d
	andl	$252645135, %edi                # imm = 0xF0F0F0F
	andl	$-252645136, %r9d               # imm = 0xF0F0F0F0
	orl	%edi, %r9d
	movq	48(%rsp), %rdi                  # 8-byte Reload
	movl	36(%rsp), %eax                  # 4-byte Reload
	xorl	-124(%rdi), %eax
	movl	%edx, %r13d
	xorl	%eax, %r13d
	movl	%r13d, 76(%rsp)                 # 4-byte Spill
	xorl	-120(%rdi), %ebx
	movl	8(%rsp), %edx                   # 4-byte Reload
	xorl	%ebx, %edx
	movl	20(%rsp), %eax                  # 4-byte Reload
	xorl	24(%rsp), %eax                  # 4-byte Folded Reload
	xorl	-116(%rdi), %r8d
	xorl	%r8d, %eax
	movl	%eax, %r8d
	xorl	-108(%rdi), %ecx
	xorl	%ecx, %ebp
	xorl	%r10d, %r11d
	xorl	-100(%rdi), %r12d
	xorl	-96(%rdi), %r9d
	xorl	%r12d, %r11d
	movl	4(%rsp), %r12d                  # 4-byte Reload
	xorl	40(%rsp), %r12d                 # 4-byte Folded Reload
	xorl	-104(%rdi), %r15d
	movq	%rdi, 48(%rsp)                  # 8-byte Spill
	xorl	%r9d, %r12d
	movl	12(%rsp), %r9d                  # 4-byte Reload
	xorl	28(%rsp), %r9d                  # 4-byte Folded Reload
	xorl	%r15d, %r9d
	xorl	%r11d, %r9d
	movl	%ebp, %r15d
	xorl	%r12d, %r15d
	movl	%r9d, %ecx
	xorl	%r13d, %ecx
	movl	%ecx, 72(%rsp)                  # 4-byte Spill
	movl	%ecx, %eax
	xorl	%ebp, %eax
	movl	%eax, 12(%rsp)                  # 4-byte Spill
	movl	%ecx, %r13d
	xorl	%edx, %r13d
	xorl	%r12d, %edx
	movl	%edx, 8(%rsp)                   # 4-byte Spill
	xorl	%r8d, %ebp
	xorl	%ebp, %edx
	movl	%ebp, %r10d
	movl	%ebp, 32(%rsp)                  # 4-byte Spill
	xorl	-112(%rdi), %esi
	xorl	16(%rsp), %r14d                 # 4-byte Folded Reload
	xorl	%esi, %r14d
	xorl	%edx, %r14d
	movl	%edx, %ecx
	movl	%edx, 24(%rsp)                  # 4-byte Spill
	movl	%r14d, %ebp
	xorl	%r8d, %ebp
	xorl	%r11d, %r14d
	xorl	%r12d, %r8d
	movl	%ebp, %edx
	andl	%ecx, %edx
	movl	%ebp, %eax
	xorl	%r9d, %eax
	movl	%eax, 16(%rsp)                  # 4-byte Spill
	movl	%eax, %esi
	xorl	%edx, %esi
	xorl	%r14d, %edx
	movl	%r14d, %ebx
	movl	%r15d, 40(%rsp)                 # 4-byte Spill
	xorl	%r15d, %ebx
	movl	%ebx, %edi
	andl	%r15d, %edi
	movl	%ebx, %ecx
	xorl	%eax, %ecx
	movl	%ecx, 28(%rsp)                  # 4-byte Spill
	andl	%r10d, %ecx
	movl	%r8d, 20(%rsp)                  # 4-byte Spill
	andl	%r8d, %eax
	xorl	%edi, %ecx
	xorl	%edi, %eax
	movl	12(%rsp), %edi                  # 4-byte Reload
	movl	76(%rsp), %r14d                 # 4-byte Reload
	andl	%r14d, %edi
	xorl	%r8d, %edi
	xorl	%edi, %esi
	movl	%ebp, %edi
	xorl	%r14d, %edi
	movl	%edi, 4(%rsp)                   # 4-byte Spill
	movl	%r13d, 44(%rsp)                 # 4-byte Spill
	movl	%r13d, %r11d
	xorl	%r8d, %r11d
	movl	%r11d, 36(%rsp)                 # 4-byte Spill
	andl	%r11d, %edi
	xorl	%edi, %edx
	movl	%r9d, %r10d
	xorl	%ebx, %r10d
	movl	%r13d, %r8d
	movl	72(%rsp), %r9d                  # 4-byte Reload
	andl	%r9d, %r8d
	movl	%r10d, %r11d
	movl	8(%rsp), %edi                   # 4-byte Reload
	andl	%edi, %r11d
	xorl	%ecx, %edx
	xorl	%r10d, %r8d
	xorl	%r11d, %r8d
	xorl	%edi, %r8d
	xorl	%ecx, %r8d
	movl	%r9d, %r15d
	xorl	%r12d, %r15d
	xorl	%r12d, %r11d
	movl	%ebx, %ecx
	xorl	%r14d, %ecx
	movl	%ecx, 60(%rsp)                  # 4-byte Spill
	andl	%r15d, %ecx
	xorl	%r10d, %ecx
	xorl	%ecx, %r11d
	xorl	%eax, %esi
	xorl	%eax, %r11d
	movl	%r8d, %r13d
	andl	%edx, %r13d
	movl	%r13d, %ecx
	xorl	%esi, %ecx
	movl	%r11d, %eax
	xorl	%r8d, %eax
	andl	%ecx, %eax
	xorl	%esi, %edx
	movl	%eax, %ecx
	xorl	%r13d, %eax
	xorl	%r11d, %r13d
	movl	%r13d, %edi
	andl	%edx, %edi
	xorl	%esi, %edi
	xorl	%r11d, %ecx
	andl	%r11d, %eax
	xorl	%eax, %r13d
	andl	%edi, %r13d
	xorl	%edx, %r13d
	xorl	%r8d, %eax
	andl	%ecx, 12(%rsp)                  # 4-byte Folded Spill
	movl	%eax, %esi
	xorl	%ecx, %esi
	movl	%edi, %r12d
	xorl	%ecx, %r12d
	andl	%r14d, %ecx
	movl	%r13d, %r8d
	xorl	%esi, %r8d
	andl	%r12d, %ebx
	movl	%ebx, 76(%rsp)                  # 4-byte Spill
	movl	%r8d, %edx
	xorl	%r12d, %edx
	andl	40(%rsp), %r12d                 # 4-byte Folded Reload
	movl	%r13d, %r11d
	xorl	%edi, %r11d
	andl	%r11d, %r10d
	andl	8(%rsp), %r11d                  # 4-byte Folded Reload
	andl	%r13d, %r9d
	andl	44(%rsp), %r13d                 # 4-byte Folded Reload
	movl	4(%rsp), %ebx                   # 4-byte Reload
	andl	%esi, %ebx
	andl	36(%rsp), %esi                  # 4-byte Folded Reload
	movl	32(%rsp), %r14d                 # 4-byte Reload
	andl	%edx, %r14d
	andl	28(%rsp), %edx                  # 4-byte Folded Reload
	andl	%edi, %r15d
	andl	60(%rsp), %edi                  # 4-byte Folded Reload
	andl	%eax, %ebp
	andl	24(%rsp), %eax                  # 4-byte Folded Reload
	xorl	%ebp, %ebx
	xorl	%ecx, %ebp
	xorl	%r10d, %r9d
	xorl	%ebp, %edi
	xorl	%r10d, %edi
	movl	%r14d, %ecx
	xorl	%r12d, %ecx
	xorl	%ecx, %esi
	xorl	%edi, %r13d
	xorl	%ecx, %r13d
	xorl	%r9d, %edx
	xorl	%r9d, %ebx
	movl	16(%rsp), %ecx                  # 4-byte Reload
	andl	%r8d, %ecx
	xorl	%esi, %eax
	xorl	%ecx, %ebp
	xorl	%r11d, %ebp
	xorl	%edx, %ebp
	xorl	%ebp, %r15d
	movl	%ebx, %ecx
	xorl	%eax, %ecx
	xorl	%r13d, %ebp
	movl	%ebp, %r10d
	xorl	76(%rsp), %edx                  # 4-byte Folded Reload
	movl	%ecx, %ebx
	xorl	%edx, %ebx
	xorl	%r11d, %r13d
	xorl	12(%rsp), %esi                  # 4-byte Folded Reload
	xorl	%ecx, %edi
	movl	%ecx, %ebp
	andl	20(%rsp), %r8d                  # 4-byte Folded Reload
	xorl	%r15d, %esi
	movl	%esi, %r11d
	xorl	%edx, %eax
	xorl	%r12d, %r8d
	xorl	%edx, %r8d
	xorl	%r15d, %r8d
	movl	%r8d, %esi
	movl	%r13d, %ecx
	roll	$20, %ecx
	movl	%r13d, %r8d
	roll	$28, %r8d
	andl	$252645135, %ecx                # imm = 0xF0F0F0F
	andl	$-252645136, %r8d               # imm = 0xF0F0F0F0
	movl	%r10d, %edx
	roll	$20, %edx
	orl	%ecx, %r8d
	movl	%r8d, 8(%rsp)                   # 4-byte Spill
	movl	%r10d, %r9d
	roll	$28, %r9d
	andl	$252645135, %edx                # imm = 0xF0F0F0F
	movl	%r11d, %ecx
	roll	$20, %ecx
	andl	$-252645136, %r9d               # imm = 0xF0F0F0F0
	movl	%r11d, %r15d
	movl	%r11d, %r8d
	roll	$28, %r15d
	orl	%edx, %r9d
	andl	$252645135, %ecx                # imm = 0xF0F0F0F
	andl	$-252645136, %r15d              # imm = 0xF0F0F0F0
	orl	%ecx, %r15d
	movl	%edi, %ecx
	roll	$20, %ecx
	movl	%edi, %edx
	roll	$28, %edx
	andl	$252645135, %ecx                # imm = 0xF0F0F0F
	andl	$-252645136, %edx               # imm = 0xF0F0F0F0
	orl	%ecx, %edx
	movl	%edx, 20(%rsp)                  # 4-byte Spill
	movl	%ebp, %r12d
	movl	%ebp, 4(%rsp)                   # 4-byte Spill
	movl	%ebp, %ecx
	roll	$20, %ecx
	roll	$28, %r12d
	andl	$252645135, %ecx                # imm = 0xF0F0F0F
	andl	$-252645136, %r12d              # imm = 0xF0F0F0F0
	movl	%esi, %r11d
	roll	$20, %r11d
	orl	%ecx, %r12d
	movl	%esi, %edx
	roll	$28, %edx
	andl	$252645135, %r11d               # imm = 0xF0F0F0F
	movl	%ebx, %ecx
	movl	%ebx, 16(%rsp)                  # 4-byte Spill
	roll	$20, %ebx
	andl	$-252645136, %edx               # imm = 0xF0F0F0F0
	roll	$28, %ecx
	orl	%r11d, %edx
	andl	$252645135, %ebx                # imm = 0xF0F0F0F
	andl	$-252645136, %ecx               # imm = 0xF0F0F0F0
	orl	%ebx, %ecx
	movl	%eax, %r11d
	roll	$20, %r11d
	movl	%eax, %r14d
	roll	$28, %r14d
	andl	$252645135, %r11d               # imm = 0xF0F0F0F
	andl	$-252645136, %r14d              # imm = 0xF0F0F0F0
	orl	%r11d, %r14d
	movl	8(%rsp), %ebp                   # 4-byte Reload
	xorl	%ebp, %r13d
	xorl	%r14d, %eax
	movl	%r13d, %r11d
	roll	$16, %r11d
	movq	48(%rsp), %rbx                  # 8-byte Reload
	xorl	-92(%rbx), %r11d
	xorl	%eax, %ebp
	xorl	%r11d, %ebp
	movl	%ebp, 8(%rsp)                   # 4-byte Spill
	movl	%r10d, %ebp
	xorl	%r9d, %ebp
	movl	%ebp, %r11d
	roll	$16, %r11d
	xorl	-88(%rbx), %r11d
	xorl	%r9d, %r13d
	xorl	%eax, %r13d
	xorl	%r11d, %r13d
	xorl	%r15d, %r8d
	xorl	20(%rsp), %edi                  # 4-byte Folded Reload
	movl	4(%rsp), %r10d                  # 4-byte Reload
	xorl	%r12d, %r10d
	xorl	%edx, %esi
	xorl	%r15d, %ebp
	movl	%eax, %r9d
	xorl	%eax, %r12d
	xorl	%r8d, %eax
	roll	$16, %r8d
	xorl	%edi, %r12d
	roll	$16, %edi
	xorl	-84(%rbx), %r8d
	xorl	%r8d, %ebp
	movl	%r10d, %r8d
	roll	$16, %r8d
	movl	16(%rsp), %r15d                 # 4-byte Reload
	xorl	%ecx, %r15d
	xorl	-76(%rbx), %r8d
	xorl	%r8d, %r12d
	movl	%esi, %r8d
	roll	$16, %r8d
	movl	%r15d, %r11d
	roll	$16, %r11d
	roll	$16, %r9d
	xorl	%ecx, %esi
	xorl	-68(%rbx), %r11d
	xorl	%r11d, %esi
	xorl	-64(%rbx), %r9d
	xorl	%r14d, %r15d
	xorl	%r9d, %r15d
	xorl	-72(%rbx), %r8d
	xorl	%edx, %r10d
	xorl	%r8d, %r10d
	xorl	%esi, %r10d
	movl	%r12d, %r8d
	xorl	%r15d, %r8d
	movl	%r10d, %r11d
	movl	%r10d, 4(%rsp)                  # 4-byte Spill
	xorl	8(%rsp), %r11d                  # 4-byte Folded Reload
	movl	%r11d, %ecx
	xorl	%r12d, %ecx
	movl	%ecx, 12(%rsp)                  # 4-byte Spill
	movl	%r11d, %r14d
	xorl	%r13d, %r14d
	xorl	%r15d, %r13d
	movl	%r15d, 16(%rsp)                 # 4-byte Spill
	xorl	%ebp, %r12d
	movl	%r13d, %ecx
	xorl	%r12d, %ecx
	xorl	-80(%rbx), %edi
	xorl	20(%rsp), %eax                  # 4-byte Folded Reload
	xorl	%edi, %eax
	xorl	%ecx, %eax
	movl	%ecx, 28(%rsp)                  # 4-byte Spill
	movl	%eax, %r9d
	xorl	%ebp, %r9d
	xorl	%esi, %eax
	xorl	%r15d, %ebp
	movl	%r9d, %edx
	andl	%ecx, %edx
	movl	%r9d, %ecx
	movl	%r9d, 20(%rsp)                  # 4-byte Spill
	xorl	%r10d, %ecx
	movl	%ecx, %r10d
	movl	%ecx, 36(%rsp)                  # 4-byte Spill
	xorl	%edx, %ecx
	xorl	%eax, %edx
	movl	%eax, %ebx
	movl	%r8d, 60(%rsp)                  # 4-byte Spill
	xorl	%r8d, %ebx
	movl	%ebx, %edi
	andl	%r8d, %edi
	movl	%ebx, %esi
	xorl	%r10d, %esi
	movl	%esi, 40(%rsp)                  # 4-byte Spill
	andl	%r12d, %esi
	movl	%r10d, %eax
	movl	%ebp, 32(%rsp)                  # 4-byte Spill
	andl	%ebp, %eax
	xorl	%edi, %esi
	xorl	%edi, %eax
	movl	12(%rsp), %edi                  # 4-byte Reload
	movl	8(%rsp), %r15d                  # 4-byte Reload
	andl	%r15d, %edi
	xorl	%ebp, %edi
	xorl	%edi, %ecx
	movl	%r9d, %r10d
	xorl	%r15d, %r10d
	movl	%r14d, %r9d
	movl	%r14d, 72(%rsp)                 # 4-byte Spill
	xorl	%ebp, %r14d
	movl	%r14d, 44(%rsp)                 # 4-byte Spill
	movl	%r10d, %edi
	andl	%r14d, %edi
	xorl	%edi, %edx
	movl	4(%rsp), %r8d                   # 4-byte Reload
	movl	%ebx, %ebp
	movl	%ebx, 24(%rsp)                  # 4-byte Spill
	xorl	%ebx, %r8d
	movl	%r9d, %edi
	andl	%r11d, %edi
	movl	%r8d, %r9d
	andl	%r13d, %r9d
	xorl	%esi, %edx
	xorl	%r8d, %edi
	movl	%r8d, 4(%rsp)                   # 4-byte Spill
	xorl	%r9d, %edi
	xorl	%r13d, %edi
	xorl	%esi, %edi
	movl	%r11d, %ebx
	movl	16(%rsp), %esi                  # 4-byte Reload
	xorl	%esi, %ebx
	xorl	%esi, %r9d
	movl	%ebp, %esi
	xorl	%r15d, %esi
	movl	%esi, 16(%rsp)                  # 4-byte Spill
	andl	%ebx, %esi
	xorl	%r8d, %esi
	xorl	%esi, %r9d
	xorl	%eax, %ecx
	xorl	%eax, %r9d
	movl	%edi, %r14d
	andl	%edx, %r14d
	movl	%r14d, %eax
	xorl	%ecx, %eax
	movl	%r9d, %r8d
	xorl	%edi, %r8d
	andl	%eax, %r8d
	xorl	%ecx, %edx
	movl	%r8d, %ebp
	xorl	%r14d, %r8d
	xorl	%r9d, %r14d
	movl	%r14d, %eax
	andl	%edx, %eax
	xorl	%ecx, %eax
	xorl	%r9d, %ebp
	andl	%r9d, %r8d
	xorl	%r8d, %r14d
	andl	%eax, %r14d
	xorl	%edx, %r14d
	xorl	%edi, %r8d
	andl	%ebp, 12(%rsp)                  # 4-byte Folded Spill
	movl	%r8d, %r9d
	xorl	%ebp, %r9d
	movl	%eax, %ecx
	xorl	%ebp, %ecx
	andl	%r15d, %ebp
	movl	%r14d, %esi
	xorl	%r9d, %esi
	andl	%ecx, 24(%rsp)                  # 4-byte Folded Spill
	movl	%esi, %edi
	xorl	%ecx, %edi
	andl	60(%rsp), %ecx                  # 4-byte Folded Reload
	movl	%r14d, %r15d
	xorl	%eax, %r15d
	andl	%r15d, 4(%rsp)                  # 4-byte Folded Spill
	andl	%r13d, %r15d
	andl	%r14d, %r11d
	andl	72(%rsp), %r14d                 # 4-byte Folded Reload
	andl	%r9d, %r10d
	andl	44(%rsp), %r9d                  # 4-byte Folded Reload
	andl	%edi, %r12d
	andl	40(%rsp), %edi                  # 4-byte Folded Reload
	andl	%eax, %ebx
	andl	16(%rsp), %eax                  # 4-byte Folded Reload
	movl	20(%rsp), %edx                  # 4-byte Reload
	andl	%r8d, %edx
	andl	28(%rsp), %r8d                  # 4-byte Folded Reload
	xorl	%edx, %r10d
	xorl	%ebp, %edx
	movl	4(%rsp), %ebp                   # 4-byte Reload
	xorl	%ebp, %r11d
	xorl	%edx, %eax
	xorl	%ebp, %eax
	xorl	%ecx, %r12d
	xorl	%r12d, %r9d
	xorl	%eax, %r14d
	xorl	%r12d, %r14d
	xorl	%r11d, %edi
	xorl	%r11d, %r10d
	movl	36(%rsp), %r11d                 # 4-byte Reload
	andl	%esi, %r11d
	xorl	%r9d, %r8d
	xorl	%r11d, %edx
	xorl	%r15d, %edx
	xorl	%edi, %edx
	xorl	%edx, %ebx
	xorl	%r8d, %r10d
	xorl	%r14d, %edx
	movl	%edx, %r11d
	xorl	24(%rsp), %edi                  # 4-byte Folded Reload
	movl	%r10d, %r12d
	xorl	%edi, %r12d
	xorl	%r15d, %r14d
	xorl	12(%rsp), %r9d                  # 4-byte Folded Reload
	xorl	%r10d, %eax
	movl	%r10d, %ebp
	andl	32(%rsp), %esi                  # 4-byte Folded Reload
	xorl	%ebx, %r9d
	xorl	%edi, %r8d
	xorl	%ecx, %esi
	xorl	%edi, %esi
	movl	%r14d, %ecx
	roll	$18, %ecx
	xorl	%ebx, %esi
	movl	%r14d, %r10d
	roll	$26, %r10d
	andl	$50529027, %ecx                 # imm = 0x3030303
	movl	%edx, %edi
	roll	$18, %edi
	andl	$-50529028, %r10d               # imm = 0xFCFCFCFC
	roll	$26, %edx
	orl	%ecx, %r10d
	movl	%r10d, %ebx
	andl	$50529027, %edi                 # imm = 0x3030303
	andl	$-50529028, %edx                # imm = 0xFCFCFCFC
	orl	%edi, %edx
	movl	%r9d, %ecx
	roll	$18, %ecx
	movl	%r9d, %edi
	roll	$26, %edi
	andl	$50529027, %ecx                 # imm = 0x3030303
	andl	$-50529028, %edi                # imm = 0xFCFCFCFC
	orl	%ecx, %edi
	movl	%edi, %r15d
	movl	%edi, 36(%rsp)                  # 4-byte Spill
	movl	%eax, %ecx
	roll	$18, %ecx
	movl	%eax, %r10d
	roll	$26, %r10d
	andl	$50529027, %ecx                 # imm = 0x3030303
	andl	$-50529028, %r10d               # imm = 0xFCFCFCFC
	movl	%ebp, %edi
	roll	$18, %edi
	orl	%ecx, %r10d
	movl	%r10d, 16(%rsp)                 # 4-byte Spill
	movl	%ebp, %r13d
	movl	%ebp, %r10d
	roll	$26, %r13d
	andl	$50529027, %edi                 # imm = 0x3030303
	movl	%esi, 12(%rsp)                  # 4-byte Spill
	movl	%esi, %ecx
	roll	$18, %ecx
	andl	$-50529028, %r13d               # imm = 0xFCFCFCFC
	movl	%esi, %ebp
	roll	$26, %ebp
	orl	%edi, %r13d
	andl	$50529027, %ecx                 # imm = 0x3030303
	andl	$-50529028, %ebp                # imm = 0xFCFCFCFC
	orl	%ecx, %ebp
	movl	%ebp, 24(%rsp)                  # 4-byte Spill
	movl	%r12d, %ebp
	movl	%r12d, 8(%rsp)                  # 4-byte Spill
	movl	%r12d, %ecx
	roll	$18, %ecx
	roll	$26, %ebp
	andl	$50529027, %ecx                 # imm = 0x3030303
	andl	$-50529028, %ebp                # imm = 0xFCFCFCFC
	orl	%ecx, %ebp
	movl	%r8d, %ecx
	roll	$18, %ecx
	movl	%r8d, %esi
	roll	$26, %esi
	movl	%esi, %edi
	andl	$50529027, %ecx                 # imm = 0x3030303
	xorl	%ebx, %r14d
	movl	%ebx, %esi
	movl	%r14d, %ebx
	roll	$12, %ebx
	andl	$-50529028, %edi                # imm = 0xFCFCFCFC
	movl	%r14d, %r12d
	roll	$20, %r12d
	orl	%ecx, %edi
	movl	%edi, 32(%rsp)                  # 4-byte Spill
	andl	$252645135, %ebx                # imm = 0xF0F0F0F
	andl	$-252645136, %r12d              # imm = 0xF0F0F0F0
	orl	%ebx, %r12d
	movl	%r12d, 28(%rsp)                 # 4-byte Spill
	movl	%r11d, %ebx
	xorl	%edx, %ebx
	movl	%ebx, 20(%rsp)                  # 4-byte Spill
	movl	%ebx, %ecx
	roll	$12, %ecx
	roll	$20, %ebx
	andl	$252645135, %ecx                # imm = 0xF0F0F0F
	andl	$-252645136, %ebx               # imm = 0xF0F0F0F0
	orl	%ecx, %ebx
	xorl	%edx, %r14d
	xorl	%r15d, %r9d
	xorl	%r13d, %r10d
	xorl	%edi, %r8d
	xorl	%r8d, %esi
	xorl	%r8d, %r14d
	xorl	%r8d, %r13d
	movl	%r8d, %edi
	movl	%r8d, %ecx
	xorl	%r9d, %r8d
	movl	%r9d, %r15d
	movl	%r9d, %r12d
	roll	$12, %r12d
	xorl	16(%rsp), %eax                  # 4-byte Folded Reload
	roll	$20, %r15d
	andl	$252645135, %r12d               # imm = 0xF0F0F0F
	andl	$-252645136, %r15d              # imm = 0xF0F0F0F0
	xorl	%eax, %r13d
	movl	%eax, %r9d
	roll	$12, %eax
	roll	$20, %r9d
	orl	%r12d, %r15d
	andl	$252645135, %eax                # imm = 0xF0F0F0F
	andl	$-252645136, %r9d               # imm = 0xF0F0F0F0
	orl	%eax, %r9d
	movl	12(%rsp), %r11d                 # 4-byte Reload
	xorl	24(%rsp), %r11d                 # 4-byte Folded Reload
	movl	%r11d, 12(%rsp)                 # 4-byte Spill
	movl	%r10d, %r12d
	movl	%r10d, 4(%rsp)                  # 4-byte Spill
	movl	%r10d, %eax
	roll	$12, %eax
	roll	$20, %r12d
	andl	$252645135, %eax                # imm = 0xF0F0F0F
	andl	$-252645136, %r12d              # imm = 0xF0F0F0F0
	movl	%r11d, %edx
	roll	$12, %edx
	orl	%eax, %r12d
	movl	%r11d, %eax
	roll	$20, %eax
	andl	$252645135, %edx                # imm = 0xF0F0F0F
	andl	$-252645136, %eax               # imm = 0xF0F0F0F0
	orl	%edx, %eax
	movl	8(%rsp), %r10d                  # 4-byte Reload
	xorl	%ebp, %r10d
	movl	%r10d, %edx
	roll	$12, %edx
	movl	%r10d, %r11d
	roll	$20, %r11d
	andl	$252645135, %edx                # imm = 0xF0F0F0F
	andl	$-252645136, %r11d              # imm = 0xF0F0F0F0
	roll	$12, %edi
	roll	$20, %ecx
	orl	%edx, %r11d
	andl	$252645135, %edi                # imm = 0xF0F0F0F
	andl	$-252645136, %ecx               # imm = 0xF0F0F0F0
	orl	%edi, %ecx
	movq	48(%rsp), %rdx                  # 8-byte Reload
	movl	28(%rsp), %edi                  # 4-byte Reload
	xorl	-60(%rdx), %edi
	xorl	-56(%rdx), %ebx
	xorl	%edi, %esi
	xorl	%ebx, %r14d
	xorl	-52(%rdx), %r15d
	movl	20(%rsp), %edi                  # 4-byte Reload
	xorl	36(%rsp), %edi                  # 4-byte Folded Reload
	xorl	%r15d, %edi
	movl	%edi, %ebx
	xorl	-44(%rdx), %r12d
	xorl	%r12d, %r13d
	movl	12(%rsp), %edi                  # 4-byte Reload
	xorl	%ebp, %edi
	xorl	-36(%rdx), %r11d
	xorl	%r11d, %edi
	xorl	-32(%rdx), %ecx
	xorl	32(%rsp), %r10d                 # 4-byte Folded Reload
	xorl	%ecx, %r10d
	xorl	-40(%rdx), %eax
	movl	4(%rsp), %ecx                   # 4-byte Reload
	xorl	24(%rsp), %ecx                  # 4-byte Folded Reload
	xorl	%eax, %ecx
	xorl	%edi, %ecx
	movl	%edi, %eax
	movl	%r13d, %r11d
	xorl	%r10d, %r11d
	movl	%ecx, %edi
	movl	%ecx, %r12d
	xorl	%esi, %edi
	movl	%edi, 28(%rsp)                  # 4-byte Spill
	movl	%esi, %r15d
	movl	%edi, %ecx
	xorl	%r13d, %ecx
	movl	%ecx, %esi
	movl	%edi, %ecx
	xorl	%r14d, %ecx
	movl	%ecx, 24(%rsp)                  # 4-byte Spill
	xorl	%r10d, %r14d
	movl	%r10d, 8(%rsp)                  # 4-byte Spill
	xorl	%ebx, %r13d
	movl	%r14d, %ecx
	xorl	%r13d, %ecx
	movl	%r13d, 40(%rsp)                 # 4-byte Spill
	xorl	-48(%rdx), %r9d
	xorl	16(%rsp), %r8d                  # 4-byte Folded Reload
	xorl	%r9d, %r8d
	xorl	%ecx, %r8d
	movl	%ecx, 32(%rsp)                  # 4-byte Spill
	movl	%r8d, %edi
	xorl	%ebx, %edi
	xorl	%eax, %r8d
	xorl	%r10d, %ebx
	movl	%edi, %r9d
	andl	%ecx, %r9d
	movl	%edi, %eax
	xorl	%r12d, %eax
	movl	%eax, %edx
	movl	%eax, 16(%rsp)                  # 4-byte Spill
	movl	%eax, %ecx
	xorl	%r9d, %ecx
	xorl	%r8d, %r9d
	movl	%r8d, %ebp
	movl	%r11d, 60(%rsp)                 # 4-byte Spill
	xorl	%r11d, %ebp
	movl	%ebp, %eax
	andl	%r11d, %eax
	movl	%ebp, %r10d
	xorl	%edx, %r10d
	movl	%r10d, 36(%rsp)                 # 4-byte Spill
	movl	%r10d, %r8d
	andl	%r13d, %r8d
	movl	%ebx, 20(%rsp)                  # 4-byte Spill
	andl	%ebx, %edx
	xorl	%eax, %r8d
	xorl	%eax, %edx
	movl	%esi, %eax
	movl	%esi, %r13d
	andl	%r15d, %eax
	xorl	%ebx, %eax
	xorl	%eax, %ecx
	movl	%edi, %r10d
	xorl	%r15d, %r10d
	movl	24(%rsp), %r11d                 # 4-byte Reload
	movl	%r11d, %esi
	xorl	%ebx, %esi
	movl	%esi, 44(%rsp)                  # 4-byte Spill
	movl	%r10d, %eax
	andl	%esi, %eax
	xorl	%eax, %r9d
	movl	%ebp, 12(%rsp)                  # 4-byte Spill
	xorl	%ebp, %r12d
	movl	%r11d, %esi
	movl	28(%rsp), %ebx                  # 4-byte Reload
	andl	%ebx, %esi
	movl	%r12d, %eax
	andl	%r14d, %eax
	xorl	%r8d, %r9d
	xorl	%r12d, %esi
	movl	%r12d, %r11d
	movl	%r12d, 4(%rsp)                  # 4-byte Spill
	xorl	%eax, %esi
	xorl	%r14d, %esi
	xorl	%r8d, %esi
	movl	%ebx, %r12d
	movl	8(%rsp), %r8d                   # 4-byte Reload
	xorl	%r8d, %r12d
	xorl	%r8d, %eax
	xorl	%r15d, %ebp
	movl	%ebp, 72(%rsp)                  # 4-byte Spill
	andl	%r12d, %ebp
	xorl	%r11d, %ebp
	xorl	%ebp, %eax
	xorl	%edx, %ecx
	xorl	%edx, %eax
	movl	%esi, %ebp
	andl	%r9d, %ebp
	movl	%ebp, %edx
	xorl	%ecx, %edx
	movl	%eax, %r8d
	xorl	%esi, %r8d
	andl	%edx, %r8d
	xorl	%ecx, %r9d
	movl	%r8d, %ebx
	xorl	%ebp, %r8d
	xorl	%eax, %ebp
	movl	%ebp, %edx
	andl	%r9d, %edx
	xorl	%ecx, %edx
	xorl	%eax, %ebx
	andl	%eax, %r8d
	xorl	%r8d, %ebp
	andl	%edx, %ebp
	xorl	%r9d, %ebp
	xorl	%esi, %r8d
	andl	%ebx, %r13d
	movl	%r13d, 8(%rsp)                  # 4-byte Spill
	movl	%r8d, %r11d
	xorl	%ebx, %r11d
	movl	%edx, %r9d
	xorl	%ebx, %r9d
	andl	%r15d, %ebx
	movl	%ebp, %r13d
	xorl	%r11d, %r13d
	andl	%r9d, 12(%rsp)                  # 4-byte Folded Spill
	movl	%r13d, %esi
	xorl	%r9d, %esi
	andl	60(%rsp), %r9d                  # 4-byte Folded Reload
	movl	%ebp, %ecx
	xorl	%edx, %ecx
	andl	%ecx, 4(%rsp)                   # 4-byte Folded Spill
	andl	%r14d, %ecx
	movl	28(%rsp), %r14d                 # 4-byte Reload
	andl	%ebp, %r14d
	andl	24(%rsp), %ebp                  # 4-byte Folded Reload
	andl	%r11d, %r10d
	andl	44(%rsp), %r11d                 # 4-byte Folded Reload
	movl	40(%rsp), %eax                  # 4-byte Reload
	andl	%esi, %eax
	andl	36(%rsp), %esi                  # 4-byte Folded Reload
	andl	%edx, %r12d
	andl	72(%rsp), %edx                  # 4-byte Folded Reload
	andl	%r8d, %edi
	andl	32(%rsp), %r8d                  # 4-byte Folded Reload
	xorl	%edi, %r10d
	xorl	%ebx, %edi
	movl	4(%rsp), %ebx                   # 4-byte Reload
	xorl	%ebx, %r14d
	xorl	%edi, %edx
	xorl	%ebx, %edx
	xorl	%r9d, %eax
	xorl	%eax, %r11d
	xorl	%edx, %ebp
	xorl	%eax, %ebp
	xorl	%r14d, %esi
	xorl	%r14d, %r10d
	movl	16(%rsp), %eax                  # 4-byte Reload
	andl	%r13d, %eax
	xorl	%eax, %edi
	xorl	%ecx, %edi
	xorl	%esi, %edi
	xorl	12(%rsp), %esi                  # 4-byte Folded Reload
	xorl	%r11d, %r8d
	xorl	%edi, %r12d
	xorl	%r8d, %r10d
	xorl	%ebp, %edi
	xorl	%ecx, %ebp
	movl	%r10d, %r15d
	xorl	%esi, %r15d
	xorl	8(%rsp), %r11d                  # 4-byte Folded Reload
	xorl	%r10d, %edx
	andl	20(%rsp), %r13d                 # 4-byte Folded Reload
	xorl	%r12d, %r11d
	xorl	%esi, %r8d
	xorl	%r9d, %r13d
	movl	%ebp, %r9d
	roll	$24, %r9d
	xorl	%esi, %r13d
	movl	%edi, %eax
	roll	$24, %eax
	xorl	%r12d, %r13d
	movl	%r11d, %esi
	roll	$24, %esi
	movl	%r8d, %ecx
	roll	$24, %ecx
	xorl	%r9d, %ebp
	xorl	%ecx, %r8d
	movl	%ebp, %ebx
	roll	$16, %ebx
	movq	48(%rsp), %r14                  # 8-byte Reload
	xorl	-28(%r14), %ebx
	xorl	%r8d, %r9d
	xorl	%ebx, %r9d
	movl	%edx, %ebx
	roll	$24, %ebx
	xorl	%eax, %edi
	xorl	%eax, %ebp
	movl	%edi, %eax
	roll	$16, %eax
	xorl	%esi, %r11d
	xorl	-24(%r14), %eax
	xorl	%r8d, %ebp
	xorl	%eax, %ebp
	movl	%r11d, %eax
	roll	$16, %eax
	xorl	%esi, %edi
	xorl	-20(%r14), %eax
	xorl	%eax, %edi
	movl	%r10d, %esi
	roll	$24, %esi
	xorl	%ebx, %edx
	xorl	%esi, %r10d
	xorl	%r8d, %r11d
	xorl	%ebx, %r11d
	movl	%r8d, %eax
	xorl	%esi, %r8d
	movl	%r13d, %esi
	roll	$24, %esi
	xorl	%edx, %r8d
	roll	$16, %edx
	xorl	-16(%r14), %edx
	xorl	%edx, %r11d
	movl	%r10d, %edx
	roll	$16, %edx
	xorl	-12(%r14), %edx
	xorl	%edx, %r8d
	movl	%r15d, %edx
	roll	$24, %edx
	xorl	%esi, %r13d
	xorl	%edx, %r15d
	xorl	%esi, %r10d
	movl	%r13d, %esi
	roll	$16, %esi
	xorl	-8(%r14), %esi
	xorl	%esi, %r10d
	movl	%r15d, %esi
	roll	$16, %esi
	xorl	%edx, %r13d
	movq	%r14, %rdx
	xorl	-4(%r14), %esi
	xorl	%esi, %r13d
	roll	$16, %eax
	xorl	(%r14), %eax
	xorl	%ecx, %r15d
	movq	64(%rsp), %rcx                  # 8-byte Reload
	xorl	%eax, %r15d
	subq	$-128, %rdx
	movq	%rdx, 48(%rsp)                  # 8-byte Spill
	decq	%rcx
	jne	.Laes_v1_BB6_2
.Laes_v1_BB6_3:                                # %after.3.i
	xorl	%r13d, %r10d
	movl	%r15d, %ebx
	xorl	%r8d, %ebx
	movl	%r10d, %eax
	xorl	%r9d, %eax
	movl	%eax, 48(%rsp)                  # 4-byte Spill
	xorl	%r8d, %eax
	movl	%eax, %edx
	movl	%eax, 12(%rsp)                  # 4-byte Spill
	movl	%r15d, %r14d
	xorl	%ebp, %r14d
	movl	%r14d, 16(%rsp)                 # 4-byte Spill
	xorl	%edi, %r8d
	xorl	%r8d, %r14d
	xorl	%r14d, %r11d
	movl	%r14d, 64(%rsp)                 # 4-byte Spill
	movl	%r11d, %eax
	xorl	%edi, %eax
	movl	%eax, %esi
	xorl	%r13d, %r11d
	xorl	%r15d, %edi
	movl	%r11d, %ecx
	movl	%ebx, 32(%rsp)                  # 4-byte Spill
	xorl	%ebx, %ecx
	movl	%ecx, %eax
	movl	%ecx, %r12d
	andl	%ebx, %eax
	movl	%esi, %ecx
	movl	%esi, 20(%rsp)                  # 4-byte Spill
	xorl	%r10d, %ecx
	movl	%r12d, %ebx
	xorl	%ecx, %ebx
	movl	%ebx, 28(%rsp)                  # 4-byte Spill
	movl	%ecx, %r13d
	movl	%ebx, %ecx
	andl	%r8d, %ecx
	movl	%r13d, %ebx
	movl	%r13d, 24(%rsp)                 # 4-byte Spill
	andl	%edi, %ebx
	xorl	%eax, %ecx
	xorl	%eax, %ebx
	movl	%edx, %eax
	andl	%r9d, %eax
	movl	%esi, %edx
	andl	%r14d, %edx
	xorl	%edi, %eax
	xorl	%r13d, %eax
	xorl	%edx, %eax
	xorl	%r11d, %edx
	movl	48(%rsp), %r13d                 # 4-byte Reload
	xorl	%r13d, %ebp
	movl	%esi, %r11d
	xorl	%r9d, %r11d
	movl	%r11d, 4(%rsp)                  # 4-byte Spill
	movl	%ebp, %esi
	xorl	%edi, %esi
	movl	%esi, 36(%rsp)                  # 4-byte Spill
	andl	%esi, %r11d
	xorl	%r11d, %edx
	movl	%r12d, %r11d
	movl	%r12d, 8(%rsp)                  # 4-byte Spill
	xorl	%r12d, %r10d
	movl	%ebp, %r12d
	andl	%r13d, %r12d
	movl	%r13d, %esi
	movl	%r10d, %r13d
	movl	16(%rsp), %r14d                 # 4-byte Reload
	andl	%r14d, %r13d
	xorl	%ecx, %edx
	xorl	%r10d, %r12d
	xorl	%r13d, %r12d
	xorl	%r14d, %r12d
	xorl	%ecx, %r12d
	movl	%esi, %r14d
	xorl	%r15d, %r14d
	movl	%r14d, 44(%rsp)                 # 4-byte Spill
	xorl	%r15d, %r13d
	movl	%r11d, %ecx
	xorl	%r9d, %ecx
	movl	%ecx, 40(%rsp)                  # 4-byte Spill
	andl	%r14d, %ecx
	xorl	%r10d, %ecx
	xorl	%ecx, %r13d
	xorl	%ebx, %eax
	xorl	%ebx, %r13d
	movl	%r12d, %r11d
	andl	%edx, %r11d
	movl	%r11d, %ebx
	xorl	%eax, %ebx
	movl	%r13d, %r14d
	xorl	%r12d, %r14d
	andl	%ebx, %r14d
	xorl	%eax, %edx
	movl	%r14d, %r15d
	xorl	%r11d, %r14d
	xorl	%r13d, %r11d
	movl	%r11d, %ecx
	andl	%edx, %ecx
	xorl	%eax, %ecx
	xorl	%r13d, %r15d
	andl	%r13d, %r14d
	xorl	%r14d, %r11d
	andl	%ecx, %r11d
	xorl	%edx, %r11d
	xorl	%r12d, %r14d
	andl	%r15d, 12(%rsp)                 # 4-byte Folded Spill
	movl	%r14d, %r13d
	xorl	%r15d, %r13d
	movl	%ecx, %edx
	xorl	%r15d, %edx
	andl	%r9d, %r15d
	movl	%r11d, %r12d
	xorl	%r13d, %r12d
	andl	%edx, 8(%rsp)                   # 4-byte Folded Spill
	movl	%r12d, %r9d
	xorl	%edx, %r9d
	andl	32(%rsp), %edx                  # 4-byte Folded Reload
	movl	%r11d, %ebx
	xorl	%ecx, %ebx
	andl	%ebx, %r10d
	andl	16(%rsp), %ebx                  # 4-byte Folded Reload
	andl	%r11d, %esi
	movl	%esi, 48(%rsp)                  # 4-byte Spill
	andl	%ebp, %r11d
	movl	4(%rsp), %ebp                   # 4-byte Reload
	andl	%r13d, %ebp
	andl	36(%rsp), %r13d                 # 4-byte Folded Reload
	andl	%r9d, %r8d
	andl	28(%rsp), %r9d                  # 4-byte Folded Reload
	movl	44(%rsp), %eax                  # 4-byte Reload
	andl	%ecx, %eax
	andl	40(%rsp), %ecx                  # 4-byte Folded Reload
	movl	20(%rsp), %esi                  # 4-byte Reload
	andl	%r14d, %esi
	andl	64(%rsp), %r14d                 # 4-byte Folded Reload
	xorl	%esi, %ebp
	xorl	%r15d, %esi
	movl	48(%rsp), %r15d                 # 4-byte Reload
	xorl	%r10d, %r15d
	xorl	%esi, %ecx
	xorl	%r10d, %ecx
	xorl	%edx, %r8d
	xorl	%r8d, %r13d
	xorl	%ecx, %r11d
	xorl	%r8d, %r11d
	movl	%r15d, %r8d
	xorl	%r15d, %r9d
	movl	%ebp, %r15d
	xorl	%r8d, %r15d
	movl	24(%rsp), %r8d                  # 4-byte Reload
	andl	%r12d, %r8d
	xorl	%r13d, %r14d
	movl	%esi, %r10d
	xorl	%r8d, %r10d
	xorl	%ebx, %r10d
	xorl	%r9d, %r10d
	xorl	%r10d, %eax
	xorl	%r14d, %r15d
	xorl	%r11d, %r10d
	xorl	8(%rsp), %r9d                   # 4-byte Folded Reload
	movl	%r15d, %r8d
	xorl	%r9d, %r8d
	xorl	%ebx, %r11d
	xorl	12(%rsp), %r13d                 # 4-byte Folded Reload
	xorl	%r15d, %ecx
	andl	%edi, %r12d
	xorl	%eax, %r13d
	movl	%eax, %ebp
	xorl	%r9d, %r14d
	xorl	%edx, %r12d
	movl	%r11d, %eax
	roll	$22, %eax
	xorl	%r9d, %r12d
	movl	%r11d, %edx
	roll	$30, %edx
	xorl	%ebp, %r12d
	andl	$1061109567, %eax               # imm = 0x3F3F3F3F
	andl	$-1061109568, %edx              # imm = 0xC0C0C0C0
	orl	%eax, %edx
	movl	%edx, %ebx
	movl	%edx, 48(%rsp)                  # 4-byte Spill
	movl	%r10d, %eax
	roll	$22, %eax
	movl	%r10d, %ebp
	roll	$30, %ebp
	andl	$1061109567, %eax               # imm = 0x3F3F3F3F
	andl	$-1061109568, %ebp              # imm = 0xC0C0C0C0
	orl	%eax, %ebp
	movl	%r13d, %eax
	roll	$22, %eax
	movl	%r13d, %edi
	roll	$30, %edi
	andl	$1061109567, %eax               # imm = 0x3F3F3F3F
	andl	$-1061109568, %edi              # imm = 0xC0C0C0C0
	movl	%ecx, 64(%rsp)                  # 4-byte Spill
	movl	%ecx, %edx
	roll	$22, %edx
	orl	%eax, %edi
	movl	%edi, 32(%rsp)                  # 4-byte Spill
	movl	%ecx, %esi
	roll	$30, %esi
	andl	$1061109567, %edx               # imm = 0x3F3F3F3F
	movl	%r15d, 4(%rsp)                  # 4-byte Spill
	movl	%r15d, %eax
	roll	$22, %eax
	andl	$-1061109568, %esi              # imm = 0xC0C0C0C0
	roll	$30, %r15d
	orl	%edx, %esi
	movl	%esi, 12(%rsp)                  # 4-byte Spill
	andl	$1061109567, %eax               # imm = 0x3F3F3F3F
	andl	$-1061109568, %r15d             # imm = 0xC0C0C0C0
	orl	%eax, %r15d
	movl	%r12d, %eax
	roll	$22, %eax
	movl	%r12d, %ecx
	roll	$30, %ecx
	andl	$1061109567, %eax               # imm = 0x3F3F3F3F
	andl	$-1061109568, %ecx              # imm = 0xC0C0C0C0
	orl	%eax, %ecx
	movl	%ecx, 16(%rsp)                  # 4-byte Spill
	movl	%r8d, 28(%rsp)                  # 4-byte Spill
	movl	%r8d, %eax
	roll	$22, %eax
	movl	%r8d, %ecx
	roll	$30, %ecx
	andl	$1061109567, %eax               # imm = 0x3F3F3F3F
	andl	$-1061109568, %ecx              # imm = 0xC0C0C0C0
	movl	%r14d, %esi
	roll	$22, %esi
	orl	%eax, %ecx
	movl	%ecx, 24(%rsp)                  # 4-byte Spill
	movl	%r14d, %edx
	roll	$30, %edx
	andl	$1061109567, %esi               # imm = 0x3F3F3F3F
	andl	$-1061109568, %edx              # imm = 0xC0C0C0C0
	orl	%esi, %edx
	movl	%edx, 36(%rsp)                  # 4-byte Spill
	xorl	%ebx, %r11d
	xorl	%ebp, %r10d
	movl	%r10d, 20(%rsp)                 # 4-byte Spill
	movl	%r11d, %eax
	roll	$12, %eax
	movl	%r11d, %ebx
	roll	$20, %ebx
	andl	$252645135, %eax                # imm = 0xF0F0F0F
	andl	$-252645136, %ebx               # imm = 0xF0F0F0F0
	movl	%r10d, %esi
	roll	$12, %esi
	orl	%eax, %ebx
	roll	$20, %r10d
	andl	$252645135, %esi                # imm = 0xF0F0F0F
	andl	$-252645136, %r10d              # imm = 0xF0F0F0F0
	orl	%esi, %r10d
	xorl	%edi, %r13d
	movl	%r13d, %eax
	roll	$12, %eax
	movl	%r13d, %r8d
	roll	$20, %r8d
	andl	$252645135, %eax                # imm = 0xF0F0F0F
	andl	$-252645136, %r8d               # imm = 0xF0F0F0F0
	orl	%eax, %r8d
	xorl	%ebp, %r11d
	movl	4(%rsp), %ecx                   # 4-byte Reload
	xorl	%r15d, %ecx
	movl	%ecx, 4(%rsp)                   # 4-byte Spill
	xorl	%edx, %r14d
	movl	48(%rsp), %esi                  # 4-byte Reload
	xorl	%r14d, %esi
	xorl	%r14d, %r11d
	xorl	%r14d, %r13d
	movl	%r13d, 8(%rsp)                  # 4-byte Spill
	movl	%r14d, %r13d
	movl	%r14d, %r9d
	xorl	%r15d, %r14d
	movl	64(%rsp), %eax                  # 4-byte Reload
	xorl	12(%rsp), %eax                  # 4-byte Folded Reload
	xorl	%eax, %r14d
	movl	%r14d, 64(%rsp)                 # 4-byte Spill
	movl	%eax, %ebp
	movl	%eax, %r14d
	roll	$12, %r14d
	roll	$20, %ebp
	andl	$252645135, %r14d               # imm = 0xF0F0F0F
	andl	$-252645136, %ebp               # imm = 0xF0F0F0F0
	orl	%r14d, %ebp
	movl	%ecx, %eax
	roll	$12, %eax
	movl	%r12d, %edi
	xorl	16(%rsp), %edi                  # 4-byte Folded Reload
	movl	%ecx, %r14d
	roll	$20, %r14d
	andl	$252645135, %eax                # imm = 0xF0F0F0F
	movl	%edi, %r12d
	roll	$12, %r12d
	andl	$-252645136, %r14d              # imm = 0xF0F0F0F0
	movl	%edi, %ecx
	roll	$20, %ecx
	orl	%eax, %r14d
	andl	$252645135, %r12d               # imm = 0xF0F0F0F
	andl	$-252645136, %ecx               # imm = 0xF0F0F0F0
	orl	%r12d, %ecx
	movl	28(%rsp), %edx                  # 4-byte Reload
	xorl	24(%rsp), %edx                  # 4-byte Folded Reload
	movl	%edx, %r12d
	roll	$12, %r12d
	movl	%edx, %eax
	roll	$20, %eax
	andl	$252645135, %r12d               # imm = 0xF0F0F0F
	andl	$-252645136, %eax               # imm = 0xF0F0F0F0
	orl	%r12d, %eax
	roll	$12, %r13d
	roll	$20, %r9d
	andl	$252645135, %r13d               # imm = 0xF0F0F0F
	andl	$-252645136, %r9d               # imm = 0xF0F0F0F0
	orl	%r13d, %r9d
	movq	96(%rsp), %r13                  # 8-byte Reload
	andq	$-4, %r13
	movq	%r13, %r12
	shlq	$5, %r12
	movq	88(%rsp), %r15                  # 8-byte Reload
	xorl	32(%r15,%r12), %ebx
	xorl	%ebx, %esi
	movl	%esi, 48(%rsp)                  # 4-byte Spill
	movl	4(%rsp), %ebx                   # 4-byte Reload
	xorl	36(%r15,%r12), %r10d
	xorl	%r10d, %r11d
	movl	64(%rsp), %r10d                 # 4-byte Reload
	movl	20(%rsp), %esi                  # 4-byte Reload
	xorl	32(%rsp), %esi                  # 4-byte Folded Reload
	xorl	40(%r15,%r12), %r8d
	xorl	%r8d, %esi
	movl	8(%rsp), %r8d                   # 4-byte Reload
	xorl	12(%rsp), %r8d                  # 4-byte Folded Reload
	xorl	44(%r15,%r12), %ebp
	xorl	48(%r15,%r12), %r14d
	xorl	%ebp, %r8d
	movl	%r8d, 8(%rsp)                   # 4-byte Spill
	xorl	%r14d, %r10d
	movl	%r10d, %r8d
	xorl	52(%r15,%r12), %ecx
	xorl	16(%rsp), %ebx                  # 4-byte Folded Reload
	xorl	%ecx, %ebx
	xorl	56(%r15,%r12), %eax
	xorl	24(%rsp), %edi                  # 4-byte Folded Reload
	xorl	%eax, %edi
	xorl	60(%r15,%r12), %r9d
	xorl	36(%rsp), %edx                  # 4-byte Folded Reload
	xorl	%r9d, %edx
	orq	$2, %r13
	movq	80(%rsp), %r10                  # 8-byte Reload
	cmpq	%r10, %r13
	jae	.Laes_v1_BB6_5
# %bb.4:                                # %then.11.i
	xorl	%edi, %ebx
	movl	%r8d, %ecx
	xorl	%edx, %ecx
	movl	%ebx, %r15d
	movl	%ebx, 4(%rsp)                   # 4-byte Spill
	xorl	48(%rsp), %ebx                  # 4-byte Folded Reload
	movl	%ebx, %eax
	xorl	%r8d, %eax
	movl	%eax, %r9d
	movl	%eax, 16(%rsp)                  # 4-byte Spill
	movl	%ebx, %r13d
	movl	%r11d, %ebp
	xorl	%r11d, %r13d
	xorl	%edx, %ebp
	xorl	%esi, %r8d
	movl	%r8d, 64(%rsp)                  # 4-byte Spill
	movl	%ebp, %eax
	xorl	%r8d, %eax
	movl	8(%rsp), %r11d                  # 4-byte Reload
	xorl	%eax, %r11d
	movl	%eax, %r10d
	movl	%eax, 40(%rsp)                  # 4-byte Spill
	movl	%r11d, %eax
	xorl	%esi, %eax
	movl	%eax, %r14d
	xorl	%edi, %r11d
	xorl	%edx, %esi
	movl	%r11d, %eax
	movl	%ecx, 44(%rsp)                  # 4-byte Spill
	xorl	%ecx, %eax
	movl	%edx, 28(%rsp)                  # 4-byte Spill
	movl	%eax, %edx
	movl	%eax, %r12d
	andl	%ecx, %edx
	movl	%r14d, %eax
	movl	%r14d, %ecx
	movl	%r14d, 8(%rsp)                  # 4-byte Spill
	xorl	%r15d, %eax
	movl	%r12d, %r15d
	xorl	%eax, %r15d
	movl	%r15d, 36(%rsp)                 # 4-byte Spill
	movl	%esi, %edi
	movl	%r15d, %esi
	andl	%r8d, %esi
	movl	%eax, %r15d
	movl	%eax, 32(%rsp)                  # 4-byte Spill
	andl	%edi, %eax
	movl	%edi, %r14d
	movl	%edi, 20(%rsp)                  # 4-byte Spill
	xorl	%edx, %esi
	xorl	%edx, %eax
	movl	%r9d, %edi
	movl	48(%rsp), %r8d                  # 4-byte Reload
	andl	%r8d, %edi
	movl	%ecx, %edx
	andl	%r10d, %edx
	xorl	%r14d, %edi
	xorl	%edx, %r15d
	xorl	%edi, %r15d
	xorl	%r11d, %edx
	movl	%ecx, %edi
	movl	%r8d, %r11d
	xorl	%r8d, %edi
	movl	%edi, 12(%rsp)                  # 4-byte Spill
	movl	%r13d, %r8d
	movl	%r13d, 72(%rsp)                 # 4-byte Spill
	movl	%r13d, %ecx
	xorl	%r14d, %ecx
	movl	%ecx, 60(%rsp)                  # 4-byte Spill
	andl	%ecx, %edi
	xorl	%edi, %edx
	movl	%r12d, %edi
	movl	%r12d, 24(%rsp)                 # 4-byte Spill
	movl	4(%rsp), %ecx                   # 4-byte Reload
	xorl	%r12d, %ecx
	andl	%ebx, %r8d
	movl	%ecx, %r10d
	andl	%ebp, %r10d
	xorl	%esi, %edx
	xorl	%ecx, %r8d
	movl	%ecx, %r12d
	xorl	%r10d, %r8d
	xorl	%ebp, %r8d
	xorl	%esi, %r8d
	movl	%ebx, %r14d
	movl	28(%rsp), %ecx                  # 4-byte Reload
	xorl	%ecx, %r14d
	xorl	%ecx, %r10d
	movl	%edi, %esi
	xorl	%r11d, %esi
	movl	%esi, 4(%rsp)                   # 4-byte Spill
	andl	%r14d, %esi
	xorl	%r12d, %esi
	movl	%r12d, %ecx
	xorl	%esi, %r10d
	xorl	%eax, %r15d
	xorl	%eax, %r10d
	movl	%r8d, %r13d
	andl	%edx, %r13d
	movl	%r13d, %eax
	xorl	%r15d, %eax
	movl	%r10d, %edi
	xorl	%r8d, %edi
	andl	%eax, %edi
	xorl	%r15d, %edx
	movl	%edi, %eax
	xorl	%r13d, %edi
	xorl	%r10d, %r13d
	movl	%r13d, %esi
	andl	%edx, %esi
	xorl	%r15d, %esi
	xorl	%r10d, %eax
	andl	%r10d, %edi
	xorl	%edi, %r13d
	andl	%esi, %r13d
	xorl	%edx, %r13d
	xorl	%r8d, %edi
	andl	%eax, 16(%rsp)                  # 4-byte Folded Spill
	movl	%edi, %r11d
	xorl	%eax, %r11d
	movl	%esi, %r15d
	xorl	%eax, %r15d
	andl	48(%rsp), %eax                  # 4-byte Folded Reload
	movl	%r13d, %r12d
	xorl	%r11d, %r12d
	andl	%r15d, 24(%rsp)                 # 4-byte Folded Spill
	movl	%r12d, %r8d
	xorl	%r15d, %r8d
	andl	44(%rsp), %r15d                 # 4-byte Folded Reload
	movl	%r13d, %r10d
	xorl	%esi, %r10d
	movl	%ecx, %edx
	andl	%r10d, %edx
	andl	%ebp, %r10d
	andl	%r13d, %ebx
	andl	72(%rsp), %r13d                 # 4-byte Folded Reload
	movl	12(%rsp), %r9d                  # 4-byte Reload
	andl	%r11d, %r9d
	andl	60(%rsp), %r11d                 # 4-byte Folded Reload
	movl	64(%rsp), %ecx                  # 4-byte Reload
	andl	%r8d, %ecx
	andl	36(%rsp), %r8d                  # 4-byte Folded Reload
	andl	%esi, %r14d
	andl	4(%rsp), %esi                   # 4-byte Folded Reload
	movl	8(%rsp), %ebp                   # 4-byte Reload
	andl	%edi, %ebp
	andl	40(%rsp), %edi                  # 4-byte Folded Reload
	xorl	%ebp, %r9d
	xorl	%eax, %ebp
	xorl	%edx, %ebx
	xorl	%ebp, %esi
	xorl	%edx, %esi
	xorl	%r15d, %ecx
	xorl	%ecx, %r11d
	xorl	%esi, %r13d
	xorl	%ecx, %r13d
	xorl	%ebx, %r8d
	xorl	%ebx, %r9d
	movl	32(%rsp), %eax                  # 4-byte Reload
	andl	%r12d, %eax
	xorl	%eax, %ebp
	xorl	%r11d, %edi
	xorl	%r10d, %ebp
	xorl	%r8d, %ebp
	xorl	%ebp, %r14d
	xorl	%edi, %r9d
	xorl	%r13d, %ebp
	xorl	24(%rsp), %r8d                  # 4-byte Folded Reload
	movl	%r9d, %ebx
	xorl	%r8d, %ebx
	xorl	%r10d, %r13d
	xorl	16(%rsp), %r11d                 # 4-byte Folded Reload
	xorl	%r9d, %esi
	movl	%r9d, %edx
	andl	20(%rsp), %r12d                 # 4-byte Folded Reload
	xorl	%r14d, %r11d
	xorl	%r8d, %edi
	xorl	%r15d, %r12d
	xorl	%r8d, %r12d
	movl	%r13d, %eax
	roll	$20, %eax
	xorl	%r14d, %r12d
	movl	%r13d, %r14d
	roll	$28, %r14d
	andl	$252645135, %eax                # imm = 0xF0F0F0F
	movl	%ebp, %r15d
	movl	%ebp, 8(%rsp)                   # 4-byte Spill
	movl	%ebp, %ecx
	roll	$20, %ecx
	andl	$-252645136, %r14d              # imm = 0xF0F0F0F0
	roll	$28, %r15d
	orl	%eax, %r14d
	andl	$252645135, %ecx                # imm = 0xF0F0F0F
	andl	$-252645136, %r15d              # imm = 0xF0F0F0F0
	orl	%ecx, %r15d
	movl	%r11d, %eax
	roll	$20, %eax
	movl	%r11d, %r9d
	roll	$28, %r9d
	andl	$252645135, %eax                # imm = 0xF0F0F0F
	andl	$-252645136, %r9d               # imm = 0xF0F0F0F0
	orl	%eax, %r9d
	movl	%esi, %eax
	roll	$20, %eax
	movl	%esi, %r8d
	roll	$28, %r8d
	andl	$252645135, %eax                # imm = 0xF0F0F0F
	andl	$-252645136, %r8d               # imm = 0xF0F0F0F0
	movl	%edx, %r10d
	roll	$20, %r10d
	orl	%eax, %r8d
	movl	%r8d, 4(%rsp)                   # 4-byte Spill
	movl	%edx, %r8d
	roll	$28, %r8d
	andl	$252645135, %r10d               # imm = 0xF0F0F0F
	movl	%r12d, %eax
	roll	$20, %eax
	andl	$-252645136, %r8d               # imm = 0xF0F0F0F0
	movl	%r12d, %ecx
	roll	$28, %ecx
	orl	%r10d, %r8d
	andl	$252645135, %eax                # imm = 0xF0F0F0F
	andl	$-252645136, %ecx               # imm = 0xF0F0F0F0
	orl	%eax, %ecx
	movl	%ecx, 12(%rsp)                  # 4-byte Spill
	movl	%ebx, 48(%rsp)                  # 4-byte Spill
	movl	%ebx, %r10d
	roll	$20, %r10d
	movl	%ebx, %eax
	roll	$28, %eax
	andl	$252645135, %r10d               # imm = 0xF0F0F0F
	andl	$-252645136, %eax               # imm = 0xF0F0F0F0
	orl	%r10d, %eax
	movl	%edi, %r10d
	roll	$20, %r10d
	movl	%edi, %ecx
	roll	$28, %ecx
	andl	$252645135, %r10d               # imm = 0xF0F0F0F
	andl	$-252645136, %ecx               # imm = 0xF0F0F0F0
	orl	%r10d, %ecx
	movl	%ecx, 16(%rsp)                  # 4-byte Spill
	xorl	%r14d, %r13d
	xorl	%ecx, %edi
	movl	%r13d, %r10d
	roll	$16, %r10d
	movq	96(%rsp), %rcx                  # 8-byte Reload
	shlq	$5, %rcx
	movq	88(%rsp), %rbp                  # 8-byte Reload
	xorl	(%rbp,%rcx), %r10d
	xorl	%edi, %r14d
	xorl	%r10d, %r14d
	movl	%r14d, 20(%rsp)                 # 4-byte Spill
	movl	8(%rsp), %ebx                   # 4-byte Reload
	xorl	%r15d, %ebx
	movl	%ebx, %r10d
	roll	$16, %r10d
	xorl	%r15d, %r13d
	xorl	4(%rbp,%rcx), %r10d
	xorl	%edi, %r13d
	xorl	%r10d, %r13d
	xorl	%r9d, %r11d
	xorl	%r9d, %ebx
	movl	%edx, %r14d
	xorl	%r8d, %r14d
	xorl	%edi, %r8d
	movl	%edi, %r10d
	xorl	%r11d, %edi
	roll	$16, %r11d
	xorl	8(%rbp,%rcx), %r11d
	xorl	%r11d, %ebx
	movl	%r14d, %edx
	roll	$16, %edx
	xorl	4(%rsp), %esi                   # 4-byte Folded Reload
	xorl	16(%rbp,%rcx), %edx
	xorl	%esi, %r8d
	xorl	%edx, %r8d
	movl	12(%rsp), %r9d                  # 4-byte Reload
	xorl	%r9d, %r12d
	movl	48(%rsp), %r15d                 # 4-byte Reload
	xorl	%eax, %r15d
	movl	%r12d, %edx
	xorl	%eax, %r12d
	movl	%r15d, %eax
	roll	$16, %eax
	xorl	24(%rbp,%rcx), %eax
	xorl	%eax, %r12d
	roll	$16, %esi
	roll	$16, %edx
	roll	$16, %r10d
	xorl	28(%rbp,%rcx), %r10d
	xorl	16(%rsp), %r15d                 # 4-byte Folded Reload
	xorl	%r10d, %r15d
	xorl	20(%rbp,%rcx), %edx
	xorl	%r9d, %r14d
	xorl	%edx, %r14d
	xorl	%r12d, %r14d
	movl	%r15d, %r10d
	xorl	%r8d, %r10d
	movl	%r14d, %r11d
	xorl	20(%rsp), %r11d                 # 4-byte Folded Reload
	movl	%r11d, 60(%rsp)                 # 4-byte Spill
	xorl	%r8d, %r11d
	movl	%r11d, 16(%rsp)                 # 4-byte Spill
	movl	%r15d, %eax
	movl	%r15d, 48(%rsp)                 # 4-byte Spill
	xorl	%r13d, %eax
	movl	%eax, 24(%rsp)                  # 4-byte Spill
	xorl	%ebx, %r8d
	xorl	12(%rbp,%rcx), %esi
	xorl	%r8d, %eax
	movl	%r8d, 36(%rsp)                  # 4-byte Spill
	xorl	4(%rsp), %edi                   # 4-byte Folded Reload
	xorl	%esi, %edi
	xorl	%eax, %edi
	movl	%eax, %ecx
	movl	%eax, 28(%rsp)                  # 4-byte Spill
	movl	%edi, %eax
	xorl	%ebx, %eax
	movl	%eax, %edx
	xorl	%r12d, %edi
	xorl	%r15d, %ebx
	andl	%ecx, %eax
	movl	%edx, %ecx
	movl	%edx, %r9d
	movl	%edx, 4(%rsp)                   # 4-byte Spill
	xorl	%r14d, %ecx
	movl	%ecx, %edx
	movl	%ecx, 64(%rsp)                  # 4-byte Spill
	movl	%ecx, %r15d
	xorl	%eax, %r15d
	xorl	%edi, %eax
	movl	%edi, %ebp
	movl	%r10d, 44(%rsp)                 # 4-byte Spill
	xorl	%r10d, %ebp
	movl	%ebp, %esi
	andl	%r10d, %esi
	movl	%ebp, %ecx
	xorl	%edx, %ecx
	movl	%ecx, 32(%rsp)                  # 4-byte Spill
	andl	%r8d, %ecx
	movl	%ebx, %edi
	movl	%ebx, 8(%rsp)                   # 4-byte Spill
	andl	%ebx, %edx
	xorl	%esi, %ecx
	xorl	%esi, %edx
	movl	20(%rsp), %ebx                  # 4-byte Reload
	andl	%ebx, %r11d
	xorl	%edi, %r11d
	xorl	%r11d, %r15d
	movl	60(%rsp), %r11d                 # 4-byte Reload
	xorl	%r11d, %r13d
	movl	%r9d, %r10d
	xorl	%ebx, %r10d
	movl	%r13d, %r8d
	xorl	%edi, %r8d
	movl	%r8d, 40(%rsp)                  # 4-byte Spill
	movl	%r10d, %esi
	andl	%r8d, %esi
	xorl	%esi, %eax
	movl	%ebp, %r9d
	xorl	%ebp, %r14d
	movl	%r13d, %edi
	andl	%r11d, %edi
	movl	%r11d, %r8d
	movl	%r14d, %ebp
	movl	24(%rsp), %esi                  # 4-byte Reload
	andl	%esi, %ebp
	xorl	%ecx, %eax
	xorl	%r14d, %edi
	movl	%r14d, 12(%rsp)                 # 4-byte Spill
	xorl	%ebp, %edi
	xorl	%esi, %edi
	xorl	%ecx, %edi
	movl	48(%rsp), %ecx                  # 4-byte Reload
	xorl	%ecx, %r11d
	xorl	%ecx, %ebp
	movl	%r9d, %esi
	movl	%r9d, %ecx
	xorl	%ebx, %esi
	movl	%esi, 48(%rsp)                  # 4-byte Spill
	andl	%r11d, %esi
	xorl	%r14d, %esi
	xorl	%esi, %ebp
	xorl	%edx, %r15d
	xorl	%edx, %ebp
	movl	%edi, %r9d
	andl	%eax, %r9d
	movl	%r9d, %edx
	xorl	%r15d, %edx
	movl	%ebp, %esi
	xorl	%edi, %esi
	andl	%edx, %esi
	xorl	%r15d, %eax
	movl	%esi, %edx
	xorl	%r9d, %esi
	xorl	%ebp, %r9d
	movl	%r9d, %r12d
	andl	%eax, %r12d
	xorl	%r15d, %r12d
	xorl	%ebp, %edx
	andl	%ebp, %esi
	xorl	%esi, %r9d
	andl	%r12d, %r9d
	xorl	%eax, %r9d
	xorl	%edi, %esi
	andl	%edx, 16(%rsp)                  # 4-byte Folded Spill
	movl	%esi, %r14d
	xorl	%edx, %r14d
	movl	%r12d, %eax
	xorl	%edx, %eax
	andl	%ebx, %edx
	movl	%r9d, %ebp
	xorl	%r14d, %ebp
	andl	%eax, %ecx
	movl	%ecx, 20(%rsp)                  # 4-byte Spill
	movl	%ebp, %ebx
	xorl	%eax, %ebx
	andl	44(%rsp), %eax                  # 4-byte Folded Reload
	movl	%r9d, %r15d
	xorl	%r12d, %r15d
	movl	12(%rsp), %edi                  # 4-byte Reload
	andl	%r15d, %edi
	andl	24(%rsp), %r15d                 # 4-byte Folded Reload
	andl	%r9d, %r8d
	andl	%r13d, %r9d
	andl	%r14d, %r10d
	andl	40(%rsp), %r14d                 # 4-byte Folded Reload
	movl	36(%rsp), %r13d                 # 4-byte Reload
	andl	%ebx, %r13d
	andl	32(%rsp), %ebx                  # 4-byte Folded Reload
	andl	%r12d, %r11d
	andl	48(%rsp), %r12d                 # 4-byte Folded Reload
	movl	4(%rsp), %ecx                   # 4-byte Reload
	andl	%esi, %ecx
	andl	28(%rsp), %esi                  # 4-byte Folded Reload
	xorl	%ecx, %r10d
	xorl	%edx, %ecx
	xorl	%edi, %r8d
	xorl	%ecx, %r12d
	xorl	%edi, %r12d
	movl	%r13d, %edx
	xorl	%eax, %edx
	xorl	%edx, %r14d
	xorl	%r12d, %r9d
	xorl	%edx, %r9d
	xorl	%r8d, %ebx
	xorl	%r8d, %r10d
	movl	64(%rsp), %edx                  # 4-byte Reload
	andl	%ebp, %edx
	xorl	%r14d, %esi
	xorl	%edx, %ecx
	xorl	%r15d, %ecx
	xorl	%ebx, %ecx
	xorl	%ecx, %r11d
	xorl	%esi, %r10d
	xorl	%r9d, %ecx
	xorl	20(%rsp), %ebx                  # 4-byte Folded Reload
	movl	%r10d, %edx
	xorl	%ebx, %edx
	xorl	%r15d, %r9d
	xorl	16(%rsp), %r14d                 # 4-byte Folded Reload
	xorl	%r10d, %r12d
	andl	8(%rsp), %ebp                   # 4-byte Folded Reload
	xorl	%r11d, %r14d
	xorl	%ebx, %esi
	xorl	%eax, %ebp
	xorl	%ebx, %ebp
	xorl	%r11d, %ebp
	movl	%r9d, %eax
	roll	$18, %eax
	movl	%r9d, %r8d
	roll	$26, %r8d
	andl	$50529027, %eax                 # imm = 0x3030303
	andl	$-50529028, %r8d                # imm = 0xFCFCFCFC
	orl	%eax, %r8d
	movl	%ecx, %r11d
	movl	%ecx, 4(%rsp)                   # 4-byte Spill
	movl	%ecx, %eax
	roll	$18, %eax
	roll	$26, %r11d
	andl	$50529027, %eax                 # imm = 0x3030303
	andl	$-50529028, %r11d               # imm = 0xFCFCFCFC
	movl	%r14d, %ecx
	roll	$18, %ecx
	orl	%eax, %r11d
	movl	%r14d, %ebx
	roll	$26, %ebx
	andl	$50529027, %ecx                 # imm = 0x3030303
	movl	%r12d, %eax
	roll	$18, %eax
	andl	$-50529028, %ebx                # imm = 0xFCFCFCFC
	movl	%r12d, %r15d
	roll	$26, %r15d
	orl	%ecx, %ebx
	movl	%ebx, 28(%rsp)                  # 4-byte Spill
	andl	$50529027, %eax                 # imm = 0x3030303
	andl	$-50529028, %r15d               # imm = 0xFCFCFCFC
	orl	%eax, %r15d
	movl	%r15d, 8(%rsp)                  # 4-byte Spill
	movl	%r10d, 48(%rsp)                 # 4-byte Spill
	movl	%r10d, %eax
	roll	$18, %eax
	movl	%r10d, %r13d
	roll	$26, %r13d
	andl	$50529027, %eax                 # imm = 0x3030303
	andl	$-50529028, %r13d               # imm = 0xFCFCFCFC
	orl	%eax, %r13d
	movl	%ebp, %eax
	roll	$18, %eax
	movl	%ebp, %edi
	roll	$26, %edi
	andl	$50529027, %eax                 # imm = 0x3030303
	andl	$-50529028, %edi                # imm = 0xFCFCFCFC
	movl	%edx, %ecx
	movl	%edx, 12(%rsp)                  # 4-byte Spill
	roll	$18, %edx
	orl	%eax, %edi
	movl	%edi, 16(%rsp)                  # 4-byte Spill
	movl	%ecx, %edi
	roll	$26, %edi
	andl	$50529027, %edx                 # imm = 0x3030303
	movl	%esi, %eax
	roll	$18, %eax
	andl	$-50529028, %edi                # imm = 0xFCFCFCFC
	movl	%esi, %ecx
	roll	$26, %ecx
	orl	%edx, %edi
	movl	%edi, 24(%rsp)                  # 4-byte Spill
	andl	$50529027, %eax                 # imm = 0x3030303
	andl	$-50529028, %ecx                # imm = 0xFCFCFCFC
	orl	%eax, %ecx
	movl	%ecx, 32(%rsp)                  # 4-byte Spill
	xorl	%r8d, %r9d
	movl	%r8d, %r10d
	movl	%r9d, %edi
	roll	$12, %edi
	movl	4(%rsp), %edx                   # 4-byte Reload
	xorl	%r11d, %edx
	movl	%edx, 4(%rsp)                   # 4-byte Spill
	movl	%r9d, %eax
	roll	$20, %eax
	andl	$252645135, %edi                # imm = 0xF0F0F0F
	movl	%edx, %r8d
	roll	$12, %r8d
	andl	$-252645136, %eax               # imm = 0xF0F0F0F0
	roll	$20, %edx
	orl	%edi, %eax
	movl	%eax, 20(%rsp)                  # 4-byte Spill
	andl	$252645135, %r8d                # imm = 0xF0F0F0F
	andl	$-252645136, %edx               # imm = 0xF0F0F0F0
	orl	%r8d, %edx
	movl	%edx, 64(%rsp)                  # 4-byte Spill
	xorl	%ebx, %r14d
	movl	%r14d, %edi
	roll	$12, %edi
	movl	%r14d, %r15d
	roll	$20, %r15d
	andl	$252645135, %edi                # imm = 0xF0F0F0F
	andl	$-252645136, %r15d              # imm = 0xF0F0F0F0
	orl	%edi, %r15d
	xorl	%r11d, %r9d
	movl	48(%rsp), %eax                  # 4-byte Reload
	xorl	%r13d, %eax
	movl	%eax, 48(%rsp)                  # 4-byte Spill
	xorl	%ecx, %esi
	movl	%r10d, %ebx
	xorl	%esi, %ebx
	xorl	%esi, %r9d
	xorl	%esi, %r14d
	movl	%esi, %r11d
	movl	%esi, %r10d
	xorl	%r13d, %esi
	xorl	8(%rsp), %r12d                  # 4-byte Folded Reload
	xorl	%r12d, %esi
	movl	%r12d, %edi
	roll	$12, %edi
	roll	$20, %r12d
	andl	$252645135, %edi                # imm = 0xF0F0F0F
	andl	$-252645136, %r12d              # imm = 0xF0F0F0F0
	movl	%eax, %r8d
	roll	$12, %r8d
	orl	%edi, %r12d
	movl	%eax, %r13d
	roll	$20, %r13d
	andl	$252645135, %r8d                # imm = 0xF0F0F0F
	andl	$-252645136, %r13d              # imm = 0xF0F0F0F0
	orl	%r8d, %r13d
	xorl	16(%rsp), %ebp                  # 4-byte Folded Reload
	movl	12(%rsp), %ecx                  # 4-byte Reload
	xorl	24(%rsp), %ecx                  # 4-byte Folded Reload
	movl	%ecx, 12(%rsp)                  # 4-byte Spill
	movl	%ebp, %r8d
	roll	$12, %r8d
	movl	%ebp, %edi
	roll	$20, %edi
	andl	$252645135, %r8d                # imm = 0xF0F0F0F
	andl	$-252645136, %edi               # imm = 0xF0F0F0F0
	movl	%ecx, %eax
	roll	$12, %eax
	orl	%r8d, %edi
	movl	%ecx, %r8d
	roll	$20, %r8d
	andl	$252645135, %eax                # imm = 0xF0F0F0F
	andl	$-252645136, %r8d               # imm = 0xF0F0F0F0
	roll	$12, %r11d
	orl	%eax, %r8d
	roll	$20, %r10d
	andl	$252645135, %r11d               # imm = 0xF0F0F0F
	andl	$-252645136, %r10d              # imm = 0xF0F0F0F0
	movq	80(%rsp), %rax                  # 8-byte Reload
	shlq	$5, %rax
	movq	88(%rsp), %rcx                  # 8-byte Reload
	movl	20(%rsp), %edx                  # 4-byte Reload
	xorl	-32(%rcx,%rax), %edx
	orl	%r11d, %r10d
	movl	4(%rsp), %r11d                  # 4-byte Reload
	xorl	%edx, %ebx
	movl	%ebx, 20(%rsp)                  # 4-byte Spill
	movl	%ebp, %ebx
	movl	64(%rsp), %edx                  # 4-byte Reload
	xorl	-28(%rcx,%rax), %edx
	xorl	%edx, %r9d
	xorl	28(%rsp), %r11d                 # 4-byte Folded Reload
	xorl	-24(%rcx,%rax), %r15d
	xorl	%r15d, %r11d
	movl	12(%rsp), %r15d                 # 4-byte Reload
	xorl	8(%rsp), %r14d                  # 4-byte Folded Reload
	xorl	-20(%rcx,%rax), %r12d
	xorl	%r12d, %r14d
	xorl	-16(%rcx,%rax), %r13d
	xorl	%r13d, %esi
	movl	48(%rsp), %r12d                 # 4-byte Reload
	xorl	16(%rsp), %r12d                 # 4-byte Folded Reload
	xorl	-12(%rcx,%rax), %edi
	xorl	%edi, %r12d
	xorl	24(%rsp), %ebx                  # 4-byte Folded Reload
	xorl	-8(%rcx,%rax), %r8d
	xorl	%r8d, %ebx
	xorl	32(%rsp), %r15d                 # 4-byte Folded Reload
	movq	%rax, 80(%rsp)                  # 8-byte Spill
	xorl	-4(%rcx,%rax), %r10d
	xorl	%r10d, %r15d
	jmp	.Laes_v1_BB6_6
.Laes_v1_BB6_5:                                # %else.12.i
	movl	48(%rsp), %r9d                  # 4-byte Reload
	movl	%r9d, %eax
	shrl	$4, %eax
	xorl	%r9d, %eax
	andl	$251662080, %eax                # imm = 0xF000F00
	movl	%eax, %ecx
	shll	$4, %ecx
	orl	%eax, %ecx
	xorl	%r9d, %ecx
	movl	%ecx, 20(%rsp)                  # 4-byte Spill
	movl	%r11d, %eax
	shrl	$4, %eax
	xorl	%r11d, %eax
	andl	$251662080, %eax                # imm = 0xF000F00
	movl	%eax, %r9d
	shll	$4, %r9d
	orl	%eax, %r9d
	xorl	%r11d, %r9d
	movl	%esi, %eax
	shrl	$4, %eax
	xorl	%esi, %eax
	andl	$251662080, %eax                # imm = 0xF000F00
	movl	%eax, %r11d
	shll	$4, %r11d
	orl	%eax, %r11d
	xorl	%esi, %r11d
	movl	8(%rsp), %ecx                   # 4-byte Reload
	movl	%ecx, %eax
	shrl	$4, %eax
	xorl	%ecx, %eax
	andl	$251662080, %eax                # imm = 0xF000F00
	movl	%eax, %r14d
	shll	$4, %r14d
	orl	%eax, %r14d
	xorl	%ecx, %r14d
	movl	%r8d, %eax
	shrl	$4, %eax
	xorl	%r8d, %eax
	andl	$251662080, %eax                # imm = 0xF000F00
	movl	%eax, %esi
	shll	$4, %esi
	orl	%eax, %esi
	xorl	%r8d, %esi
	movl	%ebx, %eax
	shrl	$4, %eax
	xorl	%ebx, %eax
	andl	$251662080, %eax                # imm = 0xF000F00
	movl	%eax, %r12d
	shll	$4, %r12d
	orl	%eax, %r12d
	xorl	%ebx, %r12d
	movl	%edi, %eax
	shrl	$4, %eax
	xorl	%edi, %eax
	andl	$251662080, %eax                # imm = 0xF000F00
	movl	%eax, %ebx
	shll	$4, %ebx
	orl	%eax, %ebx
	xorl	%edi, %ebx
	movl	%edx, %eax
	shrl	$4, %eax
	xorl	%edx, %eax
	andl	$251662080, %eax                # imm = 0xF000F00
	movl	%eax, %ecx
	shll	$4, %ecx
	orl	%eax, %ecx
	xorl	%edx, %ecx
	shlq	$5, %r10
	movq	%r10, 80(%rsp)                  # 8-byte Spill
	movl	%ecx, %r15d
.Laes_v1_BB6_6:                                # %"aes_soft::soft::ciphers::planes::EncryptPlaneCipher::process_planes::<#42add9d049d0c5fd>.exit"
	xorl	%ebx, %r12d
	movl	%r15d, %edi
	xorl	%esi, %edi
	movl	%r12d, %ebp
	xorl	20(%rsp), %ebp                  # 4-byte Folded Reload
	movl	%ebp, %eax
	xorl	%esi, %eax
	movl	%eax, %r8d
	movl	%eax, 8(%rsp)                   # 4-byte Spill
	movl	%r15d, %eax
	xorl	%r9d, %eax
	movl	%eax, 12(%rsp)                  # 4-byte Spill
	xorl	%r11d, %esi
	movl	%esi, 32(%rsp)                  # 4-byte Spill
	xorl	%esi, %eax
	xorl	%eax, %r14d
	movl	%eax, %r10d
	movl	%eax, 28(%rsp)                  # 4-byte Spill
	movl	%r9d, %r13d
	movl	%r14d, %edx
	xorl	%ebx, %r14d
	xorl	%r11d, %edx
	xorl	%r15d, %r11d
	movl	%r11d, 4(%rsp)                  # 4-byte Spill
	movl	%r14d, %eax
	movl	%edi, 64(%rsp)                  # 4-byte Spill
	xorl	%edi, %eax
	movl	%eax, %ecx
	movl	%eax, %r9d
	andl	%edi, %ecx
	movl	%edx, %eax
	xorl	%r12d, %eax
	movl	%r9d, %edi
	movl	%r9d, %ebx
	xorl	%eax, %edi
	movl	%edi, 24(%rsp)                  # 4-byte Spill
	movl	%eax, %r9d
	andl	%esi, %edi
	movl	%eax, 16(%rsp)                  # 4-byte Spill
	andl	%r11d, %eax
	xorl	%ecx, %edi
	xorl	%ecx, %eax
	movl	20(%rsp), %esi                  # 4-byte Reload
	andl	%esi, %r8d
	movl	%edx, %ecx
	andl	%r10d, %ecx
	xorl	%r11d, %r8d
	xorl	%ecx, %r9d
	xorl	%r8d, %r9d
	xorl	%r14d, %ecx
	movl	%r13d, %r10d
	xorl	%ebp, %r10d
	movl	%r10d, 36(%rsp)                 # 4-byte Spill
	movl	%edx, %r14d
	xorl	%esi, %r14d
	movl	%r10d, %r13d
	xorl	%r11d, %r13d
	movl	%r13d, 44(%rsp)                 # 4-byte Spill
	movl	%r14d, %r8d
	andl	%r13d, %r8d
	xorl	%r8d, %ecx
	xorl	%ebx, %r12d
	andl	%ebp, %r10d
	movl	%r12d, %r11d
	movl	12(%rsp), %r8d                  # 4-byte Reload
	andl	%r8d, %r11d
	xorl	%edi, %ecx
	xorl	%r12d, %r10d
	xorl	%r11d, %r10d
	xorl	%r8d, %r10d
	xorl	%edi, %r10d
	movl	%r12d, 48(%rsp)                 # 4-byte Spill
	movl	%ebp, %r13d
	xorl	%r15d, %r13d
	xorl	%r15d, %r11d
	movl	%ebx, %edi
	xorl	%esi, %edi
	movl	%edi, 40(%rsp)                  # 4-byte Spill
	andl	%r13d, %edi
	xorl	%r12d, %edi
	xorl	%edi, %r11d
	xorl	%eax, %r9d
	xorl	%eax, %r11d
	movl	%r10d, %edi
	andl	%ecx, %edi
	movl	%edi, %r8d
	xorl	%r9d, %r8d
	movl	%r11d, %eax
	xorl	%r10d, %eax
	andl	%r8d, %eax
	xorl	%r9d, %ecx
	movl	%eax, %r12d
	xorl	%edi, %eax
	xorl	%r11d, %edi
	movl	%edi, %r8d
	andl	%ecx, %r8d
	xorl	%r9d, %r8d
	xorl	%r11d, %r12d
	andl	%r11d, %eax
	xorl	%eax, %edi
	andl	%r8d, %edi
	xorl	%ecx, %edi
	xorl	%r10d, %eax
	andl	%r12d, 8(%rsp)                  # 4-byte Folded Spill
	movl	%eax, %r10d
	xorl	%r12d, %r10d
	movl	%r8d, %r15d
	xorl	%r12d, %r15d
	andl	%esi, %r12d
	movl	%edi, %r9d
	xorl	%r10d, %r9d
	andl	%r15d, %ebx
	movl	%ebx, 20(%rsp)                  # 4-byte Spill
	movl	%r9d, %r11d
	xorl	%r15d, %r11d
	andl	64(%rsp), %r15d                 # 4-byte Folded Reload
	movl	%edi, %ecx
	xorl	%r8d, %ecx
	movl	48(%rsp), %ebx                  # 4-byte Reload
	andl	%ecx, %ebx
	andl	12(%rsp), %ecx                  # 4-byte Folded Reload
	andl	%edi, %ebp
	andl	36(%rsp), %edi                  # 4-byte Folded Reload
	andl	%r10d, %r14d
	andl	44(%rsp), %r10d                 # 4-byte Folded Reload
	movl	32(%rsp), %esi                  # 4-byte Reload
	andl	%r11d, %esi
	andl	24(%rsp), %r11d                 # 4-byte Folded Reload
	andl	%r8d, %r13d
	andl	40(%rsp), %r8d                  # 4-byte Folded Reload
	andl	%eax, %edx
	andl	28(%rsp), %eax                  # 4-byte Folded Reload
	xorl	%edx, %r14d
	xorl	%r12d, %edx
	xorl	%ebx, %ebp
	xorl	%edx, %r8d
	xorl	%ebx, %r8d
	xorl	%r15d, %esi
	xorl	%esi, %r10d
	xorl	%r8d, %edi
	xorl	%esi, %edi
	xorl	%ebp, %r11d
	xorl	%ebp, %r14d
	movl	16(%rsp), %esi                  # 4-byte Reload
	andl	%r9d, %esi
	xorl	%esi, %edx
	xorl	%ecx, %edx
	xorl	%r11d, %edx
	xorl	20(%rsp), %r11d                 # 4-byte Folded Reload
	andl	4(%rsp), %r9d                   # 4-byte Folded Reload
	xorl	%r10d, %eax
	xorl	%edx, %r13d
	xorl	%eax, %r14d
	movq	80(%rsp), %rbx                  # 8-byte Reload
	movq	88(%rsp), %r12                  # 8-byte Reload
	xorl	(%r12,%rbx), %ecx
	xorl	%edi, %ecx
	xorl	4(%r12,%rbx), %edx
	movl	8(%rsp), %esi                   # 4-byte Reload
	xorl	8(%r12,%rbx), %esi
	xorl	%edi, %edx
	xorl	%r10d, %esi
	xorl	12(%r12,%rbx), %r8d
	xorl	%r13d, %esi
	movl	%esi, %edi
	xorl	%r14d, %r8d
	movl	16(%r12,%rbx), %esi
	xorl	%r14d, %esi
	xorl	20(%r12,%rbx), %r9d
	xorl	%r11d, %r15d
	xorl	%r13d, %r15d
	xorl	%r9d, %r15d
	movl	24(%r12,%rbx), %r10d
	xorl	%r11d, %r10d
	xorl	%r14d, %r10d
	xorl	28(%r12,%rbx), %r11d
	xorl	%eax, %r11d
	movl	%ecx, %eax
	shrl	%eax
	xorl	%edx, %eax
	andl	$1431655765, %eax               # imm = 0x55555555
	leal	(%rax,%rax), %ebx
	movl	%edi, %r12d
	movl	%edi, %r9d
	shrl	%r9d
	xorl	%r8d, %r9d
	andl	$1431655765, %r9d               # imm = 0x55555555
	leal	(%r9,%r9), %r14d
	movl	%esi, %edi
	shrl	%edi
	xorl	%r15d, %edi
	andl	$1431655765, %edi               # imm = 0x55555555
	leal	(%rdi,%rdi), %ebp
	xorl	%ecx, %ebx
	movl	%r10d, %ecx
	shrl	%ecx
	xorl	%r11d, %ecx
	andl	$1431655765, %ecx               # imm = 0x55555555
	xorl	%r12d, %r14d
	leal	(%rcx,%rcx), %r13d
	xorl	%esi, %ebp
	xorl	%r10d, %r13d
	movl	%ebx, %r10d
	shrl	$2, %r10d
	xorl	%r14d, %r10d
	andl	$858993459, %r10d               # imm = 0x33333333
	leal	(,%r10,4), %r12d
	xorl	%r14d, %r10d
	xorl	%ebx, %r12d
	movl	%ebp, %esi
	shrl	$2, %esi
	xorl	%r13d, %esi
	andl	$858993459, %esi                # imm = 0x33333333
	leal	(,%rsi,4), %ebx
	xorl	%r13d, %esi
	xorl	%ebp, %ebx
	movd	%r10d, %xmm0
	shrl	$4, %r10d
	xorl	%esi, %r10d
	movd	%r10d, %xmm3
	movd	%r12d, %xmm1
	shrl	$4, %r12d
	xorl	%ebx, %r12d
	movd	%r12d, %xmm2
	movd	%esi, %xmm4
	movd	%ebx, %xmm5
	xorl	%edx, %eax
	xorl	%r8d, %r9d
	xorl	%r15d, %edi
	xorl	%r11d, %ecx
	movl	%eax, %edx
	shrl	$2, %edx
	xorl	%r9d, %edx
	andl	$858993459, %edx                # imm = 0x33333333
	leal	(,%rdx,4), %esi
	xorl	%r9d, %edx
	xorl	%eax, %esi
	movl	%edi, %eax
	shrl	$2, %eax
	xorl	%ecx, %eax
	andl	$858993459, %eax                # imm = 0x33333333
	leal	(,%rax,4), %r8d
	xorl	%ecx, %eax
	xorl	%edi, %r8d
	movd	%esi, %xmm6
	shrl	$4, %esi
	xorl	%r8d, %esi
	movd	%esi, %xmm7
	movd	%edx, %xmm8
	shrl	$4, %edx
	xorl	%eax, %edx
	movd	%edx, %xmm9
	movd	%r8d, %xmm10
	movd	%eax, %xmm11
	punpckldq	%xmm3, %xmm2            # xmm2 = xmm2[0],xmm3[0],xmm2[1],xmm3[1]
	movdqa	.Laes_v1_CPI6_0(%rip), %xmm3           # xmm3 = [252645135,252645135,u,u]
	pand	%xmm3, %xmm2
	movdqa	%xmm2, %xmm12
	pslld	$4, %xmm12
	punpcklqdq	%xmm2, %xmm12           # xmm12 = xmm12[0],xmm2[0]
	punpckldq	%xmm0, %xmm1            # xmm1 = xmm1[0],xmm0[0],xmm1[1],xmm0[1]
	punpckldq	%xmm4, %xmm5            # xmm5 = xmm5[0],xmm4[0],xmm5[1],xmm4[1]
	punpcklqdq	%xmm5, %xmm1            # xmm1 = xmm1[0],xmm5[0]
	pxor	%xmm12, %xmm1
	movq	104(%rsp), %rax                 # 8-byte Reload
	movdqu	%xmm1, (%rax)
	punpckldq	%xmm9, %xmm7            # xmm7 = xmm7[0],xmm9[0],xmm7[1],xmm9[1]
	pand	%xmm3, %xmm7
	movdqa	%xmm7, %xmm0
	pslld	$4, %xmm0
	punpcklqdq	%xmm7, %xmm0            # xmm0 = xmm0[0],xmm7[0]
	punpckldq	%xmm8, %xmm6            # xmm6 = xmm6[0],xmm8[0],xmm6[1],xmm8[1]
	punpckldq	%xmm11, %xmm10          # xmm10 = xmm10[0],xmm11[0],xmm10[1],xmm11[1]
	punpcklqdq	%xmm10, %xmm6           # xmm6 = xmm6[0],xmm10[0]
	pxor	%xmm0, %xmm6
	movdqu	%xmm6, 16(%rax)
	addq	$112, %rsp
	popq	%rbx
	popq	%r12
	popq	%r13
	popq	%r14
	popq	%r15
	popq	%rbp
	retq
	.seh_endproc
                                        # -- End function
	.def	aes_v1.aes_cipher.zeroize.stack.wipe_stack.1024;
	.scl	3;
	.type	32;
	.endef
	.p2align	4                               # -- Begin function aes_cipher::zeroize::stack::wipe_stack::<=1024>
aes_v1.aes_cipher.zeroize.stack.wipe_stack.1024: # @aes_v1.aes_cipher.zeroize.stack.wipe_stack.1024
.seh_proc aes_v1.aes_cipher.zeroize.stack.wipe_stack.1024
# %bb.0:                                # %start
	subq	$1064, %rsp                     # imm = 0x428
	.seh_stackalloc 1064
	.seh_endprologue
	#APP
	xorl	%edi, %edi
	xorl	%esi, %esi
	#NO_APP
	leaq	40(%rsp), %rcx
	movl	$1024, %r8d                     # imm = 0x400
	xorl	%edx, %edx
	callq	memset
	movq	$0, 32(%rsp)
	#APP
	#NO_APP
	movq	32(%rsp), %rax
	#APP
	#NO_APP
	cmpq	$1024, %rax                     # imm = 0x400
	jae	.Laes_v1_BB7_2
# %bb.1:                                # %then.1
	movzbl	40(%rsp,%rax), %eax
	#APP
	#NO_APP
	xchgq	%rax, 32(%rsp)
	#APP
	#NO_APP
.Laes_v1_BB7_2:                                # %common.ret
	addq	$1064, %rsp                     # imm = 0x428
	retq
	.seh_endproc
                                        # -- End function
	.def	aes_v1.aes_narrow.borrowed_words.call_to_encrypt;
	.scl	3;
	.type	32;
	.endef
	.p2align	4                               # -- Begin function aes_narrow::borrowed_words::call_to_encrypt::<#b6a72634b88802f3>
aes_v1.aes_narrow.borrowed_words.call_to_encrypt: # @aes_v1.aes_narrow.borrowed_words.call_to_encrypt
.seh_proc aes_v1.aes_narrow.borrowed_words.call_to_encrypt
# %bb.0:                                # %start
	pushq	%rbp
	.seh_pushreg %rbp
	pushq	%r15
	.seh_pushreg %r15
	pushq	%r14
	.seh_pushreg %r14
	pushq	%r13
	.seh_pushreg %r13
	pushq	%r12
	.seh_pushreg %r12
	pushq	%rbx
	.seh_pushreg %rbx
	subq	$312, %rsp                      # imm = 0x138
	.seh_stackalloc 312
	.seh_endprologue
	movq	%rdi, 32(%rsp)
	movq	%rsi, 40(%rsp)
	movq	(%rdx), %rbx
	movq	8(%rdx), %r14
	movq	24(%rdx), %rbp
	movq	16(%rdx), %r12
	testb	$15, %r14b
	movq	%rsi, 24(%rsp)                  # 8-byte Spill
	movq	%rdi, 16(%rsp)                  # 8-byte Spill
	je	.Laes_v1_BB8_1
# %bb.2:                                # %then.1.i.i
	leaq	32(%rsp), %rdi
	movq	%rbx, %rsi
	movq	%r14, %rdx
	xorl	%ecx, %ecx
	movq	%r12, %r8
	movq	%rbp, %r9
	callq	aes_v1.aes_ctr.add_in_batches.add_next
	movq	%rax, %r13
	jmp	.Laes_v1_BB8_3
.Laes_v1_BB8_1:
	xorl	%r13d, %r13d
.Laes_v1_BB8_3:                                # %join.3.i.i
	movq	%rbp, %r15
	subq	%r13, %r15
	cmpq	$32, %r15
	movq	%r14, 8(%rsp)                   # 8-byte Spill
	jb	.Laes_v1_BB8_6
# %bb.4:                                # %join.11.lr.ph.i.i
	leaq	80(%rsp), %r14
	.p2align	4
.Laes_v1_BB8_5:                                # %join.11.i.i
                                        # =>This Inner Loop Header: Depth=1
	movq	8(%rsp), %rax                   # 8-byte Reload
	addq	%r13, %rax
	pxor	%xmm0, %xmm0
	movdqa	%xmm0, 208(%r14)
	movdqa	%xmm0, 192(%r14)
	movdqa	%xmm0, 176(%r14)
	movdqa	%xmm0, 160(%r14)
	movdqa	%xmm0, 144(%r14)
	movdqa	%xmm0, 128(%r14)
	movdqa	%xmm0, 112(%r14)
	movdqa	%xmm0, 96(%r14)
	movdqa	%xmm0, 80(%r14)
	movdqa	%xmm0, 64(%r14)
	movdqa	%xmm0, 48(%r14)
	movdqa	%xmm0, 32(%r14)
	movdqa	%xmm0, 16(%r14)
	movdqa	%xmm0, (%r14)
	movq	(%rbx), %rcx
	movq	8(%rbx), %rdx
	bswapq	%rcx
	bswapq	%rdx
	shrq	$4, %rax
	addq	%rax, %rdx
	adcq	$0, %rcx
	movq	%rcx, %xmm1
	movq	%rdx, %xmm2
	punpcklbw	%xmm0, %xmm2            # xmm2 = xmm2[0],xmm0[0],xmm2[1],xmm0[1],xmm2[2],xmm0[2],xmm2[3],xmm0[3],xmm2[4],xmm0[4],xmm2[5],xmm0[5],xmm2[6],xmm0[6],xmm2[7],xmm0[7]
	pshufd	$78, %xmm2, %xmm2               # xmm2 = xmm2[2,3,0,1]
	pshuflw	$27, %xmm2, %xmm2               # xmm2 = xmm2[3,2,1,0,4,5,6,7]
	pshufhw	$27, %xmm2, %xmm2               # xmm2 = xmm2[0,1,2,3,7,6,5,4]
	punpcklbw	%xmm0, %xmm1            # xmm1 = xmm1[0],xmm0[0],xmm1[1],xmm0[1],xmm1[2],xmm0[2],xmm1[3],xmm0[3],xmm1[4],xmm0[4],xmm1[5],xmm0[5],xmm1[6],xmm0[6],xmm1[7],xmm0[7]
	pshufd	$78, %xmm1, %xmm1               # xmm1 = xmm1[2,3,0,1]
	pshuflw	$27, %xmm1, %xmm1               # xmm1 = xmm1[3,2,1,0,4,5,6,7]
	pshufhw	$27, %xmm1, %xmm1               # xmm1 = xmm1[0,1,2,3,7,6,5,4]
	packuswb	%xmm2, %xmm1
	movdqa	%xmm1, 48(%rsp)
	addq	$1, %rdx
	adcq	$0, %rcx
	movq	%rcx, %xmm1
	movq	%rdx, %xmm2
	punpcklbw	%xmm0, %xmm1            # xmm1 = xmm1[0],xmm0[0],xmm1[1],xmm0[1],xmm1[2],xmm0[2],xmm1[3],xmm0[3],xmm1[4],xmm0[4],xmm1[5],xmm0[5],xmm1[6],xmm0[6],xmm1[7],xmm0[7]
	pshufd	$78, %xmm1, %xmm1               # xmm1 = xmm1[2,3,0,1]
	pshuflw	$27, %xmm1, %xmm1               # xmm1 = xmm1[3,2,1,0,4,5,6,7]
	pshufhw	$27, %xmm1, %xmm1               # xmm1 = xmm1[0,1,2,3,7,6,5,4]
	punpcklbw	%xmm0, %xmm2            # xmm2 = xmm2[0],xmm0[0],xmm2[1],xmm0[1],xmm2[2],xmm0[2],xmm2[3],xmm0[3],xmm2[4],xmm0[4],xmm2[5],xmm0[5],xmm2[6],xmm0[6],xmm2[7],xmm0[7]
	pshufd	$78, %xmm2, %xmm0               # xmm0 = xmm2[2,3,0,1]
	pshuflw	$27, %xmm0, %xmm0               # xmm0 = xmm0[3,2,1,0,4,5,6,7]
	pshufhw	$27, %xmm0, %xmm0               # xmm0 = xmm0[0,1,2,3,7,6,5,4]
	packuswb	%xmm0, %xmm1
	movdqa	%xmm1, 64(%rsp)
	leaq	48(%rsp), %rdx
	movl	$2, %ecx
	movq	16(%rsp), %rdi                  # 8-byte Reload
	movq	24(%rsp), %rsi                  # 8-byte Reload
	callq	aes_v1.aes_soft.soft.blocks.filled_up.process_filled_up.1
	movups	(%r12,%r13), %xmm0
	xorps	48(%rsp), %xmm0
	movups	16(%r12,%r13), %xmm1
	movups	%xmm0, (%r12,%r13)
	xorps	64(%rsp), %xmm1
	movups	%xmm1, 16(%r12,%r13)
	addq	$32, %r13
	addq	$-32, %r15
	cmpq	$31, %r15
	ja	.Laes_v1_BB8_5
.Laes_v1_BB8_6:                                # %loop.13.preheader.i.i
	cmpq	%rbp, %r13
	movq	8(%rsp), %r14                   # 8-byte Reload
	jae	.Laes_v1_BB8_8
	.p2align	4
.Laes_v1_BB8_7:                                # %join.16.i.i
                                        # =>This Inner Loop Header: Depth=1
	leaq	32(%rsp), %rdi
	movq	%rbx, %rsi
	movq	%r14, %rdx
	movq	%r13, %rcx
	movq	%r12, %r8
	movq	%rbp, %r9
	callq	aes_v1.aes_ctr.add_in_batches.add_next
	movq	%rax, %r13
	cmpq	%rbp, %rax
	jb	.Laes_v1_BB8_7
.Laes_v1_BB8_8:                                # %"aes_ctr::add_in_batches::AddStreamBlockCipherEncClosure::call::<#b3b189439790eae9>.exit"
	addq	$312, %rsp                      # imm = 0x138
	popq	%rbx
	popq	%r12
	popq	%r13
	popq	%r14
	popq	%r15
	popq	%rbp
	retq
	.seh_endproc
                                        # -- End function
	.def	aes_v1.aes_ctr.add_in_batches.add_next;
	.scl	3;
	.type	32;
	.endef
	.p2align	4                               # -- Begin function aes_ctr::add_in_batches::add_next::<#a8e061590e9ece31>
aes_v1.aes_ctr.add_in_batches.add_next: # @aes_v1.aes_ctr.add_in_batches.add_next
.seh_proc aes_v1.aes_ctr.add_in_batches.add_next
# %bb.0:                                # %start
	pushq	%r15
	.seh_pushreg %r15
	pushq	%r14
	.seh_pushreg %r14
	pushq	%r13
	.seh_pushreg %r13
	pushq	%r12
	.seh_pushreg %r12
	pushq	%rbx
	.seh_pushreg %rbx
	subq	$256, %rsp                      # imm = 0x100
	.seh_stackalloc 256
	.seh_endprologue
	movq	%r9, %r12
	movq	%r8, %r15
	movq	%rcx, %rbx
	addq	%rcx, %rdx
	movl	%edx, %r13d
	andl	$15, %r13d
	movl	$32, %eax
	subq	%r13, %rax
	movq	%r9, %r14
	subq	%rcx, %r14
	cmpq	%rax, %r14
	cmovaeq	%rax, %r14
	pxor	%xmm0, %xmm0
	movdqa	%xmm0, 240(%rsp)
	movdqa	%xmm0, 224(%rsp)
	movdqa	%xmm0, 208(%rsp)
	movdqa	%xmm0, 192(%rsp)
	movdqa	%xmm0, 176(%rsp)
	movdqa	%xmm0, 160(%rsp)
	movdqa	%xmm0, 144(%rsp)
	movdqa	%xmm0, 128(%rsp)
	movdqa	%xmm0, 112(%rsp)
	movdqa	%xmm0, 96(%rsp)
	movdqa	%xmm0, 80(%rsp)
	movdqa	%xmm0, 64(%rsp)
	movdqa	%xmm0, 48(%rsp)
	movdqa	%xmm0, 32(%rsp)
	movq	(%rsi), %r8
	movq	8(%rsi), %rax
	bswapq	%r8
	bswapq	%rax
	shrq	$4, %rdx
	addq	%rdx, %rax
	adcq	$0, %r8
	leal	(%r14,%r13), %ecx
	addl	$15, %ecx
	movq	%r8, %xmm1
	movq	%rax, %xmm2
	punpcklbw	%xmm0, %xmm2            # xmm2 = xmm2[0],xmm0[0],xmm2[1],xmm0[1],xmm2[2],xmm0[2],xmm2[3],xmm0[3],xmm2[4],xmm0[4],xmm2[5],xmm0[5],xmm2[6],xmm0[6],xmm2[7],xmm0[7]
	pshufd	$78, %xmm2, %xmm2               # xmm2 = xmm2[2,3,0,1]
	pshuflw	$27, %xmm2, %xmm2               # xmm2 = xmm2[3,2,1,0,4,5,6,7]
	pshufhw	$27, %xmm2, %xmm2               # xmm2 = xmm2[0,1,2,3,7,6,5,4]
	punpcklbw	%xmm0, %xmm1            # xmm1 = xmm1[0],xmm0[0],xmm1[1],xmm0[1],xmm1[2],xmm0[2],xmm1[3],xmm0[3],xmm1[4],xmm0[4],xmm1[5],xmm0[5],xmm1[6],xmm0[6],xmm1[7],xmm0[7]
	pshufd	$78, %xmm1, %xmm1               # xmm1 = xmm1[2,3,0,1]
	pshuflw	$27, %xmm1, %xmm1               # xmm1 = xmm1[3,2,1,0,4,5,6,7]
	pshufhw	$27, %xmm1, %xmm1               # xmm1 = xmm1[0,1,2,3,7,6,5,4]
	packuswb	%xmm2, %xmm1
	movdqa	%xmm1, (%rsp)
	addq	$1, %rax
	adcq	$0, %r8
	movq	%r8, %xmm1
	movq	%rax, %xmm2
	punpcklbw	%xmm0, %xmm1            # xmm1 = xmm1[0],xmm0[0],xmm1[1],xmm0[1],xmm1[2],xmm0[2],xmm1[3],xmm0[3],xmm1[4],xmm0[4],xmm1[5],xmm0[5],xmm1[6],xmm0[6],xmm1[7],xmm0[7]
	pshufd	$78, %xmm1, %xmm1               # xmm1 = xmm1[2,3,0,1]
	pshuflw	$27, %xmm1, %xmm1               # xmm1 = xmm1[3,2,1,0,4,5,6,7]
	pshufhw	$27, %xmm1, %xmm1               # xmm1 = xmm1[0,1,2,3,7,6,5,4]
	punpcklbw	%xmm0, %xmm2            # xmm2 = xmm2[0],xmm0[0],xmm2[1],xmm0[1],xmm2[2],xmm0[2],xmm2[3],xmm0[3],xmm2[4],xmm0[4],xmm2[5],xmm0[5],xmm2[6],xmm0[6],xmm2[7],xmm0[7]
	pshufd	$78, %xmm2, %xmm0               # xmm0 = xmm2[2,3,0,1]
	pshuflw	$27, %xmm0, %xmm0               # xmm0 = xmm0[3,2,1,0,4,5,6,7]
	pshufhw	$27, %xmm0, %xmm0               # xmm0 = xmm0[0,1,2,3,7,6,5,4]
	packuswb	%xmm0, %xmm1
	movdqa	%xmm1, 16(%rsp)
	andl	$112, %ecx
	movq	(%rdi), %rax
	movq	8(%rdi), %rsi
	movq	%rsp, %rdx
	cmpl	$16, %ecx
	jne	.Laes_v1_BB9_2
# %bb.1:                                # %then.1.i.i.i
	movl	$1, %ecx
	jmp	.Laes_v1_BB9_3
.Laes_v1_BB9_2:                                # %else.2.i.i.i
	movl	$2, %ecx
.Laes_v1_BB9_3:                                # %"aes_ctr::keystream::fill_by_backend::<#a8e061590e9ece31>.exit"
	movq	%rax, %rdi
	callq	aes_v1.aes_soft.soft.blocks.filled_up.process_filled_up.1
	leaq	(%r15,%rbx), %rax
	testq	%r13, %r13
	je	.Laes_v1_BB9_4
# %bb.5:                                # %then.1.i
	movl	$16, %ecx
	subq	%r13, %rcx
	cmpq	%rcx, %r14
	cmovbq	%r14, %rcx
	cmpq	%rbx, %r12
	je	.Laes_v1_BB9_13
# %bb.6:                                # %join.8.i80.lr.ph
	movl	%ecx, %edx
	andl	$3, %edx
	cmpq	$4, %rcx
	jae	.Laes_v1_BB9_8
# %bb.7:
	xorl	%esi, %esi
	jmp	.Laes_v1_BB9_11
.Laes_v1_BB9_4:
	xorl	%ecx, %ecx
	jmp	.Laes_v1_BB9_13
.Laes_v1_BB9_8:                                # %join.8.i80.lr.ph.new
	movl	%ecx, %edi
	andl	$28, %edi
	movq	%rsp, %rsi
	leaq	(%rsi,%r13), %r8
	addq	$3, %r8
	leaq	(%rbx,%r15), %r9
	addq	$3, %r9
	xorl	%esi, %esi
	.p2align	4
.Laes_v1_BB9_9:                                # %join.8.i80
                                        # =>This Inner Loop Header: Depth=1
	movzbl	-3(%r8,%rsi), %r10d
	xorb	%r10b, -3(%r9,%rsi)
	movzbl	-2(%r8,%rsi), %r10d
	xorb	%r10b, -2(%r9,%rsi)
	movzbl	-1(%r8,%rsi), %r10d
	xorb	%r10b, -1(%r9,%rsi)
	movzbl	(%r8,%rsi), %r10d
	xorb	%r10b, (%r9,%rsi)
	addq	$4, %rsi
	cmpq	%rsi, %rdi
	jne	.Laes_v1_BB9_9
# %bb.10:                               # %join.3.i.loopexit.unr-lcssa
	testq	%rdx, %rdx
	je	.Laes_v1_BB9_13
.Laes_v1_BB9_11:                               # %join.8.i80.epil.preheader
	leaq	(%rax,%rsi), %rdi
	addq	%r13, %rsi
	addq	%rsp, %rsi
	xorl	%r8d, %r8d
	.p2align	4
.Laes_v1_BB9_12:                               # %join.8.i80.epil
                                        # =>This Inner Loop Header: Depth=1
	movzbl	(%rsi,%r8), %r9d
	xorb	%r9b, (%rdi,%r8)
	incq	%r8
	cmpq	%r8, %rdx
	jne	.Laes_v1_BB9_12
.Laes_v1_BB9_13:                               # %join.3.i
	movq	%r14, %rdx
	subq	%rcx, %rdx
	cmpq	$16, %rdx
	jb	.Laes_v1_BB9_15
	.p2align	4
.Laes_v1_BB9_14:                               # %join.8.i
                                        # =>This Inner Loop Header: Depth=1
	leaq	(%rcx,%r13), %rsi
	andq	$-16, %rsi
	movdqu	(%rax,%rcx), %xmm0
	pxor	(%rsp,%rsi), %xmm0
	movdqu	%xmm0, (%rax,%rcx)
	addq	$16, %rcx
	addq	$-16, %rdx
	cmpq	$15, %rdx
	ja	.Laes_v1_BB9_14
.Laes_v1_BB9_15:                               # %after.4.i
	cmpq	%r14, %rcx
	jae	.Laes_v1_BB9_23
# %bb.16:                               # %then.9.i
	testq	%rdx, %rdx
	je	.Laes_v1_BB9_23
# %bb.17:                               # %iter.check
	addq	%rcx, %r13
	andq	$-16, %r13
	leaq	(%rsp,%r13), %rsi
	addq	%rcx, %rax
	cmpq	$4, %rdx
	jae	.Laes_v1_BB9_20
# %bb.18:
	xorl	%ecx, %ecx
	jmp	.Laes_v1_BB9_19
.Laes_v1_BB9_20:                               # %vec.epilog.ph
	movl	%edx, %ecx
	andl	$12, %ecx
	xorl	%edi, %edi
	.p2align	4
.Laes_v1_BB9_21:                               # %vec.epilog.vector.body
                                        # =>This Inner Loop Header: Depth=1
	movl	(%rsi,%rdi), %r8d
	xorl	%r8d, (%rax,%rdi)
	addq	$4, %rdi
	cmpq	%rdi, %rcx
	jne	.Laes_v1_BB9_21
	jmp	.Laes_v1_BB9_22
.Laes_v1_BB9_19:                               # %join.8.i23
	movzbl	(%rsi,%rcx), %edi
	xorb	%dil, (%rax,%rcx)
	incq	%rcx
.Laes_v1_BB9_22:                               # %join.8.i23
	cmpq	%rcx, %rdx
	jne	.Laes_v1_BB9_19
.Laes_v1_BB9_23:                               # %"aes_ctr::add_blocks::add_blocks.exit"
	addq	%rbx, %r14
	movq	%r14, %rax
	addq	$256, %rsp                      # imm = 0x100
	popq	%rbx
	popq	%r12
	popq	%r13
	popq	%r14
	popq	%r15
	retq
	.seh_endproc
                                        # -- End function
	.def	aes_v1.aes_cipher.zeroize.stack.wipe_stack.2032;
	.scl	3;
	.type	32;
	.endef
	.p2align	4                               # -- Begin function aes_cipher::zeroize::stack::wipe_stack::<=2032>
aes_v1.aes_cipher.zeroize.stack.wipe_stack.2032: # @aes_v1.aes_cipher.zeroize.stack.wipe_stack.2032
.seh_proc aes_v1.aes_cipher.zeroize.stack.wipe_stack.2032
# %bb.0:                                # %start
	subq	$2072, %rsp                     # imm = 0x818
	.seh_stackalloc 2072
	.seh_endprologue
	#APP
	xorl	%edi, %edi
	xorl	%esi, %esi
	#NO_APP
	leaq	40(%rsp), %rcx
	movl	$2032, %r8d                     # imm = 0x7F0
	xorl	%edx, %edx
	callq	memset
	movq	$0, 32(%rsp)
	#APP
	#NO_APP
	movq	32(%rsp), %rax
	#APP
	#NO_APP
	cmpq	$2032, %rax                     # imm = 0x7F0
	jae	.Laes_v1_BB10_2
# %bb.1:                                # %then.1
	movzbl	40(%rsp,%rax), %eax
	#APP
	#NO_APP
	xchgq	%rax, 32(%rsp)
	#APP
	#NO_APP
.Laes_v1_BB10_2:                               # %common.ret
	addq	$2072, %rsp                     # imm = 0x818
	retq
	.seh_endproc
                                        # -- End function
	.def	aes_v1.aes_cipher.zeroize.elements.zeroize_elements.1;
	.scl	3;
	.type	32;
	.endef
	.p2align	4                               # -- Begin function aes_cipher::zeroize::elements::zeroize_elements::<#54a2bb646728b9ee>
aes_v1.aes_cipher.zeroize.elements.zeroize_elements.1: # @aes_v1.aes_cipher.zeroize.elements.zeroize_elements.1
.seh_proc aes_v1.aes_cipher.zeroize.elements.zeroize_elements.1
# %bb.0:                                # %start
	pushq	%rbx
	.seh_pushreg %rbx
	subq	$48, %rsp
	.seh_stackalloc 48
	.seh_endprologue
	movq	$0, 40(%rsp)
	#APP
	#NO_APP
	movq	40(%rsp), %rsi
	#APP
	#NO_APP
	cmpq	$120, %rsi
	jae	.Laes_v1_BB11_1
# %bb.2:                                # %then.1.i
	movzbl	(%rdi,%rsi,4), %ebx
	movl	$480, %r8d                      # imm = 0x1E0
	movq	%rdi, %rcx
	xorl	%edx, %edx
	callq	memset
	movzbl	(%rdi,%rsi,4), %esi
	andl	%ebx, %esi
	jmp	.Laes_v1_BB11_3
.Laes_v1_BB11_1:                               # %"aes_cipher::zeroize::observe::<#94bc162b3f62047f>.exit11"
	xorl	%esi, %esi
	movl	$480, %r8d                      # imm = 0x1E0
	movq	%rdi, %rcx
	xorl	%edx, %edx
	callq	memset
.Laes_v1_BB11_3:                               # %"aes_cipher::zeroize::observe::<#94bc162b3f62047f>.exit"
	#APP
	#NO_APP
	xchgq	%rsi, 40(%rsp)
	#APP
	#NO_APP
	addq	$48, %rsp
	popq	%rbx
	retq
	.seh_endproc
                                        # -- End function
	.def	aes_v1.cmac.tags.tag;
	.scl	3;
	.type	32;
	.endef
	.p2align	4                               # -- Begin function cmac::tags::tag::<#4f733d09d7f6c6b4>
aes_v1.cmac.tags.tag: # @aes_v1.cmac.tags.tag
.seh_proc aes_v1.cmac.tags.tag
# %bb.0:                                # %start
	pushq	%rbp
	.seh_pushreg %rbp
	pushq	%r15
	.seh_pushreg %r15
	pushq	%r14
	.seh_pushreg %r14
	pushq	%r13
	.seh_pushreg %r13
	pushq	%r12
	.seh_pushreg %r12
	pushq	%rbx
	.seh_pushreg %rbx
	subq	$40, %rsp
	.seh_stackalloc 40
	.seh_endprologue
	movq	%rcx, %rbx
	movq	%rdx, %r14
	movq	%rsi, %r15
	cmpq	$1, %rcx
	movq	%rcx, %r12
	adcq	$-1, %r12
	movq	%rdi, %r13
	andq	$-16, %r12
	xorps	%xmm0, %xmm0
	movaps	%xmm0, (%rsp)
	movq	%rsp, %rbp
	movq	%rsi, %rdi
	movq	%rbp, %rsi
	movq	%r12, %rcx
	callq	aes_v1.cmac.chaining.chain
	addq	%r12, %r14
	subq	%r12, %rbx
	leaq	24(%rsp), %rdi
	movq	%r15, %rsi
	movq	%rbp, %rdx
	movq	%r14, %rcx
	movq	%rbx, %r8
	callq	aes_v1.cmac.tags.tag_at_end
	movups	24(%rsp), %xmm0
	movups	%xmm0, (%r13)
	addq	$40, %rsp
	popq	%rbx
	popq	%r12
	popq	%r13
	popq	%r14
	popq	%r15
	popq	%rbp
	retq
	.seh_endproc
                                        # -- End function
	.def	aes_v1.cmac.chaining.chain;
	.scl	3;
	.type	32;
	.endef
	.p2align	4                               # -- Begin function cmac::chaining::chain::<#4f733d09d7f6c6b4>
aes_v1.cmac.chaining.chain: # @aes_v1.cmac.chaining.chain
.seh_proc aes_v1.cmac.chaining.chain
# %bb.0:                                # %start
	pushq	%rbp
	.seh_pushreg %rbp
	pushq	%r15
	.seh_pushreg %r15
	pushq	%r14
	.seh_pushreg %r14
	pushq	%r13
	.seh_pushreg %r13
	pushq	%r12
	.seh_pushreg %r12
	pushq	%rbx
	.seh_pushreg %rbx
	subq	$72, %rsp
	.seh_stackalloc 72
	.seh_endprologue
	movq	%rcx, %r13
	shrq	$4, %r13
	movl	%ecx, %eax
	andl	$15, %eax
	cmpq	$1, %rax
	sbbq	$-1, %r13
	testq	%rcx, %rcx
	je	.Laes_v1_BB13_3
# %bb.1:                                # %join.5.lr.ph
	movq	%rdx, %r12
	movq	%rsi, %r15
	movq	%rdi, %rbx
	movl	$16, %ebp
	xorl	%r14d, %r14d
	movq	%rcx, 40(%rsp)                  # 8-byte Spill
	.p2align	4
.Laes_v1_BB13_2:                               # %join.5
                                        # =>This Inner Loop Header: Depth=1
	cmpq	%rbp, %rcx
	movq	%rbp, %r8
	cmovbq	%rcx, %r8
	addq	%r14, %r8
	leaq	(%r12,%rbp), %rdx
	addq	$-16, %rdx
	xorps	%xmm0, %xmm0
	movaps	%xmm0, 48(%rsp)
	leaq	48(%rsp), %rcx
	callq	memcpy
	movups	(%r15), %xmm0
	xorps	48(%rsp), %xmm0
	movups	%xmm0, (%r15)
	movq	(%rbx), %rdi
	movq	8(%rbx), %rsi
	movl	$1, %ecx
	movq	%r15, %rdx
	callq	aes_v1.aes_narrow.blocks.process_all_batches.1
	callq	aes_v1.aes_cipher.zeroize.stack.wipe_stack.1024
	movq	40(%rsp), %rcx                  # 8-byte Reload
	addq	$16, %rbp
	addq	$-16, %r14
	decq	%r13
	jne	.Laes_v1_BB13_2
.Laes_v1_BB13_3:                               # %after.1
	addq	$72, %rsp
	popq	%rbx
	popq	%r12
	popq	%r13
	popq	%r14
	popq	%r15
	popq	%rbp
	retq
	.seh_endproc
                                        # -- End function
	.def	aes_v1.cmac.tags.tag_at_end;
	.scl	3;
	.type	32;
	.endef
	.section	.rdata,"dr"
	.p2align	4, 0x0                          # -- Begin function cmac::tags::tag_at_end::<#4f733d09d7f6c6b4>
.Laes_v1_CPI14_0:
	.byte	255                             # 0xff
	.byte	255                             # 0xff
	.byte	255                             # 0xff
	.byte	255                             # 0xff
	.byte	255                             # 0xff
	.byte	255                             # 0xff
	.byte	255                             # 0xff
	.byte	255                             # 0xff
	.byte	255                             # 0xff
	.byte	255                             # 0xff
	.byte	255                             # 0xff
	.byte	255                             # 0xff
	.byte	0                               # 0x0
	.byte	255                             # 0xff
	.byte	255                             # 0xff
	.byte	255                             # 0xff
.Laes_v1_CPI14_1:
	.byte	255                             # 0xff
	.byte	255                             # 0xff
	.byte	255                             # 0xff
	.byte	255                             # 0xff
	.byte	255                             # 0xff
	.byte	255                             # 0xff
	.byte	255                             # 0xff
	.byte	255                             # 0xff
	.byte	255                             # 0xff
	.byte	255                             # 0xff
	.byte	255                             # 0xff
	.byte	255                             # 0xff
	.byte	255                             # 0xff
	.byte	0                               # 0x0
	.byte	255                             # 0xff
	.byte	255                             # 0xff
.Laes_v1_CPI14_2:
	.byte	255                             # 0xff
	.byte	255                             # 0xff
	.byte	255                             # 0xff
	.byte	255                             # 0xff
	.byte	255                             # 0xff
	.byte	255                             # 0xff
	.byte	255                             # 0xff
	.byte	255                             # 0xff
	.byte	255                             # 0xff
	.byte	255                             # 0xff
	.byte	255                             # 0xff
	.byte	255                             # 0xff
	.byte	255                             # 0xff
	.byte	255                             # 0xff
	.byte	0                               # 0x0
	.byte	255                             # 0xff
.Laes_v1_CPI14_3:
	.byte	255                             # 0xff
	.byte	255                             # 0xff
	.byte	255                             # 0xff
	.byte	255                             # 0xff
	.byte	255                             # 0xff
	.byte	255                             # 0xff
	.byte	255                             # 0xff
	.byte	255                             # 0xff
	.byte	255                             # 0xff
	.byte	255                             # 0xff
	.byte	255                             # 0xff
	.byte	255                             # 0xff
	.byte	255                             # 0xff
	.byte	255                             # 0xff
	.byte	255                             # 0xff
	.byte	0                               # 0x0
	.text
	.p2align	4
aes_v1.cmac.tags.tag_at_end: # @aes_v1.cmac.tags.tag_at_end
.seh_proc aes_v1.cmac.tags.tag_at_end
# %bb.0:                                # %start
	pushq	%r15
	.seh_pushreg %r15
	pushq	%r14
	.seh_pushreg %r14
	pushq	%r13
	.seh_pushreg %r13
	pushq	%r12
	.seh_pushreg %r12
	pushq	%rbx
	.seh_pushreg %rbx
	subq	$112, %rsp
	.seh_stackalloc 112
	.seh_endprologue
	movq	%r8, %r12
	movq	%rcx, %r13
	movq	%rdx, %r15
	movq	%rsi, %r14
	movq	%rdi, %rbx
	movq	(%rsi), %rdi
	movq	8(%rsi), %rsi
	xorps	%xmm0, %xmm0
	movaps	%xmm0, 32(%rsp)
	leaq	32(%rsp), %rdx
	movl	$1, %ecx
	callq	aes_v1.aes_narrow.blocks.process_all_batches.1
	callq	aes_v1.aes_cipher.zeroize.stack.wipe_stack.1024
	pxor	%xmm7, %xmm7
	movq	32(%rsp), %rax
	movq	40(%rsp), %rcx
	bswapq	%rcx
	bswapq	%rax
	movq	%rax, %rdx
	shldq	$1, %rcx, %rdx
	addq	%rcx, %rcx
	movq	%rcx, %xmm0
	sarq	$63, %rax
	andl	$135, %eax
	xorq	%rcx, %rax
	movq	%rdx, %xmm1
	movq	%rax, %xmm6
	punpcklqdq	%xmm1, %xmm6            # xmm6 = xmm6[0],xmm1[0]
	movdqa	%xmm0, 48(%rsp)
	movzbl	51(%rsp), %eax
	movzbl	50(%rsp), %edi
	movzbl	49(%rsp), %ecx
	movdqa	%xmm6, 96(%rsp)
	movl	52(%rsp), %edx
	bswapl	%edx
	shlq	$32, %rax
	shlq	$40, %rdi
	orq	%rax, %rdi
	orq	%rdx, %rdi
	shlq	$48, %rcx
	movl	96(%rsp), %esi
	shlq	$56, %rsi
	orq	%rcx, %rsi
	orq	%rdi, %rsi
	movdqa	%xmm7, 32(%rsp)
	leaq	32(%rsp), %rcx
	movq	%r13, %rdx
	movq	%r12, %r8
	callq	memcpy
	cmpq	$16, %r12
	jne	.Laes_v1_BB14_2
# %bb.1:                                # %then.1.i
	movq	%rdi, %rcx
	shrq	$40, %rcx
	shrq	$32, %rdi
	movq	%rsi, %rax
	shrq	$48, %rax
	shrq	$56, %rsi
	movdqa	%xmm6, %xmm0
	punpcklbw	%xmm7, %xmm0            # xmm0 = xmm0[0],xmm7[0],xmm0[1],xmm7[1],xmm0[2],xmm7[2],xmm0[3],xmm7[3],xmm0[4],xmm7[4],xmm0[5],xmm7[5],xmm0[6],xmm7[6],xmm0[7],xmm7[7]
	pshufhw	$27, %xmm0, %xmm0               # xmm0 = xmm0[0,1,2,3,7,6,5,4]
	punpckhbw	%xmm7, %xmm6            # xmm6 = xmm6[8],xmm7[8],xmm6[9],xmm7[9],xmm6[10],xmm7[10],xmm6[11],xmm7[11],xmm6[12],xmm7[12],xmm6[13],xmm7[13],xmm6[14],xmm7[14],xmm6[15],xmm7[15]
	pshufd	$78, %xmm6, %xmm1               # xmm1 = xmm6[2,3,0,1]
	pshuflw	$27, %xmm1, %xmm1               # xmm1 = xmm1[3,2,1,0,4,5,6,7]
	pshufhw	$27, %xmm1, %xmm1               # xmm1 = xmm1[0,1,2,3,7,6,5,4]
	packuswb	%xmm0, %xmm1
	pshufd	$244, %xmm1, %xmm0              # xmm0 = xmm1[0,1,3,3]
	movdqa	.Laes_v1_CPI14_0(%rip), %xmm1          # xmm1 = [255,255,255,255,255,255,255,255,255,255,255,255,0,255,255,255]
	pand	%xmm1, %xmm0
	movd	%edi, %xmm2
	pshufd	$0, %xmm2, %xmm2                # xmm2 = xmm2[0,0,0,0]
	pandn	%xmm2, %xmm1
	por	%xmm0, %xmm1
	movdqa	.Laes_v1_CPI14_1(%rip), %xmm0          # xmm0 = [255,255,255,255,255,255,255,255,255,255,255,255,255,0,255,255]
	pand	%xmm0, %xmm1
	movd	%ecx, %xmm2
	pslldq	$13, %xmm2                      # xmm2 = zero,zero,zero,zero,zero,zero,zero,zero,zero,zero,zero,zero,zero,xmm2[0,1,2]
	pandn	%xmm2, %xmm0
	por	%xmm1, %xmm0
	pand	.Laes_v1_CPI14_2(%rip), %xmm0
	movd	%eax, %xmm1
	pslldq	$14, %xmm1                      # xmm1 = zero,zero,zero,zero,zero,zero,zero,zero,zero,zero,zero,zero,zero,zero,xmm1[0,1]
	por	%xmm0, %xmm1
	pand	.Laes_v1_CPI14_3(%rip), %xmm1
	movd	%esi, %xmm0
	pslldq	$15, %xmm0                      # xmm0 = zero,zero,zero,zero,zero,zero,zero,zero,zero,zero,zero,zero,zero,zero,zero,xmm0[0]
	por	%xmm1, %xmm0
	jmp	.Laes_v1_BB14_3
.Laes_v1_BB14_2:                               # %else.2.i
	movdqa	%xmm6, 80(%rsp)
	movq	88(%rsp), %rax
	bswapq	%rsi
	movq	%rax, %rcx
	sarq	$63, %rcx
	andl	$135, %ecx
	shldq	$1, %rsi, %rax
	addq	%rsi, %rsi
	xorq	%rcx, %rsi
	movq	%rsi, %xmm1
	movq	%rax, %xmm0
	movb	$-128, 32(%rsp,%r12)
	punpcklbw	%xmm7, %xmm0            # xmm0 = xmm0[0],xmm7[0],xmm0[1],xmm7[1],xmm0[2],xmm7[2],xmm0[3],xmm7[3],xmm0[4],xmm7[4],xmm0[5],xmm7[5],xmm0[6],xmm7[6],xmm0[7],xmm7[7]
	pshufd	$78, %xmm0, %xmm0               # xmm0 = xmm0[2,3,0,1]
	pshuflw	$27, %xmm0, %xmm0               # xmm0 = xmm0[3,2,1,0,4,5,6,7]
	pshufhw	$27, %xmm0, %xmm0               # xmm0 = xmm0[0,1,2,3,7,6,5,4]
	punpcklbw	%xmm7, %xmm1            # xmm1 = xmm1[0],xmm7[0],xmm1[1],xmm7[1],xmm1[2],xmm7[2],xmm1[3],xmm7[3],xmm1[4],xmm7[4],xmm1[5],xmm7[5],xmm1[6],xmm7[6],xmm1[7],xmm7[7]
	pshufd	$78, %xmm1, %xmm1               # xmm1 = xmm1[2,3,0,1]
	pshuflw	$27, %xmm1, %xmm1               # xmm1 = xmm1[3,2,1,0,4,5,6,7]
	pshufhw	$27, %xmm1, %xmm1               # xmm1 = xmm1[0,1,2,3,7,6,5,4]
	packuswb	%xmm1, %xmm0
.Laes_v1_BB14_3:                               # %"cmac::tags::last_block::<#4f733d09d7f6c6b4>.exit"
	pxor	32(%rsp), %xmm0
	movdqu	(%r15), %xmm1
	pxor	%xmm0, %xmm1
	movdqa	%xmm1, 64(%rsp)
	movq	(%r14), %rdi
	movq	8(%r14), %rsi
	leaq	64(%rsp), %rdx
	movl	$1, %ecx
	callq	aes_v1.aes_narrow.blocks.process_all_batches.1
	callq	aes_v1.aes_cipher.zeroize.stack.wipe_stack.1024
	movaps	64(%rsp), %xmm0
	movups	%xmm0, (%rbx)
	addq	$112, %rsp
	popq	%rbx
	popq	%r12
	popq	%r13
	popq	%r14
	popq	%r15
	retq
	.seh_endproc
                                        # -- End function
	.def	aes_v1.cmac.pieces.MessageZeroize.zeroize;
	.scl	3;
	.type	32;
	.endef
	.p2align	4                               # -- Begin function cmac::pieces::MessageZeroize::zeroize
aes_v1.cmac.pieces.MessageZeroize.zeroize: # @aes_v1.cmac.pieces.MessageZeroize.zeroize
.seh_proc aes_v1.cmac.pieces.MessageZeroize.zeroize
# %bb.0:                                # %start
	pushq	%rbx
	.seh_pushreg %rbx
	.seh_endprologue
	movq	%rdi, %rbx
	addq	$16, %rdi
	xorps	%xmm0, %xmm0
	movups	%xmm0, (%rbx)
	callq	aes_v1.aes_cipher.zeroize.elements.zeroize_elements.2
	addq	$32, %rbx
	movq	%rbx, %rdi
	popq	%rbx
	jmp	aes_v1.aes_cipher.zeroize.elements.zeroize_elements.2 # TAILCALL
	.seh_endproc
                                        # -- End function
	.def	aes_v1.aes_cipher.zeroize.elements.zeroize_elements.2;
	.scl	3;
	.type	32;
	.endef
	.p2align	4                               # -- Begin function aes_cipher::zeroize::elements::zeroize_elements::<#331496ca003a3905>
aes_v1.aes_cipher.zeroize.elements.zeroize_elements.2: # @aes_v1.aes_cipher.zeroize.elements.zeroize_elements.2
.seh_proc aes_v1.aes_cipher.zeroize.elements.zeroize_elements.2
# %bb.0:                                # %start
	subq	$40, %rsp
	.seh_stackalloc 40
	.seh_endprologue
	xorps	%xmm0, %xmm0
	movaps	%xmm0, 16(%rsp)
	movq	$0, 8(%rsp)
	#APP
	#NO_APP
	movq	8(%rsp), %rax
	#APP
	#NO_APP
	testq	%rax, %rax
	je	.Laes_v1_BB16_2
# %bb.1:                                # %"aes_cipher::zeroize::observe::<#38c92a2c69ae69e8>.exit8"
	movaps	16(%rsp), %xmm0
	movups	%xmm0, (%rdi)
	xorl	%eax, %eax
	jmp	.Laes_v1_BB16_3
.Laes_v1_BB16_2:                               # %then.1.i
	movzbl	(%rdi), %eax
	movaps	16(%rsp), %xmm0
	movups	%xmm0, (%rdi)
	andb	(%rdi), %al
	movzbl	%al, %eax
.Laes_v1_BB16_3:                               # %"aes_cipher::zeroize::observe::<#38c92a2c69ae69e8>.exit"
	#APP
	#NO_APP
	xchgq	%rax, 8(%rsp)
	#APP
	#NO_APP
	addq	$40, %rsp
	retq
	.seh_endproc
                                        # -- End function
	.def	aes_v1.cmac.chain_in_pieces.ChainInPieces.extend;
	.scl	3;
	.type	32;
	.endef
	.p2align	4                               # -- Begin function cmac::chain_in_pieces::ChainInPieces::extend::<#4f733d09d7f6c6b4>
aes_v1.cmac.chain_in_pieces.ChainInPieces.extend: # @aes_v1.cmac.chain_in_pieces.ChainInPieces.extend
.seh_proc aes_v1.cmac.chain_in_pieces.ChainInPieces.extend
# %bb.0:                                # %start
	pushq	%rbp
	.seh_pushreg %rbp
	pushq	%r15
	.seh_pushreg %r15
	pushq	%r14
	.seh_pushreg %r14
	pushq	%r13
	.seh_pushreg %r13
	pushq	%r12
	.seh_pushreg %r12
	pushq	%rbx
	.seh_pushreg %rbx
	subq	$88, %rsp
	.seh_stackalloc 88
	.seh_endprologue
	movq	%rcx, %r14
	movq	%rdx, %r15
	movq	(%rdi), %rax
	cmpq	$16, %rax
	movl	$16, %ebx
	cmovbq	%rax, %rbx
	movl	$16, %r8d
	subq	%rbx, %r8
	movq	%rcx, %rbp
	subq	%r8, %rbp
	jbe	.Laes_v1_BB17_6
# %bb.1:                                # %join.3
	movq	%rsi, %r9
	leaq	(%r15,%r8), %r13
	leaq	24(%rdi), %r12
	leaq	(%rdi,%rbx), %rcx
	addq	$24, %rcx
	movq	%rcx, %rdx
	subq	%r15, %rdx
	cmpq	%r8, %rdx
	jae	.Laes_v1_BB17_9
# %bb.2:                                # %iter.check75
	testq	%rax, %rax
	jne	.Laes_v1_BB17_4
# %bb.3:                                # %vector.memcheck69
	movq	%rdi, %rax
	subq	%r15, %rax
	addq	$24, %rax
	cmpq	$32, %rax
	jae	.Laes_v1_BB17_20
.Laes_v1_BB17_4:                               # %join.7.i.i.i.i.i.i29.preheader
	movl	%r8d, %eax
	andl	$3, %eax
	leaq	-13(%rbx), %rcx
	cmpq	$3, %rcx
	jae	.Laes_v1_BB17_13
# %bb.5:
	xorl	%ecx, %ecx
	jmp	.Laes_v1_BB17_16
.Laes_v1_BB17_6:                               # %then.1
	leaq	(%rbx,%r14), %rbp
	leaq	(%rdi,%rbx), %rcx
	addq	$24, %rcx
	movq	%rcx, %rax
	subq	%r15, %rax
	cmpq	%r14, %rax
	jae	.Laes_v1_BB17_10
# %bb.7:                                # %iter.check
	cmpq	$4, %r14
	jb	.Laes_v1_BB17_8
# %bb.11:                               # %vector.memcheck
	leaq	(%rbx,%rdi), %rax
	subq	%r15, %rax
	addq	$24, %rax
	cmpq	$32, %rax
	jae	.Laes_v1_BB17_18
.Laes_v1_BB17_8:
	xorl	%eax, %eax
.Laes_v1_BB17_36:                              # %join.7.i.i.i.i.i.i.preheader
	movq	%r14, %rsi
	movq	%rax, %rdx
	andq	$3, %rsi
	je	.Laes_v1_BB17_39
# %bb.37:                               # %join.7.i.i.i.i.i.i.prol.preheader
	movq	%rax, %rdx
	.p2align	4
.Laes_v1_BB17_38:                              # %join.7.i.i.i.i.i.i.prol
                                        # =>This Inner Loop Header: Depth=1
	movzbl	(%r15,%rdx), %r8d
	movb	%r8b, (%rcx,%rdx)
	incq	%rdx
	decq	%rsi
	jne	.Laes_v1_BB17_38
.Laes_v1_BB17_39:                              # %join.7.i.i.i.i.i.i.prol.loopexit
	subq	%r14, %rax
	cmpq	$-4, %rax
	ja	.Laes_v1_BB17_51
# %bb.40:                               # %join.7.i.i.i.i.i.i.preheader134
	leaq	(%rbx,%rdi), %rax
	addq	$27, %rax
	.p2align	4
.Laes_v1_BB17_41:                              # %join.7.i.i.i.i.i.i
                                        # =>This Inner Loop Header: Depth=1
	movzbl	(%r15,%rdx), %ecx
	movb	%cl, -3(%rax,%rdx)
	movzbl	1(%r15,%rdx), %ecx
	movb	%cl, -2(%rax,%rdx)
	movzbl	2(%r15,%rdx), %ecx
	movb	%cl, -1(%rax,%rdx)
	movzbl	3(%r15,%rdx), %ecx
	movb	%cl, (%rax,%rdx)
	addq	$4, %rdx
	cmpq	%rdx, %r14
	jne	.Laes_v1_BB17_41
	jmp	.Laes_v1_BB17_51
.Laes_v1_BB17_9:                               # %apart.2.i.i.i.i.i.i28
	movq	%r15, %rdx
	movq	%r9, %rsi
	callq	memmove
	movq	%rsi, %r9
	jmp	.Laes_v1_BB17_21
.Laes_v1_BB17_10:                              # %apart.2.i.i.i.i.i.i
	movq	%r15, %rdx
	movq	%r14, %r8
	callq	memmove
	jmp	.Laes_v1_BB17_51
.Laes_v1_BB17_13:                              # %join.7.i.i.i.i.i.i29.preheader.new
	andl	$-4, %r8d
	leaq	(%rbx,%rdi), %rdx
	addq	$27, %rdx
	xorl	%ecx, %ecx
	.p2align	4
.Laes_v1_BB17_14:                              # %join.7.i.i.i.i.i.i29
                                        # =>This Inner Loop Header: Depth=1
	movzbl	(%r15,%rcx), %esi
	movb	%sil, -3(%rdx,%rcx)
	movzbl	1(%r15,%rcx), %esi
	movb	%sil, -2(%rdx,%rcx)
	movzbl	2(%r15,%rcx), %esi
	movb	%sil, -1(%rdx,%rcx)
	movzbl	3(%r15,%rcx), %esi
	movb	%sil, (%rdx,%rcx)
	addq	$4, %rcx
	cmpq	%rcx, %r8
	jne	.Laes_v1_BB17_14
# %bb.15:                               # %"core::slice::edits::slice+T::copy_from_slice::<i8,20'core::clone::U8Clone{}>.exit36.loopexit.unr-lcssa"
	testq	%rax, %rax
	je	.Laes_v1_BB17_21
.Laes_v1_BB17_16:                              # %join.7.i.i.i.i.i.i29.epil.preheader
	leaq	(%r15,%rcx), %rdx
	addq	%rbx, %rcx
	addq	%rdi, %rcx
	addq	$24, %rcx
	xorl	%esi, %esi
	.p2align	4
.Laes_v1_BB17_17:                              # %join.7.i.i.i.i.i.i29.epil
                                        # =>This Inner Loop Header: Depth=1
	movzbl	(%rdx,%rsi), %r8d
	movb	%r8b, (%rcx,%rsi)
	incq	%rsi
	cmpq	%rsi, %rax
	jne	.Laes_v1_BB17_17
	jmp	.Laes_v1_BB17_21
.Laes_v1_BB17_18:                              # %vector.main.loop.iter.check
	cmpq	$32, %r14
	jae	.Laes_v1_BB17_29
# %bb.19:
	xorl	%eax, %eax
	jmp	.Laes_v1_BB17_33
.Laes_v1_BB17_20:                              # %vec.epilog.vector.body92
	movups	(%r15), %xmm0
	movups	%xmm0, (%rcx)
.Laes_v1_BB17_21:                              # %"core::slice::edits::slice+T::copy_from_slice::<i8,20'core::clone::U8Clone{}>.exit36"
	movq	%r13, 64(%rsp)                  # 8-byte Spill
	movq	%rbx, 48(%rsp)                  # 8-byte Spill
	leaq	-1(%rbp), %rbx
	andq	$-16, %rbx
	leaq	(%rbx,%r13), %rax
	movq	%rax, 80(%rsp)                  # 8-byte Spill
	movq	%rbp, 56(%rsp)                  # 8-byte Spill
	subq	%rbx, %rbp
	movq	%rdi, 40(%rsp)                  # 8-byte Spill
	leaq	8(%rdi), %rsi
	movq	%rsi, 72(%rsp)                  # 8-byte Spill
	movl	$16, %ecx
	movq	%r9, %rdi
	movq	%r12, %rdx
	movq	%r9, %r13
	callq	aes_v1.cmac.chaining.chain
	movq	%r13, %rdi
	movq	72(%rsp), %rsi                  # 8-byte Reload
	movq	64(%rsp), %rdx                  # 8-byte Reload
	movq	%rbx, %rcx
	callq	aes_v1.cmac.chaining.chain
	movq	80(%rsp), %rdx                  # 8-byte Reload
	movq	%r12, %rax
	subq	%rdx, %rax
	cmpq	%rbp, %rax
	jae	.Laes_v1_BB17_24
# %bb.22:                               # %iter.check103
	cmpq	$4, %rbp
	jae	.Laes_v1_BB17_25
# %bb.23:
	xorl	%eax, %eax
	movq	40(%rsp), %rdi                  # 8-byte Reload
	movq	48(%rsp), %r10                  # 8-byte Reload
	jmp	.Laes_v1_BB17_49
.Laes_v1_BB17_24:                              # %apart.2.i.i.i.i.i.i46
	movq	%r12, %rcx
	movq	%rbp, %r8
	callq	memmove
	movq	40(%rsp), %rdi                  # 8-byte Reload
	jmp	.Laes_v1_BB17_51
.Laes_v1_BB17_25:                              # %vector.memcheck97
	movq	40(%rsp), %rdi                  # 8-byte Reload
	movq	48(%rsp), %r10                  # 8-byte Reload
	leaq	(%r10,%rdi), %rax
	subq	%rbx, %rax
	subq	%r15, %rax
	addq	$8, %rax
	cmpq	$32, %rax
	jae	.Laes_v1_BB17_27
# %bb.26:
	xorl	%eax, %eax
	jmp	.Laes_v1_BB17_49
.Laes_v1_BB17_27:                              # %vector.main.loop.iter.check105
	cmpq	$32, %rbp
	jae	.Laes_v1_BB17_42
# %bb.28:
	xorl	%eax, %eax
	jmp	.Laes_v1_BB17_46
.Laes_v1_BB17_29:                              # %vector.ph
	movq	%r14, %rax
	andq	$-32, %rax
	leaq	(%rbx,%rdi), %rdx
	addq	$40, %rdx
	xorl	%esi, %esi
	.p2align	4
.Laes_v1_BB17_30:                              # %vector.body
                                        # =>This Inner Loop Header: Depth=1
	movups	(%r15,%rsi), %xmm0
	movups	16(%r15,%rsi), %xmm1
	movups	%xmm0, -16(%rdx,%rsi)
	movups	%xmm1, (%rdx,%rsi)
	addq	$32, %rsi
	cmpq	%rsi, %rax
	jne	.Laes_v1_BB17_30
# %bb.31:                               # %middle.block
	cmpq	%rax, %r14
	je	.Laes_v1_BB17_51
# %bb.32:                               # %vec.epilog.iter.check
	testb	$28, %r14b
	je	.Laes_v1_BB17_36
.Laes_v1_BB17_33:                              # %vec.epilog.ph
	movq	%rax, %rdx
	movq	%r14, %rax
	andq	$-4, %rax
	.p2align	4
.Laes_v1_BB17_34:                              # %vec.epilog.vector.body
                                        # =>This Inner Loop Header: Depth=1
	movl	(%r15,%rdx), %esi
	movl	%esi, (%rcx,%rdx)
	addq	$4, %rdx
	cmpq	%rdx, %rax
	jne	.Laes_v1_BB17_34
# %bb.35:                               # %vec.epilog.middle.block
	cmpq	%rax, %r14
	je	.Laes_v1_BB17_51
	jmp	.Laes_v1_BB17_36
.Laes_v1_BB17_42:                              # %vector.ph106
	movq	%rbp, %rax
	andq	$-32, %rax
	movq	%rbx, %rcx
	subq	%r10, %rcx
	addq	%r15, %rcx
	addq	$32, %rcx
	xorl	%edx, %edx
	.p2align	4
.Laes_v1_BB17_43:                              # %vector.body109
                                        # =>This Inner Loop Header: Depth=1
	movups	-16(%rcx,%rdx), %xmm0
	movups	(%rcx,%rdx), %xmm1
	movups	%xmm0, 24(%rdi,%rdx)
	movups	%xmm1, 40(%rdi,%rdx)
	addq	$32, %rdx
	cmpq	%rdx, %rax
	jne	.Laes_v1_BB17_43
# %bb.44:                               # %middle.block114
	cmpq	%rax, %rbp
	je	.Laes_v1_BB17_51
# %bb.45:                               # %vec.epilog.iter.check118
	testb	$28, %bpl
	je	.Laes_v1_BB17_49
.Laes_v1_BB17_46:                              # %vec.epilog.ph120
	movq	56(%rsp), %r8                   # 8-byte Reload
	andl	$3, %r8d
	leaq	(%r14,%r10), %rcx
	subq	%rax, %rcx
	leaq	(%rax,%rbx), %rsi
	leaq	(%rax,%rdi), %rdx
	addq	$24, %rdx
	movq	%rbp, %rax
	subq	%r8, %rax
	movq	%r8, %r11
	subq	%r8, %rcx
	subq	%rbx, %rcx
	addq	$-16, %rcx
	subq	%r10, %rsi
	addq	%r15, %rsi
	addq	$16, %rsi
	xorl	%r9d, %r9d
	.p2align	4
.Laes_v1_BB17_47:                              # %vec.epilog.vector.body123
                                        # =>This Inner Loop Header: Depth=1
	movl	(%rsi,%r9), %r8d
	movl	%r8d, (%rdx,%r9)
	addq	$4, %r9
	cmpq	%r9, %rcx
	jne	.Laes_v1_BB17_47
# %bb.48:                               # %vec.epilog.middle.block127
	testq	%r11, %r11
	je	.Laes_v1_BB17_51
.Laes_v1_BB17_49:                              # %join.7.i.i.i.i.i.i47.preheader
	addq	%r10, %r14
	subq	%rax, %r14
	subq	%rbx, %r14
	addq	$-16, %r14
	addq	%rax, %rbx
	subq	%r10, %rbx
	leaq	(%rbx,%r15), %rcx
	addq	$16, %rcx
	addq	%rdi, %rax
	addq	$24, %rax
	xorl	%edx, %edx
	.p2align	4
.Laes_v1_BB17_50:                              # %join.7.i.i.i.i.i.i47
                                        # =>This Inner Loop Header: Depth=1
	movzbl	(%rcx,%rdx), %esi
	movb	%sil, (%rax,%rdx)
	incq	%rdx
	cmpq	%rdx, %r14
	jne	.Laes_v1_BB17_50
.Laes_v1_BB17_51:                              # %common.ret
	movq	%rbp, (%rdi)
	addq	$88, %rsp
	popq	%rbx
	popq	%r12
	popq	%r13
	popq	%r14
	popq	%r15
	popq	%rbp
	retq
	.seh_endproc
                                        # -- End function
	.def	aes_v1.key_wrap.wrapping.wrap;
	.scl	3;
	.type	32;
	.endef
	.p2align	4                               # -- Begin function key_wrap::wrapping::wrap::<#4f733d09d7f6c6b4>
aes_v1.key_wrap.wrapping.wrap: # @aes_v1.key_wrap.wrapping.wrap
.seh_proc aes_v1.key_wrap.wrapping.wrap
# %bb.0:                                # %start
	pushq	%r14
	.seh_pushreg %r14
	pushq	%rbx
	.seh_pushreg %rbx
	subq	$40, %rsp
	.seh_stackalloc 40
	.seh_endprologue
	movabsq	$18014398509481980, %r9         # imm = 0x3FFFFFFFFFFFFC
	leaq	-2(%rdx), %rax
	leaq	2(%r9), %r10
	cmpq	%r10, %rax
	setae	%r10b
	leaq	1(%rdx), %rax
	cmpq	%rax, %r8
	setne	%r11b
	movb	$1, %al
	orb	%r10b, %r11b
	jne	.Laes_v1_BB18_18
# %bb.1:                                # %after.1
	testq	%r8, %r8
	je	.Laes_v1_BB18_17
# %bb.2:                                # %arm.12
	leaq	8(%rcx), %rbx
	decq	%r8
	movabsq	$-6438275382588823898, %rax     # imm = 0xA6A6A6A6A6A6A6A6
	movq	%rax, (%rcx)
	leaq	(,%rdx,8), %rax
	movq	%rbx, %r10
	subq	%rsi, %r10
	cmpq	%rax, %r10
	jae	.Laes_v1_BB18_5
# %bb.3:                                # %join.7.i.i.i.i.i.i.preheader
	cmpq	$6, %rdx
	jb	.Laes_v1_BB18_4
# %bb.6:                                # %vector.memcheck
	movq	%rcx, %r10
	subq	%rsi, %r10
	addq	$8, %r10
	cmpq	$32, %r10
	jae	.Laes_v1_BB18_8
.Laes_v1_BB18_4:
	xorl	%r9d, %r9d
.Laes_v1_BB18_11:                              # %join.7.i.i.i.i.i.i.preheader17
	movq	%rdx, %r10
	movq	%r9, %rax
	andq	$3, %r10
	je	.Laes_v1_BB18_14
# %bb.12:                               # %join.7.i.i.i.i.i.i.prol.preheader
	movq	%r9, %rax
	.p2align	4
.Laes_v1_BB18_13:                              # %join.7.i.i.i.i.i.i.prol
                                        # =>This Inner Loop Header: Depth=1
	movq	(%rsi,%rax,8), %r11
	movq	%r11, (%rbx,%rax,8)
	incq	%rax
	decq	%r10
	jne	.Laes_v1_BB18_13
.Laes_v1_BB18_14:                              # %join.7.i.i.i.i.i.i.prol.loopexit
	subq	%rdx, %r9
	cmpq	$-4, %r9
	ja	.Laes_v1_BB18_16
	.p2align	4
.Laes_v1_BB18_15:                              # %join.7.i.i.i.i.i.i
                                        # =>This Inner Loop Header: Depth=1
	movq	(%rsi,%rax,8), %r9
	movq	%r9, 8(%rcx,%rax,8)
	movq	8(%rsi,%rax,8), %r9
	movq	%r9, 16(%rcx,%rax,8)
	movq	16(%rsi,%rax,8), %r9
	movq	%r9, 24(%rcx,%rax,8)
	movq	24(%rsi,%rax,8), %r9
	movq	%r9, 32(%rcx,%rax,8)
	addq	$4, %rax
	cmpq	%rax, %rdx
	jne	.Laes_v1_BB18_15
	jmp	.Laes_v1_BB18_16
.Laes_v1_BB18_5:                               # %apart.2.i.i.i.i.i.i
	movq	%rcx, %r14
	movq	%rbx, %rcx
	movq	%rsi, %rdx
	movq	%r8, %rsi
	movq	%rax, %r8
	callq	memmove
	movq	%r14, %rcx
	movq	%rsi, %r8
.Laes_v1_BB18_16:                              # %"core::slice::edits::slice+T::copy_from_slice::<#76f67ba6cf9709da>.exit"
	movq	%rcx, %rsi
	movq	%rbx, %rdx
	movq	%r8, %rcx
	callq	aes_v1.key_wrap.steps.wrap_in_place
.Laes_v1_BB18_17:                              # %return.10
	xorl	%eax, %eax
.Laes_v1_BB18_18:                              # %return.10
                                        # kill: def $al killed $al killed $eax
	addq	$40, %rsp
	popq	%rbx
	popq	%r14
	retq
.Laes_v1_BB18_8:                               # %vector.ph
	andq	%rdx, %r9
	movabsq	$144115188075855840, %r10       # imm = 0x1FFFFFFFFFFFFE0
	andq	%r10, %rax
	xorl	%r10d, %r10d
	.p2align	4
.Laes_v1_BB18_9:                               # %vector.body
                                        # =>This Inner Loop Header: Depth=1
	movups	(%rsi,%r10), %xmm0
	movups	16(%rsi,%r10), %xmm1
	movups	%xmm0, 8(%rcx,%r10)
	movups	%xmm1, 24(%rcx,%r10)
	addq	$32, %r10
	cmpq	%r10, %rax
	jne	.Laes_v1_BB18_9
# %bb.10:                               # %middle.block
	cmpq	%r9, %rdx
	je	.Laes_v1_BB18_16
	jmp	.Laes_v1_BB18_11
	.seh_endproc
                                        # -- End function
	.def	aes_v1.key_wrap.steps.wrap_in_place;
	.scl	3;
	.type	32;
	.endef
	.p2align	4                               # -- Begin function key_wrap::steps::wrap_in_place::<#4f733d09d7f6c6b4>
aes_v1.key_wrap.steps.wrap_in_place: # @aes_v1.key_wrap.steps.wrap_in_place
.seh_proc aes_v1.key_wrap.steps.wrap_in_place
# %bb.0:                                # %start
	pushq	%rbp
	.seh_pushreg %rbp
	pushq	%r15
	.seh_pushreg %r15
	pushq	%r14
	.seh_pushreg %r14
	pushq	%r13
	.seh_pushreg %r13
	pushq	%r12
	.seh_pushreg %r12
	pushq	%rbx
	.seh_pushreg %rbx
	subq	$24, %rsp
	.seh_stackalloc 24
	.seh_endprologue
	testq	%rcx, %rcx
	je	.Laes_v1_BB19_13
# %bb.1:                                # %join.5.preheader
	movq	%rcx, %rbx
	movq	%rdx, %r14
	movq	%rsi, %r15
	movq	%rdi, %r12
	movq	(%rsi), %rax
	movq	%rcx, %r13
	negq	%r13
	movl	$1, %ebp
	.p2align	4
.Laes_v1_BB19_2:                               # %join.5.i
                                        # =>This Inner Loop Header: Depth=1
	movq	(%r12), %rdi
	movq	8(%r12), %rsi
	movq	-8(%r14,%rbp,8), %rcx
	movq	%rax, 8(%rsp)
	movq	%rcx, 16(%rsp)
	leaq	8(%rsp), %rdx
	movl	$1, %ecx
	callq	aes_v1.aes_narrow.blocks.process_all_batches.1
	callq	aes_v1.aes_cipher.zeroize.stack.wipe_stack.1024
	movq	8(%rsp), %rax
	movq	16(%rsp), %rcx
	movq	%rax, (%r15)
	movq	%rcx, -8(%r14,%rbp,8)
	movq	%rbp, %rax
	bswapq	%rax
	xorq	(%r15), %rax
	movq	%rax, (%r15)
	leaq	1(,%rbp), %rcx
	addq	%r13, %rcx
	incq	%rbp
	cmpq	$1, %rcx
	jne	.Laes_v1_BB19_2
# %bb.3:                                # %"key_wrap::steps::wrap_turn::<#4f733d09d7f6c6b4>.exit.loopexit"
	xorl	%r13d, %r13d
	.p2align	4
.Laes_v1_BB19_4:                               # %join.5.i.1
                                        # =>This Inner Loop Header: Depth=1
	leaq	(%rbx,%r13), %rbp
	incq	%rbp
	movq	(%r12), %rdi
	movq	8(%r12), %rsi
	movq	(%r14,%r13,8), %rcx
	movq	%rax, 8(%rsp)
	movq	%rcx, 16(%rsp)
	leaq	8(%rsp), %rdx
	movl	$1, %ecx
	callq	aes_v1.aes_narrow.blocks.process_all_batches.1
	callq	aes_v1.aes_cipher.zeroize.stack.wipe_stack.1024
	movq	8(%rsp), %rax
	movq	16(%rsp), %rcx
	movq	%rax, (%r15)
	bswapq	%rbp
	movq	%rcx, (%r14,%r13,8)
	movq	%rbp, %rax
	xorq	(%r15), %rax
	movq	%rax, (%r15)
	incq	%r13
	cmpq	%r13, %rbx
	jne	.Laes_v1_BB19_4
# %bb.5:                                # %"key_wrap::steps::wrap_turn::<#4f733d09d7f6c6b4>.exit.loopexit.1"
	xorl	%ebp, %ebp
	.p2align	4
.Laes_v1_BB19_6:                               # %join.5.i.2
                                        # =>This Inner Loop Header: Depth=1
	leaq	1(,%rbx,2), %rcx
	leaq	(%rcx,%rbp), %r13
	movq	(%r12), %rdi
	movq	8(%r12), %rsi
	movq	(%r14,%rbp,8), %rcx
	movq	%rax, 8(%rsp)
	movq	%rcx, 16(%rsp)
	leaq	8(%rsp), %rdx
	movl	$1, %ecx
	callq	aes_v1.aes_narrow.blocks.process_all_batches.1
	callq	aes_v1.aes_cipher.zeroize.stack.wipe_stack.1024
	movq	8(%rsp), %rax
	movq	16(%rsp), %rcx
	movq	%rax, (%r15)
	bswapq	%r13
	movq	%rcx, (%r14,%rbp,8)
	movq	%r13, %rax
	xorq	(%r15), %rax
	movq	%rax, (%r15)
	incq	%rbp
	cmpq	%rbp, %rbx
	jne	.Laes_v1_BB19_6
# %bb.7:                                # %"key_wrap::steps::wrap_turn::<#4f733d09d7f6c6b4>.exit.loopexit.2"
	xorl	%ebp, %ebp
	.p2align	4
.Laes_v1_BB19_8:                               # %join.5.i.3
                                        # =>This Inner Loop Header: Depth=1
	leaq	(%rbx,%rbx,2), %rcx
	incq	%rcx
	leaq	(%rcx,%rbp), %r13
	movq	(%r12), %rdi
	movq	8(%r12), %rsi
	movq	(%r14,%rbp,8), %rcx
	movq	%rax, 8(%rsp)
	movq	%rcx, 16(%rsp)
	leaq	8(%rsp), %rdx
	movl	$1, %ecx
	callq	aes_v1.aes_narrow.blocks.process_all_batches.1
	callq	aes_v1.aes_cipher.zeroize.stack.wipe_stack.1024
	movq	8(%rsp), %rax
	movq	16(%rsp), %rcx
	movq	%rax, (%r15)
	bswapq	%r13
	movq	%rcx, (%r14,%rbp,8)
	movq	%r13, %rax
	xorq	(%r15), %rax
	movq	%rax, (%r15)
	incq	%rbp
	cmpq	%rbp, %rbx
	jne	.Laes_v1_BB19_8
# %bb.9:                                # %"key_wrap::steps::wrap_turn::<#4f733d09d7f6c6b4>.exit.loopexit.3"
	xorl	%ebp, %ebp
	.p2align	4
.Laes_v1_BB19_10:                              # %join.5.i.4
                                        # =>This Inner Loop Header: Depth=1
	leaq	1(,%rbx,4), %rcx
	leaq	(%rcx,%rbp), %r13
	movq	(%r12), %rdi
	movq	8(%r12), %rsi
	movq	(%r14,%rbp,8), %rcx
	movq	%rax, 8(%rsp)
	movq	%rcx, 16(%rsp)
	leaq	8(%rsp), %rdx
	movl	$1, %ecx
	callq	aes_v1.aes_narrow.blocks.process_all_batches.1
	callq	aes_v1.aes_cipher.zeroize.stack.wipe_stack.1024
	movq	8(%rsp), %rax
	movq	16(%rsp), %rcx
	movq	%rax, (%r15)
	bswapq	%r13
	movq	%rcx, (%r14,%rbp,8)
	movq	%r13, %rax
	xorq	(%r15), %rax
	movq	%rax, (%r15)
	incq	%rbp
	cmpq	%rbp, %rbx
	jne	.Laes_v1_BB19_10
# %bb.11:                               # %"key_wrap::steps::wrap_turn::<#4f733d09d7f6c6b4>.exit.loopexit.4"
	xorl	%ebp, %ebp
	.p2align	4
.Laes_v1_BB19_12:                              # %join.5.i.5
                                        # =>This Inner Loop Header: Depth=1
	leaq	(%rbx,%rbx,4), %rcx
	incq	%rcx
	leaq	(%rcx,%rbp), %r13
	movq	(%r12), %rdi
	movq	8(%r12), %rsi
	movq	(%r14,%rbp,8), %rcx
	movq	%rax, 8(%rsp)
	movq	%rcx, 16(%rsp)
	leaq	8(%rsp), %rdx
	movl	$1, %ecx
	callq	aes_v1.aes_narrow.blocks.process_all_batches.1
	callq	aes_v1.aes_cipher.zeroize.stack.wipe_stack.1024
	movq	8(%rsp), %rax
	movq	16(%rsp), %rcx
	movq	%rax, (%r15)
	movq	%rcx, (%r14,%rbp,8)
	bswapq	%r13
	xorq	(%r15), %r13
	movq	%r13, (%r15)
	incq	%rbp
	movq	%r13, %rax
	cmpq	%rbp, %rbx
	jne	.Laes_v1_BB19_12
.Laes_v1_BB19_13:                              # %after.1
	addq	$24, %rsp
	popq	%rbx
	popq	%r12
	popq	%r13
	popq	%r14
	popq	%r15
	popq	%rbp
	retq
	.seh_endproc
                                        # -- End function
	.def	aes_v1.aes_cipher.zeroize.stack.wipe_stack.512;
	.scl	3;
	.type	32;
	.endef
	.p2align	4                               # -- Begin function aes_cipher::zeroize::stack::wipe_stack::<=512>
aes_v1.aes_cipher.zeroize.stack.wipe_stack.512: # @aes_v1.aes_cipher.zeroize.stack.wipe_stack.512
.seh_proc aes_v1.aes_cipher.zeroize.stack.wipe_stack.512
# %bb.0:                                # %start
	subq	$552, %rsp                      # imm = 0x228
	.seh_stackalloc 552
	.seh_endprologue
	#APP
	xorl	%edi, %edi
	xorl	%esi, %esi
	#NO_APP
	leaq	40(%rsp), %rcx
	movl	$512, %r8d                      # imm = 0x200
	xorl	%edx, %edx
	callq	memset
	movq	$0, 32(%rsp)
	#APP
	#NO_APP
	movq	32(%rsp), %rax
	#APP
	#NO_APP
	cmpq	$512, %rax                      # imm = 0x200
	jae	.Laes_v1_BB20_2
# %bb.1:                                # %then.1
	movzbl	40(%rsp,%rax), %eax
	#APP
	#NO_APP
	xchgq	%rax, 32(%rsp)
	#APP
	#NO_APP
.Laes_v1_BB20_2:                               # %common.ret
	addq	$552, %rsp                      # imm = 0x228
	retq
	.seh_endproc
                                        # -- End function
	.def	aes_v1.key_wrap.padded.wrap_padded;
	.scl	3;
	.type	32;
	.endef
	.p2align	4                               # -- Begin function key_wrap::padded::wrap_padded::<#4f733d09d7f6c6b4>
aes_v1.key_wrap.padded.wrap_padded: # @aes_v1.key_wrap.padded.wrap_padded
.seh_proc aes_v1.key_wrap.padded.wrap_padded
# %bb.0:                                # %start
	pushq	%rbp
	.seh_pushreg %rbp
	pushq	%r15
	.seh_pushreg %r15
	pushq	%r14
	.seh_pushreg %r14
	pushq	%r13
	.seh_pushreg %r13
	pushq	%r12
	.seh_pushreg %r12
	pushq	%rbx
	.seh_pushreg %rbx
	subq	$88, %rsp
	.seh_stackalloc 88
	.seh_endprologue
	movq	%rcx, %rbx
	leaq	-1(%rdx), %rcx
	movl	$4294967294, %r9d               # imm = 0xFFFFFFFE
	movb	$1, %al
	cmpq	%r9, %rcx
	ja	.Laes_v1_BB21_13
# %bb.1:                                # %start
	leaq	7(%rdx), %rcx
	shrq	$3, %rcx
	incq	%rcx
	cmpq	%rcx, %r8
	jne	.Laes_v1_BB21_13
# %bb.2:                                # %arm.5
	leaq	8(%rbx), %r15
	movabsq	$-6460033620986822656, %rax     # imm = 0xA65959A600000000
	orq	%rdx, %rax
	movq	%r8, %r12
	bswapq	%rax
	movq	%rax, (%rbx)
	decq	%r12
	je	.Laes_v1_BB21_11
# %bb.3:                                # %join.5.i.preheader
	cmpq	$2, %r8
	jne	.Laes_v1_BB21_5
# %bb.4:
	xorl	%r14d, %r14d
	jmp	.Laes_v1_BB21_8
.Laes_v1_BB21_5:                               # %join.5.i.preheader.new
	movq	%rdi, 64(%rsp)                  # 8-byte Spill
	movq	%r12, 56(%rsp)                  # 8-byte Spill
	movq	%r12, %r15
	andq	$-2, %r15
	movq	%rsi, 48(%rsp)                  # 8-byte Spill
	leaq	8(%rsi), %rax
	movq	%rax, 80(%rsp)                  # 8-byte Spill
	xorl	%r14d, %r14d
	movq	%rdx, 72(%rsp)                  # 8-byte Spill
	movq	%rdx, %rdi
	.p2align	4
.Laes_v1_BB21_6:                               # %join.5.i
                                        # =>This Inner Loop Header: Depth=1
	movq	80(%rsp), %rax                  # 8-byte Reload
	leaq	(%rax,%r14,8), %r12
	leaq	(%rax,%r14,8), %rdx
	addq	$-8, %rdx
	movq	%rdi, %r13
	subq	$8, %r13
	movl	$8, %esi
	movl	$8, %r8d
	cmovbq	%rdi, %r8
	movq	$0, 32(%rsp)
	leaq	32(%rsp), %rbp
	movq	%rbp, %rcx
	callq	memcpy
	movq	32(%rsp), %rax
	movq	%rax, 8(%rbx,%r14,8)
	cmpq	$8, %r13
	cmovaeq	%rsi, %r13
	movq	$0, 32(%rsp)
	movq	%rbp, %rcx
	movq	%r12, %rdx
	movq	%r13, %r8
	callq	memcpy
	movq	32(%rsp), %rax
	movq	%rax, 16(%rbx,%r14,8)
	addq	$2, %r14
	addq	$-16, %rdi
	cmpq	%r14, %r15
	jne	.Laes_v1_BB21_6
# %bb.7:                                # %"key_wrap::padded::fill.exit.unr-lcssa"
	movq	56(%rsp), %r12                  # 8-byte Reload
	testb	$1, %r12b
	movq	72(%rsp), %rdx                  # 8-byte Reload
	movq	64(%rsp), %rdi                  # 8-byte Reload
	leaq	8(%rbx), %r15
	movq	48(%rsp), %rsi                  # 8-byte Reload
	je	.Laes_v1_BB21_9
.Laes_v1_BB21_8:                               # %join.5.i.epil.preheader
	leaq	(,%r14,8), %rcx
	leaq	(%rsi,%r14,8), %rax
	subq	%rcx, %rdx
	cmpq	$8, %rdx
	movl	$8, %r8d
	cmovbq	%rdx, %r8
	movq	$0, 32(%rsp)
	leaq	32(%rsp), %rcx
	movq	%rax, %rdx
	callq	memcpy
	movq	32(%rsp), %rax
	movq	%rax, (%r15,%r14,8)
.Laes_v1_BB21_9:                               # %"key_wrap::padded::fill.exit"
	cmpq	$1, %r12
	jne	.Laes_v1_BB21_11
# %bb.10:                               # %then.1.i
	movups	(%rbx), %xmm0
	movaps	%xmm0, 32(%rsp)
	movq	(%rdi), %rax
	movq	8(%rdi), %rsi
	leaq	32(%rsp), %rdx
	movl	$1, %ecx
	movq	%rax, %rdi
	callq	aes_v1.aes_narrow.blocks.process_all_batches.1
	callq	aes_v1.aes_cipher.zeroize.stack.wipe_stack.1024
	movaps	32(%rsp), %xmm0
	movups	%xmm0, (%rbx)
	jmp	.Laes_v1_BB21_12
.Laes_v1_BB21_11:                              # %else.2.i
	movq	%rbx, %rsi
	movq	%r15, %rdx
	movq	%r12, %rcx
	callq	aes_v1.key_wrap.steps.wrap_in_place
.Laes_v1_BB21_12:                              # %return.4
	xorl	%eax, %eax
.Laes_v1_BB21_13:                              # %return.4
                                        # kill: def $al killed $al killed $eax
	addq	$88, %rsp
	popq	%rbx
	popq	%r12
	popq	%r13
	popq	%r14
	popq	%r15
	popq	%rbp
	retq
	.seh_endproc
                                        # -- End function
	.def	aes_v1.aes_narrow.borrowed_words.call_to_decrypt;
	.scl	3;
	.type	32;
	.endef
	.p2align	4                               # -- Begin function aes_narrow::borrowed_words::call_to_decrypt::<#a8a74a144d92a363>
aes_v1.aes_narrow.borrowed_words.call_to_decrypt: # @aes_v1.aes_narrow.borrowed_words.call_to_decrypt
.seh_proc aes_v1.aes_narrow.borrowed_words.call_to_decrypt
# %bb.0:                                # %start
	pushq	%rbp
	.seh_pushreg %rbp
	pushq	%r15
	.seh_pushreg %r15
	pushq	%r14
	.seh_pushreg %r14
	pushq	%r13
	.seh_pushreg %r13
	pushq	%r12
	.seh_pushreg %r12
	pushq	%rbx
	.seh_pushreg %rbx
	subq	$1128, %rsp                     # imm = 0x468
	.seh_stackalloc 1128
	.seh_endprologue
	movq	%rdx, %r15
	movq	24(%rdx), %rdx
	testq	%rdx, %rdx
	je	.Laes_v1_BB22_16
# %bb.1:                                # %join.5.i.i.preheader
	movq	16(%r15), %rax
	movq	%rax, 48(%rsp)                  # 8-byte Spill
	xorl	%r13d, %r13d
	movq	%r15, 88(%rsp)                  # 8-byte Spill
	movq	%rdi, 72(%rsp)                  # 8-byte Spill
	movq	%rsi, 64(%rsp)                  # 8-byte Spill
	movq	%rdx, 40(%rsp)                  # 8-byte Spill
	jmp	.Laes_v1_BB22_2
	.p2align	4
.Laes_v1_BB22_10:                              #   in Loop: Header=BB22_2 Depth=1
	xorl	%eax, %eax
	movq	56(%rsp), %r13                  # 8-byte Reload
	movq	40(%rsp), %rdx                  # 8-byte Reload
.Laes_v1_BB22_14:                              # %join.7.i.i.i.epil.preheader
                                        #   in Loop: Header=BB22_2 Depth=1
	shlq	$4, %rax
	movups	(%r12,%rax), %xmm1
	xorps	%xmm0, %xmm1
	movups	%xmm1, (%r12,%rax)
	movups	104(%rsp,%rax), %xmm0
	movups	%xmm0, (%r15)
.Laes_v1_BB22_15:                              # %"cbc::decryption::unchain_part::<#c3f6a2486d05430b>.exit.loopexit.i.i"
                                        #   in Loop: Header=BB22_2 Depth=1
	addq	%rbx, %r13
	cmpq	%rdx, %r13
	jae	.Laes_v1_BB22_16
.Laes_v1_BB22_2:                               # %join.5.i.i
                                        # =>This Loop Header: Depth=1
                                        #     Child Loop BB22_4 Depth 2
                                        #     Child Loop BB22_8 Depth 2
                                        #     Child Loop BB22_12 Depth 2
	movq	%rdx, %rbx
	subq	%r13, %rbx
	cmpq	$64, %rbx
	movl	$64, %ebp
	cmovbq	%rbx, %rbp
	movq	%r13, 56(%rsp)                  # 8-byte Spill
	shlq	$4, %r13
	movq	48(%rsp), %rax                  # 8-byte Reload
	leaq	(%rax,%r13), %r12
	movl	%ebp, %esi
	shll	$4, %esi
	xorl	%r14d, %r14d
	leaq	104(%rsp), %rcx
	movl	$1024, %r8d                     # imm = 0x400
	xorl	%edx, %edx
	callq	memset
	leaq	104(%rsp), %rcx
	movq	%r12, %rdx
	movq	%rsi, %r8
	callq	memcpy
	movq	%rbx, 96(%rsp)                  # 8-byte Spill
	cmpq	$2, %rbx
	jb	.Laes_v1_BB22_6
# %bb.3:                                # %join.5.i.i.i.i.preheader
                                        #   in Loop: Header=BB22_2 Depth=1
	xorl	%r14d, %r14d
	movq	%rbp, 80(%rsp)                  # 8-byte Spill
	movq	%r12, %rbp
	movq	64(%rsp), %r15                  # 8-byte Reload
	movq	72(%rsp), %rbx                  # 8-byte Reload
	.p2align	4
.Laes_v1_BB22_4:                               # %join.5.i.i.i.i
                                        #   Parent Loop BB22_2 Depth=1
                                        # =>  This Inner Loop Header: Depth=2
	movl	$2, %ecx
	movq	%rbx, %rdi
	movq	%r15, %rsi
	movq	%rbp, %rdx
	callq	aes_v1.aes_soft.soft.blocks.filled_up.process_filled_up.2
	addq	$32, %rbp
	movq	80(%rsp), %rax                  # 8-byte Reload
	addq	%r14, %rax
	addq	$-2, %rax
	addq	$-2, %r14
	cmpq	$1, %rax
	ja	.Laes_v1_BB22_4
# %bb.5:                                # %loop.7.preheader.i.i.i.i.loopexit
                                        #   in Loop: Header=BB22_2 Depth=1
	negq	%r14
	movq	88(%rsp), %r15                  # 8-byte Reload
	movq	80(%rsp), %rbp                  # 8-byte Reload
.Laes_v1_BB22_6:                               # %loop.7.preheader.i.i.i.i
                                        #   in Loop: Header=BB22_2 Depth=1
	movq	%rbp, %rbx
	subq	%r14, %rbp
	jbe	.Laes_v1_BB22_9
# %bb.7:                                # %join.10.i.i.i.i.preheader
                                        #   in Loop: Header=BB22_2 Depth=1
	shlq	$4, %r14
	addq	%r14, %r13
	addq	48(%rsp), %r13                  # 8-byte Folded Reload
	.p2align	4
.Laes_v1_BB22_8:                               # %join.10.i.i.i.i
                                        #   Parent Loop BB22_2 Depth=1
                                        # =>  This Inner Loop Header: Depth=2
	movl	$1, %ecx
	movq	72(%rsp), %rdi                  # 8-byte Reload
	movq	64(%rsp), %rsi                  # 8-byte Reload
	movq	%r13, %rdx
	callq	aes_v1.aes_soft.soft.blocks.filled_up.process_filled_up.2
	addq	$16, %r13
	decq	%rbp
	jne	.Laes_v1_BB22_8
.Laes_v1_BB22_9:                               # %join.7.lr.ph.i.i.i
                                        #   in Loop: Header=BB22_2 Depth=1
	movups	(%r15), %xmm0
	cmpq	$1, 96(%rsp)                    # 8-byte Folded Reload
	je	.Laes_v1_BB22_10
# %bb.11:                               # %join.7.lr.ph.i.i.i.new
                                        #   in Loop: Header=BB22_2 Depth=1
	movl	%ebx, %ecx
	andl	$126, %ecx
	movl	$16, %edx
	xorl	%eax, %eax
	movq	56(%rsp), %r13                  # 8-byte Reload
	.p2align	4
.Laes_v1_BB22_12:                              # %join.7.i.i.i
                                        #   Parent Loop BB22_2 Depth=1
                                        # =>  This Inner Loop Header: Depth=2
	movups	-16(%r12,%rdx), %xmm1
	xorps	%xmm0, %xmm1
	movups	%xmm1, -16(%r12,%rdx)
	movups	88(%rsp,%rdx), %xmm0
	movups	%xmm0, (%r15)
	movups	(%r12,%rdx), %xmm1
	xorps	%xmm0, %xmm1
	movups	%xmm1, (%r12,%rdx)
	movups	104(%rsp,%rdx), %xmm0
	movups	%xmm0, (%r15)
	addq	$2, %rax
	addq	$32, %rdx
	cmpq	%rax, %rcx
	jne	.Laes_v1_BB22_12
# %bb.13:                               # %"cbc::decryption::unchain_part::<#c3f6a2486d05430b>.exit.loopexit.i.i.unr-lcssa"
                                        #   in Loop: Header=BB22_2 Depth=1
	testb	$1, %bl
	movq	40(%rsp), %rdx                  # 8-byte Reload
	jne	.Laes_v1_BB22_14
	jmp	.Laes_v1_BB22_15
.Laes_v1_BB22_16:                              # %"cbc::decryption::ChainBlockCipherDecClosure::call::<#c3f6a2486d05430b>.exit"
	addq	$1128, %rsp                     # imm = 0x468
	popq	%rbx
	popq	%r12
	popq	%r13
	popq	%r14
	popq	%r15
	popq	%rbp
	retq
	.seh_endproc
                                        # -- End function
	.def	aes_v1.aes_soft.soft.blocks.filled_up.process_filled_up.2;
	.scl	3;
	.type	32;
	.endef
	.p2align	4                               # -- Begin function aes_soft::soft::blocks::filled_up::process_filled_up::<#a3dcb71d05bd149b>
aes_v1.aes_soft.soft.blocks.filled_up.process_filled_up.2: # @aes_v1.aes_soft.soft.blocks.filled_up.process_filled_up.2
.seh_proc aes_v1.aes_soft.soft.blocks.filled_up.process_filled_up.2
# %bb.0:                                # %start
	pushq	%r14
	.seh_pushreg %r14
	pushq	%rbx
	.seh_pushreg %rbx
	subq	$136, %rsp
	.seh_stackalloc 136
	.seh_endprologue
	movq	%rcx, %r14
	movq	%rdx, %rbx
	movq	%rsi, %rdx
	movq	%rdi, %rsi
	xorps	%xmm0, %xmm0
	movaps	%xmm0, 112(%rsp)
	movaps	%xmm0, 96(%rsp)
	movaps	%xmm0, (%rsp)
	movaps	%xmm0, 16(%rsp)
	movaps	%xmm0, 64(%rsp)
	movaps	%xmm0, 80(%rsp)
	movups	(%rbx), %xmm0
	movaps	%xmm0, 32(%rsp)
	movups	(%rbx), %xmm0
	movaps	%xmm0, 48(%rsp)
	shrq	$3, %rdx
	decq	%rdx
	testq	%rcx, %rcx
	je	.Laes_v1_BB23_1
# %bb.2:                                # %join.8.i
	movups	(%rbx), %xmm0
	movaps	%xmm0, 32(%rsp)
	cmpq	$1, %r14
	jne	.Laes_v1_BB23_3
.Laes_v1_BB23_1:                               # %then.6.i
	movaps	32(%rsp), %xmm0
	movaps	48(%rsp), %xmm1
	movaps	%xmm1, 16(%rsp)
	movaps	%xmm0, (%rsp)
	jmp	.Laes_v1_BB23_4
.Laes_v1_BB23_3:                               # %join.8.i.1
	movups	16(%rbx), %xmm0
	movaps	%xmm0, 48(%rsp)
	movaps	32(%rsp), %xmm1
	movaps	%xmm1, (%rsp)
	movaps	%xmm0, 16(%rsp)
.Laes_v1_BB23_4:                               # %"aes_soft::soft::blocks::filled_up::filled_up::<#7d3b633001169d8c>.exit"
	leaq	64(%rsp), %rdi
	movq	%rsp, %rcx
	callq	aes_v1.aes_soft.soft.ciphers.planes.process_outlined.2
	movaps	64(%rsp), %xmm0
	movaps	80(%rsp), %xmm1
	movaps	%xmm1, 112(%rsp)
	movaps	%xmm0, 96(%rsp)
	testq	%r14, %r14
	je	.Laes_v1_BB23_7
# %bb.5:                                # %join.8.i19.preheader
	xorl	%eax, %eax
	cmpq	$1, %r14
	setne	%al
	incq	%rax
	xorl	%ecx, %ecx
	.p2align	4
.Laes_v1_BB23_6:                               # %join.8.i19.epil
                                        # =>This Inner Loop Header: Depth=1
	movups	96(%rsp,%rcx), %xmm0
	movups	%xmm0, (%rbx,%rcx)
	addq	$16, %rcx
	decq	%rax
	jne	.Laes_v1_BB23_6
.Laes_v1_BB23_7:                               # %"aes_soft::soft::blocks::filled_up::copy_first::<#7d3b633001169d8c>.exit"
	addq	$136, %rsp
	popq	%rbx
	popq	%r14
	retq
	.seh_endproc
                                        # -- End function
	.def	aes_v1.aes_soft.soft.ciphers.planes.process_outlined.2;
	.scl	3;
	.type	32;
	.endef
	.section	.rdata,"dr"
	.p2align	4, 0x0                          # -- Begin function aes_soft::soft::ciphers::planes::process_outlined::<#4da0d9798c91611c>
.Laes_v1_CPI24_0:
	.long	252645135                       # 0xf0f0f0f
	.long	252645135                       # 0xf0f0f0f
	.zero	4
	.zero	4
	.text
	.p2align	4
aes_v1.aes_soft.soft.ciphers.planes.process_outlined.2: # @aes_v1.aes_soft.soft.ciphers.planes.process_outlined.2
.seh_proc aes_v1.aes_soft.soft.ciphers.planes.process_outlined.2
# %bb.0:                                # %start
	pushq	%rbp
	.seh_pushreg %rbp
	pushq	%r15
	.seh_pushreg %r15
	pushq	%r14
	.seh_pushreg %r14
	pushq	%r13
	.seh_pushreg %r13
	pushq	%r12
	.seh_pushreg %r12
	pushq	%rbx
	.seh_pushreg %rbx
	subq	$136, %rsp
	.seh_stackalloc 136
	.seh_endprologue
	movq	%rdx, 48(%rsp)                  # 8-byte Spill
	movq	%rsi, %r15
	movq	%rdi, 128(%rsp)                 # 8-byte Spill
	movl	16(%rcx), %ebp
	movl	(%rcx), %r8d
	movl	4(%rcx), %r9d
	movl	20(%rcx), %r11d
	movl	8(%rcx), %ebx
	movl	24(%rcx), %r10d
	movl	12(%rcx), %edi
	movl	28(%rcx), %eax
	movl	%r8d, %ecx
	shrl	%ecx
	xorl	%ebp, %ecx
	andl	$1431655765, %ecx               # imm = 0x55555555
	leal	(%rcx,%rcx), %esi
	xorl	%r8d, %esi
	xorl	%ebp, %ecx
	movl	%r9d, %r14d
	shrl	%r14d
	xorl	%r11d, %r14d
	andl	$1431655765, %r14d              # imm = 0x55555555
	leal	(%r14,%r14), %r8d
	xorl	%r9d, %r8d
	xorl	%r11d, %r14d
	movl	%ebx, %r9d
	shrl	%r9d
	xorl	%r10d, %r9d
	andl	$1431655765, %r9d               # imm = 0x55555555
	leal	(%r9,%r9), %r11d
	xorl	%ebx, %r11d
	xorl	%r10d, %r9d
	movl	%edi, %ebx
	shrl	%ebx
	xorl	%eax, %ebx
	andl	$1431655765, %ebx               # imm = 0x55555555
	leal	(%rbx,%rbx), %r10d
	xorl	%edi, %r10d
	xorl	%eax, %ebx
	movl	%esi, %eax
	shrl	$2, %eax
	xorl	%r8d, %eax
	andl	$858993459, %eax                # imm = 0x33333333
	leal	(,%rax,4), %r12d
	xorl	%esi, %r12d
	xorl	%r8d, %eax
	movl	%r11d, %esi
	shrl	$2, %esi
	xorl	%r10d, %esi
	andl	$858993459, %esi                # imm = 0x33333333
	leal	(,%rsi,4), %edi
	xorl	%r11d, %edi
	movl	%edi, %r11d
	xorl	%r10d, %esi
	movl	%ecx, %r10d
	shrl	$2, %r10d
	xorl	%r14d, %r10d
	andl	$858993459, %r10d               # imm = 0x33333333
	leal	(,%r10,4), %r8d
	xorl	%ecx, %r8d
	xorl	%r14d, %r10d
	movl	%r9d, %edi
	shrl	$2, %edi
	xorl	%ebx, %edi
	andl	$858993459, %edi                # imm = 0x33333333
	leal	(,%rdi,4), %ecx
	xorl	%r9d, %ecx
	xorl	%ebx, %edi
	movl	%r12d, %ebp
	shrl	$4, %ebp
	xorl	%r11d, %ebp
	movq	%rdx, %r13
	shlq	$5, %r13
	xorl	16(%r15,%r13), %r11d
	andl	$252645135, %ebp                # imm = 0xF0F0F0F
	xorl	%ebp, %r11d
	shll	$4, %ebp
	movl	%r8d, %r14d
	shrl	$4, %r14d
	xorl	%ecx, %r14d
	andl	$252645135, %r14d               # imm = 0xF0F0F0F
	xorl	20(%r15,%r13), %ecx
	xorl	%r14d, %ecx
	shll	$4, %r14d
	movl	%eax, %ebx
	shrl	$4, %ebx
	xorl	%esi, %ebx
	andl	$252645135, %ebx                # imm = 0xF0F0F0F
	xorl	24(%r15,%r13), %esi
	xorl	%ebx, %esi
	shll	$4, %ebx
	xorl	(%r15,%r13), %ebp
	xorl	%r12d, %ebp
	movl	%r10d, %r9d
	shrl	$4, %r9d
	xorl	%edi, %r9d
	andl	$252645135, %r9d                # imm = 0xF0F0F0F
	xorl	28(%r15,%r13), %edi
	xorl	%r9d, %edi
	shll	$4, %r9d
	xorl	4(%r15,%r13), %r14d
	xorl	%r8d, %r14d
	xorl	8(%r15,%r13), %ebx
	xorl	%eax, %ebx
	movq	%r15, 104(%rsp)                 # 8-byte Spill
	movq	%r13, 88(%rsp)                  # 8-byte Spill
	xorl	12(%r15,%r13), %r9d
	xorl	%r10d, %r9d
	movl	%esi, %r10d
	xorl	%edi, %r10d
	movl	%ebx, %r8d
	movl	%ecx, 56(%rsp)                  # 4-byte Spill
	xorl	%ecx, %r8d
	movl	%r11d, %eax
	xorl	%esi, %eax
	xorl	%r9d, %ecx
	movl	%r14d, %edx
	xorl	%esi, %edx
	movl	%edx, %r15d
	movl	%eax, %r12d
	movl	%eax, %edx
	xorl	%r8d, %r12d
	movl	%r12d, (%rsp)                   # 4-byte Spill
	xorl	%edi, %r8d
	movl	%r8d, 24(%rsp)                  # 4-byte Spill
	xorl	%r11d, %edi
	xorl	%edi, %esi
	movq	%rsi, 40(%rsp)                  # 8-byte Spill
	movl	%esi, %eax
	xorl	%r9d, %eax
	movl	%eax, %r13d
	movl	%eax, 112(%rsp)                 # 4-byte Spill
	xorl	%r9d, %r11d
	movl	%r11d, %esi
	xorl	%ebp, %esi
	movl	%esi, 80(%rsp)                  # 4-byte Spill
	xorl	%ebp, %r9d
	xorl	%r14d, %ebp
	xorl	%r14d, %ebx
	movl	%ecx, %r12d
	xorl	%r15d, %r12d
	movl	%ebp, %eax
	xorl	%r11d, %eax
	movl	%eax, 32(%rsp)                  # 4-byte Spill
	orl	%r12d, %eax
	movl	%edx, %r8d
	movl	%edx, 16(%rsp)                  # 4-byte Spill
	andl	%edx, %esi
	xorl	%eax, %esi
	movl	%r11d, %eax
	xorl	%ebx, %eax
	movl	%r13d, %edx
	andl	%eax, %edx
	movl	%eax, %ecx
	movl	%eax, 12(%rsp)                  # 4-byte Spill
	movl	%ebp, %r13d
	movl	%ebp, %r14d
	xorl	%r8d, %r13d
	xorl	%r9d, %r15d
	movl	%r15d, 4(%rsp)                  # 4-byte Spill
	movl	%r13d, %ebp
	movl	%r13d, 20(%rsp)                 # 4-byte Spill
	andl	24(%rsp), %ebp                  # 4-byte Folded Reload
	xorl	%r9d, %ebp
	xorl	%r10d, %r9d
	movl	%r9d, %r8d
	andl	%r10d, %r8d
	movl	%r10d, 28(%rsp)                 # 4-byte Spill
	movl	%r9d, %eax
	xorl	%ecx, %eax
	andl	%r11d, %eax
	movl	%r11d, 8(%rsp)                  # 4-byte Spill
	xorl	%eax, %edx
	xorl	%r8d, %eax
	movl	%r14d, %r8d
	xorl	%r10d, %r8d
	movl	%r8d, 72(%rsp)                  # 4-byte Spill
	andl	(%rsp), %r8d                    # 4-byte Folded Reload
	movq	40(%rsp), %r10                  # 8-byte Reload
	movl	%r10d, %r14d
	andl	%edi, %r14d
	xorl	%r8d, %ebp
	xorl	%ebx, %r14d
	xorl	%r9d, %r14d
	xorl	%r8d, %r14d
	xorl	%edx, %esi
	xorl	%edx, %r14d
	movl	32(%rsp), %r15d                 # 4-byte Reload
	movl	%r15d, %r8d
	andl	%r12d, %r8d
	movl	%r13d, %edx
	movl	56(%rsp), %ecx                  # 4-byte Reload
	xorl	%ecx, %edx
	xorl	%ecx, %r8d
	movl	%edx, %ecx
	andl	4(%rsp), %ecx                   # 4-byte Folded Reload
	xorl	%ecx, %r8d
	xorl	%eax, %ebp
	xorl	%r11d, %r8d
	xorl	%eax, %r8d
	movl	%r14d, %r10d
	andl	%esi, %r10d
	movl	%r10d, %r13d
	xorl	%ebp, %r13d
	movl	%r14d, %eax
	xorl	%ebp, %eax
	movl	%r8d, %r11d
	xorl	%esi, %r11d
	andl	%eax, %r14d
	andl	%r8d, %r14d
	andl	%r11d, %r13d
	xorl	%r8d, %r13d
	movl	%r8d, %ecx
	xorl	%r10d, %ecx
	andl	%eax, %ecx
	xorl	%r10d, %eax
	xorl	%r14d, %eax
	xorl	%ebp, %ecx
	movl	%eax, %r14d
	xorl	%ecx, %r14d
	andl	%r14d, %r15d
	movl	%r15d, 32(%rsp)                 # 4-byte Spill
	andl	%r12d, %r14d
	andl	%ecx, 4(%rsp)                   # 4-byte Folded Spill
	movl	%ecx, %r15d
	andl	%edx, %ecx
	andl	%esi, %ebp
	notl	%ebp
	andl	%r11d, %ebp
	movl	(%rsp), %r11d                   # 4-byte Reload
	xorl	%r10d, %ebp
	xorl	%r13d, %r15d
	movl	16(%rsp), %r12d                 # 4-byte Reload
	andl	%eax, %r12d
	movl	%r12d, 16(%rsp)                 # 4-byte Spill
	movl	24(%rsp), %r8d                  # 4-byte Reload
	andl	%r13d, %r8d
	andl	%r13d, 20(%rsp)                 # 4-byte Folded Spill
	movl	80(%rsp), %esi                  # 4-byte Reload
	andl	%eax, %esi
	xorl	%ebp, %eax
	andl	%ebp, %edi
	xorl	%ebp, %r13d
	andl	40(%rsp), %ebp                  # 4-byte Folded Reload
	andl	%r13d, %r11d
	andl	72(%rsp), %r13d                 # 4-byte Folded Reload
	andl	%r15d, 8(%rsp)                  # 4-byte Folded Spill
	xorl	%r9d, %ebx
	andl	%r15d, %ebx
	movl	%ebx, (%rsp)                    # 4-byte Spill
	xorl	%eax, %r15d
	movl	12(%rsp), %edx                  # 4-byte Reload
	andl	%r15d, %edx
	xorl	%esi, %edx
	movl	%edx, 12(%rsp)                  # 4-byte Spill
	xorl	%esi, %ebp
	andl	112(%rsp), %r15d                # 4-byte Folded Reload
	andl	%eax, %r9d
	andl	28(%rsp), %eax                  # 4-byte Folded Reload
	movl	%r14d, %edx
	xorl	%ecx, %edx
	xorl	%r12d, %ebx
	movl	32(%rsp), %r12d                 # 4-byte Reload
	xorl	%r12d, %ebx
	xorl	%r11d, %ecx
	movl	12(%rsp), %r10d                 # 4-byte Reload
	xorl	%ebx, %r10d
	xorl	%r8d, %r11d
	movl	%r15d, %esi
	xorl	%r9d, %esi
	xorl	%esi, %ebx
	xorl	%eax, %r13d
	xorl	%ecx, %eax
	xorl	%ebp, %ecx
	xorl	%ebx, %ecx
	movl	%ecx, 12(%rsp)                  # 4-byte Spill
	xorl	%ebx, %r11d
	xorl	%edx, %ebx
	xorl	%r8d, %edi
	movl	(%rsp), %ecx                    # 4-byte Reload
	xorl	4(%rsp), %ecx                   # 4-byte Folded Reload
	xorl	%r14d, %r15d
	xorl	%r14d, %ebp
	xorl	%ecx, %ebp
	movl	%r15d, %r8d
	movl	8(%rsp), %ecx                   # 4-byte Reload
	movl	20(%rsp), %edx                  # 4-byte Reload
	xorl	%edx, %ecx
	xorl	%edi, %edx
	xorl	%edx, %r12d
	xorl	%esi, %r12d
	movl	%ecx, %esi
	xorl	%edx, %eax
	movl	%r12d, %r15d
	movl	%r10d, %ecx
	movl	%eax, %r10d
	xorl	%ecx, %r8d
	xorl	%ecx, %r10d
	xorl	16(%rsp), %edi                  # 4-byte Folded Reload
	xorl	%r9d, %edi
	movq	%rdi, %r9
	movq	48(%rsp), %rdi                  # 8-byte Reload
	leaq	-2(%rdi), %rdx
	xorl	%r13d, %esi
	xorl	%r13d, %r9d
	movq	%rdx, %rax
	shrq	$2, %rax
	movq	%rax, 112(%rsp)                 # 8-byte Spill
	xorl	%ebp, %r15d
	xorl	%ebp, %r9d
	movq	%rdx, %rcx
	andq	$-4, %rcx
	leaq	2(%rcx), %rax
	cmpq	%rdi, %rax
	jae	.Laes_v1_BB24_2
# %bb.1:                                # %then.3.i
	movq	104(%rsp), %rax                 # 8-byte Reload
	movq	88(%rsp), %rdi                  # 8-byte Reload
	xorl	-32(%rax,%rdi), %esi
	xorl	-28(%rax,%rdi), %r8d
	movl	12(%rsp), %r12d                 # 4-byte Reload
	xorl	-24(%rax,%rdi), %r12d
	xorl	-20(%rax,%rdi), %r10d
	xorl	-16(%rax,%rdi), %r11d
	movl	%r11d, %r13d
	xorl	-12(%rax,%rdi), %r15d
	xorl	-8(%rax,%rdi), %r9d
	movl	%ebx, %r14d
	xorl	-4(%rax,%rdi), %r14d
	movq	%rcx, 80(%rsp)                  # 8-byte Spill
	movl	%esi, %ecx
	roll	$18, %ecx
	movl	%esi, %edi
	roll	$26, %edi
	andl	$50529027, %ecx                 # imm = 0x3030303
	movq	%rdx, 72(%rsp)                  # 8-byte Spill
	movl	%r8d, %edx
	roll	$18, %edx
	andl	$-50529028, %edi                # imm = 0xFCFCFCFC
	movl	%r15d, %r11d
	movl	%r8d, %ebp
	roll	$26, %ebp
	orl	%ecx, %edi
	andl	$50529027, %edx                 # imm = 0x3030303
	andl	$-50529028, %ebp                # imm = 0xFCFCFCFC
	orl	%edx, %ebp
	movl	%r12d, %ecx
	roll	$18, %ecx
	movl	%r12d, %eax
	roll	$26, %eax
	andl	$50529027, %ecx                 # imm = 0x3030303
	andl	$-50529028, %eax                # imm = 0xFCFCFCFC
	orl	%ecx, %eax
	movl	%eax, 4(%rsp)                   # 4-byte Spill
	movl	%r10d, %ecx
	roll	$18, %ecx
	movl	%r10d, %ebx
	roll	$26, %ebx
	andl	$50529027, %ecx                 # imm = 0x3030303
	andl	$-50529028, %ebx                # imm = 0xFCFCFCFC
	movl	%r13d, %r15d
	movl	%r13d, (%rsp)                   # 4-byte Spill
	movl	%r13d, %edx
	roll	$18, %edx
	orl	%ecx, %ebx
	roll	$26, %r15d
	andl	$50529027, %edx                 # imm = 0x3030303
	movl	%r11d, 32(%rsp)                 # 4-byte Spill
	movl	%r11d, %ecx
	roll	$18, %ecx
	andl	$-50529028, %r15d               # imm = 0xFCFCFCFC
	roll	$26, %r11d
	orl	%edx, %r15d
	andl	$50529027, %ecx                 # imm = 0x3030303
	andl	$-50529028, %r11d               # imm = 0xFCFCFCFC
	orl	%ecx, %r11d
	movl	%r9d, %ecx
	roll	$18, %ecx
	movl	%r12d, %eax
	movl	%r9d, %r13d
	roll	$26, %r13d
	andl	$50529027, %ecx                 # imm = 0x3030303
	andl	$-50529028, %r13d               # imm = 0xFCFCFCFC
	orl	%ecx, %r13d
	movl	%r14d, %ecx
	roll	$18, %ecx
	movl	%r14d, %r12d
	roll	$26, %r12d
	andl	$50529027, %ecx                 # imm = 0x3030303
	andl	$-50529028, %r12d               # imm = 0xFCFCFCFC
	orl	%ecx, %r12d
	xorl	%r8d, %ebp
	movl	%eax, %ecx
	xorl	%eax, 4(%rsp)                   # 4-byte Folded Spill
	xorl	(%rsp), %r15d                   # 4-byte Folded Reload
	movl	32(%rsp), %eax                  # 4-byte Reload
	xorl	%eax, %r11d
	xorl	%r9d, %r13d
	xorl	%r14d, %r12d
	xorl	%ebp, %ecx
	movl	%ecx, %edx
	movl	%ecx, 12(%rsp)                  # 4-byte Spill
	xorl	%r15d, %eax
	movl	%eax, 32(%rsp)                  # 4-byte Spill
	xorl	%r11d, %r9d
	movq	%r9, 56(%rsp)                   # 8-byte Spill
	xorl	%r13d, %r14d
	movl	%r14d, %ecx
	movl	%r14d, 20(%rsp)                 # 4-byte Spill
	xorl	%r9d, %ecx
	xorl	%ecx, %ebp
	xorl	%edx, %r15d
	xorl	%ecx, %r15d
	xorl	%esi, %edi
	xorl	%edi, %r8d
	xorl	%r9d, %edi
	movl	%edi, %ecx
	movl	%edi, 40(%rsp)                  # 4-byte Spill
	movl	%edi, %edx
	roll	$12, %edx
	roll	$20, %ecx
	andl	$252645135, %edx                # imm = 0xF0F0F0F
	andl	$-252645136, %ecx               # imm = 0xF0F0F0F0
	orl	%edx, %ecx
	xorl	%r10d, %ebx
	xorl	%r12d, %esi
	movl	%esi, 8(%rsp)                   # 4-byte Spill
	movl	4(%rsp), %eax                   # 4-byte Reload
	xorl	%eax, %r10d
	xorl	%r14d, %eax
	movl	%eax, %r14d
	movl	%ebp, %edx
	roll	$12, %edx
	xorl	%esi, %r14d
	movl	%r14d, 4(%rsp)                  # 4-byte Spill
	movl	%ebp, %edi
	roll	$20, %edi
	andl	$252645135, %edx                # imm = 0xF0F0F0F
	movl	%r14d, %esi
	roll	$12, %esi
	andl	$-252645136, %edi               # imm = 0xF0F0F0F0
	roll	$20, %r14d
	orl	%edx, %edi
	andl	$252645135, %esi                # imm = 0xF0F0F0F
	andl	$-252645136, %r14d              # imm = 0xF0F0F0F0
	orl	%esi, %r14d
	xorl	%r12d, %r8d
	movl	%ebx, %edx
	movl	(%rsp), %eax                    # 4-byte Reload
	xorl	%ebx, %eax
	xorl	%r9d, %edx
	xorl	%r8d, %edx
	movl	%edx, 16(%rsp)                  # 4-byte Spill
	movl	%edx, %esi
	roll	$12, %esi
	roll	$20, %edx
	andl	$252645135, %esi                # imm = 0xF0F0F0F
	andl	$-252645136, %edx               # imm = 0xF0F0F0F0
	orl	%esi, %edx
	movl	%r15d, %esi
	roll	$12, %esi
	movl	%r15d, %r9d
	roll	$20, %r9d
	andl	$252645135, %esi                # imm = 0xF0F0F0F
	andl	$-252645136, %r9d               # imm = 0xF0F0F0F0
	orl	%esi, %r9d
	xorl	%r12d, %r10d
	movl	%r11d, %esi
	xorl	20(%rsp), %esi                  # 4-byte Folded Reload
	xorl	%r10d, %esi
	movl	%esi, 28(%rsp)                  # 4-byte Spill
	movl	%esi, %r11d
	roll	$12, %r11d
	roll	$20, %esi
	andl	$252645135, %r11d               # imm = 0xF0F0F0F
	andl	$-252645136, %esi               # imm = 0xF0F0F0F0
	orl	%r11d, %esi
	xorl	%r12d, %eax
	movl	%r13d, %r11d
	xorl	%eax, %r11d
	movl	%r11d, 24(%rsp)                 # 4-byte Spill
	xorl	32(%rsp), %r12d                 # 4-byte Folded Reload
	movl	%r12d, 48(%rsp)                 # 4-byte Spill
	movl	%r11d, %r13d
	roll	$12, %r13d
	roll	$20, %r11d
	andl	$252645135, %r13d               # imm = 0xF0F0F0F
	andl	$-252645136, %r11d              # imm = 0xF0F0F0F0
	movl	%r12d, %ebx
	roll	$12, %ebx
	orl	%r13d, %r11d
	movl	%r12d, %r13d
	roll	$20, %r13d
	andl	$252645135, %ebx                # imm = 0xF0F0F0F
	andl	$-252645136, %r13d              # imm = 0xF0F0F0F0
	orl	%ebx, %r13d
	movl	40(%rsp), %ebx                  # 4-byte Reload
	xorl	8(%rsp), %ebx                   # 4-byte Folded Reload
	xorl	%ecx, %ebx
	xorl	%r8d, %ebp
	xorl	%edi, %ebp
	movl	4(%rsp), %ecx                   # 4-byte Reload
	xorl	12(%rsp), %ecx                  # 4-byte Folded Reload
	xorl	%r14d, %ecx
	movl	%ecx, %edi
	movl	16(%rsp), %ecx                  # 4-byte Reload
	xorl	%r10d, %ecx
	xorl	%edx, %ecx
	movl	%ecx, %edx
	xorl	%eax, %r15d
	xorl	%r9d, %r15d
	movl	28(%rsp), %eax                  # 4-byte Reload
	xorl	32(%rsp), %eax                  # 4-byte Folded Reload
	xorl	%esi, %eax
	movl	24(%rsp), %r12d                 # 4-byte Reload
	xorl	56(%rsp), %r12d                 # 4-byte Folded Reload
	xorl	%r11d, %r12d
	movl	48(%rsp), %r9d                  # 4-byte Reload
	xorl	20(%rsp), %r9d                  # 4-byte Folded Reload
	xorl	%r13d, %r9d
	movl	%eax, %r13d
	movl	%eax, 28(%rsp)                  # 4-byte Spill
	xorl	%edi, %eax
	movl	%r12d, %ecx
	xorl	%ebp, %ecx
	movl	%ecx, 12(%rsp)                  # 4-byte Spill
	xorl	%ebp, %edi
	movl	%edi, %r14d
	movl	%ebx, %edi
	xorl	%ebx, %ebp
	movl	%r12d, %ebx
	xorl	%r9d, %ebx
	movl	%r15d, %esi
	xorl	%r12d, %esi
	xorl	%edx, %r13d
	xorl	%ecx, %r13d
	movl	%esi, %ecx
	movl	%esi, %r11d
	xorl	%eax, %ecx
	movl	%ecx, (%rsp)                    # 4-byte Spill
	xorl	%r9d, %eax
	movl	%eax, %esi
	movl	%eax, 40(%rsp)                  # 4-byte Spill
	xorl	%r15d, %r9d
	xorl	%edx, %r15d
	movl	%r15d, %eax
	xorl	%ebp, %eax
	movl	%eax, 32(%rsp)                  # 4-byte Spill
	orl	%r13d, %eax
	movl	%r15d, %r10d
	xorl	%edi, %r15d
	movl	%r15d, 88(%rsp)                 # 4-byte Spill
	movl	%r11d, 68(%rsp)                 # 4-byte Spill
	andl	%r11d, %r15d
	xorl	%eax, %r15d
	xorl	%r9d, %r12d
	movl	%r9d, 48(%rsp)                  # 4-byte Spill
	movl	%r12d, 24(%rsp)                 # 4-byte Spill
	movl	%r12d, %ecx
	xorl	%edx, %ecx
	movl	%ecx, 4(%rsp)                   # 4-byte Spill
	xorl	%edi, %edx
	movl	%ebx, %r8d
	xorl	%ebp, %r8d
	movl	%r8d, 124(%rsp)                 # 4-byte Spill
	movl	%r10d, %eax
	movl	%r10d, %edi
	xorl	%r14d, %eax
	andl	%eax, %ecx
	movl	%eax, 20(%rsp)                  # 4-byte Spill
	xorl	%r11d, %ebp
	movl	12(%rsp), %r10d                 # 4-byte Reload
	xorl	%edx, %r10d
	movl	%ebp, %r11d
	movl	%ebp, 8(%rsp)                   # 4-byte Spill
	andl	%esi, %r11d
	movl	%edx, %esi
	xorl	%edx, %r11d
	movl	%ebx, 56(%rsp)                  # 4-byte Spill
	xorl	%ebx, %esi
	movl	%esi, %edx
	andl	%ebx, %edx
	xorl	%esi, %eax
	movl	%esi, 16(%rsp)                  # 4-byte Spill
	andl	%edi, %eax
	xorl	%eax, %ecx
	xorl	%edx, %eax
	movl	(%rsp), %edx                    # 4-byte Reload
	andl	%r8d, %edx
	andl	%r9d, %r12d
	xorl	%edx, %r11d
	xorl	%esi, %r14d
	xorl	%r14d, %r12d
	xorl	%edx, %r12d
	xorl	%ecx, %r15d
	xorl	%ecx, %r12d
	movl	32(%rsp), %r8d                  # 4-byte Reload
	movl	%r8d, %r9d
	andl	%r13d, %r9d
	movl	%ebp, %ebx
	movl	28(%rsp), %ecx                  # 4-byte Reload
	xorl	%ecx, %ebx
	xorl	%ecx, %r9d
	movl	%ebx, %ecx
	andl	%r10d, %ecx
	xorl	%ecx, %r9d
	xorl	%eax, %r11d
	movl	%edi, %ebp
	xorl	%edi, %r9d
	xorl	%eax, %r9d
	movl	%r12d, %esi
	andl	%r15d, %esi
	movl	%esi, %edi
	xorl	%r11d, %edi
	movl	%r9d, %eax
	xorl	%r15d, %eax
	movl	%esi, %ecx
	xorl	%r9d, %ecx
	andl	%eax, %edi
	xorl	%r9d, %edi
	andl	%r12d, %r9d
	xorl	%r11d, %r12d
	andl	%r12d, %r9d
	andl	%r12d, %ecx
	xorl	%esi, %r12d
	xorl	%r9d, %r12d
	xorl	%r11d, %ecx
	movl	%r12d, %r9d
	xorl	%ecx, %r9d
	andl	%r9d, %r8d
	movl	%r8d, 32(%rsp)                  # 4-byte Spill
	andl	%r13d, %r9d
	movl	%r9d, 100(%rsp)                 # 4-byte Spill
	andl	%ecx, %r10d
	movl	%r10d, 12(%rsp)                 # 4-byte Spill
	movl	%ecx, %r13d
	andl	%ebx, %ecx
	movl	%ecx, 28(%rsp)                  # 4-byte Spill
	andl	%r15d, %r11d
	movl	%eax, %ecx
	andl	%eax, %r11d
	xorl	%esi, %ecx
	xorl	%r11d, %ecx
	xorl	%edi, %r13d
	movl	68(%rsp), %r9d                  # 4-byte Reload
	andl	%r12d, %r9d
	movl	40(%rsp), %edx                  # 4-byte Reload
	andl	%edi, %edx
	movl	%edx, 40(%rsp)                  # 4-byte Spill
	movl	8(%rsp), %r15d                  # 4-byte Reload
	andl	%edi, %r15d
	movl	88(%rsp), %r10d                 # 4-byte Reload
	andl	%r12d, %r10d
	xorl	%ecx, %r12d
	movl	48(%rsp), %eax                  # 4-byte Reload
	andl	%ecx, %eax
	xorl	%ecx, %edi
	andl	24(%rsp), %ecx                  # 4-byte Folded Reload
	andl	%edi, (%rsp)                    # 4-byte Folded Spill
	andl	124(%rsp), %edi                 # 4-byte Folded Reload
	andl	%r13d, %ebp
	movl	%ebp, 8(%rsp)                   # 4-byte Spill
	andl	%r13d, %r14d
	xorl	%r12d, %r13d
	movl	20(%rsp), %esi                  # 4-byte Reload
	andl	%r13d, %esi
	xorl	%r10d, %esi
	movl	%esi, 20(%rsp)                  # 4-byte Spill
	xorl	%r10d, %ecx
	andl	4(%rsp), %r13d                  # 4-byte Folded Reload
	andl	%r12d, 16(%rsp)                 # 4-byte Folded Spill
	andl	56(%rsp), %r12d                 # 4-byte Folded Reload
	movl	%r14d, %r11d
	xorl	%r9d, %r11d
	movl	32(%rsp), %r8d                  # 4-byte Reload
	xorl	%r8d, %r11d
	xorl	%ecx, %r14d
	xorl	%r14d, %r8d
	movl	%r8d, 32(%rsp)                  # 4-byte Spill
	xorl	%r9d, %r14d
	movl	%eax, %ebp
	xorl	%edx, %ebp
	xorl	%ebp, %r14d
	movl	%r14d, 4(%rsp)                  # 4-byte Spill
	movl	%r15d, %eax
	xorl	%r15d, %ebp
	xorl	%r12d, %edi
	movq	72(%rsp), %r10                  # 8-byte Reload
	shlq	$5, %r10
	movq	104(%rsp), %r8                  # 8-byte Reload
	movl	8(%rsp), %esi                   # 4-byte Reload
	xorl	(%r8,%r10), %esi
	xorl	%edi, %eax
	xorl	%esi, %eax
	movl	%eax, 8(%rsp)                   # 4-byte Spill
	movl	20(%rsp), %ebx                  # 4-byte Reload
	xorl	%r11d, %ebx
	movl	4(%r8,%r10), %esi
	movl	100(%rsp), %edx                 # 4-byte Reload
	xorl	%edx, %esi
	movl	%r13d, %r9d
	xorl	%ebx, %r13d
	xorl	%esi, %r13d
	movl	%r13d, 20(%rsp)                 # 4-byte Spill
	movl	(%rsp), %r13d                   # 4-byte Reload
	movl	%r13d, %r15d
	xorl	28(%rsp), %r15d                 # 4-byte Folded Reload
	movl	16(%rsp), %r14d                 # 4-byte Reload
	xorl	%r14d, %r9d
	movl	%ecx, %eax
	xorl	%r9d, %eax
	movl	32(%rsp), %ecx                  # 4-byte Reload
	xorl	%ebp, %ecx
	xorl	%r9d, %ecx
	xorl	%r11d, %r9d
	xorl	8(%r8,%r10), %r11d
	xorl	%r15d, %eax
	xorl	%r11d, %eax
	movl	%eax, 24(%rsp)                  # 4-byte Spill
	xorl	%ebp, %r15d
	xorl	%ebx, %r15d
	xorl	12(%r8,%r10), %r12d
	xorl	%r12d, %r15d
	movl	12(%rsp), %r11d                 # 4-byte Reload
	xorl	%edx, %r11d
	movl	40(%rsp), %esi                  # 4-byte Reload
	xorl	16(%r8,%r10), %esi
	xorl	%r9d, %r13d
	xorl	%esi, %r13d
	movl	20(%r8,%r10), %esi
	xorl	%r11d, %esi
	xorl	24(%r8,%r10), %r11d
	movl	%r11d, %ebx
	movq	%r10, %r11
	xorl	%esi, %ecx
	movl	%ecx, %r12d
	movl	4(%rsp), %r10d                  # 4-byte Reload
	xorl	%r14d, %r10d
	xorl	%edi, %r10d
	xorl	%ebx, %r10d
	movl	28(%rsp), %eax                  # 4-byte Reload
	xorl	28(%r8,%r11), %eax
	xorl	%edx, %r9d
	xorl	%eax, %r9d
	movl	8(%rsp), %r14d                  # 4-byte Reload
	movl	%r14d, %eax
	roll	$20, %eax
	roll	$28, %r14d
	andl	$252645135, %eax                # imm = 0xF0F0F0F
	andl	$-252645136, %r14d              # imm = 0xF0F0F0F0
	orl	%eax, %r14d
	movl	20(%rsp), %ebx                  # 4-byte Reload
	movl	%ebx, %eax
	roll	$20, %eax
	roll	$28, %ebx
	andl	$252645135, %eax                # imm = 0xF0F0F0F
	andl	$-252645136, %ebx               # imm = 0xF0F0F0F0
	movl	24(%rsp), %ecx                  # 4-byte Reload
	movl	%ecx, %edx
	roll	$20, %edx
	orl	%eax, %ebx
	movl	%ecx, %r11d
	roll	$28, %r11d
	andl	$252645135, %edx                # imm = 0xF0F0F0F
	movl	%r15d, %eax
	roll	$20, %eax
	andl	$-252645136, %r11d              # imm = 0xF0F0F0F0
	movl	%r15d, %esi
	roll	$28, %esi
	orl	%edx, %r11d
	andl	$252645135, %eax                # imm = 0xF0F0F0F
	andl	$-252645136, %esi               # imm = 0xF0F0F0F0
	orl	%eax, %esi
	movl	%r13d, (%rsp)                   # 4-byte Spill
	movl	%r13d, %eax
	roll	$20, %eax
	movl	%r13d, %ebp
	roll	$28, %ebp
	andl	$252645135, %eax                # imm = 0xF0F0F0F
	andl	$-252645136, %ebp               # imm = 0xF0F0F0F0
	orl	%eax, %ebp
	movl	%r12d, %r13d
	movl	%r12d, 32(%rsp)                 # 4-byte Spill
	movl	%r12d, %eax
	roll	$20, %eax
	roll	$28, %r13d
	andl	$252645135, %eax                # imm = 0xF0F0F0F
	andl	$-252645136, %r13d              # imm = 0xF0F0F0F0
	movl	%r10d, %r12d
	movl	%r10d, %edx
	roll	$20, %edx
	orl	%eax, %r13d
	movl	%r10d, 4(%rsp)                  # 4-byte Spill
	roll	$28, %r10d
	andl	$252645135, %edx                # imm = 0xF0F0F0F
	movl	%r9d, %eax
	roll	$20, %eax
	andl	$-252645136, %r10d              # imm = 0xF0F0F0F0
	movl	%r9d, %r8d
	roll	$28, %r8d
	orl	%edx, %r10d
	andl	$252645135, %eax                # imm = 0xF0F0F0F
	andl	$-252645136, %r8d               # imm = 0xF0F0F0F0
	orl	%eax, %r8d
	movl	8(%rsp), %edx                   # 4-byte Reload
	xorl	%edx, %r14d
	movl	20(%rsp), %edi                  # 4-byte Reload
	xorl	%edi, %ebx
	xorl	%ecx, %r11d
	xorl	%r15d, %esi
	movl	%esi, 40(%rsp)                  # 4-byte Spill
	movl	(%rsp), %eax                    # 4-byte Reload
	xorl	%eax, %ebp
	movl	32(%rsp), %esi                  # 4-byte Reload
	xorl	%esi, %r13d
	xorl	%r12d, %r10d
	xorl	%r9d, %r8d
	xorl	%r8d, %edx
	xorl	%r8d, %edi
	xorl	%r14d, %edi
	xorl	%ebx, %ecx
	xorl	%r8d, %r15d
	xorl	%r11d, %r15d
	xorl	%r8d, %eax
	movl	%eax, (%rsp)                    # 4-byte Spill
	xorl	%ebp, %esi
	movl	%esi, 32(%rsp)                  # 4-byte Spill
	movl	4(%rsp), %eax                   # 4-byte Reload
	xorl	%r13d, %eax
	xorl	%r10d, %r9d
	xorl	%edx, %r11d
	xorl	%r9d, %r11d
	xorl	%r9d, %r13d
	xorl	%esi, %r8d
	movl	%r8d, 4(%rsp)                   # 4-byte Spill
	xorl	%r9d, %r8d
	xorl	%eax, %r9d
	xorl	%eax, %r14d
	xorl	%r9d, %ebx
	xorl	%ecx, %ebp
	xorl	%r14d, %edx
	roll	$16, %r14d
	xorl	%r9d, %ebp
	xorl	%edx, %r14d
	movl	(%rsp), %r9d                    # 4-byte Reload
	movl	40(%rsp), %r12d                 # 4-byte Reload
	xorl	%r12d, %r9d
	xorl	%edi, %r12d
	xorl	%eax, %r12d
	movl	%r12d, %esi
	xorl	%r15d, %r13d
	xorl	%r9d, %r10d
	xorl	%ebx, %edi
	roll	$16, %ebx
	xorl	%edi, %ebx
	movl	%r11d, %edx
	roll	$16, %edx
	xorl	%ecx, %r11d
	movl	%r12d, %ecx
	roll	$16, %ecx
	xorl	%edx, %r11d
	movl	%ebp, %edx
	roll	$16, %edx
	xorl	%r15d, %esi
	movl	%r13d, %edi
	roll	$16, %edi
	xorl	%ecx, %esi
	movl	%r10d, %ecx
	roll	$16, %ecx
	movl	4(%rsp), %r15d                  # 4-byte Reload
	roll	$16, %r15d
	xorl	%r9d, %ebp
	xorl	%edx, %ebp
	xorl	32(%rsp), %r13d                 # 4-byte Folded Reload
	xorl	%edi, %r13d
	xorl	%eax, %r10d
	xorl	%ecx, %r10d
	xorl	%r15d, %r8d
	movl	%r13d, %eax
	xorl	%r11d, %eax
	movl	%ebx, %ecx
	xorl	%ebx, %r11d
	movl	%r11d, 4(%rsp)                  # 4-byte Spill
	movl	%ebx, %r15d
	xorl	%r14d, %r15d
	movl	%r10d, %ebx
	xorl	%r8d, %ebx
	movl	%ebp, %edx
	xorl	%r10d, %edx
	movl	%r13d, %edi
	xorl	%esi, %edi
	xorl	%r10d, %ecx
	movl	%r10d, %r12d
	xorl	%ecx, %edi
	movl	%edi, %r10d
	movl	%edi, 48(%rsp)                  # 4-byte Spill
	movl	%ecx, %edi
	movl	%edx, %r9d
	movl	%edx, %ecx
	xorl	%eax, %r9d
	movl	%r9d, (%rsp)                    # 4-byte Spill
	xorl	%r8d, %eax
	movl	%eax, %r11d
	movl	%eax, 24(%rsp)                  # 4-byte Spill
	xorl	%ebp, %r8d
	xorl	%esi, %ebp
	movl	%ebp, %eax
	xorl	%r15d, %eax
	movl	%eax, 8(%rsp)                   # 4-byte Spill
	orl	%r10d, %eax
	movl	%ebp, %edx
	xorl	%r14d, %edx
	movl	%edx, 56(%rsp)                  # 4-byte Spill
	movl	%ecx, 12(%rsp)                  # 4-byte Spill
	andl	%ecx, %edx
	xorl	%eax, %edx
	movl	%r12d, %r9d
	xorl	%r8d, %r9d
	movl	%r9d, %r10d
	movl	%r9d, 68(%rsp)                  # 4-byte Spill
	xorl	%esi, %r10d
	movl	%r10d, 72(%rsp)                 # 4-byte Spill
	xorl	%r14d, %esi
	movl	%ebp, %eax
	movl	4(%rsp), %r14d                  # 4-byte Reload
	xorl	%r14d, %eax
	andl	%eax, %r10d
	movl	%eax, 32(%rsp)                  # 4-byte Spill
	movl	%r15d, %r12d
	xorl	%ecx, %r15d
	xorl	%esi, %edi
	movl	%edi, 16(%rsp)                  # 4-byte Spill
	movl	%r15d, %ecx
	andl	%r11d, %ecx
	xorl	%esi, %ecx
	xorl	%ebx, %esi
	movl	%esi, %edi
	andl	%ebx, %edi
	movl	%ebx, %r11d
	movl	%ebx, 28(%rsp)                  # 4-byte Spill
	xorl	%esi, %eax
	movl	%esi, 40(%rsp)                  # 4-byte Spill
	andl	%ebp, %eax
	movl	%ebp, %ebx
	movl	%ebp, 20(%rsp)                  # 4-byte Spill
	xorl	%eax, %r10d
	xorl	%edi, %eax
	xorl	%r11d, %r12d
	movl	%r12d, 88(%rsp)                 # 4-byte Spill
	movl	(%rsp), %r11d                   # 4-byte Reload
	andl	%r12d, %r11d
	movl	%r9d, %r12d
	andl	%r8d, %r12d
	xorl	%r11d, %ecx
	movl	%r14d, %edi
	xorl	%esi, %edi
	movl	%edi, 4(%rsp)                   # 4-byte Spill
	xorl	%edi, %r12d
	xorl	%r11d, %r12d
	xorl	%r10d, %edx
	xorl	%r10d, %r12d
	movl	8(%rsp), %edi                   # 4-byte Reload
	movl	%edi, %r14d
	andl	48(%rsp), %r14d                 # 4-byte Folded Reload
	movl	%r15d, %r9d
	xorl	%r13d, %r9d
	xorl	%r13d, %r14d
	movl	%r9d, %esi
	movl	16(%rsp), %ebp                  # 4-byte Reload
	andl	%ebp, %esi
	xorl	%esi, %r14d
	xorl	%eax, %ecx
	xorl	%ebx, %r14d
	xorl	%eax, %r14d
	movl	%r12d, %r10d
	andl	%edx, %r10d
	movl	%r10d, %eax
	xorl	%ecx, %eax
	movl	%r14d, %ebx
	xorl	%edx, %ebx
	movl	%r10d, %r11d
	xorl	%r14d, %r11d
	andl	%ebx, %eax
	xorl	%r14d, %eax
	andl	%r12d, %r14d
	xorl	%ecx, %r12d
	andl	%r12d, %r14d
	andl	%r12d, %r11d
	xorl	%r10d, %r12d
	xorl	%r14d, %r12d
	movl	%edi, %r14d
	xorl	%ecx, %r11d
	movl	%r12d, %esi
	xorl	%r11d, %esi
	andl	%esi, %r14d
	andl	48(%rsp), %esi                  # 4-byte Folded Reload
	movl	%r8d, %edi
	movl	(%rsp), %r8d                    # 4-byte Reload
	andl	%r11d, %ebp
	movl	%ebp, 16(%rsp)                  # 4-byte Spill
	movl	%r11d, %ebp
	andl	%r9d, %r11d
	andl	%edx, %ecx
	andl	%ebx, %ecx
	xorl	%r10d, %ebx
	xorl	%ecx, %ebx
	xorl	%eax, %ebp
	movl	12(%rsp), %edx                  # 4-byte Reload
	andl	%r12d, %edx
	movl	%edx, 12(%rsp)                  # 4-byte Spill
	andl	%eax, 24(%rsp)                  # 4-byte Folded Spill
	andl	%eax, %r15d
	movl	%r15d, 8(%rsp)                  # 4-byte Spill
	movl	56(%rsp), %r9d                  # 4-byte Reload
	andl	%r12d, %r9d
	xorl	%ebx, %r12d
	andl	%ebx, %edi
	xorl	%ebx, %eax
	andl	68(%rsp), %ebx                  # 4-byte Folded Reload
	andl	%eax, %r8d
	andl	88(%rsp), %eax                  # 4-byte Folded Reload
	andl	%ebp, 20(%rsp)                  # 4-byte Folded Spill
	movl	4(%rsp), %r10d                  # 4-byte Reload
	andl	%ebp, %r10d
	xorl	%r12d, %ebp
	movl	32(%rsp), %ecx                  # 4-byte Reload
	andl	%ebp, %ecx
	xorl	%r9d, %ecx
	movl	%ecx, %r15d
	xorl	%r9d, %ebx
	andl	72(%rsp), %ebp                  # 4-byte Folded Reload
	movl	40(%rsp), %r13d                 # 4-byte Reload
	andl	%r12d, %r13d
	andl	28(%rsp), %r12d                 # 4-byte Folded Reload
	movl	%esi, %ecx
	xorl	%r11d, %ecx
	movl	%r10d, %r9d
	xorl	%edx, %r9d
	xorl	%r14d, %r9d
	xorl	%r8d, %r11d
	xorl	%r9d, %r15d
	movl	%r15d, 32(%rsp)                 # 4-byte Spill
	movl	24(%rsp), %r15d                 # 4-byte Reload
	xorl	%r15d, %r8d
	movl	%ebp, %edx
	xorl	%r13d, %edx
	xorl	%edx, %r9d
	xorl	%r12d, %eax
	xorl	%r11d, %r12d
	xorl	%ebx, %r11d
	xorl	%r9d, %r11d
	movl	%r11d, 4(%rsp)                  # 4-byte Spill
	xorl	%r9d, %r8d
	xorl	%ecx, %r9d
	movq	80(%rsp), %rcx                  # 8-byte Reload
	xorl	%r15d, %edi
	xorl	16(%rsp), %r10d                 # 4-byte Folded Reload
	xorl	%esi, %ebp
	xorl	%esi, %ebx
	movl	%r12d, %esi
	xorl	%r10d, %ebx
	movl	20(%rsp), %r10d                 # 4-byte Reload
	movl	8(%rsp), %r11d                  # 4-byte Reload
	xorl	%r11d, %r10d
	xorl	%edi, %r11d
	xorl	%r11d, %r14d
	xorl	%edx, %r14d
	movl	%r10d, %edx
	xorl	%r11d, %esi
	movl	32(%rsp), %r10d                 # 4-byte Reload
	xorl	%r10d, %ebp
	xorl	%r10d, %esi
	xorl	12(%rsp), %edi                  # 4-byte Folded Reload
	xorl	%r13d, %edi
	xorl	%eax, %edx
	xorl	%eax, %edi
	xorl	%ebx, %r14d
	xorl	%ebx, %edi
	jmp	.Laes_v1_BB24_3
.Laes_v1_BB24_2:                               # %else.4.i
	movl	%esi, %eax
	shrl	$4, %eax
	xorl	%esi, %eax
	andl	$251662080, %eax                # imm = 0xF000F00
	movl	%eax, %edx
	shll	$4, %edx
	orl	%eax, %edx
	xorl	%esi, %edx
	movl	%r8d, %eax
	shrl	$4, %eax
	xorl	%r8d, %eax
	andl	$251662080, %eax                # imm = 0xF000F00
	movl	%eax, %ebp
	shll	$4, %ebp
	orl	%eax, %ebp
	xorl	%r8d, %ebp
	movl	12(%rsp), %edi                  # 4-byte Reload
	movl	%edi, %eax
	shrl	$4, %eax
	xorl	%edi, %eax
	andl	$251662080, %eax                # imm = 0xF000F00
	movl	%eax, %esi
	shll	$4, %esi
	orl	%eax, %esi
	xorl	%edi, %esi
	movl	%esi, 4(%rsp)                   # 4-byte Spill
	movl	%r10d, %eax
	shrl	$4, %eax
	xorl	%r10d, %eax
	andl	$251662080, %eax                # imm = 0xF000F00
	movl	%eax, %esi
	shll	$4, %esi
	orl	%eax, %esi
	xorl	%r10d, %esi
	movl	%r11d, %eax
	shrl	$4, %eax
	xorl	%r11d, %eax
	andl	$251662080, %eax                # imm = 0xF000F00
	movl	%eax, %r8d
	shll	$4, %r8d
	orl	%eax, %r8d
	xorl	%r11d, %r8d
	movl	%r15d, %eax
	shrl	$4, %eax
	xorl	%r15d, %eax
	andl	$251662080, %eax                # imm = 0xF000F00
	movl	%eax, %r14d
	shll	$4, %r14d
	orl	%eax, %r14d
	xorl	%r15d, %r14d
	movl	%r9d, %eax
	shrl	$4, %eax
	xorl	%r9d, %eax
	andl	$251662080, %eax                # imm = 0xF000F00
	movl	%eax, %edi
	shll	$4, %edi
	orl	%eax, %edi
	xorl	%r9d, %edi
	movl	%ebx, %eax
	shrl	$4, %eax
	xorl	%ebx, %eax
	andl	$251662080, %eax                # imm = 0xF000F00
	movl	%eax, %r9d
	shll	$4, %r9d
	orl	%eax, %r9d
	xorl	%ebx, %r9d
.Laes_v1_BB24_3:                               # %join.5.i
	shlq	$5, %rcx
	movq	104(%rsp), %rax                 # 8-byte Reload
	xorl	32(%rax,%rcx), %edx
	xorl	36(%rax,%rcx), %ebp
	movl	4(%rsp), %r10d                  # 4-byte Reload
	xorl	40(%rax,%rcx), %r10d
	xorl	44(%rax,%rcx), %esi
	xorl	48(%rax,%rcx), %r8d
	xorl	52(%rax,%rcx), %r14d
	xorl	56(%rax,%rcx), %edi
	xorl	60(%rax,%rcx), %r9d
	movl	%edx, %eax
	roll	$22, %eax
	movl	%edx, %r12d
	roll	$30, %r12d
	andl	$1061109567, %eax               # imm = 0x3F3F3F3F
	andl	$-1061109568, %r12d             # imm = 0xC0C0C0C0
	movl	%edx, %ebx
	movl	%edx, 20(%rsp)                  # 4-byte Spill
	movl	%ebp, %edx
	roll	$22, %edx
	orl	%eax, %r12d
	movl	%ebp, 16(%rsp)                  # 4-byte Spill
	movl	%ebp, %r13d
	roll	$30, %r13d
	andl	$1061109567, %edx               # imm = 0x3F3F3F3F
	movl	%r10d, %ecx
	movl	%r10d, 4(%rsp)                  # 4-byte Spill
	movl	%r10d, %eax
	roll	$22, %eax
	andl	$-1061109568, %r13d             # imm = 0xC0C0C0C0
	movl	%r9d, %r10d
	movl	%ecx, %r9d
	roll	$30, %r9d
	orl	%edx, %r13d
	andl	$1061109567, %eax               # imm = 0x3F3F3F3F
	andl	$-1061109568, %r9d              # imm = 0xC0C0C0C0
	orl	%eax, %r9d
	movl	%esi, %eax
	roll	$22, %eax
	movl	%esi, %r11d
	roll	$30, %r11d
	andl	$1061109567, %eax               # imm = 0x3F3F3F3F
	andl	$-1061109568, %r11d             # imm = 0xC0C0C0C0
	orl	%eax, %r11d
	movl	%r8d, %eax
	roll	$22, %eax
	movl	%r8d, %r15d
	movl	%r8d, (%rsp)                    # 4-byte Spill
	roll	$30, %r15d
	andl	$1061109567, %eax               # imm = 0x3F3F3F3F
	andl	$-1061109568, %r15d             # imm = 0xC0C0C0C0
	movl	%r14d, %edx
	roll	$22, %edx
	orl	%eax, %r15d
	movl	%r14d, 8(%rsp)                  # 4-byte Spill
	roll	$30, %r14d
	andl	$1061109567, %edx               # imm = 0x3F3F3F3F
	movl	%edi, %eax
	roll	$22, %eax
	andl	$-1061109568, %r14d             # imm = 0xC0C0C0C0
	movl	%edi, %ecx
	roll	$30, %ecx
	orl	%edx, %r14d
	andl	$1061109567, %eax               # imm = 0x3F3F3F3F
	andl	$-1061109568, %ecx              # imm = 0xC0C0C0C0
	orl	%eax, %ecx
	movl	%ecx, %edx
	movl	%r10d, %eax
	roll	$22, %eax
	movl	%r10d, %ebp
	roll	$30, %ebp
	andl	$1061109567, %eax               # imm = 0x3F3F3F3F
	andl	$-1061109568, %ebp              # imm = 0xC0C0C0C0
	orl	%eax, %ebp
	xorl	%ebx, %r12d
	movl	16(%rsp), %ebx                  # 4-byte Reload
	xorl	%ebx, %r13d
	movl	4(%rsp), %eax                   # 4-byte Reload
	xorl	%eax, %r9d
	xorl	%r8d, %r15d
	movl	8(%rsp), %ecx                   # 4-byte Reload
	xorl	%ecx, %r14d
	xorl	%edi, %edx
	movl	%edx, 32(%rsp)                  # 4-byte Spill
	xorl	%r10d, %ebp
	xorl	%r12d, %ebx
	movl	%ebx, 16(%rsp)                  # 4-byte Spill
	xorl	%r13d, %eax
	movl	%eax, 4(%rsp)                   # 4-byte Spill
	xorl	%r15d, %ecx
	movl	%ecx, 8(%rsp)                   # 4-byte Spill
	xorl	%r14d, %edi
	movl	%edi, 48(%rsp)                  # 4-byte Spill
	xorl	%edx, %r10d
	movl	%r10d, %edx
	movl	%r10d, 24(%rsp)                 # 4-byte Spill
	xorl	%edi, %edx
	movl	%r12d, %ecx
	xorl	%edi, %ecx
	movl	%ecx, 40(%rsp)                  # 4-byte Spill
	xorl	%edx, %r13d
	movl	%esi, %r8d
	movl	%ecx, %esi
	roll	$12, %esi
	xorl	%eax, %r15d
	roll	$20, %ecx
	xorl	%edx, %r15d
	andl	$252645135, %esi                # imm = 0xF0F0F0F
	andl	$-252645136, %ecx               # imm = 0xF0F0F0F0
	orl	%esi, %ecx
	movl	%r13d, %edx
	roll	$12, %edx
	movl	%r13d, %ebx
	roll	$20, %ebx
	andl	$252645135, %edx                # imm = 0xF0F0F0F
	andl	$-252645136, %ebx               # imm = 0xF0F0F0F0
	orl	%edx, %ebx
	movl	%r8d, %eax
	xorl	%r8d, %r11d
	movl	20(%rsp), %esi                  # 4-byte Reload
	xorl	%ebp, %esi
	movl	%esi, 20(%rsp)                  # 4-byte Spill
	movl	16(%rsp), %r8d                  # 4-byte Reload
	xorl	%ebp, %r8d
	movl	%r8d, 16(%rsp)                  # 4-byte Spill
	movl	%r9d, %edx
	xorl	%r9d, %eax
	xorl	%r11d, (%rsp)                   # 4-byte Folded Spill
	xorl	%r10d, %edx
	xorl	%esi, %edx
	xorl	%edi, %r11d
	movl	%edx, %esi
	movl	%edx, 12(%rsp)                  # 4-byte Spill
	roll	$12, %esi
	xorl	%r8d, %r11d
	roll	$20, %edx
	andl	$252645135, %esi                # imm = 0xF0F0F0F
	movl	%r11d, %r9d
	roll	$12, %r9d
	andl	$-252645136, %edx               # imm = 0xF0F0F0F0
	movl	%r11d, %r12d
	roll	$20, %r12d
	orl	%esi, %edx
	andl	$252645135, %r9d                # imm = 0xF0F0F0F
	andl	$-252645136, %r12d              # imm = 0xF0F0F0F0
	orl	%r9d, %r12d
	movl	%r15d, %esi
	roll	$12, %esi
	movl	%r15d, %r10d
	roll	$20, %r10d
	andl	$252645135, %esi                # imm = 0xF0F0F0F
	andl	$-252645136, %r10d              # imm = 0xF0F0F0F0
	orl	%esi, %r10d
	xorl	%ebp, %eax
	movl	%eax, 28(%rsp)                  # 4-byte Spill
	movl	(%rsp), %edi                    # 4-byte Reload
	xorl	%ebp, %edi
	movl	%edi, (%rsp)                    # 4-byte Spill
	xorl	24(%rsp), %r14d                 # 4-byte Folded Reload
	xorl	%eax, %r14d
	movl	%r14d, %r9d
	roll	$12, %r9d
	movl	32(%rsp), %esi                  # 4-byte Reload
	xorl	%edi, %esi
	movl	%r14d, %r8d
	roll	$20, %r8d
	andl	$252645135, %r9d                # imm = 0xF0F0F0F
	movl	%esi, %edi
	movl	%esi, 32(%rsp)                  # 4-byte Spill
	roll	$12, %edi
	andl	$-252645136, %r8d               # imm = 0xF0F0F0F0
	roll	$20, %esi
	orl	%r9d, %r8d
	andl	$252645135, %edi                # imm = 0xF0F0F0F
	andl	$-252645136, %esi               # imm = 0xF0F0F0F0
	orl	%edi, %esi
	xorl	8(%rsp), %ebp                   # 4-byte Folded Reload
	movl	%ebp, %edi
	roll	$12, %edi
	movl	%ebp, %r9d
	roll	$20, %r9d
	andl	$252645135, %edi                # imm = 0xF0F0F0F
	andl	$-252645136, %r9d               # imm = 0xF0F0F0F0
	orl	%edi, %r9d
	movl	40(%rsp), %edi                  # 4-byte Reload
	xorl	20(%rsp), %edi                  # 4-byte Folded Reload
	xorl	%ecx, %edi
	movl	%edi, 40(%rsp)                  # 4-byte Spill
	xorl	16(%rsp), %r13d                 # 4-byte Folded Reload
	xorl	%ebx, %r13d
	movl	12(%rsp), %edi                  # 4-byte Reload
	xorl	4(%rsp), %edi                   # 4-byte Folded Reload
	xorl	%edx, %edi
	xorl	28(%rsp), %r11d                 # 4-byte Folded Reload
	xorl	%r12d, %r11d
	xorl	(%rsp), %r15d                   # 4-byte Folded Reload
	xorl	%r10d, %r15d
	xorl	8(%rsp), %r14d                  # 4-byte Folded Reload
	xorl	%r8d, %r14d
	movl	32(%rsp), %r8d                  # 4-byte Reload
	xorl	48(%rsp), %r8d                  # 4-byte Folded Reload
	xorl	%esi, %r8d
	xorl	24(%rsp), %ebp                  # 4-byte Folded Reload
	xorl	%r9d, %ebp
	movl	%r14d, %eax
	xorl	%edi, %eax
	movl	%r8d, %ecx
	xorl	%r13d, %ecx
	xorl	%r13d, %edi
	movl	40(%rsp), %r12d                 # 4-byte Reload
	xorl	%r12d, %r13d
	movl	%r8d, %edx
	xorl	%ebp, %edx
	movl	%r15d, %esi
	xorl	%r8d, %esi
	movl	%r14d, %r9d
	xorl	%r11d, %r9d
	movl	%ecx, %r10d
	xorl	%ecx, %r9d
	movl	%r9d, 48(%rsp)                  # 4-byte Spill
	movl	%esi, %ecx
	xorl	%eax, %ecx
	movl	%ecx, (%rsp)                    # 4-byte Spill
	xorl	%ebp, %eax
	movl	%eax, 20(%rsp)                  # 4-byte Spill
	xorl	%r15d, %ebp
	xorl	%r11d, %r15d
	movl	%r15d, %eax
	xorl	%r13d, %eax
	movl	%eax, 4(%rsp)                   # 4-byte Spill
	orl	%r9d, %eax
	movl	%r15d, %r9d
	xorl	%r12d, %r9d
	movl	%r9d, 72(%rsp)                  # 4-byte Spill
	andl	%esi, %r9d
	movl	%esi, %ebx
	movl	%esi, 16(%rsp)                  # 4-byte Spill
	xorl	%eax, %r9d
	movl	%r8d, %eax
	xorl	%ebp, %eax
	movl	%eax, 32(%rsp)                  # 4-byte Spill
	movl	%eax, %ecx
	xorl	%r11d, %ecx
	movl	%ecx, 80(%rsp)                  # 4-byte Spill
	xorl	%r12d, %r11d
	movl	%edx, %r12d
	xorl	%r13d, %r12d
	movl	%r12d, 40(%rsp)                 # 4-byte Spill
	movl	%r15d, %eax
	movl	%edi, %r8d
	xorl	%edi, %eax
	andl	%eax, %ecx
	movl	%eax, %esi
	movl	%eax, 8(%rsp)                   # 4-byte Spill
	xorl	%ebx, %r13d
	xorl	%r11d, %r10d
	movl	%r13d, %edi
	andl	20(%rsp), %edi                  # 4-byte Folded Reload
	xorl	%r11d, %edi
	movl	%edx, %eax
	movl	%edx, 28(%rsp)                  # 4-byte Spill
	xorl	%edx, %r11d
	movl	%r11d, %edx
	andl	%eax, %edx
	movl	%esi, %eax
	xorl	%r11d, %eax
	andl	%r15d, %eax
	movl	%r15d, 24(%rsp)                 # 4-byte Spill
	xorl	%eax, %ecx
	xorl	%edx, %eax
	movl	(%rsp), %edx                    # 4-byte Reload
	andl	%r12d, %edx
	movl	32(%rsp), %ebx                  # 4-byte Reload
	andl	%ebp, %ebx
	xorl	%edx, %edi
	xorl	%r11d, %r8d
	movl	%r8d, 12(%rsp)                  # 4-byte Spill
	xorl	%r8d, %ebx
	xorl	%edx, %ebx
	xorl	%ecx, %r9d
	xorl	%ecx, %ebx
	movl	4(%rsp), %esi                   # 4-byte Reload
	movl	%esi, %edx
	andl	48(%rsp), %edx                  # 4-byte Folded Reload
	movl	%r13d, %r8d
	movl	%r13d, %r12d
	xorl	%r14d, %r8d
	xorl	%r14d, %edx
	movl	%r8d, %ecx
	movl	%r10d, %r14d
	andl	%r10d, %ecx
	xorl	%ecx, %edx
	xorl	%eax, %edi
	xorl	%r15d, %edx
	xorl	%eax, %edx
	movl	%ebx, %r15d
	andl	%r9d, %r15d
	movl	%r15d, %r10d
	xorl	%edi, %r10d
	movl	%edx, %eax
	xorl	%r9d, %eax
	movl	%r15d, %ecx
	xorl	%edx, %ecx
	andl	%eax, %r10d
	xorl	%edx, %r10d
	andl	%ebx, %edx
	xorl	%edi, %ebx
	andl	%ebx, %edx
	andl	%ebx, %ecx
	xorl	%r15d, %ebx
	xorl	%edx, %ebx
	xorl	%edi, %ecx
	movl	%ebx, %edx
	xorl	%ecx, %edx
	andl	%edx, %esi
	movl	%esi, 4(%rsp)                   # 4-byte Spill
	andl	48(%rsp), %edx                  # 4-byte Folded Reload
	movl	%edx, 56(%rsp)                  # 4-byte Spill
	andl	%ecx, %r14d
	movl	%r14d, 48(%rsp)                 # 4-byte Spill
	movl	%ecx, %r13d
	andl	%r8d, %ecx
	andl	%r9d, %edi
	andl	%eax, %edi
	xorl	%r15d, %eax
	xorl	%edi, %eax
	xorl	%r10d, %r13d
	movl	16(%rsp), %r9d                  # 4-byte Reload
	andl	%ebx, %r9d
	movl	%r9d, 16(%rsp)                  # 4-byte Spill
	movl	20(%rsp), %edi                  # 4-byte Reload
	andl	%r10d, %edi
	andl	%r10d, %r12d
	movl	%r12d, 20(%rsp)                 # 4-byte Spill
	movl	72(%rsp), %r14d                 # 4-byte Reload
	andl	%ebx, %r14d
	xorl	%eax, %ebx
	andl	%eax, %ebp
	xorl	%eax, %r10d
	andl	32(%rsp), %eax                  # 4-byte Folded Reload
	movl	(%rsp), %r15d                   # 4-byte Reload
	andl	%r10d, %r15d
	andl	40(%rsp), %r10d                 # 4-byte Folded Reload
	andl	%r13d, 24(%rsp)                 # 4-byte Folded Spill
	movl	12(%rsp), %r8d                  # 4-byte Reload
	andl	%r13d, %r8d
	movl	%r8d, 12(%rsp)                  # 4-byte Spill
	xorl	%ebx, %r13d
	movl	8(%rsp), %esi                   # 4-byte Reload
	andl	%r13d, %esi
	xorl	%r14d, %esi
	movl	%esi, 8(%rsp)                   # 4-byte Spill
	xorl	%r14d, %eax
	andl	80(%rsp), %r13d                 # 4-byte Folded Reload
	andl	%ebx, %r11d
	andl	28(%rsp), %ebx                  # 4-byte Folded Reload
	movl	%edx, %r14d
	xorl	%ecx, %r14d
	movl	%r8d, %esi
	xorl	%r9d, %esi
	movl	4(%rsp), %r9d                   # 4-byte Reload
	xorl	%r9d, %esi
	movl	%r15d, %r12d
	xorl	%r15d, %ecx
	movl	8(%rsp), %edx                   # 4-byte Reload
	xorl	%esi, %edx
	xorl	%edi, %r12d
	movl	%r12d, %r8d
	movl	%edi, %r12d
	movl	%r13d, %edi
	xorl	%r11d, %edi
	xorl	%edi, %esi
	xorl	%ebx, %r10d
	xorl	%ecx, %ebx
	movl	%ecx, %r15d
	xorl	%eax, %r15d
	xorl	%esi, %r15d
	xorl	%esi, %r8d
	movl	%r8d, (%rsp)                    # 4-byte Spill
	xorl	%r14d, %esi
	xorl	%r12d, %ebp
	movl	12(%rsp), %ecx                  # 4-byte Reload
	xorl	48(%rsp), %ecx                  # 4-byte Folded Reload
	movl	56(%rsp), %r8d                  # 4-byte Reload
	xorl	%r8d, %r13d
	xorl	%r8d, %eax
	xorl	%ecx, %eax
	movl	20(%rsp), %ecx                  # 4-byte Reload
	movl	24(%rsp), %r8d                  # 4-byte Reload
	xorl	%ecx, %r8d
	xorl	%ebp, %ecx
	xorl	%ecx, %r9d
	xorl	%edi, %r9d
	xorl	%ecx, %ebx
	xorl	%edx, %r13d
	xorl	%edx, %ebx
	movl	%ebp, %ecx
	xorl	16(%rsp), %ecx                  # 4-byte Folded Reload
	xorl	%r11d, %ecx
	movl	%r8d, %r11d
	movl	%r9d, %ebp
	xorl	%r10d, %r11d
	xorl	%r10d, %ecx
	movl	%ecx, %r10d
	xorl	%eax, %ebp
	xorl	%eax, %r10d
	movq	112(%rsp), %rcx                 # 8-byte Reload
	testq	%rcx, %rcx
	movq	104(%rsp), %rax                 # 8-byte Reload
	je	.Laes_v1_BB24_6
# %bb.4:                                # %join.10.i.preheader
	movq	%rcx, %rdx
	shlq	$7, %rdx
	addq	%rax, %rdx
	.p2align	4
.Laes_v1_BB24_5:                               # %join.10.i
                                        # =>This Inner Loop Header: Depth=1
	movq	%rdx, 32(%rsp)                  # 8-byte Spill
	movq	%rcx, 112(%rsp)                 # 8-byte Spill
	xorl	(%rdx), %r11d
	xorl	4(%rdx), %r13d
	xorl	8(%rdx), %r15d
	xorl	12(%rdx), %ebx
	movl	(%rsp), %r12d                   # 4-byte Reload
	xorl	16(%rdx), %r12d
	xorl	20(%rdx), %ebp
	xorl	24(%rdx), %r10d
	xorl	28(%rdx), %esi
	movl	%r11d, %eax
	roll	$24, %eax
	movl	%eax, 12(%rsp)                  # 4-byte Spill
	movl	%r13d, %r8d
	roll	$24, %r8d
	movl	%r15d, %r9d
	roll	$24, %r9d
	movl	%r10d, %edx
	movl	%ebx, %r10d
	roll	$24, %r10d
	movl	%r12d, %eax
	movl	%r12d, (%rsp)                   # 4-byte Spill
	roll	$24, %r12d
	movl	%ebp, %edi
	roll	$24, %edi
	movl	%edx, %ecx
	movl	%edx, %r14d
	movl	%edx, 40(%rsp)                  # 4-byte Spill
	roll	$24, %ecx
	movl	%ecx, 4(%rsp)                   # 4-byte Spill
	movl	%esi, %edx
	roll	$24, %edx
	movl	12(%rsp), %ecx                  # 4-byte Reload
	xorl	%r11d, %ecx
	xorl	%r13d, %r8d
	xorl	%r15d, %r9d
	xorl	%ebx, %r10d
	xorl	%eax, %r12d
	xorl	%ebp, %edi
	movl	4(%rsp), %eax                   # 4-byte Reload
	xorl	%r14d, %eax
	xorl	%esi, %edx
	xorl	%edx, %r11d
	xorl	%ecx, %r13d
	xorl	%edx, %r13d
	xorl	%r8d, %r15d
	xorl	%r9d, %ebx
	xorl	%edx, %ebx
	movl	(%rsp), %r14d                   # 4-byte Reload
	xorl	%r10d, %r14d
	xorl	%edx, %r14d
	movl	%r14d, (%rsp)                   # 4-byte Spill
	xorl	%r12d, %ebp
	movl	40(%rsp), %r14d                 # 4-byte Reload
	xorl	%edi, %r14d
	xorl	%eax, %esi
	xorl	%esi, %r9d
	xorl	%esi, %edi
	xorl	%ebp, %edx
	movl	%edx, 16(%rsp)                  # 4-byte Spill
	xorl	%esi, %edx
	movl	%edx, 8(%rsp)                   # 4-byte Spill
	xorl	%r14d, %esi
	xorl	%esi, %r8d
	xorl	%r15d, %r12d
	xorl	%esi, %r12d
	xorl	%r14d, %ecx
	xorl	%r11d, %r9d
	movl	%ecx, %edx
	xorl	%r11d, %ecx
	roll	$16, %edx
	xorl	%edx, %ecx
	movl	%ecx, 12(%rsp)                  # 4-byte Spill
	xorl	%r14d, %r10d
	xorl	%r13d, %r10d
	xorl	%ebx, %edi
	movl	(%rsp), %ecx                    # 4-byte Reload
	xorl	%ecx, %eax
	movl	%eax, 4(%rsp)                   # 4-byte Spill
	xorl	%r8d, %r13d
	roll	$16, %r8d
	xorl	%r13d, %r8d
	movl	%r10d, %edx
	roll	$16, %edx
	xorl	%r9d, %r15d
	roll	$16, %r9d
	xorl	%r15d, %r9d
	movl	%r9d, %r15d
	movl	%r12d, %esi
	roll	$16, %esi
	xorl	%ebx, %r10d
	movl	%edi, %r11d
	roll	$16, %r11d
	movl	4(%rsp), %r9d                   # 4-byte Reload
	movl	%r9d, %ebx
	roll	$16, %ebx
	movl	16(%rsp), %eax                  # 4-byte Reload
	roll	$16, %eax
	xorl	%edx, %r10d
	xorl	%ecx, %r12d
	xorl	%esi, %r12d
	xorl	%ebp, %edi
	xorl	%r11d, %edi
	xorl	%r14d, %r9d
	xorl	%ebx, %r9d
	movl	%r9d, %r14d
	movl	8(%rsp), %r11d                  # 4-byte Reload
	xorl	%eax, %r11d
	movl	%edi, %eax
	movl	%edi, %ebx
	movl	%edi, 88(%rsp)                  # 4-byte Spill
	xorl	%r15d, %eax
	movl	%eax, %edx
	movl	%r9d, %eax
	xorl	%r8d, %eax
	movl	%eax, %esi
	xorl	%r8d, %r15d
	movl	%r8d, %ecx
	movl	12(%rsp), %edi                  # 4-byte Reload
	xorl	%edi, %ecx
	movl	%r9d, %r8d
	movl	%r11d, %eax
	xorl	%r11d, %r8d
	movl	%r8d, 40(%rsp)                  # 4-byte Spill
	movl	%r12d, %r11d
	xorl	%r9d, %r11d
	movl	%ebx, %r8d
	xorl	%r10d, %r8d
	xorl	%esi, %r8d
	movl	%r8d, 100(%rsp)                 # 4-byte Spill
	movl	%esi, %ebx
	movl	%r11d, %esi
	movl	%r11d, %r13d
	xorl	%edx, %esi
	movl	%esi, (%rsp)                    # 4-byte Spill
	xorl	%eax, %edx
	movl	%edx, %r11d
	movl	%edx, 20(%rsp)                  # 4-byte Spill
	xorl	%r12d, %eax
	movl	%eax, %esi
	movl	%eax, 8(%rsp)                   # 4-byte Spill
	xorl	%r10d, %r12d
	movl	%r12d, %eax
	xorl	%ecx, %eax
	movl	%eax, 24(%rsp)                  # 4-byte Spill
	orl	%r8d, %eax
	movl	%r12d, %ebp
	xorl	%edi, %ebp
	movl	%ebp, 72(%rsp)                  # 4-byte Spill
	andl	%r13d, %ebp
	movl	%r13d, 56(%rsp)                 # 4-byte Spill
	xorl	%eax, %ebp
	xorl	%esi, %r14d
	movl	%r14d, %esi
	movl	%r14d, 4(%rsp)                  # 4-byte Spill
	xorl	%r10d, %esi
	movl	%esi, 80(%rsp)                  # 4-byte Spill
	xorl	%edi, %r10d
	movl	40(%rsp), %r9d                  # 4-byte Reload
	movl	%r9d, %r8d
	xorl	%ecx, %r8d
	movl	%r8d, 68(%rsp)                  # 4-byte Spill
	movl	%r12d, %eax
	xorl	%r15d, %eax
	andl	%eax, %esi
	movl	%eax, %edx
	movl	%eax, 12(%rsp)                  # 4-byte Spill
	xorl	%r13d, %ecx
	xorl	%r10d, %ebx
	movl	%ebx, %r13d
	movl	%ecx, %eax
	movl	%ecx, 16(%rsp)                  # 4-byte Spill
	andl	%r11d, %eax
	xorl	%r10d, %eax
	xorl	%r9d, %r10d
	movl	%r10d, %edi
	andl	%r9d, %edi
	movl	%edx, %r11d
	xorl	%r10d, %r11d
	movl	%r10d, 28(%rsp)                 # 4-byte Spill
	andl	%r12d, %r11d
	xorl	%r11d, %esi
	xorl	%edi, %r11d
	movl	(%rsp), %ebx                    # 4-byte Reload
	andl	%r8d, %ebx
	movl	%r14d, %edi
	andl	8(%rsp), %edi                   # 4-byte Folded Reload
	xorl	%ebx, %eax
	xorl	%r10d, %r15d
	movl	%r15d, 48(%rsp)                 # 4-byte Spill
	xorl	%r15d, %edi
	xorl	%ebx, %edi
	xorl	%esi, %ebp
	xorl	%esi, %edi
	movl	24(%rsp), %r15d                 # 4-byte Reload
	movl	%r15d, %ebx
	movl	100(%rsp), %r8d                 # 4-byte Reload
	andl	%r8d, %ebx
	movl	%ecx, %esi
	movl	88(%rsp), %ecx                  # 4-byte Reload
	xorl	%ecx, %esi
	xorl	%ecx, %ebx
	movl	%esi, %ecx
	movl	%r13d, %edx
	andl	%r13d, %ecx
	xorl	%ecx, %ebx
	xorl	%r11d, %eax
	xorl	%r12d, %ebx
	movl	%r12d, %r14d
	xorl	%r11d, %ebx
	movl	%edi, %r13d
	andl	%ebp, %r13d
	movl	%r13d, %ecx
	xorl	%eax, %ecx
	movl	%ebx, %r9d
	xorl	%ebp, %r9d
	movl	%r13d, %r11d
	xorl	%ebx, %r11d
	andl	%r9d, %ecx
	xorl	%ebx, %ecx
	andl	%edi, %ebx
	xorl	%eax, %edi
	andl	%edi, %ebx
	andl	%edi, %r11d
	xorl	%r13d, %edi
	xorl	%ebx, %edi
	xorl	%eax, %r11d
	movl	%edi, %ebx
	xorl	%r11d, %ebx
	andl	%ebx, %r15d
	movl	%ebx, %r10d
	movl	%r15d, %ebx
	andl	%r8d, %r10d
	movl	%r10d, 88(%rsp)                 # 4-byte Spill
	andl	%r11d, %edx
	movl	%edx, 24(%rsp)                  # 4-byte Spill
	movl	%r11d, %r8d
	andl	%esi, %r11d
	andl	%ebp, %eax
	andl	%r9d, %eax
	xorl	%r13d, %r9d
	xorl	%eax, %r9d
	xorl	%ecx, %r8d
	movl	56(%rsp), %r10d                 # 4-byte Reload
	andl	%edi, %r10d
	movl	20(%rsp), %edx                  # 4-byte Reload
	andl	%ecx, %edx
	movl	%edx, 20(%rsp)                  # 4-byte Spill
	movl	16(%rsp), %ebp                  # 4-byte Reload
	andl	%ecx, %ebp
	movl	72(%rsp), %eax                  # 4-byte Reload
	andl	%edi, %eax
	xorl	%r9d, %edi
	movl	8(%rsp), %esi                   # 4-byte Reload
	andl	%r9d, %esi
	xorl	%r9d, %ecx
	andl	4(%rsp), %r9d                   # 4-byte Folded Reload
	movl	%r9d, %r15d
	andl	%ecx, (%rsp)                    # 4-byte Folded Spill
	andl	68(%rsp), %ecx                  # 4-byte Folded Reload
	andl	%r8d, %r14d
	movl	48(%rsp), %r9d                  # 4-byte Reload
	andl	%r8d, %r9d
	xorl	%edi, %r8d
	movl	12(%rsp), %r12d                 # 4-byte Reload
	andl	%r8d, %r12d
	xorl	%eax, %r12d
	movl	%r12d, 12(%rsp)                 # 4-byte Spill
	xorl	%eax, %r15d
	andl	80(%rsp), %r8d                  # 4-byte Folded Reload
	andl	%edi, 28(%rsp)                  # 4-byte Folded Spill
	andl	40(%rsp), %edi                  # 4-byte Folded Reload
	movl	%r9d, %eax
	xorl	%r10d, %eax
	movl	%ebx, %r13d
	xorl	%ebx, %eax
	xorl	%r15d, %r9d
	movl	%r9d, %r12d
	xorl	%r9d, %r13d
	xorl	%r10d, %r12d
	xorl	%edx, %esi
	xorl	%esi, %r12d
	movl	%ebp, %r10d
	xorl	%ebp, %esi
	xorl	%edi, %ecx
	movq	32(%rsp), %rdx                  # 8-byte Reload
	xorl	-32(%rdx), %r14d
	xorl	%ecx, %r10d
	xorl	%r14d, %r10d
	movl	%r10d, 16(%rsp)                 # 4-byte Spill
	movl	12(%rsp), %ebp                  # 4-byte Reload
	xorl	%eax, %ebp
	movq	32(%rsp), %rdx                  # 8-byte Reload
	movl	-28(%rdx), %edx
	movl	88(%rsp), %r10d                 # 4-byte Reload
	xorl	%r10d, %edx
	movl	%r8d, %r14d
	xorl	%ebp, %r8d
	xorl	%edx, %r8d
	movl	%r8d, 8(%rsp)                   # 4-byte Spill
	movl	(%rsp), %r9d                    # 4-byte Reload
	movl	%r9d, %edx
	xorl	%r11d, %edx
	movl	28(%rsp), %ebx                  # 4-byte Reload
	xorl	%ebx, %r14d
	xorl	%r14d, %r15d
	movl	%r13d, %r8d
	xorl	%esi, %r8d
	xorl	%r14d, %r8d
	movl	%r8d, %r13d
	xorl	%eax, %r14d
	movq	32(%rsp), %r8                   # 8-byte Reload
	xorl	-24(%r8), %eax
	xorl	%edx, %r15d
	xorl	%eax, %r15d
	movl	%r15d, 12(%rsp)                 # 4-byte Spill
	xorl	%esi, %edx
	xorl	%ebp, %edx
	movl	24(%rsp), %r8d                  # 4-byte Reload
	xorl	%r10d, %r8d
	movq	32(%rsp), %rax                  # 8-byte Reload
	xorl	-20(%rax), %edi
	xorl	%edi, %edx
	movq	32(%rsp), %rax                  # 8-byte Reload
	movl	20(%rsp), %esi                  # 4-byte Reload
	xorl	-16(%rax), %esi
	xorl	%r14d, %r9d
	xorl	%esi, %r9d
	movl	%r9d, %edi
	movq	32(%rsp), %rax                  # 8-byte Reload
	movl	-12(%rax), %eax
	xorl	%r8d, %eax
	movq	32(%rsp), %rsi                  # 8-byte Reload
	xorl	-8(%rsi), %r8d
	xorl	%eax, %r13d
	xorl	%ebx, %r12d
	xorl	%ecx, %r12d
	xorl	%r8d, %r12d
	movl	%r12d, %r8d
	movq	32(%rsp), %rax                  # 8-byte Reload
	xorl	-4(%rax), %r11d
	xorl	%r10d, %r14d
	xorl	%r11d, %r14d
	movl	16(%rsp), %r9d                  # 4-byte Reload
	movl	%r9d, %eax
	roll	$18, %eax
	movl	%r9d, %ebp
	roll	$26, %ebp
	andl	$50529027, %eax                 # imm = 0x3030303
	andl	$-50529028, %ebp                # imm = 0xFCFCFCFC
	orl	%eax, %ebp
	movl	8(%rsp), %r11d                  # 4-byte Reload
	movl	%r11d, %eax
	roll	$18, %eax
	roll	$26, %r11d
	andl	$50529027, %eax                 # imm = 0x3030303
	andl	$-50529028, %r11d               # imm = 0xFCFCFCFC
	movl	12(%rsp), %r12d                 # 4-byte Reload
	movl	%r12d, %ecx
	roll	$18, %ecx
	orl	%eax, %r11d
	roll	$26, %r12d
	andl	$50529027, %ecx                 # imm = 0x3030303
	movl	%edx, 40(%rsp)                  # 4-byte Spill
	movl	%edx, %eax
	roll	$18, %eax
	andl	$-50529028, %r12d               # imm = 0xFCFCFCFC
	movl	%edx, %esi
	roll	$26, %esi
	orl	%ecx, %r12d
	andl	$50529027, %eax                 # imm = 0x3030303
	andl	$-50529028, %esi                # imm = 0xFCFCFCFC
	orl	%eax, %esi
	movl	%esi, 20(%rsp)                  # 4-byte Spill
	movl	%edi, %r10d
	movl	%edi, (%rsp)                    # 4-byte Spill
	movl	%edi, %eax
	roll	$18, %eax
	roll	$26, %r10d
	andl	$50529027, %eax                 # imm = 0x3030303
	andl	$-50529028, %r10d               # imm = 0xFCFCFCFC
	orl	%eax, %r10d
	movl	%r13d, %ecx
	roll	$18, %ecx
	movl	%r13d, %ebx
	roll	$26, %ebx
	andl	$50529027, %ecx                 # imm = 0x3030303
	andl	$-50529028, %ebx                # imm = 0xFCFCFCFC
	movl	%r8d, %edi
	roll	$18, %r8d
	orl	%ecx, %ebx
	movl	%edi, %r15d
	roll	$26, %r15d
	andl	$50529027, %r8d                 # imm = 0x3030303
	movl	%r14d, %ecx
	roll	$18, %ecx
	andl	$-50529028, %r15d               # imm = 0xFCFCFCFC
	movl	%r14d, %eax
	roll	$26, %eax
	orl	%r8d, %r15d
	andl	$50529027, %ecx                 # imm = 0x3030303
	andl	$-50529028, %eax                # imm = 0xFCFCFCFC
	orl	%ecx, %eax
	xorl	%r9d, %ebp
	movl	%r11d, %edx
	movl	8(%rsp), %ecx                   # 4-byte Reload
	xorl	%ecx, %edx
	movl	12(%rsp), %r11d                 # 4-byte Reload
	xorl	%r11d, %r12d
	movl	40(%rsp), %esi                  # 4-byte Reload
	xorl	%esi, 20(%rsp)                  # 4-byte Folded Spill
	movl	(%rsp), %r8d                    # 4-byte Reload
	xorl	%r8d, %r10d
	xorl	%r13d, %ebx
	xorl	%edi, %r15d
	xorl	%r14d, %eax
	xorl	%eax, %r9d
	movl	%r9d, 16(%rsp)                  # 4-byte Spill
	xorl	%eax, %ecx
	xorl	%ebp, %ecx
	movl	%ecx, 8(%rsp)                   # 4-byte Spill
	xorl	%edx, %r11d
	movl	%r11d, 12(%rsp)                 # 4-byte Spill
	xorl	%eax, %esi
	xorl	%r12d, %esi
	movl	%esi, 40(%rsp)                  # 4-byte Spill
	xorl	%eax, %r8d
	movl	%r8d, (%rsp)                    # 4-byte Spill
	xorl	%r10d, %r13d
	movl	%r13d, 24(%rsp)                 # 4-byte Spill
	xorl	%ebx, %edi
	xorl	%r15d, %r14d
	xorl	%r9d, %r12d
	xorl	%r14d, %r12d
	xorl	%r14d, %ebx
	xorl	%r13d, %eax
	movl	%eax, 80(%rsp)                  # 4-byte Spill
	movl	%eax, %r11d
	xorl	%r14d, %eax
	movl	%eax, 28(%rsp)                  # 4-byte Spill
	xorl	%edi, %r14d
	xorl	%edi, %ebp
	movl	%ebp, 72(%rsp)                  # 4-byte Spill
	movl	%edi, 48(%rsp)                  # 4-byte Spill
	movl	%edx, %ecx
	xorl	%r14d, %ecx
	movl	%ebp, %r8d
	roll	$12, %r8d
	xorl	12(%rsp), %r10d                 # 4-byte Folded Reload
	movl	%ebp, %edx
	roll	$20, %edx
	xorl	%r14d, %r10d
	andl	$252645135, %r8d                # imm = 0xF0F0F0F
	andl	$-252645136, %edx               # imm = 0xF0F0F0F0
	orl	%r8d, %edx
	movl	%ecx, %r14d
	movl	%ecx, 56(%rsp)                  # 4-byte Spill
	movl	%ecx, %r8d
	roll	$12, %r8d
	roll	$20, %r14d
	andl	$252645135, %r8d                # imm = 0xF0F0F0F
	andl	$-252645136, %r14d              # imm = 0xF0F0F0F0
	orl	%r8d, %r14d
	movl	%r12d, %r13d
	movl	%r12d, 4(%rsp)                  # 4-byte Spill
	movl	%r12d, %r8d
	roll	$12, %r8d
	roll	$20, %r13d
	andl	$252645135, %r8d                # imm = 0xF0F0F0F
	andl	$-252645136, %r13d              # imm = 0xF0F0F0F0
	orl	%r8d, %r13d
	movl	20(%rsp), %r9d                  # 4-byte Reload
	movl	(%rsp), %eax                    # 4-byte Reload
	xorl	%r9d, %eax
	movl	%eax, (%rsp)                    # 4-byte Spill
	xorl	8(%rsp), %r9d                   # 4-byte Folded Reload
	xorl	%edi, %r9d
	movl	%r9d, %ebp
	roll	$12, %ebp
	movl	%r9d, %r8d
	roll	$20, %r8d
	andl	$252645135, %ebp                # imm = 0xF0F0F0F
	andl	$-252645136, %r8d               # imm = 0xF0F0F0F0
	movl	%r10d, %r12d
	roll	$12, %r12d
	orl	%ebp, %r8d
	movl	%r10d, %ebp
	roll	$20, %ebp
	andl	$252645135, %r12d               # imm = 0xF0F0F0F
	andl	$-252645136, %ebp               # imm = 0xF0F0F0F0
	orl	%r12d, %ebp
	movl	40(%rsp), %edi                  # 4-byte Reload
	xorl	%edi, %ebx
	xorl	%eax, %r15d
	movl	%ebx, %r12d
	roll	$12, %r12d
	movl	%ebx, %esi
	roll	$20, %esi
	andl	$252645135, %r12d               # imm = 0xF0F0F0F
	andl	$-252645136, %esi               # imm = 0xF0F0F0F0
	movl	%r15d, %eax
	roll	$12, %eax
	orl	%r12d, %esi
	movl	%r15d, %r12d
	roll	$20, %r12d
	andl	$252645135, %eax                # imm = 0xF0F0F0F
	andl	$-252645136, %r12d              # imm = 0xF0F0F0F0
	movl	80(%rsp), %ecx                  # 4-byte Reload
	roll	$12, %ecx
	orl	%eax, %r12d
	roll	$20, %r11d
	andl	$252645135, %ecx                # imm = 0xF0F0F0F
	andl	$-252645136, %r11d              # imm = 0xF0F0F0F0
	orl	%ecx, %r11d
	movl	72(%rsp), %eax                  # 4-byte Reload
	xorl	16(%rsp), %eax                  # 4-byte Folded Reload
	xorl	%edx, %eax
	movl	%eax, %edx
	movl	56(%rsp), %ecx                  # 4-byte Reload
	xorl	8(%rsp), %ecx                   # 4-byte Folded Reload
	xorl	%r14d, %ecx
	movl	4(%rsp), %r14d                  # 4-byte Reload
	xorl	12(%rsp), %r14d                 # 4-byte Folded Reload
	xorl	%r13d, %r14d
	xorl	%edi, %r9d
	xorl	%r8d, %r9d
	xorl	(%rsp), %r10d                   # 4-byte Folded Reload
	xorl	%ebp, %r10d
	xorl	24(%rsp), %ebx                  # 4-byte Folded Reload
	xorl	%esi, %ebx
	xorl	48(%rsp), %r15d                 # 4-byte Folded Reload
	xorl	%r12d, %r15d
	movl	28(%rsp), %esi                  # 4-byte Reload
	xorl	%r11d, %esi
	movl	%ebx, %ebp
	movl	%ebx, %r8d
	movl	%ebx, 56(%rsp)                  # 4-byte Spill
	xorl	%r14d, %ebp
	movl	%ecx, %eax
	xorl	%ecx, %r14d
	movl	%r14d, 4(%rsp)                  # 4-byte Spill
	xorl	%edx, %ecx
	movl	%r15d, %r13d
	movl	%r15d, %r14d
	xorl	%esi, %r14d
	movl	%r10d, %ebx
	xorl	%r15d, %ebx
	xorl	%r9d, %r8d
	xorl	%r15d, %eax
	xorl	%eax, %r8d
	movl	%r8d, %edi
	movl	%r8d, 100(%rsp)                 # 4-byte Spill
	movl	%eax, %r8d
	movl	%ebx, %eax
	xorl	%ebp, %eax
	movl	%eax, (%rsp)                    # 4-byte Spill
	movl	%esi, %eax
	xorl	%esi, %ebp
	movl	%ebp, %r15d
	movl	%ebp, 16(%rsp)                  # 4-byte Spill
	xorl	%r10d, %eax
	movl	%eax, %esi
	xorl	%r9d, %r10d
	movl	%r10d, %eax
	xorl	%ecx, %eax
	movl	%eax, 8(%rsp)                   # 4-byte Spill
	orl	%edi, %eax
	movl	%r10d, %r11d
	movl	%r10d, %edi
	xorl	%edx, %r11d
	movl	%edx, %r10d
	movl	%r11d, 48(%rsp)                 # 4-byte Spill
	movl	%r11d, %edx
	andl	%ebx, %edx
	movl	%ebx, 72(%rsp)                  # 4-byte Spill
	xorl	%eax, %edx
	xorl	%esi, %r13d
	movl	%esi, %r12d
	movl	%esi, 28(%rsp)                  # 4-byte Spill
	movl	%r13d, %eax
	movl	%r13d, 68(%rsp)                 # 4-byte Spill
	xorl	%r9d, %eax
	movl	%eax, 40(%rsp)                  # 4-byte Spill
	xorl	%r10d, %r9d
	movl	%edi, %r11d
	movl	%edi, %esi
	xorl	4(%rsp), %r11d                  # 4-byte Folded Reload
	movl	%eax, %edi
	andl	%r11d, %edi
	movl	%r11d, 80(%rsp)                 # 4-byte Spill
	movl	%ecx, %ebp
	xorl	%ebx, %ecx
	movl	%ecx, 12(%rsp)                  # 4-byte Spill
	xorl	%r9d, %r8d
	movl	%ecx, %ebx
	andl	%r15d, %ebx
	xorl	%r9d, %ebx
	xorl	%r14d, %r9d
	movl	%r9d, %eax
	andl	%r14d, %eax
	movl	%r14d, 24(%rsp)                 # 4-byte Spill
	movl	%r11d, %ecx
	xorl	%r9d, %ecx
	movl	%r9d, 20(%rsp)                  # 4-byte Spill
	andl	%esi, %ecx
	xorl	%ecx, %edi
	xorl	%eax, %ecx
	xorl	%r14d, %ebp
	movl	%ebp, 88(%rsp)                  # 4-byte Spill
	movl	(%rsp), %eax                    # 4-byte Reload
	andl	%ebp, %eax
	movl	%r13d, %r15d
	andl	%r12d, %r15d
	xorl	%eax, %ebx
	movl	4(%rsp), %r10d                  # 4-byte Reload
	xorl	%r9d, %r10d
	movl	%r10d, 4(%rsp)                  # 4-byte Spill
	xorl	%r10d, %r15d
	xorl	%eax, %r15d
	xorl	%edi, %edx
	xorl	%edi, %r15d
	movl	8(%rsp), %ebp                   # 4-byte Reload
	movl	%ebp, %r9d
	movl	100(%rsp), %r10d                # 4-byte Reload
	andl	%r10d, %r9d
	movl	12(%rsp), %r12d                 # 4-byte Reload
	movl	%r12d, %edi
	movl	56(%rsp), %eax                  # 4-byte Reload
	xorl	%eax, %edi
	xorl	%eax, %r9d
	movl	%edi, %eax
	andl	%r8d, %eax
	xorl	%eax, %r9d
	xorl	%ecx, %ebx
	xorl	%esi, %r9d
	xorl	%ecx, %r9d
	movl	%r15d, %r11d
	andl	%edx, %r11d
	movl	%r11d, %eax
	xorl	%ebx, %eax
	movl	%r9d, %ecx
	xorl	%edx, %ecx
	movl	%r11d, %r14d
	xorl	%r9d, %r14d
	andl	%ecx, %eax
	xorl	%r9d, %eax
	andl	%r15d, %r9d
	xorl	%ebx, %r15d
	andl	%r15d, %r9d
	andl	%r15d, %r14d
	xorl	%r11d, %r15d
	xorl	%r9d, %r15d
	xorl	%ebx, %r14d
	movl	%r15d, %r9d
	xorl	%r14d, %r9d
	andl	%r9d, %ebp
	andl	%r10d, %r9d
	movl	%r9d, 56(%rsp)                  # 4-byte Spill
	andl	%r14d, %r8d
	movl	%r8d, 8(%rsp)                   # 4-byte Spill
	movl	%r14d, %r13d
	andl	%edi, %r14d
	andl	%edx, %ebx
	andl	%ecx, %ebx
	xorl	%r11d, %ecx
	xorl	%ebx, %ecx
	xorl	%eax, %r13d
	movl	72(%rsp), %r8d                  # 4-byte Reload
	andl	%r15d, %r8d
	movl	16(%rsp), %r11d                 # 4-byte Reload
	andl	%eax, %r11d
	movl	%r11d, 16(%rsp)                 # 4-byte Spill
	movl	%r12d, %edi
	andl	%eax, %edi
	movl	48(%rsp), %r10d                 # 4-byte Reload
	andl	%r15d, %r10d
	xorl	%ecx, %r15d
	movl	28(%rsp), %edx                  # 4-byte Reload
	andl	%ecx, %edx
	xorl	%ecx, %eax
	andl	68(%rsp), %ecx                  # 4-byte Folded Reload
	andl	%eax, (%rsp)                    # 4-byte Folded Spill
	andl	88(%rsp), %eax                  # 4-byte Folded Reload
	andl	%r13d, %esi
	movl	%esi, 12(%rsp)                  # 4-byte Spill
	movl	4(%rsp), %r9d                   # 4-byte Reload
	andl	%r13d, %r9d
	xorl	%r15d, %r13d
	movl	80(%rsp), %esi                  # 4-byte Reload
	andl	%r13d, %esi
	xorl	%r10d, %esi
	movl	%r10d, %ebx
	movl	%esi, %r10d
	xorl	%ebx, %ecx
	andl	40(%rsp), %r13d                 # 4-byte Folded Reload
	movl	20(%rsp), %r12d                 # 4-byte Reload
	andl	%r15d, %r12d
	andl	24(%rsp), %r15d                 # 4-byte Folded Reload
	movl	%r9d, %ebx
	xorl	%r8d, %ebx
	xorl	%ebp, %ebx
	xorl	%ecx, %r9d
	xorl	%r9d, %ebp
	xorl	%r8d, %r9d
	movl	%edx, %esi
	xorl	%r11d, %esi
	xorl	%esi, %r9d
	movl	%r9d, 4(%rsp)                   # 4-byte Spill
	xorl	%edi, %esi
	xorl	%r15d, %eax
	movq	32(%rsp), %rdx                  # 8-byte Reload
	movl	12(%rsp), %r8d                  # 4-byte Reload
	xorl	-64(%rdx), %r8d
	movl	%edi, %edx
	xorl	%eax, %edx
	xorl	%r8d, %edx
	movl	%edx, 12(%rsp)                  # 4-byte Spill
	xorl	%ebx, %r10d
	movq	32(%rsp), %rdx                  # 8-byte Reload
	movl	-60(%rdx), %edx
	movl	56(%rsp), %r8d                  # 4-byte Reload
	xorl	%r8d, %edx
	movl	%r13d, %edi
	xorl	%r10d, %r13d
	xorl	%edx, %r13d
	movl	%r12d, %r11d
	xorl	%r12d, %edi
	xorl	%edi, %ecx
	movl	%ebp, %r12d
	xorl	%esi, %r12d
	xorl	%edi, %r12d
	movl	%edi, %edx
	xorl	%ebx, %edx
	movq	32(%rsp), %rdi                  # 8-byte Reload
	xorl	-56(%rdi), %ebx
	movl	(%rsp), %ebp                    # 4-byte Reload
	movl	%ebp, %r9d
	xorl	%r14d, %r9d
	xorl	%r9d, %ecx
	xorl	%ebx, %ecx
	movl	%ecx, 20(%rsp)                  # 4-byte Spill
	xorl	%esi, %r9d
	xorl	%r10d, %r9d
	movl	8(%rsp), %r10d                  # 4-byte Reload
	xorl	%r8d, %r10d
	movq	32(%rsp), %rsi                  # 8-byte Reload
	xorl	-52(%rsi), %r15d
	xorl	%r15d, %r9d
	movq	32(%rsp), %rsi                  # 8-byte Reload
	movl	16(%rsp), %edi                  # 4-byte Reload
	xorl	-48(%rsi), %edi
	xorl	%edx, %ebp
	xorl	%edi, %ebp
	movq	32(%rsp), %rsi                  # 8-byte Reload
	movl	-44(%rsi), %esi
	movl	%r10d, %edi
	xorl	%r10d, %esi
	xorl	%esi, %r12d
	movl	%r12d, %r15d
	movq	32(%rsp), %rsi                  # 8-byte Reload
	xorl	-40(%rsi), %edi
	movl	4(%rsp), %r10d                  # 4-byte Reload
	xorl	%r11d, %r10d
	xorl	%eax, %r10d
	xorl	%edi, %r10d
	movq	32(%rsp), %rax                  # 8-byte Reload
	xorl	-36(%rax), %r14d
	xorl	%r8d, %edx
	xorl	%r14d, %edx
	movl	12(%rsp), %ecx                  # 4-byte Reload
	movl	%ecx, %eax
	roll	$20, %eax
	roll	$28, %ecx
	andl	$252645135, %eax                # imm = 0xF0F0F0F
	andl	$-252645136, %ecx               # imm = 0xF0F0F0F0
	movl	%r13d, %esi
	roll	$20, %esi
	orl	%eax, %ecx
	movl	%r13d, %r14d
	movl	%r13d, %r12d
	roll	$28, %r14d
	andl	$252645135, %esi                # imm = 0xF0F0F0F
	movl	20(%rsp), %edi                  # 4-byte Reload
	movl	%edi, %eax
	roll	$20, %eax
	andl	$-252645136, %r14d              # imm = 0xF0F0F0F0
	roll	$28, %edi
	orl	%esi, %r14d
	andl	$252645135, %eax                # imm = 0xF0F0F0F
	andl	$-252645136, %edi               # imm = 0xF0F0F0F0
	orl	%eax, %edi
	movl	%r9d, %eax
	roll	$20, %eax
	movl	%r9d, %r8d
	roll	$28, %r8d
	andl	$252645135, %eax                # imm = 0xF0F0F0F
	andl	$-252645136, %r8d               # imm = 0xF0F0F0F0
	orl	%eax, %r8d
	movl	%ebp, (%rsp)                    # 4-byte Spill
	movl	%ebp, %eax
	roll	$20, %eax
	roll	$28, %ebp
	andl	$252645135, %eax                # imm = 0xF0F0F0F
	andl	$-252645136, %ebp               # imm = 0xF0F0F0F0
	movl	%r15d, 8(%rsp)                  # 4-byte Spill
	movl	%r15d, %ebx
	roll	$20, %ebx
	orl	%eax, %ebp
	movl	%r15d, %r11d
	roll	$28, %r11d
	andl	$252645135, %ebx                # imm = 0xF0F0F0F
	movl	%r10d, %r13d
	movl	%r10d, %r15d
	roll	$20, %r15d
	andl	$-252645136, %r11d              # imm = 0xF0F0F0F0
	movl	%r10d, %esi
	roll	$28, %esi
	orl	%ebx, %r11d
	andl	$252645135, %r15d               # imm = 0xF0F0F0F
	andl	$-252645136, %esi               # imm = 0xF0F0F0F0
	orl	%r15d, %esi
	movl	%edx, %ebx
	roll	$20, %ebx
	movl	%edx, %r15d
	roll	$28, %r15d
	andl	$252645135, %ebx                # imm = 0xF0F0F0F
	andl	$-252645136, %r15d              # imm = 0xF0F0F0F0
	orl	%ebx, %r15d
	movl	12(%rsp), %r10d                 # 4-byte Reload
	xorl	%r10d, %ecx
	movl	%ecx, 16(%rsp)                  # 4-byte Spill
	xorl	%r12d, %r14d
	movl	20(%rsp), %eax                  # 4-byte Reload
	xorl	%eax, %edi
	xorl	%r9d, %r8d
	movl	(%rsp), %ecx                    # 4-byte Reload
	xorl	%ecx, %ebp
	movl	8(%rsp), %ebx                   # 4-byte Reload
	xorl	%ebx, %r11d
	xorl	%r13d, %esi
	xorl	%edx, %r15d
	xorl	%r15d, %r10d
	xorl	%r15d, %r12d
	xorl	%r14d, %eax
	xorl	%r15d, %r9d
	xorl	%edi, %r9d
	xorl	%r15d, %ecx
	movl	%ecx, (%rsp)                    # 4-byte Spill
	xorl	%ebp, %ebx
	movl	%ebx, 8(%rsp)                   # 4-byte Spill
	xorl	%r11d, %r13d
	xorl	%esi, %edx
	xorl	%r10d, %edi
	xorl	%edx, %edi
	xorl	%edx, %r11d
	xorl	%ebx, %r15d
	movl	%r15d, %ebx
	xorl	%edx, %r15d
	xorl	%r13d, %edx
	xorl	%edx, %r14d
	movl	%eax, %ecx
	xorl	%eax, %ebp
	xorl	%edx, %ebp
	movl	16(%rsp), %eax                  # 4-byte Reload
	xorl	%eax, %r12d
	xorl	%r13d, %eax
	xorl	%eax, %r10d
	roll	$16, %eax
	xorl	%r10d, %eax
	movl	%eax, 16(%rsp)                  # 4-byte Spill
	movl	(%rsp), %r10d                   # 4-byte Reload
	xorl	%r8d, %r10d
	xorl	%r12d, %r8d
	xorl	%r13d, %r8d
	xorl	%r9d, %r11d
	xorl	%r10d, %esi
	xorl	%r14d, %r12d
	roll	$16, %r14d
	xorl	%r12d, %r14d
	movl	%edi, %edx
	roll	$16, %edx
	xorl	%ecx, %edi
	movl	%r8d, %ecx
	roll	$16, %ecx
	xorl	%edx, %edi
	movl	%ebp, %edx
	roll	$16, %edx
	xorl	%r9d, %r8d
	movl	%r11d, %r9d
	roll	$16, %r9d
	movl	%esi, %r12d
	roll	$16, %r12d
	roll	$16, %ebx
	xorl	%ecx, %r8d
	xorl	%r10d, %ebp
	xorl	%edx, %ebp
	xorl	8(%rsp), %r11d                  # 4-byte Folded Reload
	xorl	%r9d, %r11d
	xorl	%r13d, %esi
	xorl	%r12d, %esi
	xorl	%ebx, %r15d
	movl	%r11d, %ecx
	xorl	%edi, %ecx
	movl	%r14d, %edx
	xorl	%r14d, %edi
	movl	%edi, (%rsp)                    # 4-byte Spill
	movl	16(%rsp), %edi                  # 4-byte Reload
	xorl	%edi, %r14d
	movl	%esi, %r12d
	xorl	%r15d, %r12d
	movl	%ebp, %r9d
	xorl	%esi, %r9d
	movl	%r11d, %eax
	xorl	%r8d, %eax
	xorl	%esi, %edx
	xorl	%edx, %eax
	movl	%eax, 8(%rsp)                   # 4-byte Spill
	movl	%edx, %ebx
	movl	%r9d, %edx
	movl	%r9d, %r13d
	movl	%r9d, 56(%rsp)                  # 4-byte Spill
	xorl	%ecx, %edx
	movl	%edx, 4(%rsp)                   # 4-byte Spill
	xorl	%r15d, %ecx
	movl	%ecx, %r9d
	movl	%ecx, 40(%rsp)                  # 4-byte Spill
	xorl	%ebp, %r15d
	xorl	%r8d, %ebp
	movl	%ebp, %ecx
	xorl	%r14d, %ecx
	movl	%ecx, 20(%rsp)                  # 4-byte Spill
	orl	%eax, %ecx
	movl	%ebp, %r10d
	xorl	%edi, %r10d
	movl	%r10d, 80(%rsp)                 # 4-byte Spill
	andl	%r13d, %r10d
	xorl	%ecx, %r10d
	xorl	%r15d, %esi
	movl	%esi, %edx
	xorl	%r8d, %edx
	movl	%edx, 24(%rsp)                  # 4-byte Spill
	xorl	%edi, %r8d
	movl	%ebp, %ecx
	xorl	(%rsp), %ecx                    # 4-byte Folded Reload
	andl	%ecx, %edx
	movl	%ecx, %edi
	movl	%ecx, 72(%rsp)                  # 4-byte Spill
	movl	%r14d, %eax
	xorl	%r13d, %r14d
	movl	%r14d, %r13d
	xorl	%r8d, %ebx
	movl	%ebx, 16(%rsp)                  # 4-byte Spill
	movl	%r14d, %ecx
	movl	%r14d, 12(%rsp)                 # 4-byte Spill
	andl	%r9d, %ecx
	xorl	%r8d, %ecx
	xorl	%r12d, %r8d
	movl	%r8d, %ebx
	andl	%r12d, %ebx
	movl	%r12d, 28(%rsp)                 # 4-byte Spill
	movl	%edi, %r9d
	xorl	%r8d, %r9d
	movl	%r8d, 48(%rsp)                  # 4-byte Spill
	andl	%ebp, %r9d
	xorl	%r9d, %edx
	xorl	%ebx, %r9d
	xorl	%r12d, %eax
	movl	%eax, 100(%rsp)                 # 4-byte Spill
	movl	4(%rsp), %ebx                   # 4-byte Reload
	andl	%eax, %ebx
	movl	%esi, %r12d
	andl	%r15d, %r12d
	xorl	%ebx, %ecx
	movl	(%rsp), %eax                    # 4-byte Reload
	xorl	%r8d, %eax
	movl	%eax, (%rsp)                    # 4-byte Spill
	xorl	%eax, %r12d
	xorl	%ebx, %r12d
	xorl	%edx, %r10d
	xorl	%edx, %r12d
	movl	20(%rsp), %edx                  # 4-byte Reload
	movl	%edx, %r14d
	andl	8(%rsp), %r14d                  # 4-byte Folded Reload
	movl	%r13d, %edi
	xorl	%r11d, %edi
	xorl	%r11d, %r14d
	movl	%edi, %eax
	movl	16(%rsp), %r8d                  # 4-byte Reload
	andl	%r8d, %eax
	xorl	%eax, %r14d
	xorl	%r9d, %ecx
	xorl	%ebp, %r14d
	xorl	%r9d, %r14d
	movl	%r12d, %r13d
	andl	%r10d, %r13d
	movl	%r13d, %eax
	xorl	%ecx, %eax
	movl	%r14d, %ebx
	xorl	%r10d, %ebx
	movl	%r13d, %r9d
	xorl	%r14d, %r9d
	andl	%ebx, %eax
	xorl	%r14d, %eax
	andl	%r12d, %r14d
	xorl	%ecx, %r12d
	andl	%r12d, %r14d
	andl	%r12d, %r9d
	xorl	%r13d, %r12d
	xorl	%r14d, %r12d
	xorl	%ecx, %r9d
	movl	%r12d, %r14d
	xorl	%r9d, %r14d
	andl	%r14d, %edx
	movl	%edx, 20(%rsp)                  # 4-byte Spill
	andl	8(%rsp), %r14d                  # 4-byte Folded Reload
	movl	%r14d, 68(%rsp)                 # 4-byte Spill
	andl	%r9d, %r8d
	movl	%r8d, 16(%rsp)                  # 4-byte Spill
	movl	%r9d, %r14d
	andl	%edi, %r9d
	movl	%r9d, 88(%rsp)                  # 4-byte Spill
	andl	%r10d, %ecx
	andl	%ebx, %ecx
	xorl	%r13d, %ebx
	xorl	%ecx, %ebx
	xorl	%eax, %r14d
	movl	56(%rsp), %ecx                  # 4-byte Reload
	andl	%r12d, %ecx
	movl	40(%rsp), %r9d                  # 4-byte Reload
	andl	%eax, %r9d
	movl	%r9d, 40(%rsp)                  # 4-byte Spill
	movl	12(%rsp), %edx                  # 4-byte Reload
	andl	%eax, %edx
	movl	80(%rsp), %r8d                  # 4-byte Reload
	andl	%r12d, %r8d
	xorl	%ebx, %r12d
	andl	%ebx, %r15d
	xorl	%ebx, %eax
	andl	%esi, %ebx
	andl	%eax, 4(%rsp)                   # 4-byte Folded Spill
	andl	100(%rsp), %eax                 # 4-byte Folded Reload
	andl	%r14d, %ebp
	movl	(%rsp), %r11d                   # 4-byte Reload
	andl	%r14d, %r11d
	xorl	%r12d, %r14d
	movl	72(%rsp), %edi                  # 4-byte Reload
	andl	%r14d, %edi
	xorl	%r8d, %edi
	xorl	%r8d, %ebx
	andl	24(%rsp), %r14d                 # 4-byte Folded Reload
	andl	%r12d, 48(%rsp)                 # 4-byte Folded Spill
	andl	28(%rsp), %r12d                 # 4-byte Folded Reload
	movl	%r11d, %esi
	xorl	%ecx, %esi
	movl	20(%rsp), %r8d                  # 4-byte Reload
	xorl	%r8d, %esi
	xorl	%ebx, %r11d
	xorl	%r11d, %r8d
	xorl	%ecx, %r11d
	xorl	%r9d, %r15d
	xorl	%r15d, %r11d
	xorl	%edx, %r15d
	xorl	%r12d, %eax
	movq	32(%rsp), %rcx                  # 8-byte Reload
	xorl	-96(%rcx), %ebp
	movl	%edx, %ecx
	xorl	%eax, %ecx
	xorl	%ebp, %ecx
	movl	%ecx, 12(%rsp)                  # 4-byte Spill
	xorl	%esi, %edi
	movq	32(%rsp), %rcx                  # 8-byte Reload
	movl	-92(%rcx), %ecx
	movl	68(%rsp), %r10d                 # 4-byte Reload
	xorl	%r10d, %ecx
	movl	%r14d, %edx
	xorl	%edi, %r14d
	xorl	%ecx, %r14d
	movl	%r14d, 8(%rsp)                  # 4-byte Spill
	movl	4(%rsp), %r9d                   # 4-byte Reload
	movl	%r9d, %ebp
	movl	88(%rsp), %r13d                 # 4-byte Reload
	xorl	%r13d, %ebp
	movl	48(%rsp), %r14d                 # 4-byte Reload
	xorl	%r14d, %edx
	xorl	%edx, %ebx
	xorl	%r15d, %r8d
	xorl	%edx, %r8d
	movl	%edx, %ecx
	xorl	%esi, %ecx
	movq	32(%rsp), %rdx                  # 8-byte Reload
	xorl	-88(%rdx), %esi
	xorl	%ebp, %ebx
	xorl	%esi, %ebx
	movl	%ebx, 24(%rsp)                  # 4-byte Spill
	xorl	%r15d, %ebp
	xorl	%edi, %ebp
	movl	16(%rsp), %edi                  # 4-byte Reload
	xorl	%r10d, %edi
	movq	32(%rsp), %rdx                  # 8-byte Reload
	xorl	-84(%rdx), %r12d
	xorl	%r12d, %ebp
	movq	32(%rsp), %rdx                  # 8-byte Reload
	movl	40(%rsp), %esi                  # 4-byte Reload
	xorl	-80(%rdx), %esi
	xorl	%ecx, %r9d
	xorl	%esi, %r9d
	movl	%r9d, %r15d
	movq	32(%rsp), %rdx                  # 8-byte Reload
	movl	-76(%rdx), %edx
	xorl	%edi, %edx
	movq	32(%rsp), %rsi                  # 8-byte Reload
	xorl	-72(%rsi), %edi
	xorl	%edx, %r8d
	xorl	%r14d, %r11d
	xorl	%eax, %r11d
	xorl	%edi, %r11d
	movq	32(%rsp), %rax                  # 8-byte Reload
	xorl	-68(%rax), %r13d
	xorl	%r10d, %ecx
	xorl	%r13d, %ecx
	movl	12(%rsp), %r10d                 # 4-byte Reload
	movl	%r10d, %eax
	roll	$22, %eax
	movl	%r10d, %edx
	roll	$30, %edx
	andl	$1061109567, %eax               # imm = 0x3F3F3F3F
	andl	$-1061109568, %edx              # imm = 0xC0C0C0C0
	orl	%eax, %edx
	movl	%edx, 28(%rsp)                  # 4-byte Spill
	movl	8(%rsp), %edi                   # 4-byte Reload
	movl	%edi, %eax
	roll	$22, %eax
	roll	$30, %edi
	andl	$1061109567, %eax               # imm = 0x3F3F3F3F
	andl	$-1061109568, %edi              # imm = 0xC0C0C0C0
	movl	24(%rsp), %r13d                 # 4-byte Reload
	movl	%r13d, %edx
	roll	$22, %edx
	orl	%eax, %edi
	roll	$30, %r13d
	andl	$1061109567, %edx               # imm = 0x3F3F3F3F
	movl	%ebp, %eax
	roll	$22, %eax
	andl	$-1061109568, %r13d             # imm = 0xC0C0C0C0
	movl	%ebp, %r9d
	roll	$30, %r9d
	orl	%edx, %r13d
	andl	$1061109567, %eax               # imm = 0x3F3F3F3F
	andl	$-1061109568, %r9d              # imm = 0xC0C0C0C0
	orl	%eax, %r9d
	movl	%r15d, %ebx
	movl	%r15d, 4(%rsp)                  # 4-byte Spill
	movl	%r15d, %eax
	roll	$22, %eax
	roll	$30, %ebx
	andl	$1061109567, %eax               # imm = 0x3F3F3F3F
	andl	$-1061109568, %ebx              # imm = 0xC0C0C0C0
	orl	%eax, %ebx
	movl	%r8d, %r14d
	movl	%r8d, %edx
	roll	$22, %edx
	movl	%r8d, %r12d
	roll	$30, %r12d
	andl	$1061109567, %edx               # imm = 0x3F3F3F3F
	andl	$-1061109568, %r12d             # imm = 0xC0C0C0C0
	movl	%r11d, (%rsp)                   # 4-byte Spill
	movl	%r11d, %esi
	roll	$22, %esi
	orl	%edx, %r12d
	roll	$30, %r11d
	andl	$1061109567, %esi               # imm = 0x3F3F3F3F
	movl	%ecx, %edx
	roll	$22, %edx
	andl	$-1061109568, %r11d             # imm = 0xC0C0C0C0
	movl	%ecx, %r15d
	roll	$30, %r15d
	orl	%esi, %r11d
	andl	$1061109567, %edx               # imm = 0x3F3F3F3F
	andl	$-1061109568, %r15d             # imm = 0xC0C0C0C0
	orl	%edx, %r15d
	movl	28(%rsp), %eax                  # 4-byte Reload
	xorl	%r10d, %eax
	movl	8(%rsp), %r8d                   # 4-byte Reload
	xorl	%r8d, %edi
	movl	24(%rsp), %edx                  # 4-byte Reload
	xorl	%edx, %r13d
	xorl	%ebp, %r9d
	movl	%r9d, 16(%rsp)                  # 4-byte Spill
	movl	4(%rsp), %esi                   # 4-byte Reload
	xorl	%esi, %ebx
	xorl	%r14d, %r12d
	movl	(%rsp), %r9d                    # 4-byte Reload
	xorl	%r9d, %r11d
	xorl	%ecx, %r15d
	xorl	%r15d, %r10d
	movl	%r10d, 12(%rsp)                 # 4-byte Spill
	xorl	%r15d, %r8d
	xorl	%eax, %r8d
	movl	%r8d, 8(%rsp)                   # 4-byte Spill
	movl	%eax, %r8d
	xorl	%edi, %edx
	movl	%edx, %eax
	movl	%edx, 24(%rsp)                  # 4-byte Spill
	xorl	%r15d, %ebp
	xorl	%r13d, %ebp
	movl	%ebp, 80(%rsp)                  # 4-byte Spill
	xorl	%r15d, %esi
	movl	%esi, %ebp
	xorl	%ebx, %r14d
	movl	%r14d, 20(%rsp)                 # 4-byte Spill
	movl	%r12d, %edx
	xorl	%r12d, %r9d
	movl	%r9d, %r12d
	xorl	%r11d, %ecx
	xorl	%r10d, %r13d
	xorl	%ecx, %r13d
	xorl	%ecx, %edx
	movl	%edx, 48(%rsp)                  # 4-byte Spill
	xorl	%r14d, %r15d
	movl	%r15d, 72(%rsp)                 # 4-byte Spill
	movl	%r15d, %r10d
	xorl	%ecx, %r15d
	movl	%r15d, 40(%rsp)                 # 4-byte Spill
	movl	%ecx, %edx
	xorl	%r9d, %edx
	movl	%r8d, %r9d
	xorl	%r12d, %r9d
	movl	%r12d, (%rsp)                   # 4-byte Spill
	movl	%edi, %ecx
	xorl	%edx, %ecx
	movl	%r9d, %esi
	movl	%r9d, %edi
	movl	%r9d, 28(%rsp)                  # 4-byte Spill
	roll	$12, %esi
	xorl	%eax, %ebx
	roll	$20, %edi
	xorl	%edx, %ebx
	andl	$252645135, %esi                # imm = 0xF0F0F0F
	andl	$-252645136, %edi               # imm = 0xF0F0F0F0
	orl	%esi, %edi
	movl	%ecx, %esi
	movl	%ecx, 56(%rsp)                  # 4-byte Spill
	movl	%ecx, %edx
	roll	$12, %edx
	roll	$20, %esi
	andl	$252645135, %edx                # imm = 0xF0F0F0F
	andl	$-252645136, %esi               # imm = 0xF0F0F0F0
	orl	%edx, %esi
	movl	%r13d, %edx
	roll	$12, %edx
	movl	%r13d, %r14d
	roll	$20, %r14d
	andl	$252645135, %edx                # imm = 0xF0F0F0F
	andl	$-252645136, %r14d              # imm = 0xF0F0F0F0
	orl	%edx, %r14d
	movl	16(%rsp), %ecx                  # 4-byte Reload
	movl	%ebp, %eax
	xorl	%ecx, %eax
	movl	%eax, 4(%rsp)                   # 4-byte Spill
	xorl	8(%rsp), %ecx                   # 4-byte Folded Reload
	xorl	%r12d, %ecx
	movl	%ecx, 16(%rsp)                  # 4-byte Spill
	movl	%ecx, %edx
	roll	$12, %edx
	movl	%ecx, %r12d
	roll	$20, %r12d
	andl	$252645135, %edx                # imm = 0xF0F0F0F
	andl	$-252645136, %r12d              # imm = 0xF0F0F0F0
	movl	%ebx, %ebp
	roll	$12, %ebp
	orl	%edx, %r12d
	movl	%ebx, %edx
	roll	$20, %edx
	andl	$252645135, %ebp                # imm = 0xF0F0F0F
	andl	$-252645136, %edx               # imm = 0xF0F0F0F0
	orl	%ebp, %edx
	movl	48(%rsp), %r15d                 # 4-byte Reload
	movl	80(%rsp), %r9d                  # 4-byte Reload
	xorl	%r9d, %r15d
	xorl	%eax, %r11d
	movl	%r15d, %ebp
	roll	$12, %ebp
	movl	%r15d, %eax
	roll	$20, %eax
	andl	$252645135, %ebp                # imm = 0xF0F0F0F
	andl	$-252645136, %eax               # imm = 0xF0F0F0F0
	movl	%r11d, %r8d
	roll	$12, %r8d
	orl	%ebp, %eax
	movl	%r11d, %ebp
	roll	$20, %ebp
	andl	$252645135, %r8d                # imm = 0xF0F0F0F
	andl	$-252645136, %ebp               # imm = 0xF0F0F0F0
	movl	72(%rsp), %ecx                  # 4-byte Reload
	roll	$12, %ecx
	orl	%r8d, %ebp
	roll	$20, %r10d
	andl	$252645135, %ecx                # imm = 0xF0F0F0F
	andl	$-252645136, %r10d              # imm = 0xF0F0F0F0
	orl	%ecx, %r10d
	movl	28(%rsp), %r8d                  # 4-byte Reload
	xorl	12(%rsp), %r8d                  # 4-byte Folded Reload
	xorl	%edi, %r8d
	movl	%r8d, %edi
	movl	56(%rsp), %r8d                  # 4-byte Reload
	xorl	8(%rsp), %r8d                   # 4-byte Folded Reload
	xorl	%esi, %r8d
	xorl	24(%rsp), %r13d                 # 4-byte Folded Reload
	xorl	%r14d, %r13d
	movl	16(%rsp), %ecx                  # 4-byte Reload
	xorl	%r9d, %ecx
	xorl	%r12d, %ecx
	movl	%ecx, %r12d
	xorl	4(%rsp), %ebx                   # 4-byte Folded Reload
	xorl	%edx, %ebx
	xorl	20(%rsp), %r15d                 # 4-byte Folded Reload
	xorl	%eax, %r15d
	xorl	(%rsp), %r11d                   # 4-byte Folded Reload
	xorl	%ebp, %r11d
	movl	40(%rsp), %edx                  # 4-byte Reload
	xorl	%r10d, %edx
	movl	%r15d, %eax
	movl	%r15d, %r9d
	movl	%r15d, 48(%rsp)                 # 4-byte Spill
	xorl	%r13d, %eax
	movl	%r8d, %ecx
	xorl	%r8d, %r13d
	movl	%r13d, 12(%rsp)                 # 4-byte Spill
	xorl	%edi, %r8d
	movl	%edi, %r14d
	movl	%r11d, %r13d
	movl	%edx, %r15d
	xorl	%edx, %r13d
	movl	%ebx, %esi
	xorl	%r11d, %esi
	movl	%r9d, %edx
	movl	%r12d, %r9d
	xorl	%r12d, %edx
	xorl	%r11d, %ecx
	movl	%r11d, %r12d
	xorl	%ecx, %edx
	movl	%edx, 68(%rsp)                  # 4-byte Spill
	movl	%ecx, %r10d
	movl	%esi, %ecx
	xorl	%eax, %ecx
	movl	%ecx, (%rsp)                    # 4-byte Spill
	xorl	%r15d, %eax
	movl	%eax, %r11d
	movl	%eax, 56(%rsp)                  # 4-byte Spill
	xorl	%ebx, %r15d
	xorl	%r9d, %ebx
	movl	%ebx, %ebp
	xorl	%r8d, %ebp
	movl	%ebp, %eax
	orl	%edx, %eax
	movl	%ebx, %ecx
	xorl	%edi, %ecx
	movl	%ecx, 40(%rsp)                  # 4-byte Spill
	movl	%esi, %edi
	movl	%esi, 4(%rsp)                   # 4-byte Spill
	andl	%esi, %ecx
	xorl	%eax, %ecx
	movl	%r12d, %edx
	xorl	%r15d, %edx
	movl	%edx, %esi
	movl	%edx, 88(%rsp)                  # 4-byte Spill
	xorl	%r9d, %esi
	movl	%esi, 80(%rsp)                  # 4-byte Spill
	xorl	%r14d, %r9d
	movl	%ebx, %eax
	movl	12(%rsp), %r14d                 # 4-byte Reload
	xorl	%r14d, %eax
	andl	%eax, %esi
	movl	%eax, %r12d
	movl	%eax, 72(%rsp)                  # 4-byte Spill
	movl	%r8d, 8(%rsp)                   # 4-byte Spill
	xorl	%edi, %r8d
	xorl	%r9d, %r10d
	movl	%r10d, 20(%rsp)                 # 4-byte Spill
	movl	%r8d, %edi
	andl	%r11d, %edi
	xorl	%r9d, %edi
	xorl	%r13d, %r9d
	movl	%r9d, %r10d
	movl	%r9d, %eax
	andl	%r13d, %eax
	movl	%r13d, %r11d
	movl	%r13d, 28(%rsp)                 # 4-byte Spill
	movl	%r12d, %r9d
	xorl	%r10d, %r9d
	movl	%r10d, 16(%rsp)                 # 4-byte Spill
	andl	%ebx, %r9d
	movl	%ebx, %r13d
	movl	%ebx, 24(%rsp)                  # 4-byte Spill
	xorl	%r9d, %esi
	xorl	%eax, %r9d
	movl	8(%rsp), %ebx                   # 4-byte Reload
	xorl	%r11d, %ebx
	movl	%ebx, 8(%rsp)                   # 4-byte Spill
	movl	(%rsp), %eax                    # 4-byte Reload
	andl	%ebx, %eax
	movl	%edx, %ebx
	andl	%r15d, %ebx
	movl	%r15d, %edx
	xorl	%eax, %edi
	movl	%r14d, %r11d
	xorl	%r10d, %r11d
	movl	%r11d, 12(%rsp)                 # 4-byte Spill
	xorl	%r11d, %ebx
	xorl	%eax, %ebx
	xorl	%esi, %ecx
	xorl	%esi, %ebx
	movl	%ebp, %r11d
	movl	68(%rsp), %r14d                 # 4-byte Reload
	andl	%r14d, %r11d
	movl	%r8d, %esi
	movl	48(%rsp), %eax                  # 4-byte Reload
	xorl	%eax, %esi
	xorl	%eax, %r11d
	movl	%esi, %eax
	movl	20(%rsp), %r12d                 # 4-byte Reload
	andl	%r12d, %eax
	xorl	%eax, %r11d
	xorl	%r9d, %edi
	xorl	%r13d, %r11d
	xorl	%r9d, %r11d
	movl	%ebx, %r10d
	andl	%ecx, %r10d
	movl	%r10d, %eax
	xorl	%edi, %eax
	movl	%r11d, %r9d
	xorl	%ecx, %r9d
	movl	%r10d, %r15d
	xorl	%r11d, %r15d
	andl	%r9d, %eax
	xorl	%r11d, %eax
	andl	%ebx, %r11d
	xorl	%edi, %ebx
	andl	%ebx, %r11d
	andl	%ebx, %r15d
	xorl	%r10d, %ebx
	xorl	%r11d, %ebx
	xorl	%edi, %r15d
	movl	%ebx, %r11d
	xorl	%r15d, %r11d
	andl	%r11d, %ebp
	andl	%r14d, %r11d
	andl	%r15d, %r12d
	movl	%r12d, 20(%rsp)                 # 4-byte Spill
	movl	%r15d, %r13d
	andl	%esi, %r15d
	andl	%ecx, %edi
	andl	%r9d, %edi
	xorl	%r10d, %r9d
	xorl	%edi, %r9d
	xorl	%eax, %r13d
	movl	4(%rsp), %edi                   # 4-byte Reload
	andl	%ebx, %edi
	movl	%edi, 4(%rsp)                   # 4-byte Spill
	movl	56(%rsp), %r12d                 # 4-byte Reload
	andl	%eax, %r12d
	andl	%eax, %r8d
	movl	%r8d, 48(%rsp)                  # 4-byte Spill
	movl	40(%rsp), %ecx                  # 4-byte Reload
	andl	%ebx, %ecx
	xorl	%r9d, %ebx
	andl	%r9d, %edx
	movl	%edx, 40(%rsp)                  # 4-byte Spill
	xorl	%r9d, %eax
	andl	88(%rsp), %r9d                  # 4-byte Folded Reload
	andl	%eax, (%rsp)                    # 4-byte Folded Spill
	andl	8(%rsp), %eax                   # 4-byte Folded Reload
	andl	%r13d, 24(%rsp)                 # 4-byte Folded Spill
	movl	12(%rsp), %edx                  # 4-byte Reload
	andl	%r13d, %edx
	xorl	%ebx, %r13d
	movl	72(%rsp), %r10d                 # 4-byte Reload
	andl	%r13d, %r10d
	xorl	%ecx, %r10d
	xorl	%ecx, %r9d
	andl	80(%rsp), %r13d                 # 4-byte Folded Reload
	movl	16(%rsp), %r8d                  # 4-byte Reload
	andl	%ebx, %r8d
	andl	28(%rsp), %ebx                  # 4-byte Folded Reload
	movl	%r11d, %ecx
	xorl	%r15d, %ecx
	movl	%edx, %esi
	xorl	%edi, %esi
	xorl	%ebp, %esi
	movl	(%rsp), %edi                    # 4-byte Reload
	xorl	%edi, %r15d
	xorl	%esi, %r10d
	xorl	%r12d, %edi
	movl	%r13d, %r14d
	xorl	%r8d, %r14d
	xorl	%r14d, %esi
	xorl	%ebx, %eax
	xorl	%r15d, %ebx
	xorl	%r9d, %r15d
	xorl	%esi, %r15d
	xorl	%esi, %edi
	movl	%edi, (%rsp)                    # 4-byte Spill
	xorl	%ecx, %esi
	movq	112(%rsp), %rcx                 # 8-byte Reload
	movl	40(%rsp), %edi                  # 4-byte Reload
	xorl	%r12d, %edi
	xorl	20(%rsp), %edx                  # 4-byte Folded Reload
	xorl	%r11d, %r13d
	xorl	%r11d, %r9d
	movl	24(%rsp), %r11d                 # 4-byte Reload
	xorl	%edx, %r9d
	movl	48(%rsp), %edx                  # 4-byte Reload
	xorl	%edx, %r11d
	xorl	%edi, %edx
	xorl	%edx, %ebp
	xorl	%r14d, %ebp
	xorl	%edx, %ebx
	movq	32(%rsp), %rdx                  # 8-byte Reload
	xorl	%r10d, %r13d
	xorl	%r10d, %ebx
	movl	%edi, %r10d
	xorl	4(%rsp), %r10d                  # 4-byte Folded Reload
	xorl	%r8d, %r10d
	xorl	%eax, %r11d
	xorl	%eax, %r10d
	xorl	%r9d, %ebp
	xorl	%r9d, %r10d
	addq	$-128, %rdx
	decq	%rcx
	jne	.Laes_v1_BB24_5
.Laes_v1_BB24_6:                               # %"aes_soft::soft::ciphers::planes::DecryptPlaneCipher::process_planes::<#42add9d049d0c5fd>.exit"
	movq	104(%rsp), %rax                 # 8-byte Reload
	xorl	(%rax), %r11d
	xorl	4(%rax), %r13d
	xorl	8(%rax), %r15d
	xorl	12(%rax), %ebx
	movl	(%rsp), %r12d                   # 4-byte Reload
	xorl	16(%rax), %r12d
	xorl	20(%rax), %ebp
	xorl	24(%rax), %r10d
	xorl	28(%rax), %esi
	movl	%r11d, %eax
	shrl	%eax
	xorl	%r13d, %eax
	andl	$1431655765, %eax               # imm = 0x55555555
	leal	(%rax,%rax), %r9d
	movl	%r15d, %edi
	shrl	%edi
	xorl	%ebx, %edi
	andl	$1431655765, %edi               # imm = 0x55555555
	movl	%ebp, %edx
	movl	%ebp, 4(%rsp)                   # 4-byte Spill
	leal	(%rdi,%rdi), %ebp
	movl	%r12d, %ecx
	shrl	%ecx
	xorl	%edx, %ecx
	andl	$1431655765, %ecx               # imm = 0x55555555
	movl	%r11d, %edx
	leal	(%rcx,%rcx), %r11d
	xorl	%edx, %r9d
	movl	%r10d, %edx
	shrl	%edx
	xorl	%esi, %edx
	andl	$1431655765, %edx               # imm = 0x55555555
	xorl	%r15d, %ebp
	leal	(%rdx,%rdx), %r14d
	xorl	%r12d, %r11d
	xorl	%r10d, %r14d
	movl	%r9d, %r8d
	shrl	$2, %r8d
	xorl	%ebp, %r8d
	andl	$858993459, %r8d                # imm = 0x33333333
	leal	(,%r8,4), %r10d
	xorl	%ebp, %r8d
	xorl	%r9d, %r10d
	movl	%r11d, %r9d
	shrl	$2, %r9d
	xorl	%r14d, %r9d
	andl	$858993459, %r9d                # imm = 0x33333333
	leal	(,%r9,4), %ebp
	xorl	%r14d, %r9d
	xorl	%r11d, %ebp
	movd	%r8d, %xmm0
                                        # kill: def $r8d killed $r8d killed $r8
	shrl	$4, %r8d
	xorl	%r9d, %r8d
	movd	%r8d, %xmm3
	movd	%r10d, %xmm1
	shrl	$4, %r10d
	xorl	%ebp, %r10d
	movd	%r10d, %xmm4
	movd	%r9d, %xmm5
	movd	%ebp, %xmm2
	xorl	%r13d, %eax
	xorl	%ebx, %edi
	xorl	4(%rsp), %ecx                   # 4-byte Folded Reload
	xorl	%esi, %edx
	movl	%eax, %esi
	shrl	$2, %esi
	xorl	%edi, %esi
	andl	$858993459, %esi                # imm = 0x33333333
	leal	(,%rsi,4), %r8d
	xorl	%edi, %esi
	xorl	%eax, %r8d
	movl	%ecx, %eax
	shrl	$2, %eax
	xorl	%edx, %eax
	andl	$858993459, %eax                # imm = 0x33333333
	leal	(,%rax,4), %edi
	xorl	%edx, %eax
	xorl	%ecx, %edi
	movd	%esi, %xmm6
	movl	%esi, %ecx
	shrl	$4, %ecx
	xorl	%eax, %ecx
	movd	%ecx, %xmm7
	movd	%r8d, %xmm8
	shrl	$4, %r8d
	xorl	%edi, %r8d
	movd	%r8d, %xmm9
	movd	%eax, %xmm10
	movd	%edi, %xmm11
	punpckldq	%xmm3, %xmm4            # xmm4 = xmm4[0],xmm3[0],xmm4[1],xmm3[1]
	movdqa	.Laes_v1_CPI24_0(%rip), %xmm3          # xmm3 = [252645135,252645135,u,u]
	pand	%xmm3, %xmm4
	movdqa	%xmm4, %xmm12
	pslld	$4, %xmm12
	punpcklqdq	%xmm4, %xmm12           # xmm12 = xmm12[0],xmm4[0]
	punpckldq	%xmm5, %xmm2            # xmm2 = xmm2[0],xmm5[0],xmm2[1],xmm5[1]
	punpckldq	%xmm0, %xmm1            # xmm1 = xmm1[0],xmm0[0],xmm1[1],xmm0[1]
	punpcklqdq	%xmm2, %xmm1            # xmm1 = xmm1[0],xmm2[0]
	pxor	%xmm12, %xmm1
	movq	128(%rsp), %rax                 # 8-byte Reload
	movdqu	%xmm1, (%rax)
	punpckldq	%xmm7, %xmm9            # xmm9 = xmm9[0],xmm7[0],xmm9[1],xmm7[1]
	pand	%xmm3, %xmm9
	movdqa	%xmm9, %xmm0
	pslld	$4, %xmm0
	punpcklqdq	%xmm9, %xmm0            # xmm0 = xmm0[0],xmm9[0]
	punpckldq	%xmm10, %xmm11          # xmm11 = xmm11[0],xmm10[0],xmm11[1],xmm10[1]
	punpckldq	%xmm6, %xmm8            # xmm8 = xmm8[0],xmm6[0],xmm8[1],xmm6[1]
	punpcklqdq	%xmm11, %xmm8           # xmm8 = xmm8[0],xmm11[0]
	pxor	%xmm0, %xmm8
	movdqu	%xmm8, 16(%rax)
	addq	$136, %rsp
	popq	%rbx
	popq	%r12
	popq	%r13
	popq	%r14
	popq	%r15
	popq	%rbp
	retq
	.seh_endproc
                                        # -- End function
	.def	aes_v1.aes_narrow.blocks.process_all_batches.2;
	.scl	3;
	.type	32;
	.endef
	.p2align	4                               # -- Begin function aes_narrow::blocks::process_all_batches::<#a3dcb71d05bd149b>
aes_v1.aes_narrow.blocks.process_all_batches.2: # @aes_v1.aes_narrow.blocks.process_all_batches.2
.seh_proc aes_v1.aes_narrow.blocks.process_all_batches.2
# %bb.0:                                # %start
	pushq	%r15
	.seh_pushreg %r15
	pushq	%r14
	.seh_pushreg %r14
	pushq	%r13
	.seh_pushreg %r13
	pushq	%r12
	.seh_pushreg %r12
	pushq	%rbx
	.seh_pushreg %rbx
	.seh_endprologue
	testq	%rcx, %rcx
	je	.Laes_v1_BB25_3
# %bb.1:                                # %join.5.preheader
	movq	%rcx, %rbx
	movq	%rdx, %r14
	movq	%rsi, %r15
	movq	%rdi, %r12
	xorl	%edx, %edx
	.p2align	4
.Laes_v1_BB25_2:                               # %join.5
                                        # =>This Inner Loop Header: Depth=1
	movq	%rbx, %rax
	subq	%rdx, %rax
	cmpq	$2, %rax
	movl	$2, %ecx
	cmovbq	%rax, %rcx
	leaq	(%rcx,%rdx), %r13
	shlq	$4, %rdx
	addq	%r14, %rdx
	movq	%r12, %rdi
	movq	%r15, %rsi
	callq	aes_v1.aes_soft.soft.blocks.filled_up.process_filled_up.2
	movq	%r13, %rdx
	cmpq	%rbx, %r13
	jb	.Laes_v1_BB25_2
.Laes_v1_BB25_3:                               # %after.1
	popq	%rbx
	popq	%r12
	popq	%r13
	popq	%r14
	popq	%r15
	retq
	.seh_endproc
                                        # -- End function
	.def	aes_v1.key_wrap.wrapping.unwrap;
	.scl	3;
	.type	32;
	.endef
	.p2align	4                               # -- Begin function key_wrap::wrapping::unwrap::<#10c636071cb6e37c>
aes_v1.key_wrap.wrapping.unwrap: # @aes_v1.key_wrap.wrapping.unwrap
.seh_proc aes_v1.key_wrap.wrapping.unwrap
# %bb.0:                                # %start
	pushq	%r14
	.seh_pushreg %r14
	pushq	%rbx
	.seh_pushreg %rbx
	subq	$56, %rsp
	.seh_stackalloc 56
	.seh_endprologue
	movq	%rcx, %r14
	movq	%rdx, %rax
	leaq	-2(%r8), %rcx
	movabsq	$18014398509481981, %rdx        # imm = 0x3FFFFFFFFFFFFD
	cmpq	%rdx, %rcx
	seta	%cl
	leaq	1(%r8), %rdx
	cmpq	%rdx, %rax
	setne	%dl
	orb	%cl, %dl
	jne	.Laes_v1_BB26_5
# %bb.1:                                # %after.1
	movq	%r8, %rbx
	leaq	8(%rsi), %rdx
	leaq	-8(,%rax,8), %r8
	movq	%r14, %rcx
	subq	%rdx, %rcx
	cmpq	%r8, %rcx
	jae	.Laes_v1_BB26_7
# %bb.2:                                # %loop.4.preheader.i.i.i.i.i.i.i.i
	movq	%rax, %rcx
	decq	%rcx
	je	.Laes_v1_BB26_18
# %bb.3:                                # %join.7.i.i.i.i.i.i.i.i.preheader
	cmpq	$6, %rcx
	jb	.Laes_v1_BB26_4
# %bb.8:                                # %vector.memcheck
	movq	%r14, %r8
	subq	%rsi, %r8
	addq	$-8, %r8
	cmpq	$32, %r8
	jae	.Laes_v1_BB26_10
.Laes_v1_BB26_4:
	xorl	%r8d, %r8d
.Laes_v1_BB26_13:                              # %join.7.i.i.i.i.i.i.i.i.preheader10
	movq	%rax, %r9
	subq	%r8, %r9
	addq	$-2, %r9
	movl	%eax, %r10d
	andl	$3, %r10d
	cmpl	$1, %r10d
	je	.Laes_v1_BB26_16
# %bb.14:                               # %join.7.i.i.i.i.i.i.i.i.prol.preheader
	decl	%eax
	andl	$3, %eax
	.p2align	4
.Laes_v1_BB26_15:                              # %join.7.i.i.i.i.i.i.i.i.prol
                                        # =>This Inner Loop Header: Depth=1
	movq	(%rdx,%r8,8), %r10
	movq	%r10, (%r14,%r8,8)
	incq	%r8
	decq	%rax
	jne	.Laes_v1_BB26_15
.Laes_v1_BB26_16:                              # %join.7.i.i.i.i.i.i.i.i.prol.loopexit
	cmpq	$3, %r9
	jb	.Laes_v1_BB26_18
	.p2align	4
.Laes_v1_BB26_17:                              # %join.7.i.i.i.i.i.i.i.i
                                        # =>This Inner Loop Header: Depth=1
	movq	8(%rsi,%r8,8), %rax
	movq	%rax, (%r14,%r8,8)
	movq	16(%rsi,%r8,8), %rax
	movq	%rax, 8(%r14,%r8,8)
	movq	24(%rsi,%r8,8), %rax
	movq	%rax, 16(%r14,%r8,8)
	movq	32(%rsi,%r8,8), %rax
	movq	%rax, 24(%r14,%r8,8)
	addq	$4, %r8
	cmpq	%r8, %rcx
	jne	.Laes_v1_BB26_17
	jmp	.Laes_v1_BB26_18
.Laes_v1_BB26_5:
	movb	$1, %al
	xorl	%edx, %edx
                                        # kill: def $al killed $al killed $eax
                                        # kill: def $dl killed $dl killed $edx
	addq	$56, %rsp
	popq	%rbx
	popq	%r14
	retq
.Laes_v1_BB26_7:                               # %apart.2.i.i.i.i.i.i.i.i
	movq	%r14, %rcx
	callq	memmove
.Laes_v1_BB26_18:                              # %"key_wrap::wrapping::unwrap_all::<#10c636071cb6e37c>.exit"
	movq	(%rsi), %rax
	movq	%rax, 40(%rsp)
	leaq	40(%rsp), %rsi
	movq	%r14, %rdx
	movq	%rbx, %rcx
	callq	aes_v1.key_wrap.steps.unwrap_in_place
	movq	40(%rsp), %rax
	movq	%rax, 40(%rsp)
	movabsq	$-6438275382588823898, %rax     # imm = 0xA6A6A6A6A6A6A6A6
	movq	%rax, 48(%rsp)
	leaq	.Laes_v1_static.2(%rip), %rsi
	leaq	40(%rsp), %rdi
	callq	aes_v1.aes_cipher.blocks.difference
	testl	%eax, %eax
	je	.Laes_v1_BB26_20
# %bb.19:                               # %loop.5.preheader.i
	leaq	-8(,%rbx,8), %r8
	movq	%r14, %rcx
	xorl	%edx, %edx
	callq	memset
	movq	$0, -8(%r14,%rbx,8)
	movb	$1, %dl
	movb	$1, %al
                                        # kill: def $al killed $al killed $eax
                                        # kill: def $dl killed $dl killed $edx
	addq	$56, %rsp
	popq	%rbx
	popq	%r14
	retq
.Laes_v1_BB26_20:
	xorl	%edx, %edx
	xorl	%eax, %eax
                                        # kill: def $al killed $al killed $eax
                                        # kill: def $dl killed $dl killed $edx
	addq	$56, %rsp
	popq	%rbx
	popq	%r14
	retq
.Laes_v1_BB26_10:                              # %vector.ph
	movq	%rcx, %r8
	andq	$-4, %r8
	xorl	%r9d, %r9d
	.p2align	4
.Laes_v1_BB26_11:                              # %vector.body
                                        # =>This Inner Loop Header: Depth=1
	movups	8(%rsi,%r9,8), %xmm0
	movups	24(%rsi,%r9,8), %xmm1
	movups	%xmm0, (%r14,%r9,8)
	movups	%xmm1, 16(%r14,%r9,8)
	addq	$4, %r9
	cmpq	%r9, %r8
	jne	.Laes_v1_BB26_11
# %bb.12:                               # %middle.block
	cmpq	%r8, %rcx
	je	.Laes_v1_BB26_18
	jmp	.Laes_v1_BB26_13
	.seh_endproc
                                        # -- End function
	.def	aes_v1.key_wrap.steps.unwrap_in_place;
	.scl	3;
	.type	32;
	.endef
	.p2align	4                               # -- Begin function key_wrap::steps::unwrap_in_place::<#10c636071cb6e37c>
aes_v1.key_wrap.steps.unwrap_in_place: # @aes_v1.key_wrap.steps.unwrap_in_place
.seh_proc aes_v1.key_wrap.steps.unwrap_in_place
# %bb.0:                                # %start
	pushq	%rbp
	.seh_pushreg %rbp
	pushq	%r15
	.seh_pushreg %r15
	pushq	%r14
	.seh_pushreg %r14
	pushq	%r13
	.seh_pushreg %r13
	pushq	%r12
	.seh_pushreg %r12
	pushq	%rbx
	.seh_pushreg %rbx
	subq	$40, %rsp
	.seh_stackalloc 40
	.seh_endprologue
	testq	%rcx, %rcx
	je	.Laes_v1_BB27_13
# %bb.1:                                # %join.5.preheader
	movq	%rdx, %r14
	movq	%rsi, %r15
	movq	%rdi, %r12
	leaq	(%rcx,%rcx), %rax
	movq	%rax, 32(%rsp)                  # 8-byte Spill
	leaq	(%rax,%rax,2), %rbp
	movq	%rcx, 24(%rsp)                  # 8-byte Spill
	movq	%rcx, %rbx
	.p2align	4
.Laes_v1_BB27_2:                               # %join.5.i
                                        # =>This Inner Loop Header: Depth=1
	movq	%rbp, %rax
	bswapq	%rax
	xorq	(%r15), %rax
	movq	%rax, (%r15)
	movq	-8(%r14,%rbx,8), %rcx
	movq	%rax, 8(%rsp)
	movq	%rcx, 16(%rsp)
	movq	(%r12), %rdi
	movq	8(%r12), %rsi
	leaq	8(%rsp), %r13
	movl	$1, %ecx
	movq	%r13, %rdx
	callq	aes_v1.aes_narrow.blocks.process_all_batches.2
	callq	aes_v1.aes_cipher.zeroize.stack.wipe_stack.1024
	movq	8(%rsp), %rax
	movq	16(%rsp), %rcx
	movq	%rax, (%r15)
	movq	%rcx, -8(%r14,%rbx,8)
	movq	%r13, %rdi
	callq	aes_v1.aes_cipher.zeroize.elements.zeroize_elements.3
	decq	%rbp
	decq	%rbx
	jne	.Laes_v1_BB27_2
# %bb.3:                                # %"key_wrap::steps::unwrap_turn::<#10c636071cb6e37c>.exit.loopexit"
	movq	24(%rsp), %rbx                  # 8-byte Reload
	leaq	(%rbx,%rbx,4), %rbp
	.p2align	4
.Laes_v1_BB27_4:                               # %join.5.i.1
                                        # =>This Inner Loop Header: Depth=1
	movq	%rbp, %rax
	bswapq	%rax
	xorq	(%r15), %rax
	movq	%rax, (%r15)
	movq	-8(%r14,%rbx,8), %rcx
	movq	%rax, 8(%rsp)
	movq	%rcx, 16(%rsp)
	movq	(%r12), %rdi
	movq	8(%r12), %rsi
	leaq	8(%rsp), %r13
	movl	$1, %ecx
	movq	%r13, %rdx
	callq	aes_v1.aes_narrow.blocks.process_all_batches.2
	callq	aes_v1.aes_cipher.zeroize.stack.wipe_stack.1024
	movq	8(%rsp), %rax
	movq	16(%rsp), %rcx
	movq	%rax, (%r15)
	movq	%rcx, -8(%r14,%rbx,8)
	movq	%r13, %rdi
	callq	aes_v1.aes_cipher.zeroize.elements.zeroize_elements.3
	decq	%rbp
	decq	%rbx
	jne	.Laes_v1_BB27_4
# %bb.5:                                # %"key_wrap::steps::unwrap_turn::<#10c636071cb6e37c>.exit.loopexit.1"
	movq	24(%rsp), %rbx                  # 8-byte Reload
	leaq	(,%rbx,4), %rbp
	.p2align	4
.Laes_v1_BB27_6:                               # %join.5.i.2
                                        # =>This Inner Loop Header: Depth=1
	movq	%rbp, %rax
	bswapq	%rax
	xorq	(%r15), %rax
	movq	%rax, (%r15)
	movq	-8(%r14,%rbx,8), %rcx
	movq	%rax, 8(%rsp)
	movq	%rcx, 16(%rsp)
	movq	(%r12), %rdi
	movq	8(%r12), %rsi
	leaq	8(%rsp), %r13
	movl	$1, %ecx
	movq	%r13, %rdx
	callq	aes_v1.aes_narrow.blocks.process_all_batches.2
	callq	aes_v1.aes_cipher.zeroize.stack.wipe_stack.1024
	movq	8(%rsp), %rax
	movq	16(%rsp), %rcx
	movq	%rax, (%r15)
	movq	%rcx, -8(%r14,%rbx,8)
	movq	%r13, %rdi
	callq	aes_v1.aes_cipher.zeroize.elements.zeroize_elements.3
	decq	%rbp
	decq	%rbx
	jne	.Laes_v1_BB27_6
# %bb.7:                                # %"key_wrap::steps::unwrap_turn::<#10c636071cb6e37c>.exit.loopexit.2"
	movq	24(%rsp), %rbx                  # 8-byte Reload
	leaq	(%rbx,%rbx,2), %rbp
	.p2align	4
.Laes_v1_BB27_8:                               # %join.5.i.3
                                        # =>This Inner Loop Header: Depth=1
	movq	%rbp, %rax
	bswapq	%rax
	xorq	(%r15), %rax
	movq	%rax, (%r15)
	movq	-8(%r14,%rbx,8), %rcx
	movq	%rax, 8(%rsp)
	movq	%rcx, 16(%rsp)
	movq	(%r12), %rdi
	movq	8(%r12), %rsi
	leaq	8(%rsp), %r13
	movl	$1, %ecx
	movq	%r13, %rdx
	callq	aes_v1.aes_narrow.blocks.process_all_batches.2
	callq	aes_v1.aes_cipher.zeroize.stack.wipe_stack.1024
	movq	8(%rsp), %rax
	movq	16(%rsp), %rcx
	movq	%rax, (%r15)
	movq	%rcx, -8(%r14,%rbx,8)
	movq	%r13, %rdi
	callq	aes_v1.aes_cipher.zeroize.elements.zeroize_elements.3
	decq	%rbp
	decq	%rbx
	jne	.Laes_v1_BB27_8
# %bb.9:                                # %"key_wrap::steps::unwrap_turn::<#10c636071cb6e37c>.exit.loopexit.3"
	movq	24(%rsp), %rbx                  # 8-byte Reload
	movq	32(%rsp), %rbp                  # 8-byte Reload
	.p2align	4
.Laes_v1_BB27_10:                              # %join.5.i.4
                                        # =>This Inner Loop Header: Depth=1
	movq	%rbp, %rax
	bswapq	%rax
	xorq	(%r15), %rax
	movq	%rax, (%r15)
	movq	-8(%r14,%rbx,8), %rcx
	movq	%rax, 8(%rsp)
	movq	%rcx, 16(%rsp)
	movq	(%r12), %rdi
	movq	8(%r12), %rsi
	leaq	8(%rsp), %r13
	movl	$1, %ecx
	movq	%r13, %rdx
	callq	aes_v1.aes_narrow.blocks.process_all_batches.2
	callq	aes_v1.aes_cipher.zeroize.stack.wipe_stack.1024
	movq	8(%rsp), %rax
	movq	16(%rsp), %rcx
	movq	%rax, (%r15)
	movq	%rcx, -8(%r14,%rbx,8)
	movq	%r13, %rdi
	callq	aes_v1.aes_cipher.zeroize.elements.zeroize_elements.3
	decq	%rbp
	decq	%rbx
	jne	.Laes_v1_BB27_10
# %bb.11:                               # %join.5.i.5.preheader
	movq	24(%rsp), %rbx                  # 8-byte Reload
	.p2align	4
.Laes_v1_BB27_12:                              # %join.5.i.5
                                        # =>This Inner Loop Header: Depth=1
	movq	%rbx, %rax
	bswapq	%rax
	xorq	(%r15), %rax
	movq	%rax, (%r15)
	movq	-8(%r14,%rbx,8), %rcx
	movq	%rax, 8(%rsp)
	movq	%rcx, 16(%rsp)
	movq	(%r12), %rdi
	movq	8(%r12), %rsi
	leaq	8(%rsp), %r13
	movl	$1, %ecx
	movq	%r13, %rdx
	callq	aes_v1.aes_narrow.blocks.process_all_batches.2
	callq	aes_v1.aes_cipher.zeroize.stack.wipe_stack.1024
	movq	8(%rsp), %rax
	movq	16(%rsp), %rcx
	movq	%rax, (%r15)
	movq	%rcx, -8(%r14,%rbx,8)
	movq	%r13, %rdi
	callq	aes_v1.aes_cipher.zeroize.elements.zeroize_elements.3
	decq	%rbx
	jne	.Laes_v1_BB27_12
.Laes_v1_BB27_13:                              # %after.1
	addq	$40, %rsp
	popq	%rbx
	popq	%r12
	popq	%r13
	popq	%r14
	popq	%r15
	popq	%rbp
	retq
	.seh_endproc
                                        # -- End function
	.def	aes_v1.aes_cipher.zeroize.elements.zeroize_elements.3;
	.scl	3;
	.type	32;
	.endef
	.p2align	4                               # -- Begin function aes_cipher::zeroize::elements::zeroize_elements::<#51e2d7e6a2c2e10f>
aes_v1.aes_cipher.zeroize.elements.zeroize_elements.3: # @aes_v1.aes_cipher.zeroize.elements.zeroize_elements.3
.seh_proc aes_v1.aes_cipher.zeroize.elements.zeroize_elements.3
# %bb.0:                                # %start
	subq	$40, %rsp
	.seh_stackalloc 40
	.seh_endprologue
	xorps	%xmm0, %xmm0
	movaps	%xmm0, 16(%rsp)
	movq	$0, 8(%rsp)
	#APP
	#NO_APP
	movq	8(%rsp), %rax
	#APP
	#NO_APP
	testq	%rax, %rax
	je	.Laes_v1_BB28_2
# %bb.1:                                # %"aes_cipher::zeroize::observe::<#b3ccab65b2a1c990>.exit8"
	movaps	16(%rsp), %xmm0
	movups	%xmm0, (%rdi)
	xorl	%eax, %eax
	jmp	.Laes_v1_BB28_3
.Laes_v1_BB28_2:                               # %then.1.i
	movzbl	(%rdi), %eax
	movaps	16(%rsp), %xmm0
	movups	%xmm0, (%rdi)
	andb	(%rdi), %al
	movzbl	%al, %eax
.Laes_v1_BB28_3:                               # %"aes_cipher::zeroize::observe::<#b3ccab65b2a1c990>.exit"
	#APP
	#NO_APP
	xchgq	%rax, 8(%rsp)
	#APP
	#NO_APP
	addq	$40, %rsp
	retq
	.seh_endproc
                                        # -- End function
	.def	aes_v1.aes_cipher.blocks.difference;
	.scl	3;
	.type	32;
	.endef
	.p2align	4                               # -- Begin function aes_cipher::blocks::difference
aes_v1.aes_cipher.blocks.difference:       # @aes_v1.aes_cipher.blocks.difference
# %bb.0:                                # %start
	movdqu	(%rdi), %xmm0
	movdqu	(%rsi), %xmm1
	pxor	%xmm0, %xmm1
	pshufd	$238, %xmm1, %xmm0              # xmm0 = xmm1[2,3,2,3]
	por	%xmm1, %xmm0
	pshufd	$85, %xmm0, %xmm1               # xmm1 = xmm0[1,1,1,1]
	por	%xmm0, %xmm1
	movdqa	%xmm1, %xmm0
	psrld	$16, %xmm0
	por	%xmm1, %xmm0
	movdqa	%xmm0, %xmm1
	psrlw	$8, %xmm1
	por	%xmm0, %xmm1
	movd	%xmm1, %eax
	movzbl	%al, %eax
	retq
                                        # -- End function
	.def	aes_v1.key_wrap.padded.unwrap_padded;
	.scl	3;
	.type	32;
	.endef
	.p2align	4                               # -- Begin function key_wrap::padded::unwrap_padded::<#10c636071cb6e37c>
aes_v1.key_wrap.padded.unwrap_padded: # @aes_v1.key_wrap.padded.unwrap_padded
.seh_proc aes_v1.key_wrap.padded.unwrap_padded
# %bb.0:                                # %start
	pushq	%r15
	.seh_pushreg %r15
	pushq	%r14
	.seh_pushreg %r14
	pushq	%r13
	.seh_pushreg %r13
	pushq	%r12
	.seh_pushreg %r12
	pushq	%rbx
	.seh_pushreg %rbx
	subq	$64, %rsp
	.seh_stackalloc 64
	.seh_endprologue
	movq	%rdi, %rbx
	leaq	-1(%r9), %rax
	cmpq	$536870912, %rax                # imm = 0x20000000
	setb	%al
	leaq	1(%r9), %rdi
	cmpq	%rdi, %rcx
	sete	%dil
	testb	%dil, %al
	je	.Laes_v1_BB30_5
# %bb.1:                                # %after.1
	movq	%r9, %r14
	movq	%r8, %r15
	leaq	8(%rdx), %rax
	leaq	-8(,%rcx,8), %r8
	movq	%r15, %rdi
	subq	%rax, %rdi
	cmpq	%r8, %rdi
	jae	.Laes_v1_BB30_6
# %bb.2:                                # %loop.4.preheader.i.i.i.i.i.i.i
	movq	%rcx, %rdi
	decq	%rdi
	je	.Laes_v1_BB30_17
# %bb.3:                                # %join.7.i.i.i.i.i.i.i.preheader
	cmpq	$6, %rdi
	jb	.Laes_v1_BB30_4
# %bb.7:                                # %vector.memcheck
	movq	%r15, %r8
	subq	%rdx, %r8
	addq	$-8, %r8
	cmpq	$32, %r8
	jae	.Laes_v1_BB30_9
.Laes_v1_BB30_4:
	xorl	%r8d, %r8d
.Laes_v1_BB30_12:                              # %join.7.i.i.i.i.i.i.i.preheader37
	movq	%rcx, %r9
	subq	%r8, %r9
	addq	$-2, %r9
	movl	%ecx, %r10d
	andl	$3, %r10d
	cmpl	$1, %r10d
	je	.Laes_v1_BB30_15
# %bb.13:                               # %join.7.i.i.i.i.i.i.i.prol.preheader
	decl	%ecx
	andl	$3, %ecx
	.p2align	4
.Laes_v1_BB30_14:                              # %join.7.i.i.i.i.i.i.i.prol
                                        # =>This Inner Loop Header: Depth=1
	movq	(%rax,%r8,8), %r10
	movq	%r10, (%r15,%r8,8)
	incq	%r8
	decq	%rcx
	jne	.Laes_v1_BB30_14
.Laes_v1_BB30_15:                              # %join.7.i.i.i.i.i.i.i.prol.loopexit
	cmpq	$3, %r9
	jb	.Laes_v1_BB30_17
	.p2align	4
.Laes_v1_BB30_16:                              # %join.7.i.i.i.i.i.i.i
                                        # =>This Inner Loop Header: Depth=1
	movq	8(%rdx,%r8,8), %rax
	movq	%rax, (%r15,%r8,8)
	movq	16(%rdx,%r8,8), %rax
	movq	%rax, 8(%r15,%r8,8)
	movq	24(%rdx,%r8,8), %rax
	movq	%rax, 16(%r15,%r8,8)
	movq	32(%rdx,%r8,8), %rax
	movq	%rax, 24(%r15,%r8,8)
	addq	$4, %r8
	cmpq	%r8, %rdi
	jne	.Laes_v1_BB30_16
	jmp	.Laes_v1_BB30_17
.Laes_v1_BB30_5:                               # %join.5
	movw	$1, (%rbx)
	jmp	.Laes_v1_BB30_22
.Laes_v1_BB30_6:                               # %apart.2.i.i.i.i.i.i.i
	movq	%r15, %rcx
	movq	%rdx, %rdi
	movq	%rax, %rdx
	callq	memmove
	movq	%rdi, %rdx
.Laes_v1_BB30_17:                              # %"key_wrap::wrapping::copy_apart.exit"
	movq	(%rdx), %rax
	movq	%rax, 40(%rsp)
	cmpq	$1, %r14
	jne	.Laes_v1_BB30_19
# %bb.18:                               # %"key_wrap::steps::unwrap_string::<#10c636071cb6e37c>.exit.thread"
	movq	(%r15), %rcx
	movq	%rax, 48(%rsp)
	movq	%rcx, 56(%rsp)
	movq	(%rsi), %rdi
	movq	8(%rsi), %rsi
	leaq	48(%rsp), %r12
	movl	$1, %ecx
	movq	%r12, %rdx
	callq	aes_v1.aes_narrow.blocks.process_all_batches.2
	callq	aes_v1.aes_cipher.zeroize.stack.wipe_stack.1024
	movq	48(%rsp), %r13
	movq	56(%rsp), %rax
	movq	%rax, (%r15)
	movq	%r12, %rdi
	callq	aes_v1.aes_cipher.zeroize.elements.zeroize_elements.3
	movq	%r13, %r12
	shrq	$32, %r12
	movl	%r13d, %edi
	movl	%r12d, %esi
	movq	%r15, %rdx
	movq	%r14, %rcx
	callq	aes_v1.key_wrap.padded.difference
	testq	%rax, %rax
	jne	.Laes_v1_BB30_21
	jmp	.Laes_v1_BB30_24
.Laes_v1_BB30_19:                              # %"key_wrap::steps::unwrap_string::<#10c636071cb6e37c>.exit"
	leaq	40(%rsp), %rax
	movq	%rsi, %rdi
	movq	%rax, %rsi
	movq	%r15, %rdx
	movq	%r14, %rcx
	callq	aes_v1.key_wrap.steps.unwrap_in_place
	movl	40(%rsp), %edi
	movl	44(%rsp), %r12d
	movl	%r12d, %esi
	movq	%r15, %rdx
	movq	%r14, %rcx
	callq	aes_v1.key_wrap.padded.difference
	testq	%rax, %rax
	je	.Laes_v1_BB30_24
# %bb.20:                               # %join.8.i.preheader
	leaq	-8(,%r14,8), %r8
	movq	%r15, %rcx
	xorl	%edx, %edx
	callq	memset
.Laes_v1_BB30_21:                              # %"core::slice::edits::slice+T::fill::<#1e8902aced0720be>.exit"
	movq	$0, -8(%r15,%r14,8)
	movw	$257, (%rbx)                    # imm = 0x101
.Laes_v1_BB30_22:                              # %common.ret
	movl	$0, 4(%rbx)
.Laes_v1_BB30_23:                              # %common.ret
	addq	$64, %rsp
	popq	%rbx
	popq	%r12
	popq	%r13
	popq	%r14
	popq	%r15
	retq
.Laes_v1_BB30_24:                              # %join.16
	bswapl	%r12d
	movw	$0, (%rbx)
	movl	%r12d, 4(%rbx)
	jmp	.Laes_v1_BB30_23
.Laes_v1_BB30_9:                               # %vector.ph
	movq	%rdi, %r8
	andq	$-4, %r8
	xorl	%r9d, %r9d
	.p2align	4
.Laes_v1_BB30_10:                              # %vector.body
                                        # =>This Inner Loop Header: Depth=1
	movups	8(%rdx,%r9,8), %xmm0
	movups	24(%rdx,%r9,8), %xmm1
	movups	%xmm0, (%r15,%r9,8)
	movups	%xmm1, 16(%r15,%r9,8)
	addq	$4, %r9
	cmpq	%r9, %r8
	jne	.Laes_v1_BB30_10
# %bb.11:                               # %middle.block
	cmpq	%r8, %rdi
	je	.Laes_v1_BB30_17
	jmp	.Laes_v1_BB30_12
	.seh_endproc
                                        # -- End function
	.def	aes_v1.key_wrap.padded.difference;
	.scl	3;
	.type	32;
	.endef
	.p2align	4                               # -- Begin function key_wrap::padded::difference
aes_v1.key_wrap.padded.difference:         # @aes_v1.key_wrap.padded.difference
.seh_proc aes_v1.key_wrap.padded.difference
# %bb.0:                                # %start
	pushq	%rbp
	.seh_pushreg %rbp
	pushq	%r15
	.seh_pushreg %r15
	pushq	%r14
	.seh_pushreg %r14
	pushq	%r13
	.seh_pushreg %r13
	pushq	%r12
	.seh_pushreg %r12
	pushq	%rbx
	.seh_pushreg %rbx
	subq	$24, %rsp
	.seh_stackalloc 24
	.seh_endprologue
	movq	%rcx, %r14
	movq	%rdx, %r15
                                        # kill: def $esi killed $esi def $rsi
                                        # kill: def $edi killed $edi def $rdi
	bswapl	%edi
	movq	%rdi, 16(%rsp)                  # 8-byte Spill
	bswapl	%esi
	leaq	(,%rcx,8), %rax
	subq	%rsi, %rax
	movq	%rax, 8(%rsp)                   # 8-byte Spill
	movl	%eax, %ebp
	andl	$7, %ebp
	movzbl	-1(%rdx,%rcx,8), %ebx
	xorl	%edi, %edi
	movl	%ebp, %esi
	callq	aes_v1.key_wrap.padded.mask_below
	movl	%eax, %r12d
	andb	%bl, %r12b
	movzbl	-2(%r15,%r14,8), %ebx
	movl	$1, %edi
	movl	%ebp, %esi
	callq	aes_v1.key_wrap.padded.mask_below
	movl	%eax, %r13d
	andb	%bl, %r13b
	orb	%r12b, %r13b
	movzbl	-3(%r15,%r14,8), %r12d
	movl	$2, %edi
	movl	%ebp, %esi
	callq	aes_v1.key_wrap.padded.mask_below
	movl	%eax, %ebx
	andb	%r12b, %bl
	movzbl	-4(%r15,%r14,8), %eax
	movb	%al, 7(%rsp)                    # 1-byte Spill
	movl	$3, %edi
	movl	%ebp, %esi
	callq	aes_v1.key_wrap.padded.mask_below
	movl	%eax, %r12d
	andb	7(%rsp), %r12b                  # 1-byte Folded Reload
	orb	%bl, %r12b
	orb	%r13b, %r12b
	movzbl	-5(%r15,%r14,8), %r13d
	movl	$4, %edi
	movl	%ebp, %esi
	callq	aes_v1.key_wrap.padded.mask_below
	movl	%eax, %ebx
	andb	%r13b, %bl
	movzbl	-6(%r15,%r14,8), %eax
	movb	%al, 7(%rsp)                    # 1-byte Spill
	movl	$5, %edi
	movl	%ebp, %esi
	callq	aes_v1.key_wrap.padded.mask_below
	movl	%eax, %r13d
	andb	7(%rsp), %r13b                  # 1-byte Folded Reload
	orb	%bl, %r13b
	movzbl	-7(%r15,%r14,8), %eax
	movb	%al, 7(%rsp)                    # 1-byte Spill
	movl	$6, %edi
	movl	%ebp, %esi
	callq	aes_v1.key_wrap.padded.mask_below
	movl	%eax, %ebx
	andb	7(%rsp), %bl                    # 1-byte Folded Reload
	orb	%r13b, %bl
	orb	%r12b, %bl
	movzbl	-8(%r15,%r14,8), %r14d
	movl	$7, %edi
	movl	%ebp, %esi
	callq	aes_v1.key_wrap.padded.mask_below
	andb	%r14b, %al
	orb	%bl, %al
	movq	16(%rsp), %rdx                  # 8-byte Reload
	addl	$1504093786, %edx               # imm = 0x59A6A65A
	movq	8(%rsp), %rcx                   # 8-byte Reload
	shrq	$3, %rcx
	orq	%rdx, %rcx
	movzbl	%al, %eax
	orq	%rcx, %rax
	addq	$24, %rsp
	popq	%rbx
	popq	%r12
	popq	%r13
	popq	%r14
	popq	%r15
	popq	%rbp
	retq
	.seh_endproc
                                        # -- End function
	.def	aes_v1.key_wrap.padded.mask_below;
	.scl	3;
	.type	32;
	.endef
	.p2align	4                               # -- Begin function key_wrap::padded::mask_below
aes_v1.key_wrap.padded.mask_below:         # @aes_v1.key_wrap.padded.mask_below
# %bb.0:                                # %start
	movl	%edi, %eax
	subl	%esi, %eax
	shrl	$24, %eax
                                        # kill: def $al killed $al killed $eax
	retq
                                        # -- End function
	.def	aes_v1.aes_c.single_rounds.inverse_mixed;
	.scl	3;
	.type	32;
	.endef
	.section	.rdata,"dr"
	.p2align	4, 0x0                          # -- Begin function aes_c::single_rounds::inverse_mixed
.Laes_v1_CPI33_0:
	.long	252645135                       # 0xf0f0f0f
	.long	252645135                       # 0xf0f0f0f
	.zero	4
	.zero	4
	.text
	.p2align	4
aes_v1.aes_c.single_rounds.inverse_mixed:  # @aes_v1.aes_c.single_rounds.inverse_mixed
.seh_proc aes_v1.aes_c.single_rounds.inverse_mixed
# %bb.0:                                # %start
	pushq	%rbp
	.seh_pushreg %rbp
	pushq	%r15
	.seh_pushreg %r15
	pushq	%r14
	.seh_pushreg %r14
	pushq	%r13
	.seh_pushreg %r13
	pushq	%r12
	.seh_pushreg %r12
	pushq	%rbx
	.seh_pushreg %rbx
	subq	$88, %rsp
	.seh_stackalloc 88
	.seh_endprologue
	movq	%rdi, %rsi
	movq	%rdi, 80(%rsp)                  # 8-byte Spill
	leaq	48(%rsp), %rdi
	callq	aes_v1.aes_planes.soft.word.word32.U32Word.in_every_slot
	movl	48(%rsp), %ecx
	movl	52(%rsp), %edi
	movl	%ecx, %r15d
	movl	%ecx, %r8d
	roll	$24, %r15d
	movl	56(%rsp), %r12d
	movl	%r12d, 16(%rsp)                 # 4-byte Spill
	movl	%edi, %ecx
	roll	$24, %ecx
	movl	%ecx, 12(%rsp)                  # 4-byte Spill
	movl	60(%rsp), %r14d
	roll	$24, %r12d
	movl	64(%rsp), %r11d
	movl	%r14d, %eax
	roll	$24, %eax
	movl	%eax, 20(%rsp)                  # 4-byte Spill
	movl	68(%rsp), %esi
	movl	%r11d, %r13d
	roll	$24, %r13d
	movl	72(%rsp), %r10d
	movl	%esi, %r9d
	movl	%esi, %ebp
	roll	$24, %r9d
	movl	%r10d, %ebx
	movl	%r10d, 28(%rsp)                 # 4-byte Spill
	roll	$24, %ebx
	movl	76(%rsp), %edx
	movl	%edx, 24(%rsp)                  # 4-byte Spill
	roll	$24, %edx
	movl	%r8d, %eax
	xorl	%r8d, %r15d
	movl	12(%rsp), %esi                  # 4-byte Reload
	xorl	%edi, %esi
	movl	16(%rsp), %ecx                  # 4-byte Reload
	xorl	%ecx, %r12d
	movl	20(%rsp), %r8d                  # 4-byte Reload
	xorl	%r14d, %r8d
	movl	%r8d, 20(%rsp)                  # 4-byte Spill
	xorl	%r11d, %r13d
	xorl	%ebp, %r9d
	movl	%r9d, 32(%rsp)                  # 4-byte Spill
	xorl	%r10d, %ebx
	movl	24(%rsp), %r10d                 # 4-byte Reload
	xorl	%r10d, %edx
	xorl	%edx, %eax
	movl	%eax, 44(%rsp)                  # 4-byte Spill
	xorl	%r15d, %edi
	xorl	%edx, %edi
	movl	%edi, 12(%rsp)                  # 4-byte Spill
	xorl	%esi, %ecx
	movl	%ecx, 16(%rsp)                  # 4-byte Spill
	movl	%esi, %eax
	xorl	%r12d, %r14d
	xorl	%edx, %r14d
	movl	%r14d, %ecx
	xorl	%r8d, %r11d
	xorl	%edx, %r11d
	movl	%r11d, 40(%rsp)                 # 4-byte Spill
	xorl	%r13d, %ebp
	movl	%ebp, 36(%rsp)                  # 4-byte Spill
	movl	32(%rsp), %r8d                  # 4-byte Reload
	movl	28(%rsp), %r14d                 # 4-byte Reload
	xorl	%r8d, %r14d
	xorl	%ebx, %r10d
	xorl	%r10d, %r12d
	movl	%r10d, %r9d
	xorl	%r10d, %r8d
	movl	%r8d, %edi
	xorl	%ebp, %edx
	movl	%edx, %ebp
	movl	%edx, %esi
	roll	$16, %ebp
	xorl	%r10d, %ebp
	movl	%r14d, %r8d
	xorl	%r14d, %r9d
	movl	%eax, %edx
	xorl	%r9d, %edx
	movl	16(%rsp), %r14d                 # 4-byte Reload
	xorl	%r14d, %r13d
	xorl	%r9d, %r13d
	xorl	%r8d, %r15d
	movl	44(%rsp), %eax                  # 4-byte Reload
	xorl	%eax, %r12d
	movl	%r15d, %r9d
	xorl	%eax, %r15d
	roll	$16, %r9d
	xorl	%r9d, %r15d
	xorl	%r12d, %r14d
	roll	$16, %r12d
	movl	40(%rsp), %eax                  # 4-byte Reload
	xorl	%eax, %ebx
	xorl	%r13d, %eax
	roll	$16, %r13d
	xorl	%r14d, %r12d
	xorl	%eax, %r13d
	movl	20(%rsp), %r11d                 # 4-byte Reload
	xorl	%r8d, %r11d
	movl	12(%rsp), %eax                  # 4-byte Reload
	xorl	%eax, %r11d
	xorl	%ebx, %r8d
	roll	$16, %ebx
	xorl	%r8d, %ebx
	movl	%edx, %r8d
	roll	$16, %r8d
	xorl	%eax, %r8d
	movl	%r15d, %r9d
	shrl	%r9d
	xorl	%r9d, %r8d
	movl	%edi, %eax
	xorl	%ecx, %eax
	xorl	%edx, %r8d
	movl	%r11d, %r10d
	roll	$16, %r10d
	xorl	%ecx, %r10d
	xorl	%r11d, %r10d
	movl	%r12d, %r9d
	shrl	%r9d
	xorl	%r9d, %r10d
	movl	%eax, %r9d
	roll	$16, %r9d
	xorl	36(%rsp), %r9d                  # 4-byte Folded Reload
	xorl	%eax, %r9d
	movl	%r13d, %r11d
	shrl	%r11d
	xorl	%r11d, %r9d
	xorl	%esi, %ebp
	movl	%ebx, %edi
	shrl	%edi
	xorl	%edi, %ebp
	addl	%r8d, %r8d
	andl	$-1431655766, %r8d              # imm = 0xAAAAAAAA
	xorl	%r15d, %r8d
	addl	%r10d, %r10d
	andl	$-1431655766, %r10d             # imm = 0xAAAAAAAA
	xorl	%r12d, %r10d
	addl	%r9d, %r9d
	andl	$-1431655766, %r9d              # imm = 0xAAAAAAAA
	addl	%ebp, %ebp
	andl	$-1431655766, %ebp              # imm = 0xAAAAAAAA
	xorl	%r13d, %r9d
	xorl	%ebx, %ebp
	movl	%r8d, %ecx
	shrl	$2, %ecx
	xorl	%r10d, %ecx
	andl	$858993459, %ecx                # imm = 0x33333333
	leal	(,%rcx,4), %edx
	xorl	%r10d, %ecx
	xorl	%r8d, %edx
	movl	%r9d, %eax
	shrl	$2, %eax
	xorl	%ebp, %eax
	andl	$858993459, %eax                # imm = 0x33333333
	leal	(,%rax,4), %esi
	xorl	%ebp, %eax
	xorl	%r9d, %esi
	movd	%ecx, %xmm0
	shrl	$4, %ecx
	xorl	%eax, %ecx
	movd	%ecx, %xmm1
	movd	%edx, %xmm2
	shrl	$4, %edx
	xorl	%esi, %edx
	movd	%edx, %xmm3
	movd	%esi, %xmm4
	movd	%eax, %xmm5
	punpckldq	%xmm1, %xmm3            # xmm3 = xmm3[0],xmm1[0],xmm3[1],xmm1[1]
	pand	.Laes_v1_CPI33_0(%rip), %xmm3
	movdqa	%xmm3, %xmm1
	pslld	$4, %xmm1
	punpcklqdq	%xmm3, %xmm1            # xmm1 = xmm1[0],xmm3[0]
	punpckldq	%xmm0, %xmm2            # xmm2 = xmm2[0],xmm0[0],xmm2[1],xmm0[1]
	punpckldq	%xmm5, %xmm4            # xmm4 = xmm4[0],xmm5[0],xmm4[1],xmm5[1]
	punpcklqdq	%xmm4, %xmm2            # xmm2 = xmm2[0],xmm4[0]
	pxor	%xmm1, %xmm2
	movq	80(%rsp), %rax                  # 8-byte Reload
	movdqu	%xmm2, (%rax)
	addq	$88, %rsp
	popq	%rbx
	popq	%r12
	popq	%r13
	popq	%r14
	popq	%r15
	popq	%rbp
	retq
	.seh_endproc
                                        # -- End function
	.def	aes_v1.aes_c.single_rounds.inverse_round;
	.scl	3;
	.type	32;
	.endef
	.p2align	4                               # -- Begin function aes_c::single_rounds::inverse_round
aes_v1.aes_c.single_rounds.inverse_round:  # @aes_v1.aes_c.single_rounds.inverse_round
.seh_proc aes_v1.aes_c.single_rounds.inverse_round
# %bb.0:                                # %start
	pushq	%rbp
	.seh_pushreg %rbp
	pushq	%r15
	.seh_pushreg %r15
	pushq	%r14
	.seh_pushreg %r14
	pushq	%r13
	.seh_pushreg %r13
	pushq	%r12
	.seh_pushreg %r12
	pushq	%rbx
	.seh_pushreg %rbx
	subq	$120, %rsp
	.seh_stackalloc 120
	.seh_endprologue
	movq	%rsi, 104(%rsp)                 # 8-byte Spill
	movq	%rdi, %rsi
	movq	%rdi, 112(%rsp)                 # 8-byte Spill
	leaq	72(%rsp), %rdi
	callq	aes_v1.aes_planes.soft.word.word32.U32Word.in_every_slot
	movl	72(%rsp), %edi
	movl	76(%rsp), %ebx
	movl	80(%rsp), %r13d
	movl	88(%rsp), %r9d
	movl	92(%rsp), %edx
	movl	96(%rsp), %ecx
	movl	100(%rsp), %r10d
	notl	%edx
	movl	%edx, %r15d
	movl	%edx, 36(%rsp)                  # 4-byte Spill
	movl	%ecx, %ebp
	notl	%ebp
	movl	%r13d, %r11d
	movl	%ecx, %edx
	xorl	%ebx, %edx
	movl	%edx, %r8d
	movl	%edx, 12(%rsp)                  # 4-byte Spill
	xorl	%ebx, %r13d
	xorl	%edi, %ebx
	notl	%edi
	movl	%r10d, %eax
	xorl	%ebp, %eax
	movl	%r9d, %edx
	movl	%r9d, %r14d
	movl	%ebp, %r9d
	xorl	%ebp, %r14d
	movl	%r10d, 4(%rsp)                  # 4-byte Spill
	xorl	%edx, %r10d
	movl	%r10d, 20(%rsp)                 # 4-byte Spill
	movl	%edx, %esi
	xorl	%r10d, %r9d
	movl	%r9d, 64(%rsp)                  # 4-byte Spill
	movl	84(%rsp), %edx
	movl	%r9d, %r10d
	xorl	%edx, %r10d
	movl	%r10d, 60(%rsp)                 # 4-byte Spill
	xorl	%edx, %esi
	movl	%esi, %r9d
	movl	%esi, %ebp
	xorl	%edi, %r9d
	movl	%r9d, %esi
	movl	%r9d, 52(%rsp)                  # 4-byte Spill
	xorl	%edx, %edi
	xorl	%r15d, %edx
	xorl	%r8d, %edx
	movl	%edx, 32(%rsp)                  # 4-byte Spill
	movl	%ebp, %r9d
	xorl	%ebx, %r9d
	movl	%r9d, 8(%rsp)                   # 4-byte Spill
	movl	%edx, %r8d
	orl	%r9d, %r8d
	movl	%r14d, %r9d
	andl	%esi, %r9d
	xorl	%r8d, %r9d
	movl	%r13d, %r12d
	notl	%r12d
	movl	%ebp, %edx
	movl	%ebp, 24(%rsp)                  # 4-byte Spill
	xorl	%r12d, %edx
	movl	%edx, 56(%rsp)                  # 4-byte Spill
	movl	%r12d, 16(%rsp)                 # 4-byte Spill
	movl	%r10d, %r8d
	andl	%edx, %r8d
	movl	%eax, %esi
	movl	%eax, %r15d
	xorl	%edi, %r15d
	movl	%r15d, %r10d
	andl	%eax, %r10d
	movl	%eax, 68(%rsp)                  # 4-byte Spill
	xorl	%r15d, %r13d
	movl	%r15d, 40(%rsp)                 # 4-byte Spill
	andl	%ebp, %r13d
	xorl	%r13d, %r8d
	xorl	%r10d, %r13d
	xorl	%ebx, %esi
	movl	%esi, 48(%rsp)                  # 4-byte Spill
	movl	36(%rsp), %ebp                  # 4-byte Reload
	xorl	%ebp, %r11d
	movl	4(%rsp), %eax                   # 4-byte Reload
	xorl	%r11d, %eax
	movl	%eax, 4(%rsp)                   # 4-byte Spill
	movl	%r14d, 28(%rsp)                 # 4-byte Spill
	xorl	%r14d, %ebx
	movl	12(%rsp), %edx                  # 4-byte Reload
	xorl	%edi, %edx
	movl	%ebx, %r10d
	andl	%eax, %r10d
	xorl	%edi, %r10d
	xorl	%r14d, %r11d
	movl	%r11d, 44(%rsp)                 # 4-byte Spill
	andl	%r11d, %esi
	andl	20(%rsp), %ecx                  # 4-byte Folded Reload
	xorl	%esi, %r10d
	xorl	%r12d, %ecx
	xorl	%r15d, %ecx
	xorl	%esi, %ecx
	xorl	%r8d, %r9d
	xorl	%r8d, %ecx
	movl	32(%rsp), %r11d                 # 4-byte Reload
	movl	8(%rsp), %r15d                  # 4-byte Reload
	andl	%r15d, %r11d
	movl	%ebx, %r14d
	xorl	%ebp, %r14d
	xorl	%ebp, %r11d
	movl	%r14d, %esi
	andl	%edx, %esi
	xorl	%esi, %r11d
	xorl	%r13d, %r10d
	movl	24(%rsp), %r12d                 # 4-byte Reload
	xorl	%r12d, %r11d
	xorl	%r13d, %r11d
	movl	%ecx, %r8d
	andl	%r9d, %r8d
	movl	%r8d, %edi
	xorl	%r10d, %edi
	movl	%r11d, %eax
	xorl	%r9d, %eax
	movl	%r8d, %esi
	xorl	%r11d, %esi
	andl	%eax, %edi
	xorl	%r11d, %edi
	andl	%ecx, %r11d
	xorl	%r10d, %ecx
	andl	%ecx, %r11d
	andl	%ecx, %esi
	xorl	%r8d, %ecx
	xorl	%r11d, %ecx
	xorl	%r10d, %esi
	movl	%ecx, %r11d
	xorl	%esi, %r11d
	andl	%r11d, %r15d
	movl	%r15d, 8(%rsp)                  # 4-byte Spill
	andl	32(%rsp), %r11d                 # 4-byte Folded Reload
	andl	%esi, %edx
	movl	%edx, 12(%rsp)                  # 4-byte Spill
	movl	%esi, %edx
	andl	%r14d, %esi
	andl	%r9d, %r10d
	andl	%eax, %r10d
	xorl	%r8d, %eax
	xorl	%r10d, %eax
	xorl	%edi, %edx
	movl	28(%rsp), %r10d                 # 4-byte Reload
	andl	%ecx, %r10d
	movl	%r10d, 28(%rsp)                 # 4-byte Spill
	movl	4(%rsp), %ebp                   # 4-byte Reload
	andl	%edi, %ebp
	andl	%edi, %ebx
	movl	%ebx, 4(%rsp)                   # 4-byte Spill
	movl	52(%rsp), %r9d                  # 4-byte Reload
	andl	%ecx, %r9d
	xorl	%eax, %ecx
	andl	%eax, 20(%rsp)                  # 4-byte Folded Spill
	xorl	%eax, %edi
	andl	64(%rsp), %eax                  # 4-byte Folded Reload
	movl	44(%rsp), %r13d                 # 4-byte Reload
	andl	%edi, %r13d
	andl	48(%rsp), %edi                  # 4-byte Folded Reload
	andl	%edx, %r12d
	movl	%r12d, 24(%rsp)                 # 4-byte Spill
	movl	16(%rsp), %ebx                  # 4-byte Reload
	movl	40(%rsp), %r12d                 # 4-byte Reload
	xorl	%r12d, %ebx
	andl	%edx, %ebx
	movl	%ebx, 16(%rsp)                  # 4-byte Spill
	xorl	%ecx, %edx
	movl	56(%rsp), %r15d                 # 4-byte Reload
	andl	%edx, %r15d
	xorl	%r9d, %r15d
	xorl	%r9d, %eax
	andl	60(%rsp), %edx                  # 4-byte Folded Reload
	andl	%ecx, %r12d
	andl	68(%rsp), %ecx                  # 4-byte Folded Reload
	movl	%r11d, %r9d
	xorl	%esi, %r9d
	movl	%ebx, %r8d
	xorl	%r10d, %r8d
	movl	8(%rsp), %ebx                   # 4-byte Reload
	xorl	%ebx, %r8d
	xorl	%r13d, %esi
	xorl	%r8d, %r15d
	xorl	%ebp, %r13d
	movl	%edx, %r14d
	xorl	%r12d, %r14d
	xorl	%r14d, %r8d
	xorl	%ecx, %edi
	xorl	%esi, %ecx
	movl	%esi, %r10d
	xorl	%eax, %r10d
	xorl	%r8d, %r10d
	xorl	%r8d, %r13d
	xorl	%r9d, %r8d
	movl	20(%rsp), %r9d                  # 4-byte Reload
	xorl	%ebp, %r9d
	movl	16(%rsp), %esi                  # 4-byte Reload
	xorl	12(%rsp), %esi                  # 4-byte Folded Reload
	xorl	%r11d, %edx
	xorl	%r11d, %eax
	xorl	%esi, %eax
	movl	4(%rsp), %r11d                  # 4-byte Reload
	movl	24(%rsp), %ebp                  # 4-byte Reload
	xorl	%r11d, %ebp
	xorl	%r9d, %r11d
	xorl	%r11d, %ebx
	xorl	%r14d, %ebx
	xorl	%r11d, %ecx
	xorl	%eax, %ebx
	xorl	%r15d, %edx
	xorl	%r15d, %ecx
	movl	%ebp, %esi
	xorl	%edi, %esi
	movl	%r9d, %r15d
	xorl	28(%rsp), %r15d                 # 4-byte Folded Reload
	xorl	%r12d, %r15d
	xorl	%edi, %r15d
	xorl	%eax, %r15d
	movl	%esi, %eax
	shrl	$4, %eax
	xorl	%esi, %eax
	movl	%esi, %edi
	andl	$51317760, %eax                 # imm = 0x30F0C00
	movl	%eax, %esi
	shll	$4, %esi
	orl	%eax, %esi
	xorl	%edi, %esi
	movl	%edx, %eax
	shrl	$4, %eax
	xorl	%edx, %eax
	andl	$51317760, %eax                 # imm = 0x30F0C00
	movl	%eax, %r9d
	shll	$4, %r9d
	orl	%eax, %r9d
	xorl	%edx, %r9d
	movl	%r10d, %eax
	shrl	$4, %eax
	xorl	%r10d, %eax
	andl	$51317760, %eax                 # imm = 0x30F0C00
	movl	%eax, %edx
	shll	$4, %edx
	orl	%eax, %edx
	xorl	%r10d, %edx
	movl	%ecx, %eax
	shrl	$4, %eax
	xorl	%ecx, %eax
	andl	$51317760, %eax                 # imm = 0x30F0C00
	movl	%eax, %r10d
	shll	$4, %r10d
	orl	%eax, %r10d
	xorl	%ecx, %r10d
	movl	%r13d, %eax
	shrl	$4, %eax
	xorl	%r13d, %eax
	andl	$51317760, %eax                 # imm = 0x30F0C00
	movl	%eax, %ecx
	shll	$4, %ecx
	orl	%eax, %ecx
	xorl	%r13d, %ecx
	movl	%ebx, %eax
	shrl	$4, %eax
	xorl	%ebx, %eax
	andl	$51317760, %eax                 # imm = 0x30F0C00
	movl	%eax, %r11d
	shll	$4, %r11d
	orl	%eax, %r11d
	xorl	%ebx, %r11d
	movl	%r15d, %eax
	shrl	$4, %eax
	xorl	%r15d, %eax
	andl	$51317760, %eax                 # imm = 0x30F0C00
	movl	%eax, %r14d
	shll	$4, %r14d
	orl	%eax, %r14d
	xorl	%r15d, %r14d
	movl	%r8d, %edi
	shrl	$4, %edi
	xorl	%r8d, %edi
	andl	$51317760, %edi                 # imm = 0x30F0C00
	movl	%edi, %eax
	shll	$4, %eax
	orl	%edi, %eax
	xorl	%r8d, %eax
	movl	%esi, %edi
	shrl	$2, %edi
	xorl	%esi, %edi
	andl	$855651072, %edi                # imm = 0x33003300
	leal	(%rdi,%rdi,4), %ebp
	xorl	%esi, %ebp
	movl	%r9d, %esi
	shrl	$2, %esi
	xorl	%r9d, %esi
	andl	$855651072, %esi                # imm = 0x33003300
	leal	(%rsi,%rsi,4), %r13d
	xorl	%r9d, %r13d
	movl	%edx, %esi
	shrl	$2, %esi
	xorl	%edx, %esi
	andl	$855651072, %esi                # imm = 0x33003300
	leal	(%rsi,%rsi,4), %esi
	xorl	%edx, %esi
	movl	%esi, %edi
	movl	%esi, 16(%rsp)                  # 4-byte Spill
	movl	%r10d, %edx
	shrl	$2, %edx
	xorl	%r10d, %edx
	andl	$855651072, %edx                # imm = 0x33003300
	leal	(%rdx,%rdx,4), %edx
	xorl	%r10d, %edx
	movl	%edx, %r9d
	movl	%edx, 4(%rsp)                   # 4-byte Spill
	movl	%ecx, %r8d
	shrl	$2, %r8d
	xorl	%ecx, %r8d
	andl	$855651072, %r8d                # imm = 0x33003300
	leal	(%r8,%r8,4), %r8d
	xorl	%ecx, %r8d
	movl	%r11d, %ecx
	shrl	$2, %ecx
	xorl	%r11d, %ecx
	andl	$855651072, %ecx                # imm = 0x33003300
	leal	(%rcx,%rcx,4), %r12d
	xorl	%r11d, %r12d
	movl	%r14d, %ecx
	shrl	$2, %ecx
	xorl	%r14d, %ecx
	andl	$855651072, %ecx                # imm = 0x33003300
	leal	(%rcx,%rcx,4), %ebx
	xorl	%r14d, %ebx
	movl	%ebp, %esi
	roll	$24, %esi
	movl	%eax, %ecx
	movl	%r13d, %edx
	roll	$24, %edx
	shrl	$2, %ecx
	movl	%edi, %r11d
	roll	$24, %r11d
	xorl	%eax, %ecx
	movl	%r9d, %r15d
	roll	$24, %r15d
	andl	$855651072, %ecx                # imm = 0x33003300
	movl	%r8d, %r10d
	roll	$24, %r10d
	leal	(%rcx,%rcx,4), %edi
	movl	%r12d, %r14d
	roll	$24, %r12d
	xorl	%eax, %edi
	movl	%ebx, %r9d
	roll	$24, %r9d
	movl	%edi, %ecx
	roll	$24, %ecx
	xorl	%ebp, %esi
	movl	%ebp, %eax
	xorl	%r13d, %edx
	movl	%edx, 8(%rsp)                   # 4-byte Spill
	movl	4(%rsp), %ebp                   # 4-byte Reload
	xorl	%ebp, %r15d
	xorl	%r8d, %r10d
	xorl	%r14d, %r12d
	xorl	%edi, %ecx
	xorl	%ecx, %eax
	movl	%eax, 12(%rsp)                  # 4-byte Spill
	xorl	%esi, %r13d
	xorl	%ecx, %r13d
	movl	%r13d, 20(%rsp)                 # 4-byte Spill
	xorl	%ecx, %ebp
	xorl	%r15d, %r8d
	xorl	%ecx, %r8d
	xorl	%r10d, %r14d
	movl	%r14d, 4(%rsp)                  # 4-byte Spill
	xorl	%r14d, %ecx
	movl	%ecx, %r13d
	roll	$16, %r13d
	xorl	%ecx, %r13d
	movl	16(%rsp), %eax                  # 4-byte Reload
	xorl	%eax, %r11d
	xorl	%ebx, %r9d
	movl	8(%rsp), %r14d                  # 4-byte Reload
	xorl	%r14d, %eax
	movl	%eax, %edx
	xorl	%r11d, %ebp
	xorl	%r12d, %ebx
	xorl	%r9d, %edi
	movl	12(%rsp), %eax                  # 4-byte Reload
	xorl	%eax, %r11d
	xorl	%edi, %r11d
	xorl	%edi, %r12d
	xorl	%edi, %r13d
	movl	%edi, %ecx
	xorl	%ebx, %ecx
	xorl	%ecx, %r14d
	xorl	%edx, %r10d
	xorl	%ecx, %r10d
	xorl	%ebx, %esi
	xorl	%esi, %eax
	roll	$16, %esi
	xorl	%eax, %esi
	xorl	%r11d, %edx
	roll	$16, %r11d
	xorl	%r8d, %r9d
	xorl	%r10d, %r8d
	roll	$16, %r10d
	xorl	%edx, %r11d
	xorl	%r8d, %r10d
	movl	20(%rsp), %ecx                  # 4-byte Reload
	xorl	%ecx, %r15d
	xorl	%ebx, %r15d
	xorl	%r9d, %ebx
	roll	$16, %r9d
	xorl	%ebx, %r9d
	movl	%r14d, %eax
	roll	$16, %eax
	xorl	%ecx, %eax
	movl	%esi, %ecx
	shrl	%ecx
	xorl	%ecx, %eax
	xorl	%r14d, %eax
	xorl	%ebp, %r12d
	addl	%eax, %eax
	andl	$-1431655766, %eax              # imm = 0xAAAAAAAA
	xorl	%esi, %eax
	movl	%r15d, %esi
	roll	$16, %esi
	xorl	%ebp, %esi
	xorl	%r15d, %esi
	movl	%r11d, %ecx
	shrl	%ecx
	xorl	%ecx, %esi
	addl	%esi, %esi
	andl	$-1431655766, %esi              # imm = 0xAAAAAAAA
	xorl	%r11d, %esi
	movl	%r12d, %edx
	roll	$16, %edx
	xorl	4(%rsp), %edx                   # 4-byte Folded Reload
	xorl	%r12d, %edx
	movl	%r10d, %ecx
	shrl	%ecx
	xorl	%ecx, %edx
	addl	%edx, %edx
	andl	$-1431655766, %edx              # imm = 0xAAAAAAAA
	xorl	%r10d, %edx
	movl	%r9d, %ecx
	shrl	%ecx
	xorl	%ecx, %r13d
	addl	%r13d, %r13d
	andl	$-1431655766, %r13d             # imm = 0xAAAAAAAA
	xorl	%r9d, %r13d
	movl	%eax, %ecx
	shrl	$2, %ecx
	xorl	%esi, %ecx
	andl	$858993459, %ecx                # imm = 0x33333333
	leal	(,%rcx,4), %edi
	xorl	%eax, %edi
	xorl	%esi, %ecx
	movl	%edx, %esi
	shrl	$2, %esi
	xorl	%r13d, %esi
	andl	$858993459, %esi                # imm = 0x33333333
	leal	(,%rsi,4), %r8d
	xorl	%edx, %r8d
	xorl	%r13d, %esi
	movl	%edi, %r9d
	shrl	$4, %r9d
	xorl	%r8d, %r9d
	andl	$252645135, %r9d                # imm = 0xF0F0F0F
	movl	%r9d, %eax
	shll	$4, %eax
	xorl	%edi, %eax
	xorl	%r8d, %r9d
	movl	%ecx, %edi
	shrl	$4, %edi
	xorl	%esi, %edi
	andl	$252645135, %edi                # imm = 0xF0F0F0F
	movl	%edi, %edx
	shll	$4, %edx
	xorl	%ecx, %edx
	xorl	%esi, %edi
	movd	%r9d, %xmm0
	movd	%edi, %xmm2
	movd	%edx, %xmm1
	movd	%eax, %xmm3
	movq	104(%rsp), %rax                 # 8-byte Reload
	movdqu	(%rax), %xmm4
	movdqa	%xmm0, %xmm5
	psrld	$24, %xmm5
	movdqa	%xmm0, %xmm6
	psrld	$16, %xmm6
	punpcklbw	%xmm5, %xmm6            # xmm6 = xmm6[0],xmm5[0],xmm6[1],xmm5[1],xmm6[2],xmm5[2],xmm6[3],xmm5[3],xmm6[4],xmm5[4],xmm6[5],xmm5[5],xmm6[6],xmm5[6],xmm6[7],xmm5[7]
	movdqa	%xmm0, %xmm5
	psrld	$8, %xmm5
	punpcklbw	%xmm5, %xmm0            # xmm0 = xmm0[0],xmm5[0],xmm0[1],xmm5[1],xmm0[2],xmm5[2],xmm0[3],xmm5[3],xmm0[4],xmm5[4],xmm0[5],xmm5[5],xmm0[6],xmm5[6],xmm0[7],xmm5[7]
	punpcklwd	%xmm6, %xmm0            # xmm0 = xmm0[0],xmm6[0],xmm0[1],xmm6[1],xmm0[2],xmm6[2],xmm0[3],xmm6[3]
	movdqa	%xmm2, %xmm5
	psrld	$24, %xmm5
	movdqa	%xmm2, %xmm6
	psrld	$16, %xmm6
	punpcklbw	%xmm5, %xmm6            # xmm6 = xmm6[0],xmm5[0],xmm6[1],xmm5[1],xmm6[2],xmm5[2],xmm6[3],xmm5[3],xmm6[4],xmm5[4],xmm6[5],xmm5[5],xmm6[6],xmm5[6],xmm6[7],xmm5[7]
	movdqa	%xmm2, %xmm5
	psrld	$8, %xmm5
	punpcklbw	%xmm5, %xmm2            # xmm2 = xmm2[0],xmm5[0],xmm2[1],xmm5[1],xmm2[2],xmm5[2],xmm2[3],xmm5[3],xmm2[4],xmm5[4],xmm2[5],xmm5[5],xmm2[6],xmm5[6],xmm2[7],xmm5[7]
	punpcklwd	%xmm6, %xmm2            # xmm2 = xmm2[0],xmm6[0],xmm2[1],xmm6[1],xmm2[2],xmm6[2],xmm2[3],xmm6[3]
	punpckldq	%xmm2, %xmm0            # xmm0 = xmm0[0],xmm2[0],xmm0[1],xmm2[1]
	movdqa	%xmm1, %xmm2
	psrld	$24, %xmm2
	movdqa	%xmm1, %xmm5
	psrld	$16, %xmm5
	punpcklbw	%xmm2, %xmm5            # xmm5 = xmm5[0],xmm2[0],xmm5[1],xmm2[1],xmm5[2],xmm2[2],xmm5[3],xmm2[3],xmm5[4],xmm2[4],xmm5[5],xmm2[5],xmm5[6],xmm2[6],xmm5[7],xmm2[7]
	movdqa	%xmm1, %xmm2
	psrld	$8, %xmm2
	punpcklbw	%xmm2, %xmm1            # xmm1 = xmm1[0],xmm2[0],xmm1[1],xmm2[1],xmm1[2],xmm2[2],xmm1[3],xmm2[3],xmm1[4],xmm2[4],xmm1[5],xmm2[5],xmm1[6],xmm2[6],xmm1[7],xmm2[7]
	punpcklwd	%xmm5, %xmm1            # xmm1 = xmm1[0],xmm5[0],xmm1[1],xmm5[1],xmm1[2],xmm5[2],xmm1[3],xmm5[3]
	movdqa	%xmm3, %xmm2
	psrld	$24, %xmm2
	movdqa	%xmm3, %xmm5
	psrld	$16, %xmm5
	punpcklbw	%xmm2, %xmm5            # xmm5 = xmm5[0],xmm2[0],xmm5[1],xmm2[1],xmm5[2],xmm2[2],xmm5[3],xmm2[3],xmm5[4],xmm2[4],xmm5[5],xmm2[5],xmm5[6],xmm2[6],xmm5[7],xmm2[7]
	movdqa	%xmm3, %xmm2
	psrld	$8, %xmm2
	punpcklbw	%xmm2, %xmm3            # xmm3 = xmm3[0],xmm2[0],xmm3[1],xmm2[1],xmm3[2],xmm2[2],xmm3[3],xmm2[3],xmm3[4],xmm2[4],xmm3[5],xmm2[5],xmm3[6],xmm2[6],xmm3[7],xmm2[7]
	punpcklwd	%xmm5, %xmm3            # xmm3 = xmm3[0],xmm5[0],xmm3[1],xmm5[1],xmm3[2],xmm5[2],xmm3[3],xmm5[3]
	punpckldq	%xmm1, %xmm3            # xmm3 = xmm3[0],xmm1[0],xmm3[1],xmm1[1]
	punpcklqdq	%xmm0, %xmm3            # xmm3 = xmm3[0],xmm0[0]
	pxor	%xmm3, %xmm4
	movq	112(%rsp), %rax                 # 8-byte Reload
	movdqu	%xmm4, (%rax)
	addq	$120, %rsp
	popq	%rbx
	popq	%r12
	popq	%r13
	popq	%r14
	popq	%r15
	popq	%rbp
	retq
	.seh_endproc
                                        # -- End function
	.def	aes_v1.aes_c.single_rounds.inverse_rounds;
	.scl	3;
	.type	32;
	.endef
	.section	.rdata,"dr"
	.p2align	4, 0x0                          # -- Begin function aes_c::single_rounds::inverse_rounds
.Laes_v1_CPI35_0:
	.long	252645135                       # 0xf0f0f0f
	.long	252645135                       # 0xf0f0f0f
	.zero	4
	.zero	4
	.text
	.p2align	4
aes_v1.aes_c.single_rounds.inverse_rounds: # @aes_v1.aes_c.single_rounds.inverse_rounds
.seh_proc aes_v1.aes_c.single_rounds.inverse_rounds
# %bb.0:                                # %start
	pushq	%rbp
	.seh_pushreg %rbp
	pushq	%r15
	.seh_pushreg %r15
	pushq	%r14
	.seh_pushreg %r14
	pushq	%r13
	.seh_pushreg %r13
	pushq	%r12
	.seh_pushreg %r12
	pushq	%rbx
	.seh_pushreg %rbx
	subq	$96, %rsp
	.seh_stackalloc 96
	.seh_endprologue
	movq	%rsi, 72(%rsp)                  # 8-byte Spill
	movq	$-2, %rax
	movq	%rdi, 80(%rsp)                  # 8-byte Spill
	movq	%rdi, %rcx
	.p2align	4
.Laes_v1_BB35_1:                               # %join.5.i.i
                                        # =>This Inner Loop Header: Depth=1
	movq	%rcx, 24(%rsp)                  # 8-byte Spill
	movq	%rax, 88(%rsp)                  # 8-byte Spill
	movq	24(%rsp), %rax                  # 8-byte Reload
	movl	16(%rax), %ecx
	movq	24(%rsp), %rax                  # 8-byte Reload
	movl	(%rax), %edx
	movq	24(%rsp), %rax                  # 8-byte Reload
	movl	4(%rax), %ebx
	movq	24(%rsp), %rax                  # 8-byte Reload
	movl	20(%rax), %ebp
	movq	24(%rsp), %rax                  # 8-byte Reload
	movl	8(%rax), %r11d
	movq	24(%rsp), %rax                  # 8-byte Reload
	movl	24(%rax), %edi
	movq	24(%rsp), %rax                  # 8-byte Reload
	movl	12(%rax), %r9d
	movq	24(%rsp), %rax                  # 8-byte Reload
	movl	28(%rax), %esi
	movl	%edx, %eax
	shrl	%eax
	xorl	%ecx, %eax
	andl	$1431655765, %eax               # imm = 0x55555555
	leal	(%rax,%rax), %r8d
	xorl	%edx, %r8d
	xorl	%ecx, %eax
	movl	%ebx, %ecx
	shrl	%ecx
	xorl	%ebp, %ecx
	andl	$1431655765, %ecx               # imm = 0x55555555
	leal	(%rcx,%rcx), %r10d
	xorl	%ebx, %r10d
	xorl	%ebp, %ecx
	movl	%r11d, %edx
	shrl	%edx
	xorl	%edi, %edx
	andl	$1431655765, %edx               # imm = 0x55555555
	leal	(%rdx,%rdx), %ebp
	xorl	%r11d, %ebp
	xorl	%edi, %edx
	movl	%r9d, %edi
	shrl	%edi
	xorl	%esi, %edi
	andl	$1431655765, %edi               # imm = 0x55555555
	leal	(%rdi,%rdi), %r14d
	xorl	%r9d, %r14d
	xorl	%esi, %edi
	movl	%r8d, %esi
	shrl	$2, %esi
	xorl	%r10d, %esi
	andl	$858993459, %esi                # imm = 0x33333333
	leal	(,%rsi,4), %r11d
	xorl	%r8d, %r11d
	xorl	%r10d, %esi
	movl	%ebp, %r8d
	shrl	$2, %r8d
	xorl	%r14d, %r8d
	andl	$858993459, %r8d                # imm = 0x33333333
	leal	(,%r8,4), %ebx
	xorl	%ebp, %ebx
	xorl	%r14d, %r8d
	movl	%eax, %r9d
	shrl	$2, %r9d
	xorl	%ecx, %r9d
	andl	$858993459, %r9d                # imm = 0x33333333
	leal	(,%r9,4), %r14d
	xorl	%eax, %r14d
	xorl	%ecx, %r9d
	movl	%edx, %r10d
	shrl	$2, %r10d
	xorl	%edi, %r10d
	andl	$858993459, %r10d               # imm = 0x33333333
	leal	(,%r10,4), %ebp
	xorl	%edx, %ebp
	xorl	%edi, %r10d
	movl	%r11d, %r15d
	shrl	$4, %r15d
	xorl	%ebx, %r15d
	andl	$252645135, %r15d               # imm = 0xF0F0F0F
	movl	%r15d, %r12d
	shll	$4, %r12d
	xorl	%r11d, %r12d
	xorl	%ebx, %r15d
	movl	%r14d, %eax
	shrl	$4, %eax
	xorl	%ebp, %eax
	andl	$252645135, %eax                # imm = 0xF0F0F0F
	movl	%eax, %edx
	shll	$4, %edx
	xorl	%r14d, %edx
	movl	%esi, %edi
	shrl	$4, %edi
	xorl	%r8d, %edi
	andl	$252645135, %edi                # imm = 0xF0F0F0F
	movl	%edi, %ecx
	shll	$4, %ecx
	xorl	%esi, %ecx
	xorl	%r8d, %edi
	movl	%r9d, %esi
	shrl	$4, %esi
	xorl	%r10d, %esi
	andl	$252645135, %esi                # imm = 0xF0F0F0F
	movl	%esi, %ebx
	shll	$4, %ebx
	xorl	%r9d, %ebx
	xorl	%r10d, %esi
	movl	%esi, %r10d
	movl	%r12d, %r14d
	notl	%r14d
	xorl	%ebp, %eax
	notl	%eax
	movl	%edi, %ebp
	notl	%ebp
	xorl	%edx, %r12d
	xorl	%ebp, %esi
	movl	%esi, 44(%rsp)                  # 4-byte Spill
	movl	%ecx, %r9d
	xorl	%eax, %r9d
	movl	%r15d, %r8d
	xorl	%ebp, %r8d
	movl	%r8d, %esi
	xorl	%r9d, %esi
	movl	%esi, 36(%rsp)                  # 4-byte Spill
	xorl	%r10d, %r9d
	movl	%r9d, 4(%rsp)                   # 4-byte Spill
	xorl	%r15d, %r10d
	movl	%r10d, 16(%rsp)                 # 4-byte Spill
	xorl	%r10d, %ebp
	movl	%ebp, 68(%rsp)                  # 4-byte Spill
	movl	%ebp, %r10d
	xorl	%ebx, %r10d
	movl	%r10d, 64(%rsp)                 # 4-byte Spill
	xorl	%ebx, %r15d
	movl	%r15d, %r11d
	xorl	%r14d, %r11d
	movl	%r11d, 60(%rsp)                 # 4-byte Spill
	xorl	%ebx, %r14d
	xorl	%eax, %ebx
	xorl	%edx, %ecx
	xorl	%edi, %edx
	xorl	%edx, %ebx
	movl	%edx, %ebp
	movl	%r12d, %edx
	xorl	%r15d, %edx
	movl	%edx, 52(%rsp)                  # 4-byte Spill
	orl	%ebx, %edx
	movl	%r8d, 12(%rsp)                  # 4-byte Spill
	andl	%r8d, %r11d
	xorl	%edx, %r11d
	movl	%ecx, %edx
	notl	%edx
	movl	%r15d, %esi
	xorl	%edx, %esi
	movl	%esi, 8(%rsp)                   # 4-byte Spill
	movl	%edx, %r9d
	movl	%edx, 20(%rsp)                  # 4-byte Spill
	movl	%r10d, %edx
	andl	%esi, %edx
	movl	%r12d, %r13d
	xorl	%r8d, %r12d
	xorl	%r14d, %ebp
	movl	%ebp, %r8d
	movl	%ebp, 40(%rsp)                  # 4-byte Spill
	movl	%r12d, %ebp
	movl	%r12d, 48(%rsp)                 # 4-byte Spill
	andl	4(%rsp), %ebp                   # 4-byte Folded Reload
	xorl	%r14d, %ebp
	movl	44(%rsp), %r10d                 # 4-byte Reload
	xorl	%r10d, %r14d
	movl	%r14d, %esi
	andl	%r10d, %esi
	xorl	%r14d, %ecx
	andl	%r15d, %ecx
	xorl	%ecx, %edx
	xorl	%esi, %ecx
	xorl	%r10d, %r13d
	movl	%r13d, 56(%rsp)                 # 4-byte Spill
	andl	36(%rsp), %r13d                 # 4-byte Folded Reload
	andl	16(%rsp), %edi                  # 4-byte Folded Reload
	xorl	%r13d, %ebp
	xorl	%r9d, %edi
	xorl	%r14d, %edi
	xorl	%r13d, %edi
	xorl	%edx, %r11d
	xorl	%edx, %edi
	movl	52(%rsp), %r9d                  # 4-byte Reload
	movl	%r9d, %r10d
	andl	%ebx, %r10d
	movl	%r12d, %r13d
	xorl	%eax, %r13d
	xorl	%eax, %r10d
	movl	%r13d, %eax
	andl	%r8d, %eax
	xorl	%eax, %r10d
	xorl	%ecx, %ebp
	xorl	%r15d, %r10d
	xorl	%ecx, %r10d
	movl	%edi, %r8d
	andl	%r11d, %r8d
	movl	%r8d, %edx
	xorl	%ebp, %edx
	movl	%edi, %esi
	xorl	%ebp, %esi
	movl	%r10d, %eax
	xorl	%r11d, %eax
	andl	%r10d, %edi
	andl	%esi, %edi
	andl	%eax, %edx
	xorl	%r10d, %edx
	movl	%r10d, %ecx
	xorl	%r8d, %ecx
	andl	%esi, %ecx
	xorl	%r8d, %esi
	xorl	%edi, %esi
	xorl	%ebp, %ecx
	movl	%esi, %r12d
	xorl	%ecx, %r12d
	movl	%r9d, %r10d
	andl	%r12d, %r10d
	andl	%ebx, %r12d
	andl	%ecx, 40(%rsp)                  # 4-byte Folded Spill
	movl	%ecx, %edi
	andl	%r13d, %ecx
	andl	%r11d, %ebp
	andl	%eax, %ebp
	xorl	%r8d, %eax
	xorl	%ebp, %eax
	xorl	%edx, %edi
	movl	12(%rsp), %ebp                  # 4-byte Reload
	andl	%esi, %ebp
	movl	%ebp, 12(%rsp)                  # 4-byte Spill
	movl	4(%rsp), %ebx                   # 4-byte Reload
	andl	%edx, %ebx
	movl	%ebx, 4(%rsp)                   # 4-byte Spill
	andl	%edx, 48(%rsp)                  # 4-byte Folded Spill
	movl	60(%rsp), %r9d                  # 4-byte Reload
	andl	%esi, %r9d
	xorl	%eax, %esi
	andl	%eax, 16(%rsp)                  # 4-byte Folded Spill
	xorl	%eax, %edx
	andl	68(%rsp), %eax                  # 4-byte Folded Reload
	movl	36(%rsp), %r13d                 # 4-byte Reload
	andl	%edx, %r13d
	andl	56(%rsp), %edx                  # 4-byte Folded Reload
	andl	%edi, %r15d
	movl	20(%rsp), %r8d                  # 4-byte Reload
	xorl	%r14d, %r8d
	andl	%edi, %r8d
	movl	%r8d, %r11d
	movl	%r8d, 20(%rsp)                  # 4-byte Spill
	xorl	%esi, %edi
	movl	8(%rsp), %r8d                   # 4-byte Reload
	andl	%edi, %r8d
	xorl	%r9d, %r8d
	movl	%r8d, 8(%rsp)                   # 4-byte Spill
	xorl	%r9d, %eax
	andl	64(%rsp), %edi                  # 4-byte Folded Reload
	andl	%esi, %r14d
	andl	44(%rsp), %esi                  # 4-byte Folded Reload
	movl	%r12d, %r8d
	xorl	%ecx, %r8d
	movl	%r11d, %r9d
	xorl	%ebp, %r9d
	movl	%r10d, %r11d
	xorl	%r10d, %r9d
	xorl	%r13d, %ecx
	movl	8(%rsp), %r10d                  # 4-byte Reload
	xorl	%r9d, %r10d
	xorl	%ebx, %r13d
	movl	%edi, %ebp
	xorl	%r14d, %ebp
	xorl	%ebp, %r9d
	xorl	%esi, %edx
	xorl	%ecx, %esi
	movl	%ecx, %ebx
	xorl	%eax, %ebx
	xorl	%r9d, %ebx
	xorl	%r9d, %r13d
	xorl	%r8d, %r9d
	movl	16(%rsp), %ecx                  # 4-byte Reload
	xorl	4(%rsp), %ecx                   # 4-byte Folded Reload
	movl	20(%rsp), %r8d                  # 4-byte Reload
	xorl	40(%rsp), %r8d                  # 4-byte Folded Reload
	xorl	%r12d, %edi
	xorl	%r12d, %eax
	xorl	%r8d, %eax
	movl	48(%rsp), %r8d                  # 4-byte Reload
	xorl	%r8d, %r15d
	xorl	%ecx, %r8d
	xorl	%r8d, %r11d
	xorl	%ebp, %r11d
	xorl	%eax, %r11d
	movl	%r11d, %ebp
	xorl	%r10d, %edi
	xorl	%r8d, %esi
	xorl	%r10d, %esi
	xorl	%edx, %r15d
	xorl	12(%rsp), %r14d                 # 4-byte Folded Reload
	xorl	%ecx, %r14d
	xorl	%edx, %r14d
	xorl	%eax, %r14d
	movl	%r15d, %eax
	shrl	$4, %eax
	xorl	%r15d, %eax
	andl	$51317760, %eax                 # imm = 0x30F0C00
	movl	%eax, %ecx
	shll	$4, %ecx
	orl	%eax, %ecx
	xorl	%r15d, %ecx
	movl	%edi, %eax
	shrl	$4, %eax
	xorl	%edi, %eax
	andl	$51317760, %eax                 # imm = 0x30F0C00
	movl	%eax, %r8d
	shll	$4, %r8d
	orl	%eax, %r8d
	xorl	%edi, %r8d
	movl	%ebx, %eax
	shrl	$4, %eax
	xorl	%ebx, %eax
	andl	$51317760, %eax                 # imm = 0x30F0C00
	movl	%eax, %edi
	shll	$4, %edi
	orl	%eax, %edi
	xorl	%ebx, %edi
	movl	%esi, %eax
	shrl	$4, %eax
	xorl	%esi, %eax
	andl	$51317760, %eax                 # imm = 0x30F0C00
	movl	%eax, %r10d
	shll	$4, %r10d
	orl	%eax, %r10d
	xorl	%esi, %r10d
	movl	%r13d, %eax
	shrl	$4, %eax
	xorl	%r13d, %eax
	andl	$51317760, %eax                 # imm = 0x30F0C00
	movl	%eax, %esi
	shll	$4, %esi
	orl	%eax, %esi
	xorl	%r13d, %esi
	movl	%r11d, %eax
	shrl	$4, %eax
	xorl	%r11d, %eax
	andl	$51317760, %eax                 # imm = 0x30F0C00
	movl	%eax, %r11d
	shll	$4, %r11d
	orl	%eax, %r11d
	xorl	%ebp, %r11d
	movl	%r14d, %eax
	shrl	$4, %eax
	xorl	%r14d, %eax
	andl	$51317760, %eax                 # imm = 0x30F0C00
	movl	%eax, %ebp
	shll	$4, %ebp
	orl	%eax, %ebp
	xorl	%r14d, %ebp
	movl	%r9d, %eax
	shrl	$4, %eax
	xorl	%r9d, %eax
	andl	$51317760, %eax                 # imm = 0x30F0C00
	movl	%eax, %ebx
	shll	$4, %ebx
	orl	%eax, %ebx
	xorl	%r9d, %ebx
	movl	%ecx, %eax
	shrl	$2, %eax
	xorl	%ecx, %eax
	andl	$855651072, %eax                # imm = 0x33003300
	leal	(%rax,%rax,4), %r13d
	xorl	%ecx, %r13d
	movl	%r13d, 8(%rsp)                  # 4-byte Spill
	movl	%r8d, %ecx
	shrl	$2, %ecx
	xorl	%r8d, %ecx
	andl	$855651072, %ecx                # imm = 0x33003300
	leal	(%rcx,%rcx,4), %eax
	xorl	%r8d, %eax
	movl	%eax, %r15d
	movl	%eax, 12(%rsp)                  # 4-byte Spill
	movl	%edi, %r8d
	shrl	$2, %r8d
	xorl	%edi, %r8d
	andl	$855651072, %r8d                # imm = 0x33003300
	leal	(%r8,%r8,4), %r8d
	xorl	%edi, %r8d
	movl	%r10d, %edi
	shrl	$2, %edi
	xorl	%r10d, %edi
	andl	$855651072, %edi                # imm = 0x33003300
	leal	(%rdi,%rdi,4), %r12d
	xorl	%r10d, %r12d
	movl	%esi, %edi
	shrl	$2, %edi
	xorl	%esi, %edi
	andl	$855651072, %edi                # imm = 0x33003300
	leal	(%rdi,%rdi,4), %eax
	xorl	%esi, %eax
	movl	%eax, %r10d
	movl	%r11d, %esi
	shrl	$2, %esi
	xorl	%r11d, %esi
	andl	$855651072, %esi                # imm = 0x33003300
	leal	(%rsi,%rsi,4), %eax
	xorl	%r11d, %eax
	movl	%eax, 16(%rsp)                  # 4-byte Spill
	movl	%ebp, %esi
	shrl	$2, %esi
	xorl	%ebp, %esi
	andl	$855651072, %esi                # imm = 0x33003300
	leal	(%rsi,%rsi,4), %eax
	xorl	%ebp, %eax
	roll	$24, %r13d
	movl	%ebx, %r9d
	movl	%r15d, %ecx
	roll	$24, %ecx
	shrl	$2, %r9d
	movl	%r8d, %ebp
	roll	$24, %ebp
	xorl	%ebx, %r9d
	movl	%r12d, %edx
	roll	$24, %edx
	movl	%edx, 4(%rsp)                   # 4-byte Spill
	andl	$855651072, %r9d                # imm = 0x33003300
	movl	%r10d, %r11d
	movl	%r10d, %r14d
	roll	$24, %r11d
	leal	(%r9,%r9,4), %r10d
	movl	16(%rsp), %edx                  # 4-byte Reload
	movl	%edx, %esi
	roll	$24, %esi
	xorl	%ebx, %r10d
	movl	%eax, %r9d
	movl	%eax, %ebx
	roll	$24, %r9d
	movl	%r10d, %eax
	roll	$24, %eax
	movl	8(%rsp), %edi                   # 4-byte Reload
	xorl	%edi, %r13d
	xorl	%r15d, %ecx
	movl	%ecx, %r15d
	xorl	%r8d, %ebp
	movl	%r8d, %ecx
	movl	4(%rsp), %r8d                   # 4-byte Reload
	xorl	%r12d, %r8d
	movl	%r8d, 4(%rsp)                   # 4-byte Spill
	xorl	%r14d, %r11d
	xorl	%edx, %esi
	xorl	%ebx, %r9d
	xorl	%r10d, %eax
	xorl	%eax, %edi
	movl	%edi, 8(%rsp)                   # 4-byte Spill
	movl	12(%rsp), %edi                  # 4-byte Reload
	xorl	%r13d, %edi
	xorl	%eax, %edi
	movl	%edi, 12(%rsp)                  # 4-byte Spill
	xorl	%r15d, %ecx
	movl	%ecx, 36(%rsp)                  # 4-byte Spill
	xorl	%eax, %r12d
	xorl	%ebp, %r12d
	xorl	%r8d, %r14d
	xorl	%eax, %r14d
	xorl	%r11d, %edx
	movl	%edx, 16(%rsp)                  # 4-byte Spill
	xorl	%esi, %ebx
	xorl	%r9d, %r10d
	xorl	%r10d, %ebp
	xorl	%r10d, %esi
	xorl	%edx, %eax
	movl	%eax, 20(%rsp)                  # 4-byte Spill
	movl	%eax, %edx
	xorl	%r10d, %edx
	xorl	%ebx, %r10d
	xorl	%ebx, %r13d
	movl	%ebx, %r8d
	movl	%r15d, %eax
	xorl	%r10d, %eax
	movl	8(%rsp), %edi                   # 4-byte Reload
	xorl	%edi, %ebp
	movl	36(%rsp), %ecx                  # 4-byte Reload
	xorl	%ecx, %r11d
	xorl	%r13d, %edi
	roll	$16, %r13d
	xorl	%r10d, %r11d
	xorl	%edi, %r13d
	movl	4(%rsp), %edi                   # 4-byte Reload
	movl	12(%rsp), %r10d                 # 4-byte Reload
	xorl	%r10d, %edi
	xorl	%eax, %r10d
	roll	$16, %eax
	xorl	%r10d, %eax
	movl	%eax, %ebx
	movl	%eax, 8(%rsp)                   # 4-byte Spill
	movl	%ebp, %eax
	xorl	%ecx, %ebp
	xorl	%r8d, %edi
	xorl	%r12d, %esi
	xorl	%r14d, %r9d
	roll	$16, %eax
	xorl	%eax, %ebp
	movl	%edi, %eax
	roll	$16, %eax
	xorl	%r12d, %edi
	movl	%r11d, %ecx
	roll	$16, %ecx
	xorl	%eax, %edi
	movl	%edi, 4(%rsp)                   # 4-byte Spill
	movl	%esi, %eax
	roll	$16, %eax
	xorl	%r14d, %r11d
	movl	%r9d, %r10d
	roll	$16, %r10d
	movl	20(%rsp), %r14d                 # 4-byte Reload
	roll	$16, %r14d
	xorl	%ecx, %r11d
	xorl	16(%rsp), %esi                  # 4-byte Folded Reload
	xorl	%eax, %esi
	xorl	%r8d, %r9d
	xorl	%r10d, %r9d
	xorl	%r14d, %edx
	movl	%r13d, %eax
	shrl	%eax
	xorl	%ebx, %eax
	andl	$1431655765, %eax               # imm = 0x55555555
	leal	(%rax,%rax), %r10d
	movl	%ebp, %ebx
	shrl	%ebx
	xorl	%edi, %ebx
	andl	$1431655765, %ebx               # imm = 0x55555555
	leal	(%rbx,%rbx), %r15d
	movl	%r11d, %ecx
	shrl	%ecx
	xorl	%esi, %ecx
	movl	%esi, %r8d
	andl	$1431655765, %ecx               # imm = 0x55555555
	leal	(%rcx,%rcx), %r14d
	xorl	%r13d, %r10d
	movl	%r9d, %esi
	shrl	%esi
	xorl	%edx, %esi
	andl	$1431655765, %esi               # imm = 0x55555555
	xorl	%ebp, %r15d
	leal	(%rsi,%rsi), %r13d
	xorl	%r11d, %r14d
	xorl	%r9d, %r13d
	movl	%r10d, %edi
	shrl	$2, %edi
	xorl	%r15d, %edi
	andl	$858993459, %edi                # imm = 0x33333333
	leal	(,%rdi,4), %r11d
	xorl	%r15d, %edi
	xorl	%r10d, %r11d
	movl	%r14d, %r10d
	shrl	$2, %r10d
	xorl	%r13d, %r10d
	andl	$858993459, %r10d               # imm = 0x33333333
	leal	(,%r10,4), %ebp
	xorl	%r13d, %r10d
	xorl	%r14d, %ebp
	movd	%edi, %xmm0
                                        # kill: def $edi killed $edi killed $rdi
	shrl	$4, %edi
	xorl	%r10d, %edi
	movd	%edi, %xmm3
	movd	%r11d, %xmm1
	shrl	$4, %r11d
	xorl	%ebp, %r11d
	movd	%r11d, %xmm4
	movd	%ebp, %xmm2
	movd	%r10d, %xmm5
	xorl	8(%rsp), %eax                   # 4-byte Folded Reload
	xorl	4(%rsp), %ebx                   # 4-byte Folded Reload
	xorl	%r8d, %ecx
	xorl	%edx, %esi
	movl	%eax, %edx
	shrl	$2, %edx
	xorl	%ebx, %edx
	andl	$858993459, %edx                # imm = 0x33333333
	leal	(,%rdx,4), %edi
	xorl	%ebx, %edx
	xorl	%eax, %edi
	movl	%ecx, %eax
	shrl	$2, %eax
	xorl	%esi, %eax
	andl	$858993459, %eax                # imm = 0x33333333
	leal	(,%rax,4), %r8d
	xorl	%esi, %eax
	xorl	%ecx, %r8d
	movq	24(%rsp), %rcx                  # 8-byte Reload
	movd	%edx, %xmm6
	shrl	$4, %edx
	xorl	%eax, %edx
	movd	%edx, %xmm8
	movd	%edi, %xmm7
	shrl	$4, %edi
	xorl	%r8d, %edi
	movd	%edi, %xmm9
	movd	%r8d, %xmm10
	movd	%eax, %xmm11
	movq	88(%rsp), %rax                  # 8-byte Reload
	punpckldq	%xmm3, %xmm4            # xmm4 = xmm4[0],xmm3[0],xmm4[1],xmm3[1]
	movdqa	.Laes_v1_CPI35_0(%rip), %xmm3          # xmm3 = [252645135,252645135,u,u]
	pand	%xmm3, %xmm4
	movdqa	%xmm4, %xmm12
	pslld	$4, %xmm12
	punpcklqdq	%xmm4, %xmm12           # xmm12 = xmm12[0],xmm4[0]
	punpckldq	%xmm5, %xmm2            # xmm2 = xmm2[0],xmm5[0],xmm2[1],xmm5[1]
	punpckldq	%xmm0, %xmm1            # xmm1 = xmm1[0],xmm0[0],xmm1[1],xmm0[1]
	punpcklqdq	%xmm2, %xmm1            # xmm1 = xmm1[0],xmm2[0]
	pxor	%xmm12, %xmm1
	movdqu	%xmm1, (%rcx)
	punpckldq	%xmm8, %xmm9            # xmm9 = xmm9[0],xmm8[0],xmm9[1],xmm8[1]
	pand	%xmm3, %xmm9
	movdqa	%xmm9, %xmm0
	pslld	$4, %xmm0
	punpcklqdq	%xmm9, %xmm0            # xmm0 = xmm0[0],xmm9[0]
	punpckldq	%xmm6, %xmm7            # xmm7 = xmm7[0],xmm6[0],xmm7[1],xmm6[1]
	punpckldq	%xmm11, %xmm10          # xmm10 = xmm10[0],xmm11[0],xmm10[1],xmm11[1]
	punpcklqdq	%xmm10, %xmm7           # xmm7 = xmm7[0],xmm10[0]
	pxor	%xmm0, %xmm7
	movdqu	%xmm7, 16(%rcx)
	addq	$2, %rax
	addq	$32, %rcx
	cmpq	$6, %rax
	jb	.Laes_v1_BB35_1
# %bb.2:                                # %join.5.i2.i
	movq	72(%rsp), %rcx                  # 8-byte Reload
	movups	(%rcx), %xmm0
	movq	80(%rsp), %rax                  # 8-byte Reload
	movups	(%rax), %xmm1
	xorps	%xmm0, %xmm1
	movups	16(%rax), %xmm0
	movups	32(%rax), %xmm2
	movups	48(%rax), %xmm3
	movups	%xmm1, (%rax)
	movups	16(%rcx), %xmm1
	xorps	%xmm0, %xmm1
	movups	%xmm1, 16(%rax)
	movups	32(%rcx), %xmm0
	xorps	%xmm2, %xmm0
	movups	%xmm0, 32(%rax)
	movups	48(%rcx), %xmm0
	xorps	%xmm3, %xmm0
	movups	%xmm0, 48(%rax)
	movups	64(%rax), %xmm0
	movups	64(%rcx), %xmm1
	xorps	%xmm0, %xmm1
	movups	%xmm1, 64(%rax)
	movups	80(%rax), %xmm0
	movups	80(%rcx), %xmm1
	xorps	%xmm0, %xmm1
	movups	%xmm1, 80(%rax)
	movups	96(%rax), %xmm0
	movups	96(%rcx), %xmm1
	xorps	%xmm0, %xmm1
	movups	%xmm1, 96(%rax)
	movups	112(%rax), %xmm0
	movups	112(%rcx), %xmm1
	xorps	%xmm0, %xmm1
	movups	%xmm1, 112(%rax)
	addq	$96, %rsp
	popq	%rbx
	popq	%r12
	popq	%r13
	popq	%r14
	popq	%r15
	popq	%rbp
	retq
	.seh_endproc
                                        # -- End function
	.def	aes_v1.cmac.pieces.Message.is_tag_so_far;
	.scl	3;
	.type	32;
	.endef
	.p2align	4                               # -- Begin function cmac::pieces::Message::is_tag_so_far::<#4f733d09d7f6c6b4>
aes_v1.cmac.pieces.Message.is_tag_so_far: # @aes_v1.cmac.pieces.Message.is_tag_so_far
.seh_proc aes_v1.cmac.pieces.Message.is_tag_so_far
# %bb.0:                                # %start
	pushq	%r15
	.seh_pushreg %r15
	pushq	%r14
	.seh_pushreg %r14
	pushq	%rbx
	.seh_pushreg %rbx
	subq	$64, %rsp
	.seh_stackalloc 64
	.seh_endprologue
	movq	%rcx, %rbx
	movq	%rdx, %r14
	movq	8(%rdi), %rax
	cmpq	$16, %rax
	movl	$16, %r8d
	cmovbq	%rax, %r8
	leaq	16(%rdi), %rdx
	leaq	32(%rdi), %rcx
	leaq	48(%rsp), %r15
	movq	%r15, %rdi
	callq	aes_v1.cmac.tags.tag_at_end
	movups	48(%rsp), %xmm0
	movaps	%xmm0, 32(%rsp)
	leaq	32(%rsp), %rdi
	movq	%rdi, %rcx
	movq	%r14, %rdx
	movq	%rbx, %r8
	callq	memcpy
	movq	%r15, %rsi
	callq	aes_v1.aes_cipher.blocks.difference
	testl	%eax, %eax
	sete	%al
	addq	$64, %rsp
	popq	%rbx
	popq	%r14
	popq	%r15
	retq
	.seh_endproc
                                        # -- End function
	.def	aes_v1.cmac.tags.is_tag_start;
	.scl	3;
	.type	32;
	.endef
	.p2align	4                               # -- Begin function cmac::tags::is_tag_start::<#4f733d09d7f6c6b4>
aes_v1.cmac.tags.is_tag_start: # @aes_v1.cmac.tags.is_tag_start
.seh_proc aes_v1.cmac.tags.is_tag_start
# %bb.0:                                # %start
	pushq	%r15
	.seh_pushreg %r15
	pushq	%r14
	.seh_pushreg %r14
	pushq	%rbx
	.seh_pushreg %rbx
	subq	$64, %rsp
	.seh_stackalloc 64
	.seh_endprologue
	movq	%r8, %rbx
	movq	%rcx, %r14
	movq	%rdx, %rcx
	movq	%rsi, %rdx
	movq	%rdi, %rsi
	leaq	48(%rsp), %r15
	movq	%r15, %rdi
	callq	aes_v1.cmac.tags.tag
	movups	48(%rsp), %xmm0
	movaps	%xmm0, 32(%rsp)
	leaq	32(%rsp), %rdi
	movq	%rdi, %rcx
	movq	%r14, %rdx
	movq	%rbx, %r8
	callq	memcpy
	movq	%r15, %rsi
	callq	aes_v1.aes_cipher.blocks.difference
	testl	%eax, %eax
	sete	%al
	addq	$64, %rsp
	popq	%rbx
	popq	%r14
	popq	%r15
	retq
	.seh_endproc
                                        # -- End function
	.def	aes_v1.aes_c.single_rounds.mixed;
	.scl	3;
	.type	32;
	.endef
	.section	.rdata,"dr"
	.p2align	4, 0x0                          # -- Begin function aes_c::single_rounds::mixed
.Laes_v1_CPI38_0:
	.long	252645135                       # 0xf0f0f0f
	.long	252645135                       # 0xf0f0f0f
	.zero	4
	.zero	4
	.text
	.p2align	4
aes_v1.aes_c.single_rounds.mixed:          # @aes_v1.aes_c.single_rounds.mixed
.seh_proc aes_v1.aes_c.single_rounds.mixed
# %bb.0:                                # %start
	pushq	%rbp
	.seh_pushreg %rbp
	pushq	%r15
	.seh_pushreg %r15
	pushq	%r14
	.seh_pushreg %r14
	pushq	%r13
	.seh_pushreg %r13
	pushq	%r12
	.seh_pushreg %r12
	pushq	%rbx
	.seh_pushreg %rbx
	subq	$40, %rsp
	.seh_stackalloc 40
	.seh_endprologue
	movq	%rdi, %rsi
	movq	%rdi, 32(%rsp)                  # 8-byte Spill
	movq	%rsp, %rdi
	callq	aes_v1.aes_planes.soft.word.word32.U32Word.in_every_slot
	movl	(%rsp), %r14d
	movl	4(%rsp), %eax
	movl	8(%rsp), %r12d
	movl	%r14d, %esi
	roll	$24, %esi
	movl	12(%rsp), %r11d
	movl	%eax, %r10d
	roll	$24, %r10d
	movl	16(%rsp), %ebp
	movl	%r12d, %edi
	roll	$24, %edi
	movl	20(%rsp), %ecx
	movl	%r11d, %r8d
	roll	$24, %r8d
	movl	28(%rsp), %r9d
	movl	%ebp, %r13d
	roll	$24, %r13d
	movl	%ecx, %r15d
	roll	$24, %r15d
	movl	%r9d, %ebx
	roll	$24, %ebx
	xorl	%esi, %r14d
	xorl	%r10d, %eax
	xorl	%edi, %r12d
	xorl	%r8d, %r11d
	xorl	%ebx, %r9d
	xorl	%eax, %edi
	roll	$16, %eax
	xorl	%r14d, %eax
	roll	$16, %r14d
	xorl	%r9d, %esi
	xorl	%r14d, %esi
	movl	%r11d, %r14d
	roll	$16, %r14d
	xorl	%r12d, %r14d
	roll	$16, %r12d
	xorl	%r12d, %edi
	movl	24(%rsp), %edx
	xorl	%r13d, %ebp
	xorl	%r13d, %r11d
	movl	%edx, %r12d
	roll	$24, %r12d
	xorl	%r15d, %ecx
	xorl	%r12d, %edx
	xorl	%ecx, %r12d
	roll	$16, %ecx
	xorl	%r15d, %ecx
	xorl	%ebp, %ecx
	roll	$16, %ebp
	xorl	%r9d, %r11d
	xorl	%ebp, %r11d
	xorl	%r10d, %eax
	movl	%esi, %r10d
	shrl	%r10d
	xorl	%r10d, %eax
	xorl	%r8d, %r14d
	movl	%edi, %r8d
	shrl	%r8d
	xorl	%r8d, %r14d
	xorl	%r9d, %eax
	xorl	%r9d, %r14d
	roll	$16, %r9d
	xorl	%ebx, %r9d
	xorl	%edx, %r9d
	roll	$16, %edx
	xorl	%edx, %r12d
	movl	%r11d, %edx
	shrl	%edx
	xorl	%edx, %ecx
	movl	%r12d, %edx
	shrl	%edx
	xorl	%edx, %r9d
	addl	%eax, %eax
	andl	$-1431655766, %eax              # imm = 0xAAAAAAAA
	xorl	%esi, %eax
	addl	%r14d, %r14d
	andl	$-1431655766, %r14d             # imm = 0xAAAAAAAA
	xorl	%edi, %r14d
	addl	%ecx, %ecx
	andl	$-1431655766, %ecx              # imm = 0xAAAAAAAA
	addl	%r9d, %r9d
	andl	$-1431655766, %r9d              # imm = 0xAAAAAAAA
	xorl	%r11d, %ecx
	xorl	%r12d, %r9d
	movl	%eax, %edx
	shrl	$2, %edx
	xorl	%r14d, %edx
	andl	$858993459, %edx                # imm = 0x33333333
	leal	(,%rdx,4), %esi
	xorl	%r14d, %edx
	xorl	%eax, %esi
	movl	%ecx, %eax
	shrl	$2, %eax
	xorl	%r9d, %eax
	andl	$858993459, %eax                # imm = 0x33333333
	leal	(,%rax,4), %edi
	xorl	%r9d, %eax
	xorl	%ecx, %edi
	movd	%edx, %xmm0
	movl	%edx, %ecx
	shrl	$4, %ecx
	xorl	%eax, %ecx
	movd	%ecx, %xmm1
	movd	%esi, %xmm2
	shrl	$4, %esi
	xorl	%edi, %esi
	movd	%esi, %xmm3
	movd	%eax, %xmm4
	movd	%edi, %xmm5
	punpckldq	%xmm1, %xmm3            # xmm3 = xmm3[0],xmm1[0],xmm3[1],xmm1[1]
	pand	.Laes_v1_CPI38_0(%rip), %xmm3
	movdqa	%xmm3, %xmm1
	pslld	$4, %xmm1
	punpcklqdq	%xmm3, %xmm1            # xmm1 = xmm1[0],xmm3[0]
	punpckldq	%xmm4, %xmm5            # xmm5 = xmm5[0],xmm4[0],xmm5[1],xmm4[1]
	punpckldq	%xmm0, %xmm2            # xmm2 = xmm2[0],xmm0[0],xmm2[1],xmm0[1]
	punpcklqdq	%xmm5, %xmm2            # xmm2 = xmm2[0],xmm5[0]
	pxor	%xmm1, %xmm2
	movq	32(%rsp), %rax                  # 8-byte Reload
	movdqu	%xmm2, (%rax)
	addq	$40, %rsp
	popq	%rbx
	popq	%r12
	popq	%r13
	popq	%r14
	popq	%r15
	popq	%rbp
	retq
	.seh_endproc
                                        # -- End function
	.def	aes_v1.aes_c.single_rounds.round;
	.scl	3;
	.type	32;
	.endef
	.p2align	4                               # -- Begin function aes_c::single_rounds::round
aes_v1.aes_c.single_rounds.round:          # @aes_v1.aes_c.single_rounds.round
.seh_proc aes_v1.aes_c.single_rounds.round
# %bb.0:                                # %start
	pushq	%rbp
	.seh_pushreg %rbp
	pushq	%r15
	.seh_pushreg %r15
	pushq	%r14
	.seh_pushreg %r14
	pushq	%r13
	.seh_pushreg %r13
	pushq	%r12
	.seh_pushreg %r12
	pushq	%rbx
	.seh_pushreg %rbx
	subq	$104, %rsp
	.seh_stackalloc 104
	.seh_endprologue
	movq	%rsi, 88(%rsp)                  # 8-byte Spill
	movq	%rdi, %rsi
	movq	%rdi, 96(%rsp)                  # 8-byte Spill
	leaq	56(%rsp), %rdi
	callq	aes_v1.aes_planes.soft.word.word32.U32Word.in_every_slot
	movl	56(%rsp), %r10d
	movl	60(%rsp), %ebp
	movl	64(%rsp), %esi
	movl	72(%rsp), %r9d
	movl	80(%rsp), %ecx
	movl	84(%rsp), %eax
	movl	76(%rsp), %ebx
	xorl	%ecx, %ebx
	movl	%eax, %edx
	xorl	%r9d, %edx
	movl	%ebx, %r8d
	xorl	%r10d, %r8d
	movl	%r8d, 12(%rsp)                  # 4-byte Spill
	movl	%r8d, %edi
	xorl	%r9d, %edi
	movl	%edi, %r8d
	movl	%edi, 4(%rsp)                   # 4-byte Spill
	movl	%eax, %edi
	movl	%eax, 8(%rsp)                   # 4-byte Spill
	xorl	%ebp, %edi
	movl	%edi, 16(%rsp)                  # 4-byte Spill
	xorl	%esi, %r9d
	xorl	%r9d, %edi
	movl	%r9d, %r11d
	movl	%r9d, 36(%rsp)                  # 4-byte Spill
	movl	68(%rsp), %r14d
	xorl	%edi, %r14d
	movl	%edi, %r13d
	movl	%edi, 52(%rsp)                  # 4-byte Spill
	movl	%r14d, %r15d
	xorl	%ecx, %r14d
	movl	%r8d, %edi
	andl	%r10d, %edi
	xorl	%esi, %r15d
	xorl	%eax, %esi
	movl	%esi, %r9d
	movl	%r15d, %r12d
	andl	%r13d, %r12d
	movl	%r15d, %ecx
	xorl	%ebx, %ecx
	movl	%ecx, 44(%rsp)                  # 4-byte Spill
	xorl	%esi, %edi
	xorl	%ecx, %edi
	xorl	%r12d, %edi
	xorl	%r14d, %r12d
	movl	%edx, 28(%rsp)                  # 4-byte Spill
	xorl	%edx, %r14d
	movl	%r14d, %esi
	andl	%edx, %esi
	movl	%r14d, %r8d
	xorl	%ecx, %r8d
	movl	%r8d, 40(%rsp)                  # 4-byte Spill
	andl	%r11d, %r8d
	movl	%r9d, 48(%rsp)                  # 4-byte Spill
	andl	%r9d, %ecx
	xorl	%esi, %r8d
	xorl	%esi, %ecx
	movl	%ebp, %esi
	movl	12(%rsp), %eax                  # 4-byte Reload
	xorl	%eax, %esi
	movl	%r15d, %ebp
	movl	%r10d, %r13d
	xorl	%r10d, %ebp
	movl	%esi, %edx
	movl	%esi, %r10d
	movl	%esi, 24(%rsp)                  # 4-byte Spill
	xorl	%r9d, %edx
	movl	%edx, 32(%rsp)                  # 4-byte Spill
	movl	%ebp, %esi
	andl	%edx, %esi
	xorl	%esi, %r12d
	xorl	%r14d, %ebx
	movl	%r14d, %r11d
	movl	%r10d, %r9d
	movl	%eax, %r14d
	andl	%eax, %r9d
	movl	%ebx, %r10d
	movl	16(%rsp), %eax                  # 4-byte Reload
	andl	%eax, %r10d
	xorl	%r8d, %r12d
	xorl	%ebx, %r9d
	xorl	%r10d, %r9d
	xorl	%eax, %r9d
	xorl	%r8d, %r9d
	movl	8(%rsp), %eax                   # 4-byte Reload
	xorl	%eax, %r14d
	xorl	%eax, %r10d
	movl	%r11d, %eax
	movl	%r11d, %r8d
	xorl	%r13d, %eax
	movl	%eax, 8(%rsp)                   # 4-byte Spill
	movl	%r13d, %edx
	andl	%r14d, %eax
	xorl	%ebx, %eax
	xorl	%eax, %r10d
	xorl	%ecx, %edi
	xorl	%ecx, %r10d
	movl	%r9d, %r13d
	andl	%r12d, %r13d
	movl	%r13d, %eax
	xorl	%edi, %eax
	movl	%r10d, %esi
	xorl	%r9d, %esi
	andl	%eax, %esi
	xorl	%edi, %r12d
	movl	%esi, %r11d
	xorl	%r13d, %esi
	xorl	%r10d, %r13d
	movl	%r13d, %ecx
	andl	%r12d, %ecx
	xorl	%edi, %ecx
	xorl	%r10d, %r11d
	andl	%r10d, %esi
	xorl	%esi, %r13d
	andl	%ecx, %r13d
	xorl	%r12d, %r13d
	xorl	%r9d, %esi
	andl	%r11d, 4(%rsp)                  # 4-byte Folded Spill
	movl	%esi, %edi
	xorl	%r11d, %edi
	movl	%ecx, %r10d
	xorl	%r11d, %r10d
	andl	%edx, %r11d
	movl	%r13d, %edx
	xorl	%edi, %edx
	andl	%r10d, %r8d
	movl	%r8d, 20(%rsp)                  # 4-byte Spill
	movl	%edx, %r12d
	xorl	%r10d, %r12d
	andl	28(%rsp), %r10d                 # 4-byte Folded Reload
	movl	%r13d, %eax
	xorl	%ecx, %eax
	andl	%eax, %ebx
	andl	16(%rsp), %eax                  # 4-byte Folded Reload
	movl	12(%rsp), %r9d                  # 4-byte Reload
	andl	%r13d, %r9d
	andl	24(%rsp), %r13d                 # 4-byte Folded Reload
	andl	%edi, %ebp
	andl	32(%rsp), %edi                  # 4-byte Folded Reload
	movl	36(%rsp), %r8d                  # 4-byte Reload
	andl	%r12d, %r8d
	andl	40(%rsp), %r12d                 # 4-byte Folded Reload
	andl	%ecx, %r14d
	andl	8(%rsp), %ecx                   # 4-byte Folded Reload
	andl	%esi, %r15d
	andl	52(%rsp), %esi                  # 4-byte Folded Reload
	xorl	%r15d, %ebp
	xorl	%r11d, %r15d
	xorl	%ebx, %r9d
	xorl	%r15d, %ecx
	xorl	%ebx, %ecx
	xorl	%r10d, %r8d
	xorl	%r8d, %edi
	xorl	%ecx, %r13d
	xorl	%r8d, %r13d
	xorl	%r9d, %r12d
	xorl	%r9d, %ebp
	movl	44(%rsp), %r8d                  # 4-byte Reload
	andl	%edx, %r8d
	xorl	%r8d, %r15d
	xorl	%eax, %r15d
	xorl	%r12d, %r15d
	xorl	20(%rsp), %r12d                 # 4-byte Folded Reload
	xorl	%edi, %esi
	xorl	%r15d, %r14d
	xorl	%esi, %ebp
	xorl	4(%rsp), %edi                   # 4-byte Folded Reload
	xorl	%ebp, %ecx
	andl	48(%rsp), %edx                  # 4-byte Folded Reload
	xorl	%r14d, %edi
	xorl	%r12d, %esi
	xorl	%r13d, %eax
	notl	%eax
	xorl	%r13d, %r15d
	notl	%r15d
	xorl	%r10d, %edx
	xorl	%r12d, %edx
	xorl	%r14d, %edx
	notl	%edx
	xorl	%ebp, %r12d
	notl	%r12d
	movl	%eax, %r8d
	shrl	$4, %r8d
	xorl	%eax, %r8d
	andl	$202310400, %r8d                # imm = 0xC0F0300
	xorl	%r8d, %eax
	shll	$4, %r8d
	xorl	%eax, %r8d
	movl	%r15d, %r10d
	shrl	$4, %r10d
	xorl	%r15d, %r10d
	andl	$202310400, %r10d               # imm = 0xC0F0300
	xorl	%r10d, %r15d
	shll	$4, %r10d
	xorl	%r15d, %r10d
	movl	%edi, %eax
	shrl	$4, %eax
	xorl	%edi, %eax
	andl	$202310400, %eax                # imm = 0xC0F0300
	movl	%eax, %r11d
	shll	$4, %r11d
	orl	%eax, %r11d
	xorl	%edi, %r11d
	movl	%ecx, %eax
	shrl	$4, %eax
	xorl	%ecx, %eax
	andl	$202310400, %eax                # imm = 0xC0F0300
	movl	%eax, %ebx
	shll	$4, %ebx
	orl	%eax, %ebx
	xorl	%ecx, %ebx
	movl	%ebp, %eax
	shrl	$4, %eax
	xorl	%ebp, %eax
	andl	$202310400, %eax                # imm = 0xC0F0300
	movl	%eax, %r15d
	shll	$4, %r15d
	orl	%eax, %r15d
	xorl	%ebp, %r15d
	movl	%edx, %edi
	shrl	$4, %edi
	xorl	%edx, %edi
	andl	$202310400, %edi                # imm = 0xC0F0300
	xorl	%edi, %edx
	shll	$4, %edi
	xorl	%edx, %edi
	movl	%r12d, %r14d
	shrl	$4, %r14d
	xorl	%r12d, %r14d
	andl	$202310400, %r14d               # imm = 0xC0F0300
	xorl	%r14d, %r12d
	shll	$4, %r14d
	xorl	%r12d, %r14d
	movl	%esi, %eax
	shrl	$4, %eax
	xorl	%esi, %eax
	andl	$202310400, %eax                # imm = 0xC0F0300
	movl	%eax, %r12d
	shll	$4, %r12d
	orl	%eax, %r12d
	xorl	%esi, %r12d
	movl	%r8d, %eax
	shrl	$2, %eax
	xorl	%r8d, %eax
	andl	$855651072, %eax                # imm = 0x33003300
	leal	(%rax,%rax,4), %eax
	xorl	%r8d, %eax
	movl	%eax, %r8d
	movl	%r10d, %eax
	shrl	$2, %eax
	xorl	%r10d, %eax
	andl	$855651072, %eax                # imm = 0x33003300
	leal	(%rax,%rax,4), %eax
	xorl	%r10d, %eax
	movl	%r11d, %edx
	shrl	$2, %edx
	xorl	%r11d, %edx
	andl	$855651072, %edx                # imm = 0x33003300
	leal	(%rdx,%rdx,4), %ebp
	xorl	%r11d, %ebp
	movl	%ebx, %edx
	shrl	$2, %edx
	xorl	%ebx, %edx
	andl	$855651072, %edx                # imm = 0x33003300
	leal	(%rdx,%rdx,4), %edx
	xorl	%ebx, %edx
	movl	%r15d, %esi
	shrl	$2, %esi
	xorl	%r15d, %esi
	andl	$855651072, %esi                # imm = 0x33003300
	leal	(%rsi,%rsi,4), %r11d
	xorl	%r15d, %r11d
	movl	%edi, %esi
	shrl	$2, %esi
	xorl	%edi, %esi
	andl	$855651072, %esi                # imm = 0x33003300
	leal	(%rsi,%rsi,4), %esi
	xorl	%edi, %esi
	movl	%r14d, %edi
	shrl	$2, %edi
	xorl	%r14d, %edi
	andl	$855651072, %edi                # imm = 0x33003300
	leal	(%rdi,%rdi,4), %ecx
	xorl	%r14d, %ecx
	movl	%r12d, %edi
	shrl	$2, %edi
	xorl	%r12d, %edi
	andl	$855651072, %edi                # imm = 0x33003300
	movl	%r8d, %r9d
	movl	%r8d, %r10d
	roll	$24, %r10d
	leal	(%rdi,%rdi,4), %edi
	movl	%eax, %r14d
	roll	$24, %r14d
	xorl	%r12d, %edi
	movl	%ebp, %r8d
	roll	$24, %r8d
	movl	%edx, %ebx
	roll	$24, %ebx
	movl	%edi, %r15d
	roll	$24, %r15d
	xorl	%r10d, %r9d
	movl	%r9d, %r12d
	movl	%r9d, 4(%rsp)                   # 4-byte Spill
	xorl	%r15d, %edi
	roll	$16, %r12d
	xorl	%edi, %r10d
	xorl	%r12d, %r10d
	movl	%r11d, %r12d
	roll	$24, %r12d
	movl	%esi, %r13d
	roll	$24, %r13d
	xorl	%r14d, %eax
	xorl	%r8d, %ebp
	xorl	%ebx, %edx
	xorl	%r12d, %r11d
	xorl	%edi, %r12d
	xorl	%edx, %r12d
	roll	$16, %edx
	xorl	%ebp, %edx
	roll	$16, %ebp
	xorl	%eax, %r8d
	xorl	%ebp, %r8d
	movl	%ecx, %r9d
	roll	$24, %r9d
	xorl	%r13d, %esi
	movl	%esi, %ebp
	roll	$16, %ebp
	xorl	%r11d, %ebp
	roll	$16, %r11d
	xorl	%r11d, %r12d
	xorl	%r9d, %ecx
	xorl	%r9d, %esi
	movl	%edi, %r11d
	roll	$16, %r11d
	xorl	%r15d, %r11d
	xorl	%ecx, %r11d
	roll	$16, %ecx
	xorl	%ecx, %esi
	roll	$16, %eax
	xorl	%r14d, %eax
	movl	%r10d, %ecx
	shrl	%ecx
	xorl	%edi, %eax
	xorl	%ecx, %eax
	xorl	4(%rsp), %eax                   # 4-byte Folded Reload
	addl	%eax, %eax
	andl	$-1431655766, %eax              # imm = 0xAAAAAAAA
	xorl	%r10d, %eax
	movl	%r8d, %ecx
	shrl	%ecx
	xorl	%ecx, %edx
	xorl	%ebx, %edi
	xorl	%edx, %edi
	addl	%edi, %edi
	andl	$-1431655766, %edi              # imm = 0xAAAAAAAA
	xorl	%r8d, %edi
	xorl	%r13d, %ebp
	movl	%r12d, %ecx
	shrl	%ecx
	xorl	%ecx, %ebp
	addl	%ebp, %ebp
	andl	$-1431655766, %ebp              # imm = 0xAAAAAAAA
	xorl	%r12d, %ebp
	movl	%esi, %ecx
	shrl	%ecx
	xorl	%ecx, %r11d
	addl	%r11d, %r11d
	andl	$-1431655766, %r11d             # imm = 0xAAAAAAAA
	xorl	%esi, %r11d
	movl	%eax, %ecx
	shrl	$2, %ecx
	xorl	%edi, %ecx
	andl	$858993459, %ecx                # imm = 0x33333333
	leal	(,%rcx,4), %r8d
	xorl	%eax, %r8d
	xorl	%edi, %ecx
	movl	%ebp, %esi
	shrl	$2, %esi
	xorl	%r11d, %esi
	andl	$858993459, %esi                # imm = 0x33333333
	leal	(,%rsi,4), %edi
	xorl	%ebp, %edi
	xorl	%r11d, %esi
	movl	%r8d, %edx
	shrl	$4, %edx
	xorl	%edi, %edx
	andl	$252645135, %edx                # imm = 0xF0F0F0F
	movl	%edx, %eax
	shll	$4, %eax
	xorl	%r8d, %eax
	xorl	%edi, %edx
	movl	%ecx, %r8d
	shrl	$4, %r8d
	xorl	%esi, %r8d
	andl	$252645135, %r8d                # imm = 0xF0F0F0F
	movl	%r8d, %edi
	shll	$4, %edi
	xorl	%ecx, %edi
	xorl	%esi, %r8d
	movd	%r8d, %xmm1
	movd	%edx, %xmm0
	movd	%edi, %xmm2
	movd	%eax, %xmm3
	movq	88(%rsp), %rax                  # 8-byte Reload
	movdqu	(%rax), %xmm4
	movdqa	%xmm1, %xmm5
	psrld	$24, %xmm5
	movdqa	%xmm1, %xmm6
	psrld	$16, %xmm6
	punpcklbw	%xmm5, %xmm6            # xmm6 = xmm6[0],xmm5[0],xmm6[1],xmm5[1],xmm6[2],xmm5[2],xmm6[3],xmm5[3],xmm6[4],xmm5[4],xmm6[5],xmm5[5],xmm6[6],xmm5[6],xmm6[7],xmm5[7]
	movdqa	%xmm1, %xmm5
	psrld	$8, %xmm5
	punpcklbw	%xmm5, %xmm1            # xmm1 = xmm1[0],xmm5[0],xmm1[1],xmm5[1],xmm1[2],xmm5[2],xmm1[3],xmm5[3],xmm1[4],xmm5[4],xmm1[5],xmm5[5],xmm1[6],xmm5[6],xmm1[7],xmm5[7]
	punpcklwd	%xmm6, %xmm1            # xmm1 = xmm1[0],xmm6[0],xmm1[1],xmm6[1],xmm1[2],xmm6[2],xmm1[3],xmm6[3]
	movdqa	%xmm0, %xmm5
	psrld	$24, %xmm5
	movdqa	%xmm0, %xmm6
	psrld	$16, %xmm6
	punpcklbw	%xmm5, %xmm6            # xmm6 = xmm6[0],xmm5[0],xmm6[1],xmm5[1],xmm6[2],xmm5[2],xmm6[3],xmm5[3],xmm6[4],xmm5[4],xmm6[5],xmm5[5],xmm6[6],xmm5[6],xmm6[7],xmm5[7]
	movdqa	%xmm0, %xmm5
	psrld	$8, %xmm5
	punpcklbw	%xmm5, %xmm0            # xmm0 = xmm0[0],xmm5[0],xmm0[1],xmm5[1],xmm0[2],xmm5[2],xmm0[3],xmm5[3],xmm0[4],xmm5[4],xmm0[5],xmm5[5],xmm0[6],xmm5[6],xmm0[7],xmm5[7]
	punpcklwd	%xmm6, %xmm0            # xmm0 = xmm0[0],xmm6[0],xmm0[1],xmm6[1],xmm0[2],xmm6[2],xmm0[3],xmm6[3]
	punpckldq	%xmm1, %xmm0            # xmm0 = xmm0[0],xmm1[0],xmm0[1],xmm1[1]
	movdqa	%xmm2, %xmm1
	psrld	$24, %xmm1
	movdqa	%xmm2, %xmm5
	psrld	$16, %xmm5
	punpcklbw	%xmm1, %xmm5            # xmm5 = xmm5[0],xmm1[0],xmm5[1],xmm1[1],xmm5[2],xmm1[2],xmm5[3],xmm1[3],xmm5[4],xmm1[4],xmm5[5],xmm1[5],xmm5[6],xmm1[6],xmm5[7],xmm1[7]
	movdqa	%xmm2, %xmm1
	psrld	$8, %xmm1
	punpcklbw	%xmm1, %xmm2            # xmm2 = xmm2[0],xmm1[0],xmm2[1],xmm1[1],xmm2[2],xmm1[2],xmm2[3],xmm1[3],xmm2[4],xmm1[4],xmm2[5],xmm1[5],xmm2[6],xmm1[6],xmm2[7],xmm1[7]
	punpcklwd	%xmm5, %xmm2            # xmm2 = xmm2[0],xmm5[0],xmm2[1],xmm5[1],xmm2[2],xmm5[2],xmm2[3],xmm5[3]
	movdqa	%xmm3, %xmm1
	psrld	$24, %xmm1
	movdqa	%xmm3, %xmm5
	psrld	$16, %xmm5
	punpcklbw	%xmm1, %xmm5            # xmm5 = xmm5[0],xmm1[0],xmm5[1],xmm1[1],xmm5[2],xmm1[2],xmm5[3],xmm1[3],xmm5[4],xmm1[4],xmm5[5],xmm1[5],xmm5[6],xmm1[6],xmm5[7],xmm1[7]
	movdqa	%xmm3, %xmm1
	psrld	$8, %xmm1
	punpcklbw	%xmm1, %xmm3            # xmm3 = xmm3[0],xmm1[0],xmm3[1],xmm1[1],xmm3[2],xmm1[2],xmm3[3],xmm1[3],xmm3[4],xmm1[4],xmm3[5],xmm1[5],xmm3[6],xmm1[6],xmm3[7],xmm1[7]
	punpcklwd	%xmm5, %xmm3            # xmm3 = xmm3[0],xmm5[0],xmm3[1],xmm5[1],xmm3[2],xmm5[2],xmm3[3],xmm5[3]
	punpckldq	%xmm2, %xmm3            # xmm3 = xmm3[0],xmm2[0],xmm3[1],xmm2[1]
	punpcklqdq	%xmm0, %xmm3            # xmm3 = xmm3[0],xmm0[0]
	pxor	%xmm3, %xmm4
	movq	96(%rsp), %rax                  # 8-byte Reload
	movdqu	%xmm4, (%rax)
	addq	$104, %rsp
	popq	%rbx
	popq	%r12
	popq	%r13
	popq	%r14
	popq	%r15
	popq	%rbp
	retq
	.seh_endproc
                                        # -- End function
	.def	aes_v1.aes_c.single_rounds.rounds;
	.scl	3;
	.type	32;
	.endef
	.section	.rdata,"dr"
	.p2align	4, 0x0                          # -- Begin function aes_c::single_rounds::rounds
.Laes_v1_CPI40_0:
	.long	252645135                       # 0xf0f0f0f
	.long	252645135                       # 0xf0f0f0f
	.zero	4
	.zero	4
	.text
	.p2align	4
aes_v1.aes_c.single_rounds.rounds:         # @aes_v1.aes_c.single_rounds.rounds
.seh_proc aes_v1.aes_c.single_rounds.rounds
# %bb.0:                                # %start
	pushq	%rbp
	.seh_pushreg %rbp
	pushq	%r15
	.seh_pushreg %r15
	pushq	%r14
	.seh_pushreg %r14
	pushq	%r13
	.seh_pushreg %r13
	pushq	%r12
	.seh_pushreg %r12
	pushq	%rbx
	.seh_pushreg %rbx
	subq	$80, %rsp
	.seh_stackalloc 80
	.seh_endprologue
	movq	%rsi, 56(%rsp)                  # 8-byte Spill
	movq	$-2, %rax
	movq	%rdi, 64(%rsp)                  # 8-byte Spill
	movq	%rdi, %rcx
	.p2align	4
.Laes_v1_BB40_1:                               # %join.5.i.i
                                        # =>This Inner Loop Header: Depth=1
	movq	%rcx, 48(%rsp)                  # 8-byte Spill
	movq	%rax, 72(%rsp)                  # 8-byte Spill
	movl	16(%rcx), %edx
	movl	(%rcx), %edi
	movl	4(%rcx), %ebx
	movl	20(%rcx), %ebp
	movl	8(%rcx), %r10d
	movl	24(%rcx), %r9d
	movl	12(%rcx), %r8d
	movq	48(%rsp), %rax                  # 8-byte Reload
	movl	28(%rax), %ecx
	movl	%edi, %eax
	shrl	%eax
	xorl	%edx, %eax
	andl	$1431655765, %eax               # imm = 0x55555555
	leal	(%rax,%rax), %esi
	xorl	%edi, %esi
	xorl	%edx, %eax
	movl	%ebx, %edx
	shrl	%edx
	xorl	%ebp, %edx
	andl	$1431655765, %edx               # imm = 0x55555555
	leal	(%rdx,%rdx), %r11d
	xorl	%ebx, %r11d
	xorl	%ebp, %edx
	movl	%r10d, %edi
	shrl	%edi
	xorl	%r9d, %edi
	andl	$1431655765, %edi               # imm = 0x55555555
	leal	(%rdi,%rdi), %ebx
	xorl	%r10d, %ebx
	xorl	%r9d, %edi
	movl	%r8d, %r9d
	shrl	%r9d
	xorl	%ecx, %r9d
	andl	$1431655765, %r9d               # imm = 0x55555555
	leal	(%r9,%r9), %ebp
	xorl	%r8d, %ebp
	xorl	%ecx, %r9d
	movl	%esi, %ecx
	shrl	$2, %ecx
	xorl	%r11d, %ecx
	andl	$858993459, %ecx                # imm = 0x33333333
	leal	(,%rcx,4), %r10d
	xorl	%esi, %r10d
	xorl	%r11d, %ecx
	movl	%ebx, %esi
	shrl	$2, %esi
	xorl	%ebp, %esi
	andl	$858993459, %esi                # imm = 0x33333333
	leal	(,%rsi,4), %r11d
	xorl	%ebx, %r11d
	xorl	%ebp, %esi
	movl	%eax, %r8d
	shrl	$2, %r8d
	xorl	%edx, %r8d
	andl	$858993459, %r8d                # imm = 0x33333333
	leal	(,%r8,4), %ebx
	xorl	%eax, %ebx
	xorl	%edx, %r8d
	movl	%edi, %edx
	shrl	$2, %edx
	xorl	%r9d, %edx
	andl	$858993459, %edx                # imm = 0x33333333
	leal	(,%rdx,4), %eax
	xorl	%edi, %eax
	xorl	%r9d, %edx
	movl	%r10d, %ebp
	shrl	$4, %ebp
	xorl	%r11d, %ebp
	andl	$252645135, %ebp                # imm = 0xF0F0F0F
	movl	%ebp, %r12d
	shll	$4, %r12d
	xorl	%r10d, %r12d
	xorl	%r11d, %ebp
	movl	%ebx, %r9d
	shrl	$4, %r9d
	xorl	%eax, %r9d
	andl	$252645135, %r9d                # imm = 0xF0F0F0F
	movl	%r9d, %r11d
	shll	$4, %r11d
	xorl	%ebx, %r11d
	xorl	%eax, %r9d
	movl	%ecx, %edi
	shrl	$4, %edi
	xorl	%esi, %edi
	andl	$252645135, %edi                # imm = 0xF0F0F0F
	movl	%edi, %eax
	shll	$4, %eax
	xorl	%ecx, %eax
	movl	%eax, %r10d
	xorl	%esi, %edi
	movl	%r8d, %eax
	shrl	$4, %eax
	xorl	%edx, %eax
	andl	$252645135, %eax                # imm = 0xF0F0F0F
	movl	%eax, %ecx
	shll	$4, %ecx
	xorl	%r8d, %ecx
	xorl	%edx, %eax
	xorl	%edi, %r9d
	movl	%ebp, %r15d
	xorl	%eax, %r15d
	movl	%r12d, %esi
	xorl	%r9d, %esi
	movl	%esi, 4(%rsp)                   # 4-byte Spill
	movl	%esi, %edx
	xorl	%ebp, %edx
	movl	%edx, (%rsp)                    # 4-byte Spill
	andl	%r12d, %edx
	xorl	%r11d, %esi
	movl	%esi, %r14d
	xorl	%eax, %r11d
	movl	%r11d, 8(%rsp)                  # 4-byte Spill
	xorl	%r10d, %ebp
	movl	%r11d, %esi
	xorl	%ebp, %esi
	xorl	%esi, %ecx
	movl	%esi, 44(%rsp)                  # 4-byte Spill
	movl	%ecx, %r13d
	xorl	%r10d, %r13d
	xorl	%edi, %ecx
	xorl	%eax, %r10d
	movl	%r10d, 40(%rsp)                 # 4-byte Spill
	movl	%r13d, %ebx
	andl	%esi, %ebx
	movl	%r13d, %esi
	xorl	%r9d, %esi
	movl	%esi, %r11d
	movl	%esi, 36(%rsp)                  # 4-byte Spill
	xorl	%r10d, %edx
	xorl	%esi, %edx
	xorl	%ebx, %edx
	xorl	%ecx, %ebx
	movl	%ecx, %r8d
	movl	%r15d, 20(%rsp)                 # 4-byte Spill
	xorl	%r15d, %r8d
	movl	%r8d, %esi
	andl	%r15d, %esi
	movl	%r8d, %edi
	xorl	%r11d, %edi
	movl	%edi, 32(%rsp)                  # 4-byte Spill
	andl	%ebp, %edi
	movl	%r11d, %ecx
	andl	%r10d, %ecx
	xorl	%esi, %edi
	xorl	%esi, %ecx
	movl	%r13d, %r15d
	xorl	%r12d, %r15d
	movl	%r14d, 24(%rsp)                 # 4-byte Spill
	movl	%r14d, %r11d
	xorl	%r10d, %r11d
	movl	%r11d, 28(%rsp)                 # 4-byte Spill
	movl	%r15d, %esi
	andl	%r11d, %esi
	xorl	%esi, %ebx
	movl	%r8d, %esi
	movl	%r8d, 12(%rsp)                  # 4-byte Spill
	xorl	%r8d, %r9d
	movl	%r14d, %r11d
	movl	4(%rsp), %r8d                   # 4-byte Reload
	andl	%r8d, %r11d
	movl	%r9d, %r10d
	movl	8(%rsp), %r14d                  # 4-byte Reload
	andl	%r14d, %r10d
	xorl	%edi, %ebx
	xorl	%r9d, %r11d
	xorl	%r10d, %r11d
	xorl	%r14d, %r11d
	xorl	%edi, %r11d
	movl	%r8d, %r14d
	xorl	%eax, %r14d
	xorl	%eax, %r10d
	movl	%esi, %eax
	xorl	%r12d, %eax
	movl	%eax, 16(%rsp)                  # 4-byte Spill
	andl	%r14d, %eax
	xorl	%r9d, %eax
	xorl	%eax, %r10d
	xorl	%ecx, %edx
	xorl	%ecx, %r10d
	movl	%r11d, %esi
	andl	%ebx, %esi
	movl	%esi, %eax
	xorl	%edx, %eax
	movl	%r10d, %edi
	xorl	%r11d, %edi
	andl	%eax, %edi
	xorl	%edx, %ebx
	movl	%edi, %r8d
	xorl	%esi, %edi
	xorl	%r10d, %esi
	movl	%esi, %ecx
	andl	%ebx, %ecx
	xorl	%edx, %ecx
	xorl	%r10d, %r8d
	andl	%r10d, %edi
	xorl	%edi, %esi
	andl	%ecx, %esi
	xorl	%ebx, %esi
	xorl	%r11d, %edi
	andl	%r8d, (%rsp)                    # 4-byte Folded Spill
	movl	%edi, %ebx
	xorl	%r8d, %ebx
	movl	%ecx, %r11d
	xorl	%r8d, %r11d
	andl	%r12d, %r8d
	movl	%esi, %edx
	xorl	%ebx, %edx
	andl	%r11d, 12(%rsp)                 # 4-byte Folded Spill
	movl	%edx, %r12d
	xorl	%r11d, %r12d
	andl	20(%rsp), %r11d                 # 4-byte Folded Reload
	movl	%esi, %eax
	xorl	%ecx, %eax
	andl	%eax, %r9d
	andl	8(%rsp), %eax                   # 4-byte Folded Reload
	movl	4(%rsp), %r10d                  # 4-byte Reload
	andl	%esi, %r10d
	andl	24(%rsp), %esi                  # 4-byte Folded Reload
	andl	%ebx, %r15d
	andl	28(%rsp), %ebx                  # 4-byte Folded Reload
	andl	%r12d, %ebp
	andl	32(%rsp), %r12d                 # 4-byte Folded Reload
	andl	%ecx, %r14d
	andl	16(%rsp), %ecx                  # 4-byte Folded Reload
	andl	%edi, %r13d
	andl	44(%rsp), %edi                  # 4-byte Folded Reload
	xorl	%r13d, %r15d
	xorl	%r8d, %r13d
	xorl	%r9d, %r10d
	xorl	%r13d, %ecx
	xorl	%r9d, %ecx
	xorl	%r11d, %ebp
	xorl	%ebp, %ebx
	xorl	%ecx, %esi
	xorl	%ebp, %esi
	xorl	%r10d, %r12d
	xorl	%r10d, %r15d
	movl	36(%rsp), %r8d                  # 4-byte Reload
	andl	%edx, %r8d
	xorl	%ebx, %edi
	xorl	%r8d, %r13d
	xorl	%eax, %r13d
	xorl	%r12d, %r13d
	xorl	%r13d, %r14d
	xorl	%edi, %r15d
	xorl	12(%rsp), %r12d                 # 4-byte Folded Reload
	xorl	(%rsp), %ebx                    # 4-byte Folded Reload
	xorl	%r15d, %ecx
	andl	40(%rsp), %edx                  # 4-byte Folded Reload
	xorl	%r14d, %ebx
	xorl	%r12d, %edi
	xorl	%esi, %eax
	notl	%eax
	xorl	%esi, %r13d
	notl	%r13d
	xorl	%r11d, %edx
	xorl	%r12d, %edx
	xorl	%r14d, %edx
	notl	%edx
	xorl	%r15d, %r12d
	notl	%r12d
	movl	%eax, %esi
	shrl	$4, %esi
	xorl	%eax, %esi
	andl	$202310400, %esi                # imm = 0xC0F0300
	xorl	%esi, %eax
	shll	$4, %esi
	xorl	%eax, %esi
	movl	%r13d, %eax
	shrl	$4, %eax
	xorl	%r13d, %eax
	andl	$202310400, %eax                # imm = 0xC0F0300
	xorl	%eax, %r13d
	shll	$4, %eax
	xorl	%r13d, %eax
	movl	%ebx, %r9d
	shrl	$4, %r9d
	xorl	%ebx, %r9d
	andl	$202310400, %r9d                # imm = 0xC0F0300
	movl	%r9d, %r8d
	shll	$4, %r8d
	orl	%r9d, %r8d
	xorl	%ebx, %r8d
	movl	%ecx, %r10d
	shrl	$4, %r10d
	xorl	%ecx, %r10d
	andl	$202310400, %r10d               # imm = 0xC0F0300
	movl	%r10d, %r9d
	shll	$4, %r9d
	orl	%r10d, %r9d
	xorl	%ecx, %r9d
	movl	%r15d, %ecx
	shrl	$4, %ecx
	xorl	%r15d, %ecx
	andl	$202310400, %ecx                # imm = 0xC0F0300
	movl	%ecx, %r14d
	shll	$4, %r14d
	orl	%ecx, %r14d
	xorl	%r15d, %r14d
	movl	%edx, %ecx
	shrl	$4, %ecx
	xorl	%edx, %ecx
	andl	$202310400, %ecx                # imm = 0xC0F0300
	xorl	%ecx, %edx
	shll	$4, %ecx
	xorl	%edx, %ecx
	movl	%r12d, %r11d
	shrl	$4, %r11d
	xorl	%r12d, %r11d
	andl	$202310400, %r11d               # imm = 0xC0F0300
	xorl	%r11d, %r12d
	shll	$4, %r11d
	xorl	%r12d, %r11d
	movl	%edi, %edx
	shrl	$4, %edx
	xorl	%edi, %edx
	andl	$202310400, %edx                # imm = 0xC0F0300
	movl	%edx, %ebp
	shll	$4, %ebp
	orl	%edx, %ebp
	xorl	%edi, %ebp
	movl	%esi, %edx
	shrl	$2, %edx
	xorl	%esi, %edx
	andl	$855651072, %edx                # imm = 0x33003300
	leal	(%rdx,%rdx,4), %edi
	xorl	%esi, %edi
	movl	%eax, %edx
	shrl	$2, %edx
	xorl	%eax, %edx
	andl	$855651072, %edx                # imm = 0x33003300
	leal	(%rdx,%rdx,4), %edx
	xorl	%eax, %edx
	movl	%r8d, %eax
	shrl	$2, %eax
	xorl	%r8d, %eax
	andl	$855651072, %eax                # imm = 0x33003300
	leal	(%rax,%rax,4), %eax
	xorl	%r8d, %eax
	movl	%eax, %r13d
	movl	%eax, (%rsp)                    # 4-byte Spill
	movl	%r9d, %eax
	shrl	$2, %eax
	xorl	%r9d, %eax
	andl	$855651072, %eax                # imm = 0x33003300
	leal	(%rax,%rax,4), %ebx
	xorl	%r9d, %ebx
	movl	%r14d, %eax
	shrl	$2, %eax
	xorl	%r14d, %eax
	andl	$855651072, %eax                # imm = 0x33003300
	leal	(%rax,%rax,4), %r8d
	xorl	%r14d, %r8d
	movl	%ecx, %eax
	shrl	$2, %eax
	xorl	%ecx, %eax
	andl	$855651072, %eax                # imm = 0x33003300
	leal	(%rax,%rax,4), %eax
	xorl	%ecx, %eax
	movl	%r11d, %ecx
	shrl	$2, %ecx
	xorl	%r11d, %ecx
	andl	$855651072, %ecx                # imm = 0x33003300
	leal	(%rcx,%rcx,4), %r9d
	xorl	%r11d, %r9d
	movl	%ebp, %ecx
	shrl	$2, %ecx
	movl	%edi, %esi
	roll	$24, %esi
	xorl	%ebp, %ecx
	movl	%edx, %r11d
	roll	$24, %r11d
	andl	$855651072, %ecx                # imm = 0x33003300
	roll	$24, %r13d
	leal	(%rcx,%rcx,4), %ecx
	movl	%ebx, %r15d
	roll	$24, %r15d
	xorl	%ebp, %ecx
	movl	%r8d, %r12d
	roll	$24, %r12d
	movl	%eax, %r14d
	roll	$24, %r14d
	movl	%ecx, %ebp
	roll	$24, %ebp
	xorl	%r11d, %edx
	xorl	%ebp, %ecx
	movl	%edx, %r10d
	roll	$16, %r10d
	xorl	%ecx, %r11d
	xorl	%r10d, %r11d
	xorl	%esi, %edi
	xorl	%edi, %r11d
	roll	$16, %edi
	xorl	%ecx, %esi
	xorl	%edi, %esi
	movl	%r9d, %edi
	roll	$24, %edi
	movl	(%rsp), %r10d                   # 4-byte Reload
	xorl	%r13d, %r10d
	xorl	%r13d, %edx
	movl	%r10d, %r13d
	roll	$16, %r13d
	xorl	%r12d, %r8d
	xorl	%r13d, %edx
	movl	%ecx, %r13d
	xorl	%ecx, %r10d
	xorl	%r12d, %ecx
	xorl	%r15d, %ebx
	xorl	%r14d, %eax
	xorl	%edi, %r9d
	xorl	%ebx, %ecx
	roll	$16, %ebx
	xorl	%r15d, %r10d
	movl	%r10d, %r15d
	movl	%r8d, %r10d
	roll	$16, %r10d
	xorl	%ebx, %r15d
	movl	%r15d, (%rsp)                   # 4-byte Spill
	movl	%eax, %ebx
	roll	$16, %ebx
	xorl	%r10d, %ecx
	movl	%r9d, %r10d
	roll	$16, %r10d
	roll	$16, %r13d
	xorl	%r14d, %r8d
	xorl	%ebx, %r8d
	xorl	%edi, %eax
	xorl	%r10d, %eax
	xorl	%ebp, %r9d
	xorl	%r13d, %r9d
	movl	%esi, %edi
	shrl	%edi
	xorl	%r11d, %edi
	andl	$1431655765, %edi               # imm = 0x55555555
	leal	(%rdi,%rdi), %ebp
	movl	%edx, %r14d
	shrl	%r14d
	xorl	%r15d, %r14d
	andl	$1431655765, %r14d              # imm = 0x55555555
	leal	(%r14,%r14), %r12d
	movl	%ecx, %ebx
	shrl	%ebx
	xorl	%r8d, %ebx
	andl	$1431655765, %ebx               # imm = 0x55555555
	leal	(%rbx,%rbx), %r15d
	xorl	%esi, %ebp
	movl	%eax, %esi
	shrl	%esi
	xorl	%r9d, %esi
	andl	$1431655765, %esi               # imm = 0x55555555
	xorl	%edx, %r12d
	leal	(%rsi,%rsi), %edx
	xorl	%ecx, %r15d
	xorl	%eax, %edx
	movl	%ebp, %ecx
	shrl	$2, %ecx
	xorl	%r12d, %ecx
	andl	$858993459, %ecx                # imm = 0x33333333
	leal	(,%rcx,4), %r13d
	xorl	%r12d, %ecx
	xorl	%ebp, %r13d
	movl	%r15d, %eax
	shrl	$2, %eax
	xorl	%edx, %eax
	andl	$858993459, %eax                # imm = 0x33333333
	leal	(,%rax,4), %r10d
	xorl	%edx, %eax
	xorl	%r15d, %r10d
	movd	%ecx, %xmm0
	shrl	$4, %ecx
	xorl	%eax, %ecx
	movd	%ecx, %xmm3
	movd	%r13d, %xmm1
	shrl	$4, %r13d
	xorl	%r10d, %r13d
	movd	%r13d, %xmm2
	movd	%eax, %xmm4
	movd	%r10d, %xmm5
	xorl	%r11d, %edi
	xorl	(%rsp), %r14d                   # 4-byte Folded Reload
	xorl	%r8d, %ebx
	xorl	%r9d, %esi
	movl	%edi, %ecx
	shrl	$2, %ecx
	xorl	%r14d, %ecx
	andl	$858993459, %ecx                # imm = 0x33333333
	leal	(,%rcx,4), %r8d
	xorl	%r14d, %ecx
	xorl	%edi, %r8d
	movl	%ebx, %eax
	shrl	$2, %eax
	xorl	%esi, %eax
	andl	$858993459, %eax                # imm = 0x33333333
	leal	(,%rax,4), %edx
	xorl	%esi, %eax
	xorl	%ebx, %edx
	movd	%ecx, %xmm6
	shrl	$4, %ecx
	xorl	%eax, %ecx
	movd	%ecx, %xmm8
	movq	48(%rsp), %rcx                  # 8-byte Reload
	movd	%r8d, %xmm7
	shrl	$4, %r8d
	xorl	%edx, %r8d
	movd	%r8d, %xmm9
	movd	%eax, %xmm10
	movq	72(%rsp), %rax                  # 8-byte Reload
	movd	%edx, %xmm11
	punpckldq	%xmm3, %xmm2            # xmm2 = xmm2[0],xmm3[0],xmm2[1],xmm3[1]
	movdqa	.Laes_v1_CPI40_0(%rip), %xmm3          # xmm3 = [252645135,252645135,u,u]
	pand	%xmm3, %xmm2
	movdqa	%xmm2, %xmm12
	pslld	$4, %xmm12
	punpcklqdq	%xmm2, %xmm12           # xmm12 = xmm12[0],xmm2[0]
	punpckldq	%xmm0, %xmm1            # xmm1 = xmm1[0],xmm0[0],xmm1[1],xmm0[1]
	punpckldq	%xmm4, %xmm5            # xmm5 = xmm5[0],xmm4[0],xmm5[1],xmm4[1]
	punpcklqdq	%xmm5, %xmm1            # xmm1 = xmm1[0],xmm5[0]
	pxor	%xmm12, %xmm1
	movdqu	%xmm1, (%rcx)
	punpckldq	%xmm8, %xmm9            # xmm9 = xmm9[0],xmm8[0],xmm9[1],xmm8[1]
	pand	%xmm3, %xmm9
	movdqa	%xmm9, %xmm0
	pslld	$4, %xmm0
	punpcklqdq	%xmm9, %xmm0            # xmm0 = xmm0[0],xmm9[0]
	punpckldq	%xmm6, %xmm7            # xmm7 = xmm7[0],xmm6[0],xmm7[1],xmm6[1]
	punpckldq	%xmm10, %xmm11          # xmm11 = xmm11[0],xmm10[0],xmm11[1],xmm10[1]
	punpcklqdq	%xmm11, %xmm7           # xmm7 = xmm7[0],xmm11[0]
	pxor	%xmm0, %xmm7
	movdqu	%xmm7, 16(%rcx)
	addq	$2, %rax
	addq	$32, %rcx
	cmpq	$6, %rax
	jb	.Laes_v1_BB40_1
# %bb.2:                                # %join.5.i.i.i
	movq	56(%rsp), %rcx                  # 8-byte Reload
	movups	(%rcx), %xmm0
	movq	64(%rsp), %rax                  # 8-byte Reload
	movups	(%rax), %xmm1
	xorps	%xmm0, %xmm1
	movups	16(%rax), %xmm0
	movups	32(%rax), %xmm2
	movups	48(%rax), %xmm3
	movups	%xmm1, (%rax)
	movups	16(%rcx), %xmm1
	xorps	%xmm0, %xmm1
	movups	%xmm1, 16(%rax)
	movups	32(%rcx), %xmm0
	xorps	%xmm2, %xmm0
	movups	%xmm0, 32(%rax)
	movups	48(%rcx), %xmm0
	xorps	%xmm3, %xmm0
	movups	%xmm0, 48(%rax)
	movups	64(%rax), %xmm0
	movups	64(%rcx), %xmm1
	xorps	%xmm0, %xmm1
	movups	%xmm1, 64(%rax)
	movups	80(%rax), %xmm0
	movups	80(%rcx), %xmm1
	xorps	%xmm0, %xmm1
	movups	%xmm1, 80(%rax)
	movups	96(%rax), %xmm0
	movups	96(%rcx), %xmm1
	xorps	%xmm0, %xmm1
	movups	%xmm1, 96(%rax)
	movups	112(%rax), %xmm0
	movups	112(%rcx), %xmm1
	xorps	%xmm0, %xmm1
	movups	%xmm1, 112(%rax)
	addq	$80, %rsp
	popq	%rbx
	popq	%r12
	popq	%r13
	popq	%r14
	popq	%r15
	popq	%rbp
	retq
	.seh_endproc
                                        # -- End function
	.def	aes_v1.ccm.mode.decrypt;
	.scl	3;
	.type	32;
	.endef
	.p2align	4                               # -- Begin function ccm::mode::decrypt::<#4f733d09d7f6c6b4>
aes_v1.ccm.mode.decrypt: # @aes_v1.ccm.mode.decrypt
.seh_proc aes_v1.ccm.mode.decrypt
# %bb.0:                                # %start
	pushq	%rbp
	.seh_pushreg %rbp
	pushq	%r15
	.seh_pushreg %r15
	pushq	%r14
	.seh_pushreg %r14
	pushq	%r13
	.seh_pushreg %r13
	pushq	%r12
	.seh_pushreg %r12
	pushq	%rbx
	.seh_pushreg %rbx
	subq	$104, %rsp
	.seh_stackalloc 104
	.seh_endprologue
	movq	%rcx, %rbx
	movq	184(%rsp), %r15
	leaq	-4(%r15), %rax
	cmpq	$13, %rax
	setae	%al
	movl	%r15d, %ecx
	orb	%al, %cl
	testb	$1, %cl
	jne	.Laes_v1_BB41_1
# %bb.2:                                # %after.1.i
	leaq	-14(%rbx), %rcx
	movb	$1, %al
	cmpq	$-7, %rcx
	jb	.Laes_v1_BB41_5
# %bb.3:                                # %"ccm::formatting::check.exit"
	movq	168(%rsp), %r13
	leal	(,%rbx,8), %ecx
	xorb	$120, %cl
	movq	%r13, %r10
                                        # kill: def $cl killed $cl killed $ecx
	shrq	%cl, %r10
	cmpq	$7, %rbx
	je	.Laes_v1_BB41_6
# %bb.4:                                # %"ccm::formatting::check.exit"
	movb	$2, %al
	testq	%r10, %r10
	jne	.Laes_v1_BB41_5
.Laes_v1_BB41_6:                               # %join.4
	movq	%rdi, 72(%rsp)                  # 8-byte Spill
	movb	$14, %r14b
	subb	%bl, %r14b
	movq	$0, 32(%rsp)
	movq	$0, 39(%rsp)
	leaq	32(%rsp), %rcx
	movq	%rdx, %r12
	movq	%r8, 88(%rsp)                   # 8-byte Spill
	movq	%rbx, %r8
	movq	%r9, 96(%rsp)                   # 8-byte Spill
	callq	memcpy
	movb	%r14b, 48(%rsp)
	movq	32(%rsp), %rax
	movq	39(%rsp), %rcx
	movq	%rax, 49(%rsp)
	movq	%rcx, 56(%rsp)
	leaq	48(%rsp), %rax
	movl	$16, %edx
	movq	%rsi, %rdi
	movq	%rsi, %rbp
	movq	%rax, %rsi
	movq	160(%rsp), %rcx
	movq	%r13, %r8
	callq	aes_v1.aes_ctr.add_in_batches.add_keystream
	leaq	32(%rsp), %rax
	movq	%rax, 16(%rsp)
	movq	%r13, 8(%rsp)
	movq	160(%rsp), %rax
	movq	%rax, (%rsp)
	movq	%rbp, 80(%rsp)                  # 8-byte Spill
	movq	%rbp, %rdi
	movq	%r12, %rbp
	movq	%r12, %rsi
	movq	%rbx, %rdx
	movq	%r15, %rcx
	movq	88(%rsp), %r8                   # 8-byte Reload
	movq	96(%rsp), %r9                   # 8-byte Reload
	callq	aes_v1.ccm.message.put_tag
	movups	32(%rsp), %xmm0
	movaps	%xmm0, 48(%rsp)
	leaq	48(%rsp), %rdi
	movq	%rdi, %rcx
	movq	176(%rsp), %rdx
	movq	%r15, %r8
	callq	memcpy
	leaq	32(%rsp), %rsi
	callq	aes_v1.aes_cipher.blocks.difference
	testl	%eax, %eax
	je	.Laes_v1_BB41_7
# %bb.8:                                # %join.7
	movq	$0, 32(%rsp)
	movq	$0, 39(%rsp)
	leaq	32(%rsp), %rcx
	movq	%rbp, %rdx
	movq	%rbx, %r8
	callq	memcpy
	movb	%r14b, 48(%rsp)
	movq	32(%rsp), %rax
	movq	39(%rsp), %rcx
	movq	%rax, 49(%rsp)
	movq	%rcx, 56(%rsp)
	leaq	48(%rsp), %rsi
	movl	$16, %edx
	movq	80(%rsp), %rdi                  # 8-byte Reload
	movq	160(%rsp), %rcx
	movq	168(%rsp), %r8
	callq	aes_v1.aes_ctr.add_in_batches.add_keystream
	movq	72(%rsp), %rax                  # 8-byte Reload
	movw	$257, (%rax)                    # imm = 0x101
	jmp	.Laes_v1_BB41_9
.Laes_v1_BB41_1:
	xorl	%eax, %eax
.Laes_v1_BB41_5:                               # %arm.1
	movw	$1, (%rdi)
	movb	%al, 2(%rdi)
.Laes_v1_BB41_10:                              # %common.ret
	addq	$104, %rsp
	popq	%rbx
	popq	%r12
	popq	%r13
	popq	%r14
	popq	%r15
	popq	%rbp
	retq
.Laes_v1_BB41_7:                               # %then.5
	movq	72(%rsp), %rax                  # 8-byte Reload
	movw	$0, (%rax)
.Laes_v1_BB41_9:                               # %common.ret
	movb	$0, 2(%rax)
	jmp	.Laes_v1_BB41_10
	.seh_endproc
                                        # -- End function
	.def	aes_v1.ccm.message.put_tag;
	.scl	3;
	.type	32;
	.endef
	.p2align	4                               # -- Begin function ccm::message::put_tag::<#4f733d09d7f6c6b4>
aes_v1.ccm.message.put_tag: # @aes_v1.ccm.message.put_tag
.seh_proc aes_v1.ccm.message.put_tag
# %bb.0:                                # %start
	pushq	%rbp
	.seh_pushreg %rbp
	pushq	%r15
	.seh_pushreg %r15
	pushq	%r14
	.seh_pushreg %r14
	pushq	%r13
	.seh_pushreg %r13
	pushq	%r12
	.seh_pushreg %r12
	pushq	%rbx
	.seh_pushreg %rbx
	subq	$104, %rsp
	.seh_stackalloc 104
	.seh_endprologue
	movq	%r9, %rbp
	movq	%r8, 88(%rsp)                   # 8-byte Spill
	movq	%rdx, %r15
	movq	%rsi, %r12
	movq	%rdi, %r14
	movq	176(%rsp), %rbx
	movq	168(%rsp), %r13
	xorps	%xmm0, %xmm0
	movq	%r13, %rax
	bswapq	%rax
	movaps	%xmm0, 48(%rsp)
	movq	%rax, 96(%rsp)
	xorl	%eax, %eax
	subq	$2, %rcx
	cmovaeq	%rcx, %rax
	andl	$62, %eax
	shll	$2, %eax
	subl	%r15d, %eax
	testq	%r9, %r9
	setne	%sil
	shlb	$6, %sil
	addb	%al, %sil
	addb	$14, %sil
	movq	$0, 72(%rsp)
	movq	$0, 79(%rsp)
	leaq	72(%rsp), %rcx
	movq	%r12, %rdx
	movq	%r15, %r8
	callq	memcpy
	movb	%sil, 32(%rsp)
	movq	72(%rsp), %rax
	movq	79(%rsp), %rcx
	movq	%rax, 33(%rsp)
	movq	%rcx, 40(%rsp)
	leaq	(%rsp,%r15), %rcx
	addq	$33, %rcx
	leaq	(%rsp,%r15), %rdx
	addq	$89, %rdx
	movl	$15, %r8d
	subq	%r15, %r8
	callq	memcpy
	movaps	32(%rsp), %xmm0
	movups	%xmm0, (%rbx)
	movq	(%rdi), %rdi
	movq	8(%r14), %rsi
	movl	$1, %ecx
	movq	%rbx, %rdx
	callq	aes_v1.aes_narrow.blocks.process_all_batches.1
	callq	aes_v1.aes_cipher.zeroize.stack.wipe_stack.1024
	movq	160(%rsp), %rdx
	testq	%rbp, %rbp
	je	.Laes_v1_BB42_7
# %bb.1:                                # %join.3.i
	xorps	%xmm0, %xmm0
	movaps	%xmm0, 32(%rsp)
	movq	%rbp, %rax
	bswapq	%rax
	cmpq	$65279, %rbp                    # imm = 0xFEFF
	ja	.Laes_v1_BB42_3
# %bb.2:                                # %then.1.i.i
	leaq	34(%rsp), %rcx
	shrq	$48, %rax
	movw	%ax, 32(%rsp)
	movl	$14, %r8d
	jmp	.Laes_v1_BB42_6
.Laes_v1_BB42_3:                               # %join.3.i.i
	movb	$-1, 32(%rsp)
	movq	%rbp, %rcx
	shrq	$32, %rcx
	jne	.Laes_v1_BB42_5
# %bb.4:                                # %then.4.i.i
	leaq	38(%rsp), %rcx
	shrq	$32, %rax
	movb	$-2, 33(%rsp)
	movl	%eax, 34(%rsp)
	movl	$10, %r8d
	jmp	.Laes_v1_BB42_6
.Laes_v1_BB42_5:                               # %join.6.i.i
	leaq	42(%rsp), %rcx
	movb	$-1, 33(%rsp)
	movq	%rax, 34(%rsp)
	movl	$6, %r8d
.Laes_v1_BB42_6:                               # %"ccm::formatting::put_length.exit.i"
	cmpq	%rbp, %r8
	cmovaeq	%rbp, %r8
	movq	88(%rsp), %rdx                  # 8-byte Reload
	leaq	(%rdx,%r8), %r13
	subq	%r8, %rbp
	callq	memcpy
	leaq	32(%rsp), %rdx
	movl	$16, %ecx
	movq	%r14, %rdi
	movq	%rbx, %rsi
	callq	aes_v1.cmac.chaining.chain
	movq	%r14, %rdi
	movq	%rbx, %rsi
	movq	%r13, %rdx
	movq	%rbp, %rcx
	callq	aes_v1.cmac.chaining.chain
	movq	168(%rsp), %r13
	movq	160(%rsp), %rdx
.Laes_v1_BB42_7:                               # %"ccm::message::chain_additional::<#4f733d09d7f6c6b4>.exit"
	movq	%r14, %rdi
	movq	%rbx, %rsi
	movq	%r13, %rcx
	callq	aes_v1.cmac.chaining.chain
	movb	$14, %sil
	subb	%r15b, %sil
	movq	$0, 39(%rsp)
	movq	$0, 32(%rsp)
	leaq	32(%rsp), %rcx
	movq	%r12, %rdx
	movq	%r15, %r8
	callq	memcpy
	movzwl	44(%rsp), %eax
	movzbl	46(%rsp), %ecx
	movq	32(%rsp), %rdx
	movl	40(%rsp), %edi
	movb	%sil, 48(%rsp)
	movq	%rdx, 49(%rsp)
	movl	%edi, 57(%rsp)
	movw	%ax, 61(%rsp)
	movb	%cl, 63(%rsp)
	movq	(%r14), %rdi
	movq	8(%r14), %rsi
	leaq	48(%rsp), %rdx
	movl	$1, %ecx
	callq	aes_v1.aes_narrow.blocks.process_all_batches.1
	callq	aes_v1.aes_cipher.zeroize.stack.wipe_stack.1024
	movups	(%rbx), %xmm0
	xorps	48(%rsp), %xmm0
	movups	%xmm0, (%rbx)
	addq	$104, %rsp
	popq	%rbx
	popq	%r12
	popq	%r13
	popq	%r14
	popq	%r15
	popq	%rbp
	retq
	.seh_endproc
                                        # -- End function
	.def	aes_v1.ccm.mode.encrypt;
	.scl	3;
	.type	32;
	.endef
	.p2align	4                               # -- Begin function ccm::mode::encrypt::<#4f733d09d7f6c6b4>
aes_v1.ccm.mode.encrypt: # @aes_v1.ccm.mode.encrypt
.seh_proc aes_v1.ccm.mode.encrypt
# %bb.0:                                # %start
	pushq	%rbp
	.seh_pushreg %rbp
	pushq	%r15
	.seh_pushreg %r15
	pushq	%r14
	.seh_pushreg %r14
	pushq	%r13
	.seh_pushreg %r13
	pushq	%r12
	.seh_pushreg %r12
	pushq	%rbx
	.seh_pushreg %rbx
	subq	$88, %rsp
	.seh_stackalloc 88
	.seh_endprologue
	movq	%rcx, %r10
	movq	160(%rsp), %r14
	leaq	-4(%r14), %rax
	cmpq	$13, %rax
	setae	%al
	movl	%r14d, %ecx
	orb	%al, %cl
	testb	$1, %cl
	jne	.Laes_v1_BB43_1
# %bb.2:                                # %after.1.i
	leaq	-14(%rdx), %r11
	movb	$1, %al
	movb	$1, %cl
	cmpq	$-7, %r11
	jb	.Laes_v1_BB43_6
# %bb.3:                                # %"ccm::formatting::check.exit"
	movq	144(%rsp), %rbx
	cmpq	$7, %rdx
	setne	%r11b
	leal	(,%rdx,8), %ecx
	xorb	$120, %cl
	movq	%rbx, %rax
                                        # kill: def $cl killed $cl killed $ecx
	shrq	%cl, %rax
	testq	%rax, %rax
	setne	%al
	movb	$2, %cl
	andb	%r11b, %al
	jne	.Laes_v1_BB43_6
# %bb.4:                                # %arm.1
	leaq	72(%rsp), %rbp
	movq	%rbp, 16(%rsp)
	movq	%rbx, 8(%rsp)
	movq	%r9, (%rsp)
	movq	%rdi, %r15
	movq	%rsi, %r13
	movq	%rdx, %rbx
	movq	%r14, %rcx
	movq	%r8, %r11
	movq	%r10, %r8
	movq	%r9, %r12
	movq	%r11, %r9
	movb	%al, 39(%rsp)                   # 1-byte Spill
	callq	aes_v1.ccm.message.put_tag
	movq	152(%rsp), %rcx
	movq	%rbp, %rdx
	movq	%r14, %r8
	callq	memcpy
	movb	$14, %sil
	subb	%bl, %sil
	movq	$0, 40(%rsp)
	movq	$0, 47(%rsp)
	leaq	40(%rsp), %rcx
	movq	%r13, %rdx
	movq	%rbx, %r8
	callq	memcpy
	movb	%sil, 56(%rsp)
	movq	40(%rsp), %rax
	movq	47(%rsp), %rcx
	movq	%rax, 57(%rsp)
	movq	%rcx, 64(%rsp)
	leaq	56(%rsp), %rsi
	movl	$16, %edx
	movq	%r15, %rdi
	movq	%r12, %rcx
	movq	144(%rsp), %r8
	callq	aes_v1.aes_ctr.add_in_batches.add_keystream
	movzbl	39(%rsp), %eax                  # 1-byte Folded Reload
	jmp	.Laes_v1_BB43_5
.Laes_v1_BB43_1:
	movb	$1, %al
.Laes_v1_BB43_5:                               # %return.5
	xorl	%ecx, %ecx
.Laes_v1_BB43_6:                               # %return.5
	movl	%ecx, %edx
	addq	$88, %rsp
	popq	%rbx
	popq	%r12
	popq	%r13
	popq	%r14
	popq	%r15
	popq	%rbp
	retq
	.seh_endproc
                                        # -- End function
	export_aes_v1	fotsgure_aes_add_keystream_with
	.p2align	4
aes_v1.fotsgure_aes_add_keystream_with:        # @aes_v1.fotsgure_aes_add_keystream_with
.seh_proc aes_v1.fotsgure_aes_add_keystream_with
# %bb.0:                                # %start
	pushq	%r15
	.seh_pushreg %r15
	pushq	%r14
	.seh_pushreg %r14
	pushq	%r13
	.seh_pushreg %r13
	pushq	%r12
	.seh_pushreg %r12
	pushq	%rsi
	.seh_pushreg %rsi
	pushq	%rdi
	.seh_pushreg %rdi
	pushq	%rbp
	.seh_pushreg %rbp
	pushq	%rbx
	.seh_pushreg %rbx
	subq	$712, %rsp                      # imm = 0x2C8
	.seh_stackalloc 712
	movaps	%xmm15, 688(%rsp)               # 16-byte Spill
	.seh_savexmm %xmm15, 688
	movaps	%xmm14, 672(%rsp)               # 16-byte Spill
	.seh_savexmm %xmm14, 672
	movaps	%xmm13, 656(%rsp)               # 16-byte Spill
	.seh_savexmm %xmm13, 656
	movaps	%xmm12, 640(%rsp)               # 16-byte Spill
	.seh_savexmm %xmm12, 640
	movaps	%xmm11, 624(%rsp)               # 16-byte Spill
	.seh_savexmm %xmm11, 624
	movaps	%xmm10, 608(%rsp)               # 16-byte Spill
	.seh_savexmm %xmm10, 608
	movaps	%xmm9, 592(%rsp)                # 16-byte Spill
	.seh_savexmm %xmm9, 592
	movaps	%xmm8, 576(%rsp)                # 16-byte Spill
	.seh_savexmm %xmm8, 576
	movaps	%xmm7, 560(%rsp)                # 16-byte Spill
	.seh_savexmm %xmm7, 560
	movaps	%xmm6, 544(%rsp)                # 16-byte Spill
	.seh_savexmm %xmm6, 544
	.seh_endprologue
	movq	%r8, %rbx
	movq	%rdx, %r14
	movq	%rcx, %rsi
	xorl	%ecx, %ecx
	testq	%rsi, %rsi
	sete	%r8b
	xorl	%eax, %eax
	testq	%r9, %r9
	sete	%dl
	movl	$1, %ebp
	cmpq	$32, %r14
	ja	.Laes_v1_BB44_4
# %bb.1:                                # %start
	movabsq	$4311810048, %r10               # imm = 0x101010000
	btq	%r14, %r10
	jae	.Laes_v1_BB44_4
# %bb.2:                                # %join.3.i
	movq	816(%rsp), %r15
	movq	16(%rbx), %r10
	movl	$4, %ebp
	addq	%r15, %r10
	jb	.Laes_v1_BB44_4
# %bb.3:                                # %join.6.i
	movb	%r8b, %cl
	shll	$12, %ecx
	addq	%rcx, %rsi
	movb	%dl, %al
	shll	$12, %eax
	addq	%rax, %r9
	leaq	64(%rsp), %r12
	xorl	%ebp, %ebp
	leaq	60(%rsp), %rcx
	movl	$484, %r8d                      # imm = 0x1E4
	xorl	%edx, %edx
	movq	%r9, %r13
	callq	memset
	movq	%r12, %rdi
	movq	%r14, %rdx
	callq	aes_v1.aes_narrow.word_room.expand_words
	callq	aes_v1.aes_cipher.zeroize.stack.wipe_stack.768
	movl	%r14d, 60(%rsp)
	movl	%r14d, %eax
	leaq	56(,%rax,2), %rax
	movq	%r12, 40(%rsp)
	movq	%rax, 48(%rsp)
	movq	16(%rbx), %rdx
	leaq	40(%rsp), %rdi
	movq	%rbx, %rsi
	movq	%r13, %rcx
	movq	%r15, %r8
	callq	aes_v1.aes_ctr.add_in_batches.add_keystream
	addq	%r15, 16(%rbx)
	movl	$0, 60(%rsp)
	movq	%r12, %rdi
	callq	aes_v1.aes_cipher.zeroize.elements.zeroize_elements.1
.Laes_v1_BB44_4:                               # %"aes_c::once::fotsgure_aes_add_keystream_with.exit"
	movl	%ebp, %eax
	movaps	544(%rsp), %xmm6                # 16-byte Reload
	movaps	560(%rsp), %xmm7                # 16-byte Reload
	movaps	576(%rsp), %xmm8                # 16-byte Reload
	movaps	592(%rsp), %xmm9                # 16-byte Reload
	movaps	608(%rsp), %xmm10               # 16-byte Reload
	movaps	624(%rsp), %xmm11               # 16-byte Reload
	movaps	640(%rsp), %xmm12               # 16-byte Reload
	movaps	656(%rsp), %xmm13               # 16-byte Reload
	movaps	672(%rsp), %xmm14               # 16-byte Reload
	movaps	688(%rsp), %xmm15               # 16-byte Reload
	pxor	%xmm0, %xmm0
	pxor	%xmm1, %xmm1
	pxor	%xmm2, %xmm2
	pxor	%xmm3, %xmm3
	pxor	%xmm4, %xmm4
	pxor	%xmm5, %xmm5
	xorl	%ecx, %ecx
	xorl	%edx, %edx
	xorl	%r8d, %r8d
	xorl	%r9d, %r9d
	xorl	%r10d, %r10d
	xorl	%r11d, %r11d
	addq	$712, %rsp                      # imm = 0x2C8
	popq	%rbx
	popq	%rbp
	popq	%rdi
	popq	%rsi
	popq	%r12
	popq	%r13
	popq	%r14
	popq	%r15
	retq
	.seh_endproc
                                        # -- End function
	export_aes_v1	fotsgure_aes_cbc_encrypt
	.p2align	4
aes_v1.fotsgure_aes_cbc_encrypt:               # @aes_v1.fotsgure_aes_cbc_encrypt
.seh_proc aes_v1.fotsgure_aes_cbc_encrypt
# %bb.0:                                # %start
	pushq	%r15
	.seh_pushreg %r15
	pushq	%r14
	.seh_pushreg %r14
	pushq	%r13
	.seh_pushreg %r13
	pushq	%r12
	.seh_pushreg %r12
	pushq	%rsi
	.seh_pushreg %rsi
	pushq	%rdi
	.seh_pushreg %rdi
	pushq	%rbx
	.seh_pushreg %rbx
	subq	$176, %rsp
	.seh_stackalloc 176
	movaps	%xmm15, 160(%rsp)               # 16-byte Spill
	.seh_savexmm %xmm15, 160
	movaps	%xmm14, 144(%rsp)               # 16-byte Spill
	.seh_savexmm %xmm14, 144
	movaps	%xmm13, 128(%rsp)               # 16-byte Spill
	.seh_savexmm %xmm13, 128
	movaps	%xmm12, 112(%rsp)               # 16-byte Spill
	.seh_savexmm %xmm12, 112
	movaps	%xmm11, 96(%rsp)                # 16-byte Spill
	.seh_savexmm %xmm11, 96
	movaps	%xmm10, 80(%rsp)                # 16-byte Spill
	.seh_savexmm %xmm10, 80
	movaps	%xmm9, 64(%rsp)                 # 16-byte Spill
	.seh_savexmm %xmm9, 64
	movaps	%xmm8, 48(%rsp)                 # 16-byte Spill
	.seh_savexmm %xmm8, 48
	movaps	%xmm7, 32(%rsp)                 # 16-byte Spill
	.seh_savexmm %xmm7, 32
	movaps	%xmm6, 16(%rsp)                 # 16-byte Spill
	.seh_savexmm %xmm6, 16
	.seh_endprologue
	movq	%r8, %r15
	movq	%rdx, %rbx
	movq	%rcx, %r12
	xorl	%edx, %edx
	testq	%r8, %r8
	sete	%r8b
	movl	(%rcx), %ecx
	movl	$2, %eax
	cmpq	$32, %rcx
	ja	.Laes_v1_BB45_6
# %bb.1:                                # %start
	movq	%r9, %r14
	movabsq	$4311810048, %r9                # imm = 0x101010000
	btq	%rcx, %r9
	jae	.Laes_v1_BB45_6
# %bb.2:                                # %join.3.i
	movups	(%rbx), %xmm0
	movaps	%xmm0, (%rsp)
	testq	%r14, %r14
	je	.Laes_v1_BB45_5
# %bb.3:                                # %join.5.lr.ph.i.i
	movb	%r8b, %dl
	shll	$12, %edx
	addq	%rdx, %r15
	addq	$4, %r12
	leaq	56(,%rcx,2), %r13
	movaps	(%rsp), %xmm0
	.p2align	4
.Laes_v1_BB45_4:                               # %join.5.i.i
                                        # =>This Inner Loop Header: Depth=1
	movups	(%r15), %xmm1
	xorps	%xmm0, %xmm1
	movaps	%xmm1, (%rsp)
	movq	%rsp, %rdx
	movl	$1, %ecx
	movq	%r12, %rdi
	movq	%r13, %rsi
	callq	aes_v1.aes_narrow.blocks.process_all_batches.1
	callq	aes_v1.aes_cipher.zeroize.stack.wipe_stack.1024
	movaps	(%rsp), %xmm0
	movups	%xmm0, (%r15)
	addq	$16, %r15
	decq	%r14
	jne	.Laes_v1_BB45_4
.Laes_v1_BB45_5:                               # %"cbc::chain::Cbc::encrypt_blocks::<#4f733d09d7f6c6b4>.exit.i"
	movaps	(%rsp), %xmm0
	movups	%xmm0, (%rbx)
	xorl	%eax, %eax
.Laes_v1_BB45_6:                               # %"aes_c::chains::fotsgure_aes_cbc_encrypt.exit"
	movaps	16(%rsp), %xmm6                 # 16-byte Reload
	movaps	32(%rsp), %xmm7                 # 16-byte Reload
	movaps	48(%rsp), %xmm8                 # 16-byte Reload
	movaps	64(%rsp), %xmm9                 # 16-byte Reload
	movaps	80(%rsp), %xmm10                # 16-byte Reload
	movaps	96(%rsp), %xmm11                # 16-byte Reload
	movaps	112(%rsp), %xmm12               # 16-byte Reload
	movaps	128(%rsp), %xmm13               # 16-byte Reload
	movaps	144(%rsp), %xmm14               # 16-byte Reload
	movaps	160(%rsp), %xmm15               # 16-byte Reload
	pxor	%xmm0, %xmm0
	pxor	%xmm1, %xmm1
	pxor	%xmm2, %xmm2
	pxor	%xmm3, %xmm3
	pxor	%xmm4, %xmm4
	pxor	%xmm5, %xmm5
	xorl	%ecx, %ecx
	xorl	%edx, %edx
	xorl	%r8d, %r8d
	xorl	%r9d, %r9d
	xorl	%r10d, %r10d
	xorl	%r11d, %r11d
	addq	$176, %rsp
	popq	%rbx
	popq	%rdi
	popq	%rsi
	popq	%r12
	popq	%r13
	popq	%r14
	popq	%r15
	retq
	.seh_endproc
                                        # -- End function
	export_aes_v1	fotsgure_aes_cmac
	.p2align	4
aes_v1.fotsgure_aes_cmac:                      # @aes_v1.fotsgure_aes_cmac
.seh_proc aes_v1.fotsgure_aes_cmac
# %bb.0:                                # %start
	pushq	%rsi
	.seh_pushreg %rsi
	pushq	%rdi
	.seh_pushreg %rdi
	pushq	%rbx
	.seh_pushreg %rbx
	subq	$192, %rsp
	.seh_stackalloc 192
	movaps	%xmm15, 176(%rsp)               # 16-byte Spill
	.seh_savexmm %xmm15, 176
	movaps	%xmm14, 160(%rsp)               # 16-byte Spill
	.seh_savexmm %xmm14, 160
	movaps	%xmm13, 144(%rsp)               # 16-byte Spill
	.seh_savexmm %xmm13, 144
	movaps	%xmm12, 128(%rsp)               # 16-byte Spill
	.seh_savexmm %xmm12, 128
	movaps	%xmm11, 112(%rsp)               # 16-byte Spill
	.seh_savexmm %xmm11, 112
	movaps	%xmm10, 96(%rsp)                # 16-byte Spill
	.seh_savexmm %xmm10, 96
	movaps	%xmm9, 80(%rsp)                 # 16-byte Spill
	.seh_savexmm %xmm9, 80
	movaps	%xmm8, 64(%rsp)                 # 16-byte Spill
	.seh_savexmm %xmm8, 64
	movaps	%xmm7, 48(%rsp)                 # 16-byte Spill
	.seh_savexmm %xmm7, 48
	movaps	%xmm6, 32(%rsp)                 # 16-byte Spill
	.seh_savexmm %xmm6, 32
	.seh_endprologue
	movq	%r9, %rbx
	movl	(%rcx), %r9d
	movl	$2, %eax
	cmpq	$32, %r9
	ja	.Laes_v1_BB46_3
# %bb.1:                                # %start
	movabsq	$4311810048, %r10               # imm = 0x101010000
	btq	%r9, %r10
	jae	.Laes_v1_BB46_3
# %bb.2:                                # %join.3.i
	xorl	%eax, %eax
	testq	%rdx, %rdx
	sete	%al
	shll	$12, %eax
	addq	%rdx, %rax
	addq	$4, %rcx
	leaq	56(,%r9,2), %rdx
	movq	%rcx, (%rsp)
	movq	%rdx, 8(%rsp)
	leaq	16(%rsp), %rdi
	movq	%rsp, %rsi
	movq	%rax, %rdx
	movq	%r8, %rcx
	callq	aes_v1.cmac.tags.tag
	movups	16(%rsp), %xmm0
	movups	%xmm0, (%rbx)
	callq	aes_v1.aes_cipher.zeroize.stack.wipe_stack.768
	xorl	%eax, %eax
.Laes_v1_BB46_3:                               # %"aes_c::tags::fotsgure_aes_cmac.exit"
	movaps	32(%rsp), %xmm6                 # 16-byte Reload
	movaps	48(%rsp), %xmm7                 # 16-byte Reload
	movaps	64(%rsp), %xmm8                 # 16-byte Reload
	movaps	80(%rsp), %xmm9                 # 16-byte Reload
	movaps	96(%rsp), %xmm10                # 16-byte Reload
	movaps	112(%rsp), %xmm11               # 16-byte Reload
	movaps	128(%rsp), %xmm12               # 16-byte Reload
	movaps	144(%rsp), %xmm13               # 16-byte Reload
	movaps	160(%rsp), %xmm14               # 16-byte Reload
	movaps	176(%rsp), %xmm15               # 16-byte Reload
	pxor	%xmm0, %xmm0
	pxor	%xmm1, %xmm1
	pxor	%xmm2, %xmm2
	pxor	%xmm3, %xmm3
	pxor	%xmm4, %xmm4
	pxor	%xmm5, %xmm5
	xorl	%ecx, %ecx
	xorl	%edx, %edx
	xorl	%r8d, %r8d
	xorl	%r9d, %r9d
	xorl	%r10d, %r10d
	xorl	%r11d, %r11d
	addq	$192, %rsp
	popq	%rbx
	popq	%rdi
	popq	%rsi
	retq
	.seh_endproc
                                        # -- End function
	export_aes_v1	fotsgure_aes_cmac_begin
	.p2align	4
aes_v1.fotsgure_aes_cmac_begin:                # @aes_v1.fotsgure_aes_cmac_begin
# %bb.0:                                # %start
	movl	(%rcx), %ecx
	movl	$2, %eax
	cmpq	$32, %rcx
	ja	.Laes_v1_BB47_3
# %bb.1:                                # %start
	movabsq	$4311810048, %r8                # imm = 0x101010000
	btq	%rcx, %r8
	jae	.Laes_v1_BB47_3
# %bb.2:                                # %join.3.i
	xorps	%xmm0, %xmm0
	movups	%xmm0, 24(%rdx)
	movups	%xmm0, 8(%rdx)
	movq	$0, 40(%rdx)
	movq	$1, (%rdx)
	xorl	%eax, %eax
.Laes_v1_BB47_3:                               # %"aes_c::tags::pieces::fotsgure_aes_cmac_begin.exit"
	pxor	%xmm0, %xmm0
	pxor	%xmm1, %xmm1
	pxor	%xmm2, %xmm2
	pxor	%xmm3, %xmm3
	pxor	%xmm4, %xmm4
	pxor	%xmm5, %xmm5
	xorl	%ecx, %ecx
	xorl	%edx, %edx
	xorl	%r8d, %r8d
	xorl	%r9d, %r9d
	xorl	%r10d, %r10d
	xorl	%r11d, %r11d
	retq
                                        # -- End function
	export_aes_v1	fotsgure_aes_cmac_finish
	.p2align	4
aes_v1.fotsgure_aes_cmac_finish:               # @aes_v1.fotsgure_aes_cmac_finish
.seh_proc aes_v1.fotsgure_aes_cmac_finish
# %bb.0:                                # %start
	pushq	%r14
	.seh_pushreg %r14
	pushq	%rsi
	.seh_pushreg %rsi
	pushq	%rdi
	.seh_pushreg %rdi
	pushq	%rbx
	.seh_pushreg %rbx
	subq	$200, %rsp
	.seh_stackalloc 200
	movaps	%xmm15, 176(%rsp)               # 16-byte Spill
	.seh_savexmm %xmm15, 176
	movaps	%xmm14, 160(%rsp)               # 16-byte Spill
	.seh_savexmm %xmm14, 160
	movaps	%xmm13, 144(%rsp)               # 16-byte Spill
	.seh_savexmm %xmm13, 144
	movaps	%xmm12, 128(%rsp)               # 16-byte Spill
	.seh_savexmm %xmm12, 128
	movaps	%xmm11, 112(%rsp)               # 16-byte Spill
	.seh_savexmm %xmm11, 112
	movaps	%xmm10, 96(%rsp)                # 16-byte Spill
	.seh_savexmm %xmm10, 96
	movaps	%xmm9, 80(%rsp)                 # 16-byte Spill
	.seh_savexmm %xmm9, 80
	movaps	%xmm8, 64(%rsp)                 # 16-byte Spill
	.seh_savexmm %xmm8, 64
	movaps	%xmm7, 48(%rsp)                 # 16-byte Spill
	.seh_savexmm %xmm7, 48
	movaps	%xmm6, 32(%rsp)                 # 16-byte Spill
	.seh_savexmm %xmm6, 32
	.seh_endprologue
	movq	%r8, %rbx
	movl	(%rcx), %r8d
	movl	$2, %eax
	cmpq	$32, %r8
	ja	.Laes_v1_BB48_5
# %bb.1:                                # %start
	movabsq	$4311810048, %r9                # imm = 0x101010000
	btq	%r8, %r9
	jae	.Laes_v1_BB48_5
# %bb.2:                                # %join.3.i
	addq	$4, %rcx
	leaq	56(,%r8,2), %rax
	movq	%rcx, (%rsp)
	movq	%rax, 8(%rsp)
	cmpq	$1, (%rdx)
	jne	.Laes_v1_BB48_3
# %bb.4:                                # %arm.4.i
	movq	8(%rdx), %rax
	cmpq	$16, %rax
	movl	$16, %r8d
	cmovbq	%rax, %r8
	leaq	16(%rdx), %rax
	leaq	32(%rdx), %rcx
	leaq	16(%rsp), %rdi
	movq	%rsp, %rsi
	movq	%rdx, %r14
	movq	%rax, %rdx
	callq	aes_v1.cmac.tags.tag_at_end
	movq	%r14, %rdi
	callq	aes_v1.cmac.pieces.MessageZeroize.zeroize
	callq	aes_v1.aes_cipher.zeroize.stack.wipe_stack.768
	movups	16(%rsp), %xmm0
	movups	%xmm0, (%rbx)
	xorl	%eax, %eax
	jmp	.Laes_v1_BB48_5
.Laes_v1_BB48_3:                               # %"cmac::pieces::Message::finish::<#4f733d09d7f6c6b4>.exit.i"
	callq	aes_v1.aes_cipher.zeroize.stack.wipe_stack.768
	movl	$10, %eax
.Laes_v1_BB48_5:                               # %"aes_c::tags::pieces::fotsgure_aes_cmac_finish.exit"
	movaps	32(%rsp), %xmm6                 # 16-byte Reload
	movaps	48(%rsp), %xmm7                 # 16-byte Reload
	movaps	64(%rsp), %xmm8                 # 16-byte Reload
	movaps	80(%rsp), %xmm9                 # 16-byte Reload
	movaps	96(%rsp), %xmm10                # 16-byte Reload
	movaps	112(%rsp), %xmm11               # 16-byte Reload
	movaps	128(%rsp), %xmm12               # 16-byte Reload
	movaps	144(%rsp), %xmm13               # 16-byte Reload
	movaps	160(%rsp), %xmm14               # 16-byte Reload
	movaps	176(%rsp), %xmm15               # 16-byte Reload
	pxor	%xmm0, %xmm0
	pxor	%xmm1, %xmm1
	pxor	%xmm2, %xmm2
	pxor	%xmm3, %xmm3
	pxor	%xmm4, %xmm4
	pxor	%xmm5, %xmm5
	xorl	%ecx, %ecx
	xorl	%edx, %edx
	xorl	%r8d, %r8d
	xorl	%r9d, %r9d
	xorl	%r10d, %r10d
	xorl	%r11d, %r11d
	addq	$200, %rsp
	popq	%rbx
	popq	%rdi
	popq	%rsi
	popq	%r14
	retq
	.seh_endproc
                                        # -- End function
	export_aes_v1	fotsgure_aes_cmac_update
	.p2align	4
aes_v1.fotsgure_aes_cmac_update:               # @aes_v1.fotsgure_aes_cmac_update
.seh_proc aes_v1.fotsgure_aes_cmac_update
# %bb.0:                                # %start
	pushq	%rsi
	.seh_pushreg %rsi
	pushq	%rdi
	.seh_pushreg %rdi
	pushq	%rbx
	.seh_pushreg %rbx
	subq	$176, %rsp
	.seh_stackalloc 176
	movaps	%xmm15, 160(%rsp)               # 16-byte Spill
	.seh_savexmm %xmm15, 160
	movaps	%xmm14, 144(%rsp)               # 16-byte Spill
	.seh_savexmm %xmm14, 144
	movaps	%xmm13, 128(%rsp)               # 16-byte Spill
	.seh_savexmm %xmm13, 128
	movaps	%xmm12, 112(%rsp)               # 16-byte Spill
	.seh_savexmm %xmm12, 112
	movaps	%xmm11, 96(%rsp)                # 16-byte Spill
	.seh_savexmm %xmm11, 96
	movaps	%xmm10, 80(%rsp)                # 16-byte Spill
	.seh_savexmm %xmm10, 80
	movaps	%xmm9, 64(%rsp)                 # 16-byte Spill
	.seh_savexmm %xmm9, 64
	movaps	%xmm8, 48(%rsp)                 # 16-byte Spill
	.seh_savexmm %xmm8, 48
	movaps	%xmm7, 32(%rsp)                 # 16-byte Spill
	.seh_savexmm %xmm7, 32
	movaps	%xmm6, 16(%rsp)                 # 16-byte Spill
	.seh_savexmm %xmm6, 16
	.seh_endprologue
	xorl	%eax, %eax
	testq	%r8, %r8
	sete	%r10b
	movl	(%rcx), %r11d
	movl	$2, %ebx
	cmpq	$32, %r11
	ja	.Laes_v1_BB49_5
# %bb.1:                                # %start
	movabsq	$4311810048, %rsi               # imm = 0x101010000
	btq	%r11, %rsi
	jae	.Laes_v1_BB49_5
# %bb.2:                                # %join.3.i
	addq	$4, %rcx
	leaq	56(,%r11,2), %r11
	movq	%rcx, (%rsp)
	movq	%r11, 8(%rsp)
	movl	$10, %ebx
	cmpq	$1, (%rdx)
	jne	.Laes_v1_BB49_4
# %bb.3:                                # %join.3.i.i
	movb	%r10b, %al
	shll	$12, %eax
	addq	%rax, %r8
	addq	$8, %rdx
	movq	%rsp, %rsi
	movq	%rdx, %rdi
	movq	%r8, %rdx
	movq	%r9, %rcx
	callq	aes_v1.cmac.chain_in_pieces.ChainInPieces.extend
	xorl	%ebx, %ebx
.Laes_v1_BB49_4:                               # %"cmac::pieces::Message::update::<#4f733d09d7f6c6b4>.exit.i"
	callq	aes_v1.aes_cipher.zeroize.stack.wipe_stack.768
.Laes_v1_BB49_5:                               # %"aes_c::tags::pieces::fotsgure_aes_cmac_update.exit"
	movl	%ebx, %eax
	movaps	16(%rsp), %xmm6                 # 16-byte Reload
	movaps	32(%rsp), %xmm7                 # 16-byte Reload
	movaps	48(%rsp), %xmm8                 # 16-byte Reload
	movaps	64(%rsp), %xmm9                 # 16-byte Reload
	movaps	80(%rsp), %xmm10                # 16-byte Reload
	movaps	96(%rsp), %xmm11                # 16-byte Reload
	movaps	112(%rsp), %xmm12               # 16-byte Reload
	movaps	128(%rsp), %xmm13               # 16-byte Reload
	movaps	144(%rsp), %xmm14               # 16-byte Reload
	movaps	160(%rsp), %xmm15               # 16-byte Reload
	pxor	%xmm0, %xmm0
	pxor	%xmm1, %xmm1
	pxor	%xmm2, %xmm2
	pxor	%xmm3, %xmm3
	pxor	%xmm4, %xmm4
	pxor	%xmm5, %xmm5
	xorl	%ecx, %ecx
	xorl	%edx, %edx
	xorl	%r8d, %r8d
	xorl	%r9d, %r9d
	xorl	%r10d, %r10d
	xorl	%r11d, %r11d
	addq	$176, %rsp
	popq	%rbx
	popq	%rdi
	popq	%rsi
	retq
	.seh_endproc
                                        # -- End function
	export_aes_v1	fotsgure_aes_cmac_wipe
	.p2align	4
aes_v1.fotsgure_aes_cmac_wipe:                 # @aes_v1.fotsgure_aes_cmac_wipe
.seh_proc aes_v1.fotsgure_aes_cmac_wipe
# %bb.0:                                # %start
	pushq	%rsi
	.seh_pushreg %rsi
	pushq	%rdi
	.seh_pushreg %rdi
	subq	$168, %rsp
	.seh_stackalloc 168
	movaps	%xmm15, 144(%rsp)               # 16-byte Spill
	.seh_savexmm %xmm15, 144
	movaps	%xmm14, 128(%rsp)               # 16-byte Spill
	.seh_savexmm %xmm14, 128
	movaps	%xmm13, 112(%rsp)               # 16-byte Spill
	.seh_savexmm %xmm13, 112
	movaps	%xmm12, 96(%rsp)                # 16-byte Spill
	.seh_savexmm %xmm12, 96
	movaps	%xmm11, 80(%rsp)                # 16-byte Spill
	.seh_savexmm %xmm11, 80
	movaps	%xmm10, 64(%rsp)                # 16-byte Spill
	.seh_savexmm %xmm10, 64
	movaps	%xmm9, 48(%rsp)                 # 16-byte Spill
	.seh_savexmm %xmm9, 48
	movaps	%xmm8, 32(%rsp)                 # 16-byte Spill
	.seh_savexmm %xmm8, 32
	movaps	%xmm7, 16(%rsp)                 # 16-byte Spill
	.seh_savexmm %xmm7, 16
	movaps	%xmm6, (%rsp)                   # 16-byte Spill
	.seh_savexmm %xmm6, 0
	.seh_endprologue
	xorps	%xmm0, %xmm0
	movups	%xmm0, 32(%rcx)
	movups	%xmm0, 16(%rcx)
	movups	%xmm0, (%rcx)
	movq	%rcx, %rdi
	callq	aes_v1.cmac.pieces.MessageZeroize.zeroize
	movaps	(%rsp), %xmm6                   # 16-byte Reload
	movaps	16(%rsp), %xmm7                 # 16-byte Reload
	movaps	32(%rsp), %xmm8                 # 16-byte Reload
	movaps	48(%rsp), %xmm9                 # 16-byte Reload
	movaps	64(%rsp), %xmm10                # 16-byte Reload
	movaps	80(%rsp), %xmm11                # 16-byte Reload
	movaps	96(%rsp), %xmm12                # 16-byte Reload
	movaps	112(%rsp), %xmm13               # 16-byte Reload
	movaps	128(%rsp), %xmm14               # 16-byte Reload
	movaps	144(%rsp), %xmm15               # 16-byte Reload
	pxor	%xmm0, %xmm0
	pxor	%xmm1, %xmm1
	pxor	%xmm2, %xmm2
	pxor	%xmm3, %xmm3
	pxor	%xmm4, %xmm4
	pxor	%xmm5, %xmm5
	xorl	%ecx, %ecx
	xorl	%edx, %edx
	xorl	%r8d, %r8d
	xorl	%r9d, %r9d
	xorl	%r10d, %r10d
	xorl	%r11d, %r11d
	addq	$168, %rsp
	popq	%rdi
	popq	%rsi
	retq
	.seh_endproc
                                        # -- End function
	export_aes_v1	fotsgure_aes_encrypt_blocks
	.p2align	4
aes_v1.fotsgure_aes_encrypt_blocks:            # @aes_v1.fotsgure_aes_encrypt_blocks
.seh_proc aes_v1.fotsgure_aes_encrypt_blocks
# %bb.0:                                # %start
	pushq	%rsi
	.seh_pushreg %rsi
	pushq	%rdi
	.seh_pushreg %rdi
	subq	$168, %rsp
	.seh_stackalloc 168
	movaps	%xmm15, 144(%rsp)               # 16-byte Spill
	.seh_savexmm %xmm15, 144
	movaps	%xmm14, 128(%rsp)               # 16-byte Spill
	.seh_savexmm %xmm14, 128
	movaps	%xmm13, 112(%rsp)               # 16-byte Spill
	.seh_savexmm %xmm13, 112
	movaps	%xmm12, 96(%rsp)                # 16-byte Spill
	.seh_savexmm %xmm12, 96
	movaps	%xmm11, 80(%rsp)                # 16-byte Spill
	.seh_savexmm %xmm11, 80
	movaps	%xmm10, 64(%rsp)                # 16-byte Spill
	.seh_savexmm %xmm10, 64
	movaps	%xmm9, 48(%rsp)                 # 16-byte Spill
	.seh_savexmm %xmm9, 48
	movaps	%xmm8, 32(%rsp)                 # 16-byte Spill
	.seh_savexmm %xmm8, 32
	movaps	%xmm7, 16(%rsp)                 # 16-byte Spill
	.seh_savexmm %xmm7, 16
	movaps	%xmm6, (%rsp)                   # 16-byte Spill
	.seh_savexmm %xmm6, 0
	.seh_endprologue
	movl	(%rcx), %r9d
	movl	$2, %eax
	cmpq	$32, %r9
	ja	.Laes_v1_BB51_3
# %bb.1:                                # %start
	movabsq	$4311810048, %r10               # imm = 0x101010000
	btq	%r9, %r10
	jae	.Laes_v1_BB51_3
# %bb.2:                                # %join.3.i
	xorl	%eax, %eax
	testq	%rdx, %rdx
	sete	%al
	shll	$12, %eax
	addq	%rdx, %rax
	addq	$4, %rcx
	leaq	56(,%r9,2), %rsi
	movq	%rcx, %rdi
	movq	%rax, %rdx
	movq	%r8, %rcx
	callq	aes_v1.aes_narrow.blocks.process_all_batches.1
	callq	aes_v1.aes_cipher.zeroize.stack.wipe_stack.1024
	xorl	%eax, %eax
.Laes_v1_BB51_3:                               # %"aes_c::blocks::fotsgure_aes_encrypt_blocks.exit"
	movaps	(%rsp), %xmm6                   # 16-byte Reload
	movaps	16(%rsp), %xmm7                 # 16-byte Reload
	movaps	32(%rsp), %xmm8                 # 16-byte Reload
	movaps	48(%rsp), %xmm9                 # 16-byte Reload
	movaps	64(%rsp), %xmm10                # 16-byte Reload
	movaps	80(%rsp), %xmm11                # 16-byte Reload
	movaps	96(%rsp), %xmm12                # 16-byte Reload
	movaps	112(%rsp), %xmm13               # 16-byte Reload
	movaps	128(%rsp), %xmm14               # 16-byte Reload
	movaps	144(%rsp), %xmm15               # 16-byte Reload
	pxor	%xmm0, %xmm0
	pxor	%xmm1, %xmm1
	pxor	%xmm2, %xmm2
	pxor	%xmm3, %xmm3
	pxor	%xmm4, %xmm4
	pxor	%xmm5, %xmm5
	xorl	%ecx, %ecx
	xorl	%edx, %edx
	xorl	%r8d, %r8d
	xorl	%r9d, %r9d
	xorl	%r10d, %r10d
	xorl	%r11d, %r11d
	addq	$168, %rsp
	popq	%rdi
	popq	%rsi
	retq
	.seh_endproc
                                        # -- End function
	export_aes_v1	fotsgure_aes_encrypt_blocks_to
	.p2align	4
aes_v1.fotsgure_aes_encrypt_blocks_to:         # @aes_v1.fotsgure_aes_encrypt_blocks_to
.seh_proc aes_v1.fotsgure_aes_encrypt_blocks_to
# %bb.0:                                # %start
	pushq	%r14
	.seh_pushreg %r14
	pushq	%rsi
	.seh_pushreg %rsi
	pushq	%rdi
	.seh_pushreg %rdi
	pushq	%rbx
	.seh_pushreg %rbx
	subq	$200, %rsp
	.seh_stackalloc 200
	movaps	%xmm15, 176(%rsp)               # 16-byte Spill
	.seh_savexmm %xmm15, 176
	movaps	%xmm14, 160(%rsp)               # 16-byte Spill
	.seh_savexmm %xmm14, 160
	movaps	%xmm13, 144(%rsp)               # 16-byte Spill
	.seh_savexmm %xmm13, 144
	movaps	%xmm12, 128(%rsp)               # 16-byte Spill
	.seh_savexmm %xmm12, 128
	movaps	%xmm11, 112(%rsp)               # 16-byte Spill
	.seh_savexmm %xmm11, 112
	movaps	%xmm10, 96(%rsp)                # 16-byte Spill
	.seh_savexmm %xmm10, 96
	movaps	%xmm9, 80(%rsp)                 # 16-byte Spill
	.seh_savexmm %xmm9, 80
	movaps	%xmm8, 64(%rsp)                 # 16-byte Spill
	.seh_savexmm %xmm8, 64
	movaps	%xmm7, 48(%rsp)                 # 16-byte Spill
	.seh_savexmm %xmm7, 48
	movaps	%xmm6, 32(%rsp)                 # 16-byte Spill
	.seh_savexmm %xmm6, 32
	.seh_endprologue
	movq	%rcx, %rdi
	xorl	%r10d, %r10d
	testq	%rdx, %rdx
	sete	%bl
	xorl	%ecx, %ecx
	testq	%r9, %r9
	sete	%r11b
	movl	$3, %eax
	cmpq	272(%rsp), %r8
	jne	.Laes_v1_BB52_14
# %bb.1:                                # %join.3.i
	movl	(%rdi), %esi
	movl	$2, %eax
	cmpq	$32, %rsi
	ja	.Laes_v1_BB52_14
# %bb.2:                                # %join.3.i
	movabsq	$4311810048, %r14               # imm = 0x101010000
	btq	%rsi, %r14
	jae	.Laes_v1_BB52_14
# %bb.3:                                # %join.6.i
	movb	%bl, %r10b
	shll	$12, %r10d
	addq	%r10, %rdx
	movb	%r11b, %cl
	shll	$12, %ecx
	addq	%rcx, %r9
	movq	%r8, %rax
	shlq	$4, %rax
	movq	%r9, %rcx
	subq	%rdx, %rcx
	cmpq	%rax, %rcx
	jae	.Laes_v1_BB52_7
# %bb.4:                                # %loop.4.preheader.i.i.i.i.i.i.i
	testq	%r8, %r8
	je	.Laes_v1_BB52_13
# %bb.5:                                # %join.7.i.i.i.i.i.i.i.preheader
	movl	%r8d, %eax
	andl	$7, %eax
	cmpq	$8, %r8
	jae	.Laes_v1_BB52_8
# %bb.6:
	xorl	%ecx, %ecx
	jmp	.Laes_v1_BB52_11
.Laes_v1_BB52_7:                               # %apart.2.i.i.i.i.i.i.i
	movq	%r9, %rcx
	movq	%r8, %rsi
	movq	%rax, %r8
	movq	%r9, %rbx
	callq	memmove
	movq	%rsi, %r8
	movq	%rbx, %r9
	jmp	.Laes_v1_BB52_13
.Laes_v1_BB52_8:                               # %join.7.i.i.i.i.i.i.i.preheader.new
	movq	%r8, %r10
	andq	$-8, %r10
	movl	$112, %r11d
	xorl	%ecx, %ecx
	.p2align	4
.Laes_v1_BB52_9:                               # %join.7.i.i.i.i.i.i.i
                                        # =>This Inner Loop Header: Depth=1
	movups	-112(%rdx,%r11), %xmm0
	movups	%xmm0, -112(%r9,%r11)
	movups	-96(%rdx,%r11), %xmm0
	movups	%xmm0, -96(%r9,%r11)
	movups	-80(%rdx,%r11), %xmm0
	movups	%xmm0, -80(%r9,%r11)
	movups	-64(%rdx,%r11), %xmm0
	movups	%xmm0, -64(%r9,%r11)
	movups	-48(%rdx,%r11), %xmm0
	movups	%xmm0, -48(%r9,%r11)
	movups	-32(%rdx,%r11), %xmm0
	movups	%xmm0, -32(%r9,%r11)
	movups	-16(%rdx,%r11), %xmm0
	movups	%xmm0, -16(%r9,%r11)
	movups	(%rdx,%r11), %xmm0
	movups	%xmm0, (%r9,%r11)
	addq	$8, %rcx
	subq	$-128, %r11
	cmpq	%rcx, %r10
	jne	.Laes_v1_BB52_9
# %bb.10:                               # %"core::slice::edits::slice+T::copy_from_slice::<#b9e87c6de6ee7501>.exit.i.loopexit.unr-lcssa"
	testq	%rax, %rax
	je	.Laes_v1_BB52_13
.Laes_v1_BB52_11:                              # %join.7.i.i.i.i.i.i.i.epil.preheader
	shlq	$4, %rcx
	addq	%rcx, %rdx
	addq	%r9, %rcx
	shll	$4, %eax
	xorl	%r10d, %r10d
	.p2align	4
.Laes_v1_BB52_12:                              # %join.7.i.i.i.i.i.i.i.epil
                                        # =>This Inner Loop Header: Depth=1
	movups	(%rdx,%r10), %xmm0
	movups	%xmm0, (%rcx,%r10)
	addq	$16, %r10
	cmpq	%r10, %rax
	jne	.Laes_v1_BB52_12
.Laes_v1_BB52_13:                              # %"core::slice::edits::slice+T::copy_from_slice::<#b9e87c6de6ee7501>.exit.i"
	movl	(%rdi), %eax
	addq	$4, %rdi
	leaq	56(,%rax,2), %rsi
	movq	%r9, %rdx
	movq	%r8, %rcx
	callq	aes_v1.aes_narrow.blocks.process_all_batches.1
	callq	aes_v1.aes_cipher.zeroize.stack.wipe_stack.1024
	xorl	%eax, %eax
.Laes_v1_BB52_14:                              # %"aes_c::blocks::fotsgure_aes_encrypt_blocks_to.exit"
	movaps	32(%rsp), %xmm6                 # 16-byte Reload
	movaps	48(%rsp), %xmm7                 # 16-byte Reload
	movaps	64(%rsp), %xmm8                 # 16-byte Reload
	movaps	80(%rsp), %xmm9                 # 16-byte Reload
	movaps	96(%rsp), %xmm10                # 16-byte Reload
	movaps	112(%rsp), %xmm11               # 16-byte Reload
	movaps	128(%rsp), %xmm12               # 16-byte Reload
	movaps	144(%rsp), %xmm13               # 16-byte Reload
	movaps	160(%rsp), %xmm14               # 16-byte Reload
	movaps	176(%rsp), %xmm15               # 16-byte Reload
	pxor	%xmm0, %xmm0
	pxor	%xmm1, %xmm1
	pxor	%xmm2, %xmm2
	pxor	%xmm3, %xmm3
	pxor	%xmm4, %xmm4
	pxor	%xmm5, %xmm5
	xorl	%ecx, %ecx
	xorl	%edx, %edx
	xorl	%r8d, %r8d
	xorl	%r9d, %r9d
	xorl	%r10d, %r10d
	xorl	%r11d, %r11d
	addq	$200, %rsp
	popq	%rbx
	popq	%rdi
	popq	%rsi
	popq	%r14
	retq
	.seh_endproc
                                        # -- End function
	export_aes_v1	fotsgure_aes_encrypt_blocks_with
	.p2align	4
aes_v1.fotsgure_aes_encrypt_blocks_with:       # @aes_v1.fotsgure_aes_encrypt_blocks_with
.seh_proc aes_v1.fotsgure_aes_encrypt_blocks_with
# %bb.0:                                # %start
	pushq	%r15
	.seh_pushreg %r15
	pushq	%r14
	.seh_pushreg %r14
	pushq	%r12
	.seh_pushreg %r12
	pushq	%rsi
	.seh_pushreg %rsi
	pushq	%rdi
	.seh_pushreg %rdi
	pushq	%rbp
	.seh_pushreg %rbp
	pushq	%rbx
	.seh_pushreg %rbx
	subq	$688, %rsp                      # imm = 0x2B0
	.seh_stackalloc 688
	movaps	%xmm15, 672(%rsp)               # 16-byte Spill
	.seh_savexmm %xmm15, 672
	movaps	%xmm14, 656(%rsp)               # 16-byte Spill
	.seh_savexmm %xmm14, 656
	movaps	%xmm13, 640(%rsp)               # 16-byte Spill
	.seh_savexmm %xmm13, 640
	movaps	%xmm12, 624(%rsp)               # 16-byte Spill
	.seh_savexmm %xmm12, 624
	movaps	%xmm11, 608(%rsp)               # 16-byte Spill
	.seh_savexmm %xmm11, 608
	movaps	%xmm10, 592(%rsp)               # 16-byte Spill
	.seh_savexmm %xmm10, 592
	movaps	%xmm9, 576(%rsp)                # 16-byte Spill
	.seh_savexmm %xmm9, 576
	movaps	%xmm8, 560(%rsp)                # 16-byte Spill
	.seh_savexmm %xmm8, 560
	movaps	%xmm7, 544(%rsp)                # 16-byte Spill
	.seh_savexmm %xmm7, 544
	movaps	%xmm6, 528(%rsp)                # 16-byte Spill
	.seh_savexmm %xmm6, 528
	.seh_endprologue
	movl	$1, %ebp
	cmpq	$32, %rdx
	ja	.Laes_v1_BB53_3
# %bb.1:                                # %start
	movq	%rdx, %r14
	movabsq	$4311810048, %rax               # imm = 0x101010000
	btq	%rdx, %rax
	jae	.Laes_v1_BB53_3
# %bb.2:                                # %join.3.i
	movq	%r9, %rbx
	xorl	%r15d, %r15d
	testq	%r8, %r8
	sete	%r15b
	shll	$12, %r15d
	addq	%r8, %r15
	xorl	%esi, %esi
	testq	%rcx, %rcx
	sete	%sil
	shll	$12, %esi
	addq	%rcx, %rsi
	leaq	48(%rsp), %r12
	xorl	%ebp, %ebp
	leaq	44(%rsp), %rcx
	movl	$484, %r8d                      # imm = 0x1E4
	xorl	%edx, %edx
	callq	memset
	movq	%r12, %rdi
	movq	%r14, %rdx
	callq	aes_v1.aes_narrow.word_room.expand_words
	callq	aes_v1.aes_cipher.zeroize.stack.wipe_stack.768
	movl	%r14d, 44(%rsp)
	movl	%r14d, %eax
	leaq	56(,%rax,2), %rsi
	movq	%r12, %rdi
	movq	%r15, %rdx
	movq	%rbx, %rcx
	callq	aes_v1.aes_narrow.blocks.process_all_batches.1
	callq	aes_v1.aes_cipher.zeroize.stack.wipe_stack.1024
	movl	$0, 44(%rsp)
	movq	%r12, %rdi
	callq	aes_v1.aes_cipher.zeroize.elements.zeroize_elements.1
.Laes_v1_BB53_3:                               # %"aes_c::once::fotsgure_aes_encrypt_blocks_with.exit"
	movl	%ebp, %eax
	movaps	528(%rsp), %xmm6                # 16-byte Reload
	movaps	544(%rsp), %xmm7                # 16-byte Reload
	movaps	560(%rsp), %xmm8                # 16-byte Reload
	movaps	576(%rsp), %xmm9                # 16-byte Reload
	movaps	592(%rsp), %xmm10               # 16-byte Reload
	movaps	608(%rsp), %xmm11               # 16-byte Reload
	movaps	624(%rsp), %xmm12               # 16-byte Reload
	movaps	640(%rsp), %xmm13               # 16-byte Reload
	movaps	656(%rsp), %xmm14               # 16-byte Reload
	movaps	672(%rsp), %xmm15               # 16-byte Reload
	pxor	%xmm0, %xmm0
	pxor	%xmm1, %xmm1
	pxor	%xmm2, %xmm2
	pxor	%xmm3, %xmm3
	pxor	%xmm4, %xmm4
	pxor	%xmm5, %xmm5
	xorl	%ecx, %ecx
	xorl	%edx, %edx
	xorl	%r8d, %r8d
	xorl	%r9d, %r9d
	xorl	%r10d, %r10d
	xorl	%r11d, %r11d
	addq	$688, %rsp                      # imm = 0x2B0
	popq	%rbx
	popq	%rbp
	popq	%rdi
	popq	%rsi
	popq	%r12
	popq	%r14
	popq	%r15
	retq
	.seh_endproc
                                        # -- End function
	export_aes_v1	fotsgure_aes_key_length
	.p2align	4
aes_v1.fotsgure_aes_key_length:                # @aes_v1.fotsgure_aes_key_length
# %bb.0:                                # %start
	movl	(%rcx), %ecx
	xorl	%eax, %eax
	cmpq	$32, %rcx
	ja	.Laes_v1_BB54_3
# %bb.1:                                # %start
	movabsq	$4311810048, %rdx               # imm = 0x101010000
	btq	%rcx, %rdx
	jae	.Laes_v1_BB54_3
# %bb.2:                                # %then.1.i.i
	movq	%rcx, %rax
.Laes_v1_BB54_3:                               # %"aes_c::kept::fotsgure_aes_key_length.exit"
	pxor	%xmm0, %xmm0
	pxor	%xmm1, %xmm1
	pxor	%xmm2, %xmm2
	pxor	%xmm3, %xmm3
	pxor	%xmm4, %xmm4
	pxor	%xmm5, %xmm5
	xorl	%ecx, %ecx
	xorl	%edx, %edx
	xorl	%r8d, %r8d
	xorl	%r9d, %r9d
	xorl	%r10d, %r10d
	xorl	%r11d, %r11d
	retq
                                        # -- End function
	export_aes_v1	fotsgure_aes_version
	.p2align	4
aes_v1.fotsgure_aes_version:                   # @aes_v1.fotsgure_aes_version
# %bb.0:                                # %start
	movl	$400, %eax                      # imm = 0x190
	pxor	%xmm0, %xmm0
	pxor	%xmm1, %xmm1
	pxor	%xmm2, %xmm2
	pxor	%xmm3, %xmm3
	pxor	%xmm4, %xmm4
	pxor	%xmm5, %xmm5
	xorl	%ecx, %ecx
	xorl	%edx, %edx
	xorl	%r8d, %r8d
	xorl	%r9d, %r9d
	xorl	%r10d, %r10d
	xorl	%r11d, %r11d
	retq
                                        # -- End function
	export_aes_v1	fotsgure_aes_wipe
	.p2align	4
aes_v1.fotsgure_aes_wipe:                      # @aes_v1.fotsgure_aes_wipe
.seh_proc aes_v1.fotsgure_aes_wipe
# %bb.0:                                # %start
	pushq	%rsi
	.seh_pushreg %rsi
	pushq	%rdi
	.seh_pushreg %rdi
	subq	$200, %rsp
	.seh_stackalloc 200
	movaps	%xmm15, 176(%rsp)               # 16-byte Spill
	.seh_savexmm %xmm15, 176
	movaps	%xmm14, 160(%rsp)               # 16-byte Spill
	.seh_savexmm %xmm14, 160
	movaps	%xmm13, 144(%rsp)               # 16-byte Spill
	.seh_savexmm %xmm13, 144
	movaps	%xmm12, 128(%rsp)               # 16-byte Spill
	.seh_savexmm %xmm12, 128
	movaps	%xmm11, 112(%rsp)               # 16-byte Spill
	.seh_savexmm %xmm11, 112
	movaps	%xmm10, 96(%rsp)                # 16-byte Spill
	.seh_savexmm %xmm10, 96
	movaps	%xmm9, 80(%rsp)                 # 16-byte Spill
	.seh_savexmm %xmm9, 80
	movaps	%xmm8, 64(%rsp)                 # 16-byte Spill
	.seh_savexmm %xmm8, 64
	movaps	%xmm7, 48(%rsp)                 # 16-byte Spill
	.seh_savexmm %xmm7, 48
	movaps	%xmm6, 32(%rsp)                 # 16-byte Spill
	.seh_savexmm %xmm6, 32
	.seh_endprologue
	leaq	4(%rcx), %rdi
	movl	$484, %r8d                      # imm = 0x1E4
	xorl	%edx, %edx
	callq	memset
	callq	aes_v1.aes_cipher.zeroize.elements.zeroize_elements.1
	movaps	32(%rsp), %xmm6                 # 16-byte Reload
	movaps	48(%rsp), %xmm7                 # 16-byte Reload
	movaps	64(%rsp), %xmm8                 # 16-byte Reload
	movaps	80(%rsp), %xmm9                 # 16-byte Reload
	movaps	96(%rsp), %xmm10                # 16-byte Reload
	movaps	112(%rsp), %xmm11               # 16-byte Reload
	movaps	128(%rsp), %xmm12               # 16-byte Reload
	movaps	144(%rsp), %xmm13               # 16-byte Reload
	movaps	160(%rsp), %xmm14               # 16-byte Reload
	movaps	176(%rsp), %xmm15               # 16-byte Reload
	pxor	%xmm0, %xmm0
	pxor	%xmm1, %xmm1
	pxor	%xmm2, %xmm2
	pxor	%xmm3, %xmm3
	pxor	%xmm4, %xmm4
	pxor	%xmm5, %xmm5
	xorl	%ecx, %ecx
	xorl	%edx, %edx
	xorl	%r8d, %r8d
	xorl	%r9d, %r9d
	xorl	%r10d, %r10d
	xorl	%r11d, %r11d
	addq	$200, %rsp
	popq	%rdi
	popq	%rsi
	retq
	.seh_endproc
                                        # -- End function
	export_aes_v1	fotsgure_aes_wrap
	.p2align	4
aes_v1.fotsgure_aes_wrap:                      # @aes_v1.fotsgure_aes_wrap
.seh_proc aes_v1.fotsgure_aes_wrap
# %bb.0:                                # %start
	pushq	%rsi
	.seh_pushreg %rsi
	pushq	%rdi
	.seh_pushreg %rdi
	pushq	%rbx
	.seh_pushreg %rbx
	subq	$176, %rsp
	.seh_stackalloc 176
	movaps	%xmm15, 160(%rsp)               # 16-byte Spill
	.seh_savexmm %xmm15, 160
	movaps	%xmm14, 144(%rsp)               # 16-byte Spill
	.seh_savexmm %xmm14, 144
	movaps	%xmm13, 128(%rsp)               # 16-byte Spill
	.seh_savexmm %xmm13, 128
	movaps	%xmm12, 112(%rsp)               # 16-byte Spill
	.seh_savexmm %xmm12, 112
	movaps	%xmm11, 96(%rsp)                # 16-byte Spill
	.seh_savexmm %xmm11, 96
	movaps	%xmm10, 80(%rsp)                # 16-byte Spill
	.seh_savexmm %xmm10, 80
	movaps	%xmm9, 64(%rsp)                 # 16-byte Spill
	.seh_savexmm %xmm9, 64
	movaps	%xmm8, 48(%rsp)                 # 16-byte Spill
	.seh_savexmm %xmm8, 48
	movaps	%xmm7, 32(%rsp)                 # 16-byte Spill
	.seh_savexmm %xmm7, 32
	movaps	%xmm6, 16(%rsp)                 # 16-byte Spill
	.seh_savexmm %xmm6, 16
	.seh_endprologue
	movl	(%rcx), %r11d
	movl	$2, %eax
	cmpq	$32, %r11
	ja	.Laes_v1_BB57_3
# %bb.1:                                # %start
	movabsq	$4311810048, %r10               # imm = 0x101010000
	btq	%r11, %r10
	jae	.Laes_v1_BB57_3
# %bb.2:                                # %join.3.i
	movq	240(%rsp), %rax
	xorl	%r10d, %r10d
	testq	%r9, %r9
	sete	%r10b
	shll	$12, %r10d
	addq	%r9, %r10
	xorl	%esi, %esi
	testq	%rdx, %rdx
	sete	%sil
	shll	$12, %esi
	addq	%rdx, %rsi
	addq	$4, %rcx
	leaq	56(,%r11,2), %rdx
	movq	%rcx, (%rsp)
	movq	%rdx, 8(%rsp)
	movq	%rsp, %rdi
	movq	%r8, %rdx
	movq	%r10, %rcx
	movq	%rax, %r8
	callq	aes_v1.key_wrap.wrapping.wrap
	movl	%eax, %ebx
	callq	aes_v1.aes_cipher.zeroize.stack.wipe_stack.512
	movzbl	%bl, %eax
	leal	(%rax,%rax,4), %eax
.Laes_v1_BB57_3:                               # %"aes_c::wrapping::fotsgure_aes_wrap.exit"
	movaps	16(%rsp), %xmm6                 # 16-byte Reload
	movaps	32(%rsp), %xmm7                 # 16-byte Reload
	movaps	48(%rsp), %xmm8                 # 16-byte Reload
	movaps	64(%rsp), %xmm9                 # 16-byte Reload
	movaps	80(%rsp), %xmm10                # 16-byte Reload
	movaps	96(%rsp), %xmm11                # 16-byte Reload
	movaps	112(%rsp), %xmm12               # 16-byte Reload
	movaps	128(%rsp), %xmm13               # 16-byte Reload
	movaps	144(%rsp), %xmm14               # 16-byte Reload
	movaps	160(%rsp), %xmm15               # 16-byte Reload
	pxor	%xmm0, %xmm0
	pxor	%xmm1, %xmm1
	pxor	%xmm2, %xmm2
	pxor	%xmm3, %xmm3
	pxor	%xmm4, %xmm4
	pxor	%xmm5, %xmm5
	xorl	%ecx, %ecx
	xorl	%edx, %edx
	xorl	%r8d, %r8d
	xorl	%r9d, %r9d
	xorl	%r10d, %r10d
	xorl	%r11d, %r11d
	addq	$176, %rsp
	popq	%rbx
	popq	%rdi
	popq	%rsi
	retq
	.seh_endproc
                                        # -- End function
	export_aes_v1	fotsgure_aes_wrap_padded
	.p2align	4
aes_v1.fotsgure_aes_wrap_padded:               # @aes_v1.fotsgure_aes_wrap_padded
.seh_proc aes_v1.fotsgure_aes_wrap_padded
# %bb.0:                                # %start
	pushq	%rsi
	.seh_pushreg %rsi
	pushq	%rdi
	.seh_pushreg %rdi
	pushq	%rbx
	.seh_pushreg %rbx
	subq	$176, %rsp
	.seh_stackalloc 176
	movaps	%xmm15, 160(%rsp)               # 16-byte Spill
	.seh_savexmm %xmm15, 160
	movaps	%xmm14, 144(%rsp)               # 16-byte Spill
	.seh_savexmm %xmm14, 144
	movaps	%xmm13, 128(%rsp)               # 16-byte Spill
	.seh_savexmm %xmm13, 128
	movaps	%xmm12, 112(%rsp)               # 16-byte Spill
	.seh_savexmm %xmm12, 112
	movaps	%xmm11, 96(%rsp)                # 16-byte Spill
	.seh_savexmm %xmm11, 96
	movaps	%xmm10, 80(%rsp)                # 16-byte Spill
	.seh_savexmm %xmm10, 80
	movaps	%xmm9, 64(%rsp)                 # 16-byte Spill
	.seh_savexmm %xmm9, 64
	movaps	%xmm8, 48(%rsp)                 # 16-byte Spill
	.seh_savexmm %xmm8, 48
	movaps	%xmm7, 32(%rsp)                 # 16-byte Spill
	.seh_savexmm %xmm7, 32
	movaps	%xmm6, 16(%rsp)                 # 16-byte Spill
	.seh_savexmm %xmm6, 16
	.seh_endprologue
	movl	(%rcx), %r11d
	movl	$2, %eax
	cmpq	$32, %r11
	ja	.Laes_v1_BB58_3
# %bb.1:                                # %start
	movabsq	$4311810048, %r10               # imm = 0x101010000
	btq	%r11, %r10
	jae	.Laes_v1_BB58_3
# %bb.2:                                # %join.3.i
	movq	240(%rsp), %rax
	xorl	%r10d, %r10d
	testq	%r9, %r9
	sete	%r10b
	shll	$12, %r10d
	addq	%r9, %r10
	xorl	%esi, %esi
	testq	%rdx, %rdx
	sete	%sil
	shll	$12, %esi
	addq	%rdx, %rsi
	addq	$4, %rcx
	leaq	56(,%r11,2), %rdx
	movq	%rcx, (%rsp)
	movq	%rdx, 8(%rsp)
	movq	%rsp, %rdi
	movq	%r8, %rdx
	movq	%r10, %rcx
	movq	%rax, %r8
	callq	aes_v1.key_wrap.padded.wrap_padded
	movl	%eax, %ebx
	callq	aes_v1.aes_cipher.zeroize.stack.wipe_stack.512
	movzbl	%bl, %eax
	leal	(%rax,%rax,4), %eax
.Laes_v1_BB58_3:                               # %"aes_c::wrapping::fotsgure_aes_wrap_padded.exit"
	movaps	16(%rsp), %xmm6                 # 16-byte Reload
	movaps	32(%rsp), %xmm7                 # 16-byte Reload
	movaps	48(%rsp), %xmm8                 # 16-byte Reload
	movaps	64(%rsp), %xmm9                 # 16-byte Reload
	movaps	80(%rsp), %xmm10                # 16-byte Reload
	movaps	96(%rsp), %xmm11                # 16-byte Reload
	movaps	112(%rsp), %xmm12               # 16-byte Reload
	movaps	128(%rsp), %xmm13               # 16-byte Reload
	movaps	144(%rsp), %xmm14               # 16-byte Reload
	movaps	160(%rsp), %xmm15               # 16-byte Reload
	pxor	%xmm0, %xmm0
	pxor	%xmm1, %xmm1
	pxor	%xmm2, %xmm2
	pxor	%xmm3, %xmm3
	pxor	%xmm4, %xmm4
	pxor	%xmm5, %xmm5
	xorl	%ecx, %ecx
	xorl	%edx, %edx
	xorl	%r8d, %r8d
	xorl	%r9d, %r9d
	xorl	%r10d, %r10d
	xorl	%r11d, %r11d
	addq	$176, %rsp
	popq	%rbx
	popq	%rdi
	popq	%rsi
	retq
	.seh_endproc
                                        # -- End function
	export_aes_v1	fotsgure_aes_cbc_decrypt
	.p2align	4
aes_v1.fotsgure_aes_cbc_decrypt:               # @aes_v1.fotsgure_aes_cbc_decrypt
.seh_proc aes_v1.fotsgure_aes_cbc_decrypt
# %bb.0:                                # %start
	pushq	%rsi
	.seh_pushreg %rsi
	pushq	%rdi
	.seh_pushreg %rdi
	pushq	%rbx
	.seh_pushreg %rbx
	subq	$192, %rsp
	.seh_stackalloc 192
	movaps	%xmm15, 176(%rsp)               # 16-byte Spill
	.seh_savexmm %xmm15, 176
	movaps	%xmm14, 160(%rsp)               # 16-byte Spill
	.seh_savexmm %xmm14, 160
	movaps	%xmm13, 144(%rsp)               # 16-byte Spill
	.seh_savexmm %xmm13, 144
	movaps	%xmm12, 128(%rsp)               # 16-byte Spill
	.seh_savexmm %xmm12, 128
	movaps	%xmm11, 112(%rsp)               # 16-byte Spill
	.seh_savexmm %xmm11, 112
	movaps	%xmm10, 96(%rsp)                # 16-byte Spill
	.seh_savexmm %xmm10, 96
	movaps	%xmm9, 80(%rsp)                 # 16-byte Spill
	.seh_savexmm %xmm9, 80
	movaps	%xmm8, 64(%rsp)                 # 16-byte Spill
	.seh_savexmm %xmm8, 64
	movaps	%xmm7, 48(%rsp)                 # 16-byte Spill
	.seh_savexmm %xmm7, 48
	movaps	%xmm6, 32(%rsp)                 # 16-byte Spill
	.seh_savexmm %xmm6, 32
	.seh_endprologue
	movq	%rdx, %rbx
	movl	(%rcx), %edx
	movl	$2, %eax
	cmpq	$32, %rdx
	ja	.Laes_v1_BB59_3
# %bb.1:                                # %start
	movabsq	$4311810048, %r10               # imm = 0x101010000
	btq	%rdx, %r10
	jae	.Laes_v1_BB59_3
# %bb.2:                                # %join.3.i
	xorl	%eax, %eax
	testq	%r8, %r8
	sete	%al
	shll	$12, %eax
	addq	%r8, %rax
	addq	$4, %rcx
	leaq	56(,%rdx,2), %rsi
	movups	(%rbx), %xmm0
	movaps	%xmm0, (%rsp)
	movq	%rax, 16(%rsp)
	movq	%r9, 24(%rsp)
	movq	%rsp, %rdx
	movq	%rcx, %rdi
	callq	aes_v1.aes_narrow.borrowed_words.call_to_decrypt
	callq	aes_v1.aes_cipher.zeroize.stack.wipe_stack.2032
	movaps	(%rsp), %xmm0
	movups	%xmm0, (%rbx)
	xorl	%eax, %eax
.Laes_v1_BB59_3:                               # %"aes_c::chains::fotsgure_aes_cbc_decrypt.exit"
	movaps	32(%rsp), %xmm6                 # 16-byte Reload
	movaps	48(%rsp), %xmm7                 # 16-byte Reload
	movaps	64(%rsp), %xmm8                 # 16-byte Reload
	movaps	80(%rsp), %xmm9                 # 16-byte Reload
	movaps	96(%rsp), %xmm10                # 16-byte Reload
	movaps	112(%rsp), %xmm11               # 16-byte Reload
	movaps	128(%rsp), %xmm12               # 16-byte Reload
	movaps	144(%rsp), %xmm13               # 16-byte Reload
	movaps	160(%rsp), %xmm14               # 16-byte Reload
	movaps	176(%rsp), %xmm15               # 16-byte Reload
	pxor	%xmm0, %xmm0
	pxor	%xmm1, %xmm1
	pxor	%xmm2, %xmm2
	pxor	%xmm3, %xmm3
	pxor	%xmm4, %xmm4
	pxor	%xmm5, %xmm5
	xorl	%ecx, %ecx
	xorl	%edx, %edx
	xorl	%r8d, %r8d
	xorl	%r9d, %r9d
	xorl	%r10d, %r10d
	xorl	%r11d, %r11d
	addq	$192, %rsp
	popq	%rbx
	popq	%rdi
	popq	%rsi
	retq
	.seh_endproc
                                        # -- End function
	export_aes_v1	fotsgure_aes_decrypt_blocks
	.p2align	4
aes_v1.fotsgure_aes_decrypt_blocks:            # @aes_v1.fotsgure_aes_decrypt_blocks
.seh_proc aes_v1.fotsgure_aes_decrypt_blocks
# %bb.0:                                # %start
	pushq	%rsi
	.seh_pushreg %rsi
	pushq	%rdi
	.seh_pushreg %rdi
	subq	$168, %rsp
	.seh_stackalloc 168
	movaps	%xmm15, 144(%rsp)               # 16-byte Spill
	.seh_savexmm %xmm15, 144
	movaps	%xmm14, 128(%rsp)               # 16-byte Spill
	.seh_savexmm %xmm14, 128
	movaps	%xmm13, 112(%rsp)               # 16-byte Spill
	.seh_savexmm %xmm13, 112
	movaps	%xmm12, 96(%rsp)                # 16-byte Spill
	.seh_savexmm %xmm12, 96
	movaps	%xmm11, 80(%rsp)                # 16-byte Spill
	.seh_savexmm %xmm11, 80
	movaps	%xmm10, 64(%rsp)                # 16-byte Spill
	.seh_savexmm %xmm10, 64
	movaps	%xmm9, 48(%rsp)                 # 16-byte Spill
	.seh_savexmm %xmm9, 48
	movaps	%xmm8, 32(%rsp)                 # 16-byte Spill
	.seh_savexmm %xmm8, 32
	movaps	%xmm7, 16(%rsp)                 # 16-byte Spill
	.seh_savexmm %xmm7, 16
	movaps	%xmm6, (%rsp)                   # 16-byte Spill
	.seh_savexmm %xmm6, 0
	.seh_endprologue
	movl	(%rcx), %r9d
	movl	$2, %eax
	cmpq	$32, %r9
	ja	.Laes_v1_BB60_3
# %bb.1:                                # %start
	movabsq	$4311810048, %r10               # imm = 0x101010000
	btq	%r9, %r10
	jae	.Laes_v1_BB60_3
# %bb.2:                                # %join.3.i
	xorl	%eax, %eax
	testq	%rdx, %rdx
	sete	%al
	shll	$12, %eax
	addq	%rdx, %rax
	addq	$4, %rcx
	leaq	56(,%r9,2), %rsi
	movq	%rcx, %rdi
	movq	%rax, %rdx
	movq	%r8, %rcx
	callq	aes_v1.aes_narrow.blocks.process_all_batches.2
	callq	aes_v1.aes_cipher.zeroize.stack.wipe_stack.1024
	xorl	%eax, %eax
.Laes_v1_BB60_3:                               # %"aes_c::blocks::fotsgure_aes_decrypt_blocks.exit"
	movaps	(%rsp), %xmm6                   # 16-byte Reload
	movaps	16(%rsp), %xmm7                 # 16-byte Reload
	movaps	32(%rsp), %xmm8                 # 16-byte Reload
	movaps	48(%rsp), %xmm9                 # 16-byte Reload
	movaps	64(%rsp), %xmm10                # 16-byte Reload
	movaps	80(%rsp), %xmm11                # 16-byte Reload
	movaps	96(%rsp), %xmm12                # 16-byte Reload
	movaps	112(%rsp), %xmm13               # 16-byte Reload
	movaps	128(%rsp), %xmm14               # 16-byte Reload
	movaps	144(%rsp), %xmm15               # 16-byte Reload
	pxor	%xmm0, %xmm0
	pxor	%xmm1, %xmm1
	pxor	%xmm2, %xmm2
	pxor	%xmm3, %xmm3
	pxor	%xmm4, %xmm4
	pxor	%xmm5, %xmm5
	xorl	%ecx, %ecx
	xorl	%edx, %edx
	xorl	%r8d, %r8d
	xorl	%r9d, %r9d
	xorl	%r10d, %r10d
	xorl	%r11d, %r11d
	addq	$168, %rsp
	popq	%rdi
	popq	%rsi
	retq
	.seh_endproc
                                        # -- End function
	export_aes_v1	fotsgure_aes_decrypt_blocks_to
	.p2align	4
aes_v1.fotsgure_aes_decrypt_blocks_to:         # @aes_v1.fotsgure_aes_decrypt_blocks_to
.seh_proc aes_v1.fotsgure_aes_decrypt_blocks_to
# %bb.0:                                # %start
	pushq	%r14
	.seh_pushreg %r14
	pushq	%rsi
	.seh_pushreg %rsi
	pushq	%rdi
	.seh_pushreg %rdi
	pushq	%rbx
	.seh_pushreg %rbx
	subq	$200, %rsp
	.seh_stackalloc 200
	movaps	%xmm15, 176(%rsp)               # 16-byte Spill
	.seh_savexmm %xmm15, 176
	movaps	%xmm14, 160(%rsp)               # 16-byte Spill
	.seh_savexmm %xmm14, 160
	movaps	%xmm13, 144(%rsp)               # 16-byte Spill
	.seh_savexmm %xmm13, 144
	movaps	%xmm12, 128(%rsp)               # 16-byte Spill
	.seh_savexmm %xmm12, 128
	movaps	%xmm11, 112(%rsp)               # 16-byte Spill
	.seh_savexmm %xmm11, 112
	movaps	%xmm10, 96(%rsp)                # 16-byte Spill
	.seh_savexmm %xmm10, 96
	movaps	%xmm9, 80(%rsp)                 # 16-byte Spill
	.seh_savexmm %xmm9, 80
	movaps	%xmm8, 64(%rsp)                 # 16-byte Spill
	.seh_savexmm %xmm8, 64
	movaps	%xmm7, 48(%rsp)                 # 16-byte Spill
	.seh_savexmm %xmm7, 48
	movaps	%xmm6, 32(%rsp)                 # 16-byte Spill
	.seh_savexmm %xmm6, 32
	.seh_endprologue
	movq	%rcx, %rdi
	xorl	%r10d, %r10d
	testq	%rdx, %rdx
	sete	%bl
	xorl	%ecx, %ecx
	testq	%r9, %r9
	sete	%r11b
	movl	$3, %eax
	cmpq	272(%rsp), %r8
	jne	.Laes_v1_BB61_14
# %bb.1:                                # %join.3.i
	movl	(%rdi), %esi
	movl	$2, %eax
	cmpq	$32, %rsi
	ja	.Laes_v1_BB61_14
# %bb.2:                                # %join.3.i
	movabsq	$4311810048, %r14               # imm = 0x101010000
	btq	%rsi, %r14
	jae	.Laes_v1_BB61_14
# %bb.3:                                # %join.6.i
	movb	%bl, %r10b
	shll	$12, %r10d
	addq	%r10, %rdx
	movb	%r11b, %cl
	shll	$12, %ecx
	addq	%rcx, %r9
	movq	%r8, %rax
	shlq	$4, %rax
	movq	%r9, %rcx
	subq	%rdx, %rcx
	cmpq	%rax, %rcx
	jae	.Laes_v1_BB61_7
# %bb.4:                                # %loop.4.preheader.i.i.i.i.i.i.i
	testq	%r8, %r8
	je	.Laes_v1_BB61_13
# %bb.5:                                # %join.7.i.i.i.i.i.i.i.preheader
	movl	%r8d, %eax
	andl	$7, %eax
	cmpq	$8, %r8
	jae	.Laes_v1_BB61_8
# %bb.6:
	xorl	%ecx, %ecx
	jmp	.Laes_v1_BB61_11
.Laes_v1_BB61_7:                               # %apart.2.i.i.i.i.i.i.i
	movq	%r9, %rcx
	movq	%r8, %rsi
	movq	%rax, %r8
	movq	%r9, %rbx
	callq	memmove
	movq	%rsi, %r8
	movq	%rbx, %r9
	jmp	.Laes_v1_BB61_13
.Laes_v1_BB61_8:                               # %join.7.i.i.i.i.i.i.i.preheader.new
	movq	%r8, %r10
	andq	$-8, %r10
	movl	$112, %r11d
	xorl	%ecx, %ecx
	.p2align	4
.Laes_v1_BB61_9:                               # %join.7.i.i.i.i.i.i.i
                                        # =>This Inner Loop Header: Depth=1
	movups	-112(%rdx,%r11), %xmm0
	movups	%xmm0, -112(%r9,%r11)
	movups	-96(%rdx,%r11), %xmm0
	movups	%xmm0, -96(%r9,%r11)
	movups	-80(%rdx,%r11), %xmm0
	movups	%xmm0, -80(%r9,%r11)
	movups	-64(%rdx,%r11), %xmm0
	movups	%xmm0, -64(%r9,%r11)
	movups	-48(%rdx,%r11), %xmm0
	movups	%xmm0, -48(%r9,%r11)
	movups	-32(%rdx,%r11), %xmm0
	movups	%xmm0, -32(%r9,%r11)
	movups	-16(%rdx,%r11), %xmm0
	movups	%xmm0, -16(%r9,%r11)
	movups	(%rdx,%r11), %xmm0
	movups	%xmm0, (%r9,%r11)
	addq	$8, %rcx
	subq	$-128, %r11
	cmpq	%rcx, %r10
	jne	.Laes_v1_BB61_9
# %bb.10:                               # %"core::slice::edits::slice+T::copy_from_slice::<#b9e87c6de6ee7501>.exit.i.loopexit.unr-lcssa"
	testq	%rax, %rax
	je	.Laes_v1_BB61_13
.Laes_v1_BB61_11:                              # %join.7.i.i.i.i.i.i.i.epil.preheader
	shlq	$4, %rcx
	addq	%rcx, %rdx
	addq	%r9, %rcx
	shll	$4, %eax
	xorl	%r10d, %r10d
	.p2align	4
.Laes_v1_BB61_12:                              # %join.7.i.i.i.i.i.i.i.epil
                                        # =>This Inner Loop Header: Depth=1
	movups	(%rdx,%r10), %xmm0
	movups	%xmm0, (%rcx,%r10)
	addq	$16, %r10
	cmpq	%r10, %rax
	jne	.Laes_v1_BB61_12
.Laes_v1_BB61_13:                              # %"core::slice::edits::slice+T::copy_from_slice::<#b9e87c6de6ee7501>.exit.i"
	movl	(%rdi), %eax
	addq	$4, %rdi
	leaq	56(,%rax,2), %rsi
	movq	%r9, %rdx
	movq	%r8, %rcx
	callq	aes_v1.aes_narrow.blocks.process_all_batches.2
	callq	aes_v1.aes_cipher.zeroize.stack.wipe_stack.1024
	xorl	%eax, %eax
.Laes_v1_BB61_14:                              # %"aes_c::blocks::fotsgure_aes_decrypt_blocks_to.exit"
	movaps	32(%rsp), %xmm6                 # 16-byte Reload
	movaps	48(%rsp), %xmm7                 # 16-byte Reload
	movaps	64(%rsp), %xmm8                 # 16-byte Reload
	movaps	80(%rsp), %xmm9                 # 16-byte Reload
	movaps	96(%rsp), %xmm10                # 16-byte Reload
	movaps	112(%rsp), %xmm11               # 16-byte Reload
	movaps	128(%rsp), %xmm12               # 16-byte Reload
	movaps	144(%rsp), %xmm13               # 16-byte Reload
	movaps	160(%rsp), %xmm14               # 16-byte Reload
	movaps	176(%rsp), %xmm15               # 16-byte Reload
	pxor	%xmm0, %xmm0
	pxor	%xmm1, %xmm1
	pxor	%xmm2, %xmm2
	pxor	%xmm3, %xmm3
	pxor	%xmm4, %xmm4
	pxor	%xmm5, %xmm5
	xorl	%ecx, %ecx
	xorl	%edx, %edx
	xorl	%r8d, %r8d
	xorl	%r9d, %r9d
	xorl	%r10d, %r10d
	xorl	%r11d, %r11d
	addq	$200, %rsp
	popq	%rbx
	popq	%rdi
	popq	%rsi
	popq	%r14
	retq
	.seh_endproc
                                        # -- End function
	export_aes_v1	fotsgure_aes_unwrap
	.p2align	4
aes_v1.fotsgure_aes_unwrap:                    # @aes_v1.fotsgure_aes_unwrap
.seh_proc aes_v1.fotsgure_aes_unwrap
# %bb.0:                                # %start
	pushq	%rsi
	.seh_pushreg %rsi
	pushq	%rdi
	.seh_pushreg %rdi
	pushq	%rbp
	.seh_pushreg %rbp
	pushq	%rbx
	.seh_pushreg %rbx
	subq	$184, %rsp
	.seh_stackalloc 184
	movaps	%xmm15, 160(%rsp)               # 16-byte Spill
	.seh_savexmm %xmm15, 160
	movaps	%xmm14, 144(%rsp)               # 16-byte Spill
	.seh_savexmm %xmm14, 144
	movaps	%xmm13, 128(%rsp)               # 16-byte Spill
	.seh_savexmm %xmm13, 128
	movaps	%xmm12, 112(%rsp)               # 16-byte Spill
	.seh_savexmm %xmm12, 112
	movaps	%xmm11, 96(%rsp)                # 16-byte Spill
	.seh_savexmm %xmm11, 96
	movaps	%xmm10, 80(%rsp)                # 16-byte Spill
	.seh_savexmm %xmm10, 80
	movaps	%xmm9, 64(%rsp)                 # 16-byte Spill
	.seh_savexmm %xmm9, 64
	movaps	%xmm8, 48(%rsp)                 # 16-byte Spill
	.seh_savexmm %xmm8, 48
	movaps	%xmm7, 32(%rsp)                 # 16-byte Spill
	.seh_savexmm %xmm7, 32
	movaps	%xmm6, 16(%rsp)                 # 16-byte Spill
	.seh_savexmm %xmm6, 16
	.seh_endprologue
	movl	(%rcx), %r11d
	movl	$2, %eax
	cmpq	$32, %r11
	ja	.Laes_v1_BB62_3
# %bb.1:                                # %start
	movabsq	$4311810048, %r10               # imm = 0x101010000
	btq	%r11, %r10
	jae	.Laes_v1_BB62_3
# %bb.2:                                # %join.3.i
	movq	256(%rsp), %rax
	xorl	%r10d, %r10d
	testq	%r9, %r9
	sete	%r10b
	shll	$12, %r10d
	addq	%r9, %r10
	xorl	%esi, %esi
	testq	%rdx, %rdx
	sete	%sil
	shll	$12, %esi
	addq	%rdx, %rsi
	addq	$4, %rcx
	leaq	56(,%r11,2), %rdx
	movq	%rcx, (%rsp)
	movq	%rdx, 8(%rsp)
	movq	%rsp, %rdi
	movq	%r8, %rdx
	movq	%r10, %rcx
	movq	%rax, %r8
	callq	aes_v1.key_wrap.wrapping.unwrap
	movl	%eax, %ebx
	movl	%edx, %ebp
	callq	aes_v1.aes_cipher.zeroize.stack.wipe_stack.512
	cmpb	$1, %bpl
	movl	$6, %ecx
	sbbl	$0, %ecx
	xorl	%eax, %eax
	testb	%bl, %bl
	cmovnel	%ecx, %eax
.Laes_v1_BB62_3:                               # %"aes_c::wrapping::fotsgure_aes_unwrap.exit"
	movaps	16(%rsp), %xmm6                 # 16-byte Reload
	movaps	32(%rsp), %xmm7                 # 16-byte Reload
	movaps	48(%rsp), %xmm8                 # 16-byte Reload
	movaps	64(%rsp), %xmm9                 # 16-byte Reload
	movaps	80(%rsp), %xmm10                # 16-byte Reload
	movaps	96(%rsp), %xmm11                # 16-byte Reload
	movaps	112(%rsp), %xmm12               # 16-byte Reload
	movaps	128(%rsp), %xmm13               # 16-byte Reload
	movaps	144(%rsp), %xmm14               # 16-byte Reload
	movaps	160(%rsp), %xmm15               # 16-byte Reload
	pxor	%xmm0, %xmm0
	pxor	%xmm1, %xmm1
	pxor	%xmm2, %xmm2
	pxor	%xmm3, %xmm3
	pxor	%xmm4, %xmm4
	pxor	%xmm5, %xmm5
	xorl	%ecx, %ecx
	xorl	%edx, %edx
	xorl	%r8d, %r8d
	xorl	%r9d, %r9d
	xorl	%r10d, %r10d
	xorl	%r11d, %r11d
	addq	$184, %rsp
	popq	%rbx
	popq	%rbp
	popq	%rdi
	popq	%rsi
	retq
	.seh_endproc
                                        # -- End function
	export_aes_v1	fotsgure_aes_unwrap_padded
	.p2align	4
aes_v1.fotsgure_aes_unwrap_padded:             # @aes_v1.fotsgure_aes_unwrap_padded
.seh_proc aes_v1.fotsgure_aes_unwrap_padded
# %bb.0:                                # %start
	pushq	%rsi
	.seh_pushreg %rsi
	pushq	%rdi
	.seh_pushreg %rdi
	pushq	%rbx
	.seh_pushreg %rbx
	subq	$192, %rsp
	.seh_stackalloc 192
	movaps	%xmm15, 176(%rsp)               # 16-byte Spill
	.seh_savexmm %xmm15, 176
	movaps	%xmm14, 160(%rsp)               # 16-byte Spill
	.seh_savexmm %xmm14, 160
	movaps	%xmm13, 144(%rsp)               # 16-byte Spill
	.seh_savexmm %xmm13, 144
	movaps	%xmm12, 128(%rsp)               # 16-byte Spill
	.seh_savexmm %xmm12, 128
	movaps	%xmm11, 112(%rsp)               # 16-byte Spill
	.seh_savexmm %xmm11, 112
	movaps	%xmm10, 96(%rsp)                # 16-byte Spill
	.seh_savexmm %xmm10, 96
	movaps	%xmm9, 80(%rsp)                 # 16-byte Spill
	.seh_savexmm %xmm9, 80
	movaps	%xmm8, 64(%rsp)                 # 16-byte Spill
	.seh_savexmm %xmm8, 64
	movaps	%xmm7, 48(%rsp)                 # 16-byte Spill
	.seh_savexmm %xmm7, 48
	movaps	%xmm6, 32(%rsp)                 # 16-byte Spill
	.seh_savexmm %xmm6, 32
	.seh_endprologue
	movq	264(%rsp), %rbx
	movq	$0, 8(%rsp)
	movq	$0, (%rbx)
	movl	(%rcx), %r11d
	movl	$2, %eax
	cmpq	$32, %r11
	ja	.Laes_v1_BB63_5
# %bb.1:                                # %start
	movq	%r9, %r10
	movabsq	$4311810048, %r9                # imm = 0x101010000
	btq	%r11, %r9
	jae	.Laes_v1_BB63_5
# %bb.2:                                # %join.3.i
	movq	256(%rsp), %r9
	xorl	%eax, %eax
	testq	%r10, %r10
	sete	%al
	shll	$12, %eax
	addq	%r10, %rax
	xorl	%r10d, %r10d
	testq	%rdx, %rdx
	sete	%r10b
	shll	$12, %r10d
	addq	%rdx, %r10
	addq	$4, %rcx
	leaq	56(,%r11,2), %rdx
	movq	%rcx, 16(%rsp)
	movq	%rdx, 24(%rsp)
	leaq	8(%rsp), %rdi
	leaq	16(%rsp), %rsi
	movq	%r10, %rdx
	movq	%r8, %rcx
	movq	%rax, %r8
	callq	aes_v1.key_wrap.padded.unwrap_padded
	callq	aes_v1.aes_cipher.zeroize.stack.wipe_stack.512
	cmpb	$0, 8(%rsp)
	je	.Laes_v1_BB63_3
# %bb.4:                                # %arm.5.i
	cmpb	$1, 9(%rsp)
	movl	$6, %eax
	sbbl	$0, %eax
	jmp	.Laes_v1_BB63_5
.Laes_v1_BB63_3:                               # %arm.4.i
	movl	12(%rsp), %eax
	movq	%rax, (%rbx)
	xorl	%eax, %eax
.Laes_v1_BB63_5:                               # %"aes_c::wrapping::fotsgure_aes_unwrap_padded.exit"
	movaps	32(%rsp), %xmm6                 # 16-byte Reload
	movaps	48(%rsp), %xmm7                 # 16-byte Reload
	movaps	64(%rsp), %xmm8                 # 16-byte Reload
	movaps	80(%rsp), %xmm9                 # 16-byte Reload
	movaps	96(%rsp), %xmm10                # 16-byte Reload
	movaps	112(%rsp), %xmm11               # 16-byte Reload
	movaps	128(%rsp), %xmm12               # 16-byte Reload
	movaps	144(%rsp), %xmm13               # 16-byte Reload
	movaps	160(%rsp), %xmm14               # 16-byte Reload
	movaps	176(%rsp), %xmm15               # 16-byte Reload
	pxor	%xmm0, %xmm0
	pxor	%xmm1, %xmm1
	pxor	%xmm2, %xmm2
	pxor	%xmm3, %xmm3
	pxor	%xmm4, %xmm4
	pxor	%xmm5, %xmm5
	xorl	%ecx, %ecx
	xorl	%edx, %edx
	xorl	%r8d, %r8d
	xorl	%r9d, %r9d
	xorl	%r10d, %r10d
	xorl	%r11d, %r11d
	addq	$192, %rsp
	popq	%rbx
	popq	%rdi
	popq	%rsi
	retq
	.seh_endproc
                                        # -- End function
	export_aes_v1	fotsgure_aes_inv_mix_columns
	.p2align	4
aes_v1.fotsgure_aes_inv_mix_columns:           # @aes_v1.fotsgure_aes_inv_mix_columns
.seh_proc aes_v1.fotsgure_aes_inv_mix_columns
# %bb.0:                                # %start
	pushq	%rsi
	.seh_pushreg %rsi
	pushq	%rdi
	.seh_pushreg %rdi
	subq	$168, %rsp
	.seh_stackalloc 168
	movaps	%xmm15, 144(%rsp)               # 16-byte Spill
	.seh_savexmm %xmm15, 144
	movaps	%xmm14, 128(%rsp)               # 16-byte Spill
	.seh_savexmm %xmm14, 128
	movaps	%xmm13, 112(%rsp)               # 16-byte Spill
	.seh_savexmm %xmm13, 112
	movaps	%xmm12, 96(%rsp)                # 16-byte Spill
	.seh_savexmm %xmm12, 96
	movaps	%xmm11, 80(%rsp)                # 16-byte Spill
	.seh_savexmm %xmm11, 80
	movaps	%xmm10, 64(%rsp)                # 16-byte Spill
	.seh_savexmm %xmm10, 64
	movaps	%xmm9, 48(%rsp)                 # 16-byte Spill
	.seh_savexmm %xmm9, 48
	movaps	%xmm8, 32(%rsp)                 # 16-byte Spill
	.seh_savexmm %xmm8, 32
	movaps	%xmm7, 16(%rsp)                 # 16-byte Spill
	.seh_savexmm %xmm7, 16
	movaps	%xmm6, (%rsp)                   # 16-byte Spill
	.seh_savexmm %xmm6, 0
	.seh_endprologue
	movq	%rcx, %rdi
	callq	aes_v1.aes_c.single_rounds.inverse_mixed
	callq	aes_v1.aes_cipher.zeroize.stack.wipe_stack.512
	movaps	(%rsp), %xmm6                   # 16-byte Reload
	movaps	16(%rsp), %xmm7                 # 16-byte Reload
	movaps	32(%rsp), %xmm8                 # 16-byte Reload
	movaps	48(%rsp), %xmm9                 # 16-byte Reload
	movaps	64(%rsp), %xmm10                # 16-byte Reload
	movaps	80(%rsp), %xmm11                # 16-byte Reload
	movaps	96(%rsp), %xmm12                # 16-byte Reload
	movaps	112(%rsp), %xmm13               # 16-byte Reload
	movaps	128(%rsp), %xmm14               # 16-byte Reload
	movaps	144(%rsp), %xmm15               # 16-byte Reload
	pxor	%xmm0, %xmm0
	pxor	%xmm1, %xmm1
	pxor	%xmm2, %xmm2
	pxor	%xmm3, %xmm3
	pxor	%xmm4, %xmm4
	pxor	%xmm5, %xmm5
	xorl	%ecx, %ecx
	xorl	%edx, %edx
	xorl	%r8d, %r8d
	xorl	%r9d, %r9d
	xorl	%r10d, %r10d
	xorl	%r11d, %r11d
	addq	$168, %rsp
	popq	%rdi
	popq	%rsi
	retq
	.seh_endproc
                                        # -- End function
	export_aes_v1	fotsgure_aes_equiv_inv_cipher_round
	.p2align	4
aes_v1.fotsgure_aes_equiv_inv_cipher_round:    # @aes_v1.fotsgure_aes_equiv_inv_cipher_round
.seh_proc aes_v1.fotsgure_aes_equiv_inv_cipher_round
# %bb.0:                                # %start
	pushq	%rsi
	.seh_pushreg %rsi
	pushq	%rdi
	.seh_pushreg %rdi
	subq	$168, %rsp
	.seh_stackalloc 168
	movaps	%xmm15, 144(%rsp)               # 16-byte Spill
	.seh_savexmm %xmm15, 144
	movaps	%xmm14, 128(%rsp)               # 16-byte Spill
	.seh_savexmm %xmm14, 128
	movaps	%xmm13, 112(%rsp)               # 16-byte Spill
	.seh_savexmm %xmm13, 112
	movaps	%xmm12, 96(%rsp)                # 16-byte Spill
	.seh_savexmm %xmm12, 96
	movaps	%xmm11, 80(%rsp)                # 16-byte Spill
	.seh_savexmm %xmm11, 80
	movaps	%xmm10, 64(%rsp)                # 16-byte Spill
	.seh_savexmm %xmm10, 64
	movaps	%xmm9, 48(%rsp)                 # 16-byte Spill
	.seh_savexmm %xmm9, 48
	movaps	%xmm8, 32(%rsp)                 # 16-byte Spill
	.seh_savexmm %xmm8, 32
	movaps	%xmm7, 16(%rsp)                 # 16-byte Spill
	.seh_savexmm %xmm7, 16
	movaps	%xmm6, (%rsp)                   # 16-byte Spill
	.seh_savexmm %xmm6, 0
	.seh_endprologue
	movq	%rcx, %rdi
	movq	%rdx, %rsi
	callq	aes_v1.aes_c.single_rounds.inverse_round
	callq	aes_v1.aes_cipher.zeroize.stack.wipe_stack.512
	movaps	(%rsp), %xmm6                   # 16-byte Reload
	movaps	16(%rsp), %xmm7                 # 16-byte Reload
	movaps	32(%rsp), %xmm8                 # 16-byte Reload
	movaps	48(%rsp), %xmm9                 # 16-byte Reload
	movaps	64(%rsp), %xmm10                # 16-byte Reload
	movaps	80(%rsp), %xmm11                # 16-byte Reload
	movaps	96(%rsp), %xmm12                # 16-byte Reload
	movaps	112(%rsp), %xmm13               # 16-byte Reload
	movaps	128(%rsp), %xmm14               # 16-byte Reload
	movaps	144(%rsp), %xmm15               # 16-byte Reload
	pxor	%xmm0, %xmm0
	pxor	%xmm1, %xmm1
	pxor	%xmm2, %xmm2
	pxor	%xmm3, %xmm3
	pxor	%xmm4, %xmm4
	pxor	%xmm5, %xmm5
	xorl	%ecx, %ecx
	xorl	%edx, %edx
	xorl	%r8d, %r8d
	xorl	%r9d, %r9d
	xorl	%r10d, %r10d
	xorl	%r11d, %r11d
	addq	$168, %rsp
	popq	%rdi
	popq	%rsi
	retq
	.seh_endproc
                                        # -- End function
	export_aes_v1	fotsgure_aes_equiv_inv_cipher_round_par
	.p2align	4
aes_v1.fotsgure_aes_equiv_inv_cipher_round_par: # @aes_v1.fotsgure_aes_equiv_inv_cipher_round_par
.seh_proc aes_v1.fotsgure_aes_equiv_inv_cipher_round_par
# %bb.0:                                # %start
	pushq	%rsi
	.seh_pushreg %rsi
	pushq	%rdi
	.seh_pushreg %rdi
	subq	$168, %rsp
	.seh_stackalloc 168
	movaps	%xmm15, 144(%rsp)               # 16-byte Spill
	.seh_savexmm %xmm15, 144
	movaps	%xmm14, 128(%rsp)               # 16-byte Spill
	.seh_savexmm %xmm14, 128
	movaps	%xmm13, 112(%rsp)               # 16-byte Spill
	.seh_savexmm %xmm13, 112
	movaps	%xmm12, 96(%rsp)                # 16-byte Spill
	.seh_savexmm %xmm12, 96
	movaps	%xmm11, 80(%rsp)                # 16-byte Spill
	.seh_savexmm %xmm11, 80
	movaps	%xmm10, 64(%rsp)                # 16-byte Spill
	.seh_savexmm %xmm10, 64
	movaps	%xmm9, 48(%rsp)                 # 16-byte Spill
	.seh_savexmm %xmm9, 48
	movaps	%xmm8, 32(%rsp)                 # 16-byte Spill
	.seh_savexmm %xmm8, 32
	movaps	%xmm7, 16(%rsp)                 # 16-byte Spill
	.seh_savexmm %xmm7, 16
	movaps	%xmm6, (%rsp)                   # 16-byte Spill
	.seh_savexmm %xmm6, 0
	.seh_endprologue
	movq	%rcx, %rdi
	movq	%rdx, %rsi
	callq	aes_v1.aes_c.single_rounds.inverse_rounds
	callq	aes_v1.aes_cipher.zeroize.stack.wipe_stack.512
	movaps	(%rsp), %xmm6                   # 16-byte Reload
	movaps	16(%rsp), %xmm7                 # 16-byte Reload
	movaps	32(%rsp), %xmm8                 # 16-byte Reload
	movaps	48(%rsp), %xmm9                 # 16-byte Reload
	movaps	64(%rsp), %xmm10                # 16-byte Reload
	movaps	80(%rsp), %xmm11                # 16-byte Reload
	movaps	96(%rsp), %xmm12                # 16-byte Reload
	movaps	112(%rsp), %xmm13               # 16-byte Reload
	movaps	128(%rsp), %xmm14               # 16-byte Reload
	movaps	144(%rsp), %xmm15               # 16-byte Reload
	pxor	%xmm0, %xmm0
	pxor	%xmm1, %xmm1
	pxor	%xmm2, %xmm2
	pxor	%xmm3, %xmm3
	pxor	%xmm4, %xmm4
	pxor	%xmm5, %xmm5
	xorl	%ecx, %ecx
	xorl	%edx, %edx
	xorl	%r8d, %r8d
	xorl	%r9d, %r9d
	xorl	%r10d, %r10d
	xorl	%r11d, %r11d
	addq	$168, %rsp
	popq	%rdi
	popq	%rsi
	retq
	.seh_endproc
                                        # -- End function
	export_aes_v1	fotsgure_aes_cmac_accept
	.p2align	4
aes_v1.fotsgure_aes_cmac_accept:               # @aes_v1.fotsgure_aes_cmac_accept
.seh_proc aes_v1.fotsgure_aes_cmac_accept
# %bb.0:                                # %start
	pushq	%rsi
	.seh_pushreg %rsi
	pushq	%rdi
	.seh_pushreg %rdi
	pushq	%rbx
	.seh_pushreg %rbx
	subq	$176, %rsp
	.seh_stackalloc 176
	movaps	%xmm15, 160(%rsp)               # 16-byte Spill
	.seh_savexmm %xmm15, 160
	movaps	%xmm14, 144(%rsp)               # 16-byte Spill
	.seh_savexmm %xmm14, 144
	movaps	%xmm13, 128(%rsp)               # 16-byte Spill
	.seh_savexmm %xmm13, 128
	movaps	%xmm12, 112(%rsp)               # 16-byte Spill
	.seh_savexmm %xmm12, 112
	movaps	%xmm11, 96(%rsp)                # 16-byte Spill
	.seh_savexmm %xmm11, 96
	movaps	%xmm10, 80(%rsp)                # 16-byte Spill
	.seh_savexmm %xmm10, 80
	movaps	%xmm9, 64(%rsp)                 # 16-byte Spill
	.seh_savexmm %xmm9, 64
	movaps	%xmm8, 48(%rsp)                 # 16-byte Spill
	.seh_savexmm %xmm8, 48
	movaps	%xmm7, 32(%rsp)                 # 16-byte Spill
	.seh_savexmm %xmm7, 32
	movaps	%xmm6, 16(%rsp)                 # 16-byte Spill
	.seh_savexmm %xmm6, 16
	.seh_endprologue
	xorl	%eax, %eax
	testq	%r8, %r8
	sete	%r10b
	movl	(%rcx), %r11d
	movl	$2, %ebx
	cmpq	$32, %r11
	ja	.Laes_v1_BB67_7
# %bb.1:                                # %start
	movabsq	$4311810048, %rsi               # imm = 0x101010000
	btq	%r11, %rsi
	jae	.Laes_v1_BB67_7
# %bb.2:                                # %join.3.i
	leaq	-4(%r9), %rsi
	movl	$7, %ebx
	cmpq	$12, %rsi
	ja	.Laes_v1_BB67_7
# %bb.3:                                # %join.6.i
	addq	$4, %rcx
	leaq	56(,%r11,2), %r11
	movq	%rcx, (%rsp)
	movq	%r11, 8(%rsp)
	movl	$10, %ebx
	cmpq	$1, (%rdx)
	jne	.Laes_v1_BB67_6
# %bb.4:                                # %join.3.i.i
	movb	%r10b, %al
	shll	$12, %eax
	addq	%rax, %r8
	movq	%rsp, %rsi
	movq	%rdx, %rdi
	movq	%rdx, %rbx
	movq	%r8, %rdx
	movq	%r9, %rcx
	callq	aes_v1.cmac.pieces.Message.is_tag_so_far
	movq	%rbx, %rdi
	movl	$6, %ebx
	testb	%al, %al
	je	.Laes_v1_BB67_6
# %bb.5:                                # %join.7.i.i
	callq	aes_v1.cmac.pieces.MessageZeroize.zeroize
	xorl	%ebx, %ebx
.Laes_v1_BB67_6:                               # %"cmac::pieces::Message::accept::<#4f733d09d7f6c6b4>.exit.i"
	callq	aes_v1.aes_cipher.zeroize.stack.wipe_stack.768
.Laes_v1_BB67_7:                               # %"aes_c::tags::pieces::fotsgure_aes_cmac_accept.exit"
	movl	%ebx, %eax
	movaps	16(%rsp), %xmm6                 # 16-byte Reload
	movaps	32(%rsp), %xmm7                 # 16-byte Reload
	movaps	48(%rsp), %xmm8                 # 16-byte Reload
	movaps	64(%rsp), %xmm9                 # 16-byte Reload
	movaps	80(%rsp), %xmm10                # 16-byte Reload
	movaps	96(%rsp), %xmm11                # 16-byte Reload
	movaps	112(%rsp), %xmm12               # 16-byte Reload
	movaps	128(%rsp), %xmm13               # 16-byte Reload
	movaps	144(%rsp), %xmm14               # 16-byte Reload
	movaps	160(%rsp), %xmm15               # 16-byte Reload
	pxor	%xmm0, %xmm0
	pxor	%xmm1, %xmm1
	pxor	%xmm2, %xmm2
	pxor	%xmm3, %xmm3
	pxor	%xmm4, %xmm4
	pxor	%xmm5, %xmm5
	xorl	%ecx, %ecx
	xorl	%edx, %edx
	xorl	%r8d, %r8d
	xorl	%r9d, %r9d
	xorl	%r10d, %r10d
	xorl	%r11d, %r11d
	addq	$176, %rsp
	popq	%rbx
	popq	%rdi
	popq	%rsi
	retq
	.seh_endproc
                                        # -- End function
	export_aes_v1	fotsgure_aes_cmac_verify
	.p2align	4
aes_v1.fotsgure_aes_cmac_verify:               # @aes_v1.fotsgure_aes_cmac_verify
.seh_proc aes_v1.fotsgure_aes_cmac_verify
# %bb.0:                                # %start
	pushq	%r14
	.seh_pushreg %r14
	pushq	%rsi
	.seh_pushreg %rsi
	pushq	%rdi
	.seh_pushreg %rdi
	pushq	%rbp
	.seh_pushreg %rbp
	pushq	%rbx
	.seh_pushreg %rbx
	subq	$176, %rsp
	.seh_stackalloc 176
	movaps	%xmm15, 160(%rsp)               # 16-byte Spill
	.seh_savexmm %xmm15, 160
	movaps	%xmm14, 144(%rsp)               # 16-byte Spill
	.seh_savexmm %xmm14, 144
	movaps	%xmm13, 128(%rsp)               # 16-byte Spill
	.seh_savexmm %xmm13, 128
	movaps	%xmm12, 112(%rsp)               # 16-byte Spill
	.seh_savexmm %xmm12, 112
	movaps	%xmm11, 96(%rsp)                # 16-byte Spill
	.seh_savexmm %xmm11, 96
	movaps	%xmm10, 80(%rsp)                # 16-byte Spill
	.seh_savexmm %xmm10, 80
	movaps	%xmm9, 64(%rsp)                 # 16-byte Spill
	.seh_savexmm %xmm9, 64
	movaps	%xmm8, 48(%rsp)                 # 16-byte Spill
	.seh_savexmm %xmm8, 48
	movaps	%xmm7, 32(%rsp)                 # 16-byte Spill
	.seh_savexmm %xmm7, 32
	movaps	%xmm6, 16(%rsp)                 # 16-byte Spill
	.seh_savexmm %xmm6, 16
	.seh_endprologue
	xorl	%edi, %edi
	testq	%rdx, %rdx
	sete	%bpl
	xorl	%esi, %esi
	testq	%r9, %r9
	sete	%bl
	movl	(%rcx), %r11d
	movl	$2, %eax
	cmpq	$32, %r11
	ja	.Laes_v1_BB68_4
# %bb.1:                                # %start
	movabsq	$4311810048, %r10               # imm = 0x101010000
	btq	%r11, %r10
	jae	.Laes_v1_BB68_4
# %bb.2:                                # %join.3.i
	movq	256(%rsp), %r10
	leaq	-4(%r10), %r14
	movl	$7, %eax
	cmpq	$12, %r14
	ja	.Laes_v1_BB68_4
# %bb.3:                                # %join.6.i
	movb	%bpl, %dil
	shll	$12, %edi
	addq	%rdi, %rdx
	movb	%bl, %sil
	shll	$12, %esi
	addq	%rsi, %r9
	addq	$4, %rcx
	leaq	56(,%r11,2), %rax
	movq	%rcx, (%rsp)
	movq	%rax, 8(%rsp)
	movq	%rsp, %rdi
	movq	%rdx, %rsi
	movq	%r8, %rdx
	movq	%r9, %rcx
	movq	%r10, %r8
	callq	aes_v1.cmac.tags.is_tag_start
	movl	%eax, %ebx
	callq	aes_v1.aes_cipher.zeroize.stack.wipe_stack.768
	xorl	%ecx, %ecx
	testb	%bl, %bl
	movl	$6, %eax
	cmovnel	%ecx, %eax
.Laes_v1_BB68_4:                               # %"aes_c::tags::fotsgure_aes_cmac_verify.exit"
	movaps	16(%rsp), %xmm6                 # 16-byte Reload
	movaps	32(%rsp), %xmm7                 # 16-byte Reload
	movaps	48(%rsp), %xmm8                 # 16-byte Reload
	movaps	64(%rsp), %xmm9                 # 16-byte Reload
	movaps	80(%rsp), %xmm10                # 16-byte Reload
	movaps	96(%rsp), %xmm11                # 16-byte Reload
	movaps	112(%rsp), %xmm12               # 16-byte Reload
	movaps	128(%rsp), %xmm13               # 16-byte Reload
	movaps	144(%rsp), %xmm14               # 16-byte Reload
	movaps	160(%rsp), %xmm15               # 16-byte Reload
	pxor	%xmm0, %xmm0
	pxor	%xmm1, %xmm1
	pxor	%xmm2, %xmm2
	pxor	%xmm3, %xmm3
	pxor	%xmm4, %xmm4
	pxor	%xmm5, %xmm5
	xorl	%ecx, %ecx
	xorl	%edx, %edx
	xorl	%r8d, %r8d
	xorl	%r9d, %r9d
	xorl	%r10d, %r10d
	xorl	%r11d, %r11d
	addq	$176, %rsp
	popq	%rbx
	popq	%rbp
	popq	%rdi
	popq	%rsi
	popq	%r14
	retq
	.seh_endproc
                                        # -- End function
	export_aes_v1	fotsgure_aes_mix_columns
	.p2align	4
aes_v1.fotsgure_aes_mix_columns:               # @aes_v1.fotsgure_aes_mix_columns
.seh_proc aes_v1.fotsgure_aes_mix_columns
# %bb.0:                                # %start
	pushq	%rsi
	.seh_pushreg %rsi
	pushq	%rdi
	.seh_pushreg %rdi
	subq	$168, %rsp
	.seh_stackalloc 168
	movaps	%xmm15, 144(%rsp)               # 16-byte Spill
	.seh_savexmm %xmm15, 144
	movaps	%xmm14, 128(%rsp)               # 16-byte Spill
	.seh_savexmm %xmm14, 128
	movaps	%xmm13, 112(%rsp)               # 16-byte Spill
	.seh_savexmm %xmm13, 112
	movaps	%xmm12, 96(%rsp)                # 16-byte Spill
	.seh_savexmm %xmm12, 96
	movaps	%xmm11, 80(%rsp)                # 16-byte Spill
	.seh_savexmm %xmm11, 80
	movaps	%xmm10, 64(%rsp)                # 16-byte Spill
	.seh_savexmm %xmm10, 64
	movaps	%xmm9, 48(%rsp)                 # 16-byte Spill
	.seh_savexmm %xmm9, 48
	movaps	%xmm8, 32(%rsp)                 # 16-byte Spill
	.seh_savexmm %xmm8, 32
	movaps	%xmm7, 16(%rsp)                 # 16-byte Spill
	.seh_savexmm %xmm7, 16
	movaps	%xmm6, (%rsp)                   # 16-byte Spill
	.seh_savexmm %xmm6, 0
	.seh_endprologue
	movq	%rcx, %rdi
	callq	aes_v1.aes_c.single_rounds.mixed
	callq	aes_v1.aes_cipher.zeroize.stack.wipe_stack.512
	movaps	(%rsp), %xmm6                   # 16-byte Reload
	movaps	16(%rsp), %xmm7                 # 16-byte Reload
	movaps	32(%rsp), %xmm8                 # 16-byte Reload
	movaps	48(%rsp), %xmm9                 # 16-byte Reload
	movaps	64(%rsp), %xmm10                # 16-byte Reload
	movaps	80(%rsp), %xmm11                # 16-byte Reload
	movaps	96(%rsp), %xmm12                # 16-byte Reload
	movaps	112(%rsp), %xmm13               # 16-byte Reload
	movaps	128(%rsp), %xmm14               # 16-byte Reload
	movaps	144(%rsp), %xmm15               # 16-byte Reload
	pxor	%xmm0, %xmm0
	pxor	%xmm1, %xmm1
	pxor	%xmm2, %xmm2
	pxor	%xmm3, %xmm3
	pxor	%xmm4, %xmm4
	pxor	%xmm5, %xmm5
	xorl	%ecx, %ecx
	xorl	%edx, %edx
	xorl	%r8d, %r8d
	xorl	%r9d, %r9d
	xorl	%r10d, %r10d
	xorl	%r11d, %r11d
	addq	$168, %rsp
	popq	%rdi
	popq	%rsi
	retq
	.seh_endproc
                                        # -- End function
	export_aes_v1	fotsgure_aes_add_keystream
	.p2align	4
aes_v1.fotsgure_aes_add_keystream:             # @aes_v1.fotsgure_aes_add_keystream
.seh_proc aes_v1.fotsgure_aes_add_keystream
# %bb.0:                                # %start
	pushq	%r14
	.seh_pushreg %r14
	pushq	%rsi
	.seh_pushreg %rsi
	pushq	%rdi
	.seh_pushreg %rdi
	pushq	%rbx
	.seh_pushreg %rbx
	subq	$184, %rsp
	.seh_stackalloc 184
	movaps	%xmm15, 160(%rsp)               # 16-byte Spill
	.seh_savexmm %xmm15, 160
	movaps	%xmm14, 144(%rsp)               # 16-byte Spill
	.seh_savexmm %xmm14, 144
	movaps	%xmm13, 128(%rsp)               # 16-byte Spill
	.seh_savexmm %xmm13, 128
	movaps	%xmm12, 112(%rsp)               # 16-byte Spill
	.seh_savexmm %xmm12, 112
	movaps	%xmm11, 96(%rsp)                # 16-byte Spill
	.seh_savexmm %xmm11, 96
	movaps	%xmm10, 80(%rsp)                # 16-byte Spill
	.seh_savexmm %xmm10, 80
	movaps	%xmm9, 64(%rsp)                 # 16-byte Spill
	.seh_savexmm %xmm9, 64
	movaps	%xmm8, 48(%rsp)                 # 16-byte Spill
	.seh_savexmm %xmm8, 48
	movaps	%xmm7, 32(%rsp)                 # 16-byte Spill
	.seh_savexmm %xmm7, 32
	movaps	%xmm6, 16(%rsp)                 # 16-byte Spill
	.seh_savexmm %xmm6, 16
	.seh_endprologue
	xorl	%r11d, %r11d
	testq	%r8, %r8
	sete	%bl
	movq	16(%rdx), %r10
	movq	%r10, %rsi
	movl	$4, %eax
	addq	%r9, %rsi
	jb	.Laes_v1_BB70_4
# %bb.1:                                # %join.3.i.i
	movl	(%rcx), %esi
	movl	$2, %eax
	cmpq	$32, %rsi
	ja	.Laes_v1_BB70_4
# %bb.2:                                # %join.3.i.i
	movabsq	$4311810048, %rdi               # imm = 0x101010000
	btq	%rsi, %rdi
	jae	.Laes_v1_BB70_4
# %bb.3:                                # %then.1.i
	movb	%bl, %r11b
	shll	$12, %r11d
	addq	%r11, %r8
	addq	$4, %rcx
	leaq	56(,%rsi,2), %rax
	movq	%rcx, (%rsp)
	movq	%rax, 8(%rsp)
	movq	%rsp, %rdi
	movq	%rdx, %rsi
	movq	%rdx, %rbx
	movq	%r10, %rdx
	movq	%r8, %rcx
	movq	%r9, %r8
	movq	%r9, %r14
	callq	aes_v1.aes_ctr.add_in_batches.add_keystream
	addq	%r14, 16(%rbx)
	xorl	%eax, %eax
.Laes_v1_BB70_4:                               # %"aes_c::stream::fotsgure_aes_add_keystream.exit"
	movaps	16(%rsp), %xmm6                 # 16-byte Reload
	movaps	32(%rsp), %xmm7                 # 16-byte Reload
	movaps	48(%rsp), %xmm8                 # 16-byte Reload
	movaps	64(%rsp), %xmm9                 # 16-byte Reload
	movaps	80(%rsp), %xmm10                # 16-byte Reload
	movaps	96(%rsp), %xmm11                # 16-byte Reload
	movaps	112(%rsp), %xmm12               # 16-byte Reload
	movaps	128(%rsp), %xmm13               # 16-byte Reload
	movaps	144(%rsp), %xmm14               # 16-byte Reload
	movaps	160(%rsp), %xmm15               # 16-byte Reload
	pxor	%xmm0, %xmm0
	pxor	%xmm1, %xmm1
	pxor	%xmm2, %xmm2
	pxor	%xmm3, %xmm3
	pxor	%xmm4, %xmm4
	pxor	%xmm5, %xmm5
	xorl	%ecx, %ecx
	xorl	%edx, %edx
	xorl	%r8d, %r8d
	xorl	%r9d, %r9d
	xorl	%r10d, %r10d
	xorl	%r11d, %r11d
	addq	$184, %rsp
	popq	%rbx
	popq	%rdi
	popq	%rsi
	popq	%r14
	retq
	.seh_endproc
                                        # -- End function
	export_aes_v1	fotsgure_aes_add_keystream_to
	.p2align	4
aes_v1.fotsgure_aes_add_keystream_to:          # @aes_v1.fotsgure_aes_add_keystream_to
.seh_proc aes_v1.fotsgure_aes_add_keystream_to
# %bb.0:                                # %start
	pushq	%r15
	.seh_pushreg %r15
	pushq	%r14
	.seh_pushreg %r14
	pushq	%r13
	.seh_pushreg %r13
	pushq	%r12
	.seh_pushreg %r12
	pushq	%rsi
	.seh_pushreg %rsi
	pushq	%rdi
	.seh_pushreg %rdi
	pushq	%rbp
	.seh_pushreg %rbp
	pushq	%rbx
	.seh_pushreg %rbx
	subq	$216, %rsp
	.seh_stackalloc 216
	movaps	%xmm15, 192(%rsp)               # 16-byte Spill
	.seh_savexmm %xmm15, 192
	movaps	%xmm14, 176(%rsp)               # 16-byte Spill
	.seh_savexmm %xmm14, 176
	movaps	%xmm13, 160(%rsp)               # 16-byte Spill
	.seh_savexmm %xmm13, 160
	movaps	%xmm12, 144(%rsp)               # 16-byte Spill
	.seh_savexmm %xmm12, 144
	movaps	%xmm11, 128(%rsp)               # 16-byte Spill
	.seh_savexmm %xmm11, 128
	movaps	%xmm10, 112(%rsp)               # 16-byte Spill
	.seh_savexmm %xmm10, 112
	movaps	%xmm9, 96(%rsp)                 # 16-byte Spill
	.seh_savexmm %xmm9, 96
	movaps	%xmm8, 80(%rsp)                 # 16-byte Spill
	.seh_savexmm %xmm8, 80
	movaps	%xmm7, 64(%rsp)                 # 16-byte Spill
	.seh_savexmm %xmm7, 64
	movaps	%xmm6, 48(%rsp)                 # 16-byte Spill
	.seh_savexmm %xmm6, 48
	.seh_endprologue
	movq	320(%rsp), %r10
	xorl	%r11d, %r11d
	testq	%r8, %r8
	sete	%bpl
	xorl	%edi, %edi
	testq	%r10, %r10
	sete	%bl
	movl	$3, %eax
	cmpq	328(%rsp), %r9
	jne	.Laes_v1_BB71_29
# %bb.1:                                # %join.3.i
	movq	16(%rdx), %rsi
	movl	$4, %eax
	addq	%r9, %rsi
	jb	.Laes_v1_BB71_29
# %bb.2:                                # %join.3.i.i
	movl	(%rcx), %r14d
	movl	$2, %eax
	cmpq	$32, %r14
	ja	.Laes_v1_BB71_29
# %bb.3:                                # %join.3.i.i
	movabsq	$4311810048, %rsi               # imm = 0x101010000
	btq	%r14, %rsi
	jae	.Laes_v1_BB71_29
# %bb.4:                                # %join.6.i
	movb	%bpl, %r11b
	shll	$12, %r11d
	leaq	(%r8,%r11), %rax
	movb	%bl, %dil
	shll	$12, %edi
	leaq	(%r10,%rdi), %rbx
	movq	%rbx, %r14
	subq	%rax, %r14
	cmpq	%r9, %r14
	jae	.Laes_v1_BB71_7
# %bb.5:                                # %iter.check
	cmpq	$4, %r9
	jb	.Laes_v1_BB71_6
# %bb.8:                                # %vector.memcheck
	cmpq	$32, %r14
	jae	.Laes_v1_BB71_10
.Laes_v1_BB71_6:
	xorl	%r14d, %r14d
.Laes_v1_BB71_19:                              # %join.7.i.i.i.i.i.i.i.preheader
	movq	%r9, %r12
	movq	%r14, %r15
	andq	$3, %r12
	je	.Laes_v1_BB71_22
# %bb.20:                               # %join.7.i.i.i.i.i.i.i.prol.preheader
	movq	%r14, %r15
	.p2align	4
.Laes_v1_BB71_21:                              # %join.7.i.i.i.i.i.i.i.prol
                                        # =>This Inner Loop Header: Depth=1
	movzbl	(%rax,%r15), %ebp
	movb	%bpl, (%rbx,%r15)
	incq	%r15
	decq	%r12
	jne	.Laes_v1_BB71_21
.Laes_v1_BB71_22:                              # %join.7.i.i.i.i.i.i.i.prol.loopexit
	subq	%r9, %r14
	cmpq	$-4, %r14
	ja	.Laes_v1_BB71_25
# %bb.23:                               # %join.7.i.i.i.i.i.i.i.preheader11
	leaq	(%r11,%r8), %rax
	addq	$3, %rax
	leaq	(%rdi,%r10), %r8
	addq	$3, %r8
	.p2align	4
.Laes_v1_BB71_24:                              # %join.7.i.i.i.i.i.i.i
                                        # =>This Inner Loop Header: Depth=1
	movzbl	-3(%rax,%r15), %r10d
	movb	%r10b, -3(%r8,%r15)
	movzbl	-2(%rax,%r15), %r10d
	movb	%r10b, -2(%r8,%r15)
	movzbl	-1(%rax,%r15), %r10d
	movb	%r10b, -1(%r8,%r15)
	movzbl	(%rax,%r15), %r10d
	movb	%r10b, (%r8,%r15)
	addq	$4, %r15
	cmpq	%r15, %r9
	jne	.Laes_v1_BB71_24
	jmp	.Laes_v1_BB71_25
.Laes_v1_BB71_7:                               # %apart.2.i.i.i.i.i.i.i
	movq	%rcx, %rdi
	movq	%rbx, %rcx
	movq	%rdx, %r14
	movq	%rax, %rdx
	movq	%r9, %r8
	movq	%r9, %r15
	callq	memmove
	movq	%rdi, %rcx
	movq	%r14, %rdx
	movq	%r15, %r9
.Laes_v1_BB71_25:                              # %"core::slice::edits::slice+T::copy_from_slice::<i8,20'core::clone::U8Clone{}>.exit.i"
	movq	16(%rdx), %r8
	movq	%r8, %r10
	movl	$4, %eax
	addq	%r9, %r10
	jb	.Laes_v1_BB71_29
# %bb.26:                               # %join.3.i.i.i
	movl	(%rcx), %r10d
	movl	$2, %eax
	cmpq	$32, %r10
	ja	.Laes_v1_BB71_29
# %bb.27:                               # %join.3.i.i.i
	btq	%r10, %rsi
	jae	.Laes_v1_BB71_29
# %bb.28:                               # %then.1.i.i
	addq	$4, %rcx
	leaq	56(,%r10,2), %rax
	movq	%rcx, 32(%rsp)
	movq	%rax, 40(%rsp)
	leaq	32(%rsp), %rdi
	movq	%rdx, %rsi
	movq	%rdx, %r14
	movq	%r8, %rdx
	movq	%rbx, %rcx
	movq	%r9, %r8
	movq	%r9, %rbx
	callq	aes_v1.aes_ctr.add_in_batches.add_keystream
	addq	%rbx, 16(%r14)
	xorl	%eax, %eax
.Laes_v1_BB71_29:                              # %"aes_c::stream::fotsgure_aes_add_keystream_to.exit"
	movaps	48(%rsp), %xmm6                 # 16-byte Reload
	movaps	64(%rsp), %xmm7                 # 16-byte Reload
	movaps	80(%rsp), %xmm8                 # 16-byte Reload
	movaps	96(%rsp), %xmm9                 # 16-byte Reload
	movaps	112(%rsp), %xmm10               # 16-byte Reload
	movaps	128(%rsp), %xmm11               # 16-byte Reload
	movaps	144(%rsp), %xmm12               # 16-byte Reload
	movaps	160(%rsp), %xmm13               # 16-byte Reload
	movaps	176(%rsp), %xmm14               # 16-byte Reload
	movaps	192(%rsp), %xmm15               # 16-byte Reload
	pxor	%xmm0, %xmm0
	pxor	%xmm1, %xmm1
	pxor	%xmm2, %xmm2
	pxor	%xmm3, %xmm3
	pxor	%xmm4, %xmm4
	pxor	%xmm5, %xmm5
	xorl	%ecx, %ecx
	xorl	%edx, %edx
	xorl	%r8d, %r8d
	xorl	%r9d, %r9d
	xorl	%r10d, %r10d
	xorl	%r11d, %r11d
	addq	$216, %rsp
	popq	%rbx
	popq	%rbp
	popq	%rdi
	popq	%rsi
	popq	%r12
	popq	%r13
	popq	%r14
	popq	%r15
	retq
.Laes_v1_BB71_10:                              # %vector.main.loop.iter.check
	cmpq	$32, %r9
	jae	.Laes_v1_BB71_12
# %bb.11:
	xorl	%r14d, %r14d
	jmp	.Laes_v1_BB71_16
.Laes_v1_BB71_12:                              # %vector.ph
	movq	%r9, %r14
	andq	$-32, %r14
	leaq	(%r11,%r8), %r15
	addq	$16, %r15
	leaq	(%rdi,%r10), %r12
	addq	$16, %r12
	xorl	%r13d, %r13d
	.p2align	4
.Laes_v1_BB71_13:                              # %vector.body
                                        # =>This Inner Loop Header: Depth=1
	movups	-16(%r15,%r13), %xmm0
	movups	(%r15,%r13), %xmm1
	movups	%xmm0, -16(%r12,%r13)
	movups	%xmm1, (%r12,%r13)
	addq	$32, %r13
	cmpq	%r13, %r14
	jne	.Laes_v1_BB71_13
# %bb.14:                               # %middle.block
	cmpq	%r14, %r9
	je	.Laes_v1_BB71_25
# %bb.15:                               # %vec.epilog.iter.check
	testb	$28, %r9b
	je	.Laes_v1_BB71_19
.Laes_v1_BB71_16:                              # %vec.epilog.ph
	movq	%r14, %r15
	movq	%r9, %r14
	andq	$-4, %r14
	.p2align	4
.Laes_v1_BB71_17:                              # %vec.epilog.vector.body
                                        # =>This Inner Loop Header: Depth=1
	movl	(%rax,%r15), %ebp
	movl	%ebp, (%rbx,%r15)
	addq	$4, %r15
	cmpq	%r15, %r14
	jne	.Laes_v1_BB71_17
# %bb.18:                               # %vec.epilog.middle.block
	cmpq	%r14, %r9
	je	.Laes_v1_BB71_25
	jmp	.Laes_v1_BB71_19
	.seh_endproc
                                        # -- End function
	export_aes_v1	fotsgure_aes_cipher_round
	.p2align	4
aes_v1.fotsgure_aes_cipher_round:              # @aes_v1.fotsgure_aes_cipher_round
.seh_proc aes_v1.fotsgure_aes_cipher_round
# %bb.0:                                # %start
	pushq	%rsi
	.seh_pushreg %rsi
	pushq	%rdi
	.seh_pushreg %rdi
	subq	$168, %rsp
	.seh_stackalloc 168
	movaps	%xmm15, 144(%rsp)               # 16-byte Spill
	.seh_savexmm %xmm15, 144
	movaps	%xmm14, 128(%rsp)               # 16-byte Spill
	.seh_savexmm %xmm14, 128
	movaps	%xmm13, 112(%rsp)               # 16-byte Spill
	.seh_savexmm %xmm13, 112
	movaps	%xmm12, 96(%rsp)                # 16-byte Spill
	.seh_savexmm %xmm12, 96
	movaps	%xmm11, 80(%rsp)                # 16-byte Spill
	.seh_savexmm %xmm11, 80
	movaps	%xmm10, 64(%rsp)                # 16-byte Spill
	.seh_savexmm %xmm10, 64
	movaps	%xmm9, 48(%rsp)                 # 16-byte Spill
	.seh_savexmm %xmm9, 48
	movaps	%xmm8, 32(%rsp)                 # 16-byte Spill
	.seh_savexmm %xmm8, 32
	movaps	%xmm7, 16(%rsp)                 # 16-byte Spill
	.seh_savexmm %xmm7, 16
	movaps	%xmm6, (%rsp)                   # 16-byte Spill
	.seh_savexmm %xmm6, 0
	.seh_endprologue
	movq	%rcx, %rdi
	movq	%rdx, %rsi
	callq	aes_v1.aes_c.single_rounds.round
	callq	aes_v1.aes_cipher.zeroize.stack.wipe_stack.512
	movaps	(%rsp), %xmm6                   # 16-byte Reload
	movaps	16(%rsp), %xmm7                 # 16-byte Reload
	movaps	32(%rsp), %xmm8                 # 16-byte Reload
	movaps	48(%rsp), %xmm9                 # 16-byte Reload
	movaps	64(%rsp), %xmm10                # 16-byte Reload
	movaps	80(%rsp), %xmm11                # 16-byte Reload
	movaps	96(%rsp), %xmm12                # 16-byte Reload
	movaps	112(%rsp), %xmm13               # 16-byte Reload
	movaps	128(%rsp), %xmm14               # 16-byte Reload
	movaps	144(%rsp), %xmm15               # 16-byte Reload
	pxor	%xmm0, %xmm0
	pxor	%xmm1, %xmm1
	pxor	%xmm2, %xmm2
	pxor	%xmm3, %xmm3
	pxor	%xmm4, %xmm4
	pxor	%xmm5, %xmm5
	xorl	%ecx, %ecx
	xorl	%edx, %edx
	xorl	%r8d, %r8d
	xorl	%r9d, %r9d
	xorl	%r10d, %r10d
	xorl	%r11d, %r11d
	addq	$168, %rsp
	popq	%rdi
	popq	%rsi
	retq
	.seh_endproc
                                        # -- End function
	export_aes_v1	fotsgure_aes_cipher_round_par
	.p2align	4
aes_v1.fotsgure_aes_cipher_round_par:          # @aes_v1.fotsgure_aes_cipher_round_par
.seh_proc aes_v1.fotsgure_aes_cipher_round_par
# %bb.0:                                # %start
	pushq	%rsi
	.seh_pushreg %rsi
	pushq	%rdi
	.seh_pushreg %rdi
	subq	$168, %rsp
	.seh_stackalloc 168
	movaps	%xmm15, 144(%rsp)               # 16-byte Spill
	.seh_savexmm %xmm15, 144
	movaps	%xmm14, 128(%rsp)               # 16-byte Spill
	.seh_savexmm %xmm14, 128
	movaps	%xmm13, 112(%rsp)               # 16-byte Spill
	.seh_savexmm %xmm13, 112
	movaps	%xmm12, 96(%rsp)                # 16-byte Spill
	.seh_savexmm %xmm12, 96
	movaps	%xmm11, 80(%rsp)                # 16-byte Spill
	.seh_savexmm %xmm11, 80
	movaps	%xmm10, 64(%rsp)                # 16-byte Spill
	.seh_savexmm %xmm10, 64
	movaps	%xmm9, 48(%rsp)                 # 16-byte Spill
	.seh_savexmm %xmm9, 48
	movaps	%xmm8, 32(%rsp)                 # 16-byte Spill
	.seh_savexmm %xmm8, 32
	movaps	%xmm7, 16(%rsp)                 # 16-byte Spill
	.seh_savexmm %xmm7, 16
	movaps	%xmm6, (%rsp)                   # 16-byte Spill
	.seh_savexmm %xmm6, 0
	.seh_endprologue
	movq	%rcx, %rdi
	movq	%rdx, %rsi
	callq	aes_v1.aes_c.single_rounds.rounds
	callq	aes_v1.aes_cipher.zeroize.stack.wipe_stack.512
	movaps	(%rsp), %xmm6                   # 16-byte Reload
	movaps	16(%rsp), %xmm7                 # 16-byte Reload
	movaps	32(%rsp), %xmm8                 # 16-byte Reload
	movaps	48(%rsp), %xmm9                 # 16-byte Reload
	movaps	64(%rsp), %xmm10                # 16-byte Reload
	movaps	80(%rsp), %xmm11                # 16-byte Reload
	movaps	96(%rsp), %xmm12                # 16-byte Reload
	movaps	112(%rsp), %xmm13               # 16-byte Reload
	movaps	128(%rsp), %xmm14               # 16-byte Reload
	movaps	144(%rsp), %xmm15               # 16-byte Reload
	pxor	%xmm0, %xmm0
	pxor	%xmm1, %xmm1
	pxor	%xmm2, %xmm2
	pxor	%xmm3, %xmm3
	pxor	%xmm4, %xmm4
	pxor	%xmm5, %xmm5
	xorl	%ecx, %ecx
	xorl	%edx, %edx
	xorl	%r8d, %r8d
	xorl	%r9d, %r9d
	xorl	%r10d, %r10d
	xorl	%r11d, %r11d
	addq	$168, %rsp
	popq	%rdi
	popq	%rsi
	retq
	.seh_endproc
                                        # -- End function
	export_aes_v1	fotsgure_aes_set_key
	.p2align	4
aes_v1.fotsgure_aes_set_key:                   # @aes_v1.fotsgure_aes_set_key
.seh_proc aes_v1.fotsgure_aes_set_key
# %bb.0:                                # %start
	pushq	%r14
	.seh_pushreg %r14
	pushq	%rsi
	.seh_pushreg %rsi
	pushq	%rdi
	.seh_pushreg %rdi
	pushq	%rbp
	.seh_pushreg %rbp
	pushq	%rbx
	.seh_pushreg %rbx
	subq	$192, %rsp
	.seh_stackalloc 192
	movaps	%xmm15, 176(%rsp)               # 16-byte Spill
	.seh_savexmm %xmm15, 176
	movaps	%xmm14, 160(%rsp)               # 16-byte Spill
	.seh_savexmm %xmm14, 160
	movaps	%xmm13, 144(%rsp)               # 16-byte Spill
	.seh_savexmm %xmm13, 144
	movaps	%xmm12, 128(%rsp)               # 16-byte Spill
	.seh_savexmm %xmm12, 128
	movaps	%xmm11, 112(%rsp)               # 16-byte Spill
	.seh_savexmm %xmm11, 112
	movaps	%xmm10, 96(%rsp)                # 16-byte Spill
	.seh_savexmm %xmm10, 96
	movaps	%xmm9, 80(%rsp)                 # 16-byte Spill
	.seh_savexmm %xmm9, 80
	movaps	%xmm8, 64(%rsp)                 # 16-byte Spill
	.seh_savexmm %xmm8, 64
	movaps	%xmm7, 48(%rsp)                 # 16-byte Spill
	.seh_savexmm %xmm7, 48
	movaps	%xmm6, 32(%rsp)                 # 16-byte Spill
	.seh_savexmm %xmm6, 32
	.seh_endprologue
	cmpq	$32, %r8
	ja	.Laes_v1_BB74_2
# %bb.1:                                # %start
	movq	%r8, %rbx
	movabsq	$4311810048, %rax               # imm = 0x101010000
	btq	%r8, %rax
	jae	.Laes_v1_BB74_2
# %bb.3:                                # %join.3.i
	xorl	%esi, %esi
	testq	%rdx, %rdx
	sete	%sil
	shll	$12, %esi
	addq	%rdx, %rsi
	leaq	4(%rcx), %rdi
	xorl	%ebp, %ebp
	movl	$480, %r8d                      # imm = 0x1E0
	movq	%rcx, %r14
	movq	%rdi, %rcx
	xorl	%edx, %edx
	callq	memset
	movq	%rbx, %rdx
	callq	aes_v1.aes_narrow.word_room.expand_words
	callq	aes_v1.aes_cipher.zeroize.stack.wipe_stack.768
	movl	%ebx, (%r14)
	jmp	.Laes_v1_BB74_4
.Laes_v1_BB74_2:                               # %then.1.i
	movl	$484, %r8d                      # imm = 0x1E4
	xorl	%edx, %edx
	callq	memset
	movl	$1, %ebp
.Laes_v1_BB74_4:                               # %"aes_c::kept::fotsgure_aes_set_key.exit"
	movl	%ebp, %eax
	movaps	32(%rsp), %xmm6                 # 16-byte Reload
	movaps	48(%rsp), %xmm7                 # 16-byte Reload
	movaps	64(%rsp), %xmm8                 # 16-byte Reload
	movaps	80(%rsp), %xmm9                 # 16-byte Reload
	movaps	96(%rsp), %xmm10                # 16-byte Reload
	movaps	112(%rsp), %xmm11               # 16-byte Reload
	movaps	128(%rsp), %xmm12               # 16-byte Reload
	movaps	144(%rsp), %xmm13               # 16-byte Reload
	movaps	160(%rsp), %xmm14               # 16-byte Reload
	movaps	176(%rsp), %xmm15               # 16-byte Reload
	pxor	%xmm0, %xmm0
	pxor	%xmm1, %xmm1
	pxor	%xmm2, %xmm2
	pxor	%xmm3, %xmm3
	pxor	%xmm4, %xmm4
	pxor	%xmm5, %xmm5
	xorl	%ecx, %ecx
	xorl	%edx, %edx
	xorl	%r8d, %r8d
	xorl	%r9d, %r9d
	xorl	%r10d, %r10d
	xorl	%r11d, %r11d
	addq	$192, %rsp
	popq	%rbx
	popq	%rbp
	popq	%rdi
	popq	%rsi
	popq	%r14
	retq
	.seh_endproc
                                        # -- End function
	export_aes_v1	fotsgure_aes_decrypt_blocks_with
	.p2align	4
aes_v1.fotsgure_aes_decrypt_blocks_with:       # @aes_v1.fotsgure_aes_decrypt_blocks_with
.seh_proc aes_v1.fotsgure_aes_decrypt_blocks_with
# %bb.0:                                # %start
	pushq	%r15
	.seh_pushreg %r15
	pushq	%r14
	.seh_pushreg %r14
	pushq	%r13
	.seh_pushreg %r13
	pushq	%r12
	.seh_pushreg %r12
	pushq	%rsi
	.seh_pushreg %rsi
	pushq	%rdi
	.seh_pushreg %rdi
	pushq	%rbp
	.seh_pushreg %rbp
	pushq	%rbx
	.seh_pushreg %rbx
	subq	$696, %rsp                      # imm = 0x2B8
	.seh_stackalloc 696
	movaps	%xmm15, 672(%rsp)               # 16-byte Spill
	.seh_savexmm %xmm15, 672
	movaps	%xmm14, 656(%rsp)               # 16-byte Spill
	.seh_savexmm %xmm14, 656
	movaps	%xmm13, 640(%rsp)               # 16-byte Spill
	.seh_savexmm %xmm13, 640
	movaps	%xmm12, 624(%rsp)               # 16-byte Spill
	.seh_savexmm %xmm12, 624
	movaps	%xmm11, 608(%rsp)               # 16-byte Spill
	.seh_savexmm %xmm11, 608
	movaps	%xmm10, 592(%rsp)               # 16-byte Spill
	.seh_savexmm %xmm10, 592
	movaps	%xmm9, 576(%rsp)                # 16-byte Spill
	.seh_savexmm %xmm9, 576
	movaps	%xmm8, 560(%rsp)                # 16-byte Spill
	.seh_savexmm %xmm8, 560
	movaps	%xmm7, 544(%rsp)                # 16-byte Spill
	.seh_savexmm %xmm7, 544
	movaps	%xmm6, 528(%rsp)                # 16-byte Spill
	.seh_savexmm %xmm6, 528
	.seh_endprologue
	xorl	%r13d, %r13d
	testq	%r8, %r8
	sete	%r15b
	movl	$0, 44(%rsp)
	movl	$1, %ebp
	cmpq	$32, %rdx
	ja	.Laes_v1_BB75_6
# %bb.1:                                # %start
	movq	%rdx, %r12
	movabsq	$4311810048, %rax               # imm = 0x101010000
	btq	%rdx, %rax
	jae	.Laes_v1_BB75_6
# %bb.2:                                # %join.3.i
	movq	%r8, %r14
	movq	%r9, 32(%rsp)                   # 8-byte Spill
	leaq	48(%rsp), %rdi
	xorl	%esi, %esi
	testq	%rcx, %rcx
	sete	%sil
	shll	$12, %esi
	addq	%rcx, %rsi
	leaq	80(%rsp), %rcx
	movl	$448, %r8d                      # imm = 0x1C0
	xorl	%edx, %edx
	callq	memset
	movq	%rdi, %rbx
	movq	%r12, %rdx
	callq	aes_v1.aes_narrow.word_room.expand_words
	callq	aes_v1.aes_cipher.zeroize.stack.wipe_stack.768
	movl	%r12d, 44(%rsp)
	movl	$2, %ebp
	cmpq	$32, %r12
	ja	.Laes_v1_BB75_5
# %bb.3:                                # %join.3.i
	movabsq	$4311810048, %rax               # imm = 0x101010000
	btq	%r12, %rax
	jae	.Laes_v1_BB75_5
# %bb.4:                                # %join.3.i8.i
	movb	%r15b, %r13b
	shll	$12, %r13d
	addq	%r13, %r14
	movl	%r12d, %eax
	leaq	56(,%rax,2), %rsi
	movq	%rbx, %rdi
	movq	%r14, %rdx
	movq	32(%rsp), %rcx                  # 8-byte Reload
	callq	aes_v1.aes_narrow.blocks.process_all_batches.2
	callq	aes_v1.aes_cipher.zeroize.stack.wipe_stack.1024
	xorl	%ebp, %ebp
.Laes_v1_BB75_5:                               # %"aes_c::blocks::fotsgure_aes_decrypt_blocks.exit.i"
	movl	$0, 44(%rsp)
	movq	%rbx, %rdi
	callq	aes_v1.aes_cipher.zeroize.elements.zeroize_elements.1
.Laes_v1_BB75_6:                               # %"aes_c::once::fotsgure_aes_decrypt_blocks_with.exit"
	movl	%ebp, %eax
	movaps	528(%rsp), %xmm6                # 16-byte Reload
	movaps	544(%rsp), %xmm7                # 16-byte Reload
	movaps	560(%rsp), %xmm8                # 16-byte Reload
	movaps	576(%rsp), %xmm9                # 16-byte Reload
	movaps	592(%rsp), %xmm10               # 16-byte Reload
	movaps	608(%rsp), %xmm11               # 16-byte Reload
	movaps	624(%rsp), %xmm12               # 16-byte Reload
	movaps	640(%rsp), %xmm13               # 16-byte Reload
	movaps	656(%rsp), %xmm14               # 16-byte Reload
	movaps	672(%rsp), %xmm15               # 16-byte Reload
	pxor	%xmm0, %xmm0
	pxor	%xmm1, %xmm1
	pxor	%xmm2, %xmm2
	pxor	%xmm3, %xmm3
	pxor	%xmm4, %xmm4
	pxor	%xmm5, %xmm5
	xorl	%ecx, %ecx
	xorl	%edx, %edx
	xorl	%r8d, %r8d
	xorl	%r9d, %r9d
	xorl	%r10d, %r10d
	xorl	%r11d, %r11d
	addq	$696, %rsp                      # imm = 0x2B8
	popq	%rbx
	popq	%rbp
	popq	%rdi
	popq	%rsi
	popq	%r12
	popq	%r13
	popq	%r14
	popq	%r15
	retq
	.seh_endproc
                                        # -- End function
	export_aes_v1	fotsgure_aes_ccm_open
	.p2align	4
aes_v1.fotsgure_aes_ccm_open:                  # @aes_v1.fotsgure_aes_ccm_open
.seh_proc aes_v1.fotsgure_aes_ccm_open
# %bb.0:                                # %start
	pushq	%r15
	.seh_pushreg %r15
	pushq	%r14
	.seh_pushreg %r14
	pushq	%rsi
	.seh_pushreg %rsi
	pushq	%rdi
	.seh_pushreg %rdi
	pushq	%rbx
	.seh_pushreg %rbx
	subq	$224, %rsp
	.seh_stackalloc 224
	movaps	%xmm15, 208(%rsp)               # 16-byte Spill
	.seh_savexmm %xmm15, 208
	movaps	%xmm14, 192(%rsp)               # 16-byte Spill
	.seh_savexmm %xmm14, 192
	movaps	%xmm13, 176(%rsp)               # 16-byte Spill
	.seh_savexmm %xmm13, 176
	movaps	%xmm12, 160(%rsp)               # 16-byte Spill
	.seh_savexmm %xmm12, 160
	movaps	%xmm11, 144(%rsp)               # 16-byte Spill
	.seh_savexmm %xmm11, 144
	movaps	%xmm10, 128(%rsp)               # 16-byte Spill
	.seh_savexmm %xmm10, 128
	movaps	%xmm9, 112(%rsp)                # 16-byte Spill
	.seh_savexmm %xmm9, 112
	movaps	%xmm8, 96(%rsp)                 # 16-byte Spill
	.seh_savexmm %xmm8, 96
	movaps	%xmm7, 80(%rsp)                 # 16-byte Spill
	.seh_savexmm %xmm7, 80
	movaps	%xmm6, 64(%rsp)                 # 16-byte Spill
	.seh_savexmm %xmm6, 64
	.seh_endprologue
	movl	(%rcx), %esi
	movl	$2, %eax
	cmpq	$32, %rsi
	ja	.Laes_v1_BB76_6
# %bb.1:                                # %start
	movq	%r9, %r11
	movabsq	$4311810048, %r9                # imm = 0x101010000
	btq	%rsi, %r9
	jae	.Laes_v1_BB76_6
# %bb.2:                                # %join.3.i
	movq	336(%rsp), %rdi
	movq	328(%rsp), %rax
	movq	320(%rsp), %rbx
	movq	312(%rsp), %r10
	movq	304(%rsp), %r9
	xorl	%r14d, %r14d
	testq	%rax, %rax
	sete	%r14b
	shll	$12, %r14d
	addq	%rax, %r14
	xorl	%r15d, %r15d
	testq	%r10, %r10
	sete	%r15b
	shll	$12, %r15d
	addq	%r10, %r15
	xorl	%r10d, %r10d
	testq	%r11, %r11
	sete	%r10b
	shll	$12, %r10d
	addq	%r11, %r10
	xorl	%eax, %eax
	testq	%rdx, %rdx
	sete	%al
	shll	$12, %eax
	addq	%rdx, %rax
	addq	$4, %rcx
	leaq	56(,%rsi,2), %rdx
	movq	%rcx, 48(%rsp)
	movq	%rdx, 56(%rsp)
	movq	%rdi, 24(%rsp)
	movq	%rbx, 8(%rsp)
	movq	%r14, 16(%rsp)
	movq	%r15, (%rsp)
	leaq	45(%rsp), %rdi
	leaq	48(%rsp), %rsi
	movq	%rax, %rdx
	movq	%r8, %rcx
	movq	%r10, %r8
	callq	aes_v1.ccm.mode.decrypt
	callq	aes_v1.aes_cipher.zeroize.stack.wipe_stack.1024
	cmpb	$0, 45(%rsp)
	je	.Laes_v1_BB76_3
# %bb.4:                                # %arm.5.i
	movl	$6, %eax
	cmpb	$0, 46(%rsp)
	jne	.Laes_v1_BB76_6
# %bb.5:                                # %arm.8.i
	movzbl	47(%rsp), %eax
	addl	$7, %eax
	jmp	.Laes_v1_BB76_6
.Laes_v1_BB76_3:
	xorl	%eax, %eax
.Laes_v1_BB76_6:                               # %"aes_c::messages::fotsgure_aes_ccm_open.exit"
	movaps	64(%rsp), %xmm6                 # 16-byte Reload
	movaps	80(%rsp), %xmm7                 # 16-byte Reload
	movaps	96(%rsp), %xmm8                 # 16-byte Reload
	movaps	112(%rsp), %xmm9                # 16-byte Reload
	movaps	128(%rsp), %xmm10               # 16-byte Reload
	movaps	144(%rsp), %xmm11               # 16-byte Reload
	movaps	160(%rsp), %xmm12               # 16-byte Reload
	movaps	176(%rsp), %xmm13               # 16-byte Reload
	movaps	192(%rsp), %xmm14               # 16-byte Reload
	movaps	208(%rsp), %xmm15               # 16-byte Reload
	pxor	%xmm0, %xmm0
	pxor	%xmm1, %xmm1
	pxor	%xmm2, %xmm2
	pxor	%xmm3, %xmm3
	pxor	%xmm4, %xmm4
	pxor	%xmm5, %xmm5
	xorl	%ecx, %ecx
	xorl	%edx, %edx
	xorl	%r8d, %r8d
	xorl	%r9d, %r9d
	xorl	%r10d, %r10d
	xorl	%r11d, %r11d
	addq	$224, %rsp
	popq	%rbx
	popq	%rdi
	popq	%rsi
	popq	%r14
	popq	%r15
	retq
	.seh_endproc
                                        # -- End function
	export_aes_v1	fotsgure_aes_ccm_seal
	.p2align	4
aes_v1.fotsgure_aes_ccm_seal:                  # @aes_v1.fotsgure_aes_ccm_seal
.seh_proc aes_v1.fotsgure_aes_ccm_seal
# %bb.0:                                # %start
	pushq	%r15
	.seh_pushreg %r15
	pushq	%r14
	.seh_pushreg %r14
	pushq	%rsi
	.seh_pushreg %rsi
	pushq	%rdi
	.seh_pushreg %rdi
	pushq	%rbp
	.seh_pushreg %rbp
	pushq	%rbx
	.seh_pushreg %rbx
	subq	$216, %rsp
	.seh_stackalloc 216
	movaps	%xmm15, 192(%rsp)               # 16-byte Spill
	.seh_savexmm %xmm15, 192
	movaps	%xmm14, 176(%rsp)               # 16-byte Spill
	.seh_savexmm %xmm14, 176
	movaps	%xmm13, 160(%rsp)               # 16-byte Spill
	.seh_savexmm %xmm13, 160
	movaps	%xmm12, 144(%rsp)               # 16-byte Spill
	.seh_savexmm %xmm12, 144
	movaps	%xmm11, 128(%rsp)               # 16-byte Spill
	.seh_savexmm %xmm11, 128
	movaps	%xmm10, 112(%rsp)               # 16-byte Spill
	.seh_savexmm %xmm10, 112
	movaps	%xmm9, 96(%rsp)                 # 16-byte Spill
	.seh_savexmm %xmm9, 96
	movaps	%xmm8, 80(%rsp)                 # 16-byte Spill
	.seh_savexmm %xmm8, 80
	movaps	%xmm7, 64(%rsp)                 # 16-byte Spill
	.seh_savexmm %xmm7, 64
	movaps	%xmm6, 48(%rsp)                 # 16-byte Spill
	.seh_savexmm %xmm6, 48
	.seh_endprologue
	movl	(%rcx), %edi
	movl	$2, %eax
	cmpq	$32, %rdi
	ja	.Laes_v1_BB77_5
# %bb.1:                                # %start
	movabsq	$4311810048, %r10               # imm = 0x101010000
	btq	%rdi, %r10
	jae	.Laes_v1_BB77_5
# %bb.2:                                # %join.3.i
	movq	336(%rsp), %rbx
	movq	328(%rsp), %r10
	movq	320(%rsp), %r14
	movq	312(%rsp), %r11
	movq	304(%rsp), %rax
	xorl	%r15d, %r15d
	testq	%r10, %r10
	sete	%r15b
	shll	$12, %r15d
	addq	%r10, %r15
	xorl	%r10d, %r10d
	testq	%r11, %r11
	sete	%r10b
	shll	$12, %r10d
	addq	%r11, %r10
	xorl	%r11d, %r11d
	testq	%r9, %r9
	sete	%r11b
	shll	$12, %r11d
	addq	%r9, %r11
	xorl	%esi, %esi
	testq	%rdx, %rdx
	sete	%sil
	shll	$12, %esi
	addq	%rdx, %rsi
	addq	$4, %rcx
	leaq	56(,%rdi,2), %rdx
	movq	%rcx, 32(%rsp)
	movq	%rdx, 40(%rsp)
	movq	%rbx, 16(%rsp)
	movq	%r14, (%rsp)
	movq	%r15, 8(%rsp)
	leaq	32(%rsp), %rdi
	movq	%r8, %rdx
	movq	%r11, %rcx
	movq	%rax, %r8
	movq	%r10, %r9
	callq	aes_v1.ccm.mode.encrypt
	movl	%eax, %ebp
	movl	%edx, %ebx
	callq	aes_v1.aes_cipher.zeroize.stack.wipe_stack.1024
	testb	%bpl, %bpl
	je	.Laes_v1_BB77_3
# %bb.4:                                # %arm.5.i
	movzbl	%bl, %eax
	addl	$7, %eax
	jmp	.Laes_v1_BB77_5
.Laes_v1_BB77_3:
	xorl	%eax, %eax
.Laes_v1_BB77_5:                               # %"aes_c::messages::fotsgure_aes_ccm_seal.exit"
	movaps	48(%rsp), %xmm6                 # 16-byte Reload
	movaps	64(%rsp), %xmm7                 # 16-byte Reload
	movaps	80(%rsp), %xmm8                 # 16-byte Reload
	movaps	96(%rsp), %xmm9                 # 16-byte Reload
	movaps	112(%rsp), %xmm10               # 16-byte Reload
	movaps	128(%rsp), %xmm11               # 16-byte Reload
	movaps	144(%rsp), %xmm12               # 16-byte Reload
	movaps	160(%rsp), %xmm13               # 16-byte Reload
	movaps	176(%rsp), %xmm14               # 16-byte Reload
	movaps	192(%rsp), %xmm15               # 16-byte Reload
	pxor	%xmm0, %xmm0
	pxor	%xmm1, %xmm1
	pxor	%xmm2, %xmm2
	pxor	%xmm3, %xmm3
	pxor	%xmm4, %xmm4
	pxor	%xmm5, %xmm5
	xorl	%ecx, %ecx
	xorl	%edx, %edx
	xorl	%r8d, %r8d
	xorl	%r9d, %r9d
	xorl	%r10d, %r10d
	xorl	%r11d, %r11d
	addq	$216, %rsp
	popq	%rbx
	popq	%rbp
	popq	%rdi
	popq	%rsi
	popq	%r14
	popq	%r15
	retq
	.seh_endproc
                                        # -- End function
	.section	.rdata,"dr"
.Laes_v1_static.0:                             # @static.0
	.ascii	"\001\002\004\b\020 @\200\0336"

.Laes_v1_static.2:                             # @static.2
	.zero	16,166


	.section	.rdata,"dr"
	.asciz	"fotsgure_aes 0.4.0, windows_x86_64/aes_v1.s, sources SHA-256 f3fecc818c73814a93835f06896045f67fddc8c102490795e0e19679064b46a4"
