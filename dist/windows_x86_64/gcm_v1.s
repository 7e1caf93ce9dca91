# Made by tools/dist from the proved crate gcm_c; BUILD says from what. Don't edit it.
/* A Rust crate defines in_rust; for x86-64, a static library of both builds defines chosen, and choose_*.c calls these names. */
	.macro	export_gcm_v1 name
	.ifdef	in_rust
	.globl	gcm_v1.\name
	.def	gcm_v1.\name; .scl	2; .type	32; .endef
	.else
	.globl	\name\()_v1
	.set	\name\()_v1, gcm_v1.\name
	.def	\name\()_v1; .scl	2; .type	32; .endef
	.endif
	.endm
	.file	"rattle"
	.def	gcm_v1.aes_cipher.zeroize.elements.zeroize_elements.1;
	.scl	3;
	.type	32;
	.endef
	.text
	.p2align	4                               # -- Begin function aes_cipher::zeroize::elements::zeroize_elements::<#54a2bb646728b9ee>
gcm_v1.aes_cipher.zeroize.elements.zeroize_elements.1: # @gcm_v1.aes_cipher.zeroize.elements.zeroize_elements.1
.seh_proc gcm_v1.aes_cipher.zeroize.elements.zeroize_elements.1
# %bb.0:                                # %start
	pushq	%rbx
	.seh_pushreg %rbx
	subq	$48, %rsp
	.seh_stackalloc 48
	.seh_endprologue
	movq	$0, 40(%rsp)
	#APP
	#NO_APP
	movq	40(%rsp), %rsi
	#APP
	#NO_APP
	cmpq	$120, %rsi
	jae	.Lgcm_v1_BB0_1
# %bb.2:                                # %then.1.i
	movzbl	(%rdi,%rsi,4), %ebx
	movl	$480, %r8d                      # imm = 0x1E0
	movq	%rdi, %rcx
	xorl	%edx, %edx
	callq	memset
	movzbl	(%rdi,%rsi,4), %esi
	andl	%ebx, %esi
	jmp	.Lgcm_v1_BB0_3
.Lgcm_v1_BB0_1:                                # %"aes_cipher::zeroize::observe::<#94bc162b3f62047f>.exit11"
	xorl	%esi, %esi
	movl	$480, %r8d                      # imm = 0x1E0
	movq	%rdi, %rcx
	xorl	%edx, %edx
	callq	memset
.Lgcm_v1_BB0_3:                                # %"aes_cipher::zeroize::observe::<#94bc162b3f62047f>.exit"
	#APP
	#NO_APP
	xchgq	%rsi, 40(%rsp)
	#APP
	#NO_APP
	addq	$48, %rsp
	popq	%rbx
	retq
	.seh_endproc
                                        # -- End function
	.def	gcm_v1.aes_cipher.zeroize.elements.zeroize_elements.2;
	.scl	3;
	.type	32;
	.endef
	.p2align	4                               # -- Begin function aes_cipher::zeroize::elements::zeroize_elements::<#d3d1c9d97fea966e>
gcm_v1.aes_cipher.zeroize.elements.zeroize_elements.2: # @gcm_v1.aes_cipher.zeroize.elements.zeroize_elements.2
.seh_proc gcm_v1.aes_cipher.zeroize.elements.zeroize_elements.2
# %bb.0:                                # %start
	subq	$40, %rsp
	.seh_stackalloc 40
	.seh_endprologue
	xorps	%xmm0, %xmm0
	movaps	%xmm0, 16(%rsp)
	movq	$0, 8(%rsp)
	#APP
	#NO_APP
	movq	8(%rsp), %rax
	#APP
	#NO_APP
	testq	%rax, %rax
	je	.Lgcm_v1_BB1_2
# %bb.1:                                # %"aes_cipher::zeroize::observe::<#32a0ae3c0a3d48e0>.exit8"
	movaps	16(%rsp), %xmm0
	movups	%xmm0, (%rdi)
	xorl	%eax, %eax
	jmp	.Lgcm_v1_BB1_3
.Lgcm_v1_BB1_2:                                # %then.1.i
	movzbl	(%rdi), %eax
	movaps	16(%rsp), %xmm0
	movups	%xmm0, (%rdi)
	andb	(%rdi), %al
	movzbl	%al, %eax
.Lgcm_v1_BB1_3:                                # %"aes_cipher::zeroize::observe::<#32a0ae3c0a3d48e0>.exit"
	#APP
	#NO_APP
	xchgq	%rax, 8(%rsp)
	#APP
	#NO_APP
	addq	$40, %rsp
	retq
	.seh_endproc
                                        # -- End function
	.def	gcm_v1.gcm.message_state.MessageZeroize.zeroize;
	.scl	3;
	.type	32;
	.endef
	.p2align	4                               # -- Begin function gcm::message_state::MessageZeroize::zeroize
gcm_v1.gcm.message_state.MessageZeroize.zeroize: # @gcm_v1.gcm.message_state.MessageZeroize.zeroize
.seh_proc gcm_v1.gcm.message_state.MessageZeroize.zeroize
# %bb.0:                                # %start
	pushq	%rbx
	.seh_pushreg %rbx
	.seh_endprologue
	movq	%rdi, %rbx
	addq	$32, %rdi
	xorps	%xmm0, %xmm0
	movups	%xmm0, 16(%rbx)
	movups	%xmm0, (%rbx)
	callq	gcm_v1.aes_cipher.zeroize.elements.zeroize_elements.3
	leaq	48(%rbx), %rdi
	callq	gcm_v1.aes_cipher.zeroize.elements.zeroize_elements.3
	addq	$64, %rbx
	movq	%rbx, %rdi
	popq	%rbx
	jmp	gcm_v1.aes_cipher.zeroize.elements.zeroize_elements.3 # TAILCALL
	.seh_endproc
                                        # -- End function
	.def	gcm_v1.aes_cipher.zeroize.elements.zeroize_elements.3;
	.scl	3;
	.type	32;
	.endef
	.p2align	4                               # -- Begin function aes_cipher::zeroize::elements::zeroize_elements::<#3b2097f0eef5a37b>
gcm_v1.aes_cipher.zeroize.elements.zeroize_elements.3: # @gcm_v1.aes_cipher.zeroize.elements.zeroize_elements.3
.seh_proc gcm_v1.aes_cipher.zeroize.elements.zeroize_elements.3
# %bb.0:                                # %start
	subq	$40, %rsp
	.seh_stackalloc 40
	.seh_endprologue
	xorps	%xmm0, %xmm0
	movaps	%xmm0, 16(%rsp)
	movq	$0, 8(%rsp)
	#APP
	#NO_APP
	movq	8(%rsp), %rax
	#APP
	#NO_APP
	testq	%rax, %rax
	je	.Lgcm_v1_BB3_2
# %bb.1:                                # %"aes_cipher::zeroize::observe::<#ff6ee9ab78975cb2>.exit8"
	movaps	16(%rsp), %xmm0
	movups	%xmm0, (%rdi)
	xorl	%eax, %eax
	jmp	.Lgcm_v1_BB3_3
.Lgcm_v1_BB3_2:                                # %then.1.i
	movzbl	(%rdi), %eax
	movaps	16(%rsp), %xmm0
	movups	%xmm0, (%rdi)
	andb	(%rdi), %al
	movzbl	%al, %eax
.Lgcm_v1_BB3_3:                                # %"aes_cipher::zeroize::observe::<#ff6ee9ab78975cb2>.exit"
	#APP
	#NO_APP
	xchgq	%rax, 8(%rsp)
	#APP
	#NO_APP
	addq	$40, %rsp
	retq
	.seh_endproc
                                        # -- End function
	.def	gcm_v1.aes_narrow.word_room.expand_words;
	.scl	3;
	.type	32;
	.endef
	.section	.rdata,"dr"
	.p2align	4, 0x0                          # -- Begin function aes_narrow::word_room::expand_words::<#6af90bfc14753d47>
.Lgcm_v1_CPI4_0:
	.zero	16,3
.Lgcm_v1_CPI4_1:
	.zero	16,252
.Lgcm_v1_CPI4_2:
	.zero	16,240
.Lgcm_v1_CPI4_3:
	.long	50529027                        # 0x3030303
	.long	50529027                        # 0x3030303
	.zero	4
	.zero	4
.Lgcm_v1_CPI4_4:
	.long	4244438268                      # 0xfcfcfcfc
	.long	4244438268                      # 0xfcfcfcfc
	.zero	4
	.zero	4
.Lgcm_v1_CPI4_5:
	.long	4042322160                      # 0xf0f0f0f0
	.long	4042322160                      # 0xf0f0f0f0
	.zero	4
	.zero	4
.Lgcm_v1_CPI4_6:
	.long	202310400                       # 0xc0f0300
	.long	202310400                       # 0xc0f0300
	.long	202310400                       # 0xc0f0300
	.long	202310400                       # 0xc0f0300
.Lgcm_v1_CPI4_7:
	.long	855651072                       # 0x33003300
	.long	855651072                       # 0x33003300
	.long	855651072                       # 0x33003300
	.long	855651072                       # 0x33003300
.Lgcm_v1_CPI4_8:
	.long	251662080                       # 0xf000f00
	.long	251662080                       # 0xf000f00
	.long	251662080                       # 0xf000f00
	.long	251662080                       # 0xf000f00
.Lgcm_v1_CPI4_9:
	.long	51317760                        # 0x30f0c00
	.long	51317760                        # 0x30f0c00
	.long	51317760                        # 0x30f0c00
	.long	51317760                        # 0x30f0c00
.Lgcm_v1_CPI4_10:
	.long	4294967295                      # 0xffffffff
	.long	4294967295                      # 0xffffffff
	.long	0                               # 0x0
	.long	0                               # 0x0
.Lgcm_v1_CPI4_11:
	.long	0                               # 0x0
	.long	4294967295                      # 0xffffffff
	.long	4294967295                      # 0xffffffff
	.long	0                               # 0x0
	.text
	.p2align	4
gcm_v1.aes_narrow.word_room.expand_words: # @gcm_v1.aes_narrow.word_room.expand_words
.seh_proc gcm_v1.aes_narrow.word_room.expand_words
# %bb.0:                                # %start
	pushq	%rbp
	.seh_pushreg %rbp
	pushq	%r15
	.seh_pushreg %r15
	pushq	%r14
	.seh_pushreg %r14
	pushq	%r13
	.seh_pushreg %r13
	pushq	%r12
	.seh_pushreg %r12
	pushq	%rbx
	.seh_pushreg %rbx
	subq	$216, %rsp
	.seh_stackalloc 216
	.seh_endprologue
	movq	%rdi, %r12
	cmpq	$24, %rdx
	movq	%rdx, 208(%rsp)                 # 8-byte Spill
	movq	%rdi, 200(%rsp)                 # 8-byte Spill
	leaq	144(%rsp), %rdi
	je	.Lgcm_v1_BB4_4
# %bb.1:                                # %start
	cmpq	$16, %rdx
	jne	.Lgcm_v1_BB4_6
# %bb.2:                                # %then.1.i157
	callq	gcm_v1.aes_planes.soft.word.word32.U32Word.in_every_slot
	movl	144(%rsp), %r10d
	movl	148(%rsp), %r15d
	movl	152(%rsp), %edi
	movl	156(%rsp), %eax
	movl	160(%rsp), %r8d
	movl	164(%rsp), %r9d
	movl	168(%rsp), %edx
	movl	172(%rsp), %esi
	movl	%r10d, (%r12)
	movl	%r15d, 4(%r12)
	movl	%edi, 8(%r12)
	movl	%eax, 12(%r12)
	movl	%r8d, 16(%r12)
	movl	%r9d, 20(%r12)
	movl	%edx, 24(%r12)
	movl	%esi, 28(%r12)
	leaq	48(%r12), %rbx
	xorl	%ebp, %ebp
	.p2align	4
.Lgcm_v1_BB4_3:                                # %join.5.i.i158
                                        # =>This Inner Loop Header: Depth=1
	movq	%rbp, 40(%rsp)                  # 8-byte Spill
	movq	%rbx, 80(%rsp)                  # 8-byte Spill
	xorl	%edx, %r9d
	movl	%esi, %ecx
	xorl	%r8d, %ecx
	movl	%ecx, %ebp
	movl	%r9d, %r11d
	xorl	%r10d, %r11d
	movl	%r11d, %ecx
	xorl	%r8d, %ecx
	movl	%ecx, 96(%rsp)                  # 4-byte Spill
	andl	%r10d, %ecx
	movl	%esi, %ebx
	xorl	%r15d, %ebx
	movl	%ebx, 48(%rsp)                  # 4-byte Spill
	xorl	%edi, %r8d
	movl	%r10d, %r14d
	movl	%r10d, 60(%rsp)                 # 4-byte Spill
	movl	%ebx, %r10d
	xorl	%r8d, %r10d
	xorl	%r10d, %eax
	movl	%r10d, %ebx
	movl	%r10d, 16(%rsp)                 # 4-byte Spill
	movl	%edi, %r10d
	movl	%eax, %edi
	xorl	%r10d, %edi
	xorl	%edx, %eax
	xorl	%esi, %r10d
	movl	%r10d, %r12d
	movl	%edi, %r10d
	andl	%ebx, %r10d
	movl	%edi, %edx
	xorl	%r9d, %edx
	xorl	%r12d, %ecx
	xorl	%edx, %ecx
	xorl	%r10d, %ecx
	xorl	%eax, %r10d
	movl	%ebp, 24(%rsp)                  # 4-byte Spill
	xorl	%ebp, %eax
	movl	%eax, %ebx
	andl	%ebp, %ebx
	movl	%eax, %ebp
	movl	%edx, 64(%rsp)                  # 4-byte Spill
	xorl	%edx, %ebp
	movl	%ebp, 32(%rsp)                  # 4-byte Spill
	andl	%r8d, %ebp
	movl	%r12d, 12(%rsp)                 # 4-byte Spill
	andl	%r12d, %edx
	xorl	%ebx, %ebp
	xorl	%ebx, %edx
	xorl	%r11d, %r15d
	movl	%r15d, %ebx
	movl	%edi, %r15d
	xorl	%r14d, %r15d
	movl	%ebx, %r13d
	movl	%ebx, %r14d
	movl	%ebx, 20(%rsp)                  # 4-byte Spill
	xorl	%r12d, %r13d
	movl	%r13d, 28(%rsp)                 # 4-byte Spill
	movl	%r15d, %ebx
	andl	%r13d, %ebx
	xorl	%ebx, %r10d
	xorl	%eax, %r9d
	movl	%r14d, %ebx
	andl	%r11d, %ebx
	movl	%r9d, %r13d
	movl	48(%rsp), %r14d                 # 4-byte Reload
	andl	%r14d, %r13d
	xorl	%ebp, %r10d
	xorl	%r9d, %ebx
	xorl	%r13d, %ebx
	xorl	%r14d, %ebx
	xorl	%ebp, %ebx
	movl	%r11d, %ebp
	xorl	%esi, %ebp
	movl	%ebp, 112(%rsp)                 # 4-byte Spill
	xorl	%esi, %r13d
	movl	%eax, %esi
	movl	60(%rsp), %r14d                 # 4-byte Reload
	xorl	%r14d, %esi
	movl	%esi, 36(%rsp)                  # 4-byte Spill
	andl	%ebp, %esi
	xorl	%r9d, %esi
	xorl	%esi, %r13d
	xorl	%edx, %ecx
	xorl	%edx, %r13d
	movl	%ebx, %r12d
	andl	%r10d, %r12d
	movl	%r12d, %esi
	xorl	%ecx, %esi
	movl	%r13d, %edx
	xorl	%ebx, %edx
	andl	%esi, %edx
	xorl	%ecx, %r10d
	movl	%edx, %ebp
	xorl	%r12d, %edx
	xorl	%r13d, %r12d
	movl	%r12d, %esi
	andl	%r10d, %esi
	xorl	%ecx, %esi
	xorl	%r13d, %ebp
	andl	%r13d, %edx
	xorl	%edx, %r12d
	andl	%esi, %r12d
	xorl	%r10d, %r12d
	xorl	%ebx, %edx
	andl	%ebp, 96(%rsp)                  # 4-byte Folded Spill
	movl	%edx, %r10d
	xorl	%ebp, %r10d
	movl	%esi, %r13d
	xorl	%ebp, %r13d
	andl	%r14d, %ebp
	movl	%r12d, %ebx
	xorl	%r10d, %ebx
	andl	%r13d, %eax
	movl	%ebx, %r14d
	xorl	%r13d, %r14d
	andl	24(%rsp), %r13d                 # 4-byte Folded Reload
	movl	%r12d, %ecx
	xorl	%esi, %ecx
	andl	%ecx, %r9d
	andl	48(%rsp), %ecx                  # 4-byte Folded Reload
	andl	%r12d, %r11d
	andl	20(%rsp), %r12d                 # 4-byte Folded Reload
	andl	%r10d, %r15d
	andl	28(%rsp), %r10d                 # 4-byte Folded Reload
	andl	%r14d, %r8d
	andl	32(%rsp), %r14d                 # 4-byte Folded Reload
	andl	%esi, 112(%rsp)                 # 4-byte Folded Spill
	andl	36(%rsp), %esi                  # 4-byte Folded Reload
	andl	%edx, %edi
	andl	16(%rsp), %edx                  # 4-byte Folded Reload
	xorl	%edi, %r15d
	xorl	%ebp, %edi
	movq	40(%rsp), %rbp                  # 8-byte Reload
	xorl	%r9d, %r11d
	xorl	%edi, %esi
	xorl	%r9d, %esi
	xorl	%r13d, %r8d
	xorl	%r8d, %r10d
	xorl	%esi, %r12d
	xorl	%r8d, %r12d
	xorl	%r11d, %r14d
	xorl	%r11d, %r15d
	movl	64(%rsp), %r8d                  # 4-byte Reload
	andl	%ebx, %r8d
	xorl	%r8d, %edi
	xorl	%ecx, %edi
	xorl	%r14d, %edi
	xorl	%eax, %r14d
	leaq	.Lgcm_v1_static.0(%rip), %rax
	movzbl	(%rbp,%rax), %r9d
	andl	12(%rsp), %ebx                  # 4-byte Folded Reload
	movl	%r9d, %eax
	andl	$4, %eax
	shll	$12, %eax
	leal	(%rax,%rax,2), %r8d
	xorl	96(%rsp), %r8d                  # 4-byte Folded Reload
	movl	%r9d, %eax
	andl	$32, %eax
	shll	$9, %eax
	leal	(%rax,%rax,2), %eax
	xorl	%ebx, %eax
	movl	%r9d, %r11d
	andl	$8, %r11d
	shll	$11, %r11d
	leal	(%r11,%r11,2), %r11d
	xorl	%esi, %r11d
	xorl	%r13d, %eax
	xorl	%r10d, %edx
	movl	112(%rsp), %r13d                # 4-byte Reload
	xorl	%edi, %r13d
	xorl	%r10d, %r8d
	movl	%r9d, %esi
	andl	$2, %esi
	shll	$13, %esi
	leal	(%rsi,%rsi,2), %esi
	xorl	%r12d, %esi
	xorl	%edi, %esi
	movl	%r9d, %edi
	andl	$1, %edi
	shll	$14, %edi
	leal	(%rdi,%rdi,2), %r10d
	xorl	%ecx, %r10d
	xorl	%r12d, %r10d
	movl	%r9d, %ebx
	xorl	%r14d, %eax
	xorl	%r13d, %r8d
	xorl	%r13d, %eax
	movl	%r9d, %ecx
	andl	$64, %ecx
	shll	$8, %ecx
	leal	(%rcx,%rcx,2), %ecx
	shll	$7, %r9d
	andl	$16384, %r9d                    # imm = 0x4000
	leal	(%r9,%r9,2), %edi
	xorl	%r14d, %ecx
	xorl	%r14d, %edi
	xorl	%edx, %r15d
	xorl	%edx, %edi
	andl	$16, %ebx
	shll	$10, %ebx
	leal	(%rbx,%rbx,2), %edx
	movq	80(%rsp), %rbx                  # 8-byte Reload
	xorl	%r15d, %r11d
	xorl	%r15d, %ecx
	xorl	%edx, %r15d
	notl	%esi
	notl	%r10d
	roll	$18, %r8d
	roll	$18, %esi
	roll	$18, %r10d
	movdqu	-48(%rbx), %xmm1
	movdqu	-32(%rbx), %xmm0
	notl	%ecx
	notl	%eax
	roll	$18, %r11d
	movd	%r8d, %xmm2
	movd	%r11d, %xmm3
	punpckldq	%xmm3, %xmm2            # xmm2 = xmm2[0],xmm3[0],xmm2[1],xmm3[1]
	movd	%esi, %xmm3
	movd	%r10d, %xmm4
	punpckldq	%xmm3, %xmm4            # xmm4 = xmm4[0],xmm3[0],xmm4[1],xmm3[1]
	punpcklqdq	%xmm2, %xmm4            # xmm4 = xmm4[0],xmm2[0]
	movdqa	.Lgcm_v1_CPI4_0(%rip), %xmm2           # xmm2 = [50529027,50529027,50529027,50529027]
	pand	%xmm2, %xmm4
	pxor	%xmm1, %xmm4
	movdqa	%xmm4, %xmm5
	pslld	$2, %xmm5
	movdqa	.Lgcm_v1_CPI4_1(%rip), %xmm3           # xmm3 = [4244438268,4244438268,4244438268,4244438268]
	pand	%xmm3, %xmm5
	pxor	%xmm4, %xmm5
	movdqa	%xmm5, %xmm1
	pslld	$4, %xmm1
	movdqa	.Lgcm_v1_CPI4_2(%rip), %xmm4           # xmm4 = [4042322160,4042322160,4042322160,4042322160]
	pand	%xmm4, %xmm1
	pxor	%xmm5, %xmm1
	roll	$18, %edi
	roll	$18, %ecx
	roll	$18, %eax
	roll	$18, %r15d
	movd	%ecx, %xmm5
	movd	%edi, %xmm6
	punpckldq	%xmm6, %xmm5            # xmm5 = xmm5[0],xmm6[0],xmm5[1],xmm6[1]
	movd	%eax, %xmm6
	movd	%r15d, %xmm7
	punpckldq	%xmm6, %xmm7            # xmm7 = xmm7[0],xmm6[0],xmm7[1],xmm6[1]
	punpcklqdq	%xmm5, %xmm7            # xmm7 = xmm7[0],xmm5[0]
	pand	%xmm2, %xmm7
	pxor	%xmm0, %xmm7
	movdqa	%xmm7, %xmm0
	pslld	$2, %xmm0
	pand	%xmm3, %xmm0
	pxor	%xmm7, %xmm0
	movdqa	%xmm0, %xmm2
	pslld	$4, %xmm2
	pand	%xmm4, %xmm2
	pxor	%xmm0, %xmm2
	movdqu	%xmm1, -16(%rbx)
	movdqu	%xmm2, (%rbx)
	incq	%rbp
	movd	%xmm1, %r10d
	pshufd	$85, %xmm1, %xmm0               # xmm0 = xmm1[1,1,1,1]
	movd	%xmm0, %r15d
	pshufd	$238, %xmm1, %xmm0              # xmm0 = xmm1[2,3,2,3]
	movd	%xmm0, %edi
	pshufd	$255, %xmm1, %xmm0              # xmm0 = xmm1[3,3,3,3]
	movd	%xmm0, %eax
	movd	%xmm2, %r8d
	pshufd	$85, %xmm2, %xmm0               # xmm0 = xmm2[1,1,1,1]
	movd	%xmm0, %r9d
	pshufd	$238, %xmm2, %xmm0              # xmm0 = xmm2[2,3,2,3]
	movd	%xmm0, %edx
	pshufd	$255, %xmm2, %xmm0              # xmm0 = xmm2[3,3,3,3]
	movd	%xmm0, %esi
	addq	$32, %rbx
	cmpq	$10, %rbp
	jne	.Lgcm_v1_BB4_3
	jmp	.Lgcm_v1_BB4_9
.Lgcm_v1_BB4_4:                                # %then.4.i154
	movq	%rsi, %r15
	callq	gcm_v1.aes_planes.soft.word.word32.U32Word.in_every_slot
	movaps	144(%rsp), %xmm0
	movaps	%xmm0, 96(%rsp)                 # 16-byte Spill
	movdqa	160(%rsp), %xmm0
	movdqa	%xmm0, 80(%rsp)                 # 16-byte Spill
	addq	$8, %r15
	leaq	144(%rsp), %rdi
	movq	%r15, %rsi
	callq	gcm_v1.aes_planes.soft.word.word32.U32Word.in_every_slot
	movdqa	96(%rsp), %xmm8                 # 16-byte Reload
	movdqa	80(%rsp), %xmm9                 # 16-byte Reload
	movdqa	144(%rsp), %xmm4
	movdqa	160(%rsp), %xmm3
	movdqu	%xmm8, (%r12)
	movdqu	%xmm9, 16(%r12)
	leaq	124(%r12), %rax
	movq	%rax, 112(%rsp)                 # 8-byte Spill
	movq	$0, 48(%rsp)                    # 8-byte Folded Spill
	.p2align	4
.Lgcm_v1_BB4_5:                                # %join.5.i165.i
                                        # =>This Inner Loop Header: Depth=1
	pshufd	$85, %xmm3, %xmm0               # xmm0 = xmm3[1,1,1,1]
	movd	%xmm0, %eax
	movl	%eax, 32(%rsp)                  # 4-byte Spill
	pshufd	$238, %xmm3, %xmm0              # xmm0 = xmm3[2,3,2,3]
	movd	%xmm0, %ecx
	movl	%ecx, %ebp
	movl	%ecx, 24(%rsp)                  # 4-byte Spill
	xorl	%eax, %ebp
	movd	%xmm3, %edi
	movl	%edi, 28(%rsp)                  # 4-byte Spill
	pshufd	$255, %xmm3, %xmm0              # xmm0 = xmm3[3,3,3,3]
	movd	%xmm0, %eax
	movl	%eax, %r10d
	xorl	%edi, %r10d
	movd	%xmm4, %r14d
	movl	%ebp, %r9d
	xorl	%r14d, %r9d
	movl	%r9d, %esi
	xorl	%edi, %esi
	movl	%esi, 36(%rsp)                  # 4-byte Spill
	andl	%r14d, %esi
	pshufd	$85, %xmm4, %xmm0               # xmm0 = xmm4[1,1,1,1]
	movd	%xmm0, %r12d
	movl	%eax, %edx
	movl	%eax, %ebx
	xorl	%r12d, %edx
	movl	%edx, 64(%rsp)                  # 4-byte Spill
	movl	%r12d, 40(%rsp)                 # 4-byte Spill
	pshufd	$238, %xmm4, %xmm0              # xmm0 = xmm4[2,3,2,3]
	movd	%xmm0, %eax
	movl	%eax, 80(%rsp)                  # 4-byte Spill
	xorl	%eax, %edi
	movl	%edx, %r8d
	xorl	%edi, %r8d
	movl	%edi, %r13d
	movl	%edi, 184(%rsp)                 # 4-byte Spill
	pshufd	$255, %xmm4, %xmm0              # xmm0 = xmm4[3,3,3,3]
	movd	%xmm0, %edi
	movl	%edi, 20(%rsp)                  # 4-byte Spill
	movl	%r8d, %r11d
	movl	%r8d, 76(%rsp)                  # 4-byte Spill
	xorl	%edi, %r11d
	movl	%r11d, %r15d
	xorl	%eax, %r15d
	xorl	%ecx, %r11d
	movl	%ebx, %ecx
	xorl	%eax, %ecx
	movl	%ecx, %edx
	movl	%r15d, %eax
	andl	%r8d, %eax
	movl	%r15d, %ecx
	xorl	%ebp, %ecx
	movl	%ecx, %r8d
	movl	%ecx, 196(%rsp)                 # 4-byte Spill
	xorl	%edx, %esi
	xorl	%ecx, %esi
	xorl	%eax, %esi
	xorl	%r11d, %eax
	movl	%r10d, 180(%rsp)                # 4-byte Spill
	xorl	%r10d, %r11d
	movl	%r11d, %ecx
	andl	%r10d, %ecx
	movl	%r11d, %r10d
	xorl	%r8d, %r10d
	movl	%r10d, 192(%rsp)                # 4-byte Spill
	andl	%r13d, %r10d
	movl	%edx, %r13d
	movl	%edx, 136(%rsp)                 # 4-byte Spill
	andl	%edx, %r8d
	xorl	%ecx, %r10d
	xorl	%ecx, %r8d
	movl	%r9d, %edi
	xorl	%r12d, %edi
	movl	%r15d, %ecx
	movl	%r14d, 96(%rsp)                 # 4-byte Spill
	xorl	%r14d, %ecx
	movl	%ecx, 188(%rsp)                 # 4-byte Spill
	movl	%edi, %edx
	xorl	%r13d, %edx
	movl	%edx, 140(%rsp)                 # 4-byte Spill
	andl	%edx, %ecx
	xorl	%ecx, %eax
	xorl	%r11d, %ebp
	movl	%edi, %ecx
	andl	%r9d, %ecx
	movl	%ebp, %r12d
	movl	64(%rsp), %edx                  # 4-byte Reload
	andl	%edx, %r12d
	xorl	%r10d, %eax
	xorl	%ebp, %ecx
	xorl	%r12d, %ecx
	xorl	%edx, %ecx
	xorl	%r10d, %ecx
	movl	%r9d, %edx
	movl	%ebx, 60(%rsp)                  # 4-byte Spill
	xorl	%ebx, %edx
	movl	%edx, 16(%rsp)                  # 4-byte Spill
	movl	%r11d, %r13d
	xorl	%r14d, %r13d
	movl	%r13d, %r10d
	andl	%edx, %r10d
	xorl	%ebp, %r10d
	xorl	%ebx, %r12d
	xorl	%r10d, %r12d
	xorl	%r8d, %esi
	xorl	%r8d, %r12d
	movl	%ecx, %r10d
	andl	%eax, %r10d
	movl	%r10d, %r8d
	xorl	%esi, %r8d
	movl	%r12d, %ebx
	xorl	%ecx, %ebx
	andl	%r8d, %ebx
	xorl	%esi, %eax
	movl	%ebx, %edx
	xorl	%r10d, %ebx
	xorl	%r12d, %r10d
	movl	%r10d, %r8d
	andl	%eax, %r8d
	xorl	%esi, %r8d
	xorl	%r12d, %edx
	andl	%r12d, %ebx
	xorl	%ebx, %r10d
	andl	%r8d, %r10d
	xorl	%eax, %r10d
	xorl	%ecx, %ebx
	movl	%ebx, %r12d
	movl	%edx, %eax
	movl	%edx, 12(%rsp)                  # 4-byte Spill
	xorl	%edx, %r12d
	movl	%r10d, %ecx
	xorl	%r12d, %ecx
	movl	%r8d, %edx
	xorl	%eax, %edx
	andl	%edx, %r11d
	movl	%ecx, %eax
	xorl	%edx, %eax
	andl	180(%rsp), %edx                 # 4-byte Folded Reload
	movl	%r10d, %esi
	xorl	%r8d, %esi
	andl	%esi, %ebp
	andl	64(%rsp), %esi                  # 4-byte Folded Reload
	movl	%esi, 64(%rsp)                  # 4-byte Spill
	andl	%r10d, %r9d
	andl	%edi, %r10d
	movl	184(%rsp), %r14d                # 4-byte Reload
	andl	%eax, %r14d
	andl	192(%rsp), %eax                 # 4-byte Folded Reload
	andl	%r8d, 16(%rsp)                  # 4-byte Folded Spill
	andl	%r13d, %r8d
	movl	12(%rsp), %edi                  # 4-byte Reload
	andl	96(%rsp), %edi                  # 4-byte Folded Reload
	movl	188(%rsp), %r13d                # 4-byte Reload
	andl	%r12d, %r13d
	andl	%ebx, %r15d
	xorl	%r15d, %r13d
	xorl	%edi, %r15d
	xorl	%ebp, %r9d
	xorl	%r15d, %r8d
	xorl	%ebp, %r8d
	xorl	%r9d, %eax
	xorl	%r9d, %r13d
	movl	196(%rsp), %edi                 # 4-byte Reload
	andl	%ecx, %edi
	xorl	%edi, %r15d
	xorl	%esi, %r15d
	xorl	%eax, %r15d
	xorl	%r11d, %eax
	andl	136(%rsp), %ecx                 # 4-byte Folded Reload
	leaq	.Lgcm_v1_static.0(%rip), %rdi
	movq	48(%rsp), %r9                   # 8-byte Reload
	movzbl	(%rdi,%r9,2), %r11d
	movq	%r9, 48(%rsp)                   # 8-byte Spill
	movl	%r11d, %esi
	andl	$32, %esi
	shll	$9, %esi
	leal	(%rsi,%rsi,2), %ebp
	xorl	%ecx, %ebp
	xorl	%r8d, %r10d
	movl	%r11d, %ecx
	andl	$8, %ecx
	shll	$11, %ecx
	leal	(%rcx,%rcx,2), %edi
	xorl	%r8d, %edi
	xorl	%edx, %r14d
	xorl	%edx, %ebp
	movl	%r11d, %ecx
	andl	$64, %ecx
	shll	$8, %ecx
	leal	(%rcx,%rcx,2), %esi
	movl	%r11d, %ecx
	shll	$7, %ecx
	andl	$16384, %ecx                    # imm = 0x4000
	leal	(%rcx,%rcx,2), %ecx
	xorl	%eax, %ebp
	xorl	%eax, %esi
	xorl	%eax, %ecx
	movl	%ecx, 136(%rsp)                 # 4-byte Spill
	andl	140(%rsp), %r12d                # 4-byte Folded Reload
	andl	76(%rsp), %ebx                  # 4-byte Folded Reload
	movl	12(%rsp), %ecx                  # 4-byte Reload
	andl	36(%rsp), %ecx                  # 4-byte Folded Reload
	xorl	%r14d, %r10d
	xorl	%r14d, %r12d
	movl	%r11d, %eax
	andl	$4, %eax
	shll	$12, %eax
	leal	(%rax,%rax,2), %eax
	xorl	%ecx, %eax
	xorl	%r12d, %ebx
	xorl	%r12d, %eax
	movl	16(%rsp), %r14d                 # 4-byte Reload
	xorl	%r15d, %r14d
	movl	%r11d, %ecx
	andl	$2, %ecx
	shll	$13, %ecx
	leal	(%rcx,%rcx,2), %edx
	xorl	%r10d, %edx
	xorl	%r15d, %edx
	movl	%r11d, %ecx
	andl	$1, %r11d
	shll	$14, %r11d
	leal	(%r11,%r11,2), %r8d
	xorl	64(%rsp), %r8d                  # 4-byte Folded Reload
	xorl	%r10d, %r8d
	xorl	%r14d, %ebp
	xorl	%r14d, %eax
	roll	$18, %eax
	movd	%eax, %xmm0
	movl	%r13d, %r14d
	xorl	%ebx, %r14d
	xorl	%r14d, %edi
	roll	$18, %edi
	movd	%edi, %xmm1
	notl	%edx
	roll	$18, %edx
	movd	%edx, %xmm5
	notl	%r8d
	roll	$18, %r8d
	movd	%r8d, %xmm2
	andl	$16, %ecx
	shll	$10, %ecx
	leal	(%rcx,%rcx,2), %eax
	movl	96(%rsp), %ecx                  # 4-byte Reload
	shrl	$4, %ecx
	andl	$252645135, %ecx                # imm = 0xF0F0F0F
	movl	%ecx, 96(%rsp)                  # 4-byte Spill
	movl	40(%rsp), %ecx                  # 4-byte Reload
	shrl	$4, %ecx
	andl	$252645135, %ecx                # imm = 0xF0F0F0F
	movl	%ecx, 40(%rsp)                  # 4-byte Spill
	movl	80(%rsp), %ecx                  # 4-byte Reload
	shrl	$4, %ecx
	andl	$252645135, %ecx                # imm = 0xF0F0F0F
	movl	%ecx, 80(%rsp)                  # 4-byte Spill
	movl	20(%rsp), %r15d                 # 4-byte Reload
	shrl	$4, %r15d
	andl	$252645135, %r15d               # imm = 0xF0F0F0F
	movl	28(%rsp), %r10d                 # 4-byte Reload
	shrl	$4, %r10d
	andl	$252645135, %r10d               # imm = 0xF0F0F0F
	movl	32(%rsp), %edx                  # 4-byte Reload
	shrl	$4, %edx
	andl	$252645135, %edx                # imm = 0xF0F0F0F
	movl	24(%rsp), %edi                  # 4-byte Reload
	shrl	$4, %edi
	andl	$252645135, %edi                # imm = 0xF0F0F0F
	movl	60(%rsp), %r8d                  # 4-byte Reload
	shrl	$4, %r8d
	andl	$252645135, %r8d                # imm = 0xF0F0F0F
	leaq	.Lgcm_v1_static.0(%rip), %rcx
	movzbl	1(%rcx,%r9,2), %ecx
	movq	%rcx, 64(%rsp)                  # 8-byte Spill
	xorl	%r14d, %esi
	punpckldq	%xmm1, %xmm0            # xmm0 = xmm0[0],xmm1[0],xmm0[1],xmm1[1]
	punpckldq	%xmm5, %xmm2            # xmm2 = xmm2[0],xmm5[0],xmm2[1],xmm5[1]
	punpcklqdq	%xmm0, %xmm2            # xmm2 = xmm2[0],xmm0[0]
	movdqa	.Lgcm_v1_CPI4_0(%rip), %xmm0           # xmm0 = [50529027,50529027,50529027,50529027]
	pand	%xmm0, %xmm2
	pxor	%xmm8, %xmm2
	movdqa	%xmm2, %xmm5
	pslld	$2, %xmm5
	movdqa	.Lgcm_v1_CPI4_1(%rip), %xmm1           # xmm1 = [4244438268,4244438268,4244438268,4244438268]
	pand	%xmm1, %xmm5
	pxor	%xmm2, %xmm5
	movdqa	%xmm5, %xmm2
	psrld	$2, %xmm2
	pand	%xmm0, %xmm2
	pxor	%xmm4, %xmm2
	movdqa	%xmm2, %xmm6
	pslld	$2, %xmm6
	pand	%xmm1, %xmm6
	pxor	%xmm2, %xmm6
	movdqa	%xmm6, %xmm4
	pslld	$4, %xmm4
	movdqa	.Lgcm_v1_CPI4_2(%rip), %xmm2           # xmm2 = [4042322160,4042322160,4042322160,4042322160]
	pand	%xmm2, %xmm4
	pxor	%xmm6, %xmm4
	movq	112(%rsp), %rcx                 # 8-byte Reload
	movdqu	%xmm4, -60(%rcx)
	xorl	136(%rsp), %ebx                 # 4-byte Folded Reload
	movd	%xmm4, %r13d
	pshufd	$85, %xmm4, %xmm6               # xmm6 = xmm4[1,1,1,1]
	xorl	%eax, %r14d
	movd	%xmm6, %r11d
	pshufd	$238, %xmm4, %xmm6              # xmm6 = xmm4[2,3,2,3]
	notl	%esi
	roll	$18, %esi
	movd	%esi, %xmm7
	movd	%xmm6, %r12d
	pshufd	$255, %xmm4, %xmm6              # xmm6 = xmm4[3,3,3,3]
	roll	$18, %ebx
	notl	%ebp
	roll	$18, %ebp
	movd	%ebx, %xmm8
	movd	%xmm6, %esi
	roll	$18, %r14d
	punpckldq	%xmm8, %xmm7            # xmm7 = xmm7[0],xmm8[0],xmm7[1],xmm8[1]
	movd	%ebp, %xmm6
	movd	%r14d, %xmm8
	punpckldq	%xmm6, %xmm8            # xmm8 = xmm8[0],xmm6[0],xmm8[1],xmm6[1]
	punpcklqdq	%xmm7, %xmm8            # xmm8 = xmm8[0],xmm7[0]
	pand	%xmm0, %xmm8
	pxor	%xmm9, %xmm8
	movdqa	%xmm8, %xmm6
	pslld	$2, %xmm6
	pand	%xmm1, %xmm6
	pxor	%xmm8, %xmm6
	movdqa	%xmm6, %xmm7
	psrld	$2, %xmm7
	pand	%xmm0, %xmm7
	pxor	%xmm3, %xmm7
	movdqa	%xmm7, %xmm8
	pslld	$2, %xmm8
	pand	%xmm1, %xmm8
	pxor	%xmm7, %xmm8
	movdqa	%xmm8, %xmm3
	pslld	$4, %xmm3
	pand	%xmm2, %xmm3
	pxor	%xmm8, %xmm3
	movq	%rcx, %rbx
	movq	%rcx, 112(%rsp)                 # 8-byte Spill
	movdqu	%xmm3, -44(%rcx)
	pshufd	$85, %xmm3, %xmm7               # xmm7 = xmm3[1,1,1,1]
	movd	%xmm7, %r14d
	pshufd	$238, %xmm3, %xmm8              # xmm8 = xmm3[2,3,2,3]
	movdqa	%xmm6, %xmm7
	pslld	$4, %xmm7
	pand	%xmm2, %xmm7
	pshufd	$85, %xmm7, %xmm9               # xmm9 = xmm7[1,1,1,1]
	movd	%xmm9, %eax
	orl	%edx, %eax
	movd	%xmm8, %ecx
	xorl	%ecx, %r14d
	movl	%eax, -72(%rbx)
	movd	%xmm7, %eax
	orl	%r10d, %eax
	pshufd	$238, %xmm7, %xmm8              # xmm8 = xmm7[2,3,2,3]
	movd	%xmm8, %edx
	orl	%edi, %edx
	pshufd	$255, %xmm7, %xmm8              # xmm8 = xmm7[3,3,3,3]
	movd	%xmm8, %edi
	orl	%r8d, %edi
	movd	%xmm3, %ebp
	pshufd	$255, %xmm3, %xmm8              # xmm8 = xmm3[3,3,3,3]
	movl	%eax, -76(%rbx)
	movd	%xmm8, %eax
	movl	%edx, -68(%rbx)
	movl	%ebp, %edx
	xorl	%eax, %edx
	movl	%edx, 16(%rsp)                  # 4-byte Spill
	movl	%edi, -64(%rbx)
	movdqa	%xmm5, %xmm8
	pslld	$4, %xmm8
	pand	%xmm2, %xmm8
	movd	%xmm8, %edx
	addl	96(%rsp), %edx                  # 4-byte Folded Reload
	pshufd	$85, %xmm8, %xmm9               # xmm9 = xmm8[1,1,1,1]
	movd	%xmm9, %edi
	addl	40(%rsp), %edi                  # 4-byte Folded Reload
	pshufd	$238, %xmm8, %xmm9              # xmm9 = xmm8[2,3,2,3]
	movd	%xmm9, %r8d
	addl	80(%rsp), %r8d                  # 4-byte Folded Reload
	pshufd	$255, %xmm8, %xmm9              # xmm9 = xmm8[3,3,3,3]
	movd	%xmm9, %r9d
	orl	%r15d, %r9d
	movl	%r14d, %r10d
	xorl	%r13d, %r10d
	movl	%edx, -92(%rbx)
	movl	%ebp, %edx
	xorl	%r12d, %edx
	movl	%edx, %r15d
	movl	%edi, -88(%rbx)
	movl	%r10d, %edx
	xorl	%r11d, %edx
	movl	%edx, 40(%rsp)                  # 4-byte Spill
	movl	%eax, 76(%rsp)                  # 4-byte Spill
	xorl	%eax, %r11d
	movl	%r11d, 12(%rsp)                 # 4-byte Spill
	movl	%r8d, -84(%rbx)
	xorl	%r12d, %eax
	movl	%r9d, -80(%rbx)
	xorl	%r10d, %ebp
	movl	%ebp, 32(%rsp)                  # 4-byte Spill
	xorl	%r15d, %r11d
	movl	%r15d, 80(%rsp)                 # 4-byte Spill
	xorl	%r11d, %esi
	movl	%r11d, 28(%rsp)                 # 4-byte Spill
	xorl	%esi, %r12d
	xorl	%ecx, %esi
	movl	%ebp, %edi
	andl	%r13d, %edi
	movl	%r13d, %ebp
	movl	%r12d, %edx
	andl	%r11d, %edx
	movl	%r12d, %ecx
	xorl	%r14d, %ecx
	movl	%ecx, 20(%rsp)                  # 4-byte Spill
	movl	%eax, %r8d
	movl	%eax, 24(%rsp)                  # 4-byte Spill
	xorl	%eax, %edi
	xorl	%ecx, %edi
	xorl	%edx, %edi
	xorl	%esi, %edx
	movl	%esi, %r11d
	movl	16(%rsp), %eax                  # 4-byte Reload
	xorl	%eax, %r11d
	movl	%r11d, %esi
	andl	%eax, %esi
	movl	%r11d, %r9d
	xorl	%ecx, %r9d
	movl	%r9d, 36(%rsp)                  # 4-byte Spill
	andl	%r15d, %r9d
	andl	%r8d, %ecx
	xorl	%esi, %r9d
	xorl	%esi, %ecx
	movl	40(%rsp), %eax                  # 4-byte Reload
	movl	%eax, %ebx
	xorl	%r8d, %ebx
	movl	%ebx, 140(%rsp)                 # 4-byte Spill
	movl	%r12d, %r13d
	movl	%ebp, 60(%rsp)                  # 4-byte Spill
	xorl	%ebp, %r13d
	movl	%r13d, %esi
	andl	%ebx, %esi
	xorl	%esi, %edx
	movl	%eax, %esi
	andl	%r10d, %esi
	xorl	%r11d, %r14d
	movl	%r14d, %r8d
	movl	12(%rsp), %eax                  # 4-byte Reload
	andl	%eax, %r8d
	xorl	%r9d, %edx
	xorl	%r14d, %esi
	xorl	%r8d, %esi
	xorl	%eax, %esi
	xorl	%r9d, %esi
	movl	%r10d, %r9d
	movl	76(%rsp), %eax                  # 4-byte Reload
	xorl	%eax, %r9d
	movl	%r9d, 96(%rsp)                  # 4-byte Spill
	xorl	%eax, %r8d
	movl	%r11d, %eax
	xorl	%ebp, %eax
	movl	%eax, 76(%rsp)                  # 4-byte Spill
	andl	%r9d, %eax
	xorl	%r14d, %eax
	xorl	%eax, %r8d
	xorl	%ecx, %edi
	xorl	%ecx, %r8d
	movl	%esi, %r9d
	andl	%edx, %r9d
	movl	%r9d, %eax
	xorl	%edi, %eax
	movl	%r8d, %ebx
	xorl	%esi, %ebx
	andl	%eax, %ebx
	xorl	%edi, %edx
	movl	%ebx, %ecx
	xorl	%r9d, %ebx
	xorl	%r8d, %r9d
	movl	%r9d, %eax
	andl	%edx, %eax
	xorl	%edi, %eax
	xorl	%r8d, %ecx
	andl	%r8d, %ebx
	xorl	%ebx, %r9d
	andl	%eax, %r9d
	xorl	%edx, %r9d
	xorl	%esi, %ebx
	movl	%ebx, %esi
	xorl	%ecx, %esi
	movl	%r9d, %edx
	xorl	%esi, %edx
	movl	%eax, %r8d
	xorl	%ecx, %r8d
	andl	%r8d, %r11d
	movl	%edx, %ebp
	xorl	%r8d, %ebp
	andl	16(%rsp), %r8d                  # 4-byte Folded Reload
	movl	%r9d, %r15d
	xorl	%eax, %r15d
	andl	%r15d, %r14d
	andl	12(%rsp), %r15d                 # 4-byte Folded Reload
	andl	%r9d, %r10d
	andl	40(%rsp), %r9d                  # 4-byte Folded Reload
	andl	%esi, %r13d
	andl	140(%rsp), %esi                 # 4-byte Folded Reload
	andl	%ebp, 80(%rsp)                  # 4-byte Folded Spill
	andl	36(%rsp), %ebp                  # 4-byte Folded Reload
	andl	%eax, 96(%rsp)                  # 4-byte Folded Spill
	andl	76(%rsp), %eax                  # 4-byte Folded Reload
	movl	60(%rsp), %edi                  # 4-byte Reload
	andl	%ecx, %edi
	andl	%ebx, %r12d
	xorl	%r12d, %r13d
	xorl	%edi, %r12d
	xorl	%r14d, %r10d
	xorl	%r12d, %eax
	xorl	%r14d, %eax
	andl	28(%rsp), %ebx                  # 4-byte Folded Reload
	andl	32(%rsp), %ecx                  # 4-byte Folded Reload
	movq	64(%rsp), %rdi                  # 8-byte Reload
	movl	%edi, %r14d
	andl	$4, %r14d
	shll	$12, %r14d
	leal	(%r14,%r14,2), %r14d
	xorl	%r14d, %ecx
	movl	80(%rsp), %r14d                 # 4-byte Reload
	xorl	%r8d, %r14d
	xorl	%r14d, %esi
	xorl	%eax, %r9d
	xorl	%r14d, %r9d
	xorl	%r10d, %ebp
	xorl	%r10d, %r13d
	movl	20(%rsp), %r10d                 # 4-byte Reload
	andl	%edx, %r10d
	xorl	%r10d, %r12d
	xorl	%r15d, %r12d
	xorl	%ebp, %r12d
	xorl	%r11d, %ebp
	andl	24(%rsp), %edx                  # 4-byte Folded Reload
	movq	%rdi, %r14
	movl	%r14d, %r10d
	andl	$32, %r10d
	shll	$9, %r10d
	leal	(%r10,%r10,2), %r10d
	xorl	%r10d, %edx
	movl	%r14d, %r10d
	andl	$8, %r10d
	shll	$11, %r10d
	leal	(%r10,%r10,2), %r10d
	xorl	%r10d, %eax
	movl	%r14d, %r10d
	xorl	%r8d, %edx
	xorl	%esi, %ebx
	xorl	%esi, %ecx
	movl	%r14d, %esi
	andl	$2, %esi
	shll	$13, %esi
	leal	(%rsi,%rsi,2), %r11d
	movl	96(%rsp), %r8d                  # 4-byte Reload
	xorl	%r12d, %r8d
	xorl	%r9d, %r11d
	xorl	%r12d, %r11d
	movl	%r14d, %esi
	andl	$1, %r14d
	shll	$14, %r14d
	leal	(%r14,%r14,2), %r14d
	xorl	%r15d, %r14d
	xorl	%r8d, %ecx
	roll	$18, %ecx
	xorl	%r9d, %r14d
	movd	%ecx, %xmm9
	xorl	%ebx, %r13d
	xorl	%r13d, %eax
	roll	$18, %eax
	movd	%eax, %xmm11
	notl	%r11d
	roll	$18, %r11d
	movd	%r11d, %xmm12
	notl	%r14d
	roll	$18, %r14d
	movd	%r14d, %xmm10
	xorl	%ebp, %edx
	xorl	%r8d, %edx
	andl	$64, %edi
	shll	$8, %edi
	leal	(%rdi,%rdi,2), %eax
	shll	$7, %esi
	andl	$16384, %esi                    # imm = 0x4000
	leal	(%rsi,%rsi,2), %ecx
	xorl	%ebp, %eax
	xorl	%ecx, %ebp
	xorl	%ebx, %ebp
	andl	$16, %r10d
	shll	$10, %r10d
	leal	(%r10,%r10,2), %ecx
	xorl	%r13d, %eax
	xorl	%ecx, %r13d
	notl	%eax
	roll	$18, %eax
	movd	%eax, %xmm13
	notl	%edx
	roll	$18, %ebp
	roll	$18, %edx
	movd	%ebp, %xmm14
	movd	%edx, %xmm15
	roll	$18, %r13d
	punpckldq	%xmm11, %xmm9           # xmm9 = xmm9[0],xmm11[0],xmm9[1],xmm11[1]
	movd	%r13d, %xmm11
	punpckldq	%xmm12, %xmm10          # xmm10 = xmm10[0],xmm12[0],xmm10[1],xmm12[1]
	punpcklqdq	%xmm9, %xmm10           # xmm10 = xmm10[0],xmm9[0]
	pand	%xmm0, %xmm10
	por	%xmm8, %xmm10
	pxor	%xmm5, %xmm10
	movdqa	%xmm10, %xmm5
	pslld	$2, %xmm5
	pand	%xmm1, %xmm5
	pxor	%xmm10, %xmm5
	punpckldq	%xmm14, %xmm13          # xmm13 = xmm13[0],xmm14[0],xmm13[1],xmm14[1]
	movdqa	%xmm5, %xmm8
	pslld	$4, %xmm8
	pand	%xmm2, %xmm8
	pxor	%xmm5, %xmm8
	punpckldq	%xmm15, %xmm11          # xmm11 = xmm11[0],xmm15[0],xmm11[1],xmm15[1]
	punpcklqdq	%xmm13, %xmm11          # xmm11 = xmm11[0],xmm13[0]
	pand	%xmm0, %xmm11
	por	%xmm7, %xmm11
	pxor	%xmm6, %xmm11
	movdqa	%xmm11, %xmm6
	pslld	$2, %xmm6
	pand	%xmm1, %xmm6
	pxor	%xmm11, %xmm6
	movdqa	%xmm6, %xmm9
	pslld	$4, %xmm9
	pand	%xmm2, %xmm9
	pxor	%xmm6, %xmm9
	psrld	$2, %xmm5
	pand	%xmm0, %xmm5
	pxor	%xmm4, %xmm5
	movdqa	%xmm5, %xmm7
	pslld	$2, %xmm7
	pand	%xmm1, %xmm7
	pxor	%xmm5, %xmm7
	movdqa	%xmm7, %xmm4
	pslld	$4, %xmm4
	pand	%xmm2, %xmm4
	pxor	%xmm7, %xmm4
	psrld	$2, %xmm6
	pand	%xmm0, %xmm6
	pxor	%xmm3, %xmm6
	movdqa	%xmm6, %xmm0
	pslld	$2, %xmm0
	pand	%xmm1, %xmm0
	pxor	%xmm6, %xmm0
	movdqa	%xmm0, %xmm3
	pslld	$4, %xmm3
	pand	%xmm2, %xmm3
	pxor	%xmm0, %xmm3
	movq	112(%rsp), %rcx                 # 8-byte Reload
	movdqu	%xmm8, -28(%rcx)
	movdqu	%xmm9, -12(%rcx)
	movq	48(%rsp), %rax                  # 8-byte Reload
	incq	%rax
	addq	$96, %rcx
	movq	%rcx, 112(%rsp)                 # 8-byte Spill
	movq	%rax, 48(%rsp)                  # 8-byte Spill
	cmpq	$4, %rax
	jne	.Lgcm_v1_BB4_5
	jmp	.Lgcm_v1_BB4_9
.Lgcm_v1_BB4_6:                                # %else.5.i
	movq	%rsi, %r15
	callq	gcm_v1.aes_planes.soft.word.word32.U32Word.in_every_slot
	addq	$16, %r15
	movaps	144(%rsp), %xmm0
	movaps	%xmm0, 96(%rsp)                 # 16-byte Spill
	movaps	160(%rsp), %xmm0
	movaps	%xmm0, 112(%rsp)                # 16-byte Spill
	leaq	144(%rsp), %rdi
	movq	%r15, %rsi
	callq	gcm_v1.aes_planes.soft.word.word32.U32Word.in_every_slot
	movl	144(%rsp), %edi
	movl	148(%rsp), %r13d
	movl	152(%rsp), %esi
	movl	156(%rsp), %r10d
	movl	160(%rsp), %ebp
	movl	164(%rsp), %r8d
	movl	168(%rsp), %ecx
	movl	172(%rsp), %ebx
	movaps	96(%rsp), %xmm0                 # 16-byte Reload
	movups	%xmm0, (%r12)
	movdqa	112(%rsp), %xmm0                # 16-byte Reload
	movdqu	%xmm0, 16(%r12)
	movl	%edi, 32(%r12)
	movl	%r13d, 36(%r12)
	movl	%esi, 40(%r12)
	movl	%r10d, 44(%r12)
	movl	%ebp, 48(%r12)
	movl	%r8d, 52(%r12)
	movl	%ecx, 56(%r12)
	movl	%ebx, 60(%r12)
	leaq	124(%r12), %rax
	movq	%rax, 96(%rsp)                  # 8-byte Spill
	movq	$0, 112(%rsp)                   # 8-byte Folded Spill
	.p2align	4
.Lgcm_v1_BB4_7:                                # %join.5.i351.i
                                        # =>This Inner Loop Header: Depth=1
	movl	%edi, 60(%rsp)                  # 4-byte Spill
	xorl	%ecx, %r8d
	movl	%ebx, %r12d
	xorl	%ebp, %r12d
	movl	%r8d, %r15d
	xorl	%edi, %r15d
	movl	%r15d, %eax
	xorl	%ebp, %eax
	movl	%eax, 48(%rsp)                  # 4-byte Spill
	andl	%edi, %eax
	movl	%ebx, %edx
	xorl	%r13d, %edx
	movl	%edx, 80(%rsp)                  # 4-byte Spill
	xorl	%esi, %ebp
	movl	%ebp, 20(%rsp)                  # 4-byte Spill
	xorl	%ebp, %edx
	xorl	%edx, %r10d
	movl	%edx, 64(%rsp)                  # 4-byte Spill
	movl	%r13d, %r14d
	movl	%r10d, %r11d
	xorl	%esi, %r11d
	xorl	%ecx, %r10d
	xorl	%ebx, %esi
	movl	%r11d, %ecx
	andl	%edx, %ecx
	movl	%r11d, %edx
	xorl	%r8d, %edx
	xorl	%esi, %eax
	xorl	%edx, %eax
	xorl	%ecx, %eax
	xorl	%r10d, %ecx
	movl	%r10d, %r9d
	movl	%r12d, 40(%rsp)                 # 4-byte Spill
	xorl	%r12d, %r9d
	movl	%esi, %r13d
	movl	%esi, 16(%rsp)                  # 4-byte Spill
	movl	%r9d, %esi
	andl	%r12d, %esi
	movl	%r9d, %r12d
	movl	%edx, 28(%rsp)                  # 4-byte Spill
	xorl	%edx, %r12d
	movl	%r12d, 32(%rsp)                 # 4-byte Spill
	andl	%ebp, %r12d
	andl	%r13d, %edx
	xorl	%esi, %r12d
	xorl	%esi, %edx
	movl	%r14d, %ebp
	xorl	%r15d, %ebp
	movl	%r11d, %r10d
	xorl	%edi, %r10d
	movl	%ebx, %r14d
	movl	%ebp, %ebx
	movl	%ebp, 12(%rsp)                  # 4-byte Spill
	xorl	%r13d, %ebx
	movl	%ebx, 24(%rsp)                  # 4-byte Spill
	movl	%r10d, %esi
	andl	%ebx, %esi
	xorl	%esi, %ecx
	xorl	%r9d, %r8d
	movl	%ebp, %edi
	andl	%r15d, %edi
	movl	%r8d, %r13d
	movl	80(%rsp), %esi                  # 4-byte Reload
	andl	%esi, %r13d
	xorl	%r12d, %ecx
	xorl	%r8d, %edi
	xorl	%r13d, %edi
	xorl	%esi, %edi
	xorl	%r12d, %edi
	movl	%r15d, %ebx
	xorl	%r14d, %ebx
	movl	%ebx, 36(%rsp)                  # 4-byte Spill
	xorl	%r14d, %r13d
	movl	%r9d, %r14d
	movl	60(%rsp), %ebp                  # 4-byte Reload
	xorl	%ebp, %r14d
	movl	%r14d, %esi
	andl	%ebx, %esi
	xorl	%r8d, %esi
	xorl	%esi, %r13d
	xorl	%edx, %eax
	xorl	%edx, %r13d
	movl	%edi, %r12d
	andl	%ecx, %r12d
	movl	%r12d, %esi
	xorl	%eax, %esi
	movl	%r13d, %edx
	xorl	%edi, %edx
	andl	%esi, %edx
	xorl	%eax, %ecx
	movl	%edx, %ebx
	xorl	%r12d, %edx
	xorl	%r13d, %r12d
	movl	%r12d, %esi
	andl	%ecx, %esi
	xorl	%eax, %esi
	xorl	%r13d, %ebx
	andl	%r13d, %edx
	xorl	%edx, %r12d
	andl	%esi, %r12d
	xorl	%ecx, %r12d
	xorl	%edi, %edx
	andl	%ebx, 48(%rsp)                  # 4-byte Folded Spill
	movl	%edx, %ecx
	xorl	%ebx, %ecx
	movl	%esi, %eax
	xorl	%ebx, %eax
	andl	%ebp, %ebx
	movl	%r12d, %edi
	xorl	%ecx, %edi
	andl	%eax, %r9d
	movl	%edi, %r13d
	xorl	%eax, %r13d
	andl	40(%rsp), %eax                  # 4-byte Folded Reload
	movl	%eax, 40(%rsp)                  # 4-byte Spill
	movl	%r12d, %eax
	xorl	%esi, %eax
	andl	%eax, %r8d
	andl	80(%rsp), %eax                  # 4-byte Folded Reload
	movl	%eax, 80(%rsp)                  # 4-byte Spill
	andl	%r12d, %r15d
	andl	12(%rsp), %r12d                 # 4-byte Folded Reload
	andl	%ecx, %r10d
	andl	24(%rsp), %ecx                  # 4-byte Folded Reload
	movl	20(%rsp), %ebp                  # 4-byte Reload
	andl	%r13d, %ebp
	andl	32(%rsp), %r13d                 # 4-byte Folded Reload
	movl	36(%rsp), %eax                  # 4-byte Reload
	andl	%esi, %eax
	andl	%r14d, %esi
	andl	%edx, %r11d
	andl	64(%rsp), %edx                  # 4-byte Folded Reload
	xorl	%r11d, %r10d
	xorl	%ebx, %r11d
	xorl	%r8d, %r15d
	xorl	%r11d, %esi
	xorl	%r8d, %esi
	movl	%ebp, %r8d
	xorl	40(%rsp), %r8d                  # 4-byte Folded Reload
	xorl	%r8d, %ecx
	xorl	%esi, %r12d
	xorl	%r8d, %r12d
	xorl	%r15d, %r13d
	xorl	%r15d, %r10d
	movl	28(%rsp), %r8d                  # 4-byte Reload
	andl	%edi, %r8d
	xorl	%r8d, %r11d
	leaq	.Lgcm_v1_static.0(%rip), %r8
	movq	112(%rsp), %rbx                 # 8-byte Reload
	movzbl	(%rbx,%r8), %r14d
	xorl	%ecx, %edx
	xorl	80(%rsp), %r11d                 # 4-byte Folded Reload
	xorl	%r13d, %r11d
	xorl	%r11d, %eax
	xorl	%r9d, %r13d
	andl	16(%rsp), %edi                  # 4-byte Folded Reload
	movl	%r14d, %r8d
	andl	$1, %r8d
	shll	$14, %r8d
	leal	(%r8,%r8,2), %r9d
	movl	%r14d, %r8d
	andl	$4, %r8d
	shll	$12, %r8d
	leal	(%r8,%r8,2), %ebp
	xorl	48(%rsp), %ebp                  # 4-byte Folded Reload
	movl	%r14d, %r8d
	andl	$32, %r8d
	shll	$9, %r8d
	leal	(%r8,%r8,2), %r8d
	xorl	%edi, %r8d
	movl	%r14d, %ebx
	andl	$8, %ebx
	shll	$11, %ebx
	leal	(%rbx,%rbx,2), %ebx
	xorl	%esi, %ebx
	movl	%r14d, %esi
	andl	$2, %esi
	shll	$13, %esi
	leal	(%rsi,%rsi,2), %r15d
	xorl	40(%rsp), %r8d                  # 4-byte Folded Reload
	movl	%r14d, %esi
	andl	$16, %esi
	shll	$10, %esi
	leal	(%rsi,%rsi,2), %edi
	xorl	%ecx, %ebp
	movl	%r14d, %ecx
	andl	$64, %ecx
	shll	$8, %ecx
	leal	(%rcx,%rcx,2), %ecx
	shll	$7, %r14d
	andl	$16384, %r14d                   # imm = 0x4000
	leal	(%r14,%r14,2), %esi
	xorl	%r12d, %r15d
	xorl	%r13d, %r8d
	xorl	%r13d, %ecx
	xorl	%r11d, %r15d
	xorl	80(%rsp), %r9d                  # 4-byte Folded Reload
	xorl	%r12d, %r9d
	xorl	%eax, %ebp
	notl	%r15d
	notl	%r9d
	roll	$18, %ebp
	roll	$18, %r15d
	roll	$18, %r9d
	movq	96(%rsp), %r11                  # 8-byte Reload
	movdqu	-124(%r11), %xmm1
	movdqu	-108(%r11), %xmm4
	xorl	%eax, %r8d
	xorl	%r13d, %esi
	xorl	%edx, %r10d
	xorl	%r10d, %ebx
	xorl	%r10d, %ecx
	xorl	%edx, %esi
	notl	%ecx
	notl	%r8d
	roll	$18, %ebx
	xorl	%edi, %r10d
	movd	%ebp, %xmm0
	movd	%ebx, %xmm2
	punpckldq	%xmm2, %xmm0            # xmm0 = xmm0[0],xmm2[0],xmm0[1],xmm2[1]
	movd	%r15d, %xmm2
	movd	%r9d, %xmm3
	punpckldq	%xmm2, %xmm3            # xmm3 = xmm3[0],xmm2[0],xmm3[1],xmm2[1]
	punpcklqdq	%xmm0, %xmm3            # xmm3 = xmm3[0],xmm0[0]
	movdqa	.Lgcm_v1_CPI4_0(%rip), %xmm0           # xmm0 = [50529027,50529027,50529027,50529027]
	pand	%xmm0, %xmm3
	pxor	%xmm1, %xmm3
	movdqa	%xmm3, %xmm5
	pslld	$2, %xmm5
	movdqa	.Lgcm_v1_CPI4_1(%rip), %xmm1           # xmm1 = [4244438268,4244438268,4244438268,4244438268]
	pand	%xmm1, %xmm5
	pxor	%xmm3, %xmm5
	movdqa	%xmm5, %xmm3
	pslld	$4, %xmm3
	movdqa	.Lgcm_v1_CPI4_2(%rip), %xmm2           # xmm2 = [4042322160,4042322160,4042322160,4042322160]
	pand	%xmm2, %xmm3
	roll	$18, %esi
	roll	$18, %ecx
	roll	$18, %r8d
	roll	$18, %r10d
	pxor	%xmm5, %xmm3
	movd	%ecx, %xmm5
	movd	%esi, %xmm6
	punpckldq	%xmm6, %xmm5            # xmm5 = xmm5[0],xmm6[0],xmm5[1],xmm6[1]
	movd	%r8d, %xmm6
	movd	%r10d, %xmm7
	punpckldq	%xmm6, %xmm7            # xmm7 = xmm7[0],xmm6[0],xmm7[1],xmm6[1]
	punpcklqdq	%xmm5, %xmm7            # xmm7 = xmm7[0],xmm5[0]
	pand	%xmm0, %xmm7
	pxor	%xmm4, %xmm7
	movdqa	%xmm7, %xmm5
	pslld	$2, %xmm5
	pand	%xmm1, %xmm5
	pxor	%xmm7, %xmm5
	movdqa	%xmm5, %xmm4
	pslld	$4, %xmm4
	pand	%xmm2, %xmm4
	pxor	%xmm5, %xmm4
	pshufd	$85, %xmm4, %xmm5               # xmm5 = xmm4[1,1,1,1]
	movd	%xmm5, %r10d
	pshufd	$238, %xmm4, %xmm5              # xmm5 = xmm4[2,3,2,3]
	movd	%xmm5, %edx
	xorl	%edx, %r10d
	movd	%xmm4, %r11d
	pshufd	$255, %xmm4, %xmm5              # xmm5 = xmm4[3,3,3,3]
	movd	%xmm5, %ecx
	movl	%r11d, %ebp
	xorl	%ecx, %ebp
	movd	%xmm3, %r8d
	movl	%r10d, %ebx
	xorl	%r8d, %ebx
	movl	%ebx, %eax
	xorl	%r11d, %eax
	movl	%eax, 48(%rsp)                  # 4-byte Spill
	andl	%r8d, %eax
	pshufd	$85, %xmm3, %xmm5               # xmm5 = xmm3[1,1,1,1]
	movd	%xmm5, %edi
	movl	%ebx, %esi
	xorl	%edi, %esi
	movl	%esi, %r14d
	xorl	%ecx, %edi
	movl	%edi, 40(%rsp)                  # 4-byte Spill
	pshufd	$238, %xmm3, %xmm5              # xmm5 = xmm3[2,3,2,3]
	movd	%xmm5, %esi
	xorl	%esi, %r11d
	xorl	%r11d, %edi
	pshufd	$255, %xmm3, %xmm5              # xmm5 = xmm3[3,3,3,3]
	movd	%xmm5, %r12d
	xorl	%edi, %r12d
	movl	%edi, %r9d
	movl	%edi, 16(%rsp)                  # 4-byte Spill
	movl	%r12d, %r13d
	xorl	%esi, %r13d
	xorl	%edx, %r12d
	xorl	%ecx, %esi
	movl	%esi, %edi
	movl	%r13d, %r15d
	andl	%r9d, %r15d
	movl	%r13d, %edx
	xorl	%r10d, %edx
	movl	%edx, %esi
	xorl	%edi, %eax
	xorl	%edx, %eax
	xorl	%r15d, %eax
	xorl	%r12d, %r15d
	movl	%ebp, 20(%rsp)                  # 4-byte Spill
	xorl	%ebp, %r12d
	movl	%r12d, %edx
	andl	%ebp, %edx
	movl	%r12d, %ebp
	movl	%esi, 64(%rsp)                  # 4-byte Spill
	xorl	%esi, %ebp
	movl	%ebp, 32(%rsp)                  # 4-byte Spill
	andl	%r11d, %ebp
	movl	%edi, 12(%rsp)                  # 4-byte Spill
	andl	%edi, %esi
	xorl	%edx, %ebp
	xorl	%edx, %esi
	movl	%r13d, %r9d
	xorl	%r8d, %r9d
	movl	%r14d, 24(%rsp)                 # 4-byte Spill
	movl	%r14d, %edx
	xorl	%edi, %edx
	movl	%edx, %edi
	movl	%edx, 28(%rsp)                  # 4-byte Spill
	movl	%r9d, %edx
	andl	%edi, %edx
	xorl	%edx, %r15d
	xorl	%r12d, %r10d
	movl	%r14d, %edx
	andl	%ebx, %edx
	movl	%r10d, %edi
	movl	40(%rsp), %r14d                 # 4-byte Reload
	andl	%r14d, %edi
	xorl	%ebp, %r15d
	xorl	%r10d, %edx
	xorl	%edi, %edx
	xorl	%r14d, %edx
	xorl	%ebp, %edx
	movl	%ebx, %ebp
	xorl	%ecx, %ebp
	movl	%ebp, 80(%rsp)                  # 4-byte Spill
	xorl	%ecx, %edi
	movl	%r12d, %ecx
	xorl	%r8d, %ecx
	movl	%ecx, 36(%rsp)                  # 4-byte Spill
	andl	%ebp, %ecx
	xorl	%r10d, %ecx
	xorl	%ecx, %edi
	xorl	%esi, %eax
	xorl	%esi, %edi
	movl	%edx, %ebp
	andl	%r15d, %ebp
	movl	%ebp, %ecx
	xorl	%eax, %ecx
	movl	%edi, %r14d
	xorl	%edx, %r14d
	andl	%ecx, %r14d
	xorl	%eax, %r15d
	movl	%r14d, %esi
	xorl	%ebp, %r14d
	xorl	%edi, %ebp
	movl	%ebp, %ecx
	andl	%r15d, %ecx
	xorl	%eax, %ecx
	xorl	%edi, %esi
	andl	%edi, %r14d
	xorl	%r14d, %ebp
	andl	%ecx, %ebp
	xorl	%r15d, %ebp
	xorl	%edx, %r14d
	andl	%esi, 48(%rsp)                  # 4-byte Folded Spill
	movl	%r14d, %edx
	xorl	%esi, %edx
	movl	%ecx, %edi
	xorl	%esi, %edi
	andl	%r8d, %esi
	movl	%ebp, %r8d
	xorl	%edx, %r8d
	andl	%edi, %r12d
	movl	%r8d, %r15d
	xorl	%edi, %r15d
	andl	20(%rsp), %edi                  # 4-byte Folded Reload
	movl	%ebp, %eax
	xorl	%ecx, %eax
	andl	%eax, %r10d
	andl	40(%rsp), %eax                  # 4-byte Folded Reload
	andl	%ebp, %ebx
	andl	24(%rsp), %ebp                  # 4-byte Folded Reload
	andl	%edx, %r9d
	andl	28(%rsp), %edx                  # 4-byte Folded Reload
	andl	%r15d, %r11d
	andl	32(%rsp), %r15d                 # 4-byte Folded Reload
	andl	%ecx, 80(%rsp)                  # 4-byte Folded Spill
	andl	36(%rsp), %ecx                  # 4-byte Folded Reload
	andl	%r14d, %r13d
	andl	16(%rsp), %r14d                 # 4-byte Folded Reload
	xorl	%r13d, %r9d
	xorl	%esi, %r13d
	xorl	%r10d, %ebx
	xorl	%r13d, %ecx
	xorl	%r10d, %ecx
	xorl	%edi, %r11d
	xorl	%r11d, %edx
	xorl	%ecx, %ebp
	xorl	%r11d, %ebp
	movl	64(%rsp), %esi                  # 4-byte Reload
	andl	%r8d, %esi
	xorl	%esi, %r13d
	andl	12(%rsp), %r8d                  # 4-byte Folded Reload
	movq	96(%rsp), %r11                  # 8-byte Reload
	movdqu	%xmm3, -60(%r11)
	movdqu	%xmm4, -44(%r11)
	xorl	%eax, %r13d
	xorl	%ebp, %eax
	notl	%eax
	xorl	%edi, %r8d
	shrl	$6, %eax
	andl	$50529027, %eax                 # imm = 0x3030303
	xorl	-92(%r11), %eax
	leal	(,%rax,4), %esi
	andl	$-50529028, %esi                # imm = 0xFCFCFCFC
	xorl	%eax, %esi
	movl	%esi, %edi
	shll	$4, %edi
	andl	$-252645136, %edi               # imm = 0xF0F0F0F0
	xorl	%esi, %edi
	xorl	%ebx, %r15d
	xorl	%ebx, %r9d
	xorl	%r15d, %r13d
	xorl	%r12d, %r15d
	xorl	%edx, %r14d
	xorl	48(%rsp), %edx                  # 4-byte Folded Reload
	movl	80(%rsp), %ebx                  # 4-byte Reload
	xorl	%r13d, %ebx
	xorl	%ebp, %r13d
	notl	%r13d
	movd	%r13d, %xmm3
	movq	-88(%r11), %xmm5                # xmm5 = mem[0],zero
	xorl	%r14d, %r9d
	xorl	%r15d, %r14d
	xorl	%r9d, %ecx
	xorl	%ebx, %edx
	xorl	%r15d, %r8d
	movd	%edx, %xmm4
	punpckldq	%xmm4, %xmm3            # xmm3 = xmm3[0],xmm4[0],xmm3[1],xmm4[1]
	psrld	$6, %xmm3
	movdqa	.Lgcm_v1_CPI4_3(%rip), %xmm4           # xmm4 = [50529027,50529027,u,u]
	pand	%xmm4, %xmm3
	pxor	%xmm5, %xmm3
	movdqa	%xmm3, %xmm7
	pslld	$2, %xmm7
	movdqa	.Lgcm_v1_CPI4_4(%rip), %xmm5           # xmm5 = [4244438268,4244438268,u,u]
	pand	%xmm5, %xmm7
	pxor	%xmm3, %xmm7
	movdqa	%xmm7, %xmm3
	pslld	$4, %xmm3
	movdqa	.Lgcm_v1_CPI4_5(%rip), %xmm6           # xmm6 = [4042322160,4042322160,u,u]
	pand	%xmm6, %xmm3
	pxor	%xmm7, %xmm3
	shrl	$6, %ecx
	andl	$50529027, %ecx                 # imm = 0x3030303
	xorl	-80(%r11), %ecx
	leal	(,%rcx,4), %eax
	andl	$-50529028, %eax                # imm = 0xFCFCFCFC
	xorl	%ecx, %eax
	movl	%eax, %r10d
	shll	$4, %r10d
	andl	$-252645136, %r10d              # imm = 0xF0F0F0F0
	xorl	%eax, %r10d
	movd	%xmm3, %r13d
	pshufd	$85, %xmm3, %xmm7               # xmm7 = xmm3[1,1,1,1]
	movd	%r14d, %xmm8
	movd	%xmm7, %esi
	movd	%r9d, %xmm7
	punpckldq	%xmm7, %xmm8            # xmm8 = xmm8[0],xmm7[0],xmm8[1],xmm7[1]
	psrld	$6, %xmm8
	pand	%xmm4, %xmm8
	movd	-76(%r11), %xmm7                # xmm7 = mem[0],zero,zero,zero
	movd	-64(%r11), %xmm9                # xmm9 = mem[0],zero,zero,zero
	punpckldq	%xmm7, %xmm9            # xmm9 = xmm9[0],xmm7[0],xmm9[1],xmm7[1]
	pxor	%xmm8, %xmm9
	movdqa	%xmm9, %xmm8
	pslld	$2, %xmm8
	pand	%xmm5, %xmm8
	pxor	%xmm9, %xmm8
	movdqa	%xmm8, %xmm7
	pslld	$4, %xmm7
	pand	%xmm6, %xmm7
	pxor	%xmm8, %xmm7
	pshufd	$85, %xmm7, %xmm8               # xmm8 = xmm7[1,1,1,1]
	xorl	%r15d, %r9d
	movd	%xmm8, %ebp
	xorl	%ebx, %r8d
	movd	%xmm7, %ebx
	movl	%edi, -28(%r11)
	movq	%xmm3, -24(%r11)
	movl	%r10d, -16(%r11)
	movd	%xmm8, -12(%r11)
	movq	-72(%r11), %xmm8                # xmm8 = mem[0],zero
	movd	%r8d, %xmm9
	movd	%r9d, %xmm10
	punpckldq	%xmm10, %xmm9           # xmm9 = xmm9[0],xmm10[0],xmm9[1],xmm10[1]
	pcmpeqd	%xmm10, %xmm10
	pxor	%xmm9, %xmm10
	psrld	$6, %xmm10
	pand	%xmm4, %xmm10
	pxor	%xmm8, %xmm10
	movdqa	%xmm10, %xmm4
	pslld	$2, %xmm4
	pand	%xmm5, %xmm4
	pxor	%xmm10, %xmm4
	movdqa	%xmm4, %xmm5
	pslld	$4, %xmm5
	pand	%xmm6, %xmm5
	pxor	%xmm4, %xmm5
	movq	%xmm5, -8(%r11)
	movd	%xmm7, (%r11)
	movq	112(%rsp), %rdx                 # 8-byte Reload
	incq	%rdx
	movd	%xmm5, %r8d
	pshufd	$85, %xmm5, %xmm4               # xmm4 = xmm5[1,1,1,1]
	movd	%xmm4, %ecx
	addq	$64, %r11
	movq	%r11, 96(%rsp)                  # 8-byte Spill
	movq	%rdx, 112(%rsp)                 # 8-byte Spill
	cmpq	$6, %rdx
	jne	.Lgcm_v1_BB4_7
# %bb.8:                                # %after.1.i.i
	xorl	%ecx, %r8d
	movl	%ebx, %r12d
	xorl	%ebp, %r12d
	pxor	%xmm3, %xmm7
	movd	%xmm7, %r9d
	movl	%r9d, 80(%rsp)                  # 4-byte Spill
	pshufd	$85, %xmm7, %xmm3               # xmm3 = xmm7[1,1,1,1]
	movd	%xmm3, %edx
	xorl	%edx, %r9d
	movl	%r9d, 112(%rsp)                 # 4-byte Spill
	movl	%edx, 96(%rsp)                  # 4-byte Spill
	xorl	%r9d, %r10d
	movl	%r10d, %r15d
	xorl	%esi, %r15d
	xorl	%ecx, %r10d
	xorl	%ebx, %esi
	movl	%r10d, %ecx
	movl	%r12d, %r9d
	movl	%r12d, 32(%rsp)                 # 4-byte Spill
	xorl	%r12d, %ecx
	movl	%ecx, %eax
	movl	%ecx, %r12d
	andl	%r9d, %eax
	movl	%r15d, %r9d
	xorl	%r8d, %r9d
	movl	%ecx, %r11d
	xorl	%r9d, %r11d
	movl	%r11d, 40(%rsp)                 # 4-byte Spill
	movl	%esi, %ecx
	movl	%r11d, %esi
	andl	%edx, %esi
	movl	%r9d, %edx
	movl	%r9d, 64(%rsp)                  # 4-byte Spill
	andl	%ecx, %edx
	movl	%ecx, %r14d
	xorl	%eax, %esi
	xorl	%eax, %edx
	movl	%r8d, %r11d
	xorl	%edi, %r11d
	xorl	%r11d, %ebp
	movl	%ebp, %eax
	andl	%edi, %eax
	movl	%ecx, 16(%rsp)                  # 4-byte Spill
	xorl	%r9d, %ecx
	xorl	%eax, %ecx
	movl	%r15d, %eax
	andl	112(%rsp), %eax                 # 4-byte Folded Reload
	xorl	%eax, %ecx
	xorl	%r10d, %eax
	xorl	%r11d, %r13d
	movl	%r13d, 12(%rsp)                 # 4-byte Spill
	movl	%r15d, %r9d
	xorl	%edi, %r9d
	movl	%r13d, %r10d
	xorl	%r14d, %r10d
	movl	%r10d, 28(%rsp)                 # 4-byte Spill
	movl	%edi, %r14d
	movl	%r9d, %edi
	andl	%r10d, %edi
	xorl	%edi, %eax
	movl	%r12d, %edi
	movl	%r12d, 48(%rsp)                 # 4-byte Spill
	xorl	%r12d, %r8d
	movl	%r13d, %r12d
	andl	%r11d, %r12d
	movl	%r8d, %r13d
	movl	80(%rsp), %r10d                 # 4-byte Reload
	andl	%r10d, %r13d
	xorl	%esi, %eax
	xorl	%r8d, %r12d
	xorl	%r13d, %r12d
	xorl	%r10d, %r12d
	xorl	%esi, %r12d
	movl	%r11d, %r10d
	xorl	%ebx, %r10d
	movl	%r10d, 20(%rsp)                 # 4-byte Spill
	xorl	%ebx, %r13d
	movl	%edi, %esi
	xorl	%r14d, %esi
	movl	%esi, 24(%rsp)                  # 4-byte Spill
	andl	%r10d, %esi
	xorl	%r8d, %esi
	xorl	%esi, %r13d
	xorl	%edx, %ecx
	xorl	%edx, %r13d
	movl	%r12d, %r10d
	andl	%eax, %r10d
	movl	%r10d, %esi
	xorl	%ecx, %esi
	movl	%r13d, %edx
	xorl	%r12d, %edx
	andl	%esi, %edx
	xorl	%ecx, %eax
	movl	%edx, %esi
	xorl	%r10d, %edx
	xorl	%r13d, %r10d
	movl	%r10d, %edi
	andl	%eax, %edi
	xorl	%ecx, %edi
	xorl	%r13d, %esi
	andl	%r13d, %edx
	xorl	%edx, %r10d
	andl	%edi, %r10d
	xorl	%eax, %r10d
	xorl	%r12d, %edx
	andl	%esi, %ebp
	movl	%edx, %r12d
	xorl	%esi, %r12d
	movl	%edi, %ebx
	xorl	%esi, %ebx
	andl	%r14d, %esi
	movl	%r10d, %ecx
	xorl	%r12d, %ecx
	andl	%ebx, 48(%rsp)                  # 4-byte Folded Spill
	movl	%ecx, %eax
	xorl	%ebx, %eax
	andl	32(%rsp), %ebx                  # 4-byte Folded Reload
	movl	%r10d, %r13d
	xorl	%edi, %r13d
	andl	%r13d, %r8d
	andl	80(%rsp), %r13d                 # 4-byte Folded Reload
	andl	%r10d, %r11d
	andl	12(%rsp), %r10d                 # 4-byte Folded Reload
	andl	%r12d, %r9d
	andl	28(%rsp), %r12d                 # 4-byte Folded Reload
	andl	%eax, 96(%rsp)                  # 4-byte Folded Spill
	andl	40(%rsp), %eax                  # 4-byte Folded Reload
	movl	20(%rsp), %r14d                 # 4-byte Reload
	andl	%edi, %r14d
	andl	24(%rsp), %edi                  # 4-byte Folded Reload
	andl	%edx, %r15d
	andl	112(%rsp), %edx                 # 4-byte Folded Reload
	xorl	%r15d, %r9d
	xorl	%esi, %r15d
	xorl	%r8d, %r11d
	xorl	%r11d, %eax
	xorl	%r11d, %r9d
	movl	64(%rsp), %esi                  # 4-byte Reload
	andl	%ecx, %esi
	xorl	%r15d, %edi
	xorl	%esi, %r15d
	xorl	%r13d, %r15d
	xorl	%eax, %r15d
	xorl	48(%rsp), %eax                  # 4-byte Folded Reload
	andl	16(%rsp), %ecx                  # 4-byte Folded Reload
	movl	96(%rsp), %esi                  # 4-byte Reload
	xorl	%ebx, %esi
	xorl	%ebx, %ecx
	xorl	%r8d, %edi
	xorl	%esi, %r12d
	xorl	%edi, %r10d
	xorl	%esi, %r10d
	xorl	%r12d, %edx
	xorl	%ebp, %r12d
	movl	%r14d, %esi
	xorl	%r15d, %esi
	xorl	%r10d, %r13d
	xorl	%r15d, %r10d
	xorl	%eax, %ecx
	xorl	%esi, %ecx
	xorl	%esi, %r12d
	notl	%ecx
	roll	$18, %ecx
	xorl	%edx, %r9d
	movl	%r9d, %esi
	roll	$18, %esi
	movd	%ecx, %xmm4
	movd	%esi, %xmm3
	xorl	%eax, %edx
	xorl	%r9d, %eax
	xorl	$-1061158720, %eax              # imm = 0xC0C000C0
	roll	$18, %eax
	movd	%eax, %xmm5
	roll	$18, %edx
	movd	%edx, %xmm6
	xorl	%edi, %r9d
	notl	%r10d
	roll	$18, %r10d
	movd	%r10d, %xmm8
	notl	%r13d
	roll	$18, %r13d
	movd	%r13d, %xmm7
	roll	$18, %r12d
	roll	$18, %r9d
	movd	%r12d, %xmm9
	movd	%r9d, %xmm10
	punpckldq	%xmm4, %xmm3            # xmm3 = xmm3[0],xmm4[0],xmm3[1],xmm4[1]
	punpckldq	%xmm6, %xmm5            # xmm5 = xmm5[0],xmm6[0],xmm5[1],xmm6[1]
	punpcklqdq	%xmm5, %xmm3            # xmm3 = xmm3[0],xmm5[0]
	movq	200(%rsp), %rax                 # 8-byte Reload
	movdqu	400(%rax), %xmm4
	pand	%xmm0, %xmm3
	pxor	%xmm4, %xmm3
	movdqa	%xmm3, %xmm4
	pslld	$2, %xmm4
	pand	%xmm1, %xmm4
	pxor	%xmm3, %xmm4
	movdqa	%xmm4, %xmm3
	pslld	$4, %xmm3
	pand	%xmm2, %xmm3
	pxor	%xmm4, %xmm3
	punpckldq	%xmm8, %xmm7            # xmm7 = xmm7[0],xmm8[0],xmm7[1],xmm8[1]
	movdqu	384(%rax), %xmm4
	punpckldq	%xmm10, %xmm9           # xmm9 = xmm9[0],xmm10[0],xmm9[1],xmm10[1]
	punpcklqdq	%xmm9, %xmm7            # xmm7 = xmm7[0],xmm9[0]
	pand	%xmm0, %xmm7
	pxor	%xmm4, %xmm7
	movdqa	%xmm7, %xmm0
	pslld	$2, %xmm0
	pand	%xmm1, %xmm0
	pxor	%xmm7, %xmm0
	movdqa	%xmm0, %xmm1
	pslld	$4, %xmm1
	pand	%xmm2, %xmm1
	pxor	%xmm0, %xmm1
	movdqu	%xmm1, 448(%rax)
	movdqu	%xmm3, 464(%rax)
.Lgcm_v1_BB4_9:                                # %"aes_planes::expansion::expand::<#389ec886eeff95cb>.exit"
	movq	208(%rsp), %rdi                 # 8-byte Reload
	shrq	$2, %rdi
	movq	200(%rsp), %r8                  # 8-byte Reload
	addq	$48, %r8
	movq	$-6, %rax
	subq	%rdi, %rax
	addq	$6, %rdi
	movl	$1, %ecx
	jmp	.Lgcm_v1_BB4_10
.Lgcm_v1_BB4_13:                               # %then.4.i
                                        #   in Loop: Header=BB4_10 Depth=1
	movdqa	%xmm1, %xmm2
	psrld	$4, %xmm2
	pxor	%xmm1, %xmm2
	movdqa	.Lgcm_v1_CPI4_8(%rip), %xmm3           # xmm3 = [251662080,251662080,251662080,251662080]
	pand	%xmm3, %xmm2
	movdqa	%xmm2, %xmm4
	pslld	$4, %xmm4
	por	%xmm2, %xmm4
	pxor	%xmm4, %xmm1
	movdqa	%xmm0, %xmm2
	psrld	$4, %xmm2
	pxor	%xmm0, %xmm2
	pand	%xmm3, %xmm2
	movdqa	%xmm2, %xmm3
	pslld	$4, %xmm3
	por	%xmm2, %xmm3
.Lgcm_v1_BB4_16:                               # %join.8.i
                                        #   in Loop: Header=BB4_10 Depth=1
	pxor	%xmm3, %xmm0
.Lgcm_v1_BB4_17:                               # %join.8.i
                                        #   in Loop: Header=BB4_10 Depth=1
	pxor	.Lgcm_v1_CPI4_10(%rip), %xmm1
	movdqu	%xmm1, -16(%r8)
	pxor	.Lgcm_v1_CPI4_11(%rip), %xmm0
	movdqu	%xmm0, (%r8)
	addq	$32, %r8
	leaq	(%rax,%rcx), %rdx
	incq	%rdx
	incq	%rcx
	cmpq	$1, %rdx
	je	.Lgcm_v1_BB4_18
.Lgcm_v1_BB4_10:                               # %join.5.i
                                        # =>This Inner Loop Header: Depth=1
	movdqu	-16(%r8), %xmm1
	movdqu	(%r8), %xmm0
	cmpq	%rdi, %rcx
	jae	.Lgcm_v1_BB4_17
# %bb.11:                               # %ok.10.i
                                        #   in Loop: Header=BB4_10 Depth=1
	movl	%ecx, %edx
	andl	$3, %edx
	leaq	.Lgcm_v1_JTI4_0(%rip), %rsi
	movslq	(%rsi,%rdx,4), %rdx
	addq	%rsi, %rdx
	jmpq	*%rdx
.Lgcm_v1_BB4_12:                               # %then.1.i
                                        #   in Loop: Header=BB4_10 Depth=1
	movdqa	%xmm1, %xmm3
	psrld	$4, %xmm3
	movdqa	%xmm0, %xmm2
	psrld	$4, %xmm2
	pxor	%xmm1, %xmm3
	movdqa	.Lgcm_v1_CPI4_9(%rip), %xmm4           # xmm4 = [51317760,51317760,51317760,51317760]
	jmp	.Lgcm_v1_BB4_15
.Lgcm_v1_BB4_14:                               # %then.7.i
                                        #   in Loop: Header=BB4_10 Depth=1
	movdqa	%xmm1, %xmm3
	psrld	$4, %xmm3
	movdqa	%xmm0, %xmm2
	psrld	$4, %xmm2
	pxor	%xmm1, %xmm3
	movdqa	.Lgcm_v1_CPI4_6(%rip), %xmm4           # xmm4 = [202310400,202310400,202310400,202310400]
.Lgcm_v1_BB4_15:                               # %join.8.i
                                        #   in Loop: Header=BB4_10 Depth=1
	pand	%xmm4, %xmm3
	movdqa	%xmm3, %xmm5
	pslld	$4, %xmm5
	por	%xmm3, %xmm5
	pxor	%xmm1, %xmm5
	movdqa	%xmm5, %xmm3
	psrld	$2, %xmm3
	pxor	%xmm5, %xmm3
	movdqa	.Lgcm_v1_CPI4_7(%rip), %xmm6           # xmm6 = [855651072,855651072,855651072,855651072]
	pand	%xmm6, %xmm3
	movdqa	%xmm3, %xmm1
	pslld	$2, %xmm1
	por	%xmm3, %xmm1
	pxor	%xmm5, %xmm1
	pxor	%xmm0, %xmm2
	pand	%xmm4, %xmm2
	movdqa	%xmm2, %xmm3
	pslld	$4, %xmm3
	por	%xmm2, %xmm3
	pxor	%xmm0, %xmm3
	movdqa	%xmm3, %xmm2
	psrld	$2, %xmm2
	pxor	%xmm3, %xmm2
	pand	%xmm6, %xmm2
	movdqa	%xmm2, %xmm0
	pslld	$2, %xmm0
	por	%xmm2, %xmm0
	jmp	.Lgcm_v1_BB4_16
.Lgcm_v1_BB4_18:                               # %"aes_soft::soft::key_layout::store::<#dfb00681c6d298fe>.exit"
	addq	$216, %rsp
	popq	%rbx
	popq	%r12
	popq	%r13
	popq	%r14
	popq	%r15
	popq	%rbp
	retq
	.section	.rdata,"dr"
	.p2align	2, 0x0
.Lgcm_v1_JTI4_0:
	.long	.Lgcm_v1_BB4_17-.Lgcm_v1_JTI4_0
	.long	.Lgcm_v1_BB4_12-.Lgcm_v1_JTI4_0
	.long	.Lgcm_v1_BB4_13-.Lgcm_v1_JTI4_0
	.long	.Lgcm_v1_BB4_14-.Lgcm_v1_JTI4_0
	.text
	.seh_endproc
                                        # -- End function
	.def	gcm_v1.aes_planes.soft.word.word32.U32Word.in_every_slot;
	.scl	3;
	.type	32;
	.endef
	.p2align	4                               # -- Begin function aes_planes::soft::word::word32::U32Word::in_every_slot
gcm_v1.aes_planes.soft.word.word32.U32Word.in_every_slot: # @gcm_v1.aes_planes.soft.word.word32.U32Word.in_every_slot
.seh_proc gcm_v1.aes_planes.soft.word.word32.U32Word.in_every_slot
# %bb.0:                                # %start
	pushq	%rbp
	.seh_pushreg %rbp
	pushq	%r14
	.seh_pushreg %r14
	pushq	%rbx
	.seh_pushreg %rbx
	.seh_endprologue
	movl	(%rsi), %edx
	movl	4(%rsi), %r8d
	movl	8(%rsi), %r10d
	movl	12(%rsi), %ecx
	movl	%edx, %eax
	shrl	%eax
	xorl	%edx, %eax
	andl	$1431655765, %eax               # imm = 0x55555555
	leal	(%rax,%rax), %esi
	xorl	%edx, %esi
	xorl	%edx, %eax
	movl	%r8d, %edx
	shrl	%edx
	xorl	%r8d, %edx
	andl	$1431655765, %edx               # imm = 0x55555555
	leal	(%rdx,%rdx), %r9d
	xorl	%r8d, %r9d
	xorl	%r8d, %edx
	movl	%r10d, %r8d
	shrl	%r8d
	xorl	%r10d, %r8d
	andl	$1431655765, %r8d               # imm = 0x55555555
	leal	(%r8,%r8), %ebp
	xorl	%r10d, %ebp
	xorl	%r10d, %r8d
	movl	%ecx, %r10d
	shrl	%r10d
	xorl	%ecx, %r10d
	andl	$1431655765, %r10d              # imm = 0x55555555
	leal	(%r10,%r10), %r14d
	xorl	%ecx, %r14d
	xorl	%ecx, %r10d
	movl	%esi, %ecx
	shrl	$2, %ecx
	xorl	%r9d, %ecx
	andl	$858993459, %ecx                # imm = 0x33333333
	leal	(,%rcx,4), %r11d
	xorl	%esi, %r11d
	xorl	%r9d, %ecx
	movl	%ebp, %esi
	shrl	$2, %esi
	xorl	%r14d, %esi
	andl	$858993459, %esi                # imm = 0x33333333
	leal	(,%rsi,4), %ebx
	xorl	%ebp, %ebx
	xorl	%r14d, %esi
	movl	%eax, %r9d
	shrl	$2, %r9d
	xorl	%edx, %r9d
	andl	$858993459, %r9d                # imm = 0x33333333
	leal	(,%r9,4), %ebp
	xorl	%eax, %ebp
	xorl	%edx, %r9d
	movl	%r8d, %eax
	shrl	$2, %eax
	xorl	%r10d, %eax
	andl	$858993459, %eax                # imm = 0x33333333
	leal	(,%rax,4), %r14d
	xorl	%r8d, %r14d
	xorl	%r10d, %eax
	movl	%r11d, %edx
	shrl	$4, %edx
	xorl	%ebx, %edx
	andl	$252645135, %edx                # imm = 0xF0F0F0F
	movl	%edx, %r8d
	shll	$4, %r8d
	xorl	%r11d, %r8d
	xorl	%ebx, %edx
	movl	%ebp, %r10d
	shrl	$4, %r10d
	xorl	%r14d, %r10d
	andl	$252645135, %r10d               # imm = 0xF0F0F0F
	movl	%r10d, %r11d
	shll	$4, %r11d
	xorl	%ebp, %r11d
	xorl	%r14d, %r10d
	movl	%ecx, %ebx
	shrl	$4, %ebx
	xorl	%esi, %ebx
	andl	$252645135, %ebx                # imm = 0xF0F0F0F
	movl	%ebx, %ebp
	shll	$4, %ebp
	xorl	%ecx, %ebp
	xorl	%esi, %ebx
	movl	%r9d, %ecx
	shrl	$4, %ecx
	xorl	%eax, %ecx
	andl	$252645135, %ecx                # imm = 0xF0F0F0F
	movl	%ecx, %esi
	shll	$4, %esi
	xorl	%r9d, %esi
	xorl	%eax, %ecx
	movl	%r8d, (%rdi)
	movl	%r11d, 4(%rdi)
	movl	%ebp, 8(%rdi)
	movl	%esi, 12(%rdi)
	movl	%edx, 16(%rdi)
	movl	%r10d, 20(%rdi)
	movl	%ebx, 24(%rdi)
	movl	%ecx, 28(%rdi)
	popq	%rbx
	popq	%r14
	popq	%rbp
	retq
	.seh_endproc
                                        # -- End function
	.def	gcm_v1.aes_cipher.zeroize.stack.wipe_stack.768;
	.scl	3;
	.type	32;
	.endef
	.p2align	4                               # -- Begin function aes_cipher::zeroize::stack::wipe_stack::<=768>
gcm_v1.aes_cipher.zeroize.stack.wipe_stack.768: # @gcm_v1.aes_cipher.zeroize.stack.wipe_stack.768
.seh_proc gcm_v1.aes_cipher.zeroize.stack.wipe_stack.768
# %bb.0:                                # %start
	subq	$808, %rsp                      # imm = 0x328
	.seh_stackalloc 808
	.seh_endprologue
	#APP
	xorl	%edi, %edi
	xorl	%esi, %esi
	#NO_APP
	leaq	40(%rsp), %rcx
	movl	$768, %r8d                      # imm = 0x300
	xorl	%edx, %edx
	callq	memset
	movq	$0, 32(%rsp)
	#APP
	#NO_APP
	movq	32(%rsp), %rax
	#APP
	#NO_APP
	cmpq	$768, %rax                      # imm = 0x300
	jae	.Lgcm_v1_BB6_2
# %bb.1:                                # %then.1
	movzbl	40(%rsp,%rax), %eax
	#APP
	#NO_APP
	xchgq	%rax, 32(%rsp)
	#APP
	#NO_APP
.Lgcm_v1_BB6_2:                                # %common.ret
	addq	$808, %rsp                      # imm = 0x328
	retq
	.seh_endproc
                                        # -- End function
	.def	gcm_v1.gcm.mode.BorrowedGcm.put_pre_counter;
	.scl	3;
	.type	32;
	.endef
	.p2align	4                               # -- Begin function gcm::mode::BorrowedGcm::put_pre_counter::<#c01aad2b5fbc92b1>
gcm_v1.gcm.mode.BorrowedGcm.put_pre_counter: # @gcm_v1.gcm.mode.BorrowedGcm.put_pre_counter
.seh_proc gcm_v1.gcm.mode.BorrowedGcm.put_pre_counter
# %bb.0:                                # %start
	pushq	%rbp
	.seh_pushreg %rbp
	pushq	%r15
	.seh_pushreg %r15
	pushq	%r14
	.seh_pushreg %r14
	pushq	%r13
	.seh_pushreg %r13
	pushq	%r12
	.seh_pushreg %r12
	pushq	%rbx
	.seh_pushreg %rbx
	subq	$72, %rsp
	.seh_stackalloc 72
	.seh_endprologue
	movq	%rsi, %rbx
	cmpq	$12, %rdx
	jne	.Lgcm_v1_BB7_2
# %bb.1:                                # %then.1
	movb	$0, 46(%rsp)
	movw	$0, 44(%rsp)
	movl	8(%rbx), %eax
	movl	%eax, 40(%rsp)
	movq	(%rbx), %rax
	movq	%rax, 32(%rsp)
	movq	%rax, 48(%rsp)
	movq	39(%rsp), %rax
	movq	%rax, 55(%rsp)
	movq	48(%rsp), %rax
	movq	55(%rsp), %rdx
	movq	%rdx, 7(%rcx)
	movq	%rax, (%rcx)
	movb	$1, 15(%rcx)
	jmp	.Lgcm_v1_BB7_9
.Lgcm_v1_BB7_2:                                # %else.2
	movq	%rdx, %r14
	movq	%rcx, 64(%rsp)                  # 8-byte Spill
	movq	16(%rdi), %rax
	movq	(%rax), %r15
	movq	8(%rax), %r12
	bswapq	%r15
	bswapq	%r12
	movq	%rdx, %rbp
	xorl	%eax, %eax
	shrq	$4, %rbp
	je	.Lgcm_v1_BB7_3
# %bb.4:                                # %join.5.i.i.preheader
	movq	%rbx, %r13
	xorl	%edx, %edx
	.p2align	4
.Lgcm_v1_BB7_5:                                # %join.5.i.i
                                        # =>This Inner Loop Header: Depth=1
	movq	(%r13), %rsi
	movq	8(%r13), %rdi
	bswapq	%rsi
	xorq	%rdx, %rsi
	bswapq	%rdi
	xorq	%rax, %rdi
	movq	%r12, %rdx
	movq	%r15, %rcx
	callq	gcm_v1.gcm.bitwise.product_bitwise
	addq	$16, %r13
	decq	%rbp
	jne	.Lgcm_v1_BB7_5
# %bb.6:                                # %"gcm::single_blocks::hash_whole::<#165deadc48559e33>.exit.i"
	movq	%r14, %rdi
	andq	$15, %rdi
	je	.Lgcm_v1_BB7_8
.Lgcm_v1_BB7_7:                                # %join.3.i
	movq	%r14, %rcx
	andq	$-16, %rcx
	addq	%rcx, %rbx
	movl	$16, %r8d
	subq	%rdi, %r8
	leaq	(%rsp,%rdi), %rcx
	addq	$32, %rcx
	movq	%rdx, %r13
	xorl	%edx, %edx
	movq	%rax, %rbp
	callq	memset
	leaq	32(%rsp), %rcx
	movq	%rbx, %rdx
	movq	%rdi, %r8
	callq	memcpy
	movq	32(%rsp), %rsi
	movq	40(%rsp), %rdi
	bswapq	%rsi
	bswapq	%rdi
	xorq	%rbp, %rdi
	xorq	%r13, %rsi
	movq	%r12, %rdx
	movq	%r15, %rcx
	callq	gcm_v1.gcm.bitwise.product_bitwise
.Lgcm_v1_BB7_8:                                # %"gcm::single_blocks::hash_singly::<#165deadc48559e33>.exit"
	movq	%r14, %rcx
	shrq	$53, %rcx
	movzbl	%cl, %ecx
	movq	%r14, %rsi
	shlq	$59, %rsi
	movl	%r14d, %edi
	andl	$8160, %edi                     # imm = 0x1FE0
	shlq	$43, %rdi
	orq	%rsi, %rdi
	movl	%r14d, %esi
	andl	$2088960, %esi                  # imm = 0x1FE000
	shlq	$27, %rsi
	orq	%rdi, %rsi
	movl	%r14d, %edi
	andl	$534773760, %edi                # imm = 0x1FE00000
	shlq	$11, %rdi
	orq	%rsi, %rdi
	movq	%r14, %rsi
	shrq	$5, %rsi
	andl	$-16777216, %esi                # imm = 0xFF000000
	orq	%rdi, %rsi
	movq	%r14, %rdi
	shrq	$21, %rdi
	andl	$16711680, %edi                 # imm = 0xFF0000
	orq	%rsi, %rdi
	shrq	$37, %r14
	andl	$65280, %r14d                   # imm = 0xFF00
	orq	%rdi, %r14
	orq	%rcx, %r14
	bswapq	%r14
	xorq	%rax, %r14
	movq	%r14, %rdi
	movq	%rdx, %rsi
	movq	%r12, %rdx
	movq	%r15, %rcx
	callq	gcm_v1.gcm.bitwise.product_bitwise
	movq	%rdx, %xmm0
	movq	%rax, %xmm1
	pxor	%xmm2, %xmm2
	punpcklbw	%xmm2, %xmm1            # xmm1 = xmm1[0],xmm2[0],xmm1[1],xmm2[1],xmm1[2],xmm2[2],xmm1[3],xmm2[3],xmm1[4],xmm2[4],xmm1[5],xmm2[5],xmm1[6],xmm2[6],xmm1[7],xmm2[7]
	pshufd	$78, %xmm1, %xmm1               # xmm1 = xmm1[2,3,0,1]
	pshuflw	$27, %xmm1, %xmm1               # xmm1 = xmm1[3,2,1,0,4,5,6,7]
	pshufhw	$27, %xmm1, %xmm1               # xmm1 = xmm1[0,1,2,3,7,6,5,4]
	punpcklbw	%xmm2, %xmm0            # xmm0 = xmm0[0],xmm2[0],xmm0[1],xmm2[1],xmm0[2],xmm2[2],xmm0[3],xmm2[3],xmm0[4],xmm2[4],xmm0[5],xmm2[5],xmm0[6],xmm2[6],xmm0[7],xmm2[7]
	pshufd	$78, %xmm0, %xmm0               # xmm0 = xmm0[2,3,0,1]
	pshuflw	$27, %xmm0, %xmm0               # xmm0 = xmm0[3,2,1,0,4,5,6,7]
	pshufhw	$27, %xmm0, %xmm0               # xmm0 = xmm0[0,1,2,3,7,6,5,4]
	packuswb	%xmm1, %xmm0
	movq	64(%rsp), %rax                  # 8-byte Reload
	movdqu	%xmm0, (%rax)
.Lgcm_v1_BB7_9:                                # %join.3
	addq	$72, %rsp
	popq	%rbx
	popq	%r12
	popq	%r13
	popq	%r14
	popq	%r15
	popq	%rbp
	retq
.Lgcm_v1_BB7_3:
	xorl	%edx, %edx
	movq	%r14, %rdi
	andq	$15, %rdi
	jne	.Lgcm_v1_BB7_7
	jmp	.Lgcm_v1_BB7_8
	.seh_endproc
                                        # -- End function
	.def	gcm_v1.gcm.bitwise.product_bitwise;
	.scl	3;
	.type	32;
	.endef
	.p2align	4                               # -- Begin function gcm::bitwise::product_bitwise
gcm_v1.gcm.bitwise.product_bitwise:        # @gcm_v1.gcm.bitwise.product_bitwise
# %bb.0:                                # %start
	movq	%rdx, %r8
	movl	$128, %r9d
	xorl	%eax, %eax
	xorl	%edx, %edx
	.p2align	4
.Lgcm_v1_BB8_1:                                # %join.5
                                        # =>This Inner Loop Header: Depth=1
	movq	%rsi, %r10
	sarq	$63, %r10
	movq	%r10, %r11
	andq	%r8, %r11
	xorq	%r11, %rax
	andq	%rcx, %r10
	xorq	%r10, %rdx
	movq	%rcx, %r10
	shldq	$63, %r8, %r10
	movq	%rcx, %r11
	shrq	%r11
	andl	$1, %r8d
	negq	%r8
	movabsq	$-2233785415175766016, %rcx     # imm = 0xE100000000000000
	andq	%r8, %rcx
	shldq	$1, %rdi, %rsi
	xorq	%r11, %rcx
	addq	%rdi, %rdi
	movq	%r10, %r8
	decl	%r9d
	jne	.Lgcm_v1_BB8_1
# %bb.2:                                # %after.1
	retq
                                        # -- End function
	.def	gcm_v1.aes_cipher.zeroize.stack.wipe_stack.512;
	.scl	3;
	.type	32;
	.endef
	.p2align	4                               # -- Begin function aes_cipher::zeroize::stack::wipe_stack::<=512>
gcm_v1.aes_cipher.zeroize.stack.wipe_stack.512: # @gcm_v1.aes_cipher.zeroize.stack.wipe_stack.512
.seh_proc gcm_v1.aes_cipher.zeroize.stack.wipe_stack.512
# %bb.0:                                # %start
	subq	$552, %rsp                      # imm = 0x228
	.seh_stackalloc 552
	.seh_endprologue
	#APP
	xorl	%edi, %edi
	xorl	%esi, %esi
	#NO_APP
	leaq	40(%rsp), %rcx
	movl	$512, %r8d                      # imm = 0x200
	xorl	%edx, %edx
	callq	memset
	movq	$0, 32(%rsp)
	#APP
	#NO_APP
	movq	32(%rsp), %rax
	#APP
	#NO_APP
	cmpq	$512, %rax                      # imm = 0x200
	jae	.Lgcm_v1_BB9_2
# %bb.1:                                # %then.1
	movzbl	40(%rsp,%rax), %eax
	#APP
	#NO_APP
	xchgq	%rax, 32(%rsp)
	#APP
	#NO_APP
.Lgcm_v1_BB9_2:                                # %common.ret
	addq	$552, %rsp                      # imm = 0x228
	retq
	.seh_endproc
                                        # -- End function
	.def	gcm_v1.gcm.mode.BorrowedGcm.put_tag_so_far;
	.scl	3;
	.type	32;
	.endef
	.p2align	4                               # -- Begin function gcm::mode::BorrowedGcm::put_tag_so_far::<#c01aad2b5fbc92b1>
gcm_v1.gcm.mode.BorrowedGcm.put_tag_so_far: # @gcm_v1.gcm.mode.BorrowedGcm.put_tag_so_far
.seh_proc gcm_v1.gcm.mode.BorrowedGcm.put_tag_so_far
# %bb.0:                                # %start
	pushq	%r15
	.seh_pushreg %r15
	pushq	%r14
	.seh_pushreg %r14
	pushq	%rbx
	.seh_pushreg %rbx
	.seh_endprologue
	movq	%rdx, %rbx
	movq	%rsi, %r15
	movq	%rdi, %r14
	movups	32(%rsi), %xmm0
	movups	%xmm0, (%rdx)
	movq	(%rdi), %rdi
	movq	8(%r14), %rsi
	movl	$1, %ecx
	callq	gcm_v1.aes_narrow.blocks.process_all_batches
	callq	gcm_v1.aes_cipher.zeroize.stack.wipe_stack.1024
	movq	16(%r14), %r14
	movq	%r14, %rdi
	movq	%r15, %rsi
	callq	gcm_v1.gcm.mode.BorrowedGcm.hash_so_far
	movq	(%r15), %rcx
	movq	8(%r15), %r8
	movabsq	$2305843009213693951, %rsi      # imm = 0x1FFFFFFFFFFFFFFF
	cmpq	%rsi, %rcx
	cmovbq	%rcx, %rsi
	movabsq	$68719476704, %rdi              # imm = 0xFFFFFFFE0
	cmpq	%rdi, %r8
	cmovbq	%r8, %rdi
	movq	%rsi, %rcx
	shrq	$53, %rcx
	movq	%rsi, %r8
	shlq	$59, %r8
	movl	%esi, %r9d
	andl	$8160, %r9d                     # imm = 0x1FE0
	shlq	$43, %r9
	orq	%r8, %r9
	movl	%esi, %r8d
	andl	$2088960, %r8d                  # imm = 0x1FE000
	shlq	$27, %r8
	orq	%r9, %r8
	movl	%esi, %r9d
	andl	$534773760, %r9d                # imm = 0x1FE00000
	shlq	$11, %r9
	orq	%r8, %r9
	movq	%rsi, %r8
	shrq	$5, %r8
	andl	$-16777216, %r8d                # imm = 0xFF000000
	orq	%r9, %r8
	movq	%rsi, %r9
	shrq	$21, %r9
	andl	$16711680, %r9d                 # imm = 0xFF0000
	orq	%r8, %r9
	shrq	$37, %rsi
	andl	$65280, %esi                    # imm = 0xFF00
	orq	%r9, %rsi
	orq	%rcx, %rsi
	movq	%rdi, %rcx
	shlq	$59, %rcx
	movl	%edi, %r8d
	andl	$8160, %r8d                     # imm = 0x1FE0
	shlq	$43, %r8
	orq	%rcx, %r8
	movl	%edi, %ecx
	andl	$2088960, %ecx                  # imm = 0x1FE000
	shlq	$27, %rcx
	orq	%r8, %rcx
	movl	%edi, %r8d
	andl	$534773760, %r8d                # imm = 0x1FE00000
	shlq	$11, %r8
	orq	%rcx, %r8
	shrq	$5, %rdi
	andl	$2130706432, %edi               # imm = 0x7F000000
	orq	%r8, %rdi
	bswapq	%rsi
	bswapq	%rdi
	xorq	%rax, %rdi
	xorq	%rdx, %rsi
	movq	(%r14), %rcx
	movq	8(%r14), %rdx
	bswapq	%rdx
	bswapq	%rcx
	callq	gcm_v1.gcm.bitwise.product_bitwise
	movq	%rdx, %xmm0
	movq	%rax, %xmm1
	pxor	%xmm2, %xmm2
	punpcklbw	%xmm2, %xmm1            # xmm1 = xmm1[0],xmm2[0],xmm1[1],xmm2[1],xmm1[2],xmm2[2],xmm1[3],xmm2[3],xmm1[4],xmm2[4],xmm1[5],xmm2[5],xmm1[6],xmm2[6],xmm1[7],xmm2[7]
	pshufd	$78, %xmm1, %xmm1               # xmm1 = xmm1[2,3,0,1]
	pshuflw	$27, %xmm1, %xmm1               # xmm1 = xmm1[3,2,1,0,4,5,6,7]
	pshufhw	$27, %xmm1, %xmm1               # xmm1 = xmm1[0,1,2,3,7,6,5,4]
	punpcklbw	%xmm2, %xmm0            # xmm0 = xmm0[0],xmm2[0],xmm0[1],xmm2[1],xmm0[2],xmm2[2],xmm0[3],xmm2[3],xmm0[4],xmm2[4],xmm0[5],xmm2[5],xmm0[6],xmm2[6],xmm0[7],xmm2[7]
	pshufd	$78, %xmm0, %xmm0               # xmm0 = xmm0[2,3,0,1]
	pshuflw	$27, %xmm0, %xmm0               # xmm0 = xmm0[3,2,1,0,4,5,6,7]
	pshufhw	$27, %xmm0, %xmm0               # xmm0 = xmm0[0,1,2,3,7,6,5,4]
	packuswb	%xmm1, %xmm0
	movdqu	(%rbx), %xmm1
	pxor	%xmm0, %xmm1
	movdqu	%xmm1, (%rbx)
	popq	%rbx
	popq	%r14
	popq	%r15
	retq
	.seh_endproc
                                        # -- End function
	.def	gcm_v1.aes_narrow.blocks.process_all_batches;
	.scl	3;
	.type	32;
	.endef
	.p2align	4                               # -- Begin function aes_narrow::blocks::process_all_batches::<#f6c900d3ac1e47b9>
gcm_v1.aes_narrow.blocks.process_all_batches: # @gcm_v1.aes_narrow.blocks.process_all_batches
.seh_proc gcm_v1.aes_narrow.blocks.process_all_batches
# %bb.0:                                # %start
	pushq	%r15
	.seh_pushreg %r15
	pushq	%r14
	.seh_pushreg %r14
	pushq	%r13
	.seh_pushreg %r13
	pushq	%r12
	.seh_pushreg %r12
	pushq	%rbx
	.seh_pushreg %rbx
	.seh_endprologue
	movq	%rcx, %rbx
	movq	%rdx, %r14
	movq	%rsi, %r15
	movq	%rdi, %r12
	xorl	%edx, %edx
	.p2align	4
.Lgcm_v1_BB11_1:                               # %join.5
                                        # =>This Inner Loop Header: Depth=1
	movq	%rbx, %rax
	subq	%rdx, %rax
	cmpq	$2, %rax
	movl	$2, %ecx
	cmovbq	%rax, %rcx
	leaq	(%rcx,%rdx), %r13
	shlq	$4, %rdx
	addq	%r14, %rdx
	movq	%r12, %rdi
	movq	%r15, %rsi
	callq	gcm_v1.aes_soft.soft.blocks.filled_up.process_filled_up
	movq	%r13, %rdx
	cmpq	%rbx, %r13
	jb	.Lgcm_v1_BB11_1
# %bb.2:                                # %after.1
	popq	%rbx
	popq	%r12
	popq	%r13
	popq	%r14
	popq	%r15
	retq
	.seh_endproc
                                        # -- End function
	.def	gcm_v1.aes_soft.soft.blocks.filled_up.process_filled_up;
	.scl	3;
	.type	32;
	.endef
	.p2align	4                               # -- Begin function aes_soft::soft::blocks::filled_up::process_filled_up::<#f6c900d3ac1e47b9>
gcm_v1.aes_soft.soft.blocks.filled_up.process_filled_up: # @gcm_v1.aes_soft.soft.blocks.filled_up.process_filled_up
.seh_proc gcm_v1.aes_soft.soft.blocks.filled_up.process_filled_up
# %bb.0:                                # %start
	pushq	%r14
	.seh_pushreg %r14
	pushq	%rbx
	.seh_pushreg %rbx
	subq	$136, %rsp
	.seh_stackalloc 136
	.seh_endprologue
	movq	%rcx, %r14
	movq	%rdx, %rbx
	movq	%rsi, %rdx
	movq	%rdi, %rsi
	xorps	%xmm0, %xmm0
	movaps	%xmm0, 112(%rsp)
	movaps	%xmm0, 96(%rsp)
	movaps	%xmm0, (%rsp)
	movaps	%xmm0, 16(%rsp)
	movaps	%xmm0, 64(%rsp)
	movaps	%xmm0, 80(%rsp)
	movups	(%rbx), %xmm0
	movaps	%xmm0, 32(%rsp)
	movups	(%rbx), %xmm0
	movaps	%xmm0, 48(%rsp)
	shrq	$3, %rdx
	decq	%rdx
	testq	%rcx, %rcx
	je	.Lgcm_v1_BB12_1
# %bb.2:                                # %join.8.i
	movups	(%rbx), %xmm0
	movaps	%xmm0, 32(%rsp)
	cmpq	$1, %r14
	jne	.Lgcm_v1_BB12_3
.Lgcm_v1_BB12_1:                               # %then.6.i
	movaps	32(%rsp), %xmm0
	movaps	48(%rsp), %xmm1
	movaps	%xmm1, 16(%rsp)
	movaps	%xmm0, (%rsp)
	jmp	.Lgcm_v1_BB12_4
.Lgcm_v1_BB12_3:                               # %join.8.i.1
	movups	16(%rbx), %xmm0
	movaps	%xmm0, 48(%rsp)
	movaps	32(%rsp), %xmm1
	movaps	%xmm1, (%rsp)
	movaps	%xmm0, 16(%rsp)
.Lgcm_v1_BB12_4:                               # %"aes_soft::soft::blocks::filled_up::filled_up::<#ee324ebdabaa1892>.exit"
	leaq	64(%rsp), %rdi
	movq	%rsp, %rcx
	callq	gcm_v1.aes_soft.soft.ciphers.planes.process_outlined
	movaps	64(%rsp), %xmm0
	movaps	80(%rsp), %xmm1
	movaps	%xmm1, 112(%rsp)
	movaps	%xmm0, 96(%rsp)
	testq	%r14, %r14
	je	.Lgcm_v1_BB12_7
# %bb.5:                                # %join.8.i19.preheader
	xorl	%eax, %eax
	cmpq	$1, %r14
	setne	%al
	incq	%rax
	xorl	%ecx, %ecx
	.p2align	4
.Lgcm_v1_BB12_6:                               # %join.8.i19.epil
                                        # =>This Inner Loop Header: Depth=1
	movups	96(%rsp,%rcx), %xmm0
	movups	%xmm0, (%rbx,%rcx)
	addq	$16, %rcx
	decq	%rax
	jne	.Lgcm_v1_BB12_6
.Lgcm_v1_BB12_7:                               # %"aes_soft::soft::blocks::filled_up::copy_first::<#ee324ebdabaa1892>.exit"
	addq	$136, %rsp
	popq	%rbx
	popq	%r14
	retq
	.seh_endproc
                                        # -- End function
	.def	gcm_v1.aes_soft.soft.ciphers.planes.process_outlined;
	.scl	3;
	.type	32;
	.endef
	.section	.rdata,"dr"
	.p2align	4, 0x0                          # -- Begin function aes_soft::soft::ciphers::planes::process_outlined::<#dc651273b304e77a>
.Lgcm_v1_CPI13_0:
	.long	252645135                       # 0xf0f0f0f
	.long	252645135                       # 0xf0f0f0f
	.zero	4
	.zero	4
	.text
	.p2align	4
gcm_v1.aes_soft.soft.ciphers.planes.process_outlined: # @gcm_v1.aes_soft.soft.ciphers.planes.process_outlined
.seh_proc gcm_v1.aes_soft.soft.ciphers.planes.process_outlined
# %bb.0:                                # %start
	pushq	%rbp
	.seh_pushreg %rbp
	pushq	%r15
	.seh_pushreg %r15
	pushq	%r14
	.seh_pushreg %r14
	pushq	%r13
	.seh_pushreg %r13
	pushq	%r12
	.seh_pushreg %r12
	pushq	%rbx
	.seh_pushreg %rbx
	subq	$112, %rsp
	.seh_stackalloc 112
	.seh_endprologue
	movq	%rdi, 104(%rsp)                 # 8-byte Spill
	movl	16(%rcx), %r8d
	movl	(%rcx), %r9d
	movl	4(%rcx), %r10d
	movl	20(%rcx), %r11d
	movl	8(%rcx), %ebx
	movl	24(%rcx), %ebp
	movl	12(%rcx), %r14d
	movl	28(%rcx), %ecx
	movl	%r9d, %edi
	shrl	%edi
	xorl	%r8d, %edi
	andl	$1431655765, %edi               # imm = 0x55555555
	leal	(%rdi,%rdi), %eax
	xorl	%r9d, %eax
	xorl	%r8d, %edi
	movl	%r10d, %r9d
	shrl	%r9d
	xorl	%r11d, %r9d
	andl	$1431655765, %r9d               # imm = 0x55555555
	leal	(%r9,%r9), %r8d
	xorl	%r10d, %r8d
	xorl	%r11d, %r9d
	movl	%ebx, %r11d
	shrl	%r11d
	xorl	%ebp, %r11d
	andl	$1431655765, %r11d              # imm = 0x55555555
	leal	(%r11,%r11), %r10d
	xorl	%ebx, %r10d
	xorl	%ebp, %r11d
	movl	%r14d, %ebx
	shrl	%ebx
	xorl	%ecx, %ebx
	andl	$1431655765, %ebx               # imm = 0x55555555
	leal	(%rbx,%rbx), %ebp
	xorl	%r14d, %ebp
	xorl	%ecx, %ebx
	movl	%eax, %ecx
	shrl	$2, %ecx
	xorl	%r8d, %ecx
	andl	$858993459, %ecx                # imm = 0x33333333
	leal	(,%rcx,4), %r12d
	xorl	%eax, %r12d
	xorl	%r8d, %ecx
	movl	%r10d, %r13d
	shrl	$2, %r13d
	xorl	%ebp, %r13d
	andl	$858993459, %r13d               # imm = 0x33333333
	leal	(,%r13,4), %r8d
	xorl	%r10d, %r8d
	xorl	%ebp, %r13d
	movl	%edi, %r14d
	shrl	$2, %r14d
	xorl	%r9d, %r14d
	andl	$858993459, %r14d               # imm = 0x33333333
	leal	(,%r14,4), %eax
	xorl	%edi, %eax
	xorl	%r9d, %r14d
	movl	%r11d, %r15d
	shrl	$2, %r15d
	xorl	%ebx, %r15d
	andl	$858993459, %r15d               # imm = 0x33333333
	leal	(,%r15,4), %r10d
	xorl	%r11d, %r10d
	xorl	%ebx, %r15d
	movl	%r12d, %r9d
	shrl	$4, %r9d
	xorl	%r8d, %r9d
	andl	$252645135, %r9d                # imm = 0xF0F0F0F
	xorl	16(%rsi), %r8d
	xorl	%r9d, %r8d
	shll	$4, %r9d
	movl	%eax, %ebp
	shrl	$4, %ebp
	xorl	%r10d, %ebp
	andl	$252645135, %ebp                # imm = 0xF0F0F0F
	xorl	20(%rsi), %r10d
	xorl	%ebp, %r10d
	shll	$4, %ebp
	xorl	(%rsi), %r9d
	xorl	%r12d, %r9d
	movl	%ecx, %edi
	shrl	$4, %edi
	xorl	%r13d, %edi
	andl	$252645135, %edi                # imm = 0xF0F0F0F
	xorl	24(%rsi), %r13d
	xorl	%edi, %r13d
	shll	$4, %edi
	xorl	4(%rsi), %ebp
	xorl	%eax, %ebp
	movl	%r14d, %r11d
	shrl	$4, %r11d
	xorl	%r15d, %r11d
	andl	$252645135, %r11d               # imm = 0xF0F0F0F
	xorl	28(%rsi), %r15d
	xorl	%r11d, %r15d
	shll	$4, %r11d
	xorl	8(%rsi), %edi
	xorl	%ecx, %edi
	movq	%rdx, 80(%rsp)                  # 8-byte Spill
	leaq	-2(%rdx), %rax
	xorl	12(%rsi), %r11d
	xorl	%r14d, %r11d
	movq	%rax, %rcx
	shrq	$2, %rcx
	testq	%rcx, %rcx
	movq	%rsi, 88(%rsp)                  # 8-byte Spill
	movq	%rax, 96(%rsp)                  # 8-byte Spill
	je	.Lgcm_v1_BB13_3
# %bb.1:                                # %join.7.i.preheader
	leaq	156(%rsi), %rax
	movq	%rax, 48(%rsp)                  # 8-byte Spill
	.p2align	4
.Lgcm_v1_BB13_2:                               # %join.7.i
                                        # =>This Inner Loop Header: Depth=1
	movq	%rcx, 64(%rsp)                  # 8-byte Spill
	xorl	%r13d, %r10d
	movl	%r8d, %r14d
	xorl	%r15d, %r14d
	movl	%r9d, %r12d
	xorl	%r10d, %r12d
	movl	%r12d, 4(%rsp)                  # 4-byte Spill
	movl	%r12d, %ecx
	xorl	%r8d, %ecx
	movl	%ecx, 8(%rsp)                   # 4-byte Spill
	andl	%r9d, %ecx
	xorl	%ebp, %r12d
	xorl	%r15d, %ebp
	xorl	%edi, %r8d
	movl	%ebp, %eax
	xorl	%r8d, %eax
	xorl	%eax, %r11d
	movl	%eax, 16(%rsp)                  # 4-byte Spill
	movl	%r11d, %edx
	xorl	%edi, %edx
	xorl	%r13d, %r11d
	xorl	%r15d, %edi
	movl	%edx, %ebx
	andl	%eax, %ebx
	movl	%edx, %r13d
	movl	%edx, 20(%rsp)                  # 4-byte Spill
	xorl	%r10d, %edx
	xorl	%edi, %ecx
	xorl	%edx, %ecx
	xorl	%ebx, %ecx
	xorl	%r11d, %ebx
	movl	%r14d, 40(%rsp)                 # 4-byte Spill
	xorl	%r14d, %r11d
	movl	%r11d, %esi
	andl	%r14d, %esi
	movl	%r11d, %r14d
	movl	%edx, %eax
	movl	%edx, 24(%rsp)                  # 4-byte Spill
	xorl	%edx, %r14d
	movl	%r14d, 28(%rsp)                 # 4-byte Spill
	andl	%r8d, %r14d
	andl	%edi, %eax
	xorl	%esi, %r14d
	xorl	%esi, %eax
	movl	%r13d, %esi
	xorl	%r9d, %esi
	movl	%esi, 12(%rsp)                  # 4-byte Spill
	movl	%r12d, 36(%rsp)                 # 4-byte Spill
	movl	%r12d, %r13d
	xorl	%edi, %r13d
	movl	%r13d, 32(%rsp)                 # 4-byte Spill
	andl	%r13d, %esi
	xorl	%esi, %ebx
	xorl	%r11d, %r10d
	movl	%r9d, %edx
	movl	%r11d, %r9d
	movl	%r12d, %r11d
	movl	4(%rsp), %r12d                  # 4-byte Reload
	andl	%r12d, %r11d
	movl	%r10d, %r13d
	andl	%ebp, %r13d
	xorl	%r14d, %ebx
	xorl	%r10d, %r11d
	xorl	%r13d, %r11d
	xorl	%ebp, %r11d
	xorl	%r14d, %r11d
	xorl	%r15d, %r12d
	xorl	%r15d, %r13d
	movl	%r9d, %esi
	xorl	%edx, %esi
	movl	%esi, 44(%rsp)                  # 4-byte Spill
	andl	%r12d, %esi
	xorl	%r10d, %esi
	xorl	%esi, %r13d
	xorl	%eax, %ecx
	xorl	%eax, %r13d
	movl	%r11d, %r15d
	andl	%ebx, %r15d
	movl	%r15d, %eax
	xorl	%ecx, %eax
	movl	%r13d, %r14d
	xorl	%r11d, %r14d
	andl	%eax, %r14d
	xorl	%ecx, %ebx
	movl	%r14d, %eax
	xorl	%r15d, %r14d
	xorl	%r13d, %r15d
	movl	%r15d, %esi
	andl	%ebx, %esi
	xorl	%ecx, %esi
	xorl	%r13d, %eax
	andl	%r13d, %r14d
	xorl	%r14d, %r15d
	andl	%esi, %r15d
	xorl	%ebx, %r15d
	movl	%r15d, %r13d
	xorl	%r11d, %r14d
	andl	%eax, 8(%rsp)                   # 4-byte Folded Spill
	movl	%r14d, %ecx
	xorl	%eax, %ecx
	movl	%esi, %ebx
	xorl	%eax, %ebx
	andl	%edx, %eax
	movl	%r15d, %r11d
	xorl	%ecx, %r11d
	andl	%ebx, %r9d
	movl	%r9d, 60(%rsp)                  # 4-byte Spill
	movl	%r11d, %r9d
	xorl	%ebx, %r9d
	andl	40(%rsp), %ebx                  # 4-byte Folded Reload
	xorl	%esi, %r15d
	andl	%r15d, %r10d
	andl	%ebp, %r15d
	andl	%r13d, 4(%rsp)                  # 4-byte Folded Spill
	andl	36(%rsp), %r13d                 # 4-byte Folded Reload
	movl	12(%rsp), %edx                  # 4-byte Reload
	andl	%ecx, %edx
	andl	32(%rsp), %ecx                  # 4-byte Folded Reload
	andl	%r9d, %r8d
	andl	28(%rsp), %r9d                  # 4-byte Folded Reload
	andl	%esi, %r12d
	andl	44(%rsp), %esi                  # 4-byte Folded Reload
	movl	20(%rsp), %ebp                  # 4-byte Reload
	andl	%r14d, %ebp
	andl	16(%rsp), %r14d                 # 4-byte Folded Reload
	xorl	%ebp, %edx
	xorl	%eax, %ebp
	movl	4(%rsp), %eax                   # 4-byte Reload
	xorl	%r10d, %eax
	xorl	%ebp, %esi
	xorl	%r10d, %esi
	xorl	%ebx, %r8d
	xorl	%r8d, %ecx
	movl	%r13d, %r10d
	xorl	%esi, %r10d
	xorl	%r8d, %r10d
	xorl	%eax, %r9d
	xorl	%eax, %edx
	movl	24(%rsp), %eax                  # 4-byte Reload
	andl	%r11d, %eax
	xorl	%ecx, %r14d
	xorl	%eax, %ebp
	xorl	%r15d, %ebp
	xorl	%r9d, %ebp
	xorl	%ebp, %r12d
	xorl	%r14d, %edx
	xorl	%r10d, %ebp
	xorl	60(%rsp), %r9d                  # 4-byte Folded Reload
	movl	%edx, %r8d
	xorl	%r9d, %r8d
	xorl	%r15d, %r10d
	xorl	8(%rsp), %ecx                   # 4-byte Folded Reload
	xorl	%edx, %esi
	andl	%edi, %r11d
	xorl	%r12d, %ecx
	xorl	%r9d, %r14d
	xorl	%ebx, %r11d
	xorl	%r9d, %r11d
	xorl	%r12d, %r11d
	movl	%r10d, %eax
	roll	$22, %eax
	movl	%r10d, %edi
	roll	$30, %edi
	andl	$1061109567, %eax               # imm = 0x3F3F3F3F
	andl	$-1061109568, %edi              # imm = 0xC0C0C0C0
	orl	%eax, %edi
	movl	%edi, %ebx
	movl	%ebp, %eax
	roll	$22, %eax
	movl	%ebp, %r15d
	movl	%ebp, %r12d
	roll	$30, %r15d
	andl	$1061109567, %eax               # imm = 0x3F3F3F3F
	andl	$-1061109568, %r15d             # imm = 0xC0C0C0C0
	movl	%ecx, %edi
	roll	$22, %edi
	orl	%eax, %r15d
	movl	%ecx, %ebp
	roll	$30, %ebp
	andl	$1061109567, %edi               # imm = 0x3F3F3F3F
	movl	%esi, %eax
	roll	$22, %eax
	andl	$-1061109568, %ebp              # imm = 0xC0C0C0C0
	movl	%esi, %r9d
	roll	$30, %r9d
	orl	%edi, %ebp
	movl	%ebp, 24(%rsp)                  # 4-byte Spill
	andl	$1061109567, %eax               # imm = 0x3F3F3F3F
	andl	$-1061109568, %r9d              # imm = 0xC0C0C0C0
	orl	%eax, %r9d
	movl	%r9d, 16(%rsp)                  # 4-byte Spill
	movl	%edx, %eax
	roll	$22, %eax
	movl	%edx, %ebp
	movl	%edx, %r9d
	roll	$30, %ebp
	andl	$1061109567, %eax               # imm = 0x3F3F3F3F
	andl	$-1061109568, %ebp              # imm = 0xC0C0C0C0
	orl	%eax, %ebp
	movl	%r11d, %eax
	roll	$22, %eax
	movl	%r11d, %edx
	roll	$30, %edx
	andl	$1061109567, %eax               # imm = 0x3F3F3F3F
	andl	$-1061109568, %edx              # imm = 0xC0C0C0C0
	movl	%r8d, 4(%rsp)                   # 4-byte Spill
	movl	%r8d, %edi
	roll	$22, %edi
	orl	%eax, %edx
	movl	%edx, 28(%rsp)                  # 4-byte Spill
	movl	%r8d, %edx
	roll	$30, %edx
	andl	$1061109567, %edi               # imm = 0x3F3F3F3F
	movl	%r14d, %eax
	roll	$22, %eax
	andl	$-1061109568, %edx              # imm = 0xC0C0C0C0
	movl	%r14d, %r8d
	roll	$30, %r8d
	orl	%edi, %edx
	movl	%edx, 32(%rsp)                  # 4-byte Spill
	andl	$1061109567, %eax               # imm = 0x3F3F3F3F
	andl	$-1061109568, %r8d              # imm = 0xC0C0C0C0
	orl	%eax, %r8d
	movl	%r8d, %eax
	movl	%r8d, 40(%rsp)                  # 4-byte Spill
	xorl	%ebx, %r10d
	movl	%ebx, %edx
	movl	%r10d, %edi
	roll	$12, %edi
	movl	%r12d, %ebx
	xorl	%r15d, %ebx
	movl	%ebx, 20(%rsp)                  # 4-byte Spill
	movl	%r10d, %r12d
	roll	$20, %r12d
	andl	$252645135, %edi                # imm = 0xF0F0F0F
	movl	%ebx, %r8d
	roll	$12, %r8d
	andl	$-252645136, %r12d              # imm = 0xF0F0F0F0
	roll	$20, %ebx
	orl	%edi, %r12d
	movl	%r12d, 36(%rsp)                 # 4-byte Spill
	andl	$252645135, %r8d                # imm = 0xF0F0F0F
	andl	$-252645136, %ebx               # imm = 0xF0F0F0F0
	orl	%r8d, %ebx
	movl	%r10d, %edi
	xorl	%r15d, %edi
	xorl	24(%rsp), %ecx                  # 4-byte Folded Reload
	movl	%r9d, %r10d
	xorl	%ebp, %r10d
	xorl	%eax, %r14d
	xorl	%r14d, %edx
	xorl	%r14d, %edi
	movl	%edi, 8(%rsp)                   # 4-byte Spill
	xorl	%r14d, %ebp
	movl	%r14d, %edi
	movl	%r14d, %r9d
	xorl	%ecx, %r14d
	movl	%ecx, %r8d
	roll	$12, %ecx
	roll	$20, %r8d
	andl	$252645135, %ecx                # imm = 0xF0F0F0F
	andl	$-252645136, %r8d               # imm = 0xF0F0F0F0
	orl	%ecx, %r8d
	xorl	16(%rsp), %esi                  # 4-byte Folded Reload
	xorl	%esi, %ebp
	movl	%esi, %ecx
	roll	$12, %ecx
	roll	$20, %esi
	andl	$252645135, %ecx                # imm = 0xF0F0F0F
	andl	$-252645136, %esi               # imm = 0xF0F0F0F0
	movl	%r10d, 12(%rsp)                 # 4-byte Spill
	movl	%r10d, %r15d
	roll	$12, %r15d
	orl	%ecx, %esi
	movl	%r10d, %ecx
	roll	$20, %ecx
	andl	$252645135, %r15d               # imm = 0xF0F0F0F
	andl	$-252645136, %ecx               # imm = 0xF0F0F0F0
	orl	%r15d, %ecx
	xorl	28(%rsp), %r11d                 # 4-byte Folded Reload
	movl	4(%rsp), %eax                   # 4-byte Reload
	movl	32(%rsp), %r10d                 # 4-byte Reload
	xorl	%r10d, %eax
	movl	%eax, 4(%rsp)                   # 4-byte Spill
	movl	%r11d, %r12d
	roll	$12, %r12d
	movl	%r11d, %r15d
	roll	$20, %r15d
	andl	$252645135, %r12d               # imm = 0xF0F0F0F
	andl	$-252645136, %r15d              # imm = 0xF0F0F0F0
	movl	%eax, %r13d
	roll	$12, %r13d
	orl	%r12d, %r15d
	movl	%eax, %r12d
	roll	$20, %r12d
	andl	$252645135, %r13d               # imm = 0xF0F0F0F
	andl	$-252645136, %r12d              # imm = 0xF0F0F0F0
	roll	$12, %edi
	orl	%r13d, %r12d
	roll	$20, %r9d
	andl	$252645135, %edi                # imm = 0xF0F0F0F
	andl	$-252645136, %r9d               # imm = 0xF0F0F0F0
	orl	%edi, %r9d
	movq	48(%rsp), %rdi                  # 8-byte Reload
	movl	36(%rsp), %eax                  # 4-byte Reload
	xorl	-124(%rdi), %eax
	movl	%edx, %r13d
	xorl	%eax, %r13d
	movl	%r13d, 76(%rsp)                 # 4-byte Spill
	xorl	-120(%rdi), %ebx
	movl	8(%rsp), %edx                   # 4-byte Reload
	xorl	%ebx, %edx
	movl	20(%rsp), %eax                  # 4-byte Reload
	xorl	24(%rsp), %eax                  # 4-byte Folded Reload
	xorl	-116(%rdi), %r8d
	xorl	%r8d, %eax
	movl	%eax, %r8d
	xorl	-108(%rdi), %ecx
	xorl	%ecx, %ebp
	xorl	%r10d, %r11d
	xorl	-100(%rdi), %r12d
	xorl	-96(%rdi), %r9d
	xorl	%r12d, %r11d
	movl	4(%rsp), %r12d                  # 4-byte Reload
	xorl	40(%rsp), %r12d                 # 4-byte Folded Reload
	xorl	-104(%rdi), %r15d
	movq	%rdi, 48(%rsp)                  # 8-byte Spill
	xorl	%r9d, %r12d
	movl	12(%rsp), %r9d                  # 4-byte Reload
	xorl	28(%rsp), %r9d                  # 4-byte Folded Reload
	xorl	%r15d, %r9d
	xorl	%r11d, %r9d
	movl	%ebp, %r15d
	xorl	%r12d, %r15d
	movl	%r9d, %ecx
	xorl	%r13d, %ecx
	movl	%ecx, 72(%rsp)                  # 4-byte Spill
	movl	%ecx, %eax
	xorl	%ebp, %eax
	movl	%eax, 12(%rsp)                  # 4-byte Spill
	movl	%ecx, %r13d
	xorl	%edx, %r13d
	xorl	%r12d, %edx
	movl	%edx, 8(%rsp)                   # 4-byte Spill
	xorl	%r8d, %ebp
	xorl	%ebp, %edx
	movl	%ebp, %r10d
	movl	%ebp, 32(%rsp)                  # 4-byte Spill
	xorl	-112(%rdi), %esi
	xorl	16(%rsp), %r14d                 # 4-byte Folded Reload
	xorl	%esi, %r14d
	xorl	%edx, %r14d
	movl	%edx, %ecx
	movl	%edx, 24(%rsp)                  # 4-byte Spill
	movl	%r14d, %ebp
	xorl	%r8d, %ebp
	xorl	%r11d, %r14d
	xorl	%r12d, %r8d
	movl	%ebp, %edx
	andl	%ecx, %edx
	movl	%ebp, %eax
	xorl	%r9d, %eax
	movl	%eax, 16(%rsp)                  # 4-byte Spill
	movl	%eax, %esi
	xorl	%edx, %esi
	xorl	%r14d, %edx
	movl	%r14d, %ebx
	movl	%r15d, 40(%rsp)                 # 4-byte Spill
	xorl	%r15d, %ebx
	movl	%ebx, %edi
	andl	%r15d, %edi
	movl	%ebx, %ecx
	xorl	%eax, %ecx
	movl	%ecx, 28(%rsp)                  # 4-byte Spill
	andl	%r10d, %ecx
	movl	%r8d, 20(%rsp)                  # 4-byte Spill
	andl	%r8d, %eax
	xorl	%edi, %ecx
	xorl	%edi, %eax
	movl	12(%rsp), %edi                  # 4-byte Reload
	movl	76(%rsp), %r14d                 # 4-byte Reload
	andl	%r14d, %edi
	xorl	%r8d, %edi
	xorl	%edi, %esi
	movl	%ebp, %edi
	xorl	%r14d, %edi
	movl	%edi, 4(%rsp)                   # 4-byte Spill
	movl	%r13d, 44(%rsp)                 # 4-byte Spill
	movl	%r13d, %r11d
	xorl	%r8d, %r11d
	movl	%r11d, 36(%rsp)                 # 4-byte Spill
	andl	%r11d, %edi
	xorl	%edi, %edx
	movl	%r9d, %r10d
	xorl	%ebx, %r10d
	movl	%r13d, %r8d
	movl	72(%rsp), %r9d                  # 4-byte Reload
	andl	%r9d, %r8d
	movl	%r10d, %r11d
	movl	8(%rsp), %edi                   # 4-byte Reload
	andl	%edi, %r11d
	xorl	%ecx, %edx
	xorl	%r10d, %r8d
	xorl	%r11d, %r8d
	xorl	%edi, %r8d
	xorl	%ecx, %r8d
	movl	%r9d, %r15d
	xorl	%r12d, %r15d
	xorl	%r12d, %r11d
	movl	%ebx, %ecx
	xorl	%r14d, %ecx
	movl	%ecx, 60(%rsp)                  # 4-byte Spill
	andl	%r15d, %ecx
	xorl	%r10d, %ecx
	xorl	%ecx, %r11d
	xorl	%eax, %esi
	xorl	%eax, %r11d
	movl	%r8d, %r13d
	andl	%edx, %r13d
	movl	%r13d, %ecx
	xorl	%esi, %ecx
	movl	%r11d, %eax
	xorl	%r8d, %eax
	andl	%ecx, %eax
	xorl	%esi, %edx
	movl	%eax, %ecx
	xorl	%r13d, %eax
	xorl	%r11d, %r13d
	movl	%r13d, %edi
	andl	%edx, %edi
	xorl	%esi, %edi
	xorl	%r11d, %ecx
	andl	%r11d, %eax
	xorl	%eax, %r13d
	andl	%edi, %r13d
	xorl	%edx, %r13d
	xorl	%r8d, %eax
	andl	%ecx, 12(%rsp)                  # 4-byte Folded Spill
	movl	%eax, %esi
	xorl	%ecx, %esi
	movl	%edi, %r12d
	xorl	%ecx, %r12d
	andl	%r14d, %ecx
	movl	%r13d, %r8d
	xorl	%esi, %r8d
	andl	%r12d, %ebx
	movl	%ebx, 76(%rsp)                  # 4-byte Spill
	movl	%r8d, %edx
	xorl	%r12d, %edx
	andl	40(%rsp), %r12d                 # 4-byte Folded Reload
	movl	%r13d, %r11d
	xorl	%edi, %r11d
	andl	%r11d, %r10d
	andl	8(%rsp), %r11d                  # 4-byte Folded Reload
	andl	%r13d, %r9d
	andl	44(%rsp), %r13d                 # 4-byte Folded Reload
	movl	4(%rsp), %ebx                   # 4-byte Reload
	andl	%esi, %ebx
	andl	36(%rsp), %esi                  # 4-byte Folded Reload
	movl	32(%rsp), %r14d                 # 4-byte Reload
	andl	%edx, %r14d
	andl	28(%rsp), %edx                  # 4-byte Folded Reload
	andl	%edi, %r15d
	andl	60(%rsp), %edi                  # 4-byte Folded Reload
	andl	%eax, %ebp
	andl	24(%rsp), %eax                  # 4-byte Folded Reload
	xorl	%ebp, %ebx
	xorl	%ecx, %ebp
	xorl	%r10d, %r9d
	xorl	%ebp, %edi
	xorl	%r10d, %edi
	movl	%r14d, %ecx
	xorl	%r12d, %ecx
	xorl	%ecx, %esi
	xorl	%edi, %r13d
	xorl	%ecx, %r13d
	xorl	%r9d, %edx
	xorl	%r9d, %ebx
	movl	16(%rsp), %ecx                  # 4-byte Reload
	andl	%r8d, %ecx
	xorl	%esi, %eax
	xorl	%ecx, %ebp
	xorl	%r11d, %ebp
	xorl	%edx, %ebp
	xorl	%ebp, %r15d
	movl	%ebx, %ecx
	xorl	%eax, %ecx
	xorl	%r13d, %ebp
	movl	%ebp, %r10d
	xorl	76(%rsp), %edx                  # 4-byte Folded Reload
	movl	%ecx, %ebx
	xorl	%edx, %ebx
	xorl	%r11d, %r13d
	xorl	12(%rsp), %esi                  # 4-byte Folded Reload
	xorl	%ecx, %edi
	movl	%ecx, %ebp
	andl	20(%rsp), %r8d                  # 4-byte Folded Reload
	xorl	%r15d, %esi
	movl	%esi, %r11d
	xorl	%edx, %eax
	xorl	%r12d, %r8d
	xorl	%edx, %r8d
	xorl	%r15d, %r8d
	movl	%r8d, %esi
	movl	%r13d, %ecx
	roll	$20, %ecx
	movl	%r13d, %r8d
	roll	$28, %r8d
	andl	$252645135, %ecx                # imm = 0xF0F0F0F
	andl	$-252645136, %r8d               # imm = 0xF0F0F0F0
	movl	%r10d, %edx
	roll	$20, %edx
	orl	%ecx, %r8d
	movl	%r8d, 8(%rsp)                   # 4-byte Spill
	movl	%r10d, %r9d
	roll	$28, %r9d
	andl	$252645135, %edx                # imm = 0xF0F0F0F
	movl	%r11d, %ecx
	roll	$20, %ecx
	andl	$-252645136, %r9d               # imm = 0xF0F0F0F0
	movl	%r11d, %r15d
	movl	%r11d, %r8d
	roll	$28, %r15d
	orl	%edx, %r9d
	andl	$252645135, %ecx                # imm = 0xF0F0F0F
	andl	$-252645136, %r15d              # imm = 0xF0F0F0F0
	orl	%ecx, %r15d
	movl	%edi, %ecx
	roll	$20, %ecx
	movl	%edi, %edx
	roll	$28, %edx
	andl	$252645135, %ecx                # imm = 0xF0F0F0F
	andl	$-252645136, %edx               # imm = 0xF0F0F0F0
	orl	%ecx, %edx
	movl	%edx, 20(%rsp)                  # 4-byte Spill
	movl	%ebp, %r12d
	movl	%ebp, 4(%rsp)                   # 4-byte Spill
	movl	%ebp, %ecx
	roll	$20, %ecx
	roll	$28, %r12d
	andl	$252645135, %ecx                # imm = 0xF0F0F0F
	andl	$-252645136, %r12d              # imm = 0xF0F0F0F0
	movl	%esi, %r11d
	roll	$20, %r11d
	orl	%ecx, %r12d
	movl	%esi, %edx
	roll	$28, %edx
	andl	$252645135, %r11d               # imm = 0xF0F0F0F
	movl	%ebx, %ecx
	movl	%ebx, 16(%rsp)                  # 4-byte Spill
	roll	$20, %ebx
	andl	$-252645136, %edx               # imm = 0xF0F0F0F0
	roll	$28, %ecx
	orl	%r11d, %edx
	andl	$252645135, %ebx                # imm = 0xF0F0F0F
	andl	$-252645136, %ecx               # imm = 0xF0F0F0F0
	orl	%ebx, %ecx
	movl	%eax, %r11d
	roll	$20, %r11d
	movl	%eax, %r14d
	roll	$28, %r14d
	andl	$252645135, %r11d               # imm = 0xF0F0F0F
	andl	$-252645136, %r14d              # imm = 0xF0F0F0F0
	orl	%r11d, %r14d
	movl	8(%rsp), %ebp                   # 4-byte Reload
	xorl	%ebp, %r13d
	xorl	%r14d, %eax
	movl	%r13d, %r11d
	roll	$16, %r11d
	movq	48(%rsp), %rbx                  # 8-byte Reload
	xorl	-92(%rbx), %r11d
	xorl	%eax, %ebp
	xorl	%r11d, %ebp
	movl	%ebp, 8(%rsp)                   # 4-byte Spill
	movl	%r10d, %ebp
	xorl	%r9d, %ebp
	movl	%ebp, %r11d
	roll	$16, %r11d
	xorl	-88(%rbx), %r11d
	xorl	%r9d, %r13d
	xorl	%eax, %r13d
	xorl	%r11d, %r13d
	xorl	%r15d, %r8d
	xorl	20(%rsp), %edi                  # 4-byte Folded Reload
	movl	4(%rsp), %r10d                  # 4-byte Reload
	xorl	%r12d, %r10d
	xorl	%edx, %esi
	xorl	%r15d, %ebp
	movl	%eax, %r9d
	xorl	%eax, %r12d
	xorl	%r8d, %eax
	roll	$16, %r8d
	xorl	%edi, %r12d
	roll	$16, %edi
	xorl	-84(%rbx), %r8d
	xorl	%r8d, %ebp
	movl	%r10d, %r8d
	roll	$16, %r8d
	movl	16(%rsp), %r15d                 # 4-byte Reload
	xorl	%ecx, %r15d
	xorl	-76(%rbx), %r8d
	xorl	%r8d, %r12d
	movl	%esi, %r8d
	roll	$16, %r8d
	movl	%r15d, %r11d
	roll	$16, %r11d
	roll	$16, %r9d
	xorl	%ecx, %esi
	xorl	-68(%rbx), %r11d
	xorl	%r11d, %esi
	xorl	-64(%rbx), %r9d
	xorl	%r14d, %r15d
	xorl	%r9d, %r15d
	xorl	-72(%rbx), %r8d
	xorl	%edx, %r10d
	xorl	%r8d, %r10d
	xorl	%esi, %r10d
	movl	%r12d, %r8d
	xorl	%r15d, %r8d
	movl	%r10d, %r11d
	movl	%r10d, 4(%rsp)                  # 4-byte Spill
	xorl	8(%rsp), %r11d                  # 4-byte Folded Reload
	movl	%r11d, %ecx
	xorl	%r12d, %ecx
	movl	%ecx, 12(%rsp)                  # 4-byte Spill
	movl	%r11d, %r14d
	xorl	%r13d, %r14d
	xorl	%r15d, %r13d
	movl	%r15d, 16(%rsp)                 # 4-byte Spill
	xorl	%ebp, %r12d
	movl	%r13d, %ecx
	xorl	%r12d, %ecx
	xorl	-80(%rbx), %edi
	xorl	20(%rsp), %eax                  # 4-byte Folded Reload
	xorl	%edi, %eax
	xorl	%ecx, %eax
	movl	%ecx, 28(%rsp)                  # 4-byte Spill
	movl	%eax, %r9d
	xorl	%ebp, %r9d
	xorl	%esi, %eax
	xorl	%r15d, %ebp
	movl	%r9d, %edx
	andl	%ecx, %edx
	movl	%r9d, %ecx
	movl	%r9d, 20(%rsp)                  # 4-byte Spill
	xorl	%r10d, %ecx
	movl	%ecx, %r10d
	movl	%ecx, 36(%rsp)                  # 4-byte Spill
	xorl	%edx, %ecx
	xorl	%eax, %edx
	movl	%eax, %ebx
	movl	%r8d, 60(%rsp)                  # 4-byte Spill
	xorl	%r8d, %ebx
	movl	%ebx, %edi
	andl	%r8d, %edi
	movl	%ebx, %esi
	xorl	%r10d, %esi
	movl	%esi, 40(%rsp)                  # 4-byte Spill
	andl	%r12d, %esi
	movl	%r10d, %eax
	movl	%ebp, 32(%rsp)                  # 4-byte Spill
	andl	%ebp, %eax
	xorl	%edi, %esi
	xorl	%edi, %eax
	movl	12(%rsp), %edi                  # 4-byte Reload
	movl	8(%rsp), %r15d                  # 4-byte Reload
	andl	%r15d, %edi
	xorl	%ebp, %edi
	xorl	%edi, %ecx
	movl	%r9d, %r10d
	xorl	%r15d, %r10d
	movl	%r14d, %r9d
	movl	%r14d, 72(%rsp)                 # 4-byte Spill
	xorl	%ebp, %r14d
	movl	%r14d, 44(%rsp)                 # 4-byte Spill
	movl	%r10d, %edi
	andl	%r14d, %edi
	xorl	%edi, %edx
	movl	4(%rsp), %r8d                   # 4-byte Reload
	movl	%ebx, %ebp
	movl	%ebx, 24(%rsp)                  # 4-byte Spill
	xorl	%ebx, %r8d
	movl	%r9d, %edi
	andl	%r11d, %edi
	movl	%r8d, %r9d
	andl	%r13d, %r9d
	xorl	%esi, %edx
	xorl	%r8d, %edi
	movl	%r8d, 4(%rsp)                   # 4-byte Spill
	xorl	%r9d, %edi
	xorl	%r13d, %edi
	xorl	%esi, %edi
	movl	%r11d, %ebx
	movl	16(%rsp), %esi                  # 4-byte Reload
	xorl	%esi, %ebx
	xorl	%esi, %r9d
	movl	%ebp, %esi
	xorl	%r15d, %esi
	movl	%esi, 16(%rsp)                  # 4-byte Spill
	andl	%ebx, %esi
	xorl	%r8d, %esi
	xorl	%esi, %r9d
	xorl	%eax, %ecx
	xorl	%eax, %r9d
	movl	%edi, %r14d
	andl	%edx, %r14d
	movl	%r14d, %eax
	xorl	%ecx, %eax
	movl	%r9d, %r8d
	xorl	%edi, %r8d
	andl	%eax, %r8d
	xorl	%ecx, %edx
	movl	%r8d, %ebp
	xorl	%r14d, %r8d
	xorl	%r9d, %r14d
	movl	%r14d, %eax
	andl	%edx, %eax
	xorl	%ecx, %eax
	xorl	%r9d, %ebp
	andl	%r9d, %r8d
	xorl	%r8d, %r14d
	andl	%eax, %r14d
	xorl	%edx, %r14d
	xorl	%edi, %r8d
	andl	%ebp, 12(%rsp)                  # 4-byte Folded Spill
	movl	%r8d, %r9d
	xorl	%ebp, %r9d
	movl	%eax, %ecx
	xorl	%ebp, %ecx
	andl	%r15d, %ebp
	movl	%r14d, %esi
	xorl	%r9d, %esi
	andl	%ecx, 24(%rsp)                  # 4-byte Folded Spill
	movl	%esi, %edi
	xorl	%ecx, %edi
	andl	60(%rsp), %ecx                  # 4-byte Folded Reload
	movl	%r14d, %r15d
	xorl	%eax, %r15d
	andl	%r15d, 4(%rsp)                  # 4-byte Folded Spill
	andl	%r13d, %r15d
	andl	%r14d, %r11d
	andl	72(%rsp), %r14d                 # 4-byte Folded Reload
	andl	%r9d, %r10d
	andl	44(%rsp), %r9d                  # 4-byte Folded Reload
	andl	%edi, %r12d
	andl	40(%rsp), %edi                  # 4-byte Folded Reload
	andl	%eax, %ebx
	andl	16(%rsp), %eax                  # 4-byte Folded Reload
	movl	20(%rsp), %edx                  # 4-byte Reload
	andl	%r8d, %edx
	andl	28(%rsp), %r8d                  # 4-byte Folded Reload
	xorl	%edx, %r10d
	xorl	%ebp, %edx
	movl	4(%rsp), %ebp                   # 4-byte Reload
	xorl	%ebp, %r11d
	xorl	%edx, %eax
	xorl	%ebp, %eax
	xorl	%ecx, %r12d
	xorl	%r12d, %r9d
	xorl	%eax, %r14d
	xorl	%r12d, %r14d
	xorl	%r11d, %edi
	xorl	%r11d, %r10d
	movl	36(%rsp), %r11d                 # 4-byte Reload
	andl	%esi, %r11d
	xorl	%r9d, %r8d
	xorl	%r11d, %edx
	xorl	%r15d, %edx
	xorl	%edi, %edx
	xorl	%edx, %ebx
	xorl	%r8d, %r10d
	xorl	%r14d, %edx
	movl	%edx, %r11d
	xorl	24(%rsp), %edi                  # 4-byte Folded Reload
	movl	%r10d, %r12d
	xorl	%edi, %r12d
	xorl	%r15d, %r14d
	xorl	12(%rsp), %r9d                  # 4-byte Folded Reload
	xorl	%r10d, %eax
	movl	%r10d, %ebp
	andl	32(%rsp), %esi                  # 4-byte Folded Reload
	xorl	%ebx, %r9d
	xorl	%edi, %r8d
	xorl	%ecx, %esi
	xorl	%edi, %esi
	movl	%r14d, %ecx
	roll	$18, %ecx
	xorl	%ebx, %esi
	movl	%r14d, %r10d
	roll	$26, %r10d
	andl	$50529027, %ecx                 # imm = 0x3030303
	movl	%edx, %edi
	roll	$18, %edi
	andl	$-50529028, %r10d               # imm = 0xFCFCFCFC
	roll	$26, %edx
	orl	%ecx, %r10d
	movl	%r10d, %ebx
	andl	$50529027, %edi                 # imm = 0x3030303
	andl	$-50529028, %edx                # imm = 0xFCFCFCFC
	orl	%edi, %edx
	movl	%r9d, %ecx
	roll	$18, %ecx
	movl	%r9d, %edi
	roll	$26, %edi
	andl	$50529027, %ecx                 # imm = 0x3030303
	andl	$-50529028, %edi                # imm = 0xFCFCFCFC
	orl	%ecx, %edi
	movl	%edi, %r15d
	movl	%edi, 36(%rsp)                  # 4-byte Spill
	movl	%eax, %ecx
	roll	$18, %ecx
	movl	%eax, %r10d
	roll	$26, %r10d
	andl	$50529027, %ecx                 # imm = 0x3030303
	andl	$-50529028, %r10d               # imm = 0xFCFCFCFC
	movl	%ebp, %edi
	roll	$18, %edi
	orl	%ecx, %r10d
	movl	%r10d, 16(%rsp)                 # 4-byte Spill
	movl	%ebp, %r13d
	movl	%ebp, %r10d
	roll	$26, %r13d
	andl	$50529027, %edi                 # imm = 0x3030303
	movl	%esi, 12(%rsp)                  # 4-byte Spill
	movl	%esi, %ecx
	roll	$18, %ecx
	andl	$-50529028, %r13d               # imm = 0xFCFCFCFC
	movl	%esi, %ebp
	roll	$26, %ebp
	orl	%edi, %r13d
	andl	$50529027, %ecx                 # imm = 0x3030303
	andl	$-50529028, %ebp                # imm = 0xFCFCFCFC
	orl	%ecx, %ebp
	movl	%ebp, 24(%rsp)                  # 4-byte Spill
	movl	%r12d, %ebp
	movl	%r12d, 8(%rsp)                  # 4-byte Spill
	movl	%r12d, %ecx
	roll	$18, %ecx
	roll	$26, %ebp
	andl	$50529027, %ecx                 # imm = 0x3030303
	andl	$-50529028, %ebp                # imm = 0xFCFCFCFC
	orl	%ecx, %ebp
	movl	%r8d, %ecx
	roll	$18, %ecx
	movl	%r8d, %esi
	roll	$26, %esi
	movl	%esi, %edi
	andl	$50529027, %ecx                 # imm = 0x3030303
	xorl	%ebx, %r14d
	movl	%ebx, %esi
	movl	%r14d, %ebx
	roll	$12, %ebx
	andl	$-50529028, %edi                # imm = 0xFCFCFCFC
	movl	%r14d, %r12d
	roll	$20, %r12d
	orl	%ecx, %edi
	movl	%edi, 32(%rsp)                  # 4-byte Spill
	andl	$252645135, %ebx                # imm = 0xF0F0F0F
	andl	$-252645136, %r12d              # imm = 0xF0F0F0F0
	orl	%ebx, %r12d
	movl	%r12d, 28(%rsp)                 # 4-byte Spill
	movl	%r11d, %ebx
	xorl	%edx, %ebx
	movl	%ebx, 20(%rsp)                  # 4-byte Spill
	movl	%ebx, %ecx
	roll	$12, %ecx
	roll	$20, %ebx
	andl	$252645135, %ecx                # imm = 0xF0F0F0F
	andl	$-252645136, %ebx               # imm = 0xF0F0F0F0
	orl	%ecx, %ebx
	xorl	%edx, %r14d
	xorl	%r15d, %r9d
	xorl	%r13d, %r10d
	xorl	%edi, %r8d
	xorl	%r8d, %esi
	xorl	%r8d, %r14d
	xorl	%r8d, %r13d
	movl	%r8d, %edi
	movl	%r8d, %ecx
	xorl	%r9d, %r8d
	movl	%r9d, %r15d
	movl	%r9d, %r12d
	roll	$12, %r12d
	xorl	16(%rsp), %eax                  # 4-byte Folded Reload
	roll	$20, %r15d
	andl	$252645135, %r12d               # imm = 0xF0F0F0F
	andl	$-252645136, %r15d              # imm = 0xF0F0F0F0
	xorl	%eax, %r13d
	movl	%eax, %r9d
	roll	$12, %eax
	roll	$20, %r9d
	orl	%r12d, %r15d
	andl	$252645135, %eax                # imm = 0xF0F0F0F
	andl	$-252645136, %r9d               # imm = 0xF0F0F0F0
	orl	%eax, %r9d
	movl	12(%rsp), %r11d                 # 4-byte Reload
	xorl	24(%rsp), %r11d                 # 4-byte Folded Reload
	movl	%r11d, 12(%rsp)                 # 4-byte Spill
	movl	%r10d, %r12d
	movl	%r10d, 4(%rsp)                  # 4-byte Spill
	movl	%r10d, %eax
	roll	$12, %eax
	roll	$20, %r12d
	andl	$252645135, %eax                # imm = 0xF0F0F0F
	andl	$-252645136, %r12d              # imm = 0xF0F0F0F0
	movl	%r11d, %edx
	roll	$12, %edx
	orl	%eax, %r12d
	movl	%r11d, %eax
	roll	$20, %eax
	andl	$252645135, %edx                # imm = 0xF0F0F0F
	andl	$-252645136, %eax               # imm = 0xF0F0F0F0
	orl	%edx, %eax
	movl	8(%rsp), %r10d                  # 4-byte Reload
	xorl	%ebp, %r10d
	movl	%r10d, %edx
	roll	$12, %edx
	movl	%r10d, %r11d
	roll	$20, %r11d
	andl	$252645135, %edx                # imm = 0xF0F0F0F
	andl	$-252645136, %r11d              # imm = 0xF0F0F0F0
	roll	$12, %edi
	roll	$20, %ecx
	orl	%edx, %r11d
	andl	$252645135, %edi                # imm = 0xF0F0F0F
	andl	$-252645136, %ecx               # imm = 0xF0F0F0F0
	orl	%edi, %ecx
	movq	48(%rsp), %rdx                  # 8-byte Reload
	movl	28(%rsp), %edi                  # 4-byte Reload
	xorl	-60(%rdx), %edi
	xorl	-56(%rdx), %ebx
	xorl	%edi, %esi
	xorl	%ebx, %r14d
	xorl	-52(%rdx), %r15d
	movl	20(%rsp), %edi                  # 4-byte Reload
	xorl	36(%rsp), %edi                  # 4-byte Folded Reload
	xorl	%r15d, %edi
	movl	%edi, %ebx
	xorl	-44(%rdx), %r12d
	xorl	%r12d, %r13d
	movl	12(%rsp), %edi                  # 4-byte Reload
	xorl	%ebp, %edi
	xorl	-36(%rdx), %r11d
	xorl	%r11d, %edi
	xorl	-32(%rdx), %ecx
	xorl	32(%rsp), %r10d                 # 4-byte Folded Reload
	xorl	%ecx, %r10d
	xorl	-40(%rdx), %eax
	movl	4(%rsp), %ecx                   # 4-byte Reload
	xorl	24(%rsp), %ecx                  # 4-byte Folded Reload
	xorl	%eax, %ecx
	xorl	%edi, %ecx
	movl	%edi, %eax
	movl	%r13d, %r11d
	xorl	%r10d, %r11d
	movl	%ecx, %edi
	movl	%ecx, %r12d
	xorl	%esi, %edi
	movl	%edi, 28(%rsp)                  # 4-byte Spill
	movl	%esi, %r15d
	movl	%edi, %ecx
	xorl	%r13d, %ecx
	movl	%ecx, %esi
	movl	%edi, %ecx
	xorl	%r14d, %ecx
	movl	%ecx, 24(%rsp)                  # 4-byte Spill
	xorl	%r10d, %r14d
	movl	%r10d, 8(%rsp)                  # 4-byte Spill
	xorl	%ebx, %r13d
	movl	%r14d, %ecx
	xorl	%r13d, %ecx
	movl	%r13d, 40(%rsp)                 # 4-byte Spill
	xorl	-48(%rdx), %r9d
	xorl	16(%rsp), %r8d                  # 4-byte Folded Reload
	xorl	%r9d, %r8d
	xorl	%ecx, %r8d
	movl	%ecx, 32(%rsp)                  # 4-byte Spill
	movl	%r8d, %edi
	xorl	%ebx, %edi
	xorl	%eax, %r8d
	xorl	%r10d, %ebx
	movl	%edi, %r9d
	andl	%ecx, %r9d
	movl	%edi, %eax
	xorl	%r12d, %eax
	movl	%eax, %edx
	movl	%eax, 16(%rsp)                  # 4-byte Spill
	movl	%eax, %ecx
	xorl	%r9d, %ecx
	xorl	%r8d, %r9d
	movl	%r8d, %ebp
	movl	%r11d, 60(%rsp)                 # 4-byte Spill
	xorl	%r11d, %ebp
	movl	%ebp, %eax
	andl	%r11d, %eax
	movl	%ebp, %r10d
	xorl	%edx, %r10d
	movl	%r10d, 36(%rsp)                 # 4-byte Spill
	movl	%r10d, %r8d
	andl	%r13d, %r8d
	movl	%ebx, 20(%rsp)                  # 4-byte Spill
	andl	%ebx, %edx
	xorl	%eax, %r8d
	xorl	%eax, %edx
	movl	%esi, %eax
	movl	%esi, %r13d
	andl	%r15d, %eax
	xorl	%ebx, %eax
	xorl	%eax, %ecx
	movl	%edi, %r10d
	xorl	%r15d, %r10d
	movl	24(%rsp), %r11d                 # 4-byte Reload
	movl	%r11d, %esi
	xorl	%ebx, %esi
	movl	%esi, 44(%rsp)                  # 4-byte Spill
	movl	%r10d, %eax
	andl	%esi, %eax
	xorl	%eax, %r9d
	movl	%ebp, 12(%rsp)                  # 4-byte Spill
	xorl	%ebp, %r12d
	movl	%r11d, %esi
	movl	28(%rsp), %ebx                  # 4-byte Reload
	andl	%ebx, %esi
	movl	%r12d, %eax
	andl	%r14d, %eax
	xorl	%r8d, %r9d
	xorl	%r12d, %esi
	movl	%r12d, %r11d
	movl	%r12d, 4(%rsp)                  # 4-byte Spill
	xorl	%eax, %esi
	xorl	%r14d, %esi
	xorl	%r8d, %esi
	movl	%ebx, %r12d
	movl	8(%rsp), %r8d                   # 4-byte Reload
	xorl	%r8d, %r12d
	xorl	%r8d, %eax
	xorl	%r15d, %ebp
	movl	%ebp, 72(%rsp)                  # 4-byte Spill
	andl	%r12d, %ebp
	xorl	%r11d, %ebp
	xorl	%ebp, %eax
	xorl	%edx, %ecx
	xorl	%edx, %eax
	movl	%esi, %ebp
	andl	%r9d, %ebp
	movl	%ebp, %edx
	xorl	%ecx, %edx
	movl	%eax, %r8d
	xorl	%esi, %r8d
	andl	%edx, %r8d
	xorl	%ecx, %r9d
	movl	%r8d, %ebx
	xorl	%ebp, %r8d
	xorl	%eax, %ebp
	movl	%ebp, %edx
	andl	%r9d, %edx
	xorl	%ecx, %edx
	xorl	%eax, %ebx
	andl	%eax, %r8d
	xorl	%r8d, %ebp
	andl	%edx, %ebp
	xorl	%r9d, %ebp
	xorl	%esi, %r8d
	andl	%ebx, %r13d
	movl	%r13d, 8(%rsp)                  # 4-byte Spill
	movl	%r8d, %r11d
	xorl	%ebx, %r11d
	movl	%edx, %r9d
	xorl	%ebx, %r9d
	andl	%r15d, %ebx
	movl	%ebp, %r13d
	xorl	%r11d, %r13d
	andl	%r9d, 12(%rsp)                  # 4-byte Folded Spill
	movl	%r13d, %esi
	xorl	%r9d, %esi
	andl	60(%rsp), %r9d                  # 4-byte Folded Reload
	movl	%ebp, %ecx
	xorl	%edx, %ecx
	andl	%ecx, 4(%rsp)                   # 4-byte Folded Spill
	andl	%r14d, %ecx
	movl	28(%rsp), %r14d                 # 4-byte Reload
	andl	%ebp, %r14d
	andl	24(%rsp), %ebp                  # 4-byte Folded Reload
	andl	%r11d, %r10d
	andl	44(%rsp), %r11d                 # 4-byte Folded Reload
	movl	40(%rsp), %eax                  # 4-byte Reload
	andl	%esi, %eax
	andl	36(%rsp), %esi                  # 4-byte Folded Reload
	andl	%edx, %r12d
	andl	72(%rsp), %edx                  # 4-byte Folded Reload
	andl	%r8d, %edi
	andl	32(%rsp), %r8d                  # 4-byte Folded Reload
	xorl	%edi, %r10d
	xorl	%ebx, %edi
	movl	4(%rsp), %ebx                   # 4-byte Reload
	xorl	%ebx, %r14d
	xorl	%edi, %edx
	xorl	%ebx, %edx
	xorl	%r9d, %eax
	xorl	%eax, %r11d
	xorl	%edx, %ebp
	xorl	%eax, %ebp
	xorl	%r14d, %esi
	xorl	%r14d, %r10d
	movl	16(%rsp), %eax                  # 4-byte Reload
	andl	%r13d, %eax
	xorl	%eax, %edi
	xorl	%ecx, %edi
	xorl	%esi, %edi
	xorl	12(%rsp), %esi                  # 4-byte Folded Reload
	xorl	%r11d, %r8d
	xorl	%edi, %r12d
	xorl	%r8d, %r10d
	xorl	%ebp, %edi
	xorl	%ecx, %ebp
	movl	%r10d, %r15d
	xorl	%esi, %r15d
	xorl	8(%rsp), %r11d                  # 4-byte Folded Reload
	xorl	%r10d, %edx
	andl	20(%rsp), %r13d                 # 4-byte Folded Reload
	xorl	%r12d, %r11d
	xorl	%esi, %r8d
	xorl	%r9d, %r13d
	movl	%ebp, %r9d
	roll	$24, %r9d
	xorl	%esi, %r13d
	movl	%edi, %eax
	roll	$24, %eax
	xorl	%r12d, %r13d
	movl	%r11d, %esi
	roll	$24, %esi
	movl	%r8d, %ecx
	roll	$24, %ecx
	xorl	%r9d, %ebp
	xorl	%ecx, %r8d
	movl	%ebp, %ebx
	roll	$16, %ebx
	movq	48(%rsp), %r14                  # 8-byte Reload
	xorl	-28(%r14), %ebx
	xorl	%r8d, %r9d
	xorl	%ebx, %r9d
	movl	%edx, %ebx
	roll	$24, %ebx
	xorl	%eax, %edi
	xorl	%eax, %ebp
	movl	%edi, %eax
	roll	$16, %eax
	xorl	%esi, %r11d
	xorl	-24(%r14), %eax
	xorl	%r8d, %ebp
	xorl	%eax, %ebp
	movl	%r11d, %eax
	roll	$16, %eax
	xorl	%esi, %edi
	xorl	-20(%r14), %eax
	xorl	%eax, %edi
	movl	%r10d, %esi
	roll	$24, %esi
	xorl	%ebx, %edx
	xorl	%esi, %r10d
	xorl	%r8d, %r11d
	xorl	%ebx, %r11d
	movl	%r8d, %eax
	xorl	%esi, %r8d
	movl	%r13d, %esi
	roll	$24, %esi
	xorl	%edx, %r8d
	roll	$16, %edx
	xorl	-16(%r14), %edx
	xorl	%edx, %r11d
	movl	%r10d, %edx
	roll	$16, %edx
	xorl	-12(%r14), %edx
	xorl	%edx, %r8d
	movl	%r15d, %edx
	roll	$24, %edx
	xorl	%esi, %r13d
	xorl	%edx, %r15d
	xorl	%esi, %r10d
	movl	%r13d, %esi
	roll	$16, %esi
	xorl	-8(%r14), %esi
	xorl	%esi, %r10d
	movl	%r15d, %esi
	roll	$16, %esi
	xorl	%edx, %r13d
	movq	%r14, %rdx
	xorl	-4(%r14), %esi
	xorl	%esi, %r13d
	roll	$16, %eax
	xorl	(%r14), %eax
	xorl	%ecx, %r15d
	movq	64(%rsp), %rcx                  # 8-byte Reload
	xorl	%eax, %r15d
	subq	$-128, %rdx
	movq	%rdx, 48(%rsp)                  # 8-byte Spill
	decq	%rcx
	jne	.Lgcm_v1_BB13_2
.Lgcm_v1_BB13_3:                               # %after.3.i
	xorl	%r13d, %r10d
	movl	%r15d, %ebx
	xorl	%r8d, %ebx
	movl	%r10d, %eax
	xorl	%r9d, %eax
	movl	%eax, 48(%rsp)                  # 4-byte Spill
	xorl	%r8d, %eax
	movl	%eax, %edx
	movl	%eax, 12(%rsp)                  # 4-byte Spill
	movl	%r15d, %r14d
	xorl	%ebp, %r14d
	movl	%r14d, 16(%rsp)                 # 4-byte Spill
	xorl	%edi, %r8d
	xorl	%r8d, %r14d
	xorl	%r14d, %r11d
	movl	%r14d, 64(%rsp)                 # 4-byte Spill
	movl	%r11d, %eax
	xorl	%edi, %eax
	movl	%eax, %esi
	xorl	%r13d, %r11d
	xorl	%r15d, %edi
	movl	%r11d, %ecx
	movl	%ebx, 32(%rsp)                  # 4-byte Spill
	xorl	%ebx, %ecx
	movl	%ecx, %eax
	movl	%ecx, %r12d
	andl	%ebx, %eax
	movl	%esi, %ecx
	movl	%esi, 20(%rsp)                  # 4-byte Spill
	xorl	%r10d, %ecx
	movl	%r12d, %ebx
	xorl	%ecx, %ebx
	movl	%ebx, 28(%rsp)                  # 4-byte Spill
	movl	%ecx, %r13d
	movl	%ebx, %ecx
	andl	%r8d, %ecx
	movl	%r13d, %ebx
	movl	%r13d, 24(%rsp)                 # 4-byte Spill
	andl	%edi, %ebx
	xorl	%eax, %ecx
	xorl	%eax, %ebx
	movl	%edx, %eax
	andl	%r9d, %eax
	movl	%esi, %edx
	andl	%r14d, %edx
	xorl	%edi, %eax
	xorl	%r13d, %eax
	xorl	%edx, %eax
	xorl	%r11d, %edx
	movl	48(%rsp), %r13d                 # 4-byte Reload
	xorl	%r13d, %ebp
	movl	%esi, %r11d
	xorl	%r9d, %r11d
	movl	%r11d, 4(%rsp)                  # 4-byte Spill
	movl	%ebp, %esi
	xorl	%edi, %esi
	movl	%esi, 36(%rsp)                  # 4-byte Spill
	andl	%esi, %r11d
	xorl	%r11d, %edx
	movl	%r12d, %r11d
	movl	%r12d, 8(%rsp)                  # 4-byte Spill
	xorl	%r12d, %r10d
	movl	%ebp, %r12d
	andl	%r13d, %r12d
	movl	%r13d, %esi
	movl	%r10d, %r13d
	movl	16(%rsp), %r14d                 # 4-byte Reload
	andl	%r14d, %r13d
	xorl	%ecx, %edx
	xorl	%r10d, %r12d
	xorl	%r13d, %r12d
	xorl	%r14d, %r12d
	xorl	%ecx, %r12d
	movl	%esi, %r14d
	xorl	%r15d, %r14d
	movl	%r14d, 44(%rsp)                 # 4-byte Spill
	xorl	%r15d, %r13d
	movl	%r11d, %ecx
	xorl	%r9d, %ecx
	movl	%ecx, 40(%rsp)                  # 4-byte Spill
	andl	%r14d, %ecx
	xorl	%r10d, %ecx
	xorl	%ecx, %r13d
	xorl	%ebx, %eax
	xorl	%ebx, %r13d
	movl	%r12d, %r11d
	andl	%edx, %r11d
	movl	%r11d, %ebx
	xorl	%eax, %ebx
	movl	%r13d, %r14d
	xorl	%r12d, %r14d
	andl	%ebx, %r14d
	xorl	%eax, %edx
	movl	%r14d, %r15d
	xorl	%r11d, %r14d
	xorl	%r13d, %r11d
	movl	%r11d, %ecx
	andl	%edx, %ecx
	xorl	%eax, %ecx
	xorl	%r13d, %r15d
	andl	%r13d, %r14d
	xorl	%r14d, %r11d
	andl	%ecx, %r11d
	xorl	%edx, %r11d
	xorl	%r12d, %r14d
	andl	%r15d, 12(%rsp)                 # 4-byte Folded Spill
	movl	%r14d, %r13d
	xorl	%r15d, %r13d
	movl	%ecx, %edx
	xorl	%r15d, %edx
	andl	%r9d, %r15d
	movl	%r11d, %r12d
	xorl	%r13d, %r12d
	andl	%edx, 8(%rsp)                   # 4-byte Folded Spill
	movl	%r12d, %r9d
	xorl	%edx, %r9d
	andl	32(%rsp), %edx                  # 4-byte Folded Reload
	movl	%r11d, %ebx
	xorl	%ecx, %ebx
	andl	%ebx, %r10d
	andl	16(%rsp), %ebx                  # 4-byte Folded Reload
	andl	%r11d, %esi
	movl	%esi, 48(%rsp)                  # 4-byte Spill
	andl	%ebp, %r11d
	movl	4(%rsp), %ebp                   # 4-byte Reload
	andl	%r13d, %ebp
	andl	36(%rsp), %r13d                 # 4-byte Folded Reload
	andl	%r9d, %r8d
	andl	28(%rsp), %r9d                  # 4-byte Folded Reload
	movl	44(%rsp), %eax                  # 4-byte Reload
	andl	%ecx, %eax
	andl	40(%rsp), %ecx                  # 4-byte Folded Reload
	movl	20(%rsp), %esi                  # 4-byte Reload
	andl	%r14d, %esi
	andl	64(%rsp), %r14d                 # 4-byte Folded Reload
	xorl	%esi, %ebp
	xorl	%r15d, %esi
	movl	48(%rsp), %r15d                 # 4-byte Reload
	xorl	%r10d, %r15d
	xorl	%esi, %ecx
	xorl	%r10d, %ecx
	xorl	%edx, %r8d
	xorl	%r8d, %r13d
	xorl	%ecx, %r11d
	xorl	%r8d, %r11d
	movl	%r15d, %r8d
	xorl	%r15d, %r9d
	movl	%ebp, %r15d
	xorl	%r8d, %r15d
	movl	24(%rsp), %r8d                  # 4-byte Reload
	andl	%r12d, %r8d
	xorl	%r13d, %r14d
	movl	%esi, %r10d
	xorl	%r8d, %r10d
	xorl	%ebx, %r10d
	xorl	%r9d, %r10d
	xorl	%r10d, %eax
	xorl	%r14d, %r15d
	xorl	%r11d, %r10d
	xorl	8(%rsp), %r9d                   # 4-byte Folded Reload
	movl	%r15d, %r8d
	xorl	%r9d, %r8d
	xorl	%ebx, %r11d
	xorl	12(%rsp), %r13d                 # 4-byte Folded Reload
	xorl	%r15d, %ecx
	andl	%edi, %r12d
	xorl	%eax, %r13d
	movl	%eax, %ebp
	xorl	%r9d, %r14d
	xorl	%edx, %r12d
	movl	%r11d, %eax
	roll	$22, %eax
	xorl	%r9d, %r12d
	movl	%r11d, %edx
	roll	$30, %edx
	xorl	%ebp, %r12d
	andl	$1061109567, %eax               # imm = 0x3F3F3F3F
	andl	$-1061109568, %edx              # imm = 0xC0C0C0C0
	orl	%eax, %edx
	movl	%edx, %ebx
	movl	%edx, 48(%rsp)                  # 4-byte Spill
	movl	%r10d, %eax
	roll	$22, %eax
	movl	%r10d, %ebp
	roll	$30, %ebp
	andl	$1061109567, %eax               # imm = 0x3F3F3F3F
	andl	$-1061109568, %ebp              # imm = 0xC0C0C0C0
	orl	%eax, %ebp
	movl	%r13d, %eax
	roll	$22, %eax
	movl	%r13d, %edi
	roll	$30, %edi
	andl	$1061109567, %eax               # imm = 0x3F3F3F3F
	andl	$-1061109568, %edi              # imm = 0xC0C0C0C0
	movl	%ecx, 64(%rsp)                  # 4-byte Spill
	movl	%ecx, %edx
	roll	$22, %edx
	orl	%eax, %edi
	movl	%edi, 32(%rsp)                  # 4-byte Spill
	movl	%ecx, %esi
	roll	$30, %esi
	andl	$1061109567, %edx               # imm = 0x3F3F3F3F
	movl	%r15d, 4(%rsp)                  # 4-byte Spill
	movl	%r15d, %eax
	roll	$22, %eax
	andl	$-1061109568, %esi              # imm = 0xC0C0C0C0
	roll	$30, %r15d
	orl	%edx, %esi
	movl	%esi, 12(%rsp)                  # 4-byte Spill
	andl	$1061109567, %eax               # imm = 0x3F3F3F3F
	andl	$-1061109568, %r15d             # imm = 0xC0C0C0C0
	orl	%eax, %r15d
	movl	%r12d, %eax
	roll	$22, %eax
	movl	%r12d, %ecx
	roll	$30, %ecx
	andl	$1061109567, %eax               # imm = 0x3F3F3F3F
	andl	$-1061109568, %ecx              # imm = 0xC0C0C0C0
	orl	%eax, %ecx
	movl	%ecx, 16(%rsp)                  # 4-byte Spill
	movl	%r8d, 28(%rsp)                  # 4-byte Spill
	movl	%r8d, %eax
	roll	$22, %eax
	movl	%r8d, %ecx
	roll	$30, %ecx
	andl	$1061109567, %eax               # imm = 0x3F3F3F3F
	andl	$-1061109568, %ecx              # imm = 0xC0C0C0C0
	movl	%r14d, %esi
	roll	$22, %esi
	orl	%eax, %ecx
	movl	%ecx, 24(%rsp)                  # 4-byte Spill
	movl	%r14d, %edx
	roll	$30, %edx
	andl	$1061109567, %esi               # imm = 0x3F3F3F3F
	andl	$-1061109568, %edx              # imm = 0xC0C0C0C0
	orl	%esi, %edx
	movl	%edx, 36(%rsp)                  # 4-byte Spill
	xorl	%ebx, %r11d
	xorl	%ebp, %r10d
	movl	%r10d, 20(%rsp)                 # 4-byte Spill
	movl	%r11d, %eax
	roll	$12, %eax
	movl	%r11d, %ebx
	roll	$20, %ebx
	andl	$252645135, %eax                # imm = 0xF0F0F0F
	andl	$-252645136, %ebx               # imm = 0xF0F0F0F0
	movl	%r10d, %esi
	roll	$12, %esi
	orl	%eax, %ebx
	roll	$20, %r10d
	andl	$252645135, %esi                # imm = 0xF0F0F0F
	andl	$-252645136, %r10d              # imm = 0xF0F0F0F0
	orl	%esi, %r10d
	xorl	%edi, %r13d
	movl	%r13d, %eax
	roll	$12, %eax
	movl	%r13d, %r8d
	roll	$20, %r8d
	andl	$252645135, %eax                # imm = 0xF0F0F0F
	andl	$-252645136, %r8d               # imm = 0xF0F0F0F0
	orl	%eax, %r8d
	xorl	%ebp, %r11d
	movl	4(%rsp), %ecx                   # 4-byte Reload
	xorl	%r15d, %ecx
	movl	%ecx, 4(%rsp)                   # 4-byte Spill
	xorl	%edx, %r14d
	movl	48(%rsp), %esi                  # 4-byte Reload
	xorl	%r14d, %esi
	xorl	%r14d, %r11d
	xorl	%r14d, %r13d
	movl	%r13d, 8(%rsp)                  # 4-byte Spill
	movl	%r14d, %r13d
	movl	%r14d, %r9d
	xorl	%r15d, %r14d
	movl	64(%rsp), %eax                  # 4-byte Reload
	xorl	12(%rsp), %eax                  # 4-byte Folded Reload
	xorl	%eax, %r14d
	movl	%r14d, 64(%rsp)                 # 4-byte Spill
	movl	%eax, %ebp
	movl	%eax, %r14d
	roll	$12, %r14d
	roll	$20, %ebp
	andl	$252645135, %r14d               # imm = 0xF0F0F0F
	andl	$-252645136, %ebp               # imm = 0xF0F0F0F0
	orl	%r14d, %ebp
	movl	%ecx, %eax
	roll	$12, %eax
	movl	%r12d, %edi
	xorl	16(%rsp), %edi                  # 4-byte Folded Reload
	movl	%ecx, %r14d
	roll	$20, %r14d
	andl	$252645135, %eax                # imm = 0xF0F0F0F
	movl	%edi, %r12d
	roll	$12, %r12d
	andl	$-252645136, %r14d              # imm = 0xF0F0F0F0
	movl	%edi, %ecx
	roll	$20, %ecx
	orl	%eax, %r14d
	andl	$252645135, %r12d               # imm = 0xF0F0F0F
	andl	$-252645136, %ecx               # imm = 0xF0F0F0F0
	orl	%r12d, %ecx
	movl	28(%rsp), %edx                  # 4-byte Reload
	xorl	24(%rsp), %edx                  # 4-byte Folded Reload
	movl	%edx, %r12d
	roll	$12, %r12d
	movl	%edx, %eax
	roll	$20, %eax
	andl	$252645135, %r12d               # imm = 0xF0F0F0F
	andl	$-252645136, %eax               # imm = 0xF0F0F0F0
	orl	%r12d, %eax
	roll	$12, %r13d
	roll	$20, %r9d
	andl	$252645135, %r13d               # imm = 0xF0F0F0F
	andl	$-252645136, %r9d               # imm = 0xF0F0F0F0
	orl	%r13d, %r9d
	movq	96(%rsp), %r13                  # 8-byte Reload
	andq	$-4, %r13
	movq	%r13, %r12
	shlq	$5, %r12
	movq	88(%rsp), %r15                  # 8-byte Reload
	xorl	32(%r15,%r12), %ebx
	xorl	%ebx, %esi
	movl	%esi, 48(%rsp)                  # 4-byte Spill
	movl	4(%rsp), %ebx                   # 4-byte Reload
	xorl	36(%r15,%r12), %r10d
	xorl	%r10d, %r11d
	movl	64(%rsp), %r10d                 # 4-byte Reload
	movl	20(%rsp), %esi                  # 4-byte Reload
	xorl	32(%rsp), %esi                  # 4-byte Folded Reload
	xorl	40(%r15,%r12), %r8d
	xorl	%r8d, %esi
	movl	8(%rsp), %r8d                   # 4-byte Reload
	xorl	12(%rsp), %r8d                  # 4-byte Folded Reload
	xorl	44(%r15,%r12), %ebp
	xorl	48(%r15,%r12), %r14d
	xorl	%ebp, %r8d
	movl	%r8d, 8(%rsp)                   # 4-byte Spill
	xorl	%r14d, %r10d
	movl	%r10d, %r8d
	xorl	52(%r15,%r12), %ecx
	xorl	16(%rsp), %ebx                  # 4-byte Folded Reload
	xorl	%ecx, %ebx
	xorl	56(%r15,%r12), %eax
	xorl	24(%rsp), %edi                  # 4-byte Folded Reload
	xorl	%eax, %edi
	xorl	60(%r15,%r12), %r9d
	xorl	36(%rsp), %edx                  # 4-byte Folded Reload
	xorl	%r9d, %edx
	orq	$2, %r13
	movq	80(%rsp), %r10                  # 8-byte Reload
	cmpq	%r10, %r13
	jae	.Lgcm_v1_BB13_5
# %bb.4:                                # %then.11.i
	xorl	%edi, %ebx
	movl	%r8d, %ecx
	xorl	%edx, %ecx
	movl	%ebx, %r15d
	movl	%ebx, 4(%rsp)                   # 4-byte Spill
	xorl	48(%rsp), %ebx                  # 4-byte Folded Reload
	movl	%ebx, %eax
	xorl	%r8d, %eax
	movl	%eax, %r9d
	movl	%eax, 16(%rsp)                  # 4-byte Spill
	movl	%ebx, %r13d
	movl	%r11d, %ebp
	xorl	%r11d, %r13d
	xorl	%edx, %ebp
	xorl	%esi, %r8d
	movl	%r8d, 64(%rsp)                  # 4-byte Spill
	movl	%ebp, %eax
	xorl	%r8d, %eax
	movl	8(%rsp), %r11d                  # 4-byte Reload
	xorl	%eax, %r11d
	movl	%eax, %r10d
	movl	%eax, 40(%rsp)                  # 4-byte Spill
	movl	%r11d, %eax
	xorl	%esi, %eax
	movl	%eax, %r14d
	xorl	%edi, %r11d
	xorl	%edx, %esi
	movl	%r11d, %eax
	movl	%ecx, 44(%rsp)                  # 4-byte Spill
	xorl	%ecx, %eax
	movl	%edx, 28(%rsp)                  # 4-byte Spill
	movl	%eax, %edx
	movl	%eax, %r12d
	andl	%ecx, %edx
	movl	%r14d, %eax
	movl	%r14d, %ecx
	movl	%r14d, 8(%rsp)                  # 4-byte Spill
	xorl	%r15d, %eax
	movl	%r12d, %r15d
	xorl	%eax, %r15d
	movl	%r15d, 36(%rsp)                 # 4-byte Spill
	movl	%esi, %edi
	movl	%r15d, %esi
	andl	%r8d, %esi
	movl	%eax, %r15d
	movl	%eax, 32(%rsp)                  # 4-byte Spill
	andl	%edi, %eax
	movl	%edi, %r14d
	movl	%edi, 20(%rsp)                  # 4-byte Spill
	xorl	%edx, %esi
	xorl	%edx, %eax
	movl	%r9d, %edi
	movl	48(%rsp), %r8d                  # 4-byte Reload
	andl	%r8d, %edi
	movl	%ecx, %edx
	andl	%r10d, %edx
	xorl	%r14d, %edi
	xorl	%edx, %r15d
	xorl	%edi, %r15d
	xorl	%r11d, %edx
	movl	%ecx, %edi
	movl	%r8d, %r11d
	xorl	%r8d, %edi
	movl	%edi, 12(%rsp)                  # 4-byte Spill
	movl	%r13d, %r8d
	movl	%r13d, 72(%rsp)                 # 4-byte Spill
	movl	%r13d, %ecx
	xorl	%r14d, %ecx
	movl	%ecx, 60(%rsp)                  # 4-byte Spill
	andl	%ecx, %edi
	xorl	%edi, %edx
	movl	%r12d, %edi
	movl	%r12d, 24(%rsp)                 # 4-byte Spill
	movl	4(%rsp), %ecx                   # 4-byte Reload
	xorl	%r12d, %ecx
	andl	%ebx, %r8d
	movl	%ecx, %r10d
	andl	%ebp, %r10d
	xorl	%esi, %edx
	xorl	%ecx, %r8d
	movl	%ecx, %r12d
	xorl	%r10d, %r8d
	xorl	%ebp, %r8d
	xorl	%esi, %r8d
	movl	%ebx, %r14d
	movl	28(%rsp), %ecx                  # 4-byte Reload
	xorl	%ecx, %r14d
	xorl	%ecx, %r10d
	movl	%edi, %esi
	xorl	%r11d, %esi
	movl	%esi, 4(%rsp)                   # 4-byte Spill
	andl	%r14d, %esi
	xorl	%r12d, %esi
	movl	%r12d, %ecx
	xorl	%esi, %r10d
	xorl	%eax, %r15d
	xorl	%eax, %r10d
	movl	%r8d, %r13d
	andl	%edx, %r13d
	movl	%r13d, %eax
	xorl	%r15d, %eax
	movl	%r10d, %edi
	xorl	%r8d, %edi
	andl	%eax, %edi
	xorl	%r15d, %edx
	movl	%edi, %eax
	xorl	%r13d, %edi
	xorl	%r10d, %r13d
	movl	%r13d, %esi
	andl	%edx, %esi
	xorl	%r15d, %esi
	xorl	%r10d, %eax
	andl	%r10d, %edi
	xorl	%edi, %r13d
	andl	%esi, %r13d
	xorl	%edx, %r13d
	xorl	%r8d, %edi
	andl	%eax, 16(%rsp)                  # 4-byte Folded Spill
	movl	%edi, %r11d
	xorl	%eax, %r11d
	movl	%esi, %r15d
	xorl	%eax, %r15d
	andl	48(%rsp), %eax                  # 4-byte Folded Reload
	movl	%r13d, %r12d
	xorl	%r11d, %r12d
	andl	%r15d, 24(%rsp)                 # 4-byte Folded Spill
	movl	%r12d, %r8d
	xorl	%r15d, %r8d
	andl	44(%rsp), %r15d                 # 4-byte Folded Reload
	movl	%r13d, %r10d
	xorl	%esi, %r10d
	movl	%ecx, %edx
	andl	%r10d, %edx
	andl	%ebp, %r10d
	andl	%r13d, %ebx
	andl	72(%rsp), %r13d                 # 4-byte Folded Reload
	movl	12(%rsp), %r9d                  # 4-byte Reload
	andl	%r11d, %r9d
	andl	60(%rsp), %r11d                 # 4-byte Folded Reload
	movl	64(%rsp), %ecx                  # 4-byte Reload
	andl	%r8d, %ecx
	andl	36(%rsp), %r8d                  # 4-byte Folded Reload
	andl	%esi, %r14d
	andl	4(%rsp), %esi                   # 4-byte Folded Reload
	movl	8(%rsp), %ebp                   # 4-byte Reload
	andl	%edi, %ebp
	andl	40(%rsp), %edi                  # 4-byte Folded Reload
	xorl	%ebp, %r9d
	xorl	%eax, %ebp
	xorl	%edx, %ebx
	xorl	%ebp, %esi
	xorl	%edx, %esi
	xorl	%r15d, %ecx
	xorl	%ecx, %r11d
	xorl	%esi, %r13d
	xorl	%ecx, %r13d
	xorl	%ebx, %r8d
	xorl	%ebx, %r9d
	movl	32(%rsp), %eax                  # 4-byte Reload
	andl	%r12d, %eax
	xorl	%eax, %ebp
	xorl	%r11d, %edi
	xorl	%r10d, %ebp
	xorl	%r8d, %ebp
	xorl	%ebp, %r14d
	xorl	%edi, %r9d
	xorl	%r13d, %ebp
	xorl	24(%rsp), %r8d                  # 4-byte Folded Reload
	movl	%r9d, %ebx
	xorl	%r8d, %ebx
	xorl	%r10d, %r13d
	xorl	16(%rsp), %r11d                 # 4-byte Folded Reload
	xorl	%r9d, %esi
	movl	%r9d, %edx
	andl	20(%rsp), %r12d                 # 4-byte Folded Reload
	xorl	%r14d, %r11d
	xorl	%r8d, %edi
	xorl	%r15d, %r12d
	xorl	%r8d, %r12d
	movl	%r13d, %eax
	roll	$20, %eax
	xorl	%r14d, %r12d
	movl	%r13d, %r14d
	roll	$28, %r14d
	andl	$252645135, %eax                # imm = 0xF0F0F0F
	movl	%ebp, %r15d
	movl	%ebp, 8(%rsp)                   # 4-byte Spill
	movl	%ebp, %ecx
	roll	$20, %ecx
	andl	$-252645136, %r14d              # imm = 0xF0F0F0F0
	roll	$28, %r15d
	orl	%eax, %r14d
	andl	$252645135, %ecx                # imm = 0xF0F0F0F
	andl	$-252645136, %r15d              # imm = 0xF0F0F0F0
	orl	%ecx, %r15d
	movl	%r11d, %eax
	roll	$20, %eax
	movl	%r11d, %r9d
	roll	$28, %r9d
	andl	$252645135, %eax                # imm = 0xF0F0F0F
	andl	$-252645136, %r9d               # imm = 0xF0F0F0F0
	orl	%eax, %r9d
	movl	%esi, %eax
	roll	$20, %eax
	movl	%esi, %r8d
	roll	$28, %r8d
	andl	$252645135, %eax                # imm = 0xF0F0F0F
	andl	$-252645136, %r8d               # imm = 0xF0F0F0F0
	movl	%edx, %r10d
	roll	$20, %r10d
	orl	%eax, %r8d
	movl	%r8d, 4(%rsp)                   # 4-byte Spill
	movl	%edx, %r8d
	roll	$28, %r8d
	andl	$252645135, %r10d               # imm = 0xF0F0F0F
	movl	%r12d, %eax
	roll	$20, %eax
	andl	$-252645136, %r8d               # imm = 0xF0F0F0F0
	movl	%r12d, %ecx
	roll	$28, %ecx
	orl	%r10d, %r8d
	andl	$252645135, %eax                # imm = 0xF0F0F0F
	andl	$-252645136, %ecx               # imm = 0xF0F0F0F0
	orl	%eax, %ecx
	movl	%ecx, 12(%rsp)                  # 4-byte Spill
	movl	%ebx, 48(%rsp)                  # 4-byte Spill
	movl	%ebx, %r10d
	roll	$20, %r10d
	movl	%ebx, %eax
	roll	$28, %eax
	andl	$252645135, %r10d               # imm = 0xF0F0F0F
	andl	$-252645136, %eax               # imm = 0xF0F0F0F0
	orl	%r10d, %eax
	movl	%edi, %r10d
	roll	$20, %r10d
	movl	%edi, %ecx
	roll	$28, %ecx
	andl	$252645135, %r10d               # imm = 0xF0F0F0F
	andl	$-252645136, %ecx               # imm = 0xF0F0F0F0
	orl	%r10d, %ecx
	movl	%ecx, 16(%rsp)                  # 4-byte Spill
	xorl	%r14d, %r13d
	xorl	%ecx, %edi
	movl	%r13d, %r10d
	roll	$16, %r10d
	movq	96(%rsp), %rcx                  # 8-byte Reload
	shlq	$5, %rcx
	movq	88(%rsp), %rbp                  # 8-byte Reload
	xorl	(%rbp,%rcx), %r10d
	xorl	%edi, %r14d
	xorl	%r10d, %r14d
	movl	%r14d, 20(%rsp)                 # 4-byte Spill
	movl	8(%rsp), %ebx                   # 4-byte Reload
	xorl	%r15d, %ebx
	movl	%ebx, %r10d
	roll	$16, %r10d
	xorl	%r15d, %r13d
	xorl	4(%rbp,%rcx), %r10d
	xorl	%edi, %r13d
	xorl	%r10d, %r13d
	xorl	%r9d, %r11d
	xorl	%r9d, %ebx
	movl	%edx, %r14d
	xorl	%r8d, %r14d
	xorl	%edi, %r8d
	movl	%edi, %r10d
	xorl	%r11d, %edi
	roll	$16, %r11d
	xorl	8(%rbp,%rcx), %r11d
	xorl	%r11d, %ebx
	movl	%r14d, %edx
	roll	$16, %edx
	xorl	4(%rsp), %esi                   # 4-byte Folded Reload
	xorl	16(%rbp,%rcx), %edx
	xorl	%esi, %r8d
	xorl	%edx, %r8d
	movl	12(%rsp), %r9d                  # 4-byte Reload
	xorl	%r9d, %r12d
	movl	48(%rsp), %r15d                 # 4-byte Reload
	xorl	%eax, %r15d
	movl	%r12d, %edx
	xorl	%eax, %r12d
	movl	%r15d, %eax
	roll	$16, %eax
	xorl	24(%rbp,%rcx), %eax
	xorl	%eax, %r12d
	roll	$16, %esi
	roll	$16, %edx
	roll	$16, %r10d
	xorl	28(%rbp,%rcx), %r10d
	xorl	16(%rsp), %r15d                 # 4-byte Folded Reload
	xorl	%r10d, %r15d
	xorl	20(%rbp,%rcx), %edx
	xorl	%r9d, %r14d
	xorl	%edx, %r14d
	xorl	%r12d, %r14d
	movl	%r15d, %r10d
	xorl	%r8d, %r10d
	movl	%r14d, %r11d
	xorl	20(%rsp), %r11d                 # 4-byte Folded Reload
	movl	%r11d, 60(%rsp)                 # 4-byte Spill
	xorl	%r8d, %r11d
	movl	%r11d, 16(%rsp)                 # 4-byte Spill
	movl	%r15d, %eax
	movl	%r15d, 48(%rsp)                 # 4-byte Spill
	xorl	%r13d, %eax
	movl	%eax, 24(%rsp)                  # 4-byte Spill
	xorl	%ebx, %r8d
	xorl	12(%rbp,%rcx), %esi
	xorl	%r8d, %eax
	movl	%r8d, 36(%rsp)                  # 4-byte Spill
	xorl	4(%rsp), %edi                   # 4-byte Folded Reload
	xorl	%esi, %edi
	xorl	%eax, %edi
	movl	%eax, %ecx
	movl	%eax, 28(%rsp)                  # 4-byte Spill
	movl	%edi, %eax
	xorl	%ebx, %eax
	movl	%eax, %edx
	xorl	%r12d, %edi
	xorl	%r15d, %ebx
	andl	%ecx, %eax
	movl	%edx, %ecx
	movl	%edx, %r9d
	movl	%edx, 4(%rsp)                   # 4-byte Spill
	xorl	%r14d, %ecx
	movl	%ecx, %edx
	movl	%ecx, 64(%rsp)                  # 4-byte Spill
	movl	%ecx, %r15d
	xorl	%eax, %r15d
	xorl	%edi, %eax
	movl	%edi, %ebp
	movl	%r10d, 44(%rsp)                 # 4-byte Spill
	xorl	%r10d, %ebp
	movl	%ebp, %esi
	andl	%r10d, %esi
	movl	%ebp, %ecx
	xorl	%edx, %ecx
	movl	%ecx, 32(%rsp)                  # 4-byte Spill
	andl	%r8d, %ecx
	movl	%ebx, %edi
	movl	%ebx, 8(%rsp)                   # 4-byte Spill
	andl	%ebx, %edx
	xorl	%esi, %ecx
	xorl	%esi, %edx
	movl	20(%rsp), %ebx                  # 4-byte Reload
	andl	%ebx, %r11d
	xorl	%edi, %r11d
	xorl	%r11d, %r15d
	movl	60(%rsp), %r11d                 # 4-byte Reload
	xorl	%r11d, %r13d
	movl	%r9d, %r10d
	xorl	%ebx, %r10d
	movl	%r13d, %r8d
	xorl	%edi, %r8d
	movl	%r8d, 40(%rsp)                  # 4-byte Spill
	movl	%r10d, %esi
	andl	%r8d, %esi
	xorl	%esi, %eax
	movl	%ebp, %r9d
	xorl	%ebp, %r14d
	movl	%r13d, %edi
	andl	%r11d, %edi
	movl	%r11d, %r8d
	movl	%r14d, %ebp
	movl	24(%rsp), %esi                  # 4-byte Reload
	andl	%esi, %ebp
	xorl	%ecx, %eax
	xorl	%r14d, %edi
	movl	%r14d, 12(%rsp)                 # 4-byte Spill
	xorl	%ebp, %edi
	xorl	%esi, %edi
	xorl	%ecx, %edi
	movl	48(%rsp), %ecx                  # 4-byte Reload
	xorl	%ecx, %r11d
	xorl	%ecx, %ebp
	movl	%r9d, %esi
	movl	%r9d, %ecx
	xorl	%ebx, %esi
	movl	%esi, 48(%rsp)                  # 4-byte Spill
	andl	%r11d, %esi
	xorl	%r14d, %esi
	xorl	%esi, %ebp
	xorl	%edx, %r15d
	xorl	%edx, %ebp
	movl	%edi, %r9d
	andl	%eax, %r9d
	movl	%r9d, %edx
	xorl	%r15d, %edx
	movl	%ebp, %esi
	xorl	%edi, %esi
	andl	%edx, %esi
	xorl	%r15d, %eax
	movl	%esi, %edx
	xorl	%r9d, %esi
	xorl	%ebp, %r9d
	movl	%r9d, %r12d
	andl	%eax, %r12d
	xorl	%r15d, %r12d
	xorl	%ebp, %edx
	andl	%ebp, %esi
	xorl	%esi, %r9d
	andl	%r12d, %r9d
	xorl	%eax, %r9d
	xorl	%edi, %esi
	andl	%edx, 16(%rsp)                  # 4-byte Folded Spill
	movl	%esi, %r14d
	xorl	%edx, %r14d
	movl	%r12d, %eax
	xorl	%edx, %eax
	andl	%ebx, %edx
	movl	%r9d, %ebp
	xorl	%r14d, %ebp
	andl	%eax, %ecx
	movl	%ecx, 20(%rsp)                  # 4-byte Spill
	movl	%ebp, %ebx
	xorl	%eax, %ebx
	andl	44(%rsp), %eax                  # 4-byte Folded Reload
	movl	%r9d, %r15d
	xorl	%r12d, %r15d
	movl	12(%rsp), %edi                  # 4-byte Reload
	andl	%r15d, %edi
	andl	24(%rsp), %r15d                 # 4-byte Folded Reload
	andl	%r9d, %r8d
	andl	%r13d, %r9d
	andl	%r14d, %r10d
	andl	40(%rsp), %r14d                 # 4-byte Folded Reload
	movl	36(%rsp), %r13d                 # 4-byte Reload
	andl	%ebx, %r13d
	andl	32(%rsp), %ebx                  # 4-byte Folded Reload
	andl	%r12d, %r11d
	andl	48(%rsp), %r12d                 # 4-byte Folded Reload
	movl	4(%rsp), %ecx                   # 4-byte Reload
	andl	%esi, %ecx
	andl	28(%rsp), %esi                  # 4-byte Folded Reload
	xorl	%ecx, %r10d
	xorl	%edx, %ecx
	xorl	%edi, %r8d
	xorl	%ecx, %r12d
	xorl	%edi, %r12d
	movl	%r13d, %edx
	xorl	%eax, %edx
	xorl	%edx, %r14d
	xorl	%r12d, %r9d
	xorl	%edx, %r9d
	xorl	%r8d, %ebx
	xorl	%r8d, %r10d
	movl	64(%rsp), %edx                  # 4-byte Reload
	andl	%ebp, %edx
	xorl	%r14d, %esi
	xorl	%edx, %ecx
	xorl	%r15d, %ecx
	xorl	%ebx, %ecx
	xorl	%ecx, %r11d
	xorl	%esi, %r10d
	xorl	%r9d, %ecx
	xorl	20(%rsp), %ebx                  # 4-byte Folded Reload
	movl	%r10d, %edx
	xorl	%ebx, %edx
	xorl	%r15d, %r9d
	xorl	16(%rsp), %r14d                 # 4-byte Folded Reload
	xorl	%r10d, %r12d
	andl	8(%rsp), %ebp                   # 4-byte Folded Reload
	xorl	%r11d, %r14d
	xorl	%ebx, %esi
	xorl	%eax, %ebp
	xorl	%ebx, %ebp
	xorl	%r11d, %ebp
	movl	%r9d, %eax
	roll	$18, %eax
	movl	%r9d, %r8d
	roll	$26, %r8d
	andl	$50529027, %eax                 # imm = 0x3030303
	andl	$-50529028, %r8d                # imm = 0xFCFCFCFC
	orl	%eax, %r8d
	movl	%ecx, %r11d
	movl	%ecx, 4(%rsp)                   # 4-byte Spill
	movl	%ecx, %eax
	roll	$18, %eax
	roll	$26, %r11d
	andl	$50529027, %eax                 # imm = 0x3030303
	andl	$-50529028, %r11d               # imm = 0xFCFCFCFC
	movl	%r14d, %ecx
	roll	$18, %ecx
	orl	%eax, %r11d
	movl	%r14d, %ebx
	roll	$26, %ebx
	andl	$50529027, %ecx                 # imm = 0x3030303
	movl	%r12d, %eax
	roll	$18, %eax
	andl	$-50529028, %ebx                # imm = 0xFCFCFCFC
	movl	%r12d, %r15d
	roll	$26, %r15d
	orl	%ecx, %ebx
	movl	%ebx, 28(%rsp)                  # 4-byte Spill
	andl	$50529027, %eax                 # imm = 0x3030303
	andl	$-50529028, %r15d               # imm = 0xFCFCFCFC
	orl	%eax, %r15d
	movl	%r15d, 8(%rsp)                  # 4-byte Spill
	movl	%r10d, 48(%rsp)                 # 4-byte Spill
	movl	%r10d, %eax
	roll	$18, %eax
	movl	%r10d, %r13d
	roll	$26, %r13d
	andl	$50529027, %eax                 # imm = 0x3030303
	andl	$-50529028, %r13d               # imm = 0xFCFCFCFC
	orl	%eax, %r13d
	movl	%ebp, %eax
	roll	$18, %eax
	movl	%ebp, %edi
	roll	$26, %edi
	andl	$50529027, %eax                 # imm = 0x3030303
	andl	$-50529028, %edi                # imm = 0xFCFCFCFC
	movl	%edx, %ecx
	movl	%edx, 12(%rsp)                  # 4-byte Spill
	roll	$18, %edx
	orl	%eax, %edi
	movl	%edi, 16(%rsp)                  # 4-byte Spill
	movl	%ecx, %edi
	roll	$26, %edi
	andl	$50529027, %edx                 # imm = 0x3030303
	movl	%esi, %eax
	roll	$18, %eax
	andl	$-50529028, %edi                # imm = 0xFCFCFCFC
	movl	%esi, %ecx
	roll	$26, %ecx
	orl	%edx, %edi
	movl	%edi, 24(%rsp)                  # 4-byte Spill
	andl	$50529027, %eax                 # imm = 0x3030303
	andl	$-50529028, %ecx                # imm = 0xFCFCFCFC
	orl	%eax, %ecx
	movl	%ecx, 32(%rsp)                  # 4-byte Spill
	xorl	%r8d, %r9d
	movl	%r8d, %r10d
	movl	%r9d, %edi
	roll	$12, %edi
	movl	4(%rsp), %edx                   # 4-byte Reload
	xorl	%r11d, %edx
	movl	%edx, 4(%rsp)                   # 4-byte Spill
	movl	%r9d, %eax
	roll	$20, %eax
	andl	$252645135, %edi                # imm = 0xF0F0F0F
	movl	%edx, %r8d
	roll	$12, %r8d
	andl	$-252645136, %eax               # imm = 0xF0F0F0F0
	roll	$20, %edx
	orl	%edi, %eax
	movl	%eax, 20(%rsp)                  # 4-byte Spill
	andl	$252645135, %r8d                # imm = 0xF0F0F0F
	andl	$-252645136, %edx               # imm = 0xF0F0F0F0
	orl	%r8d, %edx
	movl	%edx, 64(%rsp)                  # 4-byte Spill
	xorl	%ebx, %r14d
	movl	%r14d, %edi
	roll	$12, %edi
	movl	%r14d, %r15d
	roll	$20, %r15d
	andl	$252645135, %edi                # imm = 0xF0F0F0F
	andl	$-252645136, %r15d              # imm = 0xF0F0F0F0
	orl	%edi, %r15d
	xorl	%r11d, %r9d
	movl	48(%rsp), %eax                  # 4-byte Reload
	xorl	%r13d, %eax
	movl	%eax, 48(%rsp)                  # 4-byte Spill
	xorl	%ecx, %esi
	movl	%r10d, %ebx
	xorl	%esi, %ebx
	xorl	%esi, %r9d
	xorl	%esi, %r14d
	movl	%esi, %r11d
	movl	%esi, %r10d
	xorl	%r13d, %esi
	xorl	8(%rsp), %r12d                  # 4-byte Folded Reload
	xorl	%r12d, %esi
	movl	%r12d, %edi
	roll	$12, %edi
	roll	$20, %r12d
	andl	$252645135, %edi                # imm = 0xF0F0F0F
	andl	$-252645136, %r12d              # imm = 0xF0F0F0F0
	movl	%eax, %r8d
	roll	$12, %r8d
	orl	%edi, %r12d
	movl	%eax, %r13d
	roll	$20, %r13d
	andl	$252645135, %r8d                # imm = 0xF0F0F0F
	andl	$-252645136, %r13d              # imm = 0xF0F0F0F0
	orl	%r8d, %r13d
	xorl	16(%rsp), %ebp                  # 4-byte Folded Reload
	movl	12(%rsp), %ecx                  # 4-byte Reload
	xorl	24(%rsp), %ecx                  # 4-byte Folded Reload
	movl	%ecx, 12(%rsp)                  # 4-byte Spill
	movl	%ebp, %r8d
	roll	$12, %r8d
	movl	%ebp, %edi
	roll	$20, %edi
	andl	$252645135, %r8d                # imm = 0xF0F0F0F
	andl	$-252645136, %edi               # imm = 0xF0F0F0F0
	movl	%ecx, %eax
	roll	$12, %eax
	orl	%r8d, %edi
	movl	%ecx, %r8d
	roll	$20, %r8d
	andl	$252645135, %eax                # imm = 0xF0F0F0F
	andl	$-252645136, %r8d               # imm = 0xF0F0F0F0
	roll	$12, %r11d
	orl	%eax, %r8d
	roll	$20, %r10d
	andl	$252645135, %r11d               # imm = 0xF0F0F0F
	andl	$-252645136, %r10d              # imm = 0xF0F0F0F0
	movq	80(%rsp), %rax                  # 8-byte Reload
	shlq	$5, %rax
	movq	88(%rsp), %rcx                  # 8-byte Reload
	movl	20(%rsp), %edx                  # 4-byte Reload
	xorl	-32(%rcx,%rax), %edx
	orl	%r11d, %r10d
	movl	4(%rsp), %r11d                  # 4-byte Reload
	xorl	%edx, %ebx
	movl	%ebx, 20(%rsp)                  # 4-byte Spill
	movl	%ebp, %ebx
	movl	64(%rsp), %edx                  # 4-byte Reload
	xorl	-28(%rcx,%rax), %edx
	xorl	%edx, %r9d
	xorl	28(%rsp), %r11d                 # 4-byte Folded Reload
	xorl	-24(%rcx,%rax), %r15d
	xorl	%r15d, %r11d
	movl	12(%rsp), %r15d                 # 4-byte Reload
	xorl	8(%rsp), %r14d                  # 4-byte Folded Reload
	xorl	-20(%rcx,%rax), %r12d
	xorl	%r12d, %r14d
	xorl	-16(%rcx,%rax), %r13d
	xorl	%r13d, %esi
	movl	48(%rsp), %r12d                 # 4-byte Reload
	xorl	16(%rsp), %r12d                 # 4-byte Folded Reload
	xorl	-12(%rcx,%rax), %edi
	xorl	%edi, %r12d
	xorl	24(%rsp), %ebx                  # 4-byte Folded Reload
	xorl	-8(%rcx,%rax), %r8d
	xorl	%r8d, %ebx
	xorl	32(%rsp), %r15d                 # 4-byte Folded Reload
	movq	%rax, 80(%rsp)                  # 8-byte Spill
	xorl	-4(%rcx,%rax), %r10d
	xorl	%r10d, %r15d
	jmp	.Lgcm_v1_BB13_6
.Lgcm_v1_BB13_5:                               # %else.12.i
	movl	48(%rsp), %r9d                  # 4-byte Reload
	movl	%r9d, %eax
	shrl	$4, %eax
	xorl	%r9d, %eax
	andl	$251662080, %eax                # imm = 0xF000F00
	movl	%eax, %ecx
	shll	$4, %ecx
	orl	%eax, %ecx
	xorl	%r9d, %ecx
	movl	%ecx, 20(%rsp)                  # 4-byte Spill
	movl	%r11d, %eax
	shrl	$4, %eax
	xorl	%r11d, %eax
	andl	$251662080, %eax                # imm = 0xF000F00
	movl	%eax, %r9d
	shll	$4, %r9d
	orl	%eax, %r9d
	xorl	%r11d, %r9d
	movl	%esi, %eax
	shrl	$4, %eax
	xorl	%esi, %eax
	andl	$251662080, %eax                # imm = 0xF000F00
	movl	%eax, %r11d
	shll	$4, %r11d
	orl	%eax, %r11d
	xorl	%esi, %r11d
	movl	8(%rsp), %ecx                   # 4-byte Reload
	movl	%ecx, %eax
	shrl	$4, %eax
	xorl	%ecx, %eax
	andl	$251662080, %eax                # imm = 0xF000F00
	movl	%eax, %r14d
	shll	$4, %r14d
	orl	%eax, %r14d
	xorl	%ecx, %r14d
	movl	%r8d, %eax
	shrl	$4, %eax
	xorl	%r8d, %eax
	andl	$251662080, %eax                # imm = 0xF000F00
	movl	%eax, %esi
	shll	$4, %esi
	orl	%eax, %esi
	xorl	%r8d, %esi
	movl	%ebx, %eax
	shrl	$4, %eax
	xorl	%ebx, %eax
	andl	$251662080, %eax                # imm = 0xF000F00
	movl	%eax, %r12d
	shll	$4, %r12d
	orl	%eax, %r12d
	xorl	%ebx, %r12d
	movl	%edi, %eax
	shrl	$4, %eax
	xorl	%edi, %eax
	andl	$251662080, %eax                # imm = 0xF000F00
	movl	%eax, %ebx
	shll	$4, %ebx
	orl	%eax, %ebx
	xorl	%edi, %ebx
	movl	%edx, %eax
	shrl	$4, %eax
	xorl	%edx, %eax
	andl	$251662080, %eax                # imm = 0xF000F00
	movl	%eax, %ecx
	shll	$4, %ecx
	orl	%eax, %ecx
	xorl	%edx, %ecx
	shlq	$5, %r10
	movq	%r10, 80(%rsp)                  # 8-byte Spill
	movl	%ecx, %r15d
.Lgcm_v1_BB13_6:                               # %"aes_soft::soft::ciphers::planes::EncryptPlaneCipher::process_planes::<#49ec3a76f5e72ccf>.exit"
	xorl	%ebx, %r12d
	movl	%r15d, %edi
	xorl	%esi, %edi
	movl	%r12d, %ebp
	xorl	20(%rsp), %ebp                  # 4-byte Folded Reload
	movl	%ebp, %eax
	xorl	%esi, %eax
	movl	%eax, %r8d
	movl	%eax, 8(%rsp)                   # 4-byte Spill
	movl	%r15d, %eax
	xorl	%r9d, %eax
	movl	%eax, 12(%rsp)                  # 4-byte Spill
	xorl	%r11d, %esi
	movl	%esi, 32(%rsp)                  # 4-byte Spill
	xorl	%esi, %eax
	xorl	%eax, %r14d
	movl	%eax, %r10d
	movl	%eax, 28(%rsp)                  # 4-byte Spill
	movl	%r9d, %r13d
	movl	%r14d, %edx
	xorl	%ebx, %r14d
	xorl	%r11d, %edx
	xorl	%r15d, %r11d
	movl	%r11d, 4(%rsp)                  # 4-byte Spill
	movl	%r14d, %eax
	movl	%edi, 64(%rsp)                  # 4-byte Spill
	xorl	%edi, %eax
	movl	%eax, %ecx
	movl	%eax, %r9d
	andl	%edi, %ecx
	movl	%edx, %eax
	xorl	%r12d, %eax
	movl	%r9d, %edi
	movl	%r9d, %ebx
	xorl	%eax, %edi
	movl	%edi, 24(%rsp)                  # 4-byte Spill
	movl	%eax, %r9d
	andl	%esi, %edi
	movl	%eax, 16(%rsp)                  # 4-byte Spill
	andl	%r11d, %eax
	xorl	%ecx, %edi
	xorl	%ecx, %eax
	movl	20(%rsp), %esi                  # 4-byte Reload
	andl	%esi, %r8d
	movl	%edx, %ecx
	andl	%r10d, %ecx
	xorl	%r11d, %r8d
	xorl	%ecx, %r9d
	xorl	%r8d, %r9d
	xorl	%r14d, %ecx
	movl	%r13d, %r10d
	xorl	%ebp, %r10d
	movl	%r10d, 36(%rsp)                 # 4-byte Spill
	movl	%edx, %r14d
	xorl	%esi, %r14d
	movl	%r10d, %r13d
	xorl	%r11d, %r13d
	movl	%r13d, 44(%rsp)                 # 4-byte Spill
	movl	%r14d, %r8d
	andl	%r13d, %r8d
	xorl	%r8d, %ecx
	xorl	%ebx, %r12d
	andl	%ebp, %r10d
	movl	%r12d, %r11d
	movl	12(%rsp), %r8d                  # 4-byte Reload
	andl	%r8d, %r11d
	xorl	%edi, %ecx
	xorl	%r12d, %r10d
	xorl	%r11d, %r10d
	xorl	%r8d, %r10d
	xorl	%edi, %r10d
	movl	%r12d, 48(%rsp)                 # 4-byte Spill
	movl	%ebp, %r13d
	xorl	%r15d, %r13d
	xorl	%r15d, %r11d
	movl	%ebx, %edi
	xorl	%esi, %edi
	movl	%edi, 40(%rsp)                  # 4-byte Spill
	andl	%r13d, %edi
	xorl	%r12d, %edi
	xorl	%edi, %r11d
	xorl	%eax, %r9d
	xorl	%eax, %r11d
	movl	%r10d, %edi
	andl	%ecx, %edi
	movl	%edi, %r8d
	xorl	%r9d, %r8d
	movl	%r11d, %eax
	xorl	%r10d, %eax
	andl	%r8d, %eax
	xorl	%r9d, %ecx
	movl	%eax, %r12d
	xorl	%edi, %eax
	xorl	%r11d, %edi
	movl	%edi, %r8d
	andl	%ecx, %r8d
	xorl	%r9d, %r8d
	xorl	%r11d, %r12d
	andl	%r11d, %eax
	xorl	%eax, %edi
	andl	%r8d, %edi
	xorl	%ecx, %edi
	xorl	%r10d, %eax
	andl	%r12d, 8(%rsp)                  # 4-byte Folded Spill
	movl	%eax, %r10d
	xorl	%r12d, %r10d
	movl	%r8d, %r15d
	xorl	%r12d, %r15d
	andl	%esi, %r12d
	movl	%edi, %r9d
	xorl	%r10d, %r9d
	andl	%r15d, %ebx
	movl	%ebx, 20(%rsp)                  # 4-byte Spill
	movl	%r9d, %r11d
	xorl	%r15d, %r11d
	andl	64(%rsp), %r15d                 # 4-byte Folded Reload
	movl	%edi, %ecx
	xorl	%r8d, %ecx
	movl	48(%rsp), %ebx                  # 4-byte Reload
	andl	%ecx, %ebx
	andl	12(%rsp), %ecx                  # 4-byte Folded Reload
	andl	%edi, %ebp
	andl	36(%rsp), %edi                  # 4-byte Folded Reload
	andl	%r10d, %r14d
	andl	44(%rsp), %r10d                 # 4-byte Folded Reload
	movl	32(%rsp), %esi                  # 4-byte Reload
	andl	%r11d, %esi
	andl	24(%rsp), %r11d                 # 4-byte Folded Reload
	andl	%r8d, %r13d
	andl	40(%rsp), %r8d                  # 4-byte Folded Reload
	andl	%eax, %edx
	andl	28(%rsp), %eax                  # 4-byte Folded Reload
	xorl	%edx, %r14d
	xorl	%r12d, %edx
	xorl	%ebx, %ebp
	xorl	%edx, %r8d
	xorl	%ebx, %r8d
	xorl	%r15d, %esi
	xorl	%esi, %r10d
	xorl	%r8d, %edi
	xorl	%esi, %edi
	xorl	%ebp, %r11d
	xorl	%ebp, %r14d
	movl	16(%rsp), %esi                  # 4-byte Reload
	andl	%r9d, %esi
	xorl	%esi, %edx
	xorl	%ecx, %edx
	xorl	%r11d, %edx
	xorl	20(%rsp), %r11d                 # 4-byte Folded Reload
	andl	4(%rsp), %r9d                   # 4-byte Folded Reload
	xorl	%r10d, %eax
	xorl	%edx, %r13d
	xorl	%eax, %r14d
	movq	80(%rsp), %rbx                  # 8-byte Reload
	movq	88(%rsp), %r12                  # 8-byte Reload
	xorl	(%r12,%rbx), %ecx
	xorl	%edi, %ecx
	xorl	4(%r12,%rbx), %edx
	movl	8(%rsp), %esi                   # 4-byte Reload
	xorl	8(%r12,%rbx), %esi
	xorl	%edi, %edx
	xorl	%r10d, %esi
	xorl	12(%r12,%rbx), %r8d
	xorl	%r13d, %esi
	movl	%esi, %edi
	xorl	%r14d, %r8d
	movl	16(%r12,%rbx), %esi
	xorl	%r14d, %esi
	xorl	20(%r12,%rbx), %r9d
	xorl	%r11d, %r15d
	xorl	%r13d, %r15d
	xorl	%r9d, %r15d
	movl	24(%r12,%rbx), %r10d
	xorl	%r11d, %r10d
	xorl	%r14d, %r10d
	xorl	28(%r12,%rbx), %r11d
	xorl	%eax, %r11d
	movl	%ecx, %eax
	shrl	%eax
	xorl	%edx, %eax
	andl	$1431655765, %eax               # imm = 0x55555555
	leal	(%rax,%rax), %ebx
	movl	%edi, %r12d
	movl	%edi, %r9d
	shrl	%r9d
	xorl	%r8d, %r9d
	andl	$1431655765, %r9d               # imm = 0x55555555
	leal	(%r9,%r9), %r14d
	movl	%esi, %edi
	shrl	%edi
	xorl	%r15d, %edi
	andl	$1431655765, %edi               # imm = 0x55555555
	leal	(%rdi,%rdi), %ebp
	xorl	%ecx, %ebx
	movl	%r10d, %ecx
	shrl	%ecx
	xorl	%r11d, %ecx
	andl	$1431655765, %ecx               # imm = 0x55555555
	xorl	%r12d, %r14d
	leal	(%rcx,%rcx), %r13d
	xorl	%esi, %ebp
	xorl	%r10d, %r13d
	movl	%ebx, %r10d
	shrl	$2, %r10d
	xorl	%r14d, %r10d
	andl	$858993459, %r10d               # imm = 0x33333333
	leal	(,%r10,4), %r12d
	xorl	%r14d, %r10d
	xorl	%ebx, %r12d
	movl	%ebp, %esi
	shrl	$2, %esi
	xorl	%r13d, %esi
	andl	$858993459, %esi                # imm = 0x33333333
	leal	(,%rsi,4), %ebx
	xorl	%r13d, %esi
	xorl	%ebp, %ebx
	movd	%r10d, %xmm0
	shrl	$4, %r10d
	xorl	%esi, %r10d
	movd	%r10d, %xmm3
	movd	%r12d, %xmm1
	shrl	$4, %r12d
	xorl	%ebx, %r12d
	movd	%r12d, %xmm2
	movd	%esi, %xmm4
	movd	%ebx, %xmm5
	xorl	%edx, %eax
	xorl	%r8d, %r9d
	xorl	%r15d, %edi
	xorl	%r11d, %ecx
	movl	%eax, %edx
	shrl	$2, %edx
	xorl	%r9d, %edx
	andl	$858993459, %edx                # imm = 0x33333333
	leal	(,%rdx,4), %esi
	xorl	%r9d, %edx
	xorl	%eax, %esi
	movl	%edi, %eax
	shrl	$2, %eax
	xorl	%ecx, %eax
	andl	$858993459, %eax                # imm = 0x33333333
	leal	(,%rax,4), %r8d
	xorl	%ecx, %eax
	xorl	%edi, %r8d
	movd	%esi, %xmm6
	shrl	$4, %esi
	xorl	%r8d, %esi
	movd	%esi, %xmm7
	movd	%edx, %xmm8
	shrl	$4, %edx
	xorl	%eax, %edx
	movd	%edx, %xmm9
	movd	%r8d, %xmm10
	movd	%eax, %xmm11
	punpckldq	%xmm3, %xmm2            # xmm2 = xmm2[0],xmm3[0],xmm2[1],xmm3[1]
	movdqa	.Lgcm_v1_CPI13_0(%rip), %xmm3          # xmm3 = [252645135,252645135,u,u]
	pand	%xmm3, %xmm2
	movdqa	%xmm2, %xmm12
	pslld	$4, %xmm12
	punpcklqdq	%xmm2, %xmm12           # xmm12 = xmm12[0],xmm2[0]
	punpckldq	%xmm0, %xmm1            # xmm1 = xmm1[0],xmm0[0],xmm1[1],xmm0[1]
	punpckldq	%xmm4, %xmm5            # xmm5 = xmm5[0],xmm4[0],xmm5[1],xmm4[1]
	punpcklqdq	%xmm5, %xmm1            # xmm1 = xmm1[0],xmm5[0]
	pxor	%xmm12, %xmm1
	movq	104(%rsp), %rax                 # 8-byte Reload
	movdqu	%xmm1, (%rax)
	punpckldq	%xmm9, %xmm7            # xmm7 = xmm7[0],xmm9[0],xmm7[1],xmm9[1]
	pand	%xmm3, %xmm7
	movdqa	%xmm7, %xmm0
	pslld	$4, %xmm0
	punpcklqdq	%xmm7, %xmm0            # xmm0 = xmm0[0],xmm7[0]
	punpckldq	%xmm8, %xmm6            # xmm6 = xmm6[0],xmm8[0],xmm6[1],xmm8[1]
	punpckldq	%xmm11, %xmm10          # xmm10 = xmm10[0],xmm11[0],xmm10[1],xmm11[1]
	punpcklqdq	%xmm10, %xmm6           # xmm6 = xmm6[0],xmm10[0]
	pxor	%xmm0, %xmm6
	movdqu	%xmm6, 16(%rax)
	addq	$112, %rsp
	popq	%rbx
	popq	%r12
	popq	%r13
	popq	%r14
	popq	%r15
	popq	%rbp
	retq
	.seh_endproc
                                        # -- End function
	.def	gcm_v1.aes_cipher.zeroize.stack.wipe_stack.1024;
	.scl	3;
	.type	32;
	.endef
	.p2align	4                               # -- Begin function aes_cipher::zeroize::stack::wipe_stack::<=1024>
gcm_v1.aes_cipher.zeroize.stack.wipe_stack.1024: # @gcm_v1.aes_cipher.zeroize.stack.wipe_stack.1024
.seh_proc gcm_v1.aes_cipher.zeroize.stack.wipe_stack.1024
# %bb.0:                                # %start
	subq	$1064, %rsp                     # imm = 0x428
	.seh_stackalloc 1064
	.seh_endprologue
	#APP
	xorl	%edi, %edi
	xorl	%esi, %esi
	#NO_APP
	leaq	40(%rsp), %rcx
	movl	$1024, %r8d                     # imm = 0x400
	xorl	%edx, %edx
	callq	memset
	movq	$0, 32(%rsp)
	#APP
	#NO_APP
	movq	32(%rsp), %rax
	#APP
	#NO_APP
	cmpq	$1024, %rax                     # imm = 0x400
	jae	.Lgcm_v1_BB14_2
# %bb.1:                                # %then.1
	movzbl	40(%rsp,%rax), %eax
	#APP
	#NO_APP
	xchgq	%rax, 32(%rsp)
	#APP
	#NO_APP
.Lgcm_v1_BB14_2:                               # %common.ret
	addq	$1064, %rsp                     # imm = 0x428
	retq
	.seh_endproc
                                        # -- End function
	.def	gcm_v1.gcm.mode.BorrowedGcm.hash_so_far;
	.scl	3;
	.type	32;
	.endef
	.p2align	4                               # -- Begin function gcm::mode::BorrowedGcm::hash_so_far::<#c01aad2b5fbc92b1>
gcm_v1.gcm.mode.BorrowedGcm.hash_so_far: # @gcm_v1.gcm.mode.BorrowedGcm.hash_so_far
.seh_proc gcm_v1.gcm.mode.BorrowedGcm.hash_so_far
# %bb.0:                                # %start
	pushq	%r15
	.seh_pushreg %r15
	pushq	%r14
	.seh_pushreg %r14
	pushq	%r13
	.seh_pushreg %r13
	pushq	%r12
	.seh_pushreg %r12
	pushq	%rbx
	.seh_pushreg %rbx
	subq	$48, %rsp
	.seh_stackalloc 48
	.seh_endprologue
	movq	48(%rsi), %r13
	xorl	%eax, %eax
	cmpq	$1, 24(%rsi)
	setne	%al
	movq	(%rsi,%rax,8), %r12
	bswapq	%r13
	movq	56(%rsi), %rbx
	bswapq	%rbx
	andq	$15, %r12
	je	.Lgcm_v1_BB15_1
# %bb.2:                                # %join.3.i
	movq	(%rdi), %r14
	movq	8(%rdi), %r15
	bswapq	%r15
	bswapq	%r14
	addq	$64, %rsi
	movl	$16, %r8d
	subq	%r12, %r8
	leaq	(%rsp,%r12), %rcx
	addq	$32, %rcx
	xorl	%edx, %edx
	callq	memset
	leaq	32(%rsp), %rcx
	movq	%rsi, %rdx
	movq	%r12, %r8
	callq	memcpy
	movq	32(%rsp), %rsi
	movq	40(%rsp), %rdi
	bswapq	%rsi
	bswapq	%rdi
	xorq	%rbx, %rdi
	xorq	%r13, %rsi
	movq	%r15, %rdx
	movq	%r14, %rcx
	addq	$48, %rsp
	popq	%rbx
	popq	%r12
	popq	%r13
	popq	%r14
	popq	%r15
	jmp	gcm_v1.gcm.bitwise.product_bitwise # TAILCALL
.Lgcm_v1_BB15_1:                               # %"gcm::single_blocks::hash_singly::<#165deadc48559e33>.exit"
	movq	%rbx, %rax
	movq	%r13, %rdx
	addq	$48, %rsp
	popq	%rbx
	popq	%r12
	popq	%r13
	popq	%r14
	popq	%r15
	retq
	.seh_endproc
                                        # -- End function
	.def	gcm_v1.gcm.mode.put_subkey;
	.scl	3;
	.type	32;
	.endef
	.p2align	4                               # -- Begin function gcm::mode::put_subkey::<#107cc7d9d0728059>
gcm_v1.gcm.mode.put_subkey: # @gcm_v1.gcm.mode.put_subkey
.seh_proc gcm_v1.gcm.mode.put_subkey
# %bb.0:                                # %start
	pushq	%r14
	.seh_pushreg %r14
	pushq	%rbx
	.seh_pushreg %rbx
	subq	$24, %rsp
	.seh_stackalloc 24
	.seh_endprologue
	movq	%rdx, %rbx
	xorps	%xmm0, %xmm0
	movaps	%xmm0, (%rsp)
	movq	%rsp, %r14
	movl	$1, %ecx
	movq	%r14, %rdx
	callq	gcm_v1.aes_narrow.blocks.process_all_batches
	callq	gcm_v1.aes_cipher.zeroize.stack.wipe_stack.1024
	movq	(%rsp), %rax
	movq	8(%rsp), %rcx
	bswapq	%rcx
	bswapq	%rax
	movq	%rax, %xmm0
	movq	%rcx, %xmm1
	pxor	%xmm2, %xmm2
	punpcklbw	%xmm2, %xmm1            # xmm1 = xmm1[0],xmm2[0],xmm1[1],xmm2[1],xmm1[2],xmm2[2],xmm1[3],xmm2[3],xmm1[4],xmm2[4],xmm1[5],xmm2[5],xmm1[6],xmm2[6],xmm1[7],xmm2[7]
	pshufd	$78, %xmm1, %xmm1               # xmm1 = xmm1[2,3,0,1]
	pshuflw	$27, %xmm1, %xmm1               # xmm1 = xmm1[3,2,1,0,4,5,6,7]
	pshufhw	$27, %xmm1, %xmm1               # xmm1 = xmm1[0,1,2,3,7,6,5,4]
	punpcklbw	%xmm2, %xmm0            # xmm0 = xmm0[0],xmm2[0],xmm0[1],xmm2[1],xmm0[2],xmm2[2],xmm0[3],xmm2[3],xmm0[4],xmm2[4],xmm0[5],xmm2[5],xmm0[6],xmm2[6],xmm0[7],xmm2[7]
	pshufd	$78, %xmm0, %xmm0               # xmm0 = xmm0[2,3,0,1]
	pshuflw	$27, %xmm0, %xmm0               # xmm0 = xmm0[3,2,1,0,4,5,6,7]
	pshufhw	$27, %xmm0, %xmm0               # xmm0 = xmm0[0,1,2,3,7,6,5,4]
	packuswb	%xmm1, %xmm0
	movdqu	%xmm0, (%rbx)
	movq	%r14, %rdi
	callq	gcm_v1.aes_cipher.zeroize.elements.zeroize_elements.3
	nop
	addq	$24, %rsp
	popq	%rbx
	popq	%r14
	retq
	.seh_endproc
                                        # -- End function
	.def	gcm_v1.gcm.mode.BorrowedGcm.compare;
	.scl	3;
	.type	32;
	.endef
	.p2align	4                               # -- Begin function gcm::mode::BorrowedGcm::compare::<#c01aad2b5fbc92b1>
gcm_v1.gcm.mode.BorrowedGcm.compare: # @gcm_v1.gcm.mode.BorrowedGcm.compare
.seh_proc gcm_v1.gcm.mode.BorrowedGcm.compare
# %bb.0:                                # %start
	pushq	%rbp
	.seh_pushreg %rbp
	pushq	%r15
	.seh_pushreg %r15
	pushq	%r14
	.seh_pushreg %r14
	pushq	%r13
	.seh_pushreg %r13
	pushq	%r12
	.seh_pushreg %r12
	pushq	%rbx
	.seh_pushreg %rbx
	subq	$24, %rsp
	.seh_stackalloc 24
	.seh_endprologue
	movabsq	$-2305843009213693952, %r10     # imm = 0xE000000000000000
	leaq	(%rdx,%r10), %r11
	incq	%r10
	movb	$1, %al
	cmpq	%r10, %r11
	jb	.Lgcm_v1_BB17_3
# %bb.1:                                # %else.7
	movq	80(%rsp), %rbx
	movabsq	$68719476704, %r10              # imm = 0xFFFFFFFE0
	cmpq	%r10, %rbx
	seta	%r10b
	movq	%r8, %r11
	shrq	$61, %r11
	setne	%r11b
	orb	%r10b, %r11b
	jne	.Lgcm_v1_BB17_3
# %bb.2:                                # %after.1
	movq	96(%rsp), %rax
	movq	%rdi, %r12
	movq	%rcx, %r13
	movq	%rax, %rcx
	movq	%r9, %rbp
	movq	%r8, %r15
	callq	gcm_v1.gcm.mode.BorrowedGcm.put_pre_counter
	leaq	8(%rsp), %r14
	movq	%r14, (%rsp)
	movq	%r12, %rdi
	movq	96(%rsp), %rsi
	movq	%r13, %rdx
	movq	%r15, %rcx
	movq	%rbp, %r8
	movq	%rbx, %r9
	callq	gcm_v1.gcm.mode.BorrowedGcm.put_tag
	movq	88(%rsp), %rdi
	movq	%r14, %rsi
	callq	gcm_v1.aes_cipher.blocks.difference
	testl	%eax, %eax
	setne	%bl
	movq	%r14, %rdi
	callq	gcm_v1.aes_cipher.zeroize.elements.zeroize_elements.3
	movl	%ebx, %eax
.Lgcm_v1_BB17_3:                               # %return.13
	addq	$24, %rsp
	popq	%rbx
	popq	%r12
	popq	%r13
	popq	%r14
	popq	%r15
	popq	%rbp
	retq
	.seh_endproc
                                        # -- End function
	.def	gcm_v1.gcm.mode.BorrowedGcm.put_tag;
	.scl	3;
	.type	32;
	.endef
	.p2align	4                               # -- Begin function gcm::mode::BorrowedGcm::put_tag::<#c01aad2b5fbc92b1>
gcm_v1.gcm.mode.BorrowedGcm.put_tag: # @gcm_v1.gcm.mode.BorrowedGcm.put_tag
.seh_proc gcm_v1.gcm.mode.BorrowedGcm.put_tag
# %bb.0:                                # %start
	pushq	%rbp
	.seh_pushreg %rbp
	pushq	%r15
	.seh_pushreg %r15
	pushq	%r14
	.seh_pushreg %r14
	pushq	%r13
	.seh_pushreg %r13
	pushq	%r12
	.seh_pushreg %r12
	pushq	%rbx
	.seh_pushreg %rbx
	subq	$72, %rsp
	.seh_stackalloc 72
	.seh_endprologue
	movq	%r9, %r13
	movq	%r8, 56(%rsp)                   # 8-byte Spill
	movq	%rcx, %rbp
	movq	%rdx, %rbx
	movq	%rdi, %r15
	movq	128(%rsp), %rdx
	movups	(%rsi), %xmm0
	movups	%xmm0, (%rdx)
	movq	(%rdi), %rdi
	movq	8(%r15), %rsi
	movl	$1, %ecx
	callq	gcm_v1.aes_narrow.blocks.process_all_batches
	callq	gcm_v1.aes_cipher.zeroize.stack.wipe_stack.1024
	movq	16(%r15), %rax
	movq	(%rax), %r15
	movq	8(%rax), %r12
	bswapq	%r15
	bswapq	%r12
	movq	%rbp, %r14
	shrq	$4, %r14
	movq	%rbx, 64(%rsp)                  # 8-byte Spill
	je	.Lgcm_v1_BB18_1
# %bb.2:                                # %join.5.i.i.i.preheader
	xorl	%eax, %eax
	xorl	%edx, %edx
	.p2align	4
.Lgcm_v1_BB18_3:                               # %join.5.i.i.i
                                        # =>This Inner Loop Header: Depth=1
	movq	(%rbx), %rsi
	movq	8(%rbx), %rdi
	bswapq	%rsi
	xorq	%rdx, %rsi
	bswapq	%rdi
	xorq	%rax, %rdi
	movq	%r12, %rdx
	movq	%r15, %rcx
	callq	gcm_v1.gcm.bitwise.product_bitwise
	addq	$16, %rbx
	decq	%r14
	jne	.Lgcm_v1_BB18_3
# %bb.4:                                # %"gcm::single_blocks::hash_whole::<#165deadc48559e33>.exit.i.i"
	movq	%rbp, %rsi
	andq	$15, %rsi
	je	.Lgcm_v1_BB18_6
.Lgcm_v1_BB18_5:                               # %join.3.i.i
	movq	%rbp, %rcx
	andq	$-16, %rcx
	movq	64(%rsp), %rdi                  # 8-byte Reload
	addq	%rcx, %rdi
	movl	$16, %r8d
	subq	%rsi, %r8
	leaq	(%rsp,%rsi), %rcx
	addq	$40, %rcx
	movq	%rdx, %rbx
	xorl	%edx, %edx
	movq	%rax, %r14
	callq	memset
	leaq	40(%rsp), %rcx
	movq	%rdi, %rdx
	movq	%rsi, %r8
	callq	memcpy
	movq	40(%rsp), %rsi
	movq	48(%rsp), %rdi
	bswapq	%rsi
	bswapq	%rdi
	xorq	%r14, %rdi
	xorq	%rbx, %rsi
	movq	%r12, %rdx
	movq	%r15, %rcx
	callq	gcm_v1.gcm.bitwise.product_bitwise
.Lgcm_v1_BB18_6:                               # %"gcm::single_blocks::hash_singly::<#165deadc48559e33>.exit.i"
	movq	%r13, %rbx
	shrq	$4, %rbx
	je	.Lgcm_v1_BB18_9
# %bb.7:                                # %join.5.i.i16.i.preheader
	movq	56(%rsp), %r14                  # 8-byte Reload
	.p2align	4
.Lgcm_v1_BB18_8:                               # %join.5.i.i16.i
                                        # =>This Inner Loop Header: Depth=1
	movq	(%r14), %rsi
	movq	8(%r14), %rdi
	bswapq	%rsi
	xorq	%rdx, %rsi
	bswapq	%rdi
	xorq	%rax, %rdi
	movq	%r12, %rdx
	movq	%r15, %rcx
	callq	gcm_v1.gcm.bitwise.product_bitwise
	addq	$16, %r14
	decq	%rbx
	jne	.Lgcm_v1_BB18_8
.Lgcm_v1_BB18_9:                               # %"gcm::single_blocks::hash_whole::<#165deadc48559e33>.exit.i27.i"
	movq	%r13, %rsi
	andq	$15, %rsi
	je	.Lgcm_v1_BB18_11
# %bb.10:                               # %join.3.i31.i
	movq	%r13, %rcx
	andq	$-16, %rcx
	movq	56(%rsp), %rdi                  # 8-byte Reload
	addq	%rcx, %rdi
	movl	$16, %r8d
	subq	%rsi, %r8
	leaq	(%rsp,%rsi), %rcx
	addq	$40, %rcx
	movq	%rdx, %rbx
	xorl	%edx, %edx
	movq	%rax, %r14
	callq	memset
	leaq	40(%rsp), %rcx
	movq	%rdi, %rdx
	movq	%rsi, %r8
	callq	memcpy
	movq	40(%rsp), %rsi
	movq	48(%rsp), %rdi
	bswapq	%rsi
	bswapq	%rdi
	xorq	%r14, %rdi
	xorq	%rbx, %rsi
	movq	%r12, %rdx
	movq	%r15, %rcx
	callq	gcm_v1.gcm.bitwise.product_bitwise
.Lgcm_v1_BB18_11:                              # %"gcm::tags::hash::<#d9ba0fa9ccec4268>.exit"
	movl	%r13d, %ecx
	andl	$8160, %ecx                     # imm = 0x1FE0
	shlq	$43, %rcx
	movq	%r13, %rsi
	shlq	$59, %rsi
	orq	%rcx, %rsi
	movl	%r13d, %ecx
	andl	$2088960, %ecx                  # imm = 0x1FE000
	shlq	$27, %rcx
	orq	%rsi, %rcx
	movl	%r13d, %esi
	andl	$534773760, %esi                # imm = 0x1FE00000
	shlq	$11, %rsi
	orq	%rcx, %rsi
	movq	%r13, %rcx
	shrq	$5, %rcx
	andl	$-16777216, %ecx                # imm = 0xFF000000
	orq	%rsi, %rcx
	movq	%r13, %rsi
	shrq	$21, %rsi
	andl	$16711680, %esi                 # imm = 0xFF0000
	orq	%rcx, %rsi
	movq	%r13, %rcx
	shrq	$37, %rcx
	andl	$65280, %ecx                    # imm = 0xFF00
	orq	%rsi, %rcx
	shrq	$53, %r13
	movzbl	%r13b, %edi
	orq	%rcx, %rdi
	movl	%ebp, %ecx
	andl	$8160, %ecx                     # imm = 0x1FE0
	shlq	$43, %rcx
	movq	%rbp, %rsi
	shlq	$59, %rsi
	orq	%rcx, %rsi
	movl	%ebp, %ecx
	andl	$2088960, %ecx                  # imm = 0x1FE000
	shlq	$27, %rcx
	orq	%rsi, %rcx
	movl	%ebp, %esi
	andl	$534773760, %esi                # imm = 0x1FE00000
	shlq	$11, %rsi
	orq	%rcx, %rsi
	movq	%rbp, %rcx
	shrq	$5, %rcx
	andl	$-16777216, %ecx                # imm = 0xFF000000
	orq	%rsi, %rcx
	movq	%rbp, %rsi
	shrq	$21, %rsi
	andl	$16711680, %esi                 # imm = 0xFF0000
	orq	%rcx, %rsi
	movq	%rbp, %rcx
	shrq	$37, %rcx
	andl	$65280, %ecx                    # imm = 0xFF00
	orq	%rsi, %rcx
	shrq	$53, %rbp
	movzbl	%bpl, %esi
	orq	%rcx, %rsi
	bswapq	%rsi
	xorq	%rdx, %rsi
	bswapq	%rdi
	xorq	%rax, %rdi
	movq	%r12, %rdx
	movq	%r15, %rcx
	callq	gcm_v1.gcm.bitwise.product_bitwise
	movq	%rdx, %xmm0
	movq	%rax, %xmm1
	pxor	%xmm2, %xmm2
	punpcklbw	%xmm2, %xmm1            # xmm1 = xmm1[0],xmm2[0],xmm1[1],xmm2[1],xmm1[2],xmm2[2],xmm1[3],xmm2[3],xmm1[4],xmm2[4],xmm1[5],xmm2[5],xmm1[6],xmm2[6],xmm1[7],xmm2[7]
	pshufd	$78, %xmm1, %xmm1               # xmm1 = xmm1[2,3,0,1]
	pshuflw	$27, %xmm1, %xmm1               # xmm1 = xmm1[3,2,1,0,4,5,6,7]
	pshufhw	$27, %xmm1, %xmm1               # xmm1 = xmm1[0,1,2,3,7,6,5,4]
	punpcklbw	%xmm2, %xmm0            # xmm0 = xmm0[0],xmm2[0],xmm0[1],xmm2[1],xmm0[2],xmm2[2],xmm0[3],xmm2[3],xmm0[4],xmm2[4],xmm0[5],xmm2[5],xmm0[6],xmm2[6],xmm0[7],xmm2[7]
	pshufd	$78, %xmm0, %xmm0               # xmm0 = xmm0[2,3,0,1]
	pshuflw	$27, %xmm0, %xmm0               # xmm0 = xmm0[3,2,1,0,4,5,6,7]
	pshufhw	$27, %xmm0, %xmm0               # xmm0 = xmm0[0,1,2,3,7,6,5,4]
	packuswb	%xmm1, %xmm0
	movq	128(%rsp), %rax
	movdqu	(%rax), %xmm1
	pxor	%xmm0, %xmm1
	movdqu	%xmm1, (%rax)
	addq	$72, %rsp
	popq	%rbx
	popq	%r12
	popq	%r13
	popq	%r14
	popq	%r15
	popq	%rbp
	retq
.Lgcm_v1_BB18_1:
	xorl	%eax, %eax
	xorl	%edx, %edx
	movq	%rbp, %rsi
	andq	$15, %rsi
	jne	.Lgcm_v1_BB18_5
	jmp	.Lgcm_v1_BB18_6
	.seh_endproc
                                        # -- End function
	.def	gcm_v1.aes_cipher.blocks.difference;
	.scl	3;
	.type	32;
	.endef
	.p2align	4                               # -- Begin function aes_cipher::blocks::difference
gcm_v1.aes_cipher.blocks.difference:       # @gcm_v1.aes_cipher.blocks.difference
# %bb.0:                                # %start
	movdqu	(%rdi), %xmm0
	movdqu	(%rsi), %xmm1
	pxor	%xmm0, %xmm1
	pshufd	$238, %xmm1, %xmm0              # xmm0 = xmm1[2,3,2,3]
	por	%xmm1, %xmm0
	pshufd	$85, %xmm0, %xmm1               # xmm1 = xmm0[1,1,1,1]
	por	%xmm0, %xmm1
	movdqa	%xmm1, %xmm0
	psrld	$16, %xmm0
	por	%xmm1, %xmm0
	movdqa	%xmm0, %xmm1
	psrlw	$8, %xmm1
	por	%xmm0, %xmm1
	movd	%xmm1, %eax
	movzbl	%al, %eax
	retq
                                        # -- End function
	.def	gcm_v1.gcm.gctr.add_gctr;
	.scl	3;
	.type	32;
	.endef
	.p2align	4                               # -- Begin function gcm::gctr::add_gctr::<#099a9bc28799ce6c>
gcm_v1.gcm.gctr.add_gctr: # @gcm_v1.gcm.gctr.add_gctr
.seh_proc gcm_v1.gcm.gctr.add_gctr
# %bb.0:                                # %start
	pushq	%r15
	.seh_pushreg %r15
	pushq	%r14
	.seh_pushreg %r14
	pushq	%r12
	.seh_pushreg %r12
	pushq	%rbx
	.seh_pushreg %rbx
	subq	$56, %rsp
	.seh_stackalloc 56
	.seh_endprologue
	testq	%r8, %r8
	je	.Lgcm_v1_BB20_23
# %bb.1:                                # %then.1
	movdqu	(%rsi), %xmm0
	movdqa	%xmm0, 32(%rsp)
	movl	%edx, %r14d
	andl	$15, %r14d
	movl	$16, %eax
	subq	%r14, %rax
	cmpq	%rax, %r8
	jbe	.Lgcm_v1_BB20_2
# %bb.22:                               # %else.2.i
	leaq	32(%rsp), %rax
	movq	%rax, (%rsp)
	movq	%rdx, 8(%rsp)
	movq	%rcx, 16(%rsp)
	movq	%r8, 24(%rsp)
	movq	(%rdi), %rax
	movq	8(%rdi), %rsi
	movq	%rsp, %rdx
	movq	%rax, %rdi
	callq	gcm_v1.aes_narrow.borrowed_words.call_to_encrypt.1
	callq	gcm_v1.aes_cipher.zeroize.stack.wipe_stack.2032
	jmp	.Lgcm_v1_BB20_23
.Lgcm_v1_BB20_2:                               # %then.1.i
	movq	%r8, %r12
	movq	%rcx, %r15
	movq	%rdi, %rax
	movq	(%rdi), %rdi
	movq	8(%rax), %rsi
	movq	32(%rsp), %rax
	movq	40(%rsp), %rcx
	bswapq	%rax
	shrq	$4, %rdx
	bswapq	%rcx
	movabsq	$-4294967296, %r8               # imm = 0xFFFFFFFF00000000
	andq	%rcx, %r8
	addl	%ecx, %edx
	orq	%r8, %rdx
	movq	%rdx, %xmm0
	movq	%rax, %xmm1
	pxor	%xmm2, %xmm2
	punpcklbw	%xmm2, %xmm0            # xmm0 = xmm0[0],xmm2[0],xmm0[1],xmm2[1],xmm0[2],xmm2[2],xmm0[3],xmm2[3],xmm0[4],xmm2[4],xmm0[5],xmm2[5],xmm0[6],xmm2[6],xmm0[7],xmm2[7]
	pshufd	$78, %xmm0, %xmm0               # xmm0 = xmm0[2,3,0,1]
	pshuflw	$27, %xmm0, %xmm0               # xmm0 = xmm0[3,2,1,0,4,5,6,7]
	pshufhw	$27, %xmm0, %xmm0               # xmm0 = xmm0[0,1,2,3,7,6,5,4]
	punpcklbw	%xmm2, %xmm1            # xmm1 = xmm1[0],xmm2[0],xmm1[1],xmm2[1],xmm1[2],xmm2[2],xmm1[3],xmm2[3],xmm1[4],xmm2[4],xmm1[5],xmm2[5],xmm1[6],xmm2[6],xmm1[7],xmm2[7]
	pshufd	$78, %xmm1, %xmm1               # xmm1 = xmm1[2,3,0,1]
	pshuflw	$27, %xmm1, %xmm1               # xmm1 = xmm1[3,2,1,0,4,5,6,7]
	pshufhw	$27, %xmm1, %xmm1               # xmm1 = xmm1[0,1,2,3,7,6,5,4]
	packuswb	%xmm0, %xmm1
	movdqa	%xmm1, (%rsp)
	movq	%rsp, %rbx
	movl	$1, %ecx
	movq	%rbx, %rdx
	callq	gcm_v1.aes_narrow.blocks.process_all_batches
	callq	gcm_v1.aes_cipher.zeroize.stack.wipe_stack.1024
	testq	%r14, %r14
	je	.Lgcm_v1_BB20_3
# %bb.4:                                # %then.1.i.i.i
	movq	%r12, %rcx
	movl	%ecx, %edx
	andl	$3, %edx
	cmpq	$4, %r12
	jae	.Lgcm_v1_BB20_6
# %bb.5:
	xorl	%edi, %edi
	movq	%r15, %rax
	jmp	.Lgcm_v1_BB20_9
.Lgcm_v1_BB20_3:
	xorl	%esi, %esi
	movq	%r15, %rax
	movq	%r12, %rcx
	jmp	.Lgcm_v1_BB20_12
.Lgcm_v1_BB20_6:                               # %then.1.i.i.i.new
	movq	%rcx, %rsi
	andq	$-4, %rsi
	leaq	(%r14,%rbx), %r8
	addq	$3, %r8
	xorl	%edi, %edi
	movq	%r15, %rax
	.p2align	4
.Lgcm_v1_BB20_7:                               # %join.8.i68.i.i
                                        # =>This Inner Loop Header: Depth=1
	movzbl	-3(%r8,%rdi), %r9d
	xorb	%r9b, (%rax,%rdi)
	movzbl	-2(%r8,%rdi), %r9d
	xorb	%r9b, 1(%rax,%rdi)
	movzbl	-1(%r8,%rdi), %r9d
	xorb	%r9b, 2(%rax,%rdi)
	movzbl	(%r8,%rdi), %r9d
	xorb	%r9b, 3(%rax,%rdi)
	addq	$4, %rdi
	cmpq	%rdi, %rsi
	jne	.Lgcm_v1_BB20_7
# %bb.8:                                # %join.3.i.i.i.loopexit.unr-lcssa
	movq	%rcx, %rsi
	testq	%rdx, %rdx
	je	.Lgcm_v1_BB20_12
.Lgcm_v1_BB20_9:                               # %join.8.i68.i.i.epil.preheader
	leaq	(%rax,%rdi), %rsi
	addq	%r14, %rdi
	addq	%rsp, %rdi
	xorl	%r8d, %r8d
	.p2align	4
.Lgcm_v1_BB20_10:                              # %join.8.i68.i.i.epil
                                        # =>This Inner Loop Header: Depth=1
	movzbl	(%rdi,%r8), %r9d
	xorb	%r9b, (%rsi,%r8)
	incq	%r8
	cmpq	%r8, %rdx
	jne	.Lgcm_v1_BB20_10
# %bb.11:
	movq	%rcx, %rsi
.Lgcm_v1_BB20_12:                              # %join.3.i.i.i
	movq	%rcx, %rdx
	subq	%rsi, %rdx
	cmpq	$16, %rdx
	jb	.Lgcm_v1_BB20_14
	.p2align	4
.Lgcm_v1_BB20_13:                              # %join.8.i.i.i
                                        # =>This Inner Loop Header: Depth=1
	leaq	(%r14,%rsi), %rdi
	andq	$-16, %rdi
	movdqu	(%rax,%rsi), %xmm0
	pxor	(%rsp,%rdi), %xmm0
	movdqu	%xmm0, (%rax,%rsi)
	addq	$16, %rsi
	addq	$-16, %rdx
	cmpq	$15, %rdx
	ja	.Lgcm_v1_BB20_13
.Lgcm_v1_BB20_14:                              # %after.4.i.i.i
	cmpq	%rcx, %rsi
	jae	.Lgcm_v1_BB20_23
# %bb.15:                               # %then.9.i.i.i
	testq	%rdx, %rdx
	je	.Lgcm_v1_BB20_23
# %bb.16:                               # %iter.check
	addq	%rsi, %r14
	andq	$-16, %r14
	leaq	(%rsp,%r14), %rcx
	addq	%rsi, %rax
	cmpq	$4, %rdx
	jae	.Lgcm_v1_BB20_18
# %bb.17:
	xorl	%esi, %esi
	jmp	.Lgcm_v1_BB20_21
.Lgcm_v1_BB20_18:                              # %vec.epilog.ph
	movl	%edx, %esi
	andl	$12, %esi
	xorl	%edi, %edi
	.p2align	4
.Lgcm_v1_BB20_19:                              # %vec.epilog.vector.body
                                        # =>This Inner Loop Header: Depth=1
	movl	(%rcx,%rdi), %r8d
	xorl	%r8d, (%rax,%rdi)
	addq	$4, %rdi
	cmpq	%rdi, %rsi
	jne	.Lgcm_v1_BB20_19
.Lgcm_v1_BB20_20:                              # %vec.epilog.middle.block
	cmpq	%rsi, %rdx
	je	.Lgcm_v1_BB20_23
.Lgcm_v1_BB20_21:                              # %join.8.i11.i.i
	movzbl	(%rcx,%rsi), %edi
	xorb	%dil, (%rax,%rsi)
	incq	%rsi
	jmp	.Lgcm_v1_BB20_20
.Lgcm_v1_BB20_23:                              # %join.3
	addq	$56, %rsp
	popq	%rbx
	popq	%r12
	popq	%r14
	popq	%r15
	retq
	.seh_endproc
                                        # -- End function
	.def	gcm_v1.aes_narrow.borrowed_words.call_to_encrypt.1;
	.scl	3;
	.type	32;
	.endef
	.p2align	4                               # -- Begin function aes_narrow::borrowed_words::call_to_encrypt::<#1305835a18aa05db>
gcm_v1.aes_narrow.borrowed_words.call_to_encrypt.1: # @gcm_v1.aes_narrow.borrowed_words.call_to_encrypt.1
.seh_proc gcm_v1.aes_narrow.borrowed_words.call_to_encrypt.1
# %bb.0:                                # %start
	pushq	%rbp
	.seh_pushreg %rbp
	pushq	%r15
	.seh_pushreg %r15
	pushq	%r14
	.seh_pushreg %r14
	pushq	%r13
	.seh_pushreg %r13
	pushq	%r12
	.seh_pushreg %r12
	pushq	%rbx
	.seh_pushreg %rbx
	subq	$312, %rsp                      # imm = 0x138
	.seh_stackalloc 312
	.seh_endprologue
	movq	%rdi, 32(%rsp)
	movq	%rsi, 40(%rsp)
	movq	(%rdx), %rbx
	movq	8(%rdx), %r14
	movq	24(%rdx), %rbp
	movq	16(%rdx), %r12
	testb	$15, %r14b
	movq	%rsi, 24(%rsp)                  # 8-byte Spill
	movq	%rdi, 16(%rsp)                  # 8-byte Spill
	je	.Lgcm_v1_BB21_1
# %bb.2:                                # %then.1.i.i
	leaq	32(%rsp), %rdi
	movq	%rbx, %rsi
	movq	%r14, %rdx
	xorl	%ecx, %ecx
	movq	%r12, %r8
	movq	%rbp, %r9
	callq	gcm_v1.aes_ctr.add_in_batches.add_next.1
	movq	%rax, %r13
	jmp	.Lgcm_v1_BB21_3
.Lgcm_v1_BB21_1:
	xorl	%r13d, %r13d
.Lgcm_v1_BB21_3:                               # %join.3.i.i
	movq	%rbp, %r15
	subq	%r13, %r15
	cmpq	$32, %r15
	movq	%r14, 8(%rsp)                   # 8-byte Spill
	jb	.Lgcm_v1_BB21_6
# %bb.4:                                # %join.11.lr.ph.i.i
	leaq	80(%rsp), %r14
	.p2align	4
.Lgcm_v1_BB21_5:                               # %join.11.i.i
                                        # =>This Inner Loop Header: Depth=1
	movq	8(%rsp), %rax                   # 8-byte Reload
	addq	%r13, %rax
	shrq	$4, %rax
	pxor	%xmm0, %xmm0
	movdqa	%xmm0, 208(%r14)
	movdqa	%xmm0, 192(%r14)
	movdqa	%xmm0, 176(%r14)
	movdqa	%xmm0, 160(%r14)
	movdqa	%xmm0, 144(%r14)
	movdqa	%xmm0, 128(%r14)
	movdqa	%xmm0, 112(%r14)
	movdqa	%xmm0, 96(%r14)
	movdqa	%xmm0, 80(%r14)
	movdqa	%xmm0, 64(%r14)
	movdqa	%xmm0, 48(%r14)
	movdqa	%xmm0, 32(%r14)
	movdqa	%xmm0, 16(%r14)
	movdqa	%xmm0, (%r14)
	movq	(%rbx), %rsi
	movq	8(%rbx), %rcx
	bswapq	%rsi
	bswapq	%rcx
	movabsq	$-4294967296, %rdx              # imm = 0xFFFFFFFF00000000
	andq	%rcx, %rdx
	leal	(%rax,%rcx), %edi
	orq	%rdx, %rdi
	movq	%rdi, %xmm1
	punpcklbw	%xmm0, %xmm1            # xmm1 = xmm1[0],xmm0[0],xmm1[1],xmm0[1],xmm1[2],xmm0[2],xmm1[3],xmm0[3],xmm1[4],xmm0[4],xmm1[5],xmm0[5],xmm1[6],xmm0[6],xmm1[7],xmm0[7]
	pshufd	$78, %xmm1, %xmm1               # xmm1 = xmm1[2,3,0,1]
	pshuflw	$27, %xmm1, %xmm1               # xmm1 = xmm1[3,2,1,0,4,5,6,7]
	pshufhw	$27, %xmm1, %xmm1               # xmm1 = xmm1[0,1,2,3,7,6,5,4]
	movq	%rsi, %xmm2
	punpcklbw	%xmm0, %xmm2            # xmm2 = xmm2[0],xmm0[0],xmm2[1],xmm0[1],xmm2[2],xmm0[2],xmm2[3],xmm0[3],xmm2[4],xmm0[4],xmm2[5],xmm0[5],xmm2[6],xmm0[6],xmm2[7],xmm0[7]
	pshufd	$78, %xmm2, %xmm2               # xmm2 = xmm2[2,3,0,1]
	pshuflw	$27, %xmm2, %xmm2               # xmm2 = xmm2[3,2,1,0,4,5,6,7]
	pshufhw	$27, %xmm2, %xmm2               # xmm2 = xmm2[0,1,2,3,7,6,5,4]
	movdqa	%xmm2, %xmm3
	packuswb	%xmm1, %xmm3
	movdqa	%xmm3, 48(%rsp)
	addl	%ecx, %eax
	incl	%eax
	orq	%rdx, %rax
	movq	%rax, %xmm1
	punpcklbw	%xmm0, %xmm1            # xmm1 = xmm1[0],xmm0[0],xmm1[1],xmm0[1],xmm1[2],xmm0[2],xmm1[3],xmm0[3],xmm1[4],xmm0[4],xmm1[5],xmm0[5],xmm1[6],xmm0[6],xmm1[7],xmm0[7]
	pshufd	$78, %xmm1, %xmm0               # xmm0 = xmm1[2,3,0,1]
	pshuflw	$27, %xmm0, %xmm0               # xmm0 = xmm0[3,2,1,0,4,5,6,7]
	pshufhw	$27, %xmm0, %xmm0               # xmm0 = xmm0[0,1,2,3,7,6,5,4]
	packuswb	%xmm0, %xmm2
	movdqa	%xmm2, 64(%rsp)
	leaq	48(%rsp), %rdx
	movl	$2, %ecx
	movq	16(%rsp), %rdi                  # 8-byte Reload
	movq	24(%rsp), %rsi                  # 8-byte Reload
	callq	gcm_v1.aes_soft.soft.blocks.filled_up.process_filled_up
	movups	(%r12,%r13), %xmm0
	xorps	48(%rsp), %xmm0
	movups	16(%r12,%r13), %xmm1
	movups	%xmm0, (%r12,%r13)
	xorps	64(%rsp), %xmm1
	movups	%xmm1, 16(%r12,%r13)
	addq	$32, %r13
	addq	$-32, %r15
	cmpq	$31, %r15
	ja	.Lgcm_v1_BB21_5
.Lgcm_v1_BB21_6:                               # %loop.13.preheader.i.i
	cmpq	%rbp, %r13
	movq	8(%rsp), %r14                   # 8-byte Reload
	jae	.Lgcm_v1_BB21_8
	.p2align	4
.Lgcm_v1_BB21_7:                               # %join.16.i.i
                                        # =>This Inner Loop Header: Depth=1
	leaq	32(%rsp), %rdi
	movq	%rbx, %rsi
	movq	%r14, %rdx
	movq	%r13, %rcx
	movq	%r12, %r8
	movq	%rbp, %r9
	callq	gcm_v1.aes_ctr.add_in_batches.add_next.1
	movq	%rax, %r13
	cmpq	%rbp, %rax
	jb	.Lgcm_v1_BB21_7
.Lgcm_v1_BB21_8:                               # %"aes_ctr::add_in_batches::AddStreamBlockCipherEncClosure::call::<#5af79e2f176a0632>.exit"
	addq	$312, %rsp                      # imm = 0x138
	popq	%rbx
	popq	%r12
	popq	%r13
	popq	%r14
	popq	%r15
	popq	%rbp
	retq
	.seh_endproc
                                        # -- End function
	.def	gcm_v1.aes_ctr.add_in_batches.add_next.1;
	.scl	3;
	.type	32;
	.endef
	.p2align	4                               # -- Begin function aes_ctr::add_in_batches::add_next::<#8f445e75de4b0592>
gcm_v1.aes_ctr.add_in_batches.add_next.1: # @gcm_v1.aes_ctr.add_in_batches.add_next.1
.seh_proc gcm_v1.aes_ctr.add_in_batches.add_next.1
# %bb.0:                                # %start
	pushq	%r15
	.seh_pushreg %r15
	pushq	%r14
	.seh_pushreg %r14
	pushq	%r13
	.seh_pushreg %r13
	pushq	%r12
	.seh_pushreg %r12
	pushq	%rbx
	.seh_pushreg %rbx
	subq	$256, %rsp                      # imm = 0x100
	.seh_stackalloc 256
	.seh_endprologue
	movq	%r9, %r12
	movq	%r8, %r15
	movq	%rcx, %rbx
	addq	%rcx, %rdx
	movl	%edx, %r13d
	andl	$15, %r13d
	movl	$32, %eax
	subq	%r13, %rax
	movq	%r9, %r14
	subq	%rcx, %r14
	cmpq	%rax, %r14
	cmovaeq	%rax, %r14
	leal	(%r14,%r13), %ecx
	addl	$15, %ecx
	shrq	$4, %rdx
	pxor	%xmm0, %xmm0
	movdqa	%xmm0, 240(%rsp)
	movdqa	%xmm0, 224(%rsp)
	movdqa	%xmm0, 208(%rsp)
	movdqa	%xmm0, 192(%rsp)
	movdqa	%xmm0, 176(%rsp)
	movdqa	%xmm0, 160(%rsp)
	movdqa	%xmm0, 144(%rsp)
	movdqa	%xmm0, 128(%rsp)
	movdqa	%xmm0, 112(%rsp)
	movdqa	%xmm0, 96(%rsp)
	movdqa	%xmm0, 80(%rsp)
	movdqa	%xmm0, 64(%rsp)
	movdqa	%xmm0, 48(%rsp)
	movdqa	%xmm0, 32(%rsp)
	movq	(%rsi), %r8
	movq	8(%rsi), %rax
	bswapq	%r8
	bswapq	%rax
	movabsq	$-4294967296, %rsi              # imm = 0xFFFFFFFF00000000
	andq	%rax, %rsi
	leal	(%rdx,%rax), %r9d
	orq	%rsi, %r9
	movq	%r9, %xmm1
	punpcklbw	%xmm0, %xmm1            # xmm1 = xmm1[0],xmm0[0],xmm1[1],xmm0[1],xmm1[2],xmm0[2],xmm1[3],xmm0[3],xmm1[4],xmm0[4],xmm1[5],xmm0[5],xmm1[6],xmm0[6],xmm1[7],xmm0[7]
	pshufd	$78, %xmm1, %xmm1               # xmm1 = xmm1[2,3,0,1]
	pshuflw	$27, %xmm1, %xmm1               # xmm1 = xmm1[3,2,1,0,4,5,6,7]
	pshufhw	$27, %xmm1, %xmm1               # xmm1 = xmm1[0,1,2,3,7,6,5,4]
	movq	%r8, %xmm2
	punpcklbw	%xmm0, %xmm2            # xmm2 = xmm2[0],xmm0[0],xmm2[1],xmm0[1],xmm2[2],xmm0[2],xmm2[3],xmm0[3],xmm2[4],xmm0[4],xmm2[5],xmm0[5],xmm2[6],xmm0[6],xmm2[7],xmm0[7]
	pshufd	$78, %xmm2, %xmm2               # xmm2 = xmm2[2,3,0,1]
	pshuflw	$27, %xmm2, %xmm2               # xmm2 = xmm2[3,2,1,0,4,5,6,7]
	pshufhw	$27, %xmm2, %xmm2               # xmm2 = xmm2[0,1,2,3,7,6,5,4]
	movdqa	%xmm2, %xmm3
	packuswb	%xmm1, %xmm3
	movdqa	%xmm3, (%rsp)
	addl	%edx, %eax
	incl	%eax
	orq	%rsi, %rax
	movq	%rax, %xmm1
	punpcklbw	%xmm0, %xmm1            # xmm1 = xmm1[0],xmm0[0],xmm1[1],xmm0[1],xmm1[2],xmm0[2],xmm1[3],xmm0[3],xmm1[4],xmm0[4],xmm1[5],xmm0[5],xmm1[6],xmm0[6],xmm1[7],xmm0[7]
	pshufd	$78, %xmm1, %xmm0               # xmm0 = xmm1[2,3,0,1]
	pshuflw	$27, %xmm0, %xmm0               # xmm0 = xmm0[3,2,1,0,4,5,6,7]
	pshufhw	$27, %xmm0, %xmm0               # xmm0 = xmm0[0,1,2,3,7,6,5,4]
	packuswb	%xmm0, %xmm2
	movdqa	%xmm2, 16(%rsp)
	andl	$112, %ecx
	movq	(%rdi), %rax
	movq	8(%rdi), %rsi
	movq	%rsp, %rdx
	cmpl	$16, %ecx
	jne	.Lgcm_v1_BB22_2
# %bb.1:                                # %then.1.i.i.i
	movl	$1, %ecx
	jmp	.Lgcm_v1_BB22_3
.Lgcm_v1_BB22_2:                               # %else.2.i.i.i
	movl	$2, %ecx
.Lgcm_v1_BB22_3:                               # %"aes_ctr::keystream::fill_by_backend::<#8f445e75de4b0592>.exit"
	movq	%rax, %rdi
	callq	gcm_v1.aes_soft.soft.blocks.filled_up.process_filled_up
	leaq	(%r15,%rbx), %rax
	testq	%r13, %r13
	je	.Lgcm_v1_BB22_4
# %bb.5:                                # %then.1.i
	movl	$16, %ecx
	subq	%r13, %rcx
	cmpq	%rcx, %r14
	cmovbq	%r14, %rcx
	cmpq	%rbx, %r12
	je	.Lgcm_v1_BB22_13
# %bb.6:                                # %join.8.i80.lr.ph
	movl	%ecx, %edx
	andl	$3, %edx
	cmpq	$4, %rcx
	jae	.Lgcm_v1_BB22_8
# %bb.7:
	xorl	%esi, %esi
	jmp	.Lgcm_v1_BB22_11
.Lgcm_v1_BB22_4:
	xorl	%ecx, %ecx
	jmp	.Lgcm_v1_BB22_13
.Lgcm_v1_BB22_8:                               # %join.8.i80.lr.ph.new
	movl	%ecx, %edi
	andl	$28, %edi
	movq	%rsp, %rsi
	leaq	(%rsi,%r13), %r8
	addq	$3, %r8
	leaq	(%rbx,%r15), %r9
	addq	$3, %r9
	xorl	%esi, %esi
	.p2align	4
.Lgcm_v1_BB22_9:                               # %join.8.i80
                                        # =>This Inner Loop Header: Depth=1
	movzbl	-3(%r8,%rsi), %r10d
	xorb	%r10b, -3(%r9,%rsi)
	movzbl	-2(%r8,%rsi), %r10d
	xorb	%r10b, -2(%r9,%rsi)
	movzbl	-1(%r8,%rsi), %r10d
	xorb	%r10b, -1(%r9,%rsi)
	movzbl	(%r8,%rsi), %r10d
	xorb	%r10b, (%r9,%rsi)
	addq	$4, %rsi
	cmpq	%rsi, %rdi
	jne	.Lgcm_v1_BB22_9
# %bb.10:                               # %join.3.i.loopexit.unr-lcssa
	testq	%rdx, %rdx
	je	.Lgcm_v1_BB22_13
.Lgcm_v1_BB22_11:                              # %join.8.i80.epil.preheader
	leaq	(%rax,%rsi), %rdi
	addq	%r13, %rsi
	addq	%rsp, %rsi
	xorl	%r8d, %r8d
	.p2align	4
.Lgcm_v1_BB22_12:                              # %join.8.i80.epil
                                        # =>This Inner Loop Header: Depth=1
	movzbl	(%rsi,%r8), %r9d
	xorb	%r9b, (%rdi,%r8)
	incq	%r8
	cmpq	%r8, %rdx
	jne	.Lgcm_v1_BB22_12
.Lgcm_v1_BB22_13:                              # %join.3.i
	movq	%r14, %rdx
	subq	%rcx, %rdx
	cmpq	$16, %rdx
	jb	.Lgcm_v1_BB22_15
	.p2align	4
.Lgcm_v1_BB22_14:                              # %join.8.i
                                        # =>This Inner Loop Header: Depth=1
	leaq	(%rcx,%r13), %rsi
	andq	$-16, %rsi
	movdqu	(%rax,%rcx), %xmm0
	pxor	(%rsp,%rsi), %xmm0
	movdqu	%xmm0, (%rax,%rcx)
	addq	$16, %rcx
	addq	$-16, %rdx
	cmpq	$15, %rdx
	ja	.Lgcm_v1_BB22_14
.Lgcm_v1_BB22_15:                              # %after.4.i
	cmpq	%r14, %rcx
	jae	.Lgcm_v1_BB22_23
# %bb.16:                               # %then.9.i
	testq	%rdx, %rdx
	je	.Lgcm_v1_BB22_23
# %bb.17:                               # %iter.check
	addq	%rcx, %r13
	andq	$-16, %r13
	leaq	(%rsp,%r13), %rsi
	addq	%rcx, %rax
	cmpq	$4, %rdx
	jae	.Lgcm_v1_BB22_20
# %bb.18:
	xorl	%ecx, %ecx
	jmp	.Lgcm_v1_BB22_19
.Lgcm_v1_BB22_20:                              # %vec.epilog.ph
	movl	%edx, %ecx
	andl	$12, %ecx
	xorl	%edi, %edi
	.p2align	4
.Lgcm_v1_BB22_21:                              # %vec.epilog.vector.body
                                        # =>This Inner Loop Header: Depth=1
	movl	(%rsi,%rdi), %r8d
	xorl	%r8d, (%rax,%rdi)
	addq	$4, %rdi
	cmpq	%rdi, %rcx
	jne	.Lgcm_v1_BB22_21
	jmp	.Lgcm_v1_BB22_22
.Lgcm_v1_BB22_19:                              # %join.8.i23
	movzbl	(%rsi,%rcx), %edi
	xorb	%dil, (%rax,%rcx)
	incq	%rcx
.Lgcm_v1_BB22_22:                              # %join.8.i23
	cmpq	%rcx, %rdx
	jne	.Lgcm_v1_BB22_19
.Lgcm_v1_BB22_23:                              # %"aes_ctr::add_blocks::add_blocks.exit"
	addq	%rbx, %r14
	movq	%r14, %rax
	addq	$256, %rsp                      # imm = 0x100
	popq	%rbx
	popq	%r12
	popq	%r13
	popq	%r14
	popq	%r15
	retq
	.seh_endproc
                                        # -- End function
	.def	gcm_v1.aes_cipher.zeroize.stack.wipe_stack.2032;
	.scl	3;
	.type	32;
	.endef
	.p2align	4                               # -- Begin function aes_cipher::zeroize::stack::wipe_stack::<=2032>
gcm_v1.aes_cipher.zeroize.stack.wipe_stack.2032: # @gcm_v1.aes_cipher.zeroize.stack.wipe_stack.2032
.seh_proc gcm_v1.aes_cipher.zeroize.stack.wipe_stack.2032
# %bb.0:                                # %start
	subq	$2072, %rsp                     # imm = 0x818
	.seh_stackalloc 2072
	.seh_endprologue
	#APP
	xorl	%edi, %edi
	xorl	%esi, %esi
	#NO_APP
	leaq	40(%rsp), %rcx
	movl	$2032, %r8d                     # imm = 0x7F0
	xorl	%edx, %edx
	callq	memset
	movq	$0, 32(%rsp)
	#APP
	#NO_APP
	movq	32(%rsp), %rax
	#APP
	#NO_APP
	cmpq	$2032, %rax                     # imm = 0x7F0
	jae	.Lgcm_v1_BB23_2
# %bb.1:                                # %then.1
	movzbl	40(%rsp,%rax), %eax
	#APP
	#NO_APP
	xchgq	%rax, 32(%rsp)
	#APP
	#NO_APP
.Lgcm_v1_BB23_2:                               # %common.ret
	addq	$2072, %rsp                     # imm = 0x818
	retq
	.seh_endproc
                                        # -- End function
	.def	gcm_v1.aes_cipher.zeroize.stack.wipe_stack.1536;
	.scl	3;
	.type	32;
	.endef
	.p2align	4                               # -- Begin function aes_cipher::zeroize::stack::wipe_stack::<=1536>
gcm_v1.aes_cipher.zeroize.stack.wipe_stack.1536: # @gcm_v1.aes_cipher.zeroize.stack.wipe_stack.1536
.seh_proc gcm_v1.aes_cipher.zeroize.stack.wipe_stack.1536
# %bb.0:                                # %start
	subq	$1576, %rsp                     # imm = 0x628
	.seh_stackalloc 1576
	.seh_endprologue
	#APP
	xorl	%edi, %edi
	xorl	%esi, %esi
	#NO_APP
	leaq	40(%rsp), %rcx
	movl	$1536, %r8d                     # imm = 0x600
	xorl	%edx, %edx
	callq	memset
	movq	$0, 32(%rsp)
	#APP
	#NO_APP
	movq	32(%rsp), %rax
	#APP
	#NO_APP
	cmpq	$1536, %rax                     # imm = 0x600
	jae	.Lgcm_v1_BB24_2
# %bb.1:                                # %then.1
	movzbl	40(%rsp,%rax), %eax
	#APP
	#NO_APP
	xchgq	%rax, 32(%rsp)
	#APP
	#NO_APP
.Lgcm_v1_BB24_2:                               # %common.ret
	addq	$1576, %rsp                     # imm = 0x628
	retq
	.seh_endproc
                                        # -- End function
	.def	gcm_v1.gcm_c.whole.fotsgure_gcm_seal;
	.scl	3;
	.type	32;
	.endef
	.p2align	4                               # -- Begin function gcm_c::whole::fotsgure_gcm_seal
gcm_v1.gcm_c.whole.fotsgure_gcm_seal:      # @gcm_v1.gcm_c.whole.fotsgure_gcm_seal
.seh_proc gcm_v1.gcm_c.whole.fotsgure_gcm_seal
# %bb.0:                                # %start
	pushq	%rbp
	.seh_pushreg %rbp
	pushq	%r15
	.seh_pushreg %r15
	pushq	%r14
	.seh_pushreg %r14
	pushq	%r13
	.seh_pushreg %r13
	pushq	%r12
	.seh_pushreg %r12
	pushq	%rbx
	.seh_pushreg %rbx
	subq	$72, %rsp
	.seh_stackalloc 72
	.seh_endprologue
	movabsq	$-2305843009213693952, %r10     # imm = 0xE000000000000000
	leaq	(%rdx,%r10), %r11
	incq	%r10
	movl	$3, %eax
	cmpq	%r10, %r11
	jb	.Lgcm_v1_BB25_5
# %bb.1:                                # %after.1.i
	movq	128(%rsp), %rbx
	movabsq	$68719476704, %rax              # imm = 0xFFFFFFFE0
	cmpq	%rax, %rbx
	seta	%al
	movq	%r8, %r10
	shrq	$61, %r10
	setne	%r10b
	orb	%al, %r10b
	movl	$5, %eax
	jne	.Lgcm_v1_BB25_5
# %bb.2:                                # %after.11.i
	movl	(%rdi), %r10d
	movl	$2, %eax
	cmpq	$32, %r10
	ja	.Lgcm_v1_BB25_5
# %bb.3:                                # %after.11.i
	movabsq	$4311810048, %r11               # imm = 0x101010000
	btq	%r10, %r11
	jae	.Lgcm_v1_BB25_5
# %bb.4:                                # %join.3
	leaq	4(%rdi), %rax
	leaq	56(,%r10,2), %r10
	addq	$484, %rdi                      # imm = 0x1E4
	movq	%rax, 8(%rsp)
	movq	%r10, 16(%rsp)
	movq	%rdi, 24(%rsp)
	xorps	%xmm0, %xmm0
	movaps	%xmm0, 32(%rsp)
	leaq	8(%rsp), %r14
	leaq	32(%rsp), %r15
	movq	%r14, %rdi
	movq	%rcx, %r12
	movq	%r15, %rcx
	movq	%r9, %r13
	movq	%r8, %rbp
	callq	gcm_v1.gcm.mode.BorrowedGcm.put_pre_counter
	movl	$16, %edx
	movq	%r14, %rdi
	movq	%r15, %rsi
	movq	%r13, %rcx
	movq	%rbx, %r8
	callq	gcm_v1.gcm.gctr.add_gctr
	leaq	56(%rsp), %rax
	movq	%rax, (%rsp)
	movq	%r14, %rdi
	movq	%r15, %rsi
	movq	%r12, %rdx
	movq	%rbp, %rcx
	movq	%r13, %r8
	movq	%rbx, %r9
	callq	gcm_v1.gcm.mode.BorrowedGcm.put_tag
	movq	%r15, %rdi
	callq	gcm_v1.aes_cipher.zeroize.elements.zeroize_elements.3
	callq	gcm_v1.aes_cipher.zeroize.stack.wipe_stack.1536
	movups	56(%rsp), %xmm0
	movq	136(%rsp), %rax
	movups	%xmm0, (%rax)
	xorl	%eax, %eax
.Lgcm_v1_BB25_5:                               # %common.ret
	addq	$72, %rsp
	popq	%rbx
	popq	%r12
	popq	%r13
	popq	%r14
	popq	%r15
	popq	%rbp
	retq
	.seh_endproc
                                        # -- End function
	.def	gcm_v1.gcm_c.whole_to.copy;
	.scl	3;
	.type	32;
	.endef
	.p2align	4                               # -- Begin function gcm_c::whole_to::copy
gcm_v1.gcm_c.whole_to.copy:                # @gcm_v1.gcm_c.whole_to.copy
.seh_proc gcm_v1.gcm_c.whole_to.copy
# %bb.0:                                # %start
	subq	$40, %rsp
	.seh_stackalloc 40
	.seh_endprologue
	movq	%rdx, %rax
	subq	%rdi, %rax
	cmpq	%rsi, %rax
	jae	.Lgcm_v1_BB26_18
# %bb.1:                                # %iter.check
	cmpq	$4, %rsi
	setb	%cl
	cmpq	$32, %rax
	setb	%al
	orb	%cl, %al
	je	.Lgcm_v1_BB26_3
# %bb.2:
	xorl	%eax, %eax
	jmp	.Lgcm_v1_BB26_12
.Lgcm_v1_BB26_18:                              # %apart.2.i.i.i.i.i.i
	movq	%rdx, %rcx
	movq	%rdi, %rdx
	movq	%rsi, %r8
	callq	memmove
	nop
	addq	$40, %rsp
	retq
.Lgcm_v1_BB26_3:                               # %vector.main.loop.iter.check
	cmpq	$32, %rsi
	jae	.Lgcm_v1_BB26_5
# %bb.4:
	xorl	%eax, %eax
	jmp	.Lgcm_v1_BB26_9
.Lgcm_v1_BB26_5:                               # %vector.ph
	movq	%rsi, %rax
	andq	$-32, %rax
	xorl	%ecx, %ecx
	.p2align	4
.Lgcm_v1_BB26_6:                               # %vector.body
                                        # =>This Inner Loop Header: Depth=1
	movups	(%rdi,%rcx), %xmm0
	movups	16(%rdi,%rcx), %xmm1
	movups	%xmm0, (%rdx,%rcx)
	movups	%xmm1, 16(%rdx,%rcx)
	addq	$32, %rcx
	cmpq	%rcx, %rax
	jne	.Lgcm_v1_BB26_6
# %bb.7:                                # %middle.block
	cmpq	%rax, %rsi
	je	.Lgcm_v1_BB26_17
# %bb.8:                                # %vec.epilog.iter.check
	testb	$28, %sil
	je	.Lgcm_v1_BB26_12
.Lgcm_v1_BB26_9:                               # %vec.epilog.ph
	movq	%rax, %rcx
	movq	%rsi, %rax
	andq	$-4, %rax
	.p2align	4
.Lgcm_v1_BB26_10:                              # %vec.epilog.vector.body
                                        # =>This Inner Loop Header: Depth=1
	movl	(%rdi,%rcx), %r8d
	movl	%r8d, (%rdx,%rcx)
	addq	$4, %rcx
	cmpq	%rcx, %rax
	jne	.Lgcm_v1_BB26_10
# %bb.11:                               # %vec.epilog.middle.block
	cmpq	%rax, %rsi
	je	.Lgcm_v1_BB26_17
.Lgcm_v1_BB26_12:                              # %join.7.i.i.i.i.i.i.preheader
	movq	%rsi, %r8
	movq	%rax, %rcx
	andq	$3, %r8
	je	.Lgcm_v1_BB26_15
# %bb.13:                               # %join.7.i.i.i.i.i.i.prol.preheader
	movq	%rax, %rcx
	.p2align	4
.Lgcm_v1_BB26_14:                              # %join.7.i.i.i.i.i.i.prol
                                        # =>This Inner Loop Header: Depth=1
	movzbl	(%rdi,%rcx), %r9d
	movb	%r9b, (%rdx,%rcx)
	incq	%rcx
	decq	%r8
	jne	.Lgcm_v1_BB26_14
.Lgcm_v1_BB26_15:                              # %join.7.i.i.i.i.i.i.prol.loopexit
	subq	%rsi, %rax
	cmpq	$-4, %rax
	ja	.Lgcm_v1_BB26_17
	.p2align	4
.Lgcm_v1_BB26_16:                              # %join.7.i.i.i.i.i.i
                                        # =>This Inner Loop Header: Depth=1
	movzbl	(%rdi,%rcx), %eax
	movb	%al, (%rdx,%rcx)
	movzbl	1(%rdi,%rcx), %eax
	movb	%al, 1(%rdx,%rcx)
	movzbl	2(%rdi,%rcx), %eax
	movb	%al, 2(%rdx,%rcx)
	movzbl	3(%rdi,%rcx), %eax
	movb	%al, 3(%rdx,%rcx)
	addq	$4, %rcx
	cmpq	%rcx, %rsi
	jne	.Lgcm_v1_BB26_16
.Lgcm_v1_BB26_17:                              # %"core::slice::edits::slice+T::copy_from_slice::<i8,20'core::clone::U8Clone{}>.exit"
	addq	$40, %rsp
	retq
	.seh_endproc
                                        # -- End function
	.def	gcm_v1.gcm_siv.course.open_in;
	.scl	3;
	.type	32;
	.endef
	.p2align	4                               # -- Begin function gcm_siv::course::open_in::<#a4ece9b7a9859b66>
gcm_v1.gcm_siv.course.open_in: # @gcm_v1.gcm_siv.course.open_in
.seh_proc gcm_v1.gcm_siv.course.open_in
# %bb.0:                                # %start
	pushq	%rbp
	.seh_pushreg %rbp
	pushq	%r15
	.seh_pushreg %r15
	pushq	%r14
	.seh_pushreg %r14
	pushq	%r13
	.seh_pushreg %r13
	pushq	%r12
	.seh_pushreg %r12
	pushq	%rbx
	.seh_pushreg %rbx
	subq	$536, %rsp                      # imm = 0x218
	.seh_stackalloc 536
	.seh_endprologue
	movq	%r9, %rbx
	movq	%r8, %r15
	movq	%rcx, %r12
	movq	%rdx, %r13
	leaq	56(%rsp), %rcx
	movl	$480, %r8d                      # imm = 0x1E0
	xorl	%edx, %edx
	callq	memset
	movl	$0, 52(%rsp)
	leaq	52(%rsp), %rbp
	leaq	36(%rsp), %r14
	movq	%r13, %rdx
	movq	%rbp, %rcx
	movq	%r14, %r8
	callq	gcm_v1.gcm_siv.keys.derive_and_prepare
	movaps	592(%rsp), %xmm0
	movups	%xmm0, (%rsp)
	movq	%rbp, %rdi
	movq	%r14, %rsi
	movq	%r13, %rdx
	movq	%r12, %rcx
	movq	%r15, %r8
	movq	%rbx, %r9
	callq	gcm_v1.gcm_siv.message.open
	movl	%eax, %ebx
	movl	$0, 52(%rsp)
	leaq	56(%rsp), %rdi
	callq	gcm_v1.aes_cipher.zeroize.elements.zeroize_elements.1
	movq	%r14, %rdi
	callq	gcm_v1.aes_cipher.zeroize.elements.zeroize_elements.2
	callq	gcm_v1.aes_cipher.zeroize.stack.wipe_stack.2816
	movl	%ebx, %eax
	addq	$536, %rsp                      # imm = 0x218
	popq	%rbx
	popq	%r12
	popq	%r13
	popq	%r14
	popq	%r15
	popq	%rbp
	retq
	.seh_endproc
                                        # -- End function
	.def	gcm_v1.gcm_siv.keys.derive_and_prepare;
	.scl	3;
	.type	32;
	.endef
	.p2align	4                               # -- Begin function gcm_siv::keys::derive_and_prepare::<#a4ece9b7a9859b66>
gcm_v1.gcm_siv.keys.derive_and_prepare: # @gcm_v1.gcm_siv.keys.derive_and_prepare
.seh_proc gcm_v1.gcm_siv.keys.derive_and_prepare
# %bb.0:                                # %start
	pushq	%r15
	.seh_pushreg %r15
	pushq	%r14
	.seh_pushreg %r14
	pushq	%r12
	.seh_pushreg %r12
	pushq	%rbx
	.seh_pushreg %rbx
	subq	$136, %rsp
	.seh_stackalloc 136
	.seh_endprologue
	movq	%r8, %r15
	movq	%rcx, %rbx
	movq	%rsi, %r14
	movl	8(%rdx), %eax
	movl	%eax, 52(%rsp)
	movq	(%rdx), %rax
	movq	%rax, 44(%rsp)
	movl	8(%rdx), %eax
	movl	%eax, 68(%rsp)
	movq	(%rdx), %rax
	movq	%rax, 60(%rsp)
	movl	8(%rdx), %eax
	movl	%eax, 84(%rsp)
	movq	(%rdx), %rax
	movq	%rax, 76(%rsp)
	movl	8(%rdx), %eax
	movl	%eax, 100(%rsp)
	movq	(%rdx), %rax
	movq	%rax, 92(%rsp)
	movq	(%rdx), %rax
	movq	%rax, 108(%rsp)
	movl	8(%rdx), %eax
	movl	%eax, 116(%rsp)
	movq	(%rdx), %rax
	movq	%rax, 124(%rsp)
	movl	8(%rdx), %eax
	movl	%eax, 132(%rsp)
	movl	$0, 40(%rsp)
	leaq	56(%rsp), %r12
	movl	$1, 56(%rsp)
	movl	$2, 72(%rsp)
	movl	$3, 88(%rsp)
	movl	$4, 104(%rsp)
	movl	$5, 120(%rsp)
	movq	%rsi, %rcx
	shrq	$3, %rcx
	addq	$2, %rcx
	movq	(%rdi), %rax
	movq	8(%rdi), %rsi
	leaq	40(%rsp), %rdx
	movq	%rax, %rdi
	callq	gcm_v1.aes_narrow.blocks.process_all_batches
	callq	gcm_v1.aes_cipher.zeroize.stack.wipe_stack.1024
	movq	40(%rsp), %rax
	movq	56(%rsp), %rcx
	movq	%rcx, 48(%rsp)
	movq	72(%rsp), %rdx
	movq	88(%rsp), %rsi
	movq	%rdx, 56(%rsp)
	movq	%rsi, 64(%rsp)
	movq	104(%rsp), %rdx
	movq	120(%rsp), %rsi
	movq	%rdx, 72(%rsp)
	movq	%rsi, 80(%rsp)
	movq	%rcx, %rdx
	shldq	$63, %rax, %rdx
	shrq	%rcx
	andl	$1, %eax
	negq	%rax
	movabsq	$-2233785415175766016, %rsi     # imm = 0xE100000000000000
	andq	%rax, %rsi
	xorq	%rcx, %rsi
	movq	%rsi, %xmm0
	movq	%rdx, %xmm1
	pxor	%xmm2, %xmm2
	punpcklbw	%xmm2, %xmm1            # xmm1 = xmm1[0],xmm2[0],xmm1[1],xmm2[1],xmm1[2],xmm2[2],xmm1[3],xmm2[3],xmm1[4],xmm2[4],xmm1[5],xmm2[5],xmm1[6],xmm2[6],xmm1[7],xmm2[7]
	pshufd	$78, %xmm1, %xmm1               # xmm1 = xmm1[2,3,0,1]
	pshuflw	$27, %xmm1, %xmm1               # xmm1 = xmm1[3,2,1,0,4,5,6,7]
	pshufhw	$27, %xmm1, %xmm1               # xmm1 = xmm1[0,1,2,3,7,6,5,4]
	punpcklbw	%xmm2, %xmm0            # xmm0 = xmm0[0],xmm2[0],xmm0[1],xmm2[1],xmm0[2],xmm2[2],xmm0[3],xmm2[3],xmm0[4],xmm2[4],xmm0[5],xmm2[5],xmm0[6],xmm2[6],xmm0[7],xmm2[7]
	pshufd	$78, %xmm0, %xmm0               # xmm0 = xmm0[2,3,0,1]
	pshuflw	$27, %xmm0, %xmm0               # xmm0 = xmm0[3,2,1,0,4,5,6,7]
	pshufhw	$27, %xmm0, %xmm0               # xmm0 = xmm0[0,1,2,3,7,6,5,4]
	packuswb	%xmm1, %xmm0
	movdqu	%xmm0, (%r15)
	leaq	4(%rbx), %rdi
	movl	$480, %r8d                      # imm = 0x1E0
	movq	%rdi, %rcx
	xorl	%edx, %edx
	callq	memset
	cmpq	$16, %r14
	jne	.Lgcm_v1_BB28_2
# %bb.1:                                # %then.1.i
	movl	$16, %edx
	movq	%r12, %rsi
	callq	gcm_v1.aes_narrow.word_room.expand_words
	callq	gcm_v1.aes_cipher.zeroize.stack.wipe_stack.768
	movl	$16, %eax
	jmp	.Lgcm_v1_BB28_3
.Lgcm_v1_BB28_2:                               # %else.2.i
	movl	$32, %edx
	movq	%r12, %rsi
	callq	gcm_v1.aes_narrow.word_room.expand_words
	callq	gcm_v1.aes_cipher.zeroize.stack.wipe_stack.768
	movl	$32, %eax
.Lgcm_v1_BB28_3:                               # %"gcm_siv::keys::set_encryption_key::<#a556ffa628b2ee02>.exit"
	movl	%eax, (%rbx)
	leaq	40(%rsp), %rdi
	movl	$6, %esi
	callq	gcm_v1.aes_cipher.zeroize.elements.zeroize_elements.4
	nop
	addq	$136, %rsp
	popq	%rbx
	popq	%r12
	popq	%r14
	popq	%r15
	retq
	.seh_endproc
                                        # -- End function
	.def	gcm_v1.aes_cipher.zeroize.elements.zeroize_elements.4;
	.scl	3;
	.type	32;
	.endef
	.p2align	4                               # -- Begin function aes_cipher::zeroize::elements::zeroize_elements::<#82a118249f09cfc6>
gcm_v1.aes_cipher.zeroize.elements.zeroize_elements.4: # @gcm_v1.aes_cipher.zeroize.elements.zeroize_elements.4
.seh_proc gcm_v1.aes_cipher.zeroize.elements.zeroize_elements.4
# %bb.0:                                # %start
	subq	$24, %rsp
	.seh_stackalloc 24
	.seh_endprologue
	xorps	%xmm0, %xmm0
	movaps	%xmm0, (%rsp)
	movq	$0, 16(%rsp)
	#APP
	#NO_APP
	movq	16(%rsp), %rax
	#APP
	#NO_APP
	cmpq	%rsi, %rax
	jae	.Lgcm_v1_BB29_1
# %bb.2:                                # %then.1.i6
	movq	%rax, %rcx
	shlq	$4, %rcx
	movzbl	(%rdi,%rcx), %ecx
	movaps	(%rsp), %xmm0
	movups	%xmm0, (%rdi)
	cmpq	$1, %rsi
	jne	.Lgcm_v1_BB29_4
	jmp	.Lgcm_v1_BB29_9
.Lgcm_v1_BB29_1:
	xorl	%ecx, %ecx
	movaps	(%rsp), %xmm0
	movups	%xmm0, (%rdi)
	cmpq	$1, %rsi
	je	.Lgcm_v1_BB29_9
.Lgcm_v1_BB29_4:                               # %join.6.i.1
	movaps	(%rsp), %xmm0
	movups	%xmm0, 16(%rdi)
	cmpq	$2, %rsi
	je	.Lgcm_v1_BB29_9
# %bb.5:                                # %join.6.i.2
	movaps	(%rsp), %xmm0
	movups	%xmm0, 32(%rdi)
	cmpq	$3, %rsi
	je	.Lgcm_v1_BB29_9
# %bb.6:                                # %join.6.i.3
	movaps	(%rsp), %xmm0
	movups	%xmm0, 48(%rdi)
	cmpq	$4, %rsi
	je	.Lgcm_v1_BB29_9
# %bb.7:                                # %join.6.i.4
	movaps	(%rsp), %xmm0
	movups	%xmm0, 64(%rdi)
	cmpq	$5, %rsi
	je	.Lgcm_v1_BB29_9
# %bb.8:                                # %join.6.i.5
	movaps	(%rsp), %xmm0
	movups	%xmm0, 80(%rdi)
.Lgcm_v1_BB29_9:                               # %"aes_cipher::zeroize::overwrite::<#8c2be25e1e7027ab>.exit"
	cmpq	%rsi, %rax
	jae	.Lgcm_v1_BB29_10
# %bb.11:                               # %then.1.i
	shlq	$4, %rax
	andb	(%rdi,%rax), %cl
	movzbl	%cl, %eax
	jmp	.Lgcm_v1_BB29_12
.Lgcm_v1_BB29_10:
	xorl	%eax, %eax
.Lgcm_v1_BB29_12:                              # %"aes_cipher::zeroize::observe::<#aefc49fcc22ee515>.exit"
	#APP
	#NO_APP
	xchgq	%rax, 16(%rsp)
	#APP
	#NO_APP
	addq	$24, %rsp
	retq
	.seh_endproc
                                        # -- End function
	.def	gcm_v1.gcm_siv.message.open;
	.scl	3;
	.type	32;
	.endef
	.p2align	4                               # -- Begin function gcm_siv::message::open::<#bc93ff5f0cc4cd41>
gcm_v1.gcm_siv.message.open: # @gcm_v1.gcm_siv.message.open
.seh_proc gcm_v1.gcm_siv.message.open
# %bb.0:                                # %start
	pushq	%rbp
	.seh_pushreg %rbp
	pushq	%r15
	.seh_pushreg %r15
	pushq	%r14
	.seh_pushreg %r14
	pushq	%r13
	.seh_pushreg %r13
	pushq	%r12
	.seh_pushreg %r12
	pushq	%rbx
	.seh_pushreg %rbx
	subq	$56, %rsp
	.seh_stackalloc 56
	.seh_endprologue
	movq	%r9, %rbx
	movq	%r8, 32(%rsp)                   # 8-byte Spill
	movq	%rcx, %rbp
	movq	%rdx, %r14
	movq	%rsi, %r12
	movq	%rdi, %r15
	movq	120(%rsp), %rsi
	movq	112(%rsp), %r13
	movq	%r9, %rdx
	movq	%r13, %rcx
	callq	gcm_v1.gcm_siv.message.process_text
	movq	(%r12), %rsi
	movq	8(%r12), %rdx
	leaq	40(%rsp), %r12
	movq	%r12, 16(%rsp)
	movq	%r13, 8(%rsp)
	movq	%rbx, (%rsp)
	movq	%r15, %rdi
	movq	%r14, %rcx
	movq	120(%rsp), %r14
	movq	%rbp, %r8
	movq	32(%rsp), %r9                   # 8-byte Reload
	callq	gcm_v1.gcm_siv.message.put_tag
	movq	%r14, %rdi
	movq	%r12, %rsi
	callq	gcm_v1.aes_cipher.blocks.difference
	movl	%eax, %ebp
	movl	$1, %esi
	movq	%r12, %rdi
	callq	gcm_v1.aes_cipher.zeroize.elements.zeroize_elements.4
	testl	%ebp, %ebp
	je	.Lgcm_v1_BB30_2
# %bb.1:                                # %join.3
	movq	%r15, %rdi
	movq	%r14, %rsi
	movq	%rbx, %rdx
	movq	112(%rsp), %rcx
	callq	gcm_v1.gcm_siv.message.process_text
.Lgcm_v1_BB30_2:                               # %common.ret
	testl	%ebp, %ebp
	sete	%al
	addq	$56, %rsp
	popq	%rbx
	popq	%r12
	popq	%r13
	popq	%r14
	popq	%r15
	popq	%rbp
	retq
	.seh_endproc
                                        # -- End function
	.def	gcm_v1.gcm_siv.message.put_tag;
	.scl	3;
	.type	32;
	.endef
	.section	.rdata,"dr"
	.p2align	4, 0x0                          # -- Begin function gcm_siv::message::put_tag::<#bc93ff5f0cc4cd41>
.Lgcm_v1_CPI31_0:
	.short	65535                           # 0xffff
	.short	0                               # 0x0
	.short	65535                           # 0xffff
	.short	65535                           # 0xffff
	.short	65535                           # 0xffff
	.short	65535                           # 0xffff
	.short	65535                           # 0xffff
	.short	65535                           # 0xffff
.Lgcm_v1_CPI31_1:
	.short	65535                           # 0xffff
	.short	65535                           # 0xffff
	.short	65535                           # 0xffff
	.short	0                               # 0x0
	.short	65535                           # 0xffff
	.short	65535                           # 0xffff
	.short	65535                           # 0xffff
	.short	65535                           # 0xffff
.Lgcm_v1_CPI31_2:
	.short	65535                           # 0xffff
	.short	65535                           # 0xffff
	.short	65535                           # 0xffff
	.short	65535                           # 0xffff
	.short	65535                           # 0xffff
	.short	65535                           # 0xffff
	.short	65535                           # 0xffff
	.short	0                               # 0x0
.Lgcm_v1_CPI31_3:
	.short	65535                           # 0xffff
	.short	65535                           # 0xffff
	.short	65535                           # 0xffff
	.short	65535                           # 0xffff
	.short	65535                           # 0xffff
	.short	0                               # 0x0
	.short	65535                           # 0xffff
	.short	65535                           # 0xffff
.Lgcm_v1_CPI31_4:
	.byte	255                             # 0xff
	.byte	255                             # 0xff
	.byte	255                             # 0xff
	.byte	255                             # 0xff
	.byte	255                             # 0xff
	.byte	255                             # 0xff
	.byte	255                             # 0xff
	.byte	255                             # 0xff
	.byte	255                             # 0xff
	.byte	255                             # 0xff
	.byte	255                             # 0xff
	.byte	255                             # 0xff
	.byte	255                             # 0xff
	.byte	255                             # 0xff
	.byte	255                             # 0xff
	.byte	127                             # 0x7f
	.text
	.p2align	4
gcm_v1.gcm_siv.message.put_tag: # @gcm_v1.gcm_siv.message.put_tag
.seh_proc gcm_v1.gcm_siv.message.put_tag
# %bb.0:                                # %start
	pushq	%rbp
	.seh_pushreg %rbp
	pushq	%r15
	.seh_pushreg %r15
	pushq	%r14
	.seh_pushreg %r14
	pushq	%r13
	.seh_pushreg %r13
	pushq	%r12
	.seh_pushreg %r12
	pushq	%rbx
	.seh_pushreg %rbx
	subq	$56, %rsp
	.seh_stackalloc 56
	.seh_endprologue
	movq	%r9, %r12
	movq	%rcx, 8(%rsp)                   # 8-byte Spill
	movq	%rdx, %r13
	movq	%rsi, %rbp
	movq	%rdi, 24(%rsp)                  # 8-byte Spill
	movq	128(%rsp), %rax
	movq	%rax, 16(%rsp)                  # 8-byte Spill
	movq	112(%rsp), %r15
	movq	120(%rsp), %rbx
	bswapq	%r13
	bswapq	%rbp
	movq	%rbp, 40(%rsp)
	movq	%r13, 32(%rsp)
	leaq	32(%rsp), %r14
	movq	%r14, %rdi
	xorl	%esi, %esi
	xorl	%edx, %edx
	movq	%r8, %rcx
	movq	%r9, %r8
	callq	gcm_v1.gcm.single_blocks.hash_singly
	movq	%r14, %rdi
	movq	%rax, %rsi
	movq	%r15, %rcx
	movq	%rbx, %r8
	callq	gcm_v1.gcm.single_blocks.hash_singly
	movq	%r12, %rcx
	shrq	$53, %rcx
	movzbl	%cl, %edi
	movq	%rbx, %rcx
	shrq	$53, %rcx
	movzbl	%cl, %ecx
	movq	%r12, %rsi
	shrq	$37, %rsi
	andl	$65280, %esi                    # imm = 0xFF00
	movq	%r12, %r8
	shrq	$21, %r8
	andl	$16711680, %r8d                 # imm = 0xFF0000
	movq	%r12, %r9
	shrq	$5, %r9
	andl	$-16777216, %r9d                # imm = 0xFF000000
	movl	%r12d, %r10d
	andl	$534773760, %r10d               # imm = 0x1FE00000
	shlq	$11, %r10
	movl	%r12d, %r11d
	andl	$2088960, %r11d                 # imm = 0x1FE000
	shlq	$27, %r11
	movl	%r12d, %r14d
	andl	$8160, %r14d                    # imm = 0x1FE0
	shlq	$43, %r14
	shlq	$59, %r12
	orq	%rdi, %r12
	orq	%r10, %r12
	orq	%r11, %r12
	orq	%r14, %r12
	orq	%rsi, %r12
	orq	%r8, %r12
	orq	%r9, %r12
	movq	%rbx, %rsi
	shlq	$59, %rsi
	movl	%ebx, %edi
	andl	$8160, %edi                     # imm = 0x1FE0
	shlq	$43, %rdi
	orq	%rsi, %rdi
	movl	%ebx, %esi
	andl	$2088960, %esi                  # imm = 0x1FE000
	shlq	$27, %rsi
	orq	%rdi, %rsi
	movl	%ebx, %edi
	andl	$534773760, %edi                # imm = 0x1FE00000
	shlq	$11, %rdi
	orq	%rsi, %rdi
	movq	%rbx, %rsi
	shrq	$5, %rsi
	andl	$-16777216, %esi                # imm = 0xFF000000
	orq	%rdi, %rsi
	movq	%rbx, %rdi
	shrq	$21, %rdi
	andl	$16711680, %edi                 # imm = 0xFF0000
	orq	%rsi, %rdi
	shrq	$37, %rbx
	andl	$65280, %ebx                    # imm = 0xFF00
	orq	%rdi, %rbx
	orq	%rcx, %rbx
	bswapq	%rbx
	bswapq	%r12
	xorq	%rax, %r12
	xorq	%rdx, %rbx
	movq	%r12, %rdi
	movq	%rbx, %rsi
	movq	%r13, %rdx
	movq	%rbp, %rcx
	callq	gcm_v1.gcm.bitwise.product_bitwise
	movq	%rdx, %rcx
	shldq	$32, %rax, %rcx
	movq	%rdx, %rsi
	shldq	$24, %rax, %rsi
	movq	%rdx, %rdi
	shldq	$16, %rax, %rdi
	movq	%rdx, %r8
	shldq	$8, %rax, %r8
	movq	%rdx, %r9
	shldq	$48, %rax, %r9
	movq	%rdx, %r10
	shldq	$40, %rax, %r10
	movq	%rdx, %r11
	shldq	$56, %rax, %r11
	movq	%rax, %xmm0
	movq	%r11, %xmm1
	movq	%r10, %xmm4
	movq	%r9, %xmm2
	movq	%r8, %xmm5
	movq	%rdi, %xmm3
	movq	%rsi, %xmm7
	movq	%rcx, %xmm6
	movq	%rdx, %rax
	shrq	$56, %rax
	movd	%eax, %xmm9
	movq	%rdx, %rax
	shrq	$48, %rax
	movd	%eax, %xmm8
	movq	%rdx, %rax
	shrq	$40, %rax
	movd	%eax, %xmm11
	movq	%rdx, %xmm10
	shrq	$32, %rdx
	movd	%edx, %xmm12
	punpcklbw	%xmm1, %xmm0            # xmm0 = xmm0[0],xmm1[0],xmm0[1],xmm1[1],xmm0[2],xmm1[2],xmm0[3],xmm1[3],xmm0[4],xmm1[4],xmm0[5],xmm1[5],xmm0[6],xmm1[6],xmm0[7],xmm1[7]
	punpcklbw	%xmm4, %xmm2            # xmm2 = xmm2[0],xmm4[0],xmm2[1],xmm4[1],xmm2[2],xmm4[2],xmm2[3],xmm4[3],xmm2[4],xmm4[4],xmm2[5],xmm4[5],xmm2[6],xmm4[6],xmm2[7],xmm4[7]
	movdqa	.Lgcm_v1_CPI31_0(%rip), %xmm1          # xmm1 = [65535,0,65535,65535,65535,65535,65535,65535]
	pand	%xmm1, %xmm0
	pslld	$16, %xmm2
	pandn	%xmm2, %xmm1
	por	%xmm0, %xmm1
	punpcklbw	%xmm5, %xmm3            # xmm3 = xmm3[0],xmm5[0],xmm3[1],xmm5[1],xmm3[2],xmm5[2],xmm3[3],xmm5[3],xmm3[4],xmm5[4],xmm3[5],xmm5[5],xmm3[6],xmm5[6],xmm3[7],xmm5[7]
	psllq	$48, %xmm3
	punpcklbw	%xmm7, %xmm6            # xmm6 = xmm6[0],xmm7[0],xmm6[1],xmm7[1],xmm6[2],xmm7[2],xmm6[3],xmm7[3],xmm6[4],xmm7[4],xmm6[5],xmm7[5],xmm6[6],xmm7[6],xmm6[7],xmm7[7]
	movdqa	.Lgcm_v1_CPI31_1(%rip), %xmm0          # xmm0 = [65535,65535,65535,0,65535,65535,65535,65535]
	pshufd	$80, %xmm6, %xmm2               # xmm2 = xmm6[0,0,1,1]
	pand	%xmm0, %xmm2
	pandn	%xmm3, %xmm0
	por	%xmm2, %xmm0
	pshufd	$85, %xmm0, %xmm0               # xmm0 = xmm0[1,1,1,1]
	punpckldq	%xmm0, %xmm1            # xmm1 = xmm1[0],xmm0[0],xmm1[1],xmm0[1]
	punpcklbw	%xmm9, %xmm8            # xmm8 = xmm8[0],xmm9[0],xmm8[1],xmm9[1],xmm8[2],xmm9[2],xmm8[3],xmm9[3],xmm8[4],xmm9[4],xmm8[5],xmm9[5],xmm8[6],xmm9[6],xmm8[7],xmm9[7]
	pslldq	$14, %xmm8                      # xmm8 = zero,zero,zero,zero,zero,zero,zero,zero,zero,zero,zero,zero,zero,zero,xmm8[0,1]
	punpcklbw	%xmm11, %xmm12          # xmm12 = xmm12[0],xmm11[0],xmm12[1],xmm11[1],xmm12[2],xmm11[2],xmm12[3],xmm11[3],xmm12[4],xmm11[4],xmm12[5],xmm11[5],xmm12[6],xmm11[6],xmm12[7],xmm11[7]
	pshufd	$0, %xmm12, %xmm0               # xmm0 = xmm12[0,0,0,0]
	pand	.Lgcm_v1_CPI31_2(%rip), %xmm0
	por	%xmm8, %xmm0
	movdqa	%xmm10, %xmm2
	psrlq	$24, %xmm2
	movdqa	%xmm10, %xmm3
	psrlq	$16, %xmm3
	punpcklbw	%xmm2, %xmm3            # xmm3 = xmm3[0],xmm2[0],xmm3[1],xmm2[1],xmm3[2],xmm2[2],xmm3[3],xmm2[3],xmm3[4],xmm2[4],xmm3[5],xmm2[5],xmm3[6],xmm2[6],xmm3[7],xmm2[7]
	pslldq	$10, %xmm3                      # xmm3 = zero,zero,zero,zero,zero,zero,zero,zero,zero,zero,xmm3[0,1,2,3,4,5]
	movdqa	.Lgcm_v1_CPI31_3(%rip), %xmm2          # xmm2 = [65535,65535,65535,65535,65535,0,65535,65535]
	movdqa	%xmm10, %xmm4
	psrlq	$8, %xmm4
	punpcklbw	%xmm4, %xmm10           # xmm10 = xmm10[0],xmm4[0],xmm10[1],xmm4[1],xmm10[2],xmm4[2],xmm10[3],xmm4[3],xmm10[4],xmm4[4],xmm10[5],xmm4[5],xmm10[6],xmm4[6],xmm10[7],xmm4[7]
	pshufd	$68, %xmm10, %xmm4              # xmm4 = xmm10[0,1,0,1]
	pand	%xmm2, %xmm4
	pandn	%xmm3, %xmm2
	por	%xmm4, %xmm2
	pshufd	$170, %xmm2, %xmm2              # xmm2 = xmm2[2,2,2,2]
	punpckhdq	%xmm0, %xmm2            # xmm2 = xmm2[2],xmm0[2],xmm2[3],xmm0[3]
	movsd	%xmm1, %xmm2                    # xmm2 = xmm1[0],xmm2[1]
	movq	8(%rsp), %rax                   # 8-byte Reload
	movd	(%rax), %xmm0                   # xmm0 = mem[0],zero,zero,zero
	movsd	4(%rax), %xmm1                  # xmm1 = mem[0],zero
	movq	%xmm0, %xmm0                    # xmm0 = xmm0[0],zero
	shufps	$76, %xmm1, %xmm0               # xmm0 = xmm0[0,3],xmm1[0,1]
	shufps	$120, %xmm0, %xmm0              # xmm0 = xmm0[0,2,3,1]
	xorps	%xmm2, %xmm0
	andps	.Lgcm_v1_CPI31_4(%rip), %xmm0
	movq	16(%rsp), %rdx                  # 8-byte Reload
	movups	%xmm0, (%rdx)
	movq	24(%rsp), %rdi                  # 8-byte Reload
	movl	(%rdi), %eax
	addq	$4, %rdi
	leaq	56(,%rax,2), %rsi
	movl	$1, %ecx
	callq	gcm_v1.aes_narrow.blocks.process_all_batches
	nop
	addq	$56, %rsp
	popq	%rbx
	popq	%r12
	popq	%r13
	popq	%r14
	popq	%r15
	popq	%rbp
	jmp	gcm_v1.aes_cipher.zeroize.stack.wipe_stack.1024 # TAILCALL
	.seh_endproc
                                        # -- End function
	.def	gcm_v1.gcm.single_blocks.hash_singly;
	.scl	3;
	.type	32;
	.endef
	.p2align	4                               # -- Begin function gcm::single_blocks::hash_singly::<#4042f4b97f1aa5e1>
gcm_v1.gcm.single_blocks.hash_singly: # @gcm_v1.gcm.single_blocks.hash_singly
.seh_proc gcm_v1.gcm.single_blocks.hash_singly
# %bb.0:                                # %start
	pushq	%rbp
	.seh_pushreg %rbp
	pushq	%r15
	.seh_pushreg %r15
	pushq	%r14
	.seh_pushreg %r14
	pushq	%r13
	.seh_pushreg %r13
	pushq	%r12
	.seh_pushreg %r12
	pushq	%rbx
	.seh_pushreg %rbx
	subq	$56, %rsp
	.seh_stackalloc 56
	.seh_endprologue
	movq	%r8, %r15
	movq	%rcx, %r14
	movq	%rsi, %rax
	movq	%r8, %rbp
	shrq	$4, %rbp
	movq	%rdi, 48(%rsp)                  # 8-byte Spill
	je	.Lgcm_v1_BB32_3
# %bb.1:                                # %join.5.i.lr.ph
	movq	(%rdi), %r12
	movq	8(%rdi), %r13
	leaq	15(%r14), %rbx
	.p2align	4
.Lgcm_v1_BB32_2:                               # %join.5.i
                                        # =>This Inner Loop Header: Depth=1
	xorq	-15(%rbx), %rax
	xorq	-7(%rbx), %rdx
	movq	%rax, %rdi
	movq	%rdx, %rsi
	movq	%r12, %rdx
	movq	%r13, %rcx
	callq	gcm_v1.gcm.bitwise.product_bitwise
	addq	$16, %rbx
	decq	%rbp
	jne	.Lgcm_v1_BB32_2
.Lgcm_v1_BB32_3:                               # %"gcm::single_blocks::hash_whole::<#4042f4b97f1aa5e1>.exit"
	movq	%r15, %r8
	andq	$15, %r8
	je	.Lgcm_v1_BB32_4
# %bb.5:                                # %join.3
	andq	$-16, %r15
	addq	%r15, %r14
	xorps	%xmm0, %xmm0
	movaps	%xmm0, 32(%rsp)
	leaq	32(%rsp), %rcx
	movq	%rdx, %rsi
	movq	%r14, %rdx
	movq	%rax, %rdi
	callq	memcpy
	xorq	40(%rsp), %rsi
	xorq	32(%rsp), %rdi
	movq	48(%rsp), %rax                  # 8-byte Reload
	movq	(%rax), %rdx
	movq	8(%rax), %rcx
	addq	$56, %rsp
	popq	%rbx
	popq	%r12
	popq	%r13
	popq	%r14
	popq	%r15
	popq	%rbp
	jmp	gcm_v1.gcm.bitwise.product_bitwise # TAILCALL
.Lgcm_v1_BB32_4:                               # %common.ret
	addq	$56, %rsp
	popq	%rbx
	popq	%r12
	popq	%r13
	popq	%r14
	popq	%r15
	popq	%rbp
	retq
	.seh_endproc
                                        # -- End function
	.def	gcm_v1.gcm_siv.message.process_text;
	.scl	3;
	.type	32;
	.endef
	.p2align	4                               # -- Begin function gcm_siv::message::process_text::<#a556ffa628b2ee02>
gcm_v1.gcm_siv.message.process_text: # @gcm_v1.gcm_siv.message.process_text
.seh_proc gcm_v1.gcm_siv.message.process_text
# %bb.0:                                # %start
	pushq	%r14
	.seh_pushreg %r14
	pushq	%rbx
	.seh_pushreg %rbx
	subq	$56, %rsp
	.seh_stackalloc 56
	.seh_endprologue
	movq	%rcx, %r14
	movq	%rdx, %rbx
	movq	%rsi, %rax
	movzbl	15(%rsi), %ecx
	orb	$-128, %cl
	movl	(%rdi), %edx
	addq	$4, %rdi
	leaq	56(,%rdx,2), %rsi
	movq	(%rax), %rdx
	movq	7(%rax), %r8
	movq	%r8, 47(%rsp)
	movq	%rdx, 40(%rsp)
	movb	%cl, 55(%rsp)
	cmpq	$16, %r14
	ja	.Lgcm_v1_BB33_5
# %bb.1:                                # %then.1.i.i
	movl	40(%rsp), %edx
	movq	4(%rax), %r8
	movq	%r8, 4(%rsp)
	movl	11(%rax), %eax
	movl	%eax, 11(%rsp)
	movb	%cl, 15(%rsp)
	movl	%edx, (%rsp)
	movq	%rsp, %rdx
	movl	$1, %ecx
	callq	gcm_v1.aes_narrow.blocks.process_all_batches
	callq	gcm_v1.aes_cipher.zeroize.stack.wipe_stack.1024
	testq	%r14, %r14
	je	.Lgcm_v1_BB33_4
# %bb.2:                                # %then.1.i.i
	cmpq	$16, %r14
	jne	.Lgcm_v1_BB33_6
# %bb.3:                                # %after.4.i.thread.i.i.i
	movups	(%rbx), %xmm0
	xorps	(%rsp), %xmm0
	movups	%xmm0, (%rbx)
.Lgcm_v1_BB33_4:                               # %"gcm_siv::counters::add_keystream::<#099a9bc28799ce6c>.exit"
	addq	$56, %rsp
	popq	%rbx
	popq	%r14
	retq
.Lgcm_v1_BB33_5:                               # %else.2.i.i
	leaq	40(%rsp), %rax
	movq	%rax, (%rsp)
	movq	$0, 8(%rsp)
	movq	%rbx, 16(%rsp)
	movq	%r14, 24(%rsp)
	movq	%rsp, %rdx
	callq	gcm_v1.aes_narrow.borrowed_words.call_to_encrypt.2
	callq	gcm_v1.aes_cipher.zeroize.stack.wipe_stack.2032
	nop
	addq	$56, %rsp
	popq	%rbx
	popq	%r14
	retq
.Lgcm_v1_BB33_6:                               # %iter.check
	cmpq	$4, %r14
	jae	.Lgcm_v1_BB33_8
# %bb.7:
	xorl	%eax, %eax
	jmp	.Lgcm_v1_BB33_13
.Lgcm_v1_BB33_8:                               # %vec.epilog.ph
	movl	%r14d, %eax
	andl	$28, %eax
	movss	(%rbx), %xmm0                   # xmm0 = mem[0],zero,zero,zero
	xorps	(%rsp), %xmm0
	movss	%xmm0, (%rbx)
	cmpq	$4, %rax
	je	.Lgcm_v1_BB33_12
# %bb.9:                                # %vec.epilog.vector.body.1
	movl	4(%rsp), %ecx
	xorl	%ecx, 4(%rbx)
	cmpl	$8, %eax
	je	.Lgcm_v1_BB33_12
# %bb.10:                               # %vec.epilog.vector.body.2
	movsd	8(%rsp), %xmm0                  # xmm0 = mem[0],zero
	movss	8(%rbx), %xmm1                  # xmm1 = mem[0],zero,zero,zero
	xorps	%xmm0, %xmm1
	movss	%xmm1, 8(%rbx)
	cmpl	$12, %eax
	je	.Lgcm_v1_BB33_12
# %bb.11:                               # %vec.epilog.vector.body.3
	movl	12(%rsp), %ecx
	xorl	%ecx, 12(%rbx)
.Lgcm_v1_BB33_12:                              # %vec.epilog.middle.block
	cmpq	%rax, %r14
	je	.Lgcm_v1_BB33_4
.Lgcm_v1_BB33_13:                              # %join.8.i6.i.i.i
	movzbl	(%rsp,%rax), %ecx
	xorb	%cl, (%rbx,%rax)
	incq	%rax
	jmp	.Lgcm_v1_BB33_12
	.seh_endproc
                                        # -- End function
	.def	gcm_v1.aes_narrow.borrowed_words.call_to_encrypt.2;
	.scl	3;
	.type	32;
	.endef
	.p2align	4                               # -- Begin function aes_narrow::borrowed_words::call_to_encrypt::<#d0e731d912aff965>
gcm_v1.aes_narrow.borrowed_words.call_to_encrypt.2: # @gcm_v1.aes_narrow.borrowed_words.call_to_encrypt.2
.seh_proc gcm_v1.aes_narrow.borrowed_words.call_to_encrypt.2
# %bb.0:                                # %start
	pushq	%rbp
	.seh_pushreg %rbp
	pushq	%r15
	.seh_pushreg %r15
	pushq	%r14
	.seh_pushreg %r14
	pushq	%r13
	.seh_pushreg %r13
	pushq	%r12
	.seh_pushreg %r12
	pushq	%rbx
	.seh_pushreg %rbx
	subq	$312, %rsp                      # imm = 0x138
	.seh_stackalloc 312
	.seh_endprologue
	movq	%rdi, 32(%rsp)
	movq	%rsi, 40(%rsp)
	movq	(%rdx), %rbx
	movq	8(%rdx), %r14
	movq	24(%rdx), %rbp
	movq	16(%rdx), %r12
	testb	$15, %r14b
	movq	%rsi, 24(%rsp)                  # 8-byte Spill
	movq	%rdi, 16(%rsp)                  # 8-byte Spill
	je	.Lgcm_v1_BB34_1
# %bb.2:                                # %then.1.i.i
	leaq	32(%rsp), %rdi
	movq	%rbx, %rsi
	movq	%r14, %rdx
	xorl	%ecx, %ecx
	movq	%r12, %r8
	movq	%rbp, %r9
	callq	gcm_v1.aes_ctr.add_in_batches.add_next.2
	movq	%rax, %r13
	jmp	.Lgcm_v1_BB34_3
.Lgcm_v1_BB34_1:
	xorl	%r13d, %r13d
.Lgcm_v1_BB34_3:                               # %join.3.i.i
	movq	%rbp, %r15
	subq	%r13, %r15
	cmpq	$32, %r15
	movq	%rbx, 8(%rsp)                   # 8-byte Spill
	movq	%r14, (%rsp)                    # 8-byte Spill
	jb	.Lgcm_v1_BB34_6
# %bb.4:                                # %join.11.lr.ph.i.i
	addq	$4, %rbx
	leaq	52(%rsp), %r14
	.p2align	4
.Lgcm_v1_BB34_5:                               # %join.11.i.i
                                        # =>This Inner Loop Header: Depth=1
	movq	(%rsp), %rax                    # 8-byte Reload
	addq	%r13, %rax
	shrq	$4, %rax
	xorps	%xmm0, %xmm0
	movaps	%xmm0, 236(%r14)
	movaps	%xmm0, 220(%r14)
	movaps	%xmm0, 204(%r14)
	movaps	%xmm0, 188(%r14)
	movaps	%xmm0, 172(%r14)
	movaps	%xmm0, 156(%r14)
	movaps	%xmm0, 140(%r14)
	movaps	%xmm0, 124(%r14)
	movaps	%xmm0, 108(%r14)
	movaps	%xmm0, 92(%r14)
	movaps	%xmm0, 76(%r14)
	movaps	%xmm0, 60(%r14)
	movaps	%xmm0, 44(%r14)
	movaps	%xmm0, 28(%r14)
	movq	8(%rsp), %rcx                   # 8-byte Reload
	movl	(%rcx), %ecx
	leal	(%rax,%rcx), %edx
	movl	%edx, 48(%rsp)
	movl	8(%rbx), %edx
	movl	%edx, 8(%r14)
	movq	(%rbx), %rdx
	movq	%rdx, (%r14)
	leal	1(%rcx,%rax), %eax
	movl	%eax, 64(%rsp)
	movl	8(%rbx), %eax
	movl	%eax, 24(%r14)
	movq	(%rbx), %rax
	movq	%rax, 16(%r14)
	leaq	48(%rsp), %rdx
	movl	$2, %ecx
	movq	16(%rsp), %rdi                  # 8-byte Reload
	movq	24(%rsp), %rsi                  # 8-byte Reload
	callq	gcm_v1.aes_soft.soft.blocks.filled_up.process_filled_up
	movups	(%r12,%r13), %xmm0
	xorps	48(%rsp), %xmm0
	movups	16(%r12,%r13), %xmm1
	movups	%xmm0, (%r12,%r13)
	xorps	64(%rsp), %xmm1
	movups	%xmm1, 16(%r12,%r13)
	addq	$32, %r13
	addq	$-32, %r15
	cmpq	$31, %r15
	ja	.Lgcm_v1_BB34_5
.Lgcm_v1_BB34_6:                               # %loop.13.preheader.i.i
	cmpq	%rbp, %r13
	movq	8(%rsp), %rbx                   # 8-byte Reload
	movq	(%rsp), %r14                    # 8-byte Reload
	jae	.Lgcm_v1_BB34_8
	.p2align	4
.Lgcm_v1_BB34_7:                               # %join.16.i.i
                                        # =>This Inner Loop Header: Depth=1
	leaq	32(%rsp), %rdi
	movq	%rbx, %rsi
	movq	%r14, %rdx
	movq	%r13, %rcx
	movq	%r12, %r8
	movq	%rbp, %r9
	callq	gcm_v1.aes_ctr.add_in_batches.add_next.2
	movq	%rax, %r13
	cmpq	%rbp, %rax
	jb	.Lgcm_v1_BB34_7
.Lgcm_v1_BB34_8:                               # %"aes_ctr::add_in_batches::AddStreamBlockCipherEncClosure::call::<#dc401293e4f3bac2>.exit"
	addq	$312, %rsp                      # imm = 0x138
	popq	%rbx
	popq	%r12
	popq	%r13
	popq	%r14
	popq	%r15
	popq	%rbp
	retq
	.seh_endproc
                                        # -- End function
	.def	gcm_v1.aes_ctr.add_in_batches.add_next.2;
	.scl	3;
	.type	32;
	.endef
	.p2align	4                               # -- Begin function aes_ctr::add_in_batches::add_next::<#9f5b6b63b811461e>
gcm_v1.aes_ctr.add_in_batches.add_next.2: # @gcm_v1.aes_ctr.add_in_batches.add_next.2
.seh_proc gcm_v1.aes_ctr.add_in_batches.add_next.2
# %bb.0:                                # %start
	pushq	%r15
	.seh_pushreg %r15
	pushq	%r14
	.seh_pushreg %r14
	pushq	%r13
	.seh_pushreg %r13
	pushq	%r12
	.seh_pushreg %r12
	pushq	%rbx
	.seh_pushreg %rbx
	subq	$256, %rsp                      # imm = 0x100
	.seh_stackalloc 256
	.seh_endprologue
	movq	%r9, %r12
	movq	%r8, %r15
	movq	%rcx, %rbx
	addq	%rcx, %rdx
	movl	%edx, %r13d
	andl	$15, %r13d
	movl	$32, %eax
	subq	%r13, %rax
	movq	%r9, %r14
	subq	%rcx, %r14
	cmpq	%rax, %r14
	cmovaeq	%rax, %r14
	leal	(%r14,%r13), %ecx
	addl	$15, %ecx
	shrq	$4, %rdx
	xorps	%xmm0, %xmm0
	movups	%xmm0, 240(%rsp)
	movups	%xmm0, 224(%rsp)
	movups	%xmm0, 208(%rsp)
	movups	%xmm0, 192(%rsp)
	movups	%xmm0, 176(%rsp)
	movups	%xmm0, 160(%rsp)
	movups	%xmm0, 144(%rsp)
	movups	%xmm0, 128(%rsp)
	movups	%xmm0, 112(%rsp)
	movups	%xmm0, 96(%rsp)
	movups	%xmm0, 80(%rsp)
	movups	%xmm0, 64(%rsp)
	movups	%xmm0, 48(%rsp)
	movups	%xmm0, 32(%rsp)
	movl	(%rsi), %eax
	leal	(%rdx,%rax), %r8d
	movl	%r8d, (%rsp)
	movq	4(%rsi), %r8
	movq	%r8, 4(%rsp)
	movl	12(%rsi), %r8d
	movl	%r8d, 12(%rsp)
	leal	1(%rax,%rdx), %eax
	movl	%eax, 16(%rsp)
	movl	12(%rsi), %eax
	movl	%eax, 28(%rsp)
	movq	4(%rsi), %rax
	movq	%rax, 20(%rsp)
	andl	$112, %ecx
	movq	(%rdi), %rax
	movq	8(%rdi), %rsi
	movq	%rsp, %rdx
	cmpl	$16, %ecx
	jne	.Lgcm_v1_BB35_2
# %bb.1:                                # %then.1.i.i.i
	movl	$1, %ecx
	jmp	.Lgcm_v1_BB35_3
.Lgcm_v1_BB35_2:                               # %else.2.i.i.i
	movl	$2, %ecx
.Lgcm_v1_BB35_3:                               # %"aes_ctr::keystream::fill_by_backend::<#9f5b6b63b811461e>.exit"
	movq	%rax, %rdi
	callq	gcm_v1.aes_soft.soft.blocks.filled_up.process_filled_up
	leaq	(%r15,%rbx), %rax
	testq	%r13, %r13
	je	.Lgcm_v1_BB35_4
# %bb.5:                                # %then.1.i
	movl	$16, %ecx
	subq	%r13, %rcx
	cmpq	%rcx, %r14
	cmovbq	%r14, %rcx
	cmpq	%rbx, %r12
	je	.Lgcm_v1_BB35_13
# %bb.6:                                # %join.8.i80.lr.ph
	movl	%ecx, %edx
	andl	$3, %edx
	cmpq	$4, %rcx
	jae	.Lgcm_v1_BB35_8
# %bb.7:
	xorl	%esi, %esi
	jmp	.Lgcm_v1_BB35_11
.Lgcm_v1_BB35_4:
	xorl	%ecx, %ecx
	jmp	.Lgcm_v1_BB35_13
.Lgcm_v1_BB35_8:                               # %join.8.i80.lr.ph.new
	movl	%ecx, %edi
	andl	$28, %edi
	movq	%rsp, %rsi
	leaq	(%rsi,%r13), %r8
	addq	$3, %r8
	leaq	(%rbx,%r15), %r9
	addq	$3, %r9
	xorl	%esi, %esi
	.p2align	4
.Lgcm_v1_BB35_9:                               # %join.8.i80
                                        # =>This Inner Loop Header: Depth=1
	movzbl	-3(%r8,%rsi), %r10d
	xorb	%r10b, -3(%r9,%rsi)
	movzbl	-2(%r8,%rsi), %r10d
	xorb	%r10b, -2(%r9,%rsi)
	movzbl	-1(%r8,%rsi), %r10d
	xorb	%r10b, -1(%r9,%rsi)
	movzbl	(%r8,%rsi), %r10d
	xorb	%r10b, (%r9,%rsi)
	addq	$4, %rsi
	cmpq	%rsi, %rdi
	jne	.Lgcm_v1_BB35_9
# %bb.10:                               # %join.3.i.loopexit.unr-lcssa
	testq	%rdx, %rdx
	je	.Lgcm_v1_BB35_13
.Lgcm_v1_BB35_11:                              # %join.8.i80.epil.preheader
	leaq	(%rax,%rsi), %rdi
	addq	%r13, %rsi
	addq	%rsp, %rsi
	xorl	%r8d, %r8d
	.p2align	4
.Lgcm_v1_BB35_12:                              # %join.8.i80.epil
                                        # =>This Inner Loop Header: Depth=1
	movzbl	(%rsi,%r8), %r9d
	xorb	%r9b, (%rdi,%r8)
	incq	%r8
	cmpq	%r8, %rdx
	jne	.Lgcm_v1_BB35_12
.Lgcm_v1_BB35_13:                              # %join.3.i
	movq	%r14, %rdx
	subq	%rcx, %rdx
	cmpq	$16, %rdx
	jb	.Lgcm_v1_BB35_15
	.p2align	4
.Lgcm_v1_BB35_14:                              # %join.8.i
                                        # =>This Inner Loop Header: Depth=1
	leaq	(%rcx,%r13), %rsi
	andq	$-16, %rsi
	movups	(%rax,%rcx), %xmm0
	movups	(%rsp,%rsi), %xmm1
	xorps	%xmm0, %xmm1
	movups	%xmm1, (%rax,%rcx)
	addq	$16, %rcx
	addq	$-16, %rdx
	cmpq	$15, %rdx
	ja	.Lgcm_v1_BB35_14
.Lgcm_v1_BB35_15:                              # %after.4.i
	cmpq	%r14, %rcx
	jae	.Lgcm_v1_BB35_23
# %bb.16:                               # %then.9.i
	testq	%rdx, %rdx
	je	.Lgcm_v1_BB35_23
# %bb.17:                               # %iter.check
	addq	%rcx, %r13
	andq	$-16, %r13
	leaq	(%rsp,%r13), %rsi
	addq	%rcx, %rax
	cmpq	$4, %rdx
	jae	.Lgcm_v1_BB35_20
# %bb.18:
	xorl	%ecx, %ecx
	jmp	.Lgcm_v1_BB35_19
.Lgcm_v1_BB35_20:                              # %vec.epilog.ph
	movl	%edx, %ecx
	andl	$12, %ecx
	xorl	%edi, %edi
	.p2align	4
.Lgcm_v1_BB35_21:                              # %vec.epilog.vector.body
                                        # =>This Inner Loop Header: Depth=1
	movl	(%rsi,%rdi), %r8d
	xorl	%r8d, (%rax,%rdi)
	addq	$4, %rdi
	cmpq	%rdi, %rcx
	jne	.Lgcm_v1_BB35_21
	jmp	.Lgcm_v1_BB35_22
.Lgcm_v1_BB35_19:                              # %join.8.i23
	movzbl	(%rsi,%rcx), %edi
	xorb	%dil, (%rax,%rcx)
	incq	%rcx
.Lgcm_v1_BB35_22:                              # %join.8.i23
	cmpq	%rcx, %rdx
	jne	.Lgcm_v1_BB35_19
.Lgcm_v1_BB35_23:                              # %"aes_ctr::add_blocks::add_blocks.exit"
	addq	%rbx, %r14
	movq	%r14, %rax
	addq	$256, %rsp                      # imm = 0x100
	popq	%rbx
	popq	%r12
	popq	%r13
	popq	%r14
	popq	%r15
	retq
	.seh_endproc
                                        # -- End function
	.def	gcm_v1.aes_cipher.zeroize.stack.wipe_stack.2816;
	.scl	3;
	.type	32;
	.endef
	.p2align	4                               # -- Begin function aes_cipher::zeroize::stack::wipe_stack::<=2816>
gcm_v1.aes_cipher.zeroize.stack.wipe_stack.2816: # @gcm_v1.aes_cipher.zeroize.stack.wipe_stack.2816
.seh_proc gcm_v1.aes_cipher.zeroize.stack.wipe_stack.2816
# %bb.0:                                # %start
	subq	$2856, %rsp                     # imm = 0xB28
	.seh_stackalloc 2856
	.seh_endprologue
	#APP
	xorl	%edi, %edi
	xorl	%esi, %esi
	#NO_APP
	leaq	40(%rsp), %rcx
	movl	$2816, %r8d                     # imm = 0xB00
	xorl	%edx, %edx
	callq	memset
	movq	$0, 32(%rsp)
	#APP
	#NO_APP
	movq	32(%rsp), %rax
	#APP
	#NO_APP
	cmpq	$2816, %rax                     # imm = 0xB00
	jae	.Lgcm_v1_BB36_2
# %bb.1:                                # %then.1
	movzbl	40(%rsp,%rax), %eax
	#APP
	#NO_APP
	xchgq	%rax, 32(%rsp)
	#APP
	#NO_APP
.Lgcm_v1_BB36_2:                               # %common.ret
	addq	$2856, %rsp                     # imm = 0xB28
	retq
	.seh_endproc
                                        # -- End function
	.def	gcm_v1.gcm_siv.course.seal_in;
	.scl	3;
	.type	32;
	.endef
	.p2align	4                               # -- Begin function gcm_siv::course::seal_in::<#a4ece9b7a9859b66>
gcm_v1.gcm_siv.course.seal_in: # @gcm_v1.gcm_siv.course.seal_in
.seh_proc gcm_v1.gcm_siv.course.seal_in
# %bb.0:                                # %start
	pushq	%rbp
	.seh_pushreg %rbp
	pushq	%r15
	.seh_pushreg %r15
	pushq	%r14
	.seh_pushreg %r14
	pushq	%r13
	.seh_pushreg %r13
	pushq	%r12
	.seh_pushreg %r12
	pushq	%rbx
	.seh_pushreg %rbx
	subq	$568, %rsp                      # imm = 0x238
	.seh_stackalloc 568
	.seh_endprologue
	movq	%r9, %r13
	movq	%r8, %r14
	movq	%rcx, %r15
	movq	%rdx, %rbp
	movq	%rdi, 40(%rsp)                  # 8-byte Spill
	xorps	%xmm0, %xmm0
	movaps	%xmm0, 48(%rsp)
	leaq	88(%rsp), %rcx
	movl	$480, %r8d                      # imm = 0x1E0
	xorl	%edx, %edx
	callq	memset
	movl	$0, 84(%rsp)
	leaq	84(%rsp), %r12
	leaq	64(%rsp), %rbx
	movq	%rsi, %rdi
	movq	%rbp, %rsi
	movq	%r15, %rdx
	movq	%r12, %rcx
	movq	%rbx, %r8
	callq	gcm_v1.gcm_siv.keys.derive_and_prepare
	movq	64(%rsp), %rdx
	movq	72(%rsp), %rcx
	movaps	624(%rsp), %xmm0
	movups	%xmm0, 8(%rsp)
	movq	%r13, (%rsp)
	leaq	48(%rsp), %rdi
	movq	%r12, %rsi
	movq	%r15, %r8
	movq	%r14, %r9
	callq	gcm_v1.gcm_siv.message.seal
	movl	$0, 84(%rsp)
	leaq	88(%rsp), %rdi
	callq	gcm_v1.aes_cipher.zeroize.elements.zeroize_elements.1
	movq	%rbx, %rdi
	callq	gcm_v1.aes_cipher.zeroize.elements.zeroize_elements.2
	callq	gcm_v1.aes_cipher.zeroize.stack.wipe_stack.2816
	movaps	48(%rsp), %xmm0
	movq	40(%rsp), %rax                  # 8-byte Reload
	movups	%xmm0, (%rax)
	addq	$568, %rsp                      # imm = 0x238
	popq	%rbx
	popq	%r12
	popq	%r13
	popq	%r14
	popq	%r15
	popq	%rbp
	retq
	.seh_endproc
                                        # -- End function
	.def	gcm_v1.gcm_siv.message.seal;
	.scl	3;
	.type	32;
	.endef
	.p2align	4                               # -- Begin function gcm_siv::message::seal::<#bc93ff5f0cc4cd41>
gcm_v1.gcm_siv.message.seal: # @gcm_v1.gcm_siv.message.seal
.seh_proc gcm_v1.gcm_siv.message.seal
# %bb.0:                                # %start
	pushq	%r15
	.seh_pushreg %r15
	pushq	%r14
	.seh_pushreg %r14
	pushq	%r12
	.seh_pushreg %r12
	pushq	%rbx
	.seh_pushreg %rbx
	subq	$104, %rsp
	.seh_stackalloc 104
	.seh_endprologue
	movq	%r9, %rax
	movq	%rsi, %r14
	movq	%rdi, %rbx
	movq	160(%rsp), %r12
	movq	152(%rsp), %r15
	movq	144(%rsp), %r9
	leaq	72(%rsp), %rsi
	movq	%rsi, 16(%rsp)
	movq	%r12, 8(%rsp)
	movq	%r15, (%rsp)
	movq	%r14, %rdi
	movq	%rdx, %rsi
	movq	%rcx, %rdx
	movq	%r8, %rcx
	movq	%rax, %r8
	callq	gcm_v1.gcm_siv.message.put_tag
	movzbl	87(%rsp), %eax
	orb	$-128, %al
	movl	(%r14), %ecx
	addq	$4, %r14
	leaq	56(,%rcx,2), %rsi
	movq	72(%rsp), %rcx
	movq	79(%rsp), %rdx
	movq	%rdx, 95(%rsp)
	movq	%rcx, 88(%rsp)
	movb	%al, 103(%rsp)
	cmpq	$16, %r12
	ja	.Lgcm_v1_BB38_11
# %bb.1:                                # %then.1.i.i.i
	movl	88(%rsp), %ecx
	movq	76(%rsp), %rdx
	movq	%rdx, 36(%rsp)
	movl	83(%rsp), %edx
	movl	%edx, 43(%rsp)
	movb	%al, 47(%rsp)
	movl	%ecx, 32(%rsp)
	leaq	32(%rsp), %rdx
	movl	$1, %ecx
	movq	%r14, %rdi
	callq	gcm_v1.aes_narrow.blocks.process_all_batches
	callq	gcm_v1.aes_cipher.zeroize.stack.wipe_stack.1024
	testq	%r12, %r12
	je	.Lgcm_v1_BB38_12
# %bb.2:                                # %then.1.i.i.i
	cmpq	$16, %r12
	jne	.Lgcm_v1_BB38_3
# %bb.13:                               # %after.4.i.thread.i.i.i.i
	movups	(%r15), %xmm0
	xorps	32(%rsp), %xmm0
	movups	%xmm0, (%r15)
	jmp	.Lgcm_v1_BB38_12
.Lgcm_v1_BB38_11:                              # %else.2.i.i.i
	leaq	88(%rsp), %rax
	movq	%rax, 32(%rsp)
	movq	$0, 40(%rsp)
	movq	%r15, 48(%rsp)
	movq	%r12, 56(%rsp)
	leaq	32(%rsp), %rdx
	movq	%r14, %rdi
	callq	gcm_v1.aes_narrow.borrowed_words.call_to_encrypt.2
	callq	gcm_v1.aes_cipher.zeroize.stack.wipe_stack.2032
	jmp	.Lgcm_v1_BB38_12
.Lgcm_v1_BB38_3:                               # %iter.check
	cmpq	$4, %r12
	jae	.Lgcm_v1_BB38_5
# %bb.4:
	xorl	%eax, %eax
	jmp	.Lgcm_v1_BB38_10
.Lgcm_v1_BB38_5:                               # %vec.epilog.ph
	movl	%r12d, %eax
	andl	$28, %eax
	movss	(%r15), %xmm0                   # xmm0 = mem[0],zero,zero,zero
	xorps	32(%rsp), %xmm0
	movss	%xmm0, (%r15)
	cmpq	$4, %rax
	je	.Lgcm_v1_BB38_9
# %bb.6:                                # %vec.epilog.vector.body.1
	movl	36(%rsp), %ecx
	xorl	%ecx, 4(%r15)
	cmpl	$8, %eax
	je	.Lgcm_v1_BB38_9
# %bb.7:                                # %vec.epilog.vector.body.2
	movsd	40(%rsp), %xmm0                 # xmm0 = mem[0],zero
	movss	8(%r15), %xmm1                  # xmm1 = mem[0],zero,zero,zero
	xorps	%xmm0, %xmm1
	movss	%xmm1, 8(%r15)
	cmpl	$12, %eax
	je	.Lgcm_v1_BB38_9
# %bb.8:                                # %vec.epilog.vector.body.3
	movl	44(%rsp), %ecx
	xorl	%ecx, 12(%r15)
.Lgcm_v1_BB38_9:                               # %vec.epilog.middle.block
	cmpq	%rax, %r12
	je	.Lgcm_v1_BB38_12
.Lgcm_v1_BB38_10:                              # %join.8.i6.i.i.i.i
	movzbl	32(%rsp,%rax), %ecx
	xorb	%cl, (%r15,%rax)
	incq	%rax
	jmp	.Lgcm_v1_BB38_9
.Lgcm_v1_BB38_12:                              # %"gcm_siv::message::process_text::<#a556ffa628b2ee02>.exit"
	movups	72(%rsp), %xmm0
	movups	%xmm0, (%rbx)
	addq	$104, %rsp
	popq	%rbx
	popq	%r12
	popq	%r14
	popq	%r15
	retq
	.seh_endproc
                                        # -- End function
	.def	gcm_v1.gcm.hash_room.hash_piece;
	.scl	3;
	.type	32;
	.endef
	.p2align	4                               # -- Begin function gcm::hash_room::hash_piece::<#d9ba0fa9ccec4268>
gcm_v1.gcm.hash_room.hash_piece: # @gcm_v1.gcm.hash_room.hash_piece
.seh_proc gcm_v1.gcm.hash_room.hash_piece
# %bb.0:                                # %start
	pushq	%rbp
	.seh_pushreg %rbp
	pushq	%r15
	.seh_pushreg %r15
	pushq	%r14
	.seh_pushreg %r14
	pushq	%r13
	.seh_pushreg %r13
	pushq	%r12
	.seh_pushreg %r12
	pushq	%rbx
	.seh_pushreg %rbx
	subq	$56, %rsp
	.seh_stackalloc 56
	.seh_endprologue
	movq	%r8, %rbx
	movq	%rdx, %r14
	movl	$16, %r8d
	subq	%rcx, %r8
	movq	%r9, %r13
	subq	%r8, %r13
	jae	.Lgcm_v1_BB39_4
# %bb.1:                                # %then.1
	leaq	(%r14,%rcx), %rax
	movq	%rax, %rdx
	subq	%rbx, %rdx
	cmpq	%r9, %rdx
	jae	.Lgcm_v1_BB39_7
# %bb.2:                                # %iter.check92
	cmpq	$4, %r9
	jb	.Lgcm_v1_BB39_3
# %bb.9:                                # %vector.memcheck86
	cmpq	$32, %rdx
	jae	.Lgcm_v1_BB39_13
.Lgcm_v1_BB39_3:
	xorl	%edx, %edx
.Lgcm_v1_BB39_43:                              # %join.7.i.i.i.i.i.i.preheader
	movq	%r9, %rdi
	movq	%rdx, %rsi
	andq	$3, %rdi
	je	.Lgcm_v1_BB39_46
# %bb.44:                               # %join.7.i.i.i.i.i.i.prol.preheader
	movq	%rdx, %rsi
	.p2align	4
.Lgcm_v1_BB39_45:                              # %join.7.i.i.i.i.i.i.prol
                                        # =>This Inner Loop Header: Depth=1
	movzbl	(%rbx,%rsi), %r8d
	movb	%r8b, (%rax,%rsi)
	incq	%rsi
	decq	%rdi
	jne	.Lgcm_v1_BB39_45
.Lgcm_v1_BB39_46:                              # %join.7.i.i.i.i.i.i.prol.loopexit
	subq	%r9, %rdx
	cmpq	$-4, %rdx
	ja	.Lgcm_v1_BB39_35
# %bb.47:                               # %join.7.i.i.i.i.i.i.preheader122
	leaq	(%rcx,%r14), %rax
	addq	$3, %rax
	.p2align	4
.Lgcm_v1_BB39_48:                              # %join.7.i.i.i.i.i.i
                                        # =>This Inner Loop Header: Depth=1
	movzbl	(%rbx,%rsi), %ecx
	movb	%cl, -3(%rax,%rsi)
	movzbl	1(%rbx,%rsi), %ecx
	movb	%cl, -2(%rax,%rsi)
	movzbl	2(%rbx,%rsi), %ecx
	movb	%cl, -1(%rax,%rsi)
	movzbl	3(%rbx,%rsi), %ecx
	movb	%cl, (%rax,%rsi)
	addq	$4, %rsi
	cmpq	%rsi, %r9
	jne	.Lgcm_v1_BB39_48
	jmp	.Lgcm_v1_BB39_35
.Lgcm_v1_BB39_4:                               # %join.3
	movq	%rsi, %r10
	movq	%rdi, %r11
	movq	(%rsi), %rsi
	movq	8(%r10), %rdi
	leaq	(%rbx,%r8), %r15
	leaq	(%r14,%rcx), %rax
	movq	%rax, %rdx
	subq	%rbx, %rdx
	cmpq	%r8, %rdx
	movq	%rcx, 48(%rsp)                  # 8-byte Spill
	movq	%r10, 40(%rsp)                  # 8-byte Spill
	jae	.Lgcm_v1_BB39_8
# %bb.5:                                # %iter.check
	cmpq	$12, %rcx
	jbe	.Lgcm_v1_BB39_11
# %bb.6:
	xorl	%ecx, %ecx
	jmp	.Lgcm_v1_BB39_20
.Lgcm_v1_BB39_7:                               # %apart.2.i.i.i.i.i.i
	movq	%rax, %rcx
	movq	%rbx, %rdx
	movq	%r9, %r8
	callq	memmove
	jmp	.Lgcm_v1_BB39_35
.Lgcm_v1_BB39_8:                               # %apart.2.i.i.i.i.i.i26
	movq	%rax, %rcx
	movq	%rbx, %rdx
	movq	%r11, %r12
	callq	memmove
	movq	%r12, %r11
	jmp	.Lgcm_v1_BB39_21
.Lgcm_v1_BB39_11:                              # %vector.memcheck
	cmpq	$16, %rdx
	jae	.Lgcm_v1_BB39_15
# %bb.12:
	xorl	%ecx, %ecx
	jmp	.Lgcm_v1_BB39_20
.Lgcm_v1_BB39_13:                              # %vector.main.loop.iter.check94
	cmpq	$32, %r9
	jae	.Lgcm_v1_BB39_36
# %bb.14:
	xorl	%edx, %edx
	jmp	.Lgcm_v1_BB39_40
.Lgcm_v1_BB39_15:                              # %vector.main.loop.iter.check
	testq	%rcx, %rcx
	je	.Lgcm_v1_BB39_49
# %bb.16:                               # %vec.epilog.ph
	movl	%r8d, %ecx
	andl	$-4, %ecx
	movl	(%rbx), %edx
	movl	%edx, (%rax)
	cmpq	$4, %rcx
	je	.Lgcm_v1_BB39_19
# %bb.17:                               # %vec.epilog.vector.body.1
	movl	4(%rbx), %edx
	movl	%edx, 4(%rax)
	cmpl	$8, %ecx
	je	.Lgcm_v1_BB39_19
# %bb.18:                               # %vec.epilog.vector.body.2
	movl	8(%rbx), %edx
	movl	%edx, 8(%rax)
.Lgcm_v1_BB39_19:                              # %vec.epilog.middle.block
	cmpl	%ecx, %r8d
	je	.Lgcm_v1_BB39_21
	.p2align	4
.Lgcm_v1_BB39_20:                              # %join.7.i.i.i.i.i.i27
                                        # =>This Inner Loop Header: Depth=1
	movzbl	(%rbx,%rcx), %edx
	movb	%dl, (%rax,%rcx)
	incq	%rcx
	cmpq	%rcx, %r8
	jne	.Lgcm_v1_BB39_20
.Lgcm_v1_BB39_21:                              # %"core::slice::edits::slice+T::copy_from_slice::<i8,20'core::clone::U8Clone{}>.exit34"
	movq	%r13, %rbp
	andq	$-16, %rbp
	movl	%r13d, %r12d
	xorq	8(%r14), %rdi
	xorq	(%r14), %rsi
	bswapq	%rsi
	bswapq	%rdi
	andl	$15, %r12d
	movq	%r11, 32(%rsp)                  # 8-byte Spill
	movq	(%r11), %rax
	movq	(%rax), %rcx
	movq	8(%rax), %rdx
	bswapq	%rdx
	bswapq	%rcx
	callq	gcm_v1.gcm.bitwise.product_bitwise
	leaq	(%r15,%rbp), %r8
	movq	%r14, %rcx
	subq	%r8, %rcx
	cmpq	%r12, %rcx
	jae	.Lgcm_v1_BB39_24
# %bb.22:                               # %join.7.i.i.i.i.i.i53.preheader
	movl	%r13d, %ecx
	andl	$3, %ecx
	cmpl	$4, %r12d
	jae	.Lgcm_v1_BB39_25
# %bb.23:
	movq	%rdx, %rsi
	movq	%rax, %rdi
	xorl	%r8d, %r8d
	movq	48(%rsp), %r9                   # 8-byte Reload
	movq	40(%rsp), %r12                  # 8-byte Reload
	movq	32(%rsp), %r11                  # 8-byte Reload
	jmp	.Lgcm_v1_BB39_28
.Lgcm_v1_BB39_24:                              # %apart.2.i.i.i.i.i.i52
	movq	%rdx, %rsi
	movq	%rax, %rdi
	movq	%r14, %rcx
	movq	%r8, %rdx
	movq	%r12, %r8
	callq	memmove
	movq	40(%rsp), %r12                  # 8-byte Reload
	movq	32(%rsp), %r11                  # 8-byte Reload
	jmp	.Lgcm_v1_BB39_30
.Lgcm_v1_BB39_25:                              # %join.7.i.i.i.i.i.i53.preheader.new
	movl	%r13d, %esi
	andl	$12, %esi
	movq	%rbp, %rdi
	movq	48(%rsp), %r9                   # 8-byte Reload
	subq	%r9, %rdi
	addq	%rbx, %rdi
	addq	$19, %rdi
	xorl	%r8d, %r8d
	movq	40(%rsp), %r12                  # 8-byte Reload
	movq	32(%rsp), %r11                  # 8-byte Reload
	.p2align	4
.Lgcm_v1_BB39_26:                              # %join.7.i.i.i.i.i.i53
                                        # =>This Inner Loop Header: Depth=1
	movzbl	-3(%rdi,%r8), %r10d
	movb	%r10b, (%r14,%r8)
	movzbl	-2(%rdi,%r8), %r10d
	movb	%r10b, 1(%r14,%r8)
	movzbl	-1(%rdi,%r8), %r10d
	movb	%r10b, 2(%r14,%r8)
	movzbl	(%rdi,%r8), %r10d
	movb	%r10b, 3(%r14,%r8)
	addq	$4, %r8
	cmpq	%r8, %rsi
	jne	.Lgcm_v1_BB39_26
# %bb.27:                               # %"core::slice::edits::slice+T::copy_from_slice::<i8,20'core::clone::U8Clone{}>.exit60.loopexit.unr-lcssa"
	movq	%rdx, %rsi
	movq	%rax, %rdi
	testq	%rcx, %rcx
	je	.Lgcm_v1_BB39_30
.Lgcm_v1_BB39_28:                              # %join.7.i.i.i.i.i.i53.epil.preheader
	addq	%r8, %rbp
	subq	%r9, %rbp
	leaq	(%rbx,%rbp), %rax
	addq	$16, %rax
	addq	%r8, %r14
	xorl	%edx, %edx
	.p2align	4
.Lgcm_v1_BB39_29:                              # %join.7.i.i.i.i.i.i53.epil
                                        # =>This Inner Loop Header: Depth=1
	movzbl	(%rax,%rdx), %r8d
	movb	%r8b, (%r14,%rdx)
	incq	%rdx
	cmpq	%rdx, %rcx
	jne	.Lgcm_v1_BB39_29
.Lgcm_v1_BB39_30:                              # %"core::slice::edits::slice+T::copy_from_slice::<i8,20'core::clone::U8Clone{}>.exit60"
	shrq	$4, %r13
	je	.Lgcm_v1_BB39_33
# %bb.31:                               # %join.5.i.i.preheader
	movq	(%r11), %rax
	movq	(%rax), %rbx
	movq	8(%rax), %r14
	bswapq	%rbx
	bswapq	%r14
	movq	%rdi, %rax
	movq	%rsi, %rdx
	.p2align	4
.Lgcm_v1_BB39_32:                              # %join.5.i.i
                                        # =>This Inner Loop Header: Depth=1
	movq	(%r15), %rsi
	movq	8(%r15), %rdi
	bswapq	%rsi
	xorq	%rdx, %rsi
	bswapq	%rdi
	xorq	%rax, %rdi
	movq	%r14, %rdx
	movq	%rbx, %rcx
	callq	gcm_v1.gcm.bitwise.product_bitwise
	addq	$16, %r15
	decq	%r13
	jne	.Lgcm_v1_BB39_32
	jmp	.Lgcm_v1_BB39_34
.Lgcm_v1_BB39_33:
	movq	%rdi, %rax
	movq	%rsi, %rdx
.Lgcm_v1_BB39_34:                              # %"gcm::single_blocks::hash_singly::<#165deadc48559e33>.exit"
	movq	%rdx, %xmm0
	movq	%rax, %xmm1
	pxor	%xmm2, %xmm2
	punpcklbw	%xmm2, %xmm1            # xmm1 = xmm1[0],xmm2[0],xmm1[1],xmm2[1],xmm1[2],xmm2[2],xmm1[3],xmm2[3],xmm1[4],xmm2[4],xmm1[5],xmm2[5],xmm1[6],xmm2[6],xmm1[7],xmm2[7]
	pshufd	$78, %xmm1, %xmm1               # xmm1 = xmm1[2,3,0,1]
	pshuflw	$27, %xmm1, %xmm1               # xmm1 = xmm1[3,2,1,0,4,5,6,7]
	pshufhw	$27, %xmm1, %xmm1               # xmm1 = xmm1[0,1,2,3,7,6,5,4]
	punpcklbw	%xmm2, %xmm0            # xmm0 = xmm0[0],xmm2[0],xmm0[1],xmm2[1],xmm0[2],xmm2[2],xmm0[3],xmm2[3],xmm0[4],xmm2[4],xmm0[5],xmm2[5],xmm0[6],xmm2[6],xmm0[7],xmm2[7]
	pshufd	$78, %xmm0, %xmm0               # xmm0 = xmm0[2,3,0,1]
	pshuflw	$27, %xmm0, %xmm0               # xmm0 = xmm0[3,2,1,0,4,5,6,7]
	pshufhw	$27, %xmm0, %xmm0               # xmm0 = xmm0[0,1,2,3,7,6,5,4]
	packuswb	%xmm1, %xmm0
	movdqu	%xmm0, (%r12)
.Lgcm_v1_BB39_35:                              # %common.ret
	addq	$56, %rsp
	popq	%rbx
	popq	%r12
	popq	%r13
	popq	%r14
	popq	%r15
	popq	%rbp
	retq
.Lgcm_v1_BB39_36:                              # %vector.ph95
	movq	%r9, %rdx
	andq	$-32, %rdx
	leaq	(%rcx,%r14), %rsi
	addq	$16, %rsi
	xorl	%edi, %edi
	.p2align	4
.Lgcm_v1_BB39_37:                              # %vector.body98
                                        # =>This Inner Loop Header: Depth=1
	movdqu	(%rbx,%rdi), %xmm0
	movdqu	16(%rbx,%rdi), %xmm1
	movdqu	%xmm0, -16(%rsi,%rdi)
	movdqu	%xmm1, (%rsi,%rdi)
	addq	$32, %rdi
	cmpq	%rdi, %rdx
	jne	.Lgcm_v1_BB39_37
# %bb.38:                               # %middle.block103
	cmpq	%rdx, %r9
	je	.Lgcm_v1_BB39_35
# %bb.39:                               # %vec.epilog.iter.check107
	testb	$28, %r9b
	je	.Lgcm_v1_BB39_43
.Lgcm_v1_BB39_40:                              # %vec.epilog.ph109
	movq	%rdx, %rsi
	movq	%r9, %rdx
	andq	$-4, %rdx
	.p2align	4
.Lgcm_v1_BB39_41:                              # %vec.epilog.vector.body112
                                        # =>This Inner Loop Header: Depth=1
	movl	(%rbx,%rsi), %edi
	movl	%edi, (%rax,%rsi)
	addq	$4, %rsi
	cmpq	%rsi, %rdx
	jne	.Lgcm_v1_BB39_41
# %bb.42:                               # %vec.epilog.middle.block116
	cmpq	%rdx, %r9
	je	.Lgcm_v1_BB39_35
	jmp	.Lgcm_v1_BB39_43
.Lgcm_v1_BB39_49:                              # %vector.body
	movups	(%rbx), %xmm0
	movups	%xmm0, (%rax)
	jmp	.Lgcm_v1_BB39_21
	.seh_endproc
                                        # -- End function
	.def	gcm_v1.gcm.mode.BorrowedGcm.enter_phase;
	.scl	3;
	.type	32;
	.endef
	.p2align	4                               # -- Begin function gcm::mode::BorrowedGcm::enter_phase::<#c01aad2b5fbc92b1>
gcm_v1.gcm.mode.BorrowedGcm.enter_phase: # @gcm_v1.gcm.mode.BorrowedGcm.enter_phase
.seh_proc gcm_v1.gcm.mode.BorrowedGcm.enter_phase
# %bb.0:                                # %start
	pushq	%rbp
	.seh_pushreg %rbp
	pushq	%rbx
	.seh_pushreg %rbx
	pushq	%rax
	.seh_stackalloc 8
	.seh_endprologue
	movq	24(%rsi), %rax
	xorl	%r8d, %r8d
	cmpq	$5, %rax
	cmovael	%r8d, %eax
	cmpb	$1, %al
	je	.Lgcm_v1_BB40_3
# %bb.1:                                # %start
	cmpb	%dl, %al
	je	.Lgcm_v1_BB40_3
# %bb.2:
	movb	$1, %al
	jmp	.Lgcm_v1_BB40_5
.Lgcm_v1_BB40_3:                               # %join.3
	cmpb	$1, %al
	setne	%al
	addq	8(%rsi), %rcx
	movq	$-1, %r8
	cmovaeq	%rcx, %r8
	movabsq	$68719476704, %rcx              # imm = 0xFFFFFFFE0
	cmpq	%rcx, %r8
	seta	%r8b
	orb	%r8b, %al
	movl	%r8d, %eax
	jne	.Lgcm_v1_BB40_5
# %bb.4:                                # %then.8
	movq	16(%rdi), %rdi
	movq	%rsi, %rbx
	movl	%edx, %ebp
	callq	gcm_v1.gcm.mode.BorrowedGcm.hash_so_far
	movq	%rdx, %xmm0
	movq	%rax, %xmm1
	pxor	%xmm2, %xmm2
	punpcklbw	%xmm2, %xmm1            # xmm1 = xmm1[0],xmm2[0],xmm1[1],xmm2[1],xmm1[2],xmm2[2],xmm1[3],xmm2[3],xmm1[4],xmm2[4],xmm1[5],xmm2[5],xmm1[6],xmm2[6],xmm1[7],xmm2[7]
	pshufd	$78, %xmm1, %xmm1               # xmm1 = xmm1[2,3,0,1]
	pshuflw	$27, %xmm1, %xmm1               # xmm1 = xmm1[3,2,1,0,4,5,6,7]
	pshufhw	$27, %xmm1, %xmm1               # xmm1 = xmm1[0,1,2,3,7,6,5,4]
	punpcklbw	%xmm2, %xmm0            # xmm0 = xmm0[0],xmm2[0],xmm0[1],xmm2[1],xmm0[2],xmm2[2],xmm0[3],xmm2[3],xmm0[4],xmm2[4],xmm0[5],xmm2[5],xmm0[6],xmm2[6],xmm0[7],xmm2[7]
	pshufd	$78, %xmm0, %xmm0               # xmm0 = xmm0[2,3,0,1]
	pshuflw	$27, %xmm0, %xmm0               # xmm0 = xmm0[3,2,1,0,4,5,6,7]
	pshufhw	$27, %xmm0, %xmm0               # xmm0 = xmm0[0,1,2,3,7,6,5,4]
	packuswb	%xmm1, %xmm0
	movdqu	%xmm0, 48(%rbx)
	movzbl	%bpl, %eax
	movq	%rax, 24(%rbx)
	xorl	%r8d, %r8d
	xorl	%eax, %eax
.Lgcm_v1_BB40_5:                               # %return.4
                                        # kill: def $al killed $al killed $eax
	movl	%r8d, %edx
	addq	$8, %rsp
	popq	%rbx
	popq	%rbp
	retq
	.seh_endproc
                                        # -- End function
	.def	gcm_v1.gcm.mode.BorrowedGcm.is_tag_so_far;
	.scl	3;
	.type	32;
	.endef
	.p2align	4                               # -- Begin function gcm::mode::BorrowedGcm::is_tag_so_far::<#c01aad2b5fbc92b1>
gcm_v1.gcm.mode.BorrowedGcm.is_tag_so_far: # @gcm_v1.gcm.mode.BorrowedGcm.is_tag_so_far
.seh_proc gcm_v1.gcm.mode.BorrowedGcm.is_tag_so_far
# %bb.0:                                # %start
	pushq	%r14
	.seh_pushreg %r14
	pushq	%rbx
	.seh_pushreg %rbx
	subq	$24, %rsp
	.seh_stackalloc 24
	.seh_endprologue
	movq	%rdx, %rbx
	leaq	8(%rsp), %r14
	movq	%r14, %rdx
	callq	gcm_v1.gcm.mode.BorrowedGcm.put_tag_so_far
	movq	%rbx, %rdi
	movq	%r14, %rsi
	callq	gcm_v1.aes_cipher.blocks.difference
	testl	%eax, %eax
	sete	%bl
	movq	%r14, %rdi
	callq	gcm_v1.aes_cipher.zeroize.elements.zeroize_elements.3
	movl	%ebx, %eax
	addq	$24, %rsp
	popq	%rbx
	popq	%r14
	retq
	.seh_endproc
                                        # -- End function
	.def	gcm_v1.gcm.mode.BorrowedGcm.is_short_tag_so_far;
	.scl	3;
	.type	32;
	.endef
	.p2align	4                               # -- Begin function gcm::mode::BorrowedGcm::is_short_tag_so_far::<#c01aad2b5fbc92b1>
gcm_v1.gcm.mode.BorrowedGcm.is_short_tag_so_far: # @gcm_v1.gcm.mode.BorrowedGcm.is_short_tag_so_far
.seh_proc gcm_v1.gcm.mode.BorrowedGcm.is_short_tag_so_far
# %bb.0:                                # %start
	pushq	%r15
	.seh_pushreg %r15
	pushq	%r14
	.seh_pushreg %r14
	pushq	%r12
	.seh_pushreg %r12
	pushq	%rbx
	.seh_pushreg %rbx
	subq	$72, %rsp
	.seh_stackalloc 72
	.seh_endprologue
	movq	%rcx, %rbx
	movq	%rdx, %r14
	leaq	56(%rsp), %r15
	movq	%r15, %rdx
	callq	gcm_v1.gcm.mode.BorrowedGcm.put_tag_so_far
	movups	56(%rsp), %xmm0
	movaps	%xmm0, 32(%rsp)
	leaq	32(%rsp), %r12
	movq	%r12, %rcx
	movq	%r14, %rdx
	movq	%rbx, %r8
	callq	memcpy
	movq	%r12, %rdi
	movq	%r15, %rsi
	callq	gcm_v1.aes_cipher.blocks.difference
	testl	%eax, %eax
	sete	%bl
	movq	%r15, %rdi
	callq	gcm_v1.aes_cipher.zeroize.elements.zeroize_elements.3
	movq	%r12, %rdi
	callq	gcm_v1.aes_cipher.zeroize.elements.zeroize_elements.3
	movl	%ebx, %eax
	addq	$72, %rsp
	popq	%rbx
	popq	%r12
	popq	%r14
	popq	%r15
	retq
	.seh_endproc
                                        # -- End function
	export_gcm_v1	fotsgure_gcm_key_length
	.p2align	4
gcm_v1.fotsgure_gcm_key_length:                # @gcm_v1.fotsgure_gcm_key_length
# %bb.0:                                # %start
	movl	(%rcx), %ecx
	xorl	%eax, %eax
	cmpq	$32, %rcx
	ja	.Lgcm_v1_BB43_3
# %bb.1:                                # %start
	movabsq	$4311810048, %rdx               # imm = 0x101010000
	btq	%rcx, %rdx
	jae	.Lgcm_v1_BB43_3
# %bb.2:                                # %then.1.i.i
	movq	%rcx, %rax
.Lgcm_v1_BB43_3:                               # %"gcm_c::kept::fotsgure_gcm_key_length.exit"
	pxor	%xmm0, %xmm0
	pxor	%xmm1, %xmm1
	pxor	%xmm2, %xmm2
	pxor	%xmm3, %xmm3
	pxor	%xmm4, %xmm4
	pxor	%xmm5, %xmm5
	xorl	%ecx, %ecx
	xorl	%edx, %edx
	xorl	%r8d, %r8d
	xorl	%r9d, %r9d
	xorl	%r10d, %r10d
	xorl	%r11d, %r11d
	retq
                                        # -- End function
	export_gcm_v1	fotsgure_gcm_siv_wipe
	.p2align	4
gcm_v1.fotsgure_gcm_siv_wipe:                  # @gcm_v1.fotsgure_gcm_siv_wipe
.seh_proc gcm_v1.fotsgure_gcm_siv_wipe
# %bb.0:                                # %start
	pushq	%rsi
	.seh_pushreg %rsi
	pushq	%rdi
	.seh_pushreg %rdi
	subq	$200, %rsp
	.seh_stackalloc 200
	movaps	%xmm15, 176(%rsp)               # 16-byte Spill
	.seh_savexmm %xmm15, 176
	movaps	%xmm14, 160(%rsp)               # 16-byte Spill
	.seh_savexmm %xmm14, 160
	movaps	%xmm13, 144(%rsp)               # 16-byte Spill
	.seh_savexmm %xmm13, 144
	movaps	%xmm12, 128(%rsp)               # 16-byte Spill
	.seh_savexmm %xmm12, 128
	movaps	%xmm11, 112(%rsp)               # 16-byte Spill
	.seh_savexmm %xmm11, 112
	movaps	%xmm10, 96(%rsp)                # 16-byte Spill
	.seh_savexmm %xmm10, 96
	movaps	%xmm9, 80(%rsp)                 # 16-byte Spill
	.seh_savexmm %xmm9, 80
	movaps	%xmm8, 64(%rsp)                 # 16-byte Spill
	.seh_savexmm %xmm8, 64
	movaps	%xmm7, 48(%rsp)                 # 16-byte Spill
	.seh_savexmm %xmm7, 48
	movaps	%xmm6, 32(%rsp)                 # 16-byte Spill
	.seh_savexmm %xmm6, 32
	.seh_endprologue
	leaq	4(%rcx), %rdi
	movl	$484, %r8d                      # imm = 0x1E4
	xorl	%edx, %edx
	callq	memset
	callq	gcm_v1.aes_cipher.zeroize.elements.zeroize_elements.1
	movaps	32(%rsp), %xmm6                 # 16-byte Reload
	movaps	48(%rsp), %xmm7                 # 16-byte Reload
	movaps	64(%rsp), %xmm8                 # 16-byte Reload
	movaps	80(%rsp), %xmm9                 # 16-byte Reload
	movaps	96(%rsp), %xmm10                # 16-byte Reload
	movaps	112(%rsp), %xmm11               # 16-byte Reload
	movaps	128(%rsp), %xmm12               # 16-byte Reload
	movaps	144(%rsp), %xmm13               # 16-byte Reload
	movaps	160(%rsp), %xmm14               # 16-byte Reload
	movaps	176(%rsp), %xmm15               # 16-byte Reload
	pxor	%xmm0, %xmm0
	pxor	%xmm1, %xmm1
	pxor	%xmm2, %xmm2
	pxor	%xmm3, %xmm3
	pxor	%xmm4, %xmm4
	pxor	%xmm5, %xmm5
	xorl	%ecx, %ecx
	xorl	%edx, %edx
	xorl	%r8d, %r8d
	xorl	%r9d, %r9d
	xorl	%r10d, %r10d
	xorl	%r11d, %r11d
	addq	$200, %rsp
	popq	%rdi
	popq	%rsi
	retq
	.seh_endproc
                                        # -- End function
	export_gcm_v1	fotsgure_gcm_version
	.p2align	4
gcm_v1.fotsgure_gcm_version:                   # @gcm_v1.fotsgure_gcm_version
# %bb.0:                                # %start
	movl	$400, %eax                      # imm = 0x190
	pxor	%xmm0, %xmm0
	pxor	%xmm1, %xmm1
	pxor	%xmm2, %xmm2
	pxor	%xmm3, %xmm3
	pxor	%xmm4, %xmm4
	pxor	%xmm5, %xmm5
	xorl	%ecx, %ecx
	xorl	%edx, %edx
	xorl	%r8d, %r8d
	xorl	%r9d, %r9d
	xorl	%r10d, %r10d
	xorl	%r11d, %r11d
	retq
                                        # -- End function
	export_gcm_v1	fotsgure_gcm_wipe
	.p2align	4
gcm_v1.fotsgure_gcm_wipe:                      # @gcm_v1.fotsgure_gcm_wipe
.seh_proc gcm_v1.fotsgure_gcm_wipe
# %bb.0:                                # %start
	pushq	%rsi
	.seh_pushreg %rsi
	pushq	%rdi
	.seh_pushreg %rdi
	pushq	%rbx
	.seh_pushreg %rbx
	subq	$192, %rsp
	.seh_stackalloc 192
	movaps	%xmm15, 176(%rsp)               # 16-byte Spill
	.seh_savexmm %xmm15, 176
	movaps	%xmm14, 160(%rsp)               # 16-byte Spill
	.seh_savexmm %xmm14, 160
	movaps	%xmm13, 144(%rsp)               # 16-byte Spill
	.seh_savexmm %xmm13, 144
	movaps	%xmm12, 128(%rsp)               # 16-byte Spill
	.seh_savexmm %xmm12, 128
	movaps	%xmm11, 112(%rsp)               # 16-byte Spill
	.seh_savexmm %xmm11, 112
	movaps	%xmm10, 96(%rsp)                # 16-byte Spill
	.seh_savexmm %xmm10, 96
	movaps	%xmm9, 80(%rsp)                 # 16-byte Spill
	.seh_savexmm %xmm9, 80
	movaps	%xmm8, 64(%rsp)                 # 16-byte Spill
	.seh_savexmm %xmm8, 64
	movaps	%xmm7, 48(%rsp)                 # 16-byte Spill
	.seh_savexmm %xmm7, 48
	movaps	%xmm6, 32(%rsp)                 # 16-byte Spill
	.seh_savexmm %xmm6, 32
	.seh_endprologue
	leaq	4(%rcx), %rdi
	leaq	484(%rcx), %rbx
	movl	$500, %r8d                      # imm = 0x1F4
	xorl	%edx, %edx
	callq	memset
	callq	gcm_v1.aes_cipher.zeroize.elements.zeroize_elements.1
	movq	%rbx, %rdi
	callq	gcm_v1.aes_cipher.zeroize.elements.zeroize_elements.2
	movaps	32(%rsp), %xmm6                 # 16-byte Reload
	movaps	48(%rsp), %xmm7                 # 16-byte Reload
	movaps	64(%rsp), %xmm8                 # 16-byte Reload
	movaps	80(%rsp), %xmm9                 # 16-byte Reload
	movaps	96(%rsp), %xmm10                # 16-byte Reload
	movaps	112(%rsp), %xmm11               # 16-byte Reload
	movaps	128(%rsp), %xmm12               # 16-byte Reload
	movaps	144(%rsp), %xmm13               # 16-byte Reload
	movaps	160(%rsp), %xmm14               # 16-byte Reload
	movaps	176(%rsp), %xmm15               # 16-byte Reload
	pxor	%xmm0, %xmm0
	pxor	%xmm1, %xmm1
	pxor	%xmm2, %xmm2
	pxor	%xmm3, %xmm3
	pxor	%xmm4, %xmm4
	pxor	%xmm5, %xmm5
	xorl	%ecx, %ecx
	xorl	%edx, %edx
	xorl	%r8d, %r8d
	xorl	%r9d, %r9d
	xorl	%r10d, %r10d
	xorl	%r11d, %r11d
	addq	$192, %rsp
	popq	%rbx
	popq	%rdi
	popq	%rsi
	retq
	.seh_endproc
                                        # -- End function
	export_gcm_v1	fotsgure_gcm_wipe_message
	.p2align	4
gcm_v1.fotsgure_gcm_wipe_message:              # @gcm_v1.fotsgure_gcm_wipe_message
.seh_proc gcm_v1.fotsgure_gcm_wipe_message
# %bb.0:                                # %start
	pushq	%rsi
	.seh_pushreg %rsi
	pushq	%rdi
	.seh_pushreg %rdi
	subq	$168, %rsp
	.seh_stackalloc 168
	movaps	%xmm15, 144(%rsp)               # 16-byte Spill
	.seh_savexmm %xmm15, 144
	movaps	%xmm14, 128(%rsp)               # 16-byte Spill
	.seh_savexmm %xmm14, 128
	movaps	%xmm13, 112(%rsp)               # 16-byte Spill
	.seh_savexmm %xmm13, 112
	movaps	%xmm12, 96(%rsp)                # 16-byte Spill
	.seh_savexmm %xmm12, 96
	movaps	%xmm11, 80(%rsp)                # 16-byte Spill
	.seh_savexmm %xmm11, 80
	movaps	%xmm10, 64(%rsp)                # 16-byte Spill
	.seh_savexmm %xmm10, 64
	movaps	%xmm9, 48(%rsp)                 # 16-byte Spill
	.seh_savexmm %xmm9, 48
	movaps	%xmm8, 32(%rsp)                 # 16-byte Spill
	.seh_savexmm %xmm8, 32
	movaps	%xmm7, 16(%rsp)                 # 16-byte Spill
	.seh_savexmm %xmm7, 16
	movaps	%xmm6, (%rsp)                   # 16-byte Spill
	.seh_savexmm %xmm6, 0
	.seh_endprologue
	xorps	%xmm0, %xmm0
	movups	%xmm0, 64(%rcx)
	movups	%xmm0, 48(%rcx)
	movups	%xmm0, 32(%rcx)
	movups	%xmm0, 16(%rcx)
	movups	%xmm0, (%rcx)
	movq	%rcx, %rdi
	callq	gcm_v1.gcm.message_state.MessageZeroize.zeroize
	movaps	(%rsp), %xmm6                   # 16-byte Reload
	movaps	16(%rsp), %xmm7                 # 16-byte Reload
	movaps	32(%rsp), %xmm8                 # 16-byte Reload
	movaps	48(%rsp), %xmm9                 # 16-byte Reload
	movaps	64(%rsp), %xmm10                # 16-byte Reload
	movaps	80(%rsp), %xmm11                # 16-byte Reload
	movaps	96(%rsp), %xmm12                # 16-byte Reload
	movaps	112(%rsp), %xmm13               # 16-byte Reload
	movaps	128(%rsp), %xmm14               # 16-byte Reload
	movaps	144(%rsp), %xmm15               # 16-byte Reload
	pxor	%xmm0, %xmm0
	pxor	%xmm1, %xmm1
	pxor	%xmm2, %xmm2
	pxor	%xmm3, %xmm3
	pxor	%xmm4, %xmm4
	pxor	%xmm5, %xmm5
	xorl	%ecx, %ecx
	xorl	%edx, %edx
	xorl	%r8d, %r8d
	xorl	%r9d, %r9d
	xorl	%r10d, %r10d
	xorl	%r11d, %r11d
	addq	$168, %rsp
	popq	%rdi
	popq	%rsi
	retq
	.seh_endproc
                                        # -- End function
	export_gcm_v1	fotsgure_gcm_siv_set_key
	.p2align	4
gcm_v1.fotsgure_gcm_siv_set_key:               # @gcm_v1.fotsgure_gcm_siv_set_key
.seh_proc gcm_v1.fotsgure_gcm_siv_set_key
# %bb.0:                                # %start
	pushq	%r14
	.seh_pushreg %r14
	pushq	%rsi
	.seh_pushreg %rsi
	pushq	%rdi
	.seh_pushreg %rdi
	pushq	%rbp
	.seh_pushreg %rbp
	pushq	%rbx
	.seh_pushreg %rbx
	subq	$192, %rsp
	.seh_stackalloc 192
	movaps	%xmm15, 176(%rsp)               # 16-byte Spill
	.seh_savexmm %xmm15, 176
	movaps	%xmm14, 160(%rsp)               # 16-byte Spill
	.seh_savexmm %xmm14, 160
	movaps	%xmm13, 144(%rsp)               # 16-byte Spill
	.seh_savexmm %xmm13, 144
	movaps	%xmm12, 128(%rsp)               # 16-byte Spill
	.seh_savexmm %xmm12, 128
	movaps	%xmm11, 112(%rsp)               # 16-byte Spill
	.seh_savexmm %xmm11, 112
	movaps	%xmm10, 96(%rsp)                # 16-byte Spill
	.seh_savexmm %xmm10, 96
	movaps	%xmm9, 80(%rsp)                 # 16-byte Spill
	.seh_savexmm %xmm9, 80
	movaps	%xmm8, 64(%rsp)                 # 16-byte Spill
	.seh_savexmm %xmm8, 64
	movaps	%xmm7, 48(%rsp)                 # 16-byte Spill
	.seh_savexmm %xmm7, 48
	movaps	%xmm6, 32(%rsp)                 # 16-byte Spill
	.seh_savexmm %xmm6, 32
	.seh_endprologue
	movq	%r8, %rbx
	cmpq	$16, %r8
	je	.Lgcm_v1_BB48_3
# %bb.1:                                # %start
	cmpq	$32, %rbx
	jne	.Lgcm_v1_BB48_2
.Lgcm_v1_BB48_3:                               # %join.3.i
	xorl	%esi, %esi
	testq	%rdx, %rdx
	sete	%sil
	shll	$12, %esi
	addq	%rdx, %rsi
	leaq	4(%rcx), %rdi
	xorl	%ebp, %ebp
	movl	$480, %r8d                      # imm = 0x1E0
	movq	%rcx, %r14
	movq	%rdi, %rcx
	xorl	%edx, %edx
	callq	memset
	movq	%rbx, %rdx
	callq	gcm_v1.aes_narrow.word_room.expand_words
	callq	gcm_v1.aes_cipher.zeroize.stack.wipe_stack.768
	movl	%ebx, (%r14)
	jmp	.Lgcm_v1_BB48_4
.Lgcm_v1_BB48_2:                               # %then.1.i
	movl	$484, %r8d                      # imm = 0x1E4
	xorl	%edx, %edx
	callq	memset
	movl	$1, %ebp
.Lgcm_v1_BB48_4:                               # %"gcm_c::siv_kept::fotsgure_gcm_siv_set_key.exit"
	movl	%ebp, %eax
	movaps	32(%rsp), %xmm6                 # 16-byte Reload
	movaps	48(%rsp), %xmm7                 # 16-byte Reload
	movaps	64(%rsp), %xmm8                 # 16-byte Reload
	movaps	80(%rsp), %xmm9                 # 16-byte Reload
	movaps	96(%rsp), %xmm10                # 16-byte Reload
	movaps	112(%rsp), %xmm11               # 16-byte Reload
	movaps	128(%rsp), %xmm12               # 16-byte Reload
	movaps	144(%rsp), %xmm13               # 16-byte Reload
	movaps	160(%rsp), %xmm14               # 16-byte Reload
	movaps	176(%rsp), %xmm15               # 16-byte Reload
	pxor	%xmm0, %xmm0
	pxor	%xmm1, %xmm1
	pxor	%xmm2, %xmm2
	pxor	%xmm3, %xmm3
	pxor	%xmm4, %xmm4
	pxor	%xmm5, %xmm5
	xorl	%ecx, %ecx
	xorl	%edx, %edx
	xorl	%r8d, %r8d
	xorl	%r9d, %r9d
	xorl	%r10d, %r10d
	xorl	%r11d, %r11d
	addq	$192, %rsp
	popq	%rbx
	popq	%rbp
	popq	%rdi
	popq	%rsi
	popq	%r14
	retq
	.seh_endproc
                                        # -- End function
	export_gcm_v1	fotsgure_gcm_begin
	.p2align	4
gcm_v1.fotsgure_gcm_begin:                     # @gcm_v1.fotsgure_gcm_begin
.seh_proc gcm_v1.fotsgure_gcm_begin
# %bb.0:                                # %start
	pushq	%r14
	.seh_pushreg %r14
	pushq	%rsi
	.seh_pushreg %rsi
	pushq	%rdi
	.seh_pushreg %rdi
	pushq	%rbx
	.seh_pushreg %rbx
	subq	$200, %rsp
	.seh_stackalloc 200
	movaps	%xmm15, 176(%rsp)               # 16-byte Spill
	.seh_savexmm %xmm15, 176
	movaps	%xmm14, 160(%rsp)               # 16-byte Spill
	.seh_savexmm %xmm14, 160
	movaps	%xmm13, 144(%rsp)               # 16-byte Spill
	.seh_savexmm %xmm13, 144
	movaps	%xmm12, 128(%rsp)               # 16-byte Spill
	.seh_savexmm %xmm12, 128
	movaps	%xmm11, 112(%rsp)               # 16-byte Spill
	.seh_savexmm %xmm11, 112
	movaps	%xmm10, 96(%rsp)                # 16-byte Spill
	.seh_savexmm %xmm10, 96
	movaps	%xmm9, 80(%rsp)                 # 16-byte Spill
	.seh_savexmm %xmm9, 80
	movaps	%xmm8, 64(%rsp)                 # 16-byte Spill
	.seh_savexmm %xmm8, 64
	movaps	%xmm7, 48(%rsp)                 # 16-byte Spill
	.seh_savexmm %xmm7, 48
	movaps	%xmm6, 32(%rsp)                 # 16-byte Spill
	.seh_savexmm %xmm6, 32
	.seh_endprologue
	xorl	%r10d, %r10d
	testq	%r8, %r8
	sete	%r11b
	movabsq	$-2305843009213693952, %rsi     # imm = 0xE000000000000000
	leaq	(%r9,%rsi), %rdi
	incq	%rsi
	movl	$3, %eax
	cmpq	%rsi, %rdi
	jb	.Lgcm_v1_BB49_5
# %bb.1:                                # %after.1.i
	movl	(%rcx), %esi
	movl	$2, %eax
	cmpq	$32, %rsi
	ja	.Lgcm_v1_BB49_5
# %bb.2:                                # %after.1.i
	movabsq	$4311810048, %rdi               # imm = 0x101010000
	btq	%rsi, %rdi
	jae	.Lgcm_v1_BB49_5
# %bb.3:                                # %join.13.i
	movb	%r11b, %r10b
	shll	$12, %r10d
	addq	%r10, %r8
	leaq	4(%rcx), %rax
	leaq	56(,%rsi,2), %r10
	addq	$484, %rcx                      # imm = 0x1E4
	movq	%rax, 8(%rsp)
	movq	%r10, 16(%rsp)
	movq	%rcx, 24(%rsp)
	leaq	32(%rdx), %rcx
	leaq	8(%rsp), %rdi
	movq	%r8, %rsi
	movq	%rdx, %rbx
	movq	%r9, %rdx
	movq	%r9, %r14
	callq	gcm_v1.gcm.mode.BorrowedGcm.put_pre_counter
	movq	$1, 24(%rbx)
	xorl	%eax, %eax
	xorps	%xmm0, %xmm0
	movups	%xmm0, (%rbx)
	movq	$0, 16(%rbx)
	movups	%xmm0, 48(%rbx)
	movups	%xmm0, 64(%rbx)
	cmpq	$12, %r14
	je	.Lgcm_v1_BB49_5
# %bb.4:                                # %then.1.i.i.i
	callq	gcm_v1.aes_cipher.zeroize.stack.wipe_stack.512
	xorl	%eax, %eax
.Lgcm_v1_BB49_5:                               # %"gcm_c::pieces::fotsgure_gcm_begin.exit"
	movaps	32(%rsp), %xmm6                 # 16-byte Reload
	movaps	48(%rsp), %xmm7                 # 16-byte Reload
	movaps	64(%rsp), %xmm8                 # 16-byte Reload
	movaps	80(%rsp), %xmm9                 # 16-byte Reload
	movaps	96(%rsp), %xmm10                # 16-byte Reload
	movaps	112(%rsp), %xmm11               # 16-byte Reload
	movaps	128(%rsp), %xmm12               # 16-byte Reload
	movaps	144(%rsp), %xmm13               # 16-byte Reload
	movaps	160(%rsp), %xmm14               # 16-byte Reload
	movaps	176(%rsp), %xmm15               # 16-byte Reload
	pxor	%xmm0, %xmm0
	pxor	%xmm1, %xmm1
	pxor	%xmm2, %xmm2
	pxor	%xmm3, %xmm3
	pxor	%xmm4, %xmm4
	pxor	%xmm5, %xmm5
	xorl	%ecx, %ecx
	xorl	%edx, %edx
	xorl	%r8d, %r8d
	xorl	%r9d, %r9d
	xorl	%r10d, %r10d
	xorl	%r11d, %r11d
	addq	$200, %rsp
	popq	%rbx
	popq	%rdi
	popq	%rsi
	popq	%r14
	retq
	.seh_endproc
                                        # -- End function
	export_gcm_v1	fotsgure_gcm_begin_next
	.p2align	4
gcm_v1.fotsgure_gcm_begin_next:                # @gcm_v1.fotsgure_gcm_begin_next
.seh_proc gcm_v1.fotsgure_gcm_begin_next
# %bb.0:                                # %start
	pushq	%r14
	.seh_pushreg %r14
	pushq	%rsi
	.seh_pushreg %rsi
	pushq	%rdi
	.seh_pushreg %rdi
	pushq	%rbx
	.seh_pushreg %rbx
	subq	$216, %rsp
	.seh_stackalloc 216
	movaps	%xmm15, 192(%rsp)               # 16-byte Spill
	.seh_savexmm %xmm15, 192
	movaps	%xmm14, 176(%rsp)               # 16-byte Spill
	.seh_savexmm %xmm14, 176
	movaps	%xmm13, 160(%rsp)               # 16-byte Spill
	.seh_savexmm %xmm13, 160
	movaps	%xmm12, 144(%rsp)               # 16-byte Spill
	.seh_savexmm %xmm12, 144
	movaps	%xmm11, 128(%rsp)               # 16-byte Spill
	.seh_savexmm %xmm11, 128
	movaps	%xmm10, 112(%rsp)               # 16-byte Spill
	.seh_savexmm %xmm10, 112
	movaps	%xmm9, 96(%rsp)                 # 16-byte Spill
	.seh_savexmm %xmm9, 96
	movaps	%xmm8, 80(%rsp)                 # 16-byte Spill
	.seh_savexmm %xmm8, 80
	movaps	%xmm7, 64(%rsp)                 # 16-byte Spill
	.seh_savexmm %xmm7, 64
	movaps	%xmm6, 48(%rsp)                 # 16-byte Spill
	.seh_savexmm %xmm6, 48
	.seh_endprologue
	movq	%r9, %rbx
	movl	(%r8), %r10d
	movq	4(%r8), %r9
	cmpq	$-1, %r9
	sete	%r11b
	cmpl	$-1, %r10d
	sete	%sil
	movl	$7, %eax
	testb	%sil, %r11b
	jne	.Lgcm_v1_BB50_9
# %bb.1:                                # %join.3.i
	movl	(%rcx), %r11d
	movl	$2, %eax
	cmpq	$32, %r11
	ja	.Lgcm_v1_BB50_9
# %bb.2:                                # %join.3.i
	movabsq	$4311810048, %rsi               # imm = 0x101010000
	btq	%r11, %rsi
	jae	.Lgcm_v1_BB50_9
# %bb.3:                                # %join.6.i
	leaq	4(%rcx), %rax
	addq	$484, %rcx                      # imm = 0x1E4
	leaq	56(,%r11,2), %r11
	movq	%rax, 24(%rsp)
	movq	%r11, 32(%rsp)
	movq	%rcx, 40(%rsp)
	movl	%r10d, %eax
	bswapl	%eax
	cmpq	$-1, %r9
	je	.Lgcm_v1_BB50_5
# %bb.4:                                # %"gcm::counter::nonce_after.exit.thread.i.i.i"
	movq	%r9, %rcx
	bswapq	%rcx
	incq	%rcx
	bswapq	%rcx
	jmp	.Lgcm_v1_BB50_7
.Lgcm_v1_BB50_5:                               # %"gcm::counter::nonce_after.exit.i.i.i"
	cmpl	$-1, %r10d
	je	.Lgcm_v1_BB50_8
# %bb.6:
	incl	%eax
	xorl	%ecx, %ecx
.Lgcm_v1_BB50_7:                               # %arm.1.i.i.i
	bswapl	%eax
	movl	%eax, (%r8)
	movq	%rcx, 4(%r8)
.Lgcm_v1_BB50_8:                               # %"gcm::mode::BorrowedGcm::begin_next::<#c01aad2b5fbc92b1>.exit.i"
	movl	%r10d, 12(%rsp)
	movq	%r9, 16(%rsp)
	leaq	32(%rdx), %rcx
	leaq	24(%rsp), %rdi
	leaq	12(%rsp), %rsi
	movq	%rdx, %r14
	movl	$12, %edx
	callq	gcm_v1.gcm.mode.BorrowedGcm.put_pre_counter
	movq	$1, 24(%r14)
	xorps	%xmm0, %xmm0
	movups	%xmm0, (%r14)
	movq	$0, 16(%r14)
	movups	%xmm0, 48(%r14)
	movups	%xmm0, 64(%r14)
	movl	20(%rsp), %eax
	movl	%eax, 8(%rbx)
	movq	12(%rsp), %rax
	movq	%rax, (%rbx)
	xorl	%eax, %eax
.Lgcm_v1_BB50_9:                               # %"gcm_c::counter::fotsgure_gcm_begin_next.exit"
	movaps	48(%rsp), %xmm6                 # 16-byte Reload
	movaps	64(%rsp), %xmm7                 # 16-byte Reload
	movaps	80(%rsp), %xmm8                 # 16-byte Reload
	movaps	96(%rsp), %xmm9                 # 16-byte Reload
	movaps	112(%rsp), %xmm10               # 16-byte Reload
	movaps	128(%rsp), %xmm11               # 16-byte Reload
	movaps	144(%rsp), %xmm12               # 16-byte Reload
	movaps	160(%rsp), %xmm13               # 16-byte Reload
	movaps	176(%rsp), %xmm14               # 16-byte Reload
	movaps	192(%rsp), %xmm15               # 16-byte Reload
	pxor	%xmm0, %xmm0
	pxor	%xmm1, %xmm1
	pxor	%xmm2, %xmm2
	pxor	%xmm3, %xmm3
	pxor	%xmm4, %xmm4
	pxor	%xmm5, %xmm5
	xorl	%ecx, %ecx
	xorl	%edx, %edx
	xorl	%r8d, %r8d
	xorl	%r9d, %r9d
	xorl	%r10d, %r10d
	xorl	%r11d, %r11d
	addq	$216, %rsp
	popq	%rbx
	popq	%rdi
	popq	%rsi
	popq	%r14
	retq
	.seh_endproc
                                        # -- End function
	export_gcm_v1	fotsgure_gcm_finish
	.p2align	4
gcm_v1.fotsgure_gcm_finish:                    # @gcm_v1.fotsgure_gcm_finish
.seh_proc gcm_v1.fotsgure_gcm_finish
# %bb.0:                                # %start
	pushq	%r14
	.seh_pushreg %r14
	pushq	%rsi
	.seh_pushreg %rsi
	pushq	%rdi
	.seh_pushreg %rdi
	pushq	%rbx
	.seh_pushreg %rbx
	subq	$216, %rsp
	.seh_stackalloc 216
	movaps	%xmm15, 192(%rsp)               # 16-byte Spill
	.seh_savexmm %xmm15, 192
	movaps	%xmm14, 176(%rsp)               # 16-byte Spill
	.seh_savexmm %xmm14, 176
	movaps	%xmm13, 160(%rsp)               # 16-byte Spill
	.seh_savexmm %xmm13, 160
	movaps	%xmm12, 144(%rsp)               # 16-byte Spill
	.seh_savexmm %xmm12, 144
	movaps	%xmm11, 128(%rsp)               # 16-byte Spill
	.seh_savexmm %xmm11, 128
	movaps	%xmm10, 112(%rsp)               # 16-byte Spill
	.seh_savexmm %xmm10, 112
	movaps	%xmm9, 96(%rsp)                 # 16-byte Spill
	.seh_savexmm %xmm9, 96
	movaps	%xmm8, 80(%rsp)                 # 16-byte Spill
	.seh_savexmm %xmm8, 80
	movaps	%xmm7, 64(%rsp)                 # 16-byte Spill
	.seh_savexmm %xmm7, 64
	movaps	%xmm6, 48(%rsp)                 # 16-byte Spill
	.seh_savexmm %xmm6, 48
	.seh_endprologue
	movq	%r8, %rbx
	movl	(%rcx), %r8d
	movl	$2, %eax
	cmpq	$32, %r8
	ja	.Lgcm_v1_BB51_4
# %bb.1:                                # %start
	movabsq	$4311810048, %r9                # imm = 0x101010000
	btq	%r8, %r9
	jae	.Lgcm_v1_BB51_4
# %bb.2:                                # %join.3.i
	leaq	4(%rcx), %rax
	leaq	56(,%r8,2), %r8
	addq	$484, %rcx                      # imm = 0x1E4
	movq	%rax, 8(%rsp)
	movq	%r8, 16(%rsp)
	movq	%rcx, 24(%rsp)
	movq	24(%rdx), %rax
	cmpq	$5, %rax
	setb	%cl
	decb	%al
	cmpb	$2, %al
	setb	%r8b
	andb	%cl, %r8b
	movl	$8, %eax
	cmpb	$1, %r8b
	jne	.Lgcm_v1_BB51_4
# %bb.3:                                # %arm.4.i
	leaq	8(%rsp), %rdi
	leaq	32(%rsp), %rax
	movq	%rdx, %rsi
	movq	%rdx, %r14
	movq	%rax, %rdx
	callq	gcm_v1.gcm.mode.BorrowedGcm.put_tag_so_far
	callq	gcm_v1.aes_cipher.zeroize.stack.wipe_stack.512
	movq	%r14, %rdi
	callq	gcm_v1.gcm.message_state.MessageZeroize.zeroize
	movups	32(%rsp), %xmm0
	movups	%xmm0, (%rbx)
	xorl	%eax, %eax
.Lgcm_v1_BB51_4:                               # %"gcm_c::pieces::encrypting::fotsgure_gcm_finish.exit"
	movaps	48(%rsp), %xmm6                 # 16-byte Reload
	movaps	64(%rsp), %xmm7                 # 16-byte Reload
	movaps	80(%rsp), %xmm8                 # 16-byte Reload
	movaps	96(%rsp), %xmm9                 # 16-byte Reload
	movaps	112(%rsp), %xmm10               # 16-byte Reload
	movaps	128(%rsp), %xmm11               # 16-byte Reload
	movaps	144(%rsp), %xmm12               # 16-byte Reload
	movaps	160(%rsp), %xmm13               # 16-byte Reload
	movaps	176(%rsp), %xmm14               # 16-byte Reload
	movaps	192(%rsp), %xmm15               # 16-byte Reload
	pxor	%xmm0, %xmm0
	pxor	%xmm1, %xmm1
	pxor	%xmm2, %xmm2
	pxor	%xmm3, %xmm3
	pxor	%xmm4, %xmm4
	pxor	%xmm5, %xmm5
	xorl	%ecx, %ecx
	xorl	%edx, %edx
	xorl	%r8d, %r8d
	xorl	%r9d, %r9d
	xorl	%r10d, %r10d
	xorl	%r11d, %r11d
	addq	$216, %rsp
	popq	%rbx
	popq	%rdi
	popq	%rsi
	popq	%r14
	retq
	.seh_endproc
                                        # -- End function
	export_gcm_v1	fotsgure_gcm_finish_unverified
	.p2align	4
gcm_v1.fotsgure_gcm_finish_unverified:         # @gcm_v1.fotsgure_gcm_finish_unverified
.seh_proc gcm_v1.fotsgure_gcm_finish_unverified
# %bb.0:                                # %start
	pushq	%r14
	.seh_pushreg %r14
	pushq	%rsi
	.seh_pushreg %rsi
	pushq	%rdi
	.seh_pushreg %rdi
	pushq	%rbx
	.seh_pushreg %rbx
	subq	$200, %rsp
	.seh_stackalloc 200
	movaps	%xmm15, 176(%rsp)               # 16-byte Spill
	.seh_savexmm %xmm15, 176
	movaps	%xmm14, 160(%rsp)               # 16-byte Spill
	.seh_savexmm %xmm14, 160
	movaps	%xmm13, 144(%rsp)               # 16-byte Spill
	.seh_savexmm %xmm13, 144
	movaps	%xmm12, 128(%rsp)               # 16-byte Spill
	.seh_savexmm %xmm12, 128
	movaps	%xmm11, 112(%rsp)               # 16-byte Spill
	.seh_savexmm %xmm11, 112
	movaps	%xmm10, 96(%rsp)                # 16-byte Spill
	.seh_savexmm %xmm10, 96
	movaps	%xmm9, 80(%rsp)                 # 16-byte Spill
	.seh_savexmm %xmm9, 80
	movaps	%xmm8, 64(%rsp)                 # 16-byte Spill
	.seh_savexmm %xmm8, 64
	movaps	%xmm7, 48(%rsp)                 # 16-byte Spill
	.seh_savexmm %xmm7, 48
	movaps	%xmm6, 32(%rsp)                 # 16-byte Spill
	.seh_savexmm %xmm6, 32
	.seh_endprologue
	movl	(%rcx), %eax
	movl	$2, %ebx
	cmpq	$32, %rax
	ja	.Lgcm_v1_BB52_5
# %bb.1:                                # %start
	movabsq	$4311810048, %r9                # imm = 0x101010000
	btq	%rax, %r9
	jae	.Lgcm_v1_BB52_5
# %bb.2:                                # %join.3.i
	leaq	4(%rcx), %r9
	leaq	56(,%rax,2), %rax
	addq	$484, %rcx                      # imm = 0x1E4
	movq	%r9, 8(%rsp)
	movq	%rax, 16(%rsp)
	movq	%rcx, 24(%rsp)
	movq	24(%rdx), %rax
	xorl	%ebx, %ebx
	cmpq	$5, %rax
	cmovael	%ebx, %eax
	orl	$2, %eax
	movzbl	%al, %eax
	cmpl	$3, %eax
	jne	.Lgcm_v1_BB52_3
# %bb.4:                                # %arm.4.i
	leaq	8(%rsp), %rdi
	movq	%rdx, %rsi
	movq	%rdx, %r14
	movq	%r8, %rdx
	callq	gcm_v1.gcm.mode.BorrowedGcm.put_tag_so_far
	callq	gcm_v1.aes_cipher.zeroize.stack.wipe_stack.512
	movq	%r14, %rdi
	callq	gcm_v1.gcm.message_state.MessageZeroize.zeroize
	jmp	.Lgcm_v1_BB52_5
.Lgcm_v1_BB52_3:
	movl	$8, %ebx
.Lgcm_v1_BB52_5:                               # %"gcm_c::pieces::decrypting::fotsgure_gcm_finish_unverified.exit"
	movl	%ebx, %eax
	movaps	32(%rsp), %xmm6                 # 16-byte Reload
	movaps	48(%rsp), %xmm7                 # 16-byte Reload
	movaps	64(%rsp), %xmm8                 # 16-byte Reload
	movaps	80(%rsp), %xmm9                 # 16-byte Reload
	movaps	96(%rsp), %xmm10                # 16-byte Reload
	movaps	112(%rsp), %xmm11               # 16-byte Reload
	movaps	128(%rsp), %xmm12               # 16-byte Reload
	movaps	144(%rsp), %xmm13               # 16-byte Reload
	movaps	160(%rsp), %xmm14               # 16-byte Reload
	movaps	176(%rsp), %xmm15               # 16-byte Reload
	pxor	%xmm0, %xmm0
	pxor	%xmm1, %xmm1
	pxor	%xmm2, %xmm2
	pxor	%xmm3, %xmm3
	pxor	%xmm4, %xmm4
	pxor	%xmm5, %xmm5
	xorl	%ecx, %ecx
	xorl	%edx, %edx
	xorl	%r8d, %r8d
	xorl	%r9d, %r9d
	xorl	%r10d, %r10d
	xorl	%r11d, %r11d
	addq	$200, %rsp
	popq	%rbx
	popq	%rdi
	popq	%rsi
	popq	%r14
	retq
	.seh_endproc
                                        # -- End function
	export_gcm_v1	fotsgure_gcm_set_key
	.p2align	4
gcm_v1.fotsgure_gcm_set_key:                   # @gcm_v1.fotsgure_gcm_set_key
.seh_proc gcm_v1.fotsgure_gcm_set_key
# %bb.0:                                # %start
	pushq	%r15
	.seh_pushreg %r15
	pushq	%r14
	.seh_pushreg %r14
	pushq	%rsi
	.seh_pushreg %rsi
	pushq	%rdi
	.seh_pushreg %rdi
	pushq	%rbp
	.seh_pushreg %rbp
	pushq	%rbx
	.seh_pushreg %rbx
	subq	$200, %rsp
	.seh_stackalloc 200
	movaps	%xmm15, 176(%rsp)               # 16-byte Spill
	.seh_savexmm %xmm15, 176
	movaps	%xmm14, 160(%rsp)               # 16-byte Spill
	.seh_savexmm %xmm14, 160
	movaps	%xmm13, 144(%rsp)               # 16-byte Spill
	.seh_savexmm %xmm13, 144
	movaps	%xmm12, 128(%rsp)               # 16-byte Spill
	.seh_savexmm %xmm12, 128
	movaps	%xmm11, 112(%rsp)               # 16-byte Spill
	.seh_savexmm %xmm11, 112
	movaps	%xmm10, 96(%rsp)                # 16-byte Spill
	.seh_savexmm %xmm10, 96
	movaps	%xmm9, 80(%rsp)                 # 16-byte Spill
	.seh_savexmm %xmm9, 80
	movaps	%xmm8, 64(%rsp)                 # 16-byte Spill
	.seh_savexmm %xmm8, 64
	movaps	%xmm7, 48(%rsp)                 # 16-byte Spill
	.seh_savexmm %xmm7, 48
	movaps	%xmm6, 32(%rsp)                 # 16-byte Spill
	.seh_savexmm %xmm6, 32
	.seh_endprologue
	cmpq	$32, %r8
	ja	.Lgcm_v1_BB53_2
# %bb.1:                                # %start
	movq	%r8, %rbx
	movabsq	$4311810048, %rax               # imm = 0x101010000
	btq	%r8, %rax
	jae	.Lgcm_v1_BB53_2
# %bb.3:                                # %join.3.i
	xorl	%esi, %esi
	testq	%rdx, %rdx
	sete	%sil
	shll	$12, %esi
	addq	%rdx, %rsi
	leaq	4(%rcx), %r14
	xorl	%ebp, %ebp
	movl	$480, %r8d                      # imm = 0x1E0
	movq	%rcx, %r15
	movq	%r14, %rcx
	xorl	%edx, %edx
	callq	memset
	movq	%r14, %rdi
	movq	%rbx, %rdx
	callq	gcm_v1.aes_narrow.word_room.expand_words
	callq	gcm_v1.aes_cipher.zeroize.stack.wipe_stack.768
	movl	%ebx, (%r15)
	movl	%ebx, %eax
	leaq	56(,%rax,2), %rsi
	addq	$484, %r15                      # imm = 0x1E4
	movq	%r14, %rdi
	movq	%r15, %rdx
	callq	gcm_v1.gcm.mode.put_subkey
	callq	gcm_v1.aes_cipher.zeroize.stack.wipe_stack.512
	jmp	.Lgcm_v1_BB53_4
.Lgcm_v1_BB53_2:                               # %then.1.i
	movl	$500, %r8d                      # imm = 0x1F4
	xorl	%edx, %edx
	callq	memset
	movl	$1, %ebp
.Lgcm_v1_BB53_4:                               # %"gcm_c::kept::fotsgure_gcm_set_key.exit"
	movl	%ebp, %eax
	movaps	32(%rsp), %xmm6                 # 16-byte Reload
	movaps	48(%rsp), %xmm7                 # 16-byte Reload
	movaps	64(%rsp), %xmm8                 # 16-byte Reload
	movaps	80(%rsp), %xmm9                 # 16-byte Reload
	movaps	96(%rsp), %xmm10                # 16-byte Reload
	movaps	112(%rsp), %xmm11               # 16-byte Reload
	movaps	128(%rsp), %xmm12               # 16-byte Reload
	movaps	144(%rsp), %xmm13               # 16-byte Reload
	movaps	160(%rsp), %xmm14               # 16-byte Reload
	movaps	176(%rsp), %xmm15               # 16-byte Reload
	pxor	%xmm0, %xmm0
	pxor	%xmm1, %xmm1
	pxor	%xmm2, %xmm2
	pxor	%xmm3, %xmm3
	pxor	%xmm4, %xmm4
	pxor	%xmm5, %xmm5
	xorl	%ecx, %ecx
	xorl	%edx, %edx
	xorl	%r8d, %r8d
	xorl	%r9d, %r9d
	xorl	%r10d, %r10d
	xorl	%r11d, %r11d
	addq	$200, %rsp
	popq	%rbx
	popq	%rbp
	popq	%rdi
	popq	%rsi
	popq	%r14
	popq	%r15
	retq
	.seh_endproc
                                        # -- End function
	export_gcm_v1	fotsgure_gcm_set_key_of
	.p2align	4
gcm_v1.fotsgure_gcm_set_key_of:                # @gcm_v1.fotsgure_gcm_set_key_of
.seh_proc gcm_v1.fotsgure_gcm_set_key_of
# %bb.0:                                # %start
	pushq	%rsi
	.seh_pushreg %rsi
	pushq	%rdi
	.seh_pushreg %rdi
	pushq	%rbx
	.seh_pushreg %rbx
	subq	$192, %rsp
	.seh_stackalloc 192
	movaps	%xmm15, 176(%rsp)               # 16-byte Spill
	.seh_savexmm %xmm15, 176
	movaps	%xmm14, 160(%rsp)               # 16-byte Spill
	.seh_savexmm %xmm14, 160
	movaps	%xmm13, 144(%rsp)               # 16-byte Spill
	.seh_savexmm %xmm13, 144
	movaps	%xmm12, 128(%rsp)               # 16-byte Spill
	.seh_savexmm %xmm12, 128
	movaps	%xmm11, 112(%rsp)               # 16-byte Spill
	.seh_savexmm %xmm11, 112
	movaps	%xmm10, 96(%rsp)                # 16-byte Spill
	.seh_savexmm %xmm10, 96
	movaps	%xmm9, 80(%rsp)                 # 16-byte Spill
	.seh_savexmm %xmm9, 80
	movaps	%xmm8, 64(%rsp)                 # 16-byte Spill
	.seh_savexmm %xmm8, 64
	movaps	%xmm7, 48(%rsp)                 # 16-byte Spill
	.seh_savexmm %xmm7, 48
	movaps	%xmm6, 32(%rsp)                 # 16-byte Spill
	.seh_savexmm %xmm6, 32
	.seh_endprologue
	movl	(%rdx), %esi
	cmpq	$32, %rsi
	ja	.Lgcm_v1_BB54_2
# %bb.1:                                # %start
	movabsq	$4311810048, %rax               # imm = 0x101010000
	btq	%rsi, %rax
	jae	.Lgcm_v1_BB54_2
# %bb.3:                                # %join.3.i
	movl	%esi, (%rcx)
	addq	$4, %rdx
	leaq	4(%rcx), %rdi
	movl	$480, %r8d                      # imm = 0x1E0
	movq	%rcx, %rbx
	movq	%rdi, %rcx
	callq	memmove
	leaq	56(,%rsi,2), %rsi
	addq	$484, %rbx                      # imm = 0x1E4
	movq	%rbx, %rdx
	callq	gcm_v1.gcm.mode.put_subkey
	callq	gcm_v1.aes_cipher.zeroize.stack.wipe_stack.512
	xorl	%eax, %eax
	jmp	.Lgcm_v1_BB54_4
.Lgcm_v1_BB54_2:                               # %then.1.i
	leaq	4(%rcx), %rdi
	leaq	484(%rcx), %rbx
	movl	$500, %r8d                      # imm = 0x1F4
	xorl	%edx, %edx
	callq	memset
	callq	gcm_v1.aes_cipher.zeroize.elements.zeroize_elements.1
	movq	%rbx, %rdi
	callq	gcm_v1.aes_cipher.zeroize.elements.zeroize_elements.2
	movl	$2, %eax
.Lgcm_v1_BB54_4:                               # %"gcm_c::kept::fotsgure_gcm_set_key_of.exit"
	movaps	32(%rsp), %xmm6                 # 16-byte Reload
	movaps	48(%rsp), %xmm7                 # 16-byte Reload
	movaps	64(%rsp), %xmm8                 # 16-byte Reload
	movaps	80(%rsp), %xmm9                 # 16-byte Reload
	movaps	96(%rsp), %xmm10                # 16-byte Reload
	movaps	112(%rsp), %xmm11               # 16-byte Reload
	movaps	128(%rsp), %xmm12               # 16-byte Reload
	movaps	144(%rsp), %xmm13               # 16-byte Reload
	movaps	160(%rsp), %xmm14               # 16-byte Reload
	movaps	176(%rsp), %xmm15               # 16-byte Reload
	pxor	%xmm0, %xmm0
	pxor	%xmm1, %xmm1
	pxor	%xmm2, %xmm2
	pxor	%xmm3, %xmm3
	pxor	%xmm4, %xmm4
	pxor	%xmm5, %xmm5
	xorl	%ecx, %ecx
	xorl	%edx, %edx
	xorl	%r8d, %r8d
	xorl	%r9d, %r9d
	xorl	%r10d, %r10d
	xorl	%r11d, %r11d
	addq	$192, %rsp
	popq	%rbx
	popq	%rdi
	popq	%rsi
	retq
	.seh_endproc
                                        # -- End function
	export_gcm_v1	fotsgure_gcm_open
	.p2align	4
gcm_v1.fotsgure_gcm_open:                      # @gcm_v1.fotsgure_gcm_open
.seh_proc gcm_v1.fotsgure_gcm_open
# %bb.0:                                # %start
	pushq	%r15
	.seh_pushreg %r15
	pushq	%r14
	.seh_pushreg %r14
	pushq	%r13
	.seh_pushreg %r13
	pushq	%r12
	.seh_pushreg %r12
	pushq	%rsi
	.seh_pushreg %rsi
	pushq	%rdi
	.seh_pushreg %rdi
	pushq	%rbp
	.seh_pushreg %rbp
	pushq	%rbx
	.seh_pushreg %rbx
	subq	$264, %rsp                      # imm = 0x108
	.seh_stackalloc 264
	movaps	%xmm15, 240(%rsp)               # 16-byte Spill
	.seh_savexmm %xmm15, 240
	movaps	%xmm14, 224(%rsp)               # 16-byte Spill
	.seh_savexmm %xmm14, 224
	movaps	%xmm13, 208(%rsp)               # 16-byte Spill
	.seh_savexmm %xmm13, 208
	movaps	%xmm12, 192(%rsp)               # 16-byte Spill
	.seh_savexmm %xmm12, 192
	movaps	%xmm11, 176(%rsp)               # 16-byte Spill
	.seh_savexmm %xmm11, 176
	movaps	%xmm10, 160(%rsp)               # 16-byte Spill
	.seh_savexmm %xmm10, 160
	movaps	%xmm9, 144(%rsp)                # 16-byte Spill
	.seh_savexmm %xmm9, 144
	movaps	%xmm8, 128(%rsp)                # 16-byte Spill
	.seh_savexmm %xmm8, 128
	movaps	%xmm7, 112(%rsp)                # 16-byte Spill
	.seh_savexmm %xmm7, 112
	movaps	%xmm6, 96(%rsp)                 # 16-byte Spill
	.seh_savexmm %xmm6, 96
	.seh_endprologue
	movq	392(%rsp), %r10
	movq	376(%rsp), %rbx
	xorl	%r13d, %r13d
	testq	%rdx, %rdx
	sete	%al
	xorl	%r15d, %r15d
	testq	%r9, %r9
	sete	%r14b
	xorl	%esi, %esi
	testq	%rbx, %rbx
	sete	30(%rsp)                        # 1-byte Folded Spill
	xorl	%r11d, %r11d
	testq	%r10, %r10
	sete	31(%rsp)                        # 1-byte Folded Spill
	movl	$4, %ebp
	cmpq	$16, 400(%rsp)
	jne	.Lgcm_v1_BB55_8
# %bb.1:                                # %join.3.i
	movabsq	$-2305843009213693952, %rdi     # imm = 0xE000000000000000
	leaq	(%r8,%rdi), %r12
	incq	%rdi
	movl	$3, %ebp
	cmpq	%rdi, %r12
	jb	.Lgcm_v1_BB55_8
# %bb.2:                                # %after.1.i.i
	movq	368(%rsp), %r12
	movabsq	$68719476704, %rdi              # imm = 0xFFFFFFFE0
	cmpq	%rdi, 384(%rsp)
	seta	%dil
	shrq	$61, %r12
	setne	%bpl
	orb	%dil, %bpl
	movl	$5, %ebp
	jne	.Lgcm_v1_BB55_8
# %bb.3:                                # %after.11.i.i
	movq	%r8, %r12
	movl	(%rcx), %r8d
	movl	$2, %ebp
	cmpq	$32, %r8
	ja	.Lgcm_v1_BB55_8
# %bb.4:                                # %after.11.i.i
	movabsq	$4311810048, %rdi               # imm = 0x101010000
	btq	%r8, %rdi
	jae	.Lgcm_v1_BB55_8
# %bb.5:                                # %join.6.i
	movb	%al, %r13b
	shll	$12, %r13d
	addq	%r13, %rdx
	movb	%r14b, %r15b
	shll	$12, %r15d
	addq	%r15, %r9
	movzbl	30(%rsp), %eax                  # 1-byte Folded Reload
	movb	%al, %sil
	shll	$12, %esi
	addq	%rsi, %rbx
	movzbl	31(%rsp), %eax                  # 1-byte Folded Reload
	movb	%al, %r11b
	shll	$12, %r11d
	addq	%r11, %r10
	movups	(%r10), %xmm0
	movaps	%xmm0, 80(%rsp)
	leaq	4(%rcx), %rax
	leaq	56(,%r8,2), %r8
	addq	$484, %rcx                      # imm = 0x1E4
	movq	%rax, 56(%rsp)
	movq	%r8, 64(%rsp)
	movq	%rcx, 72(%rsp)
	xorps	%xmm0, %xmm0
	movaps	%xmm0, 32(%rsp)
	leaq	32(%rsp), %rax
	movq	%rax, 16(%rsp)
	leaq	80(%rsp), %rax
	movq	%rax, 8(%rsp)
	movq	384(%rsp), %r14
	movq	%r14, (%rsp)
	leaq	56(%rsp), %rdi
	movq	%rdx, %rsi
	movq	%r12, %rdx
	movq	%r9, %rcx
	movq	368(%rsp), %r8
	movq	%rbx, %r9
	callq	gcm_v1.gcm.mode.BorrowedGcm.compare
	movl	$6, %ebp
	testb	%al, %al
	jne	.Lgcm_v1_BB55_7
# %bb.6:                                # %then.1.i.i
	leaq	56(%rsp), %rdi
	leaq	32(%rsp), %rsi
	movl	$16, %edx
	movq	%rbx, %rcx
	movq	%r14, %r8
	callq	gcm_v1.gcm.gctr.add_gctr
	xorl	%ebp, %ebp
.Lgcm_v1_BB55_7:                               # %"gcm::mode::BorrowedGcm::decrypt::<#c01aad2b5fbc92b1>.exit.i"
	leaq	32(%rsp), %rdi
	callq	gcm_v1.aes_cipher.zeroize.elements.zeroize_elements.3
	callq	gcm_v1.aes_cipher.zeroize.stack.wipe_stack.1536
.Lgcm_v1_BB55_8:                               # %"gcm_c::whole::fotsgure_gcm_open.exit"
	movl	%ebp, %eax
	movaps	96(%rsp), %xmm6                 # 16-byte Reload
	movaps	112(%rsp), %xmm7                # 16-byte Reload
	movaps	128(%rsp), %xmm8                # 16-byte Reload
	movaps	144(%rsp), %xmm9                # 16-byte Reload
	movaps	160(%rsp), %xmm10               # 16-byte Reload
	movaps	176(%rsp), %xmm11               # 16-byte Reload
	movaps	192(%rsp), %xmm12               # 16-byte Reload
	movaps	208(%rsp), %xmm13               # 16-byte Reload
	movaps	224(%rsp), %xmm14               # 16-byte Reload
	movaps	240(%rsp), %xmm15               # 16-byte Reload
	pxor	%xmm0, %xmm0
	pxor	%xmm1, %xmm1
	pxor	%xmm2, %xmm2
	pxor	%xmm3, %xmm3
	pxor	%xmm4, %xmm4
	pxor	%xmm5, %xmm5
	xorl	%ecx, %ecx
	xorl	%edx, %edx
	xorl	%r8d, %r8d
	xorl	%r9d, %r9d
	xorl	%r10d, %r10d
	xorl	%r11d, %r11d
	addq	$264, %rsp                      # imm = 0x108
	popq	%rbx
	popq	%rbp
	popq	%rdi
	popq	%rsi
	popq	%r12
	popq	%r13
	popq	%r14
	popq	%r15
	retq
	.seh_endproc
                                        # -- End function
	export_gcm_v1	fotsgure_gcm_open_to
	.p2align	4
gcm_v1.fotsgure_gcm_open_to:                   # @gcm_v1.fotsgure_gcm_open_to
.seh_proc gcm_v1.fotsgure_gcm_open_to
# %bb.0:                                # %start
	pushq	%r15
	.seh_pushreg %r15
	pushq	%r14
	.seh_pushreg %r14
	pushq	%r13
	.seh_pushreg %r13
	pushq	%r12
	.seh_pushreg %r12
	pushq	%rsi
	.seh_pushreg %rsi
	pushq	%rdi
	.seh_pushreg %rdi
	pushq	%rbp
	.seh_pushreg %rbp
	pushq	%rbx
	.seh_pushreg %rbx
	subq	$280, %rsp                      # imm = 0x118
	.seh_stackalloc 280
	movaps	%xmm15, 256(%rsp)               # 16-byte Spill
	.seh_savexmm %xmm15, 256
	movaps	%xmm14, 240(%rsp)               # 16-byte Spill
	.seh_savexmm %xmm14, 240
	movaps	%xmm13, 224(%rsp)               # 16-byte Spill
	.seh_savexmm %xmm13, 224
	movaps	%xmm12, 208(%rsp)               # 16-byte Spill
	.seh_savexmm %xmm12, 208
	movaps	%xmm11, 192(%rsp)               # 16-byte Spill
	.seh_savexmm %xmm11, 192
	movaps	%xmm10, 176(%rsp)               # 16-byte Spill
	.seh_savexmm %xmm10, 176
	movaps	%xmm9, 160(%rsp)                # 16-byte Spill
	.seh_savexmm %xmm9, 160
	movaps	%xmm8, 144(%rsp)                # 16-byte Spill
	.seh_savexmm %xmm8, 144
	movaps	%xmm7, 128(%rsp)                # 16-byte Spill
	.seh_savexmm %xmm7, 128
	movaps	%xmm6, 112(%rsp)                # 16-byte Spill
	.seh_savexmm %xmm6, 112
	.seh_endprologue
	movq	%r8, 40(%rsp)                   # 8-byte Spill
	movq	400(%rsp), %rsi
	movq	424(%rsp), %r10
	xorl	%r13d, %r13d
	testq	%rdx, %rdx
	sete	%r15b
	xorl	%edi, %edi
	testq	%r9, %r9
	sete	%r14b
	cmpq	$0, 392(%rsp)
	sete	%r12b
	cmpq	$0, 408(%rsp)
	sete	%al
	xorl	%r11d, %r11d
	testq	%r10, %r10
	sete	%r8b
	movl	$10, %ebp
	cmpq	416(%rsp), %rsi
	jne	.Lgcm_v1_BB56_34
# %bb.1:                                # %join.3.i
	movl	$4, %ebp
	cmpq	$16, 432(%rsp)
	jne	.Lgcm_v1_BB56_34
# %bb.2:                                # %join.6.i
	movabsq	$-2305843009213693952, %rbx     # imm = 0xE000000000000000
	movq	40(%rsp), %rsi                  # 8-byte Reload
	addq	%rbx, %rsi
	incq	%rbx
	movl	$3, %ebp
	cmpq	%rbx, %rsi
	movq	400(%rsp), %rsi
	jb	.Lgcm_v1_BB56_34
# %bb.3:                                # %after.1.i.i
	movq	384(%rsp), %rbp
	movabsq	$68719476704, %rbx              # imm = 0xFFFFFFFE0
	cmpq	%rbx, %rsi
	seta	%bl
	movq	%rbp, %rsi
	shrq	$61, %rsi
	setne	%sil
	orb	%bl, %sil
	movl	$5, %ebp
	jne	.Lgcm_v1_BB56_34
# %bb.4:                                # %after.11.i.i
	movl	(%rcx), %esi
	movl	$2, %ebp
	cmpq	$32, %rsi
	ja	.Lgcm_v1_BB56_34
# %bb.5:                                # %after.11.i.i
	movq	%rsi, %rbx
	movabsq	$4311810048, %rsi               # imm = 0x101010000
	btq	%rbx, %rsi
	jae	.Lgcm_v1_BB56_34
# %bb.6:                                # %join.9.i
	movb	%r15b, %r13b
	shll	$12, %r13d
	addq	%r13, %rdx
	movb	%r14b, %dil
	shll	$12, %edi
	addq	%rdi, %r9
	xorl	%esi, %esi
	movb	%r12b, %sil
	movq	%rsi, %r12
	shll	$12, %r12d
	movq	392(%rsp), %r15
	leaq	(%r15,%r12), %rbp
	xorl	%r13d, %r13d
	movb	%al, %r13b
	shll	$12, %r13d
	movq	408(%rsp), %r14
	leaq	(%r14,%r13), %r15
	movb	%r8b, %r11b
	shll	$12, %r11d
	addq	%r11, %r10
	movups	(%r10), %xmm0
	movaps	%xmm0, 96(%rsp)
	leaq	4(%rcx), %rax
	leaq	56(,%rbx,2), %r8
	addq	$484, %rcx                      # imm = 0x1E4
	movq	%rax, 72(%rsp)
	movq	%r8, 80(%rsp)
	movq	%rcx, 88(%rsp)
	xorps	%xmm0, %xmm0
	movaps	%xmm0, 48(%rsp)
	leaq	48(%rsp), %rax
	movq	%rax, 16(%rsp)
	leaq	96(%rsp), %rax
	movq	%rax, 8(%rsp)
	movq	400(%rsp), %rbx
	movq	%rbx, (%rsp)
	leaq	72(%rsp), %rdi
	movq	%rdx, %rsi
	movq	40(%rsp), %rdx                  # 8-byte Reload
	movq	%r9, %rcx
	movq	384(%rsp), %r8
	movq	%rbp, %r9
	callq	gcm_v1.gcm.mode.BorrowedGcm.compare
	testb	%al, %al
	je	.Lgcm_v1_BB56_11
# %bb.7:                                # %else.2.i.i
	movl	$6, %ebp
	testq	%rbx, %rbx
	je	.Lgcm_v1_BB56_33
# %bb.8:                                # %loop.5.preheader.i.i.i
	decq	%rbx
	je	.Lgcm_v1_BB56_10
# %bb.9:                                # %join.8.preheader.i.i.i
	movq	%r15, %rcx
	xorl	%edx, %edx
	movq	%rbx, %r8
	callq	memset
.Lgcm_v1_BB56_10:                              # %after.4.i.i.i
	movb	$0, (%r15,%rbx)
	jmp	.Lgcm_v1_BB56_33
.Lgcm_v1_BB56_11:                              # %then.1.i.i
	movq	392(%rsp), %r9
	movq	%r15, %rax
	subq	%rbp, %rax
	cmpq	%rbx, %rax
	jae	.Lgcm_v1_BB56_14
# %bb.12:                               # %iter.check
	cmpq	$4, %rbx
	jb	.Lgcm_v1_BB56_13
# %bb.15:                               # %vector.memcheck
	cmpq	$32, %rax
	jae	.Lgcm_v1_BB56_17
.Lgcm_v1_BB56_13:
	xorl	%eax, %eax
.Lgcm_v1_BB56_26:                              # %join.7.i.i.i.i.i.i.i.i.preheader
	movq	%rbx, %rdx
	movq	%rax, %rcx
	andq	$3, %rdx
	je	.Lgcm_v1_BB56_29
# %bb.27:                               # %join.7.i.i.i.i.i.i.i.i.prol.preheader
	movq	%rax, %rcx
.Lgcm_v1_BB56_28:                              # %join.7.i.i.i.i.i.i.i.i.prol
                                        # =>This Inner Loop Header: Depth=1
	movzbl	(%rbp,%rcx), %r8d
	movb	%r8b, (%r15,%rcx)
	incq	%rcx
	decq	%rdx
	jne	.Lgcm_v1_BB56_28
.Lgcm_v1_BB56_29:                              # %join.7.i.i.i.i.i.i.i.i.prol.loopexit
	subq	%rbx, %rax
	cmpq	$-4, %rax
	ja	.Lgcm_v1_BB56_32
# %bb.30:                               # %join.7.i.i.i.i.i.i.i.i.preheader11
	leaq	(%r12,%r9), %rax
	addq	$3, %rax
	leaq	(%r14,%r13), %rdx
	addq	$3, %rdx
.Lgcm_v1_BB56_31:                              # %join.7.i.i.i.i.i.i.i.i
                                        # =>This Inner Loop Header: Depth=1
	movzbl	-3(%rax,%rcx), %r8d
	movb	%r8b, -3(%rdx,%rcx)
	movzbl	-2(%rax,%rcx), %r8d
	movb	%r8b, -2(%rdx,%rcx)
	movzbl	-1(%rax,%rcx), %r8d
	movb	%r8b, -1(%rdx,%rcx)
	movzbl	(%rax,%rcx), %r8d
	movb	%r8b, (%rdx,%rcx)
	addq	$4, %rcx
	cmpq	%rcx, %rbx
	jne	.Lgcm_v1_BB56_31
	jmp	.Lgcm_v1_BB56_32
.Lgcm_v1_BB56_14:                              # %apart.2.i.i.i.i.i.i.i.i
	movq	%r15, %rcx
	movq	%rbp, %rdx
	movq	%rbx, %r8
	callq	memmove
.Lgcm_v1_BB56_32:                              # %"core::slice::edits::slice+T::copy_from_slice::<i8,20'core::clone::U8Clone{}>.exit.i.i"
	leaq	72(%rsp), %rdi
	leaq	48(%rsp), %rsi
	movl	$16, %edx
	movq	%r15, %rcx
	movq	%rbx, %r8
	callq	gcm_v1.gcm.gctr.add_gctr
	xorl	%ebp, %ebp
.Lgcm_v1_BB56_33:                              # %"gcm::mode::BorrowedGcm::decrypt_to::<#c01aad2b5fbc92b1>.exit.i"
	leaq	48(%rsp), %rdi
	callq	gcm_v1.aes_cipher.zeroize.elements.zeroize_elements.3
	callq	gcm_v1.aes_cipher.zeroize.stack.wipe_stack.1536
.Lgcm_v1_BB56_34:                              # %"gcm_c::whole_to::fotsgure_gcm_open_to.exit"
	movl	%ebp, %eax
	movaps	112(%rsp), %xmm6                # 16-byte Reload
	movaps	128(%rsp), %xmm7                # 16-byte Reload
	movaps	144(%rsp), %xmm8                # 16-byte Reload
	movaps	160(%rsp), %xmm9                # 16-byte Reload
	movaps	176(%rsp), %xmm10               # 16-byte Reload
	movaps	192(%rsp), %xmm11               # 16-byte Reload
	movaps	208(%rsp), %xmm12               # 16-byte Reload
	movaps	224(%rsp), %xmm13               # 16-byte Reload
	movaps	240(%rsp), %xmm14               # 16-byte Reload
	movaps	256(%rsp), %xmm15               # 16-byte Reload
	pxor	%xmm0, %xmm0
	pxor	%xmm1, %xmm1
	pxor	%xmm2, %xmm2
	pxor	%xmm3, %xmm3
	pxor	%xmm4, %xmm4
	pxor	%xmm5, %xmm5
	xorl	%ecx, %ecx
	xorl	%edx, %edx
	xorl	%r8d, %r8d
	xorl	%r9d, %r9d
	xorl	%r10d, %r10d
	xorl	%r11d, %r11d
	addq	$280, %rsp                      # imm = 0x118
	popq	%rbx
	popq	%rbp
	popq	%rdi
	popq	%rsi
	popq	%r12
	popq	%r13
	popq	%r14
	popq	%r15
	retq
.Lgcm_v1_BB56_17:                              # %vector.main.loop.iter.check
	cmpq	$32, %rbx
	jae	.Lgcm_v1_BB56_19
# %bb.18:
	xorl	%eax, %eax
	movabsq	$68719476704, %r10              # imm = 0xFFFFFFFE0
	jmp	.Lgcm_v1_BB56_23
.Lgcm_v1_BB56_19:                              # %vector.ph
	movq	%rbx, %rax
	movabsq	$68719476704, %r10              # imm = 0xFFFFFFFE0
	andq	%r10, %rax
	leaq	(%r12,%r9), %rcx
	addq	$16, %rcx
	leaq	(%r14,%r13), %rdx
	addq	$16, %rdx
	xorl	%r8d, %r8d
.Lgcm_v1_BB56_20:                              # %vector.body
                                        # =>This Inner Loop Header: Depth=1
	movups	-16(%rcx,%r8), %xmm0
	movups	(%rcx,%r8), %xmm1
	movups	%xmm0, -16(%rdx,%r8)
	movups	%xmm1, (%rdx,%r8)
	addq	$32, %r8
	cmpq	%r8, %rax
	jne	.Lgcm_v1_BB56_20
# %bb.21:                               # %middle.block
	cmpq	%rax, %rbx
	je	.Lgcm_v1_BB56_32
# %bb.22:                               # %vec.epilog.iter.check
	testb	$28, %bl
	je	.Lgcm_v1_BB56_26
.Lgcm_v1_BB56_23:                              # %vec.epilog.ph
	movq	%rax, %rcx
	addq	$28, %r10
	movq	%r10, %rax
	andq	%rbx, %rax
.Lgcm_v1_BB56_24:                              # %vec.epilog.vector.body
                                        # =>This Inner Loop Header: Depth=1
	movl	(%rbp,%rcx), %edx
	movl	%edx, (%r15,%rcx)
	addq	$4, %rcx
	cmpq	%rcx, %rax
	jne	.Lgcm_v1_BB56_24
# %bb.25:                               # %vec.epilog.middle.block
	cmpq	%rax, %rbx
	je	.Lgcm_v1_BB56_32
	jmp	.Lgcm_v1_BB56_26
	.seh_endproc
                                        # -- End function
	export_gcm_v1	fotsgure_gcm_seal
	.p2align	4
gcm_v1.fotsgure_gcm_seal:                      # @gcm_v1.fotsgure_gcm_seal
.seh_proc gcm_v1.fotsgure_gcm_seal
# %bb.0:                                # %start
	pushq	%rsi
	.seh_pushreg %rsi
	pushq	%rdi
	.seh_pushreg %rdi
	subq	$184, %rsp
	.seh_stackalloc 184
	movaps	%xmm15, 160(%rsp)               # 16-byte Spill
	.seh_savexmm %xmm15, 160
	movaps	%xmm14, 144(%rsp)               # 16-byte Spill
	.seh_savexmm %xmm14, 144
	movaps	%xmm13, 128(%rsp)               # 16-byte Spill
	.seh_savexmm %xmm13, 128
	movaps	%xmm12, 112(%rsp)               # 16-byte Spill
	.seh_savexmm %xmm12, 112
	movaps	%xmm11, 96(%rsp)                # 16-byte Spill
	.seh_savexmm %xmm11, 96
	movaps	%xmm10, 80(%rsp)                # 16-byte Spill
	.seh_savexmm %xmm10, 80
	movaps	%xmm9, 64(%rsp)                 # 16-byte Spill
	.seh_savexmm %xmm9, 64
	movaps	%xmm8, 48(%rsp)                 # 16-byte Spill
	.seh_savexmm %xmm8, 48
	movaps	%xmm7, 32(%rsp)                 # 16-byte Spill
	.seh_savexmm %xmm7, 32
	movaps	%xmm6, 16(%rsp)                 # 16-byte Spill
	.seh_savexmm %xmm6, 16
	.seh_endprologue
	movq	%r8, %rax
	movq	240(%rsp), %r8
	movaps	256(%rsp), %xmm0
	movq	248(%rsp), %r11
	xorl	%esi, %esi
	testq	%rdx, %rdx
	sete	%sil
	shll	$12, %esi
	addq	%rdx, %rsi
	xorl	%r10d, %r10d
	testq	%r9, %r9
	sete	%r10b
	shll	$12, %r10d
	addq	%r9, %r10
	xorl	%r9d, %r9d
	testq	%r11, %r11
	sete	%r9b
	shll	$12, %r9d
	addq	%r11, %r9
	movups	%xmm0, (%rsp)
	movq	%rcx, %rdi
	movq	%rax, %rdx
	movq	%r10, %rcx
	callq	gcm_v1.gcm_c.whole.fotsgure_gcm_seal
	movaps	16(%rsp), %xmm6                 # 16-byte Reload
	movaps	32(%rsp), %xmm7                 # 16-byte Reload
	movaps	48(%rsp), %xmm8                 # 16-byte Reload
	movaps	64(%rsp), %xmm9                 # 16-byte Reload
	movaps	80(%rsp), %xmm10                # 16-byte Reload
	movaps	96(%rsp), %xmm11                # 16-byte Reload
	movaps	112(%rsp), %xmm12               # 16-byte Reload
	movaps	128(%rsp), %xmm13               # 16-byte Reload
	movaps	144(%rsp), %xmm14               # 16-byte Reload
	movaps	160(%rsp), %xmm15               # 16-byte Reload
	pxor	%xmm0, %xmm0
	pxor	%xmm1, %xmm1
	pxor	%xmm2, %xmm2
	pxor	%xmm3, %xmm3
	pxor	%xmm4, %xmm4
	pxor	%xmm5, %xmm5
	xorl	%ecx, %ecx
	xorl	%edx, %edx
	xorl	%r8d, %r8d
	xorl	%r9d, %r9d
	xorl	%r10d, %r10d
	xorl	%r11d, %r11d
	addq	$184, %rsp
	popq	%rdi
	popq	%rsi
	retq
	.seh_endproc
                                        # -- End function
	export_gcm_v1	fotsgure_gcm_seal_next
	.p2align	4
gcm_v1.fotsgure_gcm_seal_next:                 # @gcm_v1.fotsgure_gcm_seal_next
.seh_proc gcm_v1.fotsgure_gcm_seal_next
# %bb.0:                                # %start
	pushq	%r14
	.seh_pushreg %r14
	pushq	%rsi
	.seh_pushreg %rsi
	pushq	%rdi
	.seh_pushreg %rdi
	pushq	%rbx
	.seh_pushreg %rbx
	subq	$184, %rsp
	.seh_stackalloc 184
	movaps	%xmm15, 160(%rsp)               # 16-byte Spill
	.seh_savexmm %xmm15, 160
	movaps	%xmm14, 144(%rsp)               # 16-byte Spill
	.seh_savexmm %xmm14, 144
	movaps	%xmm13, 128(%rsp)               # 16-byte Spill
	.seh_savexmm %xmm13, 128
	movaps	%xmm12, 112(%rsp)               # 16-byte Spill
	.seh_savexmm %xmm12, 112
	movaps	%xmm11, 96(%rsp)                # 16-byte Spill
	.seh_savexmm %xmm11, 96
	movaps	%xmm10, 80(%rsp)                # 16-byte Spill
	.seh_savexmm %xmm10, 80
	movaps	%xmm9, 64(%rsp)                 # 16-byte Spill
	.seh_savexmm %xmm9, 64
	movaps	%xmm8, 48(%rsp)                 # 16-byte Spill
	.seh_savexmm %xmm8, 48
	movaps	%xmm7, 32(%rsp)                 # 16-byte Spill
	.seh_savexmm %xmm7, 32
	movaps	%xmm6, 16(%rsp)                 # 16-byte Spill
	.seh_savexmm %xmm6, 16
	.seh_endprologue
	movq	%r8, %rbx
	movq	%rdx, %r14
	cmpq	$-1, 4(%rdx)
	jne	.Lgcm_v1_BB58_2
# %bb.1:                                # %start
	movl	$7, %eax
	cmpl	$-1, (%r14)
	je	.Lgcm_v1_BB58_9
.Lgcm_v1_BB58_2:                               # %join.3.i
	movq	280(%rsp), %rdx
	movq	272(%rsp), %r11
	movq	264(%rsp), %r10
	movq	256(%rsp), %r8
	xorl	%eax, %eax
	testq	%r10, %r10
	sete	%al
	shll	$12, %eax
	addq	%r10, %rax
	xorl	%r10d, %r10d
	testq	%r9, %r9
	sete	%r10b
	shll	$12, %r10d
	addq	%r9, %r10
	movq	%rdx, 8(%rsp)
	movq	%r11, (%rsp)
	movl	$12, %edx
	movq	%rcx, %rdi
	movq	%r14, %rsi
	movq	%r10, %rcx
	movq	%rax, %r9
	callq	gcm_v1.gcm_c.whole.fotsgure_gcm_seal
	testl	%eax, %eax
	jne	.Lgcm_v1_BB58_9
# %bb.3:                                # %then.4.i
	movl	(%r14), %eax
	movq	4(%r14), %rcx
	movl	%eax, %edx
	bswapl	%edx
	cmpq	$-1, %rcx
	je	.Lgcm_v1_BB58_5
# %bb.4:                                # %"gcm::counter::nonce_after.exit.thread.i.i"
	movq	%rcx, %r8
	bswapq	%r8
	incq	%r8
	bswapq	%r8
	jmp	.Lgcm_v1_BB58_7
.Lgcm_v1_BB58_5:                               # %"gcm::counter::nonce_after.exit.i.i"
	cmpl	$-1, %eax
	je	.Lgcm_v1_BB58_8
# %bb.6:
	incl	%edx
	xorl	%r8d, %r8d
.Lgcm_v1_BB58_7:                               # %arm.1.i.i
	bswapl	%edx
	movl	%edx, (%r14)
	movq	%r8, 4(%r14)
.Lgcm_v1_BB58_8:                               # %"gcm::counter::Counter::take.exit.i"
	movl	%eax, (%rbx)
	movq	%rcx, 4(%rbx)
	xorl	%eax, %eax
.Lgcm_v1_BB58_9:                               # %"gcm_c::counter::fotsgure_gcm_seal_next.exit"
	movaps	16(%rsp), %xmm6                 # 16-byte Reload
	movaps	32(%rsp), %xmm7                 # 16-byte Reload
	movaps	48(%rsp), %xmm8                 # 16-byte Reload
	movaps	64(%rsp), %xmm9                 # 16-byte Reload
	movaps	80(%rsp), %xmm10                # 16-byte Reload
	movaps	96(%rsp), %xmm11                # 16-byte Reload
	movaps	112(%rsp), %xmm12               # 16-byte Reload
	movaps	128(%rsp), %xmm13               # 16-byte Reload
	movaps	144(%rsp), %xmm14               # 16-byte Reload
	movaps	160(%rsp), %xmm15               # 16-byte Reload
	pxor	%xmm0, %xmm0
	pxor	%xmm1, %xmm1
	pxor	%xmm2, %xmm2
	pxor	%xmm3, %xmm3
	pxor	%xmm4, %xmm4
	pxor	%xmm5, %xmm5
	xorl	%ecx, %ecx
	xorl	%edx, %edx
	xorl	%r8d, %r8d
	xorl	%r9d, %r9d
	xorl	%r10d, %r10d
	xorl	%r11d, %r11d
	addq	$184, %rsp
	popq	%rbx
	popq	%rdi
	popq	%rsi
	popq	%r14
	retq
	.seh_endproc
                                        # -- End function
	export_gcm_v1	fotsgure_gcm_seal_to
	.p2align	4
gcm_v1.fotsgure_gcm_seal_to:                   # @gcm_v1.fotsgure_gcm_seal_to
.seh_proc gcm_v1.fotsgure_gcm_seal_to
# %bb.0:                                # %start
	pushq	%r15
	.seh_pushreg %r15
	pushq	%r14
	.seh_pushreg %r14
	pushq	%r13
	.seh_pushreg %r13
	pushq	%r12
	.seh_pushreg %r12
	pushq	%rsi
	.seh_pushreg %rsi
	pushq	%rdi
	.seh_pushreg %rdi
	pushq	%rbp
	.seh_pushreg %rbp
	pushq	%rbx
	.seh_pushreg %rbx
	subq	$200, %rsp
	.seh_stackalloc 200
	movaps	%xmm15, 176(%rsp)               # 16-byte Spill
	.seh_savexmm %xmm15, 176
	movaps	%xmm14, 160(%rsp)               # 16-byte Spill
	.seh_savexmm %xmm14, 160
	movaps	%xmm13, 144(%rsp)               # 16-byte Spill
	.seh_savexmm %xmm13, 144
	movaps	%xmm12, 128(%rsp)               # 16-byte Spill
	.seh_savexmm %xmm12, 128
	movaps	%xmm11, 112(%rsp)               # 16-byte Spill
	.seh_savexmm %xmm11, 112
	movaps	%xmm10, 96(%rsp)                # 16-byte Spill
	.seh_savexmm %xmm10, 96
	movaps	%xmm9, 80(%rsp)                 # 16-byte Spill
	.seh_savexmm %xmm9, 80
	movaps	%xmm8, 64(%rsp)                 # 16-byte Spill
	.seh_savexmm %xmm8, 64
	movaps	%xmm7, 48(%rsp)                 # 16-byte Spill
	.seh_savexmm %xmm7, 48
	movaps	%xmm6, 32(%rsp)                 # 16-byte Spill
	.seh_savexmm %xmm6, 32
	.seh_endprologue
	movq	%rcx, 24(%rsp)                  # 8-byte Spill
	movq	320(%rsp), %rcx
	movq	328(%rsp), %rbx
	movq	312(%rsp), %rdi
	xorl	%r12d, %r12d
	testq	%rdx, %rdx
	sete	%r14b
	xorl	%r15d, %r15d
	testq	%r9, %r9
	sete	%r13b
	xorl	%r11d, %r11d
	testq	%rdi, %rdi
	sete	%bpl
	xorl	%r10d, %r10d
	testq	%rbx, %rbx
	sete	23(%rsp)                        # 1-byte Folded Spill
	movl	$10, %eax
	cmpq	336(%rsp), %rcx
	jne	.Lgcm_v1_BB59_6
# %bb.1:                                # %join.3.i
	movabsq	$-2305843009213693952, %rcx     # imm = 0xE000000000000000
	leaq	(%r8,%rcx), %rsi
	incq	%rcx
	movl	$3, %eax
	cmpq	%rcx, %rsi
	movq	320(%rsp), %rcx
	jb	.Lgcm_v1_BB59_6
# %bb.2:                                # %after.1.i.i
	movq	304(%rsp), %rsi
	movabsq	$68719476704, %rax              # imm = 0xFFFFFFFE0
	cmpq	%rax, %rcx
	seta	%al
	movq	%rsi, %rcx
	shrq	$61, %rcx
	setne	%cl
	orb	%al, %cl
	movl	$5, %eax
	jne	.Lgcm_v1_BB59_6
# %bb.3:                                # %after.11.i.i
	movq	24(%rsp), %rax                  # 8-byte Reload
	movl	(%rax), %ecx
	movl	$2, %eax
	cmpq	$32, %rcx
	ja	.Lgcm_v1_BB59_6
# %bb.4:                                # %after.11.i.i
	movabsq	$4311810048, %rsi               # imm = 0x101010000
	btq	%rcx, %rsi
	movq	320(%rsp), %rcx
	jae	.Lgcm_v1_BB59_6
# %bb.5:                                # %join.6.i
	movb	%r14b, %r12b
	shll	$12, %r12d
	addq	%r12, %rdx
	movb	%r13b, %r15b
	shll	$12, %r15d
	addq	%r15, %r9
	movb	%bpl, %r11b
	shll	$12, %r11d
	addq	%r11, %rdi
	movzbl	23(%rsp), %eax                  # 1-byte Folded Reload
	movb	%al, %r10b
	shll	$12, %r10d
	addq	%r10, %rbx
	movq	%rcx, %r14
	movq	%rcx, %rsi
	movq	%rdx, %r12
	movq	%rbx, %rdx
	movq	%r9, %r13
	movq	%r8, %rbp
	callq	gcm_v1.gcm_c.whole_to.copy
	movq	344(%rsp), %rax
	movq	%rax, 8(%rsp)
	movq	%r14, (%rsp)
	movq	24(%rsp), %rdi                  # 8-byte Reload
	movq	%r12, %rsi
	movq	%rbp, %rdx
	movq	%r13, %rcx
	movq	304(%rsp), %r8
	movq	%rbx, %r9
	callq	gcm_v1.gcm_c.whole.fotsgure_gcm_seal
.Lgcm_v1_BB59_6:                               # %"gcm_c::whole_to::fotsgure_gcm_seal_to.exit"
	movaps	32(%rsp), %xmm6                 # 16-byte Reload
	movaps	48(%rsp), %xmm7                 # 16-byte Reload
	movaps	64(%rsp), %xmm8                 # 16-byte Reload
	movaps	80(%rsp), %xmm9                 # 16-byte Reload
	movaps	96(%rsp), %xmm10                # 16-byte Reload
	movaps	112(%rsp), %xmm11               # 16-byte Reload
	movaps	128(%rsp), %xmm12               # 16-byte Reload
	movaps	144(%rsp), %xmm13               # 16-byte Reload
	movaps	160(%rsp), %xmm14               # 16-byte Reload
	movaps	176(%rsp), %xmm15               # 16-byte Reload
	pxor	%xmm0, %xmm0
	pxor	%xmm1, %xmm1
	pxor	%xmm2, %xmm2
	pxor	%xmm3, %xmm3
	pxor	%xmm4, %xmm4
	pxor	%xmm5, %xmm5
	xorl	%ecx, %ecx
	xorl	%edx, %edx
	xorl	%r8d, %r8d
	xorl	%r9d, %r9d
	xorl	%r10d, %r10d
	xorl	%r11d, %r11d
	addq	$200, %rsp
	popq	%rbx
	popq	%rbp
	popq	%rdi
	popq	%rsi
	popq	%r12
	popq	%r13
	popq	%r14
	popq	%r15
	retq
	.seh_endproc
                                        # -- End function
	export_gcm_v1	fotsgure_gcm_siv_open
	.p2align	4
gcm_v1.fotsgure_gcm_siv_open:                  # @gcm_v1.fotsgure_gcm_siv_open
.seh_proc gcm_v1.fotsgure_gcm_siv_open
# %bb.0:                                # %start
	pushq	%r14
	.seh_pushreg %r14
	pushq	%rsi
	.seh_pushreg %rsi
	pushq	%rdi
	.seh_pushreg %rdi
	pushq	%rbp
	.seh_pushreg %rbp
	pushq	%rbx
	.seh_pushreg %rbx
	subq	$192, %rsp
	.seh_stackalloc 192
	movaps	%xmm15, 176(%rsp)               # 16-byte Spill
	.seh_savexmm %xmm15, 176
	movaps	%xmm14, 160(%rsp)               # 16-byte Spill
	.seh_savexmm %xmm14, 160
	movaps	%xmm13, 144(%rsp)               # 16-byte Spill
	.seh_savexmm %xmm13, 144
	movaps	%xmm12, 128(%rsp)               # 16-byte Spill
	.seh_savexmm %xmm12, 128
	movaps	%xmm11, 112(%rsp)               # 16-byte Spill
	.seh_savexmm %xmm11, 112
	movaps	%xmm10, 96(%rsp)                # 16-byte Spill
	.seh_savexmm %xmm10, 96
	movaps	%xmm9, 80(%rsp)                 # 16-byte Spill
	.seh_savexmm %xmm9, 80
	movaps	%xmm8, 64(%rsp)                 # 16-byte Spill
	.seh_savexmm %xmm8, 64
	movaps	%xmm7, 48(%rsp)                 # 16-byte Spill
	.seh_savexmm %xmm7, 48
	movaps	%xmm6, 32(%rsp)                 # 16-byte Spill
	.seh_savexmm %xmm6, 32
	.seh_endprologue
	movq	280(%rsp), %r11
	movq	272(%rsp), %r10
	xorl	%ebx, %ebx
	testq	%r8, %r8
	sete	%r14b
	xorl	%edi, %edi
	testq	%r10, %r10
	sete	%bpl
	movabsq	$68719476736, %rax              # imm = 0x1000000000
	cmpq	%rax, %r9
	seta	%sil
	cmpq	%rax, %r11
	seta	%al
	orb	%sil, %al
	movl	$5, %eax
	jne	.Lgcm_v1_BB60_4
# %bb.1:                                # %after.1.i.i
	movl	(%rcx), %esi
	cmpq	$32, %rsi
	je	.Lgcm_v1_BB60_3
# %bb.2:                                # %after.1.i.i
	movl	$2, %eax
	cmpl	$16, %esi
	jne	.Lgcm_v1_BB60_4
.Lgcm_v1_BB60_3:                               # %join.3.i
	movq	288(%rsp), %rax
	movb	%r14b, %bl
	shll	$12, %ebx
	addq	%rbx, %r8
	movb	%bpl, %dil
	shll	$12, %edi
	addq	%rdi, %r10
	addq	$4, %rcx
	leaq	56(,%rsi,2), %rdi
	movq	%rcx, 16(%rsp)
	movq	%rdi, 24(%rsp)
	movq	%rax, 8(%rsp)
	movq	%r11, (%rsp)
	leaq	16(%rsp), %rdi
	movq	%r8, %rcx
	movq	%r9, %r8
	movq	%r10, %r9
	callq	gcm_v1.gcm_siv.course.open_in
	xorl	%ecx, %ecx
	testb	%al, %al
	movl	$6, %eax
	cmovnel	%ecx, %eax
.Lgcm_v1_BB60_4:                               # %"gcm_c::siv::fotsgure_gcm_siv_open.exit"
	movaps	32(%rsp), %xmm6                 # 16-byte Reload
	movaps	48(%rsp), %xmm7                 # 16-byte Reload
	movaps	64(%rsp), %xmm8                 # 16-byte Reload
	movaps	80(%rsp), %xmm9                 # 16-byte Reload
	movaps	96(%rsp), %xmm10                # 16-byte Reload
	movaps	112(%rsp), %xmm11               # 16-byte Reload
	movaps	128(%rsp), %xmm12               # 16-byte Reload
	movaps	144(%rsp), %xmm13               # 16-byte Reload
	movaps	160(%rsp), %xmm14               # 16-byte Reload
	movaps	176(%rsp), %xmm15               # 16-byte Reload
	pxor	%xmm0, %xmm0
	pxor	%xmm1, %xmm1
	pxor	%xmm2, %xmm2
	pxor	%xmm3, %xmm3
	pxor	%xmm4, %xmm4
	pxor	%xmm5, %xmm5
	xorl	%ecx, %ecx
	xorl	%edx, %edx
	xorl	%r8d, %r8d
	xorl	%r9d, %r9d
	xorl	%r10d, %r10d
	xorl	%r11d, %r11d
	addq	$192, %rsp
	popq	%rbx
	popq	%rbp
	popq	%rdi
	popq	%rsi
	popq	%r14
	retq
	.seh_endproc
                                        # -- End function
	export_gcm_v1	fotsgure_gcm_siv_open_to
	.p2align	4
gcm_v1.fotsgure_gcm_siv_open_to:               # @gcm_v1.fotsgure_gcm_siv_open_to
.seh_proc gcm_v1.fotsgure_gcm_siv_open_to
# %bb.0:                                # %start
	pushq	%r15
	.seh_pushreg %r15
	pushq	%r14
	.seh_pushreg %r14
	pushq	%r13
	.seh_pushreg %r13
	pushq	%r12
	.seh_pushreg %r12
	pushq	%rsi
	.seh_pushreg %rsi
	pushq	%rdi
	.seh_pushreg %rdi
	pushq	%rbp
	.seh_pushreg %rbp
	pushq	%rbx
	.seh_pushreg %rbx
	subq	$232, %rsp
	.seh_stackalloc 232
	movaps	%xmm15, 208(%rsp)               # 16-byte Spill
	.seh_savexmm %xmm15, 208
	movaps	%xmm14, 192(%rsp)               # 16-byte Spill
	.seh_savexmm %xmm14, 192
	movaps	%xmm13, 176(%rsp)               # 16-byte Spill
	.seh_savexmm %xmm13, 176
	movaps	%xmm12, 160(%rsp)               # 16-byte Spill
	.seh_savexmm %xmm12, 160
	movaps	%xmm11, 144(%rsp)               # 16-byte Spill
	.seh_savexmm %xmm11, 144
	movaps	%xmm10, 128(%rsp)               # 16-byte Spill
	.seh_savexmm %xmm10, 128
	movaps	%xmm9, 112(%rsp)                # 16-byte Spill
	.seh_savexmm %xmm9, 112
	movaps	%xmm8, 96(%rsp)                 # 16-byte Spill
	.seh_savexmm %xmm8, 96
	movaps	%xmm7, 80(%rsp)                 # 16-byte Spill
	.seh_savexmm %xmm7, 80
	movaps	%xmm6, 64(%rsp)                 # 16-byte Spill
	.seh_savexmm %xmm6, 64
	.seh_endprologue
	movq	%rdx, 40(%rsp)                  # 8-byte Spill
	movq	352(%rsp), %rdx
	movq	344(%rsp), %rbp
	movq	336(%rsp), %r11
	xorl	%edi, %edi
	testq	%r8, %r8
	sete	%bl
	xorl	%esi, %esi
	testq	%r11, %r11
	sete	%r12b
	xorl	%r15d, %r15d
	testq	%rdx, %rdx
	sete	%r14b
	movl	$10, %eax
	cmpq	360(%rsp), %rbp
	jne	.Lgcm_v1_BB61_33
# %bb.1:                                # %join.3.i
	movabsq	$68719476736, %rax              # imm = 0x1000000000
	cmpq	%rax, %r9
	seta	%r10b
	cmpq	%rax, %rbp
	seta	%al
	orb	%r10b, %al
	movl	$5, %eax
	jne	.Lgcm_v1_BB61_33
# %bb.2:                                # %after.1.i.i
	movl	(%rcx), %r10d
	cmpl	$32, %r10d
	je	.Lgcm_v1_BB61_4
# %bb.3:                                # %after.1.i.i
	movl	$2, %eax
	cmpl	$16, %r10d
	jne	.Lgcm_v1_BB61_33
.Lgcm_v1_BB61_4:                               # %join.6.i
	movb	%r12b, %sil
	shll	$12, %esi
	leaq	(%r11,%rsi), %rax
	movb	%r14b, %r15b
	shll	$12, %r15d
	leaq	(%rdx,%r15), %r14
	movq	%r14, %r10
	subq	%rax, %r10
	cmpq	%rbp, %r10
	movb	%bl, 39(%rsp)                   # 1-byte Spill
	jae	.Lgcm_v1_BB61_7
# %bb.5:                                # %iter.check
	cmpq	$4, %rbp
	jb	.Lgcm_v1_BB61_6
# %bb.8:                                # %vector.memcheck
	cmpq	$32, %r10
	jae	.Lgcm_v1_BB61_10
.Lgcm_v1_BB61_6:
	xorl	%r12d, %r12d
.Lgcm_v1_BB61_19:                              # %join.7.i.i.i.i.i.i.i.preheader
	movq	%rbp, %rbx
	movq	%r12, %r13
	andq	$3, %rbx
	je	.Lgcm_v1_BB61_22
# %bb.20:                               # %join.7.i.i.i.i.i.i.i.prol.preheader
	movq	%r12, %r13
	.p2align	4
.Lgcm_v1_BB61_21:                              # %join.7.i.i.i.i.i.i.i.prol
                                        # =>This Inner Loop Header: Depth=1
	movzbl	(%rax,%r13), %r10d
	movb	%r10b, (%r14,%r13)
	incq	%r13
	decq	%rbx
	jne	.Lgcm_v1_BB61_21
.Lgcm_v1_BB61_22:                              # %join.7.i.i.i.i.i.i.i.prol.loopexit
	subq	%rbp, %r12
	cmpq	$-4, %r12
	ja	.Lgcm_v1_BB61_25
# %bb.23:                               # %join.7.i.i.i.i.i.i.i.preheader11
	leaq	(%rsi,%r11), %rax
	addq	$3, %rax
	leaq	(%r15,%rdx), %r10
	addq	$3, %r10
	.p2align	4
.Lgcm_v1_BB61_24:                              # %join.7.i.i.i.i.i.i.i
                                        # =>This Inner Loop Header: Depth=1
	movzbl	-3(%rax,%r13), %edx
	movb	%dl, -3(%r10,%r13)
	movzbl	-2(%rax,%r13), %edx
	movb	%dl, -2(%r10,%r13)
	movzbl	-1(%rax,%r13), %edx
	movb	%dl, -1(%r10,%r13)
	movzbl	(%rax,%r13), %edx
	movb	%dl, (%r10,%r13)
	addq	$4, %r13
	cmpq	%r13, %rbp
	jne	.Lgcm_v1_BB61_24
	jmp	.Lgcm_v1_BB61_25
.Lgcm_v1_BB61_7:                               # %apart.2.i.i.i.i.i.i.i
	movq	%rcx, %rsi
	movq	%r14, %rcx
	movq	%rax, %rdx
	movq	%r8, %rbx
	movq	%rbp, %r8
	movq	%r9, %r15
	callq	memmove
	movq	%rsi, %rcx
	movq	%rbx, %r8
	movq	%r15, %r9
.Lgcm_v1_BB61_25:                              # %after.1.i.i.i
	movl	(%rcx), %esi
	cmpq	$32, %rsi
	je	.Lgcm_v1_BB61_27
# %bb.26:                               # %after.1.i.i.i
	movl	$2, %eax
	cmpl	$16, %esi
	jne	.Lgcm_v1_BB61_29
.Lgcm_v1_BB61_27:                              # %join.3.i.i
	movzbl	39(%rsp), %eax                  # 1-byte Folded Reload
	movb	%al, %dil
	shll	$12, %edi
	movq	368(%rsp), %rax
	addq	%rdi, %r8
	addq	$4, %rcx
	leaq	56(,%rsi,2), %rdx
	movq	%rcx, 48(%rsp)
	movq	%rdx, 56(%rsp)
	movq	%rax, 8(%rsp)
	movq	%rbp, (%rsp)
	leaq	48(%rsp), %rdi
	movq	40(%rsp), %rdx                  # 8-byte Reload
	movq	%r8, %rcx
	movq	%r9, %r8
	movq	%r14, %r9
	callq	gcm_v1.gcm_siv.course.open_in
	movl	%eax, %ecx
	movl	$6, %eax
	testb	%cl, %cl
	je	.Lgcm_v1_BB61_29
# %bb.28:                               # %"gcm_c::siv::fotsgure_gcm_siv_open.exit.i"
	xorl	%eax, %eax
	jmp	.Lgcm_v1_BB61_33
.Lgcm_v1_BB61_29:                              # %then.7.i
	testq	%rbp, %rbp
	je	.Lgcm_v1_BB61_33
# %bb.30:                               # %loop.5.preheader.i.i
	decq	%rbp
	je	.Lgcm_v1_BB61_32
# %bb.31:                               # %join.8.preheader.i.i
	movq	%r14, %rcx
	xorl	%edx, %edx
	movq	%rbp, %r8
	movl	%eax, %esi
	callq	memset
	movl	%esi, %eax
.Lgcm_v1_BB61_32:                              # %after.4.i.i
	movb	$0, (%r14,%rbp)
.Lgcm_v1_BB61_33:                              # %"gcm_c::siv_to::fotsgure_gcm_siv_open_to.exit"
	movaps	64(%rsp), %xmm6                 # 16-byte Reload
	movaps	80(%rsp), %xmm7                 # 16-byte Reload
	movaps	96(%rsp), %xmm8                 # 16-byte Reload
	movaps	112(%rsp), %xmm9                # 16-byte Reload
	movaps	128(%rsp), %xmm10               # 16-byte Reload
	movaps	144(%rsp), %xmm11               # 16-byte Reload
	movaps	160(%rsp), %xmm12               # 16-byte Reload
	movaps	176(%rsp), %xmm13               # 16-byte Reload
	movaps	192(%rsp), %xmm14               # 16-byte Reload
	movaps	208(%rsp), %xmm15               # 16-byte Reload
	pxor	%xmm0, %xmm0
	pxor	%xmm1, %xmm1
	pxor	%xmm2, %xmm2
	pxor	%xmm3, %xmm3
	pxor	%xmm4, %xmm4
	pxor	%xmm5, %xmm5
	xorl	%ecx, %ecx
	xorl	%edx, %edx
	xorl	%r8d, %r8d
	xorl	%r9d, %r9d
	xorl	%r10d, %r10d
	xorl	%r11d, %r11d
	addq	$232, %rsp
	popq	%rbx
	popq	%rbp
	popq	%rdi
	popq	%rsi
	popq	%r12
	popq	%r13
	popq	%r14
	popq	%r15
	retq
.Lgcm_v1_BB61_10:                              # %vector.main.loop.iter.check
	movabsq	$137438953440, %r10             # imm = 0x1FFFFFFFE0
	cmpq	$32, %rbp
	jae	.Lgcm_v1_BB61_12
# %bb.11:
	xorl	%r12d, %r12d
	jmp	.Lgcm_v1_BB61_16
.Lgcm_v1_BB61_12:                              # %vector.ph
	movq	%rbp, %r12
	andq	%r10, %r12
	leaq	(%rsi,%r11), %rbx
	addq	$16, %rbx
	leaq	(%r15,%rdx), %r13
	addq	$16, %r13
	xorl	%r10d, %r10d
	.p2align	4
.Lgcm_v1_BB61_13:                              # %vector.body
                                        # =>This Inner Loop Header: Depth=1
	movups	-16(%rbx,%r10), %xmm0
	movups	(%rbx,%r10), %xmm1
	movups	%xmm0, -16(%r13,%r10)
	movups	%xmm1, (%r13,%r10)
	addq	$32, %r10
	cmpq	%r10, %r12
	jne	.Lgcm_v1_BB61_13
# %bb.14:                               # %middle.block
	cmpq	%r12, %rbp
	movabsq	$137438953440, %r10             # imm = 0x1FFFFFFFE0
	je	.Lgcm_v1_BB61_25
# %bb.15:                               # %vec.epilog.iter.check
	testb	$28, %bpl
	je	.Lgcm_v1_BB61_19
.Lgcm_v1_BB61_16:                              # %vec.epilog.ph
	movq	%r12, %rbx
	addq	$28, %r10
	movq	%r10, %r12
	andq	%rbp, %r12
	.p2align	4
.Lgcm_v1_BB61_17:                              # %vec.epilog.vector.body
                                        # =>This Inner Loop Header: Depth=1
	movl	(%rax,%rbx), %r10d
	movl	%r10d, (%r14,%rbx)
	addq	$4, %rbx
	cmpq	%rbx, %r12
	jne	.Lgcm_v1_BB61_17
# %bb.18:                               # %vec.epilog.middle.block
	cmpq	%r12, %rbp
	je	.Lgcm_v1_BB61_25
	jmp	.Lgcm_v1_BB61_19
	.seh_endproc
                                        # -- End function
	export_gcm_v1	fotsgure_gcm_siv_seal
	.p2align	4
gcm_v1.fotsgure_gcm_siv_seal:                  # @gcm_v1.fotsgure_gcm_siv_seal
.seh_proc gcm_v1.fotsgure_gcm_siv_seal
# %bb.0:                                # %start
	pushq	%r15
	.seh_pushreg %r15
	pushq	%r14
	.seh_pushreg %r14
	pushq	%rsi
	.seh_pushreg %rsi
	pushq	%rdi
	.seh_pushreg %rdi
	pushq	%rbp
	.seh_pushreg %rbp
	pushq	%rbx
	.seh_pushreg %rbx
	subq	$216, %rsp
	.seh_stackalloc 216
	movaps	%xmm15, 192(%rsp)               # 16-byte Spill
	.seh_savexmm %xmm15, 192
	movaps	%xmm14, 176(%rsp)               # 16-byte Spill
	.seh_savexmm %xmm14, 176
	movaps	%xmm13, 160(%rsp)               # 16-byte Spill
	.seh_savexmm %xmm13, 160
	movaps	%xmm12, 144(%rsp)               # 16-byte Spill
	.seh_savexmm %xmm12, 144
	movaps	%xmm11, 128(%rsp)               # 16-byte Spill
	.seh_savexmm %xmm11, 128
	movaps	%xmm10, 112(%rsp)               # 16-byte Spill
	.seh_savexmm %xmm10, 112
	movaps	%xmm9, 96(%rsp)                 # 16-byte Spill
	.seh_savexmm %xmm9, 96
	movaps	%xmm8, 80(%rsp)                 # 16-byte Spill
	.seh_savexmm %xmm8, 80
	movaps	%xmm7, 64(%rsp)                 # 16-byte Spill
	.seh_savexmm %xmm7, 64
	movaps	%xmm6, 48(%rsp)                 # 16-byte Spill
	.seh_savexmm %xmm6, 48
	.seh_endprologue
	movq	312(%rsp), %rsi
	movq	304(%rsp), %r11
	xorl	%ebx, %ebx
	testq	%r8, %r8
	sete	%r15b
	xorl	%edi, %edi
	testq	%r11, %r11
	sete	%bpl
	movabsq	$68719476736, %rax              # imm = 0x1000000000
	cmpq	%rax, %r9
	seta	%r10b
	cmpq	%rax, %rsi
	seta	%al
	orb	%r10b, %al
	movl	$5, %eax
	jne	.Lgcm_v1_BB62_4
# %bb.1:                                # %after.1.i.i
	movl	(%rcx), %r10d
	cmpq	$32, %r10
	je	.Lgcm_v1_BB62_3
# %bb.2:                                # %after.1.i.i
	movl	$2, %eax
	cmpl	$16, %r10d
	jne	.Lgcm_v1_BB62_4
.Lgcm_v1_BB62_3:                               # %join.3.i
	movq	320(%rsp), %r14
	movb	%r15b, %bl
	shll	$12, %ebx
	addq	%rbx, %r8
	movb	%bpl, %dil
	shll	$12, %edi
	addq	%rdi, %r11
	addq	$4, %rcx
	leaq	56(,%r10,2), %rax
	movq	%rcx, 16(%rsp)
	movq	%rax, 24(%rsp)
	movq	%rsi, 8(%rsp)
	movq	%r11, (%rsp)
	leaq	32(%rsp), %rdi
	leaq	16(%rsp), %rsi
	movq	%rdx, %rcx
	movq	%r10, %rdx
	callq	gcm_v1.gcm_siv.course.seal_in
	movups	32(%rsp), %xmm0
	movups	%xmm0, (%r14)
	xorl	%eax, %eax
.Lgcm_v1_BB62_4:                               # %"gcm_c::siv::fotsgure_gcm_siv_seal.exit"
	movaps	48(%rsp), %xmm6                 # 16-byte Reload
	movaps	64(%rsp), %xmm7                 # 16-byte Reload
	movaps	80(%rsp), %xmm8                 # 16-byte Reload
	movaps	96(%rsp), %xmm9                 # 16-byte Reload
	movaps	112(%rsp), %xmm10               # 16-byte Reload
	movaps	128(%rsp), %xmm11               # 16-byte Reload
	movaps	144(%rsp), %xmm12               # 16-byte Reload
	movaps	160(%rsp), %xmm13               # 16-byte Reload
	movaps	176(%rsp), %xmm14               # 16-byte Reload
	movaps	192(%rsp), %xmm15               # 16-byte Reload
	pxor	%xmm0, %xmm0
	pxor	%xmm1, %xmm1
	pxor	%xmm2, %xmm2
	pxor	%xmm3, %xmm3
	pxor	%xmm4, %xmm4
	pxor	%xmm5, %xmm5
	xorl	%ecx, %ecx
	xorl	%edx, %edx
	xorl	%r8d, %r8d
	xorl	%r9d, %r9d
	xorl	%r10d, %r10d
	xorl	%r11d, %r11d
	addq	$216, %rsp
	popq	%rbx
	popq	%rbp
	popq	%rdi
	popq	%rsi
	popq	%r14
	popq	%r15
	retq
	.seh_endproc
                                        # -- End function
	export_gcm_v1	fotsgure_gcm_siv_seal_to
	.p2align	4
gcm_v1.fotsgure_gcm_siv_seal_to:               # @gcm_v1.fotsgure_gcm_siv_seal_to
.seh_proc gcm_v1.fotsgure_gcm_siv_seal_to
# %bb.0:                                # %start
	pushq	%r15
	.seh_pushreg %r15
	pushq	%r14
	.seh_pushreg %r14
	pushq	%r13
	.seh_pushreg %r13
	pushq	%r12
	.seh_pushreg %r12
	pushq	%rsi
	.seh_pushreg %rsi
	pushq	%rdi
	.seh_pushreg %rdi
	pushq	%rbp
	.seh_pushreg %rbp
	pushq	%rbx
	.seh_pushreg %rbx
	subq	$248, %rsp
	.seh_stackalloc 248
	movaps	%xmm15, 224(%rsp)               # 16-byte Spill
	.seh_savexmm %xmm15, 224
	movaps	%xmm14, 208(%rsp)               # 16-byte Spill
	.seh_savexmm %xmm14, 208
	movaps	%xmm13, 192(%rsp)               # 16-byte Spill
	.seh_savexmm %xmm13, 192
	movaps	%xmm12, 176(%rsp)               # 16-byte Spill
	.seh_savexmm %xmm12, 176
	movaps	%xmm11, 160(%rsp)               # 16-byte Spill
	.seh_savexmm %xmm11, 160
	movaps	%xmm10, 144(%rsp)               # 16-byte Spill
	.seh_savexmm %xmm10, 144
	movaps	%xmm9, 128(%rsp)                # 16-byte Spill
	.seh_savexmm %xmm9, 128
	movaps	%xmm8, 112(%rsp)                # 16-byte Spill
	.seh_savexmm %xmm8, 112
	movaps	%xmm7, 96(%rsp)                 # 16-byte Spill
	.seh_savexmm %xmm7, 96
	movaps	%xmm6, 80(%rsp)                 # 16-byte Spill
	.seh_savexmm %xmm6, 80
	.seh_endprologue
	movq	%rdx, %rbx
	movq	368(%rsp), %r13
	movq	360(%rsp), %rbp
	movq	352(%rsp), %r11
	xorl	%r14d, %r14d
	testq	%r8, %r8
	sete	%sil
	xorl	%r15d, %r15d
	testq	%r11, %r11
	sete	%dl
	xorl	%r12d, %r12d
	testq	%r13, %r13
	sete	%dil
	movl	$10, %eax
	cmpq	376(%rsp), %rbp
	jne	.Lgcm_v1_BB63_28
# %bb.1:                                # %join.3.i
	movabsq	$68719476736, %rax              # imm = 0x1000000000
	cmpq	%rax, %r9
	seta	%r10b
	cmpq	%rax, %rbp
	seta	%al
	orb	%r10b, %al
	movl	$5, %eax
	jne	.Lgcm_v1_BB63_28
# %bb.2:                                # %after.1.i.i
	movl	(%rcx), %r10d
	cmpl	$32, %r10d
	je	.Lgcm_v1_BB63_4
# %bb.3:                                # %after.1.i.i
	movl	$2, %eax
	cmpl	$16, %r10d
	jne	.Lgcm_v1_BB63_28
.Lgcm_v1_BB63_4:                               # %join.6.i
	movb	%dl, %r15b
	shll	$12, %r15d
	leaq	(%r11,%r15), %rdx
	movb	%dil, %r12b
	shll	$12, %r12d
	leaq	(%r12,%r13), %rdi
	movq	%rdi, %rax
	subq	%rdx, %rax
	cmpq	%rbp, %rax
	movb	%sil, 47(%rsp)                  # 1-byte Spill
	jae	.Lgcm_v1_BB63_7
# %bb.5:                                # %iter.check
	cmpq	$4, %rbp
	jb	.Lgcm_v1_BB63_6
# %bb.8:                                # %vector.memcheck
	cmpq	$32, %rax
	jae	.Lgcm_v1_BB63_10
.Lgcm_v1_BB63_6:
	xorl	%eax, %eax
.Lgcm_v1_BB63_19:                              # %join.7.i.i.i.i.i.i.i.preheader
	movq	%rbp, %rsi
	movq	%rax, %r13
	andq	$3, %rsi
	je	.Lgcm_v1_BB63_22
# %bb.20:                               # %join.7.i.i.i.i.i.i.i.prol.preheader
	movq	%rax, %r13
	.p2align	4
.Lgcm_v1_BB63_21:                              # %join.7.i.i.i.i.i.i.i.prol
                                        # =>This Inner Loop Header: Depth=1
	movzbl	(%rdx,%r13), %r10d
	movb	%r10b, (%rdi,%r13)
	incq	%r13
	decq	%rsi
	jne	.Lgcm_v1_BB63_21
.Lgcm_v1_BB63_22:                              # %join.7.i.i.i.i.i.i.i.prol.loopexit
	subq	%rbp, %rax
	cmpq	$-4, %rax
	ja	.Lgcm_v1_BB63_25
# %bb.23:                               # %join.7.i.i.i.i.i.i.i.preheader11
	leaq	(%r15,%r11), %rax
	addq	$3, %rax
	movq	368(%rsp), %rdx
	addq	%r12, %rdx
	addq	$3, %rdx
	.p2align	4
.Lgcm_v1_BB63_24:                              # %join.7.i.i.i.i.i.i.i
                                        # =>This Inner Loop Header: Depth=1
	movzbl	-3(%rax,%r13), %r10d
	movb	%r10b, -3(%rdx,%r13)
	movzbl	-2(%rax,%r13), %r10d
	movb	%r10b, -2(%rdx,%r13)
	movzbl	-1(%rax,%r13), %r10d
	movb	%r10b, -1(%rdx,%r13)
	movzbl	(%rax,%r13), %r10d
	movb	%r10b, (%rdx,%r13)
	addq	$4, %r13
	cmpq	%r13, %rbp
	jne	.Lgcm_v1_BB63_24
	jmp	.Lgcm_v1_BB63_25
.Lgcm_v1_BB63_7:                               # %apart.2.i.i.i.i.i.i.i
	movq	%rcx, %rsi
	movq	%rdi, %rcx
	movq	%r8, %r15
	movq	%rbp, %r8
	movq	%r9, %r12
	callq	memmove
	movq	%rsi, %rcx
	movq	%r15, %r8
	movq	%r12, %r9
.Lgcm_v1_BB63_25:                              # %after.1.i.i.i
	movl	(%rcx), %edx
	cmpq	$32, %rdx
	je	.Lgcm_v1_BB63_27
# %bb.26:                               # %after.1.i.i.i
	movl	$2, %eax
	cmpl	$16, %edx
	jne	.Lgcm_v1_BB63_28
.Lgcm_v1_BB63_27:                              # %join.3.i.i
	movzbl	47(%rsp), %eax                  # 1-byte Folded Reload
	movb	%al, %r14b
	shll	$12, %r14d
	movq	384(%rsp), %r15
	addq	%r14, %r8
	addq	$4, %rcx
	leaq	56(,%rdx,2), %rax
	movq	%rcx, 48(%rsp)
	movq	%rax, 56(%rsp)
	movq	%rbp, 8(%rsp)
	movq	%rdi, (%rsp)
	leaq	64(%rsp), %rdi
	leaq	48(%rsp), %rsi
	movq	%rbx, %rcx
	callq	gcm_v1.gcm_siv.course.seal_in
	movups	64(%rsp), %xmm0
	movups	%xmm0, (%r15)
	xorl	%eax, %eax
.Lgcm_v1_BB63_28:                              # %"gcm_c::siv_to::fotsgure_gcm_siv_seal_to.exit"
	movaps	80(%rsp), %xmm6                 # 16-byte Reload
	movaps	96(%rsp), %xmm7                 # 16-byte Reload
	movaps	112(%rsp), %xmm8                # 16-byte Reload
	movaps	128(%rsp), %xmm9                # 16-byte Reload
	movaps	144(%rsp), %xmm10               # 16-byte Reload
	movaps	160(%rsp), %xmm11               # 16-byte Reload
	movaps	176(%rsp), %xmm12               # 16-byte Reload
	movaps	192(%rsp), %xmm13               # 16-byte Reload
	movaps	208(%rsp), %xmm14               # 16-byte Reload
	movaps	224(%rsp), %xmm15               # 16-byte Reload
	pxor	%xmm0, %xmm0
	pxor	%xmm1, %xmm1
	pxor	%xmm2, %xmm2
	pxor	%xmm3, %xmm3
	pxor	%xmm4, %xmm4
	pxor	%xmm5, %xmm5
	xorl	%ecx, %ecx
	xorl	%edx, %edx
	xorl	%r8d, %r8d
	xorl	%r9d, %r9d
	xorl	%r10d, %r10d
	xorl	%r11d, %r11d
	addq	$248, %rsp
	popq	%rbx
	popq	%rbp
	popq	%rdi
	popq	%rsi
	popq	%r12
	popq	%r13
	popq	%r14
	popq	%r15
	retq
.Lgcm_v1_BB63_10:                              # %vector.main.loop.iter.check
	movabsq	$137438953440, %r10             # imm = 0x1FFFFFFFE0
	cmpq	$32, %rbp
	jae	.Lgcm_v1_BB63_12
# %bb.11:
	xorl	%eax, %eax
	jmp	.Lgcm_v1_BB63_16
.Lgcm_v1_BB63_12:                              # %vector.ph
	movq	%rbp, %rax
	andq	%r10, %rax
	leaq	(%r15,%r11), %rsi
	addq	$16, %rsi
	addq	%r12, %r13
	addq	$16, %r13
	xorl	%r10d, %r10d
	.p2align	4
.Lgcm_v1_BB63_13:                              # %vector.body
                                        # =>This Inner Loop Header: Depth=1
	movups	-16(%rsi,%r10), %xmm0
	movups	(%rsi,%r10), %xmm1
	movups	%xmm0, -16(%r13,%r10)
	movups	%xmm1, (%r13,%r10)
	addq	$32, %r10
	cmpq	%r10, %rax
	jne	.Lgcm_v1_BB63_13
# %bb.14:                               # %middle.block
	cmpq	%rax, %rbp
	movabsq	$137438953440, %r10             # imm = 0x1FFFFFFFE0
	je	.Lgcm_v1_BB63_25
# %bb.15:                               # %vec.epilog.iter.check
	testb	$28, %bpl
	je	.Lgcm_v1_BB63_19
.Lgcm_v1_BB63_16:                              # %vec.epilog.ph
	movq	%rax, %rsi
	addq	$28, %r10
	movq	%r10, %rax
	andq	%rbp, %rax
	.p2align	4
.Lgcm_v1_BB63_17:                              # %vec.epilog.vector.body
                                        # =>This Inner Loop Header: Depth=1
	movl	(%rdx,%rsi), %r10d
	movl	%r10d, (%rdi,%rsi)
	addq	$4, %rsi
	cmpq	%rsi, %rax
	jne	.Lgcm_v1_BB63_17
# %bb.18:                               # %vec.epilog.middle.block
	cmpq	%rax, %rbp
	je	.Lgcm_v1_BB63_25
	jmp	.Lgcm_v1_BB63_19
	.seh_endproc
                                        # -- End function
	export_gcm_v1	fotsgure_gcm_additional
	.p2align	4
gcm_v1.fotsgure_gcm_additional:                # @gcm_v1.fotsgure_gcm_additional
.seh_proc gcm_v1.fotsgure_gcm_additional
# %bb.0:                                # %start
	pushq	%r14
	.seh_pushreg %r14
	pushq	%rsi
	.seh_pushreg %rsi
	pushq	%rdi
	.seh_pushreg %rdi
	pushq	%rbx
	.seh_pushreg %rbx
	subq	$200, %rsp
	.seh_stackalloc 200
	movaps	%xmm15, 176(%rsp)               # 16-byte Spill
	.seh_savexmm %xmm15, 176
	movaps	%xmm14, 160(%rsp)               # 16-byte Spill
	.seh_savexmm %xmm14, 160
	movaps	%xmm13, 144(%rsp)               # 16-byte Spill
	.seh_savexmm %xmm13, 144
	movaps	%xmm12, 128(%rsp)               # 16-byte Spill
	.seh_savexmm %xmm12, 128
	movaps	%xmm11, 112(%rsp)               # 16-byte Spill
	.seh_savexmm %xmm11, 112
	movaps	%xmm10, 96(%rsp)                # 16-byte Spill
	.seh_savexmm %xmm10, 96
	movaps	%xmm9, 80(%rsp)                 # 16-byte Spill
	.seh_savexmm %xmm9, 80
	movaps	%xmm8, 64(%rsp)                 # 16-byte Spill
	.seh_savexmm %xmm8, 64
	movaps	%xmm7, 48(%rsp)                 # 16-byte Spill
	.seh_savexmm %xmm7, 48
	movaps	%xmm6, 32(%rsp)                 # 16-byte Spill
	.seh_savexmm %xmm6, 32
	.seh_endprologue
	xorl	%r10d, %r10d
	testq	%r8, %r8
	sete	%r11b
	movl	(%rcx), %esi
	movl	$2, %eax
	cmpq	$32, %rsi
	ja	.Lgcm_v1_BB64_5
# %bb.1:                                # %start
	movabsq	$4311810048, %rdi               # imm = 0x101010000
	btq	%rsi, %rdi
	jae	.Lgcm_v1_BB64_5
# %bb.2:                                # %join.3.i
	leaq	4(%rcx), %rax
	leaq	56(,%rsi,2), %rsi
	addq	$484, %rcx                      # imm = 0x1E4
	movq	%rax, 8(%rsp)
	movq	%rsi, 16(%rsp)
	movq	%rcx, 24(%rsp)
	movl	$8, %eax
	cmpq	$1, 24(%rdx)
	jne	.Lgcm_v1_BB64_5
# %bb.3:                                # %join.3.i.i
	movq	(%rdx), %rcx
	movq	%r9, %rax
	addq	%rcx, %rax
	movq	$-1, %rsi
	cmovaeq	%rax, %rsi
	shrq	$61, %rsi
	movl	$5, %eax
	jne	.Lgcm_v1_BB64_5
# %bb.4:                                # %arm.4.i
	movb	%r11b, %r10b
	shll	$12, %r10d
	addq	%r10, %r8
	leaq	24(%rsp), %rdi
	andl	$15, %ecx
	leaq	48(%rdx), %rsi
	leaq	64(%rdx), %rax
	movq	%rdx, %r14
	movq	%rax, %rdx
	movq	%r9, %rbx
	callq	gcm_v1.gcm.hash_room.hash_piece
	callq	gcm_v1.aes_cipher.zeroize.stack.wipe_stack.512
	addq	%rbx, (%r14)
	xorl	%eax, %eax
.Lgcm_v1_BB64_5:                               # %"gcm_c::pieces::fotsgure_gcm_additional.exit"
	movaps	32(%rsp), %xmm6                 # 16-byte Reload
	movaps	48(%rsp), %xmm7                 # 16-byte Reload
	movaps	64(%rsp), %xmm8                 # 16-byte Reload
	movaps	80(%rsp), %xmm9                 # 16-byte Reload
	movaps	96(%rsp), %xmm10                # 16-byte Reload
	movaps	112(%rsp), %xmm11               # 16-byte Reload
	movaps	128(%rsp), %xmm12               # 16-byte Reload
	movaps	144(%rsp), %xmm13               # 16-byte Reload
	movaps	160(%rsp), %xmm14               # 16-byte Reload
	movaps	176(%rsp), %xmm15               # 16-byte Reload
	pxor	%xmm0, %xmm0
	pxor	%xmm1, %xmm1
	pxor	%xmm2, %xmm2
	pxor	%xmm3, %xmm3
	pxor	%xmm4, %xmm4
	pxor	%xmm5, %xmm5
	xorl	%ecx, %ecx
	xorl	%edx, %edx
	xorl	%r8d, %r8d
	xorl	%r9d, %r9d
	xorl	%r10d, %r10d
	xorl	%r11d, %r11d
	addq	$200, %rsp
	popq	%rbx
	popq	%rdi
	popq	%rsi
	popq	%r14
	retq
	.seh_endproc
                                        # -- End function
	export_gcm_v1	fotsgure_gcm_decrypt
	.p2align	4
gcm_v1.fotsgure_gcm_decrypt:                   # @gcm_v1.fotsgure_gcm_decrypt
.seh_proc gcm_v1.fotsgure_gcm_decrypt
# %bb.0:                                # %start
	pushq	%r14
	.seh_pushreg %r14
	pushq	%rsi
	.seh_pushreg %rsi
	pushq	%rdi
	.seh_pushreg %rdi
	pushq	%rbx
	.seh_pushreg %rbx
	subq	$200, %rsp
	.seh_stackalloc 200
	movaps	%xmm15, 176(%rsp)               # 16-byte Spill
	.seh_savexmm %xmm15, 176
	movaps	%xmm14, 160(%rsp)               # 16-byte Spill
	.seh_savexmm %xmm14, 160
	movaps	%xmm13, 144(%rsp)               # 16-byte Spill
	.seh_savexmm %xmm13, 144
	movaps	%xmm12, 128(%rsp)               # 16-byte Spill
	.seh_savexmm %xmm12, 128
	movaps	%xmm11, 112(%rsp)               # 16-byte Spill
	.seh_savexmm %xmm11, 112
	movaps	%xmm10, 96(%rsp)                # 16-byte Spill
	.seh_savexmm %xmm10, 96
	movaps	%xmm9, 80(%rsp)                 # 16-byte Spill
	.seh_savexmm %xmm9, 80
	movaps	%xmm8, 64(%rsp)                 # 16-byte Spill
	.seh_savexmm %xmm8, 64
	movaps	%xmm7, 48(%rsp)                 # 16-byte Spill
	.seh_savexmm %xmm7, 48
	movaps	%xmm6, 32(%rsp)                 # 16-byte Spill
	.seh_savexmm %xmm6, 32
	.seh_endprologue
	xorl	%r10d, %r10d
	testq	%r8, %r8
	sete	%r11b
	movl	(%rcx), %esi
	movl	$2, %eax
	cmpq	$32, %rsi
	ja	.Lgcm_v1_BB65_5
# %bb.1:                                # %start
	movabsq	$4311810048, %rdi               # imm = 0x101010000
	btq	%rsi, %rdi
	jae	.Lgcm_v1_BB65_5
# %bb.2:                                # %join.3.i
	leaq	4(%rcx), %rax
	leaq	56(,%rsi,2), %rsi
	addq	$484, %rcx                      # imm = 0x1E4
	movq	%rax, 8(%rsp)
	movq	%rsi, 16(%rsp)
	movq	%rcx, 24(%rsp)
	movl	$8, %eax
	cmpq	$4, 24(%rdx)
	jne	.Lgcm_v1_BB65_5
# %bb.3:                                # %join.3.i.i
	movq	8(%rdx), %rax
	movq	16(%rdx), %rcx
	movq	%r9, %rsi
	addq	%rcx, %rsi
	movq	$-1, %rdi
	cmovaeq	%rsi, %rdi
	movabsq	$68719476704, %rsi              # imm = 0xFFFFFFFE0
	cmpq	%rsi, %rax
	cmovbq	%rax, %rsi
	movl	$5, %eax
	cmpq	%rdi, %rsi
	jb	.Lgcm_v1_BB65_5
# %bb.4:                                # %arm.4.i
	movb	%r11b, %r10b
	shll	$12, %r10d
	addq	%r10, %r8
	leaq	32(%rdx), %rsi
	addq	$16, %rcx
	leaq	8(%rsp), %rdi
	movq	%rdx, %rbx
	movq	%rcx, %rdx
	movq	%r8, %rcx
	movq	%r9, %r8
	movq	%r9, %r14
	callq	gcm_v1.gcm.gctr.add_gctr
	addq	%r14, 16(%rbx)
	callq	gcm_v1.aes_cipher.zeroize.stack.wipe_stack.1536
	xorl	%eax, %eax
.Lgcm_v1_BB65_5:                               # %"gcm_c::pieces::decrypting::fotsgure_gcm_decrypt.exit"
	movaps	32(%rsp), %xmm6                 # 16-byte Reload
	movaps	48(%rsp), %xmm7                 # 16-byte Reload
	movaps	64(%rsp), %xmm8                 # 16-byte Reload
	movaps	80(%rsp), %xmm9                 # 16-byte Reload
	movaps	96(%rsp), %xmm10                # 16-byte Reload
	movaps	112(%rsp), %xmm11               # 16-byte Reload
	movaps	128(%rsp), %xmm12               # 16-byte Reload
	movaps	144(%rsp), %xmm13               # 16-byte Reload
	movaps	160(%rsp), %xmm14               # 16-byte Reload
	movaps	176(%rsp), %xmm15               # 16-byte Reload
	pxor	%xmm0, %xmm0
	pxor	%xmm1, %xmm1
	pxor	%xmm2, %xmm2
	pxor	%xmm3, %xmm3
	pxor	%xmm4, %xmm4
	pxor	%xmm5, %xmm5
	xorl	%ecx, %ecx
	xorl	%edx, %edx
	xorl	%r8d, %r8d
	xorl	%r9d, %r9d
	xorl	%r10d, %r10d
	xorl	%r11d, %r11d
	addq	$200, %rsp
	popq	%rbx
	popq	%rdi
	popq	%rsi
	popq	%r14
	retq
	.seh_endproc
                                        # -- End function
	export_gcm_v1	fotsgure_gcm_decrypt_unverified
	.p2align	4
gcm_v1.fotsgure_gcm_decrypt_unverified:        # @gcm_v1.fotsgure_gcm_decrypt_unverified
.seh_proc gcm_v1.fotsgure_gcm_decrypt_unverified
# %bb.0:                                # %start
	pushq	%r15
	.seh_pushreg %r15
	pushq	%r14
	.seh_pushreg %r14
	pushq	%r12
	.seh_pushreg %r12
	pushq	%rsi
	.seh_pushreg %rsi
	pushq	%rdi
	.seh_pushreg %rdi
	pushq	%rbp
	.seh_pushreg %rbp
	pushq	%rbx
	.seh_pushreg %rbx
	subq	$192, %rsp
	.seh_stackalloc 192
	movaps	%xmm15, 176(%rsp)               # 16-byte Spill
	.seh_savexmm %xmm15, 176
	movaps	%xmm14, 160(%rsp)               # 16-byte Spill
	.seh_savexmm %xmm14, 160
	movaps	%xmm13, 144(%rsp)               # 16-byte Spill
	.seh_savexmm %xmm13, 144
	movaps	%xmm12, 128(%rsp)               # 16-byte Spill
	.seh_savexmm %xmm12, 128
	movaps	%xmm11, 112(%rsp)               # 16-byte Spill
	.seh_savexmm %xmm11, 112
	movaps	%xmm10, 96(%rsp)                # 16-byte Spill
	.seh_savexmm %xmm10, 96
	movaps	%xmm9, 80(%rsp)                 # 16-byte Spill
	.seh_savexmm %xmm9, 80
	movaps	%xmm8, 64(%rsp)                 # 16-byte Spill
	.seh_savexmm %xmm8, 64
	movaps	%xmm7, 48(%rsp)                 # 16-byte Spill
	.seh_savexmm %xmm7, 48
	movaps	%xmm6, 32(%rsp)                 # 16-byte Spill
	.seh_savexmm %xmm6, 32
	.seh_endprologue
	movq	%rdx, %r15
	xorl	%r12d, %r12d
	testq	%r8, %r8
	sete	%bpl
	movl	(%rcx), %edx
	movl	$2, %eax
	cmpq	$32, %rdx
	ja	.Lgcm_v1_BB66_5
# %bb.1:                                # %start
	movq	%r8, %r14
	movabsq	$4311810048, %r8                # imm = 0x101010000
	btq	%rdx, %r8
	jae	.Lgcm_v1_BB66_5
# %bb.2:                                # %join.3.i
	movq	%r9, %rbx
	leaq	4(%rcx), %rax
	leaq	56(,%rdx,2), %rdx
	addq	$484, %rcx                      # imm = 0x1E4
	movq	%rax, 8(%rsp)
	movq	%rdx, 16(%rsp)
	movq	%rcx, 24(%rsp)
	leaq	8(%rsp), %rdi
	movq	%r15, %rsi
	movl	$3, %edx
	movq	%r9, %rcx
	callq	gcm_v1.gcm.mode.BorrowedGcm.enter_phase
	testb	%al, %al
	je	.Lgcm_v1_BB66_3
# %bb.4:                                # %arm.2.i.i
	notb	%dl
	movzbl	%dl, %eax
	andl	$1, %eax
	leal	(%rax,%rax,2), %eax
	addl	$5, %eax
	jmp	.Lgcm_v1_BB66_5
.Lgcm_v1_BB66_3:                               # %arm.1.i.i
	movb	%bpl, %r12b
	shll	$12, %r12d
	addq	%r12, %r14
	leaq	24(%rsp), %rdi
	movq	8(%r15), %rcx
	leaq	16(%rcx), %r12
	andl	$15, %ecx
	leaq	48(%r15), %rsi
	leaq	64(%r15), %rdx
	movq	%r14, %r8
	movq	%rbx, %r9
	callq	gcm_v1.gcm.hash_room.hash_piece
	addq	%rbx, 8(%r15)
	addq	$32, %r15
	leaq	8(%rsp), %rdi
	movq	%r15, %rsi
	movq	%r12, %rdx
	movq	%r14, %rcx
	movq	%rbx, %r8
	callq	gcm_v1.gcm.gctr.add_gctr
	callq	gcm_v1.aes_cipher.zeroize.stack.wipe_stack.1536
	xorl	%eax, %eax
.Lgcm_v1_BB66_5:                               # %"gcm_c::pieces::decrypting::fotsgure_gcm_decrypt_unverified.exit"
	movaps	32(%rsp), %xmm6                 # 16-byte Reload
	movaps	48(%rsp), %xmm7                 # 16-byte Reload
	movaps	64(%rsp), %xmm8                 # 16-byte Reload
	movaps	80(%rsp), %xmm9                 # 16-byte Reload
	movaps	96(%rsp), %xmm10                # 16-byte Reload
	movaps	112(%rsp), %xmm11               # 16-byte Reload
	movaps	128(%rsp), %xmm12               # 16-byte Reload
	movaps	144(%rsp), %xmm13               # 16-byte Reload
	movaps	160(%rsp), %xmm14               # 16-byte Reload
	movaps	176(%rsp), %xmm15               # 16-byte Reload
	pxor	%xmm0, %xmm0
	pxor	%xmm1, %xmm1
	pxor	%xmm2, %xmm2
	pxor	%xmm3, %xmm3
	pxor	%xmm4, %xmm4
	pxor	%xmm5, %xmm5
	xorl	%ecx, %ecx
	xorl	%edx, %edx
	xorl	%r8d, %r8d
	xorl	%r9d, %r9d
	xorl	%r10d, %r10d
	xorl	%r11d, %r11d
	addq	$192, %rsp
	popq	%rbx
	popq	%rbp
	popq	%rdi
	popq	%rsi
	popq	%r12
	popq	%r14
	popq	%r15
	retq
	.seh_endproc
                                        # -- End function
	export_gcm_v1	fotsgure_gcm_encrypt
	.p2align	4
gcm_v1.fotsgure_gcm_encrypt:                   # @gcm_v1.fotsgure_gcm_encrypt
.seh_proc gcm_v1.fotsgure_gcm_encrypt
# %bb.0:                                # %start
	pushq	%r15
	.seh_pushreg %r15
	pushq	%r14
	.seh_pushreg %r14
	pushq	%r12
	.seh_pushreg %r12
	pushq	%rsi
	.seh_pushreg %rsi
	pushq	%rdi
	.seh_pushreg %rdi
	pushq	%rbp
	.seh_pushreg %rbp
	pushq	%rbx
	.seh_pushreg %rbx
	subq	$192, %rsp
	.seh_stackalloc 192
	movaps	%xmm15, 176(%rsp)               # 16-byte Spill
	.seh_savexmm %xmm15, 176
	movaps	%xmm14, 160(%rsp)               # 16-byte Spill
	.seh_savexmm %xmm14, 160
	movaps	%xmm13, 144(%rsp)               # 16-byte Spill
	.seh_savexmm %xmm13, 144
	movaps	%xmm12, 128(%rsp)               # 16-byte Spill
	.seh_savexmm %xmm12, 128
	movaps	%xmm11, 112(%rsp)               # 16-byte Spill
	.seh_savexmm %xmm11, 112
	movaps	%xmm10, 96(%rsp)                # 16-byte Spill
	.seh_savexmm %xmm10, 96
	movaps	%xmm9, 80(%rsp)                 # 16-byte Spill
	.seh_savexmm %xmm9, 80
	movaps	%xmm8, 64(%rsp)                 # 16-byte Spill
	.seh_savexmm %xmm8, 64
	movaps	%xmm7, 48(%rsp)                 # 16-byte Spill
	.seh_savexmm %xmm7, 48
	movaps	%xmm6, 32(%rsp)                 # 16-byte Spill
	.seh_savexmm %xmm6, 32
	.seh_endprologue
	movq	%rdx, %r14
	xorl	%r12d, %r12d
	testq	%r8, %r8
	sete	%bpl
	movl	(%rcx), %edx
	movl	$2, %eax
	cmpq	$32, %rdx
	ja	.Lgcm_v1_BB67_5
# %bb.1:                                # %start
	movq	%r8, %r15
	movabsq	$4311810048, %r8                # imm = 0x101010000
	btq	%rdx, %r8
	jae	.Lgcm_v1_BB67_5
# %bb.2:                                # %join.3.i
	movq	%r9, %rbx
	leaq	4(%rcx), %rax
	leaq	56(,%rdx,2), %rdx
	addq	$484, %rcx                      # imm = 0x1E4
	movq	%rax, 8(%rsp)
	movq	%rdx, 16(%rsp)
	movq	%rcx, 24(%rsp)
	leaq	8(%rsp), %rdi
	movq	%r14, %rsi
	movl	$2, %edx
	movq	%r9, %rcx
	callq	gcm_v1.gcm.mode.BorrowedGcm.enter_phase
	testb	%al, %al
	je	.Lgcm_v1_BB67_3
# %bb.4:                                # %arm.2.i.i
	notb	%dl
	movzbl	%dl, %eax
	andl	$1, %eax
	leal	(%rax,%rax,2), %eax
	addl	$5, %eax
	jmp	.Lgcm_v1_BB67_5
.Lgcm_v1_BB67_3:                               # %arm.1.i.i
	movb	%bpl, %r12b
	shll	$12, %r12d
	addq	%r12, %r15
	leaq	24(%rsp), %r12
	leaq	32(%r14), %rsi
	movq	8(%r14), %rdx
	addq	$16, %rdx
	leaq	8(%rsp), %rdi
	movq	%r15, %rcx
	movq	%rbx, %r8
	callq	gcm_v1.gcm.gctr.add_gctr
	movq	8(%r14), %rcx
	andl	$15, %ecx
	leaq	48(%r14), %rsi
	leaq	64(%r14), %rdx
	movq	%r12, %rdi
	movq	%r15, %r8
	movq	%rbx, %r9
	callq	gcm_v1.gcm.hash_room.hash_piece
	addq	%rbx, 8(%r14)
	callq	gcm_v1.aes_cipher.zeroize.stack.wipe_stack.1536
	xorl	%eax, %eax
.Lgcm_v1_BB67_5:                               # %"gcm_c::pieces::encrypting::fotsgure_gcm_encrypt.exit"
	movaps	32(%rsp), %xmm6                 # 16-byte Reload
	movaps	48(%rsp), %xmm7                 # 16-byte Reload
	movaps	64(%rsp), %xmm8                 # 16-byte Reload
	movaps	80(%rsp), %xmm9                 # 16-byte Reload
	movaps	96(%rsp), %xmm10                # 16-byte Reload
	movaps	112(%rsp), %xmm11               # 16-byte Reload
	movaps	128(%rsp), %xmm12               # 16-byte Reload
	movaps	144(%rsp), %xmm13               # 16-byte Reload
	movaps	160(%rsp), %xmm14               # 16-byte Reload
	movaps	176(%rsp), %xmm15               # 16-byte Reload
	pxor	%xmm0, %xmm0
	pxor	%xmm1, %xmm1
	pxor	%xmm2, %xmm2
	pxor	%xmm3, %xmm3
	pxor	%xmm4, %xmm4
	pxor	%xmm5, %xmm5
	xorl	%ecx, %ecx
	xorl	%edx, %edx
	xorl	%r8d, %r8d
	xorl	%r9d, %r9d
	xorl	%r10d, %r10d
	xorl	%r11d, %r11d
	addq	$192, %rsp
	popq	%rbx
	popq	%rbp
	popq	%rdi
	popq	%rsi
	popq	%r12
	popq	%r14
	popq	%r15
	retq
	.seh_endproc
                                        # -- End function
	export_gcm_v1	fotsgure_gcm_verify
	.p2align	4
gcm_v1.fotsgure_gcm_verify:                    # @gcm_v1.fotsgure_gcm_verify
.seh_proc gcm_v1.fotsgure_gcm_verify
# %bb.0:                                # %start
	pushq	%r15
	.seh_pushreg %r15
	pushq	%r14
	.seh_pushreg %r14
	pushq	%r12
	.seh_pushreg %r12
	pushq	%rsi
	.seh_pushreg %rsi
	pushq	%rdi
	.seh_pushreg %rdi
	pushq	%rbp
	.seh_pushreg %rbp
	pushq	%rbx
	.seh_pushreg %rbx
	subq	$192, %rsp
	.seh_stackalloc 192
	movaps	%xmm15, 176(%rsp)               # 16-byte Spill
	.seh_savexmm %xmm15, 176
	movaps	%xmm14, 160(%rsp)               # 16-byte Spill
	.seh_savexmm %xmm14, 160
	movaps	%xmm13, 144(%rsp)               # 16-byte Spill
	.seh_savexmm %xmm13, 144
	movaps	%xmm12, 128(%rsp)               # 16-byte Spill
	.seh_savexmm %xmm12, 128
	movaps	%xmm11, 112(%rsp)               # 16-byte Spill
	.seh_savexmm %xmm11, 112
	movaps	%xmm10, 96(%rsp)                # 16-byte Spill
	.seh_savexmm %xmm10, 96
	movaps	%xmm9, 80(%rsp)                 # 16-byte Spill
	.seh_savexmm %xmm9, 80
	movaps	%xmm8, 64(%rsp)                 # 16-byte Spill
	.seh_savexmm %xmm8, 64
	movaps	%xmm7, 48(%rsp)                 # 16-byte Spill
	.seh_savexmm %xmm7, 48
	movaps	%xmm6, 32(%rsp)                 # 16-byte Spill
	.seh_savexmm %xmm6, 32
	.seh_endprologue
	movq	%rdx, %r14
	xorl	%r12d, %r12d
	testq	%r8, %r8
	sete	%bpl
	movl	(%rcx), %edx
	movl	$2, %eax
	cmpq	$32, %rdx
	ja	.Lgcm_v1_BB68_5
# %bb.1:                                # %start
	movq	%r8, %r15
	movabsq	$4311810048, %r8                # imm = 0x101010000
	btq	%rdx, %r8
	jae	.Lgcm_v1_BB68_5
# %bb.2:                                # %join.3.i
	movq	%r9, %rbx
	leaq	4(%rcx), %rax
	leaq	56(,%rdx,2), %rdx
	addq	$484, %rcx                      # imm = 0x1E4
	movq	%rax, 8(%rsp)
	movq	%rdx, 16(%rsp)
	movq	%rcx, 24(%rsp)
	leaq	8(%rsp), %rdi
	movq	%r14, %rsi
	movl	$3, %edx
	movq	%r9, %rcx
	callq	gcm_v1.gcm.mode.BorrowedGcm.enter_phase
	testb	%al, %al
	je	.Lgcm_v1_BB68_3
# %bb.4:                                # %arm.2.i.i
	notb	%dl
	movzbl	%dl, %eax
	andl	$1, %eax
	leal	(%rax,%rax,2), %eax
	addl	$5, %eax
	jmp	.Lgcm_v1_BB68_5
.Lgcm_v1_BB68_3:                               # %arm.1.i.i
	movb	%bpl, %r12b
	shll	$12, %r12d
	addq	%r12, %r15
	leaq	24(%rsp), %rdi
	movq	8(%r14), %rcx
	andl	$15, %ecx
	leaq	48(%r14), %rsi
	leaq	64(%r14), %rdx
	movq	%r15, %r8
	movq	%rbx, %r9
	callq	gcm_v1.gcm.hash_room.hash_piece
	addq	%rbx, 8(%r14)
	callq	gcm_v1.aes_cipher.zeroize.stack.wipe_stack.512
	xorl	%eax, %eax
.Lgcm_v1_BB68_5:                               # %"gcm_c::pieces::decrypting::fotsgure_gcm_verify.exit"
	movaps	32(%rsp), %xmm6                 # 16-byte Reload
	movaps	48(%rsp), %xmm7                 # 16-byte Reload
	movaps	64(%rsp), %xmm8                 # 16-byte Reload
	movaps	80(%rsp), %xmm9                 # 16-byte Reload
	movaps	96(%rsp), %xmm10                # 16-byte Reload
	movaps	112(%rsp), %xmm11               # 16-byte Reload
	movaps	128(%rsp), %xmm12               # 16-byte Reload
	movaps	144(%rsp), %xmm13               # 16-byte Reload
	movaps	160(%rsp), %xmm14               # 16-byte Reload
	movaps	176(%rsp), %xmm15               # 16-byte Reload
	pxor	%xmm0, %xmm0
	pxor	%xmm1, %xmm1
	pxor	%xmm2, %xmm2
	pxor	%xmm3, %xmm3
	pxor	%xmm4, %xmm4
	pxor	%xmm5, %xmm5
	xorl	%ecx, %ecx
	xorl	%edx, %edx
	xorl	%r8d, %r8d
	xorl	%r9d, %r9d
	xorl	%r10d, %r10d
	xorl	%r11d, %r11d
	addq	$192, %rsp
	popq	%rbx
	popq	%rbp
	popq	%rdi
	popq	%rsi
	popq	%r12
	popq	%r14
	popq	%r15
	retq
	.seh_endproc
                                        # -- End function
	export_gcm_v1	fotsgure_gcm_accept
	.p2align	4
gcm_v1.fotsgure_gcm_accept:                    # @gcm_v1.fotsgure_gcm_accept
.seh_proc gcm_v1.fotsgure_gcm_accept
# %bb.0:                                # %start
	pushq	%r14
	.seh_pushreg %r14
	pushq	%rsi
	.seh_pushreg %rsi
	pushq	%rdi
	.seh_pushreg %rdi
	pushq	%rbx
	.seh_pushreg %rbx
	subq	$216, %rsp
	.seh_stackalloc 216
	movaps	%xmm15, 192(%rsp)               # 16-byte Spill
	.seh_savexmm %xmm15, 192
	movaps	%xmm14, 176(%rsp)               # 16-byte Spill
	.seh_savexmm %xmm14, 176
	movaps	%xmm13, 160(%rsp)               # 16-byte Spill
	.seh_savexmm %xmm13, 160
	movaps	%xmm12, 144(%rsp)               # 16-byte Spill
	.seh_savexmm %xmm12, 144
	movaps	%xmm11, 128(%rsp)               # 16-byte Spill
	.seh_savexmm %xmm11, 128
	movaps	%xmm10, 112(%rsp)               # 16-byte Spill
	.seh_savexmm %xmm10, 112
	movaps	%xmm9, 96(%rsp)                 # 16-byte Spill
	.seh_savexmm %xmm9, 96
	movaps	%xmm8, 80(%rsp)                 # 16-byte Spill
	.seh_savexmm %xmm8, 80
	movaps	%xmm7, 64(%rsp)                 # 16-byte Spill
	.seh_savexmm %xmm7, 64
	movaps	%xmm6, 48(%rsp)                 # 16-byte Spill
	.seh_savexmm %xmm6, 48
	.seh_endprologue
	xorl	%r10d, %r10d
	testq	%r8, %r8
	sete	%r11b
	movl	$4, %eax
	cmpq	$16, %r9
	jne	.Lgcm_v1_BB69_7
# %bb.1:                                # %join.3.i
	movl	(%rcx), %r9d
	movl	$2, %eax
	cmpq	$32, %r9
	ja	.Lgcm_v1_BB69_7
# %bb.2:                                # %join.3.i
	movabsq	$4311810048, %rsi               # imm = 0x101010000
	btq	%r9, %rsi
	jae	.Lgcm_v1_BB69_7
# %bb.3:                                # %join.6.i
	movb	%r11b, %r10b
	shll	$12, %r10d
	addq	%r10, %r8
	leaq	4(%rcx), %rax
	leaq	56(,%r9,2), %r9
	addq	$484, %rcx                      # imm = 0x1E4
	movq	%rax, 8(%rsp)
	movq	%r9, 16(%rsp)
	movq	%rcx, 24(%rsp)
	movups	(%r8), %xmm0
	movaps	%xmm0, 32(%rsp)
	movq	24(%rdx), %rax
	xorl	%ecx, %ecx
	cmpq	$5, %rax
	cmovael	%ecx, %eax
	orl	$2, %eax
	movzbl	%al, %eax
	cmpl	$3, %eax
	jne	.Lgcm_v1_BB69_4
# %bb.5:                                # %join.3.i.i
	leaq	8(%rsp), %rdi
	leaq	32(%rsp), %rax
	movq	%rdx, %rsi
	movq	%rdx, %r14
	movq	%rax, %rdx
	callq	gcm_v1.gcm.mode.BorrowedGcm.is_tag_so_far
	movl	%eax, %ebx
	callq	gcm_v1.aes_cipher.zeroize.stack.wipe_stack.1536
	movl	$6, %eax
	testb	%bl, %bl
	je	.Lgcm_v1_BB69_7
# %bb.6:                                # %arm.7.i
	movq	$4, 24(%r14)
	movq	$0, 16(%r14)
	xorl	%eax, %eax
	jmp	.Lgcm_v1_BB69_7
.Lgcm_v1_BB69_4:
	movl	$8, %eax
.Lgcm_v1_BB69_7:                               # %"gcm_c::pieces::decrypting::fotsgure_gcm_accept.exit"
	movaps	48(%rsp), %xmm6                 # 16-byte Reload
	movaps	64(%rsp), %xmm7                 # 16-byte Reload
	movaps	80(%rsp), %xmm8                 # 16-byte Reload
	movaps	96(%rsp), %xmm9                 # 16-byte Reload
	movaps	112(%rsp), %xmm10               # 16-byte Reload
	movaps	128(%rsp), %xmm11               # 16-byte Reload
	movaps	144(%rsp), %xmm12               # 16-byte Reload
	movaps	160(%rsp), %xmm13               # 16-byte Reload
	movaps	176(%rsp), %xmm14               # 16-byte Reload
	movaps	192(%rsp), %xmm15               # 16-byte Reload
	pxor	%xmm0, %xmm0
	pxor	%xmm1, %xmm1
	pxor	%xmm2, %xmm2
	pxor	%xmm3, %xmm3
	pxor	%xmm4, %xmm4
	pxor	%xmm5, %xmm5
	xorl	%ecx, %ecx
	xorl	%edx, %edx
	xorl	%r8d, %r8d
	xorl	%r9d, %r9d
	xorl	%r10d, %r10d
	xorl	%r11d, %r11d
	addq	$216, %rsp
	popq	%rbx
	popq	%rdi
	popq	%rsi
	popq	%r14
	retq
	.seh_endproc
                                        # -- End function
	export_gcm_v1	fotsgure_gcm_accept_short
	.p2align	4
gcm_v1.fotsgure_gcm_accept_short:              # @gcm_v1.fotsgure_gcm_accept_short
.seh_proc gcm_v1.fotsgure_gcm_accept_short
# %bb.0:                                # %start
	pushq	%r14
	.seh_pushreg %r14
	pushq	%rsi
	.seh_pushreg %rsi
	pushq	%rdi
	.seh_pushreg %rdi
	pushq	%rbx
	.seh_pushreg %rbx
	subq	$200, %rsp
	.seh_stackalloc 200
	movaps	%xmm15, 176(%rsp)               # 16-byte Spill
	.seh_savexmm %xmm15, 176
	movaps	%xmm14, 160(%rsp)               # 16-byte Spill
	.seh_savexmm %xmm14, 160
	movaps	%xmm13, 144(%rsp)               # 16-byte Spill
	.seh_savexmm %xmm13, 144
	movaps	%xmm12, 128(%rsp)               # 16-byte Spill
	.seh_savexmm %xmm12, 128
	movaps	%xmm11, 112(%rsp)               # 16-byte Spill
	.seh_savexmm %xmm11, 112
	movaps	%xmm10, 96(%rsp)                # 16-byte Spill
	.seh_savexmm %xmm10, 96
	movaps	%xmm9, 80(%rsp)                 # 16-byte Spill
	.seh_savexmm %xmm9, 80
	movaps	%xmm8, 64(%rsp)                 # 16-byte Spill
	.seh_savexmm %xmm8, 64
	movaps	%xmm7, 48(%rsp)                 # 16-byte Spill
	.seh_savexmm %xmm7, 48
	movaps	%xmm6, 32(%rsp)                 # 16-byte Spill
	.seh_savexmm %xmm6, 32
	.seh_endprologue
	xorl	%r10d, %r10d
	testq	%r9, %r9
	sete	%r11b
	leaq	-4(%r8), %rax
	testq	$-5, %rax
	sete	%bl
	movq	%r8, %rax
	andq	$-4, %rax
	cmpq	$12, %rax
	sete	%sil
	movl	$4, %eax
	cmpq	%r8, 272(%rsp)
	jne	.Lgcm_v1_BB70_8
# %bb.1:                                # %start
	orb	%sil, %bl
	je	.Lgcm_v1_BB70_8
# %bb.2:                                # %join.3.i
	movl	(%rcx), %esi
	movl	$2, %eax
	cmpq	$32, %rsi
	ja	.Lgcm_v1_BB70_8
# %bb.3:                                # %join.3.i
	movabsq	$4311810048, %rdi               # imm = 0x101010000
	btq	%rsi, %rdi
	jae	.Lgcm_v1_BB70_8
# %bb.4:                                # %join.6.i
	leaq	4(%rcx), %rax
	leaq	56(,%rsi,2), %rsi
	addq	$484, %rcx                      # imm = 0x1E4
	movq	%rax, 8(%rsp)
	movq	%rsi, 16(%rsp)
	movq	%rcx, 24(%rsp)
	movq	24(%rdx), %rax
	xorl	%ecx, %ecx
	cmpq	$5, %rax
	cmovael	%ecx, %eax
	orl	$2, %eax
	movzbl	%al, %eax
	cmpl	$3, %eax
	jne	.Lgcm_v1_BB70_5
# %bb.6:                                # %join.7.i.i
	movb	%r11b, %r10b
	shll	$12, %r10d
	addq	%r10, %r9
	leaq	8(%rsp), %rdi
	movq	%rdx, %rsi
	movq	%rdx, %r14
	movq	%r9, %rdx
	movq	%r8, %rcx
	callq	gcm_v1.gcm.mode.BorrowedGcm.is_short_tag_so_far
	movl	%eax, %ebx
	callq	gcm_v1.aes_cipher.zeroize.stack.wipe_stack.1536
	movl	$6, %eax
	testb	%bl, %bl
	je	.Lgcm_v1_BB70_8
# %bb.7:                                # %arm.7.i
	movq	$4, 24(%r14)
	movq	$0, 16(%r14)
	xorl	%eax, %eax
	jmp	.Lgcm_v1_BB70_8
.Lgcm_v1_BB70_5:
	movl	$8, %eax
.Lgcm_v1_BB70_8:                               # %"gcm_c::pieces::decrypting::fotsgure_gcm_accept_short.exit"
	movaps	32(%rsp), %xmm6                 # 16-byte Reload
	movaps	48(%rsp), %xmm7                 # 16-byte Reload
	movaps	64(%rsp), %xmm8                 # 16-byte Reload
	movaps	80(%rsp), %xmm9                 # 16-byte Reload
	movaps	96(%rsp), %xmm10                # 16-byte Reload
	movaps	112(%rsp), %xmm11               # 16-byte Reload
	movaps	128(%rsp), %xmm12               # 16-byte Reload
	movaps	144(%rsp), %xmm13               # 16-byte Reload
	movaps	160(%rsp), %xmm14               # 16-byte Reload
	movaps	176(%rsp), %xmm15               # 16-byte Reload
	pxor	%xmm0, %xmm0
	pxor	%xmm1, %xmm1
	pxor	%xmm2, %xmm2
	pxor	%xmm3, %xmm3
	pxor	%xmm4, %xmm4
	pxor	%xmm5, %xmm5
	xorl	%ecx, %ecx
	xorl	%edx, %edx
	xorl	%r8d, %r8d
	xorl	%r9d, %r9d
	xorl	%r10d, %r10d
	xorl	%r11d, %r11d
	addq	$200, %rsp
	popq	%rbx
	popq	%rdi
	popq	%rsi
	popq	%r14
	retq
	.seh_endproc
                                        # -- End function
	.section	.rdata,"dr"
.Lgcm_v1_static.0:                             # @static.0
	.ascii	"\001\002\004\b\020 @\200\0336"


	.section	.rdata,"dr"
	.asciz	"fotsgure_gcm 0.4.0, windows_x86_64/gcm_v1.s, sources SHA-256 7839658995c36f00d13f13ab6f42fa9360d959953d441bf3a57996a9c2aa56dc"
