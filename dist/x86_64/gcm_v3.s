# Made by tools/dist from the proved crate gcm_c; BUILD says from what. Don't edit it.
/* A Rust crate defines in_rust; for x86-64, a static library of both builds defines chosen, and choose_*.c calls these names. */
	.macro	export_gcm_v3 name
	.ifdef	in_rust
	.globl	gcm_v3.\name
	.hidden	gcm_v3.\name
	.else
	.ifdef	chosen
	.globl	\name\()_v3
	.hidden	\name\()_v3
	.set	\name\()_v3, gcm_v3.\name
	.else
	.globl	\name
	.set	\name, gcm_v3.\name
	.endif
	.endif
	.endm
	.file	"rattle"
	.section	.text.gcm_v3.aes_cipher.zeroize.elements.zeroize_elements.1,"ax",@progbits
	.p2align	4                               # -- Begin function aes_cipher::zeroize::elements::zeroize_elements::<#530874d131791bfe>
	.type	gcm_v3.aes_cipher.zeroize.elements.zeroize_elements.1,@function
gcm_v3.aes_cipher.zeroize.elements.zeroize_elements.1: # @gcm_v3.aes_cipher.zeroize.elements.zeroize_elements.1
# %bb.0:                                # %start
	vxorps	%xmm0, %xmm0, %xmm0
	vmovaps	%xmm0, -24(%rsp)
	movq	$0, -8(%rsp)
	#APP
	#NO_APP
	movq	-8(%rsp), %rax
	#APP
	#NO_APP
	cmpq	$14, %rax
	ja	.Lgcm_v3_BB0_1
# %bb.2:                                # %then.1.i6
	movq	%rax, %rcx
	shlq	$4, %rcx
	movzbl	(%rdi,%rcx), %ecx
	jmp	.Lgcm_v3_BB0_3
.Lgcm_v3_BB0_1:
	xorl	%ecx, %ecx
.Lgcm_v3_BB0_3:                                # %"aes_cipher::zeroize::observe::<#3f54e6b29a41109e>.exit10"
	vmovaps	-24(%rsp), %xmm0
	vmovups	%xmm0, (%rdi)
	vmovaps	-24(%rsp), %xmm0
	vmovups	%xmm0, 16(%rdi)
	vmovaps	-24(%rsp), %xmm0
	vmovups	%xmm0, 32(%rdi)
	vmovaps	-24(%rsp), %xmm0
	vmovups	%xmm0, 48(%rdi)
	vmovaps	-24(%rsp), %xmm0
	vmovups	%xmm0, 64(%rdi)
	vmovaps	-24(%rsp), %xmm0
	vmovups	%xmm0, 80(%rdi)
	vmovaps	-24(%rsp), %xmm0
	vmovups	%xmm0, 96(%rdi)
	vmovaps	-24(%rsp), %xmm0
	vmovups	%xmm0, 112(%rdi)
	vmovaps	-24(%rsp), %xmm0
	vmovups	%xmm0, 128(%rdi)
	vmovaps	-24(%rsp), %xmm0
	vmovups	%xmm0, 144(%rdi)
	vmovaps	-24(%rsp), %xmm0
	vmovups	%xmm0, 160(%rdi)
	vmovaps	-24(%rsp), %xmm0
	vmovups	%xmm0, 176(%rdi)
	vmovaps	-24(%rsp), %xmm0
	vmovups	%xmm0, 192(%rdi)
	vmovaps	-24(%rsp), %xmm0
	vmovups	%xmm0, 208(%rdi)
	vmovaps	-24(%rsp), %xmm0
	vmovups	%xmm0, 224(%rdi)
	cmpq	$14, %rax
	ja	.Lgcm_v3_BB0_4
# %bb.5:                                # %then.1.i
	shlq	$4, %rax
	andb	(%rdi,%rax), %cl
	movzbl	%cl, %eax
	#APP
	#NO_APP
	xchgq	%rax, -8(%rsp)
	#APP
	#NO_APP
	vpxor	%xmm0, %xmm0, %xmm0
	vpxor	%xmm1, %xmm1, %xmm1
	vpxor	%xmm2, %xmm2, %xmm2
	vpxor	%xmm3, %xmm3, %xmm3
	vpxor	%xmm4, %xmm4, %xmm4
	vpxor	%xmm5, %xmm5, %xmm5
	vpxor	%xmm6, %xmm6, %xmm6
	vpxor	%xmm7, %xmm7, %xmm7
	vpxor	%xmm8, %xmm8, %xmm8
	vpxor	%xmm9, %xmm9, %xmm9
	vpxor	%xmm10, %xmm10, %xmm10
	vpxor	%xmm11, %xmm11, %xmm11
	vpxor	%xmm12, %xmm12, %xmm12
	vpxor	%xmm13, %xmm13, %xmm13
	vpxor	%xmm14, %xmm14, %xmm14
	vpxor	%xmm15, %xmm15, %xmm15
	xorl	%ecx, %ecx
	xorl	%edx, %edx
	xorl	%esi, %esi
	xorl	%edi, %edi
	xorl	%r8d, %r8d
	xorl	%r9d, %r9d
	xorl	%r10d, %r10d
	xorl	%r11d, %r11d
	retq
.Lgcm_v3_BB0_4:
	xorl	%eax, %eax
	#APP
	#NO_APP
	xchgq	%rax, -8(%rsp)
	#APP
	#NO_APP
	vpxor	%xmm0, %xmm0, %xmm0
	vpxor	%xmm1, %xmm1, %xmm1
	vpxor	%xmm2, %xmm2, %xmm2
	vpxor	%xmm3, %xmm3, %xmm3
	vpxor	%xmm4, %xmm4, %xmm4
	vpxor	%xmm5, %xmm5, %xmm5
	vpxor	%xmm6, %xmm6, %xmm6
	vpxor	%xmm7, %xmm7, %xmm7
	vpxor	%xmm8, %xmm8, %xmm8
	vpxor	%xmm9, %xmm9, %xmm9
	vpxor	%xmm10, %xmm10, %xmm10
	vpxor	%xmm11, %xmm11, %xmm11
	vpxor	%xmm12, %xmm12, %xmm12
	vpxor	%xmm13, %xmm13, %xmm13
	vpxor	%xmm14, %xmm14, %xmm14
	vpxor	%xmm15, %xmm15, %xmm15
	xorl	%ecx, %ecx
	xorl	%edx, %edx
	xorl	%esi, %esi
	xorl	%edi, %edi
	xorl	%r8d, %r8d
	xorl	%r9d, %r9d
	xorl	%r10d, %r10d
	xorl	%r11d, %r11d
	retq
.Lgcm_v3_func_end0:
	.size	gcm_v3.aes_cipher.zeroize.elements.zeroize_elements.1, .Lgcm_v3_func_end0-gcm_v3.aes_cipher.zeroize.elements.zeroize_elements.1
                                        # -- End function
	.section	.text.gcm_v3.aes_cipher.zeroize.elements.zeroize_elements.2,"ax",@progbits
	.p2align	4                               # -- Begin function aes_cipher::zeroize::elements::zeroize_elements::<#d3d1c9d97fea966e>
	.type	gcm_v3.aes_cipher.zeroize.elements.zeroize_elements.2,@function
gcm_v3.aes_cipher.zeroize.elements.zeroize_elements.2: # @gcm_v3.aes_cipher.zeroize.elements.zeroize_elements.2
# %bb.0:                                # %start
	vxorps	%xmm0, %xmm0, %xmm0
	vmovaps	%xmm0, -24(%rsp)
	movq	$0, -8(%rsp)
	#APP
	#NO_APP
	movq	-8(%rsp), %rax
	#APP
	#NO_APP
	cmpq	%rsi, %rax
	jae	.Lgcm_v3_BB1_1
# %bb.2:                                # %then.1.i6
	movq	%rax, %rcx
	shlq	$4, %rcx
	movzbl	(%rdi,%rcx), %ecx
	jmp	.Lgcm_v3_BB1_3
.Lgcm_v3_BB1_1:
	xorl	%ecx, %ecx
.Lgcm_v3_BB1_3:                                # %"aes_cipher::zeroize::observe::<#32a0ae3c0a3d48e0>.exit10"
	movl	%esi, %edx
	andl	$7, %edx
	movl	%esi, %r9d
	andl	$120, %r9d
	movq	%rdi, %r8
	.p2align	4
.Lgcm_v3_BB1_4:                                # %join.6.i
                                        # =>This Inner Loop Header: Depth=1
	vmovaps	-24(%rsp), %xmm0
	vmovups	%xmm0, (%r8)
	vmovaps	-24(%rsp), %xmm0
	vmovups	%xmm0, 16(%r8)
	vmovaps	-24(%rsp), %xmm0
	vmovups	%xmm0, 32(%r8)
	vmovaps	-24(%rsp), %xmm0
	vmovups	%xmm0, 48(%r8)
	vmovaps	-24(%rsp), %xmm0
	vmovups	%xmm0, 64(%r8)
	vmovaps	-24(%rsp), %xmm0
	vmovups	%xmm0, 80(%r8)
	vmovaps	-24(%rsp), %xmm0
	vmovups	%xmm0, 96(%r8)
	vmovaps	-24(%rsp), %xmm0
	vmovups	%xmm0, 112(%r8)
	subq	$-128, %r8
	addq	$-8, %r9
	jne	.Lgcm_v3_BB1_4
# %bb.5:                                # %"aes_cipher::zeroize::overwrite::<#8898ba818a1b9c8b>.exit.unr-lcssa"
	testq	%rdx, %rdx
	je	.Lgcm_v3_BB1_7
	.p2align	4
.Lgcm_v3_BB1_6:                                # %join.6.i.epil
                                        # =>This Inner Loop Header: Depth=1
	vmovaps	-24(%rsp), %xmm0
	vmovups	%xmm0, (%r8)
	addq	$16, %r8
	decq	%rdx
	jne	.Lgcm_v3_BB1_6
.Lgcm_v3_BB1_7:                                # %"aes_cipher::zeroize::overwrite::<#8898ba818a1b9c8b>.exit"
	cmpq	%rsi, %rax
	jae	.Lgcm_v3_BB1_8
# %bb.9:                                # %then.1.i
	shlq	$4, %rax
	andb	(%rdi,%rax), %cl
	movzbl	%cl, %eax
	#APP
	#NO_APP
	xchgq	%rax, -8(%rsp)
	#APP
	#NO_APP
	vpxor	%xmm0, %xmm0, %xmm0
	vpxor	%xmm1, %xmm1, %xmm1
	vpxor	%xmm2, %xmm2, %xmm2
	vpxor	%xmm3, %xmm3, %xmm3
	vpxor	%xmm4, %xmm4, %xmm4
	vpxor	%xmm5, %xmm5, %xmm5
	vpxor	%xmm6, %xmm6, %xmm6
	vpxor	%xmm7, %xmm7, %xmm7
	vpxor	%xmm8, %xmm8, %xmm8
	vpxor	%xmm9, %xmm9, %xmm9
	vpxor	%xmm10, %xmm10, %xmm10
	vpxor	%xmm11, %xmm11, %xmm11
	vpxor	%xmm12, %xmm12, %xmm12
	vpxor	%xmm13, %xmm13, %xmm13
	vpxor	%xmm14, %xmm14, %xmm14
	vpxor	%xmm15, %xmm15, %xmm15
	xorl	%ecx, %ecx
	xorl	%edx, %edx
	xorl	%esi, %esi
	xorl	%edi, %edi
	xorl	%r8d, %r8d
	xorl	%r9d, %r9d
	xorl	%r10d, %r10d
	xorl	%r11d, %r11d
	retq
.Lgcm_v3_BB1_8:
	xorl	%eax, %eax
	#APP
	#NO_APP
	xchgq	%rax, -8(%rsp)
	#APP
	#NO_APP
	vpxor	%xmm0, %xmm0, %xmm0
	vpxor	%xmm1, %xmm1, %xmm1
	vpxor	%xmm2, %xmm2, %xmm2
	vpxor	%xmm3, %xmm3, %xmm3
	vpxor	%xmm4, %xmm4, %xmm4
	vpxor	%xmm5, %xmm5, %xmm5
	vpxor	%xmm6, %xmm6, %xmm6
	vpxor	%xmm7, %xmm7, %xmm7
	vpxor	%xmm8, %xmm8, %xmm8
	vpxor	%xmm9, %xmm9, %xmm9
	vpxor	%xmm10, %xmm10, %xmm10
	vpxor	%xmm11, %xmm11, %xmm11
	vpxor	%xmm12, %xmm12, %xmm12
	vpxor	%xmm13, %xmm13, %xmm13
	vpxor	%xmm14, %xmm14, %xmm14
	vpxor	%xmm15, %xmm15, %xmm15
	xorl	%ecx, %ecx
	xorl	%edx, %edx
	xorl	%esi, %esi
	xorl	%edi, %edi
	xorl	%r8d, %r8d
	xorl	%r9d, %r9d
	xorl	%r10d, %r10d
	xorl	%r11d, %r11d
	retq
.Lgcm_v3_func_end1:
	.size	gcm_v3.aes_cipher.zeroize.elements.zeroize_elements.2, .Lgcm_v3_func_end1-gcm_v3.aes_cipher.zeroize.elements.zeroize_elements.2
                                        # -- End function
	.section	.text.gcm_v3.gcm.message_state.MessageZeroize.zeroize,"ax",@progbits
	.p2align	4                               # -- Begin function gcm::message_state::MessageZeroize::zeroize
	.type	gcm_v3.gcm.message_state.MessageZeroize.zeroize,@function
gcm_v3.gcm.message_state.MessageZeroize.zeroize: # @gcm_v3.gcm.message_state.MessageZeroize.zeroize
# %bb.0:                                # %start
	pushq	%rbx
	movq	%rdi, %rbx
	addq	$32, %rdi
	vxorps	%xmm0, %xmm0, %xmm0
	vmovups	%ymm0, (%rbx)
	vzeroupper
	callq	gcm_v3.aes_cipher.zeroize.elements.zeroize_elements.3
	leaq	48(%rbx), %rdi
	callq	gcm_v3.aes_cipher.zeroize.elements.zeroize_elements.3
	addq	$64, %rbx
	movq	%rbx, %rdi
	popq	%rbx
	jmp	gcm_v3.aes_cipher.zeroize.elements.zeroize_elements.3 # TAILCALL
.Lgcm_v3_func_end2:
	.size	gcm_v3.gcm.message_state.MessageZeroize.zeroize, .Lgcm_v3_func_end2-gcm_v3.gcm.message_state.MessageZeroize.zeroize
                                        # -- End function
	.section	.text.gcm_v3.aes_cipher.zeroize.elements.zeroize_elements.3,"ax",@progbits
	.p2align	4                               # -- Begin function aes_cipher::zeroize::elements::zeroize_elements::<#3b2097f0eef5a37b>
	.type	gcm_v3.aes_cipher.zeroize.elements.zeroize_elements.3,@function
gcm_v3.aes_cipher.zeroize.elements.zeroize_elements.3: # @gcm_v3.aes_cipher.zeroize.elements.zeroize_elements.3
# %bb.0:                                # %start
	vxorps	%xmm0, %xmm0, %xmm0
	vmovaps	%xmm0, -24(%rsp)
	movq	$0, -32(%rsp)
	#APP
	#NO_APP
	movq	-32(%rsp), %rax
	#APP
	#NO_APP
	testq	%rax, %rax
	je	.Lgcm_v3_BB3_2
# %bb.1:                                # %"aes_cipher::zeroize::observe::<#ff6ee9ab78975cb2>.exit8"
	vmovaps	-24(%rsp), %xmm0
	vmovups	%xmm0, (%rdi)
	xorl	%eax, %eax
	#APP
	#NO_APP
	xchgq	%rax, -32(%rsp)
	#APP
	#NO_APP
	vpxor	%xmm0, %xmm0, %xmm0
	vpxor	%xmm1, %xmm1, %xmm1
	vpxor	%xmm2, %xmm2, %xmm2
	vpxor	%xmm3, %xmm3, %xmm3
	vpxor	%xmm4, %xmm4, %xmm4
	vpxor	%xmm5, %xmm5, %xmm5
	vpxor	%xmm6, %xmm6, %xmm6
	vpxor	%xmm7, %xmm7, %xmm7
	vpxor	%xmm8, %xmm8, %xmm8
	vpxor	%xmm9, %xmm9, %xmm9
	vpxor	%xmm10, %xmm10, %xmm10
	vpxor	%xmm11, %xmm11, %xmm11
	vpxor	%xmm12, %xmm12, %xmm12
	vpxor	%xmm13, %xmm13, %xmm13
	vpxor	%xmm14, %xmm14, %xmm14
	vpxor	%xmm15, %xmm15, %xmm15
	xorl	%ecx, %ecx
	xorl	%edx, %edx
	xorl	%esi, %esi
	xorl	%edi, %edi
	xorl	%r8d, %r8d
	xorl	%r9d, %r9d
	xorl	%r10d, %r10d
	xorl	%r11d, %r11d
	retq
.Lgcm_v3_BB3_2:                                # %then.1.i
	movzbl	(%rdi), %eax
	vmovaps	-24(%rsp), %xmm0
	vmovups	%xmm0, (%rdi)
	andb	(%rdi), %al
	movzbl	%al, %eax
	#APP
	#NO_APP
	xchgq	%rax, -32(%rsp)
	#APP
	#NO_APP
	vpxor	%xmm0, %xmm0, %xmm0
	vpxor	%xmm1, %xmm1, %xmm1
	vpxor	%xmm2, %xmm2, %xmm2
	vpxor	%xmm3, %xmm3, %xmm3
	vpxor	%xmm4, %xmm4, %xmm4
	vpxor	%xmm5, %xmm5, %xmm5
	vpxor	%xmm6, %xmm6, %xmm6
	vpxor	%xmm7, %xmm7, %xmm7
	vpxor	%xmm8, %xmm8, %xmm8
	vpxor	%xmm9, %xmm9, %xmm9
	vpxor	%xmm10, %xmm10, %xmm10
	vpxor	%xmm11, %xmm11, %xmm11
	vpxor	%xmm12, %xmm12, %xmm12
	vpxor	%xmm13, %xmm13, %xmm13
	vpxor	%xmm14, %xmm14, %xmm14
	vpxor	%xmm15, %xmm15, %xmm15
	xorl	%ecx, %ecx
	xorl	%edx, %edx
	xorl	%esi, %esi
	xorl	%edi, %edi
	xorl	%r8d, %r8d
	xorl	%r9d, %r9d
	xorl	%r10d, %r10d
	xorl	%r11d, %r11d
	retq
.Lgcm_v3_func_end3:
	.size	gcm_v3.aes_cipher.zeroize.elements.zeroize_elements.3, .Lgcm_v3_func_end3-gcm_v3.aes_cipher.zeroize.elements.zeroize_elements.3
                                        # -- End function
	.section	.rodata.cst16,"aM",@progbits,16
	.p2align	4, 0x0                          # -- Begin function aes_permute::lane_keys::expand_lanes
.Lgcm_v3_CPI4_0:
	.zero	16,15
.Lgcm_v3_CPI4_1:
	.byte	0                               # 0x0
	.byte	1                               # 0x1
	.byte	28                              # 0x1c
	.byte	29                              # 0x1d
	.byte	45                              # 0x2d
	.byte	44                              # 0x2c
	.byte	49                              # 0x31
	.byte	48                              # 0x30
	.byte	39                              # 0x27
	.byte	38                              # 0x26
	.byte	59                              # 0x3b
	.byte	58                              # 0x3a
	.byte	10                              # 0xa
	.byte	11                              # 0xb
	.byte	22                              # 0x16
	.byte	23                              # 0x17
.Lgcm_v3_CPI4_2:
	.byte	0                               # 0x0
	.byte	134                             # 0x86
	.byte	253                             # 0xfd
	.byte	123                             # 0x7b
	.byte	142                             # 0x8e
	.byte	8                               # 0x8
	.byte	115                             # 0x73
	.byte	245                             # 0xf5
	.byte	119                             # 0x77
	.byte	241                             # 0xf1
	.byte	138                             # 0x8a
	.byte	12                              # 0xc
	.byte	249                             # 0xf9
	.byte	127                             # 0x7f
	.byte	4                               # 0x4
	.byte	130                             # 0x82
.Lgcm_v3_CPI4_3:
	.byte	0                               # 0x0
	.byte	1                               # 0x1
	.byte	92                              # 0x5c
	.byte	93                              # 0x5d
	.byte	224                             # 0xe0
	.byte	225                             # 0xe1
	.byte	188                             # 0xbc
	.byte	189                             # 0xbd
	.byte	80                              # 0x50
	.byte	81                              # 0x51
	.byte	12                              # 0xc
	.byte	13                              # 0xd
	.byte	176                             # 0xb0
	.byte	177                             # 0xb1
	.byte	236                             # 0xec
	.byte	237                             # 0xed
.Lgcm_v3_CPI4_4:
	.byte	0                               # 0x0
	.byte	178                             # 0xb2
	.byte	181                             # 0xb5
	.byte	7                               # 0x7
	.byte	58                              # 0x3a
	.byte	136                             # 0x88
	.byte	143                             # 0x8f
	.byte	61                              # 0x3d
	.byte	172                             # 0xac
	.byte	30                              # 0x1e
	.byte	25                              # 0x19
	.byte	171                             # 0xab
	.byte	150                             # 0x96
	.byte	36                              # 0x24
	.byte	35                              # 0x23
	.byte	145                             # 0x91
.Lgcm_v3_CPI4_5:
	.byte	13                              # 0xd
	.byte	14                              # 0xe
	.byte	15                              # 0xf
	.byte	12                              # 0xc
	.byte	13                              # 0xd
	.byte	14                              # 0xe
	.byte	15                              # 0xf
	.byte	12                              # 0xc
	.byte	13                              # 0xd
	.byte	14                              # 0xe
	.byte	15                              # 0xf
	.byte	12                              # 0xc
	.byte	13                              # 0xd
	.byte	14                              # 0xe
	.byte	15                              # 0xf
	.byte	12                              # 0xc
.Lgcm_v3_CPI4_6:
	.byte	128                             # 0x80
	.byte	2                               # 0x2
	.byte	1                               # 0x1
	.byte	15                              # 0xf
	.byte	9                               # 0x9
	.byte	5                               # 0x5
	.byte	14                              # 0xe
	.byte	12                              # 0xc
	.byte	13                              # 0xd
	.byte	4                               # 0x4
	.byte	11                              # 0xb
	.byte	10                              # 0xa
	.byte	7                               # 0x7
	.byte	8                               # 0x8
	.byte	6                               # 0x6
	.byte	3                               # 0x3
.Lgcm_v3_CPI4_7:
	.byte	128                             # 0x80
	.byte	1                               # 0x1
	.byte	9                               # 0x9
	.byte	14                              # 0xe
	.byte	13                              # 0xd
	.byte	11                              # 0xb
	.byte	7                               # 0x7
	.byte	6                               # 0x6
	.byte	15                              # 0xf
	.byte	2                               # 0x2
	.byte	12                              # 0xc
	.byte	5                               # 0x5
	.byte	10                              # 0xa
	.byte	4                               # 0x4
	.byte	3                               # 0x3
	.byte	8                               # 0x8
.Lgcm_v3_CPI4_8:
	.byte	0                               # 0x0
	.byte	195                             # 0xc3
	.byte	79                              # 0x4f
	.byte	12                              # 0xc
	.byte	252                             # 0xfc
	.byte	124                             # 0x7c
	.byte	67                              # 0x43
	.byte	128                             # 0x80
	.byte	207                             # 0xcf
	.byte	51                              # 0x33
	.byte	63                              # 0x3f
	.byte	112                             # 0x70
	.byte	191                             # 0xbf
	.byte	179                             # 0xb3
	.byte	240                             # 0xf0
	.byte	140                             # 0x8c
.Lgcm_v3_CPI4_9:
	.byte	0                               # 0x0
	.byte	230                             # 0xe6
	.byte	114                             # 0x72
	.byte	183                             # 0xb7
	.byte	229                             # 0xe5
	.byte	198                             # 0xc6
	.byte	197                             # 0xc5
	.byte	35                              # 0x23
	.byte	81                              # 0x51
	.byte	180                             # 0xb4
	.byte	3                               # 0x3
	.byte	113                             # 0x71
	.byte	32                              # 0x20
	.byte	151                             # 0x97
	.byte	82                              # 0x52
	.byte	148                             # 0x94
.Lgcm_v3_CPI4_11:
	.byte	224                             # 0xe0
	.byte	110                             # 0x6e
	.byte	110                             # 0x6e
	.byte	110                             # 0x6e
	.byte	110                             # 0x6e
	.byte	110                             # 0x6e
	.byte	110                             # 0x6e
	.byte	110                             # 0x6e
	.byte	110                             # 0x6e
	.byte	110                             # 0x6e
	.byte	110                             # 0x6e
	.byte	110                             # 0x6e
	.byte	110                             # 0x6e
	.byte	110                             # 0x6e
	.byte	110                             # 0x6e
	.byte	110                             # 0x6e
.Lgcm_v3_CPI4_13:
	.byte	25                              # 0x19
	.byte	110                             # 0x6e
	.byte	110                             # 0x6e
	.byte	110                             # 0x6e
	.byte	110                             # 0x6e
	.byte	110                             # 0x6e
	.byte	110                             # 0x6e
	.byte	110                             # 0x6e
	.byte	110                             # 0x6e
	.byte	110                             # 0x6e
	.byte	110                             # 0x6e
	.byte	110                             # 0x6e
	.byte	110                             # 0x6e
	.byte	110                             # 0x6e
	.byte	110                             # 0x6e
	.byte	110                             # 0x6e
.Lgcm_v3_CPI4_14:
	.zero	16,99
.Lgcm_v3_CPI4_15:
	.zero	16,110
.Lgcm_v3_CPI4_16:
	.byte	36                              # 0x24
	.byte	110                             # 0x6e
	.byte	110                             # 0x6e
	.byte	110                             # 0x6e
	.byte	110                             # 0x6e
	.byte	110                             # 0x6e
	.byte	110                             # 0x6e
	.byte	110                             # 0x6e
	.byte	110                             # 0x6e
	.byte	110                             # 0x6e
	.byte	110                             # 0x6e
	.byte	110                             # 0x6e
	.byte	110                             # 0x6e
	.byte	110                             # 0x6e
	.byte	110                             # 0x6e
	.byte	110                             # 0x6e
.Lgcm_v3_CPI4_17:
	.byte	0                               # 0x0
	.byte	13                              # 0xd
	.byte	10                              # 0xa
	.byte	7                               # 0x7
	.byte	4                               # 0x4
	.byte	1                               # 0x1
	.byte	14                              # 0xe
	.byte	11                              # 0xb
	.byte	8                               # 0x8
	.byte	5                               # 0x5
	.byte	2                               # 0x2
	.byte	15                              # 0xf
	.byte	12                              # 0xc
	.byte	9                               # 0x9
	.byte	6                               # 0x6
	.byte	3                               # 0x3
	.section	.rodata.cst32,"aM",@progbits,32
	.p2align	5, 0x0
.Lgcm_v3_CPI4_10:
	.zero	32,110
.Lgcm_v3_CPI4_12:
	.byte	0                               # 0x0
	.byte	9                               # 0x9
	.byte	2                               # 0x2
	.byte	11                              # 0xb
	.byte	4                               # 0x4
	.byte	13                              # 0xd
	.byte	6                               # 0x6
	.byte	15                              # 0xf
	.byte	8                               # 0x8
	.byte	1                               # 0x1
	.byte	10                              # 0xa
	.byte	3                               # 0x3
	.byte	12                              # 0xc
	.byte	5                               # 0x5
	.byte	14                              # 0xe
	.byte	7                               # 0x7
	.byte	0                               # 0x0
	.byte	5                               # 0x5
	.byte	10                              # 0xa
	.byte	15                              # 0xf
	.byte	4                               # 0x4
	.byte	9                               # 0x9
	.byte	14                              # 0xe
	.byte	3                               # 0x3
	.byte	8                               # 0x8
	.byte	13                              # 0xd
	.byte	2                               # 0x2
	.byte	7                               # 0x7
	.byte	12                              # 0xc
	.byte	1                               # 0x1
	.byte	6                               # 0x6
	.byte	11                              # 0xb
	.section	.rodata.cst4,"aM",@progbits,4
	.p2align	2, 0x0
.Lgcm_v3_CPI4_18:
	.zero	4,15
.Lgcm_v3_CPI4_19:
	.zero	4,110
.Lgcm_v3_CPI4_20:
	.byte	13                              # 0xd
	.byte	14                              # 0xe
	.byte	15                              # 0xf
	.byte	12                              # 0xc
	.section	.text.gcm_v3.aes_permute.lane_keys.expand_lanes,"ax",@progbits
	.p2align	4
	.type	gcm_v3.aes_permute.lane_keys.expand_lanes,@function
gcm_v3.aes_permute.lane_keys.expand_lanes: # @gcm_v3.aes_permute.lane_keys.expand_lanes
# %bb.0:                                # %start
	pushq	%rbx
	vmovdqu	(%rsi), %xmm1
	vpbroadcastd	.Lgcm_v3_CPI4_18(%rip), %xmm0  # xmm0 = [15,15,15,15,15,15,15,15,15,15,15,15,15,15,15,15]
	vpand	%xmm0, %xmm1, %xmm2
	vmovdqa	.Lgcm_v3_CPI4_1(%rip), %xmm3           # xmm3 = [0,1,28,29,45,44,49,48,39,38,59,58,10,11,22,23]
	vpshufb	%xmm2, %xmm3, %xmm4
	vpsrlw	$4, %xmm1, %xmm1
	vpand	%xmm0, %xmm1, %xmm1
	vmovdqa	.Lgcm_v3_CPI4_2(%rip), %xmm2           # xmm2 = [0,134,253,123,142,8,115,245,119,241,138,12,249,127,4,130]
	vpshufb	%xmm1, %xmm2, %xmm1
	vpxor	%xmm4, %xmm1, %xmm1
	cmpq	$24, %rdx
	je	.Lgcm_v3_BB4_5
# %bb.1:                                # %start
	cmpq	$16, %rdx
	jne	.Lgcm_v3_BB4_8
# %bb.2:                                # %then.1.i
	vpand	%xmm0, %xmm1, %xmm3
	vmovdqa	.Lgcm_v3_CPI4_3(%rip), %xmm2           # xmm2 = [0,1,92,93,224,225,188,189,80,81,12,13,176,177,236,237]
	vpshufb	%xmm3, %xmm2, %xmm4
	vpsrlw	$4, %xmm1, %xmm3
	vpand	%xmm0, %xmm3, %xmm5
	vmovdqa	.Lgcm_v3_CPI4_4(%rip), %xmm3           # xmm3 = [0,178,181,7,58,136,143,61,172,30,25,171,150,36,35,145]
	vpshufb	%xmm5, %xmm3, %xmm5
	vpxor	%xmm4, %xmm5, %xmm4
	vmovdqu	%xmm4, (%rdi)
	leaq	16(%rdi), %rax
	leaq	.Lgcm_v3_static.0(%rip), %rcx
	movl	$48, %edx
	.p2align	4
.Lgcm_v3_BB4_3:                                # %"aes_permute::lane_keys::stored_key.exit"
                                        # =>This Inner Loop Header: Depth=1
	movzbl	(%rcx), %esi
	vpshufb	.Lgcm_v3_CPI4_5(%rip), %xmm1, %xmm4    # xmm4 = xmm1[13,14,15,12,13,14,15,12,13,14,15,12,13,14,15,12]
	vpsrlw	$4, %xmm4, %xmm5
	vpand	%xmm0, %xmm5, %xmm6
	vpand	%xmm0, %xmm4, %xmm4
	vpxor	%xmm4, %xmm6, %xmm7
	vmovdqa	.Lgcm_v3_CPI4_6(%rip), %xmm5           # xmm5 = [128,2,1,15,9,5,14,12,13,4,11,10,7,8,6,3]
	vpshufb	%xmm4, %xmm5, %xmm8
	vmovdqa	.Lgcm_v3_CPI4_7(%rip), %xmm4           # xmm4 = [128,1,9,14,13,11,7,6,15,2,12,5,10,4,3,8]
	vpshufb	%xmm6, %xmm4, %xmm9
	vpshufb	%xmm7, %xmm4, %xmm10
	vpxor	%xmm8, %xmm9, %xmm9
	vpxor	%xmm8, %xmm10, %xmm8
	vpshufb	%xmm9, %xmm4, %xmm9
	vpshufb	%xmm8, %xmm4, %xmm8
	vpxor	%xmm7, %xmm9, %xmm9
	vpxor	%xmm6, %xmm8, %xmm8
	vmovdqa	.Lgcm_v3_CPI4_8(%rip), %xmm7           # xmm7 = [0,195,79,12,252,124,67,128,207,51,63,112,191,179,240,140]
	vpshufb	%xmm9, %xmm7, %xmm9
	vmovdqa	.Lgcm_v3_CPI4_9(%rip), %xmm6           # xmm6 = [0,230,114,183,229,198,197,35,81,180,3,113,32,151,82,148]
	vpshufb	%xmm8, %xmm6, %xmm8
	vpxor	%xmm8, %xmm9, %xmm8
	movl	%esi, %r8d
	andl	$15, %r8d
	leaq	.Lgcm_v3_static.1(%rip), %r9
	shrl	$4, %esi
	leaq	.Lgcm_v3_static.2(%rip), %r10
	movzbl	(%rsi,%r10), %esi
	xorb	(%r8,%r9), %sil
	movzbl	%sil, %esi
	vmovd	%esi, %xmm9
	vpxor	%xmm1, %xmm9, %xmm1
	vpslldq	$4, %xmm1, %xmm9                # xmm9 = zero,zero,zero,zero,xmm1[0,1,2,3,4,5,6,7,8,9,10,11]
	vpxor	%xmm1, %xmm9, %xmm1
	vpslldq	$8, %xmm1, %xmm9                # xmm9 = zero,zero,zero,zero,zero,zero,zero,zero,xmm1[0,1,2,3,4,5,6,7]
	vpxor	%xmm1, %xmm8, %xmm1
	vpxor	%xmm1, %xmm9, %xmm8
	vpbroadcastd	.Lgcm_v3_CPI4_19(%rip), %xmm9  # xmm9 = [110,110,110,110,110,110,110,110,110,110,110,110,110,110,110,110]
	vpxor	%xmm9, %xmm8, %xmm1
	movl	%edx, %esi
	andl	$48, %esi
	leaq	.Lgcm_v3_static.3(%rip), %r8
	vpshufb	(%rsi,%r8), %xmm1, %xmm10
	vpxor	%xmm9, %xmm10, %xmm9
	vmovdqu	%xmm9, (%rax)
	incq	%rcx
	addq	$48, %rdx
	addq	$16, %rax
	cmpq	$480, %rdx                      # imm = 0x1E0
	jne	.Lgcm_v3_BB4_3
# %bb.4:                                # %"aes_permute::lane_keys::stored_key.exit.peel"
	vpshufb	.Lgcm_v3_CPI4_5(%rip), %xmm1, %xmm1    # xmm1 = xmm1[13,14,15,12,13,14,15,12,13,14,15,12,13,14,15,12]
	vpsrlw	$4, %xmm1, %xmm9
	vpand	%xmm0, %xmm9, %xmm9
	vpshufb	%xmm9, %xmm4, %xmm10
	vpand	%xmm0, %xmm1, %xmm1
	vpshufb	%xmm1, %xmm5, %xmm5
	vpxor	%xmm5, %xmm10, %xmm10
	vpshufb	%xmm10, %xmm4, %xmm10
	vpxor	%xmm1, %xmm9, %xmm1
	vpxor	%xmm1, %xmm10, %xmm10
	vpshufb	%xmm10, %xmm7, %xmm7
	vpshufb	%xmm1, %xmm4, %xmm1
	vpxor	%xmm5, %xmm1, %xmm1
	vpshufb	%xmm1, %xmm4, %xmm1
	vpxor	%xmm1, %xmm9, %xmm1
	vpshufb	%xmm1, %xmm6, %xmm1
	vpxor	.Lgcm_v3_CPI4_16(%rip), %xmm8, %xmm4
	vpslldq	$4, %xmm4, %xmm5                # xmm5 = zero,zero,zero,zero,xmm4[0,1,2,3,4,5,6,7,8,9,10,11]
	vpxor	%xmm4, %xmm5, %xmm4
	vpslldq	$8, %xmm4, %xmm5                # xmm5 = zero,zero,zero,zero,zero,zero,zero,zero,xmm4[0,1,2,3,4,5,6,7]
	vpxor	%xmm5, %xmm7, %xmm5
	vpxor	%xmm1, %xmm5, %xmm1
	vpxor	%xmm4, %xmm1, %xmm1
	vpxor	.Lgcm_v3_CPI4_15(%rip), %xmm1, %xmm1
	vpand	%xmm0, %xmm1, %xmm4
	vpshufb	%xmm4, %xmm2, %xmm2
	vpsrlw	$4, %xmm1, %xmm1
	vpand	%xmm0, %xmm1, %xmm0
	vpshufb	%xmm0, %xmm3, %xmm0
	vpxor	%xmm0, %xmm2, %xmm0
	vpxor	.Lgcm_v3_CPI4_14(%rip), %xmm0, %xmm0
	vmovdqu	%xmm0, 160(%rdi)
	popq	%rbx
	retq
.Lgcm_v3_BB4_5:                                # %then.4.i
	vmovq	8(%rsi), %xmm4                  # xmm4 = mem[0],zero
	vmovq	16(%rsi), %xmm5                 # xmm5 = mem[0],zero
	vpunpcklqdq	%xmm5, %xmm4, %xmm4     # xmm4 = xmm4[0],xmm5[0]
	vpand	%xmm0, %xmm4, %xmm5
	vpshufb	%xmm5, %xmm3, %xmm3
	vpsrlw	$4, %xmm4, %xmm4
	vpand	%xmm0, %xmm4, %xmm4
	vpshufb	%xmm4, %xmm2, %xmm2
	vpxor	%xmm3, %xmm2, %xmm10
	vpand	%xmm0, %xmm1, %xmm3
	vmovdqa	.Lgcm_v3_CPI4_3(%rip), %xmm2           # xmm2 = [0,1,92,93,224,225,188,189,80,81,12,13,176,177,236,237]
	vpshufb	%xmm3, %xmm2, %xmm4
	vpsrlw	$4, %xmm1, %xmm3
	vpand	%xmm0, %xmm3, %xmm5
	vmovdqa	.Lgcm_v3_CPI4_4(%rip), %xmm3           # xmm3 = [0,178,181,7,58,136,143,61,172,30,25,171,150,36,35,145]
	vpshufb	%xmm5, %xmm3, %xmm5
	vpxor	%xmm4, %xmm5, %xmm4
	vmovdqu	%xmm4, (%rdi)
	leaq	48(%rdi), %rax
	movl	$48, %ecx
	leaq	.Lgcm_v3_static.0+1(%rip), %rdx
	xorl	%esi, %esi
	.p2align	4
.Lgcm_v3_BB4_6:                                # %join.5.i596
                                        # =>This Inner Loop Header: Depth=1
	movzbl	-1(%rdx), %r10d
	vpbroadcastd	.Lgcm_v3_CPI4_20(%rip), %xmm5  # xmm5 = [13,14,15,12,13,14,15,12,13,14,15,12,13,14,15,12]
	vpshufb	%xmm5, %xmm10, %xmm4
	vpsrlw	$4, %xmm4, %xmm6
	vpand	%xmm0, %xmm6, %xmm7
	vpand	%xmm0, %xmm4, %xmm4
	vpxor	%xmm4, %xmm7, %xmm8
	vmovdqa	.Lgcm_v3_CPI4_6(%rip), %xmm6           # xmm6 = [128,2,1,15,9,5,14,12,13,4,11,10,7,8,6,3]
	vpshufb	%xmm4, %xmm6, %xmm9
	vmovdqa	.Lgcm_v3_CPI4_7(%rip), %xmm4           # xmm4 = [128,1,9,14,13,11,7,6,15,2,12,5,10,4,3,8]
	vpshufb	%xmm7, %xmm4, %xmm11
	vpshufb	%xmm8, %xmm4, %xmm12
	vpxor	%xmm9, %xmm11, %xmm11
	vpxor	%xmm9, %xmm12, %xmm9
	vpshufb	%xmm11, %xmm4, %xmm11
	vpshufb	%xmm9, %xmm4, %xmm9
	vpxor	%xmm8, %xmm11, %xmm11
	vpxor	%xmm7, %xmm9, %xmm9
	vmovdqa	.Lgcm_v3_CPI4_8(%rip), %xmm8           # xmm8 = [0,195,79,12,252,124,67,128,207,51,63,112,191,179,240,140]
	vpshufb	%xmm11, %xmm8, %xmm11
	vmovdqa	.Lgcm_v3_CPI4_9(%rip), %xmm7           # xmm7 = [0,230,114,183,229,198,197,35,81,180,3,113,32,151,82,148]
	vpshufb	%xmm9, %xmm7, %xmm9
	vpxor	%xmm9, %xmm11, %xmm9
	movl	%r10d, %r11d
	andl	$15, %r11d
	leaq	.Lgcm_v3_static.1(%rip), %r8
	shrl	$4, %r10d
	leaq	.Lgcm_v3_static.2(%rip), %r9
	movzbl	(%r10,%r9), %r10d
	xorb	(%r11,%r8), %r10b
	movzbl	%r10b, %r10d
	vmovd	%r10d, %xmm11
	vpxor	%xmm1, %xmm11, %xmm1
	vpslldq	$4, %xmm1, %xmm11               # xmm11 = zero,zero,zero,zero,xmm1[0,1,2,3,4,5,6,7,8,9,10,11]
	vpxor	%xmm1, %xmm11, %xmm1
	vpslldq	$8, %xmm1, %xmm11               # xmm11 = zero,zero,zero,zero,zero,zero,zero,zero,xmm1[0,1,2,3,4,5,6,7]
	vpxor	%xmm1, %xmm9, %xmm1
	vpxor	%xmm1, %xmm11, %xmm1
	vpbroadcastd	.Lgcm_v3_CPI4_19(%rip), %ymm9  # ymm9 = [110,110,110,110,110,110,110,110,110,110,110,110,110,110,110,110,110,110,110,110,110,110,110,110,110,110,110,110,110,110,110,110]
	vpxor	%xmm1, %xmm9, %xmm1
	vpshufd	$85, %xmm1, %xmm11              # xmm11 = xmm1[1,1,1,1]
	vpslldq	$4, %xmm10, %xmm12              # xmm12 = zero,zero,zero,zero,xmm10[0,1,2,3,4,5,6,7,8,9,10,11]
	vpxor	%xmm10, %xmm12, %xmm12
	vpslldq	$8, %xmm12, %xmm13              # xmm13 = zero,zero,zero,zero,zero,zero,zero,zero,xmm12[0,1,2,3,4,5,6,7]
	vpxor	%xmm12, %xmm13, %xmm12
	vpalignr	$8, %xmm10, %xmm1, %xmm10       # xmm10 = xmm10[8,9,10,11,12,13,14,15],xmm1[0,1,2,3,4,5,6,7]
	movl	%ecx, %r11d
	andl	$48, %r11d
	leaq	.Lgcm_v3_static.3(%rip), %r10
	vpshufb	(%r11,%r10), %xmm10, %xmm13
	vpxor	%xmm11, %xmm12, %xmm10
	movq	%rsi, %r11
	xorq	$32, %r11
	vpshufb	(%r11,%r10), %xmm10, %xmm11
	vinserti128	$1, %xmm11, %ymm13, %ymm11
	vpxor	%ymm9, %ymm11, %ymm11
	vmovdqu	%ymm11, -32(%rax)
	movzbl	(%rdx), %r11d
	vpshufb	%xmm5, %xmm10, %xmm11
	vpsrlw	$4, %xmm11, %xmm12
	vpand	%xmm0, %xmm12, %xmm12
	vpand	%xmm0, %xmm11, %xmm11
	vpxor	%xmm11, %xmm12, %xmm13
	vpshufb	%xmm11, %xmm6, %xmm11
	vpshufb	%xmm12, %xmm4, %xmm14
	vpshufb	%xmm13, %xmm4, %xmm15
	vpxor	%xmm11, %xmm14, %xmm14
	vpxor	%xmm11, %xmm15, %xmm11
	vpshufb	%xmm14, %xmm4, %xmm14
	vpshufb	%xmm11, %xmm4, %xmm11
	vpxor	%xmm13, %xmm14, %xmm13
	vpxor	%xmm12, %xmm11, %xmm11
	vpshufb	%xmm13, %xmm8, %xmm12
	vpshufb	%xmm11, %xmm7, %xmm11
	movl	%r11d, %ebx
	andl	$15, %ebx
	shrl	$4, %r11d
	movzbl	(%r11,%r9), %r9d
	xorb	(%rbx,%r8), %r9b
	movzbl	%r9b, %r8d
	vmovd	%r8d, %xmm13
	vpxor	%xmm1, %xmm13, %xmm1
	vpslldq	$4, %xmm1, %xmm13               # xmm13 = zero,zero,zero,zero,xmm1[0,1,2,3,4,5,6,7,8,9,10,11]
	vpxor	%xmm1, %xmm13, %xmm1
	vpslldq	$8, %xmm1, %xmm13               # xmm13 = zero,zero,zero,zero,zero,zero,zero,zero,xmm1[0,1,2,3,4,5,6,7]
	vpxor	%xmm13, %xmm12, %xmm12
	vpxor	%xmm11, %xmm12, %xmm11
	vpxor	%xmm1, %xmm11, %xmm11
	vpxor	%xmm9, %xmm11, %xmm1
	vpshufd	$85, %xmm1, %xmm12              # xmm12 = xmm1[1,1,1,1]
	vpslldq	$4, %xmm10, %xmm13              # xmm13 = zero,zero,zero,zero,xmm10[0,1,2,3,4,5,6,7,8,9,10,11]
	vpxor	%xmm10, %xmm13, %xmm10
	vpslldq	$8, %xmm10, %xmm13              # xmm13 = zero,zero,zero,zero,zero,zero,zero,zero,xmm10[0,1,2,3,4,5,6,7]
	vpxor	%xmm10, %xmm13, %xmm10
	vpxor	%xmm12, %xmm10, %xmm10
	vpshufb	16(%rsi,%r10), %xmm1, %xmm12
	vpxor	%xmm9, %xmm12, %xmm12
	vmovdqu	%xmm12, (%rax)
	addq	$16, %rsi
	addq	$48, %rax
	addq	$144, %rcx
	addq	$2, %rdx
	cmpq	$48, %rsi
	jne	.Lgcm_v3_BB4_6
# %bb.7:                                # %join.5.i596.peel
	vpshufb	%xmm5, %xmm10, %xmm1
	vpsrlw	$4, %xmm1, %xmm12
	vpand	%xmm0, %xmm12, %xmm12
	vpand	%xmm0, %xmm1, %xmm1
	vpxor	%xmm1, %xmm12, %xmm13
	vpshufb	%xmm1, %xmm6, %xmm1
	vpshufb	%xmm12, %xmm4, %xmm14
	vpshufb	%xmm13, %xmm4, %xmm15
	vpxor	%xmm1, %xmm14, %xmm14
	vpxor	%xmm1, %xmm15, %xmm1
	vpshufb	%xmm14, %xmm4, %xmm14
	vpshufb	%xmm1, %xmm4, %xmm1
	vpxor	%xmm13, %xmm14, %xmm13
	vpxor	%xmm1, %xmm12, %xmm1
	vpshufb	%xmm13, %xmm8, %xmm12
	vpshufb	%xmm1, %xmm7, %xmm1
	vpxor	.Lgcm_v3_CPI4_11(%rip), %xmm11, %xmm11
	vpslldq	$4, %xmm11, %xmm13              # xmm13 = zero,zero,zero,zero,xmm11[0,1,2,3,4,5,6,7,8,9,10,11]
	vpxor	%xmm11, %xmm13, %xmm11
	vpslldq	$8, %xmm11, %xmm13              # xmm13 = zero,zero,zero,zero,zero,zero,zero,zero,xmm11[0,1,2,3,4,5,6,7]
	vpxor	%xmm13, %xmm12, %xmm12
	vpxor	%xmm1, %xmm12, %xmm1
	vpxor	%xmm1, %xmm11, %xmm1
	vpxor	%xmm1, %xmm9, %xmm11
	vpshufd	$85, %xmm11, %xmm12             # xmm12 = xmm11[1,1,1,1]
	vpslldq	$4, %xmm10, %xmm13              # xmm13 = zero,zero,zero,zero,xmm10[0,1,2,3,4,5,6,7,8,9,10,11]
	vpxor	%xmm10, %xmm13, %xmm13
	vpslldq	$8, %xmm13, %xmm14              # xmm14 = zero,zero,zero,zero,zero,zero,zero,zero,xmm13[0,1,2,3,4,5,6,7]
	vpxor	%xmm13, %xmm14, %xmm13
	vpxor	%xmm12, %xmm13, %xmm12
	vpalignr	$8, %xmm10, %xmm11, %xmm10      # xmm10 = xmm10[8,9,10,11,12,13,14,15],xmm11[0,1,2,3,4,5,6,7]
	vinserti128	$1, %xmm12, %ymm10, %ymm10
	vpshufb	.Lgcm_v3_CPI4_12(%rip), %ymm10, %ymm10 # ymm10 = ymm10[0,9,2,11,4,13,6,15,8,1,10,3,12,5,14,7,16,21,26,31,20,25,30,19,24,29,18,23,28,17,22,27]
	vpxor	%ymm9, %ymm10, %ymm10
	vmovdqu	%ymm10, 160(%rdi)
	vpshufb	%xmm5, %xmm12, %xmm5
	vpsrlw	$4, %xmm5, %xmm10
	vpand	%xmm0, %xmm10, %xmm10
	vpshufb	%xmm10, %xmm4, %xmm11
	vpand	%xmm0, %xmm5, %xmm5
	vpshufb	%xmm5, %xmm6, %xmm6
	vpxor	%xmm6, %xmm11, %xmm11
	vpshufb	%xmm11, %xmm4, %xmm11
	vpxor	%xmm5, %xmm10, %xmm5
	vpxor	%xmm5, %xmm11, %xmm11
	vpshufb	%xmm11, %xmm8, %xmm8
	vpshufb	%xmm5, %xmm4, %xmm5
	vpxor	%xmm6, %xmm5, %xmm5
	vpshufb	%xmm5, %xmm4, %xmm4
	vpxor	%xmm4, %xmm10, %xmm4
	vpshufb	%xmm4, %xmm7, %xmm4
	vpxor	.Lgcm_v3_CPI4_13(%rip), %xmm1, %xmm1
	vpslldq	$4, %xmm1, %xmm5                # xmm5 = zero,zero,zero,zero,xmm1[0,1,2,3,4,5,6,7,8,9,10,11]
	vpxor	%xmm1, %xmm5, %xmm1
	vpslldq	$8, %xmm1, %xmm5                # xmm5 = zero,zero,zero,zero,zero,zero,zero,zero,xmm1[0,1,2,3,4,5,6,7]
	vpxor	%xmm5, %xmm8, %xmm5
	vpxor	%xmm4, %xmm5, %xmm4
	vpxor	%xmm1, %xmm9, %xmm1
	vpxor	%xmm1, %xmm4, %xmm1
	vpand	%xmm0, %xmm1, %xmm4
	vpshufb	%xmm4, %xmm2, %xmm2
	vpsrlw	$4, %xmm1, %xmm1
	vpand	%xmm0, %xmm1, %xmm0
	vpshufb	%xmm0, %xmm3, %xmm0
	vpxor	%xmm0, %xmm2, %xmm0
	vpxor	.Lgcm_v3_CPI4_14(%rip), %xmm0, %xmm0
	vmovdqu	%xmm0, 192(%rdi)
	popq	%rbx
	vzeroupper
	retq
.Lgcm_v3_BB4_8:                                # %else.5.i
	vmovdqu	16(%rsi), %xmm4
	vpand	%xmm0, %xmm4, %xmm5
	vpshufb	%xmm5, %xmm3, %xmm3
	vpsrlw	$4, %xmm4, %xmm4
	vpand	%xmm0, %xmm4, %xmm4
	vpshufb	%xmm4, %xmm2, %xmm2
	vpxor	%xmm3, %xmm2, %xmm4
	vpand	%xmm0, %xmm1, %xmm3
	vmovdqa	.Lgcm_v3_CPI4_3(%rip), %xmm2           # xmm2 = [0,1,92,93,224,225,188,189,80,81,12,13,176,177,236,237]
	vpshufb	%xmm3, %xmm2, %xmm5
	vpsrlw	$4, %xmm1, %xmm3
	vpand	%xmm0, %xmm3, %xmm6
	vmovdqa	.Lgcm_v3_CPI4_4(%rip), %xmm3           # xmm3 = [0,178,181,7,58,136,143,61,172,30,25,171,150,36,35,145]
	vpshufb	%xmm6, %xmm3, %xmm6
	vpxor	%xmm5, %xmm6, %xmm5
	vpshufb	.Lgcm_v3_CPI4_17(%rip), %xmm4, %xmm6   # xmm6 = xmm4[0,13,10,7,4,1,14,11,8,5,2,15,12,9,6,3]
	vpxor	.Lgcm_v3_CPI4_15(%rip), %xmm6, %xmm6
	vmovdqu	%xmm5, (%rdi)
	vmovdqu	%xmm6, 16(%rdi)
	leaq	.Lgcm_v3_static.0(%rip), %rax
	movl	$96, %ecx
	xorl	%edx, %edx
	.p2align	4
.Lgcm_v3_BB4_9:                                # %join.5.i643
                                        # =>This Inner Loop Header: Depth=1
	vpshufb	.Lgcm_v3_CPI4_5(%rip), %xmm4, %xmm5    # xmm5 = xmm4[13,14,15,12,13,14,15,12,13,14,15,12,13,14,15,12]
	movzbl	(%rax), %esi
	vpsrlw	$4, %xmm5, %xmm6
	vpand	%xmm0, %xmm6, %xmm7
	vpand	%xmm0, %xmm5, %xmm5
	vpxor	%xmm5, %xmm7, %xmm8
	vmovdqa	.Lgcm_v3_CPI4_6(%rip), %xmm6           # xmm6 = [128,2,1,15,9,5,14,12,13,4,11,10,7,8,6,3]
	vpshufb	%xmm5, %xmm6, %xmm9
	vmovdqa	.Lgcm_v3_CPI4_7(%rip), %xmm5           # xmm5 = [128,1,9,14,13,11,7,6,15,2,12,5,10,4,3,8]
	vpshufb	%xmm7, %xmm5, %xmm10
	vpshufb	%xmm8, %xmm5, %xmm11
	vpxor	%xmm9, %xmm10, %xmm10
	vpxor	%xmm9, %xmm11, %xmm9
	vpshufb	%xmm10, %xmm5, %xmm10
	vpshufb	%xmm9, %xmm5, %xmm9
	vpxor	%xmm8, %xmm10, %xmm8
	vpxor	%xmm7, %xmm9, %xmm9
	vmovdqa	.Lgcm_v3_CPI4_8(%rip), %xmm7           # xmm7 = [0,195,79,12,252,124,67,128,207,51,63,112,191,179,240,140]
	vpshufb	%xmm8, %xmm7, %xmm10
	vmovdqa	.Lgcm_v3_CPI4_9(%rip), %xmm8           # xmm8 = [0,230,114,183,229,198,197,35,81,180,3,113,32,151,82,148]
	vpshufb	%xmm9, %xmm8, %xmm9
	vpxor	%xmm10, %xmm9, %xmm9
	movl	%esi, %r8d
	andl	$15, %r8d
	leaq	.Lgcm_v3_static.1(%rip), %r9
	shrl	$4, %esi
	leaq	.Lgcm_v3_static.2(%rip), %r10
	movzbl	(%rsi,%r10), %esi
	xorb	(%r8,%r9), %sil
	movzbl	%sil, %esi
	vmovd	%esi, %xmm10
	vpxor	%xmm1, %xmm10, %xmm1
	vpslldq	$4, %xmm1, %xmm10               # xmm10 = zero,zero,zero,zero,xmm1[0,1,2,3,4,5,6,7,8,9,10,11]
	vpxor	%xmm1, %xmm10, %xmm1
	vpslldq	$8, %xmm1, %xmm10               # xmm10 = zero,zero,zero,zero,zero,zero,zero,zero,xmm1[0,1,2,3,4,5,6,7]
	vpxor	%xmm1, %xmm9, %xmm1
	vpxor	%xmm1, %xmm10, %xmm9
	vpbroadcastd	.Lgcm_v3_CPI4_19(%rip), %ymm10 # ymm10 = [110,110,110,110,110,110,110,110,110,110,110,110,110,110,110,110,110,110,110,110,110,110,110,110,110,110,110,110,110,110,110,110]
	vpxor	%xmm10, %xmm9, %xmm1
	movl	%ecx, %esi
	andl	$32, %esi
	leaq	.Lgcm_v3_static.3(%rip), %r8
	vpshufb	(%rsi,%r8), %xmm1, %xmm11
	vpshufd	$255, %xmm1, %xmm12             # xmm12 = xmm1[3,3,3,3]
	vpsrlw	$4, %xmm12, %xmm13
	vpand	%xmm0, %xmm13, %xmm13
	vpand	%xmm0, %xmm12, %xmm12
	vpxor	%xmm12, %xmm13, %xmm14
	vpshufb	%xmm12, %xmm6, %xmm12
	vpshufb	%xmm13, %xmm5, %xmm15
	vpshufb	%xmm14, %xmm5, %xmm2
	vpxor	%xmm12, %xmm15, %xmm15
	vpxor	%xmm2, %xmm12, %xmm2
	vpshufb	%xmm15, %xmm5, %xmm12
	vpshufb	%xmm2, %xmm5, %xmm2
	vpxor	%xmm14, %xmm12, %xmm12
	vpxor	%xmm2, %xmm13, %xmm2
	vpshufb	%xmm12, %xmm7, %xmm12
	vpshufb	%xmm2, %xmm8, %xmm2
	vpslldq	$4, %xmm4, %xmm13               # xmm13 = zero,zero,zero,zero,xmm4[0,1,2,3,4,5,6,7,8,9,10,11]
	vpxor	%xmm4, %xmm13, %xmm4
	vpslldq	$8, %xmm4, %xmm13               # xmm13 = zero,zero,zero,zero,zero,zero,zero,zero,xmm4[0,1,2,3,4,5,6,7]
	vpxor	%xmm12, %xmm13, %xmm12
	vpxor	%xmm2, %xmm12, %xmm2
	vpxor	%xmm4, %xmm10, %xmm4
	vpxor	%xmm4, %xmm2, %xmm4
	movl	%edx, %esi
	andl	$32, %esi
	vpshufb	16(%rsi,%r8), %xmm4, %xmm2
	vinserti128	$1, %xmm2, %ymm11, %ymm2
	vpxor	%ymm2, %ymm10, %ymm2
	vmovdqu	%ymm2, 32(%rdi,%rdx)
	addq	$32, %rdx
	incq	%rax
	addq	$96, %rcx
	cmpq	$192, %rdx
	jne	.Lgcm_v3_BB4_9
# %bb.10:                               # %"aes_planes::expansion::expand_256::<#05c2c6c54e82e59f>.exit"
	vpshufb	.Lgcm_v3_CPI4_5(%rip), %xmm4, %xmm1    # xmm1 = xmm4[13,14,15,12,13,14,15,12,13,14,15,12,13,14,15,12]
	vpsrlw	$4, %xmm1, %xmm2
	vpand	%xmm0, %xmm2, %xmm2
	vpand	%xmm0, %xmm1, %xmm1
	vpxor	%xmm1, %xmm2, %xmm4
	vpshufb	%xmm1, %xmm6, %xmm1
	vpshufb	%xmm2, %xmm5, %xmm6
	vpshufb	%xmm4, %xmm5, %xmm10
	vpxor	%xmm1, %xmm6, %xmm6
	vpxor	%xmm1, %xmm10, %xmm1
	vpshufb	%xmm6, %xmm5, %xmm6
	vpshufb	%xmm1, %xmm5, %xmm1
	vpxor	%xmm4, %xmm6, %xmm4
	vpxor	%xmm2, %xmm1, %xmm1
	vpshufb	%xmm4, %xmm7, %xmm2
	vpshufb	%xmm1, %xmm8, %xmm1
	vpxor	.Lgcm_v3_CPI4_11(%rip), %xmm9, %xmm4
	vpslldq	$4, %xmm4, %xmm5                # xmm5 = zero,zero,zero,zero,xmm4[0,1,2,3,4,5,6,7,8,9,10,11]
	vpxor	%xmm4, %xmm5, %xmm4
	vpslldq	$8, %xmm4, %xmm5                # xmm5 = zero,zero,zero,zero,zero,zero,zero,zero,xmm4[0,1,2,3,4,5,6,7]
	vpxor	%xmm2, %xmm5, %xmm2
	vpxor	%xmm1, %xmm2, %xmm1
	vpxor	%xmm4, %xmm1, %xmm1
	vpxor	.Lgcm_v3_CPI4_15(%rip), %xmm1, %xmm1
	vpand	%xmm0, %xmm1, %xmm2
	vmovdqa	.Lgcm_v3_CPI4_3(%rip), %xmm4           # xmm4 = [0,1,92,93,224,225,188,189,80,81,12,13,176,177,236,237]
	vpshufb	%xmm2, %xmm4, %xmm2
	vpsrlw	$4, %xmm1, %xmm1
	vpand	%xmm0, %xmm1, %xmm0
	vpshufb	%xmm0, %xmm3, %xmm0
	vpxor	%xmm0, %xmm2, %xmm0
	vpxor	.Lgcm_v3_CPI4_14(%rip), %xmm0, %xmm0
	vmovdqu	%xmm0, 224(%rdi)
	popq	%rbx
	vzeroupper
	retq
.Lgcm_v3_func_end4:
	.size	gcm_v3.aes_permute.lane_keys.expand_lanes, .Lgcm_v3_func_end4-gcm_v3.aes_permute.lane_keys.expand_lanes
                                        # -- End function
	.section	.rodata.cst32,"aM",@progbits,32
	.p2align	5, 0x0                          # -- Begin function gcm::mode::BorrowedGcm::put_pre_counter::<#8da2abccd8f5ef8c>
.Lgcm_v3_CPI5_0:
	.quad	43                              # 0x2b
	.quad	27                              # 0x1b
	.quad	11                              # 0xb
	.quad	59                              # 0x3b
.Lgcm_v3_CPI5_1:
	.byte	128                             # 0x80
	.byte	128                             # 0x80
	.byte	128                             # 0x80
	.byte	4                               # 0x4
	.byte	128                             # 0x80
	.byte	128                             # 0x80
	.byte	128                             # 0x80
	.byte	128                             # 0x80
	.byte	128                             # 0x80
	.byte	128                             # 0x80
	.byte	13                              # 0xd
	.byte	128                             # 0x80
	.byte	128                             # 0x80
	.byte	128                             # 0x80
	.byte	128                             # 0x80
	.byte	128                             # 0x80
	.byte	128                             # 0x80
	.byte	22                              # 0x16
	.byte	128                             # 0x80
	.byte	128                             # 0x80
	.byte	128                             # 0x80
	.byte	128                             # 0x80
	.byte	128                             # 0x80
	.byte	128                             # 0x80
	.byte	31                              # 0x1f
	.byte	128                             # 0x80
	.byte	128                             # 0x80
	.byte	128                             # 0x80
	.byte	128                             # 0x80
	.byte	128                             # 0x80
	.byte	128                             # 0x80
	.byte	128                             # 0x80
.Lgcm_v3_CPI5_2:
	.byte	0                               # 0x0
	.byte	0                               # 0x0
	.byte	0                               # 0x0
	.byte	0                               # 0x0
	.byte	0                               # 0x0
	.byte	0                               # 0x0
	.byte	255                             # 0xff
	.byte	0                               # 0x0
	.byte	0                               # 0x0
	.byte	0                               # 0x0
	.byte	0                               # 0x0
	.byte	0                               # 0x0
	.byte	0                               # 0x0
	.byte	255                             # 0xff
	.byte	0                               # 0x0
	.byte	0                               # 0x0
	.byte	0                               # 0x0
	.byte	0                               # 0x0
	.byte	0                               # 0x0
	.byte	0                               # 0x0
	.byte	255                             # 0xff
	.byte	0                               # 0x0
	.byte	0                               # 0x0
	.byte	0                               # 0x0
	.byte	255                             # 0xff
	.byte	255                             # 0xff
	.byte	255                             # 0xff
	.byte	255                             # 0xff
	.byte	255                             # 0xff
	.byte	255                             # 0xff
	.byte	255                             # 0xff
	.byte	255                             # 0xff
	.section	.rodata.cst16,"aM",@progbits,16
	.p2align	4, 0x0
.Lgcm_v3_CPI5_3:
	.byte	15                              # 0xf
	.byte	14                              # 0xe
	.byte	13                              # 0xd
	.byte	12                              # 0xc
	.byte	11                              # 0xb
	.byte	10                              # 0xa
	.byte	9                               # 0x9
	.byte	8                               # 0x8
	.byte	7                               # 0x7
	.byte	6                               # 0x6
	.byte	5                               # 0x5
	.byte	4                               # 0x4
	.byte	3                               # 0x3
	.byte	2                               # 0x2
	.byte	1                               # 0x1
	.byte	0                               # 0x0
.Lgcm_v3_CPI5_4:
	.byte	15                              # 0xf
	.byte	14                              # 0xe
	.byte	13                              # 0xd
	.byte	12                              # 0xc
	.byte	11                              # 0xb
	.byte	10                              # 0xa
	.byte	9                               # 0x9
	.byte	8                               # 0x8
	.zero	1
	.zero	1
	.zero	1
	.zero	1
	.zero	1
	.zero	1
	.zero	1
	.zero	1
.Lgcm_v3_CPI5_5:
	.byte	7                               # 0x7
	.byte	6                               # 0x6
	.byte	5                               # 0x5
	.byte	4                               # 0x4
	.zero	1
	.zero	1
	.zero	1
	.zero	1
	.zero	1
	.zero	1
	.zero	1
	.zero	1
	.zero	1
	.zero	1
	.zero	1
	.zero	1
	.section	.text.gcm_v3.gcm.mode.BorrowedGcm.put_pre_counter,"ax",@progbits
	.p2align	4
	.type	gcm_v3.gcm.mode.BorrowedGcm.put_pre_counter,@function
gcm_v3.gcm.mode.BorrowedGcm.put_pre_counter: # @gcm_v3.gcm.mode.BorrowedGcm.put_pre_counter
# %bb.0:                                # %start
	pushq	%r15
	pushq	%r14
	pushq	%rbx
	subq	$32, %rsp
	movq	%rcx, %rbx
	movq	%rsi, %rcx
	cmpq	$12, %rdx
	jne	.Lgcm_v3_BB5_2
# %bb.1:                                # %then.1
	movb	$0, 14(%rsp)
	movw	$0, 12(%rsp)
	movl	8(%rcx), %eax
	movl	%eax, 8(%rsp)
	movq	(%rcx), %rax
	movq	%rax, (%rsp)
	movq	%rax, 16(%rsp)
	movq	7(%rsp), %rax
	movq	%rax, 23(%rsp)
	movq	16(%rsp), %rax
	movq	23(%rsp), %rcx
	movq	%rcx, 7(%rbx)
	movq	%rax, (%rbx)
	movb	$1, %al
	jmp	.Lgcm_v3_BB5_3
.Lgcm_v3_BB5_2:                                # %else.2
	movq	%rdx, %r14
	movq	32(%rdi), %rax
	movq	%rdi, %r15
	movq	%rax, %rdi
	xorl	%esi, %esi
	xorl	%edx, %edx
	movq	%r14, %r8
	callq	gcm_v3.gcm.hash_room.MultiplesRoomHashRoom.hash_on
	vmovq	%r14, %xmm0
	shlq	$3, %r14
	vpbroadcastq	%xmm0, %ymm0
	vpsllvq	.Lgcm_v3_CPI5_0(%rip), %ymm0, %ymm0
	vmovq	%r14, %xmm1
	vpbroadcastq	%xmm1, %ymm1
	vpshufb	.Lgcm_v3_CPI5_1(%rip), %ymm1, %ymm1    # ymm1 = zero,zero,zero,ymm1[4],zero,zero,zero,zero,zero,zero,ymm1[13],zero,zero,zero,zero,zero,zero,ymm1[22],zero,zero,zero,zero,zero,zero,ymm1[31],zero,zero,zero,zero,zero,zero,zero
	movq	32(%r15), %rsi
	vpand	.Lgcm_v3_CPI5_2(%rip), %ymm0, %ymm0
	vpor	%ymm1, %ymm0, %ymm0
	vextracti128	$1, %ymm0, %xmm1
	vpor	%xmm1, %xmm0, %xmm0
	vpshufd	$238, %xmm0, %xmm1              # xmm1 = xmm0[2,3,2,3]
	vpor	%xmm1, %xmm0, %xmm0
	vmovq	%xmm0, %rcx
	bswapq	%rcx
	xorq	%rax, %rcx
	vpxor	%xmm0, %xmm0, %xmm0
	vmovdqa	%xmm0, (%rsp)
	vmovq	%rcx, %xmm0
	vmovq	%rdx, %xmm1
	vpunpcklqdq	%xmm1, %xmm0, %xmm0     # xmm0 = xmm0[0],xmm1[0]
	vpshufb	.Lgcm_v3_CPI5_3(%rip), %xmm0, %xmm0    # xmm0 = xmm0[15,14,13,12,11,10,9,8,7,6,5,4,3,2,1,0]
	movq	%rsp, %rdi
	vzeroupper
	callq	gcm_v3.gcm.multiples.Multiples.block_product
	movbeq	8(%rsp), %rax
	movbeq	(%rsp), %rcx
	vmovq	%rcx, %xmm0
	vmovq	%rax, %xmm1
	vpunpcklqdq	%xmm0, %xmm1, %xmm0     # xmm0 = xmm1[0],xmm0[0]
	movl	%eax, %ecx
	shrl	$24, %ecx
	movl	%eax, %edx
	vpshufb	.Lgcm_v3_CPI5_4(%rip), %xmm0, %xmm1    # xmm1 = xmm0[15,14,13,12,11,10,9,8,u,u,u,u,u,u,u,u]
	vmovq	%xmm1, (%rbx)
	vpshufb	.Lgcm_v3_CPI5_5(%rip), %xmm0, %xmm0    # xmm0 = xmm0[7,6,5,4,u,u,u,u,u,u,u,u,u,u,u,u]
	vmovd	%xmm0, 8(%rbx)
	shrl	$16, %edx
	movb	%cl, 12(%rbx)
	movb	%dl, 13(%rbx)
	movb	%ah, 14(%rbx)
.Lgcm_v3_BB5_3:                                # %join.3
	movb	%al, 15(%rbx)
	addq	$32, %rsp
	popq	%rbx
	popq	%r14
	popq	%r15
	retq
.Lgcm_v3_func_end5:
	.size	gcm_v3.gcm.mode.BorrowedGcm.put_pre_counter, .Lgcm_v3_func_end5-gcm_v3.gcm.mode.BorrowedGcm.put_pre_counter
                                        # -- End function
	.section	.rodata.cst16,"aM",@progbits,16
	.p2align	4, 0x0                          # -- Begin function gcm::hash_room::MultiplesRoomHashRoom::hash_on
.Lgcm_v3_CPI6_0:
	.byte	15                              # 0xf
	.byte	14                              # 0xe
	.byte	13                              # 0xd
	.byte	12                              # 0xc
	.byte	11                              # 0xb
	.byte	10                              # 0xa
	.byte	9                               # 0x9
	.byte	8                               # 0x8
	.byte	7                               # 0x7
	.byte	6                               # 0x6
	.byte	5                               # 0x5
	.byte	4                               # 0x4
	.byte	3                               # 0x3
	.byte	2                               # 0x2
	.byte	1                               # 0x1
	.byte	0                               # 0x0
	.section	.text.gcm_v3.gcm.hash_room.MultiplesRoomHashRoom.hash_on,"ax",@progbits
	.p2align	4
	.type	gcm_v3.gcm.hash_room.MultiplesRoomHashRoom.hash_on,@function
gcm_v3.gcm.hash_room.MultiplesRoomHashRoom.hash_on: # @gcm_v3.gcm.hash_room.MultiplesRoomHashRoom.hash_on
# %bb.0:                                # %start
	pushq	%rbp
	pushq	%r15
	pushq	%r14
	pushq	%r13
	pushq	%r12
	pushq	%rbx
	subq	$56, %rsp
	vmovq	%rdx, %xmm0
	vmovq	%rsi, %xmm1
	vpunpcklqdq	%xmm0, %xmm1, %xmm0     # xmm0 = xmm1[0],xmm0[0]
	vpshufb	.Lgcm_v3_CPI6_0(%rip), %xmm0, %xmm1    # xmm1 = xmm0[15,14,13,12,11,10,9,8,7,6,5,4,3,2,1,0]
	vmovdqa	%xmm1, (%rsp)
	movq	%r8, %r14
	movq	%rcx, %r15
	movq	%rdi, %rbx
	movabsq	$-6148914691236517205, %rax     # imm = 0xAAAAAAAAAAAAAAAB
	movq	%r8, %rdx
	mulxq	%rax, %r12, %r12
	shrq	$5, %r12
	movq	%r12, %rax
	shlq	$4, %rax
	leaq	(%rax,%rax,2), %r13
	cmpq	$48, %r8
	jb	.Lgcm_v3_BB6_4
# %bb.1:                                # %join.5.i.preheader
	leaq	32(%r15), %rbp
	.p2align	4
.Lgcm_v3_BB6_2:                                # %join.5.i
                                        # =>This Inner Loop Header: Depth=1
	vmovdqa	(%rsp), %xmm0
	vpxor	-32(%rbp), %xmm0, %xmm0
	vmovdqu	-16(%rbp), %xmm1
	vmovups	(%rbp), %xmm2
	movq	%rsp, %rdi
	movq	%rbx, %rsi
	callq	gcm_v3.gcm.multiples.Multiples.three_products
	addq	$48, %rbp
	decq	%r12
	jne	.Lgcm_v3_BB6_2
# %bb.3:                                # %"gcm::hash::hash_threes::<#4e0b07d5b1f54653>.exit.loopexit"
	vmovdqa	(%rsp), %xmm1
.Lgcm_v3_BB6_4:                                # %"gcm::hash::hash_threes::<#4e0b07d5b1f54653>.exit"
	vpxor	%xmm0, %xmm0, %xmm0
	vmovdqa	%xmm0, 16(%rsp)
	cmpq	%r13, %r14
	je	.Lgcm_v3_BB6_17
# %bb.5:                                # %join.3.i
	movq	%r14, %rdx
	subq	%r13, %rdx
	leaq	(%r15,%r13), %r12
	cmpq	$16, %rdx
	ja	.Lgcm_v3_BB6_9
# %bb.6:                                # %then.4.i
	je	.Lgcm_v3_BB6_8
# %bb.7:                                # %join.3.i133
	vmovdqa	%xmm0, (%rsp)
	movq	%rsp, %r14
	movq	%r14, %rdi
	movq	%r12, %rsi
	vmovdqa	%xmm1, 32(%rsp)                 # 16-byte Spill
	callq	*memcpy@GOTPCREL(%rip)
	vmovdqa	32(%rsp), %xmm1                 # 16-byte Reload
	movq	%r14, %r12
.Lgcm_v3_BB6_8:                                # %"gcm::hash::zero_filled.exit184"
	vpxor	(%r12), %xmm1, %xmm0
	leaq	16(%rsp), %rdi
	movq	%rbx, %rsi
	callq	gcm_v3.gcm.multiples.Multiples.block_product
	jmp	.Lgcm_v3_BB6_16
.Lgcm_v3_BB6_9:                                # %join.6.i
	vpxor	(%r12), %xmm1, %xmm0
	cmpq	$32, %rdx
	ja	.Lgcm_v3_BB6_13
# %bb.10:                               # %then.7.i
	leaq	(%r15,%r13), %rsi
	addq	$16, %rsi
	addq	$16, %r13
	subq	%r13, %r14
	cmpq	$16, %r14
	je	.Lgcm_v3_BB6_12
# %bb.11:                               # %join.3.i79
	vmovdqa	%xmm0, 32(%rsp)                 # 16-byte Spill
	vpxor	%xmm0, %xmm0, %xmm0
	vmovdqa	%xmm0, (%rsp)
	movq	%rsp, %r15
	movq	%r15, %rdi
	movq	%r14, %rdx
	callq	*memcpy@GOTPCREL(%rip)
	vmovdqa	32(%rsp), %xmm0                 # 16-byte Reload
	movq	%r15, %rsi
.Lgcm_v3_BB6_12:                               # %"gcm::hash::zero_filled.exit130"
	vmovdqu	(%rsi), %xmm1
	leaq	16(%rsp), %rdi
	movq	%rbx, %rsi
	callq	gcm_v3.gcm.multiples.Multiples.two_products
	jmp	.Lgcm_v3_BB6_16
.Lgcm_v3_BB6_13:                               # %join.9.i
	leaq	(%r15,%r13), %rsi
	addq	$32, %rsi
	addq	$32, %r13
	subq	%r13, %r14
	cmpq	$16, %r14
	je	.Lgcm_v3_BB6_15
# %bb.14:                               # %join.3.i71
	vmovdqa	%xmm0, 32(%rsp)                 # 16-byte Spill
	vpxor	%xmm0, %xmm0, %xmm0
	vmovdqa	%xmm0, (%rsp)
	movq	%rsp, %r15
	movq	%r15, %rdi
	movq	%r14, %rdx
	callq	*memcpy@GOTPCREL(%rip)
	vmovdqa	32(%rsp), %xmm0                 # 16-byte Reload
	movq	%r15, %rsi
.Lgcm_v3_BB6_15:                               # %"gcm::hash::zero_filled.exit"
	vmovups	(%rsi), %xmm2
	vmovdqu	16(%r12), %xmm1
	leaq	16(%rsp), %rdi
	movq	%rbx, %rsi
	callq	gcm_v3.gcm.multiples.Multiples.three_products
.Lgcm_v3_BB6_16:                               # %"gcm::hash::hash_last_group::<#4e0b07d5b1f54653>.exit"
	vmovdqa	16(%rsp), %xmm1
.Lgcm_v3_BB6_17:                               # %"gcm::hash::hash_last_group::<#4e0b07d5b1f54653>.exit"
	vmovq	%xmm1, %rdx
	vpextrq	$1, %xmm1, %rax
	bswapq	%rax
	bswapq	%rdx
	addq	$56, %rsp
	popq	%rbx
	popq	%r12
	popq	%r13
	popq	%r14
	popq	%r15
	popq	%rbp
	retq
.Lgcm_v3_func_end6:
	.size	gcm_v3.gcm.hash_room.MultiplesRoomHashRoom.hash_on, .Lgcm_v3_func_end6-gcm_v3.gcm.hash_room.MultiplesRoomHashRoom.hash_on
                                        # -- End function
	.section	.rodata.cst32,"aM",@progbits,32
	.p2align	5, 0x0                          # -- Begin function gcm::multiples::Multiples::three_products
.Lgcm_v3_CPI7_0:
	.zero	32,15
	.section	.rodata.cst16,"aM",@progbits,16
	.p2align	4, 0x0
.Lgcm_v3_CPI7_1:
	.byte	15                              # 0xf
	.byte	14                              # 0xe
	.byte	13                              # 0xd
	.byte	12                              # 0xc
	.byte	11                              # 0xb
	.byte	10                              # 0xa
	.byte	9                               # 0x9
	.byte	8                               # 0x8
	.byte	7                               # 0x7
	.byte	6                               # 0x6
	.byte	5                               # 0x5
	.byte	4                               # 0x4
	.byte	3                               # 0x3
	.byte	2                               # 0x2
	.byte	1                               # 0x1
	.byte	0                               # 0x0
	.section	.rodata.cst4,"aM",@progbits,4
	.p2align	2, 0x0
.Lgcm_v3_CPI7_2:
	.zero	4,15
	.section	.text.gcm_v3.gcm.multiples.Multiples.three_products,"ax",@progbits
	.p2align	4
	.type	gcm_v3.gcm.multiples.Multiples.three_products,@function
gcm_v3.gcm.multiples.Multiples.three_products: # @gcm_v3.gcm.multiples.Multiples.three_products
# %bb.0:                                # %start
                                        # kill: def $xmm2 killed $xmm2 def $ymm2
                                        # kill: def $xmm1 killed $xmm1 def $ymm1
                                        # kill: def $xmm0 killed $xmm0 def $ymm0
	vinserti128	$1, %xmm2, %ymm2, %ymm3
	vpsrlw	$4, %ymm3, %ymm2
	vpbroadcastd	.Lgcm_v3_CPI7_2(%rip), %ymm5   # ymm5 = [15,15,15,15,15,15,15,15,15,15,15,15,15,15,15,15,15,15,15,15,15,15,15,15,15,15,15,15,15,15,15,15]
	vpand	%ymm5, %ymm2, %ymm2
	vpand	%ymm5, %ymm3, %ymm3
	vinserti128	$1, %xmm1, %ymm1, %ymm4
	vpsrlw	$4, %ymm4, %ymm1
	vpand	%ymm5, %ymm1, %ymm1
	vpand	%ymm5, %ymm4, %ymm4
	vinserti128	$1, %xmm0, %ymm0, %ymm6
	vpsrlw	$4, %ymm6, %ymm0
	vpand	%ymm5, %ymm0, %ymm0
	vpand	%ymm5, %ymm6, %ymm5
	vmovdqu	1504(%rsi), %ymm6
	vpshufb	%ymm5, %ymm6, %ymm6
	vmovdqu	1248(%rsi), %ymm7
	vpshufb	%ymm0, %ymm7, %ymm7
	vpxor	%ymm7, %ymm6, %ymm6
	vmovdqu	992(%rsi), %ymm7
	vpshufb	%ymm4, %ymm7, %ymm7
	vmovdqu	736(%rsi), %ymm8
	vpshufb	%ymm1, %ymm8, %ymm8
	vpxor	%ymm7, %ymm8, %ymm7
	vpxor	%ymm7, %ymm6, %ymm6
	vmovdqu	480(%rsi), %ymm7
	vpshufb	%ymm3, %ymm7, %ymm7
	vmovdqu	224(%rsi), %ymm8
	vpshufb	%ymm2, %ymm8, %ymm8
	vpxor	%ymm7, %ymm8, %ymm7
	vpxor	%ymm7, %ymm6, %ymm6
	vmovdqu	1472(%rsi), %ymm7
	vpshufb	%ymm5, %ymm7, %ymm7
	vmovdqu	1216(%rsi), %ymm8
	vpshufb	%ymm0, %ymm8, %ymm8
	vpxor	%ymm7, %ymm8, %ymm7
	vmovdqu	960(%rsi), %ymm8
	vpshufb	%ymm4, %ymm8, %ymm8
	vpxor	%ymm7, %ymm8, %ymm7
	vmovdqu	704(%rsi), %ymm8
	vpshufb	%ymm1, %ymm8, %ymm8
	vpxor	%ymm7, %ymm8, %ymm7
	vmovdqu	448(%rsi), %ymm8
	vpshufb	%ymm3, %ymm8, %ymm8
	vpxor	%ymm7, %ymm8, %ymm7
	vmovdqu	192(%rsi), %ymm8
	vpshufb	%ymm2, %ymm8, %ymm8
	vpsrldq	$15, %ymm6, %ymm9               # ymm9 = ymm6[15],zero,zero,zero,zero,zero,zero,zero,zero,zero,zero,zero,zero,zero,zero,zero,ymm6[31],zero,zero,zero,zero,zero,zero,zero,zero,zero,zero,zero,zero,zero,zero,zero
	vpslldq	$1, %ymm6, %ymm6                # ymm6 = zero,ymm6[0,1,2,3,4,5,6,7,8,9,10,11,12,13,14],zero,ymm6[16,17,18,19,20,21,22,23,24,25,26,27,28,29,30]
	vpxor	%ymm6, %ymm7, %ymm6
	vpxor	%ymm6, %ymm8, %ymm6
	vmovdqu	1440(%rsi), %ymm7
	vpshufb	%ymm5, %ymm7, %ymm7
	vmovdqu	1184(%rsi), %ymm8
	vpshufb	%ymm0, %ymm8, %ymm8
	vpxor	%ymm7, %ymm8, %ymm7
	vmovdqu	928(%rsi), %ymm8
	vpshufb	%ymm4, %ymm8, %ymm8
	vpxor	%ymm7, %ymm8, %ymm7
	vmovdqu	672(%rsi), %ymm8
	vpshufb	%ymm1, %ymm8, %ymm8
	vpxor	%ymm7, %ymm8, %ymm7
	vmovdqu	416(%rsi), %ymm8
	vpshufb	%ymm3, %ymm8, %ymm8
	vpxor	%ymm7, %ymm8, %ymm7
	vmovdqu	160(%rsi), %ymm8
	vpshufb	%ymm2, %ymm8, %ymm8
	vpxor	%ymm7, %ymm8, %ymm7
	vpalignr	$15, %ymm6, %ymm9, %ymm8        # ymm8 = ymm6[15],ymm9[0,1,2,3,4,5,6,7,8,9,10,11,12,13,14],ymm6[31],ymm9[16,17,18,19,20,21,22,23,24,25,26,27,28,29,30]
	vpslldq	$1, %ymm6, %ymm6                # ymm6 = zero,ymm6[0,1,2,3,4,5,6,7,8,9,10,11,12,13,14],zero,ymm6[16,17,18,19,20,21,22,23,24,25,26,27,28,29,30]
	vpxor	%ymm6, %ymm7, %ymm6
	vmovdqu	1408(%rsi), %ymm7
	vpshufb	%ymm5, %ymm7, %ymm7
	vmovdqu	1152(%rsi), %ymm9
	vpshufb	%ymm0, %ymm9, %ymm9
	vpxor	%ymm7, %ymm9, %ymm7
	vmovdqu	896(%rsi), %ymm9
	vpshufb	%ymm4, %ymm9, %ymm9
	vpxor	%ymm7, %ymm9, %ymm7
	vmovdqu	640(%rsi), %ymm9
	vpshufb	%ymm1, %ymm9, %ymm9
	vpxor	%ymm7, %ymm9, %ymm7
	vmovdqu	384(%rsi), %ymm9
	vpshufb	%ymm3, %ymm9, %ymm9
	vpxor	%ymm7, %ymm9, %ymm7
	vmovdqu	128(%rsi), %ymm9
	vpshufb	%ymm2, %ymm9, %ymm9
	vpxor	%ymm7, %ymm9, %ymm7
	vpalignr	$15, %ymm6, %ymm8, %ymm8        # ymm8 = ymm6[15],ymm8[0,1,2,3,4,5,6,7,8,9,10,11,12,13,14],ymm6[31],ymm8[16,17,18,19,20,21,22,23,24,25,26,27,28,29,30]
	vpslldq	$1, %ymm6, %ymm6                # ymm6 = zero,ymm6[0,1,2,3,4,5,6,7,8,9,10,11,12,13,14],zero,ymm6[16,17,18,19,20,21,22,23,24,25,26,27,28,29,30]
	vpxor	%ymm6, %ymm7, %ymm9
	vmovdqu	1376(%rsi), %ymm6
	vpshufb	%ymm5, %ymm6, %ymm6
	vmovdqu	1120(%rsi), %ymm7
	vpshufb	%ymm0, %ymm7, %ymm7
	vpxor	%ymm7, %ymm6, %ymm6
	vmovdqu	864(%rsi), %ymm7
	vpshufb	%ymm4, %ymm7, %ymm7
	vpxor	%ymm7, %ymm6, %ymm6
	vmovdqu	608(%rsi), %ymm7
	vpshufb	%ymm1, %ymm7, %ymm7
	vpxor	%ymm7, %ymm6, %ymm6
	vmovdqu	352(%rsi), %ymm7
	vpshufb	%ymm3, %ymm7, %ymm7
	vpxor	%ymm7, %ymm6, %ymm10
	vmovdqu	(%rsi), %ymm6
	vmovdqu	32(%rsi), %ymm7
	vmovdqu	64(%rsi), %ymm11
	vmovdqu	96(%rsi), %ymm12
	vpshufb	%ymm2, %ymm12, %ymm12
	vpxor	%ymm12, %ymm10, %ymm10
	vpalignr	$15, %ymm9, %ymm8, %ymm8        # ymm8 = ymm9[15],ymm8[0,1,2,3,4,5,6,7,8,9,10,11,12,13,14],ymm9[31],ymm8[16,17,18,19,20,21,22,23,24,25,26,27,28,29,30]
	vpslldq	$1, %ymm9, %ymm9                # ymm9 = zero,ymm9[0,1,2,3,4,5,6,7,8,9,10,11,12,13,14],zero,ymm9[16,17,18,19,20,21,22,23,24,25,26,27,28,29,30]
	vpxor	%ymm9, %ymm10, %ymm9
	vmovdqu	1344(%rsi), %ymm10
	vpshufb	%ymm5, %ymm10, %ymm10
	vmovdqu	1088(%rsi), %ymm12
	vpshufb	%ymm0, %ymm12, %ymm12
	vpxor	%ymm12, %ymm10, %ymm10
	vmovdqu	832(%rsi), %ymm12
	vpshufb	%ymm4, %ymm12, %ymm12
	vpxor	%ymm12, %ymm10, %ymm10
	vmovdqu	576(%rsi), %ymm12
	vpshufb	%ymm1, %ymm12, %ymm12
	vpxor	%ymm12, %ymm10, %ymm10
	vmovdqu	320(%rsi), %ymm12
	vpshufb	%ymm3, %ymm12, %ymm12
	vpxor	%ymm12, %ymm10, %ymm10
	vpshufb	%ymm2, %ymm11, %ymm11
	vpxor	%ymm11, %ymm10, %ymm10
	vpalignr	$15, %ymm9, %ymm8, %ymm8        # ymm8 = ymm9[15],ymm8[0,1,2,3,4,5,6,7,8,9,10,11,12,13,14],ymm9[31],ymm8[16,17,18,19,20,21,22,23,24,25,26,27,28,29,30]
	vpslldq	$1, %ymm9, %ymm9                # ymm9 = zero,ymm9[0,1,2,3,4,5,6,7,8,9,10,11,12,13,14],zero,ymm9[16,17,18,19,20,21,22,23,24,25,26,27,28,29,30]
	vpxor	%ymm9, %ymm10, %ymm9
	vmovdqu	1312(%rsi), %ymm10
	vpshufb	%ymm5, %ymm10, %ymm10
	vmovdqu	1056(%rsi), %ymm11
	vpshufb	%ymm0, %ymm11, %ymm11
	vpxor	%ymm11, %ymm10, %ymm10
	vmovdqu	800(%rsi), %ymm11
	vpshufb	%ymm4, %ymm11, %ymm11
	vpxor	%ymm11, %ymm10, %ymm10
	vmovdqu	544(%rsi), %ymm11
	vpshufb	%ymm1, %ymm11, %ymm11
	vpxor	%ymm11, %ymm10, %ymm10
	vmovdqu	288(%rsi), %ymm11
	vpshufb	%ymm3, %ymm11, %ymm11
	vpxor	%ymm11, %ymm10, %ymm10
	vpshufb	%ymm2, %ymm7, %ymm7
	vpxor	%ymm7, %ymm10, %ymm7
	vpalignr	$15, %ymm9, %ymm8, %ymm8        # ymm8 = ymm9[15],ymm8[0,1,2,3,4,5,6,7,8,9,10,11,12,13,14],ymm9[31],ymm8[16,17,18,19,20,21,22,23,24,25,26,27,28,29,30]
	vpslldq	$1, %ymm9, %ymm9                # ymm9 = zero,ymm9[0,1,2,3,4,5,6,7,8,9,10,11,12,13,14],zero,ymm9[16,17,18,19,20,21,22,23,24,25,26,27,28,29,30]
	vpxor	%ymm7, %ymm9, %ymm7
	vmovdqu	1280(%rsi), %ymm9
	vpshufb	%ymm5, %ymm9, %ymm5
	vmovdqu	1024(%rsi), %ymm9
	vpshufb	%ymm0, %ymm9, %ymm0
	vpxor	%ymm0, %ymm5, %ymm0
	vmovdqu	768(%rsi), %ymm5
	vpshufb	%ymm4, %ymm5, %ymm4
	vpxor	%ymm4, %ymm0, %ymm0
	vmovdqu	512(%rsi), %ymm4
	vpshufb	%ymm1, %ymm4, %ymm1
	vpxor	%ymm1, %ymm0, %ymm0
	vmovdqu	256(%rsi), %ymm1
	vpshufb	%ymm3, %ymm1, %ymm1
	vpxor	%ymm1, %ymm0, %ymm0
	vpshufb	%ymm2, %ymm6, %ymm1
	vpxor	%ymm1, %ymm0, %ymm0
	vpalignr	$15, %ymm7, %ymm8, %ymm2        # ymm2 = ymm7[15],ymm8[0,1,2,3,4,5,6,7,8,9,10,11,12,13,14],ymm7[31],ymm8[16,17,18,19,20,21,22,23,24,25,26,27,28,29,30]
	vpslldq	$1, %ymm7, %ymm1                # ymm1 = zero,ymm7[0,1,2,3,4,5,6,7,8,9,10,11,12,13,14],zero,ymm7[16,17,18,19,20,21,22,23,24,25,26,27,28,29,30]
	vpxor	%ymm1, %ymm0, %ymm0
	vextracti128	$1, %ymm0, %xmm1
	vextracti128	$1, %ymm2, %xmm3
	vpalignr	$8, %xmm1, %xmm3, %xmm3         # xmm3 = xmm1[8,9,10,11,12,13,14,15],xmm3[0,1,2,3,4,5,6,7]
	vpxor	%xmm2, %xmm3, %xmm2
	vmovq	%xmm2, %rcx
	vpextrq	$1, %xmm2, %rax
	bswapq	%rax
	bswapq	%rcx
	movq	%rcx, %rdx
	movq	%rcx, %rsi
	movq	%rcx, %r8
	movq	%rcx, %r9
	movq	%rcx, %r10
	shrq	$7, %r10
	xorq	%rcx, %r10
	shldq	$63, %rax, %rcx
	shldq	$62, %rax, %rsi
	xorq	%rcx, %rsi
	vpslldq	$8, %xmm1, %xmm1                # xmm1 = zero,zero,zero,zero,zero,zero,zero,zero,xmm1[0,1,2,3,4,5,6,7]
	shrq	%rdx
	shrq	$2, %r8
	xorq	%rdx, %r8
	shldq	$57, %rax, %r9
	xorq	%rax, %r9
	xorq	%rsi, %r9
	xorq	%r8, %r10
	vmovq	%r9, %xmm2
	vmovq	%r10, %xmm3
	vpunpcklqdq	%xmm3, %xmm2, %xmm2     # xmm2 = xmm2[0],xmm3[0]
	vpshufb	.Lgcm_v3_CPI7_1(%rip), %xmm2, %xmm2    # xmm2 = xmm2[15,14,13,12,11,10,9,8,7,6,5,4,3,2,1,0]
	vpxor	%xmm0, %xmm1, %xmm0
	vpxor	%xmm2, %xmm0, %xmm0
	vmovdqu	%xmm0, (%rdi)
	vzeroupper
	retq
.Lgcm_v3_func_end7:
	.size	gcm_v3.gcm.multiples.Multiples.three_products, .Lgcm_v3_func_end7-gcm_v3.gcm.multiples.Multiples.three_products
                                        # -- End function
	.section	.rodata.cst32,"aM",@progbits,32
	.p2align	5, 0x0                          # -- Begin function gcm::multiples::Multiples::block_product
.Lgcm_v3_CPI8_0:
	.zero	32,15
	.section	.rodata.cst16,"aM",@progbits,16
	.p2align	4, 0x0
.Lgcm_v3_CPI8_1:
	.byte	15                              # 0xf
	.byte	14                              # 0xe
	.byte	13                              # 0xd
	.byte	12                              # 0xc
	.byte	11                              # 0xb
	.byte	10                              # 0xa
	.byte	9                               # 0x9
	.byte	8                               # 0x8
	.byte	7                               # 0x7
	.byte	6                               # 0x6
	.byte	5                               # 0x5
	.byte	4                               # 0x4
	.byte	3                               # 0x3
	.byte	2                               # 0x2
	.byte	1                               # 0x1
	.byte	0                               # 0x0
	.section	.rodata.cst4,"aM",@progbits,4
	.p2align	2, 0x0
.Lgcm_v3_CPI8_2:
	.zero	4,15
	.section	.text.gcm_v3.gcm.multiples.Multiples.block_product,"ax",@progbits
	.p2align	4
	.type	gcm_v3.gcm.multiples.Multiples.block_product,@function
gcm_v3.gcm.multiples.Multiples.block_product: # @gcm_v3.gcm.multiples.Multiples.block_product
# %bb.0:                                # %start
                                        # kill: def $xmm0 killed $xmm0 def $ymm0
	vinserti128	$1, %xmm0, %ymm0, %ymm1
	vpsrlw	$4, %ymm1, %ymm0
	vpbroadcastd	.Lgcm_v3_CPI8_2(%rip), %ymm2   # ymm2 = [15,15,15,15,15,15,15,15,15,15,15,15,15,15,15,15,15,15,15,15,15,15,15,15,15,15,15,15,15,15,15,15]
	vpand	%ymm2, %ymm0, %ymm0
	vpand	%ymm2, %ymm1, %ymm1
	vmovdqu	480(%rsi), %ymm2
	vpshufb	%ymm1, %ymm2, %ymm2
	vmovdqu	224(%rsi), %ymm3
	vpshufb	%ymm0, %ymm3, %ymm3
	vpxor	%ymm3, %ymm2, %ymm2
	vmovdqu	448(%rsi), %ymm3
	vpshufb	%ymm1, %ymm3, %ymm3
	vmovdqu	192(%rsi), %ymm4
	vpshufb	%ymm0, %ymm4, %ymm4
	vpxor	%ymm4, %ymm3, %ymm3
	vpsrldq	$15, %ymm2, %ymm4               # ymm4 = ymm2[15],zero,zero,zero,zero,zero,zero,zero,zero,zero,zero,zero,zero,zero,zero,zero,ymm2[31],zero,zero,zero,zero,zero,zero,zero,zero,zero,zero,zero,zero,zero,zero,zero
	vpslldq	$1, %ymm2, %ymm2                # ymm2 = zero,ymm2[0,1,2,3,4,5,6,7,8,9,10,11,12,13,14],zero,ymm2[16,17,18,19,20,21,22,23,24,25,26,27,28,29,30]
	vpxor	%ymm2, %ymm3, %ymm2
	vmovdqu	416(%rsi), %ymm3
	vpshufb	%ymm1, %ymm3, %ymm3
	vmovdqu	160(%rsi), %ymm5
	vpshufb	%ymm0, %ymm5, %ymm5
	vpxor	%ymm5, %ymm3, %ymm3
	vpalignr	$15, %ymm2, %ymm4, %ymm4        # ymm4 = ymm2[15],ymm4[0,1,2,3,4,5,6,7,8,9,10,11,12,13,14],ymm2[31],ymm4[16,17,18,19,20,21,22,23,24,25,26,27,28,29,30]
	vpslldq	$1, %ymm2, %ymm2                # ymm2 = zero,ymm2[0,1,2,3,4,5,6,7,8,9,10,11,12,13,14],zero,ymm2[16,17,18,19,20,21,22,23,24,25,26,27,28,29,30]
	vpxor	%ymm2, %ymm3, %ymm2
	vmovdqu	384(%rsi), %ymm3
	vpshufb	%ymm1, %ymm3, %ymm3
	vmovdqu	128(%rsi), %ymm5
	vpshufb	%ymm0, %ymm5, %ymm5
	vpxor	%ymm5, %ymm3, %ymm3
	vpalignr	$15, %ymm2, %ymm4, %ymm4        # ymm4 = ymm2[15],ymm4[0,1,2,3,4,5,6,7,8,9,10,11,12,13,14],ymm2[31],ymm4[16,17,18,19,20,21,22,23,24,25,26,27,28,29,30]
	vpslldq	$1, %ymm2, %ymm2                # ymm2 = zero,ymm2[0,1,2,3,4,5,6,7,8,9,10,11,12,13,14],zero,ymm2[16,17,18,19,20,21,22,23,24,25,26,27,28,29,30]
	vpxor	%ymm2, %ymm3, %ymm2
	vmovdqu	352(%rsi), %ymm3
	vpshufb	%ymm1, %ymm3, %ymm3
	vmovdqu	(%rsi), %ymm5
	vmovdqu	32(%rsi), %ymm6
	vmovdqu	64(%rsi), %ymm7
	vmovdqu	96(%rsi), %ymm8
	vpshufb	%ymm0, %ymm8, %ymm8
	vpxor	%ymm3, %ymm8, %ymm3
	vpalignr	$15, %ymm2, %ymm4, %ymm4        # ymm4 = ymm2[15],ymm4[0,1,2,3,4,5,6,7,8,9,10,11,12,13,14],ymm2[31],ymm4[16,17,18,19,20,21,22,23,24,25,26,27,28,29,30]
	vpslldq	$1, %ymm2, %ymm2                # ymm2 = zero,ymm2[0,1,2,3,4,5,6,7,8,9,10,11,12,13,14],zero,ymm2[16,17,18,19,20,21,22,23,24,25,26,27,28,29,30]
	vpxor	%ymm2, %ymm3, %ymm2
	vmovdqu	320(%rsi), %ymm3
	vpshufb	%ymm1, %ymm3, %ymm3
	vpshufb	%ymm0, %ymm7, %ymm7
	vpxor	%ymm7, %ymm3, %ymm3
	vpalignr	$15, %ymm2, %ymm4, %ymm4        # ymm4 = ymm2[15],ymm4[0,1,2,3,4,5,6,7,8,9,10,11,12,13,14],ymm2[31],ymm4[16,17,18,19,20,21,22,23,24,25,26,27,28,29,30]
	vpslldq	$1, %ymm2, %ymm2                # ymm2 = zero,ymm2[0,1,2,3,4,5,6,7,8,9,10,11,12,13,14],zero,ymm2[16,17,18,19,20,21,22,23,24,25,26,27,28,29,30]
	vpxor	%ymm2, %ymm3, %ymm2
	vmovdqu	288(%rsi), %ymm3
	vpshufb	%ymm1, %ymm3, %ymm3
	vpshufb	%ymm0, %ymm6, %ymm6
	vpxor	%ymm6, %ymm3, %ymm3
	vpalignr	$15, %ymm2, %ymm4, %ymm4        # ymm4 = ymm2[15],ymm4[0,1,2,3,4,5,6,7,8,9,10,11,12,13,14],ymm2[31],ymm4[16,17,18,19,20,21,22,23,24,25,26,27,28,29,30]
	vpslldq	$1, %ymm2, %ymm2                # ymm2 = zero,ymm2[0,1,2,3,4,5,6,7,8,9,10,11,12,13,14],zero,ymm2[16,17,18,19,20,21,22,23,24,25,26,27,28,29,30]
	vpxor	%ymm2, %ymm3, %ymm2
	vmovdqu	256(%rsi), %ymm3
	vpshufb	%ymm1, %ymm3, %ymm1
	vpshufb	%ymm0, %ymm5, %ymm0
	vpxor	%ymm0, %ymm1, %ymm0
	vpalignr	$15, %ymm2, %ymm4, %ymm3        # ymm3 = ymm2[15],ymm4[0,1,2,3,4,5,6,7,8,9,10,11,12,13,14],ymm2[31],ymm4[16,17,18,19,20,21,22,23,24,25,26,27,28,29,30]
	vpslldq	$1, %ymm2, %ymm1                # ymm1 = zero,ymm2[0,1,2,3,4,5,6,7,8,9,10,11,12,13,14],zero,ymm2[16,17,18,19,20,21,22,23,24,25,26,27,28,29,30]
	vpxor	%ymm1, %ymm0, %ymm0
	vextracti128	$1, %ymm0, %xmm1
	vextracti128	$1, %ymm3, %xmm2
	vpalignr	$8, %xmm1, %xmm2, %xmm2         # xmm2 = xmm1[8,9,10,11,12,13,14,15],xmm2[0,1,2,3,4,5,6,7]
	vpxor	%xmm3, %xmm2, %xmm2
	vmovq	%xmm2, %rcx
	vpextrq	$1, %xmm2, %rax
	bswapq	%rax
	bswapq	%rcx
	movq	%rcx, %rdx
	movq	%rcx, %rsi
	movq	%rcx, %r8
	movq	%rcx, %r9
	movq	%rcx, %r10
	shrq	$7, %r10
	xorq	%rcx, %r10
	shldq	$63, %rax, %rcx
	shldq	$62, %rax, %rsi
	xorq	%rcx, %rsi
	vpslldq	$8, %xmm1, %xmm1                # xmm1 = zero,zero,zero,zero,zero,zero,zero,zero,xmm1[0,1,2,3,4,5,6,7]
	shrq	%rdx
	shrq	$2, %r8
	xorq	%rdx, %r8
	shldq	$57, %rax, %r9
	xorq	%rax, %r9
	xorq	%rsi, %r9
	xorq	%r8, %r10
	vmovq	%r9, %xmm2
	vmovq	%r10, %xmm3
	vpunpcklqdq	%xmm3, %xmm2, %xmm2     # xmm2 = xmm2[0],xmm3[0]
	vpshufb	.Lgcm_v3_CPI8_1(%rip), %xmm2, %xmm2    # xmm2 = xmm2[15,14,13,12,11,10,9,8,7,6,5,4,3,2,1,0]
	vpxor	%xmm0, %xmm1, %xmm0
	vpxor	%xmm2, %xmm0, %xmm0
	vmovdqu	%xmm0, (%rdi)
	vzeroupper
	retq
.Lgcm_v3_func_end8:
	.size	gcm_v3.gcm.multiples.Multiples.block_product, .Lgcm_v3_func_end8-gcm_v3.gcm.multiples.Multiples.block_product
                                        # -- End function
	.section	.rodata.cst32,"aM",@progbits,32
	.p2align	5, 0x0                          # -- Begin function gcm::multiples::Multiples::two_products
.Lgcm_v3_CPI9_0:
	.zero	32,15
	.section	.rodata.cst16,"aM",@progbits,16
	.p2align	4, 0x0
.Lgcm_v3_CPI9_1:
	.byte	15                              # 0xf
	.byte	14                              # 0xe
	.byte	13                              # 0xd
	.byte	12                              # 0xc
	.byte	11                              # 0xb
	.byte	10                              # 0xa
	.byte	9                               # 0x9
	.byte	8                               # 0x8
	.byte	7                               # 0x7
	.byte	6                               # 0x6
	.byte	5                               # 0x5
	.byte	4                               # 0x4
	.byte	3                               # 0x3
	.byte	2                               # 0x2
	.byte	1                               # 0x1
	.byte	0                               # 0x0
	.section	.rodata.cst4,"aM",@progbits,4
	.p2align	2, 0x0
.Lgcm_v3_CPI9_2:
	.zero	4,15
	.section	.text.gcm_v3.gcm.multiples.Multiples.two_products,"ax",@progbits
	.p2align	4
	.type	gcm_v3.gcm.multiples.Multiples.two_products,@function
gcm_v3.gcm.multiples.Multiples.two_products: # @gcm_v3.gcm.multiples.Multiples.two_products
# %bb.0:                                # %start
                                        # kill: def $xmm1 killed $xmm1 def $ymm1
                                        # kill: def $xmm0 killed $xmm0 def $ymm0
	vinserti128	$1, %xmm1, %ymm1, %ymm2
	vpsrlw	$4, %ymm2, %ymm1
	vpbroadcastd	.Lgcm_v3_CPI9_2(%rip), %ymm3   # ymm3 = [15,15,15,15,15,15,15,15,15,15,15,15,15,15,15,15,15,15,15,15,15,15,15,15,15,15,15,15,15,15,15,15]
	vpand	%ymm3, %ymm1, %ymm1
	vpand	%ymm3, %ymm2, %ymm2
	vinserti128	$1, %xmm0, %ymm0, %ymm4
	vpsrlw	$4, %ymm4, %ymm0
	vpand	%ymm3, %ymm0, %ymm0
	vpand	%ymm3, %ymm4, %ymm3
	vmovdqu	992(%rsi), %ymm4
	vpshufb	%ymm3, %ymm4, %ymm4
	vmovdqu	736(%rsi), %ymm5
	vpshufb	%ymm0, %ymm5, %ymm5
	vpxor	%ymm5, %ymm4, %ymm4
	vmovdqu	480(%rsi), %ymm5
	vpshufb	%ymm2, %ymm5, %ymm5
	vmovdqu	224(%rsi), %ymm6
	vpshufb	%ymm1, %ymm6, %ymm6
	vpxor	%ymm6, %ymm5, %ymm5
	vpxor	%ymm5, %ymm4, %ymm4
	vmovdqu	960(%rsi), %ymm5
	vpshufb	%ymm3, %ymm5, %ymm5
	vmovdqu	704(%rsi), %ymm6
	vpshufb	%ymm0, %ymm6, %ymm6
	vpxor	%ymm6, %ymm5, %ymm5
	vmovdqu	448(%rsi), %ymm6
	vpshufb	%ymm2, %ymm6, %ymm6
	vpxor	%ymm6, %ymm5, %ymm5
	vmovdqu	192(%rsi), %ymm6
	vpshufb	%ymm1, %ymm6, %ymm6
	vpxor	%ymm6, %ymm5, %ymm5
	vpsrldq	$15, %ymm4, %ymm6               # ymm6 = ymm4[15],zero,zero,zero,zero,zero,zero,zero,zero,zero,zero,zero,zero,zero,zero,zero,ymm4[31],zero,zero,zero,zero,zero,zero,zero,zero,zero,zero,zero,zero,zero,zero,zero
	vpslldq	$1, %ymm4, %ymm4                # ymm4 = zero,ymm4[0,1,2,3,4,5,6,7,8,9,10,11,12,13,14],zero,ymm4[16,17,18,19,20,21,22,23,24,25,26,27,28,29,30]
	vpxor	%ymm4, %ymm5, %ymm4
	vmovdqu	928(%rsi), %ymm5
	vpshufb	%ymm3, %ymm5, %ymm5
	vmovdqu	672(%rsi), %ymm7
	vpshufb	%ymm0, %ymm7, %ymm7
	vpxor	%ymm7, %ymm5, %ymm5
	vmovdqu	416(%rsi), %ymm7
	vpshufb	%ymm2, %ymm7, %ymm7
	vpxor	%ymm7, %ymm5, %ymm5
	vmovdqu	160(%rsi), %ymm7
	vpshufb	%ymm1, %ymm7, %ymm7
	vpxor	%ymm7, %ymm5, %ymm5
	vpalignr	$15, %ymm4, %ymm6, %ymm6        # ymm6 = ymm4[15],ymm6[0,1,2,3,4,5,6,7,8,9,10,11,12,13,14],ymm4[31],ymm6[16,17,18,19,20,21,22,23,24,25,26,27,28,29,30]
	vpslldq	$1, %ymm4, %ymm4                # ymm4 = zero,ymm4[0,1,2,3,4,5,6,7,8,9,10,11,12,13,14],zero,ymm4[16,17,18,19,20,21,22,23,24,25,26,27,28,29,30]
	vpxor	%ymm4, %ymm5, %ymm4
	vmovdqu	896(%rsi), %ymm5
	vpshufb	%ymm3, %ymm5, %ymm5
	vmovdqu	640(%rsi), %ymm7
	vpshufb	%ymm0, %ymm7, %ymm7
	vpxor	%ymm7, %ymm5, %ymm5
	vmovdqu	384(%rsi), %ymm7
	vpshufb	%ymm2, %ymm7, %ymm7
	vpxor	%ymm7, %ymm5, %ymm5
	vmovdqu	128(%rsi), %ymm7
	vpshufb	%ymm1, %ymm7, %ymm7
	vpxor	%ymm7, %ymm5, %ymm5
	vpalignr	$15, %ymm4, %ymm6, %ymm6        # ymm6 = ymm4[15],ymm6[0,1,2,3,4,5,6,7,8,9,10,11,12,13,14],ymm4[31],ymm6[16,17,18,19,20,21,22,23,24,25,26,27,28,29,30]
	vpslldq	$1, %ymm4, %ymm4                # ymm4 = zero,ymm4[0,1,2,3,4,5,6,7,8,9,10,11,12,13,14],zero,ymm4[16,17,18,19,20,21,22,23,24,25,26,27,28,29,30]
	vpxor	%ymm4, %ymm5, %ymm5
	vmovdqu	864(%rsi), %ymm4
	vpshufb	%ymm3, %ymm4, %ymm4
	vmovdqu	608(%rsi), %ymm7
	vpshufb	%ymm0, %ymm7, %ymm7
	vpxor	%ymm7, %ymm4, %ymm4
	vmovdqu	352(%rsi), %ymm7
	vpshufb	%ymm2, %ymm7, %ymm7
	vpxor	%ymm7, %ymm4, %ymm7
	vmovdqu	(%rsi), %ymm4
	vmovdqu	32(%rsi), %ymm8
	vmovdqu	64(%rsi), %ymm9
	vmovdqu	96(%rsi), %ymm10
	vpshufb	%ymm1, %ymm10, %ymm10
	vpxor	%ymm7, %ymm10, %ymm7
	vpalignr	$15, %ymm5, %ymm6, %ymm6        # ymm6 = ymm5[15],ymm6[0,1,2,3,4,5,6,7,8,9,10,11,12,13,14],ymm5[31],ymm6[16,17,18,19,20,21,22,23,24,25,26,27,28,29,30]
	vpslldq	$1, %ymm5, %ymm5                # ymm5 = zero,ymm5[0,1,2,3,4,5,6,7,8,9,10,11,12,13,14],zero,ymm5[16,17,18,19,20,21,22,23,24,25,26,27,28,29,30]
	vpxor	%ymm5, %ymm7, %ymm5
	vmovdqu	832(%rsi), %ymm7
	vpshufb	%ymm3, %ymm7, %ymm7
	vmovdqu	576(%rsi), %ymm10
	vpshufb	%ymm0, %ymm10, %ymm10
	vpxor	%ymm7, %ymm10, %ymm7
	vmovdqu	320(%rsi), %ymm10
	vpshufb	%ymm2, %ymm10, %ymm10
	vpxor	%ymm7, %ymm10, %ymm7
	vpshufb	%ymm1, %ymm9, %ymm9
	vpxor	%ymm7, %ymm9, %ymm7
	vpalignr	$15, %ymm5, %ymm6, %ymm6        # ymm6 = ymm5[15],ymm6[0,1,2,3,4,5,6,7,8,9,10,11,12,13,14],ymm5[31],ymm6[16,17,18,19,20,21,22,23,24,25,26,27,28,29,30]
	vpslldq	$1, %ymm5, %ymm5                # ymm5 = zero,ymm5[0,1,2,3,4,5,6,7,8,9,10,11,12,13,14],zero,ymm5[16,17,18,19,20,21,22,23,24,25,26,27,28,29,30]
	vpxor	%ymm5, %ymm7, %ymm5
	vmovdqu	800(%rsi), %ymm7
	vpshufb	%ymm3, %ymm7, %ymm7
	vmovdqu	544(%rsi), %ymm9
	vpshufb	%ymm0, %ymm9, %ymm9
	vpxor	%ymm7, %ymm9, %ymm7
	vmovdqu	288(%rsi), %ymm9
	vpshufb	%ymm2, %ymm9, %ymm9
	vpxor	%ymm7, %ymm9, %ymm7
	vpshufb	%ymm1, %ymm8, %ymm8
	vpxor	%ymm7, %ymm8, %ymm7
	vpalignr	$15, %ymm5, %ymm6, %ymm6        # ymm6 = ymm5[15],ymm6[0,1,2,3,4,5,6,7,8,9,10,11,12,13,14],ymm5[31],ymm6[16,17,18,19,20,21,22,23,24,25,26,27,28,29,30]
	vpslldq	$1, %ymm5, %ymm5                # ymm5 = zero,ymm5[0,1,2,3,4,5,6,7,8,9,10,11,12,13,14],zero,ymm5[16,17,18,19,20,21,22,23,24,25,26,27,28,29,30]
	vpxor	%ymm5, %ymm7, %ymm5
	vmovdqu	768(%rsi), %ymm7
	vpshufb	%ymm3, %ymm7, %ymm3
	vmovdqu	512(%rsi), %ymm7
	vpshufb	%ymm0, %ymm7, %ymm0
	vpxor	%ymm0, %ymm3, %ymm0
	vmovdqu	256(%rsi), %ymm3
	vpshufb	%ymm2, %ymm3, %ymm2
	vpxor	%ymm2, %ymm0, %ymm0
	vpshufb	%ymm1, %ymm4, %ymm1
	vpxor	%ymm1, %ymm0, %ymm0
	vpalignr	$15, %ymm5, %ymm6, %ymm2        # ymm2 = ymm5[15],ymm6[0,1,2,3,4,5,6,7,8,9,10,11,12,13,14],ymm5[31],ymm6[16,17,18,19,20,21,22,23,24,25,26,27,28,29,30]
	vpslldq	$1, %ymm5, %ymm1                # ymm1 = zero,ymm5[0,1,2,3,4,5,6,7,8,9,10,11,12,13,14],zero,ymm5[16,17,18,19,20,21,22,23,24,25,26,27,28,29,30]
	vpxor	%ymm1, %ymm0, %ymm0
	vextracti128	$1, %ymm0, %xmm1
	vextracti128	$1, %ymm2, %xmm3
	vpalignr	$8, %xmm1, %xmm3, %xmm3         # xmm3 = xmm1[8,9,10,11,12,13,14,15],xmm3[0,1,2,3,4,5,6,7]
	vpxor	%xmm2, %xmm3, %xmm2
	vmovq	%xmm2, %rcx
	vpextrq	$1, %xmm2, %rax
	bswapq	%rax
	bswapq	%rcx
	movq	%rcx, %rdx
	movq	%rcx, %rsi
	movq	%rcx, %r8
	movq	%rcx, %r9
	movq	%rcx, %r10
	shrq	$7, %r10
	xorq	%rcx, %r10
	shldq	$63, %rax, %rcx
	shldq	$62, %rax, %rsi
	xorq	%rcx, %rsi
	vpslldq	$8, %xmm1, %xmm1                # xmm1 = zero,zero,zero,zero,zero,zero,zero,zero,xmm1[0,1,2,3,4,5,6,7]
	shrq	%rdx
	shrq	$2, %r8
	xorq	%rdx, %r8
	shldq	$57, %rax, %r9
	xorq	%rax, %r9
	xorq	%rsi, %r9
	xorq	%r8, %r10
	vmovq	%r9, %xmm2
	vmovq	%r10, %xmm3
	vpunpcklqdq	%xmm3, %xmm2, %xmm2     # xmm2 = xmm2[0],xmm3[0]
	vpshufb	.Lgcm_v3_CPI9_1(%rip), %xmm2, %xmm2    # xmm2 = xmm2[15,14,13,12,11,10,9,8,7,6,5,4,3,2,1,0]
	vpxor	%xmm0, %xmm1, %xmm0
	vpxor	%xmm2, %xmm0, %xmm0
	vmovdqu	%xmm0, (%rdi)
	vzeroupper
	retq
.Lgcm_v3_func_end9:
	.size	gcm_v3.gcm.multiples.Multiples.two_products, .Lgcm_v3_func_end9-gcm_v3.gcm.multiples.Multiples.two_products
                                        # -- End function
	.section	.text.gcm_v3.aes_cipher.zeroize.stack.wipe_stack.512,"ax",@progbits
	.p2align	4                               # -- Begin function aes_cipher::zeroize::stack::wipe_stack::<=512>
	.type	gcm_v3.aes_cipher.zeroize.stack.wipe_stack.512,@function
gcm_v3.aes_cipher.zeroize.stack.wipe_stack.512: # @gcm_v3.aes_cipher.zeroize.stack.wipe_stack.512
# %bb.0:                                # %start
	subq	$408, %rsp                      # imm = 0x198
	vxorps	%xmm0, %xmm0, %xmm0
	vmovups	%ymm0, 368(%rsp)
	vmovups	%ymm0, 336(%rsp)
	vmovups	%ymm0, 304(%rsp)
	vmovups	%ymm0, 272(%rsp)
	vmovups	%ymm0, 240(%rsp)
	vmovups	%ymm0, 208(%rsp)
	vmovups	%ymm0, 176(%rsp)
	vmovups	%ymm0, 144(%rsp)
	vmovups	%ymm0, 112(%rsp)
	vmovups	%ymm0, 80(%rsp)
	vmovups	%ymm0, 48(%rsp)
	vmovups	%ymm0, 16(%rsp)
	vmovups	%ymm0, -16(%rsp)
	vmovups	%ymm0, -48(%rsp)
	vmovups	%ymm0, -80(%rsp)
	vmovups	%ymm0, -112(%rsp)
	movq	$0, -120(%rsp)
	#APP
	#NO_APP
	movq	-120(%rsp), %rax
	#APP
	#NO_APP
	cmpq	$512, %rax                      # imm = 0x200
	jae	.Lgcm_v3_BB10_2
# %bb.1:                                # %then.1
	movzbl	-112(%rsp,%rax), %eax
	#APP
	#NO_APP
	xchgq	%rax, -120(%rsp)
	#APP
	#NO_APP
.Lgcm_v3_BB10_2:                               # %common.ret
	addq	$408, %rsp                      # imm = 0x198
	vzeroupper
	retq
.Lgcm_v3_func_end10:
	.size	gcm_v3.aes_cipher.zeroize.stack.wipe_stack.512, .Lgcm_v3_func_end10-gcm_v3.aes_cipher.zeroize.stack.wipe_stack.512
                                        # -- End function
	.section	.rodata.cst32,"aM",@progbits,32
	.p2align	5, 0x0                          # -- Begin function gcm::mode::BorrowedGcm::put_tag_so_far::<#8da2abccd8f5ef8c>
.Lgcm_v3_CPI11_0:
	.quad	43                              # 0x2b
	.quad	27                              # 0x1b
	.quad	11                              # 0xb
	.quad	59                              # 0x3b
.Lgcm_v3_CPI11_1:
	.quad	5                               # 0x5
	.quad	21                              # 0x15
	.quad	37                              # 0x25
	.quad	53                              # 0x35
.Lgcm_v3_CPI11_2:
	.byte	0                               # 0x0
	.byte	0                               # 0x0
	.byte	0                               # 0x0
	.byte	255                             # 0xff
	.byte	0                               # 0x0
	.byte	0                               # 0x0
	.byte	0                               # 0x0
	.byte	0                               # 0x0
	.byte	0                               # 0x0
	.byte	0                               # 0x0
	.byte	255                             # 0xff
	.byte	0                               # 0x0
	.byte	0                               # 0x0
	.byte	0                               # 0x0
	.byte	0                               # 0x0
	.byte	0                               # 0x0
	.byte	0                               # 0x0
	.byte	255                             # 0xff
	.byte	0                               # 0x0
	.byte	0                               # 0x0
	.byte	0                               # 0x0
	.byte	0                               # 0x0
	.byte	0                               # 0x0
	.byte	0                               # 0x0
	.byte	255                             # 0xff
	.byte	255                             # 0xff
	.byte	255                             # 0xff
	.byte	255                             # 0xff
	.byte	255                             # 0xff
	.byte	255                             # 0xff
	.byte	255                             # 0xff
	.byte	255                             # 0xff
.Lgcm_v3_CPI11_3:
	.byte	0                               # 0x0
	.byte	0                               # 0x0
	.byte	0                               # 0x0
	.byte	0                               # 0x0
	.byte	0                               # 0x0
	.byte	0                               # 0x0
	.byte	255                             # 0xff
	.byte	0                               # 0x0
	.byte	0                               # 0x0
	.byte	0                               # 0x0
	.byte	0                               # 0x0
	.byte	0                               # 0x0
	.byte	0                               # 0x0
	.byte	255                             # 0xff
	.byte	0                               # 0x0
	.byte	0                               # 0x0
	.byte	0                               # 0x0
	.byte	0                               # 0x0
	.byte	0                               # 0x0
	.byte	0                               # 0x0
	.byte	255                             # 0xff
	.byte	0                               # 0x0
	.byte	0                               # 0x0
	.byte	0                               # 0x0
	.byte	255                             # 0xff
	.byte	255                             # 0xff
	.byte	255                             # 0xff
	.byte	255                             # 0xff
	.byte	255                             # 0xff
	.byte	255                             # 0xff
	.byte	255                             # 0xff
	.byte	255                             # 0xff
	.section	.rodata.cst16,"aM",@progbits,16
	.p2align	4, 0x0
.Lgcm_v3_CPI11_4:
	.byte	15                              # 0xf
	.byte	14                              # 0xe
	.byte	13                              # 0xd
	.byte	12                              # 0xc
	.byte	11                              # 0xb
	.byte	10                              # 0xa
	.byte	9                               # 0x9
	.byte	8                               # 0x8
	.byte	7                               # 0x7
	.byte	6                               # 0x6
	.byte	5                               # 0x5
	.byte	4                               # 0x4
	.byte	3                               # 0x3
	.byte	2                               # 0x2
	.byte	1                               # 0x1
	.byte	0                               # 0x0
	.section	.text.gcm_v3.gcm.mode.BorrowedGcm.put_tag_so_far,"ax",@progbits
	.p2align	4
	.type	gcm_v3.gcm.mode.BorrowedGcm.put_tag_so_far,@function
gcm_v3.gcm.mode.BorrowedGcm.put_tag_so_far: # @gcm_v3.gcm.mode.BorrowedGcm.put_tag_so_far
# %bb.0:                                # %start
	pushq	%r15
	pushq	%r14
	pushq	%rbx
	subq	$16, %rsp
	movq	%rdx, %rbx
	movq	%rsi, %r15
	movq	%rdi, %r14
	addq	$32, %rsi
	callq	gcm_v3.gcm.tags.put_mask
	movq	32(%r14), %rdi
	movq	%r15, %rsi
	callq	gcm_v3.gcm.mode.BorrowedGcm.hash_so_far
	movq	(%r15), %rcx
	movq	8(%r15), %rsi
	movabsq	$2305843009213693951, %rdi      # imm = 0x1FFFFFFFFFFFFFFF
	cmpq	%rdi, %rcx
	cmovbq	%rcx, %rdi
	movabsq	$68719476704, %rcx              # imm = 0xFFFFFFFE0
	cmpq	%rcx, %rsi
	cmovbq	%rsi, %rcx
	vmovq	%rdi, %xmm0
	vpbroadcastq	%xmm0, %ymm0
	vpsllvq	.Lgcm_v3_CPI11_0(%rip), %ymm0, %ymm1
	vpsrlvq	.Lgcm_v3_CPI11_1(%rip), %ymm0, %ymm0
	vpand	.Lgcm_v3_CPI11_2(%rip), %ymm0, %ymm0
	movq	32(%r14), %rsi
	vpand	.Lgcm_v3_CPI11_3(%rip), %ymm1, %ymm1
	vpor	%ymm0, %ymm1, %ymm0
	vextracti128	$1, %ymm0, %xmm1
	vpor	%xmm1, %xmm0, %xmm0
	vpshufd	$238, %xmm0, %xmm1              # xmm1 = xmm0[2,3,2,3]
	vpor	%xmm1, %xmm0, %xmm0
	vmovq	%xmm0, %rdi
	movq	%rcx, %r8
	shlq	$59, %r8
	movl	%ecx, %r9d
	andl	$8160, %r9d                     # imm = 0x1FE0
	shlq	$43, %r9
	orq	%r8, %r9
	movl	%ecx, %r8d
	andl	$2088960, %r8d                  # imm = 0x1FE000
	shlq	$27, %r8
	orq	%r9, %r8
	movl	%ecx, %r9d
	andl	$534773760, %r9d                # imm = 0x1FE00000
	shlq	$11, %r9
	orq	%r8, %r9
	shrq	$5, %rcx
	andl	$2130706432, %ecx               # imm = 0x7F000000
	orq	%r9, %rcx
	bswapq	%rdi
	bswapq	%rcx
	xorq	%rdx, %rdi
	xorq	%rax, %rcx
	vpxor	%xmm0, %xmm0, %xmm0
	vmovdqa	%xmm0, (%rsp)
	vmovq	%rdi, %xmm0
	vmovq	%rcx, %xmm1
	vpunpcklqdq	%xmm0, %xmm1, %xmm0     # xmm0 = xmm1[0],xmm0[0]
	vpshufb	.Lgcm_v3_CPI11_4(%rip), %xmm0, %xmm0   # xmm0 = xmm0[15,14,13,12,11,10,9,8,7,6,5,4,3,2,1,0]
	movq	%rsp, %rdi
	vzeroupper
	callq	gcm_v3.gcm.multiples.Multiples.block_product
	movbeq	8(%rsp), %rax
	movbeq	(%rsp), %rcx
	vmovq	%rcx, %xmm0
	vmovq	%rax, %xmm1
	vpunpcklqdq	%xmm0, %xmm1, %xmm0     # xmm0 = xmm1[0],xmm0[0]
	vpshufb	.Lgcm_v3_CPI11_4(%rip), %xmm0, %xmm0   # xmm0 = xmm0[15,14,13,12,11,10,9,8,7,6,5,4,3,2,1,0]
	vpxor	(%rbx), %xmm0, %xmm0
	vmovdqu	%xmm0, (%rbx)
	addq	$16, %rsp
	popq	%rbx
	popq	%r14
	popq	%r15
	retq
.Lgcm_v3_func_end11:
	.size	gcm_v3.gcm.mode.BorrowedGcm.put_tag_so_far, .Lgcm_v3_func_end11-gcm_v3.gcm.mode.BorrowedGcm.put_tag_so_far
                                        # -- End function
	.section	.rodata.cst16,"aM",@progbits,16
	.p2align	4, 0x0                          # -- Begin function gcm::tags::put_mask::<#9afc0f8057cec37b>
.Lgcm_v3_CPI12_0:
	.zero	16,15
.Lgcm_v3_CPI12_1:
	.byte	0                               # 0x0
	.byte	1                               # 0x1
	.byte	28                              # 0x1c
	.byte	29                              # 0x1d
	.byte	45                              # 0x2d
	.byte	44                              # 0x2c
	.byte	49                              # 0x31
	.byte	48                              # 0x30
	.byte	39                              # 0x27
	.byte	38                              # 0x26
	.byte	59                              # 0x3b
	.byte	58                              # 0x3a
	.byte	10                              # 0xa
	.byte	11                              # 0xb
	.byte	22                              # 0x16
	.byte	23                              # 0x17
.Lgcm_v3_CPI12_2:
	.byte	0                               # 0x0
	.byte	134                             # 0x86
	.byte	253                             # 0xfd
	.byte	123                             # 0x7b
	.byte	142                             # 0x8e
	.byte	8                               # 0x8
	.byte	115                             # 0x73
	.byte	245                             # 0xf5
	.byte	119                             # 0x77
	.byte	241                             # 0xf1
	.byte	138                             # 0x8a
	.byte	12                              # 0xc
	.byte	249                             # 0xf9
	.byte	127                             # 0x7f
	.byte	4                               # 0x4
	.byte	130                             # 0x82
.Lgcm_v3_CPI12_3:
	.byte	128                             # 0x80
	.byte	2                               # 0x2
	.byte	1                               # 0x1
	.byte	15                              # 0xf
	.byte	9                               # 0x9
	.byte	5                               # 0x5
	.byte	14                              # 0xe
	.byte	12                              # 0xc
	.byte	13                              # 0xd
	.byte	4                               # 0x4
	.byte	11                              # 0xb
	.byte	10                              # 0xa
	.byte	7                               # 0x7
	.byte	8                               # 0x8
	.byte	6                               # 0x6
	.byte	3                               # 0x3
.Lgcm_v3_CPI12_4:
	.byte	128                             # 0x80
	.byte	1                               # 0x1
	.byte	9                               # 0x9
	.byte	14                              # 0xe
	.byte	13                              # 0xd
	.byte	11                              # 0xb
	.byte	7                               # 0x7
	.byte	6                               # 0x6
	.byte	15                              # 0xf
	.byte	2                               # 0x2
	.byte	12                              # 0xc
	.byte	5                               # 0x5
	.byte	10                              # 0xa
	.byte	4                               # 0x4
	.byte	3                               # 0x3
	.byte	8                               # 0x8
.Lgcm_v3_CPI12_5:
	.byte	0                               # 0x0
	.byte	195                             # 0xc3
	.byte	79                              # 0x4f
	.byte	12                              # 0xc
	.byte	252                             # 0xfc
	.byte	124                             # 0x7c
	.byte	67                              # 0x43
	.byte	128                             # 0x80
	.byte	207                             # 0xcf
	.byte	51                              # 0x33
	.byte	63                              # 0x3f
	.byte	112                             # 0x70
	.byte	191                             # 0xbf
	.byte	179                             # 0xb3
	.byte	240                             # 0xf0
	.byte	140                             # 0x8c
.Lgcm_v3_CPI12_6:
	.byte	0                               # 0x0
	.byte	230                             # 0xe6
	.byte	114                             # 0x72
	.byte	183                             # 0xb7
	.byte	229                             # 0xe5
	.byte	198                             # 0xc6
	.byte	197                             # 0xc5
	.byte	35                              # 0x23
	.byte	81                              # 0x51
	.byte	180                             # 0xb4
	.byte	3                               # 0x3
	.byte	113                             # 0x71
	.byte	32                              # 0x20
	.byte	151                             # 0x97
	.byte	82                              # 0x52
	.byte	148                             # 0x94
.Lgcm_v3_CPI12_7:
	.byte	0                               # 0x0
	.byte	124                             # 0x7c
	.byte	32                              # 0x20
	.byte	207                             # 0xcf
	.byte	146                             # 0x92
	.byte	1                               # 0x1
	.byte	239                             # 0xef
	.byte	147                             # 0x93
	.byte	179                             # 0xb3
	.byte	33                              # 0x21
	.byte	238                             # 0xee
	.byte	206                             # 0xce
	.byte	125                             # 0x7d
	.byte	178                             # 0xb2
	.byte	93                              # 0x5d
	.byte	92                              # 0x5c
.Lgcm_v3_CPI12_8:
	.byte	0                               # 0x0
	.byte	209                             # 0xd1
	.byte	229                             # 0xe5
	.byte	247                             # 0xf7
	.byte	230                             # 0xe6
	.byte	37                              # 0x25
	.byte	18                              # 0x12
	.byte	195                             # 0xc3
	.byte	38                              # 0x26
	.byte	192                             # 0xc0
	.byte	55                              # 0x37
	.byte	210                             # 0xd2
	.byte	244                             # 0xf4
	.byte	3                               # 0x3
	.byte	17                              # 0x11
	.byte	52                              # 0x34
.Lgcm_v3_CPI12_9:
	.byte	0                               # 0x0
	.byte	203                             # 0xcb
	.byte	215                             # 0xd7
	.byte	176                             # 0xb0
	.byte	33                              # 0x21
	.byte	141                             # 0x8d
	.byte	103                             # 0x67
	.byte	172                             # 0xac
	.byte	123                             # 0x7b
	.byte	90                              # 0x5a
	.byte	234                             # 0xea
	.byte	61                              # 0x3d
	.byte	70                              # 0x46
	.byte	246                             # 0xf6
	.byte	145                             # 0x91
	.byte	28                              # 0x1c
.Lgcm_v3_CPI12_10:
	.byte	0                               # 0x0
	.byte	159                             # 0x9f
	.byte	97                              # 0x61
	.byte	22                              # 0x16
	.byte	194                             # 0xc2
	.byte	42                              # 0x2a
	.byte	119                             # 0x77
	.byte	232                             # 0xe8
	.byte	137                             # 0x89
	.byte	75                              # 0x4b
	.byte	93                              # 0x5d
	.byte	60                              # 0x3c
	.byte	181                             # 0xb5
	.byte	163                             # 0xa3
	.byte	212                             # 0xd4
	.byte	254                             # 0xfe
	.section	.rodata.cst4,"aM",@progbits,4
	.p2align	2, 0x0
.Lgcm_v3_CPI12_11:
	.zero	4,15
	.section	.text.gcm_v3.gcm.tags.put_mask,"ax",@progbits
	.p2align	4
	.type	gcm_v3.gcm.tags.put_mask,@function
gcm_v3.gcm.tags.put_mask: # @gcm_v3.gcm.tags.put_mask
# %bb.0:                                # %start
	vmovdqu	(%rsi), %xmm0
	vmovdqu	%xmm0, (%rdx)
	movq	16(%rdi), %rax
	movq	24(%rdi), %rsi
	leaq	-1(%rsi), %rcx
	vpxor	(%rax), %xmm0, %xmm1
	vpbroadcastd	.Lgcm_v3_CPI12_11(%rip), %xmm0 # xmm0 = [15,15,15,15,15,15,15,15,15,15,15,15,15,15,15,15]
	vpand	%xmm0, %xmm1, %xmm2
	vmovdqa	.Lgcm_v3_CPI12_1(%rip), %xmm3          # xmm3 = [0,1,28,29,45,44,49,48,39,38,59,58,10,11,22,23]
	vpshufb	%xmm2, %xmm3, %xmm2
	vpsrlw	$4, %xmm1, %xmm1
	vpand	%xmm0, %xmm1, %xmm1
	vmovdqa	.Lgcm_v3_CPI12_2(%rip), %xmm3          # xmm3 = [0,134,253,123,142,8,115,245,119,241,138,12,249,127,4,130]
	vpshufb	%xmm1, %xmm3, %xmm1
	vpxor	%xmm2, %xmm1, %xmm1
	cmpq	$2, %rcx
	jb	.Lgcm_v3_BB12_3
# %bb.1:                                # %join.5.i.preheader
	addq	$-2, %rsi
	movl	$16, %edi
	.p2align	4
.Lgcm_v3_BB12_2:                               # %join.5.i
                                        # =>This Inner Loop Header: Depth=1
	vpsrlw	$4, %xmm1, %xmm2
	vpand	%xmm0, %xmm2, %xmm2
	vpand	%xmm0, %xmm1, %xmm1
	vpxor	%xmm1, %xmm2, %xmm3
	vmovdqa	.Lgcm_v3_CPI12_3(%rip), %xmm4          # xmm4 = [128,2,1,15,9,5,14,12,13,4,11,10,7,8,6,3]
	vpshufb	%xmm1, %xmm4, %xmm1
	vmovdqa	.Lgcm_v3_CPI12_4(%rip), %xmm4          # xmm4 = [128,1,9,14,13,11,7,6,15,2,12,5,10,4,3,8]
	vpshufb	%xmm2, %xmm4, %xmm5
	vpshufb	%xmm3, %xmm4, %xmm6
	vpxor	%xmm1, %xmm5, %xmm5
	vpxor	%xmm1, %xmm6, %xmm1
	vpshufb	%xmm5, %xmm4, %xmm5
	vpshufb	%xmm1, %xmm4, %xmm1
	vpxor	%xmm3, %xmm5, %xmm3
	vpxor	%xmm2, %xmm1, %xmm1
	vmovdqa	.Lgcm_v3_CPI12_5(%rip), %xmm2          # xmm2 = [0,195,79,12,252,124,67,128,207,51,63,112,191,179,240,140]
	vpshufb	%xmm3, %xmm2, %xmm2
	vmovdqa	.Lgcm_v3_CPI12_6(%rip), %xmm4          # xmm4 = [0,230,114,183,229,198,197,35,81,180,3,113,32,151,82,148]
	vpshufb	%xmm1, %xmm4, %xmm4
	vpxor	%xmm2, %xmm4, %xmm2
	vmovdqa	.Lgcm_v3_CPI12_7(%rip), %xmm4          # xmm4 = [0,124,32,207,146,1,239,147,179,33,238,206,125,178,93,92]
	vpshufb	%xmm3, %xmm4, %xmm3
	vmovdqa	.Lgcm_v3_CPI12_8(%rip), %xmm4          # xmm4 = [0,209,229,247,230,37,18,195,38,192,55,210,244,3,17,52]
	vpshufb	%xmm1, %xmm4, %xmm1
	vpxor	%xmm3, %xmm1, %xmm1
	movl	%edi, %r8d
	andl	$48, %r8d
	leaq	.Lgcm_v3_static.5(%rip), %r9
	vmovdqu	(%r8,%r9), %xmm3
	vpshufb	%xmm3, %xmm2, %xmm4
	vpxor	%xmm4, %xmm1, %xmm1
	vpshufb	%xmm3, %xmm1, %xmm3
	leaq	.Lgcm_v3_static.6(%rip), %r9
	vpshufb	(%r8,%r9), %xmm2, %xmm2
	vpxor	(%rax,%rdi), %xmm3, %xmm3
	vpxor	%xmm1, %xmm2, %xmm1
	vpxor	%xmm1, %xmm3, %xmm1
	addq	$16, %rdi
	decq	%rsi
	jne	.Lgcm_v3_BB12_2
.Lgcm_v3_BB12_3:                               # %"aes_permute::blocks::process_vector::<#06aaae76f5856d0a>.exit"
	shlq	$4, %rcx
	vpsrlw	$4, %xmm1, %xmm2
	vpand	%xmm0, %xmm2, %xmm2
	vpand	%xmm0, %xmm1, %xmm0
	vpxor	%xmm0, %xmm2, %xmm1
	vmovdqa	.Lgcm_v3_CPI12_3(%rip), %xmm3          # xmm3 = [128,2,1,15,9,5,14,12,13,4,11,10,7,8,6,3]
	vpshufb	%xmm0, %xmm3, %xmm0
	vmovdqa	.Lgcm_v3_CPI12_4(%rip), %xmm3          # xmm3 = [128,1,9,14,13,11,7,6,15,2,12,5,10,4,3,8]
	vpshufb	%xmm2, %xmm3, %xmm4
	vpshufb	%xmm1, %xmm3, %xmm5
	vpxor	%xmm0, %xmm4, %xmm4
	vpxor	%xmm0, %xmm5, %xmm0
	vpshufb	%xmm4, %xmm3, %xmm4
	vpshufb	%xmm0, %xmm3, %xmm0
	vpxor	%xmm1, %xmm4, %xmm1
	vpxor	%xmm2, %xmm0, %xmm0
	vmovdqa	.Lgcm_v3_CPI12_9(%rip), %xmm2          # xmm2 = [0,203,215,176,33,141,103,172,123,90,234,61,70,246,145,28]
	vpshufb	%xmm1, %xmm2, %xmm1
	vmovdqa	.Lgcm_v3_CPI12_10(%rip), %xmm2         # xmm2 = [0,159,97,22,194,42,119,232,137,75,93,60,181,163,212,254]
	vpshufb	%xmm0, %xmm2, %xmm0
	vpxor	%xmm1, %xmm0, %xmm0
	movl	%ecx, %esi
	andl	$48, %esi
	leaq	.Lgcm_v3_static.3(%rip), %rdi
	vpshufb	(%rsi,%rdi), %xmm0, %xmm0
	vpxor	(%rax,%rcx), %xmm0, %xmm0
	vmovdqu	%xmm0, (%rdx)
	retq
.Lgcm_v3_func_end12:
	.size	gcm_v3.gcm.tags.put_mask, .Lgcm_v3_func_end12-gcm_v3.gcm.tags.put_mask
                                        # -- End function
	.section	.text.gcm_v3.gcm.mode.BorrowedGcm.hash_so_far,"ax",@progbits
	.p2align	4                               # -- Begin function gcm::mode::BorrowedGcm::hash_so_far::<#8da2abccd8f5ef8c>
	.type	gcm_v3.gcm.mode.BorrowedGcm.hash_so_far,@function
gcm_v3.gcm.mode.BorrowedGcm.hash_so_far: # @gcm_v3.gcm.mode.BorrowedGcm.hash_so_far
# %bb.0:                                # %start
	xorl	%eax, %eax
	cmpq	$1, 24(%rsi)
	setne	%al
	movq	(%rsi,%rax,8), %r8
	movbeq	56(%rsi), %rax
	andl	$15, %r8d
	movbeq	48(%rsi), %rdx
	leaq	64(%rsi), %rcx
	movq	%rax, %rsi
	jmp	gcm_v3.gcm.hash_room.MultiplesRoomHashRoom.hash_on # TAILCALL
.Lgcm_v3_func_end13:
	.size	gcm_v3.gcm.mode.BorrowedGcm.hash_so_far, .Lgcm_v3_func_end13-gcm_v3.gcm.mode.BorrowedGcm.hash_so_far
                                        # -- End function
	.section	.rodata.cst16,"aM",@progbits,16
	.p2align	4, 0x0                          # -- Begin function gcm::mode::put_subkey::<#4752aab7f8bc6a8b>
.Lgcm_v3_CPI14_0:
	.zero	16,15
.Lgcm_v3_CPI14_1:
	.byte	0                               # 0x0
	.byte	1                               # 0x1
	.byte	28                              # 0x1c
	.byte	29                              # 0x1d
	.byte	45                              # 0x2d
	.byte	44                              # 0x2c
	.byte	49                              # 0x31
	.byte	48                              # 0x30
	.byte	39                              # 0x27
	.byte	38                              # 0x26
	.byte	59                              # 0x3b
	.byte	58                              # 0x3a
	.byte	10                              # 0xa
	.byte	11                              # 0xb
	.byte	22                              # 0x16
	.byte	23                              # 0x17
.Lgcm_v3_CPI14_2:
	.byte	0                               # 0x0
	.byte	134                             # 0x86
	.byte	253                             # 0xfd
	.byte	123                             # 0x7b
	.byte	142                             # 0x8e
	.byte	8                               # 0x8
	.byte	115                             # 0x73
	.byte	245                             # 0xf5
	.byte	119                             # 0x77
	.byte	241                             # 0xf1
	.byte	138                             # 0x8a
	.byte	12                              # 0xc
	.byte	249                             # 0xf9
	.byte	127                             # 0x7f
	.byte	4                               # 0x4
	.byte	130                             # 0x82
.Lgcm_v3_CPI14_3:
	.byte	128                             # 0x80
	.byte	2                               # 0x2
	.byte	1                               # 0x1
	.byte	15                              # 0xf
	.byte	9                               # 0x9
	.byte	5                               # 0x5
	.byte	14                              # 0xe
	.byte	12                              # 0xc
	.byte	13                              # 0xd
	.byte	4                               # 0x4
	.byte	11                              # 0xb
	.byte	10                              # 0xa
	.byte	7                               # 0x7
	.byte	8                               # 0x8
	.byte	6                               # 0x6
	.byte	3                               # 0x3
.Lgcm_v3_CPI14_4:
	.byte	128                             # 0x80
	.byte	1                               # 0x1
	.byte	9                               # 0x9
	.byte	14                              # 0xe
	.byte	13                              # 0xd
	.byte	11                              # 0xb
	.byte	7                               # 0x7
	.byte	6                               # 0x6
	.byte	15                              # 0xf
	.byte	2                               # 0x2
	.byte	12                              # 0xc
	.byte	5                               # 0x5
	.byte	10                              # 0xa
	.byte	4                               # 0x4
	.byte	3                               # 0x3
	.byte	8                               # 0x8
.Lgcm_v3_CPI14_5:
	.byte	0                               # 0x0
	.byte	195                             # 0xc3
	.byte	79                              # 0x4f
	.byte	12                              # 0xc
	.byte	252                             # 0xfc
	.byte	124                             # 0x7c
	.byte	67                              # 0x43
	.byte	128                             # 0x80
	.byte	207                             # 0xcf
	.byte	51                              # 0x33
	.byte	63                              # 0x3f
	.byte	112                             # 0x70
	.byte	191                             # 0xbf
	.byte	179                             # 0xb3
	.byte	240                             # 0xf0
	.byte	140                             # 0x8c
.Lgcm_v3_CPI14_6:
	.byte	0                               # 0x0
	.byte	230                             # 0xe6
	.byte	114                             # 0x72
	.byte	183                             # 0xb7
	.byte	229                             # 0xe5
	.byte	198                             # 0xc6
	.byte	197                             # 0xc5
	.byte	35                              # 0x23
	.byte	81                              # 0x51
	.byte	180                             # 0xb4
	.byte	3                               # 0x3
	.byte	113                             # 0x71
	.byte	32                              # 0x20
	.byte	151                             # 0x97
	.byte	82                              # 0x52
	.byte	148                             # 0x94
.Lgcm_v3_CPI14_7:
	.byte	0                               # 0x0
	.byte	124                             # 0x7c
	.byte	32                              # 0x20
	.byte	207                             # 0xcf
	.byte	146                             # 0x92
	.byte	1                               # 0x1
	.byte	239                             # 0xef
	.byte	147                             # 0x93
	.byte	179                             # 0xb3
	.byte	33                              # 0x21
	.byte	238                             # 0xee
	.byte	206                             # 0xce
	.byte	125                             # 0x7d
	.byte	178                             # 0xb2
	.byte	93                              # 0x5d
	.byte	92                              # 0x5c
.Lgcm_v3_CPI14_8:
	.byte	0                               # 0x0
	.byte	209                             # 0xd1
	.byte	229                             # 0xe5
	.byte	247                             # 0xf7
	.byte	230                             # 0xe6
	.byte	37                              # 0x25
	.byte	18                              # 0x12
	.byte	195                             # 0xc3
	.byte	38                              # 0x26
	.byte	192                             # 0xc0
	.byte	55                              # 0x37
	.byte	210                             # 0xd2
	.byte	244                             # 0xf4
	.byte	3                               # 0x3
	.byte	17                              # 0x11
	.byte	52                              # 0x34
.Lgcm_v3_CPI14_9:
	.byte	0                               # 0x0
	.byte	203                             # 0xcb
	.byte	215                             # 0xd7
	.byte	176                             # 0xb0
	.byte	33                              # 0x21
	.byte	141                             # 0x8d
	.byte	103                             # 0x67
	.byte	172                             # 0xac
	.byte	123                             # 0x7b
	.byte	90                              # 0x5a
	.byte	234                             # 0xea
	.byte	61                              # 0x3d
	.byte	70                              # 0x46
	.byte	246                             # 0xf6
	.byte	145                             # 0x91
	.byte	28                              # 0x1c
.Lgcm_v3_CPI14_10:
	.byte	0                               # 0x0
	.byte	159                             # 0x9f
	.byte	97                              # 0x61
	.byte	22                              # 0x16
	.byte	194                             # 0xc2
	.byte	42                              # 0x2a
	.byte	119                             # 0x77
	.byte	232                             # 0xe8
	.byte	137                             # 0x89
	.byte	75                              # 0x4b
	.byte	93                              # 0x5d
	.byte	60                              # 0x3c
	.byte	181                             # 0xb5
	.byte	163                             # 0xa3
	.byte	212                             # 0xd4
	.byte	254                             # 0xfe
	.section	.rodata.cst4,"aM",@progbits,4
	.p2align	2, 0x0
.Lgcm_v3_CPI14_11:
	.zero	4,15
	.section	.text.gcm_v3.gcm.mode.put_subkey,"ax",@progbits
	.p2align	4
	.type	gcm_v3.gcm.mode.put_subkey,@function
gcm_v3.gcm.mode.put_subkey: # @gcm_v3.gcm.mode.put_subkey
# %bb.0:                                # %start
	pushq	%rbp
	pushq	%r15
	pushq	%r14
	pushq	%r13
	pushq	%r12
	pushq	%rbx
	subq	$24, %rsp
	movq	%rdx, %rbx
	vxorps	%xmm0, %xmm0, %xmm0
	vmovaps	%xmm0, (%rsp)
	leaq	-1(%rsi), %rax
	vmovdqu	(%rdi), %xmm1
	vpbroadcastd	.Lgcm_v3_CPI14_11(%rip), %xmm0 # xmm0 = [15,15,15,15,15,15,15,15,15,15,15,15,15,15,15,15]
	vpand	%xmm0, %xmm1, %xmm2
	vmovdqa	.Lgcm_v3_CPI14_1(%rip), %xmm3          # xmm3 = [0,1,28,29,45,44,49,48,39,38,59,58,10,11,22,23]
	vpshufb	%xmm2, %xmm3, %xmm2
	vpsrlw	$4, %xmm1, %xmm1
	vpand	%xmm0, %xmm1, %xmm1
	vmovdqa	.Lgcm_v3_CPI14_2(%rip), %xmm3          # xmm3 = [0,134,253,123,142,8,115,245,119,241,138,12,249,127,4,130]
	vpshufb	%xmm1, %xmm3, %xmm1
	vpxor	%xmm2, %xmm1, %xmm1
	cmpq	$2, %rax
	jb	.Lgcm_v3_BB14_3
# %bb.1:                                # %join.5.i.preheader
	addq	$-2, %rsi
	movl	$16, %ecx
	.p2align	4
.Lgcm_v3_BB14_2:                               # %join.5.i
                                        # =>This Inner Loop Header: Depth=1
	vpsrlw	$4, %xmm1, %xmm2
	vpand	%xmm0, %xmm2, %xmm2
	vpand	%xmm0, %xmm1, %xmm1
	vpxor	%xmm1, %xmm2, %xmm3
	vmovdqa	.Lgcm_v3_CPI14_3(%rip), %xmm4          # xmm4 = [128,2,1,15,9,5,14,12,13,4,11,10,7,8,6,3]
	vpshufb	%xmm1, %xmm4, %xmm1
	vmovdqa	.Lgcm_v3_CPI14_4(%rip), %xmm4          # xmm4 = [128,1,9,14,13,11,7,6,15,2,12,5,10,4,3,8]
	vpshufb	%xmm2, %xmm4, %xmm5
	vpshufb	%xmm3, %xmm4, %xmm6
	vpxor	%xmm1, %xmm5, %xmm5
	vpxor	%xmm1, %xmm6, %xmm1
	vpshufb	%xmm5, %xmm4, %xmm5
	vpshufb	%xmm1, %xmm4, %xmm1
	vpxor	%xmm3, %xmm5, %xmm3
	vpxor	%xmm2, %xmm1, %xmm1
	vmovdqa	.Lgcm_v3_CPI14_5(%rip), %xmm2          # xmm2 = [0,195,79,12,252,124,67,128,207,51,63,112,191,179,240,140]
	vpshufb	%xmm3, %xmm2, %xmm2
	vmovdqa	.Lgcm_v3_CPI14_6(%rip), %xmm4          # xmm4 = [0,230,114,183,229,198,197,35,81,180,3,113,32,151,82,148]
	vpshufb	%xmm1, %xmm4, %xmm4
	vpxor	%xmm2, %xmm4, %xmm2
	vmovdqa	.Lgcm_v3_CPI14_7(%rip), %xmm4          # xmm4 = [0,124,32,207,146,1,239,147,179,33,238,206,125,178,93,92]
	vpshufb	%xmm3, %xmm4, %xmm3
	vmovdqa	.Lgcm_v3_CPI14_8(%rip), %xmm4          # xmm4 = [0,209,229,247,230,37,18,195,38,192,55,210,244,3,17,52]
	vpshufb	%xmm1, %xmm4, %xmm1
	vpxor	%xmm3, %xmm1, %xmm1
	movl	%ecx, %edx
	andl	$48, %edx
	leaq	.Lgcm_v3_static.5(%rip), %r8
	vmovdqu	(%rdx,%r8), %xmm3
	vpshufb	%xmm3, %xmm2, %xmm4
	vpxor	%xmm4, %xmm1, %xmm1
	vpshufb	%xmm3, %xmm1, %xmm3
	leaq	.Lgcm_v3_static.6(%rip), %r8
	vpshufb	(%rdx,%r8), %xmm2, %xmm2
	vpxor	(%rdi,%rcx), %xmm3, %xmm3
	vpxor	%xmm1, %xmm2, %xmm1
	vpxor	%xmm1, %xmm3, %xmm1
	addq	$16, %rcx
	decq	%rsi
	jne	.Lgcm_v3_BB14_2
.Lgcm_v3_BB14_3:                               # %"aes_permute::blocks::process_vector::<#06aaae76f5856d0a>.exit"
	shlq	$4, %rax
	vpsrlw	$4, %xmm1, %xmm2
	vpand	%xmm0, %xmm2, %xmm2
	vpand	%xmm0, %xmm1, %xmm0
	vpxor	%xmm0, %xmm2, %xmm1
	vmovdqa	.Lgcm_v3_CPI14_3(%rip), %xmm3          # xmm3 = [128,2,1,15,9,5,14,12,13,4,11,10,7,8,6,3]
	vpshufb	%xmm0, %xmm3, %xmm0
	vmovdqa	.Lgcm_v3_CPI14_4(%rip), %xmm3          # xmm3 = [128,1,9,14,13,11,7,6,15,2,12,5,10,4,3,8]
	vpshufb	%xmm2, %xmm3, %xmm4
	vpshufb	%xmm1, %xmm3, %xmm5
	vpxor	%xmm0, %xmm4, %xmm4
	vpxor	%xmm0, %xmm5, %xmm0
	vpshufb	%xmm4, %xmm3, %xmm4
	vpshufb	%xmm0, %xmm3, %xmm0
	vpxor	%xmm1, %xmm4, %xmm1
	vpxor	%xmm2, %xmm0, %xmm0
	vmovdqa	.Lgcm_v3_CPI14_9(%rip), %xmm2          # xmm2 = [0,203,215,176,33,141,103,172,123,90,234,61,70,246,145,28]
	vpshufb	%xmm1, %xmm2, %xmm1
	vmovdqa	.Lgcm_v3_CPI14_10(%rip), %xmm2         # xmm2 = [0,159,97,22,194,42,119,232,137,75,93,60,181,163,212,254]
	vpshufb	%xmm0, %xmm2, %xmm0
	vpxor	%xmm1, %xmm0, %xmm0
	movl	%eax, %ecx
	andl	$48, %ecx
	leaq	.Lgcm_v3_static.3(%rip), %rdx
	vpshufb	(%rcx,%rdx), %xmm0, %xmm0
	vpxor	(%rdi,%rax), %xmm0, %xmm0
	vmovdqa	%xmm0, (%rsp)
	movbeq	8(%rsp), %r14
	movbeq	(%rsp), %r15
	leaq	512(%rbx), %r12
	leaq	1024(%rbx), %r13
	movq	%rbx, %rdi
	movq	%r14, %rsi
	movq	%r15, %rdx
	callq	gcm_v3.gcm.multiples.put_table
	movq	%rbx, %rdi
	movq	%r14, %rsi
	movq	%r15, %rdx
	callq	gcm_v3.gcm.multiples.next_power
	movq	%rax, %r14
	movq	%rdx, %r15
	movq	%rbx, %rdi
	movq	%rax, %rsi
	callq	gcm_v3.gcm.multiples.next_power
	movq	%rax, %rbx
	movq	%rdx, %rbp
	movq	%r12, %rdi
	movq	%r14, %rsi
	movq	%r15, %rdx
	callq	gcm_v3.gcm.multiples.put_table
	movq	%r13, %rdi
	movq	%rbx, %rsi
	movq	%rbp, %rdx
	callq	gcm_v3.gcm.multiples.put_table
	movq	%rsp, %rdi
	callq	gcm_v3.aes_cipher.zeroize.elements.zeroize_elements.3
	addq	$24, %rsp
	popq	%rbx
	popq	%r12
	popq	%r13
	popq	%r14
	popq	%r15
	popq	%rbp
	retq
.Lgcm_v3_func_end14:
	.size	gcm_v3.gcm.mode.put_subkey, .Lgcm_v3_func_end14-gcm_v3.gcm.mode.put_subkey
                                        # -- End function
	.section	.rodata.cst16,"aM",@progbits,16
	.p2align	4, 0x0                          # -- Begin function gcm::multiples::next_power
.Lgcm_v3_CPI15_0:
	.byte	15                              # 0xf
	.byte	14                              # 0xe
	.byte	13                              # 0xd
	.byte	12                              # 0xc
	.byte	11                              # 0xb
	.byte	10                              # 0xa
	.byte	9                               # 0x9
	.byte	8                               # 0x8
	.byte	7                               # 0x7
	.byte	6                               # 0x6
	.byte	5                               # 0x5
	.byte	4                               # 0x4
	.byte	3                               # 0x3
	.byte	2                               # 0x2
	.byte	1                               # 0x1
	.byte	0                               # 0x0
	.section	.rodata.cst32,"aM",@progbits,32
	.p2align	5, 0x0
.Lgcm_v3_CPI15_1:
	.zero	32,15
	.section	.rodata.cst4,"aM",@progbits,4
	.p2align	2, 0x0
.Lgcm_v3_CPI15_2:
	.zero	4,15
	.section	.text.gcm_v3.gcm.multiples.next_power,"ax",@progbits
	.p2align	4
	.type	gcm_v3.gcm.multiples.next_power,@function
gcm_v3.gcm.multiples.next_power:           # @gcm_v3.gcm.multiples.next_power
# %bb.0:                                # %start
	vmovq	%rdx, %xmm0
	vmovq	%rsi, %xmm1
	vpunpcklqdq	%xmm0, %xmm1, %xmm1     # xmm1 = xmm1[0],xmm0[0]
	vmovdqa	.Lgcm_v3_CPI15_0(%rip), %xmm0          # xmm0 = [15,14,13,12,11,10,9,8,7,6,5,4,3,2,1,0]
	vpshufb	%xmm0, %xmm1, %xmm1
	vpermq	$68, %ymm1, %ymm2               # ymm2 = ymm1[0,1,0,1]
	vpsrlw	$4, %ymm2, %ymm1
	vpbroadcastd	.Lgcm_v3_CPI15_2(%rip), %ymm3  # ymm3 = [15,15,15,15,15,15,15,15,15,15,15,15,15,15,15,15,15,15,15,15,15,15,15,15,15,15,15,15,15,15,15,15]
	vpand	%ymm3, %ymm1, %ymm1
	vpand	%ymm3, %ymm2, %ymm2
	vmovdqu	480(%rdi), %ymm3
	vpshufb	%ymm2, %ymm3, %ymm3
	vmovdqu	224(%rdi), %ymm4
	vpshufb	%ymm1, %ymm4, %ymm4
	vpxor	%ymm4, %ymm3, %ymm3
	vmovdqu	448(%rdi), %ymm4
	vpshufb	%ymm2, %ymm4, %ymm4
	vmovdqu	192(%rdi), %ymm5
	vpshufb	%ymm1, %ymm5, %ymm5
	vpxor	%ymm5, %ymm4, %ymm4
	vpsrldq	$15, %ymm3, %ymm5               # ymm5 = ymm3[15],zero,zero,zero,zero,zero,zero,zero,zero,zero,zero,zero,zero,zero,zero,zero,ymm3[31],zero,zero,zero,zero,zero,zero,zero,zero,zero,zero,zero,zero,zero,zero,zero
	vpslldq	$1, %ymm3, %ymm3                # ymm3 = zero,ymm3[0,1,2,3,4,5,6,7,8,9,10,11,12,13,14],zero,ymm3[16,17,18,19,20,21,22,23,24,25,26,27,28,29,30]
	vpxor	%ymm3, %ymm4, %ymm3
	vmovdqu	416(%rdi), %ymm4
	vpshufb	%ymm2, %ymm4, %ymm4
	vmovdqu	160(%rdi), %ymm6
	vpshufb	%ymm1, %ymm6, %ymm6
	vpxor	%ymm6, %ymm4, %ymm4
	vpalignr	$15, %ymm3, %ymm5, %ymm5        # ymm5 = ymm3[15],ymm5[0,1,2,3,4,5,6,7,8,9,10,11,12,13,14],ymm3[31],ymm5[16,17,18,19,20,21,22,23,24,25,26,27,28,29,30]
	vpslldq	$1, %ymm3, %ymm3                # ymm3 = zero,ymm3[0,1,2,3,4,5,6,7,8,9,10,11,12,13,14],zero,ymm3[16,17,18,19,20,21,22,23,24,25,26,27,28,29,30]
	vpxor	%ymm3, %ymm4, %ymm3
	vmovdqu	384(%rdi), %ymm4
	vpshufb	%ymm2, %ymm4, %ymm4
	vmovdqu	128(%rdi), %ymm6
	vpshufb	%ymm1, %ymm6, %ymm6
	vpxor	%ymm6, %ymm4, %ymm4
	vpalignr	$15, %ymm3, %ymm5, %ymm5        # ymm5 = ymm3[15],ymm5[0,1,2,3,4,5,6,7,8,9,10,11,12,13,14],ymm3[31],ymm5[16,17,18,19,20,21,22,23,24,25,26,27,28,29,30]
	vpslldq	$1, %ymm3, %ymm3                # ymm3 = zero,ymm3[0,1,2,3,4,5,6,7,8,9,10,11,12,13,14],zero,ymm3[16,17,18,19,20,21,22,23,24,25,26,27,28,29,30]
	vpxor	%ymm3, %ymm4, %ymm3
	vmovdqu	352(%rdi), %ymm4
	vpshufb	%ymm2, %ymm4, %ymm4
	vmovdqu	(%rdi), %ymm6
	vmovdqu	32(%rdi), %ymm7
	vmovdqu	64(%rdi), %ymm8
	vmovdqu	96(%rdi), %ymm9
	vpshufb	%ymm1, %ymm9, %ymm9
	vpxor	%ymm4, %ymm9, %ymm4
	vpalignr	$15, %ymm3, %ymm5, %ymm5        # ymm5 = ymm3[15],ymm5[0,1,2,3,4,5,6,7,8,9,10,11,12,13,14],ymm3[31],ymm5[16,17,18,19,20,21,22,23,24,25,26,27,28,29,30]
	vpslldq	$1, %ymm3, %ymm3                # ymm3 = zero,ymm3[0,1,2,3,4,5,6,7,8,9,10,11,12,13,14],zero,ymm3[16,17,18,19,20,21,22,23,24,25,26,27,28,29,30]
	vpxor	%ymm3, %ymm4, %ymm3
	vmovdqu	320(%rdi), %ymm4
	vpshufb	%ymm2, %ymm4, %ymm4
	vpshufb	%ymm1, %ymm8, %ymm8
	vpxor	%ymm4, %ymm8, %ymm4
	vpalignr	$15, %ymm3, %ymm5, %ymm5        # ymm5 = ymm3[15],ymm5[0,1,2,3,4,5,6,7,8,9,10,11,12,13,14],ymm3[31],ymm5[16,17,18,19,20,21,22,23,24,25,26,27,28,29,30]
	vpslldq	$1, %ymm3, %ymm3                # ymm3 = zero,ymm3[0,1,2,3,4,5,6,7,8,9,10,11,12,13,14],zero,ymm3[16,17,18,19,20,21,22,23,24,25,26,27,28,29,30]
	vpxor	%ymm3, %ymm4, %ymm3
	vmovdqu	288(%rdi), %ymm4
	vpshufb	%ymm2, %ymm4, %ymm4
	vpshufb	%ymm1, %ymm7, %ymm7
	vpxor	%ymm7, %ymm4, %ymm4
	vpalignr	$15, %ymm3, %ymm5, %ymm5        # ymm5 = ymm3[15],ymm5[0,1,2,3,4,5,6,7,8,9,10,11,12,13,14],ymm3[31],ymm5[16,17,18,19,20,21,22,23,24,25,26,27,28,29,30]
	vpslldq	$1, %ymm3, %ymm3                # ymm3 = zero,ymm3[0,1,2,3,4,5,6,7,8,9,10,11,12,13,14],zero,ymm3[16,17,18,19,20,21,22,23,24,25,26,27,28,29,30]
	vpxor	%ymm3, %ymm4, %ymm3
	vmovdqu	256(%rdi), %ymm4
	vpshufb	%ymm2, %ymm4, %ymm2
	vpshufb	%ymm1, %ymm6, %ymm1
	vpxor	%ymm1, %ymm2, %ymm1
	vpalignr	$15, %ymm3, %ymm5, %ymm4        # ymm4 = ymm3[15],ymm5[0,1,2,3,4,5,6,7,8,9,10,11,12,13,14],ymm3[31],ymm5[16,17,18,19,20,21,22,23,24,25,26,27,28,29,30]
	vpslldq	$1, %ymm3, %ymm2                # ymm2 = zero,ymm3[0,1,2,3,4,5,6,7,8,9,10,11,12,13,14],zero,ymm3[16,17,18,19,20,21,22,23,24,25,26,27,28,29,30]
	vpxor	%ymm2, %ymm1, %ymm1
	vextracti128	$1, %ymm1, %xmm2
	vextracti128	$1, %ymm4, %xmm3
	vpalignr	$8, %xmm2, %xmm3, %xmm3         # xmm3 = xmm2[8,9,10,11,12,13,14,15],xmm3[0,1,2,3,4,5,6,7]
	vpxor	%xmm4, %xmm3, %xmm3
	vmovq	%xmm3, %rcx
	vpextrq	$1, %xmm3, %rax
	bswapq	%rax
	bswapq	%rcx
	movq	%rcx, %rdx
	movq	%rcx, %rsi
	movq	%rcx, %rdi
	movq	%rcx, %r8
	movq	%rcx, %r9
	shrq	$7, %r9
	xorq	%rcx, %r9
	shldq	$63, %rax, %rcx
	shldq	$62, %rax, %rsi
	xorq	%rcx, %rsi
	vpslldq	$8, %xmm2, %xmm2                # xmm2 = zero,zero,zero,zero,zero,zero,zero,zero,xmm2[0,1,2,3,4,5,6,7]
	vpxor	%xmm1, %xmm2, %xmm1
	shrq	%rdx
	shrq	$2, %rdi
	xorq	%rdx, %rdi
	shldq	$57, %rax, %r8
	xorq	%rax, %r8
	xorq	%rsi, %r8
	xorq	%rdi, %r9
	vmovq	%r8, %xmm2
	vmovq	%r9, %xmm3
	vpunpcklqdq	%xmm3, %xmm2, %xmm2     # xmm2 = xmm2[0],xmm3[0]
	vpshufb	%xmm0, %xmm2, %xmm0
	vpxor	%xmm0, %xmm1, %xmm0
	vmovq	%xmm0, %rdx
	vpextrq	$1, %xmm0, %rax
	bswapq	%rax
	bswapq	%rdx
	vzeroupper
	retq
.Lgcm_v3_func_end15:
	.size	gcm_v3.gcm.multiples.next_power, .Lgcm_v3_func_end15-gcm_v3.gcm.multiples.next_power
                                        # -- End function
	.section	.rodata.cst16,"aM",@progbits,16
	.p2align	4, 0x0                          # -- Begin function gcm::multiples::put_table
.Lgcm_v3_CPI16_0:
	.byte	15                              # 0xf
	.byte	14                              # 0xe
	.byte	13                              # 0xd
	.byte	12                              # 0xc
	.byte	11                              # 0xb
	.byte	10                              # 0xa
	.byte	9                               # 0x9
	.byte	8                               # 0x8
	.byte	7                               # 0x7
	.byte	6                               # 0x6
	.byte	5                               # 0x5
	.byte	4                               # 0x4
	.byte	3                               # 0x3
	.byte	2                               # 0x2
	.byte	1                               # 0x1
	.byte	0                               # 0x0
.Lgcm_v3_CPI16_33:
	.zero	16,15
.Lgcm_v3_CPI16_34:
	.byte	0                               # 0x0
	.byte	28                              # 0x1c
	.byte	56                              # 0x38
	.byte	36                              # 0x24
	.byte	112                             # 0x70
	.byte	108                             # 0x6c
	.byte	72                              # 0x48
	.byte	84                              # 0x54
	.byte	225                             # 0xe1
	.byte	253                             # 0xfd
	.byte	217                             # 0xd9
	.byte	197                             # 0xc5
	.byte	145                             # 0x91
	.byte	141                             # 0x8d
	.byte	169                             # 0xa9
	.byte	181                             # 0xb5
.Lgcm_v3_CPI16_35:
	.byte	0                               # 0x0
	.byte	32                              # 0x20
	.byte	64                              # 0x40
	.byte	96                              # 0x60
	.byte	128                             # 0x80
	.byte	160                             # 0xa0
	.byte	192                             # 0xc0
	.byte	224                             # 0xe0
	.byte	0                               # 0x0
	.byte	32                              # 0x20
	.byte	64                              # 0x40
	.byte	96                              # 0x60
	.byte	128                             # 0x80
	.byte	160                             # 0xa0
	.byte	192                             # 0xc0
	.byte	224                             # 0xe0
	.section	.rodata.cst32,"aM",@progbits,32
	.p2align	5, 0x0
.Lgcm_v3_CPI16_1:
	.byte	128                             # 0x80
	.byte	128                             # 0x80
	.byte	128                             # 0x80
	.byte	128                             # 0x80
	.byte	0                               # 0x0
	.byte	0                               # 0x0
	.byte	0                               # 0x0
	.byte	0                               # 0x0
	.byte	128                             # 0x80
	.byte	128                             # 0x80
	.byte	128                             # 0x80
	.byte	128                             # 0x80
	.byte	0                               # 0x0
	.byte	0                               # 0x0
	.byte	0                               # 0x0
	.byte	0                               # 0x0
	.byte	128                             # 0x80
	.byte	128                             # 0x80
	.byte	128                             # 0x80
	.byte	128                             # 0x80
	.byte	8                               # 0x8
	.byte	8                               # 0x8
	.byte	8                               # 0x8
	.byte	8                               # 0x8
	.byte	128                             # 0x80
	.byte	128                             # 0x80
	.byte	128                             # 0x80
	.byte	128                             # 0x80
	.byte	8                               # 0x8
	.byte	8                               # 0x8
	.byte	8                               # 0x8
	.byte	8                               # 0x8
.Lgcm_v3_CPI16_2:
	.byte	128                             # 0x80
	.byte	128                             # 0x80
	.byte	128                             # 0x80
	.byte	128                             # 0x80
	.byte	128                             # 0x80
	.byte	128                             # 0x80
	.byte	128                             # 0x80
	.byte	128                             # 0x80
	.byte	0                               # 0x0
	.byte	0                               # 0x0
	.byte	0                               # 0x0
	.byte	0                               # 0x0
	.byte	0                               # 0x0
	.byte	0                               # 0x0
	.byte	0                               # 0x0
	.byte	0                               # 0x0
	.byte	128                             # 0x80
	.byte	128                             # 0x80
	.byte	128                             # 0x80
	.byte	128                             # 0x80
	.byte	128                             # 0x80
	.byte	128                             # 0x80
	.byte	128                             # 0x80
	.byte	128                             # 0x80
	.byte	8                               # 0x8
	.byte	8                               # 0x8
	.byte	8                               # 0x8
	.byte	8                               # 0x8
	.byte	8                               # 0x8
	.byte	8                               # 0x8
	.byte	8                               # 0x8
	.byte	8                               # 0x8
.Lgcm_v3_CPI16_3:
	.byte	128                             # 0x80
	.byte	128                             # 0x80
	.byte	0                               # 0x0
	.byte	0                               # 0x0
	.byte	128                             # 0x80
	.byte	128                             # 0x80
	.byte	0                               # 0x0
	.byte	0                               # 0x0
	.byte	128                             # 0x80
	.byte	128                             # 0x80
	.byte	0                               # 0x0
	.byte	0                               # 0x0
	.byte	128                             # 0x80
	.byte	128                             # 0x80
	.byte	0                               # 0x0
	.byte	0                               # 0x0
	.byte	128                             # 0x80
	.byte	128                             # 0x80
	.byte	8                               # 0x8
	.byte	8                               # 0x8
	.byte	128                             # 0x80
	.byte	128                             # 0x80
	.byte	8                               # 0x8
	.byte	8                               # 0x8
	.byte	128                             # 0x80
	.byte	128                             # 0x80
	.byte	8                               # 0x8
	.byte	8                               # 0x8
	.byte	128                             # 0x80
	.byte	128                             # 0x80
	.byte	8                               # 0x8
	.byte	8                               # 0x8
.Lgcm_v3_CPI16_4:
	.byte	128                             # 0x80
	.byte	0                               # 0x0
	.byte	128                             # 0x80
	.byte	0                               # 0x0
	.byte	128                             # 0x80
	.byte	0                               # 0x0
	.byte	128                             # 0x80
	.byte	0                               # 0x0
	.byte	128                             # 0x80
	.byte	0                               # 0x0
	.byte	128                             # 0x80
	.byte	0                               # 0x0
	.byte	128                             # 0x80
	.byte	0                               # 0x0
	.byte	128                             # 0x80
	.byte	0                               # 0x0
	.byte	128                             # 0x80
	.byte	8                               # 0x8
	.byte	128                             # 0x80
	.byte	8                               # 0x8
	.byte	128                             # 0x80
	.byte	8                               # 0x8
	.byte	128                             # 0x80
	.byte	8                               # 0x8
	.byte	128                             # 0x80
	.byte	8                               # 0x8
	.byte	128                             # 0x80
	.byte	8                               # 0x8
	.byte	128                             # 0x80
	.byte	8                               # 0x8
	.byte	128                             # 0x80
	.byte	8                               # 0x8
.Lgcm_v3_CPI16_5:
	.byte	128                             # 0x80
	.byte	128                             # 0x80
	.byte	128                             # 0x80
	.byte	128                             # 0x80
	.byte	1                               # 0x1
	.byte	1                               # 0x1
	.byte	1                               # 0x1
	.byte	1                               # 0x1
	.byte	128                             # 0x80
	.byte	128                             # 0x80
	.byte	128                             # 0x80
	.byte	128                             # 0x80
	.byte	1                               # 0x1
	.byte	1                               # 0x1
	.byte	1                               # 0x1
	.byte	1                               # 0x1
	.byte	128                             # 0x80
	.byte	128                             # 0x80
	.byte	128                             # 0x80
	.byte	128                             # 0x80
	.byte	9                               # 0x9
	.byte	9                               # 0x9
	.byte	9                               # 0x9
	.byte	9                               # 0x9
	.byte	128                             # 0x80
	.byte	128                             # 0x80
	.byte	128                             # 0x80
	.byte	128                             # 0x80
	.byte	9                               # 0x9
	.byte	9                               # 0x9
	.byte	9                               # 0x9
	.byte	9                               # 0x9
.Lgcm_v3_CPI16_6:
	.byte	128                             # 0x80
	.byte	128                             # 0x80
	.byte	128                             # 0x80
	.byte	128                             # 0x80
	.byte	128                             # 0x80
	.byte	128                             # 0x80
	.byte	128                             # 0x80
	.byte	128                             # 0x80
	.byte	1                               # 0x1
	.byte	1                               # 0x1
	.byte	1                               # 0x1
	.byte	1                               # 0x1
	.byte	1                               # 0x1
	.byte	1                               # 0x1
	.byte	1                               # 0x1
	.byte	1                               # 0x1
	.byte	128                             # 0x80
	.byte	128                             # 0x80
	.byte	128                             # 0x80
	.byte	128                             # 0x80
	.byte	128                             # 0x80
	.byte	128                             # 0x80
	.byte	128                             # 0x80
	.byte	128                             # 0x80
	.byte	9                               # 0x9
	.byte	9                               # 0x9
	.byte	9                               # 0x9
	.byte	9                               # 0x9
	.byte	9                               # 0x9
	.byte	9                               # 0x9
	.byte	9                               # 0x9
	.byte	9                               # 0x9
.Lgcm_v3_CPI16_7:
	.byte	128                             # 0x80
	.byte	128                             # 0x80
	.byte	1                               # 0x1
	.byte	1                               # 0x1
	.byte	128                             # 0x80
	.byte	128                             # 0x80
	.byte	1                               # 0x1
	.byte	1                               # 0x1
	.byte	128                             # 0x80
	.byte	128                             # 0x80
	.byte	1                               # 0x1
	.byte	1                               # 0x1
	.byte	128                             # 0x80
	.byte	128                             # 0x80
	.byte	1                               # 0x1
	.byte	1                               # 0x1
	.byte	128                             # 0x80
	.byte	128                             # 0x80
	.byte	9                               # 0x9
	.byte	9                               # 0x9
	.byte	128                             # 0x80
	.byte	128                             # 0x80
	.byte	9                               # 0x9
	.byte	9                               # 0x9
	.byte	128                             # 0x80
	.byte	128                             # 0x80
	.byte	9                               # 0x9
	.byte	9                               # 0x9
	.byte	128                             # 0x80
	.byte	128                             # 0x80
	.byte	9                               # 0x9
	.byte	9                               # 0x9
.Lgcm_v3_CPI16_8:
	.byte	128                             # 0x80
	.byte	1                               # 0x1
	.byte	128                             # 0x80
	.byte	1                               # 0x1
	.byte	128                             # 0x80
	.byte	1                               # 0x1
	.byte	128                             # 0x80
	.byte	1                               # 0x1
	.byte	128                             # 0x80
	.byte	1                               # 0x1
	.byte	128                             # 0x80
	.byte	1                               # 0x1
	.byte	128                             # 0x80
	.byte	1                               # 0x1
	.byte	128                             # 0x80
	.byte	1                               # 0x1
	.byte	128                             # 0x80
	.byte	9                               # 0x9
	.byte	128                             # 0x80
	.byte	9                               # 0x9
	.byte	128                             # 0x80
	.byte	9                               # 0x9
	.byte	128                             # 0x80
	.byte	9                               # 0x9
	.byte	128                             # 0x80
	.byte	9                               # 0x9
	.byte	128                             # 0x80
	.byte	9                               # 0x9
	.byte	128                             # 0x80
	.byte	9                               # 0x9
	.byte	128                             # 0x80
	.byte	9                               # 0x9
.Lgcm_v3_CPI16_9:
	.byte	128                             # 0x80
	.byte	128                             # 0x80
	.byte	128                             # 0x80
	.byte	128                             # 0x80
	.byte	2                               # 0x2
	.byte	2                               # 0x2
	.byte	2                               # 0x2
	.byte	2                               # 0x2
	.byte	128                             # 0x80
	.byte	128                             # 0x80
	.byte	128                             # 0x80
	.byte	128                             # 0x80
	.byte	2                               # 0x2
	.byte	2                               # 0x2
	.byte	2                               # 0x2
	.byte	2                               # 0x2
	.byte	128                             # 0x80
	.byte	128                             # 0x80
	.byte	128                             # 0x80
	.byte	128                             # 0x80
	.byte	10                              # 0xa
	.byte	10                              # 0xa
	.byte	10                              # 0xa
	.byte	10                              # 0xa
	.byte	128                             # 0x80
	.byte	128                             # 0x80
	.byte	128                             # 0x80
	.byte	128                             # 0x80
	.byte	10                              # 0xa
	.byte	10                              # 0xa
	.byte	10                              # 0xa
	.byte	10                              # 0xa
.Lgcm_v3_CPI16_10:
	.byte	128                             # 0x80
	.byte	128                             # 0x80
	.byte	128                             # 0x80
	.byte	128                             # 0x80
	.byte	128                             # 0x80
	.byte	128                             # 0x80
	.byte	128                             # 0x80
	.byte	128                             # 0x80
	.byte	2                               # 0x2
	.byte	2                               # 0x2
	.byte	2                               # 0x2
	.byte	2                               # 0x2
	.byte	2                               # 0x2
	.byte	2                               # 0x2
	.byte	2                               # 0x2
	.byte	2                               # 0x2
	.byte	128                             # 0x80
	.byte	128                             # 0x80
	.byte	128                             # 0x80
	.byte	128                             # 0x80
	.byte	128                             # 0x80
	.byte	128                             # 0x80
	.byte	128                             # 0x80
	.byte	128                             # 0x80
	.byte	10                              # 0xa
	.byte	10                              # 0xa
	.byte	10                              # 0xa
	.byte	10                              # 0xa
	.byte	10                              # 0xa
	.byte	10                              # 0xa
	.byte	10                              # 0xa
	.byte	10                              # 0xa
.Lgcm_v3_CPI16_11:
	.byte	128                             # 0x80
	.byte	128                             # 0x80
	.byte	2                               # 0x2
	.byte	2                               # 0x2
	.byte	128                             # 0x80
	.byte	128                             # 0x80
	.byte	2                               # 0x2
	.byte	2                               # 0x2
	.byte	128                             # 0x80
	.byte	128                             # 0x80
	.byte	2                               # 0x2
	.byte	2                               # 0x2
	.byte	128                             # 0x80
	.byte	128                             # 0x80
	.byte	2                               # 0x2
	.byte	2                               # 0x2
	.byte	128                             # 0x80
	.byte	128                             # 0x80
	.byte	10                              # 0xa
	.byte	10                              # 0xa
	.byte	128                             # 0x80
	.byte	128                             # 0x80
	.byte	10                              # 0xa
	.byte	10                              # 0xa
	.byte	128                             # 0x80
	.byte	128                             # 0x80
	.byte	10                              # 0xa
	.byte	10                              # 0xa
	.byte	128                             # 0x80
	.byte	128                             # 0x80
	.byte	10                              # 0xa
	.byte	10                              # 0xa
.Lgcm_v3_CPI16_12:
	.byte	128                             # 0x80
	.byte	2                               # 0x2
	.byte	128                             # 0x80
	.byte	2                               # 0x2
	.byte	128                             # 0x80
	.byte	2                               # 0x2
	.byte	128                             # 0x80
	.byte	2                               # 0x2
	.byte	128                             # 0x80
	.byte	2                               # 0x2
	.byte	128                             # 0x80
	.byte	2                               # 0x2
	.byte	128                             # 0x80
	.byte	2                               # 0x2
	.byte	128                             # 0x80
	.byte	2                               # 0x2
	.byte	128                             # 0x80
	.byte	10                              # 0xa
	.byte	128                             # 0x80
	.byte	10                              # 0xa
	.byte	128                             # 0x80
	.byte	10                              # 0xa
	.byte	128                             # 0x80
	.byte	10                              # 0xa
	.byte	128                             # 0x80
	.byte	10                              # 0xa
	.byte	128                             # 0x80
	.byte	10                              # 0xa
	.byte	128                             # 0x80
	.byte	10                              # 0xa
	.byte	128                             # 0x80
	.byte	10                              # 0xa
.Lgcm_v3_CPI16_13:
	.byte	128                             # 0x80
	.byte	128                             # 0x80
	.byte	128                             # 0x80
	.byte	128                             # 0x80
	.byte	3                               # 0x3
	.byte	3                               # 0x3
	.byte	3                               # 0x3
	.byte	3                               # 0x3
	.byte	128                             # 0x80
	.byte	128                             # 0x80
	.byte	128                             # 0x80
	.byte	128                             # 0x80
	.byte	3                               # 0x3
	.byte	3                               # 0x3
	.byte	3                               # 0x3
	.byte	3                               # 0x3
	.byte	128                             # 0x80
	.byte	128                             # 0x80
	.byte	128                             # 0x80
	.byte	128                             # 0x80
	.byte	11                              # 0xb
	.byte	11                              # 0xb
	.byte	11                              # 0xb
	.byte	11                              # 0xb
	.byte	128                             # 0x80
	.byte	128                             # 0x80
	.byte	128                             # 0x80
	.byte	128                             # 0x80
	.byte	11                              # 0xb
	.byte	11                              # 0xb
	.byte	11                              # 0xb
	.byte	11                              # 0xb
.Lgcm_v3_CPI16_14:
	.byte	128                             # 0x80
	.byte	128                             # 0x80
	.byte	128                             # 0x80
	.byte	128                             # 0x80
	.byte	128                             # 0x80
	.byte	128                             # 0x80
	.byte	128                             # 0x80
	.byte	128                             # 0x80
	.byte	3                               # 0x3
	.byte	3                               # 0x3
	.byte	3                               # 0x3
	.byte	3                               # 0x3
	.byte	3                               # 0x3
	.byte	3                               # 0x3
	.byte	3                               # 0x3
	.byte	3                               # 0x3
	.byte	128                             # 0x80
	.byte	128                             # 0x80
	.byte	128                             # 0x80
	.byte	128                             # 0x80
	.byte	128                             # 0x80
	.byte	128                             # 0x80
	.byte	128                             # 0x80
	.byte	128                             # 0x80
	.byte	11                              # 0xb
	.byte	11                              # 0xb
	.byte	11                              # 0xb
	.byte	11                              # 0xb
	.byte	11                              # 0xb
	.byte	11                              # 0xb
	.byte	11                              # 0xb
	.byte	11                              # 0xb
.Lgcm_v3_CPI16_15:
	.byte	128                             # 0x80
	.byte	128                             # 0x80
	.byte	3                               # 0x3
	.byte	3                               # 0x3
	.byte	128                             # 0x80
	.byte	128                             # 0x80
	.byte	3                               # 0x3
	.byte	3                               # 0x3
	.byte	128                             # 0x80
	.byte	128                             # 0x80
	.byte	3                               # 0x3
	.byte	3                               # 0x3
	.byte	128                             # 0x80
	.byte	128                             # 0x80
	.byte	3                               # 0x3
	.byte	3                               # 0x3
	.byte	128                             # 0x80
	.byte	128                             # 0x80
	.byte	11                              # 0xb
	.byte	11                              # 0xb
	.byte	128                             # 0x80
	.byte	128                             # 0x80
	.byte	11                              # 0xb
	.byte	11                              # 0xb
	.byte	128                             # 0x80
	.byte	128                             # 0x80
	.byte	11                              # 0xb
	.byte	11                              # 0xb
	.byte	128                             # 0x80
	.byte	128                             # 0x80
	.byte	11                              # 0xb
	.byte	11                              # 0xb
.Lgcm_v3_CPI16_16:
	.byte	128                             # 0x80
	.byte	3                               # 0x3
	.byte	128                             # 0x80
	.byte	3                               # 0x3
	.byte	128                             # 0x80
	.byte	3                               # 0x3
	.byte	128                             # 0x80
	.byte	3                               # 0x3
	.byte	128                             # 0x80
	.byte	3                               # 0x3
	.byte	128                             # 0x80
	.byte	3                               # 0x3
	.byte	128                             # 0x80
	.byte	3                               # 0x3
	.byte	128                             # 0x80
	.byte	3                               # 0x3
	.byte	128                             # 0x80
	.byte	11                              # 0xb
	.byte	128                             # 0x80
	.byte	11                              # 0xb
	.byte	128                             # 0x80
	.byte	11                              # 0xb
	.byte	128                             # 0x80
	.byte	11                              # 0xb
	.byte	128                             # 0x80
	.byte	11                              # 0xb
	.byte	128                             # 0x80
	.byte	11                              # 0xb
	.byte	128                             # 0x80
	.byte	11                              # 0xb
	.byte	128                             # 0x80
	.byte	11                              # 0xb
.Lgcm_v3_CPI16_17:
	.byte	128                             # 0x80
	.byte	128                             # 0x80
	.byte	128                             # 0x80
	.byte	128                             # 0x80
	.byte	4                               # 0x4
	.byte	4                               # 0x4
	.byte	4                               # 0x4
	.byte	4                               # 0x4
	.byte	128                             # 0x80
	.byte	128                             # 0x80
	.byte	128                             # 0x80
	.byte	128                             # 0x80
	.byte	4                               # 0x4
	.byte	4                               # 0x4
	.byte	4                               # 0x4
	.byte	4                               # 0x4
	.byte	128                             # 0x80
	.byte	128                             # 0x80
	.byte	128                             # 0x80
	.byte	128                             # 0x80
	.byte	12                              # 0xc
	.byte	12                              # 0xc
	.byte	12                              # 0xc
	.byte	12                              # 0xc
	.byte	128                             # 0x80
	.byte	128                             # 0x80
	.byte	128                             # 0x80
	.byte	128                             # 0x80
	.byte	12                              # 0xc
	.byte	12                              # 0xc
	.byte	12                              # 0xc
	.byte	12                              # 0xc
.Lgcm_v3_CPI16_18:
	.byte	128                             # 0x80
	.byte	128                             # 0x80
	.byte	128                             # 0x80
	.byte	128                             # 0x80
	.byte	128                             # 0x80
	.byte	128                             # 0x80
	.byte	128                             # 0x80
	.byte	128                             # 0x80
	.byte	4                               # 0x4
	.byte	4                               # 0x4
	.byte	4                               # 0x4
	.byte	4                               # 0x4
	.byte	4                               # 0x4
	.byte	4                               # 0x4
	.byte	4                               # 0x4
	.byte	4                               # 0x4
	.byte	128                             # 0x80
	.byte	128                             # 0x80
	.byte	128                             # 0x80
	.byte	128                             # 0x80
	.byte	128                             # 0x80
	.byte	128                             # 0x80
	.byte	128                             # 0x80
	.byte	128                             # 0x80
	.byte	12                              # 0xc
	.byte	12                              # 0xc
	.byte	12                              # 0xc
	.byte	12                              # 0xc
	.byte	12                              # 0xc
	.byte	12                              # 0xc
	.byte	12                              # 0xc
	.byte	12                              # 0xc
.Lgcm_v3_CPI16_19:
	.byte	128                             # 0x80
	.byte	128                             # 0x80
	.byte	4                               # 0x4
	.byte	4                               # 0x4
	.byte	128                             # 0x80
	.byte	128                             # 0x80
	.byte	4                               # 0x4
	.byte	4                               # 0x4
	.byte	128                             # 0x80
	.byte	128                             # 0x80
	.byte	4                               # 0x4
	.byte	4                               # 0x4
	.byte	128                             # 0x80
	.byte	128                             # 0x80
	.byte	4                               # 0x4
	.byte	4                               # 0x4
	.byte	128                             # 0x80
	.byte	128                             # 0x80
	.byte	12                              # 0xc
	.byte	12                              # 0xc
	.byte	128                             # 0x80
	.byte	128                             # 0x80
	.byte	12                              # 0xc
	.byte	12                              # 0xc
	.byte	128                             # 0x80
	.byte	128                             # 0x80
	.byte	12                              # 0xc
	.byte	12                              # 0xc
	.byte	128                             # 0x80
	.byte	128                             # 0x80
	.byte	12                              # 0xc
	.byte	12                              # 0xc
.Lgcm_v3_CPI16_20:
	.byte	128                             # 0x80
	.byte	4                               # 0x4
	.byte	128                             # 0x80
	.byte	4                               # 0x4
	.byte	128                             # 0x80
	.byte	4                               # 0x4
	.byte	128                             # 0x80
	.byte	4                               # 0x4
	.byte	128                             # 0x80
	.byte	4                               # 0x4
	.byte	128                             # 0x80
	.byte	4                               # 0x4
	.byte	128                             # 0x80
	.byte	4                               # 0x4
	.byte	128                             # 0x80
	.byte	4                               # 0x4
	.byte	128                             # 0x80
	.byte	12                              # 0xc
	.byte	128                             # 0x80
	.byte	12                              # 0xc
	.byte	128                             # 0x80
	.byte	12                              # 0xc
	.byte	128                             # 0x80
	.byte	12                              # 0xc
	.byte	128                             # 0x80
	.byte	12                              # 0xc
	.byte	128                             # 0x80
	.byte	12                              # 0xc
	.byte	128                             # 0x80
	.byte	12                              # 0xc
	.byte	128                             # 0x80
	.byte	12                              # 0xc
.Lgcm_v3_CPI16_21:
	.byte	128                             # 0x80
	.byte	128                             # 0x80
	.byte	128                             # 0x80
	.byte	128                             # 0x80
	.byte	5                               # 0x5
	.byte	5                               # 0x5
	.byte	5                               # 0x5
	.byte	5                               # 0x5
	.byte	128                             # 0x80
	.byte	128                             # 0x80
	.byte	128                             # 0x80
	.byte	128                             # 0x80
	.byte	5                               # 0x5
	.byte	5                               # 0x5
	.byte	5                               # 0x5
	.byte	5                               # 0x5
	.byte	128                             # 0x80
	.byte	128                             # 0x80
	.byte	128                             # 0x80
	.byte	128                             # 0x80
	.byte	13                              # 0xd
	.byte	13                              # 0xd
	.byte	13                              # 0xd
	.byte	13                              # 0xd
	.byte	128                             # 0x80
	.byte	128                             # 0x80
	.byte	128                             # 0x80
	.byte	128                             # 0x80
	.byte	13                              # 0xd
	.byte	13                              # 0xd
	.byte	13                              # 0xd
	.byte	13                              # 0xd
.Lgcm_v3_CPI16_22:
	.byte	128                             # 0x80
	.byte	128                             # 0x80
	.byte	128                             # 0x80
	.byte	128                             # 0x80
	.byte	128                             # 0x80
	.byte	128                             # 0x80
	.byte	128                             # 0x80
	.byte	128                             # 0x80
	.byte	5                               # 0x5
	.byte	5                               # 0x5
	.byte	5                               # 0x5
	.byte	5                               # 0x5
	.byte	5                               # 0x5
	.byte	5                               # 0x5
	.byte	5                               # 0x5
	.byte	5                               # 0x5
	.byte	128                             # 0x80
	.byte	128                             # 0x80
	.byte	128                             # 0x80
	.byte	128                             # 0x80
	.byte	128                             # 0x80
	.byte	128                             # 0x80
	.byte	128                             # 0x80
	.byte	128                             # 0x80
	.byte	13                              # 0xd
	.byte	13                              # 0xd
	.byte	13                              # 0xd
	.byte	13                              # 0xd
	.byte	13                              # 0xd
	.byte	13                              # 0xd
	.byte	13                              # 0xd
	.byte	13                              # 0xd
.Lgcm_v3_CPI16_23:
	.byte	128                             # 0x80
	.byte	128                             # 0x80
	.byte	5                               # 0x5
	.byte	5                               # 0x5
	.byte	128                             # 0x80
	.byte	128                             # 0x80
	.byte	5                               # 0x5
	.byte	5                               # 0x5
	.byte	128                             # 0x80
	.byte	128                             # 0x80
	.byte	5                               # 0x5
	.byte	5                               # 0x5
	.byte	128                             # 0x80
	.byte	128                             # 0x80
	.byte	5                               # 0x5
	.byte	5                               # 0x5
	.byte	128                             # 0x80
	.byte	128                             # 0x80
	.byte	13                              # 0xd
	.byte	13                              # 0xd
	.byte	128                             # 0x80
	.byte	128                             # 0x80
	.byte	13                              # 0xd
	.byte	13                              # 0xd
	.byte	128                             # 0x80
	.byte	128                             # 0x80
	.byte	13                              # 0xd
	.byte	13                              # 0xd
	.byte	128                             # 0x80
	.byte	128                             # 0x80
	.byte	13                              # 0xd
	.byte	13                              # 0xd
.Lgcm_v3_CPI16_24:
	.byte	128                             # 0x80
	.byte	5                               # 0x5
	.byte	128                             # 0x80
	.byte	5                               # 0x5
	.byte	128                             # 0x80
	.byte	5                               # 0x5
	.byte	128                             # 0x80
	.byte	5                               # 0x5
	.byte	128                             # 0x80
	.byte	5                               # 0x5
	.byte	128                             # 0x80
	.byte	5                               # 0x5
	.byte	128                             # 0x80
	.byte	5                               # 0x5
	.byte	128                             # 0x80
	.byte	5                               # 0x5
	.byte	128                             # 0x80
	.byte	13                              # 0xd
	.byte	128                             # 0x80
	.byte	13                              # 0xd
	.byte	128                             # 0x80
	.byte	13                              # 0xd
	.byte	128                             # 0x80
	.byte	13                              # 0xd
	.byte	128                             # 0x80
	.byte	13                              # 0xd
	.byte	128                             # 0x80
	.byte	13                              # 0xd
	.byte	128                             # 0x80
	.byte	13                              # 0xd
	.byte	128                             # 0x80
	.byte	13                              # 0xd
.Lgcm_v3_CPI16_25:
	.byte	128                             # 0x80
	.byte	128                             # 0x80
	.byte	128                             # 0x80
	.byte	128                             # 0x80
	.byte	6                               # 0x6
	.byte	6                               # 0x6
	.byte	6                               # 0x6
	.byte	6                               # 0x6
	.byte	128                             # 0x80
	.byte	128                             # 0x80
	.byte	128                             # 0x80
	.byte	128                             # 0x80
	.byte	6                               # 0x6
	.byte	6                               # 0x6
	.byte	6                               # 0x6
	.byte	6                               # 0x6
	.byte	128                             # 0x80
	.byte	128                             # 0x80
	.byte	128                             # 0x80
	.byte	128                             # 0x80
	.byte	14                              # 0xe
	.byte	14                              # 0xe
	.byte	14                              # 0xe
	.byte	14                              # 0xe
	.byte	128                             # 0x80
	.byte	128                             # 0x80
	.byte	128                             # 0x80
	.byte	128                             # 0x80
	.byte	14                              # 0xe
	.byte	14                              # 0xe
	.byte	14                              # 0xe
	.byte	14                              # 0xe
.Lgcm_v3_CPI16_26:
	.byte	128                             # 0x80
	.byte	128                             # 0x80
	.byte	128                             # 0x80
	.byte	128                             # 0x80
	.byte	128                             # 0x80
	.byte	128                             # 0x80
	.byte	128                             # 0x80
	.byte	128                             # 0x80
	.byte	6                               # 0x6
	.byte	6                               # 0x6
	.byte	6                               # 0x6
	.byte	6                               # 0x6
	.byte	6                               # 0x6
	.byte	6                               # 0x6
	.byte	6                               # 0x6
	.byte	6                               # 0x6
	.byte	128                             # 0x80
	.byte	128                             # 0x80
	.byte	128                             # 0x80
	.byte	128                             # 0x80
	.byte	128                             # 0x80
	.byte	128                             # 0x80
	.byte	128                             # 0x80
	.byte	128                             # 0x80
	.byte	14                              # 0xe
	.byte	14                              # 0xe
	.byte	14                              # 0xe
	.byte	14                              # 0xe
	.byte	14                              # 0xe
	.byte	14                              # 0xe
	.byte	14                              # 0xe
	.byte	14                              # 0xe
.Lgcm_v3_CPI16_27:
	.byte	128                             # 0x80
	.byte	128                             # 0x80
	.byte	6                               # 0x6
	.byte	6                               # 0x6
	.byte	128                             # 0x80
	.byte	128                             # 0x80
	.byte	6                               # 0x6
	.byte	6                               # 0x6
	.byte	128                             # 0x80
	.byte	128                             # 0x80
	.byte	6                               # 0x6
	.byte	6                               # 0x6
	.byte	128                             # 0x80
	.byte	128                             # 0x80
	.byte	6                               # 0x6
	.byte	6                               # 0x6
	.byte	128                             # 0x80
	.byte	128                             # 0x80
	.byte	14                              # 0xe
	.byte	14                              # 0xe
	.byte	128                             # 0x80
	.byte	128                             # 0x80
	.byte	14                              # 0xe
	.byte	14                              # 0xe
	.byte	128                             # 0x80
	.byte	128                             # 0x80
	.byte	14                              # 0xe
	.byte	14                              # 0xe
	.byte	128                             # 0x80
	.byte	128                             # 0x80
	.byte	14                              # 0xe
	.byte	14                              # 0xe
.Lgcm_v3_CPI16_28:
	.byte	128                             # 0x80
	.byte	6                               # 0x6
	.byte	128                             # 0x80
	.byte	6                               # 0x6
	.byte	128                             # 0x80
	.byte	6                               # 0x6
	.byte	128                             # 0x80
	.byte	6                               # 0x6
	.byte	128                             # 0x80
	.byte	6                               # 0x6
	.byte	128                             # 0x80
	.byte	6                               # 0x6
	.byte	128                             # 0x80
	.byte	6                               # 0x6
	.byte	128                             # 0x80
	.byte	6                               # 0x6
	.byte	128                             # 0x80
	.byte	14                              # 0xe
	.byte	128                             # 0x80
	.byte	14                              # 0xe
	.byte	128                             # 0x80
	.byte	14                              # 0xe
	.byte	128                             # 0x80
	.byte	14                              # 0xe
	.byte	128                             # 0x80
	.byte	14                              # 0xe
	.byte	128                             # 0x80
	.byte	14                              # 0xe
	.byte	128                             # 0x80
	.byte	14                              # 0xe
	.byte	128                             # 0x80
	.byte	14                              # 0xe
.Lgcm_v3_CPI16_29:
	.byte	128                             # 0x80
	.byte	128                             # 0x80
	.byte	128                             # 0x80
	.byte	128                             # 0x80
	.byte	7                               # 0x7
	.byte	7                               # 0x7
	.byte	7                               # 0x7
	.byte	7                               # 0x7
	.byte	128                             # 0x80
	.byte	128                             # 0x80
	.byte	128                             # 0x80
	.byte	128                             # 0x80
	.byte	7                               # 0x7
	.byte	7                               # 0x7
	.byte	7                               # 0x7
	.byte	7                               # 0x7
	.byte	128                             # 0x80
	.byte	128                             # 0x80
	.byte	128                             # 0x80
	.byte	128                             # 0x80
	.byte	15                              # 0xf
	.byte	15                              # 0xf
	.byte	15                              # 0xf
	.byte	15                              # 0xf
	.byte	128                             # 0x80
	.byte	128                             # 0x80
	.byte	128                             # 0x80
	.byte	128                             # 0x80
	.byte	15                              # 0xf
	.byte	15                              # 0xf
	.byte	15                              # 0xf
	.byte	15                              # 0xf
.Lgcm_v3_CPI16_30:
	.byte	128                             # 0x80
	.byte	128                             # 0x80
	.byte	128                             # 0x80
	.byte	128                             # 0x80
	.byte	128                             # 0x80
	.byte	128                             # 0x80
	.byte	128                             # 0x80
	.byte	128                             # 0x80
	.byte	7                               # 0x7
	.byte	7                               # 0x7
	.byte	7                               # 0x7
	.byte	7                               # 0x7
	.byte	7                               # 0x7
	.byte	7                               # 0x7
	.byte	7                               # 0x7
	.byte	7                               # 0x7
	.byte	128                             # 0x80
	.byte	128                             # 0x80
	.byte	128                             # 0x80
	.byte	128                             # 0x80
	.byte	128                             # 0x80
	.byte	128                             # 0x80
	.byte	128                             # 0x80
	.byte	128                             # 0x80
	.byte	15                              # 0xf
	.byte	15                              # 0xf
	.byte	15                              # 0xf
	.byte	15                              # 0xf
	.byte	15                              # 0xf
	.byte	15                              # 0xf
	.byte	15                              # 0xf
	.byte	15                              # 0xf
.Lgcm_v3_CPI16_31:
	.byte	128                             # 0x80
	.byte	128                             # 0x80
	.byte	7                               # 0x7
	.byte	7                               # 0x7
	.byte	128                             # 0x80
	.byte	128                             # 0x80
	.byte	7                               # 0x7
	.byte	7                               # 0x7
	.byte	128                             # 0x80
	.byte	128                             # 0x80
	.byte	7                               # 0x7
	.byte	7                               # 0x7
	.byte	128                             # 0x80
	.byte	128                             # 0x80
	.byte	7                               # 0x7
	.byte	7                               # 0x7
	.byte	128                             # 0x80
	.byte	128                             # 0x80
	.byte	15                              # 0xf
	.byte	15                              # 0xf
	.byte	128                             # 0x80
	.byte	128                             # 0x80
	.byte	15                              # 0xf
	.byte	15                              # 0xf
	.byte	128                             # 0x80
	.byte	128                             # 0x80
	.byte	15                              # 0xf
	.byte	15                              # 0xf
	.byte	128                             # 0x80
	.byte	128                             # 0x80
	.byte	15                              # 0xf
	.byte	15                              # 0xf
.Lgcm_v3_CPI16_32:
	.byte	128                             # 0x80
	.byte	7                               # 0x7
	.byte	128                             # 0x80
	.byte	7                               # 0x7
	.byte	128                             # 0x80
	.byte	7                               # 0x7
	.byte	128                             # 0x80
	.byte	7                               # 0x7
	.byte	128                             # 0x80
	.byte	7                               # 0x7
	.byte	128                             # 0x80
	.byte	7                               # 0x7
	.byte	128                             # 0x80
	.byte	7                               # 0x7
	.byte	128                             # 0x80
	.byte	7                               # 0x7
	.byte	128                             # 0x80
	.byte	15                              # 0xf
	.byte	128                             # 0x80
	.byte	15                              # 0xf
	.byte	128                             # 0x80
	.byte	15                              # 0xf
	.byte	128                             # 0x80
	.byte	15                              # 0xf
	.byte	128                             # 0x80
	.byte	15                              # 0xf
	.byte	128                             # 0x80
	.byte	15                              # 0xf
	.byte	128                             # 0x80
	.byte	15                              # 0xf
	.byte	128                             # 0x80
	.byte	15                              # 0xf
.Lgcm_v3_CPI16_36:
	.zero	32,240
	.section	.rodata.cst8,"aM",@progbits,8
	.p2align	3, 0x0
.Lgcm_v3_CPI16_37:
	.byte	0                               # 0x0
	.byte	32                              # 0x20
	.byte	64                              # 0x40
	.byte	96                              # 0x60
	.byte	128                             # 0x80
	.byte	160                             # 0xa0
	.byte	192                             # 0xc0
	.byte	224                             # 0xe0
	.section	.rodata.cst4,"aM",@progbits,4
	.p2align	2, 0x0
.Lgcm_v3_CPI16_38:
	.zero	4,240
	.section	.text.gcm_v3.gcm.multiples.put_table,"ax",@progbits
	.p2align	4
	.type	gcm_v3.gcm.multiples.put_table,@function
gcm_v3.gcm.multiples.put_table:            # @gcm_v3.gcm.multiples.put_table
# %bb.0:                                # %start
	movq	%rdx, %rax
	vmovq	%rdx, %xmm0
	shldq	$63, %rsi, %rdx
	movq	%rsi, %rcx
	movq	%rsi, %r8
	vmovq	%rsi, %xmm1
                                        # kill: def $esi killed $esi killed $rsi def $rsi
	andl	$1, %esi
	negq	%rsi
	movabsq	$-2233785415175766016, %r9      # imm = 0xE100000000000000
	andq	%r9, %rsi
	shrq	%rax
	xorq	%rax, %rsi
	shldq	$63, %rdx, %rax
	vmovq	%rsi, %xmm2
	shrq	%rsi
	shlq	$62, %rcx
	sarq	$63, %rcx
	andq	%r9, %rcx
	xorq	%rsi, %rcx
	shldq	$63, %rax, %rsi
	vmovq	%rcx, %xmm3
	shrq	%rcx
	shlq	$61, %r8
	sarq	$63, %r8
	andq	%r9, %r8
	xorq	%rcx, %r8
	vmovq	%rsi, %xmm4
	vmovq	%r8, %xmm5
	vpunpcklqdq	%xmm5, %xmm4, %xmm4     # xmm4 = xmm4[0],xmm5[0]
	vmovq	%rax, %xmm5
	vmovq	%rdx, %xmm6
	vpunpcklqdq	%xmm2, %xmm6, %xmm2     # xmm2 = xmm6[0],xmm2[0]
	vpunpcklqdq	%xmm0, %xmm1, %xmm0     # xmm0 = xmm1[0],xmm0[0]
	vmovdqa	.Lgcm_v3_CPI16_0(%rip), %xmm1          # xmm1 = [15,14,13,12,11,10,9,8,7,6,5,4,3,2,1,0]
	vpshufb	%xmm1, %xmm2, %xmm2
	vpermq	$68, %ymm2, %ymm7               # ymm7 = ymm2[0,1,0,1]
	vpshufb	.Lgcm_v3_CPI16_1(%rip), %ymm7, %ymm2   # ymm2 = zero,zero,zero,zero,ymm7[0,0,0,0],zero,zero,zero,zero,ymm7[0,0,0,0],zero,zero,zero,zero,ymm7[24,24,24,24],zero,zero,zero,zero,ymm7[24,24,24,24]
	vpshufb	%xmm1, %xmm0, %xmm0
	vpermq	$68, %ymm0, %ymm8               # ymm8 = ymm0[0,1,0,1]
	vpshufb	.Lgcm_v3_CPI16_2(%rip), %ymm8, %ymm0   # ymm0 = zero,zero,zero,zero,zero,zero,zero,zero,ymm8[0,0,0,0,0,0,0,0],zero,zero,zero,zero,zero,zero,zero,zero,ymm8[24,24,24,24,24,24,24,24]
	vpunpcklqdq	%xmm3, %xmm5, %xmm3     # xmm3 = xmm5[0],xmm3[0]
	vpxor	%ymm0, %ymm2, %ymm0
	vpshufb	%xmm1, %xmm3, %xmm2
	vpermq	$68, %ymm2, %ymm9               # ymm9 = ymm2[0,1,0,1]
	vpshufb	.Lgcm_v3_CPI16_3(%rip), %ymm9, %ymm2   # ymm2 = zero,zero,ymm9[0,0],zero,zero,ymm9[0,0],zero,zero,ymm9[0,0],zero,zero,ymm9[0,0],zero,zero,ymm9[24,24],zero,zero,ymm9[24,24],zero,zero,ymm9[24,24],zero,zero,ymm9[24,24]
	vpxor	%ymm2, %ymm0, %ymm0
	vpshufb	%xmm1, %xmm4, %xmm1
	vpermq	$68, %ymm1, %ymm10              # ymm10 = ymm1[0,1,0,1]
	vpshufb	.Lgcm_v3_CPI16_4(%rip), %ymm10, %ymm1  # ymm1 = zero,ymm10[0],zero,ymm10[0],zero,ymm10[0],zero,ymm10[0],zero,ymm10[0],zero,ymm10[0],zero,ymm10[0],zero,ymm10[0],zero,ymm10[24],zero,ymm10[24],zero,ymm10[24],zero,ymm10[24],zero,ymm10[24],zero,ymm10[24],zero,ymm10[24],zero,ymm10[24]
	vpxor	%ymm1, %ymm0, %ymm0
	vmovdqu	%ymm0, (%rdi)
	vpshufb	.Lgcm_v3_CPI16_5(%rip), %ymm7, %ymm1   # ymm1 = zero,zero,zero,zero,ymm7[1,1,1,1],zero,zero,zero,zero,ymm7[1,1,1,1],zero,zero,zero,zero,ymm7[25,25,25,25],zero,zero,zero,zero,ymm7[25,25,25,25]
	vpshufb	.Lgcm_v3_CPI16_6(%rip), %ymm8, %ymm2   # ymm2 = zero,zero,zero,zero,zero,zero,zero,zero,ymm8[1,1,1,1,1,1,1,1],zero,zero,zero,zero,zero,zero,zero,zero,ymm8[25,25,25,25,25,25,25,25]
	vpxor	%ymm2, %ymm1, %ymm1
	vpshufb	.Lgcm_v3_CPI16_7(%rip), %ymm9, %ymm2   # ymm2 = zero,zero,ymm9[1,1],zero,zero,ymm9[1,1],zero,zero,ymm9[1,1],zero,zero,ymm9[1,1],zero,zero,ymm9[25,25],zero,zero,ymm9[25,25],zero,zero,ymm9[25,25],zero,zero,ymm9[25,25]
	vpshufb	.Lgcm_v3_CPI16_8(%rip), %ymm10, %ymm3  # ymm3 = zero,ymm10[1],zero,ymm10[1],zero,ymm10[1],zero,ymm10[1],zero,ymm10[1],zero,ymm10[1],zero,ymm10[1],zero,ymm10[1],zero,ymm10[25],zero,ymm10[25],zero,ymm10[25],zero,ymm10[25],zero,ymm10[25],zero,ymm10[25],zero,ymm10[25],zero,ymm10[25]
	vpxor	%ymm2, %ymm1, %ymm1
	vpxor	%ymm3, %ymm1, %ymm1
	vmovdqu	%ymm1, 32(%rdi)
	vpshufb	.Lgcm_v3_CPI16_9(%rip), %ymm7, %ymm2   # ymm2 = zero,zero,zero,zero,ymm7[2,2,2,2],zero,zero,zero,zero,ymm7[2,2,2,2],zero,zero,zero,zero,ymm7[26,26,26,26],zero,zero,zero,zero,ymm7[26,26,26,26]
	vpshufb	.Lgcm_v3_CPI16_10(%rip), %ymm8, %ymm3  # ymm3 = zero,zero,zero,zero,zero,zero,zero,zero,ymm8[2,2,2,2,2,2,2,2],zero,zero,zero,zero,zero,zero,zero,zero,ymm8[26,26,26,26,26,26,26,26]
	vpxor	%ymm3, %ymm2, %ymm2
	vpshufb	.Lgcm_v3_CPI16_11(%rip), %ymm9, %ymm3  # ymm3 = zero,zero,ymm9[2,2],zero,zero,ymm9[2,2],zero,zero,ymm9[2,2],zero,zero,ymm9[2,2],zero,zero,ymm9[26,26],zero,zero,ymm9[26,26],zero,zero,ymm9[26,26],zero,zero,ymm9[26,26]
	vpxor	%ymm3, %ymm2, %ymm2
	vpshufb	.Lgcm_v3_CPI16_12(%rip), %ymm10, %ymm3 # ymm3 = zero,ymm10[2],zero,ymm10[2],zero,ymm10[2],zero,ymm10[2],zero,ymm10[2],zero,ymm10[2],zero,ymm10[2],zero,ymm10[2],zero,ymm10[26],zero,ymm10[26],zero,ymm10[26],zero,ymm10[26],zero,ymm10[26],zero,ymm10[26],zero,ymm10[26],zero,ymm10[26]
	vpxor	%ymm3, %ymm2, %ymm2
	vmovdqu	%ymm2, 64(%rdi)
	vpshufb	.Lgcm_v3_CPI16_13(%rip), %ymm7, %ymm3  # ymm3 = zero,zero,zero,zero,ymm7[3,3,3,3],zero,zero,zero,zero,ymm7[3,3,3,3],zero,zero,zero,zero,ymm7[27,27,27,27],zero,zero,zero,zero,ymm7[27,27,27,27]
	vpshufb	.Lgcm_v3_CPI16_14(%rip), %ymm8, %ymm4  # ymm4 = zero,zero,zero,zero,zero,zero,zero,zero,ymm8[3,3,3,3,3,3,3,3],zero,zero,zero,zero,zero,zero,zero,zero,ymm8[27,27,27,27,27,27,27,27]
	vpxor	%ymm4, %ymm3, %ymm3
	vpshufb	.Lgcm_v3_CPI16_15(%rip), %ymm9, %ymm4  # ymm4 = zero,zero,ymm9[3,3],zero,zero,ymm9[3,3],zero,zero,ymm9[3,3],zero,zero,ymm9[3,3],zero,zero,ymm9[27,27],zero,zero,ymm9[27,27],zero,zero,ymm9[27,27],zero,zero,ymm9[27,27]
	vpshufb	.Lgcm_v3_CPI16_16(%rip), %ymm10, %ymm5 # ymm5 = zero,ymm10[3],zero,ymm10[3],zero,ymm10[3],zero,ymm10[3],zero,ymm10[3],zero,ymm10[3],zero,ymm10[3],zero,ymm10[3],zero,ymm10[27],zero,ymm10[27],zero,ymm10[27],zero,ymm10[27],zero,ymm10[27],zero,ymm10[27],zero,ymm10[27],zero,ymm10[27]
	vpxor	%ymm4, %ymm3, %ymm3
	vpxor	%ymm5, %ymm3, %ymm3
	vmovdqu	%ymm3, 96(%rdi)
	vpshufb	.Lgcm_v3_CPI16_17(%rip), %ymm7, %ymm4  # ymm4 = zero,zero,zero,zero,ymm7[4,4,4,4],zero,zero,zero,zero,ymm7[4,4,4,4],zero,zero,zero,zero,ymm7[28,28,28,28],zero,zero,zero,zero,ymm7[28,28,28,28]
	vpshufb	.Lgcm_v3_CPI16_18(%rip), %ymm8, %ymm5  # ymm5 = zero,zero,zero,zero,zero,zero,zero,zero,ymm8[4,4,4,4,4,4,4,4],zero,zero,zero,zero,zero,zero,zero,zero,ymm8[28,28,28,28,28,28,28,28]
	vpxor	%ymm5, %ymm4, %ymm4
	vpshufb	.Lgcm_v3_CPI16_19(%rip), %ymm9, %ymm5  # ymm5 = zero,zero,ymm9[4,4],zero,zero,ymm9[4,4],zero,zero,ymm9[4,4],zero,zero,ymm9[4,4],zero,zero,ymm9[28,28],zero,zero,ymm9[28,28],zero,zero,ymm9[28,28],zero,zero,ymm9[28,28]
	vpxor	%ymm5, %ymm4, %ymm4
	vpshufb	.Lgcm_v3_CPI16_20(%rip), %ymm10, %ymm5 # ymm5 = zero,ymm10[4],zero,ymm10[4],zero,ymm10[4],zero,ymm10[4],zero,ymm10[4],zero,ymm10[4],zero,ymm10[4],zero,ymm10[4],zero,ymm10[28],zero,ymm10[28],zero,ymm10[28],zero,ymm10[28],zero,ymm10[28],zero,ymm10[28],zero,ymm10[28],zero,ymm10[28]
	vpxor	%ymm5, %ymm4, %ymm4
	vmovdqu	%ymm4, 128(%rdi)
	vpshufb	.Lgcm_v3_CPI16_21(%rip), %ymm7, %ymm5  # ymm5 = zero,zero,zero,zero,ymm7[5,5,5,5],zero,zero,zero,zero,ymm7[5,5,5,5],zero,zero,zero,zero,ymm7[29,29,29,29],zero,zero,zero,zero,ymm7[29,29,29,29]
	vpshufb	.Lgcm_v3_CPI16_22(%rip), %ymm8, %ymm6  # ymm6 = zero,zero,zero,zero,zero,zero,zero,zero,ymm8[5,5,5,5,5,5,5,5],zero,zero,zero,zero,zero,zero,zero,zero,ymm8[29,29,29,29,29,29,29,29]
	vpxor	%ymm6, %ymm5, %ymm5
	vpshufb	.Lgcm_v3_CPI16_23(%rip), %ymm9, %ymm6  # ymm6 = zero,zero,ymm9[5,5],zero,zero,ymm9[5,5],zero,zero,ymm9[5,5],zero,zero,ymm9[5,5],zero,zero,ymm9[29,29],zero,zero,ymm9[29,29],zero,zero,ymm9[29,29],zero,zero,ymm9[29,29]
	vpshufb	.Lgcm_v3_CPI16_24(%rip), %ymm10, %ymm11 # ymm11 = zero,ymm10[5],zero,ymm10[5],zero,ymm10[5],zero,ymm10[5],zero,ymm10[5],zero,ymm10[5],zero,ymm10[5],zero,ymm10[5],zero,ymm10[29],zero,ymm10[29],zero,ymm10[29],zero,ymm10[29],zero,ymm10[29],zero,ymm10[29],zero,ymm10[29],zero,ymm10[29]
	vpxor	%ymm6, %ymm5, %ymm5
	vpxor	%ymm5, %ymm11, %ymm5
	vmovdqu	%ymm5, 160(%rdi)
	vpshufb	.Lgcm_v3_CPI16_25(%rip), %ymm7, %ymm6  # ymm6 = zero,zero,zero,zero,ymm7[6,6,6,6],zero,zero,zero,zero,ymm7[6,6,6,6],zero,zero,zero,zero,ymm7[30,30,30,30],zero,zero,zero,zero,ymm7[30,30,30,30]
	vpshufb	.Lgcm_v3_CPI16_26(%rip), %ymm8, %ymm11 # ymm11 = zero,zero,zero,zero,zero,zero,zero,zero,ymm8[6,6,6,6,6,6,6,6],zero,zero,zero,zero,zero,zero,zero,zero,ymm8[30,30,30,30,30,30,30,30]
	vpxor	%ymm6, %ymm11, %ymm6
	vpshufb	.Lgcm_v3_CPI16_27(%rip), %ymm9, %ymm11 # ymm11 = zero,zero,ymm9[6,6],zero,zero,ymm9[6,6],zero,zero,ymm9[6,6],zero,zero,ymm9[6,6],zero,zero,ymm9[30,30],zero,zero,ymm9[30,30],zero,zero,ymm9[30,30],zero,zero,ymm9[30,30]
	vpxor	%ymm6, %ymm11, %ymm6
	vpshufb	.Lgcm_v3_CPI16_28(%rip), %ymm10, %ymm11 # ymm11 = zero,ymm10[6],zero,ymm10[6],zero,ymm10[6],zero,ymm10[6],zero,ymm10[6],zero,ymm10[6],zero,ymm10[6],zero,ymm10[6],zero,ymm10[30],zero,ymm10[30],zero,ymm10[30],zero,ymm10[30],zero,ymm10[30],zero,ymm10[30],zero,ymm10[30],zero,ymm10[30]
	vpxor	%ymm6, %ymm11, %ymm6
	vmovdqu	%ymm6, 192(%rdi)
	vpshufb	.Lgcm_v3_CPI16_29(%rip), %ymm7, %ymm7  # ymm7 = zero,zero,zero,zero,ymm7[7,7,7,7],zero,zero,zero,zero,ymm7[7,7,7,7],zero,zero,zero,zero,ymm7[31,31,31,31],zero,zero,zero,zero,ymm7[31,31,31,31]
	vpshufb	.Lgcm_v3_CPI16_30(%rip), %ymm8, %ymm8  # ymm8 = zero,zero,zero,zero,zero,zero,zero,zero,ymm8[7,7,7,7,7,7,7,7],zero,zero,zero,zero,zero,zero,zero,zero,ymm8[31,31,31,31,31,31,31,31]
	vpshufb	.Lgcm_v3_CPI16_31(%rip), %ymm9, %ymm9  # ymm9 = zero,zero,ymm9[7,7],zero,zero,ymm9[7,7],zero,zero,ymm9[7,7],zero,zero,ymm9[7,7],zero,zero,ymm9[31,31],zero,zero,ymm9[31,31],zero,zero,ymm9[31,31],zero,zero,ymm9[31,31]
	vpxor	%ymm7, %ymm8, %ymm7
	vpxor	%ymm7, %ymm9, %ymm7
	vpshufb	.Lgcm_v3_CPI16_32(%rip), %ymm10, %ymm8 # ymm8 = zero,ymm10[7],zero,ymm10[7],zero,ymm10[7],zero,ymm10[7],zero,ymm10[7],zero,ymm10[7],zero,ymm10[7],zero,ymm10[7],zero,ymm10[31],zero,ymm10[31],zero,ymm10[31],zero,ymm10[31],zero,ymm10[31],zero,ymm10[31],zero,ymm10[31],zero,ymm10[31]
	vpxor	%ymm7, %ymm8, %ymm7
	vmovdqu	%ymm7, 224(%rdi)
	vmovdqu	240(%rdi), %xmm8
	vpand	.Lgcm_v3_CPI16_33(%rip), %xmm8, %xmm8
	vmovdqa	.Lgcm_v3_CPI16_34(%rip), %xmm9         # xmm9 = [0,28,56,36,112,108,72,84,225,253,217,197,145,141,169,181]
	vpshufb	%xmm8, %xmm9, %xmm9
	vpbroadcastq	.Lgcm_v3_CPI16_37(%rip), %xmm10 # xmm10 = [0,32,64,96,128,160,192,224,0,32,64,96,128,160,192,224]
	vpxor	%xmm11, %xmm11, %xmm11
	vinserti128	$1, 224(%rdi), %ymm11, %ymm11
	vpshufb	%xmm8, %xmm10, %xmm10
	vpsrlw	$4, %ymm0, %ymm12
	vpbroadcastd	.Lgcm_v3_CPI16_38(%rip), %ymm8 # ymm8 = [240,240,240,240,240,240,240,240,240,240,240,240,240,240,240,240,240,240,240,240,240,240,240,240,240,240,240,240,240,240,240,240]
	vpandn	%ymm12, %ymm8, %ymm12
	vpsllw	$4, %ymm11, %ymm11
	vpand	%ymm8, %ymm11, %ymm11
	vpor	%ymm12, %ymm11, %ymm11
	vpxor	%ymm9, %ymm11, %ymm9
	vpblendd	$240, %ymm11, %ymm9, %ymm9      # ymm9 = ymm9[0,1,2,3],ymm11[4,5,6,7]
	vmovdqu	%ymm9, 256(%rdi)
	vpsrlw	$4, %ymm1, %ymm9
	vpandn	%ymm9, %ymm8, %ymm9
	vpsllw	$4, %ymm0, %ymm0
	vpand	%ymm0, %ymm8, %ymm0
	vpor	%ymm0, %ymm9, %ymm0
	vpxor	%ymm0, %ymm10, %ymm9
	vpblendd	$240, %ymm0, %ymm9, %ymm0       # ymm0 = ymm9[0,1,2,3],ymm0[4,5,6,7]
	vmovdqu	%ymm0, 288(%rdi)
	vpsrlw	$4, %ymm2, %ymm0
	vpandn	%ymm0, %ymm8, %ymm0
	vpsllw	$4, %ymm1, %ymm1
	vpand	%ymm1, %ymm8, %ymm1
	vpor	%ymm0, %ymm1, %ymm0
	vmovdqu	%ymm0, 320(%rdi)
	vpsrlw	$4, %ymm3, %ymm0
	vpandn	%ymm0, %ymm8, %ymm0
	vpsllw	$4, %ymm2, %ymm1
	vpand	%ymm1, %ymm8, %ymm1
	vpor	%ymm0, %ymm1, %ymm0
	vmovdqu	%ymm0, 352(%rdi)
	vpsrlw	$4, %ymm4, %ymm0
	vpandn	%ymm0, %ymm8, %ymm0
	vpsllw	$4, %ymm3, %ymm1
	vpand	%ymm1, %ymm8, %ymm1
	vpor	%ymm0, %ymm1, %ymm0
	vmovdqu	%ymm0, 384(%rdi)
	vpsrlw	$4, %ymm5, %ymm0
	vpandn	%ymm0, %ymm8, %ymm0
	vpsllw	$4, %ymm4, %ymm1
	vpand	%ymm1, %ymm8, %ymm1
	vpor	%ymm0, %ymm1, %ymm0
	vmovdqu	%ymm0, 416(%rdi)
	vpsrlw	$4, %ymm6, %ymm0
	vpandn	%ymm0, %ymm8, %ymm0
	vpsllw	$4, %ymm5, %ymm1
	vpand	%ymm1, %ymm8, %ymm1
	vpor	%ymm0, %ymm1, %ymm0
	vmovdqu	%ymm0, 448(%rdi)
	vpsrlw	$4, %ymm7, %ymm0
	vpandn	%ymm0, %ymm8, %ymm0
	vpsllw	$4, %ymm6, %ymm1
	vpand	%ymm1, %ymm8, %ymm1
	vpor	%ymm0, %ymm1, %ymm0
	vmovdqu	%ymm0, 480(%rdi)
	vzeroupper
	retq
.Lgcm_v3_func_end16:
	.size	gcm_v3.gcm.multiples.put_table, .Lgcm_v3_func_end16-gcm_v3.gcm.multiples.put_table
                                        # -- End function
	.section	.text.gcm_v3.gcm.mode.BorrowedGcm.compare,"ax",@progbits
	.p2align	4                               # -- Begin function gcm::mode::BorrowedGcm::compare::<#8da2abccd8f5ef8c>
	.type	gcm_v3.gcm.mode.BorrowedGcm.compare,@function
gcm_v3.gcm.mode.BorrowedGcm.compare: # @gcm_v3.gcm.mode.BorrowedGcm.compare
# %bb.0:                                # %start
	movabsq	$-2305843009213693952, %r10     # imm = 0xE000000000000000
	leaq	(%rdx,%r10), %r11
	incq	%r10
	movb	$1, %al
	cmpq	%r10, %r11
	jb	.Lgcm_v3_BB17_4
# %bb.1:                                # %else.7
	pushq	%rbp
	pushq	%r15
	pushq	%r14
	pushq	%r13
	pushq	%r12
	pushq	%rbx
	subq	$24, %rsp
	movq	80(%rsp), %rbx
	movabsq	$68719476704, %r10              # imm = 0xFFFFFFFE0
	cmpq	%r10, %rbx
	seta	%r10b
	movq	%r8, %r11
	shrq	$61, %r11
	setne	%r11b
	orb	%r10b, %r11b
	jne	.Lgcm_v3_BB17_3
# %bb.2:                                # %after.1
	movq	96(%rsp), %rax
	movq	%rdi, %r12
	movq	%rcx, %r13
	movq	%rax, %rcx
	movq	%r9, %rbp
	movq	%r8, %r15
	callq	gcm_v3.gcm.mode.BorrowedGcm.put_pre_counter
	leaq	8(%rsp), %r14
	movq	%r14, (%rsp)
	movq	%r12, %rdi
	movq	96(%rsp), %rsi
	movq	%r13, %rdx
	movq	%r15, %rcx
	movq	%rbp, %r8
	movq	%rbx, %r9
	callq	gcm_v3.gcm.mode.BorrowedGcm.put_tag
	movq	88(%rsp), %rdi
	movq	%r14, %rsi
	callq	gcm_v3.aes_cipher.blocks.difference
	testl	%eax, %eax
	setne	%bl
	movq	%r14, %rdi
	callq	gcm_v3.aes_cipher.zeroize.elements.zeroize_elements.3
	movl	%ebx, %eax
.Lgcm_v3_BB17_3:
	addq	$24, %rsp
	popq	%rbx
	popq	%r12
	popq	%r13
	popq	%r14
	popq	%r15
	popq	%rbp
.Lgcm_v3_BB17_4:                               # %return.13
	retq
.Lgcm_v3_func_end17:
	.size	gcm_v3.gcm.mode.BorrowedGcm.compare, .Lgcm_v3_func_end17-gcm_v3.gcm.mode.BorrowedGcm.compare
                                        # -- End function
	.section	.rodata.cst16,"aM",@progbits,16
	.p2align	4, 0x0                          # -- Begin function gcm::mode::BorrowedGcm::put_tag::<#8da2abccd8f5ef8c>
.Lgcm_v3_CPI18_0:
	.byte	15                              # 0xf
	.byte	14                              # 0xe
	.byte	13                              # 0xd
	.byte	12                              # 0xc
	.byte	11                              # 0xb
	.byte	10                              # 0xa
	.byte	9                               # 0x9
	.byte	8                               # 0x8
	.byte	7                               # 0x7
	.byte	6                               # 0x6
	.byte	5                               # 0x5
	.byte	4                               # 0x4
	.byte	3                               # 0x3
	.byte	2                               # 0x2
	.byte	1                               # 0x1
	.byte	0                               # 0x0
	.section	.text.gcm_v3.gcm.mode.BorrowedGcm.put_tag,"ax",@progbits
	.p2align	4
	.type	gcm_v3.gcm.mode.BorrowedGcm.put_tag,@function
gcm_v3.gcm.mode.BorrowedGcm.put_tag: # @gcm_v3.gcm.mode.BorrowedGcm.put_tag
# %bb.0:                                # %start
	pushq	%rbp
	pushq	%r15
	pushq	%r14
	pushq	%r13
	pushq	%r12
	pushq	%rbx
	subq	$104, %rsp
	movq	%r9, %r15
	movq	%r8, 32(%rsp)                   # 8-byte Spill
	movq	%rcx, %r13
	movq	%rdx, %rbp
	movq	%rdi, %r12
	movq	160(%rsp), %r14
	movq	%r14, %rdx
	callq	gcm_v3.gcm.tags.put_mask
	movq	32(%r12), %rdi
	xorl	%esi, %esi
	xorl	%edx, %edx
	movq	%rbp, %rcx
	movq	%r13, %r8
	callq	gcm_v3.gcm.hash_room.MultiplesRoomHashRoom.hash_on
	vmovq	%rdx, %xmm0
	movq	%r13, %rcx
	shrq	$53, %rcx
	vmovq	%rax, %xmm1
	movq	%r13, %rax
	shrq	$29, %rax
	vmovd	%ecx, %xmm2
	movq	%r13, %rcx
	shrq	$45, %rcx
	vpinsrb	$1, %ecx, %xmm2, %xmm2
	movq	%r13, %rcx
	shrq	$37, %rcx
	vpinsrb	$2, %ecx, %xmm2, %xmm2
	movl	%r13d, %ecx
	shrl	$21, %ecx
	vpinsrb	$3, %eax, %xmm2, %xmm2
	vpinsrb	$4, %ecx, %xmm2, %xmm2
	vpunpcklqdq	%xmm0, %xmm1, %xmm0     # xmm0 = xmm1[0],xmm0[0]
	movq	%r15, %rax
	movl	%r13d, %ecx
	shrl	$13, %ecx
	vpinsrb	$5, %ecx, %xmm2, %xmm1
	shrq	$53, %rax
	movl	%r13d, %ecx
	shrl	$5, %ecx
	vpinsrb	$6, %ecx, %xmm1, %xmm1
	movq	%r15, %rcx
	shrq	$29, %rcx
	shlb	$3, %r13b
	vpinsrb	$7, %r13d, %xmm1, %xmm1
	movq	%r15, %rdx
	shrq	$45, %rdx
	vpinsrb	$8, %eax, %xmm1, %xmm1
	movq	%r15, %rax
	shrq	$37, %rax
	vpinsrb	$9, %edx, %xmm1, %xmm1
	movl	%r15d, %edx
	vpinsrb	$10, %eax, %xmm1, %xmm1
	shrl	$21, %edx
	movl	%r15d, %eax
	shrl	$13, %eax
	vpinsrb	$11, %ecx, %xmm1, %xmm1
	movl	%r15d, %ecx
	shrl	$5, %ecx
	movq	32(%r12), %r12
	vpshufb	.Lgcm_v3_CPI18_0(%rip), %xmm0, %xmm3   # xmm3 = xmm0[15,14,13,12,11,10,9,8,7,6,5,4,3,2,1,0]
	vpinsrb	$12, %edx, %xmm1, %xmm0
	vpinsrb	$13, %eax, %xmm0, %xmm0
	vpinsrb	$14, %ecx, %xmm0, %xmm0
	vmovdqa	%xmm3, (%rsp)
	leal	(,%r15,8), %r13d
	movabsq	$-6148914691236517205, %rax     # imm = 0xAAAAAAAAAAAAAAAB
	movq	%r15, %rdx
	mulxq	%rax, %rbx, %rbx
	shrq	$5, %rbx
	movq	%rbx, %rax
	shlq	$4, %rax
	leaq	(%rax,%rax,2), %rbp
	cmpq	$48, %r15
	jb	.Lgcm_v3_BB18_4
# %bb.1:                                # %join.5.i.i.i.i.preheader
	vmovdqa	%xmm0, 16(%rsp)                 # 16-byte Spill
	movq	32(%rsp), %rax                  # 8-byte Reload
	leaq	32(%rax), %r14
	.p2align	4
.Lgcm_v3_BB18_2:                               # %join.5.i.i.i.i
                                        # =>This Inner Loop Header: Depth=1
	vmovdqa	(%rsp), %xmm0
	vpxor	-32(%r14), %xmm0, %xmm0
	vmovdqu	-16(%r14), %xmm1
	vmovdqu	(%r14), %xmm2
	movq	%rsp, %rdi
	movq	%r12, %rsi
	callq	gcm_v3.gcm.multiples.Multiples.three_products
	addq	$48, %r14
	decq	%rbx
	jne	.Lgcm_v3_BB18_2
# %bb.3:                                # %"gcm::hash::hash_string_and_end::<#4e0b07d5b1f54653>.exit.loopexit.i.i"
	vmovdqa	(%rsp), %xmm3
	movq	160(%rsp), %r14
	vmovdqa	16(%rsp), %xmm0                 # 16-byte Reload
.Lgcm_v3_BB18_4:                               # %"gcm::hash::hash_string_and_end::<#4e0b07d5b1f54653>.exit.i.i"
	vpinsrb	$15, %r13d, %xmm0, %xmm2
	vpxor	%xmm0, %xmm0, %xmm0
	vmovdqa	%xmm0, 48(%rsp)
	cmpq	%rbp, %r15
	jne	.Lgcm_v3_BB18_6
# %bb.5:                                # %then.1.i.i.i
	vpxor	%xmm2, %xmm3, %xmm0
.Lgcm_v3_BB18_17:                              # %"gcm::tags::hash::<#84904cd934dcda78>.exit"
	leaq	48(%rsp), %rdi
	movq	%r12, %rsi
	callq	gcm_v3.gcm.multiples.Multiples.block_product
	jmp	.Lgcm_v3_BB18_18
.Lgcm_v3_BB18_6:                               # %join.3.i.i.i
	movq	%r15, %rdx
	subq	%rbp, %rdx
	cmpq	$16, %rdx
	ja	.Lgcm_v3_BB18_10
# %bb.7:                                # %then.4.i.i.i
	movq	32(%rsp), %rsi                  # 8-byte Reload
	addq	%rbp, %rsi
	cmpq	$16, %rdx
	je	.Lgcm_v3_BB18_9
# %bb.8:                                # %join.3.i45.i.i.i
	vmovdqa	%xmm0, (%rsp)
	movq	%rsp, %r15
	movq	%r15, %rdi
	vmovdqa	%xmm2, 16(%rsp)                 # 16-byte Spill
	vmovdqa	%xmm3, 32(%rsp)                 # 16-byte Spill
	callq	*memcpy@GOTPCREL(%rip)
	vmovdqa	32(%rsp), %xmm3                 # 16-byte Reload
	vmovdqa	16(%rsp), %xmm2                 # 16-byte Reload
	movq	%r15, %rsi
.Lgcm_v3_BB18_9:                               # %"gcm::hash::zero_filled.exit.i.i.i"
	vpxor	(%rsi), %xmm3, %xmm0
	leaq	48(%rsp), %rdi
	movq	%r12, %rsi
	vmovdqa	%xmm2, %xmm1
	callq	gcm_v3.gcm.multiples.Multiples.two_products
	jmp	.Lgcm_v3_BB18_18
.Lgcm_v3_BB18_10:                              # %join.6.i.i.i
	cmpq	$32, %rdx
	movq	32(%rsp), %rbx                  # 8-byte Reload
	ja	.Lgcm_v3_BB18_14
# %bb.11:                               # %then.7.i.i.i
	vpxor	(%rbx,%rbp), %xmm3, %xmm0
	leaq	(%rbx,%rbp), %rsi
	addq	$16, %rsi
	addq	$16, %rbp
	subq	%rbp, %r15
	cmpq	$16, %r15
	je	.Lgcm_v3_BB18_13
# %bb.12:                               # %join.3.i52.i.i.i
	vmovdqa	%xmm0, 32(%rsp)                 # 16-byte Spill
	vpxor	%xmm0, %xmm0, %xmm0
	vmovdqa	%xmm0, (%rsp)
	movq	%r14, %rbx
	movq	%rsp, %r14
	movq	%r14, %rdi
	movq	%r15, %rdx
	vmovdqa	%xmm2, 16(%rsp)                 # 16-byte Spill
	callq	*memcpy@GOTPCREL(%rip)
	vmovdqa	32(%rsp), %xmm0                 # 16-byte Reload
	vmovdqa	16(%rsp), %xmm2                 # 16-byte Reload
	movq	%r14, %rsi
	movq	%rbx, %r14
.Lgcm_v3_BB18_13:                              # %"gcm::hash::zero_filled.exit103.i.i.i"
	vmovdqu	(%rsi), %xmm1
	leaq	48(%rsp), %rdi
	movq	%r12, %rsi
	callq	gcm_v3.gcm.multiples.Multiples.three_products
.Lgcm_v3_BB18_18:                              # %"gcm::tags::hash::<#84904cd934dcda78>.exit"
	movbeq	56(%rsp), %rax
	movbeq	48(%rsp), %rcx
	vmovq	%rcx, %xmm0
	vmovq	%rax, %xmm1
	vpunpcklqdq	%xmm0, %xmm1, %xmm0     # xmm0 = xmm1[0],xmm0[0]
	vpshufb	.Lgcm_v3_CPI18_0(%rip), %xmm0, %xmm0   # xmm0 = xmm0[15,14,13,12,11,10,9,8,7,6,5,4,3,2,1,0]
	vpxor	(%r14), %xmm0, %xmm0
	vmovdqu	%xmm0, (%r14)
	addq	$104, %rsp
	popq	%rbx
	popq	%r12
	popq	%r13
	popq	%r14
	popq	%r15
	popq	%rbp
	retq
.Lgcm_v3_BB18_14:                              # %join.9.i.i.i.i
	vmovdqa	%xmm2, 16(%rsp)                 # 16-byte Spill
	vpxor	%xmm1, %xmm1, %xmm1
	vmovdqa	%xmm1, 64(%rsp)
	vpxor	(%rbx,%rbp), %xmm3, %xmm0
	leaq	32(%rbp), %rax
	leaq	(%rbx,%rbp), %rsi
	addq	$32, %rsi
	subq	%rax, %r15
	cmpq	$16, %r15
	je	.Lgcm_v3_BB18_16
# %bb.15:                               # %join.3.i106.i.i.i
	vmovdqa	%xmm1, (%rsp)
	movq	%rsp, %r13
	movq	%r13, %rdi
	movq	%r15, %rdx
	vmovdqa	%xmm0, 80(%rsp)                 # 16-byte Spill
	callq	*memcpy@GOTPCREL(%rip)
	vmovdqa	80(%rsp), %xmm0                 # 16-byte Reload
	movq	%r13, %rsi
.Lgcm_v3_BB18_16:                              # %"gcm::hash::hash_last_group::<#4e0b07d5b1f54653>.exit.i.i.i"
	vmovdqu	(%rsi), %xmm2
	vmovdqu	16(%rbx,%rbp), %xmm1
	leaq	64(%rsp), %rdi
	movq	%r12, %rsi
	callq	gcm_v3.gcm.multiples.Multiples.three_products
	vmovdqa	16(%rsp), %xmm0                 # 16-byte Reload
	vpxor	64(%rsp), %xmm0, %xmm0
	jmp	.Lgcm_v3_BB18_17
.Lgcm_v3_func_end18:
	.size	gcm_v3.gcm.mode.BorrowedGcm.put_tag, .Lgcm_v3_func_end18-gcm_v3.gcm.mode.BorrowedGcm.put_tag
                                        # -- End function
	.section	.text.gcm_v3.aes_cipher.blocks.difference,"ax",@progbits
	.p2align	4                               # -- Begin function aes_cipher::blocks::difference
	.type	gcm_v3.aes_cipher.blocks.difference,@function
gcm_v3.aes_cipher.blocks.difference:       # @gcm_v3.aes_cipher.blocks.difference
# %bb.0:                                # %start
	vmovdqu	(%rsi), %xmm0
	vpxor	(%rdi), %xmm0, %xmm0
	vpshufd	$238, %xmm0, %xmm1              # xmm1 = xmm0[2,3,2,3]
	vpor	%xmm1, %xmm0, %xmm0
	vpshufd	$85, %xmm0, %xmm1               # xmm1 = xmm0[1,1,1,1]
	vpor	%xmm1, %xmm0, %xmm0
	vpsrld	$16, %xmm0, %xmm1
	vpor	%xmm1, %xmm0, %xmm0
	vpsrlw	$8, %xmm0, %xmm1
	vpor	%xmm1, %xmm0, %xmm0
	vpextrb	$0, %xmm0, %eax
	retq
.Lgcm_v3_func_end19:
	.size	gcm_v3.aes_cipher.blocks.difference, .Lgcm_v3_func_end19-gcm_v3.aes_cipher.blocks.difference
                                        # -- End function
	.section	.rodata.cst16,"aM",@progbits,16
	.p2align	4, 0x0                          # -- Begin function gcm::gctr::add_gctr::<#9afc0f8057cec37b>
.Lgcm_v3_CPI20_0:
	.byte	15                              # 0xf
	.byte	14                              # 0xe
	.byte	13                              # 0xd
	.byte	12                              # 0xc
	.byte	11                              # 0xb
	.byte	10                              # 0xa
	.byte	9                               # 0x9
	.byte	8                               # 0x8
	.byte	7                               # 0x7
	.byte	6                               # 0x6
	.byte	5                               # 0x5
	.byte	4                               # 0x4
	.byte	3                               # 0x3
	.byte	2                               # 0x2
	.byte	1                               # 0x1
	.byte	0                               # 0x0
	.section	.rodata.cst32,"aM",@progbits,32
	.p2align	5, 0x0
.Lgcm_v3_CPI20_1:
	.byte	15                              # 0xf
	.byte	14                              # 0xe
	.byte	13                              # 0xd
	.byte	12                              # 0xc
	.byte	11                              # 0xb
	.byte	10                              # 0xa
	.byte	9                               # 0x9
	.byte	8                               # 0x8
	.byte	7                               # 0x7
	.byte	6                               # 0x6
	.byte	5                               # 0x5
	.byte	4                               # 0x4
	.byte	3                               # 0x3
	.byte	2                               # 0x2
	.byte	1                               # 0x1
	.byte	0                               # 0x0
	.byte	15                              # 0xf
	.byte	14                              # 0xe
	.byte	13                              # 0xd
	.byte	12                              # 0xc
	.byte	11                              # 0xb
	.byte	10                              # 0xa
	.byte	9                               # 0x9
	.byte	8                               # 0x8
	.byte	7                               # 0x7
	.byte	6                               # 0x6
	.byte	5                               # 0x5
	.byte	4                               # 0x4
	.byte	3                               # 0x3
	.byte	2                               # 0x2
	.byte	1                               # 0x1
	.byte	0                               # 0x0
	.section	.text.gcm_v3.gcm.gctr.add_gctr,"ax",@progbits
	.p2align	4
	.type	gcm_v3.gcm.gctr.add_gctr,@function
gcm_v3.gcm.gctr.add_gctr: # @gcm_v3.gcm.gctr.add_gctr
# %bb.0:                                # %start
	testq	%r8, %r8
	je	.Lgcm_v3_BB20_33
# %bb.1:                                # %then.1
	pushq	%rbp
	pushq	%r15
	pushq	%r14
	pushq	%r13
	pushq	%r12
	pushq	%rbx
	subq	$344, %rsp                      # imm = 0x158
	movq	%r8, %r14
	movq	%rcx, %rbx
	vmovdqu	(%rsi), %xmm0
	vmovdqa	%xmm0, (%rsp)
	movl	%edx, %r13d
	andl	$15, %r13d
	movl	$16, %eax
	subq	%r13, %rax
	cmpq	%rax, %r8
	jbe	.Lgcm_v3_BB20_2
# %bb.22:                               # %else.2.i
	leaq	(%r14,%r13), %rax
	movq	%rax, %rcx
	shrq	$4, %rcx
	andl	$15, %eax
	cmpq	$1, %rax
	sbbq	$-1, %rcx
	movq	%rsp, %rax
	movq	%rax, 48(%rsp)
	movq	%rdx, 56(%rsp)
	movq	%rbx, 64(%rsp)
	movq	%r14, 72(%rsp)
	cmpq	$29, %rcx
	jb	.Lgcm_v3_BB20_24
# %bb.23:                               # %then.1.i.i
	movq	%rdi, %rax
	movq	(%rdi), %rdi
	movq	8(%rax), %rcx
	leaq	48(%rsp), %r8
	movq	%rcx, %rsi
	movq	%rdi, %rdx
	callq	gcm_v3.aes_hybrid.closures.lend_planes.1
	jmp	.Lgcm_v3_BB20_32
.Lgcm_v3_BB20_2:                               # %then.1.i
	movq	%rdi, %rax
	movq	16(%rdi), %rdi
	movq	24(%rax), %rsi
	movbeq	(%rsp), %rax
	movbeq	8(%rsp), %rcx
	shrq	$4, %rdx
	movq	%rdx, %r8
	movabsq	$-4294967296, %rdx              # imm = 0xFFFFFFFF00000000
	andq	%rcx, %rdx
	addl	%ecx, %r8d
	orq	%rdx, %r8
	vmovq	%r8, %xmm0
	vmovq	%rax, %xmm1
	vpunpcklqdq	%xmm1, %xmm0, %xmm0     # xmm0 = xmm0[0],xmm1[0]
	vpshufb	.Lgcm_v3_CPI20_0(%rip), %xmm0, %xmm0   # xmm0 = xmm0[15,14,13,12,11,10,9,8,7,6,5,4,3,2,1,0]
	vmovdqa	%xmm0, 80(%rsp)
	leaq	80(%rsp), %r15
	movl	$1, %ecx
	movq	%r15, %rdx
	callq	gcm_v3.aes_permute.blocks.process_on_lanes
	testq	%r13, %r13
	je	.Lgcm_v3_BB20_3
# %bb.4:                                # %then.1.i.i.i
	movl	%r14d, %eax
	andl	$7, %eax
	cmpq	$8, %r14
	jae	.Lgcm_v3_BB20_6
# %bb.5:
	xorl	%edx, %edx
	jmp	.Lgcm_v3_BB20_9
.Lgcm_v3_BB20_24:                              # %else.2.i.i
	testq	%r13, %r13
	je	.Lgcm_v3_BB20_25
# %bb.26:                               # %then.1.i.i10.i
	movq	%rsp, %rsi
	movq	%rdi, %r12
	movq	%rdx, %r15
	xorl	%ecx, %ecx
	movq	%rbx, %r8
	movq	%r14, %r9
	callq	gcm_v3.aes_ctr.add_in_batches.add_next.2
	movq	%r12, %rdi
	movq	%r15, %rdx
	movq	%rax, %r13
	jmp	.Lgcm_v3_BB20_27
.Lgcm_v3_BB20_3:
	xorl	%ecx, %ecx
	jmp	.Lgcm_v3_BB20_12
.Lgcm_v3_BB20_6:                               # %then.1.i.i.i.new
	movq	%r14, %rcx
	andq	$-8, %rcx
	leaq	(%r15,%r13), %rsi
	addq	$7, %rsi
	xorl	%edx, %edx
	.p2align	4
.Lgcm_v3_BB20_7:                               # %join.8.i68.i.i
                                        # =>This Inner Loop Header: Depth=1
	movzbl	-7(%rsi,%rdx), %edi
	xorb	%dil, (%rbx,%rdx)
	movzbl	-6(%rsi,%rdx), %edi
	xorb	%dil, 1(%rbx,%rdx)
	movzbl	-5(%rsi,%rdx), %edi
	xorb	%dil, 2(%rbx,%rdx)
	movzbl	-4(%rsi,%rdx), %edi
	xorb	%dil, 3(%rbx,%rdx)
	movzbl	-3(%rsi,%rdx), %edi
	xorb	%dil, 4(%rbx,%rdx)
	movzbl	-2(%rsi,%rdx), %edi
	xorb	%dil, 5(%rbx,%rdx)
	movzbl	-1(%rsi,%rdx), %edi
	xorb	%dil, 6(%rbx,%rdx)
	movzbl	(%rsi,%rdx), %edi
	xorb	%dil, 7(%rbx,%rdx)
	addq	$8, %rdx
	cmpq	%rdx, %rcx
	jne	.Lgcm_v3_BB20_7
# %bb.8:                                # %join.3.i.i.i.loopexit.unr-lcssa
	movq	%r14, %rcx
	testq	%rax, %rax
	je	.Lgcm_v3_BB20_12
.Lgcm_v3_BB20_9:                               # %join.8.i68.i.i.epil.preheader
	leaq	(%rbx,%rdx), %rcx
	addq	%r13, %rdx
	addq	%rsp, %rdx
	addq	$80, %rdx
	xorl	%esi, %esi
	.p2align	4
.Lgcm_v3_BB20_10:                              # %join.8.i68.i.i.epil
                                        # =>This Inner Loop Header: Depth=1
	movzbl	(%rdx,%rsi), %edi
	xorb	%dil, (%rcx,%rsi)
	incq	%rsi
	cmpq	%rsi, %rax
	jne	.Lgcm_v3_BB20_10
# %bb.11:
	movq	%r14, %rcx
.Lgcm_v3_BB20_12:                              # %join.3.i.i.i
	movq	%r14, %rax
	subq	%rcx, %rax
	cmpq	$16, %rax
	jb	.Lgcm_v3_BB20_14
	.p2align	4
.Lgcm_v3_BB20_13:                              # %join.8.i.i.i
                                        # =>This Inner Loop Header: Depth=1
	leaq	(%rcx,%r13), %rdx
	andq	$-16, %rdx
	vmovdqa	80(%rsp,%rdx), %xmm0
	vpxor	(%rbx,%rcx), %xmm0, %xmm0
	vmovdqu	%xmm0, (%rbx,%rcx)
	addq	$16, %rcx
	addq	$-16, %rax
	cmpq	$15, %rax
	ja	.Lgcm_v3_BB20_13
.Lgcm_v3_BB20_14:                              # %after.4.i.i.i
	cmpq	%r14, %rcx
	jae	.Lgcm_v3_BB20_32
# %bb.15:                               # %then.9.i.i.i
	testq	%rax, %rax
	je	.Lgcm_v3_BB20_32
# %bb.16:                               # %iter.check
	addq	%rcx, %r13
	andq	$-16, %r13
	leaq	(%rsp,%r13), %rdx
	addq	$80, %rdx
	addq	%rcx, %rbx
	cmpq	$8, %rax
	jae	.Lgcm_v3_BB20_18
# %bb.17:
	xorl	%ecx, %ecx
	jmp	.Lgcm_v3_BB20_21
.Lgcm_v3_BB20_25:
	xorl	%r13d, %r13d
.Lgcm_v3_BB20_27:                              # %join.3.i.i11.i
	movq	%r14, 32(%rsp)                  # 8-byte Spill
	movq	%r14, %rbp
	subq	%r13, %rbp
	cmpq	$64, %rbp
	movq	%rdx, 24(%rsp)                  # 8-byte Spill
	movq	%rdi, 16(%rsp)                  # 8-byte Spill
	jb	.Lgcm_v3_BB20_30
# %bb.28:                               # %join.11.lr.ph.i.i.i
	leaq	144(%rsp), %r14
	movbeq	(%rsp), %rdx
	movq	%rdx, 40(%rsp)                  # 8-byte Spill
	movbeq	8(%rsp), %r15
	movabsq	$-4294967296, %r12              # imm = 0xFFFFFFFF00000000
	andq	%r15, %r12
	.p2align	4
.Lgcm_v3_BB20_29:                              # %join.11.i.i.i
                                        # =>This Inner Loop Header: Depth=1
	movq	24(%rsp), %rax                  # 8-byte Reload
	addq	%r13, %rax
	shrq	$4, %rax
	vpxor	%xmm0, %xmm0, %xmm0
	vmovdqu	%ymm0, 160(%r14)
	vmovdqu	%ymm0, 128(%r14)
	vmovdqu	%ymm0, 96(%r14)
	vmovdqu	%ymm0, 64(%r14)
	vmovdqu	%ymm0, 32(%r14)
	vmovdqu	%ymm0, (%r14)
	leal	(%r15,%rax), %ecx
	orq	%r12, %rcx
	vmovq	%rcx, %xmm0
	vmovq	40(%rsp), %xmm1                 # 8-byte Folded Reload
                                        # xmm1 = mem[0],zero
	vpunpcklqdq	%xmm1, %xmm0, %xmm0     # xmm0 = xmm0[0],xmm1[0]
	leal	(%r15,%rax), %ecx
	incl	%ecx
	orq	%r12, %rcx
	vmovq	%rcx, %xmm2
	vpunpcklqdq	%xmm1, %xmm2, %xmm2     # xmm2 = xmm2[0],xmm1[0]
	vinserti128	$1, %xmm2, %ymm0, %ymm0
	vbroadcasti128	.Lgcm_v3_CPI20_0(%rip), %ymm2  # ymm2 = [15,14,13,12,11,10,9,8,7,6,5,4,3,2,1,0,15,14,13,12,11,10,9,8,7,6,5,4,3,2,1,0]
                                        # ymm2 = mem[0,1,0,1]
	vpshufb	%ymm2, %ymm0, %ymm0
	vmovdqu	%ymm0, 80(%rsp)
	leal	(%r15,%rax), %ecx
	addl	$2, %ecx
	orq	%r12, %rcx
	vmovq	%rcx, %xmm0
	vpunpcklqdq	%xmm1, %xmm0, %xmm0     # xmm0 = xmm0[0],xmm1[0]
	addl	%r15d, %eax
	addl	$3, %eax
	orq	%r12, %rax
	vmovq	%rax, %xmm3
	vpunpcklqdq	%xmm1, %xmm3, %xmm1     # xmm1 = xmm3[0],xmm1[0]
	vinserti128	$1, %xmm1, %ymm0, %ymm0
	vpshufb	%ymm2, %ymm0, %ymm0
	vmovdqu	%ymm0, 112(%rsp)
	movq	16(%rsp), %rax                  # 8-byte Reload
	movq	16(%rax), %rdi
	movq	24(%rax), %rsi
	leaq	80(%rsp), %rdx
	movl	$4, %ecx
	vzeroupper
	callq	gcm_v3.aes_permute.blocks.process_on_lanes
	vmovaps	80(%rsp), %xmm0
	vxorps	(%rbx,%r13), %xmm0, %xmm0
	vmovups	%xmm0, (%rbx,%r13)
	vmovaps	96(%rsp), %xmm0
	vxorps	16(%rbx,%r13), %xmm0, %xmm0
	vmovups	%xmm0, 16(%rbx,%r13)
	vmovaps	112(%rsp), %xmm0
	vxorps	32(%rbx,%r13), %xmm0, %xmm0
	vmovups	%xmm0, 32(%rbx,%r13)
	vmovdqa	128(%rsp), %xmm0
	vpxor	48(%rbx,%r13), %xmm0, %xmm0
	vmovdqu	%xmm0, 48(%rbx,%r13)
	addq	$64, %r13
	addq	$-64, %rbp
	cmpq	$63, %rbp
	ja	.Lgcm_v3_BB20_29
.Lgcm_v3_BB20_30:                              # %loop.13.preheader.i.i.i
	movq	32(%rsp), %r14                  # 8-byte Reload
	cmpq	%r14, %r13
	movq	24(%rsp), %r15                  # 8-byte Reload
	movq	16(%rsp), %r12                  # 8-byte Reload
	jae	.Lgcm_v3_BB20_32
	.p2align	4
.Lgcm_v3_BB20_31:                              # %join.16.i.i.i
                                        # =>This Inner Loop Header: Depth=1
	movq	%rsp, %rsi
	movq	%r12, %rdi
	movq	%r15, %rdx
	movq	%r13, %rcx
	movq	%rbx, %r8
	movq	%r14, %r9
	callq	gcm_v3.aes_ctr.add_in_batches.add_next.2
	movq	%rax, %r13
	cmpq	%r14, %rax
	jb	.Lgcm_v3_BB20_31
	jmp	.Lgcm_v3_BB20_32
.Lgcm_v3_BB20_18:                              # %vec.epilog.ph
	movl	%eax, %ecx
	andl	$8, %ecx
	xorl	%esi, %esi
	.p2align	4
.Lgcm_v3_BB20_19:                              # %vec.epilog.vector.body
                                        # =>This Inner Loop Header: Depth=1
	movq	(%rdx,%rsi), %rdi
	xorq	%rdi, (%rbx,%rsi)
	addq	$8, %rsi
	cmpq	%rsi, %rcx
	jne	.Lgcm_v3_BB20_19
.Lgcm_v3_BB20_20:                              # %vec.epilog.middle.block
	cmpq	%rcx, %rax
	je	.Lgcm_v3_BB20_32
.Lgcm_v3_BB20_21:                              # %join.8.i11.i.i
	movzbl	(%rdx,%rcx), %esi
	xorb	%sil, (%rbx,%rcx)
	incq	%rcx
	jmp	.Lgcm_v3_BB20_20
.Lgcm_v3_BB20_32:                              # %"aes_ctr::add_in_batches::add_stream::<#9814f00c818f5cf6>.exit"
	addq	$344, %rsp                      # imm = 0x158
	popq	%rbx
	popq	%r12
	popq	%r13
	popq	%r14
	popq	%r15
	popq	%rbp
.Lgcm_v3_BB20_33:                              # %join.3
	retq
.Lgcm_v3_func_end20:
	.size	gcm_v3.gcm.gctr.add_gctr, .Lgcm_v3_func_end20-gcm_v3.gcm.gctr.add_gctr
                                        # -- End function
	.section	.text.gcm_v3.aes_hybrid.batches.process_on_planes,"ax",@progbits
	.p2align	4                               # -- Begin function aes_hybrid::batches::process_on_planes::<#c6996b072c111d2a>
	.type	gcm_v3.aes_hybrid.batches.process_on_planes,@function
gcm_v3.aes_hybrid.batches.process_on_planes: # @gcm_v3.aes_hybrid.batches.process_on_planes
# %bb.0:                                # %start
	pushq	%rbp
	movq	%rsp, %rbp
	pushq	%r15
	pushq	%r14
	pushq	%r13
	pushq	%r12
	pushq	%rbx
	andq	$-32, %rsp
	subq	$3040, %rsp                     # imm = 0xBE0
	movq	$0, (%rsp)
	subq	$864, %rsp                      # imm = 0x360
	movq	%rcx, 24(%rsp)                  # 8-byte Spill
	movq	%rdx, %r14
	movq	%rsi, %r15
	movq	%rdi, %r12
	leaq	288(%rsp), %rdi
	movl	$3584, %edx                     # imm = 0xE00
	xorl	%esi, %esi
	callq	*memset@GOTPCREL(%rip)
	leaq	(,%r15,8), %r13
	leaq	32(%rsp), %rbx
	movq	%rbx, %rdi
	movq	%r12, %rsi
	movq	%r15, %rdx
	callq	gcm_v3.aes_hybrid.plane_keys.store_planes
	movq	%rbx, %rdi
	movq	%r13, %rsi
	movq	%r14, %rdx
	movq	24(%rsp), %rcx                  # 8-byte Reload
	callq	gcm_v3.aes_hybrid.batches.process_batches_and_rest
	movq	%rbx, %rdi
	callq	gcm_v3.aes_cipher.zeroize.zeroize_words
	callq	gcm_v3.aes_cipher.zeroize.stack.wipe_stack.1792
	leaq	-40(%rbp), %rsp
	popq	%rbx
	popq	%r12
	popq	%r13
	popq	%r14
	popq	%r15
	popq	%rbp
	retq
.Lgcm_v3_func_end21:
	.size	gcm_v3.aes_hybrid.batches.process_on_planes, .Lgcm_v3_func_end21-gcm_v3.aes_hybrid.batches.process_on_planes
                                        # -- End function
	.section	.rodata.cst16,"aM",@progbits,16
	.p2align	4, 0x0                          # -- Begin function aes_hybrid::plane_keys::store_planes::<#71dff95673b12ebf>
.Lgcm_v3_CPI22_0:
	.byte	0                               # 0x0
	.byte	4                               # 0x4
	.byte	8                               # 0x8
	.byte	12                              # 0xc
	.byte	1                               # 0x1
	.byte	5                               # 0x5
	.byte	9                               # 0x9
	.byte	13                              # 0xd
	.byte	2                               # 0x2
	.byte	6                               # 0x6
	.byte	10                              # 0xa
	.byte	14                              # 0xe
	.byte	3                               # 0x3
	.byte	7                               # 0x7
	.byte	11                              # 0xb
	.byte	15                              # 0xf
.Lgcm_v3_CPI22_1:
	.zero	16,1
.Lgcm_v3_CPI22_2:
	.zero	16,192
.Lgcm_v3_CPI22_3:
	.zero	16,224
.Lgcm_v3_CPI22_4:
	.zero	16,240
.Lgcm_v3_CPI22_5:
	.zero	16,248
.Lgcm_v3_CPI22_6:
	.zero	16,252
.Lgcm_v3_CPI22_7:
	.zero	16,15
.Lgcm_v3_CPI22_8:
	.byte	0                               # 0x0
	.byte	1                               # 0x1
	.byte	92                              # 0x5c
	.byte	93                              # 0x5d
	.byte	224                             # 0xe0
	.byte	225                             # 0xe1
	.byte	188                             # 0xbc
	.byte	189                             # 0xbd
	.byte	80                              # 0x50
	.byte	81                              # 0x51
	.byte	12                              # 0xc
	.byte	13                              # 0xd
	.byte	176                             # 0xb0
	.byte	177                             # 0xb1
	.byte	236                             # 0xec
	.byte	237                             # 0xed
.Lgcm_v3_CPI22_9:
	.byte	0                               # 0x0
	.byte	178                             # 0xb2
	.byte	181                             # 0xb5
	.byte	7                               # 0x7
	.byte	58                              # 0x3a
	.byte	136                             # 0x88
	.byte	143                             # 0x8f
	.byte	61                              # 0x3d
	.byte	172                             # 0xac
	.byte	30                              # 0x1e
	.byte	25                              # 0x19
	.byte	171                             # 0xab
	.byte	150                             # 0x96
	.byte	36                              # 0x24
	.byte	35                              # 0x23
	.byte	145                             # 0x91
	.section	.rodata.cst4,"aM",@progbits,4
	.p2align	2, 0x0
.Lgcm_v3_CPI22_10:
	.zero	4,15
	.section	.text.gcm_v3.aes_hybrid.plane_keys.store_planes,"ax",@progbits
	.p2align	4
	.type	gcm_v3.aes_hybrid.plane_keys.store_planes,@function
gcm_v3.aes_hybrid.plane_keys.store_planes: # @gcm_v3.aes_hybrid.plane_keys.store_planes
# %bb.0:                                # %start
	vmovdqu	(%rsi), %xmm0
	vpshufb	.Lgcm_v3_CPI22_0(%rip), %xmm0, %xmm1   # xmm1 = xmm0[0,4,8,12,1,5,9,13,2,6,10,14,3,7,11,15]
	vpand	.Lgcm_v3_CPI22_1(%rip), %xmm1, %xmm2
	vpxor	%xmm0, %xmm0, %xmm0
	vpsubb	%xmm2, %xmm0, %xmm2
	vpsllw	$6, %xmm1, %xmm3
	vpand	.Lgcm_v3_CPI22_2(%rip), %xmm3, %xmm3
	vpcmpgtb	%xmm3, %xmm0, %xmm3
	vpsllw	$5, %xmm1, %xmm4
	vpand	.Lgcm_v3_CPI22_3(%rip), %xmm4, %xmm4
	vpcmpgtb	%xmm4, %xmm0, %xmm4
	vpsllw	$4, %xmm1, %xmm5
	vpand	.Lgcm_v3_CPI22_4(%rip), %xmm5, %xmm5
	vpcmpgtb	%xmm5, %xmm0, %xmm5
	vpsllw	$3, %xmm1, %xmm6
	vpand	.Lgcm_v3_CPI22_5(%rip), %xmm6, %xmm6
	vpcmpgtb	%xmm6, %xmm0, %xmm6
	vpsllw	$2, %xmm1, %xmm7
	vpand	.Lgcm_v3_CPI22_6(%rip), %xmm7, %xmm7
	vpcmpgtb	%xmm7, %xmm0, %xmm7
	vpaddb	%xmm1, %xmm1, %xmm8
	vpcmpgtb	%xmm8, %xmm0, %xmm8
	vpcmpgtb	%xmm1, %xmm0, %xmm1
	vmovdqu	%xmm2, 16(%rdi)
	vmovdqu	%xmm2, (%rdi)
	vmovdqu	%xmm3, 48(%rdi)
	vmovdqu	%xmm3, 32(%rdi)
	vmovdqu	%xmm4, 80(%rdi)
	vmovdqu	%xmm4, 64(%rdi)
	vmovdqu	%xmm5, 112(%rdi)
	vmovdqu	%xmm5, 96(%rdi)
	vmovdqu	%xmm6, 144(%rdi)
	vmovdqu	%xmm6, 128(%rdi)
	vmovdqu	%xmm7, 176(%rdi)
	vmovdqu	%xmm7, 160(%rdi)
	vmovdqu	%xmm8, 208(%rdi)
	vmovdqu	%xmm8, 192(%rdi)
	vmovdqu	%xmm1, 240(%rdi)
	vmovdqu	%xmm1, 224(%rdi)
	leaq	-1(%rdx), %rax
	cmpq	$2, %rax
	jb	.Lgcm_v3_BB22_3
# %bb.1:                                # %join.5.lr.ph
	addq	$-2, %rdx
	leaq	480(%rdi), %rcx
	leaq	16(%rsi), %r8
	.p2align	4
.Lgcm_v3_BB22_2:                               # %join.5
                                        # =>This Inner Loop Header: Depth=1
	vmovdqu	(%r8), %xmm1
	vpbroadcastd	.Lgcm_v3_CPI22_10(%rip), %xmm2 # xmm2 = [15,15,15,15,15,15,15,15,15,15,15,15,15,15,15,15]
	vpand	%xmm2, %xmm1, %xmm3
	vmovdqa	.Lgcm_v3_CPI22_8(%rip), %xmm4          # xmm4 = [0,1,92,93,224,225,188,189,80,81,12,13,176,177,236,237]
	vpshufb	%xmm3, %xmm4, %xmm3
	vpsrlw	$4, %xmm1, %xmm1
	vpand	%xmm2, %xmm1, %xmm1
	vmovdqa	.Lgcm_v3_CPI22_9(%rip), %xmm2          # xmm2 = [0,178,181,7,58,136,143,61,172,30,25,171,150,36,35,145]
	vpshufb	%xmm1, %xmm2, %xmm1
	vmovdqa	.Lgcm_v3_CPI22_0(%rip), %xmm2          # xmm2 = [0,4,8,12,1,5,9,13,2,6,10,14,3,7,11,15]
	vpshufb	%xmm2, %xmm3, %xmm3
	vpshufb	%xmm2, %xmm1, %xmm1
	vpxor	%xmm3, %xmm1, %xmm1
	vpand	.Lgcm_v3_CPI22_1(%rip), %xmm1, %xmm2
	vpxor	%xmm3, %xmm3, %xmm3
	vpsubb	%xmm2, %xmm3, %xmm2
	vpsllw	$6, %xmm1, %xmm4
	vpand	.Lgcm_v3_CPI22_2(%rip), %xmm4, %xmm4
	vpcmpgtb	%xmm4, %xmm3, %xmm4
	vpsllw	$5, %xmm1, %xmm5
	vpand	.Lgcm_v3_CPI22_3(%rip), %xmm5, %xmm5
	vpcmpgtb	%xmm5, %xmm3, %xmm5
	vpsllw	$4, %xmm1, %xmm6
	vpand	.Lgcm_v3_CPI22_4(%rip), %xmm6, %xmm6
	vpcmpgtb	%xmm6, %xmm3, %xmm6
	vpsllw	$3, %xmm1, %xmm7
	vpand	.Lgcm_v3_CPI22_5(%rip), %xmm7, %xmm7
	vpcmpgtb	%xmm7, %xmm3, %xmm7
	vpsllw	$2, %xmm1, %xmm8
	vpand	.Lgcm_v3_CPI22_6(%rip), %xmm8, %xmm8
	vpcmpgtb	%xmm8, %xmm3, %xmm8
	vpaddb	%xmm1, %xmm1, %xmm9
	vpcmpgtb	%xmm9, %xmm3, %xmm9
	vpcmpgtb	%xmm1, %xmm3, %xmm1
	vmovdqu	%xmm2, -208(%rcx)
	vmovdqu	%xmm2, -224(%rcx)
	vmovdqu	%xmm4, -176(%rcx)
	vmovdqu	%xmm4, -192(%rcx)
	vmovdqu	%xmm5, -144(%rcx)
	vmovdqu	%xmm5, -160(%rcx)
	vmovdqu	%xmm6, -112(%rcx)
	vmovdqu	%xmm6, -128(%rcx)
	vmovdqu	%xmm7, -80(%rcx)
	vmovdqu	%xmm7, -96(%rcx)
	vmovdqu	%xmm8, -48(%rcx)
	vmovdqu	%xmm8, -64(%rcx)
	vmovdqu	%xmm9, -16(%rcx)
	vmovdqu	%xmm9, -32(%rcx)
	vmovdqu	%xmm1, 16(%rcx)
	vmovdqu	%xmm1, (%rcx)
	addq	$256, %rcx                      # imm = 0x100
	addq	$16, %r8
	decq	%rdx
	jne	.Lgcm_v3_BB22_2
.Lgcm_v3_BB22_3:                               # %after.1
	movq	%rax, %rcx
	shlq	$4, %rcx
	vmovdqu	(%rsi,%rcx), %xmm1
	vpshufb	.Lgcm_v3_CPI22_0(%rip), %xmm1, %xmm1   # xmm1 = xmm1[0,4,8,12,1,5,9,13,2,6,10,14,3,7,11,15]
	vpand	.Lgcm_v3_CPI22_1(%rip), %xmm1, %xmm2
	vpsubb	%xmm2, %xmm0, %xmm2
	vpsllw	$6, %xmm1, %xmm3
	vpand	.Lgcm_v3_CPI22_2(%rip), %xmm3, %xmm3
	vpcmpgtb	%xmm3, %xmm0, %xmm3
	vpsllw	$5, %xmm1, %xmm4
	vpand	.Lgcm_v3_CPI22_3(%rip), %xmm4, %xmm4
	vpcmpgtb	%xmm4, %xmm0, %xmm4
	vpsllw	$4, %xmm1, %xmm5
	vpand	.Lgcm_v3_CPI22_4(%rip), %xmm5, %xmm5
	vpcmpgtb	%xmm5, %xmm0, %xmm5
	vpsllw	$3, %xmm1, %xmm6
	vpand	.Lgcm_v3_CPI22_5(%rip), %xmm6, %xmm6
	vpcmpgtb	%xmm6, %xmm0, %xmm6
	vpsllw	$2, %xmm1, %xmm7
	vpand	.Lgcm_v3_CPI22_6(%rip), %xmm7, %xmm7
	vpcmpgtb	%xmm7, %xmm0, %xmm7
	vpaddb	%xmm1, %xmm1, %xmm8
	vpcmpgtb	%xmm8, %xmm0, %xmm8
	vpcmpgtb	%xmm1, %xmm0, %xmm0
	shlq	$8, %rax
	vmovdqu	%xmm2, 16(%rdi,%rax)
	vmovdqu	%xmm2, (%rdi,%rax)
	vmovdqu	%xmm3, 48(%rdi,%rax)
	vmovdqu	%xmm3, 32(%rdi,%rax)
	vmovdqu	%xmm4, 80(%rdi,%rax)
	vmovdqu	%xmm4, 64(%rdi,%rax)
	vmovdqu	%xmm5, 112(%rdi,%rax)
	vmovdqu	%xmm5, 96(%rdi,%rax)
	vmovdqu	%xmm6, 144(%rdi,%rax)
	vmovdqu	%xmm6, 128(%rdi,%rax)
	vmovdqu	%xmm7, 176(%rdi,%rax)
	vmovdqu	%xmm7, 160(%rdi,%rax)
	vmovdqu	%xmm8, 208(%rdi,%rax)
	vmovdqu	%xmm8, 192(%rdi,%rax)
	vmovdqu	%xmm0, 240(%rdi,%rax)
	vmovdqu	%xmm0, 224(%rdi,%rax)
	retq
.Lgcm_v3_func_end22:
	.size	gcm_v3.aes_hybrid.plane_keys.store_planes, .Lgcm_v3_func_end22-gcm_v3.aes_hybrid.plane_keys.store_planes
                                        # -- End function
	.section	.rodata.cst32,"aM",@progbits,32
	.p2align	5, 0x0                          # -- Begin function aes_hybrid::batches::process_batches_and_rest::<#c6996b072c111d2a>
.Lgcm_v3_CPI23_0:
	.byte	0                               # 0x0
	.byte	4                               # 0x4
	.byte	8                               # 0x8
	.byte	12                              # 0xc
	.byte	1                               # 0x1
	.byte	5                               # 0x5
	.byte	9                               # 0x9
	.byte	13                              # 0xd
	.byte	2                               # 0x2
	.byte	6                               # 0x6
	.byte	10                              # 0xa
	.byte	14                              # 0xe
	.byte	3                               # 0x3
	.byte	7                               # 0x7
	.byte	11                              # 0xb
	.byte	15                              # 0xf
	.byte	0                               # 0x0
	.byte	4                               # 0x4
	.byte	8                               # 0x8
	.byte	12                              # 0xc
	.byte	1                               # 0x1
	.byte	5                               # 0x5
	.byte	9                               # 0x9
	.byte	13                              # 0xd
	.byte	2                               # 0x2
	.byte	6                               # 0x6
	.byte	10                              # 0xa
	.byte	14                              # 0xe
	.byte	3                               # 0x3
	.byte	7                               # 0x7
	.byte	11                              # 0xb
	.byte	15                              # 0xf
.Lgcm_v3_CPI23_1:
	.zero	32,85
.Lgcm_v3_CPI23_2:
	.zero	32,51
.Lgcm_v3_CPI23_3:
	.zero	32,15
	.section	.rodata.cst16,"aM",@progbits,16
	.p2align	4, 0x0
.Lgcm_v3_CPI23_4:
	.byte	0                               # 0x0
	.byte	4                               # 0x4
	.byte	8                               # 0x8
	.byte	12                              # 0xc
	.byte	1                               # 0x1
	.byte	5                               # 0x5
	.byte	9                               # 0x9
	.byte	13                              # 0xd
	.byte	2                               # 0x2
	.byte	6                               # 0x6
	.byte	10                              # 0xa
	.byte	14                              # 0xe
	.byte	3                               # 0x3
	.byte	7                               # 0x7
	.byte	11                              # 0xb
	.byte	15                              # 0xf
	.section	.rodata.cst4,"aM",@progbits,4
	.p2align	2, 0x0
.Lgcm_v3_CPI23_5:
	.zero	4,85
.Lgcm_v3_CPI23_6:
	.zero	4,51
.Lgcm_v3_CPI23_7:
	.zero	4,15
	.section	.text.gcm_v3.aes_hybrid.batches.process_batches_and_rest,"ax",@progbits
	.p2align	4
	.type	gcm_v3.aes_hybrid.batches.process_batches_and_rest,@function
gcm_v3.aes_hybrid.batches.process_batches_and_rest: # @gcm_v3.aes_hybrid.batches.process_batches_and_rest
# %bb.0:                                # %join.5.i.lr.ph
	pushq	%rbp
	pushq	%r15
	pushq	%r14
	pushq	%r13
	pushq	%r12
	pushq	%rbx
	subq	$312, %rsp                      # imm = 0x138
	movq	%rcx, %rbx
	movq	%rdx, %r15
	movq	%rsi, %r13
	movq	%rdi, %r12
	movq	%rcx, 24(%rsp)                  # 8-byte Spill
                                        # kill: def $ebx killed $ebx killed $rbx def $rbx
	andl	$1073741808, %ebx               # imm = 0x3FFFFFF0
	movq	%rsi, 8(%rsp)                   # 8-byte Spill
	shrq	$3, %r13
	decq	%r13
	leaq	48(%rsp), %rbp
	andq	$-32, %rbp
	xorl	%r14d, %r14d
	movq	%rdx, 16(%rsp)                  # 8-byte Spill
	.p2align	4
.Lgcm_v3_BB23_1:                               # %join.5.i
                                        # =>This Inner Loop Header: Depth=1
	vmovdqu	(%r15), %xmm0
	vmovdqu	16(%r15), %xmm1
	vmovdqu	32(%r15), %xmm2
	vmovdqu	48(%r15), %xmm3
	vmovdqu	64(%r15), %xmm4
	vmovdqu	80(%r15), %xmm5
	vmovdqu	96(%r15), %xmm6
	vmovdqu	112(%r15), %xmm7
	vinserti128	$1, 128(%r15), %ymm0, %ymm0
	vinserti128	$1, 144(%r15), %ymm1, %ymm1
	vinserti128	$1, 160(%r15), %ymm2, %ymm2
	vinserti128	$1, 176(%r15), %ymm3, %ymm3
	vinserti128	$1, 192(%r15), %ymm4, %ymm4
	vinserti128	$1, 208(%r15), %ymm5, %ymm5
	vinserti128	$1, 224(%r15), %ymm6, %ymm6
	vinserti128	$1, 240(%r15), %ymm7, %ymm7
	vbroadcasti128	.Lgcm_v3_CPI23_4(%rip), %ymm9  # ymm9 = [0,4,8,12,1,5,9,13,2,6,10,14,3,7,11,15,0,4,8,12,1,5,9,13,2,6,10,14,3,7,11,15]
                                        # ymm9 = mem[0,1,0,1]
	vpshufb	%ymm9, %ymm0, %ymm8
	vpshufb	%ymm9, %ymm1, %ymm0
	vpshufb	%ymm9, %ymm2, %ymm1
	vpshufb	%ymm9, %ymm3, %ymm2
	vpshufb	%ymm9, %ymm4, %ymm3
	vpshufb	%ymm9, %ymm5, %ymm4
	vpshufb	%ymm9, %ymm6, %ymm5
	vpshufb	%ymm9, %ymm7, %ymm6
	vpsrlw	$1, %ymm8, %ymm7
	vpxor	%ymm7, %ymm0, %ymm7
	vpbroadcastd	.Lgcm_v3_CPI23_5(%rip), %ymm10 # ymm10 = [85,85,85,85,85,85,85,85,85,85,85,85,85,85,85,85,85,85,85,85,85,85,85,85,85,85,85,85,85,85,85,85]
	vpand	%ymm7, %ymm10, %ymm7
	vpxor	%ymm0, %ymm7, %ymm0
	vpaddb	%ymm7, %ymm7, %ymm7
	vpxor	%ymm7, %ymm8, %ymm7
	vpsrlw	$1, %ymm1, %ymm8
	vpxor	%ymm2, %ymm8, %ymm8
	vpand	%ymm10, %ymm8, %ymm8
	vpxor	%ymm2, %ymm8, %ymm9
	vpaddb	%ymm8, %ymm8, %ymm2
	vpxor	%ymm1, %ymm2, %ymm1
	vpsrlw	$1, %ymm3, %ymm2
	vpxor	%ymm2, %ymm4, %ymm2
	vpand	%ymm2, %ymm10, %ymm8
	vpxor	%ymm4, %ymm8, %ymm2
	vpaddb	%ymm8, %ymm8, %ymm4
	vpxor	%ymm3, %ymm4, %ymm3
	vpsrlw	$1, %ymm5, %ymm4
	vpxor	%ymm4, %ymm6, %ymm4
	vpand	%ymm4, %ymm10, %ymm4
	vpxor	%ymm6, %ymm4, %ymm6
	vpaddb	%ymm4, %ymm4, %ymm4
	vpxor	%ymm5, %ymm4, %ymm4
	vpsrlw	$2, %ymm7, %ymm5
	vpxor	%ymm5, %ymm1, %ymm5
	vpbroadcastd	.Lgcm_v3_CPI23_6(%rip), %ymm10 # ymm10 = [51,51,51,51,51,51,51,51,51,51,51,51,51,51,51,51,51,51,51,51,51,51,51,51,51,51,51,51,51,51,51,51]
	vpand	%ymm5, %ymm10, %ymm5
	vpxor	%ymm1, %ymm5, %ymm1
	vpsllw	$2, %ymm5, %ymm5
	vpxor	%ymm7, %ymm5, %ymm5
	vpsrlw	$2, %ymm3, %ymm7
	vpxor	%ymm7, %ymm4, %ymm7
	vpand	%ymm7, %ymm10, %ymm7
	vpxor	%ymm4, %ymm7, %ymm4
	vpsllw	$2, %ymm7, %ymm7
	vpxor	%ymm3, %ymm7, %ymm7
	vpsrlw	$2, %ymm0, %ymm3
	vpxor	%ymm3, %ymm9, %ymm3
	vpand	%ymm3, %ymm10, %ymm8
	vpxor	%ymm9, %ymm8, %ymm3
	vpsllw	$2, %ymm8, %ymm8
	vpxor	%ymm0, %ymm8, %ymm0
	vpsrlw	$2, %ymm2, %ymm8
	vpxor	%ymm6, %ymm8, %ymm8
	vpand	%ymm10, %ymm8, %ymm8
	vpxor	%ymm6, %ymm8, %ymm6
	vpsllw	$2, %ymm8, %ymm8
	vpxor	%ymm2, %ymm8, %ymm2
	vpsrlw	$4, %ymm5, %ymm8
	vpbroadcastd	.Lgcm_v3_CPI23_7(%rip), %ymm9  # ymm9 = [15,15,15,15,15,15,15,15,15,15,15,15,15,15,15,15,15,15,15,15,15,15,15,15,15,15,15,15,15,15,15,15]
	vpxor	%ymm7, %ymm8, %ymm8
	vpand	%ymm9, %ymm8, %ymm8
	vpxor	%ymm7, %ymm8, %ymm7
	vpsllw	$4, %ymm8, %ymm8
	vpxor	%ymm5, %ymm8, %ymm5
	vpsrlw	$4, %ymm0, %ymm8
	vpxor	%ymm2, %ymm8, %ymm8
	vpand	%ymm9, %ymm8, %ymm8
	vpxor	%ymm2, %ymm8, %ymm2
	vpsllw	$4, %ymm8, %ymm8
	vpxor	%ymm0, %ymm8, %ymm0
	vpsrlw	$4, %ymm1, %ymm8
	vpxor	%ymm4, %ymm8, %ymm8
	vpand	%ymm9, %ymm8, %ymm8
	vpxor	%ymm4, %ymm8, %ymm4
	vpsllw	$4, %ymm8, %ymm8
	vpxor	%ymm1, %ymm8, %ymm1
	vpsrlw	$4, %ymm3, %ymm8
	vpxor	%ymm6, %ymm8, %ymm8
	vpand	%ymm9, %ymm8, %ymm8
	vpxor	%ymm6, %ymm8, %ymm6
	vpsllw	$4, %ymm8, %ymm8
	vpxor	%ymm3, %ymm8, %ymm3
	vmovdqa	%ymm5, (%rbp)
	vmovdqa	%ymm0, 32(%rbp)
	vmovdqa	%ymm1, 64(%rbp)
	vmovdqa	%ymm3, 96(%rbp)
	vmovdqa	%ymm7, 128(%rbp)
	vmovdqa	%ymm2, 160(%rbp)
	vmovdqa	%ymm4, 192(%rbp)
	vmovdqa	%ymm6, 224(%rbp)
	movq	%r12, %rdi
	movq	%r13, %rsi
	movq	%rbp, %rdx
	vzeroupper
	callq	gcm_v3.aes_soft.soft.ciphers.planes.EncryptPlaneCipher.process_planes
	vmovdqa	(%rbp), %ymm1
	vmovdqa	32(%rbp), %ymm0
	vmovdqa	64(%rbp), %ymm2
	vmovdqa	96(%rbp), %ymm3
	vmovdqa	128(%rbp), %ymm4
	vmovdqa	160(%rbp), %ymm5
	vmovdqa	192(%rbp), %ymm6
	vmovdqa	224(%rbp), %ymm7
	vpsrlw	$1, %ymm1, %ymm8
	vpxor	%ymm0, %ymm8, %ymm8
	vpbroadcastd	.Lgcm_v3_CPI23_5(%rip), %ymm9  # ymm9 = [85,85,85,85,85,85,85,85,85,85,85,85,85,85,85,85,85,85,85,85,85,85,85,85,85,85,85,85,85,85,85,85]
	vpand	%ymm9, %ymm8, %ymm8
	vpxor	%ymm0, %ymm8, %ymm0
	vpaddb	%ymm8, %ymm8, %ymm8
	vpxor	%ymm1, %ymm8, %ymm8
	vpsrlw	$1, %ymm2, %ymm1
	vpxor	%ymm1, %ymm3, %ymm1
	vpand	%ymm1, %ymm9, %ymm1
	vpxor	%ymm3, %ymm1, %ymm3
	vpaddb	%ymm1, %ymm1, %ymm1
	vpxor	%ymm2, %ymm1, %ymm1
	vpsrlw	$1, %ymm4, %ymm2
	vpxor	%ymm2, %ymm5, %ymm2
	vpand	%ymm2, %ymm9, %ymm2
	vpxor	%ymm5, %ymm2, %ymm5
	vpaddb	%ymm2, %ymm2, %ymm2
	vpxor	%ymm4, %ymm2, %ymm2
	vpsrlw	$1, %ymm6, %ymm4
	vpxor	%ymm4, %ymm7, %ymm4
	vpand	%ymm4, %ymm9, %ymm4
	vpxor	%ymm7, %ymm4, %ymm7
	vpaddb	%ymm4, %ymm4, %ymm4
	vpxor	%ymm6, %ymm4, %ymm4
	vpsrlw	$2, %ymm8, %ymm6
	vpxor	%ymm6, %ymm1, %ymm6
	vpbroadcastd	.Lgcm_v3_CPI23_6(%rip), %ymm10 # ymm10 = [51,51,51,51,51,51,51,51,51,51,51,51,51,51,51,51,51,51,51,51,51,51,51,51,51,51,51,51,51,51,51,51]
	vpand	%ymm6, %ymm10, %ymm6
	vpxor	%ymm1, %ymm6, %ymm1
	vpsllw	$2, %ymm6, %ymm6
	vpxor	%ymm6, %ymm8, %ymm6
	vpsrlw	$2, %ymm2, %ymm8
	vpxor	%ymm4, %ymm8, %ymm8
	vpand	%ymm10, %ymm8, %ymm8
	vpxor	%ymm4, %ymm8, %ymm4
	vpsllw	$2, %ymm8, %ymm8
	vpxor	%ymm2, %ymm8, %ymm2
	vpsrlw	$2, %ymm0, %ymm8
	vpxor	%ymm3, %ymm8, %ymm8
	vpand	%ymm10, %ymm8, %ymm8
	vpxor	%ymm3, %ymm8, %ymm9
	vpsllw	$2, %ymm8, %ymm3
	vpxor	%ymm0, %ymm3, %ymm8
	vpsrlw	$2, %ymm5, %ymm0
	vpxor	%ymm0, %ymm7, %ymm0
	vpand	%ymm0, %ymm10, %ymm0
	vpxor	%ymm7, %ymm0, %ymm7
	vpsllw	$2, %ymm0, %ymm0
	vpxor	%ymm5, %ymm0, %ymm5
	vpsrlw	$4, %ymm6, %ymm0
	vpxor	%ymm0, %ymm2, %ymm0
	vpbroadcastd	.Lgcm_v3_CPI23_7(%rip), %ymm10 # ymm10 = [15,15,15,15,15,15,15,15,15,15,15,15,15,15,15,15,15,15,15,15,15,15,15,15,15,15,15,15,15,15,15,15]
	vpand	%ymm0, %ymm10, %ymm3
	vpxor	%ymm2, %ymm3, %ymm0
	vpsllw	$4, %ymm3, %ymm2
	vpxor	%ymm6, %ymm2, %ymm3
	vpsrlw	$4, %ymm8, %ymm2
	vpxor	%ymm2, %ymm5, %ymm2
	vpand	%ymm2, %ymm10, %ymm6
	vpxor	%ymm5, %ymm6, %ymm2
	vpsllw	$4, %ymm6, %ymm5
	vpxor	%ymm5, %ymm8, %ymm5
	vpsrlw	$4, %ymm1, %ymm6
	vpxor	%ymm6, %ymm4, %ymm6
	vpand	%ymm6, %ymm10, %ymm6
	vpxor	%ymm4, %ymm6, %ymm4
	vpsllw	$4, %ymm6, %ymm6
	vpxor	%ymm1, %ymm6, %ymm1
	vpsrlw	$4, %ymm9, %ymm6
	vpxor	%ymm6, %ymm7, %ymm6
	vpand	%ymm6, %ymm10, %ymm6
	vpxor	%ymm7, %ymm6, %ymm7
	vpsllw	$4, %ymm6, %ymm6
	vpxor	%ymm6, %ymm9, %ymm6
	vinserti128	$1, %xmm5, %ymm3, %ymm8
	vbroadcasti128	.Lgcm_v3_CPI23_4(%rip), %ymm9  # ymm9 = [0,4,8,12,1,5,9,13,2,6,10,14,3,7,11,15,0,4,8,12,1,5,9,13,2,6,10,14,3,7,11,15]
                                        # ymm9 = mem[0,1,0,1]
	vpshufb	%ymm9, %ymm8, %ymm8
	vmovdqu	%ymm8, (%r15)
	vinserti128	$1, %xmm6, %ymm1, %ymm8
	vpshufb	%ymm9, %ymm8, %ymm8
	vmovdqu	%ymm8, 32(%r15)
	vinserti128	$1, %xmm2, %ymm0, %ymm8
	vpshufb	%ymm9, %ymm8, %ymm8
	vmovdqu	%ymm8, 64(%r15)
	vinserti128	$1, %xmm7, %ymm4, %ymm8
	vpshufb	%ymm9, %ymm8, %ymm8
	vmovdqu	%ymm8, 96(%r15)
	vperm2i128	$49, %ymm5, %ymm3, %ymm3 # ymm3 = ymm3[2,3],ymm5[2,3]
	vpshufb	%ymm9, %ymm3, %ymm3
	vmovdqu	%ymm3, 128(%r15)
	vperm2i128	$49, %ymm6, %ymm1, %ymm1 # ymm1 = ymm1[2,3],ymm6[2,3]
	vpshufb	%ymm9, %ymm1, %ymm1
	vmovdqu	%ymm1, 160(%r15)
	vperm2i128	$49, %ymm2, %ymm0, %ymm0 # ymm0 = ymm0[2,3],ymm2[2,3]
	vpshufb	%ymm9, %ymm0, %ymm0
	vmovdqu	%ymm0, 192(%r15)
	vperm2i128	$49, %ymm7, %ymm4, %ymm0 # ymm0 = ymm4[2,3],ymm7[2,3]
	vpshufb	%ymm9, %ymm0, %ymm0
	vmovdqu	%ymm0, 224(%r15)
	addq	$16, %r14
	addq	$256, %r15                      # imm = 0x100
	cmpq	%rbx, %r14
	jb	.Lgcm_v3_BB23_1
# %bb.2:                                # %"aes_soft::soft::blocks::slices::process_batches_under::<#1ddd5d26e72a178a>.exit"
	movq	24(%rsp), %rcx                  # 8-byte Reload
	cmpq	%rcx, %rbx
	jne	.Lgcm_v3_BB23_4
# %bb.3:                                # %join.5
	addq	$312, %rsp                      # imm = 0x138
	popq	%rbx
	popq	%r12
	popq	%r13
	popq	%r14
	popq	%r15
	popq	%rbp
	vzeroupper
	retq
.Lgcm_v3_BB23_4:                               # %then.3
	andl	$15, %ecx
	shlq	$4, %rbx
	movq	16(%rsp), %rdx                  # 8-byte Reload
	addq	%rbx, %rdx
	movq	%r12, %rdi
	movq	8(%rsp), %rsi                   # 8-byte Reload
	addq	$312, %rsp                      # imm = 0x138
	popq	%rbx
	popq	%r12
	popq	%r13
	popq	%r14
	popq	%r15
	popq	%rbp
	vzeroupper
	jmp	gcm_v3.aes_soft.soft.blocks.filled_up.process_filled_up # TAILCALL
.Lgcm_v3_func_end23:
	.size	gcm_v3.aes_hybrid.batches.process_batches_and_rest, .Lgcm_v3_func_end23-gcm_v3.aes_hybrid.batches.process_batches_and_rest
                                        # -- End function
	.section	.rodata.cst32,"aM",@progbits,32
	.p2align	5, 0x0                          # -- Begin function aes_soft::soft::ciphers::planes::process_outlined::<#7b34563ffa16404d>
.Lgcm_v3_CPI24_0:
	.byte	0                               # 0x0
	.byte	4                               # 0x4
	.byte	8                               # 0x8
	.byte	12                              # 0xc
	.byte	1                               # 0x1
	.byte	5                               # 0x5
	.byte	9                               # 0x9
	.byte	13                              # 0xd
	.byte	2                               # 0x2
	.byte	6                               # 0x6
	.byte	10                              # 0xa
	.byte	14                              # 0xe
	.byte	3                               # 0x3
	.byte	7                               # 0x7
	.byte	11                              # 0xb
	.byte	15                              # 0xf
	.byte	0                               # 0x0
	.byte	4                               # 0x4
	.byte	8                               # 0x8
	.byte	12                              # 0xc
	.byte	1                               # 0x1
	.byte	5                               # 0x5
	.byte	9                               # 0x9
	.byte	13                              # 0xd
	.byte	2                               # 0x2
	.byte	6                               # 0x6
	.byte	10                              # 0xa
	.byte	14                              # 0xe
	.byte	3                               # 0x3
	.byte	7                               # 0x7
	.byte	11                              # 0xb
	.byte	15                              # 0xf
.Lgcm_v3_CPI24_1:
	.zero	32,85
.Lgcm_v3_CPI24_2:
	.zero	32,51
.Lgcm_v3_CPI24_3:
	.zero	32,15
	.section	.rodata.cst16,"aM",@progbits,16
	.p2align	4, 0x0
.Lgcm_v3_CPI24_4:
	.byte	0                               # 0x0
	.byte	4                               # 0x4
	.byte	8                               # 0x8
	.byte	12                              # 0xc
	.byte	1                               # 0x1
	.byte	5                               # 0x5
	.byte	9                               # 0x9
	.byte	13                              # 0xd
	.byte	2                               # 0x2
	.byte	6                               # 0x6
	.byte	10                              # 0xa
	.byte	14                              # 0xe
	.byte	3                               # 0x3
	.byte	7                               # 0x7
	.byte	11                              # 0xb
	.byte	15                              # 0xf
	.section	.rodata.cst4,"aM",@progbits,4
	.p2align	2, 0x0
.Lgcm_v3_CPI24_5:
	.zero	4,85
.Lgcm_v3_CPI24_6:
	.zero	4,51
.Lgcm_v3_CPI24_7:
	.zero	4,15
	.section	.text.gcm_v3.aes_soft.soft.ciphers.planes.process_outlined,"ax",@progbits
	.p2align	4
	.type	gcm_v3.aes_soft.soft.ciphers.planes.process_outlined,@function
gcm_v3.aes_soft.soft.ciphers.planes.process_outlined: # @gcm_v3.aes_soft.soft.ciphers.planes.process_outlined
# %bb.0:                                # %start
	pushq	%r14
	pushq	%rbx
	subq	$280, %rsp                      # imm = 0x118
	movq	%rdi, %rbx
	leaq	16(%rsp), %r14
	andq	$-32, %r14
	vxorps	%xmm0, %xmm0, %xmm0
	vmovaps	%ymm0, 224(%r14)
	vmovaps	%ymm0, 192(%r14)
	vmovaps	%ymm0, 160(%r14)
	vmovaps	%ymm0, 128(%r14)
	vmovaps	%ymm0, 96(%r14)
	vmovaps	%ymm0, 64(%r14)
	vmovaps	%ymm0, 32(%r14)
	vmovaps	%ymm0, (%r14)
	vmovdqu	(%rcx), %xmm0
	vmovdqu	16(%rcx), %xmm2
	vmovdqu	32(%rcx), %xmm3
	vmovdqu	48(%rcx), %xmm4
	vinserti128	$1, 128(%rcx), %ymm0, %ymm0
	vbroadcasti128	.Lgcm_v3_CPI24_4(%rip), %ymm8  # ymm8 = [0,4,8,12,1,5,9,13,2,6,10,14,3,7,11,15,0,4,8,12,1,5,9,13,2,6,10,14,3,7,11,15]
                                        # ymm8 = mem[0,1,0,1]
	vpshufb	%ymm8, %ymm0, %ymm1
	vinserti128	$1, 144(%rcx), %ymm2, %ymm0
	vinserti128	$1, 160(%rcx), %ymm3, %ymm2
	vpshufb	%ymm8, %ymm0, %ymm0
	vpshufb	%ymm8, %ymm2, %ymm2
	vinserti128	$1, 176(%rcx), %ymm4, %ymm3
	vpshufb	%ymm8, %ymm3, %ymm3
	vmovdqu	64(%rcx), %xmm4
	vinserti128	$1, 192(%rcx), %ymm4, %ymm4
	vpshufb	%ymm8, %ymm4, %ymm4
	vmovdqu	80(%rcx), %xmm5
	vinserti128	$1, 208(%rcx), %ymm5, %ymm5
	vpshufb	%ymm8, %ymm5, %ymm5
	vmovdqu	96(%rcx), %xmm6
	vinserti128	$1, 224(%rcx), %ymm6, %ymm6
	vpshufb	%ymm8, %ymm6, %ymm6
	vmovdqu	112(%rcx), %xmm7
	vinserti128	$1, 240(%rcx), %ymm7, %ymm7
	vpshufb	%ymm8, %ymm7, %ymm7
	vpsrlw	$1, %ymm1, %ymm8
	vpxor	%ymm0, %ymm8, %ymm8
	vpbroadcastd	.Lgcm_v3_CPI24_5(%rip), %ymm10 # ymm10 = [85,85,85,85,85,85,85,85,85,85,85,85,85,85,85,85,85,85,85,85,85,85,85,85,85,85,85,85,85,85,85,85]
	vpand	%ymm10, %ymm8, %ymm8
	vpxor	%ymm0, %ymm8, %ymm0
	vpaddb	%ymm8, %ymm8, %ymm8
	vpxor	%ymm1, %ymm8, %ymm8
	vpsrlw	$1, %ymm2, %ymm1
	vpxor	%ymm1, %ymm3, %ymm1
	vpand	%ymm1, %ymm10, %ymm1
	vpxor	%ymm3, %ymm1, %ymm3
	vpaddb	%ymm1, %ymm1, %ymm1
	vpxor	%ymm2, %ymm1, %ymm1
	vpsrlw	$1, %ymm4, %ymm2
	vpxor	%ymm2, %ymm5, %ymm2
	vpand	%ymm2, %ymm10, %ymm9
	vpxor	%ymm5, %ymm9, %ymm2
	vpaddb	%ymm9, %ymm9, %ymm5
	vpxor	%ymm4, %ymm5, %ymm4
	vpsrlw	$1, %ymm6, %ymm5
	vpxor	%ymm5, %ymm7, %ymm5
	vpand	%ymm5, %ymm10, %ymm5
	vpxor	%ymm7, %ymm5, %ymm7
	vpaddb	%ymm5, %ymm5, %ymm5
	vpxor	%ymm6, %ymm5, %ymm5
	vpsrlw	$2, %ymm8, %ymm6
	vpxor	%ymm6, %ymm1, %ymm6
	vpbroadcastd	.Lgcm_v3_CPI24_6(%rip), %ymm9  # ymm9 = [51,51,51,51,51,51,51,51,51,51,51,51,51,51,51,51,51,51,51,51,51,51,51,51,51,51,51,51,51,51,51,51]
	vpand	%ymm6, %ymm9, %ymm6
	vpxor	%ymm1, %ymm6, %ymm1
	vpsllw	$2, %ymm6, %ymm6
	vpxor	%ymm6, %ymm8, %ymm6
	vpsrlw	$2, %ymm4, %ymm8
	vpxor	%ymm5, %ymm8, %ymm8
	vpand	%ymm9, %ymm8, %ymm8
	vpxor	%ymm5, %ymm8, %ymm5
	vpsllw	$2, %ymm8, %ymm8
	vpxor	%ymm4, %ymm8, %ymm4
	vpsrlw	$2, %ymm0, %ymm8
	vpxor	%ymm3, %ymm8, %ymm8
	vpand	%ymm9, %ymm8, %ymm8
	vpxor	%ymm3, %ymm8, %ymm3
	vpsllw	$2, %ymm8, %ymm8
	vpxor	%ymm0, %ymm8, %ymm0
	vpsrlw	$2, %ymm2, %ymm8
	vpxor	%ymm7, %ymm8, %ymm8
	vpand	%ymm9, %ymm8, %ymm8
	vpxor	%ymm7, %ymm8, %ymm7
	vpsllw	$2, %ymm8, %ymm8
	vpxor	%ymm2, %ymm8, %ymm2
	vpsrlw	$4, %ymm6, %ymm8
	vpbroadcastd	.Lgcm_v3_CPI24_7(%rip), %ymm9  # ymm9 = [15,15,15,15,15,15,15,15,15,15,15,15,15,15,15,15,15,15,15,15,15,15,15,15,15,15,15,15,15,15,15,15]
	vpxor	%ymm4, %ymm8, %ymm8
	vpand	%ymm9, %ymm8, %ymm8
	vpxor	%ymm4, %ymm8, %ymm4
	vpsllw	$4, %ymm8, %ymm8
	vpxor	%ymm6, %ymm8, %ymm6
	vpsrlw	$4, %ymm0, %ymm8
	vpxor	%ymm2, %ymm8, %ymm8
	vpand	%ymm9, %ymm8, %ymm8
	vpxor	%ymm2, %ymm8, %ymm2
	vpsllw	$4, %ymm8, %ymm8
	vpxor	%ymm0, %ymm8, %ymm0
	vpsrlw	$4, %ymm1, %ymm8
	vpxor	%ymm5, %ymm8, %ymm8
	vpand	%ymm9, %ymm8, %ymm8
	vpxor	%ymm5, %ymm8, %ymm5
	vpsllw	$4, %ymm8, %ymm8
	vpxor	%ymm1, %ymm8, %ymm1
	vpsrlw	$4, %ymm3, %ymm8
	vpxor	%ymm7, %ymm8, %ymm8
	vpand	%ymm9, %ymm8, %ymm8
	vpxor	%ymm7, %ymm8, %ymm7
	vpsllw	$4, %ymm8, %ymm8
	vpxor	%ymm3, %ymm8, %ymm3
	vmovdqa	%ymm6, (%r14)
	vmovdqa	%ymm0, 32(%r14)
	vmovdqa	%ymm1, 64(%r14)
	vmovdqa	%ymm3, 96(%r14)
	vmovdqa	%ymm4, 128(%r14)
	vmovdqa	%ymm2, 160(%r14)
	vmovdqa	%ymm5, 192(%r14)
	vmovdqa	%ymm7, 224(%r14)
	movq	%rsi, %rdi
	movq	%rdx, %rsi
	movq	%r14, %rdx
	vzeroupper
	callq	gcm_v3.aes_soft.soft.ciphers.planes.EncryptPlaneCipher.process_planes
	vmovdqa	(%r14), %ymm1
	vmovdqa	32(%r14), %ymm0
	vmovdqa	64(%r14), %ymm2
	vmovdqa	96(%r14), %ymm3
	vmovdqa	128(%r14), %ymm4
	vmovdqa	160(%r14), %ymm5
	vmovdqa	192(%r14), %ymm6
	vmovdqa	224(%r14), %ymm7
	vpsrlw	$1, %ymm1, %ymm8
	vpxor	%ymm0, %ymm8, %ymm8
	vpbroadcastd	.Lgcm_v3_CPI24_5(%rip), %ymm9  # ymm9 = [85,85,85,85,85,85,85,85,85,85,85,85,85,85,85,85,85,85,85,85,85,85,85,85,85,85,85,85,85,85,85,85]
	vpand	%ymm9, %ymm8, %ymm8
	vpxor	%ymm0, %ymm8, %ymm0
	vpaddb	%ymm8, %ymm8, %ymm8
	vpxor	%ymm1, %ymm8, %ymm8
	vpsrlw	$1, %ymm2, %ymm1
	vpxor	%ymm1, %ymm3, %ymm1
	vpand	%ymm1, %ymm9, %ymm1
	vpxor	%ymm3, %ymm1, %ymm3
	vpaddb	%ymm1, %ymm1, %ymm1
	vpxor	%ymm2, %ymm1, %ymm1
	vpsrlw	$1, %ymm4, %ymm2
	vpxor	%ymm2, %ymm5, %ymm2
	vpand	%ymm2, %ymm9, %ymm2
	vpxor	%ymm5, %ymm2, %ymm5
	vpaddb	%ymm2, %ymm2, %ymm2
	vpxor	%ymm4, %ymm2, %ymm2
	vpsrlw	$1, %ymm6, %ymm4
	vpxor	%ymm4, %ymm7, %ymm4
	vpand	%ymm4, %ymm9, %ymm4
	vpxor	%ymm7, %ymm4, %ymm7
	vpaddb	%ymm4, %ymm4, %ymm4
	vpxor	%ymm6, %ymm4, %ymm4
	vpsrlw	$2, %ymm8, %ymm6
	vpxor	%ymm6, %ymm1, %ymm6
	vpbroadcastd	.Lgcm_v3_CPI24_6(%rip), %ymm10 # ymm10 = [51,51,51,51,51,51,51,51,51,51,51,51,51,51,51,51,51,51,51,51,51,51,51,51,51,51,51,51,51,51,51,51]
	vpand	%ymm6, %ymm10, %ymm6
	vpxor	%ymm1, %ymm6, %ymm1
	vpsllw	$2, %ymm6, %ymm6
	vpxor	%ymm6, %ymm8, %ymm6
	vpsrlw	$2, %ymm2, %ymm8
	vpxor	%ymm4, %ymm8, %ymm8
	vpand	%ymm10, %ymm8, %ymm8
	vpxor	%ymm4, %ymm8, %ymm4
	vpsllw	$2, %ymm8, %ymm8
	vpxor	%ymm2, %ymm8, %ymm2
	vpsrlw	$2, %ymm0, %ymm8
	vpxor	%ymm3, %ymm8, %ymm8
	vpand	%ymm10, %ymm8, %ymm8
	vpxor	%ymm3, %ymm8, %ymm9
	vpsllw	$2, %ymm8, %ymm3
	vpxor	%ymm0, %ymm3, %ymm8
	vpsrlw	$2, %ymm5, %ymm0
	vpxor	%ymm0, %ymm7, %ymm0
	vpand	%ymm0, %ymm10, %ymm0
	vpxor	%ymm7, %ymm0, %ymm7
	vpsllw	$2, %ymm0, %ymm0
	vpxor	%ymm5, %ymm0, %ymm5
	vpsrlw	$4, %ymm6, %ymm0
	vpxor	%ymm0, %ymm2, %ymm0
	vpbroadcastd	.Lgcm_v3_CPI24_7(%rip), %ymm10 # ymm10 = [15,15,15,15,15,15,15,15,15,15,15,15,15,15,15,15,15,15,15,15,15,15,15,15,15,15,15,15,15,15,15,15]
	vpand	%ymm0, %ymm10, %ymm3
	vpxor	%ymm2, %ymm3, %ymm0
	vpsllw	$4, %ymm3, %ymm2
	vpxor	%ymm6, %ymm2, %ymm3
	vpsrlw	$4, %ymm8, %ymm2
	vpxor	%ymm2, %ymm5, %ymm2
	vpand	%ymm2, %ymm10, %ymm6
	vpxor	%ymm5, %ymm6, %ymm2
	vpsllw	$4, %ymm6, %ymm5
	vpxor	%ymm5, %ymm8, %ymm5
	vpsrlw	$4, %ymm1, %ymm6
	vpxor	%ymm6, %ymm4, %ymm6
	vpand	%ymm6, %ymm10, %ymm6
	vpxor	%ymm4, %ymm6, %ymm4
	vpsllw	$4, %ymm6, %ymm6
	vpxor	%ymm1, %ymm6, %ymm1
	vpsrlw	$4, %ymm9, %ymm6
	vpxor	%ymm6, %ymm7, %ymm6
	vpand	%ymm6, %ymm10, %ymm6
	vpxor	%ymm7, %ymm6, %ymm7
	vpsllw	$4, %ymm6, %ymm6
	vpxor	%ymm6, %ymm9, %ymm6
	vinserti128	$1, %xmm5, %ymm3, %ymm8
	vbroadcasti128	.Lgcm_v3_CPI24_4(%rip), %ymm9  # ymm9 = [0,4,8,12,1,5,9,13,2,6,10,14,3,7,11,15,0,4,8,12,1,5,9,13,2,6,10,14,3,7,11,15]
                                        # ymm9 = mem[0,1,0,1]
	vpshufb	%ymm9, %ymm8, %ymm8
	vmovdqu	%ymm8, (%rbx)
	vinserti128	$1, %xmm6, %ymm1, %ymm8
	vpshufb	%ymm9, %ymm8, %ymm8
	vmovdqu	%ymm8, 32(%rbx)
	vinserti128	$1, %xmm2, %ymm0, %ymm8
	vpshufb	%ymm9, %ymm8, %ymm8
	vmovdqu	%ymm8, 64(%rbx)
	vinserti128	$1, %xmm7, %ymm4, %ymm8
	vpshufb	%ymm9, %ymm8, %ymm8
	vmovdqu	%ymm8, 96(%rbx)
	vperm2i128	$49, %ymm5, %ymm3, %ymm3 # ymm3 = ymm3[2,3],ymm5[2,3]
	vpshufb	%ymm9, %ymm3, %ymm3
	vmovdqu	%ymm3, 128(%rbx)
	vperm2i128	$49, %ymm6, %ymm1, %ymm1 # ymm1 = ymm1[2,3],ymm6[2,3]
	vpshufb	%ymm9, %ymm1, %ymm1
	vmovdqu	%ymm1, 160(%rbx)
	vperm2i128	$49, %ymm2, %ymm0, %ymm0 # ymm0 = ymm0[2,3],ymm2[2,3]
	vpshufb	%ymm9, %ymm0, %ymm0
	vmovdqu	%ymm0, 192(%rbx)
	vperm2i128	$49, %ymm7, %ymm4, %ymm0 # ymm0 = ymm4[2,3],ymm7[2,3]
	vpshufb	%ymm9, %ymm0, %ymm0
	vmovdqu	%ymm0, 224(%rbx)
	addq	$280, %rsp                      # imm = 0x118
	popq	%rbx
	popq	%r14
	vzeroupper
	retq
.Lgcm_v3_func_end24:
	.size	gcm_v3.aes_soft.soft.ciphers.planes.process_outlined, .Lgcm_v3_func_end24-gcm_v3.aes_soft.soft.ciphers.planes.process_outlined
                                        # -- End function
	.section	.rodata.cst32,"aM",@progbits,32
	.p2align	5, 0x0                          # -- Begin function aes_soft::soft::ciphers::planes::EncryptPlaneCipher::process_planes::<#50850ed293b4d14a>
.Lgcm_v3_CPI25_0:
	.byte	5                               # 0x5
	.byte	6                               # 0x6
	.byte	7                               # 0x7
	.byte	4                               # 0x4
	.byte	9                               # 0x9
	.byte	10                              # 0xa
	.byte	11                              # 0xb
	.byte	8                               # 0x8
	.byte	13                              # 0xd
	.byte	14                              # 0xe
	.byte	15                              # 0xf
	.byte	12                              # 0xc
	.byte	1                               # 0x1
	.byte	2                               # 0x2
	.byte	3                               # 0x3
	.byte	0                               # 0x0
	.byte	5                               # 0x5
	.byte	6                               # 0x6
	.byte	7                               # 0x7
	.byte	4                               # 0x4
	.byte	9                               # 0x9
	.byte	10                              # 0xa
	.byte	11                              # 0xb
	.byte	8                               # 0x8
	.byte	13                              # 0xd
	.byte	14                              # 0xe
	.byte	15                              # 0xf
	.byte	12                              # 0xc
	.byte	1                               # 0x1
	.byte	2                               # 0x2
	.byte	3                               # 0x3
	.byte	0                               # 0x0
.Lgcm_v3_CPI25_1:
	.byte	10                              # 0xa
	.byte	11                              # 0xb
	.byte	8                               # 0x8
	.byte	9                               # 0x9
	.byte	14                              # 0xe
	.byte	15                              # 0xf
	.byte	12                              # 0xc
	.byte	13                              # 0xd
	.byte	2                               # 0x2
	.byte	3                               # 0x3
	.byte	0                               # 0x0
	.byte	1                               # 0x1
	.byte	6                               # 0x6
	.byte	7                               # 0x7
	.byte	4                               # 0x4
	.byte	5                               # 0x5
	.byte	26                              # 0x1a
	.byte	27                              # 0x1b
	.byte	24                              # 0x18
	.byte	25                              # 0x19
	.byte	30                              # 0x1e
	.byte	31                              # 0x1f
	.byte	28                              # 0x1c
	.byte	29                              # 0x1d
	.byte	18                              # 0x12
	.byte	19                              # 0x13
	.byte	16                              # 0x10
	.byte	17                              # 0x11
	.byte	22                              # 0x16
	.byte	23                              # 0x17
	.byte	20                              # 0x14
	.byte	21                              # 0x15
.Lgcm_v3_CPI25_2:
	.byte	6                               # 0x6
	.byte	7                               # 0x7
	.byte	4                               # 0x4
	.byte	5                               # 0x5
	.byte	10                              # 0xa
	.byte	11                              # 0xb
	.byte	8                               # 0x8
	.byte	9                               # 0x9
	.byte	14                              # 0xe
	.byte	15                              # 0xf
	.byte	12                              # 0xc
	.byte	13                              # 0xd
	.byte	2                               # 0x2
	.byte	3                               # 0x3
	.byte	0                               # 0x0
	.byte	1                               # 0x1
	.byte	22                              # 0x16
	.byte	23                              # 0x17
	.byte	20                              # 0x14
	.byte	21                              # 0x15
	.byte	26                              # 0x1a
	.byte	27                              # 0x1b
	.byte	24                              # 0x18
	.byte	25                              # 0x19
	.byte	30                              # 0x1e
	.byte	31                              # 0x1f
	.byte	28                              # 0x1c
	.byte	29                              # 0x1d
	.byte	18                              # 0x12
	.byte	19                              # 0x13
	.byte	16                              # 0x10
	.byte	17                              # 0x11
.Lgcm_v3_CPI25_3:
	.byte	7                               # 0x7
	.byte	4                               # 0x4
	.byte	5                               # 0x5
	.byte	6                               # 0x6
	.byte	11                              # 0xb
	.byte	8                               # 0x8
	.byte	9                               # 0x9
	.byte	10                              # 0xa
	.byte	15                              # 0xf
	.byte	12                              # 0xc
	.byte	13                              # 0xd
	.byte	14                              # 0xe
	.byte	3                               # 0x3
	.byte	0                               # 0x0
	.byte	1                               # 0x1
	.byte	2                               # 0x2
	.byte	7                               # 0x7
	.byte	4                               # 0x4
	.byte	5                               # 0x5
	.byte	6                               # 0x6
	.byte	11                              # 0xb
	.byte	8                               # 0x8
	.byte	9                               # 0x9
	.byte	10                              # 0xa
	.byte	15                              # 0xf
	.byte	12                              # 0xc
	.byte	13                              # 0xd
	.byte	14                              # 0xe
	.byte	3                               # 0x3
	.byte	0                               # 0x0
	.byte	1                               # 0x1
	.byte	2                               # 0x2
	.section	.rodata.cst16,"aM",@progbits,16
	.p2align	4, 0x0
.Lgcm_v3_CPI25_4:
	.byte	5                               # 0x5
	.byte	6                               # 0x6
	.byte	7                               # 0x7
	.byte	4                               # 0x4
	.byte	9                               # 0x9
	.byte	10                              # 0xa
	.byte	11                              # 0xb
	.byte	8                               # 0x8
	.byte	13                              # 0xd
	.byte	14                              # 0xe
	.byte	15                              # 0xf
	.byte	12                              # 0xc
	.byte	1                               # 0x1
	.byte	2                               # 0x2
	.byte	3                               # 0x3
	.byte	0                               # 0x0
.Lgcm_v3_CPI25_5:
	.byte	7                               # 0x7
	.byte	4                               # 0x4
	.byte	5                               # 0x5
	.byte	6                               # 0x6
	.byte	11                              # 0xb
	.byte	8                               # 0x8
	.byte	9                               # 0x9
	.byte	10                              # 0xa
	.byte	15                              # 0xf
	.byte	12                              # 0xc
	.byte	13                              # 0xd
	.byte	14                              # 0xe
	.byte	3                               # 0x3
	.byte	0                               # 0x0
	.byte	1                               # 0x1
	.byte	2                               # 0x2
	.section	.text.gcm_v3.aes_soft.soft.ciphers.planes.EncryptPlaneCipher.process_planes,"ax",@progbits
	.p2align	4
	.type	gcm_v3.aes_soft.soft.ciphers.planes.EncryptPlaneCipher.process_planes,@function
gcm_v3.aes_soft.soft.ciphers.planes.EncryptPlaneCipher.process_planes: # @gcm_v3.aes_soft.soft.ciphers.planes.EncryptPlaneCipher.process_planes
# %bb.0:                                # %start
	pushq	%rbp
	movq	%rsp, %rbp
	andq	$-32, %rsp
	subq	$448, %rsp                      # imm = 0x1C0
	leaq	-2(%rsi), %rax
	movq	%rax, %rcx
	shrq	$2, %rcx
	vmovdqu	(%rdi), %ymm0
	vmovdqu	32(%rdi), %ymm1
	vmovdqu	64(%rdi), %ymm2
	vmovdqu	96(%rdi), %ymm3
	vmovdqu	128(%rdi), %ymm6
	vmovdqu	160(%rdi), %ymm7
	vmovdqu	192(%rdi), %ymm8
	vmovdqu	224(%rdi), %ymm9
	vpxor	(%rdx), %ymm0, %ymm13
	vpxor	32(%rdx), %ymm1, %ymm1
	vpxor	64(%rdx), %ymm2, %ymm4
	vpxor	96(%rdx), %ymm3, %ymm5
	vpxor	128(%rdx), %ymm6, %ymm3
	vpxor	160(%rdx), %ymm7, %ymm6
	vpxor	192(%rdx), %ymm8, %ymm10
	vpxor	224(%rdx), %ymm9, %ymm9
	je	.Lgcm_v3_BB25_3
# %bb.1:                                # %join.7.preheader
	leaq	1248(%rdi), %r8
	.p2align	4
.Lgcm_v3_BB25_2:                               # %join.7
                                        # =>This Inner Loop Header: Depth=1
	vpxor	%ymm6, %ymm10, %ymm15
	vpxor	%ymm3, %ymm9, %ymm6
	vpxor	%ymm1, %ymm9, %ymm12
	vpxor	%ymm3, %ymm4, %ymm8
	vpxor	%ymm8, %ymm12, %ymm14
	vmovdqa	%ymm8, 256(%rsp)                # 32-byte Spill
	vpxor	%ymm5, %ymm14, %ymm2
	vmovdqa	%ymm14, 224(%rsp)               # 32-byte Spill
	vpxor	%ymm4, %ymm2, %ymm7
	vpxor	%ymm2, %ymm10, %ymm2
	vpxor	%ymm4, %ymm9, %ymm11
	vmovdqa	%ymm11, 32(%rsp)                # 32-byte Spill
	vmovdqa	%ymm6, 192(%rsp)                # 32-byte Spill
	vpxor	%ymm6, %ymm2, %ymm10
	vpand	%ymm6, %ymm10, %ymm4
	vpxor	%ymm7, %ymm15, %ymm0
	vmovdqa	%ymm0, 160(%rsp)                # 32-byte Spill
	vpxor	%ymm0, %ymm10, %ymm5
	vmovdqa	%ymm5, 288(%rsp)                # 32-byte Spill
	vpand	%ymm5, %ymm8, %ymm6
	vpxor	%ymm4, %ymm6, %ymm6
	vpand	%ymm0, %ymm11, %ymm8
	vpxor	%ymm4, %ymm8, %ymm4
	vmovdqa	%ymm13, %ymm5
	vpxor	%ymm15, %ymm13, %ymm13
	vpxor	%ymm3, %ymm13, %ymm3
	vmovdqa	%ymm3, 128(%rsp)                # 32-byte Spill
	vpand	%ymm5, %ymm3, %ymm3
	vpxor	%ymm3, %ymm11, %ymm3
	vpxor	%ymm0, %ymm3, %ymm3
	vpand	%ymm7, %ymm14, %ymm8
	vpxor	%ymm3, %ymm8, %ymm0
	vpxor	%ymm2, %ymm8, %ymm2
	vpxor	%ymm1, %ymm13, %ymm3
	vpxor	%ymm5, %ymm7, %ymm8
	vmovdqa	%ymm8, 64(%rsp)                 # 32-byte Spill
	vpxor	%ymm3, %ymm11, %ymm1
	vmovdqa	%ymm1, (%rsp)                   # 32-byte Spill
	vpand	%ymm1, %ymm8, %ymm1
	vpxor	%ymm1, %ymm2, %ymm2
	vpxor	%ymm15, %ymm10, %ymm1
	vpxor	%ymm6, %ymm2, %ymm2
	vpand	%ymm3, %ymm13, %ymm15
	vpxor	%ymm1, %ymm15, %ymm15
	vpand	%ymm1, %ymm12, %ymm11
	vpxor	%ymm11, %ymm15, %ymm15
	vpxor	%ymm12, %ymm15, %ymm15
	vpxor	%ymm6, %ymm15, %ymm6
	vpxor	%ymm9, %ymm11, %ymm11
	vpxor	%ymm9, %ymm13, %ymm15
	vpxor	%ymm5, %ymm10, %ymm8
	vmovdqa	%ymm8, 96(%rsp)                 # 32-byte Spill
	vpand	%ymm15, %ymm8, %ymm8
	vpxor	%ymm1, %ymm8, %ymm8
	vpxor	%ymm11, %ymm8, %ymm8
	vpxor	%ymm4, %ymm0, %ymm0
	vpxor	%ymm4, %ymm8, %ymm4
	vpand	%ymm2, %ymm6, %ymm8
	vpxor	%ymm0, %ymm8, %ymm11
	vpxor	%ymm4, %ymm6, %ymm9
	vpand	%ymm9, %ymm11, %ymm9
	vpxor	%ymm0, %ymm2, %ymm2
	vpxor	%ymm4, %ymm8, %ymm11
	vpand	%ymm2, %ymm11, %ymm14
	vpxor	%ymm0, %ymm14, %ymm0
	vpxor	%ymm8, %ymm9, %ymm8
	vpxor	%ymm4, %ymm9, %ymm9
	vpand	%ymm4, %ymm8, %ymm4
	vpxor	%ymm4, %ymm11, %ymm8
	vpand	%ymm0, %ymm8, %ymm8
	vpxor	%ymm2, %ymm8, %ymm8
	vpxor	%ymm6, %ymm4, %ymm2
	vpxor	%ymm0, %ymm8, %ymm6
	vpand	%ymm1, %ymm6, %ymm4
	vpand	%ymm6, %ymm12, %ymm12
	vpand	%ymm13, %ymm8, %ymm6
	vpand	%ymm3, %ymm8, %ymm13
	vpxor	%ymm2, %ymm9, %ymm11
	vpxor	%ymm11, %ymm8, %ymm1
	vpand	64(%rsp), %ymm11, %ymm8         # 32-byte Folded Reload
	vpand	(%rsp), %ymm11, %ymm11          # 32-byte Folded Reload
	vpand	128(%rsp), %ymm9, %ymm3         # 32-byte Folded Reload
	vmovdqa	%ymm3, 128(%rsp)                # 32-byte Spill
	vpand	%ymm5, %ymm9, %ymm14
	vpxor	%ymm0, %ymm9, %ymm9
	vpand	%ymm10, %ymm9, %ymm3
	vmovdqa	%ymm3, (%rsp)                   # 32-byte Spill
	vpand	192(%rsp), %ymm9, %ymm10        # 32-byte Folded Reload
	vpxor	%ymm1, %ymm9, %ymm9
	vpand	256(%rsp), %ymm9, %ymm3         # 32-byte Folded Reload
	vpand	288(%rsp), %ymm9, %ymm9         # 32-byte Folded Reload
	vpand	%ymm0, %ymm15, %ymm15
	vpand	96(%rsp), %ymm0, %ymm0          # 32-byte Folded Reload
	vpand	%ymm7, %ymm2, %ymm7
	vpand	224(%rsp), %ymm2, %ymm2         # 32-byte Folded Reload
	vpxor	%ymm7, %ymm8, %ymm8
	vpxor	%ymm7, %ymm14, %ymm7
	vpxor	%ymm6, %ymm4, %ymm6
	vpxor	%ymm0, %ymm7, %ymm0
	vpxor	%ymm4, %ymm0, %ymm0
	vpxor	%ymm3, %ymm10, %ymm3
	vpxor	%ymm3, %ymm11, %ymm4
	vpxor	%ymm0, %ymm13, %ymm5
	vpxor	%ymm5, %ymm3, %ymm5
	vpand	160(%rsp), %ymm1, %ymm3         # 32-byte Folded Reload
	vpxor	%ymm6, %ymm9, %ymm9
	vpxor	%ymm2, %ymm4, %ymm2
	vpxor	%ymm6, %ymm8, %ymm6
	vpxor	%ymm7, %ymm3, %ymm3
	vpxor	%ymm3, %ymm12, %ymm3
	vpxor	%ymm3, %ymm9, %ymm7
	vpxor	%ymm7, %ymm15, %ymm11
	vpxor	%ymm2, %ymm6, %ymm3
	vpxor	%ymm7, %ymm5, %ymm8
	vpxor	(%rsp), %ymm9, %ymm9            # 32-byte Folded Reload
	vpxor	%ymm3, %ymm9, %ymm6
	vpxor	%ymm5, %ymm12, %ymm5
	vpxor	128(%rsp), %ymm4, %ymm4         # 32-byte Folded Reload
	vpxor	%ymm0, %ymm3, %ymm7
	vpand	32(%rsp), %ymm1, %ymm0          # 32-byte Folded Reload
	vpxor	%ymm4, %ymm11, %ymm4
	vpxor	%ymm2, %ymm9, %ymm13
	vpxor	%ymm0, %ymm10, %ymm0
	vpxor	%ymm0, %ymm9, %ymm0
	vpxor	%ymm0, %ymm11, %ymm2
	vbroadcasti128	.Lgcm_v3_CPI25_4(%rip), %ymm12 # ymm12 = [5,6,7,4,9,10,11,8,13,14,15,12,1,2,3,0,5,6,7,4,9,10,11,8,13,14,15,12,1,2,3,0]
                                        # ymm12 = mem[0,1,0,1]
	vpshufb	%ymm12, %ymm5, %ymm10
	vpshufb	%ymm12, %ymm8, %ymm11
	vpshufb	%ymm12, %ymm4, %ymm1
	vpshufb	%ymm12, %ymm7, %ymm0
	vmovdqa	%ymm0, 192(%rsp)                # 32-byte Spill
	vpshufb	%ymm12, %ymm13, %ymm0
	vmovdqa	%ymm0, 160(%rsp)                # 32-byte Spill
	vpxor	%ymm5, %ymm10, %ymm14
	vpxor	%ymm0, %ymm13, %ymm5
	vmovdqa	.Lgcm_v3_CPI25_1(%rip), %ymm9          # ymm9 = [10,11,8,9,14,15,12,13,2,3,0,1,6,7,4,5,26,27,24,25,30,31,28,29,18,19,16,17,22,23,20,21]
	vpshufb	%ymm9, %ymm14, %ymm13
	vpxor	-992(%r8), %ymm13, %ymm13
	vpxor	%ymm5, %ymm10, %ymm10
	vpxor	%ymm10, %ymm13, %ymm0
	vmovdqa	%ymm0, 32(%rsp)                 # 32-byte Spill
	vpshufb	%ymm12, %ymm3, %ymm15
	vpxor	%ymm8, %ymm11, %ymm8
	vpxor	%ymm14, %ymm11, %ymm11
	vpshufb	%ymm9, %ymm8, %ymm13
	vpxor	-960(%r8), %ymm13, %ymm13
	vpxor	%ymm5, %ymm11, %ymm11
	vpxor	%ymm11, %ymm13, %ymm9
	vmovdqa	%ymm9, 64(%rsp)                 # 32-byte Spill
	vpshufb	%ymm12, %ymm2, %ymm0
	vpshufb	%ymm12, %ymm6, %ymm14
	vpxor	%ymm4, %ymm1, %ymm13
	vmovdqa	192(%rsp), %ymm10               # 32-byte Reload
	vpxor	%ymm7, %ymm10, %ymm4
	vpxor	%ymm3, %ymm15, %ymm3
	vpxor	%ymm2, %ymm0, %ymm7
	vpxor	%ymm6, %ymm14, %ymm6
	vpxor	%ymm1, %ymm8, %ymm2
	vmovdqa	.Lgcm_v3_CPI25_1(%rip), %ymm1          # ymm1 = [10,11,8,9,14,15,12,13,2,3,0,1,6,7,4,5,26,27,24,25,30,31,28,29,18,19,16,17,22,23,20,21]
	vpshufb	%ymm1, %ymm13, %ymm8
	vpxor	-928(%r8), %ymm8, %ymm8
	vpxor	%ymm2, %ymm8, %ymm2
	vpshufb	%ymm1, %ymm4, %ymm11
	vpxor	%ymm5, %ymm15, %ymm8
	vpxor	%ymm4, %ymm8, %ymm4
	vpshufb	%ymm1, %ymm3, %ymm8
	vpxor	-864(%r8), %ymm8, %ymm8
	vpxor	%ymm4, %ymm8, %ymm12
	vpshufb	%ymm1, %ymm7, %ymm4
	vpxor	%ymm7, %ymm14, %ymm7
	vpshufb	%ymm1, %ymm6, %ymm8
	vpxor	-800(%r8), %ymm8, %ymm8
	vpxor	%ymm7, %ymm8, %ymm15
	vpshufb	%ymm1, %ymm5, %ymm7
	vpxor	-768(%r8), %ymm7, %ymm7
	vpxor	160(%rsp), %ymm6, %ymm1         # 32-byte Folded Reload
	vpxor	%ymm1, %ymm7, %ymm14
	vpxor	-832(%r8), %ymm4, %ymm1
	vpxor	%ymm3, %ymm0, %ymm0
	vpxor	%ymm0, %ymm1, %ymm0
	vpxor	%ymm0, %ymm15, %ymm7
	vpxor	%ymm12, %ymm14, %ymm8
	vpxor	%ymm9, %ymm14, %ymm1
	vmovdqa	%ymm1, 352(%rsp)                # 32-byte Spill
	vpxor	%ymm2, %ymm12, %ymm6
	vpxor	-896(%r8), %ymm11, %ymm0
	vpxor	%ymm6, %ymm1, %ymm11
	vmovdqa	%ymm6, 224(%rsp)                # 32-byte Spill
	vpxor	%ymm5, %ymm13, %ymm3
	vpxor	%ymm3, %ymm10, %ymm3
	vpxor	%ymm3, %ymm0, %ymm0
	vpxor	%ymm0, %ymm11, %ymm0
	vmovdqa	%ymm11, 128(%rsp)               # 32-byte Spill
	vpxor	%ymm2, %ymm0, %ymm1
	vpxor	%ymm0, %ymm15, %ymm0
	vpxor	%ymm2, %ymm14, %ymm15
	vmovdqa	%ymm8, 288(%rsp)                # 32-byte Spill
	vpxor	%ymm0, %ymm8, %ymm9
	vpand	%ymm8, %ymm9, %ymm2
	vpxor	%ymm7, %ymm1, %ymm5
	vpxor	%ymm5, %ymm9, %ymm3
	vmovdqa	%ymm3, 256(%rsp)                # 32-byte Spill
	vpand	%ymm6, %ymm3, %ymm3
	vpxor	%ymm2, %ymm3, %ymm4
	vpand	%ymm5, %ymm15, %ymm3
	vmovdqa	%ymm5, %ymm6
	vmovdqa	%ymm5, 192(%rsp)                # 32-byte Spill
	vpxor	%ymm2, %ymm3, %ymm5
	vmovdqa	32(%rsp), %ymm10                # 32-byte Reload
	vpxor	%ymm7, %ymm10, %ymm13
	vpxor	%ymm12, %ymm13, %ymm2
	vmovdqa	%ymm2, 96(%rsp)                 # 32-byte Spill
	vpand	%ymm2, %ymm10, %ymm3
	vmovdqa	%ymm15, %ymm2
	vmovdqa	%ymm15, 160(%rsp)               # 32-byte Spill
	vpxor	%ymm3, %ymm15, %ymm3
	vmovdqa	%ymm1, (%rsp)                   # 32-byte Spill
	vpand	%ymm1, %ymm11, %ymm15
	vpxor	%ymm6, %ymm15, %ymm11
	vpxor	%ymm3, %ymm11, %ymm6
	vpxor	%ymm0, %ymm15, %ymm0
	vpxor	64(%rsp), %ymm13, %ymm3         # 32-byte Folded Reload
	vpxor	%ymm1, %ymm10, %ymm15
	vpxor	%ymm2, %ymm3, %ymm1
	vmovdqa	%ymm1, 64(%rsp)                 # 32-byte Spill
	vpand	%ymm1, %ymm15, %ymm12
	vpxor	%ymm0, %ymm12, %ymm0
	vpxor	%ymm7, %ymm9, %ymm1
	vpxor	%ymm4, %ymm0, %ymm2
	vpand	%ymm3, %ymm13, %ymm12
	vpxor	%ymm1, %ymm12, %ymm12
	vmovdqa	352(%rsp), %ymm7                # 32-byte Reload
	vpand	%ymm7, %ymm1, %ymm0
	vpxor	%ymm0, %ymm12, %ymm12
	vpxor	%ymm7, %ymm12, %ymm12
	vpxor	%ymm4, %ymm12, %ymm12
	vpxor	%ymm0, %ymm14, %ymm0
	vpxor	%ymm14, %ymm13, %ymm4
	vpxor	%ymm10, %ymm9, %ymm8
	vmovdqa	%ymm8, 320(%rsp)                # 32-byte Spill
	vpand	%ymm4, %ymm8, %ymm10
	vpxor	%ymm1, %ymm10, %ymm10
	vpxor	%ymm0, %ymm10, %ymm0
	vpxor	%ymm5, %ymm6, %ymm6
	vpxor	%ymm5, %ymm0, %ymm5
	vpand	%ymm2, %ymm12, %ymm10
	vpxor	%ymm6, %ymm10, %ymm0
	vpxor	%ymm5, %ymm12, %ymm11
	vpand	%ymm0, %ymm11, %ymm11
	vpxor	%ymm6, %ymm2, %ymm2
	vpxor	%ymm5, %ymm10, %ymm0
	vpand	%ymm2, %ymm0, %ymm14
	vpxor	%ymm6, %ymm14, %ymm6
	vpxor	%ymm10, %ymm11, %ymm10
	vpxor	%ymm5, %ymm11, %ymm14
	vpand	%ymm5, %ymm10, %ymm5
	vpxor	%ymm0, %ymm5, %ymm0
	vpand	%ymm6, %ymm0, %ymm0
	vpxor	%ymm2, %ymm0, %ymm0
	vpxor	%ymm5, %ymm12, %ymm2
	vpxor	%ymm6, %ymm0, %ymm5
	vpand	%ymm1, %ymm5, %ymm1
	vpand	%ymm7, %ymm5, %ymm8
	vpand	%ymm0, %ymm13, %ymm5
	vpand	%ymm3, %ymm0, %ymm12
	vpxor	%ymm2, %ymm14, %ymm10
	vpxor	%ymm0, %ymm10, %ymm3
	vpand	%ymm15, %ymm10, %ymm0
	vpand	64(%rsp), %ymm10, %ymm13        # 32-byte Folded Reload
	vpand	96(%rsp), %ymm14, %ymm7         # 32-byte Folded Reload
	vmovdqa	%ymm7, 96(%rsp)                 # 32-byte Spill
	vpand	32(%rsp), %ymm14, %ymm15        # 32-byte Folded Reload
	vpxor	%ymm6, %ymm14, %ymm14
	vpand	%ymm9, %ymm14, %ymm11
	vpand	288(%rsp), %ymm14, %ymm10       # 32-byte Folded Reload
	vpxor	%ymm3, %ymm14, %ymm9
	vpand	224(%rsp), %ymm9, %ymm14        # 32-byte Folded Reload
	vpand	256(%rsp), %ymm9, %ymm9         # 32-byte Folded Reload
	vpand	%ymm4, %ymm6, %ymm4
	vpand	320(%rsp), %ymm6, %ymm6         # 32-byte Folded Reload
	vpand	(%rsp), %ymm2, %ymm7            # 32-byte Folded Reload
	vpand	128(%rsp), %ymm2, %ymm2         # 32-byte Folded Reload
	vpxor	%ymm0, %ymm7, %ymm0
	vpxor	%ymm7, %ymm15, %ymm7
	vpxor	%ymm5, %ymm1, %ymm5
	vpxor	%ymm6, %ymm7, %ymm6
	vpxor	%ymm1, %ymm6, %ymm1
	vpxor	%ymm10, %ymm14, %ymm6
	vpxor	%ymm6, %ymm13, %ymm13
	vpxor	%ymm1, %ymm12, %ymm12
	vpxor	%ymm6, %ymm12, %ymm12
	vpxor	%ymm5, %ymm9, %ymm6
	vpxor	%ymm5, %ymm0, %ymm0
	vpand	192(%rsp), %ymm3, %ymm5         # 32-byte Folded Reload
	vpxor	%ymm2, %ymm13, %ymm14
	vpxor	%ymm7, %ymm5, %ymm2
	vpxor	%ymm2, %ymm8, %ymm2
	vpxor	%ymm6, %ymm2, %ymm2
	vpxor	%ymm4, %ymm2, %ymm5
	vpxor	%ymm0, %ymm14, %ymm4
	vpxor	%ymm2, %ymm12, %ymm9
	vpxor	%ymm6, %ymm11, %ymm0
	vpxor	%ymm0, %ymm4, %ymm6
	vpxor	%ymm8, %ymm12, %ymm11
	vpxor	96(%rsp), %ymm13, %ymm2         # 32-byte Folded Reload
	vpxor	%ymm1, %ymm4, %ymm7
	vpand	160(%rsp), %ymm3, %ymm1         # 32-byte Folded Reload
	vpxor	%ymm5, %ymm2, %ymm2
	vpxor	%ymm0, %ymm14, %ymm12
	vpxor	%ymm1, %ymm10, %ymm1
	vpxor	%ymm0, %ymm1, %ymm0
	vpxor	%ymm5, %ymm0, %ymm8
	vmovdqa	.Lgcm_v3_CPI25_2(%rip), %ymm3          # ymm3 = [6,7,4,5,10,11,8,9,14,15,12,13,2,3,0,1,22,23,20,21,26,27,24,25,30,31,28,29,18,19,16,17]
	vpshufb	%ymm3, %ymm11, %ymm13
	vpshufb	%ymm3, %ymm9, %ymm14
	vpshufb	%ymm3, %ymm2, %ymm10
	vpshufb	%ymm3, %ymm7, %ymm0
	vpshufb	%ymm3, %ymm12, %ymm1
	vpxor	%ymm11, %ymm13, %ymm11
	vpxor	%ymm1, %ymm12, %ymm5
	vpshufd	$78, %ymm11, %ymm12             # ymm12 = ymm11[2,3,0,1,6,7,4,5]
	vpxor	-736(%r8), %ymm12, %ymm12
	vpxor	%ymm5, %ymm13, %ymm13
	vpxor	%ymm13, %ymm12, %ymm12
	vmovdqa	%ymm12, (%rsp)                  # 32-byte Spill
	vpshufb	%ymm3, %ymm4, %ymm12
	vpxor	%ymm9, %ymm14, %ymm9
	vpxor	%ymm11, %ymm14, %ymm11
	vpshufd	$78, %ymm9, %ymm13              # ymm13 = ymm9[2,3,0,1,6,7,4,5]
	vpxor	-704(%r8), %ymm13, %ymm13
	vpxor	%ymm5, %ymm11, %ymm11
	vpxor	%ymm11, %ymm13, %ymm11
	vmovdqa	%ymm11, 64(%rsp)                # 32-byte Spill
	vpshufb	%ymm3, %ymm8, %ymm13
	vpshufb	%ymm3, %ymm6, %ymm14
	vpxor	%ymm2, %ymm10, %ymm2
	vpxor	%ymm7, %ymm0, %ymm7
	vpxor	%ymm4, %ymm12, %ymm4
	vpxor	%ymm8, %ymm13, %ymm8
	vpxor	%ymm6, %ymm14, %ymm6
	vpxor	%ymm9, %ymm10, %ymm3
	vpshufd	$78, %ymm2, %ymm9               # ymm9 = ymm2[2,3,0,1,6,7,4,5]
	vpxor	-672(%r8), %ymm9, %ymm9
	vpxor	%ymm3, %ymm9, %ymm3
	vpshufd	$78, %ymm7, %ymm9               # ymm9 = ymm7[2,3,0,1,6,7,4,5]
	vpxor	%ymm5, %ymm12, %ymm10
	vpxor	%ymm7, %ymm10, %ymm7
	vpshufd	$78, %ymm4, %ymm10              # ymm10 = ymm4[2,3,0,1,6,7,4,5]
	vpxor	-608(%r8), %ymm10, %ymm10
	vpxor	%ymm7, %ymm10, %ymm12
	vpshufd	$78, %ymm8, %ymm7               # ymm7 = ymm8[2,3,0,1,6,7,4,5]
	vpxor	%ymm8, %ymm14, %ymm8
	vpshufd	$78, %ymm6, %ymm10              # ymm10 = ymm6[2,3,0,1,6,7,4,5]
	vpxor	-544(%r8), %ymm10, %ymm10
	vpxor	%ymm8, %ymm10, %ymm15
	vpshufd	$78, %ymm5, %ymm8               # ymm8 = ymm5[2,3,0,1,6,7,4,5]
	vpxor	-512(%r8), %ymm8, %ymm8
	vpxor	%ymm6, %ymm1, %ymm1
	vpxor	%ymm1, %ymm8, %ymm14
	vpxor	-576(%r8), %ymm7, %ymm1
	vpxor	%ymm4, %ymm13, %ymm4
	vpxor	%ymm4, %ymm1, %ymm1
	vpxor	%ymm1, %ymm15, %ymm1
	vpxor	%ymm14, %ymm12, %ymm7
	vpxor	%ymm14, %ymm11, %ymm6
	vmovdqa	%ymm6, 32(%rsp)                 # 32-byte Spill
	vpxor	%ymm3, %ymm12, %ymm8
	vpxor	-640(%r8), %ymm9, %ymm4
	vpxor	%ymm6, %ymm8, %ymm11
	vmovdqa	%ymm8, 224(%rsp)                # 32-byte Spill
	vpxor	%ymm5, %ymm2, %ymm2
	vpxor	%ymm0, %ymm2, %ymm0
	vpxor	%ymm0, %ymm4, %ymm0
	vpxor	%ymm0, %ymm11, %ymm0
	vmovdqa	%ymm11, 128(%rsp)               # 32-byte Spill
	vpxor	%ymm3, %ymm0, %ymm10
	vpxor	%ymm0, %ymm15, %ymm0
	vpxor	%ymm3, %ymm14, %ymm6
	vmovdqa	%ymm7, 288(%rsp)                # 32-byte Spill
	vpxor	%ymm7, %ymm0, %ymm9
	vpand	%ymm7, %ymm9, %ymm2
	vpxor	%ymm1, %ymm10, %ymm5
	vpxor	%ymm5, %ymm9, %ymm3
	vmovdqa	%ymm3, 256(%rsp)                # 32-byte Spill
	vpand	%ymm3, %ymm8, %ymm3
	vpxor	%ymm2, %ymm3, %ymm4
	vpand	%ymm6, %ymm5, %ymm3
	vmovdqa	%ymm5, 192(%rsp)                # 32-byte Spill
	vpxor	%ymm2, %ymm3, %ymm8
	vmovdqa	(%rsp), %ymm7                   # 32-byte Reload
	vpxor	%ymm7, %ymm1, %ymm13
	vpxor	%ymm12, %ymm13, %ymm2
	vmovdqa	%ymm2, 96(%rsp)                 # 32-byte Spill
	vpand	%ymm7, %ymm2, %ymm3
	vpxor	%ymm6, %ymm3, %ymm3
	vmovdqa	%ymm6, %ymm2
	vmovdqa	%ymm6, 160(%rsp)                # 32-byte Spill
	vpand	%ymm11, %ymm10, %ymm15
	vpxor	%ymm5, %ymm15, %ymm11
	vpxor	%ymm3, %ymm11, %ymm6
	vpxor	%ymm0, %ymm15, %ymm0
	vpxor	64(%rsp), %ymm13, %ymm3         # 32-byte Folded Reload
	vpxor	%ymm7, %ymm10, %ymm5
	vmovdqa	%ymm5, 352(%rsp)                # 32-byte Spill
	vpxor	%ymm2, %ymm3, %ymm2
	vmovdqa	%ymm2, 64(%rsp)                 # 32-byte Spill
	vpand	%ymm2, %ymm5, %ymm12
	vpxor	%ymm0, %ymm12, %ymm0
	vpxor	%ymm1, %ymm9, %ymm1
	vpxor	%ymm4, %ymm0, %ymm2
	vpand	%ymm3, %ymm13, %ymm12
	vpxor	%ymm1, %ymm12, %ymm12
	vmovdqa	32(%rsp), %ymm5                 # 32-byte Reload
	vpand	%ymm5, %ymm1, %ymm0
	vpxor	%ymm0, %ymm12, %ymm12
	vpxor	%ymm5, %ymm12, %ymm12
	vpxor	%ymm4, %ymm12, %ymm12
	vpxor	%ymm0, %ymm14, %ymm0
	vpxor	%ymm14, %ymm13, %ymm5
	vmovdqa	%ymm5, 384(%rsp)                # 32-byte Spill
	vpxor	%ymm7, %ymm9, %ymm4
	vmovdqa	%ymm4, 320(%rsp)                # 32-byte Spill
	vpand	%ymm5, %ymm4, %ymm11
	vpxor	%ymm1, %ymm11, %ymm11
	vpxor	%ymm0, %ymm11, %ymm0
	vpxor	%ymm6, %ymm8, %ymm6
	vpxor	%ymm0, %ymm8, %ymm5
	vpand	%ymm2, %ymm12, %ymm11
	vpxor	%ymm6, %ymm11, %ymm0
	vpxor	%ymm5, %ymm12, %ymm14
	vpand	%ymm0, %ymm14, %ymm14
	vpxor	%ymm6, %ymm2, %ymm2
	vpxor	%ymm5, %ymm11, %ymm0
	vpand	%ymm2, %ymm0, %ymm15
	vpxor	%ymm6, %ymm15, %ymm6
	vpxor	%ymm11, %ymm14, %ymm11
	vpxor	%ymm5, %ymm14, %ymm14
	vpand	%ymm5, %ymm11, %ymm5
	vpxor	%ymm0, %ymm5, %ymm0
	vpand	%ymm6, %ymm0, %ymm0
	vpxor	%ymm2, %ymm0, %ymm0
	vpxor	%ymm5, %ymm12, %ymm2
	vpxor	%ymm6, %ymm0, %ymm5
	vpand	%ymm1, %ymm5, %ymm1
	vpand	32(%rsp), %ymm5, %ymm8          # 32-byte Folded Reload
	vpand	%ymm0, %ymm13, %ymm11
	vpand	%ymm3, %ymm0, %ymm12
	vpxor	%ymm2, %ymm14, %ymm3
	vpxor	%ymm3, %ymm0, %ymm13
	vpand	352(%rsp), %ymm3, %ymm4         # 32-byte Folded Reload
	vpand	64(%rsp), %ymm3, %ymm15         # 32-byte Folded Reload
	vpand	96(%rsp), %ymm14, %ymm0         # 32-byte Folded Reload
	vmovdqa	%ymm0, 32(%rsp)                 # 32-byte Spill
	vpand	%ymm7, %ymm14, %ymm0
	vpxor	%ymm6, %ymm14, %ymm14
	vpand	%ymm9, %ymm14, %ymm3
	vmovdqa	%ymm3, (%rsp)                   # 32-byte Spill
	vpand	288(%rsp), %ymm14, %ymm3        # 32-byte Folded Reload
	vpxor	%ymm14, %ymm13, %ymm9
	vpand	224(%rsp), %ymm9, %ymm14        # 32-byte Folded Reload
	vpand	256(%rsp), %ymm9, %ymm9         # 32-byte Folded Reload
	vpand	384(%rsp), %ymm6, %ymm5         # 32-byte Folded Reload
	vpand	320(%rsp), %ymm6, %ymm6         # 32-byte Folded Reload
	vpand	%ymm2, %ymm10, %ymm10
	vpand	128(%rsp), %ymm2, %ymm2         # 32-byte Folded Reload
	vpxor	%ymm4, %ymm10, %ymm4
	vpxor	%ymm0, %ymm10, %ymm0
	vpxor	%ymm1, %ymm11, %ymm7
	vpxor	%ymm6, %ymm0, %ymm6
	vpxor	%ymm1, %ymm6, %ymm1
	vpxor	%ymm3, %ymm14, %ymm6
	vpxor	%ymm6, %ymm15, %ymm10
	vpxor	%ymm1, %ymm12, %ymm12
	vpxor	%ymm6, %ymm12, %ymm6
	vpxor	%ymm7, %ymm9, %ymm12
	vpxor	%ymm7, %ymm4, %ymm4
	vpand	192(%rsp), %ymm13, %ymm7        # 32-byte Folded Reload
	vpxor	%ymm2, %ymm10, %ymm14
	vpxor	%ymm0, %ymm7, %ymm0
	vpxor	%ymm0, %ymm8, %ymm0
	vpxor	%ymm0, %ymm12, %ymm0
	vpxor	%ymm5, %ymm0, %ymm15
	vpxor	%ymm4, %ymm14, %ymm2
	vpxor	%ymm0, %ymm6, %ymm9
	vpxor	(%rsp), %ymm12, %ymm0           # 32-byte Folded Reload
	vpxor	%ymm0, %ymm2, %ymm5
	vpxor	%ymm6, %ymm8, %ymm6
	vpxor	32(%rsp), %ymm10, %ymm4         # 32-byte Folded Reload
	vpxor	%ymm1, %ymm2, %ymm7
	vpand	160(%rsp), %ymm13, %ymm8        # 32-byte Folded Reload
	vpxor	%ymm4, %ymm15, %ymm1
	vpxor	%ymm0, %ymm14, %ymm10
	vpxor	%ymm3, %ymm8, %ymm3
	vpxor	%ymm0, %ymm3, %ymm0
	vpxor	%ymm0, %ymm15, %ymm8
	vbroadcasti128	.Lgcm_v3_CPI25_5(%rip), %ymm3  # ymm3 = [7,4,5,6,11,8,9,10,15,12,13,14,3,0,1,2,7,4,5,6,11,8,9,10,15,12,13,14,3,0,1,2]
                                        # ymm3 = mem[0,1,0,1]
	vpshufb	%ymm3, %ymm6, %ymm12
	vpshufb	%ymm3, %ymm9, %ymm13
	vpshufb	%ymm3, %ymm1, %ymm11
	vpshufb	%ymm3, %ymm7, %ymm15
	vmovdqa	%ymm15, 32(%rsp)                # 32-byte Spill
	vpshufb	%ymm3, %ymm10, %ymm4
	vpxor	%ymm6, %ymm12, %ymm14
	vpxor	%ymm4, %ymm10, %ymm6
	vmovdqa	.Lgcm_v3_CPI25_1(%rip), %ymm0          # ymm0 = [10,11,8,9,14,15,12,13,2,3,0,1,6,7,4,5,26,27,24,25,30,31,28,29,18,19,16,17,22,23,20,21]
	vpshufb	%ymm0, %ymm14, %ymm10
	vpxor	-480(%r8), %ymm10, %ymm10
	vpxor	%ymm6, %ymm12, %ymm12
	vpxor	%ymm12, %ymm10, %ymm10
	vmovdqa	%ymm10, (%rsp)                  # 32-byte Spill
	vpshufb	%ymm3, %ymm2, %ymm12
	vpxor	%ymm9, %ymm13, %ymm9
	vpxor	%ymm14, %ymm13, %ymm10
	vpshufb	%ymm0, %ymm9, %ymm13
	vpxor	-448(%r8), %ymm13, %ymm13
	vpxor	%ymm6, %ymm10, %ymm10
	vpxor	%ymm10, %ymm13, %ymm0
	vmovdqa	%ymm0, 64(%rsp)                 # 32-byte Spill
	vpshufb	%ymm3, %ymm8, %ymm14
	vpshufb	%ymm3, %ymm5, %ymm3
	vpxor	%ymm1, %ymm11, %ymm1
	vpxor	%ymm7, %ymm15, %ymm7
	vpxor	%ymm2, %ymm12, %ymm15
	vpxor	%ymm8, %ymm14, %ymm8
	vpxor	%ymm5, %ymm3, %ymm5
	vpxor	%ymm9, %ymm11, %ymm2
	vmovdqa	.Lgcm_v3_CPI25_1(%rip), %ymm10         # ymm10 = [10,11,8,9,14,15,12,13,2,3,0,1,6,7,4,5,26,27,24,25,30,31,28,29,18,19,16,17,22,23,20,21]
	vpshufb	%ymm10, %ymm1, %ymm9
	vpxor	-416(%r8), %ymm9, %ymm9
	vpxor	%ymm2, %ymm9, %ymm2
	vpshufb	%ymm10, %ymm7, %ymm9
	vmovdqa	%ymm9, 160(%rsp)                # 32-byte Spill
	vpxor	%ymm6, %ymm12, %ymm9
	vpxor	%ymm7, %ymm9, %ymm7
	vpshufb	%ymm10, %ymm15, %ymm9
	vpxor	-352(%r8), %ymm9, %ymm9
	vpxor	%ymm7, %ymm9, %ymm11
	vpshufb	%ymm10, %ymm8, %ymm7
	vpxor	%ymm3, %ymm8, %ymm3
	vpshufb	%ymm10, %ymm5, %ymm8
	vpxor	-288(%r8), %ymm8, %ymm8
	vpshufb	%ymm10, %ymm6, %ymm9
	vpxor	%ymm3, %ymm8, %ymm3
	vpxor	-256(%r8), %ymm9, %ymm8
	vpxor	%ymm5, %ymm4, %ymm4
	vpxor	%ymm4, %ymm8, %ymm13
	vpxor	-320(%r8), %ymm7, %ymm4
	vpxor	%ymm15, %ymm14, %ymm5
	vpxor	%ymm5, %ymm4, %ymm4
	vpxor	%ymm3, %ymm4, %ymm15
	vpxor	%ymm13, %ymm11, %ymm5
	vpxor	%ymm0, %ymm13, %ymm7
	vpxor	%ymm2, %ymm11, %ymm9
	vmovdqa	160(%rsp), %ymm0                # 32-byte Reload
	vpxor	-384(%r8), %ymm0, %ymm0
	vpxor	%ymm7, %ymm9, %ymm4
	vmovdqa	%ymm9, 256(%rsp)                # 32-byte Spill
	vpxor	%ymm6, %ymm1, %ymm1
	vpxor	32(%rsp), %ymm1, %ymm1          # 32-byte Folded Reload
	vpxor	%ymm1, %ymm0, %ymm0
	vpxor	%ymm4, %ymm0, %ymm0
	vmovdqa	%ymm4, %ymm6
	vmovdqa	%ymm4, 224(%rsp)                # 32-byte Spill
	vpxor	%ymm2, %ymm0, %ymm14
	vpxor	%ymm3, %ymm0, %ymm0
	vpxor	%ymm2, %ymm13, %ymm3
	vmovdqa	%ymm5, 192(%rsp)                # 32-byte Spill
	vpxor	%ymm5, %ymm0, %ymm8
	vpand	%ymm5, %ymm8, %ymm1
	vpxor	%ymm15, %ymm14, %ymm5
	vpxor	%ymm5, %ymm8, %ymm2
	vmovdqa	%ymm2, 288(%rsp)                # 32-byte Spill
	vpand	%ymm2, %ymm9, %ymm2
	vpxor	%ymm1, %ymm2, %ymm4
	vmovdqa	%ymm3, %ymm2
	vmovdqa	%ymm3, 32(%rsp)                 # 32-byte Spill
	vpand	%ymm3, %ymm5, %ymm3
	vmovdqa	%ymm5, %ymm9
	vmovdqa	%ymm5, 160(%rsp)                # 32-byte Spill
	vpxor	%ymm1, %ymm3, %ymm5
	vmovdqa	(%rsp), %ymm10                  # 32-byte Reload
	vpxor	%ymm10, %ymm15, %ymm12
	vpxor	%ymm11, %ymm12, %ymm1
	vmovdqa	%ymm1, 96(%rsp)                 # 32-byte Spill
	vpand	%ymm1, %ymm10, %ymm1
	vpxor	%ymm2, %ymm1, %ymm1
	vmovdqa	%ymm14, %ymm11
	vmovdqa	%ymm14, 128(%rsp)               # 32-byte Spill
	vpand	%ymm6, %ymm14, %ymm3
	vpxor	%ymm3, %ymm9, %ymm14
	vpxor	%ymm1, %ymm14, %ymm6
	vpxor	%ymm3, %ymm0, %ymm0
	vpxor	64(%rsp), %ymm12, %ymm3         # 32-byte Folded Reload
	vpxor	%ymm10, %ymm11, %ymm14
	vpxor	%ymm2, %ymm3, %ymm1
	vmovdqa	%ymm1, 64(%rsp)                 # 32-byte Spill
	vpand	%ymm1, %ymm14, %ymm1
	vpxor	%ymm1, %ymm0, %ymm0
	vpxor	%ymm15, %ymm8, %ymm1
	vpxor	%ymm4, %ymm0, %ymm2
	vpand	%ymm3, %ymm12, %ymm15
	vpxor	%ymm1, %ymm15, %ymm15
	vpand	%ymm7, %ymm1, %ymm0
	vpxor	%ymm0, %ymm15, %ymm15
	vpxor	%ymm7, %ymm15, %ymm15
	vpxor	%ymm4, %ymm15, %ymm4
	vpxor	%ymm0, %ymm13, %ymm0
	vpxor	%ymm13, %ymm12, %ymm11
	vmovdqa	%ymm11, 352(%rsp)               # 32-byte Spill
	vpxor	%ymm10, %ymm8, %ymm9
	vmovdqa	%ymm9, 320(%rsp)                # 32-byte Spill
	vpand	%ymm11, %ymm9, %ymm11
	vpxor	%ymm1, %ymm11, %ymm11
	vpxor	%ymm0, %ymm11, %ymm0
	vpxor	%ymm5, %ymm6, %ymm6
	vpxor	%ymm5, %ymm0, %ymm5
	vpand	%ymm2, %ymm4, %ymm11
	vpxor	%ymm6, %ymm11, %ymm0
	vpxor	%ymm5, %ymm4, %ymm9
	vpand	%ymm0, %ymm9, %ymm9
	vpxor	%ymm6, %ymm2, %ymm2
	vpxor	%ymm5, %ymm11, %ymm0
	vpand	%ymm2, %ymm0, %ymm13
	vpxor	%ymm6, %ymm13, %ymm6
	vpxor	%ymm11, %ymm9, %ymm11
	vpxor	%ymm5, %ymm9, %ymm9
	vpand	%ymm5, %ymm11, %ymm5
	vpxor	%ymm0, %ymm5, %ymm0
	vpand	%ymm6, %ymm0, %ymm0
	vpxor	%ymm2, %ymm0, %ymm0
	vpxor	%ymm4, %ymm5, %ymm2
	vpxor	%ymm6, %ymm0, %ymm5
	vpand	%ymm1, %ymm5, %ymm4
	vpand	%ymm7, %ymm5, %ymm7
	vpand	%ymm0, %ymm12, %ymm11
	vpand	%ymm3, %ymm0, %ymm15
	vpxor	%ymm2, %ymm9, %ymm5
	vpxor	%ymm5, %ymm0, %ymm1
	vpand	%ymm5, %ymm14, %ymm3
	vpand	64(%rsp), %ymm5, %ymm12         # 32-byte Folded Reload
	vpand	96(%rsp), %ymm9, %ymm0          # 32-byte Folded Reload
	vmovdqa	%ymm0, 96(%rsp)                 # 32-byte Spill
	vpand	%ymm10, %ymm9, %ymm13
	vpxor	%ymm6, %ymm9, %ymm14
	vpand	%ymm8, %ymm14, %ymm8
	vpand	192(%rsp), %ymm14, %ymm9        # 32-byte Folded Reload
	vpxor	%ymm1, %ymm14, %ymm14
	vpand	256(%rsp), %ymm14, %ymm0        # 32-byte Folded Reload
	vpand	288(%rsp), %ymm14, %ymm14       # 32-byte Folded Reload
	vpand	352(%rsp), %ymm6, %ymm5         # 32-byte Folded Reload
	vpand	320(%rsp), %ymm6, %ymm6         # 32-byte Folded Reload
	vpand	128(%rsp), %ymm2, %ymm10        # 32-byte Folded Reload
	vpand	224(%rsp), %ymm2, %ymm2         # 32-byte Folded Reload
	vpxor	%ymm3, %ymm10, %ymm3
	vpxor	%ymm13, %ymm10, %ymm10
	vpxor	%ymm4, %ymm11, %ymm11
	vpxor	%ymm6, %ymm10, %ymm6
	vpxor	%ymm4, %ymm6, %ymm6
	vpxor	%ymm0, %ymm9, %ymm0
	vpxor	%ymm0, %ymm12, %ymm12
	vpxor	%ymm6, %ymm15, %ymm4
	vpxor	%ymm4, %ymm0, %ymm0
	vpxor	%ymm14, %ymm11, %ymm4
	vpxor	%ymm3, %ymm11, %ymm3
	vpand	160(%rsp), %ymm1, %ymm11        # 32-byte Folded Reload
	vpxor	%ymm10, %ymm11, %ymm10
	vpxor	%ymm7, %ymm10, %ymm10
	vpxor	%ymm4, %ymm10, %ymm10
	vpxor	%ymm4, %ymm8, %ymm11
	vpxor	%ymm5, %ymm10, %ymm13
	vpxor	%ymm0, %ymm10, %ymm4
	vpxor	%ymm7, %ymm0, %ymm0
	vpxor	%ymm2, %ymm12, %ymm7
	vpxor	%ymm7, %ymm3, %ymm3
	vpxor	96(%rsp), %ymm12, %ymm5         # 32-byte Folded Reload
	vpxor	%ymm3, %ymm11, %ymm2
	vpxor	%ymm6, %ymm3, %ymm8
	vpand	32(%rsp), %ymm1, %ymm1          # 32-byte Folded Reload
	vpxor	%ymm5, %ymm13, %ymm5
	vpxor	%ymm7, %ymm11, %ymm10
	vpxor	%ymm1, %ymm9, %ymm1
	vpxor	%ymm1, %ymm11, %ymm1
	vpxor	%ymm1, %ymm13, %ymm6
	vpshufd	$57, %ymm0, %ymm1               # ymm1 = ymm0[1,2,3,0,5,6,7,4]
	vpshufd	$57, %ymm4, %ymm9               # ymm9 = ymm4[1,2,3,0,5,6,7,4]
	vpshufd	$57, %ymm10, %ymm7              # ymm7 = ymm10[1,2,3,0,5,6,7,4]
	vpxor	%ymm0, %ymm1, %ymm11
	vpxor	%ymm7, %ymm10, %ymm0
	vpshufd	$78, %ymm11, %ymm10             # ymm10 = ymm11[2,3,0,1,6,7,4,5]
	vpxor	-224(%r8), %ymm10, %ymm10
	vpxor	%ymm0, %ymm1, %ymm1
	vpxor	%ymm1, %ymm10, %ymm13
	vpshufd	$57, %ymm5, %ymm10              # ymm10 = ymm5[1,2,3,0,5,6,7,4]
	vpxor	%ymm4, %ymm9, %ymm4
	vpxor	%ymm11, %ymm9, %ymm1
	vpshufd	$78, %ymm4, %ymm9               # ymm9 = ymm4[2,3,0,1,6,7,4,5]
	vpxor	-192(%r8), %ymm9, %ymm9
	vpxor	%ymm0, %ymm1, %ymm1
	vpxor	%ymm1, %ymm9, %ymm1
	vpshufd	$57, %ymm8, %ymm9               # ymm9 = ymm8[1,2,3,0,5,6,7,4]
	vpxor	%ymm5, %ymm10, %ymm5
	vpxor	%ymm4, %ymm10, %ymm4
	vpshufd	$78, %ymm5, %ymm10              # ymm10 = ymm5[2,3,0,1,6,7,4,5]
	vpxor	-160(%r8), %ymm10, %ymm10
	vpxor	%ymm4, %ymm10, %ymm4
	vpshufd	$57, %ymm3, %ymm10              # ymm10 = ymm3[1,2,3,0,5,6,7,4]
	vpxor	%ymm8, %ymm9, %ymm8
	vpxor	%ymm0, %ymm5, %ymm5
	vpxor	%ymm5, %ymm9, %ymm5
	vpshufd	$78, %ymm8, %ymm9               # ymm9 = ymm8[2,3,0,1,6,7,4,5]
	vpxor	-128(%r8), %ymm9, %ymm9
	vpxor	%ymm5, %ymm9, %ymm5
	vpshufd	$57, %ymm6, %ymm9               # ymm9 = ymm6[1,2,3,0,5,6,7,4]
	vpxor	%ymm3, %ymm10, %ymm11
	vpxor	%ymm6, %ymm9, %ymm12
	vpxor	%ymm0, %ymm10, %ymm3
	vpxor	%ymm3, %ymm8, %ymm3
	vpshufd	$78, %ymm11, %ymm6              # ymm6 = ymm11[2,3,0,1,6,7,4,5]
	vpxor	-96(%r8), %ymm6, %ymm6
	vpxor	%ymm3, %ymm6, %ymm3
	vpshufd	$78, %ymm12, %ymm6              # ymm6 = ymm12[2,3,0,1,6,7,4,5]
	vpxor	-64(%r8), %ymm6, %ymm6
	vpxor	%ymm11, %ymm9, %ymm8
	vpxor	%ymm6, %ymm8, %ymm6
	vpshufd	$57, %ymm2, %ymm8               # ymm8 = ymm2[1,2,3,0,5,6,7,4]
	vpxor	%ymm2, %ymm8, %ymm2
	vpxor	%ymm12, %ymm8, %ymm8
	vpshufd	$78, %ymm2, %ymm9               # ymm9 = ymm2[2,3,0,1,6,7,4,5]
	vpxor	-32(%r8), %ymm9, %ymm9
	vpxor	%ymm8, %ymm9, %ymm10
	vpshufd	$78, %ymm0, %ymm0               # ymm0 = ymm0[2,3,0,1,6,7,4,5]
	vpxor	(%r8), %ymm0, %ymm0
	vpxor	%ymm2, %ymm7, %ymm2
	vpxor	%ymm2, %ymm0, %ymm9
	addq	$1024, %r8                      # imm = 0x400
	decq	%rcx
	jne	.Lgcm_v3_BB25_2
.Lgcm_v3_BB25_3:                               # %after.3
	vpxor	%ymm6, %ymm10, %ymm2
	vpxor	%ymm3, %ymm9, %ymm11
	vpxor	%ymm1, %ymm9, %ymm12
	vpxor	%ymm3, %ymm4, %ymm7
	vpxor	%ymm7, %ymm12, %ymm15
	vmovdqa	%ymm7, 256(%rsp)                # 32-byte Spill
	vpxor	%ymm5, %ymm15, %ymm0
	vmovdqa	%ymm15, 224(%rsp)               # 32-byte Spill
	vpxor	%ymm4, %ymm0, %ymm8
	vpxor	%ymm0, %ymm10, %ymm14
	vpxor	%ymm4, %ymm9, %ymm0
	vmovdqa	%ymm0, 32(%rsp)                 # 32-byte Spill
	vmovdqa	%ymm11, 192(%rsp)               # 32-byte Spill
	vpxor	%ymm11, %ymm14, %ymm10
	vpand	%ymm11, %ymm10, %ymm4
	vpxor	%ymm2, %ymm8, %ymm11
	vmovdqa	%ymm11, 160(%rsp)               # 32-byte Spill
	vpxor	%ymm11, %ymm10, %ymm5
	vmovdqa	%ymm5, 288(%rsp)                # 32-byte Spill
	vpand	%ymm7, %ymm5, %ymm6
	vpxor	%ymm4, %ymm6, %ymm5
	vpand	%ymm0, %ymm11, %ymm6
	vpxor	%ymm4, %ymm6, %ymm4
	vmovdqa	%ymm13, %ymm7
	vpxor	%ymm2, %ymm13, %ymm13
	vpxor	%ymm3, %ymm13, %ymm3
	vmovdqa	%ymm3, 128(%rsp)                # 32-byte Spill
	vpand	%ymm7, %ymm3, %ymm3
	vpxor	%ymm0, %ymm3, %ymm3
	vpxor	%ymm3, %ymm11, %ymm3
	vpand	%ymm15, %ymm8, %ymm6
	vpxor	%ymm6, %ymm3, %ymm3
	vpxor	%ymm6, %ymm14, %ymm6
	vpxor	%ymm1, %ymm13, %ymm15
	vpxor	%ymm7, %ymm8, %ymm1
	vmovdqa	%ymm1, 64(%rsp)                 # 32-byte Spill
	vpxor	%ymm0, %ymm15, %ymm0
	vmovdqa	%ymm0, (%rsp)                   # 32-byte Spill
	vpand	%ymm0, %ymm1, %ymm1
	vpxor	%ymm1, %ymm6, %ymm6
	vpxor	%ymm2, %ymm10, %ymm1
	vpxor	%ymm5, %ymm6, %ymm2
	vpand	%ymm13, %ymm15, %ymm6
	vpxor	%ymm6, %ymm1, %ymm6
	vpand	%ymm1, %ymm12, %ymm0
	vpxor	%ymm0, %ymm6, %ymm6
	vpxor	%ymm6, %ymm12, %ymm6
	vpxor	%ymm5, %ymm6, %ymm5
	vpxor	%ymm0, %ymm9, %ymm0
	vpxor	%ymm9, %ymm13, %ymm9
	vmovdqa	%ymm9, 320(%rsp)                # 32-byte Spill
	vpxor	%ymm7, %ymm10, %ymm6
	vmovdqa	%ymm6, 96(%rsp)                 # 32-byte Spill
	vpand	%ymm6, %ymm9, %ymm11
	vpxor	%ymm1, %ymm11, %ymm11
	vpxor	%ymm0, %ymm11, %ymm0
	vpxor	%ymm4, %ymm3, %ymm3
	vpxor	%ymm4, %ymm0, %ymm4
	vpand	%ymm2, %ymm5, %ymm11
	vpxor	%ymm3, %ymm11, %ymm0
	vpxor	%ymm4, %ymm5, %ymm9
	vpand	%ymm0, %ymm9, %ymm9
	vpxor	%ymm3, %ymm2, %ymm2
	vpxor	%ymm4, %ymm11, %ymm0
	vpand	%ymm2, %ymm0, %ymm14
	vpxor	%ymm3, %ymm14, %ymm3
	vpxor	%ymm11, %ymm9, %ymm11
	vpxor	%ymm4, %ymm9, %ymm9
	vpand	%ymm4, %ymm11, %ymm4
	vpxor	%ymm0, %ymm4, %ymm0
	vpand	%ymm3, %ymm0, %ymm0
	vpxor	%ymm2, %ymm0, %ymm0
	vpxor	%ymm5, %ymm4, %ymm2
	vpxor	%ymm3, %ymm0, %ymm4
	vpand	%ymm1, %ymm4, %ymm5
	vpand	%ymm4, %ymm12, %ymm12
	vpand	%ymm0, %ymm13, %ymm6
	vpand	%ymm0, %ymm15, %ymm11
	vpxor	%ymm2, %ymm9, %ymm4
	vpxor	%ymm4, %ymm0, %ymm13
	vpand	64(%rsp), %ymm4, %ymm14         # 32-byte Folded Reload
	vpand	(%rsp), %ymm4, %ymm15           # 32-byte Folded Reload
	vpand	128(%rsp), %ymm9, %ymm0         # 32-byte Folded Reload
	vmovdqa	%ymm0, 128(%rsp)                # 32-byte Spill
	vpand	%ymm7, %ymm9, %ymm0
	vpxor	%ymm3, %ymm9, %ymm9
	vpand	%ymm10, %ymm9, %ymm1
	vmovdqa	%ymm1, (%rsp)                   # 32-byte Spill
	vpand	192(%rsp), %ymm9, %ymm10        # 32-byte Folded Reload
	vpxor	%ymm9, %ymm13, %ymm9
	vpand	256(%rsp), %ymm9, %ymm1         # 32-byte Folded Reload
	vpand	288(%rsp), %ymm9, %ymm9         # 32-byte Folded Reload
	vpand	320(%rsp), %ymm3, %ymm4         # 32-byte Folded Reload
	vpand	96(%rsp), %ymm3, %ymm3          # 32-byte Folded Reload
	vpand	%ymm2, %ymm8, %ymm7
	vpand	224(%rsp), %ymm2, %ymm2         # 32-byte Folded Reload
	vpxor	%ymm7, %ymm14, %ymm14
	vpxor	%ymm0, %ymm7, %ymm0
	vpxor	%ymm6, %ymm5, %ymm6
	vpxor	%ymm3, %ymm0, %ymm3
	vpxor	%ymm5, %ymm3, %ymm3
	vpxor	%ymm1, %ymm10, %ymm1
	vpxor	%ymm1, %ymm15, %ymm7
	vpxor	%ymm3, %ymm11, %ymm5
	vpxor	%ymm5, %ymm1, %ymm1
	vpxor	%ymm6, %ymm9, %ymm11
	vpxor	%ymm6, %ymm14, %ymm5
	vpand	160(%rsp), %ymm13, %ymm6        # 32-byte Folded Reload
	vpxor	%ymm0, %ymm6, %ymm0
	movq	%rax, %rcx
	andq	$-4, %rcx
	vpxor	%ymm2, %ymm7, %ymm6
	vpxor	%ymm0, %ymm12, %ymm0
	vpxor	%ymm0, %ymm11, %ymm0
	vpxor	%ymm4, %ymm0, %ymm4
	vpxor	%ymm6, %ymm5, %ymm5
	vpxor	%ymm0, %ymm1, %ymm9
	vpxor	(%rsp), %ymm11, %ymm0           # 32-byte Folded Reload
	vpxor	%ymm0, %ymm5, %ymm2
	vpxor	%ymm1, %ymm12, %ymm1
	vpxor	128(%rsp), %ymm7, %ymm7         # 32-byte Folded Reload
	vpxor	%ymm3, %ymm5, %ymm8
	vpand	32(%rsp), %ymm13, %ymm11        # 32-byte Folded Reload
	vpxor	%ymm4, %ymm7, %ymm3
	vpxor	%ymm0, %ymm6, %ymm12
	vpxor	%ymm10, %ymm11, %ymm6
	vpxor	%ymm0, %ymm6, %ymm0
	vpxor	%ymm4, %ymm0, %ymm7
	vbroadcasti128	.Lgcm_v3_CPI25_4(%rip), %ymm6  # ymm6 = [5,6,7,4,9,10,11,8,13,14,15,12,1,2,3,0,5,6,7,4,9,10,11,8,13,14,15,12,1,2,3,0]
                                        # ymm6 = mem[0,1,0,1]
	vpshufb	%ymm6, %ymm1, %ymm10
	vpshufb	%ymm6, %ymm9, %ymm11
	vpshufb	%ymm6, %ymm12, %ymm4
	vpxor	%ymm1, %ymm10, %ymm1
	vpxor	%ymm4, %ymm12, %ymm0
	vmovdqa	.Lgcm_v3_CPI25_1(%rip), %ymm14         # ymm14 = [10,11,8,9,14,15,12,13,2,3,0,1,6,7,4,5,26,27,24,25,30,31,28,29,18,19,16,17,22,23,20,21]
	vpshufb	%ymm14, %ymm1, %ymm12
	movq	%rcx, %r8
	shlq	$8, %r8
	vpxor	256(%rdi,%r8), %ymm12, %ymm12
	vpxor	%ymm0, %ymm10, %ymm10
	vpxor	%ymm10, %ymm12, %ymm15
	vpshufb	%ymm6, %ymm3, %ymm10
	vpxor	%ymm9, %ymm11, %ymm12
	vpxor	%ymm1, %ymm11, %ymm1
	vpshufb	%ymm14, %ymm12, %ymm9
	vpxor	288(%rdi,%r8), %ymm9, %ymm9
	vpxor	%ymm0, %ymm1, %ymm1
	vpxor	%ymm1, %ymm9, %ymm9
	vpshufb	%ymm6, %ymm8, %ymm1
	vpxor	%ymm3, %ymm10, %ymm11
	vpxor	%ymm12, %ymm10, %ymm3
	vpshufb	%ymm14, %ymm11, %ymm10
	vpxor	320(%rdi,%r8), %ymm10, %ymm10
	vpxor	%ymm3, %ymm10, %ymm3
	vpshufb	%ymm6, %ymm5, %ymm12
	vpxor	%ymm1, %ymm8, %ymm8
	vpxor	%ymm0, %ymm11, %ymm10
	vpxor	%ymm1, %ymm10, %ymm1
	vpshufb	%ymm14, %ymm8, %ymm10
	vpxor	352(%rdi,%r8), %ymm10, %ymm10
	vpxor	%ymm1, %ymm10, %ymm10
	vpshufb	%ymm6, %ymm7, %ymm1
	vpxor	%ymm5, %ymm12, %ymm5
	vpxor	%ymm7, %ymm1, %ymm11
	vpxor	%ymm0, %ymm12, %ymm7
	vpxor	%ymm7, %ymm8, %ymm7
	vpshufb	%ymm14, %ymm5, %ymm8
	vpxor	384(%rdi,%r8), %ymm8, %ymm8
	vpxor	%ymm7, %ymm8, %ymm13
	vpshufb	%ymm14, %ymm11, %ymm7
	vpxor	416(%rdi,%r8), %ymm7, %ymm7
	vpxor	%ymm5, %ymm1, %ymm1
	vpxor	%ymm1, %ymm7, %ymm7
	vpshufb	%ymm6, %ymm2, %ymm1
	vpxor	%ymm2, %ymm1, %ymm2
	vpxor	%ymm1, %ymm11, %ymm1
	vpshufb	%ymm14, %ymm2, %ymm5
	vpxor	448(%rdi,%r8), %ymm5, %ymm5
	vpxor	%ymm1, %ymm5, %ymm11
	vpshufb	%ymm14, %ymm0, %ymm0
	vpxor	480(%rdi,%r8), %ymm0, %ymm0
	vpxor	%ymm2, %ymm4, %ymm1
	vpxor	%ymm1, %ymm0, %ymm5
	orq	$2, %rcx
	cmpq	%rsi, %rcx
	jae	.Lgcm_v3_BB25_5
# %bb.4:                                # %then.11
	vpxor	%ymm7, %ymm11, %ymm12
	vpxor	%ymm5, %ymm13, %ymm7
	vpxor	%ymm5, %ymm9, %ymm1
	vmovdqa	%ymm1, 352(%rsp)                # 32-byte Spill
	vpxor	%ymm3, %ymm13, %ymm8
	vpxor	%ymm1, %ymm8, %ymm2
	vmovdqa	%ymm8, 256(%rsp)                # 32-byte Spill
	vpxor	%ymm2, %ymm10, %ymm0
	vmovdqa	%ymm2, 224(%rsp)                # 32-byte Spill
	vpxor	%ymm3, %ymm0, %ymm4
	vpxor	%ymm0, %ymm11, %ymm0
	vpxor	%ymm3, %ymm5, %ymm6
	vmovdqa	%ymm7, 192(%rsp)                # 32-byte Spill
	vpxor	%ymm7, %ymm0, %ymm10
	vpand	%ymm7, %ymm10, %ymm1
	vmovdqa	%ymm4, %ymm11
	vpxor	%ymm4, %ymm12, %ymm7
	vpxor	%ymm7, %ymm10, %ymm3
	vmovdqa	%ymm3, 288(%rsp)                # 32-byte Spill
	vpand	%ymm3, %ymm8, %ymm3
	vpxor	%ymm1, %ymm3, %ymm4
	vpand	%ymm6, %ymm7, %ymm3
	vmovdqa	%ymm7, 160(%rsp)                # 32-byte Spill
	vpxor	%ymm1, %ymm3, %ymm1
	vpxor	%ymm15, %ymm12, %ymm14
	vpxor	%ymm13, %ymm14, %ymm3
	vmovdqa	%ymm3, (%rsp)                   # 32-byte Spill
	vpand	%ymm3, %ymm15, %ymm3
	vpxor	%ymm6, %ymm3, %ymm3
	vmovdqa	%ymm6, %ymm13
	vmovdqa	%ymm6, 32(%rsp)                 # 32-byte Spill
	vpand	%ymm2, %ymm11, %ymm8
	vmovdqa	%ymm11, %ymm2
	vmovdqa	%ymm11, 128(%rsp)               # 32-byte Spill
	vpxor	%ymm7, %ymm8, %ymm11
	vpxor	%ymm3, %ymm11, %ymm6
	vpxor	%ymm0, %ymm8, %ymm0
	vpxor	%ymm9, %ymm14, %ymm7
	vpxor	%ymm2, %ymm15, %ymm3
	vmovdqa	%ymm3, 320(%rsp)                # 32-byte Spill
	vpxor	%ymm7, %ymm13, %ymm2
	vmovdqa	%ymm2, 96(%rsp)                 # 32-byte Spill
	vpand	%ymm2, %ymm3, %ymm9
	vpxor	%ymm0, %ymm9, %ymm9
	vpxor	%ymm12, %ymm10, %ymm3
	vpxor	%ymm4, %ymm9, %ymm2
	vpand	%ymm7, %ymm14, %ymm9
	vpxor	%ymm3, %ymm9, %ymm9
	vmovdqa	%ymm15, %ymm8
	vmovdqa	352(%rsp), %ymm12               # 32-byte Reload
	vpand	%ymm3, %ymm12, %ymm15
	vpxor	%ymm15, %ymm9, %ymm9
	vpxor	%ymm12, %ymm9, %ymm9
	vpxor	%ymm4, %ymm9, %ymm4
	vpxor	%ymm5, %ymm15, %ymm15
	vpxor	%ymm5, %ymm14, %ymm9
	vpxor	%ymm8, %ymm10, %ymm0
	vmovdqa	%ymm0, 64(%rsp)                 # 32-byte Spill
	vpand	%ymm0, %ymm9, %ymm13
	vpxor	%ymm3, %ymm13, %ymm13
	vpxor	%ymm15, %ymm13, %ymm13
	vpxor	%ymm1, %ymm6, %ymm6
	vpxor	%ymm1, %ymm13, %ymm13
	vpand	%ymm2, %ymm4, %ymm15
	vpxor	%ymm6, %ymm15, %ymm1
	vpxor	%ymm4, %ymm13, %ymm11
	vpand	%ymm1, %ymm11, %ymm11
	vpxor	%ymm6, %ymm2, %ymm2
	vpxor	%ymm13, %ymm15, %ymm0
	vpand	%ymm2, %ymm0, %ymm1
	vpxor	%ymm6, %ymm1, %ymm1
	vpxor	%ymm15, %ymm11, %ymm6
	vpxor	%ymm13, %ymm11, %ymm15
	vpand	%ymm6, %ymm13, %ymm6
	vpxor	%ymm0, %ymm6, %ymm0
	vpand	%ymm1, %ymm0, %ymm0
	vpxor	%ymm2, %ymm0, %ymm0
	vpxor	%ymm4, %ymm6, %ymm2
	vpxor	%ymm1, %ymm0, %ymm6
	vpand	%ymm3, %ymm6, %ymm5
	vpand	%ymm6, %ymm12, %ymm12
	vpand	%ymm0, %ymm14, %ymm6
	vpand	%ymm7, %ymm0, %ymm11
	vpxor	%ymm2, %ymm15, %ymm7
	vpxor	%ymm7, %ymm0, %ymm4
	vpand	320(%rsp), %ymm7, %ymm13        # 32-byte Folded Reload
	vpand	96(%rsp), %ymm7, %ymm7          # 32-byte Folded Reload
	vpand	(%rsp), %ymm15, %ymm0           # 32-byte Folded Reload
	vmovdqa	%ymm0, (%rsp)                   # 32-byte Spill
	vpand	%ymm8, %ymm15, %ymm14
	vpxor	%ymm1, %ymm15, %ymm15
	vpand	%ymm10, %ymm15, %ymm10
	vpand	192(%rsp), %ymm15, %ymm8        # 32-byte Folded Reload
	vpxor	%ymm4, %ymm15, %ymm15
	vpand	256(%rsp), %ymm15, %ymm3        # 32-byte Folded Reload
	vpand	288(%rsp), %ymm15, %ymm15       # 32-byte Folded Reload
	vpand	%ymm1, %ymm9, %ymm9
	vpand	64(%rsp), %ymm1, %ymm1          # 32-byte Folded Reload
	vpand	128(%rsp), %ymm2, %ymm0         # 32-byte Folded Reload
	vpand	224(%rsp), %ymm2, %ymm2         # 32-byte Folded Reload
	vpxor	%ymm0, %ymm13, %ymm13
	vpxor	%ymm0, %ymm14, %ymm0
	vpxor	%ymm6, %ymm5, %ymm6
	vpxor	%ymm1, %ymm0, %ymm1
	vpxor	%ymm5, %ymm1, %ymm1
	vpxor	%ymm3, %ymm8, %ymm3
	vpxor	%ymm7, %ymm3, %ymm5
	vpxor	%ymm1, %ymm11, %ymm7
	vpxor	%ymm7, %ymm3, %ymm7
	vpxor	%ymm6, %ymm15, %ymm11
	vpxor	%ymm6, %ymm13, %ymm3
	vpand	160(%rsp), %ymm4, %ymm6         # 32-byte Folded Reload
	vpxor	%ymm2, %ymm5, %ymm13
	vpxor	%ymm0, %ymm6, %ymm0
	vpxor	%ymm0, %ymm12, %ymm0
	vpxor	%ymm0, %ymm11, %ymm0
	vpxor	%ymm0, %ymm9, %ymm14
	vpxor	%ymm3, %ymm13, %ymm3
	vpxor	%ymm0, %ymm7, %ymm9
	vpxor	%ymm10, %ymm11, %ymm0
	vpxor	%ymm0, %ymm3, %ymm6
	vpxor	%ymm7, %ymm12, %ymm11
	vpxor	(%rsp), %ymm5, %ymm5            # 32-byte Folded Reload
	vpxor	%ymm1, %ymm3, %ymm2
	vpand	32(%rsp), %ymm4, %ymm1          # 32-byte Folded Reload
	vpxor	%ymm5, %ymm14, %ymm7
	vpxor	%ymm0, %ymm13, %ymm5
	vpxor	%ymm1, %ymm8, %ymm1
	vpxor	%ymm0, %ymm1, %ymm0
	vpxor	%ymm0, %ymm14, %ymm8
	vmovdqa	.Lgcm_v3_CPI25_2(%rip), %ymm4          # ymm4 = [6,7,4,5,10,11,8,9,14,15,12,13,2,3,0,1,22,23,20,21,26,27,24,25,30,31,28,29,18,19,16,17]
	vpshufb	%ymm4, %ymm11, %ymm12
	vpshufb	%ymm4, %ymm9, %ymm13
	vpshufb	%ymm4, %ymm7, %ymm10
	vpshufb	%ymm4, %ymm2, %ymm15
	vpshufb	%ymm4, %ymm5, %ymm1
	vpxor	%ymm11, %ymm12, %ymm11
	vpxor	%ymm5, %ymm1, %ymm5
	vpshufd	$78, %ymm11, %ymm14             # ymm14 = ymm11[2,3,0,1,6,7,4,5]
	shlq	$8, %rax
	vpxor	(%rdi,%rax), %ymm14, %ymm14
	vpxor	%ymm5, %ymm12, %ymm12
	vpxor	%ymm12, %ymm14, %ymm0
	vmovdqa	%ymm0, (%rsp)                   # 32-byte Spill
	vpshufb	%ymm4, %ymm3, %ymm12
	vpxor	%ymm9, %ymm13, %ymm9
	vpxor	%ymm11, %ymm13, %ymm11
	vpshufd	$78, %ymm9, %ymm13              # ymm13 = ymm9[2,3,0,1,6,7,4,5]
	vpxor	32(%rdi,%rax), %ymm13, %ymm13
	vpxor	%ymm5, %ymm11, %ymm11
	vpxor	%ymm11, %ymm13, %ymm0
	vmovdqa	%ymm0, 64(%rsp)                 # 32-byte Spill
	vpshufb	%ymm4, %ymm8, %ymm13
	vpshufb	%ymm4, %ymm6, %ymm4
	vpxor	%ymm7, %ymm10, %ymm7
	vpxor	%ymm2, %ymm15, %ymm14
	vpxor	%ymm3, %ymm12, %ymm3
	vpxor	%ymm8, %ymm13, %ymm8
	vpxor	%ymm6, %ymm4, %ymm6
	vpxor	%ymm9, %ymm10, %ymm2
	vpshufd	$78, %ymm7, %ymm9               # ymm9 = ymm7[2,3,0,1,6,7,4,5]
	vpxor	64(%rdi,%rax), %ymm9, %ymm9
	vpxor	%ymm2, %ymm9, %ymm2
	vpshufd	$78, %ymm14, %ymm9              # ymm9 = ymm14[2,3,0,1,6,7,4,5]
	vpxor	%ymm5, %ymm12, %ymm10
	vpxor	%ymm14, %ymm10, %ymm10
	vpshufd	$78, %ymm3, %ymm12              # ymm12 = ymm3[2,3,0,1,6,7,4,5]
	vpxor	128(%rdi,%rax), %ymm12, %ymm12
	vpxor	%ymm10, %ymm12, %ymm12
	vpshufd	$78, %ymm8, %ymm10              # ymm10 = ymm8[2,3,0,1,6,7,4,5]
	vpxor	%ymm4, %ymm8, %ymm4
	vpshufd	$78, %ymm6, %ymm8               # ymm8 = ymm6[2,3,0,1,6,7,4,5]
	vpxor	192(%rdi,%rax), %ymm8, %ymm8
	vpxor	%ymm4, %ymm8, %ymm4
	vpshufd	$78, %ymm5, %ymm8               # ymm8 = ymm5[2,3,0,1,6,7,4,5]
	vpxor	224(%rdi,%rax), %ymm8, %ymm8
	vpxor	%ymm6, %ymm1, %ymm1
	vpxor	%ymm1, %ymm8, %ymm14
	vpxor	160(%rdi,%rax), %ymm10, %ymm1
	vpxor	%ymm3, %ymm13, %ymm3
	vpxor	%ymm3, %ymm1, %ymm1
	vpxor	%ymm4, %ymm1, %ymm1
	vpxor	%ymm12, %ymm14, %ymm11
	vpxor	%ymm0, %ymm14, %ymm6
	vmovdqa	%ymm6, 32(%rsp)                 # 32-byte Spill
	vpxor	%ymm2, %ymm12, %ymm8
	vpxor	96(%rdi,%rax), %ymm9, %ymm3
	vpxor	%ymm6, %ymm8, %ymm6
	vmovdqa	%ymm8, 224(%rsp)                # 32-byte Spill
	vpxor	%ymm5, %ymm7, %ymm5
	vpxor	%ymm5, %ymm15, %ymm0
	vpxor	%ymm0, %ymm3, %ymm0
	vpxor	%ymm6, %ymm0, %ymm0
	vmovdqa	%ymm6, %ymm7
	vmovdqa	%ymm6, 128(%rsp)                # 32-byte Spill
	vpxor	%ymm2, %ymm0, %ymm10
	vpxor	%ymm4, %ymm0, %ymm0
	vpxor	%ymm2, %ymm14, %ymm6
	vmovdqa	%ymm11, 288(%rsp)               # 32-byte Spill
	vpxor	%ymm0, %ymm11, %ymm9
	vpand	%ymm11, %ymm9, %ymm2
	vpxor	%ymm1, %ymm10, %ymm5
	vpxor	%ymm5, %ymm9, %ymm3
	vmovdqa	%ymm3, 256(%rsp)                # 32-byte Spill
	vpand	%ymm3, %ymm8, %ymm3
	vpxor	%ymm2, %ymm3, %ymm4
	vpand	%ymm6, %ymm5, %ymm3
	vmovdqa	%ymm5, 192(%rsp)                # 32-byte Spill
	vpxor	%ymm2, %ymm3, %ymm8
	vmovdqa	(%rsp), %ymm11                  # 32-byte Reload
	vpxor	%ymm1, %ymm11, %ymm13
	vpxor	%ymm12, %ymm13, %ymm2
	vmovdqa	%ymm2, 96(%rsp)                 # 32-byte Spill
	vpand	%ymm2, %ymm11, %ymm3
	vpxor	%ymm6, %ymm3, %ymm3
	vmovdqa	%ymm6, %ymm2
	vmovdqa	%ymm6, 160(%rsp)                # 32-byte Spill
	vpand	%ymm7, %ymm10, %ymm6
	vpxor	%ymm6, %ymm5, %ymm15
	vpxor	%ymm3, %ymm15, %ymm7
	vpxor	%ymm6, %ymm0, %ymm0
	vpxor	64(%rsp), %ymm13, %ymm3         # 32-byte Folded Reload
	vpxor	%ymm11, %ymm10, %ymm5
	vmovdqa	%ymm5, 352(%rsp)                # 32-byte Spill
	vpxor	%ymm2, %ymm3, %ymm2
	vmovdqa	%ymm2, 64(%rsp)                 # 32-byte Spill
	vpand	%ymm2, %ymm5, %ymm6
	vpxor	%ymm6, %ymm0, %ymm0
	vpxor	%ymm1, %ymm9, %ymm1
	vpxor	%ymm4, %ymm0, %ymm2
	vpand	%ymm3, %ymm13, %ymm6
	vpxor	%ymm6, %ymm1, %ymm6
	vmovdqa	32(%rsp), %ymm5                 # 32-byte Reload
	vpand	%ymm5, %ymm1, %ymm0
	vpxor	%ymm0, %ymm6, %ymm6
	vpxor	%ymm5, %ymm6, %ymm6
	vpxor	%ymm4, %ymm6, %ymm4
	vpxor	%ymm0, %ymm14, %ymm0
	vpxor	%ymm14, %ymm13, %ymm6
	vmovdqa	%ymm6, 384(%rsp)                # 32-byte Spill
	vpxor	%ymm11, %ymm9, %ymm5
	vmovdqa	%ymm5, 320(%rsp)                # 32-byte Spill
	vpand	%ymm6, %ymm5, %ymm12
	vpxor	%ymm1, %ymm12, %ymm12
	vpxor	%ymm0, %ymm12, %ymm0
	vpxor	%ymm7, %ymm8, %ymm7
	vpxor	%ymm0, %ymm8, %ymm5
	vpand	%ymm2, %ymm4, %ymm12
	vpxor	%ymm7, %ymm12, %ymm0
	vpxor	%ymm5, %ymm4, %ymm14
	vpand	%ymm0, %ymm14, %ymm14
	vpxor	%ymm7, %ymm2, %ymm2
	vpxor	%ymm5, %ymm12, %ymm0
	vpand	%ymm2, %ymm0, %ymm15
	vpxor	%ymm7, %ymm15, %ymm7
	vpxor	%ymm12, %ymm14, %ymm12
	vpxor	%ymm5, %ymm14, %ymm14
	vpand	%ymm5, %ymm12, %ymm5
	vpxor	%ymm0, %ymm5, %ymm0
	vpand	%ymm7, %ymm0, %ymm0
	vpxor	%ymm2, %ymm0, %ymm0
	vpxor	%ymm4, %ymm5, %ymm2
	vpxor	%ymm7, %ymm0, %ymm4
	vpand	%ymm1, %ymm4, %ymm1
	vpand	32(%rsp), %ymm4, %ymm5          # 32-byte Folded Reload
	vpand	%ymm0, %ymm13, %ymm6
	vpand	%ymm3, %ymm0, %ymm12
	vpxor	%ymm2, %ymm14, %ymm3
	vpxor	%ymm3, %ymm0, %ymm8
	vpand	352(%rsp), %ymm3, %ymm4         # 32-byte Folded Reload
	vpand	64(%rsp), %ymm3, %ymm13         # 32-byte Folded Reload
	vpand	96(%rsp), %ymm14, %ymm0         # 32-byte Folded Reload
	vmovdqa	%ymm0, 32(%rsp)                 # 32-byte Spill
	vpand	%ymm11, %ymm14, %ymm15
	vpxor	%ymm7, %ymm14, %ymm14
	vpand	%ymm9, %ymm14, %ymm0
	vmovdqa	%ymm0, (%rsp)                   # 32-byte Spill
	vpand	288(%rsp), %ymm14, %ymm9        # 32-byte Folded Reload
	vpxor	%ymm14, %ymm8, %ymm14
	vpand	224(%rsp), %ymm14, %ymm0        # 32-byte Folded Reload
	vpand	256(%rsp), %ymm14, %ymm14       # 32-byte Folded Reload
	vpand	384(%rsp), %ymm7, %ymm11        # 32-byte Folded Reload
	vpand	320(%rsp), %ymm7, %ymm7         # 32-byte Folded Reload
	vpand	%ymm2, %ymm10, %ymm10
	vpand	128(%rsp), %ymm2, %ymm3         # 32-byte Folded Reload
	vpxor	%ymm4, %ymm10, %ymm2
	vpxor	%ymm15, %ymm10, %ymm4
	vpxor	%ymm6, %ymm1, %ymm6
	vpxor	%ymm7, %ymm4, %ymm7
	vpxor	%ymm1, %ymm7, %ymm1
	vpxor	%ymm0, %ymm9, %ymm0
	vpxor	%ymm0, %ymm13, %ymm10
	vpxor	%ymm1, %ymm12, %ymm7
	vpxor	%ymm7, %ymm0, %ymm0
	vpxor	%ymm6, %ymm14, %ymm7
	vpxor	%ymm6, %ymm2, %ymm6
	vpand	192(%rsp), %ymm8, %ymm2         # 32-byte Folded Reload
	vpxor	%ymm4, %ymm2, %ymm2
	vpxor	%ymm5, %ymm2, %ymm2
	vpxor	%ymm7, %ymm2, %ymm2
	vpxor	(%rsp), %ymm7, %ymm12           # 32-byte Folded Reload
	vpxor	%ymm2, %ymm11, %ymm11
	vpxor	%ymm2, %ymm0, %ymm2
	vpxor	%ymm5, %ymm0, %ymm13
	vpxor	%ymm3, %ymm10, %ymm5
	vpxor	%ymm5, %ymm6, %ymm7
	vpxor	32(%rsp), %ymm10, %ymm3         # 32-byte Folded Reload
	vpxor	%ymm7, %ymm12, %ymm4
	vpxor	%ymm1, %ymm7, %ymm0
	vpand	160(%rsp), %ymm8, %ymm1         # 32-byte Folded Reload
	vpxor	%ymm3, %ymm11, %ymm3
	vpxor	%ymm5, %ymm12, %ymm8
	vpxor	%ymm1, %ymm9, %ymm1
	vpxor	%ymm1, %ymm12, %ymm1
	vpxor	%ymm1, %ymm11, %ymm10
	vbroadcasti128	.Lgcm_v3_CPI25_5(%rip), %ymm6  # ymm6 = [7,4,5,6,11,8,9,10,15,12,13,14,3,0,1,2,7,4,5,6,11,8,9,10,15,12,13,14,3,0,1,2]
                                        # ymm6 = mem[0,1,0,1]
	vpshufb	%ymm6, %ymm13, %ymm9
	vpshufb	%ymm6, %ymm8, %ymm5
	vpxor	%ymm13, %ymm9, %ymm11
	vpxor	%ymm5, %ymm8, %ymm1
	vmovdqa	.Lgcm_v3_CPI25_1(%rip), %ymm12         # ymm12 = [10,11,8,9,14,15,12,13,2,3,0,1,6,7,4,5,26,27,24,25,30,31,28,29,18,19,16,17,22,23,20,21]
	vpshufb	%ymm12, %ymm11, %ymm8
	shlq	$8, %rsi
	vpxor	-256(%rdi,%rsi), %ymm8, %ymm8
	vpxor	%ymm1, %ymm9, %ymm9
	vpxor	%ymm9, %ymm8, %ymm8
	vmovdqa	%ymm8, 32(%rsp)                 # 32-byte Spill
	vpshufb	%ymm6, %ymm2, %ymm8
	vpxor	%ymm2, %ymm8, %ymm9
	vpxor	%ymm11, %ymm8, %ymm2
	vpshufb	%ymm12, %ymm9, %ymm8
	vpxor	-224(%rdi,%rsi), %ymm8, %ymm8
	vpxor	%ymm1, %ymm2, %ymm2
	vpxor	%ymm2, %ymm8, %ymm13
	vpshufb	%ymm6, %ymm3, %ymm8
	vpxor	%ymm3, %ymm8, %ymm11
	vpxor	%ymm9, %ymm8, %ymm3
	vmovdqa	%ymm12, %ymm2
	vmovdqa	%ymm13, %ymm12
	vpshufb	%ymm2, %ymm11, %ymm8
	vpxor	-192(%rdi,%rsi), %ymm8, %ymm8
	vpxor	%ymm3, %ymm8, %ymm3
	vpshufb	%ymm6, %ymm0, %ymm8
	vpxor	%ymm0, %ymm8, %ymm0
	vpxor	%ymm1, %ymm11, %ymm9
	vpxor	%ymm8, %ymm9, %ymm8
	vpshufb	%ymm2, %ymm0, %ymm9
	vpxor	-160(%rdi,%rsi), %ymm9, %ymm9
	vpxor	%ymm8, %ymm9, %ymm9
	vpshufb	%ymm6, %ymm7, %ymm8
	vpxor	%ymm7, %ymm8, %ymm7
	vpxor	%ymm1, %ymm8, %ymm8
	vpxor	%ymm0, %ymm8, %ymm0
	vpshufb	%ymm2, %ymm7, %ymm8
	vpxor	-128(%rdi,%rsi), %ymm8, %ymm8
	vpxor	%ymm0, %ymm8, %ymm14
	vpshufb	%ymm6, %ymm10, %ymm0
	vpxor	%ymm0, %ymm10, %ymm10
	vpxor	%ymm7, %ymm0, %ymm0
	vpshufb	%ymm2, %ymm10, %ymm7
	vpxor	-96(%rdi,%rsi), %ymm7, %ymm7
	vpxor	%ymm0, %ymm7, %ymm0
	vpshufb	%ymm6, %ymm4, %ymm6
	vpxor	%ymm4, %ymm6, %ymm4
	vpxor	%ymm6, %ymm10, %ymm6
	vpshufb	%ymm2, %ymm1, %ymm7
	vpshufb	%ymm2, %ymm4, %ymm1
	vpxor	-64(%rdi,%rsi), %ymm1, %ymm1
	vpxor	%ymm6, %ymm1, %ymm1
	vpxor	%ymm4, %ymm5, %ymm4
	vpxor	-32(%rdi,%rsi), %ymm7, %ymm5
	vpxor	%ymm4, %ymm5, %ymm10
	jmp	.Lgcm_v3_BB25_6
.Lgcm_v3_BB25_5:                               # %else.12
	vpsrld	$16, %ymm15, %ymm0
	vpxor	%ymm0, %ymm15, %ymm0
	vpxor	%xmm4, %xmm4, %xmm4
	vpblendw	$68, %ymm0, %ymm4, %ymm0        # ymm0 = ymm4[0,1],ymm0[2],ymm4[3,4,5],ymm0[6],ymm4[7,8,9],ymm0[10],ymm4[11,12,13],ymm0[14],ymm4[15]
	vpslldq	$2, %ymm0, %ymm1                # ymm1 = zero,zero,ymm0[0,1,2,3,4,5,6,7,8,9,10,11,12,13],zero,zero,ymm0[16,17,18,19,20,21,22,23,24,25,26,27,28,29]
	vpxor	%ymm0, %ymm15, %ymm0
	vpxor	%ymm1, %ymm0, %ymm0
	vmovdqa	%ymm0, 32(%rsp)                 # 32-byte Spill
	vpsrld	$16, %ymm9, %ymm0
	vpxor	%ymm0, %ymm9, %ymm0
	vpblendw	$68, %ymm0, %ymm4, %ymm0        # ymm0 = ymm4[0,1],ymm0[2],ymm4[3,4,5],ymm0[6],ymm4[7,8,9],ymm0[10],ymm4[11,12,13],ymm0[14],ymm4[15]
	vpslldq	$2, %ymm0, %ymm1                # ymm1 = zero,zero,ymm0[0,1,2,3,4,5,6,7,8,9,10,11,12,13],zero,zero,ymm0[16,17,18,19,20,21,22,23,24,25,26,27,28,29]
	vpxor	%ymm0, %ymm9, %ymm0
	vpxor	%ymm1, %ymm0, %ymm12
	vpsrld	$16, %ymm3, %ymm0
	vpxor	%ymm3, %ymm0, %ymm0
	vpblendw	$68, %ymm0, %ymm4, %ymm0        # ymm0 = ymm4[0,1],ymm0[2],ymm4[3,4,5],ymm0[6],ymm4[7,8,9],ymm0[10],ymm4[11,12,13],ymm0[14],ymm4[15]
	vpslldq	$2, %ymm0, %ymm1                # ymm1 = zero,zero,ymm0[0,1,2,3,4,5,6,7,8,9,10,11,12,13],zero,zero,ymm0[16,17,18,19,20,21,22,23,24,25,26,27,28,29]
	vpxor	%ymm0, %ymm3, %ymm0
	vpxor	%ymm1, %ymm0, %ymm3
	vpsrld	$16, %ymm10, %ymm0
	vpxor	%ymm0, %ymm10, %ymm0
	vpblendw	$68, %ymm0, %ymm4, %ymm0        # ymm0 = ymm4[0,1],ymm0[2],ymm4[3,4,5],ymm0[6],ymm4[7,8,9],ymm0[10],ymm4[11,12,13],ymm0[14],ymm4[15]
	vpslldq	$2, %ymm0, %ymm1                # ymm1 = zero,zero,ymm0[0,1,2,3,4,5,6,7,8,9,10,11,12,13],zero,zero,ymm0[16,17,18,19,20,21,22,23,24,25,26,27,28,29]
	vpxor	%ymm0, %ymm10, %ymm0
	vpxor	%ymm1, %ymm0, %ymm9
	vpsrld	$16, %ymm13, %ymm0
	vpxor	%ymm0, %ymm13, %ymm0
	vpblendw	$68, %ymm0, %ymm4, %ymm0        # ymm0 = ymm4[0,1],ymm0[2],ymm4[3,4,5],ymm0[6],ymm4[7,8,9],ymm0[10],ymm4[11,12,13],ymm0[14],ymm4[15]
	vpslldq	$2, %ymm0, %ymm1                # ymm1 = zero,zero,ymm0[0,1,2,3,4,5,6,7,8,9,10,11,12,13],zero,zero,ymm0[16,17,18,19,20,21,22,23,24,25,26,27,28,29]
	vpxor	%ymm0, %ymm13, %ymm0
	vpxor	%ymm1, %ymm0, %ymm14
	vpsrld	$16, %ymm7, %ymm0
	vpxor	%ymm7, %ymm0, %ymm0
	vpblendw	$68, %ymm0, %ymm4, %ymm0        # ymm0 = ymm4[0,1],ymm0[2],ymm4[3,4,5],ymm0[6],ymm4[7,8,9],ymm0[10],ymm4[11,12,13],ymm0[14],ymm4[15]
	vpslldq	$2, %ymm0, %ymm1                # ymm1 = zero,zero,ymm0[0,1,2,3,4,5,6,7,8,9,10,11,12,13],zero,zero,ymm0[16,17,18,19,20,21,22,23,24,25,26,27,28,29]
	vpxor	%ymm0, %ymm7, %ymm0
	vpxor	%ymm1, %ymm0, %ymm0
	vpsrld	$16, %ymm11, %ymm1
	vpxor	%ymm1, %ymm11, %ymm1
	vpblendw	$68, %ymm1, %ymm4, %ymm1        # ymm1 = ymm4[0,1],ymm1[2],ymm4[3,4,5],ymm1[6],ymm4[7,8,9],ymm1[10],ymm4[11,12,13],ymm1[14],ymm4[15]
	vpslldq	$2, %ymm1, %ymm6                # ymm6 = zero,zero,ymm1[0,1,2,3,4,5,6,7,8,9,10,11,12,13],zero,zero,ymm1[16,17,18,19,20,21,22,23,24,25,26,27,28,29]
	vpxor	%ymm1, %ymm11, %ymm1
	vpxor	%ymm6, %ymm1, %ymm1
	vpsrld	$16, %ymm5, %ymm6
	vpxor	%ymm5, %ymm6, %ymm6
	vpblendw	$68, %ymm6, %ymm4, %ymm4        # ymm4 = ymm4[0,1],ymm6[2],ymm4[3,4,5],ymm6[6],ymm4[7,8,9],ymm6[10],ymm4[11,12,13],ymm6[14],ymm4[15]
	vpslldq	$2, %ymm4, %ymm6                # ymm6 = zero,zero,ymm4[0,1,2,3,4,5,6,7,8,9,10,11,12,13],zero,zero,ymm4[16,17,18,19,20,21,22,23,24,25,26,27,28,29]
	vpxor	%ymm4, %ymm5, %ymm4
	vpxor	%ymm6, %ymm4, %ymm10
	shlq	$8, %rsi
.Lgcm_v3_BB25_6:                               # %join.13
	vpxor	%ymm1, %ymm0, %ymm15
	vpxor	%ymm10, %ymm14, %ymm5
	vpxor	%ymm10, %ymm12, %ymm11
	vpxor	%ymm3, %ymm14, %ymm6
	vpxor	%ymm6, %ymm11, %ymm7
	vmovdqa	%ymm6, 224(%rsp)                # 32-byte Spill
	vpxor	%ymm7, %ymm9, %ymm0
	vmovdqa	%ymm7, 128(%rsp)                # 32-byte Spill
	vpxor	%ymm3, %ymm0, %ymm8
	vpxor	%ymm1, %ymm0, %ymm0
	vpxor	%ymm3, %ymm10, %ymm4
	vmovdqa	%ymm5, 288(%rsp)                # 32-byte Spill
	vpxor	%ymm5, %ymm0, %ymm9
	vpand	%ymm5, %ymm9, %ymm1
	vpxor	%ymm15, %ymm8, %ymm5
	vpxor	%ymm5, %ymm9, %ymm2
	vmovdqa	%ymm2, 256(%rsp)                # 32-byte Spill
	vpand	%ymm6, %ymm2, %ymm3
	vpxor	%ymm1, %ymm3, %ymm2
	vpand	%ymm4, %ymm5, %ymm3
	vmovdqa	%ymm5, 192(%rsp)                # 32-byte Spill
	vpxor	%ymm1, %ymm3, %ymm3
	vmovdqa	32(%rsp), %ymm6                 # 32-byte Reload
	vpxor	%ymm6, %ymm15, %ymm13
	vpxor	%ymm14, %ymm13, %ymm1
	vmovdqa	%ymm1, (%rsp)                   # 32-byte Spill
	vpand	%ymm6, %ymm1, %ymm1
	vpxor	%ymm4, %ymm1, %ymm1
	vmovdqa	%ymm4, %ymm14
	vmovdqa	%ymm4, 160(%rsp)                # 32-byte Spill
	vpand	%ymm7, %ymm8, %ymm4
	vpxor	%ymm4, %ymm5, %ymm7
	vpxor	%ymm7, %ymm1, %ymm5
	vpxor	%ymm4, %ymm0, %ymm0
	vpxor	%ymm12, %ymm13, %ymm4
	vpxor	%ymm6, %ymm8, %ymm7
	vmovdqa	%ymm7, 320(%rsp)                # 32-byte Spill
	vpxor	%ymm4, %ymm14, %ymm1
	vmovdqa	%ymm1, 96(%rsp)                 # 32-byte Spill
	vpand	%ymm1, %ymm7, %ymm1
	vpxor	%ymm1, %ymm0, %ymm0
	vpxor	%ymm15, %ymm9, %ymm1
	vpxor	%ymm2, %ymm0, %ymm0
	vpand	%ymm4, %ymm13, %ymm15
	vpxor	%ymm1, %ymm15, %ymm15
	vpand	%ymm1, %ymm11, %ymm12
	vpxor	%ymm12, %ymm15, %ymm15
	vpxor	%ymm11, %ymm15, %ymm15
	vpxor	%ymm2, %ymm15, %ymm2
	vpxor	%ymm10, %ymm12, %ymm12
	vpxor	%ymm10, %ymm13, %ymm15
	vpxor	%ymm6, %ymm9, %ymm7
	vmovdqa	%ymm7, 64(%rsp)                 # 32-byte Spill
	vpand	%ymm7, %ymm15, %ymm7
	vpxor	%ymm7, %ymm1, %ymm7
	vpxor	%ymm7, %ymm12, %ymm7
	vpxor	%ymm3, %ymm5, %ymm5
	vpxor	%ymm3, %ymm7, %ymm3
	vpand	%ymm0, %ymm2, %ymm7
	vpxor	%ymm5, %ymm7, %ymm12
	vpxor	%ymm3, %ymm2, %ymm10
	vpand	%ymm10, %ymm12, %ymm10
	vpxor	%ymm5, %ymm0, %ymm12
	vpxor	%ymm3, %ymm7, %ymm0
	vpand	%ymm0, %ymm12, %ymm14
	vpxor	%ymm5, %ymm14, %ymm5
	vpxor	%ymm7, %ymm10, %ymm7
	vpxor	%ymm3, %ymm10, %ymm10
	vpand	%ymm3, %ymm7, %ymm3
	vpxor	%ymm0, %ymm3, %ymm0
	vpand	%ymm5, %ymm0, %ymm0
	vpxor	%ymm0, %ymm12, %ymm0
	vpxor	%ymm2, %ymm3, %ymm2
	vpxor	%ymm5, %ymm0, %ymm3
	vpand	%ymm1, %ymm3, %ymm1
	vpand	%ymm3, %ymm11, %ymm11
	vpand	%ymm0, %ymm13, %ymm12
	vpand	%ymm4, %ymm0, %ymm3
	vmovdqa	%ymm3, 352(%rsp)                # 32-byte Spill
	vpxor	%ymm2, %ymm10, %ymm3
	vpxor	%ymm3, %ymm0, %ymm13
	vpand	320(%rsp), %ymm3, %ymm7         # 32-byte Folded Reload
	vpand	96(%rsp), %ymm3, %ymm14         # 32-byte Folded Reload
	vpand	(%rsp), %ymm10, %ymm0           # 32-byte Folded Reload
	vmovdqa	%ymm0, (%rsp)                   # 32-byte Spill
	vpand	%ymm6, %ymm10, %ymm4
	vpxor	%ymm5, %ymm10, %ymm10
	vpand	%ymm9, %ymm10, %ymm3
	vpand	288(%rsp), %ymm10, %ymm9        # 32-byte Folded Reload
	vpxor	%ymm10, %ymm13, %ymm10
	vpand	224(%rsp), %ymm10, %ymm0        # 32-byte Folded Reload
	vpand	256(%rsp), %ymm10, %ymm10       # 32-byte Folded Reload
	vpand	%ymm5, %ymm15, %ymm15
	vpand	64(%rsp), %ymm5, %ymm5          # 32-byte Folded Reload
	vpand	%ymm2, %ymm8, %ymm8
	vpand	128(%rsp), %ymm2, %ymm2         # 32-byte Folded Reload
	vpxor	%ymm7, %ymm8, %ymm6
	vpxor	%ymm4, %ymm8, %ymm4
	vpxor	%ymm1, %ymm12, %ymm7
	vpxor	%ymm5, %ymm4, %ymm5
	vpxor	%ymm1, %ymm5, %ymm1
	vpxor	%ymm0, %ymm9, %ymm0
	vpxor	%ymm0, %ymm14, %ymm5
	vpxor	352(%rsp), %ymm1, %ymm8         # 32-byte Folded Reload
	vpxor	%ymm0, %ymm8, %ymm0
	vpxor	%ymm7, %ymm10, %ymm8
	vpxor	%ymm7, %ymm6, %ymm6
	vpand	192(%rsp), %ymm13, %ymm7        # 32-byte Folded Reload
	vpxor	%ymm4, %ymm7, %ymm4
	vpxor	%ymm4, %ymm11, %ymm4
	vpxor	%ymm4, %ymm8, %ymm4
	vpxor	%ymm3, %ymm8, %ymm3
	vpand	160(%rsp), %ymm13, %ymm7        # 32-byte Folded Reload
	vpxor	%ymm4, %ymm15, %ymm8
	vpxor	(%rdi,%rsi), %ymm11, %ymm10
	vpxor	32(%rdi,%rsi), %ymm4, %ymm4
	vpxor	%ymm0, %ymm10, %ymm10
	vpxor	%ymm0, %ymm4, %ymm0
	vmovdqa	(%rsp), %ymm4                   # 32-byte Reload
	vpxor	64(%rdi,%rsi), %ymm4, %ymm4
	vpxor	%ymm2, %ymm5, %ymm2
	vpxor	%ymm5, %ymm4, %ymm4
	vpxor	%ymm4, %ymm8, %ymm4
	vpxor	%ymm3, %ymm9, %ymm5
	vpxor	%ymm5, %ymm8, %ymm5
	vpxor	%ymm2, %ymm6, %ymm6
	vpxor	160(%rdi,%rsi), %ymm7, %ymm7
	vpxor	%ymm5, %ymm7, %ymm5
	vpxor	224(%rdi,%rsi), %ymm3, %ymm7
	vpxor	%ymm2, %ymm7, %ymm2
	vpxor	96(%rdi,%rsi), %ymm1, %ymm1
	vpxor	192(%rdi,%rsi), %ymm3, %ymm3
	vpxor	%ymm6, %ymm1, %ymm1
	vpxor	%ymm6, %ymm3, %ymm3
	vpxor	128(%rdi,%rsi), %ymm6, %ymm6
	vmovdqu	%ymm10, (%rdx)
	vmovdqu	%ymm0, 32(%rdx)
	vmovdqu	%ymm4, 64(%rdx)
	vmovdqu	%ymm1, 96(%rdx)
	vmovdqu	%ymm6, 128(%rdx)
	vmovdqu	%ymm5, 160(%rdx)
	vmovdqu	%ymm3, 192(%rdx)
	vmovdqu	%ymm2, 224(%rdx)
	movq	%rbp, %rsp
	popq	%rbp
	vzeroupper
	retq
.Lgcm_v3_func_end25:
	.size	gcm_v3.aes_soft.soft.ciphers.planes.EncryptPlaneCipher.process_planes, .Lgcm_v3_func_end25-gcm_v3.aes_soft.soft.ciphers.planes.EncryptPlaneCipher.process_planes
                                        # -- End function
	.section	.text.gcm_v3.aes_soft.soft.blocks.filled_up.process_filled_up,"ax",@progbits
	.p2align	4                               # -- Begin function aes_soft::soft::blocks::filled_up::process_filled_up::<#c6996b072c111d2a>
	.type	gcm_v3.aes_soft.soft.blocks.filled_up.process_filled_up,@function
gcm_v3.aes_soft.soft.blocks.filled_up.process_filled_up: # @gcm_v3.aes_soft.soft.blocks.filled_up.process_filled_up
# %bb.0:                                # %start
	pushq	%r14
	pushq	%rbx
	subq	$776, %rsp                      # imm = 0x308
	vxorps	%xmm0, %xmm0, %xmm0
	vmovups	%ymm0, 224(%rsp)
	vmovups	%ymm0, 192(%rsp)
	vmovups	%ymm0, 160(%rsp)
	vmovups	%ymm0, 128(%rsp)
	vmovups	%ymm0, 96(%rsp)
	vmovups	%ymm0, 64(%rsp)
	vmovups	%ymm0, 32(%rsp)
	vmovups	%ymm0, (%rsp)
	vmovups	%ymm0, 512(%rsp)
	vmovups	%ymm0, 544(%rsp)
	vmovups	%ymm0, 576(%rsp)
	vmovups	%ymm0, 608(%rsp)
	vmovups	%ymm0, 640(%rsp)
	vmovups	%ymm0, 672(%rsp)
	vmovups	%ymm0, 704(%rsp)
	vmovups	%ymm0, 736(%rsp)
	movq	%rdx, %rbx
	vmovups	(%rdx), %xmm0
	vmovaps	%xmm0, 256(%rsp)
	vmovups	(%rdx), %xmm0
	vmovaps	%xmm0, 272(%rsp)
	vmovups	(%rdx), %xmm0
	vmovaps	%xmm0, 288(%rsp)
	vmovups	(%rdx), %xmm0
	vmovaps	%xmm0, 304(%rsp)
	vmovups	(%rdx), %xmm0
	vmovaps	%xmm0, 320(%rsp)
	vmovups	(%rdx), %xmm0
	vmovaps	%xmm0, 336(%rsp)
	vmovups	(%rdx), %xmm0
	vmovaps	%xmm0, 352(%rsp)
	vmovups	(%rdx), %xmm0
	vmovaps	%xmm0, 368(%rsp)
	vmovups	(%rdx), %xmm0
	vmovaps	%xmm0, 384(%rsp)
	vmovups	(%rdx), %xmm0
	vmovaps	%xmm0, 400(%rsp)
	vmovups	(%rdx), %xmm0
	vmovaps	%xmm0, 416(%rsp)
	vmovups	(%rdx), %xmm0
	vmovaps	%xmm0, 432(%rsp)
	vmovups	(%rdx), %xmm0
	vmovaps	%xmm0, 448(%rsp)
	vmovups	(%rdx), %xmm0
	vmovaps	%xmm0, 464(%rsp)
	vmovups	(%rdx), %xmm0
	vmovaps	%xmm0, 480(%rsp)
	vmovups	(%rdx), %xmm0
	vmovaps	%xmm0, 496(%rsp)
	movq	%rsi, %rdx
	movq	%rdi, %rsi
	shrq	$3, %rdx
	decq	%rdx
	testq	%rcx, %rcx
	je	.Lgcm_v3_BB26_24
# %bb.1:                                # %join.8.i
	movq	%rcx, %r14
	vmovups	(%rbx), %xmm0
	vmovaps	%xmm0, 256(%rsp)
	cmpq	$1, %rcx
	je	.Lgcm_v3_BB26_16
# %bb.2:                                # %join.8.i.1
	vmovups	16(%rbx), %xmm0
	vmovaps	%xmm0, 272(%rsp)
	cmpq	$2, %r14
	je	.Lgcm_v3_BB26_16
# %bb.3:                                # %join.8.i.2
	vmovups	32(%rbx), %xmm0
	vmovaps	%xmm0, 288(%rsp)
	cmpq	$3, %r14
	je	.Lgcm_v3_BB26_16
# %bb.4:                                # %join.8.i.3
	vmovups	48(%rbx), %xmm0
	vmovaps	%xmm0, 304(%rsp)
	cmpq	$4, %r14
	je	.Lgcm_v3_BB26_16
# %bb.5:                                # %join.8.i.4
	vmovups	64(%rbx), %xmm0
	vmovaps	%xmm0, 320(%rsp)
	cmpq	$5, %r14
	je	.Lgcm_v3_BB26_16
# %bb.6:                                # %join.8.i.5
	vmovups	80(%rbx), %xmm0
	vmovaps	%xmm0, 336(%rsp)
	cmpq	$6, %r14
	je	.Lgcm_v3_BB26_16
# %bb.7:                                # %join.8.i.6
	vmovups	96(%rbx), %xmm0
	vmovaps	%xmm0, 352(%rsp)
	cmpq	$7, %r14
	je	.Lgcm_v3_BB26_16
# %bb.8:                                # %join.8.i.7
	vmovups	112(%rbx), %xmm0
	vmovaps	%xmm0, 368(%rsp)
	cmpq	$8, %r14
	je	.Lgcm_v3_BB26_16
# %bb.9:                                # %join.8.i.8
	vmovups	128(%rbx), %xmm0
	vmovaps	%xmm0, 384(%rsp)
	cmpq	$9, %r14
	je	.Lgcm_v3_BB26_16
# %bb.10:                               # %join.8.i.9
	vmovups	144(%rbx), %xmm0
	vmovaps	%xmm0, 400(%rsp)
	cmpq	$10, %r14
	je	.Lgcm_v3_BB26_16
# %bb.11:                               # %join.8.i.10
	vmovups	160(%rbx), %xmm0
	vmovaps	%xmm0, 416(%rsp)
	cmpq	$11, %r14
	je	.Lgcm_v3_BB26_16
# %bb.12:                               # %join.8.i.11
	vmovups	176(%rbx), %xmm0
	vmovaps	%xmm0, 432(%rsp)
	cmpq	$12, %r14
	je	.Lgcm_v3_BB26_16
# %bb.13:                               # %join.8.i.12
	vmovups	192(%rbx), %xmm0
	vmovaps	%xmm0, 448(%rsp)
	cmpq	$13, %r14
	je	.Lgcm_v3_BB26_16
# %bb.14:                               # %join.8.i.13
	vmovups	208(%rbx), %xmm0
	vmovaps	%xmm0, 464(%rsp)
	cmpq	$14, %r14
	je	.Lgcm_v3_BB26_16
# %bb.15:                               # %join.8.i.14
	vmovups	224(%rbx), %xmm0
	vmovaps	%xmm0, 480(%rsp)
.Lgcm_v3_BB26_16:                              # %"aes_soft::soft::blocks::filled_up::filled_up::<#1704dc1e129d0fd9>.exit"
	leaq	512(%rsp), %rdi
	leaq	256(%rsp), %rcx
	vzeroupper
	callq	gcm_v3.aes_soft.soft.ciphers.planes.process_outlined
	vmovups	736(%rsp), %ymm0
	vmovups	%ymm0, 224(%rsp)
	vmovups	704(%rsp), %ymm0
	vmovups	%ymm0, 192(%rsp)
	vmovups	672(%rsp), %ymm0
	vmovups	%ymm0, 160(%rsp)
	vmovups	640(%rsp), %ymm0
	vmovups	%ymm0, 128(%rsp)
	vmovups	512(%rsp), %ymm0
	vmovups	544(%rsp), %ymm1
	vmovups	576(%rsp), %ymm2
	vmovups	608(%rsp), %ymm3
	vmovups	%ymm3, 96(%rsp)
	vmovups	%ymm2, 64(%rsp)
	vmovups	%ymm1, 32(%rsp)
	vmovups	%ymm0, (%rsp)
	movl	%r14d, %eax
	andl	$7, %eax
	cmpq	$8, %r14
	jae	.Lgcm_v3_BB26_18
# %bb.17:
	xorl	%ecx, %ecx
	jmp	.Lgcm_v3_BB26_21
.Lgcm_v3_BB26_24:                              # %"aes_soft::soft::blocks::filled_up::copy_first::<#1704dc1e129d0fd9>.exit.critedge"
	leaq	512(%rsp), %rdi
	leaq	256(%rsp), %rcx
	vzeroupper
	callq	gcm_v3.aes_soft.soft.ciphers.planes.process_outlined
	vmovups	736(%rsp), %ymm0
	vmovups	%ymm0, 224(%rsp)
	vmovups	704(%rsp), %ymm0
	vmovups	%ymm0, 192(%rsp)
	vmovups	672(%rsp), %ymm0
	vmovups	%ymm0, 160(%rsp)
	vmovups	640(%rsp), %ymm0
	vmovups	%ymm0, 128(%rsp)
	vmovups	512(%rsp), %ymm0
	vmovups	544(%rsp), %ymm1
	vmovups	576(%rsp), %ymm2
	vmovups	608(%rsp), %ymm3
	vmovups	%ymm3, 96(%rsp)
	vmovups	%ymm2, 64(%rsp)
	vmovups	%ymm1, 32(%rsp)
	vmovups	%ymm0, (%rsp)
	addq	$776, %rsp                      # imm = 0x308
	popq	%rbx
	popq	%r14
	vzeroupper
	retq
.Lgcm_v3_BB26_18:                              # %"aes_soft::soft::blocks::filled_up::filled_up::<#1704dc1e129d0fd9>.exit.new"
	andl	$8, %r14d
	movl	$112, %edx
	xorl	%ecx, %ecx
	.p2align	4
.Lgcm_v3_BB26_19:                              # %join.8.i19
                                        # =>This Inner Loop Header: Depth=1
	vmovups	-112(%rsp,%rdx), %xmm0
	vmovups	%xmm0, -112(%rbx,%rdx)
	vmovups	-96(%rsp,%rdx), %xmm0
	vmovups	%xmm0, -96(%rbx,%rdx)
	vmovups	-80(%rsp,%rdx), %xmm0
	vmovups	%xmm0, -80(%rbx,%rdx)
	vmovups	-64(%rsp,%rdx), %xmm0
	vmovups	%xmm0, -64(%rbx,%rdx)
	vmovups	-48(%rsp,%rdx), %xmm0
	vmovups	%xmm0, -48(%rbx,%rdx)
	vmovups	-32(%rsp,%rdx), %xmm0
	vmovups	%xmm0, -32(%rbx,%rdx)
	vmovups	-16(%rsp,%rdx), %xmm0
	vmovups	%xmm0, -16(%rbx,%rdx)
	vmovups	(%rsp,%rdx), %xmm0
	vmovups	%xmm0, (%rbx,%rdx)
	addq	$8, %rcx
	subq	$-128, %rdx
	cmpq	%rcx, %r14
	jne	.Lgcm_v3_BB26_19
# %bb.20:                               # %"aes_soft::soft::blocks::filled_up::copy_first::<#1704dc1e129d0fd9>.exit.loopexit.unr-lcssa"
	testq	%rax, %rax
	je	.Lgcm_v3_BB26_23
.Lgcm_v3_BB26_21:                              # %join.8.i19.epil.preheader
	shlq	$4, %rcx
	addq	%rcx, %rbx
	addq	%rsp, %rcx
	shll	$4, %eax
	xorl	%edx, %edx
	.p2align	4
.Lgcm_v3_BB26_22:                              # %join.8.i19.epil
                                        # =>This Inner Loop Header: Depth=1
	vmovups	(%rcx,%rdx), %xmm0
	vmovups	%xmm0, (%rbx,%rdx)
	addq	$16, %rdx
	cmpq	%rdx, %rax
	jne	.Lgcm_v3_BB26_22
.Lgcm_v3_BB26_23:                              # %"aes_soft::soft::blocks::filled_up::copy_first::<#1704dc1e129d0fd9>.exit"
	addq	$776, %rsp                      # imm = 0x308
	popq	%rbx
	popq	%r14
	vzeroupper
	retq
.Lgcm_v3_func_end26:
	.size	gcm_v3.aes_soft.soft.blocks.filled_up.process_filled_up, .Lgcm_v3_func_end26-gcm_v3.aes_soft.soft.blocks.filled_up.process_filled_up
                                        # -- End function
	.section	.text.gcm_v3.aes_cipher.zeroize.zeroize_words,"ax",@progbits
	.p2align	4                               # -- Begin function aes_cipher::zeroize::zeroize_words::<#71dff95673b12ebf>
	.type	gcm_v3.aes_cipher.zeroize.zeroize_words,@function
gcm_v3.aes_cipher.zeroize.zeroize_words: # @gcm_v3.aes_cipher.zeroize.zeroize_words
# %bb.0:                                # %start
	pushq	%rbp
	pushq	%r14
	pushq	%rbx
	subq	$16, %rsp
	movq	$0, 8(%rsp)
	#APP
	#NO_APP
	movq	8(%rsp), %r14
	#APP
	#NO_APP
	cmpq	$120, %r14
	jae	.Lgcm_v3_BB27_1
# %bb.2:                                # %then.1.i
	shlq	$5, %r14
	movzbl	(%rdi,%r14), %ebp
	movl	$3840, %edx                     # imm = 0xF00
	movq	%rdi, %rbx
	xorl	%esi, %esi
	callq	*memset@GOTPCREL(%rip)
	andb	(%rbx,%r14), %bpl
	movzbl	%bpl, %ebx
	jmp	.Lgcm_v3_BB27_3
.Lgcm_v3_BB27_1:                               # %"aes_cipher::zeroize::observe::<#66de09cbe45d8138>.exit12"
	xorl	%ebx, %ebx
	movl	$3840, %edx                     # imm = 0xF00
	xorl	%esi, %esi
	callq	*memset@GOTPCREL(%rip)
.Lgcm_v3_BB27_3:                               # %"aes_cipher::zeroize::observe::<#66de09cbe45d8138>.exit"
	#APP
	#NO_APP
	xchgq	%rbx, 8(%rsp)
	#APP
	#NO_APP
	addq	$16, %rsp
	popq	%rbx
	popq	%r14
	popq	%rbp
	retq
.Lgcm_v3_func_end27:
	.size	gcm_v3.aes_cipher.zeroize.zeroize_words, .Lgcm_v3_func_end27-gcm_v3.aes_cipher.zeroize.zeroize_words
                                        # -- End function
	.section	.text.gcm_v3.aes_cipher.zeroize.stack.wipe_stack.1792,"ax",@progbits
	.p2align	4                               # -- Begin function aes_cipher::zeroize::stack::wipe_stack::<=1792>
	.type	gcm_v3.aes_cipher.zeroize.stack.wipe_stack.1792,@function
gcm_v3.aes_cipher.zeroize.stack.wipe_stack.1792: # @gcm_v3.aes_cipher.zeroize.stack.wipe_stack.1792
# %bb.0:                                # %start
	subq	$1800, %rsp                     # imm = 0x708
	leaq	8(%rsp), %rdi
	movl	$1792, %edx                     # imm = 0x700
	xorl	%esi, %esi
	callq	*memset@GOTPCREL(%rip)
	movq	$0, (%rsp)
	#APP
	#NO_APP
	movq	(%rsp), %rax
	#APP
	#NO_APP
	cmpq	$1792, %rax                     # imm = 0x700
	jae	.Lgcm_v3_BB28_2
# %bb.1:                                # %then.1
	movzbl	8(%rsp,%rax), %eax
	#APP
	#NO_APP
	xchgq	%rax, (%rsp)
	#APP
	#NO_APP
.Lgcm_v3_BB28_2:                               # %common.ret
	addq	$1800, %rsp                     # imm = 0x708
	retq
.Lgcm_v3_func_end28:
	.size	gcm_v3.aes_cipher.zeroize.stack.wipe_stack.1792, .Lgcm_v3_func_end28-gcm_v3.aes_cipher.zeroize.stack.wipe_stack.1792
                                        # -- End function
	.section	.rodata.cst32,"aM",@progbits,32
	.p2align	5, 0x0                          # -- Begin function aes_permute::blocks::process_on_lanes::<#8b9e8a6b2f3495e4>
.Lgcm_v3_CPI29_0:
	.zero	32,15
.Lgcm_v3_CPI29_1:
	.byte	0                               # 0x0
	.byte	1                               # 0x1
	.byte	28                              # 0x1c
	.byte	29                              # 0x1d
	.byte	45                              # 0x2d
	.byte	44                              # 0x2c
	.byte	49                              # 0x31
	.byte	48                              # 0x30
	.byte	39                              # 0x27
	.byte	38                              # 0x26
	.byte	59                              # 0x3b
	.byte	58                              # 0x3a
	.byte	10                              # 0xa
	.byte	11                              # 0xb
	.byte	22                              # 0x16
	.byte	23                              # 0x17
	.byte	0                               # 0x0
	.byte	1                               # 0x1
	.byte	28                              # 0x1c
	.byte	29                              # 0x1d
	.byte	45                              # 0x2d
	.byte	44                              # 0x2c
	.byte	49                              # 0x31
	.byte	48                              # 0x30
	.byte	39                              # 0x27
	.byte	38                              # 0x26
	.byte	59                              # 0x3b
	.byte	58                              # 0x3a
	.byte	10                              # 0xa
	.byte	11                              # 0xb
	.byte	22                              # 0x16
	.byte	23                              # 0x17
.Lgcm_v3_CPI29_2:
	.byte	0                               # 0x0
	.byte	134                             # 0x86
	.byte	253                             # 0xfd
	.byte	123                             # 0x7b
	.byte	142                             # 0x8e
	.byte	8                               # 0x8
	.byte	115                             # 0x73
	.byte	245                             # 0xf5
	.byte	119                             # 0x77
	.byte	241                             # 0xf1
	.byte	138                             # 0x8a
	.byte	12                              # 0xc
	.byte	249                             # 0xf9
	.byte	127                             # 0x7f
	.byte	4                               # 0x4
	.byte	130                             # 0x82
	.byte	0                               # 0x0
	.byte	134                             # 0x86
	.byte	253                             # 0xfd
	.byte	123                             # 0x7b
	.byte	142                             # 0x8e
	.byte	8                               # 0x8
	.byte	115                             # 0x73
	.byte	245                             # 0xf5
	.byte	119                             # 0x77
	.byte	241                             # 0xf1
	.byte	138                             # 0x8a
	.byte	12                              # 0xc
	.byte	249                             # 0xf9
	.byte	127                             # 0x7f
	.byte	4                               # 0x4
	.byte	130                             # 0x82
.Lgcm_v3_CPI29_3:
	.byte	128                             # 0x80
	.byte	2                               # 0x2
	.byte	1                               # 0x1
	.byte	15                              # 0xf
	.byte	9                               # 0x9
	.byte	5                               # 0x5
	.byte	14                              # 0xe
	.byte	12                              # 0xc
	.byte	13                              # 0xd
	.byte	4                               # 0x4
	.byte	11                              # 0xb
	.byte	10                              # 0xa
	.byte	7                               # 0x7
	.byte	8                               # 0x8
	.byte	6                               # 0x6
	.byte	3                               # 0x3
	.byte	128                             # 0x80
	.byte	2                               # 0x2
	.byte	1                               # 0x1
	.byte	15                              # 0xf
	.byte	9                               # 0x9
	.byte	5                               # 0x5
	.byte	14                              # 0xe
	.byte	12                              # 0xc
	.byte	13                              # 0xd
	.byte	4                               # 0x4
	.byte	11                              # 0xb
	.byte	10                              # 0xa
	.byte	7                               # 0x7
	.byte	8                               # 0x8
	.byte	6                               # 0x6
	.byte	3                               # 0x3
.Lgcm_v3_CPI29_4:
	.byte	128                             # 0x80
	.byte	1                               # 0x1
	.byte	9                               # 0x9
	.byte	14                              # 0xe
	.byte	13                              # 0xd
	.byte	11                              # 0xb
	.byte	7                               # 0x7
	.byte	6                               # 0x6
	.byte	15                              # 0xf
	.byte	2                               # 0x2
	.byte	12                              # 0xc
	.byte	5                               # 0x5
	.byte	10                              # 0xa
	.byte	4                               # 0x4
	.byte	3                               # 0x3
	.byte	8                               # 0x8
	.byte	128                             # 0x80
	.byte	1                               # 0x1
	.byte	9                               # 0x9
	.byte	14                              # 0xe
	.byte	13                              # 0xd
	.byte	11                              # 0xb
	.byte	7                               # 0x7
	.byte	6                               # 0x6
	.byte	15                              # 0xf
	.byte	2                               # 0x2
	.byte	12                              # 0xc
	.byte	5                               # 0x5
	.byte	10                              # 0xa
	.byte	4                               # 0x4
	.byte	3                               # 0x3
	.byte	8                               # 0x8
.Lgcm_v3_CPI29_5:
	.byte	0                               # 0x0
	.byte	195                             # 0xc3
	.byte	79                              # 0x4f
	.byte	12                              # 0xc
	.byte	252                             # 0xfc
	.byte	124                             # 0x7c
	.byte	67                              # 0x43
	.byte	128                             # 0x80
	.byte	207                             # 0xcf
	.byte	51                              # 0x33
	.byte	63                              # 0x3f
	.byte	112                             # 0x70
	.byte	191                             # 0xbf
	.byte	179                             # 0xb3
	.byte	240                             # 0xf0
	.byte	140                             # 0x8c
	.byte	0                               # 0x0
	.byte	195                             # 0xc3
	.byte	79                              # 0x4f
	.byte	12                              # 0xc
	.byte	252                             # 0xfc
	.byte	124                             # 0x7c
	.byte	67                              # 0x43
	.byte	128                             # 0x80
	.byte	207                             # 0xcf
	.byte	51                              # 0x33
	.byte	63                              # 0x3f
	.byte	112                             # 0x70
	.byte	191                             # 0xbf
	.byte	179                             # 0xb3
	.byte	240                             # 0xf0
	.byte	140                             # 0x8c
.Lgcm_v3_CPI29_6:
	.byte	0                               # 0x0
	.byte	230                             # 0xe6
	.byte	114                             # 0x72
	.byte	183                             # 0xb7
	.byte	229                             # 0xe5
	.byte	198                             # 0xc6
	.byte	197                             # 0xc5
	.byte	35                              # 0x23
	.byte	81                              # 0x51
	.byte	180                             # 0xb4
	.byte	3                               # 0x3
	.byte	113                             # 0x71
	.byte	32                              # 0x20
	.byte	151                             # 0x97
	.byte	82                              # 0x52
	.byte	148                             # 0x94
	.byte	0                               # 0x0
	.byte	230                             # 0xe6
	.byte	114                             # 0x72
	.byte	183                             # 0xb7
	.byte	229                             # 0xe5
	.byte	198                             # 0xc6
	.byte	197                             # 0xc5
	.byte	35                              # 0x23
	.byte	81                              # 0x51
	.byte	180                             # 0xb4
	.byte	3                               # 0x3
	.byte	113                             # 0x71
	.byte	32                              # 0x20
	.byte	151                             # 0x97
	.byte	82                              # 0x52
	.byte	148                             # 0x94
.Lgcm_v3_CPI29_7:
	.byte	0                               # 0x0
	.byte	124                             # 0x7c
	.byte	32                              # 0x20
	.byte	207                             # 0xcf
	.byte	146                             # 0x92
	.byte	1                               # 0x1
	.byte	239                             # 0xef
	.byte	147                             # 0x93
	.byte	179                             # 0xb3
	.byte	33                              # 0x21
	.byte	238                             # 0xee
	.byte	206                             # 0xce
	.byte	125                             # 0x7d
	.byte	178                             # 0xb2
	.byte	93                              # 0x5d
	.byte	92                              # 0x5c
	.byte	0                               # 0x0
	.byte	124                             # 0x7c
	.byte	32                              # 0x20
	.byte	207                             # 0xcf
	.byte	146                             # 0x92
	.byte	1                               # 0x1
	.byte	239                             # 0xef
	.byte	147                             # 0x93
	.byte	179                             # 0xb3
	.byte	33                              # 0x21
	.byte	238                             # 0xee
	.byte	206                             # 0xce
	.byte	125                             # 0x7d
	.byte	178                             # 0xb2
	.byte	93                              # 0x5d
	.byte	92                              # 0x5c
.Lgcm_v3_CPI29_8:
	.byte	0                               # 0x0
	.byte	209                             # 0xd1
	.byte	229                             # 0xe5
	.byte	247                             # 0xf7
	.byte	230                             # 0xe6
	.byte	37                              # 0x25
	.byte	18                              # 0x12
	.byte	195                             # 0xc3
	.byte	38                              # 0x26
	.byte	192                             # 0xc0
	.byte	55                              # 0x37
	.byte	210                             # 0xd2
	.byte	244                             # 0xf4
	.byte	3                               # 0x3
	.byte	17                              # 0x11
	.byte	52                              # 0x34
	.byte	0                               # 0x0
	.byte	209                             # 0xd1
	.byte	229                             # 0xe5
	.byte	247                             # 0xf7
	.byte	230                             # 0xe6
	.byte	37                              # 0x25
	.byte	18                              # 0x12
	.byte	195                             # 0xc3
	.byte	38                              # 0x26
	.byte	192                             # 0xc0
	.byte	55                              # 0x37
	.byte	210                             # 0xd2
	.byte	244                             # 0xf4
	.byte	3                               # 0x3
	.byte	17                              # 0x11
	.byte	52                              # 0x34
.Lgcm_v3_CPI29_9:
	.byte	0                               # 0x0
	.byte	203                             # 0xcb
	.byte	215                             # 0xd7
	.byte	176                             # 0xb0
	.byte	33                              # 0x21
	.byte	141                             # 0x8d
	.byte	103                             # 0x67
	.byte	172                             # 0xac
	.byte	123                             # 0x7b
	.byte	90                              # 0x5a
	.byte	234                             # 0xea
	.byte	61                              # 0x3d
	.byte	70                              # 0x46
	.byte	246                             # 0xf6
	.byte	145                             # 0x91
	.byte	28                              # 0x1c
	.byte	0                               # 0x0
	.byte	203                             # 0xcb
	.byte	215                             # 0xd7
	.byte	176                             # 0xb0
	.byte	33                              # 0x21
	.byte	141                             # 0x8d
	.byte	103                             # 0x67
	.byte	172                             # 0xac
	.byte	123                             # 0x7b
	.byte	90                              # 0x5a
	.byte	234                             # 0xea
	.byte	61                              # 0x3d
	.byte	70                              # 0x46
	.byte	246                             # 0xf6
	.byte	145                             # 0x91
	.byte	28                              # 0x1c
.Lgcm_v3_CPI29_10:
	.byte	0                               # 0x0
	.byte	159                             # 0x9f
	.byte	97                              # 0x61
	.byte	22                              # 0x16
	.byte	194                             # 0xc2
	.byte	42                              # 0x2a
	.byte	119                             # 0x77
	.byte	232                             # 0xe8
	.byte	137                             # 0x89
	.byte	75                              # 0x4b
	.byte	93                              # 0x5d
	.byte	60                              # 0x3c
	.byte	181                             # 0xb5
	.byte	163                             # 0xa3
	.byte	212                             # 0xd4
	.byte	254                             # 0xfe
	.byte	0                               # 0x0
	.byte	159                             # 0x9f
	.byte	97                              # 0x61
	.byte	22                              # 0x16
	.byte	194                             # 0xc2
	.byte	42                              # 0x2a
	.byte	119                             # 0x77
	.byte	232                             # 0xe8
	.byte	137                             # 0x89
	.byte	75                              # 0x4b
	.byte	93                              # 0x5d
	.byte	60                              # 0x3c
	.byte	181                             # 0xb5
	.byte	163                             # 0xa3
	.byte	212                             # 0xd4
	.byte	254                             # 0xfe
	.section	.rodata.cst16,"aM",@progbits,16
	.p2align	4, 0x0
.Lgcm_v3_CPI29_11:
	.zero	16,15
.Lgcm_v3_CPI29_12:
	.byte	0                               # 0x0
	.byte	1                               # 0x1
	.byte	28                              # 0x1c
	.byte	29                              # 0x1d
	.byte	45                              # 0x2d
	.byte	44                              # 0x2c
	.byte	49                              # 0x31
	.byte	48                              # 0x30
	.byte	39                              # 0x27
	.byte	38                              # 0x26
	.byte	59                              # 0x3b
	.byte	58                              # 0x3a
	.byte	10                              # 0xa
	.byte	11                              # 0xb
	.byte	22                              # 0x16
	.byte	23                              # 0x17
.Lgcm_v3_CPI29_13:
	.byte	0                               # 0x0
	.byte	134                             # 0x86
	.byte	253                             # 0xfd
	.byte	123                             # 0x7b
	.byte	142                             # 0x8e
	.byte	8                               # 0x8
	.byte	115                             # 0x73
	.byte	245                             # 0xf5
	.byte	119                             # 0x77
	.byte	241                             # 0xf1
	.byte	138                             # 0x8a
	.byte	12                              # 0xc
	.byte	249                             # 0xf9
	.byte	127                             # 0x7f
	.byte	4                               # 0x4
	.byte	130                             # 0x82
.Lgcm_v3_CPI29_14:
	.byte	128                             # 0x80
	.byte	2                               # 0x2
	.byte	1                               # 0x1
	.byte	15                              # 0xf
	.byte	9                               # 0x9
	.byte	5                               # 0x5
	.byte	14                              # 0xe
	.byte	12                              # 0xc
	.byte	13                              # 0xd
	.byte	4                               # 0x4
	.byte	11                              # 0xb
	.byte	10                              # 0xa
	.byte	7                               # 0x7
	.byte	8                               # 0x8
	.byte	6                               # 0x6
	.byte	3                               # 0x3
.Lgcm_v3_CPI29_15:
	.byte	128                             # 0x80
	.byte	1                               # 0x1
	.byte	9                               # 0x9
	.byte	14                              # 0xe
	.byte	13                              # 0xd
	.byte	11                              # 0xb
	.byte	7                               # 0x7
	.byte	6                               # 0x6
	.byte	15                              # 0xf
	.byte	2                               # 0x2
	.byte	12                              # 0xc
	.byte	5                               # 0x5
	.byte	10                              # 0xa
	.byte	4                               # 0x4
	.byte	3                               # 0x3
	.byte	8                               # 0x8
.Lgcm_v3_CPI29_16:
	.byte	0                               # 0x0
	.byte	195                             # 0xc3
	.byte	79                              # 0x4f
	.byte	12                              # 0xc
	.byte	252                             # 0xfc
	.byte	124                             # 0x7c
	.byte	67                              # 0x43
	.byte	128                             # 0x80
	.byte	207                             # 0xcf
	.byte	51                              # 0x33
	.byte	63                              # 0x3f
	.byte	112                             # 0x70
	.byte	191                             # 0xbf
	.byte	179                             # 0xb3
	.byte	240                             # 0xf0
	.byte	140                             # 0x8c
.Lgcm_v3_CPI29_17:
	.byte	0                               # 0x0
	.byte	230                             # 0xe6
	.byte	114                             # 0x72
	.byte	183                             # 0xb7
	.byte	229                             # 0xe5
	.byte	198                             # 0xc6
	.byte	197                             # 0xc5
	.byte	35                              # 0x23
	.byte	81                              # 0x51
	.byte	180                             # 0xb4
	.byte	3                               # 0x3
	.byte	113                             # 0x71
	.byte	32                              # 0x20
	.byte	151                             # 0x97
	.byte	82                              # 0x52
	.byte	148                             # 0x94
.Lgcm_v3_CPI29_18:
	.byte	0                               # 0x0
	.byte	124                             # 0x7c
	.byte	32                              # 0x20
	.byte	207                             # 0xcf
	.byte	146                             # 0x92
	.byte	1                               # 0x1
	.byte	239                             # 0xef
	.byte	147                             # 0x93
	.byte	179                             # 0xb3
	.byte	33                              # 0x21
	.byte	238                             # 0xee
	.byte	206                             # 0xce
	.byte	125                             # 0x7d
	.byte	178                             # 0xb2
	.byte	93                              # 0x5d
	.byte	92                              # 0x5c
.Lgcm_v3_CPI29_19:
	.byte	0                               # 0x0
	.byte	209                             # 0xd1
	.byte	229                             # 0xe5
	.byte	247                             # 0xf7
	.byte	230                             # 0xe6
	.byte	37                              # 0x25
	.byte	18                              # 0x12
	.byte	195                             # 0xc3
	.byte	38                              # 0x26
	.byte	192                             # 0xc0
	.byte	55                              # 0x37
	.byte	210                             # 0xd2
	.byte	244                             # 0xf4
	.byte	3                               # 0x3
	.byte	17                              # 0x11
	.byte	52                              # 0x34
.Lgcm_v3_CPI29_20:
	.byte	0                               # 0x0
	.byte	203                             # 0xcb
	.byte	215                             # 0xd7
	.byte	176                             # 0xb0
	.byte	33                              # 0x21
	.byte	141                             # 0x8d
	.byte	103                             # 0x67
	.byte	172                             # 0xac
	.byte	123                             # 0x7b
	.byte	90                              # 0x5a
	.byte	234                             # 0xea
	.byte	61                              # 0x3d
	.byte	70                              # 0x46
	.byte	246                             # 0xf6
	.byte	145                             # 0x91
	.byte	28                              # 0x1c
.Lgcm_v3_CPI29_21:
	.byte	0                               # 0x0
	.byte	159                             # 0x9f
	.byte	97                              # 0x61
	.byte	22                              # 0x16
	.byte	194                             # 0xc2
	.byte	42                              # 0x2a
	.byte	119                             # 0x77
	.byte	232                             # 0xe8
	.byte	137                             # 0x89
	.byte	75                              # 0x4b
	.byte	93                              # 0x5d
	.byte	60                              # 0x3c
	.byte	181                             # 0xb5
	.byte	163                             # 0xa3
	.byte	212                             # 0xd4
	.byte	254                             # 0xfe
	.section	.rodata.cst4,"aM",@progbits,4
	.p2align	2, 0x0
.Lgcm_v3_CPI29_22:
	.zero	4,15
	.section	.text.gcm_v3.aes_permute.blocks.process_on_lanes,"ax",@progbits
	.p2align	4
	.type	gcm_v3.aes_permute.blocks.process_on_lanes,@function
gcm_v3.aes_permute.blocks.process_on_lanes: # @gcm_v3.aes_permute.blocks.process_on_lanes
# %bb.0:                                # %start
	pushq	%r15
	pushq	%r14
	pushq	%r12
	pushq	%rbx
	cmpq	$4, %rcx
	jb	.Lgcm_v3_BB29_1
# %bb.15:                               # %join.5.lr.ph
	leaq	-1(%rsi), %r8
	movq	%r8, %r9
	shlq	$4, %r9
	movl	%r9d, %eax
	andl	$48, %eax
	leaq	.Lgcm_v3_static.3(%rip), %r10
	vbroadcasti128	(%rax,%r10), %ymm0      # ymm0 = mem[0,1,0,1]
	vmovdqu	%ymm0, -40(%rsp)                # 32-byte Spill
	leaq	-2(%rsi), %r10
	xorl	%eax, %eax
	jmp	.Lgcm_v3_BB29_16
	.p2align	4
.Lgcm_v3_BB29_19:                              # %"aes_permute::blocks::process_two_vectors::<#8b9e8a6b2f3495e4>.exit"
                                        #   in Loop: Header=BB29_16 Depth=1
	vbroadcasti128	(%rdi,%r9), %ymm4       # ymm4 = mem[0,1,0,1]
	vpsrlw	$4, %ymm3, %ymm0
	vpand	%ymm1, %ymm0, %ymm0
	vpand	%ymm1, %ymm3, %ymm3
	vpxor	%ymm3, %ymm0, %ymm5
	vbroadcasti128	.Lgcm_v3_CPI29_14(%rip), %ymm6 # ymm6 = [128,2,1,15,9,5,14,12,13,4,11,10,7,8,6,3,128,2,1,15,9,5,14,12,13,4,11,10,7,8,6,3]
                                        # ymm6 = mem[0,1,0,1]
	vpshufb	%ymm3, %ymm6, %ymm3
	vbroadcasti128	.Lgcm_v3_CPI29_15(%rip), %ymm7 # ymm7 = [128,1,9,14,13,11,7,6,15,2,12,5,10,4,3,8,128,1,9,14,13,11,7,6,15,2,12,5,10,4,3,8]
                                        # ymm7 = mem[0,1,0,1]
	vpshufb	%ymm0, %ymm7, %ymm8
	vpshufb	%ymm5, %ymm7, %ymm9
	vpxor	%ymm3, %ymm8, %ymm8
	vpxor	%ymm3, %ymm9, %ymm3
	vpshufb	%ymm8, %ymm7, %ymm8
	vpshufb	%ymm3, %ymm7, %ymm3
	vpxor	%ymm5, %ymm8, %ymm5
	vpxor	%ymm0, %ymm3, %ymm0
	vbroadcasti128	.Lgcm_v3_CPI29_20(%rip), %ymm3 # ymm3 = [0,203,215,176,33,141,103,172,123,90,234,61,70,246,145,28,0,203,215,176,33,141,103,172,123,90,234,61,70,246,145,28]
                                        # ymm3 = mem[0,1,0,1]
	vpshufb	%ymm5, %ymm3, %ymm5
	vbroadcasti128	.Lgcm_v3_CPI29_21(%rip), %ymm8 # ymm8 = [0,159,97,22,194,42,119,232,137,75,93,60,181,163,212,254,0,159,97,22,194,42,119,232,137,75,93,60,181,163,212,254]
                                        # ymm8 = mem[0,1,0,1]
	vpshufb	%ymm0, %ymm8, %ymm0
	vpxor	%ymm5, %ymm0, %ymm0
	vmovdqu	-40(%rsp), %ymm10               # 32-byte Reload
	vpshufb	%ymm10, %ymm0, %ymm0
	vpxor	%ymm4, %ymm0, %ymm0
	vpsrlw	$4, %ymm2, %ymm5
	vpand	%ymm1, %ymm5, %ymm5
	vpand	%ymm1, %ymm2, %ymm1
	vpxor	%ymm1, %ymm5, %ymm2
	vpshufb	%ymm1, %ymm6, %ymm1
	vpshufb	%ymm5, %ymm7, %ymm6
	vpshufb	%ymm2, %ymm7, %ymm9
	vpxor	%ymm1, %ymm6, %ymm6
	vpxor	%ymm1, %ymm9, %ymm1
	vpshufb	%ymm6, %ymm7, %ymm6
	vpshufb	%ymm1, %ymm7, %ymm1
	vpxor	%ymm2, %ymm6, %ymm2
	vpxor	%ymm5, %ymm1, %ymm1
	vpshufb	%ymm2, %ymm3, %ymm2
	vpshufb	%ymm1, %ymm8, %ymm1
	vpxor	%ymm2, %ymm1, %ymm1
	vpshufb	%ymm10, %ymm1, %ymm1
	vpxor	%ymm4, %ymm1, %ymm1
	vmovdqu	%ymm0, (%rdx,%r11)
	vmovdqu	%ymm1, 32(%rdx,%r11)
	addq	$4, %rax
	movq	%rcx, %r11
	subq	%rax, %r11
	cmpq	$3, %r11
	jbe	.Lgcm_v3_BB29_2
.Lgcm_v3_BB29_16:                              # %join.5
                                        # =>This Loop Header: Depth=1
                                        #     Child Loop BB29_18 Depth 2
	movq	%rax, %r11
	shlq	$4, %r11
	vbroadcasti128	(%rdi), %ymm2           # ymm2 = mem[0,1,0,1]
	vpxor	(%rdx,%r11), %ymm2, %ymm3
	vpbroadcastd	.Lgcm_v3_CPI29_22(%rip), %ymm1 # ymm1 = [15,15,15,15,15,15,15,15,15,15,15,15,15,15,15,15,15,15,15,15,15,15,15,15,15,15,15,15,15,15,15,15]
	vpand	%ymm1, %ymm3, %ymm4
	vbroadcasti128	.Lgcm_v3_CPI29_12(%rip), %ymm5 # ymm5 = [0,1,28,29,45,44,49,48,39,38,59,58,10,11,22,23,0,1,28,29,45,44,49,48,39,38,59,58,10,11,22,23]
                                        # ymm5 = mem[0,1,0,1]
	vpshufb	%ymm4, %ymm5, %ymm4
	vpsrlw	$4, %ymm3, %ymm3
	vpand	%ymm1, %ymm3, %ymm3
	vbroadcasti128	.Lgcm_v3_CPI29_13(%rip), %ymm6 # ymm6 = [0,134,253,123,142,8,115,245,119,241,138,12,249,127,4,130,0,134,253,123,142,8,115,245,119,241,138,12,249,127,4,130]
                                        # ymm6 = mem[0,1,0,1]
	vpshufb	%ymm3, %ymm6, %ymm3
	vpxor	32(%rdx,%r11), %ymm2, %ymm2
	vpxor	%ymm4, %ymm3, %ymm3
	vpand	%ymm1, %ymm2, %ymm4
	vpshufb	%ymm4, %ymm5, %ymm4
	vpsrlw	$4, %ymm2, %ymm2
	vpand	%ymm1, %ymm2, %ymm2
	vpshufb	%ymm2, %ymm6, %ymm2
	vpxor	%ymm4, %ymm2, %ymm2
	cmpq	$2, %r8
	jb	.Lgcm_v3_BB29_19
# %bb.17:                               # %join.5.i1431.preheader
                                        #   in Loop: Header=BB29_16 Depth=1
	movl	$16, %ebx
	movq	%r10, %r14
	.p2align	4
.Lgcm_v3_BB29_18:                              # %join.5.i1431
                                        #   Parent Loop BB29_16 Depth=1
                                        # =>  This Inner Loop Header: Depth=2
	vpsrlw	$4, %ymm3, %ymm4
	vpand	%ymm1, %ymm4, %ymm5
	vpand	%ymm1, %ymm3, %ymm3
	vpxor	%ymm3, %ymm5, %ymm6
	vbroadcasti128	.Lgcm_v3_CPI29_14(%rip), %ymm4 # ymm4 = [128,2,1,15,9,5,14,12,13,4,11,10,7,8,6,3,128,2,1,15,9,5,14,12,13,4,11,10,7,8,6,3]
                                        # ymm4 = mem[0,1,0,1]
	vpshufb	%ymm3, %ymm4, %ymm7
	vbroadcasti128	.Lgcm_v3_CPI29_15(%rip), %ymm3 # ymm3 = [128,1,9,14,13,11,7,6,15,2,12,5,10,4,3,8,128,1,9,14,13,11,7,6,15,2,12,5,10,4,3,8]
                                        # ymm3 = mem[0,1,0,1]
	vpshufb	%ymm5, %ymm3, %ymm8
	vpshufb	%ymm6, %ymm3, %ymm9
	vpxor	%ymm7, %ymm8, %ymm8
	vpxor	%ymm7, %ymm9, %ymm7
	vpshufb	%ymm8, %ymm3, %ymm8
	vpshufb	%ymm7, %ymm3, %ymm7
	vpxor	%ymm6, %ymm8, %ymm8
	vpxor	%ymm5, %ymm7, %ymm9
	vbroadcasti128	.Lgcm_v3_CPI29_16(%rip), %ymm5 # ymm5 = [0,195,79,12,252,124,67,128,207,51,63,112,191,179,240,140,0,195,79,12,252,124,67,128,207,51,63,112,191,179,240,140]
                                        # ymm5 = mem[0,1,0,1]
	vpshufb	%ymm8, %ymm5, %ymm7
	vbroadcasti128	.Lgcm_v3_CPI29_17(%rip), %ymm6 # ymm6 = [0,230,114,183,229,198,197,35,81,180,3,113,32,151,82,148,0,230,114,183,229,198,197,35,81,180,3,113,32,151,82,148]
                                        # ymm6 = mem[0,1,0,1]
	vpshufb	%ymm9, %ymm6, %ymm10
	vpxor	%ymm7, %ymm10, %ymm10
	vbroadcasti128	.Lgcm_v3_CPI29_18(%rip), %ymm7 # ymm7 = [0,124,32,207,146,1,239,147,179,33,238,206,125,178,93,92,0,124,32,207,146,1,239,147,179,33,238,206,125,178,93,92]
                                        # ymm7 = mem[0,1,0,1]
	vpshufb	%ymm8, %ymm7, %ymm8
	vbroadcasti128	.Lgcm_v3_CPI29_19(%rip), %ymm11 # ymm11 = [0,209,229,247,230,37,18,195,38,192,55,210,244,3,17,52,0,209,229,247,230,37,18,195,38,192,55,210,244,3,17,52]
                                        # ymm11 = mem[0,1,0,1]
	vpshufb	%ymm9, %ymm11, %ymm9
	vpxor	%ymm8, %ymm9, %ymm8
	movl	%ebx, %r15d
	andl	$48, %r15d
	leaq	.Lgcm_v3_static.5(%rip), %r12
	vbroadcasti128	(%r15,%r12), %ymm9      # ymm9 = mem[0,1,0,1]
	vpshufb	%ymm9, %ymm10, %ymm12
	vpxor	%ymm12, %ymm8, %ymm8
	vpshufb	%ymm9, %ymm8, %ymm12
	leaq	.Lgcm_v3_static.6(%rip), %r12
	vbroadcasti128	(%r15,%r12), %ymm13     # ymm13 = mem[0,1,0,1]
	vpshufb	%ymm13, %ymm10, %ymm10
	vpsrlw	$4, %ymm2, %ymm14
	vpand	%ymm1, %ymm14, %ymm14
	vpand	%ymm1, %ymm2, %ymm2
	vpxor	%ymm2, %ymm14, %ymm15
	vpshufb	%ymm2, %ymm4, %ymm2
	vpshufb	%ymm14, %ymm3, %ymm4
	vpshufb	%ymm15, %ymm3, %ymm0
	vpxor	%ymm2, %ymm4, %ymm4
	vpxor	%ymm2, %ymm0, %ymm0
	vpshufb	%ymm4, %ymm3, %ymm2
	vpshufb	%ymm0, %ymm3, %ymm0
	vpxor	%ymm2, %ymm15, %ymm2
	vpxor	%ymm0, %ymm14, %ymm0
	vpshufb	%ymm2, %ymm5, %ymm3
	vpshufb	%ymm0, %ymm6, %ymm4
	vpxor	%ymm3, %ymm4, %ymm3
	vpshufb	%ymm2, %ymm7, %ymm2
	vpshufb	%ymm0, %ymm11, %ymm0
	vpxor	%ymm2, %ymm0, %ymm0
	vpshufb	%ymm9, %ymm3, %ymm2
	vpxor	%ymm2, %ymm0, %ymm0
	vpshufb	%ymm9, %ymm0, %ymm2
	vpshufb	%ymm13, %ymm3, %ymm4
	vbroadcasti128	(%rdi,%rbx), %ymm5      # ymm5 = mem[0,1,0,1]
	vpxor	%ymm8, %ymm10, %ymm3
	vpxor	%ymm3, %ymm12, %ymm3
	vpxor	%ymm5, %ymm3, %ymm3
	vpxor	%ymm0, %ymm4, %ymm0
	vpxor	%ymm0, %ymm2, %ymm0
	vpxor	%ymm5, %ymm0, %ymm2
	addq	$16, %rbx
	decq	%r14
	jne	.Lgcm_v3_BB29_18
	jmp	.Lgcm_v3_BB29_19
.Lgcm_v3_BB29_1:
	xorl	%eax, %eax
.Lgcm_v3_BB29_2:                               # %loop.7.preheader
	movq	%rcx, %r8
	subq	%rax, %r8
	cmpq	$2, %r8
	jb	.Lgcm_v3_BB29_8
# %bb.3:                                # %join.10.lr.ph
	leaq	-1(%rsi), %r8
	movq	%r8, %r9
	shlq	$4, %r9
	movl	%r9d, %r10d
	andl	$48, %r10d
	leaq	.Lgcm_v3_static.3(%rip), %r11
	vbroadcasti128	(%r10,%r11), %ymm0      # ymm0 = mem[0,1,0,1]
	leaq	-2(%rsi), %r10
	jmp	.Lgcm_v3_BB29_4
	.p2align	4
.Lgcm_v3_BB29_7:                               # %"aes_permute::blocks::process_vector::<#8b9e8a6b2f3495e4>.exit"
                                        #   in Loop: Header=BB29_4 Depth=1
	vbroadcasti128	(%rdi,%r9), %ymm2       # ymm2 = mem[0,1,0,1]
	vpsrlw	$4, %ymm3, %ymm4
	vpand	%ymm1, %ymm4, %ymm4
	vpand	%ymm1, %ymm3, %ymm1
	vpxor	%ymm1, %ymm4, %ymm3
	vbroadcasti128	.Lgcm_v3_CPI29_14(%rip), %ymm5 # ymm5 = [128,2,1,15,9,5,14,12,13,4,11,10,7,8,6,3,128,2,1,15,9,5,14,12,13,4,11,10,7,8,6,3]
                                        # ymm5 = mem[0,1,0,1]
	vpshufb	%ymm1, %ymm5, %ymm1
	vbroadcasti128	.Lgcm_v3_CPI29_15(%rip), %ymm5 # ymm5 = [128,1,9,14,13,11,7,6,15,2,12,5,10,4,3,8,128,1,9,14,13,11,7,6,15,2,12,5,10,4,3,8]
                                        # ymm5 = mem[0,1,0,1]
	vpshufb	%ymm4, %ymm5, %ymm6
	vpshufb	%ymm3, %ymm5, %ymm7
	vpxor	%ymm1, %ymm6, %ymm6
	vpxor	%ymm1, %ymm7, %ymm1
	vpshufb	%ymm6, %ymm5, %ymm6
	vpshufb	%ymm1, %ymm5, %ymm1
	vpxor	%ymm3, %ymm6, %ymm3
	vpxor	%ymm4, %ymm1, %ymm1
	vbroadcasti128	.Lgcm_v3_CPI29_20(%rip), %ymm4 # ymm4 = [0,203,215,176,33,141,103,172,123,90,234,61,70,246,145,28,0,203,215,176,33,141,103,172,123,90,234,61,70,246,145,28]
                                        # ymm4 = mem[0,1,0,1]
	vpshufb	%ymm3, %ymm4, %ymm3
	vbroadcasti128	.Lgcm_v3_CPI29_21(%rip), %ymm4 # ymm4 = [0,159,97,22,194,42,119,232,137,75,93,60,181,163,212,254,0,159,97,22,194,42,119,232,137,75,93,60,181,163,212,254]
                                        # ymm4 = mem[0,1,0,1]
	vpshufb	%ymm1, %ymm4, %ymm1
	vpxor	%ymm3, %ymm1, %ymm1
	vpshufb	%ymm0, %ymm1, %ymm1
	vpxor	%ymm2, %ymm1, %ymm1
	vmovdqu	%ymm1, (%rdx,%r11)
	addq	$2, %rax
	movq	%rcx, %r11
	subq	%rax, %r11
	cmpq	$1, %r11
	jbe	.Lgcm_v3_BB29_8
.Lgcm_v3_BB29_4:                               # %join.10
                                        # =>This Loop Header: Depth=1
                                        #     Child Loop BB29_6 Depth 2
	movq	%rax, %r11
	shlq	$4, %r11
	vbroadcasti128	(%rdi), %ymm1           # ymm1 = mem[0,1,0,1]
	vpxor	(%rdx,%r11), %ymm1, %ymm2
	vpbroadcastd	.Lgcm_v3_CPI29_22(%rip), %ymm1 # ymm1 = [15,15,15,15,15,15,15,15,15,15,15,15,15,15,15,15,15,15,15,15,15,15,15,15,15,15,15,15,15,15,15,15]
	vpand	%ymm1, %ymm2, %ymm3
	vbroadcasti128	.Lgcm_v3_CPI29_12(%rip), %ymm4 # ymm4 = [0,1,28,29,45,44,49,48,39,38,59,58,10,11,22,23,0,1,28,29,45,44,49,48,39,38,59,58,10,11,22,23]
                                        # ymm4 = mem[0,1,0,1]
	vpshufb	%ymm3, %ymm4, %ymm3
	vpsrlw	$4, %ymm2, %ymm2
	vpand	%ymm1, %ymm2, %ymm2
	vbroadcasti128	.Lgcm_v3_CPI29_13(%rip), %ymm4 # ymm4 = [0,134,253,123,142,8,115,245,119,241,138,12,249,127,4,130,0,134,253,123,142,8,115,245,119,241,138,12,249,127,4,130]
                                        # ymm4 = mem[0,1,0,1]
	vpshufb	%ymm2, %ymm4, %ymm2
	vpxor	%ymm3, %ymm2, %ymm3
	cmpq	$2, %r8
	jb	.Lgcm_v3_BB29_7
# %bb.5:                                # %join.5.i1058.preheader
                                        #   in Loop: Header=BB29_4 Depth=1
	movl	$16, %ebx
	movq	%r10, %r14
	.p2align	4
.Lgcm_v3_BB29_6:                               # %join.5.i1058
                                        #   Parent Loop BB29_4 Depth=1
                                        # =>  This Inner Loop Header: Depth=2
	vbroadcasti128	(%rdi,%rbx), %ymm2      # ymm2 = mem[0,1,0,1]
	vpsrlw	$4, %ymm3, %ymm4
	vpand	%ymm1, %ymm4, %ymm4
	vpand	%ymm1, %ymm3, %ymm3
	vpxor	%ymm3, %ymm4, %ymm5
	vbroadcasti128	.Lgcm_v3_CPI29_14(%rip), %ymm6 # ymm6 = [128,2,1,15,9,5,14,12,13,4,11,10,7,8,6,3,128,2,1,15,9,5,14,12,13,4,11,10,7,8,6,3]
                                        # ymm6 = mem[0,1,0,1]
	vpshufb	%ymm3, %ymm6, %ymm3
	vbroadcasti128	.Lgcm_v3_CPI29_15(%rip), %ymm6 # ymm6 = [128,1,9,14,13,11,7,6,15,2,12,5,10,4,3,8,128,1,9,14,13,11,7,6,15,2,12,5,10,4,3,8]
                                        # ymm6 = mem[0,1,0,1]
	vpshufb	%ymm4, %ymm6, %ymm7
	vpshufb	%ymm5, %ymm6, %ymm8
	vpxor	%ymm3, %ymm7, %ymm7
	vpxor	%ymm3, %ymm8, %ymm3
	vpshufb	%ymm7, %ymm6, %ymm7
	vpshufb	%ymm3, %ymm6, %ymm3
	vpxor	%ymm5, %ymm7, %ymm5
	vpxor	%ymm4, %ymm3, %ymm3
	vbroadcasti128	.Lgcm_v3_CPI29_16(%rip), %ymm4 # ymm4 = [0,195,79,12,252,124,67,128,207,51,63,112,191,179,240,140,0,195,79,12,252,124,67,128,207,51,63,112,191,179,240,140]
                                        # ymm4 = mem[0,1,0,1]
	vpshufb	%ymm5, %ymm4, %ymm4
	vbroadcasti128	.Lgcm_v3_CPI29_17(%rip), %ymm6 # ymm6 = [0,230,114,183,229,198,197,35,81,180,3,113,32,151,82,148,0,230,114,183,229,198,197,35,81,180,3,113,32,151,82,148]
                                        # ymm6 = mem[0,1,0,1]
	vpshufb	%ymm3, %ymm6, %ymm6
	vpxor	%ymm4, %ymm6, %ymm4
	vbroadcasti128	.Lgcm_v3_CPI29_18(%rip), %ymm6 # ymm6 = [0,124,32,207,146,1,239,147,179,33,238,206,125,178,93,92,0,124,32,207,146,1,239,147,179,33,238,206,125,178,93,92]
                                        # ymm6 = mem[0,1,0,1]
	vpshufb	%ymm5, %ymm6, %ymm5
	vbroadcasti128	.Lgcm_v3_CPI29_19(%rip), %ymm6 # ymm6 = [0,209,229,247,230,37,18,195,38,192,55,210,244,3,17,52,0,209,229,247,230,37,18,195,38,192,55,210,244,3,17,52]
                                        # ymm6 = mem[0,1,0,1]
	vpshufb	%ymm3, %ymm6, %ymm3
	vpxor	%ymm5, %ymm3, %ymm3
	movl	%ebx, %r15d
	andl	$48, %r15d
	leaq	.Lgcm_v3_static.5(%rip), %r12
	vbroadcasti128	(%r15,%r12), %ymm5      # ymm5 = mem[0,1,0,1]
	vpshufb	%ymm5, %ymm4, %ymm6
	vpxor	%ymm6, %ymm3, %ymm3
	vpshufb	%ymm5, %ymm3, %ymm5
	leaq	.Lgcm_v3_static.6(%rip), %r12
	vbroadcasti128	(%r15,%r12), %ymm6      # ymm6 = mem[0,1,0,1]
	vpshufb	%ymm6, %ymm4, %ymm4
	vpxor	%ymm4, %ymm2, %ymm2
	vpxor	%ymm3, %ymm2, %ymm2
	vpxor	%ymm2, %ymm5, %ymm3
	addq	$16, %rbx
	decq	%r14
	jne	.Lgcm_v3_BB29_6
	jmp	.Lgcm_v3_BB29_7
.Lgcm_v3_BB29_8:                               # %loop.12.preheader
	cmpq	%rcx, %rax
	jae	.Lgcm_v3_BB29_14
# %bb.9:                                # %join.15.lr.ph
	leaq	-1(%rsi), %r8
	movq	%r8, %r9
	shlq	$4, %r9
	movl	%r9d, %r10d
	andl	$48, %r10d
	leaq	.Lgcm_v3_static.3(%rip), %r11
	vmovdqu	(%r10,%r11), %xmm0
	addq	$-2, %rsi
	jmp	.Lgcm_v3_BB29_10
	.p2align	4
.Lgcm_v3_BB29_13:                              # %"aes_permute::blocks::process_vector::<#06aaae76f5856d0a>.exit"
                                        #   in Loop: Header=BB29_10 Depth=1
	vpsrlw	$4, %xmm2, %xmm3
	vpand	%xmm1, %xmm3, %xmm3
	vpand	%xmm1, %xmm2, %xmm1
	vpxor	%xmm1, %xmm3, %xmm2
	vmovdqa	.Lgcm_v3_CPI29_14(%rip), %xmm4         # xmm4 = [128,2,1,15,9,5,14,12,13,4,11,10,7,8,6,3]
	vpshufb	%xmm1, %xmm4, %xmm1
	vmovdqa	.Lgcm_v3_CPI29_15(%rip), %xmm4         # xmm4 = [128,1,9,14,13,11,7,6,15,2,12,5,10,4,3,8]
	vpshufb	%xmm3, %xmm4, %xmm5
	vpshufb	%xmm2, %xmm4, %xmm6
	vpxor	%xmm1, %xmm5, %xmm5
	vpxor	%xmm1, %xmm6, %xmm1
	vpshufb	%xmm5, %xmm4, %xmm5
	vpshufb	%xmm1, %xmm4, %xmm1
	vpxor	%xmm2, %xmm5, %xmm2
	vpxor	%xmm3, %xmm1, %xmm1
	vmovdqa	.Lgcm_v3_CPI29_20(%rip), %xmm3         # xmm3 = [0,203,215,176,33,141,103,172,123,90,234,61,70,246,145,28]
	vpshufb	%xmm2, %xmm3, %xmm2
	vmovdqa	.Lgcm_v3_CPI29_21(%rip), %xmm3         # xmm3 = [0,159,97,22,194,42,119,232,137,75,93,60,181,163,212,254]
	vpshufb	%xmm1, %xmm3, %xmm1
	vpxor	%xmm2, %xmm1, %xmm1
	vpshufb	%xmm0, %xmm1, %xmm1
	vpxor	(%rdi,%r9), %xmm1, %xmm1
	vmovdqu	%xmm1, (%rdx,%r10)
	incq	%rax
	cmpq	%rcx, %rax
	je	.Lgcm_v3_BB29_14
.Lgcm_v3_BB29_10:                              # %join.15
                                        # =>This Loop Header: Depth=1
                                        #     Child Loop BB29_12 Depth 2
	movq	%rax, %r10
	shlq	$4, %r10
	vmovdqu	(%rdi), %xmm1
	vpxor	(%rdx,%r10), %xmm1, %xmm2
	vpbroadcastd	.Lgcm_v3_CPI29_22(%rip), %xmm1 # xmm1 = [15,15,15,15,15,15,15,15,15,15,15,15,15,15,15,15]
	vpand	%xmm1, %xmm2, %xmm3
	vmovdqa	.Lgcm_v3_CPI29_12(%rip), %xmm4         # xmm4 = [0,1,28,29,45,44,49,48,39,38,59,58,10,11,22,23]
	vpshufb	%xmm3, %xmm4, %xmm3
	vpsrlw	$4, %xmm2, %xmm2
	vpand	%xmm1, %xmm2, %xmm2
	vmovdqa	.Lgcm_v3_CPI29_13(%rip), %xmm4         # xmm4 = [0,134,253,123,142,8,115,245,119,241,138,12,249,127,4,130]
	vpshufb	%xmm2, %xmm4, %xmm2
	vpxor	%xmm3, %xmm2, %xmm2
	cmpq	$2, %r8
	jb	.Lgcm_v3_BB29_13
# %bb.11:                               # %join.5.i.preheader
                                        #   in Loop: Header=BB29_10 Depth=1
	movl	$16, %r11d
	movq	%rsi, %rbx
	.p2align	4
.Lgcm_v3_BB29_12:                              # %join.5.i
                                        #   Parent Loop BB29_10 Depth=1
                                        # =>  This Inner Loop Header: Depth=2
	vpsrlw	$4, %xmm2, %xmm3
	vpand	%xmm1, %xmm3, %xmm3
	vpand	%xmm1, %xmm2, %xmm2
	vpxor	%xmm2, %xmm3, %xmm4
	vmovdqa	.Lgcm_v3_CPI29_14(%rip), %xmm5         # xmm5 = [128,2,1,15,9,5,14,12,13,4,11,10,7,8,6,3]
	vpshufb	%xmm2, %xmm5, %xmm2
	vmovdqa	.Lgcm_v3_CPI29_15(%rip), %xmm5         # xmm5 = [128,1,9,14,13,11,7,6,15,2,12,5,10,4,3,8]
	vpshufb	%xmm3, %xmm5, %xmm6
	vpshufb	%xmm4, %xmm5, %xmm7
	vpxor	%xmm2, %xmm6, %xmm6
	vpxor	%xmm2, %xmm7, %xmm2
	vpshufb	%xmm6, %xmm5, %xmm6
	vpshufb	%xmm2, %xmm5, %xmm2
	vpxor	%xmm4, %xmm6, %xmm4
	vpxor	%xmm3, %xmm2, %xmm2
	vmovdqa	.Lgcm_v3_CPI29_16(%rip), %xmm3         # xmm3 = [0,195,79,12,252,124,67,128,207,51,63,112,191,179,240,140]
	vpshufb	%xmm4, %xmm3, %xmm3
	vmovdqa	.Lgcm_v3_CPI29_17(%rip), %xmm5         # xmm5 = [0,230,114,183,229,198,197,35,81,180,3,113,32,151,82,148]
	vpshufb	%xmm2, %xmm5, %xmm5
	vpxor	%xmm3, %xmm5, %xmm3
	vmovdqa	.Lgcm_v3_CPI29_18(%rip), %xmm5         # xmm5 = [0,124,32,207,146,1,239,147,179,33,238,206,125,178,93,92]
	vpshufb	%xmm4, %xmm5, %xmm4
	vmovdqa	.Lgcm_v3_CPI29_19(%rip), %xmm5         # xmm5 = [0,209,229,247,230,37,18,195,38,192,55,210,244,3,17,52]
	vpshufb	%xmm2, %xmm5, %xmm2
	vpxor	%xmm4, %xmm2, %xmm2
	movl	%r11d, %r14d
	andl	$48, %r14d
	leaq	.Lgcm_v3_static.5(%rip), %r15
	vmovdqu	(%r14,%r15), %xmm4
	vpshufb	%xmm4, %xmm3, %xmm5
	vpxor	%xmm5, %xmm2, %xmm2
	vpshufb	%xmm4, %xmm2, %xmm4
	leaq	.Lgcm_v3_static.6(%rip), %r15
	vpshufb	(%r14,%r15), %xmm3, %xmm3
	vpxor	(%rdi,%r11), %xmm4, %xmm4
	vpxor	%xmm2, %xmm3, %xmm2
	vpxor	%xmm2, %xmm4, %xmm2
	addq	$16, %r11
	decq	%rbx
	jne	.Lgcm_v3_BB29_12
	jmp	.Lgcm_v3_BB29_13
.Lgcm_v3_BB29_14:                              # %after.11
	popq	%rbx
	popq	%r12
	popq	%r14
	popq	%r15
	vzeroupper
	retq
.Lgcm_v3_func_end29:
	.size	gcm_v3.aes_permute.blocks.process_on_lanes, .Lgcm_v3_func_end29-gcm_v3.aes_permute.blocks.process_on_lanes
                                        # -- End function
	.section	.text.gcm_v3.aes_hybrid.closures.lend_planes.1,"ax",@progbits
	.p2align	4                               # -- Begin function aes_hybrid::closures::lend_planes::<#dc070b3f7f105b72>
	.type	gcm_v3.aes_hybrid.closures.lend_planes.1,@function
gcm_v3.aes_hybrid.closures.lend_planes.1: # @gcm_v3.aes_hybrid.closures.lend_planes.1
# %bb.0:                                # %start
	pushq	%rbp
	movq	%rsp, %rbp
	pushq	%r15
	pushq	%r14
	pushq	%r13
	pushq	%r12
	pushq	%rbx
	andq	$-32, %rsp
	subq	$3040, %rsp                     # imm = 0xBE0
	movq	$0, (%rsp)
	subq	$896, %rsp                      # imm = 0x380
	movq	%r8, 24(%rsp)                   # 8-byte Spill
	movq	%rcx, 16(%rsp)                  # 8-byte Spill
	movq	%rdx, %r15
	movq	%rsi, %r12
	movq	%rdi, %r13
	leaq	320(%rsp), %rdi
	movl	$3584, %edx                     # imm = 0xE00
	xorl	%esi, %esi
	callq	*memset@GOTPCREL(%rip)
	leaq	(,%r12,8), %rbx
	leaq	64(%rsp), %r14
	movq	%r14, %rdi
	movq	%r13, %rsi
	movq	%r12, %rdx
	callq	gcm_v3.aes_hybrid.plane_keys.store_planes
	movq	%r13, 32(%rsp)
	movq	%r12, 40(%rsp)
	movq	%r15, 48(%rsp)
	movq	16(%rsp), %rax                  # 8-byte Reload
	movq	%rax, 56(%rsp)
	leaq	32(%rsp), %rdi
	movq	%r14, %rsi
	movq	%rbx, %rdx
	movq	24(%rsp), %rcx                  # 8-byte Reload
	callq	gcm_v3.aes_hybrid.closures.call_to_work.1
	movq	%r14, %rdi
	callq	gcm_v3.aes_cipher.zeroize.zeroize_words
	callq	gcm_v3.aes_cipher.zeroize.stack.wipe_stack.2032
	leaq	-40(%rbp), %rsp
	popq	%rbx
	popq	%r12
	popq	%r13
	popq	%r14
	popq	%r15
	popq	%rbp
	retq
.Lgcm_v3_func_end30:
	.size	gcm_v3.aes_hybrid.closures.lend_planes.1, .Lgcm_v3_func_end30-gcm_v3.aes_hybrid.closures.lend_planes.1
                                        # -- End function
	.section	.rodata.cst32,"aM",@progbits,32
	.p2align	5, 0x0                          # -- Begin function aes_hybrid::closures::call_to_work::<#dc070b3f7f105b72>
.Lgcm_v3_CPI31_0:
	.byte	15                              # 0xf
	.byte	11                              # 0xb
	.byte	7                               # 0x7
	.byte	3                               # 0x3
	.byte	14                              # 0xe
	.byte	10                              # 0xa
	.byte	6                               # 0x6
	.byte	2                               # 0x2
	.byte	13                              # 0xd
	.byte	9                               # 0x9
	.byte	5                               # 0x5
	.byte	1                               # 0x1
	.byte	12                              # 0xc
	.byte	8                               # 0x8
	.byte	4                               # 0x4
	.byte	0                               # 0x0
	.byte	15                              # 0xf
	.byte	11                              # 0xb
	.byte	7                               # 0x7
	.byte	3                               # 0x3
	.byte	14                              # 0xe
	.byte	10                              # 0xa
	.byte	6                               # 0x6
	.byte	2                               # 0x2
	.byte	13                              # 0xd
	.byte	9                               # 0x9
	.byte	5                               # 0x5
	.byte	1                               # 0x1
	.byte	12                              # 0xc
	.byte	8                               # 0x8
	.byte	4                               # 0x4
	.byte	0                               # 0x0
.Lgcm_v3_CPI31_1:
	.zero	32,85
.Lgcm_v3_CPI31_2:
	.zero	32,51
.Lgcm_v3_CPI31_3:
	.zero	32,15
.Lgcm_v3_CPI31_4:
	.byte	0                               # 0x0
	.byte	4                               # 0x4
	.byte	8                               # 0x8
	.byte	12                              # 0xc
	.byte	1                               # 0x1
	.byte	5                               # 0x5
	.byte	9                               # 0x9
	.byte	13                              # 0xd
	.byte	2                               # 0x2
	.byte	6                               # 0x6
	.byte	10                              # 0xa
	.byte	14                              # 0xe
	.byte	3                               # 0x3
	.byte	7                               # 0x7
	.byte	11                              # 0xb
	.byte	15                              # 0xf
	.byte	0                               # 0x0
	.byte	4                               # 0x4
	.byte	8                               # 0x8
	.byte	12                              # 0xc
	.byte	1                               # 0x1
	.byte	5                               # 0x5
	.byte	9                               # 0x9
	.byte	13                              # 0xd
	.byte	2                               # 0x2
	.byte	6                               # 0x6
	.byte	10                              # 0xa
	.byte	14                              # 0xe
	.byte	3                               # 0x3
	.byte	7                               # 0x7
	.byte	11                              # 0xb
	.byte	15                              # 0xf
	.section	.rodata.cst16,"aM",@progbits,16
	.p2align	4, 0x0
.Lgcm_v3_CPI31_5:
	.byte	15                              # 0xf
	.byte	11                              # 0xb
	.byte	7                               # 0x7
	.byte	3                               # 0x3
	.byte	14                              # 0xe
	.byte	10                              # 0xa
	.byte	6                               # 0x6
	.byte	2                               # 0x2
	.byte	13                              # 0xd
	.byte	9                               # 0x9
	.byte	5                               # 0x5
	.byte	1                               # 0x1
	.byte	12                              # 0xc
	.byte	8                               # 0x8
	.byte	4                               # 0x4
	.byte	0                               # 0x0
.Lgcm_v3_CPI31_9:
	.byte	0                               # 0x0
	.byte	4                               # 0x4
	.byte	8                               # 0x8
	.byte	12                              # 0xc
	.byte	1                               # 0x1
	.byte	5                               # 0x5
	.byte	9                               # 0x9
	.byte	13                              # 0xd
	.byte	2                               # 0x2
	.byte	6                               # 0x6
	.byte	10                              # 0xa
	.byte	14                              # 0xe
	.byte	3                               # 0x3
	.byte	7                               # 0x7
	.byte	11                              # 0xb
	.byte	15                              # 0xf
	.section	.rodata.cst4,"aM",@progbits,4
	.p2align	2, 0x0
.Lgcm_v3_CPI31_6:
	.zero	4,85
.Lgcm_v3_CPI31_7:
	.zero	4,51
.Lgcm_v3_CPI31_8:
	.zero	4,15
	.section	.text.gcm_v3.aes_hybrid.closures.call_to_work.1,"ax",@progbits
	.p2align	4
	.type	gcm_v3.aes_hybrid.closures.call_to_work.1,@function
gcm_v3.aes_hybrid.closures.call_to_work.1: # @gcm_v3.aes_hybrid.closures.call_to_work.1
# %bb.0:                                # %start
	pushq	%rbp
	pushq	%r15
	pushq	%r14
	pushq	%r13
	pushq	%r12
	pushq	%rbx
	subq	$360, %rsp                      # imm = 0x168
	movq	%rdx, %r8
	movq	%rsi, %r13
	movq	%rdi, 24(%rsp)
	movq	%rsi, 32(%rsp)
	movq	%rdx, 40(%rsp)
	movq	(%rcx), %rbx
	movq	8(%rcx), %rdx
	movq	24(%rcx), %r14
	movq	16(%rcx), %r12
	testb	$15, %dl
	movq	%rdx, (%rsp)                    # 8-byte Spill
	je	.Lgcm_v3_BB31_1
# %bb.2:                                # %then.1.i.i
	leaq	24(%rsp), %rdi
	movq	%rbx, %rsi
	xorl	%ecx, %ecx
	movq	%r8, %r15
	movq	%r12, %r8
	movq	%r14, %r9
	callq	gcm_v3.aes_ctr.add_in_batches.add_next.1
	movq	%r15, %r8
	movq	%rax, %rbp
	jmp	.Lgcm_v3_BB31_3
.Lgcm_v3_BB31_1:
	xorl	%ebp, %ebp
.Lgcm_v3_BB31_3:                               # %join.3.i.i
	movq	%r14, 8(%rsp)                   # 8-byte Spill
	movq	%r14, %r15
	subq	%rbp, %r15
	cmpq	$256, %r15                      # imm = 0x100
	jb	.Lgcm_v3_BB31_6
# %bb.4:                                # %join.11.lr.ph.i.i
	movq	%r13, 16(%rsp)                  # 8-byte Spill
	leaq	96(%rsp), %r13
	andq	$-32, %r13
	shrq	$3, %r8
	decq	%r8
	.p2align	4
.Lgcm_v3_BB31_5:                               # %join.11.i.i
                                        # =>This Inner Loop Header: Depth=1
	movbeq	(%rbx), %rsi
	movbeq	8(%rbx), %rax
	movq	(%rsp), %rcx                    # 8-byte Reload
	addq	%rbp, %rcx
	shrq	$4, %rcx
	leal	(%rcx,%rax), %edi
	movabsq	$-4294967296, %rdx              # imm = 0xFFFFFFFF00000000
	andq	%rax, %rdx
	orq	%rdx, %rdi
	vmovq	%rdi, %xmm0
	vmovq	%rsi, %xmm1
	vpunpcklqdq	%xmm1, %xmm0, %xmm0     # xmm0 = xmm0[0],xmm1[0]
	vmovdqu	%ymm0, 48(%rsp)                 # 32-byte Spill
	leal	(%rax,%rcx), %esi
	incl	%esi
	orq	%rdx, %rsi
	vmovq	%rsi, %xmm2
	vpunpcklqdq	%xmm1, %xmm2, %xmm2     # xmm2 = xmm2[0],xmm1[0]
	leal	(%rax,%rcx), %esi
	addl	$2, %esi
	orq	%rdx, %rsi
	vmovq	%rsi, %xmm3
	vpunpcklqdq	%xmm1, %xmm3, %xmm3     # xmm3 = xmm3[0],xmm1[0]
	leal	(%rax,%rcx), %esi
	addl	$3, %esi
	orq	%rdx, %rsi
	vmovq	%rsi, %xmm4
	vpunpcklqdq	%xmm1, %xmm4, %xmm4     # xmm4 = xmm4[0],xmm1[0]
	leal	(%rax,%rcx), %esi
	addl	$4, %esi
	orq	%rdx, %rsi
	vmovq	%rsi, %xmm5
	vpunpcklqdq	%xmm1, %xmm5, %xmm6     # xmm6 = xmm5[0],xmm1[0]
	leal	(%rax,%rcx), %esi
	addl	$5, %esi
	orq	%rdx, %rsi
	vmovq	%rsi, %xmm5
	vpunpcklqdq	%xmm1, %xmm5, %xmm5     # xmm5 = xmm5[0],xmm1[0]
	leal	(%rax,%rcx), %esi
	addl	$6, %esi
	orq	%rdx, %rsi
	vmovq	%rsi, %xmm7
	vpunpcklqdq	%xmm1, %xmm7, %xmm7     # xmm7 = xmm7[0],xmm1[0]
	leal	(%rax,%rcx), %esi
	addl	$7, %esi
	orq	%rdx, %rsi
	vmovq	%rsi, %xmm8
	vpunpcklqdq	%xmm1, %xmm8, %xmm8     # xmm8 = xmm8[0],xmm1[0]
	leal	(%rax,%rcx), %esi
	addl	$8, %esi
	orq	%rdx, %rsi
	vmovq	%rsi, %xmm9
	vpunpcklqdq	%xmm1, %xmm9, %xmm9     # xmm9 = xmm9[0],xmm1[0]
	leal	(%rax,%rcx), %esi
	addl	$9, %esi
	orq	%rdx, %rsi
	vmovq	%rsi, %xmm10
	vpunpcklqdq	%xmm1, %xmm10, %xmm10   # xmm10 = xmm10[0],xmm1[0]
	leal	(%rax,%rcx), %esi
	addl	$10, %esi
	orq	%rdx, %rsi
	vmovq	%rsi, %xmm11
	vpunpcklqdq	%xmm1, %xmm11, %xmm11   # xmm11 = xmm11[0],xmm1[0]
	leal	(%rax,%rcx), %esi
	addl	$11, %esi
	orq	%rdx, %rsi
	vmovq	%rsi, %xmm12
	vpunpcklqdq	%xmm1, %xmm12, %xmm12   # xmm12 = xmm12[0],xmm1[0]
	leal	(%rax,%rcx), %esi
	addl	$12, %esi
	orq	%rdx, %rsi
	vmovq	%rsi, %xmm13
	vpunpcklqdq	%xmm1, %xmm13, %xmm14   # xmm14 = xmm13[0],xmm1[0]
	leal	(%rax,%rcx), %esi
	addl	$13, %esi
	orq	%rdx, %rsi
	vmovq	%rsi, %xmm13
	vpunpcklqdq	%xmm1, %xmm13, %xmm13   # xmm13 = xmm13[0],xmm1[0]
	leal	(%rax,%rcx), %esi
	addl	$14, %esi
	orq	%rdx, %rsi
	vmovq	%rsi, %xmm15
	vpunpcklqdq	%xmm1, %xmm15, %xmm15   # xmm15 = xmm15[0],xmm1[0]
	addl	%ecx, %eax
	addl	$15, %eax
	orq	%rdx, %rax
	vmovq	%rax, %xmm0
	vpunpcklqdq	%xmm1, %xmm0, %xmm0     # xmm0 = xmm0[0],xmm1[0]
	vmovdqu	48(%rsp), %ymm1                 # 32-byte Reload
	vinserti128	$1, %xmm9, %ymm1, %ymm1
	vinserti128	$1, %xmm10, %ymm2, %ymm2
	vinserti128	$1, %xmm11, %ymm3, %ymm3
	vinserti128	$1, %xmm12, %ymm4, %ymm4
	vinserti128	$1, %xmm14, %ymm6, %ymm6
	vbroadcasti128	.Lgcm_v3_CPI31_5(%rip), %ymm9  # ymm9 = [15,11,7,3,14,10,6,2,13,9,5,1,12,8,4,0,15,11,7,3,14,10,6,2,13,9,5,1,12,8,4,0]
                                        # ymm9 = mem[0,1,0,1]
	vpshufb	%ymm9, %ymm1, %ymm1
	vpshufb	%ymm9, %ymm2, %ymm2
	vpshufb	%ymm9, %ymm3, %ymm3
	vpshufb	%ymm9, %ymm4, %ymm4
	vpshufb	%ymm9, %ymm6, %ymm6
	vinserti128	$1, %xmm13, %ymm5, %ymm5
	vpshufb	%ymm9, %ymm5, %ymm5
	vinserti128	$1, %xmm15, %ymm7, %ymm7
	vpshufb	%ymm9, %ymm7, %ymm7
	vinserti128	$1, %xmm0, %ymm8, %ymm0
	vpshufb	%ymm9, %ymm0, %ymm8
	vpsrlw	$1, %ymm1, %ymm0
	vpxor	%ymm0, %ymm2, %ymm0
	vpbroadcastd	.Lgcm_v3_CPI31_6(%rip), %ymm10 # ymm10 = [85,85,85,85,85,85,85,85,85,85,85,85,85,85,85,85,85,85,85,85,85,85,85,85,85,85,85,85,85,85,85,85]
	vpand	%ymm0, %ymm10, %ymm9
	vpxor	%ymm2, %ymm9, %ymm0
	vpaddb	%ymm9, %ymm9, %ymm2
	vpxor	%ymm1, %ymm2, %ymm9
	vpsrlw	$1, %ymm3, %ymm1
	vpxor	%ymm1, %ymm4, %ymm1
	vpand	%ymm1, %ymm10, %ymm1
	vpxor	%ymm4, %ymm1, %ymm4
	vpaddb	%ymm1, %ymm1, %ymm1
	vpxor	%ymm3, %ymm1, %ymm1
	vpsrlw	$1, %ymm6, %ymm2
	vpxor	%ymm2, %ymm5, %ymm2
	vpand	%ymm2, %ymm10, %ymm3
	vpxor	%ymm5, %ymm3, %ymm2
	vpaddb	%ymm3, %ymm3, %ymm3
	vpxor	%ymm6, %ymm3, %ymm3
	vpsrlw	$1, %ymm7, %ymm5
	vpxor	%ymm5, %ymm8, %ymm5
	vpand	%ymm5, %ymm10, %ymm5
	vpxor	%ymm5, %ymm8, %ymm6
	vpaddb	%ymm5, %ymm5, %ymm5
	vpxor	%ymm7, %ymm5, %ymm5
	vpsrlw	$2, %ymm9, %ymm7
	vpxor	%ymm7, %ymm1, %ymm7
	vpbroadcastd	.Lgcm_v3_CPI31_7(%rip), %ymm10 # ymm10 = [51,51,51,51,51,51,51,51,51,51,51,51,51,51,51,51,51,51,51,51,51,51,51,51,51,51,51,51,51,51,51,51]
	vpand	%ymm7, %ymm10, %ymm7
	vpxor	%ymm1, %ymm7, %ymm1
	vpsllw	$2, %ymm7, %ymm7
	vpxor	%ymm7, %ymm9, %ymm7
	vpsrlw	$2, %ymm3, %ymm8
	vpxor	%ymm5, %ymm8, %ymm8
	vpand	%ymm10, %ymm8, %ymm8
	vpxor	%ymm5, %ymm8, %ymm5
	vpsllw	$2, %ymm8, %ymm8
	vpxor	%ymm3, %ymm8, %ymm8
	vpsrlw	$2, %ymm0, %ymm3
	vpxor	%ymm3, %ymm4, %ymm3
	vpand	%ymm3, %ymm10, %ymm9
	vpxor	%ymm4, %ymm9, %ymm3
	vpsllw	$2, %ymm9, %ymm4
	vpxor	%ymm0, %ymm4, %ymm0
	vpsrlw	$2, %ymm2, %ymm4
	vpxor	%ymm4, %ymm6, %ymm4
	vpand	%ymm4, %ymm10, %ymm4
	vpxor	%ymm6, %ymm4, %ymm6
	vpsllw	$2, %ymm4, %ymm4
	vpxor	%ymm2, %ymm4, %ymm2
	vpsrlw	$4, %ymm7, %ymm4
	vpbroadcastd	.Lgcm_v3_CPI31_8(%rip), %ymm9  # ymm9 = [15,15,15,15,15,15,15,15,15,15,15,15,15,15,15,15,15,15,15,15,15,15,15,15,15,15,15,15,15,15,15,15]
	vpxor	%ymm4, %ymm8, %ymm4
	vpand	%ymm4, %ymm9, %ymm4
	vpxor	%ymm4, %ymm8, %ymm8
	vpsllw	$4, %ymm4, %ymm4
	vpxor	%ymm7, %ymm4, %ymm4
	vpsrlw	$4, %ymm0, %ymm7
	vpxor	%ymm7, %ymm2, %ymm7
	vpand	%ymm7, %ymm9, %ymm7
	vpxor	%ymm2, %ymm7, %ymm2
	vpsllw	$4, %ymm7, %ymm7
	vpxor	%ymm0, %ymm7, %ymm0
	vpsrlw	$4, %ymm1, %ymm7
	vpxor	%ymm7, %ymm5, %ymm7
	vpand	%ymm7, %ymm9, %ymm7
	vpxor	%ymm5, %ymm7, %ymm5
	vpsllw	$4, %ymm7, %ymm7
	vpxor	%ymm1, %ymm7, %ymm1
	vpsrlw	$4, %ymm3, %ymm7
	vpxor	%ymm7, %ymm6, %ymm7
	vpand	%ymm7, %ymm9, %ymm7
	vpxor	%ymm6, %ymm7, %ymm6
	vpsllw	$4, %ymm7, %ymm7
	vpxor	%ymm3, %ymm7, %ymm3
	vmovdqa	%ymm4, (%r13)
	vmovdqa	%ymm0, 32(%r13)
	vmovdqa	%ymm1, 64(%r13)
	vmovdqa	%ymm3, 96(%r13)
	vmovdqa	%ymm8, 128(%r13)
	vmovdqa	%ymm2, 160(%r13)
	vmovdqa	%ymm5, 192(%r13)
	vmovdqa	%ymm6, 224(%r13)
	movq	16(%rsp), %rdi                  # 8-byte Reload
	movq	%r8, %rsi
	movq	%r13, %rdx
	movq	%r8, %r14
	vzeroupper
	callq	gcm_v3.aes_soft.soft.ciphers.planes.EncryptPlaneCipher.process_planes
	movq	%r14, %r8
	vmovdqa	(%r13), %ymm3
	vmovdqa	32(%r13), %ymm0
	vmovdqa	64(%r13), %ymm8
	vmovdqa	96(%r13), %ymm2
	vmovdqa	128(%r13), %ymm1
	vmovdqa	160(%r13), %ymm5
	vmovdqa	192(%r13), %ymm4
	vmovdqa	224(%r13), %ymm6
	vpsrlw	$1, %ymm4, %ymm7
	vpxor	%ymm7, %ymm6, %ymm7
	vpbroadcastd	.Lgcm_v3_CPI31_6(%rip), %ymm12 # ymm12 = [85,85,85,85,85,85,85,85,85,85,85,85,85,85,85,85,85,85,85,85,85,85,85,85,85,85,85,85,85,85,85,85]
	vpand	%ymm7, %ymm12, %ymm7
	vpaddb	%ymm7, %ymm7, %ymm9
	vpsrlw	$1, %ymm1, %ymm10
	vpxor	%ymm4, %ymm9, %ymm4
	vpxor	%ymm5, %ymm10, %ymm9
	vpand	%ymm12, %ymm9, %ymm9
	vpaddb	%ymm9, %ymm9, %ymm10
	vpxor	%ymm1, %ymm10, %ymm1
	vpsrlw	$1, %ymm8, %ymm10
	vpxor	%ymm2, %ymm10, %ymm10
	vpsrlw	$1, %ymm3, %ymm11
	vpand	%ymm12, %ymm10, %ymm10
	vpxor	%ymm0, %ymm11, %ymm11
	vpand	%ymm12, %ymm11, %ymm11
	vpaddb	%ymm10, %ymm10, %ymm12
	vpxor	%ymm8, %ymm12, %ymm12
	vpaddb	%ymm11, %ymm11, %ymm8
	vpxor	%ymm3, %ymm8, %ymm3
	vpxor	%ymm6, %ymm7, %ymm6
	vpsrlw	$2, %ymm1, %ymm7
	vpxor	%ymm7, %ymm4, %ymm8
	vpxor	%ymm5, %ymm9, %ymm7
	vpsrlw	$2, %ymm3, %ymm5
	vpbroadcastd	.Lgcm_v3_CPI31_7(%rip), %ymm15 # ymm15 = [51,51,51,51,51,51,51,51,51,51,51,51,51,51,51,51,51,51,51,51,51,51,51,51,51,51,51,51,51,51,51,51]
	vpand	%ymm15, %ymm8, %ymm9
	vpxor	%ymm5, %ymm12, %ymm5
	vpxor	%ymm2, %ymm10, %ymm10
	vpsrlw	$2, %ymm7, %ymm2
	vpand	%ymm5, %ymm15, %ymm13
	vpxor	%ymm2, %ymm6, %ymm2
	vpand	%ymm2, %ymm15, %ymm14
	vmovdqa	%ymm15, %ymm5
	vpxor	%ymm6, %ymm14, %ymm2
	vpxor	%ymm4, %ymm9, %ymm15
	vpxor	%ymm0, %ymm11, %ymm8
	vpsrlw	$2, %ymm8, %ymm0
	vpxor	%ymm0, %ymm10, %ymm0
	vpxor	%ymm12, %ymm13, %ymm6
	vpand	%ymm5, %ymm0, %ymm11
	vpxor	%ymm10, %ymm11, %ymm5
	vpsllw	$2, %ymm9, %ymm0
	vpsrlw	$4, %ymm6, %ymm4
	vpxor	%ymm1, %ymm0, %ymm9
	vpsrlw	$4, %ymm5, %ymm0
	vpxor	%ymm0, %ymm2, %ymm0
	vpxor	%ymm4, %ymm15, %ymm1
	vpbroadcastd	.Lgcm_v3_CPI31_8(%rip), %ymm10 # ymm10 = [15,15,15,15,15,15,15,15,15,15,15,15,15,15,15,15,15,15,15,15,15,15,15,15,15,15,15,15,15,15,15,15]
	vpand	%ymm0, %ymm10, %ymm4
	vpsllw	$2, %ymm13, %ymm0
	vpxor	%ymm3, %ymm0, %ymm12
	vpand	%ymm1, %ymm10, %ymm13
	vmovdqa	%ymm10, %ymm0
	vpsllw	$2, %ymm14, %ymm1
	vpxor	%ymm7, %ymm1, %ymm7
	vpxor	%ymm15, %ymm13, %ymm1
	vpsrlw	$4, %ymm12, %ymm3
	vpxor	%ymm3, %ymm9, %ymm3
	vpsllw	$2, %ymm11, %ymm10
	vpand	%ymm0, %ymm3, %ymm11
	vpxor	%ymm8, %ymm10, %ymm14
	vpsrlw	$4, %ymm14, %ymm3
	vpxor	%ymm3, %ymm7, %ymm8
	vpxor	%ymm9, %ymm11, %ymm3
	vpand	%ymm0, %ymm8, %ymm10
	vpsllw	$4, %ymm13, %ymm13
	vpsllw	$4, %ymm11, %ymm8
	vpxor	%ymm12, %ymm8, %ymm8
	vpsllw	$4, %ymm10, %ymm9
	vpxor	%ymm14, %ymm9, %ymm9
	vinserti128	$1, %xmm9, %ymm8, %ymm11
	vpxor	%ymm6, %ymm13, %ymm6
	vbroadcasti128	.Lgcm_v3_CPI31_9(%rip), %ymm0  # ymm0 = [0,4,8,12,1,5,9,13,2,6,10,14,3,7,11,15,0,4,8,12,1,5,9,13,2,6,10,14,3,7,11,15]
                                        # ymm0 = mem[0,1,0,1]
	vpshufb	%ymm0, %ymm11, %ymm11
	vpxor	(%r12,%rbp), %xmm11, %xmm12
	vpsllw	$4, %ymm4, %ymm13
	vpxor	%ymm5, %ymm13, %ymm5
	vmovdqu	%xmm12, (%r12,%rbp)
	vinserti128	$1, %xmm5, %ymm6, %ymm12
	vextracti128	$1, %ymm11, %xmm11
	vpxor	16(%r12,%rbp), %xmm11, %xmm11
	vpshufb	%ymm0, %ymm12, %ymm12
	vmovdqu	%xmm11, 16(%r12,%rbp)
	vpxor	32(%r12,%rbp), %xmm12, %xmm11
	vpxor	%ymm7, %ymm10, %ymm7
	vmovdqu	%xmm11, 32(%r12,%rbp)
	vinserti128	$1, %xmm7, %ymm3, %ymm10
	vextracti128	$1, %ymm12, %xmm11
	vpxor	48(%r12,%rbp), %xmm11, %xmm11
	vpshufb	%ymm0, %ymm10, %ymm10
	vmovdqu	%xmm11, 48(%r12,%rbp)
	vpxor	64(%r12,%rbp), %xmm10, %xmm11
	vpxor	%ymm2, %ymm4, %ymm2
	vmovdqu	%xmm11, 64(%r12,%rbp)
	vinserti128	$1, %xmm2, %ymm1, %ymm4
	vextracti128	$1, %ymm10, %xmm10
	vpxor	80(%r12,%rbp), %xmm10, %xmm10
	vpshufb	%ymm0, %ymm4, %ymm4
	vmovdqu	%xmm10, 80(%r12,%rbp)
	vpxor	96(%r12,%rbp), %xmm4, %xmm10
	vmovdqu	%xmm10, 96(%r12,%rbp)
	vperm2i128	$49, %ymm9, %ymm8, %ymm8 # ymm8 = ymm8[2,3],ymm9[2,3]
	vextracti128	$1, %ymm4, %xmm4
	vpxor	112(%r12,%rbp), %xmm4, %xmm4
	vpshufb	%ymm0, %ymm8, %ymm8
	vmovdqu	%xmm4, 112(%r12,%rbp)
	vpxor	128(%r12,%rbp), %xmm8, %xmm4
	vmovdqu	%xmm4, 128(%r12,%rbp)
	vperm2i128	$49, %ymm5, %ymm6, %ymm4 # ymm4 = ymm6[2,3],ymm5[2,3]
	vextracti128	$1, %ymm8, %xmm5
	vpxor	144(%r12,%rbp), %xmm5, %xmm5
	vpshufb	%ymm0, %ymm4, %ymm4
	vmovdqu	%xmm5, 144(%r12,%rbp)
	vpxor	160(%r12,%rbp), %xmm4, %xmm5
	vmovdqu	%xmm5, 160(%r12,%rbp)
	vperm2i128	$49, %ymm7, %ymm3, %ymm3 # ymm3 = ymm3[2,3],ymm7[2,3]
	vextracti128	$1, %ymm4, %xmm4
	vpxor	176(%r12,%rbp), %xmm4, %xmm4
	vpshufb	%ymm0, %ymm3, %ymm3
	vmovdqu	%xmm4, 176(%r12,%rbp)
	vpxor	192(%r12,%rbp), %xmm3, %xmm4
	vmovdqu	%xmm4, 192(%r12,%rbp)
	vperm2i128	$49, %ymm2, %ymm1, %ymm1 # ymm1 = ymm1[2,3],ymm2[2,3]
	vpshufb	%ymm0, %ymm1, %ymm0
	vextracti128	$1, %ymm3, %xmm1
	vpxor	208(%r12,%rbp), %xmm1, %xmm1
	vmovdqu	%xmm1, 208(%r12,%rbp)
	vpxor	224(%r12,%rbp), %xmm0, %xmm1
	vmovdqu	%xmm1, 224(%r12,%rbp)
	vextracti128	$1, %ymm0, %xmm0
	vpxor	240(%r12,%rbp), %xmm0, %xmm0
	vmovdqu	%xmm0, 240(%r12,%rbp)
	addq	$256, %rbp                      # imm = 0x100
	addq	$-256, %r15
	cmpq	$255, %r15
	ja	.Lgcm_v3_BB31_5
.Lgcm_v3_BB31_6:                               # %loop.13.preheader.i.i
	movq	8(%rsp), %r14                   # 8-byte Reload
	cmpq	%r14, %rbp
	movq	(%rsp), %r15                    # 8-byte Reload
	jae	.Lgcm_v3_BB31_8
	.p2align	4
.Lgcm_v3_BB31_7:                               # %join.16.i.i
                                        # =>This Inner Loop Header: Depth=1
	leaq	24(%rsp), %rdi
	movq	%rbx, %rsi
	movq	%r15, %rdx
	movq	%rbp, %rcx
	movq	%r12, %r8
	movq	%r14, %r9
	vzeroupper
	callq	gcm_v3.aes_ctr.add_in_batches.add_next.1
	movq	%rax, %rbp
	cmpq	%r14, %rax
	jb	.Lgcm_v3_BB31_7
.Lgcm_v3_BB31_8:                               # %"aes_ctr::add_in_batches::AddStreamBlockCipherEncClosure::call::<#01bf3d9a403ee63e>.exit"
	addq	$360, %rsp                      # imm = 0x168
	popq	%rbx
	popq	%r12
	popq	%r13
	popq	%r14
	popq	%r15
	popq	%rbp
	vzeroupper
	retq
.Lgcm_v3_func_end31:
	.size	gcm_v3.aes_hybrid.closures.call_to_work.1, .Lgcm_v3_func_end31-gcm_v3.aes_hybrid.closures.call_to_work.1
                                        # -- End function
	.section	.rodata.cst16,"aM",@progbits,16
	.p2align	4, 0x0                          # -- Begin function aes_ctr::add_in_batches::add_next::<#8e0f298df4a3f938>
.Lgcm_v3_CPI32_0:
	.byte	15                              # 0xf
	.byte	14                              # 0xe
	.byte	13                              # 0xd
	.byte	12                              # 0xc
	.byte	11                              # 0xb
	.byte	10                              # 0xa
	.byte	9                               # 0x9
	.byte	8                               # 0x8
	.byte	7                               # 0x7
	.byte	6                               # 0x6
	.byte	5                               # 0x5
	.byte	4                               # 0x4
	.byte	3                               # 0x3
	.byte	2                               # 0x2
	.byte	1                               # 0x1
	.byte	0                               # 0x0
.Lgcm_v3_CPI32_5:
	.byte	0                               # 0x0
	.byte	4                               # 0x4
	.byte	8                               # 0x8
	.byte	12                              # 0xc
	.byte	1                               # 0x1
	.byte	5                               # 0x5
	.byte	9                               # 0x9
	.byte	13                              # 0xd
	.byte	2                               # 0x2
	.byte	6                               # 0x6
	.byte	10                              # 0xa
	.byte	14                              # 0xe
	.byte	3                               # 0x3
	.byte	7                               # 0x7
	.byte	11                              # 0xb
	.byte	15                              # 0xf
	.section	.rodata.cst32,"aM",@progbits,32
	.p2align	5, 0x0
.Lgcm_v3_CPI32_1:
	.byte	0                               # 0x0
	.byte	4                               # 0x4
	.byte	8                               # 0x8
	.byte	12                              # 0xc
	.byte	1                               # 0x1
	.byte	5                               # 0x5
	.byte	9                               # 0x9
	.byte	13                              # 0xd
	.byte	2                               # 0x2
	.byte	6                               # 0x6
	.byte	10                              # 0xa
	.byte	14                              # 0xe
	.byte	3                               # 0x3
	.byte	7                               # 0x7
	.byte	11                              # 0xb
	.byte	15                              # 0xf
	.byte	0                               # 0x0
	.byte	4                               # 0x4
	.byte	8                               # 0x8
	.byte	12                              # 0xc
	.byte	1                               # 0x1
	.byte	5                               # 0x5
	.byte	9                               # 0x9
	.byte	13                              # 0xd
	.byte	2                               # 0x2
	.byte	6                               # 0x6
	.byte	10                              # 0xa
	.byte	14                              # 0xe
	.byte	3                               # 0x3
	.byte	7                               # 0x7
	.byte	11                              # 0xb
	.byte	15                              # 0xf
.Lgcm_v3_CPI32_2:
	.zero	32,85
.Lgcm_v3_CPI32_3:
	.zero	32,51
.Lgcm_v3_CPI32_4:
	.zero	32,15
	.section	.rodata.cst4,"aM",@progbits,4
	.p2align	2, 0x0
.Lgcm_v3_CPI32_6:
	.zero	4,85
.Lgcm_v3_CPI32_7:
	.zero	4,51
.Lgcm_v3_CPI32_8:
	.zero	4,15
	.section	.text.gcm_v3.aes_ctr.add_in_batches.add_next.1,"ax",@progbits
	.p2align	4
	.type	gcm_v3.aes_ctr.add_in_batches.add_next.1,@function
gcm_v3.aes_ctr.add_in_batches.add_next.1: # @gcm_v3.aes_ctr.add_in_batches.add_next.1
# %bb.0:                                # %start
	pushq	%rbp
	pushq	%r15
	pushq	%r14
	pushq	%r13
	pushq	%r12
	pushq	%rbx
	subq	$536, %rsp                      # imm = 0x218
	vxorps	%xmm0, %xmm0, %xmm0
	vmovups	%ymm0, 224(%rsp)
	vmovups	%ymm0, 192(%rsp)
	vmovups	%ymm0, 160(%rsp)
	vmovups	%ymm0, 128(%rsp)
	vmovups	%ymm0, 96(%rsp)
	vmovups	%ymm0, 64(%rsp)
	vmovups	%ymm0, 32(%rsp)
	vmovups	%ymm0, (%rsp)
	movbeq	(%rsi), %r10
	movq	%rcx, %rbx
	movq	%rdx, %r14
	movbeq	8(%rsi), %rax
	addq	%rcx, %r14
	movq	%r14, %rcx
	shrq	$4, %rcx
	leal	(%rcx,%rax), %esi
	movabsq	$-4294967296, %rdx              # imm = 0xFFFFFFFF00000000
	andq	%rax, %rdx
	orq	%rdx, %rsi
	vmovq	%rsi, %xmm1
	vmovq	%r10, %xmm0
	vpunpcklqdq	%xmm0, %xmm1, %xmm2     # xmm2 = xmm1[0],xmm0[0]
	vmovdqa	.Lgcm_v3_CPI32_0(%rip), %xmm1          # xmm1 = [15,14,13,12,11,10,9,8,7,6,5,4,3,2,1,0]
	vpshufb	%xmm1, %xmm2, %xmm2
	vmovdqa	%xmm2, (%rsp)
	leal	(%rax,%rcx), %esi
	incl	%esi
	orq	%rdx, %rsi
	vmovq	%rsi, %xmm2
	vpunpcklqdq	%xmm0, %xmm2, %xmm2     # xmm2 = xmm2[0],xmm0[0]
	vpshufb	%xmm1, %xmm2, %xmm2
	vmovdqa	%xmm2, 16(%rsp)
	leal	(%rax,%rcx), %esi
	addl	$2, %esi
	orq	%rdx, %rsi
	vmovq	%rsi, %xmm2
	vpunpcklqdq	%xmm0, %xmm2, %xmm2     # xmm2 = xmm2[0],xmm0[0]
	vpshufb	%xmm1, %xmm2, %xmm2
	vmovdqa	%xmm2, 32(%rsp)
	leal	(%rax,%rcx), %esi
	addl	$3, %esi
	orq	%rdx, %rsi
	vmovq	%rsi, %xmm2
	vpunpcklqdq	%xmm0, %xmm2, %xmm2     # xmm2 = xmm2[0],xmm0[0]
	vpshufb	%xmm1, %xmm2, %xmm2
	vmovdqa	%xmm2, 48(%rsp)
	leal	(%rax,%rcx), %esi
	addl	$4, %esi
	orq	%rdx, %rsi
	vmovq	%rsi, %xmm2
	vpunpcklqdq	%xmm0, %xmm2, %xmm2     # xmm2 = xmm2[0],xmm0[0]
	vpshufb	%xmm1, %xmm2, %xmm2
	vmovdqa	%xmm2, 64(%rsp)
	leal	(%rax,%rcx), %esi
	addl	$5, %esi
	orq	%rdx, %rsi
	vmovq	%rsi, %xmm2
	vpunpcklqdq	%xmm0, %xmm2, %xmm2     # xmm2 = xmm2[0],xmm0[0]
	vpshufb	%xmm1, %xmm2, %xmm2
	vmovdqa	%xmm2, 80(%rsp)
	leal	(%rax,%rcx), %esi
	addl	$6, %esi
	orq	%rdx, %rsi
	vmovq	%rsi, %xmm2
	vpunpcklqdq	%xmm0, %xmm2, %xmm2     # xmm2 = xmm2[0],xmm0[0]
	vpshufb	%xmm1, %xmm2, %xmm2
	vmovdqa	%xmm2, 96(%rsp)
	leal	(%rax,%rcx), %esi
	addl	$7, %esi
	orq	%rdx, %rsi
	vmovq	%rsi, %xmm2
	vpunpcklqdq	%xmm0, %xmm2, %xmm2     # xmm2 = xmm2[0],xmm0[0]
	vpshufb	%xmm1, %xmm2, %xmm2
	vmovdqa	%xmm2, 112(%rsp)
	leal	(%rax,%rcx), %esi
	addl	$8, %esi
	orq	%rdx, %rsi
	vmovq	%rsi, %xmm2
	vpunpcklqdq	%xmm0, %xmm2, %xmm2     # xmm2 = xmm2[0],xmm0[0]
	vpshufb	%xmm1, %xmm2, %xmm2
	vmovdqa	%xmm2, 128(%rsp)
	leal	(%rax,%rcx), %esi
	addl	$9, %esi
	orq	%rdx, %rsi
	vmovq	%rsi, %xmm2
	vpunpcklqdq	%xmm0, %xmm2, %xmm2     # xmm2 = xmm2[0],xmm0[0]
	vpshufb	%xmm1, %xmm2, %xmm2
	vmovdqa	%xmm2, 144(%rsp)
	leal	(%rax,%rcx), %esi
	addl	$10, %esi
	orq	%rdx, %rsi
	vmovq	%rsi, %xmm2
	vpunpcklqdq	%xmm0, %xmm2, %xmm2     # xmm2 = xmm2[0],xmm0[0]
	vpshufb	%xmm1, %xmm2, %xmm2
	vmovdqa	%xmm2, 160(%rsp)
	leal	(%rax,%rcx), %esi
	addl	$11, %esi
	orq	%rdx, %rsi
	vmovq	%rsi, %xmm2
	vpunpcklqdq	%xmm0, %xmm2, %xmm2     # xmm2 = xmm2[0],xmm0[0]
	vpshufb	%xmm1, %xmm2, %xmm2
	vmovdqa	%xmm2, 176(%rsp)
	leal	(%rax,%rcx), %esi
	addl	$12, %esi
	orq	%rdx, %rsi
	vmovq	%rsi, %xmm2
	vpunpcklqdq	%xmm0, %xmm2, %xmm2     # xmm2 = xmm2[0],xmm0[0]
	vpshufb	%xmm1, %xmm2, %xmm2
	vmovdqa	%xmm2, 192(%rsp)
	leal	(%rax,%rcx), %esi
	addl	$13, %esi
	orq	%rdx, %rsi
	vmovq	%rsi, %xmm2
	vpunpcklqdq	%xmm0, %xmm2, %xmm2     # xmm2 = xmm2[0],xmm0[0]
	vpshufb	%xmm1, %xmm2, %xmm2
	vmovdqa	%xmm2, 208(%rsp)
	movq	%r9, %r13
	movq	%r8, %r12
	leal	(%rax,%rcx), %esi
	addl	$14, %esi
	orq	%rdx, %rsi
	vmovq	%rsi, %xmm2
	vpunpcklqdq	%xmm0, %xmm2, %xmm2     # xmm2 = xmm2[0],xmm0[0]
	vpshufb	%xmm1, %xmm2, %xmm2
	vmovdqa	%xmm2, 224(%rsp)
	addl	%ecx, %eax
	addl	$15, %eax
	orq	%rdx, %rax
	vmovq	%rax, %xmm2
	vpunpcklqdq	%xmm0, %xmm2, %xmm0     # xmm0 = xmm2[0],xmm0[0]
	vpshufb	%xmm1, %xmm0, %xmm0
	vmovdqa	%xmm0, 240(%rsp)
	andl	$15, %r14d
	movl	$256, %eax                      # imm = 0x100
	subq	%r14, %rax
	movq	%r9, %r15
	subq	%rbx, %r15
	cmpq	%rax, %r15
	cmovaeq	%rax, %r15
	leaq	(%r15,%r14), %rcx
	cmpq	$192, %rcx
	ja	.Lgcm_v3_BB32_2
# %bb.1:                                # %then.1.i.i
	addq	$15, %rcx
	shrq	$4, %rcx
	movq	(%rdi), %rax
	movq	16(%rax), %rdi
	movq	24(%rax), %rsi
	movq	%rsp, %rdx
	vzeroupper
	callq	gcm_v3.aes_permute.blocks.process_on_lanes
	leaq	(%r12,%rbx), %rax
	testq	%r14, %r14
	je	.Lgcm_v3_BB32_4
.Lgcm_v3_BB32_5:                               # %then.1.i
	movl	$16, %ecx
	subq	%r14, %rcx
	cmpq	%rcx, %r15
	cmovbq	%r15, %rcx
	cmpq	%rbx, %r13
	je	.Lgcm_v3_BB32_13
# %bb.6:                                # %join.8.i80.lr.ph
	movl	%ecx, %edx
	andl	$7, %edx
	cmpq	$8, %rcx
	jae	.Lgcm_v3_BB32_8
# %bb.7:
	xorl	%esi, %esi
	jmp	.Lgcm_v3_BB32_11
.Lgcm_v3_BB32_2:                               # %else.2.i.i
	vmovdqu	(%rsp), %ymm0
	vmovdqu	16(%rsp), %ymm1
	vmovdqu	32(%rsp), %ymm2
	vmovdqu	48(%rsp), %ymm3
	vinserti128	$1, 128(%rsp), %ymm0, %ymm0
	vinserti128	$1, 144(%rsp), %ymm1, %ymm1
	vinserti128	$1, 160(%rsp), %ymm2, %ymm2
	vinserti128	$1, 176(%rsp), %ymm3, %ymm3
	vmovdqu	64(%rsp), %ymm4
	vinserti128	$1, 192(%rsp), %ymm4, %ymm4
	vmovdqu	80(%rsp), %ymm5
	vinserti128	$1, 208(%rsp), %ymm5, %ymm5
	movq	%rdi, %rax
	movq	8(%rdi), %rdi
	vmovdqu	96(%rsp), %ymm6
	vinserti128	$1, 224(%rsp), %ymm6, %ymm6
	movq	16(%rax), %rsi
	vmovdqu	112(%rsp), %ymm7
	vinserti128	$1, 240(%rsp), %ymm7, %ymm7
	leaq	272(%rsp), %rbp
	andq	$-32, %rbp
	shrq	$3, %rsi
	decq	%rsi
	vbroadcasti128	.Lgcm_v3_CPI32_5(%rip), %ymm9  # ymm9 = [0,4,8,12,1,5,9,13,2,6,10,14,3,7,11,15,0,4,8,12,1,5,9,13,2,6,10,14,3,7,11,15]
                                        # ymm9 = mem[0,1,0,1]
	vpshufb	%ymm9, %ymm0, %ymm8
	vpshufb	%ymm9, %ymm1, %ymm0
	vpshufb	%ymm9, %ymm2, %ymm1
	vpshufb	%ymm9, %ymm3, %ymm2
	vpshufb	%ymm9, %ymm4, %ymm3
	vpshufb	%ymm9, %ymm5, %ymm4
	vpshufb	%ymm9, %ymm6, %ymm5
	vpshufb	%ymm9, %ymm7, %ymm6
	vpsrlw	$1, %ymm8, %ymm7
	vpxor	%ymm7, %ymm0, %ymm7
	vpbroadcastd	.Lgcm_v3_CPI32_6(%rip), %ymm10 # ymm10 = [85,85,85,85,85,85,85,85,85,85,85,85,85,85,85,85,85,85,85,85,85,85,85,85,85,85,85,85,85,85,85,85]
	vpand	%ymm7, %ymm10, %ymm7
	vpxor	%ymm0, %ymm7, %ymm0
	vpaddb	%ymm7, %ymm7, %ymm7
	vpxor	%ymm7, %ymm8, %ymm7
	vpsrlw	$1, %ymm1, %ymm8
	vpxor	%ymm2, %ymm8, %ymm8
	vpand	%ymm10, %ymm8, %ymm8
	vpxor	%ymm2, %ymm8, %ymm9
	vpaddb	%ymm8, %ymm8, %ymm2
	vpxor	%ymm1, %ymm2, %ymm1
	vpsrlw	$1, %ymm3, %ymm2
	vpxor	%ymm2, %ymm4, %ymm2
	vpand	%ymm2, %ymm10, %ymm8
	vpxor	%ymm4, %ymm8, %ymm2
	vpaddb	%ymm8, %ymm8, %ymm4
	vpxor	%ymm3, %ymm4, %ymm3
	vpsrlw	$1, %ymm5, %ymm4
	vpxor	%ymm4, %ymm6, %ymm4
	vpand	%ymm4, %ymm10, %ymm4
	vpxor	%ymm6, %ymm4, %ymm6
	vpaddb	%ymm4, %ymm4, %ymm4
	vpxor	%ymm5, %ymm4, %ymm4
	vpsrlw	$2, %ymm7, %ymm5
	vpxor	%ymm5, %ymm1, %ymm5
	vpbroadcastd	.Lgcm_v3_CPI32_7(%rip), %ymm10 # ymm10 = [51,51,51,51,51,51,51,51,51,51,51,51,51,51,51,51,51,51,51,51,51,51,51,51,51,51,51,51,51,51,51,51]
	vpand	%ymm5, %ymm10, %ymm5
	vpxor	%ymm1, %ymm5, %ymm1
	vpsllw	$2, %ymm5, %ymm5
	vpxor	%ymm7, %ymm5, %ymm5
	vpsrlw	$2, %ymm3, %ymm7
	vpxor	%ymm7, %ymm4, %ymm7
	vpand	%ymm7, %ymm10, %ymm7
	vpxor	%ymm4, %ymm7, %ymm4
	vpsllw	$2, %ymm7, %ymm7
	vpxor	%ymm3, %ymm7, %ymm7
	vpsrlw	$2, %ymm0, %ymm3
	vpxor	%ymm3, %ymm9, %ymm3
	vpand	%ymm3, %ymm10, %ymm8
	vpxor	%ymm9, %ymm8, %ymm3
	vpsllw	$2, %ymm8, %ymm8
	vpxor	%ymm0, %ymm8, %ymm0
	vpsrlw	$2, %ymm2, %ymm8
	vpxor	%ymm6, %ymm8, %ymm8
	vpand	%ymm10, %ymm8, %ymm8
	vpxor	%ymm6, %ymm8, %ymm6
	vpsllw	$2, %ymm8, %ymm8
	vpxor	%ymm2, %ymm8, %ymm2
	vpsrlw	$4, %ymm5, %ymm8
	vpbroadcastd	.Lgcm_v3_CPI32_8(%rip), %ymm9  # ymm9 = [15,15,15,15,15,15,15,15,15,15,15,15,15,15,15,15,15,15,15,15,15,15,15,15,15,15,15,15,15,15,15,15]
	vpxor	%ymm7, %ymm8, %ymm8
	vpand	%ymm9, %ymm8, %ymm8
	vpxor	%ymm7, %ymm8, %ymm7
	vpsllw	$4, %ymm8, %ymm8
	vpxor	%ymm5, %ymm8, %ymm5
	vpsrlw	$4, %ymm0, %ymm8
	vpxor	%ymm2, %ymm8, %ymm8
	vpand	%ymm9, %ymm8, %ymm8
	vpxor	%ymm2, %ymm8, %ymm2
	vpsllw	$4, %ymm8, %ymm8
	vpxor	%ymm0, %ymm8, %ymm0
	vpsrlw	$4, %ymm1, %ymm8
	vpxor	%ymm4, %ymm8, %ymm8
	vpand	%ymm9, %ymm8, %ymm8
	vpxor	%ymm4, %ymm8, %ymm4
	vpsllw	$4, %ymm8, %ymm8
	vpxor	%ymm1, %ymm8, %ymm1
	vpsrlw	$4, %ymm3, %ymm8
	vpxor	%ymm6, %ymm8, %ymm8
	vpand	%ymm9, %ymm8, %ymm8
	vpxor	%ymm6, %ymm8, %ymm6
	vpsllw	$4, %ymm8, %ymm8
	vpxor	%ymm3, %ymm8, %ymm3
	vmovdqa	%ymm5, (%rbp)
	vmovdqa	%ymm0, 32(%rbp)
	vmovdqa	%ymm1, 64(%rbp)
	vmovdqa	%ymm3, 96(%rbp)
	vmovdqa	%ymm7, 128(%rbp)
	vmovdqa	%ymm2, 160(%rbp)
	vmovdqa	%ymm4, 192(%rbp)
	vmovdqa	%ymm6, 224(%rbp)
	movq	%rbp, %rdx
	vzeroupper
	callq	gcm_v3.aes_soft.soft.ciphers.planes.EncryptPlaneCipher.process_planes
	vmovdqa	(%rbp), %ymm1
	vmovdqa	32(%rbp), %ymm0
	vmovdqa	64(%rbp), %ymm2
	vmovdqa	96(%rbp), %ymm3
	vmovdqa	128(%rbp), %ymm4
	vmovdqa	160(%rbp), %ymm5
	vmovdqa	192(%rbp), %ymm6
	vmovdqa	224(%rbp), %ymm7
	vpsrlw	$1, %ymm1, %ymm8
	vpxor	%ymm0, %ymm8, %ymm8
	vpbroadcastd	.Lgcm_v3_CPI32_6(%rip), %ymm9  # ymm9 = [85,85,85,85,85,85,85,85,85,85,85,85,85,85,85,85,85,85,85,85,85,85,85,85,85,85,85,85,85,85,85,85]
	vpand	%ymm9, %ymm8, %ymm8
	vpxor	%ymm0, %ymm8, %ymm0
	vpaddb	%ymm8, %ymm8, %ymm8
	vpxor	%ymm1, %ymm8, %ymm8
	vpsrlw	$1, %ymm2, %ymm1
	vpxor	%ymm1, %ymm3, %ymm1
	vpand	%ymm1, %ymm9, %ymm1
	vpxor	%ymm3, %ymm1, %ymm3
	vpaddb	%ymm1, %ymm1, %ymm1
	vpxor	%ymm2, %ymm1, %ymm1
	vpsrlw	$1, %ymm4, %ymm2
	vpxor	%ymm2, %ymm5, %ymm2
	vpand	%ymm2, %ymm9, %ymm2
	vpxor	%ymm5, %ymm2, %ymm5
	vpaddb	%ymm2, %ymm2, %ymm2
	vpxor	%ymm4, %ymm2, %ymm2
	vpsrlw	$1, %ymm6, %ymm4
	vpxor	%ymm4, %ymm7, %ymm4
	vpand	%ymm4, %ymm9, %ymm4
	vpxor	%ymm7, %ymm4, %ymm7
	vpaddb	%ymm4, %ymm4, %ymm4
	vpxor	%ymm6, %ymm4, %ymm4
	vpsrlw	$2, %ymm8, %ymm6
	vpxor	%ymm6, %ymm1, %ymm6
	vpbroadcastd	.Lgcm_v3_CPI32_7(%rip), %ymm10 # ymm10 = [51,51,51,51,51,51,51,51,51,51,51,51,51,51,51,51,51,51,51,51,51,51,51,51,51,51,51,51,51,51,51,51]
	vpand	%ymm6, %ymm10, %ymm6
	vpxor	%ymm1, %ymm6, %ymm1
	vpsllw	$2, %ymm6, %ymm6
	vpxor	%ymm6, %ymm8, %ymm6
	vpsrlw	$2, %ymm2, %ymm8
	vpxor	%ymm4, %ymm8, %ymm8
	vpand	%ymm10, %ymm8, %ymm8
	vpxor	%ymm4, %ymm8, %ymm4
	vpsllw	$2, %ymm8, %ymm8
	vpxor	%ymm2, %ymm8, %ymm2
	vpsrlw	$2, %ymm0, %ymm8
	vpxor	%ymm3, %ymm8, %ymm8
	vpand	%ymm10, %ymm8, %ymm8
	vpxor	%ymm3, %ymm8, %ymm9
	vpsllw	$2, %ymm8, %ymm3
	vpxor	%ymm0, %ymm3, %ymm8
	vpsrlw	$2, %ymm5, %ymm0
	vpxor	%ymm0, %ymm7, %ymm0
	vpand	%ymm0, %ymm10, %ymm0
	vpxor	%ymm7, %ymm0, %ymm7
	vpsllw	$2, %ymm0, %ymm0
	vpxor	%ymm5, %ymm0, %ymm5
	vpsrlw	$4, %ymm6, %ymm0
	vpxor	%ymm0, %ymm2, %ymm0
	vpbroadcastd	.Lgcm_v3_CPI32_8(%rip), %ymm10 # ymm10 = [15,15,15,15,15,15,15,15,15,15,15,15,15,15,15,15,15,15,15,15,15,15,15,15,15,15,15,15,15,15,15,15]
	vpand	%ymm0, %ymm10, %ymm3
	vpxor	%ymm2, %ymm3, %ymm0
	vpsllw	$4, %ymm3, %ymm2
	vpxor	%ymm6, %ymm2, %ymm3
	vpsrlw	$4, %ymm8, %ymm2
	vpxor	%ymm2, %ymm5, %ymm2
	vpand	%ymm2, %ymm10, %ymm6
	vpxor	%ymm5, %ymm6, %ymm2
	vpsllw	$4, %ymm6, %ymm5
	vpxor	%ymm5, %ymm8, %ymm5
	vpsrlw	$4, %ymm1, %ymm6
	vpxor	%ymm6, %ymm4, %ymm6
	vpand	%ymm6, %ymm10, %ymm6
	vpxor	%ymm4, %ymm6, %ymm4
	vpsllw	$4, %ymm6, %ymm6
	vpxor	%ymm1, %ymm6, %ymm1
	vpsrlw	$4, %ymm9, %ymm6
	vpxor	%ymm6, %ymm7, %ymm6
	vpand	%ymm6, %ymm10, %ymm6
	vpxor	%ymm7, %ymm6, %ymm7
	vpsllw	$4, %ymm6, %ymm6
	vpxor	%ymm6, %ymm9, %ymm6
	vinserti128	$1, %xmm5, %ymm3, %ymm8
	vbroadcasti128	.Lgcm_v3_CPI32_5(%rip), %ymm9  # ymm9 = [0,4,8,12,1,5,9,13,2,6,10,14,3,7,11,15,0,4,8,12,1,5,9,13,2,6,10,14,3,7,11,15]
                                        # ymm9 = mem[0,1,0,1]
	vpshufb	%ymm9, %ymm8, %ymm8
	vmovdqu	%ymm8, (%rsp)
	vinserti128	$1, %xmm6, %ymm1, %ymm8
	vpshufb	%ymm9, %ymm8, %ymm8
	vmovdqu	%ymm8, 32(%rsp)
	vinserti128	$1, %xmm2, %ymm0, %ymm8
	vpshufb	%ymm9, %ymm8, %ymm8
	vmovdqu	%ymm8, 64(%rsp)
	vinserti128	$1, %xmm7, %ymm4, %ymm8
	vpshufb	%ymm9, %ymm8, %ymm8
	vmovdqu	%ymm8, 96(%rsp)
	vperm2i128	$49, %ymm5, %ymm3, %ymm3 # ymm3 = ymm3[2,3],ymm5[2,3]
	vpshufb	%ymm9, %ymm3, %ymm3
	vmovdqu	%ymm3, 128(%rsp)
	vperm2i128	$49, %ymm6, %ymm1, %ymm1 # ymm1 = ymm1[2,3],ymm6[2,3]
	vpshufb	%ymm9, %ymm1, %ymm1
	vmovdqu	%ymm1, 160(%rsp)
	vperm2i128	$49, %ymm2, %ymm0, %ymm0 # ymm0 = ymm0[2,3],ymm2[2,3]
	vpshufb	%ymm9, %ymm0, %ymm0
	vmovdqu	%ymm0, 192(%rsp)
	vperm2i128	$49, %ymm7, %ymm4, %ymm0 # ymm0 = ymm4[2,3],ymm7[2,3]
	vpshufb	%ymm9, %ymm0, %ymm0
	vmovdqu	%ymm0, 224(%rsp)
	leaq	(%r12,%rbx), %rax
	testq	%r14, %r14
	jne	.Lgcm_v3_BB32_5
.Lgcm_v3_BB32_4:
	xorl	%ecx, %ecx
	jmp	.Lgcm_v3_BB32_13
.Lgcm_v3_BB32_8:                               # %join.8.i80.lr.ph.new
	movl	%ecx, %edi
	andl	$24, %edi
	movq	%rsp, %rsi
	leaq	(%r14,%rsi), %r8
	addq	$7, %r8
	leaq	(%rbx,%r12), %r9
	addq	$7, %r9
	xorl	%esi, %esi
	.p2align	4
.Lgcm_v3_BB32_9:                               # %join.8.i80
                                        # =>This Inner Loop Header: Depth=1
	movzbl	-7(%r8,%rsi), %r10d
	xorb	%r10b, -7(%r9,%rsi)
	movzbl	-6(%r8,%rsi), %r10d
	xorb	%r10b, -6(%r9,%rsi)
	movzbl	-5(%r8,%rsi), %r10d
	xorb	%r10b, -5(%r9,%rsi)
	movzbl	-4(%r8,%rsi), %r10d
	xorb	%r10b, -4(%r9,%rsi)
	movzbl	-3(%r8,%rsi), %r10d
	xorb	%r10b, -3(%r9,%rsi)
	movzbl	-2(%r8,%rsi), %r10d
	xorb	%r10b, -2(%r9,%rsi)
	movzbl	-1(%r8,%rsi), %r10d
	xorb	%r10b, -1(%r9,%rsi)
	movzbl	(%r8,%rsi), %r10d
	xorb	%r10b, (%r9,%rsi)
	addq	$8, %rsi
	cmpq	%rsi, %rdi
	jne	.Lgcm_v3_BB32_9
# %bb.10:                               # %join.3.i.loopexit.unr-lcssa
	testq	%rdx, %rdx
	je	.Lgcm_v3_BB32_13
.Lgcm_v3_BB32_11:                              # %join.8.i80.epil.preheader
	leaq	(%rax,%rsi), %rdi
	addq	%r14, %rsi
	addq	%rsp, %rsi
	xorl	%r8d, %r8d
	.p2align	4
.Lgcm_v3_BB32_12:                              # %join.8.i80.epil
                                        # =>This Inner Loop Header: Depth=1
	movzbl	(%rsi,%r8), %r9d
	xorb	%r9b, (%rdi,%r8)
	incq	%r8
	cmpq	%r8, %rdx
	jne	.Lgcm_v3_BB32_12
.Lgcm_v3_BB32_13:                              # %join.3.i
	movq	%r15, %rdx
	subq	%rcx, %rdx
	cmpq	$16, %rdx
	jb	.Lgcm_v3_BB32_15
	.p2align	4
.Lgcm_v3_BB32_14:                              # %join.8.i
                                        # =>This Inner Loop Header: Depth=1
	leaq	(%r14,%rcx), %rsi
	andq	$-16, %rsi
	vmovdqa	(%rsp,%rsi), %xmm0
	vpxor	(%rax,%rcx), %xmm0, %xmm0
	vmovdqu	%xmm0, (%rax,%rcx)
	addq	$16, %rcx
	addq	$-16, %rdx
	cmpq	$15, %rdx
	ja	.Lgcm_v3_BB32_14
.Lgcm_v3_BB32_15:                              # %after.4.i
	cmpq	%r15, %rcx
	jae	.Lgcm_v3_BB32_23
# %bb.16:                               # %then.9.i
	testq	%rdx, %rdx
	je	.Lgcm_v3_BB32_23
# %bb.17:                               # %iter.check
	addq	%rcx, %r14
	andq	$-16, %r14
	leaq	(%rsp,%r14), %rsi
	addq	%rcx, %rax
	cmpq	$8, %rdx
	jae	.Lgcm_v3_BB32_20
# %bb.18:
	xorl	%ecx, %ecx
	jmp	.Lgcm_v3_BB32_19
.Lgcm_v3_BB32_20:                              # %vec.epilog.ph
	movl	%edx, %ecx
	andl	$8, %ecx
	xorl	%edi, %edi
	.p2align	4
.Lgcm_v3_BB32_21:                              # %vec.epilog.vector.body
                                        # =>This Inner Loop Header: Depth=1
	movq	(%rsi,%rdi), %r8
	xorq	%r8, (%rax,%rdi)
	addq	$8, %rdi
	cmpq	%rdi, %rcx
	jne	.Lgcm_v3_BB32_21
	jmp	.Lgcm_v3_BB32_22
.Lgcm_v3_BB32_19:                              # %join.8.i23
	movzbl	(%rsi,%rcx), %edi
	xorb	%dil, (%rax,%rcx)
	incq	%rcx
.Lgcm_v3_BB32_22:                              # %join.8.i23
	cmpq	%rcx, %rdx
	jne	.Lgcm_v3_BB32_19
.Lgcm_v3_BB32_23:                              # %"aes_ctr::add_blocks::add_blocks.exit"
	addq	%rbx, %r15
	movq	%r15, %rax
	addq	$536, %rsp                      # imm = 0x218
	popq	%rbx
	popq	%r12
	popq	%r13
	popq	%r14
	popq	%r15
	popq	%rbp
	vzeroupper
	retq
.Lgcm_v3_func_end32:
	.size	gcm_v3.aes_ctr.add_in_batches.add_next.1, .Lgcm_v3_func_end32-gcm_v3.aes_ctr.add_in_batches.add_next.1
                                        # -- End function
	.section	.text.gcm_v3.aes_cipher.zeroize.stack.wipe_stack.2032,"ax",@progbits
	.p2align	4                               # -- Begin function aes_cipher::zeroize::stack::wipe_stack::<=2032>
	.type	gcm_v3.aes_cipher.zeroize.stack.wipe_stack.2032,@function
gcm_v3.aes_cipher.zeroize.stack.wipe_stack.2032: # @gcm_v3.aes_cipher.zeroize.stack.wipe_stack.2032
# %bb.0:                                # %start
	subq	$2040, %rsp                     # imm = 0x7F8
	leaq	8(%rsp), %rdi
	movl	$2032, %edx                     # imm = 0x7F0
	xorl	%esi, %esi
	callq	*memset@GOTPCREL(%rip)
	movq	$0, (%rsp)
	#APP
	#NO_APP
	movq	(%rsp), %rax
	#APP
	#NO_APP
	cmpq	$2032, %rax                     # imm = 0x7F0
	jae	.Lgcm_v3_BB33_2
# %bb.1:                                # %then.1
	movzbl	8(%rsp,%rax), %eax
	#APP
	#NO_APP
	xchgq	%rax, (%rsp)
	#APP
	#NO_APP
.Lgcm_v3_BB33_2:                               # %common.ret
	addq	$2040, %rsp                     # imm = 0x7F8
	retq
.Lgcm_v3_func_end33:
	.size	gcm_v3.aes_cipher.zeroize.stack.wipe_stack.2032, .Lgcm_v3_func_end33-gcm_v3.aes_cipher.zeroize.stack.wipe_stack.2032
                                        # -- End function
	.section	.rodata.cst32,"aM",@progbits,32
	.p2align	5, 0x0                          # -- Begin function aes_ctr::add_in_batches::add_next::<#4c98bfd3c2aa7cac>
.Lgcm_v3_CPI34_0:
	.byte	15                              # 0xf
	.byte	14                              # 0xe
	.byte	13                              # 0xd
	.byte	12                              # 0xc
	.byte	11                              # 0xb
	.byte	10                              # 0xa
	.byte	9                               # 0x9
	.byte	8                               # 0x8
	.byte	7                               # 0x7
	.byte	6                               # 0x6
	.byte	5                               # 0x5
	.byte	4                               # 0x4
	.byte	3                               # 0x3
	.byte	2                               # 0x2
	.byte	1                               # 0x1
	.byte	0                               # 0x0
	.byte	15                              # 0xf
	.byte	14                              # 0xe
	.byte	13                              # 0xd
	.byte	12                              # 0xc
	.byte	11                              # 0xb
	.byte	10                              # 0xa
	.byte	9                               # 0x9
	.byte	8                               # 0x8
	.byte	7                               # 0x7
	.byte	6                               # 0x6
	.byte	5                               # 0x5
	.byte	4                               # 0x4
	.byte	3                               # 0x3
	.byte	2                               # 0x2
	.byte	1                               # 0x1
	.byte	0                               # 0x0
	.section	.rodata.cst16,"aM",@progbits,16
	.p2align	4, 0x0
.Lgcm_v3_CPI34_1:
	.byte	15                              # 0xf
	.byte	14                              # 0xe
	.byte	13                              # 0xd
	.byte	12                              # 0xc
	.byte	11                              # 0xb
	.byte	10                              # 0xa
	.byte	9                               # 0x9
	.byte	8                               # 0x8
	.byte	7                               # 0x7
	.byte	6                               # 0x6
	.byte	5                               # 0x5
	.byte	4                               # 0x4
	.byte	3                               # 0x3
	.byte	2                               # 0x2
	.byte	1                               # 0x1
	.byte	0                               # 0x0
	.section	.text.gcm_v3.aes_ctr.add_in_batches.add_next.2,"ax",@progbits
	.p2align	4
	.type	gcm_v3.aes_ctr.add_in_batches.add_next.2,@function
gcm_v3.aes_ctr.add_in_batches.add_next.2: # @gcm_v3.aes_ctr.add_in_batches.add_next.2
# %bb.0:                                # %start
	pushq	%rbp
	pushq	%r15
	pushq	%r14
	pushq	%r13
	pushq	%r12
	pushq	%rbx
	subq	$264, %rsp                      # imm = 0x108
	movq	%r9, %r12
	movq	%r8, %r15
	movq	%rcx, %rbx
	addq	%rcx, %rdx
	movl	%edx, %ebp
	andl	$15, %ebp
	movl	$64, %eax
	subq	%rbp, %rax
	movq	%r9, %r14
	subq	%rcx, %r14
	cmpq	%rax, %r14
	cmovaeq	%rax, %r14
	leal	(%r14,%rbp), %ecx
	addl	$15, %ecx
	shrl	$4, %ecx
	shrq	$4, %rdx
	vxorps	%xmm0, %xmm0, %xmm0
	vmovups	%ymm0, 232(%rsp)
	vmovups	%ymm0, 200(%rsp)
	vmovups	%ymm0, 168(%rsp)
	vmovups	%ymm0, 136(%rsp)
	vmovups	%ymm0, 104(%rsp)
	vmovups	%ymm0, 72(%rsp)
	movbeq	(%rsi), %r8
	movbeq	8(%rsi), %rsi
	movabsq	$-4294967296, %rax              # imm = 0xFFFFFFFF00000000
	andq	%rsi, %rax
	leal	(%rdx,%rsi), %r9d
	orq	%rax, %r9
	vmovq	%r9, %xmm0
	vmovq	%r8, %xmm1
	vpunpcklqdq	%xmm1, %xmm0, %xmm0     # xmm0 = xmm0[0],xmm1[0]
	leal	(%rsi,%rdx), %r8d
	incl	%r8d
	orq	%rax, %r8
	vmovq	%r8, %xmm2
	vpunpcklqdq	%xmm1, %xmm2, %xmm2     # xmm2 = xmm2[0],xmm1[0]
	vinserti128	$1, %xmm2, %ymm0, %ymm0
	vbroadcasti128	.Lgcm_v3_CPI34_1(%rip), %ymm2  # ymm2 = [15,14,13,12,11,10,9,8,7,6,5,4,3,2,1,0,15,14,13,12,11,10,9,8,7,6,5,4,3,2,1,0]
                                        # ymm2 = mem[0,1,0,1]
	vpshufb	%ymm2, %ymm0, %ymm0
	vmovdqu	%ymm0, 8(%rsp)
	leal	(%rsi,%rdx), %r8d
	addl	$2, %r8d
	orq	%rax, %r8
	vmovq	%r8, %xmm0
	vpunpcklqdq	%xmm1, %xmm0, %xmm0     # xmm0 = xmm0[0],xmm1[0]
	addl	%esi, %edx
	addl	$3, %edx
	orq	%rax, %rdx
	vmovq	%rdx, %xmm3
	vpunpcklqdq	%xmm1, %xmm3, %xmm1     # xmm1 = xmm3[0],xmm1[0]
	vinserti128	$1, %xmm1, %ymm0, %ymm0
	vpshufb	%ymm2, %ymm0, %ymm0
	vmovdqu	%ymm0, 40(%rsp)
	movq	16(%rdi), %rax
	movq	24(%rdi), %rsi
	leaq	8(%rsp), %r13
	movq	%rax, %rdi
	movq	%r13, %rdx
	vzeroupper
	callq	gcm_v3.aes_permute.blocks.process_on_lanes
	leaq	(%r15,%rbx), %rax
	testq	%rbp, %rbp
	je	.Lgcm_v3_BB34_1
# %bb.2:                                # %then.1.i
	movl	$16, %ecx
	subq	%rbp, %rcx
	cmpq	%rcx, %r14
	cmovbq	%r14, %rcx
	cmpq	%rbx, %r12
	je	.Lgcm_v3_BB34_10
# %bb.3:                                # %join.8.i80.lr.ph
	movl	%ecx, %edx
	andl	$7, %edx
	cmpq	$8, %rcx
	jae	.Lgcm_v3_BB34_5
# %bb.4:
	xorl	%esi, %esi
	jmp	.Lgcm_v3_BB34_8
.Lgcm_v3_BB34_1:
	xorl	%ecx, %ecx
	jmp	.Lgcm_v3_BB34_10
.Lgcm_v3_BB34_5:                               # %join.8.i80.lr.ph.new
	movl	%ecx, %edi
	andl	$24, %edi
	leaq	7(,%r13), %r8
	addq	%rbp, %r8
	leaq	(%rbx,%r15), %r9
	addq	$7, %r9
	xorl	%esi, %esi
	.p2align	4
.Lgcm_v3_BB34_6:                               # %join.8.i80
                                        # =>This Inner Loop Header: Depth=1
	movzbl	-7(%r8,%rsi), %r10d
	xorb	%r10b, -7(%r9,%rsi)
	movzbl	-6(%r8,%rsi), %r10d
	xorb	%r10b, -6(%r9,%rsi)
	movzbl	-5(%r8,%rsi), %r10d
	xorb	%r10b, -5(%r9,%rsi)
	movzbl	-4(%r8,%rsi), %r10d
	xorb	%r10b, -4(%r9,%rsi)
	movzbl	-3(%r8,%rsi), %r10d
	xorb	%r10b, -3(%r9,%rsi)
	movzbl	-2(%r8,%rsi), %r10d
	xorb	%r10b, -2(%r9,%rsi)
	movzbl	-1(%r8,%rsi), %r10d
	xorb	%r10b, -1(%r9,%rsi)
	movzbl	(%r8,%rsi), %r10d
	xorb	%r10b, (%r9,%rsi)
	addq	$8, %rsi
	cmpq	%rsi, %rdi
	jne	.Lgcm_v3_BB34_6
# %bb.7:                                # %join.3.i.loopexit.unr-lcssa
	testq	%rdx, %rdx
	je	.Lgcm_v3_BB34_10
.Lgcm_v3_BB34_8:                               # %join.8.i80.epil.preheader
	leaq	(%rax,%rsi), %rdi
	addq	%rbp, %rsi
	addq	%rsp, %rsi
	addq	$8, %rsi
	xorl	%r8d, %r8d
	.p2align	4
.Lgcm_v3_BB34_9:                               # %join.8.i80.epil
                                        # =>This Inner Loop Header: Depth=1
	movzbl	(%rsi,%r8), %r9d
	xorb	%r9b, (%rdi,%r8)
	incq	%r8
	cmpq	%r8, %rdx
	jne	.Lgcm_v3_BB34_9
.Lgcm_v3_BB34_10:                              # %join.3.i
	movq	%r14, %rdx
	subq	%rcx, %rdx
	cmpq	$16, %rdx
	jb	.Lgcm_v3_BB34_12
	.p2align	4
.Lgcm_v3_BB34_11:                              # %join.8.i
                                        # =>This Inner Loop Header: Depth=1
	leaq	(%rcx,%rbp), %rsi
	andq	$-16, %rsi
	vmovdqu	8(%rsp,%rsi), %xmm0
	vpxor	(%rax,%rcx), %xmm0, %xmm0
	vmovdqu	%xmm0, (%rax,%rcx)
	addq	$16, %rcx
	addq	$-16, %rdx
	cmpq	$15, %rdx
	ja	.Lgcm_v3_BB34_11
.Lgcm_v3_BB34_12:                              # %after.4.i
	cmpq	%r14, %rcx
	jae	.Lgcm_v3_BB34_20
# %bb.13:                               # %then.9.i
	testq	%rdx, %rdx
	je	.Lgcm_v3_BB34_20
# %bb.14:                               # %iter.check
	addq	%rcx, %rbp
	andq	$-16, %rbp
	leaq	(%rsp,%rbp), %rsi
	addq	$8, %rsi
	addq	%rcx, %rax
	cmpq	$8, %rdx
	jae	.Lgcm_v3_BB34_17
# %bb.15:
	xorl	%ecx, %ecx
	jmp	.Lgcm_v3_BB34_16
.Lgcm_v3_BB34_17:                              # %vec.epilog.ph
	movl	%edx, %ecx
	andl	$8, %ecx
	xorl	%edi, %edi
	.p2align	4
.Lgcm_v3_BB34_18:                              # %vec.epilog.vector.body
                                        # =>This Inner Loop Header: Depth=1
	movq	(%rsi,%rdi), %r8
	xorq	%r8, (%rax,%rdi)
	addq	$8, %rdi
	cmpq	%rdi, %rcx
	jne	.Lgcm_v3_BB34_18
	jmp	.Lgcm_v3_BB34_19
.Lgcm_v3_BB34_16:                              # %join.8.i23
	movzbl	(%rsi,%rcx), %edi
	xorb	%dil, (%rax,%rcx)
	incq	%rcx
.Lgcm_v3_BB34_19:                              # %join.8.i23
	cmpq	%rcx, %rdx
	jne	.Lgcm_v3_BB34_16
.Lgcm_v3_BB34_20:                              # %"aes_ctr::add_blocks::add_blocks.exit"
	addq	%rbx, %r14
	movq	%r14, %rax
	addq	$264, %rsp                      # imm = 0x108
	popq	%rbx
	popq	%r12
	popq	%r13
	popq	%r14
	popq	%r15
	popq	%rbp
	retq
.Lgcm_v3_func_end34:
	.size	gcm_v3.aes_ctr.add_in_batches.add_next.2, .Lgcm_v3_func_end34-gcm_v3.aes_ctr.add_in_batches.add_next.2
                                        # -- End function
	.section	.text.gcm_v3.aes_cipher.zeroize.stack.wipe_stack.1536,"ax",@progbits
	.p2align	4                               # -- Begin function aes_cipher::zeroize::stack::wipe_stack::<=1536>
	.type	gcm_v3.aes_cipher.zeroize.stack.wipe_stack.1536,@function
gcm_v3.aes_cipher.zeroize.stack.wipe_stack.1536: # @gcm_v3.aes_cipher.zeroize.stack.wipe_stack.1536
# %bb.0:                                # %start
	subq	$1544, %rsp                     # imm = 0x608
	leaq	8(%rsp), %rdi
	movl	$1536, %edx                     # imm = 0x600
	xorl	%esi, %esi
	callq	*memset@GOTPCREL(%rip)
	movq	$0, (%rsp)
	#APP
	#NO_APP
	movq	(%rsp), %rax
	#APP
	#NO_APP
	cmpq	$1536, %rax                     # imm = 0x600
	jae	.Lgcm_v3_BB35_2
# %bb.1:                                # %then.1
	movzbl	8(%rsp,%rax), %eax
	#APP
	#NO_APP
	xchgq	%rax, (%rsp)
	#APP
	#NO_APP
.Lgcm_v3_BB35_2:                               # %common.ret
	addq	$1544, %rsp                     # imm = 0x608
	retq
.Lgcm_v3_func_end35:
	.size	gcm_v3.aes_cipher.zeroize.stack.wipe_stack.1536, .Lgcm_v3_func_end35-gcm_v3.aes_cipher.zeroize.stack.wipe_stack.1536
                                        # -- End function
	.section	.text.gcm_v3.gcm_c.whole.fotsgure_gcm_seal,"ax",@progbits
	.p2align	4                               # -- Begin function gcm_c::whole::fotsgure_gcm_seal
	.type	gcm_v3.gcm_c.whole.fotsgure_gcm_seal,@function
gcm_v3.gcm_c.whole.fotsgure_gcm_seal:      # @gcm_v3.gcm_c.whole.fotsgure_gcm_seal
# %bb.0:                                # %start
	movabsq	$-2305843009213693952, %r10     # imm = 0xE000000000000000
	leaq	(%rdx,%r10), %r11
	incq	%r10
	movl	$3, %eax
	cmpq	%r10, %r11
	jb	.Lgcm_v3_BB36_6
# %bb.1:                                # %after.1.i
	pushq	%rbp
	pushq	%r15
	pushq	%r14
	pushq	%r13
	pushq	%r12
	pushq	%rbx
	subq	$88, %rsp
	movq	144(%rsp), %rbx
	movabsq	$68719476704, %rax              # imm = 0xFFFFFFFE0
	cmpq	%rax, %rbx
	seta	%al
	movq	%r8, %r10
	shrq	$61, %r10
	setne	%r10b
	orb	%al, %r10b
	movl	$5, %eax
	jne	.Lgcm_v3_BB36_5
# %bb.2:                                # %after.11.i
	movl	(%rdi), %r10d
	movl	$2, %eax
	cmpq	$32, %r10
	ja	.Lgcm_v3_BB36_5
# %bb.3:                                # %after.11.i
	movabsq	$4311810048, %r11               # imm = 0x101010000
	btq	%r10, %r11
	jae	.Lgcm_v3_BB36_5
# %bb.4:                                # %join.3
	leaq	4(%rdi), %rax
	shrl	$2, %r10d
	addq	$7, %r10
	addq	$244, %rdi
	movq	%rax, 16(%rsp)
	movq	%r10, 24(%rsp)
	movq	%rax, 32(%rsp)
	movq	%r10, 40(%rsp)
	movq	%rdi, 48(%rsp)
	leaq	16(%rsp), %r14
	leaq	72(%rsp), %r15
	movq	%r14, %rdi
	movq	%rcx, %r12
	movq	%r15, %rcx
	movq	%r9, %r13
	movq	%r8, %rbp
	callq	gcm_v3.gcm.mode.BorrowedGcm.put_pre_counter
	movl	$16, %edx
	movq	%r14, %rdi
	movq	%r15, %rsi
	movq	%r13, %rcx
	movq	%rbx, %r8
	callq	gcm_v3.gcm.gctr.add_gctr
	leaq	56(%rsp), %rax
	movq	%rax, (%rsp)
	movq	%r14, %rdi
	movq	%r15, %rsi
	movq	%r12, %rdx
	movq	%rbp, %rcx
	movq	%r13, %r8
	movq	%rbx, %r9
	callq	gcm_v3.gcm.mode.BorrowedGcm.put_tag
	movq	%r15, %rdi
	callq	gcm_v3.aes_cipher.zeroize.elements.zeroize_elements.3
	callq	gcm_v3.aes_cipher.zeroize.stack.wipe_stack.1536
	vmovups	56(%rsp), %xmm0
	movq	152(%rsp), %rax
	vmovups	%xmm0, (%rax)
	xorl	%eax, %eax
.Lgcm_v3_BB36_5:
	addq	$88, %rsp
	popq	%rbx
	popq	%r12
	popq	%r13
	popq	%r14
	popq	%r15
	popq	%rbp
.Lgcm_v3_BB36_6:                               # %common.ret
	vpxor	%xmm0, %xmm0, %xmm0
	vpxor	%xmm1, %xmm1, %xmm1
	vpxor	%xmm2, %xmm2, %xmm2
	vpxor	%xmm3, %xmm3, %xmm3
	vpxor	%xmm4, %xmm4, %xmm4
	vpxor	%xmm5, %xmm5, %xmm5
	vpxor	%xmm6, %xmm6, %xmm6
	vpxor	%xmm7, %xmm7, %xmm7
	vpxor	%xmm8, %xmm8, %xmm8
	vpxor	%xmm9, %xmm9, %xmm9
	vpxor	%xmm10, %xmm10, %xmm10
	vpxor	%xmm11, %xmm11, %xmm11
	vpxor	%xmm12, %xmm12, %xmm12
	vpxor	%xmm13, %xmm13, %xmm13
	vpxor	%xmm14, %xmm14, %xmm14
	vpxor	%xmm15, %xmm15, %xmm15
	xorl	%ecx, %ecx
	xorl	%edx, %edx
	xorl	%esi, %esi
	xorl	%edi, %edi
	xorl	%r8d, %r8d
	xorl	%r9d, %r9d
	xorl	%r10d, %r10d
	xorl	%r11d, %r11d
	retq
.Lgcm_v3_func_end36:
	.size	gcm_v3.gcm_c.whole.fotsgure_gcm_seal, .Lgcm_v3_func_end36-gcm_v3.gcm_c.whole.fotsgure_gcm_seal
                                        # -- End function
	.section	.text.gcm_v3.gcm_c.whole_to.copy,"ax",@progbits
	.p2align	4                               # -- Begin function gcm_c::whole_to::copy
	.type	gcm_v3.gcm_c.whole_to.copy,@function
gcm_v3.gcm_c.whole_to.copy:                # @gcm_v3.gcm_c.whole_to.copy
# %bb.0:                                # %start
	movq	%rsi, %rax
	movq	%rdi, %rsi
	movq	%rdx, %rcx
	subq	%rdi, %rcx
	cmpq	%rax, %rcx
	jae	.Lgcm_v3_BB37_18
# %bb.1:                                # %iter.check
	cmpq	$8, %rax
	setb	%dil
	cmpq	$128, %rcx
	setb	%cl
	orb	%dil, %cl
	je	.Lgcm_v3_BB37_3
# %bb.2:
	xorl	%ecx, %ecx
	jmp	.Lgcm_v3_BB37_12
.Lgcm_v3_BB37_18:                              # %apart.2.i.i.i.i.i.i
	movq	%rdx, %rdi
	movq	%rax, %rdx
	jmpq	*memmove@GOTPCREL(%rip)
.Lgcm_v3_BB37_3:                               # %vector.main.loop.iter.check
	cmpq	$128, %rax
	jae	.Lgcm_v3_BB37_5
# %bb.4:
	xorl	%ecx, %ecx
	jmp	.Lgcm_v3_BB37_9
.Lgcm_v3_BB37_5:                               # %vector.ph
	movq	%rax, %rcx
	andq	$-128, %rcx
	xorl	%edi, %edi
	.p2align	4
.Lgcm_v3_BB37_6:                               # %vector.body
                                        # =>This Inner Loop Header: Depth=1
	vmovups	(%rsi,%rdi), %ymm0
	vmovups	32(%rsi,%rdi), %ymm1
	vmovups	64(%rsi,%rdi), %ymm2
	vmovups	96(%rsi,%rdi), %ymm3
	vmovups	%ymm0, (%rdx,%rdi)
	vmovups	%ymm1, 32(%rdx,%rdi)
	vmovups	%ymm2, 64(%rdx,%rdi)
	vmovups	%ymm3, 96(%rdx,%rdi)
	subq	$-128, %rdi
	cmpq	%rdi, %rcx
	jne	.Lgcm_v3_BB37_6
# %bb.7:                                # %middle.block
	cmpq	%rcx, %rax
	je	.Lgcm_v3_BB37_17
# %bb.8:                                # %vec.epilog.iter.check
	testb	$120, %al
	je	.Lgcm_v3_BB37_12
.Lgcm_v3_BB37_9:                               # %vec.epilog.ph
	movq	%rcx, %rdi
	movq	%rax, %rcx
	andq	$-8, %rcx
	.p2align	4
.Lgcm_v3_BB37_10:                              # %vec.epilog.vector.body
                                        # =>This Inner Loop Header: Depth=1
	movq	(%rsi,%rdi), %r8
	movq	%r8, (%rdx,%rdi)
	addq	$8, %rdi
	cmpq	%rdi, %rcx
	jne	.Lgcm_v3_BB37_10
# %bb.11:                               # %vec.epilog.middle.block
	cmpq	%rcx, %rax
	je	.Lgcm_v3_BB37_17
.Lgcm_v3_BB37_12:                              # %join.7.i.i.i.i.i.i.preheader
	movq	%rax, %r8
	movq	%rcx, %rdi
	andq	$7, %r8
	je	.Lgcm_v3_BB37_15
# %bb.13:                               # %join.7.i.i.i.i.i.i.prol.preheader
	movq	%rcx, %rdi
	.p2align	4
.Lgcm_v3_BB37_14:                              # %join.7.i.i.i.i.i.i.prol
                                        # =>This Inner Loop Header: Depth=1
	movzbl	(%rsi,%rdi), %r9d
	movb	%r9b, (%rdx,%rdi)
	incq	%rdi
	decq	%r8
	jne	.Lgcm_v3_BB37_14
.Lgcm_v3_BB37_15:                              # %join.7.i.i.i.i.i.i.prol.loopexit
	subq	%rax, %rcx
	cmpq	$-8, %rcx
	ja	.Lgcm_v3_BB37_17
	.p2align	4
.Lgcm_v3_BB37_16:                              # %join.7.i.i.i.i.i.i
                                        # =>This Inner Loop Header: Depth=1
	movzbl	(%rsi,%rdi), %ecx
	movb	%cl, (%rdx,%rdi)
	movzbl	1(%rsi,%rdi), %ecx
	movb	%cl, 1(%rdx,%rdi)
	movzbl	2(%rsi,%rdi), %ecx
	movb	%cl, 2(%rdx,%rdi)
	movzbl	3(%rsi,%rdi), %ecx
	movb	%cl, 3(%rdx,%rdi)
	movzbl	4(%rsi,%rdi), %ecx
	movb	%cl, 4(%rdx,%rdi)
	movzbl	5(%rsi,%rdi), %ecx
	movb	%cl, 5(%rdx,%rdi)
	movzbl	6(%rsi,%rdi), %ecx
	movb	%cl, 6(%rdx,%rdi)
	movzbl	7(%rsi,%rdi), %ecx
	movb	%cl, 7(%rdx,%rdi)
	addq	$8, %rdi
	cmpq	%rdi, %rax
	jne	.Lgcm_v3_BB37_16
.Lgcm_v3_BB37_17:                              # %"core::slice::edits::slice+T::copy_from_slice::<i8,20'core::clone::U8Clone{}>.exit"
	vzeroupper
	retq
.Lgcm_v3_func_end37:
	.size	gcm_v3.gcm_c.whole_to.copy, .Lgcm_v3_func_end37-gcm_v3.gcm_c.whole_to.copy
                                        # -- End function
	.section	.text.gcm_v3.gcm_siv.course.open_in.1,"ax",@progbits
	.p2align	4                               # -- Begin function gcm_siv::course::open_in::<#f80dcf79dd5b6d45>
	.type	gcm_v3.gcm_siv.course.open_in.1,@function
gcm_v3.gcm_siv.course.open_in.1: # @gcm_v3.gcm_siv.course.open_in.1
# %bb.0:                                # %start
	pushq	%rbp
	pushq	%r15
	pushq	%r14
	pushq	%r13
	pushq	%r12
	pushq	%rbx
	subq	$1320, %rsp                     # imm = 0x528
	movq	%r9, 24(%rsp)                   # 8-byte Spill
	movq	%r8, 16(%rsp)                   # 8-byte Spill
	movq	%rcx, %r15
	movq	%rdx, %r12
	movq	%rsi, %rbp
	movq	%rdi, %rbx
	vxorps	%xmm0, %xmm0, %xmm0
	vmovaps	%xmm0, 784(%rsp)
	vxorps	%xmm0, %xmm0, %xmm0
	vmovups	%ymm0, 288(%rsp)
	vmovups	%ymm0, 320(%rsp)
	vmovups	%ymm0, 352(%rsp)
	vmovups	%ymm0, 384(%rsp)
	vmovups	%ymm0, 416(%rsp)
	vmovups	%ymm0, 448(%rsp)
	vmovups	%ymm0, 480(%rsp)
	vmovups	%ymm0, 512(%rsp)
	vmovups	%ymm0, 544(%rsp)
	vmovups	%ymm0, 576(%rsp)
	vmovups	%ymm0, 608(%rsp)
	vmovups	%ymm0, 640(%rsp)
	vmovups	%ymm0, 672(%rsp)
	vmovups	%ymm0, 704(%rsp)
	vmovups	%ymm0, 736(%rsp)
	vmovups	%ymm0, 752(%rsp)
	leaq	808(%rsp), %r13
	leaq	288(%rsp), %rsi
	movl	$512, %edx                      # imm = 0x200
	movq	%r13, %rdi
	vzeroupper
	callq	*memcpy@GOTPCREL(%rip)
	vxorps	%xmm0, %xmm0, %xmm0
	vmovups	%ymm0, 32(%rsp)
	vmovups	%ymm0, 64(%rsp)
	vmovups	%ymm0, 96(%rsp)
	vmovups	%ymm0, 128(%rsp)
	vmovups	%ymm0, 160(%rsp)
	vmovups	%ymm0, 192(%rsp)
	vmovups	%ymm0, 224(%rsp)
	vmovups	%ymm0, 244(%rsp)
	leaq	32(%rsp), %r14
	movq	%rbx, %rdi
	movq	%rbp, %rsi
	movq	%r12, %rdx
	movq	%r14, %rcx
	movq	%r13, %r8
	vzeroupper
	callq	gcm_v3.gcm_siv.keys.derive_and_prepare.1
	vmovaps	1376(%rsp), %xmm0
	vmovups	%xmm0, (%rsp)
	movq	%r14, %rdi
	movq	%r13, %rsi
	movq	%r12, %rdx
	movq	%r15, %rcx
	movq	16(%rsp), %r8                   # 8-byte Reload
	movq	24(%rsp), %r9                   # 8-byte Reload
	callq	gcm_v3.gcm_siv.message.open.1
	movl	%eax, %ebx
	movl	$0, 32(%rsp)
	leaq	36(%rsp), %rdi
	callq	gcm_v3.aes_cipher.zeroize.elements.zeroize_elements.1
	movl	$32, %esi
	movq	%r13, %rdi
	callq	gcm_v3.aes_cipher.zeroize.elements.zeroize_elements.2
	callq	gcm_v3.aes_cipher.zeroize.stack.wipe_stack.2816
	movl	%ebx, %eax
	addq	$1320, %rsp                     # imm = 0x528
	popq	%rbx
	popq	%r12
	popq	%r13
	popq	%r14
	popq	%r15
	popq	%rbp
	retq
.Lgcm_v3_func_end38:
	.size	gcm_v3.gcm_siv.course.open_in.1, .Lgcm_v3_func_end38-gcm_v3.gcm_siv.course.open_in.1
                                        # -- End function
	.section	.text.gcm_v3.gcm_siv.keys.derive_and_prepare.1,"ax",@progbits
	.p2align	4                               # -- Begin function gcm_siv::keys::derive_and_prepare::<#f80dcf79dd5b6d45>
	.type	gcm_v3.gcm_siv.keys.derive_and_prepare.1,@function
gcm_v3.gcm_siv.keys.derive_and_prepare.1: # @gcm_v3.gcm_siv.keys.derive_and_prepare.1
# %bb.0:                                # %start
	pushq	%r15
	pushq	%r14
	pushq	%rbx
	subq	$192, %rsp
	vxorps	%xmm0, %xmm0, %xmm0
	vmovaps	%xmm0, 176(%rsp)
	vxorps	%xmm0, %xmm0, %xmm0
	vmovups	%ymm0, 128(%rsp)
	vmovups	%ymm0, 144(%rsp)
	vmovups	%ymm0, 96(%rsp)
	vmovups	%ymm0, (%rsp)
	vmovups	128(%rsp), %ymm0
	vmovups	%ymm0, 32(%rsp)
	vmovups	160(%rsp), %xmm0
	vmovups	%xmm0, 64(%rsp)
	movq	%r8, %r15
	movq	%rcx, %rbx
	movq	%rsi, %r14
	vmovups	176(%rsp), %xmm0
	vmovups	%xmm0, 80(%rsp)
	movq	%rsp, %rcx
	vzeroupper
	callq	gcm_v3.gcm_siv.keys.derive
	movq	(%rsp), %rax
	movq	8(%rsp), %rcx
	movq	%rcx, %rsi
	shldq	$63, %rax, %rsi
	shrq	%rcx
	andl	$1, %eax
	negq	%rax
	movabsq	$-2233785415175766016, %rdx     # imm = 0xE100000000000000
	andq	%rax, %rdx
	xorq	%rcx, %rdx
	movq	%r15, %rdi
	callq	gcm_v3.gcm.multiples.put_table
	leaq	4(%rbx), %rdi
	vxorps	%xmm0, %xmm0, %xmm0
	vmovups	%ymm0, 212(%rbx)
	vmovups	%ymm0, 180(%rbx)
	vmovups	%ymm0, 148(%rbx)
	vmovups	%ymm0, 116(%rbx)
	vmovups	%ymm0, 84(%rbx)
	vmovups	%ymm0, 52(%rbx)
	leaq	16(%rsp), %rsi
	vmovups	%ymm0, 20(%rbx)
	cmpq	$16, %r14
	jne	.Lgcm_v3_BB39_2
# %bb.1:                                # %then.1.i
	movl	$16, %edx
	vzeroupper
	callq	gcm_v3.aes_permute.lane_keys.expand_lanes
	movl	$16, %eax
	jmp	.Lgcm_v3_BB39_3
.Lgcm_v3_BB39_2:                               # %else.2.i
	movl	$32, %edx
	vzeroupper
	callq	gcm_v3.aes_permute.lane_keys.expand_lanes
	movl	$32, %eax
.Lgcm_v3_BB39_3:                               # %"gcm_siv::keys::set_encryption_key::<#66aa1833bfd7fef8>.exit"
	movl	%eax, (%rbx)
	movq	%rsp, %rdi
	movl	$6, %esi
	callq	gcm_v3.aes_cipher.zeroize.elements.zeroize_elements.4
	addq	$192, %rsp
	popq	%rbx
	popq	%r14
	popq	%r15
	retq
.Lgcm_v3_func_end39:
	.size	gcm_v3.gcm_siv.keys.derive_and_prepare.1, .Lgcm_v3_func_end39-gcm_v3.gcm_siv.keys.derive_and_prepare.1
                                        # -- End function
	.section	.text.gcm_v3.gcm_siv.keys.derive,"ax",@progbits
	.p2align	4                               # -- Begin function gcm_siv::keys::derive::<#9afc0f8057cec37b>
	.type	gcm_v3.gcm_siv.keys.derive,@function
gcm_v3.gcm_siv.keys.derive: # @gcm_v3.gcm_siv.keys.derive
# %bb.0:                                # %start
	pushq	%r15
	pushq	%r14
	pushq	%r12
	pushq	%rbx
	subq	$104, %rsp
	movq	%rcx, %rbx
	movq	%rdi, %r14
	movl	8(%rdx), %eax
	movl	%eax, 96(%rsp)
	movq	(%rdx), %rax
	movq	%rax, 88(%rsp)
	movl	8(%rdx), %eax
	movl	%eax, 80(%rsp)
	movq	(%rdx), %rax
	movq	%rax, 72(%rsp)
	movl	8(%rdx), %eax
	movl	%eax, 64(%rsp)
	movq	(%rdx), %rax
	movq	%rax, 56(%rsp)
	movl	8(%rdx), %eax
	movl	%eax, 48(%rsp)
	movq	(%rdx), %rax
	movq	%rax, 40(%rsp)
	movq	(%rdx), %rax
	movq	%rax, 24(%rsp)
	movl	8(%rdx), %eax
	movl	%eax, 32(%rsp)
	movq	(%rdx), %rax
	movq	%rax, 8(%rsp)
	movl	8(%rdx), %eax
	movl	%eax, 16(%rsp)
	movl	$0, (%rcx)
	movq	88(%rsp), %rax
	movq	%rax, 4(%rcx)
	movl	96(%rsp), %eax
	movl	%eax, 12(%rcx)
	movl	$1, 16(%rcx)
	movq	72(%rsp), %rax
	movq	%rax, 20(%rcx)
	movl	80(%rsp), %eax
	movl	%eax, 28(%rcx)
	movl	$2, 32(%rcx)
	movq	56(%rsp), %rax
	movq	%rax, 36(%rcx)
	movl	64(%rsp), %eax
	movl	%eax, 44(%rcx)
	movl	$3, 48(%rcx)
	movq	40(%rsp), %rax
	movq	%rax, 52(%rcx)
	movl	48(%rsp), %eax
	movl	%eax, 60(%rcx)
	movl	$4, 64(%rcx)
	movq	24(%rsp), %rax
	movq	%rax, 68(%rcx)
	movl	32(%rsp), %eax
	movl	%eax, 76(%rcx)
	movl	$5, 80(%rcx)
	movl	16(%rsp), %eax
	movl	%eax, 92(%rcx)
	movq	8(%rsp), %rax
	movq	%rax, 84(%rcx)
	movq	%rsi, %r15
	shrq	$3, %r15
	addq	$2, %r15
	cmpq	$240, %rsi
	jae	.Lgcm_v3_BB40_2
# %bb.1:
	xorl	%r12d, %r12d
	jmp	.Lgcm_v3_BB40_3
.Lgcm_v3_BB40_2:                               # %join.6.i.i
	movq	(%r14), %rdi
	movq	8(%r14), %rsi
	movl	%r15d, %eax
	andl	$15, %eax
	xorl	%ecx, %ecx
	cmpq	$13, %rax
	cmovbq	%rax, %rcx
	movq	%r15, %r12
	subq	%rcx, %r12
	movq	%rbx, %rdx
	movq	%r12, %rcx
	callq	gcm_v3.aes_hybrid.batches.process_on_planes
.Lgcm_v3_BB40_3:                               # %"aes_hybrid::borrowed_cipher::BorrowedCipher::process_blocks::<#2e1cb055afd5876b>.exit"
	subq	%r12, %r15
	shlq	$4, %r12
	addq	%rbx, %r12
	movq	16(%r14), %rdi
	movq	24(%r14), %rsi
	movq	%r12, %rdx
	movq	%r15, %rcx
	callq	gcm_v3.aes_permute.blocks.process_on_lanes
	movq	16(%rbx), %rax
	movq	32(%rbx), %rcx
	movq	%rax, 8(%rbx)
	movq	48(%rbx), %rax
	movq	%rcx, 16(%rbx)
	movq	%rax, 24(%rbx)
	movq	64(%rbx), %rax
	movq	80(%rbx), %rcx
	movq	%rax, 32(%rbx)
	movq	%rcx, 40(%rbx)
	addq	$104, %rsp
	popq	%rbx
	popq	%r12
	popq	%r14
	popq	%r15
	retq
.Lgcm_v3_func_end40:
	.size	gcm_v3.gcm_siv.keys.derive, .Lgcm_v3_func_end40-gcm_v3.gcm_siv.keys.derive
                                        # -- End function
	.section	.text.gcm_v3.aes_cipher.zeroize.elements.zeroize_elements.4,"ax",@progbits
	.p2align	4                               # -- Begin function aes_cipher::zeroize::elements::zeroize_elements::<#82a118249f09cfc6>
	.type	gcm_v3.aes_cipher.zeroize.elements.zeroize_elements.4,@function
gcm_v3.aes_cipher.zeroize.elements.zeroize_elements.4: # @gcm_v3.aes_cipher.zeroize.elements.zeroize_elements.4
# %bb.0:                                # %start
	vxorps	%xmm0, %xmm0, %xmm0
	vmovaps	%xmm0, -24(%rsp)
	movq	$0, -8(%rsp)
	#APP
	#NO_APP
	movq	-8(%rsp), %rax
	#APP
	#NO_APP
	cmpq	%rsi, %rax
	jae	.Lgcm_v3_BB41_1
# %bb.2:                                # %then.1.i6
	movq	%rax, %rcx
	shlq	$4, %rcx
	movzbl	(%rdi,%rcx), %ecx
	vmovaps	-24(%rsp), %xmm0
	vmovups	%xmm0, (%rdi)
	cmpq	$1, %rsi
	jne	.Lgcm_v3_BB41_4
	jmp	.Lgcm_v3_BB41_9
.Lgcm_v3_BB41_1:
	xorl	%ecx, %ecx
	vmovaps	-24(%rsp), %xmm0
	vmovups	%xmm0, (%rdi)
	cmpq	$1, %rsi
	je	.Lgcm_v3_BB41_9
.Lgcm_v3_BB41_4:                               # %join.6.i.1
	vmovaps	-24(%rsp), %xmm0
	vmovups	%xmm0, 16(%rdi)
	cmpq	$2, %rsi
	je	.Lgcm_v3_BB41_9
# %bb.5:                                # %join.6.i.2
	vmovaps	-24(%rsp), %xmm0
	vmovups	%xmm0, 32(%rdi)
	cmpq	$3, %rsi
	je	.Lgcm_v3_BB41_9
# %bb.6:                                # %join.6.i.3
	vmovaps	-24(%rsp), %xmm0
	vmovups	%xmm0, 48(%rdi)
	cmpq	$4, %rsi
	je	.Lgcm_v3_BB41_9
# %bb.7:                                # %join.6.i.4
	vmovaps	-24(%rsp), %xmm0
	vmovups	%xmm0, 64(%rdi)
	cmpq	$5, %rsi
	je	.Lgcm_v3_BB41_9
# %bb.8:                                # %join.6.i.5
	vmovaps	-24(%rsp), %xmm0
	vmovups	%xmm0, 80(%rdi)
.Lgcm_v3_BB41_9:                               # %"aes_cipher::zeroize::overwrite::<#8c2be25e1e7027ab>.exit"
	cmpq	%rsi, %rax
	jae	.Lgcm_v3_BB41_10
# %bb.11:                               # %then.1.i
	shlq	$4, %rax
	andb	(%rdi,%rax), %cl
	movzbl	%cl, %eax
	#APP
	#NO_APP
	xchgq	%rax, -8(%rsp)
	#APP
	#NO_APP
	retq
.Lgcm_v3_BB41_10:
	xorl	%eax, %eax
	#APP
	#NO_APP
	xchgq	%rax, -8(%rsp)
	#APP
	#NO_APP
	retq
.Lgcm_v3_func_end41:
	.size	gcm_v3.aes_cipher.zeroize.elements.zeroize_elements.4, .Lgcm_v3_func_end41-gcm_v3.aes_cipher.zeroize.elements.zeroize_elements.4
                                        # -- End function
	.section	.text.gcm_v3.gcm_siv.message.open.1,"ax",@progbits
	.p2align	4                               # -- Begin function gcm_siv::message::open::<#f940bb35374b8583>
	.type	gcm_v3.gcm_siv.message.open.1,@function
gcm_v3.gcm_siv.message.open.1: # @gcm_v3.gcm_siv.message.open.1
# %bb.0:                                # %start
	pushq	%rbp
	pushq	%r15
	pushq	%r14
	pushq	%r13
	pushq	%r12
	pushq	%rbx
	subq	$56, %rsp
	movq	%r9, %rbx
	movq	%r8, 24(%rsp)                   # 8-byte Spill
	movq	%rcx, 16(%rsp)                  # 8-byte Spill
	movq	%rdx, %r14
	movq	%rsi, %r12
	movq	%rdi, %r15
	movq	120(%rsp), %rsi
	movq	112(%rsp), %rbp
	movq	%r9, %rdx
	movq	%rbp, %rcx
	callq	gcm_v3.gcm_siv.message.process_text
	vxorps	%xmm0, %xmm0, %xmm0
	vmovaps	%xmm0, 32(%rsp)
	leaq	32(%rsp), %r13
	movq	%r13, 8(%rsp)
	movq	%rbp, (%rsp)
	movq	%r15, %rdi
	movq	%r12, %rsi
	movq	%r14, %rdx
	movq	120(%rsp), %r14
	movq	16(%rsp), %rcx                  # 8-byte Reload
	movq	24(%rsp), %r8                   # 8-byte Reload
	movq	%rbx, %r9
	callq	gcm_v3.gcm_siv.message.put_tag.1
	movq	%r14, %rdi
	movq	%r13, %rsi
	callq	gcm_v3.aes_cipher.blocks.difference
	movl	%eax, %ebp
	movl	$1, %esi
	movq	%r13, %rdi
	callq	gcm_v3.aes_cipher.zeroize.elements.zeroize_elements.4
	testl	%ebp, %ebp
	je	.Lgcm_v3_BB42_2
# %bb.1:                                # %join.3
	movq	%r15, %rdi
	movq	%r14, %rsi
	movq	%rbx, %rdx
	movq	112(%rsp), %rcx
	callq	gcm_v3.gcm_siv.message.process_text
.Lgcm_v3_BB42_2:                               # %common.ret
	testl	%ebp, %ebp
	sete	%al
	addq	$56, %rsp
	popq	%rbx
	popq	%r12
	popq	%r13
	popq	%r14
	popq	%r15
	popq	%rbp
	retq
.Lgcm_v3_func_end42:
	.size	gcm_v3.gcm_siv.message.open.1, .Lgcm_v3_func_end42-gcm_v3.gcm_siv.message.open.1
                                        # -- End function
	.section	.rodata.cst16,"aM",@progbits,16
	.p2align	4, 0x0                          # -- Begin function gcm_siv::message::put_tag::<#f940bb35374b8583>
.Lgcm_v3_CPI43_0:
	.byte	15                              # 0xf
	.byte	14                              # 0xe
	.byte	13                              # 0xd
	.byte	12                              # 0xc
	.byte	11                              # 0xb
	.byte	10                              # 0xa
	.byte	9                               # 0x9
	.byte	8                               # 0x8
	.byte	7                               # 0x7
	.byte	6                               # 0x6
	.byte	5                               # 0x5
	.byte	4                               # 0x4
	.byte	3                               # 0x3
	.byte	2                               # 0x2
	.byte	1                               # 0x1
	.byte	0                               # 0x0
.Lgcm_v3_CPI43_1:
	.zero	1
	.zero	1
	.zero	1
	.zero	1
	.byte	0                               # 0x0
	.byte	8                               # 0x8
	.byte	0                               # 0x0
	.byte	8                               # 0x8
	.zero	1
	.zero	1
	.zero	1
	.zero	1
	.zero	1
	.zero	1
	.zero	1
	.zero	1
.Lgcm_v3_CPI43_2:
	.zero	1
	.zero	1
	.byte	0                               # 0x0
	.byte	8                               # 0x8
	.zero	1
	.zero	1
	.zero	1
	.zero	1
	.zero	1
	.zero	1
	.zero	1
	.zero	1
	.zero	1
	.zero	1
	.zero	1
	.zero	1
.Lgcm_v3_CPI43_3:
	.zero	1
	.zero	1
	.zero	1
	.zero	1
	.zero	1
	.zero	1
	.zero	1
	.zero	1
	.zero	1
	.zero	1
	.zero	1
	.zero	1
	.byte	0                               # 0x0
	.byte	8                               # 0x8
	.byte	0                               # 0x0
	.byte	8                               # 0x8
.Lgcm_v3_CPI43_4:
	.zero	1
	.zero	1
	.zero	1
	.zero	1
	.zero	1
	.zero	1
	.zero	1
	.zero	1
	.byte	0                               # 0x0
	.byte	1                               # 0x1
	.byte	10                              # 0xa
	.byte	11                              # 0xb
	.zero	1
	.zero	1
	.zero	1
	.zero	1
.Lgcm_v3_CPI43_5:
	.byte	255                             # 0xff
	.byte	255                             # 0xff
	.byte	255                             # 0xff
	.byte	255                             # 0xff
	.byte	255                             # 0xff
	.byte	255                             # 0xff
	.byte	255                             # 0xff
	.byte	255                             # 0xff
	.byte	255                             # 0xff
	.byte	255                             # 0xff
	.byte	255                             # 0xff
	.byte	255                             # 0xff
	.byte	255                             # 0xff
	.byte	255                             # 0xff
	.byte	255                             # 0xff
	.byte	127                             # 0x7f
.Lgcm_v3_CPI43_6:
	.zero	16,15
.Lgcm_v3_CPI43_7:
	.byte	0                               # 0x0
	.byte	1                               # 0x1
	.byte	28                              # 0x1c
	.byte	29                              # 0x1d
	.byte	45                              # 0x2d
	.byte	44                              # 0x2c
	.byte	49                              # 0x31
	.byte	48                              # 0x30
	.byte	39                              # 0x27
	.byte	38                              # 0x26
	.byte	59                              # 0x3b
	.byte	58                              # 0x3a
	.byte	10                              # 0xa
	.byte	11                              # 0xb
	.byte	22                              # 0x16
	.byte	23                              # 0x17
.Lgcm_v3_CPI43_8:
	.byte	0                               # 0x0
	.byte	134                             # 0x86
	.byte	253                             # 0xfd
	.byte	123                             # 0x7b
	.byte	142                             # 0x8e
	.byte	8                               # 0x8
	.byte	115                             # 0x73
	.byte	245                             # 0xf5
	.byte	119                             # 0x77
	.byte	241                             # 0xf1
	.byte	138                             # 0x8a
	.byte	12                              # 0xc
	.byte	249                             # 0xf9
	.byte	127                             # 0x7f
	.byte	4                               # 0x4
	.byte	130                             # 0x82
.Lgcm_v3_CPI43_9:
	.byte	128                             # 0x80
	.byte	2                               # 0x2
	.byte	1                               # 0x1
	.byte	15                              # 0xf
	.byte	9                               # 0x9
	.byte	5                               # 0x5
	.byte	14                              # 0xe
	.byte	12                              # 0xc
	.byte	13                              # 0xd
	.byte	4                               # 0x4
	.byte	11                              # 0xb
	.byte	10                              # 0xa
	.byte	7                               # 0x7
	.byte	8                               # 0x8
	.byte	6                               # 0x6
	.byte	3                               # 0x3
.Lgcm_v3_CPI43_10:
	.byte	128                             # 0x80
	.byte	1                               # 0x1
	.byte	9                               # 0x9
	.byte	14                              # 0xe
	.byte	13                              # 0xd
	.byte	11                              # 0xb
	.byte	7                               # 0x7
	.byte	6                               # 0x6
	.byte	15                              # 0xf
	.byte	2                               # 0x2
	.byte	12                              # 0xc
	.byte	5                               # 0x5
	.byte	10                              # 0xa
	.byte	4                               # 0x4
	.byte	3                               # 0x3
	.byte	8                               # 0x8
.Lgcm_v3_CPI43_11:
	.byte	0                               # 0x0
	.byte	195                             # 0xc3
	.byte	79                              # 0x4f
	.byte	12                              # 0xc
	.byte	252                             # 0xfc
	.byte	124                             # 0x7c
	.byte	67                              # 0x43
	.byte	128                             # 0x80
	.byte	207                             # 0xcf
	.byte	51                              # 0x33
	.byte	63                              # 0x3f
	.byte	112                             # 0x70
	.byte	191                             # 0xbf
	.byte	179                             # 0xb3
	.byte	240                             # 0xf0
	.byte	140                             # 0x8c
.Lgcm_v3_CPI43_12:
	.byte	0                               # 0x0
	.byte	230                             # 0xe6
	.byte	114                             # 0x72
	.byte	183                             # 0xb7
	.byte	229                             # 0xe5
	.byte	198                             # 0xc6
	.byte	197                             # 0xc5
	.byte	35                              # 0x23
	.byte	81                              # 0x51
	.byte	180                             # 0xb4
	.byte	3                               # 0x3
	.byte	113                             # 0x71
	.byte	32                              # 0x20
	.byte	151                             # 0x97
	.byte	82                              # 0x52
	.byte	148                             # 0x94
.Lgcm_v3_CPI43_13:
	.byte	0                               # 0x0
	.byte	124                             # 0x7c
	.byte	32                              # 0x20
	.byte	207                             # 0xcf
	.byte	146                             # 0x92
	.byte	1                               # 0x1
	.byte	239                             # 0xef
	.byte	147                             # 0x93
	.byte	179                             # 0xb3
	.byte	33                              # 0x21
	.byte	238                             # 0xee
	.byte	206                             # 0xce
	.byte	125                             # 0x7d
	.byte	178                             # 0xb2
	.byte	93                              # 0x5d
	.byte	92                              # 0x5c
.Lgcm_v3_CPI43_14:
	.byte	0                               # 0x0
	.byte	209                             # 0xd1
	.byte	229                             # 0xe5
	.byte	247                             # 0xf7
	.byte	230                             # 0xe6
	.byte	37                              # 0x25
	.byte	18                              # 0x12
	.byte	195                             # 0xc3
	.byte	38                              # 0x26
	.byte	192                             # 0xc0
	.byte	55                              # 0x37
	.byte	210                             # 0xd2
	.byte	244                             # 0xf4
	.byte	3                               # 0x3
	.byte	17                              # 0x11
	.byte	52                              # 0x34
.Lgcm_v3_CPI43_15:
	.byte	0                               # 0x0
	.byte	203                             # 0xcb
	.byte	215                             # 0xd7
	.byte	176                             # 0xb0
	.byte	33                              # 0x21
	.byte	141                             # 0x8d
	.byte	103                             # 0x67
	.byte	172                             # 0xac
	.byte	123                             # 0x7b
	.byte	90                              # 0x5a
	.byte	234                             # 0xea
	.byte	61                              # 0x3d
	.byte	70                              # 0x46
	.byte	246                             # 0xf6
	.byte	145                             # 0x91
	.byte	28                              # 0x1c
.Lgcm_v3_CPI43_16:
	.byte	0                               # 0x0
	.byte	159                             # 0x9f
	.byte	97                              # 0x61
	.byte	22                              # 0x16
	.byte	194                             # 0xc2
	.byte	42                              # 0x2a
	.byte	119                             # 0x77
	.byte	232                             # 0xe8
	.byte	137                             # 0x89
	.byte	75                              # 0x4b
	.byte	93                              # 0x5d
	.byte	60                              # 0x3c
	.byte	181                             # 0xb5
	.byte	163                             # 0xa3
	.byte	212                             # 0xd4
	.byte	254                             # 0xfe
	.section	.rodata.cst4,"aM",@progbits,4
	.p2align	2, 0x0
.Lgcm_v3_CPI43_17:
	.byte	0                               # 0x0
	.byte	8                               # 0x8
	.byte	0                               # 0x0
	.byte	8                               # 0x8
.Lgcm_v3_CPI43_18:
	.zero	4,15
	.section	.text.gcm_v3.gcm_siv.message.put_tag.1,"ax",@progbits
	.p2align	4
	.type	gcm_v3.gcm_siv.message.put_tag.1,@function
gcm_v3.gcm_siv.message.put_tag.1: # @gcm_v3.gcm_siv.message.put_tag.1
# %bb.0:                                # %start
	pushq	%rbp
	pushq	%r15
	pushq	%r14
	pushq	%r13
	pushq	%r12
	pushq	%rbx
	subq	$56, %rsp
	movq	%r9, 24(%rsp)                   # 8-byte Spill
	movq	%r8, %r14
	movq	%rcx, %rbp
	movq	%rdx, 48(%rsp)                  # 8-byte Spill
	movq	%rsi, %r15
	movq	%rdi, %rbx
	movq	%r8, %r12
	shrq	$4, %r12
	je	.Lgcm_v3_BB43_1
# %bb.2:                                # %join.5.i.i.i.i.preheader
	movq	%rbp, %r13
	vpxor	%xmm1, %xmm1, %xmm1
	.p2align	4
.Lgcm_v3_BB43_3:                               # %join.5.i.i.i.i
                                        # =>This Inner Loop Header: Depth=1
	vmovdqu	(%r13), %xmm0
	vpshufb	.Lgcm_v3_CPI43_0(%rip), %xmm0, %xmm0   # xmm0 = xmm0[15,14,13,12,11,10,9,8,7,6,5,4,3,2,1,0]
	vpxor	%xmm1, %xmm0, %xmm0
	vpxor	%xmm1, %xmm1, %xmm1
	vmovdqa	%xmm1, (%rsp)
	movq	%rsp, %rdi
	movq	%r15, %rsi
	callq	gcm_v3.gcm.multiples.Table.product
	vmovdqa	(%rsp), %xmm1
	addq	$16, %r13
	decq	%r12
	jne	.Lgcm_v3_BB43_3
# %bb.4:                                # %"gcm::single_blocks::hash_whole::<#a9149335c466a3fd>.exit.i.i.i"
	movq	112(%rsp), %r13
	movq	%r14, %r12
	andq	$15, %r12
	je	.Lgcm_v3_BB43_6
.Lgcm_v3_BB43_5:                               # %join.3.i.i.i
	movq	%r14, %rax
	andq	$-16, %rax
	addq	%rax, %rbp
	movl	$16, %edx
	subq	%r12, %rdx
	leaq	(%rsp,%r12), %rdi
	xorl	%esi, %esi
	vmovdqa	%xmm1, 32(%rsp)                 # 16-byte Spill
	callq	*memset@GOTPCREL(%rip)
	movq	%rsp, %rdi
	movq	%rbp, %rsi
	movq	%r12, %rdx
	callq	*memcpy@GOTPCREL(%rip)
	vmovdqa	(%rsp), %xmm0
	vpshufb	.Lgcm_v3_CPI43_0(%rip), %xmm0, %xmm0   # xmm0 = xmm0[15,14,13,12,11,10,9,8,7,6,5,4,3,2,1,0]
	vpxor	%xmm1, %xmm1, %xmm1
	vmovdqa	%xmm1, (%rsp)
	vpxor	32(%rsp), %xmm0, %xmm0          # 16-byte Folded Reload
	movq	%rsp, %rdi
	movq	%r15, %rsi
	callq	gcm_v3.gcm.multiples.Table.product
	vmovdqa	(%rsp), %xmm1
.Lgcm_v3_BB43_6:                               # %"gcm::single_blocks::hash_singly::<#a9149335c466a3fd>.exit.i.i"
	movq	%r13, %r12
	shrq	$4, %r12
	je	.Lgcm_v3_BB43_9
# %bb.7:                                # %join.5.i.i12.i.i.preheader
	movq	24(%rsp), %rbp                  # 8-byte Reload
	.p2align	4
.Lgcm_v3_BB43_8:                               # %join.5.i.i12.i.i
                                        # =>This Inner Loop Header: Depth=1
	vmovdqu	(%rbp), %xmm0
	vpshufb	.Lgcm_v3_CPI43_0(%rip), %xmm0, %xmm0   # xmm0 = xmm0[15,14,13,12,11,10,9,8,7,6,5,4,3,2,1,0]
	vpxor	%xmm1, %xmm0, %xmm0
	vpxor	%xmm1, %xmm1, %xmm1
	vmovdqa	%xmm1, (%rsp)
	movq	%rsp, %rdi
	movq	%r15, %rsi
	callq	gcm_v3.gcm.multiples.Table.product
	vmovdqa	(%rsp), %xmm1
	addq	$16, %rbp
	decq	%r12
	jne	.Lgcm_v3_BB43_8
.Lgcm_v3_BB43_9:                               # %"gcm::single_blocks::hash_whole::<#a9149335c466a3fd>.exit.i23.i.i"
	movq	120(%rsp), %rbp
	movq	%r13, %r12
	andq	$15, %r12
	je	.Lgcm_v3_BB43_11
# %bb.10:                               # %join.3.i27.i.i
	movq	%r13, %rax
	andq	$-16, %rax
	movq	24(%rsp), %rbp                  # 8-byte Reload
	addq	%rax, %rbp
	movl	$16, %edx
	subq	%r12, %rdx
	leaq	(%rsp,%r12), %rdi
	xorl	%esi, %esi
	vmovdqa	%xmm1, 32(%rsp)                 # 16-byte Spill
	callq	*memset@GOTPCREL(%rip)
	movq	%rsp, %rdi
	movq	%rbp, %rsi
	movq	120(%rsp), %rbp
	movq	%r12, %rdx
	callq	*memcpy@GOTPCREL(%rip)
	vmovdqa	(%rsp), %xmm0
	vpshufb	.Lgcm_v3_CPI43_0(%rip), %xmm0, %xmm0   # xmm0 = xmm0[15,14,13,12,11,10,9,8,7,6,5,4,3,2,1,0]
	vpxor	%xmm1, %xmm1, %xmm1
	vmovdqa	%xmm1, (%rsp)
	vpxor	32(%rsp), %xmm0, %xmm0          # 16-byte Folded Reload
	movq	%rsp, %rdi
	movq	%r15, %rsi
	callq	gcm_v3.gcm.multiples.Table.product
	vmovdqa	(%rsp), %xmm1
.Lgcm_v3_BB43_11:                              # %"gcm_siv::hash::TableRoomPolyvalRoom::hash.exit"
	leal	(,%r13,8), %eax
	movl	%r13d, %ecx
	movl	%r13d, %edx
	movl	%r13d, %esi
	movq	%r13, %rdi
	movq	%r13, %r8
	movq	%r13, %r9
	shrq	$53, %r13
	vmovd	%r13d, %xmm0
	shrl	$5, %ecx
	shrl	$13, %edx
	shrl	$21, %esi
	shrq	$29, %rdi
	shrq	$37, %r8
	shrq	$45, %r9
	vpinsrb	$1, %r9d, %xmm0, %xmm0
	vpinsrb	$2, %r8d, %xmm0, %xmm0
	vpinsrb	$3, %edi, %xmm0, %xmm0
	vpinsrb	$4, %esi, %xmm0, %xmm0
	vpinsrb	$5, %edx, %xmm0, %xmm0
	vpinsrb	$6, %ecx, %xmm0, %xmm0
	vpinsrb	$7, %eax, %xmm0, %xmm0
	leal	(,%r14,8), %eax
	movl	%r14d, %ecx
	movl	%r14d, %edx
	movl	%r14d, %esi
	movq	%r14, %rdi
	movq	%r14, %r8
	movq	%r14, %r9
	shrq	$53, %r14
	vpinsrb	$8, %r14d, %xmm0, %xmm0
	shrq	$45, %r9
	vpinsrb	$9, %r9d, %xmm0, %xmm0
	shrq	$37, %r8
	vpinsrb	$10, %r8d, %xmm0, %xmm0
	shrq	$29, %rdi
	vpinsrb	$11, %edi, %xmm0, %xmm0
	shrl	$21, %esi
	vpinsrb	$12, %esi, %xmm0, %xmm0
	shrl	$13, %edx
	vpinsrb	$13, %edx, %xmm0, %xmm0
	shrl	$5, %ecx
	vpinsrb	$14, %ecx, %xmm0, %xmm0
	vpinsrb	$15, %eax, %xmm0, %xmm0
	vpxor	%xmm0, %xmm1, %xmm0
	vpxor	%xmm1, %xmm1, %xmm1
	vmovdqa	%xmm1, (%rsp)
	movq	%rsp, %rdi
	movq	%r15, %rsi
	callq	gcm_v3.gcm.multiples.Table.product
	movbeq	8(%rsp), %rcx
	movbeq	(%rsp), %rax
	movq	%rax, %rdx
	shldq	$8, %rcx, %rdx
	vmovq	%rdx, %xmm0
	movq	%rax, %rdx
	shldq	$16, %rcx, %rdx
	vmovq	%rdx, %xmm1
	movq	%rax, %rdx
	shldq	$24, %rcx, %rdx
	vmovq	%rdx, %xmm2
	movq	%rax, %rdx
	shldq	$32, %rcx, %rdx
	vmovq	%rdx, %xmm3
	movq	%rax, %rdx
	shldq	$40, %rcx, %rdx
	vmovq	%rdx, %xmm4
	movq	%rax, %rdx
	shldq	$48, %rcx, %rdx
	vmovq	%rdx, %xmm5
	movq	%rax, %rdx
	shldq	$56, %rcx, %rdx
	vmovq	%rdx, %xmm6
	vmovq	%rcx, %xmm7
	movq	%rax, %rcx
	shrq	$56, %rcx
	vmovd	%ecx, %xmm8
	movq	%rax, %rcx
	shrq	$48, %rcx
	vmovd	%ecx, %xmm9
	movq	%rax, %rcx
	vmovq	%rax, %xmm10
	vpunpcklqdq	%xmm0, %xmm1, %xmm0     # xmm0 = xmm1[0],xmm0[0]
	vpunpcklqdq	%xmm2, %xmm3, %xmm1     # xmm1 = xmm3[0],xmm2[0]
	vpbroadcastd	.Lgcm_v3_CPI43_17(%rip), %xmm2 # xmm2 = [0,8,0,8,0,8,0,8,0,8,0,8,0,8,0,8]
	vpshufb	%xmm2, %xmm0, %xmm0
	vpshufb	%xmm2, %xmm1, %xmm1
	vpblendw	$8, %xmm0, %xmm1, %xmm0         # xmm0 = xmm1[0,1,2],xmm0[3],xmm1[4,5,6,7]
	vpunpcklqdq	%xmm4, %xmm5, %xmm1     # xmm1 = xmm5[0],xmm4[0]
	vpunpcklbw	%xmm6, %xmm7, %xmm2     # xmm2 = xmm7[0],xmm6[0],xmm7[1],xmm6[1],xmm7[2],xmm6[2],xmm7[3],xmm6[3],xmm7[4],xmm6[4],xmm7[5],xmm6[5],xmm7[6],xmm6[6],xmm7[7],xmm6[7]
	vpshufb	.Lgcm_v3_CPI43_2(%rip), %xmm1, %xmm1   # xmm1 = xmm1[u,u,0,8,u,u,u,u,u,u,u,u,u,u,u,u]
	vpblendw	$2, %xmm1, %xmm2, %xmm1         # xmm1 = xmm2[0],xmm1[1],xmm2[2,3,4,5,6,7]
	shrq	$32, %rcx
	shrq	$40, %rax
	vpblendd	$2, %xmm0, %xmm1, %xmm0         # xmm0 = xmm1[0],xmm0[1],xmm1[2,3]
	vpunpcklqdq	%xmm8, %xmm9, %xmm1     # xmm1 = xmm9[0],xmm8[0]
	vmovd	%eax, %xmm2
	vmovd	%ecx, %xmm3
	vpunpcklqdq	%xmm2, %xmm3, %xmm2     # xmm2 = xmm3[0],xmm2[0]
	vpbroadcastd	.Lgcm_v3_CPI43_17(%rip), %xmm3 # xmm3 = [0,8,0,8,0,8,0,8,0,8,0,8,0,8,0,8]
	vpshufb	%xmm3, %xmm1, %xmm1
	vpshufb	%xmm3, %xmm2, %xmm2
	vpblendw	$128, %xmm1, %xmm2, %xmm1       # xmm1 = xmm2[0,1,2,3,4,5,6],xmm1[7]
	vpbroadcastq	%xmm10, %xmm2
	vpshufb	.Lgcm_v3_CPI43_4(%rip), %xmm2, %xmm2   # xmm2 = xmm2[u,u,u,u,u,u,u,u,0,1,10,11,u,u,u,u]
	vpblendd	$8, %xmm1, %xmm2, %xmm1         # xmm1 = xmm2[0,1,2],xmm1[3]
	vpblendd	$12, %xmm1, %xmm0, %xmm0        # xmm0 = xmm0[0,1],xmm1[2,3]
	movq	48(%rsp), %rax                  # 8-byte Reload
	vmovd	(%rax), %xmm1                   # xmm1 = mem[0],zero,zero,zero
	vmovq	4(%rax), %xmm2                  # xmm2 = mem[0],zero
	vmovq	%xmm1, %xmm1                    # xmm1 = xmm1[0],zero
	vpshufd	$80, %xmm2, %xmm2               # xmm2 = xmm2[0,0,1,1]
	vpblendd	$6, %xmm2, %xmm1, %xmm1         # xmm1 = xmm1[0],xmm2[1,2],xmm1[3]
	vpxor	%xmm0, %xmm1, %xmm0
	vpand	.Lgcm_v3_CPI43_5(%rip), %xmm0, %xmm0
	vmovdqu	%xmm0, (%rbp)
	movl	(%rbx), %ecx
	shrl	$2, %ecx
	leaq	6(%rcx), %rax
	vpxor	4(%rbx), %xmm0, %xmm1
	vpbroadcastd	.Lgcm_v3_CPI43_18(%rip), %xmm0 # xmm0 = [15,15,15,15,15,15,15,15,15,15,15,15,15,15,15,15]
	vpand	%xmm0, %xmm1, %xmm2
	vmovdqa	.Lgcm_v3_CPI43_7(%rip), %xmm3          # xmm3 = [0,1,28,29,45,44,49,48,39,38,59,58,10,11,22,23]
	vpshufb	%xmm2, %xmm3, %xmm2
	vpsrlw	$4, %xmm1, %xmm1
	vpand	%xmm0, %xmm1, %xmm1
	vmovdqa	.Lgcm_v3_CPI43_8(%rip), %xmm3          # xmm3 = [0,134,253,123,142,8,115,245,119,241,138,12,249,127,4,130]
	vpshufb	%xmm1, %xmm3, %xmm1
	vpxor	%xmm2, %xmm1, %xmm3
	shlq	$4, %rcx
	addq	$80, %rcx
	xorl	%edx, %edx
	.p2align	4
.Lgcm_v3_BB43_12:                              # %join.5.i.i
                                        # =>This Inner Loop Header: Depth=1
	movq	%rdx, %rsi
	addq	$16, %rdx
	vpsrlw	$4, %xmm3, %xmm1
	vpand	%xmm0, %xmm1, %xmm4
	vpand	%xmm0, %xmm3, %xmm1
	vpxor	%xmm1, %xmm4, %xmm3
	vmovdqa	.Lgcm_v3_CPI43_9(%rip), %xmm2          # xmm2 = [128,2,1,15,9,5,14,12,13,4,11,10,7,8,6,3]
	vpshufb	%xmm1, %xmm2, %xmm5
	vmovdqa	.Lgcm_v3_CPI43_10(%rip), %xmm1         # xmm1 = [128,1,9,14,13,11,7,6,15,2,12,5,10,4,3,8]
	vpshufb	%xmm4, %xmm1, %xmm6
	vpshufb	%xmm3, %xmm1, %xmm7
	vpxor	%xmm5, %xmm6, %xmm6
	vpxor	%xmm5, %xmm7, %xmm5
	vpshufb	%xmm6, %xmm1, %xmm6
	vpshufb	%xmm5, %xmm1, %xmm5
	vpxor	%xmm3, %xmm6, %xmm3
	vpxor	%xmm4, %xmm5, %xmm4
	vmovdqa	.Lgcm_v3_CPI43_11(%rip), %xmm5         # xmm5 = [0,195,79,12,252,124,67,128,207,51,63,112,191,179,240,140]
	vpshufb	%xmm3, %xmm5, %xmm5
	vmovdqa	.Lgcm_v3_CPI43_12(%rip), %xmm6         # xmm6 = [0,230,114,183,229,198,197,35,81,180,3,113,32,151,82,148]
	vpshufb	%xmm4, %xmm6, %xmm6
	vpxor	%xmm5, %xmm6, %xmm5
	vmovdqa	.Lgcm_v3_CPI43_13(%rip), %xmm6         # xmm6 = [0,124,32,207,146,1,239,147,179,33,238,206,125,178,93,92]
	vpshufb	%xmm3, %xmm6, %xmm3
	vmovdqa	.Lgcm_v3_CPI43_14(%rip), %xmm6         # xmm6 = [0,209,229,247,230,37,18,195,38,192,55,210,244,3,17,52]
	vpshufb	%xmm4, %xmm6, %xmm4
	vpxor	%xmm3, %xmm4, %xmm3
	movl	%edx, %edi
	andl	$48, %edi
	leaq	.Lgcm_v3_static.5(%rip), %r8
	vmovdqu	(%rdi,%r8), %xmm4
	vpshufb	%xmm4, %xmm5, %xmm6
	vpxor	%xmm6, %xmm3, %xmm3
	vpshufb	%xmm4, %xmm3, %xmm4
	leaq	.Lgcm_v3_static.6(%rip), %r8
	vpshufb	(%rdi,%r8), %xmm5, %xmm5
	vpxor	20(%rbx,%rsi), %xmm4, %xmm4
	vpxor	%xmm3, %xmm5, %xmm3
	vpxor	%xmm3, %xmm4, %xmm3
	cmpq	%rdx, %rcx
	jne	.Lgcm_v3_BB43_12
# %bb.13:                               # %"gcm_c::siv::MessageRoomMessageKey::encrypt_block.exit"
	shlq	$4, %rax
	vpsrlw	$4, %xmm3, %xmm4
	vpand	%xmm0, %xmm4, %xmm4
	vpand	%xmm0, %xmm3, %xmm0
	vpxor	%xmm0, %xmm4, %xmm3
	vpshufb	%xmm0, %xmm2, %xmm0
	vpshufb	%xmm4, %xmm1, %xmm2
	vpshufb	%xmm3, %xmm1, %xmm5
	vpxor	%xmm0, %xmm2, %xmm2
	vpxor	%xmm0, %xmm5, %xmm0
	vpshufb	%xmm2, %xmm1, %xmm2
	vpshufb	%xmm0, %xmm1, %xmm0
	vpxor	%xmm3, %xmm2, %xmm1
	vpxor	%xmm4, %xmm0, %xmm0
	vmovdqa	.Lgcm_v3_CPI43_15(%rip), %xmm2         # xmm2 = [0,203,215,176,33,141,103,172,123,90,234,61,70,246,145,28]
	vpshufb	%xmm1, %xmm2, %xmm1
	vmovdqa	.Lgcm_v3_CPI43_16(%rip), %xmm2         # xmm2 = [0,159,97,22,194,42,119,232,137,75,93,60,181,163,212,254]
	vpshufb	%xmm0, %xmm2, %xmm0
	vpxor	%xmm1, %xmm0, %xmm0
	movl	%eax, %ecx
	andl	$48, %ecx
	leaq	.Lgcm_v3_static.3(%rip), %rdx
	vpshufb	(%rcx,%rdx), %xmm0, %xmm0
	vpxor	4(%rbx,%rax), %xmm0, %xmm0
	vmovdqu	%xmm0, (%rbp)
	addq	$56, %rsp
	popq	%rbx
	popq	%r12
	popq	%r13
	popq	%r14
	popq	%r15
	popq	%rbp
	retq
.Lgcm_v3_BB43_1:
	vpxor	%xmm1, %xmm1, %xmm1
	movq	112(%rsp), %r13
	movq	%r14, %r12
	andq	$15, %r12
	jne	.Lgcm_v3_BB43_5
	jmp	.Lgcm_v3_BB43_6
.Lgcm_v3_func_end43:
	.size	gcm_v3.gcm_siv.message.put_tag.1, .Lgcm_v3_func_end43-gcm_v3.gcm_siv.message.put_tag.1
                                        # -- End function
	.section	.rodata.cst32,"aM",@progbits,32
	.p2align	5, 0x0                          # -- Begin function gcm::multiples::Table::product
.Lgcm_v3_CPI44_0:
	.zero	32,15
	.section	.rodata.cst16,"aM",@progbits,16
	.p2align	4, 0x0
.Lgcm_v3_CPI44_1:
	.byte	15                              # 0xf
	.byte	14                              # 0xe
	.byte	13                              # 0xd
	.byte	12                              # 0xc
	.byte	11                              # 0xb
	.byte	10                              # 0xa
	.byte	9                               # 0x9
	.byte	8                               # 0x8
	.byte	7                               # 0x7
	.byte	6                               # 0x6
	.byte	5                               # 0x5
	.byte	4                               # 0x4
	.byte	3                               # 0x3
	.byte	2                               # 0x2
	.byte	1                               # 0x1
	.byte	0                               # 0x0
	.section	.rodata.cst4,"aM",@progbits,4
	.p2align	2, 0x0
.Lgcm_v3_CPI44_2:
	.zero	4,15
	.section	.text.gcm_v3.gcm.multiples.Table.product,"ax",@progbits
	.p2align	4
	.type	gcm_v3.gcm.multiples.Table.product,@function
gcm_v3.gcm.multiples.Table.product:       # @gcm_v3.gcm.multiples.Table.product
# %bb.0:                                # %start
                                        # kill: def $xmm0 killed $xmm0 def $ymm0
	vinserti128	$1, %xmm0, %ymm0, %ymm1
	vpsrlw	$4, %ymm1, %ymm0
	vpbroadcastd	.Lgcm_v3_CPI44_2(%rip), %ymm2  # ymm2 = [15,15,15,15,15,15,15,15,15,15,15,15,15,15,15,15,15,15,15,15,15,15,15,15,15,15,15,15,15,15,15,15]
	vpand	%ymm2, %ymm0, %ymm0
	vpand	%ymm2, %ymm1, %ymm1
	vmovdqu	480(%rsi), %ymm2
	vpshufb	%ymm1, %ymm2, %ymm2
	vmovdqu	224(%rsi), %ymm3
	vpshufb	%ymm0, %ymm3, %ymm3
	vpxor	%ymm3, %ymm2, %ymm2
	vmovdqu	448(%rsi), %ymm3
	vpshufb	%ymm1, %ymm3, %ymm3
	vmovdqu	192(%rsi), %ymm4
	vpshufb	%ymm0, %ymm4, %ymm4
	vpxor	%ymm4, %ymm3, %ymm3
	vpsrldq	$15, %ymm2, %ymm4               # ymm4 = ymm2[15],zero,zero,zero,zero,zero,zero,zero,zero,zero,zero,zero,zero,zero,zero,zero,ymm2[31],zero,zero,zero,zero,zero,zero,zero,zero,zero,zero,zero,zero,zero,zero,zero
	vpslldq	$1, %ymm2, %ymm2                # ymm2 = zero,ymm2[0,1,2,3,4,5,6,7,8,9,10,11,12,13,14],zero,ymm2[16,17,18,19,20,21,22,23,24,25,26,27,28,29,30]
	vpxor	%ymm2, %ymm3, %ymm2
	vmovdqu	416(%rsi), %ymm3
	vpshufb	%ymm1, %ymm3, %ymm3
	vmovdqu	160(%rsi), %ymm5
	vpshufb	%ymm0, %ymm5, %ymm5
	vpxor	%ymm5, %ymm3, %ymm3
	vpalignr	$15, %ymm2, %ymm4, %ymm4        # ymm4 = ymm2[15],ymm4[0,1,2,3,4,5,6,7,8,9,10,11,12,13,14],ymm2[31],ymm4[16,17,18,19,20,21,22,23,24,25,26,27,28,29,30]
	vpslldq	$1, %ymm2, %ymm2                # ymm2 = zero,ymm2[0,1,2,3,4,5,6,7,8,9,10,11,12,13,14],zero,ymm2[16,17,18,19,20,21,22,23,24,25,26,27,28,29,30]
	vpxor	%ymm2, %ymm3, %ymm2
	vmovdqu	384(%rsi), %ymm3
	vpshufb	%ymm1, %ymm3, %ymm3
	vmovdqu	128(%rsi), %ymm5
	vpshufb	%ymm0, %ymm5, %ymm5
	vpxor	%ymm5, %ymm3, %ymm3
	vpalignr	$15, %ymm2, %ymm4, %ymm4        # ymm4 = ymm2[15],ymm4[0,1,2,3,4,5,6,7,8,9,10,11,12,13,14],ymm2[31],ymm4[16,17,18,19,20,21,22,23,24,25,26,27,28,29,30]
	vpslldq	$1, %ymm2, %ymm2                # ymm2 = zero,ymm2[0,1,2,3,4,5,6,7,8,9,10,11,12,13,14],zero,ymm2[16,17,18,19,20,21,22,23,24,25,26,27,28,29,30]
	vpxor	%ymm2, %ymm3, %ymm2
	vmovdqu	352(%rsi), %ymm3
	vpshufb	%ymm1, %ymm3, %ymm3
	vmovdqu	(%rsi), %ymm5
	vmovdqu	32(%rsi), %ymm6
	vmovdqu	64(%rsi), %ymm7
	vmovdqu	96(%rsi), %ymm8
	vpshufb	%ymm0, %ymm8, %ymm8
	vpxor	%ymm3, %ymm8, %ymm3
	vpalignr	$15, %ymm2, %ymm4, %ymm4        # ymm4 = ymm2[15],ymm4[0,1,2,3,4,5,6,7,8,9,10,11,12,13,14],ymm2[31],ymm4[16,17,18,19,20,21,22,23,24,25,26,27,28,29,30]
	vpslldq	$1, %ymm2, %ymm2                # ymm2 = zero,ymm2[0,1,2,3,4,5,6,7,8,9,10,11,12,13,14],zero,ymm2[16,17,18,19,20,21,22,23,24,25,26,27,28,29,30]
	vpxor	%ymm2, %ymm3, %ymm2
	vmovdqu	320(%rsi), %ymm3
	vpshufb	%ymm1, %ymm3, %ymm3
	vpshufb	%ymm0, %ymm7, %ymm7
	vpxor	%ymm7, %ymm3, %ymm3
	vpalignr	$15, %ymm2, %ymm4, %ymm4        # ymm4 = ymm2[15],ymm4[0,1,2,3,4,5,6,7,8,9,10,11,12,13,14],ymm2[31],ymm4[16,17,18,19,20,21,22,23,24,25,26,27,28,29,30]
	vpslldq	$1, %ymm2, %ymm2                # ymm2 = zero,ymm2[0,1,2,3,4,5,6,7,8,9,10,11,12,13,14],zero,ymm2[16,17,18,19,20,21,22,23,24,25,26,27,28,29,30]
	vpxor	%ymm2, %ymm3, %ymm2
	vmovdqu	288(%rsi), %ymm3
	vpshufb	%ymm1, %ymm3, %ymm3
	vpshufb	%ymm0, %ymm6, %ymm6
	vpxor	%ymm6, %ymm3, %ymm3
	vpalignr	$15, %ymm2, %ymm4, %ymm4        # ymm4 = ymm2[15],ymm4[0,1,2,3,4,5,6,7,8,9,10,11,12,13,14],ymm2[31],ymm4[16,17,18,19,20,21,22,23,24,25,26,27,28,29,30]
	vpslldq	$1, %ymm2, %ymm2                # ymm2 = zero,ymm2[0,1,2,3,4,5,6,7,8,9,10,11,12,13,14],zero,ymm2[16,17,18,19,20,21,22,23,24,25,26,27,28,29,30]
	vpxor	%ymm2, %ymm3, %ymm2
	vmovdqu	256(%rsi), %ymm3
	vpshufb	%ymm1, %ymm3, %ymm1
	vpshufb	%ymm0, %ymm5, %ymm0
	vpxor	%ymm0, %ymm1, %ymm0
	vpalignr	$15, %ymm2, %ymm4, %ymm3        # ymm3 = ymm2[15],ymm4[0,1,2,3,4,5,6,7,8,9,10,11,12,13,14],ymm2[31],ymm4[16,17,18,19,20,21,22,23,24,25,26,27,28,29,30]
	vpslldq	$1, %ymm2, %ymm1                # ymm1 = zero,ymm2[0,1,2,3,4,5,6,7,8,9,10,11,12,13,14],zero,ymm2[16,17,18,19,20,21,22,23,24,25,26,27,28,29,30]
	vpxor	%ymm1, %ymm0, %ymm0
	vextracti128	$1, %ymm0, %xmm1
	vextracti128	$1, %ymm3, %xmm2
	vpalignr	$8, %xmm1, %xmm2, %xmm2         # xmm2 = xmm1[8,9,10,11,12,13,14,15],xmm2[0,1,2,3,4,5,6,7]
	vpxor	%xmm3, %xmm2, %xmm2
	vmovq	%xmm2, %rcx
	vpextrq	$1, %xmm2, %rax
	bswapq	%rax
	bswapq	%rcx
	movq	%rcx, %rdx
	movq	%rcx, %rsi
	movq	%rcx, %r8
	movq	%rcx, %r9
	movq	%rcx, %r10
	shrq	$7, %r10
	xorq	%rcx, %r10
	shldq	$63, %rax, %rcx
	shldq	$62, %rax, %rsi
	xorq	%rcx, %rsi
	vpslldq	$8, %xmm1, %xmm1                # xmm1 = zero,zero,zero,zero,zero,zero,zero,zero,xmm1[0,1,2,3,4,5,6,7]
	shrq	%rdx
	shrq	$2, %r8
	xorq	%rdx, %r8
	shldq	$57, %rax, %r9
	xorq	%rax, %r9
	xorq	%rsi, %r9
	xorq	%r8, %r10
	vmovq	%r9, %xmm2
	vmovq	%r10, %xmm3
	vpunpcklqdq	%xmm3, %xmm2, %xmm2     # xmm2 = xmm2[0],xmm3[0]
	vpshufb	.Lgcm_v3_CPI44_1(%rip), %xmm2, %xmm2   # xmm2 = xmm2[15,14,13,12,11,10,9,8,7,6,5,4,3,2,1,0]
	vpxor	%xmm0, %xmm1, %xmm0
	vpxor	%xmm2, %xmm0, %xmm0
	vmovdqu	%xmm0, (%rdi)
	vzeroupper
	retq
.Lgcm_v3_func_end44:
	.size	gcm_v3.gcm.multiples.Table.product, .Lgcm_v3_func_end44-gcm_v3.gcm.multiples.Table.product
                                        # -- End function
	.section	.text.gcm_v3.gcm_siv.message.process_text,"ax",@progbits
	.p2align	4                               # -- Begin function gcm_siv::message::process_text::<#66aa1833bfd7fef8>
	.type	gcm_v3.gcm_siv.message.process_text,@function
gcm_v3.gcm_siv.message.process_text: # @gcm_v3.gcm_siv.message.process_text
# %bb.0:                                # %start
	pushq	%rbp
	pushq	%r15
	pushq	%r14
	pushq	%r13
	pushq	%r12
	pushq	%rbx
	subq	$344, %rsp                      # imm = 0x158
	movq	%rcx, %r13
	movq	%rdx, %r12
	movzbl	15(%rsi), %eax
	orb	$-128, %al
	movl	(%rdi), %r10d
	addq	$4, %rdi
	shrl	$2, %r10d
	addq	$7, %r10
	movq	(%rsi), %rcx
	movq	7(%rsi), %rdx
	movq	%rdx, 23(%rsp)
	movq	%rcx, 16(%rsp)
	movb	%al, 31(%rsp)
	cmpq	$16, %r13
	ja	.Lgcm_v3_BB45_9
# %bb.1:                                # %then.1.i.i
	movl	16(%rsp), %ecx
	movq	4(%rsi), %rdx
	movq	%rdx, 84(%rsp)
	movl	11(%rsi), %edx
	movl	%edx, 91(%rsp)
	movb	%al, 95(%rsp)
	movl	%ecx, 80(%rsp)
	leaq	80(%rsp), %rdx
	movl	$1, %ecx
	movq	%r10, %rsi
	callq	gcm_v3.aes_permute.blocks.process_on_lanes
	testq	%r13, %r13
	je	.Lgcm_v3_BB45_39
# %bb.2:                                # %then.1.i.i
	cmpq	$16, %r13
	jne	.Lgcm_v3_BB45_3
# %bb.40:                               # %after.4.i.thread.i.i.i
	vmovaps	80(%rsp), %xmm0
	vxorps	(%r12), %xmm0, %xmm0
	vmovups	%xmm0, (%r12)
	jmp	.Lgcm_v3_BB45_39
.Lgcm_v3_BB45_9:                               # %else.2.i.i
	movq	%r13, %rax
	shrq	$4, %rax
	movl	%r13d, %ecx
	andl	$15, %ecx
	cmpq	$1, %rcx
	sbbq	$-1, %rax
	leaq	16(%rsp), %rcx
	movq	%rcx, 48(%rsp)
	movq	$0, 56(%rsp)
	movq	%r12, 64(%rsp)
	movq	%r13, 72(%rsp)
	cmpq	$29, %rax
	jb	.Lgcm_v3_BB45_11
# %bb.10:                               # %then.1.i.i.i
	leaq	48(%rsp), %r8
	movq	%r10, %rsi
	movq	%rdi, %rdx
	movq	%r10, %rcx
	callq	gcm_v3.aes_hybrid.closures.lend_planes.2
	jmp	.Lgcm_v3_BB45_39
.Lgcm_v3_BB45_11:                              # %join.3.i.i.i.i
	leaq	84(%rsp), %rsi
	cmpq	$64, %r13
	movq	%rdi, 32(%rsp)                  # 8-byte Spill
	movq	%r10, 8(%rsp)                   # 8-byte Spill
	movq	%r13, 40(%rsp)                  # 8-byte Spill
	jb	.Lgcm_v3_BB45_12
# %bb.17:                               # %join.11.lr.ph.i.i.i.i
	leaq	20(%rsp), %r15
	movl	16(%rsp), %ebp
	xorl	%ebx, %ebx
	.p2align	4
.Lgcm_v3_BB45_18:                              # %join.11.i.i.i.i
                                        # =>This Inner Loop Header: Depth=1
	movq	%rbx, %r14
	vxorps	%xmm0, %xmm0, %xmm0
	leaq	144(%rsp), %rax
	vmovups	%ymm0, 160(%rax)
	vmovups	%ymm0, 128(%rax)
	vmovups	%ymm0, 96(%rax)
	vmovups	%ymm0, 64(%rax)
	vmovups	%ymm0, 32(%rax)
	vmovups	%ymm0, (%rax)
	addq	$64, %rbx
	movl	%ebp, 80(%rsp)
	movl	8(%r15), %eax
	movl	%eax, 8(%rsi)
	movq	(%r15), %rax
	movq	%rax, (%rsi)
	leal	1(%rbp), %eax
	movl	%eax, 96(%rsp)
	movl	8(%r15), %eax
	movl	%eax, 24(%rsi)
	movq	(%r15), %rax
	movq	%rax, 16(%rsi)
	leal	2(%rbp), %eax
	movl	%eax, 112(%rsp)
	movl	8(%r15), %eax
	movl	%eax, 40(%rsi)
	movq	(%r15), %rax
	movq	%rax, 32(%rsi)
	leal	3(%rbp), %eax
	movl	%eax, 128(%rsp)
	movl	8(%r15), %eax
	movl	%eax, 56(%rsi)
	movq	(%r15), %rax
	movq	%rax, 48(%rsi)
	leaq	80(%rsp), %rdx
	movl	$4, %ecx
	movq	%r10, %rsi
	vzeroupper
	callq	gcm_v3.aes_permute.blocks.process_on_lanes
	leaq	84(%rsp), %rsi
	movq	8(%rsp), %r10                   # 8-byte Reload
	movq	32(%rsp), %rdi                  # 8-byte Reload
	vmovaps	80(%rsp), %xmm0
	vxorps	(%r12,%r14), %xmm0, %xmm0
	vmovups	%xmm0, (%r12,%r14)
	vmovaps	96(%rsp), %xmm0
	vxorps	16(%r12,%r14), %xmm0, %xmm0
	vmovups	%xmm0, 16(%r12,%r14)
	vmovaps	112(%rsp), %xmm0
	vxorps	32(%r12,%r14), %xmm0, %xmm0
	vmovups	%xmm0, 32(%r12,%r14)
	vmovaps	128(%rsp), %xmm0
	vxorps	48(%r12,%r14), %xmm0, %xmm0
	vmovups	%xmm0, 48(%r12,%r14)
	addq	$-64, %r13
	addl	$4, %ebp
	cmpq	$63, %r13
	ja	.Lgcm_v3_BB45_18
# %bb.13:                               # %loop.13.preheader.i.i.i.i
	movq	40(%rsp), %r13                  # 8-byte Reload
	cmpq	%r13, %rbx
	jb	.Lgcm_v3_BB45_14
	jmp	.Lgcm_v3_BB45_39
.Lgcm_v3_BB45_3:                               # %iter.check27
	cmpq	$8, %r13
	jae	.Lgcm_v3_BB45_5
# %bb.4:
	xorl	%eax, %eax
	jmp	.Lgcm_v3_BB45_8
.Lgcm_v3_BB45_12:
	xorl	%ebx, %ebx
	movq	40(%rsp), %r13                  # 8-byte Reload
	cmpq	%r13, %rbx
	jae	.Lgcm_v3_BB45_39
.Lgcm_v3_BB45_14:                              # %join.16.i.i.i.preheader.i
	movq	%r12, %r14
	movl	16(%rsp), %r12d
	jmp	.Lgcm_v3_BB45_15
	.p2align	4
.Lgcm_v3_BB45_38:                              # %"aes_ctr::add_in_batches::add_next::<#e5e75ccdfe9e4aaa>.exit.i"
                                        #   in Loop: Header=BB45_15 Depth=1
	addq	%r15, %rbx
	cmpq	%r13, %rbx
	leaq	84(%rsp), %rsi
	jae	.Lgcm_v3_BB45_39
.Lgcm_v3_BB45_15:                              # %join.16.i.i.i.i
                                        # =>This Loop Header: Depth=1
                                        #     Child Loop BB45_25 Depth 2
                                        #     Child Loop BB45_23 Depth 2
                                        #     Child Loop BB45_29 Depth 2
                                        #     Child Loop BB45_36 Depth 2
	movl	%ebx, %ebp
	andl	$15, %ebp
	movl	$64, %eax
	subq	%rbp, %rax
	movq	%r13, %r15
	subq	%rbx, %r15
	cmpq	%rax, %r15
	cmovaeq	%rax, %r15
	leal	(%r15,%rbp), %ecx
	addl	$15, %ecx
	shrl	$4, %ecx
	movq	%rbx, %rax
	shrq	$4, %rax
	vxorps	%xmm0, %xmm0, %xmm0
	leaq	144(%rsp), %rdx
	vmovups	%ymm0, 160(%rdx)
	vmovups	%ymm0, 128(%rdx)
	vmovups	%ymm0, 96(%rdx)
	vmovups	%ymm0, 64(%rdx)
	vmovups	%ymm0, 32(%rdx)
	vmovups	%ymm0, (%rdx)
	leal	(%r12,%rax), %edx
	movl	%edx, 80(%rsp)
	leaq	20(%rsp), %r8
	movl	8(%r8), %edx
	movl	%edx, 8(%rsi)
	movq	(%r8), %rdx
	movq	%rdx, (%rsi)
	leal	1(%r12,%rax), %edx
	movl	%edx, 96(%rsp)
	movl	8(%r8), %edx
	movl	%edx, 24(%rsi)
	movq	(%r8), %rdx
	movq	%rdx, 16(%rsi)
	leal	2(%r12,%rax), %edx
	movl	%edx, 112(%rsp)
	movl	8(%r8), %edx
	movl	%edx, 40(%rsi)
	movq	(%r8), %rdx
	movq	%rdx, 32(%rsi)
	leal	3(%r12,%rax), %eax
	movl	%eax, 128(%rsp)
	movl	8(%r8), %eax
	movl	%eax, 56(%rsi)
	movq	(%r8), %rax
	movq	%rax, 48(%rsi)
	leaq	80(%rsp), %rdx
	movq	%r10, %rsi
	vzeroupper
	callq	gcm_v3.aes_permute.blocks.process_on_lanes
	leaq	(%r14,%rbx), %rax
	testq	%rbp, %rbp
	je	.Lgcm_v3_BB45_16
# %bb.19:                               # %then.1.i.i2.i
                                        #   in Loop: Header=BB45_15 Depth=1
	movl	$16, %ecx
	subq	%rbp, %rcx
	cmpq	%rcx, %r15
	cmovbq	%r15, %rcx
	cmpq	%rbx, %r13
	je	.Lgcm_v3_BB45_27
# %bb.20:                               # %join.8.i80.lr.ph.i.i
                                        #   in Loop: Header=BB45_15 Depth=1
	movl	%ecx, %edx
	andl	$7, %edx
	cmpq	$8, %rcx
	jae	.Lgcm_v3_BB45_24
# %bb.21:                               #   in Loop: Header=BB45_15 Depth=1
	xorl	%esi, %esi
	jmp	.Lgcm_v3_BB45_22
	.p2align	4
.Lgcm_v3_BB45_16:                              #   in Loop: Header=BB45_15 Depth=1
	xorl	%ecx, %ecx
.Lgcm_v3_BB45_27:                              #   in Loop: Header=BB45_15 Depth=1
	movq	8(%rsp), %r10                   # 8-byte Reload
	jmp	.Lgcm_v3_BB45_28
.Lgcm_v3_BB45_24:                              # %join.8.i80.lr.ph.i.i.new
                                        #   in Loop: Header=BB45_15 Depth=1
	movl	%ecx, %edi
	andl	$24, %edi
	leaq	87(%rsp), %rsi
	leaq	(%rsi,%rbp), %r8
	leaq	7(%r14), %rsi
	leaq	(%rsi,%rbx), %r9
	xorl	%esi, %esi
	.p2align	4
.Lgcm_v3_BB45_25:                              # %join.8.i80.i.i
                                        #   Parent Loop BB45_15 Depth=1
                                        # =>  This Inner Loop Header: Depth=2
	movzbl	-7(%r8,%rsi), %r10d
	xorb	%r10b, -7(%r9,%rsi)
	movzbl	-6(%r8,%rsi), %r10d
	xorb	%r10b, -6(%r9,%rsi)
	movzbl	-5(%r8,%rsi), %r10d
	xorb	%r10b, -5(%r9,%rsi)
	movzbl	-4(%r8,%rsi), %r10d
	xorb	%r10b, -4(%r9,%rsi)
	movzbl	-3(%r8,%rsi), %r10d
	xorb	%r10b, -3(%r9,%rsi)
	movzbl	-2(%r8,%rsi), %r10d
	xorb	%r10b, -2(%r9,%rsi)
	movzbl	-1(%r8,%rsi), %r10d
	xorb	%r10b, -1(%r9,%rsi)
	movzbl	(%r8,%rsi), %r10d
	xorb	%r10b, (%r9,%rsi)
	addq	$8, %rsi
	cmpq	%rsi, %rdi
	jne	.Lgcm_v3_BB45_25
# %bb.26:                               # %join.3.i.i.i.loopexit.unr-lcssa
                                        #   in Loop: Header=BB45_15 Depth=1
	testq	%rdx, %rdx
	je	.Lgcm_v3_BB45_27
.Lgcm_v3_BB45_22:                              # %join.8.i80.i.i.epil.preheader
                                        #   in Loop: Header=BB45_15 Depth=1
	leaq	(%rax,%rsi), %rdi
	addq	%rbp, %rsi
	addq	%rsp, %rsi
	addq	$80, %rsi
	xorl	%r8d, %r8d
	movq	8(%rsp), %r10                   # 8-byte Reload
	.p2align	4
.Lgcm_v3_BB45_23:                              # %join.8.i80.i.i.epil
                                        #   Parent Loop BB45_15 Depth=1
                                        # =>  This Inner Loop Header: Depth=2
	movzbl	(%rsi,%r8), %r9d
	xorb	%r9b, (%rdi,%r8)
	incq	%r8
	cmpq	%r8, %rdx
	jne	.Lgcm_v3_BB45_23
.Lgcm_v3_BB45_28:                              # %join.3.i.i.i
                                        #   in Loop: Header=BB45_15 Depth=1
	movq	%r15, %rdx
	subq	%rcx, %rdx
	cmpq	$16, %rdx
	movq	32(%rsp), %rdi                  # 8-byte Reload
	jb	.Lgcm_v3_BB45_30
	.p2align	4
.Lgcm_v3_BB45_29:                              # %join.8.i.i.i
                                        #   Parent Loop BB45_15 Depth=1
                                        # =>  This Inner Loop Header: Depth=2
	leaq	(%rcx,%rbp), %rsi
	andq	$-16, %rsi
	vmovups	80(%rsp,%rsi), %xmm0
	vxorps	(%rax,%rcx), %xmm0, %xmm0
	vmovups	%xmm0, (%rax,%rcx)
	addq	$16, %rcx
	addq	$-16, %rdx
	cmpq	$15, %rdx
	ja	.Lgcm_v3_BB45_29
.Lgcm_v3_BB45_30:                              # %after.4.i.i.i
                                        #   in Loop: Header=BB45_15 Depth=1
	cmpq	%r15, %rcx
	jae	.Lgcm_v3_BB45_38
# %bb.31:                               # %then.9.i.i.i
                                        #   in Loop: Header=BB45_15 Depth=1
	testq	%rdx, %rdx
	je	.Lgcm_v3_BB45_38
# %bb.32:                               # %iter.check
                                        #   in Loop: Header=BB45_15 Depth=1
	addq	%rcx, %rbp
	andq	$-16, %rbp
	leaq	(%rsp,%rbp), %rsi
	addq	$80, %rsi
	addq	%rcx, %rax
	cmpq	$8, %rdx
	jae	.Lgcm_v3_BB45_35
# %bb.33:                               #   in Loop: Header=BB45_15 Depth=1
	xorl	%ecx, %ecx
	jmp	.Lgcm_v3_BB45_34
.Lgcm_v3_BB45_35:                              # %vec.epilog.ph
                                        #   in Loop: Header=BB45_15 Depth=1
	movl	%edx, %ecx
	andl	$8, %ecx
	xorl	%r9d, %r9d
	.p2align	4
.Lgcm_v3_BB45_36:                              # %vec.epilog.vector.body
                                        #   Parent Loop BB45_15 Depth=1
                                        # =>  This Inner Loop Header: Depth=2
	movq	(%rsi,%r9), %r8
	xorq	%r8, (%rax,%r9)
	addq	$8, %r9
	cmpq	%r9, %rcx
	jne	.Lgcm_v3_BB45_36
	jmp	.Lgcm_v3_BB45_37
	.p2align	4
.Lgcm_v3_BB45_34:                              # %join.8.i23.i.i
                                        #   in Loop: Header=BB45_15 Depth=1
	movzbl	(%rsi,%rcx), %r8d
	xorb	%r8b, (%rax,%rcx)
	incq	%rcx
.Lgcm_v3_BB45_37:                              # %join.8.i23.i.i
                                        #   in Loop: Header=BB45_15 Depth=1
	cmpq	%rcx, %rdx
	jne	.Lgcm_v3_BB45_34
	jmp	.Lgcm_v3_BB45_38
.Lgcm_v3_BB45_5:                               # %vec.epilog.ph50
	movl	%r13d, %eax
	andl	$24, %eax
	movq	80(%rsp), %rcx
	xorq	%rcx, (%r12)
	cmpq	$8, %rax
	je	.Lgcm_v3_BB45_7
# %bb.6:                                # %vec.epilog.vector.body53.1
	movq	88(%rsp), %rcx
	xorq	%rcx, 8(%r12)
.Lgcm_v3_BB45_7:                               # %vec.epilog.middle.block58
	cmpq	%rax, %r13
	je	.Lgcm_v3_BB45_39
.Lgcm_v3_BB45_8:                               # %join.8.i6.i.i.i
	movzbl	80(%rsp,%rax), %ecx
	xorb	%cl, (%r12,%rax)
	incq	%rax
	jmp	.Lgcm_v3_BB45_7
.Lgcm_v3_BB45_39:                              # %"gcm_siv::counters::add_keystream::<#9afc0f8057cec37b>.exit"
	addq	$344, %rsp                      # imm = 0x158
	popq	%rbx
	popq	%r12
	popq	%r13
	popq	%r14
	popq	%r15
	popq	%rbp
	retq
.Lgcm_v3_func_end45:
	.size	gcm_v3.gcm_siv.message.process_text, .Lgcm_v3_func_end45-gcm_v3.gcm_siv.message.process_text
                                        # -- End function
	.section	.text.gcm_v3.aes_hybrid.closures.lend_planes.2,"ax",@progbits
	.p2align	4                               # -- Begin function aes_hybrid::closures::lend_planes::<#0bbc1a915c6a8201>
	.type	gcm_v3.aes_hybrid.closures.lend_planes.2,@function
gcm_v3.aes_hybrid.closures.lend_planes.2: # @gcm_v3.aes_hybrid.closures.lend_planes.2
# %bb.0:                                # %start
	pushq	%rbp
	movq	%rsp, %rbp
	pushq	%r15
	pushq	%r14
	pushq	%r13
	pushq	%r12
	pushq	%rbx
	andq	$-32, %rsp
	subq	$3040, %rsp                     # imm = 0xBE0
	movq	$0, (%rsp)
	subq	$896, %rsp                      # imm = 0x380
	movq	%r8, 24(%rsp)                   # 8-byte Spill
	movq	%rcx, 16(%rsp)                  # 8-byte Spill
	movq	%rdx, %r15
	movq	%rsi, %r12
	movq	%rdi, %r13
	leaq	320(%rsp), %rdi
	movl	$3584, %edx                     # imm = 0xE00
	xorl	%esi, %esi
	callq	*memset@GOTPCREL(%rip)
	leaq	(,%r12,8), %rbx
	leaq	64(%rsp), %r14
	movq	%r14, %rdi
	movq	%r13, %rsi
	movq	%r12, %rdx
	callq	gcm_v3.aes_hybrid.plane_keys.store_planes
	movq	%r13, 32(%rsp)
	movq	%r12, 40(%rsp)
	movq	%r15, 48(%rsp)
	movq	16(%rsp), %rax                  # 8-byte Reload
	movq	%rax, 56(%rsp)
	leaq	32(%rsp), %rdi
	movq	%r14, %rsi
	movq	%rbx, %rdx
	movq	24(%rsp), %rcx                  # 8-byte Reload
	callq	gcm_v3.aes_hybrid.closures.call_to_work.2
	movq	%r14, %rdi
	callq	gcm_v3.aes_cipher.zeroize.zeroize_words
	callq	gcm_v3.aes_cipher.zeroize.stack.wipe_stack.2032
	leaq	-40(%rbp), %rsp
	popq	%rbx
	popq	%r12
	popq	%r13
	popq	%r14
	popq	%r15
	popq	%rbp
	retq
.Lgcm_v3_func_end46:
	.size	gcm_v3.aes_hybrid.closures.lend_planes.2, .Lgcm_v3_func_end46-gcm_v3.aes_hybrid.closures.lend_planes.2
                                        # -- End function
	.section	.rodata.cst32,"aM",@progbits,32
	.p2align	5, 0x0                          # -- Begin function aes_hybrid::closures::call_to_work::<#0bbc1a915c6a8201>
.Lgcm_v3_CPI47_0:
	.byte	0                               # 0x0
	.byte	4                               # 0x4
	.zero	1
	.zero	1
	.byte	1                               # 0x1
	.byte	5                               # 0x5
	.zero	1
	.zero	1
	.byte	2                               # 0x2
	.byte	6                               # 0x6
	.zero	1
	.zero	1
	.byte	3                               # 0x3
	.byte	7                               # 0x7
	.zero	1
	.zero	1
	.byte	0                               # 0x0
	.byte	4                               # 0x4
	.byte	8                               # 0x8
	.byte	12                              # 0xc
	.byte	1                               # 0x1
	.byte	5                               # 0x5
	.byte	9                               # 0x9
	.byte	13                              # 0xd
	.byte	2                               # 0x2
	.byte	6                               # 0x6
	.byte	10                              # 0xa
	.byte	14                              # 0xe
	.byte	3                               # 0x3
	.byte	7                               # 0x7
	.byte	11                              # 0xb
	.byte	15                              # 0xf
.Lgcm_v3_CPI47_2:
	.byte	0                               # 0x0
	.byte	4                               # 0x4
	.byte	8                               # 0x8
	.byte	12                              # 0xc
	.byte	1                               # 0x1
	.byte	5                               # 0x5
	.byte	9                               # 0x9
	.byte	13                              # 0xd
	.byte	2                               # 0x2
	.byte	6                               # 0x6
	.byte	10                              # 0xa
	.byte	14                              # 0xe
	.byte	3                               # 0x3
	.byte	7                               # 0x7
	.byte	11                              # 0xb
	.byte	15                              # 0xf
	.byte	0                               # 0x0
	.byte	4                               # 0x4
	.byte	8                               # 0x8
	.byte	12                              # 0xc
	.byte	1                               # 0x1
	.byte	5                               # 0x5
	.byte	9                               # 0x9
	.byte	13                              # 0xd
	.byte	2                               # 0x2
	.byte	6                               # 0x6
	.byte	10                              # 0xa
	.byte	14                              # 0xe
	.byte	3                               # 0x3
	.byte	7                               # 0x7
	.byte	11                              # 0xb
	.byte	15                              # 0xf
.Lgcm_v3_CPI47_3:
	.zero	32,85
.Lgcm_v3_CPI47_4:
	.zero	32,51
.Lgcm_v3_CPI47_5:
	.zero	32,15
	.section	.rodata.cst16,"aM",@progbits,16
	.p2align	4, 0x0
.Lgcm_v3_CPI47_1:
	.zero	1
	.zero	1
	.byte	0                               # 0x0
	.byte	4                               # 0x4
	.zero	1
	.zero	1
	.byte	1                               # 0x1
	.byte	5                               # 0x5
	.zero	1
	.zero	1
	.byte	2                               # 0x2
	.byte	6                               # 0x6
	.zero	1
	.zero	1
	.byte	3                               # 0x3
	.byte	7                               # 0x7
.Lgcm_v3_CPI47_6:
	.byte	0                               # 0x0
	.byte	4                               # 0x4
	.byte	8                               # 0x8
	.byte	12                              # 0xc
	.byte	1                               # 0x1
	.byte	5                               # 0x5
	.byte	9                               # 0x9
	.byte	13                              # 0xd
	.byte	2                               # 0x2
	.byte	6                               # 0x6
	.byte	10                              # 0xa
	.byte	14                              # 0xe
	.byte	3                               # 0x3
	.byte	7                               # 0x7
	.byte	11                              # 0xb
	.byte	15                              # 0xf
	.section	.rodata.cst4,"aM",@progbits,4
	.p2align	2, 0x0
.Lgcm_v3_CPI47_7:
	.zero	4,85
.Lgcm_v3_CPI47_8:
	.zero	4,51
.Lgcm_v3_CPI47_9:
	.zero	4,15
	.section	.text.gcm_v3.aes_hybrid.closures.call_to_work.2,"ax",@progbits
	.p2align	4
	.type	gcm_v3.aes_hybrid.closures.call_to_work.2,@function
gcm_v3.aes_hybrid.closures.call_to_work.2: # @gcm_v3.aes_hybrid.closures.call_to_work.2
# %bb.0:                                # %start
	pushq	%rbp
	pushq	%r15
	pushq	%r14
	pushq	%r13
	pushq	%r12
	pushq	%rbx
	subq	$440, %rsp                      # imm = 0x1B8
	movq	%rdx, %r10
	movq	%rdi, 136(%rsp)
	movq	%rsi, 128(%rsp)                 # 8-byte Spill
	movq	%rsi, 144(%rsp)
	movq	%rdx, 152(%rsp)
	movq	(%rcx), %rbx
	movq	8(%rcx), %r14
	movq	24(%rcx), %r15
	movq	16(%rcx), %r12
	testb	$15, %r14b
	je	.Lgcm_v3_BB47_1
# %bb.2:                                # %then.1.i.i
	leaq	136(%rsp), %rdi
	movq	%rbx, %rsi
	movq	%r14, %rdx
	xorl	%ecx, %ecx
	movq	%r12, %r8
	movq	%r15, %r9
	movq	%r10, %r13
	callq	gcm_v3.aes_ctr.add_in_batches.add_next.3
	movq	%r13, %r10
	movq	%rax, %rbp
	jmp	.Lgcm_v3_BB47_3
.Lgcm_v3_BB47_1:
	xorl	%ebp, %ebp
.Lgcm_v3_BB47_3:                               # %join.3.i.i
	movq	%r15, 112(%rsp)                 # 8-byte Spill
	subq	%rbp, %r15
	cmpq	$256, %r15                      # imm = 0x100
	movq	%rbx, 8(%rsp)                   # 8-byte Spill
	movq	%r14, (%rsp)                    # 8-byte Spill
	jb	.Lgcm_v3_BB47_6
# %bb.4:                                # %join.11.lr.ph.i.i
	leaq	4(%rbx), %rcx
	movq	%rcx, 120(%rsp)                 # 8-byte Spill
	leaq	176(%rsp), %r13
	andq	$-32, %r13
	leaq	20(%rsp), %rbx
	shrq	$3, %r10
	decq	%r10
	.p2align	4
.Lgcm_v3_BB47_5:                               # %join.11.i.i
                                        # =>This Inner Loop Header: Depth=1
	movq	(%rsp), %rax                    # 8-byte Reload
	leaq	(%rax,%rbp), %rdx
	shrq	$4, %rdx
	movq	8(%rsp), %r11                   # 8-byte Reload
	movl	(%r11), %esi
	leal	(%rdx,%rsi), %r8d
	movl	%r8d, 16(%rsp)
	movq	120(%rsp), %r14                 # 8-byte Reload
	movl	8(%r14), %eax
	movl	%eax, 8(%rbx)
	movq	(%r14), %rax
	movq	%rax, (%rbx)
	leal	1(%rsi,%rdx), %edi
	movl	%edi, 32(%rsp)
	movl	8(%r14), %eax
	movl	%eax, 24(%rbx)
	movq	(%r14), %rax
	movq	%rax, 16(%rbx)
	leal	2(%rsi,%rdx), %ecx
	movl	%ecx, 48(%rsp)
	movl	8(%r14), %eax
	movl	%eax, 40(%rbx)
	movq	(%r14), %rax
	movq	%rax, 32(%rbx)
	leal	3(%rsi,%rdx), %eax
	movl	%eax, 64(%rsp)
	movl	8(%r14), %r9d
	movl	%r9d, 56(%rbx)
	movq	(%r14), %r9
	movq	%r9, 48(%rbx)
	leal	4(%rsi,%rdx), %r9d
	movl	%r9d, 80(%rsp)
	movl	8(%r14), %r9d
	movl	%r9d, 72(%rbx)
	movq	(%r14), %r9
	movq	%r9, 64(%rbx)
	leal	5(%rsi,%rdx), %r9d
	movl	%r9d, 96(%rsp)
	movl	8(%r14), %r9d
	movl	%r9d, 88(%rbx)
	movq	(%r14), %r9
	movq	%r9, 80(%rbx)
	movq	4(%r11), %r9
	vpinsrd	$1, %r9d, %xmm0, %xmm0
	shrq	$32, %r9
	vpinsrd	$2, %r9d, %xmm0, %xmm0
	leal	(%rsi,%rdx), %r9d
	addl	$6, %r9d
	vmovd	%r9d, %xmm1
	leal	7(%rsi,%rdx), %r9d
	vmovd	%r9d, %xmm2
	leal	8(%rsi,%rdx), %r9d
	vmovd	%r9d, %xmm3
	leal	9(%rsi,%rdx), %r9d
	vmovd	%r9d, %xmm4
	leal	10(%rsi,%rdx), %r9d
	vmovd	%r9d, %xmm5
	leal	11(%rsi,%rdx), %r9d
	vmovd	%r9d, %xmm6
	leal	12(%rsi,%rdx), %r9d
	vmovd	%r9d, %xmm8
	leal	(%rsi,%rdx), %r9d
	addl	$13, %r9d
	vmovd	%r9d, %xmm7
	movl	%r8d, %r9d
	shrl	$8, %r9d
	vmovd	%r8d, %xmm9
	vpinsrb	$1, %r9d, %xmm9, %xmm9
	leal	(%rsi,%rdx), %r9d
	addl	$14, %r9d
	vmovd	%r9d, %xmm11
	movl	%r8d, %r9d
	shrl	$16, %r9d
	vpinsrb	$2, %r9d, %xmm9, %xmm9
	addl	%esi, %edx
	addl	$15, %edx
	shrl	$24, %r8d
	vpinsrb	$3, %r8d, %xmm9, %xmm12
	vmovd	%edi, %xmm9
	movl	%edi, %esi
	shrl	$8, %esi
	vpinsrb	$1, %esi, %xmm9, %xmm9
	vmovd	%edx, %xmm13
	movl	%edi, %edx
	shrl	$16, %edx
	vpinsrb	$2, %edx, %xmm9, %xmm14
	vpinsrd	$3, 12(%r11), %xmm0, %xmm9
	vpblendd	$1, %xmm1, %xmm9, %xmm0         # xmm0 = xmm1[0],xmm9[1,2,3]
	vpblendd	$1, %xmm3, %xmm9, %xmm10        # xmm10 = xmm3[0],xmm9[1,2,3]
	vpblendd	$1, %xmm5, %xmm9, %xmm5         # xmm5 = xmm5[0],xmm9[1,2,3]
	vpblendd	$1, %xmm8, %xmm9, %xmm3         # xmm3 = xmm8[0],xmm9[1,2,3]
	vpblendd	$1, %xmm11, %xmm9, %xmm1        # xmm1 = xmm11[0],xmm9[1,2,3]
	vinserti128	$1, %xmm9, %ymm0, %ymm8
	vpbroadcastd	%xmm2, %ymm2
	vpblendd	$16, %ymm2, %ymm8, %ymm2        # ymm2 = ymm8[0,1,2,3],ymm2[4],ymm8[5,6,7]
	vpbroadcastd	%xmm4, %ymm4
	vpblendd	$16, %ymm4, %ymm8, %ymm9        # ymm9 = ymm8[0,1,2,3],ymm4[4],ymm8[5,6,7]
	vpbroadcastd	%xmm6, %ymm4
	vpblendd	$16, %ymm4, %ymm8, %ymm4        # ymm4 = ymm8[0,1,2,3],ymm4[4],ymm8[5,6,7]
	vpbroadcastd	%xmm7, %ymm6
	vpblendd	$16, %ymm6, %ymm8, %ymm6        # ymm6 = ymm8[0,1,2,3],ymm6[4],ymm8[5,6,7]
	vpbroadcastd	%xmm13, %ymm7
	vpblendd	$16, %ymm7, %ymm8, %ymm7        # ymm7 = ymm8[0,1,2,3],ymm7[4],ymm8[5,6,7]
	vperm2i128	$49, %ymm7, %ymm2, %ymm2 # ymm2 = ymm2[2,3],ymm7[2,3]
	shrl	$24, %edi
	vpunpckldq	20(%rsp), %xmm12, %xmm7 # xmm7 = xmm12[0],mem[0],xmm12[1],mem[1]
	vpinsrb	$3, %edi, %xmm14, %xmm11
	vmovdqu	24(%rsp), %xmm12
	vinserti128	$1, %xmm10, %ymm7, %ymm7
	vbroadcasti128	.Lgcm_v3_CPI47_6(%rip), %ymm8  # ymm8 = [0,4,8,12,1,5,9,13,2,6,10,14,3,7,11,15,0,4,8,12,1,5,9,13,2,6,10,14,3,7,11,15]
                                        # ymm8 = mem[0,1,0,1]
	vpshufb	%ymm8, %ymm7, %ymm7
	vmovdqa	.Lgcm_v3_CPI47_1(%rip), %xmm10         # xmm10 = [u,u,0,4,u,u,1,5,u,u,2,6,u,u,3,7]
	vpshufb	%xmm10, %xmm12, %xmm12
	vpblendw	$170, %xmm12, %xmm7, %xmm12     # xmm12 = xmm7[0],xmm12[1],xmm7[2],xmm12[3],xmm7[4],xmm12[5],xmm7[6],xmm12[7]
	vpblendd	$240, %ymm7, %ymm12, %ymm7      # ymm7 = ymm12[0,1,2,3],ymm7[4,5,6,7]
	vmovd	%ecx, %xmm12
	movl	%ecx, %edx
	shrl	$8, %edx
	vpinsrb	$1, %edx, %xmm12, %xmm12
	movl	%ecx, %edx
	shrl	$16, %edx
	vpinsrb	$2, %edx, %xmm12, %xmm12
	shrl	$24, %ecx
	vpinsrb	$3, %ecx, %xmm12, %xmm12
	vpunpckldq	36(%rsp), %xmm11, %xmm11 # xmm11 = xmm11[0],mem[0],xmm11[1],mem[1]
	vpblendd	$240, %ymm9, %ymm11, %ymm9      # ymm9 = ymm11[0,1,2,3],ymm9[4,5,6,7]
	vmovdqu	40(%rsp), %xmm11
	vpshufb	%ymm8, %ymm9, %ymm9
	vpshufb	%xmm10, %xmm11, %xmm11
	vpblendw	$170, %xmm11, %xmm9, %xmm11     # xmm11 = xmm9[0],xmm11[1],xmm9[2],xmm11[3],xmm9[4],xmm11[5],xmm9[6],xmm11[7]
	vpblendd	$240, %ymm9, %ymm11, %ymm9      # ymm9 = ymm11[0,1,2,3],ymm9[4,5,6,7]
	vmovd	%eax, %xmm11
	shrl	$8, %eax
	vpinsrb	$1, %eax, %xmm11, %xmm11
	vpunpckldq	52(%rsp), %xmm12, %xmm12 # xmm12 = xmm12[0],mem[0],xmm12[1],mem[1]
	vinserti128	$1, %xmm5, %ymm12, %ymm5
	vmovdqu	56(%rsp), %xmm12
	vpshufb	%ymm8, %ymm5, %ymm5
	vpshufb	%xmm10, %xmm12, %xmm12
	vpblendw	$170, %xmm12, %xmm5, %xmm12     # xmm12 = xmm5[0],xmm12[1],xmm5[2],xmm12[3],xmm5[4],xmm12[5],xmm5[6],xmm12[7]
	vpblendd	$240, %ymm5, %ymm12, %ymm5      # ymm5 = ymm12[0,1,2,3],ymm5[4,5,6,7]
	vmovdqa	96(%rsp), %xmm12
	vextracti128	$1, %ymm6, %xmm6
	vpinsrb	$2, 66(%rsp), %xmm11, %xmm11
	vpinsrb	$3, 67(%rsp), %xmm11, %xmm11
	vpunpckldq	68(%rsp), %xmm11, %xmm11 # xmm11 = xmm11[0],mem[0],xmm11[1],mem[1]
	vpblendd	$240, %ymm4, %ymm11, %ymm4      # ymm4 = ymm11[0,1,2,3],ymm4[4,5,6,7]
	vmovdqu	72(%rsp), %xmm11
	vperm2i128	$2, 80(%rsp), %ymm3, %ymm3 # ymm3 = mem[0,1],ymm3[0,1]
	vpshufb	%ymm8, %ymm4, %ymm4
	vpshufb	%xmm10, %xmm11, %xmm8
	vpblendw	$170, %xmm8, %xmm4, %xmm8       # xmm8 = xmm4[0],xmm8[1],xmm4[2],xmm8[3],xmm4[4],xmm8[5],xmm4[6],xmm8[7]
	vpblendd	$240, %ymm4, %ymm8, %ymm4       # ymm4 = ymm8[0,1,2,3],ymm4[4,5,6,7]
	vbroadcasti128	.Lgcm_v3_CPI47_6(%rip), %ymm8  # ymm8 = [0,4,8,12,1,5,9,13,2,6,10,14,3,7,11,15,0,4,8,12,1,5,9,13,2,6,10,14,3,7,11,15]
                                        # ymm8 = mem[0,1,0,1]
	vpshufb	%ymm8, %ymm3, %ymm3
	vinserti128	$1, %xmm6, %ymm12, %ymm6
	vpshufb	%ymm8, %ymm6, %ymm6
	vinserti128	$1, %xmm1, %ymm0, %ymm0
	vpshufb	%ymm8, %ymm0, %ymm1
	vpshufb	%ymm8, %ymm2, %ymm8
	vpsrlw	$1, %ymm7, %ymm0
	vpxor	%ymm0, %ymm9, %ymm0
	vpbroadcastd	.Lgcm_v3_CPI47_7(%rip), %ymm10 # ymm10 = [85,85,85,85,85,85,85,85,85,85,85,85,85,85,85,85,85,85,85,85,85,85,85,85,85,85,85,85,85,85,85,85]
	vpand	%ymm0, %ymm10, %ymm2
	vpxor	%ymm2, %ymm9, %ymm0
	vpaddb	%ymm2, %ymm2, %ymm2
	vpxor	%ymm7, %ymm2, %ymm7
	vpsrlw	$1, %ymm5, %ymm2
	vpxor	%ymm2, %ymm4, %ymm2
	vpand	%ymm2, %ymm10, %ymm2
	vpxor	%ymm4, %ymm2, %ymm4
	vpaddb	%ymm2, %ymm2, %ymm2
	vpxor	%ymm5, %ymm2, %ymm5
	vpsrlw	$1, %ymm3, %ymm2
	vpxor	%ymm2, %ymm6, %ymm2
	vpand	%ymm2, %ymm10, %ymm9
	vpxor	%ymm6, %ymm9, %ymm2
	vpaddb	%ymm9, %ymm9, %ymm6
	vpxor	%ymm3, %ymm6, %ymm3
	vpsrlw	$1, %ymm1, %ymm6
	vpxor	%ymm6, %ymm8, %ymm6
	vpand	%ymm6, %ymm10, %ymm6
	vpxor	%ymm6, %ymm8, %ymm8
	vpaddb	%ymm6, %ymm6, %ymm6
	vpxor	%ymm1, %ymm6, %ymm6
	vpsrlw	$2, %ymm7, %ymm1
	vpxor	%ymm1, %ymm5, %ymm1
	vpbroadcastd	.Lgcm_v3_CPI47_8(%rip), %ymm10 # ymm10 = [51,51,51,51,51,51,51,51,51,51,51,51,51,51,51,51,51,51,51,51,51,51,51,51,51,51,51,51,51,51,51,51]
	vpand	%ymm1, %ymm10, %ymm9
	vpxor	%ymm5, %ymm9, %ymm1
	vpsllw	$2, %ymm9, %ymm5
	vpxor	%ymm7, %ymm5, %ymm5
	vpsrlw	$2, %ymm3, %ymm7
	vpxor	%ymm7, %ymm6, %ymm7
	vpand	%ymm7, %ymm10, %ymm7
	vpxor	%ymm6, %ymm7, %ymm6
	vpsllw	$2, %ymm7, %ymm7
	vpxor	%ymm3, %ymm7, %ymm7
	vpsrlw	$2, %ymm0, %ymm3
	vpxor	%ymm3, %ymm4, %ymm3
	vpand	%ymm3, %ymm10, %ymm9
	vpxor	%ymm4, %ymm9, %ymm3
	vpsllw	$2, %ymm9, %ymm4
	vpxor	%ymm0, %ymm4, %ymm0
	vpsrlw	$2, %ymm2, %ymm4
	vpxor	%ymm4, %ymm8, %ymm4
	vpand	%ymm4, %ymm10, %ymm4
	vpxor	%ymm4, %ymm8, %ymm8
	vpsllw	$2, %ymm4, %ymm4
	vpxor	%ymm2, %ymm4, %ymm2
	vpsrlw	$4, %ymm5, %ymm4
	vpbroadcastd	.Lgcm_v3_CPI47_9(%rip), %ymm9  # ymm9 = [15,15,15,15,15,15,15,15,15,15,15,15,15,15,15,15,15,15,15,15,15,15,15,15,15,15,15,15,15,15,15,15]
	vpxor	%ymm4, %ymm7, %ymm4
	vpand	%ymm4, %ymm9, %ymm4
	vpxor	%ymm7, %ymm4, %ymm7
	vpsllw	$4, %ymm4, %ymm4
	vpxor	%ymm5, %ymm4, %ymm4
	vpsrlw	$4, %ymm0, %ymm5
	vpxor	%ymm5, %ymm2, %ymm5
	vpand	%ymm5, %ymm9, %ymm5
	vpxor	%ymm2, %ymm5, %ymm2
	vpsllw	$4, %ymm5, %ymm5
	vpxor	%ymm0, %ymm5, %ymm0
	vpsrlw	$4, %ymm1, %ymm5
	vpxor	%ymm5, %ymm6, %ymm5
	vpand	%ymm5, %ymm9, %ymm5
	vpxor	%ymm6, %ymm5, %ymm6
	vpsllw	$4, %ymm5, %ymm5
	vpxor	%ymm1, %ymm5, %ymm1
	vpsrlw	$4, %ymm3, %ymm5
	vpxor	%ymm5, %ymm8, %ymm5
	vpand	%ymm5, %ymm9, %ymm5
	vpxor	%ymm5, %ymm8, %ymm8
	vpsllw	$4, %ymm5, %ymm5
	vpxor	%ymm3, %ymm5, %ymm3
	vmovdqa	%ymm4, (%r13)
	vmovdqa	%ymm0, 32(%r13)
	vmovdqa	%ymm1, 64(%r13)
	vmovdqa	%ymm3, 96(%r13)
	vmovdqa	%ymm7, 128(%r13)
	vmovdqa	%ymm2, 160(%r13)
	vmovdqa	%ymm6, 192(%r13)
	vmovdqa	%ymm8, 224(%r13)
	movq	128(%rsp), %rdi                 # 8-byte Reload
	movq	%r10, %rsi
	movq	%r13, %rdx
	movq	%r10, %r14
	vzeroupper
	callq	gcm_v3.aes_soft.soft.ciphers.planes.EncryptPlaneCipher.process_planes
	movq	%r14, %r10
	vmovdqa	(%r13), %ymm1
	vmovdqa	32(%r13), %ymm0
	vmovdqa	64(%r13), %ymm4
	vmovdqa	96(%r13), %ymm2
	vmovdqa	128(%r13), %ymm6
	vmovdqa	160(%r13), %ymm7
	vmovdqa	192(%r13), %ymm8
	vmovdqa	224(%r13), %ymm9
	vpsrlw	$1, %ymm1, %ymm3
	vpxor	%ymm3, %ymm0, %ymm3
	vpbroadcastd	.Lgcm_v3_CPI47_7(%rip), %ymm13 # ymm13 = [85,85,85,85,85,85,85,85,85,85,85,85,85,85,85,85,85,85,85,85,85,85,85,85,85,85,85,85,85,85,85,85]
	vpand	%ymm3, %ymm13, %ymm3
	vpxor	%ymm0, %ymm3, %ymm0
	vpsrlw	$1, %ymm4, %ymm5
	vpaddb	%ymm3, %ymm3, %ymm10
	vpxor	%ymm5, %ymm2, %ymm3
	vpand	%ymm3, %ymm13, %ymm5
	vpxor	%ymm2, %ymm5, %ymm3
	vpaddb	%ymm5, %ymm5, %ymm11
	vpsrlw	$1, %ymm6, %ymm2
	vpxor	%ymm2, %ymm7, %ymm2
	vpand	%ymm2, %ymm13, %ymm12
	vpxor	%ymm1, %ymm10, %ymm5
	vpxor	%ymm7, %ymm12, %ymm2
	vpaddb	%ymm12, %ymm12, %ymm1
	vpsrlw	$1, %ymm8, %ymm7
	vpxor	%ymm4, %ymm11, %ymm4
	vpxor	%ymm7, %ymm9, %ymm7
	vpand	%ymm7, %ymm13, %ymm7
	vpxor	%ymm7, %ymm9, %ymm9
	vpxor	%ymm6, %ymm1, %ymm10
	vpaddb	%ymm7, %ymm7, %ymm1
	vpxor	%ymm1, %ymm8, %ymm1
	vpsrlw	$2, %ymm5, %ymm6
	vpxor	%ymm6, %ymm4, %ymm6
	vpbroadcastd	.Lgcm_v3_CPI47_8(%rip), %ymm13 # ymm13 = [51,51,51,51,51,51,51,51,51,51,51,51,51,51,51,51,51,51,51,51,51,51,51,51,51,51,51,51,51,51,51,51]
	vpand	%ymm6, %ymm13, %ymm6
	vpxor	%ymm4, %ymm6, %ymm4
	vpsrlw	$2, %ymm10, %ymm7
	vpsllw	$2, %ymm6, %ymm8
	vpxor	%ymm7, %ymm1, %ymm6
	vpand	%ymm6, %ymm13, %ymm7
	vpsrlw	$2, %ymm0, %ymm6
	vpxor	%ymm1, %ymm7, %ymm1
	vpxor	%ymm6, %ymm3, %ymm6
	vpand	%ymm6, %ymm13, %ymm11
	vpxor	%ymm3, %ymm11, %ymm6
	vpsllw	$2, %ymm7, %ymm12
	vpsllw	$2, %ymm11, %ymm3
	vpxor	%ymm0, %ymm3, %ymm11
	vpsrlw	$2, %ymm2, %ymm0
	vpxor	%ymm5, %ymm8, %ymm7
	vpxor	%ymm0, %ymm9, %ymm0
	vpand	%ymm0, %ymm13, %ymm0
	vpxor	%ymm0, %ymm9, %ymm3
	vpxor	%ymm10, %ymm12, %ymm9
	vpsllw	$2, %ymm0, %ymm0
	vpxor	%ymm2, %ymm0, %ymm0
	vpsrlw	$4, %ymm7, %ymm2
	vpxor	%ymm2, %ymm9, %ymm2
	vpsrlw	$4, %ymm11, %ymm5
	vpxor	%ymm5, %ymm0, %ymm5
	vpbroadcastd	.Lgcm_v3_CPI47_9(%rip), %ymm12 # ymm12 = [15,15,15,15,15,15,15,15,15,15,15,15,15,15,15,15,15,15,15,15,15,15,15,15,15,15,15,15,15,15,15,15]
	vpand	%ymm5, %ymm12, %ymm5
	vpand	%ymm2, %ymm12, %ymm10
	vpxor	%ymm0, %ymm5, %ymm0
	vpsllw	$4, %ymm5, %ymm2
	vpsrlw	$4, %ymm4, %ymm8
	vpxor	%ymm2, %ymm11, %ymm5
	vpxor	%ymm1, %ymm8, %ymm2
	vpand	%ymm2, %ymm12, %ymm8
	vpsllw	$4, %ymm8, %ymm11
	vpxor	%ymm9, %ymm10, %ymm2
	vpxor	%ymm4, %ymm11, %ymm4
	vpsrlw	$4, %ymm6, %ymm9
	vpxor	%ymm3, %ymm9, %ymm9
	vpsllw	$4, %ymm10, %ymm10
	vpand	%ymm12, %ymm9, %ymm9
	vpsllw	$4, %ymm9, %ymm11
	vpxor	%ymm6, %ymm11, %ymm6
	vpxor	%ymm7, %ymm10, %ymm7
	vinserti128	$1, %xmm5, %ymm7, %ymm10
	vbroadcasti128	.Lgcm_v3_CPI47_6(%rip), %ymm11 # ymm11 = [0,4,8,12,1,5,9,13,2,6,10,14,3,7,11,15,0,4,8,12,1,5,9,13,2,6,10,14,3,7,11,15]
                                        # ymm11 = mem[0,1,0,1]
	vpshufb	%ymm11, %ymm10, %ymm10
	vmovdqu	%ymm10, 16(%rsp)
	vinserti128	$1, %xmm6, %ymm4, %ymm10
	vpshufb	%ymm11, %ymm10, %ymm10
	vmovdqu	%ymm10, 48(%rsp)
	vinserti128	$1, %xmm0, %ymm2, %ymm10
	vpshufb	%ymm11, %ymm10, %ymm10
	vmovdqu	%ymm10, 80(%rsp)
	vmovaps	16(%rsp), %xmm10
	vxorps	(%r12,%rbp), %xmm10, %xmm10
	vmovups	%xmm10, (%r12,%rbp)
	vmovaps	32(%rsp), %xmm10
	vxorps	16(%r12,%rbp), %xmm10, %xmm10
	vmovups	%xmm10, 16(%r12,%rbp)
	vmovaps	48(%rsp), %xmm10
	vxorps	32(%r12,%rbp), %xmm10, %xmm10
	vmovups	%xmm10, 32(%r12,%rbp)
	vmovaps	64(%rsp), %xmm10
	vxorps	48(%r12,%rbp), %xmm10, %xmm10
	vmovups	%xmm10, 48(%r12,%rbp)
	vmovaps	80(%rsp), %xmm10
	vxorps	64(%r12,%rbp), %xmm10, %xmm10
	vpxor	%ymm1, %ymm8, %ymm1
	vpxor	%ymm3, %ymm9, %ymm3
	vmovups	%xmm10, 64(%r12,%rbp)
	vinserti128	$1, %xmm3, %ymm1, %ymm8
	vmovaps	96(%rsp), %xmm9
	vxorps	80(%r12,%rbp), %xmm9, %xmm9
	vpshufb	%ymm11, %ymm8, %ymm8
	vmovups	%xmm9, 80(%r12,%rbp)
	vpxor	96(%r12,%rbp), %xmm8, %xmm9
	vmovdqu	%xmm9, 96(%r12,%rbp)
	vperm2i128	$49, %ymm5, %ymm7, %ymm5 # ymm5 = ymm7[2,3],ymm5[2,3]
	vextracti128	$1, %ymm8, %xmm7
	vpxor	112(%r12,%rbp), %xmm7, %xmm7
	vpshufb	%ymm11, %ymm5, %ymm5
	vmovdqu	%xmm7, 112(%r12,%rbp)
	vpxor	128(%r12,%rbp), %xmm5, %xmm7
	vmovdqu	%xmm7, 128(%r12,%rbp)
	vperm2i128	$49, %ymm6, %ymm4, %ymm4 # ymm4 = ymm4[2,3],ymm6[2,3]
	vextracti128	$1, %ymm5, %xmm5
	vpxor	144(%r12,%rbp), %xmm5, %xmm5
	vpshufb	%ymm11, %ymm4, %ymm4
	vmovdqu	%xmm5, 144(%r12,%rbp)
	vpxor	160(%r12,%rbp), %xmm4, %xmm5
	vmovdqu	%xmm5, 160(%r12,%rbp)
	vperm2i128	$49, %ymm0, %ymm2, %ymm0 # ymm0 = ymm2[2,3],ymm0[2,3]
	vextracti128	$1, %ymm4, %xmm2
	vpxor	176(%r12,%rbp), %xmm2, %xmm2
	vpshufb	%ymm11, %ymm0, %ymm0
	vmovdqu	%xmm2, 176(%r12,%rbp)
	vpxor	192(%r12,%rbp), %xmm0, %xmm2
	vmovdqu	%xmm2, 192(%r12,%rbp)
	vperm2i128	$49, %ymm3, %ymm1, %ymm1 # ymm1 = ymm1[2,3],ymm3[2,3]
	vextracti128	$1, %ymm0, %xmm0
	vpxor	208(%r12,%rbp), %xmm0, %xmm0
	vpshufb	%ymm11, %ymm1, %ymm1
	vmovdqu	%xmm0, 208(%r12,%rbp)
	vpxor	224(%r12,%rbp), %xmm1, %xmm0
	vmovdqu	%xmm0, 224(%r12,%rbp)
	vextracti128	$1, %ymm1, %xmm0
	vpxor	240(%r12,%rbp), %xmm0, %xmm0
	vmovdqu	%xmm0, 240(%r12,%rbp)
	addq	$256, %rbp                      # imm = 0x100
	addq	$-256, %r15
	cmpq	$255, %r15
	ja	.Lgcm_v3_BB47_5
.Lgcm_v3_BB47_6:                               # %loop.13.preheader.i.i
	movq	112(%rsp), %r15                 # 8-byte Reload
	cmpq	%r15, %rbp
	movq	8(%rsp), %rbx                   # 8-byte Reload
	movq	(%rsp), %r14                    # 8-byte Reload
	jae	.Lgcm_v3_BB47_8
	.p2align	4
.Lgcm_v3_BB47_7:                               # %join.16.i.i
                                        # =>This Inner Loop Header: Depth=1
	leaq	136(%rsp), %rdi
	movq	%rbx, %rsi
	movq	%r14, %rdx
	movq	%rbp, %rcx
	movq	%r12, %r8
	movq	%r15, %r9
	vzeroupper
	callq	gcm_v3.aes_ctr.add_in_batches.add_next.3
	movq	%rax, %rbp
	cmpq	%r15, %rax
	jb	.Lgcm_v3_BB47_7
.Lgcm_v3_BB47_8:                               # %"aes_ctr::add_in_batches::AddStreamBlockCipherEncClosure::call::<#09f71b9349444ab6>.exit"
	addq	$440, %rsp                      # imm = 0x1B8
	popq	%rbx
	popq	%r12
	popq	%r13
	popq	%r14
	popq	%r15
	popq	%rbp
	vzeroupper
	retq
.Lgcm_v3_func_end47:
	.size	gcm_v3.aes_hybrid.closures.call_to_work.2, .Lgcm_v3_func_end47-gcm_v3.aes_hybrid.closures.call_to_work.2
                                        # -- End function
	.section	.rodata.cst32,"aM",@progbits,32
	.p2align	5, 0x0                          # -- Begin function aes_ctr::add_in_batches::add_next::<#176549238f653660>
.Lgcm_v3_CPI48_0:
	.byte	0                               # 0x0
	.byte	4                               # 0x4
	.byte	8                               # 0x8
	.byte	12                              # 0xc
	.byte	1                               # 0x1
	.byte	5                               # 0x5
	.byte	9                               # 0x9
	.byte	13                              # 0xd
	.byte	2                               # 0x2
	.byte	6                               # 0x6
	.byte	10                              # 0xa
	.byte	14                              # 0xe
	.byte	3                               # 0x3
	.byte	7                               # 0x7
	.byte	11                              # 0xb
	.byte	15                              # 0xf
	.byte	0                               # 0x0
	.byte	4                               # 0x4
	.byte	8                               # 0x8
	.byte	12                              # 0xc
	.byte	1                               # 0x1
	.byte	5                               # 0x5
	.byte	9                               # 0x9
	.byte	13                              # 0xd
	.byte	2                               # 0x2
	.byte	6                               # 0x6
	.byte	10                              # 0xa
	.byte	14                              # 0xe
	.byte	3                               # 0x3
	.byte	7                               # 0x7
	.byte	11                              # 0xb
	.byte	15                              # 0xf
.Lgcm_v3_CPI48_1:
	.zero	32,85
.Lgcm_v3_CPI48_2:
	.zero	32,51
.Lgcm_v3_CPI48_3:
	.zero	32,15
	.section	.rodata.cst16,"aM",@progbits,16
	.p2align	4, 0x0
.Lgcm_v3_CPI48_4:
	.byte	0                               # 0x0
	.byte	4                               # 0x4
	.byte	8                               # 0x8
	.byte	12                              # 0xc
	.byte	1                               # 0x1
	.byte	5                               # 0x5
	.byte	9                               # 0x9
	.byte	13                              # 0xd
	.byte	2                               # 0x2
	.byte	6                               # 0x6
	.byte	10                              # 0xa
	.byte	14                              # 0xe
	.byte	3                               # 0x3
	.byte	7                               # 0x7
	.byte	11                              # 0xb
	.byte	15                              # 0xf
	.section	.rodata.cst4,"aM",@progbits,4
	.p2align	2, 0x0
.Lgcm_v3_CPI48_5:
	.zero	4,85
.Lgcm_v3_CPI48_6:
	.zero	4,51
.Lgcm_v3_CPI48_7:
	.zero	4,15
	.section	.text.gcm_v3.aes_ctr.add_in_batches.add_next.3,"ax",@progbits
	.p2align	4
	.type	gcm_v3.aes_ctr.add_in_batches.add_next.3,@function
gcm_v3.aes_ctr.add_in_batches.add_next.3: # @gcm_v3.aes_ctr.add_in_batches.add_next.3
# %bb.0:                                # %start
	pushq	%rbp
	pushq	%r15
	pushq	%r14
	pushq	%r13
	pushq	%r12
	pushq	%rbx
	subq	$536, %rsp                      # imm = 0x218
	movq	%r9, %r12
	movq	%r8, %r15
	movq	%rcx, %rbx
	addq	%rcx, %rdx
	movl	%edx, %ebp
	andl	$15, %ebp
	movl	$256, %eax                      # imm = 0x100
	subq	%rbp, %rax
	movq	%r9, %r14
	subq	%rcx, %r14
	cmpq	%rax, %r14
	cmovaeq	%rax, %r14
	leaq	(%r14,%rbp), %rcx
	shrq	$4, %rdx
	movl	(%rsi), %eax
	leal	(%rdx,%rax), %r8d
	movl	%r8d, (%rsp)
	movq	4(%rsi), %r8
	movq	%r8, 4(%rsp)
	movl	12(%rsi), %r8d
	movl	%r8d, 12(%rsp)
	leal	1(%rax,%rdx), %r8d
	movl	%r8d, 16(%rsp)
	movq	4(%rsi), %r8
	movq	%r8, 20(%rsp)
	movl	12(%rsi), %r8d
	movl	%r8d, 28(%rsp)
	leal	2(%rax,%rdx), %r8d
	movl	%r8d, 32(%rsp)
	movq	4(%rsi), %r8
	movq	%r8, 36(%rsp)
	movl	12(%rsi), %r8d
	movl	%r8d, 44(%rsp)
	leal	3(%rax,%rdx), %r8d
	movl	%r8d, 48(%rsp)
	movq	4(%rsi), %r8
	movq	%r8, 52(%rsp)
	movl	12(%rsi), %r8d
	movl	%r8d, 60(%rsp)
	leal	4(%rax,%rdx), %r8d
	movl	%r8d, 64(%rsp)
	movq	4(%rsi), %r8
	movq	%r8, 68(%rsp)
	movl	12(%rsi), %r8d
	movl	%r8d, 76(%rsp)
	leal	5(%rax,%rdx), %r8d
	movl	%r8d, 80(%rsp)
	movl	12(%rsi), %r8d
	movl	%r8d, 92(%rsp)
	movq	4(%rsi), %r8
	movq	%r8, 84(%rsp)
	leal	6(%rax,%rdx), %r8d
	movl	%r8d, 96(%rsp)
	movl	12(%rsi), %r8d
	movl	%r8d, 108(%rsp)
	movq	4(%rsi), %r8
	movq	%r8, 100(%rsp)
	leal	7(%rax,%rdx), %r8d
	movl	%r8d, 112(%rsp)
	movl	12(%rsi), %r8d
	movl	%r8d, 124(%rsp)
	movq	4(%rsi), %r8
	movq	%r8, 116(%rsp)
	leal	8(%rax,%rdx), %r8d
	movl	%r8d, 128(%rsp)
	movl	12(%rsi), %r8d
	movl	%r8d, 140(%rsp)
	movq	4(%rsi), %r8
	movq	%r8, 132(%rsp)
	leal	9(%rax,%rdx), %r8d
	movl	%r8d, 144(%rsp)
	movl	12(%rsi), %r8d
	movl	%r8d, 156(%rsp)
	movq	4(%rsi), %r8
	movq	%r8, 148(%rsp)
	leal	10(%rax,%rdx), %r8d
	movl	%r8d, 160(%rsp)
	movl	12(%rsi), %r8d
	movl	%r8d, 172(%rsp)
	movq	4(%rsi), %r8
	movq	%r8, 164(%rsp)
	leal	11(%rax,%rdx), %r8d
	movl	%r8d, 176(%rsp)
	movq	4(%rsi), %r8
	movq	%r8, 180(%rsp)
	movl	12(%rsi), %r8d
	movl	%r8d, 188(%rsp)
	leal	12(%rax,%rdx), %r8d
	movl	%r8d, 192(%rsp)
	movl	12(%rsi), %r8d
	movl	%r8d, 204(%rsp)
	movq	4(%rsi), %r8
	movq	%r8, 196(%rsp)
	leal	13(%rax,%rdx), %r8d
	movl	%r8d, 208(%rsp)
	movl	12(%rsi), %r8d
	movl	%r8d, 220(%rsp)
	movq	4(%rsi), %r8
	movq	%r8, 212(%rsp)
	leal	14(%rax,%rdx), %r8d
	movl	%r8d, 224(%rsp)
	movl	12(%rsi), %r8d
	movl	%r8d, 236(%rsp)
	movq	4(%rsi), %r8
	movq	%r8, 228(%rsp)
	leal	15(%rax,%rdx), %eax
	movl	%eax, 240(%rsp)
	movl	12(%rsi), %eax
	movl	%eax, 252(%rsp)
	movq	4(%rsi), %rax
	movq	%rax, 244(%rsp)
	cmpq	$192, %rcx
	ja	.Lgcm_v3_BB48_2
# %bb.1:                                # %then.1.i.i
	addq	$15, %rcx
	shrq	$4, %rcx
	movq	(%rdi), %rax
	movq	16(%rax), %rdi
	movq	24(%rax), %rsi
	movq	%rsp, %rdx
	callq	gcm_v3.aes_permute.blocks.process_on_lanes
	leaq	(%r15,%rbx), %rax
	testq	%rbp, %rbp
	je	.Lgcm_v3_BB48_4
.Lgcm_v3_BB48_5:                               # %then.1.i
	movl	$16, %ecx
	subq	%rbp, %rcx
	cmpq	%rcx, %r14
	cmovbq	%r14, %rcx
	cmpq	%rbx, %r12
	je	.Lgcm_v3_BB48_13
# %bb.6:                                # %join.8.i80.lr.ph
	movl	%ecx, %edx
	andl	$7, %edx
	cmpq	$8, %rcx
	jae	.Lgcm_v3_BB48_8
# %bb.7:
	xorl	%esi, %esi
	jmp	.Lgcm_v3_BB48_11
.Lgcm_v3_BB48_2:                               # %else.2.i.i
	vmovdqu	(%rsp), %ymm0
	vmovdqu	16(%rsp), %ymm1
	vmovdqu	32(%rsp), %ymm2
	vmovdqu	48(%rsp), %ymm3
	vinserti128	$1, 128(%rsp), %ymm0, %ymm0
	vinserti128	$1, 144(%rsp), %ymm1, %ymm1
	vinserti128	$1, 160(%rsp), %ymm2, %ymm2
	vinserti128	$1, 176(%rsp), %ymm3, %ymm3
	vmovdqu	64(%rsp), %ymm4
	vinserti128	$1, 192(%rsp), %ymm4, %ymm4
	vmovdqu	80(%rsp), %ymm5
	vinserti128	$1, 208(%rsp), %ymm5, %ymm5
	movq	8(%rdi), %rax
	vmovdqu	96(%rsp), %ymm6
	vinserti128	$1, 224(%rsp), %ymm6, %ymm6
	movq	16(%rdi), %rsi
	vmovdqu	112(%rsp), %ymm7
	vinserti128	$1, 240(%rsp), %ymm7, %ymm7
	leaq	272(%rsp), %r13
	andq	$-32, %r13
	shrq	$3, %rsi
	decq	%rsi
	vbroadcasti128	.Lgcm_v3_CPI48_4(%rip), %ymm9  # ymm9 = [0,4,8,12,1,5,9,13,2,6,10,14,3,7,11,15,0,4,8,12,1,5,9,13,2,6,10,14,3,7,11,15]
                                        # ymm9 = mem[0,1,0,1]
	vpshufb	%ymm9, %ymm0, %ymm8
	vpshufb	%ymm9, %ymm1, %ymm0
	vpshufb	%ymm9, %ymm2, %ymm1
	vpshufb	%ymm9, %ymm3, %ymm2
	vpshufb	%ymm9, %ymm4, %ymm3
	vpshufb	%ymm9, %ymm5, %ymm4
	vpshufb	%ymm9, %ymm6, %ymm5
	vpshufb	%ymm9, %ymm7, %ymm6
	vpsrlw	$1, %ymm8, %ymm7
	vpxor	%ymm7, %ymm0, %ymm7
	vpbroadcastd	.Lgcm_v3_CPI48_5(%rip), %ymm10 # ymm10 = [85,85,85,85,85,85,85,85,85,85,85,85,85,85,85,85,85,85,85,85,85,85,85,85,85,85,85,85,85,85,85,85]
	vpand	%ymm7, %ymm10, %ymm7
	vpxor	%ymm0, %ymm7, %ymm0
	vpaddb	%ymm7, %ymm7, %ymm7
	vpxor	%ymm7, %ymm8, %ymm7
	vpsrlw	$1, %ymm1, %ymm8
	vpxor	%ymm2, %ymm8, %ymm8
	vpand	%ymm10, %ymm8, %ymm8
	vpxor	%ymm2, %ymm8, %ymm9
	vpaddb	%ymm8, %ymm8, %ymm2
	vpxor	%ymm1, %ymm2, %ymm1
	vpsrlw	$1, %ymm3, %ymm2
	vpxor	%ymm2, %ymm4, %ymm2
	vpand	%ymm2, %ymm10, %ymm8
	vpxor	%ymm4, %ymm8, %ymm2
	vpaddb	%ymm8, %ymm8, %ymm4
	vpxor	%ymm3, %ymm4, %ymm3
	vpsrlw	$1, %ymm5, %ymm4
	vpxor	%ymm4, %ymm6, %ymm4
	vpand	%ymm4, %ymm10, %ymm4
	vpxor	%ymm6, %ymm4, %ymm6
	vpaddb	%ymm4, %ymm4, %ymm4
	vpxor	%ymm5, %ymm4, %ymm4
	vpsrlw	$2, %ymm7, %ymm5
	vpxor	%ymm5, %ymm1, %ymm5
	vpbroadcastd	.Lgcm_v3_CPI48_6(%rip), %ymm10 # ymm10 = [51,51,51,51,51,51,51,51,51,51,51,51,51,51,51,51,51,51,51,51,51,51,51,51,51,51,51,51,51,51,51,51]
	vpand	%ymm5, %ymm10, %ymm5
	vpxor	%ymm1, %ymm5, %ymm1
	vpsllw	$2, %ymm5, %ymm5
	vpxor	%ymm7, %ymm5, %ymm5
	vpsrlw	$2, %ymm3, %ymm7
	vpxor	%ymm7, %ymm4, %ymm7
	vpand	%ymm7, %ymm10, %ymm7
	vpxor	%ymm4, %ymm7, %ymm4
	vpsllw	$2, %ymm7, %ymm7
	vpxor	%ymm3, %ymm7, %ymm7
	vpsrlw	$2, %ymm0, %ymm3
	vpxor	%ymm3, %ymm9, %ymm3
	vpand	%ymm3, %ymm10, %ymm8
	vpxor	%ymm9, %ymm8, %ymm3
	vpsllw	$2, %ymm8, %ymm8
	vpxor	%ymm0, %ymm8, %ymm0
	vpsrlw	$2, %ymm2, %ymm8
	vpxor	%ymm6, %ymm8, %ymm8
	vpand	%ymm10, %ymm8, %ymm8
	vpxor	%ymm6, %ymm8, %ymm6
	vpsllw	$2, %ymm8, %ymm8
	vpxor	%ymm2, %ymm8, %ymm2
	vpsrlw	$4, %ymm5, %ymm8
	vpbroadcastd	.Lgcm_v3_CPI48_7(%rip), %ymm9  # ymm9 = [15,15,15,15,15,15,15,15,15,15,15,15,15,15,15,15,15,15,15,15,15,15,15,15,15,15,15,15,15,15,15,15]
	vpxor	%ymm7, %ymm8, %ymm8
	vpand	%ymm9, %ymm8, %ymm8
	vpxor	%ymm7, %ymm8, %ymm7
	vpsllw	$4, %ymm8, %ymm8
	vpxor	%ymm5, %ymm8, %ymm5
	vpsrlw	$4, %ymm0, %ymm8
	vpxor	%ymm2, %ymm8, %ymm8
	vpand	%ymm9, %ymm8, %ymm8
	vpxor	%ymm2, %ymm8, %ymm2
	vpsllw	$4, %ymm8, %ymm8
	vpxor	%ymm0, %ymm8, %ymm0
	vpsrlw	$4, %ymm1, %ymm8
	vpxor	%ymm4, %ymm8, %ymm8
	vpand	%ymm9, %ymm8, %ymm8
	vpxor	%ymm4, %ymm8, %ymm4
	vpsllw	$4, %ymm8, %ymm8
	vpxor	%ymm1, %ymm8, %ymm1
	vpsrlw	$4, %ymm3, %ymm8
	vpxor	%ymm6, %ymm8, %ymm8
	vpand	%ymm9, %ymm8, %ymm8
	vpxor	%ymm6, %ymm8, %ymm6
	vpsllw	$4, %ymm8, %ymm8
	vpxor	%ymm3, %ymm8, %ymm3
	vmovdqa	%ymm5, (%r13)
	vmovdqa	%ymm0, 32(%r13)
	vmovdqa	%ymm1, 64(%r13)
	vmovdqa	%ymm3, 96(%r13)
	vmovdqa	%ymm7, 128(%r13)
	vmovdqa	%ymm2, 160(%r13)
	vmovdqa	%ymm4, 192(%r13)
	vmovdqa	%ymm6, 224(%r13)
	movq	%rax, %rdi
	movq	%r13, %rdx
	vzeroupper
	callq	gcm_v3.aes_soft.soft.ciphers.planes.EncryptPlaneCipher.process_planes
	vmovdqa	(%r13), %ymm1
	vmovdqa	32(%r13), %ymm0
	vmovdqa	64(%r13), %ymm2
	vmovdqa	96(%r13), %ymm3
	vmovdqa	128(%r13), %ymm4
	vmovdqa	160(%r13), %ymm5
	vmovdqa	192(%r13), %ymm6
	vmovdqa	224(%r13), %ymm7
	vpsrlw	$1, %ymm1, %ymm8
	vpxor	%ymm0, %ymm8, %ymm8
	vpbroadcastd	.Lgcm_v3_CPI48_5(%rip), %ymm9  # ymm9 = [85,85,85,85,85,85,85,85,85,85,85,85,85,85,85,85,85,85,85,85,85,85,85,85,85,85,85,85,85,85,85,85]
	vpand	%ymm9, %ymm8, %ymm8
	vpxor	%ymm0, %ymm8, %ymm0
	vpaddb	%ymm8, %ymm8, %ymm8
	vpxor	%ymm1, %ymm8, %ymm8
	vpsrlw	$1, %ymm2, %ymm1
	vpxor	%ymm1, %ymm3, %ymm1
	vpand	%ymm1, %ymm9, %ymm1
	vpxor	%ymm3, %ymm1, %ymm3
	vpaddb	%ymm1, %ymm1, %ymm1
	vpxor	%ymm2, %ymm1, %ymm1
	vpsrlw	$1, %ymm4, %ymm2
	vpxor	%ymm2, %ymm5, %ymm2
	vpand	%ymm2, %ymm9, %ymm2
	vpxor	%ymm5, %ymm2, %ymm5
	vpaddb	%ymm2, %ymm2, %ymm2
	vpxor	%ymm4, %ymm2, %ymm2
	vpsrlw	$1, %ymm6, %ymm4
	vpxor	%ymm4, %ymm7, %ymm4
	vpand	%ymm4, %ymm9, %ymm4
	vpxor	%ymm7, %ymm4, %ymm7
	vpaddb	%ymm4, %ymm4, %ymm4
	vpxor	%ymm6, %ymm4, %ymm4
	vpsrlw	$2, %ymm8, %ymm6
	vpxor	%ymm6, %ymm1, %ymm6
	vpbroadcastd	.Lgcm_v3_CPI48_6(%rip), %ymm10 # ymm10 = [51,51,51,51,51,51,51,51,51,51,51,51,51,51,51,51,51,51,51,51,51,51,51,51,51,51,51,51,51,51,51,51]
	vpand	%ymm6, %ymm10, %ymm6
	vpxor	%ymm1, %ymm6, %ymm1
	vpsllw	$2, %ymm6, %ymm6
	vpxor	%ymm6, %ymm8, %ymm6
	vpsrlw	$2, %ymm2, %ymm8
	vpxor	%ymm4, %ymm8, %ymm8
	vpand	%ymm10, %ymm8, %ymm8
	vpxor	%ymm4, %ymm8, %ymm4
	vpsllw	$2, %ymm8, %ymm8
	vpxor	%ymm2, %ymm8, %ymm2
	vpsrlw	$2, %ymm0, %ymm8
	vpxor	%ymm3, %ymm8, %ymm8
	vpand	%ymm10, %ymm8, %ymm8
	vpxor	%ymm3, %ymm8, %ymm9
	vpsllw	$2, %ymm8, %ymm3
	vpxor	%ymm0, %ymm3, %ymm8
	vpsrlw	$2, %ymm5, %ymm0
	vpxor	%ymm0, %ymm7, %ymm0
	vpand	%ymm0, %ymm10, %ymm0
	vpxor	%ymm7, %ymm0, %ymm7
	vpsllw	$2, %ymm0, %ymm0
	vpxor	%ymm5, %ymm0, %ymm5
	vpsrlw	$4, %ymm6, %ymm0
	vpxor	%ymm0, %ymm2, %ymm0
	vpbroadcastd	.Lgcm_v3_CPI48_7(%rip), %ymm10 # ymm10 = [15,15,15,15,15,15,15,15,15,15,15,15,15,15,15,15,15,15,15,15,15,15,15,15,15,15,15,15,15,15,15,15]
	vpand	%ymm0, %ymm10, %ymm3
	vpxor	%ymm2, %ymm3, %ymm0
	vpsllw	$4, %ymm3, %ymm2
	vpxor	%ymm6, %ymm2, %ymm3
	vpsrlw	$4, %ymm8, %ymm2
	vpxor	%ymm2, %ymm5, %ymm2
	vpand	%ymm2, %ymm10, %ymm6
	vpxor	%ymm5, %ymm6, %ymm2
	vpsllw	$4, %ymm6, %ymm5
	vpxor	%ymm5, %ymm8, %ymm5
	vpsrlw	$4, %ymm1, %ymm6
	vpxor	%ymm6, %ymm4, %ymm6
	vpand	%ymm6, %ymm10, %ymm6
	vpxor	%ymm4, %ymm6, %ymm4
	vpsllw	$4, %ymm6, %ymm6
	vpxor	%ymm1, %ymm6, %ymm1
	vpsrlw	$4, %ymm9, %ymm6
	vpxor	%ymm6, %ymm7, %ymm6
	vpand	%ymm6, %ymm10, %ymm6
	vpxor	%ymm7, %ymm6, %ymm7
	vpsllw	$4, %ymm6, %ymm6
	vpxor	%ymm6, %ymm9, %ymm6
	vinserti128	$1, %xmm5, %ymm3, %ymm8
	vbroadcasti128	.Lgcm_v3_CPI48_4(%rip), %ymm9  # ymm9 = [0,4,8,12,1,5,9,13,2,6,10,14,3,7,11,15,0,4,8,12,1,5,9,13,2,6,10,14,3,7,11,15]
                                        # ymm9 = mem[0,1,0,1]
	vpshufb	%ymm9, %ymm8, %ymm8
	vmovdqu	%ymm8, (%rsp)
	vinserti128	$1, %xmm6, %ymm1, %ymm8
	vpshufb	%ymm9, %ymm8, %ymm8
	vmovdqu	%ymm8, 32(%rsp)
	vinserti128	$1, %xmm2, %ymm0, %ymm8
	vpshufb	%ymm9, %ymm8, %ymm8
	vmovdqu	%ymm8, 64(%rsp)
	vinserti128	$1, %xmm7, %ymm4, %ymm8
	vpshufb	%ymm9, %ymm8, %ymm8
	vmovdqu	%ymm8, 96(%rsp)
	vperm2i128	$49, %ymm5, %ymm3, %ymm3 # ymm3 = ymm3[2,3],ymm5[2,3]
	vpshufb	%ymm9, %ymm3, %ymm3
	vmovdqu	%ymm3, 128(%rsp)
	vperm2i128	$49, %ymm6, %ymm1, %ymm1 # ymm1 = ymm1[2,3],ymm6[2,3]
	vpshufb	%ymm9, %ymm1, %ymm1
	vmovdqu	%ymm1, 160(%rsp)
	vperm2i128	$49, %ymm2, %ymm0, %ymm0 # ymm0 = ymm0[2,3],ymm2[2,3]
	vpshufb	%ymm9, %ymm0, %ymm0
	vmovdqu	%ymm0, 192(%rsp)
	vperm2i128	$49, %ymm7, %ymm4, %ymm0 # ymm0 = ymm4[2,3],ymm7[2,3]
	vpshufb	%ymm9, %ymm0, %ymm0
	vmovdqu	%ymm0, 224(%rsp)
	leaq	(%r15,%rbx), %rax
	testq	%rbp, %rbp
	jne	.Lgcm_v3_BB48_5
.Lgcm_v3_BB48_4:
	xorl	%ecx, %ecx
	jmp	.Lgcm_v3_BB48_13
.Lgcm_v3_BB48_8:                               # %join.8.i80.lr.ph.new
	movl	%ecx, %edi
	andl	$24, %edi
	movq	%rsp, %rsi
	leaq	(%rsi,%rbp), %r8
	addq	$7, %r8
	leaq	(%rbx,%r15), %r9
	addq	$7, %r9
	xorl	%esi, %esi
	.p2align	4
.Lgcm_v3_BB48_9:                               # %join.8.i80
                                        # =>This Inner Loop Header: Depth=1
	movzbl	-7(%r8,%rsi), %r10d
	xorb	%r10b, -7(%r9,%rsi)
	movzbl	-6(%r8,%rsi), %r10d
	xorb	%r10b, -6(%r9,%rsi)
	movzbl	-5(%r8,%rsi), %r10d
	xorb	%r10b, -5(%r9,%rsi)
	movzbl	-4(%r8,%rsi), %r10d
	xorb	%r10b, -4(%r9,%rsi)
	movzbl	-3(%r8,%rsi), %r10d
	xorb	%r10b, -3(%r9,%rsi)
	movzbl	-2(%r8,%rsi), %r10d
	xorb	%r10b, -2(%r9,%rsi)
	movzbl	-1(%r8,%rsi), %r10d
	xorb	%r10b, -1(%r9,%rsi)
	movzbl	(%r8,%rsi), %r10d
	xorb	%r10b, (%r9,%rsi)
	addq	$8, %rsi
	cmpq	%rsi, %rdi
	jne	.Lgcm_v3_BB48_9
# %bb.10:                               # %join.3.i.loopexit.unr-lcssa
	testq	%rdx, %rdx
	je	.Lgcm_v3_BB48_13
.Lgcm_v3_BB48_11:                              # %join.8.i80.epil.preheader
	leaq	(%rax,%rsi), %rdi
	addq	%rbp, %rsi
	addq	%rsp, %rsi
	xorl	%r8d, %r8d
	.p2align	4
.Lgcm_v3_BB48_12:                              # %join.8.i80.epil
                                        # =>This Inner Loop Header: Depth=1
	movzbl	(%rsi,%r8), %r9d
	xorb	%r9b, (%rdi,%r8)
	incq	%r8
	cmpq	%r8, %rdx
	jne	.Lgcm_v3_BB48_12
.Lgcm_v3_BB48_13:                              # %join.3.i
	movq	%r14, %rdx
	subq	%rcx, %rdx
	cmpq	$16, %rdx
	jb	.Lgcm_v3_BB48_15
	.p2align	4
.Lgcm_v3_BB48_14:                              # %join.8.i
                                        # =>This Inner Loop Header: Depth=1
	leaq	(%rcx,%rbp), %rsi
	andq	$-16, %rsi
	vmovdqa	(%rsp,%rsi), %xmm0
	vpxor	(%rax,%rcx), %xmm0, %xmm0
	vmovdqu	%xmm0, (%rax,%rcx)
	addq	$16, %rcx
	addq	$-16, %rdx
	cmpq	$15, %rdx
	ja	.Lgcm_v3_BB48_14
.Lgcm_v3_BB48_15:                              # %after.4.i
	cmpq	%r14, %rcx
	jae	.Lgcm_v3_BB48_23
# %bb.16:                               # %then.9.i
	testq	%rdx, %rdx
	je	.Lgcm_v3_BB48_23
# %bb.17:                               # %iter.check
	addq	%rcx, %rbp
	andq	$-16, %rbp
	leaq	(%rsp,%rbp), %rsi
	addq	%rcx, %rax
	cmpq	$8, %rdx
	jae	.Lgcm_v3_BB48_20
# %bb.18:
	xorl	%ecx, %ecx
	jmp	.Lgcm_v3_BB48_19
.Lgcm_v3_BB48_20:                              # %vec.epilog.ph
	movl	%edx, %ecx
	andl	$8, %ecx
	xorl	%edi, %edi
	.p2align	4
.Lgcm_v3_BB48_21:                              # %vec.epilog.vector.body
                                        # =>This Inner Loop Header: Depth=1
	movq	(%rsi,%rdi), %r8
	xorq	%r8, (%rax,%rdi)
	addq	$8, %rdi
	cmpq	%rdi, %rcx
	jne	.Lgcm_v3_BB48_21
	jmp	.Lgcm_v3_BB48_22
.Lgcm_v3_BB48_19:                              # %join.8.i23
	movzbl	(%rsi,%rcx), %edi
	xorb	%dil, (%rax,%rcx)
	incq	%rcx
.Lgcm_v3_BB48_22:                              # %join.8.i23
	cmpq	%rcx, %rdx
	jne	.Lgcm_v3_BB48_19
.Lgcm_v3_BB48_23:                              # %"aes_ctr::add_blocks::add_blocks.exit"
	addq	%rbx, %r14
	movq	%r14, %rax
	addq	$536, %rsp                      # imm = 0x218
	popq	%rbx
	popq	%r12
	popq	%r13
	popq	%r14
	popq	%r15
	popq	%rbp
	vzeroupper
	retq
.Lgcm_v3_func_end48:
	.size	gcm_v3.aes_ctr.add_in_batches.add_next.3, .Lgcm_v3_func_end48-gcm_v3.aes_ctr.add_in_batches.add_next.3
                                        # -- End function
	.section	.text.gcm_v3.aes_cipher.zeroize.stack.wipe_stack.2816,"ax",@progbits
	.p2align	4                               # -- Begin function aes_cipher::zeroize::stack::wipe_stack::<=2816>
	.type	gcm_v3.aes_cipher.zeroize.stack.wipe_stack.2816,@function
gcm_v3.aes_cipher.zeroize.stack.wipe_stack.2816: # @gcm_v3.aes_cipher.zeroize.stack.wipe_stack.2816
# %bb.0:                                # %start
	subq	$2824, %rsp                     # imm = 0xB08
	leaq	8(%rsp), %rdi
	movl	$2816, %edx                     # imm = 0xB00
	xorl	%esi, %esi
	callq	*memset@GOTPCREL(%rip)
	movq	$0, (%rsp)
	#APP
	#NO_APP
	movq	(%rsp), %rax
	#APP
	#NO_APP
	cmpq	$2816, %rax                     # imm = 0xB00
	jae	.Lgcm_v3_BB49_2
# %bb.1:                                # %then.1
	movzbl	8(%rsp,%rax), %eax
	#APP
	#NO_APP
	xchgq	%rax, (%rsp)
	#APP
	#NO_APP
.Lgcm_v3_BB49_2:                               # %common.ret
	addq	$2824, %rsp                     # imm = 0xB08
	retq
.Lgcm_v3_func_end49:
	.size	gcm_v3.aes_cipher.zeroize.stack.wipe_stack.2816, .Lgcm_v3_func_end49-gcm_v3.aes_cipher.zeroize.stack.wipe_stack.2816
                                        # -- End function
	.section	.text.gcm_v3.gcm_siv.course.open_in.2,"ax",@progbits
	.p2align	4                               # -- Begin function gcm_siv::course::open_in::<#3d0c7d061dc5c2d9>
	.type	gcm_v3.gcm_siv.course.open_in.2,@function
gcm_v3.gcm_siv.course.open_in.2: # @gcm_v3.gcm_siv.course.open_in.2
# %bb.0:                                # %start
	pushq	%rbp
	pushq	%r15
	pushq	%r14
	pushq	%r13
	pushq	%r12
	pushq	%rbx
	subq	$3072, %rsp                     # imm = 0xC00
	movq	$0, (%rsp)
	subq	$280, %rsp                      # imm = 0x118
	movq	%r9, 24(%rsp)                   # 8-byte Spill
	movq	%r8, 16(%rsp)                   # 8-byte Spill
	movq	%rcx, %r15
	movq	%rdx, %r12
	movq	%rsi, %rbp
	movq	%rdi, %rbx
	vxorps	%xmm0, %xmm0, %xmm0
	vmovups	%xmm0, 1800(%rsp)
	leaq	280(%rsp), %r14
	movl	$1520, %edx                     # imm = 0x5F0
	movq	%r14, %rdi
	xorl	%esi, %esi
	callq	*memset@GOTPCREL(%rip)
	leaq	1816(%rsp), %r13
	movl	$1536, %edx                     # imm = 0x600
	movq	%r13, %rdi
	movq	%r14, %rsi
	callq	*memcpy@GOTPCREL(%rip)
	vxorps	%xmm0, %xmm0, %xmm0
	vmovups	%ymm0, 32(%rsp)
	vmovups	%ymm0, 64(%rsp)
	vmovups	%ymm0, 96(%rsp)
	vmovups	%ymm0, 128(%rsp)
	vmovups	%ymm0, 160(%rsp)
	vmovups	%ymm0, 192(%rsp)
	vmovups	%ymm0, 224(%rsp)
	vmovups	%ymm0, 244(%rsp)
	leaq	32(%rsp), %r14
	movq	%rbx, %rdi
	movq	%rbp, %rsi
	movq	%r12, %rdx
	movq	%r14, %rcx
	movq	%r13, %r8
	vzeroupper
	callq	gcm_v3.gcm_siv.keys.derive_and_prepare.2
	vmovaps	3408(%rsp), %xmm0
	vmovups	%xmm0, (%rsp)
	movq	%r14, %rdi
	movq	%r13, %rsi
	movq	%r12, %rdx
	movq	%r15, %rcx
	movq	16(%rsp), %r8                   # 8-byte Reload
	movq	24(%rsp), %r9                   # 8-byte Reload
	callq	gcm_v3.gcm_siv.message.open.2
	movl	%eax, %ebx
	movl	$0, 32(%rsp)
	leaq	36(%rsp), %rdi
	callq	gcm_v3.aes_cipher.zeroize.elements.zeroize_elements.1
	movl	$96, %esi
	movq	%r13, %rdi
	callq	gcm_v3.aes_cipher.zeroize.elements.zeroize_elements.2
	callq	gcm_v3.aes_cipher.zeroize.stack.wipe_stack.2816
	movl	%ebx, %eax
	addq	$3352, %rsp                     # imm = 0xD18
	popq	%rbx
	popq	%r12
	popq	%r13
	popq	%r14
	popq	%r15
	popq	%rbp
	retq
.Lgcm_v3_func_end50:
	.size	gcm_v3.gcm_siv.course.open_in.2, .Lgcm_v3_func_end50-gcm_v3.gcm_siv.course.open_in.2
                                        # -- End function
	.section	.text.gcm_v3.gcm_siv.keys.derive_and_prepare.2,"ax",@progbits
	.p2align	4                               # -- Begin function gcm_siv::keys::derive_and_prepare::<#3d0c7d061dc5c2d9>
	.type	gcm_v3.gcm_siv.keys.derive_and_prepare.2,@function
gcm_v3.gcm_siv.keys.derive_and_prepare.2: # @gcm_v3.gcm_siv.keys.derive_and_prepare.2
# %bb.0:                                # %start
	pushq	%rbp
	pushq	%r15
	pushq	%r14
	pushq	%r13
	pushq	%r12
	pushq	%rbx
	subq	$216, %rsp
	vxorps	%xmm0, %xmm0, %xmm0
	vmovaps	%xmm0, 192(%rsp)
	vxorps	%xmm0, %xmm0, %xmm0
	vmovups	%ymm0, 144(%rsp)
	vmovups	%ymm0, 160(%rsp)
	vmovups	%ymm0, 112(%rsp)
	vmovups	%ymm0, 16(%rsp)
	vmovups	144(%rsp), %ymm0
	vmovups	%ymm0, 48(%rsp)
	vmovups	176(%rsp), %xmm0
	vmovups	%xmm0, 80(%rsp)
	movq	%r8, %r15
	movq	%rcx, %rbx
	movq	%rsi, 8(%rsp)                   # 8-byte Spill
	vmovups	192(%rsp), %xmm0
	vmovups	%xmm0, 96(%rsp)
	leaq	16(%rsp), %rcx
	vzeroupper
	callq	gcm_v3.gcm_siv.keys.derive
	movq	16(%rsp), %rax
	movq	24(%rsp), %rcx
	movq	%rcx, %r12
	shldq	$63, %rax, %r12
	shrq	%rcx
	andl	$1, %eax
	negq	%rax
	movabsq	$-2233785415175766016, %r13     # imm = 0xE100000000000000
	andq	%rax, %r13
	xorq	%rcx, %r13
	leaq	512(%r15), %rbp
	leaq	1024(%r15), %rax
	movq	%rax, (%rsp)                    # 8-byte Spill
	movq	%r15, %rdi
	movq	%r12, %rsi
	movq	%r13, %rdx
	callq	gcm_v3.gcm.multiples.put_table
	movq	%r15, %rdi
	movq	%r12, %rsi
	movq	%r13, %rdx
	callq	gcm_v3.gcm.multiples.next_power
	movq	%rax, %r12
	movq	%rdx, %r13
	movq	%r15, %rdi
	movq	%rax, %rsi
	callq	gcm_v3.gcm.multiples.next_power
	movq	%rax, %r15
	movq	%rdx, %r14
	movq	%rbp, %rdi
	movq	%r12, %rsi
	movq	%r13, %rdx
	callq	gcm_v3.gcm.multiples.put_table
	movq	(%rsp), %rdi                    # 8-byte Reload
	movq	%r15, %rsi
	movq	%r14, %rdx
	callq	gcm_v3.gcm.multiples.put_table
	leaq	4(%rbx), %rdi
	vxorps	%xmm0, %xmm0, %xmm0
	vmovups	%ymm0, 212(%rbx)
	vmovups	%ymm0, 180(%rbx)
	vmovups	%ymm0, 148(%rbx)
	vmovups	%ymm0, 116(%rbx)
	vmovups	%ymm0, 84(%rbx)
	vmovups	%ymm0, 52(%rbx)
	leaq	32(%rsp), %rsi
	vmovups	%ymm0, 20(%rbx)
	cmpq	$16, 8(%rsp)                    # 8-byte Folded Reload
	jne	.Lgcm_v3_BB51_2
# %bb.1:                                # %then.1.i
	movl	$16, %edx
	vzeroupper
	callq	gcm_v3.aes_permute.lane_keys.expand_lanes
	movl	$16, %eax
	jmp	.Lgcm_v3_BB51_3
.Lgcm_v3_BB51_2:                               # %else.2.i
	movl	$32, %edx
	vzeroupper
	callq	gcm_v3.aes_permute.lane_keys.expand_lanes
	movl	$32, %eax
.Lgcm_v3_BB51_3:                               # %"gcm_siv::keys::set_encryption_key::<#66aa1833bfd7fef8>.exit"
	movl	%eax, (%rbx)
	leaq	16(%rsp), %rdi
	movl	$6, %esi
	callq	gcm_v3.aes_cipher.zeroize.elements.zeroize_elements.4
	addq	$216, %rsp
	popq	%rbx
	popq	%r12
	popq	%r13
	popq	%r14
	popq	%r15
	popq	%rbp
	retq
.Lgcm_v3_func_end51:
	.size	gcm_v3.gcm_siv.keys.derive_and_prepare.2, .Lgcm_v3_func_end51-gcm_v3.gcm_siv.keys.derive_and_prepare.2
                                        # -- End function
	.section	.text.gcm_v3.gcm_siv.message.open.2,"ax",@progbits
	.p2align	4                               # -- Begin function gcm_siv::message::open::<#2b34360e0e51af73>
	.type	gcm_v3.gcm_siv.message.open.2,@function
gcm_v3.gcm_siv.message.open.2: # @gcm_v3.gcm_siv.message.open.2
# %bb.0:                                # %start
	pushq	%rbp
	pushq	%r15
	pushq	%r14
	pushq	%r13
	pushq	%r12
	pushq	%rbx
	subq	$56, %rsp
	movq	%r9, %rbx
	movq	%r8, 24(%rsp)                   # 8-byte Spill
	movq	%rcx, 16(%rsp)                  # 8-byte Spill
	movq	%rdx, %r14
	movq	%rsi, %r12
	movq	%rdi, %r15
	movq	120(%rsp), %rsi
	movq	112(%rsp), %rbp
	movq	%r9, %rdx
	movq	%rbp, %rcx
	callq	gcm_v3.gcm_siv.message.process_text
	vxorps	%xmm0, %xmm0, %xmm0
	vmovaps	%xmm0, 32(%rsp)
	leaq	32(%rsp), %r13
	movq	%r13, 8(%rsp)
	movq	%rbp, (%rsp)
	movq	%r15, %rdi
	movq	%r12, %rsi
	movq	%r14, %rdx
	movq	120(%rsp), %r14
	movq	16(%rsp), %rcx                  # 8-byte Reload
	movq	24(%rsp), %r8                   # 8-byte Reload
	movq	%rbx, %r9
	callq	gcm_v3.gcm_siv.message.put_tag.2
	movq	%r14, %rdi
	movq	%r13, %rsi
	callq	gcm_v3.aes_cipher.blocks.difference
	movl	%eax, %ebp
	movl	$1, %esi
	movq	%r13, %rdi
	callq	gcm_v3.aes_cipher.zeroize.elements.zeroize_elements.4
	testl	%ebp, %ebp
	je	.Lgcm_v3_BB52_2
# %bb.1:                                # %join.3
	movq	%r15, %rdi
	movq	%r14, %rsi
	movq	%rbx, %rdx
	movq	112(%rsp), %rcx
	callq	gcm_v3.gcm_siv.message.process_text
.Lgcm_v3_BB52_2:                               # %common.ret
	testl	%ebp, %ebp
	sete	%al
	addq	$56, %rsp
	popq	%rbx
	popq	%r12
	popq	%r13
	popq	%r14
	popq	%r15
	popq	%rbp
	retq
.Lgcm_v3_func_end52:
	.size	gcm_v3.gcm_siv.message.open.2, .Lgcm_v3_func_end52-gcm_v3.gcm_siv.message.open.2
                                        # -- End function
	.section	.rodata.cst16,"aM",@progbits,16
	.p2align	4, 0x0                          # -- Begin function gcm_siv::message::put_tag::<#2b34360e0e51af73>
.Lgcm_v3_CPI53_0:
	.byte	15                              # 0xf
	.byte	14                              # 0xe
	.byte	13                              # 0xd
	.byte	12                              # 0xc
	.byte	11                              # 0xb
	.byte	10                              # 0xa
	.byte	9                               # 0x9
	.byte	8                               # 0x8
	.byte	7                               # 0x7
	.byte	6                               # 0x6
	.byte	5                               # 0x5
	.byte	4                               # 0x4
	.byte	3                               # 0x3
	.byte	2                               # 0x2
	.byte	1                               # 0x1
	.byte	0                               # 0x0
.Lgcm_v3_CPI53_1:
	.zero	1
	.zero	1
	.zero	1
	.zero	1
	.byte	0                               # 0x0
	.byte	8                               # 0x8
	.byte	0                               # 0x0
	.byte	8                               # 0x8
	.zero	1
	.zero	1
	.zero	1
	.zero	1
	.zero	1
	.zero	1
	.zero	1
	.zero	1
.Lgcm_v3_CPI53_2:
	.zero	1
	.zero	1
	.byte	0                               # 0x0
	.byte	8                               # 0x8
	.zero	1
	.zero	1
	.zero	1
	.zero	1
	.zero	1
	.zero	1
	.zero	1
	.zero	1
	.zero	1
	.zero	1
	.zero	1
	.zero	1
.Lgcm_v3_CPI53_3:
	.zero	1
	.zero	1
	.zero	1
	.zero	1
	.zero	1
	.zero	1
	.zero	1
	.zero	1
	.zero	1
	.zero	1
	.zero	1
	.zero	1
	.byte	0                               # 0x0
	.byte	8                               # 0x8
	.byte	0                               # 0x0
	.byte	8                               # 0x8
.Lgcm_v3_CPI53_4:
	.zero	1
	.zero	1
	.zero	1
	.zero	1
	.zero	1
	.zero	1
	.zero	1
	.zero	1
	.byte	0                               # 0x0
	.byte	1                               # 0x1
	.byte	10                              # 0xa
	.byte	11                              # 0xb
	.zero	1
	.zero	1
	.zero	1
	.zero	1
.Lgcm_v3_CPI53_5:
	.byte	255                             # 0xff
	.byte	255                             # 0xff
	.byte	255                             # 0xff
	.byte	255                             # 0xff
	.byte	255                             # 0xff
	.byte	255                             # 0xff
	.byte	255                             # 0xff
	.byte	255                             # 0xff
	.byte	255                             # 0xff
	.byte	255                             # 0xff
	.byte	255                             # 0xff
	.byte	255                             # 0xff
	.byte	255                             # 0xff
	.byte	255                             # 0xff
	.byte	255                             # 0xff
	.byte	127                             # 0x7f
.Lgcm_v3_CPI53_6:
	.zero	16,15
.Lgcm_v3_CPI53_7:
	.byte	0                               # 0x0
	.byte	1                               # 0x1
	.byte	28                              # 0x1c
	.byte	29                              # 0x1d
	.byte	45                              # 0x2d
	.byte	44                              # 0x2c
	.byte	49                              # 0x31
	.byte	48                              # 0x30
	.byte	39                              # 0x27
	.byte	38                              # 0x26
	.byte	59                              # 0x3b
	.byte	58                              # 0x3a
	.byte	10                              # 0xa
	.byte	11                              # 0xb
	.byte	22                              # 0x16
	.byte	23                              # 0x17
.Lgcm_v3_CPI53_8:
	.byte	0                               # 0x0
	.byte	134                             # 0x86
	.byte	253                             # 0xfd
	.byte	123                             # 0x7b
	.byte	142                             # 0x8e
	.byte	8                               # 0x8
	.byte	115                             # 0x73
	.byte	245                             # 0xf5
	.byte	119                             # 0x77
	.byte	241                             # 0xf1
	.byte	138                             # 0x8a
	.byte	12                              # 0xc
	.byte	249                             # 0xf9
	.byte	127                             # 0x7f
	.byte	4                               # 0x4
	.byte	130                             # 0x82
.Lgcm_v3_CPI53_9:
	.byte	128                             # 0x80
	.byte	2                               # 0x2
	.byte	1                               # 0x1
	.byte	15                              # 0xf
	.byte	9                               # 0x9
	.byte	5                               # 0x5
	.byte	14                              # 0xe
	.byte	12                              # 0xc
	.byte	13                              # 0xd
	.byte	4                               # 0x4
	.byte	11                              # 0xb
	.byte	10                              # 0xa
	.byte	7                               # 0x7
	.byte	8                               # 0x8
	.byte	6                               # 0x6
	.byte	3                               # 0x3
.Lgcm_v3_CPI53_10:
	.byte	128                             # 0x80
	.byte	1                               # 0x1
	.byte	9                               # 0x9
	.byte	14                              # 0xe
	.byte	13                              # 0xd
	.byte	11                              # 0xb
	.byte	7                               # 0x7
	.byte	6                               # 0x6
	.byte	15                              # 0xf
	.byte	2                               # 0x2
	.byte	12                              # 0xc
	.byte	5                               # 0x5
	.byte	10                              # 0xa
	.byte	4                               # 0x4
	.byte	3                               # 0x3
	.byte	8                               # 0x8
.Lgcm_v3_CPI53_11:
	.byte	0                               # 0x0
	.byte	195                             # 0xc3
	.byte	79                              # 0x4f
	.byte	12                              # 0xc
	.byte	252                             # 0xfc
	.byte	124                             # 0x7c
	.byte	67                              # 0x43
	.byte	128                             # 0x80
	.byte	207                             # 0xcf
	.byte	51                              # 0x33
	.byte	63                              # 0x3f
	.byte	112                             # 0x70
	.byte	191                             # 0xbf
	.byte	179                             # 0xb3
	.byte	240                             # 0xf0
	.byte	140                             # 0x8c
.Lgcm_v3_CPI53_12:
	.byte	0                               # 0x0
	.byte	230                             # 0xe6
	.byte	114                             # 0x72
	.byte	183                             # 0xb7
	.byte	229                             # 0xe5
	.byte	198                             # 0xc6
	.byte	197                             # 0xc5
	.byte	35                              # 0x23
	.byte	81                              # 0x51
	.byte	180                             # 0xb4
	.byte	3                               # 0x3
	.byte	113                             # 0x71
	.byte	32                              # 0x20
	.byte	151                             # 0x97
	.byte	82                              # 0x52
	.byte	148                             # 0x94
.Lgcm_v3_CPI53_13:
	.byte	0                               # 0x0
	.byte	124                             # 0x7c
	.byte	32                              # 0x20
	.byte	207                             # 0xcf
	.byte	146                             # 0x92
	.byte	1                               # 0x1
	.byte	239                             # 0xef
	.byte	147                             # 0x93
	.byte	179                             # 0xb3
	.byte	33                              # 0x21
	.byte	238                             # 0xee
	.byte	206                             # 0xce
	.byte	125                             # 0x7d
	.byte	178                             # 0xb2
	.byte	93                              # 0x5d
	.byte	92                              # 0x5c
.Lgcm_v3_CPI53_14:
	.byte	0                               # 0x0
	.byte	209                             # 0xd1
	.byte	229                             # 0xe5
	.byte	247                             # 0xf7
	.byte	230                             # 0xe6
	.byte	37                              # 0x25
	.byte	18                              # 0x12
	.byte	195                             # 0xc3
	.byte	38                              # 0x26
	.byte	192                             # 0xc0
	.byte	55                              # 0x37
	.byte	210                             # 0xd2
	.byte	244                             # 0xf4
	.byte	3                               # 0x3
	.byte	17                              # 0x11
	.byte	52                              # 0x34
.Lgcm_v3_CPI53_15:
	.byte	0                               # 0x0
	.byte	203                             # 0xcb
	.byte	215                             # 0xd7
	.byte	176                             # 0xb0
	.byte	33                              # 0x21
	.byte	141                             # 0x8d
	.byte	103                             # 0x67
	.byte	172                             # 0xac
	.byte	123                             # 0x7b
	.byte	90                              # 0x5a
	.byte	234                             # 0xea
	.byte	61                              # 0x3d
	.byte	70                              # 0x46
	.byte	246                             # 0xf6
	.byte	145                             # 0x91
	.byte	28                              # 0x1c
.Lgcm_v3_CPI53_16:
	.byte	0                               # 0x0
	.byte	159                             # 0x9f
	.byte	97                              # 0x61
	.byte	22                              # 0x16
	.byte	194                             # 0xc2
	.byte	42                              # 0x2a
	.byte	119                             # 0x77
	.byte	232                             # 0xe8
	.byte	137                             # 0x89
	.byte	75                              # 0x4b
	.byte	93                              # 0x5d
	.byte	60                              # 0x3c
	.byte	181                             # 0xb5
	.byte	163                             # 0xa3
	.byte	212                             # 0xd4
	.byte	254                             # 0xfe
	.section	.rodata.cst4,"aM",@progbits,4
	.p2align	2, 0x0
.Lgcm_v3_CPI53_17:
	.byte	0                               # 0x0
	.byte	8                               # 0x8
	.byte	0                               # 0x0
	.byte	8                               # 0x8
.Lgcm_v3_CPI53_18:
	.zero	4,15
	.section	.text.gcm_v3.gcm_siv.message.put_tag.2,"ax",@progbits
	.p2align	4
	.type	gcm_v3.gcm_siv.message.put_tag.2,@function
gcm_v3.gcm_siv.message.put_tag.2: # @gcm_v3.gcm_siv.message.put_tag.2
# %bb.0:                                # %start
	pushq	%rbp
	pushq	%r15
	pushq	%r14
	pushq	%r13
	pushq	%r12
	pushq	%rbx
	subq	$104, %rsp
	movq	%r9, 64(%rsp)                   # 8-byte Spill
	movq	%r8, %rbp
	movq	%rdx, 96(%rsp)                  # 8-byte Spill
	movq	%rsi, %r15
	movq	%rdi, %rbx
	movabsq	$-6148914691236517205, %r14     # imm = 0xAAAAAAAAAAAAAAAB
	movq	%r8, %rdx
	mulxq	%r14, %r13, %r13
	shrq	$5, %r13
	movq	%r13, %rax
	shlq	$4, %rax
	leaq	(%rax,%rax,2), %r12
	vpxor	%xmm0, %xmm0, %xmm0
	vmovdqa	%xmm0, (%rsp)
	vpxor	%xmm2, %xmm2, %xmm2
	cmpq	$48, %r8
	jb	.Lgcm_v3_BB53_4
# %bb.1:                                # %join.5.i.i2.preheader
	movq	%rcx, 16(%rsp)                  # 8-byte Spill
	leaq	32(%rcx), %r14
	.p2align	4
.Lgcm_v3_BB53_2:                               # %join.5.i.i2
                                        # =>This Inner Loop Header: Depth=1
	vmovdqa	.Lgcm_v3_CPI53_0(%rip), %xmm2          # xmm2 = [15,14,13,12,11,10,9,8,7,6,5,4,3,2,1,0]
	vmovdqu	-32(%r14), %xmm0
	vmovdqu	-16(%r14), %xmm1
	vmovdqu	(%r14), %xmm3
	vpshufb	%xmm2, %xmm0, %xmm0
	vpxor	(%rsp), %xmm0, %xmm0
	vpshufb	%xmm2, %xmm1, %xmm1
	vpshufb	%xmm2, %xmm3, %xmm2
	movq	%rsp, %rdi
	movq	%r15, %rsi
	callq	gcm_v3.gcm.multiples.Multiples.three_products
	addq	$48, %r14
	decq	%r13
	jne	.Lgcm_v3_BB53_2
# %bb.3:                                # %"gcm::hash::hash_threes::<#1ace2c8123f9d1c9>.exit.loopexit.i"
	vmovdqa	(%rsp), %xmm2
	movabsq	$-6148914691236517205, %r14     # imm = 0xAAAAAAAAAAAAAAAB
	movq	16(%rsp), %rcx                  # 8-byte Reload
	vpxor	%xmm0, %xmm0, %xmm0
.Lgcm_v3_BB53_4:                               # %"gcm::hash::hash_threes::<#1ace2c8123f9d1c9>.exit.i"
	movq	160(%rsp), %r13
	vmovdqa	%xmm0, 32(%rsp)
	cmpq	%r12, %rbp
	je	.Lgcm_v3_BB53_17
# %bb.5:                                # %join.3.i.i
	movq	%rbp, %rdx
	subq	%r12, %rdx
	leaq	(%rcx,%r12), %rax
	cmpq	$16, %rdx
	ja	.Lgcm_v3_BB53_9
# %bb.6:                                # %then.4.i.i
	je	.Lgcm_v3_BB53_8
# %bb.7:                                # %join.3.i.i93.i.i
	vmovdqa	%xmm0, (%rsp)
	movq	%r14, %r12
	movq	%rsp, %r14
	movq	%r14, %rdi
	movq	%rax, %rsi
	vmovdqa	%xmm2, 48(%rsp)                 # 16-byte Spill
	callq	*memcpy@GOTPCREL(%rip)
	vmovdqa	48(%rsp), %xmm2                 # 16-byte Reload
	movq	%r14, %rax
	movq	%r12, %r14
.Lgcm_v3_BB53_8:                               # %"gcm::hash::last_block::<#1ace2c8123f9d1c9>.exit147.i.i"
	vmovdqu	(%rax), %xmm0
	vpshufb	.Lgcm_v3_CPI53_0(%rip), %xmm0, %xmm0   # xmm0 = xmm0[15,14,13,12,11,10,9,8,7,6,5,4,3,2,1,0]
	vpxor	%xmm2, %xmm0, %xmm0
	leaq	32(%rsp), %rdi
	movq	%r15, %rsi
	callq	gcm_v3.gcm.multiples.Multiples.block_product
	jmp	.Lgcm_v3_BB53_16
.Lgcm_v3_BB53_9:                               # %join.6.i.i
	vmovdqu	(%rax), %xmm0
	vpshufb	.Lgcm_v3_CPI53_0(%rip), %xmm0, %xmm0   # xmm0 = xmm0[15,14,13,12,11,10,9,8,7,6,5,4,3,2,1,0]
	vpxor	%xmm2, %xmm0, %xmm0
	cmpq	$32, %rdx
	ja	.Lgcm_v3_BB53_13
# %bb.10:                               # %then.7.i.i
	leaq	(%rcx,%r12), %rsi
	addq	$16, %rsi
	addq	$16, %r12
	movq	%rbp, %rdx
	subq	%r12, %rdx
	cmpq	$16, %rdx
	je	.Lgcm_v3_BB53_12
# %bb.11:                               # %join.3.i.i34.i.i
	vpxor	%xmm1, %xmm1, %xmm1
	vmovdqa	%xmm1, (%rsp)
	movq	%r14, %r12
	movq	%rsp, %r14
	movq	%r14, %rdi
	vmovdqa	%xmm0, 16(%rsp)                 # 16-byte Spill
	callq	*memcpy@GOTPCREL(%rip)
	vmovdqa	16(%rsp), %xmm0                 # 16-byte Reload
	movq	%r14, %rsi
	movq	%r12, %r14
.Lgcm_v3_BB53_12:                              # %"gcm::hash::last_block::<#1ace2c8123f9d1c9>.exit88.i.i"
	vmovdqu	(%rsi), %xmm1
	vpshufb	.Lgcm_v3_CPI53_0(%rip), %xmm1, %xmm1   # xmm1 = xmm1[15,14,13,12,11,10,9,8,7,6,5,4,3,2,1,0]
	leaq	32(%rsp), %rdi
	movq	%r15, %rsi
	callq	gcm_v3.gcm.multiples.Multiples.two_products
	jmp	.Lgcm_v3_BB53_16
.Lgcm_v3_BB53_13:                              # %join.9.i.i
	leaq	(%rcx,%r12), %rsi
	addq	$32, %rsi
	addq	$32, %r12
	movq	%rbp, %rdx
	subq	%r12, %rdx
	cmpq	$16, %rdx
	je	.Lgcm_v3_BB53_15
# %bb.14:                               # %join.3.i.i.i.i
	vpxor	%xmm1, %xmm1, %xmm1
	vmovdqa	%xmm1, (%rsp)
	movq	%r14, %r12
	movq	%rsp, %rdi
	vmovdqa	%xmm0, 16(%rsp)                 # 16-byte Spill
	movq	%rax, %r14
	callq	*memcpy@GOTPCREL(%rip)
	movq	%r14, %rax
	vmovdqa	16(%rsp), %xmm0                 # 16-byte Reload
	movq	%rsp, %rsi
	movq	%r12, %r14
.Lgcm_v3_BB53_15:                              # %"gcm::hash::last_block::<#1ace2c8123f9d1c9>.exit.i.i"
	vmovdqu	(%rsi), %xmm2
	vmovdqa	.Lgcm_v3_CPI53_0(%rip), %xmm1          # xmm1 = [15,14,13,12,11,10,9,8,7,6,5,4,3,2,1,0]
	vpshufb	%xmm1, %xmm2, %xmm2
	vmovdqu	16(%rax), %xmm3
	vpshufb	%xmm1, %xmm3, %xmm1
	leaq	32(%rsp), %rdi
	movq	%r15, %rsi
	callq	gcm_v3.gcm.multiples.Multiples.three_products
.Lgcm_v3_BB53_16:                              # %"gcm::hash::hash_last_group::<#1ace2c8123f9d1c9>.exit.i"
	vmovdqa	32(%rsp), %xmm2
.Lgcm_v3_BB53_17:                              # %"gcm::hash::hash_last_group::<#1ace2c8123f9d1c9>.exit.i"
	leal	(,%r13,8), %eax
	movl	%r13d, %ecx
	shrl	$5, %ecx
	movl	%r13d, %edx
	shrl	$13, %edx
	movl	%r13d, %esi
	shrl	$21, %esi
	movq	%r13, %rdi
	shrq	$29, %rdi
	movq	%r13, %r8
	shrq	$37, %r8
	movq	%r13, %r9
	shrq	$53, %r9
	vmovd	%r9d, %xmm0
	movq	%r13, %r9
	shrq	$45, %r9
	vpinsrb	$1, %r9d, %xmm0, %xmm0
	vpinsrb	$2, %r8d, %xmm0, %xmm0
	vpinsrb	$3, %edi, %xmm0, %xmm0
	vpinsrb	$4, %esi, %xmm0, %xmm0
	vpinsrb	$5, %edx, %xmm0, %xmm0
	vpinsrb	$6, %ecx, %xmm0, %xmm0
	vpinsrb	$7, %eax, %xmm0, %xmm0
	leal	(,%rbp,8), %r9d
	movl	%ebp, %eax
	movl	%ebp, %ecx
	movl	%ebp, %edx
	movq	%rbp, %rsi
	movq	%rbp, %rdi
	movq	%rbp, %r8
	shrq	$53, %rbp
	vpinsrb	$8, %ebp, %xmm0, %xmm0
	shrq	$45, %r8
	vpinsrb	$9, %r8d, %xmm0, %xmm0
	shrq	$37, %rdi
	vpinsrb	$10, %edi, %xmm0, %xmm0
	shrq	$29, %rsi
	vpinsrb	$11, %esi, %xmm0, %xmm0
	shrl	$21, %edx
	vpinsrb	$12, %edx, %xmm0, %xmm0
	shrl	$13, %ecx
	vpinsrb	$13, %ecx, %xmm0, %xmm0
	shrl	$5, %eax
	vpinsrb	$14, %eax, %xmm0, %xmm0
	vmovdqa	%xmm2, (%rsp)
	movq	%r13, %rdx
	mulxq	%r14, %r12, %r12
	shrq	$5, %r12
	movq	%r12, %rax
	shlq	$4, %rax
	leaq	(%rax,%rax,2), %rbp
	cmpq	$48, %r13
	jb	.Lgcm_v3_BB53_21
# %bb.18:                               # %join.5.i.i.i.preheader
	vmovdqa	%xmm0, 48(%rsp)                 # 16-byte Spill
	movl	%r9d, 16(%rsp)                  # 4-byte Spill
	movq	64(%rsp), %rax                  # 8-byte Reload
	leaq	32(%rax), %r14
	.p2align	4
.Lgcm_v3_BB53_19:                              # %join.5.i.i.i
                                        # =>This Inner Loop Header: Depth=1
	vmovdqa	.Lgcm_v3_CPI53_0(%rip), %xmm2          # xmm2 = [15,14,13,12,11,10,9,8,7,6,5,4,3,2,1,0]
	vmovdqu	-32(%r14), %xmm0
	vmovdqu	-16(%r14), %xmm1
	vmovdqu	(%r14), %xmm3
	vpshufb	%xmm2, %xmm0, %xmm0
	vpxor	(%rsp), %xmm0, %xmm0
	vpshufb	%xmm2, %xmm1, %xmm1
	vpshufb	%xmm2, %xmm3, %xmm2
	movq	%rsp, %rdi
	movq	%r15, %rsi
	callq	gcm_v3.gcm.multiples.Multiples.three_products
	addq	$48, %r14
	decq	%r12
	jne	.Lgcm_v3_BB53_19
# %bb.20:                               # %"gcm::hash::hash_string_and_end::<#1ace2c8123f9d1c9>.exit.loopexit.i"
	vmovdqa	(%rsp), %xmm2
	movl	16(%rsp), %r9d                  # 4-byte Reload
	vmovdqa	48(%rsp), %xmm0                 # 16-byte Reload
.Lgcm_v3_BB53_21:                              # %"gcm::hash::hash_string_and_end::<#1ace2c8123f9d1c9>.exit.i"
	movq	168(%rsp), %r12
	vpinsrb	$15, %r9d, %xmm0, %xmm3
	vpxor	%xmm0, %xmm0, %xmm0
	vmovdqa	%xmm0, 80(%rsp)
	cmpq	%rbp, %r13
	jne	.Lgcm_v3_BB53_23
# %bb.22:                               # %then.1.i139.i
	vpxor	%xmm3, %xmm2, %xmm0
.Lgcm_v3_BB53_34:                              # %"gcm_siv::hash::MultiplesRoomPolyvalRoom::hash.exit"
	leaq	80(%rsp), %rdi
	movq	%r15, %rsi
	callq	gcm_v3.gcm.multiples.Multiples.block_product
	jmp	.Lgcm_v3_BB53_35
.Lgcm_v3_BB53_23:                              # %join.3.i59.i
	movq	%r13, %rdx
	subq	%rbp, %rdx
	cmpq	$16, %rdx
	ja	.Lgcm_v3_BB53_27
# %bb.24:                               # %then.4.i137.i
	movq	64(%rsp), %rsi                  # 8-byte Reload
	addq	%rbp, %rsi
	cmpq	$16, %rdx
	je	.Lgcm_v3_BB53_26
# %bb.25:                               # %join.3.i.i27.i.i
	vmovdqa	%xmm0, (%rsp)
	movq	%rsp, %r14
	movq	%r14, %rdi
	vmovdqa	%xmm2, 48(%rsp)                 # 16-byte Spill
	vmovdqa	%xmm3, 16(%rsp)                 # 16-byte Spill
	callq	*memcpy@GOTPCREL(%rip)
	vmovdqa	16(%rsp), %xmm3                 # 16-byte Reload
	vmovdqa	48(%rsp), %xmm2                 # 16-byte Reload
	movq	%r14, %rsi
.Lgcm_v3_BB53_26:                              # %"gcm::hash::last_block::<#1ace2c8123f9d1c9>.exit81.i.i"
	vmovdqu	(%rsi), %xmm0
	vpshufb	.Lgcm_v3_CPI53_0(%rip), %xmm0, %xmm0   # xmm0 = xmm0[15,14,13,12,11,10,9,8,7,6,5,4,3,2,1,0]
	vpxor	%xmm2, %xmm0, %xmm0
	leaq	80(%rsp), %rdi
	movq	%r15, %rsi
	vmovdqa	%xmm3, %xmm1
	callq	gcm_v3.gcm.multiples.Multiples.two_products
	jmp	.Lgcm_v3_BB53_35
.Lgcm_v3_BB53_27:                              # %join.6.i60.i
	cmpq	$32, %rdx
	ja	.Lgcm_v3_BB53_31
# %bb.28:                               # %then.7.i76.i
	movq	64(%rsp), %rax                  # 8-byte Reload
	vmovdqu	(%rax,%rbp), %xmm0
	vpshufb	.Lgcm_v3_CPI53_0(%rip), %xmm0, %xmm0   # xmm0 = xmm0[15,14,13,12,11,10,9,8,7,6,5,4,3,2,1,0]
	vpxor	%xmm2, %xmm0, %xmm0
	leaq	(%rax,%rbp), %rsi
	addq	$16, %rsi
	addq	$16, %rbp
	subq	%rbp, %r13
	cmpq	$16, %r13
	je	.Lgcm_v3_BB53_30
# %bb.29:                               # %join.3.i.i.i83.i
	vpxor	%xmm1, %xmm1, %xmm1
	vmovdqa	%xmm1, (%rsp)
	movq	%rsp, %r14
	movq	%r14, %rdi
	movq	%r13, %rdx
	vmovdqa	%xmm3, 16(%rsp)                 # 16-byte Spill
	vmovdqa	%xmm0, 64(%rsp)                 # 16-byte Spill
	callq	*memcpy@GOTPCREL(%rip)
	vmovdqa	64(%rsp), %xmm0                 # 16-byte Reload
	vmovdqa	16(%rsp), %xmm3                 # 16-byte Reload
	movq	%r14, %rsi
.Lgcm_v3_BB53_30:                              # %"gcm::hash::last_block::<#1ace2c8123f9d1c9>.exit.i131.i"
	vmovdqu	(%rsi), %xmm1
	vpshufb	.Lgcm_v3_CPI53_0(%rip), %xmm1, %xmm1   # xmm1 = xmm1[15,14,13,12,11,10,9,8,7,6,5,4,3,2,1,0]
	leaq	80(%rsp), %rdi
	movq	%r15, %rsi
	vmovdqa	%xmm3, %xmm2
	callq	gcm_v3.gcm.multiples.Multiples.three_products
.Lgcm_v3_BB53_35:                              # %"gcm_siv::hash::MultiplesRoomPolyvalRoom::hash.exit"
	movbeq	88(%rsp), %rcx
	movbeq	80(%rsp), %rax
	movq	%rax, %rdx
	shldq	$8, %rcx, %rdx
	vmovq	%rdx, %xmm0
	movq	%rax, %rdx
	shldq	$16, %rcx, %rdx
	vmovq	%rdx, %xmm1
	movq	%rax, %rdx
	shldq	$24, %rcx, %rdx
	vmovq	%rdx, %xmm2
	movq	%rax, %rdx
	shldq	$32, %rcx, %rdx
	vmovq	%rdx, %xmm3
	movq	%rax, %rdx
	shldq	$40, %rcx, %rdx
	vmovq	%rdx, %xmm4
	movq	%rax, %rdx
	shldq	$48, %rcx, %rdx
	vmovq	%rdx, %xmm5
	movq	%rax, %rdx
	shldq	$56, %rcx, %rdx
	vmovq	%rdx, %xmm6
	vmovq	%rcx, %xmm7
	movq	%rax, %rcx
	shrq	$56, %rcx
	vmovd	%ecx, %xmm8
	movq	%rax, %rcx
	shrq	$48, %rcx
	vmovd	%ecx, %xmm9
	movq	%rax, %rcx
	vmovq	%rax, %xmm10
	vpunpcklqdq	%xmm0, %xmm1, %xmm0     # xmm0 = xmm1[0],xmm0[0]
	vpunpcklqdq	%xmm2, %xmm3, %xmm1     # xmm1 = xmm3[0],xmm2[0]
	vpbroadcastd	.Lgcm_v3_CPI53_17(%rip), %xmm2 # xmm2 = [0,8,0,8,0,8,0,8,0,8,0,8,0,8,0,8]
	vpshufb	%xmm2, %xmm0, %xmm0
	vpshufb	%xmm2, %xmm1, %xmm1
	vpblendw	$8, %xmm0, %xmm1, %xmm0         # xmm0 = xmm1[0,1,2],xmm0[3],xmm1[4,5,6,7]
	vpunpcklqdq	%xmm4, %xmm5, %xmm1     # xmm1 = xmm5[0],xmm4[0]
	vpunpcklbw	%xmm6, %xmm7, %xmm2     # xmm2 = xmm7[0],xmm6[0],xmm7[1],xmm6[1],xmm7[2],xmm6[2],xmm7[3],xmm6[3],xmm7[4],xmm6[4],xmm7[5],xmm6[5],xmm7[6],xmm6[6],xmm7[7],xmm6[7]
	vpshufb	.Lgcm_v3_CPI53_2(%rip), %xmm1, %xmm1   # xmm1 = xmm1[u,u,0,8,u,u,u,u,u,u,u,u,u,u,u,u]
	vpblendw	$2, %xmm1, %xmm2, %xmm1         # xmm1 = xmm2[0],xmm1[1],xmm2[2,3,4,5,6,7]
	shrq	$32, %rcx
	shrq	$40, %rax
	vpblendd	$2, %xmm0, %xmm1, %xmm0         # xmm0 = xmm1[0],xmm0[1],xmm1[2,3]
	vpunpcklqdq	%xmm8, %xmm9, %xmm1     # xmm1 = xmm9[0],xmm8[0]
	vmovd	%eax, %xmm2
	vmovd	%ecx, %xmm3
	vpunpcklqdq	%xmm2, %xmm3, %xmm2     # xmm2 = xmm3[0],xmm2[0]
	vpbroadcastd	.Lgcm_v3_CPI53_17(%rip), %xmm3 # xmm3 = [0,8,0,8,0,8,0,8,0,8,0,8,0,8,0,8]
	vpshufb	%xmm3, %xmm1, %xmm1
	vpshufb	%xmm3, %xmm2, %xmm2
	vpblendw	$128, %xmm1, %xmm2, %xmm1       # xmm1 = xmm2[0,1,2,3,4,5,6],xmm1[7]
	vpbroadcastq	%xmm10, %xmm2
	vpshufb	.Lgcm_v3_CPI53_4(%rip), %xmm2, %xmm2   # xmm2 = xmm2[u,u,u,u,u,u,u,u,0,1,10,11,u,u,u,u]
	vpblendd	$8, %xmm1, %xmm2, %xmm1         # xmm1 = xmm2[0,1,2],xmm1[3]
	vpblendd	$12, %xmm1, %xmm0, %xmm0        # xmm0 = xmm0[0,1],xmm1[2,3]
	movq	96(%rsp), %rax                  # 8-byte Reload
	vmovd	(%rax), %xmm1                   # xmm1 = mem[0],zero,zero,zero
	vmovq	4(%rax), %xmm2                  # xmm2 = mem[0],zero
	vmovq	%xmm1, %xmm1                    # xmm1 = xmm1[0],zero
	vpshufd	$80, %xmm2, %xmm2               # xmm2 = xmm2[0,0,1,1]
	vpblendd	$6, %xmm2, %xmm1, %xmm1         # xmm1 = xmm1[0],xmm2[1,2],xmm1[3]
	vpxor	%xmm0, %xmm1, %xmm0
	vpand	.Lgcm_v3_CPI53_5(%rip), %xmm0, %xmm0
	vmovdqu	%xmm0, (%r12)
	movl	(%rbx), %ecx
	shrl	$2, %ecx
	leaq	6(%rcx), %rax
	vpxor	4(%rbx), %xmm0, %xmm1
	vpbroadcastd	.Lgcm_v3_CPI53_18(%rip), %xmm0 # xmm0 = [15,15,15,15,15,15,15,15,15,15,15,15,15,15,15,15]
	vpand	%xmm0, %xmm1, %xmm2
	vmovdqa	.Lgcm_v3_CPI53_7(%rip), %xmm3          # xmm3 = [0,1,28,29,45,44,49,48,39,38,59,58,10,11,22,23]
	vpshufb	%xmm2, %xmm3, %xmm2
	vpsrlw	$4, %xmm1, %xmm1
	vpand	%xmm0, %xmm1, %xmm1
	vmovdqa	.Lgcm_v3_CPI53_8(%rip), %xmm3          # xmm3 = [0,134,253,123,142,8,115,245,119,241,138,12,249,127,4,130]
	vpshufb	%xmm1, %xmm3, %xmm1
	vpxor	%xmm2, %xmm1, %xmm3
	shlq	$4, %rcx
	addq	$80, %rcx
	xorl	%edx, %edx
	.p2align	4
.Lgcm_v3_BB53_36:                              # %join.5.i.i
                                        # =>This Inner Loop Header: Depth=1
	movq	%rdx, %rsi
	addq	$16, %rdx
	vpsrlw	$4, %xmm3, %xmm1
	vpand	%xmm0, %xmm1, %xmm4
	vpand	%xmm0, %xmm3, %xmm1
	vpxor	%xmm1, %xmm4, %xmm3
	vmovdqa	.Lgcm_v3_CPI53_9(%rip), %xmm2          # xmm2 = [128,2,1,15,9,5,14,12,13,4,11,10,7,8,6,3]
	vpshufb	%xmm1, %xmm2, %xmm5
	vmovdqa	.Lgcm_v3_CPI53_10(%rip), %xmm1         # xmm1 = [128,1,9,14,13,11,7,6,15,2,12,5,10,4,3,8]
	vpshufb	%xmm4, %xmm1, %xmm6
	vpshufb	%xmm3, %xmm1, %xmm7
	vpxor	%xmm5, %xmm6, %xmm6
	vpxor	%xmm5, %xmm7, %xmm5
	vpshufb	%xmm6, %xmm1, %xmm6
	vpshufb	%xmm5, %xmm1, %xmm5
	vpxor	%xmm3, %xmm6, %xmm3
	vpxor	%xmm4, %xmm5, %xmm4
	vmovdqa	.Lgcm_v3_CPI53_11(%rip), %xmm5         # xmm5 = [0,195,79,12,252,124,67,128,207,51,63,112,191,179,240,140]
	vpshufb	%xmm3, %xmm5, %xmm5
	vmovdqa	.Lgcm_v3_CPI53_12(%rip), %xmm6         # xmm6 = [0,230,114,183,229,198,197,35,81,180,3,113,32,151,82,148]
	vpshufb	%xmm4, %xmm6, %xmm6
	vpxor	%xmm5, %xmm6, %xmm5
	vmovdqa	.Lgcm_v3_CPI53_13(%rip), %xmm6         # xmm6 = [0,124,32,207,146,1,239,147,179,33,238,206,125,178,93,92]
	vpshufb	%xmm3, %xmm6, %xmm3
	vmovdqa	.Lgcm_v3_CPI53_14(%rip), %xmm6         # xmm6 = [0,209,229,247,230,37,18,195,38,192,55,210,244,3,17,52]
	vpshufb	%xmm4, %xmm6, %xmm4
	vpxor	%xmm3, %xmm4, %xmm3
	movl	%edx, %edi
	andl	$48, %edi
	leaq	.Lgcm_v3_static.5(%rip), %r8
	vmovdqu	(%rdi,%r8), %xmm4
	vpshufb	%xmm4, %xmm5, %xmm6
	vpxor	%xmm6, %xmm3, %xmm3
	vpshufb	%xmm4, %xmm3, %xmm4
	leaq	.Lgcm_v3_static.6(%rip), %r8
	vpshufb	(%rdi,%r8), %xmm5, %xmm5
	vpxor	20(%rbx,%rsi), %xmm4, %xmm4
	vpxor	%xmm3, %xmm5, %xmm3
	vpxor	%xmm3, %xmm4, %xmm3
	cmpq	%rdx, %rcx
	jne	.Lgcm_v3_BB53_36
# %bb.37:                               # %"gcm_c::siv::MessageRoomMessageKey::encrypt_block.exit"
	shlq	$4, %rax
	vpsrlw	$4, %xmm3, %xmm4
	vpand	%xmm0, %xmm4, %xmm4
	vpand	%xmm0, %xmm3, %xmm0
	vpxor	%xmm0, %xmm4, %xmm3
	vpshufb	%xmm0, %xmm2, %xmm0
	vpshufb	%xmm4, %xmm1, %xmm2
	vpshufb	%xmm3, %xmm1, %xmm5
	vpxor	%xmm0, %xmm2, %xmm2
	vpxor	%xmm0, %xmm5, %xmm0
	vpshufb	%xmm2, %xmm1, %xmm2
	vpshufb	%xmm0, %xmm1, %xmm0
	vpxor	%xmm3, %xmm2, %xmm1
	vpxor	%xmm4, %xmm0, %xmm0
	vmovdqa	.Lgcm_v3_CPI53_15(%rip), %xmm2         # xmm2 = [0,203,215,176,33,141,103,172,123,90,234,61,70,246,145,28]
	vpshufb	%xmm1, %xmm2, %xmm1
	vmovdqa	.Lgcm_v3_CPI53_16(%rip), %xmm2         # xmm2 = [0,159,97,22,194,42,119,232,137,75,93,60,181,163,212,254]
	vpshufb	%xmm0, %xmm2, %xmm0
	vpxor	%xmm1, %xmm0, %xmm0
	movl	%eax, %ecx
	andl	$48, %ecx
	leaq	.Lgcm_v3_static.3(%rip), %rdx
	vpshufb	(%rcx,%rdx), %xmm0, %xmm0
	vpxor	4(%rbx,%rax), %xmm0, %xmm0
	vmovdqu	%xmm0, (%r12)
	addq	$104, %rsp
	popq	%rbx
	popq	%r12
	popq	%r13
	popq	%r14
	popq	%r15
	popq	%rbp
	retq
.Lgcm_v3_BB53_31:                              # %join.9.i.i.i
	vmovdqa	%xmm3, 16(%rsp)                 # 16-byte Spill
	vpxor	%xmm3, %xmm3, %xmm3
	vmovdqa	%xmm3, 32(%rsp)
	movq	64(%rsp), %rcx                  # 8-byte Reload
	vmovdqu	(%rcx,%rbp), %xmm1
	vpshufb	.Lgcm_v3_CPI53_0(%rip), %xmm1, %xmm1   # xmm1 = xmm1[15,14,13,12,11,10,9,8,7,6,5,4,3,2,1,0]
	vpxor	%xmm2, %xmm1, %xmm0
	leaq	32(%rbp), %rax
	leaq	(%rcx,%rbp), %rsi
	addq	$32, %rsi
	subq	%rax, %r13
	cmpq	$16, %r13
	je	.Lgcm_v3_BB53_33
# %bb.32:                               # %join.3.i.i.i.i.i
	vmovdqa	%xmm3, (%rsp)
	movq	%rsp, %r14
	movq	%r14, %rdi
	movq	%r13, %rdx
	vmovdqa	%xmm0, 48(%rsp)                 # 16-byte Spill
	callq	*memcpy@GOTPCREL(%rip)
	vmovdqa	48(%rsp), %xmm0                 # 16-byte Reload
	movq	%r14, %rsi
.Lgcm_v3_BB53_33:                              # %"gcm::hash::hash_last_group::<#1ace2c8123f9d1c9>.exit.i.i"
	vmovdqu	(%rsi), %xmm2
	vmovdqa	.Lgcm_v3_CPI53_0(%rip), %xmm1          # xmm1 = [15,14,13,12,11,10,9,8,7,6,5,4,3,2,1,0]
	vpshufb	%xmm1, %xmm2, %xmm2
	movq	64(%rsp), %rax                  # 8-byte Reload
	vmovdqu	16(%rax,%rbp), %xmm3
	vpshufb	%xmm1, %xmm3, %xmm1
	leaq	32(%rsp), %rdi
	movq	%r15, %rsi
	callq	gcm_v3.gcm.multiples.Multiples.three_products
	vmovdqa	16(%rsp), %xmm0                 # 16-byte Reload
	vpxor	32(%rsp), %xmm0, %xmm0
	jmp	.Lgcm_v3_BB53_34
.Lgcm_v3_func_end53:
	.size	gcm_v3.gcm_siv.message.put_tag.2, .Lgcm_v3_func_end53-gcm_v3.gcm_siv.message.put_tag.2
                                        # -- End function
	.section	.text.gcm_v3.gcm_siv.course.seal_in.1,"ax",@progbits
	.p2align	4                               # -- Begin function gcm_siv::course::seal_in::<#f80dcf79dd5b6d45>
	.type	gcm_v3.gcm_siv.course.seal_in.1,@function
gcm_v3.gcm_siv.course.seal_in.1: # @gcm_v3.gcm_siv.course.seal_in.1
# %bb.0:                                # %start
	pushq	%rbp
	pushq	%r15
	pushq	%r14
	pushq	%r13
	pushq	%r12
	pushq	%rbx
	subq	$1336, %rsp                     # imm = 0x538
	movq	%r9, 16(%rsp)                   # 8-byte Spill
	movq	%r8, %r15
	movq	%rcx, %r12
	movq	%rdx, %rbp
	movq	%rsi, %rbx
	movq	%rdi, 24(%rsp)                  # 8-byte Spill
	vxorps	%xmm0, %xmm0, %xmm0
	vmovaps	%xmm0, 800(%rsp)
	vxorps	%xmm0, %xmm0, %xmm0
	vmovups	%ymm0, 304(%rsp)
	vmovups	%ymm0, 336(%rsp)
	vmovups	%ymm0, 368(%rsp)
	vmovups	%ymm0, 400(%rsp)
	vmovups	%ymm0, 432(%rsp)
	vmovups	%ymm0, 464(%rsp)
	vmovups	%ymm0, 496(%rsp)
	vmovups	%ymm0, 528(%rsp)
	vmovups	%ymm0, 560(%rsp)
	vmovups	%ymm0, 592(%rsp)
	vmovups	%ymm0, 624(%rsp)
	vmovups	%ymm0, 656(%rsp)
	vmovups	%ymm0, 688(%rsp)
	vmovups	%ymm0, 720(%rsp)
	vmovups	%ymm0, 752(%rsp)
	vmovups	%ymm0, 768(%rsp)
	leaq	824(%rsp), %r13
	leaq	304(%rsp), %rsi
	movl	$512, %edx                      # imm = 0x200
	movq	%r13, %rdi
	vzeroupper
	callq	*memcpy@GOTPCREL(%rip)
	vxorps	%xmm0, %xmm0, %xmm0
	vmovups	%ymm0, 48(%rsp)
	vmovups	%ymm0, 80(%rsp)
	vmovups	%ymm0, 112(%rsp)
	vmovups	%ymm0, 144(%rsp)
	vmovups	%ymm0, 176(%rsp)
	vmovups	%ymm0, 208(%rsp)
	vmovups	%ymm0, 240(%rsp)
	vmovups	%ymm0, 260(%rsp)
	leaq	48(%rsp), %r14
	movq	%rbx, %rdi
	movq	%rbp, %rsi
	movq	%r12, %rdx
	movq	%r14, %rcx
	movq	%r13, %r8
	vzeroupper
	callq	gcm_v3.gcm_siv.keys.derive_and_prepare.1
	vmovaps	1392(%rsp), %xmm0
	vmovups	%xmm0, (%rsp)
	leaq	32(%rsp), %rdi
	movq	%r14, %rsi
	movq	%r13, %rdx
	movq	%r12, %rcx
	movq	%r15, %r8
	movq	16(%rsp), %r9                   # 8-byte Reload
	callq	gcm_v3.gcm_siv.message.seal.1
	movl	$0, 48(%rsp)
	leaq	52(%rsp), %rdi
	callq	gcm_v3.aes_cipher.zeroize.elements.zeroize_elements.1
	movl	$32, %esi
	movq	%r13, %rdi
	callq	gcm_v3.aes_cipher.zeroize.elements.zeroize_elements.2
	callq	gcm_v3.aes_cipher.zeroize.stack.wipe_stack.2816
	vmovups	32(%rsp), %xmm0
	movq	24(%rsp), %rax                  # 8-byte Reload
	vmovups	%xmm0, (%rax)
	addq	$1336, %rsp                     # imm = 0x538
	popq	%rbx
	popq	%r12
	popq	%r13
	popq	%r14
	popq	%r15
	popq	%rbp
	retq
.Lgcm_v3_func_end54:
	.size	gcm_v3.gcm_siv.course.seal_in.1, .Lgcm_v3_func_end54-gcm_v3.gcm_siv.course.seal_in.1
                                        # -- End function
	.section	.text.gcm_v3.gcm_siv.message.seal.1,"ax",@progbits
	.p2align	4                               # -- Begin function gcm_siv::message::seal::<#f940bb35374b8583>
	.type	gcm_v3.gcm_siv.message.seal.1,@function
gcm_v3.gcm_siv.message.seal.1: # @gcm_v3.gcm_siv.message.seal.1
# %bb.0:                                # %start
	pushq	%r15
	pushq	%r14
	pushq	%r13
	pushq	%r12
	pushq	%rbx
	subq	$32, %rsp
	movq	%rsi, %rbx
	movq	%rdi, %r14
	movq	80(%rsp), %r15
	movq	88(%rsp), %r12
	vxorps	%xmm0, %xmm0, %xmm0
	vmovaps	%xmm0, 16(%rsp)
	leaq	16(%rsp), %r13
	movq	%r13, 8(%rsp)
	movq	%r12, (%rsp)
	movq	%rsi, %rdi
	movq	%rdx, %rsi
	movq	%rcx, %rdx
	movq	%r8, %rcx
	movq	%r9, %r8
	movq	%r15, %r9
	callq	gcm_v3.gcm_siv.message.put_tag.1
	movq	%rbx, %rdi
	movq	%r13, %rsi
	movq	%r15, %rdx
	movq	%r12, %rcx
	callq	gcm_v3.gcm_siv.message.process_text
	vmovaps	16(%rsp), %xmm0
	vmovups	%xmm0, (%r14)
	addq	$32, %rsp
	popq	%rbx
	popq	%r12
	popq	%r13
	popq	%r14
	popq	%r15
	retq
.Lgcm_v3_func_end55:
	.size	gcm_v3.gcm_siv.message.seal.1, .Lgcm_v3_func_end55-gcm_v3.gcm_siv.message.seal.1
                                        # -- End function
	.section	.text.gcm_v3.gcm_siv.course.seal_in.2,"ax",@progbits
	.p2align	4                               # -- Begin function gcm_siv::course::seal_in::<#3d0c7d061dc5c2d9>
	.type	gcm_v3.gcm_siv.course.seal_in.2,@function
gcm_v3.gcm_siv.course.seal_in.2: # @gcm_v3.gcm_siv.course.seal_in.2
# %bb.0:                                # %start
	pushq	%rbp
	pushq	%r15
	pushq	%r14
	pushq	%r13
	pushq	%r12
	pushq	%rbx
	subq	$3072, %rsp                     # imm = 0xC00
	movq	$0, (%rsp)
	subq	$296, %rsp                      # imm = 0x128
	movq	%r9, 16(%rsp)                   # 8-byte Spill
	movq	%r8, %r15
	movq	%rcx, %r12
	movq	%rdx, %rbp
	movq	%rsi, %rbx
	movq	%rdi, 24(%rsp)                  # 8-byte Spill
	vxorps	%xmm0, %xmm0, %xmm0
	vmovups	%xmm0, 1816(%rsp)
	leaq	296(%rsp), %r14
	movl	$1520, %edx                     # imm = 0x5F0
	movq	%r14, %rdi
	xorl	%esi, %esi
	callq	*memset@GOTPCREL(%rip)
	leaq	1832(%rsp), %r13
	movl	$1536, %edx                     # imm = 0x600
	movq	%r13, %rdi
	movq	%r14, %rsi
	callq	*memcpy@GOTPCREL(%rip)
	vxorps	%xmm0, %xmm0, %xmm0
	vmovups	%ymm0, 48(%rsp)
	vmovups	%ymm0, 80(%rsp)
	vmovups	%ymm0, 112(%rsp)
	vmovups	%ymm0, 144(%rsp)
	vmovups	%ymm0, 176(%rsp)
	vmovups	%ymm0, 208(%rsp)
	vmovups	%ymm0, 240(%rsp)
	vmovups	%ymm0, 260(%rsp)
	leaq	48(%rsp), %r14
	movq	%rbx, %rdi
	movq	%rbp, %rsi
	movq	%r12, %rdx
	movq	%r14, %rcx
	movq	%r13, %r8
	vzeroupper
	callq	gcm_v3.gcm_siv.keys.derive_and_prepare.2
	vmovaps	3424(%rsp), %xmm0
	vmovups	%xmm0, (%rsp)
	leaq	32(%rsp), %rdi
	movq	%r14, %rsi
	movq	%r13, %rdx
	movq	%r12, %rcx
	movq	%r15, %r8
	movq	16(%rsp), %r9                   # 8-byte Reload
	callq	gcm_v3.gcm_siv.message.seal.2
	movl	$0, 48(%rsp)
	leaq	52(%rsp), %rdi
	callq	gcm_v3.aes_cipher.zeroize.elements.zeroize_elements.1
	movl	$96, %esi
	movq	%r13, %rdi
	callq	gcm_v3.aes_cipher.zeroize.elements.zeroize_elements.2
	callq	gcm_v3.aes_cipher.zeroize.stack.wipe_stack.2816
	vmovups	32(%rsp), %xmm0
	movq	24(%rsp), %rax                  # 8-byte Reload
	vmovups	%xmm0, (%rax)
	addq	$3368, %rsp                     # imm = 0xD28
	popq	%rbx
	popq	%r12
	popq	%r13
	popq	%r14
	popq	%r15
	popq	%rbp
	retq
.Lgcm_v3_func_end56:
	.size	gcm_v3.gcm_siv.course.seal_in.2, .Lgcm_v3_func_end56-gcm_v3.gcm_siv.course.seal_in.2
                                        # -- End function
	.section	.text.gcm_v3.gcm_siv.message.seal.2,"ax",@progbits
	.p2align	4                               # -- Begin function gcm_siv::message::seal::<#2b34360e0e51af73>
	.type	gcm_v3.gcm_siv.message.seal.2,@function
gcm_v3.gcm_siv.message.seal.2: # @gcm_v3.gcm_siv.message.seal.2
# %bb.0:                                # %start
	pushq	%r15
	pushq	%r14
	pushq	%r13
	pushq	%r12
	pushq	%rbx
	subq	$32, %rsp
	movq	%rsi, %rbx
	movq	%rdi, %r14
	movq	80(%rsp), %r15
	movq	88(%rsp), %r12
	vxorps	%xmm0, %xmm0, %xmm0
	vmovaps	%xmm0, 16(%rsp)
	leaq	16(%rsp), %r13
	movq	%r13, 8(%rsp)
	movq	%r12, (%rsp)
	movq	%rsi, %rdi
	movq	%rdx, %rsi
	movq	%rcx, %rdx
	movq	%r8, %rcx
	movq	%r9, %r8
	movq	%r15, %r9
	callq	gcm_v3.gcm_siv.message.put_tag.2
	movq	%rbx, %rdi
	movq	%r13, %rsi
	movq	%r15, %rdx
	movq	%r12, %rcx
	callq	gcm_v3.gcm_siv.message.process_text
	vmovaps	16(%rsp), %xmm0
	vmovups	%xmm0, (%r14)
	addq	$32, %rsp
	popq	%rbx
	popq	%r12
	popq	%r13
	popq	%r14
	popq	%r15
	retq
.Lgcm_v3_func_end57:
	.size	gcm_v3.gcm_siv.message.seal.2, .Lgcm_v3_func_end57-gcm_v3.gcm_siv.message.seal.2
                                        # -- End function
	.section	.rodata.cst16,"aM",@progbits,16
	.p2align	4, 0x0                          # -- Begin function gcm::hash_room::hash_piece::<#84904cd934dcda78>
.Lgcm_v3_CPI58_0:
	.byte	15                              # 0xf
	.byte	14                              # 0xe
	.byte	13                              # 0xd
	.byte	12                              # 0xc
	.byte	11                              # 0xb
	.byte	10                              # 0xa
	.byte	9                               # 0x9
	.byte	8                               # 0x8
	.byte	7                               # 0x7
	.byte	6                               # 0x6
	.byte	5                               # 0x5
	.byte	4                               # 0x4
	.byte	3                               # 0x3
	.byte	2                               # 0x2
	.byte	1                               # 0x1
	.byte	0                               # 0x0
	.section	.text.gcm_v3.gcm.hash_room.hash_piece,"ax",@progbits
	.p2align	4
	.type	gcm_v3.gcm.hash_room.hash_piece,@function
gcm_v3.gcm.hash_room.hash_piece: # @gcm_v3.gcm.hash_room.hash_piece
# %bb.0:                                # %start
	pushq	%rbp
	pushq	%r15
	pushq	%r14
	pushq	%r13
	pushq	%r12
	pushq	%rbx
	subq	$72, %rsp
	movq	%r8, %rbx
	movq	%rdx, %r14
	movl	$16, %edx
	subq	%rcx, %rdx
	movq	%r9, %rbp
	subq	%rdx, %rbp
	jae	.Lgcm_v3_BB58_4
# %bb.1:                                # %then.1
	leaq	(%r14,%rcx), %rdi
	movq	%rdi, %rax
	subq	%rbx, %rax
	cmpq	%r9, %rax
	jae	.Lgcm_v3_BB58_7
# %bb.2:                                # %iter.check205
	cmpq	$8, %r9
	jb	.Lgcm_v3_BB58_3
# %bb.9:                                # %vector.memcheck199
	cmpq	$128, %rax
	jae	.Lgcm_v3_BB58_13
.Lgcm_v3_BB58_3:
	xorl	%eax, %eax
.Lgcm_v3_BB58_39:                              # %join.7.i.i.i.i.i.i.preheader
	movq	%r9, %rsi
	movq	%rax, %rdx
	andq	$7, %rsi
	je	.Lgcm_v3_BB58_42
# %bb.40:                               # %join.7.i.i.i.i.i.i.prol.preheader
	movq	%rax, %rdx
	.p2align	4
.Lgcm_v3_BB58_41:                              # %join.7.i.i.i.i.i.i.prol
                                        # =>This Inner Loop Header: Depth=1
	movzbl	(%rbx,%rdx), %r8d
	movb	%r8b, (%rdi,%rdx)
	incq	%rdx
	decq	%rsi
	jne	.Lgcm_v3_BB58_41
.Lgcm_v3_BB58_42:                              # %join.7.i.i.i.i.i.i.prol.loopexit
	subq	%r9, %rax
	cmpq	$-8, %rax
	ja	.Lgcm_v3_BB58_31
# %bb.43:                               # %join.7.i.i.i.i.i.i.preheader237
	leaq	(%rcx,%r14), %rax
	addq	$7, %rax
	.p2align	4
.Lgcm_v3_BB58_44:                              # %join.7.i.i.i.i.i.i
                                        # =>This Inner Loop Header: Depth=1
	movzbl	(%rbx,%rdx), %ecx
	movb	%cl, -7(%rax,%rdx)
	movzbl	1(%rbx,%rdx), %ecx
	movb	%cl, -6(%rax,%rdx)
	movzbl	2(%rbx,%rdx), %ecx
	movb	%cl, -5(%rax,%rdx)
	movzbl	3(%rbx,%rdx), %ecx
	movb	%cl, -4(%rax,%rdx)
	movzbl	4(%rbx,%rdx), %ecx
	movb	%cl, -3(%rax,%rdx)
	movzbl	5(%rbx,%rdx), %ecx
	movb	%cl, -2(%rax,%rdx)
	movzbl	6(%rbx,%rdx), %ecx
	movb	%cl, -1(%rax,%rdx)
	movzbl	7(%rbx,%rdx), %ecx
	movb	%cl, (%rax,%rdx)
	addq	$8, %rdx
	cmpq	%rdx, %r9
	jne	.Lgcm_v3_BB58_44
	jmp	.Lgcm_v3_BB58_31
.Lgcm_v3_BB58_4:                               # %join.3
	movq	%rdi, %r8
	movq	(%rsi), %r15
	movq	8(%rsi), %r13
	leaq	(%rbx,%rdx), %rax
	movq	%rax, 24(%rsp)                  # 8-byte Spill
	leaq	(%r14,%rcx), %rdi
	movq	%rdi, %rax
	subq	%rbx, %rax
	cmpq	%rdx, %rax
	movq	%rcx, 16(%rsp)                  # 8-byte Spill
	movq	%rsi, 64(%rsp)                  # 8-byte Spill
	jae	.Lgcm_v3_BB58_8
# %bb.5:                                # %iter.check
	cmpq	$12, %rcx
	jbe	.Lgcm_v3_BB58_11
# %bb.6:
	xorl	%eax, %eax
	jmp	.Lgcm_v3_BB58_20
.Lgcm_v3_BB58_7:                               # %apart.2.i.i.i.i.i.i
	movq	%rbx, %rsi
	movq	%r9, %rdx
	addq	$72, %rsp
	popq	%rbx
	popq	%r12
	popq	%r13
	popq	%r14
	popq	%r15
	popq	%rbp
	jmpq	*memmove@GOTPCREL(%rip)
.Lgcm_v3_BB58_8:                               # %apart.2.i.i.i.i.i.i57
	movq	%rbx, %rsi
	movq	%r8, %r12
	callq	*memmove@GOTPCREL(%rip)
	movq	%r12, %r8
	jmp	.Lgcm_v3_BB58_21
.Lgcm_v3_BB58_11:                              # %vector.memcheck
	cmpq	$16, %rax
	jae	.Lgcm_v3_BB58_15
# %bb.12:
	xorl	%eax, %eax
	jmp	.Lgcm_v3_BB58_20
.Lgcm_v3_BB58_13:                              # %vector.main.loop.iter.check207
	cmpq	$128, %r9
	jae	.Lgcm_v3_BB58_32
# %bb.14:
	xorl	%eax, %eax
	jmp	.Lgcm_v3_BB58_36
.Lgcm_v3_BB58_15:                              # %vector.main.loop.iter.check
	testq	%rcx, %rcx
	je	.Lgcm_v3_BB58_45
# %bb.16:                               # %vec.epilog.ph
	movl	%edx, %eax
	andl	$-4, %eax
	movl	(%rbx), %ecx
	movl	%ecx, (%rdi)
	cmpq	$4, %rax
	je	.Lgcm_v3_BB58_19
# %bb.17:                               # %vec.epilog.vector.body.1
	movl	4(%rbx), %ecx
	movl	%ecx, 4(%rdi)
	cmpl	$8, %eax
	je	.Lgcm_v3_BB58_19
# %bb.18:                               # %vec.epilog.vector.body.2
	movl	8(%rbx), %ecx
	movl	%ecx, 8(%rdi)
.Lgcm_v3_BB58_19:                              # %vec.epilog.middle.block
	cmpl	%eax, %edx
	je	.Lgcm_v3_BB58_21
	.p2align	4
.Lgcm_v3_BB58_20:                              # %join.7.i.i.i.i.i.i58
                                        # =>This Inner Loop Header: Depth=1
	movzbl	(%rbx,%rax), %ecx
	movb	%cl, (%rdi,%rax)
	incq	%rax
	cmpq	%rax, %rdx
	jne	.Lgcm_v3_BB58_20
.Lgcm_v3_BB58_21:                              # %"core::slice::edits::slice+T::copy_from_slice::<i8,20'core::clone::U8Clone{}>.exit65"
	movq	%rbp, %rcx
	andq	$-16, %rcx
	movq	24(%rsp), %rax                  # 8-byte Reload
	movq	%rcx, (%rsp)                    # 8-byte Spill
	addq	%rcx, %rax
	movq	%rax, 56(%rsp)                  # 8-byte Spill
	movl	%ebp, %r12d
	xorq	(%r14), %r15
	xorq	8(%r14), %r13
	bswapq	%r13
	andl	$15, %r12d
	bswapq	%r15
	movq	%r8, 8(%rsp)                    # 8-byte Spill
	movq	(%r8), %rsi
	vxorps	%xmm0, %xmm0, %xmm0
	vmovaps	%xmm0, 32(%rsp)
	vmovq	%r15, %xmm0
	vmovq	%r13, %xmm1
	vpunpcklqdq	%xmm0, %xmm1, %xmm0     # xmm0 = xmm1[0],xmm0[0]
	vpshufb	.Lgcm_v3_CPI58_0(%rip), %xmm0, %xmm0   # xmm0 = xmm0[15,14,13,12,11,10,9,8,7,6,5,4,3,2,1,0]
	leaq	32(%rsp), %rdi
	callq	gcm_v3.gcm.multiples.Multiples.block_product
	movq	56(%rsp), %rsi                  # 8-byte Reload
	movbeq	32(%rsp), %r15
	movbeq	40(%rsp), %r13
	movq	%r14, %rax
	subq	%rsi, %rax
	cmpq	%r12, %rax
	jae	.Lgcm_v3_BB58_24
# %bb.22:                               # %join.7.i.i.i.i.i.i84.preheader
	movl	%ebp, %eax
	andl	$7, %eax
	cmpl	$8, %r12d
	jae	.Lgcm_v3_BB58_25
# %bb.23:
	xorl	%ecx, %ecx
	movq	16(%rsp), %rdx                  # 8-byte Reload
	movq	8(%rsp), %r9                    # 8-byte Reload
	movq	(%rsp), %r8                     # 8-byte Reload
	jmp	.Lgcm_v3_BB58_28
.Lgcm_v3_BB58_24:                              # %apart.2.i.i.i.i.i.i83
	movq	%r14, %rdi
	movq	%r12, %rdx
	callq	*memmove@GOTPCREL(%rip)
	movq	8(%rsp), %r9                    # 8-byte Reload
	movq	(%rsp), %r8                     # 8-byte Reload
	jmp	.Lgcm_v3_BB58_30
.Lgcm_v3_BB58_25:                              # %join.7.i.i.i.i.i.i84.preheader.new
	andl	$8, %ebp
	movq	(%rsp), %r8                     # 8-byte Reload
	movq	%r8, %rcx
	movq	16(%rsp), %rdx                  # 8-byte Reload
	subq	%rdx, %rcx
	leaq	(%rcx,%rbx), %rsi
	addq	$23, %rsi
	xorl	%ecx, %ecx
	movq	8(%rsp), %r9                    # 8-byte Reload
	.p2align	4
.Lgcm_v3_BB58_26:                              # %join.7.i.i.i.i.i.i84
                                        # =>This Inner Loop Header: Depth=1
	movzbl	-7(%rsi,%rcx), %edi
	movb	%dil, (%r14,%rcx)
	movzbl	-6(%rsi,%rcx), %edi
	movb	%dil, 1(%r14,%rcx)
	movzbl	-5(%rsi,%rcx), %edi
	movb	%dil, 2(%r14,%rcx)
	movzbl	-4(%rsi,%rcx), %edi
	movb	%dil, 3(%r14,%rcx)
	movzbl	-3(%rsi,%rcx), %edi
	movb	%dil, 4(%r14,%rcx)
	movzbl	-2(%rsi,%rcx), %edi
	movb	%dil, 5(%r14,%rcx)
	movzbl	-1(%rsi,%rcx), %edi
	movb	%dil, 6(%r14,%rcx)
	movzbl	(%rsi,%rcx), %edi
	movb	%dil, 7(%r14,%rcx)
	addq	$8, %rcx
	cmpq	%rcx, %rbp
	jne	.Lgcm_v3_BB58_26
# %bb.27:                               # %"core::slice::edits::slice+T::copy_from_slice::<i8,20'core::clone::U8Clone{}>.exit91.loopexit.unr-lcssa"
	testq	%rax, %rax
	je	.Lgcm_v3_BB58_30
.Lgcm_v3_BB58_28:                              # %join.7.i.i.i.i.i.i84.epil.preheader
	leaq	(%rcx,%r8), %rsi
	subq	%rdx, %rsi
	leaq	(%rsi,%rbx), %rdx
	addq	$16, %rdx
	addq	%rcx, %r14
	xorl	%ecx, %ecx
	.p2align	4
.Lgcm_v3_BB58_29:                              # %join.7.i.i.i.i.i.i84.epil
                                        # =>This Inner Loop Header: Depth=1
	movzbl	(%rdx,%rcx), %esi
	movb	%sil, (%r14,%rcx)
	incq	%rcx
	cmpq	%rcx, %rax
	jne	.Lgcm_v3_BB58_29
.Lgcm_v3_BB58_30:                              # %"core::slice::edits::slice+T::copy_from_slice::<i8,20'core::clone::U8Clone{}>.exit91"
	movq	(%r9), %rdi
	movq	%r13, %rsi
	movq	%r15, %rdx
	movq	24(%rsp), %rcx                  # 8-byte Reload
	callq	gcm_v3.gcm.hash_room.MultiplesRoomHashRoom.hash_on
	vmovq	%rdx, %xmm0
	vmovq	%rax, %xmm1
	vpunpcklqdq	%xmm0, %xmm1, %xmm0     # xmm0 = xmm1[0],xmm0[0]
	vpshufb	.Lgcm_v3_CPI58_0(%rip), %xmm0, %xmm0   # xmm0 = xmm0[15,14,13,12,11,10,9,8,7,6,5,4,3,2,1,0]
	movq	64(%rsp), %rax                  # 8-byte Reload
	vmovdqu	%xmm0, (%rax)
.Lgcm_v3_BB58_31:                              # %common.ret
	addq	$72, %rsp
	popq	%rbx
	popq	%r12
	popq	%r13
	popq	%r14
	popq	%r15
	popq	%rbp
	vzeroupper
	retq
.Lgcm_v3_BB58_32:                              # %vector.ph208
	movq	%r9, %rax
	andq	$-128, %rax
	leaq	(%rcx,%r14), %rdx
	addq	$96, %rdx
	xorl	%esi, %esi
	.p2align	4
.Lgcm_v3_BB58_33:                              # %vector.body211
                                        # =>This Inner Loop Header: Depth=1
	vmovdqu	(%rbx,%rsi), %ymm0
	vmovdqu	32(%rbx,%rsi), %ymm1
	vmovups	64(%rbx,%rsi), %ymm2
	vmovups	96(%rbx,%rsi), %ymm3
	vmovdqu	%ymm0, -96(%rdx,%rsi)
	vmovdqu	%ymm1, -64(%rdx,%rsi)
	vmovups	%ymm2, -32(%rdx,%rsi)
	vmovups	%ymm3, (%rdx,%rsi)
	subq	$-128, %rsi
	cmpq	%rsi, %rax
	jne	.Lgcm_v3_BB58_33
# %bb.34:                               # %middle.block218
	cmpq	%rax, %r9
	je	.Lgcm_v3_BB58_31
# %bb.35:                               # %vec.epilog.iter.check222
	testb	$120, %r9b
	je	.Lgcm_v3_BB58_39
.Lgcm_v3_BB58_36:                              # %vec.epilog.ph224
	movq	%rax, %rdx
	movq	%r9, %rax
	andq	$-8, %rax
	.p2align	4
.Lgcm_v3_BB58_37:                              # %vec.epilog.vector.body227
                                        # =>This Inner Loop Header: Depth=1
	movq	(%rbx,%rdx), %rsi
	movq	%rsi, (%rdi,%rdx)
	addq	$8, %rdx
	cmpq	%rdx, %rax
	jne	.Lgcm_v3_BB58_37
# %bb.38:                               # %vec.epilog.middle.block231
	cmpq	%rax, %r9
	je	.Lgcm_v3_BB58_31
	jmp	.Lgcm_v3_BB58_39
.Lgcm_v3_BB58_45:                              # %vector.body
	vmovups	(%rbx), %xmm0
	vmovups	%xmm0, (%rdi)
	jmp	.Lgcm_v3_BB58_21
.Lgcm_v3_func_end58:
	.size	gcm_v3.gcm.hash_room.hash_piece, .Lgcm_v3_func_end58-gcm_v3.gcm.hash_room.hash_piece
                                        # -- End function
	.section	.rodata.cst16,"aM",@progbits,16
	.p2align	4, 0x0                          # -- Begin function gcm::mode::BorrowedGcm::enter_phase::<#8da2abccd8f5ef8c>
.Lgcm_v3_CPI59_0:
	.byte	15                              # 0xf
	.byte	14                              # 0xe
	.byte	13                              # 0xd
	.byte	12                              # 0xc
	.byte	11                              # 0xb
	.byte	10                              # 0xa
	.byte	9                               # 0x9
	.byte	8                               # 0x8
	.byte	7                               # 0x7
	.byte	6                               # 0x6
	.byte	5                               # 0x5
	.byte	4                               # 0x4
	.byte	3                               # 0x3
	.byte	2                               # 0x2
	.byte	1                               # 0x1
	.byte	0                               # 0x0
	.section	.text.gcm_v3.gcm.mode.BorrowedGcm.enter_phase,"ax",@progbits
	.p2align	4
	.type	gcm_v3.gcm.mode.BorrowedGcm.enter_phase,@function
gcm_v3.gcm.mode.BorrowedGcm.enter_phase: # @gcm_v3.gcm.mode.BorrowedGcm.enter_phase
# %bb.0:                                # %start
	movq	24(%rsi), %rax
	xorl	%r8d, %r8d
	cmpq	$5, %rax
	cmovael	%r8d, %eax
	cmpb	$1, %al
	je	.Lgcm_v3_BB59_3
# %bb.1:                                # %start
	cmpb	%dl, %al
	je	.Lgcm_v3_BB59_3
# %bb.2:
	movb	$1, %al
                                        # kill: def $al killed $al killed $eax
	movl	%r8d, %edx
	retq
.Lgcm_v3_BB59_3:                               # %join.3
	cmpb	$1, %al
	setne	%al
	addq	8(%rsi), %rcx
	movq	$-1, %r8
	cmovaeq	%rcx, %r8
	movabsq	$68719476704, %rcx              # imm = 0xFFFFFFFE0
	cmpq	%rcx, %r8
	seta	%r8b
	orb	%r8b, %al
	movl	%r8d, %eax
	jne	.Lgcm_v3_BB59_5
# %bb.4:                                # %then.8
	pushq	%rbp
	pushq	%rbx
	pushq	%rax
	movq	32(%rdi), %rdi
	movq	%rsi, %rbx
	movl	%edx, %ebp
	callq	gcm_v3.gcm.mode.BorrowedGcm.hash_so_far
	vmovq	%rdx, %xmm0
	vmovq	%rax, %xmm1
	vpunpcklqdq	%xmm0, %xmm1, %xmm0     # xmm0 = xmm1[0],xmm0[0]
	vpshufb	.Lgcm_v3_CPI59_0(%rip), %xmm0, %xmm0   # xmm0 = xmm0[15,14,13,12,11,10,9,8,7,6,5,4,3,2,1,0]
	vmovdqu	%xmm0, 48(%rbx)
	movzbl	%bpl, %eax
	movq	%rax, 24(%rbx)
	xorl	%r8d, %r8d
	xorl	%eax, %eax
	addq	$8, %rsp
	popq	%rbx
	popq	%rbp
.Lgcm_v3_BB59_5:                               # %return.4
                                        # kill: def $al killed $al killed $eax
	movl	%r8d, %edx
	retq
.Lgcm_v3_func_end59:
	.size	gcm_v3.gcm.mode.BorrowedGcm.enter_phase, .Lgcm_v3_func_end59-gcm_v3.gcm.mode.BorrowedGcm.enter_phase
                                        # -- End function
	.section	.text.gcm_v3.gcm.mode.BorrowedGcm.is_tag_so_far,"ax",@progbits
	.p2align	4                               # -- Begin function gcm::mode::BorrowedGcm::is_tag_so_far::<#8da2abccd8f5ef8c>
	.type	gcm_v3.gcm.mode.BorrowedGcm.is_tag_so_far,@function
gcm_v3.gcm.mode.BorrowedGcm.is_tag_so_far: # @gcm_v3.gcm.mode.BorrowedGcm.is_tag_so_far
# %bb.0:                                # %start
	pushq	%r14
	pushq	%rbx
	subq	$24, %rsp
	movq	%rdx, %rbx
	leaq	8(%rsp), %r14
	movq	%r14, %rdx
	callq	gcm_v3.gcm.mode.BorrowedGcm.put_tag_so_far
	movq	%rbx, %rdi
	movq	%r14, %rsi
	callq	gcm_v3.aes_cipher.blocks.difference
	testl	%eax, %eax
	sete	%bl
	movq	%r14, %rdi
	callq	gcm_v3.aes_cipher.zeroize.elements.zeroize_elements.3
	movl	%ebx, %eax
	addq	$24, %rsp
	popq	%rbx
	popq	%r14
	retq
.Lgcm_v3_func_end60:
	.size	gcm_v3.gcm.mode.BorrowedGcm.is_tag_so_far, .Lgcm_v3_func_end60-gcm_v3.gcm.mode.BorrowedGcm.is_tag_so_far
                                        # -- End function
	.section	.text.gcm_v3.gcm.mode.BorrowedGcm.is_short_tag_so_far,"ax",@progbits
	.p2align	4                               # -- Begin function gcm::mode::BorrowedGcm::is_short_tag_so_far::<#8da2abccd8f5ef8c>
	.type	gcm_v3.gcm.mode.BorrowedGcm.is_short_tag_so_far,@function
gcm_v3.gcm.mode.BorrowedGcm.is_short_tag_so_far: # @gcm_v3.gcm.mode.BorrowedGcm.is_short_tag_so_far
# %bb.0:                                # %start
	pushq	%r15
	pushq	%r14
	pushq	%r12
	pushq	%rbx
	subq	$40, %rsp
	movq	%rcx, %rbx
	movq	%rdx, %r14
	leaq	24(%rsp), %r15
	movq	%r15, %rdx
	callq	gcm_v3.gcm.mode.BorrowedGcm.put_tag_so_far
	vmovups	24(%rsp), %xmm0
	vmovaps	%xmm0, (%rsp)
	movq	%rsp, %r12
	movq	%r12, %rdi
	movq	%r14, %rsi
	movq	%rbx, %rdx
	callq	*memcpy@GOTPCREL(%rip)
	movq	%r12, %rdi
	movq	%r15, %rsi
	callq	gcm_v3.aes_cipher.blocks.difference
	testl	%eax, %eax
	sete	%bl
	movq	%r15, %rdi
	callq	gcm_v3.aes_cipher.zeroize.elements.zeroize_elements.3
	movq	%r12, %rdi
	callq	gcm_v3.aes_cipher.zeroize.elements.zeroize_elements.3
	movl	%ebx, %eax
	addq	$40, %rsp
	popq	%rbx
	popq	%r12
	popq	%r14
	popq	%r15
	retq
.Lgcm_v3_func_end61:
	.size	gcm_v3.gcm.mode.BorrowedGcm.is_short_tag_so_far, .Lgcm_v3_func_end61-gcm_v3.gcm.mode.BorrowedGcm.is_short_tag_so_far
                                        # -- End function
	.section	.text.gcm_v3.fotsgure_gcm_key_length,"ax",@progbits
	export_gcm_v3	fotsgure_gcm_key_length
	.p2align	4
	.type	gcm_v3.fotsgure_gcm_key_length,@function
gcm_v3.fotsgure_gcm_key_length:                # @gcm_v3.fotsgure_gcm_key_length
	endbr64
# %bb.0:                                # %start
	movl	(%rdi), %ecx
	xorl	%eax, %eax
	cmpq	$32, %rcx
	ja	.Lgcm_v3_BB62_3
# %bb.1:                                # %start
	movabsq	$4311810048, %rdx               # imm = 0x101010000
	btq	%rcx, %rdx
	jae	.Lgcm_v3_BB62_3
# %bb.2:                                # %then.1.i.i
	movq	%rcx, %rax
.Lgcm_v3_BB62_3:                               # %"gcm_c::kept::fotsgure_gcm_key_length.exit"
	vpxor	%xmm0, %xmm0, %xmm0
	vpxor	%xmm1, %xmm1, %xmm1
	vpxor	%xmm2, %xmm2, %xmm2
	vpxor	%xmm3, %xmm3, %xmm3
	vpxor	%xmm4, %xmm4, %xmm4
	vpxor	%xmm5, %xmm5, %xmm5
	vpxor	%xmm6, %xmm6, %xmm6
	vpxor	%xmm7, %xmm7, %xmm7
	vpxor	%xmm8, %xmm8, %xmm8
	vpxor	%xmm9, %xmm9, %xmm9
	vpxor	%xmm10, %xmm10, %xmm10
	vpxor	%xmm11, %xmm11, %xmm11
	vpxor	%xmm12, %xmm12, %xmm12
	vpxor	%xmm13, %xmm13, %xmm13
	vpxor	%xmm14, %xmm14, %xmm14
	vpxor	%xmm15, %xmm15, %xmm15
	xorl	%ecx, %ecx
	xorl	%edx, %edx
	xorl	%esi, %esi
	xorl	%edi, %edi
	xorl	%r8d, %r8d
	xorl	%r9d, %r9d
	xorl	%r10d, %r10d
	xorl	%r11d, %r11d
	retq
.Lgcm_v3_func_end62:
	.size	gcm_v3.fotsgure_gcm_key_length, .Lgcm_v3_func_end62-gcm_v3.fotsgure_gcm_key_length
                                        # -- End function
	.section	.text.gcm_v3.fotsgure_gcm_siv_wipe,"ax",@progbits
	export_gcm_v3	fotsgure_gcm_siv_wipe
	.p2align	4
	.type	gcm_v3.fotsgure_gcm_siv_wipe,@function
gcm_v3.fotsgure_gcm_siv_wipe:                  # @gcm_v3.fotsgure_gcm_siv_wipe
	endbr64
# %bb.0:                                # %start
	leaq	4(%rdi), %rax
	vxorps	%xmm0, %xmm0, %xmm0
	vmovups	%ymm0, 212(%rdi)
	vmovups	%ymm0, 192(%rdi)
	vmovups	%ymm0, 160(%rdi)
	vmovups	%ymm0, 128(%rdi)
	vmovups	%ymm0, 96(%rdi)
	vmovups	%ymm0, 64(%rdi)
	vmovups	%ymm0, 32(%rdi)
	vmovups	%ymm0, (%rdi)
	movq	%rax, %rdi
	vzeroupper
	jmp	gcm_v3.aes_cipher.zeroize.elements.zeroize_elements.1 # TAILCALL
.Lgcm_v3_func_end63:
	.size	gcm_v3.fotsgure_gcm_siv_wipe, .Lgcm_v3_func_end63-gcm_v3.fotsgure_gcm_siv_wipe
                                        # -- End function
	.section	.text.gcm_v3.fotsgure_gcm_version,"ax",@progbits
	export_gcm_v3	fotsgure_gcm_version
	.p2align	4
	.type	gcm_v3.fotsgure_gcm_version,@function
gcm_v3.fotsgure_gcm_version:                   # @gcm_v3.fotsgure_gcm_version
	endbr64
# %bb.0:                                # %start
	movl	$400, %eax                      # imm = 0x190
	vpxor	%xmm0, %xmm0, %xmm0
	vpxor	%xmm1, %xmm1, %xmm1
	vpxor	%xmm2, %xmm2, %xmm2
	vpxor	%xmm3, %xmm3, %xmm3
	vpxor	%xmm4, %xmm4, %xmm4
	vpxor	%xmm5, %xmm5, %xmm5
	vpxor	%xmm6, %xmm6, %xmm6
	vpxor	%xmm7, %xmm7, %xmm7
	vpxor	%xmm8, %xmm8, %xmm8
	vpxor	%xmm9, %xmm9, %xmm9
	vpxor	%xmm10, %xmm10, %xmm10
	vpxor	%xmm11, %xmm11, %xmm11
	vpxor	%xmm12, %xmm12, %xmm12
	vpxor	%xmm13, %xmm13, %xmm13
	vpxor	%xmm14, %xmm14, %xmm14
	vpxor	%xmm15, %xmm15, %xmm15
	xorl	%ecx, %ecx
	xorl	%edx, %edx
	xorl	%esi, %esi
	xorl	%edi, %edi
	xorl	%r8d, %r8d
	xorl	%r9d, %r9d
	xorl	%r10d, %r10d
	xorl	%r11d, %r11d
	retq
.Lgcm_v3_func_end64:
	.size	gcm_v3.fotsgure_gcm_version, .Lgcm_v3_func_end64-gcm_v3.fotsgure_gcm_version
                                        # -- End function
	.section	.text.gcm_v3.fotsgure_gcm_wipe,"ax",@progbits
	export_gcm_v3	fotsgure_gcm_wipe
	.p2align	4
	.type	gcm_v3.fotsgure_gcm_wipe,@function
gcm_v3.fotsgure_gcm_wipe:                      # @gcm_v3.fotsgure_gcm_wipe
	endbr64
# %bb.0:                                # %start
	pushq	%r14
	pushq	%rbx
	pushq	%rax
	leaq	4(%rdi), %rbx
	leaq	244(%rdi), %r14
	movl	$1780, %edx                     # imm = 0x6F4
	xorl	%esi, %esi
	callq	*memset@GOTPCREL(%rip)
	movq	%rbx, %rdi
	callq	gcm_v3.aes_cipher.zeroize.elements.zeroize_elements.1
	movl	$96, %esi
	movq	%r14, %rdi
	addq	$8, %rsp
	popq	%rbx
	popq	%r14
	jmp	gcm_v3.aes_cipher.zeroize.elements.zeroize_elements.2 # TAILCALL
.Lgcm_v3_func_end65:
	.size	gcm_v3.fotsgure_gcm_wipe, .Lgcm_v3_func_end65-gcm_v3.fotsgure_gcm_wipe
                                        # -- End function
	.section	.text.gcm_v3.fotsgure_gcm_wipe_message,"ax",@progbits
	export_gcm_v3	fotsgure_gcm_wipe_message
	.p2align	4
	.type	gcm_v3.fotsgure_gcm_wipe_message,@function
gcm_v3.fotsgure_gcm_wipe_message:              # @gcm_v3.fotsgure_gcm_wipe_message
	endbr64
# %bb.0:                                # %start
	vxorps	%xmm0, %xmm0, %xmm0
	vmovups	%ymm0, 48(%rdi)
	vmovups	%ymm0, 32(%rdi)
	vmovups	%ymm0, (%rdi)
	vzeroupper
	jmp	gcm_v3.gcm.message_state.MessageZeroize.zeroize # TAILCALL
.Lgcm_v3_func_end66:
	.size	gcm_v3.fotsgure_gcm_wipe_message, .Lgcm_v3_func_end66-gcm_v3.fotsgure_gcm_wipe_message
                                        # -- End function
	.section	.text.gcm_v3.fotsgure_gcm_siv_set_key,"ax",@progbits
	export_gcm_v3	fotsgure_gcm_siv_set_key
	.p2align	4
	.type	gcm_v3.fotsgure_gcm_siv_set_key,@function
gcm_v3.fotsgure_gcm_siv_set_key:               # @gcm_v3.fotsgure_gcm_siv_set_key
	endbr64
# %bb.0:                                # %start
	cmpq	$16, %rdx
	je	.Lgcm_v3_BB67_3
# %bb.1:                                # %start
	cmpq	$32, %rdx
	jne	.Lgcm_v3_BB67_2
.Lgcm_v3_BB67_3:                               # %join.3.i
	pushq	%r14
	pushq	%rbx
	pushq	%rax
	xorl	%eax, %eax
	testq	%rsi, %rsi
	sete	%al
	shll	$12, %eax
	addq	%rsi, %rax
	leaq	4(%rdi), %rcx
	vxorps	%xmm0, %xmm0, %xmm0
	vmovups	%ymm0, 212(%rdi)
	vmovups	%ymm0, 196(%rdi)
	vmovups	%ymm0, 164(%rdi)
	vmovups	%ymm0, 132(%rdi)
	vmovups	%ymm0, 100(%rdi)
	vmovups	%ymm0, 68(%rdi)
	vmovups	%ymm0, 36(%rdi)
	vmovups	%ymm0, 4(%rdi)
	movq	%rdi, %r14
	movq	%rcx, %rdi
	movq	%rax, %rsi
	movq	%rdx, %rbx
	vzeroupper
	callq	gcm_v3.aes_permute.lane_keys.expand_lanes
	movl	%ebx, (%r14)
	xorl	%eax, %eax
	addq	$8, %rsp
	popq	%rbx
	popq	%r14
	vpxor	%xmm0, %xmm0, %xmm0
	vpxor	%xmm1, %xmm1, %xmm1
	vpxor	%xmm2, %xmm2, %xmm2
	vpxor	%xmm3, %xmm3, %xmm3
	vpxor	%xmm4, %xmm4, %xmm4
	vpxor	%xmm5, %xmm5, %xmm5
	vpxor	%xmm6, %xmm6, %xmm6
	vpxor	%xmm7, %xmm7, %xmm7
	vpxor	%xmm8, %xmm8, %xmm8
	vpxor	%xmm9, %xmm9, %xmm9
	vpxor	%xmm10, %xmm10, %xmm10
	vpxor	%xmm11, %xmm11, %xmm11
	vpxor	%xmm12, %xmm12, %xmm12
	vpxor	%xmm13, %xmm13, %xmm13
	vpxor	%xmm14, %xmm14, %xmm14
	vpxor	%xmm15, %xmm15, %xmm15
	xorl	%ecx, %ecx
	xorl	%edx, %edx
	xorl	%esi, %esi
	xorl	%edi, %edi
	xorl	%r8d, %r8d
	xorl	%r9d, %r9d
	xorl	%r10d, %r10d
	xorl	%r11d, %r11d
	retq
.Lgcm_v3_BB67_2:                               # %then.1.i
	vxorps	%xmm0, %xmm0, %xmm0
	vmovups	%ymm0, 212(%rdi)
	vmovups	%ymm0, 192(%rdi)
	vmovups	%ymm0, 160(%rdi)
	vmovups	%ymm0, 128(%rdi)
	vmovups	%ymm0, 96(%rdi)
	vmovups	%ymm0, 64(%rdi)
	vmovups	%ymm0, 32(%rdi)
	vmovups	%ymm0, (%rdi)
	movl	$1, %eax
	vzeroupper
	vpxor	%xmm0, %xmm0, %xmm0
	vpxor	%xmm1, %xmm1, %xmm1
	vpxor	%xmm2, %xmm2, %xmm2
	vpxor	%xmm3, %xmm3, %xmm3
	vpxor	%xmm4, %xmm4, %xmm4
	vpxor	%xmm5, %xmm5, %xmm5
	vpxor	%xmm6, %xmm6, %xmm6
	vpxor	%xmm7, %xmm7, %xmm7
	vpxor	%xmm8, %xmm8, %xmm8
	vpxor	%xmm9, %xmm9, %xmm9
	vpxor	%xmm10, %xmm10, %xmm10
	vpxor	%xmm11, %xmm11, %xmm11
	vpxor	%xmm12, %xmm12, %xmm12
	vpxor	%xmm13, %xmm13, %xmm13
	vpxor	%xmm14, %xmm14, %xmm14
	vpxor	%xmm15, %xmm15, %xmm15
	xorl	%ecx, %ecx
	xorl	%edx, %edx
	xorl	%esi, %esi
	xorl	%edi, %edi
	xorl	%r8d, %r8d
	xorl	%r9d, %r9d
	xorl	%r10d, %r10d
	xorl	%r11d, %r11d
	retq
.Lgcm_v3_func_end67:
	.size	gcm_v3.fotsgure_gcm_siv_set_key, .Lgcm_v3_func_end67-gcm_v3.fotsgure_gcm_siv_set_key
                                        # -- End function
	.section	.text.gcm_v3.fotsgure_gcm_begin,"ax",@progbits
	export_gcm_v3	fotsgure_gcm_begin
	.p2align	4
	.type	gcm_v3.fotsgure_gcm_begin,@function
gcm_v3.fotsgure_gcm_begin:                     # @gcm_v3.fotsgure_gcm_begin
	endbr64
# %bb.0:                                # %start
	xorl	%r8d, %r8d
	testq	%rdx, %rdx
	sete	%r10b
	movabsq	$-2305843009213693952, %r9      # imm = 0xE000000000000000
	leaq	(%rcx,%r9), %r11
	incq	%r9
	movl	$3, %eax
	cmpq	%r9, %r11
	jb	.Lgcm_v3_BB68_6
# %bb.1:                                # %after.1.i
	movl	(%rdi), %r9d
	movl	$2, %eax
	cmpq	$32, %r9
	ja	.Lgcm_v3_BB68_6
# %bb.2:                                # %after.1.i
	movabsq	$4311810048, %r11               # imm = 0x101010000
	btq	%r9, %r11
	jae	.Lgcm_v3_BB68_6
# %bb.3:                                # %join.13.i
	pushq	%r14
	pushq	%rbx
	subq	$40, %rsp
	movb	%r10b, %r8b
	shll	$12, %r8d
	addq	%r8, %rdx
	leaq	4(%rdi), %rax
	shrl	$2, %r9d
	addq	$7, %r9
	addq	$244, %rdi
	movq	%rax, (%rsp)
	movq	%r9, 8(%rsp)
	movq	%rax, 16(%rsp)
	movq	%r9, 24(%rsp)
	movq	%rdi, 32(%rsp)
	leaq	32(%rsi), %rax
	movq	%rsp, %rdi
	movq	%rsi, %rbx
	movq	%rdx, %rsi
	movq	%rcx, %rdx
	movq	%rcx, %r14
	movq	%rax, %rcx
	callq	gcm_v3.gcm.mode.BorrowedGcm.put_pre_counter
	movq	$1, 24(%rbx)
	xorl	%eax, %eax
	vxorps	%xmm0, %xmm0, %xmm0
	vmovups	%xmm0, (%rbx)
	movq	$0, 16(%rbx)
	vxorps	%xmm0, %xmm0, %xmm0
	vmovups	%ymm0, 48(%rbx)
	cmpq	$12, %r14
	je	.Lgcm_v3_BB68_5
# %bb.4:                                # %then.1.i.i.i
	vzeroupper
	callq	gcm_v3.aes_cipher.zeroize.stack.wipe_stack.512
	xorl	%eax, %eax
.Lgcm_v3_BB68_5:
	addq	$40, %rsp
	popq	%rbx
	popq	%r14
.Lgcm_v3_BB68_6:                               # %"gcm_c::pieces::fotsgure_gcm_begin.exit"
	vzeroupper
	vpxor	%xmm0, %xmm0, %xmm0
	vpxor	%xmm1, %xmm1, %xmm1
	vpxor	%xmm2, %xmm2, %xmm2
	vpxor	%xmm3, %xmm3, %xmm3
	vpxor	%xmm4, %xmm4, %xmm4
	vpxor	%xmm5, %xmm5, %xmm5
	vpxor	%xmm6, %xmm6, %xmm6
	vpxor	%xmm7, %xmm7, %xmm7
	vpxor	%xmm8, %xmm8, %xmm8
	vpxor	%xmm9, %xmm9, %xmm9
	vpxor	%xmm10, %xmm10, %xmm10
	vpxor	%xmm11, %xmm11, %xmm11
	vpxor	%xmm12, %xmm12, %xmm12
	vpxor	%xmm13, %xmm13, %xmm13
	vpxor	%xmm14, %xmm14, %xmm14
	vpxor	%xmm15, %xmm15, %xmm15
	xorl	%ecx, %ecx
	xorl	%edx, %edx
	xorl	%esi, %esi
	xorl	%edi, %edi
	xorl	%r8d, %r8d
	xorl	%r9d, %r9d
	xorl	%r10d, %r10d
	xorl	%r11d, %r11d
	retq
.Lgcm_v3_func_end68:
	.size	gcm_v3.fotsgure_gcm_begin, .Lgcm_v3_func_end68-gcm_v3.fotsgure_gcm_begin
                                        # -- End function
	.section	.text.gcm_v3.fotsgure_gcm_begin_next,"ax",@progbits
	export_gcm_v3	fotsgure_gcm_begin_next
	.p2align	4
	.type	gcm_v3.fotsgure_gcm_begin_next,@function
gcm_v3.fotsgure_gcm_begin_next:                # @gcm_v3.fotsgure_gcm_begin_next
	endbr64
# %bb.0:                                # %start
	pushq	%r14
	pushq	%rbx
	subq	$56, %rsp
	movq	%rcx, %rbx
	movl	(%rdx), %r8d
	movq	4(%rdx), %rcx
	cmpq	$-1, %rcx
	sete	%r9b
	cmpl	$-1, %r8d
	sete	%r10b
	movl	$7, %eax
	testb	%r10b, %r9b
	jne	.Lgcm_v3_BB69_9
# %bb.1:                                # %join.3.i
	movl	(%rdi), %r9d
	movl	$2, %eax
	cmpq	$32, %r9
	ja	.Lgcm_v3_BB69_9
# %bb.2:                                # %join.3.i
	movabsq	$4311810048, %r10               # imm = 0x101010000
	btq	%r9, %r10
	jae	.Lgcm_v3_BB69_9
# %bb.3:                                # %join.6.i
	leaq	4(%rdi), %rax
	shrl	$2, %r9d
	addq	$7, %r9
	addq	$244, %rdi
	movq	%rax, 16(%rsp)
	movq	%r9, 24(%rsp)
	movq	%rax, 32(%rsp)
	movq	%r9, 40(%rsp)
	movq	%rdi, 48(%rsp)
	movl	%r8d, %eax
	bswapl	%eax
	cmpq	$-1, %rcx
	je	.Lgcm_v3_BB69_5
# %bb.4:                                # %"gcm::counter::nonce_after.exit.thread.i.i.i"
	movq	%rcx, %rdi
	bswapq	%rdi
	incq	%rdi
	bswapq	%rdi
	jmp	.Lgcm_v3_BB69_7
.Lgcm_v3_BB69_5:                               # %"gcm::counter::nonce_after.exit.i.i.i"
	cmpl	$-1, %r8d
	je	.Lgcm_v3_BB69_8
# %bb.6:
	incl	%eax
	xorl	%edi, %edi
.Lgcm_v3_BB69_7:                               # %arm.1.i.i.i
	movbel	%eax, (%rdx)
	movq	%rdi, 4(%rdx)
.Lgcm_v3_BB69_8:                               # %"gcm::mode::BorrowedGcm::begin_next::<#8da2abccd8f5ef8c>.exit.i"
	movl	%r8d, 4(%rsp)
	movq	%rcx, 8(%rsp)
	leaq	32(%rsi), %rcx
	leaq	16(%rsp), %rdi
	leaq	4(%rsp), %rax
	movl	$12, %edx
	movq	%rsi, %r14
	movq	%rax, %rsi
	callq	gcm_v3.gcm.mode.BorrowedGcm.put_pre_counter
	movq	$1, 24(%r14)
	vxorps	%xmm0, %xmm0, %xmm0
	vmovups	%xmm0, (%r14)
	movq	$0, 16(%r14)
	vxorps	%xmm0, %xmm0, %xmm0
	vmovups	%ymm0, 48(%r14)
	movl	12(%rsp), %eax
	movl	%eax, 8(%rbx)
	movq	4(%rsp), %rax
	movq	%rax, (%rbx)
	xorl	%eax, %eax
.Lgcm_v3_BB69_9:                               # %"gcm_c::counter::fotsgure_gcm_begin_next.exit"
	addq	$56, %rsp
	popq	%rbx
	popq	%r14
	vzeroupper
	vpxor	%xmm0, %xmm0, %xmm0
	vpxor	%xmm1, %xmm1, %xmm1
	vpxor	%xmm2, %xmm2, %xmm2
	vpxor	%xmm3, %xmm3, %xmm3
	vpxor	%xmm4, %xmm4, %xmm4
	vpxor	%xmm5, %xmm5, %xmm5
	vpxor	%xmm6, %xmm6, %xmm6
	vpxor	%xmm7, %xmm7, %xmm7
	vpxor	%xmm8, %xmm8, %xmm8
	vpxor	%xmm9, %xmm9, %xmm9
	vpxor	%xmm10, %xmm10, %xmm10
	vpxor	%xmm11, %xmm11, %xmm11
	vpxor	%xmm12, %xmm12, %xmm12
	vpxor	%xmm13, %xmm13, %xmm13
	vpxor	%xmm14, %xmm14, %xmm14
	vpxor	%xmm15, %xmm15, %xmm15
	xorl	%ecx, %ecx
	xorl	%edx, %edx
	xorl	%esi, %esi
	xorl	%edi, %edi
	xorl	%r8d, %r8d
	xorl	%r9d, %r9d
	xorl	%r10d, %r10d
	xorl	%r11d, %r11d
	retq
.Lgcm_v3_func_end69:
	.size	gcm_v3.fotsgure_gcm_begin_next, .Lgcm_v3_func_end69-gcm_v3.fotsgure_gcm_begin_next
                                        # -- End function
	.section	.text.gcm_v3.fotsgure_gcm_finish,"ax",@progbits
	export_gcm_v3	fotsgure_gcm_finish
	.p2align	4
	.type	gcm_v3.fotsgure_gcm_finish,@function
gcm_v3.fotsgure_gcm_finish:                    # @gcm_v3.fotsgure_gcm_finish
	endbr64
# %bb.0:                                # %start
	movl	(%rdi), %ecx
	movl	$2, %eax
	cmpq	$32, %rcx
	ja	.Lgcm_v3_BB70_5
# %bb.1:                                # %start
	pushq	%r14
	pushq	%rbx
	subq	$56, %rsp
	movq	%rdx, %rbx
	movabsq	$4311810048, %rdx               # imm = 0x101010000
	btq	%rcx, %rdx
	jae	.Lgcm_v3_BB70_4
# %bb.2:                                # %join.3.i
	leaq	4(%rdi), %rax
	shrl	$2, %ecx
	addq	$7, %rcx
	addq	$244, %rdi
	movq	%rax, (%rsp)
	movq	%rcx, 8(%rsp)
	movq	%rax, 16(%rsp)
	movq	%rcx, 24(%rsp)
	movq	%rdi, 32(%rsp)
	movq	24(%rsi), %rax
	cmpq	$5, %rax
	setb	%cl
	decb	%al
	cmpb	$2, %al
	setb	%dl
	andb	%cl, %dl
	movl	$8, %eax
	cmpb	$1, %dl
	jne	.Lgcm_v3_BB70_4
# %bb.3:                                # %arm.4.i
	movq	%rsp, %rdi
	leaq	40(%rsp), %rdx
	movq	%rsi, %r14
	callq	gcm_v3.gcm.mode.BorrowedGcm.put_tag_so_far
	callq	gcm_v3.aes_cipher.zeroize.stack.wipe_stack.512
	movq	%r14, %rdi
	callq	gcm_v3.gcm.message_state.MessageZeroize.zeroize
	vmovups	40(%rsp), %xmm0
	vmovups	%xmm0, (%rbx)
	xorl	%eax, %eax
.Lgcm_v3_BB70_4:
	addq	$56, %rsp
	popq	%rbx
	popq	%r14
.Lgcm_v3_BB70_5:                               # %"gcm_c::pieces::encrypting::fotsgure_gcm_finish.exit"
	vpxor	%xmm0, %xmm0, %xmm0
	vpxor	%xmm1, %xmm1, %xmm1
	vpxor	%xmm2, %xmm2, %xmm2
	vpxor	%xmm3, %xmm3, %xmm3
	vpxor	%xmm4, %xmm4, %xmm4
	vpxor	%xmm5, %xmm5, %xmm5
	vpxor	%xmm6, %xmm6, %xmm6
	vpxor	%xmm7, %xmm7, %xmm7
	vpxor	%xmm8, %xmm8, %xmm8
	vpxor	%xmm9, %xmm9, %xmm9
	vpxor	%xmm10, %xmm10, %xmm10
	vpxor	%xmm11, %xmm11, %xmm11
	vpxor	%xmm12, %xmm12, %xmm12
	vpxor	%xmm13, %xmm13, %xmm13
	vpxor	%xmm14, %xmm14, %xmm14
	vpxor	%xmm15, %xmm15, %xmm15
	xorl	%ecx, %ecx
	xorl	%edx, %edx
	xorl	%esi, %esi
	xorl	%edi, %edi
	xorl	%r8d, %r8d
	xorl	%r9d, %r9d
	xorl	%r10d, %r10d
	xorl	%r11d, %r11d
	retq
.Lgcm_v3_func_end70:
	.size	gcm_v3.fotsgure_gcm_finish, .Lgcm_v3_func_end70-gcm_v3.fotsgure_gcm_finish
                                        # -- End function
	.section	.text.gcm_v3.fotsgure_gcm_finish_unverified,"ax",@progbits
	export_gcm_v3	fotsgure_gcm_finish_unverified
	.p2align	4
	.type	gcm_v3.fotsgure_gcm_finish_unverified,@function
gcm_v3.fotsgure_gcm_finish_unverified:         # @gcm_v3.fotsgure_gcm_finish_unverified
	endbr64
# %bb.0:                                # %start
	pushq	%r14
	pushq	%rbx
	subq	$40, %rsp
	movl	(%rdi), %eax
	movl	$2, %ebx
	cmpq	$32, %rax
	ja	.Lgcm_v3_BB71_5
# %bb.1:                                # %start
	movabsq	$4311810048, %rcx               # imm = 0x101010000
	btq	%rax, %rcx
	jae	.Lgcm_v3_BB71_5
# %bb.2:                                # %join.3.i
	leaq	4(%rdi), %rcx
	shrl	$2, %eax
	addq	$7, %rax
	addq	$244, %rdi
	movq	%rcx, (%rsp)
	movq	%rax, 8(%rsp)
	movq	%rcx, 16(%rsp)
	movq	%rax, 24(%rsp)
	movq	%rdi, 32(%rsp)
	movq	24(%rsi), %rax
	xorl	%ebx, %ebx
	cmpq	$5, %rax
	cmovael	%ebx, %eax
	orl	$2, %eax
	movzbl	%al, %eax
	cmpl	$3, %eax
	jne	.Lgcm_v3_BB71_3
# %bb.4:                                # %arm.4.i
	movq	%rsp, %rdi
	movq	%rsi, %r14
	callq	gcm_v3.gcm.mode.BorrowedGcm.put_tag_so_far
	callq	gcm_v3.aes_cipher.zeroize.stack.wipe_stack.512
	movq	%r14, %rdi
	callq	gcm_v3.gcm.message_state.MessageZeroize.zeroize
	jmp	.Lgcm_v3_BB71_5
.Lgcm_v3_BB71_3:
	movl	$8, %ebx
.Lgcm_v3_BB71_5:                               # %"gcm_c::pieces::decrypting::fotsgure_gcm_finish_unverified.exit"
	movl	%ebx, %eax
	addq	$40, %rsp
	popq	%rbx
	popq	%r14
	vpxor	%xmm0, %xmm0, %xmm0
	vpxor	%xmm1, %xmm1, %xmm1
	vpxor	%xmm2, %xmm2, %xmm2
	vpxor	%xmm3, %xmm3, %xmm3
	vpxor	%xmm4, %xmm4, %xmm4
	vpxor	%xmm5, %xmm5, %xmm5
	vpxor	%xmm6, %xmm6, %xmm6
	vpxor	%xmm7, %xmm7, %xmm7
	vpxor	%xmm8, %xmm8, %xmm8
	vpxor	%xmm9, %xmm9, %xmm9
	vpxor	%xmm10, %xmm10, %xmm10
	vpxor	%xmm11, %xmm11, %xmm11
	vpxor	%xmm12, %xmm12, %xmm12
	vpxor	%xmm13, %xmm13, %xmm13
	vpxor	%xmm14, %xmm14, %xmm14
	vpxor	%xmm15, %xmm15, %xmm15
	xorl	%ecx, %ecx
	xorl	%edx, %edx
	xorl	%esi, %esi
	xorl	%edi, %edi
	xorl	%r8d, %r8d
	xorl	%r9d, %r9d
	xorl	%r10d, %r10d
	xorl	%r11d, %r11d
	retq
.Lgcm_v3_func_end71:
	.size	gcm_v3.fotsgure_gcm_finish_unverified, .Lgcm_v3_func_end71-gcm_v3.fotsgure_gcm_finish_unverified
                                        # -- End function
	.section	.text.gcm_v3.fotsgure_gcm_set_key,"ax",@progbits
	export_gcm_v3	fotsgure_gcm_set_key
	.p2align	4
	.type	gcm_v3.fotsgure_gcm_set_key,@function
gcm_v3.fotsgure_gcm_set_key:                   # @gcm_v3.fotsgure_gcm_set_key
	endbr64
# %bb.0:                                # %start
	pushq	%r15
	pushq	%r14
	pushq	%rbx
	cmpq	$32, %rdx
	ja	.Lgcm_v3_BB72_2
# %bb.1:                                # %start
	movq	%rdx, %rbx
	movabsq	$4311810048, %rax               # imm = 0x101010000
	btq	%rdx, %rax
	jae	.Lgcm_v3_BB72_2
# %bb.3:                                # %join.3.i
	xorl	%eax, %eax
	testq	%rsi, %rsi
	sete	%al
	shll	$12, %eax
	addq	%rsi, %rax
	leaq	4(%rdi), %r14
	vxorps	%xmm0, %xmm0, %xmm0
	vmovups	%ymm0, 212(%rdi)
	vmovups	%ymm0, 196(%rdi)
	vmovups	%ymm0, 164(%rdi)
	vmovups	%ymm0, 132(%rdi)
	vmovups	%ymm0, 100(%rdi)
	vmovups	%ymm0, 68(%rdi)
	vmovups	%ymm0, 36(%rdi)
	vmovups	%ymm0, 4(%rdi)
	movq	%rdi, %r15
	movq	%r14, %rdi
	movq	%rax, %rsi
	movq	%rbx, %rdx
	vzeroupper
	callq	gcm_v3.aes_permute.lane_keys.expand_lanes
	movl	%ebx, (%r15)
	shrl	$2, %ebx
	addl	$7, %ebx
	addq	$244, %r15
	movq	%r14, %rdi
	movq	%rbx, %rsi
	movq	%r15, %rdx
	callq	gcm_v3.gcm.mode.put_subkey
	callq	gcm_v3.aes_cipher.zeroize.stack.wipe_stack.512
	xorl	%eax, %eax
	popq	%rbx
	popq	%r14
	popq	%r15
	vpxor	%xmm0, %xmm0, %xmm0
	vpxor	%xmm1, %xmm1, %xmm1
	vpxor	%xmm2, %xmm2, %xmm2
	vpxor	%xmm3, %xmm3, %xmm3
	vpxor	%xmm4, %xmm4, %xmm4
	vpxor	%xmm5, %xmm5, %xmm5
	vpxor	%xmm6, %xmm6, %xmm6
	vpxor	%xmm7, %xmm7, %xmm7
	vpxor	%xmm8, %xmm8, %xmm8
	vpxor	%xmm9, %xmm9, %xmm9
	vpxor	%xmm10, %xmm10, %xmm10
	vpxor	%xmm11, %xmm11, %xmm11
	vpxor	%xmm12, %xmm12, %xmm12
	vpxor	%xmm13, %xmm13, %xmm13
	vpxor	%xmm14, %xmm14, %xmm14
	vpxor	%xmm15, %xmm15, %xmm15
	xorl	%ecx, %ecx
	xorl	%edx, %edx
	xorl	%esi, %esi
	xorl	%edi, %edi
	xorl	%r8d, %r8d
	xorl	%r9d, %r9d
	xorl	%r10d, %r10d
	xorl	%r11d, %r11d
	retq
.Lgcm_v3_BB72_2:                               # %then.1.i
	movl	$1780, %edx                     # imm = 0x6F4
	xorl	%esi, %esi
	callq	*memset@GOTPCREL(%rip)
	movl	$1, %eax
	popq	%rbx
	popq	%r14
	popq	%r15
	vpxor	%xmm0, %xmm0, %xmm0
	vpxor	%xmm1, %xmm1, %xmm1
	vpxor	%xmm2, %xmm2, %xmm2
	vpxor	%xmm3, %xmm3, %xmm3
	vpxor	%xmm4, %xmm4, %xmm4
	vpxor	%xmm5, %xmm5, %xmm5
	vpxor	%xmm6, %xmm6, %xmm6
	vpxor	%xmm7, %xmm7, %xmm7
	vpxor	%xmm8, %xmm8, %xmm8
	vpxor	%xmm9, %xmm9, %xmm9
	vpxor	%xmm10, %xmm10, %xmm10
	vpxor	%xmm11, %xmm11, %xmm11
	vpxor	%xmm12, %xmm12, %xmm12
	vpxor	%xmm13, %xmm13, %xmm13
	vpxor	%xmm14, %xmm14, %xmm14
	vpxor	%xmm15, %xmm15, %xmm15
	xorl	%ecx, %ecx
	xorl	%edx, %edx
	xorl	%esi, %esi
	xorl	%edi, %edi
	xorl	%r8d, %r8d
	xorl	%r9d, %r9d
	xorl	%r10d, %r10d
	xorl	%r11d, %r11d
	retq
.Lgcm_v3_func_end72:
	.size	gcm_v3.fotsgure_gcm_set_key, .Lgcm_v3_func_end72-gcm_v3.fotsgure_gcm_set_key
                                        # -- End function
	.section	.text.gcm_v3.fotsgure_gcm_set_key_of,"ax",@progbits
	export_gcm_v3	fotsgure_gcm_set_key_of
	.p2align	4
	.type	gcm_v3.fotsgure_gcm_set_key_of,@function
gcm_v3.fotsgure_gcm_set_key_of:                # @gcm_v3.fotsgure_gcm_set_key_of
	endbr64
# %bb.0:                                # %start
	pushq	%r15
	pushq	%r14
	pushq	%rbx
	movl	(%rsi), %ebx
	cmpq	$32, %rbx
	ja	.Lgcm_v3_BB73_2
# %bb.1:                                # %start
	movabsq	$4311810048, %rax               # imm = 0x101010000
	btq	%rbx, %rax
	jae	.Lgcm_v3_BB73_2
# %bb.3:                                # %join.3.i
	movl	%ebx, (%rdi)
	addq	$4, %rsi
	leaq	4(%rdi), %r14
	movl	$240, %edx
	movq	%rdi, %r15
	movq	%r14, %rdi
	callq	*memmove@GOTPCREL(%rip)
	shrl	$2, %ebx
	addq	$7, %rbx
	addq	$244, %r15
	movq	%r14, %rdi
	movq	%rbx, %rsi
	movq	%r15, %rdx
	callq	gcm_v3.gcm.mode.put_subkey
	callq	gcm_v3.aes_cipher.zeroize.stack.wipe_stack.512
	xorl	%eax, %eax
	popq	%rbx
	popq	%r14
	popq	%r15
	vpxor	%xmm0, %xmm0, %xmm0
	vpxor	%xmm1, %xmm1, %xmm1
	vpxor	%xmm2, %xmm2, %xmm2
	vpxor	%xmm3, %xmm3, %xmm3
	vpxor	%xmm4, %xmm4, %xmm4
	vpxor	%xmm5, %xmm5, %xmm5
	vpxor	%xmm6, %xmm6, %xmm6
	vpxor	%xmm7, %xmm7, %xmm7
	vpxor	%xmm8, %xmm8, %xmm8
	vpxor	%xmm9, %xmm9, %xmm9
	vpxor	%xmm10, %xmm10, %xmm10
	vpxor	%xmm11, %xmm11, %xmm11
	vpxor	%xmm12, %xmm12, %xmm12
	vpxor	%xmm13, %xmm13, %xmm13
	vpxor	%xmm14, %xmm14, %xmm14
	vpxor	%xmm15, %xmm15, %xmm15
	xorl	%ecx, %ecx
	xorl	%edx, %edx
	xorl	%esi, %esi
	xorl	%edi, %edi
	xorl	%r8d, %r8d
	xorl	%r9d, %r9d
	xorl	%r10d, %r10d
	xorl	%r11d, %r11d
	retq
.Lgcm_v3_BB73_2:                               # %then.1.i
	leaq	4(%rdi), %rbx
	leaq	244(%rdi), %r14
	movl	$1780, %edx                     # imm = 0x6F4
	xorl	%esi, %esi
	callq	*memset@GOTPCREL(%rip)
	movq	%rbx, %rdi
	callq	gcm_v3.aes_cipher.zeroize.elements.zeroize_elements.1
	movl	$96, %esi
	movq	%r14, %rdi
	callq	gcm_v3.aes_cipher.zeroize.elements.zeroize_elements.2
	movl	$2, %eax
	popq	%rbx
	popq	%r14
	popq	%r15
	vpxor	%xmm0, %xmm0, %xmm0
	vpxor	%xmm1, %xmm1, %xmm1
	vpxor	%xmm2, %xmm2, %xmm2
	vpxor	%xmm3, %xmm3, %xmm3
	vpxor	%xmm4, %xmm4, %xmm4
	vpxor	%xmm5, %xmm5, %xmm5
	vpxor	%xmm6, %xmm6, %xmm6
	vpxor	%xmm7, %xmm7, %xmm7
	vpxor	%xmm8, %xmm8, %xmm8
	vpxor	%xmm9, %xmm9, %xmm9
	vpxor	%xmm10, %xmm10, %xmm10
	vpxor	%xmm11, %xmm11, %xmm11
	vpxor	%xmm12, %xmm12, %xmm12
	vpxor	%xmm13, %xmm13, %xmm13
	vpxor	%xmm14, %xmm14, %xmm14
	vpxor	%xmm15, %xmm15, %xmm15
	xorl	%ecx, %ecx
	xorl	%edx, %edx
	xorl	%esi, %esi
	xorl	%edi, %edi
	xorl	%r8d, %r8d
	xorl	%r9d, %r9d
	xorl	%r10d, %r10d
	xorl	%r11d, %r11d
	retq
.Lgcm_v3_func_end73:
	.size	gcm_v3.fotsgure_gcm_set_key_of, .Lgcm_v3_func_end73-gcm_v3.fotsgure_gcm_set_key_of
                                        # -- End function
	.section	.text.gcm_v3.fotsgure_gcm_open,"ax",@progbits
	export_gcm_v3	fotsgure_gcm_open
	.p2align	4
	.type	gcm_v3.fotsgure_gcm_open,@function
gcm_v3.fotsgure_gcm_open:                      # @gcm_v3.fotsgure_gcm_open
	endbr64
# %bb.0:                                # %start
	pushq	%rbp
	pushq	%r15
	pushq	%r14
	pushq	%r13
	pushq	%r12
	pushq	%rbx
	subq	$120, %rsp
	movq	184(%rsp), %r10
	xorl	%r13d, %r13d
	testq	%rsi, %rsi
	sete	28(%rsp)                        # 1-byte Folded Spill
	xorl	%r15d, %r15d
	testq	%rcx, %rcx
	sete	29(%rsp)                        # 1-byte Folded Spill
	xorl	%r14d, %r14d
	testq	%r9, %r9
	sete	30(%rsp)                        # 1-byte Folded Spill
	xorl	%r11d, %r11d
	testq	%r10, %r10
	sete	31(%rsp)                        # 1-byte Folded Spill
	movl	$4, %eax
	cmpq	$16, 192(%rsp)
	jne	.Lgcm_v3_BB74_8
# %bb.1:                                # %join.3.i
	movabsq	$-2305843009213693952, %rbx     # imm = 0xE000000000000000
	leaq	(%rdx,%rbx), %rbp
	incq	%rbx
	movl	$3, %eax
	cmpq	%rbx, %rbp
	jb	.Lgcm_v3_BB74_8
# %bb.2:                                # %after.1.i.i
	movq	%rdx, %r12
	movq	%r8, %rdx
	movabsq	$68719476704, %rax              # imm = 0xFFFFFFFE0
	cmpq	%rax, 176(%rsp)
	seta	%al
	shrq	$61, %rdx
	setne	%dl
	orb	%al, %dl
	movl	$5, %eax
	jne	.Lgcm_v3_BB74_8
# %bb.3:                                # %after.11.i.i
	movl	(%rdi), %edx
	movl	$2, %eax
	cmpq	$32, %rdx
	ja	.Lgcm_v3_BB74_8
# %bb.4:                                # %after.11.i.i
	movabsq	$4311810048, %rbp               # imm = 0x101010000
	btq	%rdx, %rbp
	jae	.Lgcm_v3_BB74_8
# %bb.5:                                # %join.6.i
	movq	%rdx, %rbx
	movzbl	28(%rsp), %eax                  # 1-byte Folded Reload
	movb	%al, %r13b
	shll	$12, %r13d
	addq	%r13, %rsi
	movzbl	29(%rsp), %eax                  # 1-byte Folded Reload
	movb	%al, %r15b
	shll	$12, %r15d
	addq	%r15, %rcx
	movzbl	30(%rsp), %eax                  # 1-byte Folded Reload
	movb	%al, %r14b
	shll	$12, %r14d
	addq	%r14, %r9
	movzbl	31(%rsp), %eax                  # 1-byte Folded Reload
	movb	%al, %r11b
	shll	$12, %r11d
	addq	%r11, %r10
	vmovups	(%r10), %xmm0
	vmovaps	%xmm0, 96(%rsp)
	leaq	4(%rdi), %rax
	shrl	$2, %ebx
	addq	$7, %rbx
	addq	$244, %rdi
	movq	%rax, 56(%rsp)
	movq	%rbx, 64(%rsp)
	movq	%rax, 72(%rsp)
	movq	%rbx, 80(%rsp)
	movq	%rdi, 88(%rsp)
	vxorps	%xmm0, %xmm0, %xmm0
	vmovaps	%xmm0, 32(%rsp)
	leaq	32(%rsp), %rax
	movq	%rax, 16(%rsp)
	leaq	96(%rsp), %rax
	movq	%rax, 8(%rsp)
	movq	176(%rsp), %rbx
	movq	%rbx, (%rsp)
	leaq	56(%rsp), %rdi
	movq	%r12, %rdx
	movq	%r9, %r14
	callq	gcm_v3.gcm.mode.BorrowedGcm.compare
	testb	%al, %al
	je	.Lgcm_v3_BB74_6
# %bb.7:                                # %arm.8.critedge.i
	leaq	32(%rsp), %rdi
	callq	gcm_v3.aes_cipher.zeroize.elements.zeroize_elements.3
	callq	gcm_v3.aes_cipher.zeroize.stack.wipe_stack.1536
	movl	$6, %eax
	jmp	.Lgcm_v3_BB74_8
.Lgcm_v3_BB74_6:                               # %then.1.i.i
	leaq	56(%rsp), %rdi
	leaq	32(%rsp), %r15
	movl	$16, %edx
	movq	%r15, %rsi
	movq	%r14, %rcx
	movq	%rbx, %r8
	callq	gcm_v3.gcm.gctr.add_gctr
	movq	%r15, %rdi
	callq	gcm_v3.aes_cipher.zeroize.elements.zeroize_elements.3
	callq	gcm_v3.aes_cipher.zeroize.stack.wipe_stack.1536
	xorl	%eax, %eax
.Lgcm_v3_BB74_8:                               # %"gcm_c::whole::fotsgure_gcm_open.exit"
	addq	$120, %rsp
	popq	%rbx
	popq	%r12
	popq	%r13
	popq	%r14
	popq	%r15
	popq	%rbp
	vpxor	%xmm0, %xmm0, %xmm0
	vpxor	%xmm1, %xmm1, %xmm1
	vpxor	%xmm2, %xmm2, %xmm2
	vpxor	%xmm3, %xmm3, %xmm3
	vpxor	%xmm4, %xmm4, %xmm4
	vpxor	%xmm5, %xmm5, %xmm5
	vpxor	%xmm6, %xmm6, %xmm6
	vpxor	%xmm7, %xmm7, %xmm7
	vpxor	%xmm8, %xmm8, %xmm8
	vpxor	%xmm9, %xmm9, %xmm9
	vpxor	%xmm10, %xmm10, %xmm10
	vpxor	%xmm11, %xmm11, %xmm11
	vpxor	%xmm12, %xmm12, %xmm12
	vpxor	%xmm13, %xmm13, %xmm13
	vpxor	%xmm14, %xmm14, %xmm14
	vpxor	%xmm15, %xmm15, %xmm15
	xorl	%ecx, %ecx
	xorl	%edx, %edx
	xorl	%esi, %esi
	xorl	%edi, %edi
	xorl	%r8d, %r8d
	xorl	%r9d, %r9d
	xorl	%r10d, %r10d
	xorl	%r11d, %r11d
	retq
.Lgcm_v3_func_end74:
	.size	gcm_v3.fotsgure_gcm_open, .Lgcm_v3_func_end74-gcm_v3.fotsgure_gcm_open
                                        # -- End function
	.section	.text.gcm_v3.fotsgure_gcm_open_to,"ax",@progbits
	export_gcm_v3	fotsgure_gcm_open_to
	.p2align	4
	.type	gcm_v3.fotsgure_gcm_open_to,@function
gcm_v3.fotsgure_gcm_open_to:                   # @gcm_v3.fotsgure_gcm_open_to
	endbr64
# %bb.0:                                # %start
	pushq	%rbp
	pushq	%r15
	pushq	%r14
	pushq	%r13
	pushq	%r12
	pushq	%rbx
	subq	$152, %rsp
	movq	%r8, 48(%rsp)                   # 8-byte Spill
	movq	%rdx, 56(%rsp)                  # 8-byte Spill
	movq	%rdi, 40(%rsp)                  # 8-byte Spill
	movq	232(%rsp), %r10
	xorl	%ebp, %ebp
	testq	%rsi, %rsi
	sete	%r14b
	xorl	%r15d, %r15d
	testq	%rcx, %rcx
	sete	%bl
	testq	%r9, %r9
	sete	%r13b
	cmpq	$0, 216(%rsp)
	sete	%r12b
	xorl	%r11d, %r11d
	testq	%r10, %r10
	sete	%dil
	movq	208(%rsp), %rdx
	movl	$10, %eax
	cmpq	224(%rsp), %rdx
	jne	.Lgcm_v3_BB75_34
# %bb.1:                                # %join.3.i
	movl	$4, %eax
	cmpq	$16, 240(%rsp)
	jne	.Lgcm_v3_BB75_34
# %bb.2:                                # %join.6.i
	movabsq	$-2305843009213693952, %r8      # imm = 0xE000000000000000
	movq	56(%rsp), %rax                  # 8-byte Reload
	leaq	(%rax,%r8), %rdx
	incq	%r8
	movl	$3, %eax
	cmpq	%r8, %rdx
	movq	208(%rsp), %r8
	jb	.Lgcm_v3_BB75_34
# %bb.3:                                # %after.1.i.i
	movabsq	$68719476608, %rax              # imm = 0xFFFFFFF80
	addq	$96, %rax
	cmpq	%rax, %r8
	seta	%al
	movq	48(%rsp), %rdx                  # 8-byte Reload
	shrq	$61, %rdx
	setne	%dl
	orb	%al, %dl
	movl	$5, %eax
	jne	.Lgcm_v3_BB75_34
# %bb.4:                                # %after.11.i.i
	movq	40(%rsp), %rax                  # 8-byte Reload
	movl	(%rax), %edx
	movl	$2, %eax
	cmpq	$32, %rdx
	ja	.Lgcm_v3_BB75_34
# %bb.5:                                # %after.11.i.i
	movq	%rdx, %r8
	movabsq	$4311810048, %rdx               # imm = 0x101010000
	btq	%r8, %rdx
	movq	208(%rsp), %rdx
	jae	.Lgcm_v3_BB75_34
# %bb.6:                                # %join.9.i
	movb	%r14b, %bpl
	shll	$12, %ebp
	addq	%rbp, %rsi
	movb	%bl, %r15b
	shll	$12, %r15d
	addq	%r15, %rcx
	xorl	%eax, %eax
	movb	%r13b, %al
	movq	%rax, %r13
	shll	$12, %r13d
	movq	%r9, 32(%rsp)                   # 8-byte Spill
	leaq	(%r9,%r13), %r15
	xorl	%ebp, %ebp
	movb	%r12b, %bpl
	shll	$12, %ebp
	movq	216(%rsp), %rbx
	leaq	(%rbx,%rbp), %r12
	movb	%dil, %r11b
	shll	$12, %r11d
	addq	%r11, %r10
	vmovups	(%r10), %xmm0
	vmovaps	%xmm0, 128(%rsp)
	movq	%rdx, %r14
	movq	40(%rsp), %rdx                  # 8-byte Reload
	leaq	4(%rdx), %rax
	shrl	$2, %r8d
	addq	$7, %r8
	addq	$244, %rdx
	movq	%rax, 88(%rsp)
	movq	%r8, 96(%rsp)
	movq	%rax, 104(%rsp)
	movq	%r8, 112(%rsp)
	movq	%rdx, 120(%rsp)
	vxorps	%xmm0, %xmm0, %xmm0
	vmovaps	%xmm0, 64(%rsp)
	leaq	64(%rsp), %rax
	movq	%rax, 16(%rsp)
	leaq	128(%rsp), %rax
	movq	%rax, 8(%rsp)
	movq	%r14, (%rsp)
	leaq	88(%rsp), %rdi
	movq	56(%rsp), %rdx                  # 8-byte Reload
	movq	48(%rsp), %r8                   # 8-byte Reload
	movq	%r15, %r9
	callq	gcm_v3.gcm.mode.BorrowedGcm.compare
	testb	%al, %al
	je	.Lgcm_v3_BB75_7
# %bb.28:                               # %else.2.i.i
	testq	%r14, %r14
	je	.Lgcm_v3_BB75_29
# %bb.30:                               # %loop.5.preheader.i.i.i
	movq	%r14, %rdx
	movl	$6, %ebx
	decq	%rdx
	je	.Lgcm_v3_BB75_32
# %bb.31:                               # %join.8.preheader.i.i.i
	movq	%r12, %rdi
	xorl	%esi, %esi
	movq	%rdx, %r14
	callq	*memset@GOTPCREL(%rip)
	movq	%r14, %rdx
.Lgcm_v3_BB75_32:                              # %after.4.i.i.i
	movb	$0, (%r12,%rdx)
	jmp	.Lgcm_v3_BB75_33
.Lgcm_v3_BB75_7:                               # %then.1.i.i
	movq	%r12, %rax
	subq	%r15, %rax
	cmpq	%r14, %rax
	movq	%r14, %r8
	jae	.Lgcm_v3_BB75_35
# %bb.8:                                # %iter.check
	cmpq	$8, %r8
	jae	.Lgcm_v3_BB75_10
# %bb.9:
	xorl	%r9d, %r9d
	movq	32(%rsp), %rax                  # 8-byte Reload
	jmp	.Lgcm_v3_BB75_21
.Lgcm_v3_BB75_29:
	movl	$6, %ebx
	jmp	.Lgcm_v3_BB75_33
.Lgcm_v3_BB75_35:                              # %apart.2.i.i.i.i.i.i.i.i
	movq	%r12, %rdi
	movq	%r15, %rsi
	movq	%r8, %rdx
	callq	*memmove@GOTPCREL(%rip)
	movq	208(%rsp), %r8
	jmp	.Lgcm_v3_BB75_27
.Lgcm_v3_BB75_10:                              # %vector.memcheck
	cmpq	$128, %rax
	movq	32(%rsp), %rax                  # 8-byte Reload
	jae	.Lgcm_v3_BB75_12
# %bb.11:
	xorl	%r9d, %r9d
	jmp	.Lgcm_v3_BB75_21
.Lgcm_v3_BB75_12:                              # %vector.main.loop.iter.check
	cmpq	$128, %r8
	jae	.Lgcm_v3_BB75_14
# %bb.13:
	xorl	%r9d, %r9d
	movabsq	$68719476608, %r11              # imm = 0xFFFFFFF80
	jmp	.Lgcm_v3_BB75_18
.Lgcm_v3_BB75_14:                              # %vector.ph
	movq	%r8, %r9
	movabsq	$68719476608, %r11              # imm = 0xFFFFFFF80
	andq	%r11, %r9
	leaq	(%rax,%r13), %rdx
	addq	$96, %rdx
	leaq	(%rbx,%rbp), %rsi
	addq	$96, %rsi
	xorl	%edi, %edi
.Lgcm_v3_BB75_15:                              # %vector.body
                                        # =>This Inner Loop Header: Depth=1
	vmovups	-96(%rdx,%rdi), %ymm0
	vmovups	-64(%rdx,%rdi), %ymm1
	vmovups	-32(%rdx,%rdi), %ymm2
	vmovups	(%rdx,%rdi), %ymm3
	vmovups	%ymm0, -96(%rsi,%rdi)
	vmovups	%ymm1, -64(%rsi,%rdi)
	vmovups	%ymm2, -32(%rsi,%rdi)
	vmovups	%ymm3, (%rsi,%rdi)
	subq	$-128, %rdi
	cmpq	%rdi, %r9
	jne	.Lgcm_v3_BB75_15
# %bb.16:                               # %middle.block
	cmpq	%r9, %r8
	je	.Lgcm_v3_BB75_27
# %bb.17:                               # %vec.epilog.iter.check
	testb	$120, %r8b
	je	.Lgcm_v3_BB75_21
.Lgcm_v3_BB75_18:                              # %vec.epilog.ph
	movq	%r9, %rdx
	addq	$120, %r11
	movq	%r11, %r9
	andq	%r8, %r9
.Lgcm_v3_BB75_19:                              # %vec.epilog.vector.body
                                        # =>This Inner Loop Header: Depth=1
	movq	(%r15,%rdx), %rsi
	movq	%rsi, (%r12,%rdx)
	addq	$8, %rdx
	cmpq	%rdx, %r9
	jne	.Lgcm_v3_BB75_19
# %bb.20:                               # %vec.epilog.middle.block
	cmpq	%r9, %r8
	je	.Lgcm_v3_BB75_27
.Lgcm_v3_BB75_21:                              # %join.7.i.i.i.i.i.i.i.i.preheader
	movq	%r8, %rsi
	movq	%r9, %rdx
	andq	$7, %rsi
	je	.Lgcm_v3_BB75_24
# %bb.22:                               # %join.7.i.i.i.i.i.i.i.i.prol.preheader
	movq	%r9, %rdx
.Lgcm_v3_BB75_23:                              # %join.7.i.i.i.i.i.i.i.i.prol
                                        # =>This Inner Loop Header: Depth=1
	movzbl	(%r15,%rdx), %edi
	movb	%dil, (%r12,%rdx)
	incq	%rdx
	decq	%rsi
	jne	.Lgcm_v3_BB75_23
.Lgcm_v3_BB75_24:                              # %join.7.i.i.i.i.i.i.i.i.prol.loopexit
	subq	%r8, %r9
	cmpq	$-8, %r9
	ja	.Lgcm_v3_BB75_27
# %bb.25:                               # %join.7.i.i.i.i.i.i.i.i.preheader13
	addq	%r13, %rax
	addq	$7, %rax
	leaq	(%rbx,%rbp), %rdi
	addq	$7, %rdi
.Lgcm_v3_BB75_26:                              # %join.7.i.i.i.i.i.i.i.i
                                        # =>This Inner Loop Header: Depth=1
	movzbl	-7(%rax,%rdx), %esi
	movb	%sil, -7(%rdi,%rdx)
	movzbl	-6(%rax,%rdx), %esi
	movb	%sil, -6(%rdi,%rdx)
	movzbl	-5(%rax,%rdx), %esi
	movb	%sil, -5(%rdi,%rdx)
	movzbl	-4(%rax,%rdx), %esi
	movb	%sil, -4(%rdi,%rdx)
	movzbl	-3(%rax,%rdx), %esi
	movb	%sil, -3(%rdi,%rdx)
	movzbl	-2(%rax,%rdx), %esi
	movb	%sil, -2(%rdi,%rdx)
	movzbl	-1(%rax,%rdx), %esi
	movb	%sil, -1(%rdi,%rdx)
	movzbl	(%rax,%rdx), %esi
	movb	%sil, (%rdi,%rdx)
	addq	$8, %rdx
	cmpq	%rdx, %r8
	jne	.Lgcm_v3_BB75_26
.Lgcm_v3_BB75_27:                              # %"core::slice::edits::slice+T::copy_from_slice::<i8,20'core::clone::U8Clone{}>.exit.i.i"
	leaq	88(%rsp), %rdi
	leaq	64(%rsp), %rsi
	movl	$16, %edx
	movq	%r12, %rcx
	vzeroupper
	callq	gcm_v3.gcm.gctr.add_gctr
	xorl	%ebx, %ebx
.Lgcm_v3_BB75_33:                              # %"gcm::mode::BorrowedGcm::decrypt_to::<#8da2abccd8f5ef8c>.exit.i"
	leaq	64(%rsp), %rdi
	callq	gcm_v3.aes_cipher.zeroize.elements.zeroize_elements.3
	callq	gcm_v3.aes_cipher.zeroize.stack.wipe_stack.1536
	movl	%ebx, %eax
.Lgcm_v3_BB75_34:                              # %"gcm_c::whole_to::fotsgure_gcm_open_to.exit"
	addq	$152, %rsp
	popq	%rbx
	popq	%r12
	popq	%r13
	popq	%r14
	popq	%r15
	popq	%rbp
	vpxor	%xmm0, %xmm0, %xmm0
	vpxor	%xmm1, %xmm1, %xmm1
	vpxor	%xmm2, %xmm2, %xmm2
	vpxor	%xmm3, %xmm3, %xmm3
	vpxor	%xmm4, %xmm4, %xmm4
	vpxor	%xmm5, %xmm5, %xmm5
	vpxor	%xmm6, %xmm6, %xmm6
	vpxor	%xmm7, %xmm7, %xmm7
	vpxor	%xmm8, %xmm8, %xmm8
	vpxor	%xmm9, %xmm9, %xmm9
	vpxor	%xmm10, %xmm10, %xmm10
	vpxor	%xmm11, %xmm11, %xmm11
	vpxor	%xmm12, %xmm12, %xmm12
	vpxor	%xmm13, %xmm13, %xmm13
	vpxor	%xmm14, %xmm14, %xmm14
	vpxor	%xmm15, %xmm15, %xmm15
	xorl	%ecx, %ecx
	xorl	%edx, %edx
	xorl	%esi, %esi
	xorl	%edi, %edi
	xorl	%r8d, %r8d
	xorl	%r9d, %r9d
	xorl	%r10d, %r10d
	xorl	%r11d, %r11d
	retq
.Lgcm_v3_func_end75:
	.size	gcm_v3.fotsgure_gcm_open_to, .Lgcm_v3_func_end75-gcm_v3.fotsgure_gcm_open_to
                                        # -- End function
	.section	.text.gcm_v3.fotsgure_gcm_seal,"ax",@progbits
	export_gcm_v3	fotsgure_gcm_seal
	.p2align	4
	.type	gcm_v3.fotsgure_gcm_seal,@function
gcm_v3.fotsgure_gcm_seal:                      # @gcm_v3.fotsgure_gcm_seal
	endbr64
# %bb.0:                                # %start
	xorl	%eax, %eax
	testq	%rsi, %rsi
	sete	%al
	shll	$12, %eax
	addq	%rax, %rsi
	xorl	%eax, %eax
	testq	%rcx, %rcx
	sete	%al
	shll	$12, %eax
	addq	%rax, %rcx
	xorl	%eax, %eax
	testq	%r9, %r9
	sete	%al
	shll	$12, %eax
	addq	%rax, %r9
	jmp	gcm_v3.gcm_c.whole.fotsgure_gcm_seal # TAILCALL
.Lgcm_v3_func_end76:
	.size	gcm_v3.fotsgure_gcm_seal, .Lgcm_v3_func_end76-gcm_v3.fotsgure_gcm_seal
                                        # -- End function
	.section	.text.gcm_v3.fotsgure_gcm_seal_next,"ax",@progbits
	export_gcm_v3	fotsgure_gcm_seal_next
	.p2align	4
	.type	gcm_v3.fotsgure_gcm_seal_next,@function
gcm_v3.fotsgure_gcm_seal_next:                 # @gcm_v3.fotsgure_gcm_seal_next
	endbr64
# %bb.0:                                # %start
	pushq	%r14
	pushq	%rbx
	subq	$24, %rsp
	movq	%r9, %r10
	movq	%rdx, %rbx
	movq	%rsi, %r14
	cmpq	$-1, 4(%rsi)
	jne	.Lgcm_v3_BB77_2
# %bb.1:                                # %start
	movl	$7, %eax
	cmpl	$-1, (%r14)
	jne	.Lgcm_v3_BB77_2
.Lgcm_v3_BB77_9:                               # %"gcm_c::counter::fotsgure_gcm_seal_next.exit"
	addq	$24, %rsp
	popq	%rbx
	popq	%r14
	vpxor	%xmm0, %xmm0, %xmm0
	vpxor	%xmm1, %xmm1, %xmm1
	vpxor	%xmm2, %xmm2, %xmm2
	vpxor	%xmm3, %xmm3, %xmm3
	vpxor	%xmm4, %xmm4, %xmm4
	vpxor	%xmm5, %xmm5, %xmm5
	vpxor	%xmm6, %xmm6, %xmm6
	vpxor	%xmm7, %xmm7, %xmm7
	vpxor	%xmm8, %xmm8, %xmm8
	vpxor	%xmm9, %xmm9, %xmm9
	vpxor	%xmm10, %xmm10, %xmm10
	vpxor	%xmm11, %xmm11, %xmm11
	vpxor	%xmm12, %xmm12, %xmm12
	vpxor	%xmm13, %xmm13, %xmm13
	vpxor	%xmm14, %xmm14, %xmm14
	vpxor	%xmm15, %xmm15, %xmm15
	xorl	%ecx, %ecx
	xorl	%edx, %edx
	xorl	%esi, %esi
	xorl	%edi, %edi
	xorl	%r8d, %r8d
	xorl	%r9d, %r9d
	xorl	%r10d, %r10d
	xorl	%r11d, %r11d
	retq
.Lgcm_v3_BB77_2:                               # %join.3.i
	movq	56(%rsp), %rdx
	movq	48(%rsp), %rsi
	xorl	%r9d, %r9d
	testq	%r10, %r10
	sete	%r9b
	shll	$12, %r9d
	addq	%r10, %r9
	xorl	%eax, %eax
	testq	%rcx, %rcx
	sete	%al
	shll	$12, %eax
	addq	%rcx, %rax
	movq	%rdx, 8(%rsp)
	movq	%rsi, (%rsp)
	movl	$12, %edx
	movq	%r14, %rsi
	movq	%rax, %rcx
	callq	gcm_v3.gcm_c.whole.fotsgure_gcm_seal
	testl	%eax, %eax
	jne	.Lgcm_v3_BB77_9
# %bb.3:                                # %then.4.i
	movl	(%r14), %eax
	movq	4(%r14), %rcx
	movl	%eax, %edx
	bswapl	%edx
	cmpq	$-1, %rcx
	je	.Lgcm_v3_BB77_5
# %bb.4:                                # %"gcm::counter::nonce_after.exit.thread.i.i"
	movq	%rcx, %rsi
	bswapq	%rsi
	incq	%rsi
	bswapq	%rsi
	jmp	.Lgcm_v3_BB77_7
.Lgcm_v3_BB77_5:                               # %"gcm::counter::nonce_after.exit.i.i"
	cmpl	$-1, %eax
	je	.Lgcm_v3_BB77_8
# %bb.6:
	incl	%edx
	xorl	%esi, %esi
.Lgcm_v3_BB77_7:                               # %arm.1.i.i
	movbel	%edx, (%r14)
	movq	%rsi, 4(%r14)
.Lgcm_v3_BB77_8:                               # %"gcm::counter::Counter::take.exit.i"
	movl	%eax, (%rbx)
	movq	%rcx, 4(%rbx)
	xorl	%eax, %eax
	addq	$24, %rsp
	popq	%rbx
	popq	%r14
	vpxor	%xmm0, %xmm0, %xmm0
	vpxor	%xmm1, %xmm1, %xmm1
	vpxor	%xmm2, %xmm2, %xmm2
	vpxor	%xmm3, %xmm3, %xmm3
	vpxor	%xmm4, %xmm4, %xmm4
	vpxor	%xmm5, %xmm5, %xmm5
	vpxor	%xmm6, %xmm6, %xmm6
	vpxor	%xmm7, %xmm7, %xmm7
	vpxor	%xmm8, %xmm8, %xmm8
	vpxor	%xmm9, %xmm9, %xmm9
	vpxor	%xmm10, %xmm10, %xmm10
	vpxor	%xmm11, %xmm11, %xmm11
	vpxor	%xmm12, %xmm12, %xmm12
	vpxor	%xmm13, %xmm13, %xmm13
	vpxor	%xmm14, %xmm14, %xmm14
	vpxor	%xmm15, %xmm15, %xmm15
	xorl	%ecx, %ecx
	xorl	%edx, %edx
	xorl	%esi, %esi
	xorl	%edi, %edi
	xorl	%r8d, %r8d
	xorl	%r9d, %r9d
	xorl	%r10d, %r10d
	xorl	%r11d, %r11d
	retq
.Lgcm_v3_func_end77:
	.size	gcm_v3.fotsgure_gcm_seal_next, .Lgcm_v3_func_end77-gcm_v3.fotsgure_gcm_seal_next
                                        # -- End function
	.section	.text.gcm_v3.fotsgure_gcm_seal_to,"ax",@progbits
	export_gcm_v3	fotsgure_gcm_seal_to
	.p2align	4
	.type	gcm_v3.fotsgure_gcm_seal_to,@function
gcm_v3.fotsgure_gcm_seal_to:                   # @gcm_v3.fotsgure_gcm_seal_to
	endbr64
# %bb.0:                                # %start
	pushq	%rbp
	pushq	%r15
	pushq	%r14
	pushq	%r13
	pushq	%r12
	pushq	%rbx
	subq	$40, %rsp
	movq	%r8, 24(%rsp)                   # 8-byte Spill
	movq	%rdx, 32(%rsp)                  # 8-byte Spill
	movq	%rdi, 16(%rsp)                  # 8-byte Spill
	movq	96(%rsp), %rdx
	movq	104(%rsp), %rbx
	xorl	%r13d, %r13d
	testq	%rsi, %rsi
	sete	%r10b
	xorl	%r15d, %r15d
	testq	%rcx, %rcx
	sete	%bpl
	xorl	%r11d, %r11d
	testq	%r9, %r9
	sete	%r14b
	testq	%rbx, %rbx
	sete	%r12b
	movl	$10, %eax
	cmpq	112(%rsp), %rdx
	jne	.Lgcm_v3_BB78_6
# %bb.1:                                # %join.3.i
	movabsq	$-2305843009213693952, %rdi     # imm = 0xE000000000000000
	movq	32(%rsp), %rax                  # 8-byte Reload
	leaq	(%rax,%rdi), %r8
	incq	%rdi
	movl	$3, %eax
	cmpq	%rdi, %r8
	movq	%rdx, %rdi
	movl	$0, %edx
	jb	.Lgcm_v3_BB78_6
# %bb.2:                                # %after.1.i.i
	movabsq	$68719476704, %rax              # imm = 0xFFFFFFFE0
	cmpq	%rax, %rdi
	seta	%al
	movq	24(%rsp), %rdi                  # 8-byte Reload
	shrq	$61, %rdi
	setne	%dil
	orb	%al, %dil
	movl	$5, %eax
	jne	.Lgcm_v3_BB78_6
# %bb.3:                                # %after.11.i.i
	movq	16(%rsp), %rax                  # 8-byte Reload
	movl	(%rax), %r8d
	movl	$2, %eax
	cmpq	$32, %r8
	ja	.Lgcm_v3_BB78_6
# %bb.4:                                # %after.11.i.i
	movabsq	$4311810048, %rdi               # imm = 0x101010000
	btq	%r8, %rdi
	movq	96(%rsp), %r8
	jae	.Lgcm_v3_BB78_6
# %bb.5:                                # %join.6.i
	movb	%r10b, %r13b
	shll	$12, %r13d
	addq	%r13, %rsi
	movb	%bpl, %r15b
	shll	$12, %r15d
	addq	%r15, %rcx
	movb	%r14b, %r11b
	shll	$12, %r11d
	addq	%r11, %r9
	movb	%r12b, %dl
	shll	$12, %edx
	addq	%rdx, %rbx
	movq	%r9, %rdi
	movq	%rsi, %r12
	movq	%r8, %rsi
	movq	%rbx, %rdx
	movq	%rcx, %rbp
	movq	%r8, %r14
	callq	gcm_v3.gcm_c.whole_to.copy
	movq	120(%rsp), %rax
	movq	%rax, 8(%rsp)
	movq	%r14, (%rsp)
	movq	16(%rsp), %rdi                  # 8-byte Reload
	movq	%r12, %rsi
	movq	32(%rsp), %rdx                  # 8-byte Reload
	movq	%rbp, %rcx
	movq	24(%rsp), %r8                   # 8-byte Reload
	movq	%rbx, %r9
	callq	gcm_v3.gcm_c.whole.fotsgure_gcm_seal
.Lgcm_v3_BB78_6:                               # %"gcm_c::whole_to::fotsgure_gcm_seal_to.exit"
	addq	$40, %rsp
	popq	%rbx
	popq	%r12
	popq	%r13
	popq	%r14
	popq	%r15
	popq	%rbp
	vpxor	%xmm0, %xmm0, %xmm0
	vpxor	%xmm1, %xmm1, %xmm1
	vpxor	%xmm2, %xmm2, %xmm2
	vpxor	%xmm3, %xmm3, %xmm3
	vpxor	%xmm4, %xmm4, %xmm4
	vpxor	%xmm5, %xmm5, %xmm5
	vpxor	%xmm6, %xmm6, %xmm6
	vpxor	%xmm7, %xmm7, %xmm7
	vpxor	%xmm8, %xmm8, %xmm8
	vpxor	%xmm9, %xmm9, %xmm9
	vpxor	%xmm10, %xmm10, %xmm10
	vpxor	%xmm11, %xmm11, %xmm11
	vpxor	%xmm12, %xmm12, %xmm12
	vpxor	%xmm13, %xmm13, %xmm13
	vpxor	%xmm14, %xmm14, %xmm14
	vpxor	%xmm15, %xmm15, %xmm15
	xorl	%ecx, %ecx
	xorl	%edx, %edx
	xorl	%esi, %esi
	xorl	%edi, %edi
	xorl	%r8d, %r8d
	xorl	%r9d, %r9d
	xorl	%r10d, %r10d
	xorl	%r11d, %r11d
	retq
.Lgcm_v3_func_end78:
	.size	gcm_v3.fotsgure_gcm_seal_to, .Lgcm_v3_func_end78-gcm_v3.fotsgure_gcm_seal_to
                                        # -- End function
	.section	.text.gcm_v3.fotsgure_gcm_siv_open,"ax",@progbits
	export_gcm_v3	fotsgure_gcm_siv_open
	.p2align	4
	.type	gcm_v3.fotsgure_gcm_siv_open,@function
gcm_v3.fotsgure_gcm_siv_open:                  # @gcm_v3.fotsgure_gcm_siv_open
	endbr64
# %bb.0:                                # %start
	pushq	%rbp
	pushq	%r14
	pushq	%rbx
	subq	$48, %rsp
	movq	%r8, %r10
	movq	%rcx, %r8
	movq	%rdx, %rcx
	movq	%rsi, %rdx
	xorl	%ebx, %ebx
	testq	%rcx, %rcx
	sete	%r14b
	xorl	%r11d, %r11d
	testq	%r10, %r10
	sete	%bpl
	movabsq	$68719476736, %rax              # imm = 0x1000000000
	cmpq	%rax, %r8
	seta	%sil
	cmpq	%rax, %r9
	seta	%al
	orb	%sil, %al
	movl	$5, %eax
	jne	.Lgcm_v3_BB79_7
# %bb.1:                                # %after.1.i.i
	movl	(%rdi), %esi
	cmpq	$32, %rsi
	je	.Lgcm_v3_BB79_3
# %bb.2:                                # %after.1.i.i
	movl	$2, %eax
	cmpl	$16, %esi
	jne	.Lgcm_v3_BB79_7
.Lgcm_v3_BB79_3:                               # %join.3.i
	movq	80(%rsp), %rax
	movb	%r14b, %bl
	shll	$12, %ebx
	addq	%rbx, %rcx
	movb	%bpl, %r11b
	shll	$12, %r11d
	addq	%r11, %r10
	addq	$4, %rdi
	movl	%esi, %r11d
	shrl	$2, %r11d
	addq	$7, %r11
	movq	%rdi, 16(%rsp)
	movq	%r11, 24(%rsp)
	movq	%rdi, 32(%rsp)
	movq	%r11, 40(%rsp)
	cmpq	$161, %r8
	setb	%dil
	movl	$160, %r11d
	subq	%r8, %r11
	cmpq	%r11, %r9
	setbe	%r11b
	andb	%dil, %r11b
	cmpb	$1, %r11b
	jne	.Lgcm_v3_BB79_5
# %bb.4:                                # %then.1.i.i
	movq	%rax, 8(%rsp)
	movq	%r9, (%rsp)
	leaq	16(%rsp), %rdi
	movq	%r10, %r9
	callq	gcm_v3.gcm_siv.course.open_in.1
	jmp	.Lgcm_v3_BB79_6
.Lgcm_v3_BB79_5:                               # %else.2.i.i
	movq	%rax, 8(%rsp)
	movq	%r9, (%rsp)
	leaq	16(%rsp), %rdi
	movq	%r10, %r9
	callq	gcm_v3.gcm_siv.course.open_in.2
.Lgcm_v3_BB79_6:                               # %"gcm_siv::course::open_message::<#867c4e8d915a0b38>.exit.i"
	xorl	%ecx, %ecx
	testb	%al, %al
	movl	$6, %eax
	cmovnel	%ecx, %eax
.Lgcm_v3_BB79_7:                               # %"gcm_c::siv::fotsgure_gcm_siv_open.exit"
	addq	$48, %rsp
	popq	%rbx
	popq	%r14
	popq	%rbp
	vpxor	%xmm0, %xmm0, %xmm0
	vpxor	%xmm1, %xmm1, %xmm1
	vpxor	%xmm2, %xmm2, %xmm2
	vpxor	%xmm3, %xmm3, %xmm3
	vpxor	%xmm4, %xmm4, %xmm4
	vpxor	%xmm5, %xmm5, %xmm5
	vpxor	%xmm6, %xmm6, %xmm6
	vpxor	%xmm7, %xmm7, %xmm7
	vpxor	%xmm8, %xmm8, %xmm8
	vpxor	%xmm9, %xmm9, %xmm9
	vpxor	%xmm10, %xmm10, %xmm10
	vpxor	%xmm11, %xmm11, %xmm11
	vpxor	%xmm12, %xmm12, %xmm12
	vpxor	%xmm13, %xmm13, %xmm13
	vpxor	%xmm14, %xmm14, %xmm14
	vpxor	%xmm15, %xmm15, %xmm15
	xorl	%ecx, %ecx
	xorl	%edx, %edx
	xorl	%esi, %esi
	xorl	%edi, %edi
	xorl	%r8d, %r8d
	xorl	%r9d, %r9d
	xorl	%r10d, %r10d
	xorl	%r11d, %r11d
	retq
.Lgcm_v3_func_end79:
	.size	gcm_v3.fotsgure_gcm_siv_open, .Lgcm_v3_func_end79-gcm_v3.fotsgure_gcm_siv_open
                                        # -- End function
	.section	.text.gcm_v3.fotsgure_gcm_siv_open_to,"ax",@progbits
	export_gcm_v3	fotsgure_gcm_siv_open_to
	.p2align	4
	.type	gcm_v3.fotsgure_gcm_siv_open_to,@function
gcm_v3.fotsgure_gcm_siv_open_to:               # @gcm_v3.fotsgure_gcm_siv_open_to
	endbr64
# %bb.0:                                # %start
	pushq	%rbp
	pushq	%r15
	pushq	%r14
	pushq	%r13
	pushq	%r12
	pushq	%rbx
	subq	$72, %rsp
	movq	%rsi, %r14
	movq	128(%rsp), %r13
	xorl	%r15d, %r15d
	testq	%rdx, %rdx
	sete	%bpl
	xorl	%r11d, %r11d
	testq	%r8, %r8
	sete	%sil
	xorl	%r12d, %r12d
	testq	%r13, %r13
	sete	%bl
	movl	$10, %eax
	cmpq	136(%rsp), %r9
	jne	.Lgcm_v3_BB80_36
# %bb.1:                                # %join.3.i
	movabsq	$68719476736, %rax              # imm = 0x1000000000
	cmpq	%rax, %rcx
	seta	%r10b
	cmpq	%rax, %r9
	seta	%al
	orb	%r10b, %al
	movl	$5, %eax
	jne	.Lgcm_v3_BB80_36
# %bb.2:                                # %after.1.i.i
	movl	(%rdi), %r10d
	cmpl	$32, %r10d
	je	.Lgcm_v3_BB80_4
# %bb.3:                                # %after.1.i.i
	movl	$2, %eax
	cmpl	$16, %r10d
	jne	.Lgcm_v3_BB80_36
.Lgcm_v3_BB80_4:                               # %join.6.i
	movb	%sil, %r11b
	shll	$12, %r11d
	leaq	(%r8,%r11), %rsi
	movb	%bl, %r12b
	shll	$12, %r12d
	leaq	(%r12,%r13), %rbx
	movq	%rbx, %rax
	subq	%rsi, %rax
	cmpq	%r9, %rax
	movq	%r14, 32(%rsp)                  # 8-byte Spill
	jae	.Lgcm_v3_BB80_7
# %bb.5:                                # %iter.check
	cmpq	$8, %r9
	jb	.Lgcm_v3_BB80_6
# %bb.8:                                # %vector.memcheck
	cmpq	$128, %rax
	jae	.Lgcm_v3_BB80_10
.Lgcm_v3_BB80_6:
	xorl	%eax, %eax
.Lgcm_v3_BB80_19:                              # %join.7.i.i.i.i.i.i.i.preheader
	movq	%r9, %r14
	movq	%rax, %r13
	andq	$7, %r14
	je	.Lgcm_v3_BB80_22
# %bb.20:                               # %join.7.i.i.i.i.i.i.i.prol.preheader
	movq	%rax, %r13
	.p2align	4
.Lgcm_v3_BB80_21:                              # %join.7.i.i.i.i.i.i.i.prol
                                        # =>This Inner Loop Header: Depth=1
	movzbl	(%rsi,%r13), %r10d
	movb	%r10b, (%rbx,%r13)
	incq	%r13
	decq	%r14
	jne	.Lgcm_v3_BB80_21
.Lgcm_v3_BB80_22:                              # %join.7.i.i.i.i.i.i.i.prol.loopexit
	subq	%r9, %rax
	cmpq	$-8, %rax
	ja	.Lgcm_v3_BB80_25
# %bb.23:                               # %join.7.i.i.i.i.i.i.i.preheader13
	leaq	(%r11,%r8), %rax
	addq	$7, %rax
	movq	128(%rsp), %rsi
	addq	%r12, %rsi
	addq	$7, %rsi
	.p2align	4
.Lgcm_v3_BB80_24:                              # %join.7.i.i.i.i.i.i.i
                                        # =>This Inner Loop Header: Depth=1
	movzbl	-7(%rax,%r13), %r8d
	movb	%r8b, -7(%rsi,%r13)
	movzbl	-6(%rax,%r13), %r8d
	movb	%r8b, -6(%rsi,%r13)
	movzbl	-5(%rax,%r13), %r8d
	movb	%r8b, -5(%rsi,%r13)
	movzbl	-4(%rax,%r13), %r8d
	movb	%r8b, -4(%rsi,%r13)
	movzbl	-3(%rax,%r13), %r8d
	movb	%r8b, -3(%rsi,%r13)
	movzbl	-2(%rax,%r13), %r8d
	movb	%r8b, -2(%rsi,%r13)
	movzbl	-1(%rax,%r13), %r8d
	movb	%r8b, -1(%rsi,%r13)
	movzbl	(%rax,%r13), %r8d
	movb	%r8b, (%rsi,%r13)
	addq	$8, %r13
	cmpq	%r13, %r9
	jne	.Lgcm_v3_BB80_24
	jmp	.Lgcm_v3_BB80_25
.Lgcm_v3_BB80_7:                               # %apart.2.i.i.i.i.i.i.i
	movq	%rdi, 24(%rsp)                  # 8-byte Spill
	movq	%rbx, %rdi
	movq	%rdx, %r12
	movq	%r9, %rdx
	movq	%r9, %r13
	movl	%ebp, %r14d
	movq	%rcx, %rbp
	callq	*memmove@GOTPCREL(%rip)
	movq	24(%rsp), %rdi                  # 8-byte Reload
	movq	%r12, %rdx
	movq	%rbp, %rcx
	movl	%r14d, %ebp
	movq	%r13, %r9
.Lgcm_v3_BB80_25:                              # %after.1.i.i.i
	movl	(%rdi), %esi
	cmpq	$32, %rsi
	je	.Lgcm_v3_BB80_27
# %bb.26:                               # %after.1.i.i.i
	movl	$2, %eax
	cmpl	$16, %esi
	jne	.Lgcm_v3_BB80_32
.Lgcm_v3_BB80_27:                              # %join.3.i.i
	movb	%bpl, %r15b
	shll	$12, %r15d
	movq	144(%rsp), %r10
	addq	%r15, %rdx
	movq	%rdx, %rax
	addq	$4, %rdi
	movl	%esi, %edx
	shrl	$2, %edx
	addq	$7, %rdx
	movq	%rdi, 40(%rsp)
	movq	%rdx, 48(%rsp)
	movq	%rdi, 56(%rsp)
	movq	%rdx, 64(%rsp)
	cmpq	$161, %rcx
	setb	%dl
	movl	$160, %edi
	movq	%rcx, %r8
	subq	%rcx, %rdi
	cmpq	%rdi, %r9
	setbe	%cl
	andb	%dl, %cl
	cmpb	$1, %cl
	jne	.Lgcm_v3_BB80_29
# %bb.28:                               # %then.1.i.i.i
	movq	%r10, 8(%rsp)
	movq	%r9, (%rsp)
	leaq	40(%rsp), %rdi
	movq	32(%rsp), %rdx                  # 8-byte Reload
	movq	%rax, %rcx
	movq	%r9, %r14
	movq	%rbx, %r9
	vzeroupper
	callq	gcm_v3.gcm_siv.course.open_in.1
	jmp	.Lgcm_v3_BB80_30
.Lgcm_v3_BB80_29:                              # %"gcm_siv::course::open_message::<#867c4e8d915a0b38>.exit.i.i"
	movq	%r10, 8(%rsp)
	movq	%r9, (%rsp)
	leaq	40(%rsp), %rdi
	movq	32(%rsp), %rdx                  # 8-byte Reload
	movq	%rax, %rcx
	movq	%r9, %r14
	movq	%rbx, %r9
	vzeroupper
	callq	gcm_v3.gcm_siv.course.open_in.2
.Lgcm_v3_BB80_30:                              # %"gcm_siv::course::open_message::<#867c4e8d915a0b38>.exit.i.i"
	movq	%r14, %r9
	movl	%eax, %ecx
	movl	$6, %eax
	testb	%cl, %cl
	je	.Lgcm_v3_BB80_32
# %bb.31:                               # %"gcm_c::siv::fotsgure_gcm_siv_open.exit.i"
	xorl	%eax, %eax
	jmp	.Lgcm_v3_BB80_36
.Lgcm_v3_BB80_32:                              # %then.7.i
	testq	%r9, %r9
	je	.Lgcm_v3_BB80_36
# %bb.33:                               # %loop.5.preheader.i.i
	decq	%r9
	je	.Lgcm_v3_BB80_35
# %bb.34:                               # %join.8.preheader.i.i
	movq	%rbx, %rdi
	xorl	%esi, %esi
	movq	%r9, %rdx
	movq	%r9, %r14
	movl	%eax, %ebp
	vzeroupper
	callq	*memset@GOTPCREL(%rip)
	movl	%ebp, %eax
	movq	%r14, %r9
.Lgcm_v3_BB80_35:                              # %after.4.i.i
	movb	$0, (%rbx,%r9)
.Lgcm_v3_BB80_36:                              # %"gcm_c::siv_to::fotsgure_gcm_siv_open_to.exit"
	addq	$72, %rsp
	popq	%rbx
	popq	%r12
	popq	%r13
	popq	%r14
	popq	%r15
	popq	%rbp
	vzeroupper
	vpxor	%xmm0, %xmm0, %xmm0
	vpxor	%xmm1, %xmm1, %xmm1
	vpxor	%xmm2, %xmm2, %xmm2
	vpxor	%xmm3, %xmm3, %xmm3
	vpxor	%xmm4, %xmm4, %xmm4
	vpxor	%xmm5, %xmm5, %xmm5
	vpxor	%xmm6, %xmm6, %xmm6
	vpxor	%xmm7, %xmm7, %xmm7
	vpxor	%xmm8, %xmm8, %xmm8
	vpxor	%xmm9, %xmm9, %xmm9
	vpxor	%xmm10, %xmm10, %xmm10
	vpxor	%xmm11, %xmm11, %xmm11
	vpxor	%xmm12, %xmm12, %xmm12
	vpxor	%xmm13, %xmm13, %xmm13
	vpxor	%xmm14, %xmm14, %xmm14
	vpxor	%xmm15, %xmm15, %xmm15
	xorl	%ecx, %ecx
	xorl	%edx, %edx
	xorl	%esi, %esi
	xorl	%edi, %edi
	xorl	%r8d, %r8d
	xorl	%r9d, %r9d
	xorl	%r10d, %r10d
	xorl	%r11d, %r11d
	retq
.Lgcm_v3_BB80_10:                              # %vector.main.loop.iter.check
	movabsq	$137438953344, %r13             # imm = 0x1FFFFFFF80
	cmpq	$128, %r9
	jae	.Lgcm_v3_BB80_12
# %bb.11:
	xorl	%eax, %eax
	jmp	.Lgcm_v3_BB80_16
.Lgcm_v3_BB80_12:                              # %vector.ph
	movb	%bpl, 24(%rsp)                  # 1-byte Spill
	movq	%r9, %rax
	andq	%r13, %rax
	leaq	(%r11,%r8), %r13
	addq	$96, %r13
	movq	128(%rsp), %r10
	leaq	(%r12,%r10), %rbp
	addq	$96, %rbp
	xorl	%r10d, %r10d
	.p2align	4
.Lgcm_v3_BB80_13:                              # %vector.body
                                        # =>This Inner Loop Header: Depth=1
	vmovups	-96(%r13,%r10), %ymm0
	vmovups	-64(%r13,%r10), %ymm1
	vmovups	-32(%r13,%r10), %ymm2
	vmovups	(%r13,%r10), %ymm3
	vmovups	%ymm0, -96(%rbp,%r10)
	vmovups	%ymm1, -64(%rbp,%r10)
	vmovups	%ymm2, -32(%rbp,%r10)
	vmovups	%ymm3, (%rbp,%r10)
	subq	$-128, %r10
	cmpq	%r10, %rax
	jne	.Lgcm_v3_BB80_13
# %bb.14:                               # %middle.block
	cmpq	%rax, %r9
	movzbl	24(%rsp), %ebp                  # 1-byte Folded Reload
	movabsq	$137438953344, %r13             # imm = 0x1FFFFFFF80
	je	.Lgcm_v3_BB80_25
# %bb.15:                               # %vec.epilog.iter.check
	testb	$120, %r9b
	je	.Lgcm_v3_BB80_19
.Lgcm_v3_BB80_16:                              # %vec.epilog.ph
	movq	%rax, %r10
	addq	$120, %r13
	movq	%r13, %rax
	andq	%r9, %rax
	.p2align	4
.Lgcm_v3_BB80_17:                              # %vec.epilog.vector.body
                                        # =>This Inner Loop Header: Depth=1
	movq	(%rsi,%r10), %r14
	movq	%r14, (%rbx,%r10)
	addq	$8, %r10
	cmpq	%r10, %rax
	jne	.Lgcm_v3_BB80_17
# %bb.18:                               # %vec.epilog.middle.block
	cmpq	%rax, %r9
	je	.Lgcm_v3_BB80_25
	jmp	.Lgcm_v3_BB80_19
.Lgcm_v3_func_end80:
	.size	gcm_v3.fotsgure_gcm_siv_open_to, .Lgcm_v3_func_end80-gcm_v3.fotsgure_gcm_siv_open_to
                                        # -- End function
	.section	.text.gcm_v3.fotsgure_gcm_siv_seal,"ax",@progbits
	export_gcm_v3	fotsgure_gcm_siv_seal
	.p2align	4
	.type	gcm_v3.fotsgure_gcm_siv_seal,@function
gcm_v3.fotsgure_gcm_siv_seal:                  # @gcm_v3.fotsgure_gcm_siv_seal
	endbr64
# %bb.0:                                # %start
	pushq	%rbp
	pushq	%r15
	pushq	%r14
	pushq	%rbx
	subq	$72, %rsp
	movq	%rcx, %r11
	movq	%rdx, %r10
	movq	%rsi, %rcx
	xorl	%r14d, %r14d
	testq	%rdx, %rdx
	sete	%r15b
	xorl	%esi, %esi
	testq	%r8, %r8
	sete	%bpl
	movabsq	$68719476736, %rax              # imm = 0x1000000000
	cmpq	%rax, %r11
	seta	%dl
	cmpq	%rax, %r9
	seta	%al
	orb	%dl, %al
	movl	$5, %eax
	jne	.Lgcm_v3_BB81_7
# %bb.1:                                # %after.1.i.i
	movl	(%rdi), %edx
	cmpq	$32, %rdx
	je	.Lgcm_v3_BB81_3
# %bb.2:                                # %after.1.i.i
	movl	$2, %eax
	cmpl	$16, %edx
	jne	.Lgcm_v3_BB81_7
.Lgcm_v3_BB81_3:                               # %join.3.i
	movq	112(%rsp), %rbx
	movb	%r15b, %r14b
	shll	$12, %r14d
	addq	%r14, %r10
	movb	%bpl, %sil
	shll	$12, %esi
	addq	%rsi, %r8
	addq	$4, %rdi
	movl	%edx, %eax
	shrl	$2, %eax
	addq	$7, %rax
	movq	%rdi, 40(%rsp)
	movq	%rax, 48(%rsp)
	movq	%rdi, 56(%rsp)
	movq	%rax, 64(%rsp)
	vxorps	%xmm0, %xmm0, %xmm0
	vmovaps	%xmm0, 16(%rsp)
	cmpq	$161, %r11
	setb	%al
	movl	$160, %esi
	subq	%r11, %rsi
	cmpq	%rsi, %r9
	setbe	%sil
	andb	%al, %sil
	cmpb	$1, %sil
	jne	.Lgcm_v3_BB81_5
# %bb.4:                                # %then.1.i.i
	movq	%r9, 8(%rsp)
	movq	%r8, (%rsp)
	leaq	16(%rsp), %rdi
	leaq	40(%rsp), %rsi
	movq	%r10, %r8
	movq	%r11, %r9
	callq	gcm_v3.gcm_siv.course.seal_in.1
	jmp	.Lgcm_v3_BB81_6
.Lgcm_v3_BB81_5:                               # %else.2.i.i
	movq	%r9, 8(%rsp)
	movq	%r8, (%rsp)
	leaq	16(%rsp), %rdi
	leaq	40(%rsp), %rsi
	movq	%r10, %r8
	movq	%r11, %r9
	callq	gcm_v3.gcm_siv.course.seal_in.2
.Lgcm_v3_BB81_6:                               # %"gcm_siv::course::seal_message::<#867c4e8d915a0b38>.exit.i"
	vmovaps	16(%rsp), %xmm0
	vmovups	%xmm0, (%rbx)
	xorl	%eax, %eax
.Lgcm_v3_BB81_7:                               # %"gcm_c::siv::fotsgure_gcm_siv_seal.exit"
	addq	$72, %rsp
	popq	%rbx
	popq	%r14
	popq	%r15
	popq	%rbp
	vpxor	%xmm0, %xmm0, %xmm0
	vpxor	%xmm1, %xmm1, %xmm1
	vpxor	%xmm2, %xmm2, %xmm2
	vpxor	%xmm3, %xmm3, %xmm3
	vpxor	%xmm4, %xmm4, %xmm4
	vpxor	%xmm5, %xmm5, %xmm5
	vpxor	%xmm6, %xmm6, %xmm6
	vpxor	%xmm7, %xmm7, %xmm7
	vpxor	%xmm8, %xmm8, %xmm8
	vpxor	%xmm9, %xmm9, %xmm9
	vpxor	%xmm10, %xmm10, %xmm10
	vpxor	%xmm11, %xmm11, %xmm11
	vpxor	%xmm12, %xmm12, %xmm12
	vpxor	%xmm13, %xmm13, %xmm13
	vpxor	%xmm14, %xmm14, %xmm14
	vpxor	%xmm15, %xmm15, %xmm15
	xorl	%ecx, %ecx
	xorl	%edx, %edx
	xorl	%esi, %esi
	xorl	%edi, %edi
	xorl	%r8d, %r8d
	xorl	%r9d, %r9d
	xorl	%r10d, %r10d
	xorl	%r11d, %r11d
	retq
.Lgcm_v3_func_end81:
	.size	gcm_v3.fotsgure_gcm_siv_seal, .Lgcm_v3_func_end81-gcm_v3.fotsgure_gcm_siv_seal
                                        # -- End function
	.section	.text.gcm_v3.fotsgure_gcm_siv_seal_to,"ax",@progbits
	export_gcm_v3	fotsgure_gcm_siv_seal_to
	.p2align	4
	.type	gcm_v3.fotsgure_gcm_siv_seal_to,@function
gcm_v3.fotsgure_gcm_siv_seal_to:               # @gcm_v3.fotsgure_gcm_siv_seal_to
	endbr64
# %bb.0:                                # %start
	pushq	%rbp
	pushq	%r15
	pushq	%r14
	pushq	%r13
	pushq	%r12
	pushq	%rbx
	subq	$88, %rsp
	movq	%rsi, %r14
	movq	144(%rsp), %r13
	xorl	%r15d, %r15d
	testq	%rdx, %rdx
	sete	%bpl
	xorl	%r11d, %r11d
	testq	%r8, %r8
	sete	%sil
	xorl	%r12d, %r12d
	testq	%r13, %r13
	sete	%bl
	movl	$10, %eax
	cmpq	152(%rsp), %r9
	jne	.Lgcm_v3_BB82_31
# %bb.1:                                # %join.3.i
	movabsq	$68719476736, %rax              # imm = 0x1000000000
	cmpq	%rax, %rcx
	seta	%r10b
	cmpq	%rax, %r9
	seta	%al
	orb	%r10b, %al
	movl	$5, %eax
	jne	.Lgcm_v3_BB82_31
# %bb.2:                                # %after.1.i.i
	movl	(%rdi), %r10d
	cmpl	$32, %r10d
	je	.Lgcm_v3_BB82_4
# %bb.3:                                # %after.1.i.i
	movl	$2, %eax
	cmpl	$16, %r10d
	jne	.Lgcm_v3_BB82_31
.Lgcm_v3_BB82_4:                               # %join.6.i
	movb	%sil, %r11b
	shll	$12, %r11d
	leaq	(%r8,%r11), %rsi
	movb	%bl, %r12b
	shll	$12, %r12d
	leaq	(%r12,%r13), %rbx
	movq	%rbx, %rax
	subq	%rsi, %rax
	cmpq	%r9, %rax
	movq	%r14, 24(%rsp)                  # 8-byte Spill
	jae	.Lgcm_v3_BB82_7
# %bb.5:                                # %iter.check
	cmpq	$8, %r9
	jb	.Lgcm_v3_BB82_6
# %bb.8:                                # %vector.memcheck
	cmpq	$128, %rax
	jae	.Lgcm_v3_BB82_10
.Lgcm_v3_BB82_6:
	xorl	%eax, %eax
.Lgcm_v3_BB82_19:                              # %join.7.i.i.i.i.i.i.i.preheader
	movq	%r9, %r14
	movq	%rax, %r13
	andq	$7, %r14
	je	.Lgcm_v3_BB82_22
# %bb.20:                               # %join.7.i.i.i.i.i.i.i.prol.preheader
	movq	%rax, %r13
	.p2align	4
.Lgcm_v3_BB82_21:                              # %join.7.i.i.i.i.i.i.i.prol
                                        # =>This Inner Loop Header: Depth=1
	movzbl	(%rsi,%r13), %r10d
	movb	%r10b, (%rbx,%r13)
	incq	%r13
	decq	%r14
	jne	.Lgcm_v3_BB82_21
.Lgcm_v3_BB82_22:                              # %join.7.i.i.i.i.i.i.i.prol.loopexit
	subq	%r9, %rax
	cmpq	$-8, %rax
	ja	.Lgcm_v3_BB82_25
# %bb.23:                               # %join.7.i.i.i.i.i.i.i.preheader13
	leaq	(%r11,%r8), %rax
	addq	$7, %rax
	movq	144(%rsp), %rsi
	addq	%r12, %rsi
	addq	$7, %rsi
	.p2align	4
.Lgcm_v3_BB82_24:                              # %join.7.i.i.i.i.i.i.i
                                        # =>This Inner Loop Header: Depth=1
	movzbl	-7(%rax,%r13), %r8d
	movb	%r8b, -7(%rsi,%r13)
	movzbl	-6(%rax,%r13), %r8d
	movb	%r8b, -6(%rsi,%r13)
	movzbl	-5(%rax,%r13), %r8d
	movb	%r8b, -5(%rsi,%r13)
	movzbl	-4(%rax,%r13), %r8d
	movb	%r8b, -4(%rsi,%r13)
	movzbl	-3(%rax,%r13), %r8d
	movb	%r8b, -3(%rsi,%r13)
	movzbl	-2(%rax,%r13), %r8d
	movb	%r8b, -2(%rsi,%r13)
	movzbl	-1(%rax,%r13), %r8d
	movb	%r8b, -1(%rsi,%r13)
	movzbl	(%rax,%r13), %r8d
	movb	%r8b, (%rsi,%r13)
	addq	$8, %r13
	cmpq	%r13, %r9
	jne	.Lgcm_v3_BB82_24
	jmp	.Lgcm_v3_BB82_25
.Lgcm_v3_BB82_7:                               # %apart.2.i.i.i.i.i.i.i
	movq	%rdi, 16(%rsp)                  # 8-byte Spill
	movq	%rbx, %rdi
	movq	%rdx, %r12
	movq	%r9, %rdx
	movq	%rcx, %r13
	movl	%ebp, %r14d
	movq	%r9, %rbp
	callq	*memmove@GOTPCREL(%rip)
	movq	16(%rsp), %rdi                  # 8-byte Reload
	movq	%rbp, %r9
	movl	%r14d, %ebp
	movq	%r12, %rdx
	movq	%r13, %rcx
.Lgcm_v3_BB82_25:                              # %after.1.i.i.i
	movl	(%rdi), %r11d
	cmpq	$32, %r11
	je	.Lgcm_v3_BB82_27
# %bb.26:                               # %after.1.i.i.i
	movl	$2, %eax
	cmpl	$16, %r11d
	jne	.Lgcm_v3_BB82_31
.Lgcm_v3_BB82_27:                              # %join.3.i.i
	movb	%bpl, %r15b
	shll	$12, %r15d
	movq	160(%rsp), %r12
	addq	%r15, %rdx
	movq	%rdx, %r8
	addq	$4, %rdi
	movl	%r11d, %eax
	shrl	$2, %eax
	addq	$7, %rax
	movq	%rdi, 56(%rsp)
	movq	%rax, 64(%rsp)
	movq	%rdi, 72(%rsp)
	movq	%rax, 80(%rsp)
	vxorps	%xmm0, %xmm0, %xmm0
	vmovaps	%xmm0, 32(%rsp)
	cmpq	$161, %rcx
	setb	%al
	movl	$160, %edx
	movq	%rcx, %r10
	subq	%rcx, %rdx
	cmpq	%rdx, %r9
	setbe	%cl
	andb	%al, %cl
	cmpb	$1, %cl
	jne	.Lgcm_v3_BB82_29
# %bb.28:                               # %then.1.i.i.i
	movq	%r9, 8(%rsp)
	movq	%rbx, (%rsp)
	leaq	32(%rsp), %rdi
	leaq	56(%rsp), %rsi
	movq	%r11, %rdx
	movq	24(%rsp), %rcx                  # 8-byte Reload
	movq	%r10, %r9
	vzeroupper
	callq	gcm_v3.gcm_siv.course.seal_in.1
	jmp	.Lgcm_v3_BB82_30
.Lgcm_v3_BB82_29:                              # %else.2.i.i.i
	movq	%r9, 8(%rsp)
	movq	%rbx, (%rsp)
	leaq	32(%rsp), %rdi
	leaq	56(%rsp), %rsi
	movq	%r11, %rdx
	movq	24(%rsp), %rcx                  # 8-byte Reload
	movq	%r10, %r9
	vzeroupper
	callq	gcm_v3.gcm_siv.course.seal_in.2
.Lgcm_v3_BB82_30:                              # %"gcm_siv::course::seal_message::<#867c4e8d915a0b38>.exit.i.i"
	vmovaps	32(%rsp), %xmm0
	vmovups	%xmm0, (%r12)
	xorl	%eax, %eax
.Lgcm_v3_BB82_31:                              # %"gcm_c::siv_to::fotsgure_gcm_siv_seal_to.exit"
	addq	$88, %rsp
	popq	%rbx
	popq	%r12
	popq	%r13
	popq	%r14
	popq	%r15
	popq	%rbp
	vzeroupper
	vpxor	%xmm0, %xmm0, %xmm0
	vpxor	%xmm1, %xmm1, %xmm1
	vpxor	%xmm2, %xmm2, %xmm2
	vpxor	%xmm3, %xmm3, %xmm3
	vpxor	%xmm4, %xmm4, %xmm4
	vpxor	%xmm5, %xmm5, %xmm5
	vpxor	%xmm6, %xmm6, %xmm6
	vpxor	%xmm7, %xmm7, %xmm7
	vpxor	%xmm8, %xmm8, %xmm8
	vpxor	%xmm9, %xmm9, %xmm9
	vpxor	%xmm10, %xmm10, %xmm10
	vpxor	%xmm11, %xmm11, %xmm11
	vpxor	%xmm12, %xmm12, %xmm12
	vpxor	%xmm13, %xmm13, %xmm13
	vpxor	%xmm14, %xmm14, %xmm14
	vpxor	%xmm15, %xmm15, %xmm15
	xorl	%ecx, %ecx
	xorl	%edx, %edx
	xorl	%esi, %esi
	xorl	%edi, %edi
	xorl	%r8d, %r8d
	xorl	%r9d, %r9d
	xorl	%r10d, %r10d
	xorl	%r11d, %r11d
	retq
.Lgcm_v3_BB82_10:                              # %vector.main.loop.iter.check
	movabsq	$137438953344, %r13             # imm = 0x1FFFFFFF80
	cmpq	$128, %r9
	jae	.Lgcm_v3_BB82_12
# %bb.11:
	xorl	%eax, %eax
	jmp	.Lgcm_v3_BB82_16
.Lgcm_v3_BB82_12:                              # %vector.ph
	movb	%bpl, 16(%rsp)                  # 1-byte Spill
	movq	%r9, %rax
	andq	%r13, %rax
	leaq	(%r11,%r8), %r13
	addq	$96, %r13
	movq	144(%rsp), %r10
	leaq	(%r12,%r10), %rbp
	addq	$96, %rbp
	xorl	%r10d, %r10d
	.p2align	4
.Lgcm_v3_BB82_13:                              # %vector.body
                                        # =>This Inner Loop Header: Depth=1
	vmovups	-96(%r13,%r10), %ymm0
	vmovups	-64(%r13,%r10), %ymm1
	vmovups	-32(%r13,%r10), %ymm2
	vmovups	(%r13,%r10), %ymm3
	vmovups	%ymm0, -96(%rbp,%r10)
	vmovups	%ymm1, -64(%rbp,%r10)
	vmovups	%ymm2, -32(%rbp,%r10)
	vmovups	%ymm3, (%rbp,%r10)
	subq	$-128, %r10
	cmpq	%r10, %rax
	jne	.Lgcm_v3_BB82_13
# %bb.14:                               # %middle.block
	cmpq	%rax, %r9
	movzbl	16(%rsp), %ebp                  # 1-byte Folded Reload
	movabsq	$137438953344, %r13             # imm = 0x1FFFFFFF80
	je	.Lgcm_v3_BB82_25
# %bb.15:                               # %vec.epilog.iter.check
	testb	$120, %r9b
	je	.Lgcm_v3_BB82_19
.Lgcm_v3_BB82_16:                              # %vec.epilog.ph
	movq	%rax, %r10
	addq	$120, %r13
	movq	%r13, %rax
	andq	%r9, %rax
	.p2align	4
.Lgcm_v3_BB82_17:                              # %vec.epilog.vector.body
                                        # =>This Inner Loop Header: Depth=1
	movq	(%rsi,%r10), %r14
	movq	%r14, (%rbx,%r10)
	addq	$8, %r10
	cmpq	%r10, %rax
	jne	.Lgcm_v3_BB82_17
# %bb.18:                               # %vec.epilog.middle.block
	cmpq	%rax, %r9
	je	.Lgcm_v3_BB82_25
	jmp	.Lgcm_v3_BB82_19
.Lgcm_v3_func_end82:
	.size	gcm_v3.fotsgure_gcm_siv_seal_to, .Lgcm_v3_func_end82-gcm_v3.fotsgure_gcm_siv_seal_to
                                        # -- End function
	.section	.text.gcm_v3.fotsgure_gcm_additional,"ax",@progbits
	export_gcm_v3	fotsgure_gcm_additional
	.p2align	4
	.type	gcm_v3.fotsgure_gcm_additional,@function
gcm_v3.fotsgure_gcm_additional:                # @gcm_v3.fotsgure_gcm_additional
	endbr64
# %bb.0:                                # %start
	movq	%rdx, %r8
	xorl	%edx, %edx
	testq	%r8, %r8
	sete	%r10b
	movl	(%rdi), %r9d
	movl	$2, %eax
	cmpq	$32, %r9
	ja	.Lgcm_v3_BB83_6
# %bb.1:                                # %start
	movabsq	$4311810048, %r11               # imm = 0x101010000
	btq	%r9, %r11
	jae	.Lgcm_v3_BB83_6
# %bb.2:                                # %join.3.i
	pushq	%r14
	pushq	%rbx
	subq	$40, %rsp
	leaq	4(%rdi), %rax
	shrl	$2, %r9d
	addq	$7, %r9
	addq	$244, %rdi
	movq	%rax, (%rsp)
	movq	%r9, 8(%rsp)
	movq	%rax, 16(%rsp)
	movq	%r9, 24(%rsp)
	movq	%rdi, 32(%rsp)
	movl	$8, %eax
	cmpq	$1, 24(%rsi)
	jne	.Lgcm_v3_BB83_5
# %bb.3:                                # %join.3.i.i
	movq	(%rsi), %r9
	movq	%rcx, %rax
	addq	%r9, %rax
	movq	$-1, %rdi
	cmovaeq	%rax, %rdi
	shrq	$61, %rdi
	movl	$5, %eax
	jne	.Lgcm_v3_BB83_5
# %bb.4:                                # %arm.4.i
	movb	%r10b, %dl
	shll	$12, %edx
	addq	%rdx, %r8
	leaq	32(%rsp), %rdi
	andl	$15, %r9d
	leaq	48(%rsi), %rax
	leaq	64(%rsi), %rdx
	movq	%rsi, %r14
	movq	%rax, %rsi
	movq	%rcx, %rbx
	movq	%r9, %rcx
	movq	%rbx, %r9
	callq	gcm_v3.gcm.hash_room.hash_piece
	callq	gcm_v3.aes_cipher.zeroize.stack.wipe_stack.512
	addq	%rbx, (%r14)
	xorl	%eax, %eax
.Lgcm_v3_BB83_5:
	addq	$40, %rsp
	popq	%rbx
	popq	%r14
.Lgcm_v3_BB83_6:                               # %"gcm_c::pieces::fotsgure_gcm_additional.exit"
	vpxor	%xmm0, %xmm0, %xmm0
	vpxor	%xmm1, %xmm1, %xmm1
	vpxor	%xmm2, %xmm2, %xmm2
	vpxor	%xmm3, %xmm3, %xmm3
	vpxor	%xmm4, %xmm4, %xmm4
	vpxor	%xmm5, %xmm5, %xmm5
	vpxor	%xmm6, %xmm6, %xmm6
	vpxor	%xmm7, %xmm7, %xmm7
	vpxor	%xmm8, %xmm8, %xmm8
	vpxor	%xmm9, %xmm9, %xmm9
	vpxor	%xmm10, %xmm10, %xmm10
	vpxor	%xmm11, %xmm11, %xmm11
	vpxor	%xmm12, %xmm12, %xmm12
	vpxor	%xmm13, %xmm13, %xmm13
	vpxor	%xmm14, %xmm14, %xmm14
	vpxor	%xmm15, %xmm15, %xmm15
	xorl	%ecx, %ecx
	xorl	%edx, %edx
	xorl	%esi, %esi
	xorl	%edi, %edi
	xorl	%r8d, %r8d
	xorl	%r9d, %r9d
	xorl	%r10d, %r10d
	xorl	%r11d, %r11d
	retq
.Lgcm_v3_func_end83:
	.size	gcm_v3.fotsgure_gcm_additional, .Lgcm_v3_func_end83-gcm_v3.fotsgure_gcm_additional
                                        # -- End function
	.section	.text.gcm_v3.fotsgure_gcm_decrypt,"ax",@progbits
	export_gcm_v3	fotsgure_gcm_decrypt
	.p2align	4
	.type	gcm_v3.fotsgure_gcm_decrypt,@function
gcm_v3.fotsgure_gcm_decrypt:                   # @gcm_v3.fotsgure_gcm_decrypt
	endbr64
# %bb.0:                                # %start
	xorl	%r9d, %r9d
	testq	%rdx, %rdx
	sete	%r10b
	movl	(%rdi), %r8d
	movl	$2, %eax
	cmpq	$32, %r8
	ja	.Lgcm_v3_BB84_6
# %bb.1:                                # %start
	movabsq	$4311810048, %r11               # imm = 0x101010000
	btq	%r8, %r11
	jae	.Lgcm_v3_BB84_6
# %bb.2:                                # %join.3.i
	pushq	%r14
	pushq	%rbx
	subq	$40, %rsp
	leaq	4(%rdi), %rax
	shrl	$2, %r8d
	addq	$7, %r8
	addq	$244, %rdi
	movq	%rax, (%rsp)
	movq	%r8, 8(%rsp)
	movq	%rax, 16(%rsp)
	movq	%r8, 24(%rsp)
	movq	%rdi, 32(%rsp)
	movl	$8, %eax
	cmpq	$4, 24(%rsi)
	jne	.Lgcm_v3_BB84_5
# %bb.3:                                # %join.3.i.i
	movq	8(%rsi), %rax
	movq	16(%rsi), %r8
	movq	%rcx, %rdi
	addq	%r8, %rdi
	movq	$-1, %r11
	cmovaeq	%rdi, %r11
	movabsq	$68719476704, %rdi              # imm = 0xFFFFFFFE0
	cmpq	%rdi, %rax
	cmovbq	%rax, %rdi
	movl	$5, %eax
	cmpq	%r11, %rdi
	jb	.Lgcm_v3_BB84_5
# %bb.4:                                # %arm.4.i
	movb	%r10b, %r9b
	shll	$12, %r9d
	addq	%r9, %rdx
	leaq	32(%rsi), %rax
	addq	$16, %r8
	movq	%rsp, %rdi
	movq	%rsi, %r14
	movq	%rax, %rsi
	movq	%rdx, %rax
	movq	%r8, %rdx
	movq	%rcx, %rbx
	movq	%rax, %rcx
	movq	%rbx, %r8
	callq	gcm_v3.gcm.gctr.add_gctr
	addq	%rbx, 16(%r14)
	callq	gcm_v3.aes_cipher.zeroize.stack.wipe_stack.1536
	xorl	%eax, %eax
.Lgcm_v3_BB84_5:
	addq	$40, %rsp
	popq	%rbx
	popq	%r14
.Lgcm_v3_BB84_6:                               # %"gcm_c::pieces::decrypting::fotsgure_gcm_decrypt.exit"
	vpxor	%xmm0, %xmm0, %xmm0
	vpxor	%xmm1, %xmm1, %xmm1
	vpxor	%xmm2, %xmm2, %xmm2
	vpxor	%xmm3, %xmm3, %xmm3
	vpxor	%xmm4, %xmm4, %xmm4
	vpxor	%xmm5, %xmm5, %xmm5
	vpxor	%xmm6, %xmm6, %xmm6
	vpxor	%xmm7, %xmm7, %xmm7
	vpxor	%xmm8, %xmm8, %xmm8
	vpxor	%xmm9, %xmm9, %xmm9
	vpxor	%xmm10, %xmm10, %xmm10
	vpxor	%xmm11, %xmm11, %xmm11
	vpxor	%xmm12, %xmm12, %xmm12
	vpxor	%xmm13, %xmm13, %xmm13
	vpxor	%xmm14, %xmm14, %xmm14
	vpxor	%xmm15, %xmm15, %xmm15
	xorl	%ecx, %ecx
	xorl	%edx, %edx
	xorl	%esi, %esi
	xorl	%edi, %edi
	xorl	%r8d, %r8d
	xorl	%r9d, %r9d
	xorl	%r10d, %r10d
	xorl	%r11d, %r11d
	retq
.Lgcm_v3_func_end84:
	.size	gcm_v3.fotsgure_gcm_decrypt, .Lgcm_v3_func_end84-gcm_v3.fotsgure_gcm_decrypt
                                        # -- End function
	.section	.text.gcm_v3.fotsgure_gcm_decrypt_unverified,"ax",@progbits
	export_gcm_v3	fotsgure_gcm_decrypt_unverified
	.p2align	4
	.type	gcm_v3.fotsgure_gcm_decrypt_unverified,@function
gcm_v3.fotsgure_gcm_decrypt_unverified:        # @gcm_v3.fotsgure_gcm_decrypt_unverified
	endbr64
# %bb.0:                                # %start
	pushq	%rbp
	pushq	%r15
	pushq	%r14
	pushq	%r12
	pushq	%rbx
	subq	$48, %rsp
	movq	%rcx, %rbx
	xorl	%r12d, %r12d
	testq	%rdx, %rdx
	sete	%bpl
	movl	(%rdi), %ecx
	movl	$2, %eax
	cmpq	$32, %rcx
	ja	.Lgcm_v3_BB85_5
# %bb.1:                                # %start
	movq	%rdx, %r14
	movabsq	$4311810048, %rdx               # imm = 0x101010000
	btq	%rcx, %rdx
	jae	.Lgcm_v3_BB85_5
# %bb.2:                                # %join.3.i
	movq	%rsi, %r15
	leaq	4(%rdi), %rax
	shrl	$2, %ecx
	addq	$7, %rcx
	addq	$244, %rdi
	movq	%rax, 8(%rsp)
	movq	%rcx, 16(%rsp)
	movq	%rax, 24(%rsp)
	movq	%rcx, 32(%rsp)
	movq	%rdi, 40(%rsp)
	leaq	8(%rsp), %rdi
	movl	$3, %edx
	movq	%rbx, %rcx
	callq	gcm_v3.gcm.mode.BorrowedGcm.enter_phase
	testb	%al, %al
	je	.Lgcm_v3_BB85_3
# %bb.4:                                # %arm.2.i.i
	notb	%dl
	movzbl	%dl, %eax
	andl	$1, %eax
	leal	(%rax,%rax,2), %eax
	addl	$5, %eax
	jmp	.Lgcm_v3_BB85_5
.Lgcm_v3_BB85_3:                               # %arm.1.i.i
	movb	%bpl, %r12b
	shll	$12, %r12d
	addq	%r12, %r14
	leaq	40(%rsp), %rdi
	movq	8(%r15), %rcx
	leaq	16(%rcx), %r12
	andl	$15, %ecx
	leaq	48(%r15), %rsi
	leaq	64(%r15), %rdx
	movq	%r14, %r8
	movq	%rbx, %r9
	callq	gcm_v3.gcm.hash_room.hash_piece
	addq	%rbx, 8(%r15)
	addq	$32, %r15
	leaq	8(%rsp), %rdi
	movq	%r15, %rsi
	movq	%r12, %rdx
	movq	%r14, %rcx
	movq	%rbx, %r8
	callq	gcm_v3.gcm.gctr.add_gctr
	callq	gcm_v3.aes_cipher.zeroize.stack.wipe_stack.1536
	xorl	%eax, %eax
.Lgcm_v3_BB85_5:                               # %"gcm_c::pieces::decrypting::fotsgure_gcm_decrypt_unverified.exit"
	addq	$48, %rsp
	popq	%rbx
	popq	%r12
	popq	%r14
	popq	%r15
	popq	%rbp
	vpxor	%xmm0, %xmm0, %xmm0
	vpxor	%xmm1, %xmm1, %xmm1
	vpxor	%xmm2, %xmm2, %xmm2
	vpxor	%xmm3, %xmm3, %xmm3
	vpxor	%xmm4, %xmm4, %xmm4
	vpxor	%xmm5, %xmm5, %xmm5
	vpxor	%xmm6, %xmm6, %xmm6
	vpxor	%xmm7, %xmm7, %xmm7
	vpxor	%xmm8, %xmm8, %xmm8
	vpxor	%xmm9, %xmm9, %xmm9
	vpxor	%xmm10, %xmm10, %xmm10
	vpxor	%xmm11, %xmm11, %xmm11
	vpxor	%xmm12, %xmm12, %xmm12
	vpxor	%xmm13, %xmm13, %xmm13
	vpxor	%xmm14, %xmm14, %xmm14
	vpxor	%xmm15, %xmm15, %xmm15
	xorl	%ecx, %ecx
	xorl	%edx, %edx
	xorl	%esi, %esi
	xorl	%edi, %edi
	xorl	%r8d, %r8d
	xorl	%r9d, %r9d
	xorl	%r10d, %r10d
	xorl	%r11d, %r11d
	retq
.Lgcm_v3_func_end85:
	.size	gcm_v3.fotsgure_gcm_decrypt_unverified, .Lgcm_v3_func_end85-gcm_v3.fotsgure_gcm_decrypt_unverified
                                        # -- End function
	.section	.text.gcm_v3.fotsgure_gcm_encrypt,"ax",@progbits
	export_gcm_v3	fotsgure_gcm_encrypt
	.p2align	4
	.type	gcm_v3.fotsgure_gcm_encrypt,@function
gcm_v3.fotsgure_gcm_encrypt:                   # @gcm_v3.fotsgure_gcm_encrypt
	endbr64
# %bb.0:                                # %start
	pushq	%rbp
	pushq	%r15
	pushq	%r14
	pushq	%r12
	pushq	%rbx
	subq	$48, %rsp
	movq	%rcx, %rbx
	xorl	%r12d, %r12d
	testq	%rdx, %rdx
	sete	%bpl
	movl	(%rdi), %ecx
	movl	$2, %eax
	cmpq	$32, %rcx
	ja	.Lgcm_v3_BB86_5
# %bb.1:                                # %start
	movq	%rdx, %r15
	movabsq	$4311810048, %rdx               # imm = 0x101010000
	btq	%rcx, %rdx
	jae	.Lgcm_v3_BB86_5
# %bb.2:                                # %join.3.i
	movq	%rsi, %r14
	leaq	4(%rdi), %rax
	shrl	$2, %ecx
	addq	$7, %rcx
	addq	$244, %rdi
	movq	%rax, 8(%rsp)
	movq	%rcx, 16(%rsp)
	movq	%rax, 24(%rsp)
	movq	%rcx, 32(%rsp)
	movq	%rdi, 40(%rsp)
	leaq	8(%rsp), %rdi
	movl	$2, %edx
	movq	%rbx, %rcx
	callq	gcm_v3.gcm.mode.BorrowedGcm.enter_phase
	testb	%al, %al
	je	.Lgcm_v3_BB86_3
# %bb.4:                                # %arm.2.i.i
	notb	%dl
	movzbl	%dl, %eax
	andl	$1, %eax
	leal	(%rax,%rax,2), %eax
	addl	$5, %eax
	jmp	.Lgcm_v3_BB86_5
.Lgcm_v3_BB86_3:                               # %arm.1.i.i
	movb	%bpl, %r12b
	shll	$12, %r12d
	addq	%r12, %r15
	leaq	40(%rsp), %r12
	leaq	32(%r14), %rsi
	movq	8(%r14), %rdx
	addq	$16, %rdx
	leaq	8(%rsp), %rdi
	movq	%r15, %rcx
	movq	%rbx, %r8
	callq	gcm_v3.gcm.gctr.add_gctr
	movq	8(%r14), %rcx
	andl	$15, %ecx
	leaq	48(%r14), %rsi
	leaq	64(%r14), %rdx
	movq	%r12, %rdi
	movq	%r15, %r8
	movq	%rbx, %r9
	callq	gcm_v3.gcm.hash_room.hash_piece
	addq	%rbx, 8(%r14)
	callq	gcm_v3.aes_cipher.zeroize.stack.wipe_stack.1536
	xorl	%eax, %eax
.Lgcm_v3_BB86_5:                               # %"gcm_c::pieces::encrypting::fotsgure_gcm_encrypt.exit"
	addq	$48, %rsp
	popq	%rbx
	popq	%r12
	popq	%r14
	popq	%r15
	popq	%rbp
	vpxor	%xmm0, %xmm0, %xmm0
	vpxor	%xmm1, %xmm1, %xmm1
	vpxor	%xmm2, %xmm2, %xmm2
	vpxor	%xmm3, %xmm3, %xmm3
	vpxor	%xmm4, %xmm4, %xmm4
	vpxor	%xmm5, %xmm5, %xmm5
	vpxor	%xmm6, %xmm6, %xmm6
	vpxor	%xmm7, %xmm7, %xmm7
	vpxor	%xmm8, %xmm8, %xmm8
	vpxor	%xmm9, %xmm9, %xmm9
	vpxor	%xmm10, %xmm10, %xmm10
	vpxor	%xmm11, %xmm11, %xmm11
	vpxor	%xmm12, %xmm12, %xmm12
	vpxor	%xmm13, %xmm13, %xmm13
	vpxor	%xmm14, %xmm14, %xmm14
	vpxor	%xmm15, %xmm15, %xmm15
	xorl	%ecx, %ecx
	xorl	%edx, %edx
	xorl	%esi, %esi
	xorl	%edi, %edi
	xorl	%r8d, %r8d
	xorl	%r9d, %r9d
	xorl	%r10d, %r10d
	xorl	%r11d, %r11d
	retq
.Lgcm_v3_func_end86:
	.size	gcm_v3.fotsgure_gcm_encrypt, .Lgcm_v3_func_end86-gcm_v3.fotsgure_gcm_encrypt
                                        # -- End function
	.section	.text.gcm_v3.fotsgure_gcm_verify,"ax",@progbits
	export_gcm_v3	fotsgure_gcm_verify
	.p2align	4
	.type	gcm_v3.fotsgure_gcm_verify,@function
gcm_v3.fotsgure_gcm_verify:                    # @gcm_v3.fotsgure_gcm_verify
	endbr64
# %bb.0:                                # %start
	pushq	%rbp
	pushq	%r15
	pushq	%r14
	pushq	%r12
	pushq	%rbx
	subq	$48, %rsp
	movq	%rcx, %rbx
	xorl	%r12d, %r12d
	testq	%rdx, %rdx
	sete	%bpl
	movl	(%rdi), %ecx
	movl	$2, %eax
	cmpq	$32, %rcx
	ja	.Lgcm_v3_BB87_5
# %bb.1:                                # %start
	movq	%rdx, %r15
	movabsq	$4311810048, %rdx               # imm = 0x101010000
	btq	%rcx, %rdx
	jae	.Lgcm_v3_BB87_5
# %bb.2:                                # %join.3.i
	movq	%rsi, %r14
	leaq	4(%rdi), %rax
	shrl	$2, %ecx
	addq	$7, %rcx
	addq	$244, %rdi
	movq	%rax, 8(%rsp)
	movq	%rcx, 16(%rsp)
	movq	%rax, 24(%rsp)
	movq	%rcx, 32(%rsp)
	movq	%rdi, 40(%rsp)
	leaq	8(%rsp), %rdi
	movl	$3, %edx
	movq	%rbx, %rcx
	callq	gcm_v3.gcm.mode.BorrowedGcm.enter_phase
	testb	%al, %al
	je	.Lgcm_v3_BB87_3
# %bb.4:                                # %arm.2.i.i
	notb	%dl
	movzbl	%dl, %eax
	andl	$1, %eax
	leal	(%rax,%rax,2), %eax
	addl	$5, %eax
	jmp	.Lgcm_v3_BB87_5
.Lgcm_v3_BB87_3:                               # %arm.1.i.i
	movb	%bpl, %r12b
	shll	$12, %r12d
	addq	%r12, %r15
	leaq	40(%rsp), %rdi
	movq	8(%r14), %rcx
	andl	$15, %ecx
	leaq	48(%r14), %rsi
	leaq	64(%r14), %rdx
	movq	%r15, %r8
	movq	%rbx, %r9
	callq	gcm_v3.gcm.hash_room.hash_piece
	addq	%rbx, 8(%r14)
	callq	gcm_v3.aes_cipher.zeroize.stack.wipe_stack.512
	xorl	%eax, %eax
.Lgcm_v3_BB87_5:                               # %"gcm_c::pieces::decrypting::fotsgure_gcm_verify.exit"
	addq	$48, %rsp
	popq	%rbx
	popq	%r12
	popq	%r14
	popq	%r15
	popq	%rbp
	vpxor	%xmm0, %xmm0, %xmm0
	vpxor	%xmm1, %xmm1, %xmm1
	vpxor	%xmm2, %xmm2, %xmm2
	vpxor	%xmm3, %xmm3, %xmm3
	vpxor	%xmm4, %xmm4, %xmm4
	vpxor	%xmm5, %xmm5, %xmm5
	vpxor	%xmm6, %xmm6, %xmm6
	vpxor	%xmm7, %xmm7, %xmm7
	vpxor	%xmm8, %xmm8, %xmm8
	vpxor	%xmm9, %xmm9, %xmm9
	vpxor	%xmm10, %xmm10, %xmm10
	vpxor	%xmm11, %xmm11, %xmm11
	vpxor	%xmm12, %xmm12, %xmm12
	vpxor	%xmm13, %xmm13, %xmm13
	vpxor	%xmm14, %xmm14, %xmm14
	vpxor	%xmm15, %xmm15, %xmm15
	xorl	%ecx, %ecx
	xorl	%edx, %edx
	xorl	%esi, %esi
	xorl	%edi, %edi
	xorl	%r8d, %r8d
	xorl	%r9d, %r9d
	xorl	%r10d, %r10d
	xorl	%r11d, %r11d
	retq
.Lgcm_v3_func_end87:
	.size	gcm_v3.fotsgure_gcm_verify, .Lgcm_v3_func_end87-gcm_v3.fotsgure_gcm_verify
                                        # -- End function
	.section	.text.gcm_v3.fotsgure_gcm_accept,"ax",@progbits
	export_gcm_v3	fotsgure_gcm_accept
	.p2align	4
	.type	gcm_v3.fotsgure_gcm_accept,@function
gcm_v3.fotsgure_gcm_accept:                    # @gcm_v3.fotsgure_gcm_accept
	endbr64
# %bb.0:                                # %start
	xorl	%r8d, %r8d
	testq	%rdx, %rdx
	sete	%r9b
	movl	$4, %eax
	cmpq	$16, %rcx
	jne	.Lgcm_v3_BB88_8
# %bb.1:                                # %join.3.i
	movl	(%rdi), %ecx
	movl	$2, %eax
	cmpq	$32, %rcx
	ja	.Lgcm_v3_BB88_8
# %bb.2:                                # %join.3.i
	movabsq	$4311810048, %r10               # imm = 0x101010000
	btq	%rcx, %r10
	jae	.Lgcm_v3_BB88_8
# %bb.3:                                # %join.6.i
	pushq	%rbp
	pushq	%rbx
	subq	$72, %rsp
	movb	%r9b, %r8b
	shll	$12, %r8d
	addq	%r8, %rdx
	leaq	4(%rdi), %rax
	shrl	$2, %ecx
	addq	$7, %rcx
	addq	$244, %rdi
	movq	%rax, 8(%rsp)
	movq	%rcx, 16(%rsp)
	movq	%rax, 24(%rsp)
	movq	%rcx, 32(%rsp)
	movq	%rdi, 40(%rsp)
	vmovups	(%rdx), %xmm0
	vmovaps	%xmm0, 48(%rsp)
	movq	24(%rsi), %rax
	xorl	%ecx, %ecx
	cmpq	$5, %rax
	cmovael	%ecx, %eax
	orl	$2, %eax
	movzbl	%al, %eax
	cmpl	$3, %eax
	jne	.Lgcm_v3_BB88_4
# %bb.5:                                # %join.3.i.i
	leaq	8(%rsp), %rdi
	leaq	48(%rsp), %rdx
	movq	%rsi, %rbx
	callq	gcm_v3.gcm.mode.BorrowedGcm.is_tag_so_far
	movl	%eax, %ebp
	callq	gcm_v3.aes_cipher.zeroize.stack.wipe_stack.1536
	movl	$6, %eax
	testb	%bpl, %bpl
	je	.Lgcm_v3_BB88_7
# %bb.6:                                # %arm.7.i
	movq	$4, 24(%rbx)
	movq	$0, 16(%rbx)
	xorl	%eax, %eax
	jmp	.Lgcm_v3_BB88_7
.Lgcm_v3_BB88_4:
	movl	$8, %eax
.Lgcm_v3_BB88_7:
	addq	$72, %rsp
	popq	%rbx
	popq	%rbp
.Lgcm_v3_BB88_8:                               # %"gcm_c::pieces::decrypting::fotsgure_gcm_accept.exit"
	vpxor	%xmm0, %xmm0, %xmm0
	vpxor	%xmm1, %xmm1, %xmm1
	vpxor	%xmm2, %xmm2, %xmm2
	vpxor	%xmm3, %xmm3, %xmm3
	vpxor	%xmm4, %xmm4, %xmm4
	vpxor	%xmm5, %xmm5, %xmm5
	vpxor	%xmm6, %xmm6, %xmm6
	vpxor	%xmm7, %xmm7, %xmm7
	vpxor	%xmm8, %xmm8, %xmm8
	vpxor	%xmm9, %xmm9, %xmm9
	vpxor	%xmm10, %xmm10, %xmm10
	vpxor	%xmm11, %xmm11, %xmm11
	vpxor	%xmm12, %xmm12, %xmm12
	vpxor	%xmm13, %xmm13, %xmm13
	vpxor	%xmm14, %xmm14, %xmm14
	vpxor	%xmm15, %xmm15, %xmm15
	xorl	%ecx, %ecx
	xorl	%edx, %edx
	xorl	%esi, %esi
	xorl	%edi, %edi
	xorl	%r8d, %r8d
	xorl	%r9d, %r9d
	xorl	%r10d, %r10d
	xorl	%r11d, %r11d
	retq
.Lgcm_v3_func_end88:
	.size	gcm_v3.fotsgure_gcm_accept, .Lgcm_v3_func_end88-gcm_v3.fotsgure_gcm_accept
                                        # -- End function
	.section	.text.gcm_v3.fotsgure_gcm_accept_short,"ax",@progbits
	export_gcm_v3	fotsgure_gcm_accept_short
	.p2align	4
	.type	gcm_v3.fotsgure_gcm_accept_short,@function
gcm_v3.fotsgure_gcm_accept_short:              # @gcm_v3.fotsgure_gcm_accept_short
	endbr64
# %bb.0:                                # %start
	pushq	%rbp
	pushq	%rbx
	subq	$40, %rsp
	xorl	%r9d, %r9d
	testq	%rcx, %rcx
	sete	%r10b
	leaq	-4(%rdx), %rax
	testq	$-5, %rax
	sete	%r11b
	movq	%rdx, %rax
	andq	$-4, %rax
	cmpq	$12, %rax
	sete	%bl
	movl	$4, %eax
	cmpq	%rdx, %r8
	jne	.Lgcm_v3_BB89_8
# %bb.1:                                # %start
	orb	%bl, %r11b
	je	.Lgcm_v3_BB89_8
# %bb.2:                                # %join.3.i
	movl	(%rdi), %r8d
	movl	$2, %eax
	cmpq	$32, %r8
	ja	.Lgcm_v3_BB89_8
# %bb.3:                                # %join.3.i
	movabsq	$4311810048, %r11               # imm = 0x101010000
	btq	%r8, %r11
	jae	.Lgcm_v3_BB89_8
# %bb.4:                                # %join.6.i
	leaq	4(%rdi), %rax
	shrl	$2, %r8d
	addq	$7, %r8
	addq	$244, %rdi
	movq	%rax, (%rsp)
	movq	%r8, 8(%rsp)
	movq	%rax, 16(%rsp)
	movq	%r8, 24(%rsp)
	movq	%rdi, 32(%rsp)
	movq	24(%rsi), %rax
	xorl	%edi, %edi
	cmpq	$5, %rax
	cmovael	%edi, %eax
	orl	$2, %eax
	movzbl	%al, %eax
	cmpl	$3, %eax
	jne	.Lgcm_v3_BB89_5
# %bb.6:                                # %join.7.i.i
	movb	%r10b, %r9b
	shll	$12, %r9d
	addq	%r9, %rcx
	movq	%rsp, %rdi
	movq	%rsi, %rbx
	movq	%rdx, %rax
	movq	%rcx, %rdx
	movq	%rax, %rcx
	callq	gcm_v3.gcm.mode.BorrowedGcm.is_short_tag_so_far
	movl	%eax, %ebp
	callq	gcm_v3.aes_cipher.zeroize.stack.wipe_stack.1536
	movl	$6, %eax
	testb	%bpl, %bpl
	je	.Lgcm_v3_BB89_8
# %bb.7:                                # %arm.7.i
	movq	$4, 24(%rbx)
	movq	$0, 16(%rbx)
	xorl	%eax, %eax
.Lgcm_v3_BB89_8:                               # %"gcm_c::pieces::decrypting::fotsgure_gcm_accept_short.exit"
	addq	$40, %rsp
	popq	%rbx
	popq	%rbp
	vpxor	%xmm0, %xmm0, %xmm0
	vpxor	%xmm1, %xmm1, %xmm1
	vpxor	%xmm2, %xmm2, %xmm2
	vpxor	%xmm3, %xmm3, %xmm3
	vpxor	%xmm4, %xmm4, %xmm4
	vpxor	%xmm5, %xmm5, %xmm5
	vpxor	%xmm6, %xmm6, %xmm6
	vpxor	%xmm7, %xmm7, %xmm7
	vpxor	%xmm8, %xmm8, %xmm8
	vpxor	%xmm9, %xmm9, %xmm9
	vpxor	%xmm10, %xmm10, %xmm10
	vpxor	%xmm11, %xmm11, %xmm11
	vpxor	%xmm12, %xmm12, %xmm12
	vpxor	%xmm13, %xmm13, %xmm13
	vpxor	%xmm14, %xmm14, %xmm14
	vpxor	%xmm15, %xmm15, %xmm15
	xorl	%ecx, %ecx
	xorl	%edx, %edx
	xorl	%esi, %esi
	xorl	%edi, %edi
	xorl	%r8d, %r8d
	xorl	%r9d, %r9d
	xorl	%r10d, %r10d
	xorl	%r11d, %r11d
	retq
.Lgcm_v3_BB89_5:
	movl	$8, %eax
	addq	$40, %rsp
	popq	%rbx
	popq	%rbp
	vpxor	%xmm0, %xmm0, %xmm0
	vpxor	%xmm1, %xmm1, %xmm1
	vpxor	%xmm2, %xmm2, %xmm2
	vpxor	%xmm3, %xmm3, %xmm3
	vpxor	%xmm4, %xmm4, %xmm4
	vpxor	%xmm5, %xmm5, %xmm5
	vpxor	%xmm6, %xmm6, %xmm6
	vpxor	%xmm7, %xmm7, %xmm7
	vpxor	%xmm8, %xmm8, %xmm8
	vpxor	%xmm9, %xmm9, %xmm9
	vpxor	%xmm10, %xmm10, %xmm10
	vpxor	%xmm11, %xmm11, %xmm11
	vpxor	%xmm12, %xmm12, %xmm12
	vpxor	%xmm13, %xmm13, %xmm13
	vpxor	%xmm14, %xmm14, %xmm14
	vpxor	%xmm15, %xmm15, %xmm15
	xorl	%ecx, %ecx
	xorl	%edx, %edx
	xorl	%esi, %esi
	xorl	%edi, %edi
	xorl	%r8d, %r8d
	xorl	%r9d, %r9d
	xorl	%r10d, %r10d
	xorl	%r11d, %r11d
	retq
.Lgcm_v3_func_end89:
	.size	gcm_v3.fotsgure_gcm_accept_short, .Lgcm_v3_func_end89-gcm_v3.fotsgure_gcm_accept_short
                                        # -- End function
	.type	.Lgcm_v3_static.0,@object              # @static.0
	.section	.rodata..Lgcm_v3_static.0,"a",@progbits
.Lgcm_v3_static.0:
	.ascii	"\001\002\004\b\020 @\200\0336"
	.size	.Lgcm_v3_static.0, 10

	.type	.Lgcm_v3_static.1,@object              # @static.1
	.section	.rodata.cst16,"aM",@progbits,16
.Lgcm_v3_static.1:
	.ascii	"\000\001\034\035-,10'&;:\n\013\026\027"
	.size	.Lgcm_v3_static.1, 16

	.type	.Lgcm_v3_static.2,@object              # @static.2
.Lgcm_v3_static.2:
	.ascii	"\000\206\375{\216\bs\365w\361\212\f\371\177\004\202"
	.size	.Lgcm_v3_static.2, 16

	.type	.Lgcm_v3_static.3,@object              # @static.3
	.section	.rodata..Lgcm_v3_static.3,"a",@progbits
.Lgcm_v3_static.3:
	.ascii	"\000\001\002\003\004\005\006\007\b\t\n\013\f\r\016\017\000\005\n\017\004\t\016\003\b\r\002\007\f\001\006\013\000\t\002\013\004\r\006\017\b\001\n\003\f\005\016\007\000\r\n\007\004\001\016\013\b\005\002\017\f\t\006\003"
	.size	.Lgcm_v3_static.3, 64

	.type	.Lgcm_v3_static.5,@object              # @static.5
	.section	.rodata..Lgcm_v3_static.5,"a",@progbits
.Lgcm_v3_static.5:
	.ascii	"\001\002\003\000\005\006\007\004\t\n\013\b\r\016\017\f\005\006\007\004\t\n\013\b\r\016\017\f\001\002\003\000\t\n\013\b\r\016\017\f\001\002\003\000\005\006\007\004\r\016\017\f\001\002\003\000\005\006\007\004\t\n\013\b"
	.size	.Lgcm_v3_static.5, 64

	.type	.Lgcm_v3_static.6,@object              # @static.6
	.section	.rodata..Lgcm_v3_static.6,"a",@progbits
.Lgcm_v3_static.6:
	.ascii	"\003\000\001\002\007\004\005\006\013\b\t\n\017\f\r\016\017\f\r\016\003\000\001\002\007\004\005\006\013\b\t\n\013\b\t\n\017\f\r\016\003\000\001\002\007\004\005\006\007\004\005\006\013\b\t\n\017\f\r\016\003\000\001\002"
	.size	.Lgcm_v3_static.6, 64

	.ident	"rattle logic=dac8208d650f15bf3e2dc313a14fa4c783a3acf887bdfab66e1714b038d9e11b"
	.section	".note.GNU-stack","",@progbits

	.ifndef	in_rust
	.section	".note.gnu.property","a",@note
	.p2align	3, 0x0
	.long	4, 16, 5
	.asciz	"GNU"
	.long	0xc0000002, 4, 3, 0
	.endif

	.section	.note.fotsgure,"a",%note
	.p2align	2, 0x0
	.long	9, 118, 1
	.asciz	"Fotsgure"
	.p2align	2, 0x0
	.asciz	"fotsgure_gcm 0.4.0, x86_64/gcm_v3.s, sources SHA-256 7839658995c36f00d13f13ab6f42fa9360d959953d441bf3a57996a9c2aa56dc"
	.p2align	2, 0x0
