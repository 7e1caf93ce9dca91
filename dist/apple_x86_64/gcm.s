# Made by tools/dist from the proved crate gcm_c; BUILD says from what. Don't edit it.
/* A Rust crate defines in_rust; for x86-64, a static library of both builds defines chosen, and choose_*.c calls these names. */
	.macro	export_gcm_v2 name
	.ifdef	in_rust
	.globl	_gcm_v2.\name
	.private_extern	_gcm_v2.\name
	.else
	.ifdef	chosen
	.globl	_\name\()_v2
	.private_extern	_\name\()_v2
	.set	_\name\()_v2, _gcm_v2.\name
	.else
	.globl	_\name
	.set	_\name, _gcm_v2.\name
	.endif
	.endif
	.endm
	.section	__TEXT,__text,regular,pure_instructions
	.p2align	4                               # -- Begin function aes_cipher::zeroize::elements::zeroize_elements::<#530874d131791bfe>
_gcm_v2.aes_cipher.zeroize.elements.zeroize_elements.1: # @_gcm_v2.aes_cipher.zeroize.elements.zeroize_elements.1
# %bb.0:                                # %start
	xorps	%xmm0, %xmm0
	movaps	%xmm0, -24(%rsp)
	movq	$0, -8(%rsp)
	#APP
	#NO_APP
	movq	-8(%rsp), %rax
	#APP
	#NO_APP
	cmpq	$14, %rax
	ja	Lgcm_v2_BB0_1
# %bb.2:                                # %then.1.i6
	movq	%rax, %rcx
	shlq	$4, %rcx
	movzbl	(%rdi,%rcx), %ecx
	jmp	Lgcm_v2_BB0_3
Lgcm_v2_BB0_1:
	xorl	%ecx, %ecx
Lgcm_v2_BB0_3:                                # %"aes_cipher::zeroize::observe::<#3f54e6b29a41109e>.exit10"
	movaps	-24(%rsp), %xmm0
	movups	%xmm0, (%rdi)
	movaps	-24(%rsp), %xmm0
	movups	%xmm0, 16(%rdi)
	movaps	-24(%rsp), %xmm0
	movups	%xmm0, 32(%rdi)
	movaps	-24(%rsp), %xmm0
	movups	%xmm0, 48(%rdi)
	movaps	-24(%rsp), %xmm0
	movups	%xmm0, 64(%rdi)
	movaps	-24(%rsp), %xmm0
	movups	%xmm0, 80(%rdi)
	movaps	-24(%rsp), %xmm0
	movups	%xmm0, 96(%rdi)
	movaps	-24(%rsp), %xmm0
	movups	%xmm0, 112(%rdi)
	movaps	-24(%rsp), %xmm0
	movups	%xmm0, 128(%rdi)
	movaps	-24(%rsp), %xmm0
	movups	%xmm0, 144(%rdi)
	movaps	-24(%rsp), %xmm0
	movups	%xmm0, 160(%rdi)
	movaps	-24(%rsp), %xmm0
	movups	%xmm0, 176(%rdi)
	movaps	-24(%rsp), %xmm0
	movups	%xmm0, 192(%rdi)
	movaps	-24(%rsp), %xmm0
	movups	%xmm0, 208(%rdi)
	movaps	-24(%rsp), %xmm0
	movups	%xmm0, 224(%rdi)
	cmpq	$14, %rax
	ja	Lgcm_v2_BB0_4
# %bb.5:                                # %then.1.i
	shlq	$4, %rax
	andb	(%rdi,%rax), %cl
	movzbl	%cl, %eax
	#APP
	#NO_APP
	xchgq	%rax, -8(%rsp)
	#APP
	#NO_APP
	pxor	%xmm0, %xmm0
	pxor	%xmm1, %xmm1
	pxor	%xmm2, %xmm2
	pxor	%xmm3, %xmm3
	pxor	%xmm4, %xmm4
	pxor	%xmm5, %xmm5
	pxor	%xmm6, %xmm6
	pxor	%xmm7, %xmm7
	pxor	%xmm8, %xmm8
	pxor	%xmm9, %xmm9
	pxor	%xmm10, %xmm10
	pxor	%xmm11, %xmm11
	pxor	%xmm12, %xmm12
	pxor	%xmm13, %xmm13
	pxor	%xmm14, %xmm14
	pxor	%xmm15, %xmm15
	xorl	%ecx, %ecx
	xorl	%edx, %edx
	xorl	%esi, %esi
	xorl	%edi, %edi
	xorl	%r8d, %r8d
	xorl	%r9d, %r9d
	xorl	%r10d, %r10d
	xorl	%r11d, %r11d
	retq
Lgcm_v2_BB0_4:
	xorl	%eax, %eax
	#APP
	#NO_APP
	xchgq	%rax, -8(%rsp)
	#APP
	#NO_APP
	pxor	%xmm0, %xmm0
	pxor	%xmm1, %xmm1
	pxor	%xmm2, %xmm2
	pxor	%xmm3, %xmm3
	pxor	%xmm4, %xmm4
	pxor	%xmm5, %xmm5
	pxor	%xmm6, %xmm6
	pxor	%xmm7, %xmm7
	pxor	%xmm8, %xmm8
	pxor	%xmm9, %xmm9
	pxor	%xmm10, %xmm10
	pxor	%xmm11, %xmm11
	pxor	%xmm12, %xmm12
	pxor	%xmm13, %xmm13
	pxor	%xmm14, %xmm14
	pxor	%xmm15, %xmm15
	xorl	%ecx, %ecx
	xorl	%edx, %edx
	xorl	%esi, %esi
	xorl	%edi, %edi
	xorl	%r8d, %r8d
	xorl	%r9d, %r9d
	xorl	%r10d, %r10d
	xorl	%r11d, %r11d
	retq
                                        # -- End function
	.section	__TEXT,__text,regular,pure_instructions
	.p2align	4                               # -- Begin function aes_cipher::zeroize::elements::zeroize_elements::<#d3d1c9d97fea966e>
_gcm_v2.aes_cipher.zeroize.elements.zeroize_elements.2: # @_gcm_v2.aes_cipher.zeroize.elements.zeroize_elements.2
# %bb.0:                                # %start
	xorps	%xmm0, %xmm0
	movaps	%xmm0, -24(%rsp)
	movq	$0, -8(%rsp)
	#APP
	#NO_APP
	movq	-8(%rsp), %rax
	#APP
	#NO_APP
	cmpq	%rsi, %rax
	jae	Lgcm_v2_BB1_1
# %bb.2:                                # %then.1.i6
	movq	%rax, %rcx
	shlq	$4, %rcx
	movzbl	(%rdi,%rcx), %ecx
	jmp	Lgcm_v2_BB1_3
Lgcm_v2_BB1_1:
	xorl	%ecx, %ecx
Lgcm_v2_BB1_3:                                # %"aes_cipher::zeroize::observe::<#32a0ae3c0a3d48e0>.exit10"
	movl	%esi, %edx
	andl	$3, %edx
	movl	%esi, %r9d
	andl	$124, %r9d
	movq	%rdi, %r8
	.p2align	4
Lgcm_v2_BB1_4:                                # %join.6.i
                                        # =>This Inner Loop Header: Depth=1
	movaps	-24(%rsp), %xmm0
	movups	%xmm0, (%r8)
	movaps	-24(%rsp), %xmm0
	movups	%xmm0, 16(%r8)
	movaps	-24(%rsp), %xmm0
	movups	%xmm0, 32(%r8)
	movaps	-24(%rsp), %xmm0
	movups	%xmm0, 48(%r8)
	addq	$64, %r8
	addq	$-4, %r9
	jne	Lgcm_v2_BB1_4
# %bb.5:                                # %"aes_cipher::zeroize::overwrite::<#8898ba818a1b9c8b>.exit.unr-lcssa"
	testq	%rdx, %rdx
	je	Lgcm_v2_BB1_7
	.p2align	4
Lgcm_v2_BB1_6:                                # %join.6.i.epil
                                        # =>This Inner Loop Header: Depth=1
	movaps	-24(%rsp), %xmm0
	movups	%xmm0, (%r8)
	addq	$16, %r8
	decq	%rdx
	jne	Lgcm_v2_BB1_6
Lgcm_v2_BB1_7:                                # %"aes_cipher::zeroize::overwrite::<#8898ba818a1b9c8b>.exit"
	cmpq	%rsi, %rax
	jae	Lgcm_v2_BB1_8
# %bb.9:                                # %then.1.i
	shlq	$4, %rax
	andb	(%rdi,%rax), %cl
	movzbl	%cl, %eax
	#APP
	#NO_APP
	xchgq	%rax, -8(%rsp)
	#APP
	#NO_APP
	pxor	%xmm0, %xmm0
	pxor	%xmm1, %xmm1
	pxor	%xmm2, %xmm2
	pxor	%xmm3, %xmm3
	pxor	%xmm4, %xmm4
	pxor	%xmm5, %xmm5
	pxor	%xmm6, %xmm6
	pxor	%xmm7, %xmm7
	pxor	%xmm8, %xmm8
	pxor	%xmm9, %xmm9
	pxor	%xmm10, %xmm10
	pxor	%xmm11, %xmm11
	pxor	%xmm12, %xmm12
	pxor	%xmm13, %xmm13
	pxor	%xmm14, %xmm14
	pxor	%xmm15, %xmm15
	xorl	%ecx, %ecx
	xorl	%edx, %edx
	xorl	%esi, %esi
	xorl	%edi, %edi
	xorl	%r8d, %r8d
	xorl	%r9d, %r9d
	xorl	%r10d, %r10d
	xorl	%r11d, %r11d
	retq
Lgcm_v2_BB1_8:
	xorl	%eax, %eax
	#APP
	#NO_APP
	xchgq	%rax, -8(%rsp)
	#APP
	#NO_APP
	pxor	%xmm0, %xmm0
	pxor	%xmm1, %xmm1
	pxor	%xmm2, %xmm2
	pxor	%xmm3, %xmm3
	pxor	%xmm4, %xmm4
	pxor	%xmm5, %xmm5
	pxor	%xmm6, %xmm6
	pxor	%xmm7, %xmm7
	pxor	%xmm8, %xmm8
	pxor	%xmm9, %xmm9
	pxor	%xmm10, %xmm10
	pxor	%xmm11, %xmm11
	pxor	%xmm12, %xmm12
	pxor	%xmm13, %xmm13
	pxor	%xmm14, %xmm14
	pxor	%xmm15, %xmm15
	xorl	%ecx, %ecx
	xorl	%edx, %edx
	xorl	%esi, %esi
	xorl	%edi, %edi
	xorl	%r8d, %r8d
	xorl	%r9d, %r9d
	xorl	%r10d, %r10d
	xorl	%r11d, %r11d
	retq
                                        # -- End function
	.section	__TEXT,__text,regular,pure_instructions
	.p2align	4                               # -- Begin function gcm::message_state::MessageZeroize::zeroize
_gcm_v2.gcm.message_state.MessageZeroize.zeroize: # @_gcm_v2.gcm.message_state.MessageZeroize.zeroize
# %bb.0:                                # %start
	pushq	%rbx
	movq	%rdi, %rbx
	addq	$32, %rdi
	xorps	%xmm0, %xmm0
	movups	%xmm0, 16(%rbx)
	movups	%xmm0, (%rbx)
	callq	_gcm_v2.aes_cipher.zeroize.elements.zeroize_elements.3
	leaq	48(%rbx), %rdi
	callq	_gcm_v2.aes_cipher.zeroize.elements.zeroize_elements.3
	addq	$64, %rbx
	movq	%rbx, %rdi
	popq	%rbx
	jmp	_gcm_v2.aes_cipher.zeroize.elements.zeroize_elements.3 # TAILCALL
                                        # -- End function
	.section	__TEXT,__text,regular,pure_instructions
	.p2align	4                               # -- Begin function aes_cipher::zeroize::elements::zeroize_elements::<#3b2097f0eef5a37b>
_gcm_v2.aes_cipher.zeroize.elements.zeroize_elements.3: # @_gcm_v2.aes_cipher.zeroize.elements.zeroize_elements.3
# %bb.0:                                # %start
	xorps	%xmm0, %xmm0
	movaps	%xmm0, -24(%rsp)
	movq	$0, -32(%rsp)
	#APP
	#NO_APP
	movq	-32(%rsp), %rax
	#APP
	#NO_APP
	testq	%rax, %rax
	je	Lgcm_v2_BB3_2
# %bb.1:                                # %"aes_cipher::zeroize::observe::<#ff6ee9ab78975cb2>.exit8"
	movaps	-24(%rsp), %xmm0
	movups	%xmm0, (%rdi)
	xorl	%eax, %eax
	#APP
	#NO_APP
	xchgq	%rax, -32(%rsp)
	#APP
	#NO_APP
	pxor	%xmm0, %xmm0
	pxor	%xmm1, %xmm1
	pxor	%xmm2, %xmm2
	pxor	%xmm3, %xmm3
	pxor	%xmm4, %xmm4
	pxor	%xmm5, %xmm5
	pxor	%xmm6, %xmm6
	pxor	%xmm7, %xmm7
	pxor	%xmm8, %xmm8
	pxor	%xmm9, %xmm9
	pxor	%xmm10, %xmm10
	pxor	%xmm11, %xmm11
	pxor	%xmm12, %xmm12
	pxor	%xmm13, %xmm13
	pxor	%xmm14, %xmm14
	pxor	%xmm15, %xmm15
	xorl	%ecx, %ecx
	xorl	%edx, %edx
	xorl	%esi, %esi
	xorl	%edi, %edi
	xorl	%r8d, %r8d
	xorl	%r9d, %r9d
	xorl	%r10d, %r10d
	xorl	%r11d, %r11d
	retq
Lgcm_v2_BB3_2:                                # %then.1.i
	movzbl	(%rdi), %eax
	movaps	-24(%rsp), %xmm0
	movups	%xmm0, (%rdi)
	andb	(%rdi), %al
	movzbl	%al, %eax
	#APP
	#NO_APP
	xchgq	%rax, -32(%rsp)
	#APP
	#NO_APP
	pxor	%xmm0, %xmm0
	pxor	%xmm1, %xmm1
	pxor	%xmm2, %xmm2
	pxor	%xmm3, %xmm3
	pxor	%xmm4, %xmm4
	pxor	%xmm5, %xmm5
	pxor	%xmm6, %xmm6
	pxor	%xmm7, %xmm7
	pxor	%xmm8, %xmm8
	pxor	%xmm9, %xmm9
	pxor	%xmm10, %xmm10
	pxor	%xmm11, %xmm11
	pxor	%xmm12, %xmm12
	pxor	%xmm13, %xmm13
	pxor	%xmm14, %xmm14
	pxor	%xmm15, %xmm15
	xorl	%ecx, %ecx
	xorl	%edx, %edx
	xorl	%esi, %esi
	xorl	%edi, %edi
	xorl	%r8d, %r8d
	xorl	%r9d, %r9d
	xorl	%r10d, %r10d
	xorl	%r11d, %r11d
	retq
                                        # -- End function
	.section	__TEXT,__const
	.p2align	4, 0x0                          # -- Begin function aes_permute::lane_keys::expand_lanes
l_gcm_v2_CPI4_0:
	.zero	16,15
l_gcm_v2_CPI4_1:
	.byte	0                               # 0x0
	.byte	1                               # 0x1
	.byte	28                              # 0x1c
	.byte	29                              # 0x1d
	.byte	45                              # 0x2d
	.byte	44                              # 0x2c
	.byte	49                              # 0x31
	.byte	48                              # 0x30
	.byte	39                              # 0x27
	.byte	38                              # 0x26
	.byte	59                              # 0x3b
	.byte	58                              # 0x3a
	.byte	10                              # 0xa
	.byte	11                              # 0xb
	.byte	22                              # 0x16
	.byte	23                              # 0x17
l_gcm_v2_CPI4_2:
	.byte	0                               # 0x0
	.byte	134                             # 0x86
	.byte	253                             # 0xfd
	.byte	123                             # 0x7b
	.byte	142                             # 0x8e
	.byte	8                               # 0x8
	.byte	115                             # 0x73
	.byte	245                             # 0xf5
	.byte	119                             # 0x77
	.byte	241                             # 0xf1
	.byte	138                             # 0x8a
	.byte	12                              # 0xc
	.byte	249                             # 0xf9
	.byte	127                             # 0x7f
	.byte	4                               # 0x4
	.byte	130                             # 0x82
l_gcm_v2_CPI4_3:
	.byte	0                               # 0x0
	.byte	1                               # 0x1
	.byte	92                              # 0x5c
	.byte	93                              # 0x5d
	.byte	224                             # 0xe0
	.byte	225                             # 0xe1
	.byte	188                             # 0xbc
	.byte	189                             # 0xbd
	.byte	80                              # 0x50
	.byte	81                              # 0x51
	.byte	12                              # 0xc
	.byte	13                              # 0xd
	.byte	176                             # 0xb0
	.byte	177                             # 0xb1
	.byte	236                             # 0xec
	.byte	237                             # 0xed
l_gcm_v2_CPI4_4:
	.byte	0                               # 0x0
	.byte	178                             # 0xb2
	.byte	181                             # 0xb5
	.byte	7                               # 0x7
	.byte	58                              # 0x3a
	.byte	136                             # 0x88
	.byte	143                             # 0x8f
	.byte	61                              # 0x3d
	.byte	172                             # 0xac
	.byte	30                              # 0x1e
	.byte	25                              # 0x19
	.byte	171                             # 0xab
	.byte	150                             # 0x96
	.byte	36                              # 0x24
	.byte	35                              # 0x23
	.byte	145                             # 0x91
l_gcm_v2_CPI4_5:
	.byte	13                              # 0xd
	.byte	14                              # 0xe
	.byte	15                              # 0xf
	.byte	12                              # 0xc
	.byte	13                              # 0xd
	.byte	14                              # 0xe
	.byte	15                              # 0xf
	.byte	12                              # 0xc
	.byte	13                              # 0xd
	.byte	14                              # 0xe
	.byte	15                              # 0xf
	.byte	12                              # 0xc
	.byte	13                              # 0xd
	.byte	14                              # 0xe
	.byte	15                              # 0xf
	.byte	12                              # 0xc
l_gcm_v2_CPI4_6:
	.byte	128                             # 0x80
	.byte	2                               # 0x2
	.byte	1                               # 0x1
	.byte	15                              # 0xf
	.byte	9                               # 0x9
	.byte	5                               # 0x5
	.byte	14                              # 0xe
	.byte	12                              # 0xc
	.byte	13                              # 0xd
	.byte	4                               # 0x4
	.byte	11                              # 0xb
	.byte	10                              # 0xa
	.byte	7                               # 0x7
	.byte	8                               # 0x8
	.byte	6                               # 0x6
	.byte	3                               # 0x3
l_gcm_v2_CPI4_7:
	.byte	128                             # 0x80
	.byte	1                               # 0x1
	.byte	9                               # 0x9
	.byte	14                              # 0xe
	.byte	13                              # 0xd
	.byte	11                              # 0xb
	.byte	7                               # 0x7
	.byte	6                               # 0x6
	.byte	15                              # 0xf
	.byte	2                               # 0x2
	.byte	12                              # 0xc
	.byte	5                               # 0x5
	.byte	10                              # 0xa
	.byte	4                               # 0x4
	.byte	3                               # 0x3
	.byte	8                               # 0x8
l_gcm_v2_CPI4_8:
	.byte	0                               # 0x0
	.byte	195                             # 0xc3
	.byte	79                              # 0x4f
	.byte	12                              # 0xc
	.byte	252                             # 0xfc
	.byte	124                             # 0x7c
	.byte	67                              # 0x43
	.byte	128                             # 0x80
	.byte	207                             # 0xcf
	.byte	51                              # 0x33
	.byte	63                              # 0x3f
	.byte	112                             # 0x70
	.byte	191                             # 0xbf
	.byte	179                             # 0xb3
	.byte	240                             # 0xf0
	.byte	140                             # 0x8c
l_gcm_v2_CPI4_9:
	.byte	0                               # 0x0
	.byte	230                             # 0xe6
	.byte	114                             # 0x72
	.byte	183                             # 0xb7
	.byte	229                             # 0xe5
	.byte	198                             # 0xc6
	.byte	197                             # 0xc5
	.byte	35                              # 0x23
	.byte	81                              # 0x51
	.byte	180                             # 0xb4
	.byte	3                               # 0x3
	.byte	113                             # 0x71
	.byte	32                              # 0x20
	.byte	151                             # 0x97
	.byte	82                              # 0x52
	.byte	148                             # 0x94
l_gcm_v2_CPI4_10:
	.zero	16,110
l_gcm_v2_CPI4_11:
	.byte	224                             # 0xe0
	.byte	110                             # 0x6e
	.byte	110                             # 0x6e
	.byte	110                             # 0x6e
	.byte	110                             # 0x6e
	.byte	110                             # 0x6e
	.byte	110                             # 0x6e
	.byte	110                             # 0x6e
	.byte	110                             # 0x6e
	.byte	110                             # 0x6e
	.byte	110                             # 0x6e
	.byte	110                             # 0x6e
	.byte	110                             # 0x6e
	.byte	110                             # 0x6e
	.byte	110                             # 0x6e
	.byte	110                             # 0x6e
l_gcm_v2_CPI4_12:
	.byte	0                               # 0x0
	.byte	9                               # 0x9
	.byte	2                               # 0x2
	.byte	11                              # 0xb
	.byte	4                               # 0x4
	.byte	13                              # 0xd
	.byte	6                               # 0x6
	.byte	15                              # 0xf
	.byte	8                               # 0x8
	.byte	1                               # 0x1
	.byte	10                              # 0xa
	.byte	3                               # 0x3
	.byte	12                              # 0xc
	.byte	5                               # 0x5
	.byte	14                              # 0xe
	.byte	7                               # 0x7
l_gcm_v2_CPI4_13:
	.byte	0                               # 0x0
	.byte	5                               # 0x5
	.byte	10                              # 0xa
	.byte	15                              # 0xf
	.byte	4                               # 0x4
	.byte	9                               # 0x9
	.byte	14                              # 0xe
	.byte	3                               # 0x3
	.byte	8                               # 0x8
	.byte	13                              # 0xd
	.byte	2                               # 0x2
	.byte	7                               # 0x7
	.byte	12                              # 0xc
	.byte	1                               # 0x1
	.byte	6                               # 0x6
	.byte	11                              # 0xb
l_gcm_v2_CPI4_14:
	.byte	25                              # 0x19
	.byte	110                             # 0x6e
	.byte	110                             # 0x6e
	.byte	110                             # 0x6e
	.byte	110                             # 0x6e
	.byte	110                             # 0x6e
	.byte	110                             # 0x6e
	.byte	110                             # 0x6e
	.byte	110                             # 0x6e
	.byte	110                             # 0x6e
	.byte	110                             # 0x6e
	.byte	110                             # 0x6e
	.byte	110                             # 0x6e
	.byte	110                             # 0x6e
	.byte	110                             # 0x6e
	.byte	110                             # 0x6e
l_gcm_v2_CPI4_15:
	.zero	16,99
l_gcm_v2_CPI4_16:
	.byte	36                              # 0x24
	.byte	110                             # 0x6e
	.byte	110                             # 0x6e
	.byte	110                             # 0x6e
	.byte	110                             # 0x6e
	.byte	110                             # 0x6e
	.byte	110                             # 0x6e
	.byte	110                             # 0x6e
	.byte	110                             # 0x6e
	.byte	110                             # 0x6e
	.byte	110                             # 0x6e
	.byte	110                             # 0x6e
	.byte	110                             # 0x6e
	.byte	110                             # 0x6e
	.byte	110                             # 0x6e
	.byte	110                             # 0x6e
l_gcm_v2_CPI4_17:
	.byte	0                               # 0x0
	.byte	13                              # 0xd
	.byte	10                              # 0xa
	.byte	7                               # 0x7
	.byte	4                               # 0x4
	.byte	1                               # 0x1
	.byte	14                              # 0xe
	.byte	11                              # 0xb
	.byte	8                               # 0x8
	.byte	5                               # 0x5
	.byte	2                               # 0x2
	.byte	15                              # 0xf
	.byte	12                              # 0xc
	.byte	9                               # 0x9
	.byte	6                               # 0x6
	.byte	3                               # 0x3
	.section	__TEXT,__text,regular,pure_instructions
	.p2align	4
_gcm_v2.aes_permute.lane_keys.expand_lanes: # @_gcm_v2.aes_permute.lane_keys.expand_lanes
# %bb.0:                                # %start
	movdqu	(%rsi), %xmm4
	movdqa	l_gcm_v2_CPI4_0(%rip), %xmm0           # xmm0 = [15,15,15,15,15,15,15,15,15,15,15,15,15,15,15,15]
	movdqa	%xmm4, %xmm1
	pand	%xmm0, %xmm1
	movdqa	l_gcm_v2_CPI4_1(%rip), %xmm3           # xmm3 = [0,1,28,29,45,44,49,48,39,38,59,58,10,11,22,23]
	movdqa	%xmm3, %xmm5
	pshufb	%xmm1, %xmm5
	psrlw	$4, %xmm4
	pand	%xmm0, %xmm4
	movdqa	l_gcm_v2_CPI4_2(%rip), %xmm2           # xmm2 = [0,134,253,123,142,8,115,245,119,241,138,12,249,127,4,130]
	movdqa	%xmm2, %xmm1
	pshufb	%xmm4, %xmm1
	pxor	%xmm5, %xmm1
	cmpq	$24, %rdx
	je	Lgcm_v2_BB4_5
# %bb.1:                                # %start
	cmpq	$16, %rdx
	jne	Lgcm_v2_BB4_8
# %bb.2:                                # %then.1.i
	movdqa	%xmm1, %xmm3
	pand	%xmm0, %xmm3
	movdqa	l_gcm_v2_CPI4_3(%rip), %xmm2           # xmm2 = [0,1,92,93,224,225,188,189,80,81,12,13,176,177,236,237]
	movdqa	%xmm2, %xmm4
	pshufb	%xmm3, %xmm4
	movdqa	%xmm1, %xmm5
	psrlw	$4, %xmm5
	pand	%xmm0, %xmm5
	movdqa	l_gcm_v2_CPI4_4(%rip), %xmm3           # xmm3 = [0,178,181,7,58,136,143,61,172,30,25,171,150,36,35,145]
	movdqa	%xmm3, %xmm6
	pshufb	%xmm5, %xmm6
	pxor	%xmm4, %xmm6
	movdqu	%xmm6, (%rdi)
	leaq	16(%rdi), %rax
	leaq	l_gcm_v2_static.0(%rip), %rcx
	movl	$48, %edx
	.p2align	4
Lgcm_v2_BB4_3:                                # %"aes_permute::lane_keys::stored_key.exit"
                                        # =>This Inner Loop Header: Depth=1
	movzbl	(%rcx), %esi
	movl	%esi, %r8d
	andl	$15, %r8d
	leaq	l_gcm_v2_static.1(%rip), %r9
	shrl	$4, %esi
	leaq	l_gcm_v2_static.2(%rip), %r10
	movzbl	(%rsi,%r10), %esi
	xorb	(%r8,%r9), %sil
	movzbl	%sil, %esi
	movd	%esi, %xmm9
	pxor	%xmm1, %xmm9
	pshufb	l_gcm_v2_CPI4_5(%rip), %xmm1           # xmm1 = xmm1[13,14,15,12,13,14,15,12,13,14,15,12,13,14,15,12]
	movdqa	%xmm1, %xmm6
	psrlw	$4, %xmm6
	pand	%xmm0, %xmm6
	pand	%xmm0, %xmm1
	movdqa	%xmm6, %xmm7
	pxor	%xmm1, %xmm7
	movdqa	l_gcm_v2_CPI4_6(%rip), %xmm5           # xmm5 = [128,2,1,15,9,5,14,12,13,4,11,10,7,8,6,3]
	movdqa	%xmm5, %xmm8
	pshufb	%xmm1, %xmm8
	movdqa	l_gcm_v2_CPI4_7(%rip), %xmm4           # xmm4 = [128,1,9,14,13,11,7,6,15,2,12,5,10,4,3,8]
	movdqa	%xmm4, %xmm1
	pshufb	%xmm6, %xmm1
	movdqa	%xmm4, %xmm10
	pshufb	%xmm7, %xmm10
	pxor	%xmm8, %xmm1
	pxor	%xmm8, %xmm10
	movdqa	%xmm4, %xmm8
	pshufb	%xmm1, %xmm8
	movdqa	%xmm4, %xmm1
	pshufb	%xmm10, %xmm1
	pxor	%xmm7, %xmm8
	pxor	%xmm6, %xmm1
	movdqa	l_gcm_v2_CPI4_8(%rip), %xmm6           # xmm6 = [0,195,79,12,252,124,67,128,207,51,63,112,191,179,240,140]
	movdqa	%xmm6, %xmm10
	pshufb	%xmm8, %xmm10
	movdqa	l_gcm_v2_CPI4_9(%rip), %xmm7           # xmm7 = [0,230,114,183,229,198,197,35,81,180,3,113,32,151,82,148]
	movdqa	%xmm7, %xmm11
	pshufb	%xmm1, %xmm11
	pxor	%xmm10, %xmm11
	movdqa	%xmm9, %xmm8
	pslldq	$4, %xmm8                       # xmm8 = zero,zero,zero,zero,xmm8[0,1,2,3,4,5,6,7,8,9,10,11]
	pxor	%xmm9, %xmm8
	pxor	%xmm8, %xmm11
	pslldq	$8, %xmm8                       # xmm8 = zero,zero,zero,zero,zero,zero,zero,zero,xmm8[0,1,2,3,4,5,6,7]
	pxor	%xmm11, %xmm8
	movdqa	l_gcm_v2_CPI4_10(%rip), %xmm9          # xmm9 = [110,110,110,110,110,110,110,110,110,110,110,110,110,110,110,110]
	movdqa	%xmm8, %xmm1
	pxor	%xmm9, %xmm1
	movl	%edx, %esi
	andl	$48, %esi
	leaq	l_gcm_v2_static.3(%rip), %r8
	movdqu	(%rsi,%r8), %xmm10
	movdqa	%xmm1, %xmm11
	pshufb	%xmm10, %xmm11
	pxor	%xmm9, %xmm11
	movdqu	%xmm11, (%rax)
	incq	%rcx
	addq	$48, %rdx
	addq	$16, %rax
	cmpq	$480, %rdx                      # imm = 0x1E0
	jne	Lgcm_v2_BB4_3
# %bb.4:                                # %"aes_permute::lane_keys::stored_key.exit.peel"
	pshufb	l_gcm_v2_CPI4_5(%rip), %xmm1           # xmm1 = xmm1[13,14,15,12,13,14,15,12,13,14,15,12,13,14,15,12]
	movdqa	%xmm1, %xmm9
	psrlw	$4, %xmm9
	pand	%xmm0, %xmm9
	movdqa	%xmm4, %xmm10
	pshufb	%xmm9, %xmm10
	pand	%xmm0, %xmm1
	pshufb	%xmm1, %xmm5
	pxor	%xmm5, %xmm10
	movdqa	%xmm4, %xmm11
	pshufb	%xmm10, %xmm11
	pxor	%xmm9, %xmm1
	pxor	%xmm1, %xmm11
	pshufb	%xmm11, %xmm6
	movdqa	%xmm4, %xmm10
	pshufb	%xmm1, %xmm10
	pxor	%xmm5, %xmm10
	pshufb	%xmm10, %xmm4
	pxor	%xmm9, %xmm4
	pshufb	%xmm4, %xmm7
	pxor	l_gcm_v2_CPI4_16(%rip), %xmm8
	movdqa	%xmm8, %xmm1
	pslldq	$4, %xmm1                       # xmm1 = zero,zero,zero,zero,xmm1[0,1,2,3,4,5,6,7,8,9,10,11]
	pxor	%xmm8, %xmm1
	movdqa	%xmm1, %xmm4
	pslldq	$8, %xmm4                       # xmm4 = zero,zero,zero,zero,zero,zero,zero,zero,xmm4[0,1,2,3,4,5,6,7]
	pxor	%xmm6, %xmm4
	pxor	%xmm7, %xmm4
	pxor	%xmm1, %xmm4
	pxor	l_gcm_v2_CPI4_10(%rip), %xmm4
	movdqa	%xmm4, %xmm1
	pand	%xmm0, %xmm1
	pshufb	%xmm1, %xmm2
	psrlw	$4, %xmm4
	pand	%xmm0, %xmm4
	pshufb	%xmm4, %xmm3
	pxor	%xmm2, %xmm3
	pxor	l_gcm_v2_CPI4_15(%rip), %xmm3
	movdqu	%xmm3, 160(%rdi)
	retq
Lgcm_v2_BB4_5:                                # %then.4.i
	movq	8(%rsi), %xmm4                  # xmm4 = mem[0],zero
	movq	16(%rsi), %xmm5                 # xmm5 = mem[0],zero
	punpcklqdq	%xmm5, %xmm4            # xmm4 = xmm4[0],xmm5[0]
	movdqa	%xmm4, %xmm5
	pand	%xmm0, %xmm5
	pshufb	%xmm5, %xmm3
	psrlw	$4, %xmm4
	pand	%xmm0, %xmm4
	pshufb	%xmm4, %xmm2
	pxor	%xmm3, %xmm2
	movdqa	%xmm1, %xmm4
	pand	%xmm0, %xmm4
	movdqa	l_gcm_v2_CPI4_3(%rip), %xmm3           # xmm3 = [0,1,92,93,224,225,188,189,80,81,12,13,176,177,236,237]
	movdqa	%xmm3, %xmm5
	pshufb	%xmm4, %xmm5
	movdqa	%xmm1, %xmm6
	psrlw	$4, %xmm6
	pand	%xmm0, %xmm6
	movdqa	l_gcm_v2_CPI4_4(%rip), %xmm4           # xmm4 = [0,178,181,7,58,136,143,61,172,30,25,171,150,36,35,145]
	movdqa	%xmm4, %xmm7
	pshufb	%xmm6, %xmm7
	pxor	%xmm5, %xmm7
	movdqu	%xmm7, (%rdi)
	leaq	48(%rdi), %rax
	movl	$96, %ecx
	xorl	%edx, %edx
	.p2align	4
Lgcm_v2_BB4_6:                                # %join.5.i596
                                        # =>This Inner Loop Header: Depth=1
	leaq	l_gcm_v2_static.0(%rip), %rsi
	movzbl	(%rdx,%rsi), %r10d
	movdqa	l_gcm_v2_CPI4_5(%rip), %xmm9           # xmm9 = [13,14,15,12,13,14,15,12,13,14,15,12,13,14,15,12]
	movdqa	%xmm2, %xmm5
	pshufb	%xmm9, %xmm5
	movdqa	%xmm5, %xmm7
	psrlw	$4, %xmm7
	pand	%xmm0, %xmm7
	pand	%xmm0, %xmm5
	movdqa	%xmm7, %xmm8
	pxor	%xmm5, %xmm8
	movdqa	l_gcm_v2_CPI4_6(%rip), %xmm6           # xmm6 = [128,2,1,15,9,5,14,12,13,4,11,10,7,8,6,3]
	movdqa	%xmm6, %xmm10
	pshufb	%xmm5, %xmm10
	movdqa	l_gcm_v2_CPI4_7(%rip), %xmm5           # xmm5 = [128,1,9,14,13,11,7,6,15,2,12,5,10,4,3,8]
	movdqa	%xmm5, %xmm11
	pshufb	%xmm7, %xmm11
	movdqa	%xmm5, %xmm12
	pshufb	%xmm8, %xmm12
	pxor	%xmm10, %xmm11
	pxor	%xmm10, %xmm12
	movdqa	%xmm5, %xmm10
	pshufb	%xmm11, %xmm10
	movdqa	%xmm5, %xmm11
	pshufb	%xmm12, %xmm11
	pxor	%xmm8, %xmm10
	pxor	%xmm7, %xmm11
	movdqa	l_gcm_v2_CPI4_8(%rip), %xmm7           # xmm7 = [0,195,79,12,252,124,67,128,207,51,63,112,191,179,240,140]
	movdqa	%xmm7, %xmm12
	pshufb	%xmm10, %xmm12
	movdqa	l_gcm_v2_CPI4_9(%rip), %xmm8           # xmm8 = [0,230,114,183,229,198,197,35,81,180,3,113,32,151,82,148]
	movdqa	%xmm8, %xmm10
	pshufb	%xmm11, %xmm10
	pxor	%xmm12, %xmm10
	movl	%r10d, %r11d
	andl	$15, %r11d
	leaq	l_gcm_v2_static.1(%rip), %r8
	shrl	$4, %r10d
	leaq	l_gcm_v2_static.2(%rip), %r9
	movzbl	(%r10,%r9), %r10d
	xorb	(%r11,%r8), %r10b
	movzbl	%r10b, %r10d
	movd	%r10d, %xmm11
	pxor	%xmm1, %xmm11
	movdqa	%xmm11, %xmm1
	pslldq	$4, %xmm1                       # xmm1 = zero,zero,zero,zero,xmm1[0,1,2,3,4,5,6,7,8,9,10,11]
	pxor	%xmm11, %xmm1
	pxor	%xmm1, %xmm10
	pslldq	$8, %xmm1                       # xmm1 = zero,zero,zero,zero,zero,zero,zero,zero,xmm1[0,1,2,3,4,5,6,7]
	pxor	%xmm10, %xmm1
	movdqa	l_gcm_v2_CPI4_10(%rip), %xmm10         # xmm10 = [110,110,110,110,110,110,110,110,110,110,110,110,110,110,110,110]
	pxor	%xmm10, %xmm1
	pshufd	$85, %xmm1, %xmm12              # xmm12 = xmm1[1,1,1,1]
	movdqa	%xmm2, %xmm13
	pslldq	$4, %xmm13                      # xmm13 = zero,zero,zero,zero,xmm13[0,1,2,3,4,5,6,7,8,9,10,11]
	pxor	%xmm2, %xmm13
	movdqa	%xmm13, %xmm11
	pslldq	$8, %xmm11                      # xmm11 = zero,zero,zero,zero,zero,zero,zero,zero,xmm11[0,1,2,3,4,5,6,7]
	pxor	%xmm13, %xmm11
	pxor	%xmm12, %xmm11
	movdqa	%xmm1, %xmm12
	palignr	$8, %xmm2, %xmm12               # xmm12 = xmm2[8,9,10,11,12,13,14,15],xmm12[0,1,2,3,4,5,6,7]
	leal	-48(%rcx), %r11d
	andl	$48, %r11d
	leaq	l_gcm_v2_static.3(%rip), %r10
	movdqu	(%r11,%r10), %xmm2
	pshufb	%xmm2, %xmm12
	pxor	%xmm10, %xmm12
	movdqu	%xmm12, -32(%rax)
	movl	%ecx, %r11d
	andl	$48, %r11d
	movdqu	(%r11,%r10), %xmm12
	movdqa	%xmm11, %xmm2
	movdqa	%xmm11, %xmm13
	pslldq	$4, %xmm13                      # xmm13 = zero,zero,zero,zero,xmm13[0,1,2,3,4,5,6,7,8,9,10,11]
	pxor	%xmm11, %xmm13
	pshufb	%xmm12, %xmm11
	pxor	%xmm10, %xmm11
	movdqu	%xmm11, -16(%rax)
	movzbl	1(%rdx,%rsi), %esi
	pshufb	%xmm9, %xmm2
	movdqa	%xmm2, %xmm11
	psrlw	$4, %xmm11
	pand	%xmm0, %xmm11
	pand	%xmm0, %xmm2
	movdqa	%xmm11, %xmm12
	pxor	%xmm2, %xmm12
	movdqa	%xmm6, %xmm14
	pshufb	%xmm2, %xmm14
	movdqa	%xmm5, %xmm2
	pshufb	%xmm11, %xmm2
	movdqa	%xmm5, %xmm15
	pshufb	%xmm12, %xmm15
	pxor	%xmm14, %xmm2
	pxor	%xmm14, %xmm15
	movdqa	%xmm5, %xmm14
	pshufb	%xmm2, %xmm14
	movdqa	%xmm5, %xmm2
	pshufb	%xmm15, %xmm2
	pxor	%xmm12, %xmm14
	pxor	%xmm11, %xmm2
	movdqa	%xmm7, %xmm12
	pshufb	%xmm14, %xmm12
	movdqa	%xmm8, %xmm14
	movl	%esi, %r11d
	andl	$15, %r11d
	shrl	$4, %esi
	movzbl	(%rsi,%r9), %esi
	xorb	(%r11,%r8), %sil
	pshufb	%xmm2, %xmm14
	movzbl	%sil, %esi
	movd	%esi, %xmm2
	pxor	%xmm1, %xmm2
	movdqa	%xmm2, %xmm1
	pslldq	$4, %xmm1                       # xmm1 = zero,zero,zero,zero,xmm1[0,1,2,3,4,5,6,7,8,9,10,11]
	pxor	%xmm2, %xmm1
	movdqa	%xmm1, %xmm11
	pslldq	$8, %xmm11                      # xmm11 = zero,zero,zero,zero,zero,zero,zero,zero,xmm11[0,1,2,3,4,5,6,7]
	pxor	%xmm12, %xmm11
	pxor	%xmm14, %xmm11
	pxor	%xmm1, %xmm11
	movdqa	%xmm11, %xmm1
	pxor	%xmm10, %xmm1
	pshufd	$85, %xmm1, %xmm12              # xmm12 = xmm1[1,1,1,1]
	movdqa	%xmm13, %xmm2
	pslldq	$8, %xmm2                       # xmm2 = zero,zero,zero,zero,zero,zero,zero,zero,xmm2[0,1,2,3,4,5,6,7]
	pxor	%xmm13, %xmm2
	pxor	%xmm12, %xmm2
	movdqu	16(%r10,%rdx,8), %xmm12
	movdqa	%xmm1, %xmm13
	pshufb	%xmm12, %xmm13
	pxor	%xmm10, %xmm13
	movdqu	%xmm13, (%rax)
	addq	$144, %rcx
	addq	$2, %rdx
	addq	$48, %rax
	cmpq	$528, %rcx                      # imm = 0x210
	jne	Lgcm_v2_BB4_6
# %bb.7:                                # %join.5.i596.peel
	movdqa	%xmm2, %xmm1
	pshufb	%xmm9, %xmm1
	movdqa	%xmm1, %xmm12
	psrlw	$4, %xmm12
	pand	%xmm0, %xmm12
	pand	%xmm0, %xmm1
	movdqa	%xmm12, %xmm13
	pxor	%xmm1, %xmm13
	movdqa	%xmm6, %xmm14
	pshufb	%xmm1, %xmm14
	movdqa	%xmm5, %xmm1
	pshufb	%xmm12, %xmm1
	movdqa	%xmm5, %xmm15
	pshufb	%xmm13, %xmm15
	pxor	%xmm14, %xmm1
	pxor	%xmm14, %xmm15
	movdqa	%xmm5, %xmm14
	pshufb	%xmm1, %xmm14
	movdqa	%xmm5, %xmm1
	pshufb	%xmm15, %xmm1
	pxor	%xmm13, %xmm14
	pxor	%xmm12, %xmm1
	movdqa	%xmm7, %xmm12
	pshufb	%xmm14, %xmm12
	movdqa	%xmm8, %xmm13
	pshufb	%xmm1, %xmm13
	pxor	l_gcm_v2_CPI4_11(%rip), %xmm11
	movdqa	%xmm11, %xmm14
	pslldq	$4, %xmm14                      # xmm14 = zero,zero,zero,zero,xmm14[0,1,2,3,4,5,6,7,8,9,10,11]
	pxor	%xmm11, %xmm14
	movdqa	%xmm14, %xmm1
	pslldq	$8, %xmm1                       # xmm1 = zero,zero,zero,zero,zero,zero,zero,zero,xmm1[0,1,2,3,4,5,6,7]
	pxor	%xmm12, %xmm1
	pxor	%xmm13, %xmm1
	pxor	%xmm14, %xmm1
	movdqa	%xmm1, %xmm12
	pxor	%xmm10, %xmm12
	pshufd	$85, %xmm12, %xmm13             # xmm13 = xmm12[1,1,1,1]
	movdqa	%xmm2, %xmm14
	pslldq	$4, %xmm14                      # xmm14 = zero,zero,zero,zero,xmm14[0,1,2,3,4,5,6,7,8,9,10,11]
	pxor	%xmm2, %xmm14
	movdqa	%xmm14, %xmm11
	pslldq	$8, %xmm11                      # xmm11 = zero,zero,zero,zero,zero,zero,zero,zero,xmm11[0,1,2,3,4,5,6,7]
	pxor	%xmm14, %xmm11
	pxor	%xmm13, %xmm11
	palignr	$8, %xmm2, %xmm12               # xmm12 = xmm2[8,9,10,11,12,13,14,15],xmm12[0,1,2,3,4,5,6,7]
	pshufb	l_gcm_v2_CPI4_12(%rip), %xmm12         # xmm12 = xmm12[0,9,2,11,4,13,6,15,8,1,10,3,12,5,14,7]
	pxor	%xmm10, %xmm12
	movdqa	%xmm11, %xmm2
	pshufb	l_gcm_v2_CPI4_13(%rip), %xmm2          # xmm2 = xmm2[0,5,10,15,4,9,14,3,8,13,2,7,12,1,6,11]
	movdqu	%xmm12, 160(%rdi)
	pxor	%xmm10, %xmm2
	movdqu	%xmm2, 176(%rdi)
	pshufb	%xmm9, %xmm11
	movdqa	%xmm11, %xmm2
	psrlw	$4, %xmm2
	pand	%xmm0, %xmm2
	movdqa	%xmm5, %xmm9
	pshufb	%xmm2, %xmm9
	pand	%xmm0, %xmm11
	pshufb	%xmm11, %xmm6
	pxor	%xmm6, %xmm9
	movdqa	%xmm5, %xmm12
	pshufb	%xmm9, %xmm12
	pxor	%xmm2, %xmm11
	pxor	%xmm11, %xmm12
	pshufb	%xmm12, %xmm7
	movdqa	%xmm5, %xmm9
	pshufb	%xmm11, %xmm9
	pxor	%xmm6, %xmm9
	pshufb	%xmm9, %xmm5
	pxor	%xmm2, %xmm5
	pxor	l_gcm_v2_CPI4_14(%rip), %xmm1
	pshufb	%xmm5, %xmm8
	movdqa	%xmm1, %xmm2
	pslldq	$4, %xmm2                       # xmm2 = zero,zero,zero,zero,xmm2[0,1,2,3,4,5,6,7,8,9,10,11]
	pxor	%xmm1, %xmm2
	movdqa	%xmm2, %xmm1
	pslldq	$8, %xmm1                       # xmm1 = zero,zero,zero,zero,zero,zero,zero,zero,xmm1[0,1,2,3,4,5,6,7]
	pxor	%xmm7, %xmm1
	pxor	%xmm8, %xmm1
	pxor	%xmm10, %xmm2
	pxor	%xmm1, %xmm2
	movdqa	%xmm2, %xmm1
	pand	%xmm0, %xmm1
	pshufb	%xmm1, %xmm3
	psrlw	$4, %xmm2
	pand	%xmm0, %xmm2
	pshufb	%xmm2, %xmm4
	pxor	%xmm3, %xmm4
	pxor	l_gcm_v2_CPI4_15(%rip), %xmm4
	movdqu	%xmm4, 192(%rdi)
	retq
Lgcm_v2_BB4_8:                                # %else.5.i
	movdqu	16(%rsi), %xmm4
	movdqa	%xmm4, %xmm5
	pand	%xmm0, %xmm5
	pshufb	%xmm5, %xmm3
	psrlw	$4, %xmm4
	pand	%xmm0, %xmm4
	pshufb	%xmm4, %xmm2
	pxor	%xmm3, %xmm2
	movdqa	%xmm1, %xmm4
	pand	%xmm0, %xmm4
	movdqa	l_gcm_v2_CPI4_3(%rip), %xmm3           # xmm3 = [0,1,92,93,224,225,188,189,80,81,12,13,176,177,236,237]
	movdqa	%xmm3, %xmm5
	pshufb	%xmm4, %xmm5
	movdqa	%xmm1, %xmm6
	psrlw	$4, %xmm6
	pand	%xmm0, %xmm6
	movdqa	l_gcm_v2_CPI4_4(%rip), %xmm4           # xmm4 = [0,178,181,7,58,136,143,61,172,30,25,171,150,36,35,145]
	movdqa	%xmm4, %xmm7
	pshufb	%xmm6, %xmm7
	pxor	%xmm5, %xmm7
	movdqu	%xmm7, (%rdi)
	movdqa	%xmm2, %xmm5
	pshufb	l_gcm_v2_CPI4_17(%rip), %xmm5          # xmm5 = xmm5[0,13,10,7,4,1,14,11,8,5,2,15,12,9,6,3]
	pxor	l_gcm_v2_CPI4_10(%rip), %xmm5
	movdqu	%xmm5, 16(%rdi)
	leaq	48(%rdi), %rax
	movl	$144, %ecx
	leaq	l_gcm_v2_static.0(%rip), %rdx
	.p2align	4
Lgcm_v2_BB4_9:                                # %join.5.i643
                                        # =>This Inner Loop Header: Depth=1
	movzbl	(%rdx), %esi
	movdqa	%xmm2, %xmm10
	pslldq	$4, %xmm10                      # xmm10 = zero,zero,zero,zero,xmm10[0,1,2,3,4,5,6,7,8,9,10,11]
	pxor	%xmm2, %xmm10
	pshufb	l_gcm_v2_CPI4_5(%rip), %xmm2           # xmm2 = xmm2[13,14,15,12,13,14,15,12,13,14,15,12,13,14,15,12]
	movdqa	%xmm2, %xmm6
	psrlw	$4, %xmm6
	pand	%xmm0, %xmm6
	pand	%xmm0, %xmm2
	movdqa	%xmm6, %xmm7
	pxor	%xmm2, %xmm7
	movdqa	l_gcm_v2_CPI4_6(%rip), %xmm8           # xmm8 = [128,2,1,15,9,5,14,12,13,4,11,10,7,8,6,3]
	movdqa	%xmm8, %xmm9
	pshufb	%xmm2, %xmm9
	movdqa	l_gcm_v2_CPI4_7(%rip), %xmm5           # xmm5 = [128,1,9,14,13,11,7,6,15,2,12,5,10,4,3,8]
	movdqa	%xmm5, %xmm2
	pshufb	%xmm6, %xmm2
	movdqa	%xmm5, %xmm11
	pshufb	%xmm7, %xmm11
	pxor	%xmm9, %xmm2
	pxor	%xmm9, %xmm11
	movdqa	%xmm5, %xmm9
	pshufb	%xmm2, %xmm9
	movdqa	%xmm5, %xmm2
	pshufb	%xmm11, %xmm2
	pxor	%xmm7, %xmm9
	pxor	%xmm6, %xmm2
	movdqa	l_gcm_v2_CPI4_8(%rip), %xmm6           # xmm6 = [0,195,79,12,252,124,67,128,207,51,63,112,191,179,240,140]
	movdqa	%xmm6, %xmm11
	pshufb	%xmm9, %xmm11
	movdqa	l_gcm_v2_CPI4_9(%rip), %xmm7           # xmm7 = [0,230,114,183,229,198,197,35,81,180,3,113,32,151,82,148]
	movdqa	%xmm7, %xmm12
	pshufb	%xmm2, %xmm12
	movl	%esi, %r8d
	andl	$15, %r8d
	leaq	l_gcm_v2_static.1(%rip), %r9
	shrl	$4, %esi
	leaq	l_gcm_v2_static.2(%rip), %r10
	movzbl	(%rsi,%r10), %esi
	xorb	(%r8,%r9), %sil
	pxor	%xmm11, %xmm12
	movzbl	%sil, %esi
	movd	%esi, %xmm2
	pxor	%xmm1, %xmm2
	movdqa	%xmm2, %xmm9
	pslldq	$4, %xmm9                       # xmm9 = zero,zero,zero,zero,xmm9[0,1,2,3,4,5,6,7,8,9,10,11]
	pxor	%xmm2, %xmm9
	pxor	%xmm9, %xmm12
	pslldq	$8, %xmm9                       # xmm9 = zero,zero,zero,zero,zero,zero,zero,zero,xmm9[0,1,2,3,4,5,6,7]
	pxor	%xmm12, %xmm9
	movdqa	l_gcm_v2_CPI4_10(%rip), %xmm11         # xmm11 = [110,110,110,110,110,110,110,110,110,110,110,110,110,110,110,110]
	movdqa	%xmm9, %xmm1
	pxor	%xmm11, %xmm1
	leal	-48(%rcx), %r8d
	andl	$32, %r8d
	leaq	l_gcm_v2_static.3(%rip), %rsi
	movdqu	(%r8,%rsi), %xmm2
	movdqa	%xmm1, %xmm12
	pshufb	%xmm2, %xmm12
	pxor	%xmm11, %xmm12
	movdqu	%xmm12, -16(%rax)
	pshufd	$255, %xmm1, %xmm2              # xmm2 = xmm1[3,3,3,3]
	movdqa	%xmm2, %xmm12
	psrlw	$4, %xmm12
	pand	%xmm0, %xmm12
	pand	%xmm0, %xmm2
	movdqa	%xmm12, %xmm13
	pxor	%xmm2, %xmm13
	movdqa	%xmm8, %xmm14
	pshufb	%xmm2, %xmm14
	movdqa	%xmm5, %xmm2
	pshufb	%xmm12, %xmm2
	movdqa	%xmm5, %xmm15
	pshufb	%xmm13, %xmm15
	pxor	%xmm14, %xmm2
	pxor	%xmm14, %xmm15
	movdqa	%xmm5, %xmm14
	pshufb	%xmm2, %xmm14
	movdqa	%xmm5, %xmm2
	pshufb	%xmm15, %xmm2
	pxor	%xmm13, %xmm14
	pxor	%xmm12, %xmm2
	movdqa	%xmm6, %xmm12
	pshufb	%xmm14, %xmm12
	movdqa	%xmm7, %xmm13
	pshufb	%xmm2, %xmm13
	movdqa	%xmm10, %xmm14
	pslldq	$8, %xmm14                      # xmm14 = zero,zero,zero,zero,zero,zero,zero,zero,xmm14[0,1,2,3,4,5,6,7]
	pxor	%xmm12, %xmm14
	pxor	%xmm13, %xmm14
	pxor	%xmm11, %xmm10
	movdqa	%xmm10, %xmm2
	pxor	%xmm14, %xmm2
	movl	%ecx, %r8d
	andl	$48, %r8d
	movdqu	(%r8,%rsi), %xmm10
	movdqa	%xmm2, %xmm12
	pshufb	%xmm10, %xmm12
	pxor	%xmm11, %xmm12
	movdqu	%xmm12, (%rax)
	addq	$96, %rcx
	incq	%rdx
	addq	$32, %rax
	cmpq	$720, %rcx                      # imm = 0x2D0
	jne	Lgcm_v2_BB4_9
# %bb.10:                               # %"aes_planes::expansion::expand_256::<#05c2c6c54e82e59f>.exit"
	pshufb	l_gcm_v2_CPI4_5(%rip), %xmm2           # xmm2 = xmm2[13,14,15,12,13,14,15,12,13,14,15,12,13,14,15,12]
	movdqa	%xmm2, %xmm1
	psrlw	$4, %xmm1
	pand	%xmm0, %xmm1
	pand	%xmm0, %xmm2
	movdqa	%xmm1, %xmm10
	pxor	%xmm2, %xmm10
	pshufb	%xmm2, %xmm8
	movdqa	%xmm5, %xmm2
	pshufb	%xmm1, %xmm2
	movdqa	%xmm5, %xmm11
	pshufb	%xmm10, %xmm11
	pxor	%xmm8, %xmm2
	pxor	%xmm8, %xmm11
	movdqa	%xmm5, %xmm8
	pshufb	%xmm2, %xmm8
	pshufb	%xmm11, %xmm5
	pxor	%xmm10, %xmm8
	pxor	%xmm1, %xmm5
	pshufb	%xmm8, %xmm6
	pshufb	%xmm5, %xmm7
	pxor	l_gcm_v2_CPI4_11(%rip), %xmm9
	movdqa	%xmm9, %xmm1
	pslldq	$4, %xmm1                       # xmm1 = zero,zero,zero,zero,xmm1[0,1,2,3,4,5,6,7,8,9,10,11]
	pxor	%xmm9, %xmm1
	movdqa	%xmm1, %xmm2
	pslldq	$8, %xmm2                       # xmm2 = zero,zero,zero,zero,zero,zero,zero,zero,xmm2[0,1,2,3,4,5,6,7]
	pxor	%xmm6, %xmm2
	pxor	%xmm7, %xmm2
	pxor	%xmm1, %xmm2
	pxor	l_gcm_v2_CPI4_10(%rip), %xmm2
	movdqa	%xmm2, %xmm1
	pand	%xmm0, %xmm1
	pshufb	%xmm1, %xmm3
	psrlw	$4, %xmm2
	pand	%xmm0, %xmm2
	pshufb	%xmm2, %xmm4
	pxor	%xmm3, %xmm4
	pxor	l_gcm_v2_CPI4_15(%rip), %xmm4
	movdqu	%xmm4, 224(%rdi)
	retq
                                        # -- End function
	.section	__TEXT,__const
	.p2align	4, 0x0                          # -- Begin function gcm::mode::BorrowedGcm::put_pre_counter::<#c13ce517942629d6>
l_gcm_v2_CPI5_0:
	.byte	0                               # 0x0
	.byte	0                               # 0x0
	.byte	0                               # 0x0
	.byte	0                               # 0x0
	.byte	0                               # 0x0
	.byte	0                               # 0x0
	.byte	255                             # 0xff
	.byte	0                               # 0x0
	.byte	0                               # 0x0
	.byte	0                               # 0x0
	.byte	0                               # 0x0
	.byte	0                               # 0x0
	.byte	0                               # 0x0
	.byte	255                             # 0xff
	.byte	0                               # 0x0
	.byte	0                               # 0x0
l_gcm_v2_CPI5_1:
	.byte	0                               # 0x0
	.byte	0                               # 0x0
	.byte	0                               # 0x0
	.byte	0                               # 0x0
	.byte	255                             # 0xff
	.byte	0                               # 0x0
	.byte	0                               # 0x0
	.byte	0                               # 0x0
	.byte	255                             # 0xff
	.byte	255                             # 0xff
	.byte	255                             # 0xff
	.byte	255                             # 0xff
	.byte	255                             # 0xff
	.byte	255                             # 0xff
	.byte	255                             # 0xff
	.byte	255                             # 0xff
l_gcm_v2_CPI5_2:
	.byte	128                             # 0x80
	.byte	128                             # 0x80
	.byte	128                             # 0x80
	.byte	4                               # 0x4
	.byte	128                             # 0x80
	.byte	128                             # 0x80
	.byte	128                             # 0x80
	.byte	128                             # 0x80
	.byte	128                             # 0x80
	.byte	128                             # 0x80
	.byte	13                              # 0xd
	.byte	128                             # 0x80
	.byte	128                             # 0x80
	.byte	128                             # 0x80
	.byte	128                             # 0x80
	.byte	128                             # 0x80
l_gcm_v2_CPI5_3:
	.byte	128                             # 0x80
	.byte	6                               # 0x6
	.byte	128                             # 0x80
	.byte	128                             # 0x80
	.byte	128                             # 0x80
	.byte	128                             # 0x80
	.byte	128                             # 0x80
	.byte	128                             # 0x80
	.byte	15                              # 0xf
	.byte	128                             # 0x80
	.byte	128                             # 0x80
	.byte	128                             # 0x80
	.byte	128                             # 0x80
	.byte	128                             # 0x80
	.byte	128                             # 0x80
	.byte	128                             # 0x80
l_gcm_v2_CPI5_4:
	.byte	15                              # 0xf
	.byte	14                              # 0xe
	.byte	13                              # 0xd
	.byte	12                              # 0xc
	.byte	11                              # 0xb
	.byte	10                              # 0xa
	.byte	9                               # 0x9
	.byte	8                               # 0x8
	.byte	7                               # 0x7
	.byte	6                               # 0x6
	.byte	5                               # 0x5
	.byte	4                               # 0x4
	.byte	3                               # 0x3
	.byte	2                               # 0x2
	.byte	1                               # 0x1
	.byte	0                               # 0x0
l_gcm_v2_CPI5_5:
	.byte	15                              # 0xf
	.byte	14                              # 0xe
	.byte	13                              # 0xd
	.byte	12                              # 0xc
	.byte	11                              # 0xb
	.byte	10                              # 0xa
	.byte	9                               # 0x9
	.byte	8                               # 0x8
	.zero	1
	.zero	1
	.zero	1
	.zero	1
	.zero	1
	.zero	1
	.zero	1
	.zero	1
l_gcm_v2_CPI5_6:
	.byte	7                               # 0x7
	.byte	6                               # 0x6
	.byte	5                               # 0x5
	.byte	4                               # 0x4
	.zero	1
	.zero	1
	.zero	1
	.zero	1
	.zero	1
	.zero	1
	.zero	1
	.zero	1
	.zero	1
	.zero	1
	.zero	1
	.zero	1
	.section	__TEXT,__text,regular,pure_instructions
	.p2align	4
_gcm_v2.gcm.mode.BorrowedGcm.put_pre_counter: # @_gcm_v2.gcm.mode.BorrowedGcm.put_pre_counter
# %bb.0:                                # %start
	pushq	%r15
	pushq	%r14
	pushq	%rbx
	subq	$32, %rsp
	movq	%rcx, %rbx
	movq	%rsi, %rcx
	cmpq	$12, %rdx
	jne	Lgcm_v2_BB5_2
# %bb.1:                                # %then.1
	movb	$0, 14(%rsp)
	movw	$0, 12(%rsp)
	movl	8(%rcx), %eax
	movl	%eax, 8(%rsp)
	movq	(%rcx), %rax
	movq	%rax, (%rsp)
	movq	%rax, 16(%rsp)
	movq	7(%rsp), %rax
	movq	%rax, 23(%rsp)
	movq	16(%rsp), %rax
	movq	23(%rsp), %rcx
	movq	%rcx, 7(%rbx)
	movq	%rax, (%rbx)
	movb	$1, %al
	jmp	Lgcm_v2_BB5_3
Lgcm_v2_BB5_2:                                # %else.2
	movq	%rdx, %r14
	movq	32(%rdi), %rax
	movq	%rdi, %r15
	movq	%rax, %rdi
	xorl	%esi, %esi
	xorl	%edx, %edx
	movq	%r14, %r8
	callq	_gcm_v2.gcm.hash_room.MultiplesRoomHashRoom.hash_on
	movq	32(%r15), %rsi
	movq	%r14, %xmm1
	pshufd	$68, %xmm1, %xmm0               # xmm0 = xmm1[0,1,0,1]
	movdqa	%xmm1, %xmm2
	psllq	$11, %xmm2
	movdqa	%xmm0, %xmm3
	psllq	$59, %xmm3
	pblendw	$15, %xmm2, %xmm3               # xmm3 = xmm2[0,1,2,3],xmm3[4,5,6,7]
	psllq	$43, %xmm1
	movdqa	%xmm0, %xmm2
	psllq	$27, %xmm2
	pblendw	$15, %xmm1, %xmm2               # xmm2 = xmm1[0,1,2,3],xmm2[4,5,6,7]
	pand	l_gcm_v2_CPI5_0(%rip), %xmm2
	psllq	$3, %xmm0
	pand	l_gcm_v2_CPI5_1(%rip), %xmm3
	movdqa	%xmm0, %xmm1
	pshufb	l_gcm_v2_CPI5_2(%rip), %xmm1           # xmm1 = zero,zero,zero,xmm1[4],zero,zero,zero,zero,zero,zero,xmm1[13],zero,zero,zero,zero,zero
	pshufb	l_gcm_v2_CPI5_3(%rip), %xmm0           # xmm0 = zero,xmm0[6],zero,zero,zero,zero,zero,zero,xmm0[15],zero,zero,zero,zero,zero,zero,zero
	por	%xmm2, %xmm1
	por	%xmm3, %xmm0
	por	%xmm1, %xmm0
	pshufd	$238, %xmm0, %xmm1              # xmm1 = xmm0[2,3,2,3]
	por	%xmm0, %xmm1
	movq	%xmm1, %rcx
	bswapq	%rcx
	xorq	%rax, %rcx
	pxor	%xmm0, %xmm0
	movdqa	%xmm0, (%rsp)
	movq	%rcx, %xmm0
	movq	%rdx, %xmm1
	punpcklqdq	%xmm1, %xmm0            # xmm0 = xmm0[0],xmm1[0]
	pshufb	l_gcm_v2_CPI5_4(%rip), %xmm0           # xmm0 = xmm0[15,14,13,12,11,10,9,8,7,6,5,4,3,2,1,0]
	movq	%rsp, %rdi
	callq	_gcm_v2.gcm.multiples.Multiples.block_product
	movq	8(%rsp), %rax
	bswapq	%rax
	movq	(%rsp), %rcx
	bswapq	%rcx
	movq	%rcx, %xmm0
	movq	%rax, %xmm1
	punpcklqdq	%xmm0, %xmm1            # xmm1 = xmm1[0],xmm0[0]
	movl	%eax, %ecx
	shrl	$24, %ecx
	movl	%eax, %edx
	movdqa	%xmm1, %xmm0
	pshufb	l_gcm_v2_CPI5_5(%rip), %xmm0           # xmm0 = xmm0[15,14,13,12,11,10,9,8,u,u,u,u,u,u,u,u]
	shrl	$16, %edx
	movq	%xmm0, (%rbx)
	pshufb	l_gcm_v2_CPI5_6(%rip), %xmm1           # xmm1 = xmm1[7,6,5,4,u,u,u,u,u,u,u,u,u,u,u,u]
	movd	%xmm1, 8(%rbx)
	movb	%cl, 12(%rbx)
	movb	%dl, 13(%rbx)
	movb	%ah, 14(%rbx)
Lgcm_v2_BB5_3:                                # %join.3
	movb	%al, 15(%rbx)
	addq	$32, %rsp
	popq	%rbx
	popq	%r14
	popq	%r15
	retq
                                        # -- End function
	.section	__TEXT,__const
	.p2align	4, 0x0                          # -- Begin function gcm::hash_room::MultiplesRoomHashRoom::hash_on
l_gcm_v2_CPI6_0:
	.byte	15                              # 0xf
	.byte	14                              # 0xe
	.byte	13                              # 0xd
	.byte	12                              # 0xc
	.byte	11                              # 0xb
	.byte	10                              # 0xa
	.byte	9                               # 0x9
	.byte	8                               # 0x8
	.byte	7                               # 0x7
	.byte	6                               # 0x6
	.byte	5                               # 0x5
	.byte	4                               # 0x4
	.byte	3                               # 0x3
	.byte	2                               # 0x2
	.byte	1                               # 0x1
	.byte	0                               # 0x0
	.section	__TEXT,__text,regular,pure_instructions
	.p2align	4
_gcm_v2.gcm.hash_room.MultiplesRoomHashRoom.hash_on: # @_gcm_v2.gcm.hash_room.MultiplesRoomHashRoom.hash_on
# %bb.0:                                # %start
	pushq	%rbp
	pushq	%r15
	pushq	%r14
	pushq	%r13
	pushq	%r12
	pushq	%rbx
	subq	$56, %rsp
	movq	%r8, %r14
	movq	%rcx, %r15
	movq	%rdx, %xmm0
	movq	%rsi, %xmm1
	punpcklqdq	%xmm0, %xmm1            # xmm1 = xmm1[0],xmm0[0]
	pshufb	l_gcm_v2_CPI6_0(%rip), %xmm1           # xmm1 = xmm1[15,14,13,12,11,10,9,8,7,6,5,4,3,2,1,0]
	movq	%rdi, %rbx
	movdqa	%xmm1, (%rsp)
	movabsq	$-6148914691236517205, %rcx     # imm = 0xAAAAAAAAAAAAAAAB
	movq	%r8, %rax
	mulq	%rcx
	movq	%rdx, %r12
	shrq	$5, %r12
	movq	%r12, %rax
	shlq	$4, %rax
	leaq	(%rax,%rax,2), %r13
	cmpq	$48, %r8
	jb	Lgcm_v2_BB6_4
# %bb.1:                                # %join.5.i.preheader
	leaq	32(%r15), %rbp
	.p2align	4
Lgcm_v2_BB6_2:                                # %join.5.i
                                        # =>This Inner Loop Header: Depth=1
	movdqu	-32(%rbp), %xmm0
	movdqu	-16(%rbp), %xmm1
	movups	(%rbp), %xmm2
	pxor	(%rsp), %xmm0
	movq	%rsp, %rdi
	movq	%rbx, %rsi
	callq	_gcm_v2.gcm.multiples.Multiples.three_products
	addq	$48, %rbp
	decq	%r12
	jne	Lgcm_v2_BB6_2
# %bb.3:                                # %"gcm::hash::hash_threes::<#4e0b07d5b1f54653>.exit.loopexit"
	movdqa	(%rsp), %xmm1
Lgcm_v2_BB6_4:                                # %"gcm::hash::hash_threes::<#4e0b07d5b1f54653>.exit"
	pxor	%xmm0, %xmm0
	movdqa	%xmm0, 16(%rsp)
	cmpq	%r13, %r14
	je	Lgcm_v2_BB6_17
# %bb.5:                                # %join.3.i
	movq	%r14, %rdx
	subq	%r13, %rdx
	leaq	(%r15,%r13), %r12
	cmpq	$16, %rdx
	ja	Lgcm_v2_BB6_9
# %bb.6:                                # %then.4.i
	je	Lgcm_v2_BB6_8
# %bb.7:                                # %join.3.i133
	movdqa	%xmm0, (%rsp)
	movq	%rsp, %r14
	movq	%r14, %rdi
	movq	%r12, %rsi
	movdqa	%xmm1, 32(%rsp)                 # 16-byte Spill
	callq	*_memcpy@GOTPCREL(%rip)
	movdqa	32(%rsp), %xmm1                 # 16-byte Reload
	movq	%r14, %r12
Lgcm_v2_BB6_8:                                # %"gcm::hash::zero_filled.exit184"
	movdqu	(%r12), %xmm0
	pxor	%xmm1, %xmm0
	leaq	16(%rsp), %rdi
	movq	%rbx, %rsi
	callq	_gcm_v2.gcm.multiples.Multiples.block_product
	jmp	Lgcm_v2_BB6_16
Lgcm_v2_BB6_9:                                # %join.6.i
	movdqu	(%r12), %xmm0
	pxor	%xmm1, %xmm0
	cmpq	$32, %rdx
	ja	Lgcm_v2_BB6_13
# %bb.10:                               # %then.7.i
	leaq	(%r15,%r13), %rsi
	addq	$16, %rsi
	addq	$16, %r13
	subq	%r13, %r14
	cmpq	$16, %r14
	je	Lgcm_v2_BB6_12
# %bb.11:                               # %join.3.i79
	movdqa	%xmm0, 32(%rsp)                 # 16-byte Spill
	pxor	%xmm0, %xmm0
	movdqa	%xmm0, (%rsp)
	movq	%rsp, %r15
	movq	%r15, %rdi
	movq	%r14, %rdx
	callq	*_memcpy@GOTPCREL(%rip)
	movdqa	32(%rsp), %xmm0                 # 16-byte Reload
	movq	%r15, %rsi
Lgcm_v2_BB6_12:                               # %"gcm::hash::zero_filled.exit130"
	movdqu	(%rsi), %xmm1
	leaq	16(%rsp), %rdi
	movq	%rbx, %rsi
	callq	_gcm_v2.gcm.multiples.Multiples.two_products
	jmp	Lgcm_v2_BB6_16
Lgcm_v2_BB6_13:                               # %join.9.i
	leaq	(%r15,%r13), %rsi
	addq	$32, %rsi
	addq	$32, %r13
	subq	%r13, %r14
	cmpq	$16, %r14
	je	Lgcm_v2_BB6_15
# %bb.14:                               # %join.3.i71
	movdqa	%xmm0, 32(%rsp)                 # 16-byte Spill
	pxor	%xmm0, %xmm0
	movdqa	%xmm0, (%rsp)
	movq	%rsp, %r15
	movq	%r15, %rdi
	movq	%r14, %rdx
	callq	*_memcpy@GOTPCREL(%rip)
	movdqa	32(%rsp), %xmm0                 # 16-byte Reload
	movq	%r15, %rsi
Lgcm_v2_BB6_15:                               # %"gcm::hash::zero_filled.exit"
	movups	(%rsi), %xmm2
	movdqu	16(%r12), %xmm1
	leaq	16(%rsp), %rdi
	movq	%rbx, %rsi
	callq	_gcm_v2.gcm.multiples.Multiples.three_products
Lgcm_v2_BB6_16:                               # %"gcm::hash::hash_last_group::<#4e0b07d5b1f54653>.exit"
	movdqa	16(%rsp), %xmm1
Lgcm_v2_BB6_17:                               # %"gcm::hash::hash_last_group::<#4e0b07d5b1f54653>.exit"
	movq	%xmm1, %rdx
	pextrq	$1, %xmm1, %rax
	bswapq	%rax
	bswapq	%rdx
	addq	$56, %rsp
	popq	%rbx
	popq	%r12
	popq	%r13
	popq	%r14
	popq	%r15
	popq	%rbp
	retq
                                        # -- End function
	.section	__TEXT,__const
	.p2align	4, 0x0                          # -- Begin function gcm::multiples::Multiples::three_products
l_gcm_v2_CPI7_0:
	.zero	16,15
l_gcm_v2_CPI7_1:
	.byte	15                              # 0xf
	.byte	14                              # 0xe
	.byte	13                              # 0xd
	.byte	12                              # 0xc
	.byte	11                              # 0xb
	.byte	10                              # 0xa
	.byte	9                               # 0x9
	.byte	8                               # 0x8
	.byte	7                               # 0x7
	.byte	6                               # 0x6
	.byte	5                               # 0x5
	.byte	4                               # 0x4
	.byte	3                               # 0x3
	.byte	2                               # 0x2
	.byte	1                               # 0x1
	.byte	0                               # 0x0
	.section	__TEXT,__text,regular,pure_instructions
	.p2align	4
_gcm_v2.gcm.multiples.Multiples.three_products: # @_gcm_v2.gcm.multiples.Multiples.three_products
# %bb.0:                                # %start
	movdqa	l_gcm_v2_CPI7_0(%rip), %xmm3           # xmm3 = [15,15,15,15,15,15,15,15,15,15,15,15,15,15,15,15]
	movdqa	%xmm0, %xmm5
	pand	%xmm3, %xmm5
	psrlw	$4, %xmm0
	pand	%xmm3, %xmm0
	movdqa	%xmm1, %xmm6
	pand	%xmm3, %xmm6
	psrlw	$4, %xmm1
	pand	%xmm3, %xmm1
	movdqa	%xmm2, %xmm8
	pand	%xmm3, %xmm8
	psrlw	$4, %xmm2
	pand	%xmm3, %xmm2
	pxor	%xmm7, %xmm7
	xorl	%eax, %eax
	pxor	%xmm9, %xmm9
	pxor	%xmm4, %xmm4
	pxor	%xmm3, %xmm3
	.p2align	4
Lgcm_v2_BB7_1:                                # %join.5.i
                                        # =>This Inner Loop Header: Depth=1
	movdqu	1504(%rsi,%rax), %xmm10
	movdqu	1520(%rsi,%rax), %xmm11
	pshufb	%xmm5, %xmm10
	pshufb	%xmm5, %xmm11
	movdqu	1248(%rsi,%rax), %xmm12
	movdqu	1264(%rsi,%rax), %xmm13
	pshufb	%xmm0, %xmm12
	pxor	%xmm10, %xmm12
	pshufb	%xmm0, %xmm13
	pxor	%xmm11, %xmm13
	movdqu	992(%rsi,%rax), %xmm14
	movdqu	1008(%rsi,%rax), %xmm15
	pshufb	%xmm6, %xmm14
	pshufb	%xmm6, %xmm15
	movdqu	736(%rsi,%rax), %xmm11
	movdqu	752(%rsi,%rax), %xmm10
	pshufb	%xmm1, %xmm11
	pxor	%xmm14, %xmm11
	pxor	%xmm12, %xmm11
	pshufb	%xmm1, %xmm10
	pxor	%xmm15, %xmm10
	pxor	%xmm13, %xmm10
	movdqu	224(%rsi,%rax), %xmm12
	movdqu	240(%rsi,%rax), %xmm13
	movdqu	480(%rsi,%rax), %xmm14
	movdqu	496(%rsi,%rax), %xmm15
	pshufb	%xmm8, %xmm14
	pshufb	%xmm8, %xmm15
	pshufb	%xmm2, %xmm12
	pxor	%xmm14, %xmm12
	pshufb	%xmm2, %xmm13
	pxor	%xmm15, %xmm13
	palignr	$15, %xmm4, %xmm9               # xmm9 = xmm4[15],xmm9[0,1,2,3,4,5,6,7,8,9,10,11,12,13,14]
	palignr	$15, %xmm3, %xmm7               # xmm7 = xmm3[15],xmm7[0,1,2,3,4,5,6,7,8,9,10,11,12,13,14]
	pslldq	$1, %xmm4                       # xmm4 = zero,xmm4[0,1,2,3,4,5,6,7,8,9,10,11,12,13,14]
	pxor	%xmm12, %xmm4
	pxor	%xmm11, %xmm4
	pslldq	$1, %xmm3                       # xmm3 = zero,xmm3[0,1,2,3,4,5,6,7,8,9,10,11,12,13,14]
	pxor	%xmm13, %xmm3
	pxor	%xmm10, %xmm3
	addq	$-32, %rax
	cmpq	$-256, %rax
	jne	Lgcm_v2_BB7_1
# %bb.2:                                # %"gcm::multiples::shifted_sum::<#21b77b0062812be4>.exit"
	palignr	$8, %xmm3, %xmm7                # xmm7 = xmm3[8,9,10,11,12,13,14,15],xmm7[0,1,2,3,4,5,6,7]
	pxor	%xmm9, %xmm7
	movq	%xmm7, %rcx
	pextrq	$1, %xmm7, %rax
	bswapq	%rax
	bswapq	%rcx
	movq	%rcx, %rdx
	movq	%rcx, %rsi
	movq	%rcx, %r8
	movq	%rcx, %r9
	movq	%rcx, %r10
	shrq	$7, %r10
	xorq	%rcx, %r10
	shldq	$63, %rax, %rcx
	shldq	$62, %rax, %rsi
	xorq	%rcx, %rsi
	pslldq	$8, %xmm3                       # xmm3 = zero,zero,zero,zero,zero,zero,zero,zero,xmm3[0,1,2,3,4,5,6,7]
	pxor	%xmm4, %xmm3
	shrq	%rdx
	shrq	$2, %r8
	xorq	%rdx, %r8
	shldq	$57, %rax, %r9
	xorq	%rax, %r9
	xorq	%rsi, %r9
	xorq	%r8, %r10
	movq	%r9, %xmm0
	movq	%r10, %xmm1
	punpcklqdq	%xmm1, %xmm0            # xmm0 = xmm0[0],xmm1[0]
	pshufb	l_gcm_v2_CPI7_1(%rip), %xmm0           # xmm0 = xmm0[15,14,13,12,11,10,9,8,7,6,5,4,3,2,1,0]
	pxor	%xmm3, %xmm0
	movdqu	%xmm0, (%rdi)
	retq
                                        # -- End function
	.section	__TEXT,__const
	.p2align	4, 0x0                          # -- Begin function gcm::multiples::Multiples::block_product
l_gcm_v2_CPI8_0:
	.zero	16,15
l_gcm_v2_CPI8_1:
	.byte	15                              # 0xf
	.byte	14                              # 0xe
	.byte	13                              # 0xd
	.byte	12                              # 0xc
	.byte	11                              # 0xb
	.byte	10                              # 0xa
	.byte	9                               # 0x9
	.byte	8                               # 0x8
	.byte	7                               # 0x7
	.byte	6                               # 0x6
	.byte	5                               # 0x5
	.byte	4                               # 0x4
	.byte	3                               # 0x3
	.byte	2                               # 0x2
	.byte	1                               # 0x1
	.byte	0                               # 0x0
	.section	__TEXT,__text,regular,pure_instructions
	.p2align	4
_gcm_v2.gcm.multiples.Multiples.block_product: # @_gcm_v2.gcm.multiples.Multiples.block_product
# %bb.0:                                # %start
	movdqa	%xmm0, %xmm2
	psrlw	$4, %xmm2
	movdqa	l_gcm_v2_CPI8_0(%rip), %xmm1           # xmm1 = [15,15,15,15,15,15,15,15,15,15,15,15,15,15,15,15]
	pand	%xmm1, %xmm2
	pand	%xmm1, %xmm0
	movdqu	480(%rsi), %xmm4
	movdqu	496(%rsi), %xmm5
	pshufb	%xmm0, %xmm4
	pshufb	%xmm0, %xmm5
	movdqu	224(%rsi), %xmm3
	movdqu	240(%rsi), %xmm1
	pshufb	%xmm2, %xmm3
	pxor	%xmm4, %xmm3
	pshufb	%xmm2, %xmm1
	pxor	%xmm5, %xmm1
	movdqu	448(%rsi), %xmm4
	movdqu	464(%rsi), %xmm5
	pshufb	%xmm0, %xmm4
	pshufb	%xmm0, %xmm5
	movdqu	192(%rsi), %xmm6
	movdqu	208(%rsi), %xmm7
	pshufb	%xmm2, %xmm6
	pxor	%xmm4, %xmm6
	pshufb	%xmm2, %xmm7
	pxor	%xmm5, %xmm7
	movdqa	%xmm3, %xmm5
	psrldq	$15, %xmm5                      # xmm5 = xmm5[15],zero,zero,zero,zero,zero,zero,zero,zero,zero,zero,zero,zero,zero,zero,zero
	movdqa	%xmm1, %xmm4
	psrldq	$15, %xmm4                      # xmm4 = xmm4[15],zero,zero,zero,zero,zero,zero,zero,zero,zero,zero,zero,zero,zero,zero,zero
	pslldq	$1, %xmm1                       # xmm1 = zero,xmm1[0,1,2,3,4,5,6,7,8,9,10,11,12,13,14]
	pxor	%xmm7, %xmm1
	pslldq	$1, %xmm3                       # xmm3 = zero,xmm3[0,1,2,3,4,5,6,7,8,9,10,11,12,13,14]
	pxor	%xmm6, %xmm3
	movdqu	416(%rsi), %xmm6
	movdqu	432(%rsi), %xmm7
	pshufb	%xmm0, %xmm6
	pshufb	%xmm0, %xmm7
	movdqu	160(%rsi), %xmm8
	movdqu	176(%rsi), %xmm9
	pshufb	%xmm2, %xmm8
	pxor	%xmm6, %xmm8
	pshufb	%xmm2, %xmm9
	pxor	%xmm7, %xmm9
	palignr	$15, %xmm1, %xmm4               # xmm4 = xmm1[15],xmm4[0,1,2,3,4,5,6,7,8,9,10,11,12,13,14]
	palignr	$15, %xmm3, %xmm5               # xmm5 = xmm3[15],xmm5[0,1,2,3,4,5,6,7,8,9,10,11,12,13,14]
	pslldq	$1, %xmm3                       # xmm3 = zero,xmm3[0,1,2,3,4,5,6,7,8,9,10,11,12,13,14]
	pxor	%xmm8, %xmm3
	pslldq	$1, %xmm1                       # xmm1 = zero,xmm1[0,1,2,3,4,5,6,7,8,9,10,11,12,13,14]
	pxor	%xmm9, %xmm1
	movdqu	384(%rsi), %xmm6
	movdqu	400(%rsi), %xmm7
	pshufb	%xmm0, %xmm6
	pshufb	%xmm0, %xmm7
	movdqu	128(%rsi), %xmm8
	movdqu	144(%rsi), %xmm9
	pshufb	%xmm2, %xmm8
	pxor	%xmm6, %xmm8
	pshufb	%xmm2, %xmm9
	pxor	%xmm7, %xmm9
	palignr	$15, %xmm3, %xmm5               # xmm5 = xmm3[15],xmm5[0,1,2,3,4,5,6,7,8,9,10,11,12,13,14]
	palignr	$15, %xmm1, %xmm4               # xmm4 = xmm1[15],xmm4[0,1,2,3,4,5,6,7,8,9,10,11,12,13,14]
	pslldq	$1, %xmm1                       # xmm1 = zero,xmm1[0,1,2,3,4,5,6,7,8,9,10,11,12,13,14]
	pxor	%xmm9, %xmm1
	pslldq	$1, %xmm3                       # xmm3 = zero,xmm3[0,1,2,3,4,5,6,7,8,9,10,11,12,13,14]
	pxor	%xmm8, %xmm3
	movdqu	352(%rsi), %xmm6
	movdqu	368(%rsi), %xmm7
	pshufb	%xmm0, %xmm6
	pshufb	%xmm0, %xmm7
	movdqu	96(%rsi), %xmm8
	movdqu	112(%rsi), %xmm9
	pshufb	%xmm2, %xmm8
	pxor	%xmm6, %xmm8
	pshufb	%xmm2, %xmm9
	pxor	%xmm7, %xmm9
	palignr	$15, %xmm1, %xmm4               # xmm4 = xmm1[15],xmm4[0,1,2,3,4,5,6,7,8,9,10,11,12,13,14]
	palignr	$15, %xmm3, %xmm5               # xmm5 = xmm3[15],xmm5[0,1,2,3,4,5,6,7,8,9,10,11,12,13,14]
	pslldq	$1, %xmm3                       # xmm3 = zero,xmm3[0,1,2,3,4,5,6,7,8,9,10,11,12,13,14]
	pxor	%xmm8, %xmm3
	pslldq	$1, %xmm1                       # xmm1 = zero,xmm1[0,1,2,3,4,5,6,7,8,9,10,11,12,13,14]
	pxor	%xmm9, %xmm1
	movdqu	320(%rsi), %xmm6
	movdqu	336(%rsi), %xmm7
	pshufb	%xmm0, %xmm6
	pshufb	%xmm0, %xmm7
	movdqu	64(%rsi), %xmm8
	movdqu	80(%rsi), %xmm9
	pshufb	%xmm2, %xmm8
	pxor	%xmm6, %xmm8
	pshufb	%xmm2, %xmm9
	pxor	%xmm7, %xmm9
	palignr	$15, %xmm3, %xmm5               # xmm5 = xmm3[15],xmm5[0,1,2,3,4,5,6,7,8,9,10,11,12,13,14]
	palignr	$15, %xmm1, %xmm4               # xmm4 = xmm1[15],xmm4[0,1,2,3,4,5,6,7,8,9,10,11,12,13,14]
	pslldq	$1, %xmm1                       # xmm1 = zero,xmm1[0,1,2,3,4,5,6,7,8,9,10,11,12,13,14]
	pxor	%xmm9, %xmm1
	pslldq	$1, %xmm3                       # xmm3 = zero,xmm3[0,1,2,3,4,5,6,7,8,9,10,11,12,13,14]
	pxor	%xmm8, %xmm3
	movdqu	288(%rsi), %xmm8
	movdqu	304(%rsi), %xmm9
	pshufb	%xmm0, %xmm8
	pshufb	%xmm0, %xmm9
	movdqu	(%rsi), %xmm6
	movdqu	16(%rsi), %xmm7
	movdqu	32(%rsi), %xmm10
	movdqu	48(%rsi), %xmm11
	pshufb	%xmm2, %xmm10
	pxor	%xmm8, %xmm10
	pshufb	%xmm2, %xmm11
	pxor	%xmm9, %xmm11
	palignr	$15, %xmm1, %xmm4               # xmm4 = xmm1[15],xmm4[0,1,2,3,4,5,6,7,8,9,10,11,12,13,14]
	palignr	$15, %xmm3, %xmm5               # xmm5 = xmm3[15],xmm5[0,1,2,3,4,5,6,7,8,9,10,11,12,13,14]
	pslldq	$1, %xmm3                       # xmm3 = zero,xmm3[0,1,2,3,4,5,6,7,8,9,10,11,12,13,14]
	pxor	%xmm10, %xmm3
	pslldq	$1, %xmm1                       # xmm1 = zero,xmm1[0,1,2,3,4,5,6,7,8,9,10,11,12,13,14]
	pxor	%xmm11, %xmm1
	movdqu	272(%rsi), %xmm8
	pshufb	%xmm0, %xmm8
	pshufb	%xmm2, %xmm7
	pxor	%xmm8, %xmm7
	palignr	$15, %xmm3, %xmm5               # xmm5 = xmm3[15],xmm5[0,1,2,3,4,5,6,7,8,9,10,11,12,13,14]
	palignr	$15, %xmm1, %xmm4               # xmm4 = xmm1[15],xmm4[0,1,2,3,4,5,6,7,8,9,10,11,12,13,14]
	pslldq	$1, %xmm1                       # xmm1 = zero,xmm1[0,1,2,3,4,5,6,7,8,9,10,11,12,13,14]
	pxor	%xmm7, %xmm1
	palignr	$8, %xmm1, %xmm4                # xmm4 = xmm1[8,9,10,11,12,13,14,15],xmm4[0,1,2,3,4,5,6,7]
	pxor	%xmm5, %xmm4
	movq	%xmm4, %r9
	pextrq	$1, %xmm4, %rax
	bswapq	%rax
	bswapq	%r9
	movq	%r9, %rdx
	movq	%r9, %rcx
	movq	%r9, %r8
	movq	%r9, %r10
	movq	%r9, %r11
	shrq	$7, %r11
	xorq	%r9, %r11
	shldq	$63, %rax, %r9
	shldq	$62, %rax, %rcx
	movdqu	256(%rsi), %xmm4
	xorq	%r9, %rcx
	pshufb	%xmm0, %xmm4
	pshufb	%xmm2, %xmm6
	pxor	%xmm4, %xmm6
	pslldq	$1, %xmm3                       # xmm3 = zero,xmm3[0,1,2,3,4,5,6,7,8,9,10,11,12,13,14]
	pxor	%xmm6, %xmm3
	pslldq	$8, %xmm1                       # xmm1 = zero,zero,zero,zero,zero,zero,zero,zero,xmm1[0,1,2,3,4,5,6,7]
	pxor	%xmm3, %xmm1
	shrq	%rdx
	shrq	$2, %r8
	xorq	%rdx, %r8
	shldq	$57, %rax, %r10
	xorq	%rax, %r10
	xorq	%rcx, %r10
	xorq	%r8, %r11
	movq	%r10, %xmm0
	movq	%r11, %xmm2
	punpcklqdq	%xmm2, %xmm0            # xmm0 = xmm0[0],xmm2[0]
	pshufb	l_gcm_v2_CPI8_1(%rip), %xmm0           # xmm0 = xmm0[15,14,13,12,11,10,9,8,7,6,5,4,3,2,1,0]
	pxor	%xmm1, %xmm0
	movdqu	%xmm0, (%rdi)
	retq
                                        # -- End function
	.section	__TEXT,__const
	.p2align	4, 0x0                          # -- Begin function gcm::multiples::Multiples::two_products
l_gcm_v2_CPI9_0:
	.zero	16,15
l_gcm_v2_CPI9_1:
	.byte	15                              # 0xf
	.byte	14                              # 0xe
	.byte	13                              # 0xd
	.byte	12                              # 0xc
	.byte	11                              # 0xb
	.byte	10                              # 0xa
	.byte	9                               # 0x9
	.byte	8                               # 0x8
	.byte	7                               # 0x7
	.byte	6                               # 0x6
	.byte	5                               # 0x5
	.byte	4                               # 0x4
	.byte	3                               # 0x3
	.byte	2                               # 0x2
	.byte	1                               # 0x1
	.byte	0                               # 0x0
	.section	__TEXT,__text,regular,pure_instructions
	.p2align	4
_gcm_v2.gcm.multiples.Multiples.two_products: # @_gcm_v2.gcm.multiples.Multiples.two_products
# %bb.0:                                # %start
	movdqa	%xmm1, %xmm2
	psrlw	$4, %xmm2
	movdqa	l_gcm_v2_CPI9_0(%rip), %xmm4           # xmm4 = [15,15,15,15,15,15,15,15,15,15,15,15,15,15,15,15]
	pand	%xmm4, %xmm2
	pand	%xmm4, %xmm1
	movdqa	%xmm0, %xmm3
	psrlw	$4, %xmm3
	pand	%xmm4, %xmm3
	pand	%xmm4, %xmm0
	movdqu	992(%rsi), %xmm4
	movdqu	1008(%rsi), %xmm5
	pshufb	%xmm0, %xmm4
	pshufb	%xmm0, %xmm5
	movdqu	736(%rsi), %xmm6
	movdqu	752(%rsi), %xmm7
	pshufb	%xmm3, %xmm6
	pxor	%xmm4, %xmm6
	pshufb	%xmm3, %xmm7
	pxor	%xmm5, %xmm7
	movdqu	480(%rsi), %xmm8
	movdqu	496(%rsi), %xmm9
	pshufb	%xmm1, %xmm8
	pshufb	%xmm1, %xmm9
	movdqu	224(%rsi), %xmm5
	movdqu	240(%rsi), %xmm4
	pshufb	%xmm2, %xmm5
	pxor	%xmm8, %xmm5
	pxor	%xmm6, %xmm5
	pshufb	%xmm2, %xmm4
	pxor	%xmm9, %xmm4
	pxor	%xmm7, %xmm4
	movdqu	960(%rsi), %xmm6
	movdqu	976(%rsi), %xmm7
	pshufb	%xmm0, %xmm6
	pshufb	%xmm0, %xmm7
	movdqu	704(%rsi), %xmm8
	movdqu	720(%rsi), %xmm9
	pshufb	%xmm3, %xmm8
	pxor	%xmm6, %xmm8
	pshufb	%xmm3, %xmm9
	pxor	%xmm7, %xmm9
	movdqu	448(%rsi), %xmm6
	movdqu	464(%rsi), %xmm7
	pshufb	%xmm1, %xmm6
	pshufb	%xmm1, %xmm7
	movdqu	192(%rsi), %xmm10
	movdqu	208(%rsi), %xmm11
	pshufb	%xmm2, %xmm10
	pxor	%xmm6, %xmm10
	pxor	%xmm8, %xmm10
	pshufb	%xmm2, %xmm11
	pxor	%xmm7, %xmm11
	pxor	%xmm9, %xmm11
	movdqa	%xmm5, %xmm7
	psrldq	$15, %xmm7                      # xmm7 = xmm7[15],zero,zero,zero,zero,zero,zero,zero,zero,zero,zero,zero,zero,zero,zero,zero
	movdqa	%xmm4, %xmm6
	psrldq	$15, %xmm6                      # xmm6 = xmm6[15],zero,zero,zero,zero,zero,zero,zero,zero,zero,zero,zero,zero,zero,zero,zero
	pslldq	$1, %xmm4                       # xmm4 = zero,xmm4[0,1,2,3,4,5,6,7,8,9,10,11,12,13,14]
	pxor	%xmm11, %xmm4
	pslldq	$1, %xmm5                       # xmm5 = zero,xmm5[0,1,2,3,4,5,6,7,8,9,10,11,12,13,14]
	pxor	%xmm10, %xmm5
	movdqu	928(%rsi), %xmm8
	movdqu	944(%rsi), %xmm9
	pshufb	%xmm0, %xmm8
	pshufb	%xmm0, %xmm9
	movdqu	672(%rsi), %xmm10
	movdqu	688(%rsi), %xmm11
	pshufb	%xmm3, %xmm10
	pxor	%xmm8, %xmm10
	pshufb	%xmm3, %xmm11
	pxor	%xmm9, %xmm11
	movdqu	416(%rsi), %xmm8
	movdqu	432(%rsi), %xmm9
	pshufb	%xmm1, %xmm8
	pshufb	%xmm1, %xmm9
	movdqu	160(%rsi), %xmm12
	movdqu	176(%rsi), %xmm13
	pshufb	%xmm2, %xmm12
	pxor	%xmm8, %xmm12
	pxor	%xmm10, %xmm12
	pshufb	%xmm2, %xmm13
	pxor	%xmm9, %xmm13
	pxor	%xmm11, %xmm13
	palignr	$15, %xmm4, %xmm6               # xmm6 = xmm4[15],xmm6[0,1,2,3,4,5,6,7,8,9,10,11,12,13,14]
	palignr	$15, %xmm5, %xmm7               # xmm7 = xmm5[15],xmm7[0,1,2,3,4,5,6,7,8,9,10,11,12,13,14]
	pslldq	$1, %xmm5                       # xmm5 = zero,xmm5[0,1,2,3,4,5,6,7,8,9,10,11,12,13,14]
	pxor	%xmm12, %xmm5
	pslldq	$1, %xmm4                       # xmm4 = zero,xmm4[0,1,2,3,4,5,6,7,8,9,10,11,12,13,14]
	pxor	%xmm13, %xmm4
	movdqu	896(%rsi), %xmm8
	movdqu	912(%rsi), %xmm9
	pshufb	%xmm0, %xmm8
	pshufb	%xmm0, %xmm9
	movdqu	640(%rsi), %xmm10
	movdqu	656(%rsi), %xmm11
	pshufb	%xmm3, %xmm10
	pxor	%xmm8, %xmm10
	pshufb	%xmm3, %xmm11
	pxor	%xmm9, %xmm11
	movdqu	384(%rsi), %xmm8
	movdqu	400(%rsi), %xmm9
	pshufb	%xmm1, %xmm8
	pshufb	%xmm1, %xmm9
	movdqu	128(%rsi), %xmm12
	movdqu	144(%rsi), %xmm13
	pshufb	%xmm2, %xmm12
	pxor	%xmm8, %xmm12
	pxor	%xmm10, %xmm12
	pshufb	%xmm2, %xmm13
	pxor	%xmm9, %xmm13
	pxor	%xmm11, %xmm13
	palignr	$15, %xmm5, %xmm7               # xmm7 = xmm5[15],xmm7[0,1,2,3,4,5,6,7,8,9,10,11,12,13,14]
	palignr	$15, %xmm4, %xmm6               # xmm6 = xmm4[15],xmm6[0,1,2,3,4,5,6,7,8,9,10,11,12,13,14]
	pslldq	$1, %xmm4                       # xmm4 = zero,xmm4[0,1,2,3,4,5,6,7,8,9,10,11,12,13,14]
	pxor	%xmm13, %xmm4
	pslldq	$1, %xmm5                       # xmm5 = zero,xmm5[0,1,2,3,4,5,6,7,8,9,10,11,12,13,14]
	pxor	%xmm12, %xmm5
	movdqu	864(%rsi), %xmm8
	movdqu	880(%rsi), %xmm9
	pshufb	%xmm0, %xmm8
	pshufb	%xmm0, %xmm9
	movdqu	608(%rsi), %xmm10
	movdqu	624(%rsi), %xmm11
	pshufb	%xmm3, %xmm10
	pxor	%xmm8, %xmm10
	pshufb	%xmm3, %xmm11
	pxor	%xmm9, %xmm11
	movdqu	352(%rsi), %xmm8
	movdqu	368(%rsi), %xmm9
	pshufb	%xmm1, %xmm8
	pshufb	%xmm1, %xmm9
	movdqu	96(%rsi), %xmm12
	movdqu	112(%rsi), %xmm13
	pshufb	%xmm2, %xmm12
	pxor	%xmm8, %xmm12
	pxor	%xmm10, %xmm12
	pshufb	%xmm2, %xmm13
	pxor	%xmm9, %xmm13
	pxor	%xmm11, %xmm13
	palignr	$15, %xmm4, %xmm6               # xmm6 = xmm4[15],xmm6[0,1,2,3,4,5,6,7,8,9,10,11,12,13,14]
	palignr	$15, %xmm5, %xmm7               # xmm7 = xmm5[15],xmm7[0,1,2,3,4,5,6,7,8,9,10,11,12,13,14]
	pslldq	$1, %xmm5                       # xmm5 = zero,xmm5[0,1,2,3,4,5,6,7,8,9,10,11,12,13,14]
	pxor	%xmm12, %xmm5
	pslldq	$1, %xmm4                       # xmm4 = zero,xmm4[0,1,2,3,4,5,6,7,8,9,10,11,12,13,14]
	pxor	%xmm13, %xmm4
	movdqu	832(%rsi), %xmm8
	movdqu	848(%rsi), %xmm9
	pshufb	%xmm0, %xmm8
	pshufb	%xmm0, %xmm9
	movdqu	576(%rsi), %xmm10
	movdqu	592(%rsi), %xmm11
	pshufb	%xmm3, %xmm10
	pxor	%xmm8, %xmm10
	pshufb	%xmm3, %xmm11
	pxor	%xmm9, %xmm11
	movdqu	320(%rsi), %xmm8
	movdqu	336(%rsi), %xmm9
	pshufb	%xmm1, %xmm8
	pshufb	%xmm1, %xmm9
	movdqu	64(%rsi), %xmm12
	movdqu	80(%rsi), %xmm13
	pshufb	%xmm2, %xmm12
	pxor	%xmm8, %xmm12
	pxor	%xmm10, %xmm12
	pshufb	%xmm2, %xmm13
	pxor	%xmm9, %xmm13
	pxor	%xmm11, %xmm13
	palignr	$15, %xmm5, %xmm7               # xmm7 = xmm5[15],xmm7[0,1,2,3,4,5,6,7,8,9,10,11,12,13,14]
	palignr	$15, %xmm4, %xmm6               # xmm6 = xmm4[15],xmm6[0,1,2,3,4,5,6,7,8,9,10,11,12,13,14]
	pslldq	$1, %xmm4                       # xmm4 = zero,xmm4[0,1,2,3,4,5,6,7,8,9,10,11,12,13,14]
	pxor	%xmm13, %xmm4
	pslldq	$1, %xmm5                       # xmm5 = zero,xmm5[0,1,2,3,4,5,6,7,8,9,10,11,12,13,14]
	pxor	%xmm12, %xmm5
	movdqu	800(%rsi), %xmm8
	movdqu	816(%rsi), %xmm9
	pshufb	%xmm0, %xmm8
	pshufb	%xmm0, %xmm9
	movdqu	544(%rsi), %xmm10
	movdqu	560(%rsi), %xmm12
	pshufb	%xmm3, %xmm10
	pxor	%xmm8, %xmm10
	pshufb	%xmm3, %xmm12
	pxor	%xmm9, %xmm12
	movdqu	288(%rsi), %xmm9
	movdqu	304(%rsi), %xmm13
	pshufb	%xmm1, %xmm9
	pshufb	%xmm1, %xmm13
	movdqu	(%rsi), %xmm8
	movdqu	16(%rsi), %xmm11
	movdqu	32(%rsi), %xmm14
	movdqu	48(%rsi), %xmm15
	pshufb	%xmm2, %xmm14
	pxor	%xmm9, %xmm14
	pxor	%xmm10, %xmm14
	pshufb	%xmm2, %xmm15
	pxor	%xmm13, %xmm15
	pxor	%xmm12, %xmm15
	palignr	$15, %xmm4, %xmm6               # xmm6 = xmm4[15],xmm6[0,1,2,3,4,5,6,7,8,9,10,11,12,13,14]
	palignr	$15, %xmm5, %xmm7               # xmm7 = xmm5[15],xmm7[0,1,2,3,4,5,6,7,8,9,10,11,12,13,14]
	pslldq	$1, %xmm5                       # xmm5 = zero,xmm5[0,1,2,3,4,5,6,7,8,9,10,11,12,13,14]
	pxor	%xmm14, %xmm5
	pslldq	$1, %xmm4                       # xmm4 = zero,xmm4[0,1,2,3,4,5,6,7,8,9,10,11,12,13,14]
	pxor	%xmm15, %xmm4
	movdqu	768(%rsi), %xmm9
	movdqu	784(%rsi), %xmm12
	pshufb	%xmm0, %xmm12
	movdqu	512(%rsi), %xmm10
	movdqu	528(%rsi), %xmm13
	pshufb	%xmm3, %xmm13
	pxor	%xmm12, %xmm13
	movdqu	272(%rsi), %xmm12
	pshufb	%xmm1, %xmm12
	pshufb	%xmm2, %xmm11
	pxor	%xmm12, %xmm11
	pxor	%xmm13, %xmm11
	palignr	$15, %xmm5, %xmm7               # xmm7 = xmm5[15],xmm7[0,1,2,3,4,5,6,7,8,9,10,11,12,13,14]
	palignr	$15, %xmm4, %xmm6               # xmm6 = xmm4[15],xmm6[0,1,2,3,4,5,6,7,8,9,10,11,12,13,14]
	pslldq	$1, %xmm4                       # xmm4 = zero,xmm4[0,1,2,3,4,5,6,7,8,9,10,11,12,13,14]
	pxor	%xmm11, %xmm4
	palignr	$8, %xmm4, %xmm6                # xmm6 = xmm4[8,9,10,11,12,13,14,15],xmm6[0,1,2,3,4,5,6,7]
	pxor	%xmm7, %xmm6
	movq	%xmm6, %r11
	pextrq	$1, %xmm6, %rax
	bswapq	%rax
	bswapq	%r11
	movq	%r11, %rdx
	movq	%r11, %rcx
	movq	%r11, %r8
	movq	%r11, %r9
	movq	%r11, %r10
	shrq	$7, %r10
	xorq	%r11, %r10
	shldq	$63, %rax, %r11
	shldq	$62, %rax, %rcx
	movdqu	256(%rsi), %xmm6
	xorq	%r11, %rcx
	pshufb	%xmm0, %xmm9
	pshufb	%xmm3, %xmm10
	pxor	%xmm9, %xmm10
	pshufb	%xmm1, %xmm6
	pshufb	%xmm2, %xmm8
	pxor	%xmm6, %xmm8
	pxor	%xmm10, %xmm8
	pslldq	$1, %xmm5                       # xmm5 = zero,xmm5[0,1,2,3,4,5,6,7,8,9,10,11,12,13,14]
	pxor	%xmm8, %xmm5
	pslldq	$8, %xmm4                       # xmm4 = zero,zero,zero,zero,zero,zero,zero,zero,xmm4[0,1,2,3,4,5,6,7]
	pxor	%xmm5, %xmm4
	shrq	%rdx
	shrq	$2, %r8
	xorq	%rdx, %r8
	shldq	$57, %rax, %r9
	xorq	%rax, %r9
	xorq	%rcx, %r9
	xorq	%r8, %r10
	movq	%r9, %xmm0
	movq	%r10, %xmm1
	punpcklqdq	%xmm1, %xmm0            # xmm0 = xmm0[0],xmm1[0]
	pshufb	l_gcm_v2_CPI9_1(%rip), %xmm0           # xmm0 = xmm0[15,14,13,12,11,10,9,8,7,6,5,4,3,2,1,0]
	pxor	%xmm4, %xmm0
	movdqu	%xmm0, (%rdi)
	retq
                                        # -- End function
	.section	__TEXT,__text,regular,pure_instructions
	.p2align	4                               # -- Begin function aes_cipher::zeroize::stack::wipe_stack::<=512>
_gcm_v2.aes_cipher.zeroize.stack.wipe_stack.512: # @_gcm_v2.aes_cipher.zeroize.stack.wipe_stack.512
# %bb.0:                                # %start
	subq	$520, %rsp                      # imm = 0x208
	leaq	8(%rsp), %rdi
	movl	$512, %edx                      # imm = 0x200
	xorl	%esi, %esi
	callq	*_memset@GOTPCREL(%rip)
	movq	$0, (%rsp)
	#APP
	#NO_APP
	movq	(%rsp), %rax
	#APP
	#NO_APP
	cmpq	$512, %rax                      # imm = 0x200
	jae	Lgcm_v2_BB10_2
# %bb.1:                                # %then.1
	movzbl	8(%rsp,%rax), %eax
	#APP
	#NO_APP
	xchgq	%rax, (%rsp)
	#APP
	#NO_APP
Lgcm_v2_BB10_2:                               # %common.ret
	addq	$520, %rsp                      # imm = 0x208
	retq
                                        # -- End function
	.section	__TEXT,__const
	.p2align	4, 0x0                          # -- Begin function gcm::mode::BorrowedGcm::put_tag_so_far::<#c13ce517942629d6>
l_gcm_v2_CPI11_0:
	.byte	0                               # 0x0
	.byte	0                               # 0x0
	.byte	0                               # 0x0
	.byte	255                             # 0xff
	.byte	0                               # 0x0
	.byte	0                               # 0x0
	.byte	0                               # 0x0
	.byte	0                               # 0x0
	.byte	0                               # 0x0
	.byte	0                               # 0x0
	.byte	255                             # 0xff
	.byte	0                               # 0x0
	.byte	0                               # 0x0
	.byte	0                               # 0x0
	.byte	0                               # 0x0
	.byte	0                               # 0x0
l_gcm_v2_CPI11_1:
	.byte	0                               # 0x0
	.byte	0                               # 0x0
	.byte	0                               # 0x0
	.byte	0                               # 0x0
	.byte	0                               # 0x0
	.byte	0                               # 0x0
	.byte	255                             # 0xff
	.byte	0                               # 0x0
	.byte	0                               # 0x0
	.byte	0                               # 0x0
	.byte	0                               # 0x0
	.byte	0                               # 0x0
	.byte	0                               # 0x0
	.byte	255                             # 0xff
	.byte	0                               # 0x0
	.byte	0                               # 0x0
l_gcm_v2_CPI11_2:
	.byte	0                               # 0x0
	.byte	255                             # 0xff
	.byte	0                               # 0x0
	.byte	0                               # 0x0
	.byte	0                               # 0x0
	.byte	0                               # 0x0
	.byte	0                               # 0x0
	.byte	0                               # 0x0
	.byte	255                             # 0xff
	.byte	255                             # 0xff
	.byte	255                             # 0xff
	.byte	255                             # 0xff
	.byte	255                             # 0xff
	.byte	255                             # 0xff
	.byte	255                             # 0xff
	.byte	255                             # 0xff
l_gcm_v2_CPI11_3:
	.byte	0                               # 0x0
	.byte	0                               # 0x0
	.byte	0                               # 0x0
	.byte	0                               # 0x0
	.byte	255                             # 0xff
	.byte	0                               # 0x0
	.byte	0                               # 0x0
	.byte	0                               # 0x0
	.byte	255                             # 0xff
	.byte	255                             # 0xff
	.byte	255                             # 0xff
	.byte	255                             # 0xff
	.byte	255                             # 0xff
	.byte	255                             # 0xff
	.byte	255                             # 0xff
	.byte	255                             # 0xff
l_gcm_v2_CPI11_4:
	.byte	15                              # 0xf
	.byte	14                              # 0xe
	.byte	13                              # 0xd
	.byte	12                              # 0xc
	.byte	11                              # 0xb
	.byte	10                              # 0xa
	.byte	9                               # 0x9
	.byte	8                               # 0x8
	.byte	7                               # 0x7
	.byte	6                               # 0x6
	.byte	5                               # 0x5
	.byte	4                               # 0x4
	.byte	3                               # 0x3
	.byte	2                               # 0x2
	.byte	1                               # 0x1
	.byte	0                               # 0x0
	.section	__TEXT,__text,regular,pure_instructions
	.p2align	4
_gcm_v2.gcm.mode.BorrowedGcm.put_tag_so_far: # @_gcm_v2.gcm.mode.BorrowedGcm.put_tag_so_far
# %bb.0:                                # %start
	pushq	%r15
	pushq	%r14
	pushq	%rbx
	subq	$16, %rsp
	movq	%rdx, %rbx
	movq	%rsi, %r14
	movq	%rdi, %r15
	addq	$32, %rsi
	callq	_gcm_v2.gcm.tags.put_mask
	movq	32(%r15), %rdi
	movq	%r14, %rsi
	callq	_gcm_v2.gcm.mode.BorrowedGcm.hash_so_far
	movq	(%r14), %rcx
	movq	8(%r14), %rsi
	movabsq	$2305843009213693951, %rdi      # imm = 0x1FFFFFFFFFFFFFFF
	cmpq	%rdi, %rcx
	cmovbq	%rcx, %rdi
	movabsq	$68719476704, %rcx              # imm = 0xFFFFFFFE0
	cmpq	%rcx, %rsi
	cmovbq	%rsi, %rcx
	movq	32(%r15), %rsi
	movq	%rdi, %xmm2
	pshufd	$68, %xmm2, %xmm1               # xmm1 = xmm2[0,1,0,1]
	movdqa	%xmm2, %xmm3
	psllq	$11, %xmm3
	movdqa	%xmm1, %xmm0
	psllq	$59, %xmm0
	pblendw	$15, %xmm3, %xmm0               # xmm0 = xmm3[0,1,2,3],xmm0[4,5,6,7]
	movdqa	%xmm2, %xmm3
	psllq	$43, %xmm3
	movdqa	%xmm1, %xmm4
	psllq	$27, %xmm4
	pblendw	$15, %xmm3, %xmm4               # xmm4 = xmm3[0,1,2,3],xmm4[4,5,6,7]
	movdqa	%xmm2, %xmm3
	psrlq	$37, %xmm3
	movdqa	%xmm1, %xmm5
	psrlq	$53, %xmm5
	pblendw	$15, %xmm3, %xmm5               # xmm5 = xmm3[0,1,2,3],xmm5[4,5,6,7]
	psrlq	$5, %xmm2
	psrlq	$21, %xmm1
	pblendw	$15, %xmm2, %xmm1               # xmm1 = xmm2[0,1,2,3],xmm1[4,5,6,7]
	pand	l_gcm_v2_CPI11_0(%rip), %xmm1
	pand	l_gcm_v2_CPI11_1(%rip), %xmm4
	pand	l_gcm_v2_CPI11_2(%rip), %xmm5
	pand	l_gcm_v2_CPI11_3(%rip), %xmm0
	por	%xmm1, %xmm4
	por	%xmm5, %xmm0
	por	%xmm4, %xmm0
	pshufd	$238, %xmm0, %xmm1              # xmm1 = xmm0[2,3,2,3]
	por	%xmm0, %xmm1
	movq	%xmm1, %rdi
	movq	%rcx, %r8
	shlq	$59, %r8
	movl	%ecx, %r9d
	andl	$8160, %r9d                     # imm = 0x1FE0
	shlq	$43, %r9
	orq	%r8, %r9
	movl	%ecx, %r8d
	andl	$2088960, %r8d                  # imm = 0x1FE000
	shlq	$27, %r8
	orq	%r9, %r8
	movl	%ecx, %r9d
	andl	$534773760, %r9d                # imm = 0x1FE00000
	shlq	$11, %r9
	orq	%r8, %r9
	shrq	$5, %rcx
	andl	$2130706432, %ecx               # imm = 0x7F000000
	bswapq	%rdi
	orq	%r9, %rcx
	bswapq	%rcx
	xorq	%rdx, %rdi
	xorq	%rax, %rcx
	pxor	%xmm0, %xmm0
	movdqa	%xmm0, (%rsp)
	movq	%rdi, %xmm1
	movq	%rcx, %xmm0
	punpcklqdq	%xmm1, %xmm0            # xmm0 = xmm0[0],xmm1[0]
	pshufb	l_gcm_v2_CPI11_4(%rip), %xmm0          # xmm0 = xmm0[15,14,13,12,11,10,9,8,7,6,5,4,3,2,1,0]
	movq	%rsp, %rdi
	callq	_gcm_v2.gcm.multiples.Multiples.block_product
	movq	(%rsp), %rax
	movq	8(%rsp), %rcx
	bswapq	%rcx
	bswapq	%rax
	movq	%rax, %xmm0
	movq	%rcx, %xmm1
	punpcklqdq	%xmm0, %xmm1            # xmm1 = xmm1[0],xmm0[0]
	pshufb	l_gcm_v2_CPI11_4(%rip), %xmm1          # xmm1 = xmm1[15,14,13,12,11,10,9,8,7,6,5,4,3,2,1,0]
	movdqu	(%rbx), %xmm0
	pxor	%xmm1, %xmm0
	movdqu	%xmm0, (%rbx)
	addq	$16, %rsp
	popq	%rbx
	popq	%r14
	popq	%r15
	retq
                                        # -- End function
	.section	__TEXT,__const
	.p2align	4, 0x0                          # -- Begin function gcm::tags::put_mask::<#ed3b81e0963a9ab3>
l_gcm_v2_CPI12_0:
	.zero	16,15
l_gcm_v2_CPI12_1:
	.byte	0                               # 0x0
	.byte	1                               # 0x1
	.byte	28                              # 0x1c
	.byte	29                              # 0x1d
	.byte	45                              # 0x2d
	.byte	44                              # 0x2c
	.byte	49                              # 0x31
	.byte	48                              # 0x30
	.byte	39                              # 0x27
	.byte	38                              # 0x26
	.byte	59                              # 0x3b
	.byte	58                              # 0x3a
	.byte	10                              # 0xa
	.byte	11                              # 0xb
	.byte	22                              # 0x16
	.byte	23                              # 0x17
l_gcm_v2_CPI12_2:
	.byte	0                               # 0x0
	.byte	134                             # 0x86
	.byte	253                             # 0xfd
	.byte	123                             # 0x7b
	.byte	142                             # 0x8e
	.byte	8                               # 0x8
	.byte	115                             # 0x73
	.byte	245                             # 0xf5
	.byte	119                             # 0x77
	.byte	241                             # 0xf1
	.byte	138                             # 0x8a
	.byte	12                              # 0xc
	.byte	249                             # 0xf9
	.byte	127                             # 0x7f
	.byte	4                               # 0x4
	.byte	130                             # 0x82
l_gcm_v2_CPI12_3:
	.byte	128                             # 0x80
	.byte	2                               # 0x2
	.byte	1                               # 0x1
	.byte	15                              # 0xf
	.byte	9                               # 0x9
	.byte	5                               # 0x5
	.byte	14                              # 0xe
	.byte	12                              # 0xc
	.byte	13                              # 0xd
	.byte	4                               # 0x4
	.byte	11                              # 0xb
	.byte	10                              # 0xa
	.byte	7                               # 0x7
	.byte	8                               # 0x8
	.byte	6                               # 0x6
	.byte	3                               # 0x3
l_gcm_v2_CPI12_4:
	.byte	128                             # 0x80
	.byte	1                               # 0x1
	.byte	9                               # 0x9
	.byte	14                              # 0xe
	.byte	13                              # 0xd
	.byte	11                              # 0xb
	.byte	7                               # 0x7
	.byte	6                               # 0x6
	.byte	15                              # 0xf
	.byte	2                               # 0x2
	.byte	12                              # 0xc
	.byte	5                               # 0x5
	.byte	10                              # 0xa
	.byte	4                               # 0x4
	.byte	3                               # 0x3
	.byte	8                               # 0x8
l_gcm_v2_CPI12_5:
	.byte	0                               # 0x0
	.byte	195                             # 0xc3
	.byte	79                              # 0x4f
	.byte	12                              # 0xc
	.byte	252                             # 0xfc
	.byte	124                             # 0x7c
	.byte	67                              # 0x43
	.byte	128                             # 0x80
	.byte	207                             # 0xcf
	.byte	51                              # 0x33
	.byte	63                              # 0x3f
	.byte	112                             # 0x70
	.byte	191                             # 0xbf
	.byte	179                             # 0xb3
	.byte	240                             # 0xf0
	.byte	140                             # 0x8c
l_gcm_v2_CPI12_6:
	.byte	0                               # 0x0
	.byte	230                             # 0xe6
	.byte	114                             # 0x72
	.byte	183                             # 0xb7
	.byte	229                             # 0xe5
	.byte	198                             # 0xc6
	.byte	197                             # 0xc5
	.byte	35                              # 0x23
	.byte	81                              # 0x51
	.byte	180                             # 0xb4
	.byte	3                               # 0x3
	.byte	113                             # 0x71
	.byte	32                              # 0x20
	.byte	151                             # 0x97
	.byte	82                              # 0x52
	.byte	148                             # 0x94
l_gcm_v2_CPI12_7:
	.byte	0                               # 0x0
	.byte	124                             # 0x7c
	.byte	32                              # 0x20
	.byte	207                             # 0xcf
	.byte	146                             # 0x92
	.byte	1                               # 0x1
	.byte	239                             # 0xef
	.byte	147                             # 0x93
	.byte	179                             # 0xb3
	.byte	33                              # 0x21
	.byte	238                             # 0xee
	.byte	206                             # 0xce
	.byte	125                             # 0x7d
	.byte	178                             # 0xb2
	.byte	93                              # 0x5d
	.byte	92                              # 0x5c
l_gcm_v2_CPI12_8:
	.byte	0                               # 0x0
	.byte	209                             # 0xd1
	.byte	229                             # 0xe5
	.byte	247                             # 0xf7
	.byte	230                             # 0xe6
	.byte	37                              # 0x25
	.byte	18                              # 0x12
	.byte	195                             # 0xc3
	.byte	38                              # 0x26
	.byte	192                             # 0xc0
	.byte	55                              # 0x37
	.byte	210                             # 0xd2
	.byte	244                             # 0xf4
	.byte	3                               # 0x3
	.byte	17                              # 0x11
	.byte	52                              # 0x34
l_gcm_v2_CPI12_9:
	.byte	0                               # 0x0
	.byte	203                             # 0xcb
	.byte	215                             # 0xd7
	.byte	176                             # 0xb0
	.byte	33                              # 0x21
	.byte	141                             # 0x8d
	.byte	103                             # 0x67
	.byte	172                             # 0xac
	.byte	123                             # 0x7b
	.byte	90                              # 0x5a
	.byte	234                             # 0xea
	.byte	61                              # 0x3d
	.byte	70                              # 0x46
	.byte	246                             # 0xf6
	.byte	145                             # 0x91
	.byte	28                              # 0x1c
l_gcm_v2_CPI12_10:
	.byte	0                               # 0x0
	.byte	159                             # 0x9f
	.byte	97                              # 0x61
	.byte	22                              # 0x16
	.byte	194                             # 0xc2
	.byte	42                              # 0x2a
	.byte	119                             # 0x77
	.byte	232                             # 0xe8
	.byte	137                             # 0x89
	.byte	75                              # 0x4b
	.byte	93                              # 0x5d
	.byte	60                              # 0x3c
	.byte	181                             # 0xb5
	.byte	163                             # 0xa3
	.byte	212                             # 0xd4
	.byte	254                             # 0xfe
	.section	__TEXT,__text,regular,pure_instructions
	.p2align	4
_gcm_v2.gcm.tags.put_mask: # @_gcm_v2.gcm.tags.put_mask
# %bb.0:                                # %start
	movdqu	(%rsi), %xmm0
	movdqu	%xmm0, (%rdx)
	movq	16(%rdi), %rcx
	movq	24(%rdi), %rsi
	leaq	-1(%rsi), %rax
	movdqu	(%rcx), %xmm2
	pxor	%xmm0, %xmm2
	movdqa	l_gcm_v2_CPI12_0(%rip), %xmm0          # xmm0 = [15,15,15,15,15,15,15,15,15,15,15,15,15,15,15,15]
	movdqa	%xmm2, %xmm1
	pand	%xmm0, %xmm1
	movdqa	l_gcm_v2_CPI12_1(%rip), %xmm3          # xmm3 = [0,1,28,29,45,44,49,48,39,38,59,58,10,11,22,23]
	pshufb	%xmm1, %xmm3
	psrlw	$4, %xmm2
	pand	%xmm0, %xmm2
	movdqa	l_gcm_v2_CPI12_2(%rip), %xmm1          # xmm1 = [0,134,253,123,142,8,115,245,119,241,138,12,249,127,4,130]
	pshufb	%xmm2, %xmm1
	pxor	%xmm3, %xmm1
	cmpq	$2, %rax
	jb	Lgcm_v2_BB12_3
# %bb.1:                                # %join.5.i.preheader
	addq	$-2, %rsi
	movl	$16, %edi
	.p2align	4
Lgcm_v2_BB12_2:                               # %join.5.i
                                        # =>This Inner Loop Header: Depth=1
	movdqu	(%rcx,%rdi), %xmm2
	movdqa	%xmm1, %xmm3
	psrlw	$4, %xmm3
	pand	%xmm0, %xmm3
	pand	%xmm0, %xmm1
	movdqa	%xmm3, %xmm4
	pxor	%xmm1, %xmm4
	movdqa	l_gcm_v2_CPI12_3(%rip), %xmm5          # xmm5 = [128,2,1,15,9,5,14,12,13,4,11,10,7,8,6,3]
	pshufb	%xmm1, %xmm5
	movdqa	l_gcm_v2_CPI12_4(%rip), %xmm1          # xmm1 = [128,1,9,14,13,11,7,6,15,2,12,5,10,4,3,8]
	movdqa	%xmm1, %xmm6
	pshufb	%xmm3, %xmm6
	movdqa	%xmm1, %xmm7
	pshufb	%xmm4, %xmm7
	pxor	%xmm5, %xmm6
	pxor	%xmm5, %xmm7
	movdqa	%xmm1, %xmm5
	pshufb	%xmm6, %xmm5
	pshufb	%xmm7, %xmm1
	pxor	%xmm4, %xmm5
	pxor	%xmm3, %xmm1
	movdqa	l_gcm_v2_CPI12_5(%rip), %xmm4          # xmm4 = [0,195,79,12,252,124,67,128,207,51,63,112,191,179,240,140]
	pshufb	%xmm5, %xmm4
	movdqa	l_gcm_v2_CPI12_6(%rip), %xmm3          # xmm3 = [0,230,114,183,229,198,197,35,81,180,3,113,32,151,82,148]
	pshufb	%xmm1, %xmm3
	pxor	%xmm4, %xmm3
	movdqa	l_gcm_v2_CPI12_7(%rip), %xmm4          # xmm4 = [0,124,32,207,146,1,239,147,179,33,238,206,125,178,93,92]
	pshufb	%xmm5, %xmm4
	movdqa	l_gcm_v2_CPI12_8(%rip), %xmm5          # xmm5 = [0,209,229,247,230,37,18,195,38,192,55,210,244,3,17,52]
	pshufb	%xmm1, %xmm5
	pxor	%xmm4, %xmm5
	movl	%edi, %r8d
	andl	$48, %r8d
	leaq	l_gcm_v2_static.5(%rip), %r9
	movdqu	(%r8,%r9), %xmm4
	movdqa	%xmm3, %xmm1
	pshufb	%xmm4, %xmm1
	pxor	%xmm5, %xmm1
	leaq	l_gcm_v2_static.6(%rip), %r9
	movdqu	(%r8,%r9), %xmm5
	pshufb	%xmm5, %xmm3
	pxor	%xmm2, %xmm3
	pxor	%xmm1, %xmm3
	pshufb	%xmm4, %xmm1
	pxor	%xmm3, %xmm1
	addq	$16, %rdi
	decq	%rsi
	jne	Lgcm_v2_BB12_2
Lgcm_v2_BB12_3:                               # %"aes_permute::blocks::process_vector::<#06aaae76f5856d0a>.exit"
	shlq	$4, %rax
	movdqu	(%rcx,%rax), %xmm2
	movdqa	%xmm1, %xmm3
	psrlw	$4, %xmm3
	pand	%xmm0, %xmm3
	pand	%xmm0, %xmm1
	movdqa	%xmm3, %xmm0
	pxor	%xmm1, %xmm0
	movdqa	l_gcm_v2_CPI12_3(%rip), %xmm4          # xmm4 = [128,2,1,15,9,5,14,12,13,4,11,10,7,8,6,3]
	pshufb	%xmm1, %xmm4
	movdqa	l_gcm_v2_CPI12_4(%rip), %xmm1          # xmm1 = [128,1,9,14,13,11,7,6,15,2,12,5,10,4,3,8]
	movdqa	%xmm1, %xmm5
	pshufb	%xmm3, %xmm5
	movdqa	%xmm1, %xmm6
	pshufb	%xmm0, %xmm6
	pxor	%xmm4, %xmm5
	pxor	%xmm4, %xmm6
	movdqa	%xmm1, %xmm4
	pshufb	%xmm5, %xmm4
	pshufb	%xmm6, %xmm1
	pxor	%xmm0, %xmm4
	pxor	%xmm3, %xmm1
	movdqa	l_gcm_v2_CPI12_9(%rip), %xmm0          # xmm0 = [0,203,215,176,33,141,103,172,123,90,234,61,70,246,145,28]
	pshufb	%xmm4, %xmm0
	movdqa	l_gcm_v2_CPI12_10(%rip), %xmm3         # xmm3 = [0,159,97,22,194,42,119,232,137,75,93,60,181,163,212,254]
	pshufb	%xmm1, %xmm3
	pxor	%xmm0, %xmm3
	andl	$48, %eax
	leaq	l_gcm_v2_static.3(%rip), %rcx
	movdqu	(%rax,%rcx), %xmm0
	pshufb	%xmm0, %xmm3
	pxor	%xmm2, %xmm3
	movdqu	%xmm3, (%rdx)
	retq
                                        # -- End function
	.section	__TEXT,__text,regular,pure_instructions
	.p2align	4                               # -- Begin function gcm::mode::BorrowedGcm::hash_so_far::<#c13ce517942629d6>
_gcm_v2.gcm.mode.BorrowedGcm.hash_so_far: # @_gcm_v2.gcm.mode.BorrowedGcm.hash_so_far
# %bb.0:                                # %start
	movq	48(%rsi), %rdx
	xorl	%eax, %eax
	cmpq	$1, 24(%rsi)
	setne	%al
	movq	(%rsi,%rax,8), %r8
	andl	$15, %r8d
	movq	56(%rsi), %rax
	bswapq	%rax
	bswapq	%rdx
	leaq	64(%rsi), %rcx
	movq	%rax, %rsi
	jmp	_gcm_v2.gcm.hash_room.MultiplesRoomHashRoom.hash_on # TAILCALL
                                        # -- End function
	.section	__TEXT,__const
	.p2align	4, 0x0                          # -- Begin function gcm::mode::put_subkey::<#a407e1eb9411991d>
l_gcm_v2_CPI14_0:
	.zero	16,15
l_gcm_v2_CPI14_1:
	.byte	0                               # 0x0
	.byte	1                               # 0x1
	.byte	28                              # 0x1c
	.byte	29                              # 0x1d
	.byte	45                              # 0x2d
	.byte	44                              # 0x2c
	.byte	49                              # 0x31
	.byte	48                              # 0x30
	.byte	39                              # 0x27
	.byte	38                              # 0x26
	.byte	59                              # 0x3b
	.byte	58                              # 0x3a
	.byte	10                              # 0xa
	.byte	11                              # 0xb
	.byte	22                              # 0x16
	.byte	23                              # 0x17
l_gcm_v2_CPI14_2:
	.byte	0                               # 0x0
	.byte	134                             # 0x86
	.byte	253                             # 0xfd
	.byte	123                             # 0x7b
	.byte	142                             # 0x8e
	.byte	8                               # 0x8
	.byte	115                             # 0x73
	.byte	245                             # 0xf5
	.byte	119                             # 0x77
	.byte	241                             # 0xf1
	.byte	138                             # 0x8a
	.byte	12                              # 0xc
	.byte	249                             # 0xf9
	.byte	127                             # 0x7f
	.byte	4                               # 0x4
	.byte	130                             # 0x82
l_gcm_v2_CPI14_3:
	.byte	128                             # 0x80
	.byte	2                               # 0x2
	.byte	1                               # 0x1
	.byte	15                              # 0xf
	.byte	9                               # 0x9
	.byte	5                               # 0x5
	.byte	14                              # 0xe
	.byte	12                              # 0xc
	.byte	13                              # 0xd
	.byte	4                               # 0x4
	.byte	11                              # 0xb
	.byte	10                              # 0xa
	.byte	7                               # 0x7
	.byte	8                               # 0x8
	.byte	6                               # 0x6
	.byte	3                               # 0x3
l_gcm_v2_CPI14_4:
	.byte	128                             # 0x80
	.byte	1                               # 0x1
	.byte	9                               # 0x9
	.byte	14                              # 0xe
	.byte	13                              # 0xd
	.byte	11                              # 0xb
	.byte	7                               # 0x7
	.byte	6                               # 0x6
	.byte	15                              # 0xf
	.byte	2                               # 0x2
	.byte	12                              # 0xc
	.byte	5                               # 0x5
	.byte	10                              # 0xa
	.byte	4                               # 0x4
	.byte	3                               # 0x3
	.byte	8                               # 0x8
l_gcm_v2_CPI14_5:
	.byte	0                               # 0x0
	.byte	195                             # 0xc3
	.byte	79                              # 0x4f
	.byte	12                              # 0xc
	.byte	252                             # 0xfc
	.byte	124                             # 0x7c
	.byte	67                              # 0x43
	.byte	128                             # 0x80
	.byte	207                             # 0xcf
	.byte	51                              # 0x33
	.byte	63                              # 0x3f
	.byte	112                             # 0x70
	.byte	191                             # 0xbf
	.byte	179                             # 0xb3
	.byte	240                             # 0xf0
	.byte	140                             # 0x8c
l_gcm_v2_CPI14_6:
	.byte	0                               # 0x0
	.byte	230                             # 0xe6
	.byte	114                             # 0x72
	.byte	183                             # 0xb7
	.byte	229                             # 0xe5
	.byte	198                             # 0xc6
	.byte	197                             # 0xc5
	.byte	35                              # 0x23
	.byte	81                              # 0x51
	.byte	180                             # 0xb4
	.byte	3                               # 0x3
	.byte	113                             # 0x71
	.byte	32                              # 0x20
	.byte	151                             # 0x97
	.byte	82                              # 0x52
	.byte	148                             # 0x94
l_gcm_v2_CPI14_7:
	.byte	0                               # 0x0
	.byte	124                             # 0x7c
	.byte	32                              # 0x20
	.byte	207                             # 0xcf
	.byte	146                             # 0x92
	.byte	1                               # 0x1
	.byte	239                             # 0xef
	.byte	147                             # 0x93
	.byte	179                             # 0xb3
	.byte	33                              # 0x21
	.byte	238                             # 0xee
	.byte	206                             # 0xce
	.byte	125                             # 0x7d
	.byte	178                             # 0xb2
	.byte	93                              # 0x5d
	.byte	92                              # 0x5c
l_gcm_v2_CPI14_8:
	.byte	0                               # 0x0
	.byte	209                             # 0xd1
	.byte	229                             # 0xe5
	.byte	247                             # 0xf7
	.byte	230                             # 0xe6
	.byte	37                              # 0x25
	.byte	18                              # 0x12
	.byte	195                             # 0xc3
	.byte	38                              # 0x26
	.byte	192                             # 0xc0
	.byte	55                              # 0x37
	.byte	210                             # 0xd2
	.byte	244                             # 0xf4
	.byte	3                               # 0x3
	.byte	17                              # 0x11
	.byte	52                              # 0x34
l_gcm_v2_CPI14_9:
	.byte	0                               # 0x0
	.byte	203                             # 0xcb
	.byte	215                             # 0xd7
	.byte	176                             # 0xb0
	.byte	33                              # 0x21
	.byte	141                             # 0x8d
	.byte	103                             # 0x67
	.byte	172                             # 0xac
	.byte	123                             # 0x7b
	.byte	90                              # 0x5a
	.byte	234                             # 0xea
	.byte	61                              # 0x3d
	.byte	70                              # 0x46
	.byte	246                             # 0xf6
	.byte	145                             # 0x91
	.byte	28                              # 0x1c
l_gcm_v2_CPI14_10:
	.byte	0                               # 0x0
	.byte	159                             # 0x9f
	.byte	97                              # 0x61
	.byte	22                              # 0x16
	.byte	194                             # 0xc2
	.byte	42                              # 0x2a
	.byte	119                             # 0x77
	.byte	232                             # 0xe8
	.byte	137                             # 0x89
	.byte	75                              # 0x4b
	.byte	93                              # 0x5d
	.byte	60                              # 0x3c
	.byte	181                             # 0xb5
	.byte	163                             # 0xa3
	.byte	212                             # 0xd4
	.byte	254                             # 0xfe
	.section	__TEXT,__text,regular,pure_instructions
	.p2align	4
_gcm_v2.gcm.mode.put_subkey: # @_gcm_v2.gcm.mode.put_subkey
# %bb.0:                                # %start
	pushq	%rbp
	pushq	%r15
	pushq	%r14
	pushq	%r13
	pushq	%r12
	pushq	%rbx
	subq	$24, %rsp
	movq	%rdx, %rbx
	xorps	%xmm0, %xmm0
	movaps	%xmm0, (%rsp)
	leaq	-1(%rsi), %rax
	movdqu	(%rdi), %xmm2
	movdqa	l_gcm_v2_CPI14_0(%rip), %xmm0          # xmm0 = [15,15,15,15,15,15,15,15,15,15,15,15,15,15,15,15]
	movdqa	%xmm2, %xmm1
	pand	%xmm0, %xmm1
	movdqa	l_gcm_v2_CPI14_1(%rip), %xmm3          # xmm3 = [0,1,28,29,45,44,49,48,39,38,59,58,10,11,22,23]
	pshufb	%xmm1, %xmm3
	psrlw	$4, %xmm2
	pand	%xmm0, %xmm2
	movdqa	l_gcm_v2_CPI14_2(%rip), %xmm1          # xmm1 = [0,134,253,123,142,8,115,245,119,241,138,12,249,127,4,130]
	pshufb	%xmm2, %xmm1
	pxor	%xmm3, %xmm1
	cmpq	$2, %rax
	jb	Lgcm_v2_BB14_3
# %bb.1:                                # %join.5.i.preheader
	addq	$-2, %rsi
	movl	$16, %ecx
	.p2align	4
Lgcm_v2_BB14_2:                               # %join.5.i
                                        # =>This Inner Loop Header: Depth=1
	movdqu	(%rdi,%rcx), %xmm2
	movdqa	%xmm1, %xmm3
	psrlw	$4, %xmm3
	pand	%xmm0, %xmm3
	pand	%xmm0, %xmm1
	movdqa	%xmm3, %xmm4
	pxor	%xmm1, %xmm4
	movdqa	l_gcm_v2_CPI14_3(%rip), %xmm5          # xmm5 = [128,2,1,15,9,5,14,12,13,4,11,10,7,8,6,3]
	pshufb	%xmm1, %xmm5
	movdqa	l_gcm_v2_CPI14_4(%rip), %xmm1          # xmm1 = [128,1,9,14,13,11,7,6,15,2,12,5,10,4,3,8]
	movdqa	%xmm1, %xmm6
	pshufb	%xmm3, %xmm6
	movdqa	%xmm1, %xmm7
	pshufb	%xmm4, %xmm7
	pxor	%xmm5, %xmm6
	pxor	%xmm5, %xmm7
	movdqa	%xmm1, %xmm5
	pshufb	%xmm6, %xmm5
	pshufb	%xmm7, %xmm1
	pxor	%xmm4, %xmm5
	pxor	%xmm3, %xmm1
	movdqa	l_gcm_v2_CPI14_5(%rip), %xmm4          # xmm4 = [0,195,79,12,252,124,67,128,207,51,63,112,191,179,240,140]
	pshufb	%xmm5, %xmm4
	movdqa	l_gcm_v2_CPI14_6(%rip), %xmm3          # xmm3 = [0,230,114,183,229,198,197,35,81,180,3,113,32,151,82,148]
	pshufb	%xmm1, %xmm3
	pxor	%xmm4, %xmm3
	movdqa	l_gcm_v2_CPI14_7(%rip), %xmm4          # xmm4 = [0,124,32,207,146,1,239,147,179,33,238,206,125,178,93,92]
	pshufb	%xmm5, %xmm4
	movdqa	l_gcm_v2_CPI14_8(%rip), %xmm5          # xmm5 = [0,209,229,247,230,37,18,195,38,192,55,210,244,3,17,52]
	pshufb	%xmm1, %xmm5
	pxor	%xmm4, %xmm5
	movl	%ecx, %edx
	andl	$48, %edx
	leaq	l_gcm_v2_static.5(%rip), %r8
	movdqu	(%rdx,%r8), %xmm4
	movdqa	%xmm3, %xmm1
	pshufb	%xmm4, %xmm1
	pxor	%xmm5, %xmm1
	leaq	l_gcm_v2_static.6(%rip), %r8
	movdqu	(%rdx,%r8), %xmm5
	pshufb	%xmm5, %xmm3
	pxor	%xmm2, %xmm3
	pxor	%xmm1, %xmm3
	pshufb	%xmm4, %xmm1
	pxor	%xmm3, %xmm1
	addq	$16, %rcx
	decq	%rsi
	jne	Lgcm_v2_BB14_2
Lgcm_v2_BB14_3:                               # %"aes_permute::blocks::process_vector::<#06aaae76f5856d0a>.exit"
	shlq	$4, %rax
	movdqu	(%rdi,%rax), %xmm2
	movdqa	%xmm1, %xmm3
	psrlw	$4, %xmm3
	pand	%xmm0, %xmm3
	pand	%xmm0, %xmm1
	movdqa	%xmm3, %xmm0
	pxor	%xmm1, %xmm0
	movdqa	l_gcm_v2_CPI14_3(%rip), %xmm4          # xmm4 = [128,2,1,15,9,5,14,12,13,4,11,10,7,8,6,3]
	pshufb	%xmm1, %xmm4
	movdqa	l_gcm_v2_CPI14_4(%rip), %xmm1          # xmm1 = [128,1,9,14,13,11,7,6,15,2,12,5,10,4,3,8]
	movdqa	%xmm1, %xmm5
	pshufb	%xmm3, %xmm5
	movdqa	%xmm1, %xmm6
	pshufb	%xmm0, %xmm6
	pxor	%xmm4, %xmm5
	pxor	%xmm4, %xmm6
	movdqa	%xmm1, %xmm4
	pshufb	%xmm5, %xmm4
	pshufb	%xmm6, %xmm1
	pxor	%xmm0, %xmm4
	pxor	%xmm3, %xmm1
	movdqa	l_gcm_v2_CPI14_9(%rip), %xmm0          # xmm0 = [0,203,215,176,33,141,103,172,123,90,234,61,70,246,145,28]
	pshufb	%xmm4, %xmm0
	movdqa	l_gcm_v2_CPI14_10(%rip), %xmm3         # xmm3 = [0,159,97,22,194,42,119,232,137,75,93,60,181,163,212,254]
	pshufb	%xmm1, %xmm3
	pxor	%xmm0, %xmm3
	andl	$48, %eax
	leaq	l_gcm_v2_static.3(%rip), %rcx
	movdqu	(%rax,%rcx), %xmm0
	pshufb	%xmm0, %xmm3
	pxor	%xmm2, %xmm3
	movdqa	%xmm3, (%rsp)
	movq	(%rsp), %r14
	movq	8(%rsp), %r15
	bswapq	%r15
	bswapq	%r14
	leaq	512(%rbx), %r12
	leaq	1024(%rbx), %r13
	movq	%rbx, %rdi
	movq	%r15, %rsi
	movq	%r14, %rdx
	callq	_gcm_v2.gcm.multiples.put_table
	movq	%rbx, %rdi
	movq	%r15, %rsi
	movq	%r14, %rdx
	callq	_gcm_v2.gcm.multiples.next_power
	movq	%rax, %r14
	movq	%rdx, %r15
	movq	%rbx, %rdi
	movq	%rax, %rsi
	callq	_gcm_v2.gcm.multiples.next_power
	movq	%rax, %rbx
	movq	%rdx, %rbp
	movq	%r12, %rdi
	movq	%r14, %rsi
	movq	%r15, %rdx
	callq	_gcm_v2.gcm.multiples.put_table
	movq	%r13, %rdi
	movq	%rbx, %rsi
	movq	%rbp, %rdx
	callq	_gcm_v2.gcm.multiples.put_table
	movq	%rsp, %rdi
	callq	_gcm_v2.aes_cipher.zeroize.elements.zeroize_elements.3
	addq	$24, %rsp
	popq	%rbx
	popq	%r12
	popq	%r13
	popq	%r14
	popq	%r15
	popq	%rbp
	retq
                                        # -- End function
	.section	__TEXT,__const
	.p2align	4, 0x0                          # -- Begin function gcm::multiples::next_power
l_gcm_v2_CPI15_0:
	.byte	15                              # 0xf
	.byte	14                              # 0xe
	.byte	13                              # 0xd
	.byte	12                              # 0xc
	.byte	11                              # 0xb
	.byte	10                              # 0xa
	.byte	9                               # 0x9
	.byte	8                               # 0x8
	.byte	7                               # 0x7
	.byte	6                               # 0x6
	.byte	5                               # 0x5
	.byte	4                               # 0x4
	.byte	3                               # 0x3
	.byte	2                               # 0x2
	.byte	1                               # 0x1
	.byte	0                               # 0x0
l_gcm_v2_CPI15_1:
	.zero	16,15
	.section	__TEXT,__text,regular,pure_instructions
	.p2align	4
_gcm_v2.gcm.multiples.next_power:           # @_gcm_v2.gcm.multiples.next_power
# %bb.0:                                # %start
	movq	%rdx, %xmm0
	movq	%rsi, %xmm2
	punpcklqdq	%xmm0, %xmm2            # xmm2 = xmm2[0],xmm0[0]
	movdqa	l_gcm_v2_CPI15_0(%rip), %xmm0          # xmm0 = [15,14,13,12,11,10,9,8,7,6,5,4,3,2,1,0]
	pshufb	%xmm0, %xmm2
	movdqa	%xmm2, %xmm3
	psrlw	$4, %xmm3
	movdqa	l_gcm_v2_CPI15_1(%rip), %xmm1          # xmm1 = [15,15,15,15,15,15,15,15,15,15,15,15,15,15,15,15]
	pand	%xmm1, %xmm3
	pand	%xmm1, %xmm2
	movdqu	480(%rdi), %xmm5
	movdqu	496(%rdi), %xmm6
	pshufb	%xmm2, %xmm5
	pshufb	%xmm2, %xmm6
	movdqu	224(%rdi), %xmm4
	movdqu	240(%rdi), %xmm1
	pshufb	%xmm3, %xmm4
	pxor	%xmm5, %xmm4
	pshufb	%xmm3, %xmm1
	pxor	%xmm6, %xmm1
	movdqu	448(%rdi), %xmm5
	movdqu	464(%rdi), %xmm6
	pshufb	%xmm2, %xmm5
	pshufb	%xmm2, %xmm6
	movdqu	192(%rdi), %xmm7
	movdqu	208(%rdi), %xmm8
	pshufb	%xmm3, %xmm7
	pxor	%xmm5, %xmm7
	pshufb	%xmm3, %xmm8
	pxor	%xmm6, %xmm8
	movdqa	%xmm4, %xmm6
	psrldq	$15, %xmm6                      # xmm6 = xmm6[15],zero,zero,zero,zero,zero,zero,zero,zero,zero,zero,zero,zero,zero,zero,zero
	movdqa	%xmm1, %xmm5
	psrldq	$15, %xmm5                      # xmm5 = xmm5[15],zero,zero,zero,zero,zero,zero,zero,zero,zero,zero,zero,zero,zero,zero,zero
	pslldq	$1, %xmm1                       # xmm1 = zero,xmm1[0,1,2,3,4,5,6,7,8,9,10,11,12,13,14]
	pxor	%xmm8, %xmm1
	pslldq	$1, %xmm4                       # xmm4 = zero,xmm4[0,1,2,3,4,5,6,7,8,9,10,11,12,13,14]
	pxor	%xmm7, %xmm4
	movdqu	416(%rdi), %xmm7
	movdqu	432(%rdi), %xmm8
	pshufb	%xmm2, %xmm7
	pshufb	%xmm2, %xmm8
	movdqu	160(%rdi), %xmm9
	movdqu	176(%rdi), %xmm10
	pshufb	%xmm3, %xmm9
	pxor	%xmm7, %xmm9
	pshufb	%xmm3, %xmm10
	pxor	%xmm8, %xmm10
	palignr	$15, %xmm1, %xmm5               # xmm5 = xmm1[15],xmm5[0,1,2,3,4,5,6,7,8,9,10,11,12,13,14]
	palignr	$15, %xmm4, %xmm6               # xmm6 = xmm4[15],xmm6[0,1,2,3,4,5,6,7,8,9,10,11,12,13,14]
	pslldq	$1, %xmm4                       # xmm4 = zero,xmm4[0,1,2,3,4,5,6,7,8,9,10,11,12,13,14]
	pxor	%xmm9, %xmm4
	pslldq	$1, %xmm1                       # xmm1 = zero,xmm1[0,1,2,3,4,5,6,7,8,9,10,11,12,13,14]
	pxor	%xmm10, %xmm1
	movdqu	384(%rdi), %xmm7
	movdqu	400(%rdi), %xmm8
	pshufb	%xmm2, %xmm7
	pshufb	%xmm2, %xmm8
	movdqu	128(%rdi), %xmm9
	movdqu	144(%rdi), %xmm10
	pshufb	%xmm3, %xmm9
	pxor	%xmm7, %xmm9
	pshufb	%xmm3, %xmm10
	pxor	%xmm8, %xmm10
	palignr	$15, %xmm4, %xmm6               # xmm6 = xmm4[15],xmm6[0,1,2,3,4,5,6,7,8,9,10,11,12,13,14]
	palignr	$15, %xmm1, %xmm5               # xmm5 = xmm1[15],xmm5[0,1,2,3,4,5,6,7,8,9,10,11,12,13,14]
	pslldq	$1, %xmm1                       # xmm1 = zero,xmm1[0,1,2,3,4,5,6,7,8,9,10,11,12,13,14]
	pxor	%xmm10, %xmm1
	pslldq	$1, %xmm4                       # xmm4 = zero,xmm4[0,1,2,3,4,5,6,7,8,9,10,11,12,13,14]
	pxor	%xmm9, %xmm4
	movdqu	352(%rdi), %xmm7
	movdqu	368(%rdi), %xmm8
	pshufb	%xmm2, %xmm7
	pshufb	%xmm2, %xmm8
	movdqu	96(%rdi), %xmm9
	movdqu	112(%rdi), %xmm10
	pshufb	%xmm3, %xmm9
	pxor	%xmm7, %xmm9
	pshufb	%xmm3, %xmm10
	pxor	%xmm8, %xmm10
	palignr	$15, %xmm1, %xmm5               # xmm5 = xmm1[15],xmm5[0,1,2,3,4,5,6,7,8,9,10,11,12,13,14]
	palignr	$15, %xmm4, %xmm6               # xmm6 = xmm4[15],xmm6[0,1,2,3,4,5,6,7,8,9,10,11,12,13,14]
	pslldq	$1, %xmm4                       # xmm4 = zero,xmm4[0,1,2,3,4,5,6,7,8,9,10,11,12,13,14]
	pxor	%xmm9, %xmm4
	pslldq	$1, %xmm1                       # xmm1 = zero,xmm1[0,1,2,3,4,5,6,7,8,9,10,11,12,13,14]
	pxor	%xmm10, %xmm1
	movdqu	320(%rdi), %xmm7
	movdqu	336(%rdi), %xmm8
	pshufb	%xmm2, %xmm7
	pshufb	%xmm2, %xmm8
	movdqu	64(%rdi), %xmm9
	movdqu	80(%rdi), %xmm10
	pshufb	%xmm3, %xmm9
	pxor	%xmm7, %xmm9
	pshufb	%xmm3, %xmm10
	pxor	%xmm8, %xmm10
	palignr	$15, %xmm4, %xmm6               # xmm6 = xmm4[15],xmm6[0,1,2,3,4,5,6,7,8,9,10,11,12,13,14]
	palignr	$15, %xmm1, %xmm5               # xmm5 = xmm1[15],xmm5[0,1,2,3,4,5,6,7,8,9,10,11,12,13,14]
	pslldq	$1, %xmm1                       # xmm1 = zero,xmm1[0,1,2,3,4,5,6,7,8,9,10,11,12,13,14]
	pxor	%xmm10, %xmm1
	pslldq	$1, %xmm4                       # xmm4 = zero,xmm4[0,1,2,3,4,5,6,7,8,9,10,11,12,13,14]
	pxor	%xmm9, %xmm4
	movdqu	288(%rdi), %xmm8
	movdqu	304(%rdi), %xmm10
	pshufb	%xmm2, %xmm8
	pshufb	%xmm2, %xmm10
	movdqu	(%rdi), %xmm7
	movdqu	16(%rdi), %xmm9
	movdqu	32(%rdi), %xmm11
	movdqu	48(%rdi), %xmm12
	pshufb	%xmm3, %xmm11
	pxor	%xmm8, %xmm11
	pshufb	%xmm3, %xmm12
	pxor	%xmm10, %xmm12
	palignr	$15, %xmm1, %xmm5               # xmm5 = xmm1[15],xmm5[0,1,2,3,4,5,6,7,8,9,10,11,12,13,14]
	palignr	$15, %xmm4, %xmm6               # xmm6 = xmm4[15],xmm6[0,1,2,3,4,5,6,7,8,9,10,11,12,13,14]
	pslldq	$1, %xmm4                       # xmm4 = zero,xmm4[0,1,2,3,4,5,6,7,8,9,10,11,12,13,14]
	pxor	%xmm11, %xmm4
	pslldq	$1, %xmm1                       # xmm1 = zero,xmm1[0,1,2,3,4,5,6,7,8,9,10,11,12,13,14]
	pxor	%xmm12, %xmm1
	movdqu	256(%rdi), %xmm8
	movdqu	272(%rdi), %xmm10
	pshufb	%xmm2, %xmm10
	pshufb	%xmm3, %xmm9
	pxor	%xmm10, %xmm9
	palignr	$15, %xmm4, %xmm6               # xmm6 = xmm4[15],xmm6[0,1,2,3,4,5,6,7,8,9,10,11,12,13,14]
	palignr	$15, %xmm1, %xmm5               # xmm5 = xmm1[15],xmm5[0,1,2,3,4,5,6,7,8,9,10,11,12,13,14]
	pslldq	$1, %xmm1                       # xmm1 = zero,xmm1[0,1,2,3,4,5,6,7,8,9,10,11,12,13,14]
	pxor	%xmm9, %xmm1
	palignr	$8, %xmm1, %xmm5                # xmm5 = xmm1[8,9,10,11,12,13,14,15],xmm5[0,1,2,3,4,5,6,7]
	pxor	%xmm6, %xmm5
	movq	%xmm5, %rdi
	pextrq	$1, %xmm5, %rax
	bswapq	%rax
	bswapq	%rdi
	movq	%rdi, %rdx
	movq	%rdi, %rcx
	movq	%rdi, %rsi
	movq	%rdi, %r8
	movq	%rdi, %r9
	shrq	$7, %r9
	xorq	%rdi, %r9
	shldq	$63, %rax, %rdi
	shldq	$62, %rax, %rcx
	xorq	%rdi, %rcx
	pshufb	%xmm2, %xmm8
	pshufb	%xmm3, %xmm7
	pxor	%xmm8, %xmm7
	pslldq	$1, %xmm4                       # xmm4 = zero,xmm4[0,1,2,3,4,5,6,7,8,9,10,11,12,13,14]
	pxor	%xmm7, %xmm4
	pslldq	$8, %xmm1                       # xmm1 = zero,zero,zero,zero,zero,zero,zero,zero,xmm1[0,1,2,3,4,5,6,7]
	pxor	%xmm4, %xmm1
	shrq	%rdx
	shrq	$2, %rsi
	xorq	%rdx, %rsi
	shldq	$57, %rax, %r8
	xorq	%rax, %r8
	xorq	%rcx, %r8
	xorq	%rsi, %r9
	movq	%r8, %xmm2
	movq	%r9, %xmm3
	punpcklqdq	%xmm3, %xmm2            # xmm2 = xmm2[0],xmm3[0]
	pshufb	%xmm0, %xmm2
	pxor	%xmm1, %xmm2
	movq	%xmm2, %rdx
	pextrq	$1, %xmm2, %rax
	bswapq	%rax
	bswapq	%rdx
	retq
                                        # -- End function
	.section	__TEXT,__const
	.p2align	4, 0x0                          # -- Begin function gcm::multiples::put_table
l_gcm_v2_CPI16_0:
	.byte	15                              # 0xf
	.byte	14                              # 0xe
	.byte	13                              # 0xd
	.byte	12                              # 0xc
	.byte	11                              # 0xb
	.byte	10                              # 0xa
	.byte	9                               # 0x9
	.byte	8                               # 0x8
	.byte	7                               # 0x7
	.byte	6                               # 0x6
	.byte	5                               # 0x5
	.byte	4                               # 0x4
	.byte	3                               # 0x3
	.byte	2                               # 0x2
	.byte	1                               # 0x1
	.byte	0                               # 0x0
l_gcm_v2_CPI16_1:
	.byte	128                             # 0x80
	.byte	128                             # 0x80
	.byte	128                             # 0x80
	.byte	128                             # 0x80
	.byte	128                             # 0x80
	.byte	128                             # 0x80
	.byte	128                             # 0x80
	.byte	128                             # 0x80
	.byte	0                               # 0x0
	.byte	0                               # 0x0
	.byte	0                               # 0x0
	.byte	0                               # 0x0
	.byte	0                               # 0x0
	.byte	0                               # 0x0
	.byte	0                               # 0x0
	.byte	0                               # 0x0
l_gcm_v2_CPI16_2:
	.byte	128                             # 0x80
	.byte	128                             # 0x80
	.byte	128                             # 0x80
	.byte	128                             # 0x80
	.byte	0                               # 0x0
	.byte	0                               # 0x0
	.byte	0                               # 0x0
	.byte	0                               # 0x0
	.byte	128                             # 0x80
	.byte	128                             # 0x80
	.byte	128                             # 0x80
	.byte	128                             # 0x80
	.byte	0                               # 0x0
	.byte	0                               # 0x0
	.byte	0                               # 0x0
	.byte	0                               # 0x0
l_gcm_v2_CPI16_3:
	.byte	128                             # 0x80
	.byte	128                             # 0x80
	.byte	0                               # 0x0
	.byte	0                               # 0x0
	.byte	128                             # 0x80
	.byte	128                             # 0x80
	.byte	0                               # 0x0
	.byte	0                               # 0x0
	.byte	128                             # 0x80
	.byte	128                             # 0x80
	.byte	0                               # 0x0
	.byte	0                               # 0x0
	.byte	128                             # 0x80
	.byte	128                             # 0x80
	.byte	0                               # 0x0
	.byte	0                               # 0x0
l_gcm_v2_CPI16_4:
	.byte	128                             # 0x80
	.byte	0                               # 0x0
	.byte	128                             # 0x80
	.byte	0                               # 0x0
	.byte	128                             # 0x80
	.byte	0                               # 0x0
	.byte	128                             # 0x80
	.byte	0                               # 0x0
	.byte	128                             # 0x80
	.byte	0                               # 0x0
	.byte	128                             # 0x80
	.byte	0                               # 0x0
	.byte	128                             # 0x80
	.byte	0                               # 0x0
	.byte	128                             # 0x80
	.byte	0                               # 0x0
l_gcm_v2_CPI16_5:
	.byte	128                             # 0x80
	.byte	128                             # 0x80
	.byte	128                             # 0x80
	.byte	128                             # 0x80
	.byte	128                             # 0x80
	.byte	128                             # 0x80
	.byte	128                             # 0x80
	.byte	128                             # 0x80
	.byte	8                               # 0x8
	.byte	8                               # 0x8
	.byte	8                               # 0x8
	.byte	8                               # 0x8
	.byte	8                               # 0x8
	.byte	8                               # 0x8
	.byte	8                               # 0x8
	.byte	8                               # 0x8
l_gcm_v2_CPI16_6:
	.byte	128                             # 0x80
	.byte	128                             # 0x80
	.byte	128                             # 0x80
	.byte	128                             # 0x80
	.byte	8                               # 0x8
	.byte	8                               # 0x8
	.byte	8                               # 0x8
	.byte	8                               # 0x8
	.byte	128                             # 0x80
	.byte	128                             # 0x80
	.byte	128                             # 0x80
	.byte	128                             # 0x80
	.byte	8                               # 0x8
	.byte	8                               # 0x8
	.byte	8                               # 0x8
	.byte	8                               # 0x8
l_gcm_v2_CPI16_7:
	.byte	128                             # 0x80
	.byte	128                             # 0x80
	.byte	8                               # 0x8
	.byte	8                               # 0x8
	.byte	128                             # 0x80
	.byte	128                             # 0x80
	.byte	8                               # 0x8
	.byte	8                               # 0x8
	.byte	128                             # 0x80
	.byte	128                             # 0x80
	.byte	8                               # 0x8
	.byte	8                               # 0x8
	.byte	128                             # 0x80
	.byte	128                             # 0x80
	.byte	8                               # 0x8
	.byte	8                               # 0x8
l_gcm_v2_CPI16_8:
	.byte	128                             # 0x80
	.byte	8                               # 0x8
	.byte	128                             # 0x80
	.byte	8                               # 0x8
	.byte	128                             # 0x80
	.byte	8                               # 0x8
	.byte	128                             # 0x80
	.byte	8                               # 0x8
	.byte	128                             # 0x80
	.byte	8                               # 0x8
	.byte	128                             # 0x80
	.byte	8                               # 0x8
	.byte	128                             # 0x80
	.byte	8                               # 0x8
	.byte	128                             # 0x80
	.byte	8                               # 0x8
l_gcm_v2_CPI16_9:
	.byte	128                             # 0x80
	.byte	128                             # 0x80
	.byte	128                             # 0x80
	.byte	128                             # 0x80
	.byte	128                             # 0x80
	.byte	128                             # 0x80
	.byte	128                             # 0x80
	.byte	128                             # 0x80
	.byte	1                               # 0x1
	.byte	1                               # 0x1
	.byte	1                               # 0x1
	.byte	1                               # 0x1
	.byte	1                               # 0x1
	.byte	1                               # 0x1
	.byte	1                               # 0x1
	.byte	1                               # 0x1
l_gcm_v2_CPI16_10:
	.byte	128                             # 0x80
	.byte	128                             # 0x80
	.byte	128                             # 0x80
	.byte	128                             # 0x80
	.byte	1                               # 0x1
	.byte	1                               # 0x1
	.byte	1                               # 0x1
	.byte	1                               # 0x1
	.byte	128                             # 0x80
	.byte	128                             # 0x80
	.byte	128                             # 0x80
	.byte	128                             # 0x80
	.byte	1                               # 0x1
	.byte	1                               # 0x1
	.byte	1                               # 0x1
	.byte	1                               # 0x1
l_gcm_v2_CPI16_11:
	.byte	128                             # 0x80
	.byte	128                             # 0x80
	.byte	1                               # 0x1
	.byte	1                               # 0x1
	.byte	128                             # 0x80
	.byte	128                             # 0x80
	.byte	1                               # 0x1
	.byte	1                               # 0x1
	.byte	128                             # 0x80
	.byte	128                             # 0x80
	.byte	1                               # 0x1
	.byte	1                               # 0x1
	.byte	128                             # 0x80
	.byte	128                             # 0x80
	.byte	1                               # 0x1
	.byte	1                               # 0x1
l_gcm_v2_CPI16_12:
	.byte	128                             # 0x80
	.byte	1                               # 0x1
	.byte	128                             # 0x80
	.byte	1                               # 0x1
	.byte	128                             # 0x80
	.byte	1                               # 0x1
	.byte	128                             # 0x80
	.byte	1                               # 0x1
	.byte	128                             # 0x80
	.byte	1                               # 0x1
	.byte	128                             # 0x80
	.byte	1                               # 0x1
	.byte	128                             # 0x80
	.byte	1                               # 0x1
	.byte	128                             # 0x80
	.byte	1                               # 0x1
l_gcm_v2_CPI16_13:
	.byte	128                             # 0x80
	.byte	128                             # 0x80
	.byte	128                             # 0x80
	.byte	128                             # 0x80
	.byte	128                             # 0x80
	.byte	128                             # 0x80
	.byte	128                             # 0x80
	.byte	128                             # 0x80
	.byte	9                               # 0x9
	.byte	9                               # 0x9
	.byte	9                               # 0x9
	.byte	9                               # 0x9
	.byte	9                               # 0x9
	.byte	9                               # 0x9
	.byte	9                               # 0x9
	.byte	9                               # 0x9
l_gcm_v2_CPI16_14:
	.byte	128                             # 0x80
	.byte	128                             # 0x80
	.byte	128                             # 0x80
	.byte	128                             # 0x80
	.byte	9                               # 0x9
	.byte	9                               # 0x9
	.byte	9                               # 0x9
	.byte	9                               # 0x9
	.byte	128                             # 0x80
	.byte	128                             # 0x80
	.byte	128                             # 0x80
	.byte	128                             # 0x80
	.byte	9                               # 0x9
	.byte	9                               # 0x9
	.byte	9                               # 0x9
	.byte	9                               # 0x9
l_gcm_v2_CPI16_15:
	.byte	128                             # 0x80
	.byte	128                             # 0x80
	.byte	9                               # 0x9
	.byte	9                               # 0x9
	.byte	128                             # 0x80
	.byte	128                             # 0x80
	.byte	9                               # 0x9
	.byte	9                               # 0x9
	.byte	128                             # 0x80
	.byte	128                             # 0x80
	.byte	9                               # 0x9
	.byte	9                               # 0x9
	.byte	128                             # 0x80
	.byte	128                             # 0x80
	.byte	9                               # 0x9
	.byte	9                               # 0x9
l_gcm_v2_CPI16_16:
	.byte	128                             # 0x80
	.byte	9                               # 0x9
	.byte	128                             # 0x80
	.byte	9                               # 0x9
	.byte	128                             # 0x80
	.byte	9                               # 0x9
	.byte	128                             # 0x80
	.byte	9                               # 0x9
	.byte	128                             # 0x80
	.byte	9                               # 0x9
	.byte	128                             # 0x80
	.byte	9                               # 0x9
	.byte	128                             # 0x80
	.byte	9                               # 0x9
	.byte	128                             # 0x80
	.byte	9                               # 0x9
l_gcm_v2_CPI16_17:
	.byte	128                             # 0x80
	.byte	128                             # 0x80
	.byte	128                             # 0x80
	.byte	128                             # 0x80
	.byte	128                             # 0x80
	.byte	128                             # 0x80
	.byte	128                             # 0x80
	.byte	128                             # 0x80
	.byte	2                               # 0x2
	.byte	2                               # 0x2
	.byte	2                               # 0x2
	.byte	2                               # 0x2
	.byte	2                               # 0x2
	.byte	2                               # 0x2
	.byte	2                               # 0x2
	.byte	2                               # 0x2
l_gcm_v2_CPI16_18:
	.byte	128                             # 0x80
	.byte	128                             # 0x80
	.byte	128                             # 0x80
	.byte	128                             # 0x80
	.byte	2                               # 0x2
	.byte	2                               # 0x2
	.byte	2                               # 0x2
	.byte	2                               # 0x2
	.byte	128                             # 0x80
	.byte	128                             # 0x80
	.byte	128                             # 0x80
	.byte	128                             # 0x80
	.byte	2                               # 0x2
	.byte	2                               # 0x2
	.byte	2                               # 0x2
	.byte	2                               # 0x2
l_gcm_v2_CPI16_19:
	.byte	128                             # 0x80
	.byte	128                             # 0x80
	.byte	2                               # 0x2
	.byte	2                               # 0x2
	.byte	128                             # 0x80
	.byte	128                             # 0x80
	.byte	2                               # 0x2
	.byte	2                               # 0x2
	.byte	128                             # 0x80
	.byte	128                             # 0x80
	.byte	2                               # 0x2
	.byte	2                               # 0x2
	.byte	128                             # 0x80
	.byte	128                             # 0x80
	.byte	2                               # 0x2
	.byte	2                               # 0x2
l_gcm_v2_CPI16_20:
	.byte	128                             # 0x80
	.byte	2                               # 0x2
	.byte	128                             # 0x80
	.byte	2                               # 0x2
	.byte	128                             # 0x80
	.byte	2                               # 0x2
	.byte	128                             # 0x80
	.byte	2                               # 0x2
	.byte	128                             # 0x80
	.byte	2                               # 0x2
	.byte	128                             # 0x80
	.byte	2                               # 0x2
	.byte	128                             # 0x80
	.byte	2                               # 0x2
	.byte	128                             # 0x80
	.byte	2                               # 0x2
l_gcm_v2_CPI16_21:
	.byte	128                             # 0x80
	.byte	128                             # 0x80
	.byte	128                             # 0x80
	.byte	128                             # 0x80
	.byte	128                             # 0x80
	.byte	128                             # 0x80
	.byte	128                             # 0x80
	.byte	128                             # 0x80
	.byte	10                              # 0xa
	.byte	10                              # 0xa
	.byte	10                              # 0xa
	.byte	10                              # 0xa
	.byte	10                              # 0xa
	.byte	10                              # 0xa
	.byte	10                              # 0xa
	.byte	10                              # 0xa
l_gcm_v2_CPI16_22:
	.byte	128                             # 0x80
	.byte	128                             # 0x80
	.byte	128                             # 0x80
	.byte	128                             # 0x80
	.byte	10                              # 0xa
	.byte	10                              # 0xa
	.byte	10                              # 0xa
	.byte	10                              # 0xa
	.byte	128                             # 0x80
	.byte	128                             # 0x80
	.byte	128                             # 0x80
	.byte	128                             # 0x80
	.byte	10                              # 0xa
	.byte	10                              # 0xa
	.byte	10                              # 0xa
	.byte	10                              # 0xa
l_gcm_v2_CPI16_23:
	.byte	128                             # 0x80
	.byte	128                             # 0x80
	.byte	10                              # 0xa
	.byte	10                              # 0xa
	.byte	128                             # 0x80
	.byte	128                             # 0x80
	.byte	10                              # 0xa
	.byte	10                              # 0xa
	.byte	128                             # 0x80
	.byte	128                             # 0x80
	.byte	10                              # 0xa
	.byte	10                              # 0xa
	.byte	128                             # 0x80
	.byte	128                             # 0x80
	.byte	10                              # 0xa
	.byte	10                              # 0xa
l_gcm_v2_CPI16_24:
	.byte	128                             # 0x80
	.byte	10                              # 0xa
	.byte	128                             # 0x80
	.byte	10                              # 0xa
	.byte	128                             # 0x80
	.byte	10                              # 0xa
	.byte	128                             # 0x80
	.byte	10                              # 0xa
	.byte	128                             # 0x80
	.byte	10                              # 0xa
	.byte	128                             # 0x80
	.byte	10                              # 0xa
	.byte	128                             # 0x80
	.byte	10                              # 0xa
	.byte	128                             # 0x80
	.byte	10                              # 0xa
l_gcm_v2_CPI16_25:
	.byte	128                             # 0x80
	.byte	128                             # 0x80
	.byte	128                             # 0x80
	.byte	128                             # 0x80
	.byte	128                             # 0x80
	.byte	128                             # 0x80
	.byte	128                             # 0x80
	.byte	128                             # 0x80
	.byte	3                               # 0x3
	.byte	3                               # 0x3
	.byte	3                               # 0x3
	.byte	3                               # 0x3
	.byte	3                               # 0x3
	.byte	3                               # 0x3
	.byte	3                               # 0x3
	.byte	3                               # 0x3
l_gcm_v2_CPI16_26:
	.byte	128                             # 0x80
	.byte	128                             # 0x80
	.byte	128                             # 0x80
	.byte	128                             # 0x80
	.byte	3                               # 0x3
	.byte	3                               # 0x3
	.byte	3                               # 0x3
	.byte	3                               # 0x3
	.byte	128                             # 0x80
	.byte	128                             # 0x80
	.byte	128                             # 0x80
	.byte	128                             # 0x80
	.byte	3                               # 0x3
	.byte	3                               # 0x3
	.byte	3                               # 0x3
	.byte	3                               # 0x3
l_gcm_v2_CPI16_27:
	.byte	128                             # 0x80
	.byte	128                             # 0x80
	.byte	3                               # 0x3
	.byte	3                               # 0x3
	.byte	128                             # 0x80
	.byte	128                             # 0x80
	.byte	3                               # 0x3
	.byte	3                               # 0x3
	.byte	128                             # 0x80
	.byte	128                             # 0x80
	.byte	3                               # 0x3
	.byte	3                               # 0x3
	.byte	128                             # 0x80
	.byte	128                             # 0x80
	.byte	3                               # 0x3
	.byte	3                               # 0x3
l_gcm_v2_CPI16_28:
	.byte	128                             # 0x80
	.byte	3                               # 0x3
	.byte	128                             # 0x80
	.byte	3                               # 0x3
	.byte	128                             # 0x80
	.byte	3                               # 0x3
	.byte	128                             # 0x80
	.byte	3                               # 0x3
	.byte	128                             # 0x80
	.byte	3                               # 0x3
	.byte	128                             # 0x80
	.byte	3                               # 0x3
	.byte	128                             # 0x80
	.byte	3                               # 0x3
	.byte	128                             # 0x80
	.byte	3                               # 0x3
l_gcm_v2_CPI16_29:
	.byte	128                             # 0x80
	.byte	128                             # 0x80
	.byte	128                             # 0x80
	.byte	128                             # 0x80
	.byte	128                             # 0x80
	.byte	128                             # 0x80
	.byte	128                             # 0x80
	.byte	128                             # 0x80
	.byte	11                              # 0xb
	.byte	11                              # 0xb
	.byte	11                              # 0xb
	.byte	11                              # 0xb
	.byte	11                              # 0xb
	.byte	11                              # 0xb
	.byte	11                              # 0xb
	.byte	11                              # 0xb
l_gcm_v2_CPI16_30:
	.byte	128                             # 0x80
	.byte	128                             # 0x80
	.byte	128                             # 0x80
	.byte	128                             # 0x80
	.byte	11                              # 0xb
	.byte	11                              # 0xb
	.byte	11                              # 0xb
	.byte	11                              # 0xb
	.byte	128                             # 0x80
	.byte	128                             # 0x80
	.byte	128                             # 0x80
	.byte	128                             # 0x80
	.byte	11                              # 0xb
	.byte	11                              # 0xb
	.byte	11                              # 0xb
	.byte	11                              # 0xb
l_gcm_v2_CPI16_31:
	.byte	128                             # 0x80
	.byte	128                             # 0x80
	.byte	11                              # 0xb
	.byte	11                              # 0xb
	.byte	128                             # 0x80
	.byte	128                             # 0x80
	.byte	11                              # 0xb
	.byte	11                              # 0xb
	.byte	128                             # 0x80
	.byte	128                             # 0x80
	.byte	11                              # 0xb
	.byte	11                              # 0xb
	.byte	128                             # 0x80
	.byte	128                             # 0x80
	.byte	11                              # 0xb
	.byte	11                              # 0xb
l_gcm_v2_CPI16_32:
	.byte	128                             # 0x80
	.byte	11                              # 0xb
	.byte	128                             # 0x80
	.byte	11                              # 0xb
	.byte	128                             # 0x80
	.byte	11                              # 0xb
	.byte	128                             # 0x80
	.byte	11                              # 0xb
	.byte	128                             # 0x80
	.byte	11                              # 0xb
	.byte	128                             # 0x80
	.byte	11                              # 0xb
	.byte	128                             # 0x80
	.byte	11                              # 0xb
	.byte	128                             # 0x80
	.byte	11                              # 0xb
l_gcm_v2_CPI16_33:
	.byte	128                             # 0x80
	.byte	128                             # 0x80
	.byte	128                             # 0x80
	.byte	128                             # 0x80
	.byte	128                             # 0x80
	.byte	128                             # 0x80
	.byte	128                             # 0x80
	.byte	128                             # 0x80
	.byte	4                               # 0x4
	.byte	4                               # 0x4
	.byte	4                               # 0x4
	.byte	4                               # 0x4
	.byte	4                               # 0x4
	.byte	4                               # 0x4
	.byte	4                               # 0x4
	.byte	4                               # 0x4
l_gcm_v2_CPI16_34:
	.byte	128                             # 0x80
	.byte	128                             # 0x80
	.byte	128                             # 0x80
	.byte	128                             # 0x80
	.byte	4                               # 0x4
	.byte	4                               # 0x4
	.byte	4                               # 0x4
	.byte	4                               # 0x4
	.byte	128                             # 0x80
	.byte	128                             # 0x80
	.byte	128                             # 0x80
	.byte	128                             # 0x80
	.byte	4                               # 0x4
	.byte	4                               # 0x4
	.byte	4                               # 0x4
	.byte	4                               # 0x4
l_gcm_v2_CPI16_35:
	.byte	128                             # 0x80
	.byte	128                             # 0x80
	.byte	4                               # 0x4
	.byte	4                               # 0x4
	.byte	128                             # 0x80
	.byte	128                             # 0x80
	.byte	4                               # 0x4
	.byte	4                               # 0x4
	.byte	128                             # 0x80
	.byte	128                             # 0x80
	.byte	4                               # 0x4
	.byte	4                               # 0x4
	.byte	128                             # 0x80
	.byte	128                             # 0x80
	.byte	4                               # 0x4
	.byte	4                               # 0x4
l_gcm_v2_CPI16_36:
	.byte	128                             # 0x80
	.byte	4                               # 0x4
	.byte	128                             # 0x80
	.byte	4                               # 0x4
	.byte	128                             # 0x80
	.byte	4                               # 0x4
	.byte	128                             # 0x80
	.byte	4                               # 0x4
	.byte	128                             # 0x80
	.byte	4                               # 0x4
	.byte	128                             # 0x80
	.byte	4                               # 0x4
	.byte	128                             # 0x80
	.byte	4                               # 0x4
	.byte	128                             # 0x80
	.byte	4                               # 0x4
l_gcm_v2_CPI16_37:
	.byte	128                             # 0x80
	.byte	128                             # 0x80
	.byte	128                             # 0x80
	.byte	128                             # 0x80
	.byte	128                             # 0x80
	.byte	128                             # 0x80
	.byte	128                             # 0x80
	.byte	128                             # 0x80
	.byte	12                              # 0xc
	.byte	12                              # 0xc
	.byte	12                              # 0xc
	.byte	12                              # 0xc
	.byte	12                              # 0xc
	.byte	12                              # 0xc
	.byte	12                              # 0xc
	.byte	12                              # 0xc
l_gcm_v2_CPI16_38:
	.byte	128                             # 0x80
	.byte	128                             # 0x80
	.byte	128                             # 0x80
	.byte	128                             # 0x80
	.byte	12                              # 0xc
	.byte	12                              # 0xc
	.byte	12                              # 0xc
	.byte	12                              # 0xc
	.byte	128                             # 0x80
	.byte	128                             # 0x80
	.byte	128                             # 0x80
	.byte	128                             # 0x80
	.byte	12                              # 0xc
	.byte	12                              # 0xc
	.byte	12                              # 0xc
	.byte	12                              # 0xc
l_gcm_v2_CPI16_39:
	.byte	128                             # 0x80
	.byte	128                             # 0x80
	.byte	12                              # 0xc
	.byte	12                              # 0xc
	.byte	128                             # 0x80
	.byte	128                             # 0x80
	.byte	12                              # 0xc
	.byte	12                              # 0xc
	.byte	128                             # 0x80
	.byte	128                             # 0x80
	.byte	12                              # 0xc
	.byte	12                              # 0xc
	.byte	128                             # 0x80
	.byte	128                             # 0x80
	.byte	12                              # 0xc
	.byte	12                              # 0xc
l_gcm_v2_CPI16_40:
	.byte	128                             # 0x80
	.byte	12                              # 0xc
	.byte	128                             # 0x80
	.byte	12                              # 0xc
	.byte	128                             # 0x80
	.byte	12                              # 0xc
	.byte	128                             # 0x80
	.byte	12                              # 0xc
	.byte	128                             # 0x80
	.byte	12                              # 0xc
	.byte	128                             # 0x80
	.byte	12                              # 0xc
	.byte	128                             # 0x80
	.byte	12                              # 0xc
	.byte	128                             # 0x80
	.byte	12                              # 0xc
l_gcm_v2_CPI16_41:
	.byte	128                             # 0x80
	.byte	128                             # 0x80
	.byte	128                             # 0x80
	.byte	128                             # 0x80
	.byte	128                             # 0x80
	.byte	128                             # 0x80
	.byte	128                             # 0x80
	.byte	128                             # 0x80
	.byte	5                               # 0x5
	.byte	5                               # 0x5
	.byte	5                               # 0x5
	.byte	5                               # 0x5
	.byte	5                               # 0x5
	.byte	5                               # 0x5
	.byte	5                               # 0x5
	.byte	5                               # 0x5
l_gcm_v2_CPI16_42:
	.byte	128                             # 0x80
	.byte	128                             # 0x80
	.byte	128                             # 0x80
	.byte	128                             # 0x80
	.byte	5                               # 0x5
	.byte	5                               # 0x5
	.byte	5                               # 0x5
	.byte	5                               # 0x5
	.byte	128                             # 0x80
	.byte	128                             # 0x80
	.byte	128                             # 0x80
	.byte	128                             # 0x80
	.byte	5                               # 0x5
	.byte	5                               # 0x5
	.byte	5                               # 0x5
	.byte	5                               # 0x5
l_gcm_v2_CPI16_43:
	.byte	128                             # 0x80
	.byte	128                             # 0x80
	.byte	5                               # 0x5
	.byte	5                               # 0x5
	.byte	128                             # 0x80
	.byte	128                             # 0x80
	.byte	5                               # 0x5
	.byte	5                               # 0x5
	.byte	128                             # 0x80
	.byte	128                             # 0x80
	.byte	5                               # 0x5
	.byte	5                               # 0x5
	.byte	128                             # 0x80
	.byte	128                             # 0x80
	.byte	5                               # 0x5
	.byte	5                               # 0x5
l_gcm_v2_CPI16_44:
	.byte	128                             # 0x80
	.byte	5                               # 0x5
	.byte	128                             # 0x80
	.byte	5                               # 0x5
	.byte	128                             # 0x80
	.byte	5                               # 0x5
	.byte	128                             # 0x80
	.byte	5                               # 0x5
	.byte	128                             # 0x80
	.byte	5                               # 0x5
	.byte	128                             # 0x80
	.byte	5                               # 0x5
	.byte	128                             # 0x80
	.byte	5                               # 0x5
	.byte	128                             # 0x80
	.byte	5                               # 0x5
l_gcm_v2_CPI16_45:
	.byte	128                             # 0x80
	.byte	128                             # 0x80
	.byte	128                             # 0x80
	.byte	128                             # 0x80
	.byte	128                             # 0x80
	.byte	128                             # 0x80
	.byte	128                             # 0x80
	.byte	128                             # 0x80
	.byte	13                              # 0xd
	.byte	13                              # 0xd
	.byte	13                              # 0xd
	.byte	13                              # 0xd
	.byte	13                              # 0xd
	.byte	13                              # 0xd
	.byte	13                              # 0xd
	.byte	13                              # 0xd
l_gcm_v2_CPI16_46:
	.byte	128                             # 0x80
	.byte	128                             # 0x80
	.byte	128                             # 0x80
	.byte	128                             # 0x80
	.byte	13                              # 0xd
	.byte	13                              # 0xd
	.byte	13                              # 0xd
	.byte	13                              # 0xd
	.byte	128                             # 0x80
	.byte	128                             # 0x80
	.byte	128                             # 0x80
	.byte	128                             # 0x80
	.byte	13                              # 0xd
	.byte	13                              # 0xd
	.byte	13                              # 0xd
	.byte	13                              # 0xd
l_gcm_v2_CPI16_47:
	.byte	128                             # 0x80
	.byte	128                             # 0x80
	.byte	13                              # 0xd
	.byte	13                              # 0xd
	.byte	128                             # 0x80
	.byte	128                             # 0x80
	.byte	13                              # 0xd
	.byte	13                              # 0xd
	.byte	128                             # 0x80
	.byte	128                             # 0x80
	.byte	13                              # 0xd
	.byte	13                              # 0xd
	.byte	128                             # 0x80
	.byte	128                             # 0x80
	.byte	13                              # 0xd
	.byte	13                              # 0xd
l_gcm_v2_CPI16_48:
	.byte	128                             # 0x80
	.byte	13                              # 0xd
	.byte	128                             # 0x80
	.byte	13                              # 0xd
	.byte	128                             # 0x80
	.byte	13                              # 0xd
	.byte	128                             # 0x80
	.byte	13                              # 0xd
	.byte	128                             # 0x80
	.byte	13                              # 0xd
	.byte	128                             # 0x80
	.byte	13                              # 0xd
	.byte	128                             # 0x80
	.byte	13                              # 0xd
	.byte	128                             # 0x80
	.byte	13                              # 0xd
l_gcm_v2_CPI16_49:
	.byte	128                             # 0x80
	.byte	128                             # 0x80
	.byte	128                             # 0x80
	.byte	128                             # 0x80
	.byte	128                             # 0x80
	.byte	128                             # 0x80
	.byte	128                             # 0x80
	.byte	128                             # 0x80
	.byte	6                               # 0x6
	.byte	6                               # 0x6
	.byte	6                               # 0x6
	.byte	6                               # 0x6
	.byte	6                               # 0x6
	.byte	6                               # 0x6
	.byte	6                               # 0x6
	.byte	6                               # 0x6
l_gcm_v2_CPI16_50:
	.byte	128                             # 0x80
	.byte	128                             # 0x80
	.byte	128                             # 0x80
	.byte	128                             # 0x80
	.byte	6                               # 0x6
	.byte	6                               # 0x6
	.byte	6                               # 0x6
	.byte	6                               # 0x6
	.byte	128                             # 0x80
	.byte	128                             # 0x80
	.byte	128                             # 0x80
	.byte	128                             # 0x80
	.byte	6                               # 0x6
	.byte	6                               # 0x6
	.byte	6                               # 0x6
	.byte	6                               # 0x6
l_gcm_v2_CPI16_51:
	.byte	128                             # 0x80
	.byte	128                             # 0x80
	.byte	6                               # 0x6
	.byte	6                               # 0x6
	.byte	128                             # 0x80
	.byte	128                             # 0x80
	.byte	6                               # 0x6
	.byte	6                               # 0x6
	.byte	128                             # 0x80
	.byte	128                             # 0x80
	.byte	6                               # 0x6
	.byte	6                               # 0x6
	.byte	128                             # 0x80
	.byte	128                             # 0x80
	.byte	6                               # 0x6
	.byte	6                               # 0x6
l_gcm_v2_CPI16_52:
	.byte	128                             # 0x80
	.byte	6                               # 0x6
	.byte	128                             # 0x80
	.byte	6                               # 0x6
	.byte	128                             # 0x80
	.byte	6                               # 0x6
	.byte	128                             # 0x80
	.byte	6                               # 0x6
	.byte	128                             # 0x80
	.byte	6                               # 0x6
	.byte	128                             # 0x80
	.byte	6                               # 0x6
	.byte	128                             # 0x80
	.byte	6                               # 0x6
	.byte	128                             # 0x80
	.byte	6                               # 0x6
l_gcm_v2_CPI16_53:
	.byte	128                             # 0x80
	.byte	128                             # 0x80
	.byte	128                             # 0x80
	.byte	128                             # 0x80
	.byte	128                             # 0x80
	.byte	128                             # 0x80
	.byte	128                             # 0x80
	.byte	128                             # 0x80
	.byte	14                              # 0xe
	.byte	14                              # 0xe
	.byte	14                              # 0xe
	.byte	14                              # 0xe
	.byte	14                              # 0xe
	.byte	14                              # 0xe
	.byte	14                              # 0xe
	.byte	14                              # 0xe
l_gcm_v2_CPI16_54:
	.byte	128                             # 0x80
	.byte	128                             # 0x80
	.byte	128                             # 0x80
	.byte	128                             # 0x80
	.byte	14                              # 0xe
	.byte	14                              # 0xe
	.byte	14                              # 0xe
	.byte	14                              # 0xe
	.byte	128                             # 0x80
	.byte	128                             # 0x80
	.byte	128                             # 0x80
	.byte	128                             # 0x80
	.byte	14                              # 0xe
	.byte	14                              # 0xe
	.byte	14                              # 0xe
	.byte	14                              # 0xe
l_gcm_v2_CPI16_55:
	.byte	128                             # 0x80
	.byte	128                             # 0x80
	.byte	14                              # 0xe
	.byte	14                              # 0xe
	.byte	128                             # 0x80
	.byte	128                             # 0x80
	.byte	14                              # 0xe
	.byte	14                              # 0xe
	.byte	128                             # 0x80
	.byte	128                             # 0x80
	.byte	14                              # 0xe
	.byte	14                              # 0xe
	.byte	128                             # 0x80
	.byte	128                             # 0x80
	.byte	14                              # 0xe
	.byte	14                              # 0xe
l_gcm_v2_CPI16_56:
	.byte	128                             # 0x80
	.byte	14                              # 0xe
	.byte	128                             # 0x80
	.byte	14                              # 0xe
	.byte	128                             # 0x80
	.byte	14                              # 0xe
	.byte	128                             # 0x80
	.byte	14                              # 0xe
	.byte	128                             # 0x80
	.byte	14                              # 0xe
	.byte	128                             # 0x80
	.byte	14                              # 0xe
	.byte	128                             # 0x80
	.byte	14                              # 0xe
	.byte	128                             # 0x80
	.byte	14                              # 0xe
l_gcm_v2_CPI16_57:
	.byte	128                             # 0x80
	.byte	128                             # 0x80
	.byte	128                             # 0x80
	.byte	128                             # 0x80
	.byte	128                             # 0x80
	.byte	128                             # 0x80
	.byte	128                             # 0x80
	.byte	128                             # 0x80
	.byte	7                               # 0x7
	.byte	7                               # 0x7
	.byte	7                               # 0x7
	.byte	7                               # 0x7
	.byte	7                               # 0x7
	.byte	7                               # 0x7
	.byte	7                               # 0x7
	.byte	7                               # 0x7
l_gcm_v2_CPI16_58:
	.byte	128                             # 0x80
	.byte	128                             # 0x80
	.byte	128                             # 0x80
	.byte	128                             # 0x80
	.byte	7                               # 0x7
	.byte	7                               # 0x7
	.byte	7                               # 0x7
	.byte	7                               # 0x7
	.byte	128                             # 0x80
	.byte	128                             # 0x80
	.byte	128                             # 0x80
	.byte	128                             # 0x80
	.byte	7                               # 0x7
	.byte	7                               # 0x7
	.byte	7                               # 0x7
	.byte	7                               # 0x7
l_gcm_v2_CPI16_59:
	.byte	128                             # 0x80
	.byte	128                             # 0x80
	.byte	7                               # 0x7
	.byte	7                               # 0x7
	.byte	128                             # 0x80
	.byte	128                             # 0x80
	.byte	7                               # 0x7
	.byte	7                               # 0x7
	.byte	128                             # 0x80
	.byte	128                             # 0x80
	.byte	7                               # 0x7
	.byte	7                               # 0x7
	.byte	128                             # 0x80
	.byte	128                             # 0x80
	.byte	7                               # 0x7
	.byte	7                               # 0x7
l_gcm_v2_CPI16_60:
	.byte	128                             # 0x80
	.byte	7                               # 0x7
	.byte	128                             # 0x80
	.byte	7                               # 0x7
	.byte	128                             # 0x80
	.byte	7                               # 0x7
	.byte	128                             # 0x80
	.byte	7                               # 0x7
	.byte	128                             # 0x80
	.byte	7                               # 0x7
	.byte	128                             # 0x80
	.byte	7                               # 0x7
	.byte	128                             # 0x80
	.byte	7                               # 0x7
	.byte	128                             # 0x80
	.byte	7                               # 0x7
l_gcm_v2_CPI16_61:
	.byte	128                             # 0x80
	.byte	128                             # 0x80
	.byte	128                             # 0x80
	.byte	128                             # 0x80
	.byte	128                             # 0x80
	.byte	128                             # 0x80
	.byte	128                             # 0x80
	.byte	128                             # 0x80
	.byte	15                              # 0xf
	.byte	15                              # 0xf
	.byte	15                              # 0xf
	.byte	15                              # 0xf
	.byte	15                              # 0xf
	.byte	15                              # 0xf
	.byte	15                              # 0xf
	.byte	15                              # 0xf
l_gcm_v2_CPI16_62:
	.byte	128                             # 0x80
	.byte	128                             # 0x80
	.byte	128                             # 0x80
	.byte	128                             # 0x80
	.byte	15                              # 0xf
	.byte	15                              # 0xf
	.byte	15                              # 0xf
	.byte	15                              # 0xf
	.byte	128                             # 0x80
	.byte	128                             # 0x80
	.byte	128                             # 0x80
	.byte	128                             # 0x80
	.byte	15                              # 0xf
	.byte	15                              # 0xf
	.byte	15                              # 0xf
	.byte	15                              # 0xf
l_gcm_v2_CPI16_63:
	.byte	128                             # 0x80
	.byte	128                             # 0x80
	.byte	15                              # 0xf
	.byte	15                              # 0xf
	.byte	128                             # 0x80
	.byte	128                             # 0x80
	.byte	15                              # 0xf
	.byte	15                              # 0xf
	.byte	128                             # 0x80
	.byte	128                             # 0x80
	.byte	15                              # 0xf
	.byte	15                              # 0xf
	.byte	128                             # 0x80
	.byte	128                             # 0x80
	.byte	15                              # 0xf
	.byte	15                              # 0xf
l_gcm_v2_CPI16_64:
	.byte	128                             # 0x80
	.byte	15                              # 0xf
	.byte	128                             # 0x80
	.byte	15                              # 0xf
	.byte	128                             # 0x80
	.byte	15                              # 0xf
	.byte	128                             # 0x80
	.byte	15                              # 0xf
	.byte	128                             # 0x80
	.byte	15                              # 0xf
	.byte	128                             # 0x80
	.byte	15                              # 0xf
	.byte	128                             # 0x80
	.byte	15                              # 0xf
	.byte	128                             # 0x80
	.byte	15                              # 0xf
l_gcm_v2_CPI16_65:
	.zero	16,15
l_gcm_v2_CPI16_66:
	.byte	0                               # 0x0
	.byte	28                              # 0x1c
	.byte	56                              # 0x38
	.byte	36                              # 0x24
	.byte	112                             # 0x70
	.byte	108                             # 0x6c
	.byte	72                              # 0x48
	.byte	84                              # 0x54
	.byte	225                             # 0xe1
	.byte	253                             # 0xfd
	.byte	217                             # 0xd9
	.byte	197                             # 0xc5
	.byte	145                             # 0x91
	.byte	141                             # 0x8d
	.byte	169                             # 0xa9
	.byte	181                             # 0xb5
l_gcm_v2_CPI16_67:
	.byte	0                               # 0x0
	.byte	32                              # 0x20
	.byte	64                              # 0x40
	.byte	96                              # 0x60
	.byte	128                             # 0x80
	.byte	160                             # 0xa0
	.byte	192                             # 0xc0
	.byte	224                             # 0xe0
	.byte	0                               # 0x0
	.byte	32                              # 0x20
	.byte	64                              # 0x40
	.byte	96                              # 0x60
	.byte	128                             # 0x80
	.byte	160                             # 0xa0
	.byte	192                             # 0xc0
	.byte	224                             # 0xe0
l_gcm_v2_CPI16_68:
	.zero	16,240
	.section	__TEXT,__text,regular,pure_instructions
	.p2align	4
_gcm_v2.gcm.multiples.put_table:            # @_gcm_v2.gcm.multiples.put_table
# %bb.0:                                # %start
	movq	%rdx, %rax
	movq	%rdx, %xmm0
	shldq	$63, %rsi, %rdx
	movq	%rsi, %rcx
	movq	%rsi, %r8
	movq	%rsi, %xmm1
                                        # kill: def $esi killed $esi killed $rsi def $rsi
	andl	$1, %esi
	negq	%rsi
	movabsq	$-2233785415175766016, %r9      # imm = 0xE100000000000000
	andq	%r9, %rsi
	shrq	%rax
	xorq	%rax, %rsi
	shldq	$63, %rdx, %rax
	movq	%rsi, %xmm2
	shrq	%rsi
	shlq	$62, %rcx
	sarq	$63, %rcx
	andq	%r9, %rcx
	xorq	%rsi, %rcx
	shldq	$63, %rax, %rsi
	movq	%rcx, %xmm5
	shrq	%rcx
	shlq	$61, %r8
	sarq	$63, %r8
	andq	%r9, %r8
	xorq	%rcx, %r8
	movq	%rsi, %xmm3
	movq	%r8, %xmm4
	punpcklqdq	%xmm4, %xmm3            # xmm3 = xmm3[0],xmm4[0]
	movdqa	l_gcm_v2_CPI16_0(%rip), %xmm6          # xmm6 = [15,14,13,12,11,10,9,8,7,6,5,4,3,2,1,0]
	pshufb	%xmm6, %xmm3
	movq	%rax, %xmm4
	punpcklqdq	%xmm5, %xmm4            # xmm4 = xmm4[0],xmm5[0]
	pshufb	%xmm6, %xmm4
	movq	%rdx, %xmm5
	punpcklqdq	%xmm2, %xmm5            # xmm5 = xmm5[0],xmm2[0]
	punpcklqdq	%xmm0, %xmm1            # xmm1 = xmm1[0],xmm0[0]
	pshufb	%xmm6, %xmm1
	movdqa	%xmm1, %xmm0
	pshufb	l_gcm_v2_CPI16_1(%rip), %xmm0          # xmm0 = zero,zero,zero,zero,zero,zero,zero,zero,xmm0[0,0,0,0,0,0,0,0]
	pshufb	%xmm6, %xmm5
	movdqa	%xmm5, %xmm2
	pshufb	l_gcm_v2_CPI16_2(%rip), %xmm2          # xmm2 = zero,zero,zero,zero,xmm2[0,0,0,0],zero,zero,zero,zero,xmm2[0,0,0,0]
	pxor	%xmm0, %xmm2
	movdqa	%xmm4, %xmm6
	pshufb	l_gcm_v2_CPI16_3(%rip), %xmm6          # xmm6 = zero,zero,xmm6[0,0],zero,zero,xmm6[0,0],zero,zero,xmm6[0,0],zero,zero,xmm6[0,0]
	pxor	%xmm2, %xmm6
	movdqa	%xmm3, %xmm0
	pshufb	l_gcm_v2_CPI16_4(%rip), %xmm0          # xmm0 = zero,xmm0[0],zero,xmm0[0],zero,xmm0[0],zero,xmm0[0],zero,xmm0[0],zero,xmm0[0],zero,xmm0[0],zero,xmm0[0]
	pxor	%xmm6, %xmm0
	movdqa	%xmm1, %xmm2
	pshufb	l_gcm_v2_CPI16_5(%rip), %xmm2          # xmm2 = zero,zero,zero,zero,zero,zero,zero,zero,xmm2[8,8,8,8,8,8,8,8]
	movdqu	%xmm0, (%rdi)
	movdqa	%xmm5, %xmm6
	pshufb	l_gcm_v2_CPI16_6(%rip), %xmm6          # xmm6 = zero,zero,zero,zero,xmm6[8,8,8,8],zero,zero,zero,zero,xmm6[8,8,8,8]
	pxor	%xmm2, %xmm6
	movdqa	%xmm4, %xmm7
	pshufb	l_gcm_v2_CPI16_7(%rip), %xmm7          # xmm7 = zero,zero,xmm7[8,8],zero,zero,xmm7[8,8],zero,zero,xmm7[8,8],zero,zero,xmm7[8,8]
	pxor	%xmm6, %xmm7
	movdqa	%xmm3, %xmm2
	pshufb	l_gcm_v2_CPI16_8(%rip), %xmm2          # xmm2 = zero,xmm2[8],zero,xmm2[8],zero,xmm2[8],zero,xmm2[8],zero,xmm2[8],zero,xmm2[8],zero,xmm2[8],zero,xmm2[8]
	pxor	%xmm7, %xmm2
	movdqa	%xmm1, %xmm6
	pshufb	l_gcm_v2_CPI16_9(%rip), %xmm6          # xmm6 = zero,zero,zero,zero,zero,zero,zero,zero,xmm6[1,1,1,1,1,1,1,1]
	movdqu	%xmm2, 16(%rdi)
	movdqa	%xmm5, %xmm7
	pshufb	l_gcm_v2_CPI16_10(%rip), %xmm7         # xmm7 = zero,zero,zero,zero,xmm7[1,1,1,1],zero,zero,zero,zero,xmm7[1,1,1,1]
	pxor	%xmm6, %xmm7
	movdqa	%xmm4, %xmm8
	pshufb	l_gcm_v2_CPI16_11(%rip), %xmm8         # xmm8 = zero,zero,xmm8[1,1],zero,zero,xmm8[1,1],zero,zero,xmm8[1,1],zero,zero,xmm8[1,1]
	pxor	%xmm7, %xmm8
	movdqa	%xmm3, %xmm6
	pshufb	l_gcm_v2_CPI16_12(%rip), %xmm6         # xmm6 = zero,xmm6[1],zero,xmm6[1],zero,xmm6[1],zero,xmm6[1],zero,xmm6[1],zero,xmm6[1],zero,xmm6[1],zero,xmm6[1]
	pxor	%xmm8, %xmm6
	movdqa	%xmm1, %xmm7
	pshufb	l_gcm_v2_CPI16_13(%rip), %xmm7         # xmm7 = zero,zero,zero,zero,zero,zero,zero,zero,xmm7[9,9,9,9,9,9,9,9]
	movdqu	%xmm6, 32(%rdi)
	movdqa	%xmm5, %xmm8
	pshufb	l_gcm_v2_CPI16_14(%rip), %xmm8         # xmm8 = zero,zero,zero,zero,xmm8[9,9,9,9],zero,zero,zero,zero,xmm8[9,9,9,9]
	pxor	%xmm7, %xmm8
	movdqa	%xmm4, %xmm9
	pshufb	l_gcm_v2_CPI16_15(%rip), %xmm9         # xmm9 = zero,zero,xmm9[9,9],zero,zero,xmm9[9,9],zero,zero,xmm9[9,9],zero,zero,xmm9[9,9]
	pxor	%xmm8, %xmm9
	movdqa	%xmm3, %xmm7
	pshufb	l_gcm_v2_CPI16_16(%rip), %xmm7         # xmm7 = zero,xmm7[9],zero,xmm7[9],zero,xmm7[9],zero,xmm7[9],zero,xmm7[9],zero,xmm7[9],zero,xmm7[9],zero,xmm7[9]
	pxor	%xmm9, %xmm7
	movdqa	%xmm1, %xmm8
	pshufb	l_gcm_v2_CPI16_17(%rip), %xmm8         # xmm8 = zero,zero,zero,zero,zero,zero,zero,zero,xmm8[2,2,2,2,2,2,2,2]
	movdqu	%xmm7, 48(%rdi)
	movdqa	%xmm5, %xmm9
	pshufb	l_gcm_v2_CPI16_18(%rip), %xmm9         # xmm9 = zero,zero,zero,zero,xmm9[2,2,2,2],zero,zero,zero,zero,xmm9[2,2,2,2]
	pxor	%xmm8, %xmm9
	movdqa	%xmm4, %xmm8
	pshufb	l_gcm_v2_CPI16_19(%rip), %xmm8         # xmm8 = zero,zero,xmm8[2,2],zero,zero,xmm8[2,2],zero,zero,xmm8[2,2],zero,zero,xmm8[2,2]
	pxor	%xmm9, %xmm8
	movdqa	%xmm3, %xmm9
	pshufb	l_gcm_v2_CPI16_20(%rip), %xmm9         # xmm9 = zero,xmm9[2],zero,xmm9[2],zero,xmm9[2],zero,xmm9[2],zero,xmm9[2],zero,xmm9[2],zero,xmm9[2],zero,xmm9[2]
	pxor	%xmm8, %xmm9
	movdqa	%xmm1, %xmm8
	pshufb	l_gcm_v2_CPI16_21(%rip), %xmm8         # xmm8 = zero,zero,zero,zero,zero,zero,zero,zero,xmm8[10,10,10,10,10,10,10,10]
	movdqu	%xmm9, 64(%rdi)
	movdqa	%xmm5, %xmm9
	pshufb	l_gcm_v2_CPI16_22(%rip), %xmm9         # xmm9 = zero,zero,zero,zero,xmm9[10,10,10,10],zero,zero,zero,zero,xmm9[10,10,10,10]
	pxor	%xmm8, %xmm9
	movdqa	%xmm4, %xmm8
	pshufb	l_gcm_v2_CPI16_23(%rip), %xmm8         # xmm8 = zero,zero,xmm8[10,10],zero,zero,xmm8[10,10],zero,zero,xmm8[10,10],zero,zero,xmm8[10,10]
	pxor	%xmm9, %xmm8
	movdqa	%xmm3, %xmm9
	pshufb	l_gcm_v2_CPI16_24(%rip), %xmm9         # xmm9 = zero,xmm9[10],zero,xmm9[10],zero,xmm9[10],zero,xmm9[10],zero,xmm9[10],zero,xmm9[10],zero,xmm9[10],zero,xmm9[10]
	pxor	%xmm8, %xmm9
	movdqa	%xmm1, %xmm8
	pshufb	l_gcm_v2_CPI16_25(%rip), %xmm8         # xmm8 = zero,zero,zero,zero,zero,zero,zero,zero,xmm8[3,3,3,3,3,3,3,3]
	movdqu	%xmm9, 80(%rdi)
	movdqa	%xmm5, %xmm9
	pshufb	l_gcm_v2_CPI16_26(%rip), %xmm9         # xmm9 = zero,zero,zero,zero,xmm9[3,3,3,3],zero,zero,zero,zero,xmm9[3,3,3,3]
	pxor	%xmm8, %xmm9
	movdqa	%xmm4, %xmm8
	pshufb	l_gcm_v2_CPI16_27(%rip), %xmm8         # xmm8 = zero,zero,xmm8[3,3],zero,zero,xmm8[3,3],zero,zero,xmm8[3,3],zero,zero,xmm8[3,3]
	pxor	%xmm9, %xmm8
	movdqa	%xmm3, %xmm9
	pshufb	l_gcm_v2_CPI16_28(%rip), %xmm9         # xmm9 = zero,xmm9[3],zero,xmm9[3],zero,xmm9[3],zero,xmm9[3],zero,xmm9[3],zero,xmm9[3],zero,xmm9[3],zero,xmm9[3]
	pxor	%xmm8, %xmm9
	movdqa	%xmm1, %xmm8
	pshufb	l_gcm_v2_CPI16_29(%rip), %xmm8         # xmm8 = zero,zero,zero,zero,zero,zero,zero,zero,xmm8[11,11,11,11,11,11,11,11]
	movdqu	%xmm9, 96(%rdi)
	movdqa	%xmm5, %xmm9
	pshufb	l_gcm_v2_CPI16_30(%rip), %xmm9         # xmm9 = zero,zero,zero,zero,xmm9[11,11,11,11],zero,zero,zero,zero,xmm9[11,11,11,11]
	pxor	%xmm8, %xmm9
	movdqa	%xmm4, %xmm8
	pshufb	l_gcm_v2_CPI16_31(%rip), %xmm8         # xmm8 = zero,zero,xmm8[11,11],zero,zero,xmm8[11,11],zero,zero,xmm8[11,11],zero,zero,xmm8[11,11]
	pxor	%xmm9, %xmm8
	movdqa	%xmm3, %xmm9
	pshufb	l_gcm_v2_CPI16_32(%rip), %xmm9         # xmm9 = zero,xmm9[11],zero,xmm9[11],zero,xmm9[11],zero,xmm9[11],zero,xmm9[11],zero,xmm9[11],zero,xmm9[11],zero,xmm9[11]
	pxor	%xmm8, %xmm9
	movdqa	%xmm1, %xmm8
	pshufb	l_gcm_v2_CPI16_33(%rip), %xmm8         # xmm8 = zero,zero,zero,zero,zero,zero,zero,zero,xmm8[4,4,4,4,4,4,4,4]
	movdqu	%xmm9, 112(%rdi)
	movdqa	%xmm5, %xmm9
	pshufb	l_gcm_v2_CPI16_34(%rip), %xmm9         # xmm9 = zero,zero,zero,zero,xmm9[4,4,4,4],zero,zero,zero,zero,xmm9[4,4,4,4]
	pxor	%xmm8, %xmm9
	movdqa	%xmm4, %xmm8
	pshufb	l_gcm_v2_CPI16_35(%rip), %xmm8         # xmm8 = zero,zero,xmm8[4,4],zero,zero,xmm8[4,4],zero,zero,xmm8[4,4],zero,zero,xmm8[4,4]
	pxor	%xmm9, %xmm8
	movdqa	%xmm3, %xmm9
	pshufb	l_gcm_v2_CPI16_36(%rip), %xmm9         # xmm9 = zero,xmm9[4],zero,xmm9[4],zero,xmm9[4],zero,xmm9[4],zero,xmm9[4],zero,xmm9[4],zero,xmm9[4],zero,xmm9[4]
	pxor	%xmm8, %xmm9
	movdqa	%xmm1, %xmm8
	pshufb	l_gcm_v2_CPI16_37(%rip), %xmm8         # xmm8 = zero,zero,zero,zero,zero,zero,zero,zero,xmm8[12,12,12,12,12,12,12,12]
	movdqu	%xmm9, 128(%rdi)
	movdqa	%xmm5, %xmm9
	pshufb	l_gcm_v2_CPI16_38(%rip), %xmm9         # xmm9 = zero,zero,zero,zero,xmm9[12,12,12,12],zero,zero,zero,zero,xmm9[12,12,12,12]
	pxor	%xmm8, %xmm9
	movdqa	%xmm4, %xmm8
	pshufb	l_gcm_v2_CPI16_39(%rip), %xmm8         # xmm8 = zero,zero,xmm8[12,12],zero,zero,xmm8[12,12],zero,zero,xmm8[12,12],zero,zero,xmm8[12,12]
	pxor	%xmm9, %xmm8
	movdqa	%xmm3, %xmm9
	pshufb	l_gcm_v2_CPI16_40(%rip), %xmm9         # xmm9 = zero,xmm9[12],zero,xmm9[12],zero,xmm9[12],zero,xmm9[12],zero,xmm9[12],zero,xmm9[12],zero,xmm9[12],zero,xmm9[12]
	pxor	%xmm8, %xmm9
	movdqa	%xmm1, %xmm8
	pshufb	l_gcm_v2_CPI16_41(%rip), %xmm8         # xmm8 = zero,zero,zero,zero,zero,zero,zero,zero,xmm8[5,5,5,5,5,5,5,5]
	movdqu	%xmm9, 144(%rdi)
	movdqa	%xmm5, %xmm9
	pshufb	l_gcm_v2_CPI16_42(%rip), %xmm9         # xmm9 = zero,zero,zero,zero,xmm9[5,5,5,5],zero,zero,zero,zero,xmm9[5,5,5,5]
	pxor	%xmm8, %xmm9
	movdqa	%xmm4, %xmm8
	pshufb	l_gcm_v2_CPI16_43(%rip), %xmm8         # xmm8 = zero,zero,xmm8[5,5],zero,zero,xmm8[5,5],zero,zero,xmm8[5,5],zero,zero,xmm8[5,5]
	pxor	%xmm9, %xmm8
	movdqa	%xmm3, %xmm9
	pshufb	l_gcm_v2_CPI16_44(%rip), %xmm9         # xmm9 = zero,xmm9[5],zero,xmm9[5],zero,xmm9[5],zero,xmm9[5],zero,xmm9[5],zero,xmm9[5],zero,xmm9[5],zero,xmm9[5]
	pxor	%xmm8, %xmm9
	movdqa	%xmm1, %xmm8
	pshufb	l_gcm_v2_CPI16_45(%rip), %xmm8         # xmm8 = zero,zero,zero,zero,zero,zero,zero,zero,xmm8[13,13,13,13,13,13,13,13]
	movdqu	%xmm9, 160(%rdi)
	movdqa	%xmm5, %xmm9
	pshufb	l_gcm_v2_CPI16_46(%rip), %xmm9         # xmm9 = zero,zero,zero,zero,xmm9[13,13,13,13],zero,zero,zero,zero,xmm9[13,13,13,13]
	pxor	%xmm8, %xmm9
	movdqa	%xmm4, %xmm8
	pshufb	l_gcm_v2_CPI16_47(%rip), %xmm8         # xmm8 = zero,zero,xmm8[13,13],zero,zero,xmm8[13,13],zero,zero,xmm8[13,13],zero,zero,xmm8[13,13]
	pxor	%xmm9, %xmm8
	movdqa	%xmm3, %xmm9
	pshufb	l_gcm_v2_CPI16_48(%rip), %xmm9         # xmm9 = zero,xmm9[13],zero,xmm9[13],zero,xmm9[13],zero,xmm9[13],zero,xmm9[13],zero,xmm9[13],zero,xmm9[13],zero,xmm9[13]
	pxor	%xmm8, %xmm9
	movdqa	%xmm1, %xmm8
	pshufb	l_gcm_v2_CPI16_49(%rip), %xmm8         # xmm8 = zero,zero,zero,zero,zero,zero,zero,zero,xmm8[6,6,6,6,6,6,6,6]
	movdqu	%xmm9, 176(%rdi)
	movdqa	%xmm5, %xmm9
	pshufb	l_gcm_v2_CPI16_50(%rip), %xmm9         # xmm9 = zero,zero,zero,zero,xmm9[6,6,6,6],zero,zero,zero,zero,xmm9[6,6,6,6]
	pxor	%xmm8, %xmm9
	movdqa	%xmm4, %xmm8
	pshufb	l_gcm_v2_CPI16_51(%rip), %xmm8         # xmm8 = zero,zero,xmm8[6,6],zero,zero,xmm8[6,6],zero,zero,xmm8[6,6],zero,zero,xmm8[6,6]
	pxor	%xmm9, %xmm8
	movdqa	%xmm3, %xmm9
	pshufb	l_gcm_v2_CPI16_52(%rip), %xmm9         # xmm9 = zero,xmm9[6],zero,xmm9[6],zero,xmm9[6],zero,xmm9[6],zero,xmm9[6],zero,xmm9[6],zero,xmm9[6],zero,xmm9[6]
	pxor	%xmm8, %xmm9
	movdqa	%xmm1, %xmm8
	pshufb	l_gcm_v2_CPI16_53(%rip), %xmm8         # xmm8 = zero,zero,zero,zero,zero,zero,zero,zero,xmm8[14,14,14,14,14,14,14,14]
	movdqu	%xmm9, 192(%rdi)
	movdqa	%xmm5, %xmm9
	pshufb	l_gcm_v2_CPI16_54(%rip), %xmm9         # xmm9 = zero,zero,zero,zero,xmm9[14,14,14,14],zero,zero,zero,zero,xmm9[14,14,14,14]
	pxor	%xmm8, %xmm9
	movdqa	%xmm4, %xmm8
	pshufb	l_gcm_v2_CPI16_55(%rip), %xmm8         # xmm8 = zero,zero,xmm8[14,14],zero,zero,xmm8[14,14],zero,zero,xmm8[14,14],zero,zero,xmm8[14,14]
	pxor	%xmm9, %xmm8
	movdqa	%xmm3, %xmm9
	pshufb	l_gcm_v2_CPI16_56(%rip), %xmm9         # xmm9 = zero,xmm9[14],zero,xmm9[14],zero,xmm9[14],zero,xmm9[14],zero,xmm9[14],zero,xmm9[14],zero,xmm9[14],zero,xmm9[14]
	pxor	%xmm8, %xmm9
	movdqa	%xmm1, %xmm8
	pshufb	l_gcm_v2_CPI16_57(%rip), %xmm8         # xmm8 = zero,zero,zero,zero,zero,zero,zero,zero,xmm8[7,7,7,7,7,7,7,7]
	movdqu	%xmm9, 208(%rdi)
	movdqa	%xmm5, %xmm9
	pshufb	l_gcm_v2_CPI16_58(%rip), %xmm9         # xmm9 = zero,zero,zero,zero,xmm9[7,7,7,7],zero,zero,zero,zero,xmm9[7,7,7,7]
	pxor	%xmm8, %xmm9
	movdqa	%xmm4, %xmm10
	pshufb	l_gcm_v2_CPI16_59(%rip), %xmm10        # xmm10 = zero,zero,xmm10[7,7],zero,zero,xmm10[7,7],zero,zero,xmm10[7,7],zero,zero,xmm10[7,7]
	pxor	%xmm9, %xmm10
	movdqa	%xmm3, %xmm8
	pshufb	l_gcm_v2_CPI16_60(%rip), %xmm8         # xmm8 = zero,xmm8[7],zero,xmm8[7],zero,xmm8[7],zero,xmm8[7],zero,xmm8[7],zero,xmm8[7],zero,xmm8[7],zero,xmm8[7]
	pxor	%xmm10, %xmm8
	movdqu	%xmm8, 224(%rdi)
	pshufb	l_gcm_v2_CPI16_61(%rip), %xmm1         # xmm1 = zero,zero,zero,zero,zero,zero,zero,zero,xmm1[15,15,15,15,15,15,15,15]
	pshufb	l_gcm_v2_CPI16_62(%rip), %xmm5         # xmm5 = zero,zero,zero,zero,xmm5[15,15,15,15],zero,zero,zero,zero,xmm5[15,15,15,15]
	pshufb	l_gcm_v2_CPI16_63(%rip), %xmm4         # xmm4 = zero,zero,xmm4[15,15],zero,zero,xmm4[15,15],zero,zero,xmm4[15,15],zero,zero,xmm4[15,15]
	pxor	%xmm1, %xmm5
	pxor	%xmm5, %xmm4
	pshufb	l_gcm_v2_CPI16_64(%rip), %xmm3         # xmm3 = zero,xmm3[15],zero,xmm3[15],zero,xmm3[15],zero,xmm3[15],zero,xmm3[15],zero,xmm3[15],zero,xmm3[15],zero,xmm3[15]
	pxor	%xmm4, %xmm3
	movdqu	%xmm3, 240(%rdi)
	movdqa	l_gcm_v2_CPI16_65(%rip), %xmm5         # xmm5 = [15,15,15,15,15,15,15,15,15,15,15,15,15,15,15,15]
	pand	%xmm5, %xmm3
	movdqa	l_gcm_v2_CPI16_66(%rip), %xmm9         # xmm9 = [0,28,56,36,112,108,72,84,225,253,217,197,145,141,169,181]
	pshufb	%xmm3, %xmm9
	movdqa	l_gcm_v2_CPI16_67(%rip), %xmm4         # xmm4 = [0,32,64,96,128,160,192,224,0,32,64,96,128,160,192,224]
	pshufb	%xmm3, %xmm4
	movdqa	%xmm2, %xmm3
	psrlw	$4, %xmm3
	movdqa	l_gcm_v2_CPI16_68(%rip), %xmm1         # xmm1 = [240,240,240,240,240,240,240,240,240,240,240,240,240,240,240,240]
	movdqa	%xmm1, %xmm10
	pandn	%xmm3, %xmm10
	psllw	$4, %xmm8
	pand	%xmm1, %xmm8
	por	%xmm10, %xmm8
	movdqa	%xmm0, %xmm3
	psrlw	$4, %xmm3
	pand	%xmm5, %xmm3
	pxor	%xmm9, %xmm3
	movdqu	%xmm3, 256(%rdi)
	movdqu	%xmm8, 272(%rdi)
	psrlw	$4, %xmm7
	movdqa	%xmm1, %xmm3
	pandn	%xmm7, %xmm3
	psllw	$4, %xmm2
	pand	%xmm1, %xmm2
	por	%xmm3, %xmm2
	psrlw	$4, %xmm6
	movdqa	%xmm1, %xmm3
	pandn	%xmm6, %xmm3
	psllw	$4, %xmm0
	pand	%xmm1, %xmm0
	por	%xmm3, %xmm0
	pxor	%xmm4, %xmm0
	movdqu	%xmm0, 288(%rdi)
	movdqu	%xmm2, 304(%rdi)
	movdqu	32(%rdi), %xmm0
	movdqu	48(%rdi), %xmm4
	movdqu	64(%rdi), %xmm3
	movdqu	80(%rdi), %xmm2
	movdqa	%xmm2, %xmm5
	psrlw	$4, %xmm5
	movdqa	%xmm1, %xmm6
	pandn	%xmm5, %xmm6
	psllw	$4, %xmm4
	pand	%xmm1, %xmm4
	por	%xmm6, %xmm4
	movdqa	%xmm3, %xmm5
	psrlw	$4, %xmm5
	movdqa	%xmm1, %xmm6
	pandn	%xmm5, %xmm6
	psllw	$4, %xmm0
	pand	%xmm1, %xmm0
	por	%xmm6, %xmm0
	movdqu	%xmm0, 320(%rdi)
	movdqu	%xmm4, 336(%rdi)
	movdqu	112(%rdi), %xmm0
	movdqa	%xmm0, %xmm4
	psrlw	$4, %xmm4
	movdqa	%xmm1, %xmm5
	pandn	%xmm4, %xmm5
	psllw	$4, %xmm2
	pand	%xmm1, %xmm2
	por	%xmm5, %xmm2
	movdqu	96(%rdi), %xmm4
	movdqa	%xmm4, %xmm5
	psrlw	$4, %xmm5
	movdqa	%xmm1, %xmm6
	pandn	%xmm5, %xmm6
	psllw	$4, %xmm3
	pand	%xmm1, %xmm3
	por	%xmm6, %xmm3
	movdqu	%xmm3, 352(%rdi)
	movdqu	%xmm2, 368(%rdi)
	movdqu	128(%rdi), %xmm3
	movdqu	144(%rdi), %xmm2
	movdqa	%xmm2, %xmm5
	psrlw	$4, %xmm5
	movdqa	%xmm1, %xmm6
	pandn	%xmm5, %xmm6
	psllw	$4, %xmm0
	pand	%xmm1, %xmm0
	por	%xmm6, %xmm0
	movdqa	%xmm3, %xmm5
	psrlw	$4, %xmm5
	movdqa	%xmm1, %xmm6
	pandn	%xmm5, %xmm6
	psllw	$4, %xmm4
	pand	%xmm1, %xmm4
	por	%xmm6, %xmm4
	movdqu	%xmm4, 384(%rdi)
	movdqu	%xmm0, 400(%rdi)
	movdqu	160(%rdi), %xmm0
	movdqu	176(%rdi), %xmm4
	psrlw	$4, %xmm4
	movdqa	%xmm1, %xmm5
	pandn	%xmm4, %xmm5
	psllw	$4, %xmm2
	pand	%xmm1, %xmm2
	por	%xmm5, %xmm2
	psrlw	$4, %xmm0
	movdqa	%xmm1, %xmm4
	pandn	%xmm0, %xmm4
	psllw	$4, %xmm3
	pand	%xmm1, %xmm3
	por	%xmm4, %xmm3
	movdqu	%xmm3, 416(%rdi)
	movdqu	%xmm2, 432(%rdi)
	movdqu	160(%rdi), %xmm3
	movdqu	176(%rdi), %xmm4
	movdqu	192(%rdi), %xmm2
	movdqu	208(%rdi), %xmm0
	movdqa	%xmm0, %xmm5
	psrlw	$4, %xmm5
	movdqa	%xmm1, %xmm6
	pandn	%xmm5, %xmm6
	psllw	$4, %xmm4
	pand	%xmm1, %xmm4
	por	%xmm6, %xmm4
	movdqa	%xmm2, %xmm5
	psrlw	$4, %xmm5
	movdqa	%xmm1, %xmm6
	pandn	%xmm5, %xmm6
	psllw	$4, %xmm3
	pand	%xmm1, %xmm3
	por	%xmm6, %xmm3
	movdqu	%xmm3, 448(%rdi)
	movdqu	%xmm4, 464(%rdi)
	movdqu	224(%rdi), %xmm3
	movdqu	240(%rdi), %xmm4
	psrlw	$4, %xmm4
	movdqa	%xmm1, %xmm5
	pandn	%xmm4, %xmm5
	psllw	$4, %xmm0
	pand	%xmm1, %xmm0
	por	%xmm5, %xmm0
	psrlw	$4, %xmm3
	psllw	$4, %xmm2
	pand	%xmm1, %xmm2
	pandn	%xmm3, %xmm1
	por	%xmm2, %xmm1
	movdqu	%xmm1, 480(%rdi)
	movdqu	%xmm0, 496(%rdi)
	retq
                                        # -- End function
	.section	__TEXT,__text,regular,pure_instructions
	.p2align	4                               # -- Begin function gcm::mode::BorrowedGcm::compare::<#c13ce517942629d6>
_gcm_v2.gcm.mode.BorrowedGcm.compare: # @_gcm_v2.gcm.mode.BorrowedGcm.compare
# %bb.0:                                # %start
	movabsq	$-2305843009213693952, %r10     # imm = 0xE000000000000000
	leaq	(%rdx,%r10), %r11
	incq	%r10
	movb	$1, %al
	cmpq	%r10, %r11
	jb	Lgcm_v2_BB17_4
# %bb.1:                                # %else.7
	pushq	%rbp
	pushq	%r15
	pushq	%r14
	pushq	%r13
	pushq	%r12
	pushq	%rbx
	subq	$24, %rsp
	movq	80(%rsp), %rbx
	movabsq	$68719476704, %r10              # imm = 0xFFFFFFFE0
	cmpq	%r10, %rbx
	seta	%r10b
	movq	%r8, %r11
	shrq	$61, %r11
	setne	%r11b
	orb	%r10b, %r11b
	jne	Lgcm_v2_BB17_3
# %bb.2:                                # %after.1
	movq	96(%rsp), %rax
	movq	%rdi, %r12
	movq	%rcx, %r13
	movq	%rax, %rcx
	movq	%r9, %rbp
	movq	%r8, %r15
	callq	_gcm_v2.gcm.mode.BorrowedGcm.put_pre_counter
	leaq	8(%rsp), %r14
	movq	%r14, (%rsp)
	movq	%r12, %rdi
	movq	96(%rsp), %rsi
	movq	%r13, %rdx
	movq	%r15, %rcx
	movq	%rbp, %r8
	movq	%rbx, %r9
	callq	_gcm_v2.gcm.mode.BorrowedGcm.put_tag
	movq	88(%rsp), %rdi
	movq	%r14, %rsi
	callq	_gcm_v2.aes_cipher.blocks.difference
	testl	%eax, %eax
	setne	%bl
	movq	%r14, %rdi
	callq	_gcm_v2.aes_cipher.zeroize.elements.zeroize_elements.3
	movl	%ebx, %eax
Lgcm_v2_BB17_3:
	addq	$24, %rsp
	popq	%rbx
	popq	%r12
	popq	%r13
	popq	%r14
	popq	%r15
	popq	%rbp
Lgcm_v2_BB17_4:                               # %return.13
	retq
                                        # -- End function
	.section	__TEXT,__const
	.p2align	4, 0x0                          # -- Begin function gcm::mode::BorrowedGcm::put_tag::<#c13ce517942629d6>
l_gcm_v2_CPI18_0:
	.byte	15                              # 0xf
	.byte	14                              # 0xe
	.byte	13                              # 0xd
	.byte	12                              # 0xc
	.byte	11                              # 0xb
	.byte	10                              # 0xa
	.byte	9                               # 0x9
	.byte	8                               # 0x8
	.byte	7                               # 0x7
	.byte	6                               # 0x6
	.byte	5                               # 0x5
	.byte	4                               # 0x4
	.byte	3                               # 0x3
	.byte	2                               # 0x2
	.byte	1                               # 0x1
	.byte	0                               # 0x0
	.section	__TEXT,__text,regular,pure_instructions
	.p2align	4
_gcm_v2.gcm.mode.BorrowedGcm.put_tag: # @_gcm_v2.gcm.mode.BorrowedGcm.put_tag
# %bb.0:                                # %start
	pushq	%rbp
	pushq	%r15
	pushq	%r14
	pushq	%r13
	pushq	%r12
	pushq	%rbx
	subq	$104, %rsp
	movq	%r9, %r15
	movq	%r8, 32(%rsp)                   # 8-byte Spill
	movq	%rcx, %r13
	movq	%rdx, %rbp
	movq	%rdi, %r12
	movq	160(%rsp), %r14
	movq	%r14, %rdx
	callq	_gcm_v2.gcm.tags.put_mask
	movq	32(%r12), %rdi
	xorl	%esi, %esi
	xorl	%edx, %edx
	movq	%rbp, %rcx
	movq	%r13, %r8
	callq	_gcm_v2.gcm.hash_room.MultiplesRoomHashRoom.hash_on
	movq	%rdx, %xmm0
	movq	%r13, %rcx
	shrq	$53, %rcx
	movq	%rax, %xmm1
	movq	%r13, %rax
	shrq	$29, %rax
	punpcklqdq	%xmm0, %xmm1            # xmm1 = xmm1[0],xmm0[0]
	movd	%ecx, %xmm2
	movq	%r13, %rcx
	shrq	$45, %rcx
	pinsrb	$1, %ecx, %xmm2
	movq	%r13, %rcx
	shrq	$37, %rcx
	pinsrb	$2, %ecx, %xmm2
	movq	%r15, %rcx
	shrq	$53, %rcx
	pinsrb	$3, %eax, %xmm2
	movl	%r13d, %eax
	shrl	$21, %eax
	pinsrb	$4, %eax, %xmm2
	movl	%r13d, %eax
	shrl	$13, %eax
	pinsrb	$5, %eax, %xmm2
	movl	%r13d, %eax
	shrl	$5, %eax
	pinsrb	$6, %eax, %xmm2
	movq	%r15, %rax
	shrq	$29, %rax
	shlb	$3, %r13b
	movzbl	%r13b, %edx
	pinsrb	$7, %edx, %xmm2
	movq	%r15, %rdx
	shrq	$45, %rdx
	pinsrb	$8, %ecx, %xmm2
	movq	%r15, %rcx
	shrq	$37, %rcx
	pinsrb	$9, %edx, %xmm2
	movl	%r15d, %edx
	shrl	$21, %edx
	pinsrb	$10, %ecx, %xmm2
	movl	%r15d, %ecx
	shrl	$13, %ecx
	pinsrb	$11, %eax, %xmm2
	movl	%r15d, %eax
	shrl	$5, %eax
	pinsrb	$12, %edx, %xmm2
	leal	(,%r15,8), %edx
	movq	32(%r12), %r12
	pshufb	l_gcm_v2_CPI18_0(%rip), %xmm1          # xmm1 = xmm1[15,14,13,12,11,10,9,8,7,6,5,4,3,2,1,0]
	pinsrb	$13, %ecx, %xmm2
	pinsrb	$14, %eax, %xmm2
	movzbl	%dl, %ebx
	movdqa	%xmm1, (%rsp)
	movabsq	$-6148914691236517205, %rcx     # imm = 0xAAAAAAAAAAAAAAAB
	movq	%r15, %rax
	mulq	%rcx
	movq	%rdx, %r13
	shrq	$5, %r13
	movq	%r13, %rax
	shlq	$4, %rax
	leaq	(%rax,%rax,2), %rbp
	cmpq	$48, %r15
	jb	Lgcm_v2_BB18_4
# %bb.1:                                # %join.5.i.i.i.i.preheader
	movdqa	%xmm2, 16(%rsp)                 # 16-byte Spill
	movq	32(%rsp), %rax                  # 8-byte Reload
	leaq	32(%rax), %r14
	.p2align	4
Lgcm_v2_BB18_2:                               # %join.5.i.i.i.i
                                        # =>This Inner Loop Header: Depth=1
	movdqu	-32(%r14), %xmm0
	movdqu	-16(%r14), %xmm1
	movdqu	(%r14), %xmm2
	pxor	(%rsp), %xmm0
	movq	%rsp, %rdi
	movq	%r12, %rsi
	callq	_gcm_v2.gcm.multiples.Multiples.three_products
	addq	$48, %r14
	decq	%r13
	jne	Lgcm_v2_BB18_2
# %bb.3:                                # %"gcm::hash::hash_string_and_end::<#4e0b07d5b1f54653>.exit.loopexit.i.i"
	movdqa	(%rsp), %xmm1
	movq	160(%rsp), %r14
	movdqa	16(%rsp), %xmm2                 # 16-byte Reload
Lgcm_v2_BB18_4:                               # %"gcm::hash::hash_string_and_end::<#4e0b07d5b1f54653>.exit.i.i"
	pinsrb	$15, %ebx, %xmm2
	pxor	%xmm0, %xmm0
	movdqa	%xmm0, 48(%rsp)
	cmpq	%rbp, %r15
	jne	Lgcm_v2_BB18_6
# %bb.5:                                # %then.1.i.i.i
	pxor	%xmm2, %xmm1
	leaq	48(%rsp), %rdi
	movq	%r12, %rsi
	movdqa	%xmm1, %xmm0
Lgcm_v2_BB18_17:                              # %"gcm::tags::hash::<#84904cd934dcda78>.exit"
	callq	_gcm_v2.gcm.multiples.Multiples.block_product
	jmp	Lgcm_v2_BB18_18
Lgcm_v2_BB18_6:                               # %join.3.i.i.i
	movq	%r15, %rdx
	subq	%rbp, %rdx
	cmpq	$16, %rdx
	ja	Lgcm_v2_BB18_10
# %bb.7:                                # %then.4.i.i.i
	movq	32(%rsp), %rsi                  # 8-byte Reload
	addq	%rbp, %rsi
	cmpq	$16, %rdx
	je	Lgcm_v2_BB18_9
# %bb.8:                                # %join.3.i45.i.i.i
	movdqa	%xmm0, (%rsp)
	movq	%rsp, %r15
	movq	%r15, %rdi
	movdqa	%xmm2, 16(%rsp)                 # 16-byte Spill
	movdqa	%xmm1, 32(%rsp)                 # 16-byte Spill
	callq	*_memcpy@GOTPCREL(%rip)
	movdqa	32(%rsp), %xmm1                 # 16-byte Reload
	movdqa	16(%rsp), %xmm2                 # 16-byte Reload
	movq	%r15, %rsi
Lgcm_v2_BB18_9:                               # %"gcm::hash::zero_filled.exit.i.i.i"
	movdqu	(%rsi), %xmm0
	pxor	%xmm1, %xmm0
	leaq	48(%rsp), %rdi
	movq	%r12, %rsi
	movdqa	%xmm2, %xmm1
	callq	_gcm_v2.gcm.multiples.Multiples.two_products
	jmp	Lgcm_v2_BB18_18
Lgcm_v2_BB18_10:                              # %join.6.i.i.i
	cmpq	$32, %rdx
	movq	32(%rsp), %rbx                  # 8-byte Reload
	ja	Lgcm_v2_BB18_14
# %bb.11:                               # %then.7.i.i.i
	movdqu	(%rbx,%rbp), %xmm0
	pxor	%xmm1, %xmm0
	leaq	(%rbx,%rbp), %rsi
	addq	$16, %rsi
	addq	$16, %rbp
	subq	%rbp, %r15
	cmpq	$16, %r15
	je	Lgcm_v2_BB18_13
# %bb.12:                               # %join.3.i52.i.i.i
	movdqa	%xmm0, 32(%rsp)                 # 16-byte Spill
	pxor	%xmm0, %xmm0
	movdqa	%xmm0, (%rsp)
	movq	%r14, %rbx
	movq	%rsp, %r14
	movq	%r14, %rdi
	movq	%r15, %rdx
	movdqa	%xmm2, 16(%rsp)                 # 16-byte Spill
	callq	*_memcpy@GOTPCREL(%rip)
	movdqa	32(%rsp), %xmm0                 # 16-byte Reload
	movdqa	16(%rsp), %xmm2                 # 16-byte Reload
	movq	%r14, %rsi
	movq	%rbx, %r14
Lgcm_v2_BB18_13:                              # %"gcm::hash::zero_filled.exit103.i.i.i"
	movdqu	(%rsi), %xmm1
	leaq	48(%rsp), %rdi
	movq	%r12, %rsi
	callq	_gcm_v2.gcm.multiples.Multiples.three_products
Lgcm_v2_BB18_18:                              # %"gcm::tags::hash::<#84904cd934dcda78>.exit"
	movq	56(%rsp), %rax
	bswapq	%rax
	movq	48(%rsp), %rcx
	bswapq	%rcx
	movq	%rcx, %xmm0
	movq	%rax, %xmm1
	punpcklqdq	%xmm0, %xmm1            # xmm1 = xmm1[0],xmm0[0]
	pshufb	l_gcm_v2_CPI18_0(%rip), %xmm1          # xmm1 = xmm1[15,14,13,12,11,10,9,8,7,6,5,4,3,2,1,0]
	movdqu	(%r14), %xmm0
	pxor	%xmm1, %xmm0
	movdqu	%xmm0, (%r14)
	addq	$104, %rsp
	popq	%rbx
	popq	%r12
	popq	%r13
	popq	%r14
	popq	%r15
	popq	%rbp
	retq
Lgcm_v2_BB18_14:                              # %join.9.i.i.i.i
	movdqa	%xmm2, 16(%rsp)                 # 16-byte Spill
	pxor	%xmm2, %xmm2
	movdqa	%xmm2, 64(%rsp)
	movdqu	(%rbx,%rbp), %xmm0
	pxor	%xmm1, %xmm0
	leaq	32(%rbp), %rax
	leaq	(%rbx,%rbp), %rsi
	addq	$32, %rsi
	subq	%rax, %r15
	cmpq	$16, %r15
	je	Lgcm_v2_BB18_16
# %bb.15:                               # %join.3.i106.i.i.i
	movdqa	%xmm2, (%rsp)
	movq	%rsp, %r13
	movq	%r13, %rdi
	movq	%r15, %rdx
	movdqa	%xmm0, 80(%rsp)                 # 16-byte Spill
	callq	*_memcpy@GOTPCREL(%rip)
	movdqa	80(%rsp), %xmm0                 # 16-byte Reload
	movq	%r13, %rsi
Lgcm_v2_BB18_16:                              # %"gcm::hash::hash_last_group::<#4e0b07d5b1f54653>.exit.i.i.i"
	movdqu	(%rsi), %xmm2
	movdqu	16(%rbx,%rbp), %xmm1
	leaq	64(%rsp), %rdi
	movq	%r12, %rsi
	callq	_gcm_v2.gcm.multiples.Multiples.three_products
	movdqa	16(%rsp), %xmm0                 # 16-byte Reload
	pxor	64(%rsp), %xmm0
	leaq	48(%rsp), %rdi
	movq	%r12, %rsi
	jmp	Lgcm_v2_BB18_17
                                        # -- End function
	.section	__TEXT,__text,regular,pure_instructions
	.p2align	4                               # -- Begin function aes_cipher::blocks::difference
_gcm_v2.aes_cipher.blocks.difference:       # @_gcm_v2.aes_cipher.blocks.difference
# %bb.0:                                # %start
	movdqu	(%rdi), %xmm0
	movdqu	(%rsi), %xmm1
	pxor	%xmm0, %xmm1
	pshufd	$238, %xmm1, %xmm0              # xmm0 = xmm1[2,3,2,3]
	por	%xmm1, %xmm0
	pshufd	$85, %xmm0, %xmm1               # xmm1 = xmm0[1,1,1,1]
	por	%xmm0, %xmm1
	movdqa	%xmm1, %xmm0
	psrld	$16, %xmm0
	por	%xmm1, %xmm0
	movdqa	%xmm0, %xmm1
	psrlw	$8, %xmm1
	por	%xmm0, %xmm1
	pextrb	$0, %xmm1, %eax
	retq
                                        # -- End function
	.section	__TEXT,__const
	.p2align	4, 0x0                          # -- Begin function gcm::gctr::add_gctr::<#ed3b81e0963a9ab3>
l_gcm_v2_CPI20_0:
	.byte	15                              # 0xf
	.byte	14                              # 0xe
	.byte	13                              # 0xd
	.byte	12                              # 0xc
	.byte	11                              # 0xb
	.byte	10                              # 0xa
	.byte	9                               # 0x9
	.byte	8                               # 0x8
	.byte	7                               # 0x7
	.byte	6                               # 0x6
	.byte	5                               # 0x5
	.byte	4                               # 0x4
	.byte	3                               # 0x3
	.byte	2                               # 0x2
	.byte	1                               # 0x1
	.byte	0                               # 0x0
	.section	__TEXT,__text,regular,pure_instructions
	.p2align	4
_gcm_v2.gcm.gctr.add_gctr: # @_gcm_v2.gcm.gctr.add_gctr
# %bb.0:                                # %start
	testq	%r8, %r8
	je	Lgcm_v2_BB20_33
# %bb.1:                                # %then.1
	pushq	%rbp
	pushq	%r15
	pushq	%r14
	pushq	%r13
	pushq	%r12
	pushq	%rbx
	subq	$344, %rsp                      # imm = 0x158
	movq	%r8, %r14
	movq	%rcx, %rbx
	movdqu	(%rsi), %xmm0
	movdqa	%xmm0, (%rsp)
	movl	%edx, %r13d
	andl	$15, %r13d
	movl	$16, %eax
	subq	%r13, %rax
	cmpq	%rax, %r8
	jbe	Lgcm_v2_BB20_2
# %bb.22:                               # %else.2.i
	leaq	(%r14,%r13), %rax
	movq	%rax, %rcx
	shrq	$4, %rcx
	andl	$15, %eax
	cmpq	$1, %rax
	sbbq	$-1, %rcx
	movq	%rsp, %rax
	movq	%rax, 48(%rsp)
	movq	%rdx, 56(%rsp)
	movq	%rbx, 64(%rsp)
	movq	%r14, 72(%rsp)
	cmpq	$8, %rcx
	jb	Lgcm_v2_BB20_24
# %bb.23:                               # %then.1.i.i
	movq	%rdi, %rax
	movq	(%rdi), %rdi
	movq	8(%rax), %rcx
	leaq	48(%rsp), %r8
	movq	%rcx, %rsi
	movq	%rdi, %rdx
	callq	_gcm_v2.aes_hybrid.closures.lend_planes.1
	jmp	Lgcm_v2_BB20_32
Lgcm_v2_BB20_2:                               # %then.1.i
	movq	%rdi, %rax
	movq	16(%rdi), %rdi
	movq	24(%rax), %rsi
	movq	(%rsp), %rax
	movq	8(%rsp), %rcx
	shrq	$4, %rdx
	bswapq	%rax
	bswapq	%rcx
	movq	%rdx, %r8
	movabsq	$-4294967296, %rdx              # imm = 0xFFFFFFFF00000000
	andq	%rcx, %rdx
	addl	%ecx, %r8d
	orq	%rdx, %r8
	movq	%r8, %xmm0
	movq	%rax, %xmm1
	punpcklqdq	%xmm1, %xmm0            # xmm0 = xmm0[0],xmm1[0]
	pshufb	l_gcm_v2_CPI20_0(%rip), %xmm0          # xmm0 = xmm0[15,14,13,12,11,10,9,8,7,6,5,4,3,2,1,0]
	movdqa	%xmm0, 80(%rsp)
	leaq	80(%rsp), %r15
	movl	$1, %ecx
	movq	%r15, %rdx
	callq	_gcm_v2.aes_permute.blocks.process_on_lanes
	testq	%r13, %r13
	je	Lgcm_v2_BB20_3
# %bb.4:                                # %then.1.i.i.i
	movl	%r14d, %eax
	andl	$3, %eax
	cmpq	$4, %r14
	jae	Lgcm_v2_BB20_6
# %bb.5:
	xorl	%edx, %edx
	jmp	Lgcm_v2_BB20_9
Lgcm_v2_BB20_24:                              # %else.2.i.i
	testq	%r13, %r13
	je	Lgcm_v2_BB20_25
# %bb.26:                               # %then.1.i.i10.i
	movq	%rsp, %rsi
	movq	%rdi, %r12
	movq	%rdx, %r15
	xorl	%ecx, %ecx
	movq	%rbx, %r8
	movq	%r14, %r9
	callq	_gcm_v2.aes_ctr.add_in_batches.add_next.2
	movq	%r12, %rdi
	movq	%r15, %rdx
	movq	%rax, %r13
	jmp	Lgcm_v2_BB20_27
Lgcm_v2_BB20_3:
	xorl	%ecx, %ecx
	jmp	Lgcm_v2_BB20_12
Lgcm_v2_BB20_6:                               # %then.1.i.i.i.new
	movq	%r14, %rcx
	andq	$-4, %rcx
	leaq	(%r15,%r13), %rsi
	addq	$3, %rsi
	xorl	%edx, %edx
	.p2align	4
Lgcm_v2_BB20_7:                               # %join.8.i68.i.i
                                        # =>This Inner Loop Header: Depth=1
	movzbl	-3(%rsi,%rdx), %edi
	xorb	%dil, (%rbx,%rdx)
	movzbl	-2(%rsi,%rdx), %edi
	xorb	%dil, 1(%rbx,%rdx)
	movzbl	-1(%rsi,%rdx), %edi
	xorb	%dil, 2(%rbx,%rdx)
	movzbl	(%rsi,%rdx), %edi
	xorb	%dil, 3(%rbx,%rdx)
	addq	$4, %rdx
	cmpq	%rdx, %rcx
	jne	Lgcm_v2_BB20_7
# %bb.8:                                # %join.3.i.i.i.loopexit.unr-lcssa
	movq	%r14, %rcx
	testq	%rax, %rax
	je	Lgcm_v2_BB20_12
Lgcm_v2_BB20_9:                               # %join.8.i68.i.i.epil.preheader
	leaq	(%rbx,%rdx), %rcx
	addq	%r13, %rdx
	addq	%rsp, %rdx
	addq	$80, %rdx
	xorl	%esi, %esi
	.p2align	4
Lgcm_v2_BB20_10:                              # %join.8.i68.i.i.epil
                                        # =>This Inner Loop Header: Depth=1
	movzbl	(%rdx,%rsi), %edi
	xorb	%dil, (%rcx,%rsi)
	incq	%rsi
	cmpq	%rsi, %rax
	jne	Lgcm_v2_BB20_10
# %bb.11:
	movq	%r14, %rcx
Lgcm_v2_BB20_12:                              # %join.3.i.i.i
	movq	%r14, %rax
	subq	%rcx, %rax
	cmpq	$16, %rax
	jb	Lgcm_v2_BB20_14
	.p2align	4
Lgcm_v2_BB20_13:                              # %join.8.i.i.i
                                        # =>This Inner Loop Header: Depth=1
	leaq	(%rcx,%r13), %rdx
	andq	$-16, %rdx
	movdqu	(%rbx,%rcx), %xmm0
	pxor	80(%rsp,%rdx), %xmm0
	movdqu	%xmm0, (%rbx,%rcx)
	addq	$16, %rcx
	addq	$-16, %rax
	cmpq	$15, %rax
	ja	Lgcm_v2_BB20_13
Lgcm_v2_BB20_14:                              # %after.4.i.i.i
	cmpq	%r14, %rcx
	jae	Lgcm_v2_BB20_32
# %bb.15:                               # %then.9.i.i.i
	testq	%rax, %rax
	je	Lgcm_v2_BB20_32
# %bb.16:                               # %iter.check
	addq	%rcx, %r13
	andq	$-16, %r13
	leaq	(%rsp,%r13), %rdx
	addq	$80, %rdx
	addq	%rcx, %rbx
	cmpq	$4, %rax
	jae	Lgcm_v2_BB20_18
# %bb.17:
	xorl	%ecx, %ecx
	jmp	Lgcm_v2_BB20_21
Lgcm_v2_BB20_25:
	xorl	%r13d, %r13d
Lgcm_v2_BB20_27:                              # %join.3.i.i11.i
	movq	%r14, 32(%rsp)                  # 8-byte Spill
	movq	%r14, %rbp
	subq	%r13, %rbp
	cmpq	$64, %rbp
	movq	%rdx, 24(%rsp)                  # 8-byte Spill
	movq	%rdi, 16(%rsp)                  # 8-byte Spill
	jb	Lgcm_v2_BB20_30
# %bb.28:                               # %join.11.lr.ph.i.i.i
	leaq	144(%rsp), %r14
	movq	(%rsp), %rdx
	movq	8(%rsp), %r15
	bswapq	%rdx
	movq	%rdx, 40(%rsp)                  # 8-byte Spill
	bswapq	%r15
	movabsq	$-4294967296, %r12              # imm = 0xFFFFFFFF00000000
	andq	%r15, %r12
	.p2align	4
Lgcm_v2_BB20_29:                              # %join.11.i.i.i
                                        # =>This Inner Loop Header: Depth=1
	movq	24(%rsp), %rax                  # 8-byte Reload
	addq	%r13, %rax
	shrq	$4, %rax
	pxor	%xmm0, %xmm0
	movdqa	%xmm0, 176(%r14)
	movdqa	%xmm0, 160(%r14)
	movdqa	%xmm0, 144(%r14)
	movdqa	%xmm0, 128(%r14)
	movdqa	%xmm0, 112(%r14)
	movdqa	%xmm0, 96(%r14)
	movdqa	%xmm0, 80(%r14)
	movdqa	%xmm0, 64(%r14)
	movdqa	%xmm0, 48(%r14)
	movdqa	%xmm0, 32(%r14)
	movdqa	%xmm0, 16(%r14)
	movdqa	%xmm0, (%r14)
	leal	(%r15,%rax), %ecx
	orq	%r12, %rcx
	movq	%rcx, %xmm2
	movq	40(%rsp), %xmm0                 # 8-byte Folded Reload
                                        # xmm0 = mem[0],zero
	punpcklqdq	%xmm0, %xmm2            # xmm2 = xmm2[0],xmm0[0]
	movdqa	l_gcm_v2_CPI20_0(%rip), %xmm1          # xmm1 = [15,14,13,12,11,10,9,8,7,6,5,4,3,2,1,0]
	pshufb	%xmm1, %xmm2
	movdqa	%xmm2, 80(%rsp)
	leal	(%r15,%rax), %ecx
	incl	%ecx
	orq	%r12, %rcx
	movq	%rcx, %xmm2
	punpcklqdq	%xmm0, %xmm2            # xmm2 = xmm2[0],xmm0[0]
	pshufb	%xmm1, %xmm2
	movdqa	%xmm2, 96(%rsp)
	leal	(%r15,%rax), %ecx
	addl	$2, %ecx
	orq	%r12, %rcx
	movq	%rcx, %xmm2
	punpcklqdq	%xmm0, %xmm2            # xmm2 = xmm2[0],xmm0[0]
	pshufb	%xmm1, %xmm2
	movdqa	%xmm2, 112(%rsp)
	addl	%r15d, %eax
	addl	$3, %eax
	orq	%r12, %rax
	movq	%rax, %xmm2
	punpcklqdq	%xmm0, %xmm2            # xmm2 = xmm2[0],xmm0[0]
	pshufb	%xmm1, %xmm2
	movdqa	%xmm2, 128(%rsp)
	movq	16(%rsp), %rax                  # 8-byte Reload
	movq	16(%rax), %rdi
	movq	24(%rax), %rsi
	leaq	80(%rsp), %rdx
	movl	$4, %ecx
	callq	_gcm_v2.aes_permute.blocks.process_on_lanes
	movdqu	(%rbx,%r13), %xmm0
	movdqu	16(%rbx,%r13), %xmm1
	movups	32(%rbx,%r13), %xmm2
	pxor	80(%rsp), %xmm0
	movups	48(%rbx,%r13), %xmm3
	movdqu	%xmm0, (%rbx,%r13)
	pxor	96(%rsp), %xmm1
	movdqu	%xmm1, 16(%rbx,%r13)
	xorps	112(%rsp), %xmm2
	movups	%xmm2, 32(%rbx,%r13)
	xorps	128(%rsp), %xmm3
	movups	%xmm3, 48(%rbx,%r13)
	addq	$64, %r13
	addq	$-64, %rbp
	cmpq	$63, %rbp
	ja	Lgcm_v2_BB20_29
Lgcm_v2_BB20_30:                              # %loop.13.preheader.i.i.i
	movq	32(%rsp), %r14                  # 8-byte Reload
	cmpq	%r14, %r13
	movq	24(%rsp), %r15                  # 8-byte Reload
	movq	16(%rsp), %r12                  # 8-byte Reload
	jae	Lgcm_v2_BB20_32
	.p2align	4
Lgcm_v2_BB20_31:                              # %join.16.i.i.i
                                        # =>This Inner Loop Header: Depth=1
	movq	%rsp, %rsi
	movq	%r12, %rdi
	movq	%r15, %rdx
	movq	%r13, %rcx
	movq	%rbx, %r8
	movq	%r14, %r9
	callq	_gcm_v2.aes_ctr.add_in_batches.add_next.2
	movq	%rax, %r13
	cmpq	%r14, %rax
	jb	Lgcm_v2_BB20_31
	jmp	Lgcm_v2_BB20_32
Lgcm_v2_BB20_18:                              # %vec.epilog.ph
	movl	%eax, %ecx
	andl	$12, %ecx
	xorl	%esi, %esi
	.p2align	4
Lgcm_v2_BB20_19:                              # %vec.epilog.vector.body
                                        # =>This Inner Loop Header: Depth=1
	movl	(%rdx,%rsi), %edi
	xorl	%edi, (%rbx,%rsi)
	addq	$4, %rsi
	cmpq	%rsi, %rcx
	jne	Lgcm_v2_BB20_19
Lgcm_v2_BB20_20:                              # %vec.epilog.middle.block
	cmpq	%rcx, %rax
	je	Lgcm_v2_BB20_32
Lgcm_v2_BB20_21:                              # %join.8.i11.i.i
	movzbl	(%rdx,%rcx), %esi
	xorb	%sil, (%rbx,%rcx)
	incq	%rcx
	jmp	Lgcm_v2_BB20_20
Lgcm_v2_BB20_32:                              # %"aes_ctr::add_in_batches::add_stream::<#6c41d78f1cdff180>.exit"
	addq	$344, %rsp                      # imm = 0x158
	popq	%rbx
	popq	%r12
	popq	%r13
	popq	%r14
	popq	%r15
	popq	%rbp
Lgcm_v2_BB20_33:                              # %join.3
	retq
                                        # -- End function
	.section	__TEXT,__text,regular,pure_instructions
	.p2align	4                               # -- Begin function aes_hybrid::batches::process_on_planes::<#2a076538018b6fb3>
_gcm_v2.aes_hybrid.batches.process_on_planes: # @_gcm_v2.aes_hybrid.batches.process_on_planes
# %bb.0:                                # %start
	pushq	%rbp
	pushq	%r15
	pushq	%r14
	pushq	%r13
	pushq	%r12
	pushq	%rbx
	subq	$1928, %rsp                     # imm = 0x788
	movq	%rcx, %rbx
	movq	%rdx, %r14
	movq	%rsi, %r15
	movq	%rdi, %r12
	leaq	128(%rsp), %rdi
	movl	$1792, %edx                     # imm = 0x700
	xorl	%esi, %esi
	callq	*_memset@GOTPCREL(%rip)
	leaq	(,%r15,8), %r13
	movq	%rsp, %rbp
	movq	%rbp, %rdi
	movq	%r12, %rsi
	movq	%r15, %rdx
	callq	_gcm_v2.aes_hybrid.plane_keys.store_planes
	movq	%rbp, %rdi
	movq	%r13, %rsi
	movq	%r14, %rdx
	movq	%rbx, %rcx
	callq	_gcm_v2.aes_hybrid.batches.process_batches_and_rest
	movq	%rbp, %rdi
	callq	_gcm_v2.aes_cipher.zeroize.zeroize_words
	callq	_gcm_v2.aes_cipher.zeroize.stack.wipe_stack.1792
	addq	$1928, %rsp                     # imm = 0x788
	popq	%rbx
	popq	%r12
	popq	%r13
	popq	%r14
	popq	%r15
	popq	%rbp
	retq
                                        # -- End function
	.section	__TEXT,__const
	.p2align	4, 0x0                          # -- Begin function aes_hybrid::plane_keys::store_planes::<#fab3fa1ddd682008>
l_gcm_v2_CPI22_0:
	.byte	0                               # 0x0
	.byte	4                               # 0x4
	.byte	8                               # 0x8
	.byte	12                              # 0xc
	.byte	1                               # 0x1
	.byte	5                               # 0x5
	.byte	9                               # 0x9
	.byte	13                              # 0xd
	.byte	2                               # 0x2
	.byte	6                               # 0x6
	.byte	10                              # 0xa
	.byte	14                              # 0xe
	.byte	3                               # 0x3
	.byte	7                               # 0x7
	.byte	11                              # 0xb
	.byte	15                              # 0xf
l_gcm_v2_CPI22_1:
	.zero	16,1
l_gcm_v2_CPI22_2:
	.zero	16,192
l_gcm_v2_CPI22_3:
	.zero	16,224
l_gcm_v2_CPI22_4:
	.zero	16,240
l_gcm_v2_CPI22_5:
	.zero	16,248
l_gcm_v2_CPI22_6:
	.zero	16,252
l_gcm_v2_CPI22_7:
	.zero	16,15
l_gcm_v2_CPI22_8:
	.byte	0                               # 0x0
	.byte	1                               # 0x1
	.byte	92                              # 0x5c
	.byte	93                              # 0x5d
	.byte	224                             # 0xe0
	.byte	225                             # 0xe1
	.byte	188                             # 0xbc
	.byte	189                             # 0xbd
	.byte	80                              # 0x50
	.byte	81                              # 0x51
	.byte	12                              # 0xc
	.byte	13                              # 0xd
	.byte	176                             # 0xb0
	.byte	177                             # 0xb1
	.byte	236                             # 0xec
	.byte	237                             # 0xed
l_gcm_v2_CPI22_9:
	.byte	0                               # 0x0
	.byte	178                             # 0xb2
	.byte	181                             # 0xb5
	.byte	7                               # 0x7
	.byte	58                              # 0x3a
	.byte	136                             # 0x88
	.byte	143                             # 0x8f
	.byte	61                              # 0x3d
	.byte	172                             # 0xac
	.byte	30                              # 0x1e
	.byte	25                              # 0x19
	.byte	171                             # 0xab
	.byte	150                             # 0x96
	.byte	36                              # 0x24
	.byte	35                              # 0x23
	.byte	145                             # 0x91
	.section	__TEXT,__text,regular,pure_instructions
	.p2align	4
_gcm_v2.aes_hybrid.plane_keys.store_planes: # @_gcm_v2.aes_hybrid.plane_keys.store_planes
# %bb.0:                                # %start
	movdqu	(%rsi), %xmm1
	pshufb	l_gcm_v2_CPI22_0(%rip), %xmm1          # xmm1 = xmm1[0,4,8,12,1,5,9,13,2,6,10,14,3,7,11,15]
	movdqa	l_gcm_v2_CPI22_1(%rip), %xmm3          # xmm3 = [1,1,1,1,1,1,1,1,1,1,1,1,1,1,1,1]
	pand	%xmm1, %xmm3
	pxor	%xmm0, %xmm0
	pxor	%xmm2, %xmm2
	psubb	%xmm3, %xmm2
	movdqa	%xmm1, %xmm4
	psllw	$6, %xmm4
	pand	l_gcm_v2_CPI22_2(%rip), %xmm4
	pxor	%xmm3, %xmm3
	movdqa	%xmm1, %xmm5
	psllw	$5, %xmm5
	pand	l_gcm_v2_CPI22_3(%rip), %xmm5
	pcmpgtb	%xmm4, %xmm3
	pxor	%xmm4, %xmm4
	pcmpgtb	%xmm5, %xmm4
	movdqa	%xmm1, %xmm5
	psllw	$4, %xmm5
	pand	l_gcm_v2_CPI22_4(%rip), %xmm5
	pxor	%xmm6, %xmm6
	movdqa	%xmm1, %xmm7
	psllw	$3, %xmm7
	pand	l_gcm_v2_CPI22_5(%rip), %xmm7
	pcmpgtb	%xmm5, %xmm6
	pxor	%xmm5, %xmm5
	pcmpgtb	%xmm7, %xmm5
	movdqa	%xmm1, %xmm7
	psllw	$2, %xmm7
	pand	l_gcm_v2_CPI22_6(%rip), %xmm7
	pxor	%xmm8, %xmm8
	pcmpgtb	%xmm7, %xmm8
	pxor	%xmm7, %xmm7
	pcmpgtb	%xmm1, %xmm7
	paddb	%xmm1, %xmm1
	pxor	%xmm9, %xmm9
	pcmpgtb	%xmm1, %xmm9
	movdqa	%xmm2, (%rdi)
	movdqa	%xmm3, 16(%rdi)
	movdqa	%xmm4, 32(%rdi)
	movdqa	%xmm6, 48(%rdi)
	movdqa	%xmm5, 64(%rdi)
	movdqa	%xmm8, 80(%rdi)
	movdqa	%xmm9, 96(%rdi)
	movdqa	%xmm7, 112(%rdi)
	leaq	-1(%rdx), %rax
	cmpq	$2, %rax
	jb	Lgcm_v2_BB22_3
# %bb.1:                                # %join.5.lr.ph
	addq	$-2, %rdx
	xorl	%ecx, %ecx
	.p2align	4
Lgcm_v2_BB22_2:                               # %join.5
                                        # =>This Inner Loop Header: Depth=1
	movdqu	16(%rsi,%rcx), %xmm1
	movdqa	l_gcm_v2_CPI22_7(%rip), %xmm2          # xmm2 = [15,15,15,15,15,15,15,15,15,15,15,15,15,15,15,15]
	movdqa	%xmm1, %xmm3
	pand	%xmm2, %xmm3
	movdqa	l_gcm_v2_CPI22_8(%rip), %xmm4          # xmm4 = [0,1,92,93,224,225,188,189,80,81,12,13,176,177,236,237]
	pshufb	%xmm3, %xmm4
	psrlw	$4, %xmm1
	pand	%xmm2, %xmm1
	movdqa	l_gcm_v2_CPI22_9(%rip), %xmm3          # xmm3 = [0,178,181,7,58,136,143,61,172,30,25,171,150,36,35,145]
	pshufb	%xmm1, %xmm3
	movdqa	l_gcm_v2_CPI22_0(%rip), %xmm1          # xmm1 = [0,4,8,12,1,5,9,13,2,6,10,14,3,7,11,15]
	pshufb	%xmm1, %xmm4
	pshufb	%xmm1, %xmm3
	pxor	%xmm4, %xmm3
	movdqa	l_gcm_v2_CPI22_1(%rip), %xmm4          # xmm4 = [1,1,1,1,1,1,1,1,1,1,1,1,1,1,1,1]
	pand	%xmm3, %xmm4
	pxor	%xmm1, %xmm1
	pxor	%xmm2, %xmm2
	movdqa	%xmm3, %xmm5
	movdqa	%xmm3, %xmm6
	movdqa	%xmm3, %xmm7
	movdqa	%xmm3, %xmm8
	movdqa	%xmm3, %xmm9
	pcmpgtb	%xmm3, %xmm1
	psllw	$6, %xmm3
	pand	l_gcm_v2_CPI22_2(%rip), %xmm3
	psubb	%xmm4, %xmm2
	pxor	%xmm4, %xmm4
	pcmpgtb	%xmm3, %xmm4
	psllw	$5, %xmm5
	pand	l_gcm_v2_CPI22_3(%rip), %xmm5
	pxor	%xmm3, %xmm3
	pcmpgtb	%xmm5, %xmm3
	psllw	$4, %xmm6
	pand	l_gcm_v2_CPI22_4(%rip), %xmm6
	pxor	%xmm5, %xmm5
	pcmpgtb	%xmm6, %xmm5
	psllw	$3, %xmm7
	pand	l_gcm_v2_CPI22_5(%rip), %xmm7
	pxor	%xmm6, %xmm6
	psllw	$2, %xmm8
	pand	l_gcm_v2_CPI22_6(%rip), %xmm8
	pcmpgtb	%xmm7, %xmm6
	pxor	%xmm7, %xmm7
	pcmpgtb	%xmm8, %xmm7
	paddb	%xmm9, %xmm9
	pxor	%xmm8, %xmm8
	pcmpgtb	%xmm9, %xmm8
	movdqa	%xmm2, 128(%rdi,%rcx,8)
	movdqa	%xmm4, 144(%rdi,%rcx,8)
	movdqa	%xmm3, 160(%rdi,%rcx,8)
	movdqa	%xmm5, 176(%rdi,%rcx,8)
	movdqa	%xmm6, 192(%rdi,%rcx,8)
	movdqa	%xmm7, 208(%rdi,%rcx,8)
	movdqa	%xmm8, 224(%rdi,%rcx,8)
	movdqa	%xmm1, 240(%rdi,%rcx,8)
	addq	$16, %rcx
	decq	%rdx
	jne	Lgcm_v2_BB22_2
Lgcm_v2_BB22_3:                               # %after.1
	movq	%rax, %rcx
	shlq	$4, %rcx
	movdqu	(%rsi,%rcx), %xmm2
	pshufb	l_gcm_v2_CPI22_0(%rip), %xmm2          # xmm2 = xmm2[0,4,8,12,1,5,9,13,2,6,10,14,3,7,11,15]
	movdqa	l_gcm_v2_CPI22_1(%rip), %xmm3          # xmm3 = [1,1,1,1,1,1,1,1,1,1,1,1,1,1,1,1]
	pand	%xmm2, %xmm3
	pxor	%xmm1, %xmm1
	psubb	%xmm3, %xmm1
	movdqa	%xmm2, %xmm3
	movdqa	%xmm2, %xmm4
	movdqa	%xmm2, %xmm5
	movdqa	%xmm2, %xmm6
	movdqa	%xmm2, %xmm7
	pcmpgtb	%xmm2, %xmm0
	psllw	$6, %xmm2
	pand	l_gcm_v2_CPI22_2(%rip), %xmm2
	pxor	%xmm8, %xmm8
	pcmpgtb	%xmm2, %xmm8
	psllw	$5, %xmm3
	pand	l_gcm_v2_CPI22_3(%rip), %xmm3
	pxor	%xmm2, %xmm2
	pcmpgtb	%xmm3, %xmm2
	psllw	$4, %xmm4
	pand	l_gcm_v2_CPI22_4(%rip), %xmm4
	pxor	%xmm3, %xmm3
	psllw	$3, %xmm5
	pand	l_gcm_v2_CPI22_5(%rip), %xmm5
	pcmpgtb	%xmm4, %xmm3
	pxor	%xmm4, %xmm4
	pcmpgtb	%xmm5, %xmm4
	psllw	$2, %xmm6
	pand	l_gcm_v2_CPI22_6(%rip), %xmm6
	pxor	%xmm5, %xmm5
	pcmpgtb	%xmm6, %xmm5
	paddb	%xmm7, %xmm7
	pxor	%xmm6, %xmm6
	pcmpgtb	%xmm7, %xmm6
	shlq	$7, %rax
	movdqa	%xmm1, (%rdi,%rax)
	movdqa	%xmm8, 16(%rdi,%rax)
	movdqa	%xmm2, 32(%rdi,%rax)
	movdqa	%xmm3, 48(%rdi,%rax)
	movdqa	%xmm4, 64(%rdi,%rax)
	movdqa	%xmm5, 80(%rdi,%rax)
	movdqa	%xmm6, 96(%rdi,%rax)
	movdqa	%xmm0, 112(%rdi,%rax)
	retq
                                        # -- End function
	.section	__TEXT,__const
	.p2align	4, 0x0                          # -- Begin function aes_hybrid::batches::process_batches_and_rest::<#2a076538018b6fb3>
l_gcm_v2_CPI23_0:
	.byte	0                               # 0x0
	.byte	4                               # 0x4
	.byte	8                               # 0x8
	.byte	12                              # 0xc
	.byte	1                               # 0x1
	.byte	5                               # 0x5
	.byte	9                               # 0x9
	.byte	13                              # 0xd
	.byte	2                               # 0x2
	.byte	6                               # 0x6
	.byte	10                              # 0xa
	.byte	14                              # 0xe
	.byte	3                               # 0x3
	.byte	7                               # 0x7
	.byte	11                              # 0xb
	.byte	15                              # 0xf
l_gcm_v2_CPI23_1:
	.zero	16,85
l_gcm_v2_CPI23_2:
	.zero	16,51
l_gcm_v2_CPI23_3:
	.zero	16,15
	.section	__TEXT,__text,regular,pure_instructions
	.p2align	4
_gcm_v2.aes_hybrid.batches.process_batches_and_rest: # @_gcm_v2.aes_hybrid.batches.process_batches_and_rest
# %bb.0:                                # %join.5.i.lr.ph
	pushq	%rbp
	pushq	%r15
	pushq	%r14
	pushq	%r13
	pushq	%r12
	pushq	%rbx
	subq	$152, %rsp
	movq	%rcx, %rbx
	movq	%rsi, %r13
	movq	%rdi, %r12
	movl	%ebx, %ebp
	andl	$1073741816, %ebp               # imm = 0x3FFFFFF8
	movq	%rsi, (%rsp)                    # 8-byte Spill
	shrq	$3, %r13
	decq	%r13
	movq	%rdx, 8(%rsp)                   # 8-byte Spill
	leaq	112(%rdx), %r15
	xorl	%r14d, %r14d
	.p2align	4
Lgcm_v2_BB23_1:                               # %join.5.i
                                        # =>This Inner Loop Header: Depth=1
	movdqu	-112(%r15), %xmm2
	movdqu	-96(%r15), %xmm5
	movdqu	-80(%r15), %xmm8
	movdqu	-64(%r15), %xmm1
	movdqu	-48(%r15), %xmm4
	movdqu	-32(%r15), %xmm3
	movdqu	-16(%r15), %xmm6
	movdqu	(%r15), %xmm0
	movdqa	l_gcm_v2_CPI23_0(%rip), %xmm7          # xmm7 = [0,4,8,12,1,5,9,13,2,6,10,14,3,7,11,15]
	pshufb	%xmm7, %xmm2
	pshufb	%xmm7, %xmm5
	pshufb	%xmm7, %xmm8
	pshufb	%xmm7, %xmm1
	pshufb	%xmm7, %xmm4
	pshufb	%xmm7, %xmm3
	pshufb	%xmm7, %xmm6
	pshufb	%xmm7, %xmm0
	movdqa	%xmm2, %xmm7
	psrlw	$1, %xmm7
	pxor	%xmm5, %xmm7
	movdqa	l_gcm_v2_CPI23_1(%rip), %xmm10         # xmm10 = [85,85,85,85,85,85,85,85,85,85,85,85,85,85,85,85]
	pand	%xmm10, %xmm7
	pxor	%xmm7, %xmm5
	paddb	%xmm7, %xmm7
	pxor	%xmm2, %xmm7
	movdqa	%xmm8, %xmm2
	psrlw	$1, %xmm2
	pxor	%xmm1, %xmm2
	pand	%xmm10, %xmm2
	pxor	%xmm2, %xmm1
	paddb	%xmm2, %xmm2
	pxor	%xmm8, %xmm2
	movdqa	%xmm4, %xmm9
	psrlw	$1, %xmm9
	pxor	%xmm3, %xmm9
	pand	%xmm10, %xmm9
	pxor	%xmm9, %xmm3
	paddb	%xmm9, %xmm9
	pxor	%xmm4, %xmm9
	movdqa	%xmm6, %xmm4
	psrlw	$1, %xmm4
	pxor	%xmm0, %xmm4
	pand	%xmm10, %xmm4
	pxor	%xmm4, %xmm0
	paddb	%xmm4, %xmm4
	pxor	%xmm6, %xmm4
	movdqa	%xmm7, %xmm8
	psrlw	$2, %xmm8
	pxor	%xmm2, %xmm8
	movdqa	l_gcm_v2_CPI23_2(%rip), %xmm10         # xmm10 = [51,51,51,51,51,51,51,51,51,51,51,51,51,51,51,51]
	pand	%xmm10, %xmm8
	pxor	%xmm8, %xmm2
	psllw	$2, %xmm8
	pxor	%xmm7, %xmm8
	movdqa	%xmm9, %xmm6
	psrlw	$2, %xmm6
	pxor	%xmm4, %xmm6
	pand	%xmm10, %xmm6
	pxor	%xmm6, %xmm4
	psllw	$2, %xmm6
	pxor	%xmm9, %xmm6
	movdqa	%xmm5, %xmm7
	psrlw	$2, %xmm7
	pxor	%xmm1, %xmm7
	pand	%xmm10, %xmm7
	pxor	%xmm7, %xmm1
	psllw	$2, %xmm7
	pxor	%xmm5, %xmm7
	movdqa	%xmm3, %xmm5
	psrlw	$2, %xmm5
	pxor	%xmm0, %xmm5
	pand	%xmm10, %xmm5
	pxor	%xmm5, %xmm0
	psllw	$2, %xmm5
	pxor	%xmm3, %xmm5
	movdqa	%xmm8, %xmm3
	psrlw	$4, %xmm3
	movdqa	l_gcm_v2_CPI23_3(%rip), %xmm9          # xmm9 = [15,15,15,15,15,15,15,15,15,15,15,15,15,15,15,15]
	pxor	%xmm6, %xmm3
	pand	%xmm9, %xmm3
	pxor	%xmm3, %xmm6
	psllw	$4, %xmm3
	pxor	%xmm8, %xmm3
	movdqa	%xmm7, %xmm8
	psrlw	$4, %xmm8
	pxor	%xmm5, %xmm8
	pand	%xmm9, %xmm8
	pxor	%xmm8, %xmm5
	psllw	$4, %xmm8
	pxor	%xmm7, %xmm8
	movdqa	%xmm2, %xmm7
	psrlw	$4, %xmm7
	pxor	%xmm4, %xmm7
	pand	%xmm9, %xmm7
	pxor	%xmm7, %xmm4
	psllw	$4, %xmm7
	pxor	%xmm2, %xmm7
	movdqa	%xmm1, %xmm2
	psrlw	$4, %xmm2
	pxor	%xmm0, %xmm2
	pand	%xmm9, %xmm2
	pxor	%xmm2, %xmm0
	psllw	$4, %xmm2
	pxor	%xmm1, %xmm2
	movdqa	%xmm3, 16(%rsp)
	movdqa	%xmm8, 32(%rsp)
	movdqa	%xmm7, 48(%rsp)
	movdqa	%xmm2, 64(%rsp)
	movdqa	%xmm6, 80(%rsp)
	movdqa	%xmm5, 96(%rsp)
	movdqa	%xmm4, 112(%rsp)
	movdqa	%xmm0, 128(%rsp)
	leaq	16(%rsp), %rdx
	movq	%r12, %rdi
	movq	%r13, %rsi
	callq	_gcm_v2.aes_soft.soft.ciphers.planes.EncryptPlaneCipher.process_planes
	movdqa	16(%rsp), %xmm3
	movdqa	32(%rsp), %xmm6
	movdqa	48(%rsp), %xmm8
	movdqa	64(%rsp), %xmm1
	movdqa	80(%rsp), %xmm2
	movdqa	96(%rsp), %xmm4
	movdqa	112(%rsp), %xmm7
	movdqa	128(%rsp), %xmm0
	movdqa	%xmm3, %xmm5
	psrlw	$1, %xmm5
	pxor	%xmm6, %xmm5
	movdqa	l_gcm_v2_CPI23_1(%rip), %xmm9          # xmm9 = [85,85,85,85,85,85,85,85,85,85,85,85,85,85,85,85]
	pand	%xmm9, %xmm5
	pxor	%xmm5, %xmm6
	paddb	%xmm5, %xmm5
	pxor	%xmm3, %xmm5
	movdqa	%xmm8, %xmm3
	psrlw	$1, %xmm3
	pxor	%xmm1, %xmm3
	pand	%xmm9, %xmm3
	pxor	%xmm3, %xmm1
	paddb	%xmm3, %xmm3
	pxor	%xmm8, %xmm3
	movdqa	%xmm2, %xmm8
	psrlw	$1, %xmm8
	pxor	%xmm4, %xmm8
	pand	%xmm9, %xmm8
	pxor	%xmm8, %xmm4
	paddb	%xmm8, %xmm8
	pxor	%xmm2, %xmm8
	movdqa	%xmm7, %xmm2
	psrlw	$1, %xmm2
	pxor	%xmm0, %xmm2
	pand	%xmm9, %xmm2
	pxor	%xmm2, %xmm0
	paddb	%xmm2, %xmm2
	pxor	%xmm7, %xmm2
	movdqa	%xmm5, %xmm7
	psrlw	$2, %xmm7
	pxor	%xmm3, %xmm7
	movdqa	l_gcm_v2_CPI23_2(%rip), %xmm9          # xmm9 = [51,51,51,51,51,51,51,51,51,51,51,51,51,51,51,51]
	pand	%xmm9, %xmm7
	pxor	%xmm7, %xmm3
	psllw	$2, %xmm7
	pxor	%xmm5, %xmm7
	movdqa	%xmm8, %xmm5
	psrlw	$2, %xmm5
	pxor	%xmm2, %xmm5
	pand	%xmm9, %xmm5
	pxor	%xmm5, %xmm2
	psllw	$2, %xmm5
	pxor	%xmm8, %xmm5
	movdqa	%xmm6, %xmm8
	psrlw	$2, %xmm8
	pxor	%xmm1, %xmm8
	pand	%xmm9, %xmm8
	pxor	%xmm8, %xmm1
	psllw	$2, %xmm8
	pxor	%xmm6, %xmm8
	movdqa	%xmm4, %xmm6
	psrlw	$2, %xmm6
	pxor	%xmm0, %xmm6
	pand	%xmm9, %xmm6
	pxor	%xmm6, %xmm0
	psllw	$2, %xmm6
	pxor	%xmm4, %xmm6
	movdqa	%xmm7, %xmm4
	psrlw	$4, %xmm4
	pxor	%xmm5, %xmm4
	movdqa	l_gcm_v2_CPI23_3(%rip), %xmm9          # xmm9 = [15,15,15,15,15,15,15,15,15,15,15,15,15,15,15,15]
	pand	%xmm9, %xmm4
	pxor	%xmm4, %xmm5
	psllw	$4, %xmm4
	pxor	%xmm7, %xmm4
	movdqa	%xmm8, %xmm7
	psrlw	$4, %xmm7
	pxor	%xmm6, %xmm7
	pand	%xmm9, %xmm7
	pxor	%xmm7, %xmm6
	psllw	$4, %xmm7
	pxor	%xmm8, %xmm7
	movdqa	%xmm3, %xmm8
	psrlw	$4, %xmm8
	pxor	%xmm2, %xmm8
	pand	%xmm9, %xmm8
	pxor	%xmm8, %xmm2
	psllw	$4, %xmm8
	pxor	%xmm3, %xmm8
	movdqa	%xmm1, %xmm3
	psrlw	$4, %xmm3
	pxor	%xmm0, %xmm3
	pand	%xmm9, %xmm3
	pxor	%xmm3, %xmm0
	psllw	$4, %xmm3
	pxor	%xmm1, %xmm3
	movdqa	l_gcm_v2_CPI23_0(%rip), %xmm1          # xmm1 = [0,4,8,12,1,5,9,13,2,6,10,14,3,7,11,15]
	pshufb	%xmm1, %xmm4
	movdqu	%xmm4, -112(%r15)
	pshufb	%xmm1, %xmm7
	movdqu	%xmm7, -96(%r15)
	pshufb	%xmm1, %xmm8
	movdqu	%xmm8, -80(%r15)
	pshufb	%xmm1, %xmm3
	movdqu	%xmm3, -64(%r15)
	pshufb	%xmm1, %xmm5
	movdqu	%xmm5, -48(%r15)
	pshufb	%xmm1, %xmm6
	movdqu	%xmm6, -32(%r15)
	pshufb	%xmm1, %xmm2
	movdqu	%xmm2, -16(%r15)
	pshufb	%xmm1, %xmm0
	movdqu	%xmm0, (%r15)
	addq	$8, %r14
	subq	$-128, %r15
	cmpq	%rbp, %r14
	jb	Lgcm_v2_BB23_1
# %bb.2:                                # %"aes_soft::soft::blocks::slices::process_batches_under::<#083782f7c613e34b>.exit"
	cmpq	%rbx, %rbp
	jne	Lgcm_v2_BB23_4
# %bb.3:                                # %join.5
	addq	$152, %rsp
	popq	%rbx
	popq	%r12
	popq	%r13
	popq	%r14
	popq	%r15
	popq	%rbp
	retq
Lgcm_v2_BB23_4:                               # %then.3
	andl	$7, %ebx
	shlq	$4, %rbp
	movq	8(%rsp), %rdx                   # 8-byte Reload
	addq	%rbp, %rdx
	movq	%r12, %rdi
	movq	(%rsp), %rsi                    # 8-byte Reload
	movq	%rbx, %rcx
	addq	$152, %rsp
	popq	%rbx
	popq	%r12
	popq	%r13
	popq	%r14
	popq	%r15
	popq	%rbp
	jmp	_gcm_v2.aes_soft.soft.blocks.filled_up.process_filled_up # TAILCALL
                                        # -- End function
	.section	__TEXT,__const
	.p2align	4, 0x0                          # -- Begin function aes_soft::soft::ciphers::planes::process_outlined::<#bddb9db0bc69ed2a>
l_gcm_v2_CPI24_0:
	.byte	0                               # 0x0
	.byte	4                               # 0x4
	.byte	8                               # 0x8
	.byte	12                              # 0xc
	.byte	1                               # 0x1
	.byte	5                               # 0x5
	.byte	9                               # 0x9
	.byte	13                              # 0xd
	.byte	2                               # 0x2
	.byte	6                               # 0x6
	.byte	10                              # 0xa
	.byte	14                              # 0xe
	.byte	3                               # 0x3
	.byte	7                               # 0x7
	.byte	11                              # 0xb
	.byte	15                              # 0xf
l_gcm_v2_CPI24_1:
	.zero	16,85
l_gcm_v2_CPI24_2:
	.zero	16,51
l_gcm_v2_CPI24_3:
	.zero	16,15
	.section	__TEXT,__text,regular,pure_instructions
	.p2align	4
_gcm_v2.aes_soft.soft.ciphers.planes.process_outlined: # @_gcm_v2.aes_soft.soft.ciphers.planes.process_outlined
# %bb.0:                                # %start
	pushq	%rbx
	subq	$128, %rsp
	movq	%rdi, %rbx
	movdqu	(%rcx), %xmm2
	movdqu	16(%rcx), %xmm4
	movdqu	32(%rcx), %xmm8
	movdqu	48(%rcx), %xmm0
	movdqa	l_gcm_v2_CPI24_0(%rip), %xmm6          # xmm6 = [0,4,8,12,1,5,9,13,2,6,10,14,3,7,11,15]
	pshufb	%xmm6, %xmm2
	pshufb	%xmm6, %xmm4
	pshufb	%xmm6, %xmm8
	pshufb	%xmm6, %xmm0
	movdqu	64(%rcx), %xmm3
	pshufb	%xmm6, %xmm3
	movdqu	80(%rcx), %xmm5
	pshufb	%xmm6, %xmm5
	movdqu	96(%rcx), %xmm7
	pshufb	%xmm6, %xmm7
	movdqu	112(%rcx), %xmm1
	pshufb	%xmm6, %xmm1
	movdqa	%xmm2, %xmm6
	psrlw	$1, %xmm6
	pxor	%xmm4, %xmm6
	movdqa	l_gcm_v2_CPI24_1(%rip), %xmm9          # xmm9 = [85,85,85,85,85,85,85,85,85,85,85,85,85,85,85,85]
	pand	%xmm9, %xmm6
	pxor	%xmm6, %xmm4
	paddb	%xmm6, %xmm6
	pxor	%xmm2, %xmm6
	movdqa	%xmm8, %xmm2
	psrlw	$1, %xmm2
	pxor	%xmm0, %xmm2
	pand	%xmm9, %xmm2
	pxor	%xmm2, %xmm0
	paddb	%xmm2, %xmm2
	pxor	%xmm8, %xmm2
	movdqa	%xmm3, %xmm8
	psrlw	$1, %xmm8
	pxor	%xmm5, %xmm8
	pand	%xmm9, %xmm8
	pxor	%xmm8, %xmm5
	paddb	%xmm8, %xmm8
	pxor	%xmm3, %xmm8
	movdqa	%xmm7, %xmm3
	psrlw	$1, %xmm3
	pxor	%xmm1, %xmm3
	pand	%xmm9, %xmm3
	pxor	%xmm3, %xmm1
	paddb	%xmm3, %xmm3
	pxor	%xmm7, %xmm3
	movdqa	%xmm6, %xmm7
	psrlw	$2, %xmm7
	pxor	%xmm2, %xmm7
	movdqa	l_gcm_v2_CPI24_2(%rip), %xmm9          # xmm9 = [51,51,51,51,51,51,51,51,51,51,51,51,51,51,51,51]
	pand	%xmm9, %xmm7
	pxor	%xmm7, %xmm2
	psllw	$2, %xmm7
	pxor	%xmm6, %xmm7
	movdqa	%xmm8, %xmm6
	psrlw	$2, %xmm6
	pxor	%xmm3, %xmm6
	pand	%xmm9, %xmm6
	pxor	%xmm6, %xmm3
	psllw	$2, %xmm6
	pxor	%xmm8, %xmm6
	movdqa	%xmm4, %xmm8
	psrlw	$2, %xmm8
	pxor	%xmm0, %xmm8
	pand	%xmm9, %xmm8
	pxor	%xmm8, %xmm0
	psllw	$2, %xmm8
	pxor	%xmm4, %xmm8
	movdqa	%xmm5, %xmm4
	psrlw	$2, %xmm4
	pxor	%xmm1, %xmm4
	pand	%xmm9, %xmm4
	pxor	%xmm4, %xmm1
	psllw	$2, %xmm4
	pxor	%xmm5, %xmm4
	movdqa	%xmm7, %xmm5
	psrlw	$4, %xmm5
	movdqa	l_gcm_v2_CPI24_3(%rip), %xmm9          # xmm9 = [15,15,15,15,15,15,15,15,15,15,15,15,15,15,15,15]
	pxor	%xmm6, %xmm5
	pand	%xmm9, %xmm5
	pxor	%xmm5, %xmm6
	psllw	$4, %xmm5
	pxor	%xmm7, %xmm5
	movdqa	%xmm8, %xmm7
	psrlw	$4, %xmm7
	pxor	%xmm4, %xmm7
	pand	%xmm9, %xmm7
	pxor	%xmm7, %xmm4
	psllw	$4, %xmm7
	pxor	%xmm8, %xmm7
	movdqa	%xmm2, %xmm8
	psrlw	$4, %xmm8
	pxor	%xmm3, %xmm8
	pand	%xmm9, %xmm8
	pxor	%xmm8, %xmm3
	psllw	$4, %xmm8
	pxor	%xmm2, %xmm8
	movdqa	%xmm0, %xmm2
	psrlw	$4, %xmm2
	pxor	%xmm1, %xmm2
	pand	%xmm9, %xmm2
	pxor	%xmm2, %xmm1
	psllw	$4, %xmm2
	pxor	%xmm0, %xmm2
	movdqa	%xmm5, (%rsp)
	movdqa	%xmm7, 16(%rsp)
	movdqa	%xmm8, 32(%rsp)
	movdqa	%xmm2, 48(%rsp)
	movdqa	%xmm6, 64(%rsp)
	movdqa	%xmm4, 80(%rsp)
	movdqa	%xmm3, 96(%rsp)
	movdqa	%xmm1, 112(%rsp)
	movq	%rsp, %rax
	movq	%rsi, %rdi
	movq	%rdx, %rsi
	movq	%rax, %rdx
	callq	_gcm_v2.aes_soft.soft.ciphers.planes.EncryptPlaneCipher.process_planes
	movdqa	(%rsp), %xmm3
	movdqa	16(%rsp), %xmm6
	movdqa	32(%rsp), %xmm8
	movdqa	48(%rsp), %xmm1
	movdqa	64(%rsp), %xmm2
	movdqa	80(%rsp), %xmm4
	movdqa	96(%rsp), %xmm7
	movdqa	112(%rsp), %xmm0
	movdqa	%xmm3, %xmm5
	psrlw	$1, %xmm5
	pxor	%xmm6, %xmm5
	movdqa	l_gcm_v2_CPI24_1(%rip), %xmm9          # xmm9 = [85,85,85,85,85,85,85,85,85,85,85,85,85,85,85,85]
	pand	%xmm9, %xmm5
	pxor	%xmm5, %xmm6
	paddb	%xmm5, %xmm5
	pxor	%xmm3, %xmm5
	movdqa	%xmm8, %xmm3
	psrlw	$1, %xmm3
	pxor	%xmm1, %xmm3
	pand	%xmm9, %xmm3
	pxor	%xmm3, %xmm1
	paddb	%xmm3, %xmm3
	pxor	%xmm8, %xmm3
	movdqa	%xmm2, %xmm8
	psrlw	$1, %xmm8
	pxor	%xmm4, %xmm8
	pand	%xmm9, %xmm8
	pxor	%xmm8, %xmm4
	paddb	%xmm8, %xmm8
	pxor	%xmm2, %xmm8
	movdqa	%xmm7, %xmm2
	psrlw	$1, %xmm2
	pxor	%xmm0, %xmm2
	pand	%xmm9, %xmm2
	pxor	%xmm2, %xmm0
	paddb	%xmm2, %xmm2
	pxor	%xmm7, %xmm2
	movdqa	%xmm5, %xmm7
	psrlw	$2, %xmm7
	pxor	%xmm3, %xmm7
	movdqa	l_gcm_v2_CPI24_2(%rip), %xmm9          # xmm9 = [51,51,51,51,51,51,51,51,51,51,51,51,51,51,51,51]
	pand	%xmm9, %xmm7
	pxor	%xmm7, %xmm3
	psllw	$2, %xmm7
	pxor	%xmm5, %xmm7
	movdqa	%xmm8, %xmm5
	psrlw	$2, %xmm5
	pxor	%xmm2, %xmm5
	pand	%xmm9, %xmm5
	pxor	%xmm5, %xmm2
	psllw	$2, %xmm5
	pxor	%xmm8, %xmm5
	movdqa	%xmm6, %xmm8
	psrlw	$2, %xmm8
	pxor	%xmm1, %xmm8
	pand	%xmm9, %xmm8
	pxor	%xmm8, %xmm1
	psllw	$2, %xmm8
	pxor	%xmm6, %xmm8
	movdqa	%xmm4, %xmm6
	psrlw	$2, %xmm6
	pxor	%xmm0, %xmm6
	pand	%xmm9, %xmm6
	pxor	%xmm6, %xmm0
	psllw	$2, %xmm6
	pxor	%xmm4, %xmm6
	movdqa	%xmm7, %xmm4
	psrlw	$4, %xmm4
	pxor	%xmm5, %xmm4
	movdqa	l_gcm_v2_CPI24_3(%rip), %xmm9          # xmm9 = [15,15,15,15,15,15,15,15,15,15,15,15,15,15,15,15]
	pand	%xmm9, %xmm4
	pxor	%xmm4, %xmm5
	psllw	$4, %xmm4
	pxor	%xmm7, %xmm4
	movdqa	%xmm8, %xmm7
	psrlw	$4, %xmm7
	pxor	%xmm6, %xmm7
	pand	%xmm9, %xmm7
	pxor	%xmm7, %xmm6
	psllw	$4, %xmm7
	pxor	%xmm8, %xmm7
	movdqa	%xmm3, %xmm8
	psrlw	$4, %xmm8
	pxor	%xmm2, %xmm8
	pand	%xmm9, %xmm8
	pxor	%xmm8, %xmm2
	psllw	$4, %xmm8
	pxor	%xmm3, %xmm8
	movdqa	%xmm1, %xmm3
	psrlw	$4, %xmm3
	pxor	%xmm0, %xmm3
	pand	%xmm9, %xmm3
	pxor	%xmm3, %xmm0
	psllw	$4, %xmm3
	pxor	%xmm1, %xmm3
	movdqa	l_gcm_v2_CPI24_0(%rip), %xmm1          # xmm1 = [0,4,8,12,1,5,9,13,2,6,10,14,3,7,11,15]
	pshufb	%xmm1, %xmm4
	movdqu	%xmm4, (%rbx)
	pshufb	%xmm1, %xmm7
	movdqu	%xmm7, 16(%rbx)
	pshufb	%xmm1, %xmm8
	movdqu	%xmm8, 32(%rbx)
	pshufb	%xmm1, %xmm3
	movdqu	%xmm3, 48(%rbx)
	pshufb	%xmm1, %xmm5
	movdqu	%xmm5, 64(%rbx)
	pshufb	%xmm1, %xmm6
	movdqu	%xmm6, 80(%rbx)
	pshufb	%xmm1, %xmm2
	movdqu	%xmm2, 96(%rbx)
	pshufb	%xmm1, %xmm0
	movdqu	%xmm0, 112(%rbx)
	addq	$128, %rsp
	popq	%rbx
	retq
                                        # -- End function
	.section	__TEXT,__const
	.p2align	4, 0x0                          # -- Begin function aes_soft::soft::ciphers::planes::EncryptPlaneCipher::process_planes::<#eab796f82dda8b4f>
l_gcm_v2_CPI25_0:
	.byte	5                               # 0x5
	.byte	6                               # 0x6
	.byte	7                               # 0x7
	.byte	4                               # 0x4
	.byte	9                               # 0x9
	.byte	10                              # 0xa
	.byte	11                              # 0xb
	.byte	8                               # 0x8
	.byte	13                              # 0xd
	.byte	14                              # 0xe
	.byte	15                              # 0xf
	.byte	12                              # 0xc
	.byte	1                               # 0x1
	.byte	2                               # 0x2
	.byte	3                               # 0x3
	.byte	0                               # 0x0
l_gcm_v2_CPI25_1:
	.byte	10                              # 0xa
	.byte	11                              # 0xb
	.byte	8                               # 0x8
	.byte	9                               # 0x9
	.byte	14                              # 0xe
	.byte	15                              # 0xf
	.byte	12                              # 0xc
	.byte	13                              # 0xd
	.byte	2                               # 0x2
	.byte	3                               # 0x3
	.byte	0                               # 0x0
	.byte	1                               # 0x1
	.byte	6                               # 0x6
	.byte	7                               # 0x7
	.byte	4                               # 0x4
	.byte	5                               # 0x5
l_gcm_v2_CPI25_2:
	.byte	6                               # 0x6
	.byte	7                               # 0x7
	.byte	4                               # 0x4
	.byte	5                               # 0x5
	.byte	10                              # 0xa
	.byte	11                              # 0xb
	.byte	8                               # 0x8
	.byte	9                               # 0x9
	.byte	14                              # 0xe
	.byte	15                              # 0xf
	.byte	12                              # 0xc
	.byte	13                              # 0xd
	.byte	2                               # 0x2
	.byte	3                               # 0x3
	.byte	0                               # 0x0
	.byte	1                               # 0x1
l_gcm_v2_CPI25_3:
	.byte	7                               # 0x7
	.byte	4                               # 0x4
	.byte	5                               # 0x5
	.byte	6                               # 0x6
	.byte	11                              # 0xb
	.byte	8                               # 0x8
	.byte	9                               # 0x9
	.byte	10                              # 0xa
	.byte	15                              # 0xf
	.byte	12                              # 0xc
	.byte	13                              # 0xd
	.byte	14                              # 0xe
	.byte	3                               # 0x3
	.byte	0                               # 0x0
	.byte	1                               # 0x1
	.byte	2                               # 0x2
	.section	__TEXT,__text,regular,pure_instructions
	.p2align	4
_gcm_v2.aes_soft.soft.ciphers.planes.EncryptPlaneCipher.process_planes: # @_gcm_v2.aes_soft.soft.ciphers.planes.EncryptPlaneCipher.process_planes
# %bb.0:                                # %start
	subq	$72, %rsp
	leaq	-2(%rsi), %rax
	movq	%rax, %rcx
	shrq	$2, %rcx
	movdqu	(%rdx), %xmm10
	movdqu	16(%rdx), %xmm7
	movdqu	32(%rdx), %xmm14
	movdqu	48(%rdx), %xmm6
	movdqu	64(%rdx), %xmm2
	movdqu	80(%rdx), %xmm1
	movdqu	96(%rdx), %xmm9
	movdqu	112(%rdx), %xmm8
	pxor	(%rdi), %xmm10
	pxor	16(%rdi), %xmm7
	pxor	32(%rdi), %xmm14
	pxor	48(%rdi), %xmm6
	pxor	64(%rdi), %xmm2
	pxor	80(%rdi), %xmm1
	pxor	96(%rdi), %xmm9
	pxor	112(%rdi), %xmm8
	je	Lgcm_v2_BB25_3
# %bb.1:                                # %join.7.preheader
	leaq	624(%rdi), %r8
	.p2align	4
Lgcm_v2_BB25_2:                               # %join.7
                                        # =>This Inner Loop Header: Depth=1
	pxor	%xmm9, %xmm1
	movdqa	%xmm2, %xmm4
	pxor	%xmm8, %xmm4
	movdqa	%xmm10, %xmm0
	pxor	%xmm1, %xmm0
	movdqa	%xmm0, -64(%rsp)                # 16-byte Spill
	movdqa	%xmm0, %xmm13
	pxor	%xmm2, %xmm13
	movdqa	%xmm13, -128(%rsp)              # 16-byte Spill
	pand	%xmm10, %xmm13
	movdqa	%xmm0, %xmm11
	pxor	%xmm7, %xmm11
	pxor	%xmm8, %xmm7
	pxor	%xmm14, %xmm2
	movdqa	%xmm7, %xmm0
	movdqa	%xmm7, %xmm12
	pxor	%xmm2, %xmm0
	pxor	%xmm0, %xmm6
	movdqa	%xmm0, -32(%rsp)                # 16-byte Spill
	movdqa	%xmm6, %xmm3
	pxor	%xmm14, %xmm3
	pxor	%xmm9, %xmm6
	pxor	%xmm8, %xmm14
	movdqa	%xmm3, %xmm5
	pand	%xmm0, %xmm3
	movdqa	%xmm5, %xmm0
	movdqa	%xmm5, %xmm7
	movdqa	%xmm5, -112(%rsp)               # 16-byte Spill
	pxor	%xmm1, %xmm0
	movdqa	%xmm0, %xmm5
	movdqa	%xmm0, -48(%rsp)                # 16-byte Spill
	pxor	%xmm14, %xmm13
	pxor	%xmm0, %xmm13
	pxor	%xmm3, %xmm13
	pxor	%xmm6, %xmm3
	movdqa	%xmm4, 48(%rsp)                 # 16-byte Spill
	pxor	%xmm4, %xmm6
	movdqa	%xmm6, %xmm0
	pand	%xmm4, %xmm0
	movdqa	%xmm6, %xmm9
	movdqa	%xmm6, %xmm4
	pxor	%xmm5, %xmm9
	movdqa	%xmm9, 32(%rsp)                 # 16-byte Spill
	movdqa	%xmm9, %xmm6
	pand	%xmm2, %xmm6
	pand	%xmm14, %xmm5
	pxor	%xmm0, %xmm6
	pxor	%xmm0, %xmm5
	movdqa	%xmm7, %xmm0
	pxor	%xmm10, %xmm0
	movdqa	%xmm0, -80(%rsp)                # 16-byte Spill
	movdqa	%xmm11, (%rsp)                  # 16-byte Spill
	movdqa	%xmm11, %xmm9
	pxor	%xmm14, %xmm9
	movdqa	%xmm9, 16(%rsp)                 # 16-byte Spill
	pand	%xmm9, %xmm0
	pxor	%xmm0, %xmm3
	pxor	%xmm4, %xmm1
	movdqa	%xmm4, %xmm15
	movdqa	%xmm4, -96(%rsp)                # 16-byte Spill
	movdqa	%xmm11, %xmm0
	movdqa	-64(%rsp), %xmm9                # 16-byte Reload
	pand	%xmm9, %xmm0
	movdqa	%xmm1, %xmm4
	movdqa	%xmm12, -16(%rsp)               # 16-byte Spill
	pand	%xmm12, %xmm4
	pxor	%xmm6, %xmm3
	pxor	%xmm1, %xmm0
	pxor	%xmm4, %xmm0
	pxor	%xmm12, %xmm0
	pxor	%xmm6, %xmm0
	pxor	%xmm8, %xmm9
	pxor	%xmm8, %xmm4
	movdqa	%xmm15, %xmm8
	pxor	%xmm10, %xmm8
	movdqa	%xmm8, %xmm6
	pand	%xmm9, %xmm6
	pxor	%xmm1, %xmm6
	pxor	%xmm6, %xmm4
	pxor	%xmm5, %xmm13
	pxor	%xmm5, %xmm4
	movdqa	%xmm0, %xmm15
	pand	%xmm3, %xmm15
	movdqa	%xmm15, %xmm5
	pxor	%xmm13, %xmm5
	movdqa	%xmm4, %xmm11
	pxor	%xmm0, %xmm11
	pand	%xmm5, %xmm11
	pxor	%xmm13, %xmm3
	movdqa	%xmm11, %xmm5
	pxor	%xmm15, %xmm11
	pxor	%xmm4, %xmm15
	movdqa	%xmm15, %xmm7
	pand	%xmm3, %xmm7
	pxor	%xmm13, %xmm7
	pxor	%xmm4, %xmm5
	pand	%xmm4, %xmm11
	pxor	%xmm11, %xmm15
	pand	%xmm7, %xmm15
	pxor	%xmm3, %xmm15
	pxor	%xmm0, %xmm11
	movdqa	-128(%rsp), %xmm0               # 16-byte Reload
	pand	%xmm5, %xmm0
	movdqa	%xmm0, -128(%rsp)               # 16-byte Spill
	movdqa	%xmm11, %xmm13
	pxor	%xmm5, %xmm13
	movdqa	%xmm7, %xmm3
	pxor	%xmm5, %xmm3
	pand	%xmm10, %xmm5
	movdqa	%xmm15, %xmm12
	pxor	%xmm13, %xmm12
	movdqa	-96(%rsp), %xmm4                # 16-byte Reload
	pand	%xmm3, %xmm4
	movdqa	%xmm4, -96(%rsp)                # 16-byte Spill
	movdqa	%xmm12, %xmm10
	pxor	%xmm3, %xmm10
	pand	48(%rsp), %xmm3                 # 16-byte Folded Reload
	movdqa	%xmm15, %xmm6
	pxor	%xmm7, %xmm6
	pand	%xmm6, %xmm1
	pand	-16(%rsp), %xmm6                # 16-byte Folded Reload
	movdqa	-64(%rsp), %xmm4                # 16-byte Reload
	pand	%xmm15, %xmm4
	pand	(%rsp), %xmm15                  # 16-byte Folded Reload
	movdqa	-80(%rsp), %xmm0                # 16-byte Reload
	pand	%xmm13, %xmm0
	pand	16(%rsp), %xmm13                # 16-byte Folded Reload
	pand	%xmm10, %xmm2
	pand	32(%rsp), %xmm10                # 16-byte Folded Reload
	pand	%xmm7, %xmm9
	pand	%xmm8, %xmm7
	movdqa	-112(%rsp), %xmm8               # 16-byte Reload
	pand	%xmm11, %xmm8
	pand	-32(%rsp), %xmm11               # 16-byte Folded Reload
	pxor	%xmm8, %xmm0
	pxor	%xmm5, %xmm8
	pxor	%xmm1, %xmm4
	pxor	%xmm8, %xmm7
	pxor	%xmm1, %xmm7
	pxor	%xmm3, %xmm2
	pxor	%xmm2, %xmm13
	pxor	%xmm7, %xmm15
	pxor	%xmm2, %xmm15
	movdqa	-48(%rsp), %xmm2                # 16-byte Reload
	pand	%xmm12, %xmm2
	pxor	%xmm4, %xmm10
	pxor	%xmm13, %xmm11
	pxor	%xmm4, %xmm0
	pxor	%xmm2, %xmm8
	pxor	%xmm6, %xmm8
	pxor	%xmm10, %xmm8
	pxor	%xmm8, %xmm9
	pxor	%xmm11, %xmm0
	pxor	%xmm15, %xmm8
	pxor	-96(%rsp), %xmm10               # 16-byte Folded Reload
	movdqa	%xmm0, %xmm1
	pxor	%xmm10, %xmm1
	pxor	%xmm6, %xmm15
	pxor	-128(%rsp), %xmm13              # 16-byte Folded Reload
	pxor	%xmm0, %xmm7
	movdqa	%xmm0, -80(%rsp)                # 16-byte Spill
	pand	%xmm14, %xmm12
	pxor	%xmm9, %xmm13
	pxor	%xmm10, %xmm11
	pxor	%xmm3, %xmm12
	pxor	%xmm10, %xmm12
	pxor	%xmm9, %xmm12
	movdqa	l_gcm_v2_CPI25_0(%rip), %xmm9          # xmm9 = [5,6,7,4,9,10,11,8,13,14,15,12,1,2,3,0]
	movdqa	%xmm15, %xmm2
	pshufb	%xmm9, %xmm2
	movdqa	%xmm8, %xmm14
	pshufb	%xmm9, %xmm14
	movdqa	%xmm13, %xmm4
	pshufb	%xmm9, %xmm4
	movdqa	%xmm7, %xmm3
	pshufb	%xmm9, %xmm3
	movdqa	%xmm3, -112(%rsp)               # 16-byte Spill
	movdqa	%xmm0, %xmm5
	pshufb	%xmm9, %xmm5
	movdqa	%xmm12, %xmm10
	pshufb	%xmm9, %xmm10
	movdqa	%xmm10, -128(%rsp)              # 16-byte Spill
	movdqa	%xmm1, %xmm3
	pshufb	%xmm9, %xmm3
	movdqa	%xmm11, %xmm6
	pshufb	%xmm9, %xmm6
	pxor	%xmm2, %xmm15
	pxor	%xmm14, %xmm8
	pxor	%xmm6, %xmm11
	pxor	%xmm11, %xmm14
	pxor	%xmm15, %xmm14
	movdqa	l_gcm_v2_CPI25_1(%rip), %xmm0          # xmm0 = [10,11,8,9,14,15,12,13,2,3,0,1,6,7,4,5]
	pshufb	%xmm0, %xmm15
	pxor	-496(%r8), %xmm15
	movdqa	%xmm8, %xmm9
	pshufb	%xmm0, %xmm9
	pxor	%xmm11, %xmm2
	pxor	-480(%r8), %xmm9
	pxor	%xmm15, %xmm2
	pxor	%xmm9, %xmm14
	pxor	%xmm4, %xmm13
	movdqa	-112(%rsp), %xmm15              # 16-byte Reload
	pxor	%xmm15, %xmm7
	movdqa	-80(%rsp), %xmm9                # 16-byte Reload
	pxor	%xmm5, %xmm9
	pxor	%xmm10, %xmm12
	pxor	%xmm3, %xmm1
	pxor	%xmm4, %xmm8
	movdqa	%xmm11, %xmm4
	pxor	%xmm11, %xmm5
	pxor	%xmm13, %xmm11
	movdqa	%xmm0, %xmm10
	pshufb	%xmm0, %xmm13
	pxor	%xmm7, %xmm5
	movdqa	%xmm7, %xmm0
	pshufb	%xmm10, %xmm0
	pxor	-464(%r8), %xmm13
	pxor	%xmm13, %xmm8
	movdqa	%xmm9, %xmm13
	pshufb	%xmm10, %xmm9
	pxor	-432(%r8), %xmm9
	pxor	%xmm9, %xmm5
	movdqa	%xmm12, %xmm9
	pshufb	%xmm10, %xmm9
	pxor	%xmm3, %xmm12
	movdqa	%xmm1, %xmm7
	pshufb	%xmm10, %xmm7
	pshufb	%xmm10, %xmm4
	pxor	-400(%r8), %xmm7
	pxor	%xmm7, %xmm12
	pxor	-384(%r8), %xmm4
	pxor	%xmm6, %xmm1
	pxor	%xmm4, %xmm1
	pxor	-416(%r8), %xmm9
	movdqa	%xmm13, %xmm10
	pxor	-128(%rsp), %xmm10              # 16-byte Folded Reload
	pxor	%xmm9, %xmm10
	pxor	%xmm12, %xmm10
	movdqa	%xmm1, %xmm4
	pxor	%xmm5, %xmm4
	movdqa	%xmm10, %xmm9
	pxor	%xmm2, %xmm9
	movdqa	%xmm2, %xmm6
	movdqa	%xmm9, %xmm2
	pxor	%xmm5, %xmm2
	movdqa	%xmm2, %xmm7
	movdqa	%xmm2, -128(%rsp)               # 16-byte Spill
	movdqa	%xmm1, %xmm2
	pxor	%xmm14, %xmm2
	movdqa	%xmm2, -96(%rsp)                # 16-byte Spill
	pxor	%xmm8, %xmm5
	pxor	%xmm5, %xmm2
	movdqa	%xmm5, (%rsp)                   # 16-byte Spill
	pxor	-448(%r8), %xmm0
	pxor	%xmm15, %xmm11
	pxor	%xmm0, %xmm11
	pxor	%xmm2, %xmm11
	movdqa	%xmm2, -80(%rsp)                # 16-byte Spill
	movdqa	%xmm11, %xmm15
	pxor	%xmm8, %xmm15
	pxor	%xmm12, %xmm11
	pxor	%xmm1, %xmm8
	movdqa	%xmm15, %xmm13
	pand	%xmm2, %xmm13
	movdqa	%xmm15, %xmm0
	pxor	%xmm10, %xmm0
	movdqa	%xmm0, %xmm3
	pxor	%xmm13, %xmm3
	pxor	%xmm11, %xmm13
	movdqa	%xmm4, %xmm2
	movdqa	%xmm4, -48(%rsp)                # 16-byte Spill
	pxor	%xmm4, %xmm11
	movdqa	%xmm11, %xmm4
	pand	%xmm2, %xmm4
	movdqa	%xmm11, %xmm2
	movdqa	%xmm0, -64(%rsp)                # 16-byte Spill
	pxor	%xmm0, %xmm2
	movdqa	%xmm2, -16(%rsp)                # 16-byte Spill
	pand	%xmm5, %xmm2
	movdqa	%xmm8, -112(%rsp)               # 16-byte Spill
	pand	%xmm8, %xmm0
	pxor	%xmm4, %xmm2
	pxor	%xmm4, %xmm0
	movdqa	%xmm7, %xmm4
	movdqa	%xmm6, %xmm5
	pand	%xmm6, %xmm4
	pxor	%xmm8, %xmm4
	pxor	%xmm4, %xmm3
	pxor	%xmm9, %xmm14
	movdqa	%xmm14, 32(%rsp)                # 16-byte Spill
	movdqa	%xmm15, %xmm7
	pxor	%xmm6, %xmm7
	movdqa	%xmm14, %xmm6
	pxor	%xmm8, %xmm6
	movdqa	%xmm6, -32(%rsp)                # 16-byte Spill
	movdqa	%xmm7, %xmm4
	pand	%xmm6, %xmm4
	pxor	%xmm4, %xmm13
	pxor	%xmm11, %xmm10
	movdqa	%xmm14, %xmm4
	pand	%xmm9, %xmm4
	movdqa	%xmm10, %xmm14
	movdqa	-96(%rsp), %xmm8                # 16-byte Reload
	pand	%xmm8, %xmm14
	pxor	%xmm2, %xmm13
	pxor	%xmm10, %xmm4
	movdqa	%xmm10, %xmm12
	pxor	%xmm14, %xmm4
	pxor	%xmm8, %xmm4
	pxor	%xmm2, %xmm4
	movdqa	%xmm9, %xmm8
	pxor	%xmm1, %xmm8
	pxor	%xmm1, %xmm14
	movdqa	%xmm11, %xmm1
	pxor	%xmm5, %xmm1
	movdqa	%xmm1, 16(%rsp)                 # 16-byte Spill
	pand	%xmm8, %xmm1
	pxor	%xmm10, %xmm1
	pxor	%xmm1, %xmm14
	pxor	%xmm0, %xmm3
	pxor	%xmm0, %xmm14
	movdqa	%xmm4, %xmm10
	pand	%xmm13, %xmm10
	movdqa	%xmm10, %xmm0
	pxor	%xmm3, %xmm0
	movdqa	%xmm14, %xmm6
	pxor	%xmm4, %xmm6
	pand	%xmm0, %xmm6
	pxor	%xmm3, %xmm13
	movdqa	%xmm6, %xmm2
	pxor	%xmm10, %xmm6
	pxor	%xmm14, %xmm10
	movdqa	%xmm10, %xmm0
	pand	%xmm13, %xmm0
	pxor	%xmm3, %xmm0
	pxor	%xmm14, %xmm2
	pand	%xmm14, %xmm6
	pxor	%xmm6, %xmm10
	pand	%xmm0, %xmm10
	pxor	%xmm13, %xmm10
	pxor	%xmm4, %xmm6
	movdqa	-128(%rsp), %xmm1               # 16-byte Reload
	pand	%xmm2, %xmm1
	movdqa	%xmm1, -128(%rsp)               # 16-byte Spill
	movdqa	%xmm6, %xmm14
	pxor	%xmm2, %xmm14
	movdqa	%xmm0, %xmm4
	pxor	%xmm2, %xmm4
	pand	%xmm5, %xmm2
	movdqa	%xmm10, %xmm1
	pxor	%xmm14, %xmm1
	pand	%xmm4, %xmm11
	movdqa	%xmm1, %xmm13
	pxor	%xmm4, %xmm13
	pand	-48(%rsp), %xmm4                # 16-byte Folded Reload
	movdqa	%xmm10, %xmm3
	pxor	%xmm0, %xmm3
	pand	%xmm3, %xmm12
	pand	-96(%rsp), %xmm3                # 16-byte Folded Reload
	pand	%xmm10, %xmm9
	pand	32(%rsp), %xmm10                # 16-byte Folded Reload
	pand	%xmm14, %xmm7
	pand	-32(%rsp), %xmm14               # 16-byte Folded Reload
	movdqa	(%rsp), %xmm5                   # 16-byte Reload
	pand	%xmm13, %xmm5
	pand	-16(%rsp), %xmm13               # 16-byte Folded Reload
	pand	%xmm0, %xmm8
	pand	16(%rsp), %xmm0                 # 16-byte Folded Reload
	pand	%xmm6, %xmm15
	pand	-80(%rsp), %xmm6                # 16-byte Folded Reload
	pxor	%xmm15, %xmm7
	pxor	%xmm2, %xmm15
	pxor	%xmm12, %xmm9
	pxor	%xmm15, %xmm0
	pxor	%xmm12, %xmm0
	movdqa	%xmm5, %xmm2
	pxor	%xmm4, %xmm2
	pxor	%xmm2, %xmm14
	pxor	%xmm0, %xmm10
	pxor	%xmm2, %xmm10
	pxor	%xmm9, %xmm13
	pxor	%xmm9, %xmm7
	movdqa	-64(%rsp), %xmm2                # 16-byte Reload
	pand	%xmm1, %xmm2
	pxor	%xmm14, %xmm6
	pxor	%xmm2, %xmm15
	pxor	%xmm3, %xmm15
	pxor	%xmm13, %xmm15
	pxor	%xmm15, %xmm8
	pxor	%xmm6, %xmm7
	pxor	%xmm10, %xmm15
	pxor	%xmm11, %xmm13
	movdqa	%xmm7, %xmm9
	pxor	%xmm13, %xmm9
	pxor	%xmm3, %xmm10
	pxor	-128(%rsp), %xmm14              # 16-byte Folded Reload
	pxor	%xmm7, %xmm0
	pand	-112(%rsp), %xmm1               # 16-byte Folded Reload
	pxor	%xmm8, %xmm14
	pxor	%xmm13, %xmm6
	pxor	%xmm4, %xmm1
	pxor	%xmm13, %xmm1
	pxor	%xmm8, %xmm1
	movdqa	l_gcm_v2_CPI25_2(%rip), %xmm13         # xmm13 = [6,7,4,5,10,11,8,9,14,15,12,13,2,3,0,1]
	movdqa	%xmm10, %xmm4
	pshufb	%xmm13, %xmm4
	movdqa	%xmm15, %xmm8
	pshufb	%xmm13, %xmm8
	movdqa	%xmm14, %xmm12
	pshufb	%xmm13, %xmm12
	movdqa	%xmm0, %xmm2
	pshufb	%xmm13, %xmm2
	movdqa	%xmm2, -128(%rsp)               # 16-byte Spill
	movdqa	%xmm7, %xmm5
	pshufb	%xmm13, %xmm5
	movdqa	%xmm1, %xmm2
	pshufb	%xmm13, %xmm2
	movdqa	%xmm9, %xmm11
	pshufb	%xmm13, %xmm11
	movdqa	%xmm6, %xmm3
	pshufb	%xmm13, %xmm3
	pxor	%xmm4, %xmm10
	pshufd	$78, %xmm10, %xmm13             # xmm13 = xmm10[2,3,0,1]
	pxor	-368(%r8), %xmm13
	pxor	%xmm3, %xmm6
	pxor	%xmm6, %xmm4
	pxor	%xmm13, %xmm4
	pxor	%xmm8, %xmm15
	pshufd	$78, %xmm15, %xmm13             # xmm13 = xmm15[2,3,0,1]
	pxor	-352(%r8), %xmm13
	pxor	%xmm6, %xmm8
	pxor	%xmm10, %xmm8
	pxor	%xmm13, %xmm8
	pxor	%xmm12, %xmm14
	movdqa	-128(%rsp), %xmm13              # 16-byte Reload
	pxor	%xmm13, %xmm0
	pxor	%xmm5, %xmm7
	pxor	%xmm2, %xmm1
	pxor	%xmm11, %xmm9
	pxor	%xmm12, %xmm15
	pshufd	$78, %xmm14, %xmm10             # xmm10 = xmm14[2,3,0,1]
	pxor	-336(%r8), %xmm10
	pxor	%xmm10, %xmm15
	pshufd	$78, %xmm0, %xmm10              # xmm10 = xmm0[2,3,0,1]
	pxor	%xmm6, %xmm5
	pxor	%xmm0, %xmm5
	pshufd	$78, %xmm7, %xmm0               # xmm0 = xmm7[2,3,0,1]
	pxor	-304(%r8), %xmm0
	pxor	%xmm0, %xmm5
	pshufd	$78, %xmm1, %xmm0               # xmm0 = xmm1[2,3,0,1]
	pxor	%xmm11, %xmm1
	pshufd	$78, %xmm9, %xmm11              # xmm11 = xmm9[2,3,0,1]
	pxor	-272(%r8), %xmm11
	pxor	%xmm11, %xmm1
	pshufd	$78, %xmm6, %xmm11              # xmm11 = xmm6[2,3,0,1]
	pxor	-256(%r8), %xmm11
	pxor	%xmm3, %xmm9
	pxor	%xmm11, %xmm9
	pxor	-288(%r8), %xmm0
	pxor	%xmm2, %xmm7
	pxor	%xmm0, %xmm7
	pxor	%xmm1, %xmm7
	movdqa	%xmm5, %xmm3
	pxor	%xmm9, %xmm3
	movdqa	%xmm7, %xmm2
	pxor	%xmm4, %xmm2
	movdqa	%xmm2, -96(%rsp)                # 16-byte Spill
	movdqa	%xmm2, %xmm11
	pxor	%xmm5, %xmm11
	movdqa	%xmm11, -112(%rsp)              # 16-byte Spill
	movdqa	%xmm2, %xmm12
	pxor	%xmm8, %xmm12
	pxor	%xmm9, %xmm8
	pxor	%xmm15, %xmm5
	pxor	%xmm14, %xmm6
	movdqa	%xmm8, %xmm0
	pxor	%xmm5, %xmm0
	pxor	-320(%r8), %xmm10
	pxor	%xmm13, %xmm6
	pxor	%xmm10, %xmm6
	pxor	%xmm0, %xmm6
	movdqa	%xmm0, -80(%rsp)                # 16-byte Spill
	movdqa	%xmm6, %xmm2
	pxor	%xmm15, %xmm2
	pxor	%xmm1, %xmm6
	pxor	%xmm9, %xmm15
	movdqa	%xmm2, %xmm13
	pand	%xmm0, %xmm13
	movdqa	%xmm2, %xmm0
	movdqa	%xmm2, %xmm14
	movdqa	%xmm2, -128(%rsp)               # 16-byte Spill
	pxor	%xmm7, %xmm0
	movdqa	%xmm0, -64(%rsp)                # 16-byte Spill
	movdqa	%xmm0, %xmm1
	pxor	%xmm13, %xmm1
	pxor	%xmm6, %xmm13
	movdqa	%xmm3, -48(%rsp)                # 16-byte Spill
	pxor	%xmm3, %xmm6
	movdqa	%xmm6, %xmm2
	pand	%xmm3, %xmm2
	movdqa	%xmm6, %xmm10
	movdqa	%xmm6, %xmm3
	pxor	%xmm0, %xmm10
	movdqa	%xmm10, -16(%rsp)               # 16-byte Spill
	movdqa	%xmm10, %xmm6
	pand	%xmm5, %xmm6
	pand	%xmm15, %xmm0
	pxor	%xmm2, %xmm6
	pxor	%xmm2, %xmm0
	pand	%xmm4, %xmm11
	pxor	%xmm15, %xmm11
	pxor	%xmm11, %xmm1
	movdqa	%xmm14, %xmm10
	pxor	%xmm4, %xmm10
	movdqa	%xmm4, %xmm14
	movdqa	%xmm12, 32(%rsp)                # 16-byte Spill
	movdqa	%xmm12, %xmm4
	pxor	%xmm15, %xmm4
	movdqa	%xmm4, -32(%rsp)                # 16-byte Spill
	movdqa	%xmm10, %xmm2
	pand	%xmm4, %xmm2
	pxor	%xmm2, %xmm13
	pxor	%xmm3, %xmm7
	movdqa	%xmm12, %xmm2
	movdqa	-96(%rsp), %xmm12               # 16-byte Reload
	pand	%xmm12, %xmm2
	movdqa	%xmm7, %xmm4
	pand	%xmm8, %xmm4
	pxor	%xmm6, %xmm13
	pxor	%xmm7, %xmm2
	pxor	%xmm4, %xmm2
	pxor	%xmm8, %xmm2
	pxor	%xmm6, %xmm2
	pxor	%xmm9, %xmm12
	pxor	%xmm9, %xmm4
	movdqa	%xmm3, %xmm9
	movdqa	%xmm3, %xmm6
	pxor	%xmm14, %xmm6
	movdqa	%xmm14, %xmm3
	movdqa	%xmm6, 16(%rsp)                 # 16-byte Spill
	pand	%xmm12, %xmm6
	pxor	%xmm7, %xmm6
	pxor	%xmm6, %xmm4
	pxor	%xmm0, %xmm1
	pxor	%xmm0, %xmm4
	movdqa	%xmm2, %xmm14
	pand	%xmm13, %xmm14
	movdqa	%xmm14, %xmm0
	pxor	%xmm1, %xmm0
	movdqa	%xmm4, %xmm6
	pxor	%xmm2, %xmm6
	pand	%xmm0, %xmm6
	pxor	%xmm1, %xmm13
	movdqa	%xmm6, %xmm0
	pxor	%xmm14, %xmm6
	pxor	%xmm4, %xmm14
	movdqa	%xmm14, %xmm11
	pand	%xmm13, %xmm11
	pxor	%xmm1, %xmm11
	pxor	%xmm4, %xmm0
	pand	%xmm4, %xmm6
	pxor	%xmm6, %xmm14
	pand	%xmm11, %xmm14
	pxor	%xmm13, %xmm14
	pxor	%xmm2, %xmm6
	movdqa	-112(%rsp), %xmm1               # 16-byte Reload
	pand	%xmm0, %xmm1
	movdqa	%xmm1, -112(%rsp)               # 16-byte Spill
	movdqa	%xmm6, %xmm13
	pxor	%xmm0, %xmm13
	movdqa	%xmm11, %xmm2
	pxor	%xmm0, %xmm2
	pand	%xmm3, %xmm0
	movdqa	%xmm14, %xmm3
	pxor	%xmm13, %xmm3
	pand	%xmm2, %xmm9
	movdqa	%xmm9, (%rsp)                   # 16-byte Spill
	movdqa	%xmm3, %xmm9
	pxor	%xmm2, %xmm9
	pand	-48(%rsp), %xmm2                # 16-byte Folded Reload
	movdqa	%xmm14, %xmm4
	pxor	%xmm11, %xmm4
	pand	%xmm4, %xmm7
	pand	%xmm8, %xmm4
	movdqa	-96(%rsp), %xmm8                # 16-byte Reload
	pand	%xmm14, %xmm8
	pand	32(%rsp), %xmm14                # 16-byte Folded Reload
	pand	%xmm13, %xmm10
	pand	-32(%rsp), %xmm13               # 16-byte Folded Reload
	pand	%xmm9, %xmm5
	pand	-16(%rsp), %xmm9                # 16-byte Folded Reload
	pand	%xmm11, %xmm12
	pand	16(%rsp), %xmm11                # 16-byte Folded Reload
	movdqa	-128(%rsp), %xmm1               # 16-byte Reload
	pand	%xmm6, %xmm1
	pand	-80(%rsp), %xmm6                # 16-byte Folded Reload
	pxor	%xmm1, %xmm10
	pxor	%xmm0, %xmm1
	movdqa	%xmm8, %xmm0
	pxor	%xmm7, %xmm0
	pxor	%xmm1, %xmm11
	pxor	%xmm7, %xmm11
	pxor	%xmm2, %xmm5
	pxor	%xmm5, %xmm13
	pxor	%xmm11, %xmm14
	pxor	%xmm5, %xmm14
	pxor	%xmm0, %xmm9
	pxor	%xmm0, %xmm10
	movdqa	-64(%rsp), %xmm0                # 16-byte Reload
	pand	%xmm3, %xmm0
	pxor	%xmm13, %xmm6
	pxor	%xmm0, %xmm1
	pxor	%xmm4, %xmm1
	pxor	%xmm9, %xmm1
	pxor	%xmm1, %xmm12
	pxor	%xmm6, %xmm10
	pxor	%xmm14, %xmm1
	pxor	(%rsp), %xmm9                   # 16-byte Folded Reload
	movdqa	%xmm10, %xmm0
	pxor	%xmm9, %xmm0
	movdqa	%xmm0, -32(%rsp)                # 16-byte Spill
	pxor	%xmm4, %xmm14
	pxor	-112(%rsp), %xmm13              # 16-byte Folded Reload
	pxor	%xmm10, %xmm11
	movdqa	%xmm10, %xmm4
	movdqa	%xmm10, -48(%rsp)               # 16-byte Spill
	pand	%xmm15, %xmm3
	pxor	%xmm12, %xmm13
	pxor	%xmm9, %xmm6
	pxor	%xmm2, %xmm3
	pxor	%xmm9, %xmm3
	pxor	%xmm12, %xmm3
	movdqa	l_gcm_v2_CPI25_3(%rip), %xmm5          # xmm5 = [7,4,5,6,11,8,9,10,15,12,13,14,3,0,1,2]
	movdqa	%xmm14, %xmm8
	pshufb	%xmm5, %xmm8
	movdqa	%xmm1, %xmm10
	pshufb	%xmm5, %xmm10
	movdqa	%xmm13, %xmm0
	pshufb	%xmm5, %xmm0
	movdqa	%xmm0, %xmm9
	movdqa	%xmm0, -96(%rsp)                # 16-byte Spill
	movdqa	%xmm11, %xmm7
	pshufb	%xmm5, %xmm7
	movdqa	%xmm7, -64(%rsp)                # 16-byte Spill
	movdqa	%xmm4, %xmm12
	pshufb	%xmm5, %xmm12
	movdqa	%xmm3, %xmm2
	pshufb	%xmm5, %xmm2
	movdqa	%xmm2, -112(%rsp)               # 16-byte Spill
	movdqa	-32(%rsp), %xmm0                # 16-byte Reload
	movdqa	%xmm0, %xmm4
	pshufb	%xmm5, %xmm4
	movdqa	%xmm4, -16(%rsp)                # 16-byte Spill
	movdqa	%xmm6, %xmm15
	pshufb	%xmm5, %xmm15
	movdqa	%xmm15, -80(%rsp)               # 16-byte Spill
	pxor	%xmm8, %xmm14
	pxor	%xmm10, %xmm1
	movdqa	%xmm1, %xmm5
	movdqa	%xmm1, -128(%rsp)               # 16-byte Spill
	pxor	%xmm9, %xmm13
	pxor	%xmm7, %xmm11
	movdqa	-48(%rsp), %xmm1                # 16-byte Reload
	pxor	%xmm12, %xmm1
	pxor	%xmm2, %xmm3
	pxor	%xmm4, %xmm0
	pxor	%xmm15, %xmm6
	pxor	%xmm6, %xmm10
	pxor	%xmm14, %xmm10
	movdqa	l_gcm_v2_CPI25_1(%rip), %xmm2          # xmm2 = [10,11,8,9,14,15,12,13,2,3,0,1,6,7,4,5]
	pshufb	%xmm2, %xmm14
	pshufb	%xmm2, %xmm5
	movdqa	%xmm8, %xmm7
	pxor	%xmm6, %xmm7
	pxor	%xmm6, %xmm12
	movdqa	%xmm6, %xmm9
	pxor	%xmm13, %xmm6
	pshufb	%xmm2, %xmm13
	pxor	%xmm11, %xmm12
	pshufb	%xmm2, %xmm11
	movdqa	%xmm1, %xmm15
	movdqa	%xmm1, %xmm8
	pshufb	%xmm2, %xmm15
	movdqa	%xmm3, %xmm1
	pshufb	%xmm2, %xmm1
	movdqa	%xmm0, %xmm4
	pshufb	%xmm2, %xmm0
	pshufb	%xmm2, %xmm9
	pxor	-240(%r8), %xmm14
	pxor	-224(%r8), %xmm5
	pxor	%xmm14, %xmm7
	movdqa	%xmm7, 48(%rsp)                 # 16-byte Spill
	pxor	%xmm5, %xmm10
	pxor	-208(%r8), %xmm13
	movdqa	-128(%rsp), %xmm2               # 16-byte Reload
	pxor	-96(%rsp), %xmm2                # 16-byte Folded Reload
	pxor	%xmm13, %xmm2
	movdqa	%xmm2, %xmm5
	pxor	-176(%r8), %xmm15
	pxor	%xmm15, %xmm12
	pxor	-144(%r8), %xmm0
	pxor	-16(%rsp), %xmm3                # 16-byte Folded Reload
	pxor	%xmm0, %xmm3
	pxor	-128(%r8), %xmm9
	movdqa	%xmm4, %xmm0
	pxor	-80(%rsp), %xmm0                # 16-byte Folded Reload
	pxor	%xmm9, %xmm0
	pxor	-160(%r8), %xmm1
	movdqa	%xmm8, %xmm4
	pxor	-112(%rsp), %xmm4               # 16-byte Folded Reload
	pxor	%xmm1, %xmm4
	pxor	%xmm3, %xmm4
	movdqa	%xmm12, %xmm1
	pxor	%xmm0, %xmm1
	movdqa	%xmm4, %xmm13
	pxor	%xmm7, %xmm13
	movdqa	%xmm13, %xmm7
	pxor	%xmm12, %xmm7
	movdqa	%xmm7, -112(%rsp)               # 16-byte Spill
	movdqa	%xmm13, %xmm15
	pxor	%xmm10, %xmm15
	pxor	%xmm0, %xmm10
	movdqa	%xmm10, -96(%rsp)               # 16-byte Spill
	pxor	%xmm2, %xmm12
	pxor	%xmm12, %xmm10
	movdqa	%xmm12, (%rsp)                  # 16-byte Spill
	pxor	-192(%r8), %xmm11
	pxor	-64(%rsp), %xmm6                # 16-byte Folded Reload
	pxor	%xmm11, %xmm6
	pxor	%xmm10, %xmm6
	movdqa	%xmm10, -80(%rsp)               # 16-byte Spill
	movdqa	%xmm6, %xmm14
	pxor	%xmm2, %xmm14
	pxor	%xmm3, %xmm6
	pxor	%xmm0, %xmm5
	movdqa	%xmm0, %xmm8
	movdqa	%xmm14, %xmm9
	pand	%xmm10, %xmm9
	movdqa	%xmm14, %xmm2
	pxor	%xmm4, %xmm2
	movdqa	%xmm4, %xmm10
	movdqa	%xmm2, %xmm4
	pxor	%xmm9, %xmm4
	pxor	%xmm6, %xmm9
	movdqa	%xmm1, -48(%rsp)                # 16-byte Spill
	pxor	%xmm1, %xmm6
	movdqa	%xmm6, %xmm0
	pand	%xmm1, %xmm0
	movdqa	%xmm6, %xmm11
	movdqa	%xmm2, -64(%rsp)                # 16-byte Spill
	movdqa	%xmm6, %xmm3
	pxor	%xmm2, %xmm3
	movdqa	%xmm3, -16(%rsp)                # 16-byte Spill
	pand	%xmm12, %xmm3
	movdqa	%xmm5, -128(%rsp)               # 16-byte Spill
	pand	%xmm5, %xmm2
	pxor	%xmm0, %xmm3
	pxor	%xmm0, %xmm2
	movdqa	%xmm7, %xmm0
	movdqa	48(%rsp), %xmm7                 # 16-byte Reload
	pand	%xmm7, %xmm0
	pxor	%xmm5, %xmm0
	pxor	%xmm0, %xmm4
	movdqa	%xmm14, %xmm1
	pxor	%xmm7, %xmm1
	movdqa	%xmm15, 32(%rsp)                # 16-byte Spill
	movdqa	%xmm15, %xmm6
	pxor	%xmm5, %xmm6
	movdqa	%xmm6, -32(%rsp)                # 16-byte Spill
	movdqa	%xmm1, %xmm0
	pand	%xmm6, %xmm0
	pxor	%xmm0, %xmm9
	movdqa	%xmm11, %xmm12
	movdqa	%xmm10, %xmm0
	pxor	%xmm11, %xmm0
	movdqa	%xmm15, %xmm5
	pand	%xmm13, %xmm5
	movdqa	%xmm0, %xmm6
	movdqa	%xmm0, %xmm10
	movdqa	-96(%rsp), %xmm0                # 16-byte Reload
	pand	%xmm0, %xmm6
	pxor	%xmm3, %xmm9
	pxor	%xmm10, %xmm5
	pxor	%xmm6, %xmm5
	pxor	%xmm0, %xmm5
	pxor	%xmm3, %xmm5
	movdqa	%xmm13, %xmm11
	pxor	%xmm8, %xmm11
	pxor	%xmm8, %xmm6
	movdqa	%xmm12, %xmm0
	movdqa	%xmm12, %xmm8
	pxor	%xmm7, %xmm0
	movdqa	%xmm0, 16(%rsp)                 # 16-byte Spill
	pand	%xmm11, %xmm0
	pxor	%xmm10, %xmm0
	pxor	%xmm0, %xmm6
	pxor	%xmm2, %xmm4
	pxor	%xmm2, %xmm6
	movdqa	%xmm5, %xmm15
	pand	%xmm9, %xmm15
	movdqa	%xmm15, %xmm0
	pxor	%xmm4, %xmm0
	movdqa	%xmm6, %xmm2
	pxor	%xmm5, %xmm2
	pand	%xmm0, %xmm2
	pxor	%xmm4, %xmm9
	movdqa	%xmm2, %xmm3
	pxor	%xmm15, %xmm2
	pxor	%xmm6, %xmm15
	movdqa	%xmm15, %xmm12
	pand	%xmm9, %xmm12
	pxor	%xmm4, %xmm12
	pxor	%xmm6, %xmm3
	pand	%xmm6, %xmm2
	pxor	%xmm2, %xmm15
	pand	%xmm12, %xmm15
	pxor	%xmm9, %xmm15
	pxor	%xmm5, %xmm2
	movdqa	-112(%rsp), %xmm0               # 16-byte Reload
	pand	%xmm3, %xmm0
	movdqa	%xmm0, -112(%rsp)               # 16-byte Spill
	movdqa	%xmm2, %xmm6
	pxor	%xmm3, %xmm6
	movdqa	%xmm12, %xmm5
	pxor	%xmm3, %xmm5
	pand	%xmm7, %xmm3
	movdqa	%xmm15, %xmm9
	pxor	%xmm6, %xmm9
	pand	%xmm5, %xmm8
	movdqa	%xmm8, %xmm7
	movdqa	%xmm9, %xmm0
	pxor	%xmm5, %xmm0
	pand	-48(%rsp), %xmm5                # 16-byte Folded Reload
	movdqa	%xmm15, %xmm4
	pxor	%xmm12, %xmm4
	pand	%xmm4, %xmm10
	pand	-96(%rsp), %xmm4                # 16-byte Folded Reload
	pand	%xmm15, %xmm13
	pand	32(%rsp), %xmm15                # 16-byte Folded Reload
	pand	%xmm6, %xmm1
	pand	-32(%rsp), %xmm6                # 16-byte Folded Reload
	movdqa	(%rsp), %xmm8                   # 16-byte Reload
	pand	%xmm0, %xmm8
	pand	-16(%rsp), %xmm0                # 16-byte Folded Reload
	pand	%xmm12, %xmm11
	pand	16(%rsp), %xmm12                # 16-byte Folded Reload
	pand	%xmm2, %xmm14
	pand	-80(%rsp), %xmm2                # 16-byte Folded Reload
	pxor	%xmm14, %xmm1
	pxor	%xmm3, %xmm14
	pxor	%xmm10, %xmm13
	pxor	%xmm14, %xmm12
	pxor	%xmm10, %xmm12
	movdqa	%xmm8, %xmm3
	pxor	%xmm5, %xmm3
	pxor	%xmm3, %xmm6
	pxor	%xmm12, %xmm15
	pxor	%xmm3, %xmm15
	pxor	%xmm13, %xmm0
	pxor	%xmm13, %xmm1
	movdqa	-64(%rsp), %xmm3                # 16-byte Reload
	pand	%xmm9, %xmm3
	pxor	%xmm3, %xmm14
	pxor	%xmm4, %xmm14
	pxor	%xmm0, %xmm14
	pxor	%xmm7, %xmm0
	pxor	%xmm14, %xmm11
	pxor	%xmm15, %xmm14
	pxor	%xmm4, %xmm15
	pxor	%xmm6, %xmm2
	pxor	%xmm2, %xmm1
	pxor	-112(%rsp), %xmm6               # 16-byte Folded Reload
	movdqa	%xmm1, %xmm8
	pxor	%xmm0, %xmm8
	pxor	%xmm1, %xmm12
	pand	-128(%rsp), %xmm9               # 16-byte Folded Reload
	pxor	%xmm11, %xmm6
	pxor	%xmm0, %xmm2
	pxor	%xmm5, %xmm9
	pxor	%xmm0, %xmm9
	pxor	%xmm11, %xmm9
	pshufd	$57, %xmm15, %xmm10             # xmm10 = xmm15[1,2,3,0]
	pshufd	$57, %xmm14, %xmm7              # xmm7 = xmm14[1,2,3,0]
	pshufd	$57, %xmm2, %xmm0               # xmm0 = xmm2[1,2,3,0]
	pxor	%xmm10, %xmm15
	pxor	%xmm0, %xmm2
	pshufd	$78, %xmm15, %xmm3              # xmm3 = xmm15[2,3,0,1]
	pxor	-112(%r8), %xmm3
	pxor	%xmm2, %xmm10
	pxor	%xmm3, %xmm10
	pshufd	$57, %xmm6, %xmm3               # xmm3 = xmm6[1,2,3,0]
	pxor	%xmm7, %xmm14
	pxor	%xmm2, %xmm7
	pxor	%xmm15, %xmm7
	pshufd	$78, %xmm14, %xmm4              # xmm4 = xmm14[2,3,0,1]
	pxor	-96(%r8), %xmm4
	pxor	%xmm4, %xmm7
	pshufd	$57, %xmm12, %xmm4              # xmm4 = xmm12[1,2,3,0]
	pxor	%xmm3, %xmm6
	pxor	%xmm3, %xmm14
	pshufd	$78, %xmm6, %xmm3               # xmm3 = xmm6[2,3,0,1]
	pxor	-80(%r8), %xmm3
	pxor	%xmm3, %xmm14
	pshufd	$57, %xmm1, %xmm5               # xmm5 = xmm1[1,2,3,0]
	pxor	%xmm4, %xmm12
	pxor	%xmm5, %xmm1
	pxor	%xmm2, %xmm6
	pxor	%xmm4, %xmm6
	pshufd	$78, %xmm12, %xmm3              # xmm3 = xmm12[2,3,0,1]
	pxor	-64(%r8), %xmm3
	pxor	%xmm3, %xmm6
	pshufd	$78, %xmm2, %xmm3               # xmm3 = xmm2[2,3,0,1]
	pxor	%xmm5, %xmm2
	pshufd	$57, %xmm9, %xmm4               # xmm4 = xmm9[1,2,3,0]
	pxor	%xmm12, %xmm2
	pshufd	$78, %xmm1, %xmm5               # xmm5 = xmm1[2,3,0,1]
	pxor	-48(%r8), %xmm5
	pxor	%xmm5, %xmm2
	pshufd	$57, %xmm8, %xmm5               # xmm5 = xmm8[1,2,3,0]
	pxor	%xmm4, %xmm9
	pxor	%xmm5, %xmm8
	pxor	%xmm4, %xmm1
	pshufd	$78, %xmm9, %xmm4               # xmm4 = xmm9[2,3,0,1]
	pxor	-32(%r8), %xmm4
	pxor	%xmm4, %xmm1
	pshufd	$78, %xmm8, %xmm4               # xmm4 = xmm8[2,3,0,1]
	pxor	-16(%r8), %xmm4
	pxor	%xmm5, %xmm9
	pxor	%xmm4, %xmm9
	pxor	(%r8), %xmm3
	pxor	%xmm0, %xmm8
	pxor	%xmm3, %xmm8
	addq	$512, %r8                       # imm = 0x200
	decq	%rcx
	jne	Lgcm_v2_BB25_2
Lgcm_v2_BB25_3:                               # %after.3
	pxor	%xmm9, %xmm1
	movdqa	%xmm2, %xmm0
	pxor	%xmm8, %xmm0
	movdqa	%xmm0, %xmm4
	movdqa	%xmm10, %xmm11
	pxor	%xmm1, %xmm11
	movdqa	%xmm11, -96(%rsp)               # 16-byte Spill
	movdqa	%xmm11, %xmm0
	pxor	%xmm2, %xmm0
	movdqa	%xmm0, -128(%rsp)               # 16-byte Spill
	pxor	%xmm7, %xmm11
	pxor	%xmm8, %xmm7
	pxor	%xmm14, %xmm2
	movdqa	%xmm7, %xmm0
	pxor	%xmm2, %xmm0
	pxor	%xmm0, %xmm6
	movdqa	%xmm0, %xmm13
	movdqa	%xmm0, -32(%rsp)                # 16-byte Spill
	movdqa	%xmm6, %xmm12
	pxor	%xmm14, %xmm12
	pxor	%xmm9, %xmm6
	pxor	%xmm8, %xmm14
	movdqa	%xmm6, %xmm0
	movdqa	%xmm4, %xmm3
	movdqa	%xmm4, -48(%rsp)                # 16-byte Spill
	pxor	%xmm4, %xmm0
	movdqa	%xmm0, %xmm4
	movdqa	%xmm0, %xmm9
	pand	%xmm3, %xmm4
	movdqa	%xmm12, %xmm0
	pxor	%xmm1, %xmm0
	movdqa	%xmm9, %xmm5
	pxor	%xmm0, %xmm5
	movdqa	%xmm5, -64(%rsp)                # 16-byte Spill
	movdqa	%xmm0, %xmm15
	movdqa	%xmm5, %xmm0
	pand	%xmm2, %xmm0
	movdqa	%xmm15, %xmm3
	movdqa	%xmm15, -80(%rsp)               # 16-byte Spill
	pand	%xmm14, %xmm3
	pxor	%xmm4, %xmm0
	pxor	%xmm4, %xmm3
	movdqa	%xmm7, %xmm5
	movdqa	%xmm7, -16(%rsp)                # 16-byte Spill
	movdqa	-128(%rsp), %xmm7               # 16-byte Reload
	pand	%xmm10, %xmm7
	movdqa	%xmm12, %xmm4
	pand	%xmm13, %xmm4
	pxor	%xmm14, %xmm7
	pxor	%xmm15, %xmm7
	pxor	%xmm4, %xmm7
	pxor	%xmm6, %xmm4
	movdqa	%xmm12, %xmm15
	pxor	%xmm10, %xmm15
	movdqa	%xmm11, 16(%rsp)                # 16-byte Spill
	movdqa	%xmm11, %xmm13
	pxor	%xmm14, %xmm13
	movdqa	%xmm13, 32(%rsp)                # 16-byte Spill
	movdqa	%xmm15, %xmm6
	pand	%xmm13, %xmm6
	pxor	%xmm6, %xmm4
	movdqa	%xmm9, %xmm6
	movdqa	%xmm9, -112(%rsp)               # 16-byte Spill
	pxor	%xmm9, %xmm1
	movdqa	%xmm11, %xmm9
	movdqa	-96(%rsp), %xmm13               # 16-byte Reload
	pand	%xmm13, %xmm9
	movdqa	%xmm1, %xmm11
	pand	%xmm5, %xmm11
	pxor	%xmm0, %xmm4
	pxor	%xmm1, %xmm9
	pxor	%xmm11, %xmm9
	pxor	%xmm5, %xmm9
	pxor	%xmm0, %xmm9
	movdqa	%xmm13, %xmm5
	pxor	%xmm8, %xmm5
	pxor	%xmm8, %xmm11
	pxor	%xmm10, %xmm6
	movdqa	%xmm6, (%rsp)                   # 16-byte Spill
	pand	%xmm5, %xmm6
	pxor	%xmm1, %xmm6
	pxor	%xmm6, %xmm11
	pxor	%xmm3, %xmm7
	pxor	%xmm3, %xmm11
	movdqa	%xmm9, %xmm8
	pand	%xmm4, %xmm8
	movdqa	%xmm8, %xmm6
	pxor	%xmm7, %xmm6
	movdqa	%xmm11, %xmm3
	pxor	%xmm9, %xmm3
	pand	%xmm6, %xmm3
	pxor	%xmm7, %xmm4
	movdqa	%xmm3, %xmm6
	pxor	%xmm8, %xmm3
	pxor	%xmm11, %xmm8
	movdqa	%xmm8, %xmm13
	pand	%xmm4, %xmm13
	pxor	%xmm7, %xmm13
	pxor	%xmm11, %xmm6
	pand	%xmm11, %xmm3
	pxor	%xmm3, %xmm8
	pand	%xmm13, %xmm8
	pxor	%xmm4, %xmm8
	pxor	%xmm9, %xmm3
	movdqa	-128(%rsp), %xmm4               # 16-byte Reload
	pand	%xmm6, %xmm4
	movdqa	%xmm4, -128(%rsp)               # 16-byte Spill
	movdqa	%xmm3, %xmm9
	pxor	%xmm6, %xmm9
	movdqa	%xmm13, %xmm4
	pxor	%xmm6, %xmm4
	pand	%xmm10, %xmm6
	movdqa	%xmm8, %xmm10
	pxor	%xmm9, %xmm10
	movdqa	-112(%rsp), %xmm0               # 16-byte Reload
	pand	%xmm4, %xmm0
	movdqa	%xmm0, -112(%rsp)               # 16-byte Spill
	movdqa	%xmm10, %xmm11
	pxor	%xmm4, %xmm11
	pand	-48(%rsp), %xmm4                # 16-byte Folded Reload
	movdqa	%xmm8, %xmm7
	pxor	%xmm13, %xmm7
	pand	%xmm7, %xmm1
	pand	-16(%rsp), %xmm7                # 16-byte Folded Reload
	movdqa	-96(%rsp), %xmm0                # 16-byte Reload
	pand	%xmm8, %xmm0
	pand	16(%rsp), %xmm8                 # 16-byte Folded Reload
	pand	%xmm9, %xmm15
	pand	32(%rsp), %xmm9                 # 16-byte Folded Reload
	pand	%xmm11, %xmm2
	pand	-64(%rsp), %xmm11               # 16-byte Folded Reload
	pand	%xmm13, %xmm5
	pand	(%rsp), %xmm13                  # 16-byte Folded Reload
	pand	%xmm3, %xmm12
	pand	-32(%rsp), %xmm3                # 16-byte Folded Reload
	pxor	%xmm12, %xmm15
	pxor	%xmm6, %xmm12
	pxor	%xmm1, %xmm0
	pxor	%xmm12, %xmm13
	pxor	%xmm1, %xmm13
	pxor	%xmm4, %xmm2
	pxor	%xmm2, %xmm9
	pxor	%xmm13, %xmm8
	pxor	%xmm2, %xmm8
	movdqa	-80(%rsp), %xmm1                # 16-byte Reload
	pand	%xmm10, %xmm1
	pxor	%xmm0, %xmm11
	pxor	%xmm9, %xmm3
	pxor	%xmm0, %xmm15
	movdqa	%xmm12, %xmm2
	pxor	%xmm1, %xmm2
	pxor	%xmm7, %xmm2
	pxor	%xmm11, %xmm2
	pxor	%xmm2, %xmm5
	pxor	%xmm3, %xmm15
	pxor	%xmm8, %xmm2
	pxor	-112(%rsp), %xmm11              # 16-byte Folded Reload
	movdqa	%xmm15, %xmm6
	pxor	%xmm11, %xmm6
	pxor	%xmm7, %xmm8
	pxor	-128(%rsp), %xmm9               # 16-byte Folded Reload
	pxor	%xmm15, %xmm13
	pand	%xmm14, %xmm10
	pxor	%xmm5, %xmm9
	pxor	%xmm11, %xmm3
	pxor	%xmm4, %xmm10
	pxor	%xmm11, %xmm10
	pxor	%xmm5, %xmm10
	movdqa	l_gcm_v2_CPI25_0(%rip), %xmm14         # xmm14 = [5,6,7,4,9,10,11,8,13,14,15,12,1,2,3,0]
	movdqa	%xmm8, %xmm1
	pshufb	%xmm14, %xmm1
	movdqa	%xmm2, %xmm12
	pshufb	%xmm14, %xmm12
	movdqa	%xmm9, %xmm4
	pshufb	%xmm14, %xmm4
	movdqa	%xmm13, %xmm11
	pshufb	%xmm14, %xmm11
	movdqa	%xmm15, %xmm7
	pshufb	%xmm14, %xmm7
	movdqa	%xmm10, %xmm5
	pshufb	%xmm14, %xmm5
	movdqa	%xmm6, %xmm0
	pshufb	%xmm14, %xmm0
	movdqa	%xmm0, -128(%rsp)               # 16-byte Spill
	movdqa	%xmm3, %xmm0
	pshufb	%xmm14, %xmm0
	movdqa	%xmm0, -96(%rsp)                # 16-byte Spill
	movq	%rax, %rcx
	andq	$-4, %rcx
	pxor	%xmm1, %xmm8
	pxor	%xmm12, %xmm2
	pxor	%xmm0, %xmm3
	pxor	%xmm3, %xmm12
	pxor	%xmm8, %xmm12
	movdqa	l_gcm_v2_CPI25_1(%rip), %xmm14         # xmm14 = [10,11,8,9,14,15,12,13,2,3,0,1,6,7,4,5]
	pshufb	%xmm14, %xmm8
	movq	%rcx, %r8
	shlq	$7, %r8
	pxor	128(%rdi,%r8), %xmm8
	pxor	%xmm3, %xmm1
	pxor	%xmm8, %xmm1
	movdqa	%xmm2, %xmm8
	pshufb	%xmm14, %xmm8
	pxor	144(%rdi,%r8), %xmm8
	pxor	%xmm8, %xmm12
	movdqa	%xmm12, -112(%rsp)              # 16-byte Spill
	pxor	%xmm4, %xmm9
	movdqa	%xmm9, %xmm8
	pshufb	%xmm14, %xmm8
	pxor	160(%rdi,%r8), %xmm8
	pxor	%xmm4, %xmm2
	movdqa	%xmm2, %xmm0
	pxor	%xmm8, %xmm0
	pxor	%xmm11, %xmm13
	pxor	%xmm7, %xmm15
	pxor	%xmm3, %xmm9
	pxor	%xmm11, %xmm9
	movdqa	%xmm3, %xmm8
	pxor	%xmm7, %xmm3
	pxor	%xmm5, %xmm10
	pxor	%xmm13, %xmm3
	pshufb	%xmm14, %xmm13
	pxor	176(%rdi,%r8), %xmm13
	pxor	%xmm13, %xmm9
	movdqa	%xmm15, %xmm7
	pshufb	%xmm14, %xmm7
	pxor	192(%rdi,%r8), %xmm7
	pxor	%xmm7, %xmm3
	movdqa	%xmm10, %xmm7
	pshufb	%xmm14, %xmm7
	pxor	208(%rdi,%r8), %xmm7
	pxor	%xmm5, %xmm15
	pxor	%xmm7, %xmm15
	movdqa	%xmm15, %xmm12
	movdqa	-128(%rsp), %xmm2               # 16-byte Reload
	pxor	%xmm2, %xmm6
	pxor	%xmm2, %xmm10
	movdqa	%xmm6, %xmm2
	pshufb	%xmm14, %xmm2
	pxor	224(%rdi,%r8), %xmm2
	pxor	%xmm2, %xmm10
	pshufb	%xmm14, %xmm8
	movdqa	%xmm6, %xmm14
	pxor	240(%rdi,%r8), %xmm8
	pxor	-96(%rsp), %xmm14               # 16-byte Folded Reload
	pxor	%xmm8, %xmm14
	orq	$2, %rcx
	cmpq	%rsi, %rcx
	jae	Lgcm_v2_BB25_5
# %bb.4:                                # %then.11
	pxor	%xmm10, %xmm12
	movdqa	%xmm14, %xmm4
	pxor	%xmm3, %xmm4
	movdqa	%xmm12, %xmm2
	pxor	%xmm1, %xmm2
	movdqa	%xmm2, 48(%rsp)                 # 16-byte Spill
	movdqa	%xmm1, %xmm6
	movdqa	%xmm2, %xmm1
	pxor	%xmm3, %xmm1
	movdqa	%xmm1, %xmm7
	movdqa	%xmm1, -128(%rsp)               # 16-byte Spill
	movdqa	%xmm14, %xmm13
	movdqa	-112(%rsp), %xmm15              # 16-byte Reload
	pxor	%xmm15, %xmm13
	movdqa	%xmm13, -96(%rsp)               # 16-byte Spill
	pxor	%xmm0, %xmm3
	pxor	%xmm3, %xmm13
	pxor	%xmm13, %xmm9
	movdqa	%xmm3, (%rsp)                   # 16-byte Spill
	movdqa	%xmm13, -16(%rsp)               # 16-byte Spill
	movdqa	%xmm9, %xmm8
	pxor	%xmm0, %xmm8
	pxor	%xmm10, %xmm9
	pxor	%xmm14, %xmm0
	movdqa	%xmm0, -48(%rsp)                # 16-byte Spill
	movdqa	%xmm9, %xmm1
	movdqa	%xmm4, %xmm2
	movdqa	%xmm4, -32(%rsp)                # 16-byte Spill
	pxor	%xmm4, %xmm1
	movdqa	%xmm1, %xmm4
	movdqa	%xmm1, %xmm10
	pand	%xmm2, %xmm4
	movdqa	%xmm8, %xmm1
	pxor	%xmm12, %xmm1
	movdqa	%xmm10, %xmm5
	pxor	%xmm1, %xmm5
	movdqa	%xmm5, -64(%rsp)                # 16-byte Spill
	pand	%xmm3, %xmm5
	movdqa	%xmm1, %xmm2
	movdqa	%xmm1, -80(%rsp)                # 16-byte Spill
	pand	%xmm0, %xmm2
	pxor	%xmm4, %xmm5
	pxor	%xmm4, %xmm2
	movdqa	%xmm12, %xmm11
	movdqa	%xmm6, %xmm3
	pand	%xmm6, %xmm7
	movdqa	%xmm8, %xmm6
	pand	%xmm13, %xmm6
	pxor	%xmm0, %xmm7
	movdqa	%xmm1, %xmm4
	pxor	%xmm6, %xmm4
	pxor	%xmm7, %xmm4
	pxor	%xmm9, %xmm6
	movdqa	48(%rsp), %xmm1                 # 16-byte Reload
	pxor	%xmm1, %xmm15
	movdqa	%xmm8, %xmm9
	pxor	%xmm3, %xmm9
	movdqa	%xmm15, -112(%rsp)              # 16-byte Spill
	movdqa	%xmm15, %xmm12
	pxor	%xmm0, %xmm12
	movdqa	%xmm12, 32(%rsp)                # 16-byte Spill
	movdqa	%xmm9, %xmm7
	pand	%xmm12, %xmm7
	pxor	%xmm7, %xmm6
	movdqa	%xmm10, %xmm12
	pxor	%xmm10, %xmm11
	movdqa	%xmm15, %xmm13
	pand	%xmm1, %xmm13
	movdqa	%xmm14, %xmm10
	movdqa	%xmm11, %xmm14
	movdqa	-96(%rsp), %xmm0                # 16-byte Reload
	pand	%xmm0, %xmm14
	pxor	%xmm5, %xmm6
	pxor	%xmm11, %xmm13
	pxor	%xmm14, %xmm13
	pxor	%xmm0, %xmm13
	pxor	%xmm5, %xmm13
	movdqa	%xmm1, %xmm7
	pxor	%xmm10, %xmm7
	pxor	%xmm10, %xmm14
	movdqa	%xmm12, %xmm5
	movdqa	%xmm12, %xmm15
	pxor	%xmm3, %xmm5
	movdqa	%xmm5, 16(%rsp)                 # 16-byte Spill
	pand	%xmm7, %xmm5
	pxor	%xmm11, %xmm5
	pxor	%xmm5, %xmm14
	pxor	%xmm2, %xmm4
	pxor	%xmm2, %xmm14
	movdqa	%xmm13, %xmm10
	pand	%xmm6, %xmm10
	movdqa	%xmm10, %xmm2
	pxor	%xmm4, %xmm2
	movdqa	%xmm14, %xmm5
	pxor	%xmm13, %xmm5
	pand	%xmm2, %xmm5
	pxor	%xmm4, %xmm6
	movdqa	%xmm5, %xmm12
	pxor	%xmm10, %xmm5
	pxor	%xmm14, %xmm10
	movdqa	%xmm10, %xmm2
	pand	%xmm6, %xmm2
	pxor	%xmm4, %xmm2
	pxor	%xmm14, %xmm12
	pand	%xmm14, %xmm5
	pxor	%xmm5, %xmm10
	pand	%xmm2, %xmm10
	pxor	%xmm6, %xmm10
	pxor	%xmm13, %xmm5
	movdqa	-128(%rsp), %xmm0               # 16-byte Reload
	pand	%xmm12, %xmm0
	movdqa	%xmm0, -128(%rsp)               # 16-byte Spill
	movdqa	%xmm5, %xmm14
	pxor	%xmm12, %xmm14
	movdqa	%xmm2, %xmm6
	pxor	%xmm12, %xmm6
	pand	%xmm3, %xmm12
	movdqa	%xmm10, %xmm13
	pxor	%xmm14, %xmm13
	pand	%xmm6, %xmm15
	movdqa	%xmm15, %xmm3
	movdqa	%xmm13, %xmm15
	pxor	%xmm6, %xmm15
	pand	-32(%rsp), %xmm6                # 16-byte Folded Reload
	movdqa	%xmm10, %xmm4
	pxor	%xmm2, %xmm4
	pand	%xmm4, %xmm11
	pand	-96(%rsp), %xmm4                # 16-byte Folded Reload
	pand	%xmm10, %xmm1
	pand	-112(%rsp), %xmm10              # 16-byte Folded Reload
	pand	%xmm14, %xmm9
	pand	32(%rsp), %xmm14                # 16-byte Folded Reload
	movdqa	(%rsp), %xmm0                   # 16-byte Reload
	pand	%xmm15, %xmm0
	pand	-64(%rsp), %xmm15               # 16-byte Folded Reload
	pand	%xmm2, %xmm7
	pand	16(%rsp), %xmm2                 # 16-byte Folded Reload
	pand	%xmm5, %xmm8
	pand	-16(%rsp), %xmm5                # 16-byte Folded Reload
	pxor	%xmm8, %xmm9
	pxor	%xmm12, %xmm8
	pxor	%xmm11, %xmm1
	pxor	%xmm8, %xmm2
	pxor	%xmm11, %xmm2
	pxor	%xmm6, %xmm0
	pxor	%xmm0, %xmm14
	pxor	%xmm2, %xmm10
	pxor	%xmm0, %xmm10
	pxor	%xmm1, %xmm15
	pxor	%xmm1, %xmm9
	movdqa	-80(%rsp), %xmm0                # 16-byte Reload
	pand	%xmm13, %xmm0
	pxor	%xmm14, %xmm5
	movdqa	%xmm8, %xmm11
	pxor	%xmm0, %xmm11
	pxor	%xmm4, %xmm11
	pxor	%xmm15, %xmm11
	pxor	%xmm11, %xmm7
	pxor	%xmm5, %xmm9
	pxor	%xmm10, %xmm11
	pxor	%xmm3, %xmm15
	movdqa	%xmm9, %xmm8
	pxor	%xmm15, %xmm8
	pxor	%xmm4, %xmm10
	pxor	-128(%rsp), %xmm14              # 16-byte Folded Reload
	pxor	%xmm9, %xmm2
	pand	-48(%rsp), %xmm13               # 16-byte Folded Reload
	pxor	%xmm7, %xmm14
	pxor	%xmm15, %xmm5
	pxor	%xmm6, %xmm13
	pxor	%xmm15, %xmm13
	pxor	%xmm7, %xmm13
	movdqa	l_gcm_v2_CPI25_2(%rip), %xmm12         # xmm12 = [6,7,4,5,10,11,8,9,14,15,12,13,2,3,0,1]
	movdqa	%xmm10, %xmm6
	pshufb	%xmm12, %xmm6
	movdqa	%xmm11, %xmm15
	pshufb	%xmm12, %xmm15
	movdqa	%xmm14, %xmm0
	pshufb	%xmm12, %xmm0
	movdqa	%xmm2, %xmm1
	pshufb	%xmm12, %xmm1
	movdqa	%xmm1, -112(%rsp)               # 16-byte Spill
	movdqa	%xmm9, %xmm4
	pshufb	%xmm12, %xmm4
	movdqa	%xmm13, %xmm3
	pshufb	%xmm12, %xmm3
	movdqa	%xmm8, %xmm7
	pshufb	%xmm12, %xmm7
	movdqa	%xmm5, %xmm1
	pshufb	%xmm12, %xmm1
	pxor	%xmm6, %xmm10
	pxor	%xmm1, %xmm5
	shlq	$7, %rax
	pshufd	$78, %xmm10, %xmm12             # xmm12 = xmm10[2,3,0,1]
	pxor	(%rdi,%rax), %xmm12
	pxor	%xmm5, %xmm6
	pxor	%xmm12, %xmm6
	movdqa	%xmm15, %xmm12
	pxor	%xmm15, %xmm11
	pxor	%xmm5, %xmm12
	pxor	%xmm10, %xmm12
	pshufd	$78, %xmm11, %xmm10             # xmm10 = xmm11[2,3,0,1]
	pxor	16(%rdi,%rax), %xmm10
	pxor	%xmm10, %xmm12
	pxor	%xmm0, %xmm14
	pxor	-112(%rsp), %xmm2               # 16-byte Folded Reload
	pxor	%xmm4, %xmm9
	pxor	%xmm3, %xmm13
	pxor	%xmm0, %xmm11
	pshufd	$78, %xmm14, %xmm10             # xmm10 = xmm14[2,3,0,1]
	pxor	32(%rdi,%rax), %xmm10
	pxor	%xmm7, %xmm8
	pxor	%xmm10, %xmm11
	pshufd	$78, %xmm2, %xmm0               # xmm0 = xmm2[2,3,0,1]
	pxor	%xmm5, %xmm4
	pxor	%xmm2, %xmm4
	pshufd	$78, %xmm9, %xmm2               # xmm2 = xmm9[2,3,0,1]
	pxor	64(%rdi,%rax), %xmm2
	pxor	%xmm2, %xmm4
	pshufd	$78, %xmm13, %xmm2              # xmm2 = xmm13[2,3,0,1]
	pxor	%xmm7, %xmm13
	pshufd	$78, %xmm8, %xmm7               # xmm7 = xmm8[2,3,0,1]
	pxor	96(%rdi,%rax), %xmm7
	pxor	%xmm7, %xmm13
	pshufd	$78, %xmm5, %xmm7               # xmm7 = xmm5[2,3,0,1]
	pxor	112(%rdi,%rax), %xmm7
	pxor	%xmm1, %xmm8
	pxor	%xmm7, %xmm8
	pxor	80(%rdi,%rax), %xmm2
	pxor	%xmm3, %xmm9
	pxor	%xmm2, %xmm9
	pxor	%xmm13, %xmm9
	movdqa	%xmm8, %xmm3
	pxor	%xmm4, %xmm3
	movdqa	%xmm9, %xmm15
	pxor	%xmm6, %xmm15
	movdqa	%xmm15, %xmm10
	pxor	%xmm4, %xmm10
	movdqa	%xmm10, -128(%rsp)              # 16-byte Spill
	movdqa	%xmm8, %xmm1
	pxor	%xmm12, %xmm1
	movdqa	%xmm1, -80(%rsp)                # 16-byte Spill
	pxor	%xmm11, %xmm4
	pxor	%xmm14, %xmm5
	pxor	%xmm4, %xmm1
	pxor	48(%rdi,%rax), %xmm0
	pxor	-112(%rsp), %xmm5               # 16-byte Folded Reload
	pxor	%xmm0, %xmm5
	pxor	%xmm1, %xmm5
	movdqa	%xmm1, -64(%rsp)                # 16-byte Spill
	movdqa	%xmm5, %xmm7
	pxor	%xmm11, %xmm7
	pxor	%xmm13, %xmm5
	pxor	%xmm8, %xmm11
	movdqa	%xmm7, %xmm0
	pand	%xmm1, %xmm0
	movdqa	%xmm7, %xmm1
	movdqa	%xmm7, -96(%rsp)                # 16-byte Spill
	pxor	%xmm9, %xmm1
	movdqa	%xmm1, %xmm13
	pxor	%xmm0, %xmm13
	pxor	%xmm5, %xmm0
	movdqa	%xmm5, %xmm14
	movdqa	%xmm3, 32(%rsp)                 # 16-byte Spill
	pxor	%xmm3, %xmm14
	movdqa	%xmm14, %xmm2
	pand	%xmm3, %xmm2
	movdqa	%xmm14, %xmm3
	movdqa	%xmm1, -16(%rsp)                # 16-byte Spill
	pxor	%xmm1, %xmm3
	movdqa	%xmm3, -32(%rsp)                # 16-byte Spill
	pand	%xmm4, %xmm3
	movdqa	%xmm11, -112(%rsp)              # 16-byte Spill
	pand	%xmm11, %xmm1
	pxor	%xmm2, %xmm3
	pxor	%xmm2, %xmm1
	pand	%xmm6, %xmm10
	pxor	%xmm11, %xmm10
	pxor	%xmm10, %xmm13
	pxor	%xmm15, %xmm12
	movdqa	%xmm7, %xmm5
	pxor	%xmm6, %xmm5
	movdqa	%xmm12, 16(%rsp)                # 16-byte Spill
	movdqa	%xmm12, %xmm7
	pxor	%xmm11, %xmm7
	movdqa	%xmm7, -48(%rsp)                # 16-byte Spill
	movdqa	%xmm5, %xmm2
	pand	%xmm7, %xmm2
	pxor	%xmm2, %xmm0
	movdqa	%xmm9, %xmm10
	pxor	%xmm14, %xmm10
	movdqa	%xmm12, %xmm2
	pand	%xmm15, %xmm2
	movdqa	%xmm10, %xmm7
	movdqa	-80(%rsp), %xmm9                # 16-byte Reload
	pand	%xmm9, %xmm7
	pxor	%xmm3, %xmm0
	pxor	%xmm10, %xmm2
	movdqa	%xmm10, %xmm11
	pxor	%xmm7, %xmm2
	pxor	%xmm9, %xmm2
	pxor	%xmm3, %xmm2
	movdqa	%xmm15, %xmm10
	pxor	%xmm8, %xmm10
	pxor	%xmm8, %xmm7
	movdqa	%xmm14, %xmm3
	pxor	%xmm6, %xmm3
	movdqa	%xmm3, (%rsp)                   # 16-byte Spill
	pand	%xmm10, %xmm3
	pxor	%xmm11, %xmm3
	movdqa	%xmm11, %xmm9
	pxor	%xmm3, %xmm7
	pxor	%xmm1, %xmm13
	pxor	%xmm1, %xmm7
	movdqa	%xmm2, %xmm12
	pand	%xmm0, %xmm12
	movdqa	%xmm12, %xmm1
	pxor	%xmm13, %xmm1
	movdqa	%xmm7, %xmm11
	pxor	%xmm2, %xmm11
	pand	%xmm1, %xmm11
	pxor	%xmm13, %xmm0
	movdqa	%xmm11, %xmm1
	pxor	%xmm12, %xmm11
	pxor	%xmm7, %xmm12
	movdqa	%xmm12, %xmm3
	pand	%xmm0, %xmm3
	pxor	%xmm13, %xmm3
	pxor	%xmm7, %xmm1
	pand	%xmm7, %xmm11
	pxor	%xmm11, %xmm12
	pand	%xmm3, %xmm12
	pxor	%xmm0, %xmm12
	pxor	%xmm2, %xmm11
	movdqa	-128(%rsp), %xmm0               # 16-byte Reload
	pand	%xmm1, %xmm0
	movdqa	%xmm0, -128(%rsp)               # 16-byte Spill
	movdqa	%xmm11, %xmm8
	pxor	%xmm1, %xmm8
	movdqa	%xmm3, %xmm2
	pxor	%xmm1, %xmm2
	pand	%xmm6, %xmm1
	movdqa	%xmm12, %xmm6
	pxor	%xmm8, %xmm6
	pand	%xmm2, %xmm14
	movdqa	%xmm6, %xmm13
	pxor	%xmm2, %xmm13
	pand	32(%rsp), %xmm2                 # 16-byte Folded Reload
	movdqa	%xmm12, %xmm0
	pxor	%xmm3, %xmm0
	movdqa	%xmm9, %xmm7
	pand	%xmm0, %xmm7
	pand	-80(%rsp), %xmm0                # 16-byte Folded Reload
	pand	%xmm12, %xmm15
	pand	16(%rsp), %xmm12                # 16-byte Folded Reload
	pand	%xmm8, %xmm5
	pand	-48(%rsp), %xmm8                # 16-byte Folded Reload
	pand	%xmm13, %xmm4
	pand	-32(%rsp), %xmm13               # 16-byte Folded Reload
	pand	%xmm3, %xmm10
	pand	(%rsp), %xmm3                   # 16-byte Folded Reload
	movdqa	-96(%rsp), %xmm9                # 16-byte Reload
	pand	%xmm11, %xmm9
	pand	-64(%rsp), %xmm11               # 16-byte Folded Reload
	pxor	%xmm9, %xmm5
	pxor	%xmm1, %xmm9
	pxor	%xmm7, %xmm15
	pxor	%xmm9, %xmm3
	pxor	%xmm7, %xmm3
	pxor	%xmm2, %xmm4
	pxor	%xmm4, %xmm8
	pxor	%xmm3, %xmm12
	pxor	%xmm4, %xmm12
	pxor	%xmm15, %xmm13
	pxor	%xmm15, %xmm5
	movdqa	-16(%rsp), %xmm1                # 16-byte Reload
	pand	%xmm6, %xmm1
	pxor	%xmm8, %xmm11
	pxor	%xmm1, %xmm9
	pxor	%xmm0, %xmm9
	pxor	%xmm13, %xmm9
	pxor	%xmm9, %xmm10
	pxor	%xmm11, %xmm5
	pxor	%xmm12, %xmm9
	movdqa	%xmm9, %xmm1
	pxor	%xmm14, %xmm13
	movdqa	%xmm5, %xmm7
	pxor	%xmm13, %xmm7
	pxor	%xmm0, %xmm12
	pxor	-128(%rsp), %xmm8               # 16-byte Folded Reload
	pxor	%xmm5, %xmm3
	pand	-112(%rsp), %xmm6               # 16-byte Folded Reload
	pxor	%xmm10, %xmm8
	pxor	%xmm13, %xmm11
	pxor	%xmm2, %xmm6
	pxor	%xmm13, %xmm6
	pxor	%xmm10, %xmm6
	movdqa	l_gcm_v2_CPI25_3(%rip), %xmm10         # xmm10 = [7,4,5,6,11,8,9,10,15,12,13,14,3,0,1,2]
	movdqa	%xmm12, %xmm0
	pshufb	%xmm10, %xmm0
	pshufb	%xmm10, %xmm9
	movdqa	%xmm8, %xmm2
	pshufb	%xmm10, %xmm2
	movdqa	%xmm2, -64(%rsp)                # 16-byte Spill
	movdqa	%xmm3, %xmm4
	pshufb	%xmm10, %xmm4
	movdqa	%xmm4, -96(%rsp)                # 16-byte Spill
	movdqa	%xmm5, %xmm4
	pshufb	%xmm10, %xmm5
	movdqa	%xmm6, %xmm13
	pshufb	%xmm10, %xmm13
	movdqa	%xmm13, %xmm15
	movdqa	%xmm13, -48(%rsp)               # 16-byte Spill
	movdqa	%xmm7, %xmm13
	pshufb	%xmm10, %xmm13
	movdqa	%xmm13, %xmm14
	movdqa	%xmm13, -32(%rsp)               # 16-byte Spill
	movdqa	%xmm11, %xmm13
	pshufb	%xmm10, %xmm13
	movdqa	%xmm13, -80(%rsp)               # 16-byte Spill
	pxor	%xmm0, %xmm12
	pxor	%xmm9, %xmm1
	pxor	%xmm2, %xmm8
	pxor	%xmm5, %xmm4
	movdqa	%xmm4, -16(%rsp)                # 16-byte Spill
	pxor	%xmm13, %xmm11
	pxor	%xmm11, %xmm0
	movdqa	%xmm0, -128(%rsp)               # 16-byte Spill
	pxor	%xmm11, %xmm9
	movdqa	%xmm8, %xmm13
	pxor	%xmm11, %xmm8
	movdqa	%xmm11, %xmm10
	pxor	%xmm5, %xmm11
	pxor	-96(%rsp), %xmm3                # 16-byte Folded Reload
	pxor	%xmm15, %xmm6
	pxor	%xmm14, %xmm7
	pxor	%xmm12, %xmm9
	movdqa	l_gcm_v2_CPI25_1(%rip), %xmm2          # xmm2 = [10,11,8,9,14,15,12,13,2,3,0,1,6,7,4,5]
	pshufb	%xmm2, %xmm12
	movdqa	%xmm1, %xmm5
	pshufb	%xmm2, %xmm5
	pshufb	%xmm2, %xmm13
	pxor	%xmm3, %xmm11
	pshufb	%xmm2, %xmm3
	movdqa	-16(%rsp), %xmm0                # 16-byte Reload
	movdqa	%xmm0, %xmm14
	pshufb	%xmm2, %xmm14
	movdqa	%xmm6, %xmm15
	pshufb	%xmm2, %xmm15
	movdqa	%xmm7, %xmm4
	pshufb	%xmm2, %xmm4
	shlq	$7, %rsi
	pxor	-128(%rdi,%rsi), %xmm12
	pshufb	%xmm2, %xmm10
	movdqa	-128(%rsp), %xmm2               # 16-byte Reload
	pxor	%xmm12, %xmm2
	movdqa	%xmm2, -128(%rsp)               # 16-byte Spill
	pxor	-112(%rdi,%rsi), %xmm5
	pxor	%xmm5, %xmm9
	movdqa	%xmm9, -112(%rsp)               # 16-byte Spill
	pxor	-64(%rsp), %xmm1                # 16-byte Folded Reload
	pxor	-96(%rdi,%rsi), %xmm13
	pxor	%xmm13, %xmm1
	movdqa	%xmm0, %xmm13
	pxor	-96(%rsp), %xmm8                # 16-byte Folded Reload
	pxor	-80(%rdi,%rsi), %xmm3
	pxor	%xmm3, %xmm8
	pxor	-64(%rdi,%rsi), %xmm14
	pxor	%xmm14, %xmm11
	pxor	-48(%rsp), %xmm13               # 16-byte Folded Reload
	pxor	-48(%rdi,%rsi), %xmm15
	pxor	%xmm15, %xmm13
	pxor	-32(%rsp), %xmm6                # 16-byte Folded Reload
	pxor	-32(%rdi,%rsi), %xmm4
	pxor	%xmm4, %xmm6
	pxor	-80(%rsp), %xmm7                # 16-byte Folded Reload
	pxor	-16(%rdi,%rsi), %xmm10
	pxor	%xmm10, %xmm7
	jmp	Lgcm_v2_BB25_6
Lgcm_v2_BB25_5:                               # %else.12
	movdqa	%xmm1, %xmm4
	psrld	$16, %xmm4
	pxor	%xmm1, %xmm4
	pxor	%xmm2, %xmm2
	pblendw	$187, %xmm2, %xmm4              # xmm4 = xmm2[0,1],xmm4[2],xmm2[3,4,5],xmm4[6],xmm2[7]
	pxor	%xmm4, %xmm1
	pslldq	$2, %xmm4                       # xmm4 = zero,zero,xmm4[0,1,2,3,4,5,6,7,8,9,10,11,12,13]
	pxor	%xmm1, %xmm4
	movdqa	%xmm4, -128(%rsp)               # 16-byte Spill
	movdqa	-112(%rsp), %xmm1               # 16-byte Reload
	movdqa	%xmm1, %xmm4
	psrld	$16, %xmm4
	pxor	%xmm1, %xmm4
	pblendw	$187, %xmm2, %xmm4              # xmm4 = xmm2[0,1],xmm4[2],xmm2[3,4,5],xmm4[6],xmm2[7]
	pxor	%xmm4, %xmm1
	pslldq	$2, %xmm4                       # xmm4 = zero,zero,xmm4[0,1,2,3,4,5,6,7,8,9,10,11,12,13]
	pxor	%xmm1, %xmm4
	movdqa	%xmm4, -112(%rsp)               # 16-byte Spill
	movdqa	%xmm0, %xmm1
	psrld	$16, %xmm1
	pxor	%xmm0, %xmm1
	pblendw	$187, %xmm2, %xmm1              # xmm1 = xmm2[0,1],xmm1[2],xmm2[3,4,5],xmm1[6],xmm2[7]
	pxor	%xmm1, %xmm0
	pslldq	$2, %xmm1                       # xmm1 = zero,zero,xmm1[0,1,2,3,4,5,6,7,8,9,10,11,12,13]
	pxor	%xmm0, %xmm1
	movdqa	%xmm9, %xmm8
	psrld	$16, %xmm8
	pxor	%xmm9, %xmm8
	pblendw	$187, %xmm2, %xmm8              # xmm8 = xmm2[0,1],xmm8[2],xmm2[3,4,5],xmm8[6],xmm2[7]
	pxor	%xmm8, %xmm9
	pslldq	$2, %xmm8                       # xmm8 = zero,zero,xmm8[0,1,2,3,4,5,6,7,8,9,10,11,12,13]
	pxor	%xmm9, %xmm8
	movdqa	%xmm3, %xmm11
	psrld	$16, %xmm11
	pxor	%xmm3, %xmm11
	pblendw	$187, %xmm2, %xmm11             # xmm11 = xmm2[0,1],xmm11[2],xmm2[3,4,5],xmm11[6],xmm2[7]
	pxor	%xmm11, %xmm3
	pslldq	$2, %xmm11                      # xmm11 = zero,zero,xmm11[0,1,2,3,4,5,6,7,8,9,10,11,12,13]
	pxor	%xmm3, %xmm11
	movdqa	%xmm12, %xmm13
	psrld	$16, %xmm13
	pxor	%xmm12, %xmm13
	pblendw	$187, %xmm2, %xmm13             # xmm13 = xmm2[0,1],xmm13[2],xmm2[3,4,5],xmm13[6],xmm2[7]
	pxor	%xmm13, %xmm12
	pslldq	$2, %xmm13                      # xmm13 = zero,zero,xmm13[0,1,2,3,4,5,6,7,8,9,10,11,12,13]
	pxor	%xmm12, %xmm13
	movdqa	%xmm10, %xmm6
	psrld	$16, %xmm6
	pxor	%xmm10, %xmm6
	pblendw	$187, %xmm2, %xmm6              # xmm6 = xmm2[0,1],xmm6[2],xmm2[3,4,5],xmm6[6],xmm2[7]
	pxor	%xmm6, %xmm10
	pslldq	$2, %xmm6                       # xmm6 = zero,zero,xmm6[0,1,2,3,4,5,6,7,8,9,10,11,12,13]
	pxor	%xmm10, %xmm6
	movdqa	%xmm14, %xmm7
	psrld	$16, %xmm7
	pxor	%xmm14, %xmm7
	pblendw	$187, %xmm2, %xmm7              # xmm7 = xmm2[0,1],xmm7[2],xmm2[3,4,5],xmm7[6],xmm2[7]
	pxor	%xmm7, %xmm14
	pslldq	$2, %xmm7                       # xmm7 = zero,zero,xmm7[0,1,2,3,4,5,6,7,8,9,10,11,12,13]
	pxor	%xmm14, %xmm7
	shlq	$7, %rsi
Lgcm_v2_BB25_6:                               # %join.13
	movdqa	%xmm7, (%rsp)                   # 16-byte Spill
	pxor	%xmm6, %xmm13
	movdqa	%xmm11, %xmm0
	pxor	%xmm7, %xmm0
	movdqa	%xmm0, %xmm2
	movdqa	-128(%rsp), %xmm10              # 16-byte Reload
	pxor	%xmm13, %xmm10
	movdqa	%xmm10, %xmm0
	pxor	%xmm11, %xmm0
	movdqa	%xmm0, -80(%rsp)                # 16-byte Spill
	movdqa	%xmm10, %xmm15
	movdqa	-112(%rsp), %xmm12              # 16-byte Reload
	pxor	%xmm12, %xmm15
	pxor	%xmm7, %xmm12
	movdqa	%xmm12, -112(%rsp)              # 16-byte Spill
	pxor	%xmm1, %xmm11
	pxor	%xmm11, %xmm12
	pxor	%xmm12, %xmm8
	movdqa	%xmm12, -32(%rsp)               # 16-byte Spill
	movdqa	%xmm8, %xmm9
	pxor	%xmm1, %xmm9
	pxor	%xmm6, %xmm8
	pxor	%xmm7, %xmm1
	movdqa	%xmm8, %xmm14
	movdqa	%xmm2, -48(%rsp)                # 16-byte Spill
	pxor	%xmm2, %xmm14
	movdqa	%xmm14, %xmm0
	pand	%xmm2, %xmm0
	movdqa	%xmm9, %xmm2
	pxor	%xmm13, %xmm2
	movdqa	%xmm14, %xmm4
	pxor	%xmm2, %xmm4
	movdqa	%xmm4, -16(%rsp)                # 16-byte Spill
	movdqa	%xmm2, %xmm3
	movdqa	%xmm1, %xmm2
	movdqa	%xmm4, %xmm5
	pand	%xmm11, %xmm5
	movdqa	%xmm3, %xmm1
	movdqa	%xmm3, %xmm4
	movdqa	%xmm3, -64(%rsp)                # 16-byte Spill
	pand	%xmm2, %xmm1
	movdqa	%xmm2, %xmm6
	movdqa	%xmm2, -96(%rsp)                # 16-byte Spill
	pxor	%xmm0, %xmm5
	pxor	%xmm0, %xmm1
	movdqa	-80(%rsp), %xmm3                # 16-byte Reload
	movdqa	-128(%rsp), %xmm7               # 16-byte Reload
	pand	%xmm7, %xmm3
	movdqa	%xmm9, %xmm0
	pand	%xmm12, %xmm0
	pxor	%xmm2, %xmm3
	movdqa	%xmm4, %xmm2
	pxor	%xmm0, %xmm2
	pxor	%xmm3, %xmm2
	pxor	%xmm8, %xmm0
	movdqa	%xmm9, %xmm8
	pxor	%xmm7, %xmm8
	movdqa	%xmm7, %xmm12
	movdqa	%xmm7, -128(%rsp)               # 16-byte Spill
	movdqa	%xmm15, %xmm7
	movdqa	%xmm15, 16(%rsp)                # 16-byte Spill
	movdqa	%xmm15, %xmm4
	pxor	%xmm6, %xmm4
	movdqa	%xmm4, 32(%rsp)                 # 16-byte Spill
	movdqa	%xmm8, %xmm3
	pand	%xmm4, %xmm3
	pxor	%xmm3, %xmm0
	pxor	%xmm14, %xmm13
	movdqa	%xmm14, %xmm15
	movdqa	%xmm7, %xmm3
	pand	%xmm10, %xmm3
	movdqa	%xmm13, %xmm6
	movdqa	-112(%rsp), %xmm4               # 16-byte Reload
	pand	%xmm4, %xmm13
	pxor	%xmm5, %xmm0
	pxor	%xmm6, %xmm3
	pxor	%xmm13, %xmm3
	pxor	%xmm4, %xmm3
	pxor	%xmm5, %xmm3
	movdqa	%xmm10, %xmm14
	movdqa	(%rsp), %xmm4                   # 16-byte Reload
	pxor	%xmm4, %xmm14
	pxor	%xmm4, %xmm13
	movdqa	%xmm15, %xmm4
	pxor	%xmm12, %xmm4
	movdqa	%xmm4, (%rsp)                   # 16-byte Spill
	pand	%xmm14, %xmm4
	pxor	%xmm6, %xmm4
	pxor	%xmm4, %xmm13
	pxor	%xmm1, %xmm2
	pxor	%xmm1, %xmm13
	movdqa	%xmm3, %xmm7
	pand	%xmm0, %xmm7
	movdqa	%xmm7, %xmm1
	pxor	%xmm2, %xmm1
	movdqa	%xmm13, %xmm4
	pxor	%xmm3, %xmm4
	pand	%xmm1, %xmm4
	pxor	%xmm2, %xmm0
	movdqa	%xmm4, %xmm5
	pxor	%xmm7, %xmm4
	pxor	%xmm13, %xmm7
	movdqa	%xmm7, %xmm1
	pand	%xmm0, %xmm1
	pxor	%xmm2, %xmm1
	pxor	%xmm13, %xmm5
	pand	%xmm13, %xmm4
	pxor	%xmm4, %xmm7
	pand	%xmm1, %xmm7
	pxor	%xmm0, %xmm7
	pxor	%xmm3, %xmm4
	movdqa	-80(%rsp), %xmm12               # 16-byte Reload
	pand	%xmm5, %xmm12
	movdqa	%xmm4, %xmm13
	pxor	%xmm5, %xmm13
	movdqa	%xmm1, %xmm2
	pxor	%xmm5, %xmm2
	pand	-128(%rsp), %xmm5               # 16-byte Folded Reload
	movdqa	%xmm7, %xmm3
	pxor	%xmm13, %xmm3
	pand	%xmm2, %xmm15
	movdqa	%xmm15, -128(%rsp)              # 16-byte Spill
	movdqa	%xmm3, %xmm0
	pxor	%xmm2, %xmm0
	pand	-48(%rsp), %xmm2                # 16-byte Folded Reload
	movdqa	%xmm7, %xmm15
	pxor	%xmm1, %xmm15
	pand	%xmm15, %xmm6
	pand	-112(%rsp), %xmm15              # 16-byte Folded Reload
	pand	%xmm7, %xmm10
	pand	16(%rsp), %xmm7                 # 16-byte Folded Reload
	pand	%xmm13, %xmm8
	pand	32(%rsp), %xmm13                # 16-byte Folded Reload
	pand	%xmm0, %xmm11
	pand	-16(%rsp), %xmm0                # 16-byte Folded Reload
	pand	%xmm1, %xmm14
	pand	(%rsp), %xmm1                   # 16-byte Folded Reload
	pand	%xmm4, %xmm9
	pand	-32(%rsp), %xmm4                # 16-byte Folded Reload
	pxor	%xmm9, %xmm8
	pxor	%xmm5, %xmm9
	pxor	%xmm6, %xmm10
	pxor	%xmm9, %xmm1
	pxor	%xmm6, %xmm1
	pxor	%xmm2, %xmm11
	pxor	%xmm11, %xmm13
	pxor	%xmm1, %xmm7
	pxor	%xmm11, %xmm7
	pxor	%xmm10, %xmm0
	pxor	%xmm10, %xmm8
	movdqa	-64(%rsp), %xmm5                # 16-byte Reload
	pand	%xmm3, %xmm5
	pxor	%xmm5, %xmm9
	pxor	%xmm15, %xmm9
	pxor	%xmm0, %xmm9
	pxor	-128(%rsp), %xmm0               # 16-byte Folded Reload
	pand	-96(%rsp), %xmm3                # 16-byte Folded Reload
	pxor	%xmm9, %xmm14
	pxor	(%rdi,%rsi), %xmm15
	pxor	16(%rdi,%rsi), %xmm9
	pxor	%xmm7, %xmm15
	pxor	%xmm7, %xmm9
	pxor	32(%rdi,%rsi), %xmm12
	pxor	%xmm13, %xmm4
	pxor	%xmm13, %xmm12
	pxor	%xmm4, %xmm8
	pxor	%xmm14, %xmm12
	pxor	48(%rdi,%rsi), %xmm1
	pxor	%xmm8, %xmm1
	pxor	%xmm0, %xmm2
	pxor	%xmm14, %xmm2
	movdqa	64(%rdi,%rsi), %xmm5
	pxor	80(%rdi,%rsi), %xmm3
	pxor	%xmm8, %xmm5
	pxor	%xmm3, %xmm2
	movdqa	96(%rdi,%rsi), %xmm3
	pxor	%xmm0, %xmm3
	pxor	%xmm8, %xmm3
	pxor	112(%rdi,%rsi), %xmm0
	pxor	%xmm4, %xmm0
	movdqu	%xmm15, (%rdx)
	movdqu	%xmm9, 16(%rdx)
	movdqu	%xmm12, 32(%rdx)
	movdqu	%xmm1, 48(%rdx)
	movdqu	%xmm5, 64(%rdx)
	movdqu	%xmm2, 80(%rdx)
	movdqu	%xmm3, 96(%rdx)
	movdqu	%xmm0, 112(%rdx)
	addq	$72, %rsp
	retq
                                        # -- End function
	.section	__TEXT,__text,regular,pure_instructions
	.p2align	4                               # -- Begin function aes_soft::soft::blocks::filled_up::process_filled_up::<#2a076538018b6fb3>
_gcm_v2.aes_soft.soft.blocks.filled_up.process_filled_up: # @_gcm_v2.aes_soft.soft.blocks.filled_up.process_filled_up
# %bb.0:                                # %start
	pushq	%r14
	pushq	%rbx
	subq	$392, %rsp                      # imm = 0x188
	movq	%rdx, %rbx
	movq	%rsi, %rdx
	movq	%rdi, %rsi
	xorps	%xmm0, %xmm0
	movaps	%xmm0, 112(%rsp)
	movaps	%xmm0, 96(%rsp)
	movaps	%xmm0, 80(%rsp)
	movaps	%xmm0, 64(%rsp)
	movaps	%xmm0, 48(%rsp)
	movaps	%xmm0, 32(%rsp)
	movaps	%xmm0, 16(%rsp)
	movaps	%xmm0, (%rsp)
	movaps	%xmm0, 128(%rsp)
	movaps	%xmm0, 144(%rsp)
	movaps	%xmm0, 160(%rsp)
	movaps	%xmm0, 176(%rsp)
	movaps	%xmm0, 192(%rsp)
	movaps	%xmm0, 208(%rsp)
	movaps	%xmm0, 224(%rsp)
	movaps	%xmm0, 240(%rsp)
	movups	(%rbx), %xmm0
	movaps	%xmm0, 256(%rsp)
	movups	(%rbx), %xmm0
	movaps	%xmm0, 272(%rsp)
	movups	(%rbx), %xmm0
	movaps	%xmm0, 288(%rsp)
	movups	(%rbx), %xmm0
	movaps	%xmm0, 304(%rsp)
	movups	(%rbx), %xmm0
	movaps	%xmm0, 320(%rsp)
	movups	(%rbx), %xmm0
	movaps	%xmm0, 336(%rsp)
	movups	(%rbx), %xmm0
	movaps	%xmm0, 352(%rsp)
	movups	(%rbx), %xmm0
	movaps	%xmm0, 368(%rsp)
	shrq	$3, %rdx
	decq	%rdx
	testq	%rcx, %rcx
	je	Lgcm_v2_BB26_16
# %bb.1:                                # %join.8.i
	movq	%rcx, %r14
	movups	(%rbx), %xmm0
	movaps	%xmm0, 256(%rsp)
	cmpq	$1, %rcx
	je	Lgcm_v2_BB26_8
# %bb.2:                                # %join.8.i.1
	movups	16(%rbx), %xmm0
	movaps	%xmm0, 272(%rsp)
	cmpq	$2, %r14
	je	Lgcm_v2_BB26_8
# %bb.3:                                # %join.8.i.2
	movups	32(%rbx), %xmm0
	movaps	%xmm0, 288(%rsp)
	cmpq	$3, %r14
	je	Lgcm_v2_BB26_8
# %bb.4:                                # %join.8.i.3
	movups	48(%rbx), %xmm0
	movaps	%xmm0, 304(%rsp)
	cmpq	$4, %r14
	je	Lgcm_v2_BB26_8
# %bb.5:                                # %join.8.i.4
	movups	64(%rbx), %xmm0
	movaps	%xmm0, 320(%rsp)
	cmpq	$5, %r14
	je	Lgcm_v2_BB26_8
# %bb.6:                                # %join.8.i.5
	movups	80(%rbx), %xmm0
	movaps	%xmm0, 336(%rsp)
	cmpq	$6, %r14
	je	Lgcm_v2_BB26_8
# %bb.7:                                # %join.8.i.6
	movups	96(%rbx), %xmm0
	movaps	%xmm0, 352(%rsp)
Lgcm_v2_BB26_8:                               # %"aes_soft::soft::blocks::filled_up::filled_up::<#65d77337c4222250>.exit"
	leaq	128(%rsp), %rdi
	leaq	256(%rsp), %rcx
	callq	_gcm_v2.aes_soft.soft.ciphers.planes.process_outlined
	movaps	240(%rsp), %xmm0
	movaps	%xmm0, 112(%rsp)
	movaps	224(%rsp), %xmm0
	movaps	%xmm0, 96(%rsp)
	movaps	208(%rsp), %xmm0
	movaps	%xmm0, 80(%rsp)
	movaps	192(%rsp), %xmm0
	movaps	%xmm0, 64(%rsp)
	movaps	128(%rsp), %xmm0
	movaps	144(%rsp), %xmm1
	movaps	160(%rsp), %xmm2
	movaps	176(%rsp), %xmm3
	movaps	%xmm3, 48(%rsp)
	movaps	%xmm2, 32(%rsp)
	movaps	%xmm1, 16(%rsp)
	movaps	%xmm0, (%rsp)
	movl	%r14d, %eax
	andl	$3, %eax
	cmpq	$4, %r14
	jae	Lgcm_v2_BB26_10
# %bb.9:
	xorl	%ecx, %ecx
	jmp	Lgcm_v2_BB26_13
Lgcm_v2_BB26_16:                              # %"aes_soft::soft::blocks::filled_up::copy_first::<#65d77337c4222250>.exit.critedge"
	leaq	128(%rsp), %rdi
	leaq	256(%rsp), %rcx
	callq	_gcm_v2.aes_soft.soft.ciphers.planes.process_outlined
	movaps	240(%rsp), %xmm0
	movaps	%xmm0, 112(%rsp)
	movaps	224(%rsp), %xmm0
	movaps	%xmm0, 96(%rsp)
	movaps	208(%rsp), %xmm0
	movaps	%xmm0, 80(%rsp)
	movaps	192(%rsp), %xmm0
	movaps	%xmm0, 64(%rsp)
	movaps	128(%rsp), %xmm0
	movaps	144(%rsp), %xmm1
	movaps	160(%rsp), %xmm2
	movaps	176(%rsp), %xmm3
	movaps	%xmm3, 48(%rsp)
	movaps	%xmm2, 32(%rsp)
	movaps	%xmm1, 16(%rsp)
	movaps	%xmm0, (%rsp)
	addq	$392, %rsp                      # imm = 0x188
	popq	%rbx
	popq	%r14
	retq
Lgcm_v2_BB26_10:                              # %"aes_soft::soft::blocks::filled_up::filled_up::<#65d77337c4222250>.exit.new"
	andl	$4, %r14d
	movl	$48, %edx
	xorl	%ecx, %ecx
	.p2align	4
Lgcm_v2_BB26_11:                              # %join.8.i19
                                        # =>This Inner Loop Header: Depth=1
	movups	-48(%rsp,%rdx), %xmm0
	movups	%xmm0, -48(%rbx,%rdx)
	movups	-32(%rsp,%rdx), %xmm0
	movups	%xmm0, -32(%rbx,%rdx)
	movups	-16(%rsp,%rdx), %xmm0
	movups	%xmm0, -16(%rbx,%rdx)
	movups	(%rsp,%rdx), %xmm0
	movups	%xmm0, (%rbx,%rdx)
	addq	$4, %rcx
	addq	$64, %rdx
	cmpq	%rcx, %r14
	jne	Lgcm_v2_BB26_11
# %bb.12:                               # %"aes_soft::soft::blocks::filled_up::copy_first::<#65d77337c4222250>.exit.loopexit.unr-lcssa"
	testq	%rax, %rax
	je	Lgcm_v2_BB26_15
Lgcm_v2_BB26_13:                              # %join.8.i19.epil.preheader
	shlq	$4, %rcx
	addq	%rcx, %rbx
	addq	%rsp, %rcx
	shll	$4, %eax
	xorl	%edx, %edx
	.p2align	4
Lgcm_v2_BB26_14:                              # %join.8.i19.epil
                                        # =>This Inner Loop Header: Depth=1
	movups	(%rcx,%rdx), %xmm0
	movups	%xmm0, (%rbx,%rdx)
	addq	$16, %rdx
	cmpq	%rdx, %rax
	jne	Lgcm_v2_BB26_14
Lgcm_v2_BB26_15:                              # %"aes_soft::soft::blocks::filled_up::copy_first::<#65d77337c4222250>.exit"
	addq	$392, %rsp                      # imm = 0x188
	popq	%rbx
	popq	%r14
	retq
                                        # -- End function
	.section	__TEXT,__text,regular,pure_instructions
	.p2align	4                               # -- Begin function aes_cipher::zeroize::zeroize_words::<#fab3fa1ddd682008>
_gcm_v2.aes_cipher.zeroize.zeroize_words: # @_gcm_v2.aes_cipher.zeroize.zeroize_words
# %bb.0:                                # %start
	pushq	%rbp
	pushq	%r14
	pushq	%rbx
	subq	$16, %rsp
	movq	$0, 8(%rsp)
	#APP
	#NO_APP
	movq	8(%rsp), %r14
	#APP
	#NO_APP
	cmpq	$120, %r14
	jae	Lgcm_v2_BB27_1
# %bb.2:                                # %then.1.i
	shlq	$4, %r14
	movzbl	(%rdi,%r14), %ebp
	movl	$1920, %edx                     # imm = 0x780
	movq	%rdi, %rbx
	xorl	%esi, %esi
	callq	*_memset@GOTPCREL(%rip)
	movzbl	(%rbx,%r14), %ebx
	andl	%ebp, %ebx
	jmp	Lgcm_v2_BB27_3
Lgcm_v2_BB27_1:                               # %"aes_cipher::zeroize::observe::<#75b1955848bb803f>.exit11"
	xorl	%ebx, %ebx
	movl	$1920, %edx                     # imm = 0x780
	xorl	%esi, %esi
	callq	*_memset@GOTPCREL(%rip)
Lgcm_v2_BB27_3:                               # %"aes_cipher::zeroize::observe::<#75b1955848bb803f>.exit"
	#APP
	#NO_APP
	xchgq	%rbx, 8(%rsp)
	#APP
	#NO_APP
	addq	$16, %rsp
	popq	%rbx
	popq	%r14
	popq	%rbp
	retq
                                        # -- End function
	.section	__TEXT,__text,regular,pure_instructions
	.p2align	4                               # -- Begin function aes_cipher::zeroize::stack::wipe_stack::<=1792>
_gcm_v2.aes_cipher.zeroize.stack.wipe_stack.1792: # @_gcm_v2.aes_cipher.zeroize.stack.wipe_stack.1792
# %bb.0:                                # %start
	subq	$1800, %rsp                     # imm = 0x708
	leaq	8(%rsp), %rdi
	movl	$1792, %edx                     # imm = 0x700
	xorl	%esi, %esi
	callq	*_memset@GOTPCREL(%rip)
	movq	$0, (%rsp)
	#APP
	#NO_APP
	movq	(%rsp), %rax
	#APP
	#NO_APP
	cmpq	$1792, %rax                     # imm = 0x700
	jae	Lgcm_v2_BB28_2
# %bb.1:                                # %then.1
	movzbl	8(%rsp,%rax), %eax
	#APP
	#NO_APP
	xchgq	%rax, (%rsp)
	#APP
	#NO_APP
Lgcm_v2_BB28_2:                               # %common.ret
	addq	$1800, %rsp                     # imm = 0x708
	retq
                                        # -- End function
	.section	__TEXT,__const
	.p2align	4, 0x0                          # -- Begin function aes_permute::blocks::process_on_lanes::<#06aaae76f5856d0a>
l_gcm_v2_CPI29_0:
	.zero	16,15
l_gcm_v2_CPI29_1:
	.byte	0                               # 0x0
	.byte	1                               # 0x1
	.byte	28                              # 0x1c
	.byte	29                              # 0x1d
	.byte	45                              # 0x2d
	.byte	44                              # 0x2c
	.byte	49                              # 0x31
	.byte	48                              # 0x30
	.byte	39                              # 0x27
	.byte	38                              # 0x26
	.byte	59                              # 0x3b
	.byte	58                              # 0x3a
	.byte	10                              # 0xa
	.byte	11                              # 0xb
	.byte	22                              # 0x16
	.byte	23                              # 0x17
l_gcm_v2_CPI29_2:
	.byte	0                               # 0x0
	.byte	134                             # 0x86
	.byte	253                             # 0xfd
	.byte	123                             # 0x7b
	.byte	142                             # 0x8e
	.byte	8                               # 0x8
	.byte	115                             # 0x73
	.byte	245                             # 0xf5
	.byte	119                             # 0x77
	.byte	241                             # 0xf1
	.byte	138                             # 0x8a
	.byte	12                              # 0xc
	.byte	249                             # 0xf9
	.byte	127                             # 0x7f
	.byte	4                               # 0x4
	.byte	130                             # 0x82
l_gcm_v2_CPI29_3:
	.byte	128                             # 0x80
	.byte	2                               # 0x2
	.byte	1                               # 0x1
	.byte	15                              # 0xf
	.byte	9                               # 0x9
	.byte	5                               # 0x5
	.byte	14                              # 0xe
	.byte	12                              # 0xc
	.byte	13                              # 0xd
	.byte	4                               # 0x4
	.byte	11                              # 0xb
	.byte	10                              # 0xa
	.byte	7                               # 0x7
	.byte	8                               # 0x8
	.byte	6                               # 0x6
	.byte	3                               # 0x3
l_gcm_v2_CPI29_4:
	.byte	128                             # 0x80
	.byte	1                               # 0x1
	.byte	9                               # 0x9
	.byte	14                              # 0xe
	.byte	13                              # 0xd
	.byte	11                              # 0xb
	.byte	7                               # 0x7
	.byte	6                               # 0x6
	.byte	15                              # 0xf
	.byte	2                               # 0x2
	.byte	12                              # 0xc
	.byte	5                               # 0x5
	.byte	10                              # 0xa
	.byte	4                               # 0x4
	.byte	3                               # 0x3
	.byte	8                               # 0x8
l_gcm_v2_CPI29_5:
	.byte	0                               # 0x0
	.byte	195                             # 0xc3
	.byte	79                              # 0x4f
	.byte	12                              # 0xc
	.byte	252                             # 0xfc
	.byte	124                             # 0x7c
	.byte	67                              # 0x43
	.byte	128                             # 0x80
	.byte	207                             # 0xcf
	.byte	51                              # 0x33
	.byte	63                              # 0x3f
	.byte	112                             # 0x70
	.byte	191                             # 0xbf
	.byte	179                             # 0xb3
	.byte	240                             # 0xf0
	.byte	140                             # 0x8c
l_gcm_v2_CPI29_6:
	.byte	0                               # 0x0
	.byte	230                             # 0xe6
	.byte	114                             # 0x72
	.byte	183                             # 0xb7
	.byte	229                             # 0xe5
	.byte	198                             # 0xc6
	.byte	197                             # 0xc5
	.byte	35                              # 0x23
	.byte	81                              # 0x51
	.byte	180                             # 0xb4
	.byte	3                               # 0x3
	.byte	113                             # 0x71
	.byte	32                              # 0x20
	.byte	151                             # 0x97
	.byte	82                              # 0x52
	.byte	148                             # 0x94
l_gcm_v2_CPI29_7:
	.byte	0                               # 0x0
	.byte	124                             # 0x7c
	.byte	32                              # 0x20
	.byte	207                             # 0xcf
	.byte	146                             # 0x92
	.byte	1                               # 0x1
	.byte	239                             # 0xef
	.byte	147                             # 0x93
	.byte	179                             # 0xb3
	.byte	33                              # 0x21
	.byte	238                             # 0xee
	.byte	206                             # 0xce
	.byte	125                             # 0x7d
	.byte	178                             # 0xb2
	.byte	93                              # 0x5d
	.byte	92                              # 0x5c
l_gcm_v2_CPI29_8:
	.byte	0                               # 0x0
	.byte	209                             # 0xd1
	.byte	229                             # 0xe5
	.byte	247                             # 0xf7
	.byte	230                             # 0xe6
	.byte	37                              # 0x25
	.byte	18                              # 0x12
	.byte	195                             # 0xc3
	.byte	38                              # 0x26
	.byte	192                             # 0xc0
	.byte	55                              # 0x37
	.byte	210                             # 0xd2
	.byte	244                             # 0xf4
	.byte	3                               # 0x3
	.byte	17                              # 0x11
	.byte	52                              # 0x34
l_gcm_v2_CPI29_9:
	.byte	0                               # 0x0
	.byte	203                             # 0xcb
	.byte	215                             # 0xd7
	.byte	176                             # 0xb0
	.byte	33                              # 0x21
	.byte	141                             # 0x8d
	.byte	103                             # 0x67
	.byte	172                             # 0xac
	.byte	123                             # 0x7b
	.byte	90                              # 0x5a
	.byte	234                             # 0xea
	.byte	61                              # 0x3d
	.byte	70                              # 0x46
	.byte	246                             # 0xf6
	.byte	145                             # 0x91
	.byte	28                              # 0x1c
l_gcm_v2_CPI29_10:
	.byte	0                               # 0x0
	.byte	159                             # 0x9f
	.byte	97                              # 0x61
	.byte	22                              # 0x16
	.byte	194                             # 0xc2
	.byte	42                              # 0x2a
	.byte	119                             # 0x77
	.byte	232                             # 0xe8
	.byte	137                             # 0x89
	.byte	75                              # 0x4b
	.byte	93                              # 0x5d
	.byte	60                              # 0x3c
	.byte	181                             # 0xb5
	.byte	163                             # 0xa3
	.byte	212                             # 0xd4
	.byte	254                             # 0xfe
	.section	__TEXT,__text,regular,pure_instructions
	.p2align	4
_gcm_v2.aes_permute.blocks.process_on_lanes: # @_gcm_v2.aes_permute.blocks.process_on_lanes
# %bb.0:                                # %start
	pushq	%r15
	pushq	%r14
	pushq	%r12
	pushq	%rbx
	cmpq	$2, %rcx
	jb	Lgcm_v2_BB29_1
# %bb.9:                                # %join.5.lr.ph
	leaq	-1(%rsi), %r8
	movq	%r8, %r9
	shlq	$4, %r9
	movl	%r9d, %eax
	andl	$48, %eax
	leaq	l_gcm_v2_static.3(%rip), %r10
	movdqu	(%rax,%r10), %xmm0
	leaq	-2(%rsi), %r10
	xorl	%eax, %eax
	jmp	Lgcm_v2_BB29_10
	.p2align	4
Lgcm_v2_BB29_13:                              # %"aes_permute::blocks::process_two_vectors::<#06aaae76f5856d0a>.exit"
                                        #   in Loop: Header=BB29_10 Depth=1
	movdqu	(%rdi,%r9), %xmm4
	movdqa	%xmm3, %xmm6
	psrlw	$4, %xmm6
	pand	%xmm1, %xmm6
	pand	%xmm1, %xmm3
	movdqa	%xmm6, %xmm7
	pxor	%xmm3, %xmm7
	movdqa	l_gcm_v2_CPI29_3(%rip), %xmm5          # xmm5 = [128,2,1,15,9,5,14,12,13,4,11,10,7,8,6,3]
	movdqa	%xmm5, %xmm8
	pshufb	%xmm3, %xmm8
	movdqa	l_gcm_v2_CPI29_4(%rip), %xmm3          # xmm3 = [128,1,9,14,13,11,7,6,15,2,12,5,10,4,3,8]
	movdqa	%xmm3, %xmm9
	pshufb	%xmm6, %xmm9
	movdqa	%xmm3, %xmm10
	pshufb	%xmm7, %xmm10
	pxor	%xmm8, %xmm9
	pxor	%xmm8, %xmm10
	movdqa	%xmm3, %xmm11
	pshufb	%xmm9, %xmm11
	movdqa	%xmm3, %xmm9
	pshufb	%xmm10, %xmm9
	pxor	%xmm7, %xmm11
	pxor	%xmm6, %xmm9
	movdqa	l_gcm_v2_CPI29_9(%rip), %xmm8          # xmm8 = [0,203,215,176,33,141,103,172,123,90,234,61,70,246,145,28]
	movdqa	%xmm8, %xmm10
	pshufb	%xmm11, %xmm10
	movdqa	l_gcm_v2_CPI29_10(%rip), %xmm6         # xmm6 = [0,159,97,22,194,42,119,232,137,75,93,60,181,163,212,254]
	movdqa	%xmm6, %xmm7
	pshufb	%xmm9, %xmm7
	pxor	%xmm10, %xmm7
	pshufb	%xmm0, %xmm7
	pxor	%xmm4, %xmm7
	movdqa	%xmm2, %xmm9
	psrlw	$4, %xmm9
	pand	%xmm1, %xmm9
	pand	%xmm1, %xmm2
	movdqa	%xmm9, %xmm1
	pxor	%xmm2, %xmm1
	pshufb	%xmm2, %xmm5
	movdqa	%xmm3, %xmm2
	pshufb	%xmm9, %xmm2
	movdqa	%xmm3, %xmm10
	pshufb	%xmm1, %xmm10
	pxor	%xmm5, %xmm2
	pxor	%xmm5, %xmm10
	movdqa	%xmm3, %xmm5
	pshufb	%xmm2, %xmm5
	pshufb	%xmm10, %xmm3
	pxor	%xmm1, %xmm5
	pxor	%xmm9, %xmm3
	pshufb	%xmm5, %xmm8
	pshufb	%xmm3, %xmm6
	pxor	%xmm8, %xmm6
	pshufb	%xmm0, %xmm6
	pxor	%xmm4, %xmm6
	movdqu	%xmm7, (%rdx,%r11)
	movdqu	%xmm6, 16(%rdx,%r11)
	addq	$2, %rax
	movq	%rcx, %r11
	subq	%rax, %r11
	cmpq	$1, %r11
	jbe	Lgcm_v2_BB29_2
Lgcm_v2_BB29_10:                              # %join.5
                                        # =>This Loop Header: Depth=1
                                        #     Child Loop BB29_12 Depth 2
	movq	%rax, %r11
	shlq	$4, %r11
	movdqu	(%rdx,%r11), %xmm4
	movdqu	16(%rdx,%r11), %xmm5
	movdqu	(%rdi), %xmm6
	pxor	%xmm6, %xmm4
	movdqa	l_gcm_v2_CPI29_0(%rip), %xmm1          # xmm1 = [15,15,15,15,15,15,15,15,15,15,15,15,15,15,15,15]
	movdqa	%xmm4, %xmm2
	pand	%xmm1, %xmm2
	movdqa	l_gcm_v2_CPI29_1(%rip), %xmm7          # xmm7 = [0,1,28,29,45,44,49,48,39,38,59,58,10,11,22,23]
	movdqa	%xmm7, %xmm8
	pshufb	%xmm2, %xmm8
	psrlw	$4, %xmm4
	pand	%xmm1, %xmm4
	movdqa	l_gcm_v2_CPI29_2(%rip), %xmm2          # xmm2 = [0,134,253,123,142,8,115,245,119,241,138,12,249,127,4,130]
	movdqa	%xmm2, %xmm3
	pshufb	%xmm4, %xmm3
	pxor	%xmm8, %xmm3
	pxor	%xmm6, %xmm5
	movdqa	%xmm5, %xmm4
	pand	%xmm1, %xmm4
	pshufb	%xmm4, %xmm7
	psrlw	$4, %xmm5
	pand	%xmm1, %xmm5
	pshufb	%xmm5, %xmm2
	pxor	%xmm7, %xmm2
	cmpq	$2, %r8
	jb	Lgcm_v2_BB29_13
# %bb.11:                               # %join.5.i2572.preheader
                                        #   in Loop: Header=BB29_10 Depth=1
	movl	$16, %ebx
	movq	%r10, %r14
	.p2align	4
Lgcm_v2_BB29_12:                              # %join.5.i2572
                                        #   Parent Loop BB29_10 Depth=1
                                        # =>  This Inner Loop Header: Depth=2
	movdqa	%xmm3, %xmm5
	psrlw	$4, %xmm5
	pand	%xmm1, %xmm5
	pand	%xmm1, %xmm3
	movdqa	%xmm5, %xmm7
	pxor	%xmm3, %xmm7
	movdqa	l_gcm_v2_CPI29_3(%rip), %xmm6          # xmm6 = [128,2,1,15,9,5,14,12,13,4,11,10,7,8,6,3]
	movdqa	%xmm6, %xmm8
	pshufb	%xmm3, %xmm8
	movdqa	l_gcm_v2_CPI29_4(%rip), %xmm4          # xmm4 = [128,1,9,14,13,11,7,6,15,2,12,5,10,4,3,8]
	movdqa	%xmm4, %xmm3
	pshufb	%xmm5, %xmm3
	movdqa	%xmm4, %xmm9
	pshufb	%xmm7, %xmm9
	pxor	%xmm8, %xmm3
	pxor	%xmm8, %xmm9
	movdqa	%xmm4, %xmm8
	pshufb	%xmm3, %xmm8
	movdqa	%xmm4, %xmm11
	pshufb	%xmm9, %xmm11
	pxor	%xmm7, %xmm8
	pxor	%xmm5, %xmm11
	movdqa	l_gcm_v2_CPI29_5(%rip), %xmm7          # xmm7 = [0,195,79,12,252,124,67,128,207,51,63,112,191,179,240,140]
	movdqa	%xmm7, %xmm9
	pshufb	%xmm8, %xmm9
	movdqa	l_gcm_v2_CPI29_6(%rip), %xmm5          # xmm5 = [0,230,114,183,229,198,197,35,81,180,3,113,32,151,82,148]
	movdqa	%xmm5, %xmm3
	pshufb	%xmm11, %xmm3
	pxor	%xmm9, %xmm3
	movdqa	l_gcm_v2_CPI29_7(%rip), %xmm9          # xmm9 = [0,124,32,207,146,1,239,147,179,33,238,206,125,178,93,92]
	movdqa	%xmm9, %xmm12
	pshufb	%xmm8, %xmm12
	movdqa	l_gcm_v2_CPI29_8(%rip), %xmm10         # xmm10 = [0,209,229,247,230,37,18,195,38,192,55,210,244,3,17,52]
	movdqa	%xmm10, %xmm13
	pshufb	%xmm11, %xmm13
	pxor	%xmm12, %xmm13
	movl	%ebx, %r15d
	andl	$48, %r15d
	leaq	l_gcm_v2_static.5(%rip), %r12
	movdqu	(%r15,%r12), %xmm8
	movdqa	%xmm3, %xmm12
	pshufb	%xmm8, %xmm12
	pxor	%xmm13, %xmm12
	leaq	l_gcm_v2_static.6(%rip), %r12
	movdqu	(%r15,%r12), %xmm11
	pshufb	%xmm11, %xmm3
	pxor	%xmm12, %xmm3
	pshufb	%xmm8, %xmm12
	movdqa	%xmm2, %xmm13
	psrlw	$4, %xmm13
	pand	%xmm1, %xmm13
	pand	%xmm1, %xmm2
	movdqa	%xmm13, %xmm14
	pxor	%xmm2, %xmm14
	pshufb	%xmm2, %xmm6
	movdqa	%xmm4, %xmm2
	pshufb	%xmm13, %xmm2
	movdqa	%xmm4, %xmm15
	pshufb	%xmm14, %xmm15
	pxor	%xmm6, %xmm2
	pxor	%xmm6, %xmm15
	movdqa	%xmm4, %xmm6
	pshufb	%xmm2, %xmm6
	pshufb	%xmm15, %xmm4
	pxor	%xmm14, %xmm6
	pxor	%xmm13, %xmm4
	pshufb	%xmm6, %xmm7
	pshufb	%xmm4, %xmm5
	pxor	%xmm7, %xmm5
	pshufb	%xmm6, %xmm9
	pshufb	%xmm4, %xmm10
	pxor	%xmm9, %xmm10
	movdqa	%xmm5, %xmm2
	pshufb	%xmm8, %xmm2
	pxor	%xmm10, %xmm2
	pshufb	%xmm11, %xmm5
	movdqu	(%rdi,%rbx), %xmm4
	pxor	%xmm12, %xmm3
	pxor	%xmm4, %xmm3
	pxor	%xmm2, %xmm5
	pshufb	%xmm8, %xmm2
	pxor	%xmm5, %xmm2
	pxor	%xmm4, %xmm2
	addq	$16, %rbx
	decq	%r14
	jne	Lgcm_v2_BB29_12
	jmp	Lgcm_v2_BB29_13
Lgcm_v2_BB29_1:
	xorl	%eax, %eax
Lgcm_v2_BB29_2:                               # %loop.7.preheader
	cmpq	%rax, %rcx
	jne	Lgcm_v2_BB29_3
Lgcm_v2_BB29_8:                               # %after.11
	popq	%rbx
	popq	%r12
	popq	%r14
	popq	%r15
	retq
Lgcm_v2_BB29_3:                               # %join.10.lr.ph
	leaq	-1(%rsi), %r8
	movq	%r8, %r9
	shlq	$4, %r9
	movl	%r9d, %r10d
	andl	$48, %r10d
	leaq	l_gcm_v2_static.3(%rip), %r11
	movdqu	(%r10,%r11), %xmm0
	addq	$-2, %rsi
	jmp	Lgcm_v2_BB29_4
	.p2align	4
Lgcm_v2_BB29_7:                               # %"aes_permute::blocks::process_vector::<#06aaae76f5856d0a>.exit54"
                                        #   in Loop: Header=BB29_4 Depth=1
	movdqu	(%rdi,%r9), %xmm3
	movdqa	%xmm2, %xmm4
	psrlw	$4, %xmm4
	pand	%xmm1, %xmm4
	pand	%xmm1, %xmm2
	movdqa	%xmm4, %xmm1
	pxor	%xmm2, %xmm1
	movdqa	l_gcm_v2_CPI29_3(%rip), %xmm5          # xmm5 = [128,2,1,15,9,5,14,12,13,4,11,10,7,8,6,3]
	pshufb	%xmm2, %xmm5
	movdqa	l_gcm_v2_CPI29_4(%rip), %xmm2          # xmm2 = [128,1,9,14,13,11,7,6,15,2,12,5,10,4,3,8]
	movdqa	%xmm2, %xmm6
	pshufb	%xmm4, %xmm6
	movdqa	%xmm2, %xmm7
	pshufb	%xmm1, %xmm7
	pxor	%xmm5, %xmm6
	pxor	%xmm5, %xmm7
	movdqa	%xmm2, %xmm5
	pshufb	%xmm6, %xmm5
	pshufb	%xmm7, %xmm2
	pxor	%xmm1, %xmm5
	pxor	%xmm4, %xmm2
	movdqa	l_gcm_v2_CPI29_9(%rip), %xmm1          # xmm1 = [0,203,215,176,33,141,103,172,123,90,234,61,70,246,145,28]
	pshufb	%xmm5, %xmm1
	movdqa	l_gcm_v2_CPI29_10(%rip), %xmm4         # xmm4 = [0,159,97,22,194,42,119,232,137,75,93,60,181,163,212,254]
	pshufb	%xmm2, %xmm4
	pxor	%xmm1, %xmm4
	pshufb	%xmm0, %xmm4
	pxor	%xmm3, %xmm4
	movdqu	%xmm4, (%rdx,%r10)
	incq	%rax
	cmpq	%rax, %rcx
	je	Lgcm_v2_BB29_8
Lgcm_v2_BB29_4:                               # %join.10
                                        # =>This Loop Header: Depth=1
                                        #     Child Loop BB29_6 Depth 2
	movq	%rax, %r10
	shlq	$4, %r10
	movdqu	(%rdx,%r10), %xmm1
	movdqu	(%rdi), %xmm3
	pxor	%xmm1, %xmm3
	movdqa	l_gcm_v2_CPI29_0(%rip), %xmm1          # xmm1 = [15,15,15,15,15,15,15,15,15,15,15,15,15,15,15,15]
	movdqa	%xmm3, %xmm2
	pand	%xmm1, %xmm2
	movdqa	l_gcm_v2_CPI29_1(%rip), %xmm4          # xmm4 = [0,1,28,29,45,44,49,48,39,38,59,58,10,11,22,23]
	pshufb	%xmm2, %xmm4
	psrlw	$4, %xmm3
	pand	%xmm1, %xmm3
	movdqa	l_gcm_v2_CPI29_2(%rip), %xmm2          # xmm2 = [0,134,253,123,142,8,115,245,119,241,138,12,249,127,4,130]
	pshufb	%xmm3, %xmm2
	pxor	%xmm4, %xmm2
	cmpq	$2, %r8
	jb	Lgcm_v2_BB29_7
# %bb.5:                                # %join.5.i50.preheader
                                        #   in Loop: Header=BB29_4 Depth=1
	movl	$16, %r11d
	movq	%rsi, %rbx
	.p2align	4
Lgcm_v2_BB29_6:                               # %join.5.i50
                                        #   Parent Loop BB29_4 Depth=1
                                        # =>  This Inner Loop Header: Depth=2
	movdqu	(%rdi,%r11), %xmm3
	movdqa	%xmm2, %xmm4
	psrlw	$4, %xmm4
	pand	%xmm1, %xmm4
	pand	%xmm1, %xmm2
	movdqa	%xmm4, %xmm5
	pxor	%xmm2, %xmm5
	movdqa	l_gcm_v2_CPI29_3(%rip), %xmm6          # xmm6 = [128,2,1,15,9,5,14,12,13,4,11,10,7,8,6,3]
	pshufb	%xmm2, %xmm6
	movdqa	l_gcm_v2_CPI29_4(%rip), %xmm2          # xmm2 = [128,1,9,14,13,11,7,6,15,2,12,5,10,4,3,8]
	movdqa	%xmm2, %xmm7
	pshufb	%xmm4, %xmm7
	movdqa	%xmm2, %xmm8
	pshufb	%xmm5, %xmm8
	pxor	%xmm6, %xmm7
	pxor	%xmm6, %xmm8
	movdqa	%xmm2, %xmm6
	pshufb	%xmm7, %xmm6
	pshufb	%xmm8, %xmm2
	pxor	%xmm5, %xmm6
	pxor	%xmm4, %xmm2
	movdqa	l_gcm_v2_CPI29_5(%rip), %xmm5          # xmm5 = [0,195,79,12,252,124,67,128,207,51,63,112,191,179,240,140]
	pshufb	%xmm6, %xmm5
	movdqa	l_gcm_v2_CPI29_6(%rip), %xmm4          # xmm4 = [0,230,114,183,229,198,197,35,81,180,3,113,32,151,82,148]
	pshufb	%xmm2, %xmm4
	pxor	%xmm5, %xmm4
	movdqa	l_gcm_v2_CPI29_7(%rip), %xmm5          # xmm5 = [0,124,32,207,146,1,239,147,179,33,238,206,125,178,93,92]
	pshufb	%xmm6, %xmm5
	movdqa	l_gcm_v2_CPI29_8(%rip), %xmm6          # xmm6 = [0,209,229,247,230,37,18,195,38,192,55,210,244,3,17,52]
	pshufb	%xmm2, %xmm6
	pxor	%xmm5, %xmm6
	movl	%r11d, %r14d
	andl	$48, %r14d
	leaq	l_gcm_v2_static.5(%rip), %r15
	movdqu	(%r14,%r15), %xmm5
	movdqa	%xmm4, %xmm2
	pshufb	%xmm5, %xmm2
	pxor	%xmm6, %xmm2
	leaq	l_gcm_v2_static.6(%rip), %r15
	movdqu	(%r14,%r15), %xmm6
	pshufb	%xmm6, %xmm4
	pxor	%xmm3, %xmm4
	pxor	%xmm2, %xmm4
	pshufb	%xmm5, %xmm2
	pxor	%xmm4, %xmm2
	addq	$16, %r11
	decq	%rbx
	jne	Lgcm_v2_BB29_6
	jmp	Lgcm_v2_BB29_7
                                        # -- End function
	.section	__TEXT,__text,regular,pure_instructions
	.p2align	4                               # -- Begin function aes_hybrid::closures::lend_planes::<#8383eef3f4ca9323>
_gcm_v2.aes_hybrid.closures.lend_planes.1: # @_gcm_v2.aes_hybrid.closures.lend_planes.1
# %bb.0:                                # %start
	pushq	%rbp
	pushq	%r15
	pushq	%r14
	pushq	%r13
	pushq	%r12
	pushq	%rbx
	subq	$1976, %rsp                     # imm = 0x7B8
	movq	%r8, 8(%rsp)                    # 8-byte Spill
	movq	%rcx, %r14
	movq	%rdx, %r15
	movq	%rsi, %r12
	movq	%rdi, %r13
	leaq	176(%rsp), %rdi
	movl	$1792, %edx                     # imm = 0x700
	xorl	%esi, %esi
	callq	*_memset@GOTPCREL(%rip)
	leaq	(,%r12,8), %rbp
	leaq	48(%rsp), %rbx
	movq	%rbx, %rdi
	movq	%r13, %rsi
	movq	%r12, %rdx
	callq	_gcm_v2.aes_hybrid.plane_keys.store_planes
	movq	%r13, 16(%rsp)
	movq	%r12, 24(%rsp)
	movq	%r15, 32(%rsp)
	movq	%r14, 40(%rsp)
	leaq	16(%rsp), %rdi
	movq	%rbx, %rsi
	movq	%rbp, %rdx
	movq	8(%rsp), %rcx                   # 8-byte Reload
	callq	_gcm_v2.aes_hybrid.closures.call_to_work.1
	movq	%rbx, %rdi
	callq	_gcm_v2.aes_cipher.zeroize.zeroize_words
	callq	_gcm_v2.aes_cipher.zeroize.stack.wipe_stack.2032
	addq	$1976, %rsp                     # imm = 0x7B8
	popq	%rbx
	popq	%r12
	popq	%r13
	popq	%r14
	popq	%r15
	popq	%rbp
	retq
                                        # -- End function
	.section	__TEXT,__const
	.p2align	4, 0x0                          # -- Begin function aes_hybrid::closures::call_to_work::<#8383eef3f4ca9323>
l_gcm_v2_CPI31_0:
	.byte	15                              # 0xf
	.byte	11                              # 0xb
	.byte	7                               # 0x7
	.byte	3                               # 0x3
	.byte	14                              # 0xe
	.byte	10                              # 0xa
	.byte	6                               # 0x6
	.byte	2                               # 0x2
	.byte	13                              # 0xd
	.byte	9                               # 0x9
	.byte	5                               # 0x5
	.byte	1                               # 0x1
	.byte	12                              # 0xc
	.byte	8                               # 0x8
	.byte	4                               # 0x4
	.byte	0                               # 0x0
l_gcm_v2_CPI31_1:
	.zero	16,85
l_gcm_v2_CPI31_2:
	.zero	16,51
l_gcm_v2_CPI31_3:
	.zero	16,15
l_gcm_v2_CPI31_4:
	.byte	0                               # 0x0
	.byte	4                               # 0x4
	.byte	8                               # 0x8
	.byte	12                              # 0xc
	.byte	1                               # 0x1
	.byte	5                               # 0x5
	.byte	9                               # 0x9
	.byte	13                              # 0xd
	.byte	2                               # 0x2
	.byte	6                               # 0x6
	.byte	10                              # 0xa
	.byte	14                              # 0xe
	.byte	3                               # 0x3
	.byte	7                               # 0x7
	.byte	11                              # 0xb
	.byte	15                              # 0xf
	.section	__TEXT,__text,regular,pure_instructions
	.p2align	4
_gcm_v2.aes_hybrid.closures.call_to_work.1: # @_gcm_v2.aes_hybrid.closures.call_to_work.1
# %bb.0:                                # %start
	pushq	%rbp
	pushq	%r15
	pushq	%r14
	pushq	%r13
	pushq	%r12
	pushq	%rbx
	subq	$184, %rsp
	movq	%rdx, %r8
	movq	%rsi, %r13
	movq	%rdi, 24(%rsp)
	movq	%rsi, 32(%rsp)
	movq	%rdx, 40(%rsp)
	movq	(%rcx), %rbx
	movq	8(%rcx), %rdx
	movq	24(%rcx), %r15
	movq	16(%rcx), %r12
	testb	$15, %dl
	je	Lgcm_v2_BB31_1
# %bb.2:                                # %then.1.i.i
	leaq	24(%rsp), %rdi
	movq	%rbx, %rsi
	movq	%rdx, %rbp
	xorl	%ecx, %ecx
	movq	%r8, %r14
	movq	%r12, %r8
	movq	%r15, %r9
	callq	_gcm_v2.aes_ctr.add_in_batches.add_next.1
	movq	%r14, %r8
	movq	%rax, %r14
	jmp	Lgcm_v2_BB31_3
Lgcm_v2_BB31_1:
	movq	%rdx, %rbp
	xorl	%r14d, %r14d
Lgcm_v2_BB31_3:                               # %join.3.i.i
	movq	%r15, 8(%rsp)                   # 8-byte Spill
	movq	%r15, %rax
	subq	%r14, %rax
	cmpq	$128, %rax
	movq	%rbp, (%rsp)                    # 8-byte Spill
	jb	Lgcm_v2_BB31_6
# %bb.4:                                # %join.11.lr.ph.i.i
	shrq	$3, %r8
	decq	%r8
	.p2align	4
Lgcm_v2_BB31_5:                               # %join.11.i.i
                                        # =>This Inner Loop Header: Depth=1
	movq	%rax, 16(%rsp)                  # 8-byte Spill
	movq	%r14, %rbp
	movq	(%rsp), %rax                    # 8-byte Reload
	addq	%r14, %rax
	shrq	$4, %rax
	movq	(%rbx), %rsi
	movq	8(%rbx), %rcx
	bswapq	%rsi
	bswapq	%rcx
	addq	$128, %r14
	movabsq	$-4294967296, %rdx              # imm = 0xFFFFFFFF00000000
	andq	%rcx, %rdx
	leal	(%rax,%rcx), %edi
	orq	%rdx, %rdi
	movq	%rdi, %xmm4
	movq	%rsi, %xmm8
	punpcklqdq	%xmm8, %xmm4            # xmm4 = xmm4[0],xmm8[0]
	leal	(%rcx,%rax), %esi
	incl	%esi
	orq	%rdx, %rsi
	movq	%rsi, %xmm2
	punpcklqdq	%xmm8, %xmm2            # xmm2 = xmm2[0],xmm8[0]
	leal	(%rcx,%rax), %esi
	addl	$2, %esi
	orq	%rdx, %rsi
	movq	%rsi, %xmm5
	punpcklqdq	%xmm8, %xmm5            # xmm5 = xmm5[0],xmm8[0]
	leal	(%rcx,%rax), %esi
	addl	$3, %esi
	orq	%rdx, %rsi
	movq	%rsi, %xmm0
	punpcklqdq	%xmm8, %xmm0            # xmm0 = xmm0[0],xmm8[0]
	leal	(%rcx,%rax), %esi
	addl	$4, %esi
	orq	%rdx, %rsi
	movq	%rsi, %xmm6
	punpcklqdq	%xmm8, %xmm6            # xmm6 = xmm6[0],xmm8[0]
	leal	(%rcx,%rax), %esi
	addl	$5, %esi
	orq	%rdx, %rsi
	movq	%rsi, %xmm3
	punpcklqdq	%xmm8, %xmm3            # xmm3 = xmm3[0],xmm8[0]
	leal	(%rcx,%rax), %esi
	addl	$6, %esi
	orq	%rdx, %rsi
	movq	%rsi, %xmm7
	punpcklqdq	%xmm8, %xmm7            # xmm7 = xmm7[0],xmm8[0]
	addl	%ecx, %eax
	addl	$7, %eax
	orq	%rdx, %rax
	movq	%rax, %xmm1
	punpcklqdq	%xmm8, %xmm1            # xmm1 = xmm1[0],xmm8[0]
	movdqa	l_gcm_v2_CPI31_0(%rip), %xmm8          # xmm8 = [15,11,7,3,14,10,6,2,13,9,5,1,12,8,4,0]
	pshufb	%xmm8, %xmm4
	pshufb	%xmm8, %xmm2
	pshufb	%xmm8, %xmm5
	pshufb	%xmm8, %xmm0
	pshufb	%xmm8, %xmm6
	pshufb	%xmm8, %xmm3
	pshufb	%xmm8, %xmm7
	pshufb	%xmm8, %xmm1
	movdqa	%xmm4, %xmm8
	psrlw	$1, %xmm8
	pxor	%xmm2, %xmm8
	movdqa	l_gcm_v2_CPI31_1(%rip), %xmm10         # xmm10 = [85,85,85,85,85,85,85,85,85,85,85,85,85,85,85,85]
	pand	%xmm10, %xmm8
	pxor	%xmm8, %xmm2
	paddb	%xmm8, %xmm8
	pxor	%xmm4, %xmm8
	movdqa	%xmm5, %xmm4
	psrlw	$1, %xmm4
	pxor	%xmm0, %xmm4
	pand	%xmm10, %xmm4
	pxor	%xmm4, %xmm0
	paddb	%xmm4, %xmm4
	pxor	%xmm5, %xmm4
	movdqa	%xmm6, %xmm9
	psrlw	$1, %xmm9
	pxor	%xmm3, %xmm9
	pand	%xmm10, %xmm9
	pxor	%xmm9, %xmm3
	paddb	%xmm9, %xmm9
	pxor	%xmm6, %xmm9
	movdqa	%xmm7, %xmm5
	psrlw	$1, %xmm5
	pxor	%xmm1, %xmm5
	pand	%xmm10, %xmm5
	pxor	%xmm5, %xmm1
	paddb	%xmm5, %xmm5
	pxor	%xmm7, %xmm5
	movdqa	%xmm8, %xmm7
	psrlw	$2, %xmm7
	pxor	%xmm4, %xmm7
	movdqa	l_gcm_v2_CPI31_2(%rip), %xmm10         # xmm10 = [51,51,51,51,51,51,51,51,51,51,51,51,51,51,51,51]
	pand	%xmm10, %xmm7
	pxor	%xmm7, %xmm4
	psllw	$2, %xmm7
	pxor	%xmm8, %xmm7
	movdqa	%xmm9, %xmm6
	psrlw	$2, %xmm6
	pxor	%xmm5, %xmm6
	pand	%xmm10, %xmm6
	pxor	%xmm6, %xmm5
	psllw	$2, %xmm6
	pxor	%xmm9, %xmm6
	movdqa	%xmm2, %xmm8
	psrlw	$2, %xmm8
	pxor	%xmm0, %xmm8
	pand	%xmm10, %xmm8
	pxor	%xmm8, %xmm0
	psllw	$2, %xmm8
	pxor	%xmm2, %xmm8
	movdqa	%xmm3, %xmm2
	psrlw	$2, %xmm2
	pxor	%xmm1, %xmm2
	pand	%xmm10, %xmm2
	pxor	%xmm2, %xmm1
	psllw	$2, %xmm2
	pxor	%xmm3, %xmm2
	movdqa	%xmm7, %xmm3
	psrlw	$4, %xmm3
	movdqa	l_gcm_v2_CPI31_3(%rip), %xmm9          # xmm9 = [15,15,15,15,15,15,15,15,15,15,15,15,15,15,15,15]
	pxor	%xmm6, %xmm3
	pand	%xmm9, %xmm3
	pxor	%xmm3, %xmm6
	psllw	$4, %xmm3
	pxor	%xmm7, %xmm3
	movdqa	%xmm8, %xmm7
	psrlw	$4, %xmm7
	pxor	%xmm2, %xmm7
	pand	%xmm9, %xmm7
	pxor	%xmm7, %xmm2
	psllw	$4, %xmm7
	pxor	%xmm8, %xmm7
	movdqa	%xmm4, %xmm8
	psrlw	$4, %xmm8
	pxor	%xmm5, %xmm8
	pand	%xmm9, %xmm8
	pxor	%xmm8, %xmm5
	psllw	$4, %xmm8
	pxor	%xmm4, %xmm8
	movdqa	%xmm0, %xmm4
	psrlw	$4, %xmm4
	pxor	%xmm1, %xmm4
	pand	%xmm9, %xmm4
	pxor	%xmm4, %xmm1
	psllw	$4, %xmm4
	pxor	%xmm0, %xmm4
	movdqa	%xmm3, 48(%rsp)
	movdqa	%xmm7, 64(%rsp)
	movdqa	%xmm8, 80(%rsp)
	movdqa	%xmm4, 96(%rsp)
	movdqa	%xmm6, 112(%rsp)
	movdqa	%xmm2, 128(%rsp)
	movdqa	%xmm5, 144(%rsp)
	movdqa	%xmm1, 160(%rsp)
	leaq	48(%rsp), %rdx
	movq	%r13, %rdi
	movq	%r8, %rsi
	movq	%rbx, %r15
	movq	%r13, %rbx
	movq	%r8, %r13
	callq	_gcm_v2.aes_soft.soft.ciphers.planes.EncryptPlaneCipher.process_planes
	movq	16(%rsp), %rax                  # 8-byte Reload
	movq	%r13, %r8
	movq	%rbx, %r13
	movq	%r15, %rbx
	movdqa	48(%rsp), %xmm1
	movdqa	64(%rsp), %xmm6
	movdqa	80(%rsp), %xmm10
	movdqa	96(%rsp), %xmm2
	movdqa	112(%rsp), %xmm4
	movdqa	128(%rsp), %xmm5
	movdqa	144(%rsp), %xmm7
	movdqa	160(%rsp), %xmm0
	movdqa	%xmm1, %xmm8
	psrlw	$1, %xmm8
	pxor	%xmm6, %xmm8
	movdqa	l_gcm_v2_CPI31_1(%rip), %xmm11         # xmm11 = [85,85,85,85,85,85,85,85,85,85,85,85,85,85,85,85]
	pand	%xmm11, %xmm8
	pxor	%xmm8, %xmm6
	movdqa	%xmm10, %xmm3
	paddb	%xmm8, %xmm8
	psrlw	$1, %xmm3
	pxor	%xmm2, %xmm3
	pand	%xmm11, %xmm3
	pxor	%xmm3, %xmm2
	movdqa	%xmm4, %xmm9
	psrlw	$1, %xmm9
	pxor	%xmm5, %xmm9
	paddb	%xmm3, %xmm3
	pand	%xmm11, %xmm9
	pxor	%xmm9, %xmm5
	paddb	%xmm9, %xmm9
	pxor	%xmm1, %xmm8
	movdqa	%xmm7, %xmm1
	psrlw	$1, %xmm1
	pxor	%xmm0, %xmm1
	pxor	%xmm10, %xmm3
	pand	%xmm11, %xmm1
	pxor	%xmm1, %xmm0
	paddb	%xmm1, %xmm1
	pxor	%xmm4, %xmm9
	pxor	%xmm7, %xmm1
	movdqa	%xmm8, %xmm7
	psrlw	$2, %xmm7
	pxor	%xmm3, %xmm7
	movdqa	l_gcm_v2_CPI31_2(%rip), %xmm11         # xmm11 = [51,51,51,51,51,51,51,51,51,51,51,51,51,51,51,51]
	pand	%xmm11, %xmm7
	pxor	%xmm7, %xmm3
	movdqa	%xmm9, %xmm4
	psllw	$2, %xmm7
	psrlw	$2, %xmm4
	pxor	%xmm1, %xmm4
	pand	%xmm11, %xmm4
	pxor	%xmm4, %xmm1
	movdqa	%xmm6, %xmm10
	psrlw	$2, %xmm10
	pxor	%xmm2, %xmm10
	psllw	$2, %xmm4
	pand	%xmm11, %xmm10
	pxor	%xmm10, %xmm2
	psllw	$2, %xmm10
	pxor	%xmm6, %xmm10
	movdqa	%xmm5, %xmm6
	psrlw	$2, %xmm6
	pxor	%xmm0, %xmm6
	pxor	%xmm8, %xmm7
	pand	%xmm11, %xmm6
	pxor	%xmm6, %xmm0
	psllw	$2, %xmm6
	pxor	%xmm9, %xmm4
	pxor	%xmm5, %xmm6
	movdqa	%xmm7, %xmm5
	psrlw	$4, %xmm5
	pxor	%xmm4, %xmm5
	movdqa	%xmm10, %xmm8
	psrlw	$4, %xmm8
	pxor	%xmm6, %xmm8
	movdqa	l_gcm_v2_CPI31_3(%rip), %xmm11         # xmm11 = [15,15,15,15,15,15,15,15,15,15,15,15,15,15,15,15]
	pand	%xmm11, %xmm5
	pand	%xmm11, %xmm8
	pxor	%xmm8, %xmm6
	psllw	$4, %xmm8
	pxor	%xmm5, %xmm4
	movdqa	%xmm3, %xmm9
	psrlw	$4, %xmm9
	pxor	%xmm1, %xmm9
	psllw	$4, %xmm5
	pand	%xmm11, %xmm9
	pxor	%xmm9, %xmm1
	psllw	$4, %xmm9
	pxor	%xmm10, %xmm8
	movdqa	%xmm2, %xmm10
	psrlw	$4, %xmm10
	pxor	%xmm0, %xmm10
	pxor	%xmm3, %xmm9
	pand	%xmm11, %xmm10
	pxor	%xmm10, %xmm0
	psllw	$4, %xmm10
	pxor	%xmm7, %xmm5
	pxor	%xmm2, %xmm10
	movdqa	l_gcm_v2_CPI31_4(%rip), %xmm2          # xmm2 = [0,4,8,12,1,5,9,13,2,6,10,14,3,7,11,15]
	movdqu	(%r12,%rbp), %xmm3
	pshufb	%xmm2, %xmm5
	movdqu	16(%r12,%rbp), %xmm7
	movdqu	32(%r12,%rbp), %xmm11
	movdqu	48(%r12,%rbp), %xmm12
	pxor	%xmm5, %xmm3
	movdqu	%xmm3, (%r12,%rbp)
	pshufb	%xmm2, %xmm8
	pxor	%xmm7, %xmm8
	movdqu	%xmm8, 16(%r12,%rbp)
	pshufb	%xmm2, %xmm9
	pxor	%xmm11, %xmm9
	pshufb	%xmm2, %xmm10
	movdqu	%xmm9, 32(%r12,%rbp)
	pxor	%xmm12, %xmm10
	movdqu	%xmm10, 48(%r12,%rbp)
	movdqu	64(%r12,%rbp), %xmm3
	pshufb	%xmm2, %xmm4
	pxor	%xmm3, %xmm4
	movdqu	%xmm4, 64(%r12,%rbp)
	movdqu	80(%r12,%rbp), %xmm3
	pshufb	%xmm2, %xmm6
	pxor	%xmm3, %xmm6
	movdqu	%xmm6, 80(%r12,%rbp)
	movdqu	96(%r12,%rbp), %xmm3
	pshufb	%xmm2, %xmm1
	pxor	%xmm3, %xmm1
	movdqu	%xmm1, 96(%r12,%rbp)
	movdqu	112(%r12,%rbp), %xmm1
	pshufb	%xmm2, %xmm0
	pxor	%xmm1, %xmm0
	movdqu	%xmm0, 112(%r12,%rbp)
	addq	$-128, %rax
	cmpq	$127, %rax
	ja	Lgcm_v2_BB31_5
Lgcm_v2_BB31_6:                               # %loop.13.preheader.i.i
	movq	8(%rsp), %r13                   # 8-byte Reload
	cmpq	%r13, %r14
	movq	(%rsp), %r15                    # 8-byte Reload
	jae	Lgcm_v2_BB31_8
	.p2align	4
Lgcm_v2_BB31_7:                               # %join.16.i.i
                                        # =>This Inner Loop Header: Depth=1
	leaq	24(%rsp), %rdi
	movq	%rbx, %rsi
	movq	%r15, %rdx
	movq	%r14, %rcx
	movq	%r12, %r8
	movq	%r13, %r9
	callq	_gcm_v2.aes_ctr.add_in_batches.add_next.1
	movq	%rax, %r14
	cmpq	%r13, %rax
	jb	Lgcm_v2_BB31_7
Lgcm_v2_BB31_8:                               # %"aes_ctr::add_in_batches::AddStreamBlockCipherEncClosure::call::<#568a98508308736d>.exit"
	addq	$184, %rsp
	popq	%rbx
	popq	%r12
	popq	%r13
	popq	%r14
	popq	%r15
	popq	%rbp
	retq
                                        # -- End function
	.section	__TEXT,__const
	.p2align	4, 0x0                          # -- Begin function aes_ctr::add_in_batches::add_next::<#849d7687381e9207>
l_gcm_v2_CPI32_0:
	.byte	15                              # 0xf
	.byte	14                              # 0xe
	.byte	13                              # 0xd
	.byte	12                              # 0xc
	.byte	11                              # 0xb
	.byte	10                              # 0xa
	.byte	9                               # 0x9
	.byte	8                               # 0x8
	.byte	7                               # 0x7
	.byte	6                               # 0x6
	.byte	5                               # 0x5
	.byte	4                               # 0x4
	.byte	3                               # 0x3
	.byte	2                               # 0x2
	.byte	1                               # 0x1
	.byte	0                               # 0x0
l_gcm_v2_CPI32_1:
	.byte	0                               # 0x0
	.byte	4                               # 0x4
	.byte	8                               # 0x8
	.byte	12                              # 0xc
	.byte	1                               # 0x1
	.byte	5                               # 0x5
	.byte	9                               # 0x9
	.byte	13                              # 0xd
	.byte	2                               # 0x2
	.byte	6                               # 0x6
	.byte	10                              # 0xa
	.byte	14                              # 0xe
	.byte	3                               # 0x3
	.byte	7                               # 0x7
	.byte	11                              # 0xb
	.byte	15                              # 0xf
l_gcm_v2_CPI32_2:
	.byte	128                             # 0x80
	.byte	128                             # 0x80
	.byte	128                             # 0x80
	.byte	3                               # 0x3
	.byte	128                             # 0x80
	.byte	128                             # 0x80
	.byte	128                             # 0x80
	.byte	2                               # 0x2
	.byte	128                             # 0x80
	.byte	128                             # 0x80
	.byte	128                             # 0x80
	.byte	1                               # 0x1
	.byte	128                             # 0x80
	.byte	128                             # 0x80
	.byte	128                             # 0x80
	.byte	0                               # 0x0
l_gcm_v2_CPI32_3:
	.byte	0                               # 0x0
	.byte	4                               # 0x4
	.byte	8                               # 0x8
	.byte	128                             # 0x80
	.byte	1                               # 0x1
	.byte	5                               # 0x5
	.byte	9                               # 0x9
	.byte	128                             # 0x80
	.byte	2                               # 0x2
	.byte	6                               # 0x6
	.byte	10                              # 0xa
	.byte	128                             # 0x80
	.byte	3                               # 0x3
	.byte	7                               # 0x7
	.byte	11                              # 0xb
	.byte	128                             # 0x80
l_gcm_v2_CPI32_4:
	.byte	15                              # 0xf
	.byte	11                              # 0xb
	.byte	7                               # 0x7
	.byte	3                               # 0x3
	.byte	14                              # 0xe
	.byte	10                              # 0xa
	.byte	6                               # 0x6
	.byte	2                               # 0x2
	.byte	13                              # 0xd
	.byte	9                               # 0x9
	.byte	5                               # 0x5
	.byte	1                               # 0x1
	.byte	12                              # 0xc
	.byte	8                               # 0x8
	.byte	4                               # 0x4
	.byte	0                               # 0x0
l_gcm_v2_CPI32_5:
	.zero	16,85
l_gcm_v2_CPI32_6:
	.zero	16,51
l_gcm_v2_CPI32_7:
	.zero	16,15
	.section	__TEXT,__text,regular,pure_instructions
	.p2align	4
_gcm_v2.aes_ctr.add_in_batches.add_next.1: # @_gcm_v2.aes_ctr.add_in_batches.add_next.1
# %bb.0:                                # %start
	pushq	%r15
	pushq	%r14
	pushq	%r13
	pushq	%r12
	pushq	%rbx
	subq	$384, %rsp                      # imm = 0x180
	movq	%r9, %r12
	movq	%r8, %r15
	movq	%rcx, %rbx
	addq	%rcx, %rdx
	movl	%edx, %r13d
	andl	$15, %r13d
	movl	$128, %eax
	subq	%r13, %rax
	movq	%r9, %r14
	subq	%rcx, %r14
	cmpq	%rax, %r14
	cmovaeq	%rax, %r14
	leaq	(%r14,%r13), %rcx
	shrq	$4, %rdx
	xorps	%xmm0, %xmm0
	movups	%xmm0, 233(%rsp)
	movups	%xmm0, 217(%rsp)
	movups	%xmm0, 201(%rsp)
	movups	%xmm0, 185(%rsp)
	movups	%xmm0, 169(%rsp)
	movups	%xmm0, 153(%rsp)
	movups	%xmm0, 137(%rsp)
	movups	%xmm0, 121(%rsp)
	movups	%xmm0, 105(%rsp)
	movups	%xmm0, 89(%rsp)
	movq	$0, 248(%rsp)
	movq	(%rsi), %r8
	movq	8(%rsi), %rax
	bswapq	%r8
	bswapq	%rax
	movabsq	$-4294967296, %rsi              # imm = 0xFFFFFFFF00000000
	andq	%rax, %rsi
	leal	(%rdx,%rax), %r9d
	orq	%rsi, %r9
	movq	%r9, %xmm0
	movq	%r8, %xmm5
	punpcklqdq	%xmm5, %xmm0            # xmm0 = xmm0[0],xmm5[0]
	movdqa	l_gcm_v2_CPI32_0(%rip), %xmm8          # xmm8 = [15,14,13,12,11,10,9,8,7,6,5,4,3,2,1,0]
	pshufb	%xmm8, %xmm0
	movdqa	%xmm0, (%rsp)
	leal	(%rax,%rdx), %r8d
	incl	%r8d
	orq	%rsi, %r8
	movq	%r8, %xmm3
	punpcklqdq	%xmm5, %xmm3            # xmm3 = xmm3[0],xmm5[0]
	movdqa	%xmm3, %xmm0
	pshufb	%xmm8, %xmm0
	movdqa	%xmm0, 16(%rsp)
	leal	(%rax,%rdx), %r8d
	addl	$2, %r8d
	orq	%rsi, %r8
	movq	%r8, %xmm4
	punpcklqdq	%xmm5, %xmm4            # xmm4 = xmm4[0],xmm5[0]
	movdqa	%xmm4, %xmm0
	pshufb	%xmm8, %xmm0
	movdqa	%xmm0, 32(%rsp)
	leal	(%rax,%rdx), %r8d
	addl	$3, %r8d
	orq	%rsi, %r8
	movq	%r8, %xmm0
	punpcklqdq	%xmm5, %xmm0            # xmm0 = xmm0[0],xmm5[0]
	movdqa	%xmm0, %xmm1
	pshufb	%xmm8, %xmm1
	movdqa	%xmm1, 48(%rsp)
	leal	(%rax,%rdx), %r8d
	addl	$4, %r8d
	orq	%rsi, %r8
	movq	%r8, %xmm6
	punpcklqdq	%xmm5, %xmm6            # xmm6 = xmm6[0],xmm5[0]
	movdqa	%xmm6, %xmm1
	pshufb	%xmm8, %xmm1
	movdqa	%xmm1, 64(%rsp)
	leal	(%rax,%rdx), %r8d
	addl	$5, %r8d
	orq	%rsi, %r8
	movq	%r8, %xmm2
	punpcklqdq	%xmm5, %xmm2            # xmm2 = xmm2[0],xmm5[0]
	movdqa	%xmm2, %xmm1
	pshufb	%xmm8, %xmm1
	movdqa	%xmm1, 80(%rsp)
	leal	(%rax,%rdx), %r8d
	addl	$6, %r8d
	orq	%rsi, %r8
	movq	%r8, %xmm7
	punpcklqdq	%xmm5, %xmm7            # xmm7 = xmm7[0],xmm5[0]
	movdqa	%xmm7, %xmm1
	pshufb	%xmm8, %xmm1
	movdqa	%xmm1, 96(%rsp)
	addl	%edx, %eax
	addl	$7, %eax
	orq	%rsi, %rax
	movq	%rax, %xmm1
	punpcklqdq	%xmm5, %xmm1            # xmm1 = xmm1[0],xmm5[0]
	movdqa	%xmm1, %xmm5
	pshufb	%xmm8, %xmm5
	movdqa	%xmm5, 112(%rsp)
	cmpq	$80, %rcx
	ja	Lgcm_v2_BB32_2
# %bb.1:                                # %then.1.i.i
	addq	$15, %rcx
	shrq	$4, %rcx
	movq	(%rdi), %rax
	movq	16(%rax), %rdi
	movq	24(%rax), %rsi
	movq	%rsp, %rdx
	callq	_gcm_v2.aes_permute.blocks.process_on_lanes
	leaq	(%r15,%rbx), %rax
	testq	%r13, %r13
	je	Lgcm_v2_BB32_4
Lgcm_v2_BB32_5:                               # %then.1.i
	movl	$16, %ecx
	subq	%r13, %rcx
	cmpq	%rcx, %r14
	cmovbq	%r14, %rcx
	cmpq	%rbx, %r12
	je	Lgcm_v2_BB32_13
# %bb.6:                                # %join.8.i80.lr.ph
	movl	%ecx, %edx
	andl	$3, %edx
	cmpq	$4, %rcx
	jae	Lgcm_v2_BB32_8
# %bb.7:
	xorl	%esi, %esi
	jmp	Lgcm_v2_BB32_11
Lgcm_v2_BB32_2:                               # %else.2.i.i
	movq	%rdi, %rax
	movq	8(%rdi), %rdi
	movq	16(%rax), %rsi
	movdqu	20(%rsp), %xmm5
	pshufd	$80, %xmm5, %xmm5               # xmm5 = xmm5[0,0,1,1]
	pblendw	$3, 16(%rsp), %xmm5             # xmm5 = mem[0,1],xmm5[2,3,4,5,6,7]
	movdqa	(%rsp), %xmm9
	shrq	$3, %rsi
	decq	%rsi
	pshufb	l_gcm_v2_CPI32_2(%rip), %xmm3          # xmm3 = zero,zero,zero,xmm3[3],zero,zero,zero,xmm3[2],zero,zero,zero,xmm3[1],zero,zero,zero,xmm3[0]
	pshufb	l_gcm_v2_CPI32_3(%rip), %xmm5          # xmm5 = xmm5[0,4,8],zero,xmm5[1,5,9],zero,xmm5[2,6,10],zero,xmm5[3,7,11],zero
	pshufb	l_gcm_v2_CPI32_1(%rip), %xmm9          # xmm9 = xmm9[0,4,8,12,1,5,9,13,2,6,10,14,3,7,11,15]
	por	%xmm3, %xmm5
	movdqa	l_gcm_v2_CPI32_4(%rip), %xmm3          # xmm3 = [15,11,7,3,14,10,6,2,13,9,5,1,12,8,4,0]
	pshufb	%xmm3, %xmm4
	pshufb	%xmm3, %xmm0
	pshufb	%xmm3, %xmm6
	pshufb	%xmm3, %xmm2
	pshufb	%xmm3, %xmm7
	pshufb	%xmm3, %xmm1
	movdqa	%xmm9, %xmm8
	psrlw	$1, %xmm8
	pxor	%xmm5, %xmm8
	movdqa	l_gcm_v2_CPI32_5(%rip), %xmm10         # xmm10 = [85,85,85,85,85,85,85,85,85,85,85,85,85,85,85,85]
	pand	%xmm10, %xmm8
	pxor	%xmm8, %xmm5
	paddb	%xmm8, %xmm8
	pxor	%xmm9, %xmm8
	movdqa	%xmm4, %xmm3
	psrlw	$1, %xmm3
	pxor	%xmm0, %xmm3
	pand	%xmm10, %xmm3
	pxor	%xmm3, %xmm0
	paddb	%xmm3, %xmm3
	pxor	%xmm4, %xmm3
	movdqa	%xmm6, %xmm9
	psrlw	$1, %xmm9
	pxor	%xmm2, %xmm9
	pand	%xmm10, %xmm9
	pxor	%xmm9, %xmm2
	paddb	%xmm9, %xmm9
	pxor	%xmm6, %xmm9
	movdqa	%xmm7, %xmm4
	psrlw	$1, %xmm4
	pxor	%xmm1, %xmm4
	pand	%xmm10, %xmm4
	pxor	%xmm4, %xmm1
	paddb	%xmm4, %xmm4
	pxor	%xmm7, %xmm4
	movdqa	%xmm8, %xmm7
	psrlw	$2, %xmm7
	pxor	%xmm3, %xmm7
	movdqa	l_gcm_v2_CPI32_6(%rip), %xmm10         # xmm10 = [51,51,51,51,51,51,51,51,51,51,51,51,51,51,51,51]
	pand	%xmm10, %xmm7
	pxor	%xmm7, %xmm3
	psllw	$2, %xmm7
	pxor	%xmm8, %xmm7
	movdqa	%xmm9, %xmm6
	psrlw	$2, %xmm6
	pxor	%xmm4, %xmm6
	pand	%xmm10, %xmm6
	pxor	%xmm6, %xmm4
	psllw	$2, %xmm6
	pxor	%xmm9, %xmm6
	movdqa	%xmm5, %xmm8
	psrlw	$2, %xmm8
	pxor	%xmm0, %xmm8
	pand	%xmm10, %xmm8
	pxor	%xmm8, %xmm0
	psllw	$2, %xmm8
	pxor	%xmm5, %xmm8
	movdqa	%xmm2, %xmm5
	psrlw	$2, %xmm5
	pxor	%xmm1, %xmm5
	pand	%xmm10, %xmm5
	pxor	%xmm5, %xmm1
	psllw	$2, %xmm5
	pxor	%xmm2, %xmm5
	movdqa	%xmm7, %xmm2
	psrlw	$4, %xmm2
	movdqa	l_gcm_v2_CPI32_7(%rip), %xmm9          # xmm9 = [15,15,15,15,15,15,15,15,15,15,15,15,15,15,15,15]
	pxor	%xmm6, %xmm2
	pand	%xmm9, %xmm2
	pxor	%xmm2, %xmm6
	psllw	$4, %xmm2
	pxor	%xmm7, %xmm2
	movdqa	%xmm8, %xmm7
	psrlw	$4, %xmm7
	pxor	%xmm5, %xmm7
	pand	%xmm9, %xmm7
	pxor	%xmm7, %xmm5
	psllw	$4, %xmm7
	pxor	%xmm8, %xmm7
	movdqa	%xmm3, %xmm8
	psrlw	$4, %xmm8
	pxor	%xmm4, %xmm8
	pand	%xmm9, %xmm8
	pxor	%xmm8, %xmm4
	psllw	$4, %xmm8
	pxor	%xmm3, %xmm8
	movdqa	%xmm0, %xmm3
	psrlw	$4, %xmm3
	pxor	%xmm1, %xmm3
	pand	%xmm9, %xmm3
	pxor	%xmm3, %xmm1
	psllw	$4, %xmm3
	pxor	%xmm0, %xmm3
	movdqa	%xmm2, 256(%rsp)
	movdqa	%xmm7, 272(%rsp)
	movdqa	%xmm8, 288(%rsp)
	movdqa	%xmm3, 304(%rsp)
	movdqa	%xmm6, 320(%rsp)
	movdqa	%xmm5, 336(%rsp)
	movdqa	%xmm4, 352(%rsp)
	movdqa	%xmm1, 368(%rsp)
	leaq	256(%rsp), %rdx
	callq	_gcm_v2.aes_soft.soft.ciphers.planes.EncryptPlaneCipher.process_planes
	movdqa	256(%rsp), %xmm3
	movdqa	272(%rsp), %xmm6
	movdqa	288(%rsp), %xmm8
	movdqa	304(%rsp), %xmm1
	movdqa	320(%rsp), %xmm2
	movdqa	336(%rsp), %xmm4
	movdqa	352(%rsp), %xmm7
	movdqa	368(%rsp), %xmm0
	movdqa	%xmm3, %xmm5
	psrlw	$1, %xmm5
	pxor	%xmm6, %xmm5
	movdqa	l_gcm_v2_CPI32_5(%rip), %xmm9          # xmm9 = [85,85,85,85,85,85,85,85,85,85,85,85,85,85,85,85]
	pand	%xmm9, %xmm5
	pxor	%xmm5, %xmm6
	paddb	%xmm5, %xmm5
	pxor	%xmm3, %xmm5
	movdqa	%xmm8, %xmm3
	psrlw	$1, %xmm3
	pxor	%xmm1, %xmm3
	pand	%xmm9, %xmm3
	pxor	%xmm3, %xmm1
	paddb	%xmm3, %xmm3
	pxor	%xmm8, %xmm3
	movdqa	%xmm2, %xmm8
	psrlw	$1, %xmm8
	pxor	%xmm4, %xmm8
	pand	%xmm9, %xmm8
	pxor	%xmm8, %xmm4
	paddb	%xmm8, %xmm8
	pxor	%xmm2, %xmm8
	movdqa	%xmm7, %xmm2
	psrlw	$1, %xmm2
	pxor	%xmm0, %xmm2
	pand	%xmm9, %xmm2
	pxor	%xmm2, %xmm0
	paddb	%xmm2, %xmm2
	pxor	%xmm7, %xmm2
	movdqa	%xmm5, %xmm7
	psrlw	$2, %xmm7
	pxor	%xmm3, %xmm7
	movdqa	l_gcm_v2_CPI32_6(%rip), %xmm9          # xmm9 = [51,51,51,51,51,51,51,51,51,51,51,51,51,51,51,51]
	pand	%xmm9, %xmm7
	pxor	%xmm7, %xmm3
	psllw	$2, %xmm7
	pxor	%xmm5, %xmm7
	movdqa	%xmm8, %xmm5
	psrlw	$2, %xmm5
	pxor	%xmm2, %xmm5
	pand	%xmm9, %xmm5
	pxor	%xmm5, %xmm2
	psllw	$2, %xmm5
	pxor	%xmm8, %xmm5
	movdqa	%xmm6, %xmm8
	psrlw	$2, %xmm8
	pxor	%xmm1, %xmm8
	pand	%xmm9, %xmm8
	pxor	%xmm8, %xmm1
	psllw	$2, %xmm8
	pxor	%xmm6, %xmm8
	movdqa	%xmm4, %xmm6
	psrlw	$2, %xmm6
	pxor	%xmm0, %xmm6
	pand	%xmm9, %xmm6
	pxor	%xmm6, %xmm0
	psllw	$2, %xmm6
	pxor	%xmm4, %xmm6
	movdqa	%xmm7, %xmm4
	psrlw	$4, %xmm4
	pxor	%xmm5, %xmm4
	movdqa	l_gcm_v2_CPI32_7(%rip), %xmm9          # xmm9 = [15,15,15,15,15,15,15,15,15,15,15,15,15,15,15,15]
	pand	%xmm9, %xmm4
	pxor	%xmm4, %xmm5
	psllw	$4, %xmm4
	pxor	%xmm7, %xmm4
	movdqa	%xmm8, %xmm7
	psrlw	$4, %xmm7
	pxor	%xmm6, %xmm7
	pand	%xmm9, %xmm7
	pxor	%xmm7, %xmm6
	psllw	$4, %xmm7
	pxor	%xmm8, %xmm7
	movdqa	%xmm3, %xmm8
	psrlw	$4, %xmm8
	pxor	%xmm2, %xmm8
	pand	%xmm9, %xmm8
	pxor	%xmm8, %xmm2
	psllw	$4, %xmm8
	pxor	%xmm3, %xmm8
	movdqa	%xmm1, %xmm3
	psrlw	$4, %xmm3
	pxor	%xmm0, %xmm3
	pand	%xmm9, %xmm3
	pxor	%xmm3, %xmm0
	psllw	$4, %xmm3
	pxor	%xmm1, %xmm3
	movdqa	l_gcm_v2_CPI32_1(%rip), %xmm1          # xmm1 = [0,4,8,12,1,5,9,13,2,6,10,14,3,7,11,15]
	pshufb	%xmm1, %xmm4
	movdqa	%xmm4, (%rsp)
	pshufb	%xmm1, %xmm7
	movdqa	%xmm7, 16(%rsp)
	pshufb	%xmm1, %xmm8
	movdqa	%xmm8, 32(%rsp)
	pshufb	%xmm1, %xmm3
	movdqa	%xmm3, 48(%rsp)
	pshufb	%xmm1, %xmm5
	movdqa	%xmm5, 64(%rsp)
	pshufb	%xmm1, %xmm6
	movdqa	%xmm6, 80(%rsp)
	pshufb	%xmm1, %xmm2
	movdqa	%xmm2, 96(%rsp)
	pshufb	%xmm1, %xmm0
	movdqa	%xmm0, 112(%rsp)
	leaq	(%r15,%rbx), %rax
	testq	%r13, %r13
	jne	Lgcm_v2_BB32_5
Lgcm_v2_BB32_4:
	xorl	%ecx, %ecx
	jmp	Lgcm_v2_BB32_13
Lgcm_v2_BB32_8:                               # %join.8.i80.lr.ph.new
	movl	%ecx, %edi
	andl	$28, %edi
	movq	%rsp, %rsi
	leaq	(%rsi,%r13), %r8
	addq	$3, %r8
	leaq	(%rbx,%r15), %r9
	addq	$3, %r9
	xorl	%esi, %esi
	.p2align	4
Lgcm_v2_BB32_9:                               # %join.8.i80
                                        # =>This Inner Loop Header: Depth=1
	movzbl	-3(%r8,%rsi), %r10d
	xorb	%r10b, -3(%r9,%rsi)
	movzbl	-2(%r8,%rsi), %r10d
	xorb	%r10b, -2(%r9,%rsi)
	movzbl	-1(%r8,%rsi), %r10d
	xorb	%r10b, -1(%r9,%rsi)
	movzbl	(%r8,%rsi), %r10d
	xorb	%r10b, (%r9,%rsi)
	addq	$4, %rsi
	cmpq	%rsi, %rdi
	jne	Lgcm_v2_BB32_9
# %bb.10:                               # %join.3.i.loopexit.unr-lcssa
	testq	%rdx, %rdx
	je	Lgcm_v2_BB32_13
Lgcm_v2_BB32_11:                              # %join.8.i80.epil.preheader
	leaq	(%rax,%rsi), %rdi
	addq	%r13, %rsi
	addq	%rsp, %rsi
	xorl	%r8d, %r8d
	.p2align	4
Lgcm_v2_BB32_12:                              # %join.8.i80.epil
                                        # =>This Inner Loop Header: Depth=1
	movzbl	(%rsi,%r8), %r9d
	xorb	%r9b, (%rdi,%r8)
	incq	%r8
	cmpq	%r8, %rdx
	jne	Lgcm_v2_BB32_12
Lgcm_v2_BB32_13:                              # %join.3.i
	movq	%r14, %rdx
	subq	%rcx, %rdx
	cmpq	$16, %rdx
	jb	Lgcm_v2_BB32_15
	.p2align	4
Lgcm_v2_BB32_14:                              # %join.8.i
                                        # =>This Inner Loop Header: Depth=1
	leaq	(%rcx,%r13), %rsi
	andq	$-16, %rsi
	movdqu	(%rax,%rcx), %xmm0
	pxor	(%rsp,%rsi), %xmm0
	movdqu	%xmm0, (%rax,%rcx)
	addq	$16, %rcx
	addq	$-16, %rdx
	cmpq	$15, %rdx
	ja	Lgcm_v2_BB32_14
Lgcm_v2_BB32_15:                              # %after.4.i
	cmpq	%r14, %rcx
	jae	Lgcm_v2_BB32_23
# %bb.16:                               # %then.9.i
	testq	%rdx, %rdx
	je	Lgcm_v2_BB32_23
# %bb.17:                               # %iter.check
	addq	%rcx, %r13
	andq	$-16, %r13
	leaq	(%rsp,%r13), %rsi
	addq	%rcx, %rax
	cmpq	$4, %rdx
	jae	Lgcm_v2_BB32_20
# %bb.18:
	xorl	%ecx, %ecx
	jmp	Lgcm_v2_BB32_19
Lgcm_v2_BB32_20:                              # %vec.epilog.ph
	movl	%edx, %ecx
	andl	$12, %ecx
	xorl	%edi, %edi
	.p2align	4
Lgcm_v2_BB32_21:                              # %vec.epilog.vector.body
                                        # =>This Inner Loop Header: Depth=1
	movl	(%rsi,%rdi), %r8d
	xorl	%r8d, (%rax,%rdi)
	addq	$4, %rdi
	cmpq	%rdi, %rcx
	jne	Lgcm_v2_BB32_21
	jmp	Lgcm_v2_BB32_22
Lgcm_v2_BB32_19:                              # %join.8.i23
	movzbl	(%rsi,%rcx), %edi
	xorb	%dil, (%rax,%rcx)
	incq	%rcx
Lgcm_v2_BB32_22:                              # %join.8.i23
	cmpq	%rcx, %rdx
	jne	Lgcm_v2_BB32_19
Lgcm_v2_BB32_23:                              # %"aes_ctr::add_blocks::add_blocks.exit"
	addq	%rbx, %r14
	movq	%r14, %rax
	addq	$384, %rsp                      # imm = 0x180
	popq	%rbx
	popq	%r12
	popq	%r13
	popq	%r14
	popq	%r15
	retq
                                        # -- End function
	.section	__TEXT,__text,regular,pure_instructions
	.p2align	4                               # -- Begin function aes_cipher::zeroize::stack::wipe_stack::<=2032>
_gcm_v2.aes_cipher.zeroize.stack.wipe_stack.2032: # @_gcm_v2.aes_cipher.zeroize.stack.wipe_stack.2032
# %bb.0:                                # %start
	subq	$2040, %rsp                     # imm = 0x7F8
	leaq	8(%rsp), %rdi
	movl	$2032, %edx                     # imm = 0x7F0
	xorl	%esi, %esi
	callq	*_memset@GOTPCREL(%rip)
	movq	$0, (%rsp)
	#APP
	#NO_APP
	movq	(%rsp), %rax
	#APP
	#NO_APP
	cmpq	$2032, %rax                     # imm = 0x7F0
	jae	Lgcm_v2_BB33_2
# %bb.1:                                # %then.1
	movzbl	8(%rsp,%rax), %eax
	#APP
	#NO_APP
	xchgq	%rax, (%rsp)
	#APP
	#NO_APP
Lgcm_v2_BB33_2:                               # %common.ret
	addq	$2040, %rsp                     # imm = 0x7F8
	retq
                                        # -- End function
	.section	__TEXT,__const
	.p2align	4, 0x0                          # -- Begin function aes_ctr::add_in_batches::add_next::<#6a304718cc059ec9>
l_gcm_v2_CPI34_0:
	.byte	15                              # 0xf
	.byte	14                              # 0xe
	.byte	13                              # 0xd
	.byte	12                              # 0xc
	.byte	11                              # 0xb
	.byte	10                              # 0xa
	.byte	9                               # 0x9
	.byte	8                               # 0x8
	.byte	7                               # 0x7
	.byte	6                               # 0x6
	.byte	5                               # 0x5
	.byte	4                               # 0x4
	.byte	3                               # 0x3
	.byte	2                               # 0x2
	.byte	1                               # 0x1
	.byte	0                               # 0x0
	.section	__TEXT,__text,regular,pure_instructions
	.p2align	4
_gcm_v2.aes_ctr.add_in_batches.add_next.2: # @_gcm_v2.aes_ctr.add_in_batches.add_next.2
# %bb.0:                                # %start
	pushq	%rbp
	pushq	%r15
	pushq	%r14
	pushq	%r13
	pushq	%r12
	pushq	%rbx
	subq	$264, %rsp                      # imm = 0x108
	movq	%r9, %r12
	movq	%r8, %r15
	movq	%rcx, %rbx
	addq	%rcx, %rdx
	movl	%edx, %ebp
	andl	$15, %ebp
	movl	$64, %eax
	subq	%rbp, %rax
	movq	%r9, %r14
	subq	%rcx, %r14
	cmpq	%rax, %r14
	cmovaeq	%rax, %r14
	leal	(%r14,%rbp), %ecx
	addl	$15, %ecx
	shrl	$4, %ecx
	shrq	$4, %rdx
	xorps	%xmm0, %xmm0
	movaps	%xmm0, 240(%rsp)
	movaps	%xmm0, 224(%rsp)
	movaps	%xmm0, 208(%rsp)
	movaps	%xmm0, 192(%rsp)
	movaps	%xmm0, 176(%rsp)
	movaps	%xmm0, 160(%rsp)
	movaps	%xmm0, 144(%rsp)
	movaps	%xmm0, 128(%rsp)
	movaps	%xmm0, 112(%rsp)
	movaps	%xmm0, 96(%rsp)
	movaps	%xmm0, 80(%rsp)
	movaps	%xmm0, 64(%rsp)
	movq	(%rsi), %r8
	movq	8(%rsi), %rax
	bswapq	%r8
	bswapq	%rax
	movabsq	$-4294967296, %rsi              # imm = 0xFFFFFFFF00000000
	andq	%rax, %rsi
	leal	(%rdx,%rax), %r9d
	orq	%rsi, %r9
	movq	%r9, %xmm2
	movq	%r8, %xmm0
	punpcklqdq	%xmm0, %xmm2            # xmm2 = xmm2[0],xmm0[0]
	movdqa	l_gcm_v2_CPI34_0(%rip), %xmm1          # xmm1 = [15,14,13,12,11,10,9,8,7,6,5,4,3,2,1,0]
	pshufb	%xmm1, %xmm2
	movdqa	%xmm2, (%rsp)
	leal	(%rax,%rdx), %r8d
	incl	%r8d
	orq	%rsi, %r8
	movq	%r8, %xmm2
	punpcklqdq	%xmm0, %xmm2            # xmm2 = xmm2[0],xmm0[0]
	pshufb	%xmm1, %xmm2
	movdqa	%xmm2, 16(%rsp)
	leal	(%rax,%rdx), %r8d
	addl	$2, %r8d
	orq	%rsi, %r8
	movq	%r8, %xmm2
	punpcklqdq	%xmm0, %xmm2            # xmm2 = xmm2[0],xmm0[0]
	pshufb	%xmm1, %xmm2
	movdqa	%xmm2, 32(%rsp)
	addl	%edx, %eax
	addl	$3, %eax
	orq	%rsi, %rax
	movq	%rax, %xmm2
	punpcklqdq	%xmm0, %xmm2            # xmm2 = xmm2[0],xmm0[0]
	pshufb	%xmm1, %xmm2
	movdqa	%xmm2, 48(%rsp)
	movq	16(%rdi), %rax
	movq	24(%rdi), %rsi
	movq	%rsp, %r13
	movq	%rax, %rdi
	movq	%r13, %rdx
	callq	_gcm_v2.aes_permute.blocks.process_on_lanes
	leaq	(%r15,%rbx), %rax
	testq	%rbp, %rbp
	je	Lgcm_v2_BB34_1
# %bb.2:                                # %then.1.i
	movl	$16, %ecx
	subq	%rbp, %rcx
	cmpq	%rcx, %r14
	cmovbq	%r14, %rcx
	cmpq	%rbx, %r12
	je	Lgcm_v2_BB34_10
# %bb.3:                                # %join.8.i80.lr.ph
	movl	%ecx, %edx
	andl	$3, %edx
	cmpq	$4, %rcx
	jae	Lgcm_v2_BB34_5
# %bb.4:
	xorl	%esi, %esi
	jmp	Lgcm_v2_BB34_8
Lgcm_v2_BB34_1:
	xorl	%ecx, %ecx
	jmp	Lgcm_v2_BB34_10
Lgcm_v2_BB34_5:                               # %join.8.i80.lr.ph.new
	movl	%ecx, %edi
	andl	$28, %edi
	leaq	3(,%r13), %r8
	addq	%rbp, %r8
	leaq	(%rbx,%r15), %r9
	addq	$3, %r9
	xorl	%esi, %esi
	.p2align	4
Lgcm_v2_BB34_6:                               # %join.8.i80
                                        # =>This Inner Loop Header: Depth=1
	movzbl	-3(%r8,%rsi), %r10d
	xorb	%r10b, -3(%r9,%rsi)
	movzbl	-2(%r8,%rsi), %r10d
	xorb	%r10b, -2(%r9,%rsi)
	movzbl	-1(%r8,%rsi), %r10d
	xorb	%r10b, -1(%r9,%rsi)
	movzbl	(%r8,%rsi), %r10d
	xorb	%r10b, (%r9,%rsi)
	addq	$4, %rsi
	cmpq	%rsi, %rdi
	jne	Lgcm_v2_BB34_6
# %bb.7:                                # %join.3.i.loopexit.unr-lcssa
	testq	%rdx, %rdx
	je	Lgcm_v2_BB34_10
Lgcm_v2_BB34_8:                               # %join.8.i80.epil.preheader
	leaq	(%rax,%rsi), %rdi
	addq	%rbp, %rsi
	addq	%rsp, %rsi
	xorl	%r8d, %r8d
	.p2align	4
Lgcm_v2_BB34_9:                               # %join.8.i80.epil
                                        # =>This Inner Loop Header: Depth=1
	movzbl	(%rsi,%r8), %r9d
	xorb	%r9b, (%rdi,%r8)
	incq	%r8
	cmpq	%r8, %rdx
	jne	Lgcm_v2_BB34_9
Lgcm_v2_BB34_10:                              # %join.3.i
	movq	%r14, %rdx
	subq	%rcx, %rdx
	cmpq	$16, %rdx
	jb	Lgcm_v2_BB34_12
	.p2align	4
Lgcm_v2_BB34_11:                              # %join.8.i
                                        # =>This Inner Loop Header: Depth=1
	leaq	(%rcx,%rbp), %rsi
	andq	$-16, %rsi
	movdqu	(%rax,%rcx), %xmm0
	pxor	(%rsp,%rsi), %xmm0
	movdqu	%xmm0, (%rax,%rcx)
	addq	$16, %rcx
	addq	$-16, %rdx
	cmpq	$15, %rdx
	ja	Lgcm_v2_BB34_11
Lgcm_v2_BB34_12:                              # %after.4.i
	cmpq	%r14, %rcx
	jae	Lgcm_v2_BB34_20
# %bb.13:                               # %then.9.i
	testq	%rdx, %rdx
	je	Lgcm_v2_BB34_20
# %bb.14:                               # %iter.check
	addq	%rcx, %rbp
	andq	$-16, %rbp
	leaq	(%rsp,%rbp), %rsi
	addq	%rcx, %rax
	cmpq	$4, %rdx
	jae	Lgcm_v2_BB34_17
# %bb.15:
	xorl	%ecx, %ecx
	jmp	Lgcm_v2_BB34_16
Lgcm_v2_BB34_17:                              # %vec.epilog.ph
	movl	%edx, %ecx
	andl	$12, %ecx
	xorl	%edi, %edi
	.p2align	4
Lgcm_v2_BB34_18:                              # %vec.epilog.vector.body
                                        # =>This Inner Loop Header: Depth=1
	movl	(%rsi,%rdi), %r8d
	xorl	%r8d, (%rax,%rdi)
	addq	$4, %rdi
	cmpq	%rdi, %rcx
	jne	Lgcm_v2_BB34_18
	jmp	Lgcm_v2_BB34_19
Lgcm_v2_BB34_16:                              # %join.8.i23
	movzbl	(%rsi,%rcx), %edi
	xorb	%dil, (%rax,%rcx)
	incq	%rcx
Lgcm_v2_BB34_19:                              # %join.8.i23
	cmpq	%rcx, %rdx
	jne	Lgcm_v2_BB34_16
Lgcm_v2_BB34_20:                              # %"aes_ctr::add_blocks::add_blocks.exit"
	addq	%rbx, %r14
	movq	%r14, %rax
	addq	$264, %rsp                      # imm = 0x108
	popq	%rbx
	popq	%r12
	popq	%r13
	popq	%r14
	popq	%r15
	popq	%rbp
	retq
                                        # -- End function
	.section	__TEXT,__text,regular,pure_instructions
	.p2align	4                               # -- Begin function aes_cipher::zeroize::stack::wipe_stack::<=1536>
_gcm_v2.aes_cipher.zeroize.stack.wipe_stack.1536: # @_gcm_v2.aes_cipher.zeroize.stack.wipe_stack.1536
# %bb.0:                                # %start
	subq	$1544, %rsp                     # imm = 0x608
	leaq	8(%rsp), %rdi
	movl	$1536, %edx                     # imm = 0x600
	xorl	%esi, %esi
	callq	*_memset@GOTPCREL(%rip)
	movq	$0, (%rsp)
	#APP
	#NO_APP
	movq	(%rsp), %rax
	#APP
	#NO_APP
	cmpq	$1536, %rax                     # imm = 0x600
	jae	Lgcm_v2_BB35_2
# %bb.1:                                # %then.1
	movzbl	8(%rsp,%rax), %eax
	#APP
	#NO_APP
	xchgq	%rax, (%rsp)
	#APP
	#NO_APP
Lgcm_v2_BB35_2:                               # %common.ret
	addq	$1544, %rsp                     # imm = 0x608
	retq
                                        # -- End function
	.section	__TEXT,__text,regular,pure_instructions
	.p2align	4                               # -- Begin function gcm_c::whole::fotsgure_gcm_seal
_gcm_v2.gcm_c.whole.fotsgure_gcm_seal:      # @_gcm_v2.gcm_c.whole.fotsgure_gcm_seal
# %bb.0:                                # %start
	movabsq	$-2305843009213693952, %r10     # imm = 0xE000000000000000
	leaq	(%rdx,%r10), %r11
	incq	%r10
	movl	$3, %eax
	cmpq	%r10, %r11
	jb	Lgcm_v2_BB36_6
# %bb.1:                                # %after.1.i
	pushq	%rbp
	pushq	%r15
	pushq	%r14
	pushq	%r13
	pushq	%r12
	pushq	%rbx
	subq	$88, %rsp
	movq	144(%rsp), %rbx
	movabsq	$68719476704, %rax              # imm = 0xFFFFFFFE0
	cmpq	%rax, %rbx
	seta	%al
	movq	%r8, %r10
	shrq	$61, %r10
	setne	%r10b
	orb	%al, %r10b
	movl	$5, %eax
	jne	Lgcm_v2_BB36_5
# %bb.2:                                # %after.11.i
	movl	(%rdi), %r10d
	movl	$2, %eax
	cmpq	$32, %r10
	ja	Lgcm_v2_BB36_5
# %bb.3:                                # %after.11.i
	movabsq	$4311810048, %r11               # imm = 0x101010000
	btq	%r10, %r11
	jae	Lgcm_v2_BB36_5
# %bb.4:                                # %join.3
	leaq	4(%rdi), %rax
	shrl	$2, %r10d
	addq	$7, %r10
	addq	$244, %rdi
	movq	%rax, 16(%rsp)
	movq	%r10, 24(%rsp)
	movq	%rax, 32(%rsp)
	movq	%r10, 40(%rsp)
	movq	%rdi, 48(%rsp)
	leaq	16(%rsp), %r14
	leaq	72(%rsp), %r15
	movq	%r14, %rdi
	movq	%rcx, %r12
	movq	%r15, %rcx
	movq	%r9, %r13
	movq	%r8, %rbp
	callq	_gcm_v2.gcm.mode.BorrowedGcm.put_pre_counter
	movl	$16, %edx
	movq	%r14, %rdi
	movq	%r15, %rsi
	movq	%r13, %rcx
	movq	%rbx, %r8
	callq	_gcm_v2.gcm.gctr.add_gctr
	leaq	56(%rsp), %rax
	movq	%rax, (%rsp)
	movq	%r14, %rdi
	movq	%r15, %rsi
	movq	%r12, %rdx
	movq	%rbp, %rcx
	movq	%r13, %r8
	movq	%rbx, %r9
	callq	_gcm_v2.gcm.mode.BorrowedGcm.put_tag
	movq	%r15, %rdi
	callq	_gcm_v2.aes_cipher.zeroize.elements.zeroize_elements.3
	callq	_gcm_v2.aes_cipher.zeroize.stack.wipe_stack.1536
	movups	56(%rsp), %xmm0
	movq	152(%rsp), %rax
	movups	%xmm0, (%rax)
	xorl	%eax, %eax
Lgcm_v2_BB36_5:
	addq	$88, %rsp
	popq	%rbx
	popq	%r12
	popq	%r13
	popq	%r14
	popq	%r15
	popq	%rbp
Lgcm_v2_BB36_6:                               # %common.ret
	pxor	%xmm0, %xmm0
	pxor	%xmm1, %xmm1
	pxor	%xmm2, %xmm2
	pxor	%xmm3, %xmm3
	pxor	%xmm4, %xmm4
	pxor	%xmm5, %xmm5
	pxor	%xmm6, %xmm6
	pxor	%xmm7, %xmm7
	pxor	%xmm8, %xmm8
	pxor	%xmm9, %xmm9
	pxor	%xmm10, %xmm10
	pxor	%xmm11, %xmm11
	pxor	%xmm12, %xmm12
	pxor	%xmm13, %xmm13
	pxor	%xmm14, %xmm14
	pxor	%xmm15, %xmm15
	xorl	%ecx, %ecx
	xorl	%edx, %edx
	xorl	%esi, %esi
	xorl	%edi, %edi
	xorl	%r8d, %r8d
	xorl	%r9d, %r9d
	xorl	%r10d, %r10d
	xorl	%r11d, %r11d
	retq
                                        # -- End function
	.section	__TEXT,__text,regular,pure_instructions
	.p2align	4                               # -- Begin function gcm_c::whole_to::copy
_gcm_v2.gcm_c.whole_to.copy:                # @_gcm_v2.gcm_c.whole_to.copy
# %bb.0:                                # %start
	movq	%rsi, %rax
	movq	%rdi, %rsi
	movq	%rdx, %rcx
	subq	%rdi, %rcx
	cmpq	%rax, %rcx
	jae	Lgcm_v2_BB37_18
# %bb.1:                                # %iter.check
	cmpq	$4, %rax
	setb	%dil
	cmpq	$32, %rcx
	setb	%cl
	orb	%dil, %cl
	je	Lgcm_v2_BB37_3
# %bb.2:
	xorl	%ecx, %ecx
	jmp	Lgcm_v2_BB37_12
Lgcm_v2_BB37_18:                              # %apart.2.i.i.i.i.i.i
	movq	%rdx, %rdi
	movq	%rax, %rdx
	jmpq	*_memmove@GOTPCREL(%rip)
Lgcm_v2_BB37_3:                               # %vector.main.loop.iter.check
	cmpq	$32, %rax
	jae	Lgcm_v2_BB37_5
# %bb.4:
	xorl	%ecx, %ecx
	jmp	Lgcm_v2_BB37_9
Lgcm_v2_BB37_5:                               # %vector.ph
	movq	%rax, %rcx
	andq	$-32, %rcx
	xorl	%edi, %edi
	.p2align	4
Lgcm_v2_BB37_6:                               # %vector.body
                                        # =>This Inner Loop Header: Depth=1
	movups	(%rsi,%rdi), %xmm0
	movups	16(%rsi,%rdi), %xmm1
	movups	%xmm0, (%rdx,%rdi)
	movups	%xmm1, 16(%rdx,%rdi)
	addq	$32, %rdi
	cmpq	%rdi, %rcx
	jne	Lgcm_v2_BB37_6
# %bb.7:                                # %middle.block
	cmpq	%rcx, %rax
	je	Lgcm_v2_BB37_17
# %bb.8:                                # %vec.epilog.iter.check
	testb	$28, %al
	je	Lgcm_v2_BB37_12
Lgcm_v2_BB37_9:                               # %vec.epilog.ph
	movq	%rcx, %rdi
	movq	%rax, %rcx
	andq	$-4, %rcx
	.p2align	4
Lgcm_v2_BB37_10:                              # %vec.epilog.vector.body
                                        # =>This Inner Loop Header: Depth=1
	movl	(%rsi,%rdi), %r8d
	movl	%r8d, (%rdx,%rdi)
	addq	$4, %rdi
	cmpq	%rdi, %rcx
	jne	Lgcm_v2_BB37_10
# %bb.11:                               # %vec.epilog.middle.block
	cmpq	%rcx, %rax
	je	Lgcm_v2_BB37_17
Lgcm_v2_BB37_12:                              # %join.7.i.i.i.i.i.i.preheader
	movq	%rax, %r8
	movq	%rcx, %rdi
	andq	$3, %r8
	je	Lgcm_v2_BB37_15
# %bb.13:                               # %join.7.i.i.i.i.i.i.prol.preheader
	movq	%rcx, %rdi
	.p2align	4
Lgcm_v2_BB37_14:                              # %join.7.i.i.i.i.i.i.prol
                                        # =>This Inner Loop Header: Depth=1
	movzbl	(%rsi,%rdi), %r9d
	movb	%r9b, (%rdx,%rdi)
	incq	%rdi
	decq	%r8
	jne	Lgcm_v2_BB37_14
Lgcm_v2_BB37_15:                              # %join.7.i.i.i.i.i.i.prol.loopexit
	subq	%rax, %rcx
	cmpq	$-4, %rcx
	ja	Lgcm_v2_BB37_17
	.p2align	4
Lgcm_v2_BB37_16:                              # %join.7.i.i.i.i.i.i
                                        # =>This Inner Loop Header: Depth=1
	movzbl	(%rsi,%rdi), %ecx
	movb	%cl, (%rdx,%rdi)
	movzbl	1(%rsi,%rdi), %ecx
	movb	%cl, 1(%rdx,%rdi)
	movzbl	2(%rsi,%rdi), %ecx
	movb	%cl, 2(%rdx,%rdi)
	movzbl	3(%rsi,%rdi), %ecx
	movb	%cl, 3(%rdx,%rdi)
	addq	$4, %rdi
	cmpq	%rdi, %rax
	jne	Lgcm_v2_BB37_16
Lgcm_v2_BB37_17:                              # %"core::slice::edits::slice+T::copy_from_slice::<i8,20'core::clone::U8Clone{}>.exit"
	retq
                                        # -- End function
	.section	__TEXT,__text,regular,pure_instructions
	.p2align	4                               # -- Begin function gcm_siv::course::open_in::<#b1a7be6fe22fdaa9>
_gcm_v2.gcm_siv.course.open_in.1: # @_gcm_v2.gcm_siv.course.open_in.1
# %bb.0:                                # %start
	pushq	%rbp
	pushq	%r15
	pushq	%r14
	pushq	%r13
	pushq	%r12
	pushq	%rbx
	subq	$1304, %rsp                     # imm = 0x518
	movq	%r9, 24(%rsp)                   # 8-byte Spill
	movq	%r8, 16(%rsp)                   # 8-byte Spill
	movq	%rcx, %r15
	movq	%rdx, %r12
	movq	%rsi, %rbp
	movq	%rdi, %rbx
	xorps	%xmm0, %xmm0
	movups	%xmm0, 776(%rsp)
	leaq	280(%rsp), %r14
	movl	$496, %edx                      # imm = 0x1F0
	movq	%r14, %rdi
	xorl	%esi, %esi
	callq	*_memset@GOTPCREL(%rip)
	leaq	792(%rsp), %r13
	movl	$512, %edx                      # imm = 0x200
	movq	%r13, %rdi
	movq	%r14, %rsi
	callq	*_memcpy@GOTPCREL(%rip)
	xorps	%xmm0, %xmm0
	movaps	%xmm0, 32(%rsp)
	movaps	%xmm0, 48(%rsp)
	movaps	%xmm0, 64(%rsp)
	movaps	%xmm0, 80(%rsp)
	movaps	%xmm0, 96(%rsp)
	movaps	%xmm0, 112(%rsp)
	movaps	%xmm0, 128(%rsp)
	movaps	%xmm0, 144(%rsp)
	movaps	%xmm0, 160(%rsp)
	movaps	%xmm0, 176(%rsp)
	movaps	%xmm0, 192(%rsp)
	movaps	%xmm0, 208(%rsp)
	movaps	%xmm0, 224(%rsp)
	movaps	%xmm0, 240(%rsp)
	movaps	%xmm0, 256(%rsp)
	movl	$0, 272(%rsp)
	leaq	32(%rsp), %r14
	movq	%rbx, %rdi
	movq	%rbp, %rsi
	movq	%r12, %rdx
	movq	%r14, %rcx
	movq	%r13, %r8
	callq	_gcm_v2.gcm_siv.keys.derive_and_prepare.1
	movaps	1360(%rsp), %xmm0
	movups	%xmm0, (%rsp)
	movq	%r14, %rdi
	movq	%r13, %rsi
	movq	%r12, %rdx
	movq	%r15, %rcx
	movq	16(%rsp), %r8                   # 8-byte Reload
	movq	24(%rsp), %r9                   # 8-byte Reload
	callq	_gcm_v2.gcm_siv.message.open.1
	movl	%eax, %ebx
	movl	$0, 32(%rsp)
	leaq	36(%rsp), %rdi
	callq	_gcm_v2.aes_cipher.zeroize.elements.zeroize_elements.1
	movl	$32, %esi
	movq	%r13, %rdi
	callq	_gcm_v2.aes_cipher.zeroize.elements.zeroize_elements.2
	callq	_gcm_v2.aes_cipher.zeroize.stack.wipe_stack.2816
	movl	%ebx, %eax
	addq	$1304, %rsp                     # imm = 0x518
	popq	%rbx
	popq	%r12
	popq	%r13
	popq	%r14
	popq	%r15
	popq	%rbp
	retq
                                        # -- End function
	.section	__TEXT,__text,regular,pure_instructions
	.p2align	4                               # -- Begin function gcm_siv::keys::derive_and_prepare::<#b1a7be6fe22fdaa9>
_gcm_v2.gcm_siv.keys.derive_and_prepare.1: # @_gcm_v2.gcm_siv.keys.derive_and_prepare.1
# %bb.0:                                # %start
	pushq	%r15
	pushq	%r14
	pushq	%r12
	pushq	%rbx
	subq	$200, %rsp
	movq	%r8, %r12
	movq	%rcx, %rbx
	movq	%rsi, %r15
	xorps	%xmm0, %xmm0
	movaps	%xmm0, 176(%rsp)
	movaps	%xmm0, 96(%rsp)
	movaps	%xmm0, 112(%rsp)
	movaps	%xmm0, 128(%rsp)
	movaps	%xmm0, 144(%rsp)
	movaps	%xmm0, 160(%rsp)
	movaps	%xmm0, (%rsp)
	movaps	%xmm0, 16(%rsp)
	movaps	%xmm0, 32(%rsp)
	movaps	%xmm0, 48(%rsp)
	movaps	%xmm0, 64(%rsp)
	movaps	%xmm0, 80(%rsp)
	leaq	16(%rsp), %r14
	movq	%rsp, %rcx
	callq	_gcm_v2.gcm_siv.keys.derive
	movq	(%rsp), %rax
	movq	8(%rsp), %rcx
	movq	%rcx, %rsi
	shldq	$63, %rax, %rsi
	shrq	%rcx
	andl	$1, %eax
	negq	%rax
	movabsq	$-2233785415175766016, %rdx     # imm = 0xE100000000000000
	andq	%rax, %rdx
	xorq	%rcx, %rdx
	movq	%r12, %rdi
	callq	_gcm_v2.gcm.multiples.put_table
	leaq	4(%rbx), %rdi
	xorps	%xmm0, %xmm0
	movups	%xmm0, 228(%rbx)
	movups	%xmm0, 212(%rbx)
	movups	%xmm0, 196(%rbx)
	movups	%xmm0, 180(%rbx)
	movups	%xmm0, 164(%rbx)
	movups	%xmm0, 148(%rbx)
	movups	%xmm0, 132(%rbx)
	movups	%xmm0, 116(%rbx)
	movups	%xmm0, 100(%rbx)
	movups	%xmm0, 84(%rbx)
	movups	%xmm0, 68(%rbx)
	movups	%xmm0, 52(%rbx)
	movups	%xmm0, 36(%rbx)
	movups	%xmm0, 20(%rbx)
	cmpq	$16, %r15
	jne	Lgcm_v2_BB39_2
# %bb.1:                                # %then.1.i
	movl	$16, %edx
	movq	%r14, %rsi
	callq	_gcm_v2.aes_permute.lane_keys.expand_lanes
	movl	$16, %eax
	jmp	Lgcm_v2_BB39_3
Lgcm_v2_BB39_2:                               # %else.2.i
	movl	$32, %edx
	movq	%r14, %rsi
	callq	_gcm_v2.aes_permute.lane_keys.expand_lanes
	movl	$32, %eax
Lgcm_v2_BB39_3:                               # %"gcm_siv::keys::set_encryption_key::<#66aa1833bfd7fef8>.exit"
	movl	%eax, (%rbx)
	movq	%rsp, %rdi
	movl	$6, %esi
	callq	_gcm_v2.aes_cipher.zeroize.elements.zeroize_elements.4
	addq	$200, %rsp
	popq	%rbx
	popq	%r12
	popq	%r14
	popq	%r15
	retq
                                        # -- End function
	.section	__TEXT,__text,regular,pure_instructions
	.p2align	4                               # -- Begin function gcm_siv::keys::derive::<#ed3b81e0963a9ab3>
_gcm_v2.gcm_siv.keys.derive: # @_gcm_v2.gcm_siv.keys.derive
# %bb.0:                                # %start
	pushq	%r15
	pushq	%r14
	pushq	%r12
	pushq	%rbx
	subq	$104, %rsp
	movq	%rcx, %rbx
	movq	%rdi, %r14
	movl	8(%rdx), %eax
	movl	%eax, 96(%rsp)
	movq	(%rdx), %rax
	movq	%rax, 88(%rsp)
	movl	8(%rdx), %eax
	movl	%eax, 80(%rsp)
	movq	(%rdx), %rax
	movq	%rax, 72(%rsp)
	movl	8(%rdx), %eax
	movl	%eax, 64(%rsp)
	movq	(%rdx), %rax
	movq	%rax, 56(%rsp)
	movl	8(%rdx), %eax
	movl	%eax, 48(%rsp)
	movq	(%rdx), %rax
	movq	%rax, 40(%rsp)
	movq	(%rdx), %rax
	movq	%rax, 24(%rsp)
	movl	8(%rdx), %eax
	movl	%eax, 32(%rsp)
	movq	(%rdx), %rax
	movq	%rax, 8(%rsp)
	movl	8(%rdx), %eax
	movl	%eax, 16(%rsp)
	movl	$0, (%rcx)
	movq	88(%rsp), %rax
	movq	%rax, 4(%rcx)
	movl	96(%rsp), %eax
	movl	%eax, 12(%rcx)
	movl	$1, 16(%rcx)
	movq	72(%rsp), %rax
	movq	%rax, 20(%rcx)
	movl	80(%rsp), %eax
	movl	%eax, 28(%rcx)
	movl	$2, 32(%rcx)
	movq	56(%rsp), %rax
	movq	%rax, 36(%rcx)
	movl	64(%rsp), %eax
	movl	%eax, 44(%rcx)
	movl	$3, 48(%rcx)
	movq	40(%rsp), %rax
	movq	%rax, 52(%rcx)
	movl	48(%rsp), %eax
	movl	%eax, 60(%rcx)
	movl	$4, 64(%rcx)
	movq	24(%rsp), %rax
	movq	%rax, 68(%rcx)
	movl	32(%rsp), %eax
	movl	%eax, 76(%rcx)
	movl	$5, 80(%rcx)
	movl	16(%rsp), %eax
	movl	%eax, 92(%rcx)
	movq	8(%rsp), %rax
	movq	%rax, 84(%rcx)
	movq	%rsi, %r15
	shrq	$3, %r15
	addq	$2, %r15
	cmpq	$104, %rsi
	jae	Lgcm_v2_BB40_2
# %bb.1:
	xorl	%r12d, %r12d
	jmp	Lgcm_v2_BB40_3
Lgcm_v2_BB40_2:                               # %join.6.i.i
	movq	(%r14), %rdi
	movq	8(%r14), %rsi
	movl	%r15d, %eax
	andl	$7, %eax
	xorl	%ecx, %ecx
	cmpq	$6, %rax
	cmovbq	%rax, %rcx
	movq	%r15, %r12
	subq	%rcx, %r12
	movq	%rbx, %rdx
	movq	%r12, %rcx
	callq	_gcm_v2.aes_hybrid.batches.process_on_planes
Lgcm_v2_BB40_3:                               # %"aes_hybrid::borrowed_cipher::BorrowedCipher::process_blocks::<#19237d6279b3cf3a>.exit"
	subq	%r12, %r15
	shlq	$4, %r12
	addq	%rbx, %r12
	movq	16(%r14), %rdi
	movq	24(%r14), %rsi
	movq	%r12, %rdx
	movq	%r15, %rcx
	callq	_gcm_v2.aes_permute.blocks.process_on_lanes
	movq	16(%rbx), %rax
	movq	32(%rbx), %rcx
	movq	%rax, 8(%rbx)
	movq	48(%rbx), %rax
	movq	%rcx, 16(%rbx)
	movq	%rax, 24(%rbx)
	movq	64(%rbx), %rax
	movq	80(%rbx), %rcx
	movq	%rax, 32(%rbx)
	movq	%rcx, 40(%rbx)
	addq	$104, %rsp
	popq	%rbx
	popq	%r12
	popq	%r14
	popq	%r15
	retq
                                        # -- End function
	.section	__TEXT,__text,regular,pure_instructions
	.p2align	4                               # -- Begin function aes_cipher::zeroize::elements::zeroize_elements::<#82a118249f09cfc6>
_gcm_v2.aes_cipher.zeroize.elements.zeroize_elements.4: # @_gcm_v2.aes_cipher.zeroize.elements.zeroize_elements.4
# %bb.0:                                # %start
	xorps	%xmm0, %xmm0
	movaps	%xmm0, -24(%rsp)
	movq	$0, -8(%rsp)
	#APP
	#NO_APP
	movq	-8(%rsp), %rax
	#APP
	#NO_APP
	cmpq	%rsi, %rax
	jae	Lgcm_v2_BB41_1
# %bb.2:                                # %then.1.i6
	movq	%rax, %rcx
	shlq	$4, %rcx
	movzbl	(%rdi,%rcx), %ecx
	movaps	-24(%rsp), %xmm0
	movups	%xmm0, (%rdi)
	cmpq	$1, %rsi
	jne	Lgcm_v2_BB41_4
	jmp	Lgcm_v2_BB41_9
Lgcm_v2_BB41_1:
	xorl	%ecx, %ecx
	movaps	-24(%rsp), %xmm0
	movups	%xmm0, (%rdi)
	cmpq	$1, %rsi
	je	Lgcm_v2_BB41_9
Lgcm_v2_BB41_4:                               # %join.6.i.1
	movaps	-24(%rsp), %xmm0
	movups	%xmm0, 16(%rdi)
	cmpq	$2, %rsi
	je	Lgcm_v2_BB41_9
# %bb.5:                                # %join.6.i.2
	movaps	-24(%rsp), %xmm0
	movups	%xmm0, 32(%rdi)
	cmpq	$3, %rsi
	je	Lgcm_v2_BB41_9
# %bb.6:                                # %join.6.i.3
	movaps	-24(%rsp), %xmm0
	movups	%xmm0, 48(%rdi)
	cmpq	$4, %rsi
	je	Lgcm_v2_BB41_9
# %bb.7:                                # %join.6.i.4
	movaps	-24(%rsp), %xmm0
	movups	%xmm0, 64(%rdi)
	cmpq	$5, %rsi
	je	Lgcm_v2_BB41_9
# %bb.8:                                # %join.6.i.5
	movaps	-24(%rsp), %xmm0
	movups	%xmm0, 80(%rdi)
Lgcm_v2_BB41_9:                               # %"aes_cipher::zeroize::overwrite::<#8c2be25e1e7027ab>.exit"
	cmpq	%rsi, %rax
	jae	Lgcm_v2_BB41_10
# %bb.11:                               # %then.1.i
	shlq	$4, %rax
	andb	(%rdi,%rax), %cl
	movzbl	%cl, %eax
	#APP
	#NO_APP
	xchgq	%rax, -8(%rsp)
	#APP
	#NO_APP
	retq
Lgcm_v2_BB41_10:
	xorl	%eax, %eax
	#APP
	#NO_APP
	xchgq	%rax, -8(%rsp)
	#APP
	#NO_APP
	retq
                                        # -- End function
	.section	__TEXT,__text,regular,pure_instructions
	.p2align	4                               # -- Begin function gcm_siv::message::open::<#f940bb35374b8583>
_gcm_v2.gcm_siv.message.open.1: # @_gcm_v2.gcm_siv.message.open.1
# %bb.0:                                # %start
	pushq	%rbp
	pushq	%r15
	pushq	%r14
	pushq	%r13
	pushq	%r12
	pushq	%rbx
	subq	$56, %rsp
	movq	%r9, %rbx
	movq	%r8, 24(%rsp)                   # 8-byte Spill
	movq	%rcx, 16(%rsp)                  # 8-byte Spill
	movq	%rdx, %r14
	movq	%rsi, %r12
	movq	%rdi, %r15
	movq	120(%rsp), %rsi
	movq	112(%rsp), %rbp
	movq	%r9, %rdx
	movq	%rbp, %rcx
	callq	_gcm_v2.gcm_siv.message.process_text
	xorps	%xmm0, %xmm0
	movaps	%xmm0, 32(%rsp)
	leaq	32(%rsp), %r13
	movq	%r13, 8(%rsp)
	movq	%rbp, (%rsp)
	movq	%r15, %rdi
	movq	%r12, %rsi
	movq	%r14, %rdx
	movq	120(%rsp), %r14
	movq	16(%rsp), %rcx                  # 8-byte Reload
	movq	24(%rsp), %r8                   # 8-byte Reload
	movq	%rbx, %r9
	callq	_gcm_v2.gcm_siv.message.put_tag.1
	movq	%r14, %rdi
	movq	%r13, %rsi
	callq	_gcm_v2.aes_cipher.blocks.difference
	movl	%eax, %ebp
	movl	$1, %esi
	movq	%r13, %rdi
	callq	_gcm_v2.aes_cipher.zeroize.elements.zeroize_elements.4
	testl	%ebp, %ebp
	je	Lgcm_v2_BB42_2
# %bb.1:                                # %join.3
	movq	%r15, %rdi
	movq	%r14, %rsi
	movq	%rbx, %rdx
	movq	112(%rsp), %rcx
	callq	_gcm_v2.gcm_siv.message.process_text
Lgcm_v2_BB42_2:                               # %common.ret
	testl	%ebp, %ebp
	sete	%al
	addq	$56, %rsp
	popq	%rbx
	popq	%r12
	popq	%r13
	popq	%r14
	popq	%r15
	popq	%rbp
	retq
                                        # -- End function
	.section	__TEXT,__const
	.p2align	4, 0x0                          # -- Begin function gcm_siv::message::put_tag::<#f940bb35374b8583>
l_gcm_v2_CPI43_0:
	.byte	15                              # 0xf
	.byte	14                              # 0xe
	.byte	13                              # 0xd
	.byte	12                              # 0xc
	.byte	11                              # 0xb
	.byte	10                              # 0xa
	.byte	9                               # 0x9
	.byte	8                               # 0x8
	.byte	7                               # 0x7
	.byte	6                               # 0x6
	.byte	5                               # 0x5
	.byte	4                               # 0x4
	.byte	3                               # 0x3
	.byte	2                               # 0x2
	.byte	1                               # 0x1
	.byte	0                               # 0x0
l_gcm_v2_CPI43_1:
	.byte	255                             # 0xff
	.byte	255                             # 0xff
	.byte	255                             # 0xff
	.byte	255                             # 0xff
	.byte	255                             # 0xff
	.byte	255                             # 0xff
	.byte	255                             # 0xff
	.byte	255                             # 0xff
	.byte	255                             # 0xff
	.byte	255                             # 0xff
	.byte	255                             # 0xff
	.byte	255                             # 0xff
	.byte	255                             # 0xff
	.byte	255                             # 0xff
	.byte	255                             # 0xff
	.byte	127                             # 0x7f
l_gcm_v2_CPI43_2:
	.zero	16,15
l_gcm_v2_CPI43_3:
	.byte	0                               # 0x0
	.byte	1                               # 0x1
	.byte	28                              # 0x1c
	.byte	29                              # 0x1d
	.byte	45                              # 0x2d
	.byte	44                              # 0x2c
	.byte	49                              # 0x31
	.byte	48                              # 0x30
	.byte	39                              # 0x27
	.byte	38                              # 0x26
	.byte	59                              # 0x3b
	.byte	58                              # 0x3a
	.byte	10                              # 0xa
	.byte	11                              # 0xb
	.byte	22                              # 0x16
	.byte	23                              # 0x17
l_gcm_v2_CPI43_4:
	.byte	0                               # 0x0
	.byte	134                             # 0x86
	.byte	253                             # 0xfd
	.byte	123                             # 0x7b
	.byte	142                             # 0x8e
	.byte	8                               # 0x8
	.byte	115                             # 0x73
	.byte	245                             # 0xf5
	.byte	119                             # 0x77
	.byte	241                             # 0xf1
	.byte	138                             # 0x8a
	.byte	12                              # 0xc
	.byte	249                             # 0xf9
	.byte	127                             # 0x7f
	.byte	4                               # 0x4
	.byte	130                             # 0x82
l_gcm_v2_CPI43_5:
	.byte	128                             # 0x80
	.byte	2                               # 0x2
	.byte	1                               # 0x1
	.byte	15                              # 0xf
	.byte	9                               # 0x9
	.byte	5                               # 0x5
	.byte	14                              # 0xe
	.byte	12                              # 0xc
	.byte	13                              # 0xd
	.byte	4                               # 0x4
	.byte	11                              # 0xb
	.byte	10                              # 0xa
	.byte	7                               # 0x7
	.byte	8                               # 0x8
	.byte	6                               # 0x6
	.byte	3                               # 0x3
l_gcm_v2_CPI43_6:
	.byte	128                             # 0x80
	.byte	1                               # 0x1
	.byte	9                               # 0x9
	.byte	14                              # 0xe
	.byte	13                              # 0xd
	.byte	11                              # 0xb
	.byte	7                               # 0x7
	.byte	6                               # 0x6
	.byte	15                              # 0xf
	.byte	2                               # 0x2
	.byte	12                              # 0xc
	.byte	5                               # 0x5
	.byte	10                              # 0xa
	.byte	4                               # 0x4
	.byte	3                               # 0x3
	.byte	8                               # 0x8
l_gcm_v2_CPI43_7:
	.byte	0                               # 0x0
	.byte	195                             # 0xc3
	.byte	79                              # 0x4f
	.byte	12                              # 0xc
	.byte	252                             # 0xfc
	.byte	124                             # 0x7c
	.byte	67                              # 0x43
	.byte	128                             # 0x80
	.byte	207                             # 0xcf
	.byte	51                              # 0x33
	.byte	63                              # 0x3f
	.byte	112                             # 0x70
	.byte	191                             # 0xbf
	.byte	179                             # 0xb3
	.byte	240                             # 0xf0
	.byte	140                             # 0x8c
l_gcm_v2_CPI43_8:
	.byte	0                               # 0x0
	.byte	230                             # 0xe6
	.byte	114                             # 0x72
	.byte	183                             # 0xb7
	.byte	229                             # 0xe5
	.byte	198                             # 0xc6
	.byte	197                             # 0xc5
	.byte	35                              # 0x23
	.byte	81                              # 0x51
	.byte	180                             # 0xb4
	.byte	3                               # 0x3
	.byte	113                             # 0x71
	.byte	32                              # 0x20
	.byte	151                             # 0x97
	.byte	82                              # 0x52
	.byte	148                             # 0x94
l_gcm_v2_CPI43_9:
	.byte	0                               # 0x0
	.byte	124                             # 0x7c
	.byte	32                              # 0x20
	.byte	207                             # 0xcf
	.byte	146                             # 0x92
	.byte	1                               # 0x1
	.byte	239                             # 0xef
	.byte	147                             # 0x93
	.byte	179                             # 0xb3
	.byte	33                              # 0x21
	.byte	238                             # 0xee
	.byte	206                             # 0xce
	.byte	125                             # 0x7d
	.byte	178                             # 0xb2
	.byte	93                              # 0x5d
	.byte	92                              # 0x5c
l_gcm_v2_CPI43_10:
	.byte	0                               # 0x0
	.byte	209                             # 0xd1
	.byte	229                             # 0xe5
	.byte	247                             # 0xf7
	.byte	230                             # 0xe6
	.byte	37                              # 0x25
	.byte	18                              # 0x12
	.byte	195                             # 0xc3
	.byte	38                              # 0x26
	.byte	192                             # 0xc0
	.byte	55                              # 0x37
	.byte	210                             # 0xd2
	.byte	244                             # 0xf4
	.byte	3                               # 0x3
	.byte	17                              # 0x11
	.byte	52                              # 0x34
l_gcm_v2_CPI43_11:
	.byte	0                               # 0x0
	.byte	203                             # 0xcb
	.byte	215                             # 0xd7
	.byte	176                             # 0xb0
	.byte	33                              # 0x21
	.byte	141                             # 0x8d
	.byte	103                             # 0x67
	.byte	172                             # 0xac
	.byte	123                             # 0x7b
	.byte	90                              # 0x5a
	.byte	234                             # 0xea
	.byte	61                              # 0x3d
	.byte	70                              # 0x46
	.byte	246                             # 0xf6
	.byte	145                             # 0x91
	.byte	28                              # 0x1c
l_gcm_v2_CPI43_12:
	.byte	0                               # 0x0
	.byte	159                             # 0x9f
	.byte	97                              # 0x61
	.byte	22                              # 0x16
	.byte	194                             # 0xc2
	.byte	42                              # 0x2a
	.byte	119                             # 0x77
	.byte	232                             # 0xe8
	.byte	137                             # 0x89
	.byte	75                              # 0x4b
	.byte	93                              # 0x5d
	.byte	60                              # 0x3c
	.byte	181                             # 0xb5
	.byte	163                             # 0xa3
	.byte	212                             # 0xd4
	.byte	254                             # 0xfe
	.section	__TEXT,__text,regular,pure_instructions
	.p2align	4
_gcm_v2.gcm_siv.message.put_tag.1: # @_gcm_v2.gcm_siv.message.put_tag.1
# %bb.0:                                # %start
	pushq	%rbp
	pushq	%r15
	pushq	%r14
	pushq	%r13
	pushq	%r12
	pushq	%rbx
	subq	$56, %rsp
	movq	%r9, 24(%rsp)                   # 8-byte Spill
	movq	%r8, %r14
	movq	%rcx, %rbp
	movq	%rdx, 48(%rsp)                  # 8-byte Spill
	movq	%rsi, %r15
	movq	%rdi, %rbx
	movq	%r8, %r12
	shrq	$4, %r12
	je	Lgcm_v2_BB43_1
# %bb.2:                                # %join.5.i.i.i.i.preheader
	movq	%rbp, %r13
	pxor	%xmm1, %xmm1
	.p2align	4
Lgcm_v2_BB43_3:                               # %join.5.i.i.i.i
                                        # =>This Inner Loop Header: Depth=1
	movdqu	(%r13), %xmm0
	pshufb	l_gcm_v2_CPI43_0(%rip), %xmm0          # xmm0 = xmm0[15,14,13,12,11,10,9,8,7,6,5,4,3,2,1,0]
	pxor	%xmm1, %xmm0
	pxor	%xmm1, %xmm1
	movdqa	%xmm1, (%rsp)
	movq	%rsp, %rdi
	movq	%r15, %rsi
	callq	_gcm_v2.gcm.multiples.Table.product
	movdqa	(%rsp), %xmm1
	addq	$16, %r13
	decq	%r12
	jne	Lgcm_v2_BB43_3
# %bb.4:                                # %"gcm::single_blocks::hash_whole::<#a9149335c466a3fd>.exit.i.i.i"
	movq	112(%rsp), %r13
	movq	%r14, %r12
	andq	$15, %r12
	je	Lgcm_v2_BB43_6
Lgcm_v2_BB43_5:                               # %join.3.i.i.i
	movq	%r14, %rax
	andq	$-16, %rax
	addq	%rax, %rbp
	movl	$16, %edx
	subq	%r12, %rdx
	leaq	(%rsp,%r12), %rdi
	xorl	%esi, %esi
	movdqa	%xmm1, 32(%rsp)                 # 16-byte Spill
	callq	*_memset@GOTPCREL(%rip)
	movq	%rsp, %rdi
	movq	%rbp, %rsi
	movq	%r12, %rdx
	callq	*_memcpy@GOTPCREL(%rip)
	movdqa	(%rsp), %xmm0
	pshufb	l_gcm_v2_CPI43_0(%rip), %xmm0          # xmm0 = xmm0[15,14,13,12,11,10,9,8,7,6,5,4,3,2,1,0]
	pxor	%xmm1, %xmm1
	movdqa	%xmm1, (%rsp)
	pxor	32(%rsp), %xmm0                 # 16-byte Folded Reload
	movq	%rsp, %rdi
	movq	%r15, %rsi
	callq	_gcm_v2.gcm.multiples.Table.product
	movdqa	(%rsp), %xmm1
Lgcm_v2_BB43_6:                               # %"gcm::single_blocks::hash_singly::<#a9149335c466a3fd>.exit.i.i"
	movq	%r13, %r12
	shrq	$4, %r12
	je	Lgcm_v2_BB43_9
# %bb.7:                                # %join.5.i.i12.i.i.preheader
	movq	24(%rsp), %rbp                  # 8-byte Reload
	.p2align	4
Lgcm_v2_BB43_8:                               # %join.5.i.i12.i.i
                                        # =>This Inner Loop Header: Depth=1
	movdqu	(%rbp), %xmm0
	pshufb	l_gcm_v2_CPI43_0(%rip), %xmm0          # xmm0 = xmm0[15,14,13,12,11,10,9,8,7,6,5,4,3,2,1,0]
	pxor	%xmm1, %xmm0
	pxor	%xmm1, %xmm1
	movdqa	%xmm1, (%rsp)
	movq	%rsp, %rdi
	movq	%r15, %rsi
	callq	_gcm_v2.gcm.multiples.Table.product
	movdqa	(%rsp), %xmm1
	addq	$16, %rbp
	decq	%r12
	jne	Lgcm_v2_BB43_8
Lgcm_v2_BB43_9:                               # %"gcm::single_blocks::hash_whole::<#a9149335c466a3fd>.exit.i23.i.i"
	movq	120(%rsp), %rbp
	movq	%r13, %r12
	andq	$15, %r12
	je	Lgcm_v2_BB43_11
# %bb.10:                               # %join.3.i27.i.i
	movq	%r13, %rax
	andq	$-16, %rax
	movq	24(%rsp), %rbp                  # 8-byte Reload
	addq	%rax, %rbp
	movl	$16, %edx
	subq	%r12, %rdx
	leaq	(%rsp,%r12), %rdi
	xorl	%esi, %esi
	movdqa	%xmm1, 32(%rsp)                 # 16-byte Spill
	callq	*_memset@GOTPCREL(%rip)
	movq	%rsp, %rdi
	movq	%rbp, %rsi
	movq	120(%rsp), %rbp
	movq	%r12, %rdx
	callq	*_memcpy@GOTPCREL(%rip)
	movdqa	(%rsp), %xmm0
	pshufb	l_gcm_v2_CPI43_0(%rip), %xmm0          # xmm0 = xmm0[15,14,13,12,11,10,9,8,7,6,5,4,3,2,1,0]
	pxor	%xmm1, %xmm1
	movdqa	%xmm1, (%rsp)
	pxor	32(%rsp), %xmm0                 # 16-byte Folded Reload
	movq	%rsp, %rdi
	movq	%r15, %rsi
	callq	_gcm_v2.gcm.multiples.Table.product
	movdqa	(%rsp), %xmm1
Lgcm_v2_BB43_11:                              # %"gcm_siv::hash::TableRoomPolyvalRoom::hash.exit"
	leal	(,%r13,8), %eax
	movl	%r13d, %esi
	movl	%r13d, %edi
	movl	%r13d, %r8d
	movq	%r13, %r9
	movq	%r13, %rcx
	movq	%r13, %rdx
	shrq	$53, %r13
	movd	%r13d, %xmm0
	shrq	$37, %rcx
	shrq	$45, %rdx
	pinsrb	$1, %edx, %xmm0
	pinsrb	$2, %ecx, %xmm0
	leal	(,%r14,8), %ecx
	movl	%r14d, %edx
	shrl	$21, %r8d
	shrq	$29, %r9
	pinsrb	$3, %r9d, %xmm0
	pinsrb	$4, %r8d, %xmm0
	movl	%r14d, %r8d
	movl	%r14d, %r9d
	shrl	$5, %esi
	shrl	$13, %edi
	pinsrb	$5, %edi, %xmm0
	pinsrb	$6, %esi, %xmm0
	movq	%r14, %rsi
	movq	%r14, %rdi
	pinsrb	$7, %eax, %xmm0
	movq	%r14, %rax
	shrq	$53, %r14
	pinsrb	$8, %r14d, %xmm0
	shrq	$45, %rax
	pinsrb	$9, %eax, %xmm0
	shrq	$37, %rdi
	pinsrb	$10, %edi, %xmm0
	shrq	$29, %rsi
	pinsrb	$11, %esi, %xmm0
	shrl	$21, %r9d
	pinsrb	$12, %r9d, %xmm0
	shrl	$13, %r8d
	pinsrb	$13, %r8d, %xmm0
	shrl	$5, %edx
	pinsrb	$14, %edx, %xmm0
	pinsrb	$15, %ecx, %xmm0
	pxor	%xmm1, %xmm0
	pxor	%xmm1, %xmm1
	movdqa	%xmm1, (%rsp)
	movq	%rsp, %rdi
	movq	%r15, %rsi
	callq	_gcm_v2.gcm.multiples.Table.product
	movq	(%rsp), %rax
	movq	8(%rsp), %rcx
	bswapq	%rcx
	bswapq	%rax
	movq	%rax, %rdx
	shldq	$8, %rcx, %rdx
	movq	%rdx, %xmm1
	movq	%rax, %rdx
	shldq	$16, %rcx, %rdx
	movq	%rdx, %xmm0
	movq	%rax, %rdx
	shldq	$24, %rcx, %rdx
	movq	%rdx, %xmm3
	movq	%rax, %rdx
	shldq	$32, %rcx, %rdx
	movq	%rdx, %xmm4
	movq	%rax, %rdx
	shldq	$40, %rcx, %rdx
	movq	%rdx, %xmm5
	movq	%rax, %rdx
	shldq	$48, %rcx, %rdx
	movq	%rdx, %xmm6
	movq	%rax, %rdx
	shldq	$56, %rcx, %rdx
	movq	%rdx, %xmm7
	movq	%rcx, %xmm2
	movq	%rax, %rcx
	shrq	$56, %rcx
	movd	%ecx, %xmm9
	movq	%rax, %rcx
	shrq	$48, %rcx
	movd	%ecx, %xmm8
	movq	%rax, %rcx
	movq	%rax, %xmm10
	punpcklbw	%xmm1, %xmm0            # xmm0 = xmm0[0],xmm1[0],xmm0[1],xmm1[1],xmm0[2],xmm1[2],xmm0[3],xmm1[3],xmm0[4],xmm1[4],xmm0[5],xmm1[5],xmm0[6],xmm1[6],xmm0[7],xmm1[7]
	punpcklbw	%xmm3, %xmm4            # xmm4 = xmm4[0],xmm3[0],xmm4[1],xmm3[1],xmm4[2],xmm3[2],xmm4[3],xmm3[3],xmm4[4],xmm3[4],xmm4[5],xmm3[5],xmm4[6],xmm3[6],xmm4[7],xmm3[7]
	psllq	$48, %xmm0
	pshufd	$80, %xmm4, %xmm1               # xmm1 = xmm4[0,0,1,1]
	pblendw	$8, %xmm0, %xmm1                # xmm1 = xmm1[0,1,2],xmm0[3],xmm1[4,5,6,7]
	punpcklbw	%xmm5, %xmm6            # xmm6 = xmm6[0],xmm5[0],xmm6[1],xmm5[1],xmm6[2],xmm5[2],xmm6[3],xmm5[3],xmm6[4],xmm5[4],xmm6[5],xmm5[5],xmm6[6],xmm5[6],xmm6[7],xmm5[7]
	punpcklbw	%xmm7, %xmm2            # xmm2 = xmm2[0],xmm7[0],xmm2[1],xmm7[1],xmm2[2],xmm7[2],xmm2[3],xmm7[3],xmm2[4],xmm7[4],xmm2[5],xmm7[5],xmm2[6],xmm7[6],xmm2[7],xmm7[7]
	punpcklwd	%xmm6, %xmm2            # xmm2 = xmm2[0],xmm6[0],xmm2[1],xmm6[1],xmm2[2],xmm6[2],xmm2[3],xmm6[3]
	shrq	$32, %rcx
	shrq	$40, %rax
	pblendw	$12, %xmm1, %xmm2               # xmm2 = xmm2[0,1],xmm1[2,3],xmm2[4,5,6,7]
	punpcklbw	%xmm9, %xmm8            # xmm8 = xmm8[0],xmm9[0],xmm8[1],xmm9[1],xmm8[2],xmm9[2],xmm8[3],xmm9[3],xmm8[4],xmm9[4],xmm8[5],xmm9[5],xmm8[6],xmm9[6],xmm8[7],xmm9[7]
	movd	%eax, %xmm0
	movd	%ecx, %xmm1
	punpcklbw	%xmm0, %xmm1            # xmm1 = xmm1[0],xmm0[0],xmm1[1],xmm0[1],xmm1[2],xmm0[2],xmm1[3],xmm0[3],xmm1[4],xmm0[4],xmm1[5],xmm0[5],xmm1[6],xmm0[6],xmm1[7],xmm0[7]
	pslldq	$14, %xmm8                      # xmm8 = zero,zero,zero,zero,zero,zero,zero,zero,zero,zero,zero,zero,zero,zero,xmm8[0,1]
	pshufd	$0, %xmm1, %xmm0                # xmm0 = xmm1[0,0,0,0]
	pblendw	$128, %xmm8, %xmm0              # xmm0 = xmm0[0,1,2,3,4,5,6],xmm8[7]
	pshufd	$68, %xmm10, %xmm1              # xmm1 = xmm10[0,1,0,1]
	pblendw	$192, %xmm0, %xmm1              # xmm1 = xmm1[0,1,2,3,4,5],xmm0[6,7]
	pblendw	$15, %xmm2, %xmm1               # xmm1 = xmm2[0,1,2,3],xmm1[4,5,6,7]
	movq	48(%rsp), %rax                  # 8-byte Reload
	movd	(%rax), %xmm0                   # xmm0 = mem[0],zero,zero,zero
	movq	4(%rax), %xmm2                  # xmm2 = mem[0],zero
	movq	%xmm0, %xmm0                    # xmm0 = xmm0[0],zero
	pshufd	$80, %xmm2, %xmm2               # xmm2 = xmm2[0,0,1,1]
	pblendw	$195, %xmm0, %xmm2              # xmm2 = xmm0[0,1],xmm2[2,3,4,5],xmm0[6,7]
	pxor	%xmm1, %xmm2
	pand	l_gcm_v2_CPI43_1(%rip), %xmm2
	movdqu	%xmm2, (%rbp)
	movl	(%rbx), %ecx
	shrl	$2, %ecx
	leaq	6(%rcx), %rax
	movdqu	4(%rbx), %xmm1
	pxor	%xmm2, %xmm1
	movdqa	l_gcm_v2_CPI43_2(%rip), %xmm0          # xmm0 = [15,15,15,15,15,15,15,15,15,15,15,15,15,15,15,15]
	movdqa	%xmm1, %xmm2
	pand	%xmm0, %xmm2
	movdqa	l_gcm_v2_CPI43_3(%rip), %xmm4          # xmm4 = [0,1,28,29,45,44,49,48,39,38,59,58,10,11,22,23]
	pshufb	%xmm2, %xmm4
	psrlw	$4, %xmm1
	pand	%xmm0, %xmm1
	movdqa	l_gcm_v2_CPI43_4(%rip), %xmm3          # xmm3 = [0,134,253,123,142,8,115,245,119,241,138,12,249,127,4,130]
	pshufb	%xmm1, %xmm3
	pxor	%xmm4, %xmm3
	shlq	$4, %rcx
	addq	$80, %rcx
	xorl	%edx, %edx
	.p2align	4
Lgcm_v2_BB43_12:                              # %join.5.i.i
                                        # =>This Inner Loop Header: Depth=1
	movdqu	20(%rbx,%rdx), %xmm4
	addq	$16, %rdx
	movdqa	%xmm3, %xmm5
	psrlw	$4, %xmm5
	pand	%xmm0, %xmm5
	pand	%xmm0, %xmm3
	movdqa	%xmm5, %xmm6
	pxor	%xmm3, %xmm6
	movdqa	l_gcm_v2_CPI43_5(%rip), %xmm2          # xmm2 = [128,2,1,15,9,5,14,12,13,4,11,10,7,8,6,3]
	movdqa	%xmm2, %xmm7
	pshufb	%xmm3, %xmm7
	movdqa	l_gcm_v2_CPI43_6(%rip), %xmm1          # xmm1 = [128,1,9,14,13,11,7,6,15,2,12,5,10,4,3,8]
	movdqa	%xmm1, %xmm3
	pshufb	%xmm5, %xmm3
	movdqa	%xmm1, %xmm8
	pshufb	%xmm6, %xmm8
	pxor	%xmm7, %xmm3
	pxor	%xmm7, %xmm8
	movdqa	%xmm1, %xmm7
	pshufb	%xmm3, %xmm7
	movdqa	%xmm1, %xmm3
	pshufb	%xmm8, %xmm3
	pxor	%xmm6, %xmm7
	pxor	%xmm5, %xmm3
	movdqa	l_gcm_v2_CPI43_7(%rip), %xmm6          # xmm6 = [0,195,79,12,252,124,67,128,207,51,63,112,191,179,240,140]
	pshufb	%xmm7, %xmm6
	movdqa	l_gcm_v2_CPI43_8(%rip), %xmm5          # xmm5 = [0,230,114,183,229,198,197,35,81,180,3,113,32,151,82,148]
	pshufb	%xmm3, %xmm5
	pxor	%xmm6, %xmm5
	movdqa	l_gcm_v2_CPI43_9(%rip), %xmm6          # xmm6 = [0,124,32,207,146,1,239,147,179,33,238,206,125,178,93,92]
	pshufb	%xmm7, %xmm6
	movdqa	l_gcm_v2_CPI43_10(%rip), %xmm7         # xmm7 = [0,209,229,247,230,37,18,195,38,192,55,210,244,3,17,52]
	pshufb	%xmm3, %xmm7
	pxor	%xmm6, %xmm7
	movl	%edx, %esi
	andl	$48, %esi
	leaq	l_gcm_v2_static.5(%rip), %rdi
	movdqu	(%rsi,%rdi), %xmm6
	movdqa	%xmm5, %xmm3
	pshufb	%xmm6, %xmm3
	pxor	%xmm7, %xmm3
	leaq	l_gcm_v2_static.6(%rip), %rdi
	movdqu	(%rsi,%rdi), %xmm7
	pshufb	%xmm7, %xmm5
	pxor	%xmm4, %xmm5
	pxor	%xmm3, %xmm5
	pshufb	%xmm6, %xmm3
	pxor	%xmm5, %xmm3
	cmpq	%rdx, %rcx
	jne	Lgcm_v2_BB43_12
# %bb.13:                               # %"gcm_c::siv::MessageRoomMessageKey::encrypt_block.exit"
	shlq	$4, %rax
	movdqu	4(%rbx,%rax), %xmm4
	movdqa	%xmm3, %xmm5
	psrlw	$4, %xmm5
	pand	%xmm0, %xmm5
	pand	%xmm0, %xmm3
	movdqa	%xmm5, %xmm0
	pxor	%xmm3, %xmm0
	pshufb	%xmm3, %xmm2
	movdqa	%xmm1, %xmm3
	pshufb	%xmm5, %xmm3
	movdqa	%xmm1, %xmm6
	pshufb	%xmm0, %xmm6
	pxor	%xmm2, %xmm3
	pxor	%xmm2, %xmm6
	movdqa	%xmm1, %xmm2
	pshufb	%xmm3, %xmm2
	pshufb	%xmm6, %xmm1
	pxor	%xmm0, %xmm2
	pxor	%xmm5, %xmm1
	movdqa	l_gcm_v2_CPI43_11(%rip), %xmm0         # xmm0 = [0,203,215,176,33,141,103,172,123,90,234,61,70,246,145,28]
	pshufb	%xmm2, %xmm0
	movdqa	l_gcm_v2_CPI43_12(%rip), %xmm2         # xmm2 = [0,159,97,22,194,42,119,232,137,75,93,60,181,163,212,254]
	pshufb	%xmm1, %xmm2
	pxor	%xmm0, %xmm2
	andl	$48, %eax
	leaq	l_gcm_v2_static.3(%rip), %rcx
	movdqu	(%rax,%rcx), %xmm0
	pshufb	%xmm0, %xmm2
	pxor	%xmm4, %xmm2
	movdqu	%xmm2, (%rbp)
	addq	$56, %rsp
	popq	%rbx
	popq	%r12
	popq	%r13
	popq	%r14
	popq	%r15
	popq	%rbp
	retq
Lgcm_v2_BB43_1:
	pxor	%xmm1, %xmm1
	movq	112(%rsp), %r13
	movq	%r14, %r12
	andq	$15, %r12
	jne	Lgcm_v2_BB43_5
	jmp	Lgcm_v2_BB43_6
                                        # -- End function
	.section	__TEXT,__const
	.p2align	4, 0x0                          # -- Begin function gcm::multiples::Table::product
l_gcm_v2_CPI44_0:
	.zero	16,15
l_gcm_v2_CPI44_1:
	.byte	15                              # 0xf
	.byte	14                              # 0xe
	.byte	13                              # 0xd
	.byte	12                              # 0xc
	.byte	11                              # 0xb
	.byte	10                              # 0xa
	.byte	9                               # 0x9
	.byte	8                               # 0x8
	.byte	7                               # 0x7
	.byte	6                               # 0x6
	.byte	5                               # 0x5
	.byte	4                               # 0x4
	.byte	3                               # 0x3
	.byte	2                               # 0x2
	.byte	1                               # 0x1
	.byte	0                               # 0x0
	.section	__TEXT,__text,regular,pure_instructions
	.p2align	4
_gcm_v2.gcm.multiples.Table.product:       # @_gcm_v2.gcm.multiples.Table.product
# %bb.0:                                # %start
	movdqa	%xmm0, %xmm2
	psrlw	$4, %xmm2
	movdqa	l_gcm_v2_CPI44_0(%rip), %xmm1          # xmm1 = [15,15,15,15,15,15,15,15,15,15,15,15,15,15,15,15]
	pand	%xmm1, %xmm2
	pand	%xmm1, %xmm0
	movdqu	480(%rsi), %xmm4
	movdqu	496(%rsi), %xmm5
	pshufb	%xmm0, %xmm4
	pshufb	%xmm0, %xmm5
	movdqu	224(%rsi), %xmm3
	movdqu	240(%rsi), %xmm1
	pshufb	%xmm2, %xmm3
	pxor	%xmm4, %xmm3
	pshufb	%xmm2, %xmm1
	pxor	%xmm5, %xmm1
	movdqu	448(%rsi), %xmm4
	movdqu	464(%rsi), %xmm5
	pshufb	%xmm0, %xmm4
	pshufb	%xmm0, %xmm5
	movdqu	192(%rsi), %xmm6
	movdqu	208(%rsi), %xmm7
	pshufb	%xmm2, %xmm6
	pxor	%xmm4, %xmm6
	pshufb	%xmm2, %xmm7
	pxor	%xmm5, %xmm7
	movdqa	%xmm3, %xmm5
	psrldq	$15, %xmm5                      # xmm5 = xmm5[15],zero,zero,zero,zero,zero,zero,zero,zero,zero,zero,zero,zero,zero,zero,zero
	movdqa	%xmm1, %xmm4
	psrldq	$15, %xmm4                      # xmm4 = xmm4[15],zero,zero,zero,zero,zero,zero,zero,zero,zero,zero,zero,zero,zero,zero,zero
	pslldq	$1, %xmm1                       # xmm1 = zero,xmm1[0,1,2,3,4,5,6,7,8,9,10,11,12,13,14]
	pxor	%xmm7, %xmm1
	pslldq	$1, %xmm3                       # xmm3 = zero,xmm3[0,1,2,3,4,5,6,7,8,9,10,11,12,13,14]
	pxor	%xmm6, %xmm3
	movdqu	416(%rsi), %xmm6
	movdqu	432(%rsi), %xmm7
	pshufb	%xmm0, %xmm6
	pshufb	%xmm0, %xmm7
	movdqu	160(%rsi), %xmm8
	movdqu	176(%rsi), %xmm9
	pshufb	%xmm2, %xmm8
	pxor	%xmm6, %xmm8
	pshufb	%xmm2, %xmm9
	pxor	%xmm7, %xmm9
	palignr	$15, %xmm1, %xmm4               # xmm4 = xmm1[15],xmm4[0,1,2,3,4,5,6,7,8,9,10,11,12,13,14]
	palignr	$15, %xmm3, %xmm5               # xmm5 = xmm3[15],xmm5[0,1,2,3,4,5,6,7,8,9,10,11,12,13,14]
	pslldq	$1, %xmm3                       # xmm3 = zero,xmm3[0,1,2,3,4,5,6,7,8,9,10,11,12,13,14]
	pxor	%xmm8, %xmm3
	pslldq	$1, %xmm1                       # xmm1 = zero,xmm1[0,1,2,3,4,5,6,7,8,9,10,11,12,13,14]
	pxor	%xmm9, %xmm1
	movdqu	384(%rsi), %xmm6
	movdqu	400(%rsi), %xmm7
	pshufb	%xmm0, %xmm6
	pshufb	%xmm0, %xmm7
	movdqu	128(%rsi), %xmm8
	movdqu	144(%rsi), %xmm9
	pshufb	%xmm2, %xmm8
	pxor	%xmm6, %xmm8
	pshufb	%xmm2, %xmm9
	pxor	%xmm7, %xmm9
	palignr	$15, %xmm3, %xmm5               # xmm5 = xmm3[15],xmm5[0,1,2,3,4,5,6,7,8,9,10,11,12,13,14]
	palignr	$15, %xmm1, %xmm4               # xmm4 = xmm1[15],xmm4[0,1,2,3,4,5,6,7,8,9,10,11,12,13,14]
	pslldq	$1, %xmm1                       # xmm1 = zero,xmm1[0,1,2,3,4,5,6,7,8,9,10,11,12,13,14]
	pxor	%xmm9, %xmm1
	pslldq	$1, %xmm3                       # xmm3 = zero,xmm3[0,1,2,3,4,5,6,7,8,9,10,11,12,13,14]
	pxor	%xmm8, %xmm3
	movdqu	352(%rsi), %xmm6
	movdqu	368(%rsi), %xmm7
	pshufb	%xmm0, %xmm6
	pshufb	%xmm0, %xmm7
	movdqu	96(%rsi), %xmm8
	movdqu	112(%rsi), %xmm9
	pshufb	%xmm2, %xmm8
	pxor	%xmm6, %xmm8
	pshufb	%xmm2, %xmm9
	pxor	%xmm7, %xmm9
	palignr	$15, %xmm1, %xmm4               # xmm4 = xmm1[15],xmm4[0,1,2,3,4,5,6,7,8,9,10,11,12,13,14]
	palignr	$15, %xmm3, %xmm5               # xmm5 = xmm3[15],xmm5[0,1,2,3,4,5,6,7,8,9,10,11,12,13,14]
	pslldq	$1, %xmm3                       # xmm3 = zero,xmm3[0,1,2,3,4,5,6,7,8,9,10,11,12,13,14]
	pxor	%xmm8, %xmm3
	pslldq	$1, %xmm1                       # xmm1 = zero,xmm1[0,1,2,3,4,5,6,7,8,9,10,11,12,13,14]
	pxor	%xmm9, %xmm1
	movdqu	320(%rsi), %xmm6
	movdqu	336(%rsi), %xmm7
	pshufb	%xmm0, %xmm6
	pshufb	%xmm0, %xmm7
	movdqu	64(%rsi), %xmm8
	movdqu	80(%rsi), %xmm9
	pshufb	%xmm2, %xmm8
	pxor	%xmm6, %xmm8
	pshufb	%xmm2, %xmm9
	pxor	%xmm7, %xmm9
	palignr	$15, %xmm3, %xmm5               # xmm5 = xmm3[15],xmm5[0,1,2,3,4,5,6,7,8,9,10,11,12,13,14]
	palignr	$15, %xmm1, %xmm4               # xmm4 = xmm1[15],xmm4[0,1,2,3,4,5,6,7,8,9,10,11,12,13,14]
	pslldq	$1, %xmm1                       # xmm1 = zero,xmm1[0,1,2,3,4,5,6,7,8,9,10,11,12,13,14]
	pxor	%xmm9, %xmm1
	pslldq	$1, %xmm3                       # xmm3 = zero,xmm3[0,1,2,3,4,5,6,7,8,9,10,11,12,13,14]
	pxor	%xmm8, %xmm3
	movdqu	288(%rsi), %xmm8
	movdqu	304(%rsi), %xmm9
	pshufb	%xmm0, %xmm8
	pshufb	%xmm0, %xmm9
	movdqu	(%rsi), %xmm6
	movdqu	16(%rsi), %xmm7
	movdqu	32(%rsi), %xmm10
	movdqu	48(%rsi), %xmm11
	pshufb	%xmm2, %xmm10
	pxor	%xmm8, %xmm10
	pshufb	%xmm2, %xmm11
	pxor	%xmm9, %xmm11
	palignr	$15, %xmm1, %xmm4               # xmm4 = xmm1[15],xmm4[0,1,2,3,4,5,6,7,8,9,10,11,12,13,14]
	palignr	$15, %xmm3, %xmm5               # xmm5 = xmm3[15],xmm5[0,1,2,3,4,5,6,7,8,9,10,11,12,13,14]
	pslldq	$1, %xmm3                       # xmm3 = zero,xmm3[0,1,2,3,4,5,6,7,8,9,10,11,12,13,14]
	pxor	%xmm10, %xmm3
	pslldq	$1, %xmm1                       # xmm1 = zero,xmm1[0,1,2,3,4,5,6,7,8,9,10,11,12,13,14]
	pxor	%xmm11, %xmm1
	movdqu	272(%rsi), %xmm8
	pshufb	%xmm0, %xmm8
	pshufb	%xmm2, %xmm7
	pxor	%xmm8, %xmm7
	palignr	$15, %xmm3, %xmm5               # xmm5 = xmm3[15],xmm5[0,1,2,3,4,5,6,7,8,9,10,11,12,13,14]
	palignr	$15, %xmm1, %xmm4               # xmm4 = xmm1[15],xmm4[0,1,2,3,4,5,6,7,8,9,10,11,12,13,14]
	pslldq	$1, %xmm1                       # xmm1 = zero,xmm1[0,1,2,3,4,5,6,7,8,9,10,11,12,13,14]
	pxor	%xmm7, %xmm1
	palignr	$8, %xmm1, %xmm4                # xmm4 = xmm1[8,9,10,11,12,13,14,15],xmm4[0,1,2,3,4,5,6,7]
	pxor	%xmm5, %xmm4
	movq	%xmm4, %r9
	pextrq	$1, %xmm4, %rax
	bswapq	%rax
	bswapq	%r9
	movq	%r9, %rdx
	movq	%r9, %rcx
	movq	%r9, %r8
	movq	%r9, %r10
	movq	%r9, %r11
	shrq	$7, %r11
	xorq	%r9, %r11
	shldq	$63, %rax, %r9
	shldq	$62, %rax, %rcx
	movdqu	256(%rsi), %xmm4
	xorq	%r9, %rcx
	pshufb	%xmm0, %xmm4
	pshufb	%xmm2, %xmm6
	pxor	%xmm4, %xmm6
	pslldq	$1, %xmm3                       # xmm3 = zero,xmm3[0,1,2,3,4,5,6,7,8,9,10,11,12,13,14]
	pxor	%xmm6, %xmm3
	pslldq	$8, %xmm1                       # xmm1 = zero,zero,zero,zero,zero,zero,zero,zero,xmm1[0,1,2,3,4,5,6,7]
	pxor	%xmm3, %xmm1
	shrq	%rdx
	shrq	$2, %r8
	xorq	%rdx, %r8
	shldq	$57, %rax, %r10
	xorq	%rax, %r10
	xorq	%rcx, %r10
	xorq	%r8, %r11
	movq	%r10, %xmm0
	movq	%r11, %xmm2
	punpcklqdq	%xmm2, %xmm0            # xmm0 = xmm0[0],xmm2[0]
	pshufb	l_gcm_v2_CPI44_1(%rip), %xmm0          # xmm0 = xmm0[15,14,13,12,11,10,9,8,7,6,5,4,3,2,1,0]
	pxor	%xmm1, %xmm0
	movdqu	%xmm0, (%rdi)
	retq
                                        # -- End function
	.section	__TEXT,__text,regular,pure_instructions
	.p2align	4                               # -- Begin function gcm_siv::message::process_text::<#66aa1833bfd7fef8>
_gcm_v2.gcm_siv.message.process_text: # @_gcm_v2.gcm_siv.message.process_text
# %bb.0:                                # %start
	pushq	%rbp
	pushq	%r15
	pushq	%r14
	pushq	%r13
	pushq	%r12
	pushq	%rbx
	subq	$344, %rsp                      # imm = 0x158
	movq	%rcx, %r14
	movq	%rdx, %rbx
	movzbl	15(%rsi), %eax
	orb	$-128, %al
	movl	(%rdi), %r10d
	addq	$4, %rdi
	shrl	$2, %r10d
	addq	$7, %r10
	movq	(%rsi), %rcx
	movq	7(%rsi), %rdx
	movq	%rdx, 15(%rsp)
	movq	%rcx, 8(%rsp)
	movb	%al, 23(%rsp)
	cmpq	$16, %r14
	ja	Lgcm_v2_BB45_11
# %bb.1:                                # %then.1.i.i
	movl	8(%rsp), %ecx
	movq	4(%rsi), %rdx
	movq	%rdx, 84(%rsp)
	movl	11(%rsi), %edx
	movl	%edx, 91(%rsp)
	movb	%al, 95(%rsp)
	movl	%ecx, 80(%rsp)
	leaq	80(%rsp), %rdx
	movl	$1, %ecx
	movq	%r10, %rsi
	callq	_gcm_v2.aes_permute.blocks.process_on_lanes
	testq	%r14, %r14
	je	Lgcm_v2_BB45_41
# %bb.2:                                # %then.1.i.i
	cmpq	$16, %r14
	jne	Lgcm_v2_BB45_3
# %bb.42:                               # %after.4.i.thread.i.i.i
	movups	(%rbx), %xmm0
	xorps	80(%rsp), %xmm0
	movups	%xmm0, (%rbx)
	jmp	Lgcm_v2_BB45_41
Lgcm_v2_BB45_11:                              # %else.2.i.i
	movq	%r14, %rax
	shrq	$4, %rax
	movl	%r14d, %ecx
	andl	$15, %ecx
	cmpq	$1, %rcx
	sbbq	$-1, %rax
	leaq	8(%rsp), %rcx
	movq	%rcx, 48(%rsp)
	movq	$0, 56(%rsp)
	movq	%rbx, 64(%rsp)
	movq	%r14, 72(%rsp)
	cmpq	$8, %rax
	jb	Lgcm_v2_BB45_13
# %bb.12:                               # %then.1.i.i.i
	leaq	48(%rsp), %r8
	movq	%r10, %rsi
	movq	%rdi, %rdx
	movq	%r10, %rcx
	callq	_gcm_v2.aes_hybrid.closures.lend_planes.2
	jmp	Lgcm_v2_BB45_41
Lgcm_v2_BB45_13:                              # %join.3.i.i.i.i
	leaq	84(%rsp), %rsi
	cmpq	$64, %r14
	movq	%rdi, 24(%rsp)                  # 8-byte Spill
	movq	%r10, (%rsp)                    # 8-byte Spill
	movq	%r14, 32(%rsp)                  # 8-byte Spill
	jb	Lgcm_v2_BB45_14
# %bb.19:                               # %join.11.lr.ph.i.i.i.i
	leaq	144(%rsp), %r15
	movl	8(%rsp), %ebp
	xorl	%r13d, %r13d
	.p2align	4
Lgcm_v2_BB45_20:                              # %join.11.i.i.i.i
                                        # =>This Inner Loop Header: Depth=1
	movq	%r13, %r12
	addq	$64, %r13
	xorps	%xmm0, %xmm0
	movaps	%xmm0, 176(%r15)
	movaps	%xmm0, 160(%r15)
	movaps	%xmm0, 144(%r15)
	movaps	%xmm0, 128(%r15)
	movaps	%xmm0, 112(%r15)
	movaps	%xmm0, 96(%r15)
	movaps	%xmm0, 80(%r15)
	movaps	%xmm0, 64(%r15)
	movaps	%xmm0, 48(%r15)
	movaps	%xmm0, 32(%r15)
	movaps	%xmm0, 16(%r15)
	movaps	%xmm0, (%r15)
	movl	%ebp, 80(%rsp)
	leaq	12(%rsp), %rcx
	movl	8(%rcx), %eax
	movl	%eax, 8(%rsi)
	movq	(%rcx), %rax
	movq	%rax, (%rsi)
	leal	1(%rbp), %eax
	movl	%eax, 96(%rsp)
	movl	8(%rcx), %eax
	movl	%eax, 24(%rsi)
	movq	(%rcx), %rax
	movq	%rax, 16(%rsi)
	leal	2(%rbp), %eax
	movl	%eax, 112(%rsp)
	movl	8(%rcx), %eax
	movl	%eax, 40(%rsi)
	movq	(%rcx), %rax
	movq	%rax, 32(%rsi)
	leal	3(%rbp), %eax
	movl	%eax, 128(%rsp)
	movl	8(%rcx), %eax
	movl	%eax, 56(%rsi)
	movq	(%rcx), %rax
	movq	%rax, 48(%rsi)
	leaq	80(%rsp), %rdx
	movl	$4, %ecx
	movq	%r10, %rsi
	callq	_gcm_v2.aes_permute.blocks.process_on_lanes
	leaq	84(%rsp), %rsi
	movq	(%rsp), %r10                    # 8-byte Reload
	movq	24(%rsp), %rdi                  # 8-byte Reload
	movups	(%rbx,%r12), %xmm0
	movups	16(%rbx,%r12), %xmm1
	movups	32(%rbx,%r12), %xmm2
	xorps	80(%rsp), %xmm0
	movups	48(%rbx,%r12), %xmm3
	movups	%xmm0, (%rbx,%r12)
	xorps	96(%rsp), %xmm1
	movups	%xmm1, 16(%rbx,%r12)
	xorps	112(%rsp), %xmm2
	movups	%xmm2, 32(%rbx,%r12)
	xorps	128(%rsp), %xmm3
	movups	%xmm3, 48(%rbx,%r12)
	addq	$-64, %r14
	addl	$4, %ebp
	cmpq	$63, %r14
	ja	Lgcm_v2_BB45_20
# %bb.15:                               # %loop.13.preheader.i.i.i.i
	movq	32(%rsp), %r12                  # 8-byte Reload
	cmpq	%r12, %r13
	jb	Lgcm_v2_BB45_16
	jmp	Lgcm_v2_BB45_41
Lgcm_v2_BB45_3:                               # %iter.check23
	cmpq	$4, %r14
	jae	Lgcm_v2_BB45_5
# %bb.4:
	xorl	%eax, %eax
	jmp	Lgcm_v2_BB45_10
Lgcm_v2_BB45_14:
	xorl	%r13d, %r13d
	movq	32(%rsp), %r12                  # 8-byte Reload
	cmpq	%r12, %r13
	jae	Lgcm_v2_BB45_41
Lgcm_v2_BB45_16:                              # %join.16.i.i.i.preheader.i
	leaq	144(%rsp), %r15
	movl	8(%rsp), %eax
	movq	%rax, 40(%rsp)                  # 8-byte Spill
	jmp	Lgcm_v2_BB45_17
	.p2align	4
Lgcm_v2_BB45_40:                              # %"aes_ctr::add_in_batches::add_next::<#67adacb97a8afb93>.exit.i"
                                        #   in Loop: Header=BB45_17 Depth=1
	addq	%r14, %r13
	cmpq	%r12, %r13
	leaq	84(%rsp), %rsi
	jae	Lgcm_v2_BB45_41
Lgcm_v2_BB45_17:                              # %join.16.i.i.i.i
                                        # =>This Loop Header: Depth=1
                                        #     Child Loop BB45_27 Depth 2
                                        #     Child Loop BB45_25 Depth 2
                                        #     Child Loop BB45_31 Depth 2
                                        #     Child Loop BB45_38 Depth 2
	movl	%r13d, %ebp
	andl	$15, %ebp
	movl	$64, %eax
	subq	%rbp, %rax
	movq	%r12, %r14
	subq	%r13, %r14
	cmpq	%rax, %r14
	cmovaeq	%rax, %r14
	leal	(%r14,%rbp), %ecx
	addl	$15, %ecx
	shrl	$4, %ecx
	movq	%r13, %rax
	shrq	$4, %rax
	xorps	%xmm0, %xmm0
	movups	%xmm0, 176(%r15)
	movups	%xmm0, 160(%r15)
	movups	%xmm0, 144(%r15)
	movups	%xmm0, 128(%r15)
	movups	%xmm0, 112(%r15)
	movups	%xmm0, 96(%r15)
	movups	%xmm0, 80(%r15)
	movups	%xmm0, 64(%r15)
	movups	%xmm0, 48(%r15)
	movups	%xmm0, 32(%r15)
	movups	%xmm0, 16(%r15)
	movups	%xmm0, (%r15)
	movq	40(%rsp), %r8                   # 8-byte Reload
	leal	(%r8,%rax), %edx
	movl	%edx, 80(%rsp)
	leaq	12(%rsp), %r9
	movl	8(%r9), %edx
	movl	%edx, 8(%rsi)
	movq	(%r9), %rdx
	movq	%rdx, (%rsi)
	leal	1(%r8,%rax), %edx
	movl	%edx, 96(%rsp)
	movl	8(%r9), %edx
	movl	%edx, 24(%rsi)
	movq	(%r9), %rdx
	movq	%rdx, 16(%rsi)
	leal	2(%r8,%rax), %edx
	movl	%edx, 112(%rsp)
	movl	8(%r9), %edx
	movl	%edx, 40(%rsi)
	movq	(%r9), %rdx
	movq	%rdx, 32(%rsi)
	leal	3(%r8,%rax), %eax
	movl	%eax, 128(%rsp)
	movl	8(%r9), %eax
	movl	%eax, 56(%rsi)
	movq	(%r9), %rax
	movq	%rax, 48(%rsi)
	leaq	80(%rsp), %rdx
	movq	%r10, %rsi
	callq	_gcm_v2.aes_permute.blocks.process_on_lanes
	leaq	(%rbx,%r13), %rax
	testq	%rbp, %rbp
	je	Lgcm_v2_BB45_18
# %bb.21:                               # %then.1.i.i2.i
                                        #   in Loop: Header=BB45_17 Depth=1
	movl	$16, %ecx
	subq	%rbp, %rcx
	cmpq	%rcx, %r14
	cmovbq	%r14, %rcx
	cmpq	%r13, %r12
	je	Lgcm_v2_BB45_29
# %bb.22:                               # %join.8.i80.lr.ph.i.i
                                        #   in Loop: Header=BB45_17 Depth=1
	movl	%ecx, %edx
	andl	$3, %edx
	cmpq	$4, %rcx
	jae	Lgcm_v2_BB45_26
# %bb.23:                               #   in Loop: Header=BB45_17 Depth=1
	xorl	%esi, %esi
	jmp	Lgcm_v2_BB45_24
	.p2align	4
Lgcm_v2_BB45_18:                              #   in Loop: Header=BB45_17 Depth=1
	xorl	%ecx, %ecx
Lgcm_v2_BB45_29:                              #   in Loop: Header=BB45_17 Depth=1
	movq	(%rsp), %r10                    # 8-byte Reload
	jmp	Lgcm_v2_BB45_30
Lgcm_v2_BB45_26:                              # %join.8.i80.lr.ph.i.i.new
                                        #   in Loop: Header=BB45_17 Depth=1
	movl	%ecx, %edi
	andl	$28, %edi
	leaq	83(%rsp), %rsi
	leaq	(%rsi,%rbp), %r8
	leaq	3(%rbx), %rsi
	leaq	(%rsi,%r13), %r9
	xorl	%esi, %esi
	.p2align	4
Lgcm_v2_BB45_27:                              # %join.8.i80.i.i
                                        #   Parent Loop BB45_17 Depth=1
                                        # =>  This Inner Loop Header: Depth=2
	movzbl	-3(%r8,%rsi), %r10d
	xorb	%r10b, -3(%r9,%rsi)
	movzbl	-2(%r8,%rsi), %r10d
	xorb	%r10b, -2(%r9,%rsi)
	movzbl	-1(%r8,%rsi), %r10d
	xorb	%r10b, -1(%r9,%rsi)
	movzbl	(%r8,%rsi), %r10d
	xorb	%r10b, (%r9,%rsi)
	addq	$4, %rsi
	cmpq	%rsi, %rdi
	jne	Lgcm_v2_BB45_27
# %bb.28:                               # %join.3.i.i.i.loopexit.unr-lcssa
                                        #   in Loop: Header=BB45_17 Depth=1
	testq	%rdx, %rdx
	je	Lgcm_v2_BB45_29
Lgcm_v2_BB45_24:                              # %join.8.i80.i.i.epil.preheader
                                        #   in Loop: Header=BB45_17 Depth=1
	leaq	(%rax,%rsi), %rdi
	addq	%rbp, %rsi
	addq	%rsp, %rsi
	addq	$80, %rsi
	xorl	%r8d, %r8d
	movq	(%rsp), %r10                    # 8-byte Reload
	.p2align	4
Lgcm_v2_BB45_25:                              # %join.8.i80.i.i.epil
                                        #   Parent Loop BB45_17 Depth=1
                                        # =>  This Inner Loop Header: Depth=2
	movzbl	(%rsi,%r8), %r9d
	xorb	%r9b, (%rdi,%r8)
	incq	%r8
	cmpq	%r8, %rdx
	jne	Lgcm_v2_BB45_25
Lgcm_v2_BB45_30:                              # %join.3.i.i.i
                                        #   in Loop: Header=BB45_17 Depth=1
	movq	%r14, %rdx
	subq	%rcx, %rdx
	cmpq	$16, %rdx
	movq	24(%rsp), %rdi                  # 8-byte Reload
	jb	Lgcm_v2_BB45_32
	.p2align	4
Lgcm_v2_BB45_31:                              # %join.8.i.i.i
                                        #   Parent Loop BB45_17 Depth=1
                                        # =>  This Inner Loop Header: Depth=2
	leaq	(%rcx,%rbp), %rsi
	andq	$-16, %rsi
	movups	(%rax,%rcx), %xmm0
	movups	80(%rsp,%rsi), %xmm1
	xorps	%xmm0, %xmm1
	movups	%xmm1, (%rax,%rcx)
	addq	$16, %rcx
	addq	$-16, %rdx
	cmpq	$15, %rdx
	ja	Lgcm_v2_BB45_31
Lgcm_v2_BB45_32:                              # %after.4.i.i.i
                                        #   in Loop: Header=BB45_17 Depth=1
	cmpq	%r14, %rcx
	jae	Lgcm_v2_BB45_40
# %bb.33:                               # %then.9.i.i.i
                                        #   in Loop: Header=BB45_17 Depth=1
	testq	%rdx, %rdx
	je	Lgcm_v2_BB45_40
# %bb.34:                               # %iter.check
                                        #   in Loop: Header=BB45_17 Depth=1
	addq	%rcx, %rbp
	andq	$-16, %rbp
	leaq	(%rsp,%rbp), %rsi
	addq	$80, %rsi
	addq	%rcx, %rax
	cmpq	$4, %rdx
	jae	Lgcm_v2_BB45_37
# %bb.35:                               #   in Loop: Header=BB45_17 Depth=1
	xorl	%ecx, %ecx
	jmp	Lgcm_v2_BB45_36
Lgcm_v2_BB45_37:                              # %vec.epilog.ph
                                        #   in Loop: Header=BB45_17 Depth=1
	movl	%edx, %ecx
	andl	$12, %ecx
	xorl	%r9d, %r9d
	.p2align	4
Lgcm_v2_BB45_38:                              # %vec.epilog.vector.body
                                        #   Parent Loop BB45_17 Depth=1
                                        # =>  This Inner Loop Header: Depth=2
	movl	(%rsi,%r9), %r8d
	xorl	%r8d, (%rax,%r9)
	addq	$4, %r9
	cmpq	%r9, %rcx
	jne	Lgcm_v2_BB45_38
	jmp	Lgcm_v2_BB45_39
	.p2align	4
Lgcm_v2_BB45_36:                              # %join.8.i23.i.i
                                        #   in Loop: Header=BB45_17 Depth=1
	movzbl	(%rsi,%rcx), %r8d
	xorb	%r8b, (%rax,%rcx)
	incq	%rcx
Lgcm_v2_BB45_39:                              # %join.8.i23.i.i
                                        #   in Loop: Header=BB45_17 Depth=1
	cmpq	%rcx, %rdx
	jne	Lgcm_v2_BB45_36
	jmp	Lgcm_v2_BB45_40
Lgcm_v2_BB45_5:                               # %vec.epilog.ph42
	movl	%r14d, %eax
	andl	$28, %eax
	movss	(%rbx), %xmm0                   # xmm0 = mem[0],zero,zero,zero
	xorps	80(%rsp), %xmm0
	movss	%xmm0, (%rbx)
	cmpq	$4, %rax
	je	Lgcm_v2_BB45_9
# %bb.6:                                # %vec.epilog.vector.body45.1
	movl	84(%rsp), %ecx
	xorl	%ecx, 4(%rbx)
	cmpl	$8, %eax
	je	Lgcm_v2_BB45_9
# %bb.7:                                # %vec.epilog.vector.body45.2
	movsd	88(%rsp), %xmm0                 # xmm0 = mem[0],zero
	movss	8(%rbx), %xmm1                  # xmm1 = mem[0],zero,zero,zero
	xorps	%xmm0, %xmm1
	movss	%xmm1, 8(%rbx)
	cmpl	$12, %eax
	je	Lgcm_v2_BB45_9
# %bb.8:                                # %vec.epilog.vector.body45.3
	movl	92(%rsp), %ecx
	xorl	%ecx, 12(%rbx)
Lgcm_v2_BB45_9:                               # %vec.epilog.middle.block50
	cmpq	%rax, %r14
	je	Lgcm_v2_BB45_41
Lgcm_v2_BB45_10:                              # %join.8.i6.i.i.i
	movzbl	80(%rsp,%rax), %ecx
	xorb	%cl, (%rbx,%rax)
	incq	%rax
	jmp	Lgcm_v2_BB45_9
Lgcm_v2_BB45_41:                              # %"gcm_siv::counters::add_keystream::<#ed3b81e0963a9ab3>.exit"
	addq	$344, %rsp                      # imm = 0x158
	popq	%rbx
	popq	%r12
	popq	%r13
	popq	%r14
	popq	%r15
	popq	%rbp
	retq
                                        # -- End function
	.section	__TEXT,__text,regular,pure_instructions
	.p2align	4                               # -- Begin function aes_hybrid::closures::lend_planes::<#4eff1f6a6667429a>
_gcm_v2.aes_hybrid.closures.lend_planes.2: # @_gcm_v2.aes_hybrid.closures.lend_planes.2
# %bb.0:                                # %start
	pushq	%rbp
	pushq	%r15
	pushq	%r14
	pushq	%r13
	pushq	%r12
	pushq	%rbx
	subq	$1976, %rsp                     # imm = 0x7B8
	movq	%r8, 8(%rsp)                    # 8-byte Spill
	movq	%rcx, %r14
	movq	%rdx, %r15
	movq	%rsi, %r12
	movq	%rdi, %r13
	leaq	176(%rsp), %rdi
	movl	$1792, %edx                     # imm = 0x700
	xorl	%esi, %esi
	callq	*_memset@GOTPCREL(%rip)
	leaq	(,%r12,8), %rbp
	leaq	48(%rsp), %rbx
	movq	%rbx, %rdi
	movq	%r13, %rsi
	movq	%r12, %rdx
	callq	_gcm_v2.aes_hybrid.plane_keys.store_planes
	movq	%r13, 16(%rsp)
	movq	%r12, 24(%rsp)
	movq	%r15, 32(%rsp)
	movq	%r14, 40(%rsp)
	leaq	16(%rsp), %rdi
	movq	%rbx, %rsi
	movq	%rbp, %rdx
	movq	8(%rsp), %rcx                   # 8-byte Reload
	callq	_gcm_v2.aes_hybrid.closures.call_to_work.2
	movq	%rbx, %rdi
	callq	_gcm_v2.aes_cipher.zeroize.zeroize_words
	callq	_gcm_v2.aes_cipher.zeroize.stack.wipe_stack.2032
	addq	$1976, %rsp                     # imm = 0x7B8
	popq	%rbx
	popq	%r12
	popq	%r13
	popq	%r14
	popq	%r15
	popq	%rbp
	retq
                                        # -- End function
	.section	__TEXT,__const
	.p2align	4, 0x0                          # -- Begin function aes_hybrid::closures::call_to_work::<#4eff1f6a6667429a>
l_gcm_v2_CPI47_0:
	.byte	0                               # 0x0
	.byte	8                               # 0x8
	.byte	1                               # 0x1
	.byte	9                               # 0x9
	.byte	2                               # 0x2
	.byte	10                              # 0xa
	.byte	3                               # 0x3
	.byte	11                              # 0xb
	.byte	4                               # 0x4
	.byte	12                              # 0xc
	.byte	5                               # 0x5
	.byte	13                              # 0xd
	.byte	6                               # 0x6
	.byte	14                              # 0xe
	.byte	7                               # 0x7
	.byte	15                              # 0xf
l_gcm_v2_CPI47_1:
	.zero	16,85
l_gcm_v2_CPI47_2:
	.zero	16,51
l_gcm_v2_CPI47_3:
	.zero	16,15
l_gcm_v2_CPI47_4:
	.byte	0                               # 0x0
	.byte	4                               # 0x4
	.byte	8                               # 0x8
	.byte	12                              # 0xc
	.byte	1                               # 0x1
	.byte	5                               # 0x5
	.byte	9                               # 0x9
	.byte	13                              # 0xd
	.byte	2                               # 0x2
	.byte	6                               # 0x6
	.byte	10                              # 0xa
	.byte	14                              # 0xe
	.byte	3                               # 0x3
	.byte	7                               # 0x7
	.byte	11                              # 0xb
	.byte	15                              # 0xf
	.section	__TEXT,__text,regular,pure_instructions
	.p2align	4
_gcm_v2.aes_hybrid.closures.call_to_work.2: # @_gcm_v2.aes_hybrid.closures.call_to_work.2
# %bb.0:                                # %start
	pushq	%rbp
	pushq	%r15
	pushq	%r14
	pushq	%r13
	pushq	%r12
	pushq	%rbx
	subq	$184, %rsp
	movq	%rdx, %r8
	movq	%rsi, %r13
	movq	%rdi, 24(%rsp)
	movq	%rsi, 32(%rsp)
	movq	%rdx, 40(%rsp)
	movq	(%rcx), %rbx
	movq	8(%rcx), %rdx
	movq	24(%rcx), %r15
	movq	16(%rcx), %r12
	testb	$15, %dl
	je	Lgcm_v2_BB47_1
# %bb.2:                                # %then.1.i.i
	leaq	24(%rsp), %rdi
	movq	%rbx, %rsi
	movq	%rdx, %rbp
	xorl	%ecx, %ecx
	movq	%r8, %r14
	movq	%r12, %r8
	movq	%r15, %r9
	callq	_gcm_v2.aes_ctr.add_in_batches.add_next.3
	movq	%r14, %r8
	movq	%rax, %r14
	jmp	Lgcm_v2_BB47_3
Lgcm_v2_BB47_1:
	movq	%rdx, %rbp
	xorl	%r14d, %r14d
Lgcm_v2_BB47_3:                               # %join.3.i.i
	movq	%r15, 8(%rsp)                   # 8-byte Spill
	movq	%r15, %rax
	subq	%r14, %rax
	cmpq	$128, %rax
	movq	%rbp, (%rsp)                    # 8-byte Spill
	jb	Lgcm_v2_BB47_6
# %bb.4:                                # %join.11.lr.ph.i.i
	shrq	$3, %r8
	decq	%r8
	.p2align	4
Lgcm_v2_BB47_5:                               # %join.11.i.i
                                        # =>This Inner Loop Header: Depth=1
	movq	%rax, 16(%rsp)                  # 8-byte Spill
	movq	%r14, %rbp
	movq	(%rsp), %rax                    # 8-byte Reload
	addq	%r14, %rax
	shrq	$4, %rax
	movl	(%rbx), %ecx
	leal	(%rax,%rcx), %edx
	movd	%edx, %xmm3
	movl	%edx, %esi
	shrl	$8, %esi
	pinsrb	$1, %esi, %xmm3
	movl	%edx, %esi
	shrl	$16, %esi
	shrl	$24, %edx
	pinsrb	$2, %esi, %xmm3
	leal	(%rcx,%rax), %esi
	incl	%esi
	pinsrb	$3, %edx, %xmm3
	movd	%esi, %xmm1
	movl	%esi, %edx
	shrl	$8, %edx
	pinsrb	$1, %edx, %xmm1
	movl	%esi, %edx
	shrl	$16, %edx
	shrl	$24, %esi
	pinsrb	$2, %edx, %xmm1
	pinsrb	$3, %esi, %xmm1
	leal	(%rcx,%rax), %edx
	addl	$2, %edx
	movd	%edx, %xmm5
	movl	%edx, %esi
	shrl	$8, %esi
	pinsrb	$1, %esi, %xmm5
	movl	%edx, %esi
	shrl	$16, %esi
	shrl	$24, %edx
	pinsrb	$2, %esi, %xmm5
	leal	(%rcx,%rax), %esi
	addl	$3, %esi
	pinsrb	$3, %edx, %xmm5
	movd	%esi, %xmm0
	movl	%esi, %edx
	shrl	$8, %edx
	pinsrb	$1, %edx, %xmm0
	movl	%esi, %edx
	shrl	$16, %edx
	shrl	$24, %esi
	pinsrb	$2, %edx, %xmm0
	pinsrb	$3, %esi, %xmm0
	leal	(%rcx,%rax), %edx
	addl	$4, %edx
	movd	%edx, %xmm6
	movl	%edx, %esi
	shrl	$8, %esi
	pinsrb	$1, %esi, %xmm6
	movl	%edx, %esi
	shrl	$16, %esi
	shrl	$24, %edx
	pinsrb	$2, %esi, %xmm6
	leal	(%rcx,%rax), %esi
	addl	$5, %esi
	pinsrb	$3, %edx, %xmm6
	leal	6(%rcx,%rax), %edx
	addl	%ecx, %eax
	addl	$7, %eax
	movd	%esi, %xmm4
	movl	%esi, %ecx
	shrl	$8, %ecx
	pinsrb	$1, %ecx, %xmm4
	movl	%esi, %ecx
	shrl	$16, %ecx
	pinsrb	$2, %ecx, %xmm4
	shrl	$24, %esi
	pinsrb	$3, %esi, %xmm4
	movd	%edx, %xmm7
	movl	%edx, %ecx
	shrl	$8, %ecx
	pinsrb	$1, %ecx, %xmm7
	movl	%edx, %ecx
	shrl	$16, %ecx
	pinsrb	$2, %ecx, %xmm7
	shrl	$24, %edx
	pinsrb	$3, %edx, %xmm7
	movd	%eax, %xmm2
	movl	%eax, %ecx
	shrl	$8, %ecx
	pinsrb	$1, %ecx, %xmm2
	movl	%eax, %ecx
	shrl	$16, %ecx
	pinsrb	$2, %ecx, %xmm2
	shrl	$24, %eax
	pinsrb	$3, %eax, %xmm2
	addq	$128, %r14
	movd	4(%rbx), %xmm8                  # xmm8 = mem[0],zero,zero,zero
	movq	8(%rbx), %xmm9                  # xmm9 = mem[0],zero
	punpckldq	%xmm8, %xmm3            # xmm3 = xmm3[0],xmm8[0],xmm3[1],xmm8[1]
	punpcklbw	%xmm9, %xmm3            # xmm3 = xmm3[0],xmm9[0],xmm3[1],xmm9[1],xmm3[2],xmm9[2],xmm3[3],xmm9[3],xmm3[4],xmm9[4],xmm3[5],xmm9[5],xmm3[6],xmm9[6],xmm3[7],xmm9[7]
	movdqa	l_gcm_v2_CPI47_0(%rip), %xmm10         # xmm10 = [0,8,1,9,2,10,3,11,4,12,5,13,6,14,7,15]
	pshufb	%xmm10, %xmm3
	punpckldq	%xmm8, %xmm1            # xmm1 = xmm1[0],xmm8[0],xmm1[1],xmm8[1]
	punpcklbw	%xmm9, %xmm1            # xmm1 = xmm1[0],xmm9[0],xmm1[1],xmm9[1],xmm1[2],xmm9[2],xmm1[3],xmm9[3],xmm1[4],xmm9[4],xmm1[5],xmm9[5],xmm1[6],xmm9[6],xmm1[7],xmm9[7]
	pshufb	%xmm10, %xmm1
	punpckldq	%xmm8, %xmm5            # xmm5 = xmm5[0],xmm8[0],xmm5[1],xmm8[1]
	punpcklbw	%xmm9, %xmm5            # xmm5 = xmm5[0],xmm9[0],xmm5[1],xmm9[1],xmm5[2],xmm9[2],xmm5[3],xmm9[3],xmm5[4],xmm9[4],xmm5[5],xmm9[5],xmm5[6],xmm9[6],xmm5[7],xmm9[7]
	pshufb	%xmm10, %xmm5
	punpckldq	%xmm8, %xmm0            # xmm0 = xmm0[0],xmm8[0],xmm0[1],xmm8[1]
	punpcklbw	%xmm9, %xmm0            # xmm0 = xmm0[0],xmm9[0],xmm0[1],xmm9[1],xmm0[2],xmm9[2],xmm0[3],xmm9[3],xmm0[4],xmm9[4],xmm0[5],xmm9[5],xmm0[6],xmm9[6],xmm0[7],xmm9[7]
	pshufb	%xmm10, %xmm0
	punpckldq	%xmm8, %xmm6            # xmm6 = xmm6[0],xmm8[0],xmm6[1],xmm8[1]
	punpcklbw	%xmm9, %xmm6            # xmm6 = xmm6[0],xmm9[0],xmm6[1],xmm9[1],xmm6[2],xmm9[2],xmm6[3],xmm9[3],xmm6[4],xmm9[4],xmm6[5],xmm9[5],xmm6[6],xmm9[6],xmm6[7],xmm9[7]
	pshufb	%xmm10, %xmm6
	punpckldq	%xmm8, %xmm4            # xmm4 = xmm4[0],xmm8[0],xmm4[1],xmm8[1]
	punpcklbw	%xmm9, %xmm4            # xmm4 = xmm4[0],xmm9[0],xmm4[1],xmm9[1],xmm4[2],xmm9[2],xmm4[3],xmm9[3],xmm4[4],xmm9[4],xmm4[5],xmm9[5],xmm4[6],xmm9[6],xmm4[7],xmm9[7]
	pshufb	%xmm10, %xmm4
	punpckldq	%xmm8, %xmm7            # xmm7 = xmm7[0],xmm8[0],xmm7[1],xmm8[1]
	punpcklbw	%xmm9, %xmm7            # xmm7 = xmm7[0],xmm9[0],xmm7[1],xmm9[1],xmm7[2],xmm9[2],xmm7[3],xmm9[3],xmm7[4],xmm9[4],xmm7[5],xmm9[5],xmm7[6],xmm9[6],xmm7[7],xmm9[7]
	pshufb	%xmm10, %xmm7
	punpckldq	%xmm8, %xmm2            # xmm2 = xmm2[0],xmm8[0],xmm2[1],xmm8[1]
	punpcklbw	%xmm9, %xmm2            # xmm2 = xmm2[0],xmm9[0],xmm2[1],xmm9[1],xmm2[2],xmm9[2],xmm2[3],xmm9[3],xmm2[4],xmm9[4],xmm2[5],xmm9[5],xmm2[6],xmm9[6],xmm2[7],xmm9[7]
	pshufb	%xmm10, %xmm2
	movdqa	%xmm3, %xmm8
	psrlw	$1, %xmm8
	pxor	%xmm1, %xmm8
	movdqa	l_gcm_v2_CPI47_1(%rip), %xmm10         # xmm10 = [85,85,85,85,85,85,85,85,85,85,85,85,85,85,85,85]
	pand	%xmm10, %xmm8
	pxor	%xmm8, %xmm1
	paddb	%xmm8, %xmm8
	pxor	%xmm3, %xmm8
	movdqa	%xmm5, %xmm3
	psrlw	$1, %xmm3
	pxor	%xmm0, %xmm3
	pand	%xmm10, %xmm3
	pxor	%xmm3, %xmm0
	paddb	%xmm3, %xmm3
	pxor	%xmm5, %xmm3
	movdqa	%xmm6, %xmm9
	psrlw	$1, %xmm9
	pxor	%xmm4, %xmm9
	pand	%xmm10, %xmm9
	pxor	%xmm9, %xmm4
	paddb	%xmm9, %xmm9
	pxor	%xmm6, %xmm9
	movdqa	%xmm7, %xmm5
	psrlw	$1, %xmm5
	pxor	%xmm2, %xmm5
	pand	%xmm10, %xmm5
	pxor	%xmm5, %xmm2
	paddb	%xmm5, %xmm5
	pxor	%xmm7, %xmm5
	movdqa	%xmm8, %xmm7
	psrlw	$2, %xmm7
	pxor	%xmm3, %xmm7
	movdqa	l_gcm_v2_CPI47_2(%rip), %xmm10         # xmm10 = [51,51,51,51,51,51,51,51,51,51,51,51,51,51,51,51]
	pand	%xmm10, %xmm7
	pxor	%xmm7, %xmm3
	psllw	$2, %xmm7
	pxor	%xmm8, %xmm7
	movdqa	%xmm9, %xmm6
	psrlw	$2, %xmm6
	pxor	%xmm5, %xmm6
	pand	%xmm10, %xmm6
	pxor	%xmm6, %xmm5
	psllw	$2, %xmm6
	pxor	%xmm9, %xmm6
	movdqa	%xmm1, %xmm8
	psrlw	$2, %xmm8
	pxor	%xmm0, %xmm8
	pand	%xmm10, %xmm8
	pxor	%xmm8, %xmm0
	psllw	$2, %xmm8
	pxor	%xmm1, %xmm8
	movdqa	%xmm4, %xmm1
	psrlw	$2, %xmm1
	pxor	%xmm2, %xmm1
	pand	%xmm10, %xmm1
	pxor	%xmm1, %xmm2
	psllw	$2, %xmm1
	pxor	%xmm4, %xmm1
	movdqa	%xmm7, %xmm4
	psrlw	$4, %xmm4
	movdqa	l_gcm_v2_CPI47_3(%rip), %xmm9          # xmm9 = [15,15,15,15,15,15,15,15,15,15,15,15,15,15,15,15]
	pxor	%xmm6, %xmm4
	pand	%xmm9, %xmm4
	pxor	%xmm4, %xmm6
	psllw	$4, %xmm4
	pxor	%xmm7, %xmm4
	movdqa	%xmm8, %xmm7
	psrlw	$4, %xmm7
	pxor	%xmm1, %xmm7
	pand	%xmm9, %xmm7
	pxor	%xmm7, %xmm1
	psllw	$4, %xmm7
	pxor	%xmm8, %xmm7
	movdqa	%xmm3, %xmm8
	psrlw	$4, %xmm8
	pxor	%xmm5, %xmm8
	pand	%xmm9, %xmm8
	pxor	%xmm8, %xmm5
	psllw	$4, %xmm8
	pxor	%xmm3, %xmm8
	movdqa	%xmm0, %xmm3
	psrlw	$4, %xmm3
	pxor	%xmm2, %xmm3
	pand	%xmm9, %xmm3
	pxor	%xmm3, %xmm2
	psllw	$4, %xmm3
	pxor	%xmm0, %xmm3
	movdqa	%xmm4, 48(%rsp)
	movdqa	%xmm7, 64(%rsp)
	movdqa	%xmm8, 80(%rsp)
	movdqa	%xmm3, 96(%rsp)
	movdqa	%xmm6, 112(%rsp)
	movdqa	%xmm1, 128(%rsp)
	movdqa	%xmm5, 144(%rsp)
	movdqa	%xmm2, 160(%rsp)
	leaq	48(%rsp), %rdx
	movq	%r13, %rdi
	movq	%r8, %rsi
	movq	%rbx, %r15
	movq	%r13, %rbx
	movq	%r8, %r13
	callq	_gcm_v2.aes_soft.soft.ciphers.planes.EncryptPlaneCipher.process_planes
	movq	16(%rsp), %rax                  # 8-byte Reload
	movq	%r13, %r8
	movq	%rbx, %r13
	movq	%r15, %rbx
	movdqa	48(%rsp), %xmm1
	movdqa	64(%rsp), %xmm6
	movdqa	80(%rsp), %xmm10
	movdqa	96(%rsp), %xmm2
	movdqa	112(%rsp), %xmm4
	movdqa	128(%rsp), %xmm5
	movdqa	144(%rsp), %xmm7
	movdqa	160(%rsp), %xmm0
	movdqa	%xmm1, %xmm8
	psrlw	$1, %xmm8
	pxor	%xmm6, %xmm8
	movdqa	l_gcm_v2_CPI47_1(%rip), %xmm11         # xmm11 = [85,85,85,85,85,85,85,85,85,85,85,85,85,85,85,85]
	pand	%xmm11, %xmm8
	pxor	%xmm8, %xmm6
	movdqa	%xmm10, %xmm3
	paddb	%xmm8, %xmm8
	psrlw	$1, %xmm3
	pxor	%xmm2, %xmm3
	pand	%xmm11, %xmm3
	pxor	%xmm3, %xmm2
	movdqa	%xmm4, %xmm9
	psrlw	$1, %xmm9
	pxor	%xmm5, %xmm9
	paddb	%xmm3, %xmm3
	pand	%xmm11, %xmm9
	pxor	%xmm9, %xmm5
	paddb	%xmm9, %xmm9
	pxor	%xmm1, %xmm8
	movdqa	%xmm7, %xmm1
	psrlw	$1, %xmm1
	pxor	%xmm0, %xmm1
	pxor	%xmm10, %xmm3
	pand	%xmm11, %xmm1
	pxor	%xmm1, %xmm0
	paddb	%xmm1, %xmm1
	pxor	%xmm4, %xmm9
	pxor	%xmm7, %xmm1
	movdqa	%xmm8, %xmm7
	psrlw	$2, %xmm7
	pxor	%xmm3, %xmm7
	movdqa	l_gcm_v2_CPI47_2(%rip), %xmm11         # xmm11 = [51,51,51,51,51,51,51,51,51,51,51,51,51,51,51,51]
	pand	%xmm11, %xmm7
	pxor	%xmm7, %xmm3
	movdqa	%xmm9, %xmm4
	psllw	$2, %xmm7
	psrlw	$2, %xmm4
	pxor	%xmm1, %xmm4
	pand	%xmm11, %xmm4
	pxor	%xmm4, %xmm1
	movdqa	%xmm6, %xmm10
	psrlw	$2, %xmm10
	pxor	%xmm2, %xmm10
	psllw	$2, %xmm4
	pand	%xmm11, %xmm10
	pxor	%xmm10, %xmm2
	psllw	$2, %xmm10
	pxor	%xmm6, %xmm10
	movdqa	%xmm5, %xmm6
	psrlw	$2, %xmm6
	pxor	%xmm0, %xmm6
	pxor	%xmm8, %xmm7
	pand	%xmm11, %xmm6
	pxor	%xmm6, %xmm0
	psllw	$2, %xmm6
	pxor	%xmm9, %xmm4
	pxor	%xmm5, %xmm6
	movdqa	%xmm7, %xmm5
	psrlw	$4, %xmm5
	pxor	%xmm4, %xmm5
	movdqa	%xmm10, %xmm8
	psrlw	$4, %xmm8
	pxor	%xmm6, %xmm8
	movdqa	l_gcm_v2_CPI47_3(%rip), %xmm11         # xmm11 = [15,15,15,15,15,15,15,15,15,15,15,15,15,15,15,15]
	pand	%xmm11, %xmm5
	pand	%xmm11, %xmm8
	pxor	%xmm8, %xmm6
	psllw	$4, %xmm8
	pxor	%xmm5, %xmm4
	movdqa	%xmm3, %xmm9
	psrlw	$4, %xmm9
	pxor	%xmm1, %xmm9
	psllw	$4, %xmm5
	pand	%xmm11, %xmm9
	pxor	%xmm9, %xmm1
	psllw	$4, %xmm9
	pxor	%xmm10, %xmm8
	movdqa	%xmm2, %xmm10
	psrlw	$4, %xmm10
	pxor	%xmm0, %xmm10
	pxor	%xmm3, %xmm9
	pand	%xmm11, %xmm10
	pxor	%xmm10, %xmm0
	psllw	$4, %xmm10
	pxor	%xmm7, %xmm5
	pxor	%xmm2, %xmm10
	movdqa	l_gcm_v2_CPI47_4(%rip), %xmm2          # xmm2 = [0,4,8,12,1,5,9,13,2,6,10,14,3,7,11,15]
	movdqu	(%r12,%rbp), %xmm3
	pshufb	%xmm2, %xmm5
	movdqu	16(%r12,%rbp), %xmm7
	movdqu	32(%r12,%rbp), %xmm11
	movdqu	48(%r12,%rbp), %xmm12
	pxor	%xmm5, %xmm3
	movdqu	%xmm3, (%r12,%rbp)
	pshufb	%xmm2, %xmm8
	pxor	%xmm7, %xmm8
	movdqu	%xmm8, 16(%r12,%rbp)
	pshufb	%xmm2, %xmm9
	pxor	%xmm11, %xmm9
	pshufb	%xmm2, %xmm10
	movdqu	%xmm9, 32(%r12,%rbp)
	pxor	%xmm12, %xmm10
	movdqu	%xmm10, 48(%r12,%rbp)
	movdqu	64(%r12,%rbp), %xmm3
	pshufb	%xmm2, %xmm4
	pxor	%xmm3, %xmm4
	movdqu	%xmm4, 64(%r12,%rbp)
	movdqu	80(%r12,%rbp), %xmm3
	pshufb	%xmm2, %xmm6
	pxor	%xmm3, %xmm6
	movdqu	%xmm6, 80(%r12,%rbp)
	movdqu	96(%r12,%rbp), %xmm3
	pshufb	%xmm2, %xmm1
	pxor	%xmm3, %xmm1
	movdqu	%xmm1, 96(%r12,%rbp)
	movdqu	112(%r12,%rbp), %xmm1
	pshufb	%xmm2, %xmm0
	pxor	%xmm1, %xmm0
	movdqu	%xmm0, 112(%r12,%rbp)
	addq	$-128, %rax
	cmpq	$127, %rax
	ja	Lgcm_v2_BB47_5
Lgcm_v2_BB47_6:                               # %loop.13.preheader.i.i
	movq	8(%rsp), %r13                   # 8-byte Reload
	cmpq	%r13, %r14
	movq	(%rsp), %r15                    # 8-byte Reload
	jae	Lgcm_v2_BB47_8
	.p2align	4
Lgcm_v2_BB47_7:                               # %join.16.i.i
                                        # =>This Inner Loop Header: Depth=1
	leaq	24(%rsp), %rdi
	movq	%rbx, %rsi
	movq	%r15, %rdx
	movq	%r14, %rcx
	movq	%r12, %r8
	movq	%r13, %r9
	callq	_gcm_v2.aes_ctr.add_in_batches.add_next.3
	movq	%rax, %r14
	cmpq	%r13, %rax
	jb	Lgcm_v2_BB47_7
Lgcm_v2_BB47_8:                               # %"aes_ctr::add_in_batches::AddStreamBlockCipherEncClosure::call::<#ba6e0fd4d3166cbd>.exit"
	addq	$184, %rsp
	popq	%rbx
	popq	%r12
	popq	%r13
	popq	%r14
	popq	%r15
	popq	%rbp
	retq
                                        # -- End function
	.section	__TEXT,__const
	.p2align	4, 0x0                          # -- Begin function aes_ctr::add_in_batches::add_next::<#4d6730d4b1bb99fd>
l_gcm_v2_CPI48_0:
	.byte	0                               # 0x0
	.byte	8                               # 0x8
	.byte	1                               # 0x1
	.byte	9                               # 0x9
	.byte	2                               # 0x2
	.byte	10                              # 0xa
	.byte	3                               # 0x3
	.byte	11                              # 0xb
	.byte	4                               # 0x4
	.byte	12                              # 0xc
	.byte	5                               # 0x5
	.byte	13                              # 0xd
	.byte	6                               # 0x6
	.byte	14                              # 0xe
	.byte	7                               # 0x7
	.byte	15                              # 0xf
l_gcm_v2_CPI48_1:
	.byte	0                               # 0x0
	.byte	4                               # 0x4
	.byte	8                               # 0x8
	.byte	12                              # 0xc
	.byte	1                               # 0x1
	.byte	5                               # 0x5
	.byte	9                               # 0x9
	.byte	13                              # 0xd
	.byte	2                               # 0x2
	.byte	6                               # 0x6
	.byte	10                              # 0xa
	.byte	14                              # 0xe
	.byte	3                               # 0x3
	.byte	7                               # 0x7
	.byte	11                              # 0xb
	.byte	15                              # 0xf
l_gcm_v2_CPI48_2:
	.zero	16,85
l_gcm_v2_CPI48_3:
	.zero	16,51
l_gcm_v2_CPI48_4:
	.zero	16,15
	.section	__TEXT,__text,regular,pure_instructions
	.p2align	4
_gcm_v2.aes_ctr.add_in_batches.add_next.3: # @_gcm_v2.aes_ctr.add_in_batches.add_next.3
# %bb.0:                                # %start
	pushq	%rbp
	pushq	%r15
	pushq	%r14
	pushq	%r13
	pushq	%r12
	pushq	%rbx
	subq	$392, %rsp                      # imm = 0x188
	movq	%r9, %r12
	movq	%r8, %r15
	movq	%rcx, %rbx
	addq	%rcx, %rdx
	movl	%edx, %r13d
	andl	$15, %r13d
	movl	$128, %eax
	subq	%r13, %rax
	movq	%r9, %r14
	subq	%rcx, %r14
	cmpq	%rax, %r14
	cmovaeq	%rax, %r14
	leaq	(%r14,%r13), %rcx
	shrq	$4, %rdx
	pxor	%xmm0, %xmm0
	movdqa	%xmm0, 240(%rsp)
	movdqa	%xmm0, 224(%rsp)
	movdqa	%xmm0, 208(%rsp)
	movdqa	%xmm0, 192(%rsp)
	movdqa	%xmm0, 176(%rsp)
	movdqa	%xmm0, 160(%rsp)
	movdqa	%xmm0, 144(%rsp)
	movdqa	%xmm0, 128(%rsp)
	movl	(%rsi), %r11d
	leal	(%rdx,%r11), %r10d
	movl	%r10d, (%rsp)
	movq	4(%rsi), %rax
	movq	%rax, 4(%rsp)
	movl	12(%rsi), %eax
	movl	%eax, 12(%rsp)
	leal	1(%r11,%rdx), %r9d
	movl	%r9d, 16(%rsp)
	movq	4(%rsi), %rax
	movq	%rax, 20(%rsp)
	movl	12(%rsi), %eax
	movl	%eax, 28(%rsp)
	leal	2(%r11,%rdx), %r8d
	movl	%r8d, 32(%rsp)
	movq	4(%rsi), %rax
	movq	%rax, 36(%rsp)
	movl	12(%rsi), %eax
	movl	%eax, 44(%rsp)
	leal	3(%r11,%rdx), %eax
	movl	%eax, 48(%rsp)
	movq	4(%rsi), %rbp
	movq	%rbp, 52(%rsp)
	movl	12(%rsi), %ebp
	movl	%ebp, 60(%rsp)
	leal	4(%r11,%rdx), %ebp
	movl	%ebp, 64(%rsp)
	movq	4(%rsi), %rbp
	movq	%rbp, 68(%rsp)
	movl	12(%rsi), %ebp
	movl	%ebp, 76(%rsp)
	leal	5(%r11,%rdx), %ebp
	movl	%ebp, 80(%rsp)
	movl	12(%rsi), %ebp
	movl	%ebp, 92(%rsp)
	movq	4(%rsi), %rbp
	movq	%rbp, 84(%rsp)
	leal	6(%r11,%rdx), %ebp
	movl	%ebp, 96(%rsp)
	movl	12(%rsi), %ebp
	movl	%ebp, 108(%rsp)
	movq	4(%rsi), %rbp
	movq	%rbp, 100(%rsp)
	leal	7(%r11,%rdx), %edx
	movl	%edx, 112(%rsp)
	movl	12(%rsi), %edx
	movl	%edx, 124(%rsp)
	movq	4(%rsi), %rdx
	movq	%rdx, 116(%rsp)
	cmpq	$80, %rcx
	ja	Lgcm_v2_BB48_2
# %bb.1:                                # %then.1.i.i
	addq	$15, %rcx
	shrq	$4, %rcx
	movq	(%rdi), %rax
	movq	16(%rax), %rdi
	movq	24(%rax), %rsi
	movq	%rsp, %rdx
	callq	_gcm_v2.aes_permute.blocks.process_on_lanes
	leaq	(%r15,%rbx), %rax
	testq	%r13, %r13
	je	Lgcm_v2_BB48_4
Lgcm_v2_BB48_5:                               # %then.1.i
	movl	$16, %ecx
	subq	%r13, %rcx
	cmpq	%rcx, %r14
	cmovbq	%r14, %rcx
	cmpq	%rbx, %r12
	je	Lgcm_v2_BB48_13
# %bb.6:                                # %join.8.i80.lr.ph
	movl	%ecx, %edx
	andl	$3, %edx
	cmpq	$4, %rcx
	jae	Lgcm_v2_BB48_8
# %bb.7:
	xorl	%esi, %esi
	jmp	Lgcm_v2_BB48_11
Lgcm_v2_BB48_2:                               # %else.2.i.i
	movl	%r10d, %ecx
	shrl	$8, %ecx
	movd	%r10d, %xmm4
	pinsrb	$1, %ecx, %xmm4
	movl	%r10d, %ecx
	shrl	$16, %ecx
	pinsrb	$2, %ecx, %xmm4
	shrl	$24, %r10d
	pinsrb	$3, %r10d, %xmm4
	movl	%r9d, %ecx
	shrl	$8, %ecx
	movd	%r9d, %xmm2
	pinsrb	$1, %ecx, %xmm2
	movl	%r9d, %ecx
	shrl	$16, %ecx
	pinsrb	$2, %ecx, %xmm2
	shrl	$24, %r9d
	pinsrb	$3, %r9d, %xmm2
	movl	%r8d, %ecx
	shrl	$8, %ecx
	movd	%r8d, %xmm5
	pinsrb	$1, %ecx, %xmm5
	movl	%r8d, %ecx
	shrl	$16, %ecx
	pinsrb	$2, %ecx, %xmm5
	shrl	$24, %r8d
	pinsrb	$3, %r8d, %xmm5
	movl	%eax, %ecx
	shrl	$8, %ecx
	movd	%eax, %xmm0
	pinsrb	$1, %ecx, %xmm0
	movl	%eax, %ecx
	shrl	$16, %ecx
	pinsrb	$2, %ecx, %xmm0
	shrl	$24, %eax
	pinsrb	$3, %eax, %xmm0
	movq	8(%rdi), %rax
	movq	16(%rdi), %rsi
	movdqu	4(%rsp), %xmm1
	movdqu	8(%rsp), %xmm6
	movdqu	20(%rsp), %xmm8
	movdqu	24(%rsp), %xmm9
	movdqu	36(%rsp), %xmm10
	movdqu	40(%rsp), %xmm11
	movdqu	52(%rsp), %xmm12
	movdqu	56(%rsp), %xmm13
	movdqa	64(%rsp), %xmm7
	punpckldq	%xmm1, %xmm4            # xmm4 = xmm4[0],xmm1[0],xmm4[1],xmm1[1]
	movdqa	80(%rsp), %xmm3
	punpcklbw	%xmm6, %xmm4            # xmm4 = xmm4[0],xmm6[0],xmm4[1],xmm6[1],xmm4[2],xmm6[2],xmm4[3],xmm6[3],xmm4[4],xmm6[4],xmm4[5],xmm6[5],xmm4[6],xmm6[6],xmm4[7],xmm6[7]
	movdqa	96(%rsp), %xmm6
	punpckldq	%xmm8, %xmm2            # xmm2 = xmm2[0],xmm8[0],xmm2[1],xmm8[1]
	movdqa	112(%rsp), %xmm1
	shrq	$3, %rsi
	decq	%rsi
	punpcklbw	%xmm9, %xmm2            # xmm2 = xmm2[0],xmm9[0],xmm2[1],xmm9[1],xmm2[2],xmm9[2],xmm2[3],xmm9[3],xmm2[4],xmm9[4],xmm2[5],xmm9[5],xmm2[6],xmm9[6],xmm2[7],xmm9[7]
	movdqa	l_gcm_v2_CPI48_0(%rip), %xmm8          # xmm8 = [0,8,1,9,2,10,3,11,4,12,5,13,6,14,7,15]
	pshufb	%xmm8, %xmm4
	pshufb	%xmm8, %xmm2
	punpckldq	%xmm10, %xmm5           # xmm5 = xmm5[0],xmm10[0],xmm5[1],xmm10[1]
	punpcklbw	%xmm11, %xmm5           # xmm5 = xmm5[0],xmm11[0],xmm5[1],xmm11[1],xmm5[2],xmm11[2],xmm5[3],xmm11[3],xmm5[4],xmm11[4],xmm5[5],xmm11[5],xmm5[6],xmm11[6],xmm5[7],xmm11[7]
	pshufb	%xmm8, %xmm5
	punpckldq	%xmm12, %xmm0           # xmm0 = xmm0[0],xmm12[0],xmm0[1],xmm12[1]
	punpcklbw	%xmm13, %xmm0           # xmm0 = xmm0[0],xmm13[0],xmm0[1],xmm13[1],xmm0[2],xmm13[2],xmm0[3],xmm13[3],xmm0[4],xmm13[4],xmm0[5],xmm13[5],xmm0[6],xmm13[6],xmm0[7],xmm13[7]
	pshufb	%xmm8, %xmm0
	movdqa	l_gcm_v2_CPI48_1(%rip), %xmm8          # xmm8 = [0,4,8,12,1,5,9,13,2,6,10,14,3,7,11,15]
	pshufb	%xmm8, %xmm7
	pshufb	%xmm8, %xmm3
	pshufb	%xmm8, %xmm6
	pshufb	%xmm8, %xmm1
	movdqa	%xmm4, %xmm8
	psrlw	$1, %xmm8
	pxor	%xmm2, %xmm8
	movdqa	l_gcm_v2_CPI48_2(%rip), %xmm10         # xmm10 = [85,85,85,85,85,85,85,85,85,85,85,85,85,85,85,85]
	pand	%xmm10, %xmm8
	pxor	%xmm8, %xmm2
	paddb	%xmm8, %xmm8
	pxor	%xmm4, %xmm8
	movdqa	%xmm5, %xmm4
	psrlw	$1, %xmm4
	pxor	%xmm0, %xmm4
	pand	%xmm10, %xmm4
	pxor	%xmm4, %xmm0
	paddb	%xmm4, %xmm4
	pxor	%xmm5, %xmm4
	movdqa	%xmm7, %xmm9
	psrlw	$1, %xmm9
	pxor	%xmm3, %xmm9
	pand	%xmm10, %xmm9
	pxor	%xmm9, %xmm3
	paddb	%xmm9, %xmm9
	pxor	%xmm7, %xmm9
	movdqa	%xmm6, %xmm5
	psrlw	$1, %xmm5
	pxor	%xmm1, %xmm5
	pand	%xmm10, %xmm5
	pxor	%xmm5, %xmm1
	paddb	%xmm5, %xmm5
	pxor	%xmm6, %xmm5
	movdqa	%xmm8, %xmm7
	psrlw	$2, %xmm7
	pxor	%xmm4, %xmm7
	movdqa	l_gcm_v2_CPI48_3(%rip), %xmm10         # xmm10 = [51,51,51,51,51,51,51,51,51,51,51,51,51,51,51,51]
	pand	%xmm10, %xmm7
	pxor	%xmm7, %xmm4
	psllw	$2, %xmm7
	pxor	%xmm8, %xmm7
	movdqa	%xmm9, %xmm6
	psrlw	$2, %xmm6
	pxor	%xmm5, %xmm6
	pand	%xmm10, %xmm6
	pxor	%xmm6, %xmm5
	psllw	$2, %xmm6
	pxor	%xmm9, %xmm6
	movdqa	%xmm2, %xmm8
	psrlw	$2, %xmm8
	pxor	%xmm0, %xmm8
	pand	%xmm10, %xmm8
	pxor	%xmm8, %xmm0
	psllw	$2, %xmm8
	pxor	%xmm2, %xmm8
	movdqa	%xmm3, %xmm2
	psrlw	$2, %xmm2
	pxor	%xmm1, %xmm2
	pand	%xmm10, %xmm2
	pxor	%xmm2, %xmm1
	psllw	$2, %xmm2
	pxor	%xmm3, %xmm2
	movdqa	%xmm7, %xmm3
	psrlw	$4, %xmm3
	movdqa	l_gcm_v2_CPI48_4(%rip), %xmm9          # xmm9 = [15,15,15,15,15,15,15,15,15,15,15,15,15,15,15,15]
	pxor	%xmm6, %xmm3
	pand	%xmm9, %xmm3
	pxor	%xmm3, %xmm6
	psllw	$4, %xmm3
	pxor	%xmm7, %xmm3
	movdqa	%xmm8, %xmm7
	psrlw	$4, %xmm7
	pxor	%xmm2, %xmm7
	pand	%xmm9, %xmm7
	pxor	%xmm7, %xmm2
	psllw	$4, %xmm7
	pxor	%xmm8, %xmm7
	movdqa	%xmm4, %xmm8
	psrlw	$4, %xmm8
	pxor	%xmm5, %xmm8
	pand	%xmm9, %xmm8
	pxor	%xmm8, %xmm5
	psllw	$4, %xmm8
	pxor	%xmm4, %xmm8
	movdqa	%xmm0, %xmm4
	psrlw	$4, %xmm4
	pxor	%xmm1, %xmm4
	pand	%xmm9, %xmm4
	pxor	%xmm4, %xmm1
	psllw	$4, %xmm4
	pxor	%xmm0, %xmm4
	movdqa	%xmm3, 256(%rsp)
	movdqa	%xmm7, 272(%rsp)
	movdqa	%xmm8, 288(%rsp)
	movdqa	%xmm4, 304(%rsp)
	movdqa	%xmm6, 320(%rsp)
	movdqa	%xmm2, 336(%rsp)
	movdqa	%xmm5, 352(%rsp)
	movdqa	%xmm1, 368(%rsp)
	leaq	256(%rsp), %rdx
	movq	%rax, %rdi
	callq	_gcm_v2.aes_soft.soft.ciphers.planes.EncryptPlaneCipher.process_planes
	movdqa	256(%rsp), %xmm3
	movdqa	272(%rsp), %xmm6
	movdqa	288(%rsp), %xmm8
	movdqa	304(%rsp), %xmm1
	movdqa	320(%rsp), %xmm2
	movdqa	336(%rsp), %xmm4
	movdqa	352(%rsp), %xmm7
	movdqa	368(%rsp), %xmm0
	movdqa	%xmm3, %xmm5
	psrlw	$1, %xmm5
	pxor	%xmm6, %xmm5
	movdqa	l_gcm_v2_CPI48_2(%rip), %xmm9          # xmm9 = [85,85,85,85,85,85,85,85,85,85,85,85,85,85,85,85]
	pand	%xmm9, %xmm5
	pxor	%xmm5, %xmm6
	paddb	%xmm5, %xmm5
	pxor	%xmm3, %xmm5
	movdqa	%xmm8, %xmm3
	psrlw	$1, %xmm3
	pxor	%xmm1, %xmm3
	pand	%xmm9, %xmm3
	pxor	%xmm3, %xmm1
	paddb	%xmm3, %xmm3
	pxor	%xmm8, %xmm3
	movdqa	%xmm2, %xmm8
	psrlw	$1, %xmm8
	pxor	%xmm4, %xmm8
	pand	%xmm9, %xmm8
	pxor	%xmm8, %xmm4
	paddb	%xmm8, %xmm8
	pxor	%xmm2, %xmm8
	movdqa	%xmm7, %xmm2
	psrlw	$1, %xmm2
	pxor	%xmm0, %xmm2
	pand	%xmm9, %xmm2
	pxor	%xmm2, %xmm0
	paddb	%xmm2, %xmm2
	pxor	%xmm7, %xmm2
	movdqa	%xmm5, %xmm7
	psrlw	$2, %xmm7
	pxor	%xmm3, %xmm7
	movdqa	l_gcm_v2_CPI48_3(%rip), %xmm9          # xmm9 = [51,51,51,51,51,51,51,51,51,51,51,51,51,51,51,51]
	pand	%xmm9, %xmm7
	pxor	%xmm7, %xmm3
	psllw	$2, %xmm7
	pxor	%xmm5, %xmm7
	movdqa	%xmm8, %xmm5
	psrlw	$2, %xmm5
	pxor	%xmm2, %xmm5
	pand	%xmm9, %xmm5
	pxor	%xmm5, %xmm2
	psllw	$2, %xmm5
	pxor	%xmm8, %xmm5
	movdqa	%xmm6, %xmm8
	psrlw	$2, %xmm8
	pxor	%xmm1, %xmm8
	pand	%xmm9, %xmm8
	pxor	%xmm8, %xmm1
	psllw	$2, %xmm8
	pxor	%xmm6, %xmm8
	movdqa	%xmm4, %xmm6
	psrlw	$2, %xmm6
	pxor	%xmm0, %xmm6
	pand	%xmm9, %xmm6
	pxor	%xmm6, %xmm0
	psllw	$2, %xmm6
	pxor	%xmm4, %xmm6
	movdqa	%xmm7, %xmm4
	psrlw	$4, %xmm4
	pxor	%xmm5, %xmm4
	movdqa	l_gcm_v2_CPI48_4(%rip), %xmm9          # xmm9 = [15,15,15,15,15,15,15,15,15,15,15,15,15,15,15,15]
	pand	%xmm9, %xmm4
	pxor	%xmm4, %xmm5
	psllw	$4, %xmm4
	pxor	%xmm7, %xmm4
	movdqa	%xmm8, %xmm7
	psrlw	$4, %xmm7
	pxor	%xmm6, %xmm7
	pand	%xmm9, %xmm7
	pxor	%xmm7, %xmm6
	psllw	$4, %xmm7
	pxor	%xmm8, %xmm7
	movdqa	%xmm3, %xmm8
	psrlw	$4, %xmm8
	pxor	%xmm2, %xmm8
	pand	%xmm9, %xmm8
	pxor	%xmm8, %xmm2
	psllw	$4, %xmm8
	pxor	%xmm3, %xmm8
	movdqa	%xmm1, %xmm3
	psrlw	$4, %xmm3
	pxor	%xmm0, %xmm3
	pand	%xmm9, %xmm3
	pxor	%xmm3, %xmm0
	psllw	$4, %xmm3
	pxor	%xmm1, %xmm3
	movdqa	l_gcm_v2_CPI48_1(%rip), %xmm1          # xmm1 = [0,4,8,12,1,5,9,13,2,6,10,14,3,7,11,15]
	pshufb	%xmm1, %xmm4
	movdqa	%xmm4, (%rsp)
	pshufb	%xmm1, %xmm7
	movdqa	%xmm7, 16(%rsp)
	pshufb	%xmm1, %xmm8
	movdqa	%xmm8, 32(%rsp)
	pshufb	%xmm1, %xmm3
	movdqa	%xmm3, 48(%rsp)
	pshufb	%xmm1, %xmm5
	movdqa	%xmm5, 64(%rsp)
	pshufb	%xmm1, %xmm6
	movdqa	%xmm6, 80(%rsp)
	pshufb	%xmm1, %xmm2
	movdqa	%xmm2, 96(%rsp)
	pshufb	%xmm1, %xmm0
	movdqa	%xmm0, 112(%rsp)
	leaq	(%r15,%rbx), %rax
	testq	%r13, %r13
	jne	Lgcm_v2_BB48_5
Lgcm_v2_BB48_4:
	xorl	%ecx, %ecx
	jmp	Lgcm_v2_BB48_13
Lgcm_v2_BB48_8:                               # %join.8.i80.lr.ph.new
	movl	%ecx, %edi
	andl	$28, %edi
	movq	%rsp, %rsi
	leaq	(%rsi,%r13), %r8
	addq	$3, %r8
	leaq	(%rbx,%r15), %r9
	addq	$3, %r9
	xorl	%esi, %esi
	.p2align	4
Lgcm_v2_BB48_9:                               # %join.8.i80
                                        # =>This Inner Loop Header: Depth=1
	movzbl	-3(%r8,%rsi), %r10d
	xorb	%r10b, -3(%r9,%rsi)
	movzbl	-2(%r8,%rsi), %r10d
	xorb	%r10b, -2(%r9,%rsi)
	movzbl	-1(%r8,%rsi), %r10d
	xorb	%r10b, -1(%r9,%rsi)
	movzbl	(%r8,%rsi), %r10d
	xorb	%r10b, (%r9,%rsi)
	addq	$4, %rsi
	cmpq	%rsi, %rdi
	jne	Lgcm_v2_BB48_9
# %bb.10:                               # %join.3.i.loopexit.unr-lcssa
	testq	%rdx, %rdx
	je	Lgcm_v2_BB48_13
Lgcm_v2_BB48_11:                              # %join.8.i80.epil.preheader
	leaq	(%rax,%rsi), %rdi
	addq	%r13, %rsi
	addq	%rsp, %rsi
	xorl	%r8d, %r8d
	.p2align	4
Lgcm_v2_BB48_12:                              # %join.8.i80.epil
                                        # =>This Inner Loop Header: Depth=1
	movzbl	(%rsi,%r8), %r9d
	xorb	%r9b, (%rdi,%r8)
	incq	%r8
	cmpq	%r8, %rdx
	jne	Lgcm_v2_BB48_12
Lgcm_v2_BB48_13:                              # %join.3.i
	movq	%r14, %rdx
	subq	%rcx, %rdx
	cmpq	$16, %rdx
	jb	Lgcm_v2_BB48_15
	.p2align	4
Lgcm_v2_BB48_14:                              # %join.8.i
                                        # =>This Inner Loop Header: Depth=1
	leaq	(%rcx,%r13), %rsi
	andq	$-16, %rsi
	movdqu	(%rax,%rcx), %xmm0
	pxor	(%rsp,%rsi), %xmm0
	movdqu	%xmm0, (%rax,%rcx)
	addq	$16, %rcx
	addq	$-16, %rdx
	cmpq	$15, %rdx
	ja	Lgcm_v2_BB48_14
Lgcm_v2_BB48_15:                              # %after.4.i
	cmpq	%r14, %rcx
	jae	Lgcm_v2_BB48_23
# %bb.16:                               # %then.9.i
	testq	%rdx, %rdx
	je	Lgcm_v2_BB48_23
# %bb.17:                               # %iter.check
	addq	%rcx, %r13
	andq	$-16, %r13
	leaq	(%rsp,%r13), %rsi
	addq	%rcx, %rax
	cmpq	$4, %rdx
	jae	Lgcm_v2_BB48_20
# %bb.18:
	xorl	%ecx, %ecx
	jmp	Lgcm_v2_BB48_19
Lgcm_v2_BB48_20:                              # %vec.epilog.ph
	movl	%edx, %ecx
	andl	$12, %ecx
	xorl	%edi, %edi
	.p2align	4
Lgcm_v2_BB48_21:                              # %vec.epilog.vector.body
                                        # =>This Inner Loop Header: Depth=1
	movl	(%rsi,%rdi), %r8d
	xorl	%r8d, (%rax,%rdi)
	addq	$4, %rdi
	cmpq	%rdi, %rcx
	jne	Lgcm_v2_BB48_21
	jmp	Lgcm_v2_BB48_22
Lgcm_v2_BB48_19:                              # %join.8.i23
	movzbl	(%rsi,%rcx), %edi
	xorb	%dil, (%rax,%rcx)
	incq	%rcx
Lgcm_v2_BB48_22:                              # %join.8.i23
	cmpq	%rcx, %rdx
	jne	Lgcm_v2_BB48_19
Lgcm_v2_BB48_23:                              # %"aes_ctr::add_blocks::add_blocks.exit"
	addq	%rbx, %r14
	movq	%r14, %rax
	addq	$392, %rsp                      # imm = 0x188
	popq	%rbx
	popq	%r12
	popq	%r13
	popq	%r14
	popq	%r15
	popq	%rbp
	retq
                                        # -- End function
	.section	__TEXT,__text,regular,pure_instructions
	.p2align	4                               # -- Begin function aes_cipher::zeroize::stack::wipe_stack::<=2816>
_gcm_v2.aes_cipher.zeroize.stack.wipe_stack.2816: # @_gcm_v2.aes_cipher.zeroize.stack.wipe_stack.2816
# %bb.0:                                # %start
	subq	$2824, %rsp                     # imm = 0xB08
	leaq	8(%rsp), %rdi
	movl	$2816, %edx                     # imm = 0xB00
	xorl	%esi, %esi
	callq	*_memset@GOTPCREL(%rip)
	movq	$0, (%rsp)
	#APP
	#NO_APP
	movq	(%rsp), %rax
	#APP
	#NO_APP
	cmpq	$2816, %rax                     # imm = 0xB00
	jae	Lgcm_v2_BB49_2
# %bb.1:                                # %then.1
	movzbl	8(%rsp,%rax), %eax
	#APP
	#NO_APP
	xchgq	%rax, (%rsp)
	#APP
	#NO_APP
Lgcm_v2_BB49_2:                               # %common.ret
	addq	$2824, %rsp                     # imm = 0xB08
	retq
                                        # -- End function
	.section	__TEXT,__text,regular,pure_instructions
	.p2align	4                               # -- Begin function gcm_siv::course::open_in::<#40c030eaacddd0c9>
_gcm_v2.gcm_siv.course.open_in.2: # @_gcm_v2.gcm_siv.course.open_in.2
# %bb.0:                                # %start
	pushq	%rbp
	pushq	%r15
	pushq	%r14
	pushq	%r13
	pushq	%r12
	pushq	%rbx
	subq	$3072, %rsp                     # imm = 0xC00
	movq	$0, (%rsp)
	subq	$280, %rsp                      # imm = 0x118
	movq	%r9, 24(%rsp)                   # 8-byte Spill
	movq	%r8, 16(%rsp)                   # 8-byte Spill
	movq	%rcx, %r15
	movq	%rdx, %r12
	movq	%rsi, %rbp
	movq	%rdi, %rbx
	xorps	%xmm0, %xmm0
	movups	%xmm0, 1800(%rsp)
	leaq	280(%rsp), %r14
	movl	$1520, %edx                     # imm = 0x5F0
	movq	%r14, %rdi
	xorl	%esi, %esi
	callq	*_memset@GOTPCREL(%rip)
	leaq	1816(%rsp), %r13
	movl	$1536, %edx                     # imm = 0x600
	movq	%r13, %rdi
	movq	%r14, %rsi
	callq	*_memcpy@GOTPCREL(%rip)
	xorps	%xmm0, %xmm0
	movaps	%xmm0, 32(%rsp)
	movaps	%xmm0, 48(%rsp)
	movaps	%xmm0, 64(%rsp)
	movaps	%xmm0, 80(%rsp)
	movaps	%xmm0, 96(%rsp)
	movaps	%xmm0, 112(%rsp)
	movaps	%xmm0, 128(%rsp)
	movaps	%xmm0, 144(%rsp)
	movaps	%xmm0, 160(%rsp)
	movaps	%xmm0, 176(%rsp)
	movaps	%xmm0, 192(%rsp)
	movaps	%xmm0, 208(%rsp)
	movaps	%xmm0, 224(%rsp)
	movaps	%xmm0, 240(%rsp)
	movaps	%xmm0, 256(%rsp)
	movl	$0, 272(%rsp)
	leaq	32(%rsp), %r14
	movq	%rbx, %rdi
	movq	%rbp, %rsi
	movq	%r12, %rdx
	movq	%r14, %rcx
	movq	%r13, %r8
	callq	_gcm_v2.gcm_siv.keys.derive_and_prepare.2
	movaps	3408(%rsp), %xmm0
	movups	%xmm0, (%rsp)
	movq	%r14, %rdi
	movq	%r13, %rsi
	movq	%r12, %rdx
	movq	%r15, %rcx
	movq	16(%rsp), %r8                   # 8-byte Reload
	movq	24(%rsp), %r9                   # 8-byte Reload
	callq	_gcm_v2.gcm_siv.message.open.2
	movl	%eax, %ebx
	movl	$0, 32(%rsp)
	leaq	36(%rsp), %rdi
	callq	_gcm_v2.aes_cipher.zeroize.elements.zeroize_elements.1
	movl	$96, %esi
	movq	%r13, %rdi
	callq	_gcm_v2.aes_cipher.zeroize.elements.zeroize_elements.2
	callq	_gcm_v2.aes_cipher.zeroize.stack.wipe_stack.2816
	movl	%ebx, %eax
	addq	$3352, %rsp                     # imm = 0xD18
	popq	%rbx
	popq	%r12
	popq	%r13
	popq	%r14
	popq	%r15
	popq	%rbp
	retq
                                        # -- End function
	.section	__TEXT,__text,regular,pure_instructions
	.p2align	4                               # -- Begin function gcm_siv::keys::derive_and_prepare::<#40c030eaacddd0c9>
_gcm_v2.gcm_siv.keys.derive_and_prepare.2: # @_gcm_v2.gcm_siv.keys.derive_and_prepare.2
# %bb.0:                                # %start
	pushq	%rbp
	pushq	%r15
	pushq	%r14
	pushq	%r13
	pushq	%r12
	pushq	%rbx
	subq	$216, %rsp
	movq	%r8, %r12
	movq	%rcx, %rbx
	movq	%rsi, 8(%rsp)                   # 8-byte Spill
	xorps	%xmm0, %xmm0
	movaps	%xmm0, 192(%rsp)
	movaps	%xmm0, 112(%rsp)
	movaps	%xmm0, 128(%rsp)
	movaps	%xmm0, 144(%rsp)
	movaps	%xmm0, 160(%rsp)
	movaps	%xmm0, 176(%rsp)
	movaps	%xmm0, 16(%rsp)
	movaps	%xmm0, 32(%rsp)
	movaps	%xmm0, 48(%rsp)
	movaps	%xmm0, 64(%rsp)
	movaps	%xmm0, 80(%rsp)
	movaps	%xmm0, 96(%rsp)
	leaq	16(%rsp), %rcx
	callq	_gcm_v2.gcm_siv.keys.derive
	movq	16(%rsp), %rax
	movq	24(%rsp), %rcx
	movq	%rcx, %r13
	shldq	$63, %rax, %r13
	shrq	%rcx
	andl	$1, %eax
	negq	%rax
	movabsq	$-2233785415175766016, %rbp     # imm = 0xE100000000000000
	andq	%rax, %rbp
	xorq	%rcx, %rbp
	leaq	512(%r12), %r14
	leaq	1024(%r12), %rax
	movq	%rax, (%rsp)                    # 8-byte Spill
	movq	%r12, %rdi
	movq	%r13, %rsi
	movq	%rbp, %rdx
	callq	_gcm_v2.gcm.multiples.put_table
	movq	%r12, %rdi
	movq	%r13, %rsi
	movq	%rbp, %rdx
	callq	_gcm_v2.gcm.multiples.next_power
	movq	%rax, %r13
	movq	%rdx, %rbp
	movq	%r12, %rdi
	movq	%rax, %rsi
	callq	_gcm_v2.gcm.multiples.next_power
	movq	%rax, %r12
	movq	%rdx, %r15
	movq	%r14, %rdi
	movq	%r13, %rsi
	movq	%rbp, %rdx
	callq	_gcm_v2.gcm.multiples.put_table
	movq	(%rsp), %rdi                    # 8-byte Reload
	movq	%r12, %rsi
	movq	%r15, %rdx
	callq	_gcm_v2.gcm.multiples.put_table
	leaq	4(%rbx), %rdi
	xorps	%xmm0, %xmm0
	movups	%xmm0, 228(%rbx)
	movups	%xmm0, 212(%rbx)
	movups	%xmm0, 196(%rbx)
	movups	%xmm0, 180(%rbx)
	movups	%xmm0, 164(%rbx)
	movups	%xmm0, 148(%rbx)
	movups	%xmm0, 132(%rbx)
	movups	%xmm0, 116(%rbx)
	movups	%xmm0, 100(%rbx)
	movups	%xmm0, 84(%rbx)
	movups	%xmm0, 68(%rbx)
	movups	%xmm0, 52(%rbx)
	movups	%xmm0, 36(%rbx)
	movups	%xmm0, 20(%rbx)
	cmpq	$16, 8(%rsp)                    # 8-byte Folded Reload
	jne	Lgcm_v2_BB51_2
# %bb.1:                                # %then.1.i
	movl	$16, %edx
	leaq	32(%rsp), %rsi
	callq	_gcm_v2.aes_permute.lane_keys.expand_lanes
	movl	$16, %eax
	jmp	Lgcm_v2_BB51_3
Lgcm_v2_BB51_2:                               # %else.2.i
	movl	$32, %edx
	leaq	32(%rsp), %rsi
	callq	_gcm_v2.aes_permute.lane_keys.expand_lanes
	movl	$32, %eax
Lgcm_v2_BB51_3:                               # %"gcm_siv::keys::set_encryption_key::<#66aa1833bfd7fef8>.exit"
	movl	%eax, (%rbx)
	leaq	16(%rsp), %rdi
	movl	$6, %esi
	callq	_gcm_v2.aes_cipher.zeroize.elements.zeroize_elements.4
	addq	$216, %rsp
	popq	%rbx
	popq	%r12
	popq	%r13
	popq	%r14
	popq	%r15
	popq	%rbp
	retq
                                        # -- End function
	.section	__TEXT,__text,regular,pure_instructions
	.p2align	4                               # -- Begin function gcm_siv::message::open::<#2b34360e0e51af73>
_gcm_v2.gcm_siv.message.open.2: # @_gcm_v2.gcm_siv.message.open.2
# %bb.0:                                # %start
	pushq	%rbp
	pushq	%r15
	pushq	%r14
	pushq	%r13
	pushq	%r12
	pushq	%rbx
	subq	$56, %rsp
	movq	%r9, %rbx
	movq	%r8, 24(%rsp)                   # 8-byte Spill
	movq	%rcx, 16(%rsp)                  # 8-byte Spill
	movq	%rdx, %r14
	movq	%rsi, %r12
	movq	%rdi, %r15
	movq	120(%rsp), %rsi
	movq	112(%rsp), %rbp
	movq	%r9, %rdx
	movq	%rbp, %rcx
	callq	_gcm_v2.gcm_siv.message.process_text
	xorps	%xmm0, %xmm0
	movaps	%xmm0, 32(%rsp)
	leaq	32(%rsp), %r13
	movq	%r13, 8(%rsp)
	movq	%rbp, (%rsp)
	movq	%r15, %rdi
	movq	%r12, %rsi
	movq	%r14, %rdx
	movq	120(%rsp), %r14
	movq	16(%rsp), %rcx                  # 8-byte Reload
	movq	24(%rsp), %r8                   # 8-byte Reload
	movq	%rbx, %r9
	callq	_gcm_v2.gcm_siv.message.put_tag.2
	movq	%r14, %rdi
	movq	%r13, %rsi
	callq	_gcm_v2.aes_cipher.blocks.difference
	movl	%eax, %ebp
	movl	$1, %esi
	movq	%r13, %rdi
	callq	_gcm_v2.aes_cipher.zeroize.elements.zeroize_elements.4
	testl	%ebp, %ebp
	je	Lgcm_v2_BB52_2
# %bb.1:                                # %join.3
	movq	%r15, %rdi
	movq	%r14, %rsi
	movq	%rbx, %rdx
	movq	112(%rsp), %rcx
	callq	_gcm_v2.gcm_siv.message.process_text
Lgcm_v2_BB52_2:                               # %common.ret
	testl	%ebp, %ebp
	sete	%al
	addq	$56, %rsp
	popq	%rbx
	popq	%r12
	popq	%r13
	popq	%r14
	popq	%r15
	popq	%rbp
	retq
                                        # -- End function
	.section	__TEXT,__const
	.p2align	4, 0x0                          # -- Begin function gcm_siv::message::put_tag::<#2b34360e0e51af73>
l_gcm_v2_CPI53_0:
	.byte	15                              # 0xf
	.byte	14                              # 0xe
	.byte	13                              # 0xd
	.byte	12                              # 0xc
	.byte	11                              # 0xb
	.byte	10                              # 0xa
	.byte	9                               # 0x9
	.byte	8                               # 0x8
	.byte	7                               # 0x7
	.byte	6                               # 0x6
	.byte	5                               # 0x5
	.byte	4                               # 0x4
	.byte	3                               # 0x3
	.byte	2                               # 0x2
	.byte	1                               # 0x1
	.byte	0                               # 0x0
l_gcm_v2_CPI53_1:
	.byte	255                             # 0xff
	.byte	255                             # 0xff
	.byte	255                             # 0xff
	.byte	255                             # 0xff
	.byte	255                             # 0xff
	.byte	255                             # 0xff
	.byte	255                             # 0xff
	.byte	255                             # 0xff
	.byte	255                             # 0xff
	.byte	255                             # 0xff
	.byte	255                             # 0xff
	.byte	255                             # 0xff
	.byte	255                             # 0xff
	.byte	255                             # 0xff
	.byte	255                             # 0xff
	.byte	127                             # 0x7f
l_gcm_v2_CPI53_2:
	.zero	16,15
l_gcm_v2_CPI53_3:
	.byte	0                               # 0x0
	.byte	1                               # 0x1
	.byte	28                              # 0x1c
	.byte	29                              # 0x1d
	.byte	45                              # 0x2d
	.byte	44                              # 0x2c
	.byte	49                              # 0x31
	.byte	48                              # 0x30
	.byte	39                              # 0x27
	.byte	38                              # 0x26
	.byte	59                              # 0x3b
	.byte	58                              # 0x3a
	.byte	10                              # 0xa
	.byte	11                              # 0xb
	.byte	22                              # 0x16
	.byte	23                              # 0x17
l_gcm_v2_CPI53_4:
	.byte	0                               # 0x0
	.byte	134                             # 0x86
	.byte	253                             # 0xfd
	.byte	123                             # 0x7b
	.byte	142                             # 0x8e
	.byte	8                               # 0x8
	.byte	115                             # 0x73
	.byte	245                             # 0xf5
	.byte	119                             # 0x77
	.byte	241                             # 0xf1
	.byte	138                             # 0x8a
	.byte	12                              # 0xc
	.byte	249                             # 0xf9
	.byte	127                             # 0x7f
	.byte	4                               # 0x4
	.byte	130                             # 0x82
l_gcm_v2_CPI53_5:
	.byte	128                             # 0x80
	.byte	2                               # 0x2
	.byte	1                               # 0x1
	.byte	15                              # 0xf
	.byte	9                               # 0x9
	.byte	5                               # 0x5
	.byte	14                              # 0xe
	.byte	12                              # 0xc
	.byte	13                              # 0xd
	.byte	4                               # 0x4
	.byte	11                              # 0xb
	.byte	10                              # 0xa
	.byte	7                               # 0x7
	.byte	8                               # 0x8
	.byte	6                               # 0x6
	.byte	3                               # 0x3
l_gcm_v2_CPI53_6:
	.byte	128                             # 0x80
	.byte	1                               # 0x1
	.byte	9                               # 0x9
	.byte	14                              # 0xe
	.byte	13                              # 0xd
	.byte	11                              # 0xb
	.byte	7                               # 0x7
	.byte	6                               # 0x6
	.byte	15                              # 0xf
	.byte	2                               # 0x2
	.byte	12                              # 0xc
	.byte	5                               # 0x5
	.byte	10                              # 0xa
	.byte	4                               # 0x4
	.byte	3                               # 0x3
	.byte	8                               # 0x8
l_gcm_v2_CPI53_7:
	.byte	0                               # 0x0
	.byte	195                             # 0xc3
	.byte	79                              # 0x4f
	.byte	12                              # 0xc
	.byte	252                             # 0xfc
	.byte	124                             # 0x7c
	.byte	67                              # 0x43
	.byte	128                             # 0x80
	.byte	207                             # 0xcf
	.byte	51                              # 0x33
	.byte	63                              # 0x3f
	.byte	112                             # 0x70
	.byte	191                             # 0xbf
	.byte	179                             # 0xb3
	.byte	240                             # 0xf0
	.byte	140                             # 0x8c
l_gcm_v2_CPI53_8:
	.byte	0                               # 0x0
	.byte	230                             # 0xe6
	.byte	114                             # 0x72
	.byte	183                             # 0xb7
	.byte	229                             # 0xe5
	.byte	198                             # 0xc6
	.byte	197                             # 0xc5
	.byte	35                              # 0x23
	.byte	81                              # 0x51
	.byte	180                             # 0xb4
	.byte	3                               # 0x3
	.byte	113                             # 0x71
	.byte	32                              # 0x20
	.byte	151                             # 0x97
	.byte	82                              # 0x52
	.byte	148                             # 0x94
l_gcm_v2_CPI53_9:
	.byte	0                               # 0x0
	.byte	124                             # 0x7c
	.byte	32                              # 0x20
	.byte	207                             # 0xcf
	.byte	146                             # 0x92
	.byte	1                               # 0x1
	.byte	239                             # 0xef
	.byte	147                             # 0x93
	.byte	179                             # 0xb3
	.byte	33                              # 0x21
	.byte	238                             # 0xee
	.byte	206                             # 0xce
	.byte	125                             # 0x7d
	.byte	178                             # 0xb2
	.byte	93                              # 0x5d
	.byte	92                              # 0x5c
l_gcm_v2_CPI53_10:
	.byte	0                               # 0x0
	.byte	209                             # 0xd1
	.byte	229                             # 0xe5
	.byte	247                             # 0xf7
	.byte	230                             # 0xe6
	.byte	37                              # 0x25
	.byte	18                              # 0x12
	.byte	195                             # 0xc3
	.byte	38                              # 0x26
	.byte	192                             # 0xc0
	.byte	55                              # 0x37
	.byte	210                             # 0xd2
	.byte	244                             # 0xf4
	.byte	3                               # 0x3
	.byte	17                              # 0x11
	.byte	52                              # 0x34
l_gcm_v2_CPI53_11:
	.byte	0                               # 0x0
	.byte	203                             # 0xcb
	.byte	215                             # 0xd7
	.byte	176                             # 0xb0
	.byte	33                              # 0x21
	.byte	141                             # 0x8d
	.byte	103                             # 0x67
	.byte	172                             # 0xac
	.byte	123                             # 0x7b
	.byte	90                              # 0x5a
	.byte	234                             # 0xea
	.byte	61                              # 0x3d
	.byte	70                              # 0x46
	.byte	246                             # 0xf6
	.byte	145                             # 0x91
	.byte	28                              # 0x1c
l_gcm_v2_CPI53_12:
	.byte	0                               # 0x0
	.byte	159                             # 0x9f
	.byte	97                              # 0x61
	.byte	22                              # 0x16
	.byte	194                             # 0xc2
	.byte	42                              # 0x2a
	.byte	119                             # 0x77
	.byte	232                             # 0xe8
	.byte	137                             # 0x89
	.byte	75                              # 0x4b
	.byte	93                              # 0x5d
	.byte	60                              # 0x3c
	.byte	181                             # 0xb5
	.byte	163                             # 0xa3
	.byte	212                             # 0xd4
	.byte	254                             # 0xfe
	.section	__TEXT,__text,regular,pure_instructions
	.p2align	4
_gcm_v2.gcm_siv.message.put_tag.2: # @_gcm_v2.gcm_siv.message.put_tag.2
# %bb.0:                                # %start
	pushq	%rbp
	pushq	%r15
	pushq	%r14
	pushq	%r13
	pushq	%r12
	pushq	%rbx
	subq	$104, %rsp
	movq	%r9, 64(%rsp)                   # 8-byte Spill
	movq	%r8, %rbp
	movq	%rdx, 96(%rsp)                  # 8-byte Spill
	movq	%rsi, %r15
	movq	%rdi, %rbx
	movabsq	$-6148914691236517205, %rdx     # imm = 0xAAAAAAAAAAAAAAAB
	movq	%r8, %rax
	mulq	%rdx
	movq	%rdx, %r12
	shrq	$5, %r12
	movq	%r12, %rax
	shlq	$4, %rax
	leaq	(%rax,%rax,2), %r14
	pxor	%xmm0, %xmm0
	movdqa	%xmm0, (%rsp)
	pxor	%xmm1, %xmm1
	cmpq	$48, %r8
	jb	Lgcm_v2_BB53_4
# %bb.1:                                # %join.5.i.i2.preheader
	movq	%rcx, 16(%rsp)                  # 8-byte Spill
	leaq	32(%rcx), %r13
	.p2align	4
Lgcm_v2_BB53_2:                               # %join.5.i.i2
                                        # =>This Inner Loop Header: Depth=1
	movdqa	l_gcm_v2_CPI53_0(%rip), %xmm3          # xmm3 = [15,14,13,12,11,10,9,8,7,6,5,4,3,2,1,0]
	movdqu	-32(%r13), %xmm0
	movdqu	-16(%r13), %xmm1
	movdqu	(%r13), %xmm2
	pshufb	%xmm3, %xmm0
	pxor	(%rsp), %xmm0
	pshufb	%xmm3, %xmm1
	pshufb	%xmm3, %xmm2
	movq	%rsp, %rdi
	movq	%r15, %rsi
	callq	_gcm_v2.gcm.multiples.Multiples.three_products
	addq	$48, %r13
	decq	%r12
	jne	Lgcm_v2_BB53_2
# %bb.3:                                # %"gcm::hash::hash_threes::<#1ace2c8123f9d1c9>.exit.loopexit.i"
	movdqa	(%rsp), %xmm1
	movq	16(%rsp), %rcx                  # 8-byte Reload
	pxor	%xmm0, %xmm0
Lgcm_v2_BB53_4:                               # %"gcm::hash::hash_threes::<#1ace2c8123f9d1c9>.exit.i"
	movq	160(%rsp), %r13
	movdqa	%xmm0, 32(%rsp)
	cmpq	%r14, %rbp
	je	Lgcm_v2_BB53_17
# %bb.5:                                # %join.3.i.i
	movq	%rbp, %rdx
	subq	%r14, %rdx
	leaq	(%rcx,%r14), %r12
	cmpq	$16, %rdx
	ja	Lgcm_v2_BB53_9
# %bb.6:                                # %then.4.i.i
	je	Lgcm_v2_BB53_8
# %bb.7:                                # %join.3.i.i93.i.i
	movdqa	%xmm0, (%rsp)
	movq	%rsp, %r14
	movq	%r14, %rdi
	movq	%r12, %rsi
	movdqa	%xmm1, 48(%rsp)                 # 16-byte Spill
	callq	*_memcpy@GOTPCREL(%rip)
	movdqa	48(%rsp), %xmm1                 # 16-byte Reload
	movq	%r14, %r12
Lgcm_v2_BB53_8:                               # %"gcm::hash::last_block::<#1ace2c8123f9d1c9>.exit147.i.i"
	movdqu	(%r12), %xmm0
	pshufb	l_gcm_v2_CPI53_0(%rip), %xmm0          # xmm0 = xmm0[15,14,13,12,11,10,9,8,7,6,5,4,3,2,1,0]
	pxor	%xmm1, %xmm0
	leaq	32(%rsp), %rdi
	movq	%r15, %rsi
	callq	_gcm_v2.gcm.multiples.Multiples.block_product
	jmp	Lgcm_v2_BB53_16
Lgcm_v2_BB53_9:                               # %join.6.i.i
	movdqu	(%r12), %xmm0
	pshufb	l_gcm_v2_CPI53_0(%rip), %xmm0          # xmm0 = xmm0[15,14,13,12,11,10,9,8,7,6,5,4,3,2,1,0]
	pxor	%xmm1, %xmm0
	cmpq	$32, %rdx
	ja	Lgcm_v2_BB53_13
# %bb.10:                               # %then.7.i.i
	leaq	(%rcx,%r14), %rsi
	addq	$16, %rsi
	addq	$16, %r14
	movq	%rbp, %rdx
	subq	%r14, %rdx
	cmpq	$16, %rdx
	je	Lgcm_v2_BB53_12
# %bb.11:                               # %join.3.i.i34.i.i
	pxor	%xmm1, %xmm1
	movdqa	%xmm1, (%rsp)
	movq	%rsp, %r14
	movq	%r14, %rdi
	movdqa	%xmm0, 16(%rsp)                 # 16-byte Spill
	callq	*_memcpy@GOTPCREL(%rip)
	movdqa	16(%rsp), %xmm0                 # 16-byte Reload
	movq	%r14, %rsi
Lgcm_v2_BB53_12:                              # %"gcm::hash::last_block::<#1ace2c8123f9d1c9>.exit88.i.i"
	movdqu	(%rsi), %xmm1
	pshufb	l_gcm_v2_CPI53_0(%rip), %xmm1          # xmm1 = xmm1[15,14,13,12,11,10,9,8,7,6,5,4,3,2,1,0]
	leaq	32(%rsp), %rdi
	movq	%r15, %rsi
	callq	_gcm_v2.gcm.multiples.Multiples.two_products
	jmp	Lgcm_v2_BB53_16
Lgcm_v2_BB53_13:                              # %join.9.i.i
	leaq	(%rcx,%r14), %rsi
	addq	$32, %rsi
	addq	$32, %r14
	movq	%rbp, %rdx
	subq	%r14, %rdx
	cmpq	$16, %rdx
	je	Lgcm_v2_BB53_15
# %bb.14:                               # %join.3.i.i.i.i
	pxor	%xmm1, %xmm1
	movdqa	%xmm1, (%rsp)
	movq	%rsp, %r14
	movq	%r14, %rdi
	movdqa	%xmm0, 16(%rsp)                 # 16-byte Spill
	callq	*_memcpy@GOTPCREL(%rip)
	movdqa	16(%rsp), %xmm0                 # 16-byte Reload
	movq	%r14, %rsi
Lgcm_v2_BB53_15:                              # %"gcm::hash::last_block::<#1ace2c8123f9d1c9>.exit.i.i"
	movdqu	(%rsi), %xmm2
	movdqa	l_gcm_v2_CPI53_0(%rip), %xmm3          # xmm3 = [15,14,13,12,11,10,9,8,7,6,5,4,3,2,1,0]
	pshufb	%xmm3, %xmm2
	movdqu	16(%r12), %xmm1
	pshufb	%xmm3, %xmm1
	leaq	32(%rsp), %rdi
	movq	%r15, %rsi
	callq	_gcm_v2.gcm.multiples.Multiples.three_products
Lgcm_v2_BB53_16:                              # %"gcm::hash::hash_last_group::<#1ace2c8123f9d1c9>.exit.i"
	movdqa	32(%rsp), %xmm1
Lgcm_v2_BB53_17:                              # %"gcm::hash::hash_last_group::<#1ace2c8123f9d1c9>.exit.i"
	leal	(,%rbp,8), %r9d
	leal	(,%r13,8), %esi
	movl	%ebp, %eax
	movl	%ebp, %ecx
	movl	%ebp, %edx
	movl	%r13d, %edi
	shrl	$5, %edi
	movq	%r13, %r8
	shrq	$53, %r8
	movd	%r8d, %xmm2
	movq	%r13, %r8
	shrq	$45, %r8
	pinsrb	$1, %r8d, %xmm2
	movq	%r13, %r8
	shrq	$37, %r8
	pinsrb	$2, %r8d, %xmm2
	movq	%r13, %r8
	shrq	$29, %r8
	pinsrb	$3, %r8d, %xmm2
	movl	%r13d, %r8d
	shrl	$21, %r8d
	pinsrb	$4, %r8d, %xmm2
	movl	%r13d, %r8d
	shrl	$13, %r8d
	pinsrb	$5, %r8d, %xmm2
	pinsrb	$6, %edi, %xmm2
	movq	%rbp, %rdi
	movq	%rbp, %r8
	pinsrb	$7, %esi, %xmm2
	movq	%rbp, %rsi
	shrq	$53, %rbp
	pinsrb	$8, %ebp, %xmm2
	shrq	$45, %rsi
	pinsrb	$9, %esi, %xmm2
	shrq	$37, %r8
	pinsrb	$10, %r8d, %xmm2
	shrq	$29, %rdi
	pinsrb	$11, %edi, %xmm2
	shrl	$21, %edx
	pinsrb	$12, %edx, %xmm2
	shrl	$13, %ecx
	pinsrb	$13, %ecx, %xmm2
	shrl	$5, %eax
	pinsrb	$14, %eax, %xmm2
	movdqa	%xmm1, (%rsp)
	movq	%r13, %rax
	movabsq	$-6148914691236517205, %rcx     # imm = 0xAAAAAAAAAAAAAAAB
	mulq	%rcx
	movq	%rdx, %r14
	shrq	$5, %r14
	movq	%r14, %rax
	shlq	$4, %rax
	leaq	(%rax,%rax,2), %rbp
	cmpq	$48, %r13
	jb	Lgcm_v2_BB53_21
# %bb.18:                               # %join.5.i.i.i.preheader
	movl	%r9d, 48(%rsp)                  # 4-byte Spill
	movdqa	%xmm2, 16(%rsp)                 # 16-byte Spill
	movq	64(%rsp), %rax                  # 8-byte Reload
	leaq	32(%rax), %r12
	.p2align	4
Lgcm_v2_BB53_19:                              # %join.5.i.i.i
                                        # =>This Inner Loop Header: Depth=1
	movdqa	l_gcm_v2_CPI53_0(%rip), %xmm3          # xmm3 = [15,14,13,12,11,10,9,8,7,6,5,4,3,2,1,0]
	movdqu	-32(%r12), %xmm0
	movdqu	-16(%r12), %xmm1
	movdqu	(%r12), %xmm2
	pshufb	%xmm3, %xmm0
	pxor	(%rsp), %xmm0
	pshufb	%xmm3, %xmm1
	pshufb	%xmm3, %xmm2
	movq	%rsp, %rdi
	movq	%r15, %rsi
	callq	_gcm_v2.gcm.multiples.Multiples.three_products
	addq	$48, %r12
	decq	%r14
	jne	Lgcm_v2_BB53_19
# %bb.20:                               # %"gcm::hash::hash_string_and_end::<#1ace2c8123f9d1c9>.exit.loopexit.i"
	movdqa	(%rsp), %xmm1
	movdqa	16(%rsp), %xmm2                 # 16-byte Reload
	movl	48(%rsp), %r9d                  # 4-byte Reload
Lgcm_v2_BB53_21:                              # %"gcm::hash::hash_string_and_end::<#1ace2c8123f9d1c9>.exit.i"
	pinsrb	$15, %r9d, %xmm2
	movq	168(%rsp), %r12
	pxor	%xmm0, %xmm0
	movdqa	%xmm0, 80(%rsp)
	cmpq	%rbp, %r13
	jne	Lgcm_v2_BB53_23
# %bb.22:                               # %then.1.i139.i
	pxor	%xmm2, %xmm1
	leaq	80(%rsp), %rdi
	movq	%r15, %rsi
	movdqa	%xmm1, %xmm0
Lgcm_v2_BB53_34:                              # %"gcm_siv::hash::MultiplesRoomPolyvalRoom::hash.exit"
	callq	_gcm_v2.gcm.multiples.Multiples.block_product
	jmp	Lgcm_v2_BB53_35
Lgcm_v2_BB53_23:                              # %join.3.i59.i
	movq	%r13, %rdx
	subq	%rbp, %rdx
	cmpq	$16, %rdx
	ja	Lgcm_v2_BB53_27
# %bb.24:                               # %then.4.i137.i
	movq	64(%rsp), %rsi                  # 8-byte Reload
	addq	%rbp, %rsi
	cmpq	$16, %rdx
	je	Lgcm_v2_BB53_26
# %bb.25:                               # %join.3.i.i27.i.i
	movdqa	%xmm0, (%rsp)
	movq	%rsp, %r14
	movq	%r14, %rdi
	movdqa	%xmm2, 16(%rsp)                 # 16-byte Spill
	movdqa	%xmm1, 48(%rsp)                 # 16-byte Spill
	callq	*_memcpy@GOTPCREL(%rip)
	movdqa	48(%rsp), %xmm1                 # 16-byte Reload
	movdqa	16(%rsp), %xmm2                 # 16-byte Reload
	movq	%r14, %rsi
Lgcm_v2_BB53_26:                              # %"gcm::hash::last_block::<#1ace2c8123f9d1c9>.exit81.i.i"
	movdqu	(%rsi), %xmm0
	pshufb	l_gcm_v2_CPI53_0(%rip), %xmm0          # xmm0 = xmm0[15,14,13,12,11,10,9,8,7,6,5,4,3,2,1,0]
	pxor	%xmm1, %xmm0
	leaq	80(%rsp), %rdi
	movq	%r15, %rsi
	movdqa	%xmm2, %xmm1
	callq	_gcm_v2.gcm.multiples.Multiples.two_products
	jmp	Lgcm_v2_BB53_35
Lgcm_v2_BB53_27:                              # %join.6.i60.i
	cmpq	$32, %rdx
	ja	Lgcm_v2_BB53_31
# %bb.28:                               # %then.7.i76.i
	movq	64(%rsp), %rax                  # 8-byte Reload
	movdqu	(%rax,%rbp), %xmm0
	pshufb	l_gcm_v2_CPI53_0(%rip), %xmm0          # xmm0 = xmm0[15,14,13,12,11,10,9,8,7,6,5,4,3,2,1,0]
	pxor	%xmm1, %xmm0
	leaq	(%rax,%rbp), %rsi
	addq	$16, %rsi
	addq	$16, %rbp
	subq	%rbp, %r13
	cmpq	$16, %r13
	je	Lgcm_v2_BB53_30
# %bb.29:                               # %join.3.i.i.i83.i
	movdqa	%xmm0, 64(%rsp)                 # 16-byte Spill
	pxor	%xmm0, %xmm0
	movdqa	%xmm0, (%rsp)
	movq	%rsp, %r14
	movq	%r14, %rdi
	movq	%r13, %rdx
	movdqa	%xmm2, 16(%rsp)                 # 16-byte Spill
	callq	*_memcpy@GOTPCREL(%rip)
	movdqa	64(%rsp), %xmm0                 # 16-byte Reload
	movdqa	16(%rsp), %xmm2                 # 16-byte Reload
	movq	%r14, %rsi
Lgcm_v2_BB53_30:                              # %"gcm::hash::last_block::<#1ace2c8123f9d1c9>.exit.i131.i"
	movdqu	(%rsi), %xmm1
	pshufb	l_gcm_v2_CPI53_0(%rip), %xmm1          # xmm1 = xmm1[15,14,13,12,11,10,9,8,7,6,5,4,3,2,1,0]
	leaq	80(%rsp), %rdi
	movq	%r15, %rsi
	callq	_gcm_v2.gcm.multiples.Multiples.three_products
Lgcm_v2_BB53_35:                              # %"gcm_siv::hash::MultiplesRoomPolyvalRoom::hash.exit"
	movq	80(%rsp), %rax
	movq	88(%rsp), %rcx
	bswapq	%rcx
	bswapq	%rax
	movq	%rax, %rdx
	shldq	$8, %rcx, %rdx
	movq	%rdx, %xmm1
	movq	%rax, %rdx
	shldq	$16, %rcx, %rdx
	movq	%rdx, %xmm0
	movq	%rax, %rdx
	shldq	$24, %rcx, %rdx
	movq	%rdx, %xmm3
	movq	%rax, %rdx
	shldq	$32, %rcx, %rdx
	movq	%rdx, %xmm4
	movq	%rax, %rdx
	shldq	$40, %rcx, %rdx
	movq	%rdx, %xmm5
	movq	%rax, %rdx
	shldq	$48, %rcx, %rdx
	movq	%rdx, %xmm6
	movq	%rax, %rdx
	shldq	$56, %rcx, %rdx
	movq	%rdx, %xmm7
	movq	%rcx, %xmm2
	movq	%rax, %rcx
	shrq	$56, %rcx
	movd	%ecx, %xmm9
	movq	%rax, %rcx
	shrq	$48, %rcx
	movd	%ecx, %xmm8
	movq	%rax, %rcx
	movq	%rax, %xmm10
	punpcklbw	%xmm1, %xmm0            # xmm0 = xmm0[0],xmm1[0],xmm0[1],xmm1[1],xmm0[2],xmm1[2],xmm0[3],xmm1[3],xmm0[4],xmm1[4],xmm0[5],xmm1[5],xmm0[6],xmm1[6],xmm0[7],xmm1[7]
	punpcklbw	%xmm3, %xmm4            # xmm4 = xmm4[0],xmm3[0],xmm4[1],xmm3[1],xmm4[2],xmm3[2],xmm4[3],xmm3[3],xmm4[4],xmm3[4],xmm4[5],xmm3[5],xmm4[6],xmm3[6],xmm4[7],xmm3[7]
	psllq	$48, %xmm0
	pshufd	$80, %xmm4, %xmm1               # xmm1 = xmm4[0,0,1,1]
	pblendw	$8, %xmm0, %xmm1                # xmm1 = xmm1[0,1,2],xmm0[3],xmm1[4,5,6,7]
	punpcklbw	%xmm5, %xmm6            # xmm6 = xmm6[0],xmm5[0],xmm6[1],xmm5[1],xmm6[2],xmm5[2],xmm6[3],xmm5[3],xmm6[4],xmm5[4],xmm6[5],xmm5[5],xmm6[6],xmm5[6],xmm6[7],xmm5[7]
	punpcklbw	%xmm7, %xmm2            # xmm2 = xmm2[0],xmm7[0],xmm2[1],xmm7[1],xmm2[2],xmm7[2],xmm2[3],xmm7[3],xmm2[4],xmm7[4],xmm2[5],xmm7[5],xmm2[6],xmm7[6],xmm2[7],xmm7[7]
	punpcklwd	%xmm6, %xmm2            # xmm2 = xmm2[0],xmm6[0],xmm2[1],xmm6[1],xmm2[2],xmm6[2],xmm2[3],xmm6[3]
	shrq	$32, %rcx
	shrq	$40, %rax
	pblendw	$12, %xmm1, %xmm2               # xmm2 = xmm2[0,1],xmm1[2,3],xmm2[4,5,6,7]
	punpcklbw	%xmm9, %xmm8            # xmm8 = xmm8[0],xmm9[0],xmm8[1],xmm9[1],xmm8[2],xmm9[2],xmm8[3],xmm9[3],xmm8[4],xmm9[4],xmm8[5],xmm9[5],xmm8[6],xmm9[6],xmm8[7],xmm9[7]
	movd	%eax, %xmm0
	movd	%ecx, %xmm1
	punpcklbw	%xmm0, %xmm1            # xmm1 = xmm1[0],xmm0[0],xmm1[1],xmm0[1],xmm1[2],xmm0[2],xmm1[3],xmm0[3],xmm1[4],xmm0[4],xmm1[5],xmm0[5],xmm1[6],xmm0[6],xmm1[7],xmm0[7]
	pslldq	$14, %xmm8                      # xmm8 = zero,zero,zero,zero,zero,zero,zero,zero,zero,zero,zero,zero,zero,zero,xmm8[0,1]
	pshufd	$0, %xmm1, %xmm0                # xmm0 = xmm1[0,0,0,0]
	pblendw	$128, %xmm8, %xmm0              # xmm0 = xmm0[0,1,2,3,4,5,6],xmm8[7]
	pshufd	$68, %xmm10, %xmm1              # xmm1 = xmm10[0,1,0,1]
	pblendw	$192, %xmm0, %xmm1              # xmm1 = xmm1[0,1,2,3,4,5],xmm0[6,7]
	pblendw	$15, %xmm2, %xmm1               # xmm1 = xmm2[0,1,2,3],xmm1[4,5,6,7]
	movq	96(%rsp), %rax                  # 8-byte Reload
	movd	(%rax), %xmm0                   # xmm0 = mem[0],zero,zero,zero
	movq	4(%rax), %xmm2                  # xmm2 = mem[0],zero
	movq	%xmm0, %xmm0                    # xmm0 = xmm0[0],zero
	pshufd	$80, %xmm2, %xmm2               # xmm2 = xmm2[0,0,1,1]
	pblendw	$195, %xmm0, %xmm2              # xmm2 = xmm0[0,1],xmm2[2,3,4,5],xmm0[6,7]
	pxor	%xmm1, %xmm2
	pand	l_gcm_v2_CPI53_1(%rip), %xmm2
	movdqu	%xmm2, (%r12)
	movl	(%rbx), %ecx
	shrl	$2, %ecx
	leaq	6(%rcx), %rax
	movdqu	4(%rbx), %xmm1
	pxor	%xmm2, %xmm1
	movdqa	l_gcm_v2_CPI53_2(%rip), %xmm0          # xmm0 = [15,15,15,15,15,15,15,15,15,15,15,15,15,15,15,15]
	movdqa	%xmm1, %xmm2
	pand	%xmm0, %xmm2
	movdqa	l_gcm_v2_CPI53_3(%rip), %xmm4          # xmm4 = [0,1,28,29,45,44,49,48,39,38,59,58,10,11,22,23]
	pshufb	%xmm2, %xmm4
	psrlw	$4, %xmm1
	pand	%xmm0, %xmm1
	movdqa	l_gcm_v2_CPI53_4(%rip), %xmm3          # xmm3 = [0,134,253,123,142,8,115,245,119,241,138,12,249,127,4,130]
	pshufb	%xmm1, %xmm3
	pxor	%xmm4, %xmm3
	shlq	$4, %rcx
	addq	$80, %rcx
	xorl	%edx, %edx
	.p2align	4
Lgcm_v2_BB53_36:                              # %join.5.i.i
                                        # =>This Inner Loop Header: Depth=1
	movdqu	20(%rbx,%rdx), %xmm4
	addq	$16, %rdx
	movdqa	%xmm3, %xmm5
	psrlw	$4, %xmm5
	pand	%xmm0, %xmm5
	pand	%xmm0, %xmm3
	movdqa	%xmm5, %xmm6
	pxor	%xmm3, %xmm6
	movdqa	l_gcm_v2_CPI53_5(%rip), %xmm2          # xmm2 = [128,2,1,15,9,5,14,12,13,4,11,10,7,8,6,3]
	movdqa	%xmm2, %xmm7
	pshufb	%xmm3, %xmm7
	movdqa	l_gcm_v2_CPI53_6(%rip), %xmm1          # xmm1 = [128,1,9,14,13,11,7,6,15,2,12,5,10,4,3,8]
	movdqa	%xmm1, %xmm3
	pshufb	%xmm5, %xmm3
	movdqa	%xmm1, %xmm8
	pshufb	%xmm6, %xmm8
	pxor	%xmm7, %xmm3
	pxor	%xmm7, %xmm8
	movdqa	%xmm1, %xmm7
	pshufb	%xmm3, %xmm7
	movdqa	%xmm1, %xmm3
	pshufb	%xmm8, %xmm3
	pxor	%xmm6, %xmm7
	pxor	%xmm5, %xmm3
	movdqa	l_gcm_v2_CPI53_7(%rip), %xmm6          # xmm6 = [0,195,79,12,252,124,67,128,207,51,63,112,191,179,240,140]
	pshufb	%xmm7, %xmm6
	movdqa	l_gcm_v2_CPI53_8(%rip), %xmm5          # xmm5 = [0,230,114,183,229,198,197,35,81,180,3,113,32,151,82,148]
	pshufb	%xmm3, %xmm5
	pxor	%xmm6, %xmm5
	movdqa	l_gcm_v2_CPI53_9(%rip), %xmm6          # xmm6 = [0,124,32,207,146,1,239,147,179,33,238,206,125,178,93,92]
	pshufb	%xmm7, %xmm6
	movdqa	l_gcm_v2_CPI53_10(%rip), %xmm7         # xmm7 = [0,209,229,247,230,37,18,195,38,192,55,210,244,3,17,52]
	pshufb	%xmm3, %xmm7
	pxor	%xmm6, %xmm7
	movl	%edx, %esi
	andl	$48, %esi
	leaq	l_gcm_v2_static.5(%rip), %rdi
	movdqu	(%rsi,%rdi), %xmm6
	movdqa	%xmm5, %xmm3
	pshufb	%xmm6, %xmm3
	pxor	%xmm7, %xmm3
	leaq	l_gcm_v2_static.6(%rip), %rdi
	movdqu	(%rsi,%rdi), %xmm7
	pshufb	%xmm7, %xmm5
	pxor	%xmm4, %xmm5
	pxor	%xmm3, %xmm5
	pshufb	%xmm6, %xmm3
	pxor	%xmm5, %xmm3
	cmpq	%rdx, %rcx
	jne	Lgcm_v2_BB53_36
# %bb.37:                               # %"gcm_c::siv::MessageRoomMessageKey::encrypt_block.exit"
	shlq	$4, %rax
	movdqu	4(%rbx,%rax), %xmm4
	movdqa	%xmm3, %xmm5
	psrlw	$4, %xmm5
	pand	%xmm0, %xmm5
	pand	%xmm0, %xmm3
	movdqa	%xmm5, %xmm0
	pxor	%xmm3, %xmm0
	pshufb	%xmm3, %xmm2
	movdqa	%xmm1, %xmm3
	pshufb	%xmm5, %xmm3
	movdqa	%xmm1, %xmm6
	pshufb	%xmm0, %xmm6
	pxor	%xmm2, %xmm3
	pxor	%xmm2, %xmm6
	movdqa	%xmm1, %xmm2
	pshufb	%xmm3, %xmm2
	pshufb	%xmm6, %xmm1
	pxor	%xmm0, %xmm2
	pxor	%xmm5, %xmm1
	movdqa	l_gcm_v2_CPI53_11(%rip), %xmm0         # xmm0 = [0,203,215,176,33,141,103,172,123,90,234,61,70,246,145,28]
	pshufb	%xmm2, %xmm0
	movdqa	l_gcm_v2_CPI53_12(%rip), %xmm2         # xmm2 = [0,159,97,22,194,42,119,232,137,75,93,60,181,163,212,254]
	pshufb	%xmm1, %xmm2
	pxor	%xmm0, %xmm2
	andl	$48, %eax
	leaq	l_gcm_v2_static.3(%rip), %rcx
	movdqu	(%rax,%rcx), %xmm0
	pshufb	%xmm0, %xmm2
	pxor	%xmm4, %xmm2
	movdqu	%xmm2, (%r12)
	addq	$104, %rsp
	popq	%rbx
	popq	%r12
	popq	%r13
	popq	%r14
	popq	%r15
	popq	%rbp
	retq
Lgcm_v2_BB53_31:                              # %join.9.i.i.i
	movdqa	%xmm2, 16(%rsp)                 # 16-byte Spill
	pxor	%xmm2, %xmm2
	movdqa	%xmm2, 32(%rsp)
	movq	64(%rsp), %rcx                  # 8-byte Reload
	movdqu	(%rcx,%rbp), %xmm0
	pshufb	l_gcm_v2_CPI53_0(%rip), %xmm0          # xmm0 = xmm0[15,14,13,12,11,10,9,8,7,6,5,4,3,2,1,0]
	pxor	%xmm1, %xmm0
	leaq	32(%rbp), %rax
	leaq	(%rcx,%rbp), %rsi
	addq	$32, %rsi
	subq	%rax, %r13
	cmpq	$16, %r13
	je	Lgcm_v2_BB53_33
# %bb.32:                               # %join.3.i.i.i.i.i
	movdqa	%xmm2, (%rsp)
	movq	%rsp, %r14
	movq	%r14, %rdi
	movq	%r13, %rdx
	movdqa	%xmm0, 48(%rsp)                 # 16-byte Spill
	callq	*_memcpy@GOTPCREL(%rip)
	movdqa	48(%rsp), %xmm0                 # 16-byte Reload
	movq	%r14, %rsi
Lgcm_v2_BB53_33:                              # %"gcm::hash::hash_last_group::<#1ace2c8123f9d1c9>.exit.i.i"
	movdqu	(%rsi), %xmm2
	movdqa	l_gcm_v2_CPI53_0(%rip), %xmm3          # xmm3 = [15,14,13,12,11,10,9,8,7,6,5,4,3,2,1,0]
	pshufb	%xmm3, %xmm2
	movq	64(%rsp), %rax                  # 8-byte Reload
	movdqu	16(%rax,%rbp), %xmm1
	pshufb	%xmm3, %xmm1
	leaq	32(%rsp), %rdi
	movq	%r15, %rsi
	callq	_gcm_v2.gcm.multiples.Multiples.three_products
	movdqa	16(%rsp), %xmm0                 # 16-byte Reload
	pxor	32(%rsp), %xmm0
	leaq	80(%rsp), %rdi
	movq	%r15, %rsi
	jmp	Lgcm_v2_BB53_34
                                        # -- End function
	.section	__TEXT,__text,regular,pure_instructions
	.p2align	4                               # -- Begin function gcm_siv::course::seal_in::<#b1a7be6fe22fdaa9>
_gcm_v2.gcm_siv.course.seal_in.1: # @_gcm_v2.gcm_siv.course.seal_in.1
# %bb.0:                                # %start
	pushq	%rbp
	pushq	%r15
	pushq	%r14
	pushq	%r13
	pushq	%r12
	pushq	%rbx
	subq	$1320, %rsp                     # imm = 0x528
	movq	%r9, 16(%rsp)                   # 8-byte Spill
	movq	%r8, %r15
	movq	%rcx, %r12
	movq	%rdx, %rbp
	movq	%rsi, %rbx
	movq	%rdi, 24(%rsp)                  # 8-byte Spill
	xorps	%xmm0, %xmm0
	movups	%xmm0, 792(%rsp)
	leaq	296(%rsp), %r14
	movl	$496, %edx                      # imm = 0x1F0
	movq	%r14, %rdi
	xorl	%esi, %esi
	callq	*_memset@GOTPCREL(%rip)
	leaq	808(%rsp), %r13
	movl	$512, %edx                      # imm = 0x200
	movq	%r13, %rdi
	movq	%r14, %rsi
	callq	*_memcpy@GOTPCREL(%rip)
	xorps	%xmm0, %xmm0
	movaps	%xmm0, 48(%rsp)
	movaps	%xmm0, 64(%rsp)
	movaps	%xmm0, 80(%rsp)
	movaps	%xmm0, 96(%rsp)
	movaps	%xmm0, 112(%rsp)
	movaps	%xmm0, 128(%rsp)
	movaps	%xmm0, 144(%rsp)
	movaps	%xmm0, 160(%rsp)
	movaps	%xmm0, 176(%rsp)
	movaps	%xmm0, 192(%rsp)
	movaps	%xmm0, 208(%rsp)
	movaps	%xmm0, 224(%rsp)
	movaps	%xmm0, 240(%rsp)
	movaps	%xmm0, 256(%rsp)
	movaps	%xmm0, 272(%rsp)
	movl	$0, 288(%rsp)
	leaq	48(%rsp), %r14
	movq	%rbx, %rdi
	movq	%rbp, %rsi
	movq	%r12, %rdx
	movq	%r14, %rcx
	movq	%r13, %r8
	callq	_gcm_v2.gcm_siv.keys.derive_and_prepare.1
	movaps	1376(%rsp), %xmm0
	movups	%xmm0, (%rsp)
	leaq	32(%rsp), %rdi
	movq	%r14, %rsi
	movq	%r13, %rdx
	movq	%r12, %rcx
	movq	%r15, %r8
	movq	16(%rsp), %r9                   # 8-byte Reload
	callq	_gcm_v2.gcm_siv.message.seal.1
	movl	$0, 48(%rsp)
	leaq	52(%rsp), %rdi
	callq	_gcm_v2.aes_cipher.zeroize.elements.zeroize_elements.1
	movl	$32, %esi
	movq	%r13, %rdi
	callq	_gcm_v2.aes_cipher.zeroize.elements.zeroize_elements.2
	callq	_gcm_v2.aes_cipher.zeroize.stack.wipe_stack.2816
	movups	32(%rsp), %xmm0
	movq	24(%rsp), %rax                  # 8-byte Reload
	movups	%xmm0, (%rax)
	addq	$1320, %rsp                     # imm = 0x528
	popq	%rbx
	popq	%r12
	popq	%r13
	popq	%r14
	popq	%r15
	popq	%rbp
	retq
                                        # -- End function
	.section	__TEXT,__text,regular,pure_instructions
	.p2align	4                               # -- Begin function gcm_siv::message::seal::<#f940bb35374b8583>
_gcm_v2.gcm_siv.message.seal.1: # @_gcm_v2.gcm_siv.message.seal.1
# %bb.0:                                # %start
	pushq	%r15
	pushq	%r14
	pushq	%r13
	pushq	%r12
	pushq	%rbx
	subq	$32, %rsp
	movq	%rsi, %rbx
	movq	%rdi, %r14
	movq	80(%rsp), %r15
	movq	88(%rsp), %r12
	xorps	%xmm0, %xmm0
	movaps	%xmm0, 16(%rsp)
	leaq	16(%rsp), %r13
	movq	%r13, 8(%rsp)
	movq	%r12, (%rsp)
	movq	%rsi, %rdi
	movq	%rdx, %rsi
	movq	%rcx, %rdx
	movq	%r8, %rcx
	movq	%r9, %r8
	movq	%r15, %r9
	callq	_gcm_v2.gcm_siv.message.put_tag.1
	movq	%rbx, %rdi
	movq	%r13, %rsi
	movq	%r15, %rdx
	movq	%r12, %rcx
	callq	_gcm_v2.gcm_siv.message.process_text
	movaps	16(%rsp), %xmm0
	movups	%xmm0, (%r14)
	addq	$32, %rsp
	popq	%rbx
	popq	%r12
	popq	%r13
	popq	%r14
	popq	%r15
	retq
                                        # -- End function
	.section	__TEXT,__text,regular,pure_instructions
	.p2align	4                               # -- Begin function gcm_siv::course::seal_in::<#40c030eaacddd0c9>
_gcm_v2.gcm_siv.course.seal_in.2: # @_gcm_v2.gcm_siv.course.seal_in.2
# %bb.0:                                # %start
	pushq	%rbp
	pushq	%r15
	pushq	%r14
	pushq	%r13
	pushq	%r12
	pushq	%rbx
	subq	$3072, %rsp                     # imm = 0xC00
	movq	$0, (%rsp)
	subq	$296, %rsp                      # imm = 0x128
	movq	%r9, 16(%rsp)                   # 8-byte Spill
	movq	%r8, %r15
	movq	%rcx, %r12
	movq	%rdx, %rbp
	movq	%rsi, %rbx
	movq	%rdi, 24(%rsp)                  # 8-byte Spill
	xorps	%xmm0, %xmm0
	movups	%xmm0, 1816(%rsp)
	leaq	296(%rsp), %r14
	movl	$1520, %edx                     # imm = 0x5F0
	movq	%r14, %rdi
	xorl	%esi, %esi
	callq	*_memset@GOTPCREL(%rip)
	leaq	1832(%rsp), %r13
	movl	$1536, %edx                     # imm = 0x600
	movq	%r13, %rdi
	movq	%r14, %rsi
	callq	*_memcpy@GOTPCREL(%rip)
	xorps	%xmm0, %xmm0
	movaps	%xmm0, 48(%rsp)
	movaps	%xmm0, 64(%rsp)
	movaps	%xmm0, 80(%rsp)
	movaps	%xmm0, 96(%rsp)
	movaps	%xmm0, 112(%rsp)
	movaps	%xmm0, 128(%rsp)
	movaps	%xmm0, 144(%rsp)
	movaps	%xmm0, 160(%rsp)
	movaps	%xmm0, 176(%rsp)
	movaps	%xmm0, 192(%rsp)
	movaps	%xmm0, 208(%rsp)
	movaps	%xmm0, 224(%rsp)
	movaps	%xmm0, 240(%rsp)
	movaps	%xmm0, 256(%rsp)
	movaps	%xmm0, 272(%rsp)
	movl	$0, 288(%rsp)
	leaq	48(%rsp), %r14
	movq	%rbx, %rdi
	movq	%rbp, %rsi
	movq	%r12, %rdx
	movq	%r14, %rcx
	movq	%r13, %r8
	callq	_gcm_v2.gcm_siv.keys.derive_and_prepare.2
	movaps	3424(%rsp), %xmm0
	movups	%xmm0, (%rsp)
	leaq	32(%rsp), %rdi
	movq	%r14, %rsi
	movq	%r13, %rdx
	movq	%r12, %rcx
	movq	%r15, %r8
	movq	16(%rsp), %r9                   # 8-byte Reload
	callq	_gcm_v2.gcm_siv.message.seal.2
	movl	$0, 48(%rsp)
	leaq	52(%rsp), %rdi
	callq	_gcm_v2.aes_cipher.zeroize.elements.zeroize_elements.1
	movl	$96, %esi
	movq	%r13, %rdi
	callq	_gcm_v2.aes_cipher.zeroize.elements.zeroize_elements.2
	callq	_gcm_v2.aes_cipher.zeroize.stack.wipe_stack.2816
	movups	32(%rsp), %xmm0
	movq	24(%rsp), %rax                  # 8-byte Reload
	movups	%xmm0, (%rax)
	addq	$3368, %rsp                     # imm = 0xD28
	popq	%rbx
	popq	%r12
	popq	%r13
	popq	%r14
	popq	%r15
	popq	%rbp
	retq
                                        # -- End function
	.section	__TEXT,__text,regular,pure_instructions
	.p2align	4                               # -- Begin function gcm_siv::message::seal::<#2b34360e0e51af73>
_gcm_v2.gcm_siv.message.seal.2: # @_gcm_v2.gcm_siv.message.seal.2
# %bb.0:                                # %start
	pushq	%r15
	pushq	%r14
	pushq	%r13
	pushq	%r12
	pushq	%rbx
	subq	$32, %rsp
	movq	%rsi, %rbx
	movq	%rdi, %r14
	movq	80(%rsp), %r15
	movq	88(%rsp), %r12
	xorps	%xmm0, %xmm0
	movaps	%xmm0, 16(%rsp)
	leaq	16(%rsp), %r13
	movq	%r13, 8(%rsp)
	movq	%r12, (%rsp)
	movq	%rsi, %rdi
	movq	%rdx, %rsi
	movq	%rcx, %rdx
	movq	%r8, %rcx
	movq	%r9, %r8
	movq	%r15, %r9
	callq	_gcm_v2.gcm_siv.message.put_tag.2
	movq	%rbx, %rdi
	movq	%r13, %rsi
	movq	%r15, %rdx
	movq	%r12, %rcx
	callq	_gcm_v2.gcm_siv.message.process_text
	movaps	16(%rsp), %xmm0
	movups	%xmm0, (%r14)
	addq	$32, %rsp
	popq	%rbx
	popq	%r12
	popq	%r13
	popq	%r14
	popq	%r15
	retq
                                        # -- End function
	.section	__TEXT,__const
	.p2align	4, 0x0                          # -- Begin function gcm::hash_room::hash_piece::<#84904cd934dcda78>
l_gcm_v2_CPI58_0:
	.byte	15                              # 0xf
	.byte	14                              # 0xe
	.byte	13                              # 0xd
	.byte	12                              # 0xc
	.byte	11                              # 0xb
	.byte	10                              # 0xa
	.byte	9                               # 0x9
	.byte	8                               # 0x8
	.byte	7                               # 0x7
	.byte	6                               # 0x6
	.byte	5                               # 0x5
	.byte	4                               # 0x4
	.byte	3                               # 0x3
	.byte	2                               # 0x2
	.byte	1                               # 0x1
	.byte	0                               # 0x0
	.section	__TEXT,__text,regular,pure_instructions
	.p2align	4
_gcm_v2.gcm.hash_room.hash_piece: # @_gcm_v2.gcm.hash_room.hash_piece
# %bb.0:                                # %start
	pushq	%rbp
	pushq	%r15
	pushq	%r14
	pushq	%r13
	pushq	%r12
	pushq	%rbx
	subq	$72, %rsp
	movq	%r8, %rbx
	movq	%rdx, %r14
	movl	$16, %edx
	subq	%rcx, %rdx
	movq	%r9, %rbp
	subq	%rdx, %rbp
	jae	Lgcm_v2_BB58_4
# %bb.1:                                # %then.1
	leaq	(%r14,%rcx), %rdi
	movq	%rdi, %rax
	subq	%rbx, %rax
	cmpq	%r9, %rax
	jae	Lgcm_v2_BB58_7
# %bb.2:                                # %iter.check205
	cmpq	$4, %r9
	jb	Lgcm_v2_BB58_3
# %bb.9:                                # %vector.memcheck199
	cmpq	$32, %rax
	jae	Lgcm_v2_BB58_13
Lgcm_v2_BB58_3:
	xorl	%eax, %eax
Lgcm_v2_BB58_39:                              # %join.7.i.i.i.i.i.i.preheader
	movq	%r9, %rsi
	movq	%rax, %rdx
	andq	$3, %rsi
	je	Lgcm_v2_BB58_42
# %bb.40:                               # %join.7.i.i.i.i.i.i.prol.preheader
	movq	%rax, %rdx
	.p2align	4
Lgcm_v2_BB58_41:                              # %join.7.i.i.i.i.i.i.prol
                                        # =>This Inner Loop Header: Depth=1
	movzbl	(%rbx,%rdx), %r8d
	movb	%r8b, (%rdi,%rdx)
	incq	%rdx
	decq	%rsi
	jne	Lgcm_v2_BB58_41
Lgcm_v2_BB58_42:                              # %join.7.i.i.i.i.i.i.prol.loopexit
	subq	%r9, %rax
	cmpq	$-4, %rax
	ja	Lgcm_v2_BB58_31
# %bb.43:                               # %join.7.i.i.i.i.i.i.preheader235
	leaq	(%rcx,%r14), %rax
	addq	$3, %rax
	.p2align	4
Lgcm_v2_BB58_44:                              # %join.7.i.i.i.i.i.i
                                        # =>This Inner Loop Header: Depth=1
	movzbl	(%rbx,%rdx), %ecx
	movb	%cl, -3(%rax,%rdx)
	movzbl	1(%rbx,%rdx), %ecx
	movb	%cl, -2(%rax,%rdx)
	movzbl	2(%rbx,%rdx), %ecx
	movb	%cl, -1(%rax,%rdx)
	movzbl	3(%rbx,%rdx), %ecx
	movb	%cl, (%rax,%rdx)
	addq	$4, %rdx
	cmpq	%rdx, %r9
	jne	Lgcm_v2_BB58_44
	jmp	Lgcm_v2_BB58_31
Lgcm_v2_BB58_4:                               # %join.3
	movq	%rdi, %r8
	movq	(%rsi), %r13
	movq	8(%rsi), %r12
	leaq	(%rbx,%rdx), %rax
	movq	%rax, 24(%rsp)                  # 8-byte Spill
	leaq	(%r14,%rcx), %rdi
	movq	%rdi, %rax
	subq	%rbx, %rax
	cmpq	%rdx, %rax
	movq	%rcx, 16(%rsp)                  # 8-byte Spill
	movq	%rsi, 64(%rsp)                  # 8-byte Spill
	jae	Lgcm_v2_BB58_8
# %bb.5:                                # %iter.check
	cmpq	$12, %rcx
	jbe	Lgcm_v2_BB58_11
# %bb.6:
	xorl	%eax, %eax
	jmp	Lgcm_v2_BB58_20
Lgcm_v2_BB58_7:                               # %apart.2.i.i.i.i.i.i
	movq	%rbx, %rsi
	movq	%r9, %rdx
	addq	$72, %rsp
	popq	%rbx
	popq	%r12
	popq	%r13
	popq	%r14
	popq	%r15
	popq	%rbp
	jmpq	*_memmove@GOTPCREL(%rip)
Lgcm_v2_BB58_8:                               # %apart.2.i.i.i.i.i.i57
	movq	%rbx, %rsi
	movq	%r8, %r15
	callq	*_memmove@GOTPCREL(%rip)
	movq	%r15, %r8
	jmp	Lgcm_v2_BB58_21
Lgcm_v2_BB58_11:                              # %vector.memcheck
	cmpq	$16, %rax
	jae	Lgcm_v2_BB58_15
# %bb.12:
	xorl	%eax, %eax
	jmp	Lgcm_v2_BB58_20
Lgcm_v2_BB58_13:                              # %vector.main.loop.iter.check207
	cmpq	$32, %r9
	jae	Lgcm_v2_BB58_32
# %bb.14:
	xorl	%eax, %eax
	jmp	Lgcm_v2_BB58_36
Lgcm_v2_BB58_15:                              # %vector.main.loop.iter.check
	testq	%rcx, %rcx
	je	Lgcm_v2_BB58_45
# %bb.16:                               # %vec.epilog.ph
	movl	%edx, %eax
	andl	$-4, %eax
	movl	(%rbx), %ecx
	movl	%ecx, (%rdi)
	cmpq	$4, %rax
	je	Lgcm_v2_BB58_19
# %bb.17:                               # %vec.epilog.vector.body.1
	movl	4(%rbx), %ecx
	movl	%ecx, 4(%rdi)
	cmpl	$8, %eax
	je	Lgcm_v2_BB58_19
# %bb.18:                               # %vec.epilog.vector.body.2
	movl	8(%rbx), %ecx
	movl	%ecx, 8(%rdi)
Lgcm_v2_BB58_19:                              # %vec.epilog.middle.block
	cmpl	%eax, %edx
	je	Lgcm_v2_BB58_21
	.p2align	4
Lgcm_v2_BB58_20:                              # %join.7.i.i.i.i.i.i58
                                        # =>This Inner Loop Header: Depth=1
	movzbl	(%rbx,%rax), %ecx
	movb	%cl, (%rdi,%rax)
	incq	%rax
	cmpq	%rax, %rdx
	jne	Lgcm_v2_BB58_20
Lgcm_v2_BB58_21:                              # %"core::slice::edits::slice+T::copy_from_slice::<i8,20'core::clone::U8Clone{}>.exit65"
	movq	%rbp, %rcx
	andq	$-16, %rcx
	movq	24(%rsp), %rax                  # 8-byte Reload
	movq	%rcx, (%rsp)                    # 8-byte Spill
	addq	%rcx, %rax
	movq	%rax, 56(%rsp)                  # 8-byte Spill
	movl	%ebp, %r15d
	andl	$15, %r15d
	xorq	(%r14), %r13
	xorq	8(%r14), %r12
	bswapq	%r12
	bswapq	%r13
	movq	%r8, 8(%rsp)                    # 8-byte Spill
	movq	(%r8), %rsi
	xorps	%xmm0, %xmm0
	movaps	%xmm0, 32(%rsp)
	movq	%r13, %xmm1
	movq	%r12, %xmm0
	punpcklqdq	%xmm1, %xmm0            # xmm0 = xmm0[0],xmm1[0]
	pshufb	l_gcm_v2_CPI58_0(%rip), %xmm0          # xmm0 = xmm0[15,14,13,12,11,10,9,8,7,6,5,4,3,2,1,0]
	leaq	32(%rsp), %rdi
	callq	_gcm_v2.gcm.multiples.Multiples.block_product
	movq	56(%rsp), %rsi                  # 8-byte Reload
	movq	32(%rsp), %r13
	movq	40(%rsp), %r12
	bswapq	%r13
	bswapq	%r12
	movq	%r14, %rax
	subq	%rsi, %rax
	cmpq	%r15, %rax
	jae	Lgcm_v2_BB58_24
# %bb.22:                               # %join.7.i.i.i.i.i.i84.preheader
	movl	%ebp, %eax
	andl	$3, %eax
	cmpl	$4, %r15d
	jae	Lgcm_v2_BB58_25
# %bb.23:
	xorl	%ecx, %ecx
	movq	16(%rsp), %rdx                  # 8-byte Reload
	movq	8(%rsp), %r9                    # 8-byte Reload
	movq	(%rsp), %r8                     # 8-byte Reload
	jmp	Lgcm_v2_BB58_28
Lgcm_v2_BB58_24:                              # %apart.2.i.i.i.i.i.i83
	movq	%r14, %rdi
	movq	%r15, %rdx
	callq	*_memmove@GOTPCREL(%rip)
	movq	8(%rsp), %r9                    # 8-byte Reload
	movq	(%rsp), %r8                     # 8-byte Reload
	jmp	Lgcm_v2_BB58_30
Lgcm_v2_BB58_25:                              # %join.7.i.i.i.i.i.i84.preheader.new
	andl	$12, %ebp
	movq	(%rsp), %r8                     # 8-byte Reload
	movq	%r8, %rcx
	movq	16(%rsp), %rdx                  # 8-byte Reload
	subq	%rdx, %rcx
	leaq	(%rcx,%rbx), %rsi
	addq	$19, %rsi
	xorl	%ecx, %ecx
	movq	8(%rsp), %r9                    # 8-byte Reload
	.p2align	4
Lgcm_v2_BB58_26:                              # %join.7.i.i.i.i.i.i84
                                        # =>This Inner Loop Header: Depth=1
	movzbl	-3(%rsi,%rcx), %edi
	movb	%dil, (%r14,%rcx)
	movzbl	-2(%rsi,%rcx), %edi
	movb	%dil, 1(%r14,%rcx)
	movzbl	-1(%rsi,%rcx), %edi
	movb	%dil, 2(%r14,%rcx)
	movzbl	(%rsi,%rcx), %edi
	movb	%dil, 3(%r14,%rcx)
	addq	$4, %rcx
	cmpq	%rcx, %rbp
	jne	Lgcm_v2_BB58_26
# %bb.27:                               # %"core::slice::edits::slice+T::copy_from_slice::<i8,20'core::clone::U8Clone{}>.exit91.loopexit.unr-lcssa"
	testq	%rax, %rax
	je	Lgcm_v2_BB58_30
Lgcm_v2_BB58_28:                              # %join.7.i.i.i.i.i.i84.epil.preheader
	leaq	(%rcx,%r8), %rsi
	subq	%rdx, %rsi
	leaq	(%rsi,%rbx), %rdx
	addq	$16, %rdx
	addq	%rcx, %r14
	xorl	%ecx, %ecx
	.p2align	4
Lgcm_v2_BB58_29:                              # %join.7.i.i.i.i.i.i84.epil
                                        # =>This Inner Loop Header: Depth=1
	movzbl	(%rdx,%rcx), %esi
	movb	%sil, (%r14,%rcx)
	incq	%rcx
	cmpq	%rcx, %rax
	jne	Lgcm_v2_BB58_29
Lgcm_v2_BB58_30:                              # %"core::slice::edits::slice+T::copy_from_slice::<i8,20'core::clone::U8Clone{}>.exit91"
	movq	(%r9), %rdi
	movq	%r12, %rsi
	movq	%r13, %rdx
	movq	24(%rsp), %rcx                  # 8-byte Reload
	callq	_gcm_v2.gcm.hash_room.MultiplesRoomHashRoom.hash_on
	movq	%rdx, %xmm0
	movq	%rax, %xmm1
	punpcklqdq	%xmm0, %xmm1            # xmm1 = xmm1[0],xmm0[0]
	pshufb	l_gcm_v2_CPI58_0(%rip), %xmm1          # xmm1 = xmm1[15,14,13,12,11,10,9,8,7,6,5,4,3,2,1,0]
	movq	64(%rsp), %rax                  # 8-byte Reload
	movdqu	%xmm1, (%rax)
Lgcm_v2_BB58_31:                              # %common.ret
	addq	$72, %rsp
	popq	%rbx
	popq	%r12
	popq	%r13
	popq	%r14
	popq	%r15
	popq	%rbp
	retq
Lgcm_v2_BB58_32:                              # %vector.ph208
	movq	%r9, %rax
	andq	$-32, %rax
	leaq	(%rcx,%r14), %rdx
	addq	$16, %rdx
	xorl	%esi, %esi
	.p2align	4
Lgcm_v2_BB58_33:                              # %vector.body211
                                        # =>This Inner Loop Header: Depth=1
	movdqu	(%rbx,%rsi), %xmm0
	movdqu	16(%rbx,%rsi), %xmm1
	movdqu	%xmm0, -16(%rdx,%rsi)
	movdqu	%xmm1, (%rdx,%rsi)
	addq	$32, %rsi
	cmpq	%rsi, %rax
	jne	Lgcm_v2_BB58_33
# %bb.34:                               # %middle.block216
	cmpq	%rax, %r9
	je	Lgcm_v2_BB58_31
# %bb.35:                               # %vec.epilog.iter.check220
	testb	$28, %r9b
	je	Lgcm_v2_BB58_39
Lgcm_v2_BB58_36:                              # %vec.epilog.ph222
	movq	%rax, %rdx
	movq	%r9, %rax
	andq	$-4, %rax
	.p2align	4
Lgcm_v2_BB58_37:                              # %vec.epilog.vector.body225
                                        # =>This Inner Loop Header: Depth=1
	movl	(%rbx,%rdx), %esi
	movl	%esi, (%rdi,%rdx)
	addq	$4, %rdx
	cmpq	%rdx, %rax
	jne	Lgcm_v2_BB58_37
# %bb.38:                               # %vec.epilog.middle.block229
	cmpq	%rax, %r9
	je	Lgcm_v2_BB58_31
	jmp	Lgcm_v2_BB58_39
Lgcm_v2_BB58_45:                              # %vector.body
	movups	(%rbx), %xmm0
	movups	%xmm0, (%rdi)
	jmp	Lgcm_v2_BB58_21
                                        # -- End function
	.section	__TEXT,__const
	.p2align	4, 0x0                          # -- Begin function gcm::mode::BorrowedGcm::enter_phase::<#c13ce517942629d6>
l_gcm_v2_CPI59_0:
	.byte	15                              # 0xf
	.byte	14                              # 0xe
	.byte	13                              # 0xd
	.byte	12                              # 0xc
	.byte	11                              # 0xb
	.byte	10                              # 0xa
	.byte	9                               # 0x9
	.byte	8                               # 0x8
	.byte	7                               # 0x7
	.byte	6                               # 0x6
	.byte	5                               # 0x5
	.byte	4                               # 0x4
	.byte	3                               # 0x3
	.byte	2                               # 0x2
	.byte	1                               # 0x1
	.byte	0                               # 0x0
	.section	__TEXT,__text,regular,pure_instructions
	.p2align	4
_gcm_v2.gcm.mode.BorrowedGcm.enter_phase: # @_gcm_v2.gcm.mode.BorrowedGcm.enter_phase
# %bb.0:                                # %start
	movq	24(%rsi), %rax
	xorl	%r8d, %r8d
	cmpq	$5, %rax
	cmovael	%r8d, %eax
	cmpb	$1, %al
	je	Lgcm_v2_BB59_3
# %bb.1:                                # %start
	cmpb	%dl, %al
	je	Lgcm_v2_BB59_3
# %bb.2:
	movb	$1, %al
                                        # kill: def $al killed $al killed $eax
	movl	%r8d, %edx
	retq
Lgcm_v2_BB59_3:                               # %join.3
	cmpb	$1, %al
	setne	%al
	addq	8(%rsi), %rcx
	movq	$-1, %r8
	cmovaeq	%rcx, %r8
	movabsq	$68719476704, %rcx              # imm = 0xFFFFFFFE0
	cmpq	%rcx, %r8
	seta	%r8b
	orb	%r8b, %al
	movl	%r8d, %eax
	jne	Lgcm_v2_BB59_5
# %bb.4:                                # %then.8
	pushq	%rbp
	pushq	%rbx
	pushq	%rax
	movq	32(%rdi), %rdi
	movq	%rsi, %rbx
	movl	%edx, %ebp
	callq	_gcm_v2.gcm.mode.BorrowedGcm.hash_so_far
	movq	%rdx, %xmm0
	movq	%rax, %xmm1
	punpcklqdq	%xmm0, %xmm1            # xmm1 = xmm1[0],xmm0[0]
	pshufb	l_gcm_v2_CPI59_0(%rip), %xmm1          # xmm1 = xmm1[15,14,13,12,11,10,9,8,7,6,5,4,3,2,1,0]
	movdqu	%xmm1, 48(%rbx)
	movzbl	%bpl, %eax
	movq	%rax, 24(%rbx)
	xorl	%r8d, %r8d
	xorl	%eax, %eax
	addq	$8, %rsp
	popq	%rbx
	popq	%rbp
Lgcm_v2_BB59_5:                               # %return.4
                                        # kill: def $al killed $al killed $eax
	movl	%r8d, %edx
	retq
                                        # -- End function
	.section	__TEXT,__text,regular,pure_instructions
	.p2align	4                               # -- Begin function gcm::mode::BorrowedGcm::is_tag_so_far::<#c13ce517942629d6>
_gcm_v2.gcm.mode.BorrowedGcm.is_tag_so_far: # @_gcm_v2.gcm.mode.BorrowedGcm.is_tag_so_far
# %bb.0:                                # %start
	pushq	%r14
	pushq	%rbx
	subq	$24, %rsp
	movq	%rdx, %rbx
	leaq	8(%rsp), %r14
	movq	%r14, %rdx
	callq	_gcm_v2.gcm.mode.BorrowedGcm.put_tag_so_far
	movq	%rbx, %rdi
	movq	%r14, %rsi
	callq	_gcm_v2.aes_cipher.blocks.difference
	testl	%eax, %eax
	sete	%bl
	movq	%r14, %rdi
	callq	_gcm_v2.aes_cipher.zeroize.elements.zeroize_elements.3
	movl	%ebx, %eax
	addq	$24, %rsp
	popq	%rbx
	popq	%r14
	retq
                                        # -- End function
	.section	__TEXT,__text,regular,pure_instructions
	.p2align	4                               # -- Begin function gcm::mode::BorrowedGcm::is_short_tag_so_far::<#c13ce517942629d6>
_gcm_v2.gcm.mode.BorrowedGcm.is_short_tag_so_far: # @_gcm_v2.gcm.mode.BorrowedGcm.is_short_tag_so_far
# %bb.0:                                # %start
	pushq	%r15
	pushq	%r14
	pushq	%r12
	pushq	%rbx
	subq	$40, %rsp
	movq	%rcx, %rbx
	movq	%rdx, %r14
	leaq	24(%rsp), %r15
	movq	%r15, %rdx
	callq	_gcm_v2.gcm.mode.BorrowedGcm.put_tag_so_far
	movups	24(%rsp), %xmm0
	movaps	%xmm0, (%rsp)
	movq	%rsp, %r12
	movq	%r12, %rdi
	movq	%r14, %rsi
	movq	%rbx, %rdx
	callq	*_memcpy@GOTPCREL(%rip)
	movq	%r12, %rdi
	movq	%r15, %rsi
	callq	_gcm_v2.aes_cipher.blocks.difference
	testl	%eax, %eax
	sete	%bl
	movq	%r15, %rdi
	callq	_gcm_v2.aes_cipher.zeroize.elements.zeroize_elements.3
	movq	%r12, %rdi
	callq	_gcm_v2.aes_cipher.zeroize.elements.zeroize_elements.3
	movl	%ebx, %eax
	addq	$40, %rsp
	popq	%rbx
	popq	%r12
	popq	%r14
	popq	%r15
	retq
                                        # -- End function
	.section	__TEXT,__text,regular,pure_instructions
	export_gcm_v2	fotsgure_gcm_key_length
	.p2align	4
_gcm_v2.fotsgure_gcm_key_length:                # @_gcm_v2.fotsgure_gcm_key_length
	endbr64
# %bb.0:                                # %start
	movl	(%rdi), %ecx
	xorl	%eax, %eax
	cmpq	$32, %rcx
	ja	Lgcm_v2_BB62_3
# %bb.1:                                # %start
	movabsq	$4311810048, %rdx               # imm = 0x101010000
	btq	%rcx, %rdx
	jae	Lgcm_v2_BB62_3
# %bb.2:                                # %then.1.i.i
	movq	%rcx, %rax
Lgcm_v2_BB62_3:                               # %"gcm_c::kept::fotsgure_gcm_key_length.exit"
	pxor	%xmm0, %xmm0
	pxor	%xmm1, %xmm1
	pxor	%xmm2, %xmm2
	pxor	%xmm3, %xmm3
	pxor	%xmm4, %xmm4
	pxor	%xmm5, %xmm5
	pxor	%xmm6, %xmm6
	pxor	%xmm7, %xmm7
	pxor	%xmm8, %xmm8
	pxor	%xmm9, %xmm9
	pxor	%xmm10, %xmm10
	pxor	%xmm11, %xmm11
	pxor	%xmm12, %xmm12
	pxor	%xmm13, %xmm13
	pxor	%xmm14, %xmm14
	pxor	%xmm15, %xmm15
	xorl	%ecx, %ecx
	xorl	%edx, %edx
	xorl	%esi, %esi
	xorl	%edi, %edi
	xorl	%r8d, %r8d
	xorl	%r9d, %r9d
	xorl	%r10d, %r10d
	xorl	%r11d, %r11d
	retq
                                        # -- End function
	.section	__TEXT,__text,regular,pure_instructions
	export_gcm_v2	fotsgure_gcm_siv_wipe
	.p2align	4
_gcm_v2.fotsgure_gcm_siv_wipe:                  # @_gcm_v2.fotsgure_gcm_siv_wipe
	endbr64
# %bb.0:                                # %start
	leaq	4(%rdi), %rax
	xorps	%xmm0, %xmm0
	movups	%xmm0, 224(%rdi)
	movups	%xmm0, 208(%rdi)
	movups	%xmm0, 192(%rdi)
	movups	%xmm0, 176(%rdi)
	movups	%xmm0, 160(%rdi)
	movups	%xmm0, 144(%rdi)
	movups	%xmm0, 128(%rdi)
	movups	%xmm0, 112(%rdi)
	movups	%xmm0, 96(%rdi)
	movups	%xmm0, 80(%rdi)
	movups	%xmm0, 64(%rdi)
	movups	%xmm0, 48(%rdi)
	movups	%xmm0, 32(%rdi)
	movups	%xmm0, 16(%rdi)
	movups	%xmm0, (%rdi)
	movl	$0, 240(%rdi)
	movq	%rax, %rdi
	jmp	_gcm_v2.aes_cipher.zeroize.elements.zeroize_elements.1 # TAILCALL
                                        # -- End function
	.section	__TEXT,__text,regular,pure_instructions
	export_gcm_v2	fotsgure_gcm_version
	.p2align	4
_gcm_v2.fotsgure_gcm_version:                   # @_gcm_v2.fotsgure_gcm_version
	endbr64
# %bb.0:                                # %start
	movl	$400, %eax                      # imm = 0x190
	pxor	%xmm0, %xmm0
	pxor	%xmm1, %xmm1
	pxor	%xmm2, %xmm2
	pxor	%xmm3, %xmm3
	pxor	%xmm4, %xmm4
	pxor	%xmm5, %xmm5
	pxor	%xmm6, %xmm6
	pxor	%xmm7, %xmm7
	pxor	%xmm8, %xmm8
	pxor	%xmm9, %xmm9
	pxor	%xmm10, %xmm10
	pxor	%xmm11, %xmm11
	pxor	%xmm12, %xmm12
	pxor	%xmm13, %xmm13
	pxor	%xmm14, %xmm14
	pxor	%xmm15, %xmm15
	xorl	%ecx, %ecx
	xorl	%edx, %edx
	xorl	%esi, %esi
	xorl	%edi, %edi
	xorl	%r8d, %r8d
	xorl	%r9d, %r9d
	xorl	%r10d, %r10d
	xorl	%r11d, %r11d
	retq
                                        # -- End function
	.section	__TEXT,__text,regular,pure_instructions
	export_gcm_v2	fotsgure_gcm_wipe
	.p2align	4
_gcm_v2.fotsgure_gcm_wipe:                      # @_gcm_v2.fotsgure_gcm_wipe
	endbr64
# %bb.0:                                # %start
	pushq	%r14
	pushq	%rbx
	pushq	%rax
	leaq	4(%rdi), %rbx
	leaq	244(%rdi), %r14
	movl	$1780, %edx                     # imm = 0x6F4
	xorl	%esi, %esi
	callq	*_memset@GOTPCREL(%rip)
	movq	%rbx, %rdi
	callq	_gcm_v2.aes_cipher.zeroize.elements.zeroize_elements.1
	movl	$96, %esi
	movq	%r14, %rdi
	addq	$8, %rsp
	popq	%rbx
	popq	%r14
	jmp	_gcm_v2.aes_cipher.zeroize.elements.zeroize_elements.2 # TAILCALL
                                        # -- End function
	.section	__TEXT,__text,regular,pure_instructions
	export_gcm_v2	fotsgure_gcm_wipe_message
	.p2align	4
_gcm_v2.fotsgure_gcm_wipe_message:              # @_gcm_v2.fotsgure_gcm_wipe_message
	endbr64
# %bb.0:                                # %start
	xorps	%xmm0, %xmm0
	movups	%xmm0, 64(%rdi)
	movups	%xmm0, 48(%rdi)
	movups	%xmm0, 32(%rdi)
	movups	%xmm0, 16(%rdi)
	movups	%xmm0, (%rdi)
	jmp	_gcm_v2.gcm.message_state.MessageZeroize.zeroize # TAILCALL
                                        # -- End function
	.section	__TEXT,__text,regular,pure_instructions
	export_gcm_v2	fotsgure_gcm_siv_set_key
	.p2align	4
_gcm_v2.fotsgure_gcm_siv_set_key:               # @_gcm_v2.fotsgure_gcm_siv_set_key
	endbr64
# %bb.0:                                # %start
	cmpq	$16, %rdx
	je	Lgcm_v2_BB67_3
# %bb.1:                                # %start
	cmpq	$32, %rdx
	jne	Lgcm_v2_BB67_2
Lgcm_v2_BB67_3:                               # %join.3.i
	pushq	%r14
	pushq	%rbx
	pushq	%rax
	xorl	%eax, %eax
	testq	%rsi, %rsi
	sete	%al
	shll	$12, %eax
	addq	%rsi, %rax
	leaq	4(%rdi), %rcx
	xorps	%xmm0, %xmm0
	movups	%xmm0, 228(%rdi)
	movups	%xmm0, 212(%rdi)
	movups	%xmm0, 196(%rdi)
	movups	%xmm0, 180(%rdi)
	movups	%xmm0, 164(%rdi)
	movups	%xmm0, 148(%rdi)
	movups	%xmm0, 132(%rdi)
	movups	%xmm0, 116(%rdi)
	movups	%xmm0, 100(%rdi)
	movups	%xmm0, 84(%rdi)
	movups	%xmm0, 68(%rdi)
	movups	%xmm0, 52(%rdi)
	movups	%xmm0, 36(%rdi)
	movups	%xmm0, 20(%rdi)
	movups	%xmm0, 4(%rdi)
	movq	%rdi, %r14
	movq	%rcx, %rdi
	movq	%rax, %rsi
	movq	%rdx, %rbx
	callq	_gcm_v2.aes_permute.lane_keys.expand_lanes
	movl	%ebx, (%r14)
	xorl	%eax, %eax
	addq	$8, %rsp
	popq	%rbx
	popq	%r14
	pxor	%xmm0, %xmm0
	pxor	%xmm1, %xmm1
	pxor	%xmm2, %xmm2
	pxor	%xmm3, %xmm3
	pxor	%xmm4, %xmm4
	pxor	%xmm5, %xmm5
	pxor	%xmm6, %xmm6
	pxor	%xmm7, %xmm7
	pxor	%xmm8, %xmm8
	pxor	%xmm9, %xmm9
	pxor	%xmm10, %xmm10
	pxor	%xmm11, %xmm11
	pxor	%xmm12, %xmm12
	pxor	%xmm13, %xmm13
	pxor	%xmm14, %xmm14
	pxor	%xmm15, %xmm15
	xorl	%ecx, %ecx
	xorl	%edx, %edx
	xorl	%esi, %esi
	xorl	%edi, %edi
	xorl	%r8d, %r8d
	xorl	%r9d, %r9d
	xorl	%r10d, %r10d
	xorl	%r11d, %r11d
	retq
Lgcm_v2_BB67_2:                               # %then.1.i
	xorps	%xmm0, %xmm0
	movups	%xmm0, 224(%rdi)
	movups	%xmm0, 208(%rdi)
	movups	%xmm0, 192(%rdi)
	movups	%xmm0, 176(%rdi)
	movups	%xmm0, 160(%rdi)
	movups	%xmm0, 144(%rdi)
	movups	%xmm0, 128(%rdi)
	movups	%xmm0, 112(%rdi)
	movups	%xmm0, 96(%rdi)
	movups	%xmm0, 80(%rdi)
	movups	%xmm0, 64(%rdi)
	movups	%xmm0, 48(%rdi)
	movups	%xmm0, 32(%rdi)
	movups	%xmm0, 16(%rdi)
	movups	%xmm0, (%rdi)
	movl	$0, 240(%rdi)
	movl	$1, %eax
	pxor	%xmm0, %xmm0
	pxor	%xmm1, %xmm1
	pxor	%xmm2, %xmm2
	pxor	%xmm3, %xmm3
	pxor	%xmm4, %xmm4
	pxor	%xmm5, %xmm5
	pxor	%xmm6, %xmm6
	pxor	%xmm7, %xmm7
	pxor	%xmm8, %xmm8
	pxor	%xmm9, %xmm9
	pxor	%xmm10, %xmm10
	pxor	%xmm11, %xmm11
	pxor	%xmm12, %xmm12
	pxor	%xmm13, %xmm13
	pxor	%xmm14, %xmm14
	pxor	%xmm15, %xmm15
	xorl	%ecx, %ecx
	xorl	%edx, %edx
	xorl	%esi, %esi
	xorl	%edi, %edi
	xorl	%r8d, %r8d
	xorl	%r9d, %r9d
	xorl	%r10d, %r10d
	xorl	%r11d, %r11d
	retq
                                        # -- End function
	.section	__TEXT,__text,regular,pure_instructions
	export_gcm_v2	fotsgure_gcm_begin
	.p2align	4
_gcm_v2.fotsgure_gcm_begin:                     # @_gcm_v2.fotsgure_gcm_begin
	endbr64
# %bb.0:                                # %start
	xorl	%r8d, %r8d
	testq	%rdx, %rdx
	sete	%r10b
	movabsq	$-2305843009213693952, %r9      # imm = 0xE000000000000000
	leaq	(%rcx,%r9), %r11
	incq	%r9
	movl	$3, %eax
	cmpq	%r9, %r11
	jb	Lgcm_v2_BB68_6
# %bb.1:                                # %after.1.i
	movl	(%rdi), %r9d
	movl	$2, %eax
	cmpq	$32, %r9
	ja	Lgcm_v2_BB68_6
# %bb.2:                                # %after.1.i
	movabsq	$4311810048, %r11               # imm = 0x101010000
	btq	%r9, %r11
	jae	Lgcm_v2_BB68_6
# %bb.3:                                # %join.13.i
	pushq	%r14
	pushq	%rbx
	subq	$40, %rsp
	movb	%r10b, %r8b
	shll	$12, %r8d
	addq	%r8, %rdx
	leaq	4(%rdi), %rax
	shrl	$2, %r9d
	addq	$7, %r9
	addq	$244, %rdi
	movq	%rax, (%rsp)
	movq	%r9, 8(%rsp)
	movq	%rax, 16(%rsp)
	movq	%r9, 24(%rsp)
	movq	%rdi, 32(%rsp)
	leaq	32(%rsi), %rax
	movq	%rsp, %rdi
	movq	%rsi, %rbx
	movq	%rdx, %rsi
	movq	%rcx, %rdx
	movq	%rcx, %r14
	movq	%rax, %rcx
	callq	_gcm_v2.gcm.mode.BorrowedGcm.put_pre_counter
	movq	$1, 24(%rbx)
	xorl	%eax, %eax
	xorps	%xmm0, %xmm0
	movups	%xmm0, (%rbx)
	movq	$0, 16(%rbx)
	movups	%xmm0, 48(%rbx)
	movups	%xmm0, 64(%rbx)
	cmpq	$12, %r14
	je	Lgcm_v2_BB68_5
# %bb.4:                                # %then.1.i.i.i
	callq	_gcm_v2.aes_cipher.zeroize.stack.wipe_stack.512
	xorl	%eax, %eax
Lgcm_v2_BB68_5:
	addq	$40, %rsp
	popq	%rbx
	popq	%r14
Lgcm_v2_BB68_6:                               # %"gcm_c::pieces::fotsgure_gcm_begin.exit"
	pxor	%xmm0, %xmm0
	pxor	%xmm1, %xmm1
	pxor	%xmm2, %xmm2
	pxor	%xmm3, %xmm3
	pxor	%xmm4, %xmm4
	pxor	%xmm5, %xmm5
	pxor	%xmm6, %xmm6
	pxor	%xmm7, %xmm7
	pxor	%xmm8, %xmm8
	pxor	%xmm9, %xmm9
	pxor	%xmm10, %xmm10
	pxor	%xmm11, %xmm11
	pxor	%xmm12, %xmm12
	pxor	%xmm13, %xmm13
	pxor	%xmm14, %xmm14
	pxor	%xmm15, %xmm15
	xorl	%ecx, %ecx
	xorl	%edx, %edx
	xorl	%esi, %esi
	xorl	%edi, %edi
	xorl	%r8d, %r8d
	xorl	%r9d, %r9d
	xorl	%r10d, %r10d
	xorl	%r11d, %r11d
	retq
                                        # -- End function
	.section	__TEXT,__text,regular,pure_instructions
	export_gcm_v2	fotsgure_gcm_begin_next
	.p2align	4
_gcm_v2.fotsgure_gcm_begin_next:                # @_gcm_v2.fotsgure_gcm_begin_next
	endbr64
# %bb.0:                                # %start
	pushq	%r14
	pushq	%rbx
	subq	$56, %rsp
	movq	%rcx, %rbx
	movl	(%rdx), %r8d
	movq	4(%rdx), %rcx
	cmpq	$-1, %rcx
	sete	%r9b
	cmpl	$-1, %r8d
	sete	%r10b
	movl	$7, %eax
	testb	%r10b, %r9b
	jne	Lgcm_v2_BB69_9
# %bb.1:                                # %join.3.i
	movl	(%rdi), %r9d
	movl	$2, %eax
	cmpq	$32, %r9
	ja	Lgcm_v2_BB69_9
# %bb.2:                                # %join.3.i
	movabsq	$4311810048, %r10               # imm = 0x101010000
	btq	%r9, %r10
	jae	Lgcm_v2_BB69_9
# %bb.3:                                # %join.6.i
	leaq	4(%rdi), %rax
	shrl	$2, %r9d
	addq	$7, %r9
	addq	$244, %rdi
	movq	%rax, 16(%rsp)
	movq	%r9, 24(%rsp)
	movq	%rax, 32(%rsp)
	movq	%r9, 40(%rsp)
	movq	%rdi, 48(%rsp)
	movl	%r8d, %eax
	bswapl	%eax
	cmpq	$-1, %rcx
	je	Lgcm_v2_BB69_5
# %bb.4:                                # %"gcm::counter::nonce_after.exit.thread.i.i.i"
	movq	%rcx, %rdi
	bswapq	%rdi
	incq	%rdi
	bswapq	%rdi
	jmp	Lgcm_v2_BB69_7
Lgcm_v2_BB69_5:                               # %"gcm::counter::nonce_after.exit.i.i.i"
	cmpl	$-1, %r8d
	je	Lgcm_v2_BB69_8
# %bb.6:
	incl	%eax
	xorl	%edi, %edi
Lgcm_v2_BB69_7:                               # %arm.1.i.i.i
	bswapl	%eax
	movl	%eax, (%rdx)
	movq	%rdi, 4(%rdx)
Lgcm_v2_BB69_8:                               # %"gcm::mode::BorrowedGcm::begin_next::<#c13ce517942629d6>.exit.i"
	movl	%r8d, 4(%rsp)
	movq	%rcx, 8(%rsp)
	leaq	32(%rsi), %rcx
	leaq	16(%rsp), %rdi
	leaq	4(%rsp), %rax
	movl	$12, %edx
	movq	%rsi, %r14
	movq	%rax, %rsi
	callq	_gcm_v2.gcm.mode.BorrowedGcm.put_pre_counter
	movq	$1, 24(%r14)
	xorps	%xmm0, %xmm0
	movups	%xmm0, (%r14)
	movq	$0, 16(%r14)
	movups	%xmm0, 48(%r14)
	movups	%xmm0, 64(%r14)
	movl	12(%rsp), %eax
	movl	%eax, 8(%rbx)
	movq	4(%rsp), %rax
	movq	%rax, (%rbx)
	xorl	%eax, %eax
Lgcm_v2_BB69_9:                               # %"gcm_c::counter::fotsgure_gcm_begin_next.exit"
	addq	$56, %rsp
	popq	%rbx
	popq	%r14
	pxor	%xmm0, %xmm0
	pxor	%xmm1, %xmm1
	pxor	%xmm2, %xmm2
	pxor	%xmm3, %xmm3
	pxor	%xmm4, %xmm4
	pxor	%xmm5, %xmm5
	pxor	%xmm6, %xmm6
	pxor	%xmm7, %xmm7
	pxor	%xmm8, %xmm8
	pxor	%xmm9, %xmm9
	pxor	%xmm10, %xmm10
	pxor	%xmm11, %xmm11
	pxor	%xmm12, %xmm12
	pxor	%xmm13, %xmm13
	pxor	%xmm14, %xmm14
	pxor	%xmm15, %xmm15
	xorl	%ecx, %ecx
	xorl	%edx, %edx
	xorl	%esi, %esi
	xorl	%edi, %edi
	xorl	%r8d, %r8d
	xorl	%r9d, %r9d
	xorl	%r10d, %r10d
	xorl	%r11d, %r11d
	retq
                                        # -- End function
	.section	__TEXT,__text,regular,pure_instructions
	export_gcm_v2	fotsgure_gcm_finish
	.p2align	4
_gcm_v2.fotsgure_gcm_finish:                    # @_gcm_v2.fotsgure_gcm_finish
	endbr64
# %bb.0:                                # %start
	movl	(%rdi), %ecx
	movl	$2, %eax
	cmpq	$32, %rcx
	ja	Lgcm_v2_BB70_5
# %bb.1:                                # %start
	pushq	%r14
	pushq	%rbx
	subq	$56, %rsp
	movq	%rdx, %rbx
	movabsq	$4311810048, %rdx               # imm = 0x101010000
	btq	%rcx, %rdx
	jae	Lgcm_v2_BB70_4
# %bb.2:                                # %join.3.i
	leaq	4(%rdi), %rax
	shrl	$2, %ecx
	addq	$7, %rcx
	addq	$244, %rdi
	movq	%rax, (%rsp)
	movq	%rcx, 8(%rsp)
	movq	%rax, 16(%rsp)
	movq	%rcx, 24(%rsp)
	movq	%rdi, 32(%rsp)
	movq	24(%rsi), %rax
	cmpq	$5, %rax
	setb	%cl
	decb	%al
	cmpb	$2, %al
	setb	%dl
	andb	%cl, %dl
	movl	$8, %eax
	cmpb	$1, %dl
	jne	Lgcm_v2_BB70_4
# %bb.3:                                # %arm.4.i
	movq	%rsp, %rdi
	leaq	40(%rsp), %rdx
	movq	%rsi, %r14
	callq	_gcm_v2.gcm.mode.BorrowedGcm.put_tag_so_far
	callq	_gcm_v2.aes_cipher.zeroize.stack.wipe_stack.512
	movq	%r14, %rdi
	callq	_gcm_v2.gcm.message_state.MessageZeroize.zeroize
	movups	40(%rsp), %xmm0
	movups	%xmm0, (%rbx)
	xorl	%eax, %eax
Lgcm_v2_BB70_4:
	addq	$56, %rsp
	popq	%rbx
	popq	%r14
Lgcm_v2_BB70_5:                               # %"gcm_c::pieces::encrypting::fotsgure_gcm_finish.exit"
	pxor	%xmm0, %xmm0
	pxor	%xmm1, %xmm1
	pxor	%xmm2, %xmm2
	pxor	%xmm3, %xmm3
	pxor	%xmm4, %xmm4
	pxor	%xmm5, %xmm5
	pxor	%xmm6, %xmm6
	pxor	%xmm7, %xmm7
	pxor	%xmm8, %xmm8
	pxor	%xmm9, %xmm9
	pxor	%xmm10, %xmm10
	pxor	%xmm11, %xmm11
	pxor	%xmm12, %xmm12
	pxor	%xmm13, %xmm13
	pxor	%xmm14, %xmm14
	pxor	%xmm15, %xmm15
	xorl	%ecx, %ecx
	xorl	%edx, %edx
	xorl	%esi, %esi
	xorl	%edi, %edi
	xorl	%r8d, %r8d
	xorl	%r9d, %r9d
	xorl	%r10d, %r10d
	xorl	%r11d, %r11d
	retq
                                        # -- End function
	.section	__TEXT,__text,regular,pure_instructions
	export_gcm_v2	fotsgure_gcm_finish_unverified
	.p2align	4
_gcm_v2.fotsgure_gcm_finish_unverified:         # @_gcm_v2.fotsgure_gcm_finish_unverified
	endbr64
# %bb.0:                                # %start
	pushq	%r14
	pushq	%rbx
	subq	$40, %rsp
	movl	(%rdi), %eax
	movl	$2, %ebx
	cmpq	$32, %rax
	ja	Lgcm_v2_BB71_5
# %bb.1:                                # %start
	movabsq	$4311810048, %rcx               # imm = 0x101010000
	btq	%rax, %rcx
	jae	Lgcm_v2_BB71_5
# %bb.2:                                # %join.3.i
	leaq	4(%rdi), %rcx
	shrl	$2, %eax
	addq	$7, %rax
	addq	$244, %rdi
	movq	%rcx, (%rsp)
	movq	%rax, 8(%rsp)
	movq	%rcx, 16(%rsp)
	movq	%rax, 24(%rsp)
	movq	%rdi, 32(%rsp)
	movq	24(%rsi), %rax
	xorl	%ebx, %ebx
	cmpq	$5, %rax
	cmovael	%ebx, %eax
	orl	$2, %eax
	movzbl	%al, %eax
	cmpl	$3, %eax
	jne	Lgcm_v2_BB71_3
# %bb.4:                                # %arm.4.i
	movq	%rsp, %rdi
	movq	%rsi, %r14
	callq	_gcm_v2.gcm.mode.BorrowedGcm.put_tag_so_far
	callq	_gcm_v2.aes_cipher.zeroize.stack.wipe_stack.512
	movq	%r14, %rdi
	callq	_gcm_v2.gcm.message_state.MessageZeroize.zeroize
	jmp	Lgcm_v2_BB71_5
Lgcm_v2_BB71_3:
	movl	$8, %ebx
Lgcm_v2_BB71_5:                               # %"gcm_c::pieces::decrypting::fotsgure_gcm_finish_unverified.exit"
	movl	%ebx, %eax
	addq	$40, %rsp
	popq	%rbx
	popq	%r14
	pxor	%xmm0, %xmm0
	pxor	%xmm1, %xmm1
	pxor	%xmm2, %xmm2
	pxor	%xmm3, %xmm3
	pxor	%xmm4, %xmm4
	pxor	%xmm5, %xmm5
	pxor	%xmm6, %xmm6
	pxor	%xmm7, %xmm7
	pxor	%xmm8, %xmm8
	pxor	%xmm9, %xmm9
	pxor	%xmm10, %xmm10
	pxor	%xmm11, %xmm11
	pxor	%xmm12, %xmm12
	pxor	%xmm13, %xmm13
	pxor	%xmm14, %xmm14
	pxor	%xmm15, %xmm15
	xorl	%ecx, %ecx
	xorl	%edx, %edx
	xorl	%esi, %esi
	xorl	%edi, %edi
	xorl	%r8d, %r8d
	xorl	%r9d, %r9d
	xorl	%r10d, %r10d
	xorl	%r11d, %r11d
	retq
                                        # -- End function
	.section	__TEXT,__text,regular,pure_instructions
	export_gcm_v2	fotsgure_gcm_set_key
	.p2align	4
_gcm_v2.fotsgure_gcm_set_key:                   # @_gcm_v2.fotsgure_gcm_set_key
	endbr64
# %bb.0:                                # %start
	pushq	%r15
	pushq	%r14
	pushq	%rbx
	cmpq	$32, %rdx
	ja	Lgcm_v2_BB72_2
# %bb.1:                                # %start
	movq	%rdx, %rbx
	movabsq	$4311810048, %rax               # imm = 0x101010000
	btq	%rdx, %rax
	jae	Lgcm_v2_BB72_2
# %bb.3:                                # %join.3.i
	xorl	%eax, %eax
	testq	%rsi, %rsi
	sete	%al
	shll	$12, %eax
	addq	%rsi, %rax
	leaq	4(%rdi), %r14
	xorps	%xmm0, %xmm0
	movups	%xmm0, 228(%rdi)
	movups	%xmm0, 212(%rdi)
	movups	%xmm0, 196(%rdi)
	movups	%xmm0, 180(%rdi)
	movups	%xmm0, 164(%rdi)
	movups	%xmm0, 148(%rdi)
	movups	%xmm0, 132(%rdi)
	movups	%xmm0, 116(%rdi)
	movups	%xmm0, 100(%rdi)
	movups	%xmm0, 84(%rdi)
	movups	%xmm0, 68(%rdi)
	movups	%xmm0, 52(%rdi)
	movups	%xmm0, 36(%rdi)
	movups	%xmm0, 20(%rdi)
	movups	%xmm0, 4(%rdi)
	movq	%rdi, %r15
	movq	%r14, %rdi
	movq	%rax, %rsi
	movq	%rbx, %rdx
	callq	_gcm_v2.aes_permute.lane_keys.expand_lanes
	movl	%ebx, (%r15)
	shrl	$2, %ebx
	addl	$7, %ebx
	addq	$244, %r15
	movq	%r14, %rdi
	movq	%rbx, %rsi
	movq	%r15, %rdx
	callq	_gcm_v2.gcm.mode.put_subkey
	callq	_gcm_v2.aes_cipher.zeroize.stack.wipe_stack.512
	xorl	%eax, %eax
	popq	%rbx
	popq	%r14
	popq	%r15
	pxor	%xmm0, %xmm0
	pxor	%xmm1, %xmm1
	pxor	%xmm2, %xmm2
	pxor	%xmm3, %xmm3
	pxor	%xmm4, %xmm4
	pxor	%xmm5, %xmm5
	pxor	%xmm6, %xmm6
	pxor	%xmm7, %xmm7
	pxor	%xmm8, %xmm8
	pxor	%xmm9, %xmm9
	pxor	%xmm10, %xmm10
	pxor	%xmm11, %xmm11
	pxor	%xmm12, %xmm12
	pxor	%xmm13, %xmm13
	pxor	%xmm14, %xmm14
	pxor	%xmm15, %xmm15
	xorl	%ecx, %ecx
	xorl	%edx, %edx
	xorl	%esi, %esi
	xorl	%edi, %edi
	xorl	%r8d, %r8d
	xorl	%r9d, %r9d
	xorl	%r10d, %r10d
	xorl	%r11d, %r11d
	retq
Lgcm_v2_BB72_2:                               # %then.1.i
	movl	$1780, %edx                     # imm = 0x6F4
	xorl	%esi, %esi
	callq	*_memset@GOTPCREL(%rip)
	movl	$1, %eax
	popq	%rbx
	popq	%r14
	popq	%r15
	pxor	%xmm0, %xmm0
	pxor	%xmm1, %xmm1
	pxor	%xmm2, %xmm2
	pxor	%xmm3, %xmm3
	pxor	%xmm4, %xmm4
	pxor	%xmm5, %xmm5
	pxor	%xmm6, %xmm6
	pxor	%xmm7, %xmm7
	pxor	%xmm8, %xmm8
	pxor	%xmm9, %xmm9
	pxor	%xmm10, %xmm10
	pxor	%xmm11, %xmm11
	pxor	%xmm12, %xmm12
	pxor	%xmm13, %xmm13
	pxor	%xmm14, %xmm14
	pxor	%xmm15, %xmm15
	xorl	%ecx, %ecx
	xorl	%edx, %edx
	xorl	%esi, %esi
	xorl	%edi, %edi
	xorl	%r8d, %r8d
	xorl	%r9d, %r9d
	xorl	%r10d, %r10d
	xorl	%r11d, %r11d
	retq
                                        # -- End function
	.section	__TEXT,__text,regular,pure_instructions
	export_gcm_v2	fotsgure_gcm_set_key_of
	.p2align	4
_gcm_v2.fotsgure_gcm_set_key_of:                # @_gcm_v2.fotsgure_gcm_set_key_of
	endbr64
# %bb.0:                                # %start
	pushq	%r15
	pushq	%r14
	pushq	%rbx
	movl	(%rsi), %ebx
	cmpq	$32, %rbx
	ja	Lgcm_v2_BB73_2
# %bb.1:                                # %start
	movabsq	$4311810048, %rax               # imm = 0x101010000
	btq	%rbx, %rax
	jae	Lgcm_v2_BB73_2
# %bb.3:                                # %join.3.i
	movl	%ebx, (%rdi)
	addq	$4, %rsi
	leaq	4(%rdi), %r14
	movl	$240, %edx
	movq	%rdi, %r15
	movq	%r14, %rdi
	callq	*_memmove@GOTPCREL(%rip)
	shrl	$2, %ebx
	addq	$7, %rbx
	addq	$244, %r15
	movq	%r14, %rdi
	movq	%rbx, %rsi
	movq	%r15, %rdx
	callq	_gcm_v2.gcm.mode.put_subkey
	callq	_gcm_v2.aes_cipher.zeroize.stack.wipe_stack.512
	xorl	%eax, %eax
	popq	%rbx
	popq	%r14
	popq	%r15
	pxor	%xmm0, %xmm0
	pxor	%xmm1, %xmm1
	pxor	%xmm2, %xmm2
	pxor	%xmm3, %xmm3
	pxor	%xmm4, %xmm4
	pxor	%xmm5, %xmm5
	pxor	%xmm6, %xmm6
	pxor	%xmm7, %xmm7
	pxor	%xmm8, %xmm8
	pxor	%xmm9, %xmm9
	pxor	%xmm10, %xmm10
	pxor	%xmm11, %xmm11
	pxor	%xmm12, %xmm12
	pxor	%xmm13, %xmm13
	pxor	%xmm14, %xmm14
	pxor	%xmm15, %xmm15
	xorl	%ecx, %ecx
	xorl	%edx, %edx
	xorl	%esi, %esi
	xorl	%edi, %edi
	xorl	%r8d, %r8d
	xorl	%r9d, %r9d
	xorl	%r10d, %r10d
	xorl	%r11d, %r11d
	retq
Lgcm_v2_BB73_2:                               # %then.1.i
	leaq	4(%rdi), %rbx
	leaq	244(%rdi), %r14
	movl	$1780, %edx                     # imm = 0x6F4
	xorl	%esi, %esi
	callq	*_memset@GOTPCREL(%rip)
	movq	%rbx, %rdi
	callq	_gcm_v2.aes_cipher.zeroize.elements.zeroize_elements.1
	movl	$96, %esi
	movq	%r14, %rdi
	callq	_gcm_v2.aes_cipher.zeroize.elements.zeroize_elements.2
	movl	$2, %eax
	popq	%rbx
	popq	%r14
	popq	%r15
	pxor	%xmm0, %xmm0
	pxor	%xmm1, %xmm1
	pxor	%xmm2, %xmm2
	pxor	%xmm3, %xmm3
	pxor	%xmm4, %xmm4
	pxor	%xmm5, %xmm5
	pxor	%xmm6, %xmm6
	pxor	%xmm7, %xmm7
	pxor	%xmm8, %xmm8
	pxor	%xmm9, %xmm9
	pxor	%xmm10, %xmm10
	pxor	%xmm11, %xmm11
	pxor	%xmm12, %xmm12
	pxor	%xmm13, %xmm13
	pxor	%xmm14, %xmm14
	pxor	%xmm15, %xmm15
	xorl	%ecx, %ecx
	xorl	%edx, %edx
	xorl	%esi, %esi
	xorl	%edi, %edi
	xorl	%r8d, %r8d
	xorl	%r9d, %r9d
	xorl	%r10d, %r10d
	xorl	%r11d, %r11d
	retq
                                        # -- End function
	.section	__TEXT,__text,regular,pure_instructions
	export_gcm_v2	fotsgure_gcm_open
	.p2align	4
_gcm_v2.fotsgure_gcm_open:                      # @_gcm_v2.fotsgure_gcm_open
	endbr64
# %bb.0:                                # %start
	pushq	%rbp
	pushq	%r15
	pushq	%r14
	pushq	%r13
	pushq	%r12
	pushq	%rbx
	subq	$120, %rsp
	movq	184(%rsp), %r10
	xorl	%r13d, %r13d
	testq	%rsi, %rsi
	sete	28(%rsp)                        # 1-byte Folded Spill
	xorl	%r15d, %r15d
	testq	%rcx, %rcx
	sete	29(%rsp)                        # 1-byte Folded Spill
	xorl	%r14d, %r14d
	testq	%r9, %r9
	sete	30(%rsp)                        # 1-byte Folded Spill
	xorl	%r11d, %r11d
	testq	%r10, %r10
	sete	31(%rsp)                        # 1-byte Folded Spill
	movl	$4, %eax
	cmpq	$16, 192(%rsp)
	jne	Lgcm_v2_BB74_8
# %bb.1:                                # %join.3.i
	movabsq	$-2305843009213693952, %rbx     # imm = 0xE000000000000000
	leaq	(%rdx,%rbx), %rbp
	incq	%rbx
	movl	$3, %eax
	cmpq	%rbx, %rbp
	jb	Lgcm_v2_BB74_8
# %bb.2:                                # %after.1.i.i
	movq	%rdx, %r12
	movq	%r8, %rdx
	movabsq	$68719476704, %rax              # imm = 0xFFFFFFFE0
	cmpq	%rax, 176(%rsp)
	seta	%al
	shrq	$61, %rdx
	setne	%dl
	orb	%al, %dl
	movl	$5, %eax
	jne	Lgcm_v2_BB74_8
# %bb.3:                                # %after.11.i.i
	movl	(%rdi), %edx
	movl	$2, %eax
	cmpq	$32, %rdx
	ja	Lgcm_v2_BB74_8
# %bb.4:                                # %after.11.i.i
	movabsq	$4311810048, %rbp               # imm = 0x101010000
	btq	%rdx, %rbp
	jae	Lgcm_v2_BB74_8
# %bb.5:                                # %join.6.i
	movq	%rdx, %rbx
	movzbl	28(%rsp), %eax                  # 1-byte Folded Reload
	movb	%al, %r13b
	shll	$12, %r13d
	addq	%r13, %rsi
	movzbl	29(%rsp), %eax                  # 1-byte Folded Reload
	movb	%al, %r15b
	shll	$12, %r15d
	addq	%r15, %rcx
	movzbl	30(%rsp), %eax                  # 1-byte Folded Reload
	movb	%al, %r14b
	shll	$12, %r14d
	addq	%r14, %r9
	movzbl	31(%rsp), %eax                  # 1-byte Folded Reload
	movb	%al, %r11b
	shll	$12, %r11d
	addq	%r11, %r10
	movups	(%r10), %xmm0
	movaps	%xmm0, 96(%rsp)
	leaq	4(%rdi), %rax
	shrl	$2, %ebx
	addq	$7, %rbx
	addq	$244, %rdi
	movq	%rax, 56(%rsp)
	movq	%rbx, 64(%rsp)
	movq	%rax, 72(%rsp)
	movq	%rbx, 80(%rsp)
	movq	%rdi, 88(%rsp)
	xorps	%xmm0, %xmm0
	movaps	%xmm0, 32(%rsp)
	leaq	32(%rsp), %rax
	movq	%rax, 16(%rsp)
	leaq	96(%rsp), %rax
	movq	%rax, 8(%rsp)
	movq	176(%rsp), %rbx
	movq	%rbx, (%rsp)
	leaq	56(%rsp), %rdi
	movq	%r12, %rdx
	movq	%r9, %r14
	callq	_gcm_v2.gcm.mode.BorrowedGcm.compare
	testb	%al, %al
	je	Lgcm_v2_BB74_6
# %bb.7:                                # %arm.8.critedge.i
	leaq	32(%rsp), %rdi
	callq	_gcm_v2.aes_cipher.zeroize.elements.zeroize_elements.3
	callq	_gcm_v2.aes_cipher.zeroize.stack.wipe_stack.1536
	movl	$6, %eax
	jmp	Lgcm_v2_BB74_8
Lgcm_v2_BB74_6:                               # %then.1.i.i
	leaq	56(%rsp), %rdi
	leaq	32(%rsp), %r15
	movl	$16, %edx
	movq	%r15, %rsi
	movq	%r14, %rcx
	movq	%rbx, %r8
	callq	_gcm_v2.gcm.gctr.add_gctr
	movq	%r15, %rdi
	callq	_gcm_v2.aes_cipher.zeroize.elements.zeroize_elements.3
	callq	_gcm_v2.aes_cipher.zeroize.stack.wipe_stack.1536
	xorl	%eax, %eax
Lgcm_v2_BB74_8:                               # %"gcm_c::whole::fotsgure_gcm_open.exit"
	addq	$120, %rsp
	popq	%rbx
	popq	%r12
	popq	%r13
	popq	%r14
	popq	%r15
	popq	%rbp
	pxor	%xmm0, %xmm0
	pxor	%xmm1, %xmm1
	pxor	%xmm2, %xmm2
	pxor	%xmm3, %xmm3
	pxor	%xmm4, %xmm4
	pxor	%xmm5, %xmm5
	pxor	%xmm6, %xmm6
	pxor	%xmm7, %xmm7
	pxor	%xmm8, %xmm8
	pxor	%xmm9, %xmm9
	pxor	%xmm10, %xmm10
	pxor	%xmm11, %xmm11
	pxor	%xmm12, %xmm12
	pxor	%xmm13, %xmm13
	pxor	%xmm14, %xmm14
	pxor	%xmm15, %xmm15
	xorl	%ecx, %ecx
	xorl	%edx, %edx
	xorl	%esi, %esi
	xorl	%edi, %edi
	xorl	%r8d, %r8d
	xorl	%r9d, %r9d
	xorl	%r10d, %r10d
	xorl	%r11d, %r11d
	retq
                                        # -- End function
	.section	__TEXT,__text,regular,pure_instructions
	export_gcm_v2	fotsgure_gcm_open_to
	.p2align	4
_gcm_v2.fotsgure_gcm_open_to:                   # @_gcm_v2.fotsgure_gcm_open_to
	endbr64
# %bb.0:                                # %start
	pushq	%rbp
	pushq	%r15
	pushq	%r14
	pushq	%r13
	pushq	%r12
	pushq	%rbx
	subq	$152, %rsp
	movq	%r8, 48(%rsp)                   # 8-byte Spill
	movq	%rdx, 56(%rsp)                  # 8-byte Spill
	movq	%rdi, 40(%rsp)                  # 8-byte Spill
	movq	232(%rsp), %r10
	xorl	%ebp, %ebp
	testq	%rsi, %rsi
	sete	%r14b
	xorl	%r15d, %r15d
	testq	%rcx, %rcx
	sete	%bl
	testq	%r9, %r9
	sete	%r13b
	cmpq	$0, 216(%rsp)
	sete	%r12b
	xorl	%r11d, %r11d
	testq	%r10, %r10
	sete	%dil
	movq	208(%rsp), %rdx
	movl	$10, %eax
	cmpq	224(%rsp), %rdx
	jne	Lgcm_v2_BB75_34
# %bb.1:                                # %join.3.i
	movl	$4, %eax
	cmpq	$16, 240(%rsp)
	jne	Lgcm_v2_BB75_34
# %bb.2:                                # %join.6.i
	movabsq	$-2305843009213693952, %r8      # imm = 0xE000000000000000
	movq	56(%rsp), %rax                  # 8-byte Reload
	leaq	(%rax,%r8), %rdx
	incq	%r8
	movl	$3, %eax
	cmpq	%r8, %rdx
	movq	208(%rsp), %r8
	jb	Lgcm_v2_BB75_34
# %bb.3:                                # %after.1.i.i
	movabsq	$68719476704, %rax              # imm = 0xFFFFFFFE0
	cmpq	%rax, %r8
	seta	%al
	movq	48(%rsp), %rdx                  # 8-byte Reload
	shrq	$61, %rdx
	setne	%dl
	orb	%al, %dl
	movl	$5, %eax
	jne	Lgcm_v2_BB75_34
# %bb.4:                                # %after.11.i.i
	movq	40(%rsp), %rax                  # 8-byte Reload
	movl	(%rax), %edx
	movl	$2, %eax
	cmpq	$32, %rdx
	ja	Lgcm_v2_BB75_34
# %bb.5:                                # %after.11.i.i
	movq	%rdx, %r8
	movabsq	$4311810048, %rdx               # imm = 0x101010000
	btq	%r8, %rdx
	movq	208(%rsp), %rdx
	jae	Lgcm_v2_BB75_34
# %bb.6:                                # %join.9.i
	movb	%r14b, %bpl
	shll	$12, %ebp
	addq	%rbp, %rsi
	movb	%bl, %r15b
	shll	$12, %r15d
	addq	%r15, %rcx
	xorl	%ebp, %ebp
	movb	%r13b, %bpl
	shll	$12, %ebp
	movq	%r9, 32(%rsp)                   # 8-byte Spill
	leaq	(%r9,%rbp), %r15
	xorl	%eax, %eax
	movb	%r12b, %al
	movq	%rax, %r12
	shll	$12, %r12d
	movq	216(%rsp), %r13
	leaq	(%r12,%r13), %r14
	movb	%dil, %r11b
	shll	$12, %r11d
	addq	%r11, %r10
	movups	(%r10), %xmm0
	movaps	%xmm0, 128(%rsp)
	movq	%rdx, %rbx
	movq	40(%rsp), %rdx                  # 8-byte Reload
	leaq	4(%rdx), %rax
	shrl	$2, %r8d
	addq	$7, %r8
	addq	$244, %rdx
	movq	%rax, 88(%rsp)
	movq	%r8, 96(%rsp)
	movq	%rax, 104(%rsp)
	movq	%r8, 112(%rsp)
	movq	%rdx, 120(%rsp)
	xorps	%xmm0, %xmm0
	movaps	%xmm0, 64(%rsp)
	leaq	64(%rsp), %rax
	movq	%rax, 16(%rsp)
	leaq	128(%rsp), %rax
	movq	%rax, 8(%rsp)
	movq	%rbx, (%rsp)
	leaq	88(%rsp), %rdi
	movq	56(%rsp), %rdx                  # 8-byte Reload
	movq	48(%rsp), %r8                   # 8-byte Reload
	movq	%r15, %r9
	callq	_gcm_v2.gcm.mode.BorrowedGcm.compare
	testb	%al, %al
	je	Lgcm_v2_BB75_7
# %bb.28:                               # %else.2.i.i
	testq	%rbx, %rbx
	je	Lgcm_v2_BB75_29
# %bb.30:                               # %loop.5.preheader.i.i.i
	movq	%rbx, %rdx
	movl	$6, %ebx
	decq	%rdx
	movq	%r14, %r15
	je	Lgcm_v2_BB75_32
# %bb.31:                               # %join.8.preheader.i.i.i
	movq	%r15, %rdi
	xorl	%esi, %esi
	movq	%rdx, %r14
	callq	*_memset@GOTPCREL(%rip)
	movq	%r14, %rdx
Lgcm_v2_BB75_32:                              # %after.4.i.i.i
	movb	$0, (%r15,%rdx)
	jmp	Lgcm_v2_BB75_33
Lgcm_v2_BB75_7:                               # %then.1.i.i
	movq	%r14, %rax
	subq	%r15, %rax
	cmpq	%rbx, %rax
	movq	%rbx, %r8
	jae	Lgcm_v2_BB75_35
# %bb.8:                                # %iter.check
	cmpq	$4, %r8
	jae	Lgcm_v2_BB75_10
# %bb.9:
	xorl	%r9d, %r9d
	movq	32(%rsp), %rax                  # 8-byte Reload
	jmp	Lgcm_v2_BB75_21
Lgcm_v2_BB75_29:
	movl	$6, %ebx
	jmp	Lgcm_v2_BB75_33
Lgcm_v2_BB75_35:                              # %apart.2.i.i.i.i.i.i.i.i
	movq	%r14, %rdi
	movq	%r15, %rsi
	movq	%r8, %rdx
	callq	*_memmove@GOTPCREL(%rip)
	movq	208(%rsp), %r8
	jmp	Lgcm_v2_BB75_27
Lgcm_v2_BB75_10:                              # %vector.memcheck
	cmpq	$32, %rax
	movq	32(%rsp), %rax                  # 8-byte Reload
	jae	Lgcm_v2_BB75_12
# %bb.11:
	xorl	%r9d, %r9d
	jmp	Lgcm_v2_BB75_21
Lgcm_v2_BB75_12:                              # %vector.main.loop.iter.check
	cmpq	$32, %r8
	jae	Lgcm_v2_BB75_14
# %bb.13:
	xorl	%r9d, %r9d
	movabsq	$68719476704, %r11              # imm = 0xFFFFFFFE0
	jmp	Lgcm_v2_BB75_18
Lgcm_v2_BB75_14:                              # %vector.ph
	movq	%r8, %r9
	movabsq	$68719476704, %r11              # imm = 0xFFFFFFFE0
	andq	%r11, %r9
	leaq	(%rax,%rbp), %rdx
	addq	$16, %rdx
	leaq	(%r12,%r13), %rsi
	addq	$16, %rsi
	xorl	%edi, %edi
Lgcm_v2_BB75_15:                              # %vector.body
                                        # =>This Inner Loop Header: Depth=1
	movups	-16(%rdx,%rdi), %xmm0
	movups	(%rdx,%rdi), %xmm1
	movups	%xmm0, -16(%rsi,%rdi)
	movups	%xmm1, (%rsi,%rdi)
	addq	$32, %rdi
	cmpq	%rdi, %r9
	jne	Lgcm_v2_BB75_15
# %bb.16:                               # %middle.block
	cmpq	%r9, %r8
	je	Lgcm_v2_BB75_27
# %bb.17:                               # %vec.epilog.iter.check
	testb	$28, %r8b
	je	Lgcm_v2_BB75_21
Lgcm_v2_BB75_18:                              # %vec.epilog.ph
	movq	%r9, %rdx
	addq	$28, %r11
	movq	%r11, %r9
	andq	%r8, %r9
Lgcm_v2_BB75_19:                              # %vec.epilog.vector.body
                                        # =>This Inner Loop Header: Depth=1
	movl	(%r15,%rdx), %esi
	movl	%esi, (%r14,%rdx)
	addq	$4, %rdx
	cmpq	%rdx, %r9
	jne	Lgcm_v2_BB75_19
# %bb.20:                               # %vec.epilog.middle.block
	cmpq	%r9, %r8
	je	Lgcm_v2_BB75_27
Lgcm_v2_BB75_21:                              # %join.7.i.i.i.i.i.i.i.i.preheader
	movq	%r8, %rsi
	movq	%r9, %rdx
	andq	$3, %rsi
	je	Lgcm_v2_BB75_24
# %bb.22:                               # %join.7.i.i.i.i.i.i.i.i.prol.preheader
	movq	%r9, %rdx
Lgcm_v2_BB75_23:                              # %join.7.i.i.i.i.i.i.i.i.prol
                                        # =>This Inner Loop Header: Depth=1
	movzbl	(%r15,%rdx), %edi
	movb	%dil, (%r14,%rdx)
	incq	%rdx
	decq	%rsi
	jne	Lgcm_v2_BB75_23
Lgcm_v2_BB75_24:                              # %join.7.i.i.i.i.i.i.i.i.prol.loopexit
	subq	%r8, %r9
	cmpq	$-4, %r9
	ja	Lgcm_v2_BB75_27
# %bb.25:                               # %join.7.i.i.i.i.i.i.i.i.preheader11
	addq	%rbp, %rax
	addq	$3, %rax
	leaq	(%r12,%r13), %rdi
	addq	$3, %rdi
Lgcm_v2_BB75_26:                              # %join.7.i.i.i.i.i.i.i.i
                                        # =>This Inner Loop Header: Depth=1
	movzbl	-3(%rax,%rdx), %esi
	movb	%sil, -3(%rdi,%rdx)
	movzbl	-2(%rax,%rdx), %esi
	movb	%sil, -2(%rdi,%rdx)
	movzbl	-1(%rax,%rdx), %esi
	movb	%sil, -1(%rdi,%rdx)
	movzbl	(%rax,%rdx), %esi
	movb	%sil, (%rdi,%rdx)
	addq	$4, %rdx
	cmpq	%rdx, %r8
	jne	Lgcm_v2_BB75_26
Lgcm_v2_BB75_27:                              # %"core::slice::edits::slice+T::copy_from_slice::<i8,20'core::clone::U8Clone{}>.exit.i.i"
	leaq	88(%rsp), %rdi
	leaq	64(%rsp), %rsi
	movl	$16, %edx
	movq	%r14, %rcx
	callq	_gcm_v2.gcm.gctr.add_gctr
	xorl	%ebx, %ebx
Lgcm_v2_BB75_33:                              # %"gcm::mode::BorrowedGcm::decrypt_to::<#c13ce517942629d6>.exit.i"
	leaq	64(%rsp), %rdi
	callq	_gcm_v2.aes_cipher.zeroize.elements.zeroize_elements.3
	callq	_gcm_v2.aes_cipher.zeroize.stack.wipe_stack.1536
	movl	%ebx, %eax
Lgcm_v2_BB75_34:                              # %"gcm_c::whole_to::fotsgure_gcm_open_to.exit"
	addq	$152, %rsp
	popq	%rbx
	popq	%r12
	popq	%r13
	popq	%r14
	popq	%r15
	popq	%rbp
	pxor	%xmm0, %xmm0
	pxor	%xmm1, %xmm1
	pxor	%xmm2, %xmm2
	pxor	%xmm3, %xmm3
	pxor	%xmm4, %xmm4
	pxor	%xmm5, %xmm5
	pxor	%xmm6, %xmm6
	pxor	%xmm7, %xmm7
	pxor	%xmm8, %xmm8
	pxor	%xmm9, %xmm9
	pxor	%xmm10, %xmm10
	pxor	%xmm11, %xmm11
	pxor	%xmm12, %xmm12
	pxor	%xmm13, %xmm13
	pxor	%xmm14, %xmm14
	pxor	%xmm15, %xmm15
	xorl	%ecx, %ecx
	xorl	%edx, %edx
	xorl	%esi, %esi
	xorl	%edi, %edi
	xorl	%r8d, %r8d
	xorl	%r9d, %r9d
	xorl	%r10d, %r10d
	xorl	%r11d, %r11d
	retq
                                        # -- End function
	.section	__TEXT,__text,regular,pure_instructions
	export_gcm_v2	fotsgure_gcm_seal
	.p2align	4
_gcm_v2.fotsgure_gcm_seal:                      # @_gcm_v2.fotsgure_gcm_seal
	endbr64
# %bb.0:                                # %start
	xorl	%eax, %eax
	testq	%rsi, %rsi
	sete	%al
	shll	$12, %eax
	addq	%rax, %rsi
	xorl	%eax, %eax
	testq	%rcx, %rcx
	sete	%al
	shll	$12, %eax
	addq	%rax, %rcx
	xorl	%eax, %eax
	testq	%r9, %r9
	sete	%al
	shll	$12, %eax
	addq	%rax, %r9
	jmp	_gcm_v2.gcm_c.whole.fotsgure_gcm_seal # TAILCALL
                                        # -- End function
	.section	__TEXT,__text,regular,pure_instructions
	export_gcm_v2	fotsgure_gcm_seal_next
	.p2align	4
_gcm_v2.fotsgure_gcm_seal_next:                 # @_gcm_v2.fotsgure_gcm_seal_next
	endbr64
# %bb.0:                                # %start
	pushq	%r14
	pushq	%rbx
	subq	$24, %rsp
	movq	%r9, %r10
	movq	%rdx, %rbx
	movq	%rsi, %r14
	cmpq	$-1, 4(%rsi)
	jne	Lgcm_v2_BB77_2
# %bb.1:                                # %start
	movl	$7, %eax
	cmpl	$-1, (%r14)
	jne	Lgcm_v2_BB77_2
Lgcm_v2_BB77_9:                               # %"gcm_c::counter::fotsgure_gcm_seal_next.exit"
	addq	$24, %rsp
	popq	%rbx
	popq	%r14
	pxor	%xmm0, %xmm0
	pxor	%xmm1, %xmm1
	pxor	%xmm2, %xmm2
	pxor	%xmm3, %xmm3
	pxor	%xmm4, %xmm4
	pxor	%xmm5, %xmm5
	pxor	%xmm6, %xmm6
	pxor	%xmm7, %xmm7
	pxor	%xmm8, %xmm8
	pxor	%xmm9, %xmm9
	pxor	%xmm10, %xmm10
	pxor	%xmm11, %xmm11
	pxor	%xmm12, %xmm12
	pxor	%xmm13, %xmm13
	pxor	%xmm14, %xmm14
	pxor	%xmm15, %xmm15
	xorl	%ecx, %ecx
	xorl	%edx, %edx
	xorl	%esi, %esi
	xorl	%edi, %edi
	xorl	%r8d, %r8d
	xorl	%r9d, %r9d
	xorl	%r10d, %r10d
	xorl	%r11d, %r11d
	retq
Lgcm_v2_BB77_2:                               # %join.3.i
	movq	56(%rsp), %rdx
	movq	48(%rsp), %rsi
	xorl	%r9d, %r9d
	testq	%r10, %r10
	sete	%r9b
	shll	$12, %r9d
	addq	%r10, %r9
	xorl	%eax, %eax
	testq	%rcx, %rcx
	sete	%al
	shll	$12, %eax
	addq	%rcx, %rax
	movq	%rdx, 8(%rsp)
	movq	%rsi, (%rsp)
	movl	$12, %edx
	movq	%r14, %rsi
	movq	%rax, %rcx
	callq	_gcm_v2.gcm_c.whole.fotsgure_gcm_seal
	testl	%eax, %eax
	jne	Lgcm_v2_BB77_9
# %bb.3:                                # %then.4.i
	movl	(%r14), %eax
	movq	4(%r14), %rcx
	movl	%eax, %edx
	bswapl	%edx
	cmpq	$-1, %rcx
	je	Lgcm_v2_BB77_5
# %bb.4:                                # %"gcm::counter::nonce_after.exit.thread.i.i"
	movq	%rcx, %rsi
	bswapq	%rsi
	incq	%rsi
	bswapq	%rsi
	jmp	Lgcm_v2_BB77_7
Lgcm_v2_BB77_5:                               # %"gcm::counter::nonce_after.exit.i.i"
	cmpl	$-1, %eax
	je	Lgcm_v2_BB77_8
# %bb.6:
	incl	%edx
	xorl	%esi, %esi
Lgcm_v2_BB77_7:                               # %arm.1.i.i
	bswapl	%edx
	movl	%edx, (%r14)
	movq	%rsi, 4(%r14)
Lgcm_v2_BB77_8:                               # %"gcm::counter::Counter::take.exit.i"
	movl	%eax, (%rbx)
	movq	%rcx, 4(%rbx)
	xorl	%eax, %eax
	addq	$24, %rsp
	popq	%rbx
	popq	%r14
	pxor	%xmm0, %xmm0
	pxor	%xmm1, %xmm1
	pxor	%xmm2, %xmm2
	pxor	%xmm3, %xmm3
	pxor	%xmm4, %xmm4
	pxor	%xmm5, %xmm5
	pxor	%xmm6, %xmm6
	pxor	%xmm7, %xmm7
	pxor	%xmm8, %xmm8
	pxor	%xmm9, %xmm9
	pxor	%xmm10, %xmm10
	pxor	%xmm11, %xmm11
	pxor	%xmm12, %xmm12
	pxor	%xmm13, %xmm13
	pxor	%xmm14, %xmm14
	pxor	%xmm15, %xmm15
	xorl	%ecx, %ecx
	xorl	%edx, %edx
	xorl	%esi, %esi
	xorl	%edi, %edi
	xorl	%r8d, %r8d
	xorl	%r9d, %r9d
	xorl	%r10d, %r10d
	xorl	%r11d, %r11d
	retq
                                        # -- End function
	.section	__TEXT,__text,regular,pure_instructions
	export_gcm_v2	fotsgure_gcm_seal_to
	.p2align	4
_gcm_v2.fotsgure_gcm_seal_to:                   # @_gcm_v2.fotsgure_gcm_seal_to
	endbr64
# %bb.0:                                # %start
	pushq	%rbp
	pushq	%r15
	pushq	%r14
	pushq	%r13
	pushq	%r12
	pushq	%rbx
	subq	$40, %rsp
	movq	%r8, 24(%rsp)                   # 8-byte Spill
	movq	%rdx, 32(%rsp)                  # 8-byte Spill
	movq	%rdi, 16(%rsp)                  # 8-byte Spill
	movq	96(%rsp), %rdx
	movq	104(%rsp), %rbx
	xorl	%r13d, %r13d
	testq	%rsi, %rsi
	sete	%r10b
	xorl	%r15d, %r15d
	testq	%rcx, %rcx
	sete	%bpl
	xorl	%r11d, %r11d
	testq	%r9, %r9
	sete	%r14b
	testq	%rbx, %rbx
	sete	%r12b
	movl	$10, %eax
	cmpq	112(%rsp), %rdx
	jne	Lgcm_v2_BB78_6
# %bb.1:                                # %join.3.i
	movabsq	$-2305843009213693952, %rdi     # imm = 0xE000000000000000
	movq	32(%rsp), %rax                  # 8-byte Reload
	leaq	(%rax,%rdi), %r8
	incq	%rdi
	movl	$3, %eax
	cmpq	%rdi, %r8
	movq	%rdx, %rdi
	movl	$0, %edx
	jb	Lgcm_v2_BB78_6
# %bb.2:                                # %after.1.i.i
	movabsq	$68719476704, %rax              # imm = 0xFFFFFFFE0
	cmpq	%rax, %rdi
	seta	%al
	movq	24(%rsp), %rdi                  # 8-byte Reload
	shrq	$61, %rdi
	setne	%dil
	orb	%al, %dil
	movl	$5, %eax
	jne	Lgcm_v2_BB78_6
# %bb.3:                                # %after.11.i.i
	movq	16(%rsp), %rax                  # 8-byte Reload
	movl	(%rax), %r8d
	movl	$2, %eax
	cmpq	$32, %r8
	ja	Lgcm_v2_BB78_6
# %bb.4:                                # %after.11.i.i
	movabsq	$4311810048, %rdi               # imm = 0x101010000
	btq	%r8, %rdi
	movq	96(%rsp), %r8
	jae	Lgcm_v2_BB78_6
# %bb.5:                                # %join.6.i
	movb	%r10b, %r13b
	shll	$12, %r13d
	addq	%r13, %rsi
	movb	%bpl, %r15b
	shll	$12, %r15d
	addq	%r15, %rcx
	movb	%r14b, %r11b
	shll	$12, %r11d
	addq	%r11, %r9
	movb	%r12b, %dl
	shll	$12, %edx
	addq	%rdx, %rbx
	movq	%r9, %rdi
	movq	%rsi, %r12
	movq	%r8, %rsi
	movq	%rbx, %rdx
	movq	%rcx, %rbp
	movq	%r8, %r14
	callq	_gcm_v2.gcm_c.whole_to.copy
	movq	120(%rsp), %rax
	movq	%rax, 8(%rsp)
	movq	%r14, (%rsp)
	movq	16(%rsp), %rdi                  # 8-byte Reload
	movq	%r12, %rsi
	movq	32(%rsp), %rdx                  # 8-byte Reload
	movq	%rbp, %rcx
	movq	24(%rsp), %r8                   # 8-byte Reload
	movq	%rbx, %r9
	callq	_gcm_v2.gcm_c.whole.fotsgure_gcm_seal
Lgcm_v2_BB78_6:                               # %"gcm_c::whole_to::fotsgure_gcm_seal_to.exit"
	addq	$40, %rsp
	popq	%rbx
	popq	%r12
	popq	%r13
	popq	%r14
	popq	%r15
	popq	%rbp
	pxor	%xmm0, %xmm0
	pxor	%xmm1, %xmm1
	pxor	%xmm2, %xmm2
	pxor	%xmm3, %xmm3
	pxor	%xmm4, %xmm4
	pxor	%xmm5, %xmm5
	pxor	%xmm6, %xmm6
	pxor	%xmm7, %xmm7
	pxor	%xmm8, %xmm8
	pxor	%xmm9, %xmm9
	pxor	%xmm10, %xmm10
	pxor	%xmm11, %xmm11
	pxor	%xmm12, %xmm12
	pxor	%xmm13, %xmm13
	pxor	%xmm14, %xmm14
	pxor	%xmm15, %xmm15
	xorl	%ecx, %ecx
	xorl	%edx, %edx
	xorl	%esi, %esi
	xorl	%edi, %edi
	xorl	%r8d, %r8d
	xorl	%r9d, %r9d
	xorl	%r10d, %r10d
	xorl	%r11d, %r11d
	retq
                                        # -- End function
	.section	__TEXT,__text,regular,pure_instructions
	export_gcm_v2	fotsgure_gcm_siv_open
	.p2align	4
_gcm_v2.fotsgure_gcm_siv_open:                  # @_gcm_v2.fotsgure_gcm_siv_open
	endbr64
# %bb.0:                                # %start
	pushq	%rbp
	pushq	%r14
	pushq	%rbx
	subq	$48, %rsp
	movq	%r8, %r10
	movq	%rcx, %r8
	movq	%rdx, %rcx
	movq	%rsi, %rdx
	xorl	%ebx, %ebx
	testq	%rcx, %rcx
	sete	%r14b
	xorl	%r11d, %r11d
	testq	%r10, %r10
	sete	%bpl
	movabsq	$68719476736, %rax              # imm = 0x1000000000
	cmpq	%rax, %r8
	seta	%sil
	cmpq	%rax, %r9
	seta	%al
	orb	%sil, %al
	movl	$5, %eax
	jne	Lgcm_v2_BB79_7
# %bb.1:                                # %after.1.i.i
	movl	(%rdi), %esi
	cmpq	$32, %rsi
	je	Lgcm_v2_BB79_3
# %bb.2:                                # %after.1.i.i
	movl	$2, %eax
	cmpl	$16, %esi
	jne	Lgcm_v2_BB79_7
Lgcm_v2_BB79_3:                               # %join.3.i
	movq	80(%rsp), %rax
	movb	%r14b, %bl
	shll	$12, %ebx
	addq	%rbx, %rcx
	movb	%bpl, %r11b
	shll	$12, %r11d
	addq	%r11, %r10
	addq	$4, %rdi
	movl	%esi, %r11d
	shrl	$2, %r11d
	addq	$7, %r11
	movq	%rdi, 16(%rsp)
	movq	%r11, 24(%rsp)
	movq	%rdi, 32(%rsp)
	movq	%r11, 40(%rsp)
	cmpq	$161, %r8
	setb	%dil
	movl	$160, %r11d
	subq	%r8, %r11
	cmpq	%r11, %r9
	setbe	%r11b
	andb	%dil, %r11b
	cmpb	$1, %r11b
	jne	Lgcm_v2_BB79_5
# %bb.4:                                # %then.1.i.i
	movq	%rax, 8(%rsp)
	movq	%r9, (%rsp)
	leaq	16(%rsp), %rdi
	movq	%r10, %r9
	callq	_gcm_v2.gcm_siv.course.open_in.1
	jmp	Lgcm_v2_BB79_6
Lgcm_v2_BB79_5:                               # %else.2.i.i
	movq	%rax, 8(%rsp)
	movq	%r9, (%rsp)
	leaq	16(%rsp), %rdi
	movq	%r10, %r9
	callq	_gcm_v2.gcm_siv.course.open_in.2
Lgcm_v2_BB79_6:                               # %"gcm_siv::course::open_message::<#c90a668d6150d2aa>.exit.i"
	xorl	%ecx, %ecx
	testb	%al, %al
	movl	$6, %eax
	cmovnel	%ecx, %eax
Lgcm_v2_BB79_7:                               # %"gcm_c::siv::fotsgure_gcm_siv_open.exit"
	addq	$48, %rsp
	popq	%rbx
	popq	%r14
	popq	%rbp
	pxor	%xmm0, %xmm0
	pxor	%xmm1, %xmm1
	pxor	%xmm2, %xmm2
	pxor	%xmm3, %xmm3
	pxor	%xmm4, %xmm4
	pxor	%xmm5, %xmm5
	pxor	%xmm6, %xmm6
	pxor	%xmm7, %xmm7
	pxor	%xmm8, %xmm8
	pxor	%xmm9, %xmm9
	pxor	%xmm10, %xmm10
	pxor	%xmm11, %xmm11
	pxor	%xmm12, %xmm12
	pxor	%xmm13, %xmm13
	pxor	%xmm14, %xmm14
	pxor	%xmm15, %xmm15
	xorl	%ecx, %ecx
	xorl	%edx, %edx
	xorl	%esi, %esi
	xorl	%edi, %edi
	xorl	%r8d, %r8d
	xorl	%r9d, %r9d
	xorl	%r10d, %r10d
	xorl	%r11d, %r11d
	retq
                                        # -- End function
	.section	__TEXT,__text,regular,pure_instructions
	export_gcm_v2	fotsgure_gcm_siv_open_to
	.p2align	4
_gcm_v2.fotsgure_gcm_siv_open_to:               # @_gcm_v2.fotsgure_gcm_siv_open_to
	endbr64
# %bb.0:                                # %start
	pushq	%rbp
	pushq	%r15
	pushq	%r14
	pushq	%r13
	pushq	%r12
	pushq	%rbx
	subq	$72, %rsp
	movq	%rsi, %r14
	movq	128(%rsp), %r13
	xorl	%r15d, %r15d
	testq	%rdx, %rdx
	sete	%bpl
	xorl	%r11d, %r11d
	testq	%r8, %r8
	sete	%sil
	xorl	%r12d, %r12d
	testq	%r13, %r13
	sete	%bl
	movl	$10, %eax
	cmpq	136(%rsp), %r9
	jne	Lgcm_v2_BB80_36
# %bb.1:                                # %join.3.i
	movabsq	$68719476736, %rax              # imm = 0x1000000000
	cmpq	%rax, %rcx
	seta	%r10b
	cmpq	%rax, %r9
	seta	%al
	orb	%r10b, %al
	movl	$5, %eax
	jne	Lgcm_v2_BB80_36
# %bb.2:                                # %after.1.i.i
	movl	(%rdi), %r10d
	cmpl	$32, %r10d
	je	Lgcm_v2_BB80_4
# %bb.3:                                # %after.1.i.i
	movl	$2, %eax
	cmpl	$16, %r10d
	jne	Lgcm_v2_BB80_36
Lgcm_v2_BB80_4:                               # %join.6.i
	movb	%sil, %r11b
	shll	$12, %r11d
	leaq	(%r8,%r11), %rsi
	movb	%bl, %r12b
	shll	$12, %r12d
	leaq	(%r12,%r13), %rbx
	movq	%rbx, %rax
	subq	%rsi, %rax
	cmpq	%r9, %rax
	movq	%r14, 32(%rsp)                  # 8-byte Spill
	jae	Lgcm_v2_BB80_7
# %bb.5:                                # %iter.check
	cmpq	$4, %r9
	jb	Lgcm_v2_BB80_6
# %bb.8:                                # %vector.memcheck
	cmpq	$32, %rax
	jae	Lgcm_v2_BB80_10
Lgcm_v2_BB80_6:
	xorl	%eax, %eax
Lgcm_v2_BB80_19:                              # %join.7.i.i.i.i.i.i.i.preheader
	movq	%r9, %r14
	movq	%rax, %r13
	andq	$3, %r14
	je	Lgcm_v2_BB80_22
# %bb.20:                               # %join.7.i.i.i.i.i.i.i.prol.preheader
	movq	%rax, %r13
	.p2align	4
Lgcm_v2_BB80_21:                              # %join.7.i.i.i.i.i.i.i.prol
                                        # =>This Inner Loop Header: Depth=1
	movzbl	(%rsi,%r13), %r10d
	movb	%r10b, (%rbx,%r13)
	incq	%r13
	decq	%r14
	jne	Lgcm_v2_BB80_21
Lgcm_v2_BB80_22:                              # %join.7.i.i.i.i.i.i.i.prol.loopexit
	subq	%r9, %rax
	cmpq	$-4, %rax
	ja	Lgcm_v2_BB80_25
# %bb.23:                               # %join.7.i.i.i.i.i.i.i.preheader11
	leaq	(%r11,%r8), %rax
	addq	$3, %rax
	movq	128(%rsp), %rsi
	addq	%r12, %rsi
	addq	$3, %rsi
	.p2align	4
Lgcm_v2_BB80_24:                              # %join.7.i.i.i.i.i.i.i
                                        # =>This Inner Loop Header: Depth=1
	movzbl	-3(%rax,%r13), %r8d
	movb	%r8b, -3(%rsi,%r13)
	movzbl	-2(%rax,%r13), %r8d
	movb	%r8b, -2(%rsi,%r13)
	movzbl	-1(%rax,%r13), %r8d
	movb	%r8b, -1(%rsi,%r13)
	movzbl	(%rax,%r13), %r8d
	movb	%r8b, (%rsi,%r13)
	addq	$4, %r13
	cmpq	%r13, %r9
	jne	Lgcm_v2_BB80_24
	jmp	Lgcm_v2_BB80_25
Lgcm_v2_BB80_7:                               # %apart.2.i.i.i.i.i.i.i
	movq	%rdi, 24(%rsp)                  # 8-byte Spill
	movq	%rbx, %rdi
	movq	%rdx, %r12
	movq	%r9, %rdx
	movq	%r9, %r13
	movl	%ebp, %r14d
	movq	%rcx, %rbp
	callq	*_memmove@GOTPCREL(%rip)
	movq	24(%rsp), %rdi                  # 8-byte Reload
	movq	%r12, %rdx
	movq	%rbp, %rcx
	movl	%r14d, %ebp
	movq	%r13, %r9
Lgcm_v2_BB80_25:                              # %after.1.i.i.i
	movl	(%rdi), %esi
	cmpq	$32, %rsi
	je	Lgcm_v2_BB80_27
# %bb.26:                               # %after.1.i.i.i
	movl	$2, %eax
	cmpl	$16, %esi
	jne	Lgcm_v2_BB80_32
Lgcm_v2_BB80_27:                              # %join.3.i.i
	movb	%bpl, %r15b
	shll	$12, %r15d
	movq	144(%rsp), %r10
	addq	%r15, %rdx
	movq	%rdx, %rax
	addq	$4, %rdi
	movl	%esi, %edx
	shrl	$2, %edx
	addq	$7, %rdx
	movq	%rdi, 40(%rsp)
	movq	%rdx, 48(%rsp)
	movq	%rdi, 56(%rsp)
	movq	%rdx, 64(%rsp)
	cmpq	$161, %rcx
	setb	%dl
	movl	$160, %edi
	movq	%rcx, %r8
	subq	%rcx, %rdi
	cmpq	%rdi, %r9
	setbe	%cl
	andb	%dl, %cl
	cmpb	$1, %cl
	jne	Lgcm_v2_BB80_29
# %bb.28:                               # %then.1.i.i.i
	movq	%r10, 8(%rsp)
	movq	%r9, (%rsp)
	leaq	40(%rsp), %rdi
	movq	32(%rsp), %rdx                  # 8-byte Reload
	movq	%rax, %rcx
	movq	%r9, %r14
	movq	%rbx, %r9
	callq	_gcm_v2.gcm_siv.course.open_in.1
	jmp	Lgcm_v2_BB80_30
Lgcm_v2_BB80_29:                              # %"gcm_siv::course::open_message::<#c90a668d6150d2aa>.exit.i.i"
	movq	%r10, 8(%rsp)
	movq	%r9, (%rsp)
	leaq	40(%rsp), %rdi
	movq	32(%rsp), %rdx                  # 8-byte Reload
	movq	%rax, %rcx
	movq	%r9, %r14
	movq	%rbx, %r9
	callq	_gcm_v2.gcm_siv.course.open_in.2
Lgcm_v2_BB80_30:                              # %"gcm_siv::course::open_message::<#c90a668d6150d2aa>.exit.i.i"
	movq	%r14, %r9
	movl	%eax, %ecx
	movl	$6, %eax
	testb	%cl, %cl
	je	Lgcm_v2_BB80_32
# %bb.31:                               # %"gcm_c::siv::fotsgure_gcm_siv_open.exit.i"
	xorl	%eax, %eax
	jmp	Lgcm_v2_BB80_36
Lgcm_v2_BB80_32:                              # %then.7.i
	testq	%r9, %r9
	je	Lgcm_v2_BB80_36
# %bb.33:                               # %loop.5.preheader.i.i
	decq	%r9
	je	Lgcm_v2_BB80_35
# %bb.34:                               # %join.8.preheader.i.i
	movq	%rbx, %rdi
	xorl	%esi, %esi
	movq	%r9, %rdx
	movq	%r9, %r14
	movl	%eax, %ebp
	callq	*_memset@GOTPCREL(%rip)
	movl	%ebp, %eax
	movq	%r14, %r9
Lgcm_v2_BB80_35:                              # %after.4.i.i
	movb	$0, (%rbx,%r9)
Lgcm_v2_BB80_36:                              # %"gcm_c::siv_to::fotsgure_gcm_siv_open_to.exit"
	addq	$72, %rsp
	popq	%rbx
	popq	%r12
	popq	%r13
	popq	%r14
	popq	%r15
	popq	%rbp
	pxor	%xmm0, %xmm0
	pxor	%xmm1, %xmm1
	pxor	%xmm2, %xmm2
	pxor	%xmm3, %xmm3
	pxor	%xmm4, %xmm4
	pxor	%xmm5, %xmm5
	pxor	%xmm6, %xmm6
	pxor	%xmm7, %xmm7
	pxor	%xmm8, %xmm8
	pxor	%xmm9, %xmm9
	pxor	%xmm10, %xmm10
	pxor	%xmm11, %xmm11
	pxor	%xmm12, %xmm12
	pxor	%xmm13, %xmm13
	pxor	%xmm14, %xmm14
	pxor	%xmm15, %xmm15
	xorl	%ecx, %ecx
	xorl	%edx, %edx
	xorl	%esi, %esi
	xorl	%edi, %edi
	xorl	%r8d, %r8d
	xorl	%r9d, %r9d
	xorl	%r10d, %r10d
	xorl	%r11d, %r11d
	retq
Lgcm_v2_BB80_10:                              # %vector.main.loop.iter.check
	movabsq	$137438953440, %r10             # imm = 0x1FFFFFFFE0
	cmpq	$32, %r9
	jae	Lgcm_v2_BB80_12
# %bb.11:
	xorl	%eax, %eax
	jmp	Lgcm_v2_BB80_16
Lgcm_v2_BB80_12:                              # %vector.ph
	movb	%bpl, 24(%rsp)                  # 1-byte Spill
	movq	%r9, %rax
	andq	%r10, %rax
	leaq	(%r11,%r8), %r13
	addq	$16, %r13
	movq	128(%rsp), %r10
	leaq	(%r12,%r10), %rbp
	addq	$16, %rbp
	xorl	%r10d, %r10d
	.p2align	4
Lgcm_v2_BB80_13:                              # %vector.body
                                        # =>This Inner Loop Header: Depth=1
	movups	-16(%r13,%r10), %xmm0
	movups	(%r13,%r10), %xmm1
	movups	%xmm0, -16(%rbp,%r10)
	movups	%xmm1, (%rbp,%r10)
	addq	$32, %r10
	cmpq	%r10, %rax
	jne	Lgcm_v2_BB80_13
# %bb.14:                               # %middle.block
	cmpq	%rax, %r9
	movzbl	24(%rsp), %ebp                  # 1-byte Folded Reload
	movabsq	$137438953440, %r10             # imm = 0x1FFFFFFFE0
	je	Lgcm_v2_BB80_25
# %bb.15:                               # %vec.epilog.iter.check
	testb	$28, %r9b
	je	Lgcm_v2_BB80_19
Lgcm_v2_BB80_16:                              # %vec.epilog.ph
	movq	%rax, %r14
	addq	$28, %r10
	movq	%r10, %rax
	andq	%r9, %rax
	.p2align	4
Lgcm_v2_BB80_17:                              # %vec.epilog.vector.body
                                        # =>This Inner Loop Header: Depth=1
	movl	(%rsi,%r14), %r10d
	movl	%r10d, (%rbx,%r14)
	addq	$4, %r14
	cmpq	%r14, %rax
	jne	Lgcm_v2_BB80_17
# %bb.18:                               # %vec.epilog.middle.block
	cmpq	%rax, %r9
	je	Lgcm_v2_BB80_25
	jmp	Lgcm_v2_BB80_19
                                        # -- End function
	.section	__TEXT,__text,regular,pure_instructions
	export_gcm_v2	fotsgure_gcm_siv_seal
	.p2align	4
_gcm_v2.fotsgure_gcm_siv_seal:                  # @_gcm_v2.fotsgure_gcm_siv_seal
	endbr64
# %bb.0:                                # %start
	pushq	%rbp
	pushq	%r15
	pushq	%r14
	pushq	%rbx
	subq	$72, %rsp
	movq	%rcx, %r11
	movq	%rdx, %r10
	movq	%rsi, %rcx
	xorl	%r14d, %r14d
	testq	%rdx, %rdx
	sete	%r15b
	xorl	%esi, %esi
	testq	%r8, %r8
	sete	%bpl
	movabsq	$68719476736, %rax              # imm = 0x1000000000
	cmpq	%rax, %r11
	seta	%dl
	cmpq	%rax, %r9
	seta	%al
	orb	%dl, %al
	movl	$5, %eax
	jne	Lgcm_v2_BB81_7
# %bb.1:                                # %after.1.i.i
	movl	(%rdi), %edx
	cmpq	$32, %rdx
	je	Lgcm_v2_BB81_3
# %bb.2:                                # %after.1.i.i
	movl	$2, %eax
	cmpl	$16, %edx
	jne	Lgcm_v2_BB81_7
Lgcm_v2_BB81_3:                               # %join.3.i
	movq	112(%rsp), %rbx
	movb	%r15b, %r14b
	shll	$12, %r14d
	addq	%r14, %r10
	movb	%bpl, %sil
	shll	$12, %esi
	addq	%rsi, %r8
	addq	$4, %rdi
	movl	%edx, %eax
	shrl	$2, %eax
	addq	$7, %rax
	movq	%rdi, 40(%rsp)
	movq	%rax, 48(%rsp)
	movq	%rdi, 56(%rsp)
	movq	%rax, 64(%rsp)
	xorps	%xmm0, %xmm0
	movaps	%xmm0, 16(%rsp)
	cmpq	$161, %r11
	setb	%al
	movl	$160, %esi
	subq	%r11, %rsi
	cmpq	%rsi, %r9
	setbe	%sil
	andb	%al, %sil
	cmpb	$1, %sil
	jne	Lgcm_v2_BB81_5
# %bb.4:                                # %then.1.i.i
	movq	%r9, 8(%rsp)
	movq	%r8, (%rsp)
	leaq	16(%rsp), %rdi
	leaq	40(%rsp), %rsi
	movq	%r10, %r8
	movq	%r11, %r9
	callq	_gcm_v2.gcm_siv.course.seal_in.1
	jmp	Lgcm_v2_BB81_6
Lgcm_v2_BB81_5:                               # %else.2.i.i
	movq	%r9, 8(%rsp)
	movq	%r8, (%rsp)
	leaq	16(%rsp), %rdi
	leaq	40(%rsp), %rsi
	movq	%r10, %r8
	movq	%r11, %r9
	callq	_gcm_v2.gcm_siv.course.seal_in.2
Lgcm_v2_BB81_6:                               # %"gcm_siv::course::seal_message::<#c90a668d6150d2aa>.exit.i"
	movaps	16(%rsp), %xmm0
	movups	%xmm0, (%rbx)
	xorl	%eax, %eax
Lgcm_v2_BB81_7:                               # %"gcm_c::siv::fotsgure_gcm_siv_seal.exit"
	addq	$72, %rsp
	popq	%rbx
	popq	%r14
	popq	%r15
	popq	%rbp
	pxor	%xmm0, %xmm0
	pxor	%xmm1, %xmm1
	pxor	%xmm2, %xmm2
	pxor	%xmm3, %xmm3
	pxor	%xmm4, %xmm4
	pxor	%xmm5, %xmm5
	pxor	%xmm6, %xmm6
	pxor	%xmm7, %xmm7
	pxor	%xmm8, %xmm8
	pxor	%xmm9, %xmm9
	pxor	%xmm10, %xmm10
	pxor	%xmm11, %xmm11
	pxor	%xmm12, %xmm12
	pxor	%xmm13, %xmm13
	pxor	%xmm14, %xmm14
	pxor	%xmm15, %xmm15
	xorl	%ecx, %ecx
	xorl	%edx, %edx
	xorl	%esi, %esi
	xorl	%edi, %edi
	xorl	%r8d, %r8d
	xorl	%r9d, %r9d
	xorl	%r10d, %r10d
	xorl	%r11d, %r11d
	retq
                                        # -- End function
	.section	__TEXT,__text,regular,pure_instructions
	export_gcm_v2	fotsgure_gcm_siv_seal_to
	.p2align	4
_gcm_v2.fotsgure_gcm_siv_seal_to:               # @_gcm_v2.fotsgure_gcm_siv_seal_to
	endbr64
# %bb.0:                                # %start
	pushq	%rbp
	pushq	%r15
	pushq	%r14
	pushq	%r13
	pushq	%r12
	pushq	%rbx
	subq	$88, %rsp
	movq	%rsi, %r14
	movq	144(%rsp), %r13
	xorl	%r15d, %r15d
	testq	%rdx, %rdx
	sete	%bpl
	xorl	%r11d, %r11d
	testq	%r8, %r8
	sete	%sil
	xorl	%r12d, %r12d
	testq	%r13, %r13
	sete	%bl
	movl	$10, %eax
	cmpq	152(%rsp), %r9
	jne	Lgcm_v2_BB82_31
# %bb.1:                                # %join.3.i
	movabsq	$68719476736, %rax              # imm = 0x1000000000
	cmpq	%rax, %rcx
	seta	%r10b
	cmpq	%rax, %r9
	seta	%al
	orb	%r10b, %al
	movl	$5, %eax
	jne	Lgcm_v2_BB82_31
# %bb.2:                                # %after.1.i.i
	movl	(%rdi), %r10d
	cmpl	$32, %r10d
	je	Lgcm_v2_BB82_4
# %bb.3:                                # %after.1.i.i
	movl	$2, %eax
	cmpl	$16, %r10d
	jne	Lgcm_v2_BB82_31
Lgcm_v2_BB82_4:                               # %join.6.i
	movb	%sil, %r11b
	shll	$12, %r11d
	leaq	(%r8,%r11), %rsi
	movb	%bl, %r12b
	shll	$12, %r12d
	leaq	(%r12,%r13), %rbx
	movq	%rbx, %rax
	subq	%rsi, %rax
	cmpq	%r9, %rax
	movq	%r14, 24(%rsp)                  # 8-byte Spill
	jae	Lgcm_v2_BB82_7
# %bb.5:                                # %iter.check
	cmpq	$4, %r9
	jb	Lgcm_v2_BB82_6
# %bb.8:                                # %vector.memcheck
	cmpq	$32, %rax
	jae	Lgcm_v2_BB82_10
Lgcm_v2_BB82_6:
	xorl	%eax, %eax
Lgcm_v2_BB82_19:                              # %join.7.i.i.i.i.i.i.i.preheader
	movq	%r9, %r14
	movq	%rax, %r13
	andq	$3, %r14
	je	Lgcm_v2_BB82_22
# %bb.20:                               # %join.7.i.i.i.i.i.i.i.prol.preheader
	movq	%rax, %r13
	.p2align	4
Lgcm_v2_BB82_21:                              # %join.7.i.i.i.i.i.i.i.prol
                                        # =>This Inner Loop Header: Depth=1
	movzbl	(%rsi,%r13), %r10d
	movb	%r10b, (%rbx,%r13)
	incq	%r13
	decq	%r14
	jne	Lgcm_v2_BB82_21
Lgcm_v2_BB82_22:                              # %join.7.i.i.i.i.i.i.i.prol.loopexit
	subq	%r9, %rax
	cmpq	$-4, %rax
	ja	Lgcm_v2_BB82_25
# %bb.23:                               # %join.7.i.i.i.i.i.i.i.preheader11
	leaq	(%r11,%r8), %rax
	addq	$3, %rax
	movq	144(%rsp), %rsi
	addq	%r12, %rsi
	addq	$3, %rsi
	.p2align	4
Lgcm_v2_BB82_24:                              # %join.7.i.i.i.i.i.i.i
                                        # =>This Inner Loop Header: Depth=1
	movzbl	-3(%rax,%r13), %r8d
	movb	%r8b, -3(%rsi,%r13)
	movzbl	-2(%rax,%r13), %r8d
	movb	%r8b, -2(%rsi,%r13)
	movzbl	-1(%rax,%r13), %r8d
	movb	%r8b, -1(%rsi,%r13)
	movzbl	(%rax,%r13), %r8d
	movb	%r8b, (%rsi,%r13)
	addq	$4, %r13
	cmpq	%r13, %r9
	jne	Lgcm_v2_BB82_24
	jmp	Lgcm_v2_BB82_25
Lgcm_v2_BB82_7:                               # %apart.2.i.i.i.i.i.i.i
	movq	%rdi, 16(%rsp)                  # 8-byte Spill
	movq	%rbx, %rdi
	movq	%rdx, %r12
	movq	%r9, %rdx
	movq	%rcx, %r13
	movl	%ebp, %r14d
	movq	%r9, %rbp
	callq	*_memmove@GOTPCREL(%rip)
	movq	16(%rsp), %rdi                  # 8-byte Reload
	movq	%rbp, %r9
	movl	%r14d, %ebp
	movq	%r12, %rdx
	movq	%r13, %rcx
Lgcm_v2_BB82_25:                              # %after.1.i.i.i
	movl	(%rdi), %r11d
	cmpq	$32, %r11
	je	Lgcm_v2_BB82_27
# %bb.26:                               # %after.1.i.i.i
	movl	$2, %eax
	cmpl	$16, %r11d
	jne	Lgcm_v2_BB82_31
Lgcm_v2_BB82_27:                              # %join.3.i.i
	movb	%bpl, %r15b
	shll	$12, %r15d
	movq	160(%rsp), %r12
	addq	%r15, %rdx
	movq	%rdx, %r8
	addq	$4, %rdi
	movl	%r11d, %eax
	shrl	$2, %eax
	addq	$7, %rax
	movq	%rdi, 56(%rsp)
	movq	%rax, 64(%rsp)
	movq	%rdi, 72(%rsp)
	movq	%rax, 80(%rsp)
	xorps	%xmm0, %xmm0
	movaps	%xmm0, 32(%rsp)
	cmpq	$161, %rcx
	setb	%al
	movl	$160, %edx
	movq	%rcx, %r10
	subq	%rcx, %rdx
	cmpq	%rdx, %r9
	setbe	%cl
	andb	%al, %cl
	cmpb	$1, %cl
	jne	Lgcm_v2_BB82_29
# %bb.28:                               # %then.1.i.i.i
	movq	%r9, 8(%rsp)
	movq	%rbx, (%rsp)
	leaq	32(%rsp), %rdi
	leaq	56(%rsp), %rsi
	movq	%r11, %rdx
	movq	24(%rsp), %rcx                  # 8-byte Reload
	movq	%r10, %r9
	callq	_gcm_v2.gcm_siv.course.seal_in.1
	jmp	Lgcm_v2_BB82_30
Lgcm_v2_BB82_29:                              # %else.2.i.i.i
	movq	%r9, 8(%rsp)
	movq	%rbx, (%rsp)
	leaq	32(%rsp), %rdi
	leaq	56(%rsp), %rsi
	movq	%r11, %rdx
	movq	24(%rsp), %rcx                  # 8-byte Reload
	movq	%r10, %r9
	callq	_gcm_v2.gcm_siv.course.seal_in.2
Lgcm_v2_BB82_30:                              # %"gcm_siv::course::seal_message::<#c90a668d6150d2aa>.exit.i.i"
	movaps	32(%rsp), %xmm0
	movups	%xmm0, (%r12)
	xorl	%eax, %eax
Lgcm_v2_BB82_31:                              # %"gcm_c::siv_to::fotsgure_gcm_siv_seal_to.exit"
	addq	$88, %rsp
	popq	%rbx
	popq	%r12
	popq	%r13
	popq	%r14
	popq	%r15
	popq	%rbp
	pxor	%xmm0, %xmm0
	pxor	%xmm1, %xmm1
	pxor	%xmm2, %xmm2
	pxor	%xmm3, %xmm3
	pxor	%xmm4, %xmm4
	pxor	%xmm5, %xmm5
	pxor	%xmm6, %xmm6
	pxor	%xmm7, %xmm7
	pxor	%xmm8, %xmm8
	pxor	%xmm9, %xmm9
	pxor	%xmm10, %xmm10
	pxor	%xmm11, %xmm11
	pxor	%xmm12, %xmm12
	pxor	%xmm13, %xmm13
	pxor	%xmm14, %xmm14
	pxor	%xmm15, %xmm15
	xorl	%ecx, %ecx
	xorl	%edx, %edx
	xorl	%esi, %esi
	xorl	%edi, %edi
	xorl	%r8d, %r8d
	xorl	%r9d, %r9d
	xorl	%r10d, %r10d
	xorl	%r11d, %r11d
	retq
Lgcm_v2_BB82_10:                              # %vector.main.loop.iter.check
	movabsq	$137438953440, %r10             # imm = 0x1FFFFFFFE0
	cmpq	$32, %r9
	jae	Lgcm_v2_BB82_12
# %bb.11:
	xorl	%eax, %eax
	jmp	Lgcm_v2_BB82_16
Lgcm_v2_BB82_12:                              # %vector.ph
	movb	%bpl, 16(%rsp)                  # 1-byte Spill
	movq	%r9, %rax
	andq	%r10, %rax
	leaq	(%r11,%r8), %r13
	addq	$16, %r13
	movq	144(%rsp), %r10
	leaq	(%r12,%r10), %rbp
	addq	$16, %rbp
	xorl	%r10d, %r10d
	.p2align	4
Lgcm_v2_BB82_13:                              # %vector.body
                                        # =>This Inner Loop Header: Depth=1
	movups	-16(%r13,%r10), %xmm0
	movups	(%r13,%r10), %xmm1
	movups	%xmm0, -16(%rbp,%r10)
	movups	%xmm1, (%rbp,%r10)
	addq	$32, %r10
	cmpq	%r10, %rax
	jne	Lgcm_v2_BB82_13
# %bb.14:                               # %middle.block
	cmpq	%rax, %r9
	movzbl	16(%rsp), %ebp                  # 1-byte Folded Reload
	movabsq	$137438953440, %r10             # imm = 0x1FFFFFFFE0
	je	Lgcm_v2_BB82_25
# %bb.15:                               # %vec.epilog.iter.check
	testb	$28, %r9b
	je	Lgcm_v2_BB82_19
Lgcm_v2_BB82_16:                              # %vec.epilog.ph
	movq	%rax, %r14
	addq	$28, %r10
	movq	%r10, %rax
	andq	%r9, %rax
	.p2align	4
Lgcm_v2_BB82_17:                              # %vec.epilog.vector.body
                                        # =>This Inner Loop Header: Depth=1
	movl	(%rsi,%r14), %r10d
	movl	%r10d, (%rbx,%r14)
	addq	$4, %r14
	cmpq	%r14, %rax
	jne	Lgcm_v2_BB82_17
# %bb.18:                               # %vec.epilog.middle.block
	cmpq	%rax, %r9
	je	Lgcm_v2_BB82_25
	jmp	Lgcm_v2_BB82_19
                                        # -- End function
	.section	__TEXT,__text,regular,pure_instructions
	export_gcm_v2	fotsgure_gcm_additional
	.p2align	4
_gcm_v2.fotsgure_gcm_additional:                # @_gcm_v2.fotsgure_gcm_additional
	endbr64
# %bb.0:                                # %start
	movq	%rdx, %r8
	xorl	%edx, %edx
	testq	%r8, %r8
	sete	%r10b
	movl	(%rdi), %r9d
	movl	$2, %eax
	cmpq	$32, %r9
	ja	Lgcm_v2_BB83_6
# %bb.1:                                # %start
	movabsq	$4311810048, %r11               # imm = 0x101010000
	btq	%r9, %r11
	jae	Lgcm_v2_BB83_6
# %bb.2:                                # %join.3.i
	pushq	%r14
	pushq	%rbx
	subq	$40, %rsp
	leaq	4(%rdi), %rax
	shrl	$2, %r9d
	addq	$7, %r9
	addq	$244, %rdi
	movq	%rax, (%rsp)
	movq	%r9, 8(%rsp)
	movq	%rax, 16(%rsp)
	movq	%r9, 24(%rsp)
	movq	%rdi, 32(%rsp)
	movl	$8, %eax
	cmpq	$1, 24(%rsi)
	jne	Lgcm_v2_BB83_5
# %bb.3:                                # %join.3.i.i
	movq	(%rsi), %r9
	movq	%rcx, %rax
	addq	%r9, %rax
	movq	$-1, %rdi
	cmovaeq	%rax, %rdi
	shrq	$61, %rdi
	movl	$5, %eax
	jne	Lgcm_v2_BB83_5
# %bb.4:                                # %arm.4.i
	movb	%r10b, %dl
	shll	$12, %edx
	addq	%rdx, %r8
	leaq	32(%rsp), %rdi
	andl	$15, %r9d
	leaq	48(%rsi), %rax
	leaq	64(%rsi), %rdx
	movq	%rsi, %r14
	movq	%rax, %rsi
	movq	%rcx, %rbx
	movq	%r9, %rcx
	movq	%rbx, %r9
	callq	_gcm_v2.gcm.hash_room.hash_piece
	callq	_gcm_v2.aes_cipher.zeroize.stack.wipe_stack.512
	addq	%rbx, (%r14)
	xorl	%eax, %eax
Lgcm_v2_BB83_5:
	addq	$40, %rsp
	popq	%rbx
	popq	%r14
Lgcm_v2_BB83_6:                               # %"gcm_c::pieces::fotsgure_gcm_additional.exit"
	pxor	%xmm0, %xmm0
	pxor	%xmm1, %xmm1
	pxor	%xmm2, %xmm2
	pxor	%xmm3, %xmm3
	pxor	%xmm4, %xmm4
	pxor	%xmm5, %xmm5
	pxor	%xmm6, %xmm6
	pxor	%xmm7, %xmm7
	pxor	%xmm8, %xmm8
	pxor	%xmm9, %xmm9
	pxor	%xmm10, %xmm10
	pxor	%xmm11, %xmm11
	pxor	%xmm12, %xmm12
	pxor	%xmm13, %xmm13
	pxor	%xmm14, %xmm14
	pxor	%xmm15, %xmm15
	xorl	%ecx, %ecx
	xorl	%edx, %edx
	xorl	%esi, %esi
	xorl	%edi, %edi
	xorl	%r8d, %r8d
	xorl	%r9d, %r9d
	xorl	%r10d, %r10d
	xorl	%r11d, %r11d
	retq
                                        # -- End function
	.section	__TEXT,__text,regular,pure_instructions
	export_gcm_v2	fotsgure_gcm_decrypt
	.p2align	4
_gcm_v2.fotsgure_gcm_decrypt:                   # @_gcm_v2.fotsgure_gcm_decrypt
	endbr64
# %bb.0:                                # %start
	xorl	%r9d, %r9d
	testq	%rdx, %rdx
	sete	%r10b
	movl	(%rdi), %r8d
	movl	$2, %eax
	cmpq	$32, %r8
	ja	Lgcm_v2_BB84_6
# %bb.1:                                # %start
	movabsq	$4311810048, %r11               # imm = 0x101010000
	btq	%r8, %r11
	jae	Lgcm_v2_BB84_6
# %bb.2:                                # %join.3.i
	pushq	%r14
	pushq	%rbx
	subq	$40, %rsp
	leaq	4(%rdi), %rax
	shrl	$2, %r8d
	addq	$7, %r8
	addq	$244, %rdi
	movq	%rax, (%rsp)
	movq	%r8, 8(%rsp)
	movq	%rax, 16(%rsp)
	movq	%r8, 24(%rsp)
	movq	%rdi, 32(%rsp)
	movl	$8, %eax
	cmpq	$4, 24(%rsi)
	jne	Lgcm_v2_BB84_5
# %bb.3:                                # %join.3.i.i
	movq	8(%rsi), %rax
	movq	16(%rsi), %r8
	movq	%rcx, %rdi
	addq	%r8, %rdi
	movq	$-1, %r11
	cmovaeq	%rdi, %r11
	movabsq	$68719476704, %rdi              # imm = 0xFFFFFFFE0
	cmpq	%rdi, %rax
	cmovbq	%rax, %rdi
	movl	$5, %eax
	cmpq	%r11, %rdi
	jb	Lgcm_v2_BB84_5
# %bb.4:                                # %arm.4.i
	movb	%r10b, %r9b
	shll	$12, %r9d
	addq	%r9, %rdx
	leaq	32(%rsi), %rax
	addq	$16, %r8
	movq	%rsp, %rdi
	movq	%rsi, %r14
	movq	%rax, %rsi
	movq	%rdx, %rax
	movq	%r8, %rdx
	movq	%rcx, %rbx
	movq	%rax, %rcx
	movq	%rbx, %r8
	callq	_gcm_v2.gcm.gctr.add_gctr
	addq	%rbx, 16(%r14)
	callq	_gcm_v2.aes_cipher.zeroize.stack.wipe_stack.1536
	xorl	%eax, %eax
Lgcm_v2_BB84_5:
	addq	$40, %rsp
	popq	%rbx
	popq	%r14
Lgcm_v2_BB84_6:                               # %"gcm_c::pieces::decrypting::fotsgure_gcm_decrypt.exit"
	pxor	%xmm0, %xmm0
	pxor	%xmm1, %xmm1
	pxor	%xmm2, %xmm2
	pxor	%xmm3, %xmm3
	pxor	%xmm4, %xmm4
	pxor	%xmm5, %xmm5
	pxor	%xmm6, %xmm6
	pxor	%xmm7, %xmm7
	pxor	%xmm8, %xmm8
	pxor	%xmm9, %xmm9
	pxor	%xmm10, %xmm10
	pxor	%xmm11, %xmm11
	pxor	%xmm12, %xmm12
	pxor	%xmm13, %xmm13
	pxor	%xmm14, %xmm14
	pxor	%xmm15, %xmm15
	xorl	%ecx, %ecx
	xorl	%edx, %edx
	xorl	%esi, %esi
	xorl	%edi, %edi
	xorl	%r8d, %r8d
	xorl	%r9d, %r9d
	xorl	%r10d, %r10d
	xorl	%r11d, %r11d
	retq
                                        # -- End function
	.section	__TEXT,__text,regular,pure_instructions
	export_gcm_v2	fotsgure_gcm_decrypt_unverified
	.p2align	4
_gcm_v2.fotsgure_gcm_decrypt_unverified:        # @_gcm_v2.fotsgure_gcm_decrypt_unverified
	endbr64
# %bb.0:                                # %start
	pushq	%rbp
	pushq	%r15
	pushq	%r14
	pushq	%r12
	pushq	%rbx
	subq	$48, %rsp
	movq	%rcx, %rbx
	xorl	%r12d, %r12d
	testq	%rdx, %rdx
	sete	%bpl
	movl	(%rdi), %ecx
	movl	$2, %eax
	cmpq	$32, %rcx
	ja	Lgcm_v2_BB85_5
# %bb.1:                                # %start
	movq	%rdx, %r14
	movabsq	$4311810048, %rdx               # imm = 0x101010000
	btq	%rcx, %rdx
	jae	Lgcm_v2_BB85_5
# %bb.2:                                # %join.3.i
	movq	%rsi, %r15
	leaq	4(%rdi), %rax
	shrl	$2, %ecx
	addq	$7, %rcx
	addq	$244, %rdi
	movq	%rax, 8(%rsp)
	movq	%rcx, 16(%rsp)
	movq	%rax, 24(%rsp)
	movq	%rcx, 32(%rsp)
	movq	%rdi, 40(%rsp)
	leaq	8(%rsp), %rdi
	movl	$3, %edx
	movq	%rbx, %rcx
	callq	_gcm_v2.gcm.mode.BorrowedGcm.enter_phase
	testb	%al, %al
	je	Lgcm_v2_BB85_3
# %bb.4:                                # %arm.2.i.i
	notb	%dl
	movzbl	%dl, %eax
	andl	$1, %eax
	leal	(%rax,%rax,2), %eax
	addl	$5, %eax
	jmp	Lgcm_v2_BB85_5
Lgcm_v2_BB85_3:                               # %arm.1.i.i
	movb	%bpl, %r12b
	shll	$12, %r12d
	addq	%r12, %r14
	leaq	40(%rsp), %rdi
	movq	8(%r15), %rcx
	leaq	16(%rcx), %r12
	andl	$15, %ecx
	leaq	48(%r15), %rsi
	leaq	64(%r15), %rdx
	movq	%r14, %r8
	movq	%rbx, %r9
	callq	_gcm_v2.gcm.hash_room.hash_piece
	addq	%rbx, 8(%r15)
	addq	$32, %r15
	leaq	8(%rsp), %rdi
	movq	%r15, %rsi
	movq	%r12, %rdx
	movq	%r14, %rcx
	movq	%rbx, %r8
	callq	_gcm_v2.gcm.gctr.add_gctr
	callq	_gcm_v2.aes_cipher.zeroize.stack.wipe_stack.1536
	xorl	%eax, %eax
Lgcm_v2_BB85_5:                               # %"gcm_c::pieces::decrypting::fotsgure_gcm_decrypt_unverified.exit"
	addq	$48, %rsp
	popq	%rbx
	popq	%r12
	popq	%r14
	popq	%r15
	popq	%rbp
	pxor	%xmm0, %xmm0
	pxor	%xmm1, %xmm1
	pxor	%xmm2, %xmm2
	pxor	%xmm3, %xmm3
	pxor	%xmm4, %xmm4
	pxor	%xmm5, %xmm5
	pxor	%xmm6, %xmm6
	pxor	%xmm7, %xmm7
	pxor	%xmm8, %xmm8
	pxor	%xmm9, %xmm9
	pxor	%xmm10, %xmm10
	pxor	%xmm11, %xmm11
	pxor	%xmm12, %xmm12
	pxor	%xmm13, %xmm13
	pxor	%xmm14, %xmm14
	pxor	%xmm15, %xmm15
	xorl	%ecx, %ecx
	xorl	%edx, %edx
	xorl	%esi, %esi
	xorl	%edi, %edi
	xorl	%r8d, %r8d
	xorl	%r9d, %r9d
	xorl	%r10d, %r10d
	xorl	%r11d, %r11d
	retq
                                        # -- End function
	.section	__TEXT,__text,regular,pure_instructions
	export_gcm_v2	fotsgure_gcm_encrypt
	.p2align	4
_gcm_v2.fotsgure_gcm_encrypt:                   # @_gcm_v2.fotsgure_gcm_encrypt
	endbr64
# %bb.0:                                # %start
	pushq	%rbp
	pushq	%r15
	pushq	%r14
	pushq	%r12
	pushq	%rbx
	subq	$48, %rsp
	movq	%rcx, %rbx
	xorl	%r12d, %r12d
	testq	%rdx, %rdx
	sete	%bpl
	movl	(%rdi), %ecx
	movl	$2, %eax
	cmpq	$32, %rcx
	ja	Lgcm_v2_BB86_5
# %bb.1:                                # %start
	movq	%rdx, %r15
	movabsq	$4311810048, %rdx               # imm = 0x101010000
	btq	%rcx, %rdx
	jae	Lgcm_v2_BB86_5
# %bb.2:                                # %join.3.i
	movq	%rsi, %r14
	leaq	4(%rdi), %rax
	shrl	$2, %ecx
	addq	$7, %rcx
	addq	$244, %rdi
	movq	%rax, 8(%rsp)
	movq	%rcx, 16(%rsp)
	movq	%rax, 24(%rsp)
	movq	%rcx, 32(%rsp)
	movq	%rdi, 40(%rsp)
	leaq	8(%rsp), %rdi
	movl	$2, %edx
	movq	%rbx, %rcx
	callq	_gcm_v2.gcm.mode.BorrowedGcm.enter_phase
	testb	%al, %al
	je	Lgcm_v2_BB86_3
# %bb.4:                                # %arm.2.i.i
	notb	%dl
	movzbl	%dl, %eax
	andl	$1, %eax
	leal	(%rax,%rax,2), %eax
	addl	$5, %eax
	jmp	Lgcm_v2_BB86_5
Lgcm_v2_BB86_3:                               # %arm.1.i.i
	movb	%bpl, %r12b
	shll	$12, %r12d
	addq	%r12, %r15
	leaq	40(%rsp), %r12
	leaq	32(%r14), %rsi
	movq	8(%r14), %rdx
	addq	$16, %rdx
	leaq	8(%rsp), %rdi
	movq	%r15, %rcx
	movq	%rbx, %r8
	callq	_gcm_v2.gcm.gctr.add_gctr
	movq	8(%r14), %rcx
	andl	$15, %ecx
	leaq	48(%r14), %rsi
	leaq	64(%r14), %rdx
	movq	%r12, %rdi
	movq	%r15, %r8
	movq	%rbx, %r9
	callq	_gcm_v2.gcm.hash_room.hash_piece
	addq	%rbx, 8(%r14)
	callq	_gcm_v2.aes_cipher.zeroize.stack.wipe_stack.1536
	xorl	%eax, %eax
Lgcm_v2_BB86_5:                               # %"gcm_c::pieces::encrypting::fotsgure_gcm_encrypt.exit"
	addq	$48, %rsp
	popq	%rbx
	popq	%r12
	popq	%r14
	popq	%r15
	popq	%rbp
	pxor	%xmm0, %xmm0
	pxor	%xmm1, %xmm1
	pxor	%xmm2, %xmm2
	pxor	%xmm3, %xmm3
	pxor	%xmm4, %xmm4
	pxor	%xmm5, %xmm5
	pxor	%xmm6, %xmm6
	pxor	%xmm7, %xmm7
	pxor	%xmm8, %xmm8
	pxor	%xmm9, %xmm9
	pxor	%xmm10, %xmm10
	pxor	%xmm11, %xmm11
	pxor	%xmm12, %xmm12
	pxor	%xmm13, %xmm13
	pxor	%xmm14, %xmm14
	pxor	%xmm15, %xmm15
	xorl	%ecx, %ecx
	xorl	%edx, %edx
	xorl	%esi, %esi
	xorl	%edi, %edi
	xorl	%r8d, %r8d
	xorl	%r9d, %r9d
	xorl	%r10d, %r10d
	xorl	%r11d, %r11d
	retq
                                        # -- End function
	.section	__TEXT,__text,regular,pure_instructions
	export_gcm_v2	fotsgure_gcm_verify
	.p2align	4
_gcm_v2.fotsgure_gcm_verify:                    # @_gcm_v2.fotsgure_gcm_verify
	endbr64
# %bb.0:                                # %start
	pushq	%rbp
	pushq	%r15
	pushq	%r14
	pushq	%r12
	pushq	%rbx
	subq	$48, %rsp
	movq	%rcx, %rbx
	xorl	%r12d, %r12d
	testq	%rdx, %rdx
	sete	%bpl
	movl	(%rdi), %ecx
	movl	$2, %eax
	cmpq	$32, %rcx
	ja	Lgcm_v2_BB87_5
# %bb.1:                                # %start
	movq	%rdx, %r15
	movabsq	$4311810048, %rdx               # imm = 0x101010000
	btq	%rcx, %rdx
	jae	Lgcm_v2_BB87_5
# %bb.2:                                # %join.3.i
	movq	%rsi, %r14
	leaq	4(%rdi), %rax
	shrl	$2, %ecx
	addq	$7, %rcx
	addq	$244, %rdi
	movq	%rax, 8(%rsp)
	movq	%rcx, 16(%rsp)
	movq	%rax, 24(%rsp)
	movq	%rcx, 32(%rsp)
	movq	%rdi, 40(%rsp)
	leaq	8(%rsp), %rdi
	movl	$3, %edx
	movq	%rbx, %rcx
	callq	_gcm_v2.gcm.mode.BorrowedGcm.enter_phase
	testb	%al, %al
	je	Lgcm_v2_BB87_3
# %bb.4:                                # %arm.2.i.i
	notb	%dl
	movzbl	%dl, %eax
	andl	$1, %eax
	leal	(%rax,%rax,2), %eax
	addl	$5, %eax
	jmp	Lgcm_v2_BB87_5
Lgcm_v2_BB87_3:                               # %arm.1.i.i
	movb	%bpl, %r12b
	shll	$12, %r12d
	addq	%r12, %r15
	leaq	40(%rsp), %rdi
	movq	8(%r14), %rcx
	andl	$15, %ecx
	leaq	48(%r14), %rsi
	leaq	64(%r14), %rdx
	movq	%r15, %r8
	movq	%rbx, %r9
	callq	_gcm_v2.gcm.hash_room.hash_piece
	addq	%rbx, 8(%r14)
	callq	_gcm_v2.aes_cipher.zeroize.stack.wipe_stack.512
	xorl	%eax, %eax
Lgcm_v2_BB87_5:                               # %"gcm_c::pieces::decrypting::fotsgure_gcm_verify.exit"
	addq	$48, %rsp
	popq	%rbx
	popq	%r12
	popq	%r14
	popq	%r15
	popq	%rbp
	pxor	%xmm0, %xmm0
	pxor	%xmm1, %xmm1
	pxor	%xmm2, %xmm2
	pxor	%xmm3, %xmm3
	pxor	%xmm4, %xmm4
	pxor	%xmm5, %xmm5
	pxor	%xmm6, %xmm6
	pxor	%xmm7, %xmm7
	pxor	%xmm8, %xmm8
	pxor	%xmm9, %xmm9
	pxor	%xmm10, %xmm10
	pxor	%xmm11, %xmm11
	pxor	%xmm12, %xmm12
	pxor	%xmm13, %xmm13
	pxor	%xmm14, %xmm14
	pxor	%xmm15, %xmm15
	xorl	%ecx, %ecx
	xorl	%edx, %edx
	xorl	%esi, %esi
	xorl	%edi, %edi
	xorl	%r8d, %r8d
	xorl	%r9d, %r9d
	xorl	%r10d, %r10d
	xorl	%r11d, %r11d
	retq
                                        # -- End function
	.section	__TEXT,__text,regular,pure_instructions
	export_gcm_v2	fotsgure_gcm_accept
	.p2align	4
_gcm_v2.fotsgure_gcm_accept:                    # @_gcm_v2.fotsgure_gcm_accept
	endbr64
# %bb.0:                                # %start
	xorl	%r8d, %r8d
	testq	%rdx, %rdx
	sete	%r9b
	movl	$4, %eax
	cmpq	$16, %rcx
	jne	Lgcm_v2_BB88_8
# %bb.1:                                # %join.3.i
	movl	(%rdi), %ecx
	movl	$2, %eax
	cmpq	$32, %rcx
	ja	Lgcm_v2_BB88_8
# %bb.2:                                # %join.3.i
	movabsq	$4311810048, %r10               # imm = 0x101010000
	btq	%rcx, %r10
	jae	Lgcm_v2_BB88_8
# %bb.3:                                # %join.6.i
	pushq	%rbp
	pushq	%rbx
	subq	$72, %rsp
	movb	%r9b, %r8b
	shll	$12, %r8d
	addq	%r8, %rdx
	leaq	4(%rdi), %rax
	shrl	$2, %ecx
	addq	$7, %rcx
	addq	$244, %rdi
	movq	%rax, 8(%rsp)
	movq	%rcx, 16(%rsp)
	movq	%rax, 24(%rsp)
	movq	%rcx, 32(%rsp)
	movq	%rdi, 40(%rsp)
	movups	(%rdx), %xmm0
	movaps	%xmm0, 48(%rsp)
	movq	24(%rsi), %rax
	xorl	%ecx, %ecx
	cmpq	$5, %rax
	cmovael	%ecx, %eax
	orl	$2, %eax
	movzbl	%al, %eax
	cmpl	$3, %eax
	jne	Lgcm_v2_BB88_4
# %bb.5:                                # %join.3.i.i
	leaq	8(%rsp), %rdi
	leaq	48(%rsp), %rdx
	movq	%rsi, %rbx
	callq	_gcm_v2.gcm.mode.BorrowedGcm.is_tag_so_far
	movl	%eax, %ebp
	callq	_gcm_v2.aes_cipher.zeroize.stack.wipe_stack.1536
	movl	$6, %eax
	testb	%bpl, %bpl
	je	Lgcm_v2_BB88_7
# %bb.6:                                # %arm.7.i
	movq	$4, 24(%rbx)
	movq	$0, 16(%rbx)
	xorl	%eax, %eax
	jmp	Lgcm_v2_BB88_7
Lgcm_v2_BB88_4:
	movl	$8, %eax
Lgcm_v2_BB88_7:
	addq	$72, %rsp
	popq	%rbx
	popq	%rbp
Lgcm_v2_BB88_8:                               # %"gcm_c::pieces::decrypting::fotsgure_gcm_accept.exit"
	pxor	%xmm0, %xmm0
	pxor	%xmm1, %xmm1
	pxor	%xmm2, %xmm2
	pxor	%xmm3, %xmm3
	pxor	%xmm4, %xmm4
	pxor	%xmm5, %xmm5
	pxor	%xmm6, %xmm6
	pxor	%xmm7, %xmm7
	pxor	%xmm8, %xmm8
	pxor	%xmm9, %xmm9
	pxor	%xmm10, %xmm10
	pxor	%xmm11, %xmm11
	pxor	%xmm12, %xmm12
	pxor	%xmm13, %xmm13
	pxor	%xmm14, %xmm14
	pxor	%xmm15, %xmm15
	xorl	%ecx, %ecx
	xorl	%edx, %edx
	xorl	%esi, %esi
	xorl	%edi, %edi
	xorl	%r8d, %r8d
	xorl	%r9d, %r9d
	xorl	%r10d, %r10d
	xorl	%r11d, %r11d
	retq
                                        # -- End function
	.section	__TEXT,__text,regular,pure_instructions
	export_gcm_v2	fotsgure_gcm_accept_short
	.p2align	4
_gcm_v2.fotsgure_gcm_accept_short:              # @_gcm_v2.fotsgure_gcm_accept_short
	endbr64
# %bb.0:                                # %start
	pushq	%rbp
	pushq	%rbx
	subq	$40, %rsp
	xorl	%r9d, %r9d
	testq	%rcx, %rcx
	sete	%r10b
	leaq	-4(%rdx), %rax
	testq	$-5, %rax
	sete	%r11b
	movq	%rdx, %rax
	andq	$-4, %rax
	cmpq	$12, %rax
	sete	%bl
	movl	$4, %eax
	cmpq	%rdx, %r8
	jne	Lgcm_v2_BB89_8
# %bb.1:                                # %start
	orb	%bl, %r11b
	je	Lgcm_v2_BB89_8
# %bb.2:                                # %join.3.i
	movl	(%rdi), %r8d
	movl	$2, %eax
	cmpq	$32, %r8
	ja	Lgcm_v2_BB89_8
# %bb.3:                                # %join.3.i
	movabsq	$4311810048, %r11               # imm = 0x101010000
	btq	%r8, %r11
	jae	Lgcm_v2_BB89_8
# %bb.4:                                # %join.6.i
	leaq	4(%rdi), %rax
	shrl	$2, %r8d
	addq	$7, %r8
	addq	$244, %rdi
	movq	%rax, (%rsp)
	movq	%r8, 8(%rsp)
	movq	%rax, 16(%rsp)
	movq	%r8, 24(%rsp)
	movq	%rdi, 32(%rsp)
	movq	24(%rsi), %rax
	xorl	%edi, %edi
	cmpq	$5, %rax
	cmovael	%edi, %eax
	orl	$2, %eax
	movzbl	%al, %eax
	cmpl	$3, %eax
	jne	Lgcm_v2_BB89_5
# %bb.6:                                # %join.7.i.i
	movb	%r10b, %r9b
	shll	$12, %r9d
	addq	%r9, %rcx
	movq	%rsp, %rdi
	movq	%rsi, %rbx
	movq	%rdx, %rax
	movq	%rcx, %rdx
	movq	%rax, %rcx
	callq	_gcm_v2.gcm.mode.BorrowedGcm.is_short_tag_so_far
	movl	%eax, %ebp
	callq	_gcm_v2.aes_cipher.zeroize.stack.wipe_stack.1536
	movl	$6, %eax
	testb	%bpl, %bpl
	je	Lgcm_v2_BB89_8
# %bb.7:                                # %arm.7.i
	movq	$4, 24(%rbx)
	movq	$0, 16(%rbx)
	xorl	%eax, %eax
Lgcm_v2_BB89_8:                               # %"gcm_c::pieces::decrypting::fotsgure_gcm_accept_short.exit"
	addq	$40, %rsp
	popq	%rbx
	popq	%rbp
	pxor	%xmm0, %xmm0
	pxor	%xmm1, %xmm1
	pxor	%xmm2, %xmm2
	pxor	%xmm3, %xmm3
	pxor	%xmm4, %xmm4
	pxor	%xmm5, %xmm5
	pxor	%xmm6, %xmm6
	pxor	%xmm7, %xmm7
	pxor	%xmm8, %xmm8
	pxor	%xmm9, %xmm9
	pxor	%xmm10, %xmm10
	pxor	%xmm11, %xmm11
	pxor	%xmm12, %xmm12
	pxor	%xmm13, %xmm13
	pxor	%xmm14, %xmm14
	pxor	%xmm15, %xmm15
	xorl	%ecx, %ecx
	xorl	%edx, %edx
	xorl	%esi, %esi
	xorl	%edi, %edi
	xorl	%r8d, %r8d
	xorl	%r9d, %r9d
	xorl	%r10d, %r10d
	xorl	%r11d, %r11d
	retq
Lgcm_v2_BB89_5:
	movl	$8, %eax
	addq	$40, %rsp
	popq	%rbx
	popq	%rbp
	pxor	%xmm0, %xmm0
	pxor	%xmm1, %xmm1
	pxor	%xmm2, %xmm2
	pxor	%xmm3, %xmm3
	pxor	%xmm4, %xmm4
	pxor	%xmm5, %xmm5
	pxor	%xmm6, %xmm6
	pxor	%xmm7, %xmm7
	pxor	%xmm8, %xmm8
	pxor	%xmm9, %xmm9
	pxor	%xmm10, %xmm10
	pxor	%xmm11, %xmm11
	pxor	%xmm12, %xmm12
	pxor	%xmm13, %xmm13
	pxor	%xmm14, %xmm14
	pxor	%xmm15, %xmm15
	xorl	%ecx, %ecx
	xorl	%edx, %edx
	xorl	%esi, %esi
	xorl	%edi, %edi
	xorl	%r8d, %r8d
	xorl	%r9d, %r9d
	xorl	%r10d, %r10d
	xorl	%r11d, %r11d
	retq
                                        # -- End function
	.section	__TEXT,__const
l_gcm_v2_static.0:
	.ascii	"\001\002\004\b\020 @\200\0336"

	.section	__TEXT,__const
	.p2align	4
l_gcm_v2_static.1:
	.ascii	"\000\001\034\035-,10'&;:\n\013\026\027"

l_gcm_v2_static.2:
	.ascii	"\000\206\375{\216\bs\365w\361\212\f\371\177\004\202"

	.section	__TEXT,__const
l_gcm_v2_static.3:
	.ascii	"\000\001\002\003\004\005\006\007\b\t\n\013\f\r\016\017\000\005\n\017\004\t\016\003\b\r\002\007\f\001\006\013\000\t\002\013\004\r\006\017\b\001\n\003\f\005\016\007\000\r\n\007\004\001\016\013\b\005\002\017\f\t\006\003"

	.section	__TEXT,__const
l_gcm_v2_static.5:
	.ascii	"\001\002\003\000\005\006\007\004\t\n\013\b\r\016\017\f\005\006\007\004\t\n\013\b\r\016\017\f\001\002\003\000\t\n\013\b\r\016\017\f\001\002\003\000\005\006\007\004\r\016\017\f\001\002\003\000\005\006\007\004\t\n\013\b"

	.section	__TEXT,__const
l_gcm_v2_static.6:
	.ascii	"\003\000\001\002\007\004\005\006\013\b\t\n\017\f\r\016\017\f\r\016\003\000\001\002\007\004\005\006\013\b\t\n\013\b\t\n\017\f\r\016\003\000\001\002\007\004\005\006\007\004\005\006\013\b\t\n\017\f\r\016\003\000\001\002"

	.section	__TEXT,__fotsgure,regular,no_dead_strip
	.asciz	"fotsgure_gcm 0.4.0, apple_x86_64/gcm.s, sources SHA-256 7839658995c36f00d13f13ab6f42fa9360d959953d441bf3a57996a9c2aa56dc"

.subsections_via_symbols
