# Made by tools/dist from the proved crate aes_c; BUILD says from what. Don't edit it.
/* A Rust crate defines in_rust; for x86-64, a static library of both builds defines chosen, and choose_*.c calls these names. */
	.macro	export_aes_v2 name
	.ifdef	in_rust
	.globl	_aes_v2.\name
	.private_extern	_aes_v2.\name
	.else
	.ifdef	chosen
	.globl	_\name\()_v2
	.private_extern	_\name\()_v2
	.set	_\name\()_v2, _aes_v2.\name
	.else
	.globl	_\name
	.set	_\name, _aes_v2.\name
	.endif
	.endif
	.endm
	.section	__TEXT,__const
	.p2align	4, 0x0                          # -- Begin function aes_permute::lane_keys::expand_lanes
l_aes_v2_CPI0_0:
	.zero	16,15
l_aes_v2_CPI0_1:
	.byte	0                               # 0x0
	.byte	1                               # 0x1
	.byte	28                              # 0x1c
	.byte	29                              # 0x1d
	.byte	45                              # 0x2d
	.byte	44                              # 0x2c
	.byte	49                              # 0x31
	.byte	48                              # 0x30
	.byte	39                              # 0x27
	.byte	38                              # 0x26
	.byte	59                              # 0x3b
	.byte	58                              # 0x3a
	.byte	10                              # 0xa
	.byte	11                              # 0xb
	.byte	22                              # 0x16
	.byte	23                              # 0x17
l_aes_v2_CPI0_2:
	.byte	0                               # 0x0
	.byte	134                             # 0x86
	.byte	253                             # 0xfd
	.byte	123                             # 0x7b
	.byte	142                             # 0x8e
	.byte	8                               # 0x8
	.byte	115                             # 0x73
	.byte	245                             # 0xf5
	.byte	119                             # 0x77
	.byte	241                             # 0xf1
	.byte	138                             # 0x8a
	.byte	12                              # 0xc
	.byte	249                             # 0xf9
	.byte	127                             # 0x7f
	.byte	4                               # 0x4
	.byte	130                             # 0x82
l_aes_v2_CPI0_3:
	.byte	0                               # 0x0
	.byte	1                               # 0x1
	.byte	92                              # 0x5c
	.byte	93                              # 0x5d
	.byte	224                             # 0xe0
	.byte	225                             # 0xe1
	.byte	188                             # 0xbc
	.byte	189                             # 0xbd
	.byte	80                              # 0x50
	.byte	81                              # 0x51
	.byte	12                              # 0xc
	.byte	13                              # 0xd
	.byte	176                             # 0xb0
	.byte	177                             # 0xb1
	.byte	236                             # 0xec
	.byte	237                             # 0xed
l_aes_v2_CPI0_4:
	.byte	0                               # 0x0
	.byte	178                             # 0xb2
	.byte	181                             # 0xb5
	.byte	7                               # 0x7
	.byte	58                              # 0x3a
	.byte	136                             # 0x88
	.byte	143                             # 0x8f
	.byte	61                              # 0x3d
	.byte	172                             # 0xac
	.byte	30                              # 0x1e
	.byte	25                              # 0x19
	.byte	171                             # 0xab
	.byte	150                             # 0x96
	.byte	36                              # 0x24
	.byte	35                              # 0x23
	.byte	145                             # 0x91
l_aes_v2_CPI0_5:
	.byte	13                              # 0xd
	.byte	14                              # 0xe
	.byte	15                              # 0xf
	.byte	12                              # 0xc
	.byte	13                              # 0xd
	.byte	14                              # 0xe
	.byte	15                              # 0xf
	.byte	12                              # 0xc
	.byte	13                              # 0xd
	.byte	14                              # 0xe
	.byte	15                              # 0xf
	.byte	12                              # 0xc
	.byte	13                              # 0xd
	.byte	14                              # 0xe
	.byte	15                              # 0xf
	.byte	12                              # 0xc
l_aes_v2_CPI0_6:
	.byte	128                             # 0x80
	.byte	2                               # 0x2
	.byte	1                               # 0x1
	.byte	15                              # 0xf
	.byte	9                               # 0x9
	.byte	5                               # 0x5
	.byte	14                              # 0xe
	.byte	12                              # 0xc
	.byte	13                              # 0xd
	.byte	4                               # 0x4
	.byte	11                              # 0xb
	.byte	10                              # 0xa
	.byte	7                               # 0x7
	.byte	8                               # 0x8
	.byte	6                               # 0x6
	.byte	3                               # 0x3
l_aes_v2_CPI0_7:
	.byte	128                             # 0x80
	.byte	1                               # 0x1
	.byte	9                               # 0x9
	.byte	14                              # 0xe
	.byte	13                              # 0xd
	.byte	11                              # 0xb
	.byte	7                               # 0x7
	.byte	6                               # 0x6
	.byte	15                              # 0xf
	.byte	2                               # 0x2
	.byte	12                              # 0xc
	.byte	5                               # 0x5
	.byte	10                              # 0xa
	.byte	4                               # 0x4
	.byte	3                               # 0x3
	.byte	8                               # 0x8
l_aes_v2_CPI0_8:
	.byte	0                               # 0x0
	.byte	195                             # 0xc3
	.byte	79                              # 0x4f
	.byte	12                              # 0xc
	.byte	252                             # 0xfc
	.byte	124                             # 0x7c
	.byte	67                              # 0x43
	.byte	128                             # 0x80
	.byte	207                             # 0xcf
	.byte	51                              # 0x33
	.byte	63                              # 0x3f
	.byte	112                             # 0x70
	.byte	191                             # 0xbf
	.byte	179                             # 0xb3
	.byte	240                             # 0xf0
	.byte	140                             # 0x8c
l_aes_v2_CPI0_9:
	.byte	0                               # 0x0
	.byte	230                             # 0xe6
	.byte	114                             # 0x72
	.byte	183                             # 0xb7
	.byte	229                             # 0xe5
	.byte	198                             # 0xc6
	.byte	197                             # 0xc5
	.byte	35                              # 0x23
	.byte	81                              # 0x51
	.byte	180                             # 0xb4
	.byte	3                               # 0x3
	.byte	113                             # 0x71
	.byte	32                              # 0x20
	.byte	151                             # 0x97
	.byte	82                              # 0x52
	.byte	148                             # 0x94
l_aes_v2_CPI0_10:
	.zero	16,110
l_aes_v2_CPI0_11:
	.byte	224                             # 0xe0
	.byte	110                             # 0x6e
	.byte	110                             # 0x6e
	.byte	110                             # 0x6e
	.byte	110                             # 0x6e
	.byte	110                             # 0x6e
	.byte	110                             # 0x6e
	.byte	110                             # 0x6e
	.byte	110                             # 0x6e
	.byte	110                             # 0x6e
	.byte	110                             # 0x6e
	.byte	110                             # 0x6e
	.byte	110                             # 0x6e
	.byte	110                             # 0x6e
	.byte	110                             # 0x6e
	.byte	110                             # 0x6e
l_aes_v2_CPI0_12:
	.byte	0                               # 0x0
	.byte	9                               # 0x9
	.byte	2                               # 0x2
	.byte	11                              # 0xb
	.byte	4                               # 0x4
	.byte	13                              # 0xd
	.byte	6                               # 0x6
	.byte	15                              # 0xf
	.byte	8                               # 0x8
	.byte	1                               # 0x1
	.byte	10                              # 0xa
	.byte	3                               # 0x3
	.byte	12                              # 0xc
	.byte	5                               # 0x5
	.byte	14                              # 0xe
	.byte	7                               # 0x7
l_aes_v2_CPI0_13:
	.byte	0                               # 0x0
	.byte	5                               # 0x5
	.byte	10                              # 0xa
	.byte	15                              # 0xf
	.byte	4                               # 0x4
	.byte	9                               # 0x9
	.byte	14                              # 0xe
	.byte	3                               # 0x3
	.byte	8                               # 0x8
	.byte	13                              # 0xd
	.byte	2                               # 0x2
	.byte	7                               # 0x7
	.byte	12                              # 0xc
	.byte	1                               # 0x1
	.byte	6                               # 0x6
	.byte	11                              # 0xb
l_aes_v2_CPI0_14:
	.byte	25                              # 0x19
	.byte	110                             # 0x6e
	.byte	110                             # 0x6e
	.byte	110                             # 0x6e
	.byte	110                             # 0x6e
	.byte	110                             # 0x6e
	.byte	110                             # 0x6e
	.byte	110                             # 0x6e
	.byte	110                             # 0x6e
	.byte	110                             # 0x6e
	.byte	110                             # 0x6e
	.byte	110                             # 0x6e
	.byte	110                             # 0x6e
	.byte	110                             # 0x6e
	.byte	110                             # 0x6e
	.byte	110                             # 0x6e
l_aes_v2_CPI0_15:
	.zero	16,99
l_aes_v2_CPI0_16:
	.byte	36                              # 0x24
	.byte	110                             # 0x6e
	.byte	110                             # 0x6e
	.byte	110                             # 0x6e
	.byte	110                             # 0x6e
	.byte	110                             # 0x6e
	.byte	110                             # 0x6e
	.byte	110                             # 0x6e
	.byte	110                             # 0x6e
	.byte	110                             # 0x6e
	.byte	110                             # 0x6e
	.byte	110                             # 0x6e
	.byte	110                             # 0x6e
	.byte	110                             # 0x6e
	.byte	110                             # 0x6e
	.byte	110                             # 0x6e
l_aes_v2_CPI0_17:
	.byte	0                               # 0x0
	.byte	13                              # 0xd
	.byte	10                              # 0xa
	.byte	7                               # 0x7
	.byte	4                               # 0x4
	.byte	1                               # 0x1
	.byte	14                              # 0xe
	.byte	11                              # 0xb
	.byte	8                               # 0x8
	.byte	5                               # 0x5
	.byte	2                               # 0x2
	.byte	15                              # 0xf
	.byte	12                              # 0xc
	.byte	9                               # 0x9
	.byte	6                               # 0x6
	.byte	3                               # 0x3
	.section	__TEXT,__text,regular,pure_instructions
	.p2align	4
_aes_v2.aes_permute.lane_keys.expand_lanes: # @_aes_v2.aes_permute.lane_keys.expand_lanes
# %bb.0:                                # %start
	movdqu	(%rsi), %xmm4
	movdqa	l_aes_v2_CPI0_0(%rip), %xmm0           # xmm0 = [15,15,15,15,15,15,15,15,15,15,15,15,15,15,15,15]
	movdqa	%xmm4, %xmm1
	pand	%xmm0, %xmm1
	movdqa	l_aes_v2_CPI0_1(%rip), %xmm3           # xmm3 = [0,1,28,29,45,44,49,48,39,38,59,58,10,11,22,23]
	movdqa	%xmm3, %xmm5
	pshufb	%xmm1, %xmm5
	psrlw	$4, %xmm4
	pand	%xmm0, %xmm4
	movdqa	l_aes_v2_CPI0_2(%rip), %xmm2           # xmm2 = [0,134,253,123,142,8,115,245,119,241,138,12,249,127,4,130]
	movdqa	%xmm2, %xmm1
	pshufb	%xmm4, %xmm1
	pxor	%xmm5, %xmm1
	cmpq	$24, %rdx
	je	Laes_v2_BB0_5
# %bb.1:                                # %start
	cmpq	$16, %rdx
	jne	Laes_v2_BB0_8
# %bb.2:                                # %then.1.i
	movdqa	%xmm1, %xmm3
	pand	%xmm0, %xmm3
	movdqa	l_aes_v2_CPI0_3(%rip), %xmm2           # xmm2 = [0,1,92,93,224,225,188,189,80,81,12,13,176,177,236,237]
	movdqa	%xmm2, %xmm4
	pshufb	%xmm3, %xmm4
	movdqa	%xmm1, %xmm5
	psrlw	$4, %xmm5
	pand	%xmm0, %xmm5
	movdqa	l_aes_v2_CPI0_4(%rip), %xmm3           # xmm3 = [0,178,181,7,58,136,143,61,172,30,25,171,150,36,35,145]
	movdqa	%xmm3, %xmm6
	pshufb	%xmm5, %xmm6
	pxor	%xmm4, %xmm6
	movdqu	%xmm6, (%rdi)
	leaq	16(%rdi), %rax
	leaq	l_aes_v2_static.0(%rip), %rcx
	movl	$48, %edx
	.p2align	4
Laes_v2_BB0_3:                                # %"aes_permute::lane_keys::stored_key.exit"
                                        # =>This Inner Loop Header: Depth=1
	movzbl	(%rcx), %esi
	movl	%esi, %r8d
	andl	$15, %r8d
	leaq	l_aes_v2_static.1(%rip), %r9
	shrl	$4, %esi
	leaq	l_aes_v2_static.2(%rip), %r10
	movzbl	(%rsi,%r10), %esi
	xorb	(%r8,%r9), %sil
	movzbl	%sil, %esi
	movd	%esi, %xmm9
	pxor	%xmm1, %xmm9
	pshufb	l_aes_v2_CPI0_5(%rip), %xmm1           # xmm1 = xmm1[13,14,15,12,13,14,15,12,13,14,15,12,13,14,15,12]
	movdqa	%xmm1, %xmm6
	psrlw	$4, %xmm6
	pand	%xmm0, %xmm6
	pand	%xmm0, %xmm1
	movdqa	%xmm6, %xmm7
	pxor	%xmm1, %xmm7
	movdqa	l_aes_v2_CPI0_6(%rip), %xmm5           # xmm5 = [128,2,1,15,9,5,14,12,13,4,11,10,7,8,6,3]
	movdqa	%xmm5, %xmm8
	pshufb	%xmm1, %xmm8
	movdqa	l_aes_v2_CPI0_7(%rip), %xmm4           # xmm4 = [128,1,9,14,13,11,7,6,15,2,12,5,10,4,3,8]
	movdqa	%xmm4, %xmm1
	pshufb	%xmm6, %xmm1
	movdqa	%xmm4, %xmm10
	pshufb	%xmm7, %xmm10
	pxor	%xmm8, %xmm1
	pxor	%xmm8, %xmm10
	movdqa	%xmm4, %xmm8
	pshufb	%xmm1, %xmm8
	movdqa	%xmm4, %xmm1
	pshufb	%xmm10, %xmm1
	pxor	%xmm7, %xmm8
	pxor	%xmm6, %xmm1
	movdqa	l_aes_v2_CPI0_8(%rip), %xmm6           # xmm6 = [0,195,79,12,252,124,67,128,207,51,63,112,191,179,240,140]
	movdqa	%xmm6, %xmm10
	pshufb	%xmm8, %xmm10
	movdqa	l_aes_v2_CPI0_9(%rip), %xmm7           # xmm7 = [0,230,114,183,229,198,197,35,81,180,3,113,32,151,82,148]
	movdqa	%xmm7, %xmm11
	pshufb	%xmm1, %xmm11
	pxor	%xmm10, %xmm11
	movdqa	%xmm9, %xmm8
	pslldq	$4, %xmm8                       # xmm8 = zero,zero,zero,zero,xmm8[0,1,2,3,4,5,6,7,8,9,10,11]
	pxor	%xmm9, %xmm8
	pxor	%xmm8, %xmm11
	pslldq	$8, %xmm8                       # xmm8 = zero,zero,zero,zero,zero,zero,zero,zero,xmm8[0,1,2,3,4,5,6,7]
	pxor	%xmm11, %xmm8
	movdqa	l_aes_v2_CPI0_10(%rip), %xmm9          # xmm9 = [110,110,110,110,110,110,110,110,110,110,110,110,110,110,110,110]
	movdqa	%xmm8, %xmm1
	pxor	%xmm9, %xmm1
	movl	%edx, %esi
	andl	$48, %esi
	leaq	l_aes_v2_static.3(%rip), %r8
	movdqu	(%rsi,%r8), %xmm10
	movdqa	%xmm1, %xmm11
	pshufb	%xmm10, %xmm11
	pxor	%xmm9, %xmm11
	movdqu	%xmm11, (%rax)
	incq	%rcx
	addq	$48, %rdx
	addq	$16, %rax
	cmpq	$480, %rdx                      # imm = 0x1E0
	jne	Laes_v2_BB0_3
# %bb.4:                                # %"aes_permute::lane_keys::stored_key.exit.peel"
	pshufb	l_aes_v2_CPI0_5(%rip), %xmm1           # xmm1 = xmm1[13,14,15,12,13,14,15,12,13,14,15,12,13,14,15,12]
	movdqa	%xmm1, %xmm9
	psrlw	$4, %xmm9
	pand	%xmm0, %xmm9
	movdqa	%xmm4, %xmm10
	pshufb	%xmm9, %xmm10
	pand	%xmm0, %xmm1
	pshufb	%xmm1, %xmm5
	pxor	%xmm5, %xmm10
	movdqa	%xmm4, %xmm11
	pshufb	%xmm10, %xmm11
	pxor	%xmm9, %xmm1
	pxor	%xmm1, %xmm11
	pshufb	%xmm11, %xmm6
	movdqa	%xmm4, %xmm10
	pshufb	%xmm1, %xmm10
	pxor	%xmm5, %xmm10
	pshufb	%xmm10, %xmm4
	pxor	%xmm9, %xmm4
	pshufb	%xmm4, %xmm7
	pxor	l_aes_v2_CPI0_16(%rip), %xmm8
	movdqa	%xmm8, %xmm1
	pslldq	$4, %xmm1                       # xmm1 = zero,zero,zero,zero,xmm1[0,1,2,3,4,5,6,7,8,9,10,11]
	pxor	%xmm8, %xmm1
	movdqa	%xmm1, %xmm4
	pslldq	$8, %xmm4                       # xmm4 = zero,zero,zero,zero,zero,zero,zero,zero,xmm4[0,1,2,3,4,5,6,7]
	pxor	%xmm6, %xmm4
	pxor	%xmm7, %xmm4
	pxor	%xmm1, %xmm4
	pxor	l_aes_v2_CPI0_10(%rip), %xmm4
	movdqa	%xmm4, %xmm1
	pand	%xmm0, %xmm1
	pshufb	%xmm1, %xmm2
	psrlw	$4, %xmm4
	pand	%xmm0, %xmm4
	pshufb	%xmm4, %xmm3
	pxor	%xmm2, %xmm3
	pxor	l_aes_v2_CPI0_15(%rip), %xmm3
	movdqu	%xmm3, 160(%rdi)
	retq
Laes_v2_BB0_5:                                # %then.4.i
	movq	8(%rsi), %xmm4                  # xmm4 = mem[0],zero
	movq	16(%rsi), %xmm5                 # xmm5 = mem[0],zero
	punpcklqdq	%xmm5, %xmm4            # xmm4 = xmm4[0],xmm5[0]
	movdqa	%xmm4, %xmm5
	pand	%xmm0, %xmm5
	pshufb	%xmm5, %xmm3
	psrlw	$4, %xmm4
	pand	%xmm0, %xmm4
	pshufb	%xmm4, %xmm2
	pxor	%xmm3, %xmm2
	movdqa	%xmm1, %xmm4
	pand	%xmm0, %xmm4
	movdqa	l_aes_v2_CPI0_3(%rip), %xmm3           # xmm3 = [0,1,92,93,224,225,188,189,80,81,12,13,176,177,236,237]
	movdqa	%xmm3, %xmm5
	pshufb	%xmm4, %xmm5
	movdqa	%xmm1, %xmm6
	psrlw	$4, %xmm6
	pand	%xmm0, %xmm6
	movdqa	l_aes_v2_CPI0_4(%rip), %xmm4           # xmm4 = [0,178,181,7,58,136,143,61,172,30,25,171,150,36,35,145]
	movdqa	%xmm4, %xmm7
	pshufb	%xmm6, %xmm7
	pxor	%xmm5, %xmm7
	movdqu	%xmm7, (%rdi)
	leaq	48(%rdi), %rax
	movl	$96, %ecx
	xorl	%edx, %edx
	.p2align	4
Laes_v2_BB0_6:                                # %join.5.i596
                                        # =>This Inner Loop Header: Depth=1
	leaq	l_aes_v2_static.0(%rip), %rsi
	movzbl	(%rdx,%rsi), %r10d
	movdqa	l_aes_v2_CPI0_5(%rip), %xmm9           # xmm9 = [13,14,15,12,13,14,15,12,13,14,15,12,13,14,15,12]
	movdqa	%xmm2, %xmm5
	pshufb	%xmm9, %xmm5
	movdqa	%xmm5, %xmm7
	psrlw	$4, %xmm7
	pand	%xmm0, %xmm7
	pand	%xmm0, %xmm5
	movdqa	%xmm7, %xmm8
	pxor	%xmm5, %xmm8
	movdqa	l_aes_v2_CPI0_6(%rip), %xmm6           # xmm6 = [128,2,1,15,9,5,14,12,13,4,11,10,7,8,6,3]
	movdqa	%xmm6, %xmm10
	pshufb	%xmm5, %xmm10
	movdqa	l_aes_v2_CPI0_7(%rip), %xmm5           # xmm5 = [128,1,9,14,13,11,7,6,15,2,12,5,10,4,3,8]
	movdqa	%xmm5, %xmm11
	pshufb	%xmm7, %xmm11
	movdqa	%xmm5, %xmm12
	pshufb	%xmm8, %xmm12
	pxor	%xmm10, %xmm11
	pxor	%xmm10, %xmm12
	movdqa	%xmm5, %xmm10
	pshufb	%xmm11, %xmm10
	movdqa	%xmm5, %xmm11
	pshufb	%xmm12, %xmm11
	pxor	%xmm8, %xmm10
	pxor	%xmm7, %xmm11
	movdqa	l_aes_v2_CPI0_8(%rip), %xmm7           # xmm7 = [0,195,79,12,252,124,67,128,207,51,63,112,191,179,240,140]
	movdqa	%xmm7, %xmm12
	pshufb	%xmm10, %xmm12
	movdqa	l_aes_v2_CPI0_9(%rip), %xmm8           # xmm8 = [0,230,114,183,229,198,197,35,81,180,3,113,32,151,82,148]
	movdqa	%xmm8, %xmm10
	pshufb	%xmm11, %xmm10
	pxor	%xmm12, %xmm10
	movl	%r10d, %r11d
	andl	$15, %r11d
	leaq	l_aes_v2_static.1(%rip), %r8
	shrl	$4, %r10d
	leaq	l_aes_v2_static.2(%rip), %r9
	movzbl	(%r10,%r9), %r10d
	xorb	(%r11,%r8), %r10b
	movzbl	%r10b, %r10d
	movd	%r10d, %xmm11
	pxor	%xmm1, %xmm11
	movdqa	%xmm11, %xmm1
	pslldq	$4, %xmm1                       # xmm1 = zero,zero,zero,zero,xmm1[0,1,2,3,4,5,6,7,8,9,10,11]
	pxor	%xmm11, %xmm1
	pxor	%xmm1, %xmm10
	pslldq	$8, %xmm1                       # xmm1 = zero,zero,zero,zero,zero,zero,zero,zero,xmm1[0,1,2,3,4,5,6,7]
	pxor	%xmm10, %xmm1
	movdqa	l_aes_v2_CPI0_10(%rip), %xmm10         # xmm10 = [110,110,110,110,110,110,110,110,110,110,110,110,110,110,110,110]
	pxor	%xmm10, %xmm1
	pshufd	$85, %xmm1, %xmm12              # xmm12 = xmm1[1,1,1,1]
	movdqa	%xmm2, %xmm13
	pslldq	$4, %xmm13                      # xmm13 = zero,zero,zero,zero,xmm13[0,1,2,3,4,5,6,7,8,9,10,11]
	pxor	%xmm2, %xmm13
	movdqa	%xmm13, %xmm11
	pslldq	$8, %xmm11                      # xmm11 = zero,zero,zero,zero,zero,zero,zero,zero,xmm11[0,1,2,3,4,5,6,7]
	pxor	%xmm13, %xmm11
	pxor	%xmm12, %xmm11
	movdqa	%xmm1, %xmm12
	palignr	$8, %xmm2, %xmm12               # xmm12 = xmm2[8,9,10,11,12,13,14,15],xmm12[0,1,2,3,4,5,6,7]
	leal	-48(%rcx), %r11d
	andl	$48, %r11d
	leaq	l_aes_v2_static.3(%rip), %r10
	movdqu	(%r11,%r10), %xmm2
	pshufb	%xmm2, %xmm12
	pxor	%xmm10, %xmm12
	movdqu	%xmm12, -32(%rax)
	movl	%ecx, %r11d
	andl	$48, %r11d
	movdqu	(%r11,%r10), %xmm12
	movdqa	%xmm11, %xmm2
	movdqa	%xmm11, %xmm13
	pslldq	$4, %xmm13                      # xmm13 = zero,zero,zero,zero,xmm13[0,1,2,3,4,5,6,7,8,9,10,11]
	pxor	%xmm11, %xmm13
	pshufb	%xmm12, %xmm11
	pxor	%xmm10, %xmm11
	movdqu	%xmm11, -16(%rax)
	movzbl	1(%rdx,%rsi), %esi
	pshufb	%xmm9, %xmm2
	movdqa	%xmm2, %xmm11
	psrlw	$4, %xmm11
	pand	%xmm0, %xmm11
	pand	%xmm0, %xmm2
	movdqa	%xmm11, %xmm12
	pxor	%xmm2, %xmm12
	movdqa	%xmm6, %xmm14
	pshufb	%xmm2, %xmm14
	movdqa	%xmm5, %xmm2
	pshufb	%xmm11, %xmm2
	movdqa	%xmm5, %xmm15
	pshufb	%xmm12, %xmm15
	pxor	%xmm14, %xmm2
	pxor	%xmm14, %xmm15
	movdqa	%xmm5, %xmm14
	pshufb	%xmm2, %xmm14
	movdqa	%xmm5, %xmm2
	pshufb	%xmm15, %xmm2
	pxor	%xmm12, %xmm14
	pxor	%xmm11, %xmm2
	movdqa	%xmm7, %xmm12
	pshufb	%xmm14, %xmm12
	movdqa	%xmm8, %xmm14
	movl	%esi, %r11d
	andl	$15, %r11d
	shrl	$4, %esi
	movzbl	(%rsi,%r9), %esi
	xorb	(%r11,%r8), %sil
	pshufb	%xmm2, %xmm14
	movzbl	%sil, %esi
	movd	%esi, %xmm2
	pxor	%xmm1, %xmm2
	movdqa	%xmm2, %xmm1
	pslldq	$4, %xmm1                       # xmm1 = zero,zero,zero,zero,xmm1[0,1,2,3,4,5,6,7,8,9,10,11]
	pxor	%xmm2, %xmm1
	movdqa	%xmm1, %xmm11
	pslldq	$8, %xmm11                      # xmm11 = zero,zero,zero,zero,zero,zero,zero,zero,xmm11[0,1,2,3,4,5,6,7]
	pxor	%xmm12, %xmm11
	pxor	%xmm14, %xmm11
	pxor	%xmm1, %xmm11
	movdqa	%xmm11, %xmm1
	pxor	%xmm10, %xmm1
	pshufd	$85, %xmm1, %xmm12              # xmm12 = xmm1[1,1,1,1]
	movdqa	%xmm13, %xmm2
	pslldq	$8, %xmm2                       # xmm2 = zero,zero,zero,zero,zero,zero,zero,zero,xmm2[0,1,2,3,4,5,6,7]
	pxor	%xmm13, %xmm2
	pxor	%xmm12, %xmm2
	movdqu	16(%r10,%rdx,8), %xmm12
	movdqa	%xmm1, %xmm13
	pshufb	%xmm12, %xmm13
	pxor	%xmm10, %xmm13
	movdqu	%xmm13, (%rax)
	addq	$144, %rcx
	addq	$2, %rdx
	addq	$48, %rax
	cmpq	$528, %rcx                      # imm = 0x210
	jne	Laes_v2_BB0_6
# %bb.7:                                # %join.5.i596.peel
	movdqa	%xmm2, %xmm1
	pshufb	%xmm9, %xmm1
	movdqa	%xmm1, %xmm12
	psrlw	$4, %xmm12
	pand	%xmm0, %xmm12
	pand	%xmm0, %xmm1
	movdqa	%xmm12, %xmm13
	pxor	%xmm1, %xmm13
	movdqa	%xmm6, %xmm14
	pshufb	%xmm1, %xmm14
	movdqa	%xmm5, %xmm1
	pshufb	%xmm12, %xmm1
	movdqa	%xmm5, %xmm15
	pshufb	%xmm13, %xmm15
	pxor	%xmm14, %xmm1
	pxor	%xmm14, %xmm15
	movdqa	%xmm5, %xmm14
	pshufb	%xmm1, %xmm14
	movdqa	%xmm5, %xmm1
	pshufb	%xmm15, %xmm1
	pxor	%xmm13, %xmm14
	pxor	%xmm12, %xmm1
	movdqa	%xmm7, %xmm12
	pshufb	%xmm14, %xmm12
	movdqa	%xmm8, %xmm13
	pshufb	%xmm1, %xmm13
	pxor	l_aes_v2_CPI0_11(%rip), %xmm11
	movdqa	%xmm11, %xmm14
	pslldq	$4, %xmm14                      # xmm14 = zero,zero,zero,zero,xmm14[0,1,2,3,4,5,6,7,8,9,10,11]
	pxor	%xmm11, %xmm14
	movdqa	%xmm14, %xmm1
	pslldq	$8, %xmm1                       # xmm1 = zero,zero,zero,zero,zero,zero,zero,zero,xmm1[0,1,2,3,4,5,6,7]
	pxor	%xmm12, %xmm1
	pxor	%xmm13, %xmm1
	pxor	%xmm14, %xmm1
	movdqa	%xmm1, %xmm12
	pxor	%xmm10, %xmm12
	pshufd	$85, %xmm12, %xmm13             # xmm13 = xmm12[1,1,1,1]
	movdqa	%xmm2, %xmm14
	pslldq	$4, %xmm14                      # xmm14 = zero,zero,zero,zero,xmm14[0,1,2,3,4,5,6,7,8,9,10,11]
	pxor	%xmm2, %xmm14
	movdqa	%xmm14, %xmm11
	pslldq	$8, %xmm11                      # xmm11 = zero,zero,zero,zero,zero,zero,zero,zero,xmm11[0,1,2,3,4,5,6,7]
	pxor	%xmm14, %xmm11
	pxor	%xmm13, %xmm11
	palignr	$8, %xmm2, %xmm12               # xmm12 = xmm2[8,9,10,11,12,13,14,15],xmm12[0,1,2,3,4,5,6,7]
	pshufb	l_aes_v2_CPI0_12(%rip), %xmm12         # xmm12 = xmm12[0,9,2,11,4,13,6,15,8,1,10,3,12,5,14,7]
	pxor	%xmm10, %xmm12
	movdqa	%xmm11, %xmm2
	pshufb	l_aes_v2_CPI0_13(%rip), %xmm2          # xmm2 = xmm2[0,5,10,15,4,9,14,3,8,13,2,7,12,1,6,11]
	movdqu	%xmm12, 160(%rdi)
	pxor	%xmm10, %xmm2
	movdqu	%xmm2, 176(%rdi)
	pshufb	%xmm9, %xmm11
	movdqa	%xmm11, %xmm2
	psrlw	$4, %xmm2
	pand	%xmm0, %xmm2
	movdqa	%xmm5, %xmm9
	pshufb	%xmm2, %xmm9
	pand	%xmm0, %xmm11
	pshufb	%xmm11, %xmm6
	pxor	%xmm6, %xmm9
	movdqa	%xmm5, %xmm12
	pshufb	%xmm9, %xmm12
	pxor	%xmm2, %xmm11
	pxor	%xmm11, %xmm12
	pshufb	%xmm12, %xmm7
	movdqa	%xmm5, %xmm9
	pshufb	%xmm11, %xmm9
	pxor	%xmm6, %xmm9
	pshufb	%xmm9, %xmm5
	pxor	%xmm2, %xmm5
	pxor	l_aes_v2_CPI0_14(%rip), %xmm1
	pshufb	%xmm5, %xmm8
	movdqa	%xmm1, %xmm2
	pslldq	$4, %xmm2                       # xmm2 = zero,zero,zero,zero,xmm2[0,1,2,3,4,5,6,7,8,9,10,11]
	pxor	%xmm1, %xmm2
	movdqa	%xmm2, %xmm1
	pslldq	$8, %xmm1                       # xmm1 = zero,zero,zero,zero,zero,zero,zero,zero,xmm1[0,1,2,3,4,5,6,7]
	pxor	%xmm7, %xmm1
	pxor	%xmm8, %xmm1
	pxor	%xmm10, %xmm2
	pxor	%xmm1, %xmm2
	movdqa	%xmm2, %xmm1
	pand	%xmm0, %xmm1
	pshufb	%xmm1, %xmm3
	psrlw	$4, %xmm2
	pand	%xmm0, %xmm2
	pshufb	%xmm2, %xmm4
	pxor	%xmm3, %xmm4
	pxor	l_aes_v2_CPI0_15(%rip), %xmm4
	movdqu	%xmm4, 192(%rdi)
	retq
Laes_v2_BB0_8:                                # %else.5.i
	movdqu	16(%rsi), %xmm4
	movdqa	%xmm4, %xmm5
	pand	%xmm0, %xmm5
	pshufb	%xmm5, %xmm3
	psrlw	$4, %xmm4
	pand	%xmm0, %xmm4
	pshufb	%xmm4, %xmm2
	pxor	%xmm3, %xmm2
	movdqa	%xmm1, %xmm4
	pand	%xmm0, %xmm4
	movdqa	l_aes_v2_CPI0_3(%rip), %xmm3           # xmm3 = [0,1,92,93,224,225,188,189,80,81,12,13,176,177,236,237]
	movdqa	%xmm3, %xmm5
	pshufb	%xmm4, %xmm5
	movdqa	%xmm1, %xmm6
	psrlw	$4, %xmm6
	pand	%xmm0, %xmm6
	movdqa	l_aes_v2_CPI0_4(%rip), %xmm4           # xmm4 = [0,178,181,7,58,136,143,61,172,30,25,171,150,36,35,145]
	movdqa	%xmm4, %xmm7
	pshufb	%xmm6, %xmm7
	pxor	%xmm5, %xmm7
	movdqu	%xmm7, (%rdi)
	movdqa	%xmm2, %xmm5
	pshufb	l_aes_v2_CPI0_17(%rip), %xmm5          # xmm5 = xmm5[0,13,10,7,4,1,14,11,8,5,2,15,12,9,6,3]
	pxor	l_aes_v2_CPI0_10(%rip), %xmm5
	movdqu	%xmm5, 16(%rdi)
	leaq	48(%rdi), %rax
	movl	$144, %ecx
	leaq	l_aes_v2_static.0(%rip), %rdx
	.p2align	4
Laes_v2_BB0_9:                                # %join.5.i643
                                        # =>This Inner Loop Header: Depth=1
	movzbl	(%rdx), %esi
	movdqa	%xmm2, %xmm10
	pslldq	$4, %xmm10                      # xmm10 = zero,zero,zero,zero,xmm10[0,1,2,3,4,5,6,7,8,9,10,11]
	pxor	%xmm2, %xmm10
	pshufb	l_aes_v2_CPI0_5(%rip), %xmm2           # xmm2 = xmm2[13,14,15,12,13,14,15,12,13,14,15,12,13,14,15,12]
	movdqa	%xmm2, %xmm6
	psrlw	$4, %xmm6
	pand	%xmm0, %xmm6
	pand	%xmm0, %xmm2
	movdqa	%xmm6, %xmm7
	pxor	%xmm2, %xmm7
	movdqa	l_aes_v2_CPI0_6(%rip), %xmm8           # xmm8 = [128,2,1,15,9,5,14,12,13,4,11,10,7,8,6,3]
	movdqa	%xmm8, %xmm9
	pshufb	%xmm2, %xmm9
	movdqa	l_aes_v2_CPI0_7(%rip), %xmm5           # xmm5 = [128,1,9,14,13,11,7,6,15,2,12,5,10,4,3,8]
	movdqa	%xmm5, %xmm2
	pshufb	%xmm6, %xmm2
	movdqa	%xmm5, %xmm11
	pshufb	%xmm7, %xmm11
	pxor	%xmm9, %xmm2
	pxor	%xmm9, %xmm11
	movdqa	%xmm5, %xmm9
	pshufb	%xmm2, %xmm9
	movdqa	%xmm5, %xmm2
	pshufb	%xmm11, %xmm2
	pxor	%xmm7, %xmm9
	pxor	%xmm6, %xmm2
	movdqa	l_aes_v2_CPI0_8(%rip), %xmm6           # xmm6 = [0,195,79,12,252,124,67,128,207,51,63,112,191,179,240,140]
	movdqa	%xmm6, %xmm11
	pshufb	%xmm9, %xmm11
	movdqa	l_aes_v2_CPI0_9(%rip), %xmm7           # xmm7 = [0,230,114,183,229,198,197,35,81,180,3,113,32,151,82,148]
	movdqa	%xmm7, %xmm12
	pshufb	%xmm2, %xmm12
	movl	%esi, %r8d
	andl	$15, %r8d
	leaq	l_aes_v2_static.1(%rip), %r9
	shrl	$4, %esi
	leaq	l_aes_v2_static.2(%rip), %r10
	movzbl	(%rsi,%r10), %esi
	xorb	(%r8,%r9), %sil
	pxor	%xmm11, %xmm12
	movzbl	%sil, %esi
	movd	%esi, %xmm2
	pxor	%xmm1, %xmm2
	movdqa	%xmm2, %xmm9
	pslldq	$4, %xmm9                       # xmm9 = zero,zero,zero,zero,xmm9[0,1,2,3,4,5,6,7,8,9,10,11]
	pxor	%xmm2, %xmm9
	pxor	%xmm9, %xmm12
	pslldq	$8, %xmm9                       # xmm9 = zero,zero,zero,zero,zero,zero,zero,zero,xmm9[0,1,2,3,4,5,6,7]
	pxor	%xmm12, %xmm9
	movdqa	l_aes_v2_CPI0_10(%rip), %xmm11         # xmm11 = [110,110,110,110,110,110,110,110,110,110,110,110,110,110,110,110]
	movdqa	%xmm9, %xmm1
	pxor	%xmm11, %xmm1
	leal	-48(%rcx), %r8d
	andl	$32, %r8d
	leaq	l_aes_v2_static.3(%rip), %rsi
	movdqu	(%r8,%rsi), %xmm2
	movdqa	%xmm1, %xmm12
	pshufb	%xmm2, %xmm12
	pxor	%xmm11, %xmm12
	movdqu	%xmm12, -16(%rax)
	pshufd	$255, %xmm1, %xmm2              # xmm2 = xmm1[3,3,3,3]
	movdqa	%xmm2, %xmm12
	psrlw	$4, %xmm12
	pand	%xmm0, %xmm12
	pand	%xmm0, %xmm2
	movdqa	%xmm12, %xmm13
	pxor	%xmm2, %xmm13
	movdqa	%xmm8, %xmm14
	pshufb	%xmm2, %xmm14
	movdqa	%xmm5, %xmm2
	pshufb	%xmm12, %xmm2
	movdqa	%xmm5, %xmm15
	pshufb	%xmm13, %xmm15
	pxor	%xmm14, %xmm2
	pxor	%xmm14, %xmm15
	movdqa	%xmm5, %xmm14
	pshufb	%xmm2, %xmm14
	movdqa	%xmm5, %xmm2
	pshufb	%xmm15, %xmm2
	pxor	%xmm13, %xmm14
	pxor	%xmm12, %xmm2
	movdqa	%xmm6, %xmm12
	pshufb	%xmm14, %xmm12
	movdqa	%xmm7, %xmm13
	pshufb	%xmm2, %xmm13
	movdqa	%xmm10, %xmm14
	pslldq	$8, %xmm14                      # xmm14 = zero,zero,zero,zero,zero,zero,zero,zero,xmm14[0,1,2,3,4,5,6,7]
	pxor	%xmm12, %xmm14
	pxor	%xmm13, %xmm14
	pxor	%xmm11, %xmm10
	movdqa	%xmm10, %xmm2
	pxor	%xmm14, %xmm2
	movl	%ecx, %r8d
	andl	$48, %r8d
	movdqu	(%r8,%rsi), %xmm10
	movdqa	%xmm2, %xmm12
	pshufb	%xmm10, %xmm12
	pxor	%xmm11, %xmm12
	movdqu	%xmm12, (%rax)
	addq	$96, %rcx
	incq	%rdx
	addq	$32, %rax
	cmpq	$720, %rcx                      # imm = 0x2D0
	jne	Laes_v2_BB0_9
# %bb.10:                               # %"aes_planes::expansion::expand_256::<#05c2c6c54e82e59f>.exit"
	pshufb	l_aes_v2_CPI0_5(%rip), %xmm2           # xmm2 = xmm2[13,14,15,12,13,14,15,12,13,14,15,12,13,14,15,12]
	movdqa	%xmm2, %xmm1
	psrlw	$4, %xmm1
	pand	%xmm0, %xmm1
	pand	%xmm0, %xmm2
	movdqa	%xmm1, %xmm10
	pxor	%xmm2, %xmm10
	pshufb	%xmm2, %xmm8
	movdqa	%xmm5, %xmm2
	pshufb	%xmm1, %xmm2
	movdqa	%xmm5, %xmm11
	pshufb	%xmm10, %xmm11
	pxor	%xmm8, %xmm2
	pxor	%xmm8, %xmm11
	movdqa	%xmm5, %xmm8
	pshufb	%xmm2, %xmm8
	pshufb	%xmm11, %xmm5
	pxor	%xmm10, %xmm8
	pxor	%xmm1, %xmm5
	pshufb	%xmm8, %xmm6
	pshufb	%xmm5, %xmm7
	pxor	l_aes_v2_CPI0_11(%rip), %xmm9
	movdqa	%xmm9, %xmm1
	pslldq	$4, %xmm1                       # xmm1 = zero,zero,zero,zero,xmm1[0,1,2,3,4,5,6,7,8,9,10,11]
	pxor	%xmm9, %xmm1
	movdqa	%xmm1, %xmm2
	pslldq	$8, %xmm2                       # xmm2 = zero,zero,zero,zero,zero,zero,zero,zero,xmm2[0,1,2,3,4,5,6,7]
	pxor	%xmm6, %xmm2
	pxor	%xmm7, %xmm2
	pxor	%xmm1, %xmm2
	pxor	l_aes_v2_CPI0_10(%rip), %xmm2
	movdqa	%xmm2, %xmm1
	pand	%xmm0, %xmm1
	pshufb	%xmm1, %xmm3
	psrlw	$4, %xmm2
	pand	%xmm0, %xmm2
	pshufb	%xmm2, %xmm4
	pxor	%xmm3, %xmm4
	pxor	l_aes_v2_CPI0_15(%rip), %xmm4
	movdqu	%xmm4, 224(%rdi)
	retq
                                        # -- End function
	.section	__TEXT,__const
	.p2align	4, 0x0                          # -- Begin function aes_ctr::add_in_batches::add_keystream::<#ef80964e0b8d42c0>
l_aes_v2_CPI1_0:
	.byte	15                              # 0xf
	.byte	14                              # 0xe
	.byte	13                              # 0xd
	.byte	12                              # 0xc
	.byte	11                              # 0xb
	.byte	10                              # 0xa
	.byte	9                               # 0x9
	.byte	8                               # 0x8
	.byte	7                               # 0x7
	.byte	6                               # 0x6
	.byte	5                               # 0x5
	.byte	4                               # 0x4
	.byte	3                               # 0x3
	.byte	2                               # 0x2
	.byte	1                               # 0x1
	.byte	0                               # 0x0
	.section	__TEXT,__text,regular,pure_instructions
	.p2align	4
_aes_v2.aes_ctr.add_in_batches.add_keystream: # @_aes_v2.aes_ctr.add_in_batches.add_keystream
# %bb.0:                                # %start
	pushq	%rbp
	pushq	%r15
	pushq	%r14
	pushq	%r13
	pushq	%r12
	pushq	%rbx
	subq	$344, %rsp                      # imm = 0x158
	movq	%r8, %r14
	movq	%rcx, %rbx
	movq	%rdx, %r15
	movq	%rdi, %r12
	movdqu	(%rsi), %xmm0
	movdqa	%xmm0, (%rsp)
	movl	%r15d, %r13d
	andl	$15, %r13d
	movl	$16, %eax
	subq	%r13, %rax
	cmpq	%rax, %r8
	jbe	Laes_v2_BB1_1
# %bb.21:                               # %else.2.i
	leaq	(%r14,%r13), %rax
	movq	%rax, %rcx
	shrq	$4, %rcx
	andl	$15, %eax
	cmpq	$1, %rax
	sbbq	$-1, %rcx
	movq	%rsp, %rax
	movq	%rax, 48(%rsp)
	movq	%r15, 56(%rsp)
	movq	%rbx, 64(%rsp)
	movq	%r14, 72(%rsp)
	cmpq	$8, %rcx
	jb	Laes_v2_BB1_23
# %bb.22:                               # %then.1.i.i
	movq	(%r12), %rdi
	movq	8(%r12), %rcx
	leaq	48(%rsp), %r8
	movq	%rcx, %rsi
	movq	%rdi, %rdx
	callq	_aes_v2.aes_hybrid.closures.lend_planes.1
	jmp	Laes_v2_BB1_31
Laes_v2_BB1_1:                                # %then.1.i
	movq	16(%r12), %rdi
	movq	24(%r12), %rsi
	movq	(%rsp), %rax
	movq	8(%rsp), %rcx
	bswapq	%rax
	shrq	$4, %r15
	bswapq	%rcx
	addq	%r15, %rcx
	adcq	$0, %rax
	movq	%rcx, %xmm0
	movq	%rax, %xmm1
	punpcklqdq	%xmm1, %xmm0            # xmm0 = xmm0[0],xmm1[0]
	pshufb	l_aes_v2_CPI1_0(%rip), %xmm0           # xmm0 = xmm0[15,14,13,12,11,10,9,8,7,6,5,4,3,2,1,0]
	movdqa	%xmm0, 80(%rsp)
	leaq	80(%rsp), %r15
	movl	$1, %ecx
	movq	%r15, %rdx
	callq	_aes_v2.aes_permute.blocks.process_on_lanes.1
	xorl	%ecx, %ecx
	testq	%r13, %r13
	je	Laes_v2_BB1_11
# %bb.2:                                # %then.1.i
	testq	%r14, %r14
	je	Laes_v2_BB1_11
# %bb.3:                                # %join.8.i68.lr.ph.i.i
	leaq	-1(%r14), %rcx
	movl	%r14d, %eax
	andl	$3, %eax
	cmpq	$3, %rcx
	jae	Laes_v2_BB1_5
# %bb.4:
	xorl	%edx, %edx
	jmp	Laes_v2_BB1_8
Laes_v2_BB1_23:                               # %else.2.i.i
	testq	%r13, %r13
	je	Laes_v2_BB1_24
# %bb.25:                               # %then.1.i.i11.i
	movq	%rsp, %rsi
	movq	%r12, %rdi
	movq	%r15, %rdx
	xorl	%ecx, %ecx
	movq	%rbx, %r8
	movq	%r14, %r9
	callq	_aes_v2.aes_ctr.add_in_batches.add_next.2
	movq	%rax, %r13
	jmp	Laes_v2_BB1_26
Laes_v2_BB1_5:                                # %join.8.i68.lr.ph.i.i.new
	movq	%r14, %rcx
	andq	$-4, %rcx
	leaq	(%r15,%r13), %rsi
	addq	$3, %rsi
	xorl	%edx, %edx
	.p2align	4
Laes_v2_BB1_6:                                # %join.8.i68.i.i
                                        # =>This Inner Loop Header: Depth=1
	movzbl	-3(%rsi,%rdx), %edi
	xorb	%dil, (%rbx,%rdx)
	movzbl	-2(%rsi,%rdx), %edi
	xorb	%dil, 1(%rbx,%rdx)
	movzbl	-1(%rsi,%rdx), %edi
	xorb	%dil, 2(%rbx,%rdx)
	movzbl	(%rsi,%rdx), %edi
	xorb	%dil, 3(%rbx,%rdx)
	addq	$4, %rdx
	cmpq	%rdx, %rcx
	jne	Laes_v2_BB1_6
# %bb.7:                                # %join.3.i.i.i.loopexit.unr-lcssa
	movq	%r14, %rcx
	testq	%rax, %rax
	je	Laes_v2_BB1_11
Laes_v2_BB1_8:                                # %join.8.i68.i.i.epil.preheader
	leaq	(%rbx,%rdx), %rcx
	addq	%r13, %rdx
	addq	%rsp, %rdx
	addq	$80, %rdx
	xorl	%esi, %esi
	.p2align	4
Laes_v2_BB1_9:                                # %join.8.i68.i.i.epil
                                        # =>This Inner Loop Header: Depth=1
	movzbl	(%rdx,%rsi), %edi
	xorb	%dil, (%rcx,%rsi)
	incq	%rsi
	cmpq	%rsi, %rax
	jne	Laes_v2_BB1_9
# %bb.10:
	movq	%r14, %rcx
Laes_v2_BB1_11:                               # %join.3.i.i.i
	movq	%r14, %rax
	subq	%rcx, %rax
	cmpq	$16, %rax
	jb	Laes_v2_BB1_13
	.p2align	4
Laes_v2_BB1_12:                               # %join.8.i.i.i
                                        # =>This Inner Loop Header: Depth=1
	leaq	(%rcx,%r13), %rdx
	andq	$-16, %rdx
	movdqu	(%rbx,%rcx), %xmm0
	pxor	80(%rsp,%rdx), %xmm0
	movdqu	%xmm0, (%rbx,%rcx)
	addq	$16, %rcx
	addq	$-16, %rax
	cmpq	$15, %rax
	ja	Laes_v2_BB1_12
Laes_v2_BB1_13:                               # %after.4.i.i.i
	cmpq	%r14, %rcx
	jae	Laes_v2_BB1_31
# %bb.14:                               # %then.9.i.i.i
	testq	%rax, %rax
	je	Laes_v2_BB1_31
# %bb.15:                               # %iter.check
	addq	%rcx, %r13
	andq	$-16, %r13
	leaq	(%rsp,%r13), %rdx
	addq	$80, %rdx
	addq	%rcx, %rbx
	cmpq	$4, %rax
	jae	Laes_v2_BB1_17
# %bb.16:
	xorl	%ecx, %ecx
	jmp	Laes_v2_BB1_20
Laes_v2_BB1_24:
	xorl	%r13d, %r13d
Laes_v2_BB1_26:                               # %join.3.i.i12.i
	movq	%r14, 24(%rsp)                  # 8-byte Spill
	movq	%r14, %rbp
	subq	%r13, %rbp
	cmpq	$64, %rbp
	jb	Laes_v2_BB1_29
# %bb.27:                               # %join.11.lr.ph.i.i.i
	leaq	144(%rsp), %r14
	movq	(%rsp), %rax
	movq	8(%rsp), %rcx
	bswapq	%rax
	movq	%rax, 40(%rsp)                  # 8-byte Spill
	bswapq	%rcx
	movq	%rcx, 32(%rsp)                  # 8-byte Spill
	.p2align	4
Laes_v2_BB1_28:                               # %join.11.i.i.i
                                        # =>This Inner Loop Header: Depth=1
	leaq	(%r15,%r13), %rax
	shrq	$4, %rax
	pxor	%xmm0, %xmm0
	movdqa	%xmm0, 176(%r14)
	movdqa	%xmm0, 160(%r14)
	movdqa	%xmm0, 144(%r14)
	movdqa	%xmm0, 128(%r14)
	movdqa	%xmm0, 112(%r14)
	movdqa	%xmm0, 96(%r14)
	movdqa	%xmm0, 80(%r14)
	movdqa	%xmm0, 64(%r14)
	movdqa	%xmm0, 48(%r14)
	movdqa	%xmm0, 32(%r14)
	movdqa	%xmm0, 16(%r14)
	movdqa	%xmm0, (%r14)
	addq	32(%rsp), %rax                  # 8-byte Folded Reload
	movq	40(%rsp), %rcx                  # 8-byte Reload
	adcq	$0, %rcx
	movq	%rax, %xmm1
	movq	%rcx, %xmm0
	punpcklqdq	%xmm0, %xmm1            # xmm1 = xmm1[0],xmm0[0]
	movdqa	l_aes_v2_CPI1_0(%rip), %xmm0           # xmm0 = [15,14,13,12,11,10,9,8,7,6,5,4,3,2,1,0]
	pshufb	%xmm0, %xmm1
	movdqa	%xmm1, 80(%rsp)
	movq	%rax, %rdx
	addq	$1, %rdx
	movq	%rcx, %rsi
	adcq	$0, %rsi
	movq	%rsi, %xmm1
	movq	%rdx, %xmm2
	punpcklqdq	%xmm1, %xmm2            # xmm2 = xmm2[0],xmm1[0]
	pshufb	%xmm0, %xmm2
	movq	%rax, %rdx
	addq	$2, %rdx
	movq	%rcx, %rsi
	adcq	$0, %rsi
	movdqa	%xmm2, 96(%rsp)
	movq	%rsi, %xmm1
	movq	%rdx, %xmm2
	punpcklqdq	%xmm1, %xmm2            # xmm2 = xmm2[0],xmm1[0]
	pshufb	%xmm0, %xmm2
	addq	$3, %rax
	adcq	$0, %rcx
	movdqa	%xmm2, 112(%rsp)
	movq	%rcx, %xmm1
	movq	%rax, %xmm2
	punpcklqdq	%xmm1, %xmm2            # xmm2 = xmm2[0],xmm1[0]
	pshufb	%xmm0, %xmm2
	movdqa	%xmm2, 128(%rsp)
	movq	16(%r12), %rdi
	movq	24(%r12), %rsi
	leaq	80(%rsp), %rdx
	movl	$4, %ecx
	callq	_aes_v2.aes_permute.blocks.process_on_lanes.1
	movdqu	(%rbx,%r13), %xmm0
	movdqu	16(%rbx,%r13), %xmm1
	movups	32(%rbx,%r13), %xmm2
	pxor	80(%rsp), %xmm0
	movups	48(%rbx,%r13), %xmm3
	movdqu	%xmm0, (%rbx,%r13)
	pxor	96(%rsp), %xmm1
	movdqu	%xmm1, 16(%rbx,%r13)
	xorps	112(%rsp), %xmm2
	movups	%xmm2, 32(%rbx,%r13)
	xorps	128(%rsp), %xmm3
	movups	%xmm3, 48(%rbx,%r13)
	addq	$64, %r13
	addq	$-64, %rbp
	cmpq	$63, %rbp
	ja	Laes_v2_BB1_28
Laes_v2_BB1_29:                               # %loop.13.preheader.i.i.i
	movq	24(%rsp), %r14                  # 8-byte Reload
	cmpq	%r14, %r13
	jae	Laes_v2_BB1_31
	.p2align	4
Laes_v2_BB1_30:                               # %join.16.i.i.i
                                        # =>This Inner Loop Header: Depth=1
	movq	%rsp, %rsi
	movq	%r12, %rdi
	movq	%r15, %rdx
	movq	%r13, %rcx
	movq	%rbx, %r8
	movq	%r14, %r9
	callq	_aes_v2.aes_ctr.add_in_batches.add_next.2
	movq	%rax, %r13
	cmpq	%r14, %rax
	jb	Laes_v2_BB1_30
	jmp	Laes_v2_BB1_31
Laes_v2_BB1_17:                               # %vec.epilog.ph
	movl	%eax, %ecx
	andl	$12, %ecx
	xorl	%esi, %esi
	.p2align	4
Laes_v2_BB1_18:                               # %vec.epilog.vector.body
                                        # =>This Inner Loop Header: Depth=1
	movl	(%rdx,%rsi), %edi
	xorl	%edi, (%rbx,%rsi)
	addq	$4, %rsi
	cmpq	%rsi, %rcx
	jne	Laes_v2_BB1_18
Laes_v2_BB1_19:                               # %vec.epilog.middle.block
	cmpq	%rcx, %rax
	je	Laes_v2_BB1_31
Laes_v2_BB1_20:                               # %join.8.i11.i.i
	movzbl	(%rdx,%rcx), %esi
	xorb	%sil, (%rbx,%rcx)
	incq	%rcx
	jmp	Laes_v2_BB1_19
Laes_v2_BB1_31:                               # %"aes_ctr::add_in_batches::add_stream::<#c11b85b865c7c27a>.exit"
	addq	$344, %rsp                      # imm = 0x158
	popq	%rbx
	popq	%r12
	popq	%r13
	popq	%r14
	popq	%r15
	popq	%rbp
	retq
                                        # -- End function
	.section	__TEXT,__text,regular,pure_instructions
	.p2align	4                               # -- Begin function aes_hybrid::batches::process_on_planes::<#a60badf655ff5009>
_aes_v2.aes_hybrid.batches.process_on_planes.1: # @_aes_v2.aes_hybrid.batches.process_on_planes.1
# %bb.0:                                # %start
	pushq	%rbp
	pushq	%r15
	pushq	%r14
	pushq	%r13
	pushq	%r12
	pushq	%rbx
	subq	$1928, %rsp                     # imm = 0x788
	movq	%rcx, %rbx
	movq	%rdx, %r14
	movq	%rsi, %r15
	movq	%rdi, %r12
	leaq	128(%rsp), %rdi
	movl	$1792, %edx                     # imm = 0x700
	xorl	%esi, %esi
	callq	*_memset@GOTPCREL(%rip)
	leaq	(,%r15,8), %r13
	movq	%rsp, %rbp
	movq	%rbp, %rdi
	movq	%r12, %rsi
	movq	%r15, %rdx
	callq	_aes_v2.aes_hybrid.plane_keys.store_planes
	movq	%rbp, %rdi
	movq	%r13, %rsi
	movq	%r14, %rdx
	movq	%rbx, %rcx
	callq	_aes_v2.aes_hybrid.batches.process_batches_and_rest.1
	movq	%rbp, %rdi
	callq	_aes_v2.aes_cipher.zeroize.zeroize_words
	callq	_aes_v2.aes_cipher.zeroize.stack.wipe_stack.1792
	addq	$1928, %rsp                     # imm = 0x788
	popq	%rbx
	popq	%r12
	popq	%r13
	popq	%r14
	popq	%r15
	popq	%rbp
	retq
                                        # -- End function
	.section	__TEXT,__const
	.p2align	4, 0x0                          # -- Begin function aes_hybrid::plane_keys::store_planes::<#e29e0540aa8bc136>
l_aes_v2_CPI3_0:
	.byte	0                               # 0x0
	.byte	4                               # 0x4
	.byte	8                               # 0x8
	.byte	12                              # 0xc
	.byte	1                               # 0x1
	.byte	5                               # 0x5
	.byte	9                               # 0x9
	.byte	13                              # 0xd
	.byte	2                               # 0x2
	.byte	6                               # 0x6
	.byte	10                              # 0xa
	.byte	14                              # 0xe
	.byte	3                               # 0x3
	.byte	7                               # 0x7
	.byte	11                              # 0xb
	.byte	15                              # 0xf
l_aes_v2_CPI3_1:
	.zero	16,1
l_aes_v2_CPI3_2:
	.zero	16,192
l_aes_v2_CPI3_3:
	.zero	16,224
l_aes_v2_CPI3_4:
	.zero	16,240
l_aes_v2_CPI3_5:
	.zero	16,248
l_aes_v2_CPI3_6:
	.zero	16,252
l_aes_v2_CPI3_7:
	.zero	16,15
l_aes_v2_CPI3_8:
	.byte	0                               # 0x0
	.byte	1                               # 0x1
	.byte	92                              # 0x5c
	.byte	93                              # 0x5d
	.byte	224                             # 0xe0
	.byte	225                             # 0xe1
	.byte	188                             # 0xbc
	.byte	189                             # 0xbd
	.byte	80                              # 0x50
	.byte	81                              # 0x51
	.byte	12                              # 0xc
	.byte	13                              # 0xd
	.byte	176                             # 0xb0
	.byte	177                             # 0xb1
	.byte	236                             # 0xec
	.byte	237                             # 0xed
l_aes_v2_CPI3_9:
	.byte	0                               # 0x0
	.byte	178                             # 0xb2
	.byte	181                             # 0xb5
	.byte	7                               # 0x7
	.byte	58                              # 0x3a
	.byte	136                             # 0x88
	.byte	143                             # 0x8f
	.byte	61                              # 0x3d
	.byte	172                             # 0xac
	.byte	30                              # 0x1e
	.byte	25                              # 0x19
	.byte	171                             # 0xab
	.byte	150                             # 0x96
	.byte	36                              # 0x24
	.byte	35                              # 0x23
	.byte	145                             # 0x91
	.section	__TEXT,__text,regular,pure_instructions
	.p2align	4
_aes_v2.aes_hybrid.plane_keys.store_planes: # @_aes_v2.aes_hybrid.plane_keys.store_planes
# %bb.0:                                # %start
	movdqu	(%rsi), %xmm1
	pshufb	l_aes_v2_CPI3_0(%rip), %xmm1           # xmm1 = xmm1[0,4,8,12,1,5,9,13,2,6,10,14,3,7,11,15]
	movdqa	l_aes_v2_CPI3_1(%rip), %xmm3           # xmm3 = [1,1,1,1,1,1,1,1,1,1,1,1,1,1,1,1]
	pand	%xmm1, %xmm3
	pxor	%xmm0, %xmm0
	pxor	%xmm2, %xmm2
	psubb	%xmm3, %xmm2
	movdqa	%xmm1, %xmm4
	psllw	$6, %xmm4
	pand	l_aes_v2_CPI3_2(%rip), %xmm4
	pxor	%xmm3, %xmm3
	movdqa	%xmm1, %xmm5
	psllw	$5, %xmm5
	pand	l_aes_v2_CPI3_3(%rip), %xmm5
	pcmpgtb	%xmm4, %xmm3
	pxor	%xmm4, %xmm4
	pcmpgtb	%xmm5, %xmm4
	movdqa	%xmm1, %xmm5
	psllw	$4, %xmm5
	pand	l_aes_v2_CPI3_4(%rip), %xmm5
	pxor	%xmm6, %xmm6
	movdqa	%xmm1, %xmm7
	psllw	$3, %xmm7
	pand	l_aes_v2_CPI3_5(%rip), %xmm7
	pcmpgtb	%xmm5, %xmm6
	pxor	%xmm5, %xmm5
	pcmpgtb	%xmm7, %xmm5
	movdqa	%xmm1, %xmm7
	psllw	$2, %xmm7
	pand	l_aes_v2_CPI3_6(%rip), %xmm7
	pxor	%xmm8, %xmm8
	pcmpgtb	%xmm7, %xmm8
	pxor	%xmm7, %xmm7
	pcmpgtb	%xmm1, %xmm7
	paddb	%xmm1, %xmm1
	pxor	%xmm9, %xmm9
	pcmpgtb	%xmm1, %xmm9
	movdqa	%xmm2, (%rdi)
	movdqa	%xmm3, 16(%rdi)
	movdqa	%xmm4, 32(%rdi)
	movdqa	%xmm6, 48(%rdi)
	movdqa	%xmm5, 64(%rdi)
	movdqa	%xmm8, 80(%rdi)
	movdqa	%xmm9, 96(%rdi)
	movdqa	%xmm7, 112(%rdi)
	leaq	-1(%rdx), %rax
	cmpq	$2, %rax
	jb	Laes_v2_BB3_3
# %bb.1:                                # %join.5.lr.ph
	addq	$-2, %rdx
	xorl	%ecx, %ecx
	.p2align	4
Laes_v2_BB3_2:                                # %join.5
                                        # =>This Inner Loop Header: Depth=1
	movdqu	16(%rsi,%rcx), %xmm1
	movdqa	l_aes_v2_CPI3_7(%rip), %xmm2           # xmm2 = [15,15,15,15,15,15,15,15,15,15,15,15,15,15,15,15]
	movdqa	%xmm1, %xmm3
	pand	%xmm2, %xmm3
	movdqa	l_aes_v2_CPI3_8(%rip), %xmm4           # xmm4 = [0,1,92,93,224,225,188,189,80,81,12,13,176,177,236,237]
	pshufb	%xmm3, %xmm4
	psrlw	$4, %xmm1
	pand	%xmm2, %xmm1
	movdqa	l_aes_v2_CPI3_9(%rip), %xmm3           # xmm3 = [0,178,181,7,58,136,143,61,172,30,25,171,150,36,35,145]
	pshufb	%xmm1, %xmm3
	movdqa	l_aes_v2_CPI3_0(%rip), %xmm1           # xmm1 = [0,4,8,12,1,5,9,13,2,6,10,14,3,7,11,15]
	pshufb	%xmm1, %xmm4
	pshufb	%xmm1, %xmm3
	pxor	%xmm4, %xmm3
	movdqa	l_aes_v2_CPI3_1(%rip), %xmm4           # xmm4 = [1,1,1,1,1,1,1,1,1,1,1,1,1,1,1,1]
	pand	%xmm3, %xmm4
	pxor	%xmm1, %xmm1
	pxor	%xmm2, %xmm2
	movdqa	%xmm3, %xmm5
	movdqa	%xmm3, %xmm6
	movdqa	%xmm3, %xmm7
	movdqa	%xmm3, %xmm8
	movdqa	%xmm3, %xmm9
	pcmpgtb	%xmm3, %xmm1
	psllw	$6, %xmm3
	pand	l_aes_v2_CPI3_2(%rip), %xmm3
	psubb	%xmm4, %xmm2
	pxor	%xmm4, %xmm4
	pcmpgtb	%xmm3, %xmm4
	psllw	$5, %xmm5
	pand	l_aes_v2_CPI3_3(%rip), %xmm5
	pxor	%xmm3, %xmm3
	pcmpgtb	%xmm5, %xmm3
	psllw	$4, %xmm6
	pand	l_aes_v2_CPI3_4(%rip), %xmm6
	pxor	%xmm5, %xmm5
	pcmpgtb	%xmm6, %xmm5
	psllw	$3, %xmm7
	pand	l_aes_v2_CPI3_5(%rip), %xmm7
	pxor	%xmm6, %xmm6
	psllw	$2, %xmm8
	pand	l_aes_v2_CPI3_6(%rip), %xmm8
	pcmpgtb	%xmm7, %xmm6
	pxor	%xmm7, %xmm7
	pcmpgtb	%xmm8, %xmm7
	paddb	%xmm9, %xmm9
	pxor	%xmm8, %xmm8
	pcmpgtb	%xmm9, %xmm8
	movdqa	%xmm2, 128(%rdi,%rcx,8)
	movdqa	%xmm4, 144(%rdi,%rcx,8)
	movdqa	%xmm3, 160(%rdi,%rcx,8)
	movdqa	%xmm5, 176(%rdi,%rcx,8)
	movdqa	%xmm6, 192(%rdi,%rcx,8)
	movdqa	%xmm7, 208(%rdi,%rcx,8)
	movdqa	%xmm8, 224(%rdi,%rcx,8)
	movdqa	%xmm1, 240(%rdi,%rcx,8)
	addq	$16, %rcx
	decq	%rdx
	jne	Laes_v2_BB3_2
Laes_v2_BB3_3:                                # %after.1
	movq	%rax, %rcx
	shlq	$4, %rcx
	movdqu	(%rsi,%rcx), %xmm2
	pshufb	l_aes_v2_CPI3_0(%rip), %xmm2           # xmm2 = xmm2[0,4,8,12,1,5,9,13,2,6,10,14,3,7,11,15]
	movdqa	l_aes_v2_CPI3_1(%rip), %xmm3           # xmm3 = [1,1,1,1,1,1,1,1,1,1,1,1,1,1,1,1]
	pand	%xmm2, %xmm3
	pxor	%xmm1, %xmm1
	psubb	%xmm3, %xmm1
	movdqa	%xmm2, %xmm3
	movdqa	%xmm2, %xmm4
	movdqa	%xmm2, %xmm5
	movdqa	%xmm2, %xmm6
	movdqa	%xmm2, %xmm7
	pcmpgtb	%xmm2, %xmm0
	psllw	$6, %xmm2
	pand	l_aes_v2_CPI3_2(%rip), %xmm2
	pxor	%xmm8, %xmm8
	pcmpgtb	%xmm2, %xmm8
	psllw	$5, %xmm3
	pand	l_aes_v2_CPI3_3(%rip), %xmm3
	pxor	%xmm2, %xmm2
	pcmpgtb	%xmm3, %xmm2
	psllw	$4, %xmm4
	pand	l_aes_v2_CPI3_4(%rip), %xmm4
	pxor	%xmm3, %xmm3
	psllw	$3, %xmm5
	pand	l_aes_v2_CPI3_5(%rip), %xmm5
	pcmpgtb	%xmm4, %xmm3
	pxor	%xmm4, %xmm4
	pcmpgtb	%xmm5, %xmm4
	psllw	$2, %xmm6
	pand	l_aes_v2_CPI3_6(%rip), %xmm6
	pxor	%xmm5, %xmm5
	pcmpgtb	%xmm6, %xmm5
	paddb	%xmm7, %xmm7
	pxor	%xmm6, %xmm6
	pcmpgtb	%xmm7, %xmm6
	shlq	$7, %rax
	movdqa	%xmm1, (%rdi,%rax)
	movdqa	%xmm8, 16(%rdi,%rax)
	movdqa	%xmm2, 32(%rdi,%rax)
	movdqa	%xmm3, 48(%rdi,%rax)
	movdqa	%xmm4, 64(%rdi,%rax)
	movdqa	%xmm5, 80(%rdi,%rax)
	movdqa	%xmm6, 96(%rdi,%rax)
	movdqa	%xmm0, 112(%rdi,%rax)
	retq
                                        # -- End function
	.section	__TEXT,__const
	.p2align	4, 0x0                          # -- Begin function aes_hybrid::batches::process_batches_and_rest::<#a60badf655ff5009>
l_aes_v2_CPI4_0:
	.byte	0                               # 0x0
	.byte	4                               # 0x4
	.byte	8                               # 0x8
	.byte	12                              # 0xc
	.byte	1                               # 0x1
	.byte	5                               # 0x5
	.byte	9                               # 0x9
	.byte	13                              # 0xd
	.byte	2                               # 0x2
	.byte	6                               # 0x6
	.byte	10                              # 0xa
	.byte	14                              # 0xe
	.byte	3                               # 0x3
	.byte	7                               # 0x7
	.byte	11                              # 0xb
	.byte	15                              # 0xf
l_aes_v2_CPI4_1:
	.zero	16,85
l_aes_v2_CPI4_2:
	.zero	16,51
l_aes_v2_CPI4_3:
	.zero	16,15
	.section	__TEXT,__text,regular,pure_instructions
	.p2align	4
_aes_v2.aes_hybrid.batches.process_batches_and_rest.1: # @_aes_v2.aes_hybrid.batches.process_batches_and_rest.1
# %bb.0:                                # %join.5.i.lr.ph
	pushq	%rbp
	pushq	%r15
	pushq	%r14
	pushq	%r13
	pushq	%r12
	pushq	%rbx
	subq	$152, %rsp
	movq	%rcx, %rbx
	movq	%rsi, %r13
	movq	%rdi, %r12
	movq	%rcx, %rbp
	andq	$-8, %rbp
	movq	%rsi, (%rsp)                    # 8-byte Spill
	shrq	$3, %r13
	decq	%r13
	movq	%rdx, 8(%rsp)                   # 8-byte Spill
	leaq	112(%rdx), %r15
	xorl	%r14d, %r14d
	.p2align	4
Laes_v2_BB4_1:                                # %join.5.i
                                        # =>This Inner Loop Header: Depth=1
	movdqu	-112(%r15), %xmm2
	movdqu	-96(%r15), %xmm5
	movdqu	-80(%r15), %xmm8
	movdqu	-64(%r15), %xmm1
	movdqu	-48(%r15), %xmm4
	movdqu	-32(%r15), %xmm3
	movdqu	-16(%r15), %xmm6
	movdqu	(%r15), %xmm0
	movdqa	l_aes_v2_CPI4_0(%rip), %xmm7           # xmm7 = [0,4,8,12,1,5,9,13,2,6,10,14,3,7,11,15]
	pshufb	%xmm7, %xmm2
	pshufb	%xmm7, %xmm5
	pshufb	%xmm7, %xmm8
	pshufb	%xmm7, %xmm1
	pshufb	%xmm7, %xmm4
	pshufb	%xmm7, %xmm3
	pshufb	%xmm7, %xmm6
	pshufb	%xmm7, %xmm0
	movdqa	%xmm2, %xmm7
	psrlw	$1, %xmm7
	pxor	%xmm5, %xmm7
	movdqa	l_aes_v2_CPI4_1(%rip), %xmm10          # xmm10 = [85,85,85,85,85,85,85,85,85,85,85,85,85,85,85,85]
	pand	%xmm10, %xmm7
	pxor	%xmm7, %xmm5
	paddb	%xmm7, %xmm7
	pxor	%xmm2, %xmm7
	movdqa	%xmm8, %xmm2
	psrlw	$1, %xmm2
	pxor	%xmm1, %xmm2
	pand	%xmm10, %xmm2
	pxor	%xmm2, %xmm1
	paddb	%xmm2, %xmm2
	pxor	%xmm8, %xmm2
	movdqa	%xmm4, %xmm9
	psrlw	$1, %xmm9
	pxor	%xmm3, %xmm9
	pand	%xmm10, %xmm9
	pxor	%xmm9, %xmm3
	paddb	%xmm9, %xmm9
	pxor	%xmm4, %xmm9
	movdqa	%xmm6, %xmm4
	psrlw	$1, %xmm4
	pxor	%xmm0, %xmm4
	pand	%xmm10, %xmm4
	pxor	%xmm4, %xmm0
	paddb	%xmm4, %xmm4
	pxor	%xmm6, %xmm4
	movdqa	%xmm7, %xmm8
	psrlw	$2, %xmm8
	pxor	%xmm2, %xmm8
	movdqa	l_aes_v2_CPI4_2(%rip), %xmm10          # xmm10 = [51,51,51,51,51,51,51,51,51,51,51,51,51,51,51,51]
	pand	%xmm10, %xmm8
	pxor	%xmm8, %xmm2
	psllw	$2, %xmm8
	pxor	%xmm7, %xmm8
	movdqa	%xmm9, %xmm6
	psrlw	$2, %xmm6
	pxor	%xmm4, %xmm6
	pand	%xmm10, %xmm6
	pxor	%xmm6, %xmm4
	psllw	$2, %xmm6
	pxor	%xmm9, %xmm6
	movdqa	%xmm5, %xmm7
	psrlw	$2, %xmm7
	pxor	%xmm1, %xmm7
	pand	%xmm10, %xmm7
	pxor	%xmm7, %xmm1
	psllw	$2, %xmm7
	pxor	%xmm5, %xmm7
	movdqa	%xmm3, %xmm5
	psrlw	$2, %xmm5
	pxor	%xmm0, %xmm5
	pand	%xmm10, %xmm5
	pxor	%xmm5, %xmm0
	psllw	$2, %xmm5
	pxor	%xmm3, %xmm5
	movdqa	%xmm8, %xmm3
	psrlw	$4, %xmm3
	movdqa	l_aes_v2_CPI4_3(%rip), %xmm9           # xmm9 = [15,15,15,15,15,15,15,15,15,15,15,15,15,15,15,15]
	pxor	%xmm6, %xmm3
	pand	%xmm9, %xmm3
	pxor	%xmm3, %xmm6
	psllw	$4, %xmm3
	pxor	%xmm8, %xmm3
	movdqa	%xmm7, %xmm8
	psrlw	$4, %xmm8
	pxor	%xmm5, %xmm8
	pand	%xmm9, %xmm8
	pxor	%xmm8, %xmm5
	psllw	$4, %xmm8
	pxor	%xmm7, %xmm8
	movdqa	%xmm2, %xmm7
	psrlw	$4, %xmm7
	pxor	%xmm4, %xmm7
	pand	%xmm9, %xmm7
	pxor	%xmm7, %xmm4
	psllw	$4, %xmm7
	pxor	%xmm2, %xmm7
	movdqa	%xmm1, %xmm2
	psrlw	$4, %xmm2
	pxor	%xmm0, %xmm2
	pand	%xmm9, %xmm2
	pxor	%xmm2, %xmm0
	psllw	$4, %xmm2
	pxor	%xmm1, %xmm2
	movdqa	%xmm3, 16(%rsp)
	movdqa	%xmm8, 32(%rsp)
	movdqa	%xmm7, 48(%rsp)
	movdqa	%xmm2, 64(%rsp)
	movdqa	%xmm6, 80(%rsp)
	movdqa	%xmm5, 96(%rsp)
	movdqa	%xmm4, 112(%rsp)
	movdqa	%xmm0, 128(%rsp)
	leaq	16(%rsp), %rdx
	movq	%r12, %rdi
	movq	%r13, %rsi
	callq	_aes_v2.aes_soft.soft.ciphers.planes.EncryptPlaneCipher.process_planes
	movdqa	16(%rsp), %xmm3
	movdqa	32(%rsp), %xmm6
	movdqa	48(%rsp), %xmm8
	movdqa	64(%rsp), %xmm1
	movdqa	80(%rsp), %xmm2
	movdqa	96(%rsp), %xmm4
	movdqa	112(%rsp), %xmm7
	movdqa	128(%rsp), %xmm0
	movdqa	%xmm3, %xmm5
	psrlw	$1, %xmm5
	pxor	%xmm6, %xmm5
	movdqa	l_aes_v2_CPI4_1(%rip), %xmm9           # xmm9 = [85,85,85,85,85,85,85,85,85,85,85,85,85,85,85,85]
	pand	%xmm9, %xmm5
	pxor	%xmm5, %xmm6
	paddb	%xmm5, %xmm5
	pxor	%xmm3, %xmm5
	movdqa	%xmm8, %xmm3
	psrlw	$1, %xmm3
	pxor	%xmm1, %xmm3
	pand	%xmm9, %xmm3
	pxor	%xmm3, %xmm1
	paddb	%xmm3, %xmm3
	pxor	%xmm8, %xmm3
	movdqa	%xmm2, %xmm8
	psrlw	$1, %xmm8
	pxor	%xmm4, %xmm8
	pand	%xmm9, %xmm8
	pxor	%xmm8, %xmm4
	paddb	%xmm8, %xmm8
	pxor	%xmm2, %xmm8
	movdqa	%xmm7, %xmm2
	psrlw	$1, %xmm2
	pxor	%xmm0, %xmm2
	pand	%xmm9, %xmm2
	pxor	%xmm2, %xmm0
	paddb	%xmm2, %xmm2
	pxor	%xmm7, %xmm2
	movdqa	%xmm5, %xmm7
	psrlw	$2, %xmm7
	pxor	%xmm3, %xmm7
	movdqa	l_aes_v2_CPI4_2(%rip), %xmm9           # xmm9 = [51,51,51,51,51,51,51,51,51,51,51,51,51,51,51,51]
	pand	%xmm9, %xmm7
	pxor	%xmm7, %xmm3
	psllw	$2, %xmm7
	pxor	%xmm5, %xmm7
	movdqa	%xmm8, %xmm5
	psrlw	$2, %xmm5
	pxor	%xmm2, %xmm5
	pand	%xmm9, %xmm5
	pxor	%xmm5, %xmm2
	psllw	$2, %xmm5
	pxor	%xmm8, %xmm5
	movdqa	%xmm6, %xmm8
	psrlw	$2, %xmm8
	pxor	%xmm1, %xmm8
	pand	%xmm9, %xmm8
	pxor	%xmm8, %xmm1
	psllw	$2, %xmm8
	pxor	%xmm6, %xmm8
	movdqa	%xmm4, %xmm6
	psrlw	$2, %xmm6
	pxor	%xmm0, %xmm6
	pand	%xmm9, %xmm6
	pxor	%xmm6, %xmm0
	psllw	$2, %xmm6
	pxor	%xmm4, %xmm6
	movdqa	%xmm7, %xmm4
	psrlw	$4, %xmm4
	pxor	%xmm5, %xmm4
	movdqa	l_aes_v2_CPI4_3(%rip), %xmm9           # xmm9 = [15,15,15,15,15,15,15,15,15,15,15,15,15,15,15,15]
	pand	%xmm9, %xmm4
	pxor	%xmm4, %xmm5
	psllw	$4, %xmm4
	pxor	%xmm7, %xmm4
	movdqa	%xmm8, %xmm7
	psrlw	$4, %xmm7
	pxor	%xmm6, %xmm7
	pand	%xmm9, %xmm7
	pxor	%xmm7, %xmm6
	psllw	$4, %xmm7
	pxor	%xmm8, %xmm7
	movdqa	%xmm3, %xmm8
	psrlw	$4, %xmm8
	pxor	%xmm2, %xmm8
	pand	%xmm9, %xmm8
	pxor	%xmm8, %xmm2
	psllw	$4, %xmm8
	pxor	%xmm3, %xmm8
	movdqa	%xmm1, %xmm3
	psrlw	$4, %xmm3
	pxor	%xmm0, %xmm3
	pand	%xmm9, %xmm3
	pxor	%xmm3, %xmm0
	psllw	$4, %xmm3
	pxor	%xmm1, %xmm3
	movdqa	l_aes_v2_CPI4_0(%rip), %xmm1           # xmm1 = [0,4,8,12,1,5,9,13,2,6,10,14,3,7,11,15]
	pshufb	%xmm1, %xmm4
	movdqu	%xmm4, -112(%r15)
	pshufb	%xmm1, %xmm7
	movdqu	%xmm7, -96(%r15)
	pshufb	%xmm1, %xmm8
	movdqu	%xmm8, -80(%r15)
	pshufb	%xmm1, %xmm3
	movdqu	%xmm3, -64(%r15)
	pshufb	%xmm1, %xmm5
	movdqu	%xmm5, -48(%r15)
	pshufb	%xmm1, %xmm6
	movdqu	%xmm6, -32(%r15)
	pshufb	%xmm1, %xmm2
	movdqu	%xmm2, -16(%r15)
	pshufb	%xmm1, %xmm0
	movdqu	%xmm0, (%r15)
	addq	$8, %r14
	subq	$-128, %r15
	cmpq	%rbp, %r14
	jb	Laes_v2_BB4_1
# %bb.2:                                # %"aes_soft::soft::blocks::slices::process_batches_under::<#b3f041e12f379511>.exit"
	cmpq	%rbx, %rbp
	jne	Laes_v2_BB4_4
# %bb.3:                                # %join.5
	addq	$152, %rsp
	popq	%rbx
	popq	%r12
	popq	%r13
	popq	%r14
	popq	%r15
	popq	%rbp
	retq
Laes_v2_BB4_4:                                # %then.3
	andl	$7, %ebx
	shlq	$4, %rbp
	movq	8(%rsp), %rdx                   # 8-byte Reload
	addq	%rbp, %rdx
	movq	%r12, %rdi
	movq	(%rsp), %rsi                    # 8-byte Reload
	movq	%rbx, %rcx
	addq	$152, %rsp
	popq	%rbx
	popq	%r12
	popq	%r13
	popq	%r14
	popq	%r15
	popq	%rbp
	jmp	_aes_v2.aes_soft.soft.blocks.filled_up.process_filled_up.1 # TAILCALL
                                        # -- End function
	.section	__TEXT,__const
	.p2align	4, 0x0                          # -- Begin function aes_soft::soft::ciphers::planes::process_outlined::<#1a44e25bef607b64>
l_aes_v2_CPI5_0:
	.byte	0                               # 0x0
	.byte	4                               # 0x4
	.byte	8                               # 0x8
	.byte	12                              # 0xc
	.byte	1                               # 0x1
	.byte	5                               # 0x5
	.byte	9                               # 0x9
	.byte	13                              # 0xd
	.byte	2                               # 0x2
	.byte	6                               # 0x6
	.byte	10                              # 0xa
	.byte	14                              # 0xe
	.byte	3                               # 0x3
	.byte	7                               # 0x7
	.byte	11                              # 0xb
	.byte	15                              # 0xf
l_aes_v2_CPI5_1:
	.zero	16,85
l_aes_v2_CPI5_2:
	.zero	16,51
l_aes_v2_CPI5_3:
	.zero	16,15
	.section	__TEXT,__text,regular,pure_instructions
	.p2align	4
_aes_v2.aes_soft.soft.ciphers.planes.process_outlined.1: # @_aes_v2.aes_soft.soft.ciphers.planes.process_outlined.1
# %bb.0:                                # %start
	pushq	%rbx
	subq	$128, %rsp
	movq	%rdi, %rbx
	movdqu	(%rcx), %xmm2
	movdqu	16(%rcx), %xmm4
	movdqu	32(%rcx), %xmm8
	movdqu	48(%rcx), %xmm0
	movdqa	l_aes_v2_CPI5_0(%rip), %xmm6           # xmm6 = [0,4,8,12,1,5,9,13,2,6,10,14,3,7,11,15]
	pshufb	%xmm6, %xmm2
	pshufb	%xmm6, %xmm4
	pshufb	%xmm6, %xmm8
	pshufb	%xmm6, %xmm0
	movdqu	64(%rcx), %xmm3
	pshufb	%xmm6, %xmm3
	movdqu	80(%rcx), %xmm5
	pshufb	%xmm6, %xmm5
	movdqu	96(%rcx), %xmm7
	pshufb	%xmm6, %xmm7
	movdqu	112(%rcx), %xmm1
	pshufb	%xmm6, %xmm1
	movdqa	%xmm2, %xmm6
	psrlw	$1, %xmm6
	pxor	%xmm4, %xmm6
	movdqa	l_aes_v2_CPI5_1(%rip), %xmm9           # xmm9 = [85,85,85,85,85,85,85,85,85,85,85,85,85,85,85,85]
	pand	%xmm9, %xmm6
	pxor	%xmm6, %xmm4
	paddb	%xmm6, %xmm6
	pxor	%xmm2, %xmm6
	movdqa	%xmm8, %xmm2
	psrlw	$1, %xmm2
	pxor	%xmm0, %xmm2
	pand	%xmm9, %xmm2
	pxor	%xmm2, %xmm0
	paddb	%xmm2, %xmm2
	pxor	%xmm8, %xmm2
	movdqa	%xmm3, %xmm8
	psrlw	$1, %xmm8
	pxor	%xmm5, %xmm8
	pand	%xmm9, %xmm8
	pxor	%xmm8, %xmm5
	paddb	%xmm8, %xmm8
	pxor	%xmm3, %xmm8
	movdqa	%xmm7, %xmm3
	psrlw	$1, %xmm3
	pxor	%xmm1, %xmm3
	pand	%xmm9, %xmm3
	pxor	%xmm3, %xmm1
	paddb	%xmm3, %xmm3
	pxor	%xmm7, %xmm3
	movdqa	%xmm6, %xmm7
	psrlw	$2, %xmm7
	pxor	%xmm2, %xmm7
	movdqa	l_aes_v2_CPI5_2(%rip), %xmm9           # xmm9 = [51,51,51,51,51,51,51,51,51,51,51,51,51,51,51,51]
	pand	%xmm9, %xmm7
	pxor	%xmm7, %xmm2
	psllw	$2, %xmm7
	pxor	%xmm6, %xmm7
	movdqa	%xmm8, %xmm6
	psrlw	$2, %xmm6
	pxor	%xmm3, %xmm6
	pand	%xmm9, %xmm6
	pxor	%xmm6, %xmm3
	psllw	$2, %xmm6
	pxor	%xmm8, %xmm6
	movdqa	%xmm4, %xmm8
	psrlw	$2, %xmm8
	pxor	%xmm0, %xmm8
	pand	%xmm9, %xmm8
	pxor	%xmm8, %xmm0
	psllw	$2, %xmm8
	pxor	%xmm4, %xmm8
	movdqa	%xmm5, %xmm4
	psrlw	$2, %xmm4
	pxor	%xmm1, %xmm4
	pand	%xmm9, %xmm4
	pxor	%xmm4, %xmm1
	psllw	$2, %xmm4
	pxor	%xmm5, %xmm4
	movdqa	%xmm7, %xmm5
	psrlw	$4, %xmm5
	movdqa	l_aes_v2_CPI5_3(%rip), %xmm9           # xmm9 = [15,15,15,15,15,15,15,15,15,15,15,15,15,15,15,15]
	pxor	%xmm6, %xmm5
	pand	%xmm9, %xmm5
	pxor	%xmm5, %xmm6
	psllw	$4, %xmm5
	pxor	%xmm7, %xmm5
	movdqa	%xmm8, %xmm7
	psrlw	$4, %xmm7
	pxor	%xmm4, %xmm7
	pand	%xmm9, %xmm7
	pxor	%xmm7, %xmm4
	psllw	$4, %xmm7
	pxor	%xmm8, %xmm7
	movdqa	%xmm2, %xmm8
	psrlw	$4, %xmm8
	pxor	%xmm3, %xmm8
	pand	%xmm9, %xmm8
	pxor	%xmm8, %xmm3
	psllw	$4, %xmm8
	pxor	%xmm2, %xmm8
	movdqa	%xmm0, %xmm2
	psrlw	$4, %xmm2
	pxor	%xmm1, %xmm2
	pand	%xmm9, %xmm2
	pxor	%xmm2, %xmm1
	psllw	$4, %xmm2
	pxor	%xmm0, %xmm2
	movdqa	%xmm5, (%rsp)
	movdqa	%xmm7, 16(%rsp)
	movdqa	%xmm8, 32(%rsp)
	movdqa	%xmm2, 48(%rsp)
	movdqa	%xmm6, 64(%rsp)
	movdqa	%xmm4, 80(%rsp)
	movdqa	%xmm3, 96(%rsp)
	movdqa	%xmm1, 112(%rsp)
	movq	%rsp, %rax
	movq	%rsi, %rdi
	movq	%rdx, %rsi
	movq	%rax, %rdx
	callq	_aes_v2.aes_soft.soft.ciphers.planes.EncryptPlaneCipher.process_planes
	movdqa	(%rsp), %xmm3
	movdqa	16(%rsp), %xmm6
	movdqa	32(%rsp), %xmm8
	movdqa	48(%rsp), %xmm1
	movdqa	64(%rsp), %xmm2
	movdqa	80(%rsp), %xmm4
	movdqa	96(%rsp), %xmm7
	movdqa	112(%rsp), %xmm0
	movdqa	%xmm3, %xmm5
	psrlw	$1, %xmm5
	pxor	%xmm6, %xmm5
	movdqa	l_aes_v2_CPI5_1(%rip), %xmm9           # xmm9 = [85,85,85,85,85,85,85,85,85,85,85,85,85,85,85,85]
	pand	%xmm9, %xmm5
	pxor	%xmm5, %xmm6
	paddb	%xmm5, %xmm5
	pxor	%xmm3, %xmm5
	movdqa	%xmm8, %xmm3
	psrlw	$1, %xmm3
	pxor	%xmm1, %xmm3
	pand	%xmm9, %xmm3
	pxor	%xmm3, %xmm1
	paddb	%xmm3, %xmm3
	pxor	%xmm8, %xmm3
	movdqa	%xmm2, %xmm8
	psrlw	$1, %xmm8
	pxor	%xmm4, %xmm8
	pand	%xmm9, %xmm8
	pxor	%xmm8, %xmm4
	paddb	%xmm8, %xmm8
	pxor	%xmm2, %xmm8
	movdqa	%xmm7, %xmm2
	psrlw	$1, %xmm2
	pxor	%xmm0, %xmm2
	pand	%xmm9, %xmm2
	pxor	%xmm2, %xmm0
	paddb	%xmm2, %xmm2
	pxor	%xmm7, %xmm2
	movdqa	%xmm5, %xmm7
	psrlw	$2, %xmm7
	pxor	%xmm3, %xmm7
	movdqa	l_aes_v2_CPI5_2(%rip), %xmm9           # xmm9 = [51,51,51,51,51,51,51,51,51,51,51,51,51,51,51,51]
	pand	%xmm9, %xmm7
	pxor	%xmm7, %xmm3
	psllw	$2, %xmm7
	pxor	%xmm5, %xmm7
	movdqa	%xmm8, %xmm5
	psrlw	$2, %xmm5
	pxor	%xmm2, %xmm5
	pand	%xmm9, %xmm5
	pxor	%xmm5, %xmm2
	psllw	$2, %xmm5
	pxor	%xmm8, %xmm5
	movdqa	%xmm6, %xmm8
	psrlw	$2, %xmm8
	pxor	%xmm1, %xmm8
	pand	%xmm9, %xmm8
	pxor	%xmm8, %xmm1
	psllw	$2, %xmm8
	pxor	%xmm6, %xmm8
	movdqa	%xmm4, %xmm6
	psrlw	$2, %xmm6
	pxor	%xmm0, %xmm6
	pand	%xmm9, %xmm6
	pxor	%xmm6, %xmm0
	psllw	$2, %xmm6
	pxor	%xmm4, %xmm6
	movdqa	%xmm7, %xmm4
	psrlw	$4, %xmm4
	pxor	%xmm5, %xmm4
	movdqa	l_aes_v2_CPI5_3(%rip), %xmm9           # xmm9 = [15,15,15,15,15,15,15,15,15,15,15,15,15,15,15,15]
	pand	%xmm9, %xmm4
	pxor	%xmm4, %xmm5
	psllw	$4, %xmm4
	pxor	%xmm7, %xmm4
	movdqa	%xmm8, %xmm7
	psrlw	$4, %xmm7
	pxor	%xmm6, %xmm7
	pand	%xmm9, %xmm7
	pxor	%xmm7, %xmm6
	psllw	$4, %xmm7
	pxor	%xmm8, %xmm7
	movdqa	%xmm3, %xmm8
	psrlw	$4, %xmm8
	pxor	%xmm2, %xmm8
	pand	%xmm9, %xmm8
	pxor	%xmm8, %xmm2
	psllw	$4, %xmm8
	pxor	%xmm3, %xmm8
	movdqa	%xmm1, %xmm3
	psrlw	$4, %xmm3
	pxor	%xmm0, %xmm3
	pand	%xmm9, %xmm3
	pxor	%xmm3, %xmm0
	psllw	$4, %xmm3
	pxor	%xmm1, %xmm3
	movdqa	l_aes_v2_CPI5_0(%rip), %xmm1           # xmm1 = [0,4,8,12,1,5,9,13,2,6,10,14,3,7,11,15]
	pshufb	%xmm1, %xmm4
	movdqu	%xmm4, (%rbx)
	pshufb	%xmm1, %xmm7
	movdqu	%xmm7, 16(%rbx)
	pshufb	%xmm1, %xmm8
	movdqu	%xmm8, 32(%rbx)
	pshufb	%xmm1, %xmm3
	movdqu	%xmm3, 48(%rbx)
	pshufb	%xmm1, %xmm5
	movdqu	%xmm5, 64(%rbx)
	pshufb	%xmm1, %xmm6
	movdqu	%xmm6, 80(%rbx)
	pshufb	%xmm1, %xmm2
	movdqu	%xmm2, 96(%rbx)
	pshufb	%xmm1, %xmm0
	movdqu	%xmm0, 112(%rbx)
	addq	$128, %rsp
	popq	%rbx
	retq
                                        # -- End function
	.section	__TEXT,__const
	.p2align	4, 0x0                          # -- Begin function aes_soft::soft::ciphers::planes::EncryptPlaneCipher::process_planes::<#f2467153fb0a218d>
l_aes_v2_CPI6_0:
	.byte	5                               # 0x5
	.byte	6                               # 0x6
	.byte	7                               # 0x7
	.byte	4                               # 0x4
	.byte	9                               # 0x9
	.byte	10                              # 0xa
	.byte	11                              # 0xb
	.byte	8                               # 0x8
	.byte	13                              # 0xd
	.byte	14                              # 0xe
	.byte	15                              # 0xf
	.byte	12                              # 0xc
	.byte	1                               # 0x1
	.byte	2                               # 0x2
	.byte	3                               # 0x3
	.byte	0                               # 0x0
l_aes_v2_CPI6_1:
	.byte	10                              # 0xa
	.byte	11                              # 0xb
	.byte	8                               # 0x8
	.byte	9                               # 0x9
	.byte	14                              # 0xe
	.byte	15                              # 0xf
	.byte	12                              # 0xc
	.byte	13                              # 0xd
	.byte	2                               # 0x2
	.byte	3                               # 0x3
	.byte	0                               # 0x0
	.byte	1                               # 0x1
	.byte	6                               # 0x6
	.byte	7                               # 0x7
	.byte	4                               # 0x4
	.byte	5                               # 0x5
l_aes_v2_CPI6_2:
	.byte	6                               # 0x6
	.byte	7                               # 0x7
	.byte	4                               # 0x4
	.byte	5                               # 0x5
	.byte	10                              # 0xa
	.byte	11                              # 0xb
	.byte	8                               # 0x8
	.byte	9                               # 0x9
	.byte	14                              # 0xe
	.byte	15                              # 0xf
	.byte	12                              # 0xc
	.byte	13                              # 0xd
	.byte	2                               # 0x2
	.byte	3                               # 0x3
	.byte	0                               # 0x0
	.byte	1                               # 0x1
l_aes_v2_CPI6_3:
	.byte	7                               # 0x7
	.byte	4                               # 0x4
	.byte	5                               # 0x5
	.byte	6                               # 0x6
	.byte	11                              # 0xb
	.byte	8                               # 0x8
	.byte	9                               # 0x9
	.byte	10                              # 0xa
	.byte	15                              # 0xf
	.byte	12                              # 0xc
	.byte	13                              # 0xd
	.byte	14                              # 0xe
	.byte	3                               # 0x3
	.byte	0                               # 0x0
	.byte	1                               # 0x1
	.byte	2                               # 0x2
	.section	__TEXT,__text,regular,pure_instructions
	.p2align	4
_aes_v2.aes_soft.soft.ciphers.planes.EncryptPlaneCipher.process_planes: # @_aes_v2.aes_soft.soft.ciphers.planes.EncryptPlaneCipher.process_planes
# %bb.0:                                # %start
	subq	$88, %rsp
	leaq	-2(%rsi), %rax
	movq	%rax, %rcx
	shrq	$2, %rcx
	movdqu	(%rdx), %xmm10
	movdqu	16(%rdx), %xmm8
	movdqu	32(%rdx), %xmm14
	movdqu	48(%rdx), %xmm5
	movdqu	64(%rdx), %xmm2
	movdqu	80(%rdx), %xmm1
	movdqu	96(%rdx), %xmm9
	movdqu	112(%rdx), %xmm7
	pxor	(%rdi), %xmm10
	pxor	16(%rdi), %xmm8
	pxor	32(%rdi), %xmm14
	pxor	48(%rdi), %xmm5
	pxor	64(%rdi), %xmm2
	pxor	80(%rdi), %xmm1
	pxor	96(%rdi), %xmm9
	pxor	112(%rdi), %xmm7
	je	Laes_v2_BB6_3
# %bb.1:                                # %join.7.preheader
	leaq	624(%rdi), %r8
	.p2align	4
Laes_v2_BB6_2:                                # %join.7
                                        # =>This Inner Loop Header: Depth=1
	pxor	%xmm9, %xmm1
	movdqa	%xmm2, %xmm6
	pxor	%xmm7, %xmm6
	movdqa	%xmm10, %xmm0
	pxor	%xmm1, %xmm0
	movdqa	%xmm0, %xmm13
	pxor	%xmm2, %xmm13
	movdqa	%xmm13, -128(%rsp)              # 16-byte Spill
	pand	%xmm10, %xmm13
	movdqa	%xmm0, %xmm15
	movdqa	%xmm0, %xmm11
	pxor	%xmm8, %xmm15
	pxor	%xmm7, %xmm8
	pxor	%xmm14, %xmm2
	movdqa	%xmm8, %xmm0
	pxor	%xmm2, %xmm0
	pxor	%xmm0, %xmm5
	movdqa	%xmm0, -96(%rsp)                # 16-byte Spill
	movdqa	%xmm5, %xmm12
	pxor	%xmm14, %xmm12
	pxor	%xmm9, %xmm5
	pxor	%xmm7, %xmm14
	movdqa	%xmm12, %xmm3
	pand	%xmm0, %xmm3
	movdqa	%xmm12, %xmm0
	movdqa	%xmm12, -80(%rsp)               # 16-byte Spill
	pxor	%xmm1, %xmm0
	movdqa	%xmm0, %xmm4
	movdqa	%xmm0, -64(%rsp)                # 16-byte Spill
	pxor	%xmm14, %xmm13
	pxor	%xmm0, %xmm13
	pxor	%xmm3, %xmm13
	pxor	%xmm5, %xmm3
	movdqa	%xmm5, %xmm9
	movdqa	%xmm6, 16(%rsp)                 # 16-byte Spill
	pxor	%xmm6, %xmm9
	movdqa	%xmm9, %xmm0
	pand	%xmm6, %xmm0
	movdqa	%xmm9, %xmm5
	pxor	%xmm4, %xmm5
	movdqa	%xmm5, -16(%rsp)                # 16-byte Spill
	pand	%xmm2, %xmm5
	movdqa	%xmm4, %xmm6
	pand	%xmm14, %xmm6
	pxor	%xmm0, %xmm5
	pxor	%xmm0, %xmm6
	pxor	%xmm10, %xmm12
	movdqa	%xmm15, -48(%rsp)               # 16-byte Spill
	movdqa	%xmm15, %xmm4
	pxor	%xmm14, %xmm4
	movdqa	%xmm4, -32(%rsp)                # 16-byte Spill
	movdqa	%xmm12, %xmm0
	pand	%xmm4, %xmm0
	pxor	%xmm0, %xmm3
	movdqa	%xmm9, %xmm4
	pxor	%xmm9, %xmm1
	movdqa	%xmm15, %xmm0
	movdqa	%xmm11, (%rsp)                  # 16-byte Spill
	pand	%xmm11, %xmm0
	movdqa	%xmm8, %xmm9
	movdqa	%xmm8, -112(%rsp)               # 16-byte Spill
	movdqa	%xmm1, %xmm8
	pand	%xmm9, %xmm8
	pxor	%xmm5, %xmm3
	pxor	%xmm1, %xmm0
	pxor	%xmm8, %xmm0
	pxor	%xmm9, %xmm0
	pxor	%xmm5, %xmm0
	movdqa	%xmm11, %xmm9
	pxor	%xmm7, %xmm9
	pxor	%xmm7, %xmm8
	movdqa	%xmm4, %xmm7
	pxor	%xmm10, %xmm7
	movdqa	%xmm7, 32(%rsp)                 # 16-byte Spill
	pand	%xmm9, %xmm7
	pxor	%xmm1, %xmm7
	pxor	%xmm7, %xmm8
	pxor	%xmm6, %xmm13
	pxor	%xmm6, %xmm8
	movdqa	%xmm0, %xmm15
	pand	%xmm3, %xmm15
	movdqa	%xmm15, %xmm6
	pxor	%xmm13, %xmm6
	movdqa	%xmm8, %xmm7
	pxor	%xmm0, %xmm7
	pand	%xmm6, %xmm7
	pxor	%xmm13, %xmm3
	movdqa	%xmm7, %xmm6
	pxor	%xmm15, %xmm7
	pxor	%xmm8, %xmm15
	movdqa	%xmm15, %xmm11
	pand	%xmm3, %xmm11
	pxor	%xmm13, %xmm11
	pxor	%xmm8, %xmm6
	pand	%xmm8, %xmm7
	pxor	%xmm7, %xmm15
	pand	%xmm11, %xmm15
	pxor	%xmm3, %xmm15
	pxor	%xmm0, %xmm7
	movdqa	-128(%rsp), %xmm0               # 16-byte Reload
	pand	%xmm6, %xmm0
	movdqa	%xmm0, -128(%rsp)               # 16-byte Spill
	movdqa	%xmm7, %xmm13
	pxor	%xmm6, %xmm13
	movdqa	%xmm11, %xmm5
	pxor	%xmm6, %xmm5
	pand	%xmm10, %xmm6
	movdqa	%xmm15, %xmm3
	pxor	%xmm13, %xmm3
	pand	%xmm5, %xmm4
	movdqa	%xmm4, 48(%rsp)                 # 16-byte Spill
	movdqa	%xmm3, %xmm10
	pxor	%xmm5, %xmm10
	pand	16(%rsp), %xmm5                 # 16-byte Folded Reload
	movdqa	%xmm15, %xmm8
	pxor	%xmm11, %xmm8
	pand	%xmm8, %xmm1
	pand	-112(%rsp), %xmm8               # 16-byte Folded Reload
	movdqa	(%rsp), %xmm4                   # 16-byte Reload
	pand	%xmm15, %xmm4
	pand	-48(%rsp), %xmm15               # 16-byte Folded Reload
	pand	%xmm13, %xmm12
	pand	-32(%rsp), %xmm13               # 16-byte Folded Reload
	pand	%xmm10, %xmm2
	pand	-16(%rsp), %xmm10               # 16-byte Folded Reload
	pand	%xmm11, %xmm9
	pand	32(%rsp), %xmm11                # 16-byte Folded Reload
	movdqa	-80(%rsp), %xmm0                # 16-byte Reload
	pand	%xmm7, %xmm0
	pand	-96(%rsp), %xmm7                # 16-byte Folded Reload
	pxor	%xmm0, %xmm12
	pxor	%xmm6, %xmm0
	pxor	%xmm1, %xmm4
	pxor	%xmm0, %xmm11
	pxor	%xmm1, %xmm11
	pxor	%xmm5, %xmm2
	pxor	%xmm2, %xmm13
	pxor	%xmm11, %xmm15
	pxor	%xmm2, %xmm15
	movdqa	-64(%rsp), %xmm2                # 16-byte Reload
	pand	%xmm3, %xmm2
	pxor	%xmm4, %xmm10
	pxor	%xmm13, %xmm7
	pxor	%xmm4, %xmm12
	pxor	%xmm2, %xmm0
	pxor	%xmm8, %xmm0
	pxor	%xmm10, %xmm0
	pxor	%xmm0, %xmm9
	pxor	%xmm7, %xmm12
	pxor	%xmm15, %xmm0
	movdqa	%xmm0, %xmm4
	pxor	48(%rsp), %xmm10                # 16-byte Folded Reload
	movdqa	%xmm12, %xmm2
	pxor	%xmm10, %xmm2
	pxor	%xmm8, %xmm15
	pxor	-128(%rsp), %xmm13              # 16-byte Folded Reload
	pxor	%xmm12, %xmm11
	pand	%xmm14, %xmm3
	pxor	%xmm9, %xmm13
	pxor	%xmm10, %xmm7
	pxor	%xmm5, %xmm3
	pxor	%xmm10, %xmm3
	pxor	%xmm9, %xmm3
	movdqa	l_aes_v2_CPI6_0(%rip), %xmm10          # xmm10 = [5,6,7,4,9,10,11,8,13,14,15,12,1,2,3,0]
	movdqa	%xmm15, %xmm8
	pshufb	%xmm10, %xmm8
	movdqa	%xmm0, %xmm14
	pshufb	%xmm10, %xmm14
	movdqa	%xmm13, %xmm0
	pshufb	%xmm10, %xmm0
	movdqa	%xmm11, %xmm1
	pshufb	%xmm10, %xmm1
	movdqa	%xmm12, %xmm5
	pshufb	%xmm10, %xmm5
	movdqa	%xmm3, %xmm6
	pshufb	%xmm10, %xmm6
	movdqa	%xmm6, -112(%rsp)               # 16-byte Spill
	movdqa	%xmm2, %xmm9
	movdqa	%xmm2, %xmm6
	pshufb	%xmm10, %xmm6
	movdqa	%xmm7, %xmm2
	pshufb	%xmm10, %xmm2
	movdqa	%xmm2, -128(%rsp)               # 16-byte Spill
	pxor	%xmm8, %xmm15
	pxor	%xmm14, %xmm4
	pxor	%xmm2, %xmm7
	pxor	%xmm7, %xmm14
	pxor	%xmm15, %xmm14
	movdqa	l_aes_v2_CPI6_1(%rip), %xmm2           # xmm2 = [10,11,8,9,14,15,12,13,2,3,0,1,6,7,4,5]
	pshufb	%xmm2, %xmm15
	pxor	-496(%r8), %xmm15
	movdqa	%xmm4, %xmm10
	pshufb	%xmm2, %xmm10
	pxor	%xmm7, %xmm8
	pxor	-480(%r8), %xmm10
	pxor	%xmm15, %xmm8
	movdqa	%xmm8, %xmm2
	pxor	%xmm10, %xmm14
	movdqa	%xmm14, %xmm15
	pxor	%xmm0, %xmm13
	pxor	%xmm1, %xmm11
	movdqa	%xmm1, %xmm8
	pxor	%xmm5, %xmm12
	movdqa	-112(%rsp), %xmm1               # 16-byte Reload
	pxor	%xmm1, %xmm3
	pxor	%xmm6, %xmm9
	pxor	%xmm0, %xmm4
	movdqa	%xmm7, %xmm0
	pxor	%xmm7, %xmm5
	pxor	%xmm13, %xmm7
	movdqa	l_aes_v2_CPI6_1(%rip), %xmm14          # xmm14 = [10,11,8,9,14,15,12,13,2,3,0,1,6,7,4,5]
	pshufb	%xmm14, %xmm13
	pxor	%xmm11, %xmm5
	movdqa	%xmm11, %xmm10
	pshufb	%xmm14, %xmm10
	pxor	-464(%r8), %xmm13
	pxor	%xmm13, %xmm4
	movdqa	%xmm12, %xmm11
	pshufb	%xmm14, %xmm11
	pxor	-432(%r8), %xmm11
	pxor	%xmm11, %xmm5
	movdqa	%xmm3, %xmm11
	pshufb	%xmm14, %xmm11
	pxor	%xmm6, %xmm3
	movdqa	%xmm9, %xmm13
	movdqa	%xmm9, %xmm6
	pshufb	%xmm14, %xmm6
	pshufb	%xmm14, %xmm0
	pxor	-400(%r8), %xmm6
	pxor	%xmm6, %xmm3
	pxor	-384(%r8), %xmm0
	pxor	-128(%rsp), %xmm13              # 16-byte Folded Reload
	pxor	%xmm0, %xmm13
	pxor	-416(%r8), %xmm11
	pxor	%xmm1, %xmm12
	pxor	%xmm11, %xmm12
	pxor	%xmm3, %xmm12
	movdqa	%xmm13, %xmm9
	pxor	%xmm5, %xmm9
	movdqa	%xmm12, %xmm11
	movdqa	%xmm2, %xmm14
	pxor	%xmm2, %xmm11
	movdqa	%xmm11, %xmm1
	pxor	%xmm5, %xmm1
	movdqa	%xmm1, %xmm6
	movdqa	%xmm1, -128(%rsp)               # 16-byte Spill
	movdqa	%xmm13, %xmm1
	movdqa	%xmm13, (%rsp)                  # 16-byte Spill
	pxor	%xmm15, %xmm1
	movdqa	%xmm1, -96(%rsp)                # 16-byte Spill
	pxor	%xmm4, %xmm5
	pxor	%xmm5, %xmm1
	pxor	-448(%r8), %xmm10
	pxor	%xmm8, %xmm7
	pxor	%xmm10, %xmm7
	pxor	%xmm1, %xmm7
	movdqa	%xmm1, -64(%rsp)                # 16-byte Spill
	movdqa	%xmm7, %xmm8
	pxor	%xmm4, %xmm8
	pxor	%xmm3, %xmm7
	pxor	%xmm13, %xmm4
	movdqa	%xmm8, %xmm13
	pand	%xmm1, %xmm13
	movdqa	%xmm8, %xmm0
	pxor	%xmm12, %xmm0
	movdqa	%xmm0, %xmm1
	pxor	%xmm13, %xmm1
	pxor	%xmm7, %xmm13
	movdqa	%xmm9, 16(%rsp)                 # 16-byte Spill
	pxor	%xmm9, %xmm7
	movdqa	%xmm7, %xmm3
	pand	%xmm9, %xmm3
	movdqa	%xmm7, %xmm2
	movdqa	%xmm7, %xmm10
	movdqa	%xmm0, -16(%rsp)                # 16-byte Spill
	pxor	%xmm0, %xmm2
	movdqa	%xmm2, -32(%rsp)                # 16-byte Spill
	pand	%xmm5, %xmm2
	pand	%xmm4, %xmm0
	pxor	%xmm3, %xmm2
	pxor	%xmm3, %xmm0
	movdqa	%xmm6, %xmm3
	pand	%xmm14, %xmm3
	pxor	%xmm4, %xmm3
	movdqa	%xmm4, -80(%rsp)                # 16-byte Spill
	pxor	%xmm3, %xmm1
	movdqa	%xmm15, %xmm6
	pxor	%xmm11, %xmm6
	movdqa	%xmm6, 32(%rsp)                 # 16-byte Spill
	movdqa	%xmm8, %xmm15
	pxor	%xmm14, %xmm15
	movdqa	%xmm14, %xmm9
	movdqa	%xmm6, %xmm7
	pxor	%xmm4, %xmm7
	movdqa	%xmm7, -48(%rsp)                # 16-byte Spill
	movdqa	%xmm15, %xmm3
	pand	%xmm7, %xmm3
	pxor	%xmm3, %xmm13
	movdqa	%xmm10, -112(%rsp)              # 16-byte Spill
	pxor	%xmm10, %xmm12
	movdqa	%xmm6, %xmm3
	pand	%xmm11, %xmm3
	movdqa	%xmm12, %xmm14
	movdqa	-96(%rsp), %xmm6                # 16-byte Reload
	pand	%xmm6, %xmm14
	pxor	%xmm2, %xmm13
	pxor	%xmm12, %xmm3
	pxor	%xmm14, %xmm3
	pxor	%xmm6, %xmm3
	pxor	%xmm2, %xmm3
	movdqa	%xmm11, %xmm6
	movdqa	(%rsp), %xmm2                   # 16-byte Reload
	pxor	%xmm2, %xmm6
	pxor	%xmm2, %xmm14
	movdqa	%xmm10, %xmm2
	pxor	%xmm9, %xmm2
	movdqa	%xmm9, %xmm4
	movdqa	%xmm2, (%rsp)                   # 16-byte Spill
	pand	%xmm6, %xmm2
	pxor	%xmm12, %xmm2
	pxor	%xmm2, %xmm14
	pxor	%xmm0, %xmm1
	pxor	%xmm0, %xmm14
	movdqa	%xmm3, %xmm10
	pand	%xmm13, %xmm10
	movdqa	%xmm10, %xmm0
	pxor	%xmm1, %xmm0
	movdqa	%xmm14, %xmm7
	pxor	%xmm3, %xmm7
	pand	%xmm0, %xmm7
	pxor	%xmm1, %xmm13
	movdqa	%xmm7, %xmm2
	pxor	%xmm10, %xmm7
	pxor	%xmm14, %xmm10
	movdqa	%xmm10, %xmm9
	pand	%xmm13, %xmm9
	pxor	%xmm1, %xmm9
	pxor	%xmm14, %xmm2
	pand	%xmm14, %xmm7
	pxor	%xmm7, %xmm10
	pand	%xmm9, %xmm10
	pxor	%xmm13, %xmm10
	pxor	%xmm3, %xmm7
	movdqa	-128(%rsp), %xmm0               # 16-byte Reload
	pand	%xmm2, %xmm0
	movdqa	%xmm0, -128(%rsp)               # 16-byte Spill
	movdqa	%xmm7, %xmm14
	pxor	%xmm2, %xmm14
	movdqa	%xmm9, %xmm0
	pxor	%xmm2, %xmm0
	pand	%xmm4, %xmm2
	movdqa	%xmm10, %xmm1
	pxor	%xmm14, %xmm1
	movdqa	-112(%rsp), %xmm3               # 16-byte Reload
	pand	%xmm0, %xmm3
	movdqa	%xmm3, -112(%rsp)               # 16-byte Spill
	movdqa	%xmm1, %xmm13
	pxor	%xmm0, %xmm13
	pand	16(%rsp), %xmm0                 # 16-byte Folded Reload
	movdqa	%xmm10, %xmm3
	pxor	%xmm9, %xmm3
	pand	%xmm3, %xmm12
	pand	-96(%rsp), %xmm3                # 16-byte Folded Reload
	pand	%xmm10, %xmm11
	pand	32(%rsp), %xmm10                # 16-byte Folded Reload
	pand	%xmm14, %xmm15
	pand	-48(%rsp), %xmm14               # 16-byte Folded Reload
	pand	%xmm13, %xmm5
	pand	-32(%rsp), %xmm13               # 16-byte Folded Reload
	pand	%xmm9, %xmm6
	pand	(%rsp), %xmm9                   # 16-byte Folded Reload
	pand	%xmm7, %xmm8
	pand	-64(%rsp), %xmm7                # 16-byte Folded Reload
	pxor	%xmm8, %xmm15
	pxor	%xmm2, %xmm8
	pxor	%xmm12, %xmm11
	pxor	%xmm8, %xmm9
	pxor	%xmm12, %xmm9
	pxor	%xmm0, %xmm5
	pxor	%xmm5, %xmm14
	pxor	%xmm9, %xmm10
	pxor	%xmm5, %xmm10
	pxor	%xmm11, %xmm13
	pxor	%xmm11, %xmm15
	movdqa	-16(%rsp), %xmm2                # 16-byte Reload
	pand	%xmm1, %xmm2
	pxor	%xmm14, %xmm7
	pxor	%xmm2, %xmm8
	pxor	%xmm3, %xmm8
	pxor	%xmm13, %xmm8
	pxor	%xmm8, %xmm6
	pxor	%xmm7, %xmm15
	pxor	%xmm10, %xmm8
	pxor	-112(%rsp), %xmm13              # 16-byte Folded Reload
	movdqa	%xmm15, %xmm5
	pxor	%xmm13, %xmm5
	pxor	%xmm3, %xmm10
	pxor	-128(%rsp), %xmm14              # 16-byte Folded Reload
	pxor	%xmm15, %xmm9
	pand	-80(%rsp), %xmm1                # 16-byte Folded Reload
	pxor	%xmm6, %xmm14
	pxor	%xmm13, %xmm7
	pxor	%xmm0, %xmm1
	pxor	%xmm13, %xmm1
	pxor	%xmm6, %xmm1
	movdqa	l_aes_v2_CPI6_2(%rip), %xmm0           # xmm0 = [6,7,4,5,10,11,8,9,14,15,12,13,2,3,0,1]
	movdqa	%xmm10, %xmm4
	pshufb	%xmm0, %xmm4
	movdqa	%xmm8, %xmm3
	pshufb	%xmm0, %xmm3
	movdqa	%xmm14, %xmm13
	pshufb	%xmm0, %xmm13
	movdqa	%xmm9, %xmm2
	pshufb	%xmm0, %xmm2
	movdqa	%xmm2, -128(%rsp)               # 16-byte Spill
	movdqa	%xmm15, %xmm6
	pshufb	%xmm0, %xmm6
	movdqa	%xmm1, %xmm2
	pshufb	%xmm0, %xmm2
	movdqa	%xmm5, %xmm12
	pshufb	%xmm0, %xmm12
	movdqa	%xmm7, %xmm11
	pshufb	%xmm0, %xmm11
	pxor	%xmm4, %xmm10
	pshufd	$78, %xmm10, %xmm0              # xmm0 = xmm10[2,3,0,1]
	pxor	-368(%r8), %xmm0
	pxor	%xmm11, %xmm7
	pxor	%xmm7, %xmm4
	pxor	%xmm0, %xmm4
	pxor	%xmm3, %xmm8
	pshufd	$78, %xmm8, %xmm0               # xmm0 = xmm8[2,3,0,1]
	pxor	-352(%r8), %xmm0
	pxor	%xmm7, %xmm3
	pxor	%xmm10, %xmm3
	pxor	%xmm0, %xmm3
	pxor	%xmm13, %xmm14
	pxor	-128(%rsp), %xmm9               # 16-byte Folded Reload
	pxor	%xmm6, %xmm15
	pxor	%xmm2, %xmm1
	pxor	%xmm12, %xmm5
	pxor	%xmm13, %xmm8
	pshufd	$78, %xmm14, %xmm0              # xmm0 = xmm14[2,3,0,1]
	pxor	-336(%r8), %xmm0
	pxor	%xmm0, %xmm8
	pshufd	$78, %xmm9, %xmm10              # xmm10 = xmm9[2,3,0,1]
	pxor	%xmm7, %xmm6
	pxor	%xmm9, %xmm6
	pshufd	$78, %xmm15, %xmm0              # xmm0 = xmm15[2,3,0,1]
	pxor	-304(%r8), %xmm0
	pxor	%xmm0, %xmm6
	pshufd	$78, %xmm1, %xmm0               # xmm0 = xmm1[2,3,0,1]
	pxor	%xmm12, %xmm1
	pshufd	$78, %xmm5, %xmm9               # xmm9 = xmm5[2,3,0,1]
	pxor	-272(%r8), %xmm9
	pxor	%xmm9, %xmm1
	pshufd	$78, %xmm7, %xmm9               # xmm9 = xmm7[2,3,0,1]
	pxor	-256(%r8), %xmm9
	pxor	%xmm11, %xmm5
	pxor	%xmm9, %xmm5
	pxor	-288(%r8), %xmm0
	pxor	%xmm2, %xmm15
	pxor	%xmm0, %xmm15
	pxor	%xmm1, %xmm15
	movdqa	%xmm6, %xmm9
	pxor	%xmm5, %xmm9
	movdqa	%xmm15, %xmm12
	pxor	%xmm4, %xmm12
	movdqa	%xmm12, -112(%rsp)              # 16-byte Spill
	movdqa	%xmm12, %xmm11
	pxor	%xmm6, %xmm11
	pxor	%xmm3, %xmm12
	pxor	%xmm5, %xmm3
	pxor	%xmm8, %xmm6
	pxor	%xmm14, %xmm7
	movdqa	%xmm3, %xmm0
	movdqa	%xmm3, %xmm14
	pxor	%xmm6, %xmm0
	pxor	-320(%r8), %xmm10
	pxor	-128(%rsp), %xmm7               # 16-byte Folded Reload
	pxor	%xmm10, %xmm7
	pxor	%xmm0, %xmm7
	movdqa	%xmm0, -80(%rsp)                # 16-byte Spill
	movdqa	%xmm7, %xmm3
	pxor	%xmm8, %xmm3
	pxor	%xmm1, %xmm7
	pxor	%xmm5, %xmm8
	movdqa	%xmm3, %xmm13
	pand	%xmm0, %xmm13
	movdqa	%xmm3, %xmm0
	movdqa	%xmm3, -128(%rsp)               # 16-byte Spill
	pxor	%xmm15, %xmm0
	movdqa	%xmm0, %xmm1
	pxor	%xmm13, %xmm1
	pxor	%xmm7, %xmm13
	movdqa	%xmm9, -48(%rsp)                # 16-byte Spill
	pxor	%xmm9, %xmm7
	movdqa	%xmm7, %xmm2
	pand	%xmm9, %xmm2
	movdqa	%xmm7, %xmm9
	movdqa	%xmm0, -96(%rsp)                # 16-byte Spill
	pxor	%xmm0, %xmm9
	movdqa	%xmm9, -64(%rsp)                # 16-byte Spill
	pand	%xmm6, %xmm9
	pand	%xmm8, %xmm0
	pxor	%xmm2, %xmm9
	pxor	%xmm2, %xmm0
	movdqa	%xmm11, %xmm2
	movdqa	%xmm11, %xmm10
	pand	%xmm4, %xmm2
	pxor	%xmm8, %xmm2
	pxor	%xmm2, %xmm1
	movdqa	%xmm3, %xmm2
	pxor	%xmm4, %xmm2
	movdqa	%xmm2, -32(%rsp)                # 16-byte Spill
	movdqa	%xmm4, %xmm3
	movdqa	%xmm12, 16(%rsp)                # 16-byte Spill
	movdqa	%xmm12, %xmm4
	pxor	%xmm8, %xmm4
	movdqa	%xmm4, -16(%rsp)                # 16-byte Spill
	pand	%xmm4, %xmm2
	pxor	%xmm2, %xmm13
	pxor	%xmm7, %xmm15
	movdqa	%xmm12, %xmm2
	movdqa	-112(%rsp), %xmm12              # 16-byte Reload
	pand	%xmm12, %xmm2
	movdqa	%xmm15, %xmm4
	movdqa	%xmm14, 48(%rsp)                # 16-byte Spill
	pand	%xmm14, %xmm4
	pxor	%xmm9, %xmm13
	pxor	%xmm15, %xmm2
	pxor	%xmm4, %xmm2
	pxor	%xmm14, %xmm2
	pxor	%xmm9, %xmm2
	pxor	%xmm5, %xmm12
	pxor	%xmm5, %xmm4
	movdqa	%xmm7, %xmm5
	movdqa	%xmm7, %xmm9
	pxor	%xmm3, %xmm5
	movdqa	%xmm3, %xmm7
	movdqa	%xmm5, (%rsp)                   # 16-byte Spill
	pand	%xmm12, %xmm5
	pxor	%xmm15, %xmm5
	pxor	%xmm5, %xmm4
	pxor	%xmm0, %xmm1
	pxor	%xmm0, %xmm4
	movdqa	%xmm2, %xmm14
	pand	%xmm13, %xmm14
	movdqa	%xmm14, %xmm0
	pxor	%xmm1, %xmm0
	movdqa	%xmm4, %xmm3
	pxor	%xmm2, %xmm3
	pand	%xmm0, %xmm3
	pxor	%xmm1, %xmm13
	movdqa	%xmm3, %xmm0
	pxor	%xmm14, %xmm3
	pxor	%xmm4, %xmm14
	movdqa	%xmm14, %xmm11
	pand	%xmm13, %xmm11
	pxor	%xmm1, %xmm11
	pxor	%xmm4, %xmm0
	pand	%xmm4, %xmm3
	pxor	%xmm3, %xmm14
	pand	%xmm11, %xmm14
	pxor	%xmm13, %xmm14
	pxor	%xmm2, %xmm3
	pand	%xmm0, %xmm10
	movdqa	%xmm10, 32(%rsp)                # 16-byte Spill
	movdqa	%xmm3, %xmm13
	pxor	%xmm0, %xmm13
	movdqa	%xmm11, %xmm5
	pxor	%xmm0, %xmm5
	pand	%xmm7, %xmm0
	movdqa	%xmm14, %xmm7
	pxor	%xmm13, %xmm7
	pand	%xmm5, %xmm9
	movdqa	%xmm9, 64(%rsp)                 # 16-byte Spill
	movdqa	%xmm7, %xmm9
	pxor	%xmm5, %xmm9
	pand	-48(%rsp), %xmm5                # 16-byte Folded Reload
	movdqa	%xmm14, %xmm4
	pxor	%xmm11, %xmm4
	pand	%xmm4, %xmm15
	pand	48(%rsp), %xmm4                 # 16-byte Folded Reload
	movdqa	-112(%rsp), %xmm2               # 16-byte Reload
	pand	%xmm14, %xmm2
	pand	16(%rsp), %xmm14                # 16-byte Folded Reload
	movdqa	-32(%rsp), %xmm10               # 16-byte Reload
	pand	%xmm13, %xmm10
	pand	-16(%rsp), %xmm13               # 16-byte Folded Reload
	pand	%xmm9, %xmm6
	pand	-64(%rsp), %xmm9                # 16-byte Folded Reload
	pand	%xmm11, %xmm12
	pand	(%rsp), %xmm11                  # 16-byte Folded Reload
	movdqa	-128(%rsp), %xmm1               # 16-byte Reload
	pand	%xmm3, %xmm1
	pand	-80(%rsp), %xmm3                # 16-byte Folded Reload
	pxor	%xmm1, %xmm10
	pxor	%xmm0, %xmm1
	pxor	%xmm15, %xmm2
	pxor	%xmm1, %xmm11
	pxor	%xmm15, %xmm11
	pxor	%xmm5, %xmm6
	pxor	%xmm6, %xmm13
	pxor	%xmm11, %xmm14
	pxor	%xmm6, %xmm14
	pxor	%xmm2, %xmm9
	pxor	%xmm2, %xmm10
	movdqa	-96(%rsp), %xmm0                # 16-byte Reload
	pand	%xmm7, %xmm0
	pxor	%xmm13, %xmm3
	pxor	%xmm0, %xmm1
	pxor	%xmm4, %xmm1
	pxor	%xmm9, %xmm1
	pxor	%xmm1, %xmm12
	pxor	%xmm3, %xmm10
	pxor	%xmm14, %xmm1
	pxor	64(%rsp), %xmm9                 # 16-byte Folded Reload
	movdqa	%xmm10, %xmm0
	pxor	%xmm9, %xmm0
	movdqa	%xmm0, -96(%rsp)                # 16-byte Spill
	pxor	%xmm4, %xmm14
	pxor	32(%rsp), %xmm13                # 16-byte Folded Reload
	pxor	%xmm10, %xmm11
	pand	%xmm8, %xmm7
	pxor	%xmm12, %xmm13
	pxor	%xmm9, %xmm3
	pxor	%xmm5, %xmm7
	pxor	%xmm9, %xmm7
	pxor	%xmm12, %xmm7
	movdqa	l_aes_v2_CPI6_3(%rip), %xmm4           # xmm4 = [7,4,5,6,11,8,9,10,15,12,13,14,3,0,1,2]
	movdqa	%xmm14, %xmm2
	pshufb	%xmm4, %xmm2
	movdqa	%xmm2, -80(%rsp)                # 16-byte Spill
	movdqa	%xmm1, %xmm12
	pshufb	%xmm4, %xmm12
	movdqa	%xmm13, %xmm6
	pshufb	%xmm4, %xmm6
	movdqa	%xmm6, %xmm15
	movdqa	%xmm6, -64(%rsp)                # 16-byte Spill
	movdqa	%xmm11, %xmm6
	pshufb	%xmm4, %xmm6
	movdqa	%xmm6, -32(%rsp)                # 16-byte Spill
	movdqa	%xmm10, %xmm2
	pshufb	%xmm4, %xmm10
	movdqa	%xmm7, %xmm8
	pshufb	%xmm4, %xmm8
	movdqa	%xmm8, %xmm9
	movdqa	%xmm8, -112(%rsp)               # 16-byte Spill
	movdqa	-96(%rsp), %xmm0                # 16-byte Reload
	movdqa	%xmm0, %xmm5
	pshufb	%xmm4, %xmm5
	movdqa	%xmm5, %xmm8
	movdqa	%xmm5, -48(%rsp)                # 16-byte Spill
	movdqa	%xmm3, %xmm5
	pshufb	%xmm4, %xmm5
	movdqa	%xmm5, %xmm4
	movdqa	%xmm5, -16(%rsp)                # 16-byte Spill
	movdqa	-80(%rsp), %xmm5                # 16-byte Reload
	pxor	%xmm5, %xmm14
	pxor	%xmm12, %xmm1
	movdqa	%xmm1, -128(%rsp)               # 16-byte Spill
	pxor	%xmm15, %xmm13
	pxor	%xmm6, %xmm11
	pxor	%xmm10, %xmm2
	pxor	%xmm9, %xmm7
	pxor	%xmm8, %xmm0
	movdqa	%xmm0, %xmm15
	pxor	%xmm4, %xmm3
	pxor	%xmm3, %xmm12
	pxor	%xmm14, %xmm12
	movdqa	l_aes_v2_CPI6_1(%rip), %xmm0           # xmm0 = [10,11,8,9,14,15,12,13,2,3,0,1,6,7,4,5]
	pshufb	%xmm0, %xmm14
	movdqa	%xmm1, %xmm4
	pshufb	%xmm0, %xmm4
	movdqa	%xmm5, %xmm8
	pxor	%xmm3, %xmm8
	pxor	%xmm3, %xmm10
	movdqa	%xmm3, %xmm6
	pxor	%xmm13, %xmm3
	pshufb	%xmm0, %xmm13
	pxor	%xmm11, %xmm10
	pshufb	%xmm0, %xmm11
	movdqa	%xmm2, %xmm5
	movdqa	%xmm2, %xmm9
	pshufb	%xmm0, %xmm9
	movdqa	%xmm7, %xmm1
	pshufb	%xmm0, %xmm1
	movdqa	%xmm15, %xmm2
	pshufb	%xmm0, %xmm15
	pshufb	%xmm0, %xmm6
	pxor	-240(%r8), %xmm14
	pxor	-224(%r8), %xmm4
	pxor	%xmm14, %xmm8
	movdqa	%xmm8, -80(%rsp)                # 16-byte Spill
	pxor	%xmm4, %xmm12
	pxor	-208(%r8), %xmm13
	movdqa	-128(%rsp), %xmm0               # 16-byte Reload
	pxor	-64(%rsp), %xmm0                # 16-byte Folded Reload
	pxor	%xmm13, %xmm0
	movdqa	%xmm0, %xmm4
	pxor	-176(%r8), %xmm9
	pxor	%xmm9, %xmm10
	pxor	-144(%r8), %xmm15
	pxor	-48(%rsp), %xmm7                # 16-byte Folded Reload
	pxor	%xmm15, %xmm7
	pxor	-128(%r8), %xmm6
	pxor	-16(%rsp), %xmm2                # 16-byte Folded Reload
	pxor	%xmm6, %xmm2
	pxor	-160(%r8), %xmm1
	pxor	-112(%rsp), %xmm5               # 16-byte Folded Reload
	pxor	%xmm1, %xmm5
	pxor	%xmm7, %xmm5
	movdqa	%xmm10, %xmm6
	pxor	%xmm2, %xmm6
	movdqa	%xmm5, %xmm13
	pxor	%xmm8, %xmm13
	movdqa	%xmm13, %xmm1
	pxor	%xmm10, %xmm1
	movdqa	%xmm1, -112(%rsp)               # 16-byte Spill
	movdqa	%xmm13, %xmm15
	pxor	%xmm12, %xmm15
	pxor	%xmm2, %xmm12
	movdqa	%xmm12, -64(%rsp)               # 16-byte Spill
	movdqa	%xmm2, -96(%rsp)                # 16-byte Spill
	pxor	%xmm0, %xmm10
	pxor	%xmm10, %xmm12
	pxor	-192(%r8), %xmm11
	pxor	-32(%rsp), %xmm3                # 16-byte Folded Reload
	pxor	%xmm11, %xmm3
	pxor	%xmm12, %xmm3
	movdqa	%xmm12, -16(%rsp)               # 16-byte Spill
	movdqa	%xmm3, %xmm14
	pxor	%xmm0, %xmm14
	pxor	%xmm7, %xmm3
	pxor	%xmm2, %xmm4
	movdqa	%xmm14, %xmm9
	pand	%xmm12, %xmm9
	movdqa	%xmm14, %xmm2
	pxor	%xmm5, %xmm2
	movdqa	%xmm5, %xmm7
	movdqa	%xmm2, %xmm0
	pxor	%xmm9, %xmm0
	pxor	%xmm3, %xmm9
	movdqa	%xmm3, %xmm8
	movdqa	%xmm6, 32(%rsp)                 # 16-byte Spill
	pxor	%xmm6, %xmm8
	movdqa	%xmm8, %xmm1
	pand	%xmm6, %xmm1
	movdqa	%xmm8, %xmm3
	movdqa	%xmm2, -32(%rsp)                # 16-byte Spill
	pxor	%xmm2, %xmm3
	movdqa	%xmm3, -48(%rsp)                # 16-byte Spill
	pand	%xmm10, %xmm3
	movdqa	%xmm4, -128(%rsp)               # 16-byte Spill
	pand	%xmm4, %xmm2
	pxor	%xmm1, %xmm3
	pxor	%xmm1, %xmm2
	movdqa	-112(%rsp), %xmm1               # 16-byte Reload
	movdqa	-80(%rsp), %xmm12               # 16-byte Reload
	pand	%xmm12, %xmm1
	pxor	%xmm4, %xmm1
	pxor	%xmm1, %xmm0
	movdqa	%xmm14, %xmm1
	pxor	%xmm12, %xmm1
	movdqa	%xmm15, (%rsp)                  # 16-byte Spill
	movdqa	%xmm15, %xmm5
	pxor	%xmm4, %xmm5
	movdqa	%xmm5, 16(%rsp)                 # 16-byte Spill
	movdqa	%xmm1, %xmm4
	pand	%xmm5, %xmm4
	pxor	%xmm4, %xmm9
	pxor	%xmm8, %xmm7
	movdqa	%xmm15, %xmm4
	pand	%xmm13, %xmm4
	movdqa	%xmm7, %xmm5
	movdqa	-64(%rsp), %xmm6                # 16-byte Reload
	pand	%xmm6, %xmm5
	pxor	%xmm3, %xmm9
	pxor	%xmm7, %xmm4
	pxor	%xmm5, %xmm4
	pxor	%xmm6, %xmm4
	pxor	%xmm3, %xmm4
	movdqa	%xmm13, %xmm11
	movdqa	-96(%rsp), %xmm3                # 16-byte Reload
	pxor	%xmm3, %xmm11
	pxor	%xmm3, %xmm5
	movdqa	%xmm8, %xmm3
	pxor	%xmm12, %xmm3
	movdqa	%xmm3, -96(%rsp)                # 16-byte Spill
	pand	%xmm11, %xmm3
	pxor	%xmm7, %xmm3
	pxor	%xmm3, %xmm5
	pxor	%xmm2, %xmm0
	pxor	%xmm2, %xmm5
	movdqa	%xmm4, %xmm15
	pand	%xmm9, %xmm15
	movdqa	%xmm15, %xmm3
	pxor	%xmm0, %xmm3
	movdqa	%xmm5, %xmm2
	pxor	%xmm4, %xmm2
	pand	%xmm3, %xmm2
	pxor	%xmm0, %xmm9
	movdqa	%xmm2, %xmm3
	pxor	%xmm15, %xmm2
	pxor	%xmm5, %xmm15
	movdqa	%xmm15, %xmm12
	pand	%xmm9, %xmm12
	pxor	%xmm0, %xmm12
	pxor	%xmm5, %xmm3
	pand	%xmm5, %xmm2
	pxor	%xmm2, %xmm15
	pand	%xmm12, %xmm15
	pxor	%xmm9, %xmm15
	pxor	%xmm4, %xmm2
	movdqa	-112(%rsp), %xmm0               # 16-byte Reload
	pand	%xmm3, %xmm0
	movdqa	%xmm0, -112(%rsp)               # 16-byte Spill
	movdqa	%xmm2, %xmm5
	pxor	%xmm3, %xmm5
	movdqa	%xmm12, %xmm6
	pxor	%xmm3, %xmm6
	pand	-80(%rsp), %xmm3                # 16-byte Folded Reload
	movdqa	%xmm15, %xmm9
	pxor	%xmm5, %xmm9
	pand	%xmm6, %xmm8
	movdqa	%xmm9, %xmm0
	pxor	%xmm6, %xmm0
	pand	32(%rsp), %xmm6                 # 16-byte Folded Reload
	movdqa	%xmm15, %xmm4
	pxor	%xmm12, %xmm4
	pand	%xmm4, %xmm7
	pand	-64(%rsp), %xmm4                # 16-byte Folded Reload
	pand	%xmm15, %xmm13
	pand	(%rsp), %xmm15                  # 16-byte Folded Reload
	pand	%xmm5, %xmm1
	pand	16(%rsp), %xmm5                 # 16-byte Folded Reload
	pand	%xmm0, %xmm10
	pand	-48(%rsp), %xmm0                # 16-byte Folded Reload
	pand	%xmm12, %xmm11
	pand	-96(%rsp), %xmm12               # 16-byte Folded Reload
	pand	%xmm2, %xmm14
	pand	-16(%rsp), %xmm2                # 16-byte Folded Reload
	pxor	%xmm14, %xmm1
	pxor	%xmm3, %xmm14
	pxor	%xmm7, %xmm13
	pxor	%xmm14, %xmm12
	pxor	%xmm7, %xmm12
	pxor	%xmm6, %xmm10
	pxor	%xmm10, %xmm5
	pxor	%xmm12, %xmm15
	pxor	%xmm10, %xmm15
	pxor	%xmm13, %xmm0
	pxor	%xmm13, %xmm1
	movdqa	-32(%rsp), %xmm3                # 16-byte Reload
	pand	%xmm9, %xmm3
	pxor	%xmm3, %xmm14
	pxor	%xmm4, %xmm14
	pxor	%xmm0, %xmm14
	pxor	%xmm8, %xmm0
	pxor	%xmm14, %xmm11
	pxor	%xmm15, %xmm14
	pxor	%xmm4, %xmm15
	pxor	%xmm5, %xmm2
	pxor	%xmm2, %xmm1
	pxor	-112(%rsp), %xmm5               # 16-byte Folded Reload
	movdqa	%xmm1, %xmm7
	pxor	%xmm0, %xmm7
	pxor	%xmm1, %xmm12
	pand	-128(%rsp), %xmm9               # 16-byte Folded Reload
	pxor	%xmm11, %xmm5
	pxor	%xmm0, %xmm2
	pxor	%xmm6, %xmm9
	pxor	%xmm0, %xmm9
	pxor	%xmm11, %xmm9
	pshufd	$57, %xmm15, %xmm10             # xmm10 = xmm15[1,2,3,0]
	pshufd	$57, %xmm14, %xmm8              # xmm8 = xmm14[1,2,3,0]
	pshufd	$57, %xmm2, %xmm0               # xmm0 = xmm2[1,2,3,0]
	pxor	%xmm10, %xmm15
	pxor	%xmm0, %xmm2
	pshufd	$78, %xmm15, %xmm3              # xmm3 = xmm15[2,3,0,1]
	pxor	-112(%r8), %xmm3
	pxor	%xmm2, %xmm10
	pxor	%xmm3, %xmm10
	pshufd	$57, %xmm5, %xmm3               # xmm3 = xmm5[1,2,3,0]
	pxor	%xmm8, %xmm14
	pxor	%xmm2, %xmm8
	pxor	%xmm15, %xmm8
	pshufd	$78, %xmm14, %xmm4              # xmm4 = xmm14[2,3,0,1]
	pxor	-96(%r8), %xmm4
	pxor	%xmm4, %xmm8
	pshufd	$57, %xmm12, %xmm4              # xmm4 = xmm12[1,2,3,0]
	pxor	%xmm3, %xmm5
	pxor	%xmm3, %xmm14
	pshufd	$78, %xmm5, %xmm3               # xmm3 = xmm5[2,3,0,1]
	pxor	-80(%r8), %xmm3
	pxor	%xmm3, %xmm14
	pshufd	$57, %xmm1, %xmm6               # xmm6 = xmm1[1,2,3,0]
	pxor	%xmm4, %xmm12
	pxor	%xmm6, %xmm1
	pxor	%xmm2, %xmm5
	pxor	%xmm4, %xmm5
	pshufd	$78, %xmm12, %xmm3              # xmm3 = xmm12[2,3,0,1]
	pxor	-64(%r8), %xmm3
	pxor	%xmm3, %xmm5
	pshufd	$78, %xmm2, %xmm3               # xmm3 = xmm2[2,3,0,1]
	pxor	%xmm6, %xmm2
	pshufd	$57, %xmm9, %xmm4               # xmm4 = xmm9[1,2,3,0]
	pxor	%xmm12, %xmm2
	pshufd	$78, %xmm1, %xmm6               # xmm6 = xmm1[2,3,0,1]
	pxor	-48(%r8), %xmm6
	pxor	%xmm6, %xmm2
	pshufd	$57, %xmm7, %xmm6               # xmm6 = xmm7[1,2,3,0]
	pxor	%xmm4, %xmm9
	pxor	%xmm6, %xmm7
	pxor	%xmm4, %xmm1
	pshufd	$78, %xmm9, %xmm4               # xmm4 = xmm9[2,3,0,1]
	pxor	-32(%r8), %xmm4
	pxor	%xmm4, %xmm1
	pshufd	$78, %xmm7, %xmm4               # xmm4 = xmm7[2,3,0,1]
	pxor	-16(%r8), %xmm4
	pxor	%xmm6, %xmm9
	pxor	%xmm4, %xmm9
	pxor	(%r8), %xmm3
	pxor	%xmm0, %xmm7
	pxor	%xmm3, %xmm7
	addq	$512, %r8                       # imm = 0x200
	decq	%rcx
	jne	Laes_v2_BB6_2
Laes_v2_BB6_3:                                # %after.3
	pxor	%xmm9, %xmm1
	movdqa	%xmm2, %xmm6
	pxor	%xmm7, %xmm6
	movdqa	%xmm10, %xmm12
	pxor	%xmm1, %xmm12
	movdqa	%xmm12, 48(%rsp)                # 16-byte Spill
	movdqa	%xmm12, %xmm0
	pxor	%xmm2, %xmm0
	movdqa	%xmm0, -128(%rsp)               # 16-byte Spill
	pxor	%xmm8, %xmm12
	pxor	%xmm7, %xmm8
	pxor	%xmm14, %xmm2
	movdqa	%xmm8, %xmm0
	pxor	%xmm2, %xmm0
	pxor	%xmm0, %xmm5
	movdqa	%xmm0, %xmm15
	movdqa	%xmm0, -32(%rsp)                # 16-byte Spill
	movdqa	%xmm5, %xmm0
	pxor	%xmm14, %xmm0
	pxor	%xmm9, %xmm5
	pxor	%xmm7, %xmm14
	movdqa	%xmm5, %xmm4
	movdqa	%xmm6, -48(%rsp)                # 16-byte Spill
	pxor	%xmm6, %xmm4
	movdqa	%xmm4, %xmm3
	movdqa	%xmm4, %xmm13
	pand	%xmm6, %xmm3
	movdqa	%xmm0, %xmm11
	pxor	%xmm1, %xmm11
	movdqa	%xmm4, %xmm6
	pxor	%xmm11, %xmm6
	movdqa	%xmm6, -16(%rsp)                # 16-byte Spill
	pand	%xmm2, %xmm6
	movdqa	%xmm11, %xmm9
	movdqa	%xmm11, -64(%rsp)               # 16-byte Spill
	pand	%xmm14, %xmm9
	pxor	%xmm3, %xmm6
	pxor	%xmm3, %xmm9
	movdqa	-128(%rsp), %xmm4               # 16-byte Reload
	pand	%xmm10, %xmm4
	movdqa	%xmm0, %xmm3
	pand	%xmm15, %xmm3
	pxor	%xmm14, %xmm4
	pxor	%xmm11, %xmm4
	pxor	%xmm3, %xmm4
	pxor	%xmm5, %xmm3
	movdqa	%xmm0, %xmm5
	pxor	%xmm10, %xmm5
	movdqa	%xmm5, -96(%rsp)                # 16-byte Spill
	movdqa	%xmm12, 32(%rsp)                # 16-byte Spill
	movdqa	%xmm12, %xmm15
	pxor	%xmm14, %xmm15
	movdqa	%xmm15, 16(%rsp)                # 16-byte Spill
	pand	%xmm15, %xmm5
	pxor	%xmm5, %xmm3
	movdqa	%xmm13, %xmm11
	movdqa	%xmm13, -80(%rsp)               # 16-byte Spill
	pxor	%xmm13, %xmm1
	movdqa	%xmm8, %xmm15
	movdqa	%xmm12, %xmm8
	movdqa	48(%rsp), %xmm5                 # 16-byte Reload
	pand	%xmm5, %xmm8
	movdqa	%xmm1, %xmm13
	movdqa	%xmm15, -112(%rsp)              # 16-byte Spill
	pand	%xmm15, %xmm13
	pxor	%xmm6, %xmm3
	pxor	%xmm1, %xmm8
	pxor	%xmm13, %xmm8
	pxor	%xmm15, %xmm8
	pxor	%xmm6, %xmm8
	movdqa	%xmm5, %xmm12
	movdqa	%xmm5, %xmm6
	pxor	%xmm7, %xmm12
	pxor	%xmm7, %xmm13
	movdqa	%xmm11, %xmm5
	pxor	%xmm10, %xmm5
	movdqa	%xmm5, (%rsp)                   # 16-byte Spill
	pand	%xmm12, %xmm5
	pxor	%xmm1, %xmm5
	pxor	%xmm5, %xmm13
	pxor	%xmm9, %xmm4
	pxor	%xmm9, %xmm13
	movdqa	%xmm8, %xmm15
	pand	%xmm3, %xmm15
	movdqa	%xmm15, %xmm5
	pxor	%xmm4, %xmm5
	movdqa	%xmm13, %xmm11
	pxor	%xmm8, %xmm11
	pand	%xmm5, %xmm11
	pxor	%xmm4, %xmm3
	movdqa	%xmm11, %xmm7
	pxor	%xmm15, %xmm11
	pxor	%xmm13, %xmm15
	movdqa	%xmm15, %xmm9
	pand	%xmm3, %xmm9
	pxor	%xmm4, %xmm9
	pxor	%xmm13, %xmm7
	pand	%xmm13, %xmm11
	pxor	%xmm11, %xmm15
	pand	%xmm9, %xmm15
	pxor	%xmm3, %xmm15
	pxor	%xmm8, %xmm11
	movdqa	-128(%rsp), %xmm3               # 16-byte Reload
	pand	%xmm7, %xmm3
	movdqa	%xmm3, -128(%rsp)               # 16-byte Spill
	movdqa	%xmm11, %xmm13
	pxor	%xmm7, %xmm13
	movdqa	%xmm9, %xmm4
	pxor	%xmm7, %xmm4
	pand	%xmm10, %xmm7
	movdqa	%xmm15, %xmm3
	pxor	%xmm13, %xmm3
	movdqa	-80(%rsp), %xmm5                # 16-byte Reload
	pand	%xmm4, %xmm5
	movdqa	%xmm5, -80(%rsp)                # 16-byte Spill
	movdqa	%xmm3, %xmm10
	pxor	%xmm4, %xmm10
	pand	-48(%rsp), %xmm4                # 16-byte Folded Reload
	movdqa	%xmm15, %xmm8
	pxor	%xmm9, %xmm8
	pand	%xmm8, %xmm1
	pand	-112(%rsp), %xmm8               # 16-byte Folded Reload
	pand	%xmm15, %xmm6
	pand	32(%rsp), %xmm15                # 16-byte Folded Reload
	movdqa	-96(%rsp), %xmm5                # 16-byte Reload
	pand	%xmm13, %xmm5
	pand	16(%rsp), %xmm13                # 16-byte Folded Reload
	pand	%xmm10, %xmm2
	pand	-16(%rsp), %xmm10               # 16-byte Folded Reload
	pand	%xmm9, %xmm12
	pand	(%rsp), %xmm9                   # 16-byte Folded Reload
	pand	%xmm11, %xmm0
	pand	-32(%rsp), %xmm11               # 16-byte Folded Reload
	pxor	%xmm0, %xmm5
	pxor	%xmm7, %xmm0
	pxor	%xmm1, %xmm6
	pxor	%xmm0, %xmm9
	pxor	%xmm1, %xmm9
	pxor	%xmm4, %xmm2
	pxor	%xmm2, %xmm13
	pxor	%xmm9, %xmm15
	pxor	%xmm2, %xmm15
	movdqa	-64(%rsp), %xmm7                # 16-byte Reload
	pand	%xmm3, %xmm7
	pxor	%xmm6, %xmm10
	pxor	%xmm13, %xmm11
	pxor	%xmm6, %xmm5
	pxor	%xmm7, %xmm0
	pxor	%xmm8, %xmm0
	pxor	%xmm10, %xmm0
	pxor	%xmm0, %xmm12
	pxor	%xmm11, %xmm5
	pxor	%xmm15, %xmm0
	pxor	-80(%rsp), %xmm10               # 16-byte Folded Reload
	movdqa	%xmm5, %xmm6
	pxor	%xmm10, %xmm6
	pxor	%xmm8, %xmm15
	pxor	-128(%rsp), %xmm13              # 16-byte Folded Reload
	pxor	%xmm5, %xmm9
	movdqa	%xmm5, %xmm2
	movdqa	%xmm5, -96(%rsp)                # 16-byte Spill
	pand	%xmm14, %xmm3
	pxor	%xmm12, %xmm13
	pxor	%xmm10, %xmm11
	pxor	%xmm4, %xmm3
	pxor	%xmm10, %xmm3
	pxor	%xmm12, %xmm3
	movdqa	l_aes_v2_CPI6_0(%rip), %xmm5           # xmm5 = [5,6,7,4,9,10,11,8,13,14,15,12,1,2,3,0]
	movdqa	%xmm15, %xmm7
	pshufb	%xmm5, %xmm7
	movdqa	%xmm0, %xmm12
	pshufb	%xmm5, %xmm12
	movdqa	%xmm13, %xmm1
	pshufb	%xmm5, %xmm1
	movdqa	%xmm9, %xmm8
	pshufb	%xmm5, %xmm8
	movdqa	%xmm2, %xmm14
	pshufb	%xmm5, %xmm14
	movdqa	%xmm3, %xmm4
	pshufb	%xmm5, %xmm4
	movdqa	%xmm6, %xmm2
	pshufb	%xmm5, %xmm2
	movdqa	%xmm11, %xmm10
	pshufb	%xmm5, %xmm10
	movdqa	%xmm10, -112(%rsp)              # 16-byte Spill
	movq	%rax, %rcx
	andq	$-4, %rcx
	pxor	%xmm7, %xmm15
	pxor	%xmm12, %xmm0
	pxor	%xmm10, %xmm11
	pxor	%xmm11, %xmm12
	pxor	%xmm15, %xmm12
	movdqa	l_aes_v2_CPI6_1(%rip), %xmm10          # xmm10 = [10,11,8,9,14,15,12,13,2,3,0,1,6,7,4,5]
	pshufb	%xmm10, %xmm15
	movq	%rcx, %r8
	shlq	$7, %r8
	pxor	128(%rdi,%r8), %xmm15
	pxor	%xmm11, %xmm7
	pxor	%xmm15, %xmm7
	movdqa	%xmm7, -128(%rsp)               # 16-byte Spill
	movdqa	%xmm12, %xmm15
	movdqa	%xmm0, %xmm12
	movdqa	%xmm0, %xmm5
	pshufb	%xmm10, %xmm5
	pxor	144(%rdi,%r8), %xmm5
	pxor	%xmm5, %xmm15
	pxor	%xmm1, %xmm13
	movdqa	%xmm13, %xmm5
	pshufb	%xmm10, %xmm5
	pxor	160(%rdi,%r8), %xmm5
	pxor	%xmm1, %xmm12
	pxor	%xmm5, %xmm12
	pxor	%xmm8, %xmm9
	movdqa	-96(%rsp), %xmm0                # 16-byte Reload
	pxor	%xmm14, %xmm0
	pxor	%xmm11, %xmm13
	pxor	%xmm8, %xmm13
	movdqa	%xmm11, %xmm1
	pxor	%xmm14, %xmm11
	pxor	%xmm4, %xmm3
	pxor	%xmm9, %xmm11
	pshufb	%xmm10, %xmm9
	pxor	176(%rdi,%r8), %xmm9
	pxor	%xmm9, %xmm13
	movdqa	%xmm0, %xmm5
	pshufb	%xmm10, %xmm5
	pxor	192(%rdi,%r8), %xmm5
	pxor	%xmm5, %xmm11
	movdqa	%xmm3, %xmm5
	pshufb	%xmm10, %xmm5
	pxor	208(%rdi,%r8), %xmm5
	pxor	%xmm4, %xmm0
	pxor	%xmm5, %xmm0
	movdqa	%xmm0, %xmm5
	pxor	%xmm2, %xmm6
	pxor	%xmm2, %xmm3
	movdqa	%xmm6, %xmm2
	pshufb	%xmm10, %xmm2
	pxor	224(%rdi,%r8), %xmm2
	pxor	%xmm2, %xmm3
	pshufb	%xmm10, %xmm1
	pxor	240(%rdi,%r8), %xmm1
	pxor	-112(%rsp), %xmm6               # 16-byte Folded Reload
	pxor	%xmm1, %xmm6
	movdqa	%xmm6, %xmm14
	orq	$2, %rcx
	cmpq	%rsi, %rcx
	jae	Laes_v2_BB6_5
# %bb.4:                                # %then.11
	pxor	%xmm3, %xmm5
	movdqa	%xmm14, %xmm7
	movdqa	%xmm14, %xmm2
	pxor	%xmm11, %xmm2
	movdqa	%xmm5, %xmm14
	movdqa	-128(%rsp), %xmm10              # 16-byte Reload
	pxor	%xmm10, %xmm14
	movdqa	%xmm14, 48(%rsp)                # 16-byte Spill
	pxor	%xmm11, %xmm14
	movdqa	%xmm14, %xmm4
	movdqa	%xmm14, -112(%rsp)              # 16-byte Spill
	movdqa	%xmm7, %xmm8
	pxor	%xmm15, %xmm8
	movdqa	%xmm8, -80(%rsp)                # 16-byte Spill
	pxor	%xmm12, %xmm11
	pxor	%xmm11, %xmm8
	pxor	%xmm8, %xmm13
	movdqa	%xmm8, -32(%rsp)                # 16-byte Spill
	movdqa	%xmm13, %xmm6
	pxor	%xmm12, %xmm6
	pxor	%xmm3, %xmm13
	pxor	%xmm7, %xmm12
	movdqa	%xmm12, -64(%rsp)               # 16-byte Spill
	movdqa	%xmm13, %xmm0
	movdqa	%xmm2, %xmm1
	movdqa	%xmm2, -48(%rsp)                # 16-byte Spill
	pxor	%xmm2, %xmm0
	movdqa	%xmm0, %xmm2
	movdqa	%xmm0, %xmm9
	pand	%xmm1, %xmm2
	movdqa	%xmm6, %xmm0
	pxor	%xmm5, %xmm0
	movdqa	%xmm9, %xmm1
	pxor	%xmm0, %xmm1
	movdqa	%xmm1, -16(%rsp)                # 16-byte Spill
	movdqa	%xmm0, %xmm3
	pand	%xmm11, %xmm1
	movdqa	%xmm0, -96(%rsp)                # 16-byte Spill
	pand	%xmm12, %xmm0
	pxor	%xmm2, %xmm1
	pxor	%xmm2, %xmm0
	pand	%xmm10, %xmm4
	movdqa	%xmm6, %xmm2
	pand	%xmm8, %xmm2
	pxor	%xmm12, %xmm4
	pxor	%xmm2, %xmm3
	pxor	%xmm4, %xmm3
	pxor	%xmm13, %xmm2
	movdqa	48(%rsp), %xmm14                # 16-byte Reload
	pxor	%xmm14, %xmm15
	movdqa	%xmm15, (%rsp)                  # 16-byte Spill
	movdqa	%xmm6, %xmm8
	pxor	%xmm10, %xmm8
	movdqa	%xmm10, %xmm13
	movdqa	%xmm15, %xmm10
	pxor	%xmm12, %xmm10
	movdqa	%xmm10, 16(%rsp)                # 16-byte Spill
	movdqa	%xmm8, %xmm4
	pand	%xmm10, %xmm4
	pxor	%xmm4, %xmm2
	movdqa	%xmm9, %xmm4
	pxor	%xmm9, %xmm5
	movdqa	%xmm15, %xmm9
	pand	%xmm14, %xmm9
	movdqa	%xmm5, %xmm12
	movdqa	-80(%rsp), %xmm10               # 16-byte Reload
	pand	%xmm10, %xmm5
	pxor	%xmm1, %xmm2
	pxor	%xmm12, %xmm9
	pxor	%xmm5, %xmm9
	pxor	%xmm10, %xmm9
	pxor	%xmm1, %xmm9
	movdqa	%xmm14, %xmm15
	pxor	%xmm7, %xmm15
	pxor	%xmm7, %xmm5
	movdqa	%xmm4, %xmm1
	movdqa	%xmm4, %xmm10
	pxor	%xmm13, %xmm1
	movdqa	%xmm1, 32(%rsp)                 # 16-byte Spill
	pand	%xmm15, %xmm1
	pxor	%xmm12, %xmm1
	pxor	%xmm1, %xmm5
	pxor	%xmm0, %xmm3
	pxor	%xmm0, %xmm5
	movdqa	%xmm9, %xmm13
	pand	%xmm2, %xmm13
	movdqa	%xmm13, %xmm1
	pxor	%xmm3, %xmm1
	movdqa	%xmm5, %xmm0
	pxor	%xmm9, %xmm0
	pand	%xmm1, %xmm0
	pxor	%xmm3, %xmm2
	movdqa	%xmm0, %xmm1
	pxor	%xmm13, %xmm0
	pxor	%xmm5, %xmm13
	movdqa	%xmm13, %xmm4
	pand	%xmm2, %xmm4
	pxor	%xmm3, %xmm4
	pxor	%xmm5, %xmm1
	pand	%xmm5, %xmm0
	pxor	%xmm0, %xmm13
	pand	%xmm4, %xmm13
	pxor	%xmm2, %xmm13
	pxor	%xmm9, %xmm0
	movdqa	-112(%rsp), %xmm2               # 16-byte Reload
	pand	%xmm1, %xmm2
	movdqa	%xmm2, -112(%rsp)               # 16-byte Spill
	movdqa	%xmm0, %xmm9
	pxor	%xmm1, %xmm9
	movdqa	%xmm4, %xmm7
	pxor	%xmm1, %xmm7
	pand	-128(%rsp), %xmm1               # 16-byte Folded Reload
	movdqa	%xmm13, %xmm2
	pxor	%xmm9, %xmm2
	pand	%xmm7, %xmm10
	movdqa	%xmm10, -128(%rsp)              # 16-byte Spill
	movdqa	%xmm2, %xmm10
	pxor	%xmm7, %xmm10
	pand	-48(%rsp), %xmm7                # 16-byte Folded Reload
	movdqa	%xmm13, %xmm3
	pxor	%xmm4, %xmm3
	pand	%xmm3, %xmm12
	pand	-80(%rsp), %xmm3                # 16-byte Folded Reload
	pand	%xmm13, %xmm14
	pand	(%rsp), %xmm13                  # 16-byte Folded Reload
	pand	%xmm9, %xmm8
	pand	16(%rsp), %xmm9                 # 16-byte Folded Reload
	pand	%xmm10, %xmm11
	pand	-16(%rsp), %xmm10               # 16-byte Folded Reload
	pand	%xmm4, %xmm15
	pand	32(%rsp), %xmm4                 # 16-byte Folded Reload
	pand	%xmm0, %xmm6
	pand	-32(%rsp), %xmm0                # 16-byte Folded Reload
	pxor	%xmm6, %xmm8
	pxor	%xmm1, %xmm6
	pxor	%xmm12, %xmm14
	pxor	%xmm6, %xmm4
	pxor	%xmm12, %xmm4
	pxor	%xmm7, %xmm11
	pxor	%xmm11, %xmm9
	pxor	%xmm4, %xmm13
	pxor	%xmm11, %xmm13
	pxor	%xmm14, %xmm10
	pxor	%xmm14, %xmm8
	movdqa	-96(%rsp), %xmm1                # 16-byte Reload
	pand	%xmm2, %xmm1
	pxor	%xmm9, %xmm0
	movdqa	%xmm6, %xmm5
	pxor	%xmm1, %xmm5
	pxor	%xmm3, %xmm5
	pxor	%xmm10, %xmm5
	pxor	%xmm5, %xmm15
	pxor	%xmm0, %xmm8
	pxor	%xmm13, %xmm5
	pxor	-128(%rsp), %xmm10              # 16-byte Folded Reload
	movdqa	%xmm8, %xmm6
	pxor	%xmm10, %xmm6
	pxor	%xmm3, %xmm13
	pxor	-112(%rsp), %xmm9               # 16-byte Folded Reload
	pxor	%xmm8, %xmm4
	pand	-64(%rsp), %xmm2                # 16-byte Folded Reload
	pxor	%xmm15, %xmm9
	pxor	%xmm10, %xmm0
	pxor	%xmm7, %xmm2
	pxor	%xmm10, %xmm2
	pxor	%xmm15, %xmm2
	movdqa	l_aes_v2_CPI6_2(%rip), %xmm14          # xmm14 = [6,7,4,5,10,11,8,9,14,15,12,13,2,3,0,1]
	movdqa	%xmm13, %xmm10
	pshufb	%xmm14, %xmm10
	movdqa	%xmm5, %xmm1
	pshufb	%xmm14, %xmm1
	movdqa	%xmm9, %xmm12
	pshufb	%xmm14, %xmm12
	movdqa	%xmm4, %xmm3
	pshufb	%xmm14, %xmm3
	movdqa	%xmm3, -112(%rsp)               # 16-byte Spill
	movdqa	%xmm8, %xmm11
	pshufb	%xmm14, %xmm11
	movdqa	%xmm2, %xmm15
	pshufb	%xmm14, %xmm15
	movdqa	%xmm6, %xmm7
	pshufb	%xmm14, %xmm7
	movdqa	%xmm0, %xmm3
	pshufb	%xmm14, %xmm3
	pxor	%xmm10, %xmm13
	pxor	%xmm3, %xmm0
	shlq	$7, %rax
	pshufd	$78, %xmm13, %xmm14             # xmm14 = xmm13[2,3,0,1]
	pxor	(%rdi,%rax), %xmm14
	pxor	%xmm0, %xmm10
	pxor	%xmm14, %xmm10
	pxor	%xmm1, %xmm5
	pxor	%xmm0, %xmm1
	pxor	%xmm13, %xmm1
	pshufd	$78, %xmm5, %xmm13              # xmm13 = xmm5[2,3,0,1]
	pxor	16(%rdi,%rax), %xmm13
	pxor	%xmm13, %xmm1
	pxor	%xmm12, %xmm9
	pxor	-112(%rsp), %xmm4               # 16-byte Folded Reload
	pxor	%xmm11, %xmm8
	pxor	%xmm15, %xmm2
	pxor	%xmm12, %xmm5
	pshufd	$78, %xmm9, %xmm12              # xmm12 = xmm9[2,3,0,1]
	pxor	32(%rdi,%rax), %xmm12
	pxor	%xmm7, %xmm6
	pxor	%xmm12, %xmm5
	pshufd	$78, %xmm4, %xmm12              # xmm12 = xmm4[2,3,0,1]
	pxor	%xmm0, %xmm11
	pxor	%xmm4, %xmm11
	pshufd	$78, %xmm8, %xmm4               # xmm4 = xmm8[2,3,0,1]
	pxor	64(%rdi,%rax), %xmm4
	pxor	%xmm4, %xmm11
	pshufd	$78, %xmm2, %xmm4               # xmm4 = xmm2[2,3,0,1]
	pxor	%xmm7, %xmm2
	pshufd	$78, %xmm6, %xmm7               # xmm7 = xmm6[2,3,0,1]
	pxor	96(%rdi,%rax), %xmm7
	pxor	%xmm7, %xmm2
	pshufd	$78, %xmm0, %xmm7               # xmm7 = xmm0[2,3,0,1]
	pxor	112(%rdi,%rax), %xmm7
	pxor	%xmm3, %xmm6
	pxor	%xmm7, %xmm6
	pxor	80(%rdi,%rax), %xmm4
	pxor	%xmm15, %xmm8
	pxor	%xmm4, %xmm8
	pxor	%xmm2, %xmm8
	movdqa	%xmm6, %xmm4
	pxor	%xmm11, %xmm4
	movdqa	%xmm8, %xmm15
	pxor	%xmm10, %xmm15
	movdqa	%xmm15, %xmm3
	pxor	%xmm11, %xmm3
	movdqa	%xmm3, -128(%rsp)               # 16-byte Spill
	movdqa	%xmm6, %xmm14
	pxor	%xmm1, %xmm14
	movdqa	%xmm1, %xmm13
	movdqa	%xmm5, %xmm1
	pxor	%xmm5, %xmm11
	pxor	%xmm9, %xmm0
	movdqa	%xmm14, %xmm3
	pxor	%xmm11, %xmm3
	pxor	48(%rdi,%rax), %xmm12
	pxor	-112(%rsp), %xmm0               # 16-byte Folded Reload
	pxor	%xmm12, %xmm0
	pxor	%xmm3, %xmm0
	movdqa	%xmm3, -80(%rsp)                # 16-byte Spill
	movdqa	%xmm0, %xmm7
	pxor	%xmm5, %xmm7
	pxor	%xmm2, %xmm0
	pxor	%xmm6, %xmm1
	movdqa	%xmm1, %xmm2
	movdqa	%xmm7, %xmm9
	pand	%xmm3, %xmm9
	movdqa	%xmm7, %xmm1
	movdqa	%xmm7, -112(%rsp)               # 16-byte Spill
	pxor	%xmm8, %xmm1
	movdqa	%xmm1, -64(%rsp)                # 16-byte Spill
	movdqa	%xmm1, %xmm3
	pxor	%xmm9, %xmm3
	pxor	%xmm0, %xmm9
	movdqa	%xmm0, %xmm5
	movdqa	%xmm4, -48(%rsp)                # 16-byte Spill
	pxor	%xmm4, %xmm5
	movdqa	%xmm5, %xmm0
	pand	%xmm4, %xmm0
	movdqa	%xmm5, %xmm4
	pxor	%xmm1, %xmm4
	movdqa	%xmm4, -16(%rsp)                # 16-byte Spill
	pand	%xmm11, %xmm4
	movdqa	%xmm2, -96(%rsp)                # 16-byte Spill
	pand	%xmm2, %xmm1
	pxor	%xmm0, %xmm4
	pxor	%xmm0, %xmm1
	movdqa	-128(%rsp), %xmm0               # 16-byte Reload
	pand	%xmm10, %xmm0
	pxor	%xmm2, %xmm0
	pxor	%xmm0, %xmm3
	pxor	%xmm15, %xmm13
	movdqa	%xmm13, 16(%rsp)                # 16-byte Spill
	pxor	%xmm10, %xmm7
	movdqa	%xmm13, %xmm0
	pxor	%xmm2, %xmm0
	movdqa	%xmm0, %xmm12
	movdqa	%xmm0, -32(%rsp)                # 16-byte Spill
	movdqa	%xmm7, %xmm0
	pand	%xmm12, %xmm0
	pxor	%xmm0, %xmm9
	pxor	%xmm5, %xmm8
	movdqa	%xmm13, %xmm0
	pand	%xmm15, %xmm0
	movdqa	%xmm8, %xmm2
	movdqa	%xmm14, (%rsp)                  # 16-byte Spill
	pand	%xmm14, %xmm2
	pxor	%xmm4, %xmm9
	pxor	%xmm8, %xmm0
	pxor	%xmm2, %xmm0
	pxor	%xmm14, %xmm0
	pxor	%xmm4, %xmm0
	movdqa	%xmm15, %xmm14
	pxor	%xmm6, %xmm14
	pxor	%xmm6, %xmm2
	movdqa	%xmm5, %xmm4
	pxor	%xmm10, %xmm4
	movdqa	%xmm4, 32(%rsp)                 # 16-byte Spill
	pand	%xmm14, %xmm4
	pxor	%xmm8, %xmm4
	pxor	%xmm4, %xmm2
	pxor	%xmm1, %xmm3
	pxor	%xmm1, %xmm2
	movdqa	%xmm0, %xmm12
	pand	%xmm9, %xmm12
	movdqa	%xmm12, %xmm1
	pxor	%xmm3, %xmm1
	movdqa	%xmm2, %xmm4
	pxor	%xmm0, %xmm4
	pand	%xmm1, %xmm4
	pxor	%xmm3, %xmm9
	movdqa	%xmm4, %xmm1
	pxor	%xmm12, %xmm4
	pxor	%xmm2, %xmm12
	movdqa	%xmm12, %xmm13
	pand	%xmm9, %xmm13
	pxor	%xmm3, %xmm13
	pxor	%xmm2, %xmm1
	pand	%xmm2, %xmm4
	pxor	%xmm4, %xmm12
	pand	%xmm13, %xmm12
	pxor	%xmm9, %xmm12
	pxor	%xmm0, %xmm4
	movdqa	-128(%rsp), %xmm0               # 16-byte Reload
	pand	%xmm1, %xmm0
	movdqa	%xmm0, -128(%rsp)               # 16-byte Spill
	movdqa	%xmm4, %xmm9
	pxor	%xmm1, %xmm9
	movdqa	%xmm13, %xmm3
	pxor	%xmm1, %xmm3
	pand	%xmm10, %xmm1
	movdqa	%xmm12, %xmm6
	pxor	%xmm9, %xmm6
	pand	%xmm3, %xmm5
	movdqa	%xmm5, 48(%rsp)                 # 16-byte Spill
	movdqa	%xmm6, %xmm10
	pxor	%xmm3, %xmm10
	pand	-48(%rsp), %xmm3                # 16-byte Folded Reload
	movdqa	%xmm12, %xmm2
	pxor	%xmm13, %xmm2
	pand	%xmm2, %xmm8
	pand	(%rsp), %xmm2                   # 16-byte Folded Reload
	pand	%xmm12, %xmm15
	pand	16(%rsp), %xmm12                # 16-byte Folded Reload
	pand	%xmm9, %xmm7
	pand	-32(%rsp), %xmm9                # 16-byte Folded Reload
	pand	%xmm10, %xmm11
	pand	-16(%rsp), %xmm10               # 16-byte Folded Reload
	pand	%xmm13, %xmm14
	pand	32(%rsp), %xmm13                # 16-byte Folded Reload
	movdqa	-112(%rsp), %xmm5               # 16-byte Reload
	pand	%xmm4, %xmm5
	pand	-80(%rsp), %xmm4                # 16-byte Folded Reload
	pxor	%xmm5, %xmm7
	pxor	%xmm1, %xmm5
	pxor	%xmm8, %xmm15
	pxor	%xmm5, %xmm13
	pxor	%xmm8, %xmm13
	pxor	%xmm3, %xmm11
	pxor	%xmm11, %xmm9
	pxor	%xmm13, %xmm12
	pxor	%xmm11, %xmm12
	pxor	%xmm15, %xmm10
	pxor	%xmm15, %xmm7
	movdqa	-64(%rsp), %xmm0                # 16-byte Reload
	pand	%xmm6, %xmm0
	pxor	%xmm9, %xmm4
	pxor	%xmm0, %xmm5
	pxor	%xmm2, %xmm5
	pxor	%xmm10, %xmm5
	pxor	%xmm5, %xmm14
	pxor	%xmm4, %xmm7
	pxor	%xmm12, %xmm5
	pxor	48(%rsp), %xmm10                # 16-byte Folded Reload
	movdqa	%xmm7, %xmm0
	pxor	%xmm10, %xmm0
	pxor	%xmm2, %xmm12
	pxor	-128(%rsp), %xmm9               # 16-byte Folded Reload
	pxor	%xmm7, %xmm13
	pand	-96(%rsp), %xmm6                # 16-byte Folded Reload
	pxor	%xmm14, %xmm9
	pxor	%xmm10, %xmm4
	pxor	%xmm3, %xmm6
	pxor	%xmm10, %xmm6
	pxor	%xmm14, %xmm6
	movdqa	l_aes_v2_CPI6_3(%rip), %xmm8           # xmm8 = [7,4,5,6,11,8,9,10,15,12,13,14,3,0,1,2]
	movdqa	%xmm12, %xmm1
	pshufb	%xmm8, %xmm1
	movdqa	%xmm1, %xmm2
	movdqa	%xmm5, %xmm1
	pshufb	%xmm8, %xmm5
	movdqa	%xmm9, %xmm3
	pshufb	%xmm8, %xmm3
	movdqa	%xmm3, -80(%rsp)                # 16-byte Spill
	movdqa	%xmm13, %xmm10
	pshufb	%xmm8, %xmm10
	movdqa	%xmm10, -96(%rsp)               # 16-byte Spill
	movdqa	%xmm7, %xmm10
	pshufb	%xmm8, %xmm7
	movdqa	%xmm6, %xmm11
	pshufb	%xmm8, %xmm11
	movdqa	%xmm11, %xmm15
	movdqa	%xmm11, -48(%rsp)               # 16-byte Spill
	movdqa	%xmm0, %xmm11
	pshufb	%xmm8, %xmm11
	movdqa	%xmm11, %xmm14
	movdqa	%xmm11, -32(%rsp)               # 16-byte Spill
	movdqa	%xmm4, %xmm11
	pshufb	%xmm8, %xmm11
	movdqa	%xmm11, -128(%rsp)              # 16-byte Spill
	pxor	%xmm2, %xmm12
	pxor	%xmm5, %xmm1
	movdqa	%xmm1, -112(%rsp)               # 16-byte Spill
	pxor	%xmm3, %xmm9
	pxor	%xmm7, %xmm10
	movdqa	%xmm10, -64(%rsp)               # 16-byte Spill
	pxor	%xmm11, %xmm4
	pxor	%xmm4, %xmm2
	movdqa	%xmm2, -16(%rsp)                # 16-byte Spill
	pxor	%xmm4, %xmm5
	movdqa	%xmm9, %xmm10
	pxor	%xmm4, %xmm9
	movdqa	%xmm4, %xmm8
	pxor	%xmm7, %xmm4
	movdqa	-96(%rsp), %xmm3                # 16-byte Reload
	pxor	%xmm3, %xmm13
	pxor	%xmm15, %xmm6
	movdqa	%xmm0, %xmm15
	pxor	%xmm14, %xmm15
	movdqa	%xmm15, 16(%rsp)                # 16-byte Spill
	pxor	%xmm12, %xmm5
	movdqa	l_aes_v2_CPI6_1(%rip), %xmm0           # xmm0 = [10,11,8,9,14,15,12,13,2,3,0,1,6,7,4,5]
	pshufb	%xmm0, %xmm12
	movdqa	%xmm1, %xmm7
	pshufb	%xmm0, %xmm7
	pshufb	%xmm0, %xmm10
	pxor	%xmm13, %xmm4
	pshufb	%xmm0, %xmm13
	movdqa	-64(%rsp), %xmm2                # 16-byte Reload
	movdqa	%xmm2, %xmm11
	pshufb	%xmm0, %xmm11
	movdqa	%xmm6, %xmm14
	pshufb	%xmm0, %xmm14
	movdqa	%xmm15, %xmm1
	pshufb	%xmm0, %xmm1
	shlq	$7, %rsi
	pxor	-128(%rdi,%rsi), %xmm12
	pshufb	%xmm0, %xmm8
	movdqa	-112(%rsp), %xmm0               # 16-byte Reload
	movdqa	-16(%rsp), %xmm15               # 16-byte Reload
	pxor	%xmm12, %xmm15
	movdqa	%xmm15, %xmm12
	pxor	-112(%rdi,%rsi), %xmm7
	pxor	%xmm7, %xmm5
	pxor	-80(%rsp), %xmm0                # 16-byte Folded Reload
	pxor	-96(%rdi,%rsi), %xmm10
	pxor	%xmm10, %xmm0
	movdqa	%xmm2, %xmm10
	pxor	%xmm3, %xmm9
	pxor	-80(%rdi,%rsi), %xmm13
	pxor	%xmm13, %xmm9
	pxor	-64(%rdi,%rsi), %xmm11
	pxor	%xmm11, %xmm4
	pxor	-48(%rsp), %xmm10               # 16-byte Folded Reload
	pxor	-48(%rdi,%rsi), %xmm14
	pxor	%xmm14, %xmm10
	pxor	-32(%rsp), %xmm6                # 16-byte Folded Reload
	pxor	-32(%rdi,%rsi), %xmm1
	pxor	%xmm1, %xmm6
	movdqa	16(%rsp), %xmm15                # 16-byte Reload
	pxor	-128(%rsp), %xmm15              # 16-byte Folded Reload
	pxor	-16(%rdi,%rsi), %xmm8
	pxor	%xmm8, %xmm15
	jmp	Laes_v2_BB6_6
Laes_v2_BB6_5:                                # %else.12
	movdqa	-128(%rsp), %xmm0               # 16-byte Reload
	movdqa	%xmm0, %xmm8
	psrld	$16, %xmm8
	pxor	%xmm0, %xmm8
	pxor	%xmm1, %xmm1
	pblendw	$187, %xmm1, %xmm8              # xmm8 = xmm1[0,1],xmm8[2],xmm1[3,4,5],xmm8[6],xmm1[7]
	movdqa	%xmm15, %xmm2
	psrld	$16, %xmm2
	pxor	%xmm15, %xmm2
	pblendw	$187, %xmm1, %xmm2              # xmm2 = xmm1[0,1],xmm2[2],xmm1[3,4,5],xmm2[6],xmm1[7]
	movdqa	%xmm12, %xmm0
	psrld	$16, %xmm0
	pxor	%xmm12, %xmm0
	pblendw	$187, %xmm1, %xmm0              # xmm0 = xmm1[0,1],xmm0[2],xmm1[3,4,5],xmm0[6],xmm1[7]
	movdqa	%xmm13, %xmm9
	psrld	$16, %xmm9
	pxor	%xmm13, %xmm9
	pblendw	$187, %xmm1, %xmm9              # xmm9 = xmm1[0,1],xmm9[2],xmm1[3,4,5],xmm9[6],xmm1[7]
	movdqa	%xmm11, %xmm4
	psrld	$16, %xmm4
	pxor	%xmm11, %xmm4
	pblendw	$187, %xmm1, %xmm4              # xmm4 = xmm1[0,1],xmm4[2],xmm1[3,4,5],xmm4[6],xmm1[7]
	movdqa	%xmm5, %xmm10
	psrld	$16, %xmm10
	pxor	%xmm5, %xmm10
	pblendw	$187, %xmm1, %xmm10             # xmm10 = xmm1[0,1],xmm10[2],xmm1[3,4,5],xmm10[6],xmm1[7]
	movdqa	%xmm3, %xmm6
	psrld	$16, %xmm6
	pxor	%xmm3, %xmm6
	pblendw	$187, %xmm1, %xmm6              # xmm6 = xmm1[0,1],xmm6[2],xmm1[3,4,5],xmm6[6],xmm1[7]
	movdqa	%xmm14, %xmm7
	psrld	$16, %xmm7
	pxor	%xmm14, %xmm7
	pblendw	$187, %xmm1, %xmm7              # xmm7 = xmm1[0,1],xmm7[2],xmm1[3,4,5],xmm7[6],xmm1[7]
	pxor	%xmm6, %xmm3
	pslldq	$2, %xmm6                       # xmm6 = zero,zero,xmm6[0,1,2,3,4,5,6,7,8,9,10,11,12,13]
	pxor	%xmm3, %xmm6
	pxor	%xmm10, %xmm5
	pslldq	$2, %xmm10                      # xmm10 = zero,zero,xmm10[0,1,2,3,4,5,6,7,8,9,10,11,12,13]
	pxor	%xmm5, %xmm10
	movdqa	%xmm4, %xmm1
	pxor	%xmm11, %xmm4
	pslldq	$2, %xmm1                       # xmm1 = zero,zero,xmm1[0,1,2,3,4,5,6,7,8,9,10,11,12,13]
	pxor	%xmm1, %xmm4
	movdqa	%xmm9, %xmm1
	pxor	%xmm13, %xmm9
	pslldq	$2, %xmm1                       # xmm1 = zero,zero,xmm1[0,1,2,3,4,5,6,7,8,9,10,11,12,13]
	pxor	%xmm1, %xmm9
	movdqa	%xmm0, %xmm1
	pxor	%xmm12, %xmm0
	pslldq	$2, %xmm1                       # xmm1 = zero,zero,xmm1[0,1,2,3,4,5,6,7,8,9,10,11,12,13]
	pxor	%xmm1, %xmm0
	movdqa	%xmm2, %xmm1
	pxor	%xmm15, %xmm2
	movdqa	%xmm7, %xmm15
	pslldq	$2, %xmm1                       # xmm1 = zero,zero,xmm1[0,1,2,3,4,5,6,7,8,9,10,11,12,13]
	pxor	%xmm1, %xmm2
	movdqa	%xmm2, %xmm5
	movdqa	%xmm8, %xmm1
	pxor	-128(%rsp), %xmm8               # 16-byte Folded Reload
	pslldq	$2, %xmm1                       # xmm1 = zero,zero,xmm1[0,1,2,3,4,5,6,7,8,9,10,11,12,13]
	pxor	%xmm1, %xmm8
	movdqa	%xmm8, %xmm12
	movdqa	%xmm7, %xmm1
	pxor	%xmm14, %xmm15
	pslldq	$2, %xmm1                       # xmm1 = zero,zero,xmm1[0,1,2,3,4,5,6,7,8,9,10,11,12,13]
	pxor	%xmm1, %xmm15
	shlq	$7, %rsi
Laes_v2_BB6_6:                                # %join.13
	pxor	%xmm6, %xmm10
	movdqa	%xmm4, %xmm8
	pxor	%xmm15, %xmm8
	movdqa	%xmm12, %xmm14
	movdqa	%xmm12, %xmm7
	pxor	%xmm10, %xmm7
	movdqa	%xmm7, %xmm1
	pxor	%xmm4, %xmm1
	movdqa	%xmm1, %xmm3
	movdqa	%xmm1, -128(%rsp)               # 16-byte Spill
	movdqa	%xmm7, %xmm13
	pxor	%xmm5, %xmm13
	pxor	%xmm15, %xmm5
	movdqa	%xmm5, -80(%rsp)                # 16-byte Spill
	pxor	%xmm0, %xmm4
	pxor	%xmm4, %xmm5
	pxor	%xmm5, %xmm9
	movdqa	%xmm5, %xmm2
	movdqa	%xmm5, -32(%rsp)                # 16-byte Spill
	movdqa	%xmm9, %xmm5
	pxor	%xmm0, %xmm5
	pxor	%xmm6, %xmm9
	pxor	%xmm15, %xmm0
	movdqa	%xmm9, %xmm12
	movdqa	%xmm8, %xmm1
	movdqa	%xmm8, -48(%rsp)                # 16-byte Spill
	pxor	%xmm8, %xmm12
	movdqa	%xmm0, %xmm8
	movdqa	%xmm0, -112(%rsp)               # 16-byte Spill
	movdqa	%xmm12, %xmm0
	pand	%xmm1, %xmm0
	movdqa	%xmm5, %xmm1
	pxor	%xmm10, %xmm1
	movdqa	%xmm12, %xmm6
	pxor	%xmm1, %xmm6
	movdqa	%xmm6, -64(%rsp)                # 16-byte Spill
	movdqa	%xmm1, %xmm11
	movdqa	%xmm4, %xmm1
	movdqa	%xmm4, -16(%rsp)                # 16-byte Spill
	movdqa	%xmm6, %xmm4
	pand	%xmm1, %xmm4
	movdqa	%xmm11, %xmm1
	movdqa	%xmm11, -96(%rsp)               # 16-byte Spill
	pand	%xmm8, %xmm1
	pxor	%xmm0, %xmm4
	pxor	%xmm0, %xmm1
	pand	%xmm14, %xmm3
	movdqa	%xmm5, %xmm0
	pand	%xmm2, %xmm0
	pxor	%xmm8, %xmm3
	movdqa	%xmm11, %xmm2
	pxor	%xmm0, %xmm2
	pxor	%xmm3, %xmm2
	pxor	%xmm9, %xmm0
	movdqa	%xmm5, %xmm9
	pxor	%xmm14, %xmm9
	movdqa	%xmm13, 32(%rsp)                # 16-byte Spill
	movdqa	%xmm13, %xmm6
	pxor	%xmm8, %xmm6
	movdqa	%xmm6, 16(%rsp)                 # 16-byte Spill
	movdqa	%xmm9, %xmm3
	pand	%xmm6, %xmm3
	pxor	%xmm3, %xmm0
	pxor	%xmm12, %xmm10
	movdqa	%xmm13, %xmm3
	pand	%xmm7, %xmm3
	movdqa	%xmm10, %xmm11
	movdqa	-80(%rsp), %xmm6                # 16-byte Reload
	pand	%xmm6, %xmm10
	pxor	%xmm4, %xmm0
	pxor	%xmm11, %xmm3
	pxor	%xmm10, %xmm3
	pxor	%xmm6, %xmm3
	pxor	%xmm4, %xmm3
	movdqa	%xmm7, %xmm13
	pxor	%xmm15, %xmm13
	pxor	%xmm15, %xmm10
	movdqa	%xmm12, %xmm6
	pxor	%xmm14, %xmm6
	movdqa	%xmm6, (%rsp)                   # 16-byte Spill
	pand	%xmm13, %xmm6
	pxor	%xmm11, %xmm6
	pxor	%xmm6, %xmm10
	pxor	%xmm1, %xmm2
	pxor	%xmm1, %xmm10
	movdqa	%xmm3, %xmm8
	pand	%xmm0, %xmm8
	movdqa	%xmm8, %xmm1
	pxor	%xmm2, %xmm1
	movdqa	%xmm10, %xmm15
	pxor	%xmm3, %xmm15
	pand	%xmm1, %xmm15
	pxor	%xmm2, %xmm0
	movdqa	%xmm15, %xmm6
	pxor	%xmm8, %xmm15
	pxor	%xmm10, %xmm8
	movdqa	%xmm8, %xmm1
	pand	%xmm0, %xmm1
	pxor	%xmm2, %xmm1
	pxor	%xmm10, %xmm6
	pand	%xmm10, %xmm15
	pxor	%xmm15, %xmm8
	pand	%xmm1, %xmm8
	pxor	%xmm0, %xmm8
	pxor	%xmm3, %xmm15
	movdqa	-128(%rsp), %xmm0               # 16-byte Reload
	pand	%xmm6, %xmm0
	movdqa	%xmm0, -128(%rsp)               # 16-byte Spill
	movdqa	%xmm15, %xmm3
	pxor	%xmm6, %xmm3
	movdqa	%xmm1, %xmm10
	pxor	%xmm6, %xmm10
	pand	%xmm14, %xmm6
	movdqa	%xmm8, %xmm2
	pxor	%xmm3, %xmm2
	pand	%xmm10, %xmm12
	movdqa	%xmm2, %xmm0
	pxor	%xmm10, %xmm0
	pand	-48(%rsp), %xmm10               # 16-byte Folded Reload
	movdqa	%xmm8, %xmm14
	pxor	%xmm1, %xmm14
	pand	%xmm14, %xmm11
	pand	-80(%rsp), %xmm14               # 16-byte Folded Reload
	pand	%xmm8, %xmm7
	pand	32(%rsp), %xmm8                 # 16-byte Folded Reload
	pand	%xmm3, %xmm9
	pand	16(%rsp), %xmm3                 # 16-byte Folded Reload
	movdqa	-16(%rsp), %xmm4                # 16-byte Reload
	pand	%xmm0, %xmm4
	pand	-64(%rsp), %xmm0                # 16-byte Folded Reload
	pand	%xmm1, %xmm13
	pand	(%rsp), %xmm1                   # 16-byte Folded Reload
	pand	%xmm15, %xmm5
	pand	-32(%rsp), %xmm15               # 16-byte Folded Reload
	pxor	%xmm5, %xmm9
	pxor	%xmm6, %xmm5
	pxor	%xmm11, %xmm7
	pxor	%xmm5, %xmm1
	pxor	%xmm11, %xmm1
	pxor	%xmm10, %xmm4
	pxor	%xmm4, %xmm3
	pxor	%xmm1, %xmm8
	pxor	%xmm4, %xmm8
	pxor	%xmm7, %xmm0
	pxor	%xmm7, %xmm9
	movdqa	-96(%rsp), %xmm4                # 16-byte Reload
	pand	%xmm2, %xmm4
	pxor	%xmm4, %xmm5
	pxor	%xmm14, %xmm5
	pxor	%xmm0, %xmm5
	pxor	%xmm12, %xmm0
	pand	-112(%rsp), %xmm2               # 16-byte Folded Reload
	pxor	%xmm5, %xmm13
	pxor	(%rdi,%rsi), %xmm14
	pxor	16(%rdi,%rsi), %xmm5
	pxor	%xmm8, %xmm14
	pxor	%xmm8, %xmm5
	movdqa	-128(%rsp), %xmm4               # 16-byte Reload
	pxor	32(%rdi,%rsi), %xmm4
	pxor	%xmm3, %xmm15
	pxor	%xmm3, %xmm4
	pxor	%xmm15, %xmm9
	pxor	%xmm13, %xmm4
	pxor	48(%rdi,%rsi), %xmm1
	pxor	%xmm9, %xmm1
	pxor	%xmm0, %xmm10
	pxor	%xmm13, %xmm10
	movdqa	64(%rdi,%rsi), %xmm3
	pxor	80(%rdi,%rsi), %xmm2
	pxor	%xmm9, %xmm3
	pxor	%xmm2, %xmm10
	movdqa	96(%rdi,%rsi), %xmm2
	pxor	%xmm0, %xmm2
	pxor	%xmm9, %xmm2
	pxor	112(%rdi,%rsi), %xmm0
	pxor	%xmm15, %xmm0
	movdqu	%xmm14, (%rdx)
	movdqu	%xmm5, 16(%rdx)
	movdqu	%xmm4, 32(%rdx)
	movdqu	%xmm1, 48(%rdx)
	movdqu	%xmm3, 64(%rdx)
	movdqu	%xmm10, 80(%rdx)
	movdqu	%xmm2, 96(%rdx)
	movdqu	%xmm0, 112(%rdx)
	addq	$88, %rsp
	retq
                                        # -- End function
	.section	__TEXT,__text,regular,pure_instructions
	.p2align	4                               # -- Begin function aes_soft::soft::blocks::filled_up::process_filled_up::<#a60badf655ff5009>
_aes_v2.aes_soft.soft.blocks.filled_up.process_filled_up.1: # @_aes_v2.aes_soft.soft.blocks.filled_up.process_filled_up.1
# %bb.0:                                # %start
	pushq	%r14
	pushq	%rbx
	subq	$392, %rsp                      # imm = 0x188
	movq	%rdx, %rbx
	movq	%rsi, %rdx
	movq	%rdi, %rsi
	xorps	%xmm0, %xmm0
	movaps	%xmm0, 112(%rsp)
	movaps	%xmm0, 96(%rsp)
	movaps	%xmm0, 80(%rsp)
	movaps	%xmm0, 64(%rsp)
	movaps	%xmm0, 48(%rsp)
	movaps	%xmm0, 32(%rsp)
	movaps	%xmm0, 16(%rsp)
	movaps	%xmm0, (%rsp)
	movaps	%xmm0, 128(%rsp)
	movaps	%xmm0, 144(%rsp)
	movaps	%xmm0, 160(%rsp)
	movaps	%xmm0, 176(%rsp)
	movaps	%xmm0, 192(%rsp)
	movaps	%xmm0, 208(%rsp)
	movaps	%xmm0, 224(%rsp)
	movaps	%xmm0, 240(%rsp)
	movups	(%rbx), %xmm0
	movaps	%xmm0, 256(%rsp)
	movups	(%rbx), %xmm0
	movaps	%xmm0, 272(%rsp)
	movups	(%rbx), %xmm0
	movaps	%xmm0, 288(%rsp)
	movups	(%rbx), %xmm0
	movaps	%xmm0, 304(%rsp)
	movups	(%rbx), %xmm0
	movaps	%xmm0, 320(%rsp)
	movups	(%rbx), %xmm0
	movaps	%xmm0, 336(%rsp)
	movups	(%rbx), %xmm0
	movaps	%xmm0, 352(%rsp)
	movups	(%rbx), %xmm0
	movaps	%xmm0, 368(%rsp)
	shrq	$3, %rdx
	decq	%rdx
	testq	%rcx, %rcx
	je	Laes_v2_BB7_16
# %bb.1:                                # %join.8.i
	movq	%rcx, %r14
	movups	(%rbx), %xmm0
	movaps	%xmm0, 256(%rsp)
	cmpq	$1, %rcx
	je	Laes_v2_BB7_8
# %bb.2:                                # %join.8.i.1
	movups	16(%rbx), %xmm0
	movaps	%xmm0, 272(%rsp)
	cmpq	$2, %r14
	je	Laes_v2_BB7_8
# %bb.3:                                # %join.8.i.2
	movups	32(%rbx), %xmm0
	movaps	%xmm0, 288(%rsp)
	cmpq	$3, %r14
	je	Laes_v2_BB7_8
# %bb.4:                                # %join.8.i.3
	movups	48(%rbx), %xmm0
	movaps	%xmm0, 304(%rsp)
	cmpq	$4, %r14
	je	Laes_v2_BB7_8
# %bb.5:                                # %join.8.i.4
	movups	64(%rbx), %xmm0
	movaps	%xmm0, 320(%rsp)
	cmpq	$5, %r14
	je	Laes_v2_BB7_8
# %bb.6:                                # %join.8.i.5
	movups	80(%rbx), %xmm0
	movaps	%xmm0, 336(%rsp)
	cmpq	$6, %r14
	je	Laes_v2_BB7_8
# %bb.7:                                # %join.8.i.6
	movups	96(%rbx), %xmm0
	movaps	%xmm0, 352(%rsp)
Laes_v2_BB7_8:                                # %"aes_soft::soft::blocks::filled_up::filled_up::<#3fb8a7784760496e>.exit"
	leaq	128(%rsp), %rdi
	leaq	256(%rsp), %rcx
	callq	_aes_v2.aes_soft.soft.ciphers.planes.process_outlined.1
	movaps	240(%rsp), %xmm0
	movaps	%xmm0, 112(%rsp)
	movaps	224(%rsp), %xmm0
	movaps	%xmm0, 96(%rsp)
	movaps	208(%rsp), %xmm0
	movaps	%xmm0, 80(%rsp)
	movaps	192(%rsp), %xmm0
	movaps	%xmm0, 64(%rsp)
	movaps	128(%rsp), %xmm0
	movaps	144(%rsp), %xmm1
	movaps	160(%rsp), %xmm2
	movaps	176(%rsp), %xmm3
	movaps	%xmm3, 48(%rsp)
	movaps	%xmm2, 32(%rsp)
	movaps	%xmm1, 16(%rsp)
	movaps	%xmm0, (%rsp)
	movl	%r14d, %eax
	andl	$3, %eax
	cmpq	$4, %r14
	jae	Laes_v2_BB7_10
# %bb.9:
	xorl	%ecx, %ecx
	jmp	Laes_v2_BB7_13
Laes_v2_BB7_16:                               # %"aes_soft::soft::blocks::filled_up::copy_first::<#3fb8a7784760496e>.exit.critedge"
	leaq	128(%rsp), %rdi
	leaq	256(%rsp), %rcx
	callq	_aes_v2.aes_soft.soft.ciphers.planes.process_outlined.1
	movaps	240(%rsp), %xmm0
	movaps	%xmm0, 112(%rsp)
	movaps	224(%rsp), %xmm0
	movaps	%xmm0, 96(%rsp)
	movaps	208(%rsp), %xmm0
	movaps	%xmm0, 80(%rsp)
	movaps	192(%rsp), %xmm0
	movaps	%xmm0, 64(%rsp)
	movaps	128(%rsp), %xmm0
	movaps	144(%rsp), %xmm1
	movaps	160(%rsp), %xmm2
	movaps	176(%rsp), %xmm3
	movaps	%xmm3, 48(%rsp)
	movaps	%xmm2, 32(%rsp)
	movaps	%xmm1, 16(%rsp)
	movaps	%xmm0, (%rsp)
	addq	$392, %rsp                      # imm = 0x188
	popq	%rbx
	popq	%r14
	retq
Laes_v2_BB7_10:                               # %"aes_soft::soft::blocks::filled_up::filled_up::<#3fb8a7784760496e>.exit.new"
	andl	$4, %r14d
	movl	$48, %edx
	xorl	%ecx, %ecx
	.p2align	4
Laes_v2_BB7_11:                               # %join.8.i19
                                        # =>This Inner Loop Header: Depth=1
	movups	-48(%rsp,%rdx), %xmm0
	movups	%xmm0, -48(%rbx,%rdx)
	movups	-32(%rsp,%rdx), %xmm0
	movups	%xmm0, -32(%rbx,%rdx)
	movups	-16(%rsp,%rdx), %xmm0
	movups	%xmm0, -16(%rbx,%rdx)
	movups	(%rsp,%rdx), %xmm0
	movups	%xmm0, (%rbx,%rdx)
	addq	$4, %rcx
	addq	$64, %rdx
	cmpq	%rcx, %r14
	jne	Laes_v2_BB7_11
# %bb.12:                               # %"aes_soft::soft::blocks::filled_up::copy_first::<#3fb8a7784760496e>.exit.loopexit.unr-lcssa"
	testq	%rax, %rax
	je	Laes_v2_BB7_15
Laes_v2_BB7_13:                               # %join.8.i19.epil.preheader
	shlq	$4, %rcx
	addq	%rcx, %rbx
	addq	%rsp, %rcx
	shll	$4, %eax
	xorl	%edx, %edx
	.p2align	4
Laes_v2_BB7_14:                               # %join.8.i19.epil
                                        # =>This Inner Loop Header: Depth=1
	movups	(%rcx,%rdx), %xmm0
	movups	%xmm0, (%rbx,%rdx)
	addq	$16, %rdx
	cmpq	%rdx, %rax
	jne	Laes_v2_BB7_14
Laes_v2_BB7_15:                               # %"aes_soft::soft::blocks::filled_up::copy_first::<#3fb8a7784760496e>.exit"
	addq	$392, %rsp                      # imm = 0x188
	popq	%rbx
	popq	%r14
	retq
                                        # -- End function
	.section	__TEXT,__text,regular,pure_instructions
	.p2align	4                               # -- Begin function aes_cipher::zeroize::zeroize_words::<#e29e0540aa8bc136>
_aes_v2.aes_cipher.zeroize.zeroize_words: # @_aes_v2.aes_cipher.zeroize.zeroize_words
# %bb.0:                                # %start
	pushq	%rbp
	pushq	%r14
	pushq	%rbx
	subq	$16, %rsp
	movq	$0, 8(%rsp)
	#APP
	#NO_APP
	movq	8(%rsp), %r14
	#APP
	#NO_APP
	cmpq	$120, %r14
	jae	Laes_v2_BB8_1
# %bb.2:                                # %then.1.i
	shlq	$4, %r14
	movzbl	(%rdi,%r14), %ebp
	movl	$1920, %edx                     # imm = 0x780
	movq	%rdi, %rbx
	xorl	%esi, %esi
	callq	*_memset@GOTPCREL(%rip)
	movzbl	(%rbx,%r14), %ebx
	andl	%ebp, %ebx
	jmp	Laes_v2_BB8_3
Laes_v2_BB8_1:                                # %"aes_cipher::zeroize::observe::<#ccfd3525e01c7eaa>.exit11"
	xorl	%ebx, %ebx
	movl	$1920, %edx                     # imm = 0x780
	xorl	%esi, %esi
	callq	*_memset@GOTPCREL(%rip)
Laes_v2_BB8_3:                                # %"aes_cipher::zeroize::observe::<#ccfd3525e01c7eaa>.exit"
	#APP
	#NO_APP
	xchgq	%rbx, 8(%rsp)
	#APP
	#NO_APP
	addq	$16, %rsp
	popq	%rbx
	popq	%r14
	popq	%rbp
	retq
                                        # -- End function
	.section	__TEXT,__text,regular,pure_instructions
	.p2align	4                               # -- Begin function aes_cipher::zeroize::stack::wipe_stack::<=1792>
_aes_v2.aes_cipher.zeroize.stack.wipe_stack.1792: # @_aes_v2.aes_cipher.zeroize.stack.wipe_stack.1792
# %bb.0:                                # %start
	subq	$1800, %rsp                     # imm = 0x708
	leaq	8(%rsp), %rdi
	movl	$1792, %edx                     # imm = 0x700
	xorl	%esi, %esi
	callq	*_memset@GOTPCREL(%rip)
	movq	$0, (%rsp)
	#APP
	#NO_APP
	movq	(%rsp), %rax
	#APP
	#NO_APP
	cmpq	$1792, %rax                     # imm = 0x700
	jae	Laes_v2_BB9_2
# %bb.1:                                # %then.1
	movzbl	8(%rsp,%rax), %eax
	#APP
	#NO_APP
	xchgq	%rax, (%rsp)
	#APP
	#NO_APP
Laes_v2_BB9_2:                                # %common.ret
	addq	$1800, %rsp                     # imm = 0x708
	retq
                                        # -- End function
	.section	__TEXT,__const
	.p2align	4, 0x0                          # -- Begin function aes_permute::blocks::process_on_lanes::<#06aaae76f5856d0a>
l_aes_v2_CPI10_0:
	.zero	16,15
l_aes_v2_CPI10_1:
	.byte	0                               # 0x0
	.byte	1                               # 0x1
	.byte	28                              # 0x1c
	.byte	29                              # 0x1d
	.byte	45                              # 0x2d
	.byte	44                              # 0x2c
	.byte	49                              # 0x31
	.byte	48                              # 0x30
	.byte	39                              # 0x27
	.byte	38                              # 0x26
	.byte	59                              # 0x3b
	.byte	58                              # 0x3a
	.byte	10                              # 0xa
	.byte	11                              # 0xb
	.byte	22                              # 0x16
	.byte	23                              # 0x17
l_aes_v2_CPI10_2:
	.byte	0                               # 0x0
	.byte	134                             # 0x86
	.byte	253                             # 0xfd
	.byte	123                             # 0x7b
	.byte	142                             # 0x8e
	.byte	8                               # 0x8
	.byte	115                             # 0x73
	.byte	245                             # 0xf5
	.byte	119                             # 0x77
	.byte	241                             # 0xf1
	.byte	138                             # 0x8a
	.byte	12                              # 0xc
	.byte	249                             # 0xf9
	.byte	127                             # 0x7f
	.byte	4                               # 0x4
	.byte	130                             # 0x82
l_aes_v2_CPI10_3:
	.byte	128                             # 0x80
	.byte	2                               # 0x2
	.byte	1                               # 0x1
	.byte	15                              # 0xf
	.byte	9                               # 0x9
	.byte	5                               # 0x5
	.byte	14                              # 0xe
	.byte	12                              # 0xc
	.byte	13                              # 0xd
	.byte	4                               # 0x4
	.byte	11                              # 0xb
	.byte	10                              # 0xa
	.byte	7                               # 0x7
	.byte	8                               # 0x8
	.byte	6                               # 0x6
	.byte	3                               # 0x3
l_aes_v2_CPI10_4:
	.byte	128                             # 0x80
	.byte	1                               # 0x1
	.byte	9                               # 0x9
	.byte	14                              # 0xe
	.byte	13                              # 0xd
	.byte	11                              # 0xb
	.byte	7                               # 0x7
	.byte	6                               # 0x6
	.byte	15                              # 0xf
	.byte	2                               # 0x2
	.byte	12                              # 0xc
	.byte	5                               # 0x5
	.byte	10                              # 0xa
	.byte	4                               # 0x4
	.byte	3                               # 0x3
	.byte	8                               # 0x8
l_aes_v2_CPI10_5:
	.byte	0                               # 0x0
	.byte	195                             # 0xc3
	.byte	79                              # 0x4f
	.byte	12                              # 0xc
	.byte	252                             # 0xfc
	.byte	124                             # 0x7c
	.byte	67                              # 0x43
	.byte	128                             # 0x80
	.byte	207                             # 0xcf
	.byte	51                              # 0x33
	.byte	63                              # 0x3f
	.byte	112                             # 0x70
	.byte	191                             # 0xbf
	.byte	179                             # 0xb3
	.byte	240                             # 0xf0
	.byte	140                             # 0x8c
l_aes_v2_CPI10_6:
	.byte	0                               # 0x0
	.byte	230                             # 0xe6
	.byte	114                             # 0x72
	.byte	183                             # 0xb7
	.byte	229                             # 0xe5
	.byte	198                             # 0xc6
	.byte	197                             # 0xc5
	.byte	35                              # 0x23
	.byte	81                              # 0x51
	.byte	180                             # 0xb4
	.byte	3                               # 0x3
	.byte	113                             # 0x71
	.byte	32                              # 0x20
	.byte	151                             # 0x97
	.byte	82                              # 0x52
	.byte	148                             # 0x94
l_aes_v2_CPI10_7:
	.byte	0                               # 0x0
	.byte	124                             # 0x7c
	.byte	32                              # 0x20
	.byte	207                             # 0xcf
	.byte	146                             # 0x92
	.byte	1                               # 0x1
	.byte	239                             # 0xef
	.byte	147                             # 0x93
	.byte	179                             # 0xb3
	.byte	33                              # 0x21
	.byte	238                             # 0xee
	.byte	206                             # 0xce
	.byte	125                             # 0x7d
	.byte	178                             # 0xb2
	.byte	93                              # 0x5d
	.byte	92                              # 0x5c
l_aes_v2_CPI10_8:
	.byte	0                               # 0x0
	.byte	209                             # 0xd1
	.byte	229                             # 0xe5
	.byte	247                             # 0xf7
	.byte	230                             # 0xe6
	.byte	37                              # 0x25
	.byte	18                              # 0x12
	.byte	195                             # 0xc3
	.byte	38                              # 0x26
	.byte	192                             # 0xc0
	.byte	55                              # 0x37
	.byte	210                             # 0xd2
	.byte	244                             # 0xf4
	.byte	3                               # 0x3
	.byte	17                              # 0x11
	.byte	52                              # 0x34
l_aes_v2_CPI10_9:
	.byte	0                               # 0x0
	.byte	203                             # 0xcb
	.byte	215                             # 0xd7
	.byte	176                             # 0xb0
	.byte	33                              # 0x21
	.byte	141                             # 0x8d
	.byte	103                             # 0x67
	.byte	172                             # 0xac
	.byte	123                             # 0x7b
	.byte	90                              # 0x5a
	.byte	234                             # 0xea
	.byte	61                              # 0x3d
	.byte	70                              # 0x46
	.byte	246                             # 0xf6
	.byte	145                             # 0x91
	.byte	28                              # 0x1c
l_aes_v2_CPI10_10:
	.byte	0                               # 0x0
	.byte	159                             # 0x9f
	.byte	97                              # 0x61
	.byte	22                              # 0x16
	.byte	194                             # 0xc2
	.byte	42                              # 0x2a
	.byte	119                             # 0x77
	.byte	232                             # 0xe8
	.byte	137                             # 0x89
	.byte	75                              # 0x4b
	.byte	93                              # 0x5d
	.byte	60                              # 0x3c
	.byte	181                             # 0xb5
	.byte	163                             # 0xa3
	.byte	212                             # 0xd4
	.byte	254                             # 0xfe
	.section	__TEXT,__text,regular,pure_instructions
	.p2align	4
_aes_v2.aes_permute.blocks.process_on_lanes.1: # @_aes_v2.aes_permute.blocks.process_on_lanes.1
# %bb.0:                                # %start
	pushq	%r15
	pushq	%r14
	pushq	%r12
	pushq	%rbx
	cmpq	$2, %rcx
	jb	Laes_v2_BB10_1
# %bb.9:                                # %join.5.lr.ph
	leaq	-1(%rsi), %r8
	movq	%r8, %r9
	shlq	$4, %r9
	movl	%r9d, %eax
	andl	$48, %eax
	leaq	l_aes_v2_static.3(%rip), %r10
	movdqu	(%rax,%r10), %xmm0
	leaq	-2(%rsi), %r10
	xorl	%eax, %eax
	jmp	Laes_v2_BB10_10
	.p2align	4
Laes_v2_BB10_13:                              # %"aes_permute::blocks::process_two_vectors::<#06aaae76f5856d0a>.exit"
                                        #   in Loop: Header=BB10_10 Depth=1
	movdqu	(%rdi,%r9), %xmm4
	movdqa	%xmm3, %xmm6
	psrlw	$4, %xmm6
	pand	%xmm1, %xmm6
	pand	%xmm1, %xmm3
	movdqa	%xmm6, %xmm7
	pxor	%xmm3, %xmm7
	movdqa	l_aes_v2_CPI10_3(%rip), %xmm5          # xmm5 = [128,2,1,15,9,5,14,12,13,4,11,10,7,8,6,3]
	movdqa	%xmm5, %xmm8
	pshufb	%xmm3, %xmm8
	movdqa	l_aes_v2_CPI10_4(%rip), %xmm3          # xmm3 = [128,1,9,14,13,11,7,6,15,2,12,5,10,4,3,8]
	movdqa	%xmm3, %xmm9
	pshufb	%xmm6, %xmm9
	movdqa	%xmm3, %xmm10
	pshufb	%xmm7, %xmm10
	pxor	%xmm8, %xmm9
	pxor	%xmm8, %xmm10
	movdqa	%xmm3, %xmm11
	pshufb	%xmm9, %xmm11
	movdqa	%xmm3, %xmm9
	pshufb	%xmm10, %xmm9
	pxor	%xmm7, %xmm11
	pxor	%xmm6, %xmm9
	movdqa	l_aes_v2_CPI10_9(%rip), %xmm8          # xmm8 = [0,203,215,176,33,141,103,172,123,90,234,61,70,246,145,28]
	movdqa	%xmm8, %xmm10
	pshufb	%xmm11, %xmm10
	movdqa	l_aes_v2_CPI10_10(%rip), %xmm6         # xmm6 = [0,159,97,22,194,42,119,232,137,75,93,60,181,163,212,254]
	movdqa	%xmm6, %xmm7
	pshufb	%xmm9, %xmm7
	pxor	%xmm10, %xmm7
	pshufb	%xmm0, %xmm7
	pxor	%xmm4, %xmm7
	movdqa	%xmm2, %xmm9
	psrlw	$4, %xmm9
	pand	%xmm1, %xmm9
	pand	%xmm1, %xmm2
	movdqa	%xmm9, %xmm1
	pxor	%xmm2, %xmm1
	pshufb	%xmm2, %xmm5
	movdqa	%xmm3, %xmm2
	pshufb	%xmm9, %xmm2
	movdqa	%xmm3, %xmm10
	pshufb	%xmm1, %xmm10
	pxor	%xmm5, %xmm2
	pxor	%xmm5, %xmm10
	movdqa	%xmm3, %xmm5
	pshufb	%xmm2, %xmm5
	pshufb	%xmm10, %xmm3
	pxor	%xmm1, %xmm5
	pxor	%xmm9, %xmm3
	pshufb	%xmm5, %xmm8
	pshufb	%xmm3, %xmm6
	pxor	%xmm8, %xmm6
	pshufb	%xmm0, %xmm6
	pxor	%xmm4, %xmm6
	movdqu	%xmm7, (%rdx,%r11)
	movdqu	%xmm6, 16(%rdx,%r11)
	addq	$2, %rax
	movq	%rcx, %r11
	subq	%rax, %r11
	cmpq	$1, %r11
	jbe	Laes_v2_BB10_2
Laes_v2_BB10_10:                              # %join.5
                                        # =>This Loop Header: Depth=1
                                        #     Child Loop BB10_12 Depth 2
	movq	%rax, %r11
	shlq	$4, %r11
	movdqu	(%rdx,%r11), %xmm4
	movdqu	16(%rdx,%r11), %xmm5
	movdqu	(%rdi), %xmm6
	pxor	%xmm6, %xmm4
	movdqa	l_aes_v2_CPI10_0(%rip), %xmm1          # xmm1 = [15,15,15,15,15,15,15,15,15,15,15,15,15,15,15,15]
	movdqa	%xmm4, %xmm2
	pand	%xmm1, %xmm2
	movdqa	l_aes_v2_CPI10_1(%rip), %xmm7          # xmm7 = [0,1,28,29,45,44,49,48,39,38,59,58,10,11,22,23]
	movdqa	%xmm7, %xmm8
	pshufb	%xmm2, %xmm8
	psrlw	$4, %xmm4
	pand	%xmm1, %xmm4
	movdqa	l_aes_v2_CPI10_2(%rip), %xmm2          # xmm2 = [0,134,253,123,142,8,115,245,119,241,138,12,249,127,4,130]
	movdqa	%xmm2, %xmm3
	pshufb	%xmm4, %xmm3
	pxor	%xmm8, %xmm3
	pxor	%xmm6, %xmm5
	movdqa	%xmm5, %xmm4
	pand	%xmm1, %xmm4
	pshufb	%xmm4, %xmm7
	psrlw	$4, %xmm5
	pand	%xmm1, %xmm5
	pshufb	%xmm5, %xmm2
	pxor	%xmm7, %xmm2
	cmpq	$2, %r8
	jb	Laes_v2_BB10_13
# %bb.11:                               # %join.5.i1874.preheader
                                        #   in Loop: Header=BB10_10 Depth=1
	movl	$16, %ebx
	movq	%r10, %r14
	.p2align	4
Laes_v2_BB10_12:                              # %join.5.i1874
                                        #   Parent Loop BB10_10 Depth=1
                                        # =>  This Inner Loop Header: Depth=2
	movdqa	%xmm3, %xmm5
	psrlw	$4, %xmm5
	pand	%xmm1, %xmm5
	pand	%xmm1, %xmm3
	movdqa	%xmm5, %xmm7
	pxor	%xmm3, %xmm7
	movdqa	l_aes_v2_CPI10_3(%rip), %xmm6          # xmm6 = [128,2,1,15,9,5,14,12,13,4,11,10,7,8,6,3]
	movdqa	%xmm6, %xmm8
	pshufb	%xmm3, %xmm8
	movdqa	l_aes_v2_CPI10_4(%rip), %xmm4          # xmm4 = [128,1,9,14,13,11,7,6,15,2,12,5,10,4,3,8]
	movdqa	%xmm4, %xmm3
	pshufb	%xmm5, %xmm3
	movdqa	%xmm4, %xmm9
	pshufb	%xmm7, %xmm9
	pxor	%xmm8, %xmm3
	pxor	%xmm8, %xmm9
	movdqa	%xmm4, %xmm8
	pshufb	%xmm3, %xmm8
	movdqa	%xmm4, %xmm11
	pshufb	%xmm9, %xmm11
	pxor	%xmm7, %xmm8
	pxor	%xmm5, %xmm11
	movdqa	l_aes_v2_CPI10_5(%rip), %xmm7          # xmm7 = [0,195,79,12,252,124,67,128,207,51,63,112,191,179,240,140]
	movdqa	%xmm7, %xmm9
	pshufb	%xmm8, %xmm9
	movdqa	l_aes_v2_CPI10_6(%rip), %xmm5          # xmm5 = [0,230,114,183,229,198,197,35,81,180,3,113,32,151,82,148]
	movdqa	%xmm5, %xmm3
	pshufb	%xmm11, %xmm3
	pxor	%xmm9, %xmm3
	movdqa	l_aes_v2_CPI10_7(%rip), %xmm9          # xmm9 = [0,124,32,207,146,1,239,147,179,33,238,206,125,178,93,92]
	movdqa	%xmm9, %xmm12
	pshufb	%xmm8, %xmm12
	movdqa	l_aes_v2_CPI10_8(%rip), %xmm10         # xmm10 = [0,209,229,247,230,37,18,195,38,192,55,210,244,3,17,52]
	movdqa	%xmm10, %xmm13
	pshufb	%xmm11, %xmm13
	pxor	%xmm12, %xmm13
	movl	%ebx, %r15d
	andl	$48, %r15d
	leaq	l_aes_v2_static.4(%rip), %r12
	movdqu	(%r15,%r12), %xmm8
	movdqa	%xmm3, %xmm12
	pshufb	%xmm8, %xmm12
	pxor	%xmm13, %xmm12
	leaq	l_aes_v2_static.5(%rip), %r12
	movdqu	(%r15,%r12), %xmm11
	pshufb	%xmm11, %xmm3
	pxor	%xmm12, %xmm3
	pshufb	%xmm8, %xmm12
	movdqa	%xmm2, %xmm13
	psrlw	$4, %xmm13
	pand	%xmm1, %xmm13
	pand	%xmm1, %xmm2
	movdqa	%xmm13, %xmm14
	pxor	%xmm2, %xmm14
	pshufb	%xmm2, %xmm6
	movdqa	%xmm4, %xmm2
	pshufb	%xmm13, %xmm2
	movdqa	%xmm4, %xmm15
	pshufb	%xmm14, %xmm15
	pxor	%xmm6, %xmm2
	pxor	%xmm6, %xmm15
	movdqa	%xmm4, %xmm6
	pshufb	%xmm2, %xmm6
	pshufb	%xmm15, %xmm4
	pxor	%xmm14, %xmm6
	pxor	%xmm13, %xmm4
	pshufb	%xmm6, %xmm7
	pshufb	%xmm4, %xmm5
	pxor	%xmm7, %xmm5
	pshufb	%xmm6, %xmm9
	pshufb	%xmm4, %xmm10
	pxor	%xmm9, %xmm10
	movdqa	%xmm5, %xmm2
	pshufb	%xmm8, %xmm2
	pxor	%xmm10, %xmm2
	pshufb	%xmm11, %xmm5
	movdqu	(%rdi,%rbx), %xmm4
	pxor	%xmm12, %xmm3
	pxor	%xmm4, %xmm3
	pxor	%xmm2, %xmm5
	pshufb	%xmm8, %xmm2
	pxor	%xmm5, %xmm2
	pxor	%xmm4, %xmm2
	addq	$16, %rbx
	decq	%r14
	jne	Laes_v2_BB10_12
	jmp	Laes_v2_BB10_13
Laes_v2_BB10_1:
	xorl	%eax, %eax
Laes_v2_BB10_2:                               # %loop.7.preheader
	cmpq	%rax, %rcx
	jne	Laes_v2_BB10_3
Laes_v2_BB10_8:                               # %after.11
	popq	%rbx
	popq	%r12
	popq	%r14
	popq	%r15
	retq
Laes_v2_BB10_3:                               # %join.10.lr.ph
	leaq	-1(%rsi), %r8
	movq	%r8, %r9
	shlq	$4, %r9
	movl	%r9d, %r10d
	andl	$48, %r10d
	leaq	l_aes_v2_static.3(%rip), %r11
	movdqu	(%r10,%r11), %xmm0
	addq	$-2, %rsi
	jmp	Laes_v2_BB10_4
	.p2align	4
Laes_v2_BB10_7:                               # %"aes_permute::blocks::process_vector::<#06aaae76f5856d0a>.exit1750"
                                        #   in Loop: Header=BB10_4 Depth=1
	movdqu	(%rdi,%r9), %xmm3
	movdqa	%xmm2, %xmm4
	psrlw	$4, %xmm4
	pand	%xmm1, %xmm4
	pand	%xmm1, %xmm2
	movdqa	%xmm4, %xmm1
	pxor	%xmm2, %xmm1
	movdqa	l_aes_v2_CPI10_3(%rip), %xmm5          # xmm5 = [128,2,1,15,9,5,14,12,13,4,11,10,7,8,6,3]
	pshufb	%xmm2, %xmm5
	movdqa	l_aes_v2_CPI10_4(%rip), %xmm2          # xmm2 = [128,1,9,14,13,11,7,6,15,2,12,5,10,4,3,8]
	movdqa	%xmm2, %xmm6
	pshufb	%xmm4, %xmm6
	movdqa	%xmm2, %xmm7
	pshufb	%xmm1, %xmm7
	pxor	%xmm5, %xmm6
	pxor	%xmm5, %xmm7
	movdqa	%xmm2, %xmm5
	pshufb	%xmm6, %xmm5
	pshufb	%xmm7, %xmm2
	pxor	%xmm1, %xmm5
	pxor	%xmm4, %xmm2
	movdqa	l_aes_v2_CPI10_9(%rip), %xmm1          # xmm1 = [0,203,215,176,33,141,103,172,123,90,234,61,70,246,145,28]
	pshufb	%xmm5, %xmm1
	movdqa	l_aes_v2_CPI10_10(%rip), %xmm4         # xmm4 = [0,159,97,22,194,42,119,232,137,75,93,60,181,163,212,254]
	pshufb	%xmm2, %xmm4
	pxor	%xmm1, %xmm4
	pshufb	%xmm0, %xmm4
	pxor	%xmm3, %xmm4
	movdqu	%xmm4, (%rdx,%r10)
	incq	%rax
	cmpq	%rax, %rcx
	je	Laes_v2_BB10_8
Laes_v2_BB10_4:                               # %join.10
                                        # =>This Loop Header: Depth=1
                                        #     Child Loop BB10_6 Depth 2
	movq	%rax, %r10
	shlq	$4, %r10
	movdqu	(%rdx,%r10), %xmm1
	movdqu	(%rdi), %xmm3
	pxor	%xmm1, %xmm3
	movdqa	l_aes_v2_CPI10_0(%rip), %xmm1          # xmm1 = [15,15,15,15,15,15,15,15,15,15,15,15,15,15,15,15]
	movdqa	%xmm3, %xmm2
	pand	%xmm1, %xmm2
	movdqa	l_aes_v2_CPI10_1(%rip), %xmm4          # xmm4 = [0,1,28,29,45,44,49,48,39,38,59,58,10,11,22,23]
	pshufb	%xmm2, %xmm4
	psrlw	$4, %xmm3
	pand	%xmm1, %xmm3
	movdqa	l_aes_v2_CPI10_2(%rip), %xmm2          # xmm2 = [0,134,253,123,142,8,115,245,119,241,138,12,249,127,4,130]
	pshufb	%xmm3, %xmm2
	pxor	%xmm4, %xmm2
	cmpq	$2, %r8
	jb	Laes_v2_BB10_7
# %bb.5:                                # %join.5.i1006.preheader
                                        #   in Loop: Header=BB10_4 Depth=1
	movl	$16, %r11d
	movq	%rsi, %rbx
	.p2align	4
Laes_v2_BB10_6:                               # %join.5.i1006
                                        #   Parent Loop BB10_4 Depth=1
                                        # =>  This Inner Loop Header: Depth=2
	movdqu	(%rdi,%r11), %xmm3
	movdqa	%xmm2, %xmm4
	psrlw	$4, %xmm4
	pand	%xmm1, %xmm4
	pand	%xmm1, %xmm2
	movdqa	%xmm4, %xmm5
	pxor	%xmm2, %xmm5
	movdqa	l_aes_v2_CPI10_3(%rip), %xmm6          # xmm6 = [128,2,1,15,9,5,14,12,13,4,11,10,7,8,6,3]
	pshufb	%xmm2, %xmm6
	movdqa	l_aes_v2_CPI10_4(%rip), %xmm2          # xmm2 = [128,1,9,14,13,11,7,6,15,2,12,5,10,4,3,8]
	movdqa	%xmm2, %xmm7
	pshufb	%xmm4, %xmm7
	movdqa	%xmm2, %xmm8
	pshufb	%xmm5, %xmm8
	pxor	%xmm6, %xmm7
	pxor	%xmm6, %xmm8
	movdqa	%xmm2, %xmm6
	pshufb	%xmm7, %xmm6
	pshufb	%xmm8, %xmm2
	pxor	%xmm5, %xmm6
	pxor	%xmm4, %xmm2
	movdqa	l_aes_v2_CPI10_5(%rip), %xmm5          # xmm5 = [0,195,79,12,252,124,67,128,207,51,63,112,191,179,240,140]
	pshufb	%xmm6, %xmm5
	movdqa	l_aes_v2_CPI10_6(%rip), %xmm4          # xmm4 = [0,230,114,183,229,198,197,35,81,180,3,113,32,151,82,148]
	pshufb	%xmm2, %xmm4
	pxor	%xmm5, %xmm4
	movdqa	l_aes_v2_CPI10_7(%rip), %xmm5          # xmm5 = [0,124,32,207,146,1,239,147,179,33,238,206,125,178,93,92]
	pshufb	%xmm6, %xmm5
	movdqa	l_aes_v2_CPI10_8(%rip), %xmm6          # xmm6 = [0,209,229,247,230,37,18,195,38,192,55,210,244,3,17,52]
	pshufb	%xmm2, %xmm6
	pxor	%xmm5, %xmm6
	movl	%r11d, %r14d
	andl	$48, %r14d
	leaq	l_aes_v2_static.4(%rip), %r15
	movdqu	(%r14,%r15), %xmm5
	movdqa	%xmm4, %xmm2
	pshufb	%xmm5, %xmm2
	pxor	%xmm6, %xmm2
	leaq	l_aes_v2_static.5(%rip), %r15
	movdqu	(%r14,%r15), %xmm6
	pshufb	%xmm6, %xmm4
	pxor	%xmm3, %xmm4
	pxor	%xmm2, %xmm4
	pshufb	%xmm5, %xmm2
	pxor	%xmm4, %xmm2
	addq	$16, %r11
	decq	%rbx
	jne	Laes_v2_BB10_6
	jmp	Laes_v2_BB10_7
                                        # -- End function
	.section	__TEXT,__text,regular,pure_instructions
	.p2align	4                               # -- Begin function aes_hybrid::closures::lend_planes::<#b70de9c75faff52b>
_aes_v2.aes_hybrid.closures.lend_planes.1: # @_aes_v2.aes_hybrid.closures.lend_planes.1
# %bb.0:                                # %start
	pushq	%rbp
	pushq	%r15
	pushq	%r14
	pushq	%r13
	pushq	%r12
	pushq	%rbx
	subq	$1976, %rsp                     # imm = 0x7B8
	movq	%r8, 8(%rsp)                    # 8-byte Spill
	movq	%rcx, %r14
	movq	%rdx, %r15
	movq	%rsi, %r12
	movq	%rdi, %r13
	leaq	176(%rsp), %rdi
	movl	$1792, %edx                     # imm = 0x700
	xorl	%esi, %esi
	callq	*_memset@GOTPCREL(%rip)
	leaq	(,%r12,8), %rbp
	leaq	48(%rsp), %rbx
	movq	%rbx, %rdi
	movq	%r13, %rsi
	movq	%r12, %rdx
	callq	_aes_v2.aes_hybrid.plane_keys.store_planes
	movq	%r13, 16(%rsp)
	movq	%r12, 24(%rsp)
	movq	%r15, 32(%rsp)
	movq	%r14, 40(%rsp)
	leaq	16(%rsp), %rdi
	movq	%rbx, %rsi
	movq	%rbp, %rdx
	movq	8(%rsp), %rcx                   # 8-byte Reload
	callq	_aes_v2.aes_hybrid.closures.call_to_work.1
	movq	%rbx, %rdi
	callq	_aes_v2.aes_cipher.zeroize.zeroize_words
	callq	_aes_v2.aes_cipher.zeroize.stack.wipe_stack.2032
	addq	$1976, %rsp                     # imm = 0x7B8
	popq	%rbx
	popq	%r12
	popq	%r13
	popq	%r14
	popq	%r15
	popq	%rbp
	retq
                                        # -- End function
	.section	__TEXT,__const
	.p2align	4, 0x0                          # -- Begin function aes_hybrid::closures::call_to_work::<#b70de9c75faff52b>
l_aes_v2_CPI12_0:
	.byte	15                              # 0xf
	.byte	11                              # 0xb
	.byte	7                               # 0x7
	.byte	3                               # 0x3
	.byte	14                              # 0xe
	.byte	10                              # 0xa
	.byte	6                               # 0x6
	.byte	2                               # 0x2
	.byte	13                              # 0xd
	.byte	9                               # 0x9
	.byte	5                               # 0x5
	.byte	1                               # 0x1
	.byte	12                              # 0xc
	.byte	8                               # 0x8
	.byte	4                               # 0x4
	.byte	0                               # 0x0
l_aes_v2_CPI12_1:
	.zero	16,85
l_aes_v2_CPI12_2:
	.zero	16,51
l_aes_v2_CPI12_3:
	.zero	16,15
l_aes_v2_CPI12_4:
	.byte	0                               # 0x0
	.byte	4                               # 0x4
	.byte	8                               # 0x8
	.byte	12                              # 0xc
	.byte	1                               # 0x1
	.byte	5                               # 0x5
	.byte	9                               # 0x9
	.byte	13                              # 0xd
	.byte	2                               # 0x2
	.byte	6                               # 0x6
	.byte	10                              # 0xa
	.byte	14                              # 0xe
	.byte	3                               # 0x3
	.byte	7                               # 0x7
	.byte	11                              # 0xb
	.byte	15                              # 0xf
	.section	__TEXT,__text,regular,pure_instructions
	.p2align	4
_aes_v2.aes_hybrid.closures.call_to_work.1: # @_aes_v2.aes_hybrid.closures.call_to_work.1
# %bb.0:                                # %start
	pushq	%rbp
	pushq	%r15
	pushq	%r14
	pushq	%r13
	pushq	%r12
	pushq	%rbx
	subq	$184, %rsp
	movq	%rdx, %r8
	movq	%rsi, %r13
	movq	%rdi, 24(%rsp)
	movq	%rsi, 32(%rsp)
	movq	%rdx, 40(%rsp)
	movq	(%rcx), %rbx
	movq	8(%rcx), %rdx
	movq	24(%rcx), %r15
	movq	16(%rcx), %r12
	testb	$15, %dl
	je	Laes_v2_BB12_1
# %bb.2:                                # %then.1.i.i
	leaq	24(%rsp), %rdi
	movq	%rbx, %rsi
	movq	%rdx, %rbp
	xorl	%ecx, %ecx
	movq	%r8, %r14
	movq	%r12, %r8
	movq	%r15, %r9
	callq	_aes_v2.aes_ctr.add_in_batches.add_next.1
	movq	%r14, %r8
	movq	%rax, %r14
	jmp	Laes_v2_BB12_3
Laes_v2_BB12_1:
	movq	%rdx, %rbp
	xorl	%r14d, %r14d
Laes_v2_BB12_3:                               # %join.3.i.i
	movq	%r15, 8(%rsp)                   # 8-byte Spill
	movq	%r15, %rax
	subq	%r14, %rax
	cmpq	$128, %rax
	movq	%rbp, (%rsp)                    # 8-byte Spill
	jb	Laes_v2_BB12_6
# %bb.4:                                # %join.11.lr.ph.i.i
	shrq	$3, %r8
	decq	%r8
	.p2align	4
Laes_v2_BB12_5:                               # %join.11.i.i
                                        # =>This Inner Loop Header: Depth=1
	movq	%rax, 16(%rsp)                  # 8-byte Spill
	movq	%r14, %rbp
	movq	(%rsp), %rax                    # 8-byte Reload
	leaq	(%rax,%r14), %rdx
	shrq	$4, %rdx
	addq	$128, %r14
	movq	(%rbx), %rcx
	movq	8(%rbx), %rax
	bswapq	%rcx
	bswapq	%rax
	addq	%rdx, %rax
	adcq	$0, %rcx
	movq	%rax, %xmm4
	movq	%rcx, %xmm0
	punpcklqdq	%xmm0, %xmm4            # xmm4 = xmm4[0],xmm0[0]
	movq	%rax, %rdx
	addq	$1, %rdx
	movq	%rcx, %rsi
	adcq	$0, %rsi
	movq	%rsi, %xmm0
	movq	%rdx, %xmm2
	punpcklqdq	%xmm0, %xmm2            # xmm2 = xmm2[0],xmm0[0]
	movq	%rax, %rdx
	addq	$2, %rdx
	movq	%rcx, %rsi
	adcq	$0, %rsi
	movq	%rsi, %xmm0
	movq	%rdx, %xmm5
	punpcklqdq	%xmm0, %xmm5            # xmm5 = xmm5[0],xmm0[0]
	movq	%rax, %rdx
	addq	$3, %rdx
	movq	%rcx, %rsi
	adcq	$0, %rsi
	movq	%rsi, %xmm1
	movq	%rdx, %xmm0
	punpcklqdq	%xmm1, %xmm0            # xmm0 = xmm0[0],xmm1[0]
	movq	%rax, %rdx
	addq	$4, %rdx
	movq	%rcx, %rsi
	adcq	$0, %rsi
	movq	%rsi, %xmm1
	movq	%rdx, %xmm6
	punpcklqdq	%xmm1, %xmm6            # xmm6 = xmm6[0],xmm1[0]
	movq	%rax, %rdx
	addq	$5, %rdx
	movq	%rcx, %rsi
	adcq	$0, %rsi
	movq	%rsi, %xmm1
	movq	%rdx, %xmm3
	punpcklqdq	%xmm1, %xmm3            # xmm3 = xmm3[0],xmm1[0]
	movq	%rax, %rdx
	addq	$6, %rdx
	movq	%rcx, %rsi
	adcq	$0, %rsi
	movq	%rsi, %xmm1
	movq	%rdx, %xmm7
	addq	$7, %rax
	adcq	$0, %rcx
	punpcklqdq	%xmm1, %xmm7            # xmm7 = xmm7[0],xmm1[0]
	movq	%rcx, %xmm8
	movq	%rax, %xmm1
	punpcklqdq	%xmm8, %xmm1            # xmm1 = xmm1[0],xmm8[0]
	movdqa	l_aes_v2_CPI12_0(%rip), %xmm8          # xmm8 = [15,11,7,3,14,10,6,2,13,9,5,1,12,8,4,0]
	pshufb	%xmm8, %xmm4
	pshufb	%xmm8, %xmm2
	pshufb	%xmm8, %xmm5
	pshufb	%xmm8, %xmm0
	pshufb	%xmm8, %xmm6
	pshufb	%xmm8, %xmm3
	pshufb	%xmm8, %xmm7
	pshufb	%xmm8, %xmm1
	movdqa	%xmm4, %xmm8
	psrlw	$1, %xmm8
	pxor	%xmm2, %xmm8
	movdqa	l_aes_v2_CPI12_1(%rip), %xmm10         # xmm10 = [85,85,85,85,85,85,85,85,85,85,85,85,85,85,85,85]
	pand	%xmm10, %xmm8
	pxor	%xmm8, %xmm2
	paddb	%xmm8, %xmm8
	pxor	%xmm4, %xmm8
	movdqa	%xmm5, %xmm4
	psrlw	$1, %xmm4
	pxor	%xmm0, %xmm4
	pand	%xmm10, %xmm4
	pxor	%xmm4, %xmm0
	paddb	%xmm4, %xmm4
	pxor	%xmm5, %xmm4
	movdqa	%xmm6, %xmm9
	psrlw	$1, %xmm9
	pxor	%xmm3, %xmm9
	pand	%xmm10, %xmm9
	pxor	%xmm9, %xmm3
	paddb	%xmm9, %xmm9
	pxor	%xmm6, %xmm9
	movdqa	%xmm7, %xmm5
	psrlw	$1, %xmm5
	pxor	%xmm1, %xmm5
	pand	%xmm10, %xmm5
	pxor	%xmm5, %xmm1
	paddb	%xmm5, %xmm5
	pxor	%xmm7, %xmm5
	movdqa	%xmm8, %xmm7
	psrlw	$2, %xmm7
	pxor	%xmm4, %xmm7
	movdqa	l_aes_v2_CPI12_2(%rip), %xmm10         # xmm10 = [51,51,51,51,51,51,51,51,51,51,51,51,51,51,51,51]
	pand	%xmm10, %xmm7
	pxor	%xmm7, %xmm4
	psllw	$2, %xmm7
	pxor	%xmm8, %xmm7
	movdqa	%xmm9, %xmm6
	psrlw	$2, %xmm6
	pxor	%xmm5, %xmm6
	pand	%xmm10, %xmm6
	pxor	%xmm6, %xmm5
	psllw	$2, %xmm6
	pxor	%xmm9, %xmm6
	movdqa	%xmm2, %xmm8
	psrlw	$2, %xmm8
	pxor	%xmm0, %xmm8
	pand	%xmm10, %xmm8
	pxor	%xmm8, %xmm0
	psllw	$2, %xmm8
	pxor	%xmm2, %xmm8
	movdqa	%xmm3, %xmm2
	psrlw	$2, %xmm2
	pxor	%xmm1, %xmm2
	pand	%xmm10, %xmm2
	pxor	%xmm2, %xmm1
	psllw	$2, %xmm2
	pxor	%xmm3, %xmm2
	movdqa	%xmm7, %xmm3
	psrlw	$4, %xmm3
	movdqa	l_aes_v2_CPI12_3(%rip), %xmm9          # xmm9 = [15,15,15,15,15,15,15,15,15,15,15,15,15,15,15,15]
	pxor	%xmm6, %xmm3
	pand	%xmm9, %xmm3
	pxor	%xmm3, %xmm6
	psllw	$4, %xmm3
	pxor	%xmm7, %xmm3
	movdqa	%xmm8, %xmm7
	psrlw	$4, %xmm7
	pxor	%xmm2, %xmm7
	pand	%xmm9, %xmm7
	pxor	%xmm7, %xmm2
	psllw	$4, %xmm7
	pxor	%xmm8, %xmm7
	movdqa	%xmm4, %xmm8
	psrlw	$4, %xmm8
	pxor	%xmm5, %xmm8
	pand	%xmm9, %xmm8
	pxor	%xmm8, %xmm5
	psllw	$4, %xmm8
	pxor	%xmm4, %xmm8
	movdqa	%xmm0, %xmm4
	psrlw	$4, %xmm4
	pxor	%xmm1, %xmm4
	pand	%xmm9, %xmm4
	pxor	%xmm4, %xmm1
	psllw	$4, %xmm4
	pxor	%xmm0, %xmm4
	movdqa	%xmm3, 48(%rsp)
	movdqa	%xmm7, 64(%rsp)
	movdqa	%xmm8, 80(%rsp)
	movdqa	%xmm4, 96(%rsp)
	movdqa	%xmm6, 112(%rsp)
	movdqa	%xmm2, 128(%rsp)
	movdqa	%xmm5, 144(%rsp)
	movdqa	%xmm1, 160(%rsp)
	leaq	48(%rsp), %rdx
	movq	%r13, %rdi
	movq	%r8, %rsi
	movq	%rbx, %r15
	movq	%r13, %rbx
	movq	%r8, %r13
	callq	_aes_v2.aes_soft.soft.ciphers.planes.EncryptPlaneCipher.process_planes
	movq	16(%rsp), %rax                  # 8-byte Reload
	movq	%r13, %r8
	movq	%rbx, %r13
	movq	%r15, %rbx
	movdqa	48(%rsp), %xmm1
	movdqa	64(%rsp), %xmm6
	movdqa	80(%rsp), %xmm10
	movdqa	96(%rsp), %xmm2
	movdqa	112(%rsp), %xmm4
	movdqa	128(%rsp), %xmm5
	movdqa	144(%rsp), %xmm7
	movdqa	160(%rsp), %xmm0
	movdqa	%xmm1, %xmm8
	psrlw	$1, %xmm8
	pxor	%xmm6, %xmm8
	movdqa	l_aes_v2_CPI12_1(%rip), %xmm11         # xmm11 = [85,85,85,85,85,85,85,85,85,85,85,85,85,85,85,85]
	pand	%xmm11, %xmm8
	pxor	%xmm8, %xmm6
	movdqa	%xmm10, %xmm3
	paddb	%xmm8, %xmm8
	psrlw	$1, %xmm3
	pxor	%xmm2, %xmm3
	pand	%xmm11, %xmm3
	pxor	%xmm3, %xmm2
	movdqa	%xmm4, %xmm9
	psrlw	$1, %xmm9
	pxor	%xmm5, %xmm9
	paddb	%xmm3, %xmm3
	pand	%xmm11, %xmm9
	pxor	%xmm9, %xmm5
	paddb	%xmm9, %xmm9
	pxor	%xmm1, %xmm8
	movdqa	%xmm7, %xmm1
	psrlw	$1, %xmm1
	pxor	%xmm0, %xmm1
	pxor	%xmm10, %xmm3
	pand	%xmm11, %xmm1
	pxor	%xmm1, %xmm0
	paddb	%xmm1, %xmm1
	pxor	%xmm4, %xmm9
	pxor	%xmm7, %xmm1
	movdqa	%xmm8, %xmm7
	psrlw	$2, %xmm7
	pxor	%xmm3, %xmm7
	movdqa	l_aes_v2_CPI12_2(%rip), %xmm11         # xmm11 = [51,51,51,51,51,51,51,51,51,51,51,51,51,51,51,51]
	pand	%xmm11, %xmm7
	pxor	%xmm7, %xmm3
	movdqa	%xmm9, %xmm4
	psllw	$2, %xmm7
	psrlw	$2, %xmm4
	pxor	%xmm1, %xmm4
	pand	%xmm11, %xmm4
	pxor	%xmm4, %xmm1
	movdqa	%xmm6, %xmm10
	psrlw	$2, %xmm10
	pxor	%xmm2, %xmm10
	psllw	$2, %xmm4
	pand	%xmm11, %xmm10
	pxor	%xmm10, %xmm2
	psllw	$2, %xmm10
	pxor	%xmm6, %xmm10
	movdqa	%xmm5, %xmm6
	psrlw	$2, %xmm6
	pxor	%xmm0, %xmm6
	pxor	%xmm8, %xmm7
	pand	%xmm11, %xmm6
	pxor	%xmm6, %xmm0
	psllw	$2, %xmm6
	pxor	%xmm9, %xmm4
	pxor	%xmm5, %xmm6
	movdqa	%xmm7, %xmm5
	psrlw	$4, %xmm5
	pxor	%xmm4, %xmm5
	movdqa	%xmm10, %xmm8
	psrlw	$4, %xmm8
	pxor	%xmm6, %xmm8
	movdqa	l_aes_v2_CPI12_3(%rip), %xmm11         # xmm11 = [15,15,15,15,15,15,15,15,15,15,15,15,15,15,15,15]
	pand	%xmm11, %xmm5
	pand	%xmm11, %xmm8
	pxor	%xmm8, %xmm6
	psllw	$4, %xmm8
	pxor	%xmm5, %xmm4
	movdqa	%xmm3, %xmm9
	psrlw	$4, %xmm9
	pxor	%xmm1, %xmm9
	psllw	$4, %xmm5
	pand	%xmm11, %xmm9
	pxor	%xmm9, %xmm1
	psllw	$4, %xmm9
	pxor	%xmm10, %xmm8
	movdqa	%xmm2, %xmm10
	psrlw	$4, %xmm10
	pxor	%xmm0, %xmm10
	pxor	%xmm3, %xmm9
	pand	%xmm11, %xmm10
	pxor	%xmm10, %xmm0
	psllw	$4, %xmm10
	pxor	%xmm7, %xmm5
	pxor	%xmm2, %xmm10
	movdqa	l_aes_v2_CPI12_4(%rip), %xmm2          # xmm2 = [0,4,8,12,1,5,9,13,2,6,10,14,3,7,11,15]
	movdqu	(%r12,%rbp), %xmm3
	pshufb	%xmm2, %xmm5
	movdqu	16(%r12,%rbp), %xmm7
	movdqu	32(%r12,%rbp), %xmm11
	movdqu	48(%r12,%rbp), %xmm12
	pxor	%xmm5, %xmm3
	movdqu	%xmm3, (%r12,%rbp)
	pshufb	%xmm2, %xmm8
	pxor	%xmm7, %xmm8
	movdqu	%xmm8, 16(%r12,%rbp)
	pshufb	%xmm2, %xmm9
	pxor	%xmm11, %xmm9
	pshufb	%xmm2, %xmm10
	movdqu	%xmm9, 32(%r12,%rbp)
	pxor	%xmm12, %xmm10
	movdqu	%xmm10, 48(%r12,%rbp)
	movdqu	64(%r12,%rbp), %xmm3
	pshufb	%xmm2, %xmm4
	pxor	%xmm3, %xmm4
	movdqu	%xmm4, 64(%r12,%rbp)
	movdqu	80(%r12,%rbp), %xmm3
	pshufb	%xmm2, %xmm6
	pxor	%xmm3, %xmm6
	movdqu	%xmm6, 80(%r12,%rbp)
	movdqu	96(%r12,%rbp), %xmm3
	pshufb	%xmm2, %xmm1
	pxor	%xmm3, %xmm1
	movdqu	%xmm1, 96(%r12,%rbp)
	movdqu	112(%r12,%rbp), %xmm1
	pshufb	%xmm2, %xmm0
	pxor	%xmm1, %xmm0
	movdqu	%xmm0, 112(%r12,%rbp)
	addq	$-128, %rax
	cmpq	$127, %rax
	ja	Laes_v2_BB12_5
Laes_v2_BB12_6:                               # %loop.13.preheader.i.i
	movq	8(%rsp), %r13                   # 8-byte Reload
	cmpq	%r13, %r14
	movq	(%rsp), %r15                    # 8-byte Reload
	jae	Laes_v2_BB12_8
	.p2align	4
Laes_v2_BB12_7:                               # %join.16.i.i
                                        # =>This Inner Loop Header: Depth=1
	leaq	24(%rsp), %rdi
	movq	%rbx, %rsi
	movq	%r15, %rdx
	movq	%r14, %rcx
	movq	%r12, %r8
	movq	%r13, %r9
	callq	_aes_v2.aes_ctr.add_in_batches.add_next.1
	movq	%rax, %r14
	cmpq	%r13, %rax
	jb	Laes_v2_BB12_7
Laes_v2_BB12_8:                               # %"aes_ctr::add_in_batches::AddStreamBlockCipherEncClosure::call::<#8328edac2e5961b6>.exit"
	addq	$184, %rsp
	popq	%rbx
	popq	%r12
	popq	%r13
	popq	%r14
	popq	%r15
	popq	%rbp
	retq
                                        # -- End function
	.section	__TEXT,__const
	.p2align	4, 0x0                          # -- Begin function aes_ctr::add_in_batches::add_next::<#f3c9f23e0dfa84c8>
l_aes_v2_CPI13_0:
	.byte	15                              # 0xf
	.byte	14                              # 0xe
	.byte	13                              # 0xd
	.byte	12                              # 0xc
	.byte	11                              # 0xb
	.byte	10                              # 0xa
	.byte	9                               # 0x9
	.byte	8                               # 0x8
	.byte	7                               # 0x7
	.byte	6                               # 0x6
	.byte	5                               # 0x5
	.byte	4                               # 0x4
	.byte	3                               # 0x3
	.byte	2                               # 0x2
	.byte	1                               # 0x1
	.byte	0                               # 0x0
l_aes_v2_CPI13_1:
	.byte	0                               # 0x0
	.byte	4                               # 0x4
	.byte	8                               # 0x8
	.byte	12                              # 0xc
	.byte	1                               # 0x1
	.byte	5                               # 0x5
	.byte	9                               # 0x9
	.byte	13                              # 0xd
	.byte	2                               # 0x2
	.byte	6                               # 0x6
	.byte	10                              # 0xa
	.byte	14                              # 0xe
	.byte	3                               # 0x3
	.byte	7                               # 0x7
	.byte	11                              # 0xb
	.byte	15                              # 0xf
l_aes_v2_CPI13_2:
	.byte	128                             # 0x80
	.byte	128                             # 0x80
	.byte	128                             # 0x80
	.byte	3                               # 0x3
	.byte	128                             # 0x80
	.byte	128                             # 0x80
	.byte	128                             # 0x80
	.byte	2                               # 0x2
	.byte	128                             # 0x80
	.byte	128                             # 0x80
	.byte	128                             # 0x80
	.byte	1                               # 0x1
	.byte	128                             # 0x80
	.byte	128                             # 0x80
	.byte	128                             # 0x80
	.byte	0                               # 0x0
l_aes_v2_CPI13_3:
	.byte	0                               # 0x0
	.byte	4                               # 0x4
	.byte	8                               # 0x8
	.byte	128                             # 0x80
	.byte	1                               # 0x1
	.byte	5                               # 0x5
	.byte	9                               # 0x9
	.byte	128                             # 0x80
	.byte	2                               # 0x2
	.byte	6                               # 0x6
	.byte	10                              # 0xa
	.byte	128                             # 0x80
	.byte	3                               # 0x3
	.byte	7                               # 0x7
	.byte	11                              # 0xb
	.byte	128                             # 0x80
l_aes_v2_CPI13_4:
	.byte	15                              # 0xf
	.byte	11                              # 0xb
	.byte	7                               # 0x7
	.byte	3                               # 0x3
	.byte	14                              # 0xe
	.byte	10                              # 0xa
	.byte	6                               # 0x6
	.byte	2                               # 0x2
	.byte	13                              # 0xd
	.byte	9                               # 0x9
	.byte	5                               # 0x5
	.byte	1                               # 0x1
	.byte	12                              # 0xc
	.byte	8                               # 0x8
	.byte	4                               # 0x4
	.byte	0                               # 0x0
l_aes_v2_CPI13_5:
	.zero	16,85
l_aes_v2_CPI13_6:
	.zero	16,51
l_aes_v2_CPI13_7:
	.zero	16,15
	.section	__TEXT,__text,regular,pure_instructions
	.p2align	4
_aes_v2.aes_ctr.add_in_batches.add_next.1: # @_aes_v2.aes_ctr.add_in_batches.add_next.1
# %bb.0:                                # %start
	pushq	%r15
	pushq	%r14
	pushq	%r13
	pushq	%r12
	pushq	%rbx
	subq	$384, %rsp                      # imm = 0x180
	movq	%r9, %r12
	movq	%r8, %r15
	movq	%rcx, %rbx
	addq	%rcx, %rdx
	movl	%edx, %r13d
	andl	$15, %r13d
	movl	$128, %eax
	subq	%r13, %rax
	movq	%r9, %r14
	subq	%rcx, %r14
	cmpq	%rax, %r14
	cmovaeq	%rax, %r14
	leaq	(%r14,%r13), %rcx
	shrq	$4, %rdx
	xorps	%xmm0, %xmm0
	movups	%xmm0, 233(%rsp)
	movups	%xmm0, 217(%rsp)
	movups	%xmm0, 201(%rsp)
	movups	%xmm0, 185(%rsp)
	movups	%xmm0, 169(%rsp)
	movups	%xmm0, 153(%rsp)
	movups	%xmm0, 137(%rsp)
	movups	%xmm0, 121(%rsp)
	movups	%xmm0, 105(%rsp)
	movups	%xmm0, 89(%rsp)
	movq	$0, 248(%rsp)
	movq	(%rsi), %rax
	bswapq	%rax
	movq	8(%rsi), %rsi
	bswapq	%rsi
	addq	%rdx, %rsi
	adcq	$0, %rax
	movq	%rsi, %xmm0
	movq	%rax, %xmm1
	punpcklqdq	%xmm1, %xmm0            # xmm0 = xmm0[0],xmm1[0]
	movdqa	l_aes_v2_CPI13_0(%rip), %xmm6          # xmm6 = [15,14,13,12,11,10,9,8,7,6,5,4,3,2,1,0]
	pshufb	%xmm6, %xmm0
	movq	%rsi, %rdx
	addq	$1, %rdx
	movq	%rax, %r8
	adcq	$0, %r8
	movdqa	%xmm0, (%rsp)
	movq	%r8, %xmm0
	movq	%rdx, %xmm4
	punpcklqdq	%xmm0, %xmm4            # xmm4 = xmm4[0],xmm0[0]
	movdqa	%xmm4, %xmm0
	pshufb	%xmm6, %xmm0
	movdqa	%xmm0, 16(%rsp)
	movq	%rsi, %rdx
	addq	$2, %rdx
	movq	%rax, %r8
	adcq	$0, %r8
	movq	%r8, %xmm0
	movq	%rdx, %xmm3
	punpcklqdq	%xmm0, %xmm3            # xmm3 = xmm3[0],xmm0[0]
	movdqa	%xmm3, %xmm0
	pshufb	%xmm6, %xmm0
	movdqa	%xmm0, 32(%rsp)
	movq	%rsi, %rdx
	addq	$3, %rdx
	movq	%rax, %r8
	adcq	$0, %r8
	movq	%r8, %xmm1
	movq	%rdx, %xmm0
	punpcklqdq	%xmm1, %xmm0            # xmm0 = xmm0[0],xmm1[0]
	movdqa	%xmm0, %xmm1
	pshufb	%xmm6, %xmm1
	movdqa	%xmm1, 48(%rsp)
	movq	%rsi, %rdx
	addq	$4, %rdx
	movq	%rax, %r8
	adcq	$0, %r8
	movq	%r8, %xmm1
	movq	%rdx, %xmm5
	punpcklqdq	%xmm1, %xmm5            # xmm5 = xmm5[0],xmm1[0]
	movdqa	%xmm5, %xmm1
	pshufb	%xmm6, %xmm1
	movq	%rsi, %rdx
	addq	$5, %rdx
	movq	%rax, %r8
	adcq	$0, %r8
	movdqa	%xmm1, 64(%rsp)
	movq	%r8, %xmm1
	movq	%rdx, %xmm2
	punpcklqdq	%xmm1, %xmm2            # xmm2 = xmm2[0],xmm1[0]
	movdqa	%xmm2, %xmm1
	pshufb	%xmm6, %xmm1
	movdqa	%xmm1, 80(%rsp)
	movq	%rsi, %rdx
	addq	$6, %rdx
	movq	%rax, %r8
	adcq	$0, %r8
	movq	%r8, %xmm1
	movq	%rdx, %xmm7
	punpcklqdq	%xmm1, %xmm7            # xmm7 = xmm7[0],xmm1[0]
	movdqa	%xmm7, %xmm1
	pshufb	%xmm6, %xmm1
	addq	$7, %rsi
	adcq	$0, %rax
	movdqa	%xmm1, 96(%rsp)
	movq	%rax, %xmm8
	movq	%rsi, %xmm1
	punpcklqdq	%xmm8, %xmm1            # xmm1 = xmm1[0],xmm8[0]
	movdqa	%xmm1, %xmm8
	pshufb	%xmm6, %xmm8
	movdqa	%xmm8, 112(%rsp)
	cmpq	$80, %rcx
	ja	Laes_v2_BB13_2
# %bb.1:                                # %then.1.i.i
	addq	$15, %rcx
	shrq	$4, %rcx
	movq	(%rdi), %rax
	movq	16(%rax), %rdi
	movq	24(%rax), %rsi
	movq	%rsp, %rdx
	callq	_aes_v2.aes_permute.blocks.process_on_lanes.1
	leaq	(%r15,%rbx), %rax
	testq	%r13, %r13
	je	Laes_v2_BB13_4
Laes_v2_BB13_5:                               # %then.1.i
	movl	$16, %ecx
	subq	%r13, %rcx
	cmpq	%rcx, %r14
	cmovbq	%r14, %rcx
	cmpq	%rbx, %r12
	je	Laes_v2_BB13_13
# %bb.6:                                # %join.8.i80.lr.ph
	movl	%ecx, %edx
	andl	$3, %edx
	cmpq	$4, %rcx
	jae	Laes_v2_BB13_8
# %bb.7:
	xorl	%esi, %esi
	jmp	Laes_v2_BB13_11
Laes_v2_BB13_2:                               # %else.2.i.i
	movq	%rdi, %rax
	movq	8(%rdi), %rdi
	movq	16(%rax), %rsi
	movdqu	20(%rsp), %xmm6
	pshufd	$80, %xmm6, %xmm6               # xmm6 = xmm6[0,0,1,1]
	pblendw	$3, 16(%rsp), %xmm6             # xmm6 = mem[0,1],xmm6[2,3,4,5,6,7]
	movdqa	(%rsp), %xmm9
	shrq	$3, %rsi
	decq	%rsi
	pshufb	l_aes_v2_CPI13_2(%rip), %xmm4          # xmm4 = zero,zero,zero,xmm4[3],zero,zero,zero,xmm4[2],zero,zero,zero,xmm4[1],zero,zero,zero,xmm4[0]
	pshufb	l_aes_v2_CPI13_3(%rip), %xmm6          # xmm6 = xmm6[0,4,8],zero,xmm6[1,5,9],zero,xmm6[2,6,10],zero,xmm6[3,7,11],zero
	pshufb	l_aes_v2_CPI13_1(%rip), %xmm9          # xmm9 = xmm9[0,4,8,12,1,5,9,13,2,6,10,14,3,7,11,15]
	por	%xmm4, %xmm6
	movdqa	l_aes_v2_CPI13_4(%rip), %xmm4          # xmm4 = [15,11,7,3,14,10,6,2,13,9,5,1,12,8,4,0]
	pshufb	%xmm4, %xmm3
	pshufb	%xmm4, %xmm0
	pshufb	%xmm4, %xmm5
	pshufb	%xmm4, %xmm2
	pshufb	%xmm4, %xmm7
	pshufb	%xmm4, %xmm1
	movdqa	%xmm9, %xmm8
	psrlw	$1, %xmm8
	pxor	%xmm6, %xmm8
	movdqa	l_aes_v2_CPI13_5(%rip), %xmm10         # xmm10 = [85,85,85,85,85,85,85,85,85,85,85,85,85,85,85,85]
	pand	%xmm10, %xmm8
	pxor	%xmm8, %xmm6
	paddb	%xmm8, %xmm8
	pxor	%xmm9, %xmm8
	movdqa	%xmm3, %xmm4
	psrlw	$1, %xmm4
	pxor	%xmm0, %xmm4
	pand	%xmm10, %xmm4
	pxor	%xmm4, %xmm0
	paddb	%xmm4, %xmm4
	pxor	%xmm3, %xmm4
	movdqa	%xmm5, %xmm9
	psrlw	$1, %xmm9
	pxor	%xmm2, %xmm9
	pand	%xmm10, %xmm9
	pxor	%xmm9, %xmm2
	paddb	%xmm9, %xmm9
	pxor	%xmm5, %xmm9
	movdqa	%xmm7, %xmm3
	psrlw	$1, %xmm3
	pxor	%xmm1, %xmm3
	pand	%xmm10, %xmm3
	pxor	%xmm3, %xmm1
	paddb	%xmm3, %xmm3
	pxor	%xmm7, %xmm3
	movdqa	%xmm8, %xmm7
	psrlw	$2, %xmm7
	pxor	%xmm4, %xmm7
	movdqa	l_aes_v2_CPI13_6(%rip), %xmm10         # xmm10 = [51,51,51,51,51,51,51,51,51,51,51,51,51,51,51,51]
	pand	%xmm10, %xmm7
	pxor	%xmm7, %xmm4
	psllw	$2, %xmm7
	pxor	%xmm8, %xmm7
	movdqa	%xmm9, %xmm5
	psrlw	$2, %xmm5
	pxor	%xmm3, %xmm5
	pand	%xmm10, %xmm5
	pxor	%xmm5, %xmm3
	psllw	$2, %xmm5
	pxor	%xmm9, %xmm5
	movdqa	%xmm6, %xmm8
	psrlw	$2, %xmm8
	pxor	%xmm0, %xmm8
	pand	%xmm10, %xmm8
	pxor	%xmm8, %xmm0
	psllw	$2, %xmm8
	pxor	%xmm6, %xmm8
	movdqa	%xmm2, %xmm6
	psrlw	$2, %xmm6
	pxor	%xmm1, %xmm6
	pand	%xmm10, %xmm6
	pxor	%xmm6, %xmm1
	psllw	$2, %xmm6
	pxor	%xmm2, %xmm6
	movdqa	%xmm7, %xmm2
	psrlw	$4, %xmm2
	movdqa	l_aes_v2_CPI13_7(%rip), %xmm9          # xmm9 = [15,15,15,15,15,15,15,15,15,15,15,15,15,15,15,15]
	pxor	%xmm5, %xmm2
	pand	%xmm9, %xmm2
	pxor	%xmm2, %xmm5
	psllw	$4, %xmm2
	pxor	%xmm7, %xmm2
	movdqa	%xmm8, %xmm7
	psrlw	$4, %xmm7
	pxor	%xmm6, %xmm7
	pand	%xmm9, %xmm7
	pxor	%xmm7, %xmm6
	psllw	$4, %xmm7
	pxor	%xmm8, %xmm7
	movdqa	%xmm4, %xmm8
	psrlw	$4, %xmm8
	pxor	%xmm3, %xmm8
	pand	%xmm9, %xmm8
	pxor	%xmm8, %xmm3
	psllw	$4, %xmm8
	pxor	%xmm4, %xmm8
	movdqa	%xmm0, %xmm4
	psrlw	$4, %xmm4
	pxor	%xmm1, %xmm4
	pand	%xmm9, %xmm4
	pxor	%xmm4, %xmm1
	psllw	$4, %xmm4
	pxor	%xmm0, %xmm4
	movdqa	%xmm2, 256(%rsp)
	movdqa	%xmm7, 272(%rsp)
	movdqa	%xmm8, 288(%rsp)
	movdqa	%xmm4, 304(%rsp)
	movdqa	%xmm5, 320(%rsp)
	movdqa	%xmm6, 336(%rsp)
	movdqa	%xmm3, 352(%rsp)
	movdqa	%xmm1, 368(%rsp)
	leaq	256(%rsp), %rdx
	callq	_aes_v2.aes_soft.soft.ciphers.planes.EncryptPlaneCipher.process_planes
	movdqa	256(%rsp), %xmm3
	movdqa	272(%rsp), %xmm6
	movdqa	288(%rsp), %xmm8
	movdqa	304(%rsp), %xmm1
	movdqa	320(%rsp), %xmm2
	movdqa	336(%rsp), %xmm4
	movdqa	352(%rsp), %xmm7
	movdqa	368(%rsp), %xmm0
	movdqa	%xmm3, %xmm5
	psrlw	$1, %xmm5
	pxor	%xmm6, %xmm5
	movdqa	l_aes_v2_CPI13_5(%rip), %xmm9          # xmm9 = [85,85,85,85,85,85,85,85,85,85,85,85,85,85,85,85]
	pand	%xmm9, %xmm5
	pxor	%xmm5, %xmm6
	paddb	%xmm5, %xmm5
	pxor	%xmm3, %xmm5
	movdqa	%xmm8, %xmm3
	psrlw	$1, %xmm3
	pxor	%xmm1, %xmm3
	pand	%xmm9, %xmm3
	pxor	%xmm3, %xmm1
	paddb	%xmm3, %xmm3
	pxor	%xmm8, %xmm3
	movdqa	%xmm2, %xmm8
	psrlw	$1, %xmm8
	pxor	%xmm4, %xmm8
	pand	%xmm9, %xmm8
	pxor	%xmm8, %xmm4
	paddb	%xmm8, %xmm8
	pxor	%xmm2, %xmm8
	movdqa	%xmm7, %xmm2
	psrlw	$1, %xmm2
	pxor	%xmm0, %xmm2
	pand	%xmm9, %xmm2
	pxor	%xmm2, %xmm0
	paddb	%xmm2, %xmm2
	pxor	%xmm7, %xmm2
	movdqa	%xmm5, %xmm7
	psrlw	$2, %xmm7
	pxor	%xmm3, %xmm7
	movdqa	l_aes_v2_CPI13_6(%rip), %xmm9          # xmm9 = [51,51,51,51,51,51,51,51,51,51,51,51,51,51,51,51]
	pand	%xmm9, %xmm7
	pxor	%xmm7, %xmm3
	psllw	$2, %xmm7
	pxor	%xmm5, %xmm7
	movdqa	%xmm8, %xmm5
	psrlw	$2, %xmm5
	pxor	%xmm2, %xmm5
	pand	%xmm9, %xmm5
	pxor	%xmm5, %xmm2
	psllw	$2, %xmm5
	pxor	%xmm8, %xmm5
	movdqa	%xmm6, %xmm8
	psrlw	$2, %xmm8
	pxor	%xmm1, %xmm8
	pand	%xmm9, %xmm8
	pxor	%xmm8, %xmm1
	psllw	$2, %xmm8
	pxor	%xmm6, %xmm8
	movdqa	%xmm4, %xmm6
	psrlw	$2, %xmm6
	pxor	%xmm0, %xmm6
	pand	%xmm9, %xmm6
	pxor	%xmm6, %xmm0
	psllw	$2, %xmm6
	pxor	%xmm4, %xmm6
	movdqa	%xmm7, %xmm4
	psrlw	$4, %xmm4
	pxor	%xmm5, %xmm4
	movdqa	l_aes_v2_CPI13_7(%rip), %xmm9          # xmm9 = [15,15,15,15,15,15,15,15,15,15,15,15,15,15,15,15]
	pand	%xmm9, %xmm4
	pxor	%xmm4, %xmm5
	psllw	$4, %xmm4
	pxor	%xmm7, %xmm4
	movdqa	%xmm8, %xmm7
	psrlw	$4, %xmm7
	pxor	%xmm6, %xmm7
	pand	%xmm9, %xmm7
	pxor	%xmm7, %xmm6
	psllw	$4, %xmm7
	pxor	%xmm8, %xmm7
	movdqa	%xmm3, %xmm8
	psrlw	$4, %xmm8
	pxor	%xmm2, %xmm8
	pand	%xmm9, %xmm8
	pxor	%xmm8, %xmm2
	psllw	$4, %xmm8
	pxor	%xmm3, %xmm8
	movdqa	%xmm1, %xmm3
	psrlw	$4, %xmm3
	pxor	%xmm0, %xmm3
	pand	%xmm9, %xmm3
	pxor	%xmm3, %xmm0
	psllw	$4, %xmm3
	pxor	%xmm1, %xmm3
	movdqa	l_aes_v2_CPI13_1(%rip), %xmm1          # xmm1 = [0,4,8,12,1,5,9,13,2,6,10,14,3,7,11,15]
	pshufb	%xmm1, %xmm4
	movdqa	%xmm4, (%rsp)
	pshufb	%xmm1, %xmm7
	movdqa	%xmm7, 16(%rsp)
	pshufb	%xmm1, %xmm8
	movdqa	%xmm8, 32(%rsp)
	pshufb	%xmm1, %xmm3
	movdqa	%xmm3, 48(%rsp)
	pshufb	%xmm1, %xmm5
	movdqa	%xmm5, 64(%rsp)
	pshufb	%xmm1, %xmm6
	movdqa	%xmm6, 80(%rsp)
	pshufb	%xmm1, %xmm2
	movdqa	%xmm2, 96(%rsp)
	pshufb	%xmm1, %xmm0
	movdqa	%xmm0, 112(%rsp)
	leaq	(%r15,%rbx), %rax
	testq	%r13, %r13
	jne	Laes_v2_BB13_5
Laes_v2_BB13_4:
	xorl	%ecx, %ecx
	jmp	Laes_v2_BB13_13
Laes_v2_BB13_8:                               # %join.8.i80.lr.ph.new
	movl	%ecx, %edi
	andl	$28, %edi
	movq	%rsp, %rsi
	leaq	(%rsi,%r13), %r8
	addq	$3, %r8
	leaq	(%rbx,%r15), %r9
	addq	$3, %r9
	xorl	%esi, %esi
	.p2align	4
Laes_v2_BB13_9:                               # %join.8.i80
                                        # =>This Inner Loop Header: Depth=1
	movzbl	-3(%r8,%rsi), %r10d
	xorb	%r10b, -3(%r9,%rsi)
	movzbl	-2(%r8,%rsi), %r10d
	xorb	%r10b, -2(%r9,%rsi)
	movzbl	-1(%r8,%rsi), %r10d
	xorb	%r10b, -1(%r9,%rsi)
	movzbl	(%r8,%rsi), %r10d
	xorb	%r10b, (%r9,%rsi)
	addq	$4, %rsi
	cmpq	%rsi, %rdi
	jne	Laes_v2_BB13_9
# %bb.10:                               # %join.3.i.loopexit.unr-lcssa
	testq	%rdx, %rdx
	je	Laes_v2_BB13_13
Laes_v2_BB13_11:                              # %join.8.i80.epil.preheader
	leaq	(%rax,%rsi), %rdi
	addq	%r13, %rsi
	addq	%rsp, %rsi
	xorl	%r8d, %r8d
	.p2align	4
Laes_v2_BB13_12:                              # %join.8.i80.epil
                                        # =>This Inner Loop Header: Depth=1
	movzbl	(%rsi,%r8), %r9d
	xorb	%r9b, (%rdi,%r8)
	incq	%r8
	cmpq	%r8, %rdx
	jne	Laes_v2_BB13_12
Laes_v2_BB13_13:                              # %join.3.i
	movq	%r14, %rdx
	subq	%rcx, %rdx
	cmpq	$16, %rdx
	jb	Laes_v2_BB13_15
	.p2align	4
Laes_v2_BB13_14:                              # %join.8.i
                                        # =>This Inner Loop Header: Depth=1
	leaq	(%rcx,%r13), %rsi
	andq	$-16, %rsi
	movdqu	(%rax,%rcx), %xmm0
	pxor	(%rsp,%rsi), %xmm0
	movdqu	%xmm0, (%rax,%rcx)
	addq	$16, %rcx
	addq	$-16, %rdx
	cmpq	$15, %rdx
	ja	Laes_v2_BB13_14
Laes_v2_BB13_15:                              # %after.4.i
	cmpq	%r14, %rcx
	jae	Laes_v2_BB13_23
# %bb.16:                               # %then.9.i
	testq	%rdx, %rdx
	je	Laes_v2_BB13_23
# %bb.17:                               # %iter.check
	addq	%rcx, %r13
	andq	$-16, %r13
	leaq	(%rsp,%r13), %rsi
	addq	%rcx, %rax
	cmpq	$4, %rdx
	jae	Laes_v2_BB13_20
# %bb.18:
	xorl	%ecx, %ecx
	jmp	Laes_v2_BB13_19
Laes_v2_BB13_20:                              # %vec.epilog.ph
	movl	%edx, %ecx
	andl	$12, %ecx
	xorl	%edi, %edi
	.p2align	4
Laes_v2_BB13_21:                              # %vec.epilog.vector.body
                                        # =>This Inner Loop Header: Depth=1
	movl	(%rsi,%rdi), %r8d
	xorl	%r8d, (%rax,%rdi)
	addq	$4, %rdi
	cmpq	%rdi, %rcx
	jne	Laes_v2_BB13_21
	jmp	Laes_v2_BB13_22
Laes_v2_BB13_19:                              # %join.8.i23
	movzbl	(%rsi,%rcx), %edi
	xorb	%dil, (%rax,%rcx)
	incq	%rcx
Laes_v2_BB13_22:                              # %join.8.i23
	cmpq	%rcx, %rdx
	jne	Laes_v2_BB13_19
Laes_v2_BB13_23:                              # %"aes_ctr::add_blocks::add_blocks.exit"
	addq	%rbx, %r14
	movq	%r14, %rax
	addq	$384, %rsp                      # imm = 0x180
	popq	%rbx
	popq	%r12
	popq	%r13
	popq	%r14
	popq	%r15
	retq
                                        # -- End function
	.section	__TEXT,__text,regular,pure_instructions
	.p2align	4                               # -- Begin function aes_cipher::zeroize::stack::wipe_stack::<=2032>
_aes_v2.aes_cipher.zeroize.stack.wipe_stack.2032: # @_aes_v2.aes_cipher.zeroize.stack.wipe_stack.2032
# %bb.0:                                # %start
	subq	$2040, %rsp                     # imm = 0x7F8
	leaq	8(%rsp), %rdi
	movl	$2032, %edx                     # imm = 0x7F0
	xorl	%esi, %esi
	callq	*_memset@GOTPCREL(%rip)
	movq	$0, (%rsp)
	#APP
	#NO_APP
	movq	(%rsp), %rax
	#APP
	#NO_APP
	cmpq	$2032, %rax                     # imm = 0x7F0
	jae	Laes_v2_BB14_2
# %bb.1:                                # %then.1
	movzbl	8(%rsp,%rax), %eax
	#APP
	#NO_APP
	xchgq	%rax, (%rsp)
	#APP
	#NO_APP
Laes_v2_BB14_2:                               # %common.ret
	addq	$2040, %rsp                     # imm = 0x7F8
	retq
                                        # -- End function
	.section	__TEXT,__const
	.p2align	4, 0x0                          # -- Begin function aes_ctr::add_in_batches::add_next::<#2d16df7ebc44f3ac>
l_aes_v2_CPI15_0:
	.byte	15                              # 0xf
	.byte	14                              # 0xe
	.byte	13                              # 0xd
	.byte	12                              # 0xc
	.byte	11                              # 0xb
	.byte	10                              # 0xa
	.byte	9                               # 0x9
	.byte	8                               # 0x8
	.byte	7                               # 0x7
	.byte	6                               # 0x6
	.byte	5                               # 0x5
	.byte	4                               # 0x4
	.byte	3                               # 0x3
	.byte	2                               # 0x2
	.byte	1                               # 0x1
	.byte	0                               # 0x0
	.section	__TEXT,__text,regular,pure_instructions
	.p2align	4
_aes_v2.aes_ctr.add_in_batches.add_next.2: # @_aes_v2.aes_ctr.add_in_batches.add_next.2
# %bb.0:                                # %start
	pushq	%rbp
	pushq	%r15
	pushq	%r14
	pushq	%r13
	pushq	%r12
	pushq	%rbx
	subq	$264, %rsp                      # imm = 0x108
	movq	%r9, %r12
	movq	%r8, %r15
	movq	%rcx, %rbx
	addq	%rcx, %rdx
	movl	%edx, %ebp
	andl	$15, %ebp
	movl	$64, %eax
	subq	%rbp, %rax
	movq	%r9, %r14
	subq	%rcx, %r14
	cmpq	%rax, %r14
	cmovaeq	%rax, %r14
	leal	(%r14,%rbp), %ecx
	addl	$15, %ecx
	shrl	$4, %ecx
	xorps	%xmm0, %xmm0
	movaps	%xmm0, 240(%rsp)
	movaps	%xmm0, 224(%rsp)
	movaps	%xmm0, 208(%rsp)
	movaps	%xmm0, 192(%rsp)
	movaps	%xmm0, 176(%rsp)
	movaps	%xmm0, 160(%rsp)
	movaps	%xmm0, 144(%rsp)
	movaps	%xmm0, 128(%rsp)
	movaps	%xmm0, 112(%rsp)
	movaps	%xmm0, 96(%rsp)
	movaps	%xmm0, 80(%rsp)
	movaps	%xmm0, 64(%rsp)
	movq	(%rsi), %r8
	movq	8(%rsi), %rax
	bswapq	%r8
	bswapq	%rax
	shrq	$4, %rdx
	addq	%rdx, %rax
	adcq	$0, %r8
	movq	%rax, %xmm1
	movq	%r8, %xmm0
	punpcklqdq	%xmm0, %xmm1            # xmm1 = xmm1[0],xmm0[0]
	movdqa	l_aes_v2_CPI15_0(%rip), %xmm0          # xmm0 = [15,14,13,12,11,10,9,8,7,6,5,4,3,2,1,0]
	pshufb	%xmm0, %xmm1
	movdqa	%xmm1, (%rsp)
	movq	%rax, %rdx
	addq	$1, %rdx
	movq	%r8, %rsi
	adcq	$0, %rsi
	movq	%rsi, %xmm1
	movq	%rdx, %xmm2
	punpcklqdq	%xmm1, %xmm2            # xmm2 = xmm2[0],xmm1[0]
	pshufb	%xmm0, %xmm2
	movq	%rax, %rdx
	addq	$2, %rdx
	movq	%r8, %rsi
	adcq	$0, %rsi
	movdqa	%xmm2, 16(%rsp)
	movq	%rsi, %xmm1
	movq	%rdx, %xmm2
	punpcklqdq	%xmm1, %xmm2            # xmm2 = xmm2[0],xmm1[0]
	pshufb	%xmm0, %xmm2
	addq	$3, %rax
	adcq	$0, %r8
	movdqa	%xmm2, 32(%rsp)
	movq	%r8, %xmm1
	movq	%rax, %xmm2
	punpcklqdq	%xmm1, %xmm2            # xmm2 = xmm2[0],xmm1[0]
	pshufb	%xmm0, %xmm2
	movdqa	%xmm2, 48(%rsp)
	movq	16(%rdi), %rax
	movq	24(%rdi), %rsi
	movq	%rsp, %r13
	movq	%rax, %rdi
	movq	%r13, %rdx
	callq	_aes_v2.aes_permute.blocks.process_on_lanes.1
	leaq	(%r15,%rbx), %rax
	testq	%rbp, %rbp
	je	Laes_v2_BB15_1
# %bb.2:                                # %then.1.i
	movl	$16, %ecx
	subq	%rbp, %rcx
	cmpq	%rcx, %r14
	cmovbq	%r14, %rcx
	cmpq	%rbx, %r12
	je	Laes_v2_BB15_10
# %bb.3:                                # %join.8.i80.lr.ph
	movl	%ecx, %edx
	andl	$3, %edx
	cmpq	$4, %rcx
	jae	Laes_v2_BB15_5
# %bb.4:
	xorl	%esi, %esi
	jmp	Laes_v2_BB15_8
Laes_v2_BB15_1:
	xorl	%ecx, %ecx
	jmp	Laes_v2_BB15_10
Laes_v2_BB15_5:                               # %join.8.i80.lr.ph.new
	movl	%ecx, %edi
	andl	$28, %edi
	leaq	3(,%r13), %r8
	addq	%rbp, %r8
	leaq	(%rbx,%r15), %r9
	addq	$3, %r9
	xorl	%esi, %esi
	.p2align	4
Laes_v2_BB15_6:                               # %join.8.i80
                                        # =>This Inner Loop Header: Depth=1
	movzbl	-3(%r8,%rsi), %r10d
	xorb	%r10b, -3(%r9,%rsi)
	movzbl	-2(%r8,%rsi), %r10d
	xorb	%r10b, -2(%r9,%rsi)
	movzbl	-1(%r8,%rsi), %r10d
	xorb	%r10b, -1(%r9,%rsi)
	movzbl	(%r8,%rsi), %r10d
	xorb	%r10b, (%r9,%rsi)
	addq	$4, %rsi
	cmpq	%rsi, %rdi
	jne	Laes_v2_BB15_6
# %bb.7:                                # %join.3.i.loopexit.unr-lcssa
	testq	%rdx, %rdx
	je	Laes_v2_BB15_10
Laes_v2_BB15_8:                               # %join.8.i80.epil.preheader
	leaq	(%rax,%rsi), %rdi
	addq	%rbp, %rsi
	addq	%rsp, %rsi
	xorl	%r8d, %r8d
	.p2align	4
Laes_v2_BB15_9:                               # %join.8.i80.epil
                                        # =>This Inner Loop Header: Depth=1
	movzbl	(%rsi,%r8), %r9d
	xorb	%r9b, (%rdi,%r8)
	incq	%r8
	cmpq	%r8, %rdx
	jne	Laes_v2_BB15_9
Laes_v2_BB15_10:                              # %join.3.i
	movq	%r14, %rdx
	subq	%rcx, %rdx
	cmpq	$16, %rdx
	jb	Laes_v2_BB15_12
	.p2align	4
Laes_v2_BB15_11:                              # %join.8.i
                                        # =>This Inner Loop Header: Depth=1
	leaq	(%rcx,%rbp), %rsi
	andq	$-16, %rsi
	movdqu	(%rax,%rcx), %xmm0
	pxor	(%rsp,%rsi), %xmm0
	movdqu	%xmm0, (%rax,%rcx)
	addq	$16, %rcx
	addq	$-16, %rdx
	cmpq	$15, %rdx
	ja	Laes_v2_BB15_11
Laes_v2_BB15_12:                              # %after.4.i
	cmpq	%r14, %rcx
	jae	Laes_v2_BB15_20
# %bb.13:                               # %then.9.i
	testq	%rdx, %rdx
	je	Laes_v2_BB15_20
# %bb.14:                               # %iter.check
	addq	%rcx, %rbp
	andq	$-16, %rbp
	leaq	(%rsp,%rbp), %rsi
	addq	%rcx, %rax
	cmpq	$4, %rdx
	jae	Laes_v2_BB15_17
# %bb.15:
	xorl	%ecx, %ecx
	jmp	Laes_v2_BB15_16
Laes_v2_BB15_17:                              # %vec.epilog.ph
	movl	%edx, %ecx
	andl	$12, %ecx
	xorl	%edi, %edi
	.p2align	4
Laes_v2_BB15_18:                              # %vec.epilog.vector.body
                                        # =>This Inner Loop Header: Depth=1
	movl	(%rsi,%rdi), %r8d
	xorl	%r8d, (%rax,%rdi)
	addq	$4, %rdi
	cmpq	%rdi, %rcx
	jne	Laes_v2_BB15_18
	jmp	Laes_v2_BB15_19
Laes_v2_BB15_16:                              # %join.8.i23
	movzbl	(%rsi,%rcx), %edi
	xorb	%dil, (%rax,%rcx)
	incq	%rcx
Laes_v2_BB15_19:                              # %join.8.i23
	cmpq	%rcx, %rdx
	jne	Laes_v2_BB15_16
Laes_v2_BB15_20:                              # %"aes_ctr::add_blocks::add_blocks.exit"
	addq	%rbx, %r14
	movq	%r14, %rax
	addq	$264, %rsp                      # imm = 0x108
	popq	%rbx
	popq	%r12
	popq	%r13
	popq	%r14
	popq	%r15
	popq	%rbp
	retq
                                        # -- End function
	.section	__TEXT,__text,regular,pure_instructions
	.p2align	4                               # -- Begin function aes_cipher::zeroize::elements::zeroize_elements::<#530874d131791bfe>
_aes_v2.aes_cipher.zeroize.elements.zeroize_elements.1: # @_aes_v2.aes_cipher.zeroize.elements.zeroize_elements.1
# %bb.0:                                # %start
	xorps	%xmm0, %xmm0
	movaps	%xmm0, -24(%rsp)
	movq	$0, -8(%rsp)
	#APP
	#NO_APP
	movq	-8(%rsp), %rax
	#APP
	#NO_APP
	cmpq	$14, %rax
	ja	Laes_v2_BB16_1
# %bb.2:                                # %then.1.i6
	movq	%rax, %rcx
	shlq	$4, %rcx
	movzbl	(%rdi,%rcx), %ecx
	jmp	Laes_v2_BB16_3
Laes_v2_BB16_1:
	xorl	%ecx, %ecx
Laes_v2_BB16_3:                               # %"aes_cipher::zeroize::observe::<#3f54e6b29a41109e>.exit10"
	movaps	-24(%rsp), %xmm0
	movups	%xmm0, (%rdi)
	movaps	-24(%rsp), %xmm0
	movups	%xmm0, 16(%rdi)
	movaps	-24(%rsp), %xmm0
	movups	%xmm0, 32(%rdi)
	movaps	-24(%rsp), %xmm0
	movups	%xmm0, 48(%rdi)
	movaps	-24(%rsp), %xmm0
	movups	%xmm0, 64(%rdi)
	movaps	-24(%rsp), %xmm0
	movups	%xmm0, 80(%rdi)
	movaps	-24(%rsp), %xmm0
	movups	%xmm0, 96(%rdi)
	movaps	-24(%rsp), %xmm0
	movups	%xmm0, 112(%rdi)
	movaps	-24(%rsp), %xmm0
	movups	%xmm0, 128(%rdi)
	movaps	-24(%rsp), %xmm0
	movups	%xmm0, 144(%rdi)
	movaps	-24(%rsp), %xmm0
	movups	%xmm0, 160(%rdi)
	movaps	-24(%rsp), %xmm0
	movups	%xmm0, 176(%rdi)
	movaps	-24(%rsp), %xmm0
	movups	%xmm0, 192(%rdi)
	movaps	-24(%rsp), %xmm0
	movups	%xmm0, 208(%rdi)
	movaps	-24(%rsp), %xmm0
	movups	%xmm0, 224(%rdi)
	cmpq	$14, %rax
	ja	Laes_v2_BB16_4
# %bb.5:                                # %then.1.i
	shlq	$4, %rax
	andb	(%rdi,%rax), %cl
	movzbl	%cl, %eax
	#APP
	#NO_APP
	xchgq	%rax, -8(%rsp)
	#APP
	#NO_APP
	pxor	%xmm0, %xmm0
	pxor	%xmm1, %xmm1
	pxor	%xmm2, %xmm2
	pxor	%xmm3, %xmm3
	pxor	%xmm4, %xmm4
	pxor	%xmm5, %xmm5
	pxor	%xmm6, %xmm6
	pxor	%xmm7, %xmm7
	pxor	%xmm8, %xmm8
	pxor	%xmm9, %xmm9
	pxor	%xmm10, %xmm10
	pxor	%xmm11, %xmm11
	pxor	%xmm12, %xmm12
	pxor	%xmm13, %xmm13
	pxor	%xmm14, %xmm14
	pxor	%xmm15, %xmm15
	xorl	%ecx, %ecx
	xorl	%edx, %edx
	xorl	%esi, %esi
	xorl	%edi, %edi
	xorl	%r8d, %r8d
	xorl	%r9d, %r9d
	xorl	%r10d, %r10d
	xorl	%r11d, %r11d
	retq
Laes_v2_BB16_4:
	xorl	%eax, %eax
	#APP
	#NO_APP
	xchgq	%rax, -8(%rsp)
	#APP
	#NO_APP
	pxor	%xmm0, %xmm0
	pxor	%xmm1, %xmm1
	pxor	%xmm2, %xmm2
	pxor	%xmm3, %xmm3
	pxor	%xmm4, %xmm4
	pxor	%xmm5, %xmm5
	pxor	%xmm6, %xmm6
	pxor	%xmm7, %xmm7
	pxor	%xmm8, %xmm8
	pxor	%xmm9, %xmm9
	pxor	%xmm10, %xmm10
	pxor	%xmm11, %xmm11
	pxor	%xmm12, %xmm12
	pxor	%xmm13, %xmm13
	pxor	%xmm14, %xmm14
	pxor	%xmm15, %xmm15
	xorl	%ecx, %ecx
	xorl	%edx, %edx
	xorl	%esi, %esi
	xorl	%edi, %edi
	xorl	%r8d, %r8d
	xorl	%r9d, %r9d
	xorl	%r10d, %r10d
	xorl	%r11d, %r11d
	retq
                                        # -- End function
	.section	__TEXT,__text,regular,pure_instructions
	.p2align	4                               # -- Begin function cmac::tags::tag::<#ef80964e0b8d42c0>
_aes_v2.cmac.tags.tag: # @_aes_v2.cmac.tags.tag
# %bb.0:                                # %start
	pushq	%rbp
	pushq	%r15
	pushq	%r14
	pushq	%r13
	pushq	%r12
	pushq	%rbx
	subq	$40, %rsp
	movq	%rcx, %r14
	movq	%rdx, %r15
	movq	%rsi, %r12
	movq	%rdi, %rbx
	xorps	%xmm0, %xmm0
	movaps	%xmm0, (%rsp)
	cmpq	$1, %rcx
	movq	%rcx, %r13
	adcq	$-1, %r13
	andq	$-16, %r13
	movaps	%xmm0, 16(%rsp)
	leaq	16(%rsp), %rbp
	movq	%rsi, %rdi
	movq	%rbp, %rsi
	movq	%r13, %rcx
	callq	_aes_v2.cmac.chaining.chain
	addq	%r13, %r15
	subq	%r13, %r14
	movq	16(%r12), %rsi
	movq	24(%r12), %rdx
	movq	%rsp, %rdi
	movq	%rbp, %rcx
	movq	%r15, %r8
	movq	%r14, %r9
	callq	_aes_v2.cmac.tags.tag_at_end
	movaps	(%rsp), %xmm0
	movups	%xmm0, (%rbx)
	addq	$40, %rsp
	popq	%rbx
	popq	%r12
	popq	%r13
	popq	%r14
	popq	%r15
	popq	%rbp
	retq
                                        # -- End function
	.section	__TEXT,__const
	.p2align	4, 0x0                          # -- Begin function cmac::chaining::chain::<#ef80964e0b8d42c0>
l_aes_v2_CPI18_0:
	.zero	16,15
l_aes_v2_CPI18_1:
	.byte	0                               # 0x0
	.byte	1                               # 0x1
	.byte	28                              # 0x1c
	.byte	29                              # 0x1d
	.byte	45                              # 0x2d
	.byte	44                              # 0x2c
	.byte	49                              # 0x31
	.byte	48                              # 0x30
	.byte	39                              # 0x27
	.byte	38                              # 0x26
	.byte	59                              # 0x3b
	.byte	58                              # 0x3a
	.byte	10                              # 0xa
	.byte	11                              # 0xb
	.byte	22                              # 0x16
	.byte	23                              # 0x17
l_aes_v2_CPI18_2:
	.byte	0                               # 0x0
	.byte	134                             # 0x86
	.byte	253                             # 0xfd
	.byte	123                             # 0x7b
	.byte	142                             # 0x8e
	.byte	8                               # 0x8
	.byte	115                             # 0x73
	.byte	245                             # 0xf5
	.byte	119                             # 0x77
	.byte	241                             # 0xf1
	.byte	138                             # 0x8a
	.byte	12                              # 0xc
	.byte	249                             # 0xf9
	.byte	127                             # 0x7f
	.byte	4                               # 0x4
	.byte	130                             # 0x82
l_aes_v2_CPI18_3:
	.byte	128                             # 0x80
	.byte	2                               # 0x2
	.byte	1                               # 0x1
	.byte	15                              # 0xf
	.byte	9                               # 0x9
	.byte	5                               # 0x5
	.byte	14                              # 0xe
	.byte	12                              # 0xc
	.byte	13                              # 0xd
	.byte	4                               # 0x4
	.byte	11                              # 0xb
	.byte	10                              # 0xa
	.byte	7                               # 0x7
	.byte	8                               # 0x8
	.byte	6                               # 0x6
	.byte	3                               # 0x3
l_aes_v2_CPI18_4:
	.byte	128                             # 0x80
	.byte	1                               # 0x1
	.byte	9                               # 0x9
	.byte	14                              # 0xe
	.byte	13                              # 0xd
	.byte	11                              # 0xb
	.byte	7                               # 0x7
	.byte	6                               # 0x6
	.byte	15                              # 0xf
	.byte	2                               # 0x2
	.byte	12                              # 0xc
	.byte	5                               # 0x5
	.byte	10                              # 0xa
	.byte	4                               # 0x4
	.byte	3                               # 0x3
	.byte	8                               # 0x8
l_aes_v2_CPI18_5:
	.byte	0                               # 0x0
	.byte	195                             # 0xc3
	.byte	79                              # 0x4f
	.byte	12                              # 0xc
	.byte	252                             # 0xfc
	.byte	124                             # 0x7c
	.byte	67                              # 0x43
	.byte	128                             # 0x80
	.byte	207                             # 0xcf
	.byte	51                              # 0x33
	.byte	63                              # 0x3f
	.byte	112                             # 0x70
	.byte	191                             # 0xbf
	.byte	179                             # 0xb3
	.byte	240                             # 0xf0
	.byte	140                             # 0x8c
l_aes_v2_CPI18_6:
	.byte	0                               # 0x0
	.byte	230                             # 0xe6
	.byte	114                             # 0x72
	.byte	183                             # 0xb7
	.byte	229                             # 0xe5
	.byte	198                             # 0xc6
	.byte	197                             # 0xc5
	.byte	35                              # 0x23
	.byte	81                              # 0x51
	.byte	180                             # 0xb4
	.byte	3                               # 0x3
	.byte	113                             # 0x71
	.byte	32                              # 0x20
	.byte	151                             # 0x97
	.byte	82                              # 0x52
	.byte	148                             # 0x94
l_aes_v2_CPI18_7:
	.byte	0                               # 0x0
	.byte	124                             # 0x7c
	.byte	32                              # 0x20
	.byte	207                             # 0xcf
	.byte	146                             # 0x92
	.byte	1                               # 0x1
	.byte	239                             # 0xef
	.byte	147                             # 0x93
	.byte	179                             # 0xb3
	.byte	33                              # 0x21
	.byte	238                             # 0xee
	.byte	206                             # 0xce
	.byte	125                             # 0x7d
	.byte	178                             # 0xb2
	.byte	93                              # 0x5d
	.byte	92                              # 0x5c
l_aes_v2_CPI18_8:
	.byte	0                               # 0x0
	.byte	209                             # 0xd1
	.byte	229                             # 0xe5
	.byte	247                             # 0xf7
	.byte	230                             # 0xe6
	.byte	37                              # 0x25
	.byte	18                              # 0x12
	.byte	195                             # 0xc3
	.byte	38                              # 0x26
	.byte	192                             # 0xc0
	.byte	55                              # 0x37
	.byte	210                             # 0xd2
	.byte	244                             # 0xf4
	.byte	3                               # 0x3
	.byte	17                              # 0x11
	.byte	52                              # 0x34
l_aes_v2_CPI18_9:
	.byte	0                               # 0x0
	.byte	203                             # 0xcb
	.byte	215                             # 0xd7
	.byte	176                             # 0xb0
	.byte	33                              # 0x21
	.byte	141                             # 0x8d
	.byte	103                             # 0x67
	.byte	172                             # 0xac
	.byte	123                             # 0x7b
	.byte	90                              # 0x5a
	.byte	234                             # 0xea
	.byte	61                              # 0x3d
	.byte	70                              # 0x46
	.byte	246                             # 0xf6
	.byte	145                             # 0x91
	.byte	28                              # 0x1c
l_aes_v2_CPI18_10:
	.byte	0                               # 0x0
	.byte	159                             # 0x9f
	.byte	97                              # 0x61
	.byte	22                              # 0x16
	.byte	194                             # 0xc2
	.byte	42                              # 0x2a
	.byte	119                             # 0x77
	.byte	232                             # 0xe8
	.byte	137                             # 0x89
	.byte	75                              # 0x4b
	.byte	93                              # 0x5d
	.byte	60                              # 0x3c
	.byte	181                             # 0xb5
	.byte	163                             # 0xa3
	.byte	212                             # 0xd4
	.byte	254                             # 0xfe
	.section	__TEXT,__text,regular,pure_instructions
	.p2align	4
_aes_v2.cmac.chaining.chain: # @_aes_v2.cmac.chaining.chain
# %bb.0:                                # %start
	pushq	%rbp
	pushq	%r15
	pushq	%r14
	pushq	%r13
	pushq	%r12
	pushq	%rbx
	subq	$40, %rsp
	movq	%rcx, %rbx
	movq	%rcx, %r13
	shrq	$4, %r13
	movl	%ebx, %eax
	andl	$15, %eax
	cmpq	$1, %rax
	sbbq	$-1, %r13
	testq	%rcx, %rcx
	je	Laes_v2_BB18_6
# %bb.1:                                # %join.5.lr.ph
	movq	%rdx, %r14
	movq	%rsi, %r15
	movq	%rdi, %r12
	movdqu	(%rsi), %xmm3
	xorl	%ebp, %ebp
	jmp	Laes_v2_BB18_2
	.p2align	4
Laes_v2_BB18_5:                               # %"cmac::chaining::chain_block::<#ef80964e0b8d42c0>.exit"
                                        #   in Loop: Header=BB18_2 Depth=1
	shlq	$4, %rax
	movdqu	(%rcx,%rax), %xmm2
	movdqa	%xmm1, %xmm3
	psrlw	$4, %xmm3
	pand	%xmm0, %xmm3
	pand	%xmm0, %xmm1
	movdqa	%xmm3, %xmm0
	pxor	%xmm1, %xmm0
	movdqa	l_aes_v2_CPI18_3(%rip), %xmm4          # xmm4 = [128,2,1,15,9,5,14,12,13,4,11,10,7,8,6,3]
	pshufb	%xmm1, %xmm4
	movdqa	l_aes_v2_CPI18_4(%rip), %xmm1          # xmm1 = [128,1,9,14,13,11,7,6,15,2,12,5,10,4,3,8]
	movdqa	%xmm1, %xmm5
	pshufb	%xmm3, %xmm5
	movdqa	%xmm1, %xmm6
	pshufb	%xmm0, %xmm6
	pxor	%xmm4, %xmm5
	pxor	%xmm4, %xmm6
	movdqa	%xmm1, %xmm4
	pshufb	%xmm5, %xmm4
	pshufb	%xmm6, %xmm1
	pxor	%xmm0, %xmm4
	pxor	%xmm3, %xmm1
	movdqa	l_aes_v2_CPI18_9(%rip), %xmm0          # xmm0 = [0,203,215,176,33,141,103,172,123,90,234,61,70,246,145,28]
	pshufb	%xmm4, %xmm0
	movdqa	l_aes_v2_CPI18_10(%rip), %xmm3         # xmm3 = [0,159,97,22,194,42,119,232,137,75,93,60,181,163,212,254]
	pshufb	%xmm1, %xmm3
	pxor	%xmm0, %xmm3
	andl	$48, %eax
	leaq	l_aes_v2_static.3(%rip), %rcx
	movdqu	(%rax,%rcx), %xmm0
	pshufb	%xmm0, %xmm3
	pxor	%xmm2, %xmm3
	movdqu	%xmm3, (%r15)
	incq	%rbp
	cmpq	%r13, %rbp
	je	Laes_v2_BB18_6
Laes_v2_BB18_2:                               # %join.5
                                        # =>This Loop Header: Depth=1
                                        #     Child Loop BB18_4 Depth 2
	movdqa	%xmm3, 16(%rsp)                 # 16-byte Spill
	movq	%rbp, %rax
	shlq	$4, %rax
	leaq	16(%rax), %rdx
	cmpq	%rbx, %rdx
	cmovaeq	%rbx, %rdx
	leaq	(%r14,%rax), %rsi
	subq	%rax, %rdx
	xorps	%xmm0, %xmm0
	movaps	%xmm0, (%rsp)
	movq	%rsp, %rdi
	callq	*_memcpy@GOTPCREL(%rip)
	movdqa	16(%rsp), %xmm0                 # 16-byte Reload
	pxor	(%rsp), %xmm0
	movdqu	%xmm0, (%r15)
	movq	16(%r12), %rcx
	movq	24(%r12), %rdx
	leaq	-1(%rdx), %rax
	movdqu	(%rcx), %xmm2
	pxor	%xmm0, %xmm2
	movdqa	l_aes_v2_CPI18_0(%rip), %xmm0          # xmm0 = [15,15,15,15,15,15,15,15,15,15,15,15,15,15,15,15]
	movdqa	%xmm2, %xmm1
	pand	%xmm0, %xmm1
	movdqa	l_aes_v2_CPI18_1(%rip), %xmm3          # xmm3 = [0,1,28,29,45,44,49,48,39,38,59,58,10,11,22,23]
	pshufb	%xmm1, %xmm3
	psrlw	$4, %xmm2
	pand	%xmm0, %xmm2
	movdqa	l_aes_v2_CPI18_2(%rip), %xmm1          # xmm1 = [0,134,253,123,142,8,115,245,119,241,138,12,249,127,4,130]
	pshufb	%xmm2, %xmm1
	pxor	%xmm3, %xmm1
	cmpq	$2, %rax
	jb	Laes_v2_BB18_5
# %bb.3:                                # %join.5.i.i.i.preheader
                                        #   in Loop: Header=BB18_2 Depth=1
	addq	$-2, %rdx
	movl	$16, %esi
	.p2align	4
Laes_v2_BB18_4:                               # %join.5.i.i.i
                                        #   Parent Loop BB18_2 Depth=1
                                        # =>  This Inner Loop Header: Depth=2
	movdqu	(%rcx,%rsi), %xmm2
	movdqa	%xmm1, %xmm3
	psrlw	$4, %xmm3
	pand	%xmm0, %xmm3
	pand	%xmm0, %xmm1
	movdqa	%xmm3, %xmm4
	pxor	%xmm1, %xmm4
	movdqa	l_aes_v2_CPI18_3(%rip), %xmm5          # xmm5 = [128,2,1,15,9,5,14,12,13,4,11,10,7,8,6,3]
	pshufb	%xmm1, %xmm5
	movdqa	l_aes_v2_CPI18_4(%rip), %xmm1          # xmm1 = [128,1,9,14,13,11,7,6,15,2,12,5,10,4,3,8]
	movdqa	%xmm1, %xmm6
	pshufb	%xmm3, %xmm6
	movdqa	%xmm1, %xmm7
	pshufb	%xmm4, %xmm7
	pxor	%xmm5, %xmm6
	pxor	%xmm5, %xmm7
	movdqa	%xmm1, %xmm5
	pshufb	%xmm6, %xmm5
	pshufb	%xmm7, %xmm1
	pxor	%xmm4, %xmm5
	pxor	%xmm3, %xmm1
	movdqa	l_aes_v2_CPI18_5(%rip), %xmm4          # xmm4 = [0,195,79,12,252,124,67,128,207,51,63,112,191,179,240,140]
	pshufb	%xmm5, %xmm4
	movdqa	l_aes_v2_CPI18_6(%rip), %xmm3          # xmm3 = [0,230,114,183,229,198,197,35,81,180,3,113,32,151,82,148]
	pshufb	%xmm1, %xmm3
	pxor	%xmm4, %xmm3
	movdqa	l_aes_v2_CPI18_7(%rip), %xmm4          # xmm4 = [0,124,32,207,146,1,239,147,179,33,238,206,125,178,93,92]
	pshufb	%xmm5, %xmm4
	movdqa	l_aes_v2_CPI18_8(%rip), %xmm5          # xmm5 = [0,209,229,247,230,37,18,195,38,192,55,210,244,3,17,52]
	pshufb	%xmm1, %xmm5
	pxor	%xmm4, %xmm5
	movl	%esi, %edi
	andl	$48, %edi
	leaq	l_aes_v2_static.4(%rip), %r8
	movdqu	(%rdi,%r8), %xmm4
	movdqa	%xmm3, %xmm1
	pshufb	%xmm4, %xmm1
	pxor	%xmm5, %xmm1
	leaq	l_aes_v2_static.5(%rip), %r8
	movdqu	(%rdi,%r8), %xmm5
	pshufb	%xmm5, %xmm3
	pxor	%xmm2, %xmm3
	pxor	%xmm1, %xmm3
	pshufb	%xmm4, %xmm1
	pxor	%xmm3, %xmm1
	addq	$16, %rsi
	decq	%rdx
	jne	Laes_v2_BB18_4
	jmp	Laes_v2_BB18_5
Laes_v2_BB18_6:                               # %after.1
	addq	$40, %rsp
	popq	%rbx
	popq	%r12
	popq	%r13
	popq	%r14
	popq	%r15
	popq	%rbp
	retq
                                        # -- End function
	.section	__TEXT,__const
	.p2align	4, 0x0                          # -- Begin function cmac::tags::tag_at_end::<#ef80964e0b8d42c0>
l_aes_v2_CPI19_0:
	.zero	16,15
l_aes_v2_CPI19_1:
	.byte	0                               # 0x0
	.byte	1                               # 0x1
	.byte	28                              # 0x1c
	.byte	29                              # 0x1d
	.byte	45                              # 0x2d
	.byte	44                              # 0x2c
	.byte	49                              # 0x31
	.byte	48                              # 0x30
	.byte	39                              # 0x27
	.byte	38                              # 0x26
	.byte	59                              # 0x3b
	.byte	58                              # 0x3a
	.byte	10                              # 0xa
	.byte	11                              # 0xb
	.byte	22                              # 0x16
	.byte	23                              # 0x17
l_aes_v2_CPI19_2:
	.byte	0                               # 0x0
	.byte	134                             # 0x86
	.byte	253                             # 0xfd
	.byte	123                             # 0x7b
	.byte	142                             # 0x8e
	.byte	8                               # 0x8
	.byte	115                             # 0x73
	.byte	245                             # 0xf5
	.byte	119                             # 0x77
	.byte	241                             # 0xf1
	.byte	138                             # 0x8a
	.byte	12                              # 0xc
	.byte	249                             # 0xf9
	.byte	127                             # 0x7f
	.byte	4                               # 0x4
	.byte	130                             # 0x82
l_aes_v2_CPI19_3:
	.byte	128                             # 0x80
	.byte	2                               # 0x2
	.byte	1                               # 0x1
	.byte	15                              # 0xf
	.byte	9                               # 0x9
	.byte	5                               # 0x5
	.byte	14                              # 0xe
	.byte	12                              # 0xc
	.byte	13                              # 0xd
	.byte	4                               # 0x4
	.byte	11                              # 0xb
	.byte	10                              # 0xa
	.byte	7                               # 0x7
	.byte	8                               # 0x8
	.byte	6                               # 0x6
	.byte	3                               # 0x3
l_aes_v2_CPI19_4:
	.byte	128                             # 0x80
	.byte	1                               # 0x1
	.byte	9                               # 0x9
	.byte	14                              # 0xe
	.byte	13                              # 0xd
	.byte	11                              # 0xb
	.byte	7                               # 0x7
	.byte	6                               # 0x6
	.byte	15                              # 0xf
	.byte	2                               # 0x2
	.byte	12                              # 0xc
	.byte	5                               # 0x5
	.byte	10                              # 0xa
	.byte	4                               # 0x4
	.byte	3                               # 0x3
	.byte	8                               # 0x8
l_aes_v2_CPI19_5:
	.byte	0                               # 0x0
	.byte	195                             # 0xc3
	.byte	79                              # 0x4f
	.byte	12                              # 0xc
	.byte	252                             # 0xfc
	.byte	124                             # 0x7c
	.byte	67                              # 0x43
	.byte	128                             # 0x80
	.byte	207                             # 0xcf
	.byte	51                              # 0x33
	.byte	63                              # 0x3f
	.byte	112                             # 0x70
	.byte	191                             # 0xbf
	.byte	179                             # 0xb3
	.byte	240                             # 0xf0
	.byte	140                             # 0x8c
l_aes_v2_CPI19_6:
	.byte	0                               # 0x0
	.byte	230                             # 0xe6
	.byte	114                             # 0x72
	.byte	183                             # 0xb7
	.byte	229                             # 0xe5
	.byte	198                             # 0xc6
	.byte	197                             # 0xc5
	.byte	35                              # 0x23
	.byte	81                              # 0x51
	.byte	180                             # 0xb4
	.byte	3                               # 0x3
	.byte	113                             # 0x71
	.byte	32                              # 0x20
	.byte	151                             # 0x97
	.byte	82                              # 0x52
	.byte	148                             # 0x94
l_aes_v2_CPI19_7:
	.byte	0                               # 0x0
	.byte	124                             # 0x7c
	.byte	32                              # 0x20
	.byte	207                             # 0xcf
	.byte	146                             # 0x92
	.byte	1                               # 0x1
	.byte	239                             # 0xef
	.byte	147                             # 0x93
	.byte	179                             # 0xb3
	.byte	33                              # 0x21
	.byte	238                             # 0xee
	.byte	206                             # 0xce
	.byte	125                             # 0x7d
	.byte	178                             # 0xb2
	.byte	93                              # 0x5d
	.byte	92                              # 0x5c
l_aes_v2_CPI19_8:
	.byte	0                               # 0x0
	.byte	209                             # 0xd1
	.byte	229                             # 0xe5
	.byte	247                             # 0xf7
	.byte	230                             # 0xe6
	.byte	37                              # 0x25
	.byte	18                              # 0x12
	.byte	195                             # 0xc3
	.byte	38                              # 0x26
	.byte	192                             # 0xc0
	.byte	55                              # 0x37
	.byte	210                             # 0xd2
	.byte	244                             # 0xf4
	.byte	3                               # 0x3
	.byte	17                              # 0x11
	.byte	52                              # 0x34
l_aes_v2_CPI19_9:
	.byte	0                               # 0x0
	.byte	203                             # 0xcb
	.byte	215                             # 0xd7
	.byte	176                             # 0xb0
	.byte	33                              # 0x21
	.byte	141                             # 0x8d
	.byte	103                             # 0x67
	.byte	172                             # 0xac
	.byte	123                             # 0x7b
	.byte	90                              # 0x5a
	.byte	234                             # 0xea
	.byte	61                              # 0x3d
	.byte	70                              # 0x46
	.byte	246                             # 0xf6
	.byte	145                             # 0x91
	.byte	28                              # 0x1c
l_aes_v2_CPI19_10:
	.byte	0                               # 0x0
	.byte	159                             # 0x9f
	.byte	97                              # 0x61
	.byte	22                              # 0x16
	.byte	194                             # 0xc2
	.byte	42                              # 0x2a
	.byte	119                             # 0x77
	.byte	232                             # 0xe8
	.byte	137                             # 0x89
	.byte	75                              # 0x4b
	.byte	93                              # 0x5d
	.byte	60                              # 0x3c
	.byte	181                             # 0xb5
	.byte	163                             # 0xa3
	.byte	212                             # 0xd4
	.byte	254                             # 0xfe
l_aes_v2_CPI19_11:
	.byte	128                             # 0x80
	.byte	14                              # 0xe
	.byte	128                             # 0x80
	.byte	12                              # 0xc
	.byte	128                             # 0x80
	.byte	10                              # 0xa
	.byte	128                             # 0x80
	.byte	8                               # 0x8
	.byte	15                              # 0xf
	.byte	128                             # 0x80
	.byte	13                              # 0xd
	.byte	128                             # 0x80
	.byte	11                              # 0xb
	.byte	128                             # 0x80
	.byte	9                               # 0x9
	.byte	128                             # 0x80
l_aes_v2_CPI19_12:
	.byte	15                              # 0xf
	.byte	14                              # 0xe
	.byte	13                              # 0xd
	.byte	12                              # 0xc
	.byte	11                              # 0xb
	.byte	10                              # 0xa
	.byte	9                               # 0x9
	.byte	8                               # 0x8
	.byte	7                               # 0x7
	.byte	6                               # 0x6
	.byte	5                               # 0x5
	.byte	4                               # 0x4
	.byte	3                               # 0x3
	.byte	2                               # 0x2
	.byte	1                               # 0x1
	.byte	0                               # 0x0
l_aes_v2_CPI19_13:
	.byte	15                              # 0xf
	.byte	14                              # 0xe
	.byte	13                              # 0xd
	.byte	12                              # 0xc
	.byte	11                              # 0xb
	.byte	10                              # 0xa
	.byte	9                               # 0x9
	.byte	8                               # 0x8
	.zero	1
	.zero	1
	.zero	1
	.zero	1
	.zero	1
	.zero	1
	.zero	1
	.zero	1
	.section	__TEXT,__text,regular,pure_instructions
	.p2align	4
_aes_v2.cmac.tags.tag_at_end: # @_aes_v2.cmac.tags.tag_at_end
# %bb.0:                                # %start
	pushq	%rbp
	pushq	%r15
	pushq	%r14
	pushq	%r13
	pushq	%r12
	pushq	%rbx
	subq	$136, %rsp
	movq	%r9, %r12
	movq	%rcx, 48(%rsp)                  # 8-byte Spill
	movq	%rdx, %r14
	movq	%rsi, %r15
	movq	%rdi, 56(%rsp)                  # 8-byte Spill
	leaq	-1(%rdx), %rdi
	movdqu	(%rsi), %xmm2
	movdqa	l_aes_v2_CPI19_0(%rip), %xmm7          # xmm7 = [15,15,15,15,15,15,15,15,15,15,15,15,15,15,15,15]
	movdqa	%xmm2, %xmm0
	pand	%xmm7, %xmm0
	movdqa	l_aes_v2_CPI19_1(%rip), %xmm1          # xmm1 = [0,1,28,29,45,44,49,48,39,38,59,58,10,11,22,23]
	pshufb	%xmm0, %xmm1
	movdqa	%xmm2, 96(%rsp)                 # 16-byte Spill
	psrlw	$4, %xmm2
	pand	%xmm7, %xmm2
	movdqa	l_aes_v2_CPI19_2(%rip), %xmm0          # xmm0 = [0,134,253,123,142,8,115,245,119,241,138,12,249,127,4,130]
	pshufb	%xmm2, %xmm0
	pxor	%xmm1, %xmm0
	cmpq	$2, %rdi
	jb	Laes_v2_BB19_3
# %bb.1:                                # %join.5.i.i.i.i.preheader
	leaq	-2(%r14), %rax
	movl	$16, %ecx
	.p2align	4
Laes_v2_BB19_2:                               # %join.5.i.i.i.i
                                        # =>This Inner Loop Header: Depth=1
	movdqu	(%r15,%rcx), %xmm1
	movdqa	%xmm0, %xmm2
	psrlw	$4, %xmm2
	pand	%xmm7, %xmm2
	pand	%xmm7, %xmm0
	movdqa	%xmm2, %xmm3
	pxor	%xmm0, %xmm3
	movdqa	l_aes_v2_CPI19_3(%rip), %xmm4          # xmm4 = [128,2,1,15,9,5,14,12,13,4,11,10,7,8,6,3]
	pshufb	%xmm0, %xmm4
	movdqa	l_aes_v2_CPI19_4(%rip), %xmm0          # xmm0 = [128,1,9,14,13,11,7,6,15,2,12,5,10,4,3,8]
	movdqa	%xmm0, %xmm5
	pshufb	%xmm2, %xmm5
	movdqa	%xmm0, %xmm6
	pshufb	%xmm3, %xmm6
	pxor	%xmm4, %xmm5
	pxor	%xmm4, %xmm6
	movdqa	%xmm0, %xmm4
	pshufb	%xmm5, %xmm4
	pshufb	%xmm6, %xmm0
	pxor	%xmm3, %xmm4
	pxor	%xmm2, %xmm0
	movdqa	l_aes_v2_CPI19_5(%rip), %xmm3          # xmm3 = [0,195,79,12,252,124,67,128,207,51,63,112,191,179,240,140]
	pshufb	%xmm4, %xmm3
	movdqa	l_aes_v2_CPI19_6(%rip), %xmm2          # xmm2 = [0,230,114,183,229,198,197,35,81,180,3,113,32,151,82,148]
	pshufb	%xmm0, %xmm2
	pxor	%xmm3, %xmm2
	movdqa	l_aes_v2_CPI19_7(%rip), %xmm3          # xmm3 = [0,124,32,207,146,1,239,147,179,33,238,206,125,178,93,92]
	pshufb	%xmm4, %xmm3
	movdqa	l_aes_v2_CPI19_8(%rip), %xmm4          # xmm4 = [0,209,229,247,230,37,18,195,38,192,55,210,244,3,17,52]
	pshufb	%xmm0, %xmm4
	pxor	%xmm3, %xmm4
	movl	%ecx, %edx
	andl	$48, %edx
	leaq	l_aes_v2_static.4(%rip), %rsi
	movdqu	(%rdx,%rsi), %xmm3
	movdqa	%xmm2, %xmm0
	pshufb	%xmm3, %xmm0
	pxor	%xmm4, %xmm0
	leaq	l_aes_v2_static.5(%rip), %rsi
	movdqu	(%rdx,%rsi), %xmm4
	pshufb	%xmm4, %xmm2
	pxor	%xmm1, %xmm2
	pxor	%xmm0, %xmm2
	pshufb	%xmm3, %xmm0
	pxor	%xmm2, %xmm0
	addq	$16, %rcx
	decq	%rax
	jne	Laes_v2_BB19_2
Laes_v2_BB19_3:                               # %"cmac::subkeys::subkeys::<#ef80964e0b8d42c0>.exit.i"
	movq	%rdi, %rax
	shlq	$4, %rax
	movdqu	(%r15,%rax), %xmm5
	movdqa	%xmm0, %xmm1
	psrlw	$4, %xmm1
	pand	%xmm7, %xmm1
	pand	%xmm7, %xmm0
	movdqa	%xmm1, %xmm2
	pxor	%xmm0, %xmm2
	movdqa	l_aes_v2_CPI19_3(%rip), %xmm3          # xmm3 = [128,2,1,15,9,5,14,12,13,4,11,10,7,8,6,3]
	pshufb	%xmm0, %xmm3
	movdqa	l_aes_v2_CPI19_4(%rip), %xmm6          # xmm6 = [128,1,9,14,13,11,7,6,15,2,12,5,10,4,3,8]
	movdqa	%xmm6, %xmm0
	pshufb	%xmm1, %xmm0
	movdqa	%xmm6, %xmm4
	pshufb	%xmm2, %xmm4
	pxor	%xmm3, %xmm0
	pxor	%xmm3, %xmm4
	movdqa	%xmm6, %xmm3
	pshufb	%xmm0, %xmm3
	movdqa	%xmm6, %xmm0
	pshufb	%xmm4, %xmm0
	pxor	%xmm2, %xmm3
	pxor	%xmm1, %xmm0
	movdqa	l_aes_v2_CPI19_9(%rip), %xmm1          # xmm1 = [0,203,215,176,33,141,103,172,123,90,234,61,70,246,145,28]
	pshufb	%xmm3, %xmm1
	movdqa	l_aes_v2_CPI19_10(%rip), %xmm2         # xmm2 = [0,159,97,22,194,42,119,232,137,75,93,60,181,163,212,254]
	pshufb	%xmm0, %xmm2
	pxor	%xmm1, %xmm2
	andl	$48, %eax
	leaq	l_aes_v2_static.3(%rip), %rcx
	movdqu	(%rax,%rcx), %xmm0
	movdqa	%xmm0, 80(%rsp)                 # 16-byte Spill
	pshufb	%xmm0, %xmm2
	movdqa	%xmm5, 112(%rsp)                # 16-byte Spill
	pxor	%xmm5, %xmm2
	movq	%xmm2, %rbx
	pextrq	$1, %xmm2, %rax
	bswapq	%rax
	bswapq	%rbx
	movq	%rbx, %rcx
	shldq	$1, %rax, %rcx
	leaq	(%rax,%rax), %rdx
	sarq	$63, %rbx
	andl	$135, %ebx
	xorq	%rdx, %rbx
	movq	%rcx, %xmm0
	movq	%rbx, %xmm1
	punpcklqdq	%xmm0, %xmm1            # xmm1 = xmm1[0],xmm0[0]
	movdqa	%xmm1, 64(%rsp)                 # 16-byte Spill
	movq	%rax, %rdx
	shrq	$55, %rdx
	movq	%rax, %r13
	shrq	$47, %r13
	movq	%rax, %rdi
	shrq	$39, %rdi
	movq	%rax, %r9
	shrq	$31, %r9
	movl	%eax, %esi
	shrl	$23, %esi
	movl	%eax, %ecx
	shrl	$15, %ecx
	shrl	$7, %eax
	movzbl	%dl, %r11d
	movzbl	%r13b, %edx
	shll	$8, %edx
	movq	%r11, 24(%rsp)                  # 8-byte Spill
	orq	%r11, %rdx
	movq	%rdi, 32(%rsp)                  # 8-byte Spill
	movzbl	%dil, %edi
	shll	$16, %edi
	movq	%r9, 40(%rsp)                   # 8-byte Spill
                                        # kill: def $r9d killed $r9d killed $r9 def $r9
	shll	$24, %r9d
	orq	%rdx, %r9
	orq	%rdi, %r9
	movzbl	%sil, %edx
	shlq	$32, %rdx
	movzbl	%cl, %ebp
	shlq	$40, %rbp
	orq	%rdx, %rbp
	orq	%r9, %rbp
	movzbl	%al, %eax
	shlq	$48, %rax
	shlq	$56, %rbx
	orq	%rax, %rbx
	orq	%rbp, %rbx
	pxor	%xmm0, %xmm0
	movdqa	%xmm0, (%rsp)
	movq	%rsp, %rdi
	movq	%r8, %rsi
	movq	%r12, %rdx
	callq	*_memcpy@GOTPCREL(%rip)
	cmpq	$16, %r12
	jne	Laes_v2_BB19_5
# %bb.4:                                # %then.1.i
	movq	%rbp, %rax
	shrq	$40, %rax
	shrq	$32, %rbp
	movq	%rbx, %rcx
	shrq	$48, %rcx
	movdqa	64(%rsp), %xmm1                 # 16-byte Reload
	pshufb	l_aes_v2_CPI19_13(%rip), %xmm1         # xmm1 = xmm1[15,14,13,12,11,10,9,8,u,u,u,u,u,u,u,u]
	pinsrb	$8, 24(%rsp), %xmm1             # 4-byte Folded Reload
	shrq	$56, %rbx
	movzbl	%r13b, %edx
	pinsrb	$9, %edx, %xmm1
	movzbl	32(%rsp), %edx                  # 1-byte Folded Reload
	pinsrb	$10, %edx, %xmm1
	movzbl	40(%rsp), %edx                  # 1-byte Folded Reload
	pinsrb	$11, %edx, %xmm1
	pinsrb	$12, %ebp, %xmm1
	pinsrb	$13, %eax, %xmm1
	pinsrb	$14, %ecx, %xmm1
	pinsrb	$15, %ebx, %xmm1
	jmp	Laes_v2_BB19_6
Laes_v2_BB19_5:                               # %else.2.i
	movdqa	64(%rsp), %xmm1                 # 16-byte Reload
	pshufb	l_aes_v2_CPI19_11(%rip), %xmm1         # xmm1 = zero,xmm1[14],zero,xmm1[12],zero,xmm1[10],zero,xmm1[8,15],zero,xmm1[13],zero,xmm1[11],zero,xmm1[9],zero
	pshufd	$238, %xmm1, %xmm0              # xmm0 = xmm1[2,3,2,3]
	por	%xmm1, %xmm0
	movq	%xmm0, %rax
	bswapq	%rax
	bswapq	%rbx
	movq	%rax, %rcx
	sarq	$63, %rcx
	andl	$135, %ecx
	shldq	$1, %rbx, %rax
	addq	%rbx, %rbx
	xorq	%rcx, %rbx
	movq	%rax, %xmm0
	movq	%rbx, %xmm1
	punpcklqdq	%xmm0, %xmm1            # xmm1 = xmm1[0],xmm0[0]
	movb	$-128, (%rsp,%r12)
	pshufb	l_aes_v2_CPI19_12(%rip), %xmm1         # xmm1 = xmm1[15,14,13,12,11,10,9,8,7,6,5,4,3,2,1,0]
Laes_v2_BB19_6:                               # %"cmac::tags::last_block::<#ef80964e0b8d42c0>.exit"
	pxor	(%rsp), %xmm1
	movdqa	l_aes_v2_CPI19_2(%rip), %xmm4          # xmm4 = [0,134,253,123,142,8,115,245,119,241,138,12,249,127,4,130]
	movq	48(%rsp), %rax                  # 8-byte Reload
	movdqu	(%rax), %xmm0
	pxor	96(%rsp), %xmm0                 # 16-byte Folded Reload
	pxor	%xmm1, %xmm0
	movdqa	%xmm0, %xmm1
	movdqa	l_aes_v2_CPI19_0(%rip), %xmm6          # xmm6 = [15,15,15,15,15,15,15,15,15,15,15,15,15,15,15,15]
	pand	%xmm6, %xmm1
	movdqa	l_aes_v2_CPI19_1(%rip), %xmm2          # xmm2 = [0,1,28,29,45,44,49,48,39,38,59,58,10,11,22,23]
	pshufb	%xmm1, %xmm2
	psrlw	$4, %xmm0
	pand	%xmm6, %xmm0
	pshufb	%xmm0, %xmm4
	pxor	%xmm2, %xmm4
	leaq	-1(%r14), %rax
	cmpq	$2, %rax
	movdqa	l_aes_v2_CPI19_4(%rip), %xmm7          # xmm7 = [128,1,9,14,13,11,7,6,15,2,12,5,10,4,3,8]
	movdqa	l_aes_v2_CPI19_3(%rip), %xmm8          # xmm8 = [128,2,1,15,9,5,14,12,13,4,11,10,7,8,6,3]
	jb	Laes_v2_BB19_9
# %bb.7:                                # %join.5.i.i.preheader
	addq	$-2, %r14
	movl	$16, %eax
	.p2align	4
Laes_v2_BB19_8:                               # %join.5.i.i
                                        # =>This Inner Loop Header: Depth=1
	movdqu	(%r15,%rax), %xmm0
	movdqa	%xmm4, %xmm1
	psrlw	$4, %xmm1
	pand	%xmm6, %xmm1
	pand	%xmm6, %xmm4
	movdqa	%xmm1, %xmm2
	pxor	%xmm4, %xmm2
	movdqa	%xmm8, %xmm3
	pshufb	%xmm4, %xmm3
	movdqa	%xmm7, %xmm4
	pshufb	%xmm1, %xmm4
	movdqa	%xmm7, %xmm5
	pshufb	%xmm2, %xmm5
	pxor	%xmm3, %xmm4
	pxor	%xmm3, %xmm5
	movdqa	%xmm7, %xmm3
	pshufb	%xmm4, %xmm3
	movdqa	%xmm7, %xmm4
	pshufb	%xmm5, %xmm4
	pxor	%xmm2, %xmm3
	pxor	%xmm1, %xmm4
	movdqa	l_aes_v2_CPI19_5(%rip), %xmm2          # xmm2 = [0,195,79,12,252,124,67,128,207,51,63,112,191,179,240,140]
	pshufb	%xmm3, %xmm2
	movdqa	l_aes_v2_CPI19_6(%rip), %xmm1          # xmm1 = [0,230,114,183,229,198,197,35,81,180,3,113,32,151,82,148]
	pshufb	%xmm4, %xmm1
	pxor	%xmm2, %xmm1
	movdqa	l_aes_v2_CPI19_7(%rip), %xmm2          # xmm2 = [0,124,32,207,146,1,239,147,179,33,238,206,125,178,93,92]
	pshufb	%xmm3, %xmm2
	movdqa	l_aes_v2_CPI19_8(%rip), %xmm3          # xmm3 = [0,209,229,247,230,37,18,195,38,192,55,210,244,3,17,52]
	pshufb	%xmm4, %xmm3
	pxor	%xmm2, %xmm3
	movl	%eax, %ecx
	andl	$48, %ecx
	leaq	l_aes_v2_static.4(%rip), %rdx
	movdqu	(%rcx,%rdx), %xmm2
	movdqa	%xmm1, %xmm4
	pshufb	%xmm2, %xmm4
	pxor	%xmm3, %xmm4
	leaq	l_aes_v2_static.5(%rip), %rdx
	movdqu	(%rcx,%rdx), %xmm3
	pshufb	%xmm3, %xmm1
	pxor	%xmm0, %xmm1
	pxor	%xmm4, %xmm1
	pshufb	%xmm2, %xmm4
	pxor	%xmm1, %xmm4
	addq	$16, %rax
	decq	%r14
	jne	Laes_v2_BB19_8
Laes_v2_BB19_9:                               # %"aes_permute::blocks::process_block::<#aedbc4fd156a355d>.exit"
	movdqa	%xmm4, %xmm0
	psrlw	$4, %xmm0
	pand	%xmm6, %xmm0
	pand	%xmm6, %xmm4
	movdqa	%xmm0, %xmm1
	pxor	%xmm4, %xmm1
	pshufb	%xmm4, %xmm8
	movdqa	%xmm7, %xmm2
	pshufb	%xmm0, %xmm2
	movdqa	%xmm7, %xmm3
	pshufb	%xmm1, %xmm3
	pxor	%xmm8, %xmm2
	pxor	%xmm8, %xmm3
	movdqa	%xmm7, %xmm4
	pshufb	%xmm2, %xmm4
	pshufb	%xmm3, %xmm7
	pxor	%xmm1, %xmm4
	pxor	%xmm0, %xmm7
	movdqa	l_aes_v2_CPI19_9(%rip), %xmm1          # xmm1 = [0,203,215,176,33,141,103,172,123,90,234,61,70,246,145,28]
	pshufb	%xmm4, %xmm1
	movdqa	l_aes_v2_CPI19_10(%rip), %xmm0         # xmm0 = [0,159,97,22,194,42,119,232,137,75,93,60,181,163,212,254]
	pshufb	%xmm7, %xmm0
	pxor	%xmm1, %xmm0
	pshufb	80(%rsp), %xmm0                 # 16-byte Folded Reload
	pxor	112(%rsp), %xmm0                # 16-byte Folded Reload
	movq	56(%rsp), %rax                  # 8-byte Reload
	movdqu	%xmm0, (%rax)
	addq	$136, %rsp
	popq	%rbx
	popq	%r12
	popq	%r13
	popq	%r14
	popq	%r15
	popq	%rbp
	retq
                                        # -- End function
	.section	__TEXT,__text,regular,pure_instructions
	.p2align	4                               # -- Begin function aes_cipher::zeroize::stack::wipe_stack::<=768>
_aes_v2.aes_cipher.zeroize.stack.wipe_stack.768: # @_aes_v2.aes_cipher.zeroize.stack.wipe_stack.768
# %bb.0:                                # %start
	subq	$776, %rsp                      # imm = 0x308
	leaq	8(%rsp), %rdi
	movl	$768, %edx                      # imm = 0x300
	xorl	%esi, %esi
	callq	*_memset@GOTPCREL(%rip)
	movq	$0, (%rsp)
	#APP
	#NO_APP
	movq	(%rsp), %rax
	#APP
	#NO_APP
	cmpq	$768, %rax                      # imm = 0x300
	jae	Laes_v2_BB20_2
# %bb.1:                                # %then.1
	movzbl	8(%rsp,%rax), %eax
	#APP
	#NO_APP
	xchgq	%rax, (%rsp)
	#APP
	#NO_APP
Laes_v2_BB20_2:                               # %common.ret
	addq	$776, %rsp                      # imm = 0x308
	retq
                                        # -- End function
	.section	__TEXT,__text,regular,pure_instructions
	.p2align	4                               # -- Begin function cmac::pieces::MessageZeroize::zeroize
_aes_v2.cmac.pieces.MessageZeroize.zeroize: # @_aes_v2.cmac.pieces.MessageZeroize.zeroize
# %bb.0:                                # %start
	pushq	%rbx
	movq	%rdi, %rbx
	addq	$16, %rdi
	xorps	%xmm0, %xmm0
	movups	%xmm0, (%rbx)
	callq	_aes_v2.aes_cipher.zeroize.elements.zeroize_elements.2
	addq	$32, %rbx
	movq	%rbx, %rdi
	popq	%rbx
	jmp	_aes_v2.aes_cipher.zeroize.elements.zeroize_elements.2 # TAILCALL
                                        # -- End function
	.section	__TEXT,__text,regular,pure_instructions
	.p2align	4                               # -- Begin function aes_cipher::zeroize::elements::zeroize_elements::<#331496ca003a3905>
_aes_v2.aes_cipher.zeroize.elements.zeroize_elements.2: # @_aes_v2.aes_cipher.zeroize.elements.zeroize_elements.2
# %bb.0:                                # %start
	xorps	%xmm0, %xmm0
	movaps	%xmm0, -24(%rsp)
	movq	$0, -32(%rsp)
	#APP
	#NO_APP
	movq	-32(%rsp), %rax
	#APP
	#NO_APP
	testq	%rax, %rax
	je	Laes_v2_BB22_2
# %bb.1:                                # %"aes_cipher::zeroize::observe::<#38c92a2c69ae69e8>.exit8"
	movaps	-24(%rsp), %xmm0
	movups	%xmm0, (%rdi)
	xorl	%eax, %eax
	#APP
	#NO_APP
	xchgq	%rax, -32(%rsp)
	#APP
	#NO_APP
	pxor	%xmm0, %xmm0
	pxor	%xmm1, %xmm1
	pxor	%xmm2, %xmm2
	pxor	%xmm3, %xmm3
	pxor	%xmm4, %xmm4
	pxor	%xmm5, %xmm5
	pxor	%xmm6, %xmm6
	pxor	%xmm7, %xmm7
	pxor	%xmm8, %xmm8
	pxor	%xmm9, %xmm9
	pxor	%xmm10, %xmm10
	pxor	%xmm11, %xmm11
	pxor	%xmm12, %xmm12
	pxor	%xmm13, %xmm13
	pxor	%xmm14, %xmm14
	pxor	%xmm15, %xmm15
	xorl	%ecx, %ecx
	xorl	%edx, %edx
	xorl	%esi, %esi
	xorl	%edi, %edi
	xorl	%r8d, %r8d
	xorl	%r9d, %r9d
	xorl	%r10d, %r10d
	xorl	%r11d, %r11d
	retq
Laes_v2_BB22_2:                               # %then.1.i
	movzbl	(%rdi), %eax
	movaps	-24(%rsp), %xmm0
	movups	%xmm0, (%rdi)
	andb	(%rdi), %al
	movzbl	%al, %eax
	#APP
	#NO_APP
	xchgq	%rax, -32(%rsp)
	#APP
	#NO_APP
	pxor	%xmm0, %xmm0
	pxor	%xmm1, %xmm1
	pxor	%xmm2, %xmm2
	pxor	%xmm3, %xmm3
	pxor	%xmm4, %xmm4
	pxor	%xmm5, %xmm5
	pxor	%xmm6, %xmm6
	pxor	%xmm7, %xmm7
	pxor	%xmm8, %xmm8
	pxor	%xmm9, %xmm9
	pxor	%xmm10, %xmm10
	pxor	%xmm11, %xmm11
	pxor	%xmm12, %xmm12
	pxor	%xmm13, %xmm13
	pxor	%xmm14, %xmm14
	pxor	%xmm15, %xmm15
	xorl	%ecx, %ecx
	xorl	%edx, %edx
	xorl	%esi, %esi
	xorl	%edi, %edi
	xorl	%r8d, %r8d
	xorl	%r9d, %r9d
	xorl	%r10d, %r10d
	xorl	%r11d, %r11d
	retq
                                        # -- End function
	.section	__TEXT,__text,regular,pure_instructions
	.p2align	4                               # -- Begin function cmac::chain_in_pieces::ChainInPieces::extend::<#ef80964e0b8d42c0>
_aes_v2.cmac.chain_in_pieces.ChainInPieces.extend: # @_aes_v2.cmac.chain_in_pieces.ChainInPieces.extend
# %bb.0:                                # %start
	pushq	%rbp
	pushq	%r15
	pushq	%r14
	pushq	%r13
	pushq	%r12
	pushq	%rbx
	subq	$56, %rsp
	movq	%rdx, %r14
	movq	%rdi, %r15
	movq	(%rdi), %rax
	cmpq	$16, %rax
	movl	$16, %r13d
	cmovbq	%rax, %r13
	movl	$16, %edx
	subq	%r13, %rdx
	movq	%rcx, %rbx
	subq	%rdx, %rbx
	jbe	Laes_v2_BB23_6
# %bb.1:                                # %join.3
	movq	%rsi, %r8
	leaq	(%r14,%rdx), %rbp
	leaq	24(%r15), %r9
	leaq	(%r15,%r13), %rdi
	addq	$24, %rdi
	movq	%rdi, %rsi
	subq	%r14, %rsi
	cmpq	%rdx, %rsi
	movq	%rcx, 24(%rsp)                  # 8-byte Spill
	jae	Laes_v2_BB23_9
# %bb.2:                                # %iter.check75
	testq	%rax, %rax
	jne	Laes_v2_BB23_4
# %bb.3:                                # %vector.memcheck69
	movq	%r15, %rax
	subq	%r14, %rax
	addq	$24, %rax
	cmpq	$32, %rax
	jae	Laes_v2_BB23_20
Laes_v2_BB23_4:                               # %join.7.i.i.i.i.i.i29.preheader
	movl	%edx, %eax
	andl	$3, %eax
	leaq	-13(%r13), %rsi
	cmpq	$3, %rsi
	jae	Laes_v2_BB23_13
# %bb.5:
	xorl	%ecx, %ecx
	jmp	Laes_v2_BB23_16
Laes_v2_BB23_6:                               # %then.1
	leaq	(%rcx,%r13), %rbx
	leaq	(%r15,%r13), %rdi
	addq	$24, %rdi
	movq	%rdi, %rax
	subq	%r14, %rax
	cmpq	%rcx, %rax
	jae	Laes_v2_BB23_10
# %bb.7:                                # %iter.check
	cmpq	$4, %rcx
	jb	Laes_v2_BB23_8
# %bb.11:                               # %vector.memcheck
	leaq	(%r15,%r13), %rax
	subq	%r14, %rax
	addq	$24, %rax
	cmpq	$32, %rax
	jae	Laes_v2_BB23_18
Laes_v2_BB23_8:
	xorl	%eax, %eax
Laes_v2_BB23_36:                              # %join.7.i.i.i.i.i.i.preheader
	movq	%rcx, %rsi
	movq	%rax, %rdx
	andq	$3, %rsi
	je	Laes_v2_BB23_39
# %bb.37:                               # %join.7.i.i.i.i.i.i.prol.preheader
	movq	%rax, %rdx
	.p2align	4
Laes_v2_BB23_38:                              # %join.7.i.i.i.i.i.i.prol
                                        # =>This Inner Loop Header: Depth=1
	movzbl	(%r14,%rdx), %r8d
	movb	%r8b, (%rdi,%rdx)
	incq	%rdx
	decq	%rsi
	jne	Laes_v2_BB23_38
Laes_v2_BB23_39:                              # %join.7.i.i.i.i.i.i.prol.loopexit
	subq	%rcx, %rax
	cmpq	$-4, %rax
	ja	Laes_v2_BB23_51
# %bb.40:                               # %join.7.i.i.i.i.i.i.preheader134
	leaq	(%r15,%r13), %rax
	addq	$27, %rax
	.p2align	4
Laes_v2_BB23_41:                              # %join.7.i.i.i.i.i.i
                                        # =>This Inner Loop Header: Depth=1
	movzbl	(%r14,%rdx), %esi
	movb	%sil, -3(%rax,%rdx)
	movzbl	1(%r14,%rdx), %esi
	movb	%sil, -2(%rax,%rdx)
	movzbl	2(%r14,%rdx), %esi
	movb	%sil, -1(%rax,%rdx)
	movzbl	3(%r14,%rdx), %esi
	movb	%sil, (%rax,%rdx)
	addq	$4, %rdx
	cmpq	%rdx, %rcx
	jne	Laes_v2_BB23_41
	jmp	Laes_v2_BB23_51
Laes_v2_BB23_9:                               # %apart.2.i.i.i.i.i.i28
	movq	%r14, %rsi
	movq	%r8, %r12
	callq	*_memmove@GOTPCREL(%rip)
	leaq	24(%r15), %r9
	movq	%r12, %r8
	jmp	Laes_v2_BB23_21
Laes_v2_BB23_10:                              # %apart.2.i.i.i.i.i.i
	movq	%r14, %rsi
	movq	%rcx, %rdx
	callq	*_memmove@GOTPCREL(%rip)
	jmp	Laes_v2_BB23_51
Laes_v2_BB23_13:                              # %join.7.i.i.i.i.i.i29.preheader.new
	andl	$-4, %edx
	leaq	(%r15,%r13), %rsi
	addq	$27, %rsi
	xorl	%ecx, %ecx
	.p2align	4
Laes_v2_BB23_14:                              # %join.7.i.i.i.i.i.i29
                                        # =>This Inner Loop Header: Depth=1
	movzbl	(%r14,%rcx), %edi
	movb	%dil, -3(%rsi,%rcx)
	movzbl	1(%r14,%rcx), %edi
	movb	%dil, -2(%rsi,%rcx)
	movzbl	2(%r14,%rcx), %edi
	movb	%dil, -1(%rsi,%rcx)
	movzbl	3(%r14,%rcx), %edi
	movb	%dil, (%rsi,%rcx)
	addq	$4, %rcx
	cmpq	%rcx, %rdx
	jne	Laes_v2_BB23_14
# %bb.15:                               # %"core::slice::edits::slice+T::copy_from_slice::<i8,20'core::clone::U8Clone{}>.exit36.loopexit.unr-lcssa"
	testq	%rax, %rax
	je	Laes_v2_BB23_21
Laes_v2_BB23_16:                              # %join.7.i.i.i.i.i.i29.epil.preheader
	leaq	(%r14,%rcx), %rdx
	addq	%r13, %rcx
	addq	%r15, %rcx
	addq	$24, %rcx
	xorl	%esi, %esi
	.p2align	4
Laes_v2_BB23_17:                              # %join.7.i.i.i.i.i.i29.epil
                                        # =>This Inner Loop Header: Depth=1
	movzbl	(%rdx,%rsi), %edi
	movb	%dil, (%rcx,%rsi)
	incq	%rsi
	cmpq	%rsi, %rax
	jne	Laes_v2_BB23_17
	jmp	Laes_v2_BB23_21
Laes_v2_BB23_18:                              # %vector.main.loop.iter.check
	cmpq	$32, %rcx
	jae	Laes_v2_BB23_29
# %bb.19:
	xorl	%eax, %eax
	jmp	Laes_v2_BB23_33
Laes_v2_BB23_20:                              # %vec.epilog.vector.body92
	movups	(%r14), %xmm0
	movups	%xmm0, (%rdi)
Laes_v2_BB23_21:                              # %"core::slice::edits::slice+T::copy_from_slice::<i8,20'core::clone::U8Clone{}>.exit36"
	movq	%r9, 40(%rsp)                   # 8-byte Spill
	movq	%r13, 16(%rsp)                  # 8-byte Spill
	leaq	-1(%rbx), %r12
	andq	$-16, %r12
	leaq	(%r12,%rbp), %rax
	movq	%rax, 48(%rsp)                  # 8-byte Spill
	movq	%rbx, 32(%rsp)                  # 8-byte Spill
	subq	%r12, %rbx
	movq	%r15, 8(%rsp)                   # 8-byte Spill
	addq	$8, %r15
	movl	$16, %ecx
	movq	%r8, %rdi
	movq	%r15, %rsi
	movq	%r9, %rdx
	movq	%r8, %r13
	callq	_aes_v2.cmac.chaining.chain
	movq	%r13, %rdi
	movq	%r15, %rsi
	movq	%rbp, %rdx
	movq	%r12, %rcx
	callq	_aes_v2.cmac.chaining.chain
	movq	48(%rsp), %rsi                  # 8-byte Reload
	movq	40(%rsp), %rdi                  # 8-byte Reload
	movq	%rdi, %rax
	subq	%rsi, %rax
	cmpq	%rbx, %rax
	jae	Laes_v2_BB23_24
# %bb.22:                               # %iter.check103
	cmpq	$4, %rbx
	jae	Laes_v2_BB23_25
# %bb.23:
	xorl	%ecx, %ecx
	movq	24(%rsp), %rax                  # 8-byte Reload
	movq	8(%rsp), %r15                   # 8-byte Reload
	movq	16(%rsp), %r11                  # 8-byte Reload
	jmp	Laes_v2_BB23_49
Laes_v2_BB23_24:                              # %apart.2.i.i.i.i.i.i46
	movq	%rbx, %rdx
	callq	*_memmove@GOTPCREL(%rip)
	movq	8(%rsp), %r15                   # 8-byte Reload
	jmp	Laes_v2_BB23_51
Laes_v2_BB23_25:                              # %vector.memcheck97
	movq	8(%rsp), %r15                   # 8-byte Reload
	movq	16(%rsp), %r11                  # 8-byte Reload
	leaq	(%r11,%r15), %rax
	subq	%r12, %rax
	subq	%r14, %rax
	addq	$8, %rax
	cmpq	$32, %rax
	movq	24(%rsp), %rax                  # 8-byte Reload
	jae	Laes_v2_BB23_27
# %bb.26:
	xorl	%ecx, %ecx
	jmp	Laes_v2_BB23_49
Laes_v2_BB23_27:                              # %vector.main.loop.iter.check105
	cmpq	$32, %rbx
	jae	Laes_v2_BB23_42
# %bb.28:
	xorl	%ecx, %ecx
	jmp	Laes_v2_BB23_46
Laes_v2_BB23_29:                              # %vector.ph
	movq	%rcx, %rax
	andq	$-32, %rax
	leaq	(%r15,%r13), %rdx
	addq	$40, %rdx
	xorl	%esi, %esi
	.p2align	4
Laes_v2_BB23_30:                              # %vector.body
                                        # =>This Inner Loop Header: Depth=1
	movups	(%r14,%rsi), %xmm0
	movups	16(%r14,%rsi), %xmm1
	movups	%xmm0, -16(%rdx,%rsi)
	movups	%xmm1, (%rdx,%rsi)
	addq	$32, %rsi
	cmpq	%rsi, %rax
	jne	Laes_v2_BB23_30
# %bb.31:                               # %middle.block
	cmpq	%rax, %rcx
	je	Laes_v2_BB23_51
# %bb.32:                               # %vec.epilog.iter.check
	testb	$28, %cl
	je	Laes_v2_BB23_36
Laes_v2_BB23_33:                              # %vec.epilog.ph
	movq	%rax, %rdx
	movq	%rcx, %rax
	andq	$-4, %rax
	.p2align	4
Laes_v2_BB23_34:                              # %vec.epilog.vector.body
                                        # =>This Inner Loop Header: Depth=1
	movl	(%r14,%rdx), %esi
	movl	%esi, (%rdi,%rdx)
	addq	$4, %rdx
	cmpq	%rdx, %rax
	jne	Laes_v2_BB23_34
# %bb.35:                               # %vec.epilog.middle.block
	cmpq	%rax, %rcx
	je	Laes_v2_BB23_51
	jmp	Laes_v2_BB23_36
Laes_v2_BB23_42:                              # %vector.ph106
	movq	%rbx, %rcx
	andq	$-32, %rcx
	movq	%r12, %rdx
	subq	%r11, %rdx
	addq	%r14, %rdx
	addq	$32, %rdx
	xorl	%esi, %esi
	.p2align	4
Laes_v2_BB23_43:                              # %vector.body109
                                        # =>This Inner Loop Header: Depth=1
	movups	-16(%rdx,%rsi), %xmm0
	movups	(%rdx,%rsi), %xmm1
	movups	%xmm0, 24(%r15,%rsi)
	movups	%xmm1, 40(%r15,%rsi)
	addq	$32, %rsi
	cmpq	%rsi, %rcx
	jne	Laes_v2_BB23_43
# %bb.44:                               # %middle.block114
	cmpq	%rcx, %rbx
	je	Laes_v2_BB23_51
# %bb.45:                               # %vec.epilog.iter.check118
	testb	$28, %bl
	je	Laes_v2_BB23_49
Laes_v2_BB23_46:                              # %vec.epilog.ph120
	movq	32(%rsp), %r8                   # 8-byte Reload
	andl	$3, %r8d
	leaq	(%rax,%r11), %rdx
	subq	%rcx, %rdx
	leaq	(%rcx,%r12), %rdi
	leaq	(%rcx,%r15), %rsi
	addq	$24, %rsi
	movq	%rbx, %rcx
	subq	%r8, %rcx
	movq	%r8, %r10
	subq	%r8, %rdx
	subq	%r12, %rdx
	addq	$-16, %rdx
	subq	%r11, %rdi
	addq	%r14, %rdi
	addq	$16, %rdi
	xorl	%r8d, %r8d
	.p2align	4
Laes_v2_BB23_47:                              # %vec.epilog.vector.body123
                                        # =>This Inner Loop Header: Depth=1
	movl	(%rdi,%r8), %r9d
	movl	%r9d, (%rsi,%r8)
	addq	$4, %r8
	cmpq	%r8, %rdx
	jne	Laes_v2_BB23_47
# %bb.48:                               # %vec.epilog.middle.block127
	testq	%r10, %r10
	je	Laes_v2_BB23_51
Laes_v2_BB23_49:                              # %join.7.i.i.i.i.i.i47.preheader
	addq	%r11, %rax
	subq	%rcx, %rax
	subq	%r12, %rax
	addq	$-16, %rax
	addq	%rcx, %r12
	subq	%r11, %r12
	leaq	(%r12,%r14), %rdx
	addq	$16, %rdx
	addq	%r15, %rcx
	addq	$24, %rcx
	xorl	%esi, %esi
	.p2align	4
Laes_v2_BB23_50:                              # %join.7.i.i.i.i.i.i47
                                        # =>This Inner Loop Header: Depth=1
	movzbl	(%rdx,%rsi), %edi
	movb	%dil, (%rcx,%rsi)
	incq	%rsi
	cmpq	%rsi, %rax
	jne	Laes_v2_BB23_50
Laes_v2_BB23_51:                              # %common.ret
	movq	%rbx, (%r15)
	addq	$56, %rsp
	popq	%rbx
	popq	%r12
	popq	%r13
	popq	%r14
	popq	%r15
	popq	%rbp
	retq
                                        # -- End function
	.section	__TEXT,__const
	.p2align	4, 0x0                          # -- Begin function aes_c::kept::fotsgure_aes_set_key
l_aes_v2_CPI24_0:
	.zero	16,15
l_aes_v2_CPI24_1:
	.byte	0                               # 0x0
	.byte	1                               # 0x1
	.byte	92                              # 0x5c
	.byte	93                              # 0x5d
	.byte	224                             # 0xe0
	.byte	225                             # 0xe1
	.byte	188                             # 0xbc
	.byte	189                             # 0xbd
	.byte	80                              # 0x50
	.byte	81                              # 0x51
	.byte	12                              # 0xc
	.byte	13                              # 0xd
	.byte	176                             # 0xb0
	.byte	177                             # 0xb1
	.byte	236                             # 0xec
	.byte	237                             # 0xed
l_aes_v2_CPI24_2:
	.byte	0                               # 0x0
	.byte	178                             # 0xb2
	.byte	181                             # 0xb5
	.byte	7                               # 0x7
	.byte	58                              # 0x3a
	.byte	136                             # 0x88
	.byte	143                             # 0x8f
	.byte	61                              # 0x3d
	.byte	172                             # 0xac
	.byte	30                              # 0x1e
	.byte	25                              # 0x19
	.byte	171                             # 0xab
	.byte	150                             # 0x96
	.byte	36                              # 0x24
	.byte	35                              # 0x23
	.byte	145                             # 0x91
l_aes_v2_CPI24_3:
	.zero	16,99
l_aes_v2_CPI24_4:
	.byte	0                               # 0x0
	.byte	110                             # 0x6e
	.byte	200                             # 0xc8
	.byte	166                             # 0xa6
	.byte	124                             # 0x7c
	.byte	18                              # 0x12
	.byte	180                             # 0xb4
	.byte	218                             # 0xda
	.byte	188                             # 0xbc
	.byte	210                             # 0xd2
	.byte	116                             # 0x74
	.byte	26                              # 0x1a
	.byte	192                             # 0xc0
	.byte	174                             # 0xae
	.byte	8                               # 0x8
	.byte	102                             # 0x66
l_aes_v2_CPI24_5:
	.byte	0                               # 0x0
	.byte	74                              # 0x4a
	.byte	121                             # 0x79
	.byte	51                              # 0x33
	.byte	55                              # 0x37
	.byte	125                             # 0x7d
	.byte	78                              # 0x4e
	.byte	4                               # 0x4
	.byte	217                             # 0xd9
	.byte	147                             # 0x93
	.byte	160                             # 0xa0
	.byte	234                             # 0xea
	.byte	238                             # 0xee
	.byte	164                             # 0xa4
	.byte	151                             # 0x97
	.byte	221                             # 0xdd
l_aes_v2_CPI24_6:
	.byte	0                               # 0x0
	.byte	219                             # 0xdb
	.byte	20                              # 0x14
	.byte	207                             # 0xcf
	.byte	167                             # 0xa7
	.byte	124                             # 0x7c
	.byte	179                             # 0xb3
	.byte	104                             # 0x68
	.byte	168                             # 0xa8
	.byte	115                             # 0x73
	.byte	188                             # 0xbc
	.byte	103                             # 0x67
	.byte	15                              # 0xf
	.byte	212                             # 0xd4
	.byte	27                              # 0x1b
	.byte	192                             # 0xc0
l_aes_v2_CPI24_7:
	.byte	0                               # 0x0
	.byte	237                             # 0xed
	.byte	209                             # 0xd1
	.byte	60                              # 0x3c
	.byte	218                             # 0xda
	.byte	55                              # 0x37
	.byte	11                              # 0xb
	.byte	230                             # 0xe6
	.byte	8                               # 0x8
	.byte	229                             # 0xe5
	.byte	217                             # 0xd9
	.byte	52                              # 0x34
	.byte	210                             # 0xd2
	.byte	63                              # 0x3f
	.byte	3                               # 0x3
	.byte	238                             # 0xee
l_aes_v2_CPI24_8:
	.byte	0                               # 0x0
	.byte	28                              # 0x1c
	.byte	68                              # 0x44
	.byte	88                              # 0x58
	.byte	151                             # 0x97
	.byte	139                             # 0x8b
	.byte	211                             # 0xd3
	.byte	207                             # 0xcf
	.byte	138                             # 0x8a
	.byte	150                             # 0x96
	.byte	206                             # 0xce
	.byte	210                             # 0xd2
	.byte	29                              # 0x1d
	.byte	1                               # 0x1
	.byte	89                              # 0x59
	.byte	69                              # 0x45
l_aes_v2_CPI24_9:
	.byte	0                               # 0x0
	.byte	48                              # 0x30
	.byte	38                              # 0x26
	.byte	22                              # 0x16
	.byte	183                             # 0xb7
	.byte	135                             # 0x87
	.byte	145                             # 0x91
	.byte	161                             # 0xa1
	.byte	65                              # 0x41
	.byte	113                             # 0x71
	.byte	103                             # 0x67
	.byte	87                              # 0x57
	.byte	246                             # 0xf6
	.byte	198                             # 0xc6
	.byte	208                             # 0xd0
	.byte	224                             # 0xe0
l_aes_v2_CPI24_10:
	.zero	16,44
	.section	__TEXT,__text,regular,pure_instructions
	.p2align	4
_aes_v2.aes_c.kept.fotsgure_aes_set_key:    # @_aes_v2.aes_c.kept.fotsgure_aes_set_key
# %bb.0:                                # %start
	pushq	%r15
	pushq	%r14
	pushq	%r12
	pushq	%rbx
	pushq	%rax
	movq	%rdi, %rbx
	cmpq	$32, %rdx
	ja	Laes_v2_BB24_2
# %bb.1:                                # %start
	movq	%rdx, %r15
	movabsq	$4311810048, %rax               # imm = 0x101010000
	btq	%rdx, %rax
	jae	Laes_v2_BB24_2
# %bb.3:                                # %join.3
	leaq	4(%rbx), %r14
	movq	%r15, %r12
	shrq	$2, %r12
	xorps	%xmm0, %xmm0
	movups	%xmm0, 228(%rbx)
	movups	%xmm0, 212(%rbx)
	movups	%xmm0, 196(%rbx)
	movups	%xmm0, 180(%rbx)
	movups	%xmm0, 164(%rbx)
	movups	%xmm0, 148(%rbx)
	movups	%xmm0, 132(%rbx)
	movups	%xmm0, 116(%rbx)
	movups	%xmm0, 100(%rbx)
	movups	%xmm0, 84(%rbx)
	movups	%xmm0, 68(%rbx)
	movups	%xmm0, 52(%rbx)
	movups	%xmm0, 36(%rbx)
	movups	%xmm0, 20(%rbx)
	movups	%xmm0, 4(%rbx)
	movq	%r14, %rdi
	movq	%r15, %rdx
	callq	_aes_v2.aes_permute.lane_keys.expand_lanes
	movl	%r15d, (%rbx)
	leaq	244(%rbx), %rax
	movq	%r12, %rdx
	shlq	$4, %rdx
	leaq	96(%rdx), %rcx
	movl	%ecx, %esi
	andl	$48, %esi
	leaq	l_aes_v2_static.3(%rip), %rdi
	xorps	%xmm0, %xmm0
	movups	%xmm0, 244(%rbx)
	movups	%xmm0, 260(%rbx)
	movups	%xmm0, 276(%rbx)
	movups	%xmm0, 292(%rbx)
	movups	%xmm0, 308(%rbx)
	movups	%xmm0, 324(%rbx)
	movups	%xmm0, 340(%rbx)
	movups	%xmm0, 356(%rbx)
	movups	%xmm0, 372(%rbx)
	movups	%xmm0, 388(%rbx)
	movups	%xmm0, 404(%rbx)
	movups	%xmm0, 420(%rbx)
	movups	%xmm0, 436(%rbx)
	movups	%xmm0, 452(%rbx)
	movups	%xmm0, 468(%rbx)
	movdqu	(%rsi,%rdi), %xmm0
	addq	$5, %r12
	leaq	260(%rbx), %rsi
	addq	$80, %rdx
	.p2align	4
Laes_v2_BB24_4:                               # %join.5.i
                                        # =>This Inner Loop Header: Depth=1
	movdqu	4(%rbx,%rdx), %xmm2
	movdqa	l_aes_v2_CPI24_0(%rip), %xmm1          # xmm1 = [15,15,15,15,15,15,15,15,15,15,15,15,15,15,15,15]
	movdqa	%xmm2, %xmm3
	pand	%xmm1, %xmm3
	movdqa	l_aes_v2_CPI24_1(%rip), %xmm4          # xmm4 = [0,1,92,93,224,225,188,189,80,81,12,13,176,177,236,237]
	pshufb	%xmm3, %xmm4
	psrlw	$4, %xmm2
	pand	%xmm1, %xmm2
	movdqa	l_aes_v2_CPI24_2(%rip), %xmm3          # xmm3 = [0,178,181,7,58,136,143,61,172,30,25,171,150,36,35,145]
	pshufb	%xmm2, %xmm3
	pxor	%xmm4, %xmm3
	pxor	l_aes_v2_CPI24_3(%rip), %xmm3
	movdqa	%xmm3, %xmm2
	pand	%xmm1, %xmm2
	movdqa	l_aes_v2_CPI24_4(%rip), %xmm4          # xmm4 = [0,110,200,166,124,18,180,218,188,210,116,26,192,174,8,102]
	pshufb	%xmm2, %xmm4
	psrlw	$4, %xmm3
	pand	%xmm1, %xmm3
	movdqa	l_aes_v2_CPI24_5(%rip), %xmm5          # xmm5 = [0,74,121,51,55,125,78,4,217,147,160,234,238,164,151,221]
	pshufb	%xmm3, %xmm5
	pxor	%xmm4, %xmm5
	movdqa	l_aes_v2_CPI24_6(%rip), %xmm4          # xmm4 = [0,219,20,207,167,124,179,104,168,115,188,103,15,212,27,192]
	pshufb	%xmm2, %xmm4
	movdqa	l_aes_v2_CPI24_7(%rip), %xmm2          # xmm2 = [0,237,209,60,218,55,11,230,8,229,217,52,210,63,3,238]
	pshufb	%xmm3, %xmm2
	pxor	%xmm4, %xmm2
	movl	%edx, %edi
	andl	$48, %edi
	leaq	l_aes_v2_static.6(%rip), %r8
	movdqu	(%rdi,%r8), %xmm3
	pshufb	%xmm3, %xmm2
	pxor	%xmm5, %xmm2
	movdqa	%xmm2, %xmm3
	pand	%xmm1, %xmm3
	movdqa	l_aes_v2_CPI24_8(%rip), %xmm4          # xmm4 = [0,28,68,88,151,139,211,207,138,150,206,210,29,1,89,69]
	pshufb	%xmm3, %xmm4
	movdqa	%xmm2, %xmm3
	psrlw	$4, %xmm3
	pand	%xmm1, %xmm3
	movdqa	l_aes_v2_CPI24_9(%rip), %xmm1          # xmm1 = [0,48,38,22,183,135,145,161,65,113,103,87,246,198,208,224]
	pshufb	%xmm3, %xmm1
	leaq	l_aes_v2_static.4(%rip), %r8
	movdqu	(%rdi,%r8), %xmm3
	movdqa	%xmm2, %xmm5
	pshufb	%xmm3, %xmm5
	pxor	%xmm4, %xmm5
	pxor	%xmm1, %xmm5
	leaq	l_aes_v2_static.5(%rip), %r8
	movdqu	(%rdi,%r8), %xmm1
	pshufb	%xmm1, %xmm2
	pxor	%xmm5, %xmm2
	pshufb	%xmm3, %xmm5
	pxor	%xmm2, %xmm5
	pxor	l_aes_v2_CPI24_10(%rip), %xmm5
	pshufb	%xmm0, %xmm5
	movdqu	%xmm5, (%rsi)
	addq	$16, %rsi
	addq	$-16, %rdx
	decq	%r12
	jne	Laes_v2_BB24_4
# %bb.5:                                # %"aes_permute::lane_keys::invert_lanes.exit"
	movups	(%r14,%rcx), %xmm0
	movups	%xmm0, (%rax)
	movups	(%r14), %xmm0
	movups	%xmm0, (%rax,%rcx)
	xorl	%eax, %eax
	jmp	Laes_v2_BB24_6
Laes_v2_BB24_2:                               # %then.1
	movl	$484, %edx                      # imm = 0x1E4
	movq	%rbx, %rdi
	xorl	%esi, %esi
	callq	*_memset@GOTPCREL(%rip)
	movl	$1, %eax
Laes_v2_BB24_6:                               # %common.ret
	addq	$8, %rsp
	popq	%rbx
	popq	%r12
	popq	%r14
	popq	%r15
	pxor	%xmm0, %xmm0
	pxor	%xmm1, %xmm1
	pxor	%xmm2, %xmm2
	pxor	%xmm3, %xmm3
	pxor	%xmm4, %xmm4
	pxor	%xmm5, %xmm5
	pxor	%xmm6, %xmm6
	pxor	%xmm7, %xmm7
	pxor	%xmm8, %xmm8
	pxor	%xmm9, %xmm9
	pxor	%xmm10, %xmm10
	pxor	%xmm11, %xmm11
	pxor	%xmm12, %xmm12
	pxor	%xmm13, %xmm13
	pxor	%xmm14, %xmm14
	pxor	%xmm15, %xmm15
	xorl	%ecx, %ecx
	xorl	%edx, %edx
	xorl	%esi, %esi
	xorl	%edi, %edi
	xorl	%r8d, %r8d
	xorl	%r9d, %r9d
	xorl	%r10d, %r10d
	xorl	%r11d, %r11d
	retq
                                        # -- End function
	.section	__TEXT,__text,regular,pure_instructions
	.p2align	4                               # -- Begin function key_wrap::wrapping::wrap::<#ef80964e0b8d42c0>
_aes_v2.key_wrap.wrapping.wrap: # @_aes_v2.key_wrap.wrapping.wrap
# %bb.0:                                # %start
	movabsq	$18014398509481980, %r9         # imm = 0x3FFFFFFFFFFFFC
	leaq	-2(%rdx), %rax
	leaq	2(%r9), %r10
	cmpq	%r10, %rax
	setae	%r10b
	leaq	1(%rdx), %rax
	cmpq	%rax, %r8
	setne	%r11b
	movb	$1, %al
	orb	%r10b, %r11b
	jne	Laes_v2_BB25_18
# %bb.1:                                # %after.1
	testq	%r8, %r8
	je	Laes_v2_BB25_5
# %bb.2:                                # %arm.12
	pushq	%r15
	pushq	%r14
	pushq	%r12
	pushq	%rbx
	pushq	%rax
	leaq	8(%rcx), %rbx
	decq	%r8
	movabsq	$-6438275382588823898, %rax     # imm = 0xA6A6A6A6A6A6A6A6
	movq	%rax, (%rcx)
	leaq	(,%rdx,8), %rax
	movq	%rbx, %r10
	subq	%rsi, %r10
	cmpq	%rax, %r10
	jae	Laes_v2_BB25_6
# %bb.3:                                # %join.7.i.i.i.i.i.i.preheader
	cmpq	$6, %rdx
	jb	Laes_v2_BB25_4
# %bb.7:                                # %vector.memcheck
	movq	%rcx, %r10
	subq	%rsi, %r10
	addq	$8, %r10
	cmpq	$32, %r10
	jae	Laes_v2_BB25_9
Laes_v2_BB25_4:
	xorl	%r9d, %r9d
Laes_v2_BB25_12:                              # %join.7.i.i.i.i.i.i.preheader17
	movq	%rdx, %r10
	movq	%r9, %rax
	andq	$3, %r10
	je	Laes_v2_BB25_15
# %bb.13:                               # %join.7.i.i.i.i.i.i.prol.preheader
	movq	%r9, %rax
	.p2align	4
Laes_v2_BB25_14:                              # %join.7.i.i.i.i.i.i.prol
                                        # =>This Inner Loop Header: Depth=1
	movq	(%rsi,%rax,8), %r11
	movq	%r11, (%rbx,%rax,8)
	incq	%rax
	decq	%r10
	jne	Laes_v2_BB25_14
Laes_v2_BB25_15:                              # %join.7.i.i.i.i.i.i.prol.loopexit
	subq	%rdx, %r9
	cmpq	$-4, %r9
	ja	Laes_v2_BB25_17
	.p2align	4
Laes_v2_BB25_16:                              # %join.7.i.i.i.i.i.i
                                        # =>This Inner Loop Header: Depth=1
	movq	(%rsi,%rax,8), %r9
	movq	%r9, 8(%rcx,%rax,8)
	movq	8(%rsi,%rax,8), %r9
	movq	%r9, 16(%rcx,%rax,8)
	movq	16(%rsi,%rax,8), %r9
	movq	%r9, 24(%rcx,%rax,8)
	movq	24(%rsi,%rax,8), %r9
	movq	%r9, 32(%rcx,%rax,8)
	addq	$4, %rax
	cmpq	%rax, %rdx
	jne	Laes_v2_BB25_16
	jmp	Laes_v2_BB25_17
Laes_v2_BB25_5:
	xorl	%eax, %eax
                                        # kill: def $al killed $al killed $eax
	retq
Laes_v2_BB25_6:                               # %apart.2.i.i.i.i.i.i
	movq	%rdi, %r14
	movq	%rbx, %rdi
	movq	%rax, %rdx
	movq	%r8, %r15
	movq	%rcx, %r12
	callq	*_memmove@GOTPCREL(%rip)
	movq	%r14, %rdi
	movq	%r12, %rcx
	movq	%r15, %r8
Laes_v2_BB25_17:                              # %"core::slice::edits::slice+T::copy_from_slice::<#76f67ba6cf9709da>.exit"
	movq	%rcx, %rsi
	movq	%rbx, %rdx
	movq	%r8, %rcx
	callq	_aes_v2.key_wrap.steps.wrap_in_place
	xorl	%eax, %eax
	addq	$8, %rsp
	popq	%rbx
	popq	%r12
	popq	%r14
	popq	%r15
Laes_v2_BB25_18:                              # %return.10
                                        # kill: def $al killed $al killed $eax
	retq
Laes_v2_BB25_9:                               # %vector.ph
	andq	%rdx, %r9
	movabsq	$144115188075855840, %r10       # imm = 0x1FFFFFFFFFFFFE0
	andq	%r10, %rax
	xorl	%r10d, %r10d
	.p2align	4
Laes_v2_BB25_10:                              # %vector.body
                                        # =>This Inner Loop Header: Depth=1
	movups	(%rsi,%r10), %xmm0
	movups	16(%rsi,%r10), %xmm1
	movups	%xmm0, 8(%rcx,%r10)
	movups	%xmm1, 24(%rcx,%r10)
	addq	$32, %r10
	cmpq	%r10, %rax
	jne	Laes_v2_BB25_10
# %bb.11:                               # %middle.block
	cmpq	%r9, %rdx
	je	Laes_v2_BB25_17
	jmp	Laes_v2_BB25_12
                                        # -- End function
	.section	__TEXT,__text,regular,pure_instructions
	.p2align	4                               # -- Begin function key_wrap::steps::wrap_in_place::<#ef80964e0b8d42c0>
_aes_v2.key_wrap.steps.wrap_in_place: # @_aes_v2.key_wrap.steps.wrap_in_place
# %bb.0:                                # %start
	testq	%rcx, %rcx
	je	Laes_v2_BB26_14
# %bb.1:                                # %join.5.i.preheader
	pushq	%rbp
	pushq	%r15
	pushq	%r14
	pushq	%r13
	pushq	%r12
	pushq	%rbx
	pushq	%rax
	movq	%rcx, %r12
	movq	%rsi, %r15
	movq	%rdi, %rbx
	movq	%rcx, %r14
	negq	%r14
	movl	$1, %ebp
	movq	%rdx, (%rsp)                    # 8-byte Spill
	movq	%rdx, %r13
	.p2align	4
Laes_v2_BB26_2:                               # %join.5.i
                                        # =>This Inner Loop Header: Depth=1
	movq	%rbx, %rdi
	movq	%r15, %rsi
	movq	%r13, %rdx
	callq	_aes_v2.key_wrap.steps.encrypt_halves
	movq	%rbp, %rax
	bswapq	%rax
	xorq	%rax, (%r15)
	leaq	(%r14,%rbp), %rax
	incq	%rax
	incq	%rbp
	addq	$8, %r13
	cmpq	$1, %rax
	jne	Laes_v2_BB26_2
# %bb.3:                                # %"key_wrap::steps::wrap_turn::<#ef80964e0b8d42c0>.exit.loopexit"
	xorl	%ebp, %ebp
	movq	(%rsp), %r13                    # 8-byte Reload
	movq	%rbx, %rax
	.p2align	4
Laes_v2_BB26_4:                               # %join.5.i.1
                                        # =>This Inner Loop Header: Depth=1
	leaq	1(%r12), %rcx
	leaq	(%rcx,%rbp), %rbx
	movq	%rax, %r14
	movq	%rax, %rdi
	movq	%r15, %rsi
	movq	%r13, %rdx
	callq	_aes_v2.key_wrap.steps.encrypt_halves
	movq	%r14, %rax
	bswapq	%rbx
	xorq	%rbx, (%r15)
	incq	%rbp
	addq	$8, %r13
	cmpq	%rbp, %r12
	jne	Laes_v2_BB26_4
# %bb.5:                                # %"key_wrap::steps::wrap_turn::<#ef80964e0b8d42c0>.exit.loopexit.1"
	leaq	1(,%r12,2), %rbp
	movq	(%rsp), %r13                    # 8-byte Reload
	movq	%r12, %rbx
	.p2align	4
Laes_v2_BB26_6:                               # %join.5.i.2
                                        # =>This Inner Loop Header: Depth=1
	movq	%r14, %rdi
	movq	%r15, %rsi
	movq	%r13, %rdx
	callq	_aes_v2.key_wrap.steps.encrypt_halves
	movq	%rbp, %rax
	bswapq	%rax
	xorq	%rax, (%r15)
	incq	%rbp
	addq	$8, %r13
	decq	%rbx
	jne	Laes_v2_BB26_6
# %bb.7:                                # %"key_wrap::steps::wrap_turn::<#ef80964e0b8d42c0>.exit.loopexit.2"
	leaq	(%r12,%r12,2), %rbp
	incq	%rbp
	movq	(%rsp), %r13                    # 8-byte Reload
	movq	%r12, %rbx
	.p2align	4
Laes_v2_BB26_8:                               # %join.5.i.3
                                        # =>This Inner Loop Header: Depth=1
	movq	%r14, %rdi
	movq	%r15, %rsi
	movq	%r13, %rdx
	callq	_aes_v2.key_wrap.steps.encrypt_halves
	movq	%rbp, %rax
	bswapq	%rax
	xorq	%rax, (%r15)
	incq	%rbp
	addq	$8, %r13
	decq	%rbx
	jne	Laes_v2_BB26_8
# %bb.9:                                # %"key_wrap::steps::wrap_turn::<#ef80964e0b8d42c0>.exit.loopexit.3"
	leaq	1(,%r12,4), %rbp
	movq	(%rsp), %r13                    # 8-byte Reload
	movq	%r12, %rbx
	.p2align	4
Laes_v2_BB26_10:                              # %join.5.i.4
                                        # =>This Inner Loop Header: Depth=1
	movq	%r14, %rdi
	movq	%r15, %rsi
	movq	%r13, %rdx
	callq	_aes_v2.key_wrap.steps.encrypt_halves
	movq	%rbp, %rax
	bswapq	%rax
	xorq	%rax, (%r15)
	incq	%rbp
	addq	$8, %r13
	decq	%rbx
	jne	Laes_v2_BB26_10
# %bb.11:                               # %"key_wrap::steps::wrap_turn::<#ef80964e0b8d42c0>.exit.loopexit.4"
	leaq	(%r12,%r12,4), %r13
	incq	%r13
	movq	%r14, %rbx
	movq	(%rsp), %r14                    # 8-byte Reload
	.p2align	4
Laes_v2_BB26_12:                              # %join.5.i.5
                                        # =>This Inner Loop Header: Depth=1
	movq	%rbx, %rdi
	movq	%r15, %rsi
	movq	%r14, %rdx
	callq	_aes_v2.key_wrap.steps.encrypt_halves
	movq	%r13, %rax
	bswapq	%rax
	xorq	%rax, (%r15)
	incq	%r13
	addq	$8, %r14
	decq	%r12
	jne	Laes_v2_BB26_12
# %bb.13:
	addq	$8, %rsp
	popq	%rbx
	popq	%r12
	popq	%r13
	popq	%r14
	popq	%r15
	popq	%rbp
Laes_v2_BB26_14:                              # %after.1
	retq
                                        # -- End function
	.section	__TEXT,__const
	.p2align	4, 0x0                          # -- Begin function key_wrap::steps::encrypt_halves::<#ef80964e0b8d42c0>
l_aes_v2_CPI27_0:
	.zero	16,15
l_aes_v2_CPI27_1:
	.byte	0                               # 0x0
	.byte	1                               # 0x1
	.byte	28                              # 0x1c
	.byte	29                              # 0x1d
	.byte	45                              # 0x2d
	.byte	44                              # 0x2c
	.byte	49                              # 0x31
	.byte	48                              # 0x30
	.byte	39                              # 0x27
	.byte	38                              # 0x26
	.byte	59                              # 0x3b
	.byte	58                              # 0x3a
	.byte	10                              # 0xa
	.byte	11                              # 0xb
	.byte	22                              # 0x16
	.byte	23                              # 0x17
l_aes_v2_CPI27_2:
	.byte	0                               # 0x0
	.byte	134                             # 0x86
	.byte	253                             # 0xfd
	.byte	123                             # 0x7b
	.byte	142                             # 0x8e
	.byte	8                               # 0x8
	.byte	115                             # 0x73
	.byte	245                             # 0xf5
	.byte	119                             # 0x77
	.byte	241                             # 0xf1
	.byte	138                             # 0x8a
	.byte	12                              # 0xc
	.byte	249                             # 0xf9
	.byte	127                             # 0x7f
	.byte	4                               # 0x4
	.byte	130                             # 0x82
l_aes_v2_CPI27_3:
	.byte	128                             # 0x80
	.byte	2                               # 0x2
	.byte	1                               # 0x1
	.byte	15                              # 0xf
	.byte	9                               # 0x9
	.byte	5                               # 0x5
	.byte	14                              # 0xe
	.byte	12                              # 0xc
	.byte	13                              # 0xd
	.byte	4                               # 0x4
	.byte	11                              # 0xb
	.byte	10                              # 0xa
	.byte	7                               # 0x7
	.byte	8                               # 0x8
	.byte	6                               # 0x6
	.byte	3                               # 0x3
l_aes_v2_CPI27_4:
	.byte	128                             # 0x80
	.byte	1                               # 0x1
	.byte	9                               # 0x9
	.byte	14                              # 0xe
	.byte	13                              # 0xd
	.byte	11                              # 0xb
	.byte	7                               # 0x7
	.byte	6                               # 0x6
	.byte	15                              # 0xf
	.byte	2                               # 0x2
	.byte	12                              # 0xc
	.byte	5                               # 0x5
	.byte	10                              # 0xa
	.byte	4                               # 0x4
	.byte	3                               # 0x3
	.byte	8                               # 0x8
l_aes_v2_CPI27_5:
	.byte	0                               # 0x0
	.byte	195                             # 0xc3
	.byte	79                              # 0x4f
	.byte	12                              # 0xc
	.byte	252                             # 0xfc
	.byte	124                             # 0x7c
	.byte	67                              # 0x43
	.byte	128                             # 0x80
	.byte	207                             # 0xcf
	.byte	51                              # 0x33
	.byte	63                              # 0x3f
	.byte	112                             # 0x70
	.byte	191                             # 0xbf
	.byte	179                             # 0xb3
	.byte	240                             # 0xf0
	.byte	140                             # 0x8c
l_aes_v2_CPI27_6:
	.byte	0                               # 0x0
	.byte	230                             # 0xe6
	.byte	114                             # 0x72
	.byte	183                             # 0xb7
	.byte	229                             # 0xe5
	.byte	198                             # 0xc6
	.byte	197                             # 0xc5
	.byte	35                              # 0x23
	.byte	81                              # 0x51
	.byte	180                             # 0xb4
	.byte	3                               # 0x3
	.byte	113                             # 0x71
	.byte	32                              # 0x20
	.byte	151                             # 0x97
	.byte	82                              # 0x52
	.byte	148                             # 0x94
l_aes_v2_CPI27_7:
	.byte	0                               # 0x0
	.byte	124                             # 0x7c
	.byte	32                              # 0x20
	.byte	207                             # 0xcf
	.byte	146                             # 0x92
	.byte	1                               # 0x1
	.byte	239                             # 0xef
	.byte	147                             # 0x93
	.byte	179                             # 0xb3
	.byte	33                              # 0x21
	.byte	238                             # 0xee
	.byte	206                             # 0xce
	.byte	125                             # 0x7d
	.byte	178                             # 0xb2
	.byte	93                              # 0x5d
	.byte	92                              # 0x5c
l_aes_v2_CPI27_8:
	.byte	0                               # 0x0
	.byte	209                             # 0xd1
	.byte	229                             # 0xe5
	.byte	247                             # 0xf7
	.byte	230                             # 0xe6
	.byte	37                              # 0x25
	.byte	18                              # 0x12
	.byte	195                             # 0xc3
	.byte	38                              # 0x26
	.byte	192                             # 0xc0
	.byte	55                              # 0x37
	.byte	210                             # 0xd2
	.byte	244                             # 0xf4
	.byte	3                               # 0x3
	.byte	17                              # 0x11
	.byte	52                              # 0x34
l_aes_v2_CPI27_9:
	.byte	0                               # 0x0
	.byte	203                             # 0xcb
	.byte	215                             # 0xd7
	.byte	176                             # 0xb0
	.byte	33                              # 0x21
	.byte	141                             # 0x8d
	.byte	103                             # 0x67
	.byte	172                             # 0xac
	.byte	123                             # 0x7b
	.byte	90                              # 0x5a
	.byte	234                             # 0xea
	.byte	61                              # 0x3d
	.byte	70                              # 0x46
	.byte	246                             # 0xf6
	.byte	145                             # 0x91
	.byte	28                              # 0x1c
l_aes_v2_CPI27_10:
	.byte	0                               # 0x0
	.byte	159                             # 0x9f
	.byte	97                              # 0x61
	.byte	22                              # 0x16
	.byte	194                             # 0xc2
	.byte	42                              # 0x2a
	.byte	119                             # 0x77
	.byte	232                             # 0xe8
	.byte	137                             # 0x89
	.byte	75                              # 0x4b
	.byte	93                              # 0x5d
	.byte	60                              # 0x3c
	.byte	181                             # 0xb5
	.byte	163                             # 0xa3
	.byte	212                             # 0xd4
	.byte	254                             # 0xfe
	.section	__TEXT,__text,regular,pure_instructions
	.p2align	4
_aes_v2.key_wrap.steps.encrypt_halves: # @_aes_v2.key_wrap.steps.encrypt_halves
# %bb.0:                                # %start
	movq	(%rdx), %xmm0                   # xmm0 = mem[0],zero
	movq	(%rsi), %xmm1                   # xmm1 = mem[0],zero
	punpcklqdq	%xmm0, %xmm1            # xmm1 = xmm1[0],xmm0[0]
	movq	16(%rdi), %rcx
	movq	24(%rdi), %rdi
	leaq	-1(%rdi), %rax
	movdqu	(%rcx), %xmm2
	pxor	%xmm1, %xmm2
	movdqa	l_aes_v2_CPI27_0(%rip), %xmm0          # xmm0 = [15,15,15,15,15,15,15,15,15,15,15,15,15,15,15,15]
	movdqa	%xmm2, %xmm1
	pand	%xmm0, %xmm1
	movdqa	l_aes_v2_CPI27_1(%rip), %xmm3          # xmm3 = [0,1,28,29,45,44,49,48,39,38,59,58,10,11,22,23]
	pshufb	%xmm1, %xmm3
	psrlw	$4, %xmm2
	pand	%xmm0, %xmm2
	movdqa	l_aes_v2_CPI27_2(%rip), %xmm1          # xmm1 = [0,134,253,123,142,8,115,245,119,241,138,12,249,127,4,130]
	pshufb	%xmm2, %xmm1
	pxor	%xmm3, %xmm1
	cmpq	$2, %rax
	jb	Laes_v2_BB27_3
# %bb.1:                                # %join.5.i.i.preheader
	addq	$-2, %rdi
	movl	$16, %r8d
	.p2align	4
Laes_v2_BB27_2:                               # %join.5.i.i
                                        # =>This Inner Loop Header: Depth=1
	movdqu	(%rcx,%r8), %xmm2
	movdqa	%xmm1, %xmm3
	psrlw	$4, %xmm3
	pand	%xmm0, %xmm3
	pand	%xmm0, %xmm1
	movdqa	%xmm3, %xmm4
	pxor	%xmm1, %xmm4
	movdqa	l_aes_v2_CPI27_3(%rip), %xmm5          # xmm5 = [128,2,1,15,9,5,14,12,13,4,11,10,7,8,6,3]
	pshufb	%xmm1, %xmm5
	movdqa	l_aes_v2_CPI27_4(%rip), %xmm1          # xmm1 = [128,1,9,14,13,11,7,6,15,2,12,5,10,4,3,8]
	movdqa	%xmm1, %xmm6
	pshufb	%xmm3, %xmm6
	movdqa	%xmm1, %xmm7
	pshufb	%xmm4, %xmm7
	pxor	%xmm5, %xmm6
	pxor	%xmm5, %xmm7
	movdqa	%xmm1, %xmm5
	pshufb	%xmm6, %xmm5
	pshufb	%xmm7, %xmm1
	pxor	%xmm4, %xmm5
	pxor	%xmm3, %xmm1
	movdqa	l_aes_v2_CPI27_5(%rip), %xmm4          # xmm4 = [0,195,79,12,252,124,67,128,207,51,63,112,191,179,240,140]
	pshufb	%xmm5, %xmm4
	movdqa	l_aes_v2_CPI27_6(%rip), %xmm3          # xmm3 = [0,230,114,183,229,198,197,35,81,180,3,113,32,151,82,148]
	pshufb	%xmm1, %xmm3
	pxor	%xmm4, %xmm3
	movdqa	l_aes_v2_CPI27_7(%rip), %xmm4          # xmm4 = [0,124,32,207,146,1,239,147,179,33,238,206,125,178,93,92]
	pshufb	%xmm5, %xmm4
	movdqa	l_aes_v2_CPI27_8(%rip), %xmm5          # xmm5 = [0,209,229,247,230,37,18,195,38,192,55,210,244,3,17,52]
	pshufb	%xmm1, %xmm5
	pxor	%xmm4, %xmm5
	movl	%r8d, %r9d
	andl	$48, %r9d
	leaq	l_aes_v2_static.4(%rip), %r10
	movdqu	(%r9,%r10), %xmm4
	movdqa	%xmm3, %xmm1
	pshufb	%xmm4, %xmm1
	pxor	%xmm5, %xmm1
	leaq	l_aes_v2_static.5(%rip), %r10
	movdqu	(%r9,%r10), %xmm5
	pshufb	%xmm5, %xmm3
	pxor	%xmm2, %xmm3
	pxor	%xmm1, %xmm3
	pshufb	%xmm4, %xmm1
	pxor	%xmm3, %xmm1
	addq	$16, %r8
	decq	%rdi
	jne	Laes_v2_BB27_2
Laes_v2_BB27_3:                               # %"aes_permute::blocks::process_block::<#aedbc4fd156a355d>.exit"
	shlq	$4, %rax
	movdqu	(%rcx,%rax), %xmm2
	movdqa	%xmm1, %xmm3
	psrlw	$4, %xmm3
	pand	%xmm0, %xmm3
	pand	%xmm0, %xmm1
	movdqa	%xmm3, %xmm0
	pxor	%xmm1, %xmm0
	movdqa	l_aes_v2_CPI27_3(%rip), %xmm4          # xmm4 = [128,2,1,15,9,5,14,12,13,4,11,10,7,8,6,3]
	pshufb	%xmm1, %xmm4
	movdqa	l_aes_v2_CPI27_4(%rip), %xmm1          # xmm1 = [128,1,9,14,13,11,7,6,15,2,12,5,10,4,3,8]
	movdqa	%xmm1, %xmm5
	pshufb	%xmm3, %xmm5
	movdqa	%xmm1, %xmm6
	pshufb	%xmm0, %xmm6
	pxor	%xmm4, %xmm5
	pxor	%xmm4, %xmm6
	movdqa	%xmm1, %xmm4
	pshufb	%xmm5, %xmm4
	pshufb	%xmm6, %xmm1
	pxor	%xmm0, %xmm4
	pxor	%xmm3, %xmm1
	movdqa	l_aes_v2_CPI27_9(%rip), %xmm0          # xmm0 = [0,203,215,176,33,141,103,172,123,90,234,61,70,246,145,28]
	pshufb	%xmm4, %xmm0
	movdqa	l_aes_v2_CPI27_10(%rip), %xmm3         # xmm3 = [0,159,97,22,194,42,119,232,137,75,93,60,181,163,212,254]
	pshufb	%xmm1, %xmm3
	pxor	%xmm0, %xmm3
	andl	$48, %eax
	leaq	l_aes_v2_static.3(%rip), %rcx
	movdqu	(%rax,%rcx), %xmm0
	pshufb	%xmm0, %xmm3
	pxor	%xmm2, %xmm3
	movq	%xmm3, (%rsi)
	pextrq	$1, %xmm3, (%rdx)
	retq
                                        # -- End function
	.section	__TEXT,__text,regular,pure_instructions
	.p2align	4                               # -- Begin function aes_cipher::zeroize::stack::wipe_stack::<=512>
_aes_v2.aes_cipher.zeroize.stack.wipe_stack.512: # @_aes_v2.aes_cipher.zeroize.stack.wipe_stack.512
# %bb.0:                                # %start
	subq	$520, %rsp                      # imm = 0x208
	leaq	8(%rsp), %rdi
	movl	$512, %edx                      # imm = 0x200
	xorl	%esi, %esi
	callq	*_memset@GOTPCREL(%rip)
	movq	$0, (%rsp)
	#APP
	#NO_APP
	movq	(%rsp), %rax
	#APP
	#NO_APP
	cmpq	$512, %rax                      # imm = 0x200
	jae	Laes_v2_BB28_2
# %bb.1:                                # %then.1
	movzbl	8(%rsp,%rax), %eax
	#APP
	#NO_APP
	xchgq	%rax, (%rsp)
	#APP
	#NO_APP
Laes_v2_BB28_2:                               # %common.ret
	addq	$520, %rsp                      # imm = 0x208
	pxor	%xmm0, %xmm0
	pxor	%xmm1, %xmm1
	pxor	%xmm2, %xmm2
	pxor	%xmm3, %xmm3
	pxor	%xmm4, %xmm4
	pxor	%xmm5, %xmm5
	pxor	%xmm6, %xmm6
	pxor	%xmm7, %xmm7
	pxor	%xmm8, %xmm8
	pxor	%xmm9, %xmm9
	pxor	%xmm10, %xmm10
	pxor	%xmm11, %xmm11
	pxor	%xmm12, %xmm12
	pxor	%xmm13, %xmm13
	pxor	%xmm14, %xmm14
	pxor	%xmm15, %xmm15
	xorl	%ecx, %ecx
	xorl	%edx, %edx
	xorl	%esi, %esi
	xorl	%edi, %edi
	xorl	%r8d, %r8d
	xorl	%r9d, %r9d
	xorl	%r10d, %r10d
	xorl	%r11d, %r11d
	retq
                                        # -- End function
	.section	__TEXT,__text,regular,pure_instructions
	.p2align	4                               # -- Begin function key_wrap::padded::wrap_padded::<#ef80964e0b8d42c0>
_aes_v2.key_wrap.padded.wrap_padded: # @_aes_v2.key_wrap.padded.wrap_padded
# %bb.0:                                # %start
	pushq	%rbp
	pushq	%r15
	pushq	%r14
	pushq	%r13
	pushq	%r12
	pushq	%rbx
	subq	$72, %rsp
	movq	%rcx, %rbx
	leaq	-1(%rdx), %rcx
	movl	$4294967294, %r9d               # imm = 0xFFFFFFFE
	movb	$1, %al
	cmpq	%r9, %rcx
	ja	Laes_v2_BB29_13
# %bb.1:                                # %start
	leaq	7(%rdx), %rcx
	shrq	$3, %rcx
	incq	%rcx
	cmpq	%rcx, %r8
	jne	Laes_v2_BB29_13
# %bb.2:                                # %arm.5
	leaq	8(%rbx), %r15
	movabsq	$-6460033620986822656, %rax     # imm = 0xA65959A600000000
	orq	%rdx, %rax
	movq	%r8, %r12
	bswapq	%rax
	movq	%rax, (%rbx)
	decq	%r12
	je	Laes_v2_BB29_11
# %bb.3:                                # %join.5.i.preheader
	movq	%rdi, 40(%rsp)                  # 8-byte Spill
	cmpq	$2, %r8
	jne	Laes_v2_BB29_5
# %bb.4:
	xorl	%r14d, %r14d
	jmp	Laes_v2_BB29_8
Laes_v2_BB29_5:                               # %join.5.i.preheader.new
	movq	%r15, 16(%rsp)                  # 8-byte Spill
	movq	%r12, 8(%rsp)                   # 8-byte Spill
	andq	$-2, %r12
	movq	%r12, 56(%rsp)                  # 8-byte Spill
	movq	%rsi, 32(%rsp)                  # 8-byte Spill
	leaq	8(%rsi), %rax
	movq	%rax, 48(%rsp)                  # 8-byte Spill
	xorl	%r14d, %r14d
	movq	%rdx, 24(%rsp)                  # 8-byte Spill
	movq	%rdx, %r15
	.p2align	4
Laes_v2_BB29_6:                               # %join.5.i
                                        # =>This Inner Loop Header: Depth=1
	movq	48(%rsp), %rax                  # 8-byte Reload
	leaq	(%rax,%r14,8), %rcx
	movq	%rcx, 64(%rsp)                  # 8-byte Spill
	leaq	(%rax,%r14,8), %rsi
	addq	$-8, %rsi
	movq	%r15, %r13
	subq	$8, %r13
	movl	$8, %r12d
	movl	$8, %edx
	cmovbq	%r15, %rdx
	movq	$0, (%rsp)
	movq	%rsp, %rbp
	movq	%rbp, %rdi
	callq	*_memcpy@GOTPCREL(%rip)
	movq	(%rsp), %rax
	movq	%rax, 8(%rbx,%r14,8)
	cmpq	$8, %r13
	cmovaeq	%r12, %r13
	movq	$0, (%rsp)
	movq	%rbp, %rdi
	movq	64(%rsp), %rsi                  # 8-byte Reload
	movq	%r13, %rdx
	callq	*_memcpy@GOTPCREL(%rip)
	movq	(%rsp), %rax
	movq	%rax, 16(%rbx,%r14,8)
	addq	$2, %r14
	addq	$-16, %r15
	cmpq	%r14, 56(%rsp)                  # 8-byte Folded Reload
	jne	Laes_v2_BB29_6
# %bb.7:                                # %"key_wrap::padded::fill.exit.unr-lcssa"
	movq	8(%rsp), %r12                   # 8-byte Reload
	testb	$1, %r12b
	movq	24(%rsp), %rdx                  # 8-byte Reload
	movq	32(%rsp), %rsi                  # 8-byte Reload
	movq	16(%rsp), %r15                  # 8-byte Reload
	je	Laes_v2_BB29_9
Laes_v2_BB29_8:                               # %join.5.i.epil.preheader
	leaq	(,%r14,8), %rax
	leaq	(%rsi,%r14,8), %rsi
	subq	%rax, %rdx
	cmpq	$8, %rdx
	movl	$8, %eax
	cmovbq	%rdx, %rax
	movq	$0, (%rsp)
	movq	%rsp, %rdi
	movq	%rax, %rdx
	callq	*_memcpy@GOTPCREL(%rip)
	movq	(%rsp), %rax
	movq	%rax, (%r15,%r14,8)
Laes_v2_BB29_9:                               # %"key_wrap::padded::fill.exit"
	cmpq	$1, %r12
	movq	40(%rsp), %rdi                  # 8-byte Reload
	jne	Laes_v2_BB29_11
# %bb.10:                               # %then.1.i
	movq	%rbx, %rsi
	movq	%r15, %rdx
	callq	_aes_v2.key_wrap.steps.encrypt_halves
	jmp	Laes_v2_BB29_12
Laes_v2_BB29_11:                              # %else.2.i
	movq	%rbx, %rsi
	movq	%r15, %rdx
	movq	%r12, %rcx
	callq	_aes_v2.key_wrap.steps.wrap_in_place
Laes_v2_BB29_12:                              # %return.4
	xorl	%eax, %eax
Laes_v2_BB29_13:                              # %return.4
                                        # kill: def $al killed $al killed $eax
	addq	$72, %rsp
	popq	%rbx
	popq	%r12
	popq	%r13
	popq	%r14
	popq	%r15
	popq	%rbp
	retq
                                        # -- End function
	.section	__TEXT,__text,regular,pure_instructions
	.p2align	4                               # -- Begin function aes_hybrid::closures::lend_planes::<#f679257bbe3eb97f>
_aes_v2.aes_hybrid.closures.lend_planes.2: # @_aes_v2.aes_hybrid.closures.lend_planes.2
# %bb.0:                                # %start
	pushq	%rbp
	pushq	%r15
	pushq	%r14
	pushq	%r13
	pushq	%r12
	pushq	%rbx
	subq	$1976, %rsp                     # imm = 0x7B8
	movq	%r8, 8(%rsp)                    # 8-byte Spill
	movq	%rcx, %r14
	movq	%rdx, %r15
	movq	%rsi, %r12
	movq	%rdi, %r13
	leaq	176(%rsp), %rdi
	movl	$1792, %edx                     # imm = 0x700
	xorl	%esi, %esi
	callq	*_memset@GOTPCREL(%rip)
	leaq	(,%r12,8), %rbp
	leaq	48(%rsp), %rbx
	movq	%rbx, %rdi
	movq	%r13, %rsi
	movq	%r12, %rdx
	callq	_aes_v2.aes_hybrid.plane_keys.store_planes
	movq	%r13, 16(%rsp)
	movq	%r12, 24(%rsp)
	movq	%r15, 32(%rsp)
	movq	%r14, 40(%rsp)
	leaq	16(%rsp), %rdi
	movq	%rbx, %rsi
	movq	%rbp, %rdx
	movq	8(%rsp), %rcx                   # 8-byte Reload
	callq	_aes_v2.aes_hybrid.closures.call_to_work.2
	movq	%rbx, %rdi
	callq	_aes_v2.aes_cipher.zeroize.zeroize_words
	callq	_aes_v2.aes_cipher.zeroize.stack.wipe_stack.2032
	addq	$1976, %rsp                     # imm = 0x7B8
	popq	%rbx
	popq	%r12
	popq	%r13
	popq	%r14
	popq	%r15
	popq	%rbp
	retq
                                        # -- End function
	.section	__TEXT,__const
	.p2align	4, 0x0                          # -- Begin function aes_hybrid::closures::call_to_work::<#f679257bbe3eb97f>
l_aes_v2_CPI31_0:
	.byte	0                               # 0x0
	.byte	4                               # 0x4
	.byte	8                               # 0x8
	.byte	12                              # 0xc
	.byte	1                               # 0x1
	.byte	5                               # 0x5
	.byte	9                               # 0x9
	.byte	13                              # 0xd
	.byte	2                               # 0x2
	.byte	6                               # 0x6
	.byte	10                              # 0xa
	.byte	14                              # 0xe
	.byte	3                               # 0x3
	.byte	7                               # 0x7
	.byte	11                              # 0xb
	.byte	15                              # 0xf
l_aes_v2_CPI31_1:
	.zero	16,85
l_aes_v2_CPI31_2:
	.zero	16,51
l_aes_v2_CPI31_3:
	.zero	16,15
	.section	__TEXT,__text,regular,pure_instructions
	.p2align	4
_aes_v2.aes_hybrid.closures.call_to_work.2: # @_aes_v2.aes_hybrid.closures.call_to_work.2
# %bb.0:                                # %start
	movq	24(%rcx), %rax
	testq	%rax, %rax
	je	Laes_v2_BB31_17
# %bb.1:                                # %join.5.lr.ph.i.i
	pushq	%rbp
	pushq	%r15
	pushq	%r14
	pushq	%r13
	pushq	%r12
	pushq	%rbx
	subq	$1240, %rsp                     # imm = 0x4D8
	movq	%rcx, %rbx
	movq	16(%rcx), %rcx
	shrq	$3, %rdx
	decq	%rdx
	movq	%rcx, 24(%rsp)                  # 8-byte Spill
	addq	$112, %rcx
	movq	%rcx, 40(%rsp)                  # 8-byte Spill
	xorl	%ebp, %ebp
	movq	%rdx, 48(%rsp)                  # 8-byte Spill
	movq	%rsi, 72(%rsp)                  # 8-byte Spill
	movq	%rax, 56(%rsp)                  # 8-byte Spill
	movq	%rdi, 16(%rsp)                  # 8-byte Spill
	jmp	Laes_v2_BB31_2
	.p2align	4
Laes_v2_BB31_10:                              #   in Loop: Header=BB31_2 Depth=1
	xorl	%eax, %eax
	movq	32(%rsp), %rbp                  # 8-byte Reload
	movq	8(%rsp), %r8                    # 8-byte Reload
Laes_v2_BB31_14:                              # %join.7.i.i.i.epil.preheader
                                        #   in Loop: Header=BB31_2 Depth=1
	shlq	$4, %rax
	movdqu	(%r13,%rax), %xmm1
	pxor	%xmm0, %xmm1
	movdqu	%xmm1, (%r13,%rax)
	movdqu	216(%rsp,%rax), %xmm0
	movdqu	%xmm0, (%rbx)
Laes_v2_BB31_15:                              # %"cbc::decryption::unchain_part::<#e6bd2e7595c2ce9d>.exit.loopexit.i.i"
                                        #   in Loop: Header=BB31_2 Depth=1
	addq	%r8, %rbp
	movq	56(%rsp), %rax                  # 8-byte Reload
	cmpq	%rax, %rbp
	jae	Laes_v2_BB31_16
Laes_v2_BB31_2:                               # %join.5.i.i
                                        # =>This Loop Header: Depth=1
                                        #     Child Loop BB31_4 Depth 2
                                        #     Child Loop BB31_8 Depth 2
                                        #     Child Loop BB31_12 Depth 2
	movq	%rax, %r12
	subq	%rbp, %r12
	cmpq	$64, %r12
	movl	$64, %r15d
	cmovbq	%r12, %r15
	movq	%rbp, 32(%rsp)                  # 8-byte Spill
	shlq	$4, %rbp
	movq	24(%rsp), %rax                  # 8-byte Reload
	leaq	(%rax,%rbp), %r13
	movq	%r15, 8(%rsp)                   # 8-byte Spill
                                        # kill: def $r15d killed $r15d killed $r15 def $r15
	shll	$4, %r15d
	leaq	216(%rsp), %rdi
	xorl	%r14d, %r14d
	movl	$1024, %edx                     # imm = 0x400
	xorl	%esi, %esi
	callq	*_memset@GOTPCREL(%rip)
	leaq	216(%rsp), %rdi
	movq	%r13, %rsi
	movq	%r15, %rdx
	callq	*_memcpy@GOTPCREL(%rip)
	movq	%r12, 64(%rsp)                  # 8-byte Spill
	cmpq	$8, %r12
	jb	Laes_v2_BB31_6
# %bb.3:                                # %join.5.i.i.i.i.preheader
                                        #   in Loop: Header=BB31_2 Depth=1
	movq	40(%rsp), %rax                  # 8-byte Reload
	leaq	(%rax,%rbp), %r15
	xorl	%r14d, %r14d
	movq	48(%rsp), %r12                  # 8-byte Reload
	.p2align	4
Laes_v2_BB31_4:                               # %join.5.i.i.i.i
                                        #   Parent Loop BB31_2 Depth=1
                                        # =>  This Inner Loop Header: Depth=2
	movdqu	-112(%r15), %xmm2
	movdqu	-96(%r15), %xmm5
	movdqu	-80(%r15), %xmm8
	movdqu	-64(%r15), %xmm1
	movdqu	-48(%r15), %xmm4
	movdqu	-32(%r15), %xmm3
	movdqu	-16(%r15), %xmm6
	movdqu	(%r15), %xmm0
	movdqa	l_aes_v2_CPI31_0(%rip), %xmm7          # xmm7 = [0,4,8,12,1,5,9,13,2,6,10,14,3,7,11,15]
	pshufb	%xmm7, %xmm2
	pshufb	%xmm7, %xmm5
	pshufb	%xmm7, %xmm8
	pshufb	%xmm7, %xmm1
	pshufb	%xmm7, %xmm4
	pshufb	%xmm7, %xmm3
	pshufb	%xmm7, %xmm6
	pshufb	%xmm7, %xmm0
	movdqa	%xmm2, %xmm7
	psrlw	$1, %xmm7
	pxor	%xmm5, %xmm7
	movdqa	l_aes_v2_CPI31_1(%rip), %xmm10         # xmm10 = [85,85,85,85,85,85,85,85,85,85,85,85,85,85,85,85]
	pand	%xmm10, %xmm7
	pxor	%xmm7, %xmm5
	paddb	%xmm7, %xmm7
	pxor	%xmm2, %xmm7
	movdqa	%xmm8, %xmm2
	psrlw	$1, %xmm2
	pxor	%xmm1, %xmm2
	pand	%xmm10, %xmm2
	pxor	%xmm2, %xmm1
	paddb	%xmm2, %xmm2
	pxor	%xmm8, %xmm2
	movdqa	%xmm4, %xmm9
	psrlw	$1, %xmm9
	pxor	%xmm3, %xmm9
	pand	%xmm10, %xmm9
	pxor	%xmm9, %xmm3
	paddb	%xmm9, %xmm9
	pxor	%xmm4, %xmm9
	movdqa	%xmm6, %xmm4
	psrlw	$1, %xmm4
	pxor	%xmm0, %xmm4
	pand	%xmm10, %xmm4
	pxor	%xmm4, %xmm0
	paddb	%xmm4, %xmm4
	pxor	%xmm6, %xmm4
	movdqa	%xmm7, %xmm8
	psrlw	$2, %xmm8
	pxor	%xmm2, %xmm8
	movdqa	l_aes_v2_CPI31_2(%rip), %xmm10         # xmm10 = [51,51,51,51,51,51,51,51,51,51,51,51,51,51,51,51]
	pand	%xmm10, %xmm8
	pxor	%xmm8, %xmm2
	psllw	$2, %xmm8
	pxor	%xmm7, %xmm8
	movdqa	%xmm9, %xmm6
	psrlw	$2, %xmm6
	pxor	%xmm4, %xmm6
	pand	%xmm10, %xmm6
	pxor	%xmm6, %xmm4
	psllw	$2, %xmm6
	pxor	%xmm9, %xmm6
	movdqa	%xmm5, %xmm7
	psrlw	$2, %xmm7
	pxor	%xmm1, %xmm7
	pand	%xmm10, %xmm7
	pxor	%xmm7, %xmm1
	psllw	$2, %xmm7
	pxor	%xmm5, %xmm7
	movdqa	%xmm3, %xmm5
	psrlw	$2, %xmm5
	pxor	%xmm0, %xmm5
	pand	%xmm10, %xmm5
	pxor	%xmm5, %xmm0
	psllw	$2, %xmm5
	pxor	%xmm3, %xmm5
	movdqa	%xmm8, %xmm3
	psrlw	$4, %xmm3
	movdqa	l_aes_v2_CPI31_3(%rip), %xmm9          # xmm9 = [15,15,15,15,15,15,15,15,15,15,15,15,15,15,15,15]
	pxor	%xmm6, %xmm3
	pand	%xmm9, %xmm3
	pxor	%xmm3, %xmm6
	psllw	$4, %xmm3
	pxor	%xmm8, %xmm3
	movdqa	%xmm7, %xmm8
	psrlw	$4, %xmm8
	pxor	%xmm5, %xmm8
	pand	%xmm9, %xmm8
	pxor	%xmm8, %xmm5
	psllw	$4, %xmm8
	pxor	%xmm7, %xmm8
	movdqa	%xmm2, %xmm7
	psrlw	$4, %xmm7
	pxor	%xmm4, %xmm7
	pand	%xmm9, %xmm7
	pxor	%xmm7, %xmm4
	psllw	$4, %xmm7
	pxor	%xmm2, %xmm7
	movdqa	%xmm1, %xmm2
	psrlw	$4, %xmm2
	pxor	%xmm0, %xmm2
	pand	%xmm9, %xmm2
	pxor	%xmm2, %xmm0
	psllw	$4, %xmm2
	pxor	%xmm1, %xmm2
	movdqa	%xmm3, 80(%rsp)
	movdqa	%xmm8, 96(%rsp)
	movdqa	%xmm7, 112(%rsp)
	movdqa	%xmm2, 128(%rsp)
	movdqa	%xmm6, 144(%rsp)
	movdqa	%xmm5, 160(%rsp)
	movdqa	%xmm4, 176(%rsp)
	movdqa	%xmm0, 192(%rsp)
	leaq	80(%rsp), %rdx
	movq	72(%rsp), %rdi                  # 8-byte Reload
	movq	%r12, %rsi
	callq	_aes_v2.aes_soft.soft.ciphers.planes.DecryptPlaneCipher.process_planes
	movdqa	80(%rsp), %xmm3
	movdqa	96(%rsp), %xmm6
	movdqa	112(%rsp), %xmm8
	movdqa	128(%rsp), %xmm1
	movdqa	144(%rsp), %xmm2
	movdqa	160(%rsp), %xmm4
	movdqa	176(%rsp), %xmm7
	movdqa	192(%rsp), %xmm0
	movdqa	%xmm3, %xmm5
	psrlw	$1, %xmm5
	pxor	%xmm6, %xmm5
	movdqa	l_aes_v2_CPI31_1(%rip), %xmm9          # xmm9 = [85,85,85,85,85,85,85,85,85,85,85,85,85,85,85,85]
	pand	%xmm9, %xmm5
	pxor	%xmm5, %xmm6
	paddb	%xmm5, %xmm5
	pxor	%xmm3, %xmm5
	movdqa	%xmm8, %xmm3
	psrlw	$1, %xmm3
	pxor	%xmm1, %xmm3
	pand	%xmm9, %xmm3
	pxor	%xmm3, %xmm1
	paddb	%xmm3, %xmm3
	pxor	%xmm8, %xmm3
	movdqa	%xmm2, %xmm8
	psrlw	$1, %xmm8
	pxor	%xmm4, %xmm8
	pand	%xmm9, %xmm8
	pxor	%xmm8, %xmm4
	paddb	%xmm8, %xmm8
	pxor	%xmm2, %xmm8
	movdqa	%xmm7, %xmm2
	psrlw	$1, %xmm2
	pxor	%xmm0, %xmm2
	pand	%xmm9, %xmm2
	pxor	%xmm2, %xmm0
	paddb	%xmm2, %xmm2
	pxor	%xmm7, %xmm2
	movdqa	%xmm5, %xmm7
	psrlw	$2, %xmm7
	pxor	%xmm3, %xmm7
	movdqa	l_aes_v2_CPI31_2(%rip), %xmm9          # xmm9 = [51,51,51,51,51,51,51,51,51,51,51,51,51,51,51,51]
	pand	%xmm9, %xmm7
	pxor	%xmm7, %xmm3
	psllw	$2, %xmm7
	pxor	%xmm5, %xmm7
	movdqa	%xmm8, %xmm5
	psrlw	$2, %xmm5
	pxor	%xmm2, %xmm5
	pand	%xmm9, %xmm5
	pxor	%xmm5, %xmm2
	psllw	$2, %xmm5
	pxor	%xmm8, %xmm5
	movdqa	%xmm6, %xmm8
	psrlw	$2, %xmm8
	pxor	%xmm1, %xmm8
	pand	%xmm9, %xmm8
	pxor	%xmm8, %xmm1
	psllw	$2, %xmm8
	pxor	%xmm6, %xmm8
	movdqa	%xmm4, %xmm6
	psrlw	$2, %xmm6
	pxor	%xmm0, %xmm6
	pand	%xmm9, %xmm6
	pxor	%xmm6, %xmm0
	psllw	$2, %xmm6
	pxor	%xmm4, %xmm6
	movdqa	%xmm7, %xmm4
	psrlw	$4, %xmm4
	pxor	%xmm5, %xmm4
	movdqa	l_aes_v2_CPI31_3(%rip), %xmm9          # xmm9 = [15,15,15,15,15,15,15,15,15,15,15,15,15,15,15,15]
	pand	%xmm9, %xmm4
	pxor	%xmm4, %xmm5
	psllw	$4, %xmm4
	pxor	%xmm7, %xmm4
	movdqa	%xmm8, %xmm7
	psrlw	$4, %xmm7
	pxor	%xmm6, %xmm7
	pand	%xmm9, %xmm7
	pxor	%xmm7, %xmm6
	psllw	$4, %xmm7
	pxor	%xmm8, %xmm7
	movdqa	%xmm3, %xmm8
	psrlw	$4, %xmm8
	pxor	%xmm2, %xmm8
	pand	%xmm9, %xmm8
	pxor	%xmm8, %xmm2
	psllw	$4, %xmm8
	pxor	%xmm3, %xmm8
	movdqa	%xmm1, %xmm3
	psrlw	$4, %xmm3
	pxor	%xmm0, %xmm3
	pand	%xmm9, %xmm3
	pxor	%xmm3, %xmm0
	psllw	$4, %xmm3
	pxor	%xmm1, %xmm3
	movdqa	l_aes_v2_CPI31_0(%rip), %xmm1          # xmm1 = [0,4,8,12,1,5,9,13,2,6,10,14,3,7,11,15]
	pshufb	%xmm1, %xmm4
	movdqu	%xmm4, -112(%r15)
	pshufb	%xmm1, %xmm7
	movdqu	%xmm7, -96(%r15)
	pshufb	%xmm1, %xmm8
	movdqu	%xmm8, -80(%r15)
	pshufb	%xmm1, %xmm3
	movdqu	%xmm3, -64(%r15)
	pshufb	%xmm1, %xmm5
	movdqu	%xmm5, -48(%r15)
	pshufb	%xmm1, %xmm6
	movdqu	%xmm6, -32(%r15)
	pshufb	%xmm1, %xmm2
	movdqu	%xmm2, -16(%r15)
	pshufb	%xmm1, %xmm0
	movdqu	%xmm0, (%r15)
	movq	8(%rsp), %rax                   # 8-byte Reload
	addq	%r14, %rax
	addq	$-8, %rax
	addq	$-8, %r14
	subq	$-128, %r15
	cmpq	$7, %rax
	ja	Laes_v2_BB31_4
# %bb.5:                                # %loop.7.preheader.i.i.i.i.loopexit
                                        #   in Loop: Header=BB31_2 Depth=1
	negq	%r14
Laes_v2_BB31_6:                               # %loop.7.preheader.i.i.i.i
                                        #   in Loop: Header=BB31_2 Depth=1
	movq	16(%rsp), %r12                  # 8-byte Reload
	movq	8(%rsp), %r15                   # 8-byte Reload
	subq	%r14, %r15
	jbe	Laes_v2_BB31_9
# %bb.7:                                # %join.10.i.i.i.i.preheader
                                        #   in Loop: Header=BB31_2 Depth=1
	shlq	$4, %r14
	addq	%r14, %rbp
	addq	24(%rsp), %rbp                  # 8-byte Folded Reload
	.p2align	4
Laes_v2_BB31_8:                               # %join.10.i.i.i.i
                                        #   Parent Loop BB31_2 Depth=1
                                        # =>  This Inner Loop Header: Depth=2
	movq	16(%r12), %rdi
	movq	24(%r12), %rsi
	movl	$1, %ecx
	movq	%rbp, %rdx
	callq	_aes_v2.aes_permute.blocks.process_on_lanes.2
	addq	$16, %rbp
	decq	%r15
	jne	Laes_v2_BB31_8
Laes_v2_BB31_9:                               # %join.7.lr.ph.i.i.i
                                        #   in Loop: Header=BB31_2 Depth=1
	movdqu	(%rbx), %xmm0
	cmpq	$1, 64(%rsp)                    # 8-byte Folded Reload
	je	Laes_v2_BB31_10
# %bb.11:                               # %join.7.lr.ph.i.i.i.new
                                        #   in Loop: Header=BB31_2 Depth=1
	movq	8(%rsp), %r8                    # 8-byte Reload
	movl	%r8d, %ecx
	andl	$126, %ecx
	movl	$16, %edi
	xorl	%eax, %eax
	movq	32(%rsp), %rbp                  # 8-byte Reload
	.p2align	4
Laes_v2_BB31_12:                              # %join.7.i.i.i
                                        #   Parent Loop BB31_2 Depth=1
                                        # =>  This Inner Loop Header: Depth=2
	movdqu	-16(%r13,%rdi), %xmm1
	pxor	%xmm0, %xmm1
	movdqu	%xmm1, -16(%r13,%rdi)
	movdqu	200(%rsp,%rdi), %xmm0
	movdqu	%xmm0, (%rbx)
	movdqu	(%r13,%rdi), %xmm1
	pxor	%xmm0, %xmm1
	movdqu	%xmm1, (%r13,%rdi)
	movdqu	216(%rsp,%rdi), %xmm0
	movdqu	%xmm0, (%rbx)
	addq	$2, %rax
	addq	$32, %rdi
	cmpq	%rax, %rcx
	jne	Laes_v2_BB31_12
# %bb.13:                               # %"cbc::decryption::unchain_part::<#e6bd2e7595c2ce9d>.exit.loopexit.i.i.unr-lcssa"
                                        #   in Loop: Header=BB31_2 Depth=1
	testb	$1, %r8b
	jne	Laes_v2_BB31_14
	jmp	Laes_v2_BB31_15
Laes_v2_BB31_16:
	addq	$1240, %rsp                     # imm = 0x4D8
	popq	%rbx
	popq	%r12
	popq	%r13
	popq	%r14
	popq	%r15
	popq	%rbp
Laes_v2_BB31_17:                              # %"cbc::decryption::ChainBlockCipherDecClosure::call::<#e6bd2e7595c2ce9d>.exit"
	retq
                                        # -- End function
	.section	__TEXT,__const
	.p2align	4, 0x0                          # -- Begin function aes_soft::soft::ciphers::planes::process_outlined::<#0cf5cff84c52603c>
l_aes_v2_CPI32_0:
	.byte	0                               # 0x0
	.byte	4                               # 0x4
	.byte	8                               # 0x8
	.byte	12                              # 0xc
	.byte	1                               # 0x1
	.byte	5                               # 0x5
	.byte	9                               # 0x9
	.byte	13                              # 0xd
	.byte	2                               # 0x2
	.byte	6                               # 0x6
	.byte	10                              # 0xa
	.byte	14                              # 0xe
	.byte	3                               # 0x3
	.byte	7                               # 0x7
	.byte	11                              # 0xb
	.byte	15                              # 0xf
l_aes_v2_CPI32_1:
	.zero	16,85
l_aes_v2_CPI32_2:
	.zero	16,51
l_aes_v2_CPI32_3:
	.zero	16,15
	.section	__TEXT,__text,regular,pure_instructions
	.p2align	4
_aes_v2.aes_soft.soft.ciphers.planes.process_outlined.2: # @_aes_v2.aes_soft.soft.ciphers.planes.process_outlined.2
# %bb.0:                                # %start
	pushq	%rbx
	subq	$128, %rsp
	movq	%rdi, %rbx
	movdqu	(%rcx), %xmm2
	movdqu	16(%rcx), %xmm4
	movdqu	32(%rcx), %xmm8
	movdqu	48(%rcx), %xmm0
	movdqa	l_aes_v2_CPI32_0(%rip), %xmm6          # xmm6 = [0,4,8,12,1,5,9,13,2,6,10,14,3,7,11,15]
	pshufb	%xmm6, %xmm2
	pshufb	%xmm6, %xmm4
	pshufb	%xmm6, %xmm8
	pshufb	%xmm6, %xmm0
	movdqu	64(%rcx), %xmm3
	pshufb	%xmm6, %xmm3
	movdqu	80(%rcx), %xmm5
	pshufb	%xmm6, %xmm5
	movdqu	96(%rcx), %xmm7
	pshufb	%xmm6, %xmm7
	movdqu	112(%rcx), %xmm1
	pshufb	%xmm6, %xmm1
	movdqa	%xmm2, %xmm6
	psrlw	$1, %xmm6
	pxor	%xmm4, %xmm6
	movdqa	l_aes_v2_CPI32_1(%rip), %xmm9          # xmm9 = [85,85,85,85,85,85,85,85,85,85,85,85,85,85,85,85]
	pand	%xmm9, %xmm6
	pxor	%xmm6, %xmm4
	paddb	%xmm6, %xmm6
	pxor	%xmm2, %xmm6
	movdqa	%xmm8, %xmm2
	psrlw	$1, %xmm2
	pxor	%xmm0, %xmm2
	pand	%xmm9, %xmm2
	pxor	%xmm2, %xmm0
	paddb	%xmm2, %xmm2
	pxor	%xmm8, %xmm2
	movdqa	%xmm3, %xmm8
	psrlw	$1, %xmm8
	pxor	%xmm5, %xmm8
	pand	%xmm9, %xmm8
	pxor	%xmm8, %xmm5
	paddb	%xmm8, %xmm8
	pxor	%xmm3, %xmm8
	movdqa	%xmm7, %xmm3
	psrlw	$1, %xmm3
	pxor	%xmm1, %xmm3
	pand	%xmm9, %xmm3
	pxor	%xmm3, %xmm1
	paddb	%xmm3, %xmm3
	pxor	%xmm7, %xmm3
	movdqa	%xmm6, %xmm7
	psrlw	$2, %xmm7
	pxor	%xmm2, %xmm7
	movdqa	l_aes_v2_CPI32_2(%rip), %xmm9          # xmm9 = [51,51,51,51,51,51,51,51,51,51,51,51,51,51,51,51]
	pand	%xmm9, %xmm7
	pxor	%xmm7, %xmm2
	psllw	$2, %xmm7
	pxor	%xmm6, %xmm7
	movdqa	%xmm8, %xmm6
	psrlw	$2, %xmm6
	pxor	%xmm3, %xmm6
	pand	%xmm9, %xmm6
	pxor	%xmm6, %xmm3
	psllw	$2, %xmm6
	pxor	%xmm8, %xmm6
	movdqa	%xmm4, %xmm8
	psrlw	$2, %xmm8
	pxor	%xmm0, %xmm8
	pand	%xmm9, %xmm8
	pxor	%xmm8, %xmm0
	psllw	$2, %xmm8
	pxor	%xmm4, %xmm8
	movdqa	%xmm5, %xmm4
	psrlw	$2, %xmm4
	pxor	%xmm1, %xmm4
	pand	%xmm9, %xmm4
	pxor	%xmm4, %xmm1
	psllw	$2, %xmm4
	pxor	%xmm5, %xmm4
	movdqa	%xmm7, %xmm5
	psrlw	$4, %xmm5
	movdqa	l_aes_v2_CPI32_3(%rip), %xmm9          # xmm9 = [15,15,15,15,15,15,15,15,15,15,15,15,15,15,15,15]
	pxor	%xmm6, %xmm5
	pand	%xmm9, %xmm5
	pxor	%xmm5, %xmm6
	psllw	$4, %xmm5
	pxor	%xmm7, %xmm5
	movdqa	%xmm8, %xmm7
	psrlw	$4, %xmm7
	pxor	%xmm4, %xmm7
	pand	%xmm9, %xmm7
	pxor	%xmm7, %xmm4
	psllw	$4, %xmm7
	pxor	%xmm8, %xmm7
	movdqa	%xmm2, %xmm8
	psrlw	$4, %xmm8
	pxor	%xmm3, %xmm8
	pand	%xmm9, %xmm8
	pxor	%xmm8, %xmm3
	psllw	$4, %xmm8
	pxor	%xmm2, %xmm8
	movdqa	%xmm0, %xmm2
	psrlw	$4, %xmm2
	pxor	%xmm1, %xmm2
	pand	%xmm9, %xmm2
	pxor	%xmm2, %xmm1
	psllw	$4, %xmm2
	pxor	%xmm0, %xmm2
	movdqa	%xmm5, (%rsp)
	movdqa	%xmm7, 16(%rsp)
	movdqa	%xmm8, 32(%rsp)
	movdqa	%xmm2, 48(%rsp)
	movdqa	%xmm6, 64(%rsp)
	movdqa	%xmm4, 80(%rsp)
	movdqa	%xmm3, 96(%rsp)
	movdqa	%xmm1, 112(%rsp)
	movq	%rsp, %rax
	movq	%rsi, %rdi
	movq	%rdx, %rsi
	movq	%rax, %rdx
	callq	_aes_v2.aes_soft.soft.ciphers.planes.DecryptPlaneCipher.process_planes
	movdqa	(%rsp), %xmm3
	movdqa	16(%rsp), %xmm6
	movdqa	32(%rsp), %xmm8
	movdqa	48(%rsp), %xmm1
	movdqa	64(%rsp), %xmm2
	movdqa	80(%rsp), %xmm4
	movdqa	96(%rsp), %xmm7
	movdqa	112(%rsp), %xmm0
	movdqa	%xmm3, %xmm5
	psrlw	$1, %xmm5
	pxor	%xmm6, %xmm5
	movdqa	l_aes_v2_CPI32_1(%rip), %xmm9          # xmm9 = [85,85,85,85,85,85,85,85,85,85,85,85,85,85,85,85]
	pand	%xmm9, %xmm5
	pxor	%xmm5, %xmm6
	paddb	%xmm5, %xmm5
	pxor	%xmm3, %xmm5
	movdqa	%xmm8, %xmm3
	psrlw	$1, %xmm3
	pxor	%xmm1, %xmm3
	pand	%xmm9, %xmm3
	pxor	%xmm3, %xmm1
	paddb	%xmm3, %xmm3
	pxor	%xmm8, %xmm3
	movdqa	%xmm2, %xmm8
	psrlw	$1, %xmm8
	pxor	%xmm4, %xmm8
	pand	%xmm9, %xmm8
	pxor	%xmm8, %xmm4
	paddb	%xmm8, %xmm8
	pxor	%xmm2, %xmm8
	movdqa	%xmm7, %xmm2
	psrlw	$1, %xmm2
	pxor	%xmm0, %xmm2
	pand	%xmm9, %xmm2
	pxor	%xmm2, %xmm0
	paddb	%xmm2, %xmm2
	pxor	%xmm7, %xmm2
	movdqa	%xmm5, %xmm7
	psrlw	$2, %xmm7
	pxor	%xmm3, %xmm7
	movdqa	l_aes_v2_CPI32_2(%rip), %xmm9          # xmm9 = [51,51,51,51,51,51,51,51,51,51,51,51,51,51,51,51]
	pand	%xmm9, %xmm7
	pxor	%xmm7, %xmm3
	psllw	$2, %xmm7
	pxor	%xmm5, %xmm7
	movdqa	%xmm8, %xmm5
	psrlw	$2, %xmm5
	pxor	%xmm2, %xmm5
	pand	%xmm9, %xmm5
	pxor	%xmm5, %xmm2
	psllw	$2, %xmm5
	pxor	%xmm8, %xmm5
	movdqa	%xmm6, %xmm8
	psrlw	$2, %xmm8
	pxor	%xmm1, %xmm8
	pand	%xmm9, %xmm8
	pxor	%xmm8, %xmm1
	psllw	$2, %xmm8
	pxor	%xmm6, %xmm8
	movdqa	%xmm4, %xmm6
	psrlw	$2, %xmm6
	pxor	%xmm0, %xmm6
	pand	%xmm9, %xmm6
	pxor	%xmm6, %xmm0
	psllw	$2, %xmm6
	pxor	%xmm4, %xmm6
	movdqa	%xmm7, %xmm4
	psrlw	$4, %xmm4
	pxor	%xmm5, %xmm4
	movdqa	l_aes_v2_CPI32_3(%rip), %xmm9          # xmm9 = [15,15,15,15,15,15,15,15,15,15,15,15,15,15,15,15]
	pand	%xmm9, %xmm4
	pxor	%xmm4, %xmm5
	psllw	$4, %xmm4
	pxor	%xmm7, %xmm4
	movdqa	%xmm8, %xmm7
	psrlw	$4, %xmm7
	pxor	%xmm6, %xmm7
	pand	%xmm9, %xmm7
	pxor	%xmm7, %xmm6
	psllw	$4, %xmm7
	pxor	%xmm8, %xmm7
	movdqa	%xmm3, %xmm8
	psrlw	$4, %xmm8
	pxor	%xmm2, %xmm8
	pand	%xmm9, %xmm8
	pxor	%xmm8, %xmm2
	psllw	$4, %xmm8
	pxor	%xmm3, %xmm8
	movdqa	%xmm1, %xmm3
	psrlw	$4, %xmm3
	pxor	%xmm0, %xmm3
	pand	%xmm9, %xmm3
	pxor	%xmm3, %xmm0
	psllw	$4, %xmm3
	pxor	%xmm1, %xmm3
	movdqa	l_aes_v2_CPI32_0(%rip), %xmm1          # xmm1 = [0,4,8,12,1,5,9,13,2,6,10,14,3,7,11,15]
	pshufb	%xmm1, %xmm4
	movdqu	%xmm4, (%rbx)
	pshufb	%xmm1, %xmm7
	movdqu	%xmm7, 16(%rbx)
	pshufb	%xmm1, %xmm8
	movdqu	%xmm8, 32(%rbx)
	pshufb	%xmm1, %xmm3
	movdqu	%xmm3, 48(%rbx)
	pshufb	%xmm1, %xmm5
	movdqu	%xmm5, 64(%rbx)
	pshufb	%xmm1, %xmm6
	movdqu	%xmm6, 80(%rbx)
	pshufb	%xmm1, %xmm2
	movdqu	%xmm2, 96(%rbx)
	pshufb	%xmm1, %xmm0
	movdqu	%xmm0, 112(%rbx)
	addq	$128, %rsp
	popq	%rbx
	retq
                                        # -- End function
	.section	__TEXT,__const
	.p2align	4, 0x0                          # -- Begin function aes_soft::soft::ciphers::planes::DecryptPlaneCipher::process_planes::<#f2467153fb0a218d>
l_aes_v2_CPI33_0:
	.byte	7                               # 0x7
	.byte	4                               # 0x4
	.byte	5                               # 0x5
	.byte	6                               # 0x6
	.byte	11                              # 0xb
	.byte	8                               # 0x8
	.byte	9                               # 0x9
	.byte	10                              # 0xa
	.byte	15                              # 0xf
	.byte	12                              # 0xc
	.byte	13                              # 0xd
	.byte	14                              # 0xe
	.byte	3                               # 0x3
	.byte	0                               # 0x0
	.byte	1                               # 0x1
	.byte	2                               # 0x2
l_aes_v2_CPI33_1:
	.byte	10                              # 0xa
	.byte	11                              # 0xb
	.byte	8                               # 0x8
	.byte	9                               # 0x9
	.byte	14                              # 0xe
	.byte	15                              # 0xf
	.byte	12                              # 0xc
	.byte	13                              # 0xd
	.byte	2                               # 0x2
	.byte	3                               # 0x3
	.byte	0                               # 0x0
	.byte	1                               # 0x1
	.byte	6                               # 0x6
	.byte	7                               # 0x7
	.byte	4                               # 0x4
	.byte	5                               # 0x5
l_aes_v2_CPI33_2:
	.byte	6                               # 0x6
	.byte	7                               # 0x7
	.byte	4                               # 0x4
	.byte	5                               # 0x5
	.byte	10                              # 0xa
	.byte	11                              # 0xb
	.byte	8                               # 0x8
	.byte	9                               # 0x9
	.byte	14                              # 0xe
	.byte	15                              # 0xf
	.byte	12                              # 0xc
	.byte	13                              # 0xd
	.byte	2                               # 0x2
	.byte	3                               # 0x3
	.byte	0                               # 0x0
	.byte	1                               # 0x1
l_aes_v2_CPI33_3:
	.byte	5                               # 0x5
	.byte	6                               # 0x6
	.byte	7                               # 0x7
	.byte	4                               # 0x4
	.byte	9                               # 0x9
	.byte	10                              # 0xa
	.byte	11                              # 0xb
	.byte	8                               # 0x8
	.byte	13                              # 0xd
	.byte	14                              # 0xe
	.byte	15                              # 0xf
	.byte	12                              # 0xc
	.byte	1                               # 0x1
	.byte	2                               # 0x2
	.byte	3                               # 0x3
	.byte	0                               # 0x0
	.section	__TEXT,__text,regular,pure_instructions
	.p2align	4
_aes_v2.aes_soft.soft.ciphers.planes.DecryptPlaneCipher.process_planes: # @_aes_v2.aes_soft.soft.ciphers.planes.DecryptPlaneCipher.process_planes
# %bb.0:                                # %start
	subq	$136, %rsp
	movdqu	(%rdx), %xmm8
	movdqu	16(%rdx), %xmm6
	movdqu	32(%rdx), %xmm4
	movdqu	48(%rdx), %xmm10
	movdqu	64(%rdx), %xmm15
	movdqu	80(%rdx), %xmm0
	movdqu	96(%rdx), %xmm3
	movdqu	112(%rdx), %xmm1
	movq	%rsi, %r9
	shlq	$7, %r9
	pxor	(%rdi,%r9), %xmm8
	pxor	16(%rdi,%r9), %xmm6
	pxor	32(%rdi,%r9), %xmm4
	pxor	48(%rdi,%r9), %xmm10
	pxor	64(%rdi,%r9), %xmm15
	pxor	80(%rdi,%r9), %xmm0
	pxor	96(%rdi,%r9), %xmm3
	pxor	112(%rdi,%r9), %xmm1
	movdqa	%xmm0, %xmm5
	movdqa	%xmm0, %xmm7
	movdqa	%xmm0, 96(%rsp)                 # 16-byte Spill
	pxor	%xmm4, %xmm5
	movdqa	%xmm3, %xmm0
	pxor	%xmm6, %xmm0
	movdqa	%xmm0, -64(%rsp)                # 16-byte Spill
	pxor	%xmm6, %xmm4
	pxor	%xmm8, %xmm6
	movdqa	%xmm1, %xmm2
	movdqa	%xmm3, %xmm11
	pxor	%xmm15, %xmm11
	pxor	%xmm10, %xmm7
	pxor	%xmm0, %xmm7
	movdqa	%xmm7, 112(%rsp)                # 16-byte Spill
	movdqa	%xmm1, %xmm14
	pxor	%xmm15, %xmm1
	movdqa	%xmm1, %xmm9
	movdqa	%xmm1, -80(%rsp)                # 16-byte Spill
	pxor	%xmm10, %xmm15
	movdqa	%xmm15, %xmm1
	pxor	%xmm6, %xmm1
	movdqa	%xmm1, -128(%rsp)               # 16-byte Spill
	movdqa	%xmm7, %xmm0
	por	%xmm1, %xmm0
	movdqa	%xmm15, %xmm1
	pxor	%xmm8, %xmm1
	movdqa	%xmm1, (%rsp)                   # 16-byte Spill
	movdqa	%xmm11, %xmm7
	pand	%xmm1, %xmm7
	pxor	%xmm0, %xmm7
	pxor	%xmm3, %xmm2
	pxor	%xmm9, %xmm3
	movdqa	%xmm3, %xmm0
	movdqa	%xmm3, %xmm9
	movdqa	%xmm3, 48(%rsp)                 # 16-byte Spill
	pxor	%xmm10, %xmm0
	movdqa	%xmm0, -48(%rsp)                # 16-byte Spill
	pxor	%xmm8, %xmm10
	movdqa	%xmm15, %xmm1
	pxor	%xmm4, %xmm1
	pand	%xmm1, %xmm0
	movdqa	%xmm1, %xmm12
	movdqa	%xmm1, -112(%rsp)               # 16-byte Spill
	movdqa	%xmm2, %xmm8
	pxor	%xmm10, %xmm8
	movdqa	%xmm8, %xmm1
	pand	%xmm2, %xmm1
	movdqa	%xmm2, %xmm3
	movdqa	%xmm2, -32(%rsp)                # 16-byte Spill
	movdqa	%xmm8, %xmm2
	movdqa	%xmm8, %xmm13
	movdqa	%xmm8, -16(%rsp)                # 16-byte Spill
	pxor	%xmm12, %xmm2
	pand	%xmm15, %xmm2
	pxor	%xmm2, %xmm0
	pxor	%xmm1, %xmm2
	pxor	%xmm6, %xmm3
	movdqa	%xmm3, %xmm8
	movdqa	%xmm3, 64(%rsp)                 # 16-byte Spill
	movdqa	%xmm14, %xmm1
	pxor	%xmm5, %xmm1
	movdqa	%xmm1, 16(%rsp)                 # 16-byte Spill
	movdqa	%xmm11, -96(%rsp)               # 16-byte Spill
	pxor	%xmm11, %xmm6
	movdqa	-64(%rsp), %xmm3                # 16-byte Reload
	pxor	%xmm10, %xmm3
	movdqa	%xmm6, %xmm14
	movdqa	%xmm6, %xmm12
	pand	%xmm1, %xmm14
	pxor	%xmm10, %xmm14
	pxor	%xmm11, %xmm5
	movdqa	%xmm5, 80(%rsp)                 # 16-byte Spill
	movdqa	%xmm8, %xmm1
	pand	%xmm5, %xmm1
	movdqa	%xmm9, %xmm8
	pand	-80(%rsp), %xmm8                # 16-byte Folded Reload
	pxor	%xmm1, %xmm14
	pxor	%xmm13, %xmm4
	movdqa	%xmm4, 32(%rsp)                 # 16-byte Spill
	pxor	%xmm4, %xmm8
	pxor	%xmm1, %xmm8
	pxor	%xmm0, %xmm7
	pxor	%xmm0, %xmm8
	movdqa	112(%rsp), %xmm11               # 16-byte Reload
	movdqa	%xmm11, %xmm0
	movdqa	-128(%rsp), %xmm6               # 16-byte Reload
	pand	%xmm6, %xmm0
	movdqa	%xmm12, %xmm10
	movdqa	96(%rsp), %xmm5                 # 16-byte Reload
	pxor	%xmm5, %xmm10
	movdqa	%xmm10, %xmm4
	pand	%xmm3, %xmm4
	movdqa	%xmm3, %xmm9
	pxor	%xmm15, %xmm0
	pxor	%xmm4, %xmm0
	pxor	%xmm5, %xmm0
	pxor	%xmm2, %xmm14
	pxor	%xmm2, %xmm0
	movdqa	%xmm8, %xmm2
	pand	%xmm7, %xmm2
	movdqa	%xmm8, %xmm1
	pxor	%xmm14, %xmm1
	pand	%xmm0, %xmm8
	pand	%xmm1, %xmm8
	movdqa	%xmm2, %xmm5
	pxor	%xmm0, %xmm5
	pand	%xmm1, %xmm5
	pxor	%xmm2, %xmm1
	pxor	%xmm8, %xmm1
	movdqa	%xmm2, %xmm3
	pxor	%xmm14, %xmm3
	movdqa	%xmm0, %xmm4
	pxor	%xmm7, %xmm4
	pand	%xmm4, %xmm3
	pxor	%xmm0, %xmm3
	pxor	%xmm14, %xmm5
	movdqa	%xmm5, %xmm8
	pxor	%xmm1, %xmm8
	pand	%xmm8, %xmm6
	movdqa	%xmm6, -128(%rsp)               # 16-byte Spill
	movdqa	-80(%rsp), %xmm13               # 16-byte Reload
	pand	%xmm11, %xmm8
	pand	%xmm5, %xmm9
	movdqa	%xmm9, -64(%rsp)                # 16-byte Spill
	movdqa	%xmm5, %xmm11
	pand	%xmm10, %xmm5
	pand	%xmm7, %xmm14
	movdqa	80(%rsp), %xmm9                 # 16-byte Reload
	pandn	%xmm4, %xmm14
	pxor	%xmm2, %xmm14
	pxor	%xmm3, %xmm11
	movdqa	-96(%rsp), %xmm2                # 16-byte Reload
	pand	%xmm1, %xmm2
	movdqa	%xmm2, -96(%rsp)                # 16-byte Spill
	movdqa	16(%rsp), %xmm7                 # 16-byte Reload
	pand	%xmm3, %xmm7
	pand	%xmm3, %xmm12
	movdqa	%xmm12, 16(%rsp)                # 16-byte Spill
	movdqa	(%rsp), %xmm4                   # 16-byte Reload
	pand	%xmm1, %xmm4
	pxor	%xmm14, %xmm1
	pand	%xmm14, %xmm13
	pxor	%xmm14, %xmm3
	pand	48(%rsp), %xmm14                # 16-byte Folded Reload
	pand	%xmm3, %xmm9
	pand	64(%rsp), %xmm3                 # 16-byte Folded Reload
	pand	%xmm11, %xmm15
	movdqa	%xmm15, -80(%rsp)               # 16-byte Spill
	movdqa	32(%rsp), %xmm6                 # 16-byte Reload
	pand	%xmm11, %xmm6
	pxor	%xmm1, %xmm11
	movdqa	-112(%rsp), %xmm0               # 16-byte Reload
	pand	%xmm11, %xmm0
	pxor	%xmm4, %xmm0
	movdqa	%xmm0, -112(%rsp)               # 16-byte Spill
	pxor	%xmm4, %xmm14
	pand	-48(%rsp), %xmm11               # 16-byte Folded Reload
	movdqa	-16(%rsp), %xmm15               # 16-byte Reload
	pand	%xmm1, %xmm15
	pand	-32(%rsp), %xmm1                # 16-byte Folded Reload
	movdqa	-128(%rsp), %xmm4               # 16-byte Reload
	movdqa	%xmm4, %xmm10
	pxor	%xmm2, %xmm10
	movdqa	-64(%rsp), %xmm2                # 16-byte Reload
	pxor	%xmm8, %xmm2
	movdqa	%xmm11, %xmm0
	pxor	%xmm8, %xmm11
	pxor	%xmm5, %xmm8
	pxor	%xmm6, %xmm10
	pxor	%xmm9, %xmm5
	movdqa	-112(%rsp), %xmm12              # 16-byte Reload
	pxor	%xmm10, %xmm12
	pxor	%xmm7, %xmm9
	pxor	%xmm15, %xmm0
	pxor	%xmm0, %xmm10
	pxor	%xmm1, %xmm3
	pxor	%xmm5, %xmm1
	pxor	%xmm14, %xmm5
	pxor	%xmm10, %xmm5
	pxor	%xmm10, %xmm9
	pxor	%xmm8, %xmm10
	movdqa	%xmm10, -112(%rsp)              # 16-byte Spill
	movdqa	%xmm4, %xmm8
	pxor	%xmm7, %xmm13
	pxor	%xmm6, %xmm14
	pxor	%xmm2, %xmm14
	movdqa	16(%rsp), %xmm2                 # 16-byte Reload
	movdqa	-80(%rsp), %xmm4                # 16-byte Reload
	pxor	%xmm2, %xmm4
	pxor	%xmm13, %xmm2
	pxor	%xmm2, %xmm8
	pxor	%xmm0, %xmm8
	pxor	%xmm2, %xmm1
	movdqa	%xmm12, %xmm0
	movdqa	%xmm1, %xmm12
	pxor	%xmm0, %xmm11
	pxor	%xmm0, %xmm12
	pxor	-96(%rsp), %xmm13               # 16-byte Folded Reload
	pxor	%xmm15, %xmm13
	pxor	%xmm3, %xmm4
	pxor	%xmm3, %xmm13
	pxor	%xmm14, %xmm8
	pxor	%xmm14, %xmm13
	leaq	-2(%rsi), %r8
	movq	%r8, %rax
	shrq	$2, %rax
	movq	%r8, %rcx
	andq	$-4, %rcx
	leaq	2(%rcx), %r10
	cmpq	%rsi, %r10
	jae	Laes_v2_BB33_2
# %bb.1:                                # %then.3
	movdqa	%xmm4, %xmm15
	pxor	-128(%rdi,%r9), %xmm15
	movdqa	%xmm11, %xmm6
	pxor	-112(%rdi,%r9), %xmm6
	pxor	-96(%rdi,%r9), %xmm5
	pxor	-80(%rdi,%r9), %xmm12
	movdqa	%xmm9, %xmm3
	pxor	-64(%rdi,%r9), %xmm3
	pxor	-48(%rdi,%r9), %xmm8
	movdqa	%xmm13, %xmm10
	pxor	-32(%rdi,%r9), %xmm10
	movdqa	-112(%rsp), %xmm14              # 16-byte Reload
	pxor	-16(%rdi,%r9), %xmm14
	movdqa	l_aes_v2_CPI33_0(%rip), %xmm1          # xmm1 = [7,4,5,6,11,8,9,10,15,12,13,14,3,0,1,2]
	movdqa	%xmm15, %xmm13
	pshufb	%xmm1, %xmm13
	movdqa	%xmm5, -128(%rsp)               # 16-byte Spill
	movdqa	%xmm6, %xmm11
	pshufb	%xmm1, %xmm11
	movdqa	%xmm5, %xmm2
	pshufb	%xmm1, %xmm2
	movdqa	%xmm12, %xmm7
	pshufb	%xmm1, %xmm7
	movdqa	%xmm3, %xmm4
	pshufb	%xmm1, %xmm4
	movdqa	%xmm8, %xmm5
	pshufb	%xmm1, %xmm8
	movdqa	%xmm8, %xmm0
	movdqa	%xmm10, %xmm9
	pshufb	%xmm1, %xmm9
	movdqa	%xmm14, %xmm8
	pshufb	%xmm1, %xmm8
	pxor	%xmm6, %xmm11
	movdqa	-128(%rsp), %xmm1               # 16-byte Reload
	pxor	%xmm1, %xmm2
	pxor	%xmm3, %xmm4
	pxor	%xmm5, %xmm0
	movdqa	%xmm0, -80(%rsp)                # 16-byte Spill
	pxor	%xmm10, %xmm9
	pxor	%xmm14, %xmm8
	pxor	%xmm11, %xmm1
	movdqa	%xmm1, %xmm0
	pxor	%xmm4, %xmm5
	movdqa	%xmm5, -128(%rsp)               # 16-byte Spill
	movdqa	-80(%rsp), %xmm5                # 16-byte Reload
	pxor	%xmm5, %xmm10
	pxor	%xmm9, %xmm14
	movdqa	%xmm14, %xmm1
	pxor	%xmm10, %xmm1
	pxor	%xmm1, %xmm11
	pxor	%xmm0, %xmm4
	pxor	%xmm1, %xmm4
	pxor	%xmm15, %xmm13
	pxor	%xmm12, %xmm7
	pxor	%xmm8, %xmm15
	pxor	%xmm13, %xmm6
	pxor	%xmm2, %xmm12
	pxor	%xmm10, %xmm13
	pxor	%xmm14, %xmm2
	pxor	%xmm15, %xmm2
	movdqa	%xmm2, -96(%rsp)                # 16-byte Spill
	movdqa	%xmm13, %xmm2
	pxor	%xmm15, %xmm13
	movdqa	l_aes_v2_CPI33_1(%rip), %xmm1          # xmm1 = [10,11,8,9,14,15,12,13,2,3,0,1,6,7,4,5]
	pshufb	%xmm1, %xmm2
	pxor	%xmm2, %xmm13
	movdqa	%xmm8, %xmm2
	pxor	%xmm8, %xmm6
	pxor	%xmm8, %xmm12
	pxor	%xmm7, %xmm3
	pxor	%xmm8, %xmm3
	pxor	%xmm10, %xmm7
	pxor	%xmm6, %xmm7
	pxor	%xmm14, %xmm5
	pxor	%xmm12, %xmm5
	pxor	%xmm3, %xmm9
	movdqa	-128(%rsp), %xmm15              # 16-byte Reload
	pxor	%xmm15, %xmm2
	movdqa	%xmm2, -112(%rsp)               # 16-byte Spill
	pxor	%xmm11, %xmm6
	pshufb	%xmm1, %xmm11
	movdqa	-96(%rsp), %xmm2                # 16-byte Reload
	pxor	%xmm2, %xmm0
	pshufb	%xmm1, %xmm2
	pxor	%xmm7, %xmm12
	pshufb	%xmm1, %xmm7
	pxor	%xmm4, %xmm3
	pshufb	%xmm1, %xmm4
	pxor	%xmm5, %xmm15
	pshufb	%xmm1, %xmm5
	movdqa	%xmm9, %xmm8
	pxor	%xmm9, %xmm10
	pshufb	%xmm1, %xmm8
	pxor	%xmm6, %xmm11
	pxor	%xmm0, %xmm2
	pxor	%xmm12, %xmm7
	pxor	%xmm3, %xmm4
	pxor	%xmm15, %xmm5
	pxor	%xmm10, %xmm8
	movdqa	-112(%rsp), %xmm15              # 16-byte Reload
	pxor	%xmm15, %xmm14
	pshufb	%xmm1, %xmm15
	pxor	%xmm14, %xmm15
	movdqa	%xmm5, %xmm0
	movdqa	%xmm5, -80(%rsp)                # 16-byte Spill
	pxor	%xmm2, %xmm0
	movdqa	%xmm0, %xmm3
	movdqa	%xmm0, -128(%rsp)               # 16-byte Spill
	movdqa	%xmm2, %xmm1
	movdqa	%xmm8, %xmm0
	pxor	%xmm11, %xmm0
	movdqa	%xmm0, %xmm2
	pxor	%xmm11, %xmm1
	movdqa	%xmm1, %xmm12
	pxor	%xmm13, %xmm11
	movdqa	%xmm8, %xmm9
	pxor	%xmm15, %xmm9
	movdqa	%xmm8, %xmm0
	pxor	%xmm4, %xmm0
	movdqa	%xmm0, %xmm1
	pxor	%xmm7, %xmm5
	pxor	%xmm2, %xmm5
	movdqa	%xmm5, 96(%rsp)                 # 16-byte Spill
	movdqa	%xmm2, %xmm14
	movdqa	%xmm3, %xmm0
	pxor	%xmm15, %xmm0
	movdqa	%xmm0, %xmm6
	movdqa	%xmm0, 32(%rsp)                 # 16-byte Spill
	pxor	%xmm4, %xmm15
	movdqa	%xmm15, -112(%rsp)              # 16-byte Spill
	pxor	%xmm7, %xmm4
	movdqa	%xmm4, %xmm2
	pxor	%xmm11, %xmm2
	movdqa	%xmm2, -96(%rsp)                # 16-byte Spill
	movdqa	%xmm5, %xmm0
	por	%xmm2, %xmm0
	movdqa	%xmm4, %xmm2
	movdqa	%xmm4, %xmm5
	pxor	%xmm13, %xmm2
	movdqa	%xmm2, 64(%rsp)                 # 16-byte Spill
	movdqa	%xmm1, %xmm4
	pand	%xmm1, %xmm2
	pxor	%xmm0, %xmm2
	movdqa	%xmm8, %xmm10
	pxor	%xmm15, %xmm10
	movdqa	%xmm10, %xmm1
	movdqa	%xmm10, 80(%rsp)                # 16-byte Spill
	pxor	%xmm7, %xmm1
	movdqa	%xmm1, -16(%rsp)                # 16-byte Spill
	pxor	%xmm13, %xmm7
	movdqa	%xmm9, %xmm3
	pxor	%xmm11, %xmm3
	movdqa	%xmm3, 16(%rsp)                 # 16-byte Spill
	movdqa	%xmm5, %xmm0
	movdqa	%xmm5, 112(%rsp)                # 16-byte Spill
	pxor	%xmm12, %xmm0
	pand	%xmm0, %xmm1
	movdqa	%xmm0, %xmm13
	movdqa	%xmm0, 48(%rsp)                 # 16-byte Spill
	pxor	%xmm4, %xmm11
	movdqa	%xmm4, %xmm15
	movdqa	%xmm4, -32(%rsp)                # 16-byte Spill
	pxor	%xmm7, %xmm14
	movdqa	%xmm14, -48(%rsp)               # 16-byte Spill
	movdqa	%xmm6, %xmm14
	pand	%xmm11, %xmm14
	pxor	%xmm7, %xmm14
	movdqa	%xmm9, (%rsp)                   # 16-byte Spill
	pxor	%xmm9, %xmm7
	movdqa	%xmm7, %xmm4
	pand	%xmm9, %xmm4
	movdqa	%xmm7, %xmm0
	movdqa	%xmm7, %xmm6
	movdqa	%xmm7, -64(%rsp)                # 16-byte Spill
	pxor	%xmm13, %xmm0
	pand	%xmm5, %xmm0
	pxor	%xmm0, %xmm1
	pxor	%xmm4, %xmm0
	movdqa	-128(%rsp), %xmm4               # 16-byte Reload
	pxor	%xmm15, %xmm4
	movdqa	%xmm4, -128(%rsp)               # 16-byte Spill
	pand	%xmm3, %xmm4
	movdqa	%xmm10, %xmm15
	movdqa	-112(%rsp), %xmm9               # 16-byte Reload
	pand	%xmm9, %xmm15
	pxor	%xmm4, %xmm14
	movdqa	%xmm12, %xmm7
	pxor	%xmm6, %xmm7
	pxor	%xmm7, %xmm15
	movdqa	%xmm7, %xmm6
	pxor	%xmm4, %xmm15
	pxor	%xmm1, %xmm2
	pxor	%xmm1, %xmm15
	movdqa	96(%rsp), %xmm10                # 16-byte Reload
	movdqa	%xmm10, %xmm7
	movdqa	-96(%rsp), %xmm13               # 16-byte Reload
	pand	%xmm13, %xmm7
	movdqa	%xmm11, %xmm5
	movdqa	-80(%rsp), %xmm1                # 16-byte Reload
	pxor	%xmm1, %xmm11
	pxor	%xmm1, %xmm7
	movdqa	%xmm11, %xmm1
	movdqa	-48(%rsp), %xmm8                # 16-byte Reload
	pand	%xmm8, %xmm1
	pxor	%xmm1, %xmm7
	pxor	%xmm0, %xmm14
	movdqa	112(%rsp), %xmm3                # 16-byte Reload
	pxor	%xmm3, %xmm7
	pxor	%xmm0, %xmm7
	movdqa	%xmm15, %xmm0
	pand	%xmm2, %xmm0
	movdqa	%xmm0, %xmm12
	pxor	%xmm14, %xmm12
	movdqa	%xmm7, %xmm4
	pxor	%xmm2, %xmm4
	movdqa	%xmm0, %xmm1
	pxor	%xmm7, %xmm1
	pand	%xmm4, %xmm12
	pxor	%xmm7, %xmm12
	pand	%xmm15, %xmm7
	pxor	%xmm14, %xmm15
	pand	%xmm15, %xmm7
	pand	%xmm15, %xmm1
	pxor	%xmm0, %xmm15
	pxor	%xmm7, %xmm15
	pxor	%xmm14, %xmm1
	movdqa	%xmm15, %xmm7
	pxor	%xmm1, %xmm7
	pand	%xmm7, %xmm13
	movdqa	%xmm13, -96(%rsp)               # 16-byte Spill
	pand	%xmm10, %xmm7
	pand	%xmm1, %xmm8
	movdqa	%xmm8, -48(%rsp)                # 16-byte Spill
	movdqa	%xmm1, %xmm10
	pand	%xmm11, %xmm1
	pand	%xmm2, %xmm14
	pandn	%xmm4, %xmm14
	pxor	%xmm0, %xmm14
	pxor	%xmm12, %xmm10
	movdqa	-32(%rsp), %xmm4                # 16-byte Reload
	pand	%xmm15, %xmm4
	movdqa	%xmm4, -32(%rsp)                # 16-byte Spill
	movdqa	32(%rsp), %xmm13                # 16-byte Reload
	pand	%xmm12, %xmm13
	pand	%xmm12, %xmm5
	movdqa	%xmm5, -80(%rsp)                # 16-byte Spill
	movdqa	64(%rsp), %xmm2                 # 16-byte Reload
	pand	%xmm15, %xmm2
	pxor	%xmm14, %xmm15
	pand	%xmm14, %xmm9
	movdqa	%xmm9, -112(%rsp)               # 16-byte Spill
	pxor	%xmm14, %xmm12
	pand	80(%rsp), %xmm14                # 16-byte Folded Reload
	movdqa	-128(%rsp), %xmm5               # 16-byte Reload
	pand	%xmm12, %xmm5
	pand	16(%rsp), %xmm12                # 16-byte Folded Reload
	pand	%xmm10, %xmm3
	pand	%xmm10, %xmm6
	pxor	%xmm15, %xmm10
	movdqa	48(%rsp), %xmm8                 # 16-byte Reload
	pand	%xmm10, %xmm8
	pxor	%xmm2, %xmm8
	pxor	%xmm2, %xmm14
	pand	-16(%rsp), %xmm10               # 16-byte Folded Reload
	movdqa	%xmm6, %xmm2
	pxor	-48(%rsp), %xmm6                # 16-byte Folded Reload
	pxor	%xmm4, %xmm2
	pxor	-96(%rsp), %xmm2                # 16-byte Folded Reload
	movdqa	-64(%rsp), %xmm0                # 16-byte Reload
	pand	%xmm15, %xmm0
	movdqa	%xmm0, -64(%rsp)                # 16-byte Spill
	movdqa	%xmm5, %xmm9
	pxor	%xmm1, %xmm9
	pxor	%xmm2, %xmm8
	movdqa	%xmm10, %xmm4
	pxor	%xmm0, %xmm4
	movdqa	%xmm4, -48(%rsp)                # 16-byte Spill
	pxor	%xmm4, %xmm2
	shlq	$7, %r8
	movdqa	16(%rdi,%r8), %xmm0
	pxor	%xmm7, %xmm0
	movdqa	%xmm9, %xmm4
	pxor	%xmm2, %xmm4
	pxor	%xmm2, %xmm5
	movdqa	%xmm5, -128(%rsp)               # 16-byte Spill
	pxor	%xmm7, %xmm2
	movdqa	%xmm7, %xmm5
	pxor	%xmm14, %xmm5
	pxor	%xmm6, %xmm5
	pand	(%rsp), %xmm15                  # 16-byte Folded Reload
	movdqa	-112(%rsp), %xmm11              # 16-byte Reload
	movdqa	%xmm13, %xmm6
	pxor	%xmm13, %xmm11
	movdqa	%xmm11, %xmm7
	movdqa	%xmm11, %xmm13
	movdqa	-80(%rsp), %xmm11               # 16-byte Reload
	pxor	%xmm11, %xmm7
	pxor	(%rdi,%r8), %xmm3
	pxor	%xmm15, %xmm12
	pxor	%xmm12, %xmm11
	pxor	%xmm3, %xmm11
	movdqa	%xmm11, %xmm3
	movdqa	%xmm11, -80(%rsp)               # 16-byte Spill
	pxor	%xmm8, %xmm10
	pxor	%xmm0, %xmm10
	pxor	32(%rdi,%r8), %xmm14
	pxor	%xmm14, %xmm4
	pxor	%xmm7, %xmm9
	pxor	%xmm8, %xmm9
	pxor	48(%rdi,%r8), %xmm15
	pxor	%xmm15, %xmm9
	pxor	64(%rdi,%r8), %xmm6
	movdqa	-128(%rsp), %xmm11              # 16-byte Reload
	pxor	%xmm6, %xmm11
	movdqa	-96(%rsp), %xmm6                # 16-byte Reload
	pxor	80(%rdi,%r8), %xmm6
	pxor	-48(%rsp), %xmm7                # 16-byte Folded Reload
	pxor	%xmm5, %xmm7
	pxor	%xmm6, %xmm7
	movdqa	-32(%rsp), %xmm6                # 16-byte Reload
	pxor	96(%rdi,%r8), %xmm6
	pxor	-64(%rsp), %xmm13               # 16-byte Folded Reload
	pxor	%xmm12, %xmm13
	pxor	%xmm5, %xmm13
	pxor	112(%rdi,%r8), %xmm1
	pxor	%xmm6, %xmm13
	movdqa	%xmm13, %xmm14
	pxor	%xmm1, %xmm2
	movdqa	l_aes_v2_CPI33_2(%rip), %xmm5          # xmm5 = [6,7,4,5,10,11,8,9,14,15,12,13,2,3,0,1]
	movdqa	%xmm3, %xmm13
	pshufb	%xmm5, %xmm13
	movdqa	%xmm10, %xmm0
	pshufb	%xmm5, %xmm0
	movdqa	%xmm4, %xmm12
	pshufb	%xmm5, %xmm12
	movdqa	%xmm9, %xmm3
	pshufb	%xmm5, %xmm3
	movdqa	%xmm11, %xmm6
	movdqa	%xmm11, %xmm15
	pshufb	%xmm5, %xmm6
	movdqa	%xmm7, %xmm11
	pshufb	%xmm5, %xmm11
	movdqa	%xmm14, %xmm1
	pshufb	%xmm5, %xmm1
	movdqa	%xmm2, %xmm8
	pshufb	%xmm5, %xmm8
	movdqa	-80(%rsp), %xmm5                # 16-byte Reload
	pxor	%xmm5, %xmm13
	pxor	%xmm10, %xmm0
	pxor	%xmm4, %xmm12
	pxor	%xmm9, %xmm3
	pxor	%xmm15, %xmm6
	pxor	%xmm7, %xmm11
	pxor	%xmm14, %xmm1
	pxor	%xmm2, %xmm8
	pxor	%xmm8, %xmm5
	pxor	%xmm8, %xmm10
	pxor	%xmm0, %xmm4
	movdqa	%xmm4, -112(%rsp)               # 16-byte Spill
	pxor	%xmm8, %xmm9
	pxor	%xmm12, %xmm9
	pxor	%xmm8, %xmm15
	pxor	%xmm6, %xmm7
	pxor	%xmm11, %xmm14
	pxor	%xmm1, %xmm2
	pxor	%xmm5, %xmm12
	pxor	%xmm2, %xmm12
	pxor	%xmm2, %xmm11
	pxor	%xmm7, %xmm8
	pshufd	$78, %xmm8, %xmm4               # xmm4 = xmm8[2,3,0,1]
	movdqa	%xmm4, -128(%rsp)               # 16-byte Spill
	pxor	%xmm2, %xmm8
	pxor	%xmm14, %xmm2
	pxor	%xmm2, %xmm0
	movdqa	-112(%rsp), %xmm4               # 16-byte Reload
	pxor	%xmm4, %xmm6
	pxor	%xmm2, %xmm6
	pxor	%xmm13, %xmm10
	pxor	%xmm14, %xmm13
	pshufd	$78, %xmm13, %xmm2              # xmm2 = xmm13[2,3,0,1]
	pxor	%xmm5, %xmm13
	pxor	%xmm3, %xmm15
	pxor	%xmm10, %xmm3
	pxor	%xmm14, %xmm3
	pxor	%xmm9, %xmm11
	pxor	%xmm15, %xmm1
	pxor	%xmm2, %xmm13
	pshufd	$78, %xmm0, %xmm2               # xmm2 = xmm0[2,3,0,1]
	pxor	%xmm10, %xmm0
	pshufd	$78, %xmm12, %xmm10             # xmm10 = xmm12[2,3,0,1]
	pxor	%xmm2, %xmm0
	pshufd	$78, %xmm3, %xmm2               # xmm2 = xmm3[2,3,0,1]
	pxor	%xmm4, %xmm12
	pshufd	$78, %xmm6, %xmm4               # xmm4 = xmm6[2,3,0,1]
	pxor	%xmm10, %xmm12
	pshufd	$78, %xmm11, %xmm10             # xmm10 = xmm11[2,3,0,1]
	pxor	%xmm9, %xmm3
	pshufd	$78, %xmm1, %xmm9               # xmm9 = xmm1[2,3,0,1]
	pxor	%xmm2, %xmm3
	pxor	%xmm15, %xmm6
	pxor	%xmm4, %xmm6
	pxor	%xmm7, %xmm11
	pxor	%xmm10, %xmm11
	pxor	%xmm14, %xmm1
	pxor	%xmm9, %xmm1
	pxor	-128(%rsp), %xmm8               # 16-byte Folded Reload
	movdqa	%xmm11, %xmm2
	pxor	%xmm12, %xmm2
	movdqa	%xmm0, %xmm4
	pxor	%xmm0, %xmm12
	movdqa	%xmm0, %xmm9
	pxor	%xmm13, %xmm9
	movdqa	%xmm1, %xmm15
	pxor	%xmm8, %xmm15
	movdqa	%xmm6, %xmm0
	pxor	%xmm1, %xmm0
	movdqa	%xmm11, %xmm5
	pxor	%xmm3, %xmm5
	pxor	%xmm1, %xmm4
	pxor	%xmm4, %xmm5
	movdqa	%xmm5, %xmm10
	movdqa	%xmm5, 80(%rsp)                 # 16-byte Spill
	movdqa	%xmm4, %xmm5
	movdqa	%xmm0, %xmm7
	movdqa	%xmm0, %xmm4
	movdqa	%xmm0, -96(%rsp)                # 16-byte Spill
	pxor	%xmm2, %xmm7
	movdqa	%xmm7, -32(%rsp)                # 16-byte Spill
	pxor	%xmm8, %xmm2
	movdqa	%xmm2, %xmm7
	movdqa	%xmm2, 48(%rsp)                 # 16-byte Spill
	pxor	%xmm6, %xmm8
	pxor	%xmm3, %xmm6
	movdqa	%xmm6, %xmm0
	pxor	%xmm9, %xmm0
	movdqa	%xmm0, -128(%rsp)               # 16-byte Spill
	por	%xmm10, %xmm0
	movdqa	%xmm6, %xmm14
	pxor	%xmm13, %xmm14
	movdqa	%xmm14, -16(%rsp)               # 16-byte Spill
	pand	%xmm4, %xmm14
	pxor	%xmm0, %xmm14
	movdqa	%xmm1, %xmm10
	pxor	%xmm8, %xmm10
	movdqa	%xmm10, %xmm2
	movdqa	%xmm10, 16(%rsp)                # 16-byte Spill
	pxor	%xmm3, %xmm2
	movdqa	%xmm2, (%rsp)                   # 16-byte Spill
	pxor	%xmm13, %xmm3
	movdqa	%xmm6, %xmm0
	pxor	%xmm12, %xmm0
	pand	%xmm0, %xmm2
	movdqa	%xmm0, 64(%rsp)                 # 16-byte Spill
	movdqa	%xmm9, %xmm1
	pxor	%xmm4, %xmm9
	pxor	%xmm3, %xmm5
	movdqa	%xmm5, -80(%rsp)                # 16-byte Spill
	movdqa	%xmm9, %xmm13
	movdqa	%xmm9, -64(%rsp)                # 16-byte Spill
	pand	%xmm7, %xmm13
	pxor	%xmm3, %xmm13
	pxor	%xmm15, %xmm3
	movdqa	%xmm3, %xmm5
	pand	%xmm15, %xmm5
	movdqa	%xmm15, -48(%rsp)               # 16-byte Spill
	pxor	%xmm3, %xmm0
	movdqa	%xmm3, -112(%rsp)               # 16-byte Spill
	pand	%xmm6, %xmm0
	pxor	%xmm0, %xmm2
	pxor	%xmm5, %xmm0
	pxor	%xmm15, %xmm1
	movdqa	%xmm1, 32(%rsp)                 # 16-byte Spill
	movdqa	-32(%rsp), %xmm5                # 16-byte Reload
	pand	%xmm1, %xmm5
	movdqa	%xmm10, %xmm4
	pand	%xmm8, %xmm4
	pxor	%xmm5, %xmm13
	pxor	%xmm3, %xmm12
	pxor	%xmm12, %xmm4
	movdqa	%xmm12, %xmm3
	pxor	%xmm5, %xmm4
	pxor	%xmm2, %xmm14
	pxor	%xmm2, %xmm4
	movdqa	-128(%rsp), %xmm1               # 16-byte Reload
	movdqa	%xmm1, %xmm7
	movdqa	80(%rsp), %xmm10                # 16-byte Reload
	pand	%xmm10, %xmm7
	movdqa	%xmm9, %xmm12
	pxor	%xmm11, %xmm12
	pxor	%xmm11, %xmm7
	movdqa	%xmm12, %xmm2
	movdqa	-80(%rsp), %xmm9                # 16-byte Reload
	pand	%xmm9, %xmm2
	pxor	%xmm2, %xmm7
	pxor	%xmm0, %xmm13
	pxor	%xmm6, %xmm7
	pxor	%xmm0, %xmm7
	movdqa	%xmm4, %xmm2
	pand	%xmm14, %xmm2
	movdqa	%xmm2, %xmm0
	pxor	%xmm13, %xmm0
	movdqa	%xmm7, %xmm5
	pxor	%xmm14, %xmm5
	movdqa	%xmm2, %xmm15
	pxor	%xmm7, %xmm15
	pand	%xmm5, %xmm0
	pxor	%xmm7, %xmm0
	pand	%xmm4, %xmm7
	pxor	%xmm13, %xmm4
	pand	%xmm4, %xmm7
	pand	%xmm4, %xmm15
	pxor	%xmm2, %xmm4
	pxor	%xmm7, %xmm4
	pxor	%xmm13, %xmm15
	movdqa	%xmm4, %xmm7
	pxor	%xmm15, %xmm7
	pand	%xmm7, %xmm1
	movdqa	%xmm1, -128(%rsp)               # 16-byte Spill
	pand	%xmm10, %xmm7
	pand	%xmm15, %xmm9
	movdqa	%xmm9, -80(%rsp)                # 16-byte Spill
	movdqa	%xmm15, %xmm10
	pand	%xmm12, %xmm15
	pand	%xmm14, %xmm13
	pandn	%xmm5, %xmm13
	pxor	%xmm2, %xmm13
	pxor	%xmm0, %xmm10
	movdqa	-96(%rsp), %xmm5                # 16-byte Reload
	pand	%xmm4, %xmm5
	movdqa	%xmm5, -96(%rsp)                # 16-byte Spill
	movdqa	48(%rsp), %xmm1                 # 16-byte Reload
	pand	%xmm0, %xmm1
	movdqa	-64(%rsp), %xmm2                # 16-byte Reload
	pand	%xmm0, %xmm2
	movdqa	%xmm2, -64(%rsp)                # 16-byte Spill
	movdqa	-16(%rsp), %xmm14               # 16-byte Reload
	pand	%xmm4, %xmm14
	pxor	%xmm13, %xmm4
	pand	%xmm13, %xmm8
	pxor	%xmm13, %xmm0
	pand	16(%rsp), %xmm13                # 16-byte Folded Reload
	movdqa	-32(%rsp), %xmm11               # 16-byte Reload
	pand	%xmm0, %xmm11
	pand	32(%rsp), %xmm0                 # 16-byte Folded Reload
	pand	%xmm10, %xmm6
	pand	%xmm10, %xmm3
	movdqa	%xmm3, -32(%rsp)                # 16-byte Spill
	pxor	%xmm4, %xmm10
	movdqa	64(%rsp), %xmm12                # 16-byte Reload
	pand	%xmm10, %xmm12
	pxor	%xmm14, %xmm12
	pxor	%xmm14, %xmm13
	pand	(%rsp), %xmm10                  # 16-byte Folded Reload
	movdqa	-112(%rsp), %xmm9               # 16-byte Reload
	pand	%xmm4, %xmm9
	movdqa	%xmm9, -112(%rsp)               # 16-byte Spill
	pand	-48(%rsp), %xmm4                # 16-byte Folded Reload
	movdqa	%xmm7, %xmm2
	pxor	%xmm15, %xmm2
	movdqa	%xmm3, %xmm14
	pxor	%xmm5, %xmm14
	movdqa	-128(%rsp), %xmm3               # 16-byte Reload
	pxor	%xmm3, %xmm14
	pxor	%xmm11, %xmm15
	pxor	%xmm14, %xmm12
	pxor	%xmm1, %xmm11
	movdqa	%xmm10, %xmm5
	pxor	%xmm9, %xmm5
	pxor	%xmm5, %xmm14
	pxor	%xmm4, %xmm0
	pxor	%xmm15, %xmm4
	pxor	%xmm13, %xmm15
	pxor	%xmm14, %xmm15
	pxor	%xmm14, %xmm11
	pxor	%xmm2, %xmm14
	pxor	%xmm1, %xmm8
	movdqa	-32(%rsp), %xmm1                # 16-byte Reload
	pxor	-80(%rsp), %xmm1                # 16-byte Folded Reload
	pxor	%xmm7, %xmm10
	pxor	%xmm7, %xmm13
	pxor	%xmm1, %xmm13
	movdqa	%xmm3, %xmm9
	movdqa	-64(%rsp), %xmm1                # 16-byte Reload
	pxor	%xmm1, %xmm6
	pxor	%xmm8, %xmm1
	pxor	%xmm1, %xmm9
	pxor	%xmm5, %xmm9
	pxor	%xmm1, %xmm4
	pxor	%xmm12, %xmm10
	pxor	%xmm12, %xmm4
	pxor	-96(%rsp), %xmm8                # 16-byte Folded Reload
	pxor	-112(%rsp), %xmm8               # 16-byte Folded Reload
	pxor	%xmm0, %xmm6
	pxor	%xmm0, %xmm8
	pxor	%xmm13, %xmm9
	pxor	%xmm13, %xmm8
	movdqa	%xmm8, %xmm13
	jmp	Laes_v2_BB33_3
Laes_v2_BB33_2:                               # %else.4
	movdqa	%xmm4, -80(%rsp)                # 16-byte Spill
	movdqa	%xmm4, %xmm6
	psrld	$16, %xmm6
	pxor	%xmm4, %xmm6
	pxor	%xmm2, %xmm2
	pblendw	$187, %xmm2, %xmm6              # xmm6 = xmm2[0,1],xmm6[2],xmm2[3,4,5],xmm6[6],xmm2[7]
	movdqa	%xmm11, %xmm3
	movdqa	%xmm11, %xmm10
	psrld	$16, %xmm10
	pxor	%xmm11, %xmm10
	pblendw	$187, %xmm2, %xmm10             # xmm10 = xmm2[0,1],xmm10[2],xmm2[3,4,5],xmm10[6],xmm2[7]
	movdqa	%xmm5, %xmm15
	psrld	$16, %xmm15
	pxor	%xmm5, %xmm15
	pblendw	$187, %xmm2, %xmm15             # xmm15 = xmm2[0,1],xmm15[2],xmm2[3,4,5],xmm15[6],xmm2[7]
	movdqa	%xmm12, %xmm4
	psrld	$16, %xmm4
	pxor	%xmm12, %xmm4
	pblendw	$187, %xmm2, %xmm4              # xmm4 = xmm2[0,1],xmm4[2],xmm2[3,4,5],xmm4[6],xmm2[7]
	movdqa	%xmm5, -128(%rsp)               # 16-byte Spill
	movdqa	%xmm9, %xmm7
	movdqa	%xmm9, %xmm11
	psrld	$16, %xmm11
	pxor	%xmm9, %xmm11
	pblendw	$187, %xmm2, %xmm11             # xmm11 = xmm2[0,1],xmm11[2],xmm2[3,4,5],xmm11[6],xmm2[7]
	movdqa	%xmm8, %xmm9
	psrld	$16, %xmm9
	pxor	%xmm8, %xmm9
	pblendw	$187, %xmm2, %xmm9              # xmm9 = xmm2[0,1],xmm9[2],xmm2[3,4,5],xmm9[6],xmm2[7]
	movdqa	%xmm13, %xmm0
	psrld	$16, %xmm13
	pxor	%xmm0, %xmm13
	pblendw	$187, %xmm2, %xmm13             # xmm13 = xmm2[0,1],xmm13[2],xmm2[3,4,5],xmm13[6],xmm2[7]
	movdqa	-112(%rsp), %xmm5               # 16-byte Reload
	movdqa	%xmm5, %xmm14
	psrld	$16, %xmm14
	pxor	%xmm5, %xmm14
	pblendw	$187, %xmm2, %xmm14             # xmm14 = xmm2[0,1],xmm14[2],xmm2[3,4,5],xmm14[6],xmm2[7]
	pxor	%xmm13, %xmm0
	pslldq	$2, %xmm13                      # xmm13 = zero,zero,xmm13[0,1,2,3,4,5,6,7,8,9,10,11,12,13]
	pxor	%xmm0, %xmm13
	pxor	%xmm9, %xmm8
	pslldq	$2, %xmm9                       # xmm9 = zero,zero,xmm9[0,1,2,3,4,5,6,7,8,9,10,11,12,13]
	pxor	%xmm8, %xmm9
	movdqa	%xmm11, %xmm2
	pxor	%xmm7, %xmm11
	pslldq	$2, %xmm2                       # xmm2 = zero,zero,xmm2[0,1,2,3,4,5,6,7,8,9,10,11,12,13]
	pxor	%xmm2, %xmm11
	movdqa	%xmm4, %xmm2
	pxor	%xmm12, %xmm4
	pslldq	$2, %xmm2                       # xmm2 = zero,zero,xmm2[0,1,2,3,4,5,6,7,8,9,10,11,12,13]
	pxor	%xmm2, %xmm4
	movdqa	%xmm15, %xmm2
	pxor	-128(%rsp), %xmm15              # 16-byte Folded Reload
	pslldq	$2, %xmm2                       # xmm2 = zero,zero,xmm2[0,1,2,3,4,5,6,7,8,9,10,11,12,13]
	pxor	%xmm2, %xmm15
	movdqa	%xmm10, %xmm2
	pxor	%xmm3, %xmm10
	pslldq	$2, %xmm2                       # xmm2 = zero,zero,xmm2[0,1,2,3,4,5,6,7,8,9,10,11,12,13]
	pxor	%xmm2, %xmm10
	movdqa	%xmm6, %xmm0
	pxor	-80(%rsp), %xmm6                # 16-byte Folded Reload
	pslldq	$2, %xmm0                       # xmm0 = zero,zero,xmm0[0,1,2,3,4,5,6,7,8,9,10,11,12,13]
	pxor	%xmm0, %xmm6
	movdqa	%xmm14, %xmm0
	pxor	%xmm5, %xmm14
	pslldq	$2, %xmm0                       # xmm0 = zero,zero,xmm0[0,1,2,3,4,5,6,7,8,9,10,11,12,13]
	pxor	%xmm0, %xmm14
Laes_v2_BB33_3:                               # %join.5
	shlq	$7, %rcx
	pxor	128(%rdi,%rcx), %xmm6
	pxor	144(%rdi,%rcx), %xmm10
	pxor	160(%rdi,%rcx), %xmm15
	pxor	176(%rdi,%rcx), %xmm4
	pxor	192(%rdi,%rcx), %xmm11
	pxor	208(%rdi,%rcx), %xmm9
	pxor	224(%rdi,%rcx), %xmm13
	pxor	240(%rdi,%rcx), %xmm14
	movdqa	l_aes_v2_CPI33_3(%rip), %xmm5          # xmm5 = [5,6,7,4,9,10,11,8,13,14,15,12,1,2,3,0]
	movdqa	%xmm10, %xmm0
	pshufb	%xmm5, %xmm0
	movdqa	%xmm15, %xmm12
	pshufb	%xmm5, %xmm12
	movdqa	%xmm11, %xmm3
	pshufb	%xmm5, %xmm3
	movdqa	%xmm9, %xmm8
	pshufb	%xmm5, %xmm8
	movdqa	%xmm15, %xmm1
	movdqa	%xmm13, %xmm15
	pshufb	%xmm5, %xmm15
	movdqa	%xmm14, %xmm2
	pshufb	%xmm5, %xmm2
	pxor	%xmm10, %xmm0
	pxor	%xmm1, %xmm12
	pxor	%xmm11, %xmm3
	pxor	%xmm9, %xmm8
	pxor	%xmm13, %xmm15
	pxor	%xmm14, %xmm2
	pxor	%xmm0, %xmm1
	pxor	%xmm3, %xmm9
	movdqa	%xmm9, -128(%rsp)               # 16-byte Spill
	pxor	%xmm8, %xmm13
	pxor	%xmm15, %xmm14
	movdqa	%xmm14, %xmm5
	pxor	%xmm13, %xmm5
	pxor	%xmm5, %xmm0
	pxor	%xmm1, %xmm3
	pxor	%xmm5, %xmm3
	movdqa	%xmm6, %xmm7
	movdqa	l_aes_v2_CPI33_3(%rip), %xmm5          # xmm5 = [5,6,7,4,9,10,11,8,13,14,15,12,1,2,3,0]
	pshufb	%xmm5, %xmm7
	movdqa	%xmm4, %xmm9
	pshufb	%xmm5, %xmm9
	pxor	%xmm6, %xmm7
	pxor	%xmm4, %xmm9
	pxor	%xmm2, %xmm6
	pxor	%xmm7, %xmm10
	pxor	%xmm12, %xmm4
	pxor	%xmm13, %xmm7
	pxor	%xmm14, %xmm12
	pxor	%xmm6, %xmm12
	movdqa	%xmm7, %xmm5
	pxor	%xmm6, %xmm7
	movdqa	l_aes_v2_CPI33_1(%rip), %xmm6          # xmm6 = [10,11,8,9,14,15,12,13,2,3,0,1,6,7,4,5]
	pshufb	%xmm6, %xmm5
	pxor	%xmm5, %xmm7
	pxor	%xmm2, %xmm10
	pxor	%xmm9, %xmm11
	pxor	%xmm13, %xmm9
	pxor	%xmm10, %xmm9
	pxor	%xmm0, %xmm10
	pshufb	%xmm6, %xmm0
	pxor	%xmm10, %xmm0
	pxor	%xmm2, %xmm4
	pxor	%xmm2, %xmm11
	pxor	%xmm14, %xmm8
	pxor	%xmm4, %xmm8
	pxor	%xmm11, %xmm15
	movdqa	-128(%rsp), %xmm10              # 16-byte Reload
	pxor	%xmm10, %xmm2
	pxor	%xmm12, %xmm1
	pshufb	%xmm6, %xmm12
	pxor	%xmm1, %xmm12
	movdqa	%xmm9, %xmm1
	pshufb	%xmm6, %xmm1
	pxor	%xmm4, %xmm9
	movdqa	%xmm3, %xmm5
	pshufb	%xmm6, %xmm5
	pxor	%xmm1, %xmm9
	movdqa	%xmm8, %xmm1
	pshufb	%xmm6, %xmm1
	pxor	%xmm11, %xmm3
	movdqa	%xmm15, %xmm4
	pshufb	%xmm6, %xmm4
	pxor	%xmm5, %xmm3
	movdqa	%xmm2, %xmm5
	pshufb	%xmm6, %xmm5
	pxor	%xmm10, %xmm8
	pxor	%xmm1, %xmm8
	pxor	%xmm13, %xmm15
	pxor	%xmm4, %xmm15
	pxor	%xmm14, %xmm2
	pxor	%xmm5, %xmm2
	movdqa	%xmm8, %xmm13
	pxor	%xmm12, %xmm13
	movdqa	%xmm13, -48(%rsp)               # 16-byte Spill
	movdqa	%xmm15, %xmm1
	pxor	%xmm0, %xmm1
	pxor	%xmm0, %xmm12
	movdqa	%xmm12, -128(%rsp)              # 16-byte Spill
	movdqa	%xmm0, %xmm6
	pxor	%xmm7, %xmm6
	movdqa	%xmm15, %xmm4
	pxor	%xmm2, %xmm4
	movdqa	%xmm15, %xmm11
	pxor	%xmm3, %xmm11
	movdqa	%xmm8, %xmm0
	pxor	%xmm9, %xmm0
	pxor	%xmm1, %xmm0
	movdqa	%xmm0, -80(%rsp)                # 16-byte Spill
	movdqa	%xmm1, %xmm14
	pxor	%xmm2, %xmm13
	movdqa	%xmm13, 64(%rsp)                # 16-byte Spill
	pxor	%xmm3, %xmm2
	pxor	%xmm9, %xmm3
	movdqa	%xmm3, %xmm5
	pxor	%xmm6, %xmm5
	por	%xmm5, %xmm0
	movdqa	%xmm3, %xmm12
	pxor	%xmm7, %xmm12
	movdqa	%xmm12, -16(%rsp)               # 16-byte Spill
	pand	%xmm11, %xmm12
	pxor	%xmm0, %xmm12
	pxor	%xmm2, %xmm15
	movdqa	%xmm15, -64(%rsp)               # 16-byte Spill
	pxor	%xmm9, %xmm15
	movdqa	%xmm15, (%rsp)                  # 16-byte Spill
	pxor	%xmm7, %xmm9
	movdqa	%xmm4, %xmm10
	movdqa	%xmm6, %xmm0
	pxor	%xmm6, %xmm10
	movdqa	%xmm10, 48(%rsp)                # 16-byte Spill
	movdqa	%xmm3, %xmm7
	pxor	-128(%rsp), %xmm7               # 16-byte Folded Reload
	movdqa	%xmm15, %xmm1
	pand	%xmm7, %xmm1
	movdqa	%xmm7, -112(%rsp)               # 16-byte Spill
	movdqa	%xmm11, %xmm6
	movdqa	%xmm11, -96(%rsp)               # 16-byte Spill
	pxor	%xmm11, %xmm0
	pxor	%xmm9, %xmm14
	movdqa	%xmm13, %xmm15
	pand	%xmm0, %xmm15
	movdqa	%xmm0, %xmm13
	pxor	%xmm9, %xmm15
	movdqa	%xmm4, %xmm0
	movdqa	%xmm4, -32(%rsp)                # 16-byte Spill
	pxor	%xmm4, %xmm9
	movdqa	%xmm9, %xmm4
	pand	%xmm0, %xmm4
	movdqa	%xmm9, %xmm0
	pxor	%xmm7, %xmm0
	pand	%xmm3, %xmm0
	pxor	%xmm0, %xmm1
	pxor	%xmm4, %xmm0
	movdqa	-48(%rsp), %xmm11               # 16-byte Reload
	pxor	%xmm6, %xmm11
	movdqa	%xmm11, %xmm4
	pand	%xmm10, %xmm4
	movdqa	-64(%rsp), %xmm6                # 16-byte Reload
	pand	%xmm2, %xmm6
	pxor	%xmm4, %xmm15
	movdqa	-128(%rsp), %xmm7               # 16-byte Reload
	pxor	%xmm9, %xmm7
	movdqa	%xmm7, -128(%rsp)               # 16-byte Spill
	pxor	%xmm7, %xmm6
	pxor	%xmm4, %xmm6
	pxor	%xmm1, %xmm12
	pxor	%xmm1, %xmm6
	movdqa	-80(%rsp), %xmm4                # 16-byte Reload
	pand	%xmm5, %xmm4
	movdqa	%xmm13, %xmm1
	pxor	%xmm8, %xmm1
	movdqa	%xmm1, -48(%rsp)                # 16-byte Spill
	pxor	%xmm8, %xmm4
	movdqa	%xmm14, %xmm8
	pand	%xmm14, %xmm1
	pxor	%xmm1, %xmm4
	pxor	%xmm0, %xmm15
	pxor	%xmm3, %xmm4
	pxor	%xmm0, %xmm4
	movdqa	%xmm6, %xmm1
	pand	%xmm12, %xmm1
	movdqa	%xmm1, %xmm0
	pxor	%xmm15, %xmm0
	movdqa	%xmm4, %xmm7
	pxor	%xmm12, %xmm7
	movdqa	%xmm1, %xmm14
	pxor	%xmm4, %xmm14
	pand	%xmm7, %xmm0
	pxor	%xmm4, %xmm0
	pand	%xmm6, %xmm4
	pxor	%xmm15, %xmm6
	pand	%xmm6, %xmm4
	pand	%xmm6, %xmm14
	pxor	%xmm1, %xmm6
	pxor	%xmm4, %xmm6
	pxor	%xmm15, %xmm14
	movdqa	%xmm6, %xmm4
	pxor	%xmm14, %xmm4
	pand	%xmm4, %xmm5
	pand	-80(%rsp), %xmm4                # 16-byte Folded Reload
	movdqa	%xmm4, %xmm10
	movdqa	%xmm4, 32(%rsp)                 # 16-byte Spill
	pand	%xmm14, %xmm8
	movdqa	%xmm8, -80(%rsp)                # 16-byte Spill
	movdqa	%xmm14, %xmm8
	pand	-48(%rsp), %xmm14               # 16-byte Folded Reload
	pand	%xmm12, %xmm15
	pandn	%xmm7, %xmm15
	pxor	%xmm1, %xmm15
	pxor	%xmm0, %xmm8
	movdqa	-96(%rsp), %xmm12               # 16-byte Reload
	pand	%xmm6, %xmm12
	movdqa	%xmm12, -96(%rsp)               # 16-byte Spill
	movdqa	64(%rsp), %xmm7                 # 16-byte Reload
	pand	%xmm0, %xmm7
	pand	%xmm0, %xmm13
	movdqa	%xmm13, -48(%rsp)               # 16-byte Spill
	movdqa	-16(%rsp), %xmm13               # 16-byte Reload
	pand	%xmm6, %xmm13
	pxor	%xmm15, %xmm6
	pand	%xmm15, %xmm2
	pxor	%xmm15, %xmm0
	pand	-64(%rsp), %xmm15               # 16-byte Folded Reload
	pand	%xmm0, %xmm11
	pand	48(%rsp), %xmm0                 # 16-byte Folded Reload
	pand	%xmm8, %xmm3
	movdqa	-128(%rsp), %xmm4               # 16-byte Reload
	pand	%xmm8, %xmm4
	pxor	%xmm6, %xmm8
	movdqa	-112(%rsp), %xmm1               # 16-byte Reload
	pand	%xmm8, %xmm1
	pxor	%xmm13, %xmm1
	movdqa	%xmm1, -112(%rsp)               # 16-byte Spill
	pxor	%xmm13, %xmm15
	pand	(%rsp), %xmm8                   # 16-byte Folded Reload
	pand	%xmm6, %xmm9
	pand	-32(%rsp), %xmm6                # 16-byte Folded Reload
	movdqa	%xmm10, %xmm1
	pxor	%xmm14, %xmm1
	movdqa	%xmm4, %xmm13
	pxor	%xmm12, %xmm13
	pxor	%xmm5, %xmm13
	pxor	%xmm11, %xmm14
	movdqa	-112(%rsp), %xmm10              # 16-byte Reload
	pxor	%xmm13, %xmm10
	pxor	%xmm7, %xmm11
	movdqa	%xmm7, %xmm12
	movdqa	%xmm8, %xmm7
	pxor	%xmm9, %xmm7
	pxor	%xmm7, %xmm13
	pxor	%xmm6, %xmm0
	pxor	%xmm14, %xmm6
	pxor	%xmm15, %xmm14
	pxor	%xmm13, %xmm14
	pxor	%xmm13, %xmm11
	pxor	%xmm1, %xmm13
	pxor	%xmm12, %xmm2
	movdqa	%xmm4, %xmm1
	pxor	-80(%rsp), %xmm1                # 16-byte Folded Reload
	movdqa	32(%rsp), %xmm4                 # 16-byte Reload
	pxor	%xmm4, %xmm8
	pxor	%xmm4, %xmm15
	pxor	%xmm1, %xmm15
	movdqa	-48(%rsp), %xmm1                # 16-byte Reload
	pxor	%xmm1, %xmm3
	pxor	%xmm2, %xmm1
	pxor	%xmm1, %xmm5
	pxor	%xmm7, %xmm5
	pxor	%xmm1, %xmm6
	pxor	%xmm10, %xmm8
	pxor	%xmm10, %xmm6
	pxor	-96(%rsp), %xmm2                # 16-byte Folded Reload
	pxor	%xmm9, %xmm2
	pxor	%xmm0, %xmm3
	pxor	%xmm0, %xmm2
	pxor	%xmm15, %xmm5
	pxor	%xmm15, %xmm2
	testq	%rax, %rax
	je	Laes_v2_BB33_6
# %bb.4:                                # %join.10.preheader
	movq	%rax, %rcx
	shlq	$9, %rcx
	addq	%rdi, %rcx
	.p2align	4
Laes_v2_BB33_5:                               # %join.10
                                        # =>This Inner Loop Header: Depth=1
	pxor	(%rcx), %xmm3
	pxor	16(%rcx), %xmm8
	pxor	32(%rcx), %xmm14
	pxor	48(%rcx), %xmm6
	pxor	64(%rcx), %xmm11
	pxor	80(%rcx), %xmm5
	pxor	96(%rcx), %xmm2
	pxor	112(%rcx), %xmm13
	pshufd	$57, %xmm3, %xmm9               # xmm9 = xmm3[1,2,3,0]
	pshufd	$57, %xmm8, %xmm4               # xmm4 = xmm8[1,2,3,0]
	pshufd	$57, %xmm14, %xmm1              # xmm1 = xmm14[1,2,3,0]
	pshufd	$57, %xmm6, %xmm10              # xmm10 = xmm6[1,2,3,0]
	pshufd	$57, %xmm11, %xmm12             # xmm12 = xmm11[1,2,3,0]
	pshufd	$57, %xmm5, %xmm15              # xmm15 = xmm5[1,2,3,0]
	pshufd	$57, %xmm2, %xmm0               # xmm0 = xmm2[1,2,3,0]
	pshufd	$57, %xmm13, %xmm7              # xmm7 = xmm13[1,2,3,0]
	pxor	%xmm3, %xmm9
	pxor	%xmm8, %xmm4
	pxor	%xmm14, %xmm1
	pxor	%xmm6, %xmm10
	pxor	%xmm11, %xmm12
	pxor	%xmm5, %xmm15
	pxor	%xmm2, %xmm0
	pxor	%xmm13, %xmm7
	pxor	%xmm7, %xmm3
	pxor	%xmm9, %xmm8
	pxor	%xmm7, %xmm8
	pxor	%xmm4, %xmm14
	pxor	%xmm1, %xmm6
	pxor	%xmm7, %xmm6
	pxor	%xmm10, %xmm11
	pxor	%xmm7, %xmm11
	pxor	%xmm12, %xmm5
	pxor	%xmm15, %xmm2
	pxor	%xmm0, %xmm13
	pxor	%xmm13, %xmm1
	movdqa	%xmm1, -128(%rsp)               # 16-byte Spill
	pxor	%xmm13, %xmm15
	pxor	%xmm5, %xmm7
	pshufd	$78, %xmm7, %xmm1               # xmm1 = xmm7[2,3,0,1]
	movdqa	%xmm1, -112(%rsp)               # 16-byte Spill
	pxor	%xmm13, %xmm7
	pxor	%xmm2, %xmm13
	pxor	%xmm13, %xmm4
	pxor	%xmm14, %xmm12
	pxor	%xmm13, %xmm12
	pxor	%xmm2, %xmm9
	movdqa	-128(%rsp), %xmm13              # 16-byte Reload
	pxor	%xmm3, %xmm13
	pshufd	$78, %xmm9, %xmm1               # xmm1 = xmm9[2,3,0,1]
	pxor	%xmm3, %xmm9
	pxor	%xmm2, %xmm10
	pxor	%xmm8, %xmm10
	pxor	%xmm6, %xmm15
	pxor	%xmm11, %xmm0
	pxor	%xmm1, %xmm9
	pshufd	$78, %xmm4, %xmm1               # xmm1 = xmm4[2,3,0,1]
	pxor	%xmm8, %xmm4
	pshufd	$78, %xmm13, %xmm3              # xmm3 = xmm13[2,3,0,1]
	pxor	%xmm1, %xmm4
	pshufd	$78, %xmm10, %xmm1              # xmm1 = xmm10[2,3,0,1]
	pxor	%xmm14, %xmm13
	pshufd	$78, %xmm12, %xmm8              # xmm8 = xmm12[2,3,0,1]
	pxor	%xmm3, %xmm13
	pshufd	$78, %xmm15, %xmm3              # xmm3 = xmm15[2,3,0,1]
	pxor	%xmm6, %xmm10
	pshufd	$78, %xmm0, %xmm6               # xmm6 = xmm0[2,3,0,1]
	pxor	%xmm1, %xmm10
	pxor	%xmm11, %xmm12
	pxor	%xmm8, %xmm12
	pxor	%xmm5, %xmm15
	pxor	%xmm3, %xmm15
	pxor	%xmm2, %xmm0
	pxor	%xmm6, %xmm0
	pxor	-112(%rsp), %xmm7               # 16-byte Folded Reload
	movdqa	%xmm15, %xmm14
	pxor	%xmm13, %xmm14
	movdqa	%xmm14, -64(%rsp)               # 16-byte Spill
	movdqa	%xmm0, %xmm1
	pxor	%xmm4, %xmm1
	movdqa	%xmm1, %xmm5
	pxor	%xmm4, %xmm13
	movdqa	%xmm13, -128(%rsp)              # 16-byte Spill
	movdqa	%xmm4, %xmm8
	pxor	%xmm9, %xmm8
	movdqa	%xmm0, %xmm3
	movdqa	%xmm7, %xmm13
	pxor	%xmm7, %xmm3
	movdqa	%xmm0, %xmm1
	pxor	%xmm12, %xmm1
	movdqa	%xmm1, %xmm2
	movdqa	%xmm15, %xmm1
	pxor	%xmm10, %xmm1
	pxor	%xmm5, %xmm1
	movdqa	%xmm1, 80(%rsp)                 # 16-byte Spill
	movdqa	%xmm5, %xmm6
	pxor	%xmm7, %xmm14
	movdqa	%xmm14, -80(%rsp)               # 16-byte Spill
	pxor	%xmm12, %xmm13
	pxor	%xmm10, %xmm12
	movdqa	%xmm12, %xmm4
	pxor	%xmm8, %xmm4
	movdqa	%xmm4, -48(%rsp)                # 16-byte Spill
	por	%xmm4, %xmm1
	movdqa	%xmm12, %xmm5
	pxor	%xmm9, %xmm5
	movdqa	%xmm5, 64(%rsp)                 # 16-byte Spill
	pand	%xmm2, %xmm5
	pxor	%xmm1, %xmm5
	movdqa	%xmm0, %xmm11
	pxor	%xmm13, %xmm11
	movdqa	%xmm13, -112(%rsp)              # 16-byte Spill
	movdqa	%xmm11, %xmm1
	movdqa	%xmm11, 16(%rsp)                # 16-byte Spill
	pxor	%xmm10, %xmm1
	movdqa	%xmm1, -16(%rsp)                # 16-byte Spill
	pxor	%xmm9, %xmm10
	movdqa	%xmm3, %xmm7
	pxor	%xmm8, %xmm7
	movdqa	%xmm7, 32(%rsp)                 # 16-byte Spill
	movdqa	%xmm12, %xmm0
	pxor	-128(%rsp), %xmm0               # 16-byte Folded Reload
	pand	%xmm0, %xmm1
	movdqa	%xmm0, %xmm4
	movdqa	%xmm0, 48(%rsp)                 # 16-byte Spill
	pxor	%xmm2, %xmm8
	movdqa	%xmm8, -96(%rsp)                # 16-byte Spill
	movdqa	%xmm2, %xmm9
	movdqa	%xmm2, -32(%rsp)                # 16-byte Spill
	pxor	%xmm10, %xmm6
	movdqa	%xmm6, 96(%rsp)                 # 16-byte Spill
	pand	%xmm8, %xmm14
	pxor	%xmm10, %xmm14
	movdqa	%xmm3, (%rsp)                   # 16-byte Spill
	pxor	%xmm3, %xmm10
	movdqa	%xmm10, %xmm2
	pand	%xmm3, %xmm2
	movdqa	%xmm10, %xmm0
	pxor	%xmm4, %xmm0
	pand	%xmm12, %xmm0
	movdqa	%xmm12, %xmm6
	pxor	%xmm0, %xmm1
	pxor	%xmm2, %xmm0
	movdqa	-64(%rsp), %xmm2                # 16-byte Reload
	pxor	%xmm9, %xmm2
	movdqa	%xmm2, -64(%rsp)                # 16-byte Spill
	pand	%xmm7, %xmm2
	movdqa	%xmm11, %xmm12
	pand	%xmm13, %xmm12
	pxor	%xmm2, %xmm14
	movdqa	-128(%rsp), %xmm3               # 16-byte Reload
	pxor	%xmm10, %xmm3
	movdqa	%xmm3, -128(%rsp)               # 16-byte Spill
	pxor	%xmm3, %xmm12
	pxor	%xmm2, %xmm12
	pxor	%xmm1, %xmm5
	pxor	%xmm1, %xmm12
	movdqa	80(%rsp), %xmm11                # 16-byte Reload
	movdqa	%xmm11, %xmm3
	movdqa	-48(%rsp), %xmm9                # 16-byte Reload
	pand	%xmm9, %xmm3
	movdqa	-96(%rsp), %xmm8                # 16-byte Reload
	pxor	%xmm15, %xmm8
	pxor	%xmm15, %xmm3
	movdqa	%xmm8, %xmm1
	movdqa	96(%rsp), %xmm4                 # 16-byte Reload
	pand	%xmm4, %xmm1
	pxor	%xmm1, %xmm3
	pxor	%xmm0, %xmm14
	pxor	%xmm6, %xmm3
	pxor	%xmm0, %xmm3
	movdqa	%xmm12, %xmm15
	pand	%xmm5, %xmm15
	movdqa	%xmm15, %xmm2
	pxor	%xmm14, %xmm2
	movdqa	%xmm3, %xmm1
	pxor	%xmm5, %xmm1
	movdqa	%xmm15, %xmm7
	pxor	%xmm3, %xmm7
	pand	%xmm1, %xmm2
	pxor	%xmm3, %xmm2
	pand	%xmm12, %xmm3
	pxor	%xmm14, %xmm12
	pand	%xmm12, %xmm3
	pand	%xmm12, %xmm7
	pxor	%xmm15, %xmm12
	pxor	%xmm3, %xmm12
	pxor	%xmm14, %xmm7
	movdqa	%xmm12, %xmm3
	pxor	%xmm7, %xmm3
	pand	%xmm3, %xmm9
	movdqa	%xmm9, -48(%rsp)                # 16-byte Spill
	pand	%xmm11, %xmm3
	pand	%xmm7, %xmm4
	movdqa	%xmm4, %xmm11
	movdqa	%xmm7, %xmm13
	pand	%xmm8, %xmm7
	pand	%xmm5, %xmm14
	pandn	%xmm1, %xmm14
	pxor	%xmm15, %xmm14
	pxor	%xmm2, %xmm13
	movdqa	-32(%rsp), %xmm5                # 16-byte Reload
	pand	%xmm12, %xmm5
	movdqa	%xmm5, -32(%rsp)                # 16-byte Spill
	movdqa	-80(%rsp), %xmm1                # 16-byte Reload
	pand	%xmm2, %xmm1
	movdqa	%xmm1, -80(%rsp)                # 16-byte Spill
	movdqa	-96(%rsp), %xmm8                # 16-byte Reload
	pand	%xmm2, %xmm8
	movdqa	64(%rsp), %xmm1                 # 16-byte Reload
	pand	%xmm12, %xmm1
	pxor	%xmm14, %xmm12
	movdqa	-112(%rsp), %xmm0               # 16-byte Reload
	pand	%xmm14, %xmm0
	pxor	%xmm14, %xmm2
	pand	16(%rsp), %xmm14                # 16-byte Folded Reload
	movdqa	-64(%rsp), %xmm15               # 16-byte Reload
	pand	%xmm2, %xmm15
	pand	32(%rsp), %xmm2                 # 16-byte Folded Reload
	pand	%xmm13, %xmm6
	movdqa	%xmm6, -96(%rsp)                # 16-byte Spill
	movdqa	-128(%rsp), %xmm6               # 16-byte Reload
	pand	%xmm13, %xmm6
	pxor	%xmm12, %xmm13
	movdqa	48(%rsp), %xmm4                 # 16-byte Reload
	pand	%xmm13, %xmm4
	pxor	%xmm1, %xmm4
	pxor	%xmm1, %xmm14
	pand	-16(%rsp), %xmm13               # 16-byte Folded Reload
	movdqa	%xmm6, %xmm1
	pxor	%xmm11, %xmm6
	movdqa	%xmm6, -128(%rsp)               # 16-byte Spill
	pxor	%xmm5, %xmm1
	pxor	%xmm9, %xmm1
	pand	%xmm12, %xmm10
	movdqa	%xmm15, %xmm5
	movdqa	%xmm15, %xmm9
	pxor	%xmm7, %xmm5
	pxor	%xmm1, %xmm4
	movdqa	%xmm13, %xmm15
	pxor	%xmm10, %xmm15
	pxor	%xmm15, %xmm1
	movdqa	-112(%rcx), %xmm6
	pxor	%xmm3, %xmm6
	movdqa	%xmm5, %xmm11
	pxor	%xmm1, %xmm11
	movdqa	%xmm11, -16(%rsp)               # 16-byte Spill
	pxor	%xmm1, %xmm9
	movdqa	%xmm9, -64(%rsp)                # 16-byte Spill
	pxor	%xmm3, %xmm1
	pxor	%xmm14, %xmm3
	pxor	-128(%rsp), %xmm3               # 16-byte Folded Reload
	pand	(%rsp), %xmm12                  # 16-byte Folded Reload
	movdqa	-80(%rsp), %xmm9                # 16-byte Reload
	movdqa	%xmm0, %xmm11
	pxor	%xmm9, %xmm11
	movdqa	%xmm11, -112(%rsp)              # 16-byte Spill
	pxor	%xmm8, %xmm11
	pxor	%xmm12, %xmm2
	movdqa	-96(%rsp), %xmm0                # 16-byte Reload
	pxor	-128(%rcx), %xmm0
	pxor	%xmm2, %xmm8
	pxor	%xmm0, %xmm8
	movdqa	%xmm8, -96(%rsp)                # 16-byte Spill
	pxor	%xmm4, %xmm13
	pxor	%xmm6, %xmm13
	pxor	-96(%rcx), %xmm14
	movdqa	-16(%rsp), %xmm8                # 16-byte Reload
	pxor	%xmm14, %xmm8
	pxor	%xmm11, %xmm5
	pxor	%xmm4, %xmm5
	pxor	-80(%rcx), %xmm12
	pxor	%xmm12, %xmm5
	movdqa	%xmm9, %xmm4
	pxor	-64(%rcx), %xmm4
	movdqa	-48(%rsp), %xmm6                # 16-byte Reload
	pxor	-48(%rcx), %xmm6
	movdqa	-64(%rsp), %xmm14               # 16-byte Reload
	pxor	%xmm4, %xmm14
	pxor	%xmm15, %xmm11
	pxor	%xmm3, %xmm11
	pxor	%xmm6, %xmm11
	movdqa	-32(%rsp), %xmm4                # 16-byte Reload
	pxor	-32(%rcx), %xmm4
	movdqa	-112(%rsp), %xmm0               # 16-byte Reload
	pxor	%xmm10, %xmm0
	pxor	%xmm2, %xmm0
	pxor	%xmm3, %xmm0
	pxor	%xmm4, %xmm0
	movdqa	%xmm0, %xmm4
	movdqa	%xmm0, -112(%rsp)               # 16-byte Spill
	pxor	-16(%rcx), %xmm7
	pxor	%xmm7, %xmm1
	movdqa	l_aes_v2_CPI33_0(%rip), %xmm2          # xmm2 = [7,4,5,6,11,8,9,10,15,12,13,14,3,0,1,2]
	movdqa	-96(%rsp), %xmm15               # 16-byte Reload
	movdqa	%xmm15, %xmm6
	pshufb	%xmm2, %xmm6
	movdqa	%xmm13, %xmm10
	pshufb	%xmm2, %xmm10
	movdqa	%xmm8, %xmm7
	movdqa	%xmm8, %xmm3
	pshufb	%xmm2, %xmm3
	movdqa	%xmm5, %xmm0
	pshufb	%xmm2, %xmm0
	movdqa	%xmm14, %xmm8
	pshufb	%xmm2, %xmm8
	movdqa	%xmm11, %xmm12
	pshufb	%xmm2, %xmm12
	movdqa	%xmm4, %xmm9
	pshufb	%xmm2, %xmm9
	movdqa	%xmm1, %xmm4
	pshufb	%xmm2, %xmm4
	movdqa	%xmm15, %xmm2
	pxor	%xmm15, %xmm6
	pxor	%xmm13, %xmm10
	pxor	%xmm7, %xmm3
	pxor	%xmm5, %xmm0
	movdqa	%xmm0, %xmm15
	movdqa	%xmm14, %xmm0
	pxor	%xmm14, %xmm8
	pxor	%xmm11, %xmm12
	movdqa	-112(%rsp), %xmm14              # 16-byte Reload
	pxor	%xmm14, %xmm9
	pxor	%xmm1, %xmm4
	pxor	%xmm4, %xmm2
	movdqa	%xmm2, -96(%rsp)                # 16-byte Spill
	pxor	%xmm4, %xmm13
	pxor	%xmm10, %xmm7
	pxor	%xmm4, %xmm5
	pxor	%xmm3, %xmm5
	pxor	%xmm4, %xmm0
	pxor	%xmm8, %xmm11
	pxor	%xmm12, %xmm14
	pxor	%xmm9, %xmm1
	pxor	%xmm2, %xmm3
	pxor	%xmm1, %xmm3
	pxor	%xmm1, %xmm12
	pxor	%xmm11, %xmm4
	movdqa	%xmm4, -128(%rsp)               # 16-byte Spill
	pxor	%xmm1, %xmm4
	pxor	%xmm14, %xmm1
	pxor	%xmm1, %xmm10
	pxor	%xmm7, %xmm8
	pxor	%xmm1, %xmm8
	pxor	%xmm6, %xmm13
	movdqa	%xmm15, %xmm1
	pxor	%xmm15, %xmm0
	movdqa	%xmm14, -112(%rsp)              # 16-byte Spill
	pxor	%xmm14, %xmm6
	pxor	%xmm13, %xmm1
	pxor	%xmm14, %xmm1
	movdqa	%xmm1, %xmm15
	pxor	%xmm5, %xmm12
	pxor	%xmm0, %xmm9
	movdqa	%xmm0, %xmm2
	movdqa	-96(%rsp), %xmm0                # 16-byte Reload
	pxor	%xmm6, %xmm0
	movdqa	l_aes_v2_CPI33_1(%rip), %xmm14         # xmm14 = [10,11,8,9,14,15,12,13,2,3,0,1,6,7,4,5]
	pshufb	%xmm14, %xmm6
	pxor	%xmm0, %xmm6
	movdqa	%xmm3, %xmm0
	movdqa	%xmm3, %xmm1
	pshufb	%xmm14, %xmm1
	pxor	%xmm10, %xmm13
	pshufb	%xmm14, %xmm10
	pxor	%xmm13, %xmm10
	movdqa	%xmm15, %xmm3
	pshufb	%xmm14, %xmm3
	pxor	%xmm7, %xmm0
	movdqa	%xmm8, %xmm13
	pshufb	%xmm14, %xmm13
	pxor	%xmm1, %xmm0
	movdqa	%xmm0, %xmm7
	movdqa	%xmm12, %xmm1
	pshufb	%xmm14, %xmm1
	movdqa	%xmm14, %xmm0
	pxor	%xmm5, %xmm15
	movdqa	%xmm9, %xmm14
	pshufb	%xmm0, %xmm14
	movdqa	-128(%rsp), %xmm5               # 16-byte Reload
	pshufb	%xmm0, %xmm5
	pxor	%xmm3, %xmm15
	pxor	%xmm2, %xmm8
	pxor	%xmm13, %xmm8
	pxor	%xmm11, %xmm12
	pxor	%xmm1, %xmm12
	pxor	-112(%rsp), %xmm9               # 16-byte Folded Reload
	pxor	%xmm14, %xmm9
	pxor	%xmm5, %xmm4
	movdqa	%xmm12, %xmm1
	pxor	%xmm7, %xmm1
	movdqa	%xmm10, %xmm0
	pxor	%xmm10, %xmm7
	movdqa	%xmm7, %xmm14
	movdqa	%xmm7, -16(%rsp)                # 16-byte Spill
	pxor	%xmm6, %xmm10
	movdqa	%xmm9, %xmm7
	pxor	%xmm4, %xmm7
	movdqa	%xmm8, %xmm2
	pxor	%xmm9, %xmm2
	movdqa	%xmm12, %xmm13
	pxor	%xmm15, %xmm13
	pxor	%xmm9, %xmm0
	pxor	%xmm0, %xmm13
	movdqa	%xmm0, %xmm5
	movdqa	%xmm2, %xmm0
	pxor	%xmm1, %xmm0
	movdqa	%xmm0, -96(%rsp)                # 16-byte Spill
	pxor	%xmm4, %xmm1
	movdqa	%xmm1, %xmm3
	movdqa	%xmm1, -80(%rsp)                # 16-byte Spill
	pxor	%xmm8, %xmm4
	pxor	%xmm15, %xmm8
	movdqa	%xmm8, %xmm1
	pxor	%xmm10, %xmm1
	movdqa	%xmm1, -64(%rsp)                # 16-byte Spill
	por	%xmm13, %xmm1
	movdqa	%xmm8, %xmm11
	pxor	%xmm6, %xmm11
	movdqa	%xmm11, 32(%rsp)                # 16-byte Spill
	movdqa	%xmm2, -48(%rsp)                # 16-byte Spill
	pand	%xmm2, %xmm11
	pxor	%xmm1, %xmm11
	pxor	%xmm4, %xmm9
	movdqa	%xmm4, -128(%rsp)               # 16-byte Spill
	movdqa	%xmm9, %xmm1
	pxor	%xmm15, %xmm1
	movdqa	%xmm1, 48(%rsp)                 # 16-byte Spill
	pxor	%xmm6, %xmm15
	movdqa	%xmm8, %xmm0
	pxor	%xmm14, %xmm0
	pand	%xmm0, %xmm1
	movdqa	%xmm0, -32(%rsp)                # 16-byte Spill
	movdqa	%xmm10, (%rsp)                  # 16-byte Spill
	pxor	%xmm2, %xmm10
	pxor	%xmm15, %xmm5
	movdqa	%xmm5, 16(%rsp)                 # 16-byte Spill
	movdqa	%xmm10, %xmm14
	pand	%xmm3, %xmm14
	pxor	%xmm15, %xmm14
	pxor	%xmm7, %xmm15
	movdqa	%xmm15, %xmm2
	pand	%xmm7, %xmm2
	movdqa	%xmm7, 64(%rsp)                 # 16-byte Spill
	pxor	%xmm15, %xmm0
	movdqa	%xmm15, %xmm6
	pand	%xmm8, %xmm0
	pxor	%xmm0, %xmm1
	pxor	%xmm2, %xmm0
	movdqa	(%rsp), %xmm3                   # 16-byte Reload
	pxor	%xmm7, %xmm3
	movdqa	%xmm3, (%rsp)                   # 16-byte Spill
	movdqa	-96(%rsp), %xmm2                # 16-byte Reload
	pand	%xmm3, %xmm2
	movdqa	%xmm9, %xmm15
	pand	%xmm4, %xmm15
	pxor	%xmm2, %xmm14
	movdqa	-16(%rsp), %xmm3                # 16-byte Reload
	pxor	%xmm6, %xmm3
	movdqa	%xmm3, -16(%rsp)                # 16-byte Spill
	pxor	%xmm3, %xmm15
	pxor	%xmm2, %xmm15
	pxor	%xmm1, %xmm11
	pxor	%xmm1, %xmm15
	movdqa	-64(%rsp), %xmm5                # 16-byte Reload
	movdqa	%xmm5, %xmm7
	pand	%xmm13, %xmm7
	movdqa	%xmm10, -112(%rsp)              # 16-byte Spill
	pxor	%xmm12, %xmm10
	pxor	%xmm12, %xmm7
	movdqa	%xmm10, %xmm1
	movdqa	16(%rsp), %xmm12                # 16-byte Reload
	pand	%xmm12, %xmm1
	pxor	%xmm1, %xmm7
	pxor	%xmm0, %xmm14
	pxor	%xmm8, %xmm7
	pxor	%xmm0, %xmm7
	movdqa	%xmm15, %xmm1
	pand	%xmm11, %xmm1
	movdqa	%xmm1, %xmm3
	pxor	%xmm14, %xmm3
	movdqa	%xmm7, %xmm2
	pxor	%xmm11, %xmm2
	movdqa	%xmm1, %xmm4
	pxor	%xmm7, %xmm4
	pand	%xmm2, %xmm3
	pxor	%xmm7, %xmm3
	pand	%xmm15, %xmm7
	pxor	%xmm14, %xmm15
	pand	%xmm15, %xmm7
	pand	%xmm15, %xmm4
	pxor	%xmm1, %xmm15
	pxor	%xmm7, %xmm15
	pxor	%xmm14, %xmm4
	movdqa	%xmm15, %xmm7
	pxor	%xmm4, %xmm7
	pand	%xmm7, %xmm5
	movdqa	%xmm5, -64(%rsp)                # 16-byte Spill
	pand	%xmm13, %xmm7
	pand	%xmm4, %xmm12
	movdqa	%xmm12, %xmm13
	movdqa	%xmm4, %xmm12
	pand	%xmm10, %xmm4
	pand	%xmm11, %xmm14
	pandn	%xmm2, %xmm14
	pxor	%xmm1, %xmm14
	pxor	%xmm3, %xmm12
	movdqa	-48(%rsp), %xmm10               # 16-byte Reload
	pand	%xmm15, %xmm10
	movdqa	%xmm10, -48(%rsp)               # 16-byte Spill
	movdqa	-80(%rsp), %xmm1                # 16-byte Reload
	pand	%xmm3, %xmm1
	movdqa	%xmm1, -80(%rsp)                # 16-byte Spill
	movdqa	-112(%rsp), %xmm0               # 16-byte Reload
	pand	%xmm3, %xmm0
	movdqa	%xmm0, -112(%rsp)               # 16-byte Spill
	movdqa	32(%rsp), %xmm11                # 16-byte Reload
	pand	%xmm15, %xmm11
	pxor	%xmm14, %xmm15
	movdqa	-128(%rsp), %xmm0               # 16-byte Reload
	pand	%xmm14, %xmm0
	movdqa	%xmm0, -128(%rsp)               # 16-byte Spill
	pxor	%xmm14, %xmm3
	pand	%xmm9, %xmm14
	movdqa	-96(%rsp), %xmm0                # 16-byte Reload
	pand	%xmm3, %xmm0
	pand	(%rsp), %xmm3                   # 16-byte Folded Reload
	pand	%xmm12, %xmm8
	movdqa	%xmm8, (%rsp)                   # 16-byte Spill
	movdqa	-16(%rsp), %xmm1                # 16-byte Reload
	pand	%xmm12, %xmm1
	pxor	%xmm15, %xmm12
	movdqa	-32(%rsp), %xmm2                # 16-byte Reload
	pand	%xmm12, %xmm2
	pxor	%xmm11, %xmm2
	movdqa	%xmm2, %xmm8
	pxor	%xmm11, %xmm14
	pand	48(%rsp), %xmm12                # 16-byte Folded Reload
	movdqa	%xmm1, %xmm9
	pxor	%xmm13, %xmm1
	movdqa	%xmm1, %xmm2
	pxor	%xmm10, %xmm9
	pxor	-64(%rsp), %xmm9                # 16-byte Folded Reload
	pand	%xmm15, %xmm6
	movdqa	%xmm0, %xmm13
	pxor	%xmm4, %xmm13
	pxor	%xmm9, %xmm8
	movdqa	%xmm8, -32(%rsp)                # 16-byte Spill
	movdqa	%xmm12, %xmm1
	pxor	%xmm6, %xmm1
	pxor	%xmm1, %xmm9
	movdqa	-240(%rcx), %xmm10
	pxor	%xmm7, %xmm10
	movdqa	%xmm13, %xmm5
	pxor	%xmm9, %xmm5
	movdqa	%xmm5, -16(%rsp)                # 16-byte Spill
	pxor	%xmm9, %xmm0
	movdqa	%xmm0, -96(%rsp)                # 16-byte Spill
	pxor	%xmm7, %xmm9
	pxor	%xmm14, %xmm7
	pxor	%xmm2, %xmm7
	pand	64(%rsp), %xmm15                # 16-byte Folded Reload
	movdqa	-80(%rsp), %xmm8                # 16-byte Reload
	movdqa	-128(%rsp), %xmm2               # 16-byte Reload
	pxor	%xmm8, %xmm2
	movdqa	%xmm2, -128(%rsp)               # 16-byte Spill
	movdqa	-112(%rsp), %xmm11              # 16-byte Reload
	pxor	%xmm11, %xmm2
	pxor	%xmm15, %xmm3
	movdqa	(%rsp), %xmm0                   # 16-byte Reload
	pxor	-256(%rcx), %xmm0
	pxor	%xmm3, %xmm11
	pxor	%xmm0, %xmm11
	movdqa	-32(%rsp), %xmm0                # 16-byte Reload
	pxor	%xmm0, %xmm12
	pxor	%xmm10, %xmm12
	pxor	-224(%rcx), %xmm14
	movdqa	-16(%rsp), %xmm10               # 16-byte Reload
	pxor	%xmm14, %xmm10
	pxor	-208(%rcx), %xmm15
	pxor	%xmm2, %xmm13
	pxor	%xmm0, %xmm13
	pxor	%xmm15, %xmm13
	pxor	-192(%rcx), %xmm8
	movdqa	-96(%rsp), %xmm5                # 16-byte Reload
	pxor	%xmm8, %xmm5
	movdqa	-64(%rsp), %xmm8                # 16-byte Reload
	pxor	-176(%rcx), %xmm8
	pxor	%xmm1, %xmm2
	pxor	%xmm7, %xmm2
	pxor	%xmm8, %xmm2
	movdqa	-48(%rsp), %xmm1                # 16-byte Reload
	pxor	-160(%rcx), %xmm1
	movdqa	-128(%rsp), %xmm0               # 16-byte Reload
	pxor	%xmm6, %xmm0
	pxor	%xmm3, %xmm0
	pxor	%xmm7, %xmm0
	pxor	%xmm1, %xmm0
	movdqa	%xmm0, -128(%rsp)               # 16-byte Spill
	pxor	-144(%rcx), %xmm4
	pxor	%xmm4, %xmm9
	movdqa	l_aes_v2_CPI33_2(%rip), %xmm1          # xmm1 = [6,7,4,5,10,11,8,9,14,15,12,13,2,3,0,1]
	movdqa	%xmm11, %xmm6
	movdqa	%xmm11, -112(%rsp)              # 16-byte Spill
	movdqa	%xmm11, %xmm14
	pshufb	%xmm1, %xmm14
	movdqa	%xmm12, %xmm0
	pshufb	%xmm1, %xmm0
	movdqa	%xmm10, %xmm3
	movdqa	%xmm10, %xmm8
	pshufb	%xmm1, %xmm8
	movdqa	%xmm13, %xmm11
	pshufb	%xmm1, %xmm11
	movdqa	%xmm5, %xmm7
	movdqa	%xmm5, %xmm15
	pshufb	%xmm1, %xmm7
	movdqa	%xmm2, %xmm4
	pshufb	%xmm1, %xmm4
	movdqa	%xmm4, (%rsp)                   # 16-byte Spill
	movdqa	-128(%rsp), %xmm4               # 16-byte Reload
	movdqa	%xmm4, %xmm10
	pshufb	%xmm1, %xmm10
	movdqa	%xmm9, %xmm5
	pshufb	%xmm1, %xmm5
	pxor	%xmm6, %xmm14
	pxor	%xmm12, %xmm0
	pxor	%xmm3, %xmm8
	pxor	%xmm13, %xmm11
	pxor	%xmm15, %xmm7
	movdqa	(%rsp), %xmm6                   # 16-byte Reload
	pxor	%xmm2, %xmm6
	pxor	%xmm4, %xmm10
	movdqa	%xmm4, %xmm1
	pxor	%xmm9, %xmm5
	movdqa	-112(%rsp), %xmm4               # 16-byte Reload
	pxor	%xmm5, %xmm4
	pxor	%xmm5, %xmm12
	pxor	%xmm0, %xmm3
	pxor	%xmm5, %xmm13
	pxor	%xmm8, %xmm13
	pxor	%xmm5, %xmm15
	pxor	%xmm7, %xmm2
	pxor	%xmm6, %xmm1
	movdqa	%xmm1, -128(%rsp)               # 16-byte Spill
	pxor	%xmm10, %xmm9
	pxor	%xmm4, %xmm8
	pxor	%xmm9, %xmm8
	pxor	%xmm9, %xmm6
	pxor	%xmm2, %xmm5
	pshufd	$78, %xmm5, %xmm1               # xmm1 = xmm5[2,3,0,1]
	movdqa	%xmm1, -112(%rsp)               # 16-byte Spill
	pxor	%xmm9, %xmm5
	movdqa	-128(%rsp), %xmm1               # 16-byte Reload
	pxor	%xmm1, %xmm9
	pxor	%xmm9, %xmm0
	pxor	%xmm3, %xmm7
	pxor	%xmm9, %xmm7
	pxor	%xmm14, %xmm12
	pxor	%xmm1, %xmm14
	pshufd	$78, %xmm14, %xmm9              # xmm9 = xmm14[2,3,0,1]
	pxor	%xmm4, %xmm14
	pxor	%xmm11, %xmm15
	pxor	%xmm12, %xmm11
	pxor	%xmm1, %xmm11
	pxor	%xmm13, %xmm6
	pxor	%xmm15, %xmm10
	pxor	%xmm9, %xmm14
	pshufd	$78, %xmm0, %xmm9               # xmm9 = xmm0[2,3,0,1]
	pxor	%xmm12, %xmm0
	pshufd	$78, %xmm8, %xmm12              # xmm12 = xmm8[2,3,0,1]
	pxor	%xmm9, %xmm0
	pshufd	$78, %xmm11, %xmm9              # xmm9 = xmm11[2,3,0,1]
	pxor	%xmm3, %xmm8
	pshufd	$78, %xmm7, %xmm3               # xmm3 = xmm7[2,3,0,1]
	pxor	%xmm12, %xmm8
	pshufd	$78, %xmm6, %xmm12              # xmm12 = xmm6[2,3,0,1]
	pxor	%xmm13, %xmm11
	pshufd	$78, %xmm10, %xmm4              # xmm4 = xmm10[2,3,0,1]
	pxor	%xmm9, %xmm11
	pxor	%xmm15, %xmm7
	pxor	%xmm3, %xmm7
	pxor	%xmm2, %xmm6
	pxor	%xmm12, %xmm6
	pxor	%xmm1, %xmm10
	pxor	%xmm4, %xmm10
	pxor	-112(%rsp), %xmm5               # 16-byte Folded Reload
	movdqa	%xmm6, %xmm1
	movdqa	%xmm6, (%rsp)                   # 16-byte Spill
	pxor	%xmm8, %xmm1
	movdqa	%xmm0, %xmm4
	pxor	%xmm0, %xmm8
	movdqa	%xmm0, %xmm9
	pxor	%xmm14, %xmm9
	movdqa	%xmm10, %xmm13
	pxor	%xmm5, %xmm13
	movdqa	%xmm7, %xmm3
	pxor	%xmm10, %xmm3
	pxor	%xmm11, %xmm6
	pxor	%xmm10, %xmm4
	pxor	%xmm4, %xmm6
	movdqa	%xmm4, %xmm15
	movdqa	%xmm3, %xmm0
	movdqa	%xmm3, -32(%rsp)                # 16-byte Spill
	movdqa	%xmm1, %xmm2
	pxor	%xmm1, %xmm0
	movdqa	%xmm0, -96(%rsp)                # 16-byte Spill
	pxor	%xmm5, %xmm2
	movdqa	%xmm2, -64(%rsp)                # 16-byte Spill
	pxor	%xmm7, %xmm5
	pxor	%xmm11, %xmm7
	movdqa	%xmm7, %xmm0
	pxor	%xmm9, %xmm0
	movdqa	%xmm0, -128(%rsp)               # 16-byte Spill
	por	%xmm6, %xmm0
	movdqa	%xmm6, %xmm12
	movdqa	%xmm7, %xmm4
	pxor	%xmm14, %xmm4
	movdqa	%xmm4, 48(%rsp)                 # 16-byte Spill
	pand	%xmm3, %xmm4
	pxor	%xmm0, %xmm4
	movdqa	%xmm10, %xmm6
	pxor	%xmm5, %xmm6
	movdqa	%xmm6, %xmm1
	movdqa	%xmm6, 16(%rsp)                 # 16-byte Spill
	pxor	%xmm11, %xmm1
	movdqa	%xmm1, 64(%rsp)                 # 16-byte Spill
	pxor	%xmm14, %xmm11
	movdqa	%xmm7, %xmm0
	pxor	%xmm8, %xmm0
	pand	%xmm0, %xmm1
	movdqa	%xmm0, 32(%rsp)                 # 16-byte Spill
	movdqa	%xmm9, %xmm14
	movdqa	%xmm9, -48(%rsp)                # 16-byte Spill
	pxor	%xmm3, %xmm14
	pxor	%xmm11, %xmm15
	movdqa	%xmm15, %xmm3
	movdqa	%xmm14, %xmm15
	movdqa	%xmm14, -112(%rsp)              # 16-byte Spill
	pand	%xmm2, %xmm15
	pxor	%xmm11, %xmm15
	movdqa	%xmm13, %xmm10
	pxor	%xmm13, %xmm11
	movdqa	%xmm11, %xmm2
	pand	%xmm13, %xmm2
	movdqa	%xmm13, -16(%rsp)               # 16-byte Spill
	pxor	%xmm11, %xmm0
	movdqa	%xmm11, -80(%rsp)               # 16-byte Spill
	pand	%xmm7, %xmm0
	movdqa	%xmm7, %xmm13
	pxor	%xmm0, %xmm1
	pxor	%xmm2, %xmm0
	movdqa	-48(%rsp), %xmm9                # 16-byte Reload
	pxor	%xmm10, %xmm9
	movdqa	%xmm9, -48(%rsp)                # 16-byte Spill
	movdqa	-96(%rsp), %xmm2                # 16-byte Reload
	pand	%xmm9, %xmm2
	movdqa	%xmm6, %xmm9
	pand	%xmm5, %xmm9
	pxor	%xmm2, %xmm15
	pxor	%xmm11, %xmm8
	pxor	%xmm8, %xmm9
	movdqa	%xmm8, %xmm7
	pxor	%xmm2, %xmm9
	pxor	%xmm1, %xmm4
	pxor	%xmm1, %xmm9
	movdqa	-128(%rsp), %xmm2               # 16-byte Reload
	pand	%xmm12, %xmm2
	movdqa	%xmm14, %xmm11
	movdqa	(%rsp), %xmm1                   # 16-byte Reload
	pxor	%xmm1, %xmm11
	pxor	%xmm1, %xmm2
	movdqa	%xmm11, %xmm1
	pand	%xmm3, %xmm1
	pxor	%xmm1, %xmm2
	pxor	%xmm0, %xmm15
	pxor	%xmm13, %xmm2
	pxor	%xmm0, %xmm2
	movdqa	%xmm9, %xmm0
	pand	%xmm4, %xmm0
	movdqa	%xmm0, %xmm14
	pxor	%xmm15, %xmm14
	movdqa	%xmm2, %xmm10
	pxor	%xmm4, %xmm10
	movdqa	%xmm0, %xmm1
	pxor	%xmm2, %xmm1
	pand	%xmm10, %xmm14
	pxor	%xmm2, %xmm14
	pand	%xmm9, %xmm2
	pxor	%xmm15, %xmm9
	pand	%xmm9, %xmm2
	pand	%xmm9, %xmm1
	pxor	%xmm0, %xmm9
	pxor	%xmm2, %xmm9
	pxor	%xmm15, %xmm1
	movdqa	%xmm9, %xmm2
	pxor	%xmm1, %xmm2
	movdqa	-128(%rsp), %xmm6               # 16-byte Reload
	pand	%xmm2, %xmm6
	movdqa	%xmm6, -128(%rsp)               # 16-byte Spill
	pand	%xmm12, %xmm2
	pand	%xmm1, %xmm3
	movdqa	%xmm1, %xmm12
	pand	%xmm11, %xmm1
	pand	%xmm4, %xmm15
	pandn	%xmm10, %xmm15
	pxor	%xmm0, %xmm15
	pxor	%xmm14, %xmm12
	movdqa	-32(%rsp), %xmm10               # 16-byte Reload
	pand	%xmm9, %xmm10
	movdqa	%xmm10, -32(%rsp)               # 16-byte Spill
	movdqa	-64(%rsp), %xmm4                # 16-byte Reload
	pand	%xmm14, %xmm4
	movdqa	%xmm4, -64(%rsp)                # 16-byte Spill
	movdqa	-112(%rsp), %xmm4               # 16-byte Reload
	pand	%xmm14, %xmm4
	movdqa	%xmm4, -112(%rsp)               # 16-byte Spill
	movdqa	48(%rsp), %xmm11                # 16-byte Reload
	pand	%xmm9, %xmm11
	pxor	%xmm15, %xmm9
	pand	%xmm15, %xmm5
	pxor	%xmm15, %xmm14
	pand	16(%rsp), %xmm15                # 16-byte Folded Reload
	movdqa	-96(%rsp), %xmm4                # 16-byte Reload
	pand	%xmm14, %xmm4
	pand	-48(%rsp), %xmm14               # 16-byte Folded Reload
	pand	%xmm12, %xmm13
	pand	%xmm12, %xmm7
	pxor	%xmm9, %xmm12
	movdqa	32(%rsp), %xmm0                 # 16-byte Reload
	pand	%xmm12, %xmm0
	pxor	%xmm11, %xmm0
	pxor	%xmm11, %xmm15
	pand	64(%rsp), %xmm12                # 16-byte Folded Reload
	movdqa	%xmm7, %xmm6
	pxor	%xmm3, %xmm7
	pxor	%xmm10, %xmm6
	pxor	-128(%rsp), %xmm6               # 16-byte Folded Reload
	movdqa	-80(%rsp), %xmm3                # 16-byte Reload
	pand	%xmm9, %xmm3
	movdqa	%xmm3, -80(%rsp)                # 16-byte Spill
	movdqa	%xmm4, %xmm11
	movdqa	%xmm4, %xmm8
	pxor	%xmm1, %xmm11
	pxor	%xmm6, %xmm0
	movdqa	%xmm12, %xmm4
	pxor	%xmm3, %xmm4
	movdqa	%xmm4, -48(%rsp)                # 16-byte Spill
	pxor	%xmm4, %xmm6
	movdqa	-368(%rcx), %xmm10
	pxor	%xmm2, %xmm10
	movdqa	%xmm11, %xmm3
	pxor	%xmm6, %xmm3
	movdqa	%xmm3, -96(%rsp)                # 16-byte Spill
	pxor	%xmm6, %xmm8
	movdqa	%xmm8, %xmm3
	pxor	%xmm2, %xmm6
	pxor	%xmm15, %xmm2
	pxor	%xmm7, %xmm2
	pand	-16(%rsp), %xmm9                # 16-byte Folded Reload
	movdqa	-64(%rsp), %xmm7                # 16-byte Reload
	pxor	%xmm7, %xmm5
	movdqa	%xmm5, %xmm4
	movdqa	-112(%rsp), %xmm8               # 16-byte Reload
	pxor	%xmm8, %xmm4
	pxor	%xmm9, %xmm14
	pxor	-384(%rcx), %xmm13
	pxor	%xmm14, %xmm8
	pxor	%xmm13, %xmm8
	movdqa	%xmm8, -112(%rsp)               # 16-byte Spill
	pxor	%xmm0, %xmm12
	pxor	%xmm10, %xmm12
	pxor	-352(%rcx), %xmm15
	movdqa	-96(%rsp), %xmm13               # 16-byte Reload
	pxor	%xmm15, %xmm13
	pxor	-336(%rcx), %xmm9
	pxor	%xmm4, %xmm11
	pxor	%xmm0, %xmm11
	pxor	%xmm9, %xmm11
	movdqa	%xmm11, %xmm0
	pxor	-320(%rcx), %xmm7
	pxor	%xmm7, %xmm3
	movdqa	%xmm3, -96(%rsp)                # 16-byte Spill
	movdqa	-128(%rsp), %xmm7               # 16-byte Reload
	pxor	-304(%rcx), %xmm7
	pxor	-48(%rsp), %xmm4                # 16-byte Folded Reload
	pxor	%xmm2, %xmm4
	pxor	%xmm7, %xmm4
	movdqa	-32(%rsp), %xmm7                # 16-byte Reload
	pxor	-288(%rcx), %xmm7
	pxor	-80(%rsp), %xmm5                # 16-byte Folded Reload
	pxor	%xmm14, %xmm5
	pxor	%xmm2, %xmm5
	pxor	%xmm7, %xmm5
	movdqa	%xmm5, %xmm15
	pxor	-272(%rcx), %xmm1
	pxor	%xmm1, %xmm6
	movdqa	%xmm8, %xmm7
	movdqa	l_aes_v2_CPI33_3(%rip), %xmm9          # xmm9 = [5,6,7,4,9,10,11,8,13,14,15,12,1,2,3,0]
	pshufb	%xmm9, %xmm7
	movdqa	%xmm12, %xmm5
	pshufb	%xmm9, %xmm5
	movdqa	%xmm13, %xmm11
	movdqa	%xmm13, %xmm8
	pshufb	%xmm9, %xmm11
	movdqa	%xmm0, %xmm14
	movdqa	%xmm0, %xmm1
	pshufb	%xmm9, %xmm1
	pshufb	%xmm9, %xmm3
	movdqa	%xmm4, %xmm13
	pshufb	%xmm9, %xmm13
	movdqa	%xmm15, %xmm10
	pshufb	%xmm9, %xmm10
	movdqa	%xmm6, %xmm2
	pshufb	%xmm9, %xmm2
	movdqa	-112(%rsp), %xmm0               # 16-byte Reload
	pxor	%xmm0, %xmm7
	pxor	%xmm12, %xmm5
	pxor	%xmm8, %xmm11
	pxor	%xmm14, %xmm1
	movdqa	%xmm1, -128(%rsp)               # 16-byte Spill
	movdqa	-96(%rsp), %xmm9                # 16-byte Reload
	pxor	%xmm9, %xmm3
	pxor	%xmm4, %xmm13
	movdqa	%xmm15, %xmm1
	pxor	%xmm15, %xmm10
	pxor	%xmm6, %xmm2
	pxor	%xmm2, %xmm0
	movdqa	%xmm0, %xmm15
	pxor	%xmm2, %xmm12
	pxor	%xmm5, %xmm8
	pxor	%xmm2, %xmm14
	pxor	%xmm11, %xmm14
	pxor	%xmm2, %xmm9
	movdqa	%xmm9, %xmm0
	pxor	%xmm3, %xmm4
	pxor	%xmm13, %xmm1
	pxor	%xmm10, %xmm6
	pxor	%xmm15, %xmm11
	movdqa	%xmm15, %xmm9
	pxor	%xmm6, %xmm11
	movdqa	%xmm11, -112(%rsp)              # 16-byte Spill
	pxor	%xmm6, %xmm13
	pxor	%xmm4, %xmm2
	movdqa	%xmm2, -96(%rsp)                # 16-byte Spill
	pxor	%xmm6, %xmm2
	movdqa	%xmm1, -64(%rsp)                # 16-byte Spill
	pxor	%xmm1, %xmm6
	pxor	%xmm6, %xmm5
	pxor	%xmm8, %xmm3
	movdqa	%xmm8, %xmm15
	pxor	%xmm6, %xmm3
	pxor	%xmm7, %xmm12
	movdqa	%xmm0, %xmm6
	movdqa	-128(%rsp), %xmm0               # 16-byte Reload
	pxor	%xmm0, %xmm6
	pxor	%xmm1, %xmm7
	pxor	%xmm12, %xmm0
	pxor	%xmm1, %xmm0
	pxor	%xmm14, %xmm13
	pxor	%xmm6, %xmm10
	movdqa	%xmm6, %xmm1
	pxor	%xmm7, %xmm9
	movdqa	l_aes_v2_CPI33_1(%rip), %xmm11         # xmm11 = [10,11,8,9,14,15,12,13,2,3,0,1,6,7,4,5]
	pshufb	%xmm11, %xmm7
	pxor	%xmm9, %xmm7
	movdqa	-112(%rsp), %xmm8               # 16-byte Reload
	movdqa	%xmm8, %xmm6
	pshufb	%xmm11, %xmm6
	pxor	%xmm5, %xmm12
	pshufb	%xmm11, %xmm5
	pxor	%xmm12, %xmm5
	movdqa	%xmm0, %xmm9
	pshufb	%xmm11, %xmm9
	pxor	%xmm15, %xmm8
	movdqa	%xmm8, %xmm12
	movdqa	%xmm3, %xmm8
	pshufb	%xmm11, %xmm8
	pxor	%xmm6, %xmm12
	movdqa	%xmm12, %xmm15
	movdqa	%xmm13, %xmm6
	pshufb	%xmm11, %xmm6
	movdqa	%xmm11, %xmm12
	pxor	%xmm14, %xmm0
	movdqa	%xmm10, %xmm11
	pshufb	%xmm12, %xmm11
	movdqa	-96(%rsp), %xmm14               # 16-byte Reload
	pshufb	%xmm12, %xmm14
	pxor	%xmm9, %xmm0
	pxor	%xmm1, %xmm3
	pxor	%xmm8, %xmm3
	pxor	%xmm4, %xmm13
	pxor	%xmm6, %xmm13
	pxor	-64(%rsp), %xmm10               # 16-byte Folded Reload
	pxor	%xmm11, %xmm10
	movdqa	%xmm10, %xmm8
	pxor	%xmm14, %xmm2
	movdqa	%xmm13, %xmm4
	movdqa	%xmm15, %xmm1
	pxor	%xmm15, %xmm4
	pxor	%xmm5, %xmm1
	movdqa	%xmm1, -112(%rsp)               # 16-byte Spill
	movdqa	%xmm5, %xmm12
	pxor	%xmm7, %xmm12
	movdqa	%xmm10, %xmm14
	pxor	%xmm2, %xmm14
	movdqa	%xmm3, %xmm1
	pxor	%xmm10, %xmm1
	movdqa	%xmm13, %xmm6
	pxor	%xmm0, %xmm6
	pxor	%xmm10, %xmm5
	pxor	%xmm5, %xmm6
	movdqa	%xmm6, %xmm10
	movdqa	%xmm6, 80(%rsp)                 # 16-byte Spill
	movdqa	%xmm5, %xmm9
	movdqa	%xmm1, %xmm5
	movdqa	%xmm1, %xmm6
	pxor	%xmm4, %xmm5
	movdqa	%xmm5, -48(%rsp)                # 16-byte Spill
	pxor	%xmm2, %xmm4
	movdqa	%xmm4, 32(%rsp)                 # 16-byte Spill
	pxor	%xmm3, %xmm2
	pxor	%xmm0, %xmm3
	movdqa	%xmm3, %xmm5
	pxor	%xmm12, %xmm5
	movdqa	%xmm5, %xmm1
	por	%xmm10, %xmm1
	movdqa	%xmm3, %xmm15
	pxor	%xmm7, %xmm15
	movdqa	%xmm15, 64(%rsp)                # 16-byte Spill
	movdqa	%xmm6, -64(%rsp)                # 16-byte Spill
	pand	%xmm6, %xmm15
	pxor	%xmm1, %xmm15
	movdqa	%xmm8, %xmm10
	pxor	%xmm2, %xmm10
	movdqa	%xmm10, %xmm1
	movdqa	%xmm10, 16(%rsp)                # 16-byte Spill
	movdqa	%xmm0, %xmm11
	pxor	%xmm0, %xmm1
	movdqa	%xmm1, -16(%rsp)                # 16-byte Spill
	pxor	%xmm7, %xmm11
	movdqa	%xmm3, %xmm0
	movdqa	-112(%rsp), %xmm7               # 16-byte Reload
	pxor	%xmm7, %xmm0
	pand	%xmm0, %xmm1
	movdqa	%xmm0, %xmm8
	movdqa	%xmm0, 48(%rsp)                 # 16-byte Spill
	movdqa	%xmm12, -80(%rsp)               # 16-byte Spill
	pxor	%xmm6, %xmm12
	pxor	%xmm11, %xmm9
	movdqa	%xmm9, -32(%rsp)                # 16-byte Spill
	movdqa	%xmm12, %xmm0
	movdqa	%xmm12, -96(%rsp)               # 16-byte Spill
	pand	%xmm4, %xmm0
	pxor	%xmm11, %xmm0
	pxor	%xmm14, %xmm11
	movdqa	%xmm11, %xmm9
	movdqa	%xmm11, -128(%rsp)              # 16-byte Spill
	movdqa	-48(%rsp), %xmm11               # 16-byte Reload
	movdqa	%xmm9, %xmm6
	pand	%xmm14, %xmm6
	movdqa	%xmm14, (%rsp)                  # 16-byte Spill
	movdqa	%xmm8, %xmm4
	pxor	%xmm9, %xmm4
	pand	%xmm3, %xmm4
	pxor	%xmm4, %xmm1
	pxor	%xmm6, %xmm4
	movdqa	-80(%rsp), %xmm6                # 16-byte Reload
	pxor	%xmm14, %xmm6
	movdqa	%xmm6, -80(%rsp)                # 16-byte Spill
	movdqa	%xmm11, %xmm9
	pand	%xmm6, %xmm9
	movdqa	%xmm10, %xmm6
	pand	%xmm2, %xmm6
	pxor	%xmm9, %xmm0
	pxor	-128(%rsp), %xmm7               # 16-byte Folded Reload
	movdqa	%xmm7, -112(%rsp)               # 16-byte Spill
	pxor	%xmm7, %xmm6
	pxor	%xmm9, %xmm6
	pxor	%xmm1, %xmm15
	pxor	%xmm1, %xmm6
	movdqa	%xmm5, %xmm1
	movdqa	80(%rsp), %xmm10                # 16-byte Reload
	pand	%xmm10, %xmm1
	pxor	%xmm13, %xmm12
	pxor	%xmm13, %xmm1
	movdqa	%xmm12, %xmm9
	movdqa	%xmm12, %xmm7
	movdqa	-32(%rsp), %xmm8                # 16-byte Reload
	pand	%xmm8, %xmm9
	pxor	%xmm9, %xmm1
	pxor	%xmm4, %xmm0
	pxor	%xmm3, %xmm1
	pxor	%xmm4, %xmm1
	movdqa	%xmm6, %xmm13
	pand	%xmm15, %xmm13
	movdqa	%xmm13, %xmm4
	pxor	%xmm0, %xmm4
	movdqa	%xmm1, %xmm9
	pxor	%xmm15, %xmm9
	movdqa	%xmm13, %xmm14
	pxor	%xmm1, %xmm14
	pand	%xmm9, %xmm4
	pxor	%xmm1, %xmm4
	pand	%xmm6, %xmm1
	pxor	%xmm0, %xmm6
	pand	%xmm6, %xmm1
	pand	%xmm6, %xmm14
	pxor	%xmm13, %xmm6
	pxor	%xmm1, %xmm6
	pxor	%xmm0, %xmm14
	movdqa	%xmm6, %xmm12
	pxor	%xmm14, %xmm12
	pand	%xmm12, %xmm5
	movdqa	%xmm5, 96(%rsp)                 # 16-byte Spill
	pand	%xmm10, %xmm12
	pand	%xmm14, %xmm8
	movdqa	%xmm8, -32(%rsp)                # 16-byte Spill
	movdqa	%xmm14, %xmm8
	pand	%xmm7, %xmm14
	pand	%xmm15, %xmm0
	pandn	%xmm9, %xmm0
	pxor	%xmm13, %xmm0
	pxor	%xmm4, %xmm8
	movdqa	-64(%rsp), %xmm15               # 16-byte Reload
	pand	%xmm6, %xmm15
	movdqa	%xmm15, -64(%rsp)               # 16-byte Spill
	movdqa	32(%rsp), %xmm10                # 16-byte Reload
	pand	%xmm4, %xmm10
	movdqa	-96(%rsp), %xmm1                # 16-byte Reload
	pand	%xmm4, %xmm1
	movdqa	%xmm1, -96(%rsp)                # 16-byte Spill
	movdqa	64(%rsp), %xmm1                 # 16-byte Reload
	pand	%xmm6, %xmm1
	pxor	%xmm0, %xmm6
	pand	%xmm0, %xmm2
	pxor	%xmm0, %xmm4
	pand	16(%rsp), %xmm0                 # 16-byte Folded Reload
	pand	%xmm4, %xmm11
	pand	-80(%rsp), %xmm4                # 16-byte Folded Reload
	pand	%xmm8, %xmm3
	movdqa	-112(%rsp), %xmm13              # 16-byte Reload
	pand	%xmm8, %xmm13
	pxor	%xmm6, %xmm8
	movdqa	48(%rsp), %xmm7                 # 16-byte Reload
	pand	%xmm8, %xmm7
	pxor	%xmm1, %xmm7
	pxor	%xmm1, %xmm0
	pand	-16(%rsp), %xmm8                # 16-byte Folded Reload
	movdqa	-128(%rsp), %xmm1               # 16-byte Reload
	pand	%xmm6, %xmm1
	movdqa	%xmm1, -128(%rsp)               # 16-byte Spill
	pand	(%rsp), %xmm6                   # 16-byte Folded Reload
	movdqa	%xmm12, %xmm9
	pxor	%xmm14, %xmm9
	movdqa	%xmm13, %xmm1
	pxor	%xmm15, %xmm13
	pxor	%xmm5, %xmm13
	movdqa	%xmm11, %xmm5
	pxor	%xmm11, %xmm14
	pxor	%xmm13, %xmm7
	pxor	%xmm10, %xmm5
	movdqa	%xmm8, %xmm15
	pxor	-128(%rsp), %xmm15              # 16-byte Folded Reload
	pxor	%xmm15, %xmm13
	pxor	%xmm6, %xmm4
	pxor	%xmm14, %xmm6
	pxor	%xmm0, %xmm14
	pxor	%xmm13, %xmm14
	pxor	%xmm13, %xmm5
	movdqa	%xmm5, %xmm11
	movdqa	96(%rsp), %xmm5                 # 16-byte Reload
	pxor	%xmm9, %xmm13
	pxor	%xmm10, %xmm2
	pxor	-32(%rsp), %xmm1                # 16-byte Folded Reload
	pxor	%xmm12, %xmm8
	pxor	%xmm12, %xmm0
	pxor	%xmm1, %xmm0
	movdqa	-96(%rsp), %xmm1                # 16-byte Reload
	pxor	%xmm1, %xmm3
	pxor	%xmm2, %xmm1
	pxor	%xmm1, %xmm5
	pxor	%xmm15, %xmm5
	pxor	%xmm1, %xmm6
	pxor	%xmm7, %xmm8
	pxor	%xmm7, %xmm6
	pxor	-64(%rsp), %xmm2                # 16-byte Folded Reload
	pxor	-128(%rsp), %xmm2               # 16-byte Folded Reload
	pxor	%xmm4, %xmm3
	pxor	%xmm4, %xmm2
	pxor	%xmm0, %xmm5
	pxor	%xmm0, %xmm2
	addq	$-512, %rcx                     # imm = 0xFE00
	decq	%rax
	jne	Laes_v2_BB33_5
Laes_v2_BB33_6:                               # %after.6
	pxor	(%rdi), %xmm3
	pxor	16(%rdi), %xmm8
	pxor	32(%rdi), %xmm14
	pxor	48(%rdi), %xmm6
	pxor	64(%rdi), %xmm11
	pxor	80(%rdi), %xmm5
	pxor	96(%rdi), %xmm2
	pxor	112(%rdi), %xmm13
	movdqu	%xmm3, (%rdx)
	movdqu	%xmm8, 16(%rdx)
	movdqu	%xmm14, 32(%rdx)
	movdqu	%xmm6, 48(%rdx)
	movdqu	%xmm11, 64(%rdx)
	movdqu	%xmm5, 80(%rdx)
	movdqu	%xmm2, 96(%rdx)
	movdqu	%xmm13, 112(%rdx)
	addq	$136, %rsp
	retq
                                        # -- End function
	.section	__TEXT,__const
	.p2align	4, 0x0                          # -- Begin function aes_permute::blocks::process_on_lanes::<#e7683a4e90f73162>
l_aes_v2_CPI34_0:
	.zero	16,15
l_aes_v2_CPI34_1:
	.byte	0                               # 0x0
	.byte	181                             # 0xb5
	.byte	220                             # 0xdc
	.byte	105                             # 0x69
	.byte	219                             # 0xdb
	.byte	110                             # 0x6e
	.byte	7                               # 0x7
	.byte	178                             # 0xb2
	.byte	20                              # 0x14
	.byte	161                             # 0xa1
	.byte	200                             # 0xc8
	.byte	125                             # 0x7d
	.byte	207                             # 0xcf
	.byte	122                             # 0x7a
	.byte	19                              # 0x13
	.byte	166                             # 0xa6
l_aes_v2_CPI34_2:
	.byte	0                               # 0x0
	.byte	167                             # 0xa7
	.byte	168                             # 0xa8
	.byte	15                              # 0xf
	.byte	237                             # 0xed
	.byte	74                              # 0x4a
	.byte	69                              # 0x45
	.byte	226                             # 0xe2
	.byte	209                             # 0xd1
	.byte	118                             # 0x76
	.byte	121                             # 0x79
	.byte	222                             # 0xde
	.byte	60                              # 0x3c
	.byte	155                             # 0x9b
	.byte	148                             # 0x94
	.byte	51                              # 0x33
l_aes_v2_CPI34_3:
	.byte	128                             # 0x80
	.byte	2                               # 0x2
	.byte	1                               # 0x1
	.byte	15                              # 0xf
	.byte	9                               # 0x9
	.byte	5                               # 0x5
	.byte	14                              # 0xe
	.byte	12                              # 0xc
	.byte	13                              # 0xd
	.byte	4                               # 0x4
	.byte	11                              # 0xb
	.byte	10                              # 0xa
	.byte	7                               # 0x7
	.byte	8                               # 0x8
	.byte	6                               # 0x6
	.byte	3                               # 0x3
l_aes_v2_CPI34_4:
	.byte	128                             # 0x80
	.byte	1                               # 0x1
	.byte	9                               # 0x9
	.byte	14                              # 0xe
	.byte	13                              # 0xd
	.byte	11                              # 0xb
	.byte	7                               # 0x7
	.byte	6                               # 0x6
	.byte	15                              # 0xf
	.byte	2                               # 0x2
	.byte	12                              # 0xc
	.byte	5                               # 0x5
	.byte	10                              # 0xa
	.byte	4                               # 0x4
	.byte	3                               # 0x3
	.byte	8                               # 0x8
l_aes_v2_CPI34_5:
	.byte	0                               # 0x0
	.byte	41                              # 0x29
	.byte	235                             # 0xeb
	.byte	82                              # 0x52
	.byte	166                             # 0xa6
	.byte	54                              # 0x36
	.byte	185                             # 0xb9
	.byte	144                             # 0x90
	.byte	123                             # 0x7b
	.byte	221                             # 0xdd
	.byte	143                             # 0x8f
	.byte	100                             # 0x64
	.byte	31                              # 0x1f
	.byte	77                              # 0x4d
	.byte	244                             # 0xf4
	.byte	194                             # 0xc2
l_aes_v2_CPI34_6:
	.byte	0                               # 0x0
	.byte	5                               # 0x5
	.byte	253                             # 0xfd
	.byte	152                             # 0x98
	.byte	223                             # 0xdf
	.byte	191                             # 0xbf
	.byte	101                             # 0x65
	.byte	96                              # 0x60
	.byte	157                             # 0x9d
	.byte	66                              # 0x42
	.byte	218                             # 0xda
	.byte	39                              # 0x27
	.byte	186                             # 0xba
	.byte	34                              # 0x22
	.byte	71                              # 0x47
	.byte	248                             # 0xf8
l_aes_v2_CPI34_7:
	.byte	0                               # 0x0
	.byte	91                              # 0x5b
	.byte	164                             # 0xa4
	.byte	122                             # 0x7a
	.byte	207                             # 0xcf
	.byte	74                              # 0x4a
	.byte	222                             # 0xde
	.byte	133                             # 0x85
	.byte	33                              # 0x21
	.byte	238                             # 0xee
	.byte	148                             # 0x94
	.byte	48                              # 0x30
	.byte	17                              # 0x11
	.byte	107                             # 0x6b
	.byte	181                             # 0xb5
	.byte	255                             # 0xff
l_aes_v2_CPI34_8:
	.byte	0                               # 0x0
	.byte	118                             # 0x76
	.byte	62                              # 0x3e
	.byte	158                             # 0x9e
	.byte	30                              # 0x1e
	.byte	200                             # 0xc8
	.byte	160                             # 0xa0
	.byte	214                             # 0xd6
	.byte	232                             # 0xe8
	.byte	246                             # 0xf6
	.byte	104                             # 0x68
	.byte	86                              # 0x56
	.byte	190                             # 0xbe
	.byte	32                              # 0x20
	.byte	128                             # 0x80
	.byte	72                              # 0x48
l_aes_v2_CPI34_9:
	.byte	0                               # 0x0
	.byte	28                              # 0x1c
	.byte	68                              # 0x44
	.byte	88                              # 0x58
	.byte	151                             # 0x97
	.byte	139                             # 0x8b
	.byte	211                             # 0xd3
	.byte	207                             # 0xcf
	.byte	138                             # 0x8a
	.byte	150                             # 0x96
	.byte	206                             # 0xce
	.byte	210                             # 0xd2
	.byte	29                              # 0x1d
	.byte	1                               # 0x1
	.byte	89                              # 0x59
	.byte	69                              # 0x45
l_aes_v2_CPI34_10:
	.byte	0                               # 0x0
	.byte	48                              # 0x30
	.byte	38                              # 0x26
	.byte	22                              # 0x16
	.byte	183                             # 0xb7
	.byte	135                             # 0x87
	.byte	145                             # 0x91
	.byte	161                             # 0xa1
	.byte	65                              # 0x41
	.byte	113                             # 0x71
	.byte	103                             # 0x67
	.byte	87                              # 0x57
	.byte	246                             # 0xf6
	.byte	198                             # 0xc6
	.byte	208                             # 0xd0
	.byte	224                             # 0xe0
l_aes_v2_CPI34_11:
	.byte	0                               # 0x0
	.byte	59                              # 0x3b
	.byte	228                             # 0xe4
	.byte	200                             # 0xc8
	.byte	3                               # 0x3
	.byte	20                              # 0x14
	.byte	44                              # 0x2c
	.byte	23                              # 0x17
	.byte	243                             # 0xf3
	.byte	240                             # 0xf0
	.byte	56                              # 0x38
	.byte	220                             # 0xdc
	.byte	47                              # 0x2f
	.byte	231                             # 0xe7
	.byte	203                             # 0xcb
	.byte	223                             # 0xdf
l_aes_v2_CPI34_12:
	.byte	0                               # 0x0
	.byte	36                              # 0x24
	.byte	145                             # 0x91
	.byte	25                              # 0x19
	.byte	35                              # 0x23
	.byte	143                             # 0x8f
	.byte	136                             # 0x88
	.byte	172                             # 0xac
	.byte	61                              # 0x3d
	.byte	30                              # 0x1e
	.byte	7                               # 0x7
	.byte	150                             # 0x96
	.byte	171                             # 0xab
	.byte	178                             # 0xb2
	.byte	58                              # 0x3a
	.byte	181                             # 0xb5
	.section	__TEXT,__text,regular,pure_instructions
	.p2align	4
_aes_v2.aes_permute.blocks.process_on_lanes.2: # @_aes_v2.aes_permute.blocks.process_on_lanes.2
# %bb.0:                                # %start
	pushq	%rbp
	pushq	%r15
	pushq	%r14
	pushq	%r13
	pushq	%r12
	pushq	%rbx
	cmpq	$2, %rcx
	jb	Laes_v2_BB34_1
# %bb.9:                                # %join.5.lr.ph
	leaq	-1(%rsi), %r8
	movq	%r8, %r9
	shlq	$4, %r9
	movl	%r8d, %eax
	negl	%eax
	shll	$4, %eax
	andl	$48, %eax
	leaq	l_aes_v2_static.3(%rip), %r10
	movdqu	(%rax,%r10), %xmm0
	movdqa	%xmm0, -40(%rsp)                # 16-byte Spill
	leaq	-2(%rsi), %r10
	leaq	16(%rdi), %r11
	xorl	%eax, %eax
	jmp	Laes_v2_BB34_10
	.p2align	4
Laes_v2_BB34_13:                              # %"aes_permute::blocks::process_two_vectors::<#e7683a4e90f73162>.exit"
                                        #   in Loop: Header=BB34_10 Depth=1
	movdqu	(%rdi,%r9), %xmm4
	movdqa	%xmm3, %xmm0
	psrlw	$4, %xmm0
	pand	%xmm13, %xmm0
	pand	%xmm13, %xmm3
	movdqa	%xmm0, %xmm1
	pxor	%xmm3, %xmm1
	movdqa	l_aes_v2_CPI34_3(%rip), %xmm5          # xmm5 = [128,2,1,15,9,5,14,12,13,4,11,10,7,8,6,3]
	movdqa	%xmm5, %xmm6
	pshufb	%xmm3, %xmm6
	movdqa	l_aes_v2_CPI34_4(%rip), %xmm3          # xmm3 = [128,1,9,14,13,11,7,6,15,2,12,5,10,4,3,8]
	movdqa	%xmm3, %xmm7
	pshufb	%xmm0, %xmm7
	movdqa	%xmm3, %xmm8
	pshufb	%xmm1, %xmm8
	pxor	%xmm6, %xmm7
	pxor	%xmm6, %xmm8
	movdqa	%xmm3, %xmm6
	pshufb	%xmm7, %xmm6
	movdqa	%xmm3, %xmm9
	pshufb	%xmm8, %xmm9
	pxor	%xmm1, %xmm6
	pxor	%xmm0, %xmm9
	movdqa	l_aes_v2_CPI34_11(%rip), %xmm8         # xmm8 = [0,59,228,200,3,20,44,23,243,240,56,220,47,231,203,223]
	movdqa	%xmm8, %xmm0
	pshufb	%xmm6, %xmm0
	movdqa	l_aes_v2_CPI34_12(%rip), %xmm6         # xmm6 = [0,36,145,25,35,143,136,172,61,30,7,150,171,178,58,181]
	movdqa	%xmm6, %xmm7
	pshufb	%xmm9, %xmm7
	pxor	%xmm0, %xmm7
	movdqa	-40(%rsp), %xmm10               # 16-byte Reload
	pshufb	%xmm10, %xmm7
	pxor	%xmm4, %xmm7
	movdqa	%xmm2, %xmm0
	psrlw	$4, %xmm0
	pand	%xmm13, %xmm0
	pand	%xmm13, %xmm2
	movdqa	%xmm0, %xmm1
	pxor	%xmm2, %xmm1
	pshufb	%xmm2, %xmm5
	movdqa	%xmm3, %xmm2
	pshufb	%xmm0, %xmm2
	movdqa	%xmm3, %xmm9
	pshufb	%xmm1, %xmm9
	pxor	%xmm5, %xmm2
	pxor	%xmm5, %xmm9
	movdqa	%xmm3, %xmm5
	pshufb	%xmm2, %xmm5
	pshufb	%xmm9, %xmm3
	pxor	%xmm1, %xmm5
	pxor	%xmm0, %xmm3
	pshufb	%xmm5, %xmm8
	pshufb	%xmm3, %xmm6
	pxor	%xmm8, %xmm6
	pshufb	%xmm10, %xmm6
	pxor	%xmm4, %xmm6
	movdqu	%xmm7, (%rdx,%rbx)
	movdqu	%xmm6, 16(%rdx,%rbx)
	addq	$2, %rax
	movq	%rcx, %rbx
	subq	%rax, %rbx
	cmpq	$1, %rbx
	jbe	Laes_v2_BB34_2
Laes_v2_BB34_10:                              # %join.5
                                        # =>This Loop Header: Depth=1
                                        #     Child Loop BB34_12 Depth 2
	movq	%rax, %rbx
	shlq	$4, %rbx
	movdqu	(%rdx,%rbx), %xmm4
	movdqu	16(%rdx,%rbx), %xmm5
	movdqu	(%rdi), %xmm6
	pxor	%xmm6, %xmm4
	movdqa	l_aes_v2_CPI34_0(%rip), %xmm13         # xmm13 = [15,15,15,15,15,15,15,15,15,15,15,15,15,15,15,15]
	movdqa	%xmm4, %xmm2
	pand	%xmm13, %xmm2
	movdqa	l_aes_v2_CPI34_1(%rip), %xmm7          # xmm7 = [0,181,220,105,219,110,7,178,20,161,200,125,207,122,19,166]
	movdqa	%xmm7, %xmm8
	pshufb	%xmm2, %xmm8
	psrlw	$4, %xmm4
	pand	%xmm13, %xmm4
	movdqa	l_aes_v2_CPI34_2(%rip), %xmm2          # xmm2 = [0,167,168,15,237,74,69,226,209,118,121,222,60,155,148,51]
	movdqa	%xmm2, %xmm3
	pshufb	%xmm4, %xmm3
	pxor	%xmm8, %xmm3
	pxor	%xmm6, %xmm5
	movdqa	%xmm5, %xmm4
	pand	%xmm13, %xmm4
	pshufb	%xmm4, %xmm7
	psrlw	$4, %xmm5
	pand	%xmm13, %xmm5
	pshufb	%xmm5, %xmm2
	pxor	%xmm7, %xmm2
	cmpq	$2, %r8
	jb	Laes_v2_BB34_13
# %bb.11:                               # %join.5.i2098.preheader
                                        #   in Loop: Header=BB34_10 Depth=1
	movl	$48, %r14d
	movq	%r11, %r15
	movq	%r10, %r12
	.p2align	4
Laes_v2_BB34_12:                              # %join.5.i2098
                                        #   Parent Loop BB34_10 Depth=1
                                        # =>  This Inner Loop Header: Depth=2
	movdqa	%xmm3, %xmm4
	psrlw	$4, %xmm4
	pand	%xmm13, %xmm4
	pand	%xmm13, %xmm3
	movdqa	%xmm4, %xmm6
	pxor	%xmm3, %xmm6
	movdqa	l_aes_v2_CPI34_3(%rip), %xmm7          # xmm7 = [128,2,1,15,9,5,14,12,13,4,11,10,7,8,6,3]
	movdqa	%xmm7, %xmm8
	pshufb	%xmm3, %xmm8
	movdqa	l_aes_v2_CPI34_4(%rip), %xmm1          # xmm1 = [128,1,9,14,13,11,7,6,15,2,12,5,10,4,3,8]
	movdqa	%xmm1, %xmm3
	pshufb	%xmm4, %xmm3
	movdqa	%xmm1, %xmm9
	pshufb	%xmm6, %xmm9
	pxor	%xmm8, %xmm3
	pxor	%xmm8, %xmm9
	movdqa	%xmm1, %xmm8
	pshufb	%xmm3, %xmm8
	movdqa	%xmm1, %xmm11
	pshufb	%xmm9, %xmm11
	pxor	%xmm6, %xmm8
	pxor	%xmm4, %xmm11
	movdqa	l_aes_v2_CPI34_5(%rip), %xmm14         # xmm14 = [0,41,235,82,166,54,185,144,123,221,143,100,31,77,244,194]
	movdqa	%xmm14, %xmm3
	pshufb	%xmm8, %xmm3
	movdqa	l_aes_v2_CPI34_6(%rip), %xmm6          # xmm6 = [0,5,253,152,223,191,101,96,157,66,218,39,186,34,71,248]
	movdqa	%xmm6, %xmm12
	pshufb	%xmm11, %xmm12
	pxor	%xmm3, %xmm12
	movdqa	l_aes_v2_CPI34_7(%rip), %xmm10         # xmm10 = [0,91,164,122,207,74,222,133,33,238,148,48,17,107,181,255]
	movdqa	%xmm13, %xmm0
	movdqa	%xmm10, %xmm13
	pshufb	%xmm8, %xmm13
	movdqa	l_aes_v2_CPI34_8(%rip), %xmm4          # xmm4 = [0,118,62,158,30,200,160,214,232,246,104,86,190,32,128,72]
	movdqa	%xmm4, %xmm3
	pshufb	%xmm11, %xmm3
	pxor	%xmm13, %xmm3
	movl	%r14d, %r13d
	andl	$48, %r13d
	leaq	l_aes_v2_static.6(%rip), %rbp
	movdqu	(%r13,%rbp), %xmm5
	movdqa	%xmm5, -24(%rsp)                # 16-byte Spill
	pshufb	%xmm5, %xmm3
	pxor	%xmm12, %xmm3
	movdqa	%xmm3, %xmm8
	pand	%xmm0, %xmm8
	movdqa	l_aes_v2_CPI34_9(%rip), %xmm11         # xmm11 = [0,28,68,88,151,139,211,207,138,150,206,210,29,1,89,69]
	movdqa	%xmm11, %xmm15
	pshufb	%xmm8, %xmm15
	movdqa	%xmm3, %xmm8
	psrlw	$4, %xmm8
	pand	%xmm0, %xmm8
	movdqa	l_aes_v2_CPI34_10(%rip), %xmm9         # xmm9 = [0,48,38,22,183,135,145,161,65,113,103,87,246,198,208,224]
	movdqa	%xmm9, %xmm13
	pshufb	%xmm8, %xmm13
	leaq	l_aes_v2_static.4(%rip), %rbp
	movdqu	(%r13,%rbp), %xmm8
	movdqa	%xmm3, %xmm12
	pshufb	%xmm8, %xmm12
	pxor	%xmm15, %xmm12
	pxor	%xmm13, %xmm12
	movdqa	%xmm2, %xmm13
	psrlw	$4, %xmm13
	pand	%xmm0, %xmm13
	pand	%xmm0, %xmm2
	movdqa	%xmm13, %xmm15
	pxor	%xmm2, %xmm15
	pshufb	%xmm2, %xmm7
	movdqa	%xmm1, %xmm2
	pshufb	%xmm13, %xmm2
	movdqa	%xmm1, %xmm5
	pshufb	%xmm15, %xmm5
	pxor	%xmm7, %xmm2
	pxor	%xmm7, %xmm5
	movdqa	%xmm1, %xmm7
	pshufb	%xmm2, %xmm7
	pshufb	%xmm5, %xmm1
	pxor	%xmm15, %xmm7
	pxor	%xmm13, %xmm1
	movdqa	%xmm0, %xmm13
	pshufb	%xmm7, %xmm14
	pshufb	%xmm1, %xmm6
	pxor	%xmm14, %xmm6
	pshufb	%xmm7, %xmm10
	pshufb	%xmm1, %xmm4
	pxor	%xmm10, %xmm4
	pshufb	-24(%rsp), %xmm4                # 16-byte Folded Reload
	pxor	%xmm6, %xmm4
	movdqa	%xmm4, %xmm1
	pand	%xmm0, %xmm1
	pshufb	%xmm1, %xmm11
	movdqa	%xmm4, %xmm1
	psrlw	$4, %xmm1
	pand	%xmm0, %xmm1
	pshufb	%xmm1, %xmm9
	movdqa	%xmm4, %xmm2
	pshufb	%xmm8, %xmm2
	pxor	%xmm11, %xmm2
	leaq	l_aes_v2_static.5(%rip), %rbp
	pxor	%xmm9, %xmm2
	movdqu	(%r13,%rbp), %xmm0
	pshufb	%xmm0, %xmm3
	pshufb	%xmm0, %xmm4
	pxor	%xmm12, %xmm3
	pshufb	%xmm8, %xmm12
	pxor	%xmm12, %xmm3
	pxor	%xmm2, %xmm4
	pshufb	%xmm8, %xmm2
	pxor	%xmm4, %xmm2
	movdqu	(%r15), %xmm0
	pxor	%xmm0, %xmm3
	pxor	%xmm0, %xmm2
	addq	$16, %r15
	addq	$48, %r14
	decq	%r12
	jne	Laes_v2_BB34_12
	jmp	Laes_v2_BB34_13
Laes_v2_BB34_1:
	xorl	%eax, %eax
Laes_v2_BB34_2:                               # %loop.7.preheader
	cmpq	%rax, %rcx
	jne	Laes_v2_BB34_3
Laes_v2_BB34_8:                               # %after.11
	popq	%rbx
	popq	%r12
	popq	%r13
	popq	%r14
	popq	%r15
	popq	%rbp
	retq
Laes_v2_BB34_3:                               # %join.10.lr.ph
	leaq	-1(%rsi), %r8
	movq	%r8, %r9
	shlq	$4, %r9
	movl	%r8d, %r10d
	negl	%r10d
	shll	$4, %r10d
	andl	$48, %r10d
	leaq	l_aes_v2_static.3(%rip), %r11
	movdqu	(%r10,%r11), %xmm0
	leaq	16(%rdi), %r10
	addq	$-2, %rsi
	jmp	Laes_v2_BB34_4
	.p2align	4
Laes_v2_BB34_7:                               # %"aes_permute::blocks::process_vector::<#e7683a4e90f73162>.exit2071"
                                        #   in Loop: Header=BB34_4 Depth=1
	movdqu	(%rdi,%r9), %xmm2
	movdqa	%xmm3, %xmm4
	psrlw	$4, %xmm4
	pand	%xmm1, %xmm4
	pand	%xmm1, %xmm3
	movdqa	%xmm4, %xmm1
	pxor	%xmm3, %xmm1
	movdqa	l_aes_v2_CPI34_3(%rip), %xmm5          # xmm5 = [128,2,1,15,9,5,14,12,13,4,11,10,7,8,6,3]
	pshufb	%xmm3, %xmm5
	movdqa	l_aes_v2_CPI34_4(%rip), %xmm3          # xmm3 = [128,1,9,14,13,11,7,6,15,2,12,5,10,4,3,8]
	movdqa	%xmm3, %xmm6
	pshufb	%xmm4, %xmm6
	movdqa	%xmm3, %xmm7
	pshufb	%xmm1, %xmm7
	pxor	%xmm5, %xmm6
	pxor	%xmm5, %xmm7
	movdqa	%xmm3, %xmm5
	pshufb	%xmm6, %xmm5
	pshufb	%xmm7, %xmm3
	pxor	%xmm1, %xmm5
	pxor	%xmm4, %xmm3
	movdqa	l_aes_v2_CPI34_11(%rip), %xmm1         # xmm1 = [0,59,228,200,3,20,44,23,243,240,56,220,47,231,203,223]
	pshufb	%xmm5, %xmm1
	movdqa	l_aes_v2_CPI34_12(%rip), %xmm4         # xmm4 = [0,36,145,25,35,143,136,172,61,30,7,150,171,178,58,181]
	pshufb	%xmm3, %xmm4
	pxor	%xmm1, %xmm4
	pshufb	%xmm0, %xmm4
	pxor	%xmm2, %xmm4
	movdqu	%xmm4, (%rdx,%r11)
	incq	%rax
	cmpq	%rax, %rcx
	je	Laes_v2_BB34_8
Laes_v2_BB34_4:                               # %join.10
                                        # =>This Loop Header: Depth=1
                                        #     Child Loop BB34_6 Depth 2
	movq	%rax, %r11
	shlq	$4, %r11
	movdqu	(%rdx,%r11), %xmm1
	movdqu	(%rdi), %xmm2
	pxor	%xmm1, %xmm2
	movdqa	l_aes_v2_CPI34_0(%rip), %xmm1          # xmm1 = [15,15,15,15,15,15,15,15,15,15,15,15,15,15,15,15]
	movdqa	%xmm2, %xmm3
	pand	%xmm1, %xmm3
	movdqa	l_aes_v2_CPI34_1(%rip), %xmm4          # xmm4 = [0,181,220,105,219,110,7,178,20,161,200,125,207,122,19,166]
	pshufb	%xmm3, %xmm4
	psrlw	$4, %xmm2
	pand	%xmm1, %xmm2
	movdqa	l_aes_v2_CPI34_2(%rip), %xmm3          # xmm3 = [0,167,168,15,237,74,69,226,209,118,121,222,60,155,148,51]
	pshufb	%xmm2, %xmm3
	pxor	%xmm4, %xmm3
	cmpq	$2, %r8
	jb	Laes_v2_BB34_7
# %bb.5:                                # %join.5.i1129.preheader
                                        #   in Loop: Header=BB34_4 Depth=1
	movl	$48, %ebx
	movq	%rsi, %r14
	movq	%r10, %r15
	.p2align	4
Laes_v2_BB34_6:                               # %join.5.i1129
                                        #   Parent Loop BB34_4 Depth=1
                                        # =>  This Inner Loop Header: Depth=2
	movdqu	(%r15), %xmm2
	movdqa	%xmm3, %xmm4
	psrlw	$4, %xmm4
	pand	%xmm1, %xmm4
	pand	%xmm1, %xmm3
	movdqa	%xmm4, %xmm5
	pxor	%xmm3, %xmm5
	movdqa	l_aes_v2_CPI34_3(%rip), %xmm6          # xmm6 = [128,2,1,15,9,5,14,12,13,4,11,10,7,8,6,3]
	pshufb	%xmm3, %xmm6
	movdqa	l_aes_v2_CPI34_4(%rip), %xmm3          # xmm3 = [128,1,9,14,13,11,7,6,15,2,12,5,10,4,3,8]
	movdqa	%xmm3, %xmm7
	pshufb	%xmm4, %xmm7
	movdqa	%xmm3, %xmm8
	pshufb	%xmm5, %xmm8
	pxor	%xmm6, %xmm7
	pxor	%xmm6, %xmm8
	movdqa	%xmm3, %xmm6
	pshufb	%xmm7, %xmm6
	pshufb	%xmm8, %xmm3
	pxor	%xmm5, %xmm6
	pxor	%xmm4, %xmm3
	movdqa	l_aes_v2_CPI34_5(%rip), %xmm4          # xmm4 = [0,41,235,82,166,54,185,144,123,221,143,100,31,77,244,194]
	pshufb	%xmm6, %xmm4
	movdqa	l_aes_v2_CPI34_6(%rip), %xmm5          # xmm5 = [0,5,253,152,223,191,101,96,157,66,218,39,186,34,71,248]
	pshufb	%xmm3, %xmm5
	pxor	%xmm4, %xmm5
	movdqa	l_aes_v2_CPI34_7(%rip), %xmm7          # xmm7 = [0,91,164,122,207,74,222,133,33,238,148,48,17,107,181,255]
	pshufb	%xmm6, %xmm7
	movdqa	l_aes_v2_CPI34_8(%rip), %xmm4          # xmm4 = [0,118,62,158,30,200,160,214,232,246,104,86,190,32,128,72]
	pshufb	%xmm3, %xmm4
	pxor	%xmm7, %xmm4
	movl	%ebx, %r12d
	andl	$48, %r12d
	leaq	l_aes_v2_static.6(%rip), %r13
	movdqu	(%r12,%r13), %xmm3
	pshufb	%xmm3, %xmm4
	pxor	%xmm5, %xmm4
	movdqa	%xmm4, %xmm3
	pand	%xmm1, %xmm3
	movdqa	l_aes_v2_CPI34_9(%rip), %xmm5          # xmm5 = [0,28,68,88,151,139,211,207,138,150,206,210,29,1,89,69]
	pshufb	%xmm3, %xmm5
	movdqa	%xmm4, %xmm3
	psrlw	$4, %xmm3
	pand	%xmm1, %xmm3
	movdqa	l_aes_v2_CPI34_10(%rip), %xmm6         # xmm6 = [0,48,38,22,183,135,145,161,65,113,103,87,246,198,208,224]
	pshufb	%xmm3, %xmm6
	leaq	l_aes_v2_static.4(%rip), %r13
	movdqu	(%r12,%r13), %xmm7
	movdqa	%xmm4, %xmm3
	pshufb	%xmm7, %xmm3
	pxor	%xmm5, %xmm3
	pxor	%xmm6, %xmm3
	leaq	l_aes_v2_static.5(%rip), %r13
	movdqu	(%r12,%r13), %xmm5
	pshufb	%xmm5, %xmm4
	pxor	%xmm2, %xmm4
	pxor	%xmm3, %xmm4
	pshufb	%xmm7, %xmm3
	pxor	%xmm4, %xmm3
	addq	$16, %r15
	addq	$48, %rbx
	decq	%r14
	jne	Laes_v2_BB34_6
	jmp	Laes_v2_BB34_7
                                        # -- End function
	.section	__TEXT,__text,regular,pure_instructions
	.p2align	4                               # -- Begin function aes_hybrid::batches::process_on_planes::<#0fbbf5e423d2a9b1>
_aes_v2.aes_hybrid.batches.process_on_planes.2: # @_aes_v2.aes_hybrid.batches.process_on_planes.2
# %bb.0:                                # %start
	pushq	%rbp
	pushq	%r15
	pushq	%r14
	pushq	%r13
	pushq	%r12
	pushq	%rbx
	subq	$1928, %rsp                     # imm = 0x788
	movq	%rcx, %rbx
	movq	%rdx, %r14
	movq	%rsi, %r15
	movq	%rdi, %r12
	leaq	128(%rsp), %rdi
	movl	$1792, %edx                     # imm = 0x700
	xorl	%esi, %esi
	callq	*_memset@GOTPCREL(%rip)
	leaq	(,%r15,8), %r13
	movq	%rsp, %rbp
	movq	%rbp, %rdi
	movq	%r12, %rsi
	movq	%r15, %rdx
	callq	_aes_v2.aes_hybrid.plane_keys.store_planes
	movq	%rbp, %rdi
	movq	%r13, %rsi
	movq	%r14, %rdx
	movq	%rbx, %rcx
	callq	_aes_v2.aes_hybrid.batches.process_batches_and_rest.2
	movq	%rbp, %rdi
	callq	_aes_v2.aes_cipher.zeroize.zeroize_words
	callq	_aes_v2.aes_cipher.zeroize.stack.wipe_stack.1792
	addq	$1928, %rsp                     # imm = 0x788
	popq	%rbx
	popq	%r12
	popq	%r13
	popq	%r14
	popq	%r15
	popq	%rbp
	retq
                                        # -- End function
	.section	__TEXT,__const
	.p2align	4, 0x0                          # -- Begin function aes_hybrid::batches::process_batches_and_rest::<#0fbbf5e423d2a9b1>
l_aes_v2_CPI36_0:
	.byte	0                               # 0x0
	.byte	4                               # 0x4
	.byte	8                               # 0x8
	.byte	12                              # 0xc
	.byte	1                               # 0x1
	.byte	5                               # 0x5
	.byte	9                               # 0x9
	.byte	13                              # 0xd
	.byte	2                               # 0x2
	.byte	6                               # 0x6
	.byte	10                              # 0xa
	.byte	14                              # 0xe
	.byte	3                               # 0x3
	.byte	7                               # 0x7
	.byte	11                              # 0xb
	.byte	15                              # 0xf
l_aes_v2_CPI36_1:
	.zero	16,85
l_aes_v2_CPI36_2:
	.zero	16,51
l_aes_v2_CPI36_3:
	.zero	16,15
	.section	__TEXT,__text,regular,pure_instructions
	.p2align	4
_aes_v2.aes_hybrid.batches.process_batches_and_rest.2: # @_aes_v2.aes_hybrid.batches.process_batches_and_rest.2
# %bb.0:                                # %join.5.i.lr.ph
	pushq	%rbp
	pushq	%r15
	pushq	%r14
	pushq	%r13
	pushq	%r12
	pushq	%rbx
	subq	$152, %rsp
	movq	%rcx, %rbx
	movq	%rsi, %r13
	movq	%rdi, %r12
	movq	%rcx, %rbp
	andq	$-8, %rbp
	movq	%rsi, (%rsp)                    # 8-byte Spill
	shrq	$3, %r13
	decq	%r13
	movq	%rdx, 8(%rsp)                   # 8-byte Spill
	leaq	112(%rdx), %r15
	xorl	%r14d, %r14d
	.p2align	4
Laes_v2_BB36_1:                               # %join.5.i
                                        # =>This Inner Loop Header: Depth=1
	movdqu	-112(%r15), %xmm2
	movdqu	-96(%r15), %xmm5
	movdqu	-80(%r15), %xmm8
	movdqu	-64(%r15), %xmm1
	movdqu	-48(%r15), %xmm4
	movdqu	-32(%r15), %xmm3
	movdqu	-16(%r15), %xmm6
	movdqu	(%r15), %xmm0
	movdqa	l_aes_v2_CPI36_0(%rip), %xmm7          # xmm7 = [0,4,8,12,1,5,9,13,2,6,10,14,3,7,11,15]
	pshufb	%xmm7, %xmm2
	pshufb	%xmm7, %xmm5
	pshufb	%xmm7, %xmm8
	pshufb	%xmm7, %xmm1
	pshufb	%xmm7, %xmm4
	pshufb	%xmm7, %xmm3
	pshufb	%xmm7, %xmm6
	pshufb	%xmm7, %xmm0
	movdqa	%xmm2, %xmm7
	psrlw	$1, %xmm7
	pxor	%xmm5, %xmm7
	movdqa	l_aes_v2_CPI36_1(%rip), %xmm10         # xmm10 = [85,85,85,85,85,85,85,85,85,85,85,85,85,85,85,85]
	pand	%xmm10, %xmm7
	pxor	%xmm7, %xmm5
	paddb	%xmm7, %xmm7
	pxor	%xmm2, %xmm7
	movdqa	%xmm8, %xmm2
	psrlw	$1, %xmm2
	pxor	%xmm1, %xmm2
	pand	%xmm10, %xmm2
	pxor	%xmm2, %xmm1
	paddb	%xmm2, %xmm2
	pxor	%xmm8, %xmm2
	movdqa	%xmm4, %xmm9
	psrlw	$1, %xmm9
	pxor	%xmm3, %xmm9
	pand	%xmm10, %xmm9
	pxor	%xmm9, %xmm3
	paddb	%xmm9, %xmm9
	pxor	%xmm4, %xmm9
	movdqa	%xmm6, %xmm4
	psrlw	$1, %xmm4
	pxor	%xmm0, %xmm4
	pand	%xmm10, %xmm4
	pxor	%xmm4, %xmm0
	paddb	%xmm4, %xmm4
	pxor	%xmm6, %xmm4
	movdqa	%xmm7, %xmm8
	psrlw	$2, %xmm8
	pxor	%xmm2, %xmm8
	movdqa	l_aes_v2_CPI36_2(%rip), %xmm10         # xmm10 = [51,51,51,51,51,51,51,51,51,51,51,51,51,51,51,51]
	pand	%xmm10, %xmm8
	pxor	%xmm8, %xmm2
	psllw	$2, %xmm8
	pxor	%xmm7, %xmm8
	movdqa	%xmm9, %xmm6
	psrlw	$2, %xmm6
	pxor	%xmm4, %xmm6
	pand	%xmm10, %xmm6
	pxor	%xmm6, %xmm4
	psllw	$2, %xmm6
	pxor	%xmm9, %xmm6
	movdqa	%xmm5, %xmm7
	psrlw	$2, %xmm7
	pxor	%xmm1, %xmm7
	pand	%xmm10, %xmm7
	pxor	%xmm7, %xmm1
	psllw	$2, %xmm7
	pxor	%xmm5, %xmm7
	movdqa	%xmm3, %xmm5
	psrlw	$2, %xmm5
	pxor	%xmm0, %xmm5
	pand	%xmm10, %xmm5
	pxor	%xmm5, %xmm0
	psllw	$2, %xmm5
	pxor	%xmm3, %xmm5
	movdqa	%xmm8, %xmm3
	psrlw	$4, %xmm3
	movdqa	l_aes_v2_CPI36_3(%rip), %xmm9          # xmm9 = [15,15,15,15,15,15,15,15,15,15,15,15,15,15,15,15]
	pxor	%xmm6, %xmm3
	pand	%xmm9, %xmm3
	pxor	%xmm3, %xmm6
	psllw	$4, %xmm3
	pxor	%xmm8, %xmm3
	movdqa	%xmm7, %xmm8
	psrlw	$4, %xmm8
	pxor	%xmm5, %xmm8
	pand	%xmm9, %xmm8
	pxor	%xmm8, %xmm5
	psllw	$4, %xmm8
	pxor	%xmm7, %xmm8
	movdqa	%xmm2, %xmm7
	psrlw	$4, %xmm7
	pxor	%xmm4, %xmm7
	pand	%xmm9, %xmm7
	pxor	%xmm7, %xmm4
	psllw	$4, %xmm7
	pxor	%xmm2, %xmm7
	movdqa	%xmm1, %xmm2
	psrlw	$4, %xmm2
	pxor	%xmm0, %xmm2
	pand	%xmm9, %xmm2
	pxor	%xmm2, %xmm0
	psllw	$4, %xmm2
	pxor	%xmm1, %xmm2
	movdqa	%xmm3, 16(%rsp)
	movdqa	%xmm8, 32(%rsp)
	movdqa	%xmm7, 48(%rsp)
	movdqa	%xmm2, 64(%rsp)
	movdqa	%xmm6, 80(%rsp)
	movdqa	%xmm5, 96(%rsp)
	movdqa	%xmm4, 112(%rsp)
	movdqa	%xmm0, 128(%rsp)
	leaq	16(%rsp), %rdx
	movq	%r12, %rdi
	movq	%r13, %rsi
	callq	_aes_v2.aes_soft.soft.ciphers.planes.DecryptPlaneCipher.process_planes
	movdqa	16(%rsp), %xmm3
	movdqa	32(%rsp), %xmm6
	movdqa	48(%rsp), %xmm8
	movdqa	64(%rsp), %xmm1
	movdqa	80(%rsp), %xmm2
	movdqa	96(%rsp), %xmm4
	movdqa	112(%rsp), %xmm7
	movdqa	128(%rsp), %xmm0
	movdqa	%xmm3, %xmm5
	psrlw	$1, %xmm5
	pxor	%xmm6, %xmm5
	movdqa	l_aes_v2_CPI36_1(%rip), %xmm9          # xmm9 = [85,85,85,85,85,85,85,85,85,85,85,85,85,85,85,85]
	pand	%xmm9, %xmm5
	pxor	%xmm5, %xmm6
	paddb	%xmm5, %xmm5
	pxor	%xmm3, %xmm5
	movdqa	%xmm8, %xmm3
	psrlw	$1, %xmm3
	pxor	%xmm1, %xmm3
	pand	%xmm9, %xmm3
	pxor	%xmm3, %xmm1
	paddb	%xmm3, %xmm3
	pxor	%xmm8, %xmm3
	movdqa	%xmm2, %xmm8
	psrlw	$1, %xmm8
	pxor	%xmm4, %xmm8
	pand	%xmm9, %xmm8
	pxor	%xmm8, %xmm4
	paddb	%xmm8, %xmm8
	pxor	%xmm2, %xmm8
	movdqa	%xmm7, %xmm2
	psrlw	$1, %xmm2
	pxor	%xmm0, %xmm2
	pand	%xmm9, %xmm2
	pxor	%xmm2, %xmm0
	paddb	%xmm2, %xmm2
	pxor	%xmm7, %xmm2
	movdqa	%xmm5, %xmm7
	psrlw	$2, %xmm7
	pxor	%xmm3, %xmm7
	movdqa	l_aes_v2_CPI36_2(%rip), %xmm9          # xmm9 = [51,51,51,51,51,51,51,51,51,51,51,51,51,51,51,51]
	pand	%xmm9, %xmm7
	pxor	%xmm7, %xmm3
	psllw	$2, %xmm7
	pxor	%xmm5, %xmm7
	movdqa	%xmm8, %xmm5
	psrlw	$2, %xmm5
	pxor	%xmm2, %xmm5
	pand	%xmm9, %xmm5
	pxor	%xmm5, %xmm2
	psllw	$2, %xmm5
	pxor	%xmm8, %xmm5
	movdqa	%xmm6, %xmm8
	psrlw	$2, %xmm8
	pxor	%xmm1, %xmm8
	pand	%xmm9, %xmm8
	pxor	%xmm8, %xmm1
	psllw	$2, %xmm8
	pxor	%xmm6, %xmm8
	movdqa	%xmm4, %xmm6
	psrlw	$2, %xmm6
	pxor	%xmm0, %xmm6
	pand	%xmm9, %xmm6
	pxor	%xmm6, %xmm0
	psllw	$2, %xmm6
	pxor	%xmm4, %xmm6
	movdqa	%xmm7, %xmm4
	psrlw	$4, %xmm4
	pxor	%xmm5, %xmm4
	movdqa	l_aes_v2_CPI36_3(%rip), %xmm9          # xmm9 = [15,15,15,15,15,15,15,15,15,15,15,15,15,15,15,15]
	pand	%xmm9, %xmm4
	pxor	%xmm4, %xmm5
	psllw	$4, %xmm4
	pxor	%xmm7, %xmm4
	movdqa	%xmm8, %xmm7
	psrlw	$4, %xmm7
	pxor	%xmm6, %xmm7
	pand	%xmm9, %xmm7
	pxor	%xmm7, %xmm6
	psllw	$4, %xmm7
	pxor	%xmm8, %xmm7
	movdqa	%xmm3, %xmm8
	psrlw	$4, %xmm8
	pxor	%xmm2, %xmm8
	pand	%xmm9, %xmm8
	pxor	%xmm8, %xmm2
	psllw	$4, %xmm8
	pxor	%xmm3, %xmm8
	movdqa	%xmm1, %xmm3
	psrlw	$4, %xmm3
	pxor	%xmm0, %xmm3
	pand	%xmm9, %xmm3
	pxor	%xmm3, %xmm0
	psllw	$4, %xmm3
	pxor	%xmm1, %xmm3
	movdqa	l_aes_v2_CPI36_0(%rip), %xmm1          # xmm1 = [0,4,8,12,1,5,9,13,2,6,10,14,3,7,11,15]
	pshufb	%xmm1, %xmm4
	movdqu	%xmm4, -112(%r15)
	pshufb	%xmm1, %xmm7
	movdqu	%xmm7, -96(%r15)
	pshufb	%xmm1, %xmm8
	movdqu	%xmm8, -80(%r15)
	pshufb	%xmm1, %xmm3
	movdqu	%xmm3, -64(%r15)
	pshufb	%xmm1, %xmm5
	movdqu	%xmm5, -48(%r15)
	pshufb	%xmm1, %xmm6
	movdqu	%xmm6, -32(%r15)
	pshufb	%xmm1, %xmm2
	movdqu	%xmm2, -16(%r15)
	pshufb	%xmm1, %xmm0
	movdqu	%xmm0, (%r15)
	addq	$8, %r14
	subq	$-128, %r15
	cmpq	%rbp, %r14
	jb	Laes_v2_BB36_1
# %bb.2:                                # %"aes_soft::soft::blocks::slices::process_batches_under::<#08d50db34e92a375>.exit"
	cmpq	%rbx, %rbp
	jne	Laes_v2_BB36_4
# %bb.3:                                # %join.5
	addq	$152, %rsp
	popq	%rbx
	popq	%r12
	popq	%r13
	popq	%r14
	popq	%r15
	popq	%rbp
	retq
Laes_v2_BB36_4:                               # %then.3
	andl	$7, %ebx
	shlq	$4, %rbp
	movq	8(%rsp), %rdx                   # 8-byte Reload
	addq	%rbp, %rdx
	movq	%r12, %rdi
	movq	(%rsp), %rsi                    # 8-byte Reload
	movq	%rbx, %rcx
	addq	$152, %rsp
	popq	%rbx
	popq	%r12
	popq	%r13
	popq	%r14
	popq	%r15
	popq	%rbp
	jmp	_aes_v2.aes_soft.soft.blocks.filled_up.process_filled_up.2 # TAILCALL
                                        # -- End function
	.section	__TEXT,__text,regular,pure_instructions
	.p2align	4                               # -- Begin function aes_soft::soft::blocks::filled_up::process_filled_up::<#0fbbf5e423d2a9b1>
_aes_v2.aes_soft.soft.blocks.filled_up.process_filled_up.2: # @_aes_v2.aes_soft.soft.blocks.filled_up.process_filled_up.2
# %bb.0:                                # %start
	pushq	%r14
	pushq	%rbx
	subq	$392, %rsp                      # imm = 0x188
	movq	%rdx, %rbx
	movq	%rsi, %rdx
	movq	%rdi, %rsi
	xorps	%xmm0, %xmm0
	movaps	%xmm0, 112(%rsp)
	movaps	%xmm0, 96(%rsp)
	movaps	%xmm0, 80(%rsp)
	movaps	%xmm0, 64(%rsp)
	movaps	%xmm0, 48(%rsp)
	movaps	%xmm0, 32(%rsp)
	movaps	%xmm0, 16(%rsp)
	movaps	%xmm0, (%rsp)
	movaps	%xmm0, 128(%rsp)
	movaps	%xmm0, 144(%rsp)
	movaps	%xmm0, 160(%rsp)
	movaps	%xmm0, 176(%rsp)
	movaps	%xmm0, 192(%rsp)
	movaps	%xmm0, 208(%rsp)
	movaps	%xmm0, 224(%rsp)
	movaps	%xmm0, 240(%rsp)
	movups	(%rbx), %xmm0
	movaps	%xmm0, 256(%rsp)
	movups	(%rbx), %xmm0
	movaps	%xmm0, 272(%rsp)
	movups	(%rbx), %xmm0
	movaps	%xmm0, 288(%rsp)
	movups	(%rbx), %xmm0
	movaps	%xmm0, 304(%rsp)
	movups	(%rbx), %xmm0
	movaps	%xmm0, 320(%rsp)
	movups	(%rbx), %xmm0
	movaps	%xmm0, 336(%rsp)
	movups	(%rbx), %xmm0
	movaps	%xmm0, 352(%rsp)
	movups	(%rbx), %xmm0
	movaps	%xmm0, 368(%rsp)
	shrq	$3, %rdx
	decq	%rdx
	testq	%rcx, %rcx
	je	Laes_v2_BB37_16
# %bb.1:                                # %join.8.i
	movq	%rcx, %r14
	movups	(%rbx), %xmm0
	movaps	%xmm0, 256(%rsp)
	cmpq	$1, %rcx
	je	Laes_v2_BB37_8
# %bb.2:                                # %join.8.i.1
	movups	16(%rbx), %xmm0
	movaps	%xmm0, 272(%rsp)
	cmpq	$2, %r14
	je	Laes_v2_BB37_8
# %bb.3:                                # %join.8.i.2
	movups	32(%rbx), %xmm0
	movaps	%xmm0, 288(%rsp)
	cmpq	$3, %r14
	je	Laes_v2_BB37_8
# %bb.4:                                # %join.8.i.3
	movups	48(%rbx), %xmm0
	movaps	%xmm0, 304(%rsp)
	cmpq	$4, %r14
	je	Laes_v2_BB37_8
# %bb.5:                                # %join.8.i.4
	movups	64(%rbx), %xmm0
	movaps	%xmm0, 320(%rsp)
	cmpq	$5, %r14
	je	Laes_v2_BB37_8
# %bb.6:                                # %join.8.i.5
	movups	80(%rbx), %xmm0
	movaps	%xmm0, 336(%rsp)
	cmpq	$6, %r14
	je	Laes_v2_BB37_8
# %bb.7:                                # %join.8.i.6
	movups	96(%rbx), %xmm0
	movaps	%xmm0, 352(%rsp)
Laes_v2_BB37_8:                               # %"aes_soft::soft::blocks::filled_up::filled_up::<#3fb8a7784760496e>.exit"
	leaq	128(%rsp), %rdi
	leaq	256(%rsp), %rcx
	callq	_aes_v2.aes_soft.soft.ciphers.planes.process_outlined.2
	movaps	240(%rsp), %xmm0
	movaps	%xmm0, 112(%rsp)
	movaps	224(%rsp), %xmm0
	movaps	%xmm0, 96(%rsp)
	movaps	208(%rsp), %xmm0
	movaps	%xmm0, 80(%rsp)
	movaps	192(%rsp), %xmm0
	movaps	%xmm0, 64(%rsp)
	movaps	128(%rsp), %xmm0
	movaps	144(%rsp), %xmm1
	movaps	160(%rsp), %xmm2
	movaps	176(%rsp), %xmm3
	movaps	%xmm3, 48(%rsp)
	movaps	%xmm2, 32(%rsp)
	movaps	%xmm1, 16(%rsp)
	movaps	%xmm0, (%rsp)
	movl	%r14d, %eax
	andl	$3, %eax
	cmpq	$4, %r14
	jae	Laes_v2_BB37_10
# %bb.9:
	xorl	%ecx, %ecx
	jmp	Laes_v2_BB37_13
Laes_v2_BB37_16:                              # %"aes_soft::soft::blocks::filled_up::copy_first::<#3fb8a7784760496e>.exit.critedge"
	leaq	128(%rsp), %rdi
	leaq	256(%rsp), %rcx
	callq	_aes_v2.aes_soft.soft.ciphers.planes.process_outlined.2
	movaps	240(%rsp), %xmm0
	movaps	%xmm0, 112(%rsp)
	movaps	224(%rsp), %xmm0
	movaps	%xmm0, 96(%rsp)
	movaps	208(%rsp), %xmm0
	movaps	%xmm0, 80(%rsp)
	movaps	192(%rsp), %xmm0
	movaps	%xmm0, 64(%rsp)
	movaps	128(%rsp), %xmm0
	movaps	144(%rsp), %xmm1
	movaps	160(%rsp), %xmm2
	movaps	176(%rsp), %xmm3
	movaps	%xmm3, 48(%rsp)
	movaps	%xmm2, 32(%rsp)
	movaps	%xmm1, 16(%rsp)
	movaps	%xmm0, (%rsp)
	addq	$392, %rsp                      # imm = 0x188
	popq	%rbx
	popq	%r14
	retq
Laes_v2_BB37_10:                              # %"aes_soft::soft::blocks::filled_up::filled_up::<#3fb8a7784760496e>.exit.new"
	andl	$4, %r14d
	movl	$48, %edx
	xorl	%ecx, %ecx
	.p2align	4
Laes_v2_BB37_11:                              # %join.8.i19
                                        # =>This Inner Loop Header: Depth=1
	movups	-48(%rsp,%rdx), %xmm0
	movups	%xmm0, -48(%rbx,%rdx)
	movups	-32(%rsp,%rdx), %xmm0
	movups	%xmm0, -32(%rbx,%rdx)
	movups	-16(%rsp,%rdx), %xmm0
	movups	%xmm0, -16(%rbx,%rdx)
	movups	(%rsp,%rdx), %xmm0
	movups	%xmm0, (%rbx,%rdx)
	addq	$4, %rcx
	addq	$64, %rdx
	cmpq	%rcx, %r14
	jne	Laes_v2_BB37_11
# %bb.12:                               # %"aes_soft::soft::blocks::filled_up::copy_first::<#3fb8a7784760496e>.exit.loopexit.unr-lcssa"
	testq	%rax, %rax
	je	Laes_v2_BB37_15
Laes_v2_BB37_13:                              # %join.8.i19.epil.preheader
	shlq	$4, %rcx
	addq	%rcx, %rbx
	addq	%rsp, %rcx
	shll	$4, %eax
	xorl	%edx, %edx
	.p2align	4
Laes_v2_BB37_14:                              # %join.8.i19.epil
                                        # =>This Inner Loop Header: Depth=1
	movups	(%rcx,%rdx), %xmm0
	movups	%xmm0, (%rbx,%rdx)
	addq	$16, %rdx
	cmpq	%rdx, %rax
	jne	Laes_v2_BB37_14
Laes_v2_BB37_15:                              # %"aes_soft::soft::blocks::filled_up::copy_first::<#3fb8a7784760496e>.exit"
	addq	$392, %rsp                      # imm = 0x188
	popq	%rbx
	popq	%r14
	retq
                                        # -- End function
	.section	__TEXT,__text,regular,pure_instructions
	.p2align	4                               # -- Begin function key_wrap::wrapping::unwrap::<#bc4275ba8002e6b4>
_aes_v2.key_wrap.wrapping.unwrap: # @_aes_v2.key_wrap.wrapping.unwrap
# %bb.0:                                # %start
	pushq	%r15
	pushq	%r14
	pushq	%r12
	pushq	%rbx
	subq	$24, %rsp
	movq	%rcx, %r14
	leaq	-2(%r8), %rax
	movabsq	$18014398509481981, %rcx        # imm = 0x3FFFFFFFFFFFFD
	cmpq	%rcx, %rax
	seta	%al
	leaq	1(%r8), %rcx
	cmpq	%rcx, %rdx
	setne	%cl
	orb	%al, %cl
	jne	Laes_v2_BB38_5
# %bb.1:                                # %after.1
	movq	%r8, %rbx
	leaq	8(%rsi), %rax
	leaq	-8(,%rdx,8), %rcx
	movq	%r14, %r8
	subq	%rax, %r8
	cmpq	%rcx, %r8
	jae	Laes_v2_BB38_6
# %bb.2:                                # %loop.4.preheader.i.i.i.i.i.i.i.i
	movq	%rdx, %rcx
	decq	%rcx
	je	Laes_v2_BB38_17
# %bb.3:                                # %join.7.i.i.i.i.i.i.i.i.preheader
	cmpq	$6, %rcx
	jb	Laes_v2_BB38_4
# %bb.7:                                # %vector.memcheck
	movq	%r14, %r8
	subq	%rsi, %r8
	addq	$-8, %r8
	cmpq	$32, %r8
	jae	Laes_v2_BB38_9
Laes_v2_BB38_4:
	xorl	%r8d, %r8d
Laes_v2_BB38_12:                              # %join.7.i.i.i.i.i.i.i.i.preheader10
	movq	%rdx, %r9
	subq	%r8, %r9
	addq	$-2, %r9
	movl	%edx, %r10d
	andl	$3, %r10d
	cmpl	$1, %r10d
	je	Laes_v2_BB38_15
# %bb.13:                               # %join.7.i.i.i.i.i.i.i.i.prol.preheader
	decl	%edx
	andl	$3, %edx
	.p2align	4
Laes_v2_BB38_14:                              # %join.7.i.i.i.i.i.i.i.i.prol
                                        # =>This Inner Loop Header: Depth=1
	movq	(%rax,%r8,8), %r10
	movq	%r10, (%r14,%r8,8)
	incq	%r8
	decq	%rdx
	jne	Laes_v2_BB38_14
Laes_v2_BB38_15:                              # %join.7.i.i.i.i.i.i.i.i.prol.loopexit
	cmpq	$3, %r9
	jb	Laes_v2_BB38_17
	.p2align	4
Laes_v2_BB38_16:                              # %join.7.i.i.i.i.i.i.i.i
                                        # =>This Inner Loop Header: Depth=1
	movq	8(%rsi,%r8,8), %rax
	movq	%rax, (%r14,%r8,8)
	movq	16(%rsi,%r8,8), %rax
	movq	%rax, 8(%r14,%r8,8)
	movq	24(%rsi,%r8,8), %rax
	movq	%rax, 16(%r14,%r8,8)
	movq	32(%rsi,%r8,8), %rax
	movq	%rax, 24(%r14,%r8,8)
	addq	$4, %r8
	cmpq	%r8, %rcx
	jne	Laes_v2_BB38_16
	jmp	Laes_v2_BB38_17
Laes_v2_BB38_5:
	movb	$1, %al
	xorl	%edx, %edx
	jmp	Laes_v2_BB38_20
Laes_v2_BB38_6:                               # %apart.2.i.i.i.i.i.i.i.i
	movq	%rdi, %r15
	movq	%r14, %rdi
	movq	%rsi, %r12
	movq	%rax, %rsi
	movq	%rcx, %rdx
	callq	*_memmove@GOTPCREL(%rip)
	movq	%r12, %rsi
	movq	%r15, %rdi
Laes_v2_BB38_17:                              # %"key_wrap::wrapping::unwrap_all::<#bc4275ba8002e6b4>.exit"
	movq	(%rsi), %rax
	movq	%rax, 8(%rsp)
	leaq	8(%rsp), %rsi
	movq	%r14, %rdx
	movq	%rbx, %rcx
	callq	_aes_v2.key_wrap.steps.unwrap_in_place
	movq	8(%rsp), %rax
	movq	%rax, 8(%rsp)
	movabsq	$-6438275382588823898, %rax     # imm = 0xA6A6A6A6A6A6A6A6
	movq	%rax, 16(%rsp)
	leaq	l_aes_v2_static.8(%rip), %rsi
	leaq	8(%rsp), %rdi
	callq	_aes_v2.aes_cipher.blocks.difference
	testl	%eax, %eax
	je	Laes_v2_BB38_19
# %bb.18:                               # %loop.5.preheader.i
	leaq	-8(,%rbx,8), %rdx
	movq	%r14, %rdi
	xorl	%esi, %esi
	callq	*_memset@GOTPCREL(%rip)
	movq	$0, -8(%r14,%rbx,8)
	movb	$1, %dl
	movb	$1, %al
	jmp	Laes_v2_BB38_20
Laes_v2_BB38_19:
	xorl	%edx, %edx
	xorl	%eax, %eax
Laes_v2_BB38_20:                              # %return.10
                                        # kill: def $al killed $al killed $eax
                                        # kill: def $dl killed $dl killed $edx
	addq	$24, %rsp
	popq	%rbx
	popq	%r12
	popq	%r14
	popq	%r15
	retq
Laes_v2_BB38_9:                               # %vector.ph
	movq	%rcx, %r8
	andq	$-4, %r8
	xorl	%r9d, %r9d
	.p2align	4
Laes_v2_BB38_10:                              # %vector.body
                                        # =>This Inner Loop Header: Depth=1
	movups	8(%rsi,%r9,8), %xmm0
	movups	24(%rsi,%r9,8), %xmm1
	movups	%xmm0, (%r14,%r9,8)
	movups	%xmm1, 16(%r14,%r9,8)
	addq	$4, %r9
	cmpq	%r9, %r8
	jne	Laes_v2_BB38_10
# %bb.11:                               # %middle.block
	cmpq	%r8, %rcx
	je	Laes_v2_BB38_17
	jmp	Laes_v2_BB38_12
                                        # -- End function
	.section	__TEXT,__text,regular,pure_instructions
	.p2align	4                               # -- Begin function key_wrap::steps::unwrap_in_place::<#bc4275ba8002e6b4>
_aes_v2.key_wrap.steps.unwrap_in_place: # @_aes_v2.key_wrap.steps.unwrap_in_place
# %bb.0:                                # %start
	testq	%rcx, %rcx
	je	Laes_v2_BB39_14
# %bb.1:                                # %join.5.preheader
	pushq	%rbp
	pushq	%r15
	pushq	%r14
	pushq	%r13
	pushq	%r12
	pushq	%rbx
	subq	$24, %rsp
	movq	%rsi, %r14
	leaq	(%rcx,%rcx), %rbp
	leaq	(,%rbp,2), %r12
	addq	%rbp, %r12
	movq	%rdx, 8(%rsp)                   # 8-byte Spill
	leaq	(%rdx,%rcx,8), %r13
	addq	$-8, %r13
	movq	%rcx, 16(%rsp)                  # 8-byte Spill
	movq	%rcx, %rbx
	.p2align	4
Laes_v2_BB39_2:                               # %join.5.i
                                        # =>This Inner Loop Header: Depth=1
	movq	%r12, %rax
	bswapq	%rax
	xorq	%rax, (%r14)
	movq	%rdi, %r15
	movq	%r14, %rsi
	movq	%r13, %rdx
	callq	_aes_v2.key_wrap.steps.decrypt_halves
	movq	%r15, %rdi
	decq	%r12
	addq	$-8, %r13
	decq	%rbx
	jne	Laes_v2_BB39_2
# %bb.3:                                # %"key_wrap::steps::unwrap_turn::<#bc4275ba8002e6b4>.exit.loopexit"
	movq	16(%rsp), %rbx                  # 8-byte Reload
	leaq	(%rbx,%rbx,4), %r12
	movq	8(%rsp), %rax                   # 8-byte Reload
	leaq	(%rax,%rbx,8), %r13
	addq	$-8, %r13
	.p2align	4
Laes_v2_BB39_4:                               # %join.5.i.1
                                        # =>This Inner Loop Header: Depth=1
	movq	%r12, %rax
	bswapq	%rax
	xorq	%rax, (%r14)
	movq	%r15, %rdi
	movq	%r14, %rsi
	movq	%r13, %rdx
	callq	_aes_v2.key_wrap.steps.decrypt_halves
	decq	%r12
	addq	$-8, %r13
	decq	%rbx
	jne	Laes_v2_BB39_4
# %bb.5:                                # %"key_wrap::steps::unwrap_turn::<#bc4275ba8002e6b4>.exit.loopexit.1"
	movq	16(%rsp), %rbx                  # 8-byte Reload
	leaq	(,%rbx,4), %r12
	movq	8(%rsp), %rax                   # 8-byte Reload
	leaq	(%rax,%rbx,8), %r13
	addq	$-8, %r13
	.p2align	4
Laes_v2_BB39_6:                               # %join.5.i.2
                                        # =>This Inner Loop Header: Depth=1
	movq	%r12, %rax
	bswapq	%rax
	xorq	%rax, (%r14)
	movq	%r15, %rdi
	movq	%r14, %rsi
	movq	%r13, %rdx
	callq	_aes_v2.key_wrap.steps.decrypt_halves
	decq	%r12
	addq	$-8, %r13
	decq	%rbx
	jne	Laes_v2_BB39_6
# %bb.7:                                # %"key_wrap::steps::unwrap_turn::<#bc4275ba8002e6b4>.exit.loopexit.2"
	movq	16(%rsp), %rbx                  # 8-byte Reload
	leaq	(%rbx,%rbx,2), %r12
	movq	8(%rsp), %rax                   # 8-byte Reload
	leaq	(%rax,%rbx,8), %r13
	addq	$-8, %r13
	.p2align	4
Laes_v2_BB39_8:                               # %join.5.i.3
                                        # =>This Inner Loop Header: Depth=1
	movq	%r12, %rax
	bswapq	%rax
	xorq	%rax, (%r14)
	movq	%r15, %rdi
	movq	%r14, %rsi
	movq	%r13, %rdx
	callq	_aes_v2.key_wrap.steps.decrypt_halves
	decq	%r12
	addq	$-8, %r13
	decq	%rbx
	jne	Laes_v2_BB39_8
# %bb.9:                                # %"key_wrap::steps::unwrap_turn::<#bc4275ba8002e6b4>.exit.loopexit.3"
	movq	%r15, %rcx
	movq	8(%rsp), %rax                   # 8-byte Reload
	movq	16(%rsp), %r15                  # 8-byte Reload
	leaq	(%rax,%r15,8), %r13
	addq	$-8, %r13
	movq	%r15, %rbx
	movq	%rcx, %r12
	.p2align	4
Laes_v2_BB39_10:                              # %join.5.i.4
                                        # =>This Inner Loop Header: Depth=1
	movq	%rbp, %rax
	bswapq	%rax
	xorq	%rax, (%r14)
	movq	%r12, %rdi
	movq	%r14, %rsi
	movq	%r13, %rdx
	callq	_aes_v2.key_wrap.steps.decrypt_halves
	decq	%rbp
	addq	$-8, %r13
	decq	%rbx
	jne	Laes_v2_BB39_10
# %bb.11:                               # %join.5.i.5.preheader
	movq	8(%rsp), %rax                   # 8-byte Reload
	movq	%r12, %rbx
	leaq	(%rax,%r15,8), %r12
	addq	$-8, %r12
	.p2align	4
Laes_v2_BB39_12:                              # %join.5.i.5
                                        # =>This Inner Loop Header: Depth=1
	movq	%r15, %rax
	bswapq	%rax
	xorq	%rax, (%r14)
	movq	%rbx, %rdi
	movq	%r14, %rsi
	movq	%r12, %rdx
	callq	_aes_v2.key_wrap.steps.decrypt_halves
	addq	$-8, %r12
	decq	%r15
	jne	Laes_v2_BB39_12
# %bb.13:
	addq	$24, %rsp
	popq	%rbx
	popq	%r12
	popq	%r13
	popq	%r14
	popq	%r15
	popq	%rbp
Laes_v2_BB39_14:                              # %after.1
	retq
                                        # -- End function
	.section	__TEXT,__const
	.p2align	4, 0x0                          # -- Begin function key_wrap::steps::decrypt_halves::<#bc4275ba8002e6b4>
l_aes_v2_CPI40_0:
	.zero	16,15
l_aes_v2_CPI40_1:
	.byte	0                               # 0x0
	.byte	181                             # 0xb5
	.byte	220                             # 0xdc
	.byte	105                             # 0x69
	.byte	219                             # 0xdb
	.byte	110                             # 0x6e
	.byte	7                               # 0x7
	.byte	178                             # 0xb2
	.byte	20                              # 0x14
	.byte	161                             # 0xa1
	.byte	200                             # 0xc8
	.byte	125                             # 0x7d
	.byte	207                             # 0xcf
	.byte	122                             # 0x7a
	.byte	19                              # 0x13
	.byte	166                             # 0xa6
l_aes_v2_CPI40_2:
	.byte	0                               # 0x0
	.byte	167                             # 0xa7
	.byte	168                             # 0xa8
	.byte	15                              # 0xf
	.byte	237                             # 0xed
	.byte	74                              # 0x4a
	.byte	69                              # 0x45
	.byte	226                             # 0xe2
	.byte	209                             # 0xd1
	.byte	118                             # 0x76
	.byte	121                             # 0x79
	.byte	222                             # 0xde
	.byte	60                              # 0x3c
	.byte	155                             # 0x9b
	.byte	148                             # 0x94
	.byte	51                              # 0x33
l_aes_v2_CPI40_3:
	.byte	128                             # 0x80
	.byte	2                               # 0x2
	.byte	1                               # 0x1
	.byte	15                              # 0xf
	.byte	9                               # 0x9
	.byte	5                               # 0x5
	.byte	14                              # 0xe
	.byte	12                              # 0xc
	.byte	13                              # 0xd
	.byte	4                               # 0x4
	.byte	11                              # 0xb
	.byte	10                              # 0xa
	.byte	7                               # 0x7
	.byte	8                               # 0x8
	.byte	6                               # 0x6
	.byte	3                               # 0x3
l_aes_v2_CPI40_4:
	.byte	128                             # 0x80
	.byte	1                               # 0x1
	.byte	9                               # 0x9
	.byte	14                              # 0xe
	.byte	13                              # 0xd
	.byte	11                              # 0xb
	.byte	7                               # 0x7
	.byte	6                               # 0x6
	.byte	15                              # 0xf
	.byte	2                               # 0x2
	.byte	12                              # 0xc
	.byte	5                               # 0x5
	.byte	10                              # 0xa
	.byte	4                               # 0x4
	.byte	3                               # 0x3
	.byte	8                               # 0x8
l_aes_v2_CPI40_5:
	.byte	0                               # 0x0
	.byte	41                              # 0x29
	.byte	235                             # 0xeb
	.byte	82                              # 0x52
	.byte	166                             # 0xa6
	.byte	54                              # 0x36
	.byte	185                             # 0xb9
	.byte	144                             # 0x90
	.byte	123                             # 0x7b
	.byte	221                             # 0xdd
	.byte	143                             # 0x8f
	.byte	100                             # 0x64
	.byte	31                              # 0x1f
	.byte	77                              # 0x4d
	.byte	244                             # 0xf4
	.byte	194                             # 0xc2
l_aes_v2_CPI40_6:
	.byte	0                               # 0x0
	.byte	5                               # 0x5
	.byte	253                             # 0xfd
	.byte	152                             # 0x98
	.byte	223                             # 0xdf
	.byte	191                             # 0xbf
	.byte	101                             # 0x65
	.byte	96                              # 0x60
	.byte	157                             # 0x9d
	.byte	66                              # 0x42
	.byte	218                             # 0xda
	.byte	39                              # 0x27
	.byte	186                             # 0xba
	.byte	34                              # 0x22
	.byte	71                              # 0x47
	.byte	248                             # 0xf8
l_aes_v2_CPI40_7:
	.byte	0                               # 0x0
	.byte	91                              # 0x5b
	.byte	164                             # 0xa4
	.byte	122                             # 0x7a
	.byte	207                             # 0xcf
	.byte	74                              # 0x4a
	.byte	222                             # 0xde
	.byte	133                             # 0x85
	.byte	33                              # 0x21
	.byte	238                             # 0xee
	.byte	148                             # 0x94
	.byte	48                              # 0x30
	.byte	17                              # 0x11
	.byte	107                             # 0x6b
	.byte	181                             # 0xb5
	.byte	255                             # 0xff
l_aes_v2_CPI40_8:
	.byte	0                               # 0x0
	.byte	118                             # 0x76
	.byte	62                              # 0x3e
	.byte	158                             # 0x9e
	.byte	30                              # 0x1e
	.byte	200                             # 0xc8
	.byte	160                             # 0xa0
	.byte	214                             # 0xd6
	.byte	232                             # 0xe8
	.byte	246                             # 0xf6
	.byte	104                             # 0x68
	.byte	86                              # 0x56
	.byte	190                             # 0xbe
	.byte	32                              # 0x20
	.byte	128                             # 0x80
	.byte	72                              # 0x48
l_aes_v2_CPI40_9:
	.byte	0                               # 0x0
	.byte	28                              # 0x1c
	.byte	68                              # 0x44
	.byte	88                              # 0x58
	.byte	151                             # 0x97
	.byte	139                             # 0x8b
	.byte	211                             # 0xd3
	.byte	207                             # 0xcf
	.byte	138                             # 0x8a
	.byte	150                             # 0x96
	.byte	206                             # 0xce
	.byte	210                             # 0xd2
	.byte	29                              # 0x1d
	.byte	1                               # 0x1
	.byte	89                              # 0x59
	.byte	69                              # 0x45
l_aes_v2_CPI40_10:
	.byte	0                               # 0x0
	.byte	48                              # 0x30
	.byte	38                              # 0x26
	.byte	22                              # 0x16
	.byte	183                             # 0xb7
	.byte	135                             # 0x87
	.byte	145                             # 0x91
	.byte	161                             # 0xa1
	.byte	65                              # 0x41
	.byte	113                             # 0x71
	.byte	103                             # 0x67
	.byte	87                              # 0x57
	.byte	246                             # 0xf6
	.byte	198                             # 0xc6
	.byte	208                             # 0xd0
	.byte	224                             # 0xe0
l_aes_v2_CPI40_11:
	.byte	0                               # 0x0
	.byte	59                              # 0x3b
	.byte	228                             # 0xe4
	.byte	200                             # 0xc8
	.byte	3                               # 0x3
	.byte	20                              # 0x14
	.byte	44                              # 0x2c
	.byte	23                              # 0x17
	.byte	243                             # 0xf3
	.byte	240                             # 0xf0
	.byte	56                              # 0x38
	.byte	220                             # 0xdc
	.byte	47                              # 0x2f
	.byte	231                             # 0xe7
	.byte	203                             # 0xcb
	.byte	223                             # 0xdf
l_aes_v2_CPI40_12:
	.byte	0                               # 0x0
	.byte	36                              # 0x24
	.byte	145                             # 0x91
	.byte	25                              # 0x19
	.byte	35                              # 0x23
	.byte	143                             # 0x8f
	.byte	136                             # 0x88
	.byte	172                             # 0xac
	.byte	61                              # 0x3d
	.byte	30                              # 0x1e
	.byte	7                               # 0x7
	.byte	150                             # 0x96
	.byte	171                             # 0xab
	.byte	178                             # 0xb2
	.byte	58                              # 0x3a
	.byte	181                             # 0xb5
	.section	__TEXT,__text,regular,pure_instructions
	.p2align	4
_aes_v2.key_wrap.steps.decrypt_halves: # @_aes_v2.key_wrap.steps.decrypt_halves
# %bb.0:                                # %start
	subq	$24, %rsp
	movq	(%rsi), %rax
	movq	(%rdx), %rcx
	movq	%rax, (%rsp)
	movq	%rcx, 8(%rsp)
	movq	16(%rdi), %rcx
	movq	24(%rdi), %rdi
	movdqu	(%rcx), %xmm2
	pxor	(%rsp), %xmm2
	leaq	-1(%rdi), %rax
	movdqa	l_aes_v2_CPI40_0(%rip), %xmm0          # xmm0 = [15,15,15,15,15,15,15,15,15,15,15,15,15,15,15,15]
	movdqa	%xmm2, %xmm1
	pand	%xmm0, %xmm1
	movdqa	l_aes_v2_CPI40_1(%rip), %xmm3          # xmm3 = [0,181,220,105,219,110,7,178,20,161,200,125,207,122,19,166]
	pshufb	%xmm1, %xmm3
	psrlw	$4, %xmm2
	pand	%xmm0, %xmm2
	movdqa	l_aes_v2_CPI40_2(%rip), %xmm1          # xmm1 = [0,167,168,15,237,74,69,226,209,118,121,222,60,155,148,51]
	pshufb	%xmm2, %xmm1
	pxor	%xmm3, %xmm1
	cmpq	$2, %rax
	jb	Laes_v2_BB40_3
# %bb.1:                                # %join.5.i.i.preheader
	leaq	16(%rcx), %r8
	addq	$-2, %rdi
	movl	$48, %r9d
	.p2align	4
Laes_v2_BB40_2:                               # %join.5.i.i
                                        # =>This Inner Loop Header: Depth=1
	movdqu	(%r8), %xmm2
	movdqa	%xmm1, %xmm3
	psrlw	$4, %xmm3
	pand	%xmm0, %xmm3
	pand	%xmm0, %xmm1
	movdqa	%xmm3, %xmm4
	pxor	%xmm1, %xmm4
	movdqa	l_aes_v2_CPI40_3(%rip), %xmm5          # xmm5 = [128,2,1,15,9,5,14,12,13,4,11,10,7,8,6,3]
	pshufb	%xmm1, %xmm5
	movdqa	l_aes_v2_CPI40_4(%rip), %xmm1          # xmm1 = [128,1,9,14,13,11,7,6,15,2,12,5,10,4,3,8]
	movdqa	%xmm1, %xmm6
	pshufb	%xmm3, %xmm6
	movdqa	%xmm1, %xmm7
	pshufb	%xmm4, %xmm7
	pxor	%xmm5, %xmm6
	pxor	%xmm5, %xmm7
	movdqa	%xmm1, %xmm5
	pshufb	%xmm6, %xmm5
	pshufb	%xmm7, %xmm1
	pxor	%xmm4, %xmm5
	pxor	%xmm3, %xmm1
	movdqa	l_aes_v2_CPI40_5(%rip), %xmm3          # xmm3 = [0,41,235,82,166,54,185,144,123,221,143,100,31,77,244,194]
	pshufb	%xmm5, %xmm3
	movdqa	l_aes_v2_CPI40_6(%rip), %xmm4          # xmm4 = [0,5,253,152,223,191,101,96,157,66,218,39,186,34,71,248]
	pshufb	%xmm1, %xmm4
	pxor	%xmm3, %xmm4
	movdqa	l_aes_v2_CPI40_7(%rip), %xmm6          # xmm6 = [0,91,164,122,207,74,222,133,33,238,148,48,17,107,181,255]
	pshufb	%xmm5, %xmm6
	movdqa	l_aes_v2_CPI40_8(%rip), %xmm3          # xmm3 = [0,118,62,158,30,200,160,214,232,246,104,86,190,32,128,72]
	pshufb	%xmm1, %xmm3
	pxor	%xmm6, %xmm3
	movl	%r9d, %r10d
	andl	$48, %r10d
	leaq	l_aes_v2_static.6(%rip), %r11
	movdqu	(%r10,%r11), %xmm1
	pshufb	%xmm1, %xmm3
	pxor	%xmm4, %xmm3
	movdqa	%xmm3, %xmm1
	pand	%xmm0, %xmm1
	movdqa	l_aes_v2_CPI40_9(%rip), %xmm4          # xmm4 = [0,28,68,88,151,139,211,207,138,150,206,210,29,1,89,69]
	pshufb	%xmm1, %xmm4
	movdqa	%xmm3, %xmm1
	psrlw	$4, %xmm1
	pand	%xmm0, %xmm1
	movdqa	l_aes_v2_CPI40_10(%rip), %xmm5         # xmm5 = [0,48,38,22,183,135,145,161,65,113,103,87,246,198,208,224]
	pshufb	%xmm1, %xmm5
	leaq	l_aes_v2_static.4(%rip), %r11
	movdqu	(%r10,%r11), %xmm6
	movdqa	%xmm3, %xmm1
	pshufb	%xmm6, %xmm1
	pxor	%xmm4, %xmm1
	pxor	%xmm5, %xmm1
	leaq	l_aes_v2_static.5(%rip), %r11
	movdqu	(%r10,%r11), %xmm4
	pshufb	%xmm4, %xmm3
	pxor	%xmm2, %xmm3
	pxor	%xmm1, %xmm3
	pshufb	%xmm6, %xmm1
	pxor	%xmm3, %xmm1
	addq	$16, %r8
	addq	$48, %r9
	decq	%rdi
	jne	Laes_v2_BB40_2
Laes_v2_BB40_3:                               # %"aes_permute::blocks::process_block::<#d2d6b19aefc59415>.exit"
	movq	%rax, %rdi
	shlq	$4, %rdi
	movdqu	(%rcx,%rdi), %xmm2
	movdqa	%xmm1, %xmm3
	psrlw	$4, %xmm3
	pand	%xmm0, %xmm3
	pand	%xmm0, %xmm1
	movdqa	%xmm3, %xmm0
	pxor	%xmm1, %xmm0
	movdqa	l_aes_v2_CPI40_3(%rip), %xmm4          # xmm4 = [128,2,1,15,9,5,14,12,13,4,11,10,7,8,6,3]
	pshufb	%xmm1, %xmm4
	movdqa	l_aes_v2_CPI40_4(%rip), %xmm1          # xmm1 = [128,1,9,14,13,11,7,6,15,2,12,5,10,4,3,8]
	movdqa	%xmm1, %xmm5
	pshufb	%xmm3, %xmm5
	movdqa	%xmm1, %xmm6
	pshufb	%xmm0, %xmm6
	pxor	%xmm4, %xmm5
	pxor	%xmm4, %xmm6
	movdqa	%xmm1, %xmm4
	pshufb	%xmm5, %xmm4
	pshufb	%xmm6, %xmm1
	pxor	%xmm0, %xmm4
	pxor	%xmm3, %xmm1
	movdqa	l_aes_v2_CPI40_11(%rip), %xmm0         # xmm0 = [0,59,228,200,3,20,44,23,243,240,56,220,47,231,203,223]
	pshufb	%xmm4, %xmm0
	movdqa	l_aes_v2_CPI40_12(%rip), %xmm3         # xmm3 = [0,36,145,25,35,143,136,172,61,30,7,150,171,178,58,181]
	pshufb	%xmm1, %xmm3
	pxor	%xmm0, %xmm3
	negl	%eax
	shll	$4, %eax
	andl	$48, %eax
	leaq	l_aes_v2_static.3(%rip), %rcx
	movdqu	(%rax,%rcx), %xmm0
	pshufb	%xmm0, %xmm3
	pxor	%xmm2, %xmm3
	movdqa	%xmm3, (%rsp)
	movq	(%rsp), %rax
	movq	8(%rsp), %rcx
	movq	%rax, (%rsi)
	movq	%rcx, (%rdx)
	movq	%rsp, %rdi
	callq	_aes_v2.aes_cipher.zeroize.elements.zeroize_elements.3
	addq	$24, %rsp
	retq
                                        # -- End function
	.section	__TEXT,__text,regular,pure_instructions
	.p2align	4                               # -- Begin function aes_cipher::zeroize::elements::zeroize_elements::<#51e2d7e6a2c2e10f>
_aes_v2.aes_cipher.zeroize.elements.zeroize_elements.3: # @_aes_v2.aes_cipher.zeroize.elements.zeroize_elements.3
# %bb.0:                                # %start
	xorps	%xmm0, %xmm0
	movaps	%xmm0, -24(%rsp)
	movq	$0, -32(%rsp)
	#APP
	#NO_APP
	movq	-32(%rsp), %rax
	#APP
	#NO_APP
	testq	%rax, %rax
	je	Laes_v2_BB41_2
# %bb.1:                                # %"aes_cipher::zeroize::observe::<#b3ccab65b2a1c990>.exit8"
	movaps	-24(%rsp), %xmm0
	movups	%xmm0, (%rdi)
	xorl	%eax, %eax
	#APP
	#NO_APP
	xchgq	%rax, -32(%rsp)
	#APP
	#NO_APP
	retq
Laes_v2_BB41_2:                               # %then.1.i
	movzbl	(%rdi), %eax
	movaps	-24(%rsp), %xmm0
	movups	%xmm0, (%rdi)
	andb	(%rdi), %al
	movzbl	%al, %eax
	#APP
	#NO_APP
	xchgq	%rax, -32(%rsp)
	#APP
	#NO_APP
	retq
                                        # -- End function
	.section	__TEXT,__text,regular,pure_instructions
	.p2align	4                               # -- Begin function aes_cipher::blocks::difference
_aes_v2.aes_cipher.blocks.difference:       # @_aes_v2.aes_cipher.blocks.difference
# %bb.0:                                # %start
	movdqu	(%rdi), %xmm0
	movdqu	(%rsi), %xmm1
	pxor	%xmm0, %xmm1
	pshufd	$238, %xmm1, %xmm0              # xmm0 = xmm1[2,3,2,3]
	por	%xmm1, %xmm0
	pshufd	$85, %xmm0, %xmm1               # xmm1 = xmm0[1,1,1,1]
	por	%xmm0, %xmm1
	movdqa	%xmm1, %xmm0
	psrld	$16, %xmm0
	por	%xmm1, %xmm0
	movdqa	%xmm0, %xmm1
	psrlw	$8, %xmm1
	por	%xmm0, %xmm1
	pextrb	$0, %xmm1, %eax
	retq
                                        # -- End function
	.section	__TEXT,__text,regular,pure_instructions
	.p2align	4                               # -- Begin function key_wrap::padded::unwrap_padded::<#bc4275ba8002e6b4>
_aes_v2.key_wrap.padded.unwrap_padded: # @_aes_v2.key_wrap.padded.unwrap_padded
# %bb.0:                                # %start
	pushq	%rbp
	pushq	%r15
	pushq	%r14
	pushq	%r13
	pushq	%r12
	pushq	%rbx
	pushq	%rax
	movq	%rdi, %rbx
	leaq	-1(%r9), %r12
	cmpq	$536870912, %r12                # imm = 0x20000000
	setb	%al
	leaq	1(%r9), %rdi
	cmpq	%rdi, %rcx
	sete	%dil
	testb	%dil, %al
	je	Laes_v2_BB43_5
# %bb.1:                                # %after.1
	movq	%r9, %r14
	movq	%r8, %r15
	leaq	8(%rdx), %rax
	leaq	-8(,%rcx,8), %r8
	movq	%r15, %rdi
	subq	%rax, %rdi
	cmpq	%r8, %rdi
	jae	Laes_v2_BB43_6
# %bb.2:                                # %loop.4.preheader.i.i.i.i.i.i.i
	movq	%rcx, %rdi
	decq	%rdi
	je	Laes_v2_BB43_17
# %bb.3:                                # %join.7.i.i.i.i.i.i.i.preheader
	cmpq	$6, %rdi
	jb	Laes_v2_BB43_4
# %bb.7:                                # %vector.memcheck
	movq	%r15, %r8
	subq	%rdx, %r8
	addq	$-8, %r8
	cmpq	$32, %r8
	jae	Laes_v2_BB43_9
Laes_v2_BB43_4:
	xorl	%r8d, %r8d
Laes_v2_BB43_12:                              # %join.7.i.i.i.i.i.i.i.preheader29
	movq	%rcx, %r9
	subq	%r8, %r9
	addq	$-2, %r9
	movl	%ecx, %r10d
	andl	$3, %r10d
	cmpl	$1, %r10d
	je	Laes_v2_BB43_15
# %bb.13:                               # %join.7.i.i.i.i.i.i.i.prol.preheader
	decl	%ecx
	andl	$3, %ecx
	.p2align	4
Laes_v2_BB43_14:                              # %join.7.i.i.i.i.i.i.i.prol
                                        # =>This Inner Loop Header: Depth=1
	movq	(%rax,%r8,8), %r10
	movq	%r10, (%r15,%r8,8)
	incq	%r8
	decq	%rcx
	jne	Laes_v2_BB43_14
Laes_v2_BB43_15:                              # %join.7.i.i.i.i.i.i.i.prol.loopexit
	cmpq	$3, %r9
	jb	Laes_v2_BB43_17
	.p2align	4
Laes_v2_BB43_16:                              # %join.7.i.i.i.i.i.i.i
                                        # =>This Inner Loop Header: Depth=1
	movq	8(%rdx,%r8,8), %rax
	movq	%rax, (%r15,%r8,8)
	movq	16(%rdx,%r8,8), %rax
	movq	%rax, 8(%r15,%r8,8)
	movq	24(%rdx,%r8,8), %rax
	movq	%rax, 16(%r15,%r8,8)
	movq	32(%rdx,%r8,8), %rax
	movq	%rax, 24(%r15,%r8,8)
	addq	$4, %r8
	cmpq	%r8, %rdi
	jne	Laes_v2_BB43_16
	jmp	Laes_v2_BB43_17
Laes_v2_BB43_5:                               # %join.5
	movw	$1, (%rbx)
	jmp	Laes_v2_BB43_24
Laes_v2_BB43_6:                               # %apart.2.i.i.i.i.i.i.i
	movq	%r15, %rdi
	movq	%rsi, %r13
	movq	%rax, %rsi
	movq	%rdx, %rbp
	movq	%r8, %rdx
	callq	*_memmove@GOTPCREL(%rip)
	movq	%rbp, %rdx
	movq	%r13, %rsi
Laes_v2_BB43_17:                              # %"key_wrap::wrapping::copy_apart.exit"
	movq	(%rdx), %rax
	movq	%rax, (%rsp)
	movq	%rsp, %rax
	movq	%rsi, %rdi
	movq	%rax, %rsi
	movq	%r15, %rdx
	cmpq	$1, %r14
	jne	Laes_v2_BB43_19
# %bb.18:                               # %then.1.i
	callq	_aes_v2.key_wrap.steps.decrypt_halves
	jmp	Laes_v2_BB43_20
Laes_v2_BB43_19:                              # %else.2.i
	movq	%r14, %rcx
	callq	_aes_v2.key_wrap.steps.unwrap_in_place
Laes_v2_BB43_20:                              # %"key_wrap::steps::unwrap_string::<#bc4275ba8002e6b4>.exit"
	movl	(%rsp), %edi
	movl	4(%rsp), %ebp
	movl	%ebp, %esi
	movq	%r15, %rdx
	movq	%r14, %rcx
	callq	_aes_v2.key_wrap.padded.difference
	testq	%rax, %rax
	je	Laes_v2_BB43_26
# %bb.21:                               # %loop.5.preheader.i
	testq	%r12, %r12
	je	Laes_v2_BB43_23
# %bb.22:                               # %join.8.i.preheader
	leaq	-8(,%r14,8), %rdx
	movq	%r15, %rdi
	xorl	%esi, %esi
	callq	*_memset@GOTPCREL(%rip)
Laes_v2_BB43_23:                              # %"core::slice::edits::slice+T::fill::<#1e8902aced0720be>.exit"
	movq	$0, -8(%r15,%r14,8)
	movw	$257, (%rbx)                    # imm = 0x101
Laes_v2_BB43_24:                              # %common.ret
	movl	$0, 4(%rbx)
Laes_v2_BB43_25:                              # %common.ret
	addq	$8, %rsp
	popq	%rbx
	popq	%r12
	popq	%r13
	popq	%r14
	popq	%r15
	popq	%rbp
	retq
Laes_v2_BB43_26:                              # %join.16
	bswapl	%ebp
	movw	$0, (%rbx)
	movl	%ebp, 4(%rbx)
	jmp	Laes_v2_BB43_25
Laes_v2_BB43_9:                               # %vector.ph
	movq	%rdi, %r8
	andq	$-4, %r8
	xorl	%r9d, %r9d
	.p2align	4
Laes_v2_BB43_10:                              # %vector.body
                                        # =>This Inner Loop Header: Depth=1
	movups	8(%rdx,%r9,8), %xmm0
	movups	24(%rdx,%r9,8), %xmm1
	movups	%xmm0, (%r15,%r9,8)
	movups	%xmm1, 16(%r15,%r9,8)
	addq	$4, %r9
	cmpq	%r9, %r8
	jne	Laes_v2_BB43_10
# %bb.11:                               # %middle.block
	cmpq	%r8, %rdi
	je	Laes_v2_BB43_17
	jmp	Laes_v2_BB43_12
                                        # -- End function
	.section	__TEXT,__text,regular,pure_instructions
	.p2align	4                               # -- Begin function key_wrap::padded::difference
_aes_v2.key_wrap.padded.difference:         # @_aes_v2.key_wrap.padded.difference
# %bb.0:                                # %start
	pushq	%rbp
	pushq	%r15
	pushq	%r14
	pushq	%r13
	pushq	%r12
	pushq	%rbx
	subq	$24, %rsp
	movq	%rcx, 8(%rsp)                   # 8-byte Spill
	movq	%rdx, 16(%rsp)                  # 8-byte Spill
                                        # kill: def $esi killed $esi def $rsi
	movl	%edi, %ebx
	bswapl	%ebx
	bswapl	%esi
	leaq	(,%rcx,8), %rbp
	subq	%rsi, %rbp
	movl	%ebp, %r15d
	andl	$7, %r15d
	xorl	%edi, %edi
	movl	%r15d, %esi
	callq	_aes_v2.key_wrap.padded.mask_below
	movb	%al, 7(%rsp)                    # 1-byte Spill
	movl	$1, %edi
	movl	%r15d, %esi
	callq	_aes_v2.key_wrap.padded.mask_below
	movb	%al, 6(%rsp)                    # 1-byte Spill
	movl	$2, %edi
	movl	%r15d, %esi
	callq	_aes_v2.key_wrap.padded.mask_below
	movb	%al, 5(%rsp)                    # 1-byte Spill
	movl	$3, %edi
	movl	%r15d, %esi
	callq	_aes_v2.key_wrap.padded.mask_below
	movb	%al, 4(%rsp)                    # 1-byte Spill
	movl	$4, %edi
	movl	%r15d, %esi
	callq	_aes_v2.key_wrap.padded.mask_below
	movl	%eax, %r12d
	movl	$5, %edi
	movl	%r15d, %esi
	callq	_aes_v2.key_wrap.padded.mask_below
	movl	%eax, %r14d
	movl	$6, %edi
	movl	%r15d, %esi
	callq	_aes_v2.key_wrap.padded.mask_below
	movl	%eax, %r13d
	movl	$7, %edi
	movl	%r15d, %esi
	callq	_aes_v2.key_wrap.padded.mask_below
	movzbl	%al, %eax
	movd	%eax, %xmm0
	movzbl	%r13b, %eax
	pinsrb	$1, %eax, %xmm0
	movzbl	%r14b, %eax
	pinsrb	$2, %eax, %xmm0
	movzbl	%r12b, %eax
	pinsrb	$3, %eax, %xmm0
	movzbl	4(%rsp), %eax                   # 1-byte Folded Reload
	pinsrb	$4, %eax, %xmm0
	movzbl	5(%rsp), %eax                   # 1-byte Folded Reload
	pinsrb	$5, %eax, %xmm0
	movzbl	6(%rsp), %eax                   # 1-byte Folded Reload
	pinsrb	$6, %eax, %xmm0
	movq	16(%rsp), %rax                  # 8-byte Reload
	movq	8(%rsp), %rcx                   # 8-byte Reload
	movq	-8(%rax,%rcx,8), %xmm1          # xmm1 = mem[0],zero
	movzbl	7(%rsp), %eax                   # 1-byte Folded Reload
	pinsrb	$7, %eax, %xmm0
	pand	%xmm1, %xmm0
	pshufd	$85, %xmm0, %xmm1               # xmm1 = xmm0[1,1,1,1]
	por	%xmm0, %xmm1
	movdqa	%xmm1, %xmm0
	psrld	$16, %xmm0
	por	%xmm1, %xmm0
	movdqa	%xmm0, %xmm1
	psrlw	$8, %xmm1
	por	%xmm0, %xmm1
	pextrb	$0, %xmm1, %eax
	addl	$1504093786, %ebx               # imm = 0x59A6A65A
	shrq	$3, %rbp
	orq	%rbx, %rbp
	orq	%rbp, %rax
	addq	$24, %rsp
	popq	%rbx
	popq	%r12
	popq	%r13
	popq	%r14
	popq	%r15
	popq	%rbp
	retq
                                        # -- End function
	.section	__TEXT,__text,regular,pure_instructions
	.p2align	4                               # -- Begin function key_wrap::padded::mask_below
_aes_v2.key_wrap.padded.mask_below:         # @_aes_v2.key_wrap.padded.mask_below
# %bb.0:                                # %start
	movl	%edi, %eax
	subl	%esi, %eax
	shrl	$24, %eax
                                        # kill: def $al killed $al killed $eax
	retq
                                        # -- End function
	.section	__TEXT,__const
	.p2align	4, 0x0                          # -- Begin function aes_c::single_rounds::inverse_mixed
l_aes_v2_CPI46_0:
	.byte	0                               # 0x0
	.byte	4                               # 0x4
	.byte	8                               # 0x8
	.byte	12                              # 0xc
	.byte	1                               # 0x1
	.byte	5                               # 0x5
	.byte	9                               # 0x9
	.byte	13                              # 0xd
	.byte	2                               # 0x2
	.byte	6                               # 0x6
	.byte	10                              # 0xa
	.byte	14                              # 0xe
	.byte	3                               # 0x3
	.byte	7                               # 0x7
	.byte	11                              # 0xb
	.byte	15                              # 0xf
l_aes_v2_CPI46_1:
	.zero	16,1
l_aes_v2_CPI46_2:
	.zero	16,127
l_aes_v2_CPI46_3:
	.zero	16,170
l_aes_v2_CPI46_4:
	.zero	16,34
l_aes_v2_CPI46_5:
	.zero	16,204
l_aes_v2_CPI46_6:
	.zero	16,252
l_aes_v2_CPI46_7:
	.zero	16,240
	.section	__TEXT,__text,regular,pure_instructions
	.p2align	4
_aes_v2.aes_c.single_rounds.inverse_mixed:  # @_aes_v2.aes_c.single_rounds.inverse_mixed
# %bb.0:                                # %start
	movdqu	(%rdi), %xmm0
	pshufb	l_aes_v2_CPI46_0(%rip), %xmm0          # xmm0 = xmm0[0,4,8,12,1,5,9,13,2,6,10,14,3,7,11,15]
	movdqa	l_aes_v2_CPI46_1(%rip), %xmm1          # xmm1 = [1,1,1,1,1,1,1,1,1,1,1,1,1,1,1,1]
	pand	%xmm0, %xmm1
	pxor	%xmm7, %xmm7
	pxor	%xmm2, %xmm2
	psubb	%xmm1, %xmm2
	movdqa	%xmm2, %xmm12
	movdqa	%xmm0, %xmm1
	movdqa	%xmm0, %xmm2
	movdqa	%xmm0, %xmm3
	movdqa	%xmm0, %xmm6
	movdqa	%xmm0, %xmm9
	pcmpgtb	%xmm0, %xmm7
	psllw	$6, %xmm0
	pxor	%xmm5, %xmm5
	pcmpgtb	%xmm0, %xmm5
	psllw	$5, %xmm1
	pxor	%xmm15, %xmm15
	pcmpgtb	%xmm1, %xmm15
	psllw	$4, %xmm2
	pxor	%xmm10, %xmm10
	pcmpgtb	%xmm2, %xmm10
	psllw	$3, %xmm3
	pxor	%xmm1, %xmm1
	pcmpgtb	%xmm3, %xmm1
	psllw	$2, %xmm6
	pxor	%xmm0, %xmm0
	pcmpgtb	%xmm6, %xmm0
	movdqa	%xmm0, %xmm3
	paddb	%xmm9, %xmm9
	pxor	%xmm4, %xmm4
	pcmpgtb	%xmm9, %xmm4
	pshufd	$57, %xmm12, %xmm11             # xmm11 = xmm12[1,2,3,0]
	pshufd	$57, %xmm5, %xmm0               # xmm0 = xmm5[1,2,3,0]
	pshufd	$57, %xmm15, %xmm2              # xmm2 = xmm15[1,2,3,0]
	pshufd	$57, %xmm10, %xmm9              # xmm9 = xmm10[1,2,3,0]
	pshufd	$57, %xmm1, %xmm6               # xmm6 = xmm1[1,2,3,0]
	pshufd	$57, %xmm3, %xmm14              # xmm14 = xmm3[1,2,3,0]
	pshufd	$57, %xmm4, %xmm8               # xmm8 = xmm4[1,2,3,0]
	pxor	%xmm12, %xmm11
	movdqa	%xmm12, %xmm13
	pxor	%xmm5, %xmm0
	pxor	%xmm15, %xmm2
	pxor	%xmm10, %xmm9
	pxor	%xmm1, %xmm6
	pxor	%xmm3, %xmm14
	pxor	%xmm4, %xmm8
	pshufd	$57, %xmm7, %xmm12              # xmm12 = xmm7[1,2,3,0]
	pxor	%xmm7, %xmm12
	pxor	%xmm12, %xmm13
	movdqa	%xmm13, -24(%rsp)               # 16-byte Spill
	pxor	%xmm12, %xmm5
	pxor	%xmm0, %xmm15
	pxor	%xmm12, %xmm10
	pxor	%xmm2, %xmm10
	pxor	%xmm12, %xmm1
	pxor	%xmm6, %xmm3
	movdqa	%xmm3, -40(%rsp)                # 16-byte Spill
	pxor	%xmm14, %xmm4
	pxor	%xmm8, %xmm7
	pxor	%xmm7, %xmm2
	pxor	%xmm7, %xmm14
	pxor	%xmm3, %xmm12
	pshufd	$78, %xmm12, %xmm13             # xmm13 = xmm12[2,3,0,1]
	pxor	%xmm7, %xmm13
	pxor	%xmm4, %xmm7
	movdqa	%xmm0, %xmm3
	pxor	%xmm7, %xmm3
	pxor	%xmm15, %xmm6
	pxor	%xmm7, %xmm6
	pxor	%xmm11, %xmm5
	pxor	%xmm4, %xmm11
	movdqa	-24(%rsp), %xmm0                # 16-byte Reload
	pxor	%xmm0, %xmm2
	pshufd	$78, %xmm11, %xmm7              # xmm7 = xmm11[2,3,0,1]
	pxor	%xmm0, %xmm11
	pxor	%xmm7, %xmm11
	pshufd	$78, %xmm2, %xmm7               # xmm7 = xmm2[2,3,0,1]
	pxor	%xmm15, %xmm2
	pxor	%xmm9, %xmm1
	pxor	%xmm1, %xmm8
	pxor	%xmm7, %xmm2
	pshufd	$78, %xmm6, %xmm7               # xmm7 = xmm6[2,3,0,1]
	pxor	%xmm1, %xmm6
	pxor	%xmm4, %xmm9
	pxor	%xmm7, %xmm6
	pshufd	$78, %xmm8, %xmm1               # xmm1 = xmm8[2,3,0,1]
	pxor	%xmm4, %xmm8
	pxor	%xmm5, %xmm9
	pxor	%xmm10, %xmm14
	pxor	%xmm1, %xmm8
	pshufd	$78, %xmm3, %xmm1               # xmm1 = xmm3[2,3,0,1]
	pxor	%xmm5, %xmm1
	movdqa	%xmm11, %xmm0
	psrlw	$1, %xmm0
	pxor	%xmm3, %xmm1
	movdqa	l_aes_v2_CPI46_2(%rip), %xmm7          # xmm7 = [127,127,127,127,127,127,127,127,127,127,127,127,127,127,127,127]
	pand	%xmm7, %xmm0
	pxor	%xmm0, %xmm1
	paddb	%xmm1, %xmm1
	movdqa	l_aes_v2_CPI46_3(%rip), %xmm3          # xmm3 = [170,170,170,170,170,170,170,170,170,170,170,170,170,170,170,170]
	pand	%xmm3, %xmm1
	pxor	%xmm11, %xmm1
	pshufd	$78, %xmm9, %xmm0               # xmm0 = xmm9[2,3,0,1]
	pxor	%xmm10, %xmm0
	movdqa	%xmm2, %xmm5
	psrlw	$1, %xmm5
	pand	%xmm7, %xmm5
	pxor	%xmm5, %xmm0
	pxor	%xmm9, %xmm0
	pshufd	$78, %xmm14, %xmm5              # xmm5 = xmm14[2,3,0,1]
	pxor	-40(%rsp), %xmm5                # 16-byte Folded Reload
	pxor	%xmm14, %xmm5
	movdqa	%xmm6, %xmm4
	psrlw	$1, %xmm4
	pand	%xmm7, %xmm4
	pxor	%xmm4, %xmm5
	paddb	%xmm5, %xmm5
	pand	%xmm3, %xmm5
	pxor	%xmm6, %xmm5
	movdqa	%xmm8, %xmm4
	psrlw	$1, %xmm4
	pand	%xmm7, %xmm4
	pxor	%xmm12, %xmm13
	paddb	%xmm0, %xmm0
	pxor	%xmm4, %xmm13
	movdqa	l_aes_v2_CPI46_4(%rip), %xmm4          # xmm4 = [34,34,34,34,34,34,34,34,34,34,34,34,34,34,34,34]
	pand	%xmm4, %xmm0
	pxor	%xmm2, %xmm0
	movdqa	%xmm1, %xmm2
	psrlw	$2, %xmm2
	pxor	%xmm2, %xmm0
	paddb	%xmm13, %xmm13
	psllw	$2, %xmm0
	pand	l_aes_v2_CPI46_5(%rip), %xmm0
	pand	%xmm4, %xmm13
	pxor	%xmm8, %xmm13
	movdqa	%xmm5, %xmm2
	psrlw	$2, %xmm2
	pxor	%xmm2, %xmm13
	psllw	$2, %xmm13
	pand	l_aes_v2_CPI46_6(%rip), %xmm13
	pxor	%xmm1, %xmm0
	pxor	%xmm5, %xmm13
	movdqa	%xmm0, %xmm1
	psrlw	$4, %xmm1
	pxor	%xmm1, %xmm13
	psllw	$4, %xmm13
	pand	l_aes_v2_CPI46_7(%rip), %xmm13
	pxor	%xmm0, %xmm13
	pshufb	l_aes_v2_CPI46_0(%rip), %xmm13         # xmm13 = xmm13[0,4,8,12,1,5,9,13,2,6,10,14,3,7,11,15]
	movdqu	%xmm13, (%rdi)
	retq
                                        # -- End function
	.section	__TEXT,__const
	.p2align	4, 0x0                          # -- Begin function aes_c::single_rounds::inverse_round
l_aes_v2_CPI47_0:
	.byte	0                               # 0x0
	.byte	4                               # 0x4
	.byte	8                               # 0x8
	.byte	12                              # 0xc
	.byte	1                               # 0x1
	.byte	5                               # 0x5
	.byte	9                               # 0x9
	.byte	13                              # 0xd
	.byte	2                               # 0x2
	.byte	6                               # 0x6
	.byte	10                              # 0xa
	.byte	14                              # 0xe
	.byte	3                               # 0x3
	.byte	7                               # 0x7
	.byte	11                              # 0xb
	.byte	15                              # 0xf
l_aes_v2_CPI47_1:
	.zero	16,1
l_aes_v2_CPI47_2:
	.zero	16,2
l_aes_v2_CPI47_3:
	.zero	16,32
l_aes_v2_CPI47_4:
	.zero	16,64
l_aes_v2_CPI47_5:
	.byte	0                               # 0x0
	.byte	0                               # 0x0
	.byte	0                               # 0x0
	.byte	0                               # 0x0
	.byte	0                               # 0x0
	.byte	255                             # 0xff
	.byte	0                               # 0x0
	.byte	0                               # 0x0
	.byte	255                             # 0xff
	.byte	255                             # 0xff
	.byte	0                               # 0x0
	.byte	0                               # 0x0
	.byte	255                             # 0xff
	.byte	0                               # 0x0
	.byte	0                               # 0x0
	.byte	0                               # 0x0
l_aes_v2_CPI47_6:
	.byte	0                               # 0x0
	.byte	0                               # 0x0
	.byte	0                               # 0x0
	.byte	0                               # 0x0
	.byte	255                             # 0xff
	.byte	0                               # 0x0
	.byte	255                             # 0xff
	.byte	0                               # 0x0
	.byte	0                               # 0x0
	.byte	0                               # 0x0
	.byte	0                               # 0x0
	.byte	0                               # 0x0
	.byte	255                             # 0xff
	.byte	0                               # 0x0
	.byte	255                             # 0xff
	.byte	0                               # 0x0
l_aes_v2_CPI47_7:
	.zero	16,127
l_aes_v2_CPI47_8:
	.zero	16,170
l_aes_v2_CPI47_9:
	.zero	16,34
l_aes_v2_CPI47_10:
	.zero	16,204
l_aes_v2_CPI47_11:
	.zero	16,252
l_aes_v2_CPI47_12:
	.zero	16,240
	.section	__TEXT,__text,regular,pure_instructions
	.p2align	4
_aes_v2.aes_c.single_rounds.inverse_round:  # @_aes_v2.aes_c.single_rounds.inverse_round
# %bb.0:                                # %start
	subq	$120, %rsp
	movdqu	(%rdi), %xmm12
	pshufb	l_aes_v2_CPI47_0(%rip), %xmm12         # xmm12 = xmm12[0,4,8,12,1,5,9,13,2,6,10,14,3,7,11,15]
	movdqa	l_aes_v2_CPI47_1(%rip), %xmm3          # xmm3 = [1,1,1,1,1,1,1,1,1,1,1,1,1,1,1,1]
	pand	%xmm12, %xmm3
	movdqa	l_aes_v2_CPI47_2(%rip), %xmm14         # xmm14 = [2,2,2,2,2,2,2,2,2,2,2,2,2,2,2,2]
	pand	%xmm12, %xmm14
	pxor	%xmm7, %xmm7
	movdqa	%xmm12, %xmm0
	psllw	$5, %xmm0
	pxor	%xmm2, %xmm2
	pcmpgtb	%xmm0, %xmm2
	movdqa	%xmm12, %xmm0
	psllw	$4, %xmm0
	pxor	%xmm5, %xmm5
	pcmpgtb	%xmm0, %xmm5
	movdqa	%xmm12, %xmm0
	psllw	$3, %xmm0
	pxor	%xmm4, %xmm4
	pcmpgtb	%xmm0, %xmm4
	movdqa	l_aes_v2_CPI47_3(%rip), %xmm8          # xmm8 = [32,32,32,32,32,32,32,32,32,32,32,32,32,32,32,32]
	pand	%xmm12, %xmm8
	pxor	%xmm6, %xmm6
	pcmpgtb	%xmm12, %xmm6
	pand	l_aes_v2_CPI47_4(%rip), %xmm12
	pcmpeqd	%xmm1, %xmm1
	paddb	%xmm3, %xmm1
	pcmpeqb	%xmm7, %xmm14
	pcmpeqb	%xmm7, %xmm8
	pcmpeqb	%xmm7, %xmm12
	movdqa	%xmm1, %xmm13
	pxor	%xmm14, %xmm13
	movdqa	%xmm6, %xmm0
	movdqa	%xmm8, %xmm9
	pxor	%xmm2, %xmm9
	movdqa	%xmm12, %xmm7
	pxor	%xmm4, %xmm7
	movdqa	%xmm8, %xmm10
	pxor	%xmm5, %xmm10
	movdqa	%xmm12, %xmm3
	pxor	%xmm14, %xmm3
	pxor	%xmm3, %xmm10
	movdqa	%xmm10, 16(%rsp)                # 16-byte Spill
	movdqa	%xmm3, %xmm15
	movdqa	%xmm7, %xmm3
	pxor	%xmm9, %xmm3
	movdqa	%xmm3, -128(%rsp)               # 16-byte Spill
	pxor	%xmm6, %xmm9
	movdqa	%xmm9, -96(%rsp)                # 16-byte Spill
	pxor	%xmm4, %xmm6
	movdqa	%xmm6, -80(%rsp)                # 16-byte Spill
	pxor	%xmm5, %xmm4
	pxor	%xmm2, %xmm14
	movdqa	%xmm4, %xmm3
	pxor	%xmm13, %xmm3
	movdqa	%xmm3, -48(%rsp)                # 16-byte Spill
	movdqa	%xmm10, %xmm2
	por	%xmm3, %xmm2
	movdqa	%xmm4, %xmm11
	pxor	%xmm1, %xmm11
	movdqa	%xmm11, 64(%rsp)                # 16-byte Spill
	pand	%xmm7, %xmm11
	movdqa	%xmm7, -32(%rsp)                # 16-byte Spill
	pxor	%xmm2, %xmm11
	movdqa	%xmm0, %xmm2
	pxor	%xmm12, %xmm2
	pxor	%xmm6, %xmm12
	movdqa	%xmm12, %xmm3
	pxor	%xmm5, %xmm3
	movdqa	%xmm3, 80(%rsp)                 # 16-byte Spill
	pxor	%xmm5, %xmm1
	movdqa	%xmm4, %xmm0
	movdqa	%xmm4, -64(%rsp)                # 16-byte Spill
	pxor	%xmm14, %xmm0
	pand	%xmm0, %xmm3
	movdqa	%xmm0, -16(%rsp)                # 16-byte Spill
	movdqa	%xmm2, %xmm10
	pxor	%xmm1, %xmm10
	movdqa	%xmm10, %xmm5
	pand	%xmm2, %xmm5
	movdqa	%xmm2, %xmm9
	movdqa	%xmm2, 96(%rsp)                 # 16-byte Spill
	movdqa	%xmm10, %xmm2
	movdqa	%xmm10, 32(%rsp)                # 16-byte Spill
	pxor	%xmm0, %xmm2
	pand	%xmm4, %xmm2
	pxor	%xmm2, %xmm3
	pxor	%xmm5, %xmm2
	pxor	%xmm13, %xmm9
	movdqa	%xmm9, 48(%rsp)                 # 16-byte Spill
	pxor	%xmm7, %xmm13
	movdqa	%xmm15, %xmm4
	pxor	%xmm1, %xmm4
	movdqa	%xmm4, (%rsp)                   # 16-byte Spill
	movdqa	%xmm13, %xmm15
	movdqa	%xmm13, %xmm5
	movdqa	%xmm13, -112(%rsp)              # 16-byte Spill
	pand	-96(%rsp), %xmm15               # 16-byte Folded Reload
	pxor	%xmm1, %xmm15
	movdqa	%xmm9, %xmm1
	pand	-128(%rsp), %xmm1               # 16-byte Folded Reload
	movdqa	%xmm12, %xmm7
	movdqa	-80(%rsp), %xmm6                # 16-byte Reload
	pand	%xmm6, %xmm7
	pxor	%xmm1, %xmm15
	pxor	%xmm14, %xmm7
	pxor	%xmm10, %xmm7
	pxor	%xmm1, %xmm7
	pxor	%xmm3, %xmm11
	pxor	%xmm3, %xmm7
	movdqa	16(%rsp), %xmm10                # 16-byte Reload
	movdqa	-48(%rsp), %xmm13               # 16-byte Reload
	pand	%xmm13, %xmm10
	pxor	%xmm8, %xmm5
	pxor	%xmm8, %xmm10
	movdqa	%xmm5, %xmm0
	pand	%xmm4, %xmm0
	pxor	%xmm0, %xmm10
	pxor	%xmm2, %xmm15
	movdqa	-64(%rsp), %xmm8                # 16-byte Reload
	pxor	%xmm8, %xmm10
	pxor	%xmm2, %xmm10
	movdqa	%xmm7, %xmm1
	pand	%xmm11, %xmm1
	movdqa	%xmm1, %xmm0
	pxor	%xmm15, %xmm0
	movdqa	%xmm10, %xmm3
	pxor	%xmm11, %xmm3
	movdqa	%xmm1, %xmm9
	pxor	%xmm10, %xmm9
	pand	%xmm3, %xmm0
	pxor	%xmm10, %xmm0
	pand	%xmm7, %xmm10
	pxor	%xmm15, %xmm7
	pand	%xmm7, %xmm10
	pand	%xmm7, %xmm9
	pxor	%xmm1, %xmm7
	pxor	%xmm10, %xmm7
	pxor	%xmm15, %xmm9
	movdqa	%xmm7, %xmm4
	pxor	%xmm9, %xmm4
	pand	%xmm4, %xmm13
	movdqa	%xmm13, -48(%rsp)               # 16-byte Spill
	pand	16(%rsp), %xmm4                 # 16-byte Folded Reload
	movdqa	(%rsp), %xmm2                   # 16-byte Reload
	pand	%xmm9, %xmm2
	movdqa	%xmm2, (%rsp)                   # 16-byte Spill
	movdqa	%xmm9, %xmm10
	pand	%xmm5, %xmm9
	pand	%xmm11, %xmm15
	pandn	%xmm3, %xmm15
	pxor	%xmm1, %xmm15
	pxor	%xmm0, %xmm10
	movdqa	-32(%rsp), %xmm2                # 16-byte Reload
	pand	%xmm7, %xmm2
	movdqa	%xmm2, -32(%rsp)                # 16-byte Spill
	movdqa	-96(%rsp), %xmm11               # 16-byte Reload
	pand	%xmm0, %xmm11
	movdqa	-112(%rsp), %xmm1               # 16-byte Reload
	pand	%xmm0, %xmm1
	movdqa	%xmm1, -112(%rsp)               # 16-byte Spill
	movdqa	64(%rsp), %xmm3                 # 16-byte Reload
	pand	%xmm7, %xmm3
	pxor	%xmm15, %xmm7
	pand	%xmm15, %xmm6
	movdqa	%xmm6, -80(%rsp)                # 16-byte Spill
	pxor	%xmm15, %xmm0
	pand	%xmm12, %xmm15
	movdqa	-128(%rsp), %xmm5               # 16-byte Reload
	pand	%xmm0, %xmm5
	pand	48(%rsp), %xmm0                 # 16-byte Folded Reload
	pand	%xmm10, %xmm8
	movdqa	32(%rsp), %xmm6                 # 16-byte Reload
	pxor	%xmm6, %xmm14
	pand	%xmm10, %xmm14
	pxor	%xmm7, %xmm10
	movdqa	-16(%rsp), %xmm13               # 16-byte Reload
	pand	%xmm10, %xmm13
	pxor	%xmm3, %xmm13
	pxor	%xmm3, %xmm15
	pand	80(%rsp), %xmm10                # 16-byte Folded Reload
	pand	%xmm7, %xmm6
	pand	96(%rsp), %xmm7                 # 16-byte Folded Reload
	movdqa	%xmm4, %xmm1
	pxor	%xmm9, %xmm1
	movdqa	%xmm14, %xmm3
	pxor	%xmm2, %xmm3
	movdqa	-48(%rsp), %xmm2                # 16-byte Reload
	pxor	%xmm2, %xmm3
	pxor	%xmm5, %xmm9
	pxor	%xmm3, %xmm13
	movdqa	%xmm13, -16(%rsp)               # 16-byte Spill
	movdqa	%xmm11, %xmm12
	pxor	%xmm11, %xmm5
	movdqa	%xmm10, %xmm11
	movdqa	%xmm6, %xmm13
	pxor	%xmm6, %xmm11
	pxor	%xmm11, %xmm3
	pxor	%xmm7, %xmm0
	pxor	%xmm9, %xmm7
	pxor	%xmm15, %xmm9
	pxor	%xmm3, %xmm9
	movdqa	%xmm9, -96(%rsp)                # 16-byte Spill
	pxor	%xmm3, %xmm5
	movdqa	%xmm5, -128(%rsp)               # 16-byte Spill
	pxor	%xmm1, %xmm3
	movdqa	-80(%rsp), %xmm6                # 16-byte Reload
	pxor	%xmm12, %xmm6
	pxor	(%rsp), %xmm14                  # 16-byte Folded Reload
	pxor	%xmm4, %xmm10
	pxor	%xmm4, %xmm15
	pxor	%xmm14, %xmm15
	movdqa	-112(%rsp), %xmm4               # 16-byte Reload
	pxor	%xmm4, %xmm8
	pxor	%xmm6, %xmm4
	pxor	%xmm4, %xmm2
	pxor	%xmm11, %xmm2
	pxor	%xmm15, %xmm2
	movdqa	-16(%rsp), %xmm1                # 16-byte Reload
	pxor	%xmm1, %xmm10
	pxor	%xmm4, %xmm7
	pxor	%xmm1, %xmm7
	pxor	%xmm0, %xmm8
	pxor	-32(%rsp), %xmm6                # 16-byte Folded Reload
	pxor	%xmm13, %xmm6
	pxor	%xmm0, %xmm6
	pxor	%xmm15, %xmm6
	movdqa	%xmm8, -64(%rsp)                # 16-byte Spill
	movdqa	%xmm8, %xmm15
	psrld	$16, %xmm15
	pxor	%xmm8, %xmm15
	movdqa	l_aes_v2_CPI47_5(%rip), %xmm5          # xmm5 = [0,0,0,0,0,255,0,0,255,255,0,0,255,0,0,0]
	pand	%xmm5, %xmm15
	movdqa	%xmm10, %xmm9
	psrld	$16, %xmm9
	pxor	%xmm10, %xmm9
	pand	%xmm5, %xmm9
	movdqa	-96(%rsp), %xmm8                # 16-byte Reload
	movdqa	%xmm8, %xmm12
	psrld	$16, %xmm12
	pxor	%xmm8, %xmm12
	pand	%xmm5, %xmm12
	movdqa	%xmm7, %xmm13
	psrld	$16, %xmm13
	pxor	%xmm7, %xmm13
	pand	%xmm5, %xmm13
	movdqa	-128(%rsp), %xmm1               # 16-byte Reload
	movdqa	%xmm1, %xmm11
	psrld	$16, %xmm11
	pxor	%xmm1, %xmm11
	pand	%xmm5, %xmm11
	movdqa	%xmm2, %xmm0
	movdqa	%xmm2, %xmm4
	psrld	$16, %xmm4
	pxor	%xmm2, %xmm4
	pand	%xmm5, %xmm4
	movdqa	%xmm6, %xmm2
	psrld	$16, %xmm2
	pxor	%xmm6, %xmm2
	pand	%xmm5, %xmm2
	movdqa	%xmm3, %xmm14
	psrld	$16, %xmm14
	pxor	%xmm3, %xmm14
	pand	%xmm5, %xmm14
	pxor	%xmm2, %xmm6
	pslldq	$2, %xmm2                       # xmm2 = zero,zero,xmm2[0,1,2,3,4,5,6,7,8,9,10,11,12,13]
	pxor	%xmm6, %xmm2
	pxor	%xmm4, %xmm0
	pslldq	$2, %xmm4                       # xmm4 = zero,zero,xmm4[0,1,2,3,4,5,6,7,8,9,10,11,12,13]
	pxor	%xmm0, %xmm4
	movdqa	%xmm11, %xmm0
	pxor	%xmm1, %xmm11
	movdqa	%xmm15, %xmm1
	pslldq	$2, %xmm1                       # xmm1 = zero,zero,xmm1[0,1,2,3,4,5,6,7,8,9,10,11,12,13]
	pslldq	$2, %xmm0                       # xmm0 = zero,zero,xmm0[0,1,2,3,4,5,6,7,8,9,10,11,12,13]
	pxor	%xmm0, %xmm11
	movdqa	%xmm13, %xmm0
	pxor	%xmm7, %xmm13
	movdqa	%xmm9, %xmm6
	pslldq	$2, %xmm6                       # xmm6 = zero,zero,xmm6[0,1,2,3,4,5,6,7,8,9,10,11,12,13]
	pslldq	$2, %xmm0                       # xmm0 = zero,zero,xmm0[0,1,2,3,4,5,6,7,8,9,10,11,12,13]
	pxor	%xmm0, %xmm13
	movdqa	%xmm12, %xmm0
	pslldq	$2, %xmm0                       # xmm0 = zero,zero,xmm0[0,1,2,3,4,5,6,7,8,9,10,11,12,13]
	pxor	%xmm8, %xmm12
	movdqa	%xmm14, %xmm5
	pslldq	$2, %xmm5                       # xmm5 = zero,zero,xmm5[0,1,2,3,4,5,6,7,8,9,10,11,12,13]
	pxor	%xmm0, %xmm12
	pxor	%xmm10, %xmm9
	pxor	%xmm6, %xmm9
	pxor	-64(%rsp), %xmm15               # 16-byte Folded Reload
	pxor	%xmm1, %xmm15
	movdqa	%xmm15, -128(%rsp)              # 16-byte Spill
	pxor	%xmm3, %xmm14
	pxor	%xmm5, %xmm14
	movdqa	%xmm15, %xmm5
	psrlw	$8, %xmm5
	pxor	%xmm15, %xmm5
	movdqa	l_aes_v2_CPI47_6(%rip), %xmm7          # xmm7 = [0,0,0,0,255,0,255,0,0,0,0,0,255,0,255,0]
	pand	%xmm7, %xmm5
	movdqa	%xmm9, %xmm3
	psrlw	$8, %xmm3
	pxor	%xmm9, %xmm3
	pand	%xmm7, %xmm3
	movdqa	%xmm12, %xmm6
	psrlw	$8, %xmm6
	pxor	%xmm12, %xmm6
	pand	%xmm7, %xmm6
	movdqa	%xmm13, %xmm10
	psrlw	$8, %xmm10
	pxor	%xmm13, %xmm10
	pand	%xmm7, %xmm10
	movdqa	%xmm11, %xmm8
	psrlw	$8, %xmm8
	pxor	%xmm11, %xmm8
	pand	%xmm7, %xmm8
	movdqa	%xmm4, %xmm0
	psrlw	$8, %xmm0
	pxor	%xmm4, %xmm0
	pand	%xmm7, %xmm0
	movdqa	%xmm2, %xmm15
	psrlw	$8, %xmm15
	pxor	%xmm2, %xmm15
	pand	%xmm7, %xmm15
	movdqa	%xmm14, %xmm1
	psrlw	$8, %xmm1
	pxor	%xmm14, %xmm1
	pand	%xmm7, %xmm1
	pxor	%xmm15, %xmm2
	pslldq	$1, %xmm15                      # xmm15 = zero,xmm15[0,1,2,3,4,5,6,7,8,9,10,11,12,13,14]
	pxor	%xmm2, %xmm15
	pxor	%xmm0, %xmm4
	pslldq	$1, %xmm0                       # xmm0 = zero,xmm0[0,1,2,3,4,5,6,7,8,9,10,11,12,13,14]
	pxor	%xmm4, %xmm0
	movdqa	%xmm8, %xmm2
	pxor	%xmm11, %xmm8
	movdqa	%xmm5, %xmm4
	pslldq	$1, %xmm4                       # xmm4 = zero,xmm4[0,1,2,3,4,5,6,7,8,9,10,11,12,13,14]
	pslldq	$1, %xmm2                       # xmm2 = zero,xmm2[0,1,2,3,4,5,6,7,8,9,10,11,12,13,14]
	pxor	%xmm2, %xmm8
	movdqa	%xmm10, %xmm2
	pxor	%xmm13, %xmm10
	movdqa	%xmm3, %xmm7
	pslldq	$1, %xmm7                       # xmm7 = zero,xmm7[0,1,2,3,4,5,6,7,8,9,10,11,12,13,14]
	pslldq	$1, %xmm2                       # xmm2 = zero,xmm2[0,1,2,3,4,5,6,7,8,9,10,11,12,13,14]
	pxor	%xmm2, %xmm10
	movdqa	%xmm6, %xmm2
	pslldq	$1, %xmm2                       # xmm2 = zero,xmm2[0,1,2,3,4,5,6,7,8,9,10,11,12,13,14]
	pxor	%xmm12, %xmm6
	movdqa	%xmm1, %xmm11
	pslldq	$1, %xmm11                      # xmm11 = zero,xmm11[0,1,2,3,4,5,6,7,8,9,10,11,12,13,14]
	pxor	%xmm2, %xmm6
	pxor	%xmm9, %xmm3
	pxor	%xmm7, %xmm3
	pxor	-128(%rsp), %xmm5               # 16-byte Folded Reload
	pxor	%xmm4, %xmm5
	pxor	%xmm14, %xmm1
	pxor	%xmm11, %xmm1
	pshufd	$57, %xmm5, %xmm13              # xmm13 = xmm5[1,2,3,0]
	pshufd	$57, %xmm3, %xmm2               # xmm2 = xmm3[1,2,3,0]
	pshufd	$57, %xmm6, %xmm7               # xmm7 = xmm6[1,2,3,0]
	pshufd	$57, %xmm10, %xmm12             # xmm12 = xmm10[1,2,3,0]
	pshufd	$57, %xmm8, %xmm9               # xmm9 = xmm8[1,2,3,0]
	pshufd	$57, %xmm0, %xmm11              # xmm11 = xmm0[1,2,3,0]
	pshufd	$57, %xmm15, %xmm4              # xmm4 = xmm15[1,2,3,0]
	pxor	%xmm5, %xmm13
	pxor	%xmm3, %xmm2
	movdqa	%xmm2, %xmm14
	movdqa	%xmm2, -112(%rsp)               # 16-byte Spill
	pxor	%xmm6, %xmm7
	pxor	%xmm10, %xmm12
	pxor	%xmm8, %xmm9
	pxor	%xmm0, %xmm11
	pxor	%xmm15, %xmm4
	pshufd	$57, %xmm1, %xmm2               # xmm2 = xmm1[1,2,3,0]
	pxor	%xmm1, %xmm2
	pxor	%xmm13, %xmm3
	pxor	%xmm2, %xmm3
	pxor	%xmm14, %xmm6
	pxor	%xmm2, %xmm8
	pxor	%xmm12, %xmm8
	pxor	%xmm9, %xmm0
	pxor	%xmm11, %xmm15
	pxor	%xmm4, %xmm1
	pxor	%xmm15, %xmm13
	pxor	%xmm3, %xmm12
	pxor	%xmm15, %xmm12
	pxor	%xmm8, %xmm4
	pshufd	$78, %xmm4, %xmm14              # xmm14 = xmm4[2,3,0,1]
	movdqa	%xmm14, -128(%rsp)              # 16-byte Spill
	pxor	%xmm15, %xmm4
	pxor	%xmm1, %xmm15
	movdqa	-112(%rsp), %xmm14              # 16-byte Reload
	pxor	%xmm15, %xmm14
	pxor	%xmm6, %xmm9
	pxor	%xmm15, %xmm9
	pxor	%xmm2, %xmm5
	pxor	%xmm2, %xmm10
	pxor	%xmm7, %xmm10
	pxor	%xmm1, %xmm7
	pxor	%xmm5, %xmm7
	pshufd	$78, %xmm13, %xmm15             # xmm15 = xmm13[2,3,0,1]
	pxor	%xmm5, %xmm13
	pxor	%xmm15, %xmm13
	pshufd	$78, %xmm7, %xmm5               # xmm5 = xmm7[2,3,0,1]
	pxor	%xmm6, %xmm7
	pxor	%xmm5, %xmm7
	pshufd	$78, %xmm9, %xmm5               # xmm5 = xmm9[2,3,0,1]
	pxor	%xmm8, %xmm9
	pxor	%xmm5, %xmm9
	pxor	%xmm1, %xmm11
	pxor	%xmm10, %xmm11
	pxor	-128(%rsp), %xmm4               # 16-byte Folded Reload
	pshufd	$78, %xmm14, %xmm5              # xmm5 = xmm14[2,3,0,1]
	pxor	%xmm3, %xmm5
	movdqa	%xmm13, %xmm3
	psrlw	$1, %xmm3
	pxor	%xmm14, %xmm5
	movdqa	l_aes_v2_CPI47_7(%rip), %xmm8          # xmm8 = [127,127,127,127,127,127,127,127,127,127,127,127,127,127,127,127]
	pand	%xmm8, %xmm3
	pxor	%xmm3, %xmm5
	paddb	%xmm5, %xmm5
	movdqa	l_aes_v2_CPI47_8(%rip), %xmm14         # xmm14 = [170,170,170,170,170,170,170,170,170,170,170,170,170,170,170,170]
	pand	%xmm14, %xmm5
	pxor	%xmm13, %xmm5
	pshufd	$78, %xmm12, %xmm3              # xmm3 = xmm12[2,3,0,1]
	pxor	%xmm10, %xmm3
	pxor	%xmm0, %xmm2
	pxor	%xmm12, %xmm3
	movdqa	%xmm7, %xmm6
	psrlw	$1, %xmm6
	pand	%xmm8, %xmm6
	pxor	%xmm6, %xmm3
	pshufd	$78, %xmm11, %xmm6              # xmm6 = xmm11[2,3,0,1]
	pxor	%xmm0, %xmm6
	pxor	%xmm11, %xmm6
	movdqa	%xmm9, %xmm0
	psrlw	$1, %xmm0
	pand	%xmm8, %xmm0
	pxor	%xmm0, %xmm6
	paddb	%xmm6, %xmm6
	pand	%xmm14, %xmm6
	pxor	%xmm9, %xmm6
	movdqa	%xmm4, %xmm9
	psrlw	$1, %xmm9
	pand	%xmm8, %xmm9
	pshufd	$78, %xmm2, %xmm0               # xmm0 = xmm2[2,3,0,1]
	pxor	%xmm1, %xmm0
	pxor	%xmm2, %xmm0
	paddb	%xmm3, %xmm3
	pxor	%xmm9, %xmm0
	movdqa	l_aes_v2_CPI47_9(%rip), %xmm1          # xmm1 = [34,34,34,34,34,34,34,34,34,34,34,34,34,34,34,34]
	pand	%xmm1, %xmm3
	paddb	%xmm0, %xmm0
	pand	%xmm1, %xmm0
	pxor	%xmm7, %xmm3
	movdqa	%xmm5, %xmm1
	psrlw	$2, %xmm1
	pxor	%xmm1, %xmm3
	psllw	$2, %xmm3
	pand	l_aes_v2_CPI47_10(%rip), %xmm3
	pxor	%xmm5, %xmm3
	pxor	%xmm4, %xmm0
	movdqa	%xmm6, %xmm1
	psrlw	$2, %xmm1
	pxor	%xmm1, %xmm0
	psllw	$2, %xmm0
	pand	l_aes_v2_CPI47_11(%rip), %xmm0
	pxor	%xmm6, %xmm0
	movdqa	%xmm3, %xmm1
	psrlw	$4, %xmm1
	pxor	%xmm1, %xmm0
	psllw	$4, %xmm0
	pand	l_aes_v2_CPI47_12(%rip), %xmm0
	pxor	%xmm3, %xmm0
	pshufb	l_aes_v2_CPI47_0(%rip), %xmm0          # xmm0 = xmm0[0,4,8,12,1,5,9,13,2,6,10,14,3,7,11,15]
	movdqu	(%rsi), %xmm1
	pxor	%xmm0, %xmm1
	movdqu	%xmm1, (%rdi)
	addq	$120, %rsp
	retq
                                        # -- End function
	.section	__TEXT,__const
	.p2align	4, 0x0                          # -- Begin function aes_c::single_rounds::inverse_rounds
l_aes_v2_CPI48_0:
	.byte	0                               # 0x0
	.byte	4                               # 0x4
	.byte	8                               # 0x8
	.byte	12                              # 0xc
	.byte	1                               # 0x1
	.byte	5                               # 0x5
	.byte	9                               # 0x9
	.byte	13                              # 0xd
	.byte	2                               # 0x2
	.byte	6                               # 0x6
	.byte	10                              # 0xa
	.byte	14                              # 0xe
	.byte	3                               # 0x3
	.byte	7                               # 0x7
	.byte	11                              # 0xb
	.byte	15                              # 0xf
l_aes_v2_CPI48_1:
	.zero	16,85
l_aes_v2_CPI48_2:
	.zero	16,51
l_aes_v2_CPI48_3:
	.zero	16,15
l_aes_v2_CPI48_4:
	.byte	0                               # 0x0
	.byte	0                               # 0x0
	.byte	0                               # 0x0
	.byte	0                               # 0x0
	.byte	0                               # 0x0
	.byte	255                             # 0xff
	.byte	0                               # 0x0
	.byte	0                               # 0x0
	.byte	255                             # 0xff
	.byte	255                             # 0xff
	.byte	0                               # 0x0
	.byte	0                               # 0x0
	.byte	255                             # 0xff
	.byte	0                               # 0x0
	.byte	0                               # 0x0
	.byte	0                               # 0x0
l_aes_v2_CPI48_5:
	.byte	0                               # 0x0
	.byte	0                               # 0x0
	.byte	0                               # 0x0
	.byte	0                               # 0x0
	.byte	255                             # 0xff
	.byte	0                               # 0x0
	.byte	255                             # 0xff
	.byte	0                               # 0x0
	.byte	0                               # 0x0
	.byte	0                               # 0x0
	.byte	0                               # 0x0
	.byte	0                               # 0x0
	.byte	255                             # 0xff
	.byte	0                               # 0x0
	.byte	255                             # 0xff
	.byte	0                               # 0x0
	.section	__TEXT,__text,regular,pure_instructions
	.p2align	4
_aes_v2.aes_c.single_rounds.inverse_rounds: # @_aes_v2.aes_c.single_rounds.inverse_rounds
# %bb.0:                                # %start
	subq	$72, %rsp
	movdqu	(%rdi), %xmm1
	movdqu	16(%rdi), %xmm4
	movdqu	32(%rdi), %xmm7
	movdqu	48(%rdi), %xmm0
	movdqu	64(%rdi), %xmm6
	movdqu	80(%rdi), %xmm2
	movdqu	96(%rdi), %xmm3
	movdqu	112(%rdi), %xmm11
	movdqa	l_aes_v2_CPI48_0(%rip), %xmm5          # xmm5 = [0,4,8,12,1,5,9,13,2,6,10,14,3,7,11,15]
	pshufb	%xmm5, %xmm1
	pshufb	%xmm5, %xmm4
	pshufb	%xmm5, %xmm7
	pshufb	%xmm5, %xmm0
	pshufb	%xmm5, %xmm6
	pshufb	%xmm5, %xmm2
	pshufb	%xmm5, %xmm3
	pshufb	%xmm5, %xmm11
	movdqa	%xmm1, %xmm5
	psrlw	$1, %xmm5
	pxor	%xmm4, %xmm5
	movdqa	l_aes_v2_CPI48_1(%rip), %xmm8          # xmm8 = [85,85,85,85,85,85,85,85,85,85,85,85,85,85,85,85]
	pand	%xmm8, %xmm5
	pxor	%xmm5, %xmm4
	paddb	%xmm5, %xmm5
	pxor	%xmm1, %xmm5
	movdqa	%xmm7, %xmm1
	psrlw	$1, %xmm1
	pxor	%xmm0, %xmm1
	pand	%xmm8, %xmm1
	pxor	%xmm1, %xmm0
	paddb	%xmm1, %xmm1
	pxor	%xmm7, %xmm1
	movdqa	%xmm6, %xmm7
	psrlw	$1, %xmm7
	pxor	%xmm2, %xmm7
	pand	%xmm8, %xmm7
	pxor	%xmm7, %xmm2
	paddb	%xmm7, %xmm7
	pxor	%xmm6, %xmm7
	movdqa	%xmm3, %xmm12
	psrlw	$1, %xmm12
	pxor	%xmm11, %xmm12
	pand	%xmm8, %xmm12
	pxor	%xmm12, %xmm11
	paddb	%xmm12, %xmm12
	pxor	%xmm3, %xmm12
	movdqa	%xmm5, %xmm8
	psrlw	$2, %xmm8
	pxor	%xmm1, %xmm8
	movdqa	l_aes_v2_CPI48_2(%rip), %xmm6          # xmm6 = [51,51,51,51,51,51,51,51,51,51,51,51,51,51,51,51]
	pand	%xmm6, %xmm8
	pxor	%xmm8, %xmm1
	psllw	$2, %xmm8
	pxor	%xmm5, %xmm8
	movdqa	%xmm7, %xmm3
	psrlw	$2, %xmm3
	pxor	%xmm12, %xmm3
	pand	%xmm6, %xmm3
	pxor	%xmm3, %xmm12
	psllw	$2, %xmm3
	pxor	%xmm7, %xmm3
	movdqa	%xmm4, %xmm7
	psrlw	$2, %xmm7
	pxor	%xmm0, %xmm7
	pand	%xmm6, %xmm7
	pxor	%xmm7, %xmm0
	psllw	$2, %xmm7
	pxor	%xmm4, %xmm7
	movdqa	%xmm2, %xmm15
	psrlw	$2, %xmm15
	pxor	%xmm11, %xmm15
	pand	%xmm6, %xmm15
	pxor	%xmm15, %xmm11
	psllw	$2, %xmm15
	pxor	%xmm2, %xmm15
	movdqa	%xmm8, %xmm6
	psrlw	$4, %xmm6
	movdqa	l_aes_v2_CPI48_3(%rip), %xmm2          # xmm2 = [15,15,15,15,15,15,15,15,15,15,15,15,15,15,15,15]
	pxor	%xmm3, %xmm6
	pand	%xmm2, %xmm6
	pxor	%xmm6, %xmm3
	psllw	$4, %xmm6
	pxor	%xmm8, %xmm6
	movdqa	%xmm7, %xmm10
	psrlw	$4, %xmm10
	pxor	%xmm15, %xmm10
	pand	%xmm2, %xmm10
	pcmpeqd	%xmm4, %xmm4
	pxor	%xmm4, %xmm15
	pxor	%xmm10, %xmm15
	psllw	$4, %xmm10
	pxor	%xmm7, %xmm10
	movdqa	%xmm1, %xmm13
	psrlw	$4, %xmm13
	pxor	%xmm12, %xmm13
	pand	%xmm2, %xmm13
	pxor	%xmm13, %xmm12
	psllw	$4, %xmm13
	pxor	%xmm1, %xmm13
	movdqa	%xmm0, %xmm4
	psrlw	$4, %xmm4
	pxor	%xmm11, %xmm4
	pand	%xmm2, %xmm4
	pxor	%xmm4, %xmm11
	psllw	$4, %xmm4
	pxor	%xmm0, %xmm4
	movdqa	%xmm6, %xmm9
	pcmpeqd	%xmm0, %xmm0
	pxor	%xmm0, %xmm9
	movdqa	%xmm12, %xmm5
	pxor	%xmm0, %xmm5
	pxor	%xmm10, %xmm6
	movdqa	%xmm11, %xmm8
	pxor	%xmm5, %xmm8
	movdqa	%xmm13, %xmm2
	pxor	%xmm15, %xmm2
	movdqa	%xmm3, %xmm1
	pxor	%xmm5, %xmm1
	movdqa	%xmm1, %xmm0
	pxor	%xmm2, %xmm0
	movdqa	%xmm0, -112(%rsp)               # 16-byte Spill
	pxor	%xmm11, %xmm2
	movdqa	%xmm2, -48(%rsp)                # 16-byte Spill
	pxor	%xmm3, %xmm11
	pxor	%xmm11, %xmm5
	movdqa	%xmm5, 48(%rsp)                 # 16-byte Spill
	movdqa	%xmm11, -96(%rsp)               # 16-byte Spill
	movdqa	%xmm5, %xmm0
	pxor	%xmm4, %xmm0
	movdqa	%xmm0, %xmm7
	movdqa	%xmm0, 16(%rsp)                 # 16-byte Spill
	pxor	%xmm4, %xmm3
	movdqa	%xmm3, %xmm5
	pxor	%xmm9, %xmm5
	movdqa	%xmm5, (%rsp)                   # 16-byte Spill
	pxor	%xmm4, %xmm9
	pxor	%xmm15, %xmm4
	pxor	%xmm10, %xmm13
	pxor	%xmm12, %xmm10
	pxor	%xmm10, %xmm4
	movdqa	%xmm4, -80(%rsp)                # 16-byte Spill
	movdqa	%xmm10, %xmm2
	movdqa	%xmm6, %xmm10
	pxor	%xmm3, %xmm10
	movdqa	%xmm10, %xmm0
	por	%xmm4, %xmm0
	movdqa	%xmm1, -128(%rsp)               # 16-byte Spill
	pand	%xmm1, %xmm5
	pxor	%xmm0, %xmm5
	pcmpeqd	%xmm0, %xmm0
	pxor	%xmm13, %xmm0
	movdqa	%xmm3, %xmm4
	pxor	%xmm0, %xmm4
	movdqa	%xmm4, -64(%rsp)                # 16-byte Spill
	movdqa	%xmm0, %xmm14
	movdqa	%xmm0, -32(%rsp)                # 16-byte Spill
	movdqa	%xmm7, %xmm0
	pand	%xmm4, %xmm0
	movdqa	%xmm6, %xmm4
	pxor	%xmm1, %xmm6
	pxor	%xmm9, %xmm2
	movdqa	%xmm6, %xmm7
	pand	-48(%rsp), %xmm7                # 16-byte Folded Reload
	pxor	%xmm9, %xmm7
	pxor	%xmm8, %xmm9
	movdqa	%xmm9, %xmm1
	pand	%xmm8, %xmm1
	movdqa	%xmm8, 32(%rsp)                 # 16-byte Spill
	pxor	%xmm9, %xmm13
	pand	%xmm3, %xmm13
	pxor	%xmm13, %xmm0
	pxor	%xmm1, %xmm13
	movdqa	%xmm4, %xmm1
	pxor	%xmm8, %xmm1
	movdqa	%xmm1, -16(%rsp)                # 16-byte Spill
	pand	-112(%rsp), %xmm1               # 16-byte Folded Reload
	pand	%xmm11, %xmm12
	pxor	%xmm1, %xmm7
	pxor	%xmm14, %xmm12
	pxor	%xmm9, %xmm12
	pxor	%xmm1, %xmm12
	pxor	%xmm0, %xmm5
	pxor	%xmm0, %xmm12
	movdqa	%xmm10, %xmm0
	movdqa	-80(%rsp), %xmm14               # 16-byte Reload
	pand	%xmm14, %xmm0
	movdqa	%xmm6, %xmm8
	pxor	%xmm15, %xmm8
	pxor	%xmm15, %xmm0
	movdqa	%xmm8, %xmm1
	movdqa	%xmm2, %xmm11
	pand	%xmm2, %xmm1
	pxor	%xmm1, %xmm0
	pxor	%xmm13, %xmm7
	pxor	%xmm3, %xmm0
	pxor	%xmm13, %xmm0
	movdqa	%xmm12, %xmm2
	pand	%xmm5, %xmm2
	movdqa	%xmm2, %xmm1
	pxor	%xmm7, %xmm1
	movdqa	%xmm12, %xmm15
	pxor	%xmm7, %xmm15
	movdqa	%xmm0, %xmm4
	pxor	%xmm5, %xmm4
	pand	%xmm0, %xmm12
	pand	%xmm15, %xmm12
	pand	%xmm4, %xmm1
	pxor	%xmm0, %xmm1
	pxor	%xmm2, %xmm0
	pand	%xmm15, %xmm0
	pxor	%xmm2, %xmm15
	pxor	%xmm12, %xmm15
	pxor	%xmm7, %xmm0
	movdqa	%xmm15, %xmm13
	pxor	%xmm0, %xmm13
	pand	%xmm13, %xmm10
	pand	%xmm14, %xmm13
	pand	%xmm0, %xmm11
	movdqa	%xmm11, -80(%rsp)               # 16-byte Spill
	movdqa	%xmm0, %xmm12
	pand	%xmm8, %xmm0
	pand	%xmm5, %xmm7
	pandn	%xmm4, %xmm7
	pxor	%xmm2, %xmm7
	pxor	%xmm1, %xmm12
	movdqa	-128(%rsp), %xmm2               # 16-byte Reload
	pand	%xmm15, %xmm2
	movdqa	%xmm2, -128(%rsp)               # 16-byte Spill
	movdqa	-48(%rsp), %xmm4                # 16-byte Reload
	pand	%xmm1, %xmm4
	pand	%xmm1, %xmm6
	movdqa	(%rsp), %xmm8                   # 16-byte Reload
	pand	%xmm15, %xmm8
	pxor	%xmm7, %xmm15
	movdqa	-96(%rsp), %xmm2                # 16-byte Reload
	pand	%xmm7, %xmm2
	movdqa	%xmm2, -96(%rsp)                # 16-byte Spill
	pxor	%xmm7, %xmm1
	pand	48(%rsp), %xmm7                 # 16-byte Folded Reload
	movdqa	-112(%rsp), %xmm14              # 16-byte Reload
	pand	%xmm1, %xmm14
	pand	-16(%rsp), %xmm1                # 16-byte Folded Reload
	pand	%xmm12, %xmm3
	movdqa	%xmm3, -112(%rsp)               # 16-byte Spill
	movdqa	-32(%rsp), %xmm11               # 16-byte Reload
	pxor	%xmm9, %xmm11
	pand	%xmm12, %xmm11
	pxor	%xmm15, %xmm12
	movdqa	-64(%rsp), %xmm3                # 16-byte Reload
	pand	%xmm12, %xmm3
	pxor	%xmm8, %xmm3
	pxor	%xmm8, %xmm7
	pand	16(%rsp), %xmm12                # 16-byte Folded Reload
	pand	%xmm15, %xmm9
	pand	32(%rsp), %xmm15                # 16-byte Folded Reload
	movdqa	%xmm13, %xmm2
	pxor	%xmm0, %xmm2
	movdqa	%xmm11, %xmm8
	pxor	-128(%rsp), %xmm8               # 16-byte Folded Reload
	pxor	%xmm10, %xmm8
	pxor	%xmm14, %xmm0
	pxor	%xmm8, %xmm3
	movdqa	%xmm3, -64(%rsp)                # 16-byte Spill
	pxor	%xmm4, %xmm14
	movdqa	%xmm4, %xmm5
	movdqa	%xmm12, %xmm4
	pxor	%xmm9, %xmm4
	pxor	%xmm4, %xmm8
	pxor	%xmm15, %xmm1
	pxor	%xmm0, %xmm15
	pxor	%xmm7, %xmm0
	pxor	%xmm8, %xmm0
	pxor	%xmm8, %xmm14
	pxor	%xmm2, %xmm8
	movdqa	-96(%rsp), %xmm2                # 16-byte Reload
	pxor	%xmm5, %xmm2
	pxor	-80(%rsp), %xmm11               # 16-byte Folded Reload
	pxor	%xmm13, %xmm12
	pxor	%xmm13, %xmm7
	pxor	%xmm11, %xmm7
	movdqa	-112(%rsp), %xmm3               # 16-byte Reload
	pxor	%xmm6, %xmm3
	pxor	%xmm2, %xmm6
	pxor	%xmm6, %xmm10
	pxor	%xmm4, %xmm10
	pxor	%xmm6, %xmm15
	movdqa	-64(%rsp), %xmm4                # 16-byte Reload
	pxor	%xmm4, %xmm12
	pxor	%xmm4, %xmm15
	pxor	%xmm7, %xmm10
	pxor	%xmm1, %xmm3
	pxor	-128(%rsp), %xmm9               # 16-byte Folded Reload
	pxor	%xmm2, %xmm9
	pxor	%xmm1, %xmm9
	pxor	%xmm7, %xmm9
	movdqa	%xmm3, %xmm1
	movdqa	%xmm3, -112(%rsp)               # 16-byte Spill
	psrld	$16, %xmm3
	pxor	%xmm1, %xmm3
	movdqa	l_aes_v2_CPI48_4(%rip), %xmm1          # xmm1 = [0,0,0,0,0,255,0,0,255,255,0,0,255,0,0,0]
	pand	%xmm1, %xmm3
	movdqa	%xmm12, %xmm4
	psrld	$16, %xmm4
	pxor	%xmm12, %xmm4
	pand	%xmm1, %xmm4
	movdqa	%xmm0, %xmm5
	psrld	$16, %xmm5
	pxor	%xmm0, %xmm5
	pand	%xmm1, %xmm5
	movdqa	%xmm15, %xmm11
	psrld	$16, %xmm11
	pxor	%xmm15, %xmm11
	pand	%xmm1, %xmm11
	movdqa	%xmm14, %xmm2
	psrld	$16, %xmm14
	pxor	%xmm2, %xmm14
	movdqa	%xmm2, %xmm7
	pand	%xmm1, %xmm14
	movdqa	%xmm10, %xmm2
	psrld	$16, %xmm2
	pxor	%xmm10, %xmm2
	pand	%xmm1, %xmm2
	movdqa	%xmm9, %xmm6
	psrld	$16, %xmm6
	pxor	%xmm9, %xmm6
	pand	%xmm1, %xmm6
	movdqa	%xmm8, %xmm13
	psrld	$16, %xmm13
	pxor	%xmm8, %xmm13
	pand	%xmm1, %xmm13
	pxor	%xmm6, %xmm9
	pslldq	$2, %xmm6                       # xmm6 = zero,zero,xmm6[0,1,2,3,4,5,6,7,8,9,10,11,12,13]
	pxor	%xmm9, %xmm6
	pxor	%xmm2, %xmm10
	pslldq	$2, %xmm2                       # xmm2 = zero,zero,xmm2[0,1,2,3,4,5,6,7,8,9,10,11,12,13]
	pxor	%xmm10, %xmm2
	movdqa	%xmm14, %xmm1
	pxor	%xmm7, %xmm14
	pslldq	$2, %xmm1                       # xmm1 = zero,zero,xmm1[0,1,2,3,4,5,6,7,8,9,10,11,12,13]
	pxor	%xmm1, %xmm14
	movdqa	%xmm11, %xmm1
	pxor	%xmm15, %xmm11
	pslldq	$2, %xmm1                       # xmm1 = zero,zero,xmm1[0,1,2,3,4,5,6,7,8,9,10,11,12,13]
	pxor	%xmm1, %xmm11
	movdqa	%xmm5, %xmm1
	pxor	%xmm0, %xmm5
	pslldq	$2, %xmm1                       # xmm1 = zero,zero,xmm1[0,1,2,3,4,5,6,7,8,9,10,11,12,13]
	pxor	%xmm1, %xmm5
	movdqa	%xmm4, %xmm0
	pxor	%xmm12, %xmm4
	movdqa	%xmm3, %xmm1
	pslldq	$2, %xmm1                       # xmm1 = zero,zero,xmm1[0,1,2,3,4,5,6,7,8,9,10,11,12,13]
	pslldq	$2, %xmm0                       # xmm0 = zero,zero,xmm0[0,1,2,3,4,5,6,7,8,9,10,11,12,13]
	pxor	%xmm0, %xmm4
	movdqa	%xmm13, %xmm0
	pslldq	$2, %xmm0                       # xmm0 = zero,zero,xmm0[0,1,2,3,4,5,6,7,8,9,10,11,12,13]
	pxor	-112(%rsp), %xmm3               # 16-byte Folded Reload
	pxor	%xmm1, %xmm3
	movdqa	%xmm3, -128(%rsp)               # 16-byte Spill
	pxor	%xmm8, %xmm13
	pxor	%xmm0, %xmm13
	movdqa	%xmm3, %xmm1
	psrlw	$8, %xmm1
	pxor	%xmm3, %xmm1
	movdqa	l_aes_v2_CPI48_5(%rip), %xmm15         # xmm15 = [0,0,0,0,255,0,255,0,0,0,0,0,255,0,255,0]
	pand	%xmm15, %xmm1
	movdqa	%xmm4, %xmm3
	psrlw	$8, %xmm3
	pxor	%xmm4, %xmm3
	pand	%xmm15, %xmm3
	movdqa	%xmm5, %xmm0
	psrlw	$8, %xmm0
	pxor	%xmm5, %xmm0
	pand	%xmm15, %xmm0
	movdqa	%xmm11, %xmm7
	psrlw	$8, %xmm7
	pxor	%xmm11, %xmm7
	pand	%xmm15, %xmm7
	movdqa	%xmm14, %xmm8
	psrlw	$8, %xmm8
	pxor	%xmm14, %xmm8
	pand	%xmm15, %xmm8
	movdqa	%xmm2, %xmm9
	psrlw	$8, %xmm9
	pxor	%xmm2, %xmm9
	pand	%xmm15, %xmm9
	movdqa	%xmm6, %xmm10
	psrlw	$8, %xmm10
	pxor	%xmm6, %xmm10
	pand	%xmm15, %xmm10
	movdqa	%xmm13, %xmm12
	psrlw	$8, %xmm12
	pxor	%xmm13, %xmm12
	pand	%xmm15, %xmm12
	pxor	%xmm10, %xmm6
	pslldq	$1, %xmm10                      # xmm10 = zero,xmm10[0,1,2,3,4,5,6,7,8,9,10,11,12,13,14]
	pxor	%xmm6, %xmm10
	pxor	%xmm9, %xmm2
	pslldq	$1, %xmm9                       # xmm9 = zero,xmm9[0,1,2,3,4,5,6,7,8,9,10,11,12,13,14]
	pxor	%xmm2, %xmm9
	movdqa	%xmm8, %xmm2
	pxor	%xmm14, %xmm8
	pslldq	$1, %xmm2                       # xmm2 = zero,xmm2[0,1,2,3,4,5,6,7,8,9,10,11,12,13,14]
	pxor	%xmm2, %xmm8
	movdqa	%xmm7, %xmm2
	pxor	%xmm11, %xmm7
	pslldq	$1, %xmm2                       # xmm2 = zero,xmm2[0,1,2,3,4,5,6,7,8,9,10,11,12,13,14]
	pxor	%xmm2, %xmm7
	movdqa	%xmm0, %xmm2
	pxor	%xmm5, %xmm0
	pslldq	$1, %xmm2                       # xmm2 = zero,xmm2[0,1,2,3,4,5,6,7,8,9,10,11,12,13,14]
	pxor	%xmm2, %xmm0
	movdqa	%xmm3, %xmm2
	pxor	%xmm4, %xmm3
	movdqa	%xmm1, %xmm4
	pslldq	$1, %xmm4                       # xmm4 = zero,xmm4[0,1,2,3,4,5,6,7,8,9,10,11,12,13,14]
	pslldq	$1, %xmm2                       # xmm2 = zero,xmm2[0,1,2,3,4,5,6,7,8,9,10,11,12,13,14]
	pxor	%xmm2, %xmm3
	movdqa	%xmm12, %xmm2
	pslldq	$1, %xmm2                       # xmm2 = zero,xmm2[0,1,2,3,4,5,6,7,8,9,10,11,12,13,14]
	pxor	-128(%rsp), %xmm1               # 16-byte Folded Reload
	pxor	%xmm4, %xmm1
	pxor	%xmm13, %xmm12
	pxor	%xmm2, %xmm12
	pshufd	$57, %xmm1, %xmm15              # xmm15 = xmm1[1,2,3,0]
	pshufd	$57, %xmm3, %xmm2               # xmm2 = xmm3[1,2,3,0]
	pshufd	$57, %xmm0, %xmm13              # xmm13 = xmm0[1,2,3,0]
	pshufd	$57, %xmm7, %xmm5               # xmm5 = xmm7[1,2,3,0]
	pxor	%xmm1, %xmm15
	pxor	%xmm3, %xmm2
	movdqa	%xmm2, %xmm6
	movdqa	%xmm2, -96(%rsp)                # 16-byte Spill
	pxor	%xmm0, %xmm13
	pxor	%xmm7, %xmm5
	pshufd	$57, %xmm8, %xmm14              # xmm14 = xmm8[1,2,3,0]
	pxor	%xmm8, %xmm14
	pshufd	$57, %xmm9, %xmm2               # xmm2 = xmm9[1,2,3,0]
	pxor	%xmm9, %xmm2
	pshufd	$57, %xmm10, %xmm11             # xmm11 = xmm10[1,2,3,0]
	pxor	%xmm10, %xmm11
	pshufd	$57, %xmm12, %xmm4              # xmm4 = xmm12[1,2,3,0]
	pxor	%xmm12, %xmm4
	pxor	%xmm4, %xmm1
	pxor	%xmm15, %xmm3
	pxor	%xmm4, %xmm3
	pxor	%xmm6, %xmm0
	pxor	%xmm13, %xmm7
	pxor	%xmm4, %xmm7
	pxor	%xmm5, %xmm8
	pxor	%xmm4, %xmm8
	pxor	%xmm14, %xmm9
	pxor	%xmm2, %xmm10
	pxor	%xmm11, %xmm12
	pxor	%xmm12, %xmm13
	pxor	%xmm12, %xmm2
	pxor	%xmm9, %xmm4
	pshufd	$78, %xmm4, %xmm6               # xmm6 = xmm4[2,3,0,1]
	movdqa	%xmm6, -128(%rsp)               # 16-byte Spill
	pxor	%xmm12, %xmm4
	pxor	%xmm10, %xmm12
	movdqa	-96(%rsp), %xmm6                # 16-byte Reload
	pxor	%xmm12, %xmm6
	pxor	%xmm0, %xmm14
	pxor	%xmm12, %xmm14
	pxor	%xmm10, %xmm15
	pxor	%xmm1, %xmm13
	pshufd	$78, %xmm15, %xmm12             # xmm12 = xmm15[2,3,0,1]
	pxor	%xmm1, %xmm15
	pxor	%xmm12, %xmm15
	pxor	%xmm10, %xmm5
	pxor	%xmm3, %xmm5
	pshufd	$78, %xmm6, %xmm1               # xmm1 = xmm6[2,3,0,1]
	pxor	%xmm3, %xmm6
	pxor	%xmm1, %xmm6
	pshufd	$78, %xmm13, %xmm1              # xmm1 = xmm13[2,3,0,1]
	pxor	%xmm0, %xmm13
	pxor	%xmm1, %xmm13
	pxor	%xmm7, %xmm2
	pshufd	$78, %xmm5, %xmm0               # xmm0 = xmm5[2,3,0,1]
	pxor	%xmm7, %xmm5
	pxor	%xmm0, %xmm5
	pxor	%xmm8, %xmm11
	pshufd	$78, %xmm14, %xmm0              # xmm0 = xmm14[2,3,0,1]
	pxor	%xmm8, %xmm14
	pxor	%xmm0, %xmm14
	pshufd	$78, %xmm2, %xmm0               # xmm0 = xmm2[2,3,0,1]
	pxor	%xmm9, %xmm2
	pxor	%xmm0, %xmm2
	pshufd	$78, %xmm11, %xmm0              # xmm0 = xmm11[2,3,0,1]
	pxor	%xmm10, %xmm11
	pxor	%xmm0, %xmm11
	pxor	-128(%rsp), %xmm4               # 16-byte Folded Reload
	movdqa	%xmm15, %xmm1
	psrlw	$1, %xmm1
	pxor	%xmm6, %xmm1
	movdqa	l_aes_v2_CPI48_1(%rip), %xmm7          # xmm7 = [85,85,85,85,85,85,85,85,85,85,85,85,85,85,85,85]
	pand	%xmm7, %xmm1
	pxor	%xmm1, %xmm6
	paddb	%xmm1, %xmm1
	pxor	%xmm15, %xmm1
	movdqa	%xmm13, %xmm3
	psrlw	$1, %xmm3
	pxor	%xmm5, %xmm3
	pand	%xmm7, %xmm3
	pxor	%xmm3, %xmm5
	paddb	%xmm3, %xmm3
	pxor	%xmm13, %xmm3
	movdqa	%xmm14, %xmm8
	psrlw	$1, %xmm8
	pxor	%xmm2, %xmm8
	pand	%xmm7, %xmm8
	pxor	%xmm8, %xmm2
	paddb	%xmm8, %xmm8
	pxor	%xmm14, %xmm8
	movdqa	%xmm11, %xmm0
	psrlw	$1, %xmm0
	pxor	%xmm4, %xmm0
	pand	%xmm7, %xmm0
	pxor	%xmm0, %xmm4
	paddb	%xmm0, %xmm0
	pxor	%xmm11, %xmm0
	movdqa	%xmm1, %xmm7
	psrlw	$2, %xmm7
	pxor	%xmm3, %xmm7
	movdqa	l_aes_v2_CPI48_2(%rip), %xmm9          # xmm9 = [51,51,51,51,51,51,51,51,51,51,51,51,51,51,51,51]
	pand	%xmm9, %xmm7
	pxor	%xmm7, %xmm3
	psllw	$2, %xmm7
	pxor	%xmm1, %xmm7
	movdqa	%xmm8, %xmm1
	psrlw	$2, %xmm1
	pxor	%xmm0, %xmm1
	pand	%xmm9, %xmm1
	pxor	%xmm1, %xmm0
	psllw	$2, %xmm1
	pxor	%xmm8, %xmm1
	movdqa	%xmm6, %xmm8
	psrlw	$2, %xmm8
	pxor	%xmm5, %xmm8
	pand	%xmm9, %xmm8
	pxor	%xmm8, %xmm5
	psllw	$2, %xmm8
	pxor	%xmm6, %xmm8
	movdqa	%xmm2, %xmm6
	psrlw	$2, %xmm6
	pxor	%xmm4, %xmm6
	pand	%xmm9, %xmm6
	pxor	%xmm6, %xmm4
	psllw	$2, %xmm6
	pxor	%xmm2, %xmm6
	movdqa	%xmm7, %xmm2
	psrlw	$4, %xmm2
	pxor	%xmm1, %xmm2
	movdqa	l_aes_v2_CPI48_3(%rip), %xmm9          # xmm9 = [15,15,15,15,15,15,15,15,15,15,15,15,15,15,15,15]
	pand	%xmm9, %xmm2
	pxor	%xmm2, %xmm1
	psllw	$4, %xmm2
	pxor	%xmm7, %xmm2
	movdqa	%xmm8, %xmm7
	psrlw	$4, %xmm7
	pxor	%xmm6, %xmm7
	pand	%xmm9, %xmm7
	pxor	%xmm7, %xmm6
	psllw	$4, %xmm7
	pxor	%xmm8, %xmm7
	movdqa	%xmm3, %xmm8
	psrlw	$4, %xmm8
	pxor	%xmm0, %xmm8
	pand	%xmm9, %xmm8
	pxor	%xmm8, %xmm0
	psllw	$4, %xmm8
	pxor	%xmm3, %xmm8
	movdqa	%xmm5, %xmm3
	psrlw	$4, %xmm3
	pxor	%xmm4, %xmm3
	pand	%xmm9, %xmm3
	pxor	%xmm3, %xmm4
	psllw	$4, %xmm3
	pxor	%xmm5, %xmm3
	movdqa	l_aes_v2_CPI48_0(%rip), %xmm5          # xmm5 = [0,4,8,12,1,5,9,13,2,6,10,14,3,7,11,15]
	pshufb	%xmm5, %xmm2
	movdqu	%xmm2, (%rdi)
	pshufb	%xmm5, %xmm7
	movdqu	%xmm7, 16(%rdi)
	pshufb	%xmm5, %xmm8
	movdqu	%xmm8, 32(%rdi)
	pshufb	%xmm5, %xmm3
	movdqu	%xmm3, 48(%rdi)
	pshufb	%xmm5, %xmm1
	movdqu	%xmm1, 64(%rdi)
	pshufb	%xmm5, %xmm6
	movdqu	%xmm6, 80(%rdi)
	pshufb	%xmm5, %xmm0
	movdqu	%xmm0, 96(%rdi)
	pshufb	%xmm5, %xmm4
	movdqu	%xmm4, 112(%rdi)
	movdqu	(%rsi), %xmm0
	pxor	%xmm2, %xmm0
	movdqu	%xmm0, (%rdi)
	movdqu	16(%rsi), %xmm0
	pxor	%xmm7, %xmm0
	movdqu	%xmm0, 16(%rdi)
	movdqu	32(%rsi), %xmm0
	pxor	%xmm8, %xmm0
	movdqu	%xmm0, 32(%rdi)
	movdqu	48(%rsi), %xmm0
	pxor	%xmm3, %xmm0
	movdqu	%xmm0, 48(%rdi)
	movdqu	64(%rsi), %xmm0
	pxor	%xmm1, %xmm0
	movdqu	%xmm0, 64(%rdi)
	movups	80(%rdi), %xmm0
	movups	80(%rsi), %xmm1
	xorps	%xmm0, %xmm1
	movups	%xmm1, 80(%rdi)
	movups	96(%rdi), %xmm0
	movups	96(%rsi), %xmm1
	xorps	%xmm0, %xmm1
	movups	%xmm1, 96(%rdi)
	movups	112(%rdi), %xmm0
	movups	112(%rsi), %xmm1
	xorps	%xmm0, %xmm1
	movups	%xmm1, 112(%rdi)
	addq	$72, %rsp
	retq
                                        # -- End function
	.section	__TEXT,__text,regular,pure_instructions
	.p2align	4                               # -- Begin function cmac::pieces::Message::is_tag_so_far::<#ef80964e0b8d42c0>
_aes_v2.cmac.pieces.Message.is_tag_so_far: # @_aes_v2.cmac.pieces.Message.is_tag_so_far
# %bb.0:                                # %start
	pushq	%r15
	pushq	%r14
	pushq	%r12
	pushq	%rbx
	subq	$40, %rsp
	movq	%r8, %rbx
	movq	%rcx, %r14
	xorps	%xmm0, %xmm0
	movaps	%xmm0, (%rsp)
	movq	8(%rdi), %rax
	cmpq	$16, %rax
	movl	$16, %r9d
	cmovbq	%rax, %r9
	leaq	16(%rdi), %rcx
	leaq	32(%rdi), %r8
	movq	%rsp, %r15
	movq	%r15, %rdi
	callq	_aes_v2.cmac.tags.tag_at_end
	movaps	(%rsp), %xmm0
	movaps	%xmm0, 16(%rsp)
	leaq	16(%rsp), %r12
	movq	%r12, %rdi
	movq	%r14, %rsi
	movq	%rbx, %rdx
	callq	*_memcpy@GOTPCREL(%rip)
	movq	%r12, %rdi
	movq	%r15, %rsi
	callq	_aes_v2.aes_cipher.blocks.difference
	testl	%eax, %eax
	sete	%al
	addq	$40, %rsp
	popq	%rbx
	popq	%r12
	popq	%r14
	popq	%r15
	retq
                                        # -- End function
	.section	__TEXT,__text,regular,pure_instructions
	.p2align	4                               # -- Begin function cmac::tags::is_tag_start::<#ef80964e0b8d42c0>
_aes_v2.cmac.tags.is_tag_start: # @_aes_v2.cmac.tags.is_tag_start
# %bb.0:                                # %start
	pushq	%r15
	pushq	%r14
	pushq	%r12
	pushq	%rbx
	subq	$40, %rsp
	movq	%r8, %rbx
	movq	%rcx, %r14
	movq	%rdx, %rcx
	movq	%rsi, %rdx
	movq	%rdi, %rsi
	leaq	24(%rsp), %r15
	movq	%r15, %rdi
	callq	_aes_v2.cmac.tags.tag
	movups	24(%rsp), %xmm0
	movaps	%xmm0, (%rsp)
	movq	%rsp, %r12
	movq	%r12, %rdi
	movq	%r14, %rsi
	movq	%rbx, %rdx
	callq	*_memcpy@GOTPCREL(%rip)
	movq	%r12, %rdi
	movq	%r15, %rsi
	callq	_aes_v2.aes_cipher.blocks.difference
	testl	%eax, %eax
	sete	%al
	addq	$40, %rsp
	popq	%rbx
	popq	%r12
	popq	%r14
	popq	%r15
	retq
                                        # -- End function
	.section	__TEXT,__const
	.p2align	4, 0x0                          # -- Begin function aes_c::single_rounds::mixed
l_aes_v2_CPI51_0:
	.byte	0                               # 0x0
	.byte	4                               # 0x4
	.byte	8                               # 0x8
	.byte	12                              # 0xc
	.byte	1                               # 0x1
	.byte	5                               # 0x5
	.byte	9                               # 0x9
	.byte	13                              # 0xd
	.byte	2                               # 0x2
	.byte	6                               # 0x6
	.byte	10                              # 0xa
	.byte	14                              # 0xe
	.byte	3                               # 0x3
	.byte	7                               # 0x7
	.byte	11                              # 0xb
	.byte	15                              # 0xf
l_aes_v2_CPI51_1:
	.zero	16,1
l_aes_v2_CPI51_2:
	.zero	16,127
l_aes_v2_CPI51_3:
	.zero	16,170
l_aes_v2_CPI51_4:
	.zero	16,34
l_aes_v2_CPI51_5:
	.zero	16,204
l_aes_v2_CPI51_6:
	.zero	16,252
l_aes_v2_CPI51_7:
	.zero	16,240
	.section	__TEXT,__text,regular,pure_instructions
	.p2align	4
_aes_v2.aes_c.single_rounds.mixed:          # @_aes_v2.aes_c.single_rounds.mixed
# %bb.0:                                # %start
	movdqu	(%rdi), %xmm0
	pshufb	l_aes_v2_CPI51_0(%rip), %xmm0          # xmm0 = xmm0[0,4,8,12,1,5,9,13,2,6,10,14,3,7,11,15]
	movdqa	l_aes_v2_CPI51_1(%rip), %xmm2          # xmm2 = [1,1,1,1,1,1,1,1,1,1,1,1,1,1,1,1]
	pand	%xmm0, %xmm2
	pxor	%xmm1, %xmm1
	pxor	%xmm6, %xmm6
	psubb	%xmm2, %xmm6
	movdqa	%xmm0, %xmm2
	movdqa	%xmm0, %xmm4
	movdqa	%xmm0, %xmm5
	movdqa	%xmm0, %xmm8
	movdqa	%xmm0, %xmm9
	pcmpgtb	%xmm0, %xmm1
	psllw	$6, %xmm0
	pxor	%xmm3, %xmm3
	pcmpgtb	%xmm0, %xmm3
	psllw	$5, %xmm2
	pxor	%xmm11, %xmm11
	pcmpgtb	%xmm2, %xmm11
	psllw	$4, %xmm4
	pxor	%xmm12, %xmm12
	pcmpgtb	%xmm4, %xmm12
	psllw	$3, %xmm5
	pxor	%xmm7, %xmm7
	pcmpgtb	%xmm5, %xmm7
	psllw	$2, %xmm8
	pxor	%xmm2, %xmm2
	pcmpgtb	%xmm8, %xmm2
	paddb	%xmm9, %xmm9
	pxor	%xmm4, %xmm4
	pcmpgtb	%xmm9, %xmm4
	pshufd	$57, %xmm6, %xmm14              # xmm14 = xmm6[1,2,3,0]
	pshufd	$57, %xmm3, %xmm15              # xmm15 = xmm3[1,2,3,0]
	pshufd	$57, %xmm11, %xmm0              # xmm0 = xmm11[1,2,3,0]
	pshufd	$57, %xmm12, %xmm13             # xmm13 = xmm12[1,2,3,0]
	pshufd	$57, %xmm7, %xmm8               # xmm8 = xmm7[1,2,3,0]
	pshufd	$57, %xmm1, %xmm5               # xmm5 = xmm1[1,2,3,0]
	movdqa	%xmm5, -24(%rsp)                # 16-byte Spill
	pxor	%xmm14, %xmm6
	pxor	%xmm15, %xmm3
	pxor	%xmm0, %xmm11
	pxor	%xmm13, %xmm12
	pxor	%xmm8, %xmm7
	pxor	%xmm5, %xmm1
	pshufd	$78, %xmm6, %xmm5               # xmm5 = xmm6[2,3,0,1]
	pxor	%xmm1, %xmm14
	pxor	%xmm5, %xmm14
	pshufd	$78, %xmm3, %xmm5               # xmm5 = xmm3[2,3,0,1]
	pxor	%xmm0, %xmm3
	pshufd	$78, %xmm11, %xmm0              # xmm0 = xmm11[2,3,0,1]
	pxor	%xmm0, %xmm3
	pshufd	$78, %xmm7, %xmm0               # xmm0 = xmm7[2,3,0,1]
	pxor	%xmm1, %xmm8
	pxor	%xmm12, %xmm8
	pxor	%xmm0, %xmm8
	pshufd	$57, %xmm2, %xmm9               # xmm9 = xmm2[1,2,3,0]
	pxor	%xmm9, %xmm2
	pshufd	$57, %xmm4, %xmm0               # xmm0 = xmm4[1,2,3,0]
	pxor	%xmm0, %xmm4
	pshufd	$78, %xmm2, %xmm10              # xmm10 = xmm2[2,3,0,1]
	pxor	%xmm0, %xmm2
	pshufd	$78, %xmm4, %xmm0               # xmm0 = xmm4[2,3,0,1]
	pxor	%xmm0, %xmm2
	pxor	%xmm1, %xmm5
	pxor	%xmm6, %xmm5
	pxor	%xmm15, %xmm5
	movdqa	%xmm14, %xmm0
	psrlw	$1, %xmm0
	movdqa	l_aes_v2_CPI51_2(%rip), %xmm15         # xmm15 = [127,127,127,127,127,127,127,127,127,127,127,127,127,127,127,127]
	pand	%xmm15, %xmm0
	pxor	%xmm0, %xmm5
	paddb	%xmm5, %xmm5
	movdqa	l_aes_v2_CPI51_3(%rip), %xmm0          # xmm0 = [170,170,170,170,170,170,170,170,170,170,170,170,170,170,170,170]
	pand	%xmm0, %xmm5
	pxor	%xmm14, %xmm5
	pshufd	$78, %xmm1, %xmm6               # xmm6 = xmm1[2,3,0,1]
	pxor	%xmm13, %xmm1
	pxor	%xmm11, %xmm1
	pshufd	$78, %xmm12, %xmm11             # xmm11 = xmm12[2,3,0,1]
	pxor	%xmm11, %xmm1
	movdqa	%xmm8, %xmm11
	psrlw	$1, %xmm11
	pand	%xmm15, %xmm11
	pxor	%xmm9, %xmm10
	pxor	%xmm7, %xmm10
	pxor	%xmm11, %xmm10
	paddb	%xmm10, %xmm10
	pand	%xmm0, %xmm10
	pxor	%xmm8, %xmm10
	pxor	-24(%rsp), %xmm6                # 16-byte Folded Reload
	pxor	%xmm3, %xmm1
	paddb	%xmm1, %xmm1
	pxor	%xmm4, %xmm6
	movdqa	l_aes_v2_CPI51_4(%rip), %xmm0          # xmm0 = [34,34,34,34,34,34,34,34,34,34,34,34,34,34,34,34]
	pand	%xmm0, %xmm1
	pxor	%xmm3, %xmm1
	movdqa	%xmm5, %xmm3
	psrlw	$2, %xmm3
	pxor	%xmm3, %xmm1
	pxor	%xmm2, %xmm6
	paddb	%xmm6, %xmm6
	psllw	$2, %xmm1
	pand	l_aes_v2_CPI51_5(%rip), %xmm1
	pand	%xmm0, %xmm6
	pxor	%xmm2, %xmm6
	movdqa	%xmm10, %xmm0
	psrlw	$2, %xmm0
	pxor	%xmm0, %xmm6
	psllw	$2, %xmm6
	pand	l_aes_v2_CPI51_6(%rip), %xmm6
	pxor	%xmm5, %xmm1
	pxor	%xmm10, %xmm6
	movdqa	%xmm1, %xmm0
	psrlw	$4, %xmm0
	pxor	%xmm0, %xmm6
	psllw	$4, %xmm6
	pand	l_aes_v2_CPI51_7(%rip), %xmm6
	pxor	%xmm1, %xmm6
	pshufb	l_aes_v2_CPI51_0(%rip), %xmm6          # xmm6 = xmm6[0,4,8,12,1,5,9,13,2,6,10,14,3,7,11,15]
	movdqu	%xmm6, (%rdi)
	retq
                                        # -- End function
	.section	__TEXT,__const
	.p2align	4, 0x0                          # -- Begin function aes_c::single_rounds::round
l_aes_v2_CPI52_0:
	.byte	0                               # 0x0
	.byte	4                               # 0x4
	.byte	8                               # 0x8
	.byte	12                              # 0xc
	.byte	1                               # 0x1
	.byte	5                               # 0x5
	.byte	9                               # 0x9
	.byte	13                              # 0xd
	.byte	2                               # 0x2
	.byte	6                               # 0x6
	.byte	10                              # 0xa
	.byte	14                              # 0xe
	.byte	3                               # 0x3
	.byte	7                               # 0x7
	.byte	11                              # 0xb
	.byte	15                              # 0xf
l_aes_v2_CPI52_1:
	.zero	16,1
l_aes_v2_CPI52_2:
	.byte	0                               # 0x0
	.byte	0                               # 0x0
	.byte	0                               # 0x0
	.byte	0                               # 0x0
	.byte	255                             # 0xff
	.byte	0                               # 0x0
	.byte	0                               # 0x0
	.byte	0                               # 0x0
	.byte	255                             # 0xff
	.byte	255                             # 0xff
	.byte	0                               # 0x0
	.byte	0                               # 0x0
	.byte	0                               # 0x0
	.byte	255                             # 0xff
	.byte	0                               # 0x0
	.byte	0                               # 0x0
l_aes_v2_CPI52_3:
	.byte	0                               # 0x0
	.byte	0                               # 0x0
	.byte	0                               # 0x0
	.byte	0                               # 0x0
	.byte	255                             # 0xff
	.byte	0                               # 0x0
	.byte	255                             # 0xff
	.byte	0                               # 0x0
	.byte	0                               # 0x0
	.byte	0                               # 0x0
	.byte	0                               # 0x0
	.byte	0                               # 0x0
	.byte	255                             # 0xff
	.byte	0                               # 0x0
	.byte	255                             # 0xff
	.byte	0                               # 0x0
l_aes_v2_CPI52_4:
	.zero	16,127
l_aes_v2_CPI52_5:
	.zero	16,170
l_aes_v2_CPI52_6:
	.zero	16,34
l_aes_v2_CPI52_7:
	.zero	16,204
l_aes_v2_CPI52_8:
	.zero	16,252
l_aes_v2_CPI52_9:
	.zero	16,240
	.section	__TEXT,__text,regular,pure_instructions
	.p2align	4
_aes_v2.aes_c.single_rounds.round:          # @_aes_v2.aes_c.single_rounds.round
# %bb.0:                                # %start
	subq	$56, %rsp
	movdqu	(%rdi), %xmm1
	pshufb	l_aes_v2_CPI52_0(%rip), %xmm1          # xmm1 = xmm1[0,4,8,12,1,5,9,13,2,6,10,14,3,7,11,15]
	movdqa	l_aes_v2_CPI52_1(%rip), %xmm2          # xmm2 = [1,1,1,1,1,1,1,1,1,1,1,1,1,1,1,1]
	pand	%xmm1, %xmm2
	pxor	%xmm0, %xmm0
	pxor	%xmm7, %xmm7
	psubb	%xmm2, %xmm7
	movdqa	%xmm1, %xmm2
	movdqa	%xmm1, %xmm3
	movdqa	%xmm1, %xmm4
	movdqa	%xmm1, %xmm8
	movdqa	%xmm1, %xmm9
	pcmpgtb	%xmm1, %xmm0
	psllw	$6, %xmm1
	pxor	%xmm15, %xmm15
	pcmpgtb	%xmm1, %xmm15
	psllw	$5, %xmm2
	pxor	%xmm10, %xmm10
	pcmpgtb	%xmm2, %xmm10
	psllw	$4, %xmm3
	pxor	%xmm12, %xmm12
	pcmpgtb	%xmm3, %xmm12
	psllw	$3, %xmm4
	pxor	%xmm6, %xmm6
	pcmpgtb	%xmm4, %xmm6
	psllw	$2, %xmm8
	pxor	%xmm5, %xmm5
	pcmpgtb	%xmm8, %xmm5
	paddb	%xmm9, %xmm9
	pxor	%xmm1, %xmm1
	pcmpgtb	%xmm9, %xmm1
	pxor	%xmm1, %xmm5
	movdqa	%xmm0, %xmm4
	pxor	%xmm6, %xmm4
	movdqa	%xmm5, %xmm11
	pxor	%xmm7, %xmm11
	movdqa	%xmm11, %xmm2
	pxor	%xmm6, %xmm2
	movdqa	%xmm2, %xmm13
	movdqa	%xmm2, -128(%rsp)               # 16-byte Spill
	movdqa	%xmm0, %xmm2
	pxor	%xmm15, %xmm2
	movdqa	%xmm2, -112(%rsp)               # 16-byte Spill
	pxor	%xmm10, %xmm6
	pxor	%xmm6, %xmm2
	pxor	%xmm2, %xmm12
	movdqa	%xmm2, 32(%rsp)                 # 16-byte Spill
	movdqa	%xmm12, %xmm8
	pxor	%xmm10, %xmm8
	pxor	%xmm1, %xmm12
	pxor	%xmm0, %xmm10
	movdqa	%xmm10, %xmm14
	movdqa	%xmm10, 16(%rsp)                # 16-byte Spill
	movdqa	%xmm8, %xmm1
	pand	%xmm2, %xmm1
	movdqa	%xmm8, %xmm2
	pxor	%xmm5, %xmm2
	movdqa	%xmm2, %xmm10
	movdqa	%xmm2, (%rsp)                   # 16-byte Spill
	movdqa	%xmm14, %xmm2
	pxor	%xmm10, %xmm2
	pxor	%xmm1, %xmm2
	pxor	%xmm12, %xmm1
	movdqa	%xmm4, -64(%rsp)                # 16-byte Spill
	pxor	%xmm4, %xmm12
	movdqa	%xmm12, %xmm9
	pand	%xmm4, %xmm9
	movdqa	%xmm12, %xmm3
	pxor	%xmm10, %xmm3
	movdqa	%xmm3, -16(%rsp)                # 16-byte Spill
	pand	%xmm6, %xmm3
	movdqa	%xmm10, %xmm4
	pand	%xmm14, %xmm4
	pxor	%xmm9, %xmm3
	pxor	%xmm9, %xmm4
	movdqa	%xmm13, %xmm9
	pand	%xmm7, %xmm9
	pxor	%xmm4, %xmm2
	pxor	%xmm9, %xmm2
	pxor	%xmm11, %xmm15
	movdqa	%xmm8, %xmm10
	pxor	%xmm7, %xmm10
	movdqa	%xmm10, -48(%rsp)               # 16-byte Spill
	movdqa	%xmm15, -96(%rsp)               # 16-byte Spill
	movdqa	%xmm15, %xmm13
	pxor	%xmm14, %xmm13
	movdqa	%xmm13, -32(%rsp)               # 16-byte Spill
	movdqa	%xmm10, %xmm9
	pand	%xmm13, %xmm9
	pxor	%xmm3, %xmm1
	pxor	%xmm9, %xmm1
	pxor	%xmm12, %xmm5
	movdqa	%xmm15, %xmm9
	pand	%xmm11, %xmm9
	movdqa	%xmm5, %xmm15
	movdqa	-112(%rsp), %xmm13              # 16-byte Reload
	pand	%xmm13, %xmm15
	pxor	%xmm5, %xmm15
	movdqa	%xmm15, %xmm10
	pxor	%xmm13, %xmm10
	pxor	%xmm9, %xmm10
	pxor	%xmm3, %xmm10
	movdqa	%xmm11, %xmm3
	pxor	%xmm0, %xmm3
	pxor	%xmm0, %xmm15
	movdqa	%xmm12, %xmm0
	pxor	%xmm7, %xmm0
	movdqa	%xmm0, -80(%rsp)                # 16-byte Spill
	pand	%xmm3, %xmm0
	pxor	%xmm0, %xmm15
	pxor	%xmm4, %xmm15
	movdqa	%xmm10, %xmm9
	pand	%xmm1, %xmm9
	movdqa	%xmm9, %xmm0
	pxor	%xmm2, %xmm0
	movdqa	%xmm15, %xmm4
	pxor	%xmm10, %xmm4
	pand	%xmm0, %xmm4
	pxor	%xmm2, %xmm1
	movdqa	%xmm4, %xmm0
	pxor	%xmm9, %xmm4
	pxor	%xmm15, %xmm9
	movdqa	%xmm9, %xmm13
	pand	%xmm1, %xmm13
	pxor	%xmm2, %xmm13
	pxor	%xmm15, %xmm0
	pand	%xmm15, %xmm4
	pxor	%xmm4, %xmm9
	pand	%xmm13, %xmm9
	pxor	%xmm1, %xmm9
	pxor	%xmm10, %xmm4
	movdqa	-128(%rsp), %xmm1               # 16-byte Reload
	pand	%xmm0, %xmm1
	movdqa	%xmm1, -128(%rsp)               # 16-byte Spill
	movdqa	%xmm4, %xmm10
	pxor	%xmm0, %xmm10
	movdqa	%xmm13, %xmm2
	pxor	%xmm0, %xmm2
	pand	%xmm7, %xmm0
	movdqa	%xmm9, %xmm7
	pxor	%xmm10, %xmm7
	pand	%xmm2, %xmm12
	movdqa	%xmm7, %xmm1
	pxor	%xmm2, %xmm1
	pand	-64(%rsp), %xmm2                # 16-byte Folded Reload
	movdqa	%xmm9, %xmm14
	pxor	%xmm13, %xmm14
	pand	%xmm14, %xmm5
	pand	-112(%rsp), %xmm14              # 16-byte Folded Reload
	pand	%xmm9, %xmm11
	pand	-96(%rsp), %xmm9                # 16-byte Folded Reload
	movdqa	-48(%rsp), %xmm15               # 16-byte Reload
	pand	%xmm10, %xmm15
	pand	-32(%rsp), %xmm10               # 16-byte Folded Reload
	pand	%xmm1, %xmm6
	pand	-16(%rsp), %xmm1                # 16-byte Folded Reload
	pand	%xmm13, %xmm3
	pand	-80(%rsp), %xmm13               # 16-byte Folded Reload
	pand	%xmm4, %xmm8
	pand	32(%rsp), %xmm4                 # 16-byte Folded Reload
	pxor	%xmm8, %xmm15
	pxor	%xmm0, %xmm8
	pxor	%xmm5, %xmm11
	pxor	%xmm8, %xmm13
	pxor	%xmm5, %xmm13
	pxor	%xmm2, %xmm6
	pxor	%xmm6, %xmm10
	pxor	%xmm13, %xmm9
	pxor	%xmm6, %xmm9
	pxor	%xmm11, %xmm1
	pxor	%xmm11, %xmm15
	movdqa	(%rsp), %xmm0                   # 16-byte Reload
	pand	%xmm7, %xmm0
	pxor	%xmm10, %xmm4
	pxor	%xmm0, %xmm8
	pxor	%xmm14, %xmm8
	pxor	%xmm1, %xmm8
	pxor	%xmm8, %xmm3
	pxor	%xmm4, %xmm15
	pxor	%xmm12, %xmm1
	pxor	-128(%rsp), %xmm10              # 16-byte Folded Reload
	pxor	%xmm15, %xmm13
	pand	16(%rsp), %xmm7                 # 16-byte Folded Reload
	pxor	%xmm3, %xmm10
	pxor	%xmm1, %xmm4
	pcmpeqd	%xmm0, %xmm0
	pxor	%xmm0, %xmm14
	pxor	%xmm9, %xmm14
	pxor	%xmm9, %xmm8
	pxor	%xmm0, %xmm8
	pxor	%xmm2, %xmm7
	pxor	%xmm1, %xmm7
	pxor	%xmm3, %xmm7
	pxor	%xmm0, %xmm7
	pxor	%xmm0, %xmm1
	pxor	%xmm15, %xmm1
	movdqa	%xmm14, -128(%rsp)              # 16-byte Spill
	movdqa	%xmm14, %xmm11
	psrld	$16, %xmm11
	pxor	%xmm14, %xmm11
	movdqa	l_aes_v2_CPI52_2(%rip), %xmm2          # xmm2 = [0,0,0,0,255,0,0,0,255,255,0,0,0,255,0,0]
	pand	%xmm2, %xmm11
	movdqa	%xmm8, %xmm6
	psrld	$16, %xmm6
	pxor	%xmm8, %xmm6
	pand	%xmm2, %xmm6
	movdqa	%xmm10, %xmm12
	psrld	$16, %xmm12
	pxor	%xmm10, %xmm12
	pand	%xmm2, %xmm12
	movdqa	%xmm13, %xmm5
	psrld	$16, %xmm5
	pxor	%xmm13, %xmm5
	pand	%xmm2, %xmm5
	movdqa	%xmm15, %xmm3
	psrld	$16, %xmm3
	pxor	%xmm15, %xmm3
	movdqa	%xmm15, %xmm9
	pand	%xmm2, %xmm3
	movdqa	%xmm7, %xmm0
	psrld	$16, %xmm0
	pxor	%xmm7, %xmm0
	pand	%xmm2, %xmm0
	movdqa	%xmm1, %xmm15
	psrld	$16, %xmm15
	pxor	%xmm1, %xmm15
	pand	%xmm2, %xmm15
	movdqa	%xmm4, %xmm14
	psrld	$16, %xmm14
	pxor	%xmm4, %xmm14
	pand	%xmm2, %xmm14
	pxor	%xmm15, %xmm1
	pslldq	$2, %xmm15                      # xmm15 = zero,zero,xmm15[0,1,2,3,4,5,6,7,8,9,10,11,12,13]
	pxor	%xmm1, %xmm15
	pxor	%xmm0, %xmm7
	pslldq	$2, %xmm0                       # xmm0 = zero,zero,xmm0[0,1,2,3,4,5,6,7,8,9,10,11,12,13]
	pxor	%xmm7, %xmm0
	movdqa	%xmm3, %xmm1
	pxor	%xmm9, %xmm3
	movdqa	%xmm11, %xmm2
	pslldq	$2, %xmm2                       # xmm2 = zero,zero,xmm2[0,1,2,3,4,5,6,7,8,9,10,11,12,13]
	pslldq	$2, %xmm1                       # xmm1 = zero,zero,xmm1[0,1,2,3,4,5,6,7,8,9,10,11,12,13]
	pxor	%xmm1, %xmm3
	movdqa	%xmm5, %xmm1
	pxor	%xmm13, %xmm5
	movdqa	%xmm6, %xmm7
	pslldq	$2, %xmm7                       # xmm7 = zero,zero,xmm7[0,1,2,3,4,5,6,7,8,9,10,11,12,13]
	pslldq	$2, %xmm1                       # xmm1 = zero,zero,xmm1[0,1,2,3,4,5,6,7,8,9,10,11,12,13]
	pxor	%xmm1, %xmm5
	movdqa	%xmm12, %xmm1
	pslldq	$2, %xmm1                       # xmm1 = zero,zero,xmm1[0,1,2,3,4,5,6,7,8,9,10,11,12,13]
	pxor	%xmm10, %xmm12
	movdqa	%xmm14, %xmm9
	pslldq	$2, %xmm9                       # xmm9 = zero,zero,xmm9[0,1,2,3,4,5,6,7,8,9,10,11,12,13]
	pxor	%xmm1, %xmm12
	pxor	%xmm8, %xmm6
	pxor	%xmm7, %xmm6
	pxor	-128(%rsp), %xmm11              # 16-byte Folded Reload
	pxor	%xmm2, %xmm11
	pxor	%xmm4, %xmm14
	pxor	%xmm9, %xmm14
	movdqa	%xmm11, %xmm13
	psrlw	$8, %xmm13
	pxor	%xmm11, %xmm13
	movdqa	l_aes_v2_CPI52_3(%rip), %xmm8          # xmm8 = [0,0,0,0,255,0,255,0,0,0,0,0,255,0,255,0]
	pand	%xmm8, %xmm13
	movdqa	%xmm6, %xmm1
	psrlw	$8, %xmm1
	pxor	%xmm6, %xmm1
	pand	%xmm8, %xmm1
	movdqa	%xmm12, %xmm7
	psrlw	$8, %xmm7
	pxor	%xmm12, %xmm7
	pand	%xmm8, %xmm7
	movdqa	%xmm5, %xmm9
	psrlw	$8, %xmm9
	pxor	%xmm5, %xmm9
	pand	%xmm8, %xmm9
	movdqa	%xmm3, %xmm4
	psrlw	$8, %xmm4
	pxor	%xmm3, %xmm4
	pand	%xmm8, %xmm4
	movdqa	%xmm0, %xmm2
	psrlw	$8, %xmm2
	pxor	%xmm0, %xmm2
	pand	%xmm8, %xmm2
	movdqa	%xmm15, %xmm10
	psrlw	$8, %xmm10
	pxor	%xmm15, %xmm10
	pand	%xmm8, %xmm10
	movdqa	%xmm14, %xmm8
	psrlw	$8, %xmm8
	pxor	%xmm14, %xmm8
	pand	l_aes_v2_CPI52_3(%rip), %xmm8
	pxor	%xmm10, %xmm15
	pslldq	$1, %xmm10                      # xmm10 = zero,xmm10[0,1,2,3,4,5,6,7,8,9,10,11,12,13,14]
	pxor	%xmm15, %xmm10
	pxor	%xmm2, %xmm0
	pslldq	$1, %xmm2                       # xmm2 = zero,xmm2[0,1,2,3,4,5,6,7,8,9,10,11,12,13,14]
	pxor	%xmm0, %xmm2
	movdqa	%xmm4, %xmm0
	pxor	%xmm3, %xmm4
	movdqa	%xmm13, %xmm3
	pslldq	$1, %xmm3                       # xmm3 = zero,xmm3[0,1,2,3,4,5,6,7,8,9,10,11,12,13,14]
	pslldq	$1, %xmm0                       # xmm0 = zero,xmm0[0,1,2,3,4,5,6,7,8,9,10,11,12,13,14]
	pxor	%xmm0, %xmm4
	movdqa	%xmm9, %xmm0
	pxor	%xmm5, %xmm9
	movdqa	%xmm1, %xmm5
	pslldq	$1, %xmm5                       # xmm5 = zero,xmm5[0,1,2,3,4,5,6,7,8,9,10,11,12,13,14]
	pslldq	$1, %xmm0                       # xmm0 = zero,xmm0[0,1,2,3,4,5,6,7,8,9,10,11,12,13,14]
	pxor	%xmm0, %xmm9
	movdqa	%xmm7, %xmm0
	pslldq	$1, %xmm0                       # xmm0 = zero,xmm0[0,1,2,3,4,5,6,7,8,9,10,11,12,13,14]
	pxor	%xmm12, %xmm7
	movdqa	%xmm8, %xmm12
	pslldq	$1, %xmm12                      # xmm12 = zero,xmm12[0,1,2,3,4,5,6,7,8,9,10,11,12,13,14]
	pxor	%xmm0, %xmm7
	pxor	%xmm6, %xmm1
	pxor	%xmm5, %xmm1
	pxor	%xmm11, %xmm13
	pxor	%xmm3, %xmm13
	pxor	%xmm14, %xmm8
	pxor	%xmm12, %xmm8
	pshufd	$57, %xmm13, %xmm3              # xmm3 = xmm13[1,2,3,0]
	pshufd	$57, %xmm1, %xmm12              # xmm12 = xmm1[1,2,3,0]
	pshufd	$57, %xmm7, %xmm5               # xmm5 = xmm7[1,2,3,0]
	pshufd	$57, %xmm4, %xmm6               # xmm6 = xmm4[1,2,3,0]
	pshufd	$57, %xmm2, %xmm11              # xmm11 = xmm2[1,2,3,0]
	pshufd	$57, %xmm8, %xmm0               # xmm0 = xmm8[1,2,3,0]
	pxor	%xmm3, %xmm13
	pxor	%xmm12, %xmm1
	pxor	%xmm5, %xmm7
	pxor	%xmm6, %xmm4
	pxor	%xmm0, %xmm8
	pshufd	$78, %xmm13, %xmm14             # xmm14 = xmm13[2,3,0,1]
	pxor	%xmm3, %xmm14
	pshufd	$78, %xmm1, %xmm3               # xmm3 = xmm1[2,3,0,1]
	pxor	%xmm5, %xmm1
	pshufd	$78, %xmm7, %xmm5               # xmm5 = xmm7[2,3,0,1]
	pxor	%xmm5, %xmm1
	pshufd	$78, %xmm4, %xmm5               # xmm5 = xmm4[2,3,0,1]
	pxor	%xmm8, %xmm6
	pxor	%xmm5, %xmm6
	pshufd	$57, %xmm10, %xmm15             # xmm15 = xmm10[1,2,3,0]
	pxor	%xmm11, %xmm2
	pxor	%xmm15, %xmm10
	pshufd	$78, %xmm2, %xmm5               # xmm5 = xmm2[2,3,0,1]
	pxor	%xmm15, %xmm2
	pshufd	$78, %xmm10, %xmm15             # xmm15 = xmm10[2,3,0,1]
	pxor	%xmm15, %xmm2
	pxor	%xmm8, %xmm14
	pxor	%xmm12, %xmm3
	movdqa	%xmm14, %xmm15
	psrlw	$1, %xmm15
	pxor	%xmm13, %xmm3
	movdqa	l_aes_v2_CPI52_4(%rip), %xmm12         # xmm12 = [127,127,127,127,127,127,127,127,127,127,127,127,127,127,127,127]
	pand	%xmm12, %xmm15
	pxor	%xmm8, %xmm3
	pxor	%xmm15, %xmm3
	paddb	%xmm3, %xmm3
	movdqa	l_aes_v2_CPI52_5(%rip), %xmm13         # xmm13 = [170,170,170,170,170,170,170,170,170,170,170,170,170,170,170,170]
	pand	%xmm13, %xmm3
	pxor	%xmm14, %xmm3
	pshufd	$57, %xmm9, %xmm14              # xmm14 = xmm9[1,2,3,0]
	pxor	%xmm14, %xmm9
	pxor	%xmm9, %xmm6
	pshufd	$78, %xmm9, %xmm9               # xmm9 = xmm9[2,3,0,1]
	pxor	%xmm8, %xmm9
	pxor	%xmm7, %xmm9
	movdqa	%xmm1, %xmm7
	psrlw	$1, %xmm7
	pand	%xmm12, %xmm7
	pxor	%xmm7, %xmm9
	pxor	%xmm14, %xmm9
	pxor	%xmm11, %xmm5
	pxor	%xmm4, %xmm5
	movdqa	%xmm6, %xmm4
	psrlw	$1, %xmm4
	pand	%xmm12, %xmm4
	pxor	%xmm4, %xmm5
	paddb	%xmm5, %xmm5
	pand	%xmm13, %xmm5
	pxor	%xmm6, %xmm5
	movdqa	%xmm2, %xmm6
	psrlw	$1, %xmm6
	pand	%xmm12, %xmm6
	pshufd	$78, %xmm8, %xmm4               # xmm4 = xmm8[2,3,0,1]
	pxor	%xmm0, %xmm4
	pxor	%xmm10, %xmm4
	paddb	%xmm9, %xmm9
	pxor	%xmm6, %xmm4
	movdqa	l_aes_v2_CPI52_6(%rip), %xmm0          # xmm0 = [34,34,34,34,34,34,34,34,34,34,34,34,34,34,34,34]
	pand	%xmm0, %xmm9
	paddb	%xmm4, %xmm4
	pand	%xmm0, %xmm4
	pxor	%xmm1, %xmm9
	movdqa	%xmm3, %xmm0
	psrlw	$2, %xmm0
	pxor	%xmm0, %xmm9
	psllw	$2, %xmm9
	pand	l_aes_v2_CPI52_7(%rip), %xmm9
	pxor	%xmm3, %xmm9
	pxor	%xmm2, %xmm4
	movdqa	%xmm5, %xmm0
	psrlw	$2, %xmm0
	pxor	%xmm0, %xmm4
	psllw	$2, %xmm4
	pand	l_aes_v2_CPI52_8(%rip), %xmm4
	pxor	%xmm5, %xmm4
	movdqa	%xmm9, %xmm0
	psrlw	$4, %xmm0
	pxor	%xmm0, %xmm4
	psllw	$4, %xmm4
	pand	l_aes_v2_CPI52_9(%rip), %xmm4
	pxor	%xmm9, %xmm4
	pshufb	l_aes_v2_CPI52_0(%rip), %xmm4          # xmm4 = xmm4[0,4,8,12,1,5,9,13,2,6,10,14,3,7,11,15]
	movdqu	(%rsi), %xmm0
	pxor	%xmm4, %xmm0
	movdqu	%xmm0, (%rdi)
	addq	$56, %rsp
	retq
                                        # -- End function
	.section	__TEXT,__const
	.p2align	4, 0x0                          # -- Begin function aes_c::single_rounds::rounds
l_aes_v2_CPI53_0:
	.byte	0                               # 0x0
	.byte	4                               # 0x4
	.byte	8                               # 0x8
	.byte	12                              # 0xc
	.byte	1                               # 0x1
	.byte	5                               # 0x5
	.byte	9                               # 0x9
	.byte	13                              # 0xd
	.byte	2                               # 0x2
	.byte	6                               # 0x6
	.byte	10                              # 0xa
	.byte	14                              # 0xe
	.byte	3                               # 0x3
	.byte	7                               # 0x7
	.byte	11                              # 0xb
	.byte	15                              # 0xf
l_aes_v2_CPI53_1:
	.zero	16,85
l_aes_v2_CPI53_2:
	.zero	16,51
l_aes_v2_CPI53_3:
	.zero	16,15
l_aes_v2_CPI53_4:
	.byte	0                               # 0x0
	.byte	0                               # 0x0
	.byte	0                               # 0x0
	.byte	0                               # 0x0
	.byte	255                             # 0xff
	.byte	0                               # 0x0
	.byte	0                               # 0x0
	.byte	0                               # 0x0
	.byte	255                             # 0xff
	.byte	255                             # 0xff
	.byte	0                               # 0x0
	.byte	0                               # 0x0
	.byte	0                               # 0x0
	.byte	255                             # 0xff
	.byte	0                               # 0x0
	.byte	0                               # 0x0
l_aes_v2_CPI53_5:
	.byte	0                               # 0x0
	.byte	0                               # 0x0
	.byte	0                               # 0x0
	.byte	0                               # 0x0
	.byte	255                             # 0xff
	.byte	0                               # 0x0
	.byte	255                             # 0xff
	.byte	0                               # 0x0
	.byte	0                               # 0x0
	.byte	0                               # 0x0
	.byte	0                               # 0x0
	.byte	0                               # 0x0
	.byte	255                             # 0xff
	.byte	0                               # 0x0
	.byte	255                             # 0xff
	.byte	0                               # 0x0
	.section	__TEXT,__text,regular,pure_instructions
	.p2align	4
_aes_v2.aes_c.single_rounds.rounds:         # @_aes_v2.aes_c.single_rounds.rounds
# %bb.0:                                # %start
	subq	$72, %rsp
	movdqu	(%rdi), %xmm3
	movdqu	16(%rdi), %xmm4
	movdqu	32(%rdi), %xmm7
	movdqu	48(%rdi), %xmm0
	movdqu	64(%rdi), %xmm2
	movdqu	80(%rdi), %xmm1
	movdqu	96(%rdi), %xmm5
	movdqu	112(%rdi), %xmm8
	movdqa	l_aes_v2_CPI53_0(%rip), %xmm6          # xmm6 = [0,4,8,12,1,5,9,13,2,6,10,14,3,7,11,15]
	pshufb	%xmm6, %xmm3
	pshufb	%xmm6, %xmm4
	pshufb	%xmm6, %xmm7
	pshufb	%xmm6, %xmm0
	pshufb	%xmm6, %xmm2
	pshufb	%xmm6, %xmm1
	pshufb	%xmm6, %xmm5
	pshufb	%xmm6, %xmm8
	movdqa	%xmm3, %xmm6
	psrlw	$1, %xmm6
	pxor	%xmm4, %xmm6
	movdqa	l_aes_v2_CPI53_1(%rip), %xmm10         # xmm10 = [85,85,85,85,85,85,85,85,85,85,85,85,85,85,85,85]
	pand	%xmm10, %xmm6
	pxor	%xmm6, %xmm4
	paddb	%xmm6, %xmm6
	pxor	%xmm3, %xmm6
	movdqa	%xmm7, %xmm3
	psrlw	$1, %xmm3
	pxor	%xmm0, %xmm3
	pand	%xmm10, %xmm3
	pxor	%xmm3, %xmm0
	paddb	%xmm3, %xmm3
	pxor	%xmm7, %xmm3
	movdqa	%xmm2, %xmm9
	psrlw	$1, %xmm9
	pxor	%xmm1, %xmm9
	pand	%xmm10, %xmm9
	pxor	%xmm9, %xmm1
	paddb	%xmm9, %xmm9
	pxor	%xmm2, %xmm9
	movdqa	%xmm5, %xmm2
	psrlw	$1, %xmm2
	pxor	%xmm8, %xmm2
	pand	%xmm10, %xmm2
	pxor	%xmm2, %xmm8
	paddb	%xmm2, %xmm2
	pxor	%xmm5, %xmm2
	movdqa	%xmm6, %xmm7
	psrlw	$2, %xmm7
	pxor	%xmm3, %xmm7
	movdqa	l_aes_v2_CPI53_2(%rip), %xmm5          # xmm5 = [51,51,51,51,51,51,51,51,51,51,51,51,51,51,51,51]
	pand	%xmm5, %xmm7
	pxor	%xmm7, %xmm3
	psllw	$2, %xmm7
	pxor	%xmm6, %xmm7
	movdqa	%xmm9, %xmm10
	psrlw	$2, %xmm10
	pxor	%xmm2, %xmm10
	pand	%xmm5, %xmm10
	pxor	%xmm10, %xmm2
	psllw	$2, %xmm10
	pxor	%xmm9, %xmm10
	movdqa	%xmm4, %xmm9
	psrlw	$2, %xmm9
	pxor	%xmm0, %xmm9
	pand	%xmm5, %xmm9
	pxor	%xmm9, %xmm0
	psllw	$2, %xmm9
	pxor	%xmm4, %xmm9
	movdqa	%xmm1, %xmm6
	psrlw	$2, %xmm6
	pxor	%xmm8, %xmm6
	pand	%xmm5, %xmm6
	pxor	%xmm6, %xmm8
	psllw	$2, %xmm6
	pxor	%xmm1, %xmm6
	movdqa	%xmm7, %xmm14
	psrlw	$4, %xmm14
	movdqa	l_aes_v2_CPI53_3(%rip), %xmm1          # xmm1 = [15,15,15,15,15,15,15,15,15,15,15,15,15,15,15,15]
	pxor	%xmm10, %xmm14
	pand	%xmm1, %xmm14
	pxor	%xmm14, %xmm10
	psllw	$4, %xmm14
	pxor	%xmm7, %xmm14
	movdqa	%xmm9, %xmm12
	psrlw	$4, %xmm12
	pxor	%xmm6, %xmm12
	pand	%xmm1, %xmm12
	pxor	%xmm12, %xmm6
	psllw	$4, %xmm12
	pxor	%xmm9, %xmm12
	movdqa	%xmm3, %xmm11
	psrlw	$4, %xmm11
	pxor	%xmm2, %xmm11
	pand	%xmm1, %xmm11
	pxor	%xmm11, %xmm2
	psllw	$4, %xmm11
	pxor	%xmm3, %xmm11
	movdqa	%xmm0, %xmm3
	psrlw	$4, %xmm3
	pxor	%xmm8, %xmm3
	pand	%xmm1, %xmm3
	pxor	%xmm3, %xmm8
	psllw	$4, %xmm3
	pxor	%xmm0, %xmm3
	pxor	%xmm2, %xmm6
	movdqa	%xmm10, %xmm7
	movdqa	%xmm14, %xmm15
	pxor	%xmm6, %xmm15
	movdqa	%xmm15, -80(%rsp)               # 16-byte Spill
	movdqa	%xmm15, %xmm5
	pxor	%xmm10, %xmm5
	movdqa	%xmm5, -128(%rsp)               # 16-byte Spill
	pxor	%xmm12, %xmm15
	pxor	%xmm8, %xmm12
	pxor	%xmm11, %xmm10
	movdqa	%xmm12, %xmm1
	pxor	%xmm10, %xmm1
	pxor	%xmm1, %xmm3
	movdqa	%xmm1, 48(%rsp)                 # 16-byte Spill
	movdqa	%xmm3, %xmm13
	pxor	%xmm2, %xmm3
	pxor	%xmm8, %xmm7
	pand	%xmm14, %xmm5
	pxor	%xmm11, %xmm13
	pxor	%xmm8, %xmm11
	movdqa	%xmm13, %xmm4
	pand	%xmm1, %xmm4
	movdqa	%xmm13, %xmm0
	movdqa	%xmm13, (%rsp)                  # 16-byte Spill
	pxor	%xmm6, %xmm0
	movdqa	%xmm0, %xmm2
	pxor	%xmm11, %xmm5
	pxor	%xmm0, %xmm5
	pxor	%xmm4, %xmm5
	pxor	%xmm3, %xmm4
	movdqa	%xmm7, -48(%rsp)                # 16-byte Spill
	pxor	%xmm7, %xmm3
	movdqa	%xmm3, %xmm1
	pand	%xmm7, %xmm1
	movdqa	%xmm3, %xmm9
	movdqa	%xmm0, 32(%rsp)                 # 16-byte Spill
	pxor	%xmm0, %xmm9
	movdqa	%xmm9, 16(%rsp)                 # 16-byte Spill
	pand	%xmm10, %xmm9
	pand	%xmm11, %xmm2
	pxor	%xmm1, %xmm9
	pxor	%xmm1, %xmm2
	movdqa	%xmm13, %xmm1
	pxor	%xmm14, %xmm1
	movdqa	%xmm1, -112(%rsp)               # 16-byte Spill
	movdqa	%xmm15, -32(%rsp)               # 16-byte Spill
	movdqa	%xmm15, %xmm13
	pxor	%xmm11, %xmm13
	movdqa	%xmm13, -16(%rsp)               # 16-byte Spill
	pand	%xmm13, %xmm1
	pxor	%xmm1, %xmm4
	pxor	%xmm3, %xmm6
	movdqa	%xmm3, -96(%rsp)                # 16-byte Spill
	movdqa	%xmm15, %xmm1
	movdqa	-80(%rsp), %xmm15               # 16-byte Reload
	pand	%xmm15, %xmm1
	movdqa	%xmm6, %xmm7
	pand	%xmm12, %xmm7
	pxor	%xmm9, %xmm4
	pxor	%xmm6, %xmm1
	pxor	%xmm7, %xmm1
	pxor	%xmm12, %xmm1
	pxor	%xmm9, %xmm1
	pxor	%xmm8, %xmm15
	pxor	%xmm8, %xmm7
	movdqa	%xmm3, %xmm8
	pxor	%xmm14, %xmm8
	movdqa	%xmm8, -64(%rsp)                # 16-byte Spill
	pand	%xmm15, %xmm8
	pxor	%xmm6, %xmm8
	pxor	%xmm8, %xmm7
	pxor	%xmm2, %xmm5
	pxor	%xmm2, %xmm7
	movdqa	%xmm1, %xmm9
	pand	%xmm4, %xmm9
	movdqa	%xmm9, %xmm0
	pxor	%xmm5, %xmm0
	movdqa	%xmm7, %xmm8
	pxor	%xmm1, %xmm8
	pand	%xmm0, %xmm8
	pxor	%xmm5, %xmm4
	movdqa	%xmm8, %xmm3
	pxor	%xmm9, %xmm8
	pxor	%xmm7, %xmm9
	movdqa	%xmm9, %xmm13
	pand	%xmm4, %xmm13
	pxor	%xmm5, %xmm13
	pxor	%xmm7, %xmm3
	pand	%xmm7, %xmm8
	pxor	%xmm8, %xmm9
	pand	%xmm13, %xmm9
	pxor	%xmm4, %xmm9
	pxor	%xmm1, %xmm8
	movdqa	-128(%rsp), %xmm1               # 16-byte Reload
	pand	%xmm3, %xmm1
	movdqa	%xmm1, -128(%rsp)               # 16-byte Spill
	movdqa	%xmm8, %xmm4
	pxor	%xmm3, %xmm4
	movdqa	%xmm13, %xmm1
	pxor	%xmm3, %xmm1
	pand	%xmm14, %xmm3
	movdqa	%xmm9, %xmm2
	pxor	%xmm4, %xmm2
	movdqa	-96(%rsp), %xmm0                # 16-byte Reload
	pand	%xmm1, %xmm0
	movdqa	%xmm0, -96(%rsp)                # 16-byte Spill
	movdqa	%xmm2, %xmm7
	pxor	%xmm1, %xmm7
	pand	-48(%rsp), %xmm1                # 16-byte Folded Reload
	movdqa	%xmm9, %xmm14
	pxor	%xmm13, %xmm14
	pand	%xmm14, %xmm6
	pand	%xmm12, %xmm14
	movdqa	-80(%rsp), %xmm12               # 16-byte Reload
	pand	%xmm9, %xmm12
	pand	-32(%rsp), %xmm9                # 16-byte Folded Reload
	movdqa	-112(%rsp), %xmm0               # 16-byte Reload
	pand	%xmm4, %xmm0
	pand	-16(%rsp), %xmm4                # 16-byte Folded Reload
	pand	%xmm7, %xmm10
	pand	16(%rsp), %xmm7                 # 16-byte Folded Reload
	pand	%xmm13, %xmm15
	pand	-64(%rsp), %xmm13               # 16-byte Folded Reload
	movdqa	(%rsp), %xmm5                   # 16-byte Reload
	pand	%xmm8, %xmm5
	pand	48(%rsp), %xmm8                 # 16-byte Folded Reload
	pxor	%xmm5, %xmm0
	movdqa	%xmm0, -112(%rsp)               # 16-byte Spill
	pxor	%xmm3, %xmm5
	movdqa	%xmm12, %xmm0
	pxor	%xmm6, %xmm0
	pxor	%xmm5, %xmm13
	pxor	%xmm6, %xmm13
	pxor	%xmm1, %xmm10
	pxor	%xmm10, %xmm4
	pxor	%xmm13, %xmm9
	pxor	%xmm10, %xmm9
	pxor	%xmm0, %xmm7
	movdqa	-112(%rsp), %xmm6               # 16-byte Reload
	pxor	%xmm0, %xmm6
	movdqa	32(%rsp), %xmm0                 # 16-byte Reload
	pand	%xmm2, %xmm0
	pxor	%xmm0, %xmm5
	pxor	%xmm14, %xmm5
	pxor	%xmm7, %xmm5
	movdqa	%xmm5, %xmm10
	pxor	-96(%rsp), %xmm7                # 16-byte Folded Reload
	pxor	%xmm4, %xmm8
	pxor	-128(%rsp), %xmm4               # 16-byte Folded Reload
	pxor	%xmm5, %xmm15
	pxor	%xmm8, %xmm6
	pxor	%xmm6, %xmm13
	pand	%xmm11, %xmm2
	pxor	%xmm15, %xmm4
	pxor	%xmm7, %xmm8
	pcmpeqd	%xmm0, %xmm0
	pxor	%xmm0, %xmm14
	pxor	%xmm9, %xmm14
	pxor	%xmm9, %xmm10
	pxor	%xmm0, %xmm10
	pxor	%xmm1, %xmm2
	pxor	%xmm7, %xmm2
	pxor	%xmm15, %xmm2
	pxor	%xmm0, %xmm2
	pxor	%xmm0, %xmm7
	pxor	%xmm6, %xmm7
	movdqa	%xmm14, %xmm0
	psrld	$16, %xmm0
	pxor	%xmm14, %xmm0
	movdqa	l_aes_v2_CPI53_4(%rip), %xmm5          # xmm5 = [0,0,0,0,255,0,0,0,255,255,0,0,0,255,0,0]
	pand	%xmm5, %xmm0
	movdqa	%xmm0, -128(%rsp)               # 16-byte Spill
	movdqa	%xmm10, %xmm11
	psrld	$16, %xmm11
	pxor	%xmm10, %xmm11
	pand	%xmm5, %xmm11
	movdqa	%xmm4, %xmm15
	psrld	$16, %xmm15
	pxor	%xmm4, %xmm15
	pand	%xmm5, %xmm15
	movdqa	%xmm13, %xmm12
	psrld	$16, %xmm12
	pxor	%xmm13, %xmm12
	pand	%xmm5, %xmm12
	movdqa	%xmm6, %xmm9
	psrld	$16, %xmm9
	pxor	%xmm6, %xmm9
	pand	%xmm5, %xmm9
	movdqa	%xmm2, %xmm1
	psrld	$16, %xmm1
	pxor	%xmm2, %xmm1
	pand	%xmm5, %xmm1
	movdqa	%xmm7, %xmm0
	psrld	$16, %xmm0
	pxor	%xmm7, %xmm0
	pand	%xmm5, %xmm0
	movdqa	%xmm8, %xmm3
	psrld	$16, %xmm3
	pxor	%xmm8, %xmm3
	pand	%xmm5, %xmm3
	pxor	%xmm0, %xmm7
	pslldq	$2, %xmm0                       # xmm0 = zero,zero,xmm0[0,1,2,3,4,5,6,7,8,9,10,11,12,13]
	pxor	%xmm7, %xmm0
	pxor	%xmm1, %xmm2
	pslldq	$2, %xmm1                       # xmm1 = zero,zero,xmm1[0,1,2,3,4,5,6,7,8,9,10,11,12,13]
	pxor	%xmm2, %xmm1
	movdqa	%xmm9, %xmm2
	pxor	%xmm6, %xmm9
	pslldq	$2, %xmm2                       # xmm2 = zero,zero,xmm2[0,1,2,3,4,5,6,7,8,9,10,11,12,13]
	pxor	%xmm2, %xmm9
	movdqa	%xmm12, %xmm2
	pxor	%xmm13, %xmm12
	pslldq	$2, %xmm2                       # xmm2 = zero,zero,xmm2[0,1,2,3,4,5,6,7,8,9,10,11,12,13]
	pxor	%xmm2, %xmm12
	movdqa	%xmm15, %xmm2
	pxor	%xmm4, %xmm15
	pslldq	$2, %xmm2                       # xmm2 = zero,zero,xmm2[0,1,2,3,4,5,6,7,8,9,10,11,12,13]
	pxor	%xmm2, %xmm15
	movdqa	%xmm11, %xmm2
	pxor	%xmm10, %xmm11
	movdqa	-128(%rsp), %xmm6               # 16-byte Reload
	movdqa	%xmm6, %xmm4
	pslldq	$2, %xmm4                       # xmm4 = zero,zero,xmm4[0,1,2,3,4,5,6,7,8,9,10,11,12,13]
	pslldq	$2, %xmm2                       # xmm2 = zero,zero,xmm2[0,1,2,3,4,5,6,7,8,9,10,11,12,13]
	pxor	%xmm2, %xmm11
	movdqa	%xmm3, %xmm2
	pslldq	$2, %xmm2                       # xmm2 = zero,zero,xmm2[0,1,2,3,4,5,6,7,8,9,10,11,12,13]
	pxor	%xmm14, %xmm6
	pxor	%xmm4, %xmm6
	movdqa	%xmm6, -128(%rsp)               # 16-byte Spill
	pxor	%xmm8, %xmm3
	pxor	%xmm2, %xmm3
	movdqa	%xmm6, %xmm5
	psrlw	$8, %xmm5
	pxor	%xmm6, %xmm5
	movdqa	l_aes_v2_CPI53_5(%rip), %xmm10         # xmm10 = [0,0,0,0,255,0,255,0,0,0,0,0,255,0,255,0]
	pand	%xmm10, %xmm5
	movdqa	%xmm11, %xmm7
	psrlw	$8, %xmm7
	pxor	%xmm11, %xmm7
	pand	%xmm10, %xmm7
	movdqa	%xmm15, %xmm4
	psrlw	$8, %xmm4
	pxor	%xmm15, %xmm4
	pand	%xmm10, %xmm4
	movdqa	%xmm12, %xmm8
	psrlw	$8, %xmm8
	pxor	%xmm12, %xmm8
	pand	%xmm10, %xmm8
	movdqa	%xmm9, %xmm6
	psrlw	$8, %xmm6
	pxor	%xmm9, %xmm6
	pand	%xmm10, %xmm6
	movdqa	%xmm1, %xmm14
	psrlw	$8, %xmm14
	pxor	%xmm1, %xmm14
	pand	%xmm10, %xmm14
	movdqa	%xmm0, %xmm13
	psrlw	$8, %xmm13
	pxor	%xmm0, %xmm13
	pand	%xmm10, %xmm13
	movdqa	%xmm3, %xmm2
	psrlw	$8, %xmm2
	pxor	%xmm3, %xmm2
	pand	%xmm10, %xmm2
	pxor	%xmm13, %xmm0
	pslldq	$1, %xmm13                      # xmm13 = zero,xmm13[0,1,2,3,4,5,6,7,8,9,10,11,12,13,14]
	pxor	%xmm0, %xmm13
	pxor	%xmm14, %xmm1
	pslldq	$1, %xmm14                      # xmm14 = zero,xmm14[0,1,2,3,4,5,6,7,8,9,10,11,12,13,14]
	pxor	%xmm1, %xmm14
	movdqa	%xmm6, %xmm0
	pxor	%xmm9, %xmm6
	pslldq	$1, %xmm0                       # xmm0 = zero,xmm0[0,1,2,3,4,5,6,7,8,9,10,11,12,13,14]
	pxor	%xmm0, %xmm6
	movdqa	%xmm8, %xmm0
	pxor	%xmm12, %xmm8
	pslldq	$1, %xmm0                       # xmm0 = zero,xmm0[0,1,2,3,4,5,6,7,8,9,10,11,12,13,14]
	pxor	%xmm0, %xmm8
	movdqa	%xmm4, %xmm0
	pxor	%xmm15, %xmm4
	pslldq	$1, %xmm0                       # xmm0 = zero,xmm0[0,1,2,3,4,5,6,7,8,9,10,11,12,13,14]
	pxor	%xmm0, %xmm4
	movdqa	%xmm7, %xmm0
	pxor	%xmm11, %xmm7
	movdqa	%xmm5, %xmm1
	pslldq	$1, %xmm1                       # xmm1 = zero,xmm1[0,1,2,3,4,5,6,7,8,9,10,11,12,13,14]
	pslldq	$1, %xmm0                       # xmm0 = zero,xmm0[0,1,2,3,4,5,6,7,8,9,10,11,12,13,14]
	pxor	%xmm0, %xmm7
	movdqa	%xmm2, %xmm0
	pslldq	$1, %xmm0                       # xmm0 = zero,xmm0[0,1,2,3,4,5,6,7,8,9,10,11,12,13,14]
	pxor	-128(%rsp), %xmm5               # 16-byte Folded Reload
	pxor	%xmm1, %xmm5
	pxor	%xmm3, %xmm2
	pxor	%xmm0, %xmm2
	pshufd	$57, %xmm5, %xmm3               # xmm3 = xmm5[1,2,3,0]
	pshufd	$57, %xmm7, %xmm9               # xmm9 = xmm7[1,2,3,0]
	pshufd	$57, %xmm4, %xmm1               # xmm1 = xmm4[1,2,3,0]
	pxor	%xmm3, %xmm5
	pshufd	$78, %xmm5, %xmm0               # xmm0 = xmm5[2,3,0,1]
	pxor	%xmm3, %xmm0
	pshufd	$57, %xmm2, %xmm3               # xmm3 = xmm2[1,2,3,0]
	pxor	%xmm9, %xmm7
	pxor	%xmm3, %xmm2
	pxor	%xmm9, %xmm5
	pshufd	$78, %xmm7, %xmm9               # xmm9 = xmm7[2,3,0,1]
	pxor	%xmm2, %xmm5
	pxor	%xmm9, %xmm5
	pshufd	$57, %xmm8, %xmm9               # xmm9 = xmm8[1,2,3,0]
	pxor	%xmm1, %xmm4
	pxor	%xmm1, %xmm7
	pshufd	$78, %xmm4, %xmm1               # xmm1 = xmm4[2,3,0,1]
	pxor	%xmm1, %xmm7
	pshufd	$57, %xmm6, %xmm10              # xmm10 = xmm6[1,2,3,0]
	pxor	%xmm9, %xmm8
	pxor	%xmm10, %xmm6
	pxor	%xmm9, %xmm4
	pshufd	$78, %xmm8, %xmm1               # xmm1 = xmm8[2,3,0,1]
	pxor	%xmm2, %xmm4
	pxor	%xmm1, %xmm4
	pshufd	$78, %xmm2, %xmm1               # xmm1 = xmm2[2,3,0,1]
	pxor	%xmm2, %xmm0
	pxor	%xmm10, %xmm2
	pshufd	$78, %xmm6, %xmm9               # xmm9 = xmm6[2,3,0,1]
	pxor	%xmm9, %xmm2
	pxor	%xmm8, %xmm2
	pshufd	$57, %xmm14, %xmm8              # xmm8 = xmm14[1,2,3,0]
	pxor	%xmm8, %xmm14
	pxor	%xmm8, %xmm6
	pshufd	$78, %xmm14, %xmm8              # xmm8 = xmm14[2,3,0,1]
	pxor	%xmm8, %xmm6
	pshufd	$57, %xmm13, %xmm8              # xmm8 = xmm13[1,2,3,0]
	pxor	%xmm8, %xmm13
	pxor	%xmm8, %xmm14
	pshufd	$78, %xmm13, %xmm8              # xmm8 = xmm13[2,3,0,1]
	pxor	%xmm8, %xmm14
	pxor	%xmm3, %xmm1
	pxor	%xmm13, %xmm1
	movdqa	%xmm0, %xmm8
	psrlw	$1, %xmm8
	pxor	%xmm5, %xmm8
	movdqa	l_aes_v2_CPI53_1(%rip), %xmm10         # xmm10 = [85,85,85,85,85,85,85,85,85,85,85,85,85,85,85,85]
	pand	%xmm10, %xmm8
	pxor	%xmm8, %xmm5
	paddb	%xmm8, %xmm8
	pxor	%xmm0, %xmm8
	movdqa	%xmm7, %xmm3
	psrlw	$1, %xmm3
	pxor	%xmm4, %xmm3
	pand	%xmm10, %xmm3
	pxor	%xmm3, %xmm4
	paddb	%xmm3, %xmm3
	pxor	%xmm7, %xmm3
	movdqa	%xmm2, %xmm9
	psrlw	$1, %xmm9
	pxor	%xmm6, %xmm9
	pand	%xmm10, %xmm9
	pxor	%xmm9, %xmm6
	paddb	%xmm9, %xmm9
	pxor	%xmm2, %xmm9
	movdqa	%xmm14, %xmm0
	psrlw	$1, %xmm0
	pxor	%xmm1, %xmm0
	pand	%xmm10, %xmm0
	pxor	%xmm0, %xmm1
	paddb	%xmm0, %xmm0
	pxor	%xmm14, %xmm0
	movdqa	%xmm8, %xmm7
	psrlw	$2, %xmm7
	pxor	%xmm3, %xmm7
	movdqa	l_aes_v2_CPI53_2(%rip), %xmm10         # xmm10 = [51,51,51,51,51,51,51,51,51,51,51,51,51,51,51,51]
	pand	%xmm10, %xmm7
	pxor	%xmm7, %xmm3
	psllw	$2, %xmm7
	pxor	%xmm8, %xmm7
	movdqa	%xmm9, %xmm2
	psrlw	$2, %xmm2
	pxor	%xmm0, %xmm2
	pand	%xmm10, %xmm2
	pxor	%xmm2, %xmm0
	psllw	$2, %xmm2
	pxor	%xmm9, %xmm2
	movdqa	%xmm5, %xmm8
	psrlw	$2, %xmm8
	pxor	%xmm4, %xmm8
	pand	%xmm10, %xmm8
	pxor	%xmm8, %xmm4
	psllw	$2, %xmm8
	pxor	%xmm5, %xmm8
	movdqa	%xmm6, %xmm5
	psrlw	$2, %xmm5
	pxor	%xmm1, %xmm5
	pand	%xmm10, %xmm5
	pxor	%xmm5, %xmm1
	psllw	$2, %xmm5
	pxor	%xmm6, %xmm5
	movdqa	%xmm7, %xmm6
	psrlw	$4, %xmm6
	pxor	%xmm2, %xmm6
	movdqa	l_aes_v2_CPI53_3(%rip), %xmm9          # xmm9 = [15,15,15,15,15,15,15,15,15,15,15,15,15,15,15,15]
	pand	%xmm9, %xmm6
	pxor	%xmm6, %xmm2
	psllw	$4, %xmm6
	pxor	%xmm7, %xmm6
	movdqa	%xmm8, %xmm7
	psrlw	$4, %xmm7
	pxor	%xmm5, %xmm7
	pand	%xmm9, %xmm7
	pxor	%xmm7, %xmm5
	psllw	$4, %xmm7
	pxor	%xmm8, %xmm7
	movdqa	%xmm3, %xmm8
	psrlw	$4, %xmm8
	pxor	%xmm0, %xmm8
	pand	%xmm9, %xmm8
	pxor	%xmm8, %xmm0
	psllw	$4, %xmm8
	pxor	%xmm3, %xmm8
	movdqa	%xmm4, %xmm3
	psrlw	$4, %xmm3
	pxor	%xmm1, %xmm3
	pand	%xmm9, %xmm3
	pxor	%xmm3, %xmm1
	psllw	$4, %xmm3
	pxor	%xmm4, %xmm3
	movdqa	l_aes_v2_CPI53_0(%rip), %xmm4          # xmm4 = [0,4,8,12,1,5,9,13,2,6,10,14,3,7,11,15]
	pshufb	%xmm4, %xmm6
	movdqu	%xmm6, (%rdi)
	pshufb	%xmm4, %xmm7
	movdqu	%xmm7, 16(%rdi)
	pshufb	%xmm4, %xmm8
	movdqu	%xmm8, 32(%rdi)
	pshufb	%xmm4, %xmm3
	movdqu	%xmm3, 48(%rdi)
	pshufb	%xmm4, %xmm2
	movdqu	%xmm2, 64(%rdi)
	pshufb	%xmm4, %xmm5
	movdqu	%xmm5, 80(%rdi)
	pshufb	%xmm4, %xmm0
	movdqu	%xmm0, 96(%rdi)
	pshufb	%xmm4, %xmm1
	movdqu	%xmm1, 112(%rdi)
	movdqu	(%rsi), %xmm0
	pxor	%xmm6, %xmm0
	movdqu	%xmm0, (%rdi)
	movdqu	16(%rsi), %xmm0
	pxor	%xmm7, %xmm0
	movdqu	%xmm0, 16(%rdi)
	movdqu	32(%rsi), %xmm0
	pxor	%xmm8, %xmm0
	movdqu	%xmm0, 32(%rdi)
	movdqu	48(%rsi), %xmm0
	pxor	%xmm3, %xmm0
	movdqu	%xmm0, 48(%rdi)
	movdqu	64(%rsi), %xmm0
	pxor	%xmm2, %xmm0
	movdqu	%xmm0, 64(%rdi)
	movups	80(%rdi), %xmm0
	movups	80(%rsi), %xmm1
	xorps	%xmm0, %xmm1
	movups	%xmm1, 80(%rdi)
	movups	96(%rdi), %xmm0
	movups	96(%rsi), %xmm1
	xorps	%xmm0, %xmm1
	movups	%xmm1, 96(%rdi)
	movups	112(%rdi), %xmm0
	movups	112(%rsi), %xmm1
	xorps	%xmm0, %xmm1
	movups	%xmm1, 112(%rdi)
	addq	$72, %rsp
	retq
                                        # -- End function
	.section	__TEXT,__text,regular,pure_instructions
	.p2align	4                               # -- Begin function ccm::mode::decrypt::<#ef80964e0b8d42c0>
_aes_v2.ccm.mode.decrypt: # @_aes_v2.ccm.mode.decrypt
# %bb.0:                                # %start
	pushq	%rbp
	pushq	%r15
	pushq	%r14
	pushq	%r13
	pushq	%r12
	pushq	%rbx
	subq	$104, %rsp
	movq	%rcx, %rbx
	movq	184(%rsp), %r15
	leaq	-4(%r15), %rax
	cmpq	$13, %rax
	setae	%al
	movl	%r15d, %ecx
	orb	%al, %cl
	testb	$1, %cl
	jne	Laes_v2_BB54_1
# %bb.2:                                # %after.1.i
	leaq	-14(%rbx), %rcx
	movb	$1, %al
	cmpq	$-7, %rcx
	jb	Laes_v2_BB54_5
# %bb.3:                                # %"ccm::formatting::check.exit"
	movq	168(%rsp), %r10
	leal	(,%rbx,8), %ecx
	xorb	$120, %cl
                                        # kill: def $cl killed $cl killed $ecx
	shrq	%cl, %r10
	cmpq	$7, %rbx
	je	Laes_v2_BB54_6
# %bb.4:                                # %"ccm::formatting::check.exit"
	movb	$2, %al
	testq	%r10, %r10
	jne	Laes_v2_BB54_5
Laes_v2_BB54_6:                               # %join.4
	movq	%rdi, 72(%rsp)                  # 8-byte Spill
	movq	160(%rsp), %r14
	movb	$14, %r13b
	subb	%bl, %r13b
	movq	$0, 32(%rsp)
	movq	$0, 39(%rsp)
	leaq	32(%rsp), %rdi
	movq	%rsi, %r12
	movq	%rdx, %rsi
	movq	%rdx, %rbp
	movq	%rbx, %rdx
	movq	%r9, 96(%rsp)                   # 8-byte Spill
	movq	%r8, 88(%rsp)                   # 8-byte Spill
	callq	*_memcpy@GOTPCREL(%rip)
	movb	%r13b, 48(%rsp)
	movq	32(%rsp), %rax
	movq	39(%rsp), %rcx
	movq	%rax, 49(%rsp)
	movq	%rcx, 56(%rsp)
	leaq	48(%rsp), %rsi
	movl	$16, %edx
	movq	%r12, %rdi
	movq	%r14, %rcx
	movq	168(%rsp), %r8
	callq	_aes_v2.aes_ctr.add_in_batches.add_keystream
	leaq	32(%rsp), %rax
	movq	%rax, 16(%rsp)
	movq	168(%rsp), %rax
	movq	%rax, 8(%rsp)
	movq	%r14, (%rsp)
	movq	%r12, 80(%rsp)                  # 8-byte Spill
	movq	%r12, %rdi
	movq	%rbp, %r12
	movq	%rbp, %rsi
	movq	%rbx, %rdx
	movq	%r15, %rcx
	movq	88(%rsp), %r8                   # 8-byte Reload
	movq	96(%rsp), %r9                   # 8-byte Reload
	callq	_aes_v2.ccm.message.put_tag
	movups	32(%rsp), %xmm0
	movaps	%xmm0, 48(%rsp)
	leaq	48(%rsp), %r14
	movq	%r14, %rdi
	movq	176(%rsp), %rsi
	movq	%r15, %rdx
	callq	*_memcpy@GOTPCREL(%rip)
	movq	%r14, %rdi
	leaq	32(%rsp), %rsi
	callq	_aes_v2.aes_cipher.blocks.difference
	testl	%eax, %eax
	je	Laes_v2_BB54_7
# %bb.8:                                # %join.7
	movq	$0, 32(%rsp)
	movq	$0, 39(%rsp)
	leaq	32(%rsp), %rdi
	movq	%r12, %rsi
	movq	%rbx, %rdx
	callq	*_memcpy@GOTPCREL(%rip)
	movb	%r13b, 48(%rsp)
	movq	32(%rsp), %rax
	movq	39(%rsp), %rcx
	movq	%rax, 49(%rsp)
	movq	%rcx, 56(%rsp)
	leaq	48(%rsp), %rsi
	movl	$16, %edx
	movq	80(%rsp), %rdi                  # 8-byte Reload
	movq	160(%rsp), %rcx
	movq	168(%rsp), %r8
	callq	_aes_v2.aes_ctr.add_in_batches.add_keystream
	movq	72(%rsp), %rax                  # 8-byte Reload
	movw	$257, (%rax)                    # imm = 0x101
	jmp	Laes_v2_BB54_9
Laes_v2_BB54_1:
	xorl	%eax, %eax
Laes_v2_BB54_5:                               # %arm.1
	movw	$1, (%rdi)
	movb	%al, 2(%rdi)
Laes_v2_BB54_10:                              # %common.ret
	addq	$104, %rsp
	popq	%rbx
	popq	%r12
	popq	%r13
	popq	%r14
	popq	%r15
	popq	%rbp
	retq
Laes_v2_BB54_7:                               # %then.5
	movq	72(%rsp), %rax                  # 8-byte Reload
	movw	$0, (%rax)
Laes_v2_BB54_9:                               # %common.ret
	movb	$0, 2(%rax)
	jmp	Laes_v2_BB54_10
                                        # -- End function
	.section	__TEXT,__const
	.p2align	4, 0x0                          # -- Begin function ccm::message::put_tag::<#ef80964e0b8d42c0>
l_aes_v2_CPI55_0:
	.zero	16,15
l_aes_v2_CPI55_1:
	.byte	0                               # 0x0
	.byte	1                               # 0x1
	.byte	28                              # 0x1c
	.byte	29                              # 0x1d
	.byte	45                              # 0x2d
	.byte	44                              # 0x2c
	.byte	49                              # 0x31
	.byte	48                              # 0x30
	.byte	39                              # 0x27
	.byte	38                              # 0x26
	.byte	59                              # 0x3b
	.byte	58                              # 0x3a
	.byte	10                              # 0xa
	.byte	11                              # 0xb
	.byte	22                              # 0x16
	.byte	23                              # 0x17
l_aes_v2_CPI55_2:
	.byte	0                               # 0x0
	.byte	134                             # 0x86
	.byte	253                             # 0xfd
	.byte	123                             # 0x7b
	.byte	142                             # 0x8e
	.byte	8                               # 0x8
	.byte	115                             # 0x73
	.byte	245                             # 0xf5
	.byte	119                             # 0x77
	.byte	241                             # 0xf1
	.byte	138                             # 0x8a
	.byte	12                              # 0xc
	.byte	249                             # 0xf9
	.byte	127                             # 0x7f
	.byte	4                               # 0x4
	.byte	130                             # 0x82
l_aes_v2_CPI55_3:
	.byte	128                             # 0x80
	.byte	2                               # 0x2
	.byte	1                               # 0x1
	.byte	15                              # 0xf
	.byte	9                               # 0x9
	.byte	5                               # 0x5
	.byte	14                              # 0xe
	.byte	12                              # 0xc
	.byte	13                              # 0xd
	.byte	4                               # 0x4
	.byte	11                              # 0xb
	.byte	10                              # 0xa
	.byte	7                               # 0x7
	.byte	8                               # 0x8
	.byte	6                               # 0x6
	.byte	3                               # 0x3
l_aes_v2_CPI55_4:
	.byte	128                             # 0x80
	.byte	1                               # 0x1
	.byte	9                               # 0x9
	.byte	14                              # 0xe
	.byte	13                              # 0xd
	.byte	11                              # 0xb
	.byte	7                               # 0x7
	.byte	6                               # 0x6
	.byte	15                              # 0xf
	.byte	2                               # 0x2
	.byte	12                              # 0xc
	.byte	5                               # 0x5
	.byte	10                              # 0xa
	.byte	4                               # 0x4
	.byte	3                               # 0x3
	.byte	8                               # 0x8
l_aes_v2_CPI55_5:
	.byte	0                               # 0x0
	.byte	195                             # 0xc3
	.byte	79                              # 0x4f
	.byte	12                              # 0xc
	.byte	252                             # 0xfc
	.byte	124                             # 0x7c
	.byte	67                              # 0x43
	.byte	128                             # 0x80
	.byte	207                             # 0xcf
	.byte	51                              # 0x33
	.byte	63                              # 0x3f
	.byte	112                             # 0x70
	.byte	191                             # 0xbf
	.byte	179                             # 0xb3
	.byte	240                             # 0xf0
	.byte	140                             # 0x8c
l_aes_v2_CPI55_6:
	.byte	0                               # 0x0
	.byte	230                             # 0xe6
	.byte	114                             # 0x72
	.byte	183                             # 0xb7
	.byte	229                             # 0xe5
	.byte	198                             # 0xc6
	.byte	197                             # 0xc5
	.byte	35                              # 0x23
	.byte	81                              # 0x51
	.byte	180                             # 0xb4
	.byte	3                               # 0x3
	.byte	113                             # 0x71
	.byte	32                              # 0x20
	.byte	151                             # 0x97
	.byte	82                              # 0x52
	.byte	148                             # 0x94
l_aes_v2_CPI55_7:
	.byte	0                               # 0x0
	.byte	124                             # 0x7c
	.byte	32                              # 0x20
	.byte	207                             # 0xcf
	.byte	146                             # 0x92
	.byte	1                               # 0x1
	.byte	239                             # 0xef
	.byte	147                             # 0x93
	.byte	179                             # 0xb3
	.byte	33                              # 0x21
	.byte	238                             # 0xee
	.byte	206                             # 0xce
	.byte	125                             # 0x7d
	.byte	178                             # 0xb2
	.byte	93                              # 0x5d
	.byte	92                              # 0x5c
l_aes_v2_CPI55_8:
	.byte	0                               # 0x0
	.byte	209                             # 0xd1
	.byte	229                             # 0xe5
	.byte	247                             # 0xf7
	.byte	230                             # 0xe6
	.byte	37                              # 0x25
	.byte	18                              # 0x12
	.byte	195                             # 0xc3
	.byte	38                              # 0x26
	.byte	192                             # 0xc0
	.byte	55                              # 0x37
	.byte	210                             # 0xd2
	.byte	244                             # 0xf4
	.byte	3                               # 0x3
	.byte	17                              # 0x11
	.byte	52                              # 0x34
l_aes_v2_CPI55_9:
	.byte	0                               # 0x0
	.byte	203                             # 0xcb
	.byte	215                             # 0xd7
	.byte	176                             # 0xb0
	.byte	33                              # 0x21
	.byte	141                             # 0x8d
	.byte	103                             # 0x67
	.byte	172                             # 0xac
	.byte	123                             # 0x7b
	.byte	90                              # 0x5a
	.byte	234                             # 0xea
	.byte	61                              # 0x3d
	.byte	70                              # 0x46
	.byte	246                             # 0xf6
	.byte	145                             # 0x91
	.byte	28                              # 0x1c
l_aes_v2_CPI55_10:
	.byte	0                               # 0x0
	.byte	159                             # 0x9f
	.byte	97                              # 0x61
	.byte	22                              # 0x16
	.byte	194                             # 0xc2
	.byte	42                              # 0x2a
	.byte	119                             # 0x77
	.byte	232                             # 0xe8
	.byte	137                             # 0x89
	.byte	75                              # 0x4b
	.byte	93                              # 0x5d
	.byte	60                              # 0x3c
	.byte	181                             # 0xb5
	.byte	163                             # 0xa3
	.byte	212                             # 0xd4
	.byte	254                             # 0xfe
	.section	__TEXT,__text,regular,pure_instructions
	.p2align	4
_aes_v2.ccm.message.put_tag: # @_aes_v2.ccm.message.put_tag
# %bb.0:                                # %start
	pushq	%rbp
	pushq	%r15
	pushq	%r14
	pushq	%r13
	pushq	%r12
	pushq	%rbx
	subq	$56, %rsp
	movq	%r9, %rbp
	movq	%r8, 40(%rsp)                   # 8-byte Spill
	movq	%rdx, %r15
	movq	%rsi, %r12
	movq	%rdi, %r14
	movq	120(%rsp), %rax
	bswapq	%rax
	movq	128(%rsp), %r13
	movq	%rax, 48(%rsp)
	xorl	%eax, %eax
	subq	$2, %rcx
	cmovaeq	%rcx, %rax
	andl	$62, %eax
	shll	$2, %eax
	subl	%r15d, %eax
	testq	%r9, %r9
	setne	%bl
	shlb	$6, %bl
	addb	%al, %bl
	addb	$14, %bl
	movq	$0, 16(%rsp)
	movq	$0, 23(%rsp)
	leaq	16(%rsp), %rdi
	callq	*_memcpy@GOTPCREL(%rip)
	movb	%bl, (%rsp)
	movq	16(%rsp), %rax
	movq	23(%rsp), %rcx
	movq	%rax, 1(%rsp)
	movq	%rcx, 8(%rsp)
	leaq	(%rsp,%r15), %rdi
	incq	%rdi
	leaq	(%rsp,%r15), %rsi
	addq	$41, %rsi
	movl	$15, %edx
	subq	%r15, %rdx
	callq	*_memcpy@GOTPCREL(%rip)
	movdqa	(%rsp), %xmm0
	movdqu	%xmm0, (%r13)
	movq	16(%r14), %rax
	movq	24(%r14), %rdx
	leaq	-1(%rdx), %rcx
	movdqu	(%rax), %xmm1
	pxor	%xmm0, %xmm1
	movdqa	l_aes_v2_CPI55_0(%rip), %xmm7          # xmm7 = [15,15,15,15,15,15,15,15,15,15,15,15,15,15,15,15]
	movdqa	%xmm1, %xmm0
	pand	%xmm7, %xmm0
	movdqa	l_aes_v2_CPI55_1(%rip), %xmm2          # xmm2 = [0,1,28,29,45,44,49,48,39,38,59,58,10,11,22,23]
	pshufb	%xmm0, %xmm2
	psrlw	$4, %xmm1
	pand	%xmm7, %xmm1
	movdqa	l_aes_v2_CPI55_2(%rip), %xmm0          # xmm0 = [0,134,253,123,142,8,115,245,119,241,138,12,249,127,4,130]
	pshufb	%xmm1, %xmm0
	pxor	%xmm2, %xmm0
	cmpq	$2, %rcx
	jb	Laes_v2_BB55_3
# %bb.1:                                # %join.5.i.i912.preheader
	addq	$-2, %rdx
	movl	$16, %esi
	.p2align	4
Laes_v2_BB55_2:                               # %join.5.i.i912
                                        # =>This Inner Loop Header: Depth=1
	movdqu	(%rax,%rsi), %xmm1
	movdqa	%xmm0, %xmm2
	psrlw	$4, %xmm2
	pand	%xmm7, %xmm2
	pand	%xmm7, %xmm0
	movdqa	%xmm2, %xmm3
	pxor	%xmm0, %xmm3
	movdqa	l_aes_v2_CPI55_3(%rip), %xmm4          # xmm4 = [128,2,1,15,9,5,14,12,13,4,11,10,7,8,6,3]
	pshufb	%xmm0, %xmm4
	movdqa	l_aes_v2_CPI55_4(%rip), %xmm0          # xmm0 = [128,1,9,14,13,11,7,6,15,2,12,5,10,4,3,8]
	movdqa	%xmm0, %xmm5
	pshufb	%xmm2, %xmm5
	movdqa	%xmm0, %xmm6
	pshufb	%xmm3, %xmm6
	pxor	%xmm4, %xmm5
	pxor	%xmm4, %xmm6
	movdqa	%xmm0, %xmm4
	pshufb	%xmm5, %xmm4
	pshufb	%xmm6, %xmm0
	pxor	%xmm3, %xmm4
	pxor	%xmm2, %xmm0
	movdqa	l_aes_v2_CPI55_5(%rip), %xmm3          # xmm3 = [0,195,79,12,252,124,67,128,207,51,63,112,191,179,240,140]
	pshufb	%xmm4, %xmm3
	movdqa	l_aes_v2_CPI55_6(%rip), %xmm2          # xmm2 = [0,230,114,183,229,198,197,35,81,180,3,113,32,151,82,148]
	pshufb	%xmm0, %xmm2
	pxor	%xmm3, %xmm2
	movdqa	l_aes_v2_CPI55_7(%rip), %xmm3          # xmm3 = [0,124,32,207,146,1,239,147,179,33,238,206,125,178,93,92]
	pshufb	%xmm4, %xmm3
	movdqa	l_aes_v2_CPI55_8(%rip), %xmm4          # xmm4 = [0,209,229,247,230,37,18,195,38,192,55,210,244,3,17,52]
	pshufb	%xmm0, %xmm4
	pxor	%xmm3, %xmm4
	movl	%esi, %edi
	andl	$48, %edi
	leaq	l_aes_v2_static.4(%rip), %r8
	movdqu	(%rdi,%r8), %xmm3
	movdqa	%xmm2, %xmm0
	pshufb	%xmm3, %xmm0
	pxor	%xmm4, %xmm0
	leaq	l_aes_v2_static.5(%rip), %r8
	movdqu	(%rdi,%r8), %xmm4
	pshufb	%xmm4, %xmm2
	pxor	%xmm1, %xmm2
	pxor	%xmm0, %xmm2
	pshufb	%xmm3, %xmm0
	pxor	%xmm2, %xmm0
	addq	$16, %rsi
	decq	%rdx
	jne	Laes_v2_BB55_2
Laes_v2_BB55_3:                               # %"aes_permute::blocks::process_block::<#aedbc4fd156a355d>.exit1656"
	movq	112(%rsp), %rdx
	shlq	$4, %rcx
	movl	%ecx, %esi
	andl	$48, %esi
	movdqu	(%rax,%rcx), %xmm1
	movdqa	%xmm0, %xmm2
	psrlw	$4, %xmm2
	pand	%xmm7, %xmm2
	pand	%xmm7, %xmm0
	movdqa	%xmm2, %xmm3
	pxor	%xmm0, %xmm3
	movdqa	l_aes_v2_CPI55_3(%rip), %xmm4          # xmm4 = [128,2,1,15,9,5,14,12,13,4,11,10,7,8,6,3]
	pshufb	%xmm0, %xmm4
	movdqa	l_aes_v2_CPI55_4(%rip), %xmm6          # xmm6 = [128,1,9,14,13,11,7,6,15,2,12,5,10,4,3,8]
	movdqa	%xmm6, %xmm0
	pshufb	%xmm2, %xmm0
	movdqa	%xmm6, %xmm5
	pshufb	%xmm3, %xmm5
	pxor	%xmm4, %xmm0
	pxor	%xmm4, %xmm5
	movdqa	%xmm6, %xmm4
	pshufb	%xmm0, %xmm4
	movdqa	%xmm6, %xmm0
	pshufb	%xmm5, %xmm0
	pxor	%xmm3, %xmm4
	pxor	%xmm2, %xmm0
	movdqa	l_aes_v2_CPI55_9(%rip), %xmm2          # xmm2 = [0,203,215,176,33,141,103,172,123,90,234,61,70,246,145,28]
	pshufb	%xmm4, %xmm2
	movdqa	l_aes_v2_CPI55_10(%rip), %xmm3         # xmm3 = [0,159,97,22,194,42,119,232,137,75,93,60,181,163,212,254]
	pshufb	%xmm0, %xmm3
	pxor	%xmm2, %xmm3
	leaq	l_aes_v2_static.3(%rip), %rax
	movdqu	(%rsi,%rax), %xmm0
	pshufb	%xmm0, %xmm3
	pxor	%xmm1, %xmm3
	movq	128(%rsp), %r13
	movdqu	%xmm3, (%r13)
	testq	%rbp, %rbp
	je	Laes_v2_BB55_10
# %bb.4:                                # %join.3.i
	pxor	%xmm0, %xmm0
	movdqa	%xmm0, (%rsp)
	movq	%rbp, %rax
	bswapq	%rax
	cmpq	$65279, %rbp                    # imm = 0xFEFF
	movq	%r12, 32(%rsp)                  # 8-byte Spill
	ja	Laes_v2_BB55_6
# %bb.5:                                # %then.1.i.i
	movq	%rdx, %r12
	leaq	2(%rsp), %rdi
	shrq	$48, %rax
	movw	%ax, (%rsp)
	movl	$14, %edx
	jmp	Laes_v2_BB55_9
Laes_v2_BB55_6:                               # %join.3.i.i
	movb	$-1, (%rsp)
	movq	%rbp, %rcx
	movq	%rdx, %r12
	shrq	$32, %rcx
	jne	Laes_v2_BB55_8
# %bb.7:                                # %then.4.i.i
	leaq	6(%rsp), %rdi
	shrq	$32, %rax
	movb	$-2, 1(%rsp)
	movl	%eax, 2(%rsp)
	movl	$10, %edx
	jmp	Laes_v2_BB55_9
Laes_v2_BB55_8:                               # %join.6.i.i
	leaq	10(%rsp), %rdi
	movb	$-1, 1(%rsp)
	movq	%rax, 2(%rsp)
	movl	$6, %edx
Laes_v2_BB55_9:                               # %"ccm::formatting::put_length.exit.i"
	cmpq	%rbp, %rdx
	cmovaeq	%rbp, %rdx
	movq	40(%rsp), %rsi                  # 8-byte Reload
	leaq	(%rsi,%rdx), %rbx
	subq	%rdx, %rbp
	callq	*_memcpy@GOTPCREL(%rip)
	movq	%rsp, %rdx
	movl	$16, %ecx
	movq	%r14, %rdi
	movq	128(%rsp), %r13
	movq	%r13, %rsi
	callq	_aes_v2.cmac.chaining.chain
	movq	%r14, %rdi
	movq	%r13, %rsi
	movq	%rbx, %rdx
	movq	%rbp, %rcx
	callq	_aes_v2.cmac.chaining.chain
	movq	%r12, %rdx
	movq	32(%rsp), %r12                  # 8-byte Reload
Laes_v2_BB55_10:                              # %"ccm::message::chain_additional::<#ef80964e0b8d42c0>.exit"
	movq	%r14, %rdi
	movq	%r13, %rsi
	movq	120(%rsp), %rcx
	callq	_aes_v2.cmac.chaining.chain
	movb	$14, %bl
	subb	%r15b, %bl
	movq	$0, 7(%rsp)
	movq	$0, (%rsp)
	movq	%rsp, %rdi
	movq	%r12, %rsi
	movq	%r15, %rdx
	callq	*_memcpy@GOTPCREL(%rip)
	movd	3(%rsp), %xmm0                  # xmm0 = mem[0],zero,zero,zero
	movzbl	%bl, %eax
	movd	%eax, %xmm1
	pinsrb	$1, (%rsp), %xmm1
	pinsrb	$2, 1(%rsp), %xmm1
	pinsrb	$3, 2(%rsp), %xmm1
	movq	7(%rsp), %xmm2                  # xmm2 = mem[0],zero
	punpckldq	%xmm0, %xmm1            # xmm1 = xmm1[0],xmm0[0],xmm1[1],xmm0[1]
	punpcklqdq	%xmm2, %xmm1            # xmm1 = xmm1[0],xmm2[0]
	movq	16(%r14), %rcx
	movq	24(%r14), %rdx
	leaq	-1(%rdx), %rax
	movdqu	(%rcx), %xmm0
	pxor	%xmm1, %xmm0
	movdqa	%xmm0, %xmm1
	movdqa	l_aes_v2_CPI55_0(%rip), %xmm6          # xmm6 = [15,15,15,15,15,15,15,15,15,15,15,15,15,15,15,15]
	pand	%xmm6, %xmm1
	movdqa	l_aes_v2_CPI55_1(%rip), %xmm2          # xmm2 = [0,1,28,29,45,44,49,48,39,38,59,58,10,11,22,23]
	pshufb	%xmm1, %xmm2
	psrlw	$4, %xmm0
	pand	%xmm6, %xmm0
	movdqa	l_aes_v2_CPI55_2(%rip), %xmm4          # xmm4 = [0,134,253,123,142,8,115,245,119,241,138,12,249,127,4,130]
	pshufb	%xmm0, %xmm4
	pxor	%xmm2, %xmm4
	cmpq	$2, %rax
	jb	Laes_v2_BB55_11
# %bb.12:                               # %join.5.i.i.preheader
	addq	$-2, %rdx
	movl	$16, %esi
	movdqa	l_aes_v2_CPI55_4(%rip), %xmm7          # xmm7 = [128,1,9,14,13,11,7,6,15,2,12,5,10,4,3,8]
	movdqa	l_aes_v2_CPI55_3(%rip), %xmm8          # xmm8 = [128,2,1,15,9,5,14,12,13,4,11,10,7,8,6,3]
	.p2align	4
Laes_v2_BB55_13:                              # %join.5.i.i
                                        # =>This Inner Loop Header: Depth=1
	movdqu	(%rcx,%rsi), %xmm0
	movdqa	%xmm4, %xmm1
	psrlw	$4, %xmm1
	pand	%xmm6, %xmm1
	pand	%xmm6, %xmm4
	movdqa	%xmm1, %xmm2
	pxor	%xmm4, %xmm2
	movdqa	%xmm8, %xmm3
	pshufb	%xmm4, %xmm3
	movdqa	%xmm7, %xmm4
	pshufb	%xmm1, %xmm4
	movdqa	%xmm7, %xmm5
	pshufb	%xmm2, %xmm5
	pxor	%xmm3, %xmm4
	pxor	%xmm3, %xmm5
	movdqa	%xmm7, %xmm3
	pshufb	%xmm4, %xmm3
	movdqa	%xmm7, %xmm4
	pshufb	%xmm5, %xmm4
	pxor	%xmm2, %xmm3
	pxor	%xmm1, %xmm4
	movdqa	l_aes_v2_CPI55_5(%rip), %xmm2          # xmm2 = [0,195,79,12,252,124,67,128,207,51,63,112,191,179,240,140]
	pshufb	%xmm3, %xmm2
	movdqa	l_aes_v2_CPI55_6(%rip), %xmm1          # xmm1 = [0,230,114,183,229,198,197,35,81,180,3,113,32,151,82,148]
	pshufb	%xmm4, %xmm1
	pxor	%xmm2, %xmm1
	movdqa	l_aes_v2_CPI55_7(%rip), %xmm2          # xmm2 = [0,124,32,207,146,1,239,147,179,33,238,206,125,178,93,92]
	pshufb	%xmm3, %xmm2
	movdqa	l_aes_v2_CPI55_8(%rip), %xmm3          # xmm3 = [0,209,229,247,230,37,18,195,38,192,55,210,244,3,17,52]
	pshufb	%xmm4, %xmm3
	pxor	%xmm2, %xmm3
	movl	%esi, %edi
	andl	$48, %edi
	leaq	l_aes_v2_static.4(%rip), %r8
	movdqu	(%rdi,%r8), %xmm2
	movdqa	%xmm1, %xmm4
	pshufb	%xmm2, %xmm4
	pxor	%xmm3, %xmm4
	leaq	l_aes_v2_static.5(%rip), %r8
	movdqu	(%rdi,%r8), %xmm3
	pshufb	%xmm3, %xmm1
	pxor	%xmm0, %xmm1
	pxor	%xmm4, %xmm1
	pshufb	%xmm2, %xmm4
	pxor	%xmm1, %xmm4
	addq	$16, %rsi
	decq	%rdx
	jne	Laes_v2_BB55_13
	jmp	Laes_v2_BB55_14
Laes_v2_BB55_11:
	movdqa	l_aes_v2_CPI55_4(%rip), %xmm7          # xmm7 = [128,1,9,14,13,11,7,6,15,2,12,5,10,4,3,8]
	movdqa	l_aes_v2_CPI55_3(%rip), %xmm8          # xmm8 = [128,2,1,15,9,5,14,12,13,4,11,10,7,8,6,3]
Laes_v2_BB55_14:                              # %"aes_permute::blocks::process_block::<#aedbc4fd156a355d>.exit"
	shlq	$4, %rax
	movdqu	(%rcx,%rax), %xmm0
	movdqa	%xmm4, %xmm1
	psrlw	$4, %xmm1
	pand	%xmm6, %xmm1
	pand	%xmm6, %xmm4
	movdqa	%xmm1, %xmm2
	pxor	%xmm4, %xmm2
	pshufb	%xmm4, %xmm8
	movdqa	%xmm7, %xmm3
	pshufb	%xmm1, %xmm3
	movdqa	%xmm7, %xmm4
	pshufb	%xmm2, %xmm4
	pxor	%xmm8, %xmm3
	pxor	%xmm8, %xmm4
	movdqa	%xmm7, %xmm5
	pshufb	%xmm3, %xmm5
	pshufb	%xmm4, %xmm7
	pxor	%xmm2, %xmm5
	pxor	%xmm1, %xmm7
	movdqa	l_aes_v2_CPI55_9(%rip), %xmm3          # xmm3 = [0,203,215,176,33,141,103,172,123,90,234,61,70,246,145,28]
	pshufb	%xmm5, %xmm3
	movdqa	l_aes_v2_CPI55_10(%rip), %xmm2         # xmm2 = [0,159,97,22,194,42,119,232,137,75,93,60,181,163,212,254]
	pshufb	%xmm7, %xmm2
	pxor	%xmm3, %xmm2
	andl	$48, %eax
	leaq	l_aes_v2_static.3(%rip), %rcx
	movdqu	(%rax,%rcx), %xmm1
	pshufb	%xmm1, %xmm2
	movdqu	(%r13), %xmm1
	pxor	%xmm0, %xmm1
	pxor	%xmm2, %xmm1
	movdqu	%xmm1, (%r13)
	addq	$56, %rsp
	popq	%rbx
	popq	%r12
	popq	%r13
	popq	%r14
	popq	%r15
	popq	%rbp
	retq
                                        # -- End function
	.section	__TEXT,__text,regular,pure_instructions
	.p2align	4                               # -- Begin function aes_cipher::zeroize::stack::wipe_stack::<=1024>
_aes_v2.aes_cipher.zeroize.stack.wipe_stack.1024: # @_aes_v2.aes_cipher.zeroize.stack.wipe_stack.1024
# %bb.0:                                # %start
	subq	$1032, %rsp                     # imm = 0x408
	leaq	8(%rsp), %rdi
	movl	$1024, %edx                     # imm = 0x400
	xorl	%esi, %esi
	callq	*_memset@GOTPCREL(%rip)
	movq	$0, (%rsp)
	#APP
	#NO_APP
	movq	(%rsp), %rax
	#APP
	#NO_APP
	cmpq	$1024, %rax                     # imm = 0x400
	jae	Laes_v2_BB56_2
# %bb.1:                                # %then.1
	movzbl	8(%rsp,%rax), %eax
	#APP
	#NO_APP
	xchgq	%rax, (%rsp)
	#APP
	#NO_APP
Laes_v2_BB56_2:                               # %common.ret
	addq	$1032, %rsp                     # imm = 0x408
	retq
                                        # -- End function
	.section	__TEXT,__text,regular,pure_instructions
	.p2align	4                               # -- Begin function ccm::mode::encrypt::<#ef80964e0b8d42c0>
_aes_v2.ccm.mode.encrypt: # @_aes_v2.ccm.mode.encrypt
# %bb.0:                                # %start
	pushq	%rbp
	pushq	%r15
	pushq	%r14
	pushq	%r13
	pushq	%r12
	pushq	%rbx
	subq	$88, %rsp
	movq	%rcx, %r10
	movq	160(%rsp), %r14
	leaq	-4(%r14), %rax
	cmpq	$13, %rax
	setae	%al
	movl	%r14d, %ecx
	orb	%al, %cl
	testb	$1, %cl
	jne	Laes_v2_BB57_1
# %bb.2:                                # %after.1.i
	leaq	-14(%rdx), %r11
	movb	$1, %al
	movb	$1, %cl
	cmpq	$-7, %r11
	jb	Laes_v2_BB57_6
# %bb.3:                                # %"ccm::formatting::check.exit"
	movq	144(%rsp), %rbx
	cmpq	$7, %rdx
	setne	%r11b
	leal	(,%rdx,8), %ecx
	xorb	$120, %cl
	movq	%rbx, %rax
                                        # kill: def $cl killed $cl killed $ecx
	shrq	%cl, %rax
	testq	%rax, %rax
	setne	%al
	movb	$2, %cl
	andb	%r11b, %al
	jne	Laes_v2_BB57_6
# %bb.4:                                # %arm.1
	leaq	72(%rsp), %rbp
	movq	%rbp, 16(%rsp)
	movq	%rbx, 8(%rsp)
	movq	%r9, (%rsp)
	movq	%rdi, %r15
	movq	%rsi, %r13
	movq	%rdx, %rbx
	movq	%r14, %rcx
	movq	%r8, %r11
	movq	%r10, %r8
	movq	%r9, %r12
	movq	%r11, %r9
	movb	%al, 39(%rsp)                   # 1-byte Spill
	callq	_aes_v2.ccm.message.put_tag
	movq	152(%rsp), %rdi
	movq	%rbp, %rsi
	movq	%r14, %rdx
	callq	*_memcpy@GOTPCREL(%rip)
	movb	$14, %bpl
	subb	%bl, %bpl
	movq	$0, 40(%rsp)
	movq	$0, 47(%rsp)
	leaq	40(%rsp), %rdi
	movq	%r13, %rsi
	movq	%rbx, %rdx
	callq	*_memcpy@GOTPCREL(%rip)
	movb	%bpl, 56(%rsp)
	movq	40(%rsp), %rax
	movq	47(%rsp), %rcx
	movq	%rax, 57(%rsp)
	movq	%rcx, 64(%rsp)
	leaq	56(%rsp), %rsi
	movl	$16, %edx
	movq	%r15, %rdi
	movq	%r12, %rcx
	movq	144(%rsp), %r8
	callq	_aes_v2.aes_ctr.add_in_batches.add_keystream
	movzbl	39(%rsp), %eax                  # 1-byte Folded Reload
	jmp	Laes_v2_BB57_5
Laes_v2_BB57_1:
	movb	$1, %al
Laes_v2_BB57_5:                               # %return.5
	xorl	%ecx, %ecx
Laes_v2_BB57_6:                               # %return.5
	movl	%ecx, %edx
	addq	$88, %rsp
	popq	%rbx
	popq	%r12
	popq	%r13
	popq	%r14
	popq	%r15
	popq	%rbp
	retq
                                        # -- End function
	.section	__TEXT,__text,regular,pure_instructions
	export_aes_v2	fotsgure_aes_add_keystream_with
	.p2align	4
_aes_v2.fotsgure_aes_add_keystream_with:        # @_aes_v2.fotsgure_aes_add_keystream_with
	endbr64
# %bb.0:                                # %start
	pushq	%rbp
	pushq	%r15
	pushq	%r14
	pushq	%r13
	pushq	%r12
	pushq	%rbx
	subq	$280, %rsp                      # imm = 0x118
	movq	%r8, %rbx
	movq	%rdx, %r14
	xorl	%r8d, %r8d
	testq	%rdi, %rdi
	sete	%r10b
	xorl	%edx, %edx
	testq	%rcx, %rcx
	sete	%r9b
	movl	$1, %eax
	cmpq	$32, %rsi
	ja	Laes_v2_BB58_4
# %bb.1:                                # %start
	movabsq	$4311810048, %r11               # imm = 0x101010000
	btq	%rsi, %r11
	jae	Laes_v2_BB58_4
# %bb.2:                                # %join.3.i
	movq	16(%r14), %r15
	movq	%r15, %r11
	movl	$4, %eax
	addq	%rbx, %r11
	jb	Laes_v2_BB58_4
# %bb.3:                                # %join.6.i
	movb	%r10b, %r8b
	shll	$12, %r8d
	addq	%r8, %rdi
	movb	%r9b, %dl
	shll	$12, %edx
	addq	%rdx, %rcx
	leaq	40(%rsp), %rdx
	movq	%rsi, %r12
	shrq	$2, %r12
	addq	$7, %r12
	xorps	%xmm0, %xmm0
	movups	%xmm0, 264(%rsp)
	movups	%xmm0, 248(%rsp)
	movups	%xmm0, 232(%rsp)
	movups	%xmm0, 216(%rsp)
	movups	%xmm0, 200(%rsp)
	movups	%xmm0, 184(%rsp)
	movups	%xmm0, 168(%rsp)
	movups	%xmm0, 152(%rsp)
	movups	%xmm0, 136(%rsp)
	movups	%xmm0, 120(%rsp)
	movups	%xmm0, 104(%rsp)
	movups	%xmm0, 88(%rsp)
	movups	%xmm0, 72(%rsp)
	movups	%xmm0, 56(%rsp)
	movq	%rdi, %rax
	movq	%rdx, %rdi
	movq	%rsi, %r13
	movq	%rax, %rsi
	movq	%r13, %rdx
	movq	%rcx, %rbp
	callq	_aes_v2.aes_permute.lane_keys.expand_lanes
	movl	%r13d, 36(%rsp)
	leaq	40(%rsp), %r13
	movq	%r13, (%rsp)
	movq	%r12, 8(%rsp)
	movq	%r13, 16(%rsp)
	movq	%r12, 24(%rsp)
	movq	%rsp, %rdi
	movq	%r14, %rsi
	movq	%r15, %rdx
	movq	%rbp, %rcx
	movq	%rbx, %r8
	callq	_aes_v2.aes_ctr.add_in_batches.add_keystream
	addq	%rbx, 16(%r14)
	movl	$0, 36(%rsp)
	movq	%r13, %rdi
	callq	_aes_v2.aes_cipher.zeroize.elements.zeroize_elements.1
	xorl	%eax, %eax
Laes_v2_BB58_4:                               # %"aes_c::once::fotsgure_aes_add_keystream_with.exit"
	addq	$280, %rsp                      # imm = 0x118
	popq	%rbx
	popq	%r12
	popq	%r13
	popq	%r14
	popq	%r15
	popq	%rbp
	pxor	%xmm0, %xmm0
	pxor	%xmm1, %xmm1
	pxor	%xmm2, %xmm2
	pxor	%xmm3, %xmm3
	pxor	%xmm4, %xmm4
	pxor	%xmm5, %xmm5
	pxor	%xmm6, %xmm6
	pxor	%xmm7, %xmm7
	pxor	%xmm8, %xmm8
	pxor	%xmm9, %xmm9
	pxor	%xmm10, %xmm10
	pxor	%xmm11, %xmm11
	pxor	%xmm12, %xmm12
	pxor	%xmm13, %xmm13
	pxor	%xmm14, %xmm14
	pxor	%xmm15, %xmm15
	xorl	%ecx, %ecx
	xorl	%edx, %edx
	xorl	%esi, %esi
	xorl	%edi, %edi
	xorl	%r8d, %r8d
	xorl	%r9d, %r9d
	xorl	%r10d, %r10d
	xorl	%r11d, %r11d
	retq
                                        # -- End function
	.section	__TEXT,__const
	.p2align	4, 0x0                          # -- Begin function _aes_v2.fotsgure_aes_cbc_encrypt
l_aes_v2_CPI59_0:
	.zero	16,15
l_aes_v2_CPI59_1:
	.byte	0                               # 0x0
	.byte	1                               # 0x1
	.byte	28                              # 0x1c
	.byte	29                              # 0x1d
	.byte	45                              # 0x2d
	.byte	44                              # 0x2c
	.byte	49                              # 0x31
	.byte	48                              # 0x30
	.byte	39                              # 0x27
	.byte	38                              # 0x26
	.byte	59                              # 0x3b
	.byte	58                              # 0x3a
	.byte	10                              # 0xa
	.byte	11                              # 0xb
	.byte	22                              # 0x16
	.byte	23                              # 0x17
l_aes_v2_CPI59_2:
	.byte	0                               # 0x0
	.byte	134                             # 0x86
	.byte	253                             # 0xfd
	.byte	123                             # 0x7b
	.byte	142                             # 0x8e
	.byte	8                               # 0x8
	.byte	115                             # 0x73
	.byte	245                             # 0xf5
	.byte	119                             # 0x77
	.byte	241                             # 0xf1
	.byte	138                             # 0x8a
	.byte	12                              # 0xc
	.byte	249                             # 0xf9
	.byte	127                             # 0x7f
	.byte	4                               # 0x4
	.byte	130                             # 0x82
l_aes_v2_CPI59_3:
	.byte	128                             # 0x80
	.byte	2                               # 0x2
	.byte	1                               # 0x1
	.byte	15                              # 0xf
	.byte	9                               # 0x9
	.byte	5                               # 0x5
	.byte	14                              # 0xe
	.byte	12                              # 0xc
	.byte	13                              # 0xd
	.byte	4                               # 0x4
	.byte	11                              # 0xb
	.byte	10                              # 0xa
	.byte	7                               # 0x7
	.byte	8                               # 0x8
	.byte	6                               # 0x6
	.byte	3                               # 0x3
l_aes_v2_CPI59_4:
	.byte	128                             # 0x80
	.byte	1                               # 0x1
	.byte	9                               # 0x9
	.byte	14                              # 0xe
	.byte	13                              # 0xd
	.byte	11                              # 0xb
	.byte	7                               # 0x7
	.byte	6                               # 0x6
	.byte	15                              # 0xf
	.byte	2                               # 0x2
	.byte	12                              # 0xc
	.byte	5                               # 0x5
	.byte	10                              # 0xa
	.byte	4                               # 0x4
	.byte	3                               # 0x3
	.byte	8                               # 0x8
l_aes_v2_CPI59_5:
	.byte	0                               # 0x0
	.byte	195                             # 0xc3
	.byte	79                              # 0x4f
	.byte	12                              # 0xc
	.byte	252                             # 0xfc
	.byte	124                             # 0x7c
	.byte	67                              # 0x43
	.byte	128                             # 0x80
	.byte	207                             # 0xcf
	.byte	51                              # 0x33
	.byte	63                              # 0x3f
	.byte	112                             # 0x70
	.byte	191                             # 0xbf
	.byte	179                             # 0xb3
	.byte	240                             # 0xf0
	.byte	140                             # 0x8c
l_aes_v2_CPI59_6:
	.byte	0                               # 0x0
	.byte	230                             # 0xe6
	.byte	114                             # 0x72
	.byte	183                             # 0xb7
	.byte	229                             # 0xe5
	.byte	198                             # 0xc6
	.byte	197                             # 0xc5
	.byte	35                              # 0x23
	.byte	81                              # 0x51
	.byte	180                             # 0xb4
	.byte	3                               # 0x3
	.byte	113                             # 0x71
	.byte	32                              # 0x20
	.byte	151                             # 0x97
	.byte	82                              # 0x52
	.byte	148                             # 0x94
l_aes_v2_CPI59_7:
	.byte	0                               # 0x0
	.byte	124                             # 0x7c
	.byte	32                              # 0x20
	.byte	207                             # 0xcf
	.byte	146                             # 0x92
	.byte	1                               # 0x1
	.byte	239                             # 0xef
	.byte	147                             # 0x93
	.byte	179                             # 0xb3
	.byte	33                              # 0x21
	.byte	238                             # 0xee
	.byte	206                             # 0xce
	.byte	125                             # 0x7d
	.byte	178                             # 0xb2
	.byte	93                              # 0x5d
	.byte	92                              # 0x5c
l_aes_v2_CPI59_8:
	.byte	0                               # 0x0
	.byte	209                             # 0xd1
	.byte	229                             # 0xe5
	.byte	247                             # 0xf7
	.byte	230                             # 0xe6
	.byte	37                              # 0x25
	.byte	18                              # 0x12
	.byte	195                             # 0xc3
	.byte	38                              # 0x26
	.byte	192                             # 0xc0
	.byte	55                              # 0x37
	.byte	210                             # 0xd2
	.byte	244                             # 0xf4
	.byte	3                               # 0x3
	.byte	17                              # 0x11
	.byte	52                              # 0x34
l_aes_v2_CPI59_9:
	.byte	0                               # 0x0
	.byte	203                             # 0xcb
	.byte	215                             # 0xd7
	.byte	176                             # 0xb0
	.byte	33                              # 0x21
	.byte	141                             # 0x8d
	.byte	103                             # 0x67
	.byte	172                             # 0xac
	.byte	123                             # 0x7b
	.byte	90                              # 0x5a
	.byte	234                             # 0xea
	.byte	61                              # 0x3d
	.byte	70                              # 0x46
	.byte	246                             # 0xf6
	.byte	145                             # 0x91
	.byte	28                              # 0x1c
l_aes_v2_CPI59_10:
	.byte	0                               # 0x0
	.byte	159                             # 0x9f
	.byte	97                              # 0x61
	.byte	22                              # 0x16
	.byte	194                             # 0xc2
	.byte	42                              # 0x2a
	.byte	119                             # 0x77
	.byte	232                             # 0xe8
	.byte	137                             # 0x89
	.byte	75                              # 0x4b
	.byte	93                              # 0x5d
	.byte	60                              # 0x3c
	.byte	181                             # 0xb5
	.byte	163                             # 0xa3
	.byte	212                             # 0xd4
	.byte	254                             # 0xfe
	.section	__TEXT,__text,regular,pure_instructions
	export_aes_v2	fotsgure_aes_cbc_encrypt
	.p2align	4
_aes_v2.fotsgure_aes_cbc_encrypt:               # @_aes_v2.fotsgure_aes_cbc_encrypt
	endbr64
# %bb.0:                                # %start
	xorl	%r9d, %r9d
	testq	%rdx, %rdx
	sete	%r10b
	movl	(%rdi), %r8d
	movl	$2, %eax
	cmpq	$32, %r8
	ja	Laes_v2_BB59_9
# %bb.1:                                # %start
	movabsq	$4311810048, %r11               # imm = 0x101010000
	btq	%r8, %r11
	jae	Laes_v2_BB59_9
# %bb.2:                                # %join.3.i
	movdqu	(%rsi), %xmm1
	testq	%rcx, %rcx
	je	Laes_v2_BB59_8
# %bb.3:                                # %join.5.lr.ph.i.i
	pushq	%r14
	pushq	%rbx
	movb	%r10b, %r9b
	shll	$12, %r9d
	addq	%r9, %rdx
	shrl	$2, %r8d
	shlq	$4, %r8
	leaq	96(%r8), %rax
	movl	%eax, %r9d
	andl	$48, %r9d
	leaq	l_aes_v2_static.3(%rip), %r10
	movdqu	(%r9,%r10), %xmm0
	addq	$80, %r8
	xorl	%r9d, %r9d
	.p2align	4
Laes_v2_BB59_4:                               # %join.5.i.i
                                        # =>This Loop Header: Depth=1
                                        #     Child Loop BB59_5 Depth 2
	movq	%r9, %r10
	shlq	$4, %r10
	movdqu	(%rdx,%r10), %xmm2
	movdqu	4(%rdi), %xmm3
	pxor	%xmm1, %xmm3
	pxor	%xmm2, %xmm3
	movdqa	l_aes_v2_CPI59_0(%rip), %xmm1          # xmm1 = [15,15,15,15,15,15,15,15,15,15,15,15,15,15,15,15]
	movdqa	%xmm3, %xmm2
	pand	%xmm1, %xmm2
	movdqa	l_aes_v2_CPI59_1(%rip), %xmm4          # xmm4 = [0,1,28,29,45,44,49,48,39,38,59,58,10,11,22,23]
	pshufb	%xmm2, %xmm4
	psrlw	$4, %xmm3
	pand	%xmm1, %xmm3
	movdqa	l_aes_v2_CPI59_2(%rip), %xmm5          # xmm5 = [0,134,253,123,142,8,115,245,119,241,138,12,249,127,4,130]
	pshufb	%xmm3, %xmm5
	pxor	%xmm4, %xmm5
	xorl	%r11d, %r11d
	.p2align	4
Laes_v2_BB59_5:                               # %join.5.i.i.i.i
                                        #   Parent Loop BB59_4 Depth=1
                                        # =>  This Inner Loop Header: Depth=2
	movdqu	20(%rdi,%r11), %xmm4
	addq	$16, %r11
	movdqa	%xmm5, %xmm6
	psrlw	$4, %xmm6
	pand	%xmm1, %xmm6
	pand	%xmm1, %xmm5
	movdqa	%xmm6, %xmm7
	pxor	%xmm5, %xmm7
	movdqa	l_aes_v2_CPI59_3(%rip), %xmm3          # xmm3 = [128,2,1,15,9,5,14,12,13,4,11,10,7,8,6,3]
	movdqa	%xmm3, %xmm8
	pshufb	%xmm5, %xmm8
	movdqa	l_aes_v2_CPI59_4(%rip), %xmm2          # xmm2 = [128,1,9,14,13,11,7,6,15,2,12,5,10,4,3,8]
	movdqa	%xmm2, %xmm5
	pshufb	%xmm6, %xmm5
	movdqa	%xmm2, %xmm9
	pshufb	%xmm7, %xmm9
	pxor	%xmm8, %xmm5
	pxor	%xmm8, %xmm9
	movdqa	%xmm2, %xmm8
	pshufb	%xmm5, %xmm8
	movdqa	%xmm2, %xmm5
	pshufb	%xmm9, %xmm5
	pxor	%xmm7, %xmm8
	pxor	%xmm6, %xmm5
	movdqa	l_aes_v2_CPI59_5(%rip), %xmm7          # xmm7 = [0,195,79,12,252,124,67,128,207,51,63,112,191,179,240,140]
	pshufb	%xmm8, %xmm7
	movdqa	l_aes_v2_CPI59_6(%rip), %xmm6          # xmm6 = [0,230,114,183,229,198,197,35,81,180,3,113,32,151,82,148]
	pshufb	%xmm5, %xmm6
	pxor	%xmm7, %xmm6
	movdqa	l_aes_v2_CPI59_7(%rip), %xmm7          # xmm7 = [0,124,32,207,146,1,239,147,179,33,238,206,125,178,93,92]
	pshufb	%xmm8, %xmm7
	movdqa	l_aes_v2_CPI59_8(%rip), %xmm8          # xmm8 = [0,209,229,247,230,37,18,195,38,192,55,210,244,3,17,52]
	pshufb	%xmm5, %xmm8
	pxor	%xmm7, %xmm8
	movl	%r11d, %ebx
	andl	$48, %ebx
	leaq	l_aes_v2_static.4(%rip), %r14
	movdqu	(%rbx,%r14), %xmm7
	movdqa	%xmm6, %xmm5
	pshufb	%xmm7, %xmm5
	pxor	%xmm8, %xmm5
	leaq	l_aes_v2_static.5(%rip), %r14
	movdqu	(%rbx,%r14), %xmm8
	pshufb	%xmm8, %xmm6
	pxor	%xmm4, %xmm6
	pxor	%xmm5, %xmm6
	pshufb	%xmm7, %xmm5
	pxor	%xmm6, %xmm5
	cmpq	%r11, %r8
	jne	Laes_v2_BB59_5
# %bb.6:                                # %"aes_permute::blocks::process_block::<#aedbc4fd156a355d>.exit.i.i"
                                        #   in Loop: Header=BB59_4 Depth=1
	movdqu	4(%rdi,%rax), %xmm4
	movdqa	%xmm5, %xmm6
	psrlw	$4, %xmm6
	pand	%xmm1, %xmm6
	pand	%xmm1, %xmm5
	movdqa	%xmm6, %xmm1
	pxor	%xmm5, %xmm1
	pshufb	%xmm5, %xmm3
	movdqa	%xmm2, %xmm5
	pshufb	%xmm6, %xmm5
	movdqa	%xmm2, %xmm7
	pshufb	%xmm1, %xmm7
	pxor	%xmm3, %xmm5
	pxor	%xmm3, %xmm7
	movdqa	%xmm2, %xmm3
	pshufb	%xmm5, %xmm3
	pshufb	%xmm7, %xmm2
	pxor	%xmm1, %xmm3
	pxor	%xmm6, %xmm2
	movdqa	l_aes_v2_CPI59_9(%rip), %xmm5          # xmm5 = [0,203,215,176,33,141,103,172,123,90,234,61,70,246,145,28]
	pshufb	%xmm3, %xmm5
	movdqa	l_aes_v2_CPI59_10(%rip), %xmm1         # xmm1 = [0,159,97,22,194,42,119,232,137,75,93,60,181,163,212,254]
	pshufb	%xmm2, %xmm1
	pxor	%xmm5, %xmm1
	pshufb	%xmm0, %xmm1
	pxor	%xmm4, %xmm1
	movdqu	%xmm1, (%rdx,%r10)
	incq	%r9
	cmpq	%rcx, %r9
	jne	Laes_v2_BB59_4
# %bb.7:
	popq	%rbx
	popq	%r14
Laes_v2_BB59_8:                               # %"cbc::chain::Cbc::encrypt_blocks::<#ef80964e0b8d42c0>.exit.i"
	movdqu	%xmm1, (%rsi)
	xorl	%eax, %eax
Laes_v2_BB59_9:                               # %"aes_c::chains::fotsgure_aes_cbc_encrypt.exit"
	pxor	%xmm0, %xmm0
	pxor	%xmm1, %xmm1
	pxor	%xmm2, %xmm2
	pxor	%xmm3, %xmm3
	pxor	%xmm4, %xmm4
	pxor	%xmm5, %xmm5
	pxor	%xmm6, %xmm6
	pxor	%xmm7, %xmm7
	pxor	%xmm8, %xmm8
	pxor	%xmm9, %xmm9
	pxor	%xmm10, %xmm10
	pxor	%xmm11, %xmm11
	pxor	%xmm12, %xmm12
	pxor	%xmm13, %xmm13
	pxor	%xmm14, %xmm14
	pxor	%xmm15, %xmm15
	xorl	%ecx, %ecx
	xorl	%edx, %edx
	xorl	%esi, %esi
	xorl	%edi, %edi
	xorl	%r8d, %r8d
	xorl	%r9d, %r9d
	xorl	%r10d, %r10d
	xorl	%r11d, %r11d
	retq
                                        # -- End function
	.section	__TEXT,__text,regular,pure_instructions
	export_aes_v2	fotsgure_aes_cmac
	.p2align	4
_aes_v2.fotsgure_aes_cmac:                      # @_aes_v2.fotsgure_aes_cmac
	endbr64
# %bb.0:                                # %start
	movl	(%rdi), %r8d
	movl	$2, %eax
	cmpq	$32, %r8
	ja	Laes_v2_BB60_4
# %bb.1:                                # %start
	pushq	%rbx
	subq	$48, %rsp
	movq	%rcx, %rbx
	movq	%rdx, %rcx
	movabsq	$4311810048, %rdx               # imm = 0x101010000
	btq	%r8, %rdx
	jae	Laes_v2_BB60_3
# %bb.2:                                # %join.3.i
	xorl	%edx, %edx
	testq	%rsi, %rsi
	sete	%dl
	shll	$12, %edx
	addq	%rsi, %rdx
	addq	$4, %rdi
	shrl	$2, %r8d
	addq	$7, %r8
	movq	%rdi, (%rsp)
	movq	%r8, 8(%rsp)
	movq	%rdi, 16(%rsp)
	movq	%r8, 24(%rsp)
	leaq	32(%rsp), %rdi
	movq	%rsp, %rsi
	callq	_aes_v2.cmac.tags.tag
	movups	32(%rsp), %xmm0
	movups	%xmm0, (%rbx)
	callq	_aes_v2.aes_cipher.zeroize.stack.wipe_stack.768
	xorl	%eax, %eax
Laes_v2_BB60_3:
	addq	$48, %rsp
	popq	%rbx
Laes_v2_BB60_4:                               # %"aes_c::tags::fotsgure_aes_cmac.exit"
	pxor	%xmm0, %xmm0
	pxor	%xmm1, %xmm1
	pxor	%xmm2, %xmm2
	pxor	%xmm3, %xmm3
	pxor	%xmm4, %xmm4
	pxor	%xmm5, %xmm5
	pxor	%xmm6, %xmm6
	pxor	%xmm7, %xmm7
	pxor	%xmm8, %xmm8
	pxor	%xmm9, %xmm9
	pxor	%xmm10, %xmm10
	pxor	%xmm11, %xmm11
	pxor	%xmm12, %xmm12
	pxor	%xmm13, %xmm13
	pxor	%xmm14, %xmm14
	pxor	%xmm15, %xmm15
	xorl	%ecx, %ecx
	xorl	%edx, %edx
	xorl	%esi, %esi
	xorl	%edi, %edi
	xorl	%r8d, %r8d
	xorl	%r9d, %r9d
	xorl	%r10d, %r10d
	xorl	%r11d, %r11d
	retq
                                        # -- End function
	.section	__TEXT,__text,regular,pure_instructions
	export_aes_v2	fotsgure_aes_cmac_begin
	.p2align	4
_aes_v2.fotsgure_aes_cmac_begin:                # @_aes_v2.fotsgure_aes_cmac_begin
	endbr64
# %bb.0:                                # %start
	movl	(%rdi), %ecx
	movl	$2, %eax
	cmpq	$32, %rcx
	ja	Laes_v2_BB61_3
# %bb.1:                                # %start
	movabsq	$4311810048, %rdx               # imm = 0x101010000
	btq	%rcx, %rdx
	jae	Laes_v2_BB61_3
# %bb.2:                                # %join.3.i
	xorps	%xmm0, %xmm0
	movups	%xmm0, 24(%rsi)
	movups	%xmm0, 8(%rsi)
	movq	$0, 40(%rsi)
	movq	$1, (%rsi)
	xorl	%eax, %eax
Laes_v2_BB61_3:                               # %"aes_c::tags::pieces::fotsgure_aes_cmac_begin.exit"
	pxor	%xmm0, %xmm0
	pxor	%xmm1, %xmm1
	pxor	%xmm2, %xmm2
	pxor	%xmm3, %xmm3
	pxor	%xmm4, %xmm4
	pxor	%xmm5, %xmm5
	pxor	%xmm6, %xmm6
	pxor	%xmm7, %xmm7
	pxor	%xmm8, %xmm8
	pxor	%xmm9, %xmm9
	pxor	%xmm10, %xmm10
	pxor	%xmm11, %xmm11
	pxor	%xmm12, %xmm12
	pxor	%xmm13, %xmm13
	pxor	%xmm14, %xmm14
	pxor	%xmm15, %xmm15
	xorl	%ecx, %ecx
	xorl	%edx, %edx
	xorl	%esi, %esi
	xorl	%edi, %edi
	xorl	%r8d, %r8d
	xorl	%r9d, %r9d
	xorl	%r10d, %r10d
	xorl	%r11d, %r11d
	retq
                                        # -- End function
	.section	__TEXT,__text,regular,pure_instructions
	export_aes_v2	fotsgure_aes_cmac_finish
	.p2align	4
_aes_v2.fotsgure_aes_cmac_finish:               # @_aes_v2.fotsgure_aes_cmac_finish
	endbr64
# %bb.0:                                # %start
	pushq	%r14
	pushq	%rbx
	subq	$24, %rsp
	movq	%rdx, %rbx
	movl	(%rdi), %edx
	movl	$2, %eax
	cmpq	$32, %rdx
	ja	Laes_v2_BB62_5
# %bb.1:                                # %start
	movabsq	$4311810048, %rcx               # imm = 0x101010000
	btq	%rdx, %rcx
	jae	Laes_v2_BB62_5
# %bb.2:                                # %join.3.i
	cmpq	$1, (%rsi)
	jne	Laes_v2_BB62_3
# %bb.4:                                # %arm.4.i
	shrl	$2, %edx
	addq	$7, %rdx
	addq	$4, %rdi
	xorps	%xmm0, %xmm0
	movaps	%xmm0, (%rsp)
	movq	8(%rsi), %rax
	cmpq	$16, %rax
	movl	$16, %r9d
	cmovbq	%rax, %r9
	leaq	16(%rsi), %rcx
	leaq	32(%rsi), %r8
	movq	%rsp, %rax
	movq	%rdi, %r10
	movq	%rax, %rdi
	movq	%rsi, %r14
	movq	%r10, %rsi
	callq	_aes_v2.cmac.tags.tag_at_end
	movq	%r14, %rdi
	callq	_aes_v2.cmac.pieces.MessageZeroize.zeroize
	callq	_aes_v2.aes_cipher.zeroize.stack.wipe_stack.768
	movaps	(%rsp), %xmm0
	movups	%xmm0, (%rbx)
	xorl	%eax, %eax
Laes_v2_BB62_5:                               # %"aes_c::tags::pieces::fotsgure_aes_cmac_finish.exit"
	addq	$24, %rsp
	popq	%rbx
	popq	%r14
	pxor	%xmm0, %xmm0
	pxor	%xmm1, %xmm1
	pxor	%xmm2, %xmm2
	pxor	%xmm3, %xmm3
	pxor	%xmm4, %xmm4
	pxor	%xmm5, %xmm5
	pxor	%xmm6, %xmm6
	pxor	%xmm7, %xmm7
	pxor	%xmm8, %xmm8
	pxor	%xmm9, %xmm9
	pxor	%xmm10, %xmm10
	pxor	%xmm11, %xmm11
	pxor	%xmm12, %xmm12
	pxor	%xmm13, %xmm13
	pxor	%xmm14, %xmm14
	pxor	%xmm15, %xmm15
	xorl	%ecx, %ecx
	xorl	%edx, %edx
	xorl	%esi, %esi
	xorl	%edi, %edi
	xorl	%r8d, %r8d
	xorl	%r9d, %r9d
	xorl	%r10d, %r10d
	xorl	%r11d, %r11d
	retq
Laes_v2_BB62_3:                               # %"cmac::pieces::Message::finish::<#ef80964e0b8d42c0>.exit.i"
	callq	_aes_v2.aes_cipher.zeroize.stack.wipe_stack.768
	movl	$10, %eax
	addq	$24, %rsp
	popq	%rbx
	popq	%r14
	pxor	%xmm0, %xmm0
	pxor	%xmm1, %xmm1
	pxor	%xmm2, %xmm2
	pxor	%xmm3, %xmm3
	pxor	%xmm4, %xmm4
	pxor	%xmm5, %xmm5
	pxor	%xmm6, %xmm6
	pxor	%xmm7, %xmm7
	pxor	%xmm8, %xmm8
	pxor	%xmm9, %xmm9
	pxor	%xmm10, %xmm10
	pxor	%xmm11, %xmm11
	pxor	%xmm12, %xmm12
	pxor	%xmm13, %xmm13
	pxor	%xmm14, %xmm14
	pxor	%xmm15, %xmm15
	xorl	%ecx, %ecx
	xorl	%edx, %edx
	xorl	%esi, %esi
	xorl	%edi, %edi
	xorl	%r8d, %r8d
	xorl	%r9d, %r9d
	xorl	%r10d, %r10d
	xorl	%r11d, %r11d
	retq
                                        # -- End function
	.section	__TEXT,__text,regular,pure_instructions
	export_aes_v2	fotsgure_aes_cmac_update
	.p2align	4
_aes_v2.fotsgure_aes_cmac_update:               # @_aes_v2.fotsgure_aes_cmac_update
	endbr64
# %bb.0:                                # %start
	pushq	%rbx
	subq	$32, %rsp
	xorl	%eax, %eax
	testq	%rdx, %rdx
	sete	%r8b
	movl	(%rdi), %r9d
	movl	$2, %ebx
	cmpq	$32, %r9
	ja	Laes_v2_BB63_5
# %bb.1:                                # %start
	movabsq	$4311810048, %r10               # imm = 0x101010000
	btq	%r9, %r10
	jae	Laes_v2_BB63_5
# %bb.2:                                # %join.3.i
	addq	$4, %rdi
	shrl	$2, %r9d
	addq	$7, %r9
	movq	%rdi, (%rsp)
	movq	%r9, 8(%rsp)
	movq	%rdi, 16(%rsp)
	movq	%r9, 24(%rsp)
	movl	$10, %ebx
	cmpq	$1, (%rsi)
	jne	Laes_v2_BB63_4
# %bb.3:                                # %join.3.i.i
	movb	%r8b, %al
	shll	$12, %eax
	addq	%rax, %rdx
	addq	$8, %rsi
	movq	%rsp, %rax
	movq	%rsi, %rdi
	movq	%rax, %rsi
	callq	_aes_v2.cmac.chain_in_pieces.ChainInPieces.extend
	xorl	%ebx, %ebx
Laes_v2_BB63_4:                               # %"cmac::pieces::Message::update::<#ef80964e0b8d42c0>.exit.i"
	callq	_aes_v2.aes_cipher.zeroize.stack.wipe_stack.768
Laes_v2_BB63_5:                               # %"aes_c::tags::pieces::fotsgure_aes_cmac_update.exit"
	movl	%ebx, %eax
	addq	$32, %rsp
	popq	%rbx
	pxor	%xmm0, %xmm0
	pxor	%xmm1, %xmm1
	pxor	%xmm2, %xmm2
	pxor	%xmm3, %xmm3
	pxor	%xmm4, %xmm4
	pxor	%xmm5, %xmm5
	pxor	%xmm6, %xmm6
	pxor	%xmm7, %xmm7
	pxor	%xmm8, %xmm8
	pxor	%xmm9, %xmm9
	pxor	%xmm10, %xmm10
	pxor	%xmm11, %xmm11
	pxor	%xmm12, %xmm12
	pxor	%xmm13, %xmm13
	pxor	%xmm14, %xmm14
	pxor	%xmm15, %xmm15
	xorl	%ecx, %ecx
	xorl	%edx, %edx
	xorl	%esi, %esi
	xorl	%edi, %edi
	xorl	%r8d, %r8d
	xorl	%r9d, %r9d
	xorl	%r10d, %r10d
	xorl	%r11d, %r11d
	retq
                                        # -- End function
	.section	__TEXT,__text,regular,pure_instructions
	export_aes_v2	fotsgure_aes_cmac_wipe
	.p2align	4
_aes_v2.fotsgure_aes_cmac_wipe:                 # @_aes_v2.fotsgure_aes_cmac_wipe
	endbr64
# %bb.0:                                # %start
	xorps	%xmm0, %xmm0
	movups	%xmm0, 32(%rdi)
	movups	%xmm0, 16(%rdi)
	movups	%xmm0, (%rdi)
	jmp	_aes_v2.cmac.pieces.MessageZeroize.zeroize # TAILCALL
                                        # -- End function
	.section	__TEXT,__text,regular,pure_instructions
	export_aes_v2	fotsgure_aes_encrypt_blocks
	.p2align	4
_aes_v2.fotsgure_aes_encrypt_blocks:            # @_aes_v2.fotsgure_aes_encrypt_blocks
	endbr64
# %bb.0:                                # %start
	pushq	%rbp
	pushq	%r15
	pushq	%r14
	pushq	%r13
	pushq	%r12
	pushq	%rbx
	pushq	%rax
	xorl	%eax, %eax
	testq	%rsi, %rsi
	sete	%cl
	movl	(%rdi), %r15d
	movl	$2, %r12d
	cmpq	$32, %r15
	ja	Laes_v2_BB65_6
# %bb.1:                                # %start
	movq	%rdx, %rbx
	movabsq	$4311810048, %rdx               # imm = 0x101010000
	btq	%r15, %rdx
	jae	Laes_v2_BB65_6
# %bb.2:                                # %join.3.i
	movq	%rsi, %r14
	movb	%cl, %al
	shll	$12, %eax
	addq	%rax, %r14
	addq	$4, %rdi
	shrl	$2, %r15d
	addq	$7, %r15
	xorl	%r12d, %r12d
	cmpq	$15, %rbx
	jae	Laes_v2_BB65_4
# %bb.3:
	xorl	%r13d, %r13d
	jmp	Laes_v2_BB65_5
Laes_v2_BB65_4:                               # %join.6.i.i.i
	movl	%ebx, %eax
	andl	$7, %eax
	xorl	%ecx, %ecx
	cmpq	$6, %rax
	cmovbq	%rax, %rcx
	movq	%rbx, %r13
	subq	%rcx, %r13
	movq	%rdi, %rbp
	movq	%r15, %rsi
	movq	%r14, %rdx
	movq	%r13, %rcx
	callq	_aes_v2.aes_hybrid.batches.process_on_planes.1
	movq	%rbp, %rdi
Laes_v2_BB65_5:                               # %"aes_hybrid::borrowed_cipher::BorrowedCipher::process_blocks::<#ee6d29ed0cc28f94>.exit.i"
	subq	%r13, %rbx
	shlq	$4, %r13
	addq	%r13, %r14
	movq	%r15, %rsi
	movq	%r14, %rdx
	movq	%rbx, %rcx
	callq	_aes_v2.aes_permute.blocks.process_on_lanes.1
Laes_v2_BB65_6:                               # %"aes_c::blocks::fotsgure_aes_encrypt_blocks.exit"
	movl	%r12d, %eax
	addq	$8, %rsp
	popq	%rbx
	popq	%r12
	popq	%r13
	popq	%r14
	popq	%r15
	popq	%rbp
	pxor	%xmm0, %xmm0
	pxor	%xmm1, %xmm1
	pxor	%xmm2, %xmm2
	pxor	%xmm3, %xmm3
	pxor	%xmm4, %xmm4
	pxor	%xmm5, %xmm5
	pxor	%xmm6, %xmm6
	pxor	%xmm7, %xmm7
	pxor	%xmm8, %xmm8
	pxor	%xmm9, %xmm9
	pxor	%xmm10, %xmm10
	pxor	%xmm11, %xmm11
	pxor	%xmm12, %xmm12
	pxor	%xmm13, %xmm13
	pxor	%xmm14, %xmm14
	pxor	%xmm15, %xmm15
	xorl	%ecx, %ecx
	xorl	%edx, %edx
	xorl	%esi, %esi
	xorl	%edi, %edi
	xorl	%r8d, %r8d
	xorl	%r9d, %r9d
	xorl	%r10d, %r10d
	xorl	%r11d, %r11d
	retq
                                        # -- End function
	.section	__TEXT,__text,regular,pure_instructions
	export_aes_v2	fotsgure_aes_encrypt_blocks_to
	.p2align	4
_aes_v2.fotsgure_aes_encrypt_blocks_to:         # @_aes_v2.fotsgure_aes_encrypt_blocks_to
	endbr64
# %bb.0:                                # %start
	pushq	%r15
	pushq	%r14
	pushq	%r13
	pushq	%r12
	pushq	%rbx
	movq	%rdx, %rbx
	xorl	%r9d, %r9d
	testq	%rsi, %rsi
	sete	%r11b
	xorl	%edx, %edx
	testq	%rcx, %rcx
	sete	%r10b
	movl	$3, %eax
	cmpq	%r8, %rbx
	jne	Laes_v2_BB66_18
# %bb.1:                                # %join.3.i
	movl	(%rdi), %r14d
	movl	$2, %eax
	cmpq	$32, %r14
	ja	Laes_v2_BB66_18
# %bb.2:                                # %join.3.i
	movabsq	$4311810048, %r8                # imm = 0x101010000
	btq	%r14, %r8
	jae	Laes_v2_BB66_18
# %bb.3:                                # %join.6.i
	movb	%r11b, %r9b
	shll	$12, %r9d
	addq	%r9, %rsi
	movb	%r10b, %dl
	shll	$12, %edx
	addq	%rdx, %rcx
	movq	%rbx, %rdx
	shlq	$4, %rdx
	movq	%rcx, %rax
	subq	%rsi, %rax
	cmpq	%rdx, %rax
	jae	Laes_v2_BB66_8
# %bb.4:                                # %loop.4.preheader.i.i.i.i.i.i.i
	testq	%rbx, %rbx
	je	Laes_v2_BB66_7
# %bb.5:                                # %join.7.i.i.i.i.i.i.i.preheader
	movl	%ebx, %eax
	andl	$7, %eax
	cmpq	$8, %rbx
	jae	Laes_v2_BB66_9
# %bb.6:
	xorl	%edx, %edx
	jmp	Laes_v2_BB66_12
Laes_v2_BB66_8:                               # %apart.2.i.i.i.i.i.i.i
	movq	%rdi, %r14
	movq	%rcx, %rdi
	movq	%rcx, %r15
	callq	*_memmove@GOTPCREL(%rip)
	movq	%r14, %rdi
	movq	%r15, %rcx
	jmp	Laes_v2_BB66_14
Laes_v2_BB66_7:                               # %"core::slice::edits::slice+T::copy_from_slice::<#b9e87c6de6ee7501>.exit.thread.i"
	addq	$4, %rdi
	shrl	$2, %r14d
	addq	$7, %r14
	xorl	%r15d, %r15d
	jmp	Laes_v2_BB66_17
Laes_v2_BB66_9:                               # %join.7.i.i.i.i.i.i.i.preheader.new
	movq	%rbx, %r8
	andq	$-8, %r8
	movl	$112, %r9d
	xorl	%edx, %edx
	.p2align	4
Laes_v2_BB66_10:                              # %join.7.i.i.i.i.i.i.i
                                        # =>This Inner Loop Header: Depth=1
	movups	-112(%rsi,%r9), %xmm0
	movups	%xmm0, -112(%rcx,%r9)
	movups	-96(%rsi,%r9), %xmm0
	movups	%xmm0, -96(%rcx,%r9)
	movups	-80(%rsi,%r9), %xmm0
	movups	%xmm0, -80(%rcx,%r9)
	movups	-64(%rsi,%r9), %xmm0
	movups	%xmm0, -64(%rcx,%r9)
	movups	-48(%rsi,%r9), %xmm0
	movups	%xmm0, -48(%rcx,%r9)
	movups	-32(%rsi,%r9), %xmm0
	movups	%xmm0, -32(%rcx,%r9)
	movups	-16(%rsi,%r9), %xmm0
	movups	%xmm0, -16(%rcx,%r9)
	movups	(%rsi,%r9), %xmm0
	movups	%xmm0, (%rcx,%r9)
	addq	$8, %rdx
	subq	$-128, %r9
	cmpq	%rdx, %r8
	jne	Laes_v2_BB66_10
# %bb.11:                               # %"core::slice::edits::slice+T::copy_from_slice::<#b9e87c6de6ee7501>.exit.i.loopexit.unr-lcssa"
	testq	%rax, %rax
	je	Laes_v2_BB66_14
Laes_v2_BB66_12:                              # %join.7.i.i.i.i.i.i.i.epil.preheader
	shlq	$4, %rdx
	addq	%rdx, %rsi
	addq	%rcx, %rdx
	shll	$4, %eax
	xorl	%r8d, %r8d
	.p2align	4
Laes_v2_BB66_13:                              # %join.7.i.i.i.i.i.i.i.epil
                                        # =>This Inner Loop Header: Depth=1
	movups	(%rsi,%r8), %xmm0
	movups	%xmm0, (%rdx,%r8)
	addq	$16, %r8
	cmpq	%r8, %rax
	jne	Laes_v2_BB66_13
Laes_v2_BB66_14:                              # %"core::slice::edits::slice+T::copy_from_slice::<#b9e87c6de6ee7501>.exit.i"
	movl	(%rdi), %r14d
	addq	$4, %rdi
	shrl	$2, %r14d
	addq	$7, %r14
	cmpq	$15, %rbx
	jae	Laes_v2_BB66_16
# %bb.15:
	xorl	%r15d, %r15d
	jmp	Laes_v2_BB66_17
Laes_v2_BB66_16:                              # %join.6.i.i.i
	movl	%ebx, %eax
	andl	$7, %eax
	xorl	%edx, %edx
	cmpq	$6, %rax
	cmovbq	%rax, %rdx
	movq	%rbx, %r15
	subq	%rdx, %r15
	movq	%rdi, %r12
	movq	%r14, %rsi
	movq	%rcx, %rdx
	movq	%rcx, %r13
	movq	%r15, %rcx
	callq	_aes_v2.aes_hybrid.batches.process_on_planes.1
	movq	%r12, %rdi
	movq	%r13, %rcx
Laes_v2_BB66_17:                              # %"aes_hybrid::borrowed_cipher::BorrowedCipher::process_blocks::<#ee6d29ed0cc28f94>.exit.i"
	subq	%r15, %rbx
	shlq	$4, %r15
	addq	%r15, %rcx
	movq	%r14, %rsi
	movq	%rcx, %rdx
	movq	%rbx, %rcx
	callq	_aes_v2.aes_permute.blocks.process_on_lanes.1
	xorl	%eax, %eax
Laes_v2_BB66_18:                              # %"aes_c::blocks::fotsgure_aes_encrypt_blocks_to.exit"
	popq	%rbx
	popq	%r12
	popq	%r13
	popq	%r14
	popq	%r15
	pxor	%xmm0, %xmm0
	pxor	%xmm1, %xmm1
	pxor	%xmm2, %xmm2
	pxor	%xmm3, %xmm3
	pxor	%xmm4, %xmm4
	pxor	%xmm5, %xmm5
	pxor	%xmm6, %xmm6
	pxor	%xmm7, %xmm7
	pxor	%xmm8, %xmm8
	pxor	%xmm9, %xmm9
	pxor	%xmm10, %xmm10
	pxor	%xmm11, %xmm11
	pxor	%xmm12, %xmm12
	pxor	%xmm13, %xmm13
	pxor	%xmm14, %xmm14
	pxor	%xmm15, %xmm15
	xorl	%ecx, %ecx
	xorl	%edx, %edx
	xorl	%esi, %esi
	xorl	%edi, %edi
	xorl	%r8d, %r8d
	xorl	%r9d, %r9d
	xorl	%r10d, %r10d
	xorl	%r11d, %r11d
	retq
                                        # -- End function
	.section	__TEXT,__text,regular,pure_instructions
	export_aes_v2	fotsgure_aes_encrypt_blocks_with
	.p2align	4
_aes_v2.fotsgure_aes_encrypt_blocks_with:       # @_aes_v2.fotsgure_aes_encrypt_blocks_with
	endbr64
# %bb.0:                                # %start
	pushq	%rbp
	pushq	%r15
	pushq	%r14
	pushq	%r13
	pushq	%r12
	pushq	%rbx
	subq	$248, %rsp
	movq	%rcx, %rbx
	xorl	%eax, %eax
	testq	%rdx, %rdx
	sete	%cl
	movl	$1, %r13d
	cmpq	$32, %rsi
	ja	Laes_v2_BB67_6
# %bb.1:                                # %start
	movq	%rdx, %r14
	movq	%rsi, %rbp
	movabsq	$4311810048, %rdx               # imm = 0x101010000
	btq	%rsi, %rdx
	jae	Laes_v2_BB67_6
# %bb.2:                                # %join.3.i
	movb	%cl, %al
	shll	$12, %eax
	addq	%rax, %r14
	xorl	%esi, %esi
	testq	%rdi, %rdi
	sete	%sil
	shll	$12, %esi
	addq	%rdi, %rsi
	leaq	8(%rsp), %r15
	movq	%rbp, %r12
	shrq	$2, %r12
	addq	$7, %r12
	xorps	%xmm0, %xmm0
	movups	%xmm0, 232(%rsp)
	movups	%xmm0, 216(%rsp)
	movups	%xmm0, 200(%rsp)
	movups	%xmm0, 184(%rsp)
	movups	%xmm0, 168(%rsp)
	movups	%xmm0, 152(%rsp)
	movups	%xmm0, 136(%rsp)
	movups	%xmm0, 120(%rsp)
	movups	%xmm0, 104(%rsp)
	movups	%xmm0, 88(%rsp)
	movups	%xmm0, 72(%rsp)
	movups	%xmm0, 56(%rsp)
	movups	%xmm0, 40(%rsp)
	movups	%xmm0, 24(%rsp)
	movq	%r15, %rdi
	movq	%rbp, %rdx
	callq	_aes_v2.aes_permute.lane_keys.expand_lanes
	movl	%ebp, 4(%rsp)
	xorl	%r13d, %r13d
	cmpq	$15, %rbx
	jae	Laes_v2_BB67_4
# %bb.3:
	xorl	%ebp, %ebp
	jmp	Laes_v2_BB67_5
Laes_v2_BB67_4:                               # %join.6.i.i.i
	movl	%ebx, %eax
	andl	$7, %eax
	xorl	%ecx, %ecx
	cmpq	$6, %rax
	cmovbq	%rax, %rcx
	movq	%rbx, %rbp
	subq	%rcx, %rbp
	movq	%r15, %rdi
	movq	%r12, %rsi
	movq	%r14, %rdx
	movq	%rbp, %rcx
	callq	_aes_v2.aes_hybrid.batches.process_on_planes.1
Laes_v2_BB67_5:                               # %"aes_hybrid::borrowed_cipher::BorrowedCipher::process_blocks::<#ee6d29ed0cc28f94>.exit.i"
	subq	%rbp, %rbx
	shlq	$4, %rbp
	addq	%rbp, %r14
	movq	%r15, %rdi
	movq	%r12, %rsi
	movq	%r14, %rdx
	movq	%rbx, %rcx
	callq	_aes_v2.aes_permute.blocks.process_on_lanes.1
	movl	$0, 4(%rsp)
	movq	%r15, %rdi
	callq	_aes_v2.aes_cipher.zeroize.elements.zeroize_elements.1
Laes_v2_BB67_6:                               # %"aes_c::once::fotsgure_aes_encrypt_blocks_with.exit"
	movl	%r13d, %eax
	addq	$248, %rsp
	popq	%rbx
	popq	%r12
	popq	%r13
	popq	%r14
	popq	%r15
	popq	%rbp
	pxor	%xmm0, %xmm0
	pxor	%xmm1, %xmm1
	pxor	%xmm2, %xmm2
	pxor	%xmm3, %xmm3
	pxor	%xmm4, %xmm4
	pxor	%xmm5, %xmm5
	pxor	%xmm6, %xmm6
	pxor	%xmm7, %xmm7
	pxor	%xmm8, %xmm8
	pxor	%xmm9, %xmm9
	pxor	%xmm10, %xmm10
	pxor	%xmm11, %xmm11
	pxor	%xmm12, %xmm12
	pxor	%xmm13, %xmm13
	pxor	%xmm14, %xmm14
	pxor	%xmm15, %xmm15
	xorl	%ecx, %ecx
	xorl	%edx, %edx
	xorl	%esi, %esi
	xorl	%edi, %edi
	xorl	%r8d, %r8d
	xorl	%r9d, %r9d
	xorl	%r10d, %r10d
	xorl	%r11d, %r11d
	retq
                                        # -- End function
	.section	__TEXT,__text,regular,pure_instructions
	export_aes_v2	fotsgure_aes_key_length
	.p2align	4
_aes_v2.fotsgure_aes_key_length:                # @_aes_v2.fotsgure_aes_key_length
	endbr64
# %bb.0:                                # %start
	movl	(%rdi), %ecx
	xorl	%eax, %eax
	cmpq	$32, %rcx
	ja	Laes_v2_BB68_3
# %bb.1:                                # %start
	movabsq	$4311810048, %rdx               # imm = 0x101010000
	btq	%rcx, %rdx
	jae	Laes_v2_BB68_3
# %bb.2:                                # %then.1.i.i
	movq	%rcx, %rax
Laes_v2_BB68_3:                               # %"aes_c::kept::fotsgure_aes_key_length.exit"
	pxor	%xmm0, %xmm0
	pxor	%xmm1, %xmm1
	pxor	%xmm2, %xmm2
	pxor	%xmm3, %xmm3
	pxor	%xmm4, %xmm4
	pxor	%xmm5, %xmm5
	pxor	%xmm6, %xmm6
	pxor	%xmm7, %xmm7
	pxor	%xmm8, %xmm8
	pxor	%xmm9, %xmm9
	pxor	%xmm10, %xmm10
	pxor	%xmm11, %xmm11
	pxor	%xmm12, %xmm12
	pxor	%xmm13, %xmm13
	pxor	%xmm14, %xmm14
	pxor	%xmm15, %xmm15
	xorl	%ecx, %ecx
	xorl	%edx, %edx
	xorl	%esi, %esi
	xorl	%edi, %edi
	xorl	%r8d, %r8d
	xorl	%r9d, %r9d
	xorl	%r10d, %r10d
	xorl	%r11d, %r11d
	retq
                                        # -- End function
	.section	__TEXT,__text,regular,pure_instructions
	export_aes_v2	fotsgure_aes_set_key
	.p2align	4
_aes_v2.fotsgure_aes_set_key:                   # @_aes_v2.fotsgure_aes_set_key
	endbr64
# %bb.0:                                # %start
	xorl	%eax, %eax
	testq	%rsi, %rsi
	sete	%al
	shll	$12, %eax
	addq	%rax, %rsi
	jmp	_aes_v2.aes_c.kept.fotsgure_aes_set_key # TAILCALL
                                        # -- End function
	.section	__TEXT,__text,regular,pure_instructions
	export_aes_v2	fotsgure_aes_version
	.p2align	4
_aes_v2.fotsgure_aes_version:                   # @_aes_v2.fotsgure_aes_version
	endbr64
# %bb.0:                                # %start
	movl	$400, %eax                      # imm = 0x190
	pxor	%xmm0, %xmm0
	pxor	%xmm1, %xmm1
	pxor	%xmm2, %xmm2
	pxor	%xmm3, %xmm3
	pxor	%xmm4, %xmm4
	pxor	%xmm5, %xmm5
	pxor	%xmm6, %xmm6
	pxor	%xmm7, %xmm7
	pxor	%xmm8, %xmm8
	pxor	%xmm9, %xmm9
	pxor	%xmm10, %xmm10
	pxor	%xmm11, %xmm11
	pxor	%xmm12, %xmm12
	pxor	%xmm13, %xmm13
	pxor	%xmm14, %xmm14
	pxor	%xmm15, %xmm15
	xorl	%ecx, %ecx
	xorl	%edx, %edx
	xorl	%esi, %esi
	xorl	%edi, %edi
	xorl	%r8d, %r8d
	xorl	%r9d, %r9d
	xorl	%r10d, %r10d
	xorl	%r11d, %r11d
	retq
                                        # -- End function
	.section	__TEXT,__text,regular,pure_instructions
	export_aes_v2	fotsgure_aes_wipe
	.p2align	4
_aes_v2.fotsgure_aes_wipe:                      # @_aes_v2.fotsgure_aes_wipe
	endbr64
# %bb.0:                                # %start
	pushq	%r14
	pushq	%rbx
	pushq	%rax
	leaq	4(%rdi), %rbx
	leaq	244(%rdi), %r14
	movl	$484, %edx                      # imm = 0x1E4
	xorl	%esi, %esi
	callq	*_memset@GOTPCREL(%rip)
	movq	%rbx, %rdi
	callq	_aes_v2.aes_cipher.zeroize.elements.zeroize_elements.1
	movq	%r14, %rdi
	addq	$8, %rsp
	popq	%rbx
	popq	%r14
	jmp	_aes_v2.aes_cipher.zeroize.elements.zeroize_elements.1 # TAILCALL
                                        # -- End function
	.section	__TEXT,__text,regular,pure_instructions
	export_aes_v2	fotsgure_aes_wrap
	.p2align	4
_aes_v2.fotsgure_aes_wrap:                      # @_aes_v2.fotsgure_aes_wrap
	endbr64
# %bb.0:                                # %start
	movl	(%rdi), %r10d
	movl	$2, %eax
	cmpq	$32, %r10
	ja	Laes_v2_BB72_3
# %bb.1:                                # %start
	movq	%rcx, %r9
	movabsq	$4311810048, %rcx               # imm = 0x101010000
	btq	%r10, %rcx
	jae	Laes_v2_BB72_3
# %bb.2:                                # %join.3.i
	pushq	%rbx
	subq	$32, %rsp
	xorl	%ecx, %ecx
	testq	%r9, %r9
	sete	%cl
	shll	$12, %ecx
	addq	%r9, %rcx
	xorl	%eax, %eax
	testq	%rsi, %rsi
	sete	%al
	shll	$12, %eax
	addq	%rsi, %rax
	addq	$4, %rdi
	shrl	$2, %r10d
	addq	$7, %r10
	movq	%rdi, (%rsp)
	movq	%r10, 8(%rsp)
	movq	%rdi, 16(%rsp)
	movq	%r10, 24(%rsp)
	movq	%rsp, %rdi
	movq	%rax, %rsi
	callq	_aes_v2.key_wrap.wrapping.wrap
	movl	%eax, %ebx
	callq	_aes_v2.aes_cipher.zeroize.stack.wipe_stack.512
	movzbl	%bl, %eax
	leal	(%rax,%rax,4), %eax
	addq	$32, %rsp
	popq	%rbx
Laes_v2_BB72_3:                               # %"aes_c::wrapping::fotsgure_aes_wrap.exit"
	pxor	%xmm0, %xmm0
	pxor	%xmm1, %xmm1
	pxor	%xmm2, %xmm2
	pxor	%xmm3, %xmm3
	pxor	%xmm4, %xmm4
	pxor	%xmm5, %xmm5
	pxor	%xmm6, %xmm6
	pxor	%xmm7, %xmm7
	pxor	%xmm8, %xmm8
	pxor	%xmm9, %xmm9
	pxor	%xmm10, %xmm10
	pxor	%xmm11, %xmm11
	pxor	%xmm12, %xmm12
	pxor	%xmm13, %xmm13
	pxor	%xmm14, %xmm14
	pxor	%xmm15, %xmm15
	xorl	%ecx, %ecx
	xorl	%edx, %edx
	xorl	%esi, %esi
	xorl	%edi, %edi
	xorl	%r8d, %r8d
	xorl	%r9d, %r9d
	xorl	%r10d, %r10d
	xorl	%r11d, %r11d
	retq
                                        # -- End function
	.section	__TEXT,__text,regular,pure_instructions
	export_aes_v2	fotsgure_aes_wrap_padded
	.p2align	4
_aes_v2.fotsgure_aes_wrap_padded:               # @_aes_v2.fotsgure_aes_wrap_padded
	endbr64
# %bb.0:                                # %start
	movl	(%rdi), %r10d
	movl	$2, %eax
	cmpq	$32, %r10
	ja	Laes_v2_BB73_3
# %bb.1:                                # %start
	movq	%rcx, %r9
	movabsq	$4311810048, %rcx               # imm = 0x101010000
	btq	%r10, %rcx
	jae	Laes_v2_BB73_3
# %bb.2:                                # %join.3.i
	pushq	%rbx
	subq	$32, %rsp
	xorl	%ecx, %ecx
	testq	%r9, %r9
	sete	%cl
	shll	$12, %ecx
	addq	%r9, %rcx
	xorl	%eax, %eax
	testq	%rsi, %rsi
	sete	%al
	shll	$12, %eax
	addq	%rsi, %rax
	addq	$4, %rdi
	shrl	$2, %r10d
	addq	$7, %r10
	movq	%rdi, (%rsp)
	movq	%r10, 8(%rsp)
	movq	%rdi, 16(%rsp)
	movq	%r10, 24(%rsp)
	movq	%rsp, %rdi
	movq	%rax, %rsi
	callq	_aes_v2.key_wrap.padded.wrap_padded
	movl	%eax, %ebx
	callq	_aes_v2.aes_cipher.zeroize.stack.wipe_stack.512
	movzbl	%bl, %eax
	leal	(%rax,%rax,4), %eax
	addq	$32, %rsp
	popq	%rbx
Laes_v2_BB73_3:                               # %"aes_c::wrapping::fotsgure_aes_wrap_padded.exit"
	pxor	%xmm0, %xmm0
	pxor	%xmm1, %xmm1
	pxor	%xmm2, %xmm2
	pxor	%xmm3, %xmm3
	pxor	%xmm4, %xmm4
	pxor	%xmm5, %xmm5
	pxor	%xmm6, %xmm6
	pxor	%xmm7, %xmm7
	pxor	%xmm8, %xmm8
	pxor	%xmm9, %xmm9
	pxor	%xmm10, %xmm10
	pxor	%xmm11, %xmm11
	pxor	%xmm12, %xmm12
	pxor	%xmm13, %xmm13
	pxor	%xmm14, %xmm14
	pxor	%xmm15, %xmm15
	xorl	%ecx, %ecx
	xorl	%edx, %edx
	xorl	%esi, %esi
	xorl	%edi, %edi
	xorl	%r8d, %r8d
	xorl	%r9d, %r9d
	xorl	%r10d, %r10d
	xorl	%r11d, %r11d
	retq
                                        # -- End function
	.section	__TEXT,__text,regular,pure_instructions
	export_aes_v2	fotsgure_aes_cbc_decrypt
	.p2align	4
_aes_v2.fotsgure_aes_cbc_decrypt:               # @_aes_v2.fotsgure_aes_cbc_decrypt
	endbr64
# %bb.0:                                # %start
	pushq	%rbp
	pushq	%r15
	pushq	%r14
	pushq	%r13
	pushq	%r12
	pushq	%rbx
	subq	$1096, %rsp                     # imm = 0x448
	xorl	%r15d, %r15d
	testq	%rdx, %rdx
	sete	%r8b
	movl	(%rdi), %r12d
	movl	$2, %eax
	cmpq	$32, %r12
	ja	Laes_v2_BB74_18
# %bb.1:                                # %start
	movq	%rsi, %r14
	movabsq	$4311810048, %rsi               # imm = 0x101010000
	btq	%r12, %rsi
	jae	Laes_v2_BB74_18
# %bb.2:                                # %join.3.i
	movb	%r8b, %r15b
	shll	$12, %r15d
	leaq	(%rdx,%r15), %rbx
	shrl	$2, %r12d
	addq	$7, %r12
	leaq	244(%rdi), %r13
	movups	(%r14), %xmm0
	movaps	%xmm0, 32(%rsp)
	movq	%rbx, 48(%rsp)
	movq	%rcx, 56(%rsp)
	cmpq	$8, %rcx
	jb	Laes_v2_BB74_4
# %bb.3:                                # %then.1.i.i.i
	addq	$4, %rdi
	leaq	32(%rsp), %r8
	movq	%r12, %rsi
	movq	%r13, %rdx
	movq	%r12, %rcx
	callq	_aes_v2.aes_hybrid.closures.lend_planes.2
	jmp	Laes_v2_BB74_17
Laes_v2_BB74_4:                               # %else.2.i.i.i
	testq	%rcx, %rcx
	je	Laes_v2_BB74_17
# %bb.5:                                # %join.5.lr.ph.i.i.i.i
	movq	%r14, 8(%rsp)                   # 8-byte Spill
	movq	%rdx, 16(%rsp)                  # 8-byte Spill
	movq	%rcx, %r14
	shlq	$4, %r14
	movl	$1024, %edx                     # imm = 0x400
	subq	%r14, %rdx
	leaq	(%rsp,%r14), %rdi
	addq	$72, %rdi
	xorl	%ebp, %ebp
	movq	%rcx, 64(%rsp)                  # 8-byte Spill
	xorl	%esi, %esi
	callq	*_memset@GOTPCREL(%rip)
	leaq	72(%rsp), %rdi
	movq	%rbx, 24(%rsp)                  # 8-byte Spill
	movq	%rbx, %rsi
	movq	64(%rsp), %rbx                  # 8-byte Reload
	movq	%r14, %rdx
	callq	*_memcpy@GOTPCREL(%rip)
	cmpq	$4, %rbx
	jb	Laes_v2_BB74_7
# %bb.6:                                # %loop.7.preheader.i.i.i.i.loopexit.i.i
	movl	$4, %ebp
	movl	$4, %ecx
	movq	%r13, %rdi
	movq	%r12, %rsi
	movq	24(%rsp), %rdx                  # 8-byte Reload
	callq	_aes_v2.aes_permute.blocks.process_on_lanes.2
Laes_v2_BB74_7:                               # %loop.7.preheader.i.i.i.i.i.i
	movq	%rbx, %r14
	subq	%rbp, %r14
	jbe	Laes_v2_BB74_10
# %bb.8:                                # %join.10.i.i.i.i.i.i.preheader
	shll	$4, %ebp
	addq	16(%rsp), %rbp                  # 8-byte Folded Reload
	addq	%r15, %rbp
	.p2align	4
Laes_v2_BB74_9:                               # %join.10.i.i.i.i.i.i
                                        # =>This Inner Loop Header: Depth=1
	movl	$1, %ecx
	movq	%r13, %rdi
	movq	%r12, %rsi
	movq	%rbp, %rdx
	callq	_aes_v2.aes_permute.blocks.process_on_lanes.2
	addq	$16, %rbp
	decq	%r14
	jne	Laes_v2_BB74_9
Laes_v2_BB74_10:                              # %join.7.lr.ph.i.i.i.i.i
	cmpq	$1, %rbx
	jne	Laes_v2_BB74_12
# %bb.11:
	leaq	32(%rsp), %rcx
	xorl	%eax, %eax
	movq	8(%rsp), %r14                   # 8-byte Reload
	jmp	Laes_v2_BB74_15
Laes_v2_BB74_12:                              # %join.7.lr.ph.i.i.i.i.i.new
	movl	%ebx, %edx
	andl	$6, %edx
	movq	16(%rsp), %rax                  # 8-byte Reload
	leaq	(%r15,%rax), %rsi
	addq	$16, %rsi
	leaq	32(%rsp), %rdi
	leaq	88(%rsp), %rcx
	xorl	%eax, %eax
	movq	8(%rsp), %r14                   # 8-byte Reload
	.p2align	4
Laes_v2_BB74_13:                              # %join.7.i.i.i.i.i
                                        # =>This Inner Loop Header: Depth=1
	movups	(%rdi), %xmm0
	movq	%rcx, %rdi
	movups	-16(%rsi), %xmm1
	xorps	%xmm0, %xmm1
	movups	(%rsi), %xmm0
	movups	%xmm1, -16(%rsi)
	movups	-16(%rcx), %xmm1
	xorps	%xmm0, %xmm1
	movups	%xmm1, (%rsi)
	addq	$2, %rax
	addq	$32, %rsi
	addq	$32, %rcx
	cmpq	%rax, %rdx
	jne	Laes_v2_BB74_13
# %bb.14:                               # %"cbc::decryption::unchain_part::<#625643f3508b39e7>.exit.loopexit.i.i.i.i.unr-lcssa"
	addq	$-32, %rcx
	testb	$1, %bl
	je	Laes_v2_BB74_16
Laes_v2_BB74_15:                              # %join.7.i.i.i.i.i.epil.preheader
	movups	(%rcx), %xmm0
	shlq	$4, %rax
	movq	24(%rsp), %rcx                  # 8-byte Reload
	movups	(%rcx,%rax), %xmm1
	xorps	%xmm0, %xmm1
	movups	%xmm1, (%rcx,%rax)
	leaq	(%rsp,%rax), %rcx
	addq	$72, %rcx
Laes_v2_BB74_16:                              # %"cbc::decryption::unchain_part::<#625643f3508b39e7>.exit.loopexit.i.i.i.i"
	movups	(%rcx), %xmm0
	movaps	%xmm0, 32(%rsp)
Laes_v2_BB74_17:                              # %"cbc::chain::Cbc::decrypt_blocks::<#bc4275ba8002e6b4>.exit.i"
	movaps	32(%rsp), %xmm0
	movups	%xmm0, (%r14)
	xorl	%eax, %eax
Laes_v2_BB74_18:                              # %"aes_c::chains::fotsgure_aes_cbc_decrypt.exit"
	addq	$1096, %rsp                     # imm = 0x448
	popq	%rbx
	popq	%r12
	popq	%r13
	popq	%r14
	popq	%r15
	popq	%rbp
	pxor	%xmm0, %xmm0
	pxor	%xmm1, %xmm1
	pxor	%xmm2, %xmm2
	pxor	%xmm3, %xmm3
	pxor	%xmm4, %xmm4
	pxor	%xmm5, %xmm5
	pxor	%xmm6, %xmm6
	pxor	%xmm7, %xmm7
	pxor	%xmm8, %xmm8
	pxor	%xmm9, %xmm9
	pxor	%xmm10, %xmm10
	pxor	%xmm11, %xmm11
	pxor	%xmm12, %xmm12
	pxor	%xmm13, %xmm13
	pxor	%xmm14, %xmm14
	pxor	%xmm15, %xmm15
	xorl	%ecx, %ecx
	xorl	%edx, %edx
	xorl	%esi, %esi
	xorl	%edi, %edi
	xorl	%r8d, %r8d
	xorl	%r9d, %r9d
	xorl	%r10d, %r10d
	xorl	%r11d, %r11d
	retq
                                        # -- End function
	.section	__TEXT,__text,regular,pure_instructions
	export_aes_v2	fotsgure_aes_decrypt_blocks
	.p2align	4
_aes_v2.fotsgure_aes_decrypt_blocks:            # @_aes_v2.fotsgure_aes_decrypt_blocks
	endbr64
# %bb.0:                                # %start
	pushq	%rbp
	pushq	%r15
	pushq	%r14
	pushq	%r13
	pushq	%r12
	pushq	%rbx
	pushq	%rax
	xorl	%eax, %eax
	testq	%rsi, %rsi
	sete	%cl
	movl	(%rdi), %r15d
	movl	$2, %r12d
	cmpq	$32, %r15
	ja	Laes_v2_BB75_6
# %bb.1:                                # %start
	movq	%rdx, %rbx
	movabsq	$4311810048, %rdx               # imm = 0x101010000
	btq	%r15, %rdx
	jae	Laes_v2_BB75_6
# %bb.2:                                # %join.3.i
	movq	%rsi, %r14
	movb	%cl, %al
	shll	$12, %eax
	addq	%rax, %r14
	shrl	$2, %r15d
	addq	$7, %r15
	leaq	244(%rdi), %r13
	xorl	%r12d, %r12d
	cmpq	$15, %rbx
	jae	Laes_v2_BB75_4
# %bb.3:
	xorl	%ebp, %ebp
	jmp	Laes_v2_BB75_5
Laes_v2_BB75_4:                               # %join.6.i.i.i
	addq	$4, %rdi
	movl	%ebx, %eax
	andl	$7, %eax
	xorl	%ecx, %ecx
	cmpq	$6, %rax
	cmovbq	%rax, %rcx
	movq	%rbx, %rbp
	subq	%rcx, %rbp
	movq	%r15, %rsi
	movq	%r14, %rdx
	movq	%rbp, %rcx
	callq	_aes_v2.aes_hybrid.batches.process_on_planes.2
Laes_v2_BB75_5:                               # %"aes_hybrid::borrowed_cipher::BorrowedCipher::process_blocks::<#b6eb981607e07ed4>.exit.i"
	subq	%rbp, %rbx
	shlq	$4, %rbp
	addq	%rbp, %r14
	movq	%r13, %rdi
	movq	%r15, %rsi
	movq	%r14, %rdx
	movq	%rbx, %rcx
	callq	_aes_v2.aes_permute.blocks.process_on_lanes.2
Laes_v2_BB75_6:                               # %"aes_c::blocks::fotsgure_aes_decrypt_blocks.exit"
	movl	%r12d, %eax
	addq	$8, %rsp
	popq	%rbx
	popq	%r12
	popq	%r13
	popq	%r14
	popq	%r15
	popq	%rbp
	pxor	%xmm0, %xmm0
	pxor	%xmm1, %xmm1
	pxor	%xmm2, %xmm2
	pxor	%xmm3, %xmm3
	pxor	%xmm4, %xmm4
	pxor	%xmm5, %xmm5
	pxor	%xmm6, %xmm6
	pxor	%xmm7, %xmm7
	pxor	%xmm8, %xmm8
	pxor	%xmm9, %xmm9
	pxor	%xmm10, %xmm10
	pxor	%xmm11, %xmm11
	pxor	%xmm12, %xmm12
	pxor	%xmm13, %xmm13
	pxor	%xmm14, %xmm14
	pxor	%xmm15, %xmm15
	xorl	%ecx, %ecx
	xorl	%edx, %edx
	xorl	%esi, %esi
	xorl	%edi, %edi
	xorl	%r8d, %r8d
	xorl	%r9d, %r9d
	xorl	%r10d, %r10d
	xorl	%r11d, %r11d
	retq
                                        # -- End function
	.section	__TEXT,__text,regular,pure_instructions
	export_aes_v2	fotsgure_aes_decrypt_blocks_to
	.p2align	4
_aes_v2.fotsgure_aes_decrypt_blocks_to:         # @_aes_v2.fotsgure_aes_decrypt_blocks_to
	endbr64
# %bb.0:                                # %start
	pushq	%r15
	pushq	%r14
	pushq	%r13
	pushq	%r12
	pushq	%rbx
	movq	%rdx, %rbx
	xorl	%r9d, %r9d
	testq	%rsi, %rsi
	sete	%r11b
	xorl	%edx, %edx
	testq	%rcx, %rcx
	sete	%r10b
	movl	$3, %eax
	cmpq	%r8, %rbx
	jne	Laes_v2_BB76_18
# %bb.1:                                # %join.3.i
	movl	(%rdi), %r14d
	movl	$2, %eax
	cmpq	$32, %r14
	ja	Laes_v2_BB76_18
# %bb.2:                                # %join.3.i
	movabsq	$4311810048, %r8                # imm = 0x101010000
	btq	%r14, %r8
	jae	Laes_v2_BB76_18
# %bb.3:                                # %join.6.i
	movb	%r11b, %r9b
	shll	$12, %r9d
	addq	%r9, %rsi
	movb	%r10b, %dl
	shll	$12, %edx
	addq	%rdx, %rcx
	movq	%rbx, %rdx
	shlq	$4, %rdx
	movq	%rcx, %rax
	subq	%rsi, %rax
	cmpq	%rdx, %rax
	jae	Laes_v2_BB76_8
# %bb.4:                                # %loop.4.preheader.i.i.i.i.i.i.i
	testq	%rbx, %rbx
	je	Laes_v2_BB76_7
# %bb.5:                                # %join.7.i.i.i.i.i.i.i.preheader
	movl	%ebx, %eax
	andl	$7, %eax
	cmpq	$8, %rbx
	jae	Laes_v2_BB76_9
# %bb.6:
	xorl	%edx, %edx
	jmp	Laes_v2_BB76_12
Laes_v2_BB76_8:                               # %apart.2.i.i.i.i.i.i.i
	movq	%rdi, %r14
	movq	%rcx, %rdi
	movq	%rcx, %r15
	callq	*_memmove@GOTPCREL(%rip)
	movq	%r14, %rdi
	movq	%r15, %rcx
	jmp	Laes_v2_BB76_14
Laes_v2_BB76_7:                               # %"core::slice::edits::slice+T::copy_from_slice::<#b9e87c6de6ee7501>.exit.thread.i"
	shrl	$2, %r14d
	addq	$7, %r14
	xorl	%r15d, %r15d
	jmp	Laes_v2_BB76_17
Laes_v2_BB76_9:                               # %join.7.i.i.i.i.i.i.i.preheader.new
	movq	%rbx, %r8
	andq	$-8, %r8
	movl	$112, %r9d
	xorl	%edx, %edx
	.p2align	4
Laes_v2_BB76_10:                              # %join.7.i.i.i.i.i.i.i
                                        # =>This Inner Loop Header: Depth=1
	movups	-112(%rsi,%r9), %xmm0
	movups	%xmm0, -112(%rcx,%r9)
	movups	-96(%rsi,%r9), %xmm0
	movups	%xmm0, -96(%rcx,%r9)
	movups	-80(%rsi,%r9), %xmm0
	movups	%xmm0, -80(%rcx,%r9)
	movups	-64(%rsi,%r9), %xmm0
	movups	%xmm0, -64(%rcx,%r9)
	movups	-48(%rsi,%r9), %xmm0
	movups	%xmm0, -48(%rcx,%r9)
	movups	-32(%rsi,%r9), %xmm0
	movups	%xmm0, -32(%rcx,%r9)
	movups	-16(%rsi,%r9), %xmm0
	movups	%xmm0, -16(%rcx,%r9)
	movups	(%rsi,%r9), %xmm0
	movups	%xmm0, (%rcx,%r9)
	addq	$8, %rdx
	subq	$-128, %r9
	cmpq	%rdx, %r8
	jne	Laes_v2_BB76_10
# %bb.11:                               # %"core::slice::edits::slice+T::copy_from_slice::<#b9e87c6de6ee7501>.exit.i.loopexit.unr-lcssa"
	testq	%rax, %rax
	je	Laes_v2_BB76_14
Laes_v2_BB76_12:                              # %join.7.i.i.i.i.i.i.i.epil.preheader
	shlq	$4, %rdx
	addq	%rdx, %rsi
	addq	%rcx, %rdx
	shll	$4, %eax
	xorl	%r8d, %r8d
	.p2align	4
Laes_v2_BB76_13:                              # %join.7.i.i.i.i.i.i.i.epil
                                        # =>This Inner Loop Header: Depth=1
	movups	(%rsi,%r8), %xmm0
	movups	%xmm0, (%rdx,%r8)
	addq	$16, %r8
	cmpq	%r8, %rax
	jne	Laes_v2_BB76_13
Laes_v2_BB76_14:                              # %"core::slice::edits::slice+T::copy_from_slice::<#b9e87c6de6ee7501>.exit.i"
	movl	(%rdi), %r14d
	shrl	$2, %r14d
	addq	$7, %r14
	cmpq	$15, %rbx
	jae	Laes_v2_BB76_16
# %bb.15:
	xorl	%r15d, %r15d
	jmp	Laes_v2_BB76_17
Laes_v2_BB76_16:                              # %join.6.i.i.i
	leaq	4(%rdi), %rax
	movl	%ebx, %edx
	andl	$7, %edx
	xorl	%esi, %esi
	cmpq	$6, %rdx
	cmovbq	%rdx, %rsi
	movq	%rbx, %r15
	subq	%rsi, %r15
	movq	%rdi, %r12
	movq	%rax, %rdi
	movq	%r14, %rsi
	movq	%rcx, %rdx
	movq	%rcx, %r13
	movq	%r15, %rcx
	callq	_aes_v2.aes_hybrid.batches.process_on_planes.2
	movq	%r12, %rdi
	movq	%r13, %rcx
Laes_v2_BB76_17:                              # %"aes_hybrid::borrowed_cipher::BorrowedCipher::process_blocks::<#b6eb981607e07ed4>.exit.i"
	addq	$244, %rdi
	subq	%r15, %rbx
	shlq	$4, %r15
	addq	%r15, %rcx
	movq	%r14, %rsi
	movq	%rcx, %rdx
	movq	%rbx, %rcx
	callq	_aes_v2.aes_permute.blocks.process_on_lanes.2
	xorl	%eax, %eax
Laes_v2_BB76_18:                              # %"aes_c::blocks::fotsgure_aes_decrypt_blocks_to.exit"
	popq	%rbx
	popq	%r12
	popq	%r13
	popq	%r14
	popq	%r15
	pxor	%xmm0, %xmm0
	pxor	%xmm1, %xmm1
	pxor	%xmm2, %xmm2
	pxor	%xmm3, %xmm3
	pxor	%xmm4, %xmm4
	pxor	%xmm5, %xmm5
	pxor	%xmm6, %xmm6
	pxor	%xmm7, %xmm7
	pxor	%xmm8, %xmm8
	pxor	%xmm9, %xmm9
	pxor	%xmm10, %xmm10
	pxor	%xmm11, %xmm11
	pxor	%xmm12, %xmm12
	pxor	%xmm13, %xmm13
	pxor	%xmm14, %xmm14
	pxor	%xmm15, %xmm15
	xorl	%ecx, %ecx
	xorl	%edx, %edx
	xorl	%esi, %esi
	xorl	%edi, %edi
	xorl	%r8d, %r8d
	xorl	%r9d, %r9d
	xorl	%r10d, %r10d
	xorl	%r11d, %r11d
	retq
                                        # -- End function
	.section	__TEXT,__text,regular,pure_instructions
	export_aes_v2	fotsgure_aes_decrypt_blocks_with
	.p2align	4
_aes_v2.fotsgure_aes_decrypt_blocks_with:       # @_aes_v2.fotsgure_aes_decrypt_blocks_with
	endbr64
# %bb.0:                                # %start
	pushq	%rbp
	pushq	%r15
	pushq	%r14
	pushq	%r13
	pushq	%r12
	pushq	%rbx
	subq	$504, %rsp                      # imm = 0x1F8
	movq	%rcx, 8(%rsp)                   # 8-byte Spill
	movq	%rdx, %r14
	movq	%rsi, %rbx
	xorl	%r15d, %r15d
	testq	%rdi, %rdi
	sete	%r15b
	shll	$12, %r15d
	addq	%rdi, %r15
	xorl	%r12d, %r12d
	testq	%rdx, %rdx
	sete	%bpl
	leaq	20(%rsp), %r13
	movl	$484, %edx                      # imm = 0x1E4
	movq	%r13, %rdi
	xorl	%esi, %esi
	callq	*_memset@GOTPCREL(%rip)
	movq	%r13, %rdi
	movq	%r15, %rsi
	movq	%rbx, %rdx
	callq	_aes_v2.aes_c.kept.fotsgure_aes_set_key
	movl	$1, %r13d
	testl	%eax, %eax
	jne	Laes_v2_BB77_8
# %bb.1:                                # %join.3.i
	movl	%ebp, %edx
	movq	8(%rsp), %rcx                   # 8-byte Reload
	leaq	24(%rsp), %rdi
	leaq	264(%rsp), %rbx
	movl	20(%rsp), %ebp
	movl	$2, %r13d
	cmpq	$32, %rbp
	ja	Laes_v2_BB77_7
# %bb.2:                                # %join.3.i
	movabsq	$4311810048, %rax               # imm = 0x101010000
	btq	%rbp, %rax
	jae	Laes_v2_BB77_7
# %bb.3:                                # %join.3.i.i
	movb	%dl, %r12b
	shll	$12, %r12d
	addq	%r12, %r14
	shrl	$2, %ebp
	addq	$7, %rbp
	xorl	%r13d, %r13d
	movq	%rcx, %r12
	cmpq	$15, %rcx
	jae	Laes_v2_BB77_5
# %bb.4:
	movq	%rdi, %r15
	xorl	%ebx, %ebx
	jmp	Laes_v2_BB77_6
Laes_v2_BB77_5:                               # %join.6.i.i.i.i
	movl	%r12d, %eax
	andl	$7, %eax
	xorl	%ecx, %ecx
	cmpq	$6, %rax
	cmovbq	%rax, %rcx
	movq	%r12, %rbx
	subq	%rcx, %rbx
	movq	%rdi, %r15
	movq	%rbp, %rsi
	movq	%r14, %rdx
	movq	%rbx, %rcx
	callq	_aes_v2.aes_hybrid.batches.process_on_planes.2
Laes_v2_BB77_6:                               # %"aes_hybrid::borrowed_cipher::BorrowedCipher::process_blocks::<#b6eb981607e07ed4>.exit.i.i"
	subq	%rbx, %r12
	shlq	$4, %rbx
	addq	%rbx, %r14
	leaq	264(%rsp), %rbx
	movq	%rbx, %rdi
	movq	%rbp, %rsi
	movq	%r14, %rdx
	movq	%r12, %rcx
	callq	_aes_v2.aes_permute.blocks.process_on_lanes.2
	movq	%r15, %rdi
Laes_v2_BB77_7:                               # %"aes_c::blocks::fotsgure_aes_decrypt_blocks.exit.i"
	movl	$0, 20(%rsp)
	callq	_aes_v2.aes_cipher.zeroize.elements.zeroize_elements.1
	movq	%rbx, %rdi
	callq	_aes_v2.aes_cipher.zeroize.elements.zeroize_elements.1
Laes_v2_BB77_8:                               # %"aes_c::once::fotsgure_aes_decrypt_blocks_with.exit"
	movl	%r13d, %eax
	addq	$504, %rsp                      # imm = 0x1F8
	popq	%rbx
	popq	%r12
	popq	%r13
	popq	%r14
	popq	%r15
	popq	%rbp
	pxor	%xmm0, %xmm0
	pxor	%xmm1, %xmm1
	pxor	%xmm2, %xmm2
	pxor	%xmm3, %xmm3
	pxor	%xmm4, %xmm4
	pxor	%xmm5, %xmm5
	pxor	%xmm6, %xmm6
	pxor	%xmm7, %xmm7
	pxor	%xmm8, %xmm8
	pxor	%xmm9, %xmm9
	pxor	%xmm10, %xmm10
	pxor	%xmm11, %xmm11
	pxor	%xmm12, %xmm12
	pxor	%xmm13, %xmm13
	pxor	%xmm14, %xmm14
	pxor	%xmm15, %xmm15
	xorl	%ecx, %ecx
	xorl	%edx, %edx
	xorl	%esi, %esi
	xorl	%edi, %edi
	xorl	%r8d, %r8d
	xorl	%r9d, %r9d
	xorl	%r10d, %r10d
	xorl	%r11d, %r11d
	retq
                                        # -- End function
	.section	__TEXT,__text,regular,pure_instructions
	export_aes_v2	fotsgure_aes_unwrap
	.p2align	4
_aes_v2.fotsgure_aes_unwrap:                    # @_aes_v2.fotsgure_aes_unwrap
	endbr64
# %bb.0:                                # %start
	movl	(%rdi), %r10d
	movl	$2, %eax
	cmpq	$32, %r10
	ja	Laes_v2_BB78_3
# %bb.1:                                # %start
	movq	%rcx, %r9
	movabsq	$4311810048, %rcx               # imm = 0x101010000
	btq	%r10, %rcx
	jae	Laes_v2_BB78_3
# %bb.2:                                # %join.3.i
	pushq	%rbp
	pushq	%rbx
	subq	$40, %rsp
	xorl	%ecx, %ecx
	testq	%r9, %r9
	sete	%cl
	shll	$12, %ecx
	addq	%r9, %rcx
	xorl	%eax, %eax
	testq	%rsi, %rsi
	sete	%al
	shll	$12, %eax
	addq	%rsi, %rax
	leaq	4(%rdi), %rsi
	shrl	$2, %r10d
	addq	$7, %r10
	addq	$244, %rdi
	movq	%rsi, 8(%rsp)
	movq	%r10, 16(%rsp)
	movq	%rdi, 24(%rsp)
	movq	%r10, 32(%rsp)
	leaq	8(%rsp), %rdi
	movq	%rax, %rsi
	callq	_aes_v2.key_wrap.wrapping.unwrap
	movl	%eax, %ebx
	movl	%edx, %ebp
	callq	_aes_v2.aes_cipher.zeroize.stack.wipe_stack.512
	cmpb	$1, %bpl
	movl	$6, %ecx
	sbbl	$0, %ecx
	xorl	%eax, %eax
	testb	%bl, %bl
	cmovnel	%ecx, %eax
	addq	$40, %rsp
	popq	%rbx
	popq	%rbp
Laes_v2_BB78_3:                               # %"aes_c::wrapping::fotsgure_aes_unwrap.exit"
	pxor	%xmm0, %xmm0
	pxor	%xmm1, %xmm1
	pxor	%xmm2, %xmm2
	pxor	%xmm3, %xmm3
	pxor	%xmm4, %xmm4
	pxor	%xmm5, %xmm5
	pxor	%xmm6, %xmm6
	pxor	%xmm7, %xmm7
	pxor	%xmm8, %xmm8
	pxor	%xmm9, %xmm9
	pxor	%xmm10, %xmm10
	pxor	%xmm11, %xmm11
	pxor	%xmm12, %xmm12
	pxor	%xmm13, %xmm13
	pxor	%xmm14, %xmm14
	pxor	%xmm15, %xmm15
	xorl	%ecx, %ecx
	xorl	%edx, %edx
	xorl	%esi, %esi
	xorl	%edi, %edi
	xorl	%r8d, %r8d
	xorl	%r9d, %r9d
	xorl	%r10d, %r10d
	xorl	%r11d, %r11d
	retq
                                        # -- End function
	.section	__TEXT,__text,regular,pure_instructions
	export_aes_v2	fotsgure_aes_unwrap_padded
	.p2align	4
_aes_v2.fotsgure_aes_unwrap_padded:             # @_aes_v2.fotsgure_aes_unwrap_padded
	endbr64
# %bb.0:                                # %start
	pushq	%rbx
	subq	$48, %rsp
	movq	%r9, %rbx
	movq	$0, 8(%rsp)
	movq	$0, (%r9)
	movl	(%rdi), %r11d
	movl	$2, %eax
	cmpq	$32, %r11
	ja	Laes_v2_BB79_5
# %bb.1:                                # %start
	movq	%rdx, %r10
	movabsq	$4311810048, %rdx               # imm = 0x101010000
	btq	%r11, %rdx
	jae	Laes_v2_BB79_5
# %bb.2:                                # %join.3.i
	movq	%r8, %r9
	xorl	%r8d, %r8d
	testq	%rcx, %rcx
	sete	%r8b
	shll	$12, %r8d
	addq	%rcx, %r8
	xorl	%edx, %edx
	testq	%rsi, %rsi
	sete	%dl
	shll	$12, %edx
	addq	%rsi, %rdx
	leaq	4(%rdi), %rax
	shrl	$2, %r11d
	addq	$7, %r11
	addq	$244, %rdi
	movq	%rax, 16(%rsp)
	movq	%r11, 24(%rsp)
	movq	%rdi, 32(%rsp)
	movq	%r11, 40(%rsp)
	leaq	8(%rsp), %rdi
	leaq	16(%rsp), %rsi
	movq	%r10, %rcx
	callq	_aes_v2.key_wrap.padded.unwrap_padded
	callq	_aes_v2.aes_cipher.zeroize.stack.wipe_stack.512
	cmpb	$0, 8(%rsp)
	je	Laes_v2_BB79_3
# %bb.4:                                # %arm.5.i
	cmpb	$1, 9(%rsp)
	movl	$6, %eax
	sbbl	$0, %eax
Laes_v2_BB79_5:                               # %"aes_c::wrapping::fotsgure_aes_unwrap_padded.exit"
	addq	$48, %rsp
	popq	%rbx
	pxor	%xmm0, %xmm0
	pxor	%xmm1, %xmm1
	pxor	%xmm2, %xmm2
	pxor	%xmm3, %xmm3
	pxor	%xmm4, %xmm4
	pxor	%xmm5, %xmm5
	pxor	%xmm6, %xmm6
	pxor	%xmm7, %xmm7
	pxor	%xmm8, %xmm8
	pxor	%xmm9, %xmm9
	pxor	%xmm10, %xmm10
	pxor	%xmm11, %xmm11
	pxor	%xmm12, %xmm12
	pxor	%xmm13, %xmm13
	pxor	%xmm14, %xmm14
	pxor	%xmm15, %xmm15
	xorl	%ecx, %ecx
	xorl	%edx, %edx
	xorl	%esi, %esi
	xorl	%edi, %edi
	xorl	%r8d, %r8d
	xorl	%r9d, %r9d
	xorl	%r10d, %r10d
	xorl	%r11d, %r11d
	retq
Laes_v2_BB79_3:                               # %arm.4.i
	movl	12(%rsp), %eax
	movq	%rax, (%rbx)
	xorl	%eax, %eax
	addq	$48, %rsp
	popq	%rbx
	pxor	%xmm0, %xmm0
	pxor	%xmm1, %xmm1
	pxor	%xmm2, %xmm2
	pxor	%xmm3, %xmm3
	pxor	%xmm4, %xmm4
	pxor	%xmm5, %xmm5
	pxor	%xmm6, %xmm6
	pxor	%xmm7, %xmm7
	pxor	%xmm8, %xmm8
	pxor	%xmm9, %xmm9
	pxor	%xmm10, %xmm10
	pxor	%xmm11, %xmm11
	pxor	%xmm12, %xmm12
	pxor	%xmm13, %xmm13
	pxor	%xmm14, %xmm14
	pxor	%xmm15, %xmm15
	xorl	%ecx, %ecx
	xorl	%edx, %edx
	xorl	%esi, %esi
	xorl	%edi, %edi
	xorl	%r8d, %r8d
	xorl	%r9d, %r9d
	xorl	%r10d, %r10d
	xorl	%r11d, %r11d
	retq
                                        # -- End function
	.section	__TEXT,__text,regular,pure_instructions
	export_aes_v2	fotsgure_aes_inv_mix_columns
	.p2align	4
_aes_v2.fotsgure_aes_inv_mix_columns:           # @_aes_v2.fotsgure_aes_inv_mix_columns
	endbr64
# %bb.0:                                # %start
	pushq	%rax
	callq	_aes_v2.aes_c.single_rounds.inverse_mixed
	popq	%rax
	jmp	_aes_v2.aes_cipher.zeroize.stack.wipe_stack.512 # TAILCALL
                                        # -- End function
	.section	__TEXT,__text,regular,pure_instructions
	export_aes_v2	fotsgure_aes_equiv_inv_cipher_round
	.p2align	4
_aes_v2.fotsgure_aes_equiv_inv_cipher_round:    # @_aes_v2.fotsgure_aes_equiv_inv_cipher_round
	endbr64
# %bb.0:                                # %start
	pushq	%rax
	callq	_aes_v2.aes_c.single_rounds.inverse_round
	popq	%rax
	jmp	_aes_v2.aes_cipher.zeroize.stack.wipe_stack.512 # TAILCALL
                                        # -- End function
	.section	__TEXT,__text,regular,pure_instructions
	export_aes_v2	fotsgure_aes_equiv_inv_cipher_round_par
	.p2align	4
_aes_v2.fotsgure_aes_equiv_inv_cipher_round_par: # @_aes_v2.fotsgure_aes_equiv_inv_cipher_round_par
	endbr64
# %bb.0:                                # %start
	pushq	%rax
	callq	_aes_v2.aes_c.single_rounds.inverse_rounds
	popq	%rax
	jmp	_aes_v2.aes_cipher.zeroize.stack.wipe_stack.512 # TAILCALL
                                        # -- End function
	.section	__TEXT,__text,regular,pure_instructions
	export_aes_v2	fotsgure_aes_cmac_accept
	.p2align	4
_aes_v2.fotsgure_aes_cmac_accept:               # @_aes_v2.fotsgure_aes_cmac_accept
	endbr64
# %bb.0:                                # %start
	pushq	%rbx
	movq	%rcx, %r8
	movq	%rdx, %rcx
	xorl	%eax, %eax
	testq	%rdx, %rdx
	sete	%r9b
	movl	(%rdi), %edx
	movl	$2, %ebx
	cmpq	$32, %rdx
	ja	Laes_v2_BB83_7
# %bb.1:                                # %start
	movabsq	$4311810048, %r10               # imm = 0x101010000
	btq	%rdx, %r10
	jae	Laes_v2_BB83_7
# %bb.2:                                # %join.3.i
	leaq	-4(%r8), %r10
	movl	$7, %ebx
	cmpq	$12, %r10
	ja	Laes_v2_BB83_7
# %bb.3:                                # %join.6.i
	movl	$10, %ebx
	cmpq	$1, (%rsi)
	jne	Laes_v2_BB83_6
# %bb.4:                                # %join.3.i.i
	movb	%r9b, %al
	shll	$12, %eax
	addq	%rax, %rcx
	shrl	$2, %edx
	addq	$7, %rdx
	addq	$4, %rdi
	movq	%rdi, %rax
	movq	%rsi, %rdi
	movq	%rsi, %rbx
	movq	%rax, %rsi
	callq	_aes_v2.cmac.pieces.Message.is_tag_so_far
	movq	%rbx, %rdi
	movl	$6, %ebx
	testb	%al, %al
	je	Laes_v2_BB83_6
# %bb.5:                                # %join.7.i.i
	callq	_aes_v2.cmac.pieces.MessageZeroize.zeroize
	xorl	%ebx, %ebx
Laes_v2_BB83_6:                               # %"cmac::pieces::Message::accept::<#ef80964e0b8d42c0>.exit.i"
	callq	_aes_v2.aes_cipher.zeroize.stack.wipe_stack.768
Laes_v2_BB83_7:                               # %"aes_c::tags::pieces::fotsgure_aes_cmac_accept.exit"
	movl	%ebx, %eax
	popq	%rbx
	pxor	%xmm0, %xmm0
	pxor	%xmm1, %xmm1
	pxor	%xmm2, %xmm2
	pxor	%xmm3, %xmm3
	pxor	%xmm4, %xmm4
	pxor	%xmm5, %xmm5
	pxor	%xmm6, %xmm6
	pxor	%xmm7, %xmm7
	pxor	%xmm8, %xmm8
	pxor	%xmm9, %xmm9
	pxor	%xmm10, %xmm10
	pxor	%xmm11, %xmm11
	pxor	%xmm12, %xmm12
	pxor	%xmm13, %xmm13
	pxor	%xmm14, %xmm14
	pxor	%xmm15, %xmm15
	xorl	%ecx, %ecx
	xorl	%edx, %edx
	xorl	%esi, %esi
	xorl	%edi, %edi
	xorl	%r8d, %r8d
	xorl	%r9d, %r9d
	xorl	%r10d, %r10d
	xorl	%r11d, %r11d
	retq
                                        # -- End function
	.section	__TEXT,__text,regular,pure_instructions
	export_aes_v2	fotsgure_aes_cmac_verify
	.p2align	4
_aes_v2.fotsgure_aes_cmac_verify:               # @_aes_v2.fotsgure_aes_cmac_verify
	endbr64
# %bb.0:                                # %start
	pushq	%rbp
	pushq	%r14
	pushq	%rbx
	subq	$32, %rsp
	xorl	%r11d, %r11d
	testq	%rsi, %rsi
	sete	%bpl
	xorl	%r10d, %r10d
	testq	%rcx, %rcx
	sete	%bl
	movl	(%rdi), %r9d
	movl	$2, %eax
	cmpq	$32, %r9
	ja	Laes_v2_BB84_4
# %bb.1:                                # %start
	movabsq	$4311810048, %r14               # imm = 0x101010000
	btq	%r9, %r14
	jae	Laes_v2_BB84_4
# %bb.2:                                # %join.3.i
	leaq	-4(%r8), %r14
	movl	$7, %eax
	cmpq	$12, %r14
	ja	Laes_v2_BB84_4
# %bb.3:                                # %join.6.i
	movb	%bpl, %r11b
	shll	$12, %r11d
	addq	%r11, %rsi
	movb	%bl, %r10b
	shll	$12, %r10d
	addq	%r10, %rcx
	addq	$4, %rdi
	shrl	$2, %r9d
	addq	$7, %r9
	movq	%rdi, (%rsp)
	movq	%r9, 8(%rsp)
	movq	%rdi, 16(%rsp)
	movq	%r9, 24(%rsp)
	movq	%rsp, %rdi
	callq	_aes_v2.cmac.tags.is_tag_start
	movl	%eax, %ebx
	callq	_aes_v2.aes_cipher.zeroize.stack.wipe_stack.768
	xorl	%ecx, %ecx
	testb	%bl, %bl
	movl	$6, %eax
	cmovnel	%ecx, %eax
Laes_v2_BB84_4:                               # %"aes_c::tags::fotsgure_aes_cmac_verify.exit"
	addq	$32, %rsp
	popq	%rbx
	popq	%r14
	popq	%rbp
	pxor	%xmm0, %xmm0
	pxor	%xmm1, %xmm1
	pxor	%xmm2, %xmm2
	pxor	%xmm3, %xmm3
	pxor	%xmm4, %xmm4
	pxor	%xmm5, %xmm5
	pxor	%xmm6, %xmm6
	pxor	%xmm7, %xmm7
	pxor	%xmm8, %xmm8
	pxor	%xmm9, %xmm9
	pxor	%xmm10, %xmm10
	pxor	%xmm11, %xmm11
	pxor	%xmm12, %xmm12
	pxor	%xmm13, %xmm13
	pxor	%xmm14, %xmm14
	pxor	%xmm15, %xmm15
	xorl	%ecx, %ecx
	xorl	%edx, %edx
	xorl	%esi, %esi
	xorl	%edi, %edi
	xorl	%r8d, %r8d
	xorl	%r9d, %r9d
	xorl	%r10d, %r10d
	xorl	%r11d, %r11d
	retq
                                        # -- End function
	.section	__TEXT,__text,regular,pure_instructions
	export_aes_v2	fotsgure_aes_mix_columns
	.p2align	4
_aes_v2.fotsgure_aes_mix_columns:               # @_aes_v2.fotsgure_aes_mix_columns
	endbr64
# %bb.0:                                # %start
	pushq	%rax
	callq	_aes_v2.aes_c.single_rounds.mixed
	popq	%rax
	jmp	_aes_v2.aes_cipher.zeroize.stack.wipe_stack.512 # TAILCALL
                                        # -- End function
	.section	__TEXT,__text,regular,pure_instructions
	export_aes_v2	fotsgure_aes_add_keystream
	.p2align	4
_aes_v2.fotsgure_aes_add_keystream:             # @_aes_v2.fotsgure_aes_add_keystream
	endbr64
# %bb.0:                                # %start
	pushq	%r14
	pushq	%rbx
	subq	$40, %rsp
	movq	%rcx, %rbx
	movq	%rdx, %rcx
	xorl	%r8d, %r8d
	testq	%rdx, %rdx
	sete	%r10b
	movq	16(%rsi), %rdx
	movq	%rdx, %r9
	movl	$4, %eax
	addq	%rbx, %r9
	jb	Laes_v2_BB86_4
# %bb.1:                                # %join.3.i.i
	movl	(%rdi), %r9d
	movl	$2, %eax
	cmpq	$32, %r9
	ja	Laes_v2_BB86_4
# %bb.2:                                # %join.3.i.i
	movabsq	$4311810048, %r11               # imm = 0x101010000
	btq	%r9, %r11
	jae	Laes_v2_BB86_4
# %bb.3:                                # %then.1.i
	movb	%r10b, %r8b
	shll	$12, %r8d
	addq	%r8, %rcx
	addq	$4, %rdi
	shrl	$2, %r9d
	addq	$7, %r9
	movq	%rdi, 8(%rsp)
	movq	%r9, 16(%rsp)
	movq	%rdi, 24(%rsp)
	movq	%r9, 32(%rsp)
	leaq	8(%rsp), %rdi
	movq	%rsi, %r14
	movq	%rbx, %r8
	callq	_aes_v2.aes_ctr.add_in_batches.add_keystream
	addq	%rbx, 16(%r14)
	xorl	%eax, %eax
Laes_v2_BB86_4:                               # %"aes_c::stream::fotsgure_aes_add_keystream.exit"
	addq	$40, %rsp
	popq	%rbx
	popq	%r14
	pxor	%xmm0, %xmm0
	pxor	%xmm1, %xmm1
	pxor	%xmm2, %xmm2
	pxor	%xmm3, %xmm3
	pxor	%xmm4, %xmm4
	pxor	%xmm5, %xmm5
	pxor	%xmm6, %xmm6
	pxor	%xmm7, %xmm7
	pxor	%xmm8, %xmm8
	pxor	%xmm9, %xmm9
	pxor	%xmm10, %xmm10
	pxor	%xmm11, %xmm11
	pxor	%xmm12, %xmm12
	pxor	%xmm13, %xmm13
	pxor	%xmm14, %xmm14
	pxor	%xmm15, %xmm15
	xorl	%ecx, %ecx
	xorl	%edx, %edx
	xorl	%esi, %esi
	xorl	%edi, %edi
	xorl	%r8d, %r8d
	xorl	%r9d, %r9d
	xorl	%r10d, %r10d
	xorl	%r11d, %r11d
	retq
                                        # -- End function
	.section	__TEXT,__text,regular,pure_instructions
	export_aes_v2	fotsgure_aes_add_keystream_to
	.p2align	4
_aes_v2.fotsgure_aes_add_keystream_to:          # @_aes_v2.fotsgure_aes_add_keystream_to
	endbr64
# %bb.0:                                # %start
	pushq	%rbp
	pushq	%r15
	pushq	%r14
	pushq	%r13
	pushq	%r12
	pushq	%rbx
	subq	$40, %rsp
	xorl	%r10d, %r10d
	testq	%rdx, %rdx
	sete	%bpl
	xorl	%r11d, %r11d
	testq	%r8, %r8
	sete	%bl
	movl	$3, %eax
	cmpq	%r9, %rcx
	jne	Laes_v2_BB87_29
# %bb.1:                                # %join.3.i
	movq	16(%rsi), %r9
	movl	$4, %eax
	addq	%rcx, %r9
	jb	Laes_v2_BB87_29
# %bb.2:                                # %join.3.i.i
	movl	(%rdi), %r9d
	movl	$2, %eax
	cmpq	$32, %r9
	ja	Laes_v2_BB87_29
# %bb.3:                                # %join.3.i.i
	movabsq	$4311810048, %r14               # imm = 0x101010000
	btq	%r9, %r14
	jae	Laes_v2_BB87_29
# %bb.4:                                # %join.6.i
	movb	%bpl, %r10b
	shll	$12, %r10d
	leaq	(%rdx,%r10), %rax
	movb	%bl, %r11b
	shll	$12, %r11d
	leaq	(%r8,%r11), %rbx
	movq	%rbx, %r9
	subq	%rax, %r9
	cmpq	%rcx, %r9
	jae	Laes_v2_BB87_7
# %bb.5:                                # %iter.check
	cmpq	$4, %rcx
	jb	Laes_v2_BB87_6
# %bb.8:                                # %vector.memcheck
	cmpq	$32, %r9
	jae	Laes_v2_BB87_10
Laes_v2_BB87_6:
	xorl	%r9d, %r9d
Laes_v2_BB87_19:                              # %join.7.i.i.i.i.i.i.i.preheader
	movq	%rcx, %r12
	movq	%r9, %r15
	andq	$3, %r12
	je	Laes_v2_BB87_22
# %bb.20:                               # %join.7.i.i.i.i.i.i.i.prol.preheader
	movq	%r9, %r15
	.p2align	4
Laes_v2_BB87_21:                              # %join.7.i.i.i.i.i.i.i.prol
                                        # =>This Inner Loop Header: Depth=1
	movzbl	(%rax,%r15), %ebp
	movb	%bpl, (%rbx,%r15)
	incq	%r15
	decq	%r12
	jne	Laes_v2_BB87_21
Laes_v2_BB87_22:                              # %join.7.i.i.i.i.i.i.i.prol.loopexit
	subq	%rcx, %r9
	cmpq	$-4, %r9
	ja	Laes_v2_BB87_25
# %bb.23:                               # %join.7.i.i.i.i.i.i.i.preheader11
	leaq	(%r10,%rdx), %rax
	addq	$3, %rax
	leaq	(%r11,%r8), %rdx
	addq	$3, %rdx
	.p2align	4
Laes_v2_BB87_24:                              # %join.7.i.i.i.i.i.i.i
                                        # =>This Inner Loop Header: Depth=1
	movzbl	-3(%rax,%r15), %r8d
	movb	%r8b, -3(%rdx,%r15)
	movzbl	-2(%rax,%r15), %r8d
	movb	%r8b, -2(%rdx,%r15)
	movzbl	-1(%rax,%r15), %r8d
	movb	%r8b, -1(%rdx,%r15)
	movzbl	(%rax,%r15), %r8d
	movb	%r8b, (%rdx,%r15)
	addq	$4, %r15
	cmpq	%r15, %rcx
	jne	Laes_v2_BB87_24
	jmp	Laes_v2_BB87_25
Laes_v2_BB87_7:                               # %apart.2.i.i.i.i.i.i.i
	movq	%rdi, %r15
	movq	%rbx, %rdi
	movq	%rsi, %r12
	movq	%rax, %rsi
	movq	%rcx, %rdx
	movq	%rcx, %r13
	callq	*_memmove@GOTPCREL(%rip)
	movq	%r15, %rdi
	movq	%r12, %rsi
	movq	%r13, %rcx
Laes_v2_BB87_25:                              # %"core::slice::edits::slice+T::copy_from_slice::<i8,20'core::clone::U8Clone{}>.exit.i"
	movq	16(%rsi), %rdx
	movq	%rdx, %r8
	movl	$4, %eax
	addq	%rcx, %r8
	jb	Laes_v2_BB87_29
# %bb.26:                               # %join.3.i.i.i
	movl	(%rdi), %r8d
	movl	$2, %eax
	cmpq	$32, %r8
	ja	Laes_v2_BB87_29
# %bb.27:                               # %join.3.i.i.i
	btq	%r8, %r14
	jae	Laes_v2_BB87_29
# %bb.28:                               # %then.1.i.i
	addq	$4, %rdi
	shrl	$2, %r8d
	addq	$7, %r8
	movq	%rdi, 8(%rsp)
	movq	%r8, 16(%rsp)
	movq	%rdi, 24(%rsp)
	movq	%r8, 32(%rsp)
	leaq	8(%rsp), %rdi
	movq	%rsi, %r14
	movq	%rcx, %r15
	movq	%rbx, %rcx
	movq	%r15, %r8
	callq	_aes_v2.aes_ctr.add_in_batches.add_keystream
	addq	%r15, 16(%r14)
	xorl	%eax, %eax
Laes_v2_BB87_29:                              # %"aes_c::stream::fotsgure_aes_add_keystream_to.exit"
	addq	$40, %rsp
	popq	%rbx
	popq	%r12
	popq	%r13
	popq	%r14
	popq	%r15
	popq	%rbp
	pxor	%xmm0, %xmm0
	pxor	%xmm1, %xmm1
	pxor	%xmm2, %xmm2
	pxor	%xmm3, %xmm3
	pxor	%xmm4, %xmm4
	pxor	%xmm5, %xmm5
	pxor	%xmm6, %xmm6
	pxor	%xmm7, %xmm7
	pxor	%xmm8, %xmm8
	pxor	%xmm9, %xmm9
	pxor	%xmm10, %xmm10
	pxor	%xmm11, %xmm11
	pxor	%xmm12, %xmm12
	pxor	%xmm13, %xmm13
	pxor	%xmm14, %xmm14
	pxor	%xmm15, %xmm15
	xorl	%ecx, %ecx
	xorl	%edx, %edx
	xorl	%esi, %esi
	xorl	%edi, %edi
	xorl	%r8d, %r8d
	xorl	%r9d, %r9d
	xorl	%r10d, %r10d
	xorl	%r11d, %r11d
	retq
Laes_v2_BB87_10:                              # %vector.main.loop.iter.check
	cmpq	$32, %rcx
	jae	Laes_v2_BB87_12
# %bb.11:
	xorl	%r9d, %r9d
	jmp	Laes_v2_BB87_16
Laes_v2_BB87_12:                              # %vector.ph
	movq	%rcx, %r9
	andq	$-32, %r9
	leaq	(%r10,%rdx), %r15
	addq	$16, %r15
	leaq	(%r11,%r8), %r12
	addq	$16, %r12
	xorl	%r13d, %r13d
	.p2align	4
Laes_v2_BB87_13:                              # %vector.body
                                        # =>This Inner Loop Header: Depth=1
	movups	-16(%r15,%r13), %xmm0
	movups	(%r15,%r13), %xmm1
	movups	%xmm0, -16(%r12,%r13)
	movups	%xmm1, (%r12,%r13)
	addq	$32, %r13
	cmpq	%r13, %r9
	jne	Laes_v2_BB87_13
# %bb.14:                               # %middle.block
	cmpq	%r9, %rcx
	je	Laes_v2_BB87_25
# %bb.15:                               # %vec.epilog.iter.check
	testb	$28, %cl
	je	Laes_v2_BB87_19
Laes_v2_BB87_16:                              # %vec.epilog.ph
	movq	%r9, %r15
	movq	%rcx, %r9
	andq	$-4, %r9
	.p2align	4
Laes_v2_BB87_17:                              # %vec.epilog.vector.body
                                        # =>This Inner Loop Header: Depth=1
	movl	(%rax,%r15), %ebp
	movl	%ebp, (%rbx,%r15)
	addq	$4, %r15
	cmpq	%r15, %r9
	jne	Laes_v2_BB87_17
# %bb.18:                               # %vec.epilog.middle.block
	cmpq	%r9, %rcx
	je	Laes_v2_BB87_25
	jmp	Laes_v2_BB87_19
                                        # -- End function
	.section	__TEXT,__text,regular,pure_instructions
	export_aes_v2	fotsgure_aes_cipher_round
	.p2align	4
_aes_v2.fotsgure_aes_cipher_round:              # @_aes_v2.fotsgure_aes_cipher_round
	endbr64
# %bb.0:                                # %start
	pushq	%rax
	callq	_aes_v2.aes_c.single_rounds.round
	popq	%rax
	jmp	_aes_v2.aes_cipher.zeroize.stack.wipe_stack.512 # TAILCALL
                                        # -- End function
	.section	__TEXT,__text,regular,pure_instructions
	export_aes_v2	fotsgure_aes_cipher_round_par
	.p2align	4
_aes_v2.fotsgure_aes_cipher_round_par:          # @_aes_v2.fotsgure_aes_cipher_round_par
	endbr64
# %bb.0:                                # %start
	pushq	%rax
	callq	_aes_v2.aes_c.single_rounds.rounds
	popq	%rax
	jmp	_aes_v2.aes_cipher.zeroize.stack.wipe_stack.512 # TAILCALL
                                        # -- End function
	.section	__TEXT,__text,regular,pure_instructions
	export_aes_v2	fotsgure_aes_ccm_open
	.p2align	4
_aes_v2.fotsgure_aes_ccm_open:                  # @_aes_v2.fotsgure_aes_ccm_open
	endbr64
# %bb.0:                                # %start
	pushq	%r15
	pushq	%r14
	pushq	%r12
	pushq	%rbx
	subq	$72, %rsp
	movl	(%rdi), %ebx
	movl	$2, %eax
	cmpq	$32, %rbx
	ja	Laes_v2_BB90_6
# %bb.1:                                # %start
	movq	%rdx, %r11
	movabsq	$4311810048, %rdx               # imm = 0x101010000
	btq	%rbx, %rdx
	jae	Laes_v2_BB90_6
# %bb.2:                                # %join.3.i
	movq	%r8, %r10
	movq	128(%rsp), %r14
	movq	120(%rsp), %rdx
	movq	112(%rsp), %rax
	xorl	%r15d, %r15d
	testq	%rdx, %rdx
	sete	%r15b
	shll	$12, %r15d
	addq	%rdx, %r15
	xorl	%r12d, %r12d
	testq	%r9, %r9
	sete	%r12b
	shll	$12, %r12d
	addq	%r9, %r12
	xorl	%r8d, %r8d
	testq	%rcx, %rcx
	sete	%r8b
	shll	$12, %r8d
	addq	%rcx, %r8
	xorl	%edx, %edx
	testq	%rsi, %rsi
	sete	%dl
	shll	$12, %edx
	addq	%rsi, %rdx
	addq	$4, %rdi
	shrl	$2, %ebx
	addq	$7, %rbx
	movq	%rdi, 40(%rsp)
	movq	%rbx, 48(%rsp)
	movq	%rdi, 56(%rsp)
	movq	%rbx, 64(%rsp)
	movq	%r14, 24(%rsp)
	movq	%r15, 16(%rsp)
	movq	%rax, 8(%rsp)
	movq	%r12, (%rsp)
	leaq	37(%rsp), %rdi
	leaq	40(%rsp), %rsi
	movq	%r11, %rcx
	movq	%r10, %r9
	callq	_aes_v2.ccm.mode.decrypt
	callq	_aes_v2.aes_cipher.zeroize.stack.wipe_stack.1024
	cmpb	$0, 37(%rsp)
	je	Laes_v2_BB90_3
# %bb.4:                                # %arm.5.i
	movl	$6, %eax
	cmpb	$0, 38(%rsp)
	jne	Laes_v2_BB90_6
# %bb.5:                                # %arm.8.i
	movzbl	39(%rsp), %eax
	addl	$7, %eax
	jmp	Laes_v2_BB90_6
Laes_v2_BB90_3:
	xorl	%eax, %eax
Laes_v2_BB90_6:                               # %"aes_c::messages::fotsgure_aes_ccm_open.exit"
	addq	$72, %rsp
	popq	%rbx
	popq	%r12
	popq	%r14
	popq	%r15
	pxor	%xmm0, %xmm0
	pxor	%xmm1, %xmm1
	pxor	%xmm2, %xmm2
	pxor	%xmm3, %xmm3
	pxor	%xmm4, %xmm4
	pxor	%xmm5, %xmm5
	pxor	%xmm6, %xmm6
	pxor	%xmm7, %xmm7
	pxor	%xmm8, %xmm8
	pxor	%xmm9, %xmm9
	pxor	%xmm10, %xmm10
	pxor	%xmm11, %xmm11
	pxor	%xmm12, %xmm12
	pxor	%xmm13, %xmm13
	pxor	%xmm14, %xmm14
	pxor	%xmm15, %xmm15
	xorl	%ecx, %ecx
	xorl	%edx, %edx
	xorl	%esi, %esi
	xorl	%edi, %edi
	xorl	%r8d, %r8d
	xorl	%r9d, %r9d
	xorl	%r10d, %r10d
	xorl	%r11d, %r11d
	retq
                                        # -- End function
	.section	__TEXT,__text,regular,pure_instructions
	export_aes_v2	fotsgure_aes_ccm_seal
	.p2align	4
_aes_v2.fotsgure_aes_ccm_seal:                  # @_aes_v2.fotsgure_aes_ccm_seal
	endbr64
# %bb.0:                                # %start
	movl	(%rdi), %r11d
	movl	$2, %eax
	cmpq	$32, %r11
	ja	Laes_v2_BB91_6
# %bb.1:                                # %start
	movq	%r9, %r10
	movabsq	$4311810048, %r9                # imm = 0x101010000
	btq	%r11, %r9
	jae	Laes_v2_BB91_6
# %bb.2:                                # %join.3.i
	pushq	%rbp
	pushq	%r15
	pushq	%r14
	pushq	%rbx
	subq	$56, %rsp
	movq	112(%rsp), %r14
	movq	104(%rsp), %rax
	movq	96(%rsp), %rbx
	xorl	%r15d, %r15d
	testq	%rax, %rax
	sete	%r15b
	shll	$12, %r15d
	addq	%rax, %r15
	xorl	%r9d, %r9d
	testq	%r10, %r10
	sete	%r9b
	shll	$12, %r9d
	addq	%r10, %r9
	xorl	%eax, %eax
	testq	%rcx, %rcx
	sete	%al
	shll	$12, %eax
	addq	%rcx, %rax
	xorl	%ecx, %ecx
	testq	%rsi, %rsi
	sete	%cl
	shll	$12, %ecx
	addq	%rsi, %rcx
	addq	$4, %rdi
	shrl	$2, %r11d
	addq	$7, %r11
	movq	%rdi, 24(%rsp)
	movq	%r11, 32(%rsp)
	movq	%rdi, 40(%rsp)
	movq	%r11, 48(%rsp)
	movq	%r14, 16(%rsp)
	movq	%r15, 8(%rsp)
	movq	%rbx, (%rsp)
	leaq	24(%rsp), %rdi
	movq	%rcx, %rsi
	movq	%rax, %rcx
	callq	_aes_v2.ccm.mode.encrypt
	movl	%eax, %ebp
	movl	%edx, %ebx
	callq	_aes_v2.aes_cipher.zeroize.stack.wipe_stack.1024
	testb	%bpl, %bpl
	je	Laes_v2_BB91_3
# %bb.4:                                # %arm.5.i
	movzbl	%bl, %eax
	addl	$7, %eax
	jmp	Laes_v2_BB91_5
Laes_v2_BB91_3:
	xorl	%eax, %eax
Laes_v2_BB91_5:
	addq	$56, %rsp
	popq	%rbx
	popq	%r14
	popq	%r15
	popq	%rbp
Laes_v2_BB91_6:                               # %"aes_c::messages::fotsgure_aes_ccm_seal.exit"
	pxor	%xmm0, %xmm0
	pxor	%xmm1, %xmm1
	pxor	%xmm2, %xmm2
	pxor	%xmm3, %xmm3
	pxor	%xmm4, %xmm4
	pxor	%xmm5, %xmm5
	pxor	%xmm6, %xmm6
	pxor	%xmm7, %xmm7
	pxor	%xmm8, %xmm8
	pxor	%xmm9, %xmm9
	pxor	%xmm10, %xmm10
	pxor	%xmm11, %xmm11
	pxor	%xmm12, %xmm12
	pxor	%xmm13, %xmm13
	pxor	%xmm14, %xmm14
	pxor	%xmm15, %xmm15
	xorl	%ecx, %ecx
	xorl	%edx, %edx
	xorl	%esi, %esi
	xorl	%edi, %edi
	xorl	%r8d, %r8d
	xorl	%r9d, %r9d
	xorl	%r10d, %r10d
	xorl	%r11d, %r11d
	retq
                                        # -- End function
	.section	__TEXT,__const
l_aes_v2_static.0:
	.ascii	"\001\002\004\b\020 @\200\0336"

	.section	__TEXT,__const
	.p2align	4
l_aes_v2_static.1:
	.ascii	"\000\001\034\035-,10'&;:\n\013\026\027"

l_aes_v2_static.2:
	.ascii	"\000\206\375{\216\bs\365w\361\212\f\371\177\004\202"

	.section	__TEXT,__const
l_aes_v2_static.3:
	.ascii	"\000\001\002\003\004\005\006\007\b\t\n\013\f\r\016\017\000\005\n\017\004\t\016\003\b\r\002\007\f\001\006\013\000\t\002\013\004\r\006\017\b\001\n\003\f\005\016\007\000\r\n\007\004\001\016\013\b\005\002\017\f\t\006\003"

	.section	__TEXT,__const
l_aes_v2_static.4:
	.ascii	"\001\002\003\000\005\006\007\004\t\n\013\b\r\016\017\f\005\006\007\004\t\n\013\b\r\016\017\f\001\002\003\000\t\n\013\b\r\016\017\f\001\002\003\000\005\006\007\004\r\016\017\f\001\002\003\000\005\006\007\004\t\n\013\b"

	.section	__TEXT,__const
l_aes_v2_static.5:
	.ascii	"\003\000\001\002\007\004\005\006\013\b\t\n\017\f\r\016\017\f\r\016\003\000\001\002\007\004\005\006\013\b\t\n\013\b\t\n\017\f\r\016\003\000\001\002\007\004\005\006\007\004\005\006\013\b\t\n\017\f\r\016\003\000\001\002"

	.section	__TEXT,__const
l_aes_v2_static.6:
	.ascii	"\002\003\000\001\006\007\004\005\n\013\b\t\016\017\f\r\n\013\b\t\016\017\f\r\002\003\000\001\006\007\004\005\002\003\000\001\006\007\004\005\n\013\b\t\016\017\f\r\n\013\b\t\016\017\f\r\002\003\000\001\006\007\004\005"

	.section	__TEXT,__const
	.p2align	4
l_aes_v2_static.8:
	.zero	16,166

	.section	__TEXT,__fotsgure,regular,no_dead_strip
	.asciz	"fotsgure_aes 0.4.0, apple_x86_64/aes.s, sources SHA-256 f3fecc818c73814a93835f06896045f67fddc8c102490795e0e19679064b46a4"

.subsections_via_symbols
