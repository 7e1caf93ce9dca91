# Made by tools/dist from the proved crate aes_c; BUILD says from what. Don't edit it.
/* A Rust crate defines in_rust; for x86-64, a static library of both builds defines chosen, and choose_*.c calls these names. */
	.macro	export_aes_v3 name
	.ifdef	in_rust
	.globl	aes_v3.\name
	.def	aes_v3.\name; .scl	2; .type	32; .endef
	.else
	.globl	\name\()_v3
	.set	\name\()_v3, aes_v3.\name
	.def	\name\()_v3; .scl	2; .type	32; .endef
	.endif
	.endm
	.file	"rattle"
	.def	aes_v3.aes_permute.lane_keys.expand_lanes;
	.scl	3;
	.type	32;
	.endef
	.section	.rdata,"dr"
	.p2align	5, 0x0                          # -- Begin function aes_permute::lane_keys::expand_lanes
.Laes_v3_CPI0_0:
	.zero	16,15
.Laes_v3_CPI0_1:
	.byte	0                               # 0x0
	.byte	1                               # 0x1
	.byte	28                              # 0x1c
	.byte	29                              # 0x1d
	.byte	45                              # 0x2d
	.byte	44                              # 0x2c
	.byte	49                              # 0x31
	.byte	48                              # 0x30
	.byte	39                              # 0x27
	.byte	38                              # 0x26
	.byte	59                              # 0x3b
	.byte	58                              # 0x3a
	.byte	10                              # 0xa
	.byte	11                              # 0xb
	.byte	22                              # 0x16
	.byte	23                              # 0x17
.Laes_v3_CPI0_2:
	.byte	0                               # 0x0
	.byte	134                             # 0x86
	.byte	253                             # 0xfd
	.byte	123                             # 0x7b
	.byte	142                             # 0x8e
	.byte	8                               # 0x8
	.byte	115                             # 0x73
	.byte	245                             # 0xf5
	.byte	119                             # 0x77
	.byte	241                             # 0xf1
	.byte	138                             # 0x8a
	.byte	12                              # 0xc
	.byte	249                             # 0xf9
	.byte	127                             # 0x7f
	.byte	4                               # 0x4
	.byte	130                             # 0x82
.Laes_v3_CPI0_3:
	.byte	0                               # 0x0
	.byte	1                               # 0x1
	.byte	92                              # 0x5c
	.byte	93                              # 0x5d
	.byte	224                             # 0xe0
	.byte	225                             # 0xe1
	.byte	188                             # 0xbc
	.byte	189                             # 0xbd
	.byte	80                              # 0x50
	.byte	81                              # 0x51
	.byte	12                              # 0xc
	.byte	13                              # 0xd
	.byte	176                             # 0xb0
	.byte	177                             # 0xb1
	.byte	236                             # 0xec
	.byte	237                             # 0xed
.Laes_v3_CPI0_4:
	.byte	0                               # 0x0
	.byte	178                             # 0xb2
	.byte	181                             # 0xb5
	.byte	7                               # 0x7
	.byte	58                              # 0x3a
	.byte	136                             # 0x88
	.byte	143                             # 0x8f
	.byte	61                              # 0x3d
	.byte	172                             # 0xac
	.byte	30                              # 0x1e
	.byte	25                              # 0x19
	.byte	171                             # 0xab
	.byte	150                             # 0x96
	.byte	36                              # 0x24
	.byte	35                              # 0x23
	.byte	145                             # 0x91
.Laes_v3_CPI0_5:
	.byte	13                              # 0xd
	.byte	14                              # 0xe
	.byte	15                              # 0xf
	.byte	12                              # 0xc
	.byte	13                              # 0xd
	.byte	14                              # 0xe
	.byte	15                              # 0xf
	.byte	12                              # 0xc
	.byte	13                              # 0xd
	.byte	14                              # 0xe
	.byte	15                              # 0xf
	.byte	12                              # 0xc
	.byte	13                              # 0xd
	.byte	14                              # 0xe
	.byte	15                              # 0xf
	.byte	12                              # 0xc
.Laes_v3_CPI0_6:
	.byte	128                             # 0x80
	.byte	2                               # 0x2
	.byte	1                               # 0x1
	.byte	15                              # 0xf
	.byte	9                               # 0x9
	.byte	5                               # 0x5
	.byte	14                              # 0xe
	.byte	12                              # 0xc
	.byte	13                              # 0xd
	.byte	4                               # 0x4
	.byte	11                              # 0xb
	.byte	10                              # 0xa
	.byte	7                               # 0x7
	.byte	8                               # 0x8
	.byte	6                               # 0x6
	.byte	3                               # 0x3
.Laes_v3_CPI0_7:
	.byte	128                             # 0x80
	.byte	1                               # 0x1
	.byte	9                               # 0x9
	.byte	14                              # 0xe
	.byte	13                              # 0xd
	.byte	11                              # 0xb
	.byte	7                               # 0x7
	.byte	6                               # 0x6
	.byte	15                              # 0xf
	.byte	2                               # 0x2
	.byte	12                              # 0xc
	.byte	5                               # 0x5
	.byte	10                              # 0xa
	.byte	4                               # 0x4
	.byte	3                               # 0x3
	.byte	8                               # 0x8
.Laes_v3_CPI0_8:
	.byte	0                               # 0x0
	.byte	195                             # 0xc3
	.byte	79                              # 0x4f
	.byte	12                              # 0xc
	.byte	252                             # 0xfc
	.byte	124                             # 0x7c
	.byte	67                              # 0x43
	.byte	128                             # 0x80
	.byte	207                             # 0xcf
	.byte	51                              # 0x33
	.byte	63                              # 0x3f
	.byte	112                             # 0x70
	.byte	191                             # 0xbf
	.byte	179                             # 0xb3
	.byte	240                             # 0xf0
	.byte	140                             # 0x8c
.Laes_v3_CPI0_9:
	.byte	0                               # 0x0
	.byte	230                             # 0xe6
	.byte	114                             # 0x72
	.byte	183                             # 0xb7
	.byte	229                             # 0xe5
	.byte	198                             # 0xc6
	.byte	197                             # 0xc5
	.byte	35                              # 0x23
	.byte	81                              # 0x51
	.byte	180                             # 0xb4
	.byte	3                               # 0x3
	.byte	113                             # 0x71
	.byte	32                              # 0x20
	.byte	151                             # 0x97
	.byte	82                              # 0x52
	.byte	148                             # 0x94
.Laes_v3_CPI0_10:
	.zero	32,110
.Laes_v3_CPI0_11:
	.byte	224                             # 0xe0
	.byte	110                             # 0x6e
	.byte	110                             # 0x6e
	.byte	110                             # 0x6e
	.byte	110                             # 0x6e
	.byte	110                             # 0x6e
	.byte	110                             # 0x6e
	.byte	110                             # 0x6e
	.byte	110                             # 0x6e
	.byte	110                             # 0x6e
	.byte	110                             # 0x6e
	.byte	110                             # 0x6e
	.byte	110                             # 0x6e
	.byte	110                             # 0x6e
	.byte	110                             # 0x6e
	.byte	110                             # 0x6e
	.zero	16
.Laes_v3_CPI0_12:
	.byte	0                               # 0x0
	.byte	9                               # 0x9
	.byte	2                               # 0x2
	.byte	11                              # 0xb
	.byte	4                               # 0x4
	.byte	13                              # 0xd
	.byte	6                               # 0x6
	.byte	15                              # 0xf
	.byte	8                               # 0x8
	.byte	1                               # 0x1
	.byte	10                              # 0xa
	.byte	3                               # 0x3
	.byte	12                              # 0xc
	.byte	5                               # 0x5
	.byte	14                              # 0xe
	.byte	7                               # 0x7
	.byte	0                               # 0x0
	.byte	5                               # 0x5
	.byte	10                              # 0xa
	.byte	15                              # 0xf
	.byte	4                               # 0x4
	.byte	9                               # 0x9
	.byte	14                              # 0xe
	.byte	3                               # 0x3
	.byte	8                               # 0x8
	.byte	13                              # 0xd
	.byte	2                               # 0x2
	.byte	7                               # 0x7
	.byte	12                              # 0xc
	.byte	1                               # 0x1
	.byte	6                               # 0x6
	.byte	11                              # 0xb
.Laes_v3_CPI0_13:
	.byte	25                              # 0x19
	.byte	110                             # 0x6e
	.byte	110                             # 0x6e
	.byte	110                             # 0x6e
	.byte	110                             # 0x6e
	.byte	110                             # 0x6e
	.byte	110                             # 0x6e
	.byte	110                             # 0x6e
	.byte	110                             # 0x6e
	.byte	110                             # 0x6e
	.byte	110                             # 0x6e
	.byte	110                             # 0x6e
	.byte	110                             # 0x6e
	.byte	110                             # 0x6e
	.byte	110                             # 0x6e
	.byte	110                             # 0x6e
.Laes_v3_CPI0_14:
	.zero	16,99
.Laes_v3_CPI0_15:
	.zero	16,110
.Laes_v3_CPI0_16:
	.byte	36                              # 0x24
	.byte	110                             # 0x6e
	.byte	110                             # 0x6e
	.byte	110                             # 0x6e
	.byte	110                             # 0x6e
	.byte	110                             # 0x6e
	.byte	110                             # 0x6e
	.byte	110                             # 0x6e
	.byte	110                             # 0x6e
	.byte	110                             # 0x6e
	.byte	110                             # 0x6e
	.byte	110                             # 0x6e
	.byte	110                             # 0x6e
	.byte	110                             # 0x6e
	.byte	110                             # 0x6e
	.byte	110                             # 0x6e
.Laes_v3_CPI0_17:
	.byte	0                               # 0x0
	.byte	13                              # 0xd
	.byte	10                              # 0xa
	.byte	7                               # 0x7
	.byte	4                               # 0x4
	.byte	1                               # 0x1
	.byte	14                              # 0xe
	.byte	11                              # 0xb
	.byte	8                               # 0x8
	.byte	5                               # 0x5
	.byte	2                               # 0x2
	.byte	15                              # 0xf
	.byte	12                              # 0xc
	.byte	9                               # 0x9
	.byte	6                               # 0x6
	.byte	3                               # 0x3
.Laes_v3_CPI0_18:
	.zero	4,15
.Laes_v3_CPI0_19:
	.zero	4,110
.Laes_v3_CPI0_20:
	.byte	13                              # 0xd
	.byte	14                              # 0xe
	.byte	15                              # 0xf
	.byte	12                              # 0xc
	.text
	.p2align	4
aes_v3.aes_permute.lane_keys.expand_lanes: # @aes_v3.aes_permute.lane_keys.expand_lanes
.seh_proc aes_v3.aes_permute.lane_keys.expand_lanes
# %bb.0:                                # %start
	pushq	%rbx
	.seh_pushreg %rbx
	.seh_endprologue
	vmovdqu	(%rsi), %xmm1
	vpbroadcastd	.Laes_v3_CPI0_18(%rip), %xmm0  # xmm0 = [15,15,15,15,15,15,15,15,15,15,15,15,15,15,15,15]
	vpand	%xmm0, %xmm1, %xmm2
	vmovdqa	.Laes_v3_CPI0_1(%rip), %xmm3           # xmm3 = [0,1,28,29,45,44,49,48,39,38,59,58,10,11,22,23]
	vpshufb	%xmm2, %xmm3, %xmm4
	vpsrlw	$4, %xmm1, %xmm1
	vpand	%xmm0, %xmm1, %xmm1
	vmovdqa	.Laes_v3_CPI0_2(%rip), %xmm2           # xmm2 = [0,134,253,123,142,8,115,245,119,241,138,12,249,127,4,130]
	vpshufb	%xmm1, %xmm2, %xmm1
	vpxor	%xmm4, %xmm1, %xmm1
	cmpq	$24, %rdx
	je	.Laes_v3_BB0_5
# %bb.1:                                # %start
	cmpq	$16, %rdx
	jne	.Laes_v3_BB0_8
# %bb.2:                                # %then.1.i
	vpand	%xmm0, %xmm1, %xmm3
	vmovdqa	.Laes_v3_CPI0_3(%rip), %xmm2           # xmm2 = [0,1,92,93,224,225,188,189,80,81,12,13,176,177,236,237]
	vpshufb	%xmm3, %xmm2, %xmm4
	vpsrlw	$4, %xmm1, %xmm3
	vpand	%xmm0, %xmm3, %xmm5
	vmovdqa	.Laes_v3_CPI0_4(%rip), %xmm3           # xmm3 = [0,178,181,7,58,136,143,61,172,30,25,171,150,36,35,145]
	vpshufb	%xmm5, %xmm3, %xmm5
	vpxor	%xmm4, %xmm5, %xmm4
	vmovdqu	%xmm4, (%rdi)
	leaq	16(%rdi), %rax
	leaq	.Laes_v3_static.0(%rip), %rcx
	movl	$48, %edx
	.p2align	4
.Laes_v3_BB0_3:                                # %"aes_permute::lane_keys::stored_key.exit"
                                        # =>This Inner Loop Header: Depth=1
	movzbl	(%rcx), %esi
	vpshufb	.Laes_v3_CPI0_5(%rip), %xmm1, %xmm4    # xmm4 = xmm1[13,14,15,12,13,14,15,12,13,14,15,12,13,14,15,12]
	vpsrlw	$4, %xmm4, %xmm5
	vpand	%xmm0, %xmm5, %xmm6
	vpand	%xmm0, %xmm4, %xmm4
	vpxor	%xmm4, %xmm6, %xmm7
	vmovdqa	.Laes_v3_CPI0_6(%rip), %xmm5           # xmm5 = [128,2,1,15,9,5,14,12,13,4,11,10,7,8,6,3]
	vpshufb	%xmm4, %xmm5, %xmm8
	vmovdqa	.Laes_v3_CPI0_7(%rip), %xmm4           # xmm4 = [128,1,9,14,13,11,7,6,15,2,12,5,10,4,3,8]
	vpshufb	%xmm6, %xmm4, %xmm9
	vpshufb	%xmm7, %xmm4, %xmm10
	vpxor	%xmm8, %xmm9, %xmm9
	vpxor	%xmm8, %xmm10, %xmm8
	vpshufb	%xmm9, %xmm4, %xmm9
	vpshufb	%xmm8, %xmm4, %xmm8
	vpxor	%xmm7, %xmm9, %xmm9
	vpxor	%xmm6, %xmm8, %xmm8
	vmovdqa	.Laes_v3_CPI0_8(%rip), %xmm7           # xmm7 = [0,195,79,12,252,124,67,128,207,51,63,112,191,179,240,140]
	vpshufb	%xmm9, %xmm7, %xmm9
	vmovdqa	.Laes_v3_CPI0_9(%rip), %xmm6           # xmm6 = [0,230,114,183,229,198,197,35,81,180,3,113,32,151,82,148]
	vpshufb	%xmm8, %xmm6, %xmm8
	vpxor	%xmm8, %xmm9, %xmm8
	movl	%esi, %r8d
	andl	$15, %r8d
	leaq	.Laes_v3_static.1(%rip), %r9
	shrl	$4, %esi
	leaq	.Laes_v3_static.2(%rip), %r10
	movzbl	(%rsi,%r10), %esi
	xorb	(%r8,%r9), %sil
	movzbl	%sil, %esi
	vmovd	%esi, %xmm9
	vpxor	%xmm1, %xmm9, %xmm1
	vpslldq	$4, %xmm1, %xmm9                # xmm9 = zero,zero,zero,zero,xmm1[0,1,2,3,4,5,6,7,8,9,10,11]
	vpxor	%xmm1, %xmm9, %xmm1
	vpslldq	$8, %xmm1, %xmm9                # xmm9 = zero,zero,zero,zero,zero,zero,zero,zero,xmm1[0,1,2,3,4,5,6,7]
	vpxor	%xmm1, %xmm8, %xmm1
	vpxor	%xmm1, %xmm9, %xmm8
	vpbroadcastd	.Laes_v3_CPI0_19(%rip), %xmm9  # xmm9 = [110,110,110,110,110,110,110,110,110,110,110,110,110,110,110,110]
	vpxor	%xmm9, %xmm8, %xmm1
	movl	%edx, %esi
	andl	$48, %esi
	leaq	.Laes_v3_static.3(%rip), %r8
	vpshufb	(%rsi,%r8), %xmm1, %xmm10
	vpxor	%xmm9, %xmm10, %xmm9
	vmovdqu	%xmm9, (%rax)
	incq	%rcx
	addq	$48, %rdx
	addq	$16, %rax
	cmpq	$480, %rdx                      # imm = 0x1E0
	jne	.Laes_v3_BB0_3
# %bb.4:                                # %"aes_permute::lane_keys::stored_key.exit.peel"
	vpshufb	.Laes_v3_CPI0_5(%rip), %xmm1, %xmm1    # xmm1 = xmm1[13,14,15,12,13,14,15,12,13,14,15,12,13,14,15,12]
	vpsrlw	$4, %xmm1, %xmm9
	vpand	%xmm0, %xmm9, %xmm9
	vpshufb	%xmm9, %xmm4, %xmm10
	vpand	%xmm0, %xmm1, %xmm1
	vpshufb	%xmm1, %xmm5, %xmm5
	vpxor	%xmm5, %xmm10, %xmm10
	vpshufb	%xmm10, %xmm4, %xmm10
	vpxor	%xmm1, %xmm9, %xmm1
	vpxor	%xmm1, %xmm10, %xmm10
	vpshufb	%xmm10, %xmm7, %xmm7
	vpshufb	%xmm1, %xmm4, %xmm1
	vpxor	%xmm5, %xmm1, %xmm1
	vpshufb	%xmm1, %xmm4, %xmm1
	vpxor	%xmm1, %xmm9, %xmm1
	vpshufb	%xmm1, %xmm6, %xmm1
	vpxor	.Laes_v3_CPI0_16(%rip), %xmm8, %xmm4
	vpslldq	$4, %xmm4, %xmm5                # xmm5 = zero,zero,zero,zero,xmm4[0,1,2,3,4,5,6,7,8,9,10,11]
	vpxor	%xmm4, %xmm5, %xmm4
	vpslldq	$8, %xmm4, %xmm5                # xmm5 = zero,zero,zero,zero,zero,zero,zero,zero,xmm4[0,1,2,3,4,5,6,7]
	vpxor	%xmm5, %xmm7, %xmm5
	vpxor	%xmm1, %xmm5, %xmm1
	vpxor	%xmm4, %xmm1, %xmm1
	vpxor	.Laes_v3_CPI0_15(%rip), %xmm1, %xmm1
	vpand	%xmm0, %xmm1, %xmm4
	vpshufb	%xmm4, %xmm2, %xmm2
	vpsrlw	$4, %xmm1, %xmm1
	vpand	%xmm0, %xmm1, %xmm0
	vpshufb	%xmm0, %xmm3, %xmm0
	vpxor	%xmm0, %xmm2, %xmm0
	vpxor	.Laes_v3_CPI0_14(%rip), %xmm0, %xmm0
	vmovdqu	%xmm0, 160(%rdi)
	popq	%rbx
	retq
.Laes_v3_BB0_5:                                # %then.4.i
	vmovq	8(%rsi), %xmm4                  # xmm4 = mem[0],zero
	vmovq	16(%rsi), %xmm5                 # xmm5 = mem[0],zero
	vpunpcklqdq	%xmm5, %xmm4, %xmm4     # xmm4 = xmm4[0],xmm5[0]
	vpand	%xmm0, %xmm4, %xmm5
	vpshufb	%xmm5, %xmm3, %xmm3
	vpsrlw	$4, %xmm4, %xmm4
	vpand	%xmm0, %xmm4, %xmm4
	vpshufb	%xmm4, %xmm2, %xmm2
	vpxor	%xmm3, %xmm2, %xmm10
	vpand	%xmm0, %xmm1, %xmm3
	vmovdqa	.Laes_v3_CPI0_3(%rip), %xmm2           # xmm2 = [0,1,92,93,224,225,188,189,80,81,12,13,176,177,236,237]
	vpshufb	%xmm3, %xmm2, %xmm4
	vpsrlw	$4, %xmm1, %xmm3
	vpand	%xmm0, %xmm3, %xmm5
	vmovdqa	.Laes_v3_CPI0_4(%rip), %xmm3           # xmm3 = [0,178,181,7,58,136,143,61,172,30,25,171,150,36,35,145]
	vpshufb	%xmm5, %xmm3, %xmm5
	vpxor	%xmm4, %xmm5, %xmm4
	vmovdqu	%xmm4, (%rdi)
	leaq	48(%rdi), %rax
	movl	$48, %ecx
	leaq	.Laes_v3_static.0+1(%rip), %rdx
	xorl	%esi, %esi
	.p2align	4
.Laes_v3_BB0_6:                                # %join.5.i596
                                        # =>This Inner Loop Header: Depth=1
	movzbl	-1(%rdx), %r10d
	vpbroadcastd	.Laes_v3_CPI0_20(%rip), %xmm5  # xmm5 = [13,14,15,12,13,14,15,12,13,14,15,12,13,14,15,12]
	vpshufb	%xmm5, %xmm10, %xmm4
	vpsrlw	$4, %xmm4, %xmm6
	vpand	%xmm0, %xmm6, %xmm7
	vpand	%xmm0, %xmm4, %xmm4
	vpxor	%xmm4, %xmm7, %xmm8
	vmovdqa	.Laes_v3_CPI0_6(%rip), %xmm6           # xmm6 = [128,2,1,15,9,5,14,12,13,4,11,10,7,8,6,3]
	vpshufb	%xmm4, %xmm6, %xmm9
	vmovdqa	.Laes_v3_CPI0_7(%rip), %xmm4           # xmm4 = [128,1,9,14,13,11,7,6,15,2,12,5,10,4,3,8]
	vpshufb	%xmm7, %xmm4, %xmm11
	vpshufb	%xmm8, %xmm4, %xmm12
	vpxor	%xmm9, %xmm11, %xmm11
	vpxor	%xmm9, %xmm12, %xmm9
	vpshufb	%xmm11, %xmm4, %xmm11
	vpshufb	%xmm9, %xmm4, %xmm9
	vpxor	%xmm8, %xmm11, %xmm11
	vpxor	%xmm7, %xmm9, %xmm9
	vmovdqa	.Laes_v3_CPI0_8(%rip), %xmm8           # xmm8 = [0,195,79,12,252,124,67,128,207,51,63,112,191,179,240,140]
	vpshufb	%xmm11, %xmm8, %xmm11
	vmovdqa	.Laes_v3_CPI0_9(%rip), %xmm7           # xmm7 = [0,230,114,183,229,198,197,35,81,180,3,113,32,151,82,148]
	vpshufb	%xmm9, %xmm7, %xmm9
	vpxor	%xmm9, %xmm11, %xmm9
	movl	%r10d, %r11d
	andl	$15, %r11d
	leaq	.Laes_v3_static.1(%rip), %r8
	shrl	$4, %r10d
	leaq	.Laes_v3_static.2(%rip), %r9
	movzbl	(%r10,%r9), %r10d
	xorb	(%r11,%r8), %r10b
	movzbl	%r10b, %r10d
	vmovd	%r10d, %xmm11
	vpxor	%xmm1, %xmm11, %xmm1
	vpslldq	$4, %xmm1, %xmm11               # xmm11 = zero,zero,zero,zero,xmm1[0,1,2,3,4,5,6,7,8,9,10,11]
	vpxor	%xmm1, %xmm11, %xmm1
	vpslldq	$8, %xmm1, %xmm11               # xmm11 = zero,zero,zero,zero,zero,zero,zero,zero,xmm1[0,1,2,3,4,5,6,7]
	vpxor	%xmm1, %xmm9, %xmm1
	vpxor	%xmm1, %xmm11, %xmm1
	vpbroadcastd	.Laes_v3_CPI0_19(%rip), %ymm9  # ymm9 = [110,110,110,110,110,110,110,110,110,110,110,110,110,110,110,110,110,110,110,110,110,110,110,110,110,110,110,110,110,110,110,110]
	vpxor	%xmm1, %xmm9, %xmm1
	vpshufd	$85, %xmm1, %xmm11              # xmm11 = xmm1[1,1,1,1]
	vpslldq	$4, %xmm10, %xmm12              # xmm12 = zero,zero,zero,zero,xmm10[0,1,2,3,4,5,6,7,8,9,10,11]
	vpxor	%xmm10, %xmm12, %xmm12
	vpslldq	$8, %xmm12, %xmm13              # xmm13 = zero,zero,zero,zero,zero,zero,zero,zero,xmm12[0,1,2,3,4,5,6,7]
	vpxor	%xmm12, %xmm13, %xmm12
	vpalignr	$8, %xmm10, %xmm1, %xmm10       # xmm10 = xmm10[8,9,10,11,12,13,14,15],xmm1[0,1,2,3,4,5,6,7]
	movl	%ecx, %r11d
	andl	$48, %r11d
	leaq	.Laes_v3_static.3(%rip), %r10
	vpshufb	(%r11,%r10), %xmm10, %xmm13
	vpxor	%xmm11, %xmm12, %xmm10
	movq	%rsi, %r11
	xorq	$32, %r11
	vpshufb	(%r11,%r10), %xmm10, %xmm11
	vinserti128	$1, %xmm11, %ymm13, %ymm11
	vpxor	%ymm9, %ymm11, %ymm11
	vmovdqu	%ymm11, -32(%rax)
	movzbl	(%rdx), %r11d
	vpshufb	%xmm5, %xmm10, %xmm11
	vpsrlw	$4, %xmm11, %xmm12
	vpand	%xmm0, %xmm12, %xmm12
	vpand	%xmm0, %xmm11, %xmm11
	vpxor	%xmm11, %xmm12, %xmm13
	vpshufb	%xmm11, %xmm6, %xmm11
	vpshufb	%xmm12, %xmm4, %xmm14
	vpshufb	%xmm13, %xmm4, %xmm15
	vpxor	%xmm11, %xmm14, %xmm14
	vpxor	%xmm11, %xmm15, %xmm11
	vpshufb	%xmm14, %xmm4, %xmm14
	vpshufb	%xmm11, %xmm4, %xmm11
	vpxor	%xmm13, %xmm14, %xmm13
	vpxor	%xmm12, %xmm11, %xmm11
	vpshufb	%xmm13, %xmm8, %xmm12
	vpshufb	%xmm11, %xmm7, %xmm11
	movl	%r11d, %ebx
	andl	$15, %ebx
	shrl	$4, %r11d
	movzbl	(%r11,%r9), %r9d
	xorb	(%rbx,%r8), %r9b
	movzbl	%r9b, %r8d
	vmovd	%r8d, %xmm13
	vpxor	%xmm1, %xmm13, %xmm1
	vpslldq	$4, %xmm1, %xmm13               # xmm13 = zero,zero,zero,zero,xmm1[0,1,2,3,4,5,6,7,8,9,10,11]
	vpxor	%xmm1, %xmm13, %xmm1
	vpslldq	$8, %xmm1, %xmm13               # xmm13 = zero,zero,zero,zero,zero,zero,zero,zero,xmm1[0,1,2,3,4,5,6,7]
	vpxor	%xmm13, %xmm12, %xmm12
	vpxor	%xmm11, %xmm12, %xmm11
	vpxor	%xmm1, %xmm11, %xmm11
	vpxor	%xmm9, %xmm11, %xmm1
	vpshufd	$85, %xmm1, %xmm12              # xmm12 = xmm1[1,1,1,1]
	vpslldq	$4, %xmm10, %xmm13              # xmm13 = zero,zero,zero,zero,xmm10[0,1,2,3,4,5,6,7,8,9,10,11]
	vpxor	%xmm10, %xmm13, %xmm10
	vpslldq	$8, %xmm10, %xmm13              # xmm13 = zero,zero,zero,zero,zero,zero,zero,zero,xmm10[0,1,2,3,4,5,6,7]
	vpxor	%xmm10, %xmm13, %xmm10
	vpxor	%xmm12, %xmm10, %xmm10
	vpshufb	16(%rsi,%r10), %xmm1, %xmm12
	vpxor	%xmm9, %xmm12, %xmm12
	vmovdqu	%xmm12, (%rax)
	addq	$16, %rsi
	addq	$48, %rax
	addq	$144, %rcx
	addq	$2, %rdx
	cmpq	$48, %rsi
	jne	.Laes_v3_BB0_6
# %bb.7:                                # %join.5.i596.peel
	vpshufb	%xmm5, %xmm10, %xmm1
	vpsrlw	$4, %xmm1, %xmm12
	vpand	%xmm0, %xmm12, %xmm12
	vpand	%xmm0, %xmm1, %xmm1
	vpxor	%xmm1, %xmm12, %xmm13
	vpshufb	%xmm1, %xmm6, %xmm1
	vpshufb	%xmm12, %xmm4, %xmm14
	vpshufb	%xmm13, %xmm4, %xmm15
	vpxor	%xmm1, %xmm14, %xmm14
	vpxor	%xmm1, %xmm15, %xmm1
	vpshufb	%xmm14, %xmm4, %xmm14
	vpshufb	%xmm1, %xmm4, %xmm1
	vpxor	%xmm13, %xmm14, %xmm13
	vpxor	%xmm1, %xmm12, %xmm1
	vpshufb	%xmm13, %xmm8, %xmm12
	vpshufb	%xmm1, %xmm7, %xmm1
	vpxor	.Laes_v3_CPI0_11(%rip), %xmm11, %xmm11
	vpslldq	$4, %xmm11, %xmm13              # xmm13 = zero,zero,zero,zero,xmm11[0,1,2,3,4,5,6,7,8,9,10,11]
	vpxor	%xmm11, %xmm13, %xmm11
	vpslldq	$8, %xmm11, %xmm13              # xmm13 = zero,zero,zero,zero,zero,zero,zero,zero,xmm11[0,1,2,3,4,5,6,7]
	vpxor	%xmm13, %xmm12, %xmm12
	vpxor	%xmm1, %xmm12, %xmm1
	vpxor	%xmm1, %xmm11, %xmm1
	vpxor	%xmm1, %xmm9, %xmm11
	vpshufd	$85, %xmm11, %xmm12             # xmm12 = xmm11[1,1,1,1]
	vpslldq	$4, %xmm10, %xmm13              # xmm13 = zero,zero,zero,zero,xmm10[0,1,2,3,4,5,6,7,8,9,10,11]
	vpxor	%xmm10, %xmm13, %xmm13
	vpslldq	$8, %xmm13, %xmm14              # xmm14 = zero,zero,zero,zero,zero,zero,zero,zero,xmm13[0,1,2,3,4,5,6,7]
	vpxor	%xmm13, %xmm14, %xmm13
	vpxor	%xmm12, %xmm13, %xmm12
	vpalignr	$8, %xmm10, %xmm11, %xmm10      # xmm10 = xmm10[8,9,10,11,12,13,14,15],xmm11[0,1,2,3,4,5,6,7]
	vinserti128	$1, %xmm12, %ymm10, %ymm10
	vpshufb	.Laes_v3_CPI0_12(%rip), %ymm10, %ymm10 # ymm10 = ymm10[0,9,2,11,4,13,6,15,8,1,10,3,12,5,14,7,16,21,26,31,20,25,30,19,24,29,18,23,28,17,22,27]
	vpxor	%ymm9, %ymm10, %ymm10
	vmovdqu	%ymm10, 160(%rdi)
	vpshufb	%xmm5, %xmm12, %xmm5
	vpsrlw	$4, %xmm5, %xmm10
	vpand	%xmm0, %xmm10, %xmm10
	vpshufb	%xmm10, %xmm4, %xmm11
	vpand	%xmm0, %xmm5, %xmm5
	vpshufb	%xmm5, %xmm6, %xmm6
	vpxor	%xmm6, %xmm11, %xmm11
	vpshufb	%xmm11, %xmm4, %xmm11
	vpxor	%xmm5, %xmm10, %xmm5
	vpxor	%xmm5, %xmm11, %xmm11
	vpshufb	%xmm11, %xmm8, %xmm8
	vpshufb	%xmm5, %xmm4, %xmm5
	vpxor	%xmm6, %xmm5, %xmm5
	vpshufb	%xmm5, %xmm4, %xmm4
	vpxor	%xmm4, %xmm10, %xmm4
	vpshufb	%xmm4, %xmm7, %xmm4
	vpxor	.Laes_v3_CPI0_13(%rip), %xmm1, %xmm1
	vpslldq	$4, %xmm1, %xmm5                # xmm5 = zero,zero,zero,zero,xmm1[0,1,2,3,4,5,6,7,8,9,10,11]
	vpxor	%xmm1, %xmm5, %xmm1
	vpslldq	$8, %xmm1, %xmm5                # xmm5 = zero,zero,zero,zero,zero,zero,zero,zero,xmm1[0,1,2,3,4,5,6,7]
	vpxor	%xmm5, %xmm8, %xmm5
	vpxor	%xmm4, %xmm5, %xmm4
	vpxor	%xmm1, %xmm9, %xmm1
	vpxor	%xmm1, %xmm4, %xmm1
	vpand	%xmm0, %xmm1, %xmm4
	vpshufb	%xmm4, %xmm2, %xmm2
	vpsrlw	$4, %xmm1, %xmm1
	vpand	%xmm0, %xmm1, %xmm0
	vpshufb	%xmm0, %xmm3, %xmm0
	vpxor	%xmm0, %xmm2, %xmm0
	vpxor	.Laes_v3_CPI0_14(%rip), %xmm0, %xmm0
	vmovdqu	%xmm0, 192(%rdi)
	popq	%rbx
	vzeroupper
	retq
.Laes_v3_BB0_8:                                # %else.5.i
	vmovdqu	16(%rsi), %xmm4
	vpand	%xmm0, %xmm4, %xmm5
	vpshufb	%xmm5, %xmm3, %xmm3
	vpsrlw	$4, %xmm4, %xmm4
	vpand	%xmm0, %xmm4, %xmm4
	vpshufb	%xmm4, %xmm2, %xmm2
	vpxor	%xmm3, %xmm2, %xmm4
	vpand	%xmm0, %xmm1, %xmm3
	vmovdqa	.Laes_v3_CPI0_3(%rip), %xmm2           # xmm2 = [0,1,92,93,224,225,188,189,80,81,12,13,176,177,236,237]
	vpshufb	%xmm3, %xmm2, %xmm5
	vpsrlw	$4, %xmm1, %xmm3
	vpand	%xmm0, %xmm3, %xmm6
	vmovdqa	.Laes_v3_CPI0_4(%rip), %xmm3           # xmm3 = [0,178,181,7,58,136,143,61,172,30,25,171,150,36,35,145]
	vpshufb	%xmm6, %xmm3, %xmm6
	vpxor	%xmm5, %xmm6, %xmm5
	vpshufb	.Laes_v3_CPI0_17(%rip), %xmm4, %xmm6   # xmm6 = xmm4[0,13,10,7,4,1,14,11,8,5,2,15,12,9,6,3]
	vpxor	.Laes_v3_CPI0_15(%rip), %xmm6, %xmm6
	vmovdqu	%xmm5, (%rdi)
	vmovdqu	%xmm6, 16(%rdi)
	leaq	.Laes_v3_static.0(%rip), %rax
	movl	$96, %ecx
	xorl	%edx, %edx
	.p2align	4
.Laes_v3_BB0_9:                                # %join.5.i643
                                        # =>This Inner Loop Header: Depth=1
	vpshufb	.Laes_v3_CPI0_5(%rip), %xmm4, %xmm5    # xmm5 = xmm4[13,14,15,12,13,14,15,12,13,14,15,12,13,14,15,12]
	movzbl	(%rax), %esi
	vpsrlw	$4, %xmm5, %xmm6
	vpand	%xmm0, %xmm6, %xmm7
	vpand	%xmm0, %xmm5, %xmm5
	vpxor	%xmm5, %xmm7, %xmm8
	vmovdqa	.Laes_v3_CPI0_6(%rip), %xmm6           # xmm6 = [128,2,1,15,9,5,14,12,13,4,11,10,7,8,6,3]
	vpshufb	%xmm5, %xmm6, %xmm9
	vmovdqa	.Laes_v3_CPI0_7(%rip), %xmm5           # xmm5 = [128,1,9,14,13,11,7,6,15,2,12,5,10,4,3,8]
	vpshufb	%xmm7, %xmm5, %xmm10
	vpshufb	%xmm8, %xmm5, %xmm11
	vpxor	%xmm9, %xmm10, %xmm10
	vpxor	%xmm9, %xmm11, %xmm9
	vpshufb	%xmm10, %xmm5, %xmm10
	vpshufb	%xmm9, %xmm5, %xmm9
	vpxor	%xmm8, %xmm10, %xmm8
	vpxor	%xmm7, %xmm9, %xmm9
	vmovdqa	.Laes_v3_CPI0_8(%rip), %xmm7           # xmm7 = [0,195,79,12,252,124,67,128,207,51,63,112,191,179,240,140]
	vpshufb	%xmm8, %xmm7, %xmm10
	vmovdqa	.Laes_v3_CPI0_9(%rip), %xmm8           # xmm8 = [0,230,114,183,229,198,197,35,81,180,3,113,32,151,82,148]
	vpshufb	%xmm9, %xmm8, %xmm9
	vpxor	%xmm10, %xmm9, %xmm9
	movl	%esi, %r8d
	andl	$15, %r8d
	leaq	.Laes_v3_static.1(%rip), %r9
	shrl	$4, %esi
	leaq	.Laes_v3_static.2(%rip), %r10
	movzbl	(%rsi,%r10), %esi
	xorb	(%r8,%r9), %sil
	movzbl	%sil, %esi
	vmovd	%esi, %xmm10
	vpxor	%xmm1, %xmm10, %xmm1
	vpslldq	$4, %xmm1, %xmm10               # xmm10 = zero,zero,zero,zero,xmm1[0,1,2,3,4,5,6,7,8,9,10,11]
	vpxor	%xmm1, %xmm10, %xmm1
	vpslldq	$8, %xmm1, %xmm10               # xmm10 = zero,zero,zero,zero,zero,zero,zero,zero,xmm1[0,1,2,3,4,5,6,7]
	vpxor	%xmm1, %xmm9, %xmm1
	vpxor	%xmm1, %xmm10, %xmm9
	vpbroadcastd	.Laes_v3_CPI0_19(%rip), %ymm10 # ymm10 = [110,110,110,110,110,110,110,110,110,110,110,110,110,110,110,110,110,110,110,110,110,110,110,110,110,110,110,110,110,110,110,110]
	vpxor	%xmm10, %xmm9, %xmm1
	movl	%ecx, %esi
	andl	$32, %esi
	leaq	.Laes_v3_static.3(%rip), %r8
	vpshufb	(%rsi,%r8), %xmm1, %xmm11
	vpshufd	$255, %xmm1, %xmm12             # xmm12 = xmm1[3,3,3,3]
	vpsrlw	$4, %xmm12, %xmm13
	vpand	%xmm0, %xmm13, %xmm13
	vpand	%xmm0, %xmm12, %xmm12
	vpxor	%xmm12, %xmm13, %xmm14
	vpshufb	%xmm12, %xmm6, %xmm12
	vpshufb	%xmm13, %xmm5, %xmm15
	vpshufb	%xmm14, %xmm5, %xmm2
	vpxor	%xmm12, %xmm15, %xmm15
	vpxor	%xmm2, %xmm12, %xmm2
	vpshufb	%xmm15, %xmm5, %xmm12
	vpshufb	%xmm2, %xmm5, %xmm2
	vpxor	%xmm14, %xmm12, %xmm12
	vpxor	%xmm2, %xmm13, %xmm2
	vpshufb	%xmm12, %xmm7, %xmm12
	vpshufb	%xmm2, %xmm8, %xmm2
	vpslldq	$4, %xmm4, %xmm13               # xmm13 = zero,zero,zero,zero,xmm4[0,1,2,3,4,5,6,7,8,9,10,11]
	vpxor	%xmm4, %xmm13, %xmm4
	vpslldq	$8, %xmm4, %xmm13               # xmm13 = zero,zero,zero,zero,zero,zero,zero,zero,xmm4[0,1,2,3,4,5,6,7]
	vpxor	%xmm12, %xmm13, %xmm12
	vpxor	%xmm2, %xmm12, %xmm2
	vpxor	%xmm4, %xmm10, %xmm4
	vpxor	%xmm4, %xmm2, %xmm4
	movl	%edx, %esi
	andl	$32, %esi
	vpshufb	16(%rsi,%r8), %xmm4, %xmm2
	vinserti128	$1, %xmm2, %ymm11, %ymm2
	vpxor	%ymm2, %ymm10, %ymm2
	vmovdqu	%ymm2, 32(%rdi,%rdx)
	addq	$32, %rdx
	incq	%rax
	addq	$96, %rcx
	cmpq	$192, %rdx
	jne	.Laes_v3_BB0_9
# %bb.10:                               # %"aes_planes::expansion::expand_256::<#05c2c6c54e82e59f>.exit"
	vpshufb	.Laes_v3_CPI0_5(%rip), %xmm4, %xmm1    # xmm1 = xmm4[13,14,15,12,13,14,15,12,13,14,15,12,13,14,15,12]
	vpsrlw	$4, %xmm1, %xmm2
	vpand	%xmm0, %xmm2, %xmm2
	vpand	%xmm0, %xmm1, %xmm1
	vpxor	%xmm1, %xmm2, %xmm4
	vpshufb	%xmm1, %xmm6, %xmm1
	vpshufb	%xmm2, %xmm5, %xmm6
	vpshufb	%xmm4, %xmm5, %xmm10
	vpxor	%xmm1, %xmm6, %xmm6
	vpxor	%xmm1, %xmm10, %xmm1
	vpshufb	%xmm6, %xmm5, %xmm6
	vpshufb	%xmm1, %xmm5, %xmm1
	vpxor	%xmm4, %xmm6, %xmm4
	vpxor	%xmm2, %xmm1, %xmm1
	vpshufb	%xmm4, %xmm7, %xmm2
	vpshufb	%xmm1, %xmm8, %xmm1
	vpxor	.Laes_v3_CPI0_11(%rip), %xmm9, %xmm4
	vpslldq	$4, %xmm4, %xmm5                # xmm5 = zero,zero,zero,zero,xmm4[0,1,2,3,4,5,6,7,8,9,10,11]
	vpxor	%xmm4, %xmm5, %xmm4
	vpslldq	$8, %xmm4, %xmm5                # xmm5 = zero,zero,zero,zero,zero,zero,zero,zero,xmm4[0,1,2,3,4,5,6,7]
	vpxor	%xmm2, %xmm5, %xmm2
	vpxor	%xmm1, %xmm2, %xmm1
	vpxor	%xmm4, %xmm1, %xmm1
	vpxor	.Laes_v3_CPI0_15(%rip), %xmm1, %xmm1
	vpand	%xmm0, %xmm1, %xmm2
	vmovdqa	.Laes_v3_CPI0_3(%rip), %xmm4           # xmm4 = [0,1,92,93,224,225,188,189,80,81,12,13,176,177,236,237]
	vpshufb	%xmm2, %xmm4, %xmm2
	vpsrlw	$4, %xmm1, %xmm1
	vpand	%xmm0, %xmm1, %xmm0
	vpshufb	%xmm0, %xmm3, %xmm0
	vpxor	%xmm0, %xmm2, %xmm0
	vpxor	.Laes_v3_CPI0_14(%rip), %xmm0, %xmm0
	vmovdqu	%xmm0, 224(%rdi)
	popq	%rbx
	vzeroupper
	retq
	.seh_endproc
                                        # -- End function
	.def	aes_v3.aes_ctr.add_in_batches.add_keystream;
	.scl	3;
	.type	32;
	.endef
	.section	.rdata,"dr"
	.p2align	5, 0x0                          # -- Begin function aes_ctr::add_in_batches::add_keystream::<#cd78163963378b36>
.Laes_v3_CPI1_0:
	.byte	15                              # 0xf
	.byte	14                              # 0xe
	.byte	13                              # 0xd
	.byte	12                              # 0xc
	.byte	11                              # 0xb
	.byte	10                              # 0xa
	.byte	9                               # 0x9
	.byte	8                               # 0x8
	.byte	7                               # 0x7
	.byte	6                               # 0x6
	.byte	5                               # 0x5
	.byte	4                               # 0x4
	.byte	3                               # 0x3
	.byte	2                               # 0x2
	.byte	1                               # 0x1
	.byte	0                               # 0x0
	.zero	16
.Laes_v3_CPI1_1:
	.byte	15                              # 0xf
	.byte	14                              # 0xe
	.byte	13                              # 0xd
	.byte	12                              # 0xc
	.byte	11                              # 0xb
	.byte	10                              # 0xa
	.byte	9                               # 0x9
	.byte	8                               # 0x8
	.byte	7                               # 0x7
	.byte	6                               # 0x6
	.byte	5                               # 0x5
	.byte	4                               # 0x4
	.byte	3                               # 0x3
	.byte	2                               # 0x2
	.byte	1                               # 0x1
	.byte	0                               # 0x0
	.byte	15                              # 0xf
	.byte	14                              # 0xe
	.byte	13                              # 0xd
	.byte	12                              # 0xc
	.byte	11                              # 0xb
	.byte	10                              # 0xa
	.byte	9                               # 0x9
	.byte	8                               # 0x8
	.byte	7                               # 0x7
	.byte	6                               # 0x6
	.byte	5                               # 0x5
	.byte	4                               # 0x4
	.byte	3                               # 0x3
	.byte	2                               # 0x2
	.byte	1                               # 0x1
	.byte	0                               # 0x0
	.text
	.p2align	4
aes_v3.aes_ctr.add_in_batches.add_keystream: # @aes_v3.aes_ctr.add_in_batches.add_keystream
.seh_proc aes_v3.aes_ctr.add_in_batches.add_keystream
# %bb.0:                                # %start
	pushq	%rbp
	.seh_pushreg %rbp
	pushq	%r15
	.seh_pushreg %r15
	pushq	%r14
	.seh_pushreg %r14
	pushq	%r13
	.seh_pushreg %r13
	pushq	%r12
	.seh_pushreg %r12
	pushq	%rbx
	.seh_pushreg %rbx
	subq	$344, %rsp                      # imm = 0x158
	.seh_stackalloc 344
	.seh_endprologue
	movq	%r8, %r14
	movq	%rcx, %rbx
	movq	%rdx, %r15
	movq	%rdi, %r12
	vmovdqu	(%rsi), %xmm0
	vmovdqa	%xmm0, (%rsp)
	movl	%r15d, %r13d
	andl	$15, %r13d
	movl	$16, %eax
	subq	%r13, %rax
	cmpq	%rax, %r8
	jbe	.Laes_v3_BB1_1
# %bb.21:                               # %else.2.i
	leaq	(%r14,%r13), %rax
	movq	%rax, %rcx
	shrq	$4, %rcx
	andl	$15, %eax
	cmpq	$1, %rax
	sbbq	$-1, %rcx
	movq	%rsp, %rax
	movq	%rax, 48(%rsp)
	movq	%r15, 56(%rsp)
	movq	%rbx, 64(%rsp)
	movq	%r14, 72(%rsp)
	cmpq	$29, %rcx
	jb	.Laes_v3_BB1_23
# %bb.22:                               # %then.1.i.i
	movq	(%r12), %rdi
	movq	8(%r12), %rcx
	leaq	48(%rsp), %r8
	movq	%rcx, %rsi
	movq	%rdi, %rdx
	callq	aes_v3.aes_hybrid.closures.lend_planes.1
	jmp	.Laes_v3_BB1_31
.Laes_v3_BB1_1:                                # %then.1.i
	movq	16(%r12), %rdi
	movbeq	(%rsp), %rax
	movbeq	8(%rsp), %rcx
	shrq	$4, %r15
	addq	%rcx, %r15
	adcq	$0, %rax
	movq	24(%r12), %rsi
	vmovq	%r15, %xmm0
	vmovq	%rax, %xmm1
	vpunpcklqdq	%xmm1, %xmm0, %xmm0     # xmm0 = xmm0[0],xmm1[0]
	vpshufb	.Laes_v3_CPI1_0(%rip), %xmm0, %xmm0    # xmm0 = xmm0[15,14,13,12,11,10,9,8,7,6,5,4,3,2,1,0]
	vmovdqa	%xmm0, 80(%rsp)
	leaq	80(%rsp), %r15
	movl	$1, %ecx
	movq	%r15, %rdx
	callq	aes_v3.aes_permute.blocks.process_on_lanes.1
	xorl	%ecx, %ecx
	testq	%r13, %r13
	je	.Laes_v3_BB1_11
# %bb.2:                                # %then.1.i
	testq	%r14, %r14
	je	.Laes_v3_BB1_11
# %bb.3:                                # %join.8.i68.lr.ph.i.i
	leaq	-1(%r14), %rcx
	movl	%r14d, %eax
	andl	$7, %eax
	cmpq	$7, %rcx
	jae	.Laes_v3_BB1_5
# %bb.4:
	xorl	%edx, %edx
	jmp	.Laes_v3_BB1_8
.Laes_v3_BB1_23:                               # %else.2.i.i
	testq	%r13, %r13
	je	.Laes_v3_BB1_24
# %bb.25:                               # %then.1.i.i11.i
	movq	%rsp, %rsi
	movq	%r12, %rdi
	movq	%r15, %rdx
	xorl	%ecx, %ecx
	movq	%rbx, %r8
	movq	%r14, %r9
	callq	aes_v3.aes_ctr.add_in_batches.add_next.2
	movq	%rax, %r13
	jmp	.Laes_v3_BB1_26
.Laes_v3_BB1_5:                                # %join.8.i68.lr.ph.i.i.new
	movq	%r14, %rcx
	andq	$-8, %rcx
	leaq	(%r15,%r13), %rsi
	addq	$7, %rsi
	xorl	%edx, %edx
	.p2align	4
.Laes_v3_BB1_6:                                # %join.8.i68.i.i
                                        # =>This Inner Loop Header: Depth=1
	movzbl	-7(%rsi,%rdx), %edi
	xorb	%dil, (%rbx,%rdx)
	movzbl	-6(%rsi,%rdx), %edi
	xorb	%dil, 1(%rbx,%rdx)
	movzbl	-5(%rsi,%rdx), %edi
	xorb	%dil, 2(%rbx,%rdx)
	movzbl	-4(%rsi,%rdx), %edi
	xorb	%dil, 3(%rbx,%rdx)
	movzbl	-3(%rsi,%rdx), %edi
	xorb	%dil, 4(%rbx,%rdx)
	movzbl	-2(%rsi,%rdx), %edi
	xorb	%dil, 5(%rbx,%rdx)
	movzbl	-1(%rsi,%rdx), %edi
	xorb	%dil, 6(%rbx,%rdx)
	movzbl	(%rsi,%rdx), %edi
	xorb	%dil, 7(%rbx,%rdx)
	addq	$8, %rdx
	cmpq	%rdx, %rcx
	jne	.Laes_v3_BB1_6
# %bb.7:                                # %join.3.i.i.i.loopexit.unr-lcssa
	movq	%r14, %rcx
	testq	%rax, %rax
	je	.Laes_v3_BB1_11
.Laes_v3_BB1_8:                                # %join.8.i68.i.i.epil.preheader
	leaq	(%rbx,%rdx), %rcx
	addq	%r13, %rdx
	addq	%rsp, %rdx
	addq	$80, %rdx
	xorl	%esi, %esi
	.p2align	4
.Laes_v3_BB1_9:                                # %join.8.i68.i.i.epil
                                        # =>This Inner Loop Header: Depth=1
	movzbl	(%rdx,%rsi), %edi
	xorb	%dil, (%rcx,%rsi)
	incq	%rsi
	cmpq	%rsi, %rax
	jne	.Laes_v3_BB1_9
# %bb.10:
	movq	%r14, %rcx
.Laes_v3_BB1_11:                               # %join.3.i.i.i
	movq	%r14, %rax
	subq	%rcx, %rax
	cmpq	$16, %rax
	jb	.Laes_v3_BB1_13
	.p2align	4
.Laes_v3_BB1_12:                               # %join.8.i.i.i
                                        # =>This Inner Loop Header: Depth=1
	leaq	(%rcx,%r13), %rdx
	andq	$-16, %rdx
	vmovdqa	80(%rsp,%rdx), %xmm0
	vpxor	(%rbx,%rcx), %xmm0, %xmm0
	vmovdqu	%xmm0, (%rbx,%rcx)
	addq	$16, %rcx
	addq	$-16, %rax
	cmpq	$15, %rax
	ja	.Laes_v3_BB1_12
.Laes_v3_BB1_13:                               # %after.4.i.i.i
	cmpq	%r14, %rcx
	jae	.Laes_v3_BB1_31
# %bb.14:                               # %then.9.i.i.i
	testq	%rax, %rax
	je	.Laes_v3_BB1_31
# %bb.15:                               # %iter.check
	addq	%rcx, %r13
	andq	$-16, %r13
	leaq	(%rsp,%r13), %rdx
	addq	$80, %rdx
	addq	%rcx, %rbx
	cmpq	$8, %rax
	jae	.Laes_v3_BB1_17
# %bb.16:
	xorl	%ecx, %ecx
	jmp	.Laes_v3_BB1_20
.Laes_v3_BB1_24:
	xorl	%r13d, %r13d
.Laes_v3_BB1_26:                               # %join.3.i.i12.i
	movq	%r14, 24(%rsp)                  # 8-byte Spill
	movq	%r14, %rbp
	subq	%r13, %rbp
	cmpq	$64, %rbp
	jb	.Laes_v3_BB1_29
# %bb.27:                               # %join.11.lr.ph.i.i.i
	leaq	144(%rsp), %r14
	movbeq	(%rsp), %rax
	movq	%rax, 40(%rsp)                  # 8-byte Spill
	movbeq	8(%rsp), %rax
	movq	%rax, 32(%rsp)                  # 8-byte Spill
	.p2align	4
.Laes_v3_BB1_28:                               # %join.11.i.i.i
                                        # =>This Inner Loop Header: Depth=1
	leaq	(%r15,%r13), %rax
	vpxor	%xmm0, %xmm0, %xmm0
	vmovdqu	%ymm0, 160(%r14)
	vmovdqu	%ymm0, 128(%r14)
	vmovdqu	%ymm0, 96(%r14)
	vmovdqu	%ymm0, 64(%r14)
	vmovdqu	%ymm0, 32(%r14)
	shrq	$4, %rax
	vmovdqu	%ymm0, (%r14)
	addq	32(%rsp), %rax                  # 8-byte Folded Reload
	movq	40(%rsp), %rcx                  # 8-byte Reload
	adcq	$0, %rcx
	vmovq	%rax, %xmm0
	vmovq	%rcx, %xmm1
	vpunpcklqdq	%xmm1, %xmm0, %xmm0     # xmm0 = xmm0[0],xmm1[0]
	movq	%rax, %rdx
	addq	$1, %rdx
	movq	%rcx, %rsi
	adcq	$0, %rsi
	vmovq	%rsi, %xmm1
	vmovq	%rdx, %xmm2
	vpunpcklqdq	%xmm1, %xmm2, %xmm1     # xmm1 = xmm2[0],xmm1[0]
	vinserti128	$1, %xmm1, %ymm0, %ymm0
	vbroadcasti128	.Laes_v3_CPI1_0(%rip), %ymm1   # ymm1 = [15,14,13,12,11,10,9,8,7,6,5,4,3,2,1,0,15,14,13,12,11,10,9,8,7,6,5,4,3,2,1,0]
                                        # ymm1 = mem[0,1,0,1]
	vpshufb	%ymm1, %ymm0, %ymm0
	vmovdqu	%ymm0, 80(%rsp)
	movq	%rax, %rdx
	addq	$2, %rdx
	movq	%rcx, %rsi
	adcq	$0, %rsi
	vmovq	%rsi, %xmm0
	vmovq	%rdx, %xmm2
	vpunpcklqdq	%xmm0, %xmm2, %xmm0     # xmm0 = xmm2[0],xmm0[0]
	addq	$3, %rax
	adcq	$0, %rcx
	vmovq	%rcx, %xmm2
	vmovq	%rax, %xmm3
	vpunpcklqdq	%xmm2, %xmm3, %xmm2     # xmm2 = xmm3[0],xmm2[0]
	vinserti128	$1, %xmm2, %ymm0, %ymm0
	vpshufb	%ymm1, %ymm0, %ymm0
	vmovdqu	%ymm0, 112(%rsp)
	movq	16(%r12), %rdi
	movq	24(%r12), %rsi
	leaq	80(%rsp), %rdx
	movl	$4, %ecx
	vzeroupper
	callq	aes_v3.aes_permute.blocks.process_on_lanes.1
	vmovaps	80(%rsp), %xmm0
	vxorps	(%rbx,%r13), %xmm0, %xmm0
	vmovups	%xmm0, (%rbx,%r13)
	vmovaps	96(%rsp), %xmm0
	vxorps	16(%rbx,%r13), %xmm0, %xmm0
	vmovups	%xmm0, 16(%rbx,%r13)
	vmovaps	112(%rsp), %xmm0
	vxorps	32(%rbx,%r13), %xmm0, %xmm0
	vmovups	%xmm0, 32(%rbx,%r13)
	vmovdqa	128(%rsp), %xmm0
	vpxor	48(%rbx,%r13), %xmm0, %xmm0
	vmovdqu	%xmm0, 48(%rbx,%r13)
	addq	$64, %r13
	addq	$-64, %rbp
	cmpq	$63, %rbp
	ja	.Laes_v3_BB1_28
.Laes_v3_BB1_29:                               # %loop.13.preheader.i.i.i
	movq	24(%rsp), %r14                  # 8-byte Reload
	cmpq	%r14, %r13
	jae	.Laes_v3_BB1_31
	.p2align	4
.Laes_v3_BB1_30:                               # %join.16.i.i.i
                                        # =>This Inner Loop Header: Depth=1
	movq	%rsp, %rsi
	movq	%r12, %rdi
	movq	%r15, %rdx
	movq	%r13, %rcx
	movq	%rbx, %r8
	movq	%r14, %r9
	callq	aes_v3.aes_ctr.add_in_batches.add_next.2
	movq	%rax, %r13
	cmpq	%r14, %rax
	jb	.Laes_v3_BB1_30
	jmp	.Laes_v3_BB1_31
.Laes_v3_BB1_17:                               # %vec.epilog.ph
	movl	%eax, %ecx
	andl	$8, %ecx
	xorl	%esi, %esi
	.p2align	4
.Laes_v3_BB1_18:                               # %vec.epilog.vector.body
                                        # =>This Inner Loop Header: Depth=1
	movq	(%rdx,%rsi), %rdi
	xorq	%rdi, (%rbx,%rsi)
	addq	$8, %rsi
	cmpq	%rsi, %rcx
	jne	.Laes_v3_BB1_18
.Laes_v3_BB1_19:                               # %vec.epilog.middle.block
	cmpq	%rcx, %rax
	je	.Laes_v3_BB1_31
.Laes_v3_BB1_20:                               # %join.8.i11.i.i
	movzbl	(%rdx,%rcx), %esi
	xorb	%sil, (%rbx,%rcx)
	incq	%rcx
	jmp	.Laes_v3_BB1_19
.Laes_v3_BB1_31:                               # %"aes_ctr::add_in_batches::add_stream::<#35be6a32cc9a975a>.exit"
	addq	$344, %rsp                      # imm = 0x158
	popq	%rbx
	popq	%r12
	popq	%r13
	popq	%r14
	popq	%r15
	popq	%rbp
	retq
	.seh_endproc
                                        # -- End function
	.def	aes_v3.aes_hybrid.batches.process_on_planes.1;
	.scl	3;
	.type	32;
	.endef
	.p2align	4                               # -- Begin function aes_hybrid::batches::process_on_planes::<#90ca489510abb174>
aes_v3.aes_hybrid.batches.process_on_planes.1: # @aes_v3.aes_hybrid.batches.process_on_planes.1
.seh_proc aes_v3.aes_hybrid.batches.process_on_planes.1
# %bb.0:                                # %start
	pushq	%rbp
	.seh_pushreg %rbp
	pushq	%r15
	.seh_pushreg %r15
	pushq	%r14
	.seh_pushreg %r14
	pushq	%r13
	.seh_pushreg %r13
	pushq	%r12
	.seh_pushreg %r12
	pushq	%rbx
	.seh_pushreg %rbx
	movl	$3880, %eax                     # imm = 0xF28
	callq	___chkstk_ms
	subq	%rax, %rsp
	.seh_stackalloc 3880
	leaq	128(%rsp), %rbp
	.seh_setframe %rbp, 128
	.seh_endprologue
	andq	$-32, %rsp
	movq	%rcx, %rbx
	movq	%rdx, %r14
	movq	%rsi, %r15
	movq	%rdi, %rsi
	leaq	288(%rsp), %rcx
	movl	$3584, %r8d                     # imm = 0xE00
	xorl	%edx, %edx
	callq	memset
	leaq	(,%r15,8), %r12
	leaq	32(%rsp), %r13
	movq	%r13, %rdi
	movq	%r15, %rdx
	callq	aes_v3.aes_hybrid.plane_keys.store_planes
	movq	%r13, %rdi
	movq	%r12, %rsi
	movq	%r14, %rdx
	movq	%rbx, %rcx
	callq	aes_v3.aes_hybrid.batches.process_batches_and_rest.1
	movq	%r13, %rdi
	callq	aes_v3.aes_cipher.zeroize.zeroize_words
	callq	aes_v3.aes_cipher.zeroize.stack.wipe_stack.1792
	nop
	leaq	3752(%rbp), %rsp
	popq	%rbx
	popq	%r12
	popq	%r13
	popq	%r14
	popq	%r15
	popq	%rbp
	retq
	.seh_endproc
                                        # -- End function
	.def	aes_v3.aes_hybrid.plane_keys.store_planes;
	.scl	3;
	.type	32;
	.endef
	.section	.rdata,"dr"
	.p2align	4, 0x0                          # -- Begin function aes_hybrid::plane_keys::store_planes::<#b48699b36d993911>
.Laes_v3_CPI3_0:
	.byte	0                               # 0x0
	.byte	4                               # 0x4
	.byte	8                               # 0x8
	.byte	12                              # 0xc
	.byte	1                               # 0x1
	.byte	5                               # 0x5
	.byte	9                               # 0x9
	.byte	13                              # 0xd
	.byte	2                               # 0x2
	.byte	6                               # 0x6
	.byte	10                              # 0xa
	.byte	14                              # 0xe
	.byte	3                               # 0x3
	.byte	7                               # 0x7
	.byte	11                              # 0xb
	.byte	15                              # 0xf
.Laes_v3_CPI3_1:
	.zero	16,1
.Laes_v3_CPI3_2:
	.zero	16,192
.Laes_v3_CPI3_3:
	.zero	16,224
.Laes_v3_CPI3_4:
	.zero	16,240
.Laes_v3_CPI3_5:
	.zero	16,248
.Laes_v3_CPI3_6:
	.zero	16,252
.Laes_v3_CPI3_7:
	.zero	16,15
.Laes_v3_CPI3_8:
	.byte	0                               # 0x0
	.byte	1                               # 0x1
	.byte	92                              # 0x5c
	.byte	93                              # 0x5d
	.byte	224                             # 0xe0
	.byte	225                             # 0xe1
	.byte	188                             # 0xbc
	.byte	189                             # 0xbd
	.byte	80                              # 0x50
	.byte	81                              # 0x51
	.byte	12                              # 0xc
	.byte	13                              # 0xd
	.byte	176                             # 0xb0
	.byte	177                             # 0xb1
	.byte	236                             # 0xec
	.byte	237                             # 0xed
.Laes_v3_CPI3_9:
	.byte	0                               # 0x0
	.byte	178                             # 0xb2
	.byte	181                             # 0xb5
	.byte	7                               # 0x7
	.byte	58                              # 0x3a
	.byte	136                             # 0x88
	.byte	143                             # 0x8f
	.byte	61                              # 0x3d
	.byte	172                             # 0xac
	.byte	30                              # 0x1e
	.byte	25                              # 0x19
	.byte	171                             # 0xab
	.byte	150                             # 0x96
	.byte	36                              # 0x24
	.byte	35                              # 0x23
	.byte	145                             # 0x91
.Laes_v3_CPI3_10:
	.zero	4,15
	.text
	.p2align	4
aes_v3.aes_hybrid.plane_keys.store_planes: # @aes_v3.aes_hybrid.plane_keys.store_planes
# %bb.0:                                # %start
	vmovdqu	(%rsi), %xmm0
	vpshufb	.Laes_v3_CPI3_0(%rip), %xmm0, %xmm1    # xmm1 = xmm0[0,4,8,12,1,5,9,13,2,6,10,14,3,7,11,15]
	vpand	.Laes_v3_CPI3_1(%rip), %xmm1, %xmm2
	vpxor	%xmm0, %xmm0, %xmm0
	vpsubb	%xmm2, %xmm0, %xmm2
	vpsllw	$6, %xmm1, %xmm3
	vpand	.Laes_v3_CPI3_2(%rip), %xmm3, %xmm3
	vpcmpgtb	%xmm3, %xmm0, %xmm3
	vpsllw	$5, %xmm1, %xmm4
	vpand	.Laes_v3_CPI3_3(%rip), %xmm4, %xmm4
	vpcmpgtb	%xmm4, %xmm0, %xmm4
	vpsllw	$4, %xmm1, %xmm5
	vpand	.Laes_v3_CPI3_4(%rip), %xmm5, %xmm5
	vpcmpgtb	%xmm5, %xmm0, %xmm5
	vpsllw	$3, %xmm1, %xmm6
	vpand	.Laes_v3_CPI3_5(%rip), %xmm6, %xmm6
	vpcmpgtb	%xmm6, %xmm0, %xmm6
	vpsllw	$2, %xmm1, %xmm7
	vpand	.Laes_v3_CPI3_6(%rip), %xmm7, %xmm7
	vpcmpgtb	%xmm7, %xmm0, %xmm7
	vpaddb	%xmm1, %xmm1, %xmm8
	vpcmpgtb	%xmm8, %xmm0, %xmm8
	vpcmpgtb	%xmm1, %xmm0, %xmm1
	vmovdqu	%xmm2, 16(%rdi)
	vmovdqu	%xmm2, (%rdi)
	vmovdqu	%xmm3, 48(%rdi)
	vmovdqu	%xmm3, 32(%rdi)
	vmovdqu	%xmm4, 80(%rdi)
	vmovdqu	%xmm4, 64(%rdi)
	vmovdqu	%xmm5, 112(%rdi)
	vmovdqu	%xmm5, 96(%rdi)
	vmovdqu	%xmm6, 144(%rdi)
	vmovdqu	%xmm6, 128(%rdi)
	vmovdqu	%xmm7, 176(%rdi)
	vmovdqu	%xmm7, 160(%rdi)
	vmovdqu	%xmm8, 208(%rdi)
	vmovdqu	%xmm8, 192(%rdi)
	vmovdqu	%xmm1, 240(%rdi)
	vmovdqu	%xmm1, 224(%rdi)
	leaq	-1(%rdx), %rax
	cmpq	$2, %rax
	jb	.Laes_v3_BB3_3
# %bb.1:                                # %join.5.lr.ph
	addq	$-2, %rdx
	leaq	480(%rdi), %rcx
	leaq	16(%rsi), %r8
	.p2align	4
.Laes_v3_BB3_2:                                # %join.5
                                        # =>This Inner Loop Header: Depth=1
	vmovdqu	(%r8), %xmm1
	vpbroadcastd	.Laes_v3_CPI3_10(%rip), %xmm2  # xmm2 = [15,15,15,15,15,15,15,15,15,15,15,15,15,15,15,15]
	vpand	%xmm2, %xmm1, %xmm3
	vmovdqa	.Laes_v3_CPI3_8(%rip), %xmm4           # xmm4 = [0,1,92,93,224,225,188,189,80,81,12,13,176,177,236,237]
	vpshufb	%xmm3, %xmm4, %xmm3
	vpsrlw	$4, %xmm1, %xmm1
	vpand	%xmm2, %xmm1, %xmm1
	vmovdqa	.Laes_v3_CPI3_9(%rip), %xmm2           # xmm2 = [0,178,181,7,58,136,143,61,172,30,25,171,150,36,35,145]
	vpshufb	%xmm1, %xmm2, %xmm1
	vmovdqa	.Laes_v3_CPI3_0(%rip), %xmm2           # xmm2 = [0,4,8,12,1,5,9,13,2,6,10,14,3,7,11,15]
	vpshufb	%xmm2, %xmm3, %xmm3
	vpshufb	%xmm2, %xmm1, %xmm1
	vpxor	%xmm3, %xmm1, %xmm1
	vpand	.Laes_v3_CPI3_1(%rip), %xmm1, %xmm2
	vpxor	%xmm3, %xmm3, %xmm3
	vpsubb	%xmm2, %xmm3, %xmm2
	vpsllw	$6, %xmm1, %xmm4
	vpand	.Laes_v3_CPI3_2(%rip), %xmm4, %xmm4
	vpcmpgtb	%xmm4, %xmm3, %xmm4
	vpsllw	$5, %xmm1, %xmm5
	vpand	.Laes_v3_CPI3_3(%rip), %xmm5, %xmm5
	vpcmpgtb	%xmm5, %xmm3, %xmm5
	vpsllw	$4, %xmm1, %xmm6
	vpand	.Laes_v3_CPI3_4(%rip), %xmm6, %xmm6
	vpcmpgtb	%xmm6, %xmm3, %xmm6
	vpsllw	$3, %xmm1, %xmm7
	vpand	.Laes_v3_CPI3_5(%rip), %xmm7, %xmm7
	vpcmpgtb	%xmm7, %xmm3, %xmm7
	vpsllw	$2, %xmm1, %xmm8
	vpand	.Laes_v3_CPI3_6(%rip), %xmm8, %xmm8
	vpcmpgtb	%xmm8, %xmm3, %xmm8
	vpaddb	%xmm1, %xmm1, %xmm9
	vpcmpgtb	%xmm9, %xmm3, %xmm9
	vpcmpgtb	%xmm1, %xmm3, %xmm1
	vmovdqu	%xmm2, -208(%rcx)
	vmovdqu	%xmm2, -224(%rcx)
	vmovdqu	%xmm4, -176(%rcx)
	vmovdqu	%xmm4, -192(%rcx)
	vmovdqu	%xmm5, -144(%rcx)
	vmovdqu	%xmm5, -160(%rcx)
	vmovdqu	%xmm6, -112(%rcx)
	vmovdqu	%xmm6, -128(%rcx)
	vmovdqu	%xmm7, -80(%rcx)
	vmovdqu	%xmm7, -96(%rcx)
	vmovdqu	%xmm8, -48(%rcx)
	vmovdqu	%xmm8, -64(%rcx)
	vmovdqu	%xmm9, -16(%rcx)
	vmovdqu	%xmm9, -32(%rcx)
	vmovdqu	%xmm1, 16(%rcx)
	vmovdqu	%xmm1, (%rcx)
	addq	$256, %rcx                      # imm = 0x100
	addq	$16, %r8
	decq	%rdx
	jne	.Laes_v3_BB3_2
.Laes_v3_BB3_3:                                # %after.1
	movq	%rax, %rcx
	shlq	$4, %rcx
	vmovdqu	(%rsi,%rcx), %xmm1
	vpshufb	.Laes_v3_CPI3_0(%rip), %xmm1, %xmm1    # xmm1 = xmm1[0,4,8,12,1,5,9,13,2,6,10,14,3,7,11,15]
	vpand	.Laes_v3_CPI3_1(%rip), %xmm1, %xmm2
	vpsubb	%xmm2, %xmm0, %xmm2
	vpsllw	$6, %xmm1, %xmm3
	vpand	.Laes_v3_CPI3_2(%rip), %xmm3, %xmm3
	vpcmpgtb	%xmm3, %xmm0, %xmm3
	vpsllw	$5, %xmm1, %xmm4
	vpand	.Laes_v3_CPI3_3(%rip), %xmm4, %xmm4
	vpcmpgtb	%xmm4, %xmm0, %xmm4
	vpsllw	$4, %xmm1, %xmm5
	vpand	.Laes_v3_CPI3_4(%rip), %xmm5, %xmm5
	vpcmpgtb	%xmm5, %xmm0, %xmm5
	vpsllw	$3, %xmm1, %xmm6
	vpand	.Laes_v3_CPI3_5(%rip), %xmm6, %xmm6
	vpcmpgtb	%xmm6, %xmm0, %xmm6
	vpsllw	$2, %xmm1, %xmm7
	vpand	.Laes_v3_CPI3_6(%rip), %xmm7, %xmm7
	vpcmpgtb	%xmm7, %xmm0, %xmm7
	vpaddb	%xmm1, %xmm1, %xmm8
	vpcmpgtb	%xmm8, %xmm0, %xmm8
	vpcmpgtb	%xmm1, %xmm0, %xmm0
	shlq	$8, %rax
	vmovdqu	%xmm2, 16(%rdi,%rax)
	vmovdqu	%xmm2, (%rdi,%rax)
	vmovdqu	%xmm3, 48(%rdi,%rax)
	vmovdqu	%xmm3, 32(%rdi,%rax)
	vmovdqu	%xmm4, 80(%rdi,%rax)
	vmovdqu	%xmm4, 64(%rdi,%rax)
	vmovdqu	%xmm5, 112(%rdi,%rax)
	vmovdqu	%xmm5, 96(%rdi,%rax)
	vmovdqu	%xmm6, 144(%rdi,%rax)
	vmovdqu	%xmm6, 128(%rdi,%rax)
	vmovdqu	%xmm7, 176(%rdi,%rax)
	vmovdqu	%xmm7, 160(%rdi,%rax)
	vmovdqu	%xmm8, 208(%rdi,%rax)
	vmovdqu	%xmm8, 192(%rdi,%rax)
	vmovdqu	%xmm0, 240(%rdi,%rax)
	vmovdqu	%xmm0, 224(%rdi,%rax)
	retq
                                        # -- End function
	.def	aes_v3.aes_hybrid.batches.process_batches_and_rest.1;
	.scl	3;
	.type	32;
	.endef
	.section	.rdata,"dr"
	.p2align	5, 0x0                          # -- Begin function aes_hybrid::batches::process_batches_and_rest::<#90ca489510abb174>
.Laes_v3_CPI4_0:
	.byte	0                               # 0x0
	.byte	4                               # 0x4
	.byte	8                               # 0x8
	.byte	12                              # 0xc
	.byte	1                               # 0x1
	.byte	5                               # 0x5
	.byte	9                               # 0x9
	.byte	13                              # 0xd
	.byte	2                               # 0x2
	.byte	6                               # 0x6
	.byte	10                              # 0xa
	.byte	14                              # 0xe
	.byte	3                               # 0x3
	.byte	7                               # 0x7
	.byte	11                              # 0xb
	.byte	15                              # 0xf
	.byte	0                               # 0x0
	.byte	4                               # 0x4
	.byte	8                               # 0x8
	.byte	12                              # 0xc
	.byte	1                               # 0x1
	.byte	5                               # 0x5
	.byte	9                               # 0x9
	.byte	13                              # 0xd
	.byte	2                               # 0x2
	.byte	6                               # 0x6
	.byte	10                              # 0xa
	.byte	14                              # 0xe
	.byte	3                               # 0x3
	.byte	7                               # 0x7
	.byte	11                              # 0xb
	.byte	15                              # 0xf
.Laes_v3_CPI4_1:
	.zero	32,85
.Laes_v3_CPI4_2:
	.zero	32,51
.Laes_v3_CPI4_3:
	.zero	32,15
.Laes_v3_CPI4_4:
	.byte	0                               # 0x0
	.byte	4                               # 0x4
	.byte	8                               # 0x8
	.byte	12                              # 0xc
	.byte	1                               # 0x1
	.byte	5                               # 0x5
	.byte	9                               # 0x9
	.byte	13                              # 0xd
	.byte	2                               # 0x2
	.byte	6                               # 0x6
	.byte	10                              # 0xa
	.byte	14                              # 0xe
	.byte	3                               # 0x3
	.byte	7                               # 0x7
	.byte	11                              # 0xb
	.byte	15                              # 0xf
.Laes_v3_CPI4_5:
	.zero	4,85
.Laes_v3_CPI4_6:
	.zero	4,51
.Laes_v3_CPI4_7:
	.zero	4,15
	.text
	.p2align	4
aes_v3.aes_hybrid.batches.process_batches_and_rest.1: # @aes_v3.aes_hybrid.batches.process_batches_and_rest.1
.seh_proc aes_v3.aes_hybrid.batches.process_batches_and_rest.1
# %bb.0:                                # %join.5.i.lr.ph
	pushq	%rbp
	.seh_pushreg %rbp
	pushq	%r15
	.seh_pushreg %r15
	pushq	%r14
	.seh_pushreg %r14
	pushq	%r13
	.seh_pushreg %r13
	pushq	%r12
	.seh_pushreg %r12
	pushq	%rbx
	.seh_pushreg %rbx
	subq	$312, %rsp                      # imm = 0x138
	.seh_stackalloc 312
	.seh_endprologue
	movq	%rcx, %rbx
	movq	%rdx, %r15
	movq	%rsi, %r13
	movq	%rdi, %r12
	movq	%rcx, 24(%rsp)                  # 8-byte Spill
	andq	$-16, %rbx
	movq	%rsi, 8(%rsp)                   # 8-byte Spill
	shrq	$3, %r13
	decq	%r13
	leaq	48(%rsp), %rbp
	andq	$-32, %rbp
	xorl	%r14d, %r14d
	movq	%rdx, 16(%rsp)                  # 8-byte Spill
	.p2align	4
.Laes_v3_BB4_1:                                # %join.5.i
                                        # =>This Inner Loop Header: Depth=1
	vmovdqu	(%r15), %xmm0
	vmovdqu	16(%r15), %xmm1
	vmovdqu	32(%r15), %xmm2
	vmovdqu	48(%r15), %xmm3
	vmovdqu	64(%r15), %xmm4
	vmovdqu	80(%r15), %xmm5
	vmovdqu	96(%r15), %xmm6
	vmovdqu	112(%r15), %xmm7
	vinserti128	$1, 128(%r15), %ymm0, %ymm0
	vinserti128	$1, 144(%r15), %ymm1, %ymm1
	vinserti128	$1, 160(%r15), %ymm2, %ymm2
	vinserti128	$1, 176(%r15), %ymm3, %ymm3
	vinserti128	$1, 192(%r15), %ymm4, %ymm4
	vinserti128	$1, 208(%r15), %ymm5, %ymm5
	vinserti128	$1, 224(%r15), %ymm6, %ymm6
	vinserti128	$1, 240(%r15), %ymm7, %ymm7
	vbroadcasti128	.Laes_v3_CPI4_4(%rip), %ymm9   # ymm9 = [0,4,8,12,1,5,9,13,2,6,10,14,3,7,11,15,0,4,8,12,1,5,9,13,2,6,10,14,3,7,11,15]
                                        # ymm9 = mem[0,1,0,1]
	vpshufb	%ymm9, %ymm0, %ymm8
	vpshufb	%ymm9, %ymm1, %ymm0
	vpshufb	%ymm9, %ymm2, %ymm1
	vpshufb	%ymm9, %ymm3, %ymm2
	vpshufb	%ymm9, %ymm4, %ymm3
	vpshufb	%ymm9, %ymm5, %ymm4
	vpshufb	%ymm9, %ymm6, %ymm5
	vpshufb	%ymm9, %ymm7, %ymm6
	vpsrlw	$1, %ymm8, %ymm7
	vpxor	%ymm7, %ymm0, %ymm7
	vpbroadcastd	.Laes_v3_CPI4_5(%rip), %ymm10  # ymm10 = [85,85,85,85,85,85,85,85,85,85,85,85,85,85,85,85,85,85,85,85,85,85,85,85,85,85,85,85,85,85,85,85]
	vpand	%ymm7, %ymm10, %ymm7
	vpxor	%ymm0, %ymm7, %ymm0
	vpaddb	%ymm7, %ymm7, %ymm7
	vpxor	%ymm7, %ymm8, %ymm7
	vpsrlw	$1, %ymm1, %ymm8
	vpxor	%ymm2, %ymm8, %ymm8
	vpand	%ymm10, %ymm8, %ymm8
	vpxor	%ymm2, %ymm8, %ymm9
	vpaddb	%ymm8, %ymm8, %ymm2
	vpxor	%ymm1, %ymm2, %ymm1
	vpsrlw	$1, %ymm3, %ymm2
	vpxor	%ymm2, %ymm4, %ymm2
	vpand	%ymm2, %ymm10, %ymm8
	vpxor	%ymm4, %ymm8, %ymm2
	vpaddb	%ymm8, %ymm8, %ymm4
	vpxor	%ymm3, %ymm4, %ymm3
	vpsrlw	$1, %ymm5, %ymm4
	vpxor	%ymm4, %ymm6, %ymm4
	vpand	%ymm4, %ymm10, %ymm4
	vpxor	%ymm6, %ymm4, %ymm6
	vpaddb	%ymm4, %ymm4, %ymm4
	vpxor	%ymm5, %ymm4, %ymm4
	vpsrlw	$2, %ymm7, %ymm5
	vpxor	%ymm5, %ymm1, %ymm5
	vpbroadcastd	.Laes_v3_CPI4_6(%rip), %ymm10  # ymm10 = [51,51,51,51,51,51,51,51,51,51,51,51,51,51,51,51,51,51,51,51,51,51,51,51,51,51,51,51,51,51,51,51]
	vpand	%ymm5, %ymm10, %ymm5
	vpxor	%ymm1, %ymm5, %ymm1
	vpsllw	$2, %ymm5, %ymm5
	vpxor	%ymm7, %ymm5, %ymm5
	vpsrlw	$2, %ymm3, %ymm7
	vpxor	%ymm7, %ymm4, %ymm7
	vpand	%ymm7, %ymm10, %ymm7
	vpxor	%ymm4, %ymm7, %ymm4
	vpsllw	$2, %ymm7, %ymm7
	vpxor	%ymm3, %ymm7, %ymm7
	vpsrlw	$2, %ymm0, %ymm3
	vpxor	%ymm3, %ymm9, %ymm3
	vpand	%ymm3, %ymm10, %ymm8
	vpxor	%ymm9, %ymm8, %ymm3
	vpsllw	$2, %ymm8, %ymm8
	vpxor	%ymm0, %ymm8, %ymm0
	vpsrlw	$2, %ymm2, %ymm8
	vpxor	%ymm6, %ymm8, %ymm8
	vpand	%ymm10, %ymm8, %ymm8
	vpxor	%ymm6, %ymm8, %ymm6
	vpsllw	$2, %ymm8, %ymm8
	vpxor	%ymm2, %ymm8, %ymm2
	vpsrlw	$4, %ymm5, %ymm8
	vpbroadcastd	.Laes_v3_CPI4_7(%rip), %ymm9   # ymm9 = [15,15,15,15,15,15,15,15,15,15,15,15,15,15,15,15,15,15,15,15,15,15,15,15,15,15,15,15,15,15,15,15]
	vpxor	%ymm7, %ymm8, %ymm8
	vpand	%ymm9, %ymm8, %ymm8
	vpxor	%ymm7, %ymm8, %ymm7
	vpsllw	$4, %ymm8, %ymm8
	vpxor	%ymm5, %ymm8, %ymm5
	vpsrlw	$4, %ymm0, %ymm8
	vpxor	%ymm2, %ymm8, %ymm8
	vpand	%ymm9, %ymm8, %ymm8
	vpxor	%ymm2, %ymm8, %ymm2
	vpsllw	$4, %ymm8, %ymm8
	vpxor	%ymm0, %ymm8, %ymm0
	vpsrlw	$4, %ymm1, %ymm8
	vpxor	%ymm4, %ymm8, %ymm8
	vpand	%ymm9, %ymm8, %ymm8
	vpxor	%ymm4, %ymm8, %ymm4
	vpsllw	$4, %ymm8, %ymm8
	vpxor	%ymm1, %ymm8, %ymm1
	vpsrlw	$4, %ymm3, %ymm8
	vpxor	%ymm6, %ymm8, %ymm8
	vpand	%ymm9, %ymm8, %ymm8
	vpxor	%ymm6, %ymm8, %ymm6
	vpsllw	$4, %ymm8, %ymm8
	vpxor	%ymm3, %ymm8, %ymm3
	vmovdqa	%ymm5, (%rbp)
	vmovdqa	%ymm0, 32(%rbp)
	vmovdqa	%ymm1, 64(%rbp)
	vmovdqa	%ymm3, 96(%rbp)
	vmovdqa	%ymm7, 128(%rbp)
	vmovdqa	%ymm2, 160(%rbp)
	vmovdqa	%ymm4, 192(%rbp)
	vmovdqa	%ymm6, 224(%rbp)
	movq	%r12, %rdi
	movq	%r13, %rsi
	movq	%rbp, %rdx
	vzeroupper
	callq	aes_v3.aes_soft.soft.ciphers.planes.EncryptPlaneCipher.process_planes
	vmovdqa	(%rbp), %ymm1
	vmovdqa	32(%rbp), %ymm0
	vmovdqa	64(%rbp), %ymm2
	vmovdqa	96(%rbp), %ymm3
	vmovdqa	128(%rbp), %ymm4
	vmovdqa	160(%rbp), %ymm5
	vmovdqa	192(%rbp), %ymm6
	vmovdqa	224(%rbp), %ymm7
	vpsrlw	$1, %ymm1, %ymm8
	vpxor	%ymm0, %ymm8, %ymm8
	vpbroadcastd	.Laes_v3_CPI4_5(%rip), %ymm9   # ymm9 = [85,85,85,85,85,85,85,85,85,85,85,85,85,85,85,85,85,85,85,85,85,85,85,85,85,85,85,85,85,85,85,85]
	vpand	%ymm9, %ymm8, %ymm8
	vpxor	%ymm0, %ymm8, %ymm0
	vpaddb	%ymm8, %ymm8, %ymm8
	vpxor	%ymm1, %ymm8, %ymm8
	vpsrlw	$1, %ymm2, %ymm1
	vpxor	%ymm1, %ymm3, %ymm1
	vpand	%ymm1, %ymm9, %ymm1
	vpxor	%ymm3, %ymm1, %ymm3
	vpaddb	%ymm1, %ymm1, %ymm1
	vpxor	%ymm2, %ymm1, %ymm1
	vpsrlw	$1, %ymm4, %ymm2
	vpxor	%ymm2, %ymm5, %ymm2
	vpand	%ymm2, %ymm9, %ymm2
	vpxor	%ymm5, %ymm2, %ymm5
	vpaddb	%ymm2, %ymm2, %ymm2
	vpxor	%ymm4, %ymm2, %ymm2
	vpsrlw	$1, %ymm6, %ymm4
	vpxor	%ymm4, %ymm7, %ymm4
	vpand	%ymm4, %ymm9, %ymm4
	vpxor	%ymm7, %ymm4, %ymm7
	vpaddb	%ymm4, %ymm4, %ymm4
	vpxor	%ymm6, %ymm4, %ymm4
	vpsrlw	$2, %ymm8, %ymm6
	vpxor	%ymm6, %ymm1, %ymm6
	vpbroadcastd	.Laes_v3_CPI4_6(%rip), %ymm10  # ymm10 = [51,51,51,51,51,51,51,51,51,51,51,51,51,51,51,51,51,51,51,51,51,51,51,51,51,51,51,51,51,51,51,51]
	vpand	%ymm6, %ymm10, %ymm6
	vpxor	%ymm1, %ymm6, %ymm1
	vpsllw	$2, %ymm6, %ymm6
	vpxor	%ymm6, %ymm8, %ymm6
	vpsrlw	$2, %ymm2, %ymm8
	vpxor	%ymm4, %ymm8, %ymm8
	vpand	%ymm10, %ymm8, %ymm8
	vpxor	%ymm4, %ymm8, %ymm4
	vpsllw	$2, %ymm8, %ymm8
	vpxor	%ymm2, %ymm8, %ymm2
	vpsrlw	$2, %ymm0, %ymm8
	vpxor	%ymm3, %ymm8, %ymm8
	vpand	%ymm10, %ymm8, %ymm8
	vpxor	%ymm3, %ymm8, %ymm9
	vpsllw	$2, %ymm8, %ymm3
	vpxor	%ymm0, %ymm3, %ymm8
	vpsrlw	$2, %ymm5, %ymm0
	vpxor	%ymm0, %ymm7, %ymm0
	vpand	%ymm0, %ymm10, %ymm0
	vpxor	%ymm7, %ymm0, %ymm7
	vpsllw	$2, %ymm0, %ymm0
	vpxor	%ymm5, %ymm0, %ymm5
	vpsrlw	$4, %ymm6, %ymm0
	vpxor	%ymm0, %ymm2, %ymm0
	vpbroadcastd	.Laes_v3_CPI4_7(%rip), %ymm10  # ymm10 = [15,15,15,15,15,15,15,15,15,15,15,15,15,15,15,15,15,15,15,15,15,15,15,15,15,15,15,15,15,15,15,15]
	vpand	%ymm0, %ymm10, %ymm3
	vpxor	%ymm2, %ymm3, %ymm0
	vpsllw	$4, %ymm3, %ymm2
	vpxor	%ymm6, %ymm2, %ymm3
	vpsrlw	$4, %ymm8, %ymm2
	vpxor	%ymm2, %ymm5, %ymm2
	vpand	%ymm2, %ymm10, %ymm6
	vpxor	%ymm5, %ymm6, %ymm2
	vpsllw	$4, %ymm6, %ymm5
	vpxor	%ymm5, %ymm8, %ymm5
	vpsrlw	$4, %ymm1, %ymm6
	vpxor	%ymm6, %ymm4, %ymm6
	vpand	%ymm6, %ymm10, %ymm6
	vpxor	%ymm4, %ymm6, %ymm4
	vpsllw	$4, %ymm6, %ymm6
	vpxor	%ymm1, %ymm6, %ymm1
	vpsrlw	$4, %ymm9, %ymm6
	vpxor	%ymm6, %ymm7, %ymm6
	vpand	%ymm6, %ymm10, %ymm6
	vpxor	%ymm7, %ymm6, %ymm7
	vpsllw	$4, %ymm6, %ymm6
	vpxor	%ymm6, %ymm9, %ymm6
	vinserti128	$1, %xmm5, %ymm3, %ymm8
	vbroadcasti128	.Laes_v3_CPI4_4(%rip), %ymm9   # ymm9 = [0,4,8,12,1,5,9,13,2,6,10,14,3,7,11,15,0,4,8,12,1,5,9,13,2,6,10,14,3,7,11,15]
                                        # ymm9 = mem[0,1,0,1]
	vpshufb	%ymm9, %ymm8, %ymm8
	vmovdqu	%ymm8, (%r15)
	vinserti128	$1, %xmm6, %ymm1, %ymm8
	vpshufb	%ymm9, %ymm8, %ymm8
	vmovdqu	%ymm8, 32(%r15)
	vinserti128	$1, %xmm2, %ymm0, %ymm8
	vpshufb	%ymm9, %ymm8, %ymm8
	vmovdqu	%ymm8, 64(%r15)
	vinserti128	$1, %xmm7, %ymm4, %ymm8
	vpshufb	%ymm9, %ymm8, %ymm8
	vmovdqu	%ymm8, 96(%r15)
	vperm2i128	$49, %ymm5, %ymm3, %ymm3 # ymm3 = ymm3[2,3],ymm5[2,3]
	vpshufb	%ymm9, %ymm3, %ymm3
	vmovdqu	%ymm3, 128(%r15)
	vperm2i128	$49, %ymm6, %ymm1, %ymm1 # ymm1 = ymm1[2,3],ymm6[2,3]
	vpshufb	%ymm9, %ymm1, %ymm1
	vmovdqu	%ymm1, 160(%r15)
	vperm2i128	$49, %ymm2, %ymm0, %ymm0 # ymm0 = ymm0[2,3],ymm2[2,3]
	vpshufb	%ymm9, %ymm0, %ymm0
	vmovdqu	%ymm0, 192(%r15)
	vperm2i128	$49, %ymm7, %ymm4, %ymm0 # ymm0 = ymm4[2,3],ymm7[2,3]
	vpshufb	%ymm9, %ymm0, %ymm0
	vmovdqu	%ymm0, 224(%r15)
	addq	$16, %r14
	addq	$256, %r15                      # imm = 0x100
	cmpq	%rbx, %r14
	jb	.Laes_v3_BB4_1
# %bb.2:                                # %"aes_soft::soft::blocks::slices::process_batches_under::<#ce850d360e6bad54>.exit"
	movq	24(%rsp), %rcx                  # 8-byte Reload
	cmpq	%rcx, %rbx
	jne	.Laes_v3_BB4_4
# %bb.3:                                # %join.5
	addq	$312, %rsp                      # imm = 0x138
	popq	%rbx
	popq	%r12
	popq	%r13
	popq	%r14
	popq	%r15
	popq	%rbp
	vzeroupper
	retq
.Laes_v3_BB4_4:                                # %then.3
	andl	$15, %ecx
	shlq	$4, %rbx
	movq	16(%rsp), %rdx                  # 8-byte Reload
	addq	%rbx, %rdx
	movq	%r12, %rdi
	movq	8(%rsp), %rsi                   # 8-byte Reload
	addq	$312, %rsp                      # imm = 0x138
	popq	%rbx
	popq	%r12
	popq	%r13
	popq	%r14
	popq	%r15
	popq	%rbp
	vzeroupper
	jmp	aes_v3.aes_soft.soft.blocks.filled_up.process_filled_up.1 # TAILCALL
	.seh_endproc
                                        # -- End function
	.def	aes_v3.aes_soft.soft.ciphers.planes.process_outlined.1;
	.scl	3;
	.type	32;
	.endef
	.section	.rdata,"dr"
	.p2align	5, 0x0                          # -- Begin function aes_soft::soft::ciphers::planes::process_outlined::<#59065427c0580f73>
.Laes_v3_CPI5_0:
	.byte	0                               # 0x0
	.byte	4                               # 0x4
	.byte	8                               # 0x8
	.byte	12                              # 0xc
	.byte	1                               # 0x1
	.byte	5                               # 0x5
	.byte	9                               # 0x9
	.byte	13                              # 0xd
	.byte	2                               # 0x2
	.byte	6                               # 0x6
	.byte	10                              # 0xa
	.byte	14                              # 0xe
	.byte	3                               # 0x3
	.byte	7                               # 0x7
	.byte	11                              # 0xb
	.byte	15                              # 0xf
	.byte	0                               # 0x0
	.byte	4                               # 0x4
	.byte	8                               # 0x8
	.byte	12                              # 0xc
	.byte	1                               # 0x1
	.byte	5                               # 0x5
	.byte	9                               # 0x9
	.byte	13                              # 0xd
	.byte	2                               # 0x2
	.byte	6                               # 0x6
	.byte	10                              # 0xa
	.byte	14                              # 0xe
	.byte	3                               # 0x3
	.byte	7                               # 0x7
	.byte	11                              # 0xb
	.byte	15                              # 0xf
.Laes_v3_CPI5_1:
	.zero	32,85
.Laes_v3_CPI5_2:
	.zero	32,51
.Laes_v3_CPI5_3:
	.zero	32,15
.Laes_v3_CPI5_4:
	.byte	0                               # 0x0
	.byte	4                               # 0x4
	.byte	8                               # 0x8
	.byte	12                              # 0xc
	.byte	1                               # 0x1
	.byte	5                               # 0x5
	.byte	9                               # 0x9
	.byte	13                              # 0xd
	.byte	2                               # 0x2
	.byte	6                               # 0x6
	.byte	10                              # 0xa
	.byte	14                              # 0xe
	.byte	3                               # 0x3
	.byte	7                               # 0x7
	.byte	11                              # 0xb
	.byte	15                              # 0xf
.Laes_v3_CPI5_5:
	.zero	4,85
.Laes_v3_CPI5_6:
	.zero	4,51
.Laes_v3_CPI5_7:
	.zero	4,15
	.text
	.p2align	4
aes_v3.aes_soft.soft.ciphers.planes.process_outlined.1: # @aes_v3.aes_soft.soft.ciphers.planes.process_outlined.1
.seh_proc aes_v3.aes_soft.soft.ciphers.planes.process_outlined.1
# %bb.0:                                # %start
	pushq	%r14
	.seh_pushreg %r14
	pushq	%rbx
	.seh_pushreg %rbx
	subq	$280, %rsp                      # imm = 0x118
	.seh_stackalloc 280
	.seh_endprologue
	movq	%rdi, %rbx
	leaq	16(%rsp), %r14
	andq	$-32, %r14
	vxorps	%xmm0, %xmm0, %xmm0
	vmovaps	%ymm0, 224(%r14)
	vmovaps	%ymm0, 192(%r14)
	vmovaps	%ymm0, 160(%r14)
	vmovaps	%ymm0, 128(%r14)
	vmovaps	%ymm0, 96(%r14)
	vmovaps	%ymm0, 64(%r14)
	vmovaps	%ymm0, 32(%r14)
	vmovaps	%ymm0, (%r14)
	vmovdqu	(%rcx), %xmm0
	vmovdqu	16(%rcx), %xmm2
	vmovdqu	32(%rcx), %xmm3
	vmovdqu	48(%rcx), %xmm4
	vinserti128	$1, 128(%rcx), %ymm0, %ymm0
	vbroadcasti128	.Laes_v3_CPI5_4(%rip), %ymm8   # ymm8 = [0,4,8,12,1,5,9,13,2,6,10,14,3,7,11,15,0,4,8,12,1,5,9,13,2,6,10,14,3,7,11,15]
                                        # ymm8 = mem[0,1,0,1]
	vpshufb	%ymm8, %ymm0, %ymm1
	vinserti128	$1, 144(%rcx), %ymm2, %ymm0
	vinserti128	$1, 160(%rcx), %ymm3, %ymm2
	vpshufb	%ymm8, %ymm0, %ymm0
	vpshufb	%ymm8, %ymm2, %ymm2
	vinserti128	$1, 176(%rcx), %ymm4, %ymm3
	vpshufb	%ymm8, %ymm3, %ymm3
	vmovdqu	64(%rcx), %xmm4
	vinserti128	$1, 192(%rcx), %ymm4, %ymm4
	vpshufb	%ymm8, %ymm4, %ymm4
	vmovdqu	80(%rcx), %xmm5
	vinserti128	$1, 208(%rcx), %ymm5, %ymm5
	vpshufb	%ymm8, %ymm5, %ymm5
	vmovdqu	96(%rcx), %xmm6
	vinserti128	$1, 224(%rcx), %ymm6, %ymm6
	vpshufb	%ymm8, %ymm6, %ymm6
	vmovdqu	112(%rcx), %xmm7
	vinserti128	$1, 240(%rcx), %ymm7, %ymm7
	vpshufb	%ymm8, %ymm7, %ymm7
	vpsrlw	$1, %ymm1, %ymm8
	vpxor	%ymm0, %ymm8, %ymm8
	vpbroadcastd	.Laes_v3_CPI5_5(%rip), %ymm10  # ymm10 = [85,85,85,85,85,85,85,85,85,85,85,85,85,85,85,85,85,85,85,85,85,85,85,85,85,85,85,85,85,85,85,85]
	vpand	%ymm10, %ymm8, %ymm8
	vpxor	%ymm0, %ymm8, %ymm0
	vpaddb	%ymm8, %ymm8, %ymm8
	vpxor	%ymm1, %ymm8, %ymm8
	vpsrlw	$1, %ymm2, %ymm1
	vpxor	%ymm1, %ymm3, %ymm1
	vpand	%ymm1, %ymm10, %ymm1
	vpxor	%ymm3, %ymm1, %ymm3
	vpaddb	%ymm1, %ymm1, %ymm1
	vpxor	%ymm2, %ymm1, %ymm1
	vpsrlw	$1, %ymm4, %ymm2
	vpxor	%ymm2, %ymm5, %ymm2
	vpand	%ymm2, %ymm10, %ymm9
	vpxor	%ymm5, %ymm9, %ymm2
	vpaddb	%ymm9, %ymm9, %ymm5
	vpxor	%ymm4, %ymm5, %ymm4
	vpsrlw	$1, %ymm6, %ymm5
	vpxor	%ymm5, %ymm7, %ymm5
	vpand	%ymm5, %ymm10, %ymm5
	vpxor	%ymm7, %ymm5, %ymm7
	vpaddb	%ymm5, %ymm5, %ymm5
	vpxor	%ymm6, %ymm5, %ymm5
	vpsrlw	$2, %ymm8, %ymm6
	vpxor	%ymm6, %ymm1, %ymm6
	vpbroadcastd	.Laes_v3_CPI5_6(%rip), %ymm9   # ymm9 = [51,51,51,51,51,51,51,51,51,51,51,51,51,51,51,51,51,51,51,51,51,51,51,51,51,51,51,51,51,51,51,51]
	vpand	%ymm6, %ymm9, %ymm6
	vpxor	%ymm1, %ymm6, %ymm1
	vpsllw	$2, %ymm6, %ymm6
	vpxor	%ymm6, %ymm8, %ymm6
	vpsrlw	$2, %ymm4, %ymm8
	vpxor	%ymm5, %ymm8, %ymm8
	vpand	%ymm9, %ymm8, %ymm8
	vpxor	%ymm5, %ymm8, %ymm5
	vpsllw	$2, %ymm8, %ymm8
	vpxor	%ymm4, %ymm8, %ymm4
	vpsrlw	$2, %ymm0, %ymm8
	vpxor	%ymm3, %ymm8, %ymm8
	vpand	%ymm9, %ymm8, %ymm8
	vpxor	%ymm3, %ymm8, %ymm3
	vpsllw	$2, %ymm8, %ymm8
	vpxor	%ymm0, %ymm8, %ymm0
	vpsrlw	$2, %ymm2, %ymm8
	vpxor	%ymm7, %ymm8, %ymm8
	vpand	%ymm9, %ymm8, %ymm8
	vpxor	%ymm7, %ymm8, %ymm7
	vpsllw	$2, %ymm8, %ymm8
	vpxor	%ymm2, %ymm8, %ymm2
	vpsrlw	$4, %ymm6, %ymm8
	vpbroadcastd	.Laes_v3_CPI5_7(%rip), %ymm9   # ymm9 = [15,15,15,15,15,15,15,15,15,15,15,15,15,15,15,15,15,15,15,15,15,15,15,15,15,15,15,15,15,15,15,15]
	vpxor	%ymm4, %ymm8, %ymm8
	vpand	%ymm9, %ymm8, %ymm8
	vpxor	%ymm4, %ymm8, %ymm4
	vpsllw	$4, %ymm8, %ymm8
	vpxor	%ymm6, %ymm8, %ymm6
	vpsrlw	$4, %ymm0, %ymm8
	vpxor	%ymm2, %ymm8, %ymm8
	vpand	%ymm9, %ymm8, %ymm8
	vpxor	%ymm2, %ymm8, %ymm2
	vpsllw	$4, %ymm8, %ymm8
	vpxor	%ymm0, %ymm8, %ymm0
	vpsrlw	$4, %ymm1, %ymm8
	vpxor	%ymm5, %ymm8, %ymm8
	vpand	%ymm9, %ymm8, %ymm8
	vpxor	%ymm5, %ymm8, %ymm5
	vpsllw	$4, %ymm8, %ymm8
	vpxor	%ymm1, %ymm8, %ymm1
	vpsrlw	$4, %ymm3, %ymm8
	vpxor	%ymm7, %ymm8, %ymm8
	vpand	%ymm9, %ymm8, %ymm8
	vpxor	%ymm7, %ymm8, %ymm7
	vpsllw	$4, %ymm8, %ymm8
	vpxor	%ymm3, %ymm8, %ymm3
	vmovdqa	%ymm6, (%r14)
	vmovdqa	%ymm0, 32(%r14)
	vmovdqa	%ymm1, 64(%r14)
	vmovdqa	%ymm3, 96(%r14)
	vmovdqa	%ymm4, 128(%r14)
	vmovdqa	%ymm2, 160(%r14)
	vmovdqa	%ymm5, 192(%r14)
	vmovdqa	%ymm7, 224(%r14)
	movq	%rsi, %rdi
	movq	%rdx, %rsi
	movq	%r14, %rdx
	vzeroupper
	callq	aes_v3.aes_soft.soft.ciphers.planes.EncryptPlaneCipher.process_planes
	vmovdqa	(%r14), %ymm1
	vmovdqa	32(%r14), %ymm0
	vmovdqa	64(%r14), %ymm2
	vmovdqa	96(%r14), %ymm3
	vmovdqa	128(%r14), %ymm4
	vmovdqa	160(%r14), %ymm5
	vmovdqa	192(%r14), %ymm6
	vmovdqa	224(%r14), %ymm7
	vpsrlw	$1, %ymm1, %ymm8
	vpxor	%ymm0, %ymm8, %ymm8
	vpbroadcastd	.Laes_v3_CPI5_5(%rip), %ymm9   # ymm9 = [85,85,85,85,85,85,85,85,85,85,85,85,85,85,85,85,85,85,85,85,85,85,85,85,85,85,85,85,85,85,85,85]
	vpand	%ymm9, %ymm8, %ymm8
	vpxor	%ymm0, %ymm8, %ymm0
	vpaddb	%ymm8, %ymm8, %ymm8
	vpxor	%ymm1, %ymm8, %ymm8
	vpsrlw	$1, %ymm2, %ymm1
	vpxor	%ymm1, %ymm3, %ymm1
	vpand	%ymm1, %ymm9, %ymm1
	vpxor	%ymm3, %ymm1, %ymm3
	vpaddb	%ymm1, %ymm1, %ymm1
	vpxor	%ymm2, %ymm1, %ymm1
	vpsrlw	$1, %ymm4, %ymm2
	vpxor	%ymm2, %ymm5, %ymm2
	vpand	%ymm2, %ymm9, %ymm2
	vpxor	%ymm5, %ymm2, %ymm5
	vpaddb	%ymm2, %ymm2, %ymm2
	vpxor	%ymm4, %ymm2, %ymm2
	vpsrlw	$1, %ymm6, %ymm4
	vpxor	%ymm4, %ymm7, %ymm4
	vpand	%ymm4, %ymm9, %ymm4
	vpxor	%ymm7, %ymm4, %ymm7
	vpaddb	%ymm4, %ymm4, %ymm4
	vpxor	%ymm6, %ymm4, %ymm4
	vpsrlw	$2, %ymm8, %ymm6
	vpxor	%ymm6, %ymm1, %ymm6
	vpbroadcastd	.Laes_v3_CPI5_6(%rip), %ymm10  # ymm10 = [51,51,51,51,51,51,51,51,51,51,51,51,51,51,51,51,51,51,51,51,51,51,51,51,51,51,51,51,51,51,51,51]
	vpand	%ymm6, %ymm10, %ymm6
	vpxor	%ymm1, %ymm6, %ymm1
	vpsllw	$2, %ymm6, %ymm6
	vpxor	%ymm6, %ymm8, %ymm6
	vpsrlw	$2, %ymm2, %ymm8
	vpxor	%ymm4, %ymm8, %ymm8
	vpand	%ymm10, %ymm8, %ymm8
	vpxor	%ymm4, %ymm8, %ymm4
	vpsllw	$2, %ymm8, %ymm8
	vpxor	%ymm2, %ymm8, %ymm2
	vpsrlw	$2, %ymm0, %ymm8
	vpxor	%ymm3, %ymm8, %ymm8
	vpand	%ymm10, %ymm8, %ymm8
	vpxor	%ymm3, %ymm8, %ymm9
	vpsllw	$2, %ymm8, %ymm3
	vpxor	%ymm0, %ymm3, %ymm8
	vpsrlw	$2, %ymm5, %ymm0
	vpxor	%ymm0, %ymm7, %ymm0
	vpand	%ymm0, %ymm10, %ymm0
	vpxor	%ymm7, %ymm0, %ymm7
	vpsllw	$2, %ymm0, %ymm0
	vpxor	%ymm5, %ymm0, %ymm5
	vpsrlw	$4, %ymm6, %ymm0
	vpxor	%ymm0, %ymm2, %ymm0
	vpbroadcastd	.Laes_v3_CPI5_7(%rip), %ymm10  # ymm10 = [15,15,15,15,15,15,15,15,15,15,15,15,15,15,15,15,15,15,15,15,15,15,15,15,15,15,15,15,15,15,15,15]
	vpand	%ymm0, %ymm10, %ymm3
	vpxor	%ymm2, %ymm3, %ymm0
	vpsllw	$4, %ymm3, %ymm2
	vpxor	%ymm6, %ymm2, %ymm3
	vpsrlw	$4, %ymm8, %ymm2
	vpxor	%ymm2, %ymm5, %ymm2
	vpand	%ymm2, %ymm10, %ymm6
	vpxor	%ymm5, %ymm6, %ymm2
	vpsllw	$4, %ymm6, %ymm5
	vpxor	%ymm5, %ymm8, %ymm5
	vpsrlw	$4, %ymm1, %ymm6
	vpxor	%ymm6, %ymm4, %ymm6
	vpand	%ymm6, %ymm10, %ymm6
	vpxor	%ymm4, %ymm6, %ymm4
	vpsllw	$4, %ymm6, %ymm6
	vpxor	%ymm1, %ymm6, %ymm1
	vpsrlw	$4, %ymm9, %ymm6
	vpxor	%ymm6, %ymm7, %ymm6
	vpand	%ymm6, %ymm10, %ymm6
	vpxor	%ymm7, %ymm6, %ymm7
	vpsllw	$4, %ymm6, %ymm6
	vpxor	%ymm6, %ymm9, %ymm6
	vinserti128	$1, %xmm5, %ymm3, %ymm8
	vbroadcasti128	.Laes_v3_CPI5_4(%rip), %ymm9   # ymm9 = [0,4,8,12,1,5,9,13,2,6,10,14,3,7,11,15,0,4,8,12,1,5,9,13,2,6,10,14,3,7,11,15]
                                        # ymm9 = mem[0,1,0,1]
	vpshufb	%ymm9, %ymm8, %ymm8
	vmovdqu	%ymm8, (%rbx)
	vinserti128	$1, %xmm6, %ymm1, %ymm8
	vpshufb	%ymm9, %ymm8, %ymm8
	vmovdqu	%ymm8, 32(%rbx)
	vinserti128	$1, %xmm2, %ymm0, %ymm8
	vpshufb	%ymm9, %ymm8, %ymm8
	vmovdqu	%ymm8, 64(%rbx)
	vinserti128	$1, %xmm7, %ymm4, %ymm8
	vpshufb	%ymm9, %ymm8, %ymm8
	vmovdqu	%ymm8, 96(%rbx)
	vperm2i128	$49, %ymm5, %ymm3, %ymm3 # ymm3 = ymm3[2,3],ymm5[2,3]
	vpshufb	%ymm9, %ymm3, %ymm3
	vmovdqu	%ymm3, 128(%rbx)
	vperm2i128	$49, %ymm6, %ymm1, %ymm1 # ymm1 = ymm1[2,3],ymm6[2,3]
	vpshufb	%ymm9, %ymm1, %ymm1
	vmovdqu	%ymm1, 160(%rbx)
	vperm2i128	$49, %ymm2, %ymm0, %ymm0 # ymm0 = ymm0[2,3],ymm2[2,3]
	vpshufb	%ymm9, %ymm0, %ymm0
	vmovdqu	%ymm0, 192(%rbx)
	vperm2i128	$49, %ymm7, %ymm4, %ymm0 # ymm0 = ymm4[2,3],ymm7[2,3]
	vpshufb	%ymm9, %ymm0, %ymm0
	vmovdqu	%ymm0, 224(%rbx)
	addq	$280, %rsp                      # imm = 0x118
	popq	%rbx
	popq	%r14
	vzeroupper
	retq
	.seh_endproc
                                        # -- End function
	.def	aes_v3.aes_soft.soft.ciphers.planes.EncryptPlaneCipher.process_planes;
	.scl	3;
	.type	32;
	.endef
	.section	.rdata,"dr"
	.p2align	5, 0x0                          # -- Begin function aes_soft::soft::ciphers::planes::EncryptPlaneCipher::process_planes::<#e5b32b1877e7bf14>
.Laes_v3_CPI6_0:
	.byte	5                               # 0x5
	.byte	6                               # 0x6
	.byte	7                               # 0x7
	.byte	4                               # 0x4
	.byte	9                               # 0x9
	.byte	10                              # 0xa
	.byte	11                              # 0xb
	.byte	8                               # 0x8
	.byte	13                              # 0xd
	.byte	14                              # 0xe
	.byte	15                              # 0xf
	.byte	12                              # 0xc
	.byte	1                               # 0x1
	.byte	2                               # 0x2
	.byte	3                               # 0x3
	.byte	0                               # 0x0
	.byte	5                               # 0x5
	.byte	6                               # 0x6
	.byte	7                               # 0x7
	.byte	4                               # 0x4
	.byte	9                               # 0x9
	.byte	10                              # 0xa
	.byte	11                              # 0xb
	.byte	8                               # 0x8
	.byte	13                              # 0xd
	.byte	14                              # 0xe
	.byte	15                              # 0xf
	.byte	12                              # 0xc
	.byte	1                               # 0x1
	.byte	2                               # 0x2
	.byte	3                               # 0x3
	.byte	0                               # 0x0
.Laes_v3_CPI6_1:
	.byte	10                              # 0xa
	.byte	11                              # 0xb
	.byte	8                               # 0x8
	.byte	9                               # 0x9
	.byte	14                              # 0xe
	.byte	15                              # 0xf
	.byte	12                              # 0xc
	.byte	13                              # 0xd
	.byte	2                               # 0x2
	.byte	3                               # 0x3
	.byte	0                               # 0x0
	.byte	1                               # 0x1
	.byte	6                               # 0x6
	.byte	7                               # 0x7
	.byte	4                               # 0x4
	.byte	5                               # 0x5
	.byte	26                              # 0x1a
	.byte	27                              # 0x1b
	.byte	24                              # 0x18
	.byte	25                              # 0x19
	.byte	30                              # 0x1e
	.byte	31                              # 0x1f
	.byte	28                              # 0x1c
	.byte	29                              # 0x1d
	.byte	18                              # 0x12
	.byte	19                              # 0x13
	.byte	16                              # 0x10
	.byte	17                              # 0x11
	.byte	22                              # 0x16
	.byte	23                              # 0x17
	.byte	20                              # 0x14
	.byte	21                              # 0x15
.Laes_v3_CPI6_2:
	.byte	6                               # 0x6
	.byte	7                               # 0x7
	.byte	4                               # 0x4
	.byte	5                               # 0x5
	.byte	10                              # 0xa
	.byte	11                              # 0xb
	.byte	8                               # 0x8
	.byte	9                               # 0x9
	.byte	14                              # 0xe
	.byte	15                              # 0xf
	.byte	12                              # 0xc
	.byte	13                              # 0xd
	.byte	2                               # 0x2
	.byte	3                               # 0x3
	.byte	0                               # 0x0
	.byte	1                               # 0x1
	.byte	22                              # 0x16
	.byte	23                              # 0x17
	.byte	20                              # 0x14
	.byte	21                              # 0x15
	.byte	26                              # 0x1a
	.byte	27                              # 0x1b
	.byte	24                              # 0x18
	.byte	25                              # 0x19
	.byte	30                              # 0x1e
	.byte	31                              # 0x1f
	.byte	28                              # 0x1c
	.byte	29                              # 0x1d
	.byte	18                              # 0x12
	.byte	19                              # 0x13
	.byte	16                              # 0x10
	.byte	17                              # 0x11
.Laes_v3_CPI6_3:
	.byte	7                               # 0x7
	.byte	4                               # 0x4
	.byte	5                               # 0x5
	.byte	6                               # 0x6
	.byte	11                              # 0xb
	.byte	8                               # 0x8
	.byte	9                               # 0x9
	.byte	10                              # 0xa
	.byte	15                              # 0xf
	.byte	12                              # 0xc
	.byte	13                              # 0xd
	.byte	14                              # 0xe
	.byte	3                               # 0x3
	.byte	0                               # 0x0
	.byte	1                               # 0x1
	.byte	2                               # 0x2
	.byte	7                               # 0x7
	.byte	4                               # 0x4
	.byte	5                               # 0x5
	.byte	6                               # 0x6
	.byte	11                              # 0xb
	.byte	8                               # 0x8
	.byte	9                               # 0x9
	.byte	10                              # 0xa
	.byte	15                              # 0xf
	.byte	12                              # 0xc
	.byte	13                              # 0xd
	.byte	14                              # 0xe
	.byte	3                               # 0x3
	.byte	0                               # 0x0
	.byte	1                               # 0x1
	.byte	2                               # 0x2
.Laes_v3_CPI6_4:
	.byte	5                               # 0x5
	.byte	6                               # 0x6
	.byte	7                               # 0x7
	.byte	4                               # 0x4
	.byte	9                               # 0x9
	.byte	10                              # 0xa
	.byte	11                              # 0xb
	.byte	8                               # 0x8
	.byte	13                              # 0xd
	.byte	14                              # 0xe
	.byte	15                              # 0xf
	.byte	12                              # 0xc
	.byte	1                               # 0x1
	.byte	2                               # 0x2
	.byte	3                               # 0x3
	.byte	0                               # 0x0
.Laes_v3_CPI6_5:
	.byte	7                               # 0x7
	.byte	4                               # 0x4
	.byte	5                               # 0x5
	.byte	6                               # 0x6
	.byte	11                              # 0xb
	.byte	8                               # 0x8
	.byte	9                               # 0x9
	.byte	10                              # 0xa
	.byte	15                              # 0xf
	.byte	12                              # 0xc
	.byte	13                              # 0xd
	.byte	14                              # 0xe
	.byte	3                               # 0x3
	.byte	0                               # 0x0
	.byte	1                               # 0x1
	.byte	2                               # 0x2
	.text
	.p2align	4
aes_v3.aes_soft.soft.ciphers.planes.EncryptPlaneCipher.process_planes: # @aes_v3.aes_soft.soft.ciphers.planes.EncryptPlaneCipher.process_planes
.seh_proc aes_v3.aes_soft.soft.ciphers.planes.EncryptPlaneCipher.process_planes
# %bb.0:                                # %start
	pushq	%rbp
	.seh_pushreg %rbp
	subq	$432, %rsp                      # imm = 0x1B0
	.seh_stackalloc 432
	leaq	128(%rsp), %rbp
	.seh_setframe %rbp, 128
	.seh_endprologue
	andq	$-32, %rsp
	leaq	-2(%rsi), %rax
	movq	%rax, %rcx
	shrq	$2, %rcx
	vmovdqu	(%rdi), %ymm0
	vmovdqu	32(%rdi), %ymm1
	vmovdqu	64(%rdi), %ymm2
	vmovdqu	96(%rdi), %ymm3
	vmovdqu	128(%rdi), %ymm6
	vmovdqu	160(%rdi), %ymm7
	vmovdqu	192(%rdi), %ymm8
	vmovdqu	224(%rdi), %ymm9
	vpxor	(%rdx), %ymm0, %ymm13
	vpxor	32(%rdx), %ymm1, %ymm1
	vpxor	64(%rdx), %ymm2, %ymm4
	vpxor	96(%rdx), %ymm3, %ymm5
	vpxor	128(%rdx), %ymm6, %ymm3
	vpxor	160(%rdx), %ymm7, %ymm6
	vpxor	192(%rdx), %ymm8, %ymm10
	vpxor	224(%rdx), %ymm9, %ymm9
	je	.Laes_v3_BB6_3
# %bb.1:                                # %join.7.preheader
	leaq	1248(%rdi), %r8
	.p2align	4
.Laes_v3_BB6_2:                                # %join.7
                                        # =>This Inner Loop Header: Depth=1
	vpxor	%ymm6, %ymm10, %ymm15
	vpxor	%ymm3, %ymm9, %ymm6
	vpxor	%ymm1, %ymm9, %ymm12
	vpxor	%ymm3, %ymm4, %ymm8
	vpxor	%ymm8, %ymm12, %ymm14
	vmovdqa	%ymm8, 256(%rsp)                # 32-byte Spill
	vpxor	%ymm5, %ymm14, %ymm2
	vmovdqa	%ymm14, 224(%rsp)               # 32-byte Spill
	vpxor	%ymm4, %ymm2, %ymm7
	vpxor	%ymm2, %ymm10, %ymm2
	vpxor	%ymm4, %ymm9, %ymm11
	vmovdqa	%ymm11, 32(%rsp)                # 32-byte Spill
	vmovdqa	%ymm6, 192(%rsp)                # 32-byte Spill
	vpxor	%ymm6, %ymm2, %ymm10
	vpand	%ymm6, %ymm10, %ymm4
	vpxor	%ymm7, %ymm15, %ymm0
	vmovdqa	%ymm0, 160(%rsp)                # 32-byte Spill
	vpxor	%ymm0, %ymm10, %ymm5
	vmovdqa	%ymm5, 288(%rsp)                # 32-byte Spill
	vpand	%ymm5, %ymm8, %ymm6
	vpxor	%ymm4, %ymm6, %ymm6
	vpand	%ymm0, %ymm11, %ymm8
	vpxor	%ymm4, %ymm8, %ymm4
	vmovdqa	%ymm13, %ymm5
	vpxor	%ymm15, %ymm13, %ymm13
	vpxor	%ymm3, %ymm13, %ymm3
	vmovdqa	%ymm3, 128(%rsp)                # 32-byte Spill
	vpand	%ymm5, %ymm3, %ymm3
	vpxor	%ymm3, %ymm11, %ymm3
	vpxor	%ymm0, %ymm3, %ymm3
	vpand	%ymm7, %ymm14, %ymm8
	vpxor	%ymm3, %ymm8, %ymm0
	vpxor	%ymm2, %ymm8, %ymm2
	vpxor	%ymm1, %ymm13, %ymm3
	vpxor	%ymm5, %ymm7, %ymm8
	vmovdqa	%ymm8, 64(%rsp)                 # 32-byte Spill
	vpxor	%ymm3, %ymm11, %ymm1
	vmovdqa	%ymm1, (%rsp)                   # 32-byte Spill
	vpand	%ymm1, %ymm8, %ymm1
	vpxor	%ymm1, %ymm2, %ymm2
	vpxor	%ymm15, %ymm10, %ymm1
	vpxor	%ymm6, %ymm2, %ymm2
	vpand	%ymm3, %ymm13, %ymm15
	vpxor	%ymm1, %ymm15, %ymm15
	vpand	%ymm1, %ymm12, %ymm11
	vpxor	%ymm11, %ymm15, %ymm15
	vpxor	%ymm12, %ymm15, %ymm15
	vpxor	%ymm6, %ymm15, %ymm6
	vpxor	%ymm9, %ymm11, %ymm11
	vpxor	%ymm9, %ymm13, %ymm15
	vpxor	%ymm5, %ymm10, %ymm8
	vmovdqa	%ymm8, 96(%rsp)                 # 32-byte Spill
	vpand	%ymm15, %ymm8, %ymm8
	vpxor	%ymm1, %ymm8, %ymm8
	vpxor	%ymm11, %ymm8, %ymm8
	vpxor	%ymm4, %ymm0, %ymm0
	vpxor	%ymm4, %ymm8, %ymm4
	vpand	%ymm2, %ymm6, %ymm8
	vpxor	%ymm0, %ymm8, %ymm11
	vpxor	%ymm4, %ymm6, %ymm9
	vpand	%ymm9, %ymm11, %ymm9
	vpxor	%ymm0, %ymm2, %ymm2
	vpxor	%ymm4, %ymm8, %ymm11
	vpand	%ymm2, %ymm11, %ymm14
	vpxor	%ymm0, %ymm14, %ymm0
	vpxor	%ymm8, %ymm9, %ymm8
	vpxor	%ymm4, %ymm9, %ymm9
	vpand	%ymm4, %ymm8, %ymm4
	vpxor	%ymm4, %ymm11, %ymm8
	vpand	%ymm0, %ymm8, %ymm8
	vpxor	%ymm2, %ymm8, %ymm8
	vpxor	%ymm6, %ymm4, %ymm2
	vpxor	%ymm0, %ymm8, %ymm6
	vpand	%ymm1, %ymm6, %ymm4
	vpand	%ymm6, %ymm12, %ymm12
	vpand	%ymm13, %ymm8, %ymm6
	vpand	%ymm3, %ymm8, %ymm13
	vpxor	%ymm2, %ymm9, %ymm11
	vpxor	%ymm11, %ymm8, %ymm1
	vpand	64(%rsp), %ymm11, %ymm8         # 32-byte Folded Reload
	vpand	(%rsp), %ymm11, %ymm11          # 32-byte Folded Reload
	vpand	128(%rsp), %ymm9, %ymm3         # 32-byte Folded Reload
	vmovdqa	%ymm3, 128(%rsp)                # 32-byte Spill
	vpand	%ymm5, %ymm9, %ymm14
	vpxor	%ymm0, %ymm9, %ymm9
	vpand	%ymm10, %ymm9, %ymm3
	vmovdqa	%ymm3, (%rsp)                   # 32-byte Spill
	vpand	192(%rsp), %ymm9, %ymm10        # 32-byte Folded Reload
	vpxor	%ymm1, %ymm9, %ymm9
	vpand	256(%rsp), %ymm9, %ymm3         # 32-byte Folded Reload
	vpand	288(%rsp), %ymm9, %ymm9         # 32-byte Folded Reload
	vpand	%ymm0, %ymm15, %ymm15
	vpand	96(%rsp), %ymm0, %ymm0          # 32-byte Folded Reload
	vpand	%ymm7, %ymm2, %ymm7
	vpand	224(%rsp), %ymm2, %ymm2         # 32-byte Folded Reload
	vpxor	%ymm7, %ymm8, %ymm8
	vpxor	%ymm7, %ymm14, %ymm7
	vpxor	%ymm6, %ymm4, %ymm6
	vpxor	%ymm0, %ymm7, %ymm0
	vpxor	%ymm4, %ymm0, %ymm0
	vpxor	%ymm3, %ymm10, %ymm3
	vpxor	%ymm3, %ymm11, %ymm4
	vpxor	%ymm0, %ymm13, %ymm5
	vpxor	%ymm5, %ymm3, %ymm5
	vpand	160(%rsp), %ymm1, %ymm3         # 32-byte Folded Reload
	vpxor	%ymm6, %ymm9, %ymm9
	vpxor	%ymm2, %ymm4, %ymm2
	vpxor	%ymm6, %ymm8, %ymm6
	vpxor	%ymm7, %ymm3, %ymm3
	vpxor	%ymm3, %ymm12, %ymm3
	vpxor	%ymm3, %ymm9, %ymm7
	vpxor	%ymm7, %ymm15, %ymm11
	vpxor	%ymm2, %ymm6, %ymm3
	vpxor	%ymm7, %ymm5, %ymm8
	vpxor	(%rsp), %ymm9, %ymm9            # 32-byte Folded Reload
	vpxor	%ymm3, %ymm9, %ymm6
	vpxor	%ymm5, %ymm12, %ymm5
	vpxor	128(%rsp), %ymm4, %ymm4         # 32-byte Folded Reload
	vpxor	%ymm0, %ymm3, %ymm7
	vpand	32(%rsp), %ymm1, %ymm0          # 32-byte Folded Reload
	vpxor	%ymm4, %ymm11, %ymm4
	vpxor	%ymm2, %ymm9, %ymm13
	vpxor	%ymm0, %ymm10, %ymm0
	vpxor	%ymm0, %ymm9, %ymm0
	vpxor	%ymm0, %ymm11, %ymm2
	vbroadcasti128	.Laes_v3_CPI6_4(%rip), %ymm12  # ymm12 = [5,6,7,4,9,10,11,8,13,14,15,12,1,2,3,0,5,6,7,4,9,10,11,8,13,14,15,12,1,2,3,0]
                                        # ymm12 = mem[0,1,0,1]
	vpshufb	%ymm12, %ymm5, %ymm10
	vpshufb	%ymm12, %ymm8, %ymm11
	vpshufb	%ymm12, %ymm4, %ymm1
	vpshufb	%ymm12, %ymm7, %ymm0
	vmovdqa	%ymm0, 192(%rsp)                # 32-byte Spill
	vpshufb	%ymm12, %ymm13, %ymm0
	vmovdqa	%ymm0, 160(%rsp)                # 32-byte Spill
	vpxor	%ymm5, %ymm10, %ymm14
	vpxor	%ymm0, %ymm13, %ymm5
	vmovdqa	.Laes_v3_CPI6_1(%rip), %ymm9           # ymm9 = [10,11,8,9,14,15,12,13,2,3,0,1,6,7,4,5,26,27,24,25,30,31,28,29,18,19,16,17,22,23,20,21]
	vpshufb	%ymm9, %ymm14, %ymm13
	vpxor	-992(%r8), %ymm13, %ymm13
	vpxor	%ymm5, %ymm10, %ymm10
	vpxor	%ymm10, %ymm13, %ymm0
	vmovdqa	%ymm0, 32(%rsp)                 # 32-byte Spill
	vpshufb	%ymm12, %ymm3, %ymm15
	vpxor	%ymm8, %ymm11, %ymm8
	vpxor	%ymm14, %ymm11, %ymm11
	vpshufb	%ymm9, %ymm8, %ymm13
	vpxor	-960(%r8), %ymm13, %ymm13
	vpxor	%ymm5, %ymm11, %ymm11
	vpxor	%ymm11, %ymm13, %ymm9
	vmovdqa	%ymm9, 64(%rsp)                 # 32-byte Spill
	vpshufb	%ymm12, %ymm2, %ymm0
	vpshufb	%ymm12, %ymm6, %ymm14
	vpxor	%ymm4, %ymm1, %ymm13
	vmovdqa	192(%rsp), %ymm10               # 32-byte Reload
	vpxor	%ymm7, %ymm10, %ymm4
	vpxor	%ymm3, %ymm15, %ymm3
	vpxor	%ymm2, %ymm0, %ymm7
	vpxor	%ymm6, %ymm14, %ymm6
	vpxor	%ymm1, %ymm8, %ymm2
	vmovdqa	.Laes_v3_CPI6_1(%rip), %ymm1           # ymm1 = [10,11,8,9,14,15,12,13,2,3,0,1,6,7,4,5,26,27,24,25,30,31,28,29,18,19,16,17,22,23,20,21]
	vpshufb	%ymm1, %ymm13, %ymm8
	vpxor	-928(%r8), %ymm8, %ymm8
	vpxor	%ymm2, %ymm8, %ymm2
	vpshufb	%ymm1, %ymm4, %ymm11
	vpxor	%ymm5, %ymm15, %ymm8
	vpxor	%ymm4, %ymm8, %ymm4
	vpshufb	%ymm1, %ymm3, %ymm8
	vpxor	-864(%r8), %ymm8, %ymm8
	vpxor	%ymm4, %ymm8, %ymm12
	vpshufb	%ymm1, %ymm7, %ymm4
	vpxor	%ymm7, %ymm14, %ymm7
	vpshufb	%ymm1, %ymm6, %ymm8
	vpxor	-800(%r8), %ymm8, %ymm8
	vpxor	%ymm7, %ymm8, %ymm15
	vpshufb	%ymm1, %ymm5, %ymm7
	vpxor	-768(%r8), %ymm7, %ymm7
	vpxor	160(%rsp), %ymm6, %ymm1         # 32-byte Folded Reload
	vpxor	%ymm1, %ymm7, %ymm14
	vpxor	-832(%r8), %ymm4, %ymm1
	vpxor	%ymm3, %ymm0, %ymm0
	vpxor	%ymm0, %ymm1, %ymm0
	vpxor	%ymm0, %ymm15, %ymm7
	vpxor	%ymm12, %ymm14, %ymm8
	vpxor	%ymm9, %ymm14, %ymm1
	vmovdqa	%ymm1, 352(%rsp)                # 32-byte Spill
	vpxor	%ymm2, %ymm12, %ymm6
	vpxor	-896(%r8), %ymm11, %ymm0
	vpxor	%ymm6, %ymm1, %ymm11
	vmovdqa	%ymm6, 224(%rsp)                # 32-byte Spill
	vpxor	%ymm5, %ymm13, %ymm3
	vpxor	%ymm3, %ymm10, %ymm3
	vpxor	%ymm3, %ymm0, %ymm0
	vpxor	%ymm0, %ymm11, %ymm0
	vmovdqa	%ymm11, 128(%rsp)               # 32-byte Spill
	vpxor	%ymm2, %ymm0, %ymm1
	vpxor	%ymm0, %ymm15, %ymm0
	vpxor	%ymm2, %ymm14, %ymm15
	vmovdqa	%ymm8, 288(%rsp)                # 32-byte Spill
	vpxor	%ymm0, %ymm8, %ymm9
	vpand	%ymm8, %ymm9, %ymm2
	vpxor	%ymm7, %ymm1, %ymm5
	vpxor	%ymm5, %ymm9, %ymm3
	vmovdqa	%ymm3, 256(%rsp)                # 32-byte Spill
	vpand	%ymm6, %ymm3, %ymm3
	vpxor	%ymm2, %ymm3, %ymm4
	vpand	%ymm5, %ymm15, %ymm3
	vmovdqa	%ymm5, %ymm6
	vmovdqa	%ymm5, 192(%rsp)                # 32-byte Spill
	vpxor	%ymm2, %ymm3, %ymm5
	vmovdqa	32(%rsp), %ymm10                # 32-byte Reload
	vpxor	%ymm7, %ymm10, %ymm13
	vpxor	%ymm12, %ymm13, %ymm2
	vmovdqa	%ymm2, 96(%rsp)                 # 32-byte Spill
	vpand	%ymm2, %ymm10, %ymm3
	vmovdqa	%ymm15, %ymm2
	vmovdqa	%ymm15, 160(%rsp)               # 32-byte Spill
	vpxor	%ymm3, %ymm15, %ymm3
	vmovdqa	%ymm1, (%rsp)                   # 32-byte Spill
	vpand	%ymm1, %ymm11, %ymm15
	vpxor	%ymm6, %ymm15, %ymm11
	vpxor	%ymm3, %ymm11, %ymm6
	vpxor	%ymm0, %ymm15, %ymm0
	vpxor	64(%rsp), %ymm13, %ymm3         # 32-byte Folded Reload
	vpxor	%ymm1, %ymm10, %ymm15
	vpxor	%ymm2, %ymm3, %ymm1
	vmovdqa	%ymm1, 64(%rsp)                 # 32-byte Spill
	vpand	%ymm1, %ymm15, %ymm12
	vpxor	%ymm0, %ymm12, %ymm0
	vpxor	%ymm7, %ymm9, %ymm1
	vpxor	%ymm4, %ymm0, %ymm2
	vpand	%ymm3, %ymm13, %ymm12
	vpxor	%ymm1, %ymm12, %ymm12
	vmovdqa	352(%rsp), %ymm7                # 32-byte Reload
	vpand	%ymm7, %ymm1, %ymm0
	vpxor	%ymm0, %ymm12, %ymm12
	vpxor	%ymm7, %ymm12, %ymm12
	vpxor	%ymm4, %ymm12, %ymm12
	vpxor	%ymm0, %ymm14, %ymm0
	vpxor	%ymm14, %ymm13, %ymm4
	vpxor	%ymm10, %ymm9, %ymm8
	vmovdqa	%ymm8, 320(%rsp)                # 32-byte Spill
	vpand	%ymm4, %ymm8, %ymm10
	vpxor	%ymm1, %ymm10, %ymm10
	vpxor	%ymm0, %ymm10, %ymm0
	vpxor	%ymm5, %ymm6, %ymm6
	vpxor	%ymm5, %ymm0, %ymm5
	vpand	%ymm2, %ymm12, %ymm10
	vpxor	%ymm6, %ymm10, %ymm0
	vpxor	%ymm5, %ymm12, %ymm11
	vpand	%ymm0, %ymm11, %ymm11
	vpxor	%ymm6, %ymm2, %ymm2
	vpxor	%ymm5, %ymm10, %ymm0
	vpand	%ymm2, %ymm0, %ymm14
	vpxor	%ymm6, %ymm14, %ymm6
	vpxor	%ymm10, %ymm11, %ymm10
	vpxor	%ymm5, %ymm11, %ymm14
	vpand	%ymm5, %ymm10, %ymm5
	vpxor	%ymm0, %ymm5, %ymm0
	vpand	%ymm6, %ymm0, %ymm0
	vpxor	%ymm2, %ymm0, %ymm0
	vpxor	%ymm5, %ymm12, %ymm2
	vpxor	%ymm6, %ymm0, %ymm5
	vpand	%ymm1, %ymm5, %ymm1
	vpand	%ymm7, %ymm5, %ymm8
	vpand	%ymm0, %ymm13, %ymm5
	vpand	%ymm3, %ymm0, %ymm12
	vpxor	%ymm2, %ymm14, %ymm10
	vpxor	%ymm0, %ymm10, %ymm3
	vpand	%ymm15, %ymm10, %ymm0
	vpand	64(%rsp), %ymm10, %ymm13        # 32-byte Folded Reload
	vpand	96(%rsp), %ymm14, %ymm7         # 32-byte Folded Reload
	vmovdqa	%ymm7, 96(%rsp)                 # 32-byte Spill
	vpand	32(%rsp), %ymm14, %ymm15        # 32-byte Folded Reload
	vpxor	%ymm6, %ymm14, %ymm14
	vpand	%ymm9, %ymm14, %ymm11
	vpand	288(%rsp), %ymm14, %ymm10       # 32-byte Folded Reload
	vpxor	%ymm3, %ymm14, %ymm9
	vpand	224(%rsp), %ymm9, %ymm14        # 32-byte Folded Reload
	vpand	256(%rsp), %ymm9, %ymm9         # 32-byte Folded Reload
	vpand	%ymm4, %ymm6, %ymm4
	vpand	320(%rsp), %ymm6, %ymm6         # 32-byte Folded Reload
	vpand	(%rsp), %ymm2, %ymm7            # 32-byte Folded Reload
	vpand	128(%rsp), %ymm2, %ymm2         # 32-byte Folded Reload
	vpxor	%ymm0, %ymm7, %ymm0
	vpxor	%ymm7, %ymm15, %ymm7
	vpxor	%ymm5, %ymm1, %ymm5
	vpxor	%ymm6, %ymm7, %ymm6
	vpxor	%ymm1, %ymm6, %ymm1
	vpxor	%ymm10, %ymm14, %ymm6
	vpxor	%ymm6, %ymm13, %ymm13
	vpxor	%ymm1, %ymm12, %ymm12
	vpxor	%ymm6, %ymm12, %ymm12
	vpxor	%ymm5, %ymm9, %ymm6
	vpxor	%ymm5, %ymm0, %ymm0
	vpand	192(%rsp), %ymm3, %ymm5         # 32-byte Folded Reload
	vpxor	%ymm2, %ymm13, %ymm14
	vpxor	%ymm7, %ymm5, %ymm2
	vpxor	%ymm2, %ymm8, %ymm2
	vpxor	%ymm6, %ymm2, %ymm2
	vpxor	%ymm4, %ymm2, %ymm5
	vpxor	%ymm0, %ymm14, %ymm4
	vpxor	%ymm2, %ymm12, %ymm9
	vpxor	%ymm6, %ymm11, %ymm0
	vpxor	%ymm0, %ymm4, %ymm6
	vpxor	%ymm8, %ymm12, %ymm11
	vpxor	96(%rsp), %ymm13, %ymm2         # 32-byte Folded Reload
	vpxor	%ymm1, %ymm4, %ymm7
	vpand	160(%rsp), %ymm3, %ymm1         # 32-byte Folded Reload
	vpxor	%ymm5, %ymm2, %ymm2
	vpxor	%ymm0, %ymm14, %ymm12
	vpxor	%ymm1, %ymm10, %ymm1
	vpxor	%ymm0, %ymm1, %ymm0
	vpxor	%ymm5, %ymm0, %ymm8
	vmovdqa	.Laes_v3_CPI6_2(%rip), %ymm3           # ymm3 = [6,7,4,5,10,11,8,9,14,15,12,13,2,3,0,1,22,23,20,21,26,27,24,25,30,31,28,29,18,19,16,17]
	vpshufb	%ymm3, %ymm11, %ymm13
	vpshufb	%ymm3, %ymm9, %ymm14
	vpshufb	%ymm3, %ymm2, %ymm10
	vpshufb	%ymm3, %ymm7, %ymm0
	vpshufb	%ymm3, %ymm12, %ymm1
	vpxor	%ymm11, %ymm13, %ymm11
	vpxor	%ymm1, %ymm12, %ymm5
	vpshufd	$78, %ymm11, %ymm12             # ymm12 = ymm11[2,3,0,1,6,7,4,5]
	vpxor	-736(%r8), %ymm12, %ymm12
	vpxor	%ymm5, %ymm13, %ymm13
	vpxor	%ymm13, %ymm12, %ymm12
	vmovdqa	%ymm12, (%rsp)                  # 32-byte Spill
	vpshufb	%ymm3, %ymm4, %ymm12
	vpxor	%ymm9, %ymm14, %ymm9
	vpxor	%ymm11, %ymm14, %ymm11
	vpshufd	$78, %ymm9, %ymm13              # ymm13 = ymm9[2,3,0,1,6,7,4,5]
	vpxor	-704(%r8), %ymm13, %ymm13
	vpxor	%ymm5, %ymm11, %ymm11
	vpxor	%ymm11, %ymm13, %ymm11
	vmovdqa	%ymm11, 64(%rsp)                # 32-byte Spill
	vpshufb	%ymm3, %ymm8, %ymm13
	vpshufb	%ymm3, %ymm6, %ymm14
	vpxor	%ymm2, %ymm10, %ymm2
	vpxor	%ymm7, %ymm0, %ymm7
	vpxor	%ymm4, %ymm12, %ymm4
	vpxor	%ymm8, %ymm13, %ymm8
	vpxor	%ymm6, %ymm14, %ymm6
	vpxor	%ymm9, %ymm10, %ymm3
	vpshufd	$78, %ymm2, %ymm9               # ymm9 = ymm2[2,3,0,1,6,7,4,5]
	vpxor	-672(%r8), %ymm9, %ymm9
	vpxor	%ymm3, %ymm9, %ymm3
	vpshufd	$78, %ymm7, %ymm9               # ymm9 = ymm7[2,3,0,1,6,7,4,5]
	vpxor	%ymm5, %ymm12, %ymm10
	vpxor	%ymm7, %ymm10, %ymm7
	vpshufd	$78, %ymm4, %ymm10              # ymm10 = ymm4[2,3,0,1,6,7,4,5]
	vpxor	-608(%r8), %ymm10, %ymm10
	vpxor	%ymm7, %ymm10, %ymm12
	vpshufd	$78, %ymm8, %ymm7               # ymm7 = ymm8[2,3,0,1,6,7,4,5]
	vpxor	%ymm8, %ymm14, %ymm8
	vpshufd	$78, %ymm6, %ymm10              # ymm10 = ymm6[2,3,0,1,6,7,4,5]
	vpxor	-544(%r8), %ymm10, %ymm10
	vpxor	%ymm8, %ymm10, %ymm15
	vpshufd	$78, %ymm5, %ymm8               # ymm8 = ymm5[2,3,0,1,6,7,4,5]
	vpxor	-512(%r8), %ymm8, %ymm8
	vpxor	%ymm6, %ymm1, %ymm1
	vpxor	%ymm1, %ymm8, %ymm14
	vpxor	-576(%r8), %ymm7, %ymm1
	vpxor	%ymm4, %ymm13, %ymm4
	vpxor	%ymm4, %ymm1, %ymm1
	vpxor	%ymm1, %ymm15, %ymm1
	vpxor	%ymm14, %ymm12, %ymm7
	vpxor	%ymm14, %ymm11, %ymm6
	vmovdqa	%ymm6, 32(%rsp)                 # 32-byte Spill
	vpxor	%ymm3, %ymm12, %ymm8
	vpxor	-640(%r8), %ymm9, %ymm4
	vpxor	%ymm6, %ymm8, %ymm11
	vmovdqa	%ymm8, 224(%rsp)                # 32-byte Spill
	vpxor	%ymm5, %ymm2, %ymm2
	vpxor	%ymm0, %ymm2, %ymm0
	vpxor	%ymm0, %ymm4, %ymm0
	vpxor	%ymm0, %ymm11, %ymm0
	vmovdqa	%ymm11, 128(%rsp)               # 32-byte Spill
	vpxor	%ymm3, %ymm0, %ymm10
	vpxor	%ymm0, %ymm15, %ymm0
	vpxor	%ymm3, %ymm14, %ymm6
	vmovdqa	%ymm7, 288(%rsp)                # 32-byte Spill
	vpxor	%ymm7, %ymm0, %ymm9
	vpand	%ymm7, %ymm9, %ymm2
	vpxor	%ymm1, %ymm10, %ymm5
	vpxor	%ymm5, %ymm9, %ymm3
	vmovdqa	%ymm3, 256(%rsp)                # 32-byte Spill
	vpand	%ymm3, %ymm8, %ymm3
	vpxor	%ymm2, %ymm3, %ymm4
	vpand	%ymm6, %ymm5, %ymm3
	vmovdqa	%ymm5, 192(%rsp)                # 32-byte Spill
	vpxor	%ymm2, %ymm3, %ymm8
	vmovdqa	(%rsp), %ymm7                   # 32-byte Reload
	vpxor	%ymm7, %ymm1, %ymm13
	vpxor	%ymm12, %ymm13, %ymm2
	vmovdqa	%ymm2, 96(%rsp)                 # 32-byte Spill
	vpand	%ymm7, %ymm2, %ymm3
	vpxor	%ymm6, %ymm3, %ymm3
	vmovdqa	%ymm6, %ymm2
	vmovdqa	%ymm6, 160(%rsp)                # 32-byte Spill
	vpand	%ymm11, %ymm10, %ymm15
	vpxor	%ymm5, %ymm15, %ymm11
	vpxor	%ymm3, %ymm11, %ymm6
	vpxor	%ymm0, %ymm15, %ymm0
	vpxor	64(%rsp), %ymm13, %ymm3         # 32-byte Folded Reload
	vpxor	%ymm7, %ymm10, %ymm5
	vmovdqa	%ymm5, 352(%rsp)                # 32-byte Spill
	vpxor	%ymm2, %ymm3, %ymm2
	vmovdqa	%ymm2, 64(%rsp)                 # 32-byte Spill
	vpand	%ymm2, %ymm5, %ymm12
	vpxor	%ymm0, %ymm12, %ymm0
	vpxor	%ymm1, %ymm9, %ymm1
	vpxor	%ymm4, %ymm0, %ymm2
	vpand	%ymm3, %ymm13, %ymm12
	vpxor	%ymm1, %ymm12, %ymm12
	vmovdqa	32(%rsp), %ymm5                 # 32-byte Reload
	vpand	%ymm5, %ymm1, %ymm0
	vpxor	%ymm0, %ymm12, %ymm12
	vpxor	%ymm5, %ymm12, %ymm12
	vpxor	%ymm4, %ymm12, %ymm12
	vpxor	%ymm0, %ymm14, %ymm0
	vpxor	%ymm14, %ymm13, %ymm5
	vmovdqa	%ymm5, 384(%rsp)                # 32-byte Spill
	vpxor	%ymm7, %ymm9, %ymm4
	vmovdqa	%ymm4, 320(%rsp)                # 32-byte Spill
	vpand	%ymm5, %ymm4, %ymm11
	vpxor	%ymm1, %ymm11, %ymm11
	vpxor	%ymm0, %ymm11, %ymm0
	vpxor	%ymm6, %ymm8, %ymm6
	vpxor	%ymm0, %ymm8, %ymm5
	vpand	%ymm2, %ymm12, %ymm11
	vpxor	%ymm6, %ymm11, %ymm0
	vpxor	%ymm5, %ymm12, %ymm14
	vpand	%ymm0, %ymm14, %ymm14
	vpxor	%ymm6, %ymm2, %ymm2
	vpxor	%ymm5, %ymm11, %ymm0
	vpand	%ymm2, %ymm0, %ymm15
	vpxor	%ymm6, %ymm15, %ymm6
	vpxor	%ymm11, %ymm14, %ymm11
	vpxor	%ymm5, %ymm14, %ymm14
	vpand	%ymm5, %ymm11, %ymm5
	vpxor	%ymm0, %ymm5, %ymm0
	vpand	%ymm6, %ymm0, %ymm0
	vpxor	%ymm2, %ymm0, %ymm0
	vpxor	%ymm5, %ymm12, %ymm2
	vpxor	%ymm6, %ymm0, %ymm5
	vpand	%ymm1, %ymm5, %ymm1
	vpand	32(%rsp), %ymm5, %ymm8          # 32-byte Folded Reload
	vpand	%ymm0, %ymm13, %ymm11
	vpand	%ymm3, %ymm0, %ymm12
	vpxor	%ymm2, %ymm14, %ymm3
	vpxor	%ymm3, %ymm0, %ymm13
	vpand	352(%rsp), %ymm3, %ymm4         # 32-byte Folded Reload
	vpand	64(%rsp), %ymm3, %ymm15         # 32-byte Folded Reload
	vpand	96(%rsp), %ymm14, %ymm0         # 32-byte Folded Reload
	vmovdqa	%ymm0, 32(%rsp)                 # 32-byte Spill
	vpand	%ymm7, %ymm14, %ymm0
	vpxor	%ymm6, %ymm14, %ymm14
	vpand	%ymm9, %ymm14, %ymm3
	vmovdqa	%ymm3, (%rsp)                   # 32-byte Spill
	vpand	288(%rsp), %ymm14, %ymm3        # 32-byte Folded Reload
	vpxor	%ymm14, %ymm13, %ymm9
	vpand	224(%rsp), %ymm9, %ymm14        # 32-byte Folded Reload
	vpand	256(%rsp), %ymm9, %ymm9         # 32-byte Folded Reload
	vpand	384(%rsp), %ymm6, %ymm5         # 32-byte Folded Reload
	vpand	320(%rsp), %ymm6, %ymm6         # 32-byte Folded Reload
	vpand	%ymm2, %ymm10, %ymm10
	vpand	128(%rsp), %ymm2, %ymm2         # 32-byte Folded Reload
	vpxor	%ymm4, %ymm10, %ymm4
	vpxor	%ymm0, %ymm10, %ymm0
	vpxor	%ymm1, %ymm11, %ymm7
	vpxor	%ymm6, %ymm0, %ymm6
	vpxor	%ymm1, %ymm6, %ymm1
	vpxor	%ymm3, %ymm14, %ymm6
	vpxor	%ymm6, %ymm15, %ymm10
	vpxor	%ymm1, %ymm12, %ymm12
	vpxor	%ymm6, %ymm12, %ymm6
	vpxor	%ymm7, %ymm9, %ymm12
	vpxor	%ymm7, %ymm4, %ymm4
	vpand	192(%rsp), %ymm13, %ymm7        # 32-byte Folded Reload
	vpxor	%ymm2, %ymm10, %ymm14
	vpxor	%ymm0, %ymm7, %ymm0
	vpxor	%ymm0, %ymm8, %ymm0
	vpxor	%ymm0, %ymm12, %ymm0
	vpxor	%ymm5, %ymm0, %ymm15
	vpxor	%ymm4, %ymm14, %ymm2
	vpxor	%ymm0, %ymm6, %ymm9
	vpxor	(%rsp), %ymm12, %ymm0           # 32-byte Folded Reload
	vpxor	%ymm0, %ymm2, %ymm5
	vpxor	%ymm6, %ymm8, %ymm6
	vpxor	32(%rsp), %ymm10, %ymm4         # 32-byte Folded Reload
	vpxor	%ymm1, %ymm2, %ymm7
	vpand	160(%rsp), %ymm13, %ymm8        # 32-byte Folded Reload
	vpxor	%ymm4, %ymm15, %ymm1
	vpxor	%ymm0, %ymm14, %ymm10
	vpxor	%ymm3, %ymm8, %ymm3
	vpxor	%ymm0, %ymm3, %ymm0
	vpxor	%ymm0, %ymm15, %ymm8
	vbroadcasti128	.Laes_v3_CPI6_5(%rip), %ymm3   # ymm3 = [7,4,5,6,11,8,9,10,15,12,13,14,3,0,1,2,7,4,5,6,11,8,9,10,15,12,13,14,3,0,1,2]
                                        # ymm3 = mem[0,1,0,1]
	vpshufb	%ymm3, %ymm6, %ymm12
	vpshufb	%ymm3, %ymm9, %ymm13
	vpshufb	%ymm3, %ymm1, %ymm11
	vpshufb	%ymm3, %ymm7, %ymm15
	vmovdqa	%ymm15, 32(%rsp)                # 32-byte Spill
	vpshufb	%ymm3, %ymm10, %ymm4
	vpxor	%ymm6, %ymm12, %ymm14
	vpxor	%ymm4, %ymm10, %ymm6
	vmovdqa	.Laes_v3_CPI6_1(%rip), %ymm0           # ymm0 = [10,11,8,9,14,15,12,13,2,3,0,1,6,7,4,5,26,27,24,25,30,31,28,29,18,19,16,17,22,23,20,21]
	vpshufb	%ymm0, %ymm14, %ymm10
	vpxor	-480(%r8), %ymm10, %ymm10
	vpxor	%ymm6, %ymm12, %ymm12
	vpxor	%ymm12, %ymm10, %ymm10
	vmovdqa	%ymm10, (%rsp)                  # 32-byte Spill
	vpshufb	%ymm3, %ymm2, %ymm12
	vpxor	%ymm9, %ymm13, %ymm9
	vpxor	%ymm14, %ymm13, %ymm10
	vpshufb	%ymm0, %ymm9, %ymm13
	vpxor	-448(%r8), %ymm13, %ymm13
	vpxor	%ymm6, %ymm10, %ymm10
	vpxor	%ymm10, %ymm13, %ymm0
	vmovdqa	%ymm0, 64(%rsp)                 # 32-byte Spill
	vpshufb	%ymm3, %ymm8, %ymm14
	vpshufb	%ymm3, %ymm5, %ymm3
	vpxor	%ymm1, %ymm11, %ymm1
	vpxor	%ymm7, %ymm15, %ymm7
	vpxor	%ymm2, %ymm12, %ymm15
	vpxor	%ymm8, %ymm14, %ymm8
	vpxor	%ymm5, %ymm3, %ymm5
	vpxor	%ymm9, %ymm11, %ymm2
	vmovdqa	.Laes_v3_CPI6_1(%rip), %ymm10          # ymm10 = [10,11,8,9,14,15,12,13,2,3,0,1,6,7,4,5,26,27,24,25,30,31,28,29,18,19,16,17,22,23,20,21]
	vpshufb	%ymm10, %ymm1, %ymm9
	vpxor	-416(%r8), %ymm9, %ymm9
	vpxor	%ymm2, %ymm9, %ymm2
	vpshufb	%ymm10, %ymm7, %ymm9
	vmovdqa	%ymm9, 160(%rsp)                # 32-byte Spill
	vpxor	%ymm6, %ymm12, %ymm9
	vpxor	%ymm7, %ymm9, %ymm7
	vpshufb	%ymm10, %ymm15, %ymm9
	vpxor	-352(%r8), %ymm9, %ymm9
	vpxor	%ymm7, %ymm9, %ymm11
	vpshufb	%ymm10, %ymm8, %ymm7
	vpxor	%ymm3, %ymm8, %ymm3
	vpshufb	%ymm10, %ymm5, %ymm8
	vpxor	-288(%r8), %ymm8, %ymm8
	vpshufb	%ymm10, %ymm6, %ymm9
	vpxor	%ymm3, %ymm8, %ymm3
	vpxor	-256(%r8), %ymm9, %ymm8
	vpxor	%ymm5, %ymm4, %ymm4
	vpxor	%ymm4, %ymm8, %ymm13
	vpxor	-320(%r8), %ymm7, %ymm4
	vpxor	%ymm15, %ymm14, %ymm5
	vpxor	%ymm5, %ymm4, %ymm4
	vpxor	%ymm3, %ymm4, %ymm15
	vpxor	%ymm13, %ymm11, %ymm5
	vpxor	%ymm0, %ymm13, %ymm7
	vpxor	%ymm2, %ymm11, %ymm9
	vmovdqa	160(%rsp), %ymm0                # 32-byte Reload
	vpxor	-384(%r8), %ymm0, %ymm0
	vpxor	%ymm7, %ymm9, %ymm4
	vmovdqa	%ymm9, 256(%rsp)                # 32-byte Spill
	vpxor	%ymm6, %ymm1, %ymm1
	vpxor	32(%rsp), %ymm1, %ymm1          # 32-byte Folded Reload
	vpxor	%ymm1, %ymm0, %ymm0
	vpxor	%ymm4, %ymm0, %ymm0
	vmovdqa	%ymm4, %ymm6
	vmovdqa	%ymm4, 224(%rsp)                # 32-byte Spill
	vpxor	%ymm2, %ymm0, %ymm14
	vpxor	%ymm3, %ymm0, %ymm0
	vpxor	%ymm2, %ymm13, %ymm3
	vmovdqa	%ymm5, 192(%rsp)                # 32-byte Spill
	vpxor	%ymm5, %ymm0, %ymm8
	vpand	%ymm5, %ymm8, %ymm1
	vpxor	%ymm15, %ymm14, %ymm5
	vpxor	%ymm5, %ymm8, %ymm2
	vmovdqa	%ymm2, 288(%rsp)                # 32-byte Spill
	vpand	%ymm2, %ymm9, %ymm2
	vpxor	%ymm1, %ymm2, %ymm4
	vmovdqa	%ymm3, %ymm2
	vmovdqa	%ymm3, 32(%rsp)                 # 32-byte Spill
	vpand	%ymm3, %ymm5, %ymm3
	vmovdqa	%ymm5, %ymm9
	vmovdqa	%ymm5, 160(%rsp)                # 32-byte Spill
	vpxor	%ymm1, %ymm3, %ymm5
	vmovdqa	(%rsp), %ymm10                  # 32-byte Reload
	vpxor	%ymm10, %ymm15, %ymm12
	vpxor	%ymm11, %ymm12, %ymm1
	vmovdqa	%ymm1, 96(%rsp)                 # 32-byte Spill
	vpand	%ymm1, %ymm10, %ymm1
	vpxor	%ymm2, %ymm1, %ymm1
	vmovdqa	%ymm14, %ymm11
	vmovdqa	%ymm14, 128(%rsp)               # 32-byte Spill
	vpand	%ymm6, %ymm14, %ymm3
	vpxor	%ymm3, %ymm9, %ymm14
	vpxor	%ymm1, %ymm14, %ymm6
	vpxor	%ymm3, %ymm0, %ymm0
	vpxor	64(%rsp), %ymm12, %ymm3         # 32-byte Folded Reload
	vpxor	%ymm10, %ymm11, %ymm14
	vpxor	%ymm2, %ymm3, %ymm1
	vmovdqa	%ymm1, 64(%rsp)                 # 32-byte Spill
	vpand	%ymm1, %ymm14, %ymm1
	vpxor	%ymm1, %ymm0, %ymm0
	vpxor	%ymm15, %ymm8, %ymm1
	vpxor	%ymm4, %ymm0, %ymm2
	vpand	%ymm3, %ymm12, %ymm15
	vpxor	%ymm1, %ymm15, %ymm15
	vpand	%ymm7, %ymm1, %ymm0
	vpxor	%ymm0, %ymm15, %ymm15
	vpxor	%ymm7, %ymm15, %ymm15
	vpxor	%ymm4, %ymm15, %ymm4
	vpxor	%ymm0, %ymm13, %ymm0
	vpxor	%ymm13, %ymm12, %ymm11
	vmovdqa	%ymm11, 352(%rsp)               # 32-byte Spill
	vpxor	%ymm10, %ymm8, %ymm9
	vmovdqa	%ymm9, 320(%rsp)                # 32-byte Spill
	vpand	%ymm11, %ymm9, %ymm11
	vpxor	%ymm1, %ymm11, %ymm11
	vpxor	%ymm0, %ymm11, %ymm0
	vpxor	%ymm5, %ymm6, %ymm6
	vpxor	%ymm5, %ymm0, %ymm5
	vpand	%ymm2, %ymm4, %ymm11
	vpxor	%ymm6, %ymm11, %ymm0
	vpxor	%ymm5, %ymm4, %ymm9
	vpand	%ymm0, %ymm9, %ymm9
	vpxor	%ymm6, %ymm2, %ymm2
	vpxor	%ymm5, %ymm11, %ymm0
	vpand	%ymm2, %ymm0, %ymm13
	vpxor	%ymm6, %ymm13, %ymm6
	vpxor	%ymm11, %ymm9, %ymm11
	vpxor	%ymm5, %ymm9, %ymm9
	vpand	%ymm5, %ymm11, %ymm5
	vpxor	%ymm0, %ymm5, %ymm0
	vpand	%ymm6, %ymm0, %ymm0
	vpxor	%ymm2, %ymm0, %ymm0
	vpxor	%ymm4, %ymm5, %ymm2
	vpxor	%ymm6, %ymm0, %ymm5
	vpand	%ymm1, %ymm5, %ymm4
	vpand	%ymm7, %ymm5, %ymm7
	vpand	%ymm0, %ymm12, %ymm11
	vpand	%ymm3, %ymm0, %ymm15
	vpxor	%ymm2, %ymm9, %ymm5
	vpxor	%ymm5, %ymm0, %ymm1
	vpand	%ymm5, %ymm14, %ymm3
	vpand	64(%rsp), %ymm5, %ymm12         # 32-byte Folded Reload
	vpand	96(%rsp), %ymm9, %ymm0          # 32-byte Folded Reload
	vmovdqa	%ymm0, 96(%rsp)                 # 32-byte Spill
	vpand	%ymm10, %ymm9, %ymm13
	vpxor	%ymm6, %ymm9, %ymm14
	vpand	%ymm8, %ymm14, %ymm8
	vpand	192(%rsp), %ymm14, %ymm9        # 32-byte Folded Reload
	vpxor	%ymm1, %ymm14, %ymm14
	vpand	256(%rsp), %ymm14, %ymm0        # 32-byte Folded Reload
	vpand	288(%rsp), %ymm14, %ymm14       # 32-byte Folded Reload
	vpand	352(%rsp), %ymm6, %ymm5         # 32-byte Folded Reload
	vpand	320(%rsp), %ymm6, %ymm6         # 32-byte Folded Reload
	vpand	128(%rsp), %ymm2, %ymm10        # 32-byte Folded Reload
	vpand	224(%rsp), %ymm2, %ymm2         # 32-byte Folded Reload
	vpxor	%ymm3, %ymm10, %ymm3
	vpxor	%ymm13, %ymm10, %ymm10
	vpxor	%ymm4, %ymm11, %ymm11
	vpxor	%ymm6, %ymm10, %ymm6
	vpxor	%ymm4, %ymm6, %ymm6
	vpxor	%ymm0, %ymm9, %ymm0
	vpxor	%ymm0, %ymm12, %ymm12
	vpxor	%ymm6, %ymm15, %ymm4
	vpxor	%ymm4, %ymm0, %ymm0
	vpxor	%ymm14, %ymm11, %ymm4
	vpxor	%ymm3, %ymm11, %ymm3
	vpand	160(%rsp), %ymm1, %ymm11        # 32-byte Folded Reload
	vpxor	%ymm10, %ymm11, %ymm10
	vpxor	%ymm7, %ymm10, %ymm10
	vpxor	%ymm4, %ymm10, %ymm10
	vpxor	%ymm4, %ymm8, %ymm11
	vpxor	%ymm5, %ymm10, %ymm13
	vpxor	%ymm0, %ymm10, %ymm4
	vpxor	%ymm7, %ymm0, %ymm0
	vpxor	%ymm2, %ymm12, %ymm7
	vpxor	%ymm7, %ymm3, %ymm3
	vpxor	96(%rsp), %ymm12, %ymm5         # 32-byte Folded Reload
	vpxor	%ymm3, %ymm11, %ymm2
	vpxor	%ymm6, %ymm3, %ymm8
	vpand	32(%rsp), %ymm1, %ymm1          # 32-byte Folded Reload
	vpxor	%ymm5, %ymm13, %ymm5
	vpxor	%ymm7, %ymm11, %ymm10
	vpxor	%ymm1, %ymm9, %ymm1
	vpxor	%ymm1, %ymm11, %ymm1
	vpxor	%ymm1, %ymm13, %ymm6
	vpshufd	$57, %ymm0, %ymm1               # ymm1 = ymm0[1,2,3,0,5,6,7,4]
	vpshufd	$57, %ymm4, %ymm9               # ymm9 = ymm4[1,2,3,0,5,6,7,4]
	vpshufd	$57, %ymm10, %ymm7              # ymm7 = ymm10[1,2,3,0,5,6,7,4]
	vpxor	%ymm0, %ymm1, %ymm11
	vpxor	%ymm7, %ymm10, %ymm0
	vpshufd	$78, %ymm11, %ymm10             # ymm10 = ymm11[2,3,0,1,6,7,4,5]
	vpxor	-224(%r8), %ymm10, %ymm10
	vpxor	%ymm0, %ymm1, %ymm1
	vpxor	%ymm1, %ymm10, %ymm13
	vpshufd	$57, %ymm5, %ymm10              # ymm10 = ymm5[1,2,3,0,5,6,7,4]
	vpxor	%ymm4, %ymm9, %ymm4
	vpxor	%ymm11, %ymm9, %ymm1
	vpshufd	$78, %ymm4, %ymm9               # ymm9 = ymm4[2,3,0,1,6,7,4,5]
	vpxor	-192(%r8), %ymm9, %ymm9
	vpxor	%ymm0, %ymm1, %ymm1
	vpxor	%ymm1, %ymm9, %ymm1
	vpshufd	$57, %ymm8, %ymm9               # ymm9 = ymm8[1,2,3,0,5,6,7,4]
	vpxor	%ymm5, %ymm10, %ymm5
	vpxor	%ymm4, %ymm10, %ymm4
	vpshufd	$78, %ymm5, %ymm10              # ymm10 = ymm5[2,3,0,1,6,7,4,5]
	vpxor	-160(%r8), %ymm10, %ymm10
	vpxor	%ymm4, %ymm10, %ymm4
	vpshufd	$57, %ymm3, %ymm10              # ymm10 = ymm3[1,2,3,0,5,6,7,4]
	vpxor	%ymm8, %ymm9, %ymm8
	vpxor	%ymm0, %ymm5, %ymm5
	vpxor	%ymm5, %ymm9, %ymm5
	vpshufd	$78, %ymm8, %ymm9               # ymm9 = ymm8[2,3,0,1,6,7,4,5]
	vpxor	-128(%r8), %ymm9, %ymm9
	vpxor	%ymm5, %ymm9, %ymm5
	vpshufd	$57, %ymm6, %ymm9               # ymm9 = ymm6[1,2,3,0,5,6,7,4]
	vpxor	%ymm3, %ymm10, %ymm11
	vpxor	%ymm6, %ymm9, %ymm12
	vpxor	%ymm0, %ymm10, %ymm3
	vpxor	%ymm3, %ymm8, %ymm3
	vpshufd	$78, %ymm11, %ymm6              # ymm6 = ymm11[2,3,0,1,6,7,4,5]
	vpxor	-96(%r8), %ymm6, %ymm6
	vpxor	%ymm3, %ymm6, %ymm3
	vpshufd	$78, %ymm12, %ymm6              # ymm6 = ymm12[2,3,0,1,6,7,4,5]
	vpxor	-64(%r8), %ymm6, %ymm6
	vpxor	%ymm11, %ymm9, %ymm8
	vpxor	%ymm6, %ymm8, %ymm6
	vpshufd	$57, %ymm2, %ymm8               # ymm8 = ymm2[1,2,3,0,5,6,7,4]
	vpxor	%ymm2, %ymm8, %ymm2
	vpxor	%ymm12, %ymm8, %ymm8
	vpshufd	$78, %ymm2, %ymm9               # ymm9 = ymm2[2,3,0,1,6,7,4,5]
	vpxor	-32(%r8), %ymm9, %ymm9
	vpxor	%ymm8, %ymm9, %ymm10
	vpshufd	$78, %ymm0, %ymm0               # ymm0 = ymm0[2,3,0,1,6,7,4,5]
	vpxor	(%r8), %ymm0, %ymm0
	vpxor	%ymm2, %ymm7, %ymm2
	vpxor	%ymm2, %ymm0, %ymm9
	addq	$1024, %r8                      # imm = 0x400
	decq	%rcx
	jne	.Laes_v3_BB6_2
.Laes_v3_BB6_3:                                # %after.3
	vpxor	%ymm6, %ymm10, %ymm2
	vpxor	%ymm3, %ymm9, %ymm11
	vpxor	%ymm1, %ymm9, %ymm12
	vpxor	%ymm3, %ymm4, %ymm7
	vpxor	%ymm7, %ymm12, %ymm15
	vmovdqa	%ymm7, 256(%rsp)                # 32-byte Spill
	vpxor	%ymm5, %ymm15, %ymm0
	vmovdqa	%ymm15, 224(%rsp)               # 32-byte Spill
	vpxor	%ymm4, %ymm0, %ymm8
	vpxor	%ymm0, %ymm10, %ymm14
	vpxor	%ymm4, %ymm9, %ymm0
	vmovdqa	%ymm0, 32(%rsp)                 # 32-byte Spill
	vmovdqa	%ymm11, 192(%rsp)               # 32-byte Spill
	vpxor	%ymm11, %ymm14, %ymm10
	vpand	%ymm11, %ymm10, %ymm4
	vpxor	%ymm2, %ymm8, %ymm11
	vmovdqa	%ymm11, 160(%rsp)               # 32-byte Spill
	vpxor	%ymm11, %ymm10, %ymm5
	vmovdqa	%ymm5, 288(%rsp)                # 32-byte Spill
	vpand	%ymm7, %ymm5, %ymm6
	vpxor	%ymm4, %ymm6, %ymm5
	vpand	%ymm0, %ymm11, %ymm6
	vpxor	%ymm4, %ymm6, %ymm4
	vmovdqa	%ymm13, %ymm7
	vpxor	%ymm2, %ymm13, %ymm13
	vpxor	%ymm3, %ymm13, %ymm3
	vmovdqa	%ymm3, 128(%rsp)                # 32-byte Spill
	vpand	%ymm7, %ymm3, %ymm3
	vpxor	%ymm0, %ymm3, %ymm3
	vpxor	%ymm3, %ymm11, %ymm3
	vpand	%ymm15, %ymm8, %ymm6
	vpxor	%ymm6, %ymm3, %ymm3
	vpxor	%ymm6, %ymm14, %ymm6
	vpxor	%ymm1, %ymm13, %ymm15
	vpxor	%ymm7, %ymm8, %ymm1
	vmovdqa	%ymm1, 64(%rsp)                 # 32-byte Spill
	vpxor	%ymm0, %ymm15, %ymm0
	vmovdqa	%ymm0, (%rsp)                   # 32-byte Spill
	vpand	%ymm0, %ymm1, %ymm1
	vpxor	%ymm1, %ymm6, %ymm6
	vpxor	%ymm2, %ymm10, %ymm1
	vpxor	%ymm5, %ymm6, %ymm2
	vpand	%ymm13, %ymm15, %ymm6
	vpxor	%ymm6, %ymm1, %ymm6
	vpand	%ymm1, %ymm12, %ymm0
	vpxor	%ymm0, %ymm6, %ymm6
	vpxor	%ymm6, %ymm12, %ymm6
	vpxor	%ymm5, %ymm6, %ymm5
	vpxor	%ymm0, %ymm9, %ymm0
	vpxor	%ymm9, %ymm13, %ymm9
	vmovdqa	%ymm9, 320(%rsp)                # 32-byte Spill
	vpxor	%ymm7, %ymm10, %ymm6
	vmovdqa	%ymm6, 96(%rsp)                 # 32-byte Spill
	vpand	%ymm6, %ymm9, %ymm11
	vpxor	%ymm1, %ymm11, %ymm11
	vpxor	%ymm0, %ymm11, %ymm0
	vpxor	%ymm4, %ymm3, %ymm3
	vpxor	%ymm4, %ymm0, %ymm4
	vpand	%ymm2, %ymm5, %ymm11
	vpxor	%ymm3, %ymm11, %ymm0
	vpxor	%ymm4, %ymm5, %ymm9
	vpand	%ymm0, %ymm9, %ymm9
	vpxor	%ymm3, %ymm2, %ymm2
	vpxor	%ymm4, %ymm11, %ymm0
	vpand	%ymm2, %ymm0, %ymm14
	vpxor	%ymm3, %ymm14, %ymm3
	vpxor	%ymm11, %ymm9, %ymm11
	vpxor	%ymm4, %ymm9, %ymm9
	vpand	%ymm4, %ymm11, %ymm4
	vpxor	%ymm0, %ymm4, %ymm0
	vpand	%ymm3, %ymm0, %ymm0
	vpxor	%ymm2, %ymm0, %ymm0
	vpxor	%ymm5, %ymm4, %ymm2
	vpxor	%ymm3, %ymm0, %ymm4
	vpand	%ymm1, %ymm4, %ymm5
	vpand	%ymm4, %ymm12, %ymm12
	vpand	%ymm0, %ymm13, %ymm6
	vpand	%ymm0, %ymm15, %ymm11
	vpxor	%ymm2, %ymm9, %ymm4
	vpxor	%ymm4, %ymm0, %ymm13
	vpand	64(%rsp), %ymm4, %ymm14         # 32-byte Folded Reload
	vpand	(%rsp), %ymm4, %ymm15           # 32-byte Folded Reload
	vpand	128(%rsp), %ymm9, %ymm0         # 32-byte Folded Reload
	vmovdqa	%ymm0, 128(%rsp)                # 32-byte Spill
	vpand	%ymm7, %ymm9, %ymm0
	vpxor	%ymm3, %ymm9, %ymm9
	vpand	%ymm10, %ymm9, %ymm1
	vmovdqa	%ymm1, (%rsp)                   # 32-byte Spill
	vpand	192(%rsp), %ymm9, %ymm10        # 32-byte Folded Reload
	vpxor	%ymm9, %ymm13, %ymm9
	vpand	256(%rsp), %ymm9, %ymm1         # 32-byte Folded Reload
	vpand	288(%rsp), %ymm9, %ymm9         # 32-byte Folded Reload
	vpand	320(%rsp), %ymm3, %ymm4         # 32-byte Folded Reload
	vpand	96(%rsp), %ymm3, %ymm3          # 32-byte Folded Reload
	vpand	%ymm2, %ymm8, %ymm7
	vpand	224(%rsp), %ymm2, %ymm2         # 32-byte Folded Reload
	vpxor	%ymm7, %ymm14, %ymm14
	vpxor	%ymm0, %ymm7, %ymm0
	vpxor	%ymm6, %ymm5, %ymm6
	vpxor	%ymm3, %ymm0, %ymm3
	vpxor	%ymm5, %ymm3, %ymm3
	vpxor	%ymm1, %ymm10, %ymm1
	vpxor	%ymm1, %ymm15, %ymm7
	vpxor	%ymm3, %ymm11, %ymm5
	vpxor	%ymm5, %ymm1, %ymm1
	vpxor	%ymm6, %ymm9, %ymm11
	vpxor	%ymm6, %ymm14, %ymm5
	vpand	160(%rsp), %ymm13, %ymm6        # 32-byte Folded Reload
	vpxor	%ymm0, %ymm6, %ymm0
	movq	%rax, %rcx
	andq	$-4, %rcx
	vpxor	%ymm2, %ymm7, %ymm6
	vpxor	%ymm0, %ymm12, %ymm0
	vpxor	%ymm0, %ymm11, %ymm0
	vpxor	%ymm4, %ymm0, %ymm4
	vpxor	%ymm6, %ymm5, %ymm5
	vpxor	%ymm0, %ymm1, %ymm9
	vpxor	(%rsp), %ymm11, %ymm0           # 32-byte Folded Reload
	vpxor	%ymm0, %ymm5, %ymm2
	vpxor	%ymm1, %ymm12, %ymm1
	vpxor	128(%rsp), %ymm7, %ymm7         # 32-byte Folded Reload
	vpxor	%ymm3, %ymm5, %ymm8
	vpand	32(%rsp), %ymm13, %ymm11        # 32-byte Folded Reload
	vpxor	%ymm4, %ymm7, %ymm3
	vpxor	%ymm0, %ymm6, %ymm12
	vpxor	%ymm10, %ymm11, %ymm6
	vpxor	%ymm0, %ymm6, %ymm0
	vpxor	%ymm4, %ymm0, %ymm7
	vbroadcasti128	.Laes_v3_CPI6_4(%rip), %ymm6   # ymm6 = [5,6,7,4,9,10,11,8,13,14,15,12,1,2,3,0,5,6,7,4,9,10,11,8,13,14,15,12,1,2,3,0]
                                        # ymm6 = mem[0,1,0,1]
	vpshufb	%ymm6, %ymm1, %ymm10
	vpshufb	%ymm6, %ymm9, %ymm11
	vpshufb	%ymm6, %ymm12, %ymm4
	vpxor	%ymm1, %ymm10, %ymm1
	vpxor	%ymm4, %ymm12, %ymm0
	vmovdqa	.Laes_v3_CPI6_1(%rip), %ymm14          # ymm14 = [10,11,8,9,14,15,12,13,2,3,0,1,6,7,4,5,26,27,24,25,30,31,28,29,18,19,16,17,22,23,20,21]
	vpshufb	%ymm14, %ymm1, %ymm12
	movq	%rcx, %r8
	shlq	$8, %r8
	vpxor	256(%rdi,%r8), %ymm12, %ymm12
	vpxor	%ymm0, %ymm10, %ymm10
	vpxor	%ymm10, %ymm12, %ymm15
	vpshufb	%ymm6, %ymm3, %ymm10
	vpxor	%ymm9, %ymm11, %ymm12
	vpxor	%ymm1, %ymm11, %ymm1
	vpshufb	%ymm14, %ymm12, %ymm9
	vpxor	288(%rdi,%r8), %ymm9, %ymm9
	vpxor	%ymm0, %ymm1, %ymm1
	vpxor	%ymm1, %ymm9, %ymm9
	vpshufb	%ymm6, %ymm8, %ymm1
	vpxor	%ymm3, %ymm10, %ymm11
	vpxor	%ymm12, %ymm10, %ymm3
	vpshufb	%ymm14, %ymm11, %ymm10
	vpxor	320(%rdi,%r8), %ymm10, %ymm10
	vpxor	%ymm3, %ymm10, %ymm3
	vpshufb	%ymm6, %ymm5, %ymm12
	vpxor	%ymm1, %ymm8, %ymm8
	vpxor	%ymm0, %ymm11, %ymm10
	vpxor	%ymm1, %ymm10, %ymm1
	vpshufb	%ymm14, %ymm8, %ymm10
	vpxor	352(%rdi,%r8), %ymm10, %ymm10
	vpxor	%ymm1, %ymm10, %ymm10
	vpshufb	%ymm6, %ymm7, %ymm1
	vpxor	%ymm5, %ymm12, %ymm5
	vpxor	%ymm7, %ymm1, %ymm11
	vpxor	%ymm0, %ymm12, %ymm7
	vpxor	%ymm7, %ymm8, %ymm7
	vpshufb	%ymm14, %ymm5, %ymm8
	vpxor	384(%rdi,%r8), %ymm8, %ymm8
	vpxor	%ymm7, %ymm8, %ymm13
	vpshufb	%ymm14, %ymm11, %ymm7
	vpxor	416(%rdi,%r8), %ymm7, %ymm7
	vpxor	%ymm5, %ymm1, %ymm1
	vpxor	%ymm1, %ymm7, %ymm7
	vpshufb	%ymm6, %ymm2, %ymm1
	vpxor	%ymm2, %ymm1, %ymm2
	vpxor	%ymm1, %ymm11, %ymm1
	vpshufb	%ymm14, %ymm2, %ymm5
	vpxor	448(%rdi,%r8), %ymm5, %ymm5
	vpxor	%ymm1, %ymm5, %ymm11
	vpshufb	%ymm14, %ymm0, %ymm0
	vpxor	480(%rdi,%r8), %ymm0, %ymm0
	vpxor	%ymm2, %ymm4, %ymm1
	vpxor	%ymm1, %ymm0, %ymm5
	orq	$2, %rcx
	cmpq	%rsi, %rcx
	jae	.Laes_v3_BB6_5
# %bb.4:                                # %then.11
	vpxor	%ymm7, %ymm11, %ymm12
	vpxor	%ymm5, %ymm13, %ymm7
	vpxor	%ymm5, %ymm9, %ymm1
	vmovdqa	%ymm1, 352(%rsp)                # 32-byte Spill
	vpxor	%ymm3, %ymm13, %ymm8
	vpxor	%ymm1, %ymm8, %ymm2
	vmovdqa	%ymm8, 256(%rsp)                # 32-byte Spill
	vpxor	%ymm2, %ymm10, %ymm0
	vmovdqa	%ymm2, 224(%rsp)                # 32-byte Spill
	vpxor	%ymm3, %ymm0, %ymm4
	vpxor	%ymm0, %ymm11, %ymm0
	vpxor	%ymm3, %ymm5, %ymm6
	vmovdqa	%ymm7, 192(%rsp)                # 32-byte Spill
	vpxor	%ymm7, %ymm0, %ymm10
	vpand	%ymm7, %ymm10, %ymm1
	vmovdqa	%ymm4, %ymm11
	vpxor	%ymm4, %ymm12, %ymm7
	vpxor	%ymm7, %ymm10, %ymm3
	vmovdqa	%ymm3, 288(%rsp)                # 32-byte Spill
	vpand	%ymm3, %ymm8, %ymm3
	vpxor	%ymm1, %ymm3, %ymm4
	vpand	%ymm6, %ymm7, %ymm3
	vmovdqa	%ymm7, 160(%rsp)                # 32-byte Spill
	vpxor	%ymm1, %ymm3, %ymm1
	vpxor	%ymm15, %ymm12, %ymm14
	vpxor	%ymm13, %ymm14, %ymm3
	vmovdqa	%ymm3, (%rsp)                   # 32-byte Spill
	vpand	%ymm3, %ymm15, %ymm3
	vpxor	%ymm6, %ymm3, %ymm3
	vmovdqa	%ymm6, %ymm13
	vmovdqa	%ymm6, 32(%rsp)                 # 32-byte Spill
	vpand	%ymm2, %ymm11, %ymm8
	vmovdqa	%ymm11, %ymm2
	vmovdqa	%ymm11, 128(%rsp)               # 32-byte Spill
	vpxor	%ymm7, %ymm8, %ymm11
	vpxor	%ymm3, %ymm11, %ymm6
	vpxor	%ymm0, %ymm8, %ymm0
	vpxor	%ymm9, %ymm14, %ymm7
	vpxor	%ymm2, %ymm15, %ymm3
	vmovdqa	%ymm3, 320(%rsp)                # 32-byte Spill
	vpxor	%ymm7, %ymm13, %ymm2
	vmovdqa	%ymm2, 96(%rsp)                 # 32-byte Spill
	vpand	%ymm2, %ymm3, %ymm9
	vpxor	%ymm0, %ymm9, %ymm9
	vpxor	%ymm12, %ymm10, %ymm3
	vpxor	%ymm4, %ymm9, %ymm2
	vpand	%ymm7, %ymm14, %ymm9
	vpxor	%ymm3, %ymm9, %ymm9
	vmovdqa	%ymm15, %ymm8
	vmovdqa	352(%rsp), %ymm12               # 32-byte Reload
	vpand	%ymm3, %ymm12, %ymm15
	vpxor	%ymm15, %ymm9, %ymm9
	vpxor	%ymm12, %ymm9, %ymm9
	vpxor	%ymm4, %ymm9, %ymm4
	vpxor	%ymm5, %ymm15, %ymm15
	vpxor	%ymm5, %ymm14, %ymm9
	vpxor	%ymm8, %ymm10, %ymm0
	vmovdqa	%ymm0, 64(%rsp)                 # 32-byte Spill
	vpand	%ymm0, %ymm9, %ymm13
	vpxor	%ymm3, %ymm13, %ymm13
	vpxor	%ymm15, %ymm13, %ymm13
	vpxor	%ymm1, %ymm6, %ymm6
	vpxor	%ymm1, %ymm13, %ymm13
	vpand	%ymm2, %ymm4, %ymm15
	vpxor	%ymm6, %ymm15, %ymm1
	vpxor	%ymm4, %ymm13, %ymm11
	vpand	%ymm1, %ymm11, %ymm11
	vpxor	%ymm6, %ymm2, %ymm2
	vpxor	%ymm13, %ymm15, %ymm0
	vpand	%ymm2, %ymm0, %ymm1
	vpxor	%ymm6, %ymm1, %ymm1
	vpxor	%ymm15, %ymm11, %ymm6
	vpxor	%ymm13, %ymm11, %ymm15
	vpand	%ymm6, %ymm13, %ymm6
	vpxor	%ymm0, %ymm6, %ymm0
	vpand	%ymm1, %ymm0, %ymm0
	vpxor	%ymm2, %ymm0, %ymm0
	vpxor	%ymm4, %ymm6, %ymm2
	vpxor	%ymm1, %ymm0, %ymm6
	vpand	%ymm3, %ymm6, %ymm5
	vpand	%ymm6, %ymm12, %ymm12
	vpand	%ymm0, %ymm14, %ymm6
	vpand	%ymm7, %ymm0, %ymm11
	vpxor	%ymm2, %ymm15, %ymm7
	vpxor	%ymm7, %ymm0, %ymm4
	vpand	320(%rsp), %ymm7, %ymm13        # 32-byte Folded Reload
	vpand	96(%rsp), %ymm7, %ymm7          # 32-byte Folded Reload
	vpand	(%rsp), %ymm15, %ymm0           # 32-byte Folded Reload
	vmovdqa	%ymm0, (%rsp)                   # 32-byte Spill
	vpand	%ymm8, %ymm15, %ymm14
	vpxor	%ymm1, %ymm15, %ymm15
	vpand	%ymm10, %ymm15, %ymm10
	vpand	192(%rsp), %ymm15, %ymm8        # 32-byte Folded Reload
	vpxor	%ymm4, %ymm15, %ymm15
	vpand	256(%rsp), %ymm15, %ymm3        # 32-byte Folded Reload
	vpand	288(%rsp), %ymm15, %ymm15       # 32-byte Folded Reload
	vpand	%ymm1, %ymm9, %ymm9
	vpand	64(%rsp), %ymm1, %ymm1          # 32-byte Folded Reload
	vpand	128(%rsp), %ymm2, %ymm0         # 32-byte Folded Reload
	vpand	224(%rsp), %ymm2, %ymm2         # 32-byte Folded Reload
	vpxor	%ymm0, %ymm13, %ymm13
	vpxor	%ymm0, %ymm14, %ymm0
	vpxor	%ymm6, %ymm5, %ymm6
	vpxor	%ymm1, %ymm0, %ymm1
	vpxor	%ymm5, %ymm1, %ymm1
	vpxor	%ymm3, %ymm8, %ymm3
	vpxor	%ymm7, %ymm3, %ymm5
	vpxor	%ymm1, %ymm11, %ymm7
	vpxor	%ymm7, %ymm3, %ymm7
	vpxor	%ymm6, %ymm15, %ymm11
	vpxor	%ymm6, %ymm13, %ymm3
	vpand	160(%rsp), %ymm4, %ymm6         # 32-byte Folded Reload
	vpxor	%ymm2, %ymm5, %ymm13
	vpxor	%ymm0, %ymm6, %ymm0
	vpxor	%ymm0, %ymm12, %ymm0
	vpxor	%ymm0, %ymm11, %ymm0
	vpxor	%ymm0, %ymm9, %ymm14
	vpxor	%ymm3, %ymm13, %ymm3
	vpxor	%ymm0, %ymm7, %ymm9
	vpxor	%ymm10, %ymm11, %ymm0
	vpxor	%ymm0, %ymm3, %ymm6
	vpxor	%ymm7, %ymm12, %ymm11
	vpxor	(%rsp), %ymm5, %ymm5            # 32-byte Folded Reload
	vpxor	%ymm1, %ymm3, %ymm2
	vpand	32(%rsp), %ymm4, %ymm1          # 32-byte Folded Reload
	vpxor	%ymm5, %ymm14, %ymm7
	vpxor	%ymm0, %ymm13, %ymm5
	vpxor	%ymm1, %ymm8, %ymm1
	vpxor	%ymm0, %ymm1, %ymm0
	vpxor	%ymm0, %ymm14, %ymm8
	vmovdqa	.Laes_v3_CPI6_2(%rip), %ymm4           # ymm4 = [6,7,4,5,10,11,8,9,14,15,12,13,2,3,0,1,22,23,20,21,26,27,24,25,30,31,28,29,18,19,16,17]
	vpshufb	%ymm4, %ymm11, %ymm12
	vpshufb	%ymm4, %ymm9, %ymm13
	vpshufb	%ymm4, %ymm7, %ymm10
	vpshufb	%ymm4, %ymm2, %ymm15
	vpshufb	%ymm4, %ymm5, %ymm1
	vpxor	%ymm11, %ymm12, %ymm11
	vpxor	%ymm5, %ymm1, %ymm5
	vpshufd	$78, %ymm11, %ymm14             # ymm14 = ymm11[2,3,0,1,6,7,4,5]
	shlq	$8, %rax
	vpxor	(%rdi,%rax), %ymm14, %ymm14
	vpxor	%ymm5, %ymm12, %ymm12
	vpxor	%ymm12, %ymm14, %ymm0
	vmovdqa	%ymm0, (%rsp)                   # 32-byte Spill
	vpshufb	%ymm4, %ymm3, %ymm12
	vpxor	%ymm9, %ymm13, %ymm9
	vpxor	%ymm11, %ymm13, %ymm11
	vpshufd	$78, %ymm9, %ymm13              # ymm13 = ymm9[2,3,0,1,6,7,4,5]
	vpxor	32(%rdi,%rax), %ymm13, %ymm13
	vpxor	%ymm5, %ymm11, %ymm11
	vpxor	%ymm11, %ymm13, %ymm0
	vmovdqa	%ymm0, 64(%rsp)                 # 32-byte Spill
	vpshufb	%ymm4, %ymm8, %ymm13
	vpshufb	%ymm4, %ymm6, %ymm4
	vpxor	%ymm7, %ymm10, %ymm7
	vpxor	%ymm2, %ymm15, %ymm14
	vpxor	%ymm3, %ymm12, %ymm3
	vpxor	%ymm8, %ymm13, %ymm8
	vpxor	%ymm6, %ymm4, %ymm6
	vpxor	%ymm9, %ymm10, %ymm2
	vpshufd	$78, %ymm7, %ymm9               # ymm9 = ymm7[2,3,0,1,6,7,4,5]
	vpxor	64(%rdi,%rax), %ymm9, %ymm9
	vpxor	%ymm2, %ymm9, %ymm2
	vpshufd	$78, %ymm14, %ymm9              # ymm9 = ymm14[2,3,0,1,6,7,4,5]
	vpxor	%ymm5, %ymm12, %ymm10
	vpxor	%ymm14, %ymm10, %ymm10
	vpshufd	$78, %ymm3, %ymm12              # ymm12 = ymm3[2,3,0,1,6,7,4,5]
	vpxor	128(%rdi,%rax), %ymm12, %ymm12
	vpxor	%ymm10, %ymm12, %ymm12
	vpshufd	$78, %ymm8, %ymm10              # ymm10 = ymm8[2,3,0,1,6,7,4,5]
	vpxor	%ymm4, %ymm8, %ymm4
	vpshufd	$78, %ymm6, %ymm8               # ymm8 = ymm6[2,3,0,1,6,7,4,5]
	vpxor	192(%rdi,%rax), %ymm8, %ymm8
	vpxor	%ymm4, %ymm8, %ymm4
	vpshufd	$78, %ymm5, %ymm8               # ymm8 = ymm5[2,3,0,1,6,7,4,5]
	vpxor	224(%rdi,%rax), %ymm8, %ymm8
	vpxor	%ymm6, %ymm1, %ymm1
	vpxor	%ymm1, %ymm8, %ymm14
	vpxor	160(%rdi,%rax), %ymm10, %ymm1
	vpxor	%ymm3, %ymm13, %ymm3
	vpxor	%ymm3, %ymm1, %ymm1
	vpxor	%ymm4, %ymm1, %ymm1
	vpxor	%ymm12, %ymm14, %ymm11
	vpxor	%ymm0, %ymm14, %ymm6
	vmovdqa	%ymm6, 32(%rsp)                 # 32-byte Spill
	vpxor	%ymm2, %ymm12, %ymm8
	vpxor	96(%rdi,%rax), %ymm9, %ymm3
	vpxor	%ymm6, %ymm8, %ymm6
	vmovdqa	%ymm8, 224(%rsp)                # 32-byte Spill
	vpxor	%ymm5, %ymm7, %ymm5
	vpxor	%ymm5, %ymm15, %ymm0
	vpxor	%ymm0, %ymm3, %ymm0
	vpxor	%ymm6, %ymm0, %ymm0
	vmovdqa	%ymm6, %ymm7
	vmovdqa	%ymm6, 128(%rsp)                # 32-byte Spill
	vpxor	%ymm2, %ymm0, %ymm10
	vpxor	%ymm4, %ymm0, %ymm0
	vpxor	%ymm2, %ymm14, %ymm6
	vmovdqa	%ymm11, 288(%rsp)               # 32-byte Spill
	vpxor	%ymm0, %ymm11, %ymm9
	vpand	%ymm11, %ymm9, %ymm2
	vpxor	%ymm1, %ymm10, %ymm5
	vpxor	%ymm5, %ymm9, %ymm3
	vmovdqa	%ymm3, 256(%rsp)                # 32-byte Spill
	vpand	%ymm3, %ymm8, %ymm3
	vpxor	%ymm2, %ymm3, %ymm4
	vpand	%ymm6, %ymm5, %ymm3
	vmovdqa	%ymm5, 192(%rsp)                # 32-byte Spill
	vpxor	%ymm2, %ymm3, %ymm8
	vmovdqa	(%rsp), %ymm11                  # 32-byte Reload
	vpxor	%ymm1, %ymm11, %ymm13
	vpxor	%ymm12, %ymm13, %ymm2
	vmovdqa	%ymm2, 96(%rsp)                 # 32-byte Spill
	vpand	%ymm2, %ymm11, %ymm3
	vpxor	%ymm6, %ymm3, %ymm3
	vmovdqa	%ymm6, %ymm2
	vmovdqa	%ymm6, 160(%rsp)                # 32-byte Spill
	vpand	%ymm7, %ymm10, %ymm6
	vpxor	%ymm6, %ymm5, %ymm15
	vpxor	%ymm3, %ymm15, %ymm7
	vpxor	%ymm6, %ymm0, %ymm0
	vpxor	64(%rsp), %ymm13, %ymm3         # 32-byte Folded Reload
	vpxor	%ymm11, %ymm10, %ymm5
	vmovdqa	%ymm5, 352(%rsp)                # 32-byte Spill
	vpxor	%ymm2, %ymm3, %ymm2
	vmovdqa	%ymm2, 64(%rsp)                 # 32-byte Spill
	vpand	%ymm2, %ymm5, %ymm6
	vpxor	%ymm6, %ymm0, %ymm0
	vpxor	%ymm1, %ymm9, %ymm1
	vpxor	%ymm4, %ymm0, %ymm2
	vpand	%ymm3, %ymm13, %ymm6
	vpxor	%ymm6, %ymm1, %ymm6
	vmovdqa	32(%rsp), %ymm5                 # 32-byte Reload
	vpand	%ymm5, %ymm1, %ymm0
	vpxor	%ymm0, %ymm6, %ymm6
	vpxor	%ymm5, %ymm6, %ymm6
	vpxor	%ymm4, %ymm6, %ymm4
	vpxor	%ymm0, %ymm14, %ymm0
	vpxor	%ymm14, %ymm13, %ymm6
	vmovdqa	%ymm6, 384(%rsp)                # 32-byte Spill
	vpxor	%ymm11, %ymm9, %ymm5
	vmovdqa	%ymm5, 320(%rsp)                # 32-byte Spill
	vpand	%ymm6, %ymm5, %ymm12
	vpxor	%ymm1, %ymm12, %ymm12
	vpxor	%ymm0, %ymm12, %ymm0
	vpxor	%ymm7, %ymm8, %ymm7
	vpxor	%ymm0, %ymm8, %ymm5
	vpand	%ymm2, %ymm4, %ymm12
	vpxor	%ymm7, %ymm12, %ymm0
	vpxor	%ymm5, %ymm4, %ymm14
	vpand	%ymm0, %ymm14, %ymm14
	vpxor	%ymm7, %ymm2, %ymm2
	vpxor	%ymm5, %ymm12, %ymm0
	vpand	%ymm2, %ymm0, %ymm15
	vpxor	%ymm7, %ymm15, %ymm7
	vpxor	%ymm12, %ymm14, %ymm12
	vpxor	%ymm5, %ymm14, %ymm14
	vpand	%ymm5, %ymm12, %ymm5
	vpxor	%ymm0, %ymm5, %ymm0
	vpand	%ymm7, %ymm0, %ymm0
	vpxor	%ymm2, %ymm0, %ymm0
	vpxor	%ymm4, %ymm5, %ymm2
	vpxor	%ymm7, %ymm0, %ymm4
	vpand	%ymm1, %ymm4, %ymm1
	vpand	32(%rsp), %ymm4, %ymm5          # 32-byte Folded Reload
	vpand	%ymm0, %ymm13, %ymm6
	vpand	%ymm3, %ymm0, %ymm12
	vpxor	%ymm2, %ymm14, %ymm3
	vpxor	%ymm3, %ymm0, %ymm8
	vpand	352(%rsp), %ymm3, %ymm4         # 32-byte Folded Reload
	vpand	64(%rsp), %ymm3, %ymm13         # 32-byte Folded Reload
	vpand	96(%rsp), %ymm14, %ymm0         # 32-byte Folded Reload
	vmovdqa	%ymm0, 32(%rsp)                 # 32-byte Spill
	vpand	%ymm11, %ymm14, %ymm15
	vpxor	%ymm7, %ymm14, %ymm14
	vpand	%ymm9, %ymm14, %ymm0
	vmovdqa	%ymm0, (%rsp)                   # 32-byte Spill
	vpand	288(%rsp), %ymm14, %ymm9        # 32-byte Folded Reload
	vpxor	%ymm14, %ymm8, %ymm14
	vpand	224(%rsp), %ymm14, %ymm0        # 32-byte Folded Reload
	vpand	256(%rsp), %ymm14, %ymm14       # 32-byte Folded Reload
	vpand	384(%rsp), %ymm7, %ymm11        # 32-byte Folded Reload
	vpand	320(%rsp), %ymm7, %ymm7         # 32-byte Folded Reload
	vpand	%ymm2, %ymm10, %ymm10
	vpand	128(%rsp), %ymm2, %ymm3         # 32-byte Folded Reload
	vpxor	%ymm4, %ymm10, %ymm2
	vpxor	%ymm15, %ymm10, %ymm4
	vpxor	%ymm6, %ymm1, %ymm6
	vpxor	%ymm7, %ymm4, %ymm7
	vpxor	%ymm1, %ymm7, %ymm1
	vpxor	%ymm0, %ymm9, %ymm0
	vpxor	%ymm0, %ymm13, %ymm10
	vpxor	%ymm1, %ymm12, %ymm7
	vpxor	%ymm7, %ymm0, %ymm0
	vpxor	%ymm6, %ymm14, %ymm7
	vpxor	%ymm6, %ymm2, %ymm6
	vpand	192(%rsp), %ymm8, %ymm2         # 32-byte Folded Reload
	vpxor	%ymm4, %ymm2, %ymm2
	vpxor	%ymm5, %ymm2, %ymm2
	vpxor	%ymm7, %ymm2, %ymm2
	vpxor	(%rsp), %ymm7, %ymm12           # 32-byte Folded Reload
	vpxor	%ymm2, %ymm11, %ymm11
	vpxor	%ymm2, %ymm0, %ymm2
	vpxor	%ymm5, %ymm0, %ymm13
	vpxor	%ymm3, %ymm10, %ymm5
	vpxor	%ymm5, %ymm6, %ymm7
	vpxor	32(%rsp), %ymm10, %ymm3         # 32-byte Folded Reload
	vpxor	%ymm7, %ymm12, %ymm4
	vpxor	%ymm1, %ymm7, %ymm0
	vpand	160(%rsp), %ymm8, %ymm1         # 32-byte Folded Reload
	vpxor	%ymm3, %ymm11, %ymm3
	vpxor	%ymm5, %ymm12, %ymm8
	vpxor	%ymm1, %ymm9, %ymm1
	vpxor	%ymm1, %ymm12, %ymm1
	vpxor	%ymm1, %ymm11, %ymm10
	vbroadcasti128	.Laes_v3_CPI6_5(%rip), %ymm6   # ymm6 = [7,4,5,6,11,8,9,10,15,12,13,14,3,0,1,2,7,4,5,6,11,8,9,10,15,12,13,14,3,0,1,2]
                                        # ymm6 = mem[0,1,0,1]
	vpshufb	%ymm6, %ymm13, %ymm9
	vpshufb	%ymm6, %ymm8, %ymm5
	vpxor	%ymm13, %ymm9, %ymm11
	vpxor	%ymm5, %ymm8, %ymm1
	vmovdqa	.Laes_v3_CPI6_1(%rip), %ymm12          # ymm12 = [10,11,8,9,14,15,12,13,2,3,0,1,6,7,4,5,26,27,24,25,30,31,28,29,18,19,16,17,22,23,20,21]
	vpshufb	%ymm12, %ymm11, %ymm8
	shlq	$8, %rsi
	vpxor	-256(%rdi,%rsi), %ymm8, %ymm8
	vpxor	%ymm1, %ymm9, %ymm9
	vpxor	%ymm9, %ymm8, %ymm8
	vmovdqa	%ymm8, 32(%rsp)                 # 32-byte Spill
	vpshufb	%ymm6, %ymm2, %ymm8
	vpxor	%ymm2, %ymm8, %ymm9
	vpxor	%ymm11, %ymm8, %ymm2
	vpshufb	%ymm12, %ymm9, %ymm8
	vpxor	-224(%rdi,%rsi), %ymm8, %ymm8
	vpxor	%ymm1, %ymm2, %ymm2
	vpxor	%ymm2, %ymm8, %ymm13
	vpshufb	%ymm6, %ymm3, %ymm8
	vpxor	%ymm3, %ymm8, %ymm11
	vpxor	%ymm9, %ymm8, %ymm3
	vmovdqa	%ymm12, %ymm2
	vmovdqa	%ymm13, %ymm12
	vpshufb	%ymm2, %ymm11, %ymm8
	vpxor	-192(%rdi,%rsi), %ymm8, %ymm8
	vpxor	%ymm3, %ymm8, %ymm3
	vpshufb	%ymm6, %ymm0, %ymm8
	vpxor	%ymm0, %ymm8, %ymm0
	vpxor	%ymm1, %ymm11, %ymm9
	vpxor	%ymm8, %ymm9, %ymm8
	vpshufb	%ymm2, %ymm0, %ymm9
	vpxor	-160(%rdi,%rsi), %ymm9, %ymm9
	vpxor	%ymm8, %ymm9, %ymm9
	vpshufb	%ymm6, %ymm7, %ymm8
	vpxor	%ymm7, %ymm8, %ymm7
	vpxor	%ymm1, %ymm8, %ymm8
	vpxor	%ymm0, %ymm8, %ymm0
	vpshufb	%ymm2, %ymm7, %ymm8
	vpxor	-128(%rdi,%rsi), %ymm8, %ymm8
	vpxor	%ymm0, %ymm8, %ymm14
	vpshufb	%ymm6, %ymm10, %ymm0
	vpxor	%ymm0, %ymm10, %ymm10
	vpxor	%ymm7, %ymm0, %ymm0
	vpshufb	%ymm2, %ymm10, %ymm7
	vpxor	-96(%rdi,%rsi), %ymm7, %ymm7
	vpxor	%ymm0, %ymm7, %ymm0
	vpshufb	%ymm6, %ymm4, %ymm6
	vpxor	%ymm4, %ymm6, %ymm4
	vpxor	%ymm6, %ymm10, %ymm6
	vpshufb	%ymm2, %ymm1, %ymm7
	vpshufb	%ymm2, %ymm4, %ymm1
	vpxor	-64(%rdi,%rsi), %ymm1, %ymm1
	vpxor	%ymm6, %ymm1, %ymm1
	vpxor	%ymm4, %ymm5, %ymm4
	vpxor	-32(%rdi,%rsi), %ymm7, %ymm5
	vpxor	%ymm4, %ymm5, %ymm10
	jmp	.Laes_v3_BB6_6
.Laes_v3_BB6_5:                                # %else.12
	vpsrld	$16, %ymm15, %ymm0
	vpxor	%ymm0, %ymm15, %ymm0
	vpxor	%xmm4, %xmm4, %xmm4
	vpblendw	$68, %ymm0, %ymm4, %ymm0        # ymm0 = ymm4[0,1],ymm0[2],ymm4[3,4,5],ymm0[6],ymm4[7,8,9],ymm0[10],ymm4[11,12,13],ymm0[14],ymm4[15]
	vpslldq	$2, %ymm0, %ymm1                # ymm1 = zero,zero,ymm0[0,1,2,3,4,5,6,7,8,9,10,11,12,13],zero,zero,ymm0[16,17,18,19,20,21,22,23,24,25,26,27,28,29]
	vpxor	%ymm0, %ymm15, %ymm0
	vpxor	%ymm1, %ymm0, %ymm0
	vmovdqa	%ymm0, 32(%rsp)                 # 32-byte Spill
	vpsrld	$16, %ymm9, %ymm0
	vpxor	%ymm0, %ymm9, %ymm0
	vpblendw	$68, %ymm0, %ymm4, %ymm0        # ymm0 = ymm4[0,1],ymm0[2],ymm4[3,4,5],ymm0[6],ymm4[7,8,9],ymm0[10],ymm4[11,12,13],ymm0[14],ymm4[15]
	vpslldq	$2, %ymm0, %ymm1                # ymm1 = zero,zero,ymm0[0,1,2,3,4,5,6,7,8,9,10,11,12,13],zero,zero,ymm0[16,17,18,19,20,21,22,23,24,25,26,27,28,29]
	vpxor	%ymm0, %ymm9, %ymm0
	vpxor	%ymm1, %ymm0, %ymm12
	vpsrld	$16, %ymm3, %ymm0
	vpxor	%ymm3, %ymm0, %ymm0
	vpblendw	$68, %ymm0, %ymm4, %ymm0        # ymm0 = ymm4[0,1],ymm0[2],ymm4[3,4,5],ymm0[6],ymm4[7,8,9],ymm0[10],ymm4[11,12,13],ymm0[14],ymm4[15]
	vpslldq	$2, %ymm0, %ymm1                # ymm1 = zero,zero,ymm0[0,1,2,3,4,5,6,7,8,9,10,11,12,13],zero,zero,ymm0[16,17,18,19,20,21,22,23,24,25,26,27,28,29]
	vpxor	%ymm0, %ymm3, %ymm0
	vpxor	%ymm1, %ymm0, %ymm3
	vpsrld	$16, %ymm10, %ymm0
	vpxor	%ymm0, %ymm10, %ymm0
	vpblendw	$68, %ymm0, %ymm4, %ymm0        # ymm0 = ymm4[0,1],ymm0[2],ymm4[3,4,5],ymm0[6],ymm4[7,8,9],ymm0[10],ymm4[11,12,13],ymm0[14],ymm4[15]
	vpslldq	$2, %ymm0, %ymm1                # ymm1 = zero,zero,ymm0[0,1,2,3,4,5,6,7,8,9,10,11,12,13],zero,zero,ymm0[16,17,18,19,20,21,22,23,24,25,26,27,28,29]
	vpxor	%ymm0, %ymm10, %ymm0
	vpxor	%ymm1, %ymm0, %ymm9
	vpsrld	$16, %ymm13, %ymm0
	vpxor	%ymm0, %ymm13, %ymm0
	vpblendw	$68, %ymm0, %ymm4, %ymm0        # ymm0 = ymm4[0,1],ymm0[2],ymm4[3,4,5],ymm0[6],ymm4[7,8,9],ymm0[10],ymm4[11,12,13],ymm0[14],ymm4[15]
	vpslldq	$2, %ymm0, %ymm1                # ymm1 = zero,zero,ymm0[0,1,2,3,4,5,6,7,8,9,10,11,12,13],zero,zero,ymm0[16,17,18,19,20,21,22,23,24,25,26,27,28,29]
	vpxor	%ymm0, %ymm13, %ymm0
	vpxor	%ymm1, %ymm0, %ymm14
	vpsrld	$16, %ymm7, %ymm0
	vpxor	%ymm7, %ymm0, %ymm0
	vpblendw	$68, %ymm0, %ymm4, %ymm0        # ymm0 = ymm4[0,1],ymm0[2],ymm4[3,4,5],ymm0[6],ymm4[7,8,9],ymm0[10],ymm4[11,12,13],ymm0[14],ymm4[15]
	vpslldq	$2, %ymm0, %ymm1                # ymm1 = zero,zero,ymm0[0,1,2,3,4,5,6,7,8,9,10,11,12,13],zero,zero,ymm0[16,17,18,19,20,21,22,23,24,25,26,27,28,29]
	vpxor	%ymm0, %ymm7, %ymm0
	vpxor	%ymm1, %ymm0, %ymm0
	vpsrld	$16, %ymm11, %ymm1
	vpxor	%ymm1, %ymm11, %ymm1
	vpblendw	$68, %ymm1, %ymm4, %ymm1        # ymm1 = ymm4[0,1],ymm1[2],ymm4[3,4,5],ymm1[6],ymm4[7,8,9],ymm1[10],ymm4[11,12,13],ymm1[14],ymm4[15]
	vpslldq	$2, %ymm1, %ymm6                # ymm6 = zero,zero,ymm1[0,1,2,3,4,5,6,7,8,9,10,11,12,13],zero,zero,ymm1[16,17,18,19,20,21,22,23,24,25,26,27,28,29]
	vpxor	%ymm1, %ymm11, %ymm1
	vpxor	%ymm6, %ymm1, %ymm1
	vpsrld	$16, %ymm5, %ymm6
	vpxor	%ymm5, %ymm6, %ymm6
	vpblendw	$68, %ymm6, %ymm4, %ymm4        # ymm4 = ymm4[0,1],ymm6[2],ymm4[3,4,5],ymm6[6],ymm4[7,8,9],ymm6[10],ymm4[11,12,13],ymm6[14],ymm4[15]
	vpslldq	$2, %ymm4, %ymm6                # ymm6 = zero,zero,ymm4[0,1,2,3,4,5,6,7,8,9,10,11,12,13],zero,zero,ymm4[16,17,18,19,20,21,22,23,24,25,26,27,28,29]
	vpxor	%ymm4, %ymm5, %ymm4
	vpxor	%ymm6, %ymm4, %ymm10
	shlq	$8, %rsi
.Laes_v3_BB6_6:                                # %join.13
	vpxor	%ymm1, %ymm0, %ymm15
	vpxor	%ymm10, %ymm14, %ymm5
	vpxor	%ymm10, %ymm12, %ymm11
	vpxor	%ymm3, %ymm14, %ymm6
	vpxor	%ymm6, %ymm11, %ymm7
	vmovdqa	%ymm6, 224(%rsp)                # 32-byte Spill
	vpxor	%ymm7, %ymm9, %ymm0
	vmovdqa	%ymm7, 128(%rsp)                # 32-byte Spill
	vpxor	%ymm3, %ymm0, %ymm8
	vpxor	%ymm1, %ymm0, %ymm0
	vpxor	%ymm3, %ymm10, %ymm4
	vmovdqa	%ymm5, 288(%rsp)                # 32-byte Spill
	vpxor	%ymm5, %ymm0, %ymm9
	vpand	%ymm5, %ymm9, %ymm1
	vpxor	%ymm15, %ymm8, %ymm5
	vpxor	%ymm5, %ymm9, %ymm2
	vmovdqa	%ymm2, 256(%rsp)                # 32-byte Spill
	vpand	%ymm6, %ymm2, %ymm3
	vpxor	%ymm1, %ymm3, %ymm2
	vpand	%ymm4, %ymm5, %ymm3
	vmovdqa	%ymm5, 192(%rsp)                # 32-byte Spill
	vpxor	%ymm1, %ymm3, %ymm3
	vmovdqa	32(%rsp), %ymm6                 # 32-byte Reload
	vpxor	%ymm6, %ymm15, %ymm13
	vpxor	%ymm14, %ymm13, %ymm1
	vmovdqa	%ymm1, (%rsp)                   # 32-byte Spill
	vpand	%ymm6, %ymm1, %ymm1
	vpxor	%ymm4, %ymm1, %ymm1
	vmovdqa	%ymm4, %ymm14
	vmovdqa	%ymm4, 160(%rsp)                # 32-byte Spill
	vpand	%ymm7, %ymm8, %ymm4
	vpxor	%ymm4, %ymm5, %ymm7
	vpxor	%ymm7, %ymm1, %ymm5
	vpxor	%ymm4, %ymm0, %ymm0
	vpxor	%ymm12, %ymm13, %ymm4
	vpxor	%ymm6, %ymm8, %ymm7
	vmovdqa	%ymm7, 320(%rsp)                # 32-byte Spill
	vpxor	%ymm4, %ymm14, %ymm1
	vmovdqa	%ymm1, 96(%rsp)                 # 32-byte Spill
	vpand	%ymm1, %ymm7, %ymm1
	vpxor	%ymm1, %ymm0, %ymm0
	vpxor	%ymm15, %ymm9, %ymm1
	vpxor	%ymm2, %ymm0, %ymm0
	vpand	%ymm4, %ymm13, %ymm15
	vpxor	%ymm1, %ymm15, %ymm15
	vpand	%ymm1, %ymm11, %ymm12
	vpxor	%ymm12, %ymm15, %ymm15
	vpxor	%ymm11, %ymm15, %ymm15
	vpxor	%ymm2, %ymm15, %ymm2
	vpxor	%ymm10, %ymm12, %ymm12
	vpxor	%ymm10, %ymm13, %ymm15
	vpxor	%ymm6, %ymm9, %ymm7
	vmovdqa	%ymm7, 64(%rsp)                 # 32-byte Spill
	vpand	%ymm7, %ymm15, %ymm7
	vpxor	%ymm7, %ymm1, %ymm7
	vpxor	%ymm7, %ymm12, %ymm7
	vpxor	%ymm3, %ymm5, %ymm5
	vpxor	%ymm3, %ymm7, %ymm3
	vpand	%ymm0, %ymm2, %ymm7
	vpxor	%ymm5, %ymm7, %ymm12
	vpxor	%ymm3, %ymm2, %ymm10
	vpand	%ymm10, %ymm12, %ymm10
	vpxor	%ymm5, %ymm0, %ymm12
	vpxor	%ymm3, %ymm7, %ymm0
	vpand	%ymm0, %ymm12, %ymm14
	vpxor	%ymm5, %ymm14, %ymm5
	vpxor	%ymm7, %ymm10, %ymm7
	vpxor	%ymm3, %ymm10, %ymm10
	vpand	%ymm3, %ymm7, %ymm3
	vpxor	%ymm0, %ymm3, %ymm0
	vpand	%ymm5, %ymm0, %ymm0
	vpxor	%ymm0, %ymm12, %ymm0
	vpxor	%ymm2, %ymm3, %ymm2
	vpxor	%ymm5, %ymm0, %ymm3
	vpand	%ymm1, %ymm3, %ymm1
	vpand	%ymm3, %ymm11, %ymm11
	vpand	%ymm0, %ymm13, %ymm12
	vpand	%ymm4, %ymm0, %ymm3
	vmovdqa	%ymm3, 352(%rsp)                # 32-byte Spill
	vpxor	%ymm2, %ymm10, %ymm3
	vpxor	%ymm3, %ymm0, %ymm13
	vpand	320(%rsp), %ymm3, %ymm7         # 32-byte Folded Reload
	vpand	96(%rsp), %ymm3, %ymm14         # 32-byte Folded Reload
	vpand	(%rsp), %ymm10, %ymm0           # 32-byte Folded Reload
	vmovdqa	%ymm0, (%rsp)                   # 32-byte Spill
	vpand	%ymm6, %ymm10, %ymm4
	vpxor	%ymm5, %ymm10, %ymm10
	vpand	%ymm9, %ymm10, %ymm3
	vpand	288(%rsp), %ymm10, %ymm9        # 32-byte Folded Reload
	vpxor	%ymm10, %ymm13, %ymm10
	vpand	224(%rsp), %ymm10, %ymm0        # 32-byte Folded Reload
	vpand	256(%rsp), %ymm10, %ymm10       # 32-byte Folded Reload
	vpand	%ymm5, %ymm15, %ymm15
	vpand	64(%rsp), %ymm5, %ymm5          # 32-byte Folded Reload
	vpand	%ymm2, %ymm8, %ymm8
	vpand	128(%rsp), %ymm2, %ymm2         # 32-byte Folded Reload
	vpxor	%ymm7, %ymm8, %ymm6
	vpxor	%ymm4, %ymm8, %ymm4
	vpxor	%ymm1, %ymm12, %ymm7
	vpxor	%ymm5, %ymm4, %ymm5
	vpxor	%ymm1, %ymm5, %ymm1
	vpxor	%ymm0, %ymm9, %ymm0
	vpxor	%ymm0, %ymm14, %ymm5
	vpxor	352(%rsp), %ymm1, %ymm8         # 32-byte Folded Reload
	vpxor	%ymm0, %ymm8, %ymm0
	vpxor	%ymm7, %ymm10, %ymm8
	vpxor	%ymm7, %ymm6, %ymm6
	vpand	192(%rsp), %ymm13, %ymm7        # 32-byte Folded Reload
	vpxor	%ymm4, %ymm7, %ymm4
	vpxor	%ymm4, %ymm11, %ymm4
	vpxor	%ymm4, %ymm8, %ymm4
	vpxor	%ymm3, %ymm8, %ymm3
	vpand	160(%rsp), %ymm13, %ymm7        # 32-byte Folded Reload
	vpxor	%ymm4, %ymm15, %ymm8
	vpxor	(%rdi,%rsi), %ymm11, %ymm10
	vpxor	32(%rdi,%rsi), %ymm4, %ymm4
	vpxor	%ymm0, %ymm10, %ymm10
	vpxor	%ymm0, %ymm4, %ymm0
	vmovdqa	(%rsp), %ymm4                   # 32-byte Reload
	vpxor	64(%rdi,%rsi), %ymm4, %ymm4
	vpxor	%ymm2, %ymm5, %ymm2
	vpxor	%ymm5, %ymm4, %ymm4
	vpxor	%ymm4, %ymm8, %ymm4
	vpxor	%ymm3, %ymm9, %ymm5
	vpxor	%ymm5, %ymm8, %ymm5
	vpxor	%ymm2, %ymm6, %ymm6
	vpxor	160(%rdi,%rsi), %ymm7, %ymm7
	vpxor	%ymm5, %ymm7, %ymm5
	vpxor	224(%rdi,%rsi), %ymm3, %ymm7
	vpxor	%ymm2, %ymm7, %ymm2
	vpxor	96(%rdi,%rsi), %ymm1, %ymm1
	vpxor	192(%rdi,%rsi), %ymm3, %ymm3
	vpxor	%ymm6, %ymm1, %ymm1
	vpxor	%ymm6, %ymm3, %ymm3
	vpxor	128(%rdi,%rsi), %ymm6, %ymm6
	vmovdqu	%ymm10, (%rdx)
	vmovdqu	%ymm0, 32(%rdx)
	vmovdqu	%ymm4, 64(%rdx)
	vmovdqu	%ymm1, 96(%rdx)
	vmovdqu	%ymm6, 128(%rdx)
	vmovdqu	%ymm5, 160(%rdx)
	vmovdqu	%ymm3, 192(%rdx)
	vmovdqu	%ymm2, 224(%rdx)
	leaq	304(%rbp), %rsp
	popq	%rbp
	vzeroupper
	retq
	.seh_endproc
                                        # -- End function
	.def	aes_v3.aes_soft.soft.blocks.filled_up.process_filled_up.1;
	.scl	3;
	.type	32;
	.endef
	.p2align	4                               # -- Begin function aes_soft::soft::blocks::filled_up::process_filled_up::<#90ca489510abb174>
aes_v3.aes_soft.soft.blocks.filled_up.process_filled_up.1: # @aes_v3.aes_soft.soft.blocks.filled_up.process_filled_up.1
.seh_proc aes_v3.aes_soft.soft.blocks.filled_up.process_filled_up.1
# %bb.0:                                # %start
	pushq	%r14
	.seh_pushreg %r14
	pushq	%rbx
	.seh_pushreg %rbx
	subq	$776, %rsp                      # imm = 0x308
	.seh_stackalloc 776
	.seh_endprologue
	vxorps	%xmm0, %xmm0, %xmm0
	vmovups	%ymm0, 224(%rsp)
	vmovups	%ymm0, 192(%rsp)
	vmovups	%ymm0, 160(%rsp)
	vmovups	%ymm0, 128(%rsp)
	vmovups	%ymm0, 96(%rsp)
	vmovups	%ymm0, 64(%rsp)
	vmovups	%ymm0, 32(%rsp)
	vmovups	%ymm0, (%rsp)
	vmovups	%ymm0, 512(%rsp)
	vmovups	%ymm0, 544(%rsp)
	vmovups	%ymm0, 576(%rsp)
	vmovups	%ymm0, 608(%rsp)
	vmovups	%ymm0, 640(%rsp)
	vmovups	%ymm0, 672(%rsp)
	vmovups	%ymm0, 704(%rsp)
	vmovups	%ymm0, 736(%rsp)
	movq	%rdx, %rbx
	vmovups	(%rdx), %xmm0
	vmovaps	%xmm0, 256(%rsp)
	vmovups	(%rdx), %xmm0
	vmovaps	%xmm0, 272(%rsp)
	vmovups	(%rdx), %xmm0
	vmovaps	%xmm0, 288(%rsp)
	vmovups	(%rdx), %xmm0
	vmovaps	%xmm0, 304(%rsp)
	vmovups	(%rdx), %xmm0
	vmovaps	%xmm0, 320(%rsp)
	vmovups	(%rdx), %xmm0
	vmovaps	%xmm0, 336(%rsp)
	vmovups	(%rdx), %xmm0
	vmovaps	%xmm0, 352(%rsp)
	vmovups	(%rdx), %xmm0
	vmovaps	%xmm0, 368(%rsp)
	vmovups	(%rdx), %xmm0
	vmovaps	%xmm0, 384(%rsp)
	vmovups	(%rdx), %xmm0
	vmovaps	%xmm0, 400(%rsp)
	vmovups	(%rdx), %xmm0
	vmovaps	%xmm0, 416(%rsp)
	vmovups	(%rdx), %xmm0
	vmovaps	%xmm0, 432(%rsp)
	vmovups	(%rdx), %xmm0
	vmovaps	%xmm0, 448(%rsp)
	vmovups	(%rdx), %xmm0
	vmovaps	%xmm0, 464(%rsp)
	vmovups	(%rdx), %xmm0
	vmovaps	%xmm0, 480(%rsp)
	vmovups	(%rdx), %xmm0
	vmovaps	%xmm0, 496(%rsp)
	movq	%rsi, %rdx
	movq	%rdi, %rsi
	shrq	$3, %rdx
	decq	%rdx
	testq	%rcx, %rcx
	je	.Laes_v3_BB7_18
# %bb.1:                                # %join.8.i
	movq	%rcx, %r14
	vmovups	(%rbx), %xmm0
	vmovaps	%xmm0, 256(%rsp)
	cmpq	$1, %rcx
	je	.Laes_v3_BB7_16
# %bb.2:                                # %join.8.i.1
	vmovups	16(%rbx), %xmm0
	vmovaps	%xmm0, 272(%rsp)
	cmpq	$2, %r14
	je	.Laes_v3_BB7_16
# %bb.3:                                # %join.8.i.2
	vmovups	32(%rbx), %xmm0
	vmovaps	%xmm0, 288(%rsp)
	cmpq	$3, %r14
	je	.Laes_v3_BB7_16
# %bb.4:                                # %join.8.i.3
	vmovups	48(%rbx), %xmm0
	vmovaps	%xmm0, 304(%rsp)
	cmpq	$4, %r14
	je	.Laes_v3_BB7_16
# %bb.5:                                # %join.8.i.4
	vmovups	64(%rbx), %xmm0
	vmovaps	%xmm0, 320(%rsp)
	cmpq	$5, %r14
	je	.Laes_v3_BB7_16
# %bb.6:                                # %join.8.i.5
	vmovups	80(%rbx), %xmm0
	vmovaps	%xmm0, 336(%rsp)
	cmpq	$6, %r14
	je	.Laes_v3_BB7_16
# %bb.7:                                # %join.8.i.6
	vmovups	96(%rbx), %xmm0
	vmovaps	%xmm0, 352(%rsp)
	cmpq	$7, %r14
	je	.Laes_v3_BB7_16
# %bb.8:                                # %join.8.i.7
	vmovups	112(%rbx), %xmm0
	vmovaps	%xmm0, 368(%rsp)
	cmpq	$8, %r14
	je	.Laes_v3_BB7_16
# %bb.9:                                # %join.8.i.8
	vmovups	128(%rbx), %xmm0
	vmovaps	%xmm0, 384(%rsp)
	cmpq	$9, %r14
	je	.Laes_v3_BB7_16
# %bb.10:                               # %join.8.i.9
	vmovups	144(%rbx), %xmm0
	vmovaps	%xmm0, 400(%rsp)
	cmpq	$10, %r14
	je	.Laes_v3_BB7_16
# %bb.11:                               # %join.8.i.10
	vmovups	160(%rbx), %xmm0
	vmovaps	%xmm0, 416(%rsp)
	cmpq	$11, %r14
	je	.Laes_v3_BB7_16
# %bb.12:                               # %join.8.i.11
	vmovups	176(%rbx), %xmm0
	vmovaps	%xmm0, 432(%rsp)
	cmpq	$12, %r14
	je	.Laes_v3_BB7_16
# %bb.13:                               # %join.8.i.12
	vmovups	192(%rbx), %xmm0
	vmovaps	%xmm0, 448(%rsp)
	cmpq	$13, %r14
	je	.Laes_v3_BB7_16
# %bb.14:                               # %join.8.i.13
	vmovups	208(%rbx), %xmm0
	vmovaps	%xmm0, 464(%rsp)
	cmpq	$14, %r14
	je	.Laes_v3_BB7_16
# %bb.15:                               # %join.8.i.14
	vmovups	224(%rbx), %xmm0
	vmovaps	%xmm0, 480(%rsp)
.Laes_v3_BB7_16:                               # %"aes_soft::soft::blocks::filled_up::filled_up::<#5d1bd3c3accb24a7>.exit"
	leaq	512(%rsp), %rdi
	leaq	256(%rsp), %rcx
	vzeroupper
	callq	aes_v3.aes_soft.soft.ciphers.planes.process_outlined.1
	vmovups	736(%rsp), %ymm0
	vmovups	%ymm0, 224(%rsp)
	vmovups	704(%rsp), %ymm0
	vmovups	%ymm0, 192(%rsp)
	vmovups	672(%rsp), %ymm0
	vmovups	%ymm0, 160(%rsp)
	vmovups	640(%rsp), %ymm0
	vmovups	%ymm0, 128(%rsp)
	vmovups	512(%rsp), %ymm0
	vmovups	544(%rsp), %ymm1
	vmovups	576(%rsp), %ymm2
	vmovups	608(%rsp), %ymm3
	vmovups	%ymm3, 96(%rsp)
	vmovups	%ymm2, 64(%rsp)
	vmovups	%ymm1, 32(%rsp)
	vmovups	%ymm0, (%rsp)
	movl	%r14d, %eax
	andl	$7, %eax
	cmpq	$8, %r14
	jae	.Laes_v3_BB7_19
# %bb.17:
	xorl	%ecx, %ecx
	jmp	.Laes_v3_BB7_22
.Laes_v3_BB7_18:                               # %"aes_soft::soft::blocks::filled_up::copy_first::<#5d1bd3c3accb24a7>.exit.critedge"
	leaq	512(%rsp), %rdi
	leaq	256(%rsp), %rcx
	vzeroupper
	callq	aes_v3.aes_soft.soft.ciphers.planes.process_outlined.1
	vmovups	736(%rsp), %ymm0
	vmovups	%ymm0, 224(%rsp)
	vmovups	704(%rsp), %ymm0
	vmovups	%ymm0, 192(%rsp)
	vmovups	672(%rsp), %ymm0
	vmovups	%ymm0, 160(%rsp)
	vmovups	640(%rsp), %ymm0
	vmovups	%ymm0, 128(%rsp)
	vmovups	512(%rsp), %ymm0
	vmovups	544(%rsp), %ymm1
	vmovups	576(%rsp), %ymm2
	vmovups	608(%rsp), %ymm3
	vmovups	%ymm3, 96(%rsp)
	vmovups	%ymm2, 64(%rsp)
	vmovups	%ymm1, 32(%rsp)
	vmovups	%ymm0, (%rsp)
	addq	$776, %rsp                      # imm = 0x308
	popq	%rbx
	popq	%r14
	vzeroupper
	retq
.Laes_v3_BB7_19:                               # %"aes_soft::soft::blocks::filled_up::filled_up::<#5d1bd3c3accb24a7>.exit.new"
	andl	$8, %r14d
	movl	$112, %edx
	xorl	%ecx, %ecx
	.p2align	4
.Laes_v3_BB7_20:                               # %join.8.i19
                                        # =>This Inner Loop Header: Depth=1
	vmovups	-112(%rsp,%rdx), %xmm0
	vmovups	%xmm0, -112(%rbx,%rdx)
	vmovups	-96(%rsp,%rdx), %xmm0
	vmovups	%xmm0, -96(%rbx,%rdx)
	vmovups	-80(%rsp,%rdx), %xmm0
	vmovups	%xmm0, -80(%rbx,%rdx)
	vmovups	-64(%rsp,%rdx), %xmm0
	vmovups	%xmm0, -64(%rbx,%rdx)
	vmovups	-48(%rsp,%rdx), %xmm0
	vmovups	%xmm0, -48(%rbx,%rdx)
	vmovups	-32(%rsp,%rdx), %xmm0
	vmovups	%xmm0, -32(%rbx,%rdx)
	vmovups	-16(%rsp,%rdx), %xmm0
	vmovups	%xmm0, -16(%rbx,%rdx)
	vmovups	(%rsp,%rdx), %xmm0
	vmovups	%xmm0, (%rbx,%rdx)
	addq	$8, %rcx
	subq	$-128, %rdx
	cmpq	%rcx, %r14
	jne	.Laes_v3_BB7_20
# %bb.21:                               # %"aes_soft::soft::blocks::filled_up::copy_first::<#5d1bd3c3accb24a7>.exit.loopexit.unr-lcssa"
	testq	%rax, %rax
	je	.Laes_v3_BB7_24
.Laes_v3_BB7_22:                               # %join.8.i19.epil.preheader
	shlq	$4, %rcx
	addq	%rcx, %rbx
	addq	%rsp, %rcx
	shll	$4, %eax
	xorl	%edx, %edx
	.p2align	4
.Laes_v3_BB7_23:                               # %join.8.i19.epil
                                        # =>This Inner Loop Header: Depth=1
	vmovups	(%rcx,%rdx), %xmm0
	vmovups	%xmm0, (%rbx,%rdx)
	addq	$16, %rdx
	cmpq	%rdx, %rax
	jne	.Laes_v3_BB7_23
.Laes_v3_BB7_24:                               # %"aes_soft::soft::blocks::filled_up::copy_first::<#5d1bd3c3accb24a7>.exit"
	addq	$776, %rsp                      # imm = 0x308
	popq	%rbx
	popq	%r14
	vzeroupper
	retq
	.seh_endproc
                                        # -- End function
	.def	aes_v3.aes_cipher.zeroize.zeroize_words;
	.scl	3;
	.type	32;
	.endef
	.p2align	4                               # -- Begin function aes_cipher::zeroize::zeroize_words::<#b48699b36d993911>
aes_v3.aes_cipher.zeroize.zeroize_words: # @aes_v3.aes_cipher.zeroize.zeroize_words
.seh_proc aes_v3.aes_cipher.zeroize.zeroize_words
# %bb.0:                                # %start
	pushq	%rbx
	.seh_pushreg %rbx
	subq	$48, %rsp
	.seh_stackalloc 48
	.seh_endprologue
	movq	$0, 40(%rsp)
	#APP
	#NO_APP
	movq	40(%rsp), %rsi
	#APP
	#NO_APP
	cmpq	$120, %rsi
	jae	.Laes_v3_BB8_1
# %bb.2:                                # %then.1.i
	shlq	$5, %rsi
	movzbl	(%rdi,%rsi), %ebx
	movl	$3840, %r8d                     # imm = 0xF00
	movq	%rdi, %rcx
	xorl	%edx, %edx
	callq	memset
	andb	(%rdi,%rsi), %bl
	movzbl	%bl, %esi
	jmp	.Laes_v3_BB8_3
.Laes_v3_BB8_1:                                # %"aes_cipher::zeroize::observe::<#5d823e978269d761>.exit12"
	xorl	%esi, %esi
	movl	$3840, %r8d                     # imm = 0xF00
	movq	%rdi, %rcx
	xorl	%edx, %edx
	callq	memset
.Laes_v3_BB8_3:                                # %"aes_cipher::zeroize::observe::<#5d823e978269d761>.exit"
	#APP
	#NO_APP
	xchgq	%rsi, 40(%rsp)
	#APP
	#NO_APP
	addq	$48, %rsp
	popq	%rbx
	retq
	.seh_endproc
                                        # -- End function
	.def	aes_v3.aes_cipher.zeroize.stack.wipe_stack.1792;
	.scl	3;
	.type	32;
	.endef
	.p2align	4                               # -- Begin function aes_cipher::zeroize::stack::wipe_stack::<=1792>
aes_v3.aes_cipher.zeroize.stack.wipe_stack.1792: # @aes_v3.aes_cipher.zeroize.stack.wipe_stack.1792
.seh_proc aes_v3.aes_cipher.zeroize.stack.wipe_stack.1792
# %bb.0:                                # %start
	subq	$1832, %rsp                     # imm = 0x728
	.seh_stackalloc 1832
	.seh_endprologue
	#APP
	xorl	%edi, %edi
	xorl	%esi, %esi
	#NO_APP
	leaq	40(%rsp), %rcx
	movl	$1792, %r8d                     # imm = 0x700
	xorl	%edx, %edx
	callq	memset
	movq	$0, 32(%rsp)
	#APP
	#NO_APP
	movq	32(%rsp), %rax
	#APP
	#NO_APP
	cmpq	$1792, %rax                     # imm = 0x700
	jae	.Laes_v3_BB9_2
# %bb.1:                                # %then.1
	movzbl	40(%rsp,%rax), %eax
	#APP
	#NO_APP
	xchgq	%rax, 32(%rsp)
	#APP
	#NO_APP
.Laes_v3_BB9_2:                                # %common.ret
	addq	$1832, %rsp                     # imm = 0x728
	retq
	.seh_endproc
                                        # -- End function
	.def	aes_v3.aes_permute.blocks.process_on_lanes.1;
	.scl	3;
	.type	32;
	.endef
	.section	.rdata,"dr"
	.p2align	5, 0x0                          # -- Begin function aes_permute::blocks::process_on_lanes::<#8b9e8a6b2f3495e4>
.Laes_v3_CPI10_0:
	.zero	32,15
.Laes_v3_CPI10_1:
	.byte	0                               # 0x0
	.byte	1                               # 0x1
	.byte	28                              # 0x1c
	.byte	29                              # 0x1d
	.byte	45                              # 0x2d
	.byte	44                              # 0x2c
	.byte	49                              # 0x31
	.byte	48                              # 0x30
	.byte	39                              # 0x27
	.byte	38                              # 0x26
	.byte	59                              # 0x3b
	.byte	58                              # 0x3a
	.byte	10                              # 0xa
	.byte	11                              # 0xb
	.byte	22                              # 0x16
	.byte	23                              # 0x17
	.byte	0                               # 0x0
	.byte	1                               # 0x1
	.byte	28                              # 0x1c
	.byte	29                              # 0x1d
	.byte	45                              # 0x2d
	.byte	44                              # 0x2c
	.byte	49                              # 0x31
	.byte	48                              # 0x30
	.byte	39                              # 0x27
	.byte	38                              # 0x26
	.byte	59                              # 0x3b
	.byte	58                              # 0x3a
	.byte	10                              # 0xa
	.byte	11                              # 0xb
	.byte	22                              # 0x16
	.byte	23                              # 0x17
.Laes_v3_CPI10_2:
	.byte	0                               # 0x0
	.byte	134                             # 0x86
	.byte	253                             # 0xfd
	.byte	123                             # 0x7b
	.byte	142                             # 0x8e
	.byte	8                               # 0x8
	.byte	115                             # 0x73
	.byte	245                             # 0xf5
	.byte	119                             # 0x77
	.byte	241                             # 0xf1
	.byte	138                             # 0x8a
	.byte	12                              # 0xc
	.byte	249                             # 0xf9
	.byte	127                             # 0x7f
	.byte	4                               # 0x4
	.byte	130                             # 0x82
	.byte	0                               # 0x0
	.byte	134                             # 0x86
	.byte	253                             # 0xfd
	.byte	123                             # 0x7b
	.byte	142                             # 0x8e
	.byte	8                               # 0x8
	.byte	115                             # 0x73
	.byte	245                             # 0xf5
	.byte	119                             # 0x77
	.byte	241                             # 0xf1
	.byte	138                             # 0x8a
	.byte	12                              # 0xc
	.byte	249                             # 0xf9
	.byte	127                             # 0x7f
	.byte	4                               # 0x4
	.byte	130                             # 0x82
.Laes_v3_CPI10_3:
	.byte	128                             # 0x80
	.byte	2                               # 0x2
	.byte	1                               # 0x1
	.byte	15                              # 0xf
	.byte	9                               # 0x9
	.byte	5                               # 0x5
	.byte	14                              # 0xe
	.byte	12                              # 0xc
	.byte	13                              # 0xd
	.byte	4                               # 0x4
	.byte	11                              # 0xb
	.byte	10                              # 0xa
	.byte	7                               # 0x7
	.byte	8                               # 0x8
	.byte	6                               # 0x6
	.byte	3                               # 0x3
	.byte	128                             # 0x80
	.byte	2                               # 0x2
	.byte	1                               # 0x1
	.byte	15                              # 0xf
	.byte	9                               # 0x9
	.byte	5                               # 0x5
	.byte	14                              # 0xe
	.byte	12                              # 0xc
	.byte	13                              # 0xd
	.byte	4                               # 0x4
	.byte	11                              # 0xb
	.byte	10                              # 0xa
	.byte	7                               # 0x7
	.byte	8                               # 0x8
	.byte	6                               # 0x6
	.byte	3                               # 0x3
.Laes_v3_CPI10_4:
	.byte	128                             # 0x80
	.byte	1                               # 0x1
	.byte	9                               # 0x9
	.byte	14                              # 0xe
	.byte	13                              # 0xd
	.byte	11                              # 0xb
	.byte	7                               # 0x7
	.byte	6                               # 0x6
	.byte	15                              # 0xf
	.byte	2                               # 0x2
	.byte	12                              # 0xc
	.byte	5                               # 0x5
	.byte	10                              # 0xa
	.byte	4                               # 0x4
	.byte	3                               # 0x3
	.byte	8                               # 0x8
	.byte	128                             # 0x80
	.byte	1                               # 0x1
	.byte	9                               # 0x9
	.byte	14                              # 0xe
	.byte	13                              # 0xd
	.byte	11                              # 0xb
	.byte	7                               # 0x7
	.byte	6                               # 0x6
	.byte	15                              # 0xf
	.byte	2                               # 0x2
	.byte	12                              # 0xc
	.byte	5                               # 0x5
	.byte	10                              # 0xa
	.byte	4                               # 0x4
	.byte	3                               # 0x3
	.byte	8                               # 0x8
.Laes_v3_CPI10_5:
	.byte	0                               # 0x0
	.byte	195                             # 0xc3
	.byte	79                              # 0x4f
	.byte	12                              # 0xc
	.byte	252                             # 0xfc
	.byte	124                             # 0x7c
	.byte	67                              # 0x43
	.byte	128                             # 0x80
	.byte	207                             # 0xcf
	.byte	51                              # 0x33
	.byte	63                              # 0x3f
	.byte	112                             # 0x70
	.byte	191                             # 0xbf
	.byte	179                             # 0xb3
	.byte	240                             # 0xf0
	.byte	140                             # 0x8c
	.byte	0                               # 0x0
	.byte	195                             # 0xc3
	.byte	79                              # 0x4f
	.byte	12                              # 0xc
	.byte	252                             # 0xfc
	.byte	124                             # 0x7c
	.byte	67                              # 0x43
	.byte	128                             # 0x80
	.byte	207                             # 0xcf
	.byte	51                              # 0x33
	.byte	63                              # 0x3f
	.byte	112                             # 0x70
	.byte	191                             # 0xbf
	.byte	179                             # 0xb3
	.byte	240                             # 0xf0
	.byte	140                             # 0x8c
.Laes_v3_CPI10_6:
	.byte	0                               # 0x0
	.byte	230                             # 0xe6
	.byte	114                             # 0x72
	.byte	183                             # 0xb7
	.byte	229                             # 0xe5
	.byte	198                             # 0xc6
	.byte	197                             # 0xc5
	.byte	35                              # 0x23
	.byte	81                              # 0x51
	.byte	180                             # 0xb4
	.byte	3                               # 0x3
	.byte	113                             # 0x71
	.byte	32                              # 0x20
	.byte	151                             # 0x97
	.byte	82                              # 0x52
	.byte	148                             # 0x94
	.byte	0                               # 0x0
	.byte	230                             # 0xe6
	.byte	114                             # 0x72
	.byte	183                             # 0xb7
	.byte	229                             # 0xe5
	.byte	198                             # 0xc6
	.byte	197                             # 0xc5
	.byte	35                              # 0x23
	.byte	81                              # 0x51
	.byte	180                             # 0xb4
	.byte	3                               # 0x3
	.byte	113                             # 0x71
	.byte	32                              # 0x20
	.byte	151                             # 0x97
	.byte	82                              # 0x52
	.byte	148                             # 0x94
.Laes_v3_CPI10_7:
	.byte	0                               # 0x0
	.byte	124                             # 0x7c
	.byte	32                              # 0x20
	.byte	207                             # 0xcf
	.byte	146                             # 0x92
	.byte	1                               # 0x1
	.byte	239                             # 0xef
	.byte	147                             # 0x93
	.byte	179                             # 0xb3
	.byte	33                              # 0x21
	.byte	238                             # 0xee
	.byte	206                             # 0xce
	.byte	125                             # 0x7d
	.byte	178                             # 0xb2
	.byte	93                              # 0x5d
	.byte	92                              # 0x5c
	.byte	0                               # 0x0
	.byte	124                             # 0x7c
	.byte	32                              # 0x20
	.byte	207                             # 0xcf
	.byte	146                             # 0x92
	.byte	1                               # 0x1
	.byte	239                             # 0xef
	.byte	147                             # 0x93
	.byte	179                             # 0xb3
	.byte	33                              # 0x21
	.byte	238                             # 0xee
	.byte	206                             # 0xce
	.byte	125                             # 0x7d
	.byte	178                             # 0xb2
	.byte	93                              # 0x5d
	.byte	92                              # 0x5c
.Laes_v3_CPI10_8:
	.byte	0                               # 0x0
	.byte	209                             # 0xd1
	.byte	229                             # 0xe5
	.byte	247                             # 0xf7
	.byte	230                             # 0xe6
	.byte	37                              # 0x25
	.byte	18                              # 0x12
	.byte	195                             # 0xc3
	.byte	38                              # 0x26
	.byte	192                             # 0xc0
	.byte	55                              # 0x37
	.byte	210                             # 0xd2
	.byte	244                             # 0xf4
	.byte	3                               # 0x3
	.byte	17                              # 0x11
	.byte	52                              # 0x34
	.byte	0                               # 0x0
	.byte	209                             # 0xd1
	.byte	229                             # 0xe5
	.byte	247                             # 0xf7
	.byte	230                             # 0xe6
	.byte	37                              # 0x25
	.byte	18                              # 0x12
	.byte	195                             # 0xc3
	.byte	38                              # 0x26
	.byte	192                             # 0xc0
	.byte	55                              # 0x37
	.byte	210                             # 0xd2
	.byte	244                             # 0xf4
	.byte	3                               # 0x3
	.byte	17                              # 0x11
	.byte	52                              # 0x34
.Laes_v3_CPI10_9:
	.byte	0                               # 0x0
	.byte	203                             # 0xcb
	.byte	215                             # 0xd7
	.byte	176                             # 0xb0
	.byte	33                              # 0x21
	.byte	141                             # 0x8d
	.byte	103                             # 0x67
	.byte	172                             # 0xac
	.byte	123                             # 0x7b
	.byte	90                              # 0x5a
	.byte	234                             # 0xea
	.byte	61                              # 0x3d
	.byte	70                              # 0x46
	.byte	246                             # 0xf6
	.byte	145                             # 0x91
	.byte	28                              # 0x1c
	.byte	0                               # 0x0
	.byte	203                             # 0xcb
	.byte	215                             # 0xd7
	.byte	176                             # 0xb0
	.byte	33                              # 0x21
	.byte	141                             # 0x8d
	.byte	103                             # 0x67
	.byte	172                             # 0xac
	.byte	123                             # 0x7b
	.byte	90                              # 0x5a
	.byte	234                             # 0xea
	.byte	61                              # 0x3d
	.byte	70                              # 0x46
	.byte	246                             # 0xf6
	.byte	145                             # 0x91
	.byte	28                              # 0x1c
.Laes_v3_CPI10_10:
	.byte	0                               # 0x0
	.byte	159                             # 0x9f
	.byte	97                              # 0x61
	.byte	22                              # 0x16
	.byte	194                             # 0xc2
	.byte	42                              # 0x2a
	.byte	119                             # 0x77
	.byte	232                             # 0xe8
	.byte	137                             # 0x89
	.byte	75                              # 0x4b
	.byte	93                              # 0x5d
	.byte	60                              # 0x3c
	.byte	181                             # 0xb5
	.byte	163                             # 0xa3
	.byte	212                             # 0xd4
	.byte	254                             # 0xfe
	.byte	0                               # 0x0
	.byte	159                             # 0x9f
	.byte	97                              # 0x61
	.byte	22                              # 0x16
	.byte	194                             # 0xc2
	.byte	42                              # 0x2a
	.byte	119                             # 0x77
	.byte	232                             # 0xe8
	.byte	137                             # 0x89
	.byte	75                              # 0x4b
	.byte	93                              # 0x5d
	.byte	60                              # 0x3c
	.byte	181                             # 0xb5
	.byte	163                             # 0xa3
	.byte	212                             # 0xd4
	.byte	254                             # 0xfe
.Laes_v3_CPI10_11:
	.zero	16,15
.Laes_v3_CPI10_12:
	.byte	0                               # 0x0
	.byte	1                               # 0x1
	.byte	28                              # 0x1c
	.byte	29                              # 0x1d
	.byte	45                              # 0x2d
	.byte	44                              # 0x2c
	.byte	49                              # 0x31
	.byte	48                              # 0x30
	.byte	39                              # 0x27
	.byte	38                              # 0x26
	.byte	59                              # 0x3b
	.byte	58                              # 0x3a
	.byte	10                              # 0xa
	.byte	11                              # 0xb
	.byte	22                              # 0x16
	.byte	23                              # 0x17
.Laes_v3_CPI10_13:
	.byte	0                               # 0x0
	.byte	134                             # 0x86
	.byte	253                             # 0xfd
	.byte	123                             # 0x7b
	.byte	142                             # 0x8e
	.byte	8                               # 0x8
	.byte	115                             # 0x73
	.byte	245                             # 0xf5
	.byte	119                             # 0x77
	.byte	241                             # 0xf1
	.byte	138                             # 0x8a
	.byte	12                              # 0xc
	.byte	249                             # 0xf9
	.byte	127                             # 0x7f
	.byte	4                               # 0x4
	.byte	130                             # 0x82
.Laes_v3_CPI10_14:
	.byte	128                             # 0x80
	.byte	2                               # 0x2
	.byte	1                               # 0x1
	.byte	15                              # 0xf
	.byte	9                               # 0x9
	.byte	5                               # 0x5
	.byte	14                              # 0xe
	.byte	12                              # 0xc
	.byte	13                              # 0xd
	.byte	4                               # 0x4
	.byte	11                              # 0xb
	.byte	10                              # 0xa
	.byte	7                               # 0x7
	.byte	8                               # 0x8
	.byte	6                               # 0x6
	.byte	3                               # 0x3
.Laes_v3_CPI10_15:
	.byte	128                             # 0x80
	.byte	1                               # 0x1
	.byte	9                               # 0x9
	.byte	14                              # 0xe
	.byte	13                              # 0xd
	.byte	11                              # 0xb
	.byte	7                               # 0x7
	.byte	6                               # 0x6
	.byte	15                              # 0xf
	.byte	2                               # 0x2
	.byte	12                              # 0xc
	.byte	5                               # 0x5
	.byte	10                              # 0xa
	.byte	4                               # 0x4
	.byte	3                               # 0x3
	.byte	8                               # 0x8
.Laes_v3_CPI10_16:
	.byte	0                               # 0x0
	.byte	195                             # 0xc3
	.byte	79                              # 0x4f
	.byte	12                              # 0xc
	.byte	252                             # 0xfc
	.byte	124                             # 0x7c
	.byte	67                              # 0x43
	.byte	128                             # 0x80
	.byte	207                             # 0xcf
	.byte	51                              # 0x33
	.byte	63                              # 0x3f
	.byte	112                             # 0x70
	.byte	191                             # 0xbf
	.byte	179                             # 0xb3
	.byte	240                             # 0xf0
	.byte	140                             # 0x8c
.Laes_v3_CPI10_17:
	.byte	0                               # 0x0
	.byte	230                             # 0xe6
	.byte	114                             # 0x72
	.byte	183                             # 0xb7
	.byte	229                             # 0xe5
	.byte	198                             # 0xc6
	.byte	197                             # 0xc5
	.byte	35                              # 0x23
	.byte	81                              # 0x51
	.byte	180                             # 0xb4
	.byte	3                               # 0x3
	.byte	113                             # 0x71
	.byte	32                              # 0x20
	.byte	151                             # 0x97
	.byte	82                              # 0x52
	.byte	148                             # 0x94
.Laes_v3_CPI10_18:
	.byte	0                               # 0x0
	.byte	124                             # 0x7c
	.byte	32                              # 0x20
	.byte	207                             # 0xcf
	.byte	146                             # 0x92
	.byte	1                               # 0x1
	.byte	239                             # 0xef
	.byte	147                             # 0x93
	.byte	179                             # 0xb3
	.byte	33                              # 0x21
	.byte	238                             # 0xee
	.byte	206                             # 0xce
	.byte	125                             # 0x7d
	.byte	178                             # 0xb2
	.byte	93                              # 0x5d
	.byte	92                              # 0x5c
.Laes_v3_CPI10_19:
	.byte	0                               # 0x0
	.byte	209                             # 0xd1
	.byte	229                             # 0xe5
	.byte	247                             # 0xf7
	.byte	230                             # 0xe6
	.byte	37                              # 0x25
	.byte	18                              # 0x12
	.byte	195                             # 0xc3
	.byte	38                              # 0x26
	.byte	192                             # 0xc0
	.byte	55                              # 0x37
	.byte	210                             # 0xd2
	.byte	244                             # 0xf4
	.byte	3                               # 0x3
	.byte	17                              # 0x11
	.byte	52                              # 0x34
.Laes_v3_CPI10_20:
	.byte	0                               # 0x0
	.byte	203                             # 0xcb
	.byte	215                             # 0xd7
	.byte	176                             # 0xb0
	.byte	33                              # 0x21
	.byte	141                             # 0x8d
	.byte	103                             # 0x67
	.byte	172                             # 0xac
	.byte	123                             # 0x7b
	.byte	90                              # 0x5a
	.byte	234                             # 0xea
	.byte	61                              # 0x3d
	.byte	70                              # 0x46
	.byte	246                             # 0xf6
	.byte	145                             # 0x91
	.byte	28                              # 0x1c
.Laes_v3_CPI10_21:
	.byte	0                               # 0x0
	.byte	159                             # 0x9f
	.byte	97                              # 0x61
	.byte	22                              # 0x16
	.byte	194                             # 0xc2
	.byte	42                              # 0x2a
	.byte	119                             # 0x77
	.byte	232                             # 0xe8
	.byte	137                             # 0x89
	.byte	75                              # 0x4b
	.byte	93                              # 0x5d
	.byte	60                              # 0x3c
	.byte	181                             # 0xb5
	.byte	163                             # 0xa3
	.byte	212                             # 0xd4
	.byte	254                             # 0xfe
.Laes_v3_CPI10_22:
	.zero	4,15
	.text
	.p2align	4
aes_v3.aes_permute.blocks.process_on_lanes.1: # @aes_v3.aes_permute.blocks.process_on_lanes.1
.seh_proc aes_v3.aes_permute.blocks.process_on_lanes.1
# %bb.0:                                # %start
	pushq	%r15
	.seh_pushreg %r15
	pushq	%r14
	.seh_pushreg %r14
	pushq	%r12
	.seh_pushreg %r12
	pushq	%rbx
	.seh_pushreg %rbx
	subq	$40, %rsp
	.seh_stackalloc 40
	.seh_endprologue
	cmpq	$4, %rcx
	jb	.Laes_v3_BB10_1
# %bb.15:                               # %join.5.lr.ph
	leaq	-1(%rsi), %r8
	movq	%r8, %r9
	shlq	$4, %r9
	movl	%r9d, %eax
	andl	$48, %eax
	leaq	.Laes_v3_static.3(%rip), %r10
	vbroadcasti128	(%rax,%r10), %ymm0      # ymm0 = mem[0,1,0,1]
	vmovdqu	%ymm0, (%rsp)                   # 32-byte Spill
	leaq	-2(%rsi), %r10
	xorl	%eax, %eax
	jmp	.Laes_v3_BB10_16
	.p2align	4
.Laes_v3_BB10_19:                              # %"aes_permute::blocks::process_two_vectors::<#8b9e8a6b2f3495e4>.exit"
                                        #   in Loop: Header=BB10_16 Depth=1
	vbroadcasti128	(%rdi,%r9), %ymm4       # ymm4 = mem[0,1,0,1]
	vpsrlw	$4, %ymm3, %ymm0
	vpand	%ymm1, %ymm0, %ymm0
	vpand	%ymm1, %ymm3, %ymm3
	vpxor	%ymm3, %ymm0, %ymm5
	vbroadcasti128	.Laes_v3_CPI10_14(%rip), %ymm6 # ymm6 = [128,2,1,15,9,5,14,12,13,4,11,10,7,8,6,3,128,2,1,15,9,5,14,12,13,4,11,10,7,8,6,3]
                                        # ymm6 = mem[0,1,0,1]
	vpshufb	%ymm3, %ymm6, %ymm3
	vbroadcasti128	.Laes_v3_CPI10_15(%rip), %ymm7 # ymm7 = [128,1,9,14,13,11,7,6,15,2,12,5,10,4,3,8,128,1,9,14,13,11,7,6,15,2,12,5,10,4,3,8]
                                        # ymm7 = mem[0,1,0,1]
	vpshufb	%ymm0, %ymm7, %ymm8
	vpshufb	%ymm5, %ymm7, %ymm9
	vpxor	%ymm3, %ymm8, %ymm8
	vpxor	%ymm3, %ymm9, %ymm3
	vpshufb	%ymm8, %ymm7, %ymm8
	vpshufb	%ymm3, %ymm7, %ymm3
	vpxor	%ymm5, %ymm8, %ymm5
	vpxor	%ymm0, %ymm3, %ymm0
	vbroadcasti128	.Laes_v3_CPI10_20(%rip), %ymm3 # ymm3 = [0,203,215,176,33,141,103,172,123,90,234,61,70,246,145,28,0,203,215,176,33,141,103,172,123,90,234,61,70,246,145,28]
                                        # ymm3 = mem[0,1,0,1]
	vpshufb	%ymm5, %ymm3, %ymm5
	vbroadcasti128	.Laes_v3_CPI10_21(%rip), %ymm8 # ymm8 = [0,159,97,22,194,42,119,232,137,75,93,60,181,163,212,254,0,159,97,22,194,42,119,232,137,75,93,60,181,163,212,254]
                                        # ymm8 = mem[0,1,0,1]
	vpshufb	%ymm0, %ymm8, %ymm0
	vpxor	%ymm5, %ymm0, %ymm0
	vmovdqu	(%rsp), %ymm10                  # 32-byte Reload
	vpshufb	%ymm10, %ymm0, %ymm0
	vpxor	%ymm4, %ymm0, %ymm0
	vpsrlw	$4, %ymm2, %ymm5
	vpand	%ymm1, %ymm5, %ymm5
	vpand	%ymm1, %ymm2, %ymm1
	vpxor	%ymm1, %ymm5, %ymm2
	vpshufb	%ymm1, %ymm6, %ymm1
	vpshufb	%ymm5, %ymm7, %ymm6
	vpshufb	%ymm2, %ymm7, %ymm9
	vpxor	%ymm1, %ymm6, %ymm6
	vpxor	%ymm1, %ymm9, %ymm1
	vpshufb	%ymm6, %ymm7, %ymm6
	vpshufb	%ymm1, %ymm7, %ymm1
	vpxor	%ymm2, %ymm6, %ymm2
	vpxor	%ymm5, %ymm1, %ymm1
	vpshufb	%ymm2, %ymm3, %ymm2
	vpshufb	%ymm1, %ymm8, %ymm1
	vpxor	%ymm2, %ymm1, %ymm1
	vpshufb	%ymm10, %ymm1, %ymm1
	vpxor	%ymm4, %ymm1, %ymm1
	vmovdqu	%ymm0, (%rdx,%r11)
	vmovdqu	%ymm1, 32(%rdx,%r11)
	addq	$4, %rax
	movq	%rcx, %r11
	subq	%rax, %r11
	cmpq	$3, %r11
	jbe	.Laes_v3_BB10_2
.Laes_v3_BB10_16:                              # %join.5
                                        # =>This Loop Header: Depth=1
                                        #     Child Loop BB10_18 Depth 2
	movq	%rax, %r11
	shlq	$4, %r11
	vbroadcasti128	(%rdi), %ymm2           # ymm2 = mem[0,1,0,1]
	vpxor	(%rdx,%r11), %ymm2, %ymm3
	vpbroadcastd	.Laes_v3_CPI10_22(%rip), %ymm1 # ymm1 = [15,15,15,15,15,15,15,15,15,15,15,15,15,15,15,15,15,15,15,15,15,15,15,15,15,15,15,15,15,15,15,15]
	vpand	%ymm1, %ymm3, %ymm4
	vbroadcasti128	.Laes_v3_CPI10_12(%rip), %ymm5 # ymm5 = [0,1,28,29,45,44,49,48,39,38,59,58,10,11,22,23,0,1,28,29,45,44,49,48,39,38,59,58,10,11,22,23]
                                        # ymm5 = mem[0,1,0,1]
	vpshufb	%ymm4, %ymm5, %ymm4
	vpsrlw	$4, %ymm3, %ymm3
	vpand	%ymm1, %ymm3, %ymm3
	vbroadcasti128	.Laes_v3_CPI10_13(%rip), %ymm6 # ymm6 = [0,134,253,123,142,8,115,245,119,241,138,12,249,127,4,130,0,134,253,123,142,8,115,245,119,241,138,12,249,127,4,130]
                                        # ymm6 = mem[0,1,0,1]
	vpshufb	%ymm3, %ymm6, %ymm3
	vpxor	32(%rdx,%r11), %ymm2, %ymm2
	vpxor	%ymm4, %ymm3, %ymm3
	vpand	%ymm1, %ymm2, %ymm4
	vpshufb	%ymm4, %ymm5, %ymm4
	vpsrlw	$4, %ymm2, %ymm2
	vpand	%ymm1, %ymm2, %ymm2
	vpshufb	%ymm2, %ymm6, %ymm2
	vpxor	%ymm4, %ymm2, %ymm2
	cmpq	$2, %r8
	jb	.Laes_v3_BB10_19
# %bb.17:                               # %join.5.i1434.preheader
                                        #   in Loop: Header=BB10_16 Depth=1
	movl	$16, %ebx
	movq	%r10, %r14
	.p2align	4
.Laes_v3_BB10_18:                              # %join.5.i1434
                                        #   Parent Loop BB10_16 Depth=1
                                        # =>  This Inner Loop Header: Depth=2
	vpsrlw	$4, %ymm3, %ymm4
	vpand	%ymm1, %ymm4, %ymm5
	vpand	%ymm1, %ymm3, %ymm3
	vpxor	%ymm3, %ymm5, %ymm6
	vbroadcasti128	.Laes_v3_CPI10_14(%rip), %ymm4 # ymm4 = [128,2,1,15,9,5,14,12,13,4,11,10,7,8,6,3,128,2,1,15,9,5,14,12,13,4,11,10,7,8,6,3]
                                        # ymm4 = mem[0,1,0,1]
	vpshufb	%ymm3, %ymm4, %ymm7
	vbroadcasti128	.Laes_v3_CPI10_15(%rip), %ymm3 # ymm3 = [128,1,9,14,13,11,7,6,15,2,12,5,10,4,3,8,128,1,9,14,13,11,7,6,15,2,12,5,10,4,3,8]
                                        # ymm3 = mem[0,1,0,1]
	vpshufb	%ymm5, %ymm3, %ymm8
	vpshufb	%ymm6, %ymm3, %ymm9
	vpxor	%ymm7, %ymm8, %ymm8
	vpxor	%ymm7, %ymm9, %ymm7
	vpshufb	%ymm8, %ymm3, %ymm8
	vpshufb	%ymm7, %ymm3, %ymm7
	vpxor	%ymm6, %ymm8, %ymm8
	vpxor	%ymm5, %ymm7, %ymm9
	vbroadcasti128	.Laes_v3_CPI10_16(%rip), %ymm5 # ymm5 = [0,195,79,12,252,124,67,128,207,51,63,112,191,179,240,140,0,195,79,12,252,124,67,128,207,51,63,112,191,179,240,140]
                                        # ymm5 = mem[0,1,0,1]
	vpshufb	%ymm8, %ymm5, %ymm7
	vbroadcasti128	.Laes_v3_CPI10_17(%rip), %ymm6 # ymm6 = [0,230,114,183,229,198,197,35,81,180,3,113,32,151,82,148,0,230,114,183,229,198,197,35,81,180,3,113,32,151,82,148]
                                        # ymm6 = mem[0,1,0,1]
	vpshufb	%ymm9, %ymm6, %ymm10
	vpxor	%ymm7, %ymm10, %ymm10
	vbroadcasti128	.Laes_v3_CPI10_18(%rip), %ymm7 # ymm7 = [0,124,32,207,146,1,239,147,179,33,238,206,125,178,93,92,0,124,32,207,146,1,239,147,179,33,238,206,125,178,93,92]
                                        # ymm7 = mem[0,1,0,1]
	vpshufb	%ymm8, %ymm7, %ymm8
	vbroadcasti128	.Laes_v3_CPI10_19(%rip), %ymm11 # ymm11 = [0,209,229,247,230,37,18,195,38,192,55,210,244,3,17,52,0,209,229,247,230,37,18,195,38,192,55,210,244,3,17,52]
                                        # ymm11 = mem[0,1,0,1]
	vpshufb	%ymm9, %ymm11, %ymm9
	vpxor	%ymm8, %ymm9, %ymm8
	movl	%ebx, %r15d
	andl	$48, %r15d
	leaq	.Laes_v3_static.4(%rip), %r12
	vbroadcasti128	(%r15,%r12), %ymm9      # ymm9 = mem[0,1,0,1]
	vpshufb	%ymm9, %ymm10, %ymm12
	vpxor	%ymm12, %ymm8, %ymm8
	vpshufb	%ymm9, %ymm8, %ymm12
	leaq	.Laes_v3_static.5(%rip), %r12
	vbroadcasti128	(%r15,%r12), %ymm13     # ymm13 = mem[0,1,0,1]
	vpshufb	%ymm13, %ymm10, %ymm10
	vpsrlw	$4, %ymm2, %ymm14
	vpand	%ymm1, %ymm14, %ymm14
	vpand	%ymm1, %ymm2, %ymm2
	vpxor	%ymm2, %ymm14, %ymm15
	vpshufb	%ymm2, %ymm4, %ymm2
	vpshufb	%ymm14, %ymm3, %ymm4
	vpshufb	%ymm15, %ymm3, %ymm0
	vpxor	%ymm2, %ymm4, %ymm4
	vpxor	%ymm2, %ymm0, %ymm0
	vpshufb	%ymm4, %ymm3, %ymm2
	vpshufb	%ymm0, %ymm3, %ymm0
	vpxor	%ymm2, %ymm15, %ymm2
	vpxor	%ymm0, %ymm14, %ymm0
	vpshufb	%ymm2, %ymm5, %ymm3
	vpshufb	%ymm0, %ymm6, %ymm4
	vpxor	%ymm3, %ymm4, %ymm3
	vpshufb	%ymm2, %ymm7, %ymm2
	vpshufb	%ymm0, %ymm11, %ymm0
	vpxor	%ymm2, %ymm0, %ymm0
	vpshufb	%ymm9, %ymm3, %ymm2
	vpxor	%ymm2, %ymm0, %ymm0
	vpshufb	%ymm9, %ymm0, %ymm2
	vpshufb	%ymm13, %ymm3, %ymm4
	vbroadcasti128	(%rdi,%rbx), %ymm5      # ymm5 = mem[0,1,0,1]
	vpxor	%ymm8, %ymm10, %ymm3
	vpxor	%ymm3, %ymm12, %ymm3
	vpxor	%ymm5, %ymm3, %ymm3
	vpxor	%ymm0, %ymm4, %ymm0
	vpxor	%ymm0, %ymm2, %ymm0
	vpxor	%ymm5, %ymm0, %ymm2
	addq	$16, %rbx
	decq	%r14
	jne	.Laes_v3_BB10_18
	jmp	.Laes_v3_BB10_19
.Laes_v3_BB10_1:
	xorl	%eax, %eax
.Laes_v3_BB10_2:                               # %loop.7.preheader
	movq	%rcx, %r8
	subq	%rax, %r8
	cmpq	$2, %r8
	jb	.Laes_v3_BB10_8
# %bb.3:                                # %join.10.lr.ph
	leaq	-1(%rsi), %r8
	movq	%r8, %r9
	shlq	$4, %r9
	movl	%r9d, %r10d
	andl	$48, %r10d
	leaq	.Laes_v3_static.3(%rip), %r11
	vbroadcasti128	(%r10,%r11), %ymm0      # ymm0 = mem[0,1,0,1]
	leaq	-2(%rsi), %r10
	jmp	.Laes_v3_BB10_4
	.p2align	4
.Laes_v3_BB10_7:                               # %"aes_permute::blocks::process_vector::<#8b9e8a6b2f3495e4>.exit"
                                        #   in Loop: Header=BB10_4 Depth=1
	vbroadcasti128	(%rdi,%r9), %ymm2       # ymm2 = mem[0,1,0,1]
	vpsrlw	$4, %ymm3, %ymm4
	vpand	%ymm1, %ymm4, %ymm4
	vpand	%ymm1, %ymm3, %ymm1
	vpxor	%ymm1, %ymm4, %ymm3
	vbroadcasti128	.Laes_v3_CPI10_14(%rip), %ymm5 # ymm5 = [128,2,1,15,9,5,14,12,13,4,11,10,7,8,6,3,128,2,1,15,9,5,14,12,13,4,11,10,7,8,6,3]
                                        # ymm5 = mem[0,1,0,1]
	vpshufb	%ymm1, %ymm5, %ymm1
	vbroadcasti128	.Laes_v3_CPI10_15(%rip), %ymm5 # ymm5 = [128,1,9,14,13,11,7,6,15,2,12,5,10,4,3,8,128,1,9,14,13,11,7,6,15,2,12,5,10,4,3,8]
                                        # ymm5 = mem[0,1,0,1]
	vpshufb	%ymm4, %ymm5, %ymm6
	vpshufb	%ymm3, %ymm5, %ymm7
	vpxor	%ymm1, %ymm6, %ymm6
	vpxor	%ymm1, %ymm7, %ymm1
	vpshufb	%ymm6, %ymm5, %ymm6
	vpshufb	%ymm1, %ymm5, %ymm1
	vpxor	%ymm3, %ymm6, %ymm3
	vpxor	%ymm4, %ymm1, %ymm1
	vbroadcasti128	.Laes_v3_CPI10_20(%rip), %ymm4 # ymm4 = [0,203,215,176,33,141,103,172,123,90,234,61,70,246,145,28,0,203,215,176,33,141,103,172,123,90,234,61,70,246,145,28]
                                        # ymm4 = mem[0,1,0,1]
	vpshufb	%ymm3, %ymm4, %ymm3
	vbroadcasti128	.Laes_v3_CPI10_21(%rip), %ymm4 # ymm4 = [0,159,97,22,194,42,119,232,137,75,93,60,181,163,212,254,0,159,97,22,194,42,119,232,137,75,93,60,181,163,212,254]
                                        # ymm4 = mem[0,1,0,1]
	vpshufb	%ymm1, %ymm4, %ymm1
	vpxor	%ymm3, %ymm1, %ymm1
	vpshufb	%ymm0, %ymm1, %ymm1
	vpxor	%ymm2, %ymm1, %ymm1
	vmovdqu	%ymm1, (%rdx,%r11)
	addq	$2, %rax
	movq	%rcx, %r11
	subq	%rax, %r11
	cmpq	$1, %r11
	jbe	.Laes_v3_BB10_8
.Laes_v3_BB10_4:                               # %join.10
                                        # =>This Loop Header: Depth=1
                                        #     Child Loop BB10_6 Depth 2
	movq	%rax, %r11
	shlq	$4, %r11
	vbroadcasti128	(%rdi), %ymm1           # ymm1 = mem[0,1,0,1]
	vpxor	(%rdx,%r11), %ymm1, %ymm2
	vpbroadcastd	.Laes_v3_CPI10_22(%rip), %ymm1 # ymm1 = [15,15,15,15,15,15,15,15,15,15,15,15,15,15,15,15,15,15,15,15,15,15,15,15,15,15,15,15,15,15,15,15]
	vpand	%ymm1, %ymm2, %ymm3
	vbroadcasti128	.Laes_v3_CPI10_12(%rip), %ymm4 # ymm4 = [0,1,28,29,45,44,49,48,39,38,59,58,10,11,22,23,0,1,28,29,45,44,49,48,39,38,59,58,10,11,22,23]
                                        # ymm4 = mem[0,1,0,1]
	vpshufb	%ymm3, %ymm4, %ymm3
	vpsrlw	$4, %ymm2, %ymm2
	vpand	%ymm1, %ymm2, %ymm2
	vbroadcasti128	.Laes_v3_CPI10_13(%rip), %ymm4 # ymm4 = [0,134,253,123,142,8,115,245,119,241,138,12,249,127,4,130,0,134,253,123,142,8,115,245,119,241,138,12,249,127,4,130]
                                        # ymm4 = mem[0,1,0,1]
	vpshufb	%ymm2, %ymm4, %ymm2
	vpxor	%ymm3, %ymm2, %ymm3
	cmpq	$2, %r8
	jb	.Laes_v3_BB10_7
# %bb.5:                                # %join.5.i.preheader
                                        #   in Loop: Header=BB10_4 Depth=1
	movl	$16, %ebx
	movq	%r10, %r14
	.p2align	4
.Laes_v3_BB10_6:                               # %join.5.i
                                        #   Parent Loop BB10_4 Depth=1
                                        # =>  This Inner Loop Header: Depth=2
	vbroadcasti128	(%rdi,%rbx), %ymm2      # ymm2 = mem[0,1,0,1]
	vpsrlw	$4, %ymm3, %ymm4
	vpand	%ymm1, %ymm4, %ymm4
	vpand	%ymm1, %ymm3, %ymm3
	vpxor	%ymm3, %ymm4, %ymm5
	vbroadcasti128	.Laes_v3_CPI10_14(%rip), %ymm6 # ymm6 = [128,2,1,15,9,5,14,12,13,4,11,10,7,8,6,3,128,2,1,15,9,5,14,12,13,4,11,10,7,8,6,3]
                                        # ymm6 = mem[0,1,0,1]
	vpshufb	%ymm3, %ymm6, %ymm3
	vbroadcasti128	.Laes_v3_CPI10_15(%rip), %ymm6 # ymm6 = [128,1,9,14,13,11,7,6,15,2,12,5,10,4,3,8,128,1,9,14,13,11,7,6,15,2,12,5,10,4,3,8]
                                        # ymm6 = mem[0,1,0,1]
	vpshufb	%ymm4, %ymm6, %ymm7
	vpshufb	%ymm5, %ymm6, %ymm8
	vpxor	%ymm3, %ymm7, %ymm7
	vpxor	%ymm3, %ymm8, %ymm3
	vpshufb	%ymm7, %ymm6, %ymm7
	vpshufb	%ymm3, %ymm6, %ymm3
	vpxor	%ymm5, %ymm7, %ymm5
	vpxor	%ymm4, %ymm3, %ymm3
	vbroadcasti128	.Laes_v3_CPI10_16(%rip), %ymm4 # ymm4 = [0,195,79,12,252,124,67,128,207,51,63,112,191,179,240,140,0,195,79,12,252,124,67,128,207,51,63,112,191,179,240,140]
                                        # ymm4 = mem[0,1,0,1]
	vpshufb	%ymm5, %ymm4, %ymm4
	vbroadcasti128	.Laes_v3_CPI10_17(%rip), %ymm6 # ymm6 = [0,230,114,183,229,198,197,35,81,180,3,113,32,151,82,148,0,230,114,183,229,198,197,35,81,180,3,113,32,151,82,148]
                                        # ymm6 = mem[0,1,0,1]
	vpshufb	%ymm3, %ymm6, %ymm6
	vpxor	%ymm4, %ymm6, %ymm4
	vbroadcasti128	.Laes_v3_CPI10_18(%rip), %ymm6 # ymm6 = [0,124,32,207,146,1,239,147,179,33,238,206,125,178,93,92,0,124,32,207,146,1,239,147,179,33,238,206,125,178,93,92]
                                        # ymm6 = mem[0,1,0,1]
	vpshufb	%ymm5, %ymm6, %ymm5
	vbroadcasti128	.Laes_v3_CPI10_19(%rip), %ymm6 # ymm6 = [0,209,229,247,230,37,18,195,38,192,55,210,244,3,17,52,0,209,229,247,230,37,18,195,38,192,55,210,244,3,17,52]
                                        # ymm6 = mem[0,1,0,1]
	vpshufb	%ymm3, %ymm6, %ymm3
	vpxor	%ymm5, %ymm3, %ymm3
	movl	%ebx, %r15d
	andl	$48, %r15d
	leaq	.Laes_v3_static.4(%rip), %r12
	vbroadcasti128	(%r15,%r12), %ymm5      # ymm5 = mem[0,1,0,1]
	vpshufb	%ymm5, %ymm4, %ymm6
	vpxor	%ymm6, %ymm3, %ymm3
	vpshufb	%ymm5, %ymm3, %ymm5
	leaq	.Laes_v3_static.5(%rip), %r12
	vbroadcasti128	(%r15,%r12), %ymm6      # ymm6 = mem[0,1,0,1]
	vpshufb	%ymm6, %ymm4, %ymm4
	vpxor	%ymm4, %ymm2, %ymm2
	vpxor	%ymm3, %ymm2, %ymm2
	vpxor	%ymm2, %ymm5, %ymm3
	addq	$16, %rbx
	decq	%r14
	jne	.Laes_v3_BB10_6
	jmp	.Laes_v3_BB10_7
.Laes_v3_BB10_8:                               # %loop.12.preheader
	cmpq	%rcx, %rax
	jae	.Laes_v3_BB10_14
# %bb.9:                                # %join.15.lr.ph
	leaq	-1(%rsi), %r8
	movq	%r8, %r9
	shlq	$4, %r9
	movl	%r9d, %r10d
	andl	$48, %r10d
	leaq	.Laes_v3_static.3(%rip), %r11
	vmovdqu	(%r10,%r11), %xmm0
	addq	$-2, %rsi
	jmp	.Laes_v3_BB10_10
	.p2align	4
.Laes_v3_BB10_13:                              # %"aes_permute::blocks::process_vector::<#06aaae76f5856d0a>.exit"
                                        #   in Loop: Header=BB10_10 Depth=1
	vpsrlw	$4, %xmm2, %xmm3
	vpand	%xmm1, %xmm3, %xmm3
	vpand	%xmm1, %xmm2, %xmm1
	vpxor	%xmm1, %xmm3, %xmm2
	vmovdqa	.Laes_v3_CPI10_14(%rip), %xmm4         # xmm4 = [128,2,1,15,9,5,14,12,13,4,11,10,7,8,6,3]
	vpshufb	%xmm1, %xmm4, %xmm1
	vmovdqa	.Laes_v3_CPI10_15(%rip), %xmm4         # xmm4 = [128,1,9,14,13,11,7,6,15,2,12,5,10,4,3,8]
	vpshufb	%xmm3, %xmm4, %xmm5
	vpshufb	%xmm2, %xmm4, %xmm6
	vpxor	%xmm1, %xmm5, %xmm5
	vpxor	%xmm1, %xmm6, %xmm1
	vpshufb	%xmm5, %xmm4, %xmm5
	vpshufb	%xmm1, %xmm4, %xmm1
	vpxor	%xmm2, %xmm5, %xmm2
	vpxor	%xmm3, %xmm1, %xmm1
	vmovdqa	.Laes_v3_CPI10_20(%rip), %xmm3         # xmm3 = [0,203,215,176,33,141,103,172,123,90,234,61,70,246,145,28]
	vpshufb	%xmm2, %xmm3, %xmm2
	vmovdqa	.Laes_v3_CPI10_21(%rip), %xmm3         # xmm3 = [0,159,97,22,194,42,119,232,137,75,93,60,181,163,212,254]
	vpshufb	%xmm1, %xmm3, %xmm1
	vpxor	%xmm2, %xmm1, %xmm1
	vpshufb	%xmm0, %xmm1, %xmm1
	vpxor	(%rdi,%r9), %xmm1, %xmm1
	vmovdqu	%xmm1, (%rdx,%r10)
	incq	%rax
	cmpq	%rcx, %rax
	je	.Laes_v3_BB10_14
.Laes_v3_BB10_10:                              # %join.15
                                        # =>This Loop Header: Depth=1
                                        #     Child Loop BB10_12 Depth 2
	movq	%rax, %r10
	shlq	$4, %r10
	vmovdqu	(%rdi), %xmm1
	vpxor	(%rdx,%r10), %xmm1, %xmm2
	vpbroadcastd	.Laes_v3_CPI10_22(%rip), %xmm1 # xmm1 = [15,15,15,15,15,15,15,15,15,15,15,15,15,15,15,15]
	vpand	%xmm1, %xmm2, %xmm3
	vmovdqa	.Laes_v3_CPI10_12(%rip), %xmm4         # xmm4 = [0,1,28,29,45,44,49,48,39,38,59,58,10,11,22,23]
	vpshufb	%xmm3, %xmm4, %xmm3
	vpsrlw	$4, %xmm2, %xmm2
	vpand	%xmm1, %xmm2, %xmm2
	vmovdqa	.Laes_v3_CPI10_13(%rip), %xmm4         # xmm4 = [0,134,253,123,142,8,115,245,119,241,138,12,249,127,4,130]
	vpshufb	%xmm2, %xmm4, %xmm2
	vpxor	%xmm3, %xmm2, %xmm2
	cmpq	$2, %r8
	jb	.Laes_v3_BB10_13
# %bb.11:                               # %join.5.i476.preheader
                                        #   in Loop: Header=BB10_10 Depth=1
	movl	$16, %r11d
	movq	%rsi, %rbx
	.p2align	4
.Laes_v3_BB10_12:                              # %join.5.i476
                                        #   Parent Loop BB10_10 Depth=1
                                        # =>  This Inner Loop Header: Depth=2
	vpsrlw	$4, %xmm2, %xmm3
	vpand	%xmm1, %xmm3, %xmm3
	vpand	%xmm1, %xmm2, %xmm2
	vpxor	%xmm2, %xmm3, %xmm4
	vmovdqa	.Laes_v3_CPI10_14(%rip), %xmm5         # xmm5 = [128,2,1,15,9,5,14,12,13,4,11,10,7,8,6,3]
	vpshufb	%xmm2, %xmm5, %xmm2
	vmovdqa	.Laes_v3_CPI10_15(%rip), %xmm5         # xmm5 = [128,1,9,14,13,11,7,6,15,2,12,5,10,4,3,8]
	vpshufb	%xmm3, %xmm5, %xmm6
	vpshufb	%xmm4, %xmm5, %xmm7
	vpxor	%xmm2, %xmm6, %xmm6
	vpxor	%xmm2, %xmm7, %xmm2
	vpshufb	%xmm6, %xmm5, %xmm6
	vpshufb	%xmm2, %xmm5, %xmm2
	vpxor	%xmm4, %xmm6, %xmm4
	vpxor	%xmm3, %xmm2, %xmm2
	vmovdqa	.Laes_v3_CPI10_16(%rip), %xmm3         # xmm3 = [0,195,79,12,252,124,67,128,207,51,63,112,191,179,240,140]
	vpshufb	%xmm4, %xmm3, %xmm3
	vmovdqa	.Laes_v3_CPI10_17(%rip), %xmm5         # xmm5 = [0,230,114,183,229,198,197,35,81,180,3,113,32,151,82,148]
	vpshufb	%xmm2, %xmm5, %xmm5
	vpxor	%xmm3, %xmm5, %xmm3
	vmovdqa	.Laes_v3_CPI10_18(%rip), %xmm5         # xmm5 = [0,124,32,207,146,1,239,147,179,33,238,206,125,178,93,92]
	vpshufb	%xmm4, %xmm5, %xmm4
	vmovdqa	.Laes_v3_CPI10_19(%rip), %xmm5         # xmm5 = [0,209,229,247,230,37,18,195,38,192,55,210,244,3,17,52]
	vpshufb	%xmm2, %xmm5, %xmm2
	vpxor	%xmm4, %xmm2, %xmm2
	movl	%r11d, %r14d
	andl	$48, %r14d
	leaq	.Laes_v3_static.4(%rip), %r15
	vmovdqu	(%r14,%r15), %xmm4
	vpshufb	%xmm4, %xmm3, %xmm5
	vpxor	%xmm5, %xmm2, %xmm2
	vpshufb	%xmm4, %xmm2, %xmm4
	leaq	.Laes_v3_static.5(%rip), %r15
	vpshufb	(%r14,%r15), %xmm3, %xmm3
	vpxor	(%rdi,%r11), %xmm4, %xmm4
	vpxor	%xmm2, %xmm3, %xmm2
	vpxor	%xmm2, %xmm4, %xmm2
	addq	$16, %r11
	decq	%rbx
	jne	.Laes_v3_BB10_12
	jmp	.Laes_v3_BB10_13
.Laes_v3_BB10_14:                              # %after.11
	addq	$40, %rsp
	popq	%rbx
	popq	%r12
	popq	%r14
	popq	%r15
	vzeroupper
	retq
	.seh_endproc
                                        # -- End function
	.def	aes_v3.aes_hybrid.closures.lend_planes.1;
	.scl	3;
	.type	32;
	.endef
	.p2align	4                               # -- Begin function aes_hybrid::closures::lend_planes::<#ca68ef0e72699fe6>
aes_v3.aes_hybrid.closures.lend_planes.1: # @aes_v3.aes_hybrid.closures.lend_planes.1
.seh_proc aes_v3.aes_hybrid.closures.lend_planes.1
# %bb.0:                                # %start
	pushq	%rbp
	.seh_pushreg %rbp
	pushq	%r15
	.seh_pushreg %r15
	pushq	%r14
	.seh_pushreg %r14
	pushq	%r13
	.seh_pushreg %r13
	pushq	%r12
	.seh_pushreg %r12
	pushq	%rbx
	.seh_pushreg %rbx
	movl	$3944, %eax                     # imm = 0xF68
	callq	___chkstk_ms
	subq	%rax, %rsp
	.seh_stackalloc 3944
	leaq	128(%rsp), %rbp
	.seh_setframe %rbp, 128
	.seh_endprologue
	andq	$-32, %rsp
	movq	%r8, 56(%rsp)                   # 8-byte Spill
	movq	%rcx, 48(%rsp)                  # 8-byte Spill
	movq	%rdx, %r15
	movq	%rsi, %r12
	movq	%rdi, %r13
	leaq	352(%rsp), %rcx
	movl	$3584, %r8d                     # imm = 0xE00
	xorl	%edx, %edx
	callq	memset
	leaq	(,%rsi,8), %rbx
	leaq	96(%rsp), %r14
	movq	%r14, %rdi
	movq	%r13, %rsi
	movq	%r12, %rdx
	callq	aes_v3.aes_hybrid.plane_keys.store_planes
	movq	%r13, 64(%rsp)
	movq	%r12, 72(%rsp)
	movq	%r15, 80(%rsp)
	movq	48(%rsp), %rax                  # 8-byte Reload
	movq	%rax, 88(%rsp)
	leaq	64(%rsp), %rdi
	movq	%r14, %rsi
	movq	%rbx, %rdx
	movq	56(%rsp), %rcx                  # 8-byte Reload
	callq	aes_v3.aes_hybrid.closures.call_to_work.1
	movq	%r14, %rdi
	callq	aes_v3.aes_cipher.zeroize.zeroize_words
	callq	aes_v3.aes_cipher.zeroize.stack.wipe_stack.2032
	nop
	leaq	3816(%rbp), %rsp
	popq	%rbx
	popq	%r12
	popq	%r13
	popq	%r14
	popq	%r15
	popq	%rbp
	retq
	.seh_endproc
                                        # -- End function
	.def	aes_v3.aes_hybrid.closures.call_to_work.1;
	.scl	3;
	.type	32;
	.endef
	.section	.rdata,"dr"
	.p2align	5, 0x0                          # -- Begin function aes_hybrid::closures::call_to_work::<#ca68ef0e72699fe6>
.Laes_v3_CPI12_0:
	.byte	15                              # 0xf
	.byte	11                              # 0xb
	.byte	7                               # 0x7
	.byte	3                               # 0x3
	.byte	14                              # 0xe
	.byte	10                              # 0xa
	.byte	6                               # 0x6
	.byte	2                               # 0x2
	.byte	13                              # 0xd
	.byte	9                               # 0x9
	.byte	5                               # 0x5
	.byte	1                               # 0x1
	.byte	12                              # 0xc
	.byte	8                               # 0x8
	.byte	4                               # 0x4
	.byte	0                               # 0x0
	.byte	15                              # 0xf
	.byte	11                              # 0xb
	.byte	7                               # 0x7
	.byte	3                               # 0x3
	.byte	14                              # 0xe
	.byte	10                              # 0xa
	.byte	6                               # 0x6
	.byte	2                               # 0x2
	.byte	13                              # 0xd
	.byte	9                               # 0x9
	.byte	5                               # 0x5
	.byte	1                               # 0x1
	.byte	12                              # 0xc
	.byte	8                               # 0x8
	.byte	4                               # 0x4
	.byte	0                               # 0x0
.Laes_v3_CPI12_1:
	.zero	32,85
.Laes_v3_CPI12_2:
	.zero	32,51
.Laes_v3_CPI12_3:
	.zero	32,15
.Laes_v3_CPI12_4:
	.byte	0                               # 0x0
	.byte	4                               # 0x4
	.byte	8                               # 0x8
	.byte	12                              # 0xc
	.byte	1                               # 0x1
	.byte	5                               # 0x5
	.byte	9                               # 0x9
	.byte	13                              # 0xd
	.byte	2                               # 0x2
	.byte	6                               # 0x6
	.byte	10                              # 0xa
	.byte	14                              # 0xe
	.byte	3                               # 0x3
	.byte	7                               # 0x7
	.byte	11                              # 0xb
	.byte	15                              # 0xf
	.byte	0                               # 0x0
	.byte	4                               # 0x4
	.byte	8                               # 0x8
	.byte	12                              # 0xc
	.byte	1                               # 0x1
	.byte	5                               # 0x5
	.byte	9                               # 0x9
	.byte	13                              # 0xd
	.byte	2                               # 0x2
	.byte	6                               # 0x6
	.byte	10                              # 0xa
	.byte	14                              # 0xe
	.byte	3                               # 0x3
	.byte	7                               # 0x7
	.byte	11                              # 0xb
	.byte	15                              # 0xf
.Laes_v3_CPI12_5:
	.byte	15                              # 0xf
	.byte	11                              # 0xb
	.byte	7                               # 0x7
	.byte	3                               # 0x3
	.byte	14                              # 0xe
	.byte	10                              # 0xa
	.byte	6                               # 0x6
	.byte	2                               # 0x2
	.byte	13                              # 0xd
	.byte	9                               # 0x9
	.byte	5                               # 0x5
	.byte	1                               # 0x1
	.byte	12                              # 0xc
	.byte	8                               # 0x8
	.byte	4                               # 0x4
	.byte	0                               # 0x0
.Laes_v3_CPI12_6:
	.zero	4,85
.Laes_v3_CPI12_7:
	.zero	4,51
.Laes_v3_CPI12_8:
	.zero	4,15
	.zero	4
.Laes_v3_CPI12_9:
	.byte	0                               # 0x0
	.byte	4                               # 0x4
	.byte	8                               # 0x8
	.byte	12                              # 0xc
	.byte	1                               # 0x1
	.byte	5                               # 0x5
	.byte	9                               # 0x9
	.byte	13                              # 0xd
	.byte	2                               # 0x2
	.byte	6                               # 0x6
	.byte	10                              # 0xa
	.byte	14                              # 0xe
	.byte	3                               # 0x3
	.byte	7                               # 0x7
	.byte	11                              # 0xb
	.byte	15                              # 0xf
	.text
	.p2align	4
aes_v3.aes_hybrid.closures.call_to_work.1: # @aes_v3.aes_hybrid.closures.call_to_work.1
.seh_proc aes_v3.aes_hybrid.closures.call_to_work.1
# %bb.0:                                # %start
	pushq	%rbp
	.seh_pushreg %rbp
	pushq	%r15
	.seh_pushreg %r15
	pushq	%r14
	.seh_pushreg %r14
	pushq	%r13
	.seh_pushreg %r13
	pushq	%r12
	.seh_pushreg %r12
	pushq	%rbx
	.seh_pushreg %rbx
	subq	$360, %rsp                      # imm = 0x168
	.seh_stackalloc 360
	.seh_endprologue
	movq	%rdx, %r8
	movq	%rsi, %r13
	movq	%rdi, 24(%rsp)
	movq	%rsi, 32(%rsp)
	movq	%rdx, 40(%rsp)
	movq	(%rcx), %rbx
	movq	8(%rcx), %rdx
	movq	24(%rcx), %r14
	movq	16(%rcx), %r12
	testb	$15, %dl
	movq	%rdx, (%rsp)                    # 8-byte Spill
	je	.Laes_v3_BB12_1
# %bb.2:                                # %then.1.i.i
	leaq	24(%rsp), %rdi
	movq	%rbx, %rsi
	xorl	%ecx, %ecx
	movq	%r8, %r15
	movq	%r12, %r8
	movq	%r14, %r9
	callq	aes_v3.aes_ctr.add_in_batches.add_next.1
	movq	%r15, %r8
	movq	%rax, %rbp
	jmp	.Laes_v3_BB12_3
.Laes_v3_BB12_1:
	xorl	%ebp, %ebp
.Laes_v3_BB12_3:                               # %join.3.i.i
	movq	%r14, 8(%rsp)                   # 8-byte Spill
	movq	%r14, %r15
	subq	%rbp, %r15
	cmpq	$256, %r15                      # imm = 0x100
	jb	.Laes_v3_BB12_6
# %bb.4:                                # %join.11.lr.ph.i.i
	movq	%r13, 16(%rsp)                  # 8-byte Spill
	leaq	96(%rsp), %r13
	andq	$-32, %r13
	shrq	$3, %r8
	decq	%r8
	.p2align	4
.Laes_v3_BB12_5:                               # %join.11.i.i
                                        # =>This Inner Loop Header: Depth=1
	movbeq	(%rbx), %rax
	movbeq	8(%rbx), %rdx
	movq	(%rsp), %rcx                    # 8-byte Reload
	addq	%rbp, %rcx
	shrq	$4, %rcx
	addq	%rdx, %rcx
	adcq	$0, %rax
	vmovq	%rcx, %xmm0
	vmovq	%rax, %xmm1
	movq	%rcx, %rdx
	addq	$1, %rdx
	movq	%rax, %rsi
	adcq	$0, %rsi
	vpunpcklqdq	%xmm1, %xmm0, %xmm1     # xmm1 = xmm0[0],xmm1[0]
	vmovq	%rsi, %xmm0
	vmovq	%rdx, %xmm2
	vpunpcklqdq	%xmm0, %xmm2, %xmm0     # xmm0 = xmm2[0],xmm0[0]
	vmovdqu	%ymm0, 48(%rsp)                 # 32-byte Spill
	movq	%rcx, %rdx
	addq	$2, %rdx
	movq	%rax, %rsi
	adcq	$0, %rsi
	vmovq	%rsi, %xmm2
	vmovq	%rdx, %xmm3
	movq	%rcx, %rdx
	addq	$3, %rdx
	movq	%rax, %rsi
	adcq	$0, %rsi
	vpunpcklqdq	%xmm2, %xmm3, %xmm2     # xmm2 = xmm3[0],xmm2[0]
	vmovq	%rsi, %xmm3
	vmovq	%rdx, %xmm4
	vpunpcklqdq	%xmm3, %xmm4, %xmm3     # xmm3 = xmm4[0],xmm3[0]
	movq	%rcx, %rdx
	addq	$4, %rdx
	movq	%rax, %rsi
	adcq	$0, %rsi
	vmovq	%rsi, %xmm4
	vmovq	%rdx, %xmm5
	movq	%rcx, %rdx
	addq	$5, %rdx
	movq	%rax, %rsi
	adcq	$0, %rsi
	vpunpcklqdq	%xmm4, %xmm5, %xmm5     # xmm5 = xmm5[0],xmm4[0]
	vmovq	%rsi, %xmm4
	vmovq	%rdx, %xmm6
	vpunpcklqdq	%xmm4, %xmm6, %xmm4     # xmm4 = xmm6[0],xmm4[0]
	movq	%rcx, %rdx
	addq	$6, %rdx
	movq	%rax, %rsi
	adcq	$0, %rsi
	vmovq	%rsi, %xmm6
	vmovq	%rdx, %xmm7
	movq	%rcx, %rdx
	addq	$7, %rdx
	movq	%rax, %rsi
	adcq	$0, %rsi
	vpunpcklqdq	%xmm6, %xmm7, %xmm6     # xmm6 = xmm7[0],xmm6[0]
	vmovq	%rsi, %xmm7
	vmovq	%rdx, %xmm8
	vpunpcklqdq	%xmm7, %xmm8, %xmm7     # xmm7 = xmm8[0],xmm7[0]
	movq	%rcx, %rdx
	addq	$8, %rdx
	movq	%rax, %rsi
	adcq	$0, %rsi
	vmovq	%rsi, %xmm8
	vmovq	%rdx, %xmm9
	movq	%rcx, %rdx
	addq	$9, %rdx
	movq	%rax, %rsi
	adcq	$0, %rsi
	vpunpcklqdq	%xmm8, %xmm9, %xmm9     # xmm9 = xmm9[0],xmm8[0]
	vmovq	%rsi, %xmm8
	vmovq	%rdx, %xmm10
	vpunpcklqdq	%xmm8, %xmm10, %xmm8    # xmm8 = xmm10[0],xmm8[0]
	movq	%rcx, %rdx
	addq	$10, %rdx
	movq	%rax, %rsi
	adcq	$0, %rsi
	vmovq	%rsi, %xmm10
	vmovq	%rdx, %xmm11
	movq	%rcx, %rdx
	addq	$11, %rdx
	movq	%rax, %rsi
	adcq	$0, %rsi
	vpunpcklqdq	%xmm10, %xmm11, %xmm10  # xmm10 = xmm11[0],xmm10[0]
	vmovq	%rsi, %xmm11
	vmovq	%rdx, %xmm12
	vpunpcklqdq	%xmm11, %xmm12, %xmm11  # xmm11 = xmm12[0],xmm11[0]
	movq	%rcx, %rdx
	addq	$12, %rdx
	movq	%rax, %rsi
	adcq	$0, %rsi
	vmovq	%rsi, %xmm12
	vmovq	%rdx, %xmm13
	movq	%rcx, %rdx
	addq	$13, %rdx
	movq	%rax, %rsi
	adcq	$0, %rsi
	vpunpcklqdq	%xmm12, %xmm13, %xmm13  # xmm13 = xmm13[0],xmm12[0]
	vmovq	%rsi, %xmm12
	vmovq	%rdx, %xmm14
	vpunpcklqdq	%xmm12, %xmm14, %xmm12  # xmm12 = xmm14[0],xmm12[0]
	movq	%rcx, %rdx
	addq	$14, %rdx
	movq	%rax, %rsi
	adcq	$0, %rsi
	vmovq	%rsi, %xmm14
	vmovq	%rdx, %xmm15
	addq	$15, %rcx
	adcq	$0, %rax
	vpunpcklqdq	%xmm14, %xmm15, %xmm14  # xmm14 = xmm15[0],xmm14[0]
	vmovq	%rax, %xmm15
	vmovq	%rcx, %xmm0
	vpunpcklqdq	%xmm15, %xmm0, %xmm0    # xmm0 = xmm0[0],xmm15[0]
	vinserti128	$1, %xmm9, %ymm1, %ymm1
	vmovdqu	48(%rsp), %ymm9                 # 32-byte Reload
	vinserti128	$1, %xmm8, %ymm9, %ymm8
	vinserti128	$1, %xmm10, %ymm2, %ymm2
	vinserti128	$1, %xmm11, %ymm3, %ymm3
	vinserti128	$1, %xmm13, %ymm5, %ymm5
	vbroadcasti128	.Laes_v3_CPI12_5(%rip), %ymm9  # ymm9 = [15,11,7,3,14,10,6,2,13,9,5,1,12,8,4,0,15,11,7,3,14,10,6,2,13,9,5,1,12,8,4,0]
                                        # ymm9 = mem[0,1,0,1]
	vpshufb	%ymm9, %ymm1, %ymm1
	vpshufb	%ymm9, %ymm8, %ymm8
	vpshufb	%ymm9, %ymm2, %ymm2
	vpshufb	%ymm9, %ymm3, %ymm3
	vpshufb	%ymm9, %ymm5, %ymm5
	vinserti128	$1, %xmm12, %ymm4, %ymm4
	vpshufb	%ymm9, %ymm4, %ymm4
	vinserti128	$1, %xmm14, %ymm6, %ymm6
	vpshufb	%ymm9, %ymm6, %ymm6
	vinserti128	$1, %xmm0, %ymm7, %ymm0
	vpshufb	%ymm9, %ymm0, %ymm7
	vpsrlw	$1, %ymm1, %ymm0
	vpxor	%ymm0, %ymm8, %ymm0
	vpbroadcastd	.Laes_v3_CPI12_6(%rip), %ymm10 # ymm10 = [85,85,85,85,85,85,85,85,85,85,85,85,85,85,85,85,85,85,85,85,85,85,85,85,85,85,85,85,85,85,85,85]
	vpand	%ymm0, %ymm10, %ymm9
	vpxor	%ymm8, %ymm9, %ymm0
	vpaddb	%ymm9, %ymm9, %ymm8
	vpxor	%ymm1, %ymm8, %ymm8
	vpsrlw	$1, %ymm2, %ymm1
	vpxor	%ymm1, %ymm3, %ymm1
	vpand	%ymm1, %ymm10, %ymm1
	vpxor	%ymm3, %ymm1, %ymm3
	vpaddb	%ymm1, %ymm1, %ymm1
	vpxor	%ymm2, %ymm1, %ymm1
	vpsrlw	$1, %ymm5, %ymm2
	vpxor	%ymm2, %ymm4, %ymm2
	vpand	%ymm2, %ymm10, %ymm9
	vpxor	%ymm4, %ymm9, %ymm2
	vpaddb	%ymm9, %ymm9, %ymm4
	vpxor	%ymm5, %ymm4, %ymm4
	vpsrlw	$1, %ymm6, %ymm5
	vpxor	%ymm5, %ymm7, %ymm5
	vpand	%ymm5, %ymm10, %ymm5
	vpxor	%ymm7, %ymm5, %ymm7
	vpaddb	%ymm5, %ymm5, %ymm5
	vpxor	%ymm6, %ymm5, %ymm5
	vpsrlw	$2, %ymm8, %ymm6
	vpxor	%ymm6, %ymm1, %ymm6
	vpbroadcastd	.Laes_v3_CPI12_7(%rip), %ymm9  # ymm9 = [51,51,51,51,51,51,51,51,51,51,51,51,51,51,51,51,51,51,51,51,51,51,51,51,51,51,51,51,51,51,51,51]
	vpand	%ymm6, %ymm9, %ymm6
	vpxor	%ymm1, %ymm6, %ymm1
	vpsllw	$2, %ymm6, %ymm6
	vpxor	%ymm6, %ymm8, %ymm6
	vpsrlw	$2, %ymm4, %ymm8
	vpxor	%ymm5, %ymm8, %ymm8
	vpand	%ymm9, %ymm8, %ymm8
	vpxor	%ymm5, %ymm8, %ymm5
	vpsllw	$2, %ymm8, %ymm8
	vpxor	%ymm4, %ymm8, %ymm4
	vpsrlw	$2, %ymm0, %ymm8
	vpxor	%ymm3, %ymm8, %ymm8
	vpand	%ymm9, %ymm8, %ymm8
	vpxor	%ymm3, %ymm8, %ymm3
	vpsllw	$2, %ymm8, %ymm8
	vpxor	%ymm0, %ymm8, %ymm0
	vpsrlw	$2, %ymm2, %ymm8
	vpxor	%ymm7, %ymm8, %ymm8
	vpand	%ymm9, %ymm8, %ymm8
	vpxor	%ymm7, %ymm8, %ymm7
	vpsllw	$2, %ymm8, %ymm8
	vpxor	%ymm2, %ymm8, %ymm2
	vpsrlw	$4, %ymm6, %ymm8
	vpbroadcastd	.Laes_v3_CPI12_8(%rip), %ymm9  # ymm9 = [15,15,15,15,15,15,15,15,15,15,15,15,15,15,15,15,15,15,15,15,15,15,15,15,15,15,15,15,15,15,15,15]
	vpxor	%ymm4, %ymm8, %ymm8
	vpand	%ymm9, %ymm8, %ymm8
	vpxor	%ymm4, %ymm8, %ymm4
	vpsllw	$4, %ymm8, %ymm8
	vpxor	%ymm6, %ymm8, %ymm6
	vpsrlw	$4, %ymm0, %ymm8
	vpxor	%ymm2, %ymm8, %ymm8
	vpand	%ymm9, %ymm8, %ymm8
	vpxor	%ymm2, %ymm8, %ymm2
	vpsllw	$4, %ymm8, %ymm8
	vpxor	%ymm0, %ymm8, %ymm0
	vpsrlw	$4, %ymm1, %ymm8
	vpxor	%ymm5, %ymm8, %ymm8
	vpand	%ymm9, %ymm8, %ymm8
	vpxor	%ymm5, %ymm8, %ymm5
	vpsllw	$4, %ymm8, %ymm8
	vpxor	%ymm1, %ymm8, %ymm1
	vpsrlw	$4, %ymm3, %ymm8
	vpxor	%ymm7, %ymm8, %ymm8
	vpand	%ymm9, %ymm8, %ymm8
	vpxor	%ymm7, %ymm8, %ymm7
	vpsllw	$4, %ymm8, %ymm8
	vpxor	%ymm3, %ymm8, %ymm3
	vmovdqa	%ymm6, (%r13)
	vmovdqa	%ymm0, 32(%r13)
	vmovdqa	%ymm1, 64(%r13)
	vmovdqa	%ymm3, 96(%r13)
	vmovdqa	%ymm4, 128(%r13)
	vmovdqa	%ymm2, 160(%r13)
	vmovdqa	%ymm5, 192(%r13)
	vmovdqa	%ymm7, 224(%r13)
	movq	16(%rsp), %rdi                  # 8-byte Reload
	movq	%r8, %rsi
	movq	%r13, %rdx
	movq	%r8, %r14
	vzeroupper
	callq	aes_v3.aes_soft.soft.ciphers.planes.EncryptPlaneCipher.process_planes
	movq	%r14, %r8
	vmovdqa	(%r13), %ymm3
	vmovdqa	32(%r13), %ymm0
	vmovdqa	64(%r13), %ymm8
	vmovdqa	96(%r13), %ymm2
	vmovdqa	128(%r13), %ymm1
	vmovdqa	160(%r13), %ymm5
	vmovdqa	192(%r13), %ymm4
	vmovdqa	224(%r13), %ymm6
	vpsrlw	$1, %ymm4, %ymm7
	vpxor	%ymm7, %ymm6, %ymm7
	vpbroadcastd	.Laes_v3_CPI12_6(%rip), %ymm12 # ymm12 = [85,85,85,85,85,85,85,85,85,85,85,85,85,85,85,85,85,85,85,85,85,85,85,85,85,85,85,85,85,85,85,85]
	vpand	%ymm7, %ymm12, %ymm7
	vpaddb	%ymm7, %ymm7, %ymm9
	vpsrlw	$1, %ymm1, %ymm10
	vpxor	%ymm4, %ymm9, %ymm4
	vpxor	%ymm5, %ymm10, %ymm9
	vpand	%ymm12, %ymm9, %ymm9
	vpaddb	%ymm9, %ymm9, %ymm10
	vpxor	%ymm1, %ymm10, %ymm1
	vpsrlw	$1, %ymm8, %ymm10
	vpxor	%ymm2, %ymm10, %ymm10
	vpsrlw	$1, %ymm3, %ymm11
	vpand	%ymm12, %ymm10, %ymm10
	vpxor	%ymm0, %ymm11, %ymm11
	vpand	%ymm12, %ymm11, %ymm11
	vpaddb	%ymm10, %ymm10, %ymm12
	vpxor	%ymm8, %ymm12, %ymm12
	vpaddb	%ymm11, %ymm11, %ymm8
	vpxor	%ymm3, %ymm8, %ymm3
	vpxor	%ymm6, %ymm7, %ymm6
	vpsrlw	$2, %ymm1, %ymm7
	vpxor	%ymm7, %ymm4, %ymm8
	vpxor	%ymm5, %ymm9, %ymm7
	vpsrlw	$2, %ymm3, %ymm5
	vpbroadcastd	.Laes_v3_CPI12_7(%rip), %ymm15 # ymm15 = [51,51,51,51,51,51,51,51,51,51,51,51,51,51,51,51,51,51,51,51,51,51,51,51,51,51,51,51,51,51,51,51]
	vpand	%ymm15, %ymm8, %ymm9
	vpxor	%ymm5, %ymm12, %ymm5
	vpxor	%ymm2, %ymm10, %ymm10
	vpsrlw	$2, %ymm7, %ymm2
	vpand	%ymm5, %ymm15, %ymm13
	vpxor	%ymm2, %ymm6, %ymm2
	vpand	%ymm2, %ymm15, %ymm14
	vmovdqa	%ymm15, %ymm5
	vpxor	%ymm6, %ymm14, %ymm2
	vpxor	%ymm4, %ymm9, %ymm15
	vpxor	%ymm0, %ymm11, %ymm8
	vpsrlw	$2, %ymm8, %ymm0
	vpxor	%ymm0, %ymm10, %ymm0
	vpxor	%ymm12, %ymm13, %ymm6
	vpand	%ymm5, %ymm0, %ymm11
	vpxor	%ymm10, %ymm11, %ymm5
	vpsllw	$2, %ymm9, %ymm0
	vpsrlw	$4, %ymm6, %ymm4
	vpxor	%ymm1, %ymm0, %ymm9
	vpsrlw	$4, %ymm5, %ymm0
	vpxor	%ymm0, %ymm2, %ymm0
	vpxor	%ymm4, %ymm15, %ymm1
	vpbroadcastd	.Laes_v3_CPI12_8(%rip), %ymm10 # ymm10 = [15,15,15,15,15,15,15,15,15,15,15,15,15,15,15,15,15,15,15,15,15,15,15,15,15,15,15,15,15,15,15,15]
	vpand	%ymm0, %ymm10, %ymm4
	vpsllw	$2, %ymm13, %ymm0
	vpxor	%ymm3, %ymm0, %ymm12
	vpand	%ymm1, %ymm10, %ymm13
	vmovdqa	%ymm10, %ymm0
	vpsllw	$2, %ymm14, %ymm1
	vpxor	%ymm7, %ymm1, %ymm7
	vpxor	%ymm15, %ymm13, %ymm1
	vpsrlw	$4, %ymm12, %ymm3
	vpxor	%ymm3, %ymm9, %ymm3
	vpsllw	$2, %ymm11, %ymm10
	vpand	%ymm0, %ymm3, %ymm11
	vpxor	%ymm8, %ymm10, %ymm14
	vpsrlw	$4, %ymm14, %ymm3
	vpxor	%ymm3, %ymm7, %ymm8
	vpxor	%ymm9, %ymm11, %ymm3
	vpand	%ymm0, %ymm8, %ymm10
	vpsllw	$4, %ymm13, %ymm13
	vpsllw	$4, %ymm11, %ymm8
	vpxor	%ymm12, %ymm8, %ymm8
	vpsllw	$4, %ymm10, %ymm9
	vpxor	%ymm14, %ymm9, %ymm9
	vinserti128	$1, %xmm9, %ymm8, %ymm11
	vpxor	%ymm6, %ymm13, %ymm6
	vbroadcasti128	.Laes_v3_CPI12_9(%rip), %ymm0  # ymm0 = [0,4,8,12,1,5,9,13,2,6,10,14,3,7,11,15,0,4,8,12,1,5,9,13,2,6,10,14,3,7,11,15]
                                        # ymm0 = mem[0,1,0,1]
	vpshufb	%ymm0, %ymm11, %ymm11
	vpxor	(%r12,%rbp), %xmm11, %xmm12
	vpsllw	$4, %ymm4, %ymm13
	vpxor	%ymm5, %ymm13, %ymm5
	vmovdqu	%xmm12, (%r12,%rbp)
	vinserti128	$1, %xmm5, %ymm6, %ymm12
	vextracti128	$1, %ymm11, %xmm11
	vpxor	16(%r12,%rbp), %xmm11, %xmm11
	vpshufb	%ymm0, %ymm12, %ymm12
	vmovdqu	%xmm11, 16(%r12,%rbp)
	vpxor	32(%r12,%rbp), %xmm12, %xmm11
	vpxor	%ymm7, %ymm10, %ymm7
	vmovdqu	%xmm11, 32(%r12,%rbp)
	vinserti128	$1, %xmm7, %ymm3, %ymm10
	vextracti128	$1, %ymm12, %xmm11
	vpxor	48(%r12,%rbp), %xmm11, %xmm11
	vpshufb	%ymm0, %ymm10, %ymm10
	vmovdqu	%xmm11, 48(%r12,%rbp)
	vpxor	64(%r12,%rbp), %xmm10, %xmm11
	vpxor	%ymm2, %ymm4, %ymm2
	vmovdqu	%xmm11, 64(%r12,%rbp)
	vinserti128	$1, %xmm2, %ymm1, %ymm4
	vextracti128	$1, %ymm10, %xmm10
	vpxor	80(%r12,%rbp), %xmm10, %xmm10
	vpshufb	%ymm0, %ymm4, %ymm4
	vmovdqu	%xmm10, 80(%r12,%rbp)
	vpxor	96(%r12,%rbp), %xmm4, %xmm10
	vmovdqu	%xmm10, 96(%r12,%rbp)
	vperm2i128	$49, %ymm9, %ymm8, %ymm8 # ymm8 = ymm8[2,3],ymm9[2,3]
	vextracti128	$1, %ymm4, %xmm4
	vpxor	112(%r12,%rbp), %xmm4, %xmm4
	vpshufb	%ymm0, %ymm8, %ymm8
	vmovdqu	%xmm4, 112(%r12,%rbp)
	vpxor	128(%r12,%rbp), %xmm8, %xmm4
	vmovdqu	%xmm4, 128(%r12,%rbp)
	vperm2i128	$49, %ymm5, %ymm6, %ymm4 # ymm4 = ymm6[2,3],ymm5[2,3]
	vextracti128	$1, %ymm8, %xmm5
	vpxor	144(%r12,%rbp), %xmm5, %xmm5
	vpshufb	%ymm0, %ymm4, %ymm4
	vmovdqu	%xmm5, 144(%r12,%rbp)
	vpxor	160(%r12,%rbp), %xmm4, %xmm5
	vmovdqu	%xmm5, 160(%r12,%rbp)
	vperm2i128	$49, %ymm7, %ymm3, %ymm3 # ymm3 = ymm3[2,3],ymm7[2,3]
	vextracti128	$1, %ymm4, %xmm4
	vpxor	176(%r12,%rbp), %xmm4, %xmm4
	vpshufb	%ymm0, %ymm3, %ymm3
	vmovdqu	%xmm4, 176(%r12,%rbp)
	vpxor	192(%r12,%rbp), %xmm3, %xmm4
	vmovdqu	%xmm4, 192(%r12,%rbp)
	vperm2i128	$49, %ymm2, %ymm1, %ymm1 # ymm1 = ymm1[2,3],ymm2[2,3]
	vpshufb	%ymm0, %ymm1, %ymm0
	vextracti128	$1, %ymm3, %xmm1
	vpxor	208(%r12,%rbp), %xmm1, %xmm1
	vmovdqu	%xmm1, 208(%r12,%rbp)
	vpxor	224(%r12,%rbp), %xmm0, %xmm1
	vmovdqu	%xmm1, 224(%r12,%rbp)
	vextracti128	$1, %ymm0, %xmm0
	vpxor	240(%r12,%rbp), %xmm0, %xmm0
	vmovdqu	%xmm0, 240(%r12,%rbp)
	addq	$256, %rbp                      # imm = 0x100
	addq	$-256, %r15
	cmpq	$255, %r15
	ja	.Laes_v3_BB12_5
.Laes_v3_BB12_6:                               # %loop.13.preheader.i.i
	movq	8(%rsp), %r14                   # 8-byte Reload
	cmpq	%r14, %rbp
	movq	(%rsp), %r15                    # 8-byte Reload
	jae	.Laes_v3_BB12_8
	.p2align	4
.Laes_v3_BB12_7:                               # %join.16.i.i
                                        # =>This Inner Loop Header: Depth=1
	leaq	24(%rsp), %rdi
	movq	%rbx, %rsi
	movq	%r15, %rdx
	movq	%rbp, %rcx
	movq	%r12, %r8
	movq	%r14, %r9
	vzeroupper
	callq	aes_v3.aes_ctr.add_in_batches.add_next.1
	movq	%rax, %rbp
	cmpq	%r14, %rax
	jb	.Laes_v3_BB12_7
.Laes_v3_BB12_8:                               # %"aes_ctr::add_in_batches::AddStreamBlockCipherEncClosure::call::<#e8698b6d014bbc5a>.exit"
	addq	$360, %rsp                      # imm = 0x168
	popq	%rbx
	popq	%r12
	popq	%r13
	popq	%r14
	popq	%r15
	popq	%rbp
	vzeroupper
	retq
	.seh_endproc
                                        # -- End function
	.def	aes_v3.aes_ctr.add_in_batches.add_next.1;
	.scl	3;
	.type	32;
	.endef
	.section	.rdata,"dr"
	.p2align	5, 0x0                          # -- Begin function aes_ctr::add_in_batches::add_next::<#d58c15eb76ac7a54>
.Laes_v3_CPI13_0:
	.byte	15                              # 0xf
	.byte	14                              # 0xe
	.byte	13                              # 0xd
	.byte	12                              # 0xc
	.byte	11                              # 0xb
	.byte	10                              # 0xa
	.byte	9                               # 0x9
	.byte	8                               # 0x8
	.byte	7                               # 0x7
	.byte	6                               # 0x6
	.byte	5                               # 0x5
	.byte	4                               # 0x4
	.byte	3                               # 0x3
	.byte	2                               # 0x2
	.byte	1                               # 0x1
	.byte	0                               # 0x0
	.zero	16
.Laes_v3_CPI13_1:
	.byte	0                               # 0x0
	.byte	4                               # 0x4
	.byte	8                               # 0x8
	.byte	12                              # 0xc
	.byte	1                               # 0x1
	.byte	5                               # 0x5
	.byte	9                               # 0x9
	.byte	13                              # 0xd
	.byte	2                               # 0x2
	.byte	6                               # 0x6
	.byte	10                              # 0xa
	.byte	14                              # 0xe
	.byte	3                               # 0x3
	.byte	7                               # 0x7
	.byte	11                              # 0xb
	.byte	15                              # 0xf
	.byte	0                               # 0x0
	.byte	4                               # 0x4
	.byte	8                               # 0x8
	.byte	12                              # 0xc
	.byte	1                               # 0x1
	.byte	5                               # 0x5
	.byte	9                               # 0x9
	.byte	13                              # 0xd
	.byte	2                               # 0x2
	.byte	6                               # 0x6
	.byte	10                              # 0xa
	.byte	14                              # 0xe
	.byte	3                               # 0x3
	.byte	7                               # 0x7
	.byte	11                              # 0xb
	.byte	15                              # 0xf
.Laes_v3_CPI13_2:
	.zero	32,85
.Laes_v3_CPI13_3:
	.zero	32,51
.Laes_v3_CPI13_4:
	.zero	32,15
.Laes_v3_CPI13_5:
	.byte	0                               # 0x0
	.byte	4                               # 0x4
	.byte	8                               # 0x8
	.byte	12                              # 0xc
	.byte	1                               # 0x1
	.byte	5                               # 0x5
	.byte	9                               # 0x9
	.byte	13                              # 0xd
	.byte	2                               # 0x2
	.byte	6                               # 0x6
	.byte	10                              # 0xa
	.byte	14                              # 0xe
	.byte	3                               # 0x3
	.byte	7                               # 0x7
	.byte	11                              # 0xb
	.byte	15                              # 0xf
.Laes_v3_CPI13_6:
	.zero	4,85
.Laes_v3_CPI13_7:
	.zero	4,51
.Laes_v3_CPI13_8:
	.zero	4,15
	.text
	.p2align	4
aes_v3.aes_ctr.add_in_batches.add_next.1: # @aes_v3.aes_ctr.add_in_batches.add_next.1
.seh_proc aes_v3.aes_ctr.add_in_batches.add_next.1
# %bb.0:                                # %start
	pushq	%rbp
	.seh_pushreg %rbp
	pushq	%r15
	.seh_pushreg %r15
	pushq	%r14
	.seh_pushreg %r14
	pushq	%r13
	.seh_pushreg %r13
	pushq	%r12
	.seh_pushreg %r12
	pushq	%rbx
	.seh_pushreg %rbx
	subq	$536, %rsp                      # imm = 0x218
	.seh_stackalloc 536
	.seh_endprologue
	vxorps	%xmm0, %xmm0, %xmm0
	vmovups	%ymm0, 224(%rsp)
	vmovups	%ymm0, 192(%rsp)
	vmovups	%ymm0, 160(%rsp)
	vmovups	%ymm0, 128(%rsp)
	vmovups	%ymm0, 96(%rsp)
	vmovups	%ymm0, 64(%rsp)
	vmovups	%ymm0, 32(%rsp)
	vmovups	%ymm0, (%rsp)
	movbeq	(%rsi), %rax
	movq	%rcx, %rbx
	movq	%rdx, %r14
	movbeq	8(%rsi), %rdx
	addq	%rcx, %r14
	movq	%r14, %rcx
	shrq	$4, %rcx
	addq	%rdx, %rcx
	adcq	$0, %rax
	vmovq	%rcx, %xmm0
	vmovq	%rax, %xmm1
	vpunpcklqdq	%xmm1, %xmm0, %xmm1     # xmm1 = xmm0[0],xmm1[0]
	vmovdqa	.Laes_v3_CPI13_0(%rip), %xmm0          # xmm0 = [15,14,13,12,11,10,9,8,7,6,5,4,3,2,1,0]
	vpshufb	%xmm0, %xmm1, %xmm1
	vmovdqa	%xmm1, (%rsp)
	movq	%rcx, %rdx
	addq	$1, %rdx
	movq	%rax, %rsi
	adcq	$0, %rsi
	vmovq	%rsi, %xmm1
	vmovq	%rdx, %xmm2
	vpunpcklqdq	%xmm1, %xmm2, %xmm1     # xmm1 = xmm2[0],xmm1[0]
	vpshufb	%xmm0, %xmm1, %xmm1
	vmovdqa	%xmm1, 16(%rsp)
	movq	%rcx, %rdx
	addq	$2, %rdx
	movq	%rax, %rsi
	adcq	$0, %rsi
	vmovq	%rsi, %xmm1
	vmovq	%rdx, %xmm2
	vpunpcklqdq	%xmm1, %xmm2, %xmm1     # xmm1 = xmm2[0],xmm1[0]
	vpshufb	%xmm0, %xmm1, %xmm1
	vmovdqa	%xmm1, 32(%rsp)
	movq	%rcx, %rdx
	addq	$3, %rdx
	movq	%rax, %rsi
	adcq	$0, %rsi
	vmovq	%rsi, %xmm1
	vmovq	%rdx, %xmm2
	vpunpcklqdq	%xmm1, %xmm2, %xmm1     # xmm1 = xmm2[0],xmm1[0]
	vpshufb	%xmm0, %xmm1, %xmm1
	vmovdqa	%xmm1, 48(%rsp)
	movq	%rcx, %rdx
	addq	$4, %rdx
	movq	%rax, %rsi
	adcq	$0, %rsi
	vmovq	%rsi, %xmm1
	vmovq	%rdx, %xmm2
	vpunpcklqdq	%xmm1, %xmm2, %xmm1     # xmm1 = xmm2[0],xmm1[0]
	vpshufb	%xmm0, %xmm1, %xmm1
	vmovdqa	%xmm1, 64(%rsp)
	movq	%rcx, %rdx
	addq	$5, %rdx
	movq	%rax, %rsi
	adcq	$0, %rsi
	vmovq	%rsi, %xmm1
	vmovq	%rdx, %xmm2
	vpunpcklqdq	%xmm1, %xmm2, %xmm1     # xmm1 = xmm2[0],xmm1[0]
	vpshufb	%xmm0, %xmm1, %xmm1
	vmovdqa	%xmm1, 80(%rsp)
	movq	%rcx, %rdx
	addq	$6, %rdx
	movq	%rax, %rsi
	adcq	$0, %rsi
	vmovq	%rsi, %xmm1
	vmovq	%rdx, %xmm2
	vpunpcklqdq	%xmm1, %xmm2, %xmm1     # xmm1 = xmm2[0],xmm1[0]
	vpshufb	%xmm0, %xmm1, %xmm1
	vmovdqa	%xmm1, 96(%rsp)
	movq	%rcx, %rdx
	addq	$7, %rdx
	movq	%rax, %rsi
	adcq	$0, %rsi
	vmovq	%rsi, %xmm1
	vmovq	%rdx, %xmm2
	vpunpcklqdq	%xmm1, %xmm2, %xmm1     # xmm1 = xmm2[0],xmm1[0]
	vpshufb	%xmm0, %xmm1, %xmm1
	vmovdqa	%xmm1, 112(%rsp)
	movq	%rcx, %rdx
	addq	$8, %rdx
	movq	%rax, %rsi
	adcq	$0, %rsi
	vmovq	%rsi, %xmm1
	vmovq	%rdx, %xmm2
	vpunpcklqdq	%xmm1, %xmm2, %xmm1     # xmm1 = xmm2[0],xmm1[0]
	vpshufb	%xmm0, %xmm1, %xmm1
	vmovdqa	%xmm1, 128(%rsp)
	movq	%rcx, %rdx
	addq	$9, %rdx
	movq	%rax, %rsi
	adcq	$0, %rsi
	vmovq	%rsi, %xmm1
	vmovq	%rdx, %xmm2
	vpunpcklqdq	%xmm1, %xmm2, %xmm1     # xmm1 = xmm2[0],xmm1[0]
	vpshufb	%xmm0, %xmm1, %xmm1
	vmovdqa	%xmm1, 144(%rsp)
	movq	%rcx, %rdx
	addq	$10, %rdx
	movq	%rax, %rsi
	adcq	$0, %rsi
	vmovq	%rsi, %xmm1
	vmovq	%rdx, %xmm2
	vpunpcklqdq	%xmm1, %xmm2, %xmm1     # xmm1 = xmm2[0],xmm1[0]
	vpshufb	%xmm0, %xmm1, %xmm1
	vmovdqa	%xmm1, 160(%rsp)
	movq	%rcx, %rdx
	addq	$11, %rdx
	movq	%rax, %rsi
	adcq	$0, %rsi
	vmovq	%rsi, %xmm1
	vmovq	%rdx, %xmm2
	vpunpcklqdq	%xmm1, %xmm2, %xmm1     # xmm1 = xmm2[0],xmm1[0]
	vpshufb	%xmm0, %xmm1, %xmm1
	vmovdqa	%xmm1, 176(%rsp)
	movq	%rcx, %rdx
	addq	$12, %rdx
	movq	%rax, %rsi
	adcq	$0, %rsi
	vmovq	%rsi, %xmm1
	vmovq	%rdx, %xmm2
	vpunpcklqdq	%xmm1, %xmm2, %xmm1     # xmm1 = xmm2[0],xmm1[0]
	vpshufb	%xmm0, %xmm1, %xmm1
	vmovdqa	%xmm1, 192(%rsp)
	movq	%rcx, %rdx
	addq	$13, %rdx
	movq	%rax, %rsi
	adcq	$0, %rsi
	vmovq	%rsi, %xmm1
	vmovq	%rdx, %xmm2
	vpunpcklqdq	%xmm1, %xmm2, %xmm1     # xmm1 = xmm2[0],xmm1[0]
	vpshufb	%xmm0, %xmm1, %xmm1
	vmovdqa	%xmm1, 208(%rsp)
	movq	%rcx, %rdx
	addq	$14, %rdx
	movq	%rax, %rsi
	adcq	$0, %rsi
	vmovq	%rsi, %xmm1
	vmovq	%rdx, %xmm2
	vpunpcklqdq	%xmm1, %xmm2, %xmm1     # xmm1 = xmm2[0],xmm1[0]
	vpshufb	%xmm0, %xmm1, %xmm1
	vmovdqa	%xmm1, 224(%rsp)
	addq	$15, %rcx
	adcq	$0, %rax
	movq	%r9, %r13
	movq	%r8, %r12
	vmovq	%rax, %xmm1
	vmovq	%rcx, %xmm2
	vpunpcklqdq	%xmm1, %xmm2, %xmm1     # xmm1 = xmm2[0],xmm1[0]
	vpshufb	%xmm0, %xmm1, %xmm0
	vmovdqa	%xmm0, 240(%rsp)
	andl	$15, %r14d
	movl	$256, %eax                      # imm = 0x100
	subq	%r14, %rax
	movq	%r9, %r15
	subq	%rbx, %r15
	cmpq	%rax, %r15
	cmovaeq	%rax, %r15
	leaq	(%r15,%r14), %rcx
	cmpq	$192, %rcx
	ja	.Laes_v3_BB13_2
# %bb.1:                                # %then.1.i.i
	addq	$15, %rcx
	shrq	$4, %rcx
	movq	(%rdi), %rax
	movq	16(%rax), %rdi
	movq	24(%rax), %rsi
	movq	%rsp, %rdx
	vzeroupper
	callq	aes_v3.aes_permute.blocks.process_on_lanes.1
	leaq	(%r12,%rbx), %rax
	testq	%r14, %r14
	je	.Laes_v3_BB13_4
.Laes_v3_BB13_5:                               # %then.1.i
	movl	$16, %ecx
	subq	%r14, %rcx
	cmpq	%rcx, %r15
	cmovbq	%r15, %rcx
	cmpq	%rbx, %r13
	je	.Laes_v3_BB13_13
# %bb.6:                                # %join.8.i80.lr.ph
	movl	%ecx, %edx
	andl	$7, %edx
	cmpq	$8, %rcx
	jae	.Laes_v3_BB13_8
# %bb.7:
	xorl	%esi, %esi
	jmp	.Laes_v3_BB13_11
.Laes_v3_BB13_2:                               # %else.2.i.i
	vmovdqu	(%rsp), %ymm0
	vmovdqu	16(%rsp), %ymm1
	vmovdqu	32(%rsp), %ymm2
	vmovdqu	48(%rsp), %ymm3
	vinserti128	$1, 128(%rsp), %ymm0, %ymm0
	vinserti128	$1, 144(%rsp), %ymm1, %ymm1
	vinserti128	$1, 160(%rsp), %ymm2, %ymm2
	vinserti128	$1, 176(%rsp), %ymm3, %ymm3
	vmovdqu	64(%rsp), %ymm4
	vinserti128	$1, 192(%rsp), %ymm4, %ymm4
	vmovdqu	80(%rsp), %ymm5
	vinserti128	$1, 208(%rsp), %ymm5, %ymm5
	movq	%rdi, %rax
	movq	8(%rdi), %rdi
	vmovdqu	96(%rsp), %ymm6
	vinserti128	$1, 224(%rsp), %ymm6, %ymm6
	movq	16(%rax), %rsi
	vmovdqu	112(%rsp), %ymm7
	vinserti128	$1, 240(%rsp), %ymm7, %ymm7
	leaq	272(%rsp), %rbp
	andq	$-32, %rbp
	shrq	$3, %rsi
	decq	%rsi
	vbroadcasti128	.Laes_v3_CPI13_5(%rip), %ymm9  # ymm9 = [0,4,8,12,1,5,9,13,2,6,10,14,3,7,11,15,0,4,8,12,1,5,9,13,2,6,10,14,3,7,11,15]
                                        # ymm9 = mem[0,1,0,1]
	vpshufb	%ymm9, %ymm0, %ymm8
	vpshufb	%ymm9, %ymm1, %ymm0
	vpshufb	%ymm9, %ymm2, %ymm1
	vpshufb	%ymm9, %ymm3, %ymm2
	vpshufb	%ymm9, %ymm4, %ymm3
	vpshufb	%ymm9, %ymm5, %ymm4
	vpshufb	%ymm9, %ymm6, %ymm5
	vpshufb	%ymm9, %ymm7, %ymm6
	vpsrlw	$1, %ymm8, %ymm7
	vpxor	%ymm7, %ymm0, %ymm7
	vpbroadcastd	.Laes_v3_CPI13_6(%rip), %ymm10 # ymm10 = [85,85,85,85,85,85,85,85,85,85,85,85,85,85,85,85,85,85,85,85,85,85,85,85,85,85,85,85,85,85,85,85]
	vpand	%ymm7, %ymm10, %ymm7
	vpxor	%ymm0, %ymm7, %ymm0
	vpaddb	%ymm7, %ymm7, %ymm7
	vpxor	%ymm7, %ymm8, %ymm7
	vpsrlw	$1, %ymm1, %ymm8
	vpxor	%ymm2, %ymm8, %ymm8
	vpand	%ymm10, %ymm8, %ymm8
	vpxor	%ymm2, %ymm8, %ymm9
	vpaddb	%ymm8, %ymm8, %ymm2
	vpxor	%ymm1, %ymm2, %ymm1
	vpsrlw	$1, %ymm3, %ymm2
	vpxor	%ymm2, %ymm4, %ymm2
	vpand	%ymm2, %ymm10, %ymm8
	vpxor	%ymm4, %ymm8, %ymm2
	vpaddb	%ymm8, %ymm8, %ymm4
	vpxor	%ymm3, %ymm4, %ymm3
	vpsrlw	$1, %ymm5, %ymm4
	vpxor	%ymm4, %ymm6, %ymm4
	vpand	%ymm4, %ymm10, %ymm4
	vpxor	%ymm6, %ymm4, %ymm6
	vpaddb	%ymm4, %ymm4, %ymm4
	vpxor	%ymm5, %ymm4, %ymm4
	vpsrlw	$2, %ymm7, %ymm5
	vpxor	%ymm5, %ymm1, %ymm5
	vpbroadcastd	.Laes_v3_CPI13_7(%rip), %ymm10 # ymm10 = [51,51,51,51,51,51,51,51,51,51,51,51,51,51,51,51,51,51,51,51,51,51,51,51,51,51,51,51,51,51,51,51]
	vpand	%ymm5, %ymm10, %ymm5
	vpxor	%ymm1, %ymm5, %ymm1
	vpsllw	$2, %ymm5, %ymm5
	vpxor	%ymm7, %ymm5, %ymm5
	vpsrlw	$2, %ymm3, %ymm7
	vpxor	%ymm7, %ymm4, %ymm7
	vpand	%ymm7, %ymm10, %ymm7
	vpxor	%ymm4, %ymm7, %ymm4
	vpsllw	$2, %ymm7, %ymm7
	vpxor	%ymm3, %ymm7, %ymm7
	vpsrlw	$2, %ymm0, %ymm3
	vpxor	%ymm3, %ymm9, %ymm3
	vpand	%ymm3, %ymm10, %ymm8
	vpxor	%ymm9, %ymm8, %ymm3
	vpsllw	$2, %ymm8, %ymm8
	vpxor	%ymm0, %ymm8, %ymm0
	vpsrlw	$2, %ymm2, %ymm8
	vpxor	%ymm6, %ymm8, %ymm8
	vpand	%ymm10, %ymm8, %ymm8
	vpxor	%ymm6, %ymm8, %ymm6
	vpsllw	$2, %ymm8, %ymm8
	vpxor	%ymm2, %ymm8, %ymm2
	vpsrlw	$4, %ymm5, %ymm8
	vpbroadcastd	.Laes_v3_CPI13_8(%rip), %ymm9  # ymm9 = [15,15,15,15,15,15,15,15,15,15,15,15,15,15,15,15,15,15,15,15,15,15,15,15,15,15,15,15,15,15,15,15]
	vpxor	%ymm7, %ymm8, %ymm8
	vpand	%ymm9, %ymm8, %ymm8
	vpxor	%ymm7, %ymm8, %ymm7
	vpsllw	$4, %ymm8, %ymm8
	vpxor	%ymm5, %ymm8, %ymm5
	vpsrlw	$4, %ymm0, %ymm8
	vpxor	%ymm2, %ymm8, %ymm8
	vpand	%ymm9, %ymm8, %ymm8
	vpxor	%ymm2, %ymm8, %ymm2
	vpsllw	$4, %ymm8, %ymm8
	vpxor	%ymm0, %ymm8, %ymm0
	vpsrlw	$4, %ymm1, %ymm8
	vpxor	%ymm4, %ymm8, %ymm8
	vpand	%ymm9, %ymm8, %ymm8
	vpxor	%ymm4, %ymm8, %ymm4
	vpsllw	$4, %ymm8, %ymm8
	vpxor	%ymm1, %ymm8, %ymm1
	vpsrlw	$4, %ymm3, %ymm8
	vpxor	%ymm6, %ymm8, %ymm8
	vpand	%ymm9, %ymm8, %ymm8
	vpxor	%ymm6, %ymm8, %ymm6
	vpsllw	$4, %ymm8, %ymm8
	vpxor	%ymm3, %ymm8, %ymm3
	vmovdqa	%ymm5, (%rbp)
	vmovdqa	%ymm0, 32(%rbp)
	vmovdqa	%ymm1, 64(%rbp)
	vmovdqa	%ymm3, 96(%rbp)
	vmovdqa	%ymm7, 128(%rbp)
	vmovdqa	%ymm2, 160(%rbp)
	vmovdqa	%ymm4, 192(%rbp)
	vmovdqa	%ymm6, 224(%rbp)
	movq	%rbp, %rdx
	vzeroupper
	callq	aes_v3.aes_soft.soft.ciphers.planes.EncryptPlaneCipher.process_planes
	vmovdqa	(%rbp), %ymm1
	vmovdqa	32(%rbp), %ymm0
	vmovdqa	64(%rbp), %ymm2
	vmovdqa	96(%rbp), %ymm3
	vmovdqa	128(%rbp), %ymm4
	vmovdqa	160(%rbp), %ymm5
	vmovdqa	192(%rbp), %ymm6
	vmovdqa	224(%rbp), %ymm7
	vpsrlw	$1, %ymm1, %ymm8
	vpxor	%ymm0, %ymm8, %ymm8
	vpbroadcastd	.Laes_v3_CPI13_6(%rip), %ymm9  # ymm9 = [85,85,85,85,85,85,85,85,85,85,85,85,85,85,85,85,85,85,85,85,85,85,85,85,85,85,85,85,85,85,85,85]
	vpand	%ymm9, %ymm8, %ymm8
	vpxor	%ymm0, %ymm8, %ymm0
	vpaddb	%ymm8, %ymm8, %ymm8
	vpxor	%ymm1, %ymm8, %ymm8
	vpsrlw	$1, %ymm2, %ymm1
	vpxor	%ymm1, %ymm3, %ymm1
	vpand	%ymm1, %ymm9, %ymm1
	vpxor	%ymm3, %ymm1, %ymm3
	vpaddb	%ymm1, %ymm1, %ymm1
	vpxor	%ymm2, %ymm1, %ymm1
	vpsrlw	$1, %ymm4, %ymm2
	vpxor	%ymm2, %ymm5, %ymm2
	vpand	%ymm2, %ymm9, %ymm2
	vpxor	%ymm5, %ymm2, %ymm5
	vpaddb	%ymm2, %ymm2, %ymm2
	vpxor	%ymm4, %ymm2, %ymm2
	vpsrlw	$1, %ymm6, %ymm4
	vpxor	%ymm4, %ymm7, %ymm4
	vpand	%ymm4, %ymm9, %ymm4
	vpxor	%ymm7, %ymm4, %ymm7
	vpaddb	%ymm4, %ymm4, %ymm4
	vpxor	%ymm6, %ymm4, %ymm4
	vpsrlw	$2, %ymm8, %ymm6
	vpxor	%ymm6, %ymm1, %ymm6
	vpbroadcastd	.Laes_v3_CPI13_7(%rip), %ymm10 # ymm10 = [51,51,51,51,51,51,51,51,51,51,51,51,51,51,51,51,51,51,51,51,51,51,51,51,51,51,51,51,51,51,51,51]
	vpand	%ymm6, %ymm10, %ymm6
	vpxor	%ymm1, %ymm6, %ymm1
	vpsllw	$2, %ymm6, %ymm6
	vpxor	%ymm6, %ymm8, %ymm6
	vpsrlw	$2, %ymm2, %ymm8
	vpxor	%ymm4, %ymm8, %ymm8
	vpand	%ymm10, %ymm8, %ymm8
	vpxor	%ymm4, %ymm8, %ymm4
	vpsllw	$2, %ymm8, %ymm8
	vpxor	%ymm2, %ymm8, %ymm2
	vpsrlw	$2, %ymm0, %ymm8
	vpxor	%ymm3, %ymm8, %ymm8
	vpand	%ymm10, %ymm8, %ymm8
	vpxor	%ymm3, %ymm8, %ymm9
	vpsllw	$2, %ymm8, %ymm3
	vpxor	%ymm0, %ymm3, %ymm8
	vpsrlw	$2, %ymm5, %ymm0
	vpxor	%ymm0, %ymm7, %ymm0
	vpand	%ymm0, %ymm10, %ymm0
	vpxor	%ymm7, %ymm0, %ymm7
	vpsllw	$2, %ymm0, %ymm0
	vpxor	%ymm5, %ymm0, %ymm5
	vpsrlw	$4, %ymm6, %ymm0
	vpxor	%ymm0, %ymm2, %ymm0
	vpbroadcastd	.Laes_v3_CPI13_8(%rip), %ymm10 # ymm10 = [15,15,15,15,15,15,15,15,15,15,15,15,15,15,15,15,15,15,15,15,15,15,15,15,15,15,15,15,15,15,15,15]
	vpand	%ymm0, %ymm10, %ymm3
	vpxor	%ymm2, %ymm3, %ymm0
	vpsllw	$4, %ymm3, %ymm2
	vpxor	%ymm6, %ymm2, %ymm3
	vpsrlw	$4, %ymm8, %ymm2
	vpxor	%ymm2, %ymm5, %ymm2
	vpand	%ymm2, %ymm10, %ymm6
	vpxor	%ymm5, %ymm6, %ymm2
	vpsllw	$4, %ymm6, %ymm5
	vpxor	%ymm5, %ymm8, %ymm5
	vpsrlw	$4, %ymm1, %ymm6
	vpxor	%ymm6, %ymm4, %ymm6
	vpand	%ymm6, %ymm10, %ymm6
	vpxor	%ymm4, %ymm6, %ymm4
	vpsllw	$4, %ymm6, %ymm6
	vpxor	%ymm1, %ymm6, %ymm1
	vpsrlw	$4, %ymm9, %ymm6
	vpxor	%ymm6, %ymm7, %ymm6
	vpand	%ymm6, %ymm10, %ymm6
	vpxor	%ymm7, %ymm6, %ymm7
	vpsllw	$4, %ymm6, %ymm6
	vpxor	%ymm6, %ymm9, %ymm6
	vinserti128	$1, %xmm5, %ymm3, %ymm8
	vbroadcasti128	.Laes_v3_CPI13_5(%rip), %ymm9  # ymm9 = [0,4,8,12,1,5,9,13,2,6,10,14,3,7,11,15,0,4,8,12,1,5,9,13,2,6,10,14,3,7,11,15]
                                        # ymm9 = mem[0,1,0,1]
	vpshufb	%ymm9, %ymm8, %ymm8
	vmovdqu	%ymm8, (%rsp)
	vinserti128	$1, %xmm6, %ymm1, %ymm8
	vpshufb	%ymm9, %ymm8, %ymm8
	vmovdqu	%ymm8, 32(%rsp)
	vinserti128	$1, %xmm2, %ymm0, %ymm8
	vpshufb	%ymm9, %ymm8, %ymm8
	vmovdqu	%ymm8, 64(%rsp)
	vinserti128	$1, %xmm7, %ymm4, %ymm8
	vpshufb	%ymm9, %ymm8, %ymm8
	vmovdqu	%ymm8, 96(%rsp)
	vperm2i128	$49, %ymm5, %ymm3, %ymm3 # ymm3 = ymm3[2,3],ymm5[2,3]
	vpshufb	%ymm9, %ymm3, %ymm3
	vmovdqu	%ymm3, 128(%rsp)
	vperm2i128	$49, %ymm6, %ymm1, %ymm1 # ymm1 = ymm1[2,3],ymm6[2,3]
	vpshufb	%ymm9, %ymm1, %ymm1
	vmovdqu	%ymm1, 160(%rsp)
	vperm2i128	$49, %ymm2, %ymm0, %ymm0 # ymm0 = ymm0[2,3],ymm2[2,3]
	vpshufb	%ymm9, %ymm0, %ymm0
	vmovdqu	%ymm0, 192(%rsp)
	vperm2i128	$49, %ymm7, %ymm4, %ymm0 # ymm0 = ymm4[2,3],ymm7[2,3]
	vpshufb	%ymm9, %ymm0, %ymm0
	vmovdqu	%ymm0, 224(%rsp)
	leaq	(%r12,%rbx), %rax
	testq	%r14, %r14
	jne	.Laes_v3_BB13_5
.Laes_v3_BB13_4:
	xorl	%ecx, %ecx
	jmp	.Laes_v3_BB13_13
.Laes_v3_BB13_8:                               # %join.8.i80.lr.ph.new
	movl	%ecx, %edi
	andl	$24, %edi
	movq	%rsp, %rsi
	leaq	(%r14,%rsi), %r8
	addq	$7, %r8
	leaq	(%rbx,%r12), %r9
	addq	$7, %r9
	xorl	%esi, %esi
	.p2align	4
.Laes_v3_BB13_9:                               # %join.8.i80
                                        # =>This Inner Loop Header: Depth=1
	movzbl	-7(%r8,%rsi), %r10d
	xorb	%r10b, -7(%r9,%rsi)
	movzbl	-6(%r8,%rsi), %r10d
	xorb	%r10b, -6(%r9,%rsi)
	movzbl	-5(%r8,%rsi), %r10d
	xorb	%r10b, -5(%r9,%rsi)
	movzbl	-4(%r8,%rsi), %r10d
	xorb	%r10b, -4(%r9,%rsi)
	movzbl	-3(%r8,%rsi), %r10d
	xorb	%r10b, -3(%r9,%rsi)
	movzbl	-2(%r8,%rsi), %r10d
	xorb	%r10b, -2(%r9,%rsi)
	movzbl	-1(%r8,%rsi), %r10d
	xorb	%r10b, -1(%r9,%rsi)
	movzbl	(%r8,%rsi), %r10d
	xorb	%r10b, (%r9,%rsi)
	addq	$8, %rsi
	cmpq	%rsi, %rdi
	jne	.Laes_v3_BB13_9
# %bb.10:                               # %join.3.i.loopexit.unr-lcssa
	testq	%rdx, %rdx
	je	.Laes_v3_BB13_13
.Laes_v3_BB13_11:                              # %join.8.i80.epil.preheader
	leaq	(%rax,%rsi), %rdi
	addq	%r14, %rsi
	addq	%rsp, %rsi
	xorl	%r8d, %r8d
	.p2align	4
.Laes_v3_BB13_12:                              # %join.8.i80.epil
                                        # =>This Inner Loop Header: Depth=1
	movzbl	(%rsi,%r8), %r9d
	xorb	%r9b, (%rdi,%r8)
	incq	%r8
	cmpq	%r8, %rdx
	jne	.Laes_v3_BB13_12
.Laes_v3_BB13_13:                              # %join.3.i
	movq	%r15, %rdx
	subq	%rcx, %rdx
	cmpq	$16, %rdx
	jb	.Laes_v3_BB13_15
	.p2align	4
.Laes_v3_BB13_14:                              # %join.8.i
                                        # =>This Inner Loop Header: Depth=1
	leaq	(%r14,%rcx), %rsi
	andq	$-16, %rsi
	vmovdqa	(%rsp,%rsi), %xmm0
	vpxor	(%rax,%rcx), %xmm0, %xmm0
	vmovdqu	%xmm0, (%rax,%rcx)
	addq	$16, %rcx
	addq	$-16, %rdx
	cmpq	$15, %rdx
	ja	.Laes_v3_BB13_14
.Laes_v3_BB13_15:                              # %after.4.i
	cmpq	%r15, %rcx
	jae	.Laes_v3_BB13_23
# %bb.16:                               # %then.9.i
	testq	%rdx, %rdx
	je	.Laes_v3_BB13_23
# %bb.17:                               # %iter.check
	addq	%rcx, %r14
	andq	$-16, %r14
	leaq	(%rsp,%r14), %rsi
	addq	%rcx, %rax
	cmpq	$8, %rdx
	jae	.Laes_v3_BB13_20
# %bb.18:
	xorl	%ecx, %ecx
	jmp	.Laes_v3_BB13_19
.Laes_v3_BB13_20:                              # %vec.epilog.ph
	movl	%edx, %ecx
	andl	$8, %ecx
	xorl	%edi, %edi
	.p2align	4
.Laes_v3_BB13_21:                              # %vec.epilog.vector.body
                                        # =>This Inner Loop Header: Depth=1
	movq	(%rsi,%rdi), %r8
	xorq	%r8, (%rax,%rdi)
	addq	$8, %rdi
	cmpq	%rdi, %rcx
	jne	.Laes_v3_BB13_21
	jmp	.Laes_v3_BB13_22
.Laes_v3_BB13_19:                              # %join.8.i23
	movzbl	(%rsi,%rcx), %edi
	xorb	%dil, (%rax,%rcx)
	incq	%rcx
.Laes_v3_BB13_22:                              # %join.8.i23
	cmpq	%rcx, %rdx
	jne	.Laes_v3_BB13_19
.Laes_v3_BB13_23:                              # %"aes_ctr::add_blocks::add_blocks.exit"
	addq	%rbx, %r15
	movq	%r15, %rax
	addq	$536, %rsp                      # imm = 0x218
	popq	%rbx
	popq	%r12
	popq	%r13
	popq	%r14
	popq	%r15
	popq	%rbp
	vzeroupper
	retq
	.seh_endproc
                                        # -- End function
	.def	aes_v3.aes_cipher.zeroize.stack.wipe_stack.2032;
	.scl	3;
	.type	32;
	.endef
	.p2align	4                               # -- Begin function aes_cipher::zeroize::stack::wipe_stack::<=2032>
aes_v3.aes_cipher.zeroize.stack.wipe_stack.2032: # @aes_v3.aes_cipher.zeroize.stack.wipe_stack.2032
.seh_proc aes_v3.aes_cipher.zeroize.stack.wipe_stack.2032
# %bb.0:                                # %start
	subq	$2072, %rsp                     # imm = 0x818
	.seh_stackalloc 2072
	.seh_endprologue
	#APP
	xorl	%edi, %edi
	xorl	%esi, %esi
	#NO_APP
	leaq	40(%rsp), %rcx
	movl	$2032, %r8d                     # imm = 0x7F0
	xorl	%edx, %edx
	callq	memset
	movq	$0, 32(%rsp)
	#APP
	#NO_APP
	movq	32(%rsp), %rax
	#APP
	#NO_APP
	cmpq	$2032, %rax                     # imm = 0x7F0
	jae	.Laes_v3_BB14_2
# %bb.1:                                # %then.1
	movzbl	40(%rsp,%rax), %eax
	#APP
	#NO_APP
	xchgq	%rax, 32(%rsp)
	#APP
	#NO_APP
.Laes_v3_BB14_2:                               # %common.ret
	addq	$2072, %rsp                     # imm = 0x818
	retq
	.seh_endproc
                                        # -- End function
	.def	aes_v3.aes_ctr.add_in_batches.add_next.2;
	.scl	3;
	.type	32;
	.endef
	.section	.rdata,"dr"
	.p2align	5, 0x0                          # -- Begin function aes_ctr::add_in_batches::add_next::<#007125997f15f9a5>
.Laes_v3_CPI15_0:
	.byte	15                              # 0xf
	.byte	14                              # 0xe
	.byte	13                              # 0xd
	.byte	12                              # 0xc
	.byte	11                              # 0xb
	.byte	10                              # 0xa
	.byte	9                               # 0x9
	.byte	8                               # 0x8
	.byte	7                               # 0x7
	.byte	6                               # 0x6
	.byte	5                               # 0x5
	.byte	4                               # 0x4
	.byte	3                               # 0x3
	.byte	2                               # 0x2
	.byte	1                               # 0x1
	.byte	0                               # 0x0
	.byte	15                              # 0xf
	.byte	14                              # 0xe
	.byte	13                              # 0xd
	.byte	12                              # 0xc
	.byte	11                              # 0xb
	.byte	10                              # 0xa
	.byte	9                               # 0x9
	.byte	8                               # 0x8
	.byte	7                               # 0x7
	.byte	6                               # 0x6
	.byte	5                               # 0x5
	.byte	4                               # 0x4
	.byte	3                               # 0x3
	.byte	2                               # 0x2
	.byte	1                               # 0x1
	.byte	0                               # 0x0
.Laes_v3_CPI15_1:
	.byte	15                              # 0xf
	.byte	14                              # 0xe
	.byte	13                              # 0xd
	.byte	12                              # 0xc
	.byte	11                              # 0xb
	.byte	10                              # 0xa
	.byte	9                               # 0x9
	.byte	8                               # 0x8
	.byte	7                               # 0x7
	.byte	6                               # 0x6
	.byte	5                               # 0x5
	.byte	4                               # 0x4
	.byte	3                               # 0x3
	.byte	2                               # 0x2
	.byte	1                               # 0x1
	.byte	0                               # 0x0
	.text
	.p2align	4
aes_v3.aes_ctr.add_in_batches.add_next.2: # @aes_v3.aes_ctr.add_in_batches.add_next.2
.seh_proc aes_v3.aes_ctr.add_in_batches.add_next.2
# %bb.0:                                # %start
	pushq	%rbp
	.seh_pushreg %rbp
	pushq	%r15
	.seh_pushreg %r15
	pushq	%r14
	.seh_pushreg %r14
	pushq	%r13
	.seh_pushreg %r13
	pushq	%r12
	.seh_pushreg %r12
	pushq	%rbx
	.seh_pushreg %rbx
	subq	$264, %rsp                      # imm = 0x108
	.seh_stackalloc 264
	.seh_endprologue
	movq	%r9, %r15
	movq	%rcx, %rbx
	addq	%rcx, %rdx
	movl	%edx, %ebp
	andl	$15, %ebp
	movl	$64, %eax
	subq	%rbp, %rax
	movq	%r9, %r14
	subq	%rcx, %r14
	cmpq	%rax, %r14
	cmovaeq	%rax, %r14
	leal	(%r14,%rbp), %ecx
	addl	$15, %ecx
	shrl	$4, %ecx
	vxorps	%xmm0, %xmm0, %xmm0
	vmovups	%ymm0, 232(%rsp)
	vmovups	%ymm0, 200(%rsp)
	vmovups	%ymm0, 168(%rsp)
	vmovups	%ymm0, 136(%rsp)
	vmovups	%ymm0, 104(%rsp)
	vmovups	%ymm0, 72(%rsp)
	movbeq	(%rsi), %rax
	shrq	$4, %rdx
	movbeq	8(%rsi), %rsi
	addq	%rdx, %rsi
	adcq	$0, %rax
	vmovq	%rsi, %xmm0
	vmovq	%rax, %xmm1
	vpunpcklqdq	%xmm1, %xmm0, %xmm0     # xmm0 = xmm0[0],xmm1[0]
	movq	%rsi, %rdx
	addq	$1, %rdx
	movq	%rax, %r9
	adcq	$0, %r9
	vmovq	%r9, %xmm1
	vmovq	%rdx, %xmm2
	vpunpcklqdq	%xmm1, %xmm2, %xmm1     # xmm1 = xmm2[0],xmm1[0]
	vinserti128	$1, %xmm1, %ymm0, %ymm0
	vbroadcasti128	.Laes_v3_CPI15_1(%rip), %ymm1  # ymm1 = [15,14,13,12,11,10,9,8,7,6,5,4,3,2,1,0,15,14,13,12,11,10,9,8,7,6,5,4,3,2,1,0]
                                        # ymm1 = mem[0,1,0,1]
	vpshufb	%ymm1, %ymm0, %ymm0
	vmovdqu	%ymm0, 8(%rsp)
	movq	%rsi, %rdx
	addq	$2, %rdx
	movq	%rax, %r9
	adcq	$0, %r9
	movq	%r8, %r12
	vmovq	%r9, %xmm0
	vmovq	%rdx, %xmm2
	vpunpcklqdq	%xmm0, %xmm2, %xmm0     # xmm0 = xmm2[0],xmm0[0]
	addq	$3, %rsi
	adcq	$0, %rax
	vmovq	%rax, %xmm2
	vmovq	%rsi, %xmm3
	vpunpcklqdq	%xmm2, %xmm3, %xmm2     # xmm2 = xmm3[0],xmm2[0]
	vinserti128	$1, %xmm2, %ymm0, %ymm0
	vpshufb	%ymm1, %ymm0, %ymm0
	vmovdqu	%ymm0, 40(%rsp)
	movq	16(%rdi), %rax
	movq	24(%rdi), %rsi
	leaq	8(%rsp), %r13
	movq	%rax, %rdi
	movq	%r13, %rdx
	vzeroupper
	callq	aes_v3.aes_permute.blocks.process_on_lanes.1
	leaq	(%r12,%rbx), %rax
	testq	%rbp, %rbp
	je	.Laes_v3_BB15_1
# %bb.2:                                # %then.1.i
	movl	$16, %ecx
	subq	%rbp, %rcx
	cmpq	%rcx, %r14
	cmovbq	%r14, %rcx
	cmpq	%rbx, %r15
	je	.Laes_v3_BB15_10
# %bb.3:                                # %join.8.i80.lr.ph
	movl	%ecx, %edx
	andl	$7, %edx
	cmpq	$8, %rcx
	jae	.Laes_v3_BB15_5
# %bb.4:
	xorl	%esi, %esi
	jmp	.Laes_v3_BB15_8
.Laes_v3_BB15_1:
	xorl	%ecx, %ecx
	jmp	.Laes_v3_BB15_10
.Laes_v3_BB15_5:                               # %join.8.i80.lr.ph.new
	movl	%ecx, %edi
	andl	$24, %edi
	leaq	7(,%r13), %r8
	addq	%rbp, %r8
	leaq	(%rbx,%r12), %r9
	addq	$7, %r9
	xorl	%esi, %esi
	.p2align	4
.Laes_v3_BB15_6:                               # %join.8.i80
                                        # =>This Inner Loop Header: Depth=1
	movzbl	-7(%r8,%rsi), %r10d
	xorb	%r10b, -7(%r9,%rsi)
	movzbl	-6(%r8,%rsi), %r10d
	xorb	%r10b, -6(%r9,%rsi)
	movzbl	-5(%r8,%rsi), %r10d
	xorb	%r10b, -5(%r9,%rsi)
	movzbl	-4(%r8,%rsi), %r10d
	xorb	%r10b, -4(%r9,%rsi)
	movzbl	-3(%r8,%rsi), %r10d
	xorb	%r10b, -3(%r9,%rsi)
	movzbl	-2(%r8,%rsi), %r10d
	xorb	%r10b, -2(%r9,%rsi)
	movzbl	-1(%r8,%rsi), %r10d
	xorb	%r10b, -1(%r9,%rsi)
	movzbl	(%r8,%rsi), %r10d
	xorb	%r10b, (%r9,%rsi)
	addq	$8, %rsi
	cmpq	%rsi, %rdi
	jne	.Laes_v3_BB15_6
# %bb.7:                                # %join.3.i.loopexit.unr-lcssa
	testq	%rdx, %rdx
	je	.Laes_v3_BB15_10
.Laes_v3_BB15_8:                               # %join.8.i80.epil.preheader
	leaq	(%rax,%rsi), %rdi
	addq	%rbp, %rsi
	addq	%rsp, %rsi
	addq	$8, %rsi
	xorl	%r8d, %r8d
	.p2align	4
.Laes_v3_BB15_9:                               # %join.8.i80.epil
                                        # =>This Inner Loop Header: Depth=1
	movzbl	(%rsi,%r8), %r9d
	xorb	%r9b, (%rdi,%r8)
	incq	%r8
	cmpq	%r8, %rdx
	jne	.Laes_v3_BB15_9
.Laes_v3_BB15_10:                              # %join.3.i
	movq	%r14, %rdx
	subq	%rcx, %rdx
	cmpq	$16, %rdx
	jb	.Laes_v3_BB15_12
	.p2align	4
.Laes_v3_BB15_11:                              # %join.8.i
                                        # =>This Inner Loop Header: Depth=1
	leaq	(%rcx,%rbp), %rsi
	andq	$-16, %rsi
	vmovdqu	8(%rsp,%rsi), %xmm0
	vpxor	(%rax,%rcx), %xmm0, %xmm0
	vmovdqu	%xmm0, (%rax,%rcx)
	addq	$16, %rcx
	addq	$-16, %rdx
	cmpq	$15, %rdx
	ja	.Laes_v3_BB15_11
.Laes_v3_BB15_12:                              # %after.4.i
	cmpq	%r14, %rcx
	jae	.Laes_v3_BB15_20
# %bb.13:                               # %then.9.i
	testq	%rdx, %rdx
	je	.Laes_v3_BB15_20
# %bb.14:                               # %iter.check
	addq	%rcx, %rbp
	andq	$-16, %rbp
	leaq	(%rsp,%rbp), %rsi
	addq	$8, %rsi
	addq	%rcx, %rax
	cmpq	$8, %rdx
	jae	.Laes_v3_BB15_17
# %bb.15:
	xorl	%ecx, %ecx
	jmp	.Laes_v3_BB15_16
.Laes_v3_BB15_17:                              # %vec.epilog.ph
	movl	%edx, %ecx
	andl	$8, %ecx
	xorl	%edi, %edi
	.p2align	4
.Laes_v3_BB15_18:                              # %vec.epilog.vector.body
                                        # =>This Inner Loop Header: Depth=1
	movq	(%rsi,%rdi), %r8
	xorq	%r8, (%rax,%rdi)
	addq	$8, %rdi
	cmpq	%rdi, %rcx
	jne	.Laes_v3_BB15_18
	jmp	.Laes_v3_BB15_19
.Laes_v3_BB15_16:                              # %join.8.i23
	movzbl	(%rsi,%rcx), %edi
	xorb	%dil, (%rax,%rcx)
	incq	%rcx
.Laes_v3_BB15_19:                              # %join.8.i23
	cmpq	%rcx, %rdx
	jne	.Laes_v3_BB15_16
.Laes_v3_BB15_20:                              # %"aes_ctr::add_blocks::add_blocks.exit"
	addq	%rbx, %r14
	movq	%r14, %rax
	addq	$264, %rsp                      # imm = 0x108
	popq	%rbx
	popq	%r12
	popq	%r13
	popq	%r14
	popq	%r15
	popq	%rbp
	retq
	.seh_endproc
                                        # -- End function
	.def	aes_v3.aes_cipher.zeroize.elements.zeroize_elements.1;
	.scl	3;
	.type	32;
	.endef
	.p2align	4                               # -- Begin function aes_cipher::zeroize::elements::zeroize_elements::<#530874d131791bfe>
aes_v3.aes_cipher.zeroize.elements.zeroize_elements.1: # @aes_v3.aes_cipher.zeroize.elements.zeroize_elements.1
.seh_proc aes_v3.aes_cipher.zeroize.elements.zeroize_elements.1
# %bb.0:                                # %start
	subq	$24, %rsp
	.seh_stackalloc 24
	.seh_endprologue
	vxorps	%xmm0, %xmm0, %xmm0
	vmovaps	%xmm0, (%rsp)
	movq	$0, 16(%rsp)
	#APP
	#NO_APP
	movq	16(%rsp), %rax
	#APP
	#NO_APP
	cmpq	$14, %rax
	ja	.Laes_v3_BB16_1
# %bb.2:                                # %then.1.i6
	movq	%rax, %rcx
	shlq	$4, %rcx
	movzbl	(%rdi,%rcx), %ecx
	jmp	.Laes_v3_BB16_3
.Laes_v3_BB16_1:
	xorl	%ecx, %ecx
.Laes_v3_BB16_3:                               # %"aes_cipher::zeroize::observe::<#3f54e6b29a41109e>.exit10"
	vmovaps	(%rsp), %xmm0
	vmovups	%xmm0, (%rdi)
	vmovaps	(%rsp), %xmm0
	vmovups	%xmm0, 16(%rdi)
	vmovaps	(%rsp), %xmm0
	vmovups	%xmm0, 32(%rdi)
	vmovaps	(%rsp), %xmm0
	vmovups	%xmm0, 48(%rdi)
	vmovaps	(%rsp), %xmm0
	vmovups	%xmm0, 64(%rdi)
	vmovaps	(%rsp), %xmm0
	vmovups	%xmm0, 80(%rdi)
	vmovaps	(%rsp), %xmm0
	vmovups	%xmm0, 96(%rdi)
	vmovaps	(%rsp), %xmm0
	vmovups	%xmm0, 112(%rdi)
	vmovaps	(%rsp), %xmm0
	vmovups	%xmm0, 128(%rdi)
	vmovaps	(%rsp), %xmm0
	vmovups	%xmm0, 144(%rdi)
	vmovaps	(%rsp), %xmm0
	vmovups	%xmm0, 160(%rdi)
	vmovaps	(%rsp), %xmm0
	vmovups	%xmm0, 176(%rdi)
	vmovaps	(%rsp), %xmm0
	vmovups	%xmm0, 192(%rdi)
	vmovaps	(%rsp), %xmm0
	vmovups	%xmm0, 208(%rdi)
	vmovaps	(%rsp), %xmm0
	vmovups	%xmm0, 224(%rdi)
	cmpq	$14, %rax
	ja	.Laes_v3_BB16_4
# %bb.5:                                # %then.1.i
	shlq	$4, %rax
	andb	(%rdi,%rax), %cl
	movzbl	%cl, %eax
	jmp	.Laes_v3_BB16_6
.Laes_v3_BB16_4:
	xorl	%eax, %eax
.Laes_v3_BB16_6:                               # %"aes_cipher::zeroize::observe::<#3f54e6b29a41109e>.exit"
	#APP
	#NO_APP
	xchgq	%rax, 16(%rsp)
	#APP
	#NO_APP
	addq	$24, %rsp
	retq
	.seh_endproc
                                        # -- End function
	.def	aes_v3.cmac.tags.tag;
	.scl	3;
	.type	32;
	.endef
	.p2align	4                               # -- Begin function cmac::tags::tag::<#cd78163963378b36>
aes_v3.cmac.tags.tag: # @aes_v3.cmac.tags.tag
.seh_proc aes_v3.cmac.tags.tag
# %bb.0:                                # %start
	pushq	%rbp
	.seh_pushreg %rbp
	pushq	%r15
	.seh_pushreg %r15
	pushq	%r14
	.seh_pushreg %r14
	pushq	%r13
	.seh_pushreg %r13
	pushq	%r12
	.seh_pushreg %r12
	pushq	%rbx
	.seh_pushreg %rbx
	subq	$40, %rsp
	.seh_stackalloc 40
	.seh_endprologue
	vxorps	%xmm0, %xmm0, %xmm0
	vmovaps	%xmm0, (%rsp)
	movq	%rcx, %rbx
	cmpq	$1, %rcx
	movq	%rcx, %r14
	adcq	$-1, %r14
	movq	%rdx, %r15
	movq	%rsi, %r12
	movq	%rdi, %r13
	andq	$-16, %r14
	vmovaps	%xmm0, 16(%rsp)
	leaq	16(%rsp), %rbp
	movq	%rsi, %rdi
	movq	%rbp, %rsi
	movq	%r14, %rcx
	callq	aes_v3.cmac.chaining.chain
	addq	%r14, %r15
	subq	%r14, %rbx
	movq	16(%r12), %rsi
	movq	24(%r12), %rdx
	movq	%rsp, %rdi
	movq	%rbp, %rcx
	movq	%r15, %r8
	movq	%rbx, %r9
	callq	aes_v3.cmac.tags.tag_at_end
	vmovaps	(%rsp), %xmm0
	vmovups	%xmm0, (%r13)
	addq	$40, %rsp
	popq	%rbx
	popq	%r12
	popq	%r13
	popq	%r14
	popq	%r15
	popq	%rbp
	retq
	.seh_endproc
                                        # -- End function
	.def	aes_v3.cmac.chaining.chain;
	.scl	3;
	.type	32;
	.endef
	.section	.rdata,"dr"
	.p2align	4, 0x0                          # -- Begin function cmac::chaining::chain::<#cd78163963378b36>
.Laes_v3_CPI18_0:
	.zero	16,15
.Laes_v3_CPI18_1:
	.byte	0                               # 0x0
	.byte	1                               # 0x1
	.byte	28                              # 0x1c
	.byte	29                              # 0x1d
	.byte	45                              # 0x2d
	.byte	44                              # 0x2c
	.byte	49                              # 0x31
	.byte	48                              # 0x30
	.byte	39                              # 0x27
	.byte	38                              # 0x26
	.byte	59                              # 0x3b
	.byte	58                              # 0x3a
	.byte	10                              # 0xa
	.byte	11                              # 0xb
	.byte	22                              # 0x16
	.byte	23                              # 0x17
.Laes_v3_CPI18_2:
	.byte	0                               # 0x0
	.byte	134                             # 0x86
	.byte	253                             # 0xfd
	.byte	123                             # 0x7b
	.byte	142                             # 0x8e
	.byte	8                               # 0x8
	.byte	115                             # 0x73
	.byte	245                             # 0xf5
	.byte	119                             # 0x77
	.byte	241                             # 0xf1
	.byte	138                             # 0x8a
	.byte	12                              # 0xc
	.byte	249                             # 0xf9
	.byte	127                             # 0x7f
	.byte	4                               # 0x4
	.byte	130                             # 0x82
.Laes_v3_CPI18_3:
	.byte	128                             # 0x80
	.byte	2                               # 0x2
	.byte	1                               # 0x1
	.byte	15                              # 0xf
	.byte	9                               # 0x9
	.byte	5                               # 0x5
	.byte	14                              # 0xe
	.byte	12                              # 0xc
	.byte	13                              # 0xd
	.byte	4                               # 0x4
	.byte	11                              # 0xb
	.byte	10                              # 0xa
	.byte	7                               # 0x7
	.byte	8                               # 0x8
	.byte	6                               # 0x6
	.byte	3                               # 0x3
.Laes_v3_CPI18_4:
	.byte	128                             # 0x80
	.byte	1                               # 0x1
	.byte	9                               # 0x9
	.byte	14                              # 0xe
	.byte	13                              # 0xd
	.byte	11                              # 0xb
	.byte	7                               # 0x7
	.byte	6                               # 0x6
	.byte	15                              # 0xf
	.byte	2                               # 0x2
	.byte	12                              # 0xc
	.byte	5                               # 0x5
	.byte	10                              # 0xa
	.byte	4                               # 0x4
	.byte	3                               # 0x3
	.byte	8                               # 0x8
.Laes_v3_CPI18_5:
	.byte	0                               # 0x0
	.byte	195                             # 0xc3
	.byte	79                              # 0x4f
	.byte	12                              # 0xc
	.byte	252                             # 0xfc
	.byte	124                             # 0x7c
	.byte	67                              # 0x43
	.byte	128                             # 0x80
	.byte	207                             # 0xcf
	.byte	51                              # 0x33
	.byte	63                              # 0x3f
	.byte	112                             # 0x70
	.byte	191                             # 0xbf
	.byte	179                             # 0xb3
	.byte	240                             # 0xf0
	.byte	140                             # 0x8c
.Laes_v3_CPI18_6:
	.byte	0                               # 0x0
	.byte	230                             # 0xe6
	.byte	114                             # 0x72
	.byte	183                             # 0xb7
	.byte	229                             # 0xe5
	.byte	198                             # 0xc6
	.byte	197                             # 0xc5
	.byte	35                              # 0x23
	.byte	81                              # 0x51
	.byte	180                             # 0xb4
	.byte	3                               # 0x3
	.byte	113                             # 0x71
	.byte	32                              # 0x20
	.byte	151                             # 0x97
	.byte	82                              # 0x52
	.byte	148                             # 0x94
.Laes_v3_CPI18_7:
	.byte	0                               # 0x0
	.byte	124                             # 0x7c
	.byte	32                              # 0x20
	.byte	207                             # 0xcf
	.byte	146                             # 0x92
	.byte	1                               # 0x1
	.byte	239                             # 0xef
	.byte	147                             # 0x93
	.byte	179                             # 0xb3
	.byte	33                              # 0x21
	.byte	238                             # 0xee
	.byte	206                             # 0xce
	.byte	125                             # 0x7d
	.byte	178                             # 0xb2
	.byte	93                              # 0x5d
	.byte	92                              # 0x5c
.Laes_v3_CPI18_8:
	.byte	0                               # 0x0
	.byte	209                             # 0xd1
	.byte	229                             # 0xe5
	.byte	247                             # 0xf7
	.byte	230                             # 0xe6
	.byte	37                              # 0x25
	.byte	18                              # 0x12
	.byte	195                             # 0xc3
	.byte	38                              # 0x26
	.byte	192                             # 0xc0
	.byte	55                              # 0x37
	.byte	210                             # 0xd2
	.byte	244                             # 0xf4
	.byte	3                               # 0x3
	.byte	17                              # 0x11
	.byte	52                              # 0x34
.Laes_v3_CPI18_9:
	.byte	0                               # 0x0
	.byte	203                             # 0xcb
	.byte	215                             # 0xd7
	.byte	176                             # 0xb0
	.byte	33                              # 0x21
	.byte	141                             # 0x8d
	.byte	103                             # 0x67
	.byte	172                             # 0xac
	.byte	123                             # 0x7b
	.byte	90                              # 0x5a
	.byte	234                             # 0xea
	.byte	61                              # 0x3d
	.byte	70                              # 0x46
	.byte	246                             # 0xf6
	.byte	145                             # 0x91
	.byte	28                              # 0x1c
.Laes_v3_CPI18_10:
	.byte	0                               # 0x0
	.byte	159                             # 0x9f
	.byte	97                              # 0x61
	.byte	22                              # 0x16
	.byte	194                             # 0xc2
	.byte	42                              # 0x2a
	.byte	119                             # 0x77
	.byte	232                             # 0xe8
	.byte	137                             # 0x89
	.byte	75                              # 0x4b
	.byte	93                              # 0x5d
	.byte	60                              # 0x3c
	.byte	181                             # 0xb5
	.byte	163                             # 0xa3
	.byte	212                             # 0xd4
	.byte	254                             # 0xfe
.Laes_v3_CPI18_11:
	.zero	4,15
	.text
	.p2align	4
aes_v3.cmac.chaining.chain: # @aes_v3.cmac.chaining.chain
.seh_proc aes_v3.cmac.chaining.chain
# %bb.0:                                # %start
	pushq	%r15
	.seh_pushreg %r15
	pushq	%r14
	.seh_pushreg %r14
	pushq	%r12
	.seh_pushreg %r12
	pushq	%rbx
	.seh_pushreg %rbx
	subq	$56, %rsp
	.seh_stackalloc 56
	.seh_endprologue
	movq	%rcx, %rbx
	movq	%rcx, %r15
	shrq	$4, %r15
	movl	%ebx, %eax
	andl	$15, %eax
	cmpq	$1, %rax
	sbbq	$-1, %r15
	testq	%rcx, %rcx
	je	.Laes_v3_BB18_6
# %bb.1:                                # %join.5.lr.ph
	movq	%rdx, %r14
	vmovdqu	(%rsi), %xmm6
	xorl	%r12d, %r12d
	jmp	.Laes_v3_BB18_2
	.p2align	4
.Laes_v3_BB18_5:                               # %"cmac::chaining::chain_block::<#cd78163963378b36>.exit"
                                        #   in Loop: Header=BB18_2 Depth=1
	shlq	$4, %rcx
	vpsrlw	$4, %xmm1, %xmm2
	vpand	%xmm0, %xmm2, %xmm2
	vpand	%xmm0, %xmm1, %xmm0
	vpxor	%xmm0, %xmm2, %xmm1
	vmovdqa	.Laes_v3_CPI18_3(%rip), %xmm3          # xmm3 = [128,2,1,15,9,5,14,12,13,4,11,10,7,8,6,3]
	vpshufb	%xmm0, %xmm3, %xmm0
	vmovdqa	.Laes_v3_CPI18_4(%rip), %xmm3          # xmm3 = [128,1,9,14,13,11,7,6,15,2,12,5,10,4,3,8]
	vpshufb	%xmm2, %xmm3, %xmm4
	vpshufb	%xmm1, %xmm3, %xmm5
	vpxor	%xmm0, %xmm4, %xmm4
	vpxor	%xmm0, %xmm5, %xmm0
	vpshufb	%xmm4, %xmm3, %xmm4
	vpshufb	%xmm0, %xmm3, %xmm0
	vpxor	%xmm1, %xmm4, %xmm1
	vpxor	%xmm2, %xmm0, %xmm0
	vmovdqa	.Laes_v3_CPI18_9(%rip), %xmm2          # xmm2 = [0,203,215,176,33,141,103,172,123,90,234,61,70,246,145,28]
	vpshufb	%xmm1, %xmm2, %xmm1
	vmovdqa	.Laes_v3_CPI18_10(%rip), %xmm2         # xmm2 = [0,159,97,22,194,42,119,232,137,75,93,60,181,163,212,254]
	vpshufb	%xmm0, %xmm2, %xmm0
	vpxor	%xmm1, %xmm0, %xmm0
	movl	%ecx, %edx
	andl	$48, %edx
	leaq	.Laes_v3_static.3(%rip), %r8
	vpshufb	(%rdx,%r8), %xmm0, %xmm0
	vpxor	(%rax,%rcx), %xmm0, %xmm6
	vmovdqu	%xmm6, (%rsi)
	incq	%r12
	cmpq	%r15, %r12
	je	.Laes_v3_BB18_6
.Laes_v3_BB18_2:                               # %join.5
                                        # =>This Loop Header: Depth=1
                                        #     Child Loop BB18_4 Depth 2
	movq	%r12, %rax
	shlq	$4, %rax
	leaq	16(%rax), %r8
	cmpq	%rbx, %r8
	cmovaeq	%rbx, %r8
	leaq	(%r14,%rax), %rdx
	subq	%rax, %r8
	vxorps	%xmm0, %xmm0, %xmm0
	vmovaps	%xmm0, 32(%rsp)
	leaq	32(%rsp), %rcx
	callq	memcpy
	vpxor	32(%rsp), %xmm6, %xmm0
	vmovdqu	%xmm0, (%rsi)
	movq	16(%rdi), %rax
	movq	24(%rdi), %rdx
	leaq	-1(%rdx), %rcx
	vpxor	(%rax), %xmm0, %xmm1
	vpbroadcastd	.Laes_v3_CPI18_11(%rip), %xmm0 # xmm0 = [15,15,15,15,15,15,15,15,15,15,15,15,15,15,15,15]
	vpand	%xmm0, %xmm1, %xmm2
	vmovdqa	.Laes_v3_CPI18_1(%rip), %xmm3          # xmm3 = [0,1,28,29,45,44,49,48,39,38,59,58,10,11,22,23]
	vpshufb	%xmm2, %xmm3, %xmm2
	vpsrlw	$4, %xmm1, %xmm1
	vpand	%xmm0, %xmm1, %xmm1
	vmovdqa	.Laes_v3_CPI18_2(%rip), %xmm3          # xmm3 = [0,134,253,123,142,8,115,245,119,241,138,12,249,127,4,130]
	vpshufb	%xmm1, %xmm3, %xmm1
	vpxor	%xmm2, %xmm1, %xmm1
	cmpq	$2, %rcx
	jb	.Laes_v3_BB18_5
# %bb.3:                                # %join.5.i.i.i.preheader
                                        #   in Loop: Header=BB18_2 Depth=1
	addq	$-2, %rdx
	movl	$16, %r8d
	.p2align	4
.Laes_v3_BB18_4:                               # %join.5.i.i.i
                                        #   Parent Loop BB18_2 Depth=1
                                        # =>  This Inner Loop Header: Depth=2
	vpsrlw	$4, %xmm1, %xmm2
	vpand	%xmm0, %xmm2, %xmm2
	vpand	%xmm0, %xmm1, %xmm1
	vpxor	%xmm1, %xmm2, %xmm3
	vmovdqa	.Laes_v3_CPI18_3(%rip), %xmm4          # xmm4 = [128,2,1,15,9,5,14,12,13,4,11,10,7,8,6,3]
	vpshufb	%xmm1, %xmm4, %xmm1
	vmovdqa	.Laes_v3_CPI18_4(%rip), %xmm4          # xmm4 = [128,1,9,14,13,11,7,6,15,2,12,5,10,4,3,8]
	vpshufb	%xmm2, %xmm4, %xmm5
	vpshufb	%xmm3, %xmm4, %xmm6
	vpxor	%xmm1, %xmm5, %xmm5
	vpxor	%xmm1, %xmm6, %xmm1
	vpshufb	%xmm5, %xmm4, %xmm5
	vpshufb	%xmm1, %xmm4, %xmm1
	vpxor	%xmm3, %xmm5, %xmm3
	vpxor	%xmm2, %xmm1, %xmm1
	vmovdqa	.Laes_v3_CPI18_5(%rip), %xmm2          # xmm2 = [0,195,79,12,252,124,67,128,207,51,63,112,191,179,240,140]
	vpshufb	%xmm3, %xmm2, %xmm2
	vmovdqa	.Laes_v3_CPI18_6(%rip), %xmm4          # xmm4 = [0,230,114,183,229,198,197,35,81,180,3,113,32,151,82,148]
	vpshufb	%xmm1, %xmm4, %xmm4
	vpxor	%xmm2, %xmm4, %xmm2
	vmovdqa	.Laes_v3_CPI18_7(%rip), %xmm4          # xmm4 = [0,124,32,207,146,1,239,147,179,33,238,206,125,178,93,92]
	vpshufb	%xmm3, %xmm4, %xmm3
	vmovdqa	.Laes_v3_CPI18_8(%rip), %xmm4          # xmm4 = [0,209,229,247,230,37,18,195,38,192,55,210,244,3,17,52]
	vpshufb	%xmm1, %xmm4, %xmm1
	vpxor	%xmm3, %xmm1, %xmm1
	movl	%r8d, %r9d
	andl	$48, %r9d
	leaq	.Laes_v3_static.4(%rip), %r10
	vmovdqu	(%r9,%r10), %xmm3
	vpshufb	%xmm3, %xmm2, %xmm4
	vpxor	%xmm4, %xmm1, %xmm1
	vpshufb	%xmm3, %xmm1, %xmm3
	leaq	.Laes_v3_static.5(%rip), %r10
	vpshufb	(%r9,%r10), %xmm2, %xmm2
	vpxor	(%rax,%r8), %xmm3, %xmm3
	vpxor	%xmm1, %xmm2, %xmm1
	vpxor	%xmm1, %xmm3, %xmm1
	addq	$16, %r8
	decq	%rdx
	jne	.Laes_v3_BB18_4
	jmp	.Laes_v3_BB18_5
.Laes_v3_BB18_6:                               # %after.1
	addq	$56, %rsp
	popq	%rbx
	popq	%r12
	popq	%r14
	popq	%r15
	retq
	.seh_endproc
                                        # -- End function
	.def	aes_v3.cmac.tags.tag_at_end;
	.scl	3;
	.type	32;
	.endef
	.section	.rdata,"dr"
	.p2align	5, 0x0                          # -- Begin function cmac::tags::tag_at_end::<#cd78163963378b36>
.Laes_v3_CPI19_0:
	.zero	16,15
.Laes_v3_CPI19_1:
	.byte	0                               # 0x0
	.byte	1                               # 0x1
	.byte	28                              # 0x1c
	.byte	29                              # 0x1d
	.byte	45                              # 0x2d
	.byte	44                              # 0x2c
	.byte	49                              # 0x31
	.byte	48                              # 0x30
	.byte	39                              # 0x27
	.byte	38                              # 0x26
	.byte	59                              # 0x3b
	.byte	58                              # 0x3a
	.byte	10                              # 0xa
	.byte	11                              # 0xb
	.byte	22                              # 0x16
	.byte	23                              # 0x17
.Laes_v3_CPI19_2:
	.byte	0                               # 0x0
	.byte	134                             # 0x86
	.byte	253                             # 0xfd
	.byte	123                             # 0x7b
	.byte	142                             # 0x8e
	.byte	8                               # 0x8
	.byte	115                             # 0x73
	.byte	245                             # 0xf5
	.byte	119                             # 0x77
	.byte	241                             # 0xf1
	.byte	138                             # 0x8a
	.byte	12                              # 0xc
	.byte	249                             # 0xf9
	.byte	127                             # 0x7f
	.byte	4                               # 0x4
	.byte	130                             # 0x82
.Laes_v3_CPI19_3:
	.byte	128                             # 0x80
	.byte	2                               # 0x2
	.byte	1                               # 0x1
	.byte	15                              # 0xf
	.byte	9                               # 0x9
	.byte	5                               # 0x5
	.byte	14                              # 0xe
	.byte	12                              # 0xc
	.byte	13                              # 0xd
	.byte	4                               # 0x4
	.byte	11                              # 0xb
	.byte	10                              # 0xa
	.byte	7                               # 0x7
	.byte	8                               # 0x8
	.byte	6                               # 0x6
	.byte	3                               # 0x3
.Laes_v3_CPI19_4:
	.byte	128                             # 0x80
	.byte	1                               # 0x1
	.byte	9                               # 0x9
	.byte	14                              # 0xe
	.byte	13                              # 0xd
	.byte	11                              # 0xb
	.byte	7                               # 0x7
	.byte	6                               # 0x6
	.byte	15                              # 0xf
	.byte	2                               # 0x2
	.byte	12                              # 0xc
	.byte	5                               # 0x5
	.byte	10                              # 0xa
	.byte	4                               # 0x4
	.byte	3                               # 0x3
	.byte	8                               # 0x8
.Laes_v3_CPI19_5:
	.byte	0                               # 0x0
	.byte	195                             # 0xc3
	.byte	79                              # 0x4f
	.byte	12                              # 0xc
	.byte	252                             # 0xfc
	.byte	124                             # 0x7c
	.byte	67                              # 0x43
	.byte	128                             # 0x80
	.byte	207                             # 0xcf
	.byte	51                              # 0x33
	.byte	63                              # 0x3f
	.byte	112                             # 0x70
	.byte	191                             # 0xbf
	.byte	179                             # 0xb3
	.byte	240                             # 0xf0
	.byte	140                             # 0x8c
.Laes_v3_CPI19_6:
	.byte	0                               # 0x0
	.byte	230                             # 0xe6
	.byte	114                             # 0x72
	.byte	183                             # 0xb7
	.byte	229                             # 0xe5
	.byte	198                             # 0xc6
	.byte	197                             # 0xc5
	.byte	35                              # 0x23
	.byte	81                              # 0x51
	.byte	180                             # 0xb4
	.byte	3                               # 0x3
	.byte	113                             # 0x71
	.byte	32                              # 0x20
	.byte	151                             # 0x97
	.byte	82                              # 0x52
	.byte	148                             # 0x94
.Laes_v3_CPI19_7:
	.byte	0                               # 0x0
	.byte	124                             # 0x7c
	.byte	32                              # 0x20
	.byte	207                             # 0xcf
	.byte	146                             # 0x92
	.byte	1                               # 0x1
	.byte	239                             # 0xef
	.byte	147                             # 0x93
	.byte	179                             # 0xb3
	.byte	33                              # 0x21
	.byte	238                             # 0xee
	.byte	206                             # 0xce
	.byte	125                             # 0x7d
	.byte	178                             # 0xb2
	.byte	93                              # 0x5d
	.byte	92                              # 0x5c
.Laes_v3_CPI19_8:
	.byte	0                               # 0x0
	.byte	209                             # 0xd1
	.byte	229                             # 0xe5
	.byte	247                             # 0xf7
	.byte	230                             # 0xe6
	.byte	37                              # 0x25
	.byte	18                              # 0x12
	.byte	195                             # 0xc3
	.byte	38                              # 0x26
	.byte	192                             # 0xc0
	.byte	55                              # 0x37
	.byte	210                             # 0xd2
	.byte	244                             # 0xf4
	.byte	3                               # 0x3
	.byte	17                              # 0x11
	.byte	52                              # 0x34
.Laes_v3_CPI19_9:
	.byte	0                               # 0x0
	.byte	203                             # 0xcb
	.byte	215                             # 0xd7
	.byte	176                             # 0xb0
	.byte	33                              # 0x21
	.byte	141                             # 0x8d
	.byte	103                             # 0x67
	.byte	172                             # 0xac
	.byte	123                             # 0x7b
	.byte	90                              # 0x5a
	.byte	234                             # 0xea
	.byte	61                              # 0x3d
	.byte	70                              # 0x46
	.byte	246                             # 0xf6
	.byte	145                             # 0x91
	.byte	28                              # 0x1c
.Laes_v3_CPI19_10:
	.byte	0                               # 0x0
	.byte	159                             # 0x9f
	.byte	97                              # 0x61
	.byte	22                              # 0x16
	.byte	194                             # 0xc2
	.byte	42                              # 0x2a
	.byte	119                             # 0x77
	.byte	232                             # 0xe8
	.byte	137                             # 0x89
	.byte	75                              # 0x4b
	.byte	93                              # 0x5d
	.byte	60                              # 0x3c
	.byte	181                             # 0xb5
	.byte	163                             # 0xa3
	.byte	212                             # 0xd4
	.byte	254                             # 0xfe
	.zero	16
.Laes_v3_CPI19_11:
	.quad	24                              # 0x18
	.quad	16                              # 0x10
	.quad	8                               # 0x8
	.quad	0                               # 0x0
.Laes_v3_CPI19_12:
	.quad	56                              # 0x38
	.quad	48                              # 0x30
	.quad	40                              # 0x28
	.quad	32                              # 0x20
.Laes_v3_CPI19_13:
	.byte	15                              # 0xf
	.byte	14                              # 0xe
	.byte	13                              # 0xd
	.byte	12                              # 0xc
	.byte	11                              # 0xb
	.byte	10                              # 0xa
	.byte	9                               # 0x9
	.byte	8                               # 0x8
	.byte	7                               # 0x7
	.byte	6                               # 0x6
	.byte	5                               # 0x5
	.byte	4                               # 0x4
	.byte	3                               # 0x3
	.byte	2                               # 0x2
	.byte	1                               # 0x1
	.byte	0                               # 0x0
.Laes_v3_CPI19_14:
	.byte	15                              # 0xf
	.byte	14                              # 0xe
	.byte	13                              # 0xd
	.byte	12                              # 0xc
	.byte	11                              # 0xb
	.byte	10                              # 0xa
	.byte	9                               # 0x9
	.byte	8                               # 0x8
	.zero	1
	.zero	1
	.zero	1
	.zero	1
	.zero	1
	.zero	1
	.zero	1
	.zero	1
.Laes_v3_CPI19_15:
	.zero	4,15
	.text
	.p2align	4
aes_v3.cmac.tags.tag_at_end: # @aes_v3.cmac.tags.tag_at_end
.seh_proc aes_v3.cmac.tags.tag_at_end
# %bb.0:                                # %start
	pushq	%rbp
	.seh_pushreg %rbp
	pushq	%r15
	.seh_pushreg %r15
	pushq	%r14
	.seh_pushreg %r14
	pushq	%r13
	.seh_pushreg %r13
	pushq	%r12
	.seh_pushreg %r12
	pushq	%rbx
	.seh_pushreg %rbx
	subq	$88, %rsp
	.seh_stackalloc 88
	.seh_endprologue
	movq	%r9, 64(%rsp)                   # 8-byte Spill
	movq	%rcx, 72(%rsp)                  # 8-byte Spill
	movq	%rdx, %rbx
	movq	%rdi, 80(%rsp)                  # 8-byte Spill
	leaq	-1(%rdx), %r9
	vmovdqu	(%rsi), %xmm8
	vpbroadcastd	.Laes_v3_CPI19_15(%rip), %xmm6 # xmm6 = [15,15,15,15,15,15,15,15,15,15,15,15,15,15,15,15]
	vpand	%xmm6, %xmm8, %xmm0
	vmovdqa	.Laes_v3_CPI19_1(%rip), %xmm1          # xmm1 = [0,1,28,29,45,44,49,48,39,38,59,58,10,11,22,23]
	vpshufb	%xmm0, %xmm1, %xmm0
	vpsrlw	$4, %xmm8, %xmm1
	vpand	%xmm6, %xmm1, %xmm1
	vmovdqa	.Laes_v3_CPI19_2(%rip), %xmm10         # xmm10 = [0,134,253,123,142,8,115,245,119,241,138,12,249,127,4,130]
	vpshufb	%xmm1, %xmm10, %xmm1
	vpxor	%xmm0, %xmm1, %xmm0
	cmpq	$2, %r9
	jb	.Laes_v3_BB19_3
# %bb.1:                                # %join.5.i.i.i.i.preheader
	leaq	-2(%rbx), %rax
	movl	$16, %ecx
	.p2align	4
.Laes_v3_BB19_2:                               # %join.5.i.i.i.i
                                        # =>This Inner Loop Header: Depth=1
	vpsrlw	$4, %xmm0, %xmm1
	vpand	%xmm6, %xmm1, %xmm1
	vpand	%xmm6, %xmm0, %xmm0
	vpxor	%xmm0, %xmm1, %xmm2
	vmovdqa	.Laes_v3_CPI19_3(%rip), %xmm3          # xmm3 = [128,2,1,15,9,5,14,12,13,4,11,10,7,8,6,3]
	vpshufb	%xmm0, %xmm3, %xmm0
	vmovdqa	.Laes_v3_CPI19_4(%rip), %xmm3          # xmm3 = [128,1,9,14,13,11,7,6,15,2,12,5,10,4,3,8]
	vpshufb	%xmm1, %xmm3, %xmm4
	vpshufb	%xmm2, %xmm3, %xmm5
	vpxor	%xmm0, %xmm4, %xmm4
	vpxor	%xmm0, %xmm5, %xmm0
	vpshufb	%xmm4, %xmm3, %xmm4
	vpshufb	%xmm0, %xmm3, %xmm0
	vpxor	%xmm2, %xmm4, %xmm2
	vpxor	%xmm1, %xmm0, %xmm0
	vmovdqa	.Laes_v3_CPI19_5(%rip), %xmm1          # xmm1 = [0,195,79,12,252,124,67,128,207,51,63,112,191,179,240,140]
	vpshufb	%xmm2, %xmm1, %xmm1
	vmovdqa	.Laes_v3_CPI19_6(%rip), %xmm3          # xmm3 = [0,230,114,183,229,198,197,35,81,180,3,113,32,151,82,148]
	vpshufb	%xmm0, %xmm3, %xmm3
	vpxor	%xmm1, %xmm3, %xmm1
	vmovdqa	.Laes_v3_CPI19_7(%rip), %xmm3          # xmm3 = [0,124,32,207,146,1,239,147,179,33,238,206,125,178,93,92]
	vpshufb	%xmm2, %xmm3, %xmm2
	vmovdqa	.Laes_v3_CPI19_8(%rip), %xmm3          # xmm3 = [0,209,229,247,230,37,18,195,38,192,55,210,244,3,17,52]
	vpshufb	%xmm0, %xmm3, %xmm0
	vpxor	%xmm2, %xmm0, %xmm0
	movl	%ecx, %edx
	andl	$48, %edx
	leaq	.Laes_v3_static.4(%rip), %rdi
	vmovdqu	(%rdx,%rdi), %xmm2
	vpshufb	%xmm2, %xmm1, %xmm3
	vpxor	%xmm3, %xmm0, %xmm0
	vpshufb	%xmm2, %xmm0, %xmm2
	leaq	.Laes_v3_static.5(%rip), %rdi
	vpshufb	(%rdx,%rdi), %xmm1, %xmm1
	vpxor	(%rsi,%rcx), %xmm2, %xmm2
	vpxor	%xmm0, %xmm1, %xmm0
	vpxor	%xmm0, %xmm2, %xmm0
	addq	$16, %rcx
	decq	%rax
	jne	.Laes_v3_BB19_2
.Laes_v3_BB19_3:                               # %"cmac::subkeys::subkeys::<#cd78163963378b36>.exit.i"
	movq	%r9, %rax
	shlq	$4, %rax
	vmovdqu	(%rsi,%rax), %xmm7
	vpsrlw	$4, %xmm0, %xmm1
	vpand	%xmm6, %xmm1, %xmm1
	vpand	%xmm6, %xmm0, %xmm0
	vpxor	%xmm0, %xmm1, %xmm2
	vmovdqa	.Laes_v3_CPI19_3(%rip), %xmm12         # xmm12 = [128,2,1,15,9,5,14,12,13,4,11,10,7,8,6,3]
	vpshufb	%xmm0, %xmm12, %xmm0
	vmovdqa	.Laes_v3_CPI19_4(%rip), %xmm11         # xmm11 = [128,1,9,14,13,11,7,6,15,2,12,5,10,4,3,8]
	vpshufb	%xmm1, %xmm11, %xmm3
	vpshufb	%xmm2, %xmm11, %xmm4
	vpxor	%xmm0, %xmm3, %xmm3
	vpxor	%xmm0, %xmm4, %xmm0
	vpshufb	%xmm3, %xmm11, %xmm3
	vpshufb	%xmm0, %xmm11, %xmm0
	vpxor	%xmm2, %xmm3, %xmm2
	vpxor	%xmm1, %xmm0, %xmm0
	vmovdqa	.Laes_v3_CPI19_9(%rip), %xmm13         # xmm13 = [0,203,215,176,33,141,103,172,123,90,234,61,70,246,145,28]
	vpshufb	%xmm2, %xmm13, %xmm1
	vmovdqa	.Laes_v3_CPI19_10(%rip), %xmm14        # xmm14 = [0,159,97,22,194,42,119,232,137,75,93,60,181,163,212,254]
	vpshufb	%xmm0, %xmm14, %xmm0
	vpxor	%xmm1, %xmm0, %xmm0
	andl	$48, %eax
	leaq	.Laes_v3_static.3(%rip), %rcx
	vmovdqu	(%rax,%rcx), %xmm15
	vpshufb	%xmm15, %xmm0, %xmm0
	vpxor	%xmm7, %xmm0, %xmm0
	vmovq	%xmm0, %r13
	vpextrq	$1, %xmm0, %rax
	bswapq	%rax
	bswapq	%r13
	movq	%r13, %rcx
	shldq	$1, %rax, %rcx
	leaq	(%rax,%rax), %rdx
	sarq	$63, %r13
	andl	$135, %r13d
	xorq	%rdx, %r13
	vmovq	%rcx, %xmm0
	vmovq	%r13, %xmm1
	vpunpcklqdq	%xmm0, %xmm1, %xmm9     # xmm9 = xmm1[0],xmm0[0]
	movq	%rax, %r9
	shrq	$55, %r9
	movq	%rax, %r12
	shrq	$47, %r12
	movq	%rax, %rdi
	shrq	$39, %rdi
	movq	%rax, %r14
	shrq	$31, %r14
	movl	%eax, %edx
	shrl	$23, %edx
	movl	%eax, %ecx
	shrl	$15, %ecx
	shrl	$7, %eax
	movq	%r9, 56(%rsp)                   # 8-byte Spill
	movzbl	%r9b, %r9d
	movzbl	%r12b, %r10d
	shll	$8, %r10d
	orq	%r9, %r10
	movzbl	%dil, %r9d
	shll	$16, %r9d
	movl	%r14d, %r11d
	shll	$24, %r11d
	orq	%r10, %r11
	orq	%r9, %r11
	movzbl	%dl, %edx
	shlq	$32, %rdx
	movzbl	%cl, %r15d
	shlq	$40, %r15
	orq	%rdx, %r15
	orq	%r11, %r15
	movzbl	%al, %eax
	shlq	$48, %rax
	shlq	$56, %r13
	orq	%rax, %r13
	orq	%r15, %r13
	vpxor	%xmm0, %xmm0, %xmm0
	vmovdqa	%xmm0, 32(%rsp)
	leaq	32(%rsp), %rcx
	movq	%r8, %rdx
	movq	64(%rsp), %rbp                  # 8-byte Reload
	movq	%rbp, %r8
	callq	memcpy
	cmpq	$16, %rbp
	jne	.Laes_v3_BB19_5
# %bb.4:                                # %then.1.i
	movq	%r15, %rax
	shrq	$40, %rax
	shrq	$32, %r15
	movq	%r13, %rcx
	shrq	$48, %rcx
	shrq	$56, %r13
	vpshufb	.Laes_v3_CPI19_14(%rip), %xmm9, %xmm0  # xmm0 = xmm9[15,14,13,12,11,10,9,8,u,u,u,u,u,u,u,u]
	vpinsrb	$8, 56(%rsp), %xmm0, %xmm0      # 4-byte Folded Reload
	vpinsrb	$9, %r12d, %xmm0, %xmm0
	vpinsrb	$10, %edi, %xmm0, %xmm0
	vpinsrb	$11, %r14d, %xmm0, %xmm0
	vpinsrb	$12, %r15d, %xmm0, %xmm0
	vpinsrb	$13, %eax, %xmm0, %xmm0
	vpinsrb	$14, %ecx, %xmm0, %xmm0
	vpinsrb	$15, %r13d, %xmm0, %xmm0
	jmp	.Laes_v3_BB19_6
.Laes_v3_BB19_5:                               # %else.2.i
	vpshufd	$238, %xmm9, %xmm0              # xmm0 = xmm9[2,3,2,3]
	vpmovzxbq	%xmm0, %ymm0            # ymm0 = xmm0[0],zero,zero,zero,zero,zero,zero,zero,xmm0[1],zero,zero,zero,zero,zero,zero,zero,xmm0[2],zero,zero,zero,zero,zero,zero,zero,xmm0[3],zero,zero,zero,zero,zero,zero,zero
	vpshufd	$255, %xmm9, %xmm1              # xmm1 = xmm9[3,3,3,3]
	vpmovzxbq	%xmm1, %ymm1            # ymm1 = xmm1[0],zero,zero,zero,zero,zero,zero,zero,xmm1[1],zero,zero,zero,zero,zero,zero,zero,xmm1[2],zero,zero,zero,zero,zero,zero,zero,xmm1[3],zero,zero,zero,zero,zero,zero,zero
	vpsllvq	.Laes_v3_CPI19_11(%rip), %ymm1, %ymm1
	vpsllvq	.Laes_v3_CPI19_12(%rip), %ymm0, %ymm0
	vpor	%ymm1, %ymm0, %ymm0
	vextracti128	$1, %ymm0, %xmm1
	vpor	%xmm1, %xmm0, %xmm0
	vpshufd	$238, %xmm0, %xmm1              # xmm1 = xmm0[2,3,2,3]
	vpor	%xmm1, %xmm0, %xmm0
	vmovq	%xmm0, %rax
	bswapq	%rax
	bswapq	%r13
	movq	%rax, %rcx
	sarq	$63, %rcx
	andl	$135, %ecx
	shldq	$1, %r13, %rax
	addq	%r13, %r13
	xorq	%rcx, %r13
	vmovq	%rax, %xmm0
	vmovq	%r13, %xmm1
	vpunpcklqdq	%xmm0, %xmm1, %xmm0     # xmm0 = xmm1[0],xmm0[0]
	movb	$-128, 32(%rsp,%rbp)
	vpshufb	.Laes_v3_CPI19_13(%rip), %xmm0, %xmm0  # xmm0 = xmm0[15,14,13,12,11,10,9,8,7,6,5,4,3,2,1,0]
.Laes_v3_BB19_6:                               # %"cmac::tags::last_block::<#cd78163963378b36>.exit"
	vpxor	32(%rsp), %xmm0, %xmm0
	movq	72(%rsp), %rax                  # 8-byte Reload
	vpxor	(%rax), %xmm0, %xmm0
	vpxor	%xmm0, %xmm8, %xmm0
	vpand	%xmm6, %xmm0, %xmm1
	vmovdqa	.Laes_v3_CPI19_1(%rip), %xmm2          # xmm2 = [0,1,28,29,45,44,49,48,39,38,59,58,10,11,22,23]
	vpshufb	%xmm1, %xmm2, %xmm1
	vpsrlw	$4, %xmm0, %xmm0
	vpand	%xmm6, %xmm0, %xmm0
	vpshufb	%xmm0, %xmm10, %xmm0
	vpxor	%xmm1, %xmm0, %xmm0
	leaq	-1(%rbx), %rax
	cmpq	$2, %rax
	jb	.Laes_v3_BB19_9
# %bb.7:                                # %join.5.i.i.preheader
	addq	$-2, %rbx
	movl	$16, %eax
	.p2align	4
.Laes_v3_BB19_8:                               # %join.5.i.i
                                        # =>This Inner Loop Header: Depth=1
	vpsrlw	$4, %xmm0, %xmm1
	vpand	%xmm6, %xmm1, %xmm1
	vpand	%xmm6, %xmm0, %xmm0
	vpxor	%xmm0, %xmm1, %xmm2
	vpshufb	%xmm0, %xmm12, %xmm0
	vpshufb	%xmm1, %xmm11, %xmm3
	vpshufb	%xmm2, %xmm11, %xmm4
	vpxor	%xmm0, %xmm3, %xmm3
	vpxor	%xmm0, %xmm4, %xmm0
	vpshufb	%xmm3, %xmm11, %xmm3
	vpshufb	%xmm0, %xmm11, %xmm0
	vpxor	%xmm2, %xmm3, %xmm2
	vpxor	%xmm1, %xmm0, %xmm0
	vmovdqa	.Laes_v3_CPI19_5(%rip), %xmm1          # xmm1 = [0,195,79,12,252,124,67,128,207,51,63,112,191,179,240,140]
	vpshufb	%xmm2, %xmm1, %xmm1
	vmovdqa	.Laes_v3_CPI19_6(%rip), %xmm3          # xmm3 = [0,230,114,183,229,198,197,35,81,180,3,113,32,151,82,148]
	vpshufb	%xmm0, %xmm3, %xmm3
	vpxor	%xmm1, %xmm3, %xmm1
	vmovdqa	.Laes_v3_CPI19_7(%rip), %xmm3          # xmm3 = [0,124,32,207,146,1,239,147,179,33,238,206,125,178,93,92]
	vpshufb	%xmm2, %xmm3, %xmm2
	vmovdqa	.Laes_v3_CPI19_8(%rip), %xmm3          # xmm3 = [0,209,229,247,230,37,18,195,38,192,55,210,244,3,17,52]
	vpshufb	%xmm0, %xmm3, %xmm0
	vpxor	%xmm2, %xmm0, %xmm0
	movl	%eax, %ecx
	andl	$48, %ecx
	leaq	.Laes_v3_static.4(%rip), %rdx
	vmovdqu	(%rcx,%rdx), %xmm2
	vpshufb	%xmm2, %xmm1, %xmm3
	vpxor	%xmm3, %xmm0, %xmm0
	vpshufb	%xmm2, %xmm0, %xmm2
	leaq	.Laes_v3_static.5(%rip), %rdx
	vpshufb	(%rcx,%rdx), %xmm1, %xmm1
	vpxor	(%rsi,%rax), %xmm2, %xmm2
	vpxor	%xmm0, %xmm1, %xmm0
	vpxor	%xmm0, %xmm2, %xmm0
	addq	$16, %rax
	decq	%rbx
	jne	.Laes_v3_BB19_8
.Laes_v3_BB19_9:                               # %"aes_permute::blocks::process_block::<#aedbc4fd156a355d>.exit"
	vpsrlw	$4, %xmm0, %xmm1
	vpand	%xmm6, %xmm1, %xmm1
	vpand	%xmm6, %xmm0, %xmm0
	vpxor	%xmm0, %xmm1, %xmm2
	vpshufb	%xmm0, %xmm12, %xmm0
	vpshufb	%xmm1, %xmm11, %xmm3
	vpshufb	%xmm2, %xmm11, %xmm4
	vpxor	%xmm0, %xmm3, %xmm3
	vpxor	%xmm0, %xmm4, %xmm0
	vpshufb	%xmm3, %xmm11, %xmm3
	vpshufb	%xmm0, %xmm11, %xmm0
	vpxor	%xmm2, %xmm3, %xmm2
	vpxor	%xmm1, %xmm0, %xmm0
	vpshufb	%xmm2, %xmm13, %xmm1
	vpshufb	%xmm0, %xmm14, %xmm0
	vpxor	%xmm1, %xmm0, %xmm0
	vpshufb	%xmm15, %xmm0, %xmm0
	vpxor	%xmm7, %xmm0, %xmm0
	movq	80(%rsp), %rax                  # 8-byte Reload
	vmovdqu	%xmm0, (%rax)
	addq	$88, %rsp
	popq	%rbx
	popq	%r12
	popq	%r13
	popq	%r14
	popq	%r15
	popq	%rbp
	vzeroupper
	retq
	.seh_endproc
                                        # -- End function
	.def	aes_v3.aes_cipher.zeroize.stack.wipe_stack.768;
	.scl	3;
	.type	32;
	.endef
	.p2align	4                               # -- Begin function aes_cipher::zeroize::stack::wipe_stack::<=768>
aes_v3.aes_cipher.zeroize.stack.wipe_stack.768: # @aes_v3.aes_cipher.zeroize.stack.wipe_stack.768
.seh_proc aes_v3.aes_cipher.zeroize.stack.wipe_stack.768
# %bb.0:                                # %start
	subq	$808, %rsp                      # imm = 0x328
	.seh_stackalloc 808
	.seh_endprologue
	#APP
	xorl	%edi, %edi
	xorl	%esi, %esi
	#NO_APP
	leaq	40(%rsp), %rcx
	movl	$768, %r8d                      # imm = 0x300
	xorl	%edx, %edx
	callq	memset
	movq	$0, 32(%rsp)
	#APP
	#NO_APP
	movq	32(%rsp), %rax
	#APP
	#NO_APP
	cmpq	$768, %rax                      # imm = 0x300
	jae	.Laes_v3_BB20_2
# %bb.1:                                # %then.1
	movzbl	40(%rsp,%rax), %eax
	#APP
	#NO_APP
	xchgq	%rax, 32(%rsp)
	#APP
	#NO_APP
.Laes_v3_BB20_2:                               # %common.ret
	addq	$808, %rsp                      # imm = 0x328
	retq
	.seh_endproc
                                        # -- End function
	.def	aes_v3.cmac.pieces.MessageZeroize.zeroize;
	.scl	3;
	.type	32;
	.endef
	.p2align	4                               # -- Begin function cmac::pieces::MessageZeroize::zeroize
aes_v3.cmac.pieces.MessageZeroize.zeroize: # @aes_v3.cmac.pieces.MessageZeroize.zeroize
.seh_proc aes_v3.cmac.pieces.MessageZeroize.zeroize
# %bb.0:                                # %start
	pushq	%rbx
	.seh_pushreg %rbx
	.seh_endprologue
	movq	%rdi, %rbx
	addq	$16, %rdi
	vxorps	%xmm0, %xmm0, %xmm0
	vmovups	%xmm0, (%rbx)
	callq	aes_v3.aes_cipher.zeroize.elements.zeroize_elements.2
	addq	$32, %rbx
	movq	%rbx, %rdi
	popq	%rbx
	jmp	aes_v3.aes_cipher.zeroize.elements.zeroize_elements.2 # TAILCALL
	.seh_endproc
                                        # -- End function
	.def	aes_v3.aes_cipher.zeroize.elements.zeroize_elements.2;
	.scl	3;
	.type	32;
	.endef
	.p2align	4                               # -- Begin function aes_cipher::zeroize::elements::zeroize_elements::<#331496ca003a3905>
aes_v3.aes_cipher.zeroize.elements.zeroize_elements.2: # @aes_v3.aes_cipher.zeroize.elements.zeroize_elements.2
.seh_proc aes_v3.aes_cipher.zeroize.elements.zeroize_elements.2
# %bb.0:                                # %start
	subq	$40, %rsp
	.seh_stackalloc 40
	.seh_endprologue
	vxorps	%xmm0, %xmm0, %xmm0
	vmovaps	%xmm0, 16(%rsp)
	movq	$0, 8(%rsp)
	#APP
	#NO_APP
	movq	8(%rsp), %rax
	#APP
	#NO_APP
	testq	%rax, %rax
	je	.Laes_v3_BB22_2
# %bb.1:                                # %"aes_cipher::zeroize::observe::<#38c92a2c69ae69e8>.exit8"
	vmovaps	16(%rsp), %xmm0
	vmovups	%xmm0, (%rdi)
	xorl	%eax, %eax
	jmp	.Laes_v3_BB22_3
.Laes_v3_BB22_2:                               # %then.1.i
	movzbl	(%rdi), %eax
	vmovaps	16(%rsp), %xmm0
	vmovups	%xmm0, (%rdi)
	andb	(%rdi), %al
	movzbl	%al, %eax
.Laes_v3_BB22_3:                               # %"aes_cipher::zeroize::observe::<#38c92a2c69ae69e8>.exit"
	#APP
	#NO_APP
	xchgq	%rax, 8(%rsp)
	#APP
	#NO_APP
	addq	$40, %rsp
	retq
	.seh_endproc
                                        # -- End function
	.def	aes_v3.cmac.chain_in_pieces.ChainInPieces.extend;
	.scl	3;
	.type	32;
	.endef
	.p2align	4                               # -- Begin function cmac::chain_in_pieces::ChainInPieces::extend::<#cd78163963378b36>
aes_v3.cmac.chain_in_pieces.ChainInPieces.extend: # @aes_v3.cmac.chain_in_pieces.ChainInPieces.extend
.seh_proc aes_v3.cmac.chain_in_pieces.ChainInPieces.extend
# %bb.0:                                # %start
	pushq	%rbp
	.seh_pushreg %rbp
	pushq	%r15
	.seh_pushreg %r15
	pushq	%r14
	.seh_pushreg %r14
	pushq	%r13
	.seh_pushreg %r13
	pushq	%r12
	.seh_pushreg %r12
	pushq	%rbx
	.seh_pushreg %rbx
	subq	$88, %rsp
	.seh_stackalloc 88
	.seh_endprologue
	movq	%rcx, %r9
	movq	%rdx, %r15
	movq	%rdi, %r11
	movq	(%rdi), %rax
	cmpq	$16, %rax
	movl	$16, %r8d
	movl	$16, %r12d
	cmovbq	%rax, %r12
	subq	%r12, %r8
	movq	%rcx, %rbp
	subq	%r8, %rbp
	jbe	.Laes_v3_BB23_6
# %bb.1:                                # %join.3
	leaq	(%r15,%r8), %r13
	leaq	24(%r11), %rdi
	leaq	(%r11,%r12), %rcx
	addq	$24, %rcx
	movq	%rcx, %rdx
	subq	%r15, %rdx
	cmpq	%r8, %rdx
	movq	%rdi, 80(%rsp)                  # 8-byte Spill
	movq	%r9, 40(%rsp)                   # 8-byte Spill
	jae	.Laes_v3_BB23_9
# %bb.2:                                # %iter.check77
	testq	%rax, %rax
	jne	.Laes_v3_BB23_4
# %bb.3:                                # %vector.memcheck71
	movq	%r11, %rax
	subq	%r15, %rax
	addq	$24, %rax
	cmpq	$128, %rax
	jae	.Laes_v3_BB23_20
.Laes_v3_BB23_4:                               # %join.7.i.i.i.i.i.i29.preheader
	movl	%r8d, %eax
	andl	$7, %eax
	leaq	-9(%r12), %rcx
	cmpq	$7, %rcx
	jae	.Laes_v3_BB23_13
# %bb.5:
	movq	%rsi, %r14
	xorl	%ecx, %ecx
	jmp	.Laes_v3_BB23_16
.Laes_v3_BB23_6:                               # %then.1
	leaq	(%r12,%r9), %rbp
	leaq	(%r11,%r12), %rcx
	addq	$24, %rcx
	movq	%rcx, %rax
	subq	%r15, %rax
	cmpq	%r9, %rax
	jae	.Laes_v3_BB23_10
# %bb.7:                                # %iter.check
	cmpq	$8, %r9
	jb	.Laes_v3_BB23_8
# %bb.11:                               # %vector.memcheck
	leaq	(%r12,%r11), %rax
	subq	%r15, %rax
	addq	$24, %rax
	cmpq	$128, %rax
	jae	.Laes_v3_BB23_18
.Laes_v3_BB23_8:
	xorl	%eax, %eax
.Laes_v3_BB23_36:                              # %join.7.i.i.i.i.i.i.preheader
	movq	%r9, %rsi
	movq	%rax, %rdx
	andq	$7, %rsi
	je	.Laes_v3_BB23_39
# %bb.37:                               # %join.7.i.i.i.i.i.i.prol.preheader
	movq	%rax, %rdx
	.p2align	4
.Laes_v3_BB23_38:                              # %join.7.i.i.i.i.i.i.prol
                                        # =>This Inner Loop Header: Depth=1
	movzbl	(%r15,%rdx), %edi
	movb	%dil, (%rcx,%rdx)
	incq	%rdx
	decq	%rsi
	jne	.Laes_v3_BB23_38
.Laes_v3_BB23_39:                              # %join.7.i.i.i.i.i.i.prol.loopexit
	subq	%r9, %rax
	cmpq	$-8, %rax
	ja	.Laes_v3_BB23_51
# %bb.40:                               # %join.7.i.i.i.i.i.i.preheader140
	leaq	(%r12,%r11), %rax
	addq	$31, %rax
	.p2align	4
.Laes_v3_BB23_41:                              # %join.7.i.i.i.i.i.i
                                        # =>This Inner Loop Header: Depth=1
	movzbl	(%r15,%rdx), %ecx
	movb	%cl, -7(%rax,%rdx)
	movzbl	1(%r15,%rdx), %ecx
	movb	%cl, -6(%rax,%rdx)
	movzbl	2(%r15,%rdx), %ecx
	movb	%cl, -5(%rax,%rdx)
	movzbl	3(%r15,%rdx), %ecx
	movb	%cl, -4(%rax,%rdx)
	movzbl	4(%r15,%rdx), %ecx
	movb	%cl, -3(%rax,%rdx)
	movzbl	5(%r15,%rdx), %ecx
	movb	%cl, -2(%rax,%rdx)
	movzbl	6(%r15,%rdx), %ecx
	movb	%cl, -1(%rax,%rdx)
	movzbl	7(%r15,%rdx), %ecx
	movb	%cl, (%rax,%rdx)
	addq	$8, %rdx
	cmpq	%rdx, %r9
	jne	.Laes_v3_BB23_41
	jmp	.Laes_v3_BB23_51
.Laes_v3_BB23_9:                               # %apart.2.i.i.i.i.i.i28
	movq	%rsi, %r14
	movq	%r15, %rdx
	movq	%r11, %rsi
	callq	memmove
	movq	%rsi, %r11
	jmp	.Laes_v3_BB23_21
.Laes_v3_BB23_10:                              # %apart.2.i.i.i.i.i.i
	movq	%r15, %rdx
	movq	%r9, %r8
	movq	%r11, %rsi
	callq	memmove
	movq	%rsi, %r11
	jmp	.Laes_v3_BB23_51
.Laes_v3_BB23_13:                              # %join.7.i.i.i.i.i.i29.preheader.new
	andl	$-8, %r8d
	leaq	(%r12,%r11), %rdx
	addq	$31, %rdx
	xorl	%ecx, %ecx
	.p2align	4
.Laes_v3_BB23_14:                              # %join.7.i.i.i.i.i.i29
                                        # =>This Inner Loop Header: Depth=1
	movzbl	(%r15,%rcx), %edi
	movb	%dil, -7(%rdx,%rcx)
	movzbl	1(%r15,%rcx), %edi
	movb	%dil, -6(%rdx,%rcx)
	movzbl	2(%r15,%rcx), %edi
	movb	%dil, -5(%rdx,%rcx)
	movzbl	3(%r15,%rcx), %edi
	movb	%dil, -4(%rdx,%rcx)
	movzbl	4(%r15,%rcx), %edi
	movb	%dil, -3(%rdx,%rcx)
	movzbl	5(%r15,%rcx), %edi
	movb	%dil, -2(%rdx,%rcx)
	movzbl	6(%r15,%rcx), %edi
	movb	%dil, -1(%rdx,%rcx)
	movzbl	7(%r15,%rcx), %edi
	movb	%dil, (%rdx,%rcx)
	addq	$8, %rcx
	cmpq	%rcx, %r8
	jne	.Laes_v3_BB23_14
# %bb.15:                               # %"core::slice::edits::slice+T::copy_from_slice::<i8,20'core::clone::U8Clone{}>.exit36.loopexit.unr-lcssa"
	movq	%rsi, %r14
	testq	%rax, %rax
	je	.Laes_v3_BB23_21
.Laes_v3_BB23_16:                              # %join.7.i.i.i.i.i.i29.epil.preheader
	leaq	(%r15,%rcx), %rdx
	addq	%r12, %rcx
	addq	%r11, %rcx
	addq	$24, %rcx
	xorl	%esi, %esi
	.p2align	4
.Laes_v3_BB23_17:                              # %join.7.i.i.i.i.i.i29.epil
                                        # =>This Inner Loop Header: Depth=1
	movzbl	(%rdx,%rsi), %edi
	movb	%dil, (%rcx,%rsi)
	incq	%rsi
	cmpq	%rsi, %rax
	jne	.Laes_v3_BB23_17
	jmp	.Laes_v3_BB23_21
.Laes_v3_BB23_18:                              # %vector.main.loop.iter.check
	cmpq	$128, %r9
	jae	.Laes_v3_BB23_29
# %bb.19:
	xorl	%eax, %eax
	jmp	.Laes_v3_BB23_33
.Laes_v3_BB23_20:                              # %vec.epilog.vector.body96
	movq	%rsi, %r14
	vmovups	(%r15), %xmm0
	vmovups	%xmm0, (%rcx)
.Laes_v3_BB23_21:                              # %"core::slice::edits::slice+T::copy_from_slice::<i8,20'core::clone::U8Clone{}>.exit36"
	movq	%r12, 48(%rsp)                  # 8-byte Spill
	leaq	-1(%rbp), %r12
	andq	$-16, %r12
	leaq	(%r12,%r13), %rax
	movq	%rax, 72(%rsp)                  # 8-byte Spill
	movq	%rbp, 56(%rsp)                  # 8-byte Spill
	subq	%r12, %rbp
	movq	%r11, 32(%rsp)                  # 8-byte Spill
	leaq	8(%r11), %rsi
	movq	%rsi, 64(%rsp)                  # 8-byte Spill
	movl	$16, %ecx
	movq	%r14, %rdi
	movq	80(%rsp), %rbx                  # 8-byte Reload
	movq	%rbx, %rdx
	callq	aes_v3.cmac.chaining.chain
	movq	%r14, %rdi
	movq	64(%rsp), %rsi                  # 8-byte Reload
	movq	%r13, %rdx
	movq	%r12, %rcx
	callq	aes_v3.cmac.chaining.chain
	movq	72(%rsp), %rdx                  # 8-byte Reload
	movq	%rbx, %rax
	subq	%rdx, %rax
	cmpq	%rbp, %rax
	jae	.Laes_v3_BB23_24
# %bb.22:                               # %iter.check107
	cmpq	$8, %rbp
	jae	.Laes_v3_BB23_25
# %bb.23:
	xorl	%eax, %eax
	movq	48(%rsp), %r9                   # 8-byte Reload
	movq	32(%rsp), %r11                  # 8-byte Reload
	movq	40(%rsp), %rbx                  # 8-byte Reload
	jmp	.Laes_v3_BB23_49
.Laes_v3_BB23_24:                              # %apart.2.i.i.i.i.i.i46
	movq	%rbx, %rcx
	movq	%rbp, %r8
	callq	memmove
	movq	32(%rsp), %r11                  # 8-byte Reload
	jmp	.Laes_v3_BB23_51
.Laes_v3_BB23_25:                              # %vector.memcheck101
	movq	48(%rsp), %r9                   # 8-byte Reload
	movq	32(%rsp), %r11                  # 8-byte Reload
	leaq	(%r9,%r11), %rax
	subq	%r12, %rax
	subq	%r15, %rax
	addq	$8, %rax
	cmpq	$128, %rax
	movq	40(%rsp), %rbx                  # 8-byte Reload
	jae	.Laes_v3_BB23_27
# %bb.26:
	xorl	%eax, %eax
	jmp	.Laes_v3_BB23_49
.Laes_v3_BB23_27:                              # %vector.main.loop.iter.check109
	cmpq	$128, %rbp
	jae	.Laes_v3_BB23_42
# %bb.28:
	xorl	%eax, %eax
	jmp	.Laes_v3_BB23_46
.Laes_v3_BB23_29:                              # %vector.ph
	movq	%r9, %rax
	andq	$-128, %rax
	leaq	(%r12,%r11), %rdx
	addq	$120, %rdx
	xorl	%esi, %esi
	.p2align	4
.Laes_v3_BB23_30:                              # %vector.body
                                        # =>This Inner Loop Header: Depth=1
	vmovups	(%r15,%rsi), %ymm0
	vmovups	32(%r15,%rsi), %ymm1
	vmovups	64(%r15,%rsi), %ymm2
	vmovups	96(%r15,%rsi), %ymm3
	vmovups	%ymm0, -96(%rdx,%rsi)
	vmovups	%ymm1, -64(%rdx,%rsi)
	vmovups	%ymm2, -32(%rdx,%rsi)
	vmovups	%ymm3, (%rdx,%rsi)
	subq	$-128, %rsi
	cmpq	%rsi, %rax
	jne	.Laes_v3_BB23_30
# %bb.31:                               # %middle.block
	cmpq	%rax, %r9
	je	.Laes_v3_BB23_51
# %bb.32:                               # %vec.epilog.iter.check
	testb	$120, %r9b
	je	.Laes_v3_BB23_36
.Laes_v3_BB23_33:                              # %vec.epilog.ph
	movq	%rax, %rdx
	movq	%r9, %rax
	andq	$-8, %rax
	.p2align	4
.Laes_v3_BB23_34:                              # %vec.epilog.vector.body
                                        # =>This Inner Loop Header: Depth=1
	movq	(%r15,%rdx), %rsi
	movq	%rsi, (%rcx,%rdx)
	addq	$8, %rdx
	cmpq	%rdx, %rax
	jne	.Laes_v3_BB23_34
# %bb.35:                               # %vec.epilog.middle.block
	cmpq	%rax, %r9
	je	.Laes_v3_BB23_51
	jmp	.Laes_v3_BB23_36
.Laes_v3_BB23_42:                              # %vector.ph110
	movq	%rbp, %rax
	andq	$-128, %rax
	movq	%r12, %rcx
	subq	%r9, %rcx
	addq	%r15, %rcx
	addq	$112, %rcx
	xorl	%edx, %edx
	.p2align	4
.Laes_v3_BB23_43:                              # %vector.body113
                                        # =>This Inner Loop Header: Depth=1
	vmovups	-96(%rcx,%rdx), %ymm0
	vmovups	-64(%rcx,%rdx), %ymm1
	vmovups	-32(%rcx,%rdx), %ymm2
	vmovups	(%rcx,%rdx), %ymm3
	vmovups	%ymm0, 24(%r11,%rdx)
	vmovups	%ymm1, 56(%r11,%rdx)
	vmovups	%ymm2, 88(%r11,%rdx)
	vmovups	%ymm3, 120(%r11,%rdx)
	subq	$-128, %rdx
	cmpq	%rdx, %rax
	jne	.Laes_v3_BB23_43
# %bb.44:                               # %middle.block120
	cmpq	%rax, %rbp
	je	.Laes_v3_BB23_51
# %bb.45:                               # %vec.epilog.iter.check124
	testb	$120, %bpl
	je	.Laes_v3_BB23_49
.Laes_v3_BB23_46:                              # %vec.epilog.ph126
	movq	56(%rsp), %rdi                  # 8-byte Reload
	andl	$7, %edi
	leaq	(%rbx,%r9), %rcx
	subq	%rax, %rcx
	leaq	(%rax,%r12), %rsi
	leaq	(%rax,%r11), %rdx
	addq	$24, %rdx
	movq	%rbp, %rax
	subq	%rdi, %rax
	movq	%rdi, %r10
	subq	%rdi, %rcx
	subq	%r12, %rcx
	addq	$-16, %rcx
	subq	%r9, %rsi
	addq	%r15, %rsi
	addq	$16, %rsi
	xorl	%edi, %edi
	.p2align	4
.Laes_v3_BB23_47:                              # %vec.epilog.vector.body129
                                        # =>This Inner Loop Header: Depth=1
	movq	(%rsi,%rdi), %r8
	movq	%r8, (%rdx,%rdi)
	addq	$8, %rdi
	cmpq	%rdi, %rcx
	jne	.Laes_v3_BB23_47
# %bb.48:                               # %vec.epilog.middle.block133
	testq	%r10, %r10
	je	.Laes_v3_BB23_51
.Laes_v3_BB23_49:                              # %join.7.i.i.i.i.i.i47.preheader
	addq	%r9, %rbx
	subq	%rax, %rbx
	subq	%r12, %rbx
	addq	$-16, %rbx
	addq	%rax, %r12
	subq	%r9, %r12
	leaq	(%r12,%r15), %rcx
	addq	$16, %rcx
	addq	%r11, %rax
	addq	$24, %rax
	xorl	%edx, %edx
	.p2align	4
.Laes_v3_BB23_50:                              # %join.7.i.i.i.i.i.i47
                                        # =>This Inner Loop Header: Depth=1
	movzbl	(%rcx,%rdx), %esi
	movb	%sil, (%rax,%rdx)
	incq	%rdx
	cmpq	%rdx, %rbx
	jne	.Laes_v3_BB23_50
.Laes_v3_BB23_51:                              # %common.ret
	movq	%rbp, (%r11)
	addq	$88, %rsp
	popq	%rbx
	popq	%r12
	popq	%r13
	popq	%r14
	popq	%r15
	popq	%rbp
	vzeroupper
	retq
	.seh_endproc
                                        # -- End function
	.def	aes_v3.aes_c.kept.fotsgure_aes_set_key;
	.scl	3;
	.type	32;
	.endef
	.section	.rdata,"dr"
	.p2align	4, 0x0                          # -- Begin function aes_c::kept::fotsgure_aes_set_key
.Laes_v3_CPI24_0:
	.zero	16,15
.Laes_v3_CPI24_1:
	.byte	0                               # 0x0
	.byte	1                               # 0x1
	.byte	92                              # 0x5c
	.byte	93                              # 0x5d
	.byte	224                             # 0xe0
	.byte	225                             # 0xe1
	.byte	188                             # 0xbc
	.byte	189                             # 0xbd
	.byte	80                              # 0x50
	.byte	81                              # 0x51
	.byte	12                              # 0xc
	.byte	13                              # 0xd
	.byte	176                             # 0xb0
	.byte	177                             # 0xb1
	.byte	236                             # 0xec
	.byte	237                             # 0xed
.Laes_v3_CPI24_2:
	.byte	0                               # 0x0
	.byte	178                             # 0xb2
	.byte	181                             # 0xb5
	.byte	7                               # 0x7
	.byte	58                              # 0x3a
	.byte	136                             # 0x88
	.byte	143                             # 0x8f
	.byte	61                              # 0x3d
	.byte	172                             # 0xac
	.byte	30                              # 0x1e
	.byte	25                              # 0x19
	.byte	171                             # 0xab
	.byte	150                             # 0x96
	.byte	36                              # 0x24
	.byte	35                              # 0x23
	.byte	145                             # 0x91
.Laes_v3_CPI24_3:
	.zero	16,99
.Laes_v3_CPI24_4:
	.byte	0                               # 0x0
	.byte	110                             # 0x6e
	.byte	200                             # 0xc8
	.byte	166                             # 0xa6
	.byte	124                             # 0x7c
	.byte	18                              # 0x12
	.byte	180                             # 0xb4
	.byte	218                             # 0xda
	.byte	188                             # 0xbc
	.byte	210                             # 0xd2
	.byte	116                             # 0x74
	.byte	26                              # 0x1a
	.byte	192                             # 0xc0
	.byte	174                             # 0xae
	.byte	8                               # 0x8
	.byte	102                             # 0x66
.Laes_v3_CPI24_5:
	.byte	0                               # 0x0
	.byte	74                              # 0x4a
	.byte	121                             # 0x79
	.byte	51                              # 0x33
	.byte	55                              # 0x37
	.byte	125                             # 0x7d
	.byte	78                              # 0x4e
	.byte	4                               # 0x4
	.byte	217                             # 0xd9
	.byte	147                             # 0x93
	.byte	160                             # 0xa0
	.byte	234                             # 0xea
	.byte	238                             # 0xee
	.byte	164                             # 0xa4
	.byte	151                             # 0x97
	.byte	221                             # 0xdd
.Laes_v3_CPI24_6:
	.byte	0                               # 0x0
	.byte	219                             # 0xdb
	.byte	20                              # 0x14
	.byte	207                             # 0xcf
	.byte	167                             # 0xa7
	.byte	124                             # 0x7c
	.byte	179                             # 0xb3
	.byte	104                             # 0x68
	.byte	168                             # 0xa8
	.byte	115                             # 0x73
	.byte	188                             # 0xbc
	.byte	103                             # 0x67
	.byte	15                              # 0xf
	.byte	212                             # 0xd4
	.byte	27                              # 0x1b
	.byte	192                             # 0xc0
.Laes_v3_CPI24_7:
	.byte	0                               # 0x0
	.byte	237                             # 0xed
	.byte	209                             # 0xd1
	.byte	60                              # 0x3c
	.byte	218                             # 0xda
	.byte	55                              # 0x37
	.byte	11                              # 0xb
	.byte	230                             # 0xe6
	.byte	8                               # 0x8
	.byte	229                             # 0xe5
	.byte	217                             # 0xd9
	.byte	52                              # 0x34
	.byte	210                             # 0xd2
	.byte	63                              # 0x3f
	.byte	3                               # 0x3
	.byte	238                             # 0xee
.Laes_v3_CPI24_8:
	.byte	0                               # 0x0
	.byte	28                              # 0x1c
	.byte	68                              # 0x44
	.byte	88                              # 0x58
	.byte	151                             # 0x97
	.byte	139                             # 0x8b
	.byte	211                             # 0xd3
	.byte	207                             # 0xcf
	.byte	138                             # 0x8a
	.byte	150                             # 0x96
	.byte	206                             # 0xce
	.byte	210                             # 0xd2
	.byte	29                              # 0x1d
	.byte	1                               # 0x1
	.byte	89                              # 0x59
	.byte	69                              # 0x45
.Laes_v3_CPI24_9:
	.byte	0                               # 0x0
	.byte	48                              # 0x30
	.byte	38                              # 0x26
	.byte	22                              # 0x16
	.byte	183                             # 0xb7
	.byte	135                             # 0x87
	.byte	145                             # 0x91
	.byte	161                             # 0xa1
	.byte	65                              # 0x41
	.byte	113                             # 0x71
	.byte	103                             # 0x67
	.byte	87                              # 0x57
	.byte	246                             # 0xf6
	.byte	198                             # 0xc6
	.byte	208                             # 0xd0
	.byte	224                             # 0xe0
.Laes_v3_CPI24_10:
	.zero	16,44
.Laes_v3_CPI24_11:
	.zero	4,15
	.text
	.p2align	4
aes_v3.aes_c.kept.fotsgure_aes_set_key:    # @aes_v3.aes_c.kept.fotsgure_aes_set_key
.seh_proc aes_v3.aes_c.kept.fotsgure_aes_set_key
# %bb.0:                                # %start
	pushq	%r15
	.seh_pushreg %r15
	pushq	%r14
	.seh_pushreg %r14
	pushq	%r12
	.seh_pushreg %r12
	pushq	%rbx
	.seh_pushreg %rbx
	pushq	%rax
	.seh_stackalloc 8
	.seh_endprologue
	movq	%rdi, %rbx
	cmpq	$32, %rdx
	ja	.Laes_v3_BB24_2
# %bb.1:                                # %start
	movq	%rdx, %r15
	movabsq	$4311810048, %rax               # imm = 0x101010000
	btq	%rdx, %rax
	jae	.Laes_v3_BB24_2
# %bb.3:                                # %join.3
	leaq	4(%rbx), %r14
	movq	%r15, %r12
	shrq	$2, %r12
	vxorps	%xmm0, %xmm0, %xmm0
	vmovups	%ymm0, 212(%rbx)
	vmovups	%ymm0, 196(%rbx)
	vmovups	%ymm0, 164(%rbx)
	vmovups	%ymm0, 132(%rbx)
	vmovups	%ymm0, 100(%rbx)
	vmovups	%ymm0, 68(%rbx)
	vmovups	%ymm0, 36(%rbx)
	vmovups	%ymm0, 4(%rbx)
	movq	%r14, %rdi
	movq	%r15, %rdx
	vzeroupper
	callq	aes_v3.aes_permute.lane_keys.expand_lanes
	movl	%r15d, (%rbx)
	leaq	244(%rbx), %rax
	movq	%r12, %rdx
	shlq	$4, %rdx
	leaq	96(%rdx), %rcx
	movl	%ecx, %esi
	andl	$48, %esi
	leaq	.Laes_v3_static.3(%rip), %rdi
	vxorps	%xmm0, %xmm0, %xmm0
	vmovups	%ymm0, 244(%rbx)
	vmovups	%ymm0, 276(%rbx)
	vmovups	%ymm0, 308(%rbx)
	vmovups	%ymm0, 340(%rbx)
	vmovups	%ymm0, 372(%rbx)
	vmovups	%ymm0, 404(%rbx)
	vmovups	%ymm0, 436(%rbx)
	vmovups	%ymm0, 452(%rbx)
	vmovdqu	(%rsi,%rdi), %xmm0
	addq	$5, %r12
	leaq	260(%rbx), %rsi
	addq	$80, %rdx
	.p2align	4
.Laes_v3_BB24_4:                               # %join.5.i
                                        # =>This Inner Loop Header: Depth=1
	vmovdqu	4(%rbx,%rdx), %xmm2
	vpbroadcastd	.Laes_v3_CPI24_11(%rip), %xmm1 # xmm1 = [15,15,15,15,15,15,15,15,15,15,15,15,15,15,15,15]
	vpand	%xmm1, %xmm2, %xmm3
	vmovdqa	.Laes_v3_CPI24_1(%rip), %xmm4          # xmm4 = [0,1,92,93,224,225,188,189,80,81,12,13,176,177,236,237]
	vpshufb	%xmm3, %xmm4, %xmm3
	vpsrlw	$4, %xmm2, %xmm2
	vpand	%xmm1, %xmm2, %xmm2
	vmovdqa	.Laes_v3_CPI24_2(%rip), %xmm4          # xmm4 = [0,178,181,7,58,136,143,61,172,30,25,171,150,36,35,145]
	vpshufb	%xmm2, %xmm4, %xmm2
	vpxor	%xmm2, %xmm3, %xmm2
	vpxor	.Laes_v3_CPI24_3(%rip), %xmm2, %xmm2
	vpand	%xmm1, %xmm2, %xmm3
	vmovdqa	.Laes_v3_CPI24_4(%rip), %xmm4          # xmm4 = [0,110,200,166,124,18,180,218,188,210,116,26,192,174,8,102]
	vpshufb	%xmm3, %xmm4, %xmm4
	vpsrlw	$4, %xmm2, %xmm2
	vpand	%xmm1, %xmm2, %xmm2
	vmovdqa	.Laes_v3_CPI24_5(%rip), %xmm5          # xmm5 = [0,74,121,51,55,125,78,4,217,147,160,234,238,164,151,221]
	vpshufb	%xmm2, %xmm5, %xmm5
	vpxor	%xmm4, %xmm5, %xmm4
	vmovdqa	.Laes_v3_CPI24_6(%rip), %xmm5          # xmm5 = [0,219,20,207,167,124,179,104,168,115,188,103,15,212,27,192]
	vpshufb	%xmm3, %xmm5, %xmm3
	vmovdqa	.Laes_v3_CPI24_7(%rip), %xmm5          # xmm5 = [0,237,209,60,218,55,11,230,8,229,217,52,210,63,3,238]
	vpshufb	%xmm2, %xmm5, %xmm2
	vpxor	%xmm3, %xmm2, %xmm2
	movl	%edx, %edi
	andl	$48, %edi
	leaq	.Laes_v3_static.6(%rip), %r8
	vpshufb	(%rdi,%r8), %xmm2, %xmm2
	vpxor	%xmm2, %xmm4, %xmm2
	vpand	%xmm1, %xmm2, %xmm3
	vmovdqa	.Laes_v3_CPI24_8(%rip), %xmm4          # xmm4 = [0,28,68,88,151,139,211,207,138,150,206,210,29,1,89,69]
	vpshufb	%xmm3, %xmm4, %xmm3
	vpsrlw	$4, %xmm2, %xmm4
	vpand	%xmm1, %xmm4, %xmm1
	vmovdqa	.Laes_v3_CPI24_9(%rip), %xmm4          # xmm4 = [0,48,38,22,183,135,145,161,65,113,103,87,246,198,208,224]
	vpshufb	%xmm1, %xmm4, %xmm1
	leaq	.Laes_v3_static.4(%rip), %r8
	vmovdqu	(%rdi,%r8), %xmm4
	vpshufb	%xmm4, %xmm2, %xmm5
	vpxor	%xmm5, %xmm3, %xmm3
	vpxor	%xmm3, %xmm1, %xmm1
	vpshufb	%xmm4, %xmm1, %xmm3
	leaq	.Laes_v3_static.5(%rip), %r8
	vpshufb	(%rdi,%r8), %xmm2, %xmm2
	vpxor	%xmm1, %xmm3, %xmm1
	vpxor	%xmm2, %xmm1, %xmm1
	vpxor	.Laes_v3_CPI24_10(%rip), %xmm1, %xmm1
	vpshufb	%xmm0, %xmm1, %xmm1
	vmovdqu	%xmm1, (%rsi)
	addq	$16, %rsi
	addq	$-16, %rdx
	decq	%r12
	jne	.Laes_v3_BB24_4
# %bb.5:                                # %"aes_permute::lane_keys::invert_lanes.exit"
	vmovups	(%r14,%rcx), %xmm0
	vmovups	%xmm0, (%rax)
	vmovups	(%r14), %xmm0
	vmovups	%xmm0, (%rax,%rcx)
	xorl	%eax, %eax
	jmp	.Laes_v3_BB24_6
.Laes_v3_BB24_2:                               # %then.1
	vxorps	%xmm0, %xmm0, %xmm0
	vmovups	%ymm0, 448(%rbx)
	vmovups	%ymm0, 416(%rbx)
	vmovups	%ymm0, 384(%rbx)
	vmovups	%ymm0, 352(%rbx)
	vmovups	%ymm0, 320(%rbx)
	vmovups	%ymm0, 288(%rbx)
	vmovups	%ymm0, 256(%rbx)
	vmovups	%ymm0, 224(%rbx)
	vmovups	%ymm0, 192(%rbx)
	vmovups	%ymm0, 160(%rbx)
	vmovups	%ymm0, 128(%rbx)
	vmovups	%ymm0, 96(%rbx)
	vmovups	%ymm0, 64(%rbx)
	vmovups	%ymm0, 32(%rbx)
	vmovups	%ymm0, (%rbx)
	movl	$0, 480(%rbx)
	movl	$1, %eax
.Laes_v3_BB24_6:                               # %common.ret
	addq	$8, %rsp
	popq	%rbx
	popq	%r12
	popq	%r14
	popq	%r15
	vzeroupper
	retq
	.seh_endproc
                                        # -- End function
	.def	aes_v3.key_wrap.wrapping.wrap;
	.scl	3;
	.type	32;
	.endef
	.p2align	4                               # -- Begin function key_wrap::wrapping::wrap::<#cd78163963378b36>
aes_v3.key_wrap.wrapping.wrap: # @aes_v3.key_wrap.wrapping.wrap
.seh_proc aes_v3.key_wrap.wrapping.wrap
# %bb.0:                                # %start
	pushq	%r14
	.seh_pushreg %r14
	pushq	%rbx
	.seh_pushreg %rbx
	subq	$40, %rsp
	.seh_stackalloc 40
	.seh_endprologue
	movabsq	$18014398509481968, %r10        # imm = 0x3FFFFFFFFFFFF0
	leaq	-2(%rdx), %rax
	leaq	14(%r10), %r9
	cmpq	%r9, %rax
	setae	%r9b
	leaq	1(%rdx), %rax
	cmpq	%rax, %r8
	setne	%r11b
	movb	$1, %al
	orb	%r9b, %r11b
	jne	.Laes_v3_BB25_24
# %bb.1:                                # %after.1
	testq	%r8, %r8
	je	.Laes_v3_BB25_23
# %bb.2:                                # %arm.12
	leaq	8(%rcx), %rbx
	decq	%r8
	movabsq	$-6438275382588823898, %rax     # imm = 0xA6A6A6A6A6A6A6A6
	movq	%rax, (%rcx)
	leaq	(,%rdx,8), %rax
	movq	%rbx, %r9
	subq	%rsi, %r9
	cmpq	%rax, %r9
	jae	.Laes_v3_BB25_5
# %bb.3:                                # %iter.check
	cmpq	$4, %rdx
	jb	.Laes_v3_BB25_4
# %bb.6:                                # %vector.memcheck
	movq	%rcx, %r9
	subq	%rsi, %r9
	addq	$8, %r9
	cmpq	$128, %r9
	jae	.Laes_v3_BB25_8
.Laes_v3_BB25_4:
	xorl	%r9d, %r9d
.Laes_v3_BB25_17:                              # %join.7.i.i.i.i.i.i.preheader
	movl	%edx, %r10d
	subl	%r9d, %r10d
	movq	%r9, %rax
	andl	$7, %r10d
	je	.Laes_v3_BB25_20
# %bb.18:                               # %join.7.i.i.i.i.i.i.prol.preheader
	movq	%r9, %rax
	.p2align	4
.Laes_v3_BB25_19:                              # %join.7.i.i.i.i.i.i.prol
                                        # =>This Inner Loop Header: Depth=1
	movq	(%rsi,%rax,8), %r11
	movq	%r11, (%rbx,%rax,8)
	incq	%rax
	decq	%r10
	jne	.Laes_v3_BB25_19
.Laes_v3_BB25_20:                              # %join.7.i.i.i.i.i.i.prol.loopexit
	subq	%rdx, %r9
	cmpq	$-8, %r9
	ja	.Laes_v3_BB25_22
	.p2align	4
.Laes_v3_BB25_21:                              # %join.7.i.i.i.i.i.i
                                        # =>This Inner Loop Header: Depth=1
	movq	(%rsi,%rax,8), %r9
	movq	%r9, 8(%rcx,%rax,8)
	movq	8(%rsi,%rax,8), %r9
	movq	%r9, 16(%rcx,%rax,8)
	movq	16(%rsi,%rax,8), %r9
	movq	%r9, 24(%rcx,%rax,8)
	movq	24(%rsi,%rax,8), %r9
	movq	%r9, 32(%rcx,%rax,8)
	movq	32(%rsi,%rax,8), %r9
	movq	%r9, 40(%rcx,%rax,8)
	movq	40(%rsi,%rax,8), %r9
	movq	%r9, 48(%rcx,%rax,8)
	movq	48(%rsi,%rax,8), %r9
	movq	%r9, 56(%rcx,%rax,8)
	movq	56(%rsi,%rax,8), %r9
	movq	%r9, 64(%rcx,%rax,8)
	addq	$8, %rax
	cmpq	%rax, %rdx
	jne	.Laes_v3_BB25_21
	jmp	.Laes_v3_BB25_22
.Laes_v3_BB25_5:                               # %apart.2.i.i.i.i.i.i
	movq	%rcx, %r14
	movq	%rbx, %rcx
	movq	%rsi, %rdx
	movq	%r8, %rsi
	movq	%rax, %r8
	callq	memmove
	movq	%r14, %rcx
	movq	%rsi, %r8
.Laes_v3_BB25_22:                              # %"core::slice::edits::slice+T::copy_from_slice::<#76f67ba6cf9709da>.exit"
	movq	%rcx, %rsi
	movq	%rbx, %rdx
	movq	%r8, %rcx
	vzeroupper
	callq	aes_v3.key_wrap.steps.wrap_in_place
.Laes_v3_BB25_23:                              # %return.10
	xorl	%eax, %eax
.Laes_v3_BB25_24:                              # %return.10
                                        # kill: def $al killed $al killed $eax
	addq	$40, %rsp
	popq	%rbx
	popq	%r14
	retq
.Laes_v3_BB25_8:                               # %vector.main.loop.iter.check
	cmpq	$16, %rdx
	jae	.Laes_v3_BB25_10
# %bb.9:
	xorl	%r9d, %r9d
	jmp	.Laes_v3_BB25_14
.Laes_v3_BB25_10:                              # %vector.ph
	movq	%rdx, %r9
	andq	%r10, %r9
	movabsq	$144115188075855744, %r11       # imm = 0x1FFFFFFFFFFFF80
	andq	%r11, %rax
	xorl	%r11d, %r11d
	.p2align	4
.Laes_v3_BB25_11:                              # %vector.body
                                        # =>This Inner Loop Header: Depth=1
	vmovups	(%rsi,%r11), %ymm0
	vmovups	32(%rsi,%r11), %ymm1
	vmovups	64(%rsi,%r11), %ymm2
	vmovups	96(%rsi,%r11), %ymm3
	vmovups	%ymm0, 8(%rcx,%r11)
	vmovups	%ymm1, 40(%rcx,%r11)
	vmovups	%ymm2, 72(%rcx,%r11)
	vmovups	%ymm3, 104(%rcx,%r11)
	subq	$-128, %r11
	cmpq	%r11, %rax
	jne	.Laes_v3_BB25_11
# %bb.12:                               # %middle.block
	cmpq	%r9, %rdx
	je	.Laes_v3_BB25_22
# %bb.13:                               # %vec.epilog.iter.check
	testb	$12, %dl
	je	.Laes_v3_BB25_17
.Laes_v3_BB25_14:                              # %vec.epilog.ph
	movq	%r9, %rax
	addq	$12, %r10
	movq	%r10, %r9
	andq	%rdx, %r9
	.p2align	4
.Laes_v3_BB25_15:                              # %vec.epilog.vector.body
                                        # =>This Inner Loop Header: Depth=1
	vmovups	(%rsi,%rax,8), %ymm0
	vmovups	%ymm0, (%rbx,%rax,8)
	addq	$4, %rax
	cmpq	%rax, %r9
	jne	.Laes_v3_BB25_15
# %bb.16:                               # %vec.epilog.middle.block
	cmpq	%r9, %rdx
	je	.Laes_v3_BB25_22
	jmp	.Laes_v3_BB25_17
	.seh_endproc
                                        # -- End function
	.def	aes_v3.key_wrap.steps.wrap_in_place;
	.scl	3;
	.type	32;
	.endef
	.p2align	4                               # -- Begin function key_wrap::steps::wrap_in_place::<#cd78163963378b36>
aes_v3.key_wrap.steps.wrap_in_place: # @aes_v3.key_wrap.steps.wrap_in_place
.seh_proc aes_v3.key_wrap.steps.wrap_in_place
# %bb.0:                                # %start
	pushq	%rbp
	.seh_pushreg %rbp
	pushq	%r15
	.seh_pushreg %r15
	pushq	%r14
	.seh_pushreg %r14
	pushq	%r13
	.seh_pushreg %r13
	pushq	%r12
	.seh_pushreg %r12
	pushq	%rbx
	.seh_pushreg %rbx
	pushq	%rax
	.seh_stackalloc 8
	.seh_endprologue
	testq	%rcx, %rcx
	je	.Laes_v3_BB26_13
# %bb.1:                                # %join.5.i.preheader
	movq	%rcx, %r12
	movq	%rsi, %r15
	movq	%rdi, %rbx
	movq	%rcx, %r14
	negq	%r14
	movl	$1, %ebp
	movq	%rdx, (%rsp)                    # 8-byte Spill
	movq	%rdx, %r13
	.p2align	4
.Laes_v3_BB26_2:                               # %join.5.i
                                        # =>This Inner Loop Header: Depth=1
	movq	%rbx, %rdi
	movq	%r15, %rsi
	movq	%r13, %rdx
	callq	aes_v3.key_wrap.steps.encrypt_halves
	movq	%rbp, %rax
	bswapq	%rax
	xorq	%rax, (%r15)
	leaq	(%r14,%rbp), %rax
	incq	%rax
	incq	%rbp
	addq	$8, %r13
	cmpq	$1, %rax
	jne	.Laes_v3_BB26_2
# %bb.3:                                # %"key_wrap::steps::wrap_turn::<#cd78163963378b36>.exit.loopexit"
	xorl	%ebp, %ebp
	movq	(%rsp), %r13                    # 8-byte Reload
	movq	%rbx, %rax
	.p2align	4
.Laes_v3_BB26_4:                               # %join.5.i.1
                                        # =>This Inner Loop Header: Depth=1
	leaq	1(%r12), %rcx
	leaq	(%rcx,%rbp), %rbx
	movq	%rax, %r14
	movq	%rax, %rdi
	movq	%r15, %rsi
	movq	%r13, %rdx
	callq	aes_v3.key_wrap.steps.encrypt_halves
	movq	%r14, %rax
	bswapq	%rbx
	xorq	%rbx, (%r15)
	incq	%rbp
	addq	$8, %r13
	cmpq	%rbp, %r12
	jne	.Laes_v3_BB26_4
# %bb.5:                                # %"key_wrap::steps::wrap_turn::<#cd78163963378b36>.exit.loopexit.1"
	leaq	1(,%r12,2), %rbp
	movq	(%rsp), %r13                    # 8-byte Reload
	movq	%r12, %rbx
	.p2align	4
.Laes_v3_BB26_6:                               # %join.5.i.2
                                        # =>This Inner Loop Header: Depth=1
	movq	%r14, %rdi
	movq	%r15, %rsi
	movq	%r13, %rdx
	callq	aes_v3.key_wrap.steps.encrypt_halves
	movq	%rbp, %rax
	bswapq	%rax
	xorq	%rax, (%r15)
	incq	%rbp
	addq	$8, %r13
	decq	%rbx
	jne	.Laes_v3_BB26_6
# %bb.7:                                # %"key_wrap::steps::wrap_turn::<#cd78163963378b36>.exit.loopexit.2"
	leaq	(%r12,%r12,2), %rbp
	incq	%rbp
	movq	(%rsp), %r13                    # 8-byte Reload
	movq	%r12, %rbx
	.p2align	4
.Laes_v3_BB26_8:                               # %join.5.i.3
                                        # =>This Inner Loop Header: Depth=1
	movq	%r14, %rdi
	movq	%r15, %rsi
	movq	%r13, %rdx
	callq	aes_v3.key_wrap.steps.encrypt_halves
	movq	%rbp, %rax
	bswapq	%rax
	xorq	%rax, (%r15)
	incq	%rbp
	addq	$8, %r13
	decq	%rbx
	jne	.Laes_v3_BB26_8
# %bb.9:                                # %"key_wrap::steps::wrap_turn::<#cd78163963378b36>.exit.loopexit.3"
	leaq	1(,%r12,4), %rbp
	movq	(%rsp), %r13                    # 8-byte Reload
	movq	%r12, %rbx
	.p2align	4
.Laes_v3_BB26_10:                              # %join.5.i.4
                                        # =>This Inner Loop Header: Depth=1
	movq	%r14, %rdi
	movq	%r15, %rsi
	movq	%r13, %rdx
	callq	aes_v3.key_wrap.steps.encrypt_halves
	movq	%rbp, %rax
	bswapq	%rax
	xorq	%rax, (%r15)
	incq	%rbp
	addq	$8, %r13
	decq	%rbx
	jne	.Laes_v3_BB26_10
# %bb.11:                               # %"key_wrap::steps::wrap_turn::<#cd78163963378b36>.exit.loopexit.4"
	leaq	(%r12,%r12,4), %r13
	incq	%r13
	movq	%r14, %rbx
	movq	(%rsp), %r14                    # 8-byte Reload
	.p2align	4
.Laes_v3_BB26_12:                              # %join.5.i.5
                                        # =>This Inner Loop Header: Depth=1
	movq	%rbx, %rdi
	movq	%r15, %rsi
	movq	%r14, %rdx
	callq	aes_v3.key_wrap.steps.encrypt_halves
	movq	%r13, %rax
	bswapq	%rax
	xorq	%rax, (%r15)
	incq	%r13
	addq	$8, %r14
	decq	%r12
	jne	.Laes_v3_BB26_12
.Laes_v3_BB26_13:                              # %after.1
	addq	$8, %rsp
	popq	%rbx
	popq	%r12
	popq	%r13
	popq	%r14
	popq	%r15
	popq	%rbp
	retq
	.seh_endproc
                                        # -- End function
	.def	aes_v3.key_wrap.steps.encrypt_halves;
	.scl	3;
	.type	32;
	.endef
	.section	.rdata,"dr"
	.p2align	4, 0x0                          # -- Begin function key_wrap::steps::encrypt_halves::<#cd78163963378b36>
.Laes_v3_CPI27_0:
	.zero	16,15
.Laes_v3_CPI27_1:
	.byte	0                               # 0x0
	.byte	1                               # 0x1
	.byte	28                              # 0x1c
	.byte	29                              # 0x1d
	.byte	45                              # 0x2d
	.byte	44                              # 0x2c
	.byte	49                              # 0x31
	.byte	48                              # 0x30
	.byte	39                              # 0x27
	.byte	38                              # 0x26
	.byte	59                              # 0x3b
	.byte	58                              # 0x3a
	.byte	10                              # 0xa
	.byte	11                              # 0xb
	.byte	22                              # 0x16
	.byte	23                              # 0x17
.Laes_v3_CPI27_2:
	.byte	0                               # 0x0
	.byte	134                             # 0x86
	.byte	253                             # 0xfd
	.byte	123                             # 0x7b
	.byte	142                             # 0x8e
	.byte	8                               # 0x8
	.byte	115                             # 0x73
	.byte	245                             # 0xf5
	.byte	119                             # 0x77
	.byte	241                             # 0xf1
	.byte	138                             # 0x8a
	.byte	12                              # 0xc
	.byte	249                             # 0xf9
	.byte	127                             # 0x7f
	.byte	4                               # 0x4
	.byte	130                             # 0x82
.Laes_v3_CPI27_3:
	.byte	128                             # 0x80
	.byte	2                               # 0x2
	.byte	1                               # 0x1
	.byte	15                              # 0xf
	.byte	9                               # 0x9
	.byte	5                               # 0x5
	.byte	14                              # 0xe
	.byte	12                              # 0xc
	.byte	13                              # 0xd
	.byte	4                               # 0x4
	.byte	11                              # 0xb
	.byte	10                              # 0xa
	.byte	7                               # 0x7
	.byte	8                               # 0x8
	.byte	6                               # 0x6
	.byte	3                               # 0x3
.Laes_v3_CPI27_4:
	.byte	128                             # 0x80
	.byte	1                               # 0x1
	.byte	9                               # 0x9
	.byte	14                              # 0xe
	.byte	13                              # 0xd
	.byte	11                              # 0xb
	.byte	7                               # 0x7
	.byte	6                               # 0x6
	.byte	15                              # 0xf
	.byte	2                               # 0x2
	.byte	12                              # 0xc
	.byte	5                               # 0x5
	.byte	10                              # 0xa
	.byte	4                               # 0x4
	.byte	3                               # 0x3
	.byte	8                               # 0x8
.Laes_v3_CPI27_5:
	.byte	0                               # 0x0
	.byte	195                             # 0xc3
	.byte	79                              # 0x4f
	.byte	12                              # 0xc
	.byte	252                             # 0xfc
	.byte	124                             # 0x7c
	.byte	67                              # 0x43
	.byte	128                             # 0x80
	.byte	207                             # 0xcf
	.byte	51                              # 0x33
	.byte	63                              # 0x3f
	.byte	112                             # 0x70
	.byte	191                             # 0xbf
	.byte	179                             # 0xb3
	.byte	240                             # 0xf0
	.byte	140                             # 0x8c
.Laes_v3_CPI27_6:
	.byte	0                               # 0x0
	.byte	230                             # 0xe6
	.byte	114                             # 0x72
	.byte	183                             # 0xb7
	.byte	229                             # 0xe5
	.byte	198                             # 0xc6
	.byte	197                             # 0xc5
	.byte	35                              # 0x23
	.byte	81                              # 0x51
	.byte	180                             # 0xb4
	.byte	3                               # 0x3
	.byte	113                             # 0x71
	.byte	32                              # 0x20
	.byte	151                             # 0x97
	.byte	82                              # 0x52
	.byte	148                             # 0x94
.Laes_v3_CPI27_7:
	.byte	0                               # 0x0
	.byte	124                             # 0x7c
	.byte	32                              # 0x20
	.byte	207                             # 0xcf
	.byte	146                             # 0x92
	.byte	1                               # 0x1
	.byte	239                             # 0xef
	.byte	147                             # 0x93
	.byte	179                             # 0xb3
	.byte	33                              # 0x21
	.byte	238                             # 0xee
	.byte	206                             # 0xce
	.byte	125                             # 0x7d
	.byte	178                             # 0xb2
	.byte	93                              # 0x5d
	.byte	92                              # 0x5c
.Laes_v3_CPI27_8:
	.byte	0                               # 0x0
	.byte	209                             # 0xd1
	.byte	229                             # 0xe5
	.byte	247                             # 0xf7
	.byte	230                             # 0xe6
	.byte	37                              # 0x25
	.byte	18                              # 0x12
	.byte	195                             # 0xc3
	.byte	38                              # 0x26
	.byte	192                             # 0xc0
	.byte	55                              # 0x37
	.byte	210                             # 0xd2
	.byte	244                             # 0xf4
	.byte	3                               # 0x3
	.byte	17                              # 0x11
	.byte	52                              # 0x34
.Laes_v3_CPI27_9:
	.byte	0                               # 0x0
	.byte	203                             # 0xcb
	.byte	215                             # 0xd7
	.byte	176                             # 0xb0
	.byte	33                              # 0x21
	.byte	141                             # 0x8d
	.byte	103                             # 0x67
	.byte	172                             # 0xac
	.byte	123                             # 0x7b
	.byte	90                              # 0x5a
	.byte	234                             # 0xea
	.byte	61                              # 0x3d
	.byte	70                              # 0x46
	.byte	246                             # 0xf6
	.byte	145                             # 0x91
	.byte	28                              # 0x1c
.Laes_v3_CPI27_10:
	.byte	0                               # 0x0
	.byte	159                             # 0x9f
	.byte	97                              # 0x61
	.byte	22                              # 0x16
	.byte	194                             # 0xc2
	.byte	42                              # 0x2a
	.byte	119                             # 0x77
	.byte	232                             # 0xe8
	.byte	137                             # 0x89
	.byte	75                              # 0x4b
	.byte	93                              # 0x5d
	.byte	60                              # 0x3c
	.byte	181                             # 0xb5
	.byte	163                             # 0xa3
	.byte	212                             # 0xd4
	.byte	254                             # 0xfe
.Laes_v3_CPI27_11:
	.zero	4,15
	.text
	.p2align	4
aes_v3.key_wrap.steps.encrypt_halves: # @aes_v3.key_wrap.steps.encrypt_halves
# %bb.0:                                # %start
	vmovq	(%rdx), %xmm0                   # xmm0 = mem[0],zero
	vmovq	(%rsi), %xmm1                   # xmm1 = mem[0],zero
	vpunpcklqdq	%xmm0, %xmm1, %xmm0     # xmm0 = xmm1[0],xmm0[0]
	movq	16(%rdi), %rax
	movq	24(%rdi), %rdi
	leaq	-1(%rdi), %rcx
	vpxor	(%rax), %xmm0, %xmm1
	vpbroadcastd	.Laes_v3_CPI27_11(%rip), %xmm0 # xmm0 = [15,15,15,15,15,15,15,15,15,15,15,15,15,15,15,15]
	vpand	%xmm0, %xmm1, %xmm2
	vmovdqa	.Laes_v3_CPI27_1(%rip), %xmm3          # xmm3 = [0,1,28,29,45,44,49,48,39,38,59,58,10,11,22,23]
	vpshufb	%xmm2, %xmm3, %xmm2
	vpsrlw	$4, %xmm1, %xmm1
	vpand	%xmm0, %xmm1, %xmm1
	vmovdqa	.Laes_v3_CPI27_2(%rip), %xmm3          # xmm3 = [0,134,253,123,142,8,115,245,119,241,138,12,249,127,4,130]
	vpshufb	%xmm1, %xmm3, %xmm1
	vpxor	%xmm2, %xmm1, %xmm1
	cmpq	$2, %rcx
	jb	.Laes_v3_BB27_3
# %bb.1:                                # %join.5.i.i.preheader
	addq	$-2, %rdi
	movl	$16, %r8d
	.p2align	4
.Laes_v3_BB27_2:                               # %join.5.i.i
                                        # =>This Inner Loop Header: Depth=1
	vpsrlw	$4, %xmm1, %xmm2
	vpand	%xmm0, %xmm2, %xmm2
	vpand	%xmm0, %xmm1, %xmm1
	vpxor	%xmm1, %xmm2, %xmm3
	vmovdqa	.Laes_v3_CPI27_3(%rip), %xmm4          # xmm4 = [128,2,1,15,9,5,14,12,13,4,11,10,7,8,6,3]
	vpshufb	%xmm1, %xmm4, %xmm1
	vmovdqa	.Laes_v3_CPI27_4(%rip), %xmm4          # xmm4 = [128,1,9,14,13,11,7,6,15,2,12,5,10,4,3,8]
	vpshufb	%xmm2, %xmm4, %xmm5
	vpshufb	%xmm3, %xmm4, %xmm6
	vpxor	%xmm1, %xmm5, %xmm5
	vpxor	%xmm1, %xmm6, %xmm1
	vpshufb	%xmm5, %xmm4, %xmm5
	vpshufb	%xmm1, %xmm4, %xmm1
	vpxor	%xmm3, %xmm5, %xmm3
	vpxor	%xmm2, %xmm1, %xmm1
	vmovdqa	.Laes_v3_CPI27_5(%rip), %xmm2          # xmm2 = [0,195,79,12,252,124,67,128,207,51,63,112,191,179,240,140]
	vpshufb	%xmm3, %xmm2, %xmm2
	vmovdqa	.Laes_v3_CPI27_6(%rip), %xmm4          # xmm4 = [0,230,114,183,229,198,197,35,81,180,3,113,32,151,82,148]
	vpshufb	%xmm1, %xmm4, %xmm4
	vpxor	%xmm2, %xmm4, %xmm2
	vmovdqa	.Laes_v3_CPI27_7(%rip), %xmm4          # xmm4 = [0,124,32,207,146,1,239,147,179,33,238,206,125,178,93,92]
	vpshufb	%xmm3, %xmm4, %xmm3
	vmovdqa	.Laes_v3_CPI27_8(%rip), %xmm4          # xmm4 = [0,209,229,247,230,37,18,195,38,192,55,210,244,3,17,52]
	vpshufb	%xmm1, %xmm4, %xmm1
	vpxor	%xmm3, %xmm1, %xmm1
	movl	%r8d, %r9d
	andl	$48, %r9d
	leaq	.Laes_v3_static.4(%rip), %r10
	vmovdqu	(%r9,%r10), %xmm3
	vpshufb	%xmm3, %xmm2, %xmm4
	vpxor	%xmm4, %xmm1, %xmm1
	vpshufb	%xmm3, %xmm1, %xmm3
	leaq	.Laes_v3_static.5(%rip), %r10
	vpshufb	(%r9,%r10), %xmm2, %xmm2
	vpxor	(%rax,%r8), %xmm3, %xmm3
	vpxor	%xmm1, %xmm2, %xmm1
	vpxor	%xmm1, %xmm3, %xmm1
	addq	$16, %r8
	decq	%rdi
	jne	.Laes_v3_BB27_2
.Laes_v3_BB27_3:                               # %"aes_permute::blocks::process_block::<#aedbc4fd156a355d>.exit"
	shlq	$4, %rcx
	vpsrlw	$4, %xmm1, %xmm2
	vpand	%xmm0, %xmm2, %xmm2
	vpand	%xmm0, %xmm1, %xmm0
	vpxor	%xmm0, %xmm2, %xmm1
	vmovdqa	.Laes_v3_CPI27_3(%rip), %xmm3          # xmm3 = [128,2,1,15,9,5,14,12,13,4,11,10,7,8,6,3]
	vpshufb	%xmm0, %xmm3, %xmm0
	vmovdqa	.Laes_v3_CPI27_4(%rip), %xmm3          # xmm3 = [128,1,9,14,13,11,7,6,15,2,12,5,10,4,3,8]
	vpshufb	%xmm2, %xmm3, %xmm4
	vpshufb	%xmm1, %xmm3, %xmm5
	vpxor	%xmm0, %xmm4, %xmm4
	vpxor	%xmm0, %xmm5, %xmm0
	vpshufb	%xmm4, %xmm3, %xmm4
	vpshufb	%xmm0, %xmm3, %xmm0
	vpxor	%xmm1, %xmm4, %xmm1
	vpxor	%xmm2, %xmm0, %xmm0
	vmovdqa	.Laes_v3_CPI27_9(%rip), %xmm2          # xmm2 = [0,203,215,176,33,141,103,172,123,90,234,61,70,246,145,28]
	vpshufb	%xmm1, %xmm2, %xmm1
	vmovdqa	.Laes_v3_CPI27_10(%rip), %xmm2         # xmm2 = [0,159,97,22,194,42,119,232,137,75,93,60,181,163,212,254]
	vpshufb	%xmm0, %xmm2, %xmm0
	vpxor	%xmm1, %xmm0, %xmm0
	movl	%ecx, %edi
	andl	$48, %edi
	leaq	.Laes_v3_static.3(%rip), %r8
	vpshufb	(%rdi,%r8), %xmm0, %xmm0
	vpxor	(%rax,%rcx), %xmm0, %xmm0
	vmovq	%xmm0, (%rsi)
	vpextrq	$1, %xmm0, (%rdx)
	retq
                                        # -- End function
	.def	aes_v3.aes_cipher.zeroize.stack.wipe_stack.512;
	.scl	3;
	.type	32;
	.endef
	.p2align	4                               # -- Begin function aes_cipher::zeroize::stack::wipe_stack::<=512>
aes_v3.aes_cipher.zeroize.stack.wipe_stack.512: # @aes_v3.aes_cipher.zeroize.stack.wipe_stack.512
.seh_proc aes_v3.aes_cipher.zeroize.stack.wipe_stack.512
# %bb.0:                                # %start
	subq	$536, %rsp                      # imm = 0x218
	.seh_stackalloc 536
	.seh_endprologue
	#APP
	xorl	%edi, %edi
	xorl	%esi, %esi
	#NO_APP
	vxorps	%xmm0, %xmm0, %xmm0
	vmovups	%ymm0, 496(%rsp)
	vmovups	%ymm0, 464(%rsp)
	vmovups	%ymm0, 432(%rsp)
	vmovups	%ymm0, 400(%rsp)
	vmovups	%ymm0, 368(%rsp)
	vmovups	%ymm0, 336(%rsp)
	vmovups	%ymm0, 304(%rsp)
	vmovups	%ymm0, 272(%rsp)
	vmovups	%ymm0, 240(%rsp)
	vmovups	%ymm0, 208(%rsp)
	vmovups	%ymm0, 176(%rsp)
	vmovups	%ymm0, 144(%rsp)
	vmovups	%ymm0, 112(%rsp)
	vmovups	%ymm0, 80(%rsp)
	vmovups	%ymm0, 48(%rsp)
	vmovups	%ymm0, 16(%rsp)
	movq	$0, 8(%rsp)
	#APP
	#NO_APP
	movq	8(%rsp), %rax
	#APP
	#NO_APP
	cmpq	$512, %rax                      # imm = 0x200
	jae	.Laes_v3_BB28_2
# %bb.1:                                # %then.1
	movzbl	16(%rsp,%rax), %eax
	#APP
	#NO_APP
	xchgq	%rax, 8(%rsp)
	#APP
	#NO_APP
.Laes_v3_BB28_2:                               # %common.ret
	addq	$536, %rsp                      # imm = 0x218
	vzeroupper
	retq
	.seh_endproc
                                        # -- End function
	.def	aes_v3.key_wrap.padded.wrap_padded;
	.scl	3;
	.type	32;
	.endef
	.p2align	4                               # -- Begin function key_wrap::padded::wrap_padded::<#cd78163963378b36>
aes_v3.key_wrap.padded.wrap_padded: # @aes_v3.key_wrap.padded.wrap_padded
.seh_proc aes_v3.key_wrap.padded.wrap_padded
# %bb.0:                                # %start
	pushq	%rbp
	.seh_pushreg %rbp
	pushq	%r15
	.seh_pushreg %r15
	pushq	%r14
	.seh_pushreg %r14
	pushq	%r13
	.seh_pushreg %r13
	pushq	%r12
	.seh_pushreg %r12
	pushq	%rbx
	.seh_pushreg %rbx
	subq	$88, %rsp
	.seh_stackalloc 88
	.seh_endprologue
	movq	%rcx, %rbx
	leaq	-1(%rdx), %rcx
	movl	$4294967294, %r9d               # imm = 0xFFFFFFFE
	movb	$1, %al
	cmpq	%r9, %rcx
	ja	.Laes_v3_BB29_13
# %bb.1:                                # %start
	leaq	7(%rdx), %rcx
	shrq	$3, %rcx
	incq	%rcx
	cmpq	%rcx, %r8
	jne	.Laes_v3_BB29_13
# %bb.2:                                # %arm.5
	leaq	8(%rbx), %r15
	movabsq	$-6460033620986822656, %rax     # imm = 0xA65959A600000000
	orq	%rdx, %rax
	movq	%r8, %r12
	movbeq	%rax, (%rbx)
	decq	%r12
	je	.Laes_v3_BB29_11
# %bb.3:                                # %join.5.i.preheader
	cmpq	$2, %r8
	jne	.Laes_v3_BB29_5
# %bb.4:
	xorl	%r14d, %r14d
	jmp	.Laes_v3_BB29_8
.Laes_v3_BB29_5:                               # %join.5.i.preheader.new
	movq	%rdi, 64(%rsp)                  # 8-byte Spill
	movq	%r12, 56(%rsp)                  # 8-byte Spill
	movq	%r12, %r15
	andq	$-2, %r15
	movq	%rsi, 48(%rsp)                  # 8-byte Spill
	leaq	8(%rsi), %rax
	movq	%rax, 80(%rsp)                  # 8-byte Spill
	xorl	%r14d, %r14d
	movq	%rdx, 72(%rsp)                  # 8-byte Spill
	movq	%rdx, %rdi
	.p2align	4
.Laes_v3_BB29_6:                               # %join.5.i
                                        # =>This Inner Loop Header: Depth=1
	movq	80(%rsp), %rax                  # 8-byte Reload
	leaq	(%rax,%r14,8), %r12
	leaq	(%rax,%r14,8), %rdx
	addq	$-8, %rdx
	movq	%rdi, %r13
	subq	$8, %r13
	movl	$8, %esi
	movl	$8, %r8d
	cmovbq	%rdi, %r8
	movq	$0, 40(%rsp)
	leaq	40(%rsp), %rbp
	movq	%rbp, %rcx
	callq	memcpy
	movq	40(%rsp), %rax
	movq	%rax, 8(%rbx,%r14,8)
	cmpq	$8, %r13
	cmovaeq	%rsi, %r13
	movq	$0, 40(%rsp)
	movq	%rbp, %rcx
	movq	%r12, %rdx
	movq	%r13, %r8
	callq	memcpy
	movq	40(%rsp), %rax
	movq	%rax, 16(%rbx,%r14,8)
	addq	$2, %r14
	addq	$-16, %rdi
	cmpq	%r14, %r15
	jne	.Laes_v3_BB29_6
# %bb.7:                                # %"key_wrap::padded::fill.exit.unr-lcssa"
	movq	56(%rsp), %r12                  # 8-byte Reload
	testb	$1, %r12b
	movq	72(%rsp), %rdx                  # 8-byte Reload
	movq	64(%rsp), %rdi                  # 8-byte Reload
	leaq	8(%rbx), %r15
	movq	48(%rsp), %rsi                  # 8-byte Reload
	je	.Laes_v3_BB29_9
.Laes_v3_BB29_8:                               # %join.5.i.epil.preheader
	leaq	(,%r14,8), %rcx
	leaq	(%rsi,%r14,8), %rax
	subq	%rcx, %rdx
	cmpq	$8, %rdx
	movl	$8, %r8d
	cmovbq	%rdx, %r8
	movq	$0, 40(%rsp)
	leaq	40(%rsp), %rcx
	movq	%rax, %rdx
	callq	memcpy
	movq	40(%rsp), %rax
	movq	%rax, (%r15,%r14,8)
.Laes_v3_BB29_9:                               # %"key_wrap::padded::fill.exit"
	cmpq	$1, %r12
	jne	.Laes_v3_BB29_11
# %bb.10:                               # %then.1.i
	movq	%rbx, %rsi
	movq	%r15, %rdx
	callq	aes_v3.key_wrap.steps.encrypt_halves
	jmp	.Laes_v3_BB29_12
.Laes_v3_BB29_11:                              # %else.2.i
	movq	%rbx, %rsi
	movq	%r15, %rdx
	movq	%r12, %rcx
	callq	aes_v3.key_wrap.steps.wrap_in_place
.Laes_v3_BB29_12:                              # %return.4
	xorl	%eax, %eax
.Laes_v3_BB29_13:                              # %return.4
                                        # kill: def $al killed $al killed $eax
	addq	$88, %rsp
	popq	%rbx
	popq	%r12
	popq	%r13
	popq	%r14
	popq	%r15
	popq	%rbp
	retq
	.seh_endproc
                                        # -- End function
	.def	aes_v3.aes_hybrid.closures.lend_planes.2;
	.scl	3;
	.type	32;
	.endef
	.p2align	4                               # -- Begin function aes_hybrid::closures::lend_planes::<#b84c7620d1dcd6ea>
aes_v3.aes_hybrid.closures.lend_planes.2: # @aes_v3.aes_hybrid.closures.lend_planes.2
.seh_proc aes_v3.aes_hybrid.closures.lend_planes.2
# %bb.0:                                # %start
	pushq	%rbp
	.seh_pushreg %rbp
	pushq	%r15
	.seh_pushreg %r15
	pushq	%r14
	.seh_pushreg %r14
	pushq	%r13
	.seh_pushreg %r13
	pushq	%r12
	.seh_pushreg %r12
	pushq	%rbx
	.seh_pushreg %rbx
	movl	$3944, %eax                     # imm = 0xF68
	callq	___chkstk_ms
	subq	%rax, %rsp
	.seh_stackalloc 3944
	leaq	128(%rsp), %rbp
	.seh_setframe %rbp, 128
	.seh_endprologue
	andq	$-32, %rsp
	movq	%r8, 56(%rsp)                   # 8-byte Spill
	movq	%rcx, 48(%rsp)                  # 8-byte Spill
	movq	%rdx, %r15
	movq	%rsi, %r12
	movq	%rdi, %r13
	leaq	352(%rsp), %rcx
	movl	$3584, %r8d                     # imm = 0xE00
	xorl	%edx, %edx
	callq	memset
	leaq	(,%rsi,8), %rbx
	leaq	96(%rsp), %r14
	movq	%r14, %rdi
	movq	%r13, %rsi
	movq	%r12, %rdx
	callq	aes_v3.aes_hybrid.plane_keys.store_planes
	movq	%r13, 64(%rsp)
	movq	%r12, 72(%rsp)
	movq	%r15, 80(%rsp)
	movq	48(%rsp), %rax                  # 8-byte Reload
	movq	%rax, 88(%rsp)
	leaq	64(%rsp), %rdi
	movq	%r14, %rsi
	movq	%rbx, %rdx
	movq	56(%rsp), %rcx                  # 8-byte Reload
	callq	aes_v3.aes_hybrid.closures.call_to_work.2
	movq	%r14, %rdi
	callq	aes_v3.aes_cipher.zeroize.zeroize_words
	callq	aes_v3.aes_cipher.zeroize.stack.wipe_stack.2032
	nop
	leaq	3816(%rbp), %rsp
	popq	%rbx
	popq	%r12
	popq	%r13
	popq	%r14
	popq	%r15
	popq	%rbp
	retq
	.seh_endproc
                                        # -- End function
	.def	aes_v3.aes_hybrid.closures.call_to_work.2;
	.scl	3;
	.type	32;
	.endef
	.section	.rdata,"dr"
	.p2align	5, 0x0                          # -- Begin function aes_hybrid::closures::call_to_work::<#b84c7620d1dcd6ea>
.Laes_v3_CPI31_0:
	.byte	0                               # 0x0
	.byte	4                               # 0x4
	.byte	8                               # 0x8
	.byte	12                              # 0xc
	.byte	1                               # 0x1
	.byte	5                               # 0x5
	.byte	9                               # 0x9
	.byte	13                              # 0xd
	.byte	2                               # 0x2
	.byte	6                               # 0x6
	.byte	10                              # 0xa
	.byte	14                              # 0xe
	.byte	3                               # 0x3
	.byte	7                               # 0x7
	.byte	11                              # 0xb
	.byte	15                              # 0xf
	.byte	0                               # 0x0
	.byte	4                               # 0x4
	.byte	8                               # 0x8
	.byte	12                              # 0xc
	.byte	1                               # 0x1
	.byte	5                               # 0x5
	.byte	9                               # 0x9
	.byte	13                              # 0xd
	.byte	2                               # 0x2
	.byte	6                               # 0x6
	.byte	10                              # 0xa
	.byte	14                              # 0xe
	.byte	3                               # 0x3
	.byte	7                               # 0x7
	.byte	11                              # 0xb
	.byte	15                              # 0xf
.Laes_v3_CPI31_1:
	.zero	32,85
.Laes_v3_CPI31_2:
	.zero	32,51
.Laes_v3_CPI31_3:
	.zero	32,15
.Laes_v3_CPI31_4:
	.byte	0                               # 0x0
	.byte	4                               # 0x4
	.byte	8                               # 0x8
	.byte	12                              # 0xc
	.byte	1                               # 0x1
	.byte	5                               # 0x5
	.byte	9                               # 0x9
	.byte	13                              # 0xd
	.byte	2                               # 0x2
	.byte	6                               # 0x6
	.byte	10                              # 0xa
	.byte	14                              # 0xe
	.byte	3                               # 0x3
	.byte	7                               # 0x7
	.byte	11                              # 0xb
	.byte	15                              # 0xf
.Laes_v3_CPI31_5:
	.zero	4,85
.Laes_v3_CPI31_6:
	.zero	4,51
.Laes_v3_CPI31_7:
	.zero	4,15
	.text
	.p2align	4
aes_v3.aes_hybrid.closures.call_to_work.2: # @aes_v3.aes_hybrid.closures.call_to_work.2
.seh_proc aes_v3.aes_hybrid.closures.call_to_work.2
# %bb.0:                                # %start
	pushq	%rbp
	.seh_pushreg %rbp
	pushq	%r15
	.seh_pushreg %r15
	pushq	%r14
	.seh_pushreg %r14
	pushq	%r13
	.seh_pushreg %r13
	pushq	%r12
	.seh_pushreg %r12
	pushq	%rbx
	.seh_pushreg %rbx
	subq	$1400, %rsp                     # imm = 0x578
	.seh_stackalloc 1400
	.seh_endprologue
	movq	24(%rcx), %rbp
	testq	%rbp, %rbp
	je	.Laes_v3_BB31_17
# %bb.1:                                # %join.5.lr.ph.i.i
	movq	%rcx, %rbx
	movq	%rdi, %r12
	movq	16(%rcx), %rax
	movq	%rax, 48(%rsp)                  # 8-byte Spill
	leaq	1136(%rsp), %r13
	andq	$-32, %r13
	shrq	$3, %rdx
	decq	%rdx
	xorl	%eax, %eax
	movq	%rdx, 88(%rsp)                  # 8-byte Spill
	movq	%rsi, 80(%rsp)                  # 8-byte Spill
	movq	%rbp, 56(%rsp)                  # 8-byte Spill
	jmp	.Laes_v3_BB31_2
	.p2align	4
.Laes_v3_BB31_16:                              # %"cbc::decryption::unchain_part::<#a578b9d85ca18f5a>.exit.loopexit.i.i"
                                        #   in Loop: Header=BB31_2 Depth=1
	movq	72(%rsp), %rax                  # 8-byte Reload
	addq	%r9, %rax
	cmpq	%rbp, %rax
	jae	.Laes_v3_BB31_17
.Laes_v3_BB31_2:                               # %join.5.i.i
                                        # =>This Loop Header: Depth=1
                                        #     Child Loop BB31_4 Depth 2
                                        #     Child Loop BB31_8 Depth 2
                                        #     Child Loop BB31_12 Depth 2
                                        #     Child Loop BB31_15 Depth 2
	subq	%rax, %rbp
	cmpq	$64, %rbp
	movl	$64, %esi
	cmovbq	%rbp, %rsi
	movq	%rax, 72(%rsp)                  # 8-byte Spill
	movq	%rax, %rcx
	shlq	$4, %rcx
	movq	48(%rsp), %rax                  # 8-byte Reload
	movq	%rcx, 64(%rsp)                  # 8-byte Spill
	leaq	(%rax,%rcx), %r14
	movq	%rsi, 40(%rsp)                  # 8-byte Spill
                                        # kill: def $esi killed $esi killed $rsi def $rsi
	shll	$4, %esi
	xorl	%r15d, %r15d
	leaq	96(%rsp), %rdi
	movl	$1024, %r8d                     # imm = 0x400
	movq	%rdi, %rcx
	xorl	%edx, %edx
	vzeroupper
	callq	memset
	movq	%rdi, %rcx
	movq	%r14, %rdx
	movq	%rsi, %r8
	callq	memcpy
	cmpq	$16, %rbp
	jb	.Laes_v3_BB31_6
# %bb.3:                                # %join.5.i.i.i.i.preheader
                                        #   in Loop: Header=BB31_2 Depth=1
	xorl	%r15d, %r15d
	movq	%r14, %rbp
	.p2align	4
.Laes_v3_BB31_4:                               # %join.5.i.i.i.i
                                        #   Parent Loop BB31_2 Depth=1
                                        # =>  This Inner Loop Header: Depth=2
	vmovdqu	(%rbp), %xmm0
	vmovdqu	16(%rbp), %xmm1
	vmovdqu	32(%rbp), %xmm2
	vmovdqu	48(%rbp), %xmm3
	vmovdqu	64(%rbp), %xmm4
	vmovdqu	80(%rbp), %xmm5
	vmovdqu	96(%rbp), %xmm6
	vmovdqu	112(%rbp), %xmm7
	vinserti128	$1, 128(%rbp), %ymm0, %ymm0
	vinserti128	$1, 144(%rbp), %ymm1, %ymm1
	vinserti128	$1, 160(%rbp), %ymm2, %ymm2
	vinserti128	$1, 176(%rbp), %ymm3, %ymm3
	vinserti128	$1, 192(%rbp), %ymm4, %ymm4
	vinserti128	$1, 208(%rbp), %ymm5, %ymm5
	vinserti128	$1, 224(%rbp), %ymm6, %ymm6
	vinserti128	$1, 240(%rbp), %ymm7, %ymm7
	vbroadcasti128	.Laes_v3_CPI31_4(%rip), %ymm9  # ymm9 = [0,4,8,12,1,5,9,13,2,6,10,14,3,7,11,15,0,4,8,12,1,5,9,13,2,6,10,14,3,7,11,15]
                                        # ymm9 = mem[0,1,0,1]
	vpshufb	%ymm9, %ymm0, %ymm8
	vpshufb	%ymm9, %ymm1, %ymm0
	vpshufb	%ymm9, %ymm2, %ymm1
	vpshufb	%ymm9, %ymm3, %ymm2
	vpshufb	%ymm9, %ymm4, %ymm3
	vpshufb	%ymm9, %ymm5, %ymm4
	vpshufb	%ymm9, %ymm6, %ymm5
	vpshufb	%ymm9, %ymm7, %ymm6
	vpsrlw	$1, %ymm8, %ymm7
	vpxor	%ymm7, %ymm0, %ymm7
	vpbroadcastd	.Laes_v3_CPI31_5(%rip), %ymm10 # ymm10 = [85,85,85,85,85,85,85,85,85,85,85,85,85,85,85,85,85,85,85,85,85,85,85,85,85,85,85,85,85,85,85,85]
	vpand	%ymm7, %ymm10, %ymm7
	vpxor	%ymm0, %ymm7, %ymm0
	vpaddb	%ymm7, %ymm7, %ymm7
	vpxor	%ymm7, %ymm8, %ymm7
	vpsrlw	$1, %ymm1, %ymm8
	vpxor	%ymm2, %ymm8, %ymm8
	vpand	%ymm10, %ymm8, %ymm8
	vpxor	%ymm2, %ymm8, %ymm9
	vpaddb	%ymm8, %ymm8, %ymm2
	vpxor	%ymm1, %ymm2, %ymm1
	vpsrlw	$1, %ymm3, %ymm2
	vpxor	%ymm2, %ymm4, %ymm2
	vpand	%ymm2, %ymm10, %ymm8
	vpxor	%ymm4, %ymm8, %ymm2
	vpaddb	%ymm8, %ymm8, %ymm4
	vpxor	%ymm3, %ymm4, %ymm3
	vpsrlw	$1, %ymm5, %ymm4
	vpxor	%ymm4, %ymm6, %ymm4
	vpand	%ymm4, %ymm10, %ymm4
	vpxor	%ymm6, %ymm4, %ymm6
	vpaddb	%ymm4, %ymm4, %ymm4
	vpxor	%ymm5, %ymm4, %ymm4
	vpsrlw	$2, %ymm7, %ymm5
	vpxor	%ymm5, %ymm1, %ymm5
	vpbroadcastd	.Laes_v3_CPI31_6(%rip), %ymm10 # ymm10 = [51,51,51,51,51,51,51,51,51,51,51,51,51,51,51,51,51,51,51,51,51,51,51,51,51,51,51,51,51,51,51,51]
	vpand	%ymm5, %ymm10, %ymm5
	vpxor	%ymm1, %ymm5, %ymm1
	vpsllw	$2, %ymm5, %ymm5
	vpxor	%ymm7, %ymm5, %ymm5
	vpsrlw	$2, %ymm3, %ymm7
	vpxor	%ymm7, %ymm4, %ymm7
	vpand	%ymm7, %ymm10, %ymm7
	vpxor	%ymm4, %ymm7, %ymm4
	vpsllw	$2, %ymm7, %ymm7
	vpxor	%ymm3, %ymm7, %ymm7
	vpsrlw	$2, %ymm0, %ymm3
	vpxor	%ymm3, %ymm9, %ymm3
	vpand	%ymm3, %ymm10, %ymm8
	vpxor	%ymm9, %ymm8, %ymm3
	vpsllw	$2, %ymm8, %ymm8
	vpxor	%ymm0, %ymm8, %ymm0
	vpsrlw	$2, %ymm2, %ymm8
	vpxor	%ymm6, %ymm8, %ymm8
	vpand	%ymm10, %ymm8, %ymm8
	vpxor	%ymm6, %ymm8, %ymm6
	vpsllw	$2, %ymm8, %ymm8
	vpxor	%ymm2, %ymm8, %ymm2
	vpsrlw	$4, %ymm5, %ymm8
	vpbroadcastd	.Laes_v3_CPI31_7(%rip), %ymm9  # ymm9 = [15,15,15,15,15,15,15,15,15,15,15,15,15,15,15,15,15,15,15,15,15,15,15,15,15,15,15,15,15,15,15,15]
	vpxor	%ymm7, %ymm8, %ymm8
	vpand	%ymm9, %ymm8, %ymm8
	vpxor	%ymm7, %ymm8, %ymm7
	vpsllw	$4, %ymm8, %ymm8
	vpxor	%ymm5, %ymm8, %ymm5
	vpsrlw	$4, %ymm0, %ymm8
	vpxor	%ymm2, %ymm8, %ymm8
	vpand	%ymm9, %ymm8, %ymm8
	vpxor	%ymm2, %ymm8, %ymm2
	vpsllw	$4, %ymm8, %ymm8
	vpxor	%ymm0, %ymm8, %ymm0
	vpsrlw	$4, %ymm1, %ymm8
	vpxor	%ymm4, %ymm8, %ymm8
	vpand	%ymm9, %ymm8, %ymm8
	vpxor	%ymm4, %ymm8, %ymm4
	vpsllw	$4, %ymm8, %ymm8
	vpxor	%ymm1, %ymm8, %ymm1
	vpsrlw	$4, %ymm3, %ymm8
	vpxor	%ymm6, %ymm8, %ymm8
	vpand	%ymm9, %ymm8, %ymm8
	vpxor	%ymm6, %ymm8, %ymm6
	vpsllw	$4, %ymm8, %ymm8
	vpxor	%ymm3, %ymm8, %ymm3
	vmovdqa	%ymm5, (%r13)
	vmovdqa	%ymm0, 32(%r13)
	vmovdqa	%ymm1, 64(%r13)
	vmovdqa	%ymm3, 96(%r13)
	vmovdqa	%ymm7, 128(%r13)
	vmovdqa	%ymm2, 160(%r13)
	vmovdqa	%ymm4, 192(%r13)
	vmovdqa	%ymm6, 224(%r13)
	movq	80(%rsp), %rdi                  # 8-byte Reload
	movq	88(%rsp), %rsi                  # 8-byte Reload
	movq	%r13, %rdx
	vzeroupper
	callq	aes_v3.aes_soft.soft.ciphers.planes.DecryptPlaneCipher.process_planes
	vmovdqa	(%r13), %ymm1
	vmovdqa	32(%r13), %ymm0
	vmovdqa	64(%r13), %ymm2
	vmovdqa	96(%r13), %ymm3
	vmovdqa	128(%r13), %ymm4
	vmovdqa	160(%r13), %ymm5
	vmovdqa	192(%r13), %ymm6
	vmovdqa	224(%r13), %ymm7
	vpsrlw	$1, %ymm1, %ymm8
	vpxor	%ymm0, %ymm8, %ymm8
	vpbroadcastd	.Laes_v3_CPI31_5(%rip), %ymm9  # ymm9 = [85,85,85,85,85,85,85,85,85,85,85,85,85,85,85,85,85,85,85,85,85,85,85,85,85,85,85,85,85,85,85,85]
	vpand	%ymm9, %ymm8, %ymm8
	vpxor	%ymm0, %ymm8, %ymm0
	vpaddb	%ymm8, %ymm8, %ymm8
	vpxor	%ymm1, %ymm8, %ymm8
	vpsrlw	$1, %ymm2, %ymm1
	vpxor	%ymm1, %ymm3, %ymm1
	vpand	%ymm1, %ymm9, %ymm1
	vpxor	%ymm3, %ymm1, %ymm3
	vpaddb	%ymm1, %ymm1, %ymm1
	vpxor	%ymm2, %ymm1, %ymm1
	vpsrlw	$1, %ymm4, %ymm2
	vpxor	%ymm2, %ymm5, %ymm2
	vpand	%ymm2, %ymm9, %ymm2
	vpxor	%ymm5, %ymm2, %ymm5
	vpaddb	%ymm2, %ymm2, %ymm2
	vpxor	%ymm4, %ymm2, %ymm2
	vpsrlw	$1, %ymm6, %ymm4
	vpxor	%ymm4, %ymm7, %ymm4
	vpand	%ymm4, %ymm9, %ymm4
	vpxor	%ymm7, %ymm4, %ymm7
	vpaddb	%ymm4, %ymm4, %ymm4
	vpxor	%ymm6, %ymm4, %ymm4
	vpsrlw	$2, %ymm8, %ymm6
	vpxor	%ymm6, %ymm1, %ymm6
	vpbroadcastd	.Laes_v3_CPI31_6(%rip), %ymm10 # ymm10 = [51,51,51,51,51,51,51,51,51,51,51,51,51,51,51,51,51,51,51,51,51,51,51,51,51,51,51,51,51,51,51,51]
	vpand	%ymm6, %ymm10, %ymm6
	vpxor	%ymm1, %ymm6, %ymm1
	vpsllw	$2, %ymm6, %ymm6
	vpxor	%ymm6, %ymm8, %ymm6
	vpsrlw	$2, %ymm2, %ymm8
	vpxor	%ymm4, %ymm8, %ymm8
	vpand	%ymm10, %ymm8, %ymm8
	vpxor	%ymm4, %ymm8, %ymm4
	vpsllw	$2, %ymm8, %ymm8
	vpxor	%ymm2, %ymm8, %ymm2
	vpsrlw	$2, %ymm0, %ymm8
	vpxor	%ymm3, %ymm8, %ymm8
	vpand	%ymm10, %ymm8, %ymm8
	vpxor	%ymm3, %ymm8, %ymm9
	vpsllw	$2, %ymm8, %ymm3
	vpxor	%ymm0, %ymm3, %ymm8
	vpsrlw	$2, %ymm5, %ymm0
	vpxor	%ymm0, %ymm7, %ymm0
	vpand	%ymm0, %ymm10, %ymm0
	vpxor	%ymm7, %ymm0, %ymm7
	vpsllw	$2, %ymm0, %ymm0
	vpxor	%ymm5, %ymm0, %ymm5
	vpsrlw	$4, %ymm6, %ymm0
	vpxor	%ymm0, %ymm2, %ymm0
	vpbroadcastd	.Laes_v3_CPI31_7(%rip), %ymm10 # ymm10 = [15,15,15,15,15,15,15,15,15,15,15,15,15,15,15,15,15,15,15,15,15,15,15,15,15,15,15,15,15,15,15,15]
	vpand	%ymm0, %ymm10, %ymm3
	vpxor	%ymm2, %ymm3, %ymm0
	vpsllw	$4, %ymm3, %ymm2
	vpxor	%ymm6, %ymm2, %ymm3
	vpsrlw	$4, %ymm8, %ymm2
	vpxor	%ymm2, %ymm5, %ymm2
	vpand	%ymm2, %ymm10, %ymm6
	vpxor	%ymm5, %ymm6, %ymm2
	vpsllw	$4, %ymm6, %ymm5
	vpxor	%ymm5, %ymm8, %ymm5
	vpsrlw	$4, %ymm1, %ymm6
	vpxor	%ymm6, %ymm4, %ymm6
	vpand	%ymm6, %ymm10, %ymm6
	vpxor	%ymm4, %ymm6, %ymm4
	vpsllw	$4, %ymm6, %ymm6
	vpxor	%ymm1, %ymm6, %ymm1
	vpsrlw	$4, %ymm9, %ymm6
	vpxor	%ymm6, %ymm7, %ymm6
	vpand	%ymm6, %ymm10, %ymm6
	vpxor	%ymm7, %ymm6, %ymm7
	vpsllw	$4, %ymm6, %ymm6
	vpxor	%ymm6, %ymm9, %ymm6
	vinserti128	$1, %xmm5, %ymm3, %ymm8
	vbroadcasti128	.Laes_v3_CPI31_4(%rip), %ymm9  # ymm9 = [0,4,8,12,1,5,9,13,2,6,10,14,3,7,11,15,0,4,8,12,1,5,9,13,2,6,10,14,3,7,11,15]
                                        # ymm9 = mem[0,1,0,1]
	vpshufb	%ymm9, %ymm8, %ymm8
	vmovdqu	%ymm8, (%rbp)
	vinserti128	$1, %xmm6, %ymm1, %ymm8
	vpshufb	%ymm9, %ymm8, %ymm8
	vmovdqu	%ymm8, 32(%rbp)
	vinserti128	$1, %xmm2, %ymm0, %ymm8
	vpshufb	%ymm9, %ymm8, %ymm8
	vmovdqu	%ymm8, 64(%rbp)
	vinserti128	$1, %xmm7, %ymm4, %ymm8
	vpshufb	%ymm9, %ymm8, %ymm8
	vmovdqu	%ymm8, 96(%rbp)
	vperm2i128	$49, %ymm5, %ymm3, %ymm3 # ymm3 = ymm3[2,3],ymm5[2,3]
	vpshufb	%ymm9, %ymm3, %ymm3
	vmovdqu	%ymm3, 128(%rbp)
	vperm2i128	$49, %ymm6, %ymm1, %ymm1 # ymm1 = ymm1[2,3],ymm6[2,3]
	vpshufb	%ymm9, %ymm1, %ymm1
	vmovdqu	%ymm1, 160(%rbp)
	vperm2i128	$49, %ymm2, %ymm0, %ymm0 # ymm0 = ymm0[2,3],ymm2[2,3]
	vpshufb	%ymm9, %ymm0, %ymm0
	vmovdqu	%ymm0, 192(%rbp)
	vperm2i128	$49, %ymm7, %ymm4, %ymm0 # ymm0 = ymm4[2,3],ymm7[2,3]
	vpshufb	%ymm9, %ymm0, %ymm0
	vmovdqu	%ymm0, 224(%rbp)
	movq	40(%rsp), %rax                  # 8-byte Reload
	addq	%r15, %rax
	addq	$-16, %rax
	addq	$-16, %r15
	addq	$256, %rbp                      # imm = 0x100
	cmpq	$15, %rax
	ja	.Laes_v3_BB31_4
# %bb.5:                                # %loop.7.preheader.i.i.i.i.loopexit
                                        #   in Loop: Header=BB31_2 Depth=1
	negq	%r15
.Laes_v3_BB31_6:                               # %loop.7.preheader.i.i.i.i
                                        #   in Loop: Header=BB31_2 Depth=1
	movq	40(%rsp), %rbp                  # 8-byte Reload
	subq	%r15, %rbp
	jbe	.Laes_v3_BB31_9
# %bb.7:                                # %join.10.i.i.i.i.preheader
                                        #   in Loop: Header=BB31_2 Depth=1
	shlq	$4, %r15
	addq	64(%rsp), %r15                  # 8-byte Folded Reload
	addq	48(%rsp), %r15                  # 8-byte Folded Reload
	.p2align	4
.Laes_v3_BB31_8:                               # %join.10.i.i.i.i
                                        #   Parent Loop BB31_2 Depth=1
                                        # =>  This Inner Loop Header: Depth=2
	movq	16(%r12), %rdi
	movq	24(%r12), %rsi
	movl	$1, %ecx
	movq	%r15, %rdx
	vzeroupper
	callq	aes_v3.aes_permute.blocks.process_on_lanes.2
	addq	$16, %r15
	decq	%rbp
	jne	.Laes_v3_BB31_8
.Laes_v3_BB31_9:                               # %join.7.lr.ph.i.i.i
                                        #   in Loop: Header=BB31_2 Depth=1
	vmovdqu	(%rbx), %xmm0
	movq	40(%rsp), %r9                   # 8-byte Reload
	leaq	-1(%r9), %rcx
	movl	%r9d, %eax
	andl	$3, %eax
	cmpq	$3, %rcx
	jae	.Laes_v3_BB31_11
# %bb.10:                               #   in Loop: Header=BB31_2 Depth=1
	xorl	%ecx, %ecx
	movq	56(%rsp), %rbp                  # 8-byte Reload
	jmp	.Laes_v3_BB31_14
	.p2align	4
.Laes_v3_BB31_11:                              # %join.7.lr.ph.i.i.i.new
                                        #   in Loop: Header=BB31_2 Depth=1
	movl	%r9d, %edi
	andl	$124, %edi
	movl	$48, %r8d
	xorl	%ecx, %ecx
	movq	56(%rsp), %rbp                  # 8-byte Reload
	.p2align	4
.Laes_v3_BB31_12:                              # %join.7.i.i.i
                                        #   Parent Loop BB31_2 Depth=1
                                        # =>  This Inner Loop Header: Depth=2
	vpxor	-48(%r14,%r8), %xmm0, %xmm0
	vmovdqu	%xmm0, -48(%r14,%r8)
	vmovups	48(%rsp,%r8), %xmm0
	vmovups	%xmm0, (%rbx)
	vxorps	-32(%r14,%r8), %xmm0, %xmm0
	vmovups	%xmm0, -32(%r14,%r8)
	vmovups	64(%rsp,%r8), %xmm0
	vmovups	%xmm0, (%rbx)
	vxorps	-16(%r14,%r8), %xmm0, %xmm0
	vmovups	%xmm0, -16(%r14,%r8)
	vmovups	80(%rsp,%r8), %xmm0
	vmovups	%xmm0, (%rbx)
	vxorps	(%r14,%r8), %xmm0, %xmm0
	vmovups	%xmm0, (%r14,%r8)
	vmovdqu	96(%rsp,%r8), %xmm0
	vmovdqu	%xmm0, (%rbx)
	addq	$4, %rcx
	addq	$64, %r8
	cmpq	%rcx, %rdi
	jne	.Laes_v3_BB31_12
# %bb.13:                               # %"cbc::decryption::unchain_part::<#a578b9d85ca18f5a>.exit.loopexit.i.i.unr-lcssa"
                                        #   in Loop: Header=BB31_2 Depth=1
	testq	%rax, %rax
	je	.Laes_v3_BB31_16
.Laes_v3_BB31_14:                              # %join.7.i.i.i.epil.preheader
                                        #   in Loop: Header=BB31_2 Depth=1
	shlq	$4, %rcx
	leaq	(%rsp,%rcx), %rdi
	addq	$96, %rdi
	addq	64(%rsp), %rcx                  # 8-byte Folded Reload
	addq	48(%rsp), %rcx                  # 8-byte Folded Reload
	shll	$4, %eax
	xorl	%r8d, %r8d
	.p2align	4
.Laes_v3_BB31_15:                              # %join.7.i.i.i.epil
                                        #   Parent Loop BB31_2 Depth=1
                                        # =>  This Inner Loop Header: Depth=2
	vpxor	(%rcx,%r8), %xmm0, %xmm0
	vmovdqu	%xmm0, (%rcx,%r8)
	vmovdqu	(%rdi,%r8), %xmm0
	vmovdqu	%xmm0, (%rbx)
	addq	$16, %r8
	cmpq	%r8, %rax
	jne	.Laes_v3_BB31_15
	jmp	.Laes_v3_BB31_16
.Laes_v3_BB31_17:                              # %"cbc::decryption::ChainBlockCipherDecClosure::call::<#a578b9d85ca18f5a>.exit"
	addq	$1400, %rsp                     # imm = 0x578
	popq	%rbx
	popq	%r12
	popq	%r13
	popq	%r14
	popq	%r15
	popq	%rbp
	vzeroupper
	retq
	.seh_endproc
                                        # -- End function
	.def	aes_v3.aes_soft.soft.ciphers.planes.process_outlined.2;
	.scl	3;
	.type	32;
	.endef
	.section	.rdata,"dr"
	.p2align	5, 0x0                          # -- Begin function aes_soft::soft::ciphers::planes::process_outlined::<#3217f1aecddc9cef>
.Laes_v3_CPI32_0:
	.byte	0                               # 0x0
	.byte	4                               # 0x4
	.byte	8                               # 0x8
	.byte	12                              # 0xc
	.byte	1                               # 0x1
	.byte	5                               # 0x5
	.byte	9                               # 0x9
	.byte	13                              # 0xd
	.byte	2                               # 0x2
	.byte	6                               # 0x6
	.byte	10                              # 0xa
	.byte	14                              # 0xe
	.byte	3                               # 0x3
	.byte	7                               # 0x7
	.byte	11                              # 0xb
	.byte	15                              # 0xf
	.byte	0                               # 0x0
	.byte	4                               # 0x4
	.byte	8                               # 0x8
	.byte	12                              # 0xc
	.byte	1                               # 0x1
	.byte	5                               # 0x5
	.byte	9                               # 0x9
	.byte	13                              # 0xd
	.byte	2                               # 0x2
	.byte	6                               # 0x6
	.byte	10                              # 0xa
	.byte	14                              # 0xe
	.byte	3                               # 0x3
	.byte	7                               # 0x7
	.byte	11                              # 0xb
	.byte	15                              # 0xf
.Laes_v3_CPI32_1:
	.zero	32,85
.Laes_v3_CPI32_2:
	.zero	32,51
.Laes_v3_CPI32_3:
	.zero	32,15
.Laes_v3_CPI32_4:
	.byte	0                               # 0x0
	.byte	4                               # 0x4
	.byte	8                               # 0x8
	.byte	12                              # 0xc
	.byte	1                               # 0x1
	.byte	5                               # 0x5
	.byte	9                               # 0x9
	.byte	13                              # 0xd
	.byte	2                               # 0x2
	.byte	6                               # 0x6
	.byte	10                              # 0xa
	.byte	14                              # 0xe
	.byte	3                               # 0x3
	.byte	7                               # 0x7
	.byte	11                              # 0xb
	.byte	15                              # 0xf
.Laes_v3_CPI32_5:
	.zero	4,85
.Laes_v3_CPI32_6:
	.zero	4,51
.Laes_v3_CPI32_7:
	.zero	4,15
	.text
	.p2align	4
aes_v3.aes_soft.soft.ciphers.planes.process_outlined.2: # @aes_v3.aes_soft.soft.ciphers.planes.process_outlined.2
.seh_proc aes_v3.aes_soft.soft.ciphers.planes.process_outlined.2
# %bb.0:                                # %start
	pushq	%r14
	.seh_pushreg %r14
	pushq	%rbx
	.seh_pushreg %rbx
	subq	$280, %rsp                      # imm = 0x118
	.seh_stackalloc 280
	.seh_endprologue
	movq	%rdi, %rbx
	leaq	16(%rsp), %r14
	andq	$-32, %r14
	vxorps	%xmm0, %xmm0, %xmm0
	vmovaps	%ymm0, 224(%r14)
	vmovaps	%ymm0, 192(%r14)
	vmovaps	%ymm0, 160(%r14)
	vmovaps	%ymm0, 128(%r14)
	vmovaps	%ymm0, 96(%r14)
	vmovaps	%ymm0, 64(%r14)
	vmovaps	%ymm0, 32(%r14)
	vmovaps	%ymm0, (%r14)
	vmovdqu	(%rcx), %xmm0
	vmovdqu	16(%rcx), %xmm2
	vmovdqu	32(%rcx), %xmm3
	vmovdqu	48(%rcx), %xmm4
	vinserti128	$1, 128(%rcx), %ymm0, %ymm0
	vbroadcasti128	.Laes_v3_CPI32_4(%rip), %ymm8  # ymm8 = [0,4,8,12,1,5,9,13,2,6,10,14,3,7,11,15,0,4,8,12,1,5,9,13,2,6,10,14,3,7,11,15]
                                        # ymm8 = mem[0,1,0,1]
	vpshufb	%ymm8, %ymm0, %ymm1
	vinserti128	$1, 144(%rcx), %ymm2, %ymm0
	vinserti128	$1, 160(%rcx), %ymm3, %ymm2
	vpshufb	%ymm8, %ymm0, %ymm0
	vpshufb	%ymm8, %ymm2, %ymm2
	vinserti128	$1, 176(%rcx), %ymm4, %ymm3
	vpshufb	%ymm8, %ymm3, %ymm3
	vmovdqu	64(%rcx), %xmm4
	vinserti128	$1, 192(%rcx), %ymm4, %ymm4
	vpshufb	%ymm8, %ymm4, %ymm4
	vmovdqu	80(%rcx), %xmm5
	vinserti128	$1, 208(%rcx), %ymm5, %ymm5
	vpshufb	%ymm8, %ymm5, %ymm5
	vmovdqu	96(%rcx), %xmm6
	vinserti128	$1, 224(%rcx), %ymm6, %ymm6
	vpshufb	%ymm8, %ymm6, %ymm6
	vmovdqu	112(%rcx), %xmm7
	vinserti128	$1, 240(%rcx), %ymm7, %ymm7
	vpshufb	%ymm8, %ymm7, %ymm7
	vpsrlw	$1, %ymm1, %ymm8
	vpxor	%ymm0, %ymm8, %ymm8
	vpbroadcastd	.Laes_v3_CPI32_5(%rip), %ymm10 # ymm10 = [85,85,85,85,85,85,85,85,85,85,85,85,85,85,85,85,85,85,85,85,85,85,85,85,85,85,85,85,85,85,85,85]
	vpand	%ymm10, %ymm8, %ymm8
	vpxor	%ymm0, %ymm8, %ymm0
	vpaddb	%ymm8, %ymm8, %ymm8
	vpxor	%ymm1, %ymm8, %ymm8
	vpsrlw	$1, %ymm2, %ymm1
	vpxor	%ymm1, %ymm3, %ymm1
	vpand	%ymm1, %ymm10, %ymm1
	vpxor	%ymm3, %ymm1, %ymm3
	vpaddb	%ymm1, %ymm1, %ymm1
	vpxor	%ymm2, %ymm1, %ymm1
	vpsrlw	$1, %ymm4, %ymm2
	vpxor	%ymm2, %ymm5, %ymm2
	vpand	%ymm2, %ymm10, %ymm9
	vpxor	%ymm5, %ymm9, %ymm2
	vpaddb	%ymm9, %ymm9, %ymm5
	vpxor	%ymm4, %ymm5, %ymm4
	vpsrlw	$1, %ymm6, %ymm5
	vpxor	%ymm5, %ymm7, %ymm5
	vpand	%ymm5, %ymm10, %ymm5
	vpxor	%ymm7, %ymm5, %ymm7
	vpaddb	%ymm5, %ymm5, %ymm5
	vpxor	%ymm6, %ymm5, %ymm5
	vpsrlw	$2, %ymm8, %ymm6
	vpxor	%ymm6, %ymm1, %ymm6
	vpbroadcastd	.Laes_v3_CPI32_6(%rip), %ymm9  # ymm9 = [51,51,51,51,51,51,51,51,51,51,51,51,51,51,51,51,51,51,51,51,51,51,51,51,51,51,51,51,51,51,51,51]
	vpand	%ymm6, %ymm9, %ymm6
	vpxor	%ymm1, %ymm6, %ymm1
	vpsllw	$2, %ymm6, %ymm6
	vpxor	%ymm6, %ymm8, %ymm6
	vpsrlw	$2, %ymm4, %ymm8
	vpxor	%ymm5, %ymm8, %ymm8
	vpand	%ymm9, %ymm8, %ymm8
	vpxor	%ymm5, %ymm8, %ymm5
	vpsllw	$2, %ymm8, %ymm8
	vpxor	%ymm4, %ymm8, %ymm4
	vpsrlw	$2, %ymm0, %ymm8
	vpxor	%ymm3, %ymm8, %ymm8
	vpand	%ymm9, %ymm8, %ymm8
	vpxor	%ymm3, %ymm8, %ymm3
	vpsllw	$2, %ymm8, %ymm8
	vpxor	%ymm0, %ymm8, %ymm0
	vpsrlw	$2, %ymm2, %ymm8
	vpxor	%ymm7, %ymm8, %ymm8
	vpand	%ymm9, %ymm8, %ymm8
	vpxor	%ymm7, %ymm8, %ymm7
	vpsllw	$2, %ymm8, %ymm8
	vpxor	%ymm2, %ymm8, %ymm2
	vpsrlw	$4, %ymm6, %ymm8
	vpbroadcastd	.Laes_v3_CPI32_7(%rip), %ymm9  # ymm9 = [15,15,15,15,15,15,15,15,15,15,15,15,15,15,15,15,15,15,15,15,15,15,15,15,15,15,15,15,15,15,15,15]
	vpxor	%ymm4, %ymm8, %ymm8
	vpand	%ymm9, %ymm8, %ymm8
	vpxor	%ymm4, %ymm8, %ymm4
	vpsllw	$4, %ymm8, %ymm8
	vpxor	%ymm6, %ymm8, %ymm6
	vpsrlw	$4, %ymm0, %ymm8
	vpxor	%ymm2, %ymm8, %ymm8
	vpand	%ymm9, %ymm8, %ymm8
	vpxor	%ymm2, %ymm8, %ymm2
	vpsllw	$4, %ymm8, %ymm8
	vpxor	%ymm0, %ymm8, %ymm0
	vpsrlw	$4, %ymm1, %ymm8
	vpxor	%ymm5, %ymm8, %ymm8
	vpand	%ymm9, %ymm8, %ymm8
	vpxor	%ymm5, %ymm8, %ymm5
	vpsllw	$4, %ymm8, %ymm8
	vpxor	%ymm1, %ymm8, %ymm1
	vpsrlw	$4, %ymm3, %ymm8
	vpxor	%ymm7, %ymm8, %ymm8
	vpand	%ymm9, %ymm8, %ymm8
	vpxor	%ymm7, %ymm8, %ymm7
	vpsllw	$4, %ymm8, %ymm8
	vpxor	%ymm3, %ymm8, %ymm3
	vmovdqa	%ymm6, (%r14)
	vmovdqa	%ymm0, 32(%r14)
	vmovdqa	%ymm1, 64(%r14)
	vmovdqa	%ymm3, 96(%r14)
	vmovdqa	%ymm4, 128(%r14)
	vmovdqa	%ymm2, 160(%r14)
	vmovdqa	%ymm5, 192(%r14)
	vmovdqa	%ymm7, 224(%r14)
	movq	%rsi, %rdi
	movq	%rdx, %rsi
	movq	%r14, %rdx
	vzeroupper
	callq	aes_v3.aes_soft.soft.ciphers.planes.DecryptPlaneCipher.process_planes
	vmovdqa	(%r14), %ymm1
	vmovdqa	32(%r14), %ymm0
	vmovdqa	64(%r14), %ymm2
	vmovdqa	96(%r14), %ymm3
	vmovdqa	128(%r14), %ymm4
	vmovdqa	160(%r14), %ymm5
	vmovdqa	192(%r14), %ymm6
	vmovdqa	224(%r14), %ymm7
	vpsrlw	$1, %ymm1, %ymm8
	vpxor	%ymm0, %ymm8, %ymm8
	vpbroadcastd	.Laes_v3_CPI32_5(%rip), %ymm9  # ymm9 = [85,85,85,85,85,85,85,85,85,85,85,85,85,85,85,85,85,85,85,85,85,85,85,85,85,85,85,85,85,85,85,85]
	vpand	%ymm9, %ymm8, %ymm8
	vpxor	%ymm0, %ymm8, %ymm0
	vpaddb	%ymm8, %ymm8, %ymm8
	vpxor	%ymm1, %ymm8, %ymm8
	vpsrlw	$1, %ymm2, %ymm1
	vpxor	%ymm1, %ymm3, %ymm1
	vpand	%ymm1, %ymm9, %ymm1
	vpxor	%ymm3, %ymm1, %ymm3
	vpaddb	%ymm1, %ymm1, %ymm1
	vpxor	%ymm2, %ymm1, %ymm1
	vpsrlw	$1, %ymm4, %ymm2
	vpxor	%ymm2, %ymm5, %ymm2
	vpand	%ymm2, %ymm9, %ymm2
	vpxor	%ymm5, %ymm2, %ymm5
	vpaddb	%ymm2, %ymm2, %ymm2
	vpxor	%ymm4, %ymm2, %ymm2
	vpsrlw	$1, %ymm6, %ymm4
	vpxor	%ymm4, %ymm7, %ymm4
	vpand	%ymm4, %ymm9, %ymm4
	vpxor	%ymm7, %ymm4, %ymm7
	vpaddb	%ymm4, %ymm4, %ymm4
	vpxor	%ymm6, %ymm4, %ymm4
	vpsrlw	$2, %ymm8, %ymm6
	vpxor	%ymm6, %ymm1, %ymm6
	vpbroadcastd	.Laes_v3_CPI32_6(%rip), %ymm10 # ymm10 = [51,51,51,51,51,51,51,51,51,51,51,51,51,51,51,51,51,51,51,51,51,51,51,51,51,51,51,51,51,51,51,51]
	vpand	%ymm6, %ymm10, %ymm6
	vpxor	%ymm1, %ymm6, %ymm1
	vpsllw	$2, %ymm6, %ymm6
	vpxor	%ymm6, %ymm8, %ymm6
	vpsrlw	$2, %ymm2, %ymm8
	vpxor	%ymm4, %ymm8, %ymm8
	vpand	%ymm10, %ymm8, %ymm8
	vpxor	%ymm4, %ymm8, %ymm4
	vpsllw	$2, %ymm8, %ymm8
	vpxor	%ymm2, %ymm8, %ymm2
	vpsrlw	$2, %ymm0, %ymm8
	vpxor	%ymm3, %ymm8, %ymm8
	vpand	%ymm10, %ymm8, %ymm8
	vpxor	%ymm3, %ymm8, %ymm9
	vpsllw	$2, %ymm8, %ymm3
	vpxor	%ymm0, %ymm3, %ymm8
	vpsrlw	$2, %ymm5, %ymm0
	vpxor	%ymm0, %ymm7, %ymm0
	vpand	%ymm0, %ymm10, %ymm0
	vpxor	%ymm7, %ymm0, %ymm7
	vpsllw	$2, %ymm0, %ymm0
	vpxor	%ymm5, %ymm0, %ymm5
	vpsrlw	$4, %ymm6, %ymm0
	vpxor	%ymm0, %ymm2, %ymm0
	vpbroadcastd	.Laes_v3_CPI32_7(%rip), %ymm10 # ymm10 = [15,15,15,15,15,15,15,15,15,15,15,15,15,15,15,15,15,15,15,15,15,15,15,15,15,15,15,15,15,15,15,15]
	vpand	%ymm0, %ymm10, %ymm3
	vpxor	%ymm2, %ymm3, %ymm0
	vpsllw	$4, %ymm3, %ymm2
	vpxor	%ymm6, %ymm2, %ymm3
	vpsrlw	$4, %ymm8, %ymm2
	vpxor	%ymm2, %ymm5, %ymm2
	vpand	%ymm2, %ymm10, %ymm6
	vpxor	%ymm5, %ymm6, %ymm2
	vpsllw	$4, %ymm6, %ymm5
	vpxor	%ymm5, %ymm8, %ymm5
	vpsrlw	$4, %ymm1, %ymm6
	vpxor	%ymm6, %ymm4, %ymm6
	vpand	%ymm6, %ymm10, %ymm6
	vpxor	%ymm4, %ymm6, %ymm4
	vpsllw	$4, %ymm6, %ymm6
	vpxor	%ymm1, %ymm6, %ymm1
	vpsrlw	$4, %ymm9, %ymm6
	vpxor	%ymm6, %ymm7, %ymm6
	vpand	%ymm6, %ymm10, %ymm6
	vpxor	%ymm7, %ymm6, %ymm7
	vpsllw	$4, %ymm6, %ymm6
	vpxor	%ymm6, %ymm9, %ymm6
	vinserti128	$1, %xmm5, %ymm3, %ymm8
	vbroadcasti128	.Laes_v3_CPI32_4(%rip), %ymm9  # ymm9 = [0,4,8,12,1,5,9,13,2,6,10,14,3,7,11,15,0,4,8,12,1,5,9,13,2,6,10,14,3,7,11,15]
                                        # ymm9 = mem[0,1,0,1]
	vpshufb	%ymm9, %ymm8, %ymm8
	vmovdqu	%ymm8, (%rbx)
	vinserti128	$1, %xmm6, %ymm1, %ymm8
	vpshufb	%ymm9, %ymm8, %ymm8
	vmovdqu	%ymm8, 32(%rbx)
	vinserti128	$1, %xmm2, %ymm0, %ymm8
	vpshufb	%ymm9, %ymm8, %ymm8
	vmovdqu	%ymm8, 64(%rbx)
	vinserti128	$1, %xmm7, %ymm4, %ymm8
	vpshufb	%ymm9, %ymm8, %ymm8
	vmovdqu	%ymm8, 96(%rbx)
	vperm2i128	$49, %ymm5, %ymm3, %ymm3 # ymm3 = ymm3[2,3],ymm5[2,3]
	vpshufb	%ymm9, %ymm3, %ymm3
	vmovdqu	%ymm3, 128(%rbx)
	vperm2i128	$49, %ymm6, %ymm1, %ymm1 # ymm1 = ymm1[2,3],ymm6[2,3]
	vpshufb	%ymm9, %ymm1, %ymm1
	vmovdqu	%ymm1, 160(%rbx)
	vperm2i128	$49, %ymm2, %ymm0, %ymm0 # ymm0 = ymm0[2,3],ymm2[2,3]
	vpshufb	%ymm9, %ymm0, %ymm0
	vmovdqu	%ymm0, 192(%rbx)
	vperm2i128	$49, %ymm7, %ymm4, %ymm0 # ymm0 = ymm4[2,3],ymm7[2,3]
	vpshufb	%ymm9, %ymm0, %ymm0
	vmovdqu	%ymm0, 224(%rbx)
	addq	$280, %rsp                      # imm = 0x118
	popq	%rbx
	popq	%r14
	vzeroupper
	retq
	.seh_endproc
                                        # -- End function
	.def	aes_v3.aes_soft.soft.ciphers.planes.DecryptPlaneCipher.process_planes;
	.scl	3;
	.type	32;
	.endef
	.section	.rdata,"dr"
	.p2align	5, 0x0                          # -- Begin function aes_soft::soft::ciphers::planes::DecryptPlaneCipher::process_planes::<#e5b32b1877e7bf14>
.Laes_v3_CPI33_0:
	.byte	7                               # 0x7
	.byte	4                               # 0x4
	.byte	5                               # 0x5
	.byte	6                               # 0x6
	.byte	11                              # 0xb
	.byte	8                               # 0x8
	.byte	9                               # 0x9
	.byte	10                              # 0xa
	.byte	15                              # 0xf
	.byte	12                              # 0xc
	.byte	13                              # 0xd
	.byte	14                              # 0xe
	.byte	3                               # 0x3
	.byte	0                               # 0x0
	.byte	1                               # 0x1
	.byte	2                               # 0x2
	.byte	7                               # 0x7
	.byte	4                               # 0x4
	.byte	5                               # 0x5
	.byte	6                               # 0x6
	.byte	11                              # 0xb
	.byte	8                               # 0x8
	.byte	9                               # 0x9
	.byte	10                              # 0xa
	.byte	15                              # 0xf
	.byte	12                              # 0xc
	.byte	13                              # 0xd
	.byte	14                              # 0xe
	.byte	3                               # 0x3
	.byte	0                               # 0x0
	.byte	1                               # 0x1
	.byte	2                               # 0x2
.Laes_v3_CPI33_1:
	.byte	10                              # 0xa
	.byte	11                              # 0xb
	.byte	8                               # 0x8
	.byte	9                               # 0x9
	.byte	14                              # 0xe
	.byte	15                              # 0xf
	.byte	12                              # 0xc
	.byte	13                              # 0xd
	.byte	2                               # 0x2
	.byte	3                               # 0x3
	.byte	0                               # 0x0
	.byte	1                               # 0x1
	.byte	6                               # 0x6
	.byte	7                               # 0x7
	.byte	4                               # 0x4
	.byte	5                               # 0x5
	.byte	26                              # 0x1a
	.byte	27                              # 0x1b
	.byte	24                              # 0x18
	.byte	25                              # 0x19
	.byte	30                              # 0x1e
	.byte	31                              # 0x1f
	.byte	28                              # 0x1c
	.byte	29                              # 0x1d
	.byte	18                              # 0x12
	.byte	19                              # 0x13
	.byte	16                              # 0x10
	.byte	17                              # 0x11
	.byte	22                              # 0x16
	.byte	23                              # 0x17
	.byte	20                              # 0x14
	.byte	21                              # 0x15
.Laes_v3_CPI33_2:
	.byte	6                               # 0x6
	.byte	7                               # 0x7
	.byte	4                               # 0x4
	.byte	5                               # 0x5
	.byte	10                              # 0xa
	.byte	11                              # 0xb
	.byte	8                               # 0x8
	.byte	9                               # 0x9
	.byte	14                              # 0xe
	.byte	15                              # 0xf
	.byte	12                              # 0xc
	.byte	13                              # 0xd
	.byte	2                               # 0x2
	.byte	3                               # 0x3
	.byte	0                               # 0x0
	.byte	1                               # 0x1
	.byte	22                              # 0x16
	.byte	23                              # 0x17
	.byte	20                              # 0x14
	.byte	21                              # 0x15
	.byte	26                              # 0x1a
	.byte	27                              # 0x1b
	.byte	24                              # 0x18
	.byte	25                              # 0x19
	.byte	30                              # 0x1e
	.byte	31                              # 0x1f
	.byte	28                              # 0x1c
	.byte	29                              # 0x1d
	.byte	18                              # 0x12
	.byte	19                              # 0x13
	.byte	16                              # 0x10
	.byte	17                              # 0x11
.Laes_v3_CPI33_3:
	.byte	5                               # 0x5
	.byte	6                               # 0x6
	.byte	7                               # 0x7
	.byte	4                               # 0x4
	.byte	9                               # 0x9
	.byte	10                              # 0xa
	.byte	11                              # 0xb
	.byte	8                               # 0x8
	.byte	13                              # 0xd
	.byte	14                              # 0xe
	.byte	15                              # 0xf
	.byte	12                              # 0xc
	.byte	1                               # 0x1
	.byte	2                               # 0x2
	.byte	3                               # 0x3
	.byte	0                               # 0x0
	.byte	5                               # 0x5
	.byte	6                               # 0x6
	.byte	7                               # 0x7
	.byte	4                               # 0x4
	.byte	9                               # 0x9
	.byte	10                              # 0xa
	.byte	11                              # 0xb
	.byte	8                               # 0x8
	.byte	13                              # 0xd
	.byte	14                              # 0xe
	.byte	15                              # 0xf
	.byte	12                              # 0xc
	.byte	1                               # 0x1
	.byte	2                               # 0x2
	.byte	3                               # 0x3
	.byte	0                               # 0x0
.Laes_v3_CPI33_4:
	.byte	7                               # 0x7
	.byte	4                               # 0x4
	.byte	5                               # 0x5
	.byte	6                               # 0x6
	.byte	11                              # 0xb
	.byte	8                               # 0x8
	.byte	9                               # 0x9
	.byte	10                              # 0xa
	.byte	15                              # 0xf
	.byte	12                              # 0xc
	.byte	13                              # 0xd
	.byte	14                              # 0xe
	.byte	3                               # 0x3
	.byte	0                               # 0x0
	.byte	1                               # 0x1
	.byte	2                               # 0x2
.Laes_v3_CPI33_5:
	.byte	5                               # 0x5
	.byte	6                               # 0x6
	.byte	7                               # 0x7
	.byte	4                               # 0x4
	.byte	9                               # 0x9
	.byte	10                              # 0xa
	.byte	11                              # 0xb
	.byte	8                               # 0x8
	.byte	13                              # 0xd
	.byte	14                              # 0xe
	.byte	15                              # 0xf
	.byte	12                              # 0xc
	.byte	1                               # 0x1
	.byte	2                               # 0x2
	.byte	3                               # 0x3
	.byte	0                               # 0x0
	.text
	.p2align	4
aes_v3.aes_soft.soft.ciphers.planes.DecryptPlaneCipher.process_planes: # @aes_v3.aes_soft.soft.ciphers.planes.DecryptPlaneCipher.process_planes
.seh_proc aes_v3.aes_soft.soft.ciphers.planes.DecryptPlaneCipher.process_planes
# %bb.0:                                # %start
	pushq	%rbp
	.seh_pushreg %rbp
	subq	$592, %rsp                      # imm = 0x250
	.seh_stackalloc 592
	leaq	128(%rsp), %rbp
	.seh_setframe %rbp, 128
	.seh_endprologue
	andq	$-32, %rsp
	movq	%rsi, %r9
	shlq	$8, %r9
	vmovdqu	(%rdi,%r9), %ymm0
	vmovdqu	32(%rdi,%r9), %ymm2
	vmovdqu	64(%rdi,%r9), %ymm15
	vmovdqu	96(%rdi,%r9), %ymm3
	vmovdqu	128(%rdi,%r9), %ymm5
	vmovdqu	160(%rdi,%r9), %ymm6
	vmovdqu	192(%rdi,%r9), %ymm8
	vpxor	(%rdx), %ymm0, %ymm4
	vpxor	32(%rdx), %ymm2, %ymm11
	vpxor	96(%rdx), %ymm3, %ymm7
	vpxor	128(%rdx), %ymm5, %ymm9
	vpxor	160(%rdx), %ymm6, %ymm0
	vmovdqa	%ymm0, 384(%rsp)                # 32-byte Spill
	vpxor	192(%rdx), %ymm8, %ymm8
	vpxor	%ymm4, %ymm11, %ymm2
	vmovdqa	%ymm2, 64(%rsp)                 # 32-byte Spill
	vpxor	%ymm9, %ymm8, %ymm5
	vmovdqa	%ymm5, (%rsp)                   # 32-byte Spill
	vpxor	%ymm7, %ymm0, %ymm3
	vpxor	%ymm11, %ymm8, %ymm10
	vpxor	%ymm3, %ymm10, %ymm0
	vmovdqa	%ymm0, 288(%rsp)                # 32-byte Spill
	vpxor	%ymm7, %ymm9, %ymm1
	vpxor	%ymm2, %ymm1, %ymm3
	vmovdqa	%ymm3, 224(%rsp)                # 32-byte Spill
	vpor	%ymm3, %ymm0, %ymm13
	vpxor	%ymm4, %ymm1, %ymm0
	vmovdqa	%ymm0, 32(%rsp)                 # 32-byte Spill
	vpand	%ymm0, %ymm5, %ymm14
	vpxor	%ymm14, %ymm13, %ymm0
	vmovdqa	%ymm0, 512(%rsp)                # 32-byte Spill
	vmovdqu	224(%rdi,%r9), %ymm13
	vpxor	64(%rdx), %ymm15, %ymm14
	vpxor	224(%rdx), %ymm13, %ymm15
	vpxor	%ymm9, %ymm15, %ymm13
	vpxor	%ymm8, %ymm15, %ymm3
	vpxor	%ymm8, %ymm13, %ymm12
	vmovdqa	%ymm13, 352(%rsp)               # 32-byte Spill
	vpxor	%ymm4, %ymm7, %ymm2
	vpxor	%ymm7, %ymm12, %ymm6
	vmovdqa	%ymm6, 96(%rsp)                 # 32-byte Spill
	vmovdqa	%ymm12, 416(%rsp)               # 32-byte Spill
	vpxor	%ymm11, %ymm14, %ymm9
	vmovdqa	%ymm1, %ymm11
	vpxor	%ymm1, %ymm9, %ymm7
	vmovdqa	%ymm7, 256(%rsp)                # 32-byte Spill
	vpxor	%ymm2, %ymm3, %ymm5
	vpxor	%ymm7, %ymm5, %ymm4
	vpand	%ymm1, %ymm4, %ymm4
	vmovdqa	%ymm1, 320(%rsp)                # 32-byte Spill
	vpand	%ymm7, %ymm6, %ymm8
	vpxor	%ymm4, %ymm8, %ymm8
	vpand	%ymm3, %ymm5, %ymm6
	vmovdqa	%ymm5, 480(%rsp)                # 32-byte Spill
	vmovdqa	%ymm3, 128(%rsp)                # 32-byte Spill
	vpxor	%ymm6, %ymm4, %ymm7
	vmovdqa	384(%rsp), %ymm6                # 32-byte Reload
	vpxor	%ymm6, %ymm14, %ymm1
	vpxor	%ymm1, %ymm15, %ymm4
	vmovdqa	%ymm4, 160(%rsp)                # 32-byte Spill
	vpxor	%ymm2, %ymm10, %ymm0
	vmovdqa	%ymm0, 544(%rsp)                # 32-byte Spill
	vmovdqa	(%rsp), %ymm10                  # 32-byte Reload
	vmovdqa	64(%rsp), %ymm0                 # 32-byte Reload
	vpxor	%ymm0, %ymm10, %ymm14
	vpand	%ymm4, %ymm14, %ymm15
	vpxor	%ymm2, %ymm15, %ymm2
	vpxor	%ymm0, %ymm3, %ymm3
	vmovdqa	%ymm3, 64(%rsp)                 # 32-byte Spill
	vpxor	%ymm1, %ymm10, %ymm1
	vmovdqa	%ymm1, 192(%rsp)                # 32-byte Spill
	vpand	%ymm1, %ymm3, %ymm1
	vpxor	%ymm1, %ymm2, %ymm0
	vpxor	%ymm5, %ymm9, %ymm3
	vmovdqa	%ymm3, 448(%rsp)                # 32-byte Spill
	vpand	%ymm13, %ymm12, %ymm2
	vpxor	%ymm2, %ymm3, %ymm2
	vpxor	%ymm1, %ymm2, %ymm2
	vpxor	512(%rsp), %ymm8, %ymm3         # 32-byte Folded Reload
	vpxor	%ymm2, %ymm8, %ymm8
	vmovdqa	288(%rsp), %ymm9                # 32-byte Reload
	vmovdqa	224(%rsp), %ymm4                # 32-byte Reload
	vpand	%ymm4, %ymm9, %ymm2
	vpxor	%ymm2, %ymm11, %ymm15
	vpxor	%ymm6, %ymm14, %ymm2
	vmovdqa	544(%rsp), %ymm10               # 32-byte Reload
	vpand	%ymm2, %ymm10, %ymm12
	vpxor	%ymm12, %ymm15, %ymm12
	vpxor	%ymm6, %ymm12, %ymm11
	vpxor	%ymm7, %ymm0, %ymm12
	vpxor	%ymm7, %ymm11, %ymm6
	vpand	%ymm3, %ymm8, %ymm11
	vpxor	%ymm12, %ymm8, %ymm0
	vpand	%ymm6, %ymm8, %ymm8
	vpand	%ymm0, %ymm8, %ymm8
	vpxor	%ymm6, %ymm11, %ymm15
	vpand	%ymm0, %ymm15, %ymm15
	vpxor	%ymm0, %ymm11, %ymm0
	vpxor	%ymm0, %ymm8, %ymm0
	vpxor	%ymm12, %ymm11, %ymm8
	vpxor	%ymm6, %ymm3, %ymm1
	vpand	%ymm1, %ymm8, %ymm8
	vpxor	%ymm6, %ymm8, %ymm8
	vpxor	%ymm12, %ymm15, %ymm15
	vpxor	%ymm0, %ymm15, %ymm6
	vpand	%ymm4, %ymm6, %ymm5
	vpand	%ymm6, %ymm9, %ymm6
	vpand	%ymm3, %ymm12, %ymm3
	vpandn	%ymm1, %ymm3, %ymm1
	vpxor	%ymm1, %ymm11, %ymm1
	vpand	%ymm10, %ymm15, %ymm10
	vpand	%ymm2, %ymm15, %ymm2
	vpxor	%ymm8, %ymm15, %ymm12
	vpand	(%rsp), %ymm0, %ymm11           # 32-byte Folded Reload
	vmovdqa	%ymm11, 224(%rsp)               # 32-byte Spill
	vpand	160(%rsp), %ymm8, %ymm15        # 32-byte Folded Reload
	vpand	%ymm14, %ymm8, %ymm9
	vpand	32(%rsp), %ymm0, %ymm4          # 32-byte Folded Reload
	vpxor	%ymm1, %ymm0, %ymm0
	vpand	352(%rsp), %ymm1, %ymm3         # 32-byte Folded Reload
	vmovdqa	%ymm3, 160(%rsp)                # 32-byte Spill
	vpxor	%ymm1, %ymm8, %ymm8
	vpand	416(%rsp), %ymm1, %ymm3         # 32-byte Folded Reload
	vpand	192(%rsp), %ymm8, %ymm14        # 32-byte Folded Reload
	vpand	64(%rsp), %ymm8, %ymm1          # 32-byte Folded Reload
	vmovdqa	%ymm1, 32(%rsp)                 # 32-byte Spill
	vpand	320(%rsp), %ymm12, %ymm1        # 32-byte Folded Reload
	vmovdqa	%ymm1, 64(%rsp)                 # 32-byte Spill
	vpand	448(%rsp), %ymm12, %ymm1        # 32-byte Folded Reload
	vpxor	%ymm0, %ymm12, %ymm12
	vpand	256(%rsp), %ymm12, %ymm8        # 32-byte Folded Reload
	vpxor	%ymm4, %ymm8, %ymm8
	vpxor	%ymm3, %ymm4, %ymm4
	vpand	96(%rsp), %ymm12, %ymm3         # 32-byte Folded Reload
	vpxor	%ymm6, %ymm10, %ymm7
	vpxor	%ymm5, %ymm11, %ymm12
	vmovdqa	%ymm5, %ymm11
	vpxor	%ymm1, %ymm12, %ymm12
	vpand	480(%rsp), %ymm0, %ymm13        # 32-byte Folded Reload
	vpxor	%ymm2, %ymm6, %ymm5
	vpxor	%ymm2, %ymm14, %ymm2
	vpxor	%ymm12, %ymm8, %ymm8
	vpxor	%ymm15, %ymm14, %ymm14
	vpxor	%ymm6, %ymm3, %ymm6
	vpxor	%ymm3, %ymm13, %ymm3
	vpxor	%ymm3, %ymm12, %ymm12
	vpxor	%ymm2, %ymm4, %ymm10
	vpxor	%ymm10, %ymm12, %ymm10
	vpxor	%ymm12, %ymm14, %ymm14
	vpxor	%ymm5, %ymm12, %ymm5
	vmovdqa	%ymm5, (%rsp)                   # 32-byte Spill
	vpxor	160(%rsp), %ymm15, %ymm12       # 32-byte Folded Reload
	vpxor	%ymm1, %ymm4, %ymm1
	vpxor	%ymm7, %ymm1, %ymm1
	vpxor	64(%rsp), %ymm9, %ymm4          # 32-byte Folded Reload
	vpxor	%ymm9, %ymm12, %ymm7
	vpxor	%ymm7, %ymm11, %ymm5
	vpxor	%ymm5, %ymm1, %ymm5
	vpxor	%ymm3, %ymm5, %ymm5
	vpand	128(%rsp), %ymm0, %ymm0         # 32-byte Folded Reload
	vpxor	32(%rsp), %ymm0, %ymm3          # 32-byte Folded Reload
	vpxor	%ymm0, %ymm2, %ymm0
	vpxor	%ymm7, %ymm0, %ymm2
	vpxor	%ymm6, %ymm8, %ymm0
	vpxor	%ymm2, %ymm8, %ymm6
	vpxor	224(%rsp), %ymm12, %ymm2        # 32-byte Folded Reload
	vpxor	%ymm2, %ymm13, %ymm2
	vpxor	%ymm2, %ymm1, %ymm1
	vpxor	%ymm3, %ymm4, %ymm4
	vpxor	%ymm3, %ymm1, %ymm7
	leaq	-2(%rsi), %r8
	movq	%r8, %rax
	shrq	$2, %rax
	movq	%r8, %rcx
	andq	$-4, %rcx
	leaq	2(%rcx), %r10
	cmpq	%rsi, %r10
	jae	.Laes_v3_BB33_2
# %bb.1:                                # %then.3
	vpxor	-256(%rdi,%r9), %ymm4, %ymm1
	vmovdqa	%ymm1, 32(%rsp)                 # 32-byte Spill
	vpxor	-224(%rdi,%r9), %ymm0, %ymm15
	vpxor	-192(%rdi,%r9), %ymm10, %ymm1
	vpxor	-160(%rdi,%r9), %ymm6, %ymm11
	vpxor	-128(%rdi,%r9), %ymm14, %ymm4
	vpxor	-96(%rdi,%r9), %ymm5, %ymm2
	vpxor	-64(%rdi,%r9), %ymm7, %ymm9
	vmovdqa	(%rsp), %ymm0                   # 32-byte Reload
	vpxor	-32(%rdi,%r9), %ymm0, %ymm10
	vbroadcasti128	.Laes_v3_CPI33_4(%rip), %ymm13 # ymm13 = [7,4,5,6,11,8,9,10,15,12,13,14,3,0,1,2,7,4,5,6,11,8,9,10,15,12,13,14,3,0,1,2]
                                        # ymm13 = mem[0,1,0,1]
	vpshufb	%ymm13, %ymm15, %ymm3
	vpshufb	%ymm13, %ymm1, %ymm5
	vpshufb	%ymm13, %ymm4, %ymm6
	vmovdqa	%ymm4, 128(%rsp)                # 32-byte Spill
	vpshufb	%ymm13, %ymm2, %ymm7
	vpshufb	%ymm13, %ymm9, %ymm12
	vpshufb	%ymm13, %ymm10, %ymm8
	vpxor	%ymm3, %ymm15, %ymm0
	vpxor	%ymm1, %ymm5, %ymm14
	vpxor	%ymm4, %ymm6, %ymm3
	vpxor	%ymm2, %ymm7, %ymm5
	vpxor	%ymm9, %ymm12, %ymm6
	vpxor	%ymm10, %ymm8, %ymm7
	vpxor	%ymm1, %ymm0, %ymm8
	vmovdqa	%ymm8, 96(%rsp)                 # 32-byte Spill
	vpxor	%ymm2, %ymm3, %ymm1
	vmovdqa	%ymm1, (%rsp)                   # 32-byte Spill
	vpxor	%ymm5, %ymm9, %ymm2
	vpxor	%ymm6, %ymm10, %ymm1
	vpxor	%ymm2, %ymm1, %ymm4
	vpxor	%ymm0, %ymm4, %ymm12
	vpxor	%ymm3, %ymm8, %ymm0
	vpxor	%ymm0, %ymm4, %ymm9
	vmovdqa	32(%rsp), %ymm4                 # 32-byte Reload
	vpshufb	%ymm13, %ymm4, %ymm0
	vpshufb	%ymm13, %ymm11, %ymm3
	vpxor	%ymm4, %ymm0, %ymm0
	vpxor	%ymm3, %ymm11, %ymm3
	vpxor	%ymm4, %ymm7, %ymm4
	vpxor	%ymm0, %ymm15, %ymm8
	vpxor	%ymm11, %ymm14, %ymm10
	vpxor	%ymm0, %ymm2, %ymm0
	vpxor	%ymm1, %ymm14, %ymm11
	vmovdqa	%ymm1, 64(%rsp)                 # 32-byte Spill
	vpxor	%ymm4, %ymm11, %ymm11
	vpxor	%ymm4, %ymm0, %ymm4
	vmovdqa	.Laes_v3_CPI33_1(%rip), %ymm13         # ymm13 = [10,11,8,9,14,15,12,13,2,3,0,1,6,7,4,5,26,27,24,25,30,31,28,29,18,19,16,17,22,23,20,21]
	vpshufb	%ymm13, %ymm0, %ymm0
	vpxor	%ymm0, %ymm4, %ymm0
	vmovdqa	%ymm0, 32(%rsp)                 # 32-byte Spill
	vpxor	%ymm7, %ymm8, %ymm0
	vpxor	%ymm7, %ymm10, %ymm10
	vpxor	128(%rsp), %ymm3, %ymm8         # 32-byte Folded Reload
	vpxor	%ymm7, %ymm8, %ymm15
	vpxor	%ymm3, %ymm2, %ymm3
	vpxor	%ymm0, %ymm3, %ymm3
	vpxor	%ymm5, %ymm1, %ymm5
	vpxor	%ymm5, %ymm10, %ymm5
	vpxor	%ymm6, %ymm15, %ymm6
	vmovdqa	(%rsp), %ymm1                   # 32-byte Reload
	vpxor	%ymm1, %ymm7, %ymm7
	vpxor	%ymm0, %ymm12, %ymm0
	vpshufb	%ymm13, %ymm12, %ymm8
	vpxor	%ymm0, %ymm8, %ymm4
	vpshufb	%ymm13, %ymm11, %ymm0
	vpxor	96(%rsp), %ymm11, %ymm11        # 32-byte Folded Reload
	vpshufb	%ymm13, %ymm3, %ymm12
	vpxor	%ymm0, %ymm11, %ymm0
	vmovdqa	%ymm0, 256(%rsp)                # 32-byte Spill
	vpshufb	%ymm13, %ymm9, %ymm11
	vpxor	%ymm3, %ymm10, %ymm3
	vpshufb	%ymm13, %ymm5, %ymm10
	vpxor	%ymm3, %ymm12, %ymm14
	vpshufb	%ymm13, %ymm6, %ymm3
	vpshufb	%ymm13, %ymm7, %ymm12
	vpxor	%ymm9, %ymm15, %ymm9
	vpxor	%ymm11, %ymm9, %ymm9
	vpxor	%ymm5, %ymm1, %ymm5
	vpxor	%ymm5, %ymm10, %ymm0
	vmovdqa	%ymm0, 320(%rsp)                # 32-byte Spill
	vpxor	%ymm6, %ymm2, %ymm2
	vpxor	%ymm3, %ymm2, %ymm2
	vpxor	64(%rsp), %ymm7, %ymm1          # 32-byte Folded Reload
	vpxor	%ymm1, %ymm12, %ymm8
	vmovdqa	32(%rsp), %ymm5                 # 32-byte Reload
	vpxor	%ymm5, %ymm4, %ymm6
	vmovdqa	%ymm6, 64(%rsp)                 # 32-byte Spill
	vpxor	%ymm2, %ymm9, %ymm15
	vpxor	%ymm0, %ymm14, %ymm3
	vpxor	%ymm4, %ymm2, %ymm10
	vpxor	%ymm3, %ymm10, %ymm0
	vmovdqa	%ymm0, 288(%rsp)                # 32-byte Spill
	vpxor	%ymm9, %ymm14, %ymm12
	vpxor	%ymm6, %ymm12, %ymm3
	vmovdqa	%ymm3, 448(%rsp)                # 32-byte Spill
	vpor	%ymm0, %ymm3, %ymm6
	vpxor	%ymm5, %ymm12, %ymm0
	vmovdqa	%ymm0, (%rsp)                   # 32-byte Spill
	vpand	%ymm0, %ymm15, %ymm13
	vpxor	%ymm6, %ymm13, %ymm0
	vmovdqa	%ymm0, 384(%rsp)                # 32-byte Spill
	vpxor	%ymm8, %ymm9, %ymm0
	vmovdqa	%ymm0, 480(%rsp)                # 32-byte Spill
	vpxor	%ymm2, %ymm8, %ymm3
	vpxor	%ymm2, %ymm0, %ymm7
	vpxor	%ymm5, %ymm14, %ymm2
	vpxor	%ymm7, %ymm14, %ymm0
	vmovdqa	%ymm0, 128(%rsp)                # 32-byte Spill
	vmovdqa	%ymm7, 416(%rsp)                # 32-byte Spill
	vmovdqa	256(%rsp), %ymm5                # 32-byte Reload
	vpxor	%ymm4, %ymm5, %ymm9
	vpxor	%ymm9, %ymm12, %ymm1
	vmovdqa	%ymm1, 32(%rsp)                 # 32-byte Spill
	vpxor	%ymm3, %ymm2, %ymm13
	vpxor	%ymm1, %ymm13, %ymm4
	vpand	%ymm4, %ymm12, %ymm4
	vmovdqa	%ymm12, 224(%rsp)               # 32-byte Spill
	vpand	%ymm1, %ymm0, %ymm14
	vpxor	%ymm4, %ymm14, %ymm1
	vmovdqa	%ymm3, 96(%rsp)                 # 32-byte Spill
	vpand	%ymm3, %ymm13, %ymm14
	vpxor	%ymm4, %ymm14, %ymm11
	vmovdqa	320(%rsp), %ymm4                # 32-byte Reload
	vpxor	%ymm5, %ymm4, %ymm0
	vpxor	%ymm0, %ymm8, %ymm6
	vmovdqa	%ymm6, 160(%rsp)                # 32-byte Spill
	vpxor	%ymm2, %ymm10, %ymm14
	vmovdqa	%ymm15, 352(%rsp)               # 32-byte Spill
	vmovdqa	64(%rsp), %ymm5                 # 32-byte Reload
	vpxor	%ymm5, %ymm15, %ymm8
	vpand	%ymm6, %ymm8, %ymm10
	vpxor	%ymm2, %ymm10, %ymm2
	vpxor	%ymm5, %ymm3, %ymm3
	vmovdqa	%ymm3, 256(%rsp)                # 32-byte Spill
	vpxor	%ymm0, %ymm15, %ymm0
	vmovdqa	%ymm0, 64(%rsp)                 # 32-byte Spill
	vpand	%ymm3, %ymm0, %ymm0
	vpxor	%ymm0, %ymm2, %ymm10
	vpxor	%ymm13, %ymm9, %ymm3
	vmovdqa	%ymm3, 192(%rsp)                # 32-byte Spill
	vmovdqa	480(%rsp), %ymm9                # 32-byte Reload
	vpand	%ymm7, %ymm9, %ymm2
	vpxor	%ymm2, %ymm3, %ymm2
	vpxor	%ymm0, %ymm2, %ymm0
	vpxor	384(%rsp), %ymm1, %ymm5         # 32-byte Folded Reload
	vpxor	%ymm1, %ymm0, %ymm0
	vmovdqa	288(%rsp), %ymm15               # 32-byte Reload
	vmovdqa	448(%rsp), %ymm6                # 32-byte Reload
	vpand	%ymm6, %ymm15, %ymm1
	vpxor	%ymm4, %ymm1, %ymm1
	vpxor	%ymm4, %ymm8, %ymm7
	vpand	%ymm7, %ymm14, %ymm3
	vpxor	%ymm3, %ymm1, %ymm1
	vpxor	%ymm11, %ymm10, %ymm3
	vpxor	%ymm1, %ymm12, %ymm1
	vpxor	%ymm1, %ymm11, %ymm4
	vpand	%ymm5, %ymm0, %ymm2
	vpxor	%ymm3, %ymm0, %ymm10
	vpand	%ymm4, %ymm0, %ymm0
	vpand	%ymm0, %ymm10, %ymm0
	vpxor	%ymm4, %ymm2, %ymm12
	vpand	%ymm10, %ymm12, %ymm12
	vpxor	%ymm2, %ymm10, %ymm10
	vpxor	%ymm0, %ymm10, %ymm0
	vpxor	%ymm3, %ymm2, %ymm10
	vpxor	%ymm4, %ymm5, %ymm1
	vpand	%ymm1, %ymm10, %ymm10
	vpxor	%ymm4, %ymm10, %ymm4
	vpxor	%ymm3, %ymm12, %ymm12
	vpxor	%ymm0, %ymm12, %ymm10
	vpand	%ymm6, %ymm10, %ymm6
	vmovdqa	%ymm6, 320(%rsp)                # 32-byte Spill
	vpand	%ymm15, %ymm10, %ymm10
	vpand	%ymm5, %ymm3, %ymm3
	vpand	%ymm1, %ymm3, %ymm3
	vpxor	%ymm1, %ymm2, %ymm1
	vpxor	%ymm3, %ymm1, %ymm1
	vpand	%ymm14, %ymm12, %ymm2
	vmovdqa	%ymm2, 448(%rsp)                # 32-byte Spill
	vpand	%ymm7, %ymm12, %ymm2
	vmovdqa	%ymm2, 288(%rsp)                # 32-byte Spill
	vpxor	%ymm4, %ymm12, %ymm3
	vpand	352(%rsp), %ymm0, %ymm5         # 32-byte Folded Reload
	vmovdqa	%ymm5, 384(%rsp)                # 32-byte Spill
	vpand	160(%rsp), %ymm4, %ymm2         # 32-byte Folded Reload
	vmovdqa	%ymm2, 160(%rsp)                # 32-byte Spill
	vpand	%ymm4, %ymm8, %ymm15
	vpand	(%rsp), %ymm0, %ymm6            # 32-byte Folded Reload
	vpxor	%ymm1, %ymm0, %ymm0
	vpand	%ymm1, %ymm9, %ymm2
	vmovdqa	%ymm2, 352(%rsp)                # 32-byte Spill
	vpxor	%ymm1, %ymm4, %ymm4
	vpand	416(%rsp), %ymm1, %ymm1         # 32-byte Folded Reload
	vpand	64(%rsp), %ymm4, %ymm11         # 32-byte Folded Reload
	vpand	256(%rsp), %ymm4, %ymm4         # 32-byte Folded Reload
	vpand	224(%rsp), %ymm3, %ymm12        # 32-byte Folded Reload
	vpand	192(%rsp), %ymm3, %ymm14        # 32-byte Folded Reload
	vpxor	%ymm0, %ymm3, %ymm3
	vpand	32(%rsp), %ymm3, %ymm7          # 32-byte Folded Reload
	vpxor	%ymm6, %ymm7, %ymm2
	vpxor	%ymm6, %ymm1, %ymm6
	vpand	128(%rsp), %ymm3, %ymm3         # 32-byte Folded Reload
	vpand	%ymm0, %ymm13, %ymm7
	vmovdqa	%ymm7, 256(%rsp)                # 32-byte Spill
	vpand	96(%rsp), %ymm0, %ymm13         # 32-byte Folded Reload
	shlq	$8, %r8
	vpxor	(%rdi,%r8), %ymm12, %ymm0
	vpxor	%ymm4, %ymm13, %ymm12
	vpxor	%ymm12, %ymm15, %ymm1
	vpxor	%ymm1, %ymm0, %ymm0
	vmovdqa	%ymm0, 128(%rsp)                # 32-byte Spill
	vmovdqa	320(%rsp), %ymm9                # 32-byte Reload
	vpxor	%ymm5, %ymm9, %ymm1
	vpxor	%ymm1, %ymm14, %ymm4
	vpxor	%ymm4, %ymm2, %ymm2
	vmovdqa	%ymm10, %ymm5
	vpxor	32(%rdi,%r8), %ymm10, %ymm1
	vpxor	%ymm2, %ymm3, %ymm8
	vpxor	%ymm1, %ymm8, %ymm0
	vmovdqa	%ymm0, (%rsp)                   # 32-byte Spill
	vpxor	%ymm7, %ymm3, %ymm1
	vpxor	%ymm6, %ymm14, %ymm14
	vpxor	%ymm6, %ymm1, %ymm3
	vmovdqa	288(%rsp), %ymm10               # 32-byte Reload
	vpxor	%ymm10, %ymm11, %ymm6
	vpxor	64(%rdi,%r8), %ymm4, %ymm8
	vpxor	%ymm6, %ymm3, %ymm3
	vpxor	%ymm3, %ymm8, %ymm8
	vmovdqa	160(%rsp), %ymm0                # 32-byte Reload
	vpxor	352(%rsp), %ymm0, %ymm7         # 32-byte Folded Reload
	vpxor	%ymm7, %ymm15, %ymm15
	vpxor	%ymm6, %ymm15, %ymm3
	vpxor	%ymm2, %ymm3, %ymm2
	vpxor	96(%rdi,%r8), %ymm13, %ymm3
	vpxor	%ymm2, %ymm3, %ymm2
	vmovdqa	%ymm2, 32(%rsp)                 # 32-byte Spill
	vpxor	%ymm4, %ymm1, %ymm6
	vpxor	128(%rdi,%r8), %ymm0, %ymm2
	vpxor	%ymm6, %ymm11, %ymm4
	vpxor	%ymm4, %ymm2, %ymm4
	vpxor	%ymm9, %ymm14, %ymm2
	vpxor	%ymm2, %ymm15, %ymm2
	vmovdqa	%ymm5, %ymm3
	vpxor	448(%rsp), %ymm5, %ymm5         # 32-byte Folded Reload
	vpxor	%ymm1, %ymm2, %ymm0
	vpxor	160(%rdi,%r8), %ymm5, %ymm2
	vpxor	%ymm0, %ymm2, %ymm2
	vpxor	192(%rdi,%r8), %ymm5, %ymm0
	vpxor	384(%rsp), %ymm14, %ymm5        # 32-byte Folded Reload
	vpxor	%ymm7, %ymm5, %ymm1
	vpxor	256(%rsp), %ymm1, %ymm1         # 32-byte Folded Reload
	vpxor	%ymm1, %ymm12, %ymm1
	vpxor	%ymm1, %ymm0, %ymm0
	vpxor	224(%rdi,%r8), %ymm10, %ymm1
	vpxor	%ymm6, %ymm3, %ymm5
	vpxor	%ymm5, %ymm1, %ymm1
	vmovdqa	.Laes_v3_CPI33_2(%rip), %ymm13         # ymm13 = [6,7,4,5,10,11,8,9,14,15,12,13,2,3,0,1,22,23,20,21,26,27,24,25,30,31,28,29,18,19,16,17]
	vmovdqa	(%rsp), %ymm3                   # 32-byte Reload
	vpshufb	%ymm13, %ymm3, %ymm5
	vpshufb	%ymm13, %ymm8, %ymm6
	vpshufb	%ymm13, %ymm4, %ymm7
	vpshufb	%ymm13, %ymm2, %ymm9
	vpshufb	%ymm13, %ymm0, %ymm10
	vpshufb	%ymm13, %ymm1, %ymm12
	vpxor	%ymm3, %ymm5, %ymm15
	vpxor	%ymm6, %ymm8, %ymm14
	vpxor	%ymm4, %ymm7, %ymm3
	vpxor	%ymm2, %ymm9, %ymm11
	vpxor	%ymm0, %ymm10, %ymm9
	vpxor	%ymm1, %ymm12, %ymm10
	vpxor	%ymm8, %ymm15, %ymm6
	vmovdqa	%ymm6, 96(%rsp)                 # 32-byte Spill
	vpxor	%ymm2, %ymm3, %ymm7
	vmovdqa	%ymm7, 192(%rsp)                # 32-byte Spill
	vpxor	%ymm0, %ymm11, %ymm5
	vpxor	%ymm1, %ymm9, %ymm2
	vpxor	%ymm2, %ymm5, %ymm0
	vpxor	%ymm0, %ymm15, %ymm12
	vpxor	%ymm6, %ymm3, %ymm1
	vpxor	%ymm1, %ymm0, %ymm0
	vmovdqa	%ymm0, 256(%rsp)                # 32-byte Spill
	vmovdqa	128(%rsp), %ymm6                # 32-byte Reload
	vpshufb	%ymm13, %ymm6, %ymm0
	vmovdqa	32(%rsp), %ymm8                 # 32-byte Reload
	vpshufb	%ymm13, %ymm8, %ymm1
	vpxor	%ymm6, %ymm0, %ymm0
	vpxor	%ymm1, %ymm8, %ymm3
	vpxor	%ymm6, %ymm10, %ymm13
	vpxor	(%rsp), %ymm10, %ymm1           # 32-byte Folded Reload
	vpxor	%ymm1, %ymm0, %ymm15
	vpxor	%ymm8, %ymm10, %ymm1
	vpxor	%ymm1, %ymm14, %ymm6
	vpxor	%ymm4, %ymm10, %ymm4
	vpxor	%ymm3, %ymm4, %ymm8
	vpxor	%ymm0, %ymm5, %ymm0
	vpxor	%ymm13, %ymm14, %ymm4
	vpxor	%ymm2, %ymm4, %ymm14
	vpxor	%ymm3, %ymm15, %ymm3
	vpxor	%ymm5, %ymm3, %ymm1
	vpxor	%ymm2, %ymm11, %ymm3
	vpxor	%ymm6, %ymm3, %ymm11
	vpxor	%ymm9, %ymm8, %ymm9
	vpxor	%ymm7, %ymm10, %ymm10
	vpxor	%ymm0, %ymm13, %ymm3
	vpshufd	$78, %ymm0, %ymm0               # ymm0 = ymm0[2,3,0,1,6,7,4,5]
	vpxor	%ymm0, %ymm3, %ymm3
	vpshufd	$78, %ymm12, %ymm0              # ymm0 = ymm12[2,3,0,1,6,7,4,5]
	vpxor	%ymm12, %ymm15, %ymm4
	vpshufd	$78, %ymm14, %ymm12             # ymm12 = ymm14[2,3,0,1,6,7,4,5]
	vpxor	%ymm0, %ymm4, %ymm4
	vpshufd	$78, %ymm1, %ymm13              # ymm13 = ymm1[2,3,0,1,6,7,4,5]
	vpxor	96(%rsp), %ymm14, %ymm0         # 32-byte Folded Reload
	vmovdqa	256(%rsp), %ymm15               # 32-byte Reload
	vpshufd	$78, %ymm15, %ymm14             # ymm14 = ymm15[2,3,0,1,6,7,4,5]
	vpxor	%ymm0, %ymm12, %ymm0
	vmovdqa	%ymm0, 64(%rsp)                 # 32-byte Spill
	vpshufd	$78, %ymm11, %ymm12             # ymm12 = ymm11[2,3,0,1,6,7,4,5]
	vpxor	%ymm1, %ymm6, %ymm1
	vpshufd	$78, %ymm9, %ymm6               # ymm6 = ymm9[2,3,0,1,6,7,4,5]
	vpxor	%ymm1, %ymm13, %ymm7
	vpshufd	$78, %ymm10, %ymm1              # ymm1 = ymm10[2,3,0,1,6,7,4,5]
	vpxor	%ymm15, %ymm8, %ymm8
	vpxor	%ymm14, %ymm8, %ymm15
	vpxor	192(%rsp), %ymm11, %ymm8        # 32-byte Folded Reload
	vpxor	%ymm12, %ymm8, %ymm11
	vpxor	%ymm5, %ymm9, %ymm5
	vpxor	%ymm6, %ymm5, %ymm6
	vpxor	%ymm1, %ymm10, %ymm1
	vpxor	%ymm2, %ymm1, %ymm13
	vpxor	%ymm3, %ymm4, %ymm12
	vpxor	%ymm6, %ymm15, %ymm10
	vpxor	%ymm7, %ymm11, %ymm2
	vpxor	%ymm6, %ymm4, %ymm8
	vpxor	%ymm2, %ymm8, %ymm0
	vmovdqa	%ymm0, 320(%rsp)                # 32-byte Spill
	vpxor	%ymm7, %ymm15, %ymm5
	vpxor	%ymm5, %ymm12, %ymm1
	vmovdqa	%ymm1, 352(%rsp)                # 32-byte Spill
	vpor	%ymm0, %ymm1, %ymm9
	vpxor	%ymm3, %ymm5, %ymm0
	vmovdqa	%ymm0, 32(%rsp)                 # 32-byte Spill
	vpand	%ymm0, %ymm10, %ymm14
	vpxor	%ymm9, %ymm14, %ymm0
	vmovdqa	%ymm0, 224(%rsp)                # 32-byte Spill
	vpxor	%ymm13, %ymm15, %ymm0
	vmovdqa	%ymm0, 288(%rsp)                # 32-byte Spill
	vpxor	%ymm6, %ymm13, %ymm9
	vmovdqa	%ymm9, (%rsp)                   # 32-byte Spill
	vpxor	%ymm6, %ymm0, %ymm15
	vpxor	%ymm3, %ymm7, %ymm1
	vpxor	%ymm7, %ymm15, %ymm0
	vmovdqa	%ymm0, 128(%rsp)                # 32-byte Spill
	vmovdqa	64(%rsp), %ymm7                 # 32-byte Reload
	vpxor	%ymm4, %ymm7, %ymm2
	vpxor	%ymm2, %ymm5, %ymm6
	vmovdqa	%ymm6, 96(%rsp)                 # 32-byte Spill
	vpxor	%ymm1, %ymm9, %ymm4
	vpxor	%ymm4, %ymm6, %ymm3
	vpand	%ymm5, %ymm3, %ymm3
	vpand	%ymm6, %ymm0, %ymm6
	vpxor	%ymm6, %ymm3, %ymm6
	vpand	%ymm4, %ymm9, %ymm14
	vmovdqa	%ymm4, 256(%rsp)                # 32-byte Spill
	vpxor	%ymm3, %ymm14, %ymm14
	vpxor	%ymm7, %ymm11, %ymm0
	vpxor	%ymm0, %ymm13, %ymm3
	vmovdqa	%ymm3, 160(%rsp)                # 32-byte Spill
	vpxor	%ymm1, %ymm8, %ymm13
	vmovdqa	%ymm10, 416(%rsp)               # 32-byte Spill
	vpxor	%ymm12, %ymm10, %ymm7
	vpand	%ymm3, %ymm7, %ymm8
	vpxor	%ymm1, %ymm8, %ymm1
	vpxor	%ymm9, %ymm12, %ymm3
	vmovdqa	%ymm3, 64(%rsp)                 # 32-byte Spill
	vpxor	%ymm0, %ymm10, %ymm0
	vmovdqa	%ymm0, 192(%rsp)                # 32-byte Spill
	vpand	%ymm3, %ymm0, %ymm0
	vpxor	%ymm0, %ymm1, %ymm8
	vpxor	%ymm4, %ymm2, %ymm2
	vmovdqa	%ymm2, 448(%rsp)                # 32-byte Spill
	vmovdqa	288(%rsp), %ymm10               # 32-byte Reload
	vpand	%ymm10, %ymm15, %ymm1
	vpxor	%ymm1, %ymm2, %ymm1
	vpxor	%ymm0, %ymm1, %ymm0
	vpxor	224(%rsp), %ymm6, %ymm3         # 32-byte Folded Reload
	vpxor	%ymm6, %ymm0, %ymm0
	vmovdqa	320(%rsp), %ymm9                # 32-byte Reload
	vmovdqa	352(%rsp), %ymm4                # 32-byte Reload
	vpand	%ymm4, %ymm9, %ymm2
	vpxor	%ymm2, %ymm11, %ymm2
	vpxor	%ymm7, %ymm11, %ymm11
	vpand	%ymm13, %ymm11, %ymm6
	vpxor	%ymm6, %ymm2, %ymm2
	vpxor	%ymm14, %ymm8, %ymm6
	vpxor	%ymm5, %ymm2, %ymm2
	vpxor	%ymm2, %ymm14, %ymm2
	vpand	%ymm3, %ymm0, %ymm14
	vpxor	%ymm6, %ymm0, %ymm8
	vpand	%ymm2, %ymm0, %ymm0
	vpand	%ymm0, %ymm8, %ymm0
	vpxor	%ymm2, %ymm14, %ymm12
	vpand	%ymm8, %ymm12, %ymm12
	vpxor	%ymm8, %ymm14, %ymm8
	vpxor	%ymm0, %ymm8, %ymm0
	vpxor	%ymm6, %ymm14, %ymm8
	vpxor	%ymm3, %ymm2, %ymm1
	vpand	%ymm1, %ymm8, %ymm8
	vpxor	%ymm2, %ymm8, %ymm2
	vpxor	%ymm6, %ymm12, %ymm12
	vpxor	%ymm0, %ymm12, %ymm8
	vpand	%ymm4, %ymm8, %ymm4
	vpand	%ymm9, %ymm8, %ymm8
	vpand	%ymm3, %ymm6, %ymm3
	vpand	%ymm1, %ymm3, %ymm3
	vpxor	%ymm1, %ymm14, %ymm1
	vpxor	%ymm3, %ymm1, %ymm1
	vpand	%ymm13, %ymm12, %ymm9
	vpand	%ymm11, %ymm12, %ymm6
	vpxor	%ymm2, %ymm12, %ymm12
	vpand	416(%rsp), %ymm0, %ymm11        # 32-byte Folded Reload
	vmovdqa	%ymm11, 352(%rsp)               # 32-byte Spill
	vpand	160(%rsp), %ymm2, %ymm14        # 32-byte Folded Reload
	vpand	%ymm7, %ymm2, %ymm3
	vmovdqa	%ymm3, 160(%rsp)                # 32-byte Spill
	vpand	32(%rsp), %ymm0, %ymm13         # 32-byte Folded Reload
	vpxor	%ymm1, %ymm0, %ymm3
	vpand	%ymm1, %ymm10, %ymm0
	vmovdqa	%ymm0, 416(%rsp)                # 32-byte Spill
	vpxor	%ymm1, %ymm2, %ymm2
	vpand	%ymm1, %ymm15, %ymm1
	vpand	192(%rsp), %ymm2, %ymm0         # 32-byte Folded Reload
	vpand	64(%rsp), %ymm2, %ymm2          # 32-byte Folded Reload
	vmovdqa	%ymm2, 32(%rsp)                 # 32-byte Spill
	vpand	%ymm5, %ymm12, %ymm2
	vmovdqa	%ymm2, 64(%rsp)                 # 32-byte Spill
	vpand	448(%rsp), %ymm12, %ymm2        # 32-byte Folded Reload
	vpxor	%ymm3, %ymm12, %ymm12
	vpand	96(%rsp), %ymm12, %ymm15        # 32-byte Folded Reload
	vpxor	%ymm13, %ymm15, %ymm15
	vpxor	%ymm1, %ymm13, %ymm13
	vpand	128(%rsp), %ymm12, %ymm1        # 32-byte Folded Reload
	vpxor	%ymm9, %ymm8, %ymm9
	vpxor	%ymm4, %ymm11, %ymm12
	vmovdqa	%ymm4, %ymm5
	vpxor	%ymm2, %ymm12, %ymm12
	vpand	256(%rsp), %ymm3, %ymm10        # 32-byte Folded Reload
	vpxor	%ymm6, %ymm8, %ymm4
	vpxor	%ymm6, %ymm0, %ymm6
	vpxor	%ymm12, %ymm15, %ymm15
	vpxor	%ymm0, %ymm14, %ymm0
	vpxor	%ymm1, %ymm8, %ymm8
	vpxor	%ymm1, %ymm10, %ymm11
	vpxor	%ymm12, %ymm11, %ymm1
	vpxor	%ymm6, %ymm13, %ymm12
	vpxor	%ymm1, %ymm12, %ymm7
	vpxor	%ymm1, %ymm0, %ymm12
	vpxor	%ymm1, %ymm4, %ymm1
	vpxor	416(%rsp), %ymm14, %ymm4        # 32-byte Folded Reload
	vpxor	%ymm2, %ymm13, %ymm0
	vpxor	%ymm0, %ymm9, %ymm2
	vmovdqa	160(%rsp), %ymm0                # 32-byte Reload
	vpxor	64(%rsp), %ymm0, %ymm9          # 32-byte Folded Reload
	vpxor	%ymm0, %ymm4, %ymm0
	vpxor	%ymm0, %ymm5, %ymm5
	vpxor	%ymm5, %ymm2, %ymm5
	vpxor	%ymm5, %ymm11, %ymm5
	vmovdqa	%ymm12, %ymm11
	vmovdqa	%ymm7, %ymm12
	vpand	(%rsp), %ymm3, %ymm3            # 32-byte Folded Reload
	vpxor	32(%rsp), %ymm3, %ymm7          # 32-byte Folded Reload
	vpxor	%ymm3, %ymm6, %ymm3
	vpxor	%ymm0, %ymm3, %ymm3
	vpxor	%ymm15, %ymm8, %ymm0
	vpxor	%ymm3, %ymm15, %ymm6
	vpxor	352(%rsp), %ymm4, %ymm3         # 32-byte Folded Reload
	vpxor	%ymm3, %ymm10, %ymm3
	vpxor	%ymm3, %ymm2, %ymm2
	vpxor	%ymm7, %ymm9, %ymm4
	vpxor	%ymm7, %ymm2, %ymm7
	jmp	.Laes_v3_BB33_3
.Laes_v3_BB33_2:                               # %else.4
	vpsrld	$16, %ymm4, %ymm1
	vpxor	%ymm4, %ymm1, %ymm1
	vpxor	%xmm8, %xmm8, %xmm8
	vpblendw	$68, %ymm1, %ymm8, %ymm1        # ymm1 = ymm8[0,1],ymm1[2],ymm8[3,4,5],ymm1[6],ymm8[7,8,9],ymm1[10],ymm8[11,12,13],ymm1[14],ymm8[15]
	vpslldq	$2, %ymm1, %ymm2                # ymm2 = zero,zero,ymm1[0,1,2,3,4,5,6,7,8,9,10,11,12,13],zero,zero,ymm1[16,17,18,19,20,21,22,23,24,25,26,27,28,29]
	vpxor	%ymm1, %ymm4, %ymm1
	vpxor	%ymm2, %ymm1, %ymm4
	vpsrld	$16, %ymm0, %ymm1
	vpxor	%ymm0, %ymm1, %ymm1
	vpblendw	$68, %ymm1, %ymm8, %ymm1        # ymm1 = ymm8[0,1],ymm1[2],ymm8[3,4,5],ymm1[6],ymm8[7,8,9],ymm1[10],ymm8[11,12,13],ymm1[14],ymm8[15]
	vpslldq	$2, %ymm1, %ymm2                # ymm2 = zero,zero,ymm1[0,1,2,3,4,5,6,7,8,9,10,11,12,13],zero,zero,ymm1[16,17,18,19,20,21,22,23,24,25,26,27,28,29]
	vpxor	%ymm1, %ymm0, %ymm0
	vpxor	%ymm2, %ymm0, %ymm0
	vpsrld	$16, %ymm10, %ymm1
	vpxor	%ymm1, %ymm10, %ymm1
	vpblendw	$68, %ymm1, %ymm8, %ymm1        # ymm1 = ymm8[0,1],ymm1[2],ymm8[3,4,5],ymm1[6],ymm8[7,8,9],ymm1[10],ymm8[11,12,13],ymm1[14],ymm8[15]
	vpslldq	$2, %ymm1, %ymm2                # ymm2 = zero,zero,ymm1[0,1,2,3,4,5,6,7,8,9,10,11,12,13],zero,zero,ymm1[16,17,18,19,20,21,22,23,24,25,26,27,28,29]
	vpxor	%ymm1, %ymm10, %ymm1
	vpxor	%ymm2, %ymm1, %ymm12
	vpsrld	$16, %ymm6, %ymm1
	vpxor	%ymm6, %ymm1, %ymm1
	vpblendw	$68, %ymm1, %ymm8, %ymm1        # ymm1 = ymm8[0,1],ymm1[2],ymm8[3,4,5],ymm1[6],ymm8[7,8,9],ymm1[10],ymm8[11,12,13],ymm1[14],ymm8[15]
	vpslldq	$2, %ymm1, %ymm2                # ymm2 = zero,zero,ymm1[0,1,2,3,4,5,6,7,8,9,10,11,12,13],zero,zero,ymm1[16,17,18,19,20,21,22,23,24,25,26,27,28,29]
	vpxor	%ymm1, %ymm6, %ymm1
	vpxor	%ymm2, %ymm1, %ymm6
	vpsrld	$16, %ymm14, %ymm1
	vpxor	%ymm1, %ymm14, %ymm1
	vpblendw	$68, %ymm1, %ymm8, %ymm1        # ymm1 = ymm8[0,1],ymm1[2],ymm8[3,4,5],ymm1[6],ymm8[7,8,9],ymm1[10],ymm8[11,12,13],ymm1[14],ymm8[15]
	vpslldq	$2, %ymm1, %ymm2                # ymm2 = zero,zero,ymm1[0,1,2,3,4,5,6,7,8,9,10,11,12,13],zero,zero,ymm1[16,17,18,19,20,21,22,23,24,25,26,27,28,29]
	vpxor	%ymm1, %ymm14, %ymm1
	vpxor	%ymm2, %ymm1, %ymm11
	vpsrld	$16, %ymm5, %ymm1
	vpxor	%ymm5, %ymm1, %ymm1
	vpblendw	$68, %ymm1, %ymm8, %ymm1        # ymm1 = ymm8[0,1],ymm1[2],ymm8[3,4,5],ymm1[6],ymm8[7,8,9],ymm1[10],ymm8[11,12,13],ymm1[14],ymm8[15]
	vpslldq	$2, %ymm1, %ymm2                # ymm2 = zero,zero,ymm1[0,1,2,3,4,5,6,7,8,9,10,11,12,13],zero,zero,ymm1[16,17,18,19,20,21,22,23,24,25,26,27,28,29]
	vpxor	%ymm1, %ymm5, %ymm1
	vpxor	%ymm2, %ymm1, %ymm5
	vpsrld	$16, %ymm7, %ymm1
	vpxor	%ymm7, %ymm1, %ymm1
	vpblendw	$68, %ymm1, %ymm8, %ymm1        # ymm1 = ymm8[0,1],ymm1[2],ymm8[3,4,5],ymm1[6],ymm8[7,8,9],ymm1[10],ymm8[11,12,13],ymm1[14],ymm8[15]
	vpslldq	$2, %ymm1, %ymm2                # ymm2 = zero,zero,ymm1[0,1,2,3,4,5,6,7,8,9,10,11,12,13],zero,zero,ymm1[16,17,18,19,20,21,22,23,24,25,26,27,28,29]
	vpxor	%ymm1, %ymm7, %ymm1
	vpxor	%ymm2, %ymm1, %ymm7
	vmovdqa	(%rsp), %ymm3                   # 32-byte Reload
	vpsrld	$16, %ymm3, %ymm1
	vpxor	%ymm3, %ymm1, %ymm1
	vpblendw	$68, %ymm1, %ymm8, %ymm1        # ymm1 = ymm8[0,1],ymm1[2],ymm8[3,4,5],ymm1[6],ymm8[7,8,9],ymm1[10],ymm8[11,12,13],ymm1[14],ymm8[15]
	vpslldq	$2, %ymm1, %ymm2                # ymm2 = zero,zero,ymm1[0,1,2,3,4,5,6,7,8,9,10,11,12,13],zero,zero,ymm1[16,17,18,19,20,21,22,23,24,25,26,27,28,29]
	vpxor	%ymm1, %ymm3, %ymm1
	vpxor	%ymm2, %ymm1, %ymm1
.Laes_v3_BB33_3:                               # %join.5
	shlq	$8, %rcx
	vpxor	256(%rdi,%rcx), %ymm4, %ymm2
	vmovdqa	%ymm2, 32(%rsp)                 # 32-byte Spill
	vpxor	288(%rdi,%rcx), %ymm0, %ymm10
	vpxor	320(%rdi,%rcx), %ymm12, %ymm2
	vpxor	352(%rdi,%rcx), %ymm6, %ymm12
	vpxor	384(%rdi,%rcx), %ymm11, %ymm8
	vpxor	416(%rdi,%rcx), %ymm5, %ymm3
	vpxor	448(%rdi,%rcx), %ymm7, %ymm11
	vpxor	480(%rdi,%rcx), %ymm1, %ymm4
	vbroadcasti128	.Laes_v3_CPI33_5(%rip), %ymm0  # ymm0 = [5,6,7,4,9,10,11,8,13,14,15,12,1,2,3,0,5,6,7,4,9,10,11,8,13,14,15,12,1,2,3,0]
                                        # ymm0 = mem[0,1,0,1]
	vpshufb	%ymm0, %ymm10, %ymm1
	vpshufb	%ymm0, %ymm2, %ymm5
	vpshufb	%ymm0, %ymm8, %ymm6
	vmovdqa	%ymm8, (%rsp)                   # 32-byte Spill
	vpshufb	%ymm0, %ymm3, %ymm7
	vpshufb	%ymm0, %ymm11, %ymm9
	vpshufb	%ymm0, %ymm4, %ymm13
	vpxor	%ymm1, %ymm10, %ymm14
	vpxor	%ymm2, %ymm5, %ymm5
	vpxor	%ymm6, %ymm8, %ymm15
	vpxor	%ymm3, %ymm7, %ymm7
	vpxor	%ymm11, %ymm9, %ymm1
	vpxor	%ymm4, %ymm13, %ymm6
	vpxor	%ymm2, %ymm14, %ymm9
	vpxor	%ymm3, %ymm15, %ymm2
	vmovdqa	%ymm2, 128(%rsp)                # 32-byte Spill
	vpxor	%ymm7, %ymm11, %ymm2
	vpxor	%ymm4, %ymm1, %ymm8
	vpxor	%ymm2, %ymm8, %ymm11
	vpxor	%ymm14, %ymm11, %ymm13
	vpxor	%ymm15, %ymm9, %ymm14
	vmovdqa	%ymm9, %ymm4
	vpxor	%ymm14, %ymm11, %ymm11
	vmovdqa	32(%rsp), %ymm3                 # 32-byte Reload
	vpshufb	%ymm0, %ymm3, %ymm14
	vpxor	%ymm3, %ymm14, %ymm14
	vpshufb	%ymm0, %ymm12, %ymm15
	vpxor	%ymm12, %ymm15, %ymm15
	vpxor	%ymm3, %ymm6, %ymm9
	vpxor	%ymm10, %ymm14, %ymm10
	vpxor	%ymm5, %ymm12, %ymm12
	vpxor	%ymm2, %ymm14, %ymm14
	vpxor	%ymm5, %ymm8, %ymm5
	vpxor	%ymm5, %ymm9, %ymm3
	vpxor	%ymm9, %ymm14, %ymm5
	vmovdqa	.Laes_v3_CPI33_1(%rip), %ymm0          # ymm0 = [10,11,8,9,14,15,12,13,2,3,0,1,6,7,4,5,26,27,24,25,30,31,28,29,18,19,16,17,22,23,20,21]
	vpshufb	%ymm0, %ymm14, %ymm9
	vpxor	%ymm5, %ymm9, %ymm5
	vpxor	%ymm6, %ymm10, %ymm9
	vpxor	(%rsp), %ymm15, %ymm10          # 32-byte Folded Reload
	vpxor	%ymm2, %ymm15, %ymm14
	vpxor	%ymm9, %ymm14, %ymm15
	vpxor	%ymm13, %ymm9, %ymm9
	vpshufb	%ymm0, %ymm13, %ymm13
	vpxor	%ymm13, %ymm9, %ymm14
	vpxor	%ymm6, %ymm12, %ymm9
	vpxor	%ymm6, %ymm10, %ymm10
	vpxor	%ymm7, %ymm8, %ymm7
	vpxor	%ymm7, %ymm9, %ymm7
	vpxor	%ymm1, %ymm10, %ymm12
	vmovdqa	128(%rsp), %ymm1                # 32-byte Reload
	vpxor	%ymm1, %ymm6, %ymm13
	vpxor	%ymm3, %ymm4, %ymm4
	vpshufb	%ymm0, %ymm3, %ymm3
	vpxor	%ymm3, %ymm4, %ymm3
	vmovdqa	%ymm3, 64(%rsp)                 # 32-byte Spill
	vpshufb	%ymm0, %ymm15, %ymm3
	vpxor	%ymm15, %ymm9, %ymm4
	vpshufb	%ymm0, %ymm11, %ymm9
	vpxor	%ymm3, %ymm4, %ymm6
	vpshufb	%ymm0, %ymm7, %ymm3
	vpxor	%ymm11, %ymm10, %ymm4
	vpshufb	%ymm0, %ymm12, %ymm10
	vpxor	%ymm4, %ymm9, %ymm4
	vpshufb	%ymm0, %ymm13, %ymm9
	vpxor	%ymm7, %ymm1, %ymm7
	vpxor	%ymm3, %ymm7, %ymm3
	vmovdqa	%ymm3, 384(%rsp)                # 32-byte Spill
	vpxor	%ymm2, %ymm12, %ymm2
	vpxor	%ymm2, %ymm10, %ymm2
	vpxor	%ymm13, %ymm8, %ymm0
	vpxor	%ymm0, %ymm9, %ymm8
	vpxor	%ymm5, %ymm14, %ymm15
	vpxor	%ymm2, %ymm4, %ymm1
	vmovdqa	%ymm1, (%rsp)                   # 32-byte Spill
	vpxor	%ymm6, %ymm3, %ymm3
	vpxor	%ymm2, %ymm14, %ymm13
	vpxor	%ymm3, %ymm13, %ymm0
	vmovdqa	%ymm0, 288(%rsp)                # 32-byte Spill
	vpxor	%ymm4, %ymm6, %ymm12
	vpxor	%ymm15, %ymm12, %ymm3
	vmovdqa	%ymm3, 224(%rsp)                # 32-byte Spill
	vpor	%ymm0, %ymm3, %ymm9
	vpxor	%ymm5, %ymm12, %ymm0
	vmovdqa	%ymm0, 96(%rsp)                 # 32-byte Spill
	vpand	%ymm1, %ymm0, %ymm11
	vpxor	%ymm9, %ymm11, %ymm0
	vmovdqa	%ymm0, 480(%rsp)                # 32-byte Spill
	vpxor	%ymm4, %ymm8, %ymm11
	vpxor	%ymm2, %ymm8, %ymm3
	vmovdqa	%ymm3, 128(%rsp)                # 32-byte Spill
	vpxor	%ymm2, %ymm11, %ymm7
	vmovdqa	%ymm11, 320(%rsp)               # 32-byte Spill
	vpxor	%ymm5, %ymm6, %ymm2
	vpxor	%ymm6, %ymm7, %ymm0
	vmovdqa	%ymm0, 32(%rsp)                 # 32-byte Spill
	vmovdqa	%ymm7, 416(%rsp)                # 32-byte Spill
	vmovdqa	64(%rsp), %ymm1                 # 32-byte Reload
	vpxor	%ymm1, %ymm14, %ymm5
	vpxor	%ymm5, %ymm12, %ymm6
	vmovdqa	%ymm6, 256(%rsp)                # 32-byte Spill
	vpxor	%ymm3, %ymm2, %ymm10
	vpxor	%ymm6, %ymm10, %ymm4
	vpand	%ymm4, %ymm12, %ymm4
	vpand	%ymm6, %ymm0, %ymm9
	vpxor	%ymm4, %ymm9, %ymm9
	vpand	%ymm3, %ymm10, %ymm14
	vmovdqa	%ymm10, 352(%rsp)               # 32-byte Spill
	vpxor	%ymm4, %ymm14, %ymm14
	vmovdqa	384(%rsp), %ymm4                # 32-byte Reload
	vpxor	%ymm1, %ymm4, %ymm0
	vpxor	%ymm0, %ymm8, %ymm1
	vmovdqa	%ymm1, 160(%rsp)                # 32-byte Spill
	vpxor	%ymm2, %ymm13, %ymm6
	vmovdqa	(%rsp), %ymm13                  # 32-byte Reload
	vpxor	%ymm15, %ymm13, %ymm8
	vpand	%ymm1, %ymm8, %ymm1
	vpxor	%ymm1, %ymm2, %ymm1
	vpxor	%ymm3, %ymm15, %ymm2
	vmovdqa	%ymm2, 64(%rsp)                 # 32-byte Spill
	vpxor	%ymm0, %ymm13, %ymm0
	vmovdqa	%ymm0, 192(%rsp)                # 32-byte Spill
	vpand	%ymm2, %ymm0, %ymm0
	vpxor	%ymm0, %ymm1, %ymm2
	vpxor	%ymm5, %ymm10, %ymm3
	vmovdqa	%ymm3, 448(%rsp)                # 32-byte Spill
	vpand	%ymm7, %ymm11, %ymm1
	vpxor	%ymm1, %ymm3, %ymm1
	vpxor	%ymm0, %ymm1, %ymm0
	vpxor	480(%rsp), %ymm9, %ymm3         # 32-byte Folded Reload
	vpxor	%ymm0, %ymm9, %ymm0
	vmovdqa	288(%rsp), %ymm7                # 32-byte Reload
	vmovdqa	224(%rsp), %ymm10               # 32-byte Reload
	vpand	%ymm7, %ymm10, %ymm5
	vpxor	%ymm4, %ymm5, %ymm5
	vpxor	%ymm4, %ymm8, %ymm13
	vmovdqa	%ymm8, %ymm11
	vpand	%ymm6, %ymm13, %ymm9
	vpxor	%ymm5, %ymm9, %ymm5
	vpxor	%ymm2, %ymm14, %ymm2
	vpxor	%ymm5, %ymm12, %ymm5
	vpxor	%ymm5, %ymm14, %ymm5
	vpand	%ymm3, %ymm0, %ymm9
	vpxor	%ymm2, %ymm0, %ymm14
	vpand	%ymm5, %ymm0, %ymm0
	vpand	%ymm0, %ymm14, %ymm0
	vpxor	%ymm5, %ymm9, %ymm15
	vpand	%ymm14, %ymm15, %ymm15
	vpxor	%ymm14, %ymm9, %ymm14
	vpxor	%ymm0, %ymm14, %ymm4
	vpxor	%ymm2, %ymm9, %ymm14
	vpxor	%ymm5, %ymm3, %ymm1
	vpand	%ymm1, %ymm14, %ymm14
	vpxor	%ymm5, %ymm14, %ymm5
	vpxor	%ymm2, %ymm15, %ymm15
	vpxor	%ymm4, %ymm15, %ymm14
	vpand	%ymm10, %ymm14, %ymm10
	vpand	%ymm7, %ymm14, %ymm14
	vpand	%ymm3, %ymm2, %ymm2
	vpand	%ymm1, %ymm2, %ymm2
	vpxor	%ymm1, %ymm9, %ymm1
	vpxor	%ymm2, %ymm1, %ymm3
	vpand	%ymm6, %ymm15, %ymm8
	vpand	%ymm13, %ymm15, %ymm2
	vpxor	%ymm5, %ymm15, %ymm0
	vpand	(%rsp), %ymm4, %ymm13           # 32-byte Folded Reload
	vmovdqa	%ymm13, 224(%rsp)               # 32-byte Spill
	vpand	160(%rsp), %ymm5, %ymm9         # 32-byte Folded Reload
	vpand	%ymm5, %ymm11, %ymm1
	vmovdqa	%ymm1, (%rsp)                   # 32-byte Spill
	vpand	96(%rsp), %ymm4, %ymm6          # 32-byte Folded Reload
	vpxor	%ymm3, %ymm4, %ymm7
	vpand	320(%rsp), %ymm3, %ymm1         # 32-byte Folded Reload
	vmovdqa	%ymm1, 160(%rsp)                # 32-byte Spill
	vpxor	%ymm3, %ymm5, %ymm4
	vpand	416(%rsp), %ymm3, %ymm3         # 32-byte Folded Reload
	vpand	192(%rsp), %ymm4, %ymm1         # 32-byte Folded Reload
	vpand	64(%rsp), %ymm4, %ymm4          # 32-byte Folded Reload
	vmovdqa	%ymm4, 96(%rsp)                 # 32-byte Spill
	vpand	%ymm0, %ymm12, %ymm4
	vmovdqa	%ymm4, 64(%rsp)                 # 32-byte Spill
	vpand	448(%rsp), %ymm0, %ymm5         # 32-byte Folded Reload
	vpxor	%ymm7, %ymm0, %ymm0
	vpand	256(%rsp), %ymm0, %ymm4         # 32-byte Folded Reload
	vpxor	%ymm6, %ymm4, %ymm4
	vpxor	%ymm6, %ymm3, %ymm6
	vpand	32(%rsp), %ymm0, %ymm0          # 32-byte Folded Reload
	vpxor	%ymm8, %ymm14, %ymm12
	vpxor	%ymm13, %ymm10, %ymm3
	vpxor	%ymm5, %ymm3, %ymm3
	vpand	352(%rsp), %ymm7, %ymm11        # 32-byte Folded Reload
	vpxor	%ymm2, %ymm14, %ymm8
	vpxor	%ymm2, %ymm1, %ymm15
	vpxor	%ymm3, %ymm4, %ymm2
	vpxor	%ymm1, %ymm9, %ymm4
	vpxor	%ymm0, %ymm14, %ymm14
	vpxor	%ymm0, %ymm11, %ymm1
	vpxor	%ymm3, %ymm1, %ymm3
	vpxor	%ymm6, %ymm15, %ymm0
	vpxor	%ymm0, %ymm3, %ymm0
	vpxor	%ymm3, %ymm4, %ymm4
	vpxor	%ymm3, %ymm8, %ymm13
	vpxor	160(%rsp), %ymm9, %ymm8         # 32-byte Folded Reload
	vpxor	%ymm5, %ymm6, %ymm5
	vpxor	%ymm5, %ymm12, %ymm5
	vmovdqa	(%rsp), %ymm3                   # 32-byte Reload
	vpxor	64(%rsp), %ymm3, %ymm9          # 32-byte Folded Reload
	vpxor	%ymm3, %ymm8, %ymm12
	vpxor	%ymm12, %ymm10, %ymm6
	vpxor	%ymm6, %ymm5, %ymm6
	vpxor	%ymm1, %ymm6, %ymm6
	vpand	128(%rsp), %ymm7, %ymm1         # 32-byte Folded Reload
	vpxor	96(%rsp), %ymm1, %ymm3          # 32-byte Folded Reload
	vpxor	%ymm1, %ymm15, %ymm1
	vpxor	%ymm1, %ymm12, %ymm1
	vpxor	%ymm2, %ymm14, %ymm7
	vpxor	%ymm2, %ymm1, %ymm2
	vpxor	224(%rsp), %ymm8, %ymm1         # 32-byte Folded Reload
	vpxor	%ymm1, %ymm11, %ymm1
	vpxor	%ymm1, %ymm5, %ymm1
	vpxor	%ymm3, %ymm9, %ymm9
	vpxor	%ymm3, %ymm1, %ymm8
	testq	%rax, %rax
	je	.Laes_v3_BB33_4
# %bb.5:                                # %join.10.preheader
	movq	%rax, %rcx
	shlq	$10, %rcx
	addq	%rdi, %rcx
	vmovdqa	%ymm0, %ymm10
	.p2align	4
.Laes_v3_BB33_6:                               # %join.10
                                        # =>This Inner Loop Header: Depth=1
	vpxor	(%rcx), %ymm9, %ymm11
	vpxor	32(%rcx), %ymm7, %ymm7
	vpxor	64(%rcx), %ymm10, %ymm3
	vpxor	96(%rcx), %ymm2, %ymm9
	vpxor	128(%rcx), %ymm4, %ymm14
	vpxor	160(%rcx), %ymm6, %ymm2
	vpxor	192(%rcx), %ymm8, %ymm8
	vpxor	224(%rcx), %ymm13, %ymm12
	vpshufd	$57, %ymm11, %ymm0              # ymm0 = ymm11[1,2,3,0,5,6,7,4]
	vmovdqa	%ymm0, (%rsp)                   # 32-byte Spill
	vpshufd	$57, %ymm7, %ymm1               # ymm1 = ymm7[1,2,3,0,5,6,7,4]
	vpshufd	$57, %ymm3, %ymm0               # ymm0 = ymm3[1,2,3,0,5,6,7,4]
	vpshufd	$57, %ymm14, %ymm6              # ymm6 = ymm14[1,2,3,0,5,6,7,4]
	vpshufd	$57, %ymm2, %ymm10              # ymm10 = ymm2[1,2,3,0,5,6,7,4]
	vpshufd	$57, %ymm8, %ymm15              # ymm15 = ymm8[1,2,3,0,5,6,7,4]
	vpshufd	$57, %ymm12, %ymm4              # ymm4 = ymm12[1,2,3,0,5,6,7,4]
	vpxor	%ymm7, %ymm1, %ymm1
	vpxor	%ymm3, %ymm0, %ymm13
	vpxor	%ymm6, %ymm14, %ymm5
	vpxor	%ymm2, %ymm10, %ymm6
	vmovdqa	%ymm6, 96(%rsp)                 # 32-byte Spill
	vpxor	%ymm8, %ymm15, %ymm0
	vpxor	%ymm4, %ymm12, %ymm10
	vpxor	%ymm3, %ymm1, %ymm3
	vmovdqa	%ymm3, 128(%rsp)                # 32-byte Spill
	vpxor	%ymm2, %ymm5, %ymm15
	vpxor	%ymm6, %ymm8, %ymm2
	vpxor	%ymm0, %ymm12, %ymm6
	vpxor	%ymm2, %ymm6, %ymm4
	vpxor	%ymm1, %ymm4, %ymm12
	vpxor	%ymm5, %ymm3, %ymm1
	vpxor	%ymm1, %ymm4, %ymm1
	vmovdqa	%ymm1, 32(%rsp)                 # 32-byte Spill
	vpshufd	$57, %ymm9, %ymm1               # ymm1 = ymm9[1,2,3,0,5,6,7,4]
	vpxor	(%rsp), %ymm11, %ymm3           # 32-byte Folded Reload
	vpxor	%ymm1, %ymm9, %ymm1
	vpxor	%ymm11, %ymm10, %ymm5
	vpxor	%ymm7, %ymm3, %ymm4
	vpxor	%ymm4, %ymm10, %ymm7
	vpxor	%ymm9, %ymm13, %ymm4
	vpxor	%ymm4, %ymm10, %ymm9
	vpxor	%ymm1, %ymm14, %ymm4
	vpxor	%ymm4, %ymm10, %ymm8
	vpxor	%ymm3, %ymm2, %ymm3
	vpxor	%ymm6, %ymm13, %ymm11
	vpxor	%ymm5, %ymm11, %ymm11
	vpxor	%ymm1, %ymm2, %ymm1
	vpxor	%ymm7, %ymm1, %ymm14
	vpxor	96(%rsp), %ymm6, %ymm1          # 32-byte Folded Reload
	vpxor	%ymm1, %ymm9, %ymm1
	vpxor	%ymm0, %ymm8, %ymm4
	vpxor	%ymm15, %ymm10, %ymm13
	vmovdqa	%ymm15, %ymm0
	vpxor	%ymm5, %ymm3, %ymm5
	vpshufd	$78, %ymm3, %ymm3               # ymm3 = ymm3[2,3,0,1,6,7,4,5]
	vpxor	%ymm5, %ymm3, %ymm15
	vpshufd	$78, %ymm12, %ymm3              # ymm3 = ymm12[2,3,0,1,6,7,4,5]
	vpxor	%ymm7, %ymm12, %ymm5
	vpshufd	$78, %ymm11, %ymm10             # ymm10 = ymm11[2,3,0,1,6,7,4,5]
	vpxor	%ymm3, %ymm5, %ymm7
	vpshufd	$78, %ymm14, %ymm3              # ymm3 = ymm14[2,3,0,1,6,7,4,5]
	vpxor	128(%rsp), %ymm11, %ymm5        # 32-byte Folded Reload
	vmovdqa	32(%rsp), %ymm11                # 32-byte Reload
	vpshufd	$78, %ymm11, %ymm12             # ymm12 = ymm11[2,3,0,1,6,7,4,5]
	vpxor	%ymm5, %ymm10, %ymm5
	vmovdqa	%ymm5, 64(%rsp)                 # 32-byte Spill
	vpshufd	$78, %ymm1, %ymm5               # ymm5 = ymm1[2,3,0,1,6,7,4,5]
	vpxor	%ymm14, %ymm9, %ymm9
	vpshufd	$78, %ymm4, %ymm14              # ymm14 = ymm4[2,3,0,1,6,7,4,5]
	vpxor	%ymm3, %ymm9, %ymm10
	vpshufd	$78, %ymm13, %ymm3              # ymm3 = ymm13[2,3,0,1,6,7,4,5]
	vpxor	%ymm11, %ymm8, %ymm8
	vpxor	%ymm12, %ymm8, %ymm9
	vpxor	%ymm1, %ymm0, %ymm1
	vpxor	%ymm5, %ymm1, %ymm12
	vpxor	%ymm4, %ymm2, %ymm2
	vpxor	%ymm2, %ymm14, %ymm2
	vpxor	%ymm6, %ymm13, %ymm0
	vpxor	%ymm3, %ymm0, %ymm5
	vpxor	%ymm7, %ymm15, %ymm11
	vpxor	%ymm2, %ymm9, %ymm6
	vmovdqa	%ymm6, (%rsp)                   # 32-byte Spill
	vpxor	%ymm10, %ymm12, %ymm3
	vpxor	%ymm7, %ymm2, %ymm0
	vmovdqa	%ymm0, 192(%rsp)                # 32-byte Spill
	vpxor	%ymm0, %ymm3, %ymm0
	vmovdqa	%ymm0, 288(%rsp)                # 32-byte Spill
	vpxor	%ymm9, %ymm10, %ymm14
	vpxor	%ymm11, %ymm14, %ymm1
	vmovdqa	%ymm1, 352(%rsp)                # 32-byte Spill
	vpor	%ymm0, %ymm1, %ymm4
	vpxor	%ymm15, %ymm14, %ymm0
	vmovdqa	%ymm0, 128(%rsp)                # 32-byte Spill
	vpand	%ymm6, %ymm0, %ymm13
	vpxor	%ymm4, %ymm13, %ymm0
	vmovdqa	%ymm0, 224(%rsp)                # 32-byte Spill
	vpxor	%ymm5, %ymm9, %ymm8
	vpxor	%ymm5, %ymm2, %ymm0
	vpxor	%ymm2, %ymm8, %ymm3
	vmovdqa	%ymm3, 512(%rsp)                # 32-byte Spill
	vmovdqa	%ymm8, 320(%rsp)                # 32-byte Spill
	vpxor	%ymm15, %ymm10, %ymm2
	vpxor	%ymm3, %ymm10, %ymm1
	vmovdqa	%ymm1, 32(%rsp)                 # 32-byte Spill
	vmovdqa	64(%rsp), %ymm10                # 32-byte Reload
	vpxor	%ymm7, %ymm10, %ymm13
	vpxor	%ymm13, %ymm14, %ymm3
	vmovdqa	%ymm3, 96(%rsp)                 # 32-byte Spill
	vpxor	%ymm0, %ymm2, %ymm9
	vpxor	%ymm3, %ymm9, %ymm4
	vpand	%ymm4, %ymm14, %ymm4
	vpand	%ymm3, %ymm1, %ymm7
	vpxor	%ymm7, %ymm4, %ymm1
	vpand	%ymm0, %ymm9, %ymm7
	vmovdqa	%ymm9, 416(%rsp)                # 32-byte Spill
	vmovdqa	%ymm0, %ymm6
	vmovdqa	%ymm0, 256(%rsp)                # 32-byte Spill
	vpxor	%ymm7, %ymm4, %ymm7
	vpxor	%ymm10, %ymm12, %ymm0
	vpxor	%ymm5, %ymm0, %ymm4
	vmovdqa	%ymm4, 160(%rsp)                # 32-byte Spill
	vpxor	192(%rsp), %ymm2, %ymm3         # 32-byte Folded Reload
	vmovdqa	%ymm3, 384(%rsp)                # 32-byte Spill
	vmovdqa	(%rsp), %ymm15                  # 32-byte Reload
	vpxor	%ymm11, %ymm15, %ymm10
	vpand	%ymm4, %ymm10, %ymm5
	vpxor	%ymm5, %ymm2, %ymm2
	vpxor	%ymm6, %ymm11, %ymm4
	vmovdqa	%ymm4, 64(%rsp)                 # 32-byte Spill
	vpxor	%ymm0, %ymm15, %ymm0
	vmovdqa	%ymm0, 192(%rsp)                # 32-byte Spill
	vpand	%ymm4, %ymm0, %ymm0
	vpxor	%ymm0, %ymm2, %ymm4
	vpxor	%ymm9, %ymm13, %ymm5
	vmovdqa	%ymm5, 448(%rsp)                # 32-byte Spill
	vmovdqa	512(%rsp), %ymm15               # 32-byte Reload
	vpand	%ymm8, %ymm15, %ymm2
	vpxor	%ymm2, %ymm5, %ymm2
	vpxor	%ymm0, %ymm2, %ymm0
	vpxor	224(%rsp), %ymm1, %ymm6         # 32-byte Folded Reload
	vpxor	%ymm1, %ymm0, %ymm0
	vmovdqa	288(%rsp), %ymm9                # 32-byte Reload
	vmovdqa	352(%rsp), %ymm13               # 32-byte Reload
	vpand	%ymm9, %ymm13, %ymm1
	vpxor	%ymm1, %ymm12, %ymm1
	vpxor	%ymm12, %ymm10, %ymm12
	vpand	%ymm3, %ymm12, %ymm11
	vpxor	%ymm1, %ymm11, %ymm11
	vpxor	%ymm7, %ymm4, %ymm1
	vpxor	%ymm14, %ymm11, %ymm8
	vpxor	%ymm7, %ymm8, %ymm8
	vpand	%ymm6, %ymm0, %ymm4
	vpxor	%ymm1, %ymm0, %ymm11
	vpand	%ymm0, %ymm8, %ymm0
	vpand	%ymm0, %ymm11, %ymm0
	vpxor	%ymm4, %ymm8, %ymm5
	vpand	%ymm5, %ymm11, %ymm5
	vpxor	%ymm4, %ymm11, %ymm11
	vpxor	%ymm0, %ymm11, %ymm2
	vpxor	%ymm1, %ymm4, %ymm11
	vpxor	%ymm6, %ymm8, %ymm3
	vpand	%ymm3, %ymm11, %ymm11
	vpxor	%ymm8, %ymm11, %ymm0
	vpxor	%ymm1, %ymm5, %ymm5
	vpxor	%ymm2, %ymm5, %ymm8
	vpand	%ymm13, %ymm8, %ymm7
	vmovdqa	%ymm7, 224(%rsp)                # 32-byte Spill
	vpand	%ymm9, %ymm8, %ymm7
	vmovdqa	%ymm7, 288(%rsp)                # 32-byte Spill
	vpand	%ymm6, %ymm1, %ymm1
	vpand	%ymm3, %ymm1, %ymm1
	vpxor	%ymm3, %ymm4, %ymm3
	vpxor	%ymm1, %ymm3, %ymm6
	vpand	384(%rsp), %ymm5, %ymm1         # 32-byte Folded Reload
	vmovdqa	%ymm1, 352(%rsp)                # 32-byte Spill
	vpand	%ymm5, %ymm12, %ymm13
	vmovdqa	%ymm13, 480(%rsp)               # 32-byte Spill
	vpxor	%ymm0, %ymm5, %ymm5
	vpand	(%rsp), %ymm2, %ymm3            # 32-byte Folded Reload
	vmovdqa	%ymm3, 384(%rsp)                # 32-byte Spill
	vpand	160(%rsp), %ymm0, %ymm1         # 32-byte Folded Reload
	vmovdqa	%ymm1, 160(%rsp)                # 32-byte Spill
	vpand	%ymm0, %ymm10, %ymm4
	vpand	128(%rsp), %ymm2, %ymm7         # 32-byte Folded Reload
	vpxor	%ymm6, %ymm2, %ymm2
	vpand	320(%rsp), %ymm6, %ymm1         # 32-byte Folded Reload
	vmovdqa	%ymm1, 320(%rsp)                # 32-byte Spill
	vpxor	%ymm6, %ymm0, %ymm0
	vpand	%ymm6, %ymm15, %ymm6
	vpand	192(%rsp), %ymm0, %ymm9         # 32-byte Folded Reload
	vpand	64(%rsp), %ymm0, %ymm1          # 32-byte Folded Reload
	vpand	%ymm5, %ymm14, %ymm12
	vpand	448(%rsp), %ymm5, %ymm14        # 32-byte Folded Reload
	vpxor	%ymm2, %ymm5, %ymm5
	vpand	96(%rsp), %ymm5, %ymm15         # 32-byte Folded Reload
	vpxor	%ymm7, %ymm15, %ymm15
	vpxor	%ymm7, %ymm6, %ymm7
	vpand	32(%rsp), %ymm5, %ymm5          # 32-byte Folded Reload
	vpand	416(%rsp), %ymm2, %ymm11        # 32-byte Folded Reload
	vpand	256(%rsp), %ymm2, %ymm0         # 32-byte Folded Reload
	vpxor	%ymm0, %ymm1, %ymm10
	vpxor	-256(%rcx), %ymm12, %ymm1
	vpxor	%ymm4, %ymm10, %ymm2
	vpxor	%ymm2, %ymm1, %ymm1
	vmovdqa	%ymm1, 128(%rsp)                # 32-byte Spill
	vmovdqa	224(%rsp), %ymm8                # 32-byte Reload
	vpxor	%ymm3, %ymm8, %ymm1
	vpxor	%ymm1, %ymm14, %ymm1
	vpxor	%ymm1, %ymm15, %ymm3
	vmovdqa	288(%rsp), %ymm6                # 32-byte Reload
	vpxor	-224(%rcx), %ymm6, %ymm2
	vpxor	%ymm3, %ymm5, %ymm12
	vpxor	%ymm2, %ymm12, %ymm2
	vmovdqa	%ymm2, (%rsp)                   # 32-byte Spill
	vpxor	%ymm5, %ymm11, %ymm12
	vpxor	%ymm7, %ymm14, %ymm14
	vpxor	%ymm7, %ymm12, %ymm5
	vpxor	%ymm13, %ymm9, %ymm7
	vpxor	%ymm7, %ymm5, %ymm5
	vpxor	-192(%rcx), %ymm1, %ymm13
	vpxor	%ymm5, %ymm13, %ymm5
	vmovdqa	160(%rsp), %ymm2                # 32-byte Reload
	vpxor	320(%rsp), %ymm2, %ymm13        # 32-byte Folded Reload
	vpxor	%ymm4, %ymm13, %ymm4
	vpxor	%ymm4, %ymm7, %ymm7
	vpxor	%ymm3, %ymm7, %ymm3
	vpxor	-160(%rcx), %ymm0, %ymm0
	vpxor	%ymm3, %ymm0, %ymm15
	vpxor	%ymm1, %ymm12, %ymm3
	vpxor	-128(%rcx), %ymm2, %ymm1
	vpxor	%ymm3, %ymm9, %ymm7
	vpxor	%ymm7, %ymm1, %ymm2
	vpxor	%ymm8, %ymm14, %ymm7
	vpxor	%ymm4, %ymm7, %ymm4
	vmovdqa	%ymm6, %ymm0
	vpxor	352(%rsp), %ymm6, %ymm7         # 32-byte Folded Reload
	vpxor	%ymm4, %ymm12, %ymm4
	vpxor	-96(%rcx), %ymm7, %ymm8
	vpxor	%ymm4, %ymm8, %ymm12
	vpxor	-64(%rcx), %ymm7, %ymm4
	vpxor	384(%rsp), %ymm14, %ymm7        # 32-byte Folded Reload
	vpxor	%ymm7, %ymm13, %ymm7
	vpxor	%ymm7, %ymm11, %ymm6
	vpxor	%ymm6, %ymm10, %ymm6
	vmovdqa	480(%rsp), %ymm1                # 32-byte Reload
	vpxor	-32(%rcx), %ymm1, %ymm7
	vpxor	%ymm6, %ymm4, %ymm4
	vpxor	%ymm3, %ymm0, %ymm3
	vpxor	%ymm3, %ymm7, %ymm3
	vbroadcasti128	.Laes_v3_CPI33_4(%rip), %ymm13 # ymm13 = [7,4,5,6,11,8,9,10,15,12,13,14,3,0,1,2,7,4,5,6,11,8,9,10,15,12,13,14,3,0,1,2]
                                        # ymm13 = mem[0,1,0,1]
	vmovdqa	(%rsp), %ymm0                   # 32-byte Reload
	vpshufb	%ymm13, %ymm0, %ymm6
	vpshufb	%ymm13, %ymm5, %ymm7
	vpshufb	%ymm13, %ymm2, %ymm8
	vpshufb	%ymm13, %ymm12, %ymm9
	vpshufb	%ymm13, %ymm4, %ymm10
	vpshufb	%ymm13, %ymm3, %ymm1
	vpxor	%ymm0, %ymm6, %ymm0
	vpxor	%ymm5, %ymm7, %ymm14
	vpxor	%ymm2, %ymm8, %ymm8
	vpxor	%ymm12, %ymm9, %ymm11
	vpxor	%ymm4, %ymm10, %ymm9
	vpxor	%ymm3, %ymm1, %ymm10
	vpxor	%ymm5, %ymm0, %ymm7
	vpxor	%ymm12, %ymm8, %ymm6
	vmovdqa	%ymm6, 96(%rsp)                 # 32-byte Spill
	vpxor	%ymm4, %ymm11, %ymm5
	vpxor	%ymm3, %ymm9, %ymm4
	vpxor	%ymm4, %ymm5, %ymm1
	vpxor	%ymm0, %ymm1, %ymm12
	vpxor	%ymm7, %ymm8, %ymm0
	vpxor	%ymm0, %ymm1, %ymm0
	vmovdqa	%ymm0, 32(%rsp)                 # 32-byte Spill
	vmovdqa	128(%rsp), %ymm3                # 32-byte Reload
	vpshufb	%ymm13, %ymm3, %ymm0
	vpshufb	%ymm13, %ymm15, %ymm1
	vpxor	%ymm3, %ymm0, %ymm0
	vpxor	%ymm1, %ymm15, %ymm1
	vpxor	%ymm3, %ymm10, %ymm3
	vpxor	(%rsp), %ymm10, %ymm13          # 32-byte Folded Reload
	vpxor	%ymm0, %ymm13, %ymm13
	vpxor	%ymm15, %ymm10, %ymm15
	vpxor	%ymm14, %ymm15, %ymm15
	vpxor	%ymm2, %ymm10, %ymm2
	vpxor	%ymm1, %ymm2, %ymm2
	vmovdqa	%ymm2, (%rsp)                   # 32-byte Spill
	vpxor	%ymm0, %ymm5, %ymm0
	vpxor	%ymm3, %ymm14, %ymm14
	vpxor	%ymm4, %ymm14, %ymm14
	vpxor	%ymm1, %ymm13, %ymm1
	vpxor	%ymm5, %ymm1, %ymm1
	vpxor	%ymm4, %ymm11, %ymm11
	vpxor	%ymm15, %ymm11, %ymm11
	vpxor	%ymm2, %ymm9, %ymm9
	vpxor	%ymm6, %ymm10, %ymm2
	vpxor	%ymm0, %ymm3, %ymm3
	vmovdqa	.Laes_v3_CPI33_1(%rip), %ymm10         # ymm10 = [10,11,8,9,14,15,12,13,2,3,0,1,6,7,4,5,26,27,24,25,30,31,28,29,18,19,16,17,22,23,20,21]
	vpshufb	%ymm10, %ymm0, %ymm0
	vpxor	%ymm0, %ymm3, %ymm0
	vpshufb	%ymm10, %ymm12, %ymm3
	vpxor	%ymm12, %ymm13, %ymm8
	vpshufb	%ymm10, %ymm14, %ymm12
	vpxor	%ymm3, %ymm8, %ymm8
	vpshufb	%ymm10, %ymm1, %ymm3
	vpxor	%ymm7, %ymm14, %ymm7
	vmovdqa	32(%rsp), %ymm14                # 32-byte Reload
	vpshufb	%ymm10, %ymm14, %ymm13
	vpxor	%ymm7, %ymm12, %ymm6
	vmovdqa	%ymm6, 64(%rsp)                 # 32-byte Spill
	vpshufb	%ymm10, %ymm11, %ymm7
	vpxor	%ymm1, %ymm15, %ymm1
	vpshufb	%ymm10, %ymm9, %ymm12
	vpxor	%ymm3, %ymm1, %ymm15
	vpshufb	%ymm10, %ymm2, %ymm1
	vpxor	(%rsp), %ymm14, %ymm3           # 32-byte Folded Reload
	vpxor	%ymm3, %ymm13, %ymm6
	vpxor	96(%rsp), %ymm11, %ymm3         # 32-byte Folded Reload
	vpxor	%ymm7, %ymm3, %ymm10
	vmovdqa	%ymm10, 384(%rsp)               # 32-byte Spill
	vpxor	%ymm5, %ymm9, %ymm3
	vpxor	%ymm3, %ymm12, %ymm7
	vpxor	%ymm1, %ymm2, %ymm1
	vpxor	%ymm4, %ymm1, %ymm14
	vpxor	%ymm0, %ymm8, %ymm4
	vmovdqa	%ymm4, 192(%rsp)                # 32-byte Spill
	vpxor	%ymm7, %ymm6, %ymm11
	vpxor	%ymm15, %ymm10, %ymm2
	vpxor	%ymm7, %ymm8, %ymm9
	vpxor	%ymm2, %ymm9, %ymm1
	vmovdqa	%ymm1, 224(%rsp)                # 32-byte Spill
	vpxor	%ymm6, %ymm15, %ymm5
	vpxor	%ymm4, %ymm5, %ymm2
	vmovdqa	%ymm2, 352(%rsp)                # 32-byte Spill
	vpor	%ymm1, %ymm2, %ymm2
	vpxor	%ymm0, %ymm5, %ymm1
	vmovdqa	%ymm1, (%rsp)                   # 32-byte Spill
	vpand	%ymm1, %ymm11, %ymm4
	vpxor	%ymm2, %ymm4, %ymm1
	vmovdqa	%ymm1, 480(%rsp)                # 32-byte Spill
	vpxor	%ymm6, %ymm14, %ymm1
	vmovdqa	%ymm1, 512(%rsp)                # 32-byte Spill
	vpxor	%ymm7, %ymm14, %ymm3
	vpxor	%ymm7, %ymm1, %ymm12
	vpxor	%ymm0, %ymm15, %ymm0
	vpxor	%ymm15, %ymm12, %ymm1
	vmovdqa	%ymm1, 128(%rsp)                # 32-byte Spill
	vmovdqa	%ymm12, 416(%rsp)               # 32-byte Spill
	vmovdqa	64(%rsp), %ymm10                # 32-byte Reload
	vpxor	%ymm8, %ymm10, %ymm2
	vmovdqa	%ymm5, %ymm15
	vpxor	%ymm2, %ymm5, %ymm6
	vmovdqa	%ymm6, 32(%rsp)                 # 32-byte Spill
	vpxor	%ymm3, %ymm0, %ymm8
	vpxor	%ymm6, %ymm8, %ymm4
	vpand	%ymm5, %ymm4, %ymm4
	vpand	%ymm6, %ymm1, %ymm7
	vpxor	%ymm7, %ymm4, %ymm5
	vpand	%ymm3, %ymm8, %ymm7
	vmovdqa	%ymm8, %ymm1
	vmovdqa	%ymm8, 256(%rsp)                # 32-byte Spill
	vmovdqa	%ymm3, %ymm8
	vmovdqa	%ymm3, 96(%rsp)                 # 32-byte Spill
	vpxor	%ymm7, %ymm4, %ymm13
	vmovdqa	384(%rsp), %ymm3                # 32-byte Reload
	vpxor	%ymm3, %ymm10, %ymm7
	vpxor	%ymm7, %ymm14, %ymm4
	vmovdqa	%ymm4, 160(%rsp)                # 32-byte Spill
	vpxor	%ymm0, %ymm9, %ymm10
	vmovdqa	%ymm10, 288(%rsp)               # 32-byte Spill
	vmovdqa	%ymm11, 320(%rsp)               # 32-byte Spill
	vmovdqa	192(%rsp), %ymm6                # 32-byte Reload
	vpxor	%ymm6, %ymm11, %ymm14
	vpand	%ymm4, %ymm14, %ymm9
	vpxor	%ymm0, %ymm9, %ymm0
	vpxor	%ymm6, %ymm8, %ymm4
	vmovdqa	%ymm4, 64(%rsp)                 # 32-byte Spill
	vpxor	%ymm7, %ymm11, %ymm6
	vmovdqa	%ymm6, 192(%rsp)                # 32-byte Spill
	vpand	%ymm4, %ymm6, %ymm7
	vpxor	%ymm7, %ymm0, %ymm0
	vpxor	%ymm1, %ymm2, %ymm1
	vmovdqa	%ymm1, 448(%rsp)                # 32-byte Spill
	vmovdqa	512(%rsp), %ymm8                # 32-byte Reload
	vpand	%ymm8, %ymm12, %ymm2
	vpxor	%ymm2, %ymm1, %ymm2
	vpxor	%ymm7, %ymm2, %ymm7
	vpxor	480(%rsp), %ymm5, %ymm4         # 32-byte Folded Reload
	vpxor	%ymm5, %ymm7, %ymm7
	vmovdqa	224(%rsp), %ymm11               # 32-byte Reload
	vmovdqa	352(%rsp), %ymm6                # 32-byte Reload
	vpand	%ymm6, %ymm11, %ymm1
	vpxor	%ymm3, %ymm1, %ymm1
	vpxor	%ymm3, %ymm14, %ymm12
	vpand	%ymm10, %ymm12, %ymm9
	vpxor	%ymm1, %ymm9, %ymm1
	vpxor	%ymm0, %ymm13, %ymm9
	vmovdqa	%ymm15, %ymm10
	vpxor	%ymm1, %ymm15, %ymm0
	vpxor	%ymm0, %ymm13, %ymm3
	vpand	%ymm4, %ymm7, %ymm2
	vpxor	%ymm7, %ymm9, %ymm0
	vpand	%ymm3, %ymm7, %ymm7
	vpand	%ymm0, %ymm7, %ymm7
	vpxor	%ymm3, %ymm2, %ymm5
	vpand	%ymm0, %ymm5, %ymm5
	vpxor	%ymm0, %ymm2, %ymm0
	vpxor	%ymm7, %ymm0, %ymm0
	vpxor	%ymm2, %ymm9, %ymm7
	vpxor	%ymm4, %ymm3, %ymm1
	vpand	%ymm1, %ymm7, %ymm7
	vpxor	%ymm3, %ymm7, %ymm3
	vpxor	%ymm5, %ymm9, %ymm5
	vpxor	%ymm0, %ymm5, %ymm7
	vpand	%ymm6, %ymm7, %ymm13
	vpand	%ymm7, %ymm11, %ymm7
	vpand	%ymm4, %ymm9, %ymm4
	vpand	%ymm1, %ymm4, %ymm4
	vpxor	%ymm1, %ymm2, %ymm1
	vpxor	%ymm4, %ymm1, %ymm2
	vpand	288(%rsp), %ymm5, %ymm1         # 32-byte Folded Reload
	vmovdqa	%ymm1, 352(%rsp)                # 32-byte Spill
	vpand	%ymm5, %ymm12, %ymm1
	vmovdqa	%ymm1, 224(%rsp)                # 32-byte Spill
	vpxor	%ymm3, %ymm5, %ymm4
	vpand	320(%rsp), %ymm0, %ymm12        # 32-byte Folded Reload
	vmovdqa	%ymm12, 320(%rsp)               # 32-byte Spill
	vpand	160(%rsp), %ymm3, %ymm1         # 32-byte Folded Reload
	vpand	%ymm3, %ymm14, %ymm15
	vpand	(%rsp), %ymm0, %ymm5            # 32-byte Folded Reload
	vpxor	%ymm2, %ymm0, %ymm11
	vpand	%ymm2, %ymm8, %ymm0
	vmovdqa	%ymm0, 160(%rsp)                # 32-byte Spill
	vpxor	%ymm2, %ymm3, %ymm3
	vpand	416(%rsp), %ymm2, %ymm2         # 32-byte Folded Reload
	vpand	192(%rsp), %ymm3, %ymm9         # 32-byte Folded Reload
	vpand	64(%rsp), %ymm3, %ymm3          # 32-byte Folded Reload
	vpand	%ymm4, %ymm10, %ymm8
	vpand	448(%rsp), %ymm4, %ymm14        # 32-byte Folded Reload
	vpxor	%ymm4, %ymm11, %ymm4
	vpand	32(%rsp), %ymm4, %ymm6          # 32-byte Folded Reload
	vpxor	%ymm5, %ymm6, %ymm0
	vpxor	%ymm5, %ymm2, %ymm5
	vpand	128(%rsp), %ymm4, %ymm4         # 32-byte Folded Reload
	vpand	256(%rsp), %ymm11, %ymm6        # 32-byte Folded Reload
	vpand	96(%rsp), %ymm11, %ymm11        # 32-byte Folded Reload
	vpxor	%ymm3, %ymm11, %ymm10
	vpxor	-512(%rcx), %ymm8, %ymm2
	vpxor	%ymm10, %ymm15, %ymm3
	vpxor	%ymm3, %ymm2, %ymm2
	vmovdqa	%ymm2, 128(%rsp)                # 32-byte Spill
	vmovdqa	%ymm13, %ymm2
	vpxor	%ymm12, %ymm13, %ymm3
	vpxor	%ymm3, %ymm14, %ymm8
	vpxor	-480(%rcx), %ymm7, %ymm3
	vpxor	%ymm0, %ymm8, %ymm0
	vpxor	%ymm0, %ymm4, %ymm13
	vpxor	%ymm3, %ymm13, %ymm3
	vmovdqa	%ymm3, (%rsp)                   # 32-byte Spill
	vpxor	%ymm6, %ymm4, %ymm13
	vpxor	%ymm5, %ymm14, %ymm14
	vpxor	%ymm5, %ymm13, %ymm5
	vmovdqa	224(%rsp), %ymm3                # 32-byte Reload
	vpxor	%ymm3, %ymm9, %ymm4
	vpxor	%ymm4, %ymm5, %ymm5
	vpxor	-448(%rcx), %ymm8, %ymm12
	vpxor	%ymm5, %ymm12, %ymm5
	vpxor	160(%rsp), %ymm1, %ymm12        # 32-byte Folded Reload
	vpxor	%ymm15, %ymm12, %ymm15
	vpxor	-416(%rcx), %ymm11, %ymm11
	vpxor	%ymm4, %ymm15, %ymm4
	vpxor	%ymm0, %ymm4, %ymm0
	vpxor	%ymm0, %ymm11, %ymm0
	vmovdqa	%ymm0, 32(%rsp)                 # 32-byte Spill
	vpxor	-384(%rcx), %ymm1, %ymm1
	vpxor	%ymm8, %ymm13, %ymm8
	vpxor	%ymm8, %ymm9, %ymm4
	vpxor	%ymm4, %ymm1, %ymm4
	vpxor	%ymm2, %ymm14, %ymm1
	vpxor	%ymm1, %ymm15, %ymm1
	vpxor	352(%rsp), %ymm7, %ymm9         # 32-byte Folded Reload
	vpxor	-352(%rcx), %ymm9, %ymm11
	vpxor	%ymm1, %ymm13, %ymm1
	vpxor	%ymm1, %ymm11, %ymm1
	vpxor	-320(%rcx), %ymm9, %ymm9
	vpxor	320(%rsp), %ymm14, %ymm11       # 32-byte Folded Reload
	vpxor	%ymm12, %ymm11, %ymm11
	vpxor	%ymm6, %ymm11, %ymm6
	vpxor	%ymm6, %ymm10, %ymm6
	vpxor	%ymm6, %ymm9, %ymm12
	vpxor	-288(%rcx), %ymm3, %ymm6
	vpxor	%ymm7, %ymm8, %ymm7
	vpxor	%ymm7, %ymm6, %ymm8
	vmovdqa	.Laes_v3_CPI33_2(%rip), %ymm13         # ymm13 = [6,7,4,5,10,11,8,9,14,15,12,13,2,3,0,1,22,23,20,21,26,27,24,25,30,31,28,29,18,19,16,17]
	vmovdqa	(%rsp), %ymm0                   # 32-byte Reload
	vpshufb	%ymm13, %ymm0, %ymm6
	vpshufb	%ymm13, %ymm5, %ymm7
	vpshufb	%ymm13, %ymm4, %ymm9
	vpshufb	%ymm13, %ymm1, %ymm10
	vpshufb	%ymm13, %ymm12, %ymm15
	vpshufb	%ymm13, %ymm8, %ymm2
	vpxor	%ymm0, %ymm6, %ymm0
	vpxor	%ymm5, %ymm7, %ymm14
	vpxor	%ymm4, %ymm9, %ymm7
	vpxor	%ymm1, %ymm10, %ymm11
	vpxor	%ymm12, %ymm15, %ymm9
	vpxor	%ymm2, %ymm8, %ymm10
	vpxor	%ymm5, %ymm0, %ymm3
	vmovdqa	%ymm3, 96(%rsp)                 # 32-byte Spill
	vpxor	%ymm1, %ymm7, %ymm15
	vmovdqa	%ymm15, 256(%rsp)               # 32-byte Spill
	vpxor	%ymm12, %ymm11, %ymm5
	vpxor	%ymm8, %ymm9, %ymm1
	vpxor	%ymm1, %ymm5, %ymm2
	vpxor	%ymm0, %ymm2, %ymm12
	vpxor	%ymm3, %ymm7, %ymm0
	vpxor	%ymm0, %ymm2, %ymm8
	vmovdqa	128(%rsp), %ymm6                # 32-byte Reload
	vpshufb	%ymm13, %ymm6, %ymm0
	vmovdqa	32(%rsp), %ymm3                 # 32-byte Reload
	vpshufb	%ymm13, %ymm3, %ymm2
	vpxor	%ymm6, %ymm0, %ymm0
	vpxor	%ymm3, %ymm2, %ymm7
	vpxor	%ymm6, %ymm10, %ymm13
	vpxor	(%rsp), %ymm10, %ymm2           # 32-byte Folded Reload
	vpxor	%ymm2, %ymm0, %ymm2
	vpxor	%ymm3, %ymm10, %ymm3
	vpxor	%ymm3, %ymm14, %ymm6
	vpxor	%ymm4, %ymm10, %ymm4
	vpxor	%ymm7, %ymm4, %ymm4
	vpxor	%ymm0, %ymm5, %ymm0
	vpxor	%ymm13, %ymm14, %ymm14
	vpxor	%ymm1, %ymm14, %ymm14
	vpxor	%ymm7, %ymm2, %ymm7
	vpxor	%ymm5, %ymm7, %ymm7
	vpxor	%ymm1, %ymm11, %ymm11
	vpxor	%ymm6, %ymm11, %ymm11
	vpxor	%ymm4, %ymm9, %ymm9
	vpxor	%ymm10, %ymm15, %ymm3
	vpxor	%ymm0, %ymm13, %ymm10
	vpshufd	$78, %ymm0, %ymm0               # ymm0 = ymm0[2,3,0,1,6,7,4,5]
	vpxor	%ymm0, %ymm10, %ymm10
	vpshufd	$78, %ymm12, %ymm0              # ymm0 = ymm12[2,3,0,1,6,7,4,5]
	vpxor	%ymm2, %ymm12, %ymm2
	vpshufd	$78, %ymm14, %ymm12             # ymm12 = ymm14[2,3,0,1,6,7,4,5]
	vpxor	%ymm0, %ymm2, %ymm2
	vpshufd	$78, %ymm7, %ymm13              # ymm13 = ymm7[2,3,0,1,6,7,4,5]
	vpxor	96(%rsp), %ymm14, %ymm0         # 32-byte Folded Reload
	vpshufd	$78, %ymm8, %ymm14              # ymm14 = ymm8[2,3,0,1,6,7,4,5]
	vpxor	%ymm0, %ymm12, %ymm0
	vmovdqa	%ymm0, 192(%rsp)                # 32-byte Spill
	vpshufd	$78, %ymm11, %ymm12             # ymm12 = ymm11[2,3,0,1,6,7,4,5]
	vpxor	%ymm7, %ymm6, %ymm6
	vpshufd	$78, %ymm9, %ymm7               # ymm7 = ymm9[2,3,0,1,6,7,4,5]
	vpxor	%ymm6, %ymm13, %ymm15
	vpshufd	$78, %ymm3, %ymm6               # ymm6 = ymm3[2,3,0,1,6,7,4,5]
	vpxor	%ymm4, %ymm8, %ymm4
	vpxor	%ymm4, %ymm14, %ymm4
	vpxor	256(%rsp), %ymm11, %ymm8        # 32-byte Folded Reload
	vpxor	%ymm12, %ymm8, %ymm13
	vpxor	%ymm5, %ymm9, %ymm5
	vpxor	%ymm7, %ymm5, %ymm14
	vpxor	%ymm3, %ymm6, %ymm3
	vpxor	%ymm1, %ymm3, %ymm5
	vpxor	%ymm2, %ymm10, %ymm11
	vpxor	%ymm4, %ymm14, %ymm7
	vmovdqa	%ymm7, (%rsp)                   # 32-byte Spill
	vpxor	%ymm15, %ymm13, %ymm3
	vpxor	%ymm2, %ymm14, %ymm12
	vpxor	%ymm3, %ymm12, %ymm0
	vmovdqa	%ymm0, 288(%rsp)                # 32-byte Spill
	vpxor	%ymm4, %ymm15, %ymm8
	vpxor	%ymm11, %ymm8, %ymm1
	vmovdqa	%ymm1, 320(%rsp)                # 32-byte Spill
	vpor	%ymm0, %ymm1, %ymm6
	vpxor	%ymm10, %ymm8, %ymm0
	vmovdqa	%ymm0, 128(%rsp)                # 32-byte Spill
	vpand	%ymm7, %ymm0, %ymm9
	vpxor	%ymm6, %ymm9, %ymm0
	vmovdqa	%ymm0, 384(%rsp)                # 32-byte Spill
	vpxor	%ymm5, %ymm4, %ymm9
	vpxor	%ymm5, %ymm14, %ymm0
	vpxor	%ymm14, %ymm9, %ymm7
	vmovdqa	%ymm9, 224(%rsp)                # 32-byte Spill
	vpxor	%ymm10, %ymm15, %ymm10
	vpxor	%ymm7, %ymm15, %ymm1
	vmovdqa	%ymm1, 32(%rsp)                 # 32-byte Spill
	vmovdqa	%ymm7, 352(%rsp)                # 32-byte Spill
	vmovdqa	192(%rsp), %ymm14               # 32-byte Reload
	vpxor	%ymm2, %ymm14, %ymm2
	vmovdqa	%ymm8, 480(%rsp)                # 32-byte Spill
	vpxor	%ymm2, %ymm8, %ymm3
	vmovdqa	%ymm3, 96(%rsp)                 # 32-byte Spill
	vpxor	%ymm0, %ymm10, %ymm6
	vpxor	%ymm6, %ymm3, %ymm4
	vpand	%ymm4, %ymm8, %ymm4
	vpand	%ymm3, %ymm1, %ymm15
	vpxor	%ymm4, %ymm15, %ymm3
	vpand	%ymm0, %ymm6, %ymm15
	vmovdqa	%ymm6, 64(%rsp)                 # 32-byte Spill
	vmovdqa	%ymm0, %ymm1
	vmovdqa	%ymm0, 256(%rsp)                # 32-byte Spill
	vpxor	%ymm4, %ymm15, %ymm8
	vpxor	%ymm14, %ymm13, %ymm0
	vpxor	%ymm5, %ymm0, %ymm4
	vmovdqa	%ymm4, 416(%rsp)                # 32-byte Spill
	vpxor	%ymm12, %ymm10, %ymm15
	vmovdqa	(%rsp), %ymm12                  # 32-byte Reload
	vpxor	%ymm11, %ymm12, %ymm14
	vpand	%ymm4, %ymm14, %ymm5
	vpxor	%ymm5, %ymm10, %ymm10
	vpxor	%ymm1, %ymm11, %ymm1
	vmovdqa	%ymm1, 192(%rsp)                # 32-byte Spill
	vpxor	%ymm0, %ymm12, %ymm0
	vmovdqa	%ymm0, 448(%rsp)                # 32-byte Spill
	vpand	%ymm1, %ymm0, %ymm0
	vpxor	%ymm0, %ymm10, %ymm5
	vpxor	%ymm6, %ymm2, %ymm1
	vmovdqa	%ymm1, 160(%rsp)                # 32-byte Spill
	vpand	%ymm7, %ymm9, %ymm2
	vpxor	%ymm2, %ymm1, %ymm2
	vpxor	%ymm0, %ymm2, %ymm0
	vpxor	384(%rsp), %ymm3, %ymm4         # 32-byte Folded Reload
	vpxor	%ymm3, %ymm0, %ymm0
	vmovdqa	288(%rsp), %ymm6                # 32-byte Reload
	vmovdqa	320(%rsp), %ymm11               # 32-byte Reload
	vpand	%ymm6, %ymm11, %ymm1
	vpxor	%ymm1, %ymm13, %ymm1
	vpxor	%ymm13, %ymm14, %ymm13
	vpand	%ymm15, %ymm13, %ymm10
	vpxor	%ymm1, %ymm10, %ymm1
	vpxor	%ymm5, %ymm8, %ymm7
	vmovdqa	480(%rsp), %ymm9                # 32-byte Reload
	vpxor	%ymm1, %ymm9, %ymm1
	vpxor	%ymm1, %ymm8, %ymm3
	vpand	%ymm4, %ymm0, %ymm2
	vpxor	%ymm7, %ymm0, %ymm10
	vpand	%ymm3, %ymm0, %ymm0
	vpand	%ymm0, %ymm10, %ymm0
	vpxor	%ymm3, %ymm2, %ymm5
	vpand	%ymm5, %ymm10, %ymm5
	vpxor	%ymm2, %ymm10, %ymm10
	vpxor	%ymm0, %ymm10, %ymm0
	vpxor	%ymm7, %ymm2, %ymm10
	vpxor	%ymm4, %ymm3, %ymm1
	vpand	%ymm1, %ymm10, %ymm10
	vpxor	%ymm3, %ymm10, %ymm3
	vpxor	%ymm7, %ymm5, %ymm5
	vpxor	%ymm0, %ymm5, %ymm10
	vpand	%ymm11, %ymm10, %ymm12
	vpand	%ymm6, %ymm10, %ymm11
	vpand	%ymm4, %ymm7, %ymm4
	vpand	%ymm1, %ymm4, %ymm4
	vpxor	%ymm1, %ymm2, %ymm1
	vpxor	%ymm4, %ymm1, %ymm2
	vpand	%ymm5, %ymm15, %ymm1
	vmovdqa	%ymm1, 320(%rsp)                # 32-byte Spill
	vpand	%ymm5, %ymm13, %ymm10
	vmovdqa	%ymm10, 384(%rsp)               # 32-byte Spill
	vpxor	%ymm3, %ymm5, %ymm4
	vpand	(%rsp), %ymm0, %ymm13           # 32-byte Folded Reload
	vmovdqa	%ymm13, 288(%rsp)               # 32-byte Spill
	vpand	416(%rsp), %ymm3, %ymm1         # 32-byte Folded Reload
	vmovdqa	%ymm1, 416(%rsp)                # 32-byte Spill
	vpand	%ymm3, %ymm14, %ymm5
	vpand	128(%rsp), %ymm0, %ymm6         # 32-byte Folded Reload
	vpxor	%ymm2, %ymm0, %ymm0
	vpand	224(%rsp), %ymm2, %ymm1         # 32-byte Folded Reload
	vmovdqa	%ymm1, 128(%rsp)                # 32-byte Spill
	vpxor	%ymm2, %ymm3, %ymm3
	vpand	352(%rsp), %ymm2, %ymm2         # 32-byte Folded Reload
	vpand	448(%rsp), %ymm3, %ymm15        # 32-byte Folded Reload
	vpand	192(%rsp), %ymm3, %ymm3         # 32-byte Folded Reload
	vpand	%ymm4, %ymm9, %ymm8
	vpand	160(%rsp), %ymm4, %ymm7         # 32-byte Folded Reload
	vpxor	%ymm0, %ymm4, %ymm4
	vpand	96(%rsp), %ymm4, %ymm14         # 32-byte Folded Reload
	vpxor	%ymm6, %ymm14, %ymm14
	vpxor	%ymm6, %ymm2, %ymm6
	vpand	32(%rsp), %ymm4, %ymm1          # 32-byte Folded Reload
	vpand	64(%rsp), %ymm0, %ymm4          # 32-byte Folded Reload
	vpand	256(%rsp), %ymm0, %ymm0         # 32-byte Folded Reload
	vpxor	%ymm0, %ymm3, %ymm9
	vpxor	-768(%rcx), %ymm8, %ymm2
	vpxor	%ymm5, %ymm9, %ymm3
	vpxor	%ymm3, %ymm2, %ymm2
	vmovdqa	%ymm2, (%rsp)                   # 32-byte Spill
	vmovdqa	%ymm12, %ymm2
	vpxor	%ymm13, %ymm12, %ymm3
	vpxor	%ymm7, %ymm3, %ymm8
	vpxor	%ymm8, %ymm14, %ymm14
	vpxor	-736(%rcx), %ymm11, %ymm3
	vpxor	%ymm1, %ymm14, %ymm13
	vpxor	%ymm3, %ymm13, %ymm3
	vpxor	%ymm4, %ymm1, %ymm1
	vpxor	%ymm6, %ymm7, %ymm7
	vpxor	%ymm6, %ymm1, %ymm6
	vpxor	%ymm10, %ymm15, %ymm13
	vpxor	%ymm6, %ymm13, %ymm6
	vpxor	-704(%rcx), %ymm8, %ymm12
	vpxor	%ymm6, %ymm12, %ymm6
	vmovdqa	416(%rsp), %ymm10               # 32-byte Reload
	vpxor	128(%rsp), %ymm10, %ymm12       # 32-byte Folded Reload
	vpxor	%ymm5, %ymm12, %ymm5
	vpxor	%ymm5, %ymm13, %ymm13
	vpxor	%ymm14, %ymm13, %ymm13
	vpxor	-672(%rcx), %ymm0, %ymm0
	vpxor	%ymm0, %ymm13, %ymm0
	vmovdqa	%ymm0, 128(%rsp)                # 32-byte Spill
	vpxor	%ymm1, %ymm8, %ymm8
	vpxor	-640(%rcx), %ymm10, %ymm13
	vpxor	%ymm8, %ymm15, %ymm10
	vpxor	%ymm10, %ymm13, %ymm13
	vpxor	%ymm2, %ymm7, %ymm10
	vpxor	%ymm5, %ymm10, %ymm5
	vpxor	320(%rsp), %ymm11, %ymm10       # 32-byte Folded Reload
	vpxor	%ymm1, %ymm5, %ymm1
	vpxor	-608(%rcx), %ymm10, %ymm5
	vpxor	%ymm1, %ymm5, %ymm1
	vpxor	-576(%rcx), %ymm10, %ymm5
	vpxor	288(%rsp), %ymm7, %ymm7         # 32-byte Folded Reload
	vpxor	%ymm7, %ymm12, %ymm7
	vpxor	%ymm4, %ymm7, %ymm4
	vpxor	%ymm4, %ymm9, %ymm4
	vmovdqa	384(%rsp), %ymm0                # 32-byte Reload
	vpxor	-544(%rcx), %ymm0, %ymm7
	vpxor	%ymm4, %ymm5, %ymm4
	vpxor	%ymm8, %ymm11, %ymm5
	vpxor	%ymm5, %ymm7, %ymm5
	vbroadcasti128	.Laes_v3_CPI33_5(%rip), %ymm0  # ymm0 = [5,6,7,4,9,10,11,8,13,14,15,12,1,2,3,0,5,6,7,4,9,10,11,8,13,14,15,12,1,2,3,0]
                                        # ymm0 = mem[0,1,0,1]
	vmovdqa	(%rsp), %ymm2                   # 32-byte Reload
	vpshufb	%ymm0, %ymm2, %ymm2
	vmovdqa	%ymm2, 32(%rsp)                 # 32-byte Spill
	vpshufb	%ymm0, %ymm3, %ymm7
	vpshufb	%ymm0, %ymm6, %ymm8
	vmovdqa	%ymm13, 256(%rsp)               # 32-byte Spill
	vpshufb	%ymm0, %ymm13, %ymm9
	vpshufb	%ymm0, %ymm1, %ymm10
	vpshufb	%ymm0, %ymm4, %ymm12
	vpshufb	%ymm0, %ymm5, %ymm2
	vpxor	%ymm3, %ymm7, %ymm7
	vpxor	%ymm6, %ymm8, %ymm14
	vpxor	%ymm13, %ymm9, %ymm8
	vpxor	%ymm1, %ymm10, %ymm11
	vpxor	%ymm4, %ymm12, %ymm15
	vpxor	%ymm5, %ymm2, %ymm10
	vpxor	%ymm6, %ymm7, %ymm2
	vpxor	%ymm1, %ymm8, %ymm6
	vmovdqa	%ymm6, 64(%rsp)                 # 32-byte Spill
	vpxor	%ymm4, %ymm11, %ymm4
	vpxor	%ymm5, %ymm15, %ymm9
	vpxor	%ymm4, %ymm9, %ymm5
	vpxor	%ymm7, %ymm5, %ymm12
	vpxor	%ymm2, %ymm8, %ymm7
	vmovdqa	%ymm2, %ymm1
	vpxor	%ymm7, %ymm5, %ymm2
	vmovdqa	%ymm2, 96(%rsp)                 # 32-byte Spill
	vmovdqa	128(%rsp), %ymm2                # 32-byte Reload
	vpshufb	%ymm0, %ymm2, %ymm5
	vmovdqa	(%rsp), %ymm0                   # 32-byte Reload
	vpxor	32(%rsp), %ymm0, %ymm7          # 32-byte Folded Reload
	vpxor	%ymm2, %ymm5, %ymm5
	vpxor	%ymm0, %ymm10, %ymm13
	vpxor	%ymm3, %ymm10, %ymm3
	vpxor	%ymm3, %ymm7, %ymm0
	vpxor	%ymm2, %ymm10, %ymm2
	vpxor	%ymm2, %ymm14, %ymm3
	vpxor	256(%rsp), %ymm10, %ymm2        # 32-byte Folded Reload
	vpxor	%ymm5, %ymm2, %ymm8
	vpxor	%ymm7, %ymm4, %ymm2
	vpxor	%ymm13, %ymm14, %ymm7
	vpxor	%ymm7, %ymm9, %ymm7
	vpxor	%ymm5, %ymm0, %ymm5
	vpxor	%ymm4, %ymm5, %ymm5
	vpxor	%ymm11, %ymm9, %ymm11
	vpxor	%ymm3, %ymm11, %ymm11
	vpxor	%ymm15, %ymm8, %ymm15
	vpxor	%ymm6, %ymm10, %ymm10
	vpxor	%ymm2, %ymm13, %ymm13
	vmovdqa	.Laes_v3_CPI33_1(%rip), %ymm14         # ymm14 = [10,11,8,9,14,15,12,13,2,3,0,1,6,7,4,5,26,27,24,25,30,31,28,29,18,19,16,17,22,23,20,21]
	vpshufb	%ymm14, %ymm2, %ymm2
	vpxor	%ymm2, %ymm13, %ymm2
	vmovdqa	%ymm2, 32(%rsp)                 # 32-byte Spill
	vmovdqa	%ymm14, %ymm2
	vpshufb	%ymm14, %ymm12, %ymm13
	vpxor	%ymm0, %ymm12, %ymm0
	vpshufb	%ymm14, %ymm7, %ymm12
	vpxor	%ymm0, %ymm13, %ymm14
	vpshufb	%ymm2, %ymm5, %ymm13
	vpxor	%ymm7, %ymm1, %ymm0
	vmovdqa	96(%rsp), %ymm1                 # 32-byte Reload
	vpshufb	%ymm2, %ymm1, %ymm6
	vpxor	%ymm0, %ymm12, %ymm0
	vmovdqa	%ymm0, 192(%rsp)                # 32-byte Spill
	vpshufb	%ymm2, %ymm11, %ymm12
	vpxor	%ymm5, %ymm3, %ymm3
	vpshufb	%ymm2, %ymm15, %ymm5
	vpxor	%ymm3, %ymm13, %ymm7
	vpshufb	%ymm2, %ymm10, %ymm3
	vpxor	%ymm1, %ymm8, %ymm8
	vpxor	%ymm6, %ymm8, %ymm6
	vpxor	64(%rsp), %ymm11, %ymm8         # 32-byte Folded Reload
	vpxor	%ymm12, %ymm8, %ymm0
	vmovdqa	%ymm0, 384(%rsp)                # 32-byte Spill
	vpxor	%ymm4, %ymm15, %ymm4
	vpxor	%ymm5, %ymm4, %ymm8
	vpxor	%ymm3, %ymm10, %ymm3
	vpxor	%ymm3, %ymm9, %ymm5
	vmovdqa	32(%rsp), %ymm4                 # 32-byte Reload
	vpxor	%ymm4, %ymm14, %ymm1
	vmovdqa	%ymm1, 448(%rsp)                # 32-byte Spill
	vpxor	%ymm6, %ymm8, %ymm11
	vmovdqa	%ymm11, (%rsp)                  # 32-byte Spill
	vpxor	%ymm7, %ymm0, %ymm3
	vpxor	%ymm8, %ymm14, %ymm10
	vpxor	%ymm3, %ymm10, %ymm0
	vmovdqa	%ymm0, 288(%rsp)                # 32-byte Spill
	vpxor	%ymm7, %ymm6, %ymm9
	vpxor	%ymm1, %ymm9, %ymm2
	vmovdqa	%ymm2, 224(%rsp)                # 32-byte Spill
	vpor	%ymm0, %ymm2, %ymm1
	vpxor	%ymm4, %ymm9, %ymm0
	vmovdqa	%ymm0, 96(%rsp)                 # 32-byte Spill
	vpand	%ymm0, %ymm11, %ymm11
	vpxor	%ymm1, %ymm11, %ymm0
	vmovdqa	%ymm0, 480(%rsp)                # 32-byte Spill
	vpxor	%ymm5, %ymm6, %ymm13
	vpxor	%ymm5, %ymm8, %ymm3
	vmovdqa	%ymm3, 128(%rsp)                # 32-byte Spill
	vpxor	%ymm8, %ymm13, %ymm12
	vmovdqa	%ymm13, 320(%rsp)               # 32-byte Spill
	vpxor	%ymm4, %ymm7, %ymm1
	vpxor	%ymm7, %ymm12, %ymm0
	vmovdqa	%ymm0, 32(%rsp)                 # 32-byte Spill
	vmovdqa	%ymm12, 352(%rsp)               # 32-byte Spill
	vmovdqa	192(%rsp), %ymm2                # 32-byte Reload
	vpxor	%ymm2, %ymm14, %ymm6
	vmovdqa	%ymm9, 512(%rsp)                # 32-byte Spill
	vpxor	%ymm6, %ymm9, %ymm11
	vmovdqa	%ymm11, 256(%rsp)               # 32-byte Spill
	vpxor	%ymm3, %ymm1, %ymm8
	vpxor	%ymm8, %ymm11, %ymm7
	vpand	%ymm7, %ymm9, %ymm7
	vpand	%ymm0, %ymm11, %ymm15
	vpxor	%ymm7, %ymm15, %ymm15
	vpand	%ymm3, %ymm8, %ymm9
	vmovdqa	%ymm8, 64(%rsp)                 # 32-byte Spill
	vpxor	%ymm7, %ymm9, %ymm9
	vmovdqa	384(%rsp), %ymm4                # 32-byte Reload
	vpxor	%ymm2, %ymm4, %ymm0
	vpxor	%ymm5, %ymm0, %ymm5
	vmovdqa	%ymm5, 416(%rsp)                # 32-byte Spill
	vpxor	%ymm1, %ymm10, %ymm14
	vmovdqa	(%rsp), %ymm11                  # 32-byte Reload
	vmovdqa	448(%rsp), %ymm2                # 32-byte Reload
	vpxor	%ymm2, %ymm11, %ymm7
	vpand	%ymm5, %ymm7, %ymm10
	vmovdqa	%ymm7, %ymm5
	vpxor	%ymm1, %ymm10, %ymm1
	vpxor	%ymm3, %ymm2, %ymm3
	vmovdqa	%ymm3, 192(%rsp)                # 32-byte Spill
	vpxor	%ymm0, %ymm11, %ymm0
	vmovdqa	%ymm0, 448(%rsp)                # 32-byte Spill
	vpand	%ymm3, %ymm0, %ymm0
	vpxor	%ymm0, %ymm1, %ymm10
	vpxor	%ymm6, %ymm8, %ymm2
	vmovdqa	%ymm2, 160(%rsp)                # 32-byte Spill
	vpand	%ymm13, %ymm12, %ymm1
	vpxor	%ymm1, %ymm2, %ymm1
	vpxor	%ymm0, %ymm1, %ymm0
	vpxor	480(%rsp), %ymm15, %ymm12       # 32-byte Folded Reload
	vpxor	%ymm0, %ymm15, %ymm0
	vmovdqa	288(%rsp), %ymm7                # 32-byte Reload
	vmovdqa	224(%rsp), %ymm6                # 32-byte Reload
	vpand	%ymm7, %ymm6, %ymm2
	vpxor	%ymm4, %ymm2, %ymm2
	vpxor	%ymm4, %ymm5, %ymm13
	vmovdqa	%ymm5, %ymm11
	vmovdqa	%ymm14, %ymm8
	vpand	%ymm14, %ymm13, %ymm15
	vpxor	%ymm2, %ymm15, %ymm2
	vpxor	%ymm9, %ymm10, %ymm15
	vmovdqa	512(%rsp), %ymm14               # 32-byte Reload
	vpxor	%ymm2, %ymm14, %ymm2
	vpxor	%ymm2, %ymm9, %ymm2
	vpand	%ymm0, %ymm12, %ymm9
	vpxor	%ymm0, %ymm15, %ymm10
	vpand	%ymm2, %ymm0, %ymm0
	vpand	%ymm0, %ymm10, %ymm0
	vpxor	%ymm2, %ymm9, %ymm5
	vpand	%ymm5, %ymm10, %ymm5
	vpxor	%ymm10, %ymm9, %ymm10
	vpxor	%ymm0, %ymm10, %ymm1
	vpxor	%ymm15, %ymm9, %ymm10
	vpxor	%ymm2, %ymm12, %ymm3
	vpand	%ymm3, %ymm10, %ymm10
	vpxor	%ymm2, %ymm10, %ymm2
	vpxor	%ymm5, %ymm15, %ymm0
	vpxor	%ymm1, %ymm0, %ymm10
	vpand	%ymm6, %ymm10, %ymm4
	vmovdqa	%ymm4, 224(%rsp)                # 32-byte Spill
	vpand	%ymm7, %ymm10, %ymm10
	vpand	%ymm12, %ymm15, %ymm4
	vpand	%ymm3, %ymm4, %ymm4
	vpxor	%ymm3, %ymm9, %ymm3
	vpxor	%ymm4, %ymm3, %ymm4
	vpand	%ymm0, %ymm8, %ymm5
	vpand	%ymm0, %ymm13, %ymm7
	vpxor	%ymm2, %ymm0, %ymm0
	vpand	(%rsp), %ymm1, %ymm8            # 32-byte Folded Reload
	vmovdqa	%ymm8, 288(%rsp)                # 32-byte Spill
	vpand	416(%rsp), %ymm2, %ymm9         # 32-byte Folded Reload
	vpand	%ymm2, %ymm11, %ymm11
	vpand	96(%rsp), %ymm1, %ymm6          # 32-byte Folded Reload
	vpxor	%ymm4, %ymm1, %ymm15
	vpand	320(%rsp), %ymm4, %ymm1         # 32-byte Folded Reload
	vmovdqa	%ymm1, 96(%rsp)                 # 32-byte Spill
	vpxor	%ymm4, %ymm2, %ymm1
	vpand	352(%rsp), %ymm4, %ymm2         # 32-byte Folded Reload
	vpand	448(%rsp), %ymm1, %ymm4         # 32-byte Folded Reload
	vpand	192(%rsp), %ymm1, %ymm1         # 32-byte Folded Reload
	vmovdqa	%ymm1, (%rsp)                   # 32-byte Spill
	vpand	%ymm0, %ymm14, %ymm1
	vmovdqa	%ymm1, 192(%rsp)                # 32-byte Spill
	vpand	160(%rsp), %ymm0, %ymm1         # 32-byte Folded Reload
	vpxor	%ymm0, %ymm15, %ymm0
	vpand	256(%rsp), %ymm0, %ymm14        # 32-byte Folded Reload
	vpxor	%ymm6, %ymm14, %ymm14
	vpxor	%ymm6, %ymm2, %ymm2
	vpand	32(%rsp), %ymm0, %ymm0          # 32-byte Folded Reload
	vpxor	%ymm5, %ymm10, %ymm13
	vmovdqa	224(%rsp), %ymm3                # 32-byte Reload
	vpxor	%ymm3, %ymm8, %ymm6
	vpxor	%ymm1, %ymm6, %ymm6
	vpand	64(%rsp), %ymm15, %ymm8         # 32-byte Folded Reload
	vpxor	%ymm7, %ymm10, %ymm5
	vpxor	%ymm7, %ymm4, %ymm7
	vpxor	%ymm6, %ymm14, %ymm14
	vpxor	%ymm4, %ymm9, %ymm4
	vpxor	%ymm0, %ymm10, %ymm10
	vmovdqa	%ymm10, 32(%rsp)                # 32-byte Spill
	vpxor	%ymm0, %ymm8, %ymm0
	vpxor	%ymm6, %ymm0, %ymm6
	vpxor	%ymm7, %ymm2, %ymm12
	vpxor	%ymm6, %ymm12, %ymm10
	vpxor	%ymm6, %ymm4, %ymm12
	vpxor	%ymm6, %ymm5, %ymm4
	vpxor	96(%rsp), %ymm9, %ymm9          # 32-byte Folded Reload
	vpxor	%ymm1, %ymm2, %ymm1
	vpxor	%ymm1, %ymm13, %ymm1
	vpxor	192(%rsp), %ymm11, %ymm5        # 32-byte Folded Reload
	vpxor	%ymm11, %ymm9, %ymm2
	vpxor	%ymm2, %ymm3, %ymm6
	vmovdqa	%ymm4, %ymm13
	vmovdqa	%ymm12, %ymm4
	vpxor	%ymm6, %ymm1, %ymm6
	vpxor	%ymm0, %ymm6, %ymm6
	vpand	128(%rsp), %ymm15, %ymm0        # 32-byte Folded Reload
	vpxor	(%rsp), %ymm0, %ymm11           # 32-byte Folded Reload
	vpxor	%ymm0, %ymm7, %ymm0
	vpxor	%ymm2, %ymm0, %ymm0
	vpxor	32(%rsp), %ymm14, %ymm7         # 32-byte Folded Reload
	vpxor	%ymm0, %ymm14, %ymm2
	vpxor	288(%rsp), %ymm9, %ymm0         # 32-byte Folded Reload
	vpxor	%ymm0, %ymm8, %ymm0
	vpxor	%ymm0, %ymm1, %ymm0
	vpxor	%ymm5, %ymm11, %ymm9
	vpxor	%ymm0, %ymm11, %ymm8
	addq	$-1024, %rcx                    # imm = 0xFC00
	decq	%rax
	jne	.Laes_v3_BB33_6
	jmp	.Laes_v3_BB33_7
.Laes_v3_BB33_4:
	vmovdqa	%ymm0, %ymm10
.Laes_v3_BB33_7:                               # %after.6
	vpxor	(%rdi), %ymm9, %ymm0
	vpxor	32(%rdi), %ymm7, %ymm1
	vpxor	64(%rdi), %ymm10, %ymm5
	vpxor	96(%rdi), %ymm2, %ymm2
	vpxor	128(%rdi), %ymm4, %ymm4
	vpxor	160(%rdi), %ymm6, %ymm6
	vpxor	192(%rdi), %ymm8, %ymm7
	vpxor	224(%rdi), %ymm13, %ymm3
	vmovdqu	%ymm0, (%rdx)
	vmovdqu	%ymm1, 32(%rdx)
	vmovdqu	%ymm5, 64(%rdx)
	vmovdqu	%ymm2, 96(%rdx)
	vmovdqu	%ymm4, 128(%rdx)
	vmovdqu	%ymm6, 160(%rdx)
	vmovdqu	%ymm7, 192(%rdx)
	vmovdqu	%ymm3, 224(%rdx)
	leaq	464(%rbp), %rsp
	popq	%rbp
	vzeroupper
	retq
	.seh_endproc
                                        # -- End function
	.def	aes_v3.aes_permute.blocks.process_on_lanes.2;
	.scl	3;
	.type	32;
	.endef
	.section	.rdata,"dr"
	.p2align	5, 0x0                          # -- Begin function aes_permute::blocks::process_on_lanes::<#ad399e9a5297d62c>
.Laes_v3_CPI34_0:
	.zero	32,15
.Laes_v3_CPI34_1:
	.byte	0                               # 0x0
	.byte	181                             # 0xb5
	.byte	220                             # 0xdc
	.byte	105                             # 0x69
	.byte	219                             # 0xdb
	.byte	110                             # 0x6e
	.byte	7                               # 0x7
	.byte	178                             # 0xb2
	.byte	20                              # 0x14
	.byte	161                             # 0xa1
	.byte	200                             # 0xc8
	.byte	125                             # 0x7d
	.byte	207                             # 0xcf
	.byte	122                             # 0x7a
	.byte	19                              # 0x13
	.byte	166                             # 0xa6
	.byte	0                               # 0x0
	.byte	181                             # 0xb5
	.byte	220                             # 0xdc
	.byte	105                             # 0x69
	.byte	219                             # 0xdb
	.byte	110                             # 0x6e
	.byte	7                               # 0x7
	.byte	178                             # 0xb2
	.byte	20                              # 0x14
	.byte	161                             # 0xa1
	.byte	200                             # 0xc8
	.byte	125                             # 0x7d
	.byte	207                             # 0xcf
	.byte	122                             # 0x7a
	.byte	19                              # 0x13
	.byte	166                             # 0xa6
.Laes_v3_CPI34_2:
	.byte	0                               # 0x0
	.byte	167                             # 0xa7
	.byte	168                             # 0xa8
	.byte	15                              # 0xf
	.byte	237                             # 0xed
	.byte	74                              # 0x4a
	.byte	69                              # 0x45
	.byte	226                             # 0xe2
	.byte	209                             # 0xd1
	.byte	118                             # 0x76
	.byte	121                             # 0x79
	.byte	222                             # 0xde
	.byte	60                              # 0x3c
	.byte	155                             # 0x9b
	.byte	148                             # 0x94
	.byte	51                              # 0x33
	.byte	0                               # 0x0
	.byte	167                             # 0xa7
	.byte	168                             # 0xa8
	.byte	15                              # 0xf
	.byte	237                             # 0xed
	.byte	74                              # 0x4a
	.byte	69                              # 0x45
	.byte	226                             # 0xe2
	.byte	209                             # 0xd1
	.byte	118                             # 0x76
	.byte	121                             # 0x79
	.byte	222                             # 0xde
	.byte	60                              # 0x3c
	.byte	155                             # 0x9b
	.byte	148                             # 0x94
	.byte	51                              # 0x33
.Laes_v3_CPI34_3:
	.byte	128                             # 0x80
	.byte	2                               # 0x2
	.byte	1                               # 0x1
	.byte	15                              # 0xf
	.byte	9                               # 0x9
	.byte	5                               # 0x5
	.byte	14                              # 0xe
	.byte	12                              # 0xc
	.byte	13                              # 0xd
	.byte	4                               # 0x4
	.byte	11                              # 0xb
	.byte	10                              # 0xa
	.byte	7                               # 0x7
	.byte	8                               # 0x8
	.byte	6                               # 0x6
	.byte	3                               # 0x3
	.byte	128                             # 0x80
	.byte	2                               # 0x2
	.byte	1                               # 0x1
	.byte	15                              # 0xf
	.byte	9                               # 0x9
	.byte	5                               # 0x5
	.byte	14                              # 0xe
	.byte	12                              # 0xc
	.byte	13                              # 0xd
	.byte	4                               # 0x4
	.byte	11                              # 0xb
	.byte	10                              # 0xa
	.byte	7                               # 0x7
	.byte	8                               # 0x8
	.byte	6                               # 0x6
	.byte	3                               # 0x3
.Laes_v3_CPI34_4:
	.byte	128                             # 0x80
	.byte	1                               # 0x1
	.byte	9                               # 0x9
	.byte	14                              # 0xe
	.byte	13                              # 0xd
	.byte	11                              # 0xb
	.byte	7                               # 0x7
	.byte	6                               # 0x6
	.byte	15                              # 0xf
	.byte	2                               # 0x2
	.byte	12                              # 0xc
	.byte	5                               # 0x5
	.byte	10                              # 0xa
	.byte	4                               # 0x4
	.byte	3                               # 0x3
	.byte	8                               # 0x8
	.byte	128                             # 0x80
	.byte	1                               # 0x1
	.byte	9                               # 0x9
	.byte	14                              # 0xe
	.byte	13                              # 0xd
	.byte	11                              # 0xb
	.byte	7                               # 0x7
	.byte	6                               # 0x6
	.byte	15                              # 0xf
	.byte	2                               # 0x2
	.byte	12                              # 0xc
	.byte	5                               # 0x5
	.byte	10                              # 0xa
	.byte	4                               # 0x4
	.byte	3                               # 0x3
	.byte	8                               # 0x8
.Laes_v3_CPI34_5:
	.byte	0                               # 0x0
	.byte	41                              # 0x29
	.byte	235                             # 0xeb
	.byte	82                              # 0x52
	.byte	166                             # 0xa6
	.byte	54                              # 0x36
	.byte	185                             # 0xb9
	.byte	144                             # 0x90
	.byte	123                             # 0x7b
	.byte	221                             # 0xdd
	.byte	143                             # 0x8f
	.byte	100                             # 0x64
	.byte	31                              # 0x1f
	.byte	77                              # 0x4d
	.byte	244                             # 0xf4
	.byte	194                             # 0xc2
	.byte	0                               # 0x0
	.byte	41                              # 0x29
	.byte	235                             # 0xeb
	.byte	82                              # 0x52
	.byte	166                             # 0xa6
	.byte	54                              # 0x36
	.byte	185                             # 0xb9
	.byte	144                             # 0x90
	.byte	123                             # 0x7b
	.byte	221                             # 0xdd
	.byte	143                             # 0x8f
	.byte	100                             # 0x64
	.byte	31                              # 0x1f
	.byte	77                              # 0x4d
	.byte	244                             # 0xf4
	.byte	194                             # 0xc2
.Laes_v3_CPI34_6:
	.byte	0                               # 0x0
	.byte	5                               # 0x5
	.byte	253                             # 0xfd
	.byte	152                             # 0x98
	.byte	223                             # 0xdf
	.byte	191                             # 0xbf
	.byte	101                             # 0x65
	.byte	96                              # 0x60
	.byte	157                             # 0x9d
	.byte	66                              # 0x42
	.byte	218                             # 0xda
	.byte	39                              # 0x27
	.byte	186                             # 0xba
	.byte	34                              # 0x22
	.byte	71                              # 0x47
	.byte	248                             # 0xf8
	.byte	0                               # 0x0
	.byte	5                               # 0x5
	.byte	253                             # 0xfd
	.byte	152                             # 0x98
	.byte	223                             # 0xdf
	.byte	191                             # 0xbf
	.byte	101                             # 0x65
	.byte	96                              # 0x60
	.byte	157                             # 0x9d
	.byte	66                              # 0x42
	.byte	218                             # 0xda
	.byte	39                              # 0x27
	.byte	186                             # 0xba
	.byte	34                              # 0x22
	.byte	71                              # 0x47
	.byte	248                             # 0xf8
.Laes_v3_CPI34_7:
	.byte	0                               # 0x0
	.byte	91                              # 0x5b
	.byte	164                             # 0xa4
	.byte	122                             # 0x7a
	.byte	207                             # 0xcf
	.byte	74                              # 0x4a
	.byte	222                             # 0xde
	.byte	133                             # 0x85
	.byte	33                              # 0x21
	.byte	238                             # 0xee
	.byte	148                             # 0x94
	.byte	48                              # 0x30
	.byte	17                              # 0x11
	.byte	107                             # 0x6b
	.byte	181                             # 0xb5
	.byte	255                             # 0xff
	.byte	0                               # 0x0
	.byte	91                              # 0x5b
	.byte	164                             # 0xa4
	.byte	122                             # 0x7a
	.byte	207                             # 0xcf
	.byte	74                              # 0x4a
	.byte	222                             # 0xde
	.byte	133                             # 0x85
	.byte	33                              # 0x21
	.byte	238                             # 0xee
	.byte	148                             # 0x94
	.byte	48                              # 0x30
	.byte	17                              # 0x11
	.byte	107                             # 0x6b
	.byte	181                             # 0xb5
	.byte	255                             # 0xff
.Laes_v3_CPI34_8:
	.byte	0                               # 0x0
	.byte	118                             # 0x76
	.byte	62                              # 0x3e
	.byte	158                             # 0x9e
	.byte	30                              # 0x1e
	.byte	200                             # 0xc8
	.byte	160                             # 0xa0
	.byte	214                             # 0xd6
	.byte	232                             # 0xe8
	.byte	246                             # 0xf6
	.byte	104                             # 0x68
	.byte	86                              # 0x56
	.byte	190                             # 0xbe
	.byte	32                              # 0x20
	.byte	128                             # 0x80
	.byte	72                              # 0x48
	.byte	0                               # 0x0
	.byte	118                             # 0x76
	.byte	62                              # 0x3e
	.byte	158                             # 0x9e
	.byte	30                              # 0x1e
	.byte	200                             # 0xc8
	.byte	160                             # 0xa0
	.byte	214                             # 0xd6
	.byte	232                             # 0xe8
	.byte	246                             # 0xf6
	.byte	104                             # 0x68
	.byte	86                              # 0x56
	.byte	190                             # 0xbe
	.byte	32                              # 0x20
	.byte	128                             # 0x80
	.byte	72                              # 0x48
.Laes_v3_CPI34_9:
	.byte	0                               # 0x0
	.byte	28                              # 0x1c
	.byte	68                              # 0x44
	.byte	88                              # 0x58
	.byte	151                             # 0x97
	.byte	139                             # 0x8b
	.byte	211                             # 0xd3
	.byte	207                             # 0xcf
	.byte	138                             # 0x8a
	.byte	150                             # 0x96
	.byte	206                             # 0xce
	.byte	210                             # 0xd2
	.byte	29                              # 0x1d
	.byte	1                               # 0x1
	.byte	89                              # 0x59
	.byte	69                              # 0x45
	.byte	0                               # 0x0
	.byte	28                              # 0x1c
	.byte	68                              # 0x44
	.byte	88                              # 0x58
	.byte	151                             # 0x97
	.byte	139                             # 0x8b
	.byte	211                             # 0xd3
	.byte	207                             # 0xcf
	.byte	138                             # 0x8a
	.byte	150                             # 0x96
	.byte	206                             # 0xce
	.byte	210                             # 0xd2
	.byte	29                              # 0x1d
	.byte	1                               # 0x1
	.byte	89                              # 0x59
	.byte	69                              # 0x45
.Laes_v3_CPI34_10:
	.byte	0                               # 0x0
	.byte	48                              # 0x30
	.byte	38                              # 0x26
	.byte	22                              # 0x16
	.byte	183                             # 0xb7
	.byte	135                             # 0x87
	.byte	145                             # 0x91
	.byte	161                             # 0xa1
	.byte	65                              # 0x41
	.byte	113                             # 0x71
	.byte	103                             # 0x67
	.byte	87                              # 0x57
	.byte	246                             # 0xf6
	.byte	198                             # 0xc6
	.byte	208                             # 0xd0
	.byte	224                             # 0xe0
	.byte	0                               # 0x0
	.byte	48                              # 0x30
	.byte	38                              # 0x26
	.byte	22                              # 0x16
	.byte	183                             # 0xb7
	.byte	135                             # 0x87
	.byte	145                             # 0x91
	.byte	161                             # 0xa1
	.byte	65                              # 0x41
	.byte	113                             # 0x71
	.byte	103                             # 0x67
	.byte	87                              # 0x57
	.byte	246                             # 0xf6
	.byte	198                             # 0xc6
	.byte	208                             # 0xd0
	.byte	224                             # 0xe0
.Laes_v3_CPI34_11:
	.byte	0                               # 0x0
	.byte	59                              # 0x3b
	.byte	228                             # 0xe4
	.byte	200                             # 0xc8
	.byte	3                               # 0x3
	.byte	20                              # 0x14
	.byte	44                              # 0x2c
	.byte	23                              # 0x17
	.byte	243                             # 0xf3
	.byte	240                             # 0xf0
	.byte	56                              # 0x38
	.byte	220                             # 0xdc
	.byte	47                              # 0x2f
	.byte	231                             # 0xe7
	.byte	203                             # 0xcb
	.byte	223                             # 0xdf
	.byte	0                               # 0x0
	.byte	59                              # 0x3b
	.byte	228                             # 0xe4
	.byte	200                             # 0xc8
	.byte	3                               # 0x3
	.byte	20                              # 0x14
	.byte	44                              # 0x2c
	.byte	23                              # 0x17
	.byte	243                             # 0xf3
	.byte	240                             # 0xf0
	.byte	56                              # 0x38
	.byte	220                             # 0xdc
	.byte	47                              # 0x2f
	.byte	231                             # 0xe7
	.byte	203                             # 0xcb
	.byte	223                             # 0xdf
.Laes_v3_CPI34_12:
	.byte	0                               # 0x0
	.byte	36                              # 0x24
	.byte	145                             # 0x91
	.byte	25                              # 0x19
	.byte	35                              # 0x23
	.byte	143                             # 0x8f
	.byte	136                             # 0x88
	.byte	172                             # 0xac
	.byte	61                              # 0x3d
	.byte	30                              # 0x1e
	.byte	7                               # 0x7
	.byte	150                             # 0x96
	.byte	171                             # 0xab
	.byte	178                             # 0xb2
	.byte	58                              # 0x3a
	.byte	181                             # 0xb5
	.byte	0                               # 0x0
	.byte	36                              # 0x24
	.byte	145                             # 0x91
	.byte	25                              # 0x19
	.byte	35                              # 0x23
	.byte	143                             # 0x8f
	.byte	136                             # 0x88
	.byte	172                             # 0xac
	.byte	61                              # 0x3d
	.byte	30                              # 0x1e
	.byte	7                               # 0x7
	.byte	150                             # 0x96
	.byte	171                             # 0xab
	.byte	178                             # 0xb2
	.byte	58                              # 0x3a
	.byte	181                             # 0xb5
.Laes_v3_CPI34_13:
	.zero	16,15
.Laes_v3_CPI34_14:
	.byte	0                               # 0x0
	.byte	181                             # 0xb5
	.byte	220                             # 0xdc
	.byte	105                             # 0x69
	.byte	219                             # 0xdb
	.byte	110                             # 0x6e
	.byte	7                               # 0x7
	.byte	178                             # 0xb2
	.byte	20                              # 0x14
	.byte	161                             # 0xa1
	.byte	200                             # 0xc8
	.byte	125                             # 0x7d
	.byte	207                             # 0xcf
	.byte	122                             # 0x7a
	.byte	19                              # 0x13
	.byte	166                             # 0xa6
.Laes_v3_CPI34_15:
	.byte	0                               # 0x0
	.byte	167                             # 0xa7
	.byte	168                             # 0xa8
	.byte	15                              # 0xf
	.byte	237                             # 0xed
	.byte	74                              # 0x4a
	.byte	69                              # 0x45
	.byte	226                             # 0xe2
	.byte	209                             # 0xd1
	.byte	118                             # 0x76
	.byte	121                             # 0x79
	.byte	222                             # 0xde
	.byte	60                              # 0x3c
	.byte	155                             # 0x9b
	.byte	148                             # 0x94
	.byte	51                              # 0x33
.Laes_v3_CPI34_16:
	.byte	128                             # 0x80
	.byte	2                               # 0x2
	.byte	1                               # 0x1
	.byte	15                              # 0xf
	.byte	9                               # 0x9
	.byte	5                               # 0x5
	.byte	14                              # 0xe
	.byte	12                              # 0xc
	.byte	13                              # 0xd
	.byte	4                               # 0x4
	.byte	11                              # 0xb
	.byte	10                              # 0xa
	.byte	7                               # 0x7
	.byte	8                               # 0x8
	.byte	6                               # 0x6
	.byte	3                               # 0x3
.Laes_v3_CPI34_17:
	.byte	128                             # 0x80
	.byte	1                               # 0x1
	.byte	9                               # 0x9
	.byte	14                              # 0xe
	.byte	13                              # 0xd
	.byte	11                              # 0xb
	.byte	7                               # 0x7
	.byte	6                               # 0x6
	.byte	15                              # 0xf
	.byte	2                               # 0x2
	.byte	12                              # 0xc
	.byte	5                               # 0x5
	.byte	10                              # 0xa
	.byte	4                               # 0x4
	.byte	3                               # 0x3
	.byte	8                               # 0x8
.Laes_v3_CPI34_18:
	.byte	0                               # 0x0
	.byte	41                              # 0x29
	.byte	235                             # 0xeb
	.byte	82                              # 0x52
	.byte	166                             # 0xa6
	.byte	54                              # 0x36
	.byte	185                             # 0xb9
	.byte	144                             # 0x90
	.byte	123                             # 0x7b
	.byte	221                             # 0xdd
	.byte	143                             # 0x8f
	.byte	100                             # 0x64
	.byte	31                              # 0x1f
	.byte	77                              # 0x4d
	.byte	244                             # 0xf4
	.byte	194                             # 0xc2
.Laes_v3_CPI34_19:
	.byte	0                               # 0x0
	.byte	5                               # 0x5
	.byte	253                             # 0xfd
	.byte	152                             # 0x98
	.byte	223                             # 0xdf
	.byte	191                             # 0xbf
	.byte	101                             # 0x65
	.byte	96                              # 0x60
	.byte	157                             # 0x9d
	.byte	66                              # 0x42
	.byte	218                             # 0xda
	.byte	39                              # 0x27
	.byte	186                             # 0xba
	.byte	34                              # 0x22
	.byte	71                              # 0x47
	.byte	248                             # 0xf8
.Laes_v3_CPI34_20:
	.byte	0                               # 0x0
	.byte	91                              # 0x5b
	.byte	164                             # 0xa4
	.byte	122                             # 0x7a
	.byte	207                             # 0xcf
	.byte	74                              # 0x4a
	.byte	222                             # 0xde
	.byte	133                             # 0x85
	.byte	33                              # 0x21
	.byte	238                             # 0xee
	.byte	148                             # 0x94
	.byte	48                              # 0x30
	.byte	17                              # 0x11
	.byte	107                             # 0x6b
	.byte	181                             # 0xb5
	.byte	255                             # 0xff
.Laes_v3_CPI34_21:
	.byte	0                               # 0x0
	.byte	118                             # 0x76
	.byte	62                              # 0x3e
	.byte	158                             # 0x9e
	.byte	30                              # 0x1e
	.byte	200                             # 0xc8
	.byte	160                             # 0xa0
	.byte	214                             # 0xd6
	.byte	232                             # 0xe8
	.byte	246                             # 0xf6
	.byte	104                             # 0x68
	.byte	86                              # 0x56
	.byte	190                             # 0xbe
	.byte	32                              # 0x20
	.byte	128                             # 0x80
	.byte	72                              # 0x48
.Laes_v3_CPI34_22:
	.byte	0                               # 0x0
	.byte	28                              # 0x1c
	.byte	68                              # 0x44
	.byte	88                              # 0x58
	.byte	151                             # 0x97
	.byte	139                             # 0x8b
	.byte	211                             # 0xd3
	.byte	207                             # 0xcf
	.byte	138                             # 0x8a
	.byte	150                             # 0x96
	.byte	206                             # 0xce
	.byte	210                             # 0xd2
	.byte	29                              # 0x1d
	.byte	1                               # 0x1
	.byte	89                              # 0x59
	.byte	69                              # 0x45
.Laes_v3_CPI34_23:
	.byte	0                               # 0x0
	.byte	48                              # 0x30
	.byte	38                              # 0x26
	.byte	22                              # 0x16
	.byte	183                             # 0xb7
	.byte	135                             # 0x87
	.byte	145                             # 0x91
	.byte	161                             # 0xa1
	.byte	65                              # 0x41
	.byte	113                             # 0x71
	.byte	103                             # 0x67
	.byte	87                              # 0x57
	.byte	246                             # 0xf6
	.byte	198                             # 0xc6
	.byte	208                             # 0xd0
	.byte	224                             # 0xe0
.Laes_v3_CPI34_24:
	.byte	0                               # 0x0
	.byte	59                              # 0x3b
	.byte	228                             # 0xe4
	.byte	200                             # 0xc8
	.byte	3                               # 0x3
	.byte	20                              # 0x14
	.byte	44                              # 0x2c
	.byte	23                              # 0x17
	.byte	243                             # 0xf3
	.byte	240                             # 0xf0
	.byte	56                              # 0x38
	.byte	220                             # 0xdc
	.byte	47                              # 0x2f
	.byte	231                             # 0xe7
	.byte	203                             # 0xcb
	.byte	223                             # 0xdf
.Laes_v3_CPI34_25:
	.byte	0                               # 0x0
	.byte	36                              # 0x24
	.byte	145                             # 0x91
	.byte	25                              # 0x19
	.byte	35                              # 0x23
	.byte	143                             # 0x8f
	.byte	136                             # 0x88
	.byte	172                             # 0xac
	.byte	61                              # 0x3d
	.byte	30                              # 0x1e
	.byte	7                               # 0x7
	.byte	150                             # 0x96
	.byte	171                             # 0xab
	.byte	178                             # 0xb2
	.byte	58                              # 0x3a
	.byte	181                             # 0xb5
.Laes_v3_CPI34_26:
	.zero	4,15
	.text
	.p2align	4
aes_v3.aes_permute.blocks.process_on_lanes.2: # @aes_v3.aes_permute.blocks.process_on_lanes.2
.seh_proc aes_v3.aes_permute.blocks.process_on_lanes.2
# %bb.0:                                # %start
	pushq	%rbp
	.seh_pushreg %rbp
	pushq	%r15
	.seh_pushreg %r15
	pushq	%r14
	.seh_pushreg %r14
	pushq	%r13
	.seh_pushreg %r13
	pushq	%r12
	.seh_pushreg %r12
	pushq	%rbx
	.seh_pushreg %rbx
	subq	$40, %rsp
	.seh_stackalloc 40
	.seh_endprologue
	cmpq	$4, %rcx
	jb	.Laes_v3_BB34_1
# %bb.15:                               # %join.5.lr.ph
	leaq	-1(%rsi), %r8
	movq	%r8, %r9
	shlq	$4, %r9
	movl	%r8d, %eax
	negl	%eax
	shll	$4, %eax
	andl	$48, %eax
	leaq	.Laes_v3_static.3(%rip), %r10
	vbroadcasti128	(%rax,%r10), %ymm0      # ymm0 = mem[0,1,0,1]
	vmovdqu	%ymm0, (%rsp)                   # 32-byte Spill
	leaq	-2(%rsi), %r10
	leaq	16(%rdi), %r11
	xorl	%eax, %eax
	jmp	.Laes_v3_BB34_16
	.p2align	4
.Laes_v3_BB34_19:                              # %"aes_permute::blocks::process_two_vectors::<#ad399e9a5297d62c>.exit"
                                        #   in Loop: Header=BB34_16 Depth=1
	vbroadcasti128	(%rdi,%r9), %ymm4       # ymm4 = mem[0,1,0,1]
	vpsrlw	$4, %ymm3, %ymm0
	vpand	%ymm0, %ymm11, %ymm0
	vpand	%ymm3, %ymm11, %ymm1
	vpxor	%ymm1, %ymm0, %ymm3
	vbroadcasti128	.Laes_v3_CPI34_16(%rip), %ymm5 # ymm5 = [128,2,1,15,9,5,14,12,13,4,11,10,7,8,6,3,128,2,1,15,9,5,14,12,13,4,11,10,7,8,6,3]
                                        # ymm5 = mem[0,1,0,1]
	vpshufb	%ymm1, %ymm5, %ymm1
	vbroadcasti128	.Laes_v3_CPI34_17(%rip), %ymm6 # ymm6 = [128,1,9,14,13,11,7,6,15,2,12,5,10,4,3,8,128,1,9,14,13,11,7,6,15,2,12,5,10,4,3,8]
                                        # ymm6 = mem[0,1,0,1]
	vpshufb	%ymm0, %ymm6, %ymm7
	vpshufb	%ymm3, %ymm6, %ymm8
	vpxor	%ymm1, %ymm7, %ymm7
	vpxor	%ymm1, %ymm8, %ymm1
	vpshufb	%ymm7, %ymm6, %ymm7
	vpshufb	%ymm1, %ymm6, %ymm1
	vpxor	%ymm3, %ymm7, %ymm3
	vpxor	%ymm0, %ymm1, %ymm0
	vbroadcasti128	.Laes_v3_CPI34_24(%rip), %ymm1 # ymm1 = [0,59,228,200,3,20,44,23,243,240,56,220,47,231,203,223,0,59,228,200,3,20,44,23,243,240,56,220,47,231,203,223]
                                        # ymm1 = mem[0,1,0,1]
	vpshufb	%ymm3, %ymm1, %ymm3
	vbroadcasti128	.Laes_v3_CPI34_25(%rip), %ymm7 # ymm7 = [0,36,145,25,35,143,136,172,61,30,7,150,171,178,58,181,0,36,145,25,35,143,136,172,61,30,7,150,171,178,58,181]
                                        # ymm7 = mem[0,1,0,1]
	vpshufb	%ymm0, %ymm7, %ymm0
	vpxor	%ymm3, %ymm0, %ymm0
	vmovdqu	(%rsp), %ymm10                  # 32-byte Reload
	vpshufb	%ymm10, %ymm0, %ymm0
	vpxor	%ymm4, %ymm0, %ymm0
	vpsrlw	$4, %ymm2, %ymm3
	vpand	%ymm3, %ymm11, %ymm3
	vpand	%ymm2, %ymm11, %ymm2
	vpxor	%ymm2, %ymm3, %ymm8
	vpshufb	%ymm2, %ymm5, %ymm2
	vpshufb	%ymm3, %ymm6, %ymm5
	vpshufb	%ymm8, %ymm6, %ymm9
	vpxor	%ymm2, %ymm5, %ymm5
	vpxor	%ymm2, %ymm9, %ymm2
	vpshufb	%ymm5, %ymm6, %ymm5
	vpshufb	%ymm2, %ymm6, %ymm2
	vpxor	%ymm5, %ymm8, %ymm5
	vpxor	%ymm3, %ymm2, %ymm2
	vpshufb	%ymm5, %ymm1, %ymm1
	vpshufb	%ymm2, %ymm7, %ymm2
	vpxor	%ymm1, %ymm2, %ymm1
	vpshufb	%ymm10, %ymm1, %ymm1
	vpxor	%ymm4, %ymm1, %ymm1
	vmovdqu	%ymm0, (%rdx,%rbx)
	vmovdqu	%ymm1, 32(%rdx,%rbx)
	addq	$4, %rax
	movq	%rcx, %rbx
	subq	%rax, %rbx
	cmpq	$3, %rbx
	jbe	.Laes_v3_BB34_2
.Laes_v3_BB34_16:                              # %join.5
                                        # =>This Loop Header: Depth=1
                                        #     Child Loop BB34_18 Depth 2
	movq	%rax, %rbx
	shlq	$4, %rbx
	vbroadcasti128	(%rdi), %ymm2           # ymm2 = mem[0,1,0,1]
	vpxor	(%rdx,%rbx), %ymm2, %ymm3
	vpbroadcastd	.Laes_v3_CPI34_26(%rip), %ymm11 # ymm11 = [15,15,15,15,15,15,15,15,15,15,15,15,15,15,15,15,15,15,15,15,15,15,15,15,15,15,15,15,15,15,15,15]
	vpand	%ymm3, %ymm11, %ymm4
	vbroadcasti128	.Laes_v3_CPI34_14(%rip), %ymm5 # ymm5 = [0,181,220,105,219,110,7,178,20,161,200,125,207,122,19,166,0,181,220,105,219,110,7,178,20,161,200,125,207,122,19,166]
                                        # ymm5 = mem[0,1,0,1]
	vpshufb	%ymm4, %ymm5, %ymm4
	vpsrlw	$4, %ymm3, %ymm3
	vpand	%ymm3, %ymm11, %ymm3
	vbroadcasti128	.Laes_v3_CPI34_15(%rip), %ymm6 # ymm6 = [0,167,168,15,237,74,69,226,209,118,121,222,60,155,148,51,0,167,168,15,237,74,69,226,209,118,121,222,60,155,148,51]
                                        # ymm6 = mem[0,1,0,1]
	vpshufb	%ymm3, %ymm6, %ymm3
	vpxor	32(%rdx,%rbx), %ymm2, %ymm2
	vpxor	%ymm4, %ymm3, %ymm3
	vpand	%ymm2, %ymm11, %ymm4
	vpshufb	%ymm4, %ymm5, %ymm4
	vpsrlw	$4, %ymm2, %ymm2
	vpand	%ymm2, %ymm11, %ymm2
	vpshufb	%ymm2, %ymm6, %ymm2
	vpxor	%ymm4, %ymm2, %ymm2
	cmpq	$2, %r8
	jb	.Laes_v3_BB34_19
# %bb.17:                               # %join.5.i1306.preheader
                                        #   in Loop: Header=BB34_16 Depth=1
	movl	$48, %r14d
	movq	%r11, %r15
	movq	%r10, %r12
	.p2align	4
.Laes_v3_BB34_18:                              # %join.5.i1306
                                        #   Parent Loop BB34_16 Depth=1
                                        # =>  This Inner Loop Header: Depth=2
	vpsrlw	$4, %ymm3, %ymm4
	vpand	%ymm4, %ymm11, %ymm5
	vpand	%ymm3, %ymm11, %ymm3
	vpxor	%ymm3, %ymm5, %ymm6
	vbroadcasti128	.Laes_v3_CPI34_16(%rip), %ymm4 # ymm4 = [128,2,1,15,9,5,14,12,13,4,11,10,7,8,6,3,128,2,1,15,9,5,14,12,13,4,11,10,7,8,6,3]
                                        # ymm4 = mem[0,1,0,1]
	vpshufb	%ymm3, %ymm4, %ymm7
	vbroadcasti128	.Laes_v3_CPI34_17(%rip), %ymm3 # ymm3 = [128,1,9,14,13,11,7,6,15,2,12,5,10,4,3,8,128,1,9,14,13,11,7,6,15,2,12,5,10,4,3,8]
                                        # ymm3 = mem[0,1,0,1]
	vpshufb	%ymm5, %ymm3, %ymm8
	vpshufb	%ymm6, %ymm3, %ymm9
	vpxor	%ymm7, %ymm8, %ymm8
	vpxor	%ymm7, %ymm9, %ymm7
	vpshufb	%ymm8, %ymm3, %ymm8
	vpshufb	%ymm7, %ymm3, %ymm7
	vpxor	%ymm6, %ymm8, %ymm8
	vpxor	%ymm5, %ymm7, %ymm5
	vbroadcasti128	.Laes_v3_CPI34_18(%rip), %ymm0 # ymm0 = [0,41,235,82,166,54,185,144,123,221,143,100,31,77,244,194,0,41,235,82,166,54,185,144,123,221,143,100,31,77,244,194]
                                        # ymm0 = mem[0,1,0,1]
	vpshufb	%ymm8, %ymm0, %ymm9
	vbroadcasti128	.Laes_v3_CPI34_19(%rip), %ymm7 # ymm7 = [0,5,253,152,223,191,101,96,157,66,218,39,186,34,71,248,0,5,253,152,223,191,101,96,157,66,218,39,186,34,71,248]
                                        # ymm7 = mem[0,1,0,1]
	vpshufb	%ymm5, %ymm7, %ymm10
	vpxor	%ymm9, %ymm10, %ymm0
	vbroadcasti128	.Laes_v3_CPI34_20(%rip), %ymm9 # ymm9 = [0,91,164,122,207,74,222,133,33,238,148,48,17,107,181,255,0,91,164,122,207,74,222,133,33,238,148,48,17,107,181,255]
                                        # ymm9 = mem[0,1,0,1]
	vpshufb	%ymm8, %ymm9, %ymm8
	vbroadcasti128	.Laes_v3_CPI34_21(%rip), %ymm10 # ymm10 = [0,118,62,158,30,200,160,214,232,246,104,86,190,32,128,72,0,118,62,158,30,200,160,214,232,246,104,86,190,32,128,72]
                                        # ymm10 = mem[0,1,0,1]
	vpshufb	%ymm5, %ymm10, %ymm5
	vpxor	%ymm5, %ymm8, %ymm5
	movl	%r14d, %r13d
	andl	$48, %r13d
	leaq	.Laes_v3_static.6(%rip), %rbp
	vbroadcasti128	(%r13,%rbp), %ymm12     # ymm12 = mem[0,1,0,1]
	vpshufb	%ymm12, %ymm5, %ymm5
	vpxor	%ymm5, %ymm0, %ymm5
	vpand	%ymm5, %ymm11, %ymm8
	vbroadcasti128	.Laes_v3_CPI34_22(%rip), %ymm13 # ymm13 = [0,28,68,88,151,139,211,207,138,150,206,210,29,1,89,69,0,28,68,88,151,139,211,207,138,150,206,210,29,1,89,69]
                                        # ymm13 = mem[0,1,0,1]
	vpshufb	%ymm8, %ymm13, %ymm1
	vpsrlw	$4, %ymm5, %ymm8
	vpand	%ymm11, %ymm8, %ymm8
	vbroadcasti128	.Laes_v3_CPI34_23(%rip), %ymm14 # ymm14 = [0,48,38,22,183,135,145,161,65,113,103,87,246,198,208,224,0,48,38,22,183,135,145,161,65,113,103,87,246,198,208,224]
                                        # ymm14 = mem[0,1,0,1]
	vpshufb	%ymm8, %ymm14, %ymm15
	leaq	.Laes_v3_static.4(%rip), %rbp
	vbroadcasti128	(%r13,%rbp), %ymm8      # ymm8 = mem[0,1,0,1]
	vpshufb	%ymm8, %ymm5, %ymm0
	vpxor	%ymm0, %ymm1, %ymm0
	vpxor	%ymm0, %ymm15, %ymm6
	vpsrlw	$4, %ymm2, %ymm0
	vpand	%ymm0, %ymm11, %ymm0
	vpand	%ymm2, %ymm11, %ymm2
	vpxor	%ymm2, %ymm0, %ymm15
	vpshufb	%ymm2, %ymm4, %ymm2
	vpshufb	%ymm0, %ymm3, %ymm4
	vpshufb	%ymm15, %ymm3, %ymm1
	vpxor	%ymm2, %ymm4, %ymm4
	vpxor	%ymm2, %ymm1, %ymm1
	vpshufb	%ymm4, %ymm3, %ymm2
	vpshufb	%ymm1, %ymm3, %ymm1
	vpxor	%ymm2, %ymm15, %ymm2
	vpxor	%ymm0, %ymm1, %ymm0
	vbroadcasti128	.Laes_v3_CPI34_18(%rip), %ymm1 # ymm1 = [0,41,235,82,166,54,185,144,123,221,143,100,31,77,244,194,0,41,235,82,166,54,185,144,123,221,143,100,31,77,244,194]
                                        # ymm1 = mem[0,1,0,1]
	vpshufb	%ymm2, %ymm1, %ymm1
	vpshufb	%ymm0, %ymm7, %ymm3
	vpxor	%ymm1, %ymm3, %ymm1
	vpshufb	%ymm2, %ymm9, %ymm2
	vpshufb	%ymm0, %ymm10, %ymm0
	vpxor	%ymm2, %ymm0, %ymm0
	vpshufb	%ymm12, %ymm0, %ymm0
	vpxor	%ymm0, %ymm1, %ymm0
	vpand	%ymm0, %ymm11, %ymm1
	vpshufb	%ymm1, %ymm13, %ymm1
	vpsrlw	$4, %ymm0, %ymm2
	vpand	%ymm2, %ymm11, %ymm2
	vpshufb	%ymm2, %ymm14, %ymm2
	vpshufb	%ymm8, %ymm0, %ymm3
	vpxor	%ymm3, %ymm1, %ymm1
	leaq	.Laes_v3_static.5(%rip), %rbp
	vpxor	%ymm1, %ymm2, %ymm1
	vbroadcasti128	(%r13,%rbp), %ymm2      # ymm2 = mem[0,1,0,1]
	vpshufb	%ymm2, %ymm5, %ymm3
	vpshufb	%ymm2, %ymm0, %ymm0
	vpxor	%ymm6, %ymm3, %ymm2
	vpshufb	%ymm8, %ymm6, %ymm3
	vpxor	%ymm2, %ymm3, %ymm2
	vpshufb	%ymm8, %ymm1, %ymm3
	vpxor	%ymm1, %ymm0, %ymm0
	vpxor	%ymm0, %ymm3, %ymm0
	vbroadcasti128	(%r15), %ymm1           # ymm1 = mem[0,1,0,1]
	vpxor	%ymm1, %ymm2, %ymm3
	vpxor	%ymm1, %ymm0, %ymm2
	addq	$16, %r15
	addq	$48, %r14
	decq	%r12
	jne	.Laes_v3_BB34_18
	jmp	.Laes_v3_BB34_19
.Laes_v3_BB34_1:
	xorl	%eax, %eax
.Laes_v3_BB34_2:                               # %loop.7.preheader
	movq	%rcx, %r8
	subq	%rax, %r8
	cmpq	$2, %r8
	jb	.Laes_v3_BB34_8
# %bb.3:                                # %join.10.lr.ph
	leaq	-1(%rsi), %r8
	movq	%r8, %r9
	shlq	$4, %r9
	movl	%r8d, %r10d
	negl	%r10d
	shll	$4, %r10d
	andl	$48, %r10d
	leaq	.Laes_v3_static.3(%rip), %r11
	vbroadcasti128	(%r10,%r11), %ymm0      # ymm0 = mem[0,1,0,1]
	leaq	16(%rdi), %r10
	leaq	-2(%rsi), %r11
	jmp	.Laes_v3_BB34_4
	.p2align	4
.Laes_v3_BB34_7:                               # %"aes_permute::blocks::process_vector::<#ad399e9a5297d62c>.exit"
                                        #   in Loop: Header=BB34_4 Depth=1
	vbroadcasti128	(%rdi,%r9), %ymm2       # ymm2 = mem[0,1,0,1]
	vpsrlw	$4, %ymm3, %ymm4
	vpand	%ymm1, %ymm4, %ymm4
	vpand	%ymm1, %ymm3, %ymm1
	vpxor	%ymm1, %ymm4, %ymm3
	vbroadcasti128	.Laes_v3_CPI34_16(%rip), %ymm5 # ymm5 = [128,2,1,15,9,5,14,12,13,4,11,10,7,8,6,3,128,2,1,15,9,5,14,12,13,4,11,10,7,8,6,3]
                                        # ymm5 = mem[0,1,0,1]
	vpshufb	%ymm1, %ymm5, %ymm1
	vbroadcasti128	.Laes_v3_CPI34_17(%rip), %ymm5 # ymm5 = [128,1,9,14,13,11,7,6,15,2,12,5,10,4,3,8,128,1,9,14,13,11,7,6,15,2,12,5,10,4,3,8]
                                        # ymm5 = mem[0,1,0,1]
	vpshufb	%ymm4, %ymm5, %ymm6
	vpshufb	%ymm3, %ymm5, %ymm7
	vpxor	%ymm1, %ymm6, %ymm6
	vpxor	%ymm1, %ymm7, %ymm1
	vpshufb	%ymm6, %ymm5, %ymm6
	vpshufb	%ymm1, %ymm5, %ymm1
	vpxor	%ymm3, %ymm6, %ymm3
	vpxor	%ymm4, %ymm1, %ymm1
	vbroadcasti128	.Laes_v3_CPI34_24(%rip), %ymm4 # ymm4 = [0,59,228,200,3,20,44,23,243,240,56,220,47,231,203,223,0,59,228,200,3,20,44,23,243,240,56,220,47,231,203,223]
                                        # ymm4 = mem[0,1,0,1]
	vpshufb	%ymm3, %ymm4, %ymm3
	vbroadcasti128	.Laes_v3_CPI34_25(%rip), %ymm4 # ymm4 = [0,36,145,25,35,143,136,172,61,30,7,150,171,178,58,181,0,36,145,25,35,143,136,172,61,30,7,150,171,178,58,181]
                                        # ymm4 = mem[0,1,0,1]
	vpshufb	%ymm1, %ymm4, %ymm1
	vpxor	%ymm3, %ymm1, %ymm1
	vpshufb	%ymm0, %ymm1, %ymm1
	vpxor	%ymm2, %ymm1, %ymm1
	vmovdqu	%ymm1, (%rdx,%rbx)
	addq	$2, %rax
	movq	%rcx, %rbx
	subq	%rax, %rbx
	cmpq	$1, %rbx
	jbe	.Laes_v3_BB34_8
.Laes_v3_BB34_4:                               # %join.10
                                        # =>This Loop Header: Depth=1
                                        #     Child Loop BB34_6 Depth 2
	movq	%rax, %rbx
	shlq	$4, %rbx
	vbroadcasti128	(%rdi), %ymm1           # ymm1 = mem[0,1,0,1]
	vpxor	(%rdx,%rbx), %ymm1, %ymm2
	vpbroadcastd	.Laes_v3_CPI34_26(%rip), %ymm1 # ymm1 = [15,15,15,15,15,15,15,15,15,15,15,15,15,15,15,15,15,15,15,15,15,15,15,15,15,15,15,15,15,15,15,15]
	vpand	%ymm1, %ymm2, %ymm3
	vbroadcasti128	.Laes_v3_CPI34_14(%rip), %ymm4 # ymm4 = [0,181,220,105,219,110,7,178,20,161,200,125,207,122,19,166,0,181,220,105,219,110,7,178,20,161,200,125,207,122,19,166]
                                        # ymm4 = mem[0,1,0,1]
	vpshufb	%ymm3, %ymm4, %ymm3
	vpsrlw	$4, %ymm2, %ymm2
	vpand	%ymm1, %ymm2, %ymm2
	vbroadcasti128	.Laes_v3_CPI34_15(%rip), %ymm4 # ymm4 = [0,167,168,15,237,74,69,226,209,118,121,222,60,155,148,51,0,167,168,15,237,74,69,226,209,118,121,222,60,155,148,51]
                                        # ymm4 = mem[0,1,0,1]
	vpshufb	%ymm2, %ymm4, %ymm2
	vpxor	%ymm3, %ymm2, %ymm3
	cmpq	$2, %r8
	jb	.Laes_v3_BB34_7
# %bb.5:                                # %join.5.i.preheader
                                        #   in Loop: Header=BB34_4 Depth=1
	movl	$48, %r14d
	movq	%r11, %r15
	movq	%r10, %r12
	.p2align	4
.Laes_v3_BB34_6:                               # %join.5.i
                                        #   Parent Loop BB34_4 Depth=1
                                        # =>  This Inner Loop Header: Depth=2
	vbroadcasti128	(%r12), %ymm2           # ymm2 = mem[0,1,0,1]
	vpsrlw	$4, %ymm3, %ymm4
	vpand	%ymm1, %ymm4, %ymm4
	vpand	%ymm1, %ymm3, %ymm3
	vpxor	%ymm3, %ymm4, %ymm5
	vbroadcasti128	.Laes_v3_CPI34_16(%rip), %ymm6 # ymm6 = [128,2,1,15,9,5,14,12,13,4,11,10,7,8,6,3,128,2,1,15,9,5,14,12,13,4,11,10,7,8,6,3]
                                        # ymm6 = mem[0,1,0,1]
	vpshufb	%ymm3, %ymm6, %ymm3
	vbroadcasti128	.Laes_v3_CPI34_17(%rip), %ymm6 # ymm6 = [128,1,9,14,13,11,7,6,15,2,12,5,10,4,3,8,128,1,9,14,13,11,7,6,15,2,12,5,10,4,3,8]
                                        # ymm6 = mem[0,1,0,1]
	vpshufb	%ymm4, %ymm6, %ymm7
	vpshufb	%ymm5, %ymm6, %ymm8
	vpxor	%ymm3, %ymm7, %ymm7
	vpxor	%ymm3, %ymm8, %ymm3
	vpshufb	%ymm7, %ymm6, %ymm7
	vpshufb	%ymm3, %ymm6, %ymm3
	vpxor	%ymm5, %ymm7, %ymm5
	vpxor	%ymm4, %ymm3, %ymm3
	vbroadcasti128	.Laes_v3_CPI34_18(%rip), %ymm4 # ymm4 = [0,41,235,82,166,54,185,144,123,221,143,100,31,77,244,194,0,41,235,82,166,54,185,144,123,221,143,100,31,77,244,194]
                                        # ymm4 = mem[0,1,0,1]
	vpshufb	%ymm5, %ymm4, %ymm4
	vbroadcasti128	.Laes_v3_CPI34_19(%rip), %ymm6 # ymm6 = [0,5,253,152,223,191,101,96,157,66,218,39,186,34,71,248,0,5,253,152,223,191,101,96,157,66,218,39,186,34,71,248]
                                        # ymm6 = mem[0,1,0,1]
	vpshufb	%ymm3, %ymm6, %ymm6
	vpxor	%ymm4, %ymm6, %ymm4
	vbroadcasti128	.Laes_v3_CPI34_20(%rip), %ymm6 # ymm6 = [0,91,164,122,207,74,222,133,33,238,148,48,17,107,181,255,0,91,164,122,207,74,222,133,33,238,148,48,17,107,181,255]
                                        # ymm6 = mem[0,1,0,1]
	vpshufb	%ymm5, %ymm6, %ymm5
	vbroadcasti128	.Laes_v3_CPI34_21(%rip), %ymm6 # ymm6 = [0,118,62,158,30,200,160,214,232,246,104,86,190,32,128,72,0,118,62,158,30,200,160,214,232,246,104,86,190,32,128,72]
                                        # ymm6 = mem[0,1,0,1]
	vpshufb	%ymm3, %ymm6, %ymm3
	vpxor	%ymm5, %ymm3, %ymm3
	movl	%r14d, %r13d
	andl	$48, %r13d
	leaq	.Laes_v3_static.6(%rip), %rbp
	vbroadcasti128	(%r13,%rbp), %ymm5      # ymm5 = mem[0,1,0,1]
	vpshufb	%ymm5, %ymm3, %ymm3
	vpxor	%ymm3, %ymm4, %ymm3
	vpand	%ymm1, %ymm3, %ymm4
	vbroadcasti128	.Laes_v3_CPI34_22(%rip), %ymm5 # ymm5 = [0,28,68,88,151,139,211,207,138,150,206,210,29,1,89,69,0,28,68,88,151,139,211,207,138,150,206,210,29,1,89,69]
                                        # ymm5 = mem[0,1,0,1]
	vpshufb	%ymm4, %ymm5, %ymm4
	vpsrlw	$4, %ymm3, %ymm5
	vpand	%ymm1, %ymm5, %ymm5
	vbroadcasti128	.Laes_v3_CPI34_23(%rip), %ymm6 # ymm6 = [0,48,38,22,183,135,145,161,65,113,103,87,246,198,208,224,0,48,38,22,183,135,145,161,65,113,103,87,246,198,208,224]
                                        # ymm6 = mem[0,1,0,1]
	vpshufb	%ymm5, %ymm6, %ymm5
	leaq	.Laes_v3_static.4(%rip), %rbp
	vbroadcasti128	(%r13,%rbp), %ymm6      # ymm6 = mem[0,1,0,1]
	vpshufb	%ymm6, %ymm3, %ymm7
	vpxor	%ymm7, %ymm4, %ymm4
	vpxor	%ymm4, %ymm5, %ymm4
	vpshufb	%ymm6, %ymm4, %ymm5
	leaq	.Laes_v3_static.5(%rip), %rbp
	vbroadcasti128	(%r13,%rbp), %ymm6      # ymm6 = mem[0,1,0,1]
	vpshufb	%ymm6, %ymm3, %ymm3
	vpxor	%ymm3, %ymm2, %ymm2
	vpxor	%ymm4, %ymm2, %ymm2
	vpxor	%ymm2, %ymm5, %ymm3
	addq	$16, %r12
	addq	$48, %r14
	decq	%r15
	jne	.Laes_v3_BB34_6
	jmp	.Laes_v3_BB34_7
.Laes_v3_BB34_8:                               # %loop.12.preheader
	cmpq	%rcx, %rax
	jae	.Laes_v3_BB34_14
# %bb.9:                                # %join.15.lr.ph
	leaq	-1(%rsi), %r8
	movq	%r8, %r9
	shlq	$4, %r9
	movl	%r8d, %r10d
	negl	%r10d
	shll	$4, %r10d
	andl	$48, %r10d
	leaq	.Laes_v3_static.3(%rip), %r11
	vmovdqu	(%r10,%r11), %xmm0
	leaq	16(%rdi), %r10
	addq	$-2, %rsi
	jmp	.Laes_v3_BB34_10
	.p2align	4
.Laes_v3_BB34_13:                              # %"aes_permute::blocks::process_vector::<#e7683a4e90f73162>.exit"
                                        #   in Loop: Header=BB34_10 Depth=1
	vpsrlw	$4, %xmm2, %xmm3
	vpand	%xmm1, %xmm3, %xmm3
	vpand	%xmm1, %xmm2, %xmm1
	vpxor	%xmm1, %xmm3, %xmm2
	vmovdqa	.Laes_v3_CPI34_16(%rip), %xmm4         # xmm4 = [128,2,1,15,9,5,14,12,13,4,11,10,7,8,6,3]
	vpshufb	%xmm1, %xmm4, %xmm1
	vmovdqa	.Laes_v3_CPI34_17(%rip), %xmm4         # xmm4 = [128,1,9,14,13,11,7,6,15,2,12,5,10,4,3,8]
	vpshufb	%xmm3, %xmm4, %xmm5
	vpshufb	%xmm2, %xmm4, %xmm6
	vpxor	%xmm1, %xmm5, %xmm5
	vpxor	%xmm1, %xmm6, %xmm1
	vpshufb	%xmm5, %xmm4, %xmm5
	vpshufb	%xmm1, %xmm4, %xmm1
	vpxor	%xmm2, %xmm5, %xmm2
	vpxor	%xmm3, %xmm1, %xmm1
	vmovdqa	.Laes_v3_CPI34_24(%rip), %xmm3         # xmm3 = [0,59,228,200,3,20,44,23,243,240,56,220,47,231,203,223]
	vpshufb	%xmm2, %xmm3, %xmm2
	vmovdqa	.Laes_v3_CPI34_25(%rip), %xmm3         # xmm3 = [0,36,145,25,35,143,136,172,61,30,7,150,171,178,58,181]
	vpshufb	%xmm1, %xmm3, %xmm1
	vpxor	%xmm2, %xmm1, %xmm1
	vpshufb	%xmm0, %xmm1, %xmm1
	vpxor	(%rdi,%r9), %xmm1, %xmm1
	vmovdqu	%xmm1, (%rdx,%r11)
	incq	%rax
	cmpq	%rcx, %rax
	je	.Laes_v3_BB34_14
.Laes_v3_BB34_10:                              # %join.15
                                        # =>This Loop Header: Depth=1
                                        #     Child Loop BB34_12 Depth 2
	movq	%rax, %r11
	shlq	$4, %r11
	vmovdqu	(%rdi), %xmm1
	vpxor	(%rdx,%r11), %xmm1, %xmm2
	vpbroadcastd	.Laes_v3_CPI34_26(%rip), %xmm1 # xmm1 = [15,15,15,15,15,15,15,15,15,15,15,15,15,15,15,15]
	vpand	%xmm1, %xmm2, %xmm3
	vmovdqa	.Laes_v3_CPI34_14(%rip), %xmm4         # xmm4 = [0,181,220,105,219,110,7,178,20,161,200,125,207,122,19,166]
	vpshufb	%xmm3, %xmm4, %xmm3
	vpsrlw	$4, %xmm2, %xmm2
	vpand	%xmm1, %xmm2, %xmm2
	vmovdqa	.Laes_v3_CPI34_15(%rip), %xmm4         # xmm4 = [0,167,168,15,237,74,69,226,209,118,121,222,60,155,148,51]
	vpshufb	%xmm2, %xmm4, %xmm2
	vpxor	%xmm3, %xmm2, %xmm2
	cmpq	$2, %r8
	jb	.Laes_v3_BB34_13
# %bb.11:                               # %join.5.i535.preheader
                                        #   in Loop: Header=BB34_10 Depth=1
	movl	$48, %ebx
	movq	%rsi, %r14
	movq	%r10, %r15
	.p2align	4
.Laes_v3_BB34_12:                              # %join.5.i535
                                        #   Parent Loop BB34_10 Depth=1
                                        # =>  This Inner Loop Header: Depth=2
	vpsrlw	$4, %xmm2, %xmm3
	vpand	%xmm1, %xmm3, %xmm3
	vpand	%xmm1, %xmm2, %xmm2
	vpxor	%xmm2, %xmm3, %xmm4
	vmovdqa	.Laes_v3_CPI34_16(%rip), %xmm5         # xmm5 = [128,2,1,15,9,5,14,12,13,4,11,10,7,8,6,3]
	vpshufb	%xmm2, %xmm5, %xmm2
	vmovdqa	.Laes_v3_CPI34_17(%rip), %xmm5         # xmm5 = [128,1,9,14,13,11,7,6,15,2,12,5,10,4,3,8]
	vpshufb	%xmm3, %xmm5, %xmm6
	vpshufb	%xmm4, %xmm5, %xmm7
	vpxor	%xmm2, %xmm6, %xmm6
	vpxor	%xmm2, %xmm7, %xmm2
	vpshufb	%xmm6, %xmm5, %xmm6
	vpshufb	%xmm2, %xmm5, %xmm2
	vpxor	%xmm4, %xmm6, %xmm4
	vpxor	%xmm3, %xmm2, %xmm2
	vmovdqa	.Laes_v3_CPI34_18(%rip), %xmm3         # xmm3 = [0,41,235,82,166,54,185,144,123,221,143,100,31,77,244,194]
	vpshufb	%xmm4, %xmm3, %xmm3
	vmovdqa	.Laes_v3_CPI34_19(%rip), %xmm5         # xmm5 = [0,5,253,152,223,191,101,96,157,66,218,39,186,34,71,248]
	vpshufb	%xmm2, %xmm5, %xmm5
	vpxor	%xmm3, %xmm5, %xmm3
	vmovdqa	.Laes_v3_CPI34_20(%rip), %xmm5         # xmm5 = [0,91,164,122,207,74,222,133,33,238,148,48,17,107,181,255]
	vpshufb	%xmm4, %xmm5, %xmm4
	vmovdqa	.Laes_v3_CPI34_21(%rip), %xmm5         # xmm5 = [0,118,62,158,30,200,160,214,232,246,104,86,190,32,128,72]
	vpshufb	%xmm2, %xmm5, %xmm2
	vpxor	%xmm4, %xmm2, %xmm2
	movl	%ebx, %r12d
	andl	$48, %r12d
	leaq	.Laes_v3_static.6(%rip), %r13
	vpshufb	(%r12,%r13), %xmm2, %xmm2
	vpxor	%xmm2, %xmm3, %xmm2
	vpand	%xmm1, %xmm2, %xmm3
	vmovdqa	.Laes_v3_CPI34_22(%rip), %xmm4         # xmm4 = [0,28,68,88,151,139,211,207,138,150,206,210,29,1,89,69]
	vpshufb	%xmm3, %xmm4, %xmm3
	vpsrlw	$4, %xmm2, %xmm4
	vpand	%xmm1, %xmm4, %xmm4
	vmovdqa	.Laes_v3_CPI34_23(%rip), %xmm5         # xmm5 = [0,48,38,22,183,135,145,161,65,113,103,87,246,198,208,224]
	vpshufb	%xmm4, %xmm5, %xmm4
	leaq	.Laes_v3_static.4(%rip), %r13
	vmovdqu	(%r12,%r13), %xmm5
	vpshufb	%xmm5, %xmm2, %xmm6
	vpxor	%xmm6, %xmm3, %xmm3
	vpxor	%xmm3, %xmm4, %xmm3
	leaq	.Laes_v3_static.5(%rip), %r13
	vpshufb	(%r12,%r13), %xmm2, %xmm2
	vpshufb	%xmm5, %xmm3, %xmm4
	vpxor	(%r15), %xmm4, %xmm4
	vpxor	%xmm3, %xmm2, %xmm2
	vpxor	%xmm2, %xmm4, %xmm2
	addq	$16, %r15
	addq	$48, %rbx
	decq	%r14
	jne	.Laes_v3_BB34_12
	jmp	.Laes_v3_BB34_13
.Laes_v3_BB34_14:                              # %after.11
	addq	$40, %rsp
	popq	%rbx
	popq	%r12
	popq	%r13
	popq	%r14
	popq	%r15
	popq	%rbp
	vzeroupper
	retq
	.seh_endproc
                                        # -- End function
	.def	aes_v3.aes_hybrid.batches.process_on_planes.2;
	.scl	3;
	.type	32;
	.endef
	.p2align	4                               # -- Begin function aes_hybrid::batches::process_on_planes::<#87ebe1b34838ba7c>
aes_v3.aes_hybrid.batches.process_on_planes.2: # @aes_v3.aes_hybrid.batches.process_on_planes.2
.seh_proc aes_v3.aes_hybrid.batches.process_on_planes.2
# %bb.0:                                # %start
	pushq	%rbp
	.seh_pushreg %rbp
	pushq	%r15
	.seh_pushreg %r15
	pushq	%r14
	.seh_pushreg %r14
	pushq	%r13
	.seh_pushreg %r13
	pushq	%r12
	.seh_pushreg %r12
	pushq	%rbx
	.seh_pushreg %rbx
	movl	$3880, %eax                     # imm = 0xF28
	callq	___chkstk_ms
	subq	%rax, %rsp
	.seh_stackalloc 3880
	leaq	128(%rsp), %rbp
	.seh_setframe %rbp, 128
	.seh_endprologue
	andq	$-32, %rsp
	movq	%rcx, %rbx
	movq	%rdx, %r14
	movq	%rsi, %r15
	movq	%rdi, %rsi
	leaq	288(%rsp), %rcx
	movl	$3584, %r8d                     # imm = 0xE00
	xorl	%edx, %edx
	callq	memset
	leaq	(,%r15,8), %r12
	leaq	32(%rsp), %r13
	movq	%r13, %rdi
	movq	%r15, %rdx
	callq	aes_v3.aes_hybrid.plane_keys.store_planes
	movq	%r13, %rdi
	movq	%r12, %rsi
	movq	%r14, %rdx
	movq	%rbx, %rcx
	callq	aes_v3.aes_hybrid.batches.process_batches_and_rest.2
	movq	%r13, %rdi
	callq	aes_v3.aes_cipher.zeroize.zeroize_words
	callq	aes_v3.aes_cipher.zeroize.stack.wipe_stack.1792
	nop
	leaq	3752(%rbp), %rsp
	popq	%rbx
	popq	%r12
	popq	%r13
	popq	%r14
	popq	%r15
	popq	%rbp
	retq
	.seh_endproc
                                        # -- End function
	.def	aes_v3.aes_hybrid.batches.process_batches_and_rest.2;
	.scl	3;
	.type	32;
	.endef
	.section	.rdata,"dr"
	.p2align	5, 0x0                          # -- Begin function aes_hybrid::batches::process_batches_and_rest::<#87ebe1b34838ba7c>
.Laes_v3_CPI36_0:
	.byte	0                               # 0x0
	.byte	4                               # 0x4
	.byte	8                               # 0x8
	.byte	12                              # 0xc
	.byte	1                               # 0x1
	.byte	5                               # 0x5
	.byte	9                               # 0x9
	.byte	13                              # 0xd
	.byte	2                               # 0x2
	.byte	6                               # 0x6
	.byte	10                              # 0xa
	.byte	14                              # 0xe
	.byte	3                               # 0x3
	.byte	7                               # 0x7
	.byte	11                              # 0xb
	.byte	15                              # 0xf
	.byte	0                               # 0x0
	.byte	4                               # 0x4
	.byte	8                               # 0x8
	.byte	12                              # 0xc
	.byte	1                               # 0x1
	.byte	5                               # 0x5
	.byte	9                               # 0x9
	.byte	13                              # 0xd
	.byte	2                               # 0x2
	.byte	6                               # 0x6
	.byte	10                              # 0xa
	.byte	14                              # 0xe
	.byte	3                               # 0x3
	.byte	7                               # 0x7
	.byte	11                              # 0xb
	.byte	15                              # 0xf
.Laes_v3_CPI36_1:
	.zero	32,85
.Laes_v3_CPI36_2:
	.zero	32,51
.Laes_v3_CPI36_3:
	.zero	32,15
.Laes_v3_CPI36_4:
	.byte	0                               # 0x0
	.byte	4                               # 0x4
	.byte	8                               # 0x8
	.byte	12                              # 0xc
	.byte	1                               # 0x1
	.byte	5                               # 0x5
	.byte	9                               # 0x9
	.byte	13                              # 0xd
	.byte	2                               # 0x2
	.byte	6                               # 0x6
	.byte	10                              # 0xa
	.byte	14                              # 0xe
	.byte	3                               # 0x3
	.byte	7                               # 0x7
	.byte	11                              # 0xb
	.byte	15                              # 0xf
.Laes_v3_CPI36_5:
	.zero	4,85
.Laes_v3_CPI36_6:
	.zero	4,51
.Laes_v3_CPI36_7:
	.zero	4,15
	.text
	.p2align	4
aes_v3.aes_hybrid.batches.process_batches_and_rest.2: # @aes_v3.aes_hybrid.batches.process_batches_and_rest.2
.seh_proc aes_v3.aes_hybrid.batches.process_batches_and_rest.2
# %bb.0:                                # %join.5.i.lr.ph
	pushq	%rbp
	.seh_pushreg %rbp
	pushq	%r15
	.seh_pushreg %r15
	pushq	%r14
	.seh_pushreg %r14
	pushq	%r13
	.seh_pushreg %r13
	pushq	%r12
	.seh_pushreg %r12
	pushq	%rbx
	.seh_pushreg %rbx
	subq	$312, %rsp                      # imm = 0x138
	.seh_stackalloc 312
	.seh_endprologue
	movq	%rcx, %rbx
	movq	%rdx, %r15
	movq	%rsi, %r13
	movq	%rdi, %r12
	movq	%rcx, 24(%rsp)                  # 8-byte Spill
	andq	$-16, %rbx
	movq	%rsi, 8(%rsp)                   # 8-byte Spill
	shrq	$3, %r13
	decq	%r13
	leaq	48(%rsp), %rbp
	andq	$-32, %rbp
	xorl	%r14d, %r14d
	movq	%rdx, 16(%rsp)                  # 8-byte Spill
	.p2align	4
.Laes_v3_BB36_1:                               # %join.5.i
                                        # =>This Inner Loop Header: Depth=1
	vmovdqu	(%r15), %xmm0
	vmovdqu	16(%r15), %xmm1
	vmovdqu	32(%r15), %xmm2
	vmovdqu	48(%r15), %xmm3
	vmovdqu	64(%r15), %xmm4
	vmovdqu	80(%r15), %xmm5
	vmovdqu	96(%r15), %xmm6
	vmovdqu	112(%r15), %xmm7
	vinserti128	$1, 128(%r15), %ymm0, %ymm0
	vinserti128	$1, 144(%r15), %ymm1, %ymm1
	vinserti128	$1, 160(%r15), %ymm2, %ymm2
	vinserti128	$1, 176(%r15), %ymm3, %ymm3
	vinserti128	$1, 192(%r15), %ymm4, %ymm4
	vinserti128	$1, 208(%r15), %ymm5, %ymm5
	vinserti128	$1, 224(%r15), %ymm6, %ymm6
	vinserti128	$1, 240(%r15), %ymm7, %ymm7
	vbroadcasti128	.Laes_v3_CPI36_4(%rip), %ymm9  # ymm9 = [0,4,8,12,1,5,9,13,2,6,10,14,3,7,11,15,0,4,8,12,1,5,9,13,2,6,10,14,3,7,11,15]
                                        # ymm9 = mem[0,1,0,1]
	vpshufb	%ymm9, %ymm0, %ymm8
	vpshufb	%ymm9, %ymm1, %ymm0
	vpshufb	%ymm9, %ymm2, %ymm1
	vpshufb	%ymm9, %ymm3, %ymm2
	vpshufb	%ymm9, %ymm4, %ymm3
	vpshufb	%ymm9, %ymm5, %ymm4
	vpshufb	%ymm9, %ymm6, %ymm5
	vpshufb	%ymm9, %ymm7, %ymm6
	vpsrlw	$1, %ymm8, %ymm7
	vpxor	%ymm7, %ymm0, %ymm7
	vpbroadcastd	.Laes_v3_CPI36_5(%rip), %ymm10 # ymm10 = [85,85,85,85,85,85,85,85,85,85,85,85,85,85,85,85,85,85,85,85,85,85,85,85,85,85,85,85,85,85,85,85]
	vpand	%ymm7, %ymm10, %ymm7
	vpxor	%ymm0, %ymm7, %ymm0
	vpaddb	%ymm7, %ymm7, %ymm7
	vpxor	%ymm7, %ymm8, %ymm7
	vpsrlw	$1, %ymm1, %ymm8
	vpxor	%ymm2, %ymm8, %ymm8
	vpand	%ymm10, %ymm8, %ymm8
	vpxor	%ymm2, %ymm8, %ymm9
	vpaddb	%ymm8, %ymm8, %ymm2
	vpxor	%ymm1, %ymm2, %ymm1
	vpsrlw	$1, %ymm3, %ymm2
	vpxor	%ymm2, %ymm4, %ymm2
	vpand	%ymm2, %ymm10, %ymm8
	vpxor	%ymm4, %ymm8, %ymm2
	vpaddb	%ymm8, %ymm8, %ymm4
	vpxor	%ymm3, %ymm4, %ymm3
	vpsrlw	$1, %ymm5, %ymm4
	vpxor	%ymm4, %ymm6, %ymm4
	vpand	%ymm4, %ymm10, %ymm4
	vpxor	%ymm6, %ymm4, %ymm6
	vpaddb	%ymm4, %ymm4, %ymm4
	vpxor	%ymm5, %ymm4, %ymm4
	vpsrlw	$2, %ymm7, %ymm5
	vpxor	%ymm5, %ymm1, %ymm5
	vpbroadcastd	.Laes_v3_CPI36_6(%rip), %ymm10 # ymm10 = [51,51,51,51,51,51,51,51,51,51,51,51,51,51,51,51,51,51,51,51,51,51,51,51,51,51,51,51,51,51,51,51]
	vpand	%ymm5, %ymm10, %ymm5
	vpxor	%ymm1, %ymm5, %ymm1
	vpsllw	$2, %ymm5, %ymm5
	vpxor	%ymm7, %ymm5, %ymm5
	vpsrlw	$2, %ymm3, %ymm7
	vpxor	%ymm7, %ymm4, %ymm7
	vpand	%ymm7, %ymm10, %ymm7
	vpxor	%ymm4, %ymm7, %ymm4
	vpsllw	$2, %ymm7, %ymm7
	vpxor	%ymm3, %ymm7, %ymm7
	vpsrlw	$2, %ymm0, %ymm3
	vpxor	%ymm3, %ymm9, %ymm3
	vpand	%ymm3, %ymm10, %ymm8
	vpxor	%ymm9, %ymm8, %ymm3
	vpsllw	$2, %ymm8, %ymm8
	vpxor	%ymm0, %ymm8, %ymm0
	vpsrlw	$2, %ymm2, %ymm8
	vpxor	%ymm6, %ymm8, %ymm8
	vpand	%ymm10, %ymm8, %ymm8
	vpxor	%ymm6, %ymm8, %ymm6
	vpsllw	$2, %ymm8, %ymm8
	vpxor	%ymm2, %ymm8, %ymm2
	vpsrlw	$4, %ymm5, %ymm8
	vpbroadcastd	.Laes_v3_CPI36_7(%rip), %ymm9  # ymm9 = [15,15,15,15,15,15,15,15,15,15,15,15,15,15,15,15,15,15,15,15,15,15,15,15,15,15,15,15,15,15,15,15]
	vpxor	%ymm7, %ymm8, %ymm8
	vpand	%ymm9, %ymm8, %ymm8
	vpxor	%ymm7, %ymm8, %ymm7
	vpsllw	$4, %ymm8, %ymm8
	vpxor	%ymm5, %ymm8, %ymm5
	vpsrlw	$4, %ymm0, %ymm8
	vpxor	%ymm2, %ymm8, %ymm8
	vpand	%ymm9, %ymm8, %ymm8
	vpxor	%ymm2, %ymm8, %ymm2
	vpsllw	$4, %ymm8, %ymm8
	vpxor	%ymm0, %ymm8, %ymm0
	vpsrlw	$4, %ymm1, %ymm8
	vpxor	%ymm4, %ymm8, %ymm8
	vpand	%ymm9, %ymm8, %ymm8
	vpxor	%ymm4, %ymm8, %ymm4
	vpsllw	$4, %ymm8, %ymm8
	vpxor	%ymm1, %ymm8, %ymm1
	vpsrlw	$4, %ymm3, %ymm8
	vpxor	%ymm6, %ymm8, %ymm8
	vpand	%ymm9, %ymm8, %ymm8
	vpxor	%ymm6, %ymm8, %ymm6
	vpsllw	$4, %ymm8, %ymm8
	vpxor	%ymm3, %ymm8, %ymm3
	vmovdqa	%ymm5, (%rbp)
	vmovdqa	%ymm0, 32(%rbp)
	vmovdqa	%ymm1, 64(%rbp)
	vmovdqa	%ymm3, 96(%rbp)
	vmovdqa	%ymm7, 128(%rbp)
	vmovdqa	%ymm2, 160(%rbp)
	vmovdqa	%ymm4, 192(%rbp)
	vmovdqa	%ymm6, 224(%rbp)
	movq	%r12, %rdi
	movq	%r13, %rsi
	movq	%rbp, %rdx
	vzeroupper
	callq	aes_v3.aes_soft.soft.ciphers.planes.DecryptPlaneCipher.process_planes
	vmovdqa	(%rbp), %ymm1
	vmovdqa	32(%rbp), %ymm0
	vmovdqa	64(%rbp), %ymm2
	vmovdqa	96(%rbp), %ymm3
	vmovdqa	128(%rbp), %ymm4
	vmovdqa	160(%rbp), %ymm5
	vmovdqa	192(%rbp), %ymm6
	vmovdqa	224(%rbp), %ymm7
	vpsrlw	$1, %ymm1, %ymm8
	vpxor	%ymm0, %ymm8, %ymm8
	vpbroadcastd	.Laes_v3_CPI36_5(%rip), %ymm9  # ymm9 = [85,85,85,85,85,85,85,85,85,85,85,85,85,85,85,85,85,85,85,85,85,85,85,85,85,85,85,85,85,85,85,85]
	vpand	%ymm9, %ymm8, %ymm8
	vpxor	%ymm0, %ymm8, %ymm0
	vpaddb	%ymm8, %ymm8, %ymm8
	vpxor	%ymm1, %ymm8, %ymm8
	vpsrlw	$1, %ymm2, %ymm1
	vpxor	%ymm1, %ymm3, %ymm1
	vpand	%ymm1, %ymm9, %ymm1
	vpxor	%ymm3, %ymm1, %ymm3
	vpaddb	%ymm1, %ymm1, %ymm1
	vpxor	%ymm2, %ymm1, %ymm1
	vpsrlw	$1, %ymm4, %ymm2
	vpxor	%ymm2, %ymm5, %ymm2
	vpand	%ymm2, %ymm9, %ymm2
	vpxor	%ymm5, %ymm2, %ymm5
	vpaddb	%ymm2, %ymm2, %ymm2
	vpxor	%ymm4, %ymm2, %ymm2
	vpsrlw	$1, %ymm6, %ymm4
	vpxor	%ymm4, %ymm7, %ymm4
	vpand	%ymm4, %ymm9, %ymm4
	vpxor	%ymm7, %ymm4, %ymm7
	vpaddb	%ymm4, %ymm4, %ymm4
	vpxor	%ymm6, %ymm4, %ymm4
	vpsrlw	$2, %ymm8, %ymm6
	vpxor	%ymm6, %ymm1, %ymm6
	vpbroadcastd	.Laes_v3_CPI36_6(%rip), %ymm10 # ymm10 = [51,51,51,51,51,51,51,51,51,51,51,51,51,51,51,51,51,51,51,51,51,51,51,51,51,51,51,51,51,51,51,51]
	vpand	%ymm6, %ymm10, %ymm6
	vpxor	%ymm1, %ymm6, %ymm1
	vpsllw	$2, %ymm6, %ymm6
	vpxor	%ymm6, %ymm8, %ymm6
	vpsrlw	$2, %ymm2, %ymm8
	vpxor	%ymm4, %ymm8, %ymm8
	vpand	%ymm10, %ymm8, %ymm8
	vpxor	%ymm4, %ymm8, %ymm4
	vpsllw	$2, %ymm8, %ymm8
	vpxor	%ymm2, %ymm8, %ymm2
	vpsrlw	$2, %ymm0, %ymm8
	vpxor	%ymm3, %ymm8, %ymm8
	vpand	%ymm10, %ymm8, %ymm8
	vpxor	%ymm3, %ymm8, %ymm9
	vpsllw	$2, %ymm8, %ymm3
	vpxor	%ymm0, %ymm3, %ymm8
	vpsrlw	$2, %ymm5, %ymm0
	vpxor	%ymm0, %ymm7, %ymm0
	vpand	%ymm0, %ymm10, %ymm0
	vpxor	%ymm7, %ymm0, %ymm7
	vpsllw	$2, %ymm0, %ymm0
	vpxor	%ymm5, %ymm0, %ymm5
	vpsrlw	$4, %ymm6, %ymm0
	vpxor	%ymm0, %ymm2, %ymm0
	vpbroadcastd	.Laes_v3_CPI36_7(%rip), %ymm10 # ymm10 = [15,15,15,15,15,15,15,15,15,15,15,15,15,15,15,15,15,15,15,15,15,15,15,15,15,15,15,15,15,15,15,15]
	vpand	%ymm0, %ymm10, %ymm3
	vpxor	%ymm2, %ymm3, %ymm0
	vpsllw	$4, %ymm3, %ymm2
	vpxor	%ymm6, %ymm2, %ymm3
	vpsrlw	$4, %ymm8, %ymm2
	vpxor	%ymm2, %ymm5, %ymm2
	vpand	%ymm2, %ymm10, %ymm6
	vpxor	%ymm5, %ymm6, %ymm2
	vpsllw	$4, %ymm6, %ymm5
	vpxor	%ymm5, %ymm8, %ymm5
	vpsrlw	$4, %ymm1, %ymm6
	vpxor	%ymm6, %ymm4, %ymm6
	vpand	%ymm6, %ymm10, %ymm6
	vpxor	%ymm4, %ymm6, %ymm4
	vpsllw	$4, %ymm6, %ymm6
	vpxor	%ymm1, %ymm6, %ymm1
	vpsrlw	$4, %ymm9, %ymm6
	vpxor	%ymm6, %ymm7, %ymm6
	vpand	%ymm6, %ymm10, %ymm6
	vpxor	%ymm7, %ymm6, %ymm7
	vpsllw	$4, %ymm6, %ymm6
	vpxor	%ymm6, %ymm9, %ymm6
	vinserti128	$1, %xmm5, %ymm3, %ymm8
	vbroadcasti128	.Laes_v3_CPI36_4(%rip), %ymm9  # ymm9 = [0,4,8,12,1,5,9,13,2,6,10,14,3,7,11,15,0,4,8,12,1,5,9,13,2,6,10,14,3,7,11,15]
                                        # ymm9 = mem[0,1,0,1]
	vpshufb	%ymm9, %ymm8, %ymm8
	vmovdqu	%ymm8, (%r15)
	vinserti128	$1, %xmm6, %ymm1, %ymm8
	vpshufb	%ymm9, %ymm8, %ymm8
	vmovdqu	%ymm8, 32(%r15)
	vinserti128	$1, %xmm2, %ymm0, %ymm8
	vpshufb	%ymm9, %ymm8, %ymm8
	vmovdqu	%ymm8, 64(%r15)
	vinserti128	$1, %xmm7, %ymm4, %ymm8
	vpshufb	%ymm9, %ymm8, %ymm8
	vmovdqu	%ymm8, 96(%r15)
	vperm2i128	$49, %ymm5, %ymm3, %ymm3 # ymm3 = ymm3[2,3],ymm5[2,3]
	vpshufb	%ymm9, %ymm3, %ymm3
	vmovdqu	%ymm3, 128(%r15)
	vperm2i128	$49, %ymm6, %ymm1, %ymm1 # ymm1 = ymm1[2,3],ymm6[2,3]
	vpshufb	%ymm9, %ymm1, %ymm1
	vmovdqu	%ymm1, 160(%r15)
	vperm2i128	$49, %ymm2, %ymm0, %ymm0 # ymm0 = ymm0[2,3],ymm2[2,3]
	vpshufb	%ymm9, %ymm0, %ymm0
	vmovdqu	%ymm0, 192(%r15)
	vperm2i128	$49, %ymm7, %ymm4, %ymm0 # ymm0 = ymm4[2,3],ymm7[2,3]
	vpshufb	%ymm9, %ymm0, %ymm0
	vmovdqu	%ymm0, 224(%r15)
	addq	$16, %r14
	addq	$256, %r15                      # imm = 0x100
	cmpq	%rbx, %r14
	jb	.Laes_v3_BB36_1
# %bb.2:                                # %"aes_soft::soft::blocks::slices::process_batches_under::<#f4428e929f2a5c0c>.exit"
	movq	24(%rsp), %rcx                  # 8-byte Reload
	cmpq	%rcx, %rbx
	jne	.Laes_v3_BB36_4
# %bb.3:                                # %join.5
	addq	$312, %rsp                      # imm = 0x138
	popq	%rbx
	popq	%r12
	popq	%r13
	popq	%r14
	popq	%r15
	popq	%rbp
	vzeroupper
	retq
.Laes_v3_BB36_4:                               # %then.3
	andl	$15, %ecx
	shlq	$4, %rbx
	movq	16(%rsp), %rdx                  # 8-byte Reload
	addq	%rbx, %rdx
	movq	%r12, %rdi
	movq	8(%rsp), %rsi                   # 8-byte Reload
	addq	$312, %rsp                      # imm = 0x138
	popq	%rbx
	popq	%r12
	popq	%r13
	popq	%r14
	popq	%r15
	popq	%rbp
	vzeroupper
	jmp	aes_v3.aes_soft.soft.blocks.filled_up.process_filled_up.2 # TAILCALL
	.seh_endproc
                                        # -- End function
	.def	aes_v3.aes_soft.soft.blocks.filled_up.process_filled_up.2;
	.scl	3;
	.type	32;
	.endef
	.p2align	4                               # -- Begin function aes_soft::soft::blocks::filled_up::process_filled_up::<#87ebe1b34838ba7c>
aes_v3.aes_soft.soft.blocks.filled_up.process_filled_up.2: # @aes_v3.aes_soft.soft.blocks.filled_up.process_filled_up.2
.seh_proc aes_v3.aes_soft.soft.blocks.filled_up.process_filled_up.2
# %bb.0:                                # %start
	pushq	%r14
	.seh_pushreg %r14
	pushq	%rbx
	.seh_pushreg %rbx
	subq	$776, %rsp                      # imm = 0x308
	.seh_stackalloc 776
	.seh_endprologue
	vxorps	%xmm0, %xmm0, %xmm0
	vmovups	%ymm0, 224(%rsp)
	vmovups	%ymm0, 192(%rsp)
	vmovups	%ymm0, 160(%rsp)
	vmovups	%ymm0, 128(%rsp)
	vmovups	%ymm0, 96(%rsp)
	vmovups	%ymm0, 64(%rsp)
	vmovups	%ymm0, 32(%rsp)
	vmovups	%ymm0, (%rsp)
	vmovups	%ymm0, 512(%rsp)
	vmovups	%ymm0, 544(%rsp)
	vmovups	%ymm0, 576(%rsp)
	vmovups	%ymm0, 608(%rsp)
	vmovups	%ymm0, 640(%rsp)
	vmovups	%ymm0, 672(%rsp)
	vmovups	%ymm0, 704(%rsp)
	vmovups	%ymm0, 736(%rsp)
	movq	%rdx, %rbx
	vmovups	(%rdx), %xmm0
	vmovaps	%xmm0, 256(%rsp)
	vmovups	(%rdx), %xmm0
	vmovaps	%xmm0, 272(%rsp)
	vmovups	(%rdx), %xmm0
	vmovaps	%xmm0, 288(%rsp)
	vmovups	(%rdx), %xmm0
	vmovaps	%xmm0, 304(%rsp)
	vmovups	(%rdx), %xmm0
	vmovaps	%xmm0, 320(%rsp)
	vmovups	(%rdx), %xmm0
	vmovaps	%xmm0, 336(%rsp)
	vmovups	(%rdx), %xmm0
	vmovaps	%xmm0, 352(%rsp)
	vmovups	(%rdx), %xmm0
	vmovaps	%xmm0, 368(%rsp)
	vmovups	(%rdx), %xmm0
	vmovaps	%xmm0, 384(%rsp)
	vmovups	(%rdx), %xmm0
	vmovaps	%xmm0, 400(%rsp)
	vmovups	(%rdx), %xmm0
	vmovaps	%xmm0, 416(%rsp)
	vmovups	(%rdx), %xmm0
	vmovaps	%xmm0, 432(%rsp)
	vmovups	(%rdx), %xmm0
	vmovaps	%xmm0, 448(%rsp)
	vmovups	(%rdx), %xmm0
	vmovaps	%xmm0, 464(%rsp)
	vmovups	(%rdx), %xmm0
	vmovaps	%xmm0, 480(%rsp)
	vmovups	(%rdx), %xmm0
	vmovaps	%xmm0, 496(%rsp)
	movq	%rsi, %rdx
	movq	%rdi, %rsi
	shrq	$3, %rdx
	decq	%rdx
	testq	%rcx, %rcx
	je	.Laes_v3_BB37_18
# %bb.1:                                # %join.8.i
	movq	%rcx, %r14
	vmovups	(%rbx), %xmm0
	vmovaps	%xmm0, 256(%rsp)
	cmpq	$1, %rcx
	je	.Laes_v3_BB37_16
# %bb.2:                                # %join.8.i.1
	vmovups	16(%rbx), %xmm0
	vmovaps	%xmm0, 272(%rsp)
	cmpq	$2, %r14
	je	.Laes_v3_BB37_16
# %bb.3:                                # %join.8.i.2
	vmovups	32(%rbx), %xmm0
	vmovaps	%xmm0, 288(%rsp)
	cmpq	$3, %r14
	je	.Laes_v3_BB37_16
# %bb.4:                                # %join.8.i.3
	vmovups	48(%rbx), %xmm0
	vmovaps	%xmm0, 304(%rsp)
	cmpq	$4, %r14
	je	.Laes_v3_BB37_16
# %bb.5:                                # %join.8.i.4
	vmovups	64(%rbx), %xmm0
	vmovaps	%xmm0, 320(%rsp)
	cmpq	$5, %r14
	je	.Laes_v3_BB37_16
# %bb.6:                                # %join.8.i.5
	vmovups	80(%rbx), %xmm0
	vmovaps	%xmm0, 336(%rsp)
	cmpq	$6, %r14
	je	.Laes_v3_BB37_16
# %bb.7:                                # %join.8.i.6
	vmovups	96(%rbx), %xmm0
	vmovaps	%xmm0, 352(%rsp)
	cmpq	$7, %r14
	je	.Laes_v3_BB37_16
# %bb.8:                                # %join.8.i.7
	vmovups	112(%rbx), %xmm0
	vmovaps	%xmm0, 368(%rsp)
	cmpq	$8, %r14
	je	.Laes_v3_BB37_16
# %bb.9:                                # %join.8.i.8
	vmovups	128(%rbx), %xmm0
	vmovaps	%xmm0, 384(%rsp)
	cmpq	$9, %r14
	je	.Laes_v3_BB37_16
# %bb.10:                               # %join.8.i.9
	vmovups	144(%rbx), %xmm0
	vmovaps	%xmm0, 400(%rsp)
	cmpq	$10, %r14
	je	.Laes_v3_BB37_16
# %bb.11:                               # %join.8.i.10
	vmovups	160(%rbx), %xmm0
	vmovaps	%xmm0, 416(%rsp)
	cmpq	$11, %r14
	je	.Laes_v3_BB37_16
# %bb.12:                               # %join.8.i.11
	vmovups	176(%rbx), %xmm0
	vmovaps	%xmm0, 432(%rsp)
	cmpq	$12, %r14
	je	.Laes_v3_BB37_16
# %bb.13:                               # %join.8.i.12
	vmovups	192(%rbx), %xmm0
	vmovaps	%xmm0, 448(%rsp)
	cmpq	$13, %r14
	je	.Laes_v3_BB37_16
# %bb.14:                               # %join.8.i.13
	vmovups	208(%rbx), %xmm0
	vmovaps	%xmm0, 464(%rsp)
	cmpq	$14, %r14
	je	.Laes_v3_BB37_16
# %bb.15:                               # %join.8.i.14
	vmovups	224(%rbx), %xmm0
	vmovaps	%xmm0, 480(%rsp)
.Laes_v3_BB37_16:                              # %"aes_soft::soft::blocks::filled_up::filled_up::<#5d1bd3c3accb24a7>.exit"
	leaq	512(%rsp), %rdi
	leaq	256(%rsp), %rcx
	vzeroupper
	callq	aes_v3.aes_soft.soft.ciphers.planes.process_outlined.2
	vmovups	736(%rsp), %ymm0
	vmovups	%ymm0, 224(%rsp)
	vmovups	704(%rsp), %ymm0
	vmovups	%ymm0, 192(%rsp)
	vmovups	672(%rsp), %ymm0
	vmovups	%ymm0, 160(%rsp)
	vmovups	640(%rsp), %ymm0
	vmovups	%ymm0, 128(%rsp)
	vmovups	512(%rsp), %ymm0
	vmovups	544(%rsp), %ymm1
	vmovups	576(%rsp), %ymm2
	vmovups	608(%rsp), %ymm3
	vmovups	%ymm3, 96(%rsp)
	vmovups	%ymm2, 64(%rsp)
	vmovups	%ymm1, 32(%rsp)
	vmovups	%ymm0, (%rsp)
	movl	%r14d, %eax
	andl	$7, %eax
	cmpq	$8, %r14
	jae	.Laes_v3_BB37_19
# %bb.17:
	xorl	%ecx, %ecx
	jmp	.Laes_v3_BB37_22
.Laes_v3_BB37_18:                              # %"aes_soft::soft::blocks::filled_up::copy_first::<#5d1bd3c3accb24a7>.exit.critedge"
	leaq	512(%rsp), %rdi
	leaq	256(%rsp), %rcx
	vzeroupper
	callq	aes_v3.aes_soft.soft.ciphers.planes.process_outlined.2
	vmovups	736(%rsp), %ymm0
	vmovups	%ymm0, 224(%rsp)
	vmovups	704(%rsp), %ymm0
	vmovups	%ymm0, 192(%rsp)
	vmovups	672(%rsp), %ymm0
	vmovups	%ymm0, 160(%rsp)
	vmovups	640(%rsp), %ymm0
	vmovups	%ymm0, 128(%rsp)
	vmovups	512(%rsp), %ymm0
	vmovups	544(%rsp), %ymm1
	vmovups	576(%rsp), %ymm2
	vmovups	608(%rsp), %ymm3
	vmovups	%ymm3, 96(%rsp)
	vmovups	%ymm2, 64(%rsp)
	vmovups	%ymm1, 32(%rsp)
	vmovups	%ymm0, (%rsp)
	addq	$776, %rsp                      # imm = 0x308
	popq	%rbx
	popq	%r14
	vzeroupper
	retq
.Laes_v3_BB37_19:                              # %"aes_soft::soft::blocks::filled_up::filled_up::<#5d1bd3c3accb24a7>.exit.new"
	andl	$8, %r14d
	movl	$112, %edx
	xorl	%ecx, %ecx
	.p2align	4
.Laes_v3_BB37_20:                              # %join.8.i19
                                        # =>This Inner Loop Header: Depth=1
	vmovups	-112(%rsp,%rdx), %xmm0
	vmovups	%xmm0, -112(%rbx,%rdx)
	vmovups	-96(%rsp,%rdx), %xmm0
	vmovups	%xmm0, -96(%rbx,%rdx)
	vmovups	-80(%rsp,%rdx), %xmm0
	vmovups	%xmm0, -80(%rbx,%rdx)
	vmovups	-64(%rsp,%rdx), %xmm0
	vmovups	%xmm0, -64(%rbx,%rdx)
	vmovups	-48(%rsp,%rdx), %xmm0
	vmovups	%xmm0, -48(%rbx,%rdx)
	vmovups	-32(%rsp,%rdx), %xmm0
	vmovups	%xmm0, -32(%rbx,%rdx)
	vmovups	-16(%rsp,%rdx), %xmm0
	vmovups	%xmm0, -16(%rbx,%rdx)
	vmovups	(%rsp,%rdx), %xmm0
	vmovups	%xmm0, (%rbx,%rdx)
	addq	$8, %rcx
	subq	$-128, %rdx
	cmpq	%rcx, %r14
	jne	.Laes_v3_BB37_20
# %bb.21:                               # %"aes_soft::soft::blocks::filled_up::copy_first::<#5d1bd3c3accb24a7>.exit.loopexit.unr-lcssa"
	testq	%rax, %rax
	je	.Laes_v3_BB37_24
.Laes_v3_BB37_22:                              # %join.8.i19.epil.preheader
	shlq	$4, %rcx
	addq	%rcx, %rbx
	addq	%rsp, %rcx
	shll	$4, %eax
	xorl	%edx, %edx
	.p2align	4
.Laes_v3_BB37_23:                              # %join.8.i19.epil
                                        # =>This Inner Loop Header: Depth=1
	vmovups	(%rcx,%rdx), %xmm0
	vmovups	%xmm0, (%rbx,%rdx)
	addq	$16, %rdx
	cmpq	%rdx, %rax
	jne	.Laes_v3_BB37_23
.Laes_v3_BB37_24:                              # %"aes_soft::soft::blocks::filled_up::copy_first::<#5d1bd3c3accb24a7>.exit"
	addq	$776, %rsp                      # imm = 0x308
	popq	%rbx
	popq	%r14
	vzeroupper
	retq
	.seh_endproc
                                        # -- End function
	.def	aes_v3.key_wrap.wrapping.unwrap;
	.scl	3;
	.type	32;
	.endef
	.p2align	4                               # -- Begin function key_wrap::wrapping::unwrap::<#6a90e3eaefb0221c>
aes_v3.key_wrap.wrapping.unwrap: # @aes_v3.key_wrap.wrapping.unwrap
.seh_proc aes_v3.key_wrap.wrapping.unwrap
# %bb.0:                                # %start
	pushq	%r14
	.seh_pushreg %r14
	pushq	%rbx
	.seh_pushreg %rbx
	subq	$56, %rsp
	.seh_stackalloc 56
	.seh_endprologue
	movq	%rcx, %r14
	movq	%rdx, %rax
	leaq	-2(%r8), %rcx
	movabsq	$18014398509481981, %rdx        # imm = 0x3FFFFFFFFFFFFD
	cmpq	%rdx, %rcx
	seta	%cl
	leaq	1(%r8), %rdx
	cmpq	%rdx, %rax
	setne	%dl
	orb	%cl, %dl
	jne	.Laes_v3_BB38_5
# %bb.1:                                # %after.1
	movq	%r8, %rbx
	leaq	8(%rsi), %rdx
	leaq	-8(,%rax,8), %r8
	movq	%r14, %rcx
	subq	%rdx, %rcx
	cmpq	%r8, %rcx
	jae	.Laes_v3_BB38_7
# %bb.2:                                # %loop.4.preheader.i.i.i.i.i.i.i.i
	movq	%rax, %rcx
	decq	%rcx
	je	.Laes_v3_BB38_23
# %bb.3:                                # %iter.check
	cmpq	$4, %rcx
	jb	.Laes_v3_BB38_4
# %bb.8:                                # %vector.memcheck
	movq	%r14, %r8
	subq	%rsi, %r8
	addq	$-8, %r8
	cmpq	$128, %r8
	jae	.Laes_v3_BB38_10
.Laes_v3_BB38_4:
	xorl	%r8d, %r8d
.Laes_v3_BB38_19:                              # %join.7.i.i.i.i.i.i.i.i.preheader
	movq	%rax, %r9
	subq	%r8, %r9
	addq	$-2, %r9
	movl	%r8d, %r10d
	subl	%eax, %r10d
	notl	%r10d
	andl	$7, %r10d
	je	.Laes_v3_BB38_21
	.p2align	4
.Laes_v3_BB38_20:                              # %join.7.i.i.i.i.i.i.i.i.prol
                                        # =>This Inner Loop Header: Depth=1
	movq	(%rdx,%r8,8), %rax
	movq	%rax, (%r14,%r8,8)
	incq	%r8
	decq	%r10
	jne	.Laes_v3_BB38_20
.Laes_v3_BB38_21:                              # %join.7.i.i.i.i.i.i.i.i.prol.loopexit
	cmpq	$7, %r9
	jb	.Laes_v3_BB38_23
	.p2align	4
.Laes_v3_BB38_22:                              # %join.7.i.i.i.i.i.i.i.i
                                        # =>This Inner Loop Header: Depth=1
	movq	8(%rsi,%r8,8), %rax
	movq	%rax, (%r14,%r8,8)
	movq	16(%rsi,%r8,8), %rax
	movq	%rax, 8(%r14,%r8,8)
	movq	24(%rsi,%r8,8), %rax
	movq	%rax, 16(%r14,%r8,8)
	movq	32(%rsi,%r8,8), %rax
	movq	%rax, 24(%r14,%r8,8)
	movq	40(%rsi,%r8,8), %rax
	movq	%rax, 32(%r14,%r8,8)
	movq	48(%rsi,%r8,8), %rax
	movq	%rax, 40(%r14,%r8,8)
	movq	56(%rsi,%r8,8), %rax
	movq	%rax, 48(%r14,%r8,8)
	movq	64(%rsi,%r8,8), %rax
	movq	%rax, 56(%r14,%r8,8)
	addq	$8, %r8
	cmpq	%r8, %rcx
	jne	.Laes_v3_BB38_22
	jmp	.Laes_v3_BB38_23
.Laes_v3_BB38_5:
	movb	$1, %al
	xorl	%edx, %edx
                                        # kill: def $al killed $al killed $eax
                                        # kill: def $dl killed $dl killed $edx
	addq	$56, %rsp
	popq	%rbx
	popq	%r14
	retq
.Laes_v3_BB38_7:                               # %apart.2.i.i.i.i.i.i.i.i
	movq	%r14, %rcx
	callq	memmove
.Laes_v3_BB38_23:                              # %"key_wrap::wrapping::unwrap_all::<#6a90e3eaefb0221c>.exit"
	movq	(%rsi), %rax
	movq	%rax, 40(%rsp)
	leaq	40(%rsp), %rsi
	movq	%r14, %rdx
	movq	%rbx, %rcx
	vzeroupper
	callq	aes_v3.key_wrap.steps.unwrap_in_place
	movq	40(%rsp), %rax
	movq	%rax, 40(%rsp)
	movabsq	$-6438275382588823898, %rax     # imm = 0xA6A6A6A6A6A6A6A6
	movq	%rax, 48(%rsp)
	leaq	.Laes_v3_static.8(%rip), %rsi
	leaq	40(%rsp), %rdi
	callq	aes_v3.aes_cipher.blocks.difference
	testl	%eax, %eax
	je	.Laes_v3_BB38_25
# %bb.24:                               # %loop.5.preheader.i
	leaq	-8(,%rbx,8), %r8
	movq	%r14, %rcx
	xorl	%edx, %edx
	callq	memset
	movq	$0, -8(%r14,%rbx,8)
	movb	$1, %dl
	movb	$1, %al
                                        # kill: def $al killed $al killed $eax
                                        # kill: def $dl killed $dl killed $edx
	addq	$56, %rsp
	popq	%rbx
	popq	%r14
	retq
.Laes_v3_BB38_25:
	xorl	%edx, %edx
	xorl	%eax, %eax
                                        # kill: def $al killed $al killed $eax
                                        # kill: def $dl killed $dl killed $edx
	addq	$56, %rsp
	popq	%rbx
	popq	%r14
	retq
.Laes_v3_BB38_10:                              # %vector.main.loop.iter.check
	cmpq	$16, %rcx
	jae	.Laes_v3_BB38_12
# %bb.11:
	xorl	%r8d, %r8d
	jmp	.Laes_v3_BB38_16
.Laes_v3_BB38_12:                              # %vector.ph
	movq	%rcx, %r8
	andq	$-16, %r8
	xorl	%r9d, %r9d
	.p2align	4
.Laes_v3_BB38_13:                              # %vector.body
                                        # =>This Inner Loop Header: Depth=1
	vmovups	8(%rsi,%r9,8), %ymm0
	vmovups	40(%rsi,%r9,8), %ymm1
	vmovups	72(%rsi,%r9,8), %ymm2
	vmovups	104(%rsi,%r9,8), %ymm3
	vmovups	%ymm0, (%r14,%r9,8)
	vmovups	%ymm1, 32(%r14,%r9,8)
	vmovups	%ymm2, 64(%r14,%r9,8)
	vmovups	%ymm3, 96(%r14,%r9,8)
	addq	$16, %r9
	cmpq	%r9, %r8
	jne	.Laes_v3_BB38_13
# %bb.14:                               # %middle.block
	cmpq	%r8, %rcx
	je	.Laes_v3_BB38_23
# %bb.15:                               # %vec.epilog.iter.check
	testb	$12, %cl
	je	.Laes_v3_BB38_19
.Laes_v3_BB38_16:                              # %vec.epilog.ph
	movq	%r8, %r9
	movq	%rcx, %r8
	andq	$-4, %r8
	.p2align	4
.Laes_v3_BB38_17:                              # %vec.epilog.vector.body
                                        # =>This Inner Loop Header: Depth=1
	vmovups	(%rdx,%r9,8), %ymm0
	vmovups	%ymm0, (%r14,%r9,8)
	addq	$4, %r9
	cmpq	%r9, %r8
	jne	.Laes_v3_BB38_17
# %bb.18:                               # %vec.epilog.middle.block
	cmpq	%r8, %rcx
	je	.Laes_v3_BB38_23
	jmp	.Laes_v3_BB38_19
	.seh_endproc
                                        # -- End function
	.def	aes_v3.key_wrap.steps.unwrap_in_place;
	.scl	3;
	.type	32;
	.endef
	.p2align	4                               # -- Begin function key_wrap::steps::unwrap_in_place::<#6a90e3eaefb0221c>
aes_v3.key_wrap.steps.unwrap_in_place: # @aes_v3.key_wrap.steps.unwrap_in_place
.seh_proc aes_v3.key_wrap.steps.unwrap_in_place
# %bb.0:                                # %start
	pushq	%rbp
	.seh_pushreg %rbp
	pushq	%r15
	.seh_pushreg %r15
	pushq	%r14
	.seh_pushreg %r14
	pushq	%r13
	.seh_pushreg %r13
	pushq	%r12
	.seh_pushreg %r12
	pushq	%rbx
	.seh_pushreg %rbx
	subq	$24, %rsp
	.seh_stackalloc 24
	.seh_endprologue
	testq	%rcx, %rcx
	je	.Laes_v3_BB39_13
# %bb.1:                                # %join.5.preheader
	movq	%rsi, %r14
	leaq	(%rcx,%rcx), %rbp
	leaq	(,%rbp,2), %r12
	addq	%rbp, %r12
	movq	%rdx, 8(%rsp)                   # 8-byte Spill
	leaq	(%rdx,%rcx,8), %r13
	addq	$-8, %r13
	movq	%rcx, 16(%rsp)                  # 8-byte Spill
	movq	%rcx, %rbx
	.p2align	4
.Laes_v3_BB39_2:                               # %join.5.i
                                        # =>This Inner Loop Header: Depth=1
	movq	%r12, %rax
	bswapq	%rax
	xorq	%rax, (%r14)
	movq	%rdi, %r15
	movq	%r14, %rsi
	movq	%r13, %rdx
	callq	aes_v3.key_wrap.steps.decrypt_halves
	movq	%r15, %rdi
	decq	%r12
	addq	$-8, %r13
	decq	%rbx
	jne	.Laes_v3_BB39_2
# %bb.3:                                # %"key_wrap::steps::unwrap_turn::<#6a90e3eaefb0221c>.exit.loopexit"
	movq	16(%rsp), %rbx                  # 8-byte Reload
	leaq	(%rbx,%rbx,4), %r12
	movq	8(%rsp), %rax                   # 8-byte Reload
	leaq	(%rax,%rbx,8), %r13
	addq	$-8, %r13
	.p2align	4
.Laes_v3_BB39_4:                               # %join.5.i.1
                                        # =>This Inner Loop Header: Depth=1
	movq	%r12, %rax
	bswapq	%rax
	xorq	%rax, (%r14)
	movq	%r15, %rdi
	movq	%r14, %rsi
	movq	%r13, %rdx
	callq	aes_v3.key_wrap.steps.decrypt_halves
	decq	%r12
	addq	$-8, %r13
	decq	%rbx
	jne	.Laes_v3_BB39_4
# %bb.5:                                # %"key_wrap::steps::unwrap_turn::<#6a90e3eaefb0221c>.exit.loopexit.1"
	movq	16(%rsp), %rbx                  # 8-byte Reload
	leaq	(,%rbx,4), %r12
	movq	8(%rsp), %rax                   # 8-byte Reload
	leaq	(%rax,%rbx,8), %r13
	addq	$-8, %r13
	.p2align	4
.Laes_v3_BB39_6:                               # %join.5.i.2
                                        # =>This Inner Loop Header: Depth=1
	movq	%r12, %rax
	bswapq	%rax
	xorq	%rax, (%r14)
	movq	%r15, %rdi
	movq	%r14, %rsi
	movq	%r13, %rdx
	callq	aes_v3.key_wrap.steps.decrypt_halves
	decq	%r12
	addq	$-8, %r13
	decq	%rbx
	jne	.Laes_v3_BB39_6
# %bb.7:                                # %"key_wrap::steps::unwrap_turn::<#6a90e3eaefb0221c>.exit.loopexit.2"
	movq	16(%rsp), %rbx                  # 8-byte Reload
	leaq	(%rbx,%rbx,2), %r12
	movq	8(%rsp), %rax                   # 8-byte Reload
	leaq	(%rax,%rbx,8), %r13
	addq	$-8, %r13
	.p2align	4
.Laes_v3_BB39_8:                               # %join.5.i.3
                                        # =>This Inner Loop Header: Depth=1
	movq	%r12, %rax
	bswapq	%rax
	xorq	%rax, (%r14)
	movq	%r15, %rdi
	movq	%r14, %rsi
	movq	%r13, %rdx
	callq	aes_v3.key_wrap.steps.decrypt_halves
	decq	%r12
	addq	$-8, %r13
	decq	%rbx
	jne	.Laes_v3_BB39_8
# %bb.9:                                # %"key_wrap::steps::unwrap_turn::<#6a90e3eaefb0221c>.exit.loopexit.3"
	movq	%r15, %rcx
	movq	8(%rsp), %rax                   # 8-byte Reload
	movq	16(%rsp), %r15                  # 8-byte Reload
	leaq	(%rax,%r15,8), %r13
	addq	$-8, %r13
	movq	%r15, %rbx
	movq	%rcx, %r12
	.p2align	4
.Laes_v3_BB39_10:                              # %join.5.i.4
                                        # =>This Inner Loop Header: Depth=1
	movq	%rbp, %rax
	bswapq	%rax
	xorq	%rax, (%r14)
	movq	%r12, %rdi
	movq	%r14, %rsi
	movq	%r13, %rdx
	callq	aes_v3.key_wrap.steps.decrypt_halves
	decq	%rbp
	addq	$-8, %r13
	decq	%rbx
	jne	.Laes_v3_BB39_10
# %bb.11:                               # %join.5.i.5.preheader
	movq	8(%rsp), %rax                   # 8-byte Reload
	movq	%r12, %rbx
	leaq	(%rax,%r15,8), %r12
	addq	$-8, %r12
	.p2align	4
.Laes_v3_BB39_12:                              # %join.5.i.5
                                        # =>This Inner Loop Header: Depth=1
	movq	%r15, %rax
	bswapq	%rax
	xorq	%rax, (%r14)
	movq	%rbx, %rdi
	movq	%r14, %rsi
	movq	%r12, %rdx
	callq	aes_v3.key_wrap.steps.decrypt_halves
	addq	$-8, %r12
	decq	%r15
	jne	.Laes_v3_BB39_12
.Laes_v3_BB39_13:                              # %after.1
	addq	$24, %rsp
	popq	%rbx
	popq	%r12
	popq	%r13
	popq	%r14
	popq	%r15
	popq	%rbp
	retq
	.seh_endproc
                                        # -- End function
	.def	aes_v3.key_wrap.steps.decrypt_halves;
	.scl	3;
	.type	32;
	.endef
	.section	.rdata,"dr"
	.p2align	4, 0x0                          # -- Begin function key_wrap::steps::decrypt_halves::<#6a90e3eaefb0221c>
.Laes_v3_CPI40_0:
	.zero	16,15
.Laes_v3_CPI40_1:
	.byte	0                               # 0x0
	.byte	181                             # 0xb5
	.byte	220                             # 0xdc
	.byte	105                             # 0x69
	.byte	219                             # 0xdb
	.byte	110                             # 0x6e
	.byte	7                               # 0x7
	.byte	178                             # 0xb2
	.byte	20                              # 0x14
	.byte	161                             # 0xa1
	.byte	200                             # 0xc8
	.byte	125                             # 0x7d
	.byte	207                             # 0xcf
	.byte	122                             # 0x7a
	.byte	19                              # 0x13
	.byte	166                             # 0xa6
.Laes_v3_CPI40_2:
	.byte	0                               # 0x0
	.byte	167                             # 0xa7
	.byte	168                             # 0xa8
	.byte	15                              # 0xf
	.byte	237                             # 0xed
	.byte	74                              # 0x4a
	.byte	69                              # 0x45
	.byte	226                             # 0xe2
	.byte	209                             # 0xd1
	.byte	118                             # 0x76
	.byte	121                             # 0x79
	.byte	222                             # 0xde
	.byte	60                              # 0x3c
	.byte	155                             # 0x9b
	.byte	148                             # 0x94
	.byte	51                              # 0x33
.Laes_v3_CPI40_3:
	.byte	128                             # 0x80
	.byte	2                               # 0x2
	.byte	1                               # 0x1
	.byte	15                              # 0xf
	.byte	9                               # 0x9
	.byte	5                               # 0x5
	.byte	14                              # 0xe
	.byte	12                              # 0xc
	.byte	13                              # 0xd
	.byte	4                               # 0x4
	.byte	11                              # 0xb
	.byte	10                              # 0xa
	.byte	7                               # 0x7
	.byte	8                               # 0x8
	.byte	6                               # 0x6
	.byte	3                               # 0x3
.Laes_v3_CPI40_4:
	.byte	128                             # 0x80
	.byte	1                               # 0x1
	.byte	9                               # 0x9
	.byte	14                              # 0xe
	.byte	13                              # 0xd
	.byte	11                              # 0xb
	.byte	7                               # 0x7
	.byte	6                               # 0x6
	.byte	15                              # 0xf
	.byte	2                               # 0x2
	.byte	12                              # 0xc
	.byte	5                               # 0x5
	.byte	10                              # 0xa
	.byte	4                               # 0x4
	.byte	3                               # 0x3
	.byte	8                               # 0x8
.Laes_v3_CPI40_5:
	.byte	0                               # 0x0
	.byte	41                              # 0x29
	.byte	235                             # 0xeb
	.byte	82                              # 0x52
	.byte	166                             # 0xa6
	.byte	54                              # 0x36
	.byte	185                             # 0xb9
	.byte	144                             # 0x90
	.byte	123                             # 0x7b
	.byte	221                             # 0xdd
	.byte	143                             # 0x8f
	.byte	100                             # 0x64
	.byte	31                              # 0x1f
	.byte	77                              # 0x4d
	.byte	244                             # 0xf4
	.byte	194                             # 0xc2
.Laes_v3_CPI40_6:
	.byte	0                               # 0x0
	.byte	5                               # 0x5
	.byte	253                             # 0xfd
	.byte	152                             # 0x98
	.byte	223                             # 0xdf
	.byte	191                             # 0xbf
	.byte	101                             # 0x65
	.byte	96                              # 0x60
	.byte	157                             # 0x9d
	.byte	66                              # 0x42
	.byte	218                             # 0xda
	.byte	39                              # 0x27
	.byte	186                             # 0xba
	.byte	34                              # 0x22
	.byte	71                              # 0x47
	.byte	248                             # 0xf8
.Laes_v3_CPI40_7:
	.byte	0                               # 0x0
	.byte	91                              # 0x5b
	.byte	164                             # 0xa4
	.byte	122                             # 0x7a
	.byte	207                             # 0xcf
	.byte	74                              # 0x4a
	.byte	222                             # 0xde
	.byte	133                             # 0x85
	.byte	33                              # 0x21
	.byte	238                             # 0xee
	.byte	148                             # 0x94
	.byte	48                              # 0x30
	.byte	17                              # 0x11
	.byte	107                             # 0x6b
	.byte	181                             # 0xb5
	.byte	255                             # 0xff
.Laes_v3_CPI40_8:
	.byte	0                               # 0x0
	.byte	118                             # 0x76
	.byte	62                              # 0x3e
	.byte	158                             # 0x9e
	.byte	30                              # 0x1e
	.byte	200                             # 0xc8
	.byte	160                             # 0xa0
	.byte	214                             # 0xd6
	.byte	232                             # 0xe8
	.byte	246                             # 0xf6
	.byte	104                             # 0x68
	.byte	86                              # 0x56
	.byte	190                             # 0xbe
	.byte	32                              # 0x20
	.byte	128                             # 0x80
	.byte	72                              # 0x48
.Laes_v3_CPI40_9:
	.byte	0                               # 0x0
	.byte	28                              # 0x1c
	.byte	68                              # 0x44
	.byte	88                              # 0x58
	.byte	151                             # 0x97
	.byte	139                             # 0x8b
	.byte	211                             # 0xd3
	.byte	207                             # 0xcf
	.byte	138                             # 0x8a
	.byte	150                             # 0x96
	.byte	206                             # 0xce
	.byte	210                             # 0xd2
	.byte	29                              # 0x1d
	.byte	1                               # 0x1
	.byte	89                              # 0x59
	.byte	69                              # 0x45
.Laes_v3_CPI40_10:
	.byte	0                               # 0x0
	.byte	48                              # 0x30
	.byte	38                              # 0x26
	.byte	22                              # 0x16
	.byte	183                             # 0xb7
	.byte	135                             # 0x87
	.byte	145                             # 0x91
	.byte	161                             # 0xa1
	.byte	65                              # 0x41
	.byte	113                             # 0x71
	.byte	103                             # 0x67
	.byte	87                              # 0x57
	.byte	246                             # 0xf6
	.byte	198                             # 0xc6
	.byte	208                             # 0xd0
	.byte	224                             # 0xe0
.Laes_v3_CPI40_11:
	.byte	0                               # 0x0
	.byte	59                              # 0x3b
	.byte	228                             # 0xe4
	.byte	200                             # 0xc8
	.byte	3                               # 0x3
	.byte	20                              # 0x14
	.byte	44                              # 0x2c
	.byte	23                              # 0x17
	.byte	243                             # 0xf3
	.byte	240                             # 0xf0
	.byte	56                              # 0x38
	.byte	220                             # 0xdc
	.byte	47                              # 0x2f
	.byte	231                             # 0xe7
	.byte	203                             # 0xcb
	.byte	223                             # 0xdf
.Laes_v3_CPI40_12:
	.byte	0                               # 0x0
	.byte	36                              # 0x24
	.byte	145                             # 0x91
	.byte	25                              # 0x19
	.byte	35                              # 0x23
	.byte	143                             # 0x8f
	.byte	136                             # 0x88
	.byte	172                             # 0xac
	.byte	61                              # 0x3d
	.byte	30                              # 0x1e
	.byte	7                               # 0x7
	.byte	150                             # 0x96
	.byte	171                             # 0xab
	.byte	178                             # 0xb2
	.byte	58                              # 0x3a
	.byte	181                             # 0xb5
.Laes_v3_CPI40_13:
	.zero	4,15
	.text
	.p2align	4
aes_v3.key_wrap.steps.decrypt_halves: # @aes_v3.key_wrap.steps.decrypt_halves
.seh_proc aes_v3.key_wrap.steps.decrypt_halves
# %bb.0:                                # %start
	subq	$24, %rsp
	.seh_stackalloc 24
	.seh_endprologue
	movq	(%rsi), %rax
	movq	(%rdx), %rcx
	movq	%rax, (%rsp)
	movq	%rcx, 8(%rsp)
	movq	16(%rdi), %rax
	movq	24(%rdi), %rdi
	leaq	-1(%rdi), %rcx
	vmovdqu	(%rax), %xmm0
	vpxor	(%rsp), %xmm0, %xmm1
	vpbroadcastd	.Laes_v3_CPI40_13(%rip), %xmm0 # xmm0 = [15,15,15,15,15,15,15,15,15,15,15,15,15,15,15,15]
	vpand	%xmm0, %xmm1, %xmm2
	vmovdqa	.Laes_v3_CPI40_1(%rip), %xmm3          # xmm3 = [0,181,220,105,219,110,7,178,20,161,200,125,207,122,19,166]
	vpshufb	%xmm2, %xmm3, %xmm2
	vpsrlw	$4, %xmm1, %xmm1
	vpand	%xmm0, %xmm1, %xmm1
	vmovdqa	.Laes_v3_CPI40_2(%rip), %xmm3          # xmm3 = [0,167,168,15,237,74,69,226,209,118,121,222,60,155,148,51]
	vpshufb	%xmm1, %xmm3, %xmm1
	vpxor	%xmm2, %xmm1, %xmm1
	cmpq	$2, %rcx
	jb	.Laes_v3_BB40_3
# %bb.1:                                # %join.5.i.i.preheader
	leaq	16(%rax), %r8
	addq	$-2, %rdi
	movl	$48, %r9d
	.p2align	4
.Laes_v3_BB40_2:                               # %join.5.i.i
                                        # =>This Inner Loop Header: Depth=1
	vpsrlw	$4, %xmm1, %xmm2
	vpand	%xmm0, %xmm2, %xmm2
	vpand	%xmm0, %xmm1, %xmm1
	vpxor	%xmm1, %xmm2, %xmm3
	vmovdqa	.Laes_v3_CPI40_3(%rip), %xmm4          # xmm4 = [128,2,1,15,9,5,14,12,13,4,11,10,7,8,6,3]
	vpshufb	%xmm1, %xmm4, %xmm1
	vmovdqa	.Laes_v3_CPI40_4(%rip), %xmm4          # xmm4 = [128,1,9,14,13,11,7,6,15,2,12,5,10,4,3,8]
	vpshufb	%xmm2, %xmm4, %xmm5
	vpshufb	%xmm3, %xmm4, %xmm6
	vpxor	%xmm1, %xmm5, %xmm5
	vpxor	%xmm1, %xmm6, %xmm1
	vpshufb	%xmm5, %xmm4, %xmm5
	vpshufb	%xmm1, %xmm4, %xmm1
	vpxor	%xmm3, %xmm5, %xmm3
	vpxor	%xmm2, %xmm1, %xmm1
	vmovdqa	.Laes_v3_CPI40_5(%rip), %xmm2          # xmm2 = [0,41,235,82,166,54,185,144,123,221,143,100,31,77,244,194]
	vpshufb	%xmm3, %xmm2, %xmm2
	vmovdqa	.Laes_v3_CPI40_6(%rip), %xmm4          # xmm4 = [0,5,253,152,223,191,101,96,157,66,218,39,186,34,71,248]
	vpshufb	%xmm1, %xmm4, %xmm4
	vpxor	%xmm2, %xmm4, %xmm2
	vmovdqa	.Laes_v3_CPI40_7(%rip), %xmm4          # xmm4 = [0,91,164,122,207,74,222,133,33,238,148,48,17,107,181,255]
	vpshufb	%xmm3, %xmm4, %xmm3
	vmovdqa	.Laes_v3_CPI40_8(%rip), %xmm4          # xmm4 = [0,118,62,158,30,200,160,214,232,246,104,86,190,32,128,72]
	vpshufb	%xmm1, %xmm4, %xmm1
	vpxor	%xmm3, %xmm1, %xmm1
	movl	%r9d, %r10d
	andl	$48, %r10d
	leaq	.Laes_v3_static.6(%rip), %r11
	vpshufb	(%r10,%r11), %xmm1, %xmm1
	vpxor	%xmm1, %xmm2, %xmm1
	vpand	%xmm0, %xmm1, %xmm2
	vmovdqa	.Laes_v3_CPI40_9(%rip), %xmm3          # xmm3 = [0,28,68,88,151,139,211,207,138,150,206,210,29,1,89,69]
	vpshufb	%xmm2, %xmm3, %xmm2
	vpsrlw	$4, %xmm1, %xmm3
	vpand	%xmm0, %xmm3, %xmm3
	vmovdqa	.Laes_v3_CPI40_10(%rip), %xmm4         # xmm4 = [0,48,38,22,183,135,145,161,65,113,103,87,246,198,208,224]
	vpshufb	%xmm3, %xmm4, %xmm3
	leaq	.Laes_v3_static.4(%rip), %r11
	vmovdqu	(%r10,%r11), %xmm4
	vpshufb	%xmm4, %xmm1, %xmm5
	vpxor	%xmm5, %xmm2, %xmm2
	vpxor	%xmm2, %xmm3, %xmm2
	leaq	.Laes_v3_static.5(%rip), %r11
	vpshufb	(%r10,%r11), %xmm1, %xmm1
	vpshufb	%xmm4, %xmm2, %xmm3
	vpxor	(%r8), %xmm3, %xmm3
	vpxor	%xmm2, %xmm1, %xmm1
	vpxor	%xmm1, %xmm3, %xmm1
	addq	$16, %r8
	addq	$48, %r9
	decq	%rdi
	jne	.Laes_v3_BB40_2
.Laes_v3_BB40_3:                               # %"aes_permute::blocks::process_block::<#d2d6b19aefc59415>.exit"
	movq	%rcx, %rdi
	shlq	$4, %rdi
	vpsrlw	$4, %xmm1, %xmm2
	vpand	%xmm0, %xmm2, %xmm2
	vpand	%xmm0, %xmm1, %xmm0
	vpxor	%xmm0, %xmm2, %xmm1
	vmovdqa	.Laes_v3_CPI40_3(%rip), %xmm3          # xmm3 = [128,2,1,15,9,5,14,12,13,4,11,10,7,8,6,3]
	vpshufb	%xmm0, %xmm3, %xmm0
	vmovdqa	.Laes_v3_CPI40_4(%rip), %xmm3          # xmm3 = [128,1,9,14,13,11,7,6,15,2,12,5,10,4,3,8]
	vpshufb	%xmm2, %xmm3, %xmm4
	vpshufb	%xmm1, %xmm3, %xmm5
	vpxor	%xmm0, %xmm4, %xmm4
	vpxor	%xmm0, %xmm5, %xmm0
	vpshufb	%xmm4, %xmm3, %xmm4
	vpshufb	%xmm0, %xmm3, %xmm0
	vpxor	%xmm1, %xmm4, %xmm1
	vpxor	%xmm2, %xmm0, %xmm0
	vmovdqa	.Laes_v3_CPI40_11(%rip), %xmm2         # xmm2 = [0,59,228,200,3,20,44,23,243,240,56,220,47,231,203,223]
	vpshufb	%xmm1, %xmm2, %xmm1
	vmovdqa	.Laes_v3_CPI40_12(%rip), %xmm2         # xmm2 = [0,36,145,25,35,143,136,172,61,30,7,150,171,178,58,181]
	vpshufb	%xmm0, %xmm2, %xmm0
	vpxor	%xmm1, %xmm0, %xmm0
	negl	%ecx
	shll	$4, %ecx
	andl	$48, %ecx
	leaq	.Laes_v3_static.3(%rip), %r8
	vpshufb	(%rcx,%r8), %xmm0, %xmm0
	vpxor	(%rax,%rdi), %xmm0, %xmm0
	vmovdqa	%xmm0, (%rsp)
	movq	(%rsp), %rax
	movq	8(%rsp), %rcx
	movq	%rax, (%rsi)
	movq	%rcx, (%rdx)
	movq	%rsp, %rdi
	callq	aes_v3.aes_cipher.zeroize.elements.zeroize_elements.3
	nop
	addq	$24, %rsp
	retq
	.seh_endproc
                                        # -- End function
	.def	aes_v3.aes_cipher.zeroize.elements.zeroize_elements.3;
	.scl	3;
	.type	32;
	.endef
	.p2align	4                               # -- Begin function aes_cipher::zeroize::elements::zeroize_elements::<#51e2d7e6a2c2e10f>
aes_v3.aes_cipher.zeroize.elements.zeroize_elements.3: # @aes_v3.aes_cipher.zeroize.elements.zeroize_elements.3
.seh_proc aes_v3.aes_cipher.zeroize.elements.zeroize_elements.3
# %bb.0:                                # %start
	subq	$40, %rsp
	.seh_stackalloc 40
	.seh_endprologue
	vxorps	%xmm0, %xmm0, %xmm0
	vmovaps	%xmm0, 16(%rsp)
	movq	$0, 8(%rsp)
	#APP
	#NO_APP
	movq	8(%rsp), %rax
	#APP
	#NO_APP
	testq	%rax, %rax
	je	.Laes_v3_BB41_2
# %bb.1:                                # %"aes_cipher::zeroize::observe::<#b3ccab65b2a1c990>.exit8"
	vmovaps	16(%rsp), %xmm0
	vmovups	%xmm0, (%rdi)
	xorl	%eax, %eax
	jmp	.Laes_v3_BB41_3
.Laes_v3_BB41_2:                               # %then.1.i
	movzbl	(%rdi), %eax
	vmovaps	16(%rsp), %xmm0
	vmovups	%xmm0, (%rdi)
	andb	(%rdi), %al
	movzbl	%al, %eax
.Laes_v3_BB41_3:                               # %"aes_cipher::zeroize::observe::<#b3ccab65b2a1c990>.exit"
	#APP
	#NO_APP
	xchgq	%rax, 8(%rsp)
	#APP
	#NO_APP
	addq	$40, %rsp
	retq
	.seh_endproc
                                        # -- End function
	.def	aes_v3.aes_cipher.blocks.difference;
	.scl	3;
	.type	32;
	.endef
	.p2align	4                               # -- Begin function aes_cipher::blocks::difference
aes_v3.aes_cipher.blocks.difference:       # @aes_v3.aes_cipher.blocks.difference
# %bb.0:                                # %start
	vmovdqu	(%rsi), %xmm0
	vpxor	(%rdi), %xmm0, %xmm0
	vpshufd	$238, %xmm0, %xmm1              # xmm1 = xmm0[2,3,2,3]
	vpor	%xmm1, %xmm0, %xmm0
	vpshufd	$85, %xmm0, %xmm1               # xmm1 = xmm0[1,1,1,1]
	vpor	%xmm1, %xmm0, %xmm0
	vpsrld	$16, %xmm0, %xmm1
	vpor	%xmm1, %xmm0, %xmm0
	vpsrlw	$8, %xmm0, %xmm1
	vpor	%xmm1, %xmm0, %xmm0
	vpextrb	$0, %xmm0, %eax
	retq
                                        # -- End function
	.def	aes_v3.key_wrap.padded.unwrap_padded;
	.scl	3;
	.type	32;
	.endef
	.p2align	4                               # -- Begin function key_wrap::padded::unwrap_padded::<#6a90e3eaefb0221c>
aes_v3.key_wrap.padded.unwrap_padded: # @aes_v3.key_wrap.padded.unwrap_padded
.seh_proc aes_v3.key_wrap.padded.unwrap_padded
# %bb.0:                                # %start
	pushq	%rbp
	.seh_pushreg %rbp
	pushq	%r15
	.seh_pushreg %r15
	pushq	%r14
	.seh_pushreg %r14
	pushq	%r12
	.seh_pushreg %r12
	pushq	%rbx
	.seh_pushreg %rbx
	subq	$48, %rsp
	.seh_stackalloc 48
	.seh_endprologue
	movq	%rdi, %rbx
	leaq	-1(%r9), %r12
	cmpq	$536870912, %r12                # imm = 0x20000000
	setb	%al
	leaq	1(%r9), %rdi
	cmpq	%rdi, %rcx
	sete	%dil
	testb	%dil, %al
	je	.Laes_v3_BB43_5
# %bb.1:                                # %after.1
	movq	%r9, %r14
	movq	%r8, %r15
	leaq	8(%rdx), %rax
	leaq	-8(,%rcx,8), %r8
	movq	%r15, %rdi
	subq	%rax, %rdi
	cmpq	%r8, %rdi
	jae	.Laes_v3_BB43_6
# %bb.2:                                # %loop.4.preheader.i.i.i.i.i.i.i
	movq	%rcx, %rdi
	decq	%rdi
	je	.Laes_v3_BB43_22
# %bb.3:                                # %iter.check
	cmpq	$4, %rdi
	jb	.Laes_v3_BB43_4
# %bb.7:                                # %vector.memcheck
	movq	%r15, %r8
	subq	%rdx, %r8
	addq	$-8, %r8
	cmpq	$128, %r8
	jae	.Laes_v3_BB43_9
.Laes_v3_BB43_4:
	xorl	%r8d, %r8d
.Laes_v3_BB43_18:                              # %join.7.i.i.i.i.i.i.i.preheader
	movq	%rcx, %r9
	subq	%r8, %r9
	addq	$-2, %r9
	movl	%r8d, %r10d
	subl	%ecx, %r10d
	notl	%r10d
	andl	$7, %r10d
	je	.Laes_v3_BB43_20
	.p2align	4
.Laes_v3_BB43_19:                              # %join.7.i.i.i.i.i.i.i.prol
                                        # =>This Inner Loop Header: Depth=1
	movq	(%rax,%r8,8), %rcx
	movq	%rcx, (%r15,%r8,8)
	incq	%r8
	decq	%r10
	jne	.Laes_v3_BB43_19
.Laes_v3_BB43_20:                              # %join.7.i.i.i.i.i.i.i.prol.loopexit
	cmpq	$7, %r9
	jb	.Laes_v3_BB43_22
	.p2align	4
.Laes_v3_BB43_21:                              # %join.7.i.i.i.i.i.i.i
                                        # =>This Inner Loop Header: Depth=1
	movq	8(%rdx,%r8,8), %rax
	movq	%rax, (%r15,%r8,8)
	movq	16(%rdx,%r8,8), %rax
	movq	%rax, 8(%r15,%r8,8)
	movq	24(%rdx,%r8,8), %rax
	movq	%rax, 16(%r15,%r8,8)
	movq	32(%rdx,%r8,8), %rax
	movq	%rax, 24(%r15,%r8,8)
	movq	40(%rdx,%r8,8), %rax
	movq	%rax, 32(%r15,%r8,8)
	movq	48(%rdx,%r8,8), %rax
	movq	%rax, 40(%r15,%r8,8)
	movq	56(%rdx,%r8,8), %rax
	movq	%rax, 48(%r15,%r8,8)
	movq	64(%rdx,%r8,8), %rax
	movq	%rax, 56(%r15,%r8,8)
	addq	$8, %r8
	cmpq	%r8, %rdi
	jne	.Laes_v3_BB43_21
	jmp	.Laes_v3_BB43_22
.Laes_v3_BB43_5:                               # %join.5
	movw	$1, (%rbx)
	jmp	.Laes_v3_BB43_29
.Laes_v3_BB43_6:                               # %apart.2.i.i.i.i.i.i.i
	movq	%r15, %rcx
	movq	%rdx, %rdi
	movq	%rax, %rdx
	callq	memmove
	movq	%rdi, %rdx
.Laes_v3_BB43_22:                              # %"key_wrap::wrapping::copy_apart.exit"
	movq	(%rdx), %rax
	movq	%rax, 40(%rsp)
	leaq	40(%rsp), %rax
	movq	%rsi, %rdi
	movq	%rax, %rsi
	movq	%r15, %rdx
	cmpq	$1, %r14
	jne	.Laes_v3_BB43_24
# %bb.23:                               # %then.1.i
	vzeroupper
	callq	aes_v3.key_wrap.steps.decrypt_halves
	jmp	.Laes_v3_BB43_25
.Laes_v3_BB43_24:                              # %else.2.i
	movq	%r14, %rcx
	vzeroupper
	callq	aes_v3.key_wrap.steps.unwrap_in_place
.Laes_v3_BB43_25:                              # %"key_wrap::steps::unwrap_string::<#6a90e3eaefb0221c>.exit"
	movl	40(%rsp), %edi
	movl	44(%rsp), %ebp
	movl	%ebp, %esi
	movq	%r15, %rdx
	movq	%r14, %rcx
	callq	aes_v3.key_wrap.padded.difference
	testq	%rax, %rax
	je	.Laes_v3_BB43_31
# %bb.26:                               # %loop.5.preheader.i
	testq	%r12, %r12
	je	.Laes_v3_BB43_28
# %bb.27:                               # %join.8.i.preheader
	leaq	-8(,%r14,8), %r8
	movq	%r15, %rcx
	xorl	%edx, %edx
	callq	memset
.Laes_v3_BB43_28:                              # %"core::slice::edits::slice+T::fill::<#1e8902aced0720be>.exit"
	movq	$0, -8(%r15,%r14,8)
	movw	$257, (%rbx)                    # imm = 0x101
.Laes_v3_BB43_29:                              # %common.ret
	movl	$0, 4(%rbx)
.Laes_v3_BB43_30:                              # %common.ret
	addq	$48, %rsp
	popq	%rbx
	popq	%r12
	popq	%r14
	popq	%r15
	popq	%rbp
	retq
.Laes_v3_BB43_31:                              # %join.16
	movw	$0, (%rbx)
	movbel	%ebp, 4(%rbx)
	jmp	.Laes_v3_BB43_30
.Laes_v3_BB43_9:                               # %vector.main.loop.iter.check
	cmpq	$16, %rdi
	jae	.Laes_v3_BB43_11
# %bb.10:
	xorl	%r8d, %r8d
	jmp	.Laes_v3_BB43_15
.Laes_v3_BB43_11:                              # %vector.ph
	movq	%rdi, %r8
	andq	$-16, %r8
	xorl	%r9d, %r9d
	.p2align	4
.Laes_v3_BB43_12:                              # %vector.body
                                        # =>This Inner Loop Header: Depth=1
	vmovups	8(%rdx,%r9,8), %ymm0
	vmovups	40(%rdx,%r9,8), %ymm1
	vmovups	72(%rdx,%r9,8), %ymm2
	vmovups	104(%rdx,%r9,8), %ymm3
	vmovups	%ymm0, (%r15,%r9,8)
	vmovups	%ymm1, 32(%r15,%r9,8)
	vmovups	%ymm2, 64(%r15,%r9,8)
	vmovups	%ymm3, 96(%r15,%r9,8)
	addq	$16, %r9
	cmpq	%r9, %r8
	jne	.Laes_v3_BB43_12
# %bb.13:                               # %middle.block
	cmpq	%r8, %rdi
	je	.Laes_v3_BB43_22
# %bb.14:                               # %vec.epilog.iter.check
	testb	$12, %dil
	je	.Laes_v3_BB43_18
.Laes_v3_BB43_15:                              # %vec.epilog.ph
	movq	%r8, %r9
	movq	%rdi, %r8
	andq	$-4, %r8
	.p2align	4
.Laes_v3_BB43_16:                              # %vec.epilog.vector.body
                                        # =>This Inner Loop Header: Depth=1
	vmovups	(%rax,%r9,8), %ymm0
	vmovups	%ymm0, (%r15,%r9,8)
	addq	$4, %r9
	cmpq	%r9, %r8
	jne	.Laes_v3_BB43_16
# %bb.17:                               # %vec.epilog.middle.block
	cmpq	%r8, %rdi
	je	.Laes_v3_BB43_22
	jmp	.Laes_v3_BB43_18
	.seh_endproc
                                        # -- End function
	.def	aes_v3.key_wrap.padded.difference;
	.scl	3;
	.type	32;
	.endef
	.p2align	4                               # -- Begin function key_wrap::padded::difference
aes_v3.key_wrap.padded.difference:         # @aes_v3.key_wrap.padded.difference
.seh_proc aes_v3.key_wrap.padded.difference
# %bb.0:                                # %start
	pushq	%rbp
	.seh_pushreg %rbp
	pushq	%r15
	.seh_pushreg %r15
	pushq	%r14
	.seh_pushreg %r14
	pushq	%r13
	.seh_pushreg %r13
	pushq	%r12
	.seh_pushreg %r12
	pushq	%rbx
	.seh_pushreg %rbx
	subq	$40, %rsp
	.seh_stackalloc 40
	.seh_endprologue
	movq	%rcx, 24(%rsp)                  # 8-byte Spill
	movq	%rdx, 32(%rsp)                  # 8-byte Spill
                                        # kill: def $esi killed $esi def $rsi
	movl	%edi, %ebx
	bswapl	%ebx
	bswapl	%esi
	leaq	(,%rcx,8), %rbp
	subq	%rsi, %rbp
	movl	%ebp, %r13d
	andl	$7, %r13d
	xorl	%edi, %edi
	movl	%r13d, %esi
	callq	aes_v3.key_wrap.padded.mask_below
                                        # kill: def $al killed $al def $eax
	movl	%eax, 20(%rsp)                  # 4-byte Spill
	movl	$1, %edi
	movl	%r13d, %esi
	callq	aes_v3.key_wrap.padded.mask_below
                                        # kill: def $al killed $al def $eax
	movl	%eax, 16(%rsp)                  # 4-byte Spill
	movl	$2, %edi
	movl	%r13d, %esi
	callq	aes_v3.key_wrap.padded.mask_below
                                        # kill: def $al killed $al def $eax
	movl	%eax, 12(%rsp)                  # 4-byte Spill
	movl	$3, %edi
	movl	%r13d, %esi
	callq	aes_v3.key_wrap.padded.mask_below
                                        # kill: def $al killed $al def $eax
	movl	%eax, 8(%rsp)                   # 4-byte Spill
	movl	$4, %edi
	movl	%r13d, %esi
	callq	aes_v3.key_wrap.padded.mask_below
	movl	%eax, %r12d
	movl	$5, %edi
	movl	%r13d, %esi
	callq	aes_v3.key_wrap.padded.mask_below
	movl	%eax, %r14d
	movl	$6, %edi
	movl	%r13d, %esi
	callq	aes_v3.key_wrap.padded.mask_below
	movl	%eax, %r15d
	movl	$7, %edi
	movl	%r13d, %esi
	callq	aes_v3.key_wrap.padded.mask_below
                                        # kill: def $al killed $al def $eax
	vmovd	%eax, %xmm0
	vpinsrb	$1, %r15d, %xmm0, %xmm0
	vpinsrb	$2, %r14d, %xmm0, %xmm0
	vpinsrb	$3, %r12d, %xmm0, %xmm0
	vpinsrb	$4, 8(%rsp), %xmm0, %xmm0       # 4-byte Folded Reload
	vpinsrb	$5, 12(%rsp), %xmm0, %xmm0      # 4-byte Folded Reload
	vpinsrb	$6, 16(%rsp), %xmm0, %xmm0      # 4-byte Folded Reload
	movq	32(%rsp), %rax                  # 8-byte Reload
	movq	24(%rsp), %rcx                  # 8-byte Reload
	vmovq	-8(%rax,%rcx,8), %xmm1          # xmm1 = mem[0],zero
	vpinsrb	$7, 20(%rsp), %xmm0, %xmm0      # 4-byte Folded Reload
	vpand	%xmm1, %xmm0, %xmm0
	vpshufd	$85, %xmm0, %xmm1               # xmm1 = xmm0[1,1,1,1]
	vpor	%xmm1, %xmm0, %xmm0
	vpsrld	$16, %xmm0, %xmm1
	vpor	%xmm1, %xmm0, %xmm0
	vpsrlw	$8, %xmm0, %xmm1
	vpor	%xmm1, %xmm0, %xmm0
	vpextrb	$0, %xmm0, %eax
	addl	$1504093786, %ebx               # imm = 0x59A6A65A
	shrq	$3, %rbp
	orq	%rbx, %rbp
	orq	%rbp, %rax
	addq	$40, %rsp
	popq	%rbx
	popq	%r12
	popq	%r13
	popq	%r14
	popq	%r15
	popq	%rbp
	retq
	.seh_endproc
                                        # -- End function
	.def	aes_v3.key_wrap.padded.mask_below;
	.scl	3;
	.type	32;
	.endef
	.p2align	4                               # -- Begin function key_wrap::padded::mask_below
aes_v3.key_wrap.padded.mask_below:         # @aes_v3.key_wrap.padded.mask_below
# %bb.0:                                # %start
	movl	%edi, %eax
	subl	%esi, %eax
	shrl	$24, %eax
                                        # kill: def $al killed $al killed $eax
	retq
                                        # -- End function
	.def	aes_v3.aes_c.single_rounds.inverse_mixed;
	.scl	3;
	.type	32;
	.endef
	.section	.rdata,"dr"
	.p2align	4, 0x0                          # -- Begin function aes_c::single_rounds::inverse_mixed
.Laes_v3_CPI46_0:
	.byte	0                               # 0x0
	.byte	4                               # 0x4
	.byte	8                               # 0x8
	.byte	12                              # 0xc
	.byte	1                               # 0x1
	.byte	5                               # 0x5
	.byte	9                               # 0x9
	.byte	13                              # 0xd
	.byte	2                               # 0x2
	.byte	6                               # 0x6
	.byte	10                              # 0xa
	.byte	14                              # 0xe
	.byte	3                               # 0x3
	.byte	7                               # 0x7
	.byte	11                              # 0xb
	.byte	15                              # 0xf
.Laes_v3_CPI46_1:
	.zero	16,1
.Laes_v3_CPI46_2:
	.zero	16,127
.Laes_v3_CPI46_3:
	.zero	16,170
.Laes_v3_CPI46_4:
	.zero	16,34
.Laes_v3_CPI46_5:
	.zero	16,204
.Laes_v3_CPI46_6:
	.zero	16,252
.Laes_v3_CPI46_7:
	.zero	16,240
.Laes_v3_CPI46_8:
	.zero	4,127
.Laes_v3_CPI46_9:
	.zero	4,170
.Laes_v3_CPI46_10:
	.zero	4,34
	.text
	.p2align	4
aes_v3.aes_c.single_rounds.inverse_mixed:  # @aes_v3.aes_c.single_rounds.inverse_mixed
.seh_proc aes_v3.aes_c.single_rounds.inverse_mixed
# %bb.0:                                # %start
	subq	$24, %rsp
	.seh_stackalloc 24
	.seh_endprologue
	vmovdqu	(%rdi), %xmm0
	vpshufb	.Laes_v3_CPI46_0(%rip), %xmm0, %xmm0   # xmm0 = xmm0[0,4,8,12,1,5,9,13,2,6,10,14,3,7,11,15]
	vpand	.Laes_v3_CPI46_1(%rip), %xmm0, %xmm1
	vpxor	%xmm2, %xmm2, %xmm2
	vpsubb	%xmm1, %xmm2, %xmm5
	vpsllw	$6, %xmm0, %xmm1
	vpcmpgtb	%xmm1, %xmm2, %xmm9
	vpsllw	$5, %xmm0, %xmm1
	vpcmpgtb	%xmm1, %xmm2, %xmm1
	vpsllw	$4, %xmm0, %xmm3
	vpcmpgtb	%xmm3, %xmm2, %xmm10
	vpsllw	$3, %xmm0, %xmm3
	vpcmpgtb	%xmm3, %xmm2, %xmm4
	vmovdqa	%xmm4, (%rsp)                   # 16-byte Spill
	vpsllw	$2, %xmm0, %xmm3
	vpcmpgtb	%xmm3, %xmm2, %xmm3
	vpaddb	%xmm0, %xmm0, %xmm6
	vpcmpgtb	%xmm6, %xmm2, %xmm7
	vpcmpgtb	%xmm0, %xmm2, %xmm0
	vpshufd	$57, %xmm9, %xmm2               # xmm2 = xmm9[1,2,3,0]
	vpshufd	$57, %xmm1, %xmm6               # xmm6 = xmm1[1,2,3,0]
	vpshufd	$57, %xmm4, %xmm8               # xmm8 = xmm4[1,2,3,0]
	vpshufd	$57, %xmm3, %xmm11              # xmm11 = xmm3[1,2,3,0]
	vpshufd	$57, %xmm7, %xmm12              # xmm12 = xmm7[1,2,3,0]
	vpshufd	$57, %xmm0, %xmm13              # xmm13 = xmm0[1,2,3,0]
	vpxor	%xmm2, %xmm9, %xmm15
	vpxor	%xmm1, %xmm6, %xmm14
	vpxor	%xmm4, %xmm8, %xmm2
	vpxor	%xmm3, %xmm11, %xmm6
	vpxor	%xmm7, %xmm12, %xmm8
	vpxor	%xmm0, %xmm13, %xmm4
	vpxor	%xmm1, %xmm15, %xmm12
	vpxor	%xmm3, %xmm2, %xmm3
	vpxor	%xmm7, %xmm6, %xmm11
	vpxor	%xmm0, %xmm8, %xmm1
	vpxor	%xmm1, %xmm11, %xmm0
	vpxor	%xmm0, %xmm15, %xmm7
	vpxor	%xmm2, %xmm12, %xmm2
	vpxor	%xmm0, %xmm2, %xmm15
	vpshufd	$57, %xmm5, %xmm0               # xmm0 = xmm5[1,2,3,0]
	vpxor	%xmm5, %xmm0, %xmm2
	vpshufd	$57, %xmm10, %xmm0              # xmm0 = xmm10[1,2,3,0]
	vpxor	%xmm0, %xmm10, %xmm0
	vpxor	%xmm5, %xmm4, %xmm5
	vpxor	%xmm4, %xmm9, %xmm9
	vpxor	%xmm2, %xmm9, %xmm13
	vpxor	%xmm4, %xmm10, %xmm9
	vpxor	%xmm14, %xmm9, %xmm9
	vpxor	%xmm2, %xmm11, %xmm2
	vpxor	%xmm1, %xmm14, %xmm10
	vpxor	%xmm5, %xmm10, %xmm10
	vpxor	%xmm2, %xmm5, %xmm5
	vpshufd	$78, %xmm2, %xmm2               # xmm2 = xmm2[2,3,0,1]
	vpxor	%xmm2, %xmm5, %xmm2
	vpxor	%xmm10, %xmm12, %xmm5
	vpshufd	$78, %xmm10, %xmm10             # xmm10 = xmm10[2,3,0,1]
	vpxor	%xmm5, %xmm10, %xmm5
	vpxor	(%rsp), %xmm4, %xmm10           # 16-byte Folded Reload
	vpxor	%xmm0, %xmm10, %xmm10
	vpxor	%xmm8, %xmm10, %xmm12
	vpxor	%xmm15, %xmm10, %xmm8
	vpshufd	$78, %xmm15, %xmm10             # xmm10 = xmm15[2,3,0,1]
	vpxor	%xmm10, %xmm8, %xmm8
	vpxor	%xmm0, %xmm11, %xmm0
	vpxor	%xmm0, %xmm13, %xmm14
	vpxor	%xmm6, %xmm1, %xmm0
	vpxor	%xmm0, %xmm9, %xmm10
	vpxor	%xmm12, %xmm11, %xmm0
	vpshufd	$78, %xmm12, %xmm6              # xmm6 = xmm12[2,3,0,1]
	vpxor	%xmm6, %xmm0, %xmm0
	vpshufd	$78, %xmm7, %xmm6               # xmm6 = xmm7[2,3,0,1]
	vpxor	%xmm6, %xmm13, %xmm6
	vpsrlw	$1, %xmm2, %xmm11
	vpxor	%xmm7, %xmm6, %xmm6
	vpbroadcastd	.Laes_v3_CPI46_8(%rip), %xmm7  # xmm7 = [127,127,127,127,127,127,127,127,127,127,127,127,127,127,127,127]
	vpand	%xmm7, %xmm11, %xmm11
	vpxor	%xmm6, %xmm11, %xmm6
	vpaddb	%xmm6, %xmm6, %xmm6
	vpbroadcastd	.Laes_v3_CPI46_9(%rip), %xmm11 # xmm11 = [170,170,170,170,170,170,170,170,170,170,170,170,170,170,170,170]
	vpand	%xmm6, %xmm11, %xmm6
	vpxor	%xmm2, %xmm6, %xmm6
	vpshufd	$78, %xmm14, %xmm2              # xmm2 = xmm14[2,3,0,1]
	vpxor	%xmm2, %xmm9, %xmm2
	vpsrlw	$1, %xmm5, %xmm9
	vpand	%xmm7, %xmm9, %xmm9
	vpxor	%xmm2, %xmm9, %xmm2
	vpxor	%xmm4, %xmm3, %xmm4
	vpxor	%xmm2, %xmm14, %xmm2
	vpshufd	$78, %xmm10, %xmm9              # xmm9 = xmm10[2,3,0,1]
	vpxor	%xmm3, %xmm9, %xmm3
	vpxor	%xmm3, %xmm10, %xmm3
	vpsrlw	$1, %xmm8, %xmm9
	vpand	%xmm7, %xmm9, %xmm9
	vpxor	%xmm3, %xmm9, %xmm3
	vpaddb	%xmm3, %xmm3, %xmm3
	vpand	%xmm3, %xmm11, %xmm3
	vpxor	%xmm3, %xmm8, %xmm3
	vpsrlw	$1, %xmm0, %xmm8
	vpand	%xmm7, %xmm8, %xmm7
	vpshufd	$78, %xmm4, %xmm8               # xmm8 = xmm4[2,3,0,1]
	vpxor	%xmm1, %xmm8, %xmm1
	vpxor	%xmm4, %xmm1, %xmm1
	vpaddb	%xmm2, %xmm2, %xmm2
	vpxor	%xmm7, %xmm1, %xmm1
	vpbroadcastd	.Laes_v3_CPI46_10(%rip), %xmm4 # xmm4 = [34,34,34,34,34,34,34,34,34,34,34,34,34,34,34,34]
	vpand	%xmm4, %xmm2, %xmm2
	vpaddb	%xmm1, %xmm1, %xmm1
	vpand	%xmm4, %xmm1, %xmm1
	vpxor	%xmm5, %xmm2, %xmm2
	vpsrlw	$2, %xmm6, %xmm4
	vpxor	%xmm4, %xmm2, %xmm2
	vpsllw	$2, %xmm2, %xmm2
	vpand	.Laes_v3_CPI46_5(%rip), %xmm2, %xmm2
	vpxor	%xmm6, %xmm2, %xmm2
	vpxor	%xmm0, %xmm1, %xmm0
	vpsrlw	$2, %xmm3, %xmm1
	vpxor	%xmm1, %xmm0, %xmm0
	vpsllw	$2, %xmm0, %xmm0
	vpand	.Laes_v3_CPI46_6(%rip), %xmm0, %xmm0
	vpxor	%xmm3, %xmm0, %xmm0
	vpsrlw	$4, %xmm2, %xmm1
	vpxor	%xmm1, %xmm0, %xmm0
	vpsllw	$4, %xmm0, %xmm0
	vpand	.Laes_v3_CPI46_7(%rip), %xmm0, %xmm0
	vpxor	%xmm2, %xmm0, %xmm0
	vpshufb	.Laes_v3_CPI46_0(%rip), %xmm0, %xmm0   # xmm0 = xmm0[0,4,8,12,1,5,9,13,2,6,10,14,3,7,11,15]
	vmovdqu	%xmm0, (%rdi)
	addq	$24, %rsp
	retq
	.seh_endproc
                                        # -- End function
	.def	aes_v3.aes_c.single_rounds.inverse_round;
	.scl	3;
	.type	32;
	.endef
	.section	.rdata,"dr"
	.p2align	4, 0x0                          # -- Begin function aes_c::single_rounds::inverse_round
.Laes_v3_CPI47_0:
	.byte	0                               # 0x0
	.byte	4                               # 0x4
	.byte	8                               # 0x8
	.byte	12                              # 0xc
	.byte	1                               # 0x1
	.byte	5                               # 0x5
	.byte	9                               # 0x9
	.byte	13                              # 0xd
	.byte	2                               # 0x2
	.byte	6                               # 0x6
	.byte	10                              # 0xa
	.byte	14                              # 0xe
	.byte	3                               # 0x3
	.byte	7                               # 0x7
	.byte	11                              # 0xb
	.byte	15                              # 0xf
.Laes_v3_CPI47_1:
	.zero	16,1
.Laes_v3_CPI47_2:
	.zero	16,2
.Laes_v3_CPI47_3:
	.zero	16,32
.Laes_v3_CPI47_4:
	.zero	16,64
.Laes_v3_CPI47_5:
	.byte	0                               # 0x0
	.byte	0                               # 0x0
	.byte	0                               # 0x0
	.byte	0                               # 0x0
	.byte	0                               # 0x0
	.byte	255                             # 0xff
	.byte	0                               # 0x0
	.byte	0                               # 0x0
	.byte	255                             # 0xff
	.byte	255                             # 0xff
	.byte	0                               # 0x0
	.byte	0                               # 0x0
	.byte	255                             # 0xff
	.byte	0                               # 0x0
	.byte	0                               # 0x0
	.byte	0                               # 0x0
.Laes_v3_CPI47_6:
	.byte	0                               # 0x0
	.byte	0                               # 0x0
	.byte	0                               # 0x0
	.byte	0                               # 0x0
	.byte	255                             # 0xff
	.byte	0                               # 0x0
	.byte	255                             # 0xff
	.byte	0                               # 0x0
	.zero	8
.Laes_v3_CPI47_7:
	.zero	16,127
.Laes_v3_CPI47_8:
	.zero	16,170
.Laes_v3_CPI47_9:
	.zero	16,34
.Laes_v3_CPI47_10:
	.zero	16,204
.Laes_v3_CPI47_11:
	.zero	16,252
.Laes_v3_CPI47_12:
	.zero	16,240
.Laes_v3_CPI47_13:
	.zero	4,127
.Laes_v3_CPI47_14:
	.zero	4,170
.Laes_v3_CPI47_15:
	.zero	4,34
	.text
	.p2align	4
aes_v3.aes_c.single_rounds.inverse_round:  # @aes_v3.aes_c.single_rounds.inverse_round
.seh_proc aes_v3.aes_c.single_rounds.inverse_round
# %bb.0:                                # %start
	subq	$264, %rsp                      # imm = 0x108
	.seh_stackalloc 264
	.seh_endprologue
	vmovdqu	(%rdi), %xmm0
	vpshufb	.Laes_v3_CPI47_0(%rip), %xmm0, %xmm1   # xmm1 = xmm0[0,4,8,12,1,5,9,13,2,6,10,14,3,7,11,15]
	vpand	.Laes_v3_CPI47_1(%rip), %xmm1, %xmm10
	vpand	.Laes_v3_CPI47_2(%rip), %xmm1, %xmm3
	vpxor	%xmm6, %xmm6, %xmm6
	vpsllw	$5, %xmm1, %xmm0
	vpcmpgtb	%xmm0, %xmm6, %xmm0
	vmovdqa	%xmm0, 96(%rsp)                 # 16-byte Spill
	vpsllw	$4, %xmm1, %xmm4
	vpcmpgtb	%xmm4, %xmm6, %xmm4
	vpsllw	$3, %xmm1, %xmm5
	vpand	.Laes_v3_CPI47_3(%rip), %xmm1, %xmm8
	vpcmpgtb	%xmm5, %xmm6, %xmm2
	vpand	.Laes_v3_CPI47_4(%rip), %xmm1, %xmm9
	vpcmpgtb	%xmm1, %xmm6, %xmm15
	vpcmpeqd	%xmm5, %xmm5, %xmm5
	vpaddb	%xmm5, %xmm10, %xmm10
	vpcmpeqb	%xmm6, %xmm3, %xmm5
	vpcmpeqb	%xmm6, %xmm8, %xmm14
	vpcmpeqb	%xmm6, %xmm9, %xmm6
	vpxor	%xmm5, %xmm10, %xmm13
	vpxor	%xmm2, %xmm6, %xmm11
	vmovdqa	%xmm11, 16(%rsp)                # 16-byte Spill
	vpxor	%xmm4, %xmm14, %xmm3
	vpxor	%xmm5, %xmm6, %xmm8
	vpxor	%xmm3, %xmm8, %xmm0
	vmovdqa	%xmm0, 32(%rsp)                 # 16-byte Spill
	vpxor	%xmm4, %xmm2, %xmm7
	vpxor	%xmm7, %xmm13, %xmm1
	vmovdqa	%xmm1, 48(%rsp)                 # 16-byte Spill
	vpor	%xmm1, %xmm0, %xmm9
	vpxor	%xmm7, %xmm10, %xmm0
	vmovdqa	%xmm0, 112(%rsp)                # 16-byte Spill
	vpand	%xmm0, %xmm11, %xmm11
	vpxor	%xmm11, %xmm9, %xmm0
	vmovdqa	%xmm0, 160(%rsp)                # 16-byte Spill
	vpxor	%xmm2, %xmm15, %xmm12
	vpxor	%xmm6, %xmm15, %xmm1
	vpxor	%xmm6, %xmm12, %xmm6
	vmovdqa	%xmm12, 64(%rsp)                # 16-byte Spill
	vpxor	%xmm4, %xmm10, %xmm0
	vpxor	%xmm4, %xmm6, %xmm3
	vmovdqa	%xmm6, %xmm10
	vmovdqa	%xmm6, 192(%rsp)                # 16-byte Spill
	vmovdqa	%xmm3, 128(%rsp)                # 16-byte Spill
	vmovdqa	96(%rsp), %xmm2                 # 16-byte Reload
	vpxor	%xmm5, %xmm2, %xmm9
	vmovdqa	%xmm7, 144(%rsp)                # 16-byte Spill
	vpxor	%xmm7, %xmm9, %xmm5
	vmovdqa	%xmm5, 240(%rsp)                # 16-byte Spill
	vmovdqa	%xmm9, 224(%rsp)                # 16-byte Spill
	vpxor	%xmm0, %xmm1, %xmm11
	vpxor	%xmm5, %xmm11, %xmm4
	vpand	%xmm7, %xmm4, %xmm4
	vpand	%xmm5, %xmm3, %xmm6
	vpxor	%xmm6, %xmm4, %xmm7
	vpand	%xmm1, %xmm11, %xmm6
	vmovdqa	%xmm11, 208(%rsp)               # 16-byte Spill
	vmovdqa	%xmm1, %xmm3
	vmovdqa	%xmm1, (%rsp)                   # 16-byte Spill
	vpxor	%xmm6, %xmm4, %xmm1
	vpxor	%xmm2, %xmm14, %xmm4
	vpxor	%xmm4, %xmm15, %xmm2
	vmovdqa	%xmm2, 80(%rsp)                 # 16-byte Spill
	vpxor	%xmm0, %xmm8, %xmm15
	vmovdqa	16(%rsp), %xmm5                 # 16-byte Reload
	vpxor	%xmm5, %xmm13, %xmm6
	vpand	%xmm2, %xmm6, %xmm2
	vmovdqa	%xmm6, 176(%rsp)                # 16-byte Spill
	vpxor	%xmm0, %xmm2, %xmm0
	vpxor	%xmm3, %xmm13, %xmm2
	vmovdqa	%xmm2, 96(%rsp)                 # 16-byte Spill
	vpxor	%xmm4, %xmm5, %xmm13
	vpand	%xmm2, %xmm13, %xmm2
	vpxor	%xmm2, %xmm0, %xmm5
	vpand	%xmm12, %xmm10, %xmm4
	vpxor	%xmm4, %xmm9, %xmm4
	vpxor	%xmm4, %xmm11, %xmm4
	vpxor	%xmm2, %xmm4, %xmm4
	vpxor	160(%rsp), %xmm7, %xmm8         # 16-byte Folded Reload
	vpxor	%xmm7, %xmm4, %xmm7
	vmovdqa	32(%rsp), %xmm10                # 16-byte Reload
	vmovdqa	48(%rsp), %xmm11                # 16-byte Reload
	vpand	%xmm11, %xmm10, %xmm4
	vpxor	%xmm4, %xmm14, %xmm0
	vpxor	%xmm6, %xmm14, %xmm4
	vmovdqa	%xmm15, %xmm6
	vpand	%xmm4, %xmm15, %xmm12
	vpxor	%xmm0, %xmm12, %xmm0
	vpxor	%xmm1, %xmm5, %xmm5
	vmovdqa	144(%rsp), %xmm15               # 16-byte Reload
	vpxor	%xmm0, %xmm15, %xmm0
	vpxor	%xmm1, %xmm0, %xmm12
	vpand	%xmm7, %xmm8, %xmm2
	vpxor	%xmm5, %xmm7, %xmm0
	vpand	%xmm7, %xmm12, %xmm7
	vpand	%xmm0, %xmm7, %xmm7
	vpxor	%xmm2, %xmm12, %xmm14
	vpand	%xmm0, %xmm14, %xmm14
	vpxor	%xmm0, %xmm2, %xmm0
	vpxor	%xmm7, %xmm0, %xmm1
	vpxor	%xmm5, %xmm2, %xmm7
	vpxor	%xmm8, %xmm12, %xmm3
	vpand	%xmm3, %xmm7, %xmm7
	vpxor	%xmm7, %xmm12, %xmm7
	vpxor	%xmm5, %xmm14, %xmm0
	vpxor	%xmm0, %xmm1, %xmm14
	vpand	%xmm11, %xmm14, %xmm9
	vpand	%xmm10, %xmm14, %xmm14
	vpand	%xmm5, %xmm8, %xmm5
	vpandn	%xmm3, %xmm5, %xmm3
	vpxor	%xmm2, %xmm3, %xmm2
	vpand	%xmm6, %xmm0, %xmm3
	vmovdqa	%xmm3, 48(%rsp)                 # 16-byte Spill
	vpand	%xmm4, %xmm0, %xmm6
	vpxor	%xmm7, %xmm0, %xmm0
	vpand	16(%rsp), %xmm1, %xmm12         # 16-byte Folded Reload
	vmovdqa	%xmm12, 32(%rsp)                # 16-byte Spill
	vpand	80(%rsp), %xmm7, %xmm11         # 16-byte Folded Reload
	vpand	176(%rsp), %xmm7, %xmm3         # 16-byte Folded Reload
	vmovdqa	%xmm3, 80(%rsp)                 # 16-byte Spill
	vpand	112(%rsp), %xmm1, %xmm5         # 16-byte Folded Reload
	vpxor	%xmm2, %xmm1, %xmm8
	vpand	64(%rsp), %xmm2, %xmm1          # 16-byte Folded Reload
	vmovdqa	%xmm1, 64(%rsp)                 # 16-byte Spill
	vpxor	%xmm2, %xmm7, %xmm4
	vpand	192(%rsp), %xmm2, %xmm2         # 16-byte Folded Reload
	vpand	%xmm4, %xmm13, %xmm7
	vpand	96(%rsp), %xmm4, %xmm1          # 16-byte Folded Reload
	vmovdqa	%xmm1, 112(%rsp)                # 16-byte Spill
	vpand	%xmm0, %xmm15, %xmm15
	vmovdqa	208(%rsp), %xmm10               # 16-byte Reload
	vpxor	224(%rsp), %xmm10, %xmm13       # 16-byte Folded Reload
	vpand	%xmm0, %xmm13, %xmm13
	vpxor	%xmm0, %xmm8, %xmm0
	vpand	240(%rsp), %xmm0, %xmm4         # 16-byte Folded Reload
	vpxor	%xmm5, %xmm4, %xmm1
	vpxor	%xmm2, %xmm5, %xmm4
	vpand	128(%rsp), %xmm0, %xmm3         # 16-byte Folded Reload
	vpxor	%xmm12, %xmm13, %xmm2
	vmovdqa	%xmm9, %xmm5
	vpxor	%xmm2, %xmm9, %xmm2
	vpand	%xmm10, %xmm8, %xmm12
	vpxor	%xmm6, %xmm14, %xmm9
	vpxor	%xmm6, %xmm7, %xmm6
	vpxor	%xmm2, %xmm1, %xmm10
	vpxor	%xmm7, %xmm11, %xmm7
	vpxor	%xmm3, %xmm12, %xmm1
	vpxor	%xmm2, %xmm1, %xmm0
	vpxor	%xmm4, %xmm6, %xmm2
	vpxor	%xmm0, %xmm2, %xmm2
	vpxor	%xmm0, %xmm7, %xmm7
	vpxor	%xmm0, %xmm9, %xmm0
	vmovdqa	%xmm0, 16(%rsp)                 # 16-byte Spill
	vpxor	64(%rsp), %xmm11, %xmm11        # 16-byte Folded Reload
	vpxor	48(%rsp), %xmm13, %xmm0         # 16-byte Folded Reload
	vpxor	%xmm3, %xmm14, %xmm3
	vpxor	%xmm4, %xmm14, %xmm4
	vpxor	%xmm4, %xmm0, %xmm13
	vmovdqa	80(%rsp), %xmm0                 # 16-byte Reload
	vpxor	%xmm0, %xmm15, %xmm4
	vpxor	%xmm0, %xmm11, %xmm9
	vpxor	%xmm5, %xmm9, %xmm0
	vpxor	%xmm1, %xmm0, %xmm0
	vpand	(%rsp), %xmm8, %xmm8            # 16-byte Folded Reload
	vpxor	%xmm0, %xmm13, %xmm1
	vpxor	%xmm3, %xmm10, %xmm0
	vpxor	112(%rsp), %xmm8, %xmm3         # 16-byte Folded Reload
	vpxor	%xmm6, %xmm8, %xmm6
	vpxor	%xmm6, %xmm9, %xmm6
	vpxor	%xmm6, %xmm10, %xmm9
	vpxor	%xmm3, %xmm4, %xmm4
	vpxor	32(%rsp), %xmm11, %xmm5         # 16-byte Folded Reload
	vpxor	%xmm5, %xmm12, %xmm5
	vpxor	%xmm3, %xmm5, %xmm3
	vpxor	%xmm3, %xmm13, %xmm5
	vpsrld	$16, %xmm4, %xmm3
	vpxor	%xmm4, %xmm3, %xmm3
	vmovdqa	.Laes_v3_CPI47_5(%rip), %xmm6          # xmm6 = [0,0,0,0,0,255,0,0,255,255,0,0,255,0,0,0]
	vpand	%xmm6, %xmm3, %xmm3
	vmovdqa	%xmm3, 128(%rsp)                # 16-byte Spill
	vmovdqa	%xmm0, (%rsp)                   # 16-byte Spill
	vpsrld	$16, %xmm0, %xmm3
	vpxor	%xmm0, %xmm3, %xmm3
	vpand	%xmm6, %xmm3, %xmm11
	vpsrld	$16, %xmm2, %xmm3
	vpxor	%xmm2, %xmm3, %xmm3
	vpand	%xmm6, %xmm3, %xmm12
	vpsrld	$16, %xmm9, %xmm3
	vpxor	%xmm3, %xmm9, %xmm3
	vpand	%xmm6, %xmm3, %xmm3
	vpsrld	$16, %xmm7, %xmm8
	vpxor	%xmm7, %xmm8, %xmm8
	vpand	%xmm6, %xmm8, %xmm8
	vpsrld	$16, %xmm1, %xmm13
	vpxor	%xmm1, %xmm13, %xmm13
	vpand	%xmm6, %xmm13, %xmm13
	vpsrld	$16, %xmm5, %xmm14
	vpxor	%xmm5, %xmm14, %xmm14
	vpand	%xmm6, %xmm14, %xmm14
	vmovdqa	16(%rsp), %xmm10                # 16-byte Reload
	vpsrld	$16, %xmm10, %xmm15
	vpxor	%xmm10, %xmm15, %xmm15
	vpand	%xmm6, %xmm15, %xmm15
	vpxor	%xmm5, %xmm14, %xmm5
	vpslldq	$2, %xmm14, %xmm6               # xmm6 = zero,zero,xmm14[0,1,2,3,4,5,6,7,8,9,10,11,12,13]
	vpxor	%xmm6, %xmm5, %xmm5
	vpxor	%xmm1, %xmm13, %xmm0
	vpslldq	$2, %xmm13, %xmm6               # xmm6 = zero,zero,xmm13[0,1,2,3,4,5,6,7,8,9,10,11,12,13]
	vpxor	%xmm6, %xmm0, %xmm6
	vmovdqa	128(%rsp), %xmm14               # 16-byte Reload
	vpslldq	$2, %xmm14, %xmm13              # xmm13 = zero,zero,xmm14[0,1,2,3,4,5,6,7,8,9,10,11,12,13]
	vpxor	%xmm7, %xmm8, %xmm0
	vpslldq	$2, %xmm8, %xmm7                # xmm7 = zero,zero,xmm8[0,1,2,3,4,5,6,7,8,9,10,11,12,13]
	vpxor	%xmm7, %xmm0, %xmm7
	vpslldq	$2, %xmm11, %xmm0               # xmm0 = zero,zero,xmm11[0,1,2,3,4,5,6,7,8,9,10,11,12,13]
	vpxor	%xmm3, %xmm9, %xmm8
	vpslldq	$2, %xmm3, %xmm3                # xmm3 = zero,zero,xmm3[0,1,2,3,4,5,6,7,8,9,10,11,12,13]
	vpxor	%xmm3, %xmm8, %xmm8
	vpslldq	$2, %xmm12, %xmm3               # xmm3 = zero,zero,xmm12[0,1,2,3,4,5,6,7,8,9,10,11,12,13]
	vpxor	%xmm2, %xmm12, %xmm2
	vpslldq	$2, %xmm15, %xmm9               # xmm9 = zero,zero,xmm15[0,1,2,3,4,5,6,7,8,9,10,11,12,13]
	vpxor	%xmm3, %xmm2, %xmm3
	vpxor	(%rsp), %xmm11, %xmm1           # 16-byte Folded Reload
	vpxor	%xmm0, %xmm1, %xmm0
	vpxor	%xmm4, %xmm14, %xmm1
	vpxor	%xmm1, %xmm13, %xmm11
	vpxor	%xmm15, %xmm10, %xmm2
	vpxor	%xmm2, %xmm9, %xmm2
	vpsrlw	$8, %xmm11, %xmm4
	vpxor	%xmm4, %xmm11, %xmm4
	vpbroadcastq	.Laes_v3_CPI47_6(%rip), %xmm10 # xmm10 = [0,0,0,0,255,0,255,0,0,0,0,0,255,0,255,0]
	vpand	%xmm4, %xmm10, %xmm1
	vmovdqa	%xmm0, (%rsp)                   # 16-byte Spill
	vpsrlw	$8, %xmm0, %xmm4
	vpxor	%xmm0, %xmm4, %xmm4
	vpand	%xmm4, %xmm10, %xmm0
	vpsrlw	$8, %xmm3, %xmm4
	vpxor	%xmm3, %xmm4, %xmm4
	vpand	%xmm4, %xmm10, %xmm12
	vpsrlw	$8, %xmm8, %xmm4
	vpxor	%xmm4, %xmm8, %xmm4
	vpand	%xmm4, %xmm10, %xmm13
	vpsrlw	$8, %xmm7, %xmm4
	vpxor	%xmm7, %xmm4, %xmm4
	vpand	%xmm4, %xmm10, %xmm4
	vpsrlw	$8, %xmm6, %xmm14
	vpxor	%xmm6, %xmm14, %xmm14
	vpand	%xmm10, %xmm14, %xmm14
	vpsrlw	$8, %xmm5, %xmm15
	vpxor	%xmm5, %xmm15, %xmm15
	vpand	%xmm10, %xmm15, %xmm15
	vpsrlw	$8, %xmm2, %xmm9
	vpxor	%xmm2, %xmm9, %xmm9
	vpand	%xmm10, %xmm9, %xmm9
	vpxor	%xmm5, %xmm15, %xmm5
	vpslldq	$1, %xmm15, %xmm10              # xmm10 = zero,xmm15[0,1,2,3,4,5,6,7,8,9,10,11,12,13,14]
	vpxor	%xmm5, %xmm10, %xmm10
	vpxor	%xmm6, %xmm14, %xmm5
	vpslldq	$1, %xmm14, %xmm6               # xmm6 = zero,xmm14[0,1,2,3,4,5,6,7,8,9,10,11,12,13,14]
	vpxor	%xmm6, %xmm5, %xmm6
	vpslldq	$1, %xmm1, %xmm5                # xmm5 = zero,xmm1[0,1,2,3,4,5,6,7,8,9,10,11,12,13,14]
	vpxor	%xmm4, %xmm7, %xmm7
	vpslldq	$1, %xmm4, %xmm4                # xmm4 = zero,xmm4[0,1,2,3,4,5,6,7,8,9,10,11,12,13,14]
	vpxor	%xmm4, %xmm7, %xmm4
	vpslldq	$1, %xmm0, %xmm14               # xmm14 = zero,xmm0[0,1,2,3,4,5,6,7,8,9,10,11,12,13,14]
	vpxor	%xmm13, %xmm8, %xmm7
	vpslldq	$1, %xmm13, %xmm8               # xmm8 = zero,xmm13[0,1,2,3,4,5,6,7,8,9,10,11,12,13,14]
	vpxor	%xmm7, %xmm8, %xmm7
	vpslldq	$1, %xmm12, %xmm8               # xmm8 = zero,xmm12[0,1,2,3,4,5,6,7,8,9,10,11,12,13,14]
	vpxor	%xmm3, %xmm12, %xmm3
	vpslldq	$1, %xmm9, %xmm12               # xmm12 = zero,xmm9[0,1,2,3,4,5,6,7,8,9,10,11,12,13,14]
	vpxor	%xmm3, %xmm8, %xmm15
	vpxor	(%rsp), %xmm0, %xmm0            # 16-byte Folded Reload
	vpxor	%xmm0, %xmm14, %xmm0
	vpxor	%xmm1, %xmm11, %xmm1
	vpxor	%xmm5, %xmm1, %xmm11
	vpxor	%xmm2, %xmm9, %xmm1
	vpxor	%xmm1, %xmm12, %xmm1
	vpshufd	$57, %xmm0, %xmm2               # xmm2 = xmm0[1,2,3,0]
	vpshufd	$57, %xmm15, %xmm3              # xmm3 = xmm15[1,2,3,0]
	vpshufd	$57, %xmm4, %xmm5               # xmm5 = xmm4[1,2,3,0]
	vpshufd	$57, %xmm6, %xmm8               # xmm8 = xmm6[1,2,3,0]
	vpshufd	$57, %xmm10, %xmm9              # xmm9 = xmm10[1,2,3,0]
	vpshufd	$57, %xmm1, %xmm12              # xmm12 = xmm1[1,2,3,0]
	vpxor	%xmm0, %xmm2, %xmm14
	vpxor	%xmm3, %xmm15, %xmm13
	vpxor	%xmm4, %xmm5, %xmm2
	vpxor	%xmm6, %xmm8, %xmm5
	vpxor	%xmm10, %xmm9, %xmm8
	vpxor	%xmm1, %xmm12, %xmm3
	vpxor	%xmm15, %xmm14, %xmm12
	vpxor	%xmm6, %xmm2, %xmm15
	vpxor	%xmm5, %xmm10, %xmm9
	vpxor	%xmm1, %xmm8, %xmm1
	vpxor	%xmm1, %xmm9, %xmm10
	vpxor	%xmm14, %xmm10, %xmm6
	vpxor	%xmm2, %xmm12, %xmm2
	vpxor	%xmm2, %xmm10, %xmm10
	vpshufd	$57, %xmm11, %xmm2              # xmm2 = xmm11[1,2,3,0]
	vpxor	%xmm2, %xmm11, %xmm2
	vpshufd	$57, %xmm7, %xmm14              # xmm14 = xmm7[1,2,3,0]
	vpxor	%xmm7, %xmm14, %xmm14
	vpxor	%xmm3, %xmm11, %xmm11
	vpxor	%xmm2, %xmm0, %xmm0
	vpxor	%xmm7, %xmm3, %xmm7
	vpxor	%xmm7, %xmm13, %xmm7
	vpxor	%xmm2, %xmm9, %xmm2
	vpxor	%xmm1, %xmm13, %xmm13
	vpxor	%xmm11, %xmm13, %xmm13
	vpxor	%xmm2, %xmm11, %xmm11
	vpshufd	$78, %xmm2, %xmm2               # xmm2 = xmm2[2,3,0,1]
	vpxor	%xmm2, %xmm11, %xmm11
	vpxor	%xmm13, %xmm12, %xmm2
	vpshufd	$78, %xmm13, %xmm12             # xmm12 = xmm13[2,3,0,1]
	vpxor	%xmm2, %xmm12, %xmm2
	vpxor	%xmm4, %xmm3, %xmm4
	vpxor	%xmm4, %xmm14, %xmm4
	vpxor	%xmm4, %xmm8, %xmm12
	vpxor	%xmm4, %xmm10, %xmm4
	vpshufd	$78, %xmm10, %xmm8              # xmm8 = xmm10[2,3,0,1]
	vpxor	%xmm4, %xmm8, %xmm8
	vpxor	%xmm3, %xmm0, %xmm0
	vpxor	%xmm0, %xmm14, %xmm4
	vpxor	%xmm4, %xmm9, %xmm13
	vpxor	%xmm5, %xmm1, %xmm4
	vpxor	%xmm7, %xmm4, %xmm10
	vpxor	%xmm12, %xmm9, %xmm4
	vpshufd	$78, %xmm12, %xmm5              # xmm5 = xmm12[2,3,0,1]
	vpxor	%xmm5, %xmm4, %xmm4
	vpshufd	$78, %xmm6, %xmm5               # xmm5 = xmm6[2,3,0,1]
	vpxor	%xmm0, %xmm5, %xmm0
	vpsrlw	$1, %xmm11, %xmm5
	vpxor	%xmm6, %xmm0, %xmm0
	vpbroadcastd	.Laes_v3_CPI47_13(%rip), %xmm6 # xmm6 = [127,127,127,127,127,127,127,127,127,127,127,127,127,127,127,127]
	vpand	%xmm6, %xmm5, %xmm5
	vpxor	%xmm5, %xmm0, %xmm0
	vpaddb	%xmm0, %xmm0, %xmm0
	vpbroadcastd	.Laes_v3_CPI47_14(%rip), %xmm9 # xmm9 = [170,170,170,170,170,170,170,170,170,170,170,170,170,170,170,170]
	vpand	%xmm0, %xmm9, %xmm0
	vpxor	%xmm0, %xmm11, %xmm5
	vpshufd	$78, %xmm13, %xmm0              # xmm0 = xmm13[2,3,0,1]
	vpxor	%xmm7, %xmm0, %xmm0
	vpxor	%xmm3, %xmm15, %xmm3
	vpxor	%xmm0, %xmm13, %xmm0
	vpsrlw	$1, %xmm2, %xmm7
	vpand	%xmm6, %xmm7, %xmm7
	vpxor	%xmm7, %xmm0, %xmm0
	vpshufd	$78, %xmm10, %xmm7              # xmm7 = xmm10[2,3,0,1]
	vpxor	%xmm7, %xmm15, %xmm7
	vpxor	%xmm7, %xmm10, %xmm7
	vpsrlw	$1, %xmm8, %xmm10
	vpand	%xmm6, %xmm10, %xmm10
	vpxor	%xmm7, %xmm10, %xmm7
	vpaddb	%xmm7, %xmm7, %xmm7
	vpand	%xmm7, %xmm9, %xmm7
	vpxor	%xmm7, %xmm8, %xmm7
	vpsrlw	$1, %xmm4, %xmm8
	vpand	%xmm6, %xmm8, %xmm6
	vpshufd	$78, %xmm3, %xmm8               # xmm8 = xmm3[2,3,0,1]
	vpxor	%xmm1, %xmm8, %xmm1
	vpxor	%xmm3, %xmm1, %xmm1
	vpaddb	%xmm0, %xmm0, %xmm0
	vpxor	%xmm6, %xmm1, %xmm1
	vpbroadcastd	.Laes_v3_CPI47_15(%rip), %xmm3 # xmm3 = [34,34,34,34,34,34,34,34,34,34,34,34,34,34,34,34]
	vpand	%xmm3, %xmm0, %xmm0
	vpxor	%xmm2, %xmm0, %xmm0
	vpsrlw	$2, %xmm5, %xmm2
	vpxor	%xmm2, %xmm0, %xmm0
	vpaddb	%xmm1, %xmm1, %xmm1
	vpsllw	$2, %xmm0, %xmm0
	vpand	.Laes_v3_CPI47_10(%rip), %xmm0, %xmm0
	vpand	%xmm3, %xmm1, %xmm1
	vpxor	%xmm5, %xmm0, %xmm0
	vpxor	%xmm4, %xmm1, %xmm1
	vpsrlw	$2, %xmm7, %xmm2
	vpxor	%xmm2, %xmm1, %xmm1
	vpsllw	$2, %xmm1, %xmm1
	vpand	.Laes_v3_CPI47_11(%rip), %xmm1, %xmm1
	vpxor	%xmm7, %xmm1, %xmm1
	vpsrlw	$4, %xmm0, %xmm2
	vpxor	%xmm2, %xmm1, %xmm1
	vpsllw	$4, %xmm1, %xmm1
	vpand	.Laes_v3_CPI47_12(%rip), %xmm1, %xmm1
	vpxor	%xmm0, %xmm1, %xmm0
	vpshufb	.Laes_v3_CPI47_0(%rip), %xmm0, %xmm0   # xmm0 = xmm0[0,4,8,12,1,5,9,13,2,6,10,14,3,7,11,15]
	vpxor	(%rsi), %xmm0, %xmm0
	vmovdqu	%xmm0, (%rdi)
	addq	$264, %rsp                      # imm = 0x108
	retq
	.seh_endproc
                                        # -- End function
	.def	aes_v3.aes_c.single_rounds.inverse_rounds;
	.scl	3;
	.type	32;
	.endef
	.section	.rdata,"dr"
	.p2align	5, 0x0                          # -- Begin function aes_c::single_rounds::inverse_rounds
.Laes_v3_CPI48_0:
	.byte	0                               # 0x0
	.byte	4                               # 0x4
	.byte	8                               # 0x8
	.byte	12                              # 0xc
	.byte	1                               # 0x1
	.byte	5                               # 0x5
	.byte	9                               # 0x9
	.byte	13                              # 0xd
	.byte	2                               # 0x2
	.byte	6                               # 0x6
	.byte	10                              # 0xa
	.byte	14                              # 0xe
	.byte	3                               # 0x3
	.byte	7                               # 0x7
	.byte	11                              # 0xb
	.byte	15                              # 0xf
	.byte	0                               # 0x0
	.byte	4                               # 0x4
	.byte	8                               # 0x8
	.byte	12                              # 0xc
	.byte	1                               # 0x1
	.byte	5                               # 0x5
	.byte	9                               # 0x9
	.byte	13                              # 0xd
	.byte	2                               # 0x2
	.byte	6                               # 0x6
	.byte	10                              # 0xa
	.byte	14                              # 0xe
	.byte	3                               # 0x3
	.byte	7                               # 0x7
	.byte	11                              # 0xb
	.byte	15                              # 0xf
.Laes_v3_CPI48_1:
	.zero	16,85
.Laes_v3_CPI48_2:
	.zero	16,51
.Laes_v3_CPI48_3:
	.zero	16,15
.Laes_v3_CPI48_4:
	.byte	0                               # 0x0
	.byte	0                               # 0x0
	.byte	0                               # 0x0
	.byte	0                               # 0x0
	.byte	0                               # 0x0
	.byte	255                             # 0xff
	.byte	0                               # 0x0
	.byte	0                               # 0x0
	.byte	255                             # 0xff
	.byte	255                             # 0xff
	.byte	0                               # 0x0
	.byte	0                               # 0x0
	.byte	255                             # 0xff
	.byte	0                               # 0x0
	.byte	0                               # 0x0
	.byte	0                               # 0x0
.Laes_v3_CPI48_5:
	.byte	0                               # 0x0
	.byte	0                               # 0x0
	.byte	0                               # 0x0
	.byte	0                               # 0x0
	.byte	255                             # 0xff
	.byte	0                               # 0x0
	.byte	255                             # 0xff
	.byte	0                               # 0x0
	.zero	8
.Laes_v3_CPI48_6:
	.byte	0                               # 0x0
	.byte	4                               # 0x4
	.byte	8                               # 0x8
	.byte	12                              # 0xc
	.byte	1                               # 0x1
	.byte	5                               # 0x5
	.byte	9                               # 0x9
	.byte	13                              # 0xd
	.byte	2                               # 0x2
	.byte	6                               # 0x6
	.byte	10                              # 0xa
	.byte	14                              # 0xe
	.byte	3                               # 0x3
	.byte	7                               # 0x7
	.byte	11                              # 0xb
	.byte	15                              # 0xf
.Laes_v3_CPI48_7:
	.zero	4,85
.Laes_v3_CPI48_8:
	.zero	4,51
.Laes_v3_CPI48_9:
	.zero	4,15
	.text
	.p2align	4
aes_v3.aes_c.single_rounds.inverse_rounds: # @aes_v3.aes_c.single_rounds.inverse_rounds
.seh_proc aes_v3.aes_c.single_rounds.inverse_rounds
# %bb.0:                                # %start
	subq	$280, %rsp                      # imm = 0x118
	.seh_stackalloc 280
	.seh_endprologue
	vmovdqu	(%rdi), %xmm0
	vmovdqu	16(%rdi), %xmm1
	vmovdqu	32(%rdi), %xmm2
	vmovdqu	48(%rdi), %xmm3
	vmovdqu	64(%rdi), %xmm4
	vmovdqu	80(%rdi), %xmm5
	vmovdqu	96(%rdi), %xmm6
	vmovdqu	112(%rdi), %xmm7
	vbroadcasti128	.Laes_v3_CPI48_6(%rip), %ymm9  # ymm9 = [0,4,8,12,1,5,9,13,2,6,10,14,3,7,11,15,0,4,8,12,1,5,9,13,2,6,10,14,3,7,11,15]
                                        # ymm9 = mem[0,1,0,1]
	vpshufb	%xmm9, %xmm0, %xmm8
	vpshufb	%xmm9, %xmm1, %xmm0
	vpshufb	%xmm9, %xmm2, %xmm1
	vpshufb	%xmm9, %xmm3, %xmm2
	vpshufb	%xmm9, %xmm4, %xmm3
	vpshufb	%xmm9, %xmm5, %xmm4
	vpshufb	%xmm9, %xmm6, %xmm5
	vpshufb	%xmm9, %xmm7, %xmm6
	vpsrlw	$1, %xmm8, %xmm7
	vpxor	%xmm7, %xmm0, %xmm7
	vpbroadcastd	.Laes_v3_CPI48_7(%rip), %xmm10 # xmm10 = [85,85,85,85,85,85,85,85,85,85,85,85,85,85,85,85]
	vpand	%xmm7, %xmm10, %xmm7
	vpxor	%xmm0, %xmm7, %xmm0
	vpaddb	%xmm7, %xmm7, %xmm7
	vpxor	%xmm7, %xmm8, %xmm7
	vpsrlw	$1, %xmm1, %xmm8
	vpxor	%xmm2, %xmm8, %xmm8
	vpand	%xmm10, %xmm8, %xmm8
	vpxor	%xmm2, %xmm8, %xmm9
	vpaddb	%xmm8, %xmm8, %xmm2
	vpxor	%xmm1, %xmm2, %xmm1
	vpsrlw	$1, %xmm3, %xmm2
	vpxor	%xmm2, %xmm4, %xmm2
	vpand	%xmm2, %xmm10, %xmm8
	vpxor	%xmm4, %xmm8, %xmm2
	vpaddb	%xmm8, %xmm8, %xmm4
	vpxor	%xmm3, %xmm4, %xmm3
	vpsrlw	$1, %xmm5, %xmm4
	vpxor	%xmm4, %xmm6, %xmm4
	vpand	%xmm4, %xmm10, %xmm4
	vpxor	%xmm6, %xmm4, %xmm6
	vpaddb	%xmm4, %xmm4, %xmm4
	vpxor	%xmm5, %xmm4, %xmm4
	vpsrlw	$2, %xmm7, %xmm5
	vpxor	%xmm5, %xmm1, %xmm5
	vpbroadcastd	.Laes_v3_CPI48_8(%rip), %xmm8  # xmm8 = [51,51,51,51,51,51,51,51,51,51,51,51,51,51,51,51]
	vpand	%xmm5, %xmm8, %xmm5
	vpxor	%xmm1, %xmm5, %xmm1
	vpsllw	$2, %xmm5, %xmm5
	vpxor	%xmm7, %xmm5, %xmm5
	vpsrlw	$2, %xmm3, %xmm7
	vpxor	%xmm7, %xmm4, %xmm7
	vpand	%xmm7, %xmm8, %xmm7
	vpxor	%xmm4, %xmm7, %xmm10
	vpsllw	$2, %xmm7, %xmm4
	vpxor	%xmm3, %xmm4, %xmm3
	vpsrlw	$2, %xmm0, %xmm4
	vpxor	%xmm4, %xmm9, %xmm4
	vpand	%xmm4, %xmm8, %xmm4
	vpxor	%xmm4, %xmm9, %xmm7
	vpsllw	$2, %xmm4, %xmm4
	vpxor	%xmm0, %xmm4, %xmm0
	vpsrlw	$2, %xmm2, %xmm4
	vpxor	%xmm4, %xmm6, %xmm4
	vpand	%xmm4, %xmm8, %xmm4
	vpxor	%xmm6, %xmm4, %xmm6
	vpsllw	$2, %xmm4, %xmm4
	vpxor	%xmm2, %xmm4, %xmm12
	vpsrlw	$4, %xmm5, %xmm2
	vpbroadcastd	.Laes_v3_CPI48_9(%rip), %xmm11 # xmm11 = [15,15,15,15,15,15,15,15,15,15,15,15,15,15,15,15]
	vpxor	%xmm2, %xmm3, %xmm2
	vpand	%xmm2, %xmm11, %xmm2
	vpxor	%xmm3, %xmm2, %xmm4
	vpsllw	$4, %xmm2, %xmm2
	vpxor	%xmm5, %xmm2, %xmm5
	vpsrlw	$4, %xmm0, %xmm2
	vpxor	%xmm2, %xmm12, %xmm2
	vpand	%xmm2, %xmm11, %xmm13
	vpsllw	$4, %xmm13, %xmm2
	vpxor	%xmm0, %xmm2, %xmm8
	vpsrlw	$4, %xmm1, %xmm0
	vpxor	%xmm0, %xmm10, %xmm0
	vpand	%xmm0, %xmm11, %xmm0
	vpxor	%xmm0, %xmm10, %xmm3
	vpsllw	$4, %xmm0, %xmm0
	vpxor	%xmm1, %xmm0, %xmm0
	vmovdqa	%xmm0, 96(%rsp)                 # 16-byte Spill
	vpsrlw	$4, %xmm7, %xmm0
	vpxor	%xmm0, %xmm6, %xmm0
	vpand	%xmm0, %xmm11, %xmm0
	vpxor	%xmm6, %xmm0, %xmm9
	vpsllw	$4, %xmm0, %xmm0
	vpxor	%xmm7, %xmm0, %xmm14
	vpcmpeqd	%xmm1, %xmm1, %xmm1
	vpxor	%xmm1, %xmm5, %xmm2
	vpxor	%xmm1, %xmm12, %xmm0
	vpxor	%xmm0, %xmm13, %xmm15
	vpxor	%xmm5, %xmm8, %xmm7
	vpxor	%xmm15, %xmm14, %xmm5
	vmovdqa	%xmm3, 48(%rsp)                 # 16-byte Spill
	vpxor	%xmm3, %xmm8, %xmm0
	vmovdqa	%xmm0, 80(%rsp)                 # 16-byte Spill
	vpxor	%xmm0, %xmm5, %xmm5
	vmovdqa	%xmm5, 144(%rsp)                # 16-byte Spill
	vpxor	%xmm1, %xmm3, %xmm0
	vpxor	%xmm0, %xmm4, %xmm11
	vmovdqa	%xmm11, 16(%rsp)                # 16-byte Spill
	vpxor	%xmm4, %xmm14, %xmm6
	vpxor	%xmm6, %xmm7, %xmm3
	vmovdqa	%xmm3, 32(%rsp)                 # 16-byte Spill
	vpor	%xmm5, %xmm3, %xmm13
	vpxor	%xmm2, %xmm6, %xmm5
	vmovdqa	%xmm5, 112(%rsp)                # 16-byte Spill
	vpand	%xmm5, %xmm11, %xmm12
	vpxor	%xmm12, %xmm13, %xmm13
	vpxor	%xmm4, %xmm9, %xmm10
	vpxor	%xmm0, %xmm9, %xmm5
	vpxor	%xmm0, %xmm10, %xmm4
	vmovdqa	%xmm4, 224(%rsp)                # 16-byte Spill
	vmovdqa	%xmm10, 160(%rsp)               # 16-byte Spill
	vpxor	%xmm2, %xmm14, %xmm3
	vpxor	%xmm4, %xmm14, %xmm12
	vmovdqa	%xmm12, 240(%rsp)               # 16-byte Spill
	vmovdqa	96(%rsp), %xmm0                 # 16-byte Reload
	vpxor	%xmm0, %xmm8, %xmm2
	vpxor	%xmm1, %xmm2, %xmm1
	vpxor	%xmm5, %xmm3, %xmm8
	vpxor	%xmm2, %xmm8, %xmm2
	vmovdqa	%xmm6, (%rsp)                   # 16-byte Spill
	vpand	%xmm6, %xmm2, %xmm2
	vpxor	%xmm1, %xmm6, %xmm4
	vmovdqa	%xmm4, 208(%rsp)                # 16-byte Spill
	vmovdqa	%xmm1, 192(%rsp)                # 16-byte Spill
	vpand	%xmm4, %xmm12, %xmm4
	vpxor	%xmm4, %xmm2, %xmm12
	vpand	%xmm5, %xmm8, %xmm4
	vmovdqa	%xmm8, 176(%rsp)                # 16-byte Spill
	vmovdqa	%xmm5, 256(%rsp)                # 16-byte Spill
	vpxor	%xmm4, %xmm2, %xmm11
	vpxor	%xmm0, %xmm15, %xmm2
	vpxor	%xmm2, %xmm9, %xmm0
	vmovdqa	%xmm0, 64(%rsp)                 # 16-byte Spill
	vpxor	80(%rsp), %xmm3, %xmm4          # 16-byte Folded Reload
	vmovdqa	16(%rsp), %xmm9                 # 16-byte Reload
	vpxor	%xmm7, %xmm9, %xmm14
	vpand	%xmm0, %xmm14, %xmm6
	vpxor	%xmm3, %xmm6, %xmm0
	vpxor	%xmm5, %xmm7, %xmm5
	vmovdqa	%xmm5, 96(%rsp)                 # 16-byte Spill
	vpxor	%xmm2, %xmm9, %xmm3
	vmovdqa	%xmm3, 80(%rsp)                 # 16-byte Spill
	vpand	48(%rsp), %xmm10, %xmm2         # 16-byte Folded Reload
	vpand	%xmm3, %xmm5, %xmm6
	vpxor	%xmm6, %xmm0, %xmm0
	vpxor	%xmm1, %xmm2, %xmm2
	vpxor	%xmm2, %xmm8, %xmm2
	vpxor	%xmm6, %xmm2, %xmm6
	vpxor	%xmm12, %xmm13, %xmm5
	vpxor	%xmm6, %xmm12, %xmm6
	vmovdqa	144(%rsp), %xmm10               # 16-byte Reload
	vmovdqa	32(%rsp), %xmm8                 # 16-byte Reload
	vpand	%xmm10, %xmm8, %xmm7
	vpxor	%xmm7, %xmm15, %xmm9
	vpxor	%xmm15, %xmm14, %xmm7
	vpand	%xmm4, %xmm7, %xmm3
	vmovdqa	%xmm4, %xmm13
	vpxor	%xmm3, %xmm9, %xmm3
	vpxor	%xmm0, %xmm11, %xmm12
	vpxor	(%rsp), %xmm3, %xmm0            # 16-byte Folded Reload
	vpxor	%xmm0, %xmm11, %xmm3
	vpand	%xmm5, %xmm6, %xmm2
	vpxor	%xmm6, %xmm12, %xmm1
	vpand	%xmm3, %xmm6, %xmm6
	vpand	%xmm6, %xmm1, %xmm6
	vpxor	%xmm2, %xmm3, %xmm9
	vpand	%xmm1, %xmm9, %xmm9
	vpxor	%xmm1, %xmm2, %xmm1
	vpxor	%xmm6, %xmm1, %xmm1
	vpxor	%xmm2, %xmm12, %xmm6
	vpxor	%xmm5, %xmm3, %xmm4
	vpand	%xmm6, %xmm4, %xmm6
	vpxor	%xmm3, %xmm6, %xmm6
	vpxor	%xmm12, %xmm9, %xmm0
	vpxor	%xmm0, %xmm1, %xmm9
	vpand	%xmm8, %xmm9, %xmm8
	vmovdqa	%xmm8, 128(%rsp)                # 16-byte Spill
	vpand	%xmm10, %xmm9, %xmm10
	vpand	%xmm5, %xmm12, %xmm5
	vpandn	%xmm4, %xmm5, %xmm4
	vpxor	%xmm2, %xmm4, %xmm5
	vpand	%xmm0, %xmm13, %xmm2
	vmovdqa	%xmm2, 48(%rsp)                 # 16-byte Spill
	vpand	%xmm7, %xmm0, %xmm13
	vpxor	%xmm6, %xmm0, %xmm0
	vpand	16(%rsp), %xmm1, %xmm4          # 16-byte Folded Reload
	vmovdqa	%xmm4, 32(%rsp)                 # 16-byte Spill
	vpand	64(%rsp), %xmm6, %xmm12         # 16-byte Folded Reload
	vpand	%xmm6, %xmm14, %xmm2
	vmovdqa	%xmm2, 16(%rsp)                 # 16-byte Spill
	vpand	112(%rsp), %xmm1, %xmm15        # 16-byte Folded Reload
	vpxor	%xmm5, %xmm1, %xmm7
	vpand	160(%rsp), %xmm5, %xmm1         # 16-byte Folded Reload
	vmovdqa	%xmm1, 64(%rsp)                 # 16-byte Spill
	vpxor	%xmm5, %xmm6, %xmm1
	vpand	224(%rsp), %xmm5, %xmm5         # 16-byte Folded Reload
	vpand	80(%rsp), %xmm1, %xmm2          # 16-byte Folded Reload
	vpand	96(%rsp), %xmm1, %xmm1          # 16-byte Folded Reload
	vmovdqa	%xmm1, 112(%rsp)                # 16-byte Spill
	vpand	(%rsp), %xmm0, %xmm6            # 16-byte Folded Reload
	vmovdqa	176(%rsp), %xmm3                # 16-byte Reload
	vpxor	192(%rsp), %xmm3, %xmm1         # 16-byte Folded Reload
	vpand	%xmm1, %xmm0, %xmm14
	vpxor	%xmm0, %xmm7, %xmm0
	vpand	208(%rsp), %xmm0, %xmm1         # 16-byte Folded Reload
	vpxor	%xmm1, %xmm15, %xmm1
	vpxor	%xmm5, %xmm15, %xmm15
	vpand	240(%rsp), %xmm0, %xmm5         # 16-byte Folded Reload
	vpxor	%xmm4, %xmm14, %xmm0
	vpxor	%xmm0, %xmm8, %xmm0
	vpand	%xmm3, %xmm7, %xmm9
	vpxor	%xmm13, %xmm10, %xmm8
	vpxor	%xmm2, %xmm13, %xmm3
	vpxor	%xmm0, %xmm1, %xmm4
	vpxor	%xmm2, %xmm12, %xmm2
	vpxor	%xmm5, %xmm9, %xmm1
	vpxor	%xmm0, %xmm1, %xmm0
	vpxor	%xmm3, %xmm15, %xmm11
	vpxor	%xmm0, %xmm11, %xmm13
	vpxor	%xmm0, %xmm2, %xmm11
	vpxor	%xmm0, %xmm8, %xmm0
	vmovdqa	%xmm0, (%rsp)                   # 16-byte Spill
	vpxor	64(%rsp), %xmm12, %xmm0         # 16-byte Folded Reload
	vpxor	48(%rsp), %xmm14, %xmm2         # 16-byte Folded Reload
	vpxor	%xmm5, %xmm10, %xmm5
	vpxor	%xmm15, %xmm10, %xmm8
	vpxor	%xmm2, %xmm8, %xmm10
	vmovdqa	16(%rsp), %xmm8                 # 16-byte Reload
	vpxor	%xmm6, %xmm8, %xmm2
	vpxor	%xmm0, %xmm8, %xmm6
	vpxor	128(%rsp), %xmm6, %xmm8         # 16-byte Folded Reload
	vpxor	%xmm1, %xmm8, %xmm12
	vpand	256(%rsp), %xmm7, %xmm1         # 16-byte Folded Reload
	vpxor	112(%rsp), %xmm1, %xmm7         # 16-byte Folded Reload
	vpxor	%xmm1, %xmm3, %xmm1
	vpxor	%xmm6, %xmm1, %xmm3
	vpxor	%xmm4, %xmm5, %xmm1
	vpxor	%xmm4, %xmm3, %xmm8
	vpxor	%xmm10, %xmm12, %xmm6
	vpxor	%xmm7, %xmm2, %xmm2
	vpxor	32(%rsp), %xmm9, %xmm3          # 16-byte Folded Reload
	vpxor	%xmm3, %xmm0, %xmm0
	vpxor	%xmm7, %xmm0, %xmm0
	vpxor	%xmm0, %xmm10, %xmm3
	vpsrld	$16, %xmm2, %xmm0
	vpxor	%xmm2, %xmm0, %xmm0
	vmovdqa	.Laes_v3_CPI48_4(%rip), %xmm4          # xmm4 = [0,0,0,0,0,255,0,0,255,255,0,0,255,0,0,0]
	vpand	%xmm4, %xmm0, %xmm0
	vmovdqa	%xmm0, 16(%rsp)                 # 16-byte Spill
	vpsrld	$16, %xmm1, %xmm5
	vpxor	%xmm1, %xmm5, %xmm5
	vpand	%xmm4, %xmm5, %xmm10
	vpsrld	$16, %xmm13, %xmm5
	vpxor	%xmm5, %xmm13, %xmm5
	vpand	%xmm4, %xmm5, %xmm9
	vpsrld	$16, %xmm8, %xmm5
	vpxor	%xmm5, %xmm8, %xmm5
	vpand	%xmm4, %xmm5, %xmm5
	vpsrld	$16, %xmm11, %xmm7
	vpxor	%xmm7, %xmm11, %xmm7
	vpand	%xmm4, %xmm7, %xmm7
	vpsrld	$16, %xmm6, %xmm12
	vpxor	%xmm6, %xmm12, %xmm12
	vpand	%xmm4, %xmm12, %xmm12
	vpsrld	$16, %xmm3, %xmm14
	vpxor	%xmm3, %xmm14, %xmm14
	vpand	%xmm4, %xmm14, %xmm14
	vmovdqa	(%rsp), %xmm0                   # 16-byte Reload
	vpsrld	$16, %xmm0, %xmm15
	vpxor	%xmm0, %xmm15, %xmm15
	vpand	%xmm4, %xmm15, %xmm4
	vpxor	%xmm3, %xmm14, %xmm3
	vpslldq	$2, %xmm14, %xmm14              # xmm14 = zero,zero,xmm14[0,1,2,3,4,5,6,7,8,9,10,11,12,13]
	vpxor	%xmm3, %xmm14, %xmm3
	vpxor	%xmm6, %xmm12, %xmm6
	vpslldq	$2, %xmm12, %xmm12              # xmm12 = zero,zero,xmm12[0,1,2,3,4,5,6,7,8,9,10,11,12,13]
	vpxor	%xmm6, %xmm12, %xmm6
	vpxor	%xmm7, %xmm11, %xmm11
	vpslldq	$2, %xmm7, %xmm7                # xmm7 = zero,zero,xmm7[0,1,2,3,4,5,6,7,8,9,10,11,12,13]
	vpxor	%xmm7, %xmm11, %xmm7
	vpxor	%xmm5, %xmm8, %xmm8
	vpslldq	$2, %xmm5, %xmm5                # xmm5 = zero,zero,xmm5[0,1,2,3,4,5,6,7,8,9,10,11,12,13]
	vpxor	%xmm5, %xmm8, %xmm8
	vpxor	%xmm9, %xmm13, %xmm5
	vpslldq	$2, %xmm9, %xmm9                # xmm9 = zero,zero,xmm9[0,1,2,3,4,5,6,7,8,9,10,11,12,13]
	vpxor	%xmm5, %xmm9, %xmm9
	vmovdqa	16(%rsp), %xmm0                 # 16-byte Reload
	vpslldq	$2, %xmm0, %xmm5                # xmm5 = zero,zero,xmm0[0,1,2,3,4,5,6,7,8,9,10,11,12,13]
	vpxor	%xmm1, %xmm10, %xmm1
	vpslldq	$2, %xmm10, %xmm10              # xmm10 = zero,zero,xmm10[0,1,2,3,4,5,6,7,8,9,10,11,12,13]
	vpxor	%xmm1, %xmm10, %xmm10
	vpslldq	$2, %xmm4, %xmm1                # xmm1 = zero,zero,xmm4[0,1,2,3,4,5,6,7,8,9,10,11,12,13]
	vpxor	%xmm0, %xmm2, %xmm0
	vpxor	%xmm5, %xmm0, %xmm0
	vpxor	(%rsp), %xmm4, %xmm2            # 16-byte Folded Reload
	vpxor	%xmm1, %xmm2, %xmm1
	vpsrlw	$8, %xmm0, %xmm2
	vpxor	%xmm0, %xmm2, %xmm2
	vpbroadcastq	.Laes_v3_CPI48_5(%rip), %xmm4  # xmm4 = [0,0,0,0,255,0,255,0,0,0,0,0,255,0,255,0]
	vpand	%xmm4, %xmm2, %xmm2
	vmovdqa	%xmm2, (%rsp)                   # 16-byte Spill
	vpsrlw	$8, %xmm10, %xmm5
	vpxor	%xmm5, %xmm10, %xmm5
	vpand	%xmm4, %xmm5, %xmm11
	vpsrlw	$8, %xmm9, %xmm5
	vpxor	%xmm5, %xmm9, %xmm5
	vpand	%xmm4, %xmm5, %xmm12
	vpsrlw	$8, %xmm8, %xmm5
	vpxor	%xmm5, %xmm8, %xmm5
	vpand	%xmm4, %xmm5, %xmm13
	vpsrlw	$8, %xmm7, %xmm5
	vpxor	%xmm7, %xmm5, %xmm5
	vpand	%xmm4, %xmm5, %xmm14
	vpsrlw	$8, %xmm6, %xmm5
	vpxor	%xmm6, %xmm5, %xmm5
	vpand	%xmm4, %xmm5, %xmm15
	vpsrlw	$8, %xmm3, %xmm5
	vpxor	%xmm3, %xmm5, %xmm5
	vpand	%xmm4, %xmm5, %xmm5
	vpsrlw	$8, %xmm1, %xmm2
	vpxor	%xmm1, %xmm2, %xmm2
	vpand	%xmm4, %xmm2, %xmm2
	vpxor	%xmm5, %xmm3, %xmm3
	vpslldq	$1, %xmm5, %xmm4                # xmm4 = zero,xmm5[0,1,2,3,4,5,6,7,8,9,10,11,12,13,14]
	vpxor	%xmm4, %xmm3, %xmm5
	vpxor	%xmm6, %xmm15, %xmm3
	vpslldq	$1, %xmm15, %xmm4               # xmm4 = zero,xmm15[0,1,2,3,4,5,6,7,8,9,10,11,12,13,14]
	vpxor	%xmm4, %xmm3, %xmm6
	vpxor	%xmm7, %xmm14, %xmm3
	vpslldq	$1, %xmm14, %xmm4               # xmm4 = zero,xmm14[0,1,2,3,4,5,6,7,8,9,10,11,12,13,14]
	vpxor	%xmm4, %xmm3, %xmm4
	vpxor	%xmm13, %xmm8, %xmm3
	vpslldq	$1, %xmm13, %xmm7               # xmm7 = zero,xmm13[0,1,2,3,4,5,6,7,8,9,10,11,12,13,14]
	vpxor	%xmm7, %xmm3, %xmm7
	vpxor	%xmm12, %xmm9, %xmm3
	vpslldq	$1, %xmm12, %xmm8               # xmm8 = zero,xmm12[0,1,2,3,4,5,6,7,8,9,10,11,12,13,14]
	vpxor	%xmm3, %xmm8, %xmm8
	vmovdqa	(%rsp), %xmm12                  # 16-byte Reload
	vpslldq	$1, %xmm12, %xmm3               # xmm3 = zero,xmm12[0,1,2,3,4,5,6,7,8,9,10,11,12,13,14]
	vpxor	%xmm11, %xmm10, %xmm9
	vpslldq	$1, %xmm11, %xmm10              # xmm10 = zero,xmm11[0,1,2,3,4,5,6,7,8,9,10,11,12,13,14]
	vpxor	%xmm10, %xmm9, %xmm9
	vpslldq	$1, %xmm2, %xmm11               # xmm11 = zero,xmm2[0,1,2,3,4,5,6,7,8,9,10,11,12,13,14]
	vpxor	%xmm0, %xmm12, %xmm0
	vpxor	%xmm3, %xmm0, %xmm10
	vpxor	%xmm2, %xmm1, %xmm0
	vpxor	%xmm0, %xmm11, %xmm2
	vpshufd	$57, %xmm9, %xmm0               # xmm0 = xmm9[1,2,3,0]
	vpshufd	$57, %xmm8, %xmm1               # xmm1 = xmm8[1,2,3,0]
	vpshufd	$57, %xmm4, %xmm3               # xmm3 = xmm4[1,2,3,0]
	vpshufd	$57, %xmm6, %xmm11              # xmm11 = xmm6[1,2,3,0]
	vpxor	%xmm0, %xmm9, %xmm12
	vpxor	%xmm1, %xmm8, %xmm13
	vpxor	%xmm4, %xmm3, %xmm14
	vpxor	%xmm6, %xmm11, %xmm3
	vpshufd	$57, %xmm5, %xmm0               # xmm0 = xmm5[1,2,3,0]
	vpxor	%xmm5, %xmm0, %xmm1
	vmovdqa	%xmm1, (%rsp)                   # 16-byte Spill
	vpshufd	$57, %xmm2, %xmm0               # xmm0 = xmm2[1,2,3,0]
	vpxor	%xmm2, %xmm0, %xmm0
	vpxor	%xmm8, %xmm12, %xmm8
	vpxor	%xmm6, %xmm14, %xmm6
	vpxor	%xmm5, %xmm3, %xmm5
	vpxor	%xmm2, %xmm1, %xmm2
	vpxor	%xmm5, %xmm2, %xmm11
	vpxor	%xmm12, %xmm11, %xmm12
	vpxor	%xmm14, %xmm8, %xmm14
	vpxor	%xmm11, %xmm14, %xmm11
	vpshufd	$57, %xmm10, %xmm14             # xmm14 = xmm10[1,2,3,0]
	vpxor	%xmm10, %xmm14, %xmm14
	vpshufd	$57, %xmm7, %xmm15              # xmm15 = xmm7[1,2,3,0]
	vpxor	%xmm7, %xmm15, %xmm15
	vpxor	%xmm0, %xmm10, %xmm10
	vpxor	%xmm14, %xmm9, %xmm9
	vpxor	%xmm7, %xmm0, %xmm7
	vpxor	%xmm7, %xmm13, %xmm1
	vpxor	%xmm5, %xmm14, %xmm7
	vpxor	%xmm2, %xmm13, %xmm13
	vpxor	%xmm13, %xmm10, %xmm13
	vpxor	%xmm7, %xmm10, %xmm10
	vpshufd	$78, %xmm7, %xmm7               # xmm7 = xmm7[2,3,0,1]
	vpxor	%xmm7, %xmm10, %xmm7
	vpxor	%xmm0, %xmm9, %xmm9
	vpxor	%xmm4, %xmm0, %xmm4
	vpxor	%xmm4, %xmm15, %xmm4
	vpxor	%xmm15, %xmm9, %xmm10
	vpxor	%xmm12, %xmm9, %xmm9
	vpshufd	$78, %xmm12, %xmm12             # xmm12 = xmm12[2,3,0,1]
	vpxor	%xmm12, %xmm9, %xmm9
	vpxor	%xmm13, %xmm8, %xmm8
	vpshufd	$78, %xmm13, %xmm12             # xmm12 = xmm13[2,3,0,1]
	vpxor	%xmm12, %xmm8, %xmm8
	vpxor	%xmm5, %xmm10, %xmm10
	vpxor	%xmm3, %xmm2, %xmm3
	vpxor	%xmm1, %xmm3, %xmm3
	vpxor	%xmm1, %xmm10, %xmm1
	vpshufd	$78, %xmm10, %xmm10             # xmm10 = xmm10[2,3,0,1]
	vpxor	%xmm1, %xmm10, %xmm1
	vpxor	(%rsp), %xmm4, %xmm10           # 16-byte Folded Reload
	vpxor	%xmm4, %xmm11, %xmm4
	vpshufd	$78, %xmm11, %xmm11             # xmm11 = xmm11[2,3,0,1]
	vpxor	%xmm4, %xmm11, %xmm4
	vpxor	%xmm0, %xmm6, %xmm0
	vpxor	%xmm3, %xmm6, %xmm6
	vpshufd	$78, %xmm3, %xmm3               # xmm3 = xmm3[2,3,0,1]
	vpxor	%xmm3, %xmm6, %xmm3
	vpxor	%xmm5, %xmm10, %xmm5
	vpshufd	$78, %xmm10, %xmm6              # xmm6 = xmm10[2,3,0,1]
	vpxor	%xmm6, %xmm5, %xmm5
	vpxor	%xmm0, %xmm2, %xmm2
	vpshufd	$78, %xmm0, %xmm0               # xmm0 = xmm0[2,3,0,1]
	vpxor	%xmm0, %xmm2, %xmm2
	vpsrlw	$1, %xmm7, %xmm0
	vpxor	%xmm0, %xmm9, %xmm0
	vpbroadcastd	.Laes_v3_CPI48_7(%rip), %xmm10 # xmm10 = [85,85,85,85,85,85,85,85,85,85,85,85,85,85,85,85]
	vpand	%xmm0, %xmm10, %xmm6
	vpxor	%xmm6, %xmm9, %xmm0
	vpaddb	%xmm6, %xmm6, %xmm6
	vpxor	%xmm7, %xmm6, %xmm6
	vpsrlw	$1, %xmm8, %xmm7
	vpxor	%xmm1, %xmm7, %xmm7
	vpand	%xmm7, %xmm10, %xmm7
	vpxor	%xmm1, %xmm7, %xmm9
	vpaddb	%xmm7, %xmm7, %xmm1
	vpxor	%xmm1, %xmm8, %xmm1
	vpsrlw	$1, %xmm4, %xmm7
	vpxor	%xmm3, %xmm7, %xmm7
	vpand	%xmm7, %xmm10, %xmm7
	vpxor	%xmm3, %xmm7, %xmm3
	vpaddb	%xmm7, %xmm7, %xmm7
	vpxor	%xmm4, %xmm7, %xmm4
	vpsrlw	$1, %xmm5, %xmm7
	vpxor	%xmm2, %xmm7, %xmm7
	vpand	%xmm7, %xmm10, %xmm7
	vpxor	%xmm2, %xmm7, %xmm2
	vpaddb	%xmm7, %xmm7, %xmm7
	vpxor	%xmm5, %xmm7, %xmm5
	vpsrlw	$2, %xmm6, %xmm7
	vpxor	%xmm7, %xmm1, %xmm7
	vpbroadcastd	.Laes_v3_CPI48_8(%rip), %xmm10 # xmm10 = [51,51,51,51,51,51,51,51,51,51,51,51,51,51,51,51]
	vpand	%xmm7, %xmm10, %xmm7
	vpxor	%xmm1, %xmm7, %xmm1
	vpsllw	$2, %xmm7, %xmm7
	vpxor	%xmm6, %xmm7, %xmm6
	vpsrlw	$2, %xmm4, %xmm7
	vpxor	%xmm5, %xmm7, %xmm7
	vpand	%xmm7, %xmm10, %xmm7
	vpxor	%xmm5, %xmm7, %xmm5
	vpsllw	$2, %xmm7, %xmm7
	vpxor	%xmm4, %xmm7, %xmm4
	vpsrlw	$2, %xmm0, %xmm7
	vpxor	%xmm7, %xmm9, %xmm7
	vpand	%xmm7, %xmm10, %xmm7
	vpxor	%xmm7, %xmm9, %xmm8
	vpsllw	$2, %xmm7, %xmm7
	vpxor	%xmm0, %xmm7, %xmm0
	vpsrlw	$2, %xmm3, %xmm7
	vpxor	%xmm2, %xmm7, %xmm7
	vpand	%xmm7, %xmm10, %xmm7
	vpxor	%xmm2, %xmm7, %xmm2
	vpsllw	$2, %xmm7, %xmm7
	vpxor	%xmm3, %xmm7, %xmm3
	vpsrlw	$4, %xmm6, %xmm7
	vpxor	%xmm7, %xmm4, %xmm7
	vpbroadcastd	.Laes_v3_CPI48_9(%rip), %xmm9  # xmm9 = [15,15,15,15,15,15,15,15,15,15,15,15,15,15,15,15]
	vpand	%xmm7, %xmm9, %xmm7
	vpxor	%xmm4, %xmm7, %xmm4
	vpsllw	$4, %xmm7, %xmm7
	vpxor	%xmm6, %xmm7, %xmm6
	vpsrlw	$4, %xmm0, %xmm7
	vpxor	%xmm7, %xmm3, %xmm7
	vpand	%xmm7, %xmm9, %xmm7
	vpxor	%xmm3, %xmm7, %xmm3
	vpsllw	$4, %xmm7, %xmm7
	vpxor	%xmm0, %xmm7, %xmm0
	vpsrlw	$4, %xmm1, %xmm7
	vpxor	%xmm7, %xmm5, %xmm7
	vpand	%xmm7, %xmm9, %xmm7
	vpxor	%xmm5, %xmm7, %xmm5
	vpsllw	$4, %xmm7, %xmm7
	vpxor	%xmm1, %xmm7, %xmm1
	vpsrlw	$4, %xmm8, %xmm7
	vpxor	%xmm7, %xmm2, %xmm7
	vpand	%xmm7, %xmm9, %xmm7
	vpxor	%xmm2, %xmm7, %xmm2
	vpsllw	$4, %xmm7, %xmm7
	vpxor	%xmm7, %xmm8, %xmm7
	vinserti128	$1, %xmm0, %ymm6, %ymm0
	vbroadcasti128	.Laes_v3_CPI48_6(%rip), %ymm6  # ymm6 = [0,4,8,12,1,5,9,13,2,6,10,14,3,7,11,15,0,4,8,12,1,5,9,13,2,6,10,14,3,7,11,15]
                                        # ymm6 = mem[0,1,0,1]
	vpshufb	%ymm6, %ymm0, %ymm0
	vmovdqu	%ymm0, (%rdi)
	vinserti128	$1, %xmm7, %ymm1, %ymm0
	vpshufb	%ymm6, %ymm0, %ymm0
	vmovdqu	%ymm0, 32(%rdi)
	vinserti128	$1, %xmm3, %ymm4, %ymm0
	vpshufb	%ymm6, %ymm0, %ymm0
	vmovdqu	%ymm0, 64(%rdi)
	vinserti128	$1, %xmm2, %ymm5, %ymm0
	vpshufb	%ymm6, %ymm0, %ymm0
	vmovdqu	%ymm0, 96(%rdi)
	vmovups	(%rsi), %xmm0
	vxorps	(%rdi), %xmm0, %xmm0
	vmovups	%xmm0, (%rdi)
	vmovups	16(%rsi), %xmm0
	vxorps	16(%rdi), %xmm0, %xmm0
	vmovups	%xmm0, 16(%rdi)
	vmovups	32(%rsi), %xmm0
	vxorps	32(%rdi), %xmm0, %xmm0
	vmovups	%xmm0, 32(%rdi)
	vmovups	48(%rsi), %xmm0
	vxorps	48(%rdi), %xmm0, %xmm0
	vmovups	%xmm0, 48(%rdi)
	vmovups	64(%rsi), %xmm0
	vxorps	64(%rdi), %xmm0, %xmm0
	vmovups	%xmm0, 64(%rdi)
	vmovups	80(%rsi), %xmm0
	vxorps	80(%rdi), %xmm0, %xmm0
	vmovups	%xmm0, 80(%rdi)
	vmovups	96(%rsi), %xmm0
	vxorps	96(%rdi), %xmm0, %xmm0
	vmovups	%xmm0, 96(%rdi)
	vmovups	112(%rsi), %xmm0
	vxorps	112(%rdi), %xmm0, %xmm0
	vmovups	%xmm0, 112(%rdi)
	addq	$280, %rsp                      # imm = 0x118
	vzeroupper
	retq
	.seh_endproc
                                        # -- End function
	.def	aes_v3.cmac.pieces.Message.is_tag_so_far;
	.scl	3;
	.type	32;
	.endef
	.p2align	4                               # -- Begin function cmac::pieces::Message::is_tag_so_far::<#cd78163963378b36>
aes_v3.cmac.pieces.Message.is_tag_so_far: # @aes_v3.cmac.pieces.Message.is_tag_so_far
.seh_proc aes_v3.cmac.pieces.Message.is_tag_so_far
# %bb.0:                                # %start
	pushq	%r15
	.seh_pushreg %r15
	pushq	%r14
	.seh_pushreg %r14
	pushq	%rbx
	.seh_pushreg %rbx
	subq	$64, %rsp
	.seh_stackalloc 64
	.seh_endprologue
	vxorps	%xmm0, %xmm0, %xmm0
	vmovaps	%xmm0, 32(%rsp)
	movq	%r8, %rbx
	movq	%rcx, %r14
	movq	8(%rdi), %rax
	cmpq	$16, %rax
	movl	$16, %r9d
	cmovbq	%rax, %r9
	leaq	16(%rdi), %rcx
	leaq	32(%rdi), %r8
	leaq	32(%rsp), %r15
	movq	%r15, %rdi
	callq	aes_v3.cmac.tags.tag_at_end
	vmovaps	32(%rsp), %xmm0
	vmovaps	%xmm0, 48(%rsp)
	leaq	48(%rsp), %rdi
	movq	%rdi, %rcx
	movq	%r14, %rdx
	movq	%rbx, %r8
	callq	memcpy
	movq	%r15, %rsi
	callq	aes_v3.aes_cipher.blocks.difference
	testl	%eax, %eax
	sete	%al
	addq	$64, %rsp
	popq	%rbx
	popq	%r14
	popq	%r15
	retq
	.seh_endproc
                                        # -- End function
	.def	aes_v3.cmac.tags.is_tag_start;
	.scl	3;
	.type	32;
	.endef
	.p2align	4                               # -- Begin function cmac::tags::is_tag_start::<#cd78163963378b36>
aes_v3.cmac.tags.is_tag_start: # @aes_v3.cmac.tags.is_tag_start
.seh_proc aes_v3.cmac.tags.is_tag_start
# %bb.0:                                # %start
	pushq	%r15
	.seh_pushreg %r15
	pushq	%r14
	.seh_pushreg %r14
	pushq	%rbx
	.seh_pushreg %rbx
	subq	$64, %rsp
	.seh_stackalloc 64
	.seh_endprologue
	movq	%r8, %rbx
	movq	%rcx, %r14
	movq	%rdx, %rcx
	movq	%rsi, %rdx
	movq	%rdi, %rsi
	leaq	48(%rsp), %r15
	movq	%r15, %rdi
	callq	aes_v3.cmac.tags.tag
	vmovups	48(%rsp), %xmm0
	vmovaps	%xmm0, 32(%rsp)
	leaq	32(%rsp), %rdi
	movq	%rdi, %rcx
	movq	%r14, %rdx
	movq	%rbx, %r8
	callq	memcpy
	movq	%r15, %rsi
	callq	aes_v3.aes_cipher.blocks.difference
	testl	%eax, %eax
	sete	%al
	addq	$64, %rsp
	popq	%rbx
	popq	%r14
	popq	%r15
	retq
	.seh_endproc
                                        # -- End function
	.def	aes_v3.aes_c.single_rounds.mixed;
	.scl	3;
	.type	32;
	.endef
	.section	.rdata,"dr"
	.p2align	4, 0x0                          # -- Begin function aes_c::single_rounds::mixed
.Laes_v3_CPI51_0:
	.byte	0                               # 0x0
	.byte	4                               # 0x4
	.byte	8                               # 0x8
	.byte	12                              # 0xc
	.byte	1                               # 0x1
	.byte	5                               # 0x5
	.byte	9                               # 0x9
	.byte	13                              # 0xd
	.byte	2                               # 0x2
	.byte	6                               # 0x6
	.byte	10                              # 0xa
	.byte	14                              # 0xe
	.byte	3                               # 0x3
	.byte	7                               # 0x7
	.byte	11                              # 0xb
	.byte	15                              # 0xf
.Laes_v3_CPI51_1:
	.zero	16,1
.Laes_v3_CPI51_2:
	.zero	16,127
.Laes_v3_CPI51_3:
	.zero	16,170
.Laes_v3_CPI51_4:
	.zero	16,34
.Laes_v3_CPI51_5:
	.zero	16,204
.Laes_v3_CPI51_6:
	.zero	16,252
.Laes_v3_CPI51_7:
	.zero	16,240
.Laes_v3_CPI51_8:
	.zero	4,127
.Laes_v3_CPI51_9:
	.zero	4,170
.Laes_v3_CPI51_10:
	.zero	4,34
	.text
	.p2align	4
aes_v3.aes_c.single_rounds.mixed:          # @aes_v3.aes_c.single_rounds.mixed
.seh_proc aes_v3.aes_c.single_rounds.mixed
# %bb.0:                                # %start
	subq	$56, %rsp
	.seh_stackalloc 56
	.seh_endprologue
	vmovdqu	(%rdi), %xmm1
	vpshufb	.Laes_v3_CPI51_0(%rip), %xmm1, %xmm1   # xmm1 = xmm1[0,4,8,12,1,5,9,13,2,6,10,14,3,7,11,15]
	vpand	.Laes_v3_CPI51_1(%rip), %xmm1, %xmm2
	vpxor	%xmm3, %xmm3, %xmm3
	vpsubb	%xmm2, %xmm3, %xmm2
	vpsllw	$6, %xmm1, %xmm4
	vpcmpgtb	%xmm4, %xmm3, %xmm4
	vpsllw	$5, %xmm1, %xmm5
	vpcmpgtb	%xmm5, %xmm3, %xmm7
	vpsllw	$4, %xmm1, %xmm5
	vpcmpgtb	%xmm5, %xmm3, %xmm8
	vpsllw	$3, %xmm1, %xmm5
	vpcmpgtb	%xmm5, %xmm3, %xmm11
	vpsllw	$2, %xmm1, %xmm5
	vpcmpgtb	%xmm5, %xmm3, %xmm6
	vpaddb	%xmm1, %xmm1, %xmm5
	vpcmpgtb	%xmm5, %xmm3, %xmm10
	vpcmpgtb	%xmm1, %xmm3, %xmm13
	vpshufd	$57, %xmm2, %xmm14              # xmm14 = xmm2[1,2,3,0]
	vpshufd	$57, %xmm4, %xmm9               # xmm9 = xmm4[1,2,3,0]
	vpshufd	$57, %xmm7, %xmm15              # xmm15 = xmm7[1,2,3,0]
	vpshufd	$57, %xmm8, %xmm1               # xmm1 = xmm8[1,2,3,0]
	vmovdqa	%xmm1, 16(%rsp)                 # 16-byte Spill
	vpshufd	$57, %xmm11, %xmm3              # xmm3 = xmm11[1,2,3,0]
	vpshufd	$57, %xmm13, %xmm0              # xmm0 = xmm13[1,2,3,0]
	vmovdqa	%xmm0, 32(%rsp)                 # 16-byte Spill
	vpxor	%xmm2, %xmm14, %xmm12
	vpxor	%xmm4, %xmm9, %xmm5
	vpxor	%xmm7, %xmm15, %xmm7
	vpxor	%xmm1, %xmm8, %xmm8
	vpxor	%xmm3, %xmm11, %xmm1
	vmovdqa	%xmm1, (%rsp)                   # 16-byte Spill
	vpxor	%xmm0, %xmm13, %xmm2
	vpshufd	$78, %xmm12, %xmm4              # xmm4 = xmm12[2,3,0,1]
	vpxor	%xmm2, %xmm14, %xmm11
	vpxor	%xmm4, %xmm11, %xmm14
	vpshufd	$78, %xmm7, %xmm4               # xmm4 = xmm7[2,3,0,1]
	vpxor	%xmm5, %xmm15, %xmm11
	vpxor	%xmm4, %xmm11, %xmm4
	vpshufd	$78, %xmm1, %xmm11              # xmm11 = xmm1[2,3,0,1]
	vpxor	%xmm3, %xmm2, %xmm0
	vpxor	%xmm0, %xmm8, %xmm0
	vpxor	%xmm0, %xmm11, %xmm11
	vpshufd	$57, %xmm6, %xmm13              # xmm13 = xmm6[1,2,3,0]
	vpxor	%xmm6, %xmm13, %xmm0
	vpshufd	$57, %xmm10, %xmm6              # xmm6 = xmm10[1,2,3,0]
	vpxor	%xmm6, %xmm10, %xmm10
	vpxor	%xmm0, %xmm6, %xmm6
	vpshufd	$78, %xmm10, %xmm15             # xmm15 = xmm10[2,3,0,1]
	vpxor	%xmm6, %xmm15, %xmm6
	vpshufd	$78, %xmm5, %xmm1               # xmm1 = xmm5[2,3,0,1]
	vpxor	%xmm2, %xmm1, %xmm1
	vpxor	%xmm1, %xmm12, %xmm1
	vpxor	%xmm1, %xmm9, %xmm1
	vpsrlw	$1, %xmm14, %xmm9
	vpbroadcastd	.Laes_v3_CPI51_8(%rip), %xmm12 # xmm12 = [127,127,127,127,127,127,127,127,127,127,127,127,127,127,127,127]
	vpand	%xmm12, %xmm9, %xmm9
	vpxor	%xmm1, %xmm9, %xmm1
	vpaddb	%xmm1, %xmm1, %xmm1
	vpbroadcastd	.Laes_v3_CPI51_9(%rip), %xmm15 # xmm15 = [170,170,170,170,170,170,170,170,170,170,170,170,170,170,170,170]
	vpand	%xmm1, %xmm15, %xmm1
	vpxor	%xmm1, %xmm14, %xmm9
	vpxor	16(%rsp), %xmm2, %xmm1          # 16-byte Folded Reload
	vpxor	%xmm7, %xmm1, %xmm1
	vpshufd	$78, %xmm8, %xmm5               # xmm5 = xmm8[2,3,0,1]
	vpxor	%xmm5, %xmm1, %xmm1
	vpsrlw	$1, %xmm11, %xmm5
	vpand	%xmm5, %xmm12, %xmm5
	vpshufd	$78, %xmm0, %xmm0               # xmm0 = xmm0[2,3,0,1]
	vpxor	%xmm0, %xmm13, %xmm0
	vpxor	(%rsp), %xmm0, %xmm0            # 16-byte Folded Reload
	vpxor	%xmm5, %xmm0, %xmm0
	vpaddb	%xmm0, %xmm0, %xmm0
	vpand	%xmm0, %xmm15, %xmm0
	vpxor	%xmm0, %xmm11, %xmm0
	vpshufd	$78, %xmm2, %xmm2               # xmm2 = xmm2[2,3,0,1]
	vpxor	32(%rsp), %xmm2, %xmm2          # 16-byte Folded Reload
	vpxor	%xmm4, %xmm1, %xmm1
	vpaddb	%xmm1, %xmm1, %xmm1
	vpxor	%xmm2, %xmm10, %xmm2
	vpbroadcastd	.Laes_v3_CPI51_10(%rip), %xmm3 # xmm3 = [34,34,34,34,34,34,34,34,34,34,34,34,34,34,34,34]
	vpand	%xmm3, %xmm1, %xmm1
	vpxor	%xmm6, %xmm2, %xmm2
	vpaddb	%xmm2, %xmm2, %xmm2
	vpand	%xmm3, %xmm2, %xmm2
	vpxor	%xmm4, %xmm1, %xmm1
	vpsrlw	$2, %xmm9, %xmm3
	vpxor	%xmm3, %xmm1, %xmm1
	vpsllw	$2, %xmm1, %xmm1
	vpand	.Laes_v3_CPI51_5(%rip), %xmm1, %xmm1
	vpxor	%xmm1, %xmm9, %xmm1
	vpxor	%xmm6, %xmm2, %xmm2
	vpsrlw	$2, %xmm0, %xmm3
	vpxor	%xmm3, %xmm2, %xmm2
	vpsllw	$2, %xmm2, %xmm2
	vpand	.Laes_v3_CPI51_6(%rip), %xmm2, %xmm2
	vpxor	%xmm0, %xmm2, %xmm0
	vpsrlw	$4, %xmm1, %xmm2
	vpxor	%xmm2, %xmm0, %xmm0
	vpsllw	$4, %xmm0, %xmm0
	vpand	.Laes_v3_CPI51_7(%rip), %xmm0, %xmm0
	vpxor	%xmm1, %xmm0, %xmm0
	vpshufb	.Laes_v3_CPI51_0(%rip), %xmm0, %xmm0   # xmm0 = xmm0[0,4,8,12,1,5,9,13,2,6,10,14,3,7,11,15]
	vmovdqu	%xmm0, (%rdi)
	addq	$56, %rsp
	retq
	.seh_endproc
                                        # -- End function
	.def	aes_v3.aes_c.single_rounds.round;
	.scl	3;
	.type	32;
	.endef
	.section	.rdata,"dr"
	.p2align	4, 0x0                          # -- Begin function aes_c::single_rounds::round
.Laes_v3_CPI52_0:
	.byte	0                               # 0x0
	.byte	4                               # 0x4
	.byte	8                               # 0x8
	.byte	12                              # 0xc
	.byte	1                               # 0x1
	.byte	5                               # 0x5
	.byte	9                               # 0x9
	.byte	13                              # 0xd
	.byte	2                               # 0x2
	.byte	6                               # 0x6
	.byte	10                              # 0xa
	.byte	14                              # 0xe
	.byte	3                               # 0x3
	.byte	7                               # 0x7
	.byte	11                              # 0xb
	.byte	15                              # 0xf
.Laes_v3_CPI52_1:
	.zero	16,1
.Laes_v3_CPI52_2:
	.byte	0                               # 0x0
	.byte	0                               # 0x0
	.byte	0                               # 0x0
	.byte	0                               # 0x0
	.byte	255                             # 0xff
	.byte	0                               # 0x0
	.byte	0                               # 0x0
	.byte	0                               # 0x0
	.byte	255                             # 0xff
	.byte	255                             # 0xff
	.byte	0                               # 0x0
	.byte	0                               # 0x0
	.byte	0                               # 0x0
	.byte	255                             # 0xff
	.byte	0                               # 0x0
	.byte	0                               # 0x0
.Laes_v3_CPI52_3:
	.byte	0                               # 0x0
	.byte	0                               # 0x0
	.byte	0                               # 0x0
	.byte	0                               # 0x0
	.byte	255                             # 0xff
	.byte	0                               # 0x0
	.byte	255                             # 0xff
	.byte	0                               # 0x0
	.zero	8
.Laes_v3_CPI52_4:
	.zero	16,127
.Laes_v3_CPI52_5:
	.zero	16,170
.Laes_v3_CPI52_6:
	.zero	16,34
.Laes_v3_CPI52_7:
	.zero	16,204
.Laes_v3_CPI52_8:
	.zero	16,252
.Laes_v3_CPI52_9:
	.zero	16,240
.Laes_v3_CPI52_10:
	.zero	4,127
.Laes_v3_CPI52_11:
	.zero	4,170
.Laes_v3_CPI52_12:
	.zero	4,34
	.text
	.p2align	4
aes_v3.aes_c.single_rounds.round:          # @aes_v3.aes_c.single_rounds.round
.seh_proc aes_v3.aes_c.single_rounds.round
# %bb.0:                                # %start
	subq	$232, %rsp
	.seh_stackalloc 232
	.seh_endprologue
	vmovdqu	(%rdi), %xmm0
	vpshufb	.Laes_v3_CPI52_0(%rip), %xmm0, %xmm2   # xmm2 = xmm0[0,4,8,12,1,5,9,13,2,6,10,14,3,7,11,15]
	vpand	.Laes_v3_CPI52_1(%rip), %xmm2, %xmm0
	vpxor	%xmm3, %xmm3, %xmm3
	vpsubb	%xmm0, %xmm3, %xmm10
	vpsllw	$6, %xmm2, %xmm0
	vpcmpgtb	%xmm0, %xmm3, %xmm0
	vmovdqa	%xmm0, 32(%rsp)                 # 16-byte Spill
	vpsllw	$5, %xmm2, %xmm1
	vpcmpgtb	%xmm1, %xmm3, %xmm6
	vpsllw	$4, %xmm2, %xmm1
	vpcmpgtb	%xmm1, %xmm3, %xmm5
	vpsllw	$3, %xmm2, %xmm1
	vpcmpgtb	%xmm1, %xmm3, %xmm1
	vpsllw	$2, %xmm2, %xmm7
	vpcmpgtb	%xmm7, %xmm3, %xmm7
	vpaddb	%xmm2, %xmm2, %xmm8
	vpcmpgtb	%xmm8, %xmm3, %xmm8
	vpcmpgtb	%xmm2, %xmm3, %xmm13
	vpxor	%xmm7, %xmm8, %xmm15
	vpxor	%xmm1, %xmm13, %xmm3
	vpxor	%xmm0, %xmm13, %xmm14
	vpxor	%xmm6, %xmm1, %xmm12
	vpxor	%xmm12, %xmm14, %xmm11
	vmovdqa	%xmm12, 160(%rsp)               # 16-byte Spill
	vpxor	%xmm5, %xmm11, %xmm2
	vmovdqa	%xmm11, 144(%rsp)               # 16-byte Spill
	vpxor	%xmm6, %xmm2, %xmm4
	vpxor	%xmm2, %xmm8, %xmm9
	vpxor	%xmm6, %xmm13, %xmm7
	vmovdqa	%xmm7, (%rsp)                   # 16-byte Spill
	vmovdqa	%xmm3, 192(%rsp)                # 16-byte Spill
	vpxor	%xmm3, %xmm9, %xmm0
	vmovdqa	%xmm0, 64(%rsp)                 # 16-byte Spill
	vpand	%xmm3, %xmm0, %xmm3
	vpxor	%xmm4, %xmm15, %xmm5
	vmovdqa	%xmm5, 208(%rsp)                # 16-byte Spill
	vmovdqa	%xmm4, 128(%rsp)                # 16-byte Spill
	vpxor	%xmm5, %xmm0, %xmm2
	vmovdqa	%xmm2, 176(%rsp)                # 16-byte Spill
	vpand	%xmm2, %xmm12, %xmm6
	vpxor	%xmm3, %xmm6, %xmm2
	vpand	%xmm7, %xmm5, %xmm6
	vpxor	%xmm3, %xmm6, %xmm8
	vpxor	%xmm10, %xmm15, %xmm12
	vpxor	%xmm1, %xmm12, %xmm0
	vmovdqa	%xmm0, 48(%rsp)                 # 16-byte Spill
	vpand	%xmm4, %xmm11, %xmm3
	vpxor	%xmm5, %xmm7, %xmm1
	vpxor	%xmm3, %xmm1, %xmm1
	vpxor	%xmm1, %xmm8, %xmm1
	vpand	%xmm0, %xmm10, %xmm6
	vpxor	%xmm1, %xmm6, %xmm1
	vpxor	%xmm3, %xmm9, %xmm3
	vpxor	32(%rsp), %xmm12, %xmm5         # 16-byte Folded Reload
	vpxor	%xmm2, %xmm3, %xmm3
	vmovdqa	%xmm10, 80(%rsp)                # 16-byte Spill
	vpxor	%xmm4, %xmm10, %xmm4
	vmovdqa	%xmm4, 96(%rsp)                 # 16-byte Spill
	vpxor	%xmm7, %xmm5, %xmm0
	vmovdqa	%xmm0, 112(%rsp)                # 16-byte Spill
	vpand	%xmm0, %xmm4, %xmm11
	vpxor	%xmm3, %xmm11, %xmm11
	vmovdqa	64(%rsp), %xmm9                 # 16-byte Reload
	vpxor	%xmm15, %xmm9, %xmm3
	vmovdqa	%xmm14, 16(%rsp)                # 16-byte Spill
	vpand	%xmm3, %xmm14, %xmm15
	vpxor	%xmm3, %xmm15, %xmm15
	vpand	%xmm5, %xmm12, %xmm0
	vpxor	%xmm14, %xmm15, %xmm14
	vpxor	%xmm0, %xmm14, %xmm0
	vpxor	%xmm2, %xmm0, %xmm2
	vpxor	%xmm13, %xmm15, %xmm0
	vpxor	%xmm13, %xmm12, %xmm15
	vpxor	%xmm10, %xmm9, %xmm4
	vmovdqa	%xmm4, 32(%rsp)                 # 16-byte Spill
	vpand	%xmm4, %xmm15, %xmm14
	vpxor	%xmm0, %xmm14, %xmm0
	vpxor	%xmm0, %xmm8, %xmm4
	vpand	%xmm2, %xmm11, %xmm14
	vpxor	%xmm1, %xmm14, %xmm0
	vpxor	%xmm2, %xmm4, %xmm13
	vpand	%xmm0, %xmm13, %xmm13
	vpxor	%xmm1, %xmm11, %xmm11
	vpxor	%xmm4, %xmm14, %xmm0
	vpand	%xmm0, %xmm11, %xmm6
	vpxor	%xmm1, %xmm6, %xmm1
	vpxor	%xmm14, %xmm13, %xmm6
	vpxor	%xmm4, %xmm13, %xmm13
	vpand	%xmm4, %xmm6, %xmm4
	vpxor	%xmm0, %xmm4, %xmm0
	vpand	%xmm1, %xmm0, %xmm0
	vpxor	%xmm0, %xmm11, %xmm6
	vpxor	%xmm2, %xmm4, %xmm4
	vpxor	%xmm1, %xmm6, %xmm2
	vpand	%xmm3, %xmm2, %xmm7
	vpand	16(%rsp), %xmm2, %xmm10         # 16-byte Folded Reload
	vpand	%xmm6, %xmm12, %xmm14
	vpand	%xmm5, %xmm6, %xmm0
	vmovdqa	%xmm0, 16(%rsp)                 # 16-byte Spill
	vpxor	%xmm4, %xmm13, %xmm11
	vpxor	%xmm6, %xmm11, %xmm2
	vpand	96(%rsp), %xmm11, %xmm12        # 16-byte Folded Reload
	vpand	112(%rsp), %xmm11, %xmm11       # 16-byte Folded Reload
	vpand	48(%rsp), %xmm13, %xmm0         # 16-byte Folded Reload
	vmovdqa	%xmm0, 48(%rsp)                 # 16-byte Spill
	vpand	80(%rsp), %xmm13, %xmm5         # 16-byte Folded Reload
	vpxor	%xmm1, %xmm13, %xmm13
	vpand	%xmm9, %xmm13, %xmm6
	vpand	192(%rsp), %xmm13, %xmm8        # 16-byte Folded Reload
	vpxor	%xmm2, %xmm13, %xmm13
	vpand	160(%rsp), %xmm13, %xmm3        # 16-byte Folded Reload
	vpand	176(%rsp), %xmm13, %xmm13       # 16-byte Folded Reload
	vpand	%xmm1, %xmm15, %xmm15
	vpand	32(%rsp), %xmm1, %xmm1          # 16-byte Folded Reload
	vpand	128(%rsp), %xmm4, %xmm0         # 16-byte Folded Reload
	vpand	144(%rsp), %xmm4, %xmm4         # 16-byte Folded Reload
	vpxor	%xmm0, %xmm12, %xmm12
	vpxor	%xmm5, %xmm0, %xmm0
	vpxor	%xmm7, %xmm14, %xmm9
	vpxor	%xmm1, %xmm0, %xmm1
	vpxor	%xmm7, %xmm1, %xmm1
	vpxor	%xmm3, %xmm8, %xmm3
	vpxor	%xmm3, %xmm11, %xmm7
	vpxor	16(%rsp), %xmm1, %xmm5          # 16-byte Folded Reload
	vpxor	%xmm3, %xmm5, %xmm11
	vpxor	%xmm13, %xmm9, %xmm3
	vpxor	%xmm9, %xmm12, %xmm5
	vpand	208(%rsp), %xmm2, %xmm9         # 16-byte Folded Reload
	vpxor	%xmm4, %xmm7, %xmm12
	vpxor	%xmm0, %xmm9, %xmm0
	vpxor	%xmm0, %xmm10, %xmm0
	vpxor	%xmm3, %xmm0, %xmm0
	vpxor	%xmm0, %xmm15, %xmm9
	vpxor	%xmm5, %xmm12, %xmm5
	vpxor	%xmm6, %xmm3, %xmm13
	vpxor	48(%rsp), %xmm7, %xmm3          # 16-byte Folded Reload
	vpxor	%xmm1, %xmm5, %xmm4
	vpand	(%rsp), %xmm2, %xmm7            # 16-byte Folded Reload
	vpxor	%xmm3, %xmm9, %xmm3
	vpxor	%xmm13, %xmm12, %xmm1
	vpcmpeqd	%xmm12, %xmm12, %xmm12
	vpxor	%xmm12, %xmm10, %xmm2
	vpxor	%xmm2, %xmm11, %xmm2
	vpxor	%xmm0, %xmm11, %xmm0
	vpxor	%xmm0, %xmm12, %xmm6
	vpxor	%xmm7, %xmm8, %xmm0
	vpxor	%xmm0, %xmm13, %xmm0
	vpxor	%xmm0, %xmm9, %xmm0
	vpxor	%xmm0, %xmm12, %xmm8
	vpxor	%xmm12, %xmm13, %xmm0
	vpxor	%xmm5, %xmm0, %xmm7
	vpsrld	$16, %xmm2, %xmm0
	vpxor	%xmm2, %xmm0, %xmm0
	vmovdqa	.Laes_v3_CPI52_2(%rip), %xmm11         # xmm11 = [0,0,0,0,255,0,0,0,255,255,0,0,0,255,0,0]
	vpand	%xmm0, %xmm11, %xmm0
	vmovdqa	%xmm0, (%rsp)                   # 16-byte Spill
	vpsrld	$16, %xmm6, %xmm0
	vpxor	%xmm6, %xmm0, %xmm0
	vpand	%xmm0, %xmm11, %xmm0
	vpsrld	$16, %xmm3, %xmm10
	vpxor	%xmm3, %xmm10, %xmm10
	vpand	%xmm11, %xmm10, %xmm10
	vpsrld	$16, %xmm4, %xmm12
	vpxor	%xmm4, %xmm12, %xmm12
	vpand	%xmm11, %xmm12, %xmm12
	vpsrld	$16, %xmm5, %xmm13
	vpxor	%xmm5, %xmm13, %xmm13
	vpand	%xmm11, %xmm13, %xmm13
	vpsrld	$16, %xmm8, %xmm14
	vpxor	%xmm8, %xmm14, %xmm14
	vpand	%xmm11, %xmm14, %xmm14
	vpsrld	$16, %xmm7, %xmm15
	vpxor	%xmm7, %xmm15, %xmm15
	vpand	%xmm11, %xmm15, %xmm15
	vpsrld	$16, %xmm1, %xmm9
	vpxor	%xmm1, %xmm9, %xmm9
	vpand	%xmm11, %xmm9, %xmm9
	vpxor	%xmm7, %xmm15, %xmm7
	vpslldq	$2, %xmm15, %xmm11              # xmm11 = zero,zero,xmm15[0,1,2,3,4,5,6,7,8,9,10,11,12,13]
	vpxor	%xmm7, %xmm11, %xmm7
	vpxor	%xmm14, %xmm8, %xmm8
	vpslldq	$2, %xmm14, %xmm11              # xmm11 = zero,zero,xmm14[0,1,2,3,4,5,6,7,8,9,10,11,12,13]
	vpxor	%xmm8, %xmm11, %xmm8
	vmovdqa	(%rsp), %xmm14                  # 16-byte Reload
	vpslldq	$2, %xmm14, %xmm11              # xmm11 = zero,zero,xmm14[0,1,2,3,4,5,6,7,8,9,10,11,12,13]
	vpxor	%xmm5, %xmm13, %xmm5
	vpslldq	$2, %xmm13, %xmm13              # xmm13 = zero,zero,xmm13[0,1,2,3,4,5,6,7,8,9,10,11,12,13]
	vpxor	%xmm5, %xmm13, %xmm5
	vpslldq	$2, %xmm0, %xmm13               # xmm13 = zero,zero,xmm0[0,1,2,3,4,5,6,7,8,9,10,11,12,13]
	vpxor	%xmm4, %xmm12, %xmm4
	vpslldq	$2, %xmm12, %xmm12              # xmm12 = zero,zero,xmm12[0,1,2,3,4,5,6,7,8,9,10,11,12,13]
	vpxor	%xmm4, %xmm12, %xmm4
	vpslldq	$2, %xmm10, %xmm12              # xmm12 = zero,zero,xmm10[0,1,2,3,4,5,6,7,8,9,10,11,12,13]
	vpxor	%xmm3, %xmm10, %xmm3
	vpslldq	$2, %xmm9, %xmm10               # xmm10 = zero,zero,xmm9[0,1,2,3,4,5,6,7,8,9,10,11,12,13]
	vpxor	%xmm3, %xmm12, %xmm3
	vpxor	%xmm0, %xmm6, %xmm0
	vpxor	%xmm0, %xmm13, %xmm0
	vpxor	%xmm2, %xmm14, %xmm2
	vpxor	%xmm2, %xmm11, %xmm2
	vpxor	%xmm1, %xmm9, %xmm1
	vpxor	%xmm1, %xmm10, %xmm1
	vpsrlw	$8, %xmm2, %xmm6
	vpxor	%xmm2, %xmm6, %xmm6
	vpbroadcastq	.Laes_v3_CPI52_3(%rip), %xmm12 # xmm12 = [0,0,0,0,255,0,255,0,0,0,0,0,255,0,255,0]
	vpand	%xmm6, %xmm12, %xmm6
	vmovdqa	%xmm6, (%rsp)                   # 16-byte Spill
	vpsrlw	$8, %xmm0, %xmm6
	vpxor	%xmm0, %xmm6, %xmm6
	vpand	%xmm6, %xmm12, %xmm10
	vpsrlw	$8, %xmm3, %xmm6
	vpxor	%xmm3, %xmm6, %xmm6
	vpand	%xmm6, %xmm12, %xmm11
	vpsrlw	$8, %xmm4, %xmm6
	vpxor	%xmm4, %xmm6, %xmm6
	vpand	%xmm6, %xmm12, %xmm13
	vpsrlw	$8, %xmm5, %xmm6
	vpxor	%xmm5, %xmm6, %xmm6
	vpand	%xmm6, %xmm12, %xmm14
	vpsrlw	$8, %xmm8, %xmm6
	vpxor	%xmm6, %xmm8, %xmm6
	vpand	%xmm6, %xmm12, %xmm15
	vpsrlw	$8, %xmm7, %xmm6
	vpxor	%xmm7, %xmm6, %xmm6
	vpand	%xmm6, %xmm12, %xmm6
	vpsrlw	$8, %xmm1, %xmm9
	vpxor	%xmm1, %xmm9, %xmm9
	vpand	%xmm12, %xmm9, %xmm9
	vpxor	%xmm6, %xmm7, %xmm7
	vpslldq	$1, %xmm6, %xmm6                # xmm6 = zero,xmm6[0,1,2,3,4,5,6,7,8,9,10,11,12,13,14]
	vpxor	%xmm6, %xmm7, %xmm6
	vpxor	%xmm15, %xmm8, %xmm7
	vpslldq	$1, %xmm15, %xmm8               # xmm8 = zero,xmm15[0,1,2,3,4,5,6,7,8,9,10,11,12,13,14]
	vpxor	%xmm7, %xmm8, %xmm8
	vmovdqa	(%rsp), %xmm15                  # 16-byte Reload
	vpslldq	$1, %xmm15, %xmm7               # xmm7 = zero,xmm15[0,1,2,3,4,5,6,7,8,9,10,11,12,13,14]
	vpxor	%xmm5, %xmm14, %xmm5
	vpslldq	$1, %xmm14, %xmm12              # xmm12 = zero,xmm14[0,1,2,3,4,5,6,7,8,9,10,11,12,13,14]
	vpxor	%xmm5, %xmm12, %xmm5
	vpslldq	$1, %xmm10, %xmm12              # xmm12 = zero,xmm10[0,1,2,3,4,5,6,7,8,9,10,11,12,13,14]
	vpxor	%xmm4, %xmm13, %xmm4
	vpslldq	$1, %xmm13, %xmm13              # xmm13 = zero,xmm13[0,1,2,3,4,5,6,7,8,9,10,11,12,13,14]
	vpxor	%xmm4, %xmm13, %xmm4
	vpslldq	$1, %xmm11, %xmm13              # xmm13 = zero,xmm11[0,1,2,3,4,5,6,7,8,9,10,11,12,13,14]
	vpxor	%xmm3, %xmm11, %xmm3
	vpslldq	$1, %xmm9, %xmm11               # xmm11 = zero,xmm9[0,1,2,3,4,5,6,7,8,9,10,11,12,13,14]
	vpxor	%xmm3, %xmm13, %xmm3
	vpxor	%xmm0, %xmm10, %xmm0
	vpxor	%xmm0, %xmm12, %xmm0
	vpxor	%xmm2, %xmm15, %xmm2
	vpxor	%xmm7, %xmm2, %xmm7
	vpxor	%xmm1, %xmm9, %xmm1
	vpxor	%xmm1, %xmm11, %xmm11
	vpshufd	$57, %xmm7, %xmm12              # xmm12 = xmm7[1,2,3,0]
	vpshufd	$57, %xmm0, %xmm9               # xmm9 = xmm0[1,2,3,0]
	vpshufd	$57, %xmm3, %xmm13              # xmm13 = xmm3[1,2,3,0]
	vpshufd	$57, %xmm5, %xmm14              # xmm14 = xmm5[1,2,3,0]
	vpshufd	$57, %xmm8, %xmm2               # xmm2 = xmm8[1,2,3,0]
	vpshufd	$57, %xmm11, %xmm1              # xmm1 = xmm11[1,2,3,0]
	vpxor	%xmm7, %xmm12, %xmm10
	vpxor	%xmm0, %xmm9, %xmm15
	vpxor	%xmm3, %xmm13, %xmm0
	vpxor	%xmm5, %xmm14, %xmm7
	vpxor	%xmm1, %xmm11, %xmm3
	vpshufd	$78, %xmm10, %xmm5              # xmm5 = xmm10[2,3,0,1]
	vpxor	%xmm5, %xmm12, %xmm12
	vpshufd	$78, %xmm0, %xmm5               # xmm5 = xmm0[2,3,0,1]
	vpxor	%xmm15, %xmm13, %xmm11
	vpxor	%xmm5, %xmm11, %xmm5
	vpshufd	$78, %xmm7, %xmm11              # xmm11 = xmm7[2,3,0,1]
	vpxor	%xmm3, %xmm14, %xmm13
	vpxor	%xmm11, %xmm13, %xmm13
	vpshufd	$57, %xmm6, %xmm14              # xmm14 = xmm6[1,2,3,0]
	vpxor	%xmm2, %xmm8, %xmm11
	vpxor	%xmm6, %xmm14, %xmm8
	vpxor	%xmm11, %xmm14, %xmm6
	vpshufd	$78, %xmm8, %xmm14              # xmm14 = xmm8[2,3,0,1]
	vpxor	%xmm6, %xmm14, %xmm6
	vpshufd	$78, %xmm15, %xmm14             # xmm14 = xmm15[2,3,0,1]
	vpxor	%xmm3, %xmm12, %xmm12
	vpxor	%xmm9, %xmm14, %xmm9
	vpsrlw	$1, %xmm12, %xmm14
	vpxor	%xmm10, %xmm9, %xmm9
	vpbroadcastd	.Laes_v3_CPI52_10(%rip), %xmm10 # xmm10 = [127,127,127,127,127,127,127,127,127,127,127,127,127,127,127,127]
	vpand	%xmm10, %xmm14, %xmm14
	vpxor	%xmm3, %xmm9, %xmm9
	vpxor	%xmm14, %xmm9, %xmm9
	vpaddb	%xmm9, %xmm9, %xmm9
	vpbroadcastd	.Laes_v3_CPI52_11(%rip), %xmm14 # xmm14 = [170,170,170,170,170,170,170,170,170,170,170,170,170,170,170,170]
	vpand	%xmm14, %xmm9, %xmm9
	vpxor	%xmm12, %xmm9, %xmm9
	vpshufd	$57, %xmm4, %xmm12              # xmm12 = xmm4[1,2,3,0]
	vpxor	%xmm4, %xmm12, %xmm4
	vpxor	%xmm4, %xmm13, %xmm13
	vpshufd	$78, %xmm4, %xmm4               # xmm4 = xmm4[2,3,0,1]
	vpxor	%xmm3, %xmm4, %xmm4
	vpxor	%xmm0, %xmm4, %xmm0
	vpsrlw	$1, %xmm5, %xmm4
	vpand	%xmm4, %xmm10, %xmm4
	vpxor	%xmm4, %xmm0, %xmm0
	vpxor	%xmm0, %xmm12, %xmm0
	vpshufd	$78, %xmm11, %xmm4              # xmm4 = xmm11[2,3,0,1]
	vpxor	%xmm2, %xmm4, %xmm2
	vpxor	%xmm7, %xmm2, %xmm2
	vpsrlw	$1, %xmm13, %xmm4
	vpand	%xmm4, %xmm10, %xmm4
	vpxor	%xmm4, %xmm2, %xmm2
	vpaddb	%xmm2, %xmm2, %xmm2
	vpand	%xmm2, %xmm14, %xmm2
	vpxor	%xmm2, %xmm13, %xmm2
	vpsrlw	$1, %xmm6, %xmm4
	vpand	%xmm4, %xmm10, %xmm4
	vpshufd	$78, %xmm3, %xmm3               # xmm3 = xmm3[2,3,0,1]
	vpxor	%xmm1, %xmm3, %xmm1
	vpxor	%xmm1, %xmm8, %xmm1
	vpaddb	%xmm0, %xmm0, %xmm0
	vpxor	%xmm4, %xmm1, %xmm1
	vpbroadcastd	.Laes_v3_CPI52_12(%rip), %xmm3 # xmm3 = [34,34,34,34,34,34,34,34,34,34,34,34,34,34,34,34]
	vpand	%xmm3, %xmm0, %xmm0
	vpxor	%xmm5, %xmm0, %xmm0
	vpsrlw	$2, %xmm9, %xmm4
	vpxor	%xmm4, %xmm0, %xmm0
	vpaddb	%xmm1, %xmm1, %xmm1
	vpsllw	$2, %xmm0, %xmm0
	vpand	.Laes_v3_CPI52_7(%rip), %xmm0, %xmm0
	vpand	%xmm3, %xmm1, %xmm1
	vpxor	%xmm0, %xmm9, %xmm0
	vpxor	%xmm6, %xmm1, %xmm1
	vpsrlw	$2, %xmm2, %xmm3
	vpxor	%xmm3, %xmm1, %xmm1
	vpsllw	$2, %xmm1, %xmm1
	vpand	.Laes_v3_CPI52_8(%rip), %xmm1, %xmm1
	vpxor	%xmm2, %xmm1, %xmm1
	vpsrlw	$4, %xmm0, %xmm2
	vpxor	%xmm2, %xmm1, %xmm1
	vpsllw	$4, %xmm1, %xmm1
	vpand	.Laes_v3_CPI52_9(%rip), %xmm1, %xmm1
	vpxor	%xmm0, %xmm1, %xmm0
	vpshufb	.Laes_v3_CPI52_0(%rip), %xmm0, %xmm0   # xmm0 = xmm0[0,4,8,12,1,5,9,13,2,6,10,14,3,7,11,15]
	vpxor	(%rsi), %xmm0, %xmm0
	vmovdqu	%xmm0, (%rdi)
	addq	$232, %rsp
	retq
	.seh_endproc
                                        # -- End function
	.def	aes_v3.aes_c.single_rounds.rounds;
	.scl	3;
	.type	32;
	.endef
	.section	.rdata,"dr"
	.p2align	5, 0x0                          # -- Begin function aes_c::single_rounds::rounds
.Laes_v3_CPI53_0:
	.byte	0                               # 0x0
	.byte	4                               # 0x4
	.byte	8                               # 0x8
	.byte	12                              # 0xc
	.byte	1                               # 0x1
	.byte	5                               # 0x5
	.byte	9                               # 0x9
	.byte	13                              # 0xd
	.byte	2                               # 0x2
	.byte	6                               # 0x6
	.byte	10                              # 0xa
	.byte	14                              # 0xe
	.byte	3                               # 0x3
	.byte	7                               # 0x7
	.byte	11                              # 0xb
	.byte	15                              # 0xf
	.byte	0                               # 0x0
	.byte	4                               # 0x4
	.byte	8                               # 0x8
	.byte	12                              # 0xc
	.byte	1                               # 0x1
	.byte	5                               # 0x5
	.byte	9                               # 0x9
	.byte	13                              # 0xd
	.byte	2                               # 0x2
	.byte	6                               # 0x6
	.byte	10                              # 0xa
	.byte	14                              # 0xe
	.byte	3                               # 0x3
	.byte	7                               # 0x7
	.byte	11                              # 0xb
	.byte	15                              # 0xf
.Laes_v3_CPI53_1:
	.zero	16,85
.Laes_v3_CPI53_2:
	.zero	16,51
.Laes_v3_CPI53_3:
	.zero	16,15
.Laes_v3_CPI53_4:
	.byte	0                               # 0x0
	.byte	0                               # 0x0
	.byte	0                               # 0x0
	.byte	0                               # 0x0
	.byte	255                             # 0xff
	.byte	0                               # 0x0
	.byte	0                               # 0x0
	.byte	0                               # 0x0
	.byte	255                             # 0xff
	.byte	255                             # 0xff
	.byte	0                               # 0x0
	.byte	0                               # 0x0
	.byte	0                               # 0x0
	.byte	255                             # 0xff
	.byte	0                               # 0x0
	.byte	0                               # 0x0
.Laes_v3_CPI53_5:
	.byte	0                               # 0x0
	.byte	0                               # 0x0
	.byte	0                               # 0x0
	.byte	0                               # 0x0
	.byte	255                             # 0xff
	.byte	0                               # 0x0
	.byte	255                             # 0xff
	.byte	0                               # 0x0
	.zero	8
.Laes_v3_CPI53_6:
	.byte	0                               # 0x0
	.byte	4                               # 0x4
	.byte	8                               # 0x8
	.byte	12                              # 0xc
	.byte	1                               # 0x1
	.byte	5                               # 0x5
	.byte	9                               # 0x9
	.byte	13                              # 0xd
	.byte	2                               # 0x2
	.byte	6                               # 0x6
	.byte	10                              # 0xa
	.byte	14                              # 0xe
	.byte	3                               # 0x3
	.byte	7                               # 0x7
	.byte	11                              # 0xb
	.byte	15                              # 0xf
.Laes_v3_CPI53_7:
	.zero	4,85
.Laes_v3_CPI53_8:
	.zero	4,51
.Laes_v3_CPI53_9:
	.zero	4,15
	.text
	.p2align	4
aes_v3.aes_c.single_rounds.rounds:         # @aes_v3.aes_c.single_rounds.rounds
.seh_proc aes_v3.aes_c.single_rounds.rounds
# %bb.0:                                # %start
	subq	$200, %rsp
	.seh_stackalloc 200
	.seh_endprologue
	vmovdqu	(%rdi), %xmm0
	vmovdqu	16(%rdi), %xmm1
	vmovdqu	32(%rdi), %xmm2
	vmovdqu	48(%rdi), %xmm3
	vmovdqu	64(%rdi), %xmm4
	vmovdqu	80(%rdi), %xmm5
	vmovdqu	96(%rdi), %xmm6
	vmovdqu	112(%rdi), %xmm7
	vbroadcasti128	.Laes_v3_CPI53_6(%rip), %ymm9  # ymm9 = [0,4,8,12,1,5,9,13,2,6,10,14,3,7,11,15,0,4,8,12,1,5,9,13,2,6,10,14,3,7,11,15]
                                        # ymm9 = mem[0,1,0,1]
	vpshufb	%xmm9, %xmm0, %xmm8
	vpshufb	%xmm9, %xmm1, %xmm0
	vpshufb	%xmm9, %xmm2, %xmm1
	vpshufb	%xmm9, %xmm3, %xmm2
	vpshufb	%xmm9, %xmm4, %xmm3
	vpshufb	%xmm9, %xmm5, %xmm4
	vpshufb	%xmm9, %xmm6, %xmm5
	vpshufb	%xmm9, %xmm7, %xmm6
	vpsrlw	$1, %xmm8, %xmm7
	vpxor	%xmm7, %xmm0, %xmm7
	vpbroadcastd	.Laes_v3_CPI53_7(%rip), %xmm10 # xmm10 = [85,85,85,85,85,85,85,85,85,85,85,85,85,85,85,85]
	vpand	%xmm7, %xmm10, %xmm7
	vpxor	%xmm0, %xmm7, %xmm0
	vpaddb	%xmm7, %xmm7, %xmm7
	vpxor	%xmm7, %xmm8, %xmm7
	vpsrlw	$1, %xmm1, %xmm8
	vpxor	%xmm2, %xmm8, %xmm8
	vpand	%xmm10, %xmm8, %xmm8
	vpxor	%xmm2, %xmm8, %xmm2
	vpaddb	%xmm8, %xmm8, %xmm8
	vpxor	%xmm1, %xmm8, %xmm8
	vpsrlw	$1, %xmm3, %xmm1
	vpxor	%xmm1, %xmm4, %xmm1
	vpand	%xmm1, %xmm10, %xmm9
	vpxor	%xmm4, %xmm9, %xmm1
	vpaddb	%xmm9, %xmm9, %xmm4
	vpxor	%xmm3, %xmm4, %xmm4
	vpsrlw	$1, %xmm5, %xmm3
	vpxor	%xmm3, %xmm6, %xmm3
	vpand	%xmm3, %xmm10, %xmm3
	vpxor	%xmm6, %xmm3, %xmm6
	vpaddb	%xmm3, %xmm3, %xmm3
	vpxor	%xmm5, %xmm3, %xmm5
	vpsrlw	$2, %xmm7, %xmm3
	vpxor	%xmm3, %xmm8, %xmm3
	vpbroadcastd	.Laes_v3_CPI53_8(%rip), %xmm10 # xmm10 = [51,51,51,51,51,51,51,51,51,51,51,51,51,51,51,51]
	vpand	%xmm3, %xmm10, %xmm9
	vpxor	%xmm8, %xmm9, %xmm3
	vpsllw	$2, %xmm9, %xmm8
	vpxor	%xmm7, %xmm8, %xmm7
	vpsrlw	$2, %xmm4, %xmm8
	vpxor	%xmm5, %xmm8, %xmm8
	vpand	%xmm10, %xmm8, %xmm8
	vpxor	%xmm5, %xmm8, %xmm9
	vpsllw	$2, %xmm8, %xmm5
	vpxor	%xmm4, %xmm5, %xmm5
	vpsrlw	$2, %xmm0, %xmm4
	vpxor	%xmm4, %xmm2, %xmm4
	vpand	%xmm4, %xmm10, %xmm8
	vpxor	%xmm2, %xmm8, %xmm4
	vpsllw	$2, %xmm8, %xmm2
	vpxor	%xmm0, %xmm2, %xmm0
	vpsrlw	$2, %xmm1, %xmm2
	vpxor	%xmm2, %xmm6, %xmm2
	vpand	%xmm2, %xmm10, %xmm2
	vpxor	%xmm6, %xmm2, %xmm6
	vpsllw	$2, %xmm2, %xmm2
	vpxor	%xmm1, %xmm2, %xmm1
	vpsrlw	$4, %xmm7, %xmm2
	vpbroadcastd	.Laes_v3_CPI53_9(%rip), %xmm13 # xmm13 = [15,15,15,15,15,15,15,15,15,15,15,15,15,15,15,15]
	vpxor	%xmm2, %xmm5, %xmm2
	vpand	%xmm2, %xmm13, %xmm8
	vpxor	%xmm5, %xmm8, %xmm11
	vpsllw	$4, %xmm8, %xmm5
	vpxor	%xmm7, %xmm5, %xmm15
	vpsrlw	$4, %xmm0, %xmm7
	vpxor	%xmm7, %xmm1, %xmm7
	vpand	%xmm7, %xmm13, %xmm7
	vpxor	%xmm1, %xmm7, %xmm8
	vpsllw	$4, %xmm7, %xmm1
	vpxor	%xmm0, %xmm1, %xmm14
	vpsrlw	$4, %xmm3, %xmm0
	vpxor	%xmm0, %xmm9, %xmm0
	vpand	%xmm0, %xmm13, %xmm0
	vpxor	%xmm0, %xmm9, %xmm7
	vpsllw	$4, %xmm0, %xmm0
	vpxor	%xmm3, %xmm0, %xmm10
	vpsrlw	$4, %xmm4, %xmm0
	vpxor	%xmm0, %xmm6, %xmm0
	vpand	%xmm0, %xmm13, %xmm3
	vpxor	%xmm6, %xmm3, %xmm5
	vpsllw	$4, %xmm3, %xmm3
	vpxor	%xmm4, %xmm3, %xmm4
	vpxor	%xmm7, %xmm8, %xmm3
	vpxor	%xmm5, %xmm11, %xmm1
	vpxor	%xmm5, %xmm14, %xmm0
	vmovdqa	%xmm0, 16(%rsp)                 # 16-byte Spill
	vpxor	%xmm10, %xmm11, %xmm8
	vpxor	%xmm0, %xmm8, %xmm6
	vmovdqa	%xmm8, 128(%rsp)                # 16-byte Spill
	vpxor	%xmm6, %xmm4, %xmm4
	vmovdqa	%xmm6, 112(%rsp)                # 16-byte Spill
	vpxor	%xmm7, %xmm4, %xmm9
	vpxor	%xmm4, %xmm10, %xmm12
	vpxor	%xmm5, %xmm10, %xmm0
	vmovdqa	%xmm0, (%rsp)                   # 16-byte Spill
	vmovdqa	%xmm1, 160(%rsp)                # 16-byte Spill
	vpxor	%xmm1, %xmm9, %xmm13
	vpand	%xmm1, %xmm13, %xmm4
	vpxor	%xmm3, %xmm12, %xmm1
	vpxor	%xmm1, %xmm13, %xmm7
	vmovdqa	%xmm7, 144(%rsp)                # 16-byte Spill
	vpand	%xmm7, %xmm8, %xmm8
	vpxor	%xmm4, %xmm8, %xmm8
	vpand	%xmm0, %xmm1, %xmm10
	vmovdqa	%xmm1, 176(%rsp)                # 16-byte Spill
	vpxor	%xmm4, %xmm10, %xmm7
	vmovdqa	%xmm15, %xmm10
	vpxor	%xmm3, %xmm15, %xmm15
	vpxor	%xmm11, %xmm15, %xmm2
	vmovdqa	%xmm2, 32(%rsp)                 # 16-byte Spill
	vpand	%xmm2, %xmm10, %xmm4
	vmovdqa	%xmm10, %xmm2
	vpxor	%xmm0, %xmm4, %xmm4
	vpxor	%xmm1, %xmm4, %xmm4
	vmovdqa	%xmm12, 96(%rsp)                # 16-byte Spill
	vpand	%xmm6, %xmm12, %xmm10
	vpxor	%xmm4, %xmm10, %xmm11
	vpxor	%xmm10, %xmm9, %xmm1
	vpxor	%xmm14, %xmm15, %xmm4
	vmovdqa	%xmm2, %xmm10
	vpxor	%xmm2, %xmm12, %xmm6
	vpxor	%xmm0, %xmm4, %xmm0
	vmovdqa	%xmm0, 80(%rsp)                 # 16-byte Spill
	vpand	%xmm0, %xmm6, %xmm14
	vpxor	%xmm1, %xmm14, %xmm14
	vpxor	%xmm3, %xmm13, %xmm1
	vpxor	%xmm8, %xmm14, %xmm14
	vpand	%xmm4, %xmm15, %xmm3
	vpxor	%xmm3, %xmm1, %xmm3
	vmovdqa	16(%rsp), %xmm9                 # 16-byte Reload
	vpand	%xmm1, %xmm9, %xmm0
	vpxor	%xmm0, %xmm3, %xmm3
	vpxor	%xmm3, %xmm9, %xmm3
	vpxor	%xmm3, %xmm8, %xmm2
	vpxor	%xmm5, %xmm0, %xmm0
	vpxor	%xmm5, %xmm15, %xmm5
	vmovdqa	%xmm5, 48(%rsp)                 # 16-byte Spill
	vpxor	%xmm10, %xmm13, %xmm3
	vmovdqa	%xmm3, 64(%rsp)                 # 16-byte Spill
	vmovdqa	%xmm10, %xmm12
	vpand	%xmm5, %xmm3, %xmm5
	vpxor	%xmm5, %xmm1, %xmm5
	vpxor	%xmm0, %xmm5, %xmm0
	vpxor	%xmm7, %xmm11, %xmm5
	vpxor	%xmm7, %xmm0, %xmm7
	vpand	%xmm2, %xmm14, %xmm11
	vpxor	%xmm5, %xmm11, %xmm0
	vpxor	%xmm2, %xmm7, %xmm10
	vpand	%xmm0, %xmm10, %xmm10
	vpxor	%xmm5, %xmm14, %xmm14
	vpxor	%xmm7, %xmm11, %xmm0
	vpand	%xmm0, %xmm14, %xmm8
	vpxor	%xmm5, %xmm8, %xmm5
	vpxor	%xmm11, %xmm10, %xmm8
	vpxor	%xmm7, %xmm10, %xmm10
	vpand	%xmm7, %xmm8, %xmm7
	vpxor	%xmm0, %xmm7, %xmm0
	vpand	%xmm5, %xmm0, %xmm0
	vpxor	%xmm0, %xmm14, %xmm0
	vpxor	%xmm2, %xmm7, %xmm2
	vpxor	%xmm5, %xmm0, %xmm7
	vpand	%xmm1, %xmm7, %xmm1
	vpand	%xmm7, %xmm9, %xmm3
	vmovdqa	%xmm3, 16(%rsp)                 # 16-byte Spill
	vpand	%xmm0, %xmm15, %xmm7
	vpand	%xmm4, %xmm0, %xmm8
	vpxor	%xmm2, %xmm10, %xmm4
	vpxor	%xmm4, %xmm0, %xmm15
	vpand	%xmm6, %xmm4, %xmm3
	vpand	80(%rsp), %xmm4, %xmm11         # 16-byte Folded Reload
	vpand	32(%rsp), %xmm10, %xmm0         # 16-byte Folded Reload
	vmovdqa	%xmm0, 32(%rsp)                 # 16-byte Spill
	vpand	%xmm12, %xmm10, %xmm12
	vpxor	%xmm5, %xmm10, %xmm10
	vpand	%xmm13, %xmm10, %xmm9
	vpand	160(%rsp), %xmm10, %xmm6        # 16-byte Folded Reload
	vpxor	%xmm10, %xmm15, %xmm10
	vpand	128(%rsp), %xmm10, %xmm14       # 16-byte Folded Reload
	vpand	144(%rsp), %xmm10, %xmm10       # 16-byte Folded Reload
	vpand	48(%rsp), %xmm5, %xmm4          # 16-byte Folded Reload
	vpand	64(%rsp), %xmm5, %xmm5          # 16-byte Folded Reload
	vpand	96(%rsp), %xmm2, %xmm0          # 16-byte Folded Reload
	vpand	112(%rsp), %xmm2, %xmm2         # 16-byte Folded Reload
	vpxor	%xmm0, %xmm3, %xmm3
	vpxor	%xmm0, %xmm12, %xmm0
	vpxor	%xmm7, %xmm1, %xmm7
	vpxor	%xmm5, %xmm0, %xmm5
	vpxor	%xmm1, %xmm5, %xmm1
	vpxor	%xmm6, %xmm14, %xmm5
	vpxor	%xmm5, %xmm11, %xmm11
	vpxor	%xmm1, %xmm8, %xmm8
	vpxor	%xmm5, %xmm8, %xmm8
	vpxor	%xmm7, %xmm10, %xmm5
	vpxor	%xmm7, %xmm3, %xmm3
	vpand	176(%rsp), %xmm15, %xmm7        # 16-byte Folded Reload
	vpxor	%xmm0, %xmm7, %xmm0
	vmovdqa	16(%rsp), %xmm13                # 16-byte Reload
	vpxor	%xmm0, %xmm13, %xmm0
	vpxor	%xmm5, %xmm0, %xmm7
	vpxor	%xmm5, %xmm9, %xmm9
	vpxor	%xmm2, %xmm11, %xmm0
	vpxor	32(%rsp), %xmm11, %xmm10        # 16-byte Folded Reload
	vpxor	%xmm4, %xmm7, %xmm11
	vpxor	%xmm0, %xmm3, %xmm5
	vpxor	%xmm1, %xmm5, %xmm2
	vpand	(%rsp), %xmm15, %xmm12          # 16-byte Folded Reload
	vpxor	%xmm11, %xmm10, %xmm1
	vpxor	%xmm0, %xmm9, %xmm4
	vpcmpeqd	%xmm10, %xmm10, %xmm10
	vpxor	%xmm10, %xmm13, %xmm0
	vpxor	%xmm0, %xmm8, %xmm0
	vpxor	%xmm7, %xmm8, %xmm3
	vpxor	%xmm3, %xmm10, %xmm3
	vpxor	%xmm6, %xmm12, %xmm6
	vpxor	%xmm6, %xmm9, %xmm6
	vpxor	%xmm6, %xmm11, %xmm6
	vpxor	%xmm6, %xmm10, %xmm7
	vpxor	%xmm10, %xmm9, %xmm6
	vpxor	%xmm5, %xmm6, %xmm6
	vpsrld	$16, %xmm0, %xmm8
	vpxor	%xmm0, %xmm8, %xmm8
	vmovdqa	.Laes_v3_CPI53_4(%rip), %xmm9          # xmm9 = [0,0,0,0,255,0,0,0,255,255,0,0,0,255,0,0]
	vpand	%xmm9, %xmm8, %xmm8
	vmovdqa	%xmm8, (%rsp)                   # 16-byte Spill
	vpsrld	$16, %xmm3, %xmm8
	vpxor	%xmm3, %xmm8, %xmm8
	vpand	%xmm9, %xmm8, %xmm12
	vpsrld	$16, %xmm1, %xmm8
	vpxor	%xmm1, %xmm8, %xmm8
	vpand	%xmm9, %xmm8, %xmm10
	vpsrld	$16, %xmm2, %xmm8
	vpxor	%xmm2, %xmm8, %xmm8
	vpand	%xmm9, %xmm8, %xmm13
	vpsrld	$16, %xmm5, %xmm8
	vpxor	%xmm5, %xmm8, %xmm8
	vpand	%xmm9, %xmm8, %xmm8
	vpsrld	$16, %xmm7, %xmm14
	vpxor	%xmm7, %xmm14, %xmm14
	vpand	%xmm9, %xmm14, %xmm14
	vpsrld	$16, %xmm6, %xmm15
	vpxor	%xmm6, %xmm15, %xmm15
	vpand	%xmm9, %xmm15, %xmm15
	vpsrld	$16, %xmm4, %xmm11
	vpxor	%xmm4, %xmm11, %xmm11
	vpand	%xmm9, %xmm11, %xmm11
	vpxor	%xmm6, %xmm15, %xmm6
	vpslldq	$2, %xmm15, %xmm9               # xmm9 = zero,zero,xmm15[0,1,2,3,4,5,6,7,8,9,10,11,12,13]
	vpxor	%xmm6, %xmm9, %xmm6
	vpxor	%xmm7, %xmm14, %xmm7
	vpslldq	$2, %xmm14, %xmm9               # xmm9 = zero,zero,xmm14[0,1,2,3,4,5,6,7,8,9,10,11,12,13]
	vpxor	%xmm7, %xmm9, %xmm7
	vpxor	%xmm5, %xmm8, %xmm5
	vpslldq	$2, %xmm8, %xmm8                # xmm8 = zero,zero,xmm8[0,1,2,3,4,5,6,7,8,9,10,11,12,13]
	vpxor	%xmm5, %xmm8, %xmm8
	vpxor	%xmm2, %xmm13, %xmm2
	vpslldq	$2, %xmm13, %xmm5               # xmm5 = zero,zero,xmm13[0,1,2,3,4,5,6,7,8,9,10,11,12,13]
	vpxor	%xmm5, %xmm2, %xmm9
	vpxor	%xmm1, %xmm10, %xmm1
	vpslldq	$2, %xmm10, %xmm2               # xmm2 = zero,zero,xmm10[0,1,2,3,4,5,6,7,8,9,10,11,12,13]
	vpxor	%xmm2, %xmm1, %xmm10
	vmovdqa	(%rsp), %xmm5                   # 16-byte Reload
	vpslldq	$2, %xmm5, %xmm1                # xmm1 = zero,zero,xmm5[0,1,2,3,4,5,6,7,8,9,10,11,12,13]
	vpxor	%xmm3, %xmm12, %xmm2
	vpslldq	$2, %xmm12, %xmm3               # xmm3 = zero,zero,xmm12[0,1,2,3,4,5,6,7,8,9,10,11,12,13]
	vpxor	%xmm2, %xmm3, %xmm3
	vpslldq	$2, %xmm11, %xmm2               # xmm2 = zero,zero,xmm11[0,1,2,3,4,5,6,7,8,9,10,11,12,13]
	vpxor	%xmm5, %xmm0, %xmm0
	vpxor	%xmm0, %xmm1, %xmm0
	vpxor	%xmm4, %xmm11, %xmm1
	vpxor	%xmm2, %xmm1, %xmm1
	vpsrlw	$8, %xmm0, %xmm2
	vpxor	%xmm0, %xmm2, %xmm2
	vpbroadcastq	.Laes_v3_CPI53_5(%rip), %xmm4  # xmm4 = [0,0,0,0,255,0,255,0,0,0,0,0,255,0,255,0]
	vpand	%xmm4, %xmm2, %xmm2
	vmovdqa	%xmm2, (%rsp)                   # 16-byte Spill
	vpsrlw	$8, %xmm3, %xmm2
	vpxor	%xmm3, %xmm2, %xmm2
	vpand	%xmm4, %xmm2, %xmm12
	vpsrlw	$8, %xmm10, %xmm2
	vpxor	%xmm2, %xmm10, %xmm2
	vpand	%xmm4, %xmm2, %xmm13
	vpsrlw	$8, %xmm9, %xmm2
	vpxor	%xmm2, %xmm9, %xmm2
	vpand	%xmm4, %xmm2, %xmm14
	vpsrlw	$8, %xmm8, %xmm2
	vpxor	%xmm2, %xmm8, %xmm2
	vpand	%xmm4, %xmm2, %xmm2
	vpsrlw	$8, %xmm7, %xmm5
	vpxor	%xmm7, %xmm5, %xmm5
	vpand	%xmm4, %xmm5, %xmm5
	vpsrlw	$8, %xmm6, %xmm15
	vpxor	%xmm6, %xmm15, %xmm15
	vpand	%xmm4, %xmm15, %xmm15
	vpsrlw	$8, %xmm1, %xmm11
	vpxor	%xmm1, %xmm11, %xmm11
	vpand	%xmm4, %xmm11, %xmm11
	vpxor	%xmm6, %xmm15, %xmm4
	vpslldq	$1, %xmm15, %xmm6               # xmm6 = zero,xmm15[0,1,2,3,4,5,6,7,8,9,10,11,12,13,14]
	vpxor	%xmm6, %xmm4, %xmm4
	vpxor	%xmm5, %xmm7, %xmm6
	vpslldq	$1, %xmm5, %xmm5                # xmm5 = zero,xmm5[0,1,2,3,4,5,6,7,8,9,10,11,12,13,14]
	vpxor	%xmm5, %xmm6, %xmm5
	vpxor	%xmm2, %xmm8, %xmm6
	vpslldq	$1, %xmm2, %xmm2                # xmm2 = zero,xmm2[0,1,2,3,4,5,6,7,8,9,10,11,12,13,14]
	vpxor	%xmm2, %xmm6, %xmm2
	vpxor	%xmm14, %xmm9, %xmm6
	vpslldq	$1, %xmm14, %xmm7               # xmm7 = zero,xmm14[0,1,2,3,4,5,6,7,8,9,10,11,12,13,14]
	vpxor	%xmm7, %xmm6, %xmm6
	vpxor	%xmm13, %xmm10, %xmm7
	vpslldq	$1, %xmm13, %xmm8               # xmm8 = zero,xmm13[0,1,2,3,4,5,6,7,8,9,10,11,12,13,14]
	vpxor	%xmm7, %xmm8, %xmm7
	vmovdqa	(%rsp), %xmm10                  # 16-byte Reload
	vpslldq	$1, %xmm10, %xmm8               # xmm8 = zero,xmm10[0,1,2,3,4,5,6,7,8,9,10,11,12,13,14]
	vpxor	%xmm3, %xmm12, %xmm3
	vpslldq	$1, %xmm12, %xmm9               # xmm9 = zero,xmm12[0,1,2,3,4,5,6,7,8,9,10,11,12,13,14]
	vpxor	%xmm3, %xmm9, %xmm9
	vpslldq	$1, %xmm11, %xmm3               # xmm3 = zero,xmm11[0,1,2,3,4,5,6,7,8,9,10,11,12,13,14]
	vpxor	%xmm0, %xmm10, %xmm0
	vpxor	%xmm0, %xmm8, %xmm0
	vpxor	%xmm1, %xmm11, %xmm1
	vpxor	%xmm3, %xmm1, %xmm8
	vpshufd	$57, %xmm0, %xmm3               # xmm3 = xmm0[1,2,3,0]
	vpshufd	$57, %xmm9, %xmm10              # xmm10 = xmm9[1,2,3,0]
	vpshufd	$57, %xmm7, %xmm1               # xmm1 = xmm7[1,2,3,0]
	vpxor	%xmm0, %xmm3, %xmm11
	vpshufd	$78, %xmm11, %xmm0              # xmm0 = xmm11[2,3,0,1]
	vpxor	%xmm3, %xmm0, %xmm3
	vpshufd	$57, %xmm8, %xmm0               # xmm0 = xmm8[1,2,3,0]
	vpxor	%xmm9, %xmm10, %xmm12
	vpxor	%xmm0, %xmm8, %xmm9
	vpxor	%xmm11, %xmm10, %xmm8
	vpshufd	$78, %xmm12, %xmm10             # xmm10 = xmm12[2,3,0,1]
	vpxor	%xmm9, %xmm8, %xmm8
	vpxor	%xmm10, %xmm8, %xmm8
	vpshufd	$57, %xmm6, %xmm10              # xmm10 = xmm6[1,2,3,0]
	vpxor	%xmm7, %xmm1, %xmm7
	vpxor	%xmm1, %xmm12, %xmm1
	vpshufd	$78, %xmm7, %xmm11              # xmm11 = xmm7[2,3,0,1]
	vpxor	%xmm1, %xmm11, %xmm1
	vpshufd	$57, %xmm2, %xmm11              # xmm11 = xmm2[1,2,3,0]
	vpxor	%xmm6, %xmm10, %xmm6
	vpxor	%xmm2, %xmm11, %xmm2
	vpxor	%xmm7, %xmm10, %xmm7
	vpshufd	$78, %xmm6, %xmm10              # xmm10 = xmm6[2,3,0,1]
	vpxor	%xmm7, %xmm9, %xmm7
	vpxor	%xmm7, %xmm10, %xmm7
	vpshufd	$78, %xmm2, %xmm10              # xmm10 = xmm2[2,3,0,1]
	vpxor	%xmm9, %xmm11, %xmm11
	vpxor	%xmm10, %xmm11, %xmm10
	vpxor	%xmm6, %xmm10, %xmm6
	vpshufd	$57, %xmm5, %xmm10              # xmm10 = xmm5[1,2,3,0]
	vpxor	%xmm5, %xmm10, %xmm5
	vpxor	%xmm2, %xmm10, %xmm2
	vpshufd	$78, %xmm5, %xmm10              # xmm10 = xmm5[2,3,0,1]
	vpxor	%xmm2, %xmm10, %xmm2
	vpshufd	$57, %xmm4, %xmm10              # xmm10 = xmm4[1,2,3,0]
	vpxor	%xmm4, %xmm10, %xmm4
	vpxor	%xmm5, %xmm10, %xmm5
	vpshufd	$78, %xmm4, %xmm10              # xmm10 = xmm4[2,3,0,1]
	vpxor	%xmm5, %xmm10, %xmm5
	vpxor	%xmm3, %xmm9, %xmm3
	vpshufd	$78, %xmm9, %xmm9               # xmm9 = xmm9[2,3,0,1]
	vpxor	%xmm0, %xmm9, %xmm0
	vpxor	%xmm4, %xmm0, %xmm4
	vpsrlw	$1, %xmm3, %xmm0
	vpxor	%xmm0, %xmm8, %xmm0
	vpbroadcastd	.Laes_v3_CPI53_7(%rip), %xmm10 # xmm10 = [85,85,85,85,85,85,85,85,85,85,85,85,85,85,85,85]
	vpand	%xmm0, %xmm10, %xmm9
	vpxor	%xmm8, %xmm9, %xmm0
	vpaddb	%xmm9, %xmm9, %xmm8
	vpxor	%xmm3, %xmm8, %xmm3
	vpsrlw	$1, %xmm1, %xmm8
	vpxor	%xmm7, %xmm8, %xmm8
	vpand	%xmm10, %xmm8, %xmm8
	vpxor	%xmm7, %xmm8, %xmm7
	vpaddb	%xmm8, %xmm8, %xmm8
	vpxor	%xmm1, %xmm8, %xmm1
	vpsrlw	$1, %xmm6, %xmm8
	vpxor	%xmm2, %xmm8, %xmm8
	vpand	%xmm10, %xmm8, %xmm8
	vpxor	%xmm2, %xmm8, %xmm2
	vpaddb	%xmm8, %xmm8, %xmm8
	vpxor	%xmm6, %xmm8, %xmm6
	vpsrlw	$1, %xmm5, %xmm8
	vpxor	%xmm4, %xmm8, %xmm8
	vpand	%xmm10, %xmm8, %xmm8
	vpxor	%xmm4, %xmm8, %xmm4
	vpaddb	%xmm8, %xmm8, %xmm8
	vpxor	%xmm5, %xmm8, %xmm5
	vpsrlw	$2, %xmm3, %xmm8
	vpxor	%xmm1, %xmm8, %xmm8
	vpbroadcastd	.Laes_v3_CPI53_8(%rip), %xmm9  # xmm9 = [51,51,51,51,51,51,51,51,51,51,51,51,51,51,51,51]
	vpand	%xmm9, %xmm8, %xmm8
	vpxor	%xmm1, %xmm8, %xmm1
	vpsllw	$2, %xmm8, %xmm8
	vpxor	%xmm3, %xmm8, %xmm3
	vpsrlw	$2, %xmm6, %xmm8
	vpxor	%xmm5, %xmm8, %xmm8
	vpand	%xmm9, %xmm8, %xmm8
	vpxor	%xmm5, %xmm8, %xmm5
	vpsllw	$2, %xmm8, %xmm8
	vpxor	%xmm6, %xmm8, %xmm6
	vpsrlw	$2, %xmm0, %xmm8
	vpxor	%xmm7, %xmm8, %xmm8
	vpand	%xmm9, %xmm8, %xmm8
	vpxor	%xmm7, %xmm8, %xmm7
	vpsllw	$2, %xmm8, %xmm8
	vpxor	%xmm0, %xmm8, %xmm0
	vpsrlw	$2, %xmm2, %xmm8
	vpxor	%xmm4, %xmm8, %xmm8
	vpand	%xmm9, %xmm8, %xmm8
	vpxor	%xmm4, %xmm8, %xmm4
	vpsllw	$2, %xmm8, %xmm8
	vpxor	%xmm2, %xmm8, %xmm2
	vpsrlw	$4, %xmm3, %xmm8
	vpxor	%xmm6, %xmm8, %xmm8
	vpbroadcastd	.Laes_v3_CPI53_9(%rip), %xmm9  # xmm9 = [15,15,15,15,15,15,15,15,15,15,15,15,15,15,15,15]
	vpand	%xmm9, %xmm8, %xmm8
	vpxor	%xmm6, %xmm8, %xmm6
	vpsllw	$4, %xmm8, %xmm8
	vpxor	%xmm3, %xmm8, %xmm3
	vpsrlw	$4, %xmm0, %xmm8
	vpxor	%xmm2, %xmm8, %xmm8
	vpand	%xmm9, %xmm8, %xmm8
	vpxor	%xmm2, %xmm8, %xmm2
	vpsllw	$4, %xmm8, %xmm8
	vpxor	%xmm0, %xmm8, %xmm0
	vpsrlw	$4, %xmm1, %xmm8
	vpxor	%xmm5, %xmm8, %xmm8
	vpand	%xmm9, %xmm8, %xmm8
	vpxor	%xmm5, %xmm8, %xmm5
	vpsllw	$4, %xmm8, %xmm8
	vpxor	%xmm1, %xmm8, %xmm1
	vpsrlw	$4, %xmm7, %xmm8
	vpxor	%xmm4, %xmm8, %xmm8
	vpand	%xmm9, %xmm8, %xmm8
	vpxor	%xmm4, %xmm8, %xmm4
	vpsllw	$4, %xmm8, %xmm8
	vpxor	%xmm7, %xmm8, %xmm7
	vinserti128	$1, %xmm0, %ymm3, %ymm0
	vbroadcasti128	.Laes_v3_CPI53_6(%rip), %ymm3  # ymm3 = [0,4,8,12,1,5,9,13,2,6,10,14,3,7,11,15,0,4,8,12,1,5,9,13,2,6,10,14,3,7,11,15]
                                        # ymm3 = mem[0,1,0,1]
	vpshufb	%ymm3, %ymm0, %ymm0
	vmovdqu	%ymm0, (%rdi)
	vinserti128	$1, %xmm7, %ymm1, %ymm0
	vpshufb	%ymm3, %ymm0, %ymm0
	vmovdqu	%ymm0, 32(%rdi)
	vinserti128	$1, %xmm2, %ymm6, %ymm0
	vpshufb	%ymm3, %ymm0, %ymm0
	vmovdqu	%ymm0, 64(%rdi)
	vinserti128	$1, %xmm4, %ymm5, %ymm0
	vpshufb	%ymm3, %ymm0, %ymm0
	vmovdqu	%ymm0, 96(%rdi)
	vmovups	(%rsi), %xmm0
	vxorps	(%rdi), %xmm0, %xmm0
	vmovups	%xmm0, (%rdi)
	vmovups	16(%rsi), %xmm0
	vxorps	16(%rdi), %xmm0, %xmm0
	vmovups	%xmm0, 16(%rdi)
	vmovups	32(%rsi), %xmm0
	vxorps	32(%rdi), %xmm0, %xmm0
	vmovups	%xmm0, 32(%rdi)
	vmovups	48(%rsi), %xmm0
	vxorps	48(%rdi), %xmm0, %xmm0
	vmovups	%xmm0, 48(%rdi)
	vmovups	64(%rsi), %xmm0
	vxorps	64(%rdi), %xmm0, %xmm0
	vmovups	%xmm0, 64(%rdi)
	vmovups	80(%rsi), %xmm0
	vxorps	80(%rdi), %xmm0, %xmm0
	vmovups	%xmm0, 80(%rdi)
	vmovups	96(%rsi), %xmm0
	vxorps	96(%rdi), %xmm0, %xmm0
	vmovups	%xmm0, 96(%rdi)
	vmovups	112(%rsi), %xmm0
	vxorps	112(%rdi), %xmm0, %xmm0
	vmovups	%xmm0, 112(%rdi)
	addq	$200, %rsp
	vzeroupper
	retq
	.seh_endproc
                                        # -- End function
	.def	aes_v3.ccm.mode.decrypt;
	.scl	3;
	.type	32;
	.endef
	.p2align	4                               # -- Begin function ccm::mode::decrypt::<#cd78163963378b36>
aes_v3.ccm.mode.decrypt: # @aes_v3.ccm.mode.decrypt
.seh_proc aes_v3.ccm.mode.decrypt
# %bb.0:                                # %start
	pushq	%rbp
	.seh_pushreg %rbp
	pushq	%r15
	.seh_pushreg %r15
	pushq	%r14
	.seh_pushreg %r14
	pushq	%r13
	.seh_pushreg %r13
	pushq	%r12
	.seh_pushreg %r12
	pushq	%rbx
	.seh_pushreg %rbx
	subq	$104, %rsp
	.seh_stackalloc 104
	.seh_endprologue
	movq	184(%rsp), %r14
	leaq	-4(%r14), %rax
	cmpq	$13, %rax
	setae	%al
	movl	%r14d, %r10d
	orb	%al, %r10b
	testb	$1, %r10b
	jne	.Laes_v3_BB54_1
# %bb.2:                                # %after.1.i
	leaq	-14(%rcx), %r10
	movb	$1, %al
	cmpq	$-7, %r10
	jb	.Laes_v3_BB54_5
# %bb.3:                                # %"ccm::formatting::check.exit"
	movq	168(%rsp), %rbp
	cmpq	$7, %rcx
	je	.Laes_v3_BB54_6
# %bb.4:                                # %"ccm::formatting::check.exit"
	leal	(,%rcx,8), %eax
	xorb	$120, %al
	shrxq	%rax, %rbp, %r10
	movb	$2, %al
	testq	%r10, %r10
	jne	.Laes_v3_BB54_5
.Laes_v3_BB54_6:                               # %join.4
	movq	%rdi, 72(%rsp)                  # 8-byte Spill
	movb	$14, %bl
	subb	%cl, %bl
	movq	$0, 32(%rsp)
	movq	$0, 39(%rsp)
	leaq	32(%rsp), %rax
	movq	%rcx, %r12
	movq	%rax, %rcx
	movq	%rdx, %r13
	movq	%r8, 88(%rsp)                   # 8-byte Spill
	movq	%r12, %r8
	movq	%r9, 96(%rsp)                   # 8-byte Spill
	callq	memcpy
	movb	%bl, 48(%rsp)
	movq	32(%rsp), %rax
	movq	39(%rsp), %rcx
	movq	%rax, 49(%rsp)
	movq	%rcx, 56(%rsp)
	leaq	48(%rsp), %rax
	movl	$16, %edx
	movq	%rsi, %rdi
	movq	%rsi, %r15
	movq	%rax, %rsi
	movq	160(%rsp), %rcx
	movq	%rbp, %r8
	callq	aes_v3.aes_ctr.add_in_batches.add_keystream
	leaq	32(%rsp), %rax
	movq	%rax, 16(%rsp)
	movq	%rbp, 8(%rsp)
	movq	160(%rsp), %rbp
	movq	%rbp, (%rsp)
	movq	%r15, 80(%rsp)                  # 8-byte Spill
	movq	%r15, %rdi
	movq	%r13, %r15
	movq	%r13, %rsi
	movq	%r12, %r13
	movq	%r12, %rdx
	movq	%r14, %rcx
	movq	88(%rsp), %r8                   # 8-byte Reload
	movq	96(%rsp), %r9                   # 8-byte Reload
	callq	aes_v3.ccm.message.put_tag
	vmovups	32(%rsp), %xmm0
	vmovaps	%xmm0, 48(%rsp)
	leaq	48(%rsp), %rdi
	movq	%rdi, %rcx
	movq	176(%rsp), %rdx
	movq	%r14, %r8
	callq	memcpy
	leaq	32(%rsp), %rsi
	callq	aes_v3.aes_cipher.blocks.difference
	testl	%eax, %eax
	je	.Laes_v3_BB54_7
# %bb.8:                                # %join.7
	movq	$0, 32(%rsp)
	movq	$0, 39(%rsp)
	leaq	32(%rsp), %rcx
	movq	%r15, %rdx
	movq	%r13, %r8
	callq	memcpy
	movb	%bl, 48(%rsp)
	movq	32(%rsp), %rax
	movq	39(%rsp), %rcx
	movq	%rax, 49(%rsp)
	movq	%rcx, 56(%rsp)
	leaq	48(%rsp), %rsi
	movl	$16, %edx
	movq	80(%rsp), %rdi                  # 8-byte Reload
	movq	%rbp, %rcx
	movq	168(%rsp), %r8
	callq	aes_v3.aes_ctr.add_in_batches.add_keystream
	movq	72(%rsp), %rax                  # 8-byte Reload
	movw	$257, (%rax)                    # imm = 0x101
	jmp	.Laes_v3_BB54_9
.Laes_v3_BB54_1:
	xorl	%eax, %eax
.Laes_v3_BB54_5:                               # %arm.1
	movw	$1, (%rdi)
	movb	%al, 2(%rdi)
.Laes_v3_BB54_10:                              # %common.ret
	addq	$104, %rsp
	popq	%rbx
	popq	%r12
	popq	%r13
	popq	%r14
	popq	%r15
	popq	%rbp
	retq
.Laes_v3_BB54_7:                               # %then.5
	movq	72(%rsp), %rax                  # 8-byte Reload
	movw	$0, (%rax)
.Laes_v3_BB54_9:                               # %common.ret
	movb	$0, 2(%rax)
	jmp	.Laes_v3_BB54_10
	.seh_endproc
                                        # -- End function
	.def	aes_v3.ccm.message.put_tag;
	.scl	3;
	.type	32;
	.endef
	.section	.rdata,"dr"
	.p2align	4, 0x0                          # -- Begin function ccm::message::put_tag::<#cd78163963378b36>
.Laes_v3_CPI55_0:
	.zero	16,15
.Laes_v3_CPI55_1:
	.byte	0                               # 0x0
	.byte	1                               # 0x1
	.byte	28                              # 0x1c
	.byte	29                              # 0x1d
	.byte	45                              # 0x2d
	.byte	44                              # 0x2c
	.byte	49                              # 0x31
	.byte	48                              # 0x30
	.byte	39                              # 0x27
	.byte	38                              # 0x26
	.byte	59                              # 0x3b
	.byte	58                              # 0x3a
	.byte	10                              # 0xa
	.byte	11                              # 0xb
	.byte	22                              # 0x16
	.byte	23                              # 0x17
.Laes_v3_CPI55_2:
	.byte	0                               # 0x0
	.byte	134                             # 0x86
	.byte	253                             # 0xfd
	.byte	123                             # 0x7b
	.byte	142                             # 0x8e
	.byte	8                               # 0x8
	.byte	115                             # 0x73
	.byte	245                             # 0xf5
	.byte	119                             # 0x77
	.byte	241                             # 0xf1
	.byte	138                             # 0x8a
	.byte	12                              # 0xc
	.byte	249                             # 0xf9
	.byte	127                             # 0x7f
	.byte	4                               # 0x4
	.byte	130                             # 0x82
.Laes_v3_CPI55_3:
	.byte	128                             # 0x80
	.byte	2                               # 0x2
	.byte	1                               # 0x1
	.byte	15                              # 0xf
	.byte	9                               # 0x9
	.byte	5                               # 0x5
	.byte	14                              # 0xe
	.byte	12                              # 0xc
	.byte	13                              # 0xd
	.byte	4                               # 0x4
	.byte	11                              # 0xb
	.byte	10                              # 0xa
	.byte	7                               # 0x7
	.byte	8                               # 0x8
	.byte	6                               # 0x6
	.byte	3                               # 0x3
.Laes_v3_CPI55_4:
	.byte	128                             # 0x80
	.byte	1                               # 0x1
	.byte	9                               # 0x9
	.byte	14                              # 0xe
	.byte	13                              # 0xd
	.byte	11                              # 0xb
	.byte	7                               # 0x7
	.byte	6                               # 0x6
	.byte	15                              # 0xf
	.byte	2                               # 0x2
	.byte	12                              # 0xc
	.byte	5                               # 0x5
	.byte	10                              # 0xa
	.byte	4                               # 0x4
	.byte	3                               # 0x3
	.byte	8                               # 0x8
.Laes_v3_CPI55_5:
	.byte	0                               # 0x0
	.byte	195                             # 0xc3
	.byte	79                              # 0x4f
	.byte	12                              # 0xc
	.byte	252                             # 0xfc
	.byte	124                             # 0x7c
	.byte	67                              # 0x43
	.byte	128                             # 0x80
	.byte	207                             # 0xcf
	.byte	51                              # 0x33
	.byte	63                              # 0x3f
	.byte	112                             # 0x70
	.byte	191                             # 0xbf
	.byte	179                             # 0xb3
	.byte	240                             # 0xf0
	.byte	140                             # 0x8c
.Laes_v3_CPI55_6:
	.byte	0                               # 0x0
	.byte	230                             # 0xe6
	.byte	114                             # 0x72
	.byte	183                             # 0xb7
	.byte	229                             # 0xe5
	.byte	198                             # 0xc6
	.byte	197                             # 0xc5
	.byte	35                              # 0x23
	.byte	81                              # 0x51
	.byte	180                             # 0xb4
	.byte	3                               # 0x3
	.byte	113                             # 0x71
	.byte	32                              # 0x20
	.byte	151                             # 0x97
	.byte	82                              # 0x52
	.byte	148                             # 0x94
.Laes_v3_CPI55_7:
	.byte	0                               # 0x0
	.byte	124                             # 0x7c
	.byte	32                              # 0x20
	.byte	207                             # 0xcf
	.byte	146                             # 0x92
	.byte	1                               # 0x1
	.byte	239                             # 0xef
	.byte	147                             # 0x93
	.byte	179                             # 0xb3
	.byte	33                              # 0x21
	.byte	238                             # 0xee
	.byte	206                             # 0xce
	.byte	125                             # 0x7d
	.byte	178                             # 0xb2
	.byte	93                              # 0x5d
	.byte	92                              # 0x5c
.Laes_v3_CPI55_8:
	.byte	0                               # 0x0
	.byte	209                             # 0xd1
	.byte	229                             # 0xe5
	.byte	247                             # 0xf7
	.byte	230                             # 0xe6
	.byte	37                              # 0x25
	.byte	18                              # 0x12
	.byte	195                             # 0xc3
	.byte	38                              # 0x26
	.byte	192                             # 0xc0
	.byte	55                              # 0x37
	.byte	210                             # 0xd2
	.byte	244                             # 0xf4
	.byte	3                               # 0x3
	.byte	17                              # 0x11
	.byte	52                              # 0x34
.Laes_v3_CPI55_9:
	.byte	0                               # 0x0
	.byte	203                             # 0xcb
	.byte	215                             # 0xd7
	.byte	176                             # 0xb0
	.byte	33                              # 0x21
	.byte	141                             # 0x8d
	.byte	103                             # 0x67
	.byte	172                             # 0xac
	.byte	123                             # 0x7b
	.byte	90                              # 0x5a
	.byte	234                             # 0xea
	.byte	61                              # 0x3d
	.byte	70                              # 0x46
	.byte	246                             # 0xf6
	.byte	145                             # 0x91
	.byte	28                              # 0x1c
.Laes_v3_CPI55_10:
	.byte	0                               # 0x0
	.byte	159                             # 0x9f
	.byte	97                              # 0x61
	.byte	22                              # 0x16
	.byte	194                             # 0xc2
	.byte	42                              # 0x2a
	.byte	119                             # 0x77
	.byte	232                             # 0xe8
	.byte	137                             # 0x89
	.byte	75                              # 0x4b
	.byte	93                              # 0x5d
	.byte	60                              # 0x3c
	.byte	181                             # 0xb5
	.byte	163                             # 0xa3
	.byte	212                             # 0xd4
	.byte	254                             # 0xfe
.Laes_v3_CPI55_11:
	.zero	4,15
	.text
	.p2align	4
aes_v3.ccm.message.put_tag: # @aes_v3.ccm.message.put_tag
.seh_proc aes_v3.ccm.message.put_tag
# %bb.0:                                # %start
	pushq	%rbp
	.seh_pushreg %rbp
	pushq	%r15
	.seh_pushreg %r15
	pushq	%r14
	.seh_pushreg %r14
	pushq	%r13
	.seh_pushreg %r13
	pushq	%r12
	.seh_pushreg %r12
	pushq	%rbx
	.seh_pushreg %rbx
	subq	$88, %rsp
	.seh_stackalloc 88
	.seh_endprologue
	movq	152(%rsp), %r13
	movbeq	%r13, 80(%rsp)
	movq	%r9, %rbp
	movq	%r8, 72(%rsp)                   # 8-byte Spill
	movq	%rdx, %r15
	movq	%rsi, %r12
	movq	%rdi, %r14
	movq	160(%rsp), %rbx
	xorl	%eax, %eax
	subq	$2, %rcx
	cmovaeq	%rcx, %rax
	andl	$62, %eax
	shll	$2, %eax
	subl	%r15d, %eax
	testq	%r9, %r9
	setne	%sil
	shlb	$6, %sil
	addb	%al, %sil
	addb	$14, %sil
	movq	$0, 48(%rsp)
	movq	$0, 55(%rsp)
	leaq	48(%rsp), %rcx
	movq	%r12, %rdx
	movq	%r15, %r8
	callq	memcpy
	movb	%sil, 32(%rsp)
	movq	48(%rsp), %rax
	movq	55(%rsp), %rcx
	movq	%rax, 33(%rsp)
	movq	%rcx, 40(%rsp)
	leaq	(%rsp,%r15), %rcx
	addq	$33, %rcx
	leaq	(%rsp,%r15), %rdx
	addq	$73, %rdx
	movl	$15, %r8d
	subq	%r15, %r8
	callq	memcpy
	vmovdqa	32(%rsp), %xmm0
	vmovdqu	%xmm0, (%rbx)
	movq	16(%rdi), %rax
	movq	24(%rdi), %rdx
	leaq	-1(%rdx), %rcx
	vpxor	(%rax), %xmm0, %xmm0
	vpbroadcastd	.Laes_v3_CPI55_11(%rip), %xmm6 # xmm6 = [15,15,15,15,15,15,15,15,15,15,15,15,15,15,15,15]
	vpand	%xmm6, %xmm0, %xmm1
	vmovdqa	.Laes_v3_CPI55_1(%rip), %xmm2          # xmm2 = [0,1,28,29,45,44,49,48,39,38,59,58,10,11,22,23]
	vpshufb	%xmm1, %xmm2, %xmm1
	vpsrlw	$4, %xmm0, %xmm0
	vpand	%xmm6, %xmm0, %xmm0
	vmovdqa	.Laes_v3_CPI55_2(%rip), %xmm2          # xmm2 = [0,134,253,123,142,8,115,245,119,241,138,12,249,127,4,130]
	vpshufb	%xmm0, %xmm2, %xmm0
	vpxor	%xmm1, %xmm0, %xmm0
	cmpq	$2, %rcx
	jb	.Laes_v3_BB55_3
# %bb.1:                                # %join.5.i.i912.preheader
	addq	$-2, %rdx
	movl	$16, %esi
	.p2align	4
.Laes_v3_BB55_2:                               # %join.5.i.i912
                                        # =>This Inner Loop Header: Depth=1
	vpsrlw	$4, %xmm0, %xmm1
	vpand	%xmm6, %xmm1, %xmm1
	vpand	%xmm6, %xmm0, %xmm0
	vpxor	%xmm0, %xmm1, %xmm2
	vmovdqa	.Laes_v3_CPI55_3(%rip), %xmm3          # xmm3 = [128,2,1,15,9,5,14,12,13,4,11,10,7,8,6,3]
	vpshufb	%xmm0, %xmm3, %xmm0
	vmovdqa	.Laes_v3_CPI55_4(%rip), %xmm3          # xmm3 = [128,1,9,14,13,11,7,6,15,2,12,5,10,4,3,8]
	vpshufb	%xmm1, %xmm3, %xmm4
	vpshufb	%xmm2, %xmm3, %xmm5
	vpxor	%xmm0, %xmm4, %xmm4
	vpxor	%xmm0, %xmm5, %xmm0
	vpshufb	%xmm4, %xmm3, %xmm4
	vpshufb	%xmm0, %xmm3, %xmm0
	vpxor	%xmm2, %xmm4, %xmm2
	vpxor	%xmm1, %xmm0, %xmm0
	vmovdqa	.Laes_v3_CPI55_5(%rip), %xmm1          # xmm1 = [0,195,79,12,252,124,67,128,207,51,63,112,191,179,240,140]
	vpshufb	%xmm2, %xmm1, %xmm1
	vmovdqa	.Laes_v3_CPI55_6(%rip), %xmm3          # xmm3 = [0,230,114,183,229,198,197,35,81,180,3,113,32,151,82,148]
	vpshufb	%xmm0, %xmm3, %xmm3
	vpxor	%xmm1, %xmm3, %xmm1
	vmovdqa	.Laes_v3_CPI55_7(%rip), %xmm3          # xmm3 = [0,124,32,207,146,1,239,147,179,33,238,206,125,178,93,92]
	vpshufb	%xmm2, %xmm3, %xmm2
	vmovdqa	.Laes_v3_CPI55_8(%rip), %xmm3          # xmm3 = [0,209,229,247,230,37,18,195,38,192,55,210,244,3,17,52]
	vpshufb	%xmm0, %xmm3, %xmm0
	vpxor	%xmm2, %xmm0, %xmm0
	movl	%esi, %edi
	andl	$48, %edi
	leaq	.Laes_v3_static.4(%rip), %r8
	vmovdqu	(%rdi,%r8), %xmm2
	vpshufb	%xmm2, %xmm1, %xmm3
	vpxor	%xmm3, %xmm0, %xmm0
	vpshufb	%xmm2, %xmm0, %xmm2
	leaq	.Laes_v3_static.5(%rip), %r8
	vpshufb	(%rdi,%r8), %xmm1, %xmm1
	vpxor	(%rax,%rsi), %xmm2, %xmm2
	vpxor	%xmm0, %xmm1, %xmm0
	vpxor	%xmm0, %xmm2, %xmm0
	addq	$16, %rsi
	decq	%rdx
	jne	.Laes_v3_BB55_2
.Laes_v3_BB55_3:                               # %"aes_permute::blocks::process_block::<#aedbc4fd156a355d>.exit1656"
	shlq	$4, %rcx
	movl	%ecx, %edx
	andl	$48, %edx
	vpsrlw	$4, %xmm0, %xmm1
	vpand	%xmm6, %xmm1, %xmm1
	vpand	%xmm6, %xmm0, %xmm0
	vpxor	%xmm0, %xmm1, %xmm2
	vmovdqa	.Laes_v3_CPI55_3(%rip), %xmm3          # xmm3 = [128,2,1,15,9,5,14,12,13,4,11,10,7,8,6,3]
	vpshufb	%xmm0, %xmm3, %xmm0
	vmovdqa	.Laes_v3_CPI55_4(%rip), %xmm5          # xmm5 = [128,1,9,14,13,11,7,6,15,2,12,5,10,4,3,8]
	vpshufb	%xmm1, %xmm5, %xmm3
	vpshufb	%xmm2, %xmm5, %xmm4
	vpxor	%xmm0, %xmm3, %xmm3
	vpxor	%xmm0, %xmm4, %xmm0
	vpshufb	%xmm3, %xmm5, %xmm3
	vpshufb	%xmm0, %xmm5, %xmm0
	vpxor	%xmm2, %xmm3, %xmm2
	vpxor	%xmm1, %xmm0, %xmm0
	vmovdqa	.Laes_v3_CPI55_9(%rip), %xmm1          # xmm1 = [0,203,215,176,33,141,103,172,123,90,234,61,70,246,145,28]
	vpshufb	%xmm2, %xmm1, %xmm1
	vmovdqa	.Laes_v3_CPI55_10(%rip), %xmm2         # xmm2 = [0,159,97,22,194,42,119,232,137,75,93,60,181,163,212,254]
	vpshufb	%xmm0, %xmm2, %xmm0
	vpxor	%xmm1, %xmm0, %xmm0
	leaq	.Laes_v3_static.3(%rip), %rsi
	vpshufb	(%rdx,%rsi), %xmm0, %xmm0
	vpxor	(%rax,%rcx), %xmm0, %xmm0
	movq	144(%rsp), %rdx
	vmovdqu	%xmm0, (%rbx)
	testq	%rbp, %rbp
	je	.Laes_v3_BB55_10
# %bb.4:                                # %join.3.i
	vpxor	%xmm0, %xmm0, %xmm0
	vmovdqa	%xmm0, 32(%rsp)
	movq	%rbp, %rax
	bswapq	%rax
	cmpq	$65279, %rbp                    # imm = 0xFEFF
	movq	%r12, 64(%rsp)                  # 8-byte Spill
	ja	.Laes_v3_BB55_6
# %bb.5:                                # %then.1.i.i
	movq	%r13, %r12
	leaq	34(%rsp), %rcx
	shrq	$48, %rax
	movw	%ax, 32(%rsp)
	movl	$14, %r8d
	jmp	.Laes_v3_BB55_9
.Laes_v3_BB55_6:                               # %join.3.i.i
	movb	$-1, 32(%rsp)
	movq	%rbp, %rcx
	movq	%r13, %r12
	shrq	$32, %rcx
	jne	.Laes_v3_BB55_8
# %bb.7:                                # %then.4.i.i
	leaq	38(%rsp), %rcx
	shrq	$32, %rax
	movb	$-2, 33(%rsp)
	movl	%eax, 34(%rsp)
	movl	$10, %r8d
	jmp	.Laes_v3_BB55_9
.Laes_v3_BB55_8:                               # %join.6.i.i
	leaq	42(%rsp), %rcx
	movb	$-1, 33(%rsp)
	movq	%rax, 34(%rsp)
	movl	$6, %r8d
.Laes_v3_BB55_9:                               # %"ccm::formatting::put_length.exit.i"
	cmpq	%rbp, %r8
	cmovaeq	%rbp, %r8
	movq	72(%rsp), %rdx                  # 8-byte Reload
	leaq	(%rdx,%r8), %r13
	subq	%r8, %rbp
	callq	memcpy
	leaq	32(%rsp), %rdx
	movl	$16, %ecx
	movq	%r14, %rdi
	movq	%rbx, %rsi
	callq	aes_v3.cmac.chaining.chain
	movq	%r14, %rdi
	movq	%rbx, %rsi
	movq	%r13, %rdx
	movq	%rbp, %rcx
	callq	aes_v3.cmac.chaining.chain
	movq	%r12, %r13
	movq	64(%rsp), %r12                  # 8-byte Reload
	movq	144(%rsp), %rdx
.Laes_v3_BB55_10:                              # %"ccm::message::chain_additional::<#cd78163963378b36>.exit"
	movq	%r14, %rdi
	movq	%rbx, %rsi
	movq	%r13, %rcx
	callq	aes_v3.cmac.chaining.chain
	movb	$14, %sil
	subb	%r15b, %sil
	movq	$0, 39(%rsp)
	movq	$0, 32(%rsp)
	leaq	32(%rsp), %rcx
	movq	%r12, %rdx
	movq	%r15, %r8
	callq	memcpy
	vmovd	35(%rsp), %xmm0                 # xmm0 = mem[0],zero,zero,zero
	vmovq	39(%rsp), %xmm1                 # xmm1 = mem[0],zero
	vmovd	%esi, %xmm2
	vpinsrb	$1, 32(%rsp), %xmm2, %xmm2
	vpinsrb	$2, 33(%rsp), %xmm2, %xmm2
	vpinsrb	$3, 34(%rsp), %xmm2, %xmm2
	vpunpckldq	%xmm0, %xmm2, %xmm0     # xmm0 = xmm2[0],xmm0[0],xmm2[1],xmm0[1]
	vpunpcklqdq	%xmm1, %xmm0, %xmm0     # xmm0 = xmm0[0],xmm1[0]
	movq	16(%r14), %rax
	movq	24(%r14), %rdx
	vpxor	(%rax), %xmm0, %xmm0
	leaq	-1(%rdx), %rcx
	vpbroadcastd	.Laes_v3_CPI55_11(%rip), %xmm5 # xmm5 = [15,15,15,15,15,15,15,15,15,15,15,15,15,15,15,15]
	vpand	%xmm5, %xmm0, %xmm1
	vmovdqa	.Laes_v3_CPI55_1(%rip), %xmm2          # xmm2 = [0,1,28,29,45,44,49,48,39,38,59,58,10,11,22,23]
	vpshufb	%xmm1, %xmm2, %xmm1
	vpsrlw	$4, %xmm0, %xmm0
	vpand	%xmm5, %xmm0, %xmm0
	vmovdqa	.Laes_v3_CPI55_2(%rip), %xmm2          # xmm2 = [0,134,253,123,142,8,115,245,119,241,138,12,249,127,4,130]
	vpshufb	%xmm0, %xmm2, %xmm0
	vpxor	%xmm1, %xmm0, %xmm0
	cmpq	$2, %rcx
	jb	.Laes_v3_BB55_11
# %bb.12:                               # %join.5.i.i.preheader
	addq	$-2, %rdx
	movl	$16, %esi
	vmovdqa	.Laes_v3_CPI55_4(%rip), %xmm6          # xmm6 = [128,1,9,14,13,11,7,6,15,2,12,5,10,4,3,8]
	vmovdqa	.Laes_v3_CPI55_3(%rip), %xmm7          # xmm7 = [128,2,1,15,9,5,14,12,13,4,11,10,7,8,6,3]
	.p2align	4
.Laes_v3_BB55_13:                              # %join.5.i.i
                                        # =>This Inner Loop Header: Depth=1
	vpsrlw	$4, %xmm0, %xmm1
	vpand	%xmm5, %xmm1, %xmm1
	vpand	%xmm5, %xmm0, %xmm0
	vpxor	%xmm0, %xmm1, %xmm2
	vpshufb	%xmm0, %xmm7, %xmm0
	vpshufb	%xmm1, %xmm6, %xmm3
	vpshufb	%xmm2, %xmm6, %xmm4
	vpxor	%xmm0, %xmm3, %xmm3
	vpxor	%xmm0, %xmm4, %xmm0
	vpshufb	%xmm3, %xmm6, %xmm3
	vpshufb	%xmm0, %xmm6, %xmm0
	vpxor	%xmm2, %xmm3, %xmm2
	vpxor	%xmm1, %xmm0, %xmm0
	vmovdqa	.Laes_v3_CPI55_5(%rip), %xmm1          # xmm1 = [0,195,79,12,252,124,67,128,207,51,63,112,191,179,240,140]
	vpshufb	%xmm2, %xmm1, %xmm1
	vmovdqa	.Laes_v3_CPI55_6(%rip), %xmm3          # xmm3 = [0,230,114,183,229,198,197,35,81,180,3,113,32,151,82,148]
	vpshufb	%xmm0, %xmm3, %xmm3
	vpxor	%xmm1, %xmm3, %xmm1
	vmovdqa	.Laes_v3_CPI55_7(%rip), %xmm3          # xmm3 = [0,124,32,207,146,1,239,147,179,33,238,206,125,178,93,92]
	vpshufb	%xmm2, %xmm3, %xmm2
	vmovdqa	.Laes_v3_CPI55_8(%rip), %xmm3          # xmm3 = [0,209,229,247,230,37,18,195,38,192,55,210,244,3,17,52]
	vpshufb	%xmm0, %xmm3, %xmm0
	vpxor	%xmm2, %xmm0, %xmm0
	movl	%esi, %edi
	andl	$48, %edi
	leaq	.Laes_v3_static.4(%rip), %r8
	vmovdqu	(%rdi,%r8), %xmm2
	vpshufb	%xmm2, %xmm1, %xmm3
	vpxor	%xmm3, %xmm0, %xmm0
	vpshufb	%xmm2, %xmm0, %xmm2
	leaq	.Laes_v3_static.5(%rip), %r8
	vpshufb	(%rdi,%r8), %xmm1, %xmm1
	vpxor	(%rax,%rsi), %xmm2, %xmm2
	vpxor	%xmm0, %xmm1, %xmm0
	vpxor	%xmm0, %xmm2, %xmm0
	addq	$16, %rsi
	decq	%rdx
	jne	.Laes_v3_BB55_13
	jmp	.Laes_v3_BB55_14
.Laes_v3_BB55_11:
	vmovdqa	.Laes_v3_CPI55_4(%rip), %xmm6          # xmm6 = [128,1,9,14,13,11,7,6,15,2,12,5,10,4,3,8]
	vmovdqa	.Laes_v3_CPI55_3(%rip), %xmm7          # xmm7 = [128,2,1,15,9,5,14,12,13,4,11,10,7,8,6,3]
.Laes_v3_BB55_14:                              # %"aes_permute::blocks::process_block::<#aedbc4fd156a355d>.exit"
	shlq	$4, %rcx
	vpsrlw	$4, %xmm0, %xmm1
	vpand	%xmm5, %xmm1, %xmm1
	vpand	%xmm5, %xmm0, %xmm0
	vpxor	%xmm0, %xmm1, %xmm2
	vpshufb	%xmm0, %xmm7, %xmm0
	vpshufb	%xmm1, %xmm6, %xmm3
	vpshufb	%xmm2, %xmm6, %xmm4
	vpxor	%xmm0, %xmm3, %xmm3
	vpxor	%xmm0, %xmm4, %xmm0
	vpshufb	%xmm3, %xmm6, %xmm3
	vpshufb	%xmm0, %xmm6, %xmm0
	vpxor	%xmm2, %xmm3, %xmm2
	vpxor	%xmm1, %xmm0, %xmm0
	vmovdqa	.Laes_v3_CPI55_9(%rip), %xmm1          # xmm1 = [0,203,215,176,33,141,103,172,123,90,234,61,70,246,145,28]
	vpshufb	%xmm2, %xmm1, %xmm1
	vmovdqa	.Laes_v3_CPI55_10(%rip), %xmm2         # xmm2 = [0,159,97,22,194,42,119,232,137,75,93,60,181,163,212,254]
	vpshufb	%xmm0, %xmm2, %xmm0
	vpxor	%xmm1, %xmm0, %xmm0
	movl	%ecx, %edx
	andl	$48, %edx
	leaq	.Laes_v3_static.3(%rip), %rsi
	vpshufb	(%rdx,%rsi), %xmm0, %xmm0
	vpxor	(%rax,%rcx), %xmm0, %xmm0
	vpxor	(%rbx), %xmm0, %xmm0
	vmovdqu	%xmm0, (%rbx)
	addq	$88, %rsp
	popq	%rbx
	popq	%r12
	popq	%r13
	popq	%r14
	popq	%r15
	popq	%rbp
	retq
	.seh_endproc
                                        # -- End function
	.def	aes_v3.aes_cipher.zeroize.stack.wipe_stack.1024;
	.scl	3;
	.type	32;
	.endef
	.p2align	4                               # -- Begin function aes_cipher::zeroize::stack::wipe_stack::<=1024>
aes_v3.aes_cipher.zeroize.stack.wipe_stack.1024: # @aes_v3.aes_cipher.zeroize.stack.wipe_stack.1024
.seh_proc aes_v3.aes_cipher.zeroize.stack.wipe_stack.1024
# %bb.0:                                # %start
	subq	$1064, %rsp                     # imm = 0x428
	.seh_stackalloc 1064
	.seh_endprologue
	#APP
	xorl	%edi, %edi
	xorl	%esi, %esi
	#NO_APP
	leaq	40(%rsp), %rcx
	movl	$1024, %r8d                     # imm = 0x400
	xorl	%edx, %edx
	callq	memset
	movq	$0, 32(%rsp)
	#APP
	#NO_APP
	movq	32(%rsp), %rax
	#APP
	#NO_APP
	cmpq	$1024, %rax                     # imm = 0x400
	jae	.Laes_v3_BB56_2
# %bb.1:                                # %then.1
	movzbl	40(%rsp,%rax), %eax
	#APP
	#NO_APP
	xchgq	%rax, 32(%rsp)
	#APP
	#NO_APP
.Laes_v3_BB56_2:                               # %common.ret
	addq	$1064, %rsp                     # imm = 0x428
	retq
	.seh_endproc
                                        # -- End function
	.def	aes_v3.ccm.mode.encrypt;
	.scl	3;
	.type	32;
	.endef
	.p2align	4                               # -- Begin function ccm::mode::encrypt::<#cd78163963378b36>
aes_v3.ccm.mode.encrypt: # @aes_v3.ccm.mode.encrypt
.seh_proc aes_v3.ccm.mode.encrypt
# %bb.0:                                # %start
	pushq	%rbp
	.seh_pushreg %rbp
	pushq	%r15
	.seh_pushreg %r15
	pushq	%r14
	.seh_pushreg %r14
	pushq	%r13
	.seh_pushreg %r13
	pushq	%r12
	.seh_pushreg %r12
	pushq	%rbx
	.seh_pushreg %rbx
	subq	$88, %rsp
	.seh_stackalloc 88
	.seh_endprologue
	movq	160(%rsp), %r14
	leaq	-4(%r14), %rax
	cmpq	$13, %rax
	setae	%al
	movl	%r14d, %r10d
	orb	%al, %r10b
	testb	$1, %r10b
	jne	.Laes_v3_BB57_1
# %bb.2:                                # %after.1.i
	leaq	-14(%rdx), %r11
	movb	$1, %al
	movb	$1, %r10b
	cmpq	$-7, %r11
	jb	.Laes_v3_BB57_6
# %bb.3:                                # %"ccm::formatting::check.exit"
	movq	144(%rsp), %rbx
	cmpq	$7, %rdx
	setne	%r11b
	leal	(,%rdx,8), %eax
	xorb	$120, %al
	shrxq	%rax, %rbx, %rax
	testq	%rax, %rax
	setne	%al
	movb	$2, %r10b
	andb	%r11b, %al
	jne	.Laes_v3_BB57_6
# %bb.4:                                # %arm.1
	leaq	72(%rsp), %rbp
	movq	%rbp, 16(%rsp)
	movq	%rbx, 8(%rsp)
	movq	%r9, (%rsp)
	movq	%rdi, %r15
	movq	%rsi, %r13
	movq	%rdx, %rbx
	movq	%rcx, %r10
	movq	%r14, %rcx
	movq	%r8, %r11
	movq	%r10, %r8
	movq	%r9, %r12
	movq	%r11, %r9
	movb	%al, 39(%rsp)                   # 1-byte Spill
	callq	aes_v3.ccm.message.put_tag
	movq	152(%rsp), %rcx
	movq	%rbp, %rdx
	movq	%r14, %r8
	callq	memcpy
	movb	$14, %sil
	subb	%bl, %sil
	movq	$0, 40(%rsp)
	movq	$0, 47(%rsp)
	leaq	40(%rsp), %rcx
	movq	%r13, %rdx
	movq	%rbx, %r8
	callq	memcpy
	movb	%sil, 56(%rsp)
	movq	40(%rsp), %rax
	movq	47(%rsp), %rcx
	movq	%rax, 57(%rsp)
	movq	%rcx, 64(%rsp)
	leaq	56(%rsp), %rsi
	movl	$16, %edx
	movq	%r15, %rdi
	movq	%r12, %rcx
	movq	144(%rsp), %r8
	callq	aes_v3.aes_ctr.add_in_batches.add_keystream
	movzbl	39(%rsp), %eax                  # 1-byte Folded Reload
	jmp	.Laes_v3_BB57_5
.Laes_v3_BB57_1:
	movb	$1, %al
.Laes_v3_BB57_5:                               # %return.5
	xorl	%r10d, %r10d
.Laes_v3_BB57_6:                               # %return.5
	movl	%r10d, %edx
	addq	$88, %rsp
	popq	%rbx
	popq	%r12
	popq	%r13
	popq	%r14
	popq	%r15
	popq	%rbp
	retq
	.seh_endproc
                                        # -- End function
	export_aes_v3	fotsgure_aes_add_keystream_with
	.p2align	4
aes_v3.fotsgure_aes_add_keystream_with:        # @aes_v3.fotsgure_aes_add_keystream_with
.seh_proc aes_v3.fotsgure_aes_add_keystream_with
# %bb.0:                                # %start
	pushq	%r15
	.seh_pushreg %r15
	pushq	%r14
	.seh_pushreg %r14
	pushq	%r13
	.seh_pushreg %r13
	pushq	%r12
	.seh_pushreg %r12
	pushq	%rsi
	.seh_pushreg %rsi
	pushq	%rdi
	.seh_pushreg %rdi
	pushq	%rbp
	.seh_pushreg %rbp
	pushq	%rbx
	.seh_pushreg %rbx
	subq	$456, %rsp                      # imm = 0x1C8
	.seh_stackalloc 456
	vmovaps	%xmm15, 432(%rsp)               # 16-byte Spill
	.seh_savexmm %xmm15, 432
	vmovaps	%xmm14, 416(%rsp)               # 16-byte Spill
	.seh_savexmm %xmm14, 416
	vmovaps	%xmm13, 400(%rsp)               # 16-byte Spill
	.seh_savexmm %xmm13, 400
	vmovaps	%xmm12, 384(%rsp)               # 16-byte Spill
	.seh_savexmm %xmm12, 384
	vmovaps	%xmm11, 368(%rsp)               # 16-byte Spill
	.seh_savexmm %xmm11, 368
	vmovaps	%xmm10, 352(%rsp)               # 16-byte Spill
	.seh_savexmm %xmm10, 352
	vmovaps	%xmm9, 336(%rsp)                # 16-byte Spill
	.seh_savexmm %xmm9, 336
	vmovaps	%xmm8, 320(%rsp)                # 16-byte Spill
	.seh_savexmm %xmm8, 320
	vmovaps	%xmm7, 304(%rsp)                # 16-byte Spill
	.seh_savexmm %xmm7, 304
	vmovaps	%xmm6, 288(%rsp)                # 16-byte Spill
	.seh_savexmm %xmm6, 288
	.seh_endprologue
	movq	%r8, %rbx
	xorl	%r10d, %r10d
	testq	%rcx, %rcx
	sete	%sil
	xorl	%r8d, %r8d
	testq	%r9, %r9
	sete	%r11b
	movl	$1, %eax
	cmpq	$32, %rdx
	ja	.Laes_v3_BB58_4
# %bb.1:                                # %start
	movabsq	$4311810048, %rdi               # imm = 0x101010000
	btq	%rdx, %rdi
	jae	.Laes_v3_BB58_4
# %bb.2:                                # %join.3.i
	movq	16(%rbx), %r15
	movq	%r15, %rdi
	movl	$4, %eax
	addq	560(%rsp), %rdi
	jb	.Laes_v3_BB58_4
# %bb.3:                                # %join.6.i
	movb	%sil, %r10b
	shll	$12, %r10d
	addq	%r10, %rcx
	movb	%r11b, %r8b
	shll	$12, %r8d
	addq	%r8, %r9
	leaq	48(%rsp), %r12
	movq	%rdx, %r14
	shrq	$2, %r14
	addq	$7, %r14
	vxorps	%xmm0, %xmm0, %xmm0
	vmovups	%ymm0, 256(%rsp)
	vmovups	%ymm0, 224(%rsp)
	vmovups	%ymm0, 192(%rsp)
	vmovups	%ymm0, 160(%rsp)
	vmovups	%ymm0, 128(%rsp)
	vmovups	%ymm0, 96(%rsp)
	vmovups	%ymm0, 64(%rsp)
	movq	%r12, %rdi
	movq	%rcx, %rsi
	movq	%rdx, %r13
	movq	%r9, %rbp
	vzeroupper
	callq	aes_v3.aes_permute.lane_keys.expand_lanes
	movl	%r13d, 44(%rsp)
	movq	%r12, 8(%rsp)
	movq	%r14, 16(%rsp)
	movq	%r12, 24(%rsp)
	movq	%r14, 32(%rsp)
	leaq	8(%rsp), %rdi
	movq	%rbx, %rsi
	movq	%r15, %rdx
	movq	%rbp, %rcx
	movq	560(%rsp), %r14
	movq	%r14, %r8
	callq	aes_v3.aes_ctr.add_in_batches.add_keystream
	addq	%r14, 16(%rbx)
	movl	$0, 44(%rsp)
	movq	%r12, %rdi
	callq	aes_v3.aes_cipher.zeroize.elements.zeroize_elements.1
	xorl	%eax, %eax
.Laes_v3_BB58_4:                               # %"aes_c::once::fotsgure_aes_add_keystream_with.exit"
	vmovaps	288(%rsp), %xmm6                # 16-byte Reload
	vmovaps	304(%rsp), %xmm7                # 16-byte Reload
	vmovaps	320(%rsp), %xmm8                # 16-byte Reload
	vmovaps	336(%rsp), %xmm9                # 16-byte Reload
	vmovaps	352(%rsp), %xmm10               # 16-byte Reload
	vmovaps	368(%rsp), %xmm11               # 16-byte Reload
	vmovaps	384(%rsp), %xmm12               # 16-byte Reload
	vmovaps	400(%rsp), %xmm13               # 16-byte Reload
	vmovaps	416(%rsp), %xmm14               # 16-byte Reload
	vmovaps	432(%rsp), %xmm15               # 16-byte Reload
	vpxor	%xmm0, %xmm0, %xmm0
	vpxor	%xmm1, %xmm1, %xmm1
	vpxor	%xmm2, %xmm2, %xmm2
	vpxor	%xmm3, %xmm3, %xmm3
	vpxor	%xmm4, %xmm4, %xmm4
	vpxor	%xmm5, %xmm5, %xmm5
	xorl	%ecx, %ecx
	xorl	%edx, %edx
	xorl	%r8d, %r8d
	xorl	%r9d, %r9d
	xorl	%r10d, %r10d
	xorl	%r11d, %r11d
	addq	$456, %rsp                      # imm = 0x1C8
	popq	%rbx
	popq	%rbp
	popq	%rdi
	popq	%rsi
	popq	%r12
	popq	%r13
	popq	%r14
	popq	%r15
	retq
	.seh_endproc
                                        # -- End function
	.section	.rdata,"dr"
	.p2align	4, 0x0                          # -- Begin function aes_v3.fotsgure_aes_cbc_encrypt
.Laes_v3_CPI59_0:
	.zero	16,15
.Laes_v3_CPI59_1:
	.byte	0                               # 0x0
	.byte	1                               # 0x1
	.byte	28                              # 0x1c
	.byte	29                              # 0x1d
	.byte	45                              # 0x2d
	.byte	44                              # 0x2c
	.byte	49                              # 0x31
	.byte	48                              # 0x30
	.byte	39                              # 0x27
	.byte	38                              # 0x26
	.byte	59                              # 0x3b
	.byte	58                              # 0x3a
	.byte	10                              # 0xa
	.byte	11                              # 0xb
	.byte	22                              # 0x16
	.byte	23                              # 0x17
.Laes_v3_CPI59_2:
	.byte	0                               # 0x0
	.byte	134                             # 0x86
	.byte	253                             # 0xfd
	.byte	123                             # 0x7b
	.byte	142                             # 0x8e
	.byte	8                               # 0x8
	.byte	115                             # 0x73
	.byte	245                             # 0xf5
	.byte	119                             # 0x77
	.byte	241                             # 0xf1
	.byte	138                             # 0x8a
	.byte	12                              # 0xc
	.byte	249                             # 0xf9
	.byte	127                             # 0x7f
	.byte	4                               # 0x4
	.byte	130                             # 0x82
.Laes_v3_CPI59_3:
	.byte	128                             # 0x80
	.byte	2                               # 0x2
	.byte	1                               # 0x1
	.byte	15                              # 0xf
	.byte	9                               # 0x9
	.byte	5                               # 0x5
	.byte	14                              # 0xe
	.byte	12                              # 0xc
	.byte	13                              # 0xd
	.byte	4                               # 0x4
	.byte	11                              # 0xb
	.byte	10                              # 0xa
	.byte	7                               # 0x7
	.byte	8                               # 0x8
	.byte	6                               # 0x6
	.byte	3                               # 0x3
.Laes_v3_CPI59_4:
	.byte	128                             # 0x80
	.byte	1                               # 0x1
	.byte	9                               # 0x9
	.byte	14                              # 0xe
	.byte	13                              # 0xd
	.byte	11                              # 0xb
	.byte	7                               # 0x7
	.byte	6                               # 0x6
	.byte	15                              # 0xf
	.byte	2                               # 0x2
	.byte	12                              # 0xc
	.byte	5                               # 0x5
	.byte	10                              # 0xa
	.byte	4                               # 0x4
	.byte	3                               # 0x3
	.byte	8                               # 0x8
.Laes_v3_CPI59_5:
	.byte	0                               # 0x0
	.byte	195                             # 0xc3
	.byte	79                              # 0x4f
	.byte	12                              # 0xc
	.byte	252                             # 0xfc
	.byte	124                             # 0x7c
	.byte	67                              # 0x43
	.byte	128                             # 0x80
	.byte	207                             # 0xcf
	.byte	51                              # 0x33
	.byte	63                              # 0x3f
	.byte	112                             # 0x70
	.byte	191                             # 0xbf
	.byte	179                             # 0xb3
	.byte	240                             # 0xf0
	.byte	140                             # 0x8c
.Laes_v3_CPI59_6:
	.byte	0                               # 0x0
	.byte	230                             # 0xe6
	.byte	114                             # 0x72
	.byte	183                             # 0xb7
	.byte	229                             # 0xe5
	.byte	198                             # 0xc6
	.byte	197                             # 0xc5
	.byte	35                              # 0x23
	.byte	81                              # 0x51
	.byte	180                             # 0xb4
	.byte	3                               # 0x3
	.byte	113                             # 0x71
	.byte	32                              # 0x20
	.byte	151                             # 0x97
	.byte	82                              # 0x52
	.byte	148                             # 0x94
.Laes_v3_CPI59_7:
	.byte	0                               # 0x0
	.byte	124                             # 0x7c
	.byte	32                              # 0x20
	.byte	207                             # 0xcf
	.byte	146                             # 0x92
	.byte	1                               # 0x1
	.byte	239                             # 0xef
	.byte	147                             # 0x93
	.byte	179                             # 0xb3
	.byte	33                              # 0x21
	.byte	238                             # 0xee
	.byte	206                             # 0xce
	.byte	125                             # 0x7d
	.byte	178                             # 0xb2
	.byte	93                              # 0x5d
	.byte	92                              # 0x5c
.Laes_v3_CPI59_8:
	.byte	0                               # 0x0
	.byte	209                             # 0xd1
	.byte	229                             # 0xe5
	.byte	247                             # 0xf7
	.byte	230                             # 0xe6
	.byte	37                              # 0x25
	.byte	18                              # 0x12
	.byte	195                             # 0xc3
	.byte	38                              # 0x26
	.byte	192                             # 0xc0
	.byte	55                              # 0x37
	.byte	210                             # 0xd2
	.byte	244                             # 0xf4
	.byte	3                               # 0x3
	.byte	17                              # 0x11
	.byte	52                              # 0x34
.Laes_v3_CPI59_9:
	.byte	0                               # 0x0
	.byte	203                             # 0xcb
	.byte	215                             # 0xd7
	.byte	176                             # 0xb0
	.byte	33                              # 0x21
	.byte	141                             # 0x8d
	.byte	103                             # 0x67
	.byte	172                             # 0xac
	.byte	123                             # 0x7b
	.byte	90                              # 0x5a
	.byte	234                             # 0xea
	.byte	61                              # 0x3d
	.byte	70                              # 0x46
	.byte	246                             # 0xf6
	.byte	145                             # 0x91
	.byte	28                              # 0x1c
.Laes_v3_CPI59_10:
	.byte	0                               # 0x0
	.byte	159                             # 0x9f
	.byte	97                              # 0x61
	.byte	22                              # 0x16
	.byte	194                             # 0xc2
	.byte	42                              # 0x2a
	.byte	119                             # 0x77
	.byte	232                             # 0xe8
	.byte	137                             # 0x89
	.byte	75                              # 0x4b
	.byte	93                              # 0x5d
	.byte	60                              # 0x3c
	.byte	181                             # 0xb5
	.byte	163                             # 0xa3
	.byte	212                             # 0xd4
	.byte	254                             # 0xfe
.Laes_v3_CPI59_11:
	.zero	4,15
	.text
	export_aes_v3	fotsgure_aes_cbc_encrypt
	.p2align	4
aes_v3.fotsgure_aes_cbc_encrypt:               # @aes_v3.fotsgure_aes_cbc_encrypt
.seh_proc aes_v3.fotsgure_aes_cbc_encrypt
# %bb.0:                                # %start
	pushq	%r15
	.seh_pushreg %r15
	pushq	%r14
	.seh_pushreg %r14
	pushq	%rsi
	.seh_pushreg %rsi
	pushq	%rdi
	.seh_pushreg %rdi
	pushq	%rbx
	.seh_pushreg %rbx
	subq	$48, %rsp
	.seh_stackalloc 48
	vmovdqa	%xmm8, 32(%rsp)                 # 16-byte Spill
	.seh_savexmm %xmm8, 32
	vmovdqa	%xmm7, 16(%rsp)                 # 16-byte Spill
	.seh_savexmm %xmm7, 16
	vmovdqa	%xmm6, (%rsp)                   # 16-byte Spill
	.seh_savexmm %xmm6, 0
	.seh_endprologue
	xorl	%r11d, %r11d
	testq	%r8, %r8
	sete	%bl
	movl	(%rcx), %r10d
	movl	$2, %eax
	cmpq	$32, %r10
	ja	.Laes_v3_BB59_8
# %bb.1:                                # %start
	movabsq	$4311810048, %rsi               # imm = 0x101010000
	btq	%r10, %rsi
	jae	.Laes_v3_BB59_8
# %bb.2:                                # %join.3.i
	vmovdqu	(%rdx), %xmm1
	testq	%r9, %r9
	je	.Laes_v3_BB59_7
# %bb.3:                                # %join.5.lr.ph.i.i
	movb	%bl, %r11b
	shll	$12, %r11d
	addq	%r11, %r8
	shrl	$2, %r10d
	shlq	$4, %r10
	leaq	96(%r10), %rax
	movl	%eax, %r11d
	andl	$48, %r11d
	leaq	.Laes_v3_static.3(%rip), %rsi
	vmovdqu	(%r11,%rsi), %xmm0
	addq	$80, %r10
	xorl	%r11d, %r11d
	.p2align	4
.Laes_v3_BB59_4:                               # %join.5.i.i
                                        # =>This Loop Header: Depth=1
                                        #     Child Loop BB59_5 Depth 2
	movq	%r11, %rsi
	shlq	$4, %rsi
	vpxor	(%r8,%rsi), %xmm1, %xmm1
	vpxor	4(%rcx), %xmm1, %xmm2
	vpbroadcastd	.Laes_v3_CPI59_11(%rip), %xmm1 # xmm1 = [15,15,15,15,15,15,15,15,15,15,15,15,15,15,15,15]
	vpand	%xmm1, %xmm2, %xmm3
	vmovdqa	.Laes_v3_CPI59_1(%rip), %xmm4          # xmm4 = [0,1,28,29,45,44,49,48,39,38,59,58,10,11,22,23]
	vpshufb	%xmm3, %xmm4, %xmm3
	vpsrlw	$4, %xmm2, %xmm2
	vpand	%xmm1, %xmm2, %xmm2
	vmovdqa	.Laes_v3_CPI59_2(%rip), %xmm4          # xmm4 = [0,134,253,123,142,8,115,245,119,241,138,12,249,127,4,130]
	vpshufb	%xmm2, %xmm4, %xmm2
	vpxor	%xmm3, %xmm2, %xmm4
	xorl	%edi, %edi
	.p2align	4
.Laes_v3_BB59_5:                               # %join.5.i.i.i.i
                                        #   Parent Loop BB59_4 Depth=1
                                        # =>  This Inner Loop Header: Depth=2
	movq	%rdi, %rbx
	addq	$16, %rdi
	vpsrlw	$4, %xmm4, %xmm2
	vpand	%xmm1, %xmm2, %xmm5
	vpand	%xmm1, %xmm4, %xmm2
	vpxor	%xmm2, %xmm5, %xmm4
	vmovdqa	.Laes_v3_CPI59_3(%rip), %xmm3          # xmm3 = [128,2,1,15,9,5,14,12,13,4,11,10,7,8,6,3]
	vpshufb	%xmm2, %xmm3, %xmm6
	vmovdqa	.Laes_v3_CPI59_4(%rip), %xmm2          # xmm2 = [128,1,9,14,13,11,7,6,15,2,12,5,10,4,3,8]
	vpshufb	%xmm5, %xmm2, %xmm7
	vpshufb	%xmm4, %xmm2, %xmm8
	vpxor	%xmm6, %xmm7, %xmm7
	vpxor	%xmm6, %xmm8, %xmm6
	vpshufb	%xmm7, %xmm2, %xmm7
	vpshufb	%xmm6, %xmm2, %xmm6
	vpxor	%xmm4, %xmm7, %xmm4
	vpxor	%xmm5, %xmm6, %xmm5
	vmovdqa	.Laes_v3_CPI59_5(%rip), %xmm6          # xmm6 = [0,195,79,12,252,124,67,128,207,51,63,112,191,179,240,140]
	vpshufb	%xmm4, %xmm6, %xmm6
	vmovdqa	.Laes_v3_CPI59_6(%rip), %xmm7          # xmm7 = [0,230,114,183,229,198,197,35,81,180,3,113,32,151,82,148]
	vpshufb	%xmm5, %xmm7, %xmm7
	vpxor	%xmm6, %xmm7, %xmm6
	vmovdqa	.Laes_v3_CPI59_7(%rip), %xmm7          # xmm7 = [0,124,32,207,146,1,239,147,179,33,238,206,125,178,93,92]
	vpshufb	%xmm4, %xmm7, %xmm4
	vmovdqa	.Laes_v3_CPI59_8(%rip), %xmm7          # xmm7 = [0,209,229,247,230,37,18,195,38,192,55,210,244,3,17,52]
	vpshufb	%xmm5, %xmm7, %xmm5
	vpxor	%xmm4, %xmm5, %xmm4
	movl	%edi, %r14d
	andl	$48, %r14d
	leaq	.Laes_v3_static.4(%rip), %r15
	vmovdqu	(%r14,%r15), %xmm5
	vpshufb	%xmm5, %xmm6, %xmm7
	vpxor	%xmm7, %xmm4, %xmm4
	vpshufb	%xmm5, %xmm4, %xmm5
	leaq	.Laes_v3_static.5(%rip), %r15
	vpshufb	(%r14,%r15), %xmm6, %xmm6
	vpxor	20(%rcx,%rbx), %xmm5, %xmm5
	vpxor	%xmm4, %xmm6, %xmm4
	vpxor	%xmm4, %xmm5, %xmm4
	cmpq	%rdi, %r10
	jne	.Laes_v3_BB59_5
# %bb.6:                                # %"aes_permute::blocks::process_block::<#aedbc4fd156a355d>.exit.i.i"
                                        #   in Loop: Header=BB59_4 Depth=1
	vpsrlw	$4, %xmm4, %xmm5
	vpand	%xmm1, %xmm5, %xmm5
	vpand	%xmm1, %xmm4, %xmm1
	vpxor	%xmm1, %xmm5, %xmm4
	vpshufb	%xmm1, %xmm3, %xmm1
	vpshufb	%xmm5, %xmm2, %xmm3
	vpshufb	%xmm4, %xmm2, %xmm6
	vpxor	%xmm1, %xmm3, %xmm3
	vpxor	%xmm1, %xmm6, %xmm1
	vpshufb	%xmm3, %xmm2, %xmm3
	vpshufb	%xmm1, %xmm2, %xmm1
	vpxor	%xmm4, %xmm3, %xmm2
	vpxor	%xmm5, %xmm1, %xmm1
	vmovdqa	.Laes_v3_CPI59_9(%rip), %xmm3          # xmm3 = [0,203,215,176,33,141,103,172,123,90,234,61,70,246,145,28]
	vpshufb	%xmm2, %xmm3, %xmm2
	vmovdqa	.Laes_v3_CPI59_10(%rip), %xmm3         # xmm3 = [0,159,97,22,194,42,119,232,137,75,93,60,181,163,212,254]
	vpshufb	%xmm1, %xmm3, %xmm1
	vpxor	%xmm2, %xmm1, %xmm1
	vpshufb	%xmm0, %xmm1, %xmm1
	vpxor	4(%rcx,%rax), %xmm1, %xmm1
	vmovdqu	%xmm1, (%r8,%rsi)
	incq	%r11
	cmpq	%r9, %r11
	jne	.Laes_v3_BB59_4
.Laes_v3_BB59_7:                               # %"cbc::chain::Cbc::encrypt_blocks::<#cd78163963378b36>.exit.i"
	vmovdqu	%xmm1, (%rdx)
	xorl	%eax, %eax
.Laes_v3_BB59_8:                               # %"aes_c::chains::fotsgure_aes_cbc_encrypt.exit"
	vmovaps	(%rsp), %xmm6                   # 16-byte Reload
	vmovaps	16(%rsp), %xmm7                 # 16-byte Reload
	vmovaps	32(%rsp), %xmm8                 # 16-byte Reload
	vpxor	%xmm0, %xmm0, %xmm0
	vpxor	%xmm1, %xmm1, %xmm1
	vpxor	%xmm2, %xmm2, %xmm2
	vpxor	%xmm3, %xmm3, %xmm3
	vpxor	%xmm4, %xmm4, %xmm4
	vpxor	%xmm5, %xmm5, %xmm5
	xorl	%ecx, %ecx
	xorl	%edx, %edx
	xorl	%r8d, %r8d
	xorl	%r9d, %r9d
	xorl	%r10d, %r10d
	xorl	%r11d, %r11d
	addq	$48, %rsp
	popq	%rbx
	popq	%rdi
	popq	%rsi
	popq	%r14
	popq	%r15
	retq
	.seh_endproc
                                        # -- End function
	export_aes_v3	fotsgure_aes_cmac
	.p2align	4
aes_v3.fotsgure_aes_cmac:                      # @aes_v3.fotsgure_aes_cmac
.seh_proc aes_v3.fotsgure_aes_cmac
# %bb.0:                                # %start
	pushq	%rsi
	.seh_pushreg %rsi
	pushq	%rdi
	.seh_pushreg %rdi
	pushq	%rbx
	.seh_pushreg %rbx
	subq	$208, %rsp
	.seh_stackalloc 208
	vmovaps	%xmm15, 192(%rsp)               # 16-byte Spill
	.seh_savexmm %xmm15, 192
	vmovaps	%xmm14, 176(%rsp)               # 16-byte Spill
	.seh_savexmm %xmm14, 176
	vmovaps	%xmm13, 160(%rsp)               # 16-byte Spill
	.seh_savexmm %xmm13, 160
	vmovaps	%xmm12, 144(%rsp)               # 16-byte Spill
	.seh_savexmm %xmm12, 144
	vmovaps	%xmm11, 128(%rsp)               # 16-byte Spill
	.seh_savexmm %xmm11, 128
	vmovaps	%xmm10, 112(%rsp)               # 16-byte Spill
	.seh_savexmm %xmm10, 112
	vmovaps	%xmm9, 96(%rsp)                 # 16-byte Spill
	.seh_savexmm %xmm9, 96
	vmovaps	%xmm8, 80(%rsp)                 # 16-byte Spill
	.seh_savexmm %xmm8, 80
	vmovaps	%xmm7, 64(%rsp)                 # 16-byte Spill
	.seh_savexmm %xmm7, 64
	vmovaps	%xmm6, 48(%rsp)                 # 16-byte Spill
	.seh_savexmm %xmm6, 48
	.seh_endprologue
	movq	%r9, %rbx
	movl	(%rcx), %r9d
	movl	$2, %eax
	cmpq	$32, %r9
	ja	.Laes_v3_BB60_3
# %bb.1:                                # %start
	movabsq	$4311810048, %r10               # imm = 0x101010000
	btq	%r9, %r10
	jae	.Laes_v3_BB60_3
# %bb.2:                                # %join.3.i
	xorl	%eax, %eax
	testq	%rdx, %rdx
	sete	%al
	shll	$12, %eax
	addq	%rdx, %rax
	addq	$4, %rcx
	shrl	$2, %r9d
	addq	$7, %r9
	movq	%rcx, (%rsp)
	movq	%r9, 8(%rsp)
	movq	%rcx, 16(%rsp)
	movq	%r9, 24(%rsp)
	leaq	32(%rsp), %rdi
	movq	%rsp, %rsi
	movq	%rax, %rdx
	movq	%r8, %rcx
	callq	aes_v3.cmac.tags.tag
	vmovups	32(%rsp), %xmm0
	vmovups	%xmm0, (%rbx)
	callq	aes_v3.aes_cipher.zeroize.stack.wipe_stack.768
	xorl	%eax, %eax
.Laes_v3_BB60_3:                               # %"aes_c::tags::fotsgure_aes_cmac.exit"
	vmovaps	48(%rsp), %xmm6                 # 16-byte Reload
	vmovaps	64(%rsp), %xmm7                 # 16-byte Reload
	vmovaps	80(%rsp), %xmm8                 # 16-byte Reload
	vmovaps	96(%rsp), %xmm9                 # 16-byte Reload
	vmovaps	112(%rsp), %xmm10               # 16-byte Reload
	vmovaps	128(%rsp), %xmm11               # 16-byte Reload
	vmovaps	144(%rsp), %xmm12               # 16-byte Reload
	vmovaps	160(%rsp), %xmm13               # 16-byte Reload
	vmovaps	176(%rsp), %xmm14               # 16-byte Reload
	vmovaps	192(%rsp), %xmm15               # 16-byte Reload
	vpxor	%xmm0, %xmm0, %xmm0
	vpxor	%xmm1, %xmm1, %xmm1
	vpxor	%xmm2, %xmm2, %xmm2
	vpxor	%xmm3, %xmm3, %xmm3
	vpxor	%xmm4, %xmm4, %xmm4
	vpxor	%xmm5, %xmm5, %xmm5
	xorl	%ecx, %ecx
	xorl	%edx, %edx
	xorl	%r8d, %r8d
	xorl	%r9d, %r9d
	xorl	%r10d, %r10d
	xorl	%r11d, %r11d
	addq	$208, %rsp
	popq	%rbx
	popq	%rdi
	popq	%rsi
	retq
	.seh_endproc
                                        # -- End function
	export_aes_v3	fotsgure_aes_cmac_begin
	.p2align	4
aes_v3.fotsgure_aes_cmac_begin:                # @aes_v3.fotsgure_aes_cmac_begin
# %bb.0:                                # %start
	movl	(%rcx), %ecx
	movl	$2, %eax
	cmpq	$32, %rcx
	ja	.Laes_v3_BB61_3
# %bb.1:                                # %start
	movabsq	$4311810048, %r8                # imm = 0x101010000
	btq	%rcx, %r8
	jae	.Laes_v3_BB61_3
# %bb.2:                                # %join.3.i
	vxorps	%xmm0, %xmm0, %xmm0
	vmovups	%ymm0, 8(%rdx)
	movq	$0, 40(%rdx)
	movq	$1, (%rdx)
	xorl	%eax, %eax
.Laes_v3_BB61_3:                               # %"aes_c::tags::pieces::fotsgure_aes_cmac_begin.exit"
	vzeroupper
	vpxor	%xmm0, %xmm0, %xmm0
	vpxor	%xmm1, %xmm1, %xmm1
	vpxor	%xmm2, %xmm2, %xmm2
	vpxor	%xmm3, %xmm3, %xmm3
	vpxor	%xmm4, %xmm4, %xmm4
	vpxor	%xmm5, %xmm5, %xmm5
	xorl	%ecx, %ecx
	xorl	%edx, %edx
	xorl	%r8d, %r8d
	xorl	%r9d, %r9d
	xorl	%r10d, %r10d
	xorl	%r11d, %r11d
	retq
                                        # -- End function
	export_aes_v3	fotsgure_aes_cmac_finish
	.p2align	4
aes_v3.fotsgure_aes_cmac_finish:               # @aes_v3.fotsgure_aes_cmac_finish
.seh_proc aes_v3.fotsgure_aes_cmac_finish
# %bb.0:                                # %start
	pushq	%r14
	.seh_pushreg %r14
	pushq	%rsi
	.seh_pushreg %rsi
	pushq	%rdi
	.seh_pushreg %rdi
	pushq	%rbx
	.seh_pushreg %rbx
	subq	$184, %rsp
	.seh_stackalloc 184
	vmovaps	%xmm15, 160(%rsp)               # 16-byte Spill
	.seh_savexmm %xmm15, 160
	vmovaps	%xmm14, 144(%rsp)               # 16-byte Spill
	.seh_savexmm %xmm14, 144
	vmovaps	%xmm13, 128(%rsp)               # 16-byte Spill
	.seh_savexmm %xmm13, 128
	vmovaps	%xmm12, 112(%rsp)               # 16-byte Spill
	.seh_savexmm %xmm12, 112
	vmovaps	%xmm11, 96(%rsp)                # 16-byte Spill
	.seh_savexmm %xmm11, 96
	vmovaps	%xmm10, 80(%rsp)                # 16-byte Spill
	.seh_savexmm %xmm10, 80
	vmovaps	%xmm9, 64(%rsp)                 # 16-byte Spill
	.seh_savexmm %xmm9, 64
	vmovaps	%xmm8, 48(%rsp)                 # 16-byte Spill
	.seh_savexmm %xmm8, 48
	vmovaps	%xmm7, 32(%rsp)                 # 16-byte Spill
	.seh_savexmm %xmm7, 32
	vmovaps	%xmm6, 16(%rsp)                 # 16-byte Spill
	.seh_savexmm %xmm6, 16
	.seh_endprologue
	movl	(%rcx), %r10d
	movl	$2, %eax
	cmpq	$32, %r10
	ja	.Laes_v3_BB62_5
# %bb.1:                                # %start
	movq	%r8, %rbx
	movabsq	$4311810048, %r8                # imm = 0x101010000
	btq	%r10, %r8
	jae	.Laes_v3_BB62_5
# %bb.2:                                # %join.3.i
	cmpq	$1, (%rdx)
	jne	.Laes_v3_BB62_3
# %bb.4:                                # %arm.4.i
	shrl	$2, %r10d
	addq	$7, %r10
	vxorps	%xmm0, %xmm0, %xmm0
	vmovaps	%xmm0, (%rsp)
	addq	$4, %rcx
	movq	8(%rdx), %rax
	cmpq	$16, %rax
	movl	$16, %r9d
	cmovbq	%rax, %r9
	leaq	16(%rdx), %rax
	leaq	32(%rdx), %r8
	movq	%rsp, %rdi
	movq	%rcx, %rsi
	movq	%rdx, %r14
	movq	%r10, %rdx
	movq	%rax, %rcx
	callq	aes_v3.cmac.tags.tag_at_end
	movq	%r14, %rdi
	callq	aes_v3.cmac.pieces.MessageZeroize.zeroize
	callq	aes_v3.aes_cipher.zeroize.stack.wipe_stack.768
	vmovaps	(%rsp), %xmm0
	vmovups	%xmm0, (%rbx)
	xorl	%eax, %eax
	jmp	.Laes_v3_BB62_5
.Laes_v3_BB62_3:                               # %"cmac::pieces::Message::finish::<#cd78163963378b36>.exit.i"
	callq	aes_v3.aes_cipher.zeroize.stack.wipe_stack.768
	movl	$10, %eax
.Laes_v3_BB62_5:                               # %"aes_c::tags::pieces::fotsgure_aes_cmac_finish.exit"
	vmovaps	16(%rsp), %xmm6                 # 16-byte Reload
	vmovaps	32(%rsp), %xmm7                 # 16-byte Reload
	vmovaps	48(%rsp), %xmm8                 # 16-byte Reload
	vmovaps	64(%rsp), %xmm9                 # 16-byte Reload
	vmovaps	80(%rsp), %xmm10                # 16-byte Reload
	vmovaps	96(%rsp), %xmm11                # 16-byte Reload
	vmovaps	112(%rsp), %xmm12               # 16-byte Reload
	vmovaps	128(%rsp), %xmm13               # 16-byte Reload
	vmovaps	144(%rsp), %xmm14               # 16-byte Reload
	vmovaps	160(%rsp), %xmm15               # 16-byte Reload
	vpxor	%xmm0, %xmm0, %xmm0
	vpxor	%xmm1, %xmm1, %xmm1
	vpxor	%xmm2, %xmm2, %xmm2
	vpxor	%xmm3, %xmm3, %xmm3
	vpxor	%xmm4, %xmm4, %xmm4
	vpxor	%xmm5, %xmm5, %xmm5
	xorl	%ecx, %ecx
	xorl	%edx, %edx
	xorl	%r8d, %r8d
	xorl	%r9d, %r9d
	xorl	%r10d, %r10d
	xorl	%r11d, %r11d
	addq	$184, %rsp
	popq	%rbx
	popq	%rdi
	popq	%rsi
	popq	%r14
	retq
	.seh_endproc
                                        # -- End function
	export_aes_v3	fotsgure_aes_cmac_update
	.p2align	4
aes_v3.fotsgure_aes_cmac_update:               # @aes_v3.fotsgure_aes_cmac_update
.seh_proc aes_v3.fotsgure_aes_cmac_update
# %bb.0:                                # %start
	pushq	%rsi
	.seh_pushreg %rsi
	pushq	%rdi
	.seh_pushreg %rdi
	pushq	%rbx
	.seh_pushreg %rbx
	subq	$192, %rsp
	.seh_stackalloc 192
	vmovaps	%xmm15, 176(%rsp)               # 16-byte Spill
	.seh_savexmm %xmm15, 176
	vmovaps	%xmm14, 160(%rsp)               # 16-byte Spill
	.seh_savexmm %xmm14, 160
	vmovaps	%xmm13, 144(%rsp)               # 16-byte Spill
	.seh_savexmm %xmm13, 144
	vmovaps	%xmm12, 128(%rsp)               # 16-byte Spill
	.seh_savexmm %xmm12, 128
	vmovaps	%xmm11, 112(%rsp)               # 16-byte Spill
	.seh_savexmm %xmm11, 112
	vmovaps	%xmm10, 96(%rsp)                # 16-byte Spill
	.seh_savexmm %xmm10, 96
	vmovaps	%xmm9, 80(%rsp)                 # 16-byte Spill
	.seh_savexmm %xmm9, 80
	vmovaps	%xmm8, 64(%rsp)                 # 16-byte Spill
	.seh_savexmm %xmm8, 64
	vmovaps	%xmm7, 48(%rsp)                 # 16-byte Spill
	.seh_savexmm %xmm7, 48
	vmovaps	%xmm6, 32(%rsp)                 # 16-byte Spill
	.seh_savexmm %xmm6, 32
	.seh_endprologue
	xorl	%eax, %eax
	testq	%r8, %r8
	sete	%r10b
	movl	(%rcx), %r11d
	movl	$2, %ebx
	cmpq	$32, %r11
	ja	.Laes_v3_BB63_5
# %bb.1:                                # %start
	movabsq	$4311810048, %rsi               # imm = 0x101010000
	btq	%r11, %rsi
	jae	.Laes_v3_BB63_5
# %bb.2:                                # %join.3.i
	addq	$4, %rcx
	shrl	$2, %r11d
	addq	$7, %r11
	movq	%rcx, (%rsp)
	movq	%r11, 8(%rsp)
	movq	%rcx, 16(%rsp)
	movq	%r11, 24(%rsp)
	movl	$10, %ebx
	cmpq	$1, (%rdx)
	jne	.Laes_v3_BB63_4
# %bb.3:                                # %join.3.i.i
	movb	%r10b, %al
	shll	$12, %eax
	addq	%rax, %r8
	addq	$8, %rdx
	movq	%rsp, %rsi
	movq	%rdx, %rdi
	movq	%r8, %rdx
	movq	%r9, %rcx
	callq	aes_v3.cmac.chain_in_pieces.ChainInPieces.extend
	xorl	%ebx, %ebx
.Laes_v3_BB63_4:                               # %"cmac::pieces::Message::update::<#cd78163963378b36>.exit.i"
	callq	aes_v3.aes_cipher.zeroize.stack.wipe_stack.768
.Laes_v3_BB63_5:                               # %"aes_c::tags::pieces::fotsgure_aes_cmac_update.exit"
	movl	%ebx, %eax
	vmovaps	32(%rsp), %xmm6                 # 16-byte Reload
	vmovaps	48(%rsp), %xmm7                 # 16-byte Reload
	vmovaps	64(%rsp), %xmm8                 # 16-byte Reload
	vmovaps	80(%rsp), %xmm9                 # 16-byte Reload
	vmovaps	96(%rsp), %xmm10                # 16-byte Reload
	vmovaps	112(%rsp), %xmm11               # 16-byte Reload
	vmovaps	128(%rsp), %xmm12               # 16-byte Reload
	vmovaps	144(%rsp), %xmm13               # 16-byte Reload
	vmovaps	160(%rsp), %xmm14               # 16-byte Reload
	vmovaps	176(%rsp), %xmm15               # 16-byte Reload
	vpxor	%xmm0, %xmm0, %xmm0
	vpxor	%xmm1, %xmm1, %xmm1
	vpxor	%xmm2, %xmm2, %xmm2
	vpxor	%xmm3, %xmm3, %xmm3
	vpxor	%xmm4, %xmm4, %xmm4
	vpxor	%xmm5, %xmm5, %xmm5
	xorl	%ecx, %ecx
	xorl	%edx, %edx
	xorl	%r8d, %r8d
	xorl	%r9d, %r9d
	xorl	%r10d, %r10d
	xorl	%r11d, %r11d
	addq	$192, %rsp
	popq	%rbx
	popq	%rdi
	popq	%rsi
	retq
	.seh_endproc
                                        # -- End function
	export_aes_v3	fotsgure_aes_cmac_wipe
	.p2align	4
aes_v3.fotsgure_aes_cmac_wipe:                 # @aes_v3.fotsgure_aes_cmac_wipe
.seh_proc aes_v3.fotsgure_aes_cmac_wipe
# %bb.0:                                # %start
	pushq	%rsi
	.seh_pushreg %rsi
	pushq	%rdi
	.seh_pushreg %rdi
	subq	$168, %rsp
	.seh_stackalloc 168
	vmovaps	%xmm15, 144(%rsp)               # 16-byte Spill
	.seh_savexmm %xmm15, 144
	vmovaps	%xmm14, 128(%rsp)               # 16-byte Spill
	.seh_savexmm %xmm14, 128
	vmovaps	%xmm13, 112(%rsp)               # 16-byte Spill
	.seh_savexmm %xmm13, 112
	vmovaps	%xmm12, 96(%rsp)                # 16-byte Spill
	.seh_savexmm %xmm12, 96
	vmovaps	%xmm11, 80(%rsp)                # 16-byte Spill
	.seh_savexmm %xmm11, 80
	vmovaps	%xmm10, 64(%rsp)                # 16-byte Spill
	.seh_savexmm %xmm10, 64
	vmovaps	%xmm9, 48(%rsp)                 # 16-byte Spill
	.seh_savexmm %xmm9, 48
	vmovaps	%xmm8, 32(%rsp)                 # 16-byte Spill
	.seh_savexmm %xmm8, 32
	vmovaps	%xmm7, 16(%rsp)                 # 16-byte Spill
	.seh_savexmm %xmm7, 16
	vmovaps	%xmm6, (%rsp)                   # 16-byte Spill
	.seh_savexmm %xmm6, 0
	.seh_endprologue
	vxorps	%xmm0, %xmm0, %xmm0
	vmovups	%ymm0, 16(%rcx)
	vmovups	%ymm0, (%rcx)
	movq	%rcx, %rdi
	vzeroupper
	callq	aes_v3.cmac.pieces.MessageZeroize.zeroize
	vmovaps	(%rsp), %xmm6                   # 16-byte Reload
	vmovaps	16(%rsp), %xmm7                 # 16-byte Reload
	vmovaps	32(%rsp), %xmm8                 # 16-byte Reload
	vmovaps	48(%rsp), %xmm9                 # 16-byte Reload
	vmovaps	64(%rsp), %xmm10                # 16-byte Reload
	vmovaps	80(%rsp), %xmm11                # 16-byte Reload
	vmovaps	96(%rsp), %xmm12                # 16-byte Reload
	vmovaps	112(%rsp), %xmm13               # 16-byte Reload
	vmovaps	128(%rsp), %xmm14               # 16-byte Reload
	vmovaps	144(%rsp), %xmm15               # 16-byte Reload
	vpxor	%xmm0, %xmm0, %xmm0
	vpxor	%xmm1, %xmm1, %xmm1
	vpxor	%xmm2, %xmm2, %xmm2
	vpxor	%xmm3, %xmm3, %xmm3
	vpxor	%xmm4, %xmm4, %xmm4
	vpxor	%xmm5, %xmm5, %xmm5
	xorl	%ecx, %ecx
	xorl	%edx, %edx
	xorl	%r8d, %r8d
	xorl	%r9d, %r9d
	xorl	%r10d, %r10d
	xorl	%r11d, %r11d
	addq	$168, %rsp
	popq	%rdi
	popq	%rsi
	retq
	.seh_endproc
                                        # -- End function
	export_aes_v3	fotsgure_aes_encrypt_blocks
	.p2align	4
aes_v3.fotsgure_aes_encrypt_blocks:            # @aes_v3.fotsgure_aes_encrypt_blocks
.seh_proc aes_v3.fotsgure_aes_encrypt_blocks
# %bb.0:                                # %start
	pushq	%r15
	.seh_pushreg %r15
	pushq	%r14
	.seh_pushreg %r14
	pushq	%r13
	.seh_pushreg %r13
	pushq	%r12
	.seh_pushreg %r12
	pushq	%rsi
	.seh_pushreg %rsi
	pushq	%rdi
	.seh_pushreg %rdi
	pushq	%rbp
	.seh_pushreg %rbp
	pushq	%rbx
	.seh_pushreg %rbx
	subq	$168, %rsp
	.seh_stackalloc 168
	vmovaps	%xmm15, 144(%rsp)               # 16-byte Spill
	.seh_savexmm %xmm15, 144
	vmovaps	%xmm14, 128(%rsp)               # 16-byte Spill
	.seh_savexmm %xmm14, 128
	vmovaps	%xmm13, 112(%rsp)               # 16-byte Spill
	.seh_savexmm %xmm13, 112
	vmovaps	%xmm12, 96(%rsp)                # 16-byte Spill
	.seh_savexmm %xmm12, 96
	vmovaps	%xmm11, 80(%rsp)                # 16-byte Spill
	.seh_savexmm %xmm11, 80
	vmovaps	%xmm10, 64(%rsp)                # 16-byte Spill
	.seh_savexmm %xmm10, 64
	vmovaps	%xmm9, 48(%rsp)                 # 16-byte Spill
	.seh_savexmm %xmm9, 48
	vmovaps	%xmm8, 32(%rsp)                 # 16-byte Spill
	.seh_savexmm %xmm8, 32
	vmovaps	%xmm7, 16(%rsp)                 # 16-byte Spill
	.seh_savexmm %xmm7, 16
	vmovaps	%xmm6, (%rsp)                   # 16-byte Spill
	.seh_savexmm %xmm6, 0
	.seh_endprologue
	movq	%rcx, %r14
	xorl	%eax, %eax
	testq	%rdx, %rdx
	sete	%cl
	movl	(%r14), %r15d
	movl	$2, %r12d
	cmpq	$32, %r15
	ja	.Laes_v3_BB65_6
# %bb.1:                                # %start
	movq	%r8, %rbx
	movabsq	$4311810048, %r8                # imm = 0x101010000
	btq	%r15, %r8
	jae	.Laes_v3_BB65_6
# %bb.2:                                # %join.3.i
	movb	%cl, %al
	shll	$12, %eax
	addq	%rax, %rdx
	addq	$4, %r14
	shrl	$2, %r15d
	addq	$7, %r15
	xorl	%r12d, %r12d
	cmpq	$32, %rbx
	jae	.Laes_v3_BB65_4
# %bb.3:
	xorl	%r13d, %r13d
	jmp	.Laes_v3_BB65_5
.Laes_v3_BB65_4:                               # %join.6.i.i.i
	movl	%ebx, %eax
	andl	$15, %eax
	xorl	%ecx, %ecx
	cmpq	$13, %rax
	cmovbq	%rax, %rcx
	movq	%rbx, %r13
	subq	%rcx, %r13
	movq	%r14, %rdi
	movq	%r15, %rsi
	movq	%rdx, %rbp
	movq	%r13, %rcx
	callq	aes_v3.aes_hybrid.batches.process_on_planes.1
	movq	%rbp, %rdx
.Laes_v3_BB65_5:                               # %"aes_hybrid::borrowed_cipher::BorrowedCipher::process_blocks::<#78a94b2617106825>.exit.i"
	subq	%r13, %rbx
	shlq	$4, %r13
	addq	%r13, %rdx
	movq	%r14, %rdi
	movq	%r15, %rsi
	movq	%rbx, %rcx
	callq	aes_v3.aes_permute.blocks.process_on_lanes.1
.Laes_v3_BB65_6:                               # %"aes_c::blocks::fotsgure_aes_encrypt_blocks.exit"
	movl	%r12d, %eax
	vmovaps	(%rsp), %xmm6                   # 16-byte Reload
	vmovaps	16(%rsp), %xmm7                 # 16-byte Reload
	vmovaps	32(%rsp), %xmm8                 # 16-byte Reload
	vmovaps	48(%rsp), %xmm9                 # 16-byte Reload
	vmovaps	64(%rsp), %xmm10                # 16-byte Reload
	vmovaps	80(%rsp), %xmm11                # 16-byte Reload
	vmovaps	96(%rsp), %xmm12                # 16-byte Reload
	vmovaps	112(%rsp), %xmm13               # 16-byte Reload
	vmovaps	128(%rsp), %xmm14               # 16-byte Reload
	vmovaps	144(%rsp), %xmm15               # 16-byte Reload
	vpxor	%xmm0, %xmm0, %xmm0
	vpxor	%xmm1, %xmm1, %xmm1
	vpxor	%xmm2, %xmm2, %xmm2
	vpxor	%xmm3, %xmm3, %xmm3
	vpxor	%xmm4, %xmm4, %xmm4
	vpxor	%xmm5, %xmm5, %xmm5
	xorl	%ecx, %ecx
	xorl	%edx, %edx
	xorl	%r8d, %r8d
	xorl	%r9d, %r9d
	xorl	%r10d, %r10d
	xorl	%r11d, %r11d
	addq	$168, %rsp
	popq	%rbx
	popq	%rbp
	popq	%rdi
	popq	%rsi
	popq	%r12
	popq	%r13
	popq	%r14
	popq	%r15
	retq
	.seh_endproc
                                        # -- End function
	export_aes_v3	fotsgure_aes_encrypt_blocks_to
	.p2align	4
aes_v3.fotsgure_aes_encrypt_blocks_to:         # @aes_v3.fotsgure_aes_encrypt_blocks_to
.seh_proc aes_v3.fotsgure_aes_encrypt_blocks_to
# %bb.0:                                # %start
	pushq	%r15
	.seh_pushreg %r15
	pushq	%r14
	.seh_pushreg %r14
	pushq	%r13
	.seh_pushreg %r13
	pushq	%r12
	.seh_pushreg %r12
	pushq	%rsi
	.seh_pushreg %rsi
	pushq	%rdi
	.seh_pushreg %rdi
	pushq	%rbx
	.seh_pushreg %rbx
	subq	$192, %rsp
	.seh_stackalloc 192
	vmovaps	%xmm15, 176(%rsp)               # 16-byte Spill
	.seh_savexmm %xmm15, 176
	vmovaps	%xmm14, 160(%rsp)               # 16-byte Spill
	.seh_savexmm %xmm14, 160
	vmovaps	%xmm13, 144(%rsp)               # 16-byte Spill
	.seh_savexmm %xmm13, 144
	vmovaps	%xmm12, 128(%rsp)               # 16-byte Spill
	.seh_savexmm %xmm12, 128
	vmovaps	%xmm11, 112(%rsp)               # 16-byte Spill
	.seh_savexmm %xmm11, 112
	vmovaps	%xmm10, 96(%rsp)                # 16-byte Spill
	.seh_savexmm %xmm10, 96
	vmovaps	%xmm9, 80(%rsp)                 # 16-byte Spill
	.seh_savexmm %xmm9, 80
	vmovaps	%xmm8, 64(%rsp)                 # 16-byte Spill
	.seh_savexmm %xmm8, 64
	vmovaps	%xmm7, 48(%rsp)                 # 16-byte Spill
	.seh_savexmm %xmm7, 48
	vmovaps	%xmm6, 32(%rsp)                 # 16-byte Spill
	.seh_savexmm %xmm6, 32
	.seh_endprologue
	xorl	%r11d, %r11d
	testq	%rdx, %rdx
	sete	%dil
	xorl	%r10d, %r10d
	testq	%r9, %r9
	sete	%sil
	movl	$3, %eax
	cmpq	288(%rsp), %r8
	jne	.Laes_v3_BB66_18
# %bb.1:                                # %join.3.i
	movl	(%rcx), %ebx
	movl	$2, %eax
	cmpq	$32, %rbx
	ja	.Laes_v3_BB66_18
# %bb.2:                                # %join.3.i
	movabsq	$4311810048, %r14               # imm = 0x101010000
	btq	%rbx, %r14
	jae	.Laes_v3_BB66_18
# %bb.3:                                # %join.6.i
	movb	%dil, %r11b
	shll	$12, %r11d
	addq	%r11, %rdx
	movb	%sil, %r10b
	shll	$12, %r10d
	addq	%r10, %r9
	movq	%r8, %rax
	shlq	$4, %rax
	movq	%r9, %r10
	subq	%rdx, %r10
	cmpq	%rax, %r10
	jae	.Laes_v3_BB66_8
# %bb.4:                                # %loop.4.preheader.i.i.i.i.i.i.i
	testq	%r8, %r8
	je	.Laes_v3_BB66_7
# %bb.5:                                # %join.7.i.i.i.i.i.i.i.preheader
	movl	%r8d, %eax
	andl	$7, %eax
	cmpq	$8, %r8
	jae	.Laes_v3_BB66_9
# %bb.6:
	xorl	%r10d, %r10d
	jmp	.Laes_v3_BB66_12
.Laes_v3_BB66_8:                               # %apart.2.i.i.i.i.i.i.i
	movq	%rcx, %rsi
	movq	%r9, %rcx
	movq	%r8, %rdi
	movq	%rax, %r8
	movq	%r9, %rbx
	callq	memmove
	movq	%rsi, %rcx
	movq	%rdi, %r8
	movq	%rbx, %r9
	jmp	.Laes_v3_BB66_14
.Laes_v3_BB66_7:                               # %"core::slice::edits::slice+T::copy_from_slice::<#b9e87c6de6ee7501>.exit.thread.i"
	addq	$4, %rcx
	shrl	$2, %ebx
	addq	$7, %rbx
	xorl	%r14d, %r14d
	jmp	.Laes_v3_BB66_17
.Laes_v3_BB66_9:                               # %join.7.i.i.i.i.i.i.i.preheader.new
	movq	%r8, %r11
	andq	$-8, %r11
	movl	$112, %esi
	xorl	%r10d, %r10d
	.p2align	4
.Laes_v3_BB66_10:                              # %join.7.i.i.i.i.i.i.i
                                        # =>This Inner Loop Header: Depth=1
	vmovups	-112(%rdx,%rsi), %xmm0
	vmovups	%xmm0, -112(%r9,%rsi)
	vmovups	-96(%rdx,%rsi), %xmm0
	vmovups	%xmm0, -96(%r9,%rsi)
	vmovups	-80(%rdx,%rsi), %xmm0
	vmovups	%xmm0, -80(%r9,%rsi)
	vmovups	-64(%rdx,%rsi), %xmm0
	vmovups	%xmm0, -64(%r9,%rsi)
	vmovups	-48(%rdx,%rsi), %xmm0
	vmovups	%xmm0, -48(%r9,%rsi)
	vmovups	-32(%rdx,%rsi), %xmm0
	vmovups	%xmm0, -32(%r9,%rsi)
	vmovups	-16(%rdx,%rsi), %xmm0
	vmovups	%xmm0, -16(%r9,%rsi)
	vmovups	(%rdx,%rsi), %xmm0
	vmovups	%xmm0, (%r9,%rsi)
	addq	$8, %r10
	subq	$-128, %rsi
	cmpq	%r10, %r11
	jne	.Laes_v3_BB66_10
# %bb.11:                               # %"core::slice::edits::slice+T::copy_from_slice::<#b9e87c6de6ee7501>.exit.i.loopexit.unr-lcssa"
	testq	%rax, %rax
	je	.Laes_v3_BB66_14
.Laes_v3_BB66_12:                              # %join.7.i.i.i.i.i.i.i.epil.preheader
	shlq	$4, %r10
	addq	%r10, %rdx
	addq	%r9, %r10
	shll	$4, %eax
	xorl	%r11d, %r11d
	.p2align	4
.Laes_v3_BB66_13:                              # %join.7.i.i.i.i.i.i.i.epil
                                        # =>This Inner Loop Header: Depth=1
	vmovups	(%rdx,%r11), %xmm0
	vmovups	%xmm0, (%r10,%r11)
	addq	$16, %r11
	cmpq	%r11, %rax
	jne	.Laes_v3_BB66_13
.Laes_v3_BB66_14:                              # %"core::slice::edits::slice+T::copy_from_slice::<#b9e87c6de6ee7501>.exit.i"
	movl	(%rcx), %ebx
	addq	$4, %rcx
	shrl	$2, %ebx
	addq	$7, %rbx
	cmpq	$32, %r8
	jae	.Laes_v3_BB66_16
# %bb.15:
	xorl	%r14d, %r14d
	jmp	.Laes_v3_BB66_17
.Laes_v3_BB66_16:                              # %join.6.i.i.i
	movl	%r8d, %eax
	andl	$15, %eax
	xorl	%edx, %edx
	cmpq	$13, %rax
	cmovbq	%rax, %rdx
	movq	%r8, %r14
	subq	%rdx, %r14
	movq	%rcx, %rdi
	movq	%rbx, %rsi
	movq	%r9, %rdx
	movq	%rcx, %r15
	movq	%r14, %rcx
	movq	%r9, %r12
	movq	%r8, %r13
	callq	aes_v3.aes_hybrid.batches.process_on_planes.1
	movq	%r15, %rcx
	movq	%r13, %r8
	movq	%r12, %r9
.Laes_v3_BB66_17:                              # %"aes_hybrid::borrowed_cipher::BorrowedCipher::process_blocks::<#78a94b2617106825>.exit.i"
	subq	%r14, %r8
	shlq	$4, %r14
	addq	%r14, %r9
	movq	%rcx, %rdi
	movq	%rbx, %rsi
	movq	%r9, %rdx
	movq	%r8, %rcx
	callq	aes_v3.aes_permute.blocks.process_on_lanes.1
	xorl	%eax, %eax
.Laes_v3_BB66_18:                              # %"aes_c::blocks::fotsgure_aes_encrypt_blocks_to.exit"
	vmovaps	32(%rsp), %xmm6                 # 16-byte Reload
	vmovaps	48(%rsp), %xmm7                 # 16-byte Reload
	vmovaps	64(%rsp), %xmm8                 # 16-byte Reload
	vmovaps	80(%rsp), %xmm9                 # 16-byte Reload
	vmovaps	96(%rsp), %xmm10                # 16-byte Reload
	vmovaps	112(%rsp), %xmm11               # 16-byte Reload
	vmovaps	128(%rsp), %xmm12               # 16-byte Reload
	vmovaps	144(%rsp), %xmm13               # 16-byte Reload
	vmovaps	160(%rsp), %xmm14               # 16-byte Reload
	vmovaps	176(%rsp), %xmm15               # 16-byte Reload
	vpxor	%xmm0, %xmm0, %xmm0
	vpxor	%xmm1, %xmm1, %xmm1
	vpxor	%xmm2, %xmm2, %xmm2
	vpxor	%xmm3, %xmm3, %xmm3
	vpxor	%xmm4, %xmm4, %xmm4
	vpxor	%xmm5, %xmm5, %xmm5
	xorl	%ecx, %ecx
	xorl	%edx, %edx
	xorl	%r8d, %r8d
	xorl	%r9d, %r9d
	xorl	%r10d, %r10d
	xorl	%r11d, %r11d
	addq	$192, %rsp
	popq	%rbx
	popq	%rdi
	popq	%rsi
	popq	%r12
	popq	%r13
	popq	%r14
	popq	%r15
	retq
	.seh_endproc
                                        # -- End function
	export_aes_v3	fotsgure_aes_encrypt_blocks_with
	.p2align	4
aes_v3.fotsgure_aes_encrypt_blocks_with:       # @aes_v3.fotsgure_aes_encrypt_blocks_with
.seh_proc aes_v3.fotsgure_aes_encrypt_blocks_with
# %bb.0:                                # %start
	pushq	%r15
	.seh_pushreg %r15
	pushq	%r14
	.seh_pushreg %r14
	pushq	%r13
	.seh_pushreg %r13
	pushq	%r12
	.seh_pushreg %r12
	pushq	%rsi
	.seh_pushreg %rsi
	pushq	%rdi
	.seh_pushreg %rdi
	pushq	%rbp
	.seh_pushreg %rbp
	pushq	%rbx
	.seh_pushreg %rbx
	subq	$424, %rsp                      # imm = 0x1A8
	.seh_stackalloc 424
	vmovaps	%xmm15, 400(%rsp)               # 16-byte Spill
	.seh_savexmm %xmm15, 400
	vmovaps	%xmm14, 384(%rsp)               # 16-byte Spill
	.seh_savexmm %xmm14, 384
	vmovaps	%xmm13, 368(%rsp)               # 16-byte Spill
	.seh_savexmm %xmm13, 368
	vmovaps	%xmm12, 352(%rsp)               # 16-byte Spill
	.seh_savexmm %xmm12, 352
	vmovaps	%xmm11, 336(%rsp)               # 16-byte Spill
	.seh_savexmm %xmm11, 336
	vmovaps	%xmm10, 320(%rsp)               # 16-byte Spill
	.seh_savexmm %xmm10, 320
	vmovaps	%xmm9, 304(%rsp)                # 16-byte Spill
	.seh_savexmm %xmm9, 304
	vmovaps	%xmm8, 288(%rsp)                # 16-byte Spill
	.seh_savexmm %xmm8, 288
	vmovaps	%xmm7, 272(%rsp)                # 16-byte Spill
	.seh_savexmm %xmm7, 272
	vmovaps	%xmm6, 256(%rsp)                # 16-byte Spill
	.seh_savexmm %xmm6, 256
	.seh_endprologue
	movq	%rdx, %rbp
	xorl	%eax, %eax
	testq	%r8, %r8
	sete	%dl
	movl	$1, %r12d
	cmpq	$32, %rbp
	ja	.Laes_v3_BB67_6
# %bb.1:                                # %start
	movq	%r8, %r14
	movabsq	$4311810048, %r8                # imm = 0x101010000
	btq	%rbp, %r8
	jae	.Laes_v3_BB67_6
# %bb.2:                                # %join.3.i
	movq	%r9, %rbx
	movb	%dl, %al
	shll	$12, %eax
	addq	%rax, %r14
	xorl	%esi, %esi
	testq	%rcx, %rcx
	sete	%sil
	shll	$12, %esi
	addq	%rcx, %rsi
	leaq	16(%rsp), %r15
	movq	%rbp, %r13
	shrq	$2, %r13
	addq	$7, %r13
	vxorps	%xmm0, %xmm0, %xmm0
	vmovups	%ymm0, 224(%rsp)
	vmovups	%ymm0, 192(%rsp)
	vmovups	%ymm0, 160(%rsp)
	vmovups	%ymm0, 128(%rsp)
	vmovups	%ymm0, 96(%rsp)
	vmovups	%ymm0, 64(%rsp)
	vmovups	%ymm0, 32(%rsp)
	movq	%r15, %rdi
	movq	%rbp, %rdx
	vzeroupper
	callq	aes_v3.aes_permute.lane_keys.expand_lanes
	movl	%ebp, 12(%rsp)
	xorl	%r12d, %r12d
	cmpq	$32, %rbx
	jae	.Laes_v3_BB67_4
# %bb.3:
	xorl	%ebp, %ebp
	jmp	.Laes_v3_BB67_5
.Laes_v3_BB67_4:                               # %join.6.i.i.i
	movl	%ebx, %eax
	andl	$15, %eax
	xorl	%ecx, %ecx
	cmpq	$13, %rax
	cmovbq	%rax, %rcx
	movq	%rbx, %rbp
	subq	%rcx, %rbp
	movq	%r15, %rdi
	movq	%r13, %rsi
	movq	%r14, %rdx
	movq	%rbp, %rcx
	callq	aes_v3.aes_hybrid.batches.process_on_planes.1
.Laes_v3_BB67_5:                               # %"aes_hybrid::borrowed_cipher::BorrowedCipher::process_blocks::<#78a94b2617106825>.exit.i"
	subq	%rbp, %rbx
	shlq	$4, %rbp
	addq	%rbp, %r14
	movq	%r15, %rdi
	movq	%r13, %rsi
	movq	%r14, %rdx
	movq	%rbx, %rcx
	callq	aes_v3.aes_permute.blocks.process_on_lanes.1
	movl	$0, 12(%rsp)
	movq	%r15, %rdi
	callq	aes_v3.aes_cipher.zeroize.elements.zeroize_elements.1
.Laes_v3_BB67_6:                               # %"aes_c::once::fotsgure_aes_encrypt_blocks_with.exit"
	movl	%r12d, %eax
	vmovaps	256(%rsp), %xmm6                # 16-byte Reload
	vmovaps	272(%rsp), %xmm7                # 16-byte Reload
	vmovaps	288(%rsp), %xmm8                # 16-byte Reload
	vmovaps	304(%rsp), %xmm9                # 16-byte Reload
	vmovaps	320(%rsp), %xmm10               # 16-byte Reload
	vmovaps	336(%rsp), %xmm11               # 16-byte Reload
	vmovaps	352(%rsp), %xmm12               # 16-byte Reload
	vmovaps	368(%rsp), %xmm13               # 16-byte Reload
	vmovaps	384(%rsp), %xmm14               # 16-byte Reload
	vmovaps	400(%rsp), %xmm15               # 16-byte Reload
	vpxor	%xmm0, %xmm0, %xmm0
	vpxor	%xmm1, %xmm1, %xmm1
	vpxor	%xmm2, %xmm2, %xmm2
	vpxor	%xmm3, %xmm3, %xmm3
	vpxor	%xmm4, %xmm4, %xmm4
	vpxor	%xmm5, %xmm5, %xmm5
	xorl	%ecx, %ecx
	xorl	%edx, %edx
	xorl	%r8d, %r8d
	xorl	%r9d, %r9d
	xorl	%r10d, %r10d
	xorl	%r11d, %r11d
	addq	$424, %rsp                      # imm = 0x1A8
	popq	%rbx
	popq	%rbp
	popq	%rdi
	popq	%rsi
	popq	%r12
	popq	%r13
	popq	%r14
	popq	%r15
	retq
	.seh_endproc
                                        # -- End function
	export_aes_v3	fotsgure_aes_key_length
	.p2align	4
aes_v3.fotsgure_aes_key_length:                # @aes_v3.fotsgure_aes_key_length
# %bb.0:                                # %start
	movl	(%rcx), %ecx
	xorl	%eax, %eax
	cmpq	$32, %rcx
	ja	.Laes_v3_BB68_3
# %bb.1:                                # %start
	movabsq	$4311810048, %rdx               # imm = 0x101010000
	btq	%rcx, %rdx
	jae	.Laes_v3_BB68_3
# %bb.2:                                # %then.1.i.i
	movq	%rcx, %rax
.Laes_v3_BB68_3:                               # %"aes_c::kept::fotsgure_aes_key_length.exit"
	vpxor	%xmm0, %xmm0, %xmm0
	vpxor	%xmm1, %xmm1, %xmm1
	vpxor	%xmm2, %xmm2, %xmm2
	vpxor	%xmm3, %xmm3, %xmm3
	vpxor	%xmm4, %xmm4, %xmm4
	vpxor	%xmm5, %xmm5, %xmm5
	xorl	%ecx, %ecx
	xorl	%edx, %edx
	xorl	%r8d, %r8d
	xorl	%r9d, %r9d
	xorl	%r10d, %r10d
	xorl	%r11d, %r11d
	retq
                                        # -- End function
	export_aes_v3	fotsgure_aes_set_key
	.p2align	4
aes_v3.fotsgure_aes_set_key:                   # @aes_v3.fotsgure_aes_set_key
.seh_proc aes_v3.fotsgure_aes_set_key
# %bb.0:                                # %start
	pushq	%rsi
	.seh_pushreg %rsi
	pushq	%rdi
	.seh_pushreg %rdi
	subq	$168, %rsp
	.seh_stackalloc 168
	vmovaps	%xmm15, 144(%rsp)               # 16-byte Spill
	.seh_savexmm %xmm15, 144
	vmovaps	%xmm14, 128(%rsp)               # 16-byte Spill
	.seh_savexmm %xmm14, 128
	vmovaps	%xmm13, 112(%rsp)               # 16-byte Spill
	.seh_savexmm %xmm13, 112
	vmovaps	%xmm12, 96(%rsp)                # 16-byte Spill
	.seh_savexmm %xmm12, 96
	vmovaps	%xmm11, 80(%rsp)                # 16-byte Spill
	.seh_savexmm %xmm11, 80
	vmovaps	%xmm10, 64(%rsp)                # 16-byte Spill
	.seh_savexmm %xmm10, 64
	vmovaps	%xmm9, 48(%rsp)                 # 16-byte Spill
	.seh_savexmm %xmm9, 48
	vmovaps	%xmm8, 32(%rsp)                 # 16-byte Spill
	.seh_savexmm %xmm8, 32
	vmovaps	%xmm7, 16(%rsp)                 # 16-byte Spill
	.seh_savexmm %xmm7, 16
	vmovaps	%xmm6, (%rsp)                   # 16-byte Spill
	.seh_savexmm %xmm6, 0
	.seh_endprologue
	xorl	%esi, %esi
	testq	%rdx, %rdx
	sete	%sil
	shll	$12, %esi
	addq	%rdx, %rsi
	movq	%rcx, %rdi
	movq	%r8, %rdx
	callq	aes_v3.aes_c.kept.fotsgure_aes_set_key
	vmovaps	(%rsp), %xmm6                   # 16-byte Reload
	vmovaps	16(%rsp), %xmm7                 # 16-byte Reload
	vmovaps	32(%rsp), %xmm8                 # 16-byte Reload
	vmovaps	48(%rsp), %xmm9                 # 16-byte Reload
	vmovaps	64(%rsp), %xmm10                # 16-byte Reload
	vmovaps	80(%rsp), %xmm11                # 16-byte Reload
	vmovaps	96(%rsp), %xmm12                # 16-byte Reload
	vmovaps	112(%rsp), %xmm13               # 16-byte Reload
	vmovaps	128(%rsp), %xmm14               # 16-byte Reload
	vmovaps	144(%rsp), %xmm15               # 16-byte Reload
	vpxor	%xmm0, %xmm0, %xmm0
	vpxor	%xmm1, %xmm1, %xmm1
	vpxor	%xmm2, %xmm2, %xmm2
	vpxor	%xmm3, %xmm3, %xmm3
	vpxor	%xmm4, %xmm4, %xmm4
	vpxor	%xmm5, %xmm5, %xmm5
	xorl	%ecx, %ecx
	xorl	%edx, %edx
	xorl	%r8d, %r8d
	xorl	%r9d, %r9d
	xorl	%r10d, %r10d
	xorl	%r11d, %r11d
	addq	$168, %rsp
	popq	%rdi
	popq	%rsi
	retq
	.seh_endproc
                                        # -- End function
	export_aes_v3	fotsgure_aes_version
	.p2align	4
aes_v3.fotsgure_aes_version:                   # @aes_v3.fotsgure_aes_version
# %bb.0:                                # %start
	movl	$400, %eax                      # imm = 0x190
	vpxor	%xmm0, %xmm0, %xmm0
	vpxor	%xmm1, %xmm1, %xmm1
	vpxor	%xmm2, %xmm2, %xmm2
	vpxor	%xmm3, %xmm3, %xmm3
	vpxor	%xmm4, %xmm4, %xmm4
	vpxor	%xmm5, %xmm5, %xmm5
	xorl	%ecx, %ecx
	xorl	%edx, %edx
	xorl	%r8d, %r8d
	xorl	%r9d, %r9d
	xorl	%r10d, %r10d
	xorl	%r11d, %r11d
	retq
                                        # -- End function
	export_aes_v3	fotsgure_aes_wipe
	.p2align	4
aes_v3.fotsgure_aes_wipe:                      # @aes_v3.fotsgure_aes_wipe
.seh_proc aes_v3.fotsgure_aes_wipe
# %bb.0:                                # %start
	pushq	%rsi
	.seh_pushreg %rsi
	pushq	%rdi
	.seh_pushreg %rdi
	pushq	%rbx
	.seh_pushreg %rbx
	subq	$160, %rsp
	.seh_stackalloc 160
	vmovaps	%xmm15, 144(%rsp)               # 16-byte Spill
	.seh_savexmm %xmm15, 144
	vmovaps	%xmm14, 128(%rsp)               # 16-byte Spill
	.seh_savexmm %xmm14, 128
	vmovaps	%xmm13, 112(%rsp)               # 16-byte Spill
	.seh_savexmm %xmm13, 112
	vmovaps	%xmm12, 96(%rsp)                # 16-byte Spill
	.seh_savexmm %xmm12, 96
	vmovaps	%xmm11, 80(%rsp)                # 16-byte Spill
	.seh_savexmm %xmm11, 80
	vmovaps	%xmm10, 64(%rsp)                # 16-byte Spill
	.seh_savexmm %xmm10, 64
	vmovaps	%xmm9, 48(%rsp)                 # 16-byte Spill
	.seh_savexmm %xmm9, 48
	vmovaps	%xmm8, 32(%rsp)                 # 16-byte Spill
	.seh_savexmm %xmm8, 32
	vmovaps	%xmm7, 16(%rsp)                 # 16-byte Spill
	.seh_savexmm %xmm7, 16
	vmovaps	%xmm6, (%rsp)                   # 16-byte Spill
	.seh_savexmm %xmm6, 0
	.seh_endprologue
	leaq	4(%rcx), %rdi
	vxorps	%xmm0, %xmm0, %xmm0
	vmovups	%ymm0, 448(%rcx)
	vmovups	%ymm0, 416(%rcx)
	vmovups	%ymm0, 384(%rcx)
	vmovups	%ymm0, 352(%rcx)
	vmovups	%ymm0, 320(%rcx)
	vmovups	%ymm0, 288(%rcx)
	vmovups	%ymm0, 256(%rcx)
	vmovups	%ymm0, 224(%rcx)
	vmovups	%ymm0, 192(%rcx)
	vmovups	%ymm0, 160(%rcx)
	vmovups	%ymm0, 128(%rcx)
	vmovups	%ymm0, 96(%rcx)
	vmovups	%ymm0, 64(%rcx)
	vmovups	%ymm0, 32(%rcx)
	leaq	244(%rcx), %rbx
	vmovups	%ymm0, (%rcx)
	movl	$0, 480(%rcx)
	vzeroupper
	callq	aes_v3.aes_cipher.zeroize.elements.zeroize_elements.1
	movq	%rbx, %rdi
	callq	aes_v3.aes_cipher.zeroize.elements.zeroize_elements.1
	vmovaps	(%rsp), %xmm6                   # 16-byte Reload
	vmovaps	16(%rsp), %xmm7                 # 16-byte Reload
	vmovaps	32(%rsp), %xmm8                 # 16-byte Reload
	vmovaps	48(%rsp), %xmm9                 # 16-byte Reload
	vmovaps	64(%rsp), %xmm10                # 16-byte Reload
	vmovaps	80(%rsp), %xmm11                # 16-byte Reload
	vmovaps	96(%rsp), %xmm12                # 16-byte Reload
	vmovaps	112(%rsp), %xmm13               # 16-byte Reload
	vmovaps	128(%rsp), %xmm14               # 16-byte Reload
	vmovaps	144(%rsp), %xmm15               # 16-byte Reload
	vpxor	%xmm0, %xmm0, %xmm0
	vpxor	%xmm1, %xmm1, %xmm1
	vpxor	%xmm2, %xmm2, %xmm2
	vpxor	%xmm3, %xmm3, %xmm3
	vpxor	%xmm4, %xmm4, %xmm4
	vpxor	%xmm5, %xmm5, %xmm5
	xorl	%ecx, %ecx
	xorl	%edx, %edx
	xorl	%r8d, %r8d
	xorl	%r9d, %r9d
	xorl	%r10d, %r10d
	xorl	%r11d, %r11d
	addq	$160, %rsp
	popq	%rbx
	popq	%rdi
	popq	%rsi
	retq
	.seh_endproc
                                        # -- End function
	export_aes_v3	fotsgure_aes_wrap
	.p2align	4
aes_v3.fotsgure_aes_wrap:                      # @aes_v3.fotsgure_aes_wrap
.seh_proc aes_v3.fotsgure_aes_wrap
# %bb.0:                                # %start
	pushq	%rsi
	.seh_pushreg %rsi
	pushq	%rdi
	.seh_pushreg %rdi
	pushq	%rbx
	.seh_pushreg %rbx
	subq	$192, %rsp
	.seh_stackalloc 192
	vmovaps	%xmm15, 176(%rsp)               # 16-byte Spill
	.seh_savexmm %xmm15, 176
	vmovaps	%xmm14, 160(%rsp)               # 16-byte Spill
	.seh_savexmm %xmm14, 160
	vmovaps	%xmm13, 144(%rsp)               # 16-byte Spill
	.seh_savexmm %xmm13, 144
	vmovaps	%xmm12, 128(%rsp)               # 16-byte Spill
	.seh_savexmm %xmm12, 128
	vmovaps	%xmm11, 112(%rsp)               # 16-byte Spill
	.seh_savexmm %xmm11, 112
	vmovaps	%xmm10, 96(%rsp)                # 16-byte Spill
	.seh_savexmm %xmm10, 96
	vmovaps	%xmm9, 80(%rsp)                 # 16-byte Spill
	.seh_savexmm %xmm9, 80
	vmovaps	%xmm8, 64(%rsp)                 # 16-byte Spill
	.seh_savexmm %xmm8, 64
	vmovaps	%xmm7, 48(%rsp)                 # 16-byte Spill
	.seh_savexmm %xmm7, 48
	vmovaps	%xmm6, 32(%rsp)                 # 16-byte Spill
	.seh_savexmm %xmm6, 32
	.seh_endprologue
	movl	(%rcx), %r11d
	movl	$2, %eax
	cmpq	$32, %r11
	ja	.Laes_v3_BB72_3
# %bb.1:                                # %start
	movabsq	$4311810048, %r10               # imm = 0x101010000
	btq	%r11, %r10
	jae	.Laes_v3_BB72_3
# %bb.2:                                # %join.3.i
	movq	256(%rsp), %rax
	xorl	%r10d, %r10d
	testq	%r9, %r9
	sete	%r10b
	shll	$12, %r10d
	addq	%r9, %r10
	xorl	%esi, %esi
	testq	%rdx, %rdx
	sete	%sil
	shll	$12, %esi
	addq	%rdx, %rsi
	addq	$4, %rcx
	shrl	$2, %r11d
	addq	$7, %r11
	movq	%rcx, (%rsp)
	movq	%r11, 8(%rsp)
	movq	%rcx, 16(%rsp)
	movq	%r11, 24(%rsp)
	movq	%rsp, %rdi
	movq	%r8, %rdx
	movq	%r10, %rcx
	movq	%rax, %r8
	callq	aes_v3.key_wrap.wrapping.wrap
	movl	%eax, %ebx
	callq	aes_v3.aes_cipher.zeroize.stack.wipe_stack.512
	movzbl	%bl, %eax
	leal	(%rax,%rax,4), %eax
.Laes_v3_BB72_3:                               # %"aes_c::wrapping::fotsgure_aes_wrap.exit"
	vmovaps	32(%rsp), %xmm6                 # 16-byte Reload
	vmovaps	48(%rsp), %xmm7                 # 16-byte Reload
	vmovaps	64(%rsp), %xmm8                 # 16-byte Reload
	vmovaps	80(%rsp), %xmm9                 # 16-byte Reload
	vmovaps	96(%rsp), %xmm10                # 16-byte Reload
	vmovaps	112(%rsp), %xmm11               # 16-byte Reload
	vmovaps	128(%rsp), %xmm12               # 16-byte Reload
	vmovaps	144(%rsp), %xmm13               # 16-byte Reload
	vmovaps	160(%rsp), %xmm14               # 16-byte Reload
	vmovaps	176(%rsp), %xmm15               # 16-byte Reload
	vpxor	%xmm0, %xmm0, %xmm0
	vpxor	%xmm1, %xmm1, %xmm1
	vpxor	%xmm2, %xmm2, %xmm2
	vpxor	%xmm3, %xmm3, %xmm3
	vpxor	%xmm4, %xmm4, %xmm4
	vpxor	%xmm5, %xmm5, %xmm5
	xorl	%ecx, %ecx
	xorl	%edx, %edx
	xorl	%r8d, %r8d
	xorl	%r9d, %r9d
	xorl	%r10d, %r10d
	xorl	%r11d, %r11d
	addq	$192, %rsp
	popq	%rbx
	popq	%rdi
	popq	%rsi
	retq
	.seh_endproc
                                        # -- End function
	export_aes_v3	fotsgure_aes_wrap_padded
	.p2align	4
aes_v3.fotsgure_aes_wrap_padded:               # @aes_v3.fotsgure_aes_wrap_padded
.seh_proc aes_v3.fotsgure_aes_wrap_padded
# %bb.0:                                # %start
	pushq	%rsi
	.seh_pushreg %rsi
	pushq	%rdi
	.seh_pushreg %rdi
	pushq	%rbx
	.seh_pushreg %rbx
	subq	$192, %rsp
	.seh_stackalloc 192
	vmovaps	%xmm15, 176(%rsp)               # 16-byte Spill
	.seh_savexmm %xmm15, 176
	vmovaps	%xmm14, 160(%rsp)               # 16-byte Spill
	.seh_savexmm %xmm14, 160
	vmovaps	%xmm13, 144(%rsp)               # 16-byte Spill
	.seh_savexmm %xmm13, 144
	vmovaps	%xmm12, 128(%rsp)               # 16-byte Spill
	.seh_savexmm %xmm12, 128
	vmovaps	%xmm11, 112(%rsp)               # 16-byte Spill
	.seh_savexmm %xmm11, 112
	vmovaps	%xmm10, 96(%rsp)                # 16-byte Spill
	.seh_savexmm %xmm10, 96
	vmovaps	%xmm9, 80(%rsp)                 # 16-byte Spill
	.seh_savexmm %xmm9, 80
	vmovaps	%xmm8, 64(%rsp)                 # 16-byte Spill
	.seh_savexmm %xmm8, 64
	vmovaps	%xmm7, 48(%rsp)                 # 16-byte Spill
	.seh_savexmm %xmm7, 48
	vmovaps	%xmm6, 32(%rsp)                 # 16-byte Spill
	.seh_savexmm %xmm6, 32
	.seh_endprologue
	movl	(%rcx), %r11d
	movl	$2, %eax
	cmpq	$32, %r11
	ja	.Laes_v3_BB73_3
# %bb.1:                                # %start
	movabsq	$4311810048, %r10               # imm = 0x101010000
	btq	%r11, %r10
	jae	.Laes_v3_BB73_3
# %bb.2:                                # %join.3.i
	movq	256(%rsp), %rax
	xorl	%r10d, %r10d
	testq	%r9, %r9
	sete	%r10b
	shll	$12, %r10d
	addq	%r9, %r10
	xorl	%esi, %esi
	testq	%rdx, %rdx
	sete	%sil
	shll	$12, %esi
	addq	%rdx, %rsi
	addq	$4, %rcx
	shrl	$2, %r11d
	addq	$7, %r11
	movq	%rcx, (%rsp)
	movq	%r11, 8(%rsp)
	movq	%rcx, 16(%rsp)
	movq	%r11, 24(%rsp)
	movq	%rsp, %rdi
	movq	%r8, %rdx
	movq	%r10, %rcx
	movq	%rax, %r8
	callq	aes_v3.key_wrap.padded.wrap_padded
	movl	%eax, %ebx
	callq	aes_v3.aes_cipher.zeroize.stack.wipe_stack.512
	movzbl	%bl, %eax
	leal	(%rax,%rax,4), %eax
.Laes_v3_BB73_3:                               # %"aes_c::wrapping::fotsgure_aes_wrap_padded.exit"
	vmovaps	32(%rsp), %xmm6                 # 16-byte Reload
	vmovaps	48(%rsp), %xmm7                 # 16-byte Reload
	vmovaps	64(%rsp), %xmm8                 # 16-byte Reload
	vmovaps	80(%rsp), %xmm9                 # 16-byte Reload
	vmovaps	96(%rsp), %xmm10                # 16-byte Reload
	vmovaps	112(%rsp), %xmm11               # 16-byte Reload
	vmovaps	128(%rsp), %xmm12               # 16-byte Reload
	vmovaps	144(%rsp), %xmm13               # 16-byte Reload
	vmovaps	160(%rsp), %xmm14               # 16-byte Reload
	vmovaps	176(%rsp), %xmm15               # 16-byte Reload
	vpxor	%xmm0, %xmm0, %xmm0
	vpxor	%xmm1, %xmm1, %xmm1
	vpxor	%xmm2, %xmm2, %xmm2
	vpxor	%xmm3, %xmm3, %xmm3
	vpxor	%xmm4, %xmm4, %xmm4
	vpxor	%xmm5, %xmm5, %xmm5
	xorl	%ecx, %ecx
	xorl	%edx, %edx
	xorl	%r8d, %r8d
	xorl	%r9d, %r9d
	xorl	%r10d, %r10d
	xorl	%r11d, %r11d
	addq	$192, %rsp
	popq	%rbx
	popq	%rdi
	popq	%rsi
	retq
	.seh_endproc
                                        # -- End function
	export_aes_v3	fotsgure_aes_cbc_decrypt
	.p2align	4
aes_v3.fotsgure_aes_cbc_decrypt:               # @aes_v3.fotsgure_aes_cbc_decrypt
.seh_proc aes_v3.fotsgure_aes_cbc_decrypt
# %bb.0:                                # %start
	pushq	%r15
	.seh_pushreg %r15
	pushq	%r14
	.seh_pushreg %r14
	pushq	%r13
	.seh_pushreg %r13
	pushq	%r12
	.seh_pushreg %r12
	pushq	%rsi
	.seh_pushreg %rsi
	pushq	%rdi
	.seh_pushreg %rdi
	pushq	%rbp
	.seh_pushreg %rbp
	pushq	%rbx
	.seh_pushreg %rbx
	subq	$1272, %rsp                     # imm = 0x4F8
	.seh_stackalloc 1272
	vmovaps	%xmm15, 1248(%rsp)              # 16-byte Spill
	.seh_savexmm %xmm15, 1248
	vmovaps	%xmm14, 1232(%rsp)              # 16-byte Spill
	.seh_savexmm %xmm14, 1232
	vmovaps	%xmm13, 1216(%rsp)              # 16-byte Spill
	.seh_savexmm %xmm13, 1216
	vmovaps	%xmm12, 1200(%rsp)              # 16-byte Spill
	.seh_savexmm %xmm12, 1200
	vmovaps	%xmm11, 1184(%rsp)              # 16-byte Spill
	.seh_savexmm %xmm11, 1184
	vmovaps	%xmm10, 1168(%rsp)              # 16-byte Spill
	.seh_savexmm %xmm10, 1168
	vmovaps	%xmm9, 1152(%rsp)               # 16-byte Spill
	.seh_savexmm %xmm9, 1152
	vmovaps	%xmm8, 1136(%rsp)               # 16-byte Spill
	.seh_savexmm %xmm8, 1136
	vmovaps	%xmm7, 1120(%rsp)               # 16-byte Spill
	.seh_savexmm %xmm7, 1120
	vmovaps	%xmm6, 1104(%rsp)               # 16-byte Spill
	.seh_savexmm %xmm6, 1104
	.seh_endprologue
	movq	%rdx, %r13
	xorl	%ebx, %ebx
	testq	%r8, %r8
	sete	%dl
	movl	(%rcx), %r15d
	movl	$2, %eax
	cmpq	$32, %r15
	ja	.Laes_v3_BB74_22
# %bb.1:                                # %start
	movq	%r9, %r14
	movabsq	$4311810048, %r9                # imm = 0x101010000
	btq	%r15, %r9
	jae	.Laes_v3_BB74_22
# %bb.2:                                # %join.3.i
	movb	%dl, %bl
	shll	$12, %ebx
	leaq	(%r8,%rbx), %rbp
	shrl	$2, %r15d
	addq	$7, %r15
	vmovups	(%r13), %xmm0
	vmovaps	%xmm0, 48(%rsp)
	leaq	244(%rcx), %r12
	movq	%rbp, 64(%rsp)
	movq	%r14, 72(%rsp)
	cmpq	$29, %r14
	jb	.Laes_v3_BB74_4
# %bb.3:                                # %then.1.i.i.i
	addq	$4, %rcx
	leaq	48(%rsp), %r8
	movq	%rcx, %rdi
	movq	%r15, %rsi
	movq	%r12, %rdx
	movq	%r15, %rcx
	callq	aes_v3.aes_hybrid.closures.lend_planes.2
	jmp	.Laes_v3_BB74_21
.Laes_v3_BB74_4:                               # %else.2.i.i.i
	testq	%r14, %r14
	je	.Laes_v3_BB74_21
# %bb.5:                                # %join.5.lr.ph.i.i.i.i
	movq	%r13, 40(%rsp)                  # 8-byte Spill
	movq	%r8, 32(%rsp)                   # 8-byte Spill
	movq	%r14, %rsi
	shlq	$4, %rsi
	movl	$1024, %r8d                     # imm = 0x400
	subq	%rsi, %r8
	leaq	(%rsp,%rsi), %rcx
	addq	$80, %rcx
	xorl	%r13d, %r13d
	xorl	%edx, %edx
	callq	memset
	leaq	80(%rsp), %rcx
	movq	%rbp, %rdx
	movq	%rsi, %r8
	callq	memcpy
	cmpq	$4, %r14
	jb	.Laes_v3_BB74_9
# %bb.6:                                # %join.5.i.i.i.i.i.i.preheader
	xorl	%r13d, %r13d
	.p2align	4
.Laes_v3_BB74_7:                               # %join.5.i.i.i.i.i.i
                                        # =>This Inner Loop Header: Depth=1
	movl	$4, %ecx
	movq	%r12, %rdi
	movq	%r15, %rsi
	movq	%rbp, %rdx
	callq	aes_v3.aes_permute.blocks.process_on_lanes.2
	addq	$64, %rbp
	leaq	(%r14,%r13), %rax
	addq	$-4, %rax
	addq	$-4, %r13
	cmpq	$3, %rax
	ja	.Laes_v3_BB74_7
# %bb.8:                                # %loop.7.preheader.i.i.i.i.i.i.loopexit
	negq	%r13
.Laes_v3_BB74_9:                               # %loop.7.preheader.i.i.i.i.i.i
	movq	%r14, %rbp
	subq	%r13, %rbp
	jbe	.Laes_v3_BB74_12
# %bb.10:                               # %join.10.i.i.i.i.i.i.preheader
	shlq	$4, %r13
	movq	32(%rsp), %rax                  # 8-byte Reload
	addq	%rbx, %rax
	addq	%rax, %r13
	.p2align	4
.Laes_v3_BB74_11:                              # %join.10.i.i.i.i.i.i
                                        # =>This Inner Loop Header: Depth=1
	movl	$1, %ecx
	movq	%r12, %rdi
	movq	%r15, %rsi
	movq	%r13, %rdx
	callq	aes_v3.aes_permute.blocks.process_on_lanes.2
	addq	$16, %r13
	decq	%rbp
	jne	.Laes_v3_BB74_11
.Laes_v3_BB74_12:                              # %join.7.lr.ph.i.i.i.i.i
	movl	%r14d, %eax
	andl	$3, %eax
	cmpq	$4, %r14
	jae	.Laes_v3_BB74_14
# %bb.13:
	leaq	48(%rsp), %rdx
	xorl	%r8d, %r8d
	movq	32(%rsp), %rcx                  # 8-byte Reload
	movq	40(%rsp), %r13                  # 8-byte Reload
	jmp	.Laes_v3_BB74_17
.Laes_v3_BB74_14:                              # %join.7.lr.ph.i.i.i.i.i.new
	andl	$28, %r14d
	movq	32(%rsp), %rcx                  # 8-byte Reload
	leaq	(%rbx,%rcx), %r9
	addq	$48, %r9
	leaq	48(%rsp), %r10
	leaq	128(%rsp), %rdx
	xorl	%r8d, %r8d
	movq	40(%rsp), %r13                  # 8-byte Reload
	.p2align	4
.Laes_v3_BB74_15:                              # %join.7.i.i.i.i.i
                                        # =>This Inner Loop Header: Depth=1
	vmovups	-48(%r9), %xmm0
	vxorps	(%r10), %xmm0, %xmm0
	movq	%rdx, %r10
	vmovups	-32(%r9), %xmm1
	vmovups	-16(%r9), %xmm2
	vmovups	(%r9), %xmm3
	vmovups	%xmm0, -48(%r9)
	vxorps	-48(%rdx), %xmm1, %xmm0
	vmovups	%xmm0, -32(%r9)
	vxorps	-32(%rdx), %xmm2, %xmm0
	vmovups	%xmm0, -16(%r9)
	vxorps	-16(%rdx), %xmm3, %xmm0
	vmovups	%xmm0, (%r9)
	addq	$4, %r8
	addq	$64, %r9
	addq	$64, %rdx
	cmpq	%r8, %r14
	jne	.Laes_v3_BB74_15
# %bb.16:                               # %"cbc::decryption::unchain_part::<#15dc3450dc474f07>.exit.loopexit.i.i.i.i.unr-lcssa"
	addq	$-64, %rdx
	testq	%rax, %rax
	je	.Laes_v3_BB74_20
.Laes_v3_BB74_17:                              # %join.7.i.i.i.i.i.epil.preheader
	shlq	$4, %r8
	leaq	(%rsp,%r8), %r9
	addq	$80, %r9
	addq	%rbx, %rcx
	addq	%r8, %rcx
	shll	$4, %eax
	xorl	%r8d, %r8d
	.p2align	4
.Laes_v3_BB74_18:                              # %join.7.i.i.i.i.i.epil
                                        # =>This Inner Loop Header: Depth=1
	vmovups	(%rcx,%r8), %xmm0
	vxorps	(%rdx), %xmm0, %xmm0
	vmovups	%xmm0, (%rcx,%r8)
	movq	%r9, %rdx
	addq	$16, %r9
	addq	$16, %r8
	cmpq	%r8, %rax
	jne	.Laes_v3_BB74_18
# %bb.19:                               # %"cbc::decryption::unchain_part::<#15dc3450dc474f07>.exit.loopexit.i.i.i.i.loopexit"
	addq	$-16, %r9
	movq	%r9, %rdx
.Laes_v3_BB74_20:                              # %"cbc::decryption::unchain_part::<#15dc3450dc474f07>.exit.loopexit.i.i.i.i"
	vmovups	(%rdx), %xmm0
	vmovaps	%xmm0, 48(%rsp)
.Laes_v3_BB74_21:                              # %"cbc::chain::Cbc::decrypt_blocks::<#6a90e3eaefb0221c>.exit.i"
	vmovaps	48(%rsp), %xmm0
	vmovups	%xmm0, (%r13)
	xorl	%eax, %eax
.Laes_v3_BB74_22:                              # %"aes_c::chains::fotsgure_aes_cbc_decrypt.exit"
	vmovaps	1104(%rsp), %xmm6               # 16-byte Reload
	vmovaps	1120(%rsp), %xmm7               # 16-byte Reload
	vmovaps	1136(%rsp), %xmm8               # 16-byte Reload
	vmovaps	1152(%rsp), %xmm9               # 16-byte Reload
	vmovaps	1168(%rsp), %xmm10              # 16-byte Reload
	vmovaps	1184(%rsp), %xmm11              # 16-byte Reload
	vmovaps	1200(%rsp), %xmm12              # 16-byte Reload
	vmovaps	1216(%rsp), %xmm13              # 16-byte Reload
	vmovaps	1232(%rsp), %xmm14              # 16-byte Reload
	vmovaps	1248(%rsp), %xmm15              # 16-byte Reload
	vpxor	%xmm0, %xmm0, %xmm0
	vpxor	%xmm1, %xmm1, %xmm1
	vpxor	%xmm2, %xmm2, %xmm2
	vpxor	%xmm3, %xmm3, %xmm3
	vpxor	%xmm4, %xmm4, %xmm4
	vpxor	%xmm5, %xmm5, %xmm5
	xorl	%ecx, %ecx
	xorl	%edx, %edx
	xorl	%r8d, %r8d
	xorl	%r9d, %r9d
	xorl	%r10d, %r10d
	xorl	%r11d, %r11d
	addq	$1272, %rsp                     # imm = 0x4F8
	popq	%rbx
	popq	%rbp
	popq	%rdi
	popq	%rsi
	popq	%r12
	popq	%r13
	popq	%r14
	popq	%r15
	retq
	.seh_endproc
                                        # -- End function
	export_aes_v3	fotsgure_aes_decrypt_blocks
	.p2align	4
aes_v3.fotsgure_aes_decrypt_blocks:            # @aes_v3.fotsgure_aes_decrypt_blocks
.seh_proc aes_v3.fotsgure_aes_decrypt_blocks
# %bb.0:                                # %start
	pushq	%r15
	.seh_pushreg %r15
	pushq	%r14
	.seh_pushreg %r14
	pushq	%r13
	.seh_pushreg %r13
	pushq	%r12
	.seh_pushreg %r12
	pushq	%rsi
	.seh_pushreg %rsi
	pushq	%rdi
	.seh_pushreg %rdi
	pushq	%rbp
	.seh_pushreg %rbp
	pushq	%rbx
	.seh_pushreg %rbx
	subq	$168, %rsp
	.seh_stackalloc 168
	vmovaps	%xmm15, 144(%rsp)               # 16-byte Spill
	.seh_savexmm %xmm15, 144
	vmovaps	%xmm14, 128(%rsp)               # 16-byte Spill
	.seh_savexmm %xmm14, 128
	vmovaps	%xmm13, 112(%rsp)               # 16-byte Spill
	.seh_savexmm %xmm13, 112
	vmovaps	%xmm12, 96(%rsp)                # 16-byte Spill
	.seh_savexmm %xmm12, 96
	vmovaps	%xmm11, 80(%rsp)                # 16-byte Spill
	.seh_savexmm %xmm11, 80
	vmovaps	%xmm10, 64(%rsp)                # 16-byte Spill
	.seh_savexmm %xmm10, 64
	vmovaps	%xmm9, 48(%rsp)                 # 16-byte Spill
	.seh_savexmm %xmm9, 48
	vmovaps	%xmm8, 32(%rsp)                 # 16-byte Spill
	.seh_savexmm %xmm8, 32
	vmovaps	%xmm7, 16(%rsp)                 # 16-byte Spill
	.seh_savexmm %xmm7, 16
	vmovaps	%xmm6, (%rsp)                   # 16-byte Spill
	.seh_savexmm %xmm6, 0
	.seh_endprologue
	movq	%r8, %rbx
	xorl	%eax, %eax
	testq	%rdx, %rdx
	sete	%r8b
	movl	(%rcx), %r14d
	movl	$2, %r15d
	cmpq	$32, %r14
	ja	.Laes_v3_BB75_6
# %bb.1:                                # %start
	movabsq	$4311810048, %r9                # imm = 0x101010000
	btq	%r14, %r9
	jae	.Laes_v3_BB75_6
# %bb.2:                                # %join.3.i
	movb	%r8b, %al
	shll	$12, %eax
	addq	%rax, %rdx
	shrl	$2, %r14d
	addq	$7, %r14
	leaq	244(%rcx), %r12
	xorl	%r15d, %r15d
	cmpq	$31, %rbx
	jae	.Laes_v3_BB75_4
# %bb.3:
	xorl	%r13d, %r13d
	jmp	.Laes_v3_BB75_5
.Laes_v3_BB75_4:                               # %join.6.i.i.i
	addq	$4, %rcx
	movl	%ebx, %eax
	andl	$15, %eax
	xorl	%r8d, %r8d
	cmpq	$13, %rax
	cmovbq	%rax, %r8
	movq	%rbx, %r13
	subq	%r8, %r13
	movq	%rcx, %rdi
	movq	%r14, %rsi
	movq	%rdx, %rbp
	movq	%r13, %rcx
	callq	aes_v3.aes_hybrid.batches.process_on_planes.2
	movq	%rbp, %rdx
.Laes_v3_BB75_5:                               # %"aes_hybrid::borrowed_cipher::BorrowedCipher::process_blocks::<#77c600061da204b5>.exit.i"
	subq	%r13, %rbx
	shlq	$4, %r13
	addq	%r13, %rdx
	movq	%r12, %rdi
	movq	%r14, %rsi
	movq	%rbx, %rcx
	callq	aes_v3.aes_permute.blocks.process_on_lanes.2
.Laes_v3_BB75_6:                               # %"aes_c::blocks::fotsgure_aes_decrypt_blocks.exit"
	movl	%r15d, %eax
	vmovaps	(%rsp), %xmm6                   # 16-byte Reload
	vmovaps	16(%rsp), %xmm7                 # 16-byte Reload
	vmovaps	32(%rsp), %xmm8                 # 16-byte Reload
	vmovaps	48(%rsp), %xmm9                 # 16-byte Reload
	vmovaps	64(%rsp), %xmm10                # 16-byte Reload
	vmovaps	80(%rsp), %xmm11                # 16-byte Reload
	vmovaps	96(%rsp), %xmm12                # 16-byte Reload
	vmovaps	112(%rsp), %xmm13               # 16-byte Reload
	vmovaps	128(%rsp), %xmm14               # 16-byte Reload
	vmovaps	144(%rsp), %xmm15               # 16-byte Reload
	vpxor	%xmm0, %xmm0, %xmm0
	vpxor	%xmm1, %xmm1, %xmm1
	vpxor	%xmm2, %xmm2, %xmm2
	vpxor	%xmm3, %xmm3, %xmm3
	vpxor	%xmm4, %xmm4, %xmm4
	vpxor	%xmm5, %xmm5, %xmm5
	xorl	%ecx, %ecx
	xorl	%edx, %edx
	xorl	%r8d, %r8d
	xorl	%r9d, %r9d
	xorl	%r10d, %r10d
	xorl	%r11d, %r11d
	addq	$168, %rsp
	popq	%rbx
	popq	%rbp
	popq	%rdi
	popq	%rsi
	popq	%r12
	popq	%r13
	popq	%r14
	popq	%r15
	retq
	.seh_endproc
                                        # -- End function
	export_aes_v3	fotsgure_aes_decrypt_blocks_to
	.p2align	4
aes_v3.fotsgure_aes_decrypt_blocks_to:         # @aes_v3.fotsgure_aes_decrypt_blocks_to
.seh_proc aes_v3.fotsgure_aes_decrypt_blocks_to
# %bb.0:                                # %start
	pushq	%r15
	.seh_pushreg %r15
	pushq	%r14
	.seh_pushreg %r14
	pushq	%r13
	.seh_pushreg %r13
	pushq	%r12
	.seh_pushreg %r12
	pushq	%rsi
	.seh_pushreg %rsi
	pushq	%rdi
	.seh_pushreg %rdi
	pushq	%rbx
	.seh_pushreg %rbx
	subq	$192, %rsp
	.seh_stackalloc 192
	vmovaps	%xmm15, 176(%rsp)               # 16-byte Spill
	.seh_savexmm %xmm15, 176
	vmovaps	%xmm14, 160(%rsp)               # 16-byte Spill
	.seh_savexmm %xmm14, 160
	vmovaps	%xmm13, 144(%rsp)               # 16-byte Spill
	.seh_savexmm %xmm13, 144
	vmovaps	%xmm12, 128(%rsp)               # 16-byte Spill
	.seh_savexmm %xmm12, 128
	vmovaps	%xmm11, 112(%rsp)               # 16-byte Spill
	.seh_savexmm %xmm11, 112
	vmovaps	%xmm10, 96(%rsp)                # 16-byte Spill
	.seh_savexmm %xmm10, 96
	vmovaps	%xmm9, 80(%rsp)                 # 16-byte Spill
	.seh_savexmm %xmm9, 80
	vmovaps	%xmm8, 64(%rsp)                 # 16-byte Spill
	.seh_savexmm %xmm8, 64
	vmovaps	%xmm7, 48(%rsp)                 # 16-byte Spill
	.seh_savexmm %xmm7, 48
	vmovaps	%xmm6, 32(%rsp)                 # 16-byte Spill
	.seh_savexmm %xmm6, 32
	.seh_endprologue
	xorl	%r11d, %r11d
	testq	%rdx, %rdx
	sete	%dil
	xorl	%r10d, %r10d
	testq	%r9, %r9
	sete	%sil
	movl	$3, %eax
	cmpq	288(%rsp), %r8
	jne	.Laes_v3_BB76_18
# %bb.1:                                # %join.3.i
	movl	(%rcx), %ebx
	movl	$2, %eax
	cmpq	$32, %rbx
	ja	.Laes_v3_BB76_18
# %bb.2:                                # %join.3.i
	movabsq	$4311810048, %r14               # imm = 0x101010000
	btq	%rbx, %r14
	jae	.Laes_v3_BB76_18
# %bb.3:                                # %join.6.i
	movb	%dil, %r11b
	shll	$12, %r11d
	addq	%r11, %rdx
	movb	%sil, %r10b
	shll	$12, %r10d
	addq	%r10, %r9
	movq	%r8, %rax
	shlq	$4, %rax
	movq	%r9, %r10
	subq	%rdx, %r10
	cmpq	%rax, %r10
	jae	.Laes_v3_BB76_8
# %bb.4:                                # %loop.4.preheader.i.i.i.i.i.i.i
	testq	%r8, %r8
	je	.Laes_v3_BB76_7
# %bb.5:                                # %join.7.i.i.i.i.i.i.i.preheader
	movl	%r8d, %eax
	andl	$7, %eax
	cmpq	$8, %r8
	jae	.Laes_v3_BB76_9
# %bb.6:
	xorl	%r10d, %r10d
	jmp	.Laes_v3_BB76_12
.Laes_v3_BB76_8:                               # %apart.2.i.i.i.i.i.i.i
	movq	%rcx, %rsi
	movq	%r9, %rcx
	movq	%r8, %rdi
	movq	%rax, %r8
	movq	%r9, %rbx
	callq	memmove
	movq	%rsi, %rcx
	movq	%rdi, %r8
	movq	%rbx, %r9
	jmp	.Laes_v3_BB76_14
.Laes_v3_BB76_7:                               # %"core::slice::edits::slice+T::copy_from_slice::<#b9e87c6de6ee7501>.exit.thread.i"
	shrl	$2, %ebx
	addq	$7, %rbx
	xorl	%r14d, %r14d
	jmp	.Laes_v3_BB76_17
.Laes_v3_BB76_9:                               # %join.7.i.i.i.i.i.i.i.preheader.new
	movq	%r8, %r11
	andq	$-8, %r11
	movl	$112, %esi
	xorl	%r10d, %r10d
	.p2align	4
.Laes_v3_BB76_10:                              # %join.7.i.i.i.i.i.i.i
                                        # =>This Inner Loop Header: Depth=1
	vmovups	-112(%rdx,%rsi), %xmm0
	vmovups	%xmm0, -112(%r9,%rsi)
	vmovups	-96(%rdx,%rsi), %xmm0
	vmovups	%xmm0, -96(%r9,%rsi)
	vmovups	-80(%rdx,%rsi), %xmm0
	vmovups	%xmm0, -80(%r9,%rsi)
	vmovups	-64(%rdx,%rsi), %xmm0
	vmovups	%xmm0, -64(%r9,%rsi)
	vmovups	-48(%rdx,%rsi), %xmm0
	vmovups	%xmm0, -48(%r9,%rsi)
	vmovups	-32(%rdx,%rsi), %xmm0
	vmovups	%xmm0, -32(%r9,%rsi)
	vmovups	-16(%rdx,%rsi), %xmm0
	vmovups	%xmm0, -16(%r9,%rsi)
	vmovups	(%rdx,%rsi), %xmm0
	vmovups	%xmm0, (%r9,%rsi)
	addq	$8, %r10
	subq	$-128, %rsi
	cmpq	%r10, %r11
	jne	.Laes_v3_BB76_10
# %bb.11:                               # %"core::slice::edits::slice+T::copy_from_slice::<#b9e87c6de6ee7501>.exit.i.loopexit.unr-lcssa"
	testq	%rax, %rax
	je	.Laes_v3_BB76_14
.Laes_v3_BB76_12:                              # %join.7.i.i.i.i.i.i.i.epil.preheader
	shlq	$4, %r10
	addq	%r10, %rdx
	addq	%r9, %r10
	shll	$4, %eax
	xorl	%r11d, %r11d
	.p2align	4
.Laes_v3_BB76_13:                              # %join.7.i.i.i.i.i.i.i.epil
                                        # =>This Inner Loop Header: Depth=1
	vmovups	(%rdx,%r11), %xmm0
	vmovups	%xmm0, (%r10,%r11)
	addq	$16, %r11
	cmpq	%r11, %rax
	jne	.Laes_v3_BB76_13
.Laes_v3_BB76_14:                              # %"core::slice::edits::slice+T::copy_from_slice::<#b9e87c6de6ee7501>.exit.i"
	movl	(%rcx), %ebx
	shrl	$2, %ebx
	addq	$7, %rbx
	cmpq	$31, %r8
	jae	.Laes_v3_BB76_16
# %bb.15:
	xorl	%r14d, %r14d
	jmp	.Laes_v3_BB76_17
.Laes_v3_BB76_16:                              # %join.6.i.i.i
	leaq	4(%rcx), %rdi
	movl	%r8d, %eax
	andl	$15, %eax
	xorl	%edx, %edx
	cmpq	$13, %rax
	cmovbq	%rax, %rdx
	movq	%r8, %r14
	subq	%rdx, %r14
	movq	%rbx, %rsi
	movq	%r9, %rdx
	movq	%rcx, %r15
	movq	%r14, %rcx
	movq	%r9, %r12
	movq	%r8, %r13
	callq	aes_v3.aes_hybrid.batches.process_on_planes.2
	movq	%r15, %rcx
	movq	%r13, %r8
	movq	%r12, %r9
.Laes_v3_BB76_17:                              # %"aes_hybrid::borrowed_cipher::BorrowedCipher::process_blocks::<#77c600061da204b5>.exit.i"
	addq	$244, %rcx
	subq	%r14, %r8
	shlq	$4, %r14
	addq	%r14, %r9
	movq	%rcx, %rdi
	movq	%rbx, %rsi
	movq	%r9, %rdx
	movq	%r8, %rcx
	callq	aes_v3.aes_permute.blocks.process_on_lanes.2
	xorl	%eax, %eax
.Laes_v3_BB76_18:                              # %"aes_c::blocks::fotsgure_aes_decrypt_blocks_to.exit"
	vmovaps	32(%rsp), %xmm6                 # 16-byte Reload
	vmovaps	48(%rsp), %xmm7                 # 16-byte Reload
	vmovaps	64(%rsp), %xmm8                 # 16-byte Reload
	vmovaps	80(%rsp), %xmm9                 # 16-byte Reload
	vmovaps	96(%rsp), %xmm10                # 16-byte Reload
	vmovaps	112(%rsp), %xmm11               # 16-byte Reload
	vmovaps	128(%rsp), %xmm12               # 16-byte Reload
	vmovaps	144(%rsp), %xmm13               # 16-byte Reload
	vmovaps	160(%rsp), %xmm14               # 16-byte Reload
	vmovaps	176(%rsp), %xmm15               # 16-byte Reload
	vpxor	%xmm0, %xmm0, %xmm0
	vpxor	%xmm1, %xmm1, %xmm1
	vpxor	%xmm2, %xmm2, %xmm2
	vpxor	%xmm3, %xmm3, %xmm3
	vpxor	%xmm4, %xmm4, %xmm4
	vpxor	%xmm5, %xmm5, %xmm5
	xorl	%ecx, %ecx
	xorl	%edx, %edx
	xorl	%r8d, %r8d
	xorl	%r9d, %r9d
	xorl	%r10d, %r10d
	xorl	%r11d, %r11d
	addq	$192, %rsp
	popq	%rbx
	popq	%rdi
	popq	%rsi
	popq	%r12
	popq	%r13
	popq	%r14
	popq	%r15
	retq
	.seh_endproc
                                        # -- End function
	export_aes_v3	fotsgure_aes_decrypt_blocks_with
	.p2align	4
aes_v3.fotsgure_aes_decrypt_blocks_with:       # @aes_v3.fotsgure_aes_decrypt_blocks_with
.seh_proc aes_v3.fotsgure_aes_decrypt_blocks_with
# %bb.0:                                # %start
	pushq	%r15
	.seh_pushreg %r15
	pushq	%r14
	.seh_pushreg %r14
	pushq	%r13
	.seh_pushreg %r13
	pushq	%r12
	.seh_pushreg %r12
	pushq	%rsi
	.seh_pushreg %rsi
	pushq	%rdi
	.seh_pushreg %rdi
	pushq	%rbp
	.seh_pushreg %rbp
	pushq	%rbx
	.seh_pushreg %rbx
	subq	$664, %rsp                      # imm = 0x298
	.seh_stackalloc 664
	vmovaps	%xmm15, 640(%rsp)               # 16-byte Spill
	.seh_savexmm %xmm15, 640
	vmovaps	%xmm14, 624(%rsp)               # 16-byte Spill
	.seh_savexmm %xmm14, 624
	vmovaps	%xmm13, 608(%rsp)               # 16-byte Spill
	.seh_savexmm %xmm13, 608
	vmovaps	%xmm12, 592(%rsp)               # 16-byte Spill
	.seh_savexmm %xmm12, 592
	vmovaps	%xmm11, 576(%rsp)               # 16-byte Spill
	.seh_savexmm %xmm11, 576
	vmovaps	%xmm10, 560(%rsp)               # 16-byte Spill
	.seh_savexmm %xmm10, 560
	vmovaps	%xmm9, 544(%rsp)                # 16-byte Spill
	.seh_savexmm %xmm9, 544
	vmovaps	%xmm8, 528(%rsp)                # 16-byte Spill
	.seh_savexmm %xmm8, 528
	vmovaps	%xmm7, 512(%rsp)                # 16-byte Spill
	.seh_savexmm %xmm7, 512
	vmovaps	%xmm6, 496(%rsp)                # 16-byte Spill
	.seh_savexmm %xmm6, 496
	.seh_endprologue
	movq	%r9, %r12
	movq	%r8, %r14
	xorl	%esi, %esi
	testq	%rcx, %rcx
	sete	%sil
	shll	$12, %esi
	addq	%rcx, %rsi
	xorl	%ebx, %ebx
	testq	%r8, %r8
	vxorps	%xmm0, %xmm0, %xmm0
	vmovups	%ymm0, 448(%rsp)
	vmovups	%ymm0, 416(%rsp)
	vmovups	%ymm0, 384(%rsp)
	vmovups	%ymm0, 352(%rsp)
	vmovups	%ymm0, 320(%rsp)
	vmovups	%ymm0, 288(%rsp)
	vmovups	%ymm0, 256(%rsp)
	vmovups	%ymm0, 224(%rsp)
	vmovups	%ymm0, 192(%rsp)
	vmovups	%ymm0, 160(%rsp)
	vmovups	%ymm0, 128(%rsp)
	vmovups	%ymm0, 96(%rsp)
	vmovups	%ymm0, 64(%rsp)
	vmovups	%ymm0, 32(%rsp)
	sete	%r15b
	vmovups	%ymm0, (%rsp)
	movl	$0, 480(%rsp)
	movq	%rsp, %rdi
	vzeroupper
	callq	aes_v3.aes_c.kept.fotsgure_aes_set_key
	movl	$1, %r13d
	testl	%eax, %eax
	jne	.Laes_v3_BB77_8
# %bb.1:                                # %join.3.i
	leaq	4(%rsp), %rdi
	movl	(%rsp), %ebp
	movl	$2, %r13d
	cmpq	$32, %rbp
	ja	.Laes_v3_BB77_7
# %bb.2:                                # %join.3.i
	movabsq	$4311810048, %rax               # imm = 0x101010000
	btq	%rbp, %rax
	jae	.Laes_v3_BB77_7
# %bb.3:                                # %join.3.i.i
	movb	%r15b, %bl
	shll	$12, %ebx
	addq	%rbx, %r14
	shrl	$2, %ebp
	addq	$7, %rbp
	xorl	%r13d, %r13d
	cmpq	$31, %r12
	jae	.Laes_v3_BB77_5
# %bb.4:
	movq	%rdi, %r15
	xorl	%ebx, %ebx
	jmp	.Laes_v3_BB77_6
.Laes_v3_BB77_5:                               # %join.6.i.i.i.i
	movl	%r12d, %eax
	andl	$15, %eax
	xorl	%ecx, %ecx
	cmpq	$13, %rax
	cmovbq	%rax, %rcx
	movq	%r12, %rbx
	subq	%rcx, %rbx
	movq	%rdi, %r15
	movq	%rbp, %rsi
	movq	%r14, %rdx
	movq	%rbx, %rcx
	callq	aes_v3.aes_hybrid.batches.process_on_planes.2
.Laes_v3_BB77_6:                               # %"aes_hybrid::borrowed_cipher::BorrowedCipher::process_blocks::<#77c600061da204b5>.exit.i.i"
	subq	%rbx, %r12
	shlq	$4, %rbx
	addq	%rbx, %r14
	leaq	244(%rsp), %rdi
	movq	%rbp, %rsi
	movq	%r14, %rdx
	movq	%r12, %rcx
	callq	aes_v3.aes_permute.blocks.process_on_lanes.2
	movq	%r15, %rdi
.Laes_v3_BB77_7:                               # %"aes_c::blocks::fotsgure_aes_decrypt_blocks.exit.i"
	movl	$0, (%rsp)
	callq	aes_v3.aes_cipher.zeroize.elements.zeroize_elements.1
	leaq	244(%rsp), %rdi
	callq	aes_v3.aes_cipher.zeroize.elements.zeroize_elements.1
.Laes_v3_BB77_8:                               # %"aes_c::once::fotsgure_aes_decrypt_blocks_with.exit"
	movl	%r13d, %eax
	vmovaps	496(%rsp), %xmm6                # 16-byte Reload
	vmovaps	512(%rsp), %xmm7                # 16-byte Reload
	vmovaps	528(%rsp), %xmm8                # 16-byte Reload
	vmovaps	544(%rsp), %xmm9                # 16-byte Reload
	vmovaps	560(%rsp), %xmm10               # 16-byte Reload
	vmovaps	576(%rsp), %xmm11               # 16-byte Reload
	vmovaps	592(%rsp), %xmm12               # 16-byte Reload
	vmovaps	608(%rsp), %xmm13               # 16-byte Reload
	vmovaps	624(%rsp), %xmm14               # 16-byte Reload
	vmovaps	640(%rsp), %xmm15               # 16-byte Reload
	vpxor	%xmm0, %xmm0, %xmm0
	vpxor	%xmm1, %xmm1, %xmm1
	vpxor	%xmm2, %xmm2, %xmm2
	vpxor	%xmm3, %xmm3, %xmm3
	vpxor	%xmm4, %xmm4, %xmm4
	vpxor	%xmm5, %xmm5, %xmm5
	xorl	%ecx, %ecx
	xorl	%edx, %edx
	xorl	%r8d, %r8d
	xorl	%r9d, %r9d
	xorl	%r10d, %r10d
	xorl	%r11d, %r11d
	addq	$664, %rsp                      # imm = 0x298
	popq	%rbx
	popq	%rbp
	popq	%rdi
	popq	%rsi
	popq	%r12
	popq	%r13
	popq	%r14
	popq	%r15
	retq
	.seh_endproc
                                        # -- End function
	export_aes_v3	fotsgure_aes_unwrap
	.p2align	4
aes_v3.fotsgure_aes_unwrap:                    # @aes_v3.fotsgure_aes_unwrap
.seh_proc aes_v3.fotsgure_aes_unwrap
# %bb.0:                                # %start
	pushq	%rsi
	.seh_pushreg %rsi
	pushq	%rdi
	.seh_pushreg %rdi
	pushq	%rbp
	.seh_pushreg %rbp
	pushq	%rbx
	.seh_pushreg %rbx
	subq	$200, %rsp
	.seh_stackalloc 200
	vmovaps	%xmm15, 176(%rsp)               # 16-byte Spill
	.seh_savexmm %xmm15, 176
	vmovaps	%xmm14, 160(%rsp)               # 16-byte Spill
	.seh_savexmm %xmm14, 160
	vmovaps	%xmm13, 144(%rsp)               # 16-byte Spill
	.seh_savexmm %xmm13, 144
	vmovaps	%xmm12, 128(%rsp)               # 16-byte Spill
	.seh_savexmm %xmm12, 128
	vmovaps	%xmm11, 112(%rsp)               # 16-byte Spill
	.seh_savexmm %xmm11, 112
	vmovaps	%xmm10, 96(%rsp)                # 16-byte Spill
	.seh_savexmm %xmm10, 96
	vmovaps	%xmm9, 80(%rsp)                 # 16-byte Spill
	.seh_savexmm %xmm9, 80
	vmovaps	%xmm8, 64(%rsp)                 # 16-byte Spill
	.seh_savexmm %xmm8, 64
	vmovaps	%xmm7, 48(%rsp)                 # 16-byte Spill
	.seh_savexmm %xmm7, 48
	vmovaps	%xmm6, 32(%rsp)                 # 16-byte Spill
	.seh_savexmm %xmm6, 32
	.seh_endprologue
	movl	(%rcx), %r11d
	movl	$2, %eax
	cmpq	$32, %r11
	ja	.Laes_v3_BB78_3
# %bb.1:                                # %start
	movabsq	$4311810048, %r10               # imm = 0x101010000
	btq	%r11, %r10
	jae	.Laes_v3_BB78_3
# %bb.2:                                # %join.3.i
	movq	272(%rsp), %rax
	xorl	%r10d, %r10d
	testq	%r9, %r9
	sete	%r10b
	shll	$12, %r10d
	addq	%r9, %r10
	xorl	%esi, %esi
	testq	%rdx, %rdx
	sete	%sil
	shll	$12, %esi
	addq	%rdx, %rsi
	leaq	4(%rcx), %rdx
	shrl	$2, %r11d
	addq	$7, %r11
	addq	$244, %rcx
	movq	%rdx, (%rsp)
	movq	%r11, 8(%rsp)
	movq	%rcx, 16(%rsp)
	movq	%r11, 24(%rsp)
	movq	%rsp, %rdi
	movq	%r8, %rdx
	movq	%r10, %rcx
	movq	%rax, %r8
	callq	aes_v3.key_wrap.wrapping.unwrap
	movl	%eax, %ebx
	movl	%edx, %ebp
	callq	aes_v3.aes_cipher.zeroize.stack.wipe_stack.512
	cmpb	$1, %bpl
	movl	$6, %ecx
	sbbl	$0, %ecx
	xorl	%eax, %eax
	testb	%bl, %bl
	cmovnel	%ecx, %eax
.Laes_v3_BB78_3:                               # %"aes_c::wrapping::fotsgure_aes_unwrap.exit"
	vmovaps	32(%rsp), %xmm6                 # 16-byte Reload
	vmovaps	48(%rsp), %xmm7                 # 16-byte Reload
	vmovaps	64(%rsp), %xmm8                 # 16-byte Reload
	vmovaps	80(%rsp), %xmm9                 # 16-byte Reload
	vmovaps	96(%rsp), %xmm10                # 16-byte Reload
	vmovaps	112(%rsp), %xmm11               # 16-byte Reload
	vmovaps	128(%rsp), %xmm12               # 16-byte Reload
	vmovaps	144(%rsp), %xmm13               # 16-byte Reload
	vmovaps	160(%rsp), %xmm14               # 16-byte Reload
	vmovaps	176(%rsp), %xmm15               # 16-byte Reload
	vpxor	%xmm0, %xmm0, %xmm0
	vpxor	%xmm1, %xmm1, %xmm1
	vpxor	%xmm2, %xmm2, %xmm2
	vpxor	%xmm3, %xmm3, %xmm3
	vpxor	%xmm4, %xmm4, %xmm4
	vpxor	%xmm5, %xmm5, %xmm5
	xorl	%ecx, %ecx
	xorl	%edx, %edx
	xorl	%r8d, %r8d
	xorl	%r9d, %r9d
	xorl	%r10d, %r10d
	xorl	%r11d, %r11d
	addq	$200, %rsp
	popq	%rbx
	popq	%rbp
	popq	%rdi
	popq	%rsi
	retq
	.seh_endproc
                                        # -- End function
	export_aes_v3	fotsgure_aes_unwrap_padded
	.p2align	4
aes_v3.fotsgure_aes_unwrap_padded:             # @aes_v3.fotsgure_aes_unwrap_padded
.seh_proc aes_v3.fotsgure_aes_unwrap_padded
# %bb.0:                                # %start
	pushq	%rsi
	.seh_pushreg %rsi
	pushq	%rdi
	.seh_pushreg %rdi
	pushq	%rbx
	.seh_pushreg %rbx
	subq	$208, %rsp
	.seh_stackalloc 208
	vmovaps	%xmm15, 192(%rsp)               # 16-byte Spill
	.seh_savexmm %xmm15, 192
	vmovaps	%xmm14, 176(%rsp)               # 16-byte Spill
	.seh_savexmm %xmm14, 176
	vmovaps	%xmm13, 160(%rsp)               # 16-byte Spill
	.seh_savexmm %xmm13, 160
	vmovaps	%xmm12, 144(%rsp)               # 16-byte Spill
	.seh_savexmm %xmm12, 144
	vmovaps	%xmm11, 128(%rsp)               # 16-byte Spill
	.seh_savexmm %xmm11, 128
	vmovaps	%xmm10, 112(%rsp)               # 16-byte Spill
	.seh_savexmm %xmm10, 112
	vmovaps	%xmm9, 96(%rsp)                 # 16-byte Spill
	.seh_savexmm %xmm9, 96
	vmovaps	%xmm8, 80(%rsp)                 # 16-byte Spill
	.seh_savexmm %xmm8, 80
	vmovaps	%xmm7, 64(%rsp)                 # 16-byte Spill
	.seh_savexmm %xmm7, 64
	vmovaps	%xmm6, 48(%rsp)                 # 16-byte Spill
	.seh_savexmm %xmm6, 48
	.seh_endprologue
	movq	280(%rsp), %rbx
	movq	$0, 8(%rsp)
	movq	$0, (%rbx)
	movl	(%rcx), %r11d
	movl	$2, %eax
	cmpq	$32, %r11
	ja	.Laes_v3_BB79_5
# %bb.1:                                # %start
	movq	%r9, %r10
	movabsq	$4311810048, %r9                # imm = 0x101010000
	btq	%r11, %r9
	jae	.Laes_v3_BB79_5
# %bb.2:                                # %join.3.i
	movq	272(%rsp), %r9
	xorl	%eax, %eax
	testq	%r10, %r10
	sete	%al
	shll	$12, %eax
	addq	%r10, %rax
	xorl	%r10d, %r10d
	testq	%rdx, %rdx
	sete	%r10b
	shll	$12, %r10d
	addq	%rdx, %r10
	leaq	4(%rcx), %rdx
	shrl	$2, %r11d
	addq	$7, %r11
	addq	$244, %rcx
	movq	%rdx, 16(%rsp)
	movq	%r11, 24(%rsp)
	movq	%rcx, 32(%rsp)
	movq	%r11, 40(%rsp)
	leaq	8(%rsp), %rdi
	leaq	16(%rsp), %rsi
	movq	%r10, %rdx
	movq	%r8, %rcx
	movq	%rax, %r8
	callq	aes_v3.key_wrap.padded.unwrap_padded
	callq	aes_v3.aes_cipher.zeroize.stack.wipe_stack.512
	cmpb	$0, 8(%rsp)
	je	.Laes_v3_BB79_3
# %bb.4:                                # %arm.5.i
	cmpb	$1, 9(%rsp)
	movl	$6, %eax
	sbbl	$0, %eax
	jmp	.Laes_v3_BB79_5
.Laes_v3_BB79_3:                               # %arm.4.i
	movl	12(%rsp), %eax
	movq	%rax, (%rbx)
	xorl	%eax, %eax
.Laes_v3_BB79_5:                               # %"aes_c::wrapping::fotsgure_aes_unwrap_padded.exit"
	vmovaps	48(%rsp), %xmm6                 # 16-byte Reload
	vmovaps	64(%rsp), %xmm7                 # 16-byte Reload
	vmovaps	80(%rsp), %xmm8                 # 16-byte Reload
	vmovaps	96(%rsp), %xmm9                 # 16-byte Reload
	vmovaps	112(%rsp), %xmm10               # 16-byte Reload
	vmovaps	128(%rsp), %xmm11               # 16-byte Reload
	vmovaps	144(%rsp), %xmm12               # 16-byte Reload
	vmovaps	160(%rsp), %xmm13               # 16-byte Reload
	vmovaps	176(%rsp), %xmm14               # 16-byte Reload
	vmovaps	192(%rsp), %xmm15               # 16-byte Reload
	vpxor	%xmm0, %xmm0, %xmm0
	vpxor	%xmm1, %xmm1, %xmm1
	vpxor	%xmm2, %xmm2, %xmm2
	vpxor	%xmm3, %xmm3, %xmm3
	vpxor	%xmm4, %xmm4, %xmm4
	vpxor	%xmm5, %xmm5, %xmm5
	xorl	%ecx, %ecx
	xorl	%edx, %edx
	xorl	%r8d, %r8d
	xorl	%r9d, %r9d
	xorl	%r10d, %r10d
	xorl	%r11d, %r11d
	addq	$208, %rsp
	popq	%rbx
	popq	%rdi
	popq	%rsi
	retq
	.seh_endproc
                                        # -- End function
	export_aes_v3	fotsgure_aes_inv_mix_columns
	.p2align	4
aes_v3.fotsgure_aes_inv_mix_columns:           # @aes_v3.fotsgure_aes_inv_mix_columns
.seh_proc aes_v3.fotsgure_aes_inv_mix_columns
# %bb.0:                                # %start
	pushq	%rsi
	.seh_pushreg %rsi
	pushq	%rdi
	.seh_pushreg %rdi
	subq	$168, %rsp
	.seh_stackalloc 168
	vmovaps	%xmm15, 144(%rsp)               # 16-byte Spill
	.seh_savexmm %xmm15, 144
	vmovaps	%xmm14, 128(%rsp)               # 16-byte Spill
	.seh_savexmm %xmm14, 128
	vmovaps	%xmm13, 112(%rsp)               # 16-byte Spill
	.seh_savexmm %xmm13, 112
	vmovaps	%xmm12, 96(%rsp)                # 16-byte Spill
	.seh_savexmm %xmm12, 96
	vmovaps	%xmm11, 80(%rsp)                # 16-byte Spill
	.seh_savexmm %xmm11, 80
	vmovaps	%xmm10, 64(%rsp)                # 16-byte Spill
	.seh_savexmm %xmm10, 64
	vmovaps	%xmm9, 48(%rsp)                 # 16-byte Spill
	.seh_savexmm %xmm9, 48
	vmovaps	%xmm8, 32(%rsp)                 # 16-byte Spill
	.seh_savexmm %xmm8, 32
	vmovaps	%xmm7, 16(%rsp)                 # 16-byte Spill
	.seh_savexmm %xmm7, 16
	vmovaps	%xmm6, (%rsp)                   # 16-byte Spill
	.seh_savexmm %xmm6, 0
	.seh_endprologue
	movq	%rcx, %rdi
	callq	aes_v3.aes_c.single_rounds.inverse_mixed
	callq	aes_v3.aes_cipher.zeroize.stack.wipe_stack.512
	vmovaps	(%rsp), %xmm6                   # 16-byte Reload
	vmovaps	16(%rsp), %xmm7                 # 16-byte Reload
	vmovaps	32(%rsp), %xmm8                 # 16-byte Reload
	vmovaps	48(%rsp), %xmm9                 # 16-byte Reload
	vmovaps	64(%rsp), %xmm10                # 16-byte Reload
	vmovaps	80(%rsp), %xmm11                # 16-byte Reload
	vmovaps	96(%rsp), %xmm12                # 16-byte Reload
	vmovaps	112(%rsp), %xmm13               # 16-byte Reload
	vmovaps	128(%rsp), %xmm14               # 16-byte Reload
	vmovaps	144(%rsp), %xmm15               # 16-byte Reload
	vpxor	%xmm0, %xmm0, %xmm0
	vpxor	%xmm1, %xmm1, %xmm1
	vpxor	%xmm2, %xmm2, %xmm2
	vpxor	%xmm3, %xmm3, %xmm3
	vpxor	%xmm4, %xmm4, %xmm4
	vpxor	%xmm5, %xmm5, %xmm5
	xorl	%ecx, %ecx
	xorl	%edx, %edx
	xorl	%r8d, %r8d
	xorl	%r9d, %r9d
	xorl	%r10d, %r10d
	xorl	%r11d, %r11d
	addq	$168, %rsp
	popq	%rdi
	popq	%rsi
	retq
	.seh_endproc
                                        # -- End function
	export_aes_v3	fotsgure_aes_equiv_inv_cipher_round
	.p2align	4
aes_v3.fotsgure_aes_equiv_inv_cipher_round:    # @aes_v3.fotsgure_aes_equiv_inv_cipher_round
.seh_proc aes_v3.fotsgure_aes_equiv_inv_cipher_round
# %bb.0:                                # %start
	pushq	%rsi
	.seh_pushreg %rsi
	pushq	%rdi
	.seh_pushreg %rdi
	subq	$168, %rsp
	.seh_stackalloc 168
	vmovaps	%xmm15, 144(%rsp)               # 16-byte Spill
	.seh_savexmm %xmm15, 144
	vmovaps	%xmm14, 128(%rsp)               # 16-byte Spill
	.seh_savexmm %xmm14, 128
	vmovaps	%xmm13, 112(%rsp)               # 16-byte Spill
	.seh_savexmm %xmm13, 112
	vmovaps	%xmm12, 96(%rsp)                # 16-byte Spill
	.seh_savexmm %xmm12, 96
	vmovaps	%xmm11, 80(%rsp)                # 16-byte Spill
	.seh_savexmm %xmm11, 80
	vmovaps	%xmm10, 64(%rsp)                # 16-byte Spill
	.seh_savexmm %xmm10, 64
	vmovaps	%xmm9, 48(%rsp)                 # 16-byte Spill
	.seh_savexmm %xmm9, 48
	vmovaps	%xmm8, 32(%rsp)                 # 16-byte Spill
	.seh_savexmm %xmm8, 32
	vmovaps	%xmm7, 16(%rsp)                 # 16-byte Spill
	.seh_savexmm %xmm7, 16
	vmovaps	%xmm6, (%rsp)                   # 16-byte Spill
	.seh_savexmm %xmm6, 0
	.seh_endprologue
	movq	%rcx, %rdi
	movq	%rdx, %rsi
	callq	aes_v3.aes_c.single_rounds.inverse_round
	callq	aes_v3.aes_cipher.zeroize.stack.wipe_stack.512
	vmovaps	(%rsp), %xmm6                   # 16-byte Reload
	vmovaps	16(%rsp), %xmm7                 # 16-byte Reload
	vmovaps	32(%rsp), %xmm8                 # 16-byte Reload
	vmovaps	48(%rsp), %xmm9                 # 16-byte Reload
	vmovaps	64(%rsp), %xmm10                # 16-byte Reload
	vmovaps	80(%rsp), %xmm11                # 16-byte Reload
	vmovaps	96(%rsp), %xmm12                # 16-byte Reload
	vmovaps	112(%rsp), %xmm13               # 16-byte Reload
	vmovaps	128(%rsp), %xmm14               # 16-byte Reload
	vmovaps	144(%rsp), %xmm15               # 16-byte Reload
	vpxor	%xmm0, %xmm0, %xmm0
	vpxor	%xmm1, %xmm1, %xmm1
	vpxor	%xmm2, %xmm2, %xmm2
	vpxor	%xmm3, %xmm3, %xmm3
	vpxor	%xmm4, %xmm4, %xmm4
	vpxor	%xmm5, %xmm5, %xmm5
	xorl	%ecx, %ecx
	xorl	%edx, %edx
	xorl	%r8d, %r8d
	xorl	%r9d, %r9d
	xorl	%r10d, %r10d
	xorl	%r11d, %r11d
	addq	$168, %rsp
	popq	%rdi
	popq	%rsi
	retq
	.seh_endproc
                                        # -- End function
	export_aes_v3	fotsgure_aes_equiv_inv_cipher_round_par
	.p2align	4
aes_v3.fotsgure_aes_equiv_inv_cipher_round_par: # @aes_v3.fotsgure_aes_equiv_inv_cipher_round_par
.seh_proc aes_v3.fotsgure_aes_equiv_inv_cipher_round_par
# %bb.0:                                # %start
	pushq	%rsi
	.seh_pushreg %rsi
	pushq	%rdi
	.seh_pushreg %rdi
	subq	$168, %rsp
	.seh_stackalloc 168
	vmovaps	%xmm15, 144(%rsp)               # 16-byte Spill
	.seh_savexmm %xmm15, 144
	vmovaps	%xmm14, 128(%rsp)               # 16-byte Spill
	.seh_savexmm %xmm14, 128
	vmovaps	%xmm13, 112(%rsp)               # 16-byte Spill
	.seh_savexmm %xmm13, 112
	vmovaps	%xmm12, 96(%rsp)                # 16-byte Spill
	.seh_savexmm %xmm12, 96
	vmovaps	%xmm11, 80(%rsp)                # 16-byte Spill
	.seh_savexmm %xmm11, 80
	vmovaps	%xmm10, 64(%rsp)                # 16-byte Spill
	.seh_savexmm %xmm10, 64
	vmovaps	%xmm9, 48(%rsp)                 # 16-byte Spill
	.seh_savexmm %xmm9, 48
	vmovaps	%xmm8, 32(%rsp)                 # 16-byte Spill
	.seh_savexmm %xmm8, 32
	vmovaps	%xmm7, 16(%rsp)                 # 16-byte Spill
	.seh_savexmm %xmm7, 16
	vmovaps	%xmm6, (%rsp)                   # 16-byte Spill
	.seh_savexmm %xmm6, 0
	.seh_endprologue
	movq	%rcx, %rdi
	movq	%rdx, %rsi
	callq	aes_v3.aes_c.single_rounds.inverse_rounds
	callq	aes_v3.aes_cipher.zeroize.stack.wipe_stack.512
	vmovaps	(%rsp), %xmm6                   # 16-byte Reload
	vmovaps	16(%rsp), %xmm7                 # 16-byte Reload
	vmovaps	32(%rsp), %xmm8                 # 16-byte Reload
	vmovaps	48(%rsp), %xmm9                 # 16-byte Reload
	vmovaps	64(%rsp), %xmm10                # 16-byte Reload
	vmovaps	80(%rsp), %xmm11                # 16-byte Reload
	vmovaps	96(%rsp), %xmm12                # 16-byte Reload
	vmovaps	112(%rsp), %xmm13               # 16-byte Reload
	vmovaps	128(%rsp), %xmm14               # 16-byte Reload
	vmovaps	144(%rsp), %xmm15               # 16-byte Reload
	vpxor	%xmm0, %xmm0, %xmm0
	vpxor	%xmm1, %xmm1, %xmm1
	vpxor	%xmm2, %xmm2, %xmm2
	vpxor	%xmm3, %xmm3, %xmm3
	vpxor	%xmm4, %xmm4, %xmm4
	vpxor	%xmm5, %xmm5, %xmm5
	xorl	%ecx, %ecx
	xorl	%edx, %edx
	xorl	%r8d, %r8d
	xorl	%r9d, %r9d
	xorl	%r10d, %r10d
	xorl	%r11d, %r11d
	addq	$168, %rsp
	popq	%rdi
	popq	%rsi
	retq
	.seh_endproc
                                        # -- End function
	export_aes_v3	fotsgure_aes_cmac_accept
	.p2align	4
aes_v3.fotsgure_aes_cmac_accept:               # @aes_v3.fotsgure_aes_cmac_accept
.seh_proc aes_v3.fotsgure_aes_cmac_accept
# %bb.0:                                # %start
	pushq	%rsi
	.seh_pushreg %rsi
	pushq	%rdi
	.seh_pushreg %rdi
	pushq	%rbx
	.seh_pushreg %rbx
	subq	$160, %rsp
	.seh_stackalloc 160
	vmovaps	%xmm15, 144(%rsp)               # 16-byte Spill
	.seh_savexmm %xmm15, 144
	vmovaps	%xmm14, 128(%rsp)               # 16-byte Spill
	.seh_savexmm %xmm14, 128
	vmovaps	%xmm13, 112(%rsp)               # 16-byte Spill
	.seh_savexmm %xmm13, 112
	vmovaps	%xmm12, 96(%rsp)                # 16-byte Spill
	.seh_savexmm %xmm12, 96
	vmovaps	%xmm11, 80(%rsp)                # 16-byte Spill
	.seh_savexmm %xmm11, 80
	vmovaps	%xmm10, 64(%rsp)                # 16-byte Spill
	.seh_savexmm %xmm10, 64
	vmovaps	%xmm9, 48(%rsp)                 # 16-byte Spill
	.seh_savexmm %xmm9, 48
	vmovaps	%xmm8, 32(%rsp)                 # 16-byte Spill
	.seh_savexmm %xmm8, 32
	vmovaps	%xmm7, 16(%rsp)                 # 16-byte Spill
	.seh_savexmm %xmm7, 16
	vmovaps	%xmm6, (%rsp)                   # 16-byte Spill
	.seh_savexmm %xmm6, 0
	.seh_endprologue
	xorl	%r10d, %r10d
	testq	%r8, %r8
	sete	%r11b
	movl	(%rcx), %eax
	movl	$2, %ebx
	cmpq	$32, %rax
	ja	.Laes_v3_BB83_7
# %bb.1:                                # %start
	movabsq	$4311810048, %rsi               # imm = 0x101010000
	btq	%rax, %rsi
	jae	.Laes_v3_BB83_7
# %bb.2:                                # %join.3.i
	leaq	-4(%r9), %rsi
	movl	$7, %ebx
	cmpq	$12, %rsi
	ja	.Laes_v3_BB83_7
# %bb.3:                                # %join.6.i
	movl	$10, %ebx
	cmpq	$1, (%rdx)
	jne	.Laes_v3_BB83_6
# %bb.4:                                # %join.3.i.i
	movb	%r11b, %r10b
	shll	$12, %r10d
	addq	%r10, %r8
	shrl	$2, %eax
	addq	$7, %rax
	addq	$4, %rcx
	movq	%rdx, %rdi
	movq	%rcx, %rsi
	movq	%rdx, %rbx
	movq	%rax, %rdx
	movq	%r8, %rcx
	movq	%r9, %r8
	callq	aes_v3.cmac.pieces.Message.is_tag_so_far
	movq	%rbx, %rdi
	movl	$6, %ebx
	testb	%al, %al
	je	.Laes_v3_BB83_6
# %bb.5:                                # %join.7.i.i
	callq	aes_v3.cmac.pieces.MessageZeroize.zeroize
	xorl	%ebx, %ebx
.Laes_v3_BB83_6:                               # %"cmac::pieces::Message::accept::<#cd78163963378b36>.exit.i"
	callq	aes_v3.aes_cipher.zeroize.stack.wipe_stack.768
.Laes_v3_BB83_7:                               # %"aes_c::tags::pieces::fotsgure_aes_cmac_accept.exit"
	movl	%ebx, %eax
	vmovaps	(%rsp), %xmm6                   # 16-byte Reload
	vmovaps	16(%rsp), %xmm7                 # 16-byte Reload
	vmovaps	32(%rsp), %xmm8                 # 16-byte Reload
	vmovaps	48(%rsp), %xmm9                 # 16-byte Reload
	vmovaps	64(%rsp), %xmm10                # 16-byte Reload
	vmovaps	80(%rsp), %xmm11                # 16-byte Reload
	vmovaps	96(%rsp), %xmm12                # 16-byte Reload
	vmovaps	112(%rsp), %xmm13               # 16-byte Reload
	vmovaps	128(%rsp), %xmm14               # 16-byte Reload
	vmovaps	144(%rsp), %xmm15               # 16-byte Reload
	vpxor	%xmm0, %xmm0, %xmm0
	vpxor	%xmm1, %xmm1, %xmm1
	vpxor	%xmm2, %xmm2, %xmm2
	vpxor	%xmm3, %xmm3, %xmm3
	vpxor	%xmm4, %xmm4, %xmm4
	vpxor	%xmm5, %xmm5, %xmm5
	xorl	%ecx, %ecx
	xorl	%edx, %edx
	xorl	%r8d, %r8d
	xorl	%r9d, %r9d
	xorl	%r10d, %r10d
	xorl	%r11d, %r11d
	addq	$160, %rsp
	popq	%rbx
	popq	%rdi
	popq	%rsi
	retq
	.seh_endproc
                                        # -- End function
	export_aes_v3	fotsgure_aes_cmac_verify
	.p2align	4
aes_v3.fotsgure_aes_cmac_verify:               # @aes_v3.fotsgure_aes_cmac_verify
.seh_proc aes_v3.fotsgure_aes_cmac_verify
# %bb.0:                                # %start
	pushq	%r14
	.seh_pushreg %r14
	pushq	%rsi
	.seh_pushreg %rsi
	pushq	%rdi
	.seh_pushreg %rdi
	pushq	%rbp
	.seh_pushreg %rbp
	pushq	%rbx
	.seh_pushreg %rbx
	subq	$192, %rsp
	.seh_stackalloc 192
	vmovaps	%xmm15, 176(%rsp)               # 16-byte Spill
	.seh_savexmm %xmm15, 176
	vmovaps	%xmm14, 160(%rsp)               # 16-byte Spill
	.seh_savexmm %xmm14, 160
	vmovaps	%xmm13, 144(%rsp)               # 16-byte Spill
	.seh_savexmm %xmm13, 144
	vmovaps	%xmm12, 128(%rsp)               # 16-byte Spill
	.seh_savexmm %xmm12, 128
	vmovaps	%xmm11, 112(%rsp)               # 16-byte Spill
	.seh_savexmm %xmm11, 112
	vmovaps	%xmm10, 96(%rsp)                # 16-byte Spill
	.seh_savexmm %xmm10, 96
	vmovaps	%xmm9, 80(%rsp)                 # 16-byte Spill
	.seh_savexmm %xmm9, 80
	vmovaps	%xmm8, 64(%rsp)                 # 16-byte Spill
	.seh_savexmm %xmm8, 64
	vmovaps	%xmm7, 48(%rsp)                 # 16-byte Spill
	.seh_savexmm %xmm7, 48
	vmovaps	%xmm6, 32(%rsp)                 # 16-byte Spill
	.seh_savexmm %xmm6, 32
	.seh_endprologue
	xorl	%edi, %edi
	testq	%rdx, %rdx
	sete	%bpl
	xorl	%esi, %esi
	testq	%r9, %r9
	sete	%bl
	movl	(%rcx), %r11d
	movl	$2, %eax
	cmpq	$32, %r11
	ja	.Laes_v3_BB84_4
# %bb.1:                                # %start
	movabsq	$4311810048, %r10               # imm = 0x101010000
	btq	%r11, %r10
	jae	.Laes_v3_BB84_4
# %bb.2:                                # %join.3.i
	movq	272(%rsp), %r10
	leaq	-4(%r10), %r14
	movl	$7, %eax
	cmpq	$12, %r14
	ja	.Laes_v3_BB84_4
# %bb.3:                                # %join.6.i
	movb	%bpl, %dil
	shll	$12, %edi
	addq	%rdi, %rdx
	movb	%bl, %sil
	shll	$12, %esi
	addq	%rsi, %r9
	addq	$4, %rcx
	shrl	$2, %r11d
	addq	$7, %r11
	movq	%rcx, (%rsp)
	movq	%r11, 8(%rsp)
	movq	%rcx, 16(%rsp)
	movq	%r11, 24(%rsp)
	movq	%rsp, %rdi
	movq	%rdx, %rsi
	movq	%r8, %rdx
	movq	%r9, %rcx
	movq	%r10, %r8
	callq	aes_v3.cmac.tags.is_tag_start
	movl	%eax, %ebx
	callq	aes_v3.aes_cipher.zeroize.stack.wipe_stack.768
	xorl	%ecx, %ecx
	testb	%bl, %bl
	movl	$6, %eax
	cmovnel	%ecx, %eax
.Laes_v3_BB84_4:                               # %"aes_c::tags::fotsgure_aes_cmac_verify.exit"
	vmovaps	32(%rsp), %xmm6                 # 16-byte Reload
	vmovaps	48(%rsp), %xmm7                 # 16-byte Reload
	vmovaps	64(%rsp), %xmm8                 # 16-byte Reload
	vmovaps	80(%rsp), %xmm9                 # 16-byte Reload
	vmovaps	96(%rsp), %xmm10                # 16-byte Reload
	vmovaps	112(%rsp), %xmm11               # 16-byte Reload
	vmovaps	128(%rsp), %xmm12               # 16-byte Reload
	vmovaps	144(%rsp), %xmm13               # 16-byte Reload
	vmovaps	160(%rsp), %xmm14               # 16-byte Reload
	vmovaps	176(%rsp), %xmm15               # 16-byte Reload
	vpxor	%xmm0, %xmm0, %xmm0
	vpxor	%xmm1, %xmm1, %xmm1
	vpxor	%xmm2, %xmm2, %xmm2
	vpxor	%xmm3, %xmm3, %xmm3
	vpxor	%xmm4, %xmm4, %xmm4
	vpxor	%xmm5, %xmm5, %xmm5
	xorl	%ecx, %ecx
	xorl	%edx, %edx
	xorl	%r8d, %r8d
	xorl	%r9d, %r9d
	xorl	%r10d, %r10d
	xorl	%r11d, %r11d
	addq	$192, %rsp
	popq	%rbx
	popq	%rbp
	popq	%rdi
	popq	%rsi
	popq	%r14
	retq
	.seh_endproc
                                        # -- End function
	export_aes_v3	fotsgure_aes_mix_columns
	.p2align	4
aes_v3.fotsgure_aes_mix_columns:               # @aes_v3.fotsgure_aes_mix_columns
.seh_proc aes_v3.fotsgure_aes_mix_columns
# %bb.0:                                # %start
	pushq	%rsi
	.seh_pushreg %rsi
	pushq	%rdi
	.seh_pushreg %rdi
	subq	$168, %rsp
	.seh_stackalloc 168
	vmovaps	%xmm15, 144(%rsp)               # 16-byte Spill
	.seh_savexmm %xmm15, 144
	vmovaps	%xmm14, 128(%rsp)               # 16-byte Spill
	.seh_savexmm %xmm14, 128
	vmovaps	%xmm13, 112(%rsp)               # 16-byte Spill
	.seh_savexmm %xmm13, 112
	vmovaps	%xmm12, 96(%rsp)                # 16-byte Spill
	.seh_savexmm %xmm12, 96
	vmovaps	%xmm11, 80(%rsp)                # 16-byte Spill
	.seh_savexmm %xmm11, 80
	vmovaps	%xmm10, 64(%rsp)                # 16-byte Spill
	.seh_savexmm %xmm10, 64
	vmovaps	%xmm9, 48(%rsp)                 # 16-byte Spill
	.seh_savexmm %xmm9, 48
	vmovaps	%xmm8, 32(%rsp)                 # 16-byte Spill
	.seh_savexmm %xmm8, 32
	vmovaps	%xmm7, 16(%rsp)                 # 16-byte Spill
	.seh_savexmm %xmm7, 16
	vmovaps	%xmm6, (%rsp)                   # 16-byte Spill
	.seh_savexmm %xmm6, 0
	.seh_endprologue
	movq	%rcx, %rdi
	callq	aes_v3.aes_c.single_rounds.mixed
	callq	aes_v3.aes_cipher.zeroize.stack.wipe_stack.512
	vmovaps	(%rsp), %xmm6                   # 16-byte Reload
	vmovaps	16(%rsp), %xmm7                 # 16-byte Reload
	vmovaps	32(%rsp), %xmm8                 # 16-byte Reload
	vmovaps	48(%rsp), %xmm9                 # 16-byte Reload
	vmovaps	64(%rsp), %xmm10                # 16-byte Reload
	vmovaps	80(%rsp), %xmm11                # 16-byte Reload
	vmovaps	96(%rsp), %xmm12                # 16-byte Reload
	vmovaps	112(%rsp), %xmm13               # 16-byte Reload
	vmovaps	128(%rsp), %xmm14               # 16-byte Reload
	vmovaps	144(%rsp), %xmm15               # 16-byte Reload
	vpxor	%xmm0, %xmm0, %xmm0
	vpxor	%xmm1, %xmm1, %xmm1
	vpxor	%xmm2, %xmm2, %xmm2
	vpxor	%xmm3, %xmm3, %xmm3
	vpxor	%xmm4, %xmm4, %xmm4
	vpxor	%xmm5, %xmm5, %xmm5
	xorl	%ecx, %ecx
	xorl	%edx, %edx
	xorl	%r8d, %r8d
	xorl	%r9d, %r9d
	xorl	%r10d, %r10d
	xorl	%r11d, %r11d
	addq	$168, %rsp
	popq	%rdi
	popq	%rsi
	retq
	.seh_endproc
                                        # -- End function
	export_aes_v3	fotsgure_aes_add_keystream
	.p2align	4
aes_v3.fotsgure_aes_add_keystream:             # @aes_v3.fotsgure_aes_add_keystream
.seh_proc aes_v3.fotsgure_aes_add_keystream
# %bb.0:                                # %start
	pushq	%r14
	.seh_pushreg %r14
	pushq	%rsi
	.seh_pushreg %rsi
	pushq	%rdi
	.seh_pushreg %rdi
	pushq	%rbx
	.seh_pushreg %rbx
	subq	$200, %rsp
	.seh_stackalloc 200
	vmovaps	%xmm15, 176(%rsp)               # 16-byte Spill
	.seh_savexmm %xmm15, 176
	vmovaps	%xmm14, 160(%rsp)               # 16-byte Spill
	.seh_savexmm %xmm14, 160
	vmovaps	%xmm13, 144(%rsp)               # 16-byte Spill
	.seh_savexmm %xmm13, 144
	vmovaps	%xmm12, 128(%rsp)               # 16-byte Spill
	.seh_savexmm %xmm12, 128
	vmovaps	%xmm11, 112(%rsp)               # 16-byte Spill
	.seh_savexmm %xmm11, 112
	vmovaps	%xmm10, 96(%rsp)                # 16-byte Spill
	.seh_savexmm %xmm10, 96
	vmovaps	%xmm9, 80(%rsp)                 # 16-byte Spill
	.seh_savexmm %xmm9, 80
	vmovaps	%xmm8, 64(%rsp)                 # 16-byte Spill
	.seh_savexmm %xmm8, 64
	vmovaps	%xmm7, 48(%rsp)                 # 16-byte Spill
	.seh_savexmm %xmm7, 48
	vmovaps	%xmm6, 32(%rsp)                 # 16-byte Spill
	.seh_savexmm %xmm6, 32
	.seh_endprologue
	xorl	%r11d, %r11d
	testq	%r8, %r8
	sete	%bl
	movq	16(%rdx), %r10
	movq	%r10, %rsi
	movl	$4, %eax
	addq	%r9, %rsi
	jb	.Laes_v3_BB86_4
# %bb.1:                                # %join.3.i.i
	movl	(%rcx), %esi
	movl	$2, %eax
	cmpq	$32, %rsi
	ja	.Laes_v3_BB86_4
# %bb.2:                                # %join.3.i.i
	movabsq	$4311810048, %rdi               # imm = 0x101010000
	btq	%rsi, %rdi
	jae	.Laes_v3_BB86_4
# %bb.3:                                # %then.1.i
	movb	%bl, %r11b
	shll	$12, %r11d
	addq	%r11, %r8
	addq	$4, %rcx
	shrl	$2, %esi
	addq	$7, %rsi
	movq	%rcx, (%rsp)
	movq	%rsi, 8(%rsp)
	movq	%rcx, 16(%rsp)
	movq	%rsi, 24(%rsp)
	movq	%rsp, %rdi
	movq	%rdx, %rsi
	movq	%rdx, %rbx
	movq	%r10, %rdx
	movq	%r8, %rcx
	movq	%r9, %r8
	movq	%r9, %r14
	callq	aes_v3.aes_ctr.add_in_batches.add_keystream
	addq	%r14, 16(%rbx)
	xorl	%eax, %eax
.Laes_v3_BB86_4:                               # %"aes_c::stream::fotsgure_aes_add_keystream.exit"
	vmovaps	32(%rsp), %xmm6                 # 16-byte Reload
	vmovaps	48(%rsp), %xmm7                 # 16-byte Reload
	vmovaps	64(%rsp), %xmm8                 # 16-byte Reload
	vmovaps	80(%rsp), %xmm9                 # 16-byte Reload
	vmovaps	96(%rsp), %xmm10                # 16-byte Reload
	vmovaps	112(%rsp), %xmm11               # 16-byte Reload
	vmovaps	128(%rsp), %xmm12               # 16-byte Reload
	vmovaps	144(%rsp), %xmm13               # 16-byte Reload
	vmovaps	160(%rsp), %xmm14               # 16-byte Reload
	vmovaps	176(%rsp), %xmm15               # 16-byte Reload
	vpxor	%xmm0, %xmm0, %xmm0
	vpxor	%xmm1, %xmm1, %xmm1
	vpxor	%xmm2, %xmm2, %xmm2
	vpxor	%xmm3, %xmm3, %xmm3
	vpxor	%xmm4, %xmm4, %xmm4
	vpxor	%xmm5, %xmm5, %xmm5
	xorl	%ecx, %ecx
	xorl	%edx, %edx
	xorl	%r8d, %r8d
	xorl	%r9d, %r9d
	xorl	%r10d, %r10d
	xorl	%r11d, %r11d
	addq	$200, %rsp
	popq	%rbx
	popq	%rdi
	popq	%rsi
	popq	%r14
	retq
	.seh_endproc
                                        # -- End function
	export_aes_v3	fotsgure_aes_add_keystream_to
	.p2align	4
aes_v3.fotsgure_aes_add_keystream_to:          # @aes_v3.fotsgure_aes_add_keystream_to
.seh_proc aes_v3.fotsgure_aes_add_keystream_to
# %bb.0:                                # %start
	pushq	%r15
	.seh_pushreg %r15
	pushq	%r14
	.seh_pushreg %r14
	pushq	%r13
	.seh_pushreg %r13
	pushq	%r12
	.seh_pushreg %r12
	pushq	%rsi
	.seh_pushreg %rsi
	pushq	%rdi
	.seh_pushreg %rdi
	pushq	%rbp
	.seh_pushreg %rbp
	pushq	%rbx
	.seh_pushreg %rbx
	subq	$232, %rsp
	.seh_stackalloc 232
	vmovaps	%xmm15, 208(%rsp)               # 16-byte Spill
	.seh_savexmm %xmm15, 208
	vmovaps	%xmm14, 192(%rsp)               # 16-byte Spill
	.seh_savexmm %xmm14, 192
	vmovaps	%xmm13, 176(%rsp)               # 16-byte Spill
	.seh_savexmm %xmm13, 176
	vmovaps	%xmm12, 160(%rsp)               # 16-byte Spill
	.seh_savexmm %xmm12, 160
	vmovaps	%xmm11, 144(%rsp)               # 16-byte Spill
	.seh_savexmm %xmm11, 144
	vmovaps	%xmm10, 128(%rsp)               # 16-byte Spill
	.seh_savexmm %xmm10, 128
	vmovaps	%xmm9, 112(%rsp)                # 16-byte Spill
	.seh_savexmm %xmm9, 112
	vmovaps	%xmm8, 96(%rsp)                 # 16-byte Spill
	.seh_savexmm %xmm8, 96
	vmovaps	%xmm7, 80(%rsp)                 # 16-byte Spill
	.seh_savexmm %xmm7, 80
	vmovaps	%xmm6, 64(%rsp)                 # 16-byte Spill
	.seh_savexmm %xmm6, 64
	.seh_endprologue
	movq	336(%rsp), %r10
	xorl	%r11d, %r11d
	testq	%r8, %r8
	sete	%bpl
	xorl	%edi, %edi
	testq	%r10, %r10
	sete	%bl
	movl	$3, %eax
	cmpq	344(%rsp), %r9
	jne	.Laes_v3_BB87_29
# %bb.1:                                # %join.3.i
	movq	16(%rdx), %rsi
	movl	$4, %eax
	addq	%r9, %rsi
	jb	.Laes_v3_BB87_29
# %bb.2:                                # %join.3.i.i
	movl	(%rcx), %r14d
	movl	$2, %eax
	cmpq	$32, %r14
	ja	.Laes_v3_BB87_29
# %bb.3:                                # %join.3.i.i
	movabsq	$4311810048, %rsi               # imm = 0x101010000
	btq	%r14, %rsi
	jae	.Laes_v3_BB87_29
# %bb.4:                                # %join.6.i
	movb	%bpl, %r11b
	shll	$12, %r11d
	leaq	(%r8,%r11), %rax
	movb	%bl, %dil
	shll	$12, %edi
	leaq	(%r10,%rdi), %rbx
	movq	%rbx, %r14
	subq	%rax, %r14
	cmpq	%r9, %r14
	jae	.Laes_v3_BB87_7
# %bb.5:                                # %iter.check
	cmpq	$8, %r9
	jb	.Laes_v3_BB87_6
# %bb.8:                                # %vector.memcheck
	cmpq	$128, %r14
	jae	.Laes_v3_BB87_10
.Laes_v3_BB87_6:
	xorl	%r14d, %r14d
.Laes_v3_BB87_19:                              # %join.7.i.i.i.i.i.i.i.preheader
	movq	%r9, %r12
	movq	%r14, %r15
	andq	$7, %r12
	je	.Laes_v3_BB87_22
# %bb.20:                               # %join.7.i.i.i.i.i.i.i.prol.preheader
	movq	%r14, %r15
	.p2align	4
.Laes_v3_BB87_21:                              # %join.7.i.i.i.i.i.i.i.prol
                                        # =>This Inner Loop Header: Depth=1
	movzbl	(%rax,%r15), %ebp
	movb	%bpl, (%rbx,%r15)
	incq	%r15
	decq	%r12
	jne	.Laes_v3_BB87_21
.Laes_v3_BB87_22:                              # %join.7.i.i.i.i.i.i.i.prol.loopexit
	subq	%r9, %r14
	cmpq	$-8, %r14
	ja	.Laes_v3_BB87_25
# %bb.23:                               # %join.7.i.i.i.i.i.i.i.preheader13
	leaq	(%r11,%r8), %rax
	addq	$7, %rax
	leaq	(%rdi,%r10), %r8
	addq	$7, %r8
	.p2align	4
.Laes_v3_BB87_24:                              # %join.7.i.i.i.i.i.i.i
                                        # =>This Inner Loop Header: Depth=1
	movzbl	-7(%rax,%r15), %r10d
	movb	%r10b, -7(%r8,%r15)
	movzbl	-6(%rax,%r15), %r10d
	movb	%r10b, -6(%r8,%r15)
	movzbl	-5(%rax,%r15), %r10d
	movb	%r10b, -5(%r8,%r15)
	movzbl	-4(%rax,%r15), %r10d
	movb	%r10b, -4(%r8,%r15)
	movzbl	-3(%rax,%r15), %r10d
	movb	%r10b, -3(%r8,%r15)
	movzbl	-2(%rax,%r15), %r10d
	movb	%r10b, -2(%r8,%r15)
	movzbl	-1(%rax,%r15), %r10d
	movb	%r10b, -1(%r8,%r15)
	movzbl	(%rax,%r15), %r10d
	movb	%r10b, (%r8,%r15)
	addq	$8, %r15
	cmpq	%r15, %r9
	jne	.Laes_v3_BB87_24
	jmp	.Laes_v3_BB87_25
.Laes_v3_BB87_7:                               # %apart.2.i.i.i.i.i.i.i
	movq	%rcx, %rdi
	movq	%rbx, %rcx
	movq	%rdx, %r14
	movq	%rax, %rdx
	movq	%r9, %r8
	movq	%r9, %r15
	callq	memmove
	movq	%rdi, %rcx
	movq	%r14, %rdx
	movq	%r15, %r9
.Laes_v3_BB87_25:                              # %"core::slice::edits::slice+T::copy_from_slice::<i8,20'core::clone::U8Clone{}>.exit.i"
	movq	16(%rdx), %r8
	movq	%r8, %r10
	movl	$4, %eax
	addq	%r9, %r10
	jb	.Laes_v3_BB87_29
# %bb.26:                               # %join.3.i.i.i
	movl	(%rcx), %r10d
	movl	$2, %eax
	cmpq	$32, %r10
	ja	.Laes_v3_BB87_29
# %bb.27:                               # %join.3.i.i.i
	btq	%r10, %rsi
	jae	.Laes_v3_BB87_29
# %bb.28:                               # %then.1.i.i
	addq	$4, %rcx
	shrl	$2, %r10d
	addq	$7, %r10
	movq	%rcx, 32(%rsp)
	movq	%r10, 40(%rsp)
	movq	%rcx, 48(%rsp)
	movq	%r10, 56(%rsp)
	leaq	32(%rsp), %rdi
	movq	%rdx, %rsi
	movq	%rdx, %r14
	movq	%r8, %rdx
	movq	%rbx, %rcx
	movq	%r9, %r8
	movq	%r9, %rbx
	vzeroupper
	callq	aes_v3.aes_ctr.add_in_batches.add_keystream
	addq	%rbx, 16(%r14)
	xorl	%eax, %eax
.Laes_v3_BB87_29:                              # %"aes_c::stream::fotsgure_aes_add_keystream_to.exit"
	vmovaps	64(%rsp), %xmm6                 # 16-byte Reload
	vmovaps	80(%rsp), %xmm7                 # 16-byte Reload
	vmovaps	96(%rsp), %xmm8                 # 16-byte Reload
	vmovaps	112(%rsp), %xmm9                # 16-byte Reload
	vmovaps	128(%rsp), %xmm10               # 16-byte Reload
	vmovaps	144(%rsp), %xmm11               # 16-byte Reload
	vmovaps	160(%rsp), %xmm12               # 16-byte Reload
	vmovaps	176(%rsp), %xmm13               # 16-byte Reload
	vmovaps	192(%rsp), %xmm14               # 16-byte Reload
	vmovaps	208(%rsp), %xmm15               # 16-byte Reload
	addq	$232, %rsp
	popq	%rbx
	popq	%rbp
	popq	%rdi
	popq	%rsi
	popq	%r12
	popq	%r13
	popq	%r14
	popq	%r15
	vzeroupper
	vpxor	%xmm0, %xmm0, %xmm0
	vpxor	%xmm1, %xmm1, %xmm1
	vpxor	%xmm2, %xmm2, %xmm2
	vpxor	%xmm3, %xmm3, %xmm3
	vpxor	%xmm4, %xmm4, %xmm4
	vpxor	%xmm5, %xmm5, %xmm5
	xorl	%ecx, %ecx
	xorl	%edx, %edx
	xorl	%r8d, %r8d
	xorl	%r9d, %r9d
	xorl	%r10d, %r10d
	xorl	%r11d, %r11d
	retq
.Laes_v3_BB87_10:                              # %vector.main.loop.iter.check
	cmpq	$128, %r9
	jae	.Laes_v3_BB87_12
# %bb.11:
	xorl	%r14d, %r14d
	jmp	.Laes_v3_BB87_16
.Laes_v3_BB87_12:                              # %vector.ph
	movq	%r9, %r14
	andq	$-128, %r14
	leaq	(%r11,%r8), %r15
	addq	$96, %r15
	leaq	(%rdi,%r10), %r12
	addq	$96, %r12
	xorl	%r13d, %r13d
	.p2align	4
.Laes_v3_BB87_13:                              # %vector.body
                                        # =>This Inner Loop Header: Depth=1
	vmovups	-96(%r15,%r13), %ymm0
	vmovups	-64(%r15,%r13), %ymm1
	vmovups	-32(%r15,%r13), %ymm2
	vmovups	(%r15,%r13), %ymm3
	vmovups	%ymm0, -96(%r12,%r13)
	vmovups	%ymm1, -64(%r12,%r13)
	vmovups	%ymm2, -32(%r12,%r13)
	vmovups	%ymm3, (%r12,%r13)
	subq	$-128, %r13
	cmpq	%r13, %r14
	jne	.Laes_v3_BB87_13
# %bb.14:                               # %middle.block
	cmpq	%r14, %r9
	je	.Laes_v3_BB87_25
# %bb.15:                               # %vec.epilog.iter.check
	testb	$120, %r9b
	je	.Laes_v3_BB87_19
.Laes_v3_BB87_16:                              # %vec.epilog.ph
	movq	%r14, %r15
	movq	%r9, %r14
	andq	$-8, %r14
	.p2align	4
.Laes_v3_BB87_17:                              # %vec.epilog.vector.body
                                        # =>This Inner Loop Header: Depth=1
	movq	(%rax,%r15), %r12
	movq	%r12, (%rbx,%r15)
	addq	$8, %r15
	cmpq	%r15, %r14
	jne	.Laes_v3_BB87_17
# %bb.18:                               # %vec.epilog.middle.block
	cmpq	%r14, %r9
	je	.Laes_v3_BB87_25
	jmp	.Laes_v3_BB87_19
	.seh_endproc
                                        # -- End function
	export_aes_v3	fotsgure_aes_cipher_round
	.p2align	4
aes_v3.fotsgure_aes_cipher_round:              # @aes_v3.fotsgure_aes_cipher_round
.seh_proc aes_v3.fotsgure_aes_cipher_round
# %bb.0:                                # %start
	pushq	%rsi
	.seh_pushreg %rsi
	pushq	%rdi
	.seh_pushreg %rdi
	subq	$168, %rsp
	.seh_stackalloc 168
	vmovaps	%xmm15, 144(%rsp)               # 16-byte Spill
	.seh_savexmm %xmm15, 144
	vmovaps	%xmm14, 128(%rsp)               # 16-byte Spill
	.seh_savexmm %xmm14, 128
	vmovaps	%xmm13, 112(%rsp)               # 16-byte Spill
	.seh_savexmm %xmm13, 112
	vmovaps	%xmm12, 96(%rsp)                # 16-byte Spill
	.seh_savexmm %xmm12, 96
	vmovaps	%xmm11, 80(%rsp)                # 16-byte Spill
	.seh_savexmm %xmm11, 80
	vmovaps	%xmm10, 64(%rsp)                # 16-byte Spill
	.seh_savexmm %xmm10, 64
	vmovaps	%xmm9, 48(%rsp)                 # 16-byte Spill
	.seh_savexmm %xmm9, 48
	vmovaps	%xmm8, 32(%rsp)                 # 16-byte Spill
	.seh_savexmm %xmm8, 32
	vmovaps	%xmm7, 16(%rsp)                 # 16-byte Spill
	.seh_savexmm %xmm7, 16
	vmovaps	%xmm6, (%rsp)                   # 16-byte Spill
	.seh_savexmm %xmm6, 0
	.seh_endprologue
	movq	%rcx, %rdi
	movq	%rdx, %rsi
	callq	aes_v3.aes_c.single_rounds.round
	callq	aes_v3.aes_cipher.zeroize.stack.wipe_stack.512
	vmovaps	(%rsp), %xmm6                   # 16-byte Reload
	vmovaps	16(%rsp), %xmm7                 # 16-byte Reload
	vmovaps	32(%rsp), %xmm8                 # 16-byte Reload
	vmovaps	48(%rsp), %xmm9                 # 16-byte Reload
	vmovaps	64(%rsp), %xmm10                # 16-byte Reload
	vmovaps	80(%rsp), %xmm11                # 16-byte Reload
	vmovaps	96(%rsp), %xmm12                # 16-byte Reload
	vmovaps	112(%rsp), %xmm13               # 16-byte Reload
	vmovaps	128(%rsp), %xmm14               # 16-byte Reload
	vmovaps	144(%rsp), %xmm15               # 16-byte Reload
	vpxor	%xmm0, %xmm0, %xmm0
	vpxor	%xmm1, %xmm1, %xmm1
	vpxor	%xmm2, %xmm2, %xmm2
	vpxor	%xmm3, %xmm3, %xmm3
	vpxor	%xmm4, %xmm4, %xmm4
	vpxor	%xmm5, %xmm5, %xmm5
	xorl	%ecx, %ecx
	xorl	%edx, %edx
	xorl	%r8d, %r8d
	xorl	%r9d, %r9d
	xorl	%r10d, %r10d
	xorl	%r11d, %r11d
	addq	$168, %rsp
	popq	%rdi
	popq	%rsi
	retq
	.seh_endproc
                                        # -- End function
	export_aes_v3	fotsgure_aes_cipher_round_par
	.p2align	4
aes_v3.fotsgure_aes_cipher_round_par:          # @aes_v3.fotsgure_aes_cipher_round_par
.seh_proc aes_v3.fotsgure_aes_cipher_round_par
# %bb.0:                                # %start
	pushq	%rsi
	.seh_pushreg %rsi
	pushq	%rdi
	.seh_pushreg %rdi
	subq	$168, %rsp
	.seh_stackalloc 168
	vmovaps	%xmm15, 144(%rsp)               # 16-byte Spill
	.seh_savexmm %xmm15, 144
	vmovaps	%xmm14, 128(%rsp)               # 16-byte Spill
	.seh_savexmm %xmm14, 128
	vmovaps	%xmm13, 112(%rsp)               # 16-byte Spill
	.seh_savexmm %xmm13, 112
	vmovaps	%xmm12, 96(%rsp)                # 16-byte Spill
	.seh_savexmm %xmm12, 96
	vmovaps	%xmm11, 80(%rsp)                # 16-byte Spill
	.seh_savexmm %xmm11, 80
	vmovaps	%xmm10, 64(%rsp)                # 16-byte Spill
	.seh_savexmm %xmm10, 64
	vmovaps	%xmm9, 48(%rsp)                 # 16-byte Spill
	.seh_savexmm %xmm9, 48
	vmovaps	%xmm8, 32(%rsp)                 # 16-byte Spill
	.seh_savexmm %xmm8, 32
	vmovaps	%xmm7, 16(%rsp)                 # 16-byte Spill
	.seh_savexmm %xmm7, 16
	vmovaps	%xmm6, (%rsp)                   # 16-byte Spill
	.seh_savexmm %xmm6, 0
	.seh_endprologue
	movq	%rcx, %rdi
	movq	%rdx, %rsi
	callq	aes_v3.aes_c.single_rounds.rounds
	callq	aes_v3.aes_cipher.zeroize.stack.wipe_stack.512
	vmovaps	(%rsp), %xmm6                   # 16-byte Reload
	vmovaps	16(%rsp), %xmm7                 # 16-byte Reload
	vmovaps	32(%rsp), %xmm8                 # 16-byte Reload
	vmovaps	48(%rsp), %xmm9                 # 16-byte Reload
	vmovaps	64(%rsp), %xmm10                # 16-byte Reload
	vmovaps	80(%rsp), %xmm11                # 16-byte Reload
	vmovaps	96(%rsp), %xmm12                # 16-byte Reload
	vmovaps	112(%rsp), %xmm13               # 16-byte Reload
	vmovaps	128(%rsp), %xmm14               # 16-byte Reload
	vmovaps	144(%rsp), %xmm15               # 16-byte Reload
	vpxor	%xmm0, %xmm0, %xmm0
	vpxor	%xmm1, %xmm1, %xmm1
	vpxor	%xmm2, %xmm2, %xmm2
	vpxor	%xmm3, %xmm3, %xmm3
	vpxor	%xmm4, %xmm4, %xmm4
	vpxor	%xmm5, %xmm5, %xmm5
	xorl	%ecx, %ecx
	xorl	%edx, %edx
	xorl	%r8d, %r8d
	xorl	%r9d, %r9d
	xorl	%r10d, %r10d
	xorl	%r11d, %r11d
	addq	$168, %rsp
	popq	%rdi
	popq	%rsi
	retq
	.seh_endproc
                                        # -- End function
	export_aes_v3	fotsgure_aes_ccm_open
	.p2align	4
aes_v3.fotsgure_aes_ccm_open:                  # @aes_v3.fotsgure_aes_ccm_open
.seh_proc aes_v3.fotsgure_aes_ccm_open
# %bb.0:                                # %start
	pushq	%r15
	.seh_pushreg %r15
	pushq	%r14
	.seh_pushreg %r14
	pushq	%rsi
	.seh_pushreg %rsi
	pushq	%rdi
	.seh_pushreg %rdi
	pushq	%rbx
	.seh_pushreg %rbx
	subq	$240, %rsp
	.seh_stackalloc 240
	vmovaps	%xmm15, 224(%rsp)               # 16-byte Spill
	.seh_savexmm %xmm15, 224
	vmovaps	%xmm14, 208(%rsp)               # 16-byte Spill
	.seh_savexmm %xmm14, 208
	vmovaps	%xmm13, 192(%rsp)               # 16-byte Spill
	.seh_savexmm %xmm13, 192
	vmovaps	%xmm12, 176(%rsp)               # 16-byte Spill
	.seh_savexmm %xmm12, 176
	vmovaps	%xmm11, 160(%rsp)               # 16-byte Spill
	.seh_savexmm %xmm11, 160
	vmovaps	%xmm10, 144(%rsp)               # 16-byte Spill
	.seh_savexmm %xmm10, 144
	vmovaps	%xmm9, 128(%rsp)                # 16-byte Spill
	.seh_savexmm %xmm9, 128
	vmovaps	%xmm8, 112(%rsp)                # 16-byte Spill
	.seh_savexmm %xmm8, 112
	vmovaps	%xmm7, 96(%rsp)                 # 16-byte Spill
	.seh_savexmm %xmm7, 96
	vmovaps	%xmm6, 80(%rsp)                 # 16-byte Spill
	.seh_savexmm %xmm6, 80
	.seh_endprologue
	movl	(%rcx), %esi
	movl	$2, %eax
	cmpq	$32, %rsi
	ja	.Laes_v3_BB90_6
# %bb.1:                                # %start
	movq	%r9, %r11
	movabsq	$4311810048, %r9                # imm = 0x101010000
	btq	%rsi, %r9
	jae	.Laes_v3_BB90_6
# %bb.2:                                # %join.3.i
	movq	352(%rsp), %rbx
	movq	344(%rsp), %rax
	movq	336(%rsp), %rdi
	movq	328(%rsp), %r10
	movq	320(%rsp), %r9
	xorl	%r14d, %r14d
	testq	%rax, %rax
	sete	%r14b
	shll	$12, %r14d
	addq	%rax, %r14
	xorl	%r15d, %r15d
	testq	%r10, %r10
	sete	%r15b
	shll	$12, %r15d
	addq	%r10, %r15
	xorl	%r10d, %r10d
	testq	%r11, %r11
	sete	%r10b
	shll	$12, %r10d
	addq	%r11, %r10
	xorl	%eax, %eax
	testq	%rdx, %rdx
	sete	%al
	shll	$12, %eax
	addq	%rdx, %rax
	addq	$4, %rcx
	shrl	$2, %esi
	addq	$7, %rsi
	movq	%rcx, 48(%rsp)
	movq	%rsi, 56(%rsp)
	movq	%rcx, 64(%rsp)
	movq	%rsi, 72(%rsp)
	movq	%rbx, 24(%rsp)
	movq	%r14, 16(%rsp)
	movq	%rdi, 8(%rsp)
	movq	%r15, (%rsp)
	leaq	45(%rsp), %rdi
	leaq	48(%rsp), %rsi
	movq	%rax, %rdx
	movq	%r8, %rcx
	movq	%r10, %r8
	callq	aes_v3.ccm.mode.decrypt
	callq	aes_v3.aes_cipher.zeroize.stack.wipe_stack.1024
	cmpb	$0, 45(%rsp)
	je	.Laes_v3_BB90_3
# %bb.4:                                # %arm.5.i
	movl	$6, %eax
	cmpb	$0, 46(%rsp)
	jne	.Laes_v3_BB90_6
# %bb.5:                                # %arm.8.i
	movzbl	47(%rsp), %eax
	addl	$7, %eax
	jmp	.Laes_v3_BB90_6
.Laes_v3_BB90_3:
	xorl	%eax, %eax
.Laes_v3_BB90_6:                               # %"aes_c::messages::fotsgure_aes_ccm_open.exit"
	vmovaps	80(%rsp), %xmm6                 # 16-byte Reload
	vmovaps	96(%rsp), %xmm7                 # 16-byte Reload
	vmovaps	112(%rsp), %xmm8                # 16-byte Reload
	vmovaps	128(%rsp), %xmm9                # 16-byte Reload
	vmovaps	144(%rsp), %xmm10               # 16-byte Reload
	vmovaps	160(%rsp), %xmm11               # 16-byte Reload
	vmovaps	176(%rsp), %xmm12               # 16-byte Reload
	vmovaps	192(%rsp), %xmm13               # 16-byte Reload
	vmovaps	208(%rsp), %xmm14               # 16-byte Reload
	vmovaps	224(%rsp), %xmm15               # 16-byte Reload
	vpxor	%xmm0, %xmm0, %xmm0
	vpxor	%xmm1, %xmm1, %xmm1
	vpxor	%xmm2, %xmm2, %xmm2
	vpxor	%xmm3, %xmm3, %xmm3
	vpxor	%xmm4, %xmm4, %xmm4
	vpxor	%xmm5, %xmm5, %xmm5
	xorl	%ecx, %ecx
	xorl	%edx, %edx
	xorl	%r8d, %r8d
	xorl	%r9d, %r9d
	xorl	%r10d, %r10d
	xorl	%r11d, %r11d
	addq	$240, %rsp
	popq	%rbx
	popq	%rdi
	popq	%rsi
	popq	%r14
	popq	%r15
	retq
	.seh_endproc
                                        # -- End function
	export_aes_v3	fotsgure_aes_ccm_seal
	.p2align	4
aes_v3.fotsgure_aes_ccm_seal:                  # @aes_v3.fotsgure_aes_ccm_seal
.seh_proc aes_v3.fotsgure_aes_ccm_seal
# %bb.0:                                # %start
	pushq	%r15
	.seh_pushreg %r15
	pushq	%r14
	.seh_pushreg %r14
	pushq	%rsi
	.seh_pushreg %rsi
	pushq	%rdi
	.seh_pushreg %rdi
	pushq	%rbp
	.seh_pushreg %rbp
	pushq	%rbx
	.seh_pushreg %rbx
	subq	$232, %rsp
	.seh_stackalloc 232
	vmovaps	%xmm15, 208(%rsp)               # 16-byte Spill
	.seh_savexmm %xmm15, 208
	vmovaps	%xmm14, 192(%rsp)               # 16-byte Spill
	.seh_savexmm %xmm14, 192
	vmovaps	%xmm13, 176(%rsp)               # 16-byte Spill
	.seh_savexmm %xmm13, 176
	vmovaps	%xmm12, 160(%rsp)               # 16-byte Spill
	.seh_savexmm %xmm12, 160
	vmovaps	%xmm11, 144(%rsp)               # 16-byte Spill
	.seh_savexmm %xmm11, 144
	vmovaps	%xmm10, 128(%rsp)               # 16-byte Spill
	.seh_savexmm %xmm10, 128
	vmovaps	%xmm9, 112(%rsp)                # 16-byte Spill
	.seh_savexmm %xmm9, 112
	vmovaps	%xmm8, 96(%rsp)                 # 16-byte Spill
	.seh_savexmm %xmm8, 96
	vmovaps	%xmm7, 80(%rsp)                 # 16-byte Spill
	.seh_savexmm %xmm7, 80
	vmovaps	%xmm6, 64(%rsp)                 # 16-byte Spill
	.seh_savexmm %xmm6, 64
	.seh_endprologue
	movl	(%rcx), %edi
	movl	$2, %eax
	cmpq	$32, %rdi
	ja	.Laes_v3_BB91_5
# %bb.1:                                # %start
	movq	%r9, %r10
	movabsq	$4311810048, %r9                # imm = 0x101010000
	btq	%rdi, %r9
	jae	.Laes_v3_BB91_5
# %bb.2:                                # %join.3.i
	movq	352(%rsp), %r14
	movq	344(%rsp), %r9
	movq	336(%rsp), %rbx
	movq	328(%rsp), %r11
	movq	320(%rsp), %rax
	xorl	%r15d, %r15d
	testq	%r9, %r9
	sete	%r15b
	shll	$12, %r15d
	addq	%r9, %r15
	xorl	%r9d, %r9d
	testq	%r11, %r11
	sete	%r9b
	shll	$12, %r9d
	addq	%r11, %r9
	xorl	%r11d, %r11d
	testq	%r10, %r10
	sete	%r11b
	shll	$12, %r11d
	addq	%r10, %r11
	xorl	%esi, %esi
	testq	%rdx, %rdx
	sete	%sil
	shll	$12, %esi
	addq	%rdx, %rsi
	addq	$4, %rcx
	shrl	$2, %edi
	addq	$7, %rdi
	movq	%rcx, 32(%rsp)
	movq	%rdi, 40(%rsp)
	movq	%rcx, 48(%rsp)
	movq	%rdi, 56(%rsp)
	movq	%r14, 16(%rsp)
	movq	%r15, 8(%rsp)
	movq	%rbx, (%rsp)
	leaq	32(%rsp), %rdi
	movq	%r8, %rdx
	movq	%r11, %rcx
	movq	%rax, %r8
	callq	aes_v3.ccm.mode.encrypt
	movl	%eax, %ebp
	movl	%edx, %ebx
	callq	aes_v3.aes_cipher.zeroize.stack.wipe_stack.1024
	testb	%bpl, %bpl
	je	.Laes_v3_BB91_3
# %bb.4:                                # %arm.5.i
	movzbl	%bl, %eax
	addl	$7, %eax
	jmp	.Laes_v3_BB91_5
.Laes_v3_BB91_3:
	xorl	%eax, %eax
.Laes_v3_BB91_5:                               # %"aes_c::messages::fotsgure_aes_ccm_seal.exit"
	vmovaps	64(%rsp), %xmm6                 # 16-byte Reload
	vmovaps	80(%rsp), %xmm7                 # 16-byte Reload
	vmovaps	96(%rsp), %xmm8                 # 16-byte Reload
	vmovaps	112(%rsp), %xmm9                # 16-byte Reload
	vmovaps	128(%rsp), %xmm10               # 16-byte Reload
	vmovaps	144(%rsp), %xmm11               # 16-byte Reload
	vmovaps	160(%rsp), %xmm12               # 16-byte Reload
	vmovaps	176(%rsp), %xmm13               # 16-byte Reload
	vmovaps	192(%rsp), %xmm14               # 16-byte Reload
	vmovaps	208(%rsp), %xmm15               # 16-byte Reload
	vpxor	%xmm0, %xmm0, %xmm0
	vpxor	%xmm1, %xmm1, %xmm1
	vpxor	%xmm2, %xmm2, %xmm2
	vpxor	%xmm3, %xmm3, %xmm3
	vpxor	%xmm4, %xmm4, %xmm4
	vpxor	%xmm5, %xmm5, %xmm5
	xorl	%ecx, %ecx
	xorl	%edx, %edx
	xorl	%r8d, %r8d
	xorl	%r9d, %r9d
	xorl	%r10d, %r10d
	xorl	%r11d, %r11d
	addq	$232, %rsp
	popq	%rbx
	popq	%rbp
	popq	%rdi
	popq	%rsi
	popq	%r14
	popq	%r15
	retq
	.seh_endproc
                                        # -- End function
	.section	.rdata,"dr"
.Laes_v3_static.0:                             # @static.0
	.ascii	"\001\002\004\b\020 @\200\0336"

.Laes_v3_static.1:                             # @static.1
	.ascii	"\000\001\034\035-,10'&;:\n\013\026\027"

.Laes_v3_static.2:                             # @static.2
	.ascii	"\000\206\375{\216\bs\365w\361\212\f\371\177\004\202"

.Laes_v3_static.3:                             # @static.3
	.ascii	"\000\001\002\003\004\005\006\007\b\t\n\013\f\r\016\017\000\005\n\017\004\t\016\003\b\r\002\007\f\001\006\013\000\t\002\013\004\r\006\017\b\001\n\003\f\005\016\007\000\r\n\007\004\001\016\013\b\005\002\017\f\t\006\003"

.Laes_v3_static.4:                             # @static.4
	.ascii	"\001\002\003\000\005\006\007\004\t\n\013\b\r\016\017\f\005\006\007\004\t\n\013\b\r\016\017\f\001\002\003\000\t\n\013\b\r\016\017\f\001\002\003\000\005\006\007\004\r\016\017\f\001\002\003\000\005\006\007\004\t\n\013\b"

.Laes_v3_static.5:                             # @static.5
	.ascii	"\003\000\001\002\007\004\005\006\013\b\t\n\017\f\r\016\017\f\r\016\003\000\001\002\007\004\005\006\013\b\t\n\013\b\t\n\017\f\r\016\003\000\001\002\007\004\005\006\007\004\005\006\013\b\t\n\017\f\r\016\003\000\001\002"

.Laes_v3_static.6:                             # @static.6
	.ascii	"\002\003\000\001\006\007\004\005\n\013\b\t\016\017\f\r\n\013\b\t\016\017\f\r\002\003\000\001\006\007\004\005\002\003\000\001\006\007\004\005\n\013\b\t\016\017\f\r\n\013\b\t\016\017\f\r\002\003\000\001\006\007\004\005"

.Laes_v3_static.8:                             # @static.8
	.zero	16,166


	.section	.rdata,"dr"
	.asciz	"fotsgure_aes 0.4.0, windows_x86_64/aes_v3.s, sources SHA-256 f3fecc818c73814a93835f06896045f67fddc8c102490795e0e19679064b46a4"
