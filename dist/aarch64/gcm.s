// Made by tools/dist from the proved crate gcm_c; BUILD says from what. Don't edit it.
/* A Rust crate defines in_rust; for x86-64, a static library of both builds defines chosen, and choose_*.c calls these names. */
	.macro	export_gcm name
	.ifdef	in_rust
	.globl	gcm.\name
	.hidden	gcm.\name
	.else
	.globl	\name
	.set	\name, gcm.\name
	.endif
	.endm
	.file	"rattle"
	.section	.text.gcm.aes_cipher.zeroize.elements.zeroize_elements.1,"ax",@progbits
	.p2align	2                               // -- Begin function aes_cipher::zeroize::elements::zeroize_elements::<#530874d131791bfe>
	.type	gcm.aes_cipher.zeroize.elements.zeroize_elements.1,@function
gcm.aes_cipher.zeroize.elements.zeroize_elements.1: // @gcm.aes_cipher.zeroize.elements.zeroize_elements.1
// %bb.0:                               // %start
	sub	sp, sp, #32
	stp	xzr, xzr, [sp, #16]
	add	x8, sp, #8
	str	xzr, [sp, #8]
	//APP
	//NO_APP
	ldar	x9, [x8]
	//APP
	//NO_APP
	lsl	x8, x9, #4
	cmp	x9, #14
	b.hi	.Lgcm_BB0_2
// %bb.1:                               // %then.1.i6
	ldrb	w10, [x0, x8]
	b	.Lgcm_BB0_3
.Lgcm_BB0_2:
	mov	w10, wzr
.Lgcm_BB0_3:                                // %"aes_cipher::zeroize::observe::<#3f54e6b29a41109e>.exit10"
	ldr	q0, [sp, #16]
	cmp	x9, #14
	stp	q0, q0, [x0]
	stp	q0, q0, [x0, #32]
	stp	q0, q0, [x0, #64]
	stp	q0, q0, [x0, #96]
	stp	q0, q0, [x0, #128]
	stp	q0, q0, [x0, #160]
	stp	q0, q0, [x0, #192]
	str	q0, [x0, #224]
	b.hi	.Lgcm_BB0_5
// %bb.4:                               // %then.1.i
	ldrb	w8, [x0, x8]
	and	w8, w8, w10
	b	.Lgcm_BB0_6
.Lgcm_BB0_5:
	mov	x8, xzr
.Lgcm_BB0_6:                                // %"aes_cipher::zeroize::observe::<#3f54e6b29a41109e>.exit"
	//APP
	//NO_APP
.Lgcm_BB0_7:                                // %atomicrmw.start
                                        // =>This Inner Loop Header: Depth=1
	add	x9, sp, #8
	ldaxr	xzr, [x9]
	stlxr	w10, x8, [x9]
	cbnz	w10, .Lgcm_BB0_7
// %bb.8:                               // %atomicrmw.end
	//APP
	//NO_APP
	add	sp, sp, #32
	movi	v0.2d, #0000000000000000
	movi	v1.2d, #0000000000000000
	movi	v2.2d, #0000000000000000
	movi	v3.2d, #0000000000000000
	movi	v4.2d, #0000000000000000
	movi	v5.2d, #0000000000000000
	movi	v6.2d, #0000000000000000
	movi	v7.2d, #0000000000000000
	movi	v16.2d, #0000000000000000
	movi	v17.2d, #0000000000000000
	movi	v18.2d, #0000000000000000
	movi	v19.2d, #0000000000000000
	movi	v20.2d, #0000000000000000
	movi	v21.2d, #0000000000000000
	movi	v22.2d, #0000000000000000
	movi	v23.2d, #0000000000000000
	movi	v24.2d, #0000000000000000
	movi	v25.2d, #0000000000000000
	movi	v26.2d, #0000000000000000
	movi	v27.2d, #0000000000000000
	movi	v28.2d, #0000000000000000
	movi	v29.2d, #0000000000000000
	movi	v30.2d, #0000000000000000
	movi	v31.2d, #0000000000000000
	fmov	d8, d8
	fmov	d9, d9
	fmov	d10, d10
	fmov	d11, d11
	fmov	d12, d12
	fmov	d13, d13
	fmov	d14, d14
	fmov	d15, d15
	mov	x1, xzr
	mov	x2, xzr
	mov	x3, xzr
	mov	x4, xzr
	mov	x5, xzr
	mov	x6, xzr
	mov	x7, xzr
	mov	x8, xzr
	mov	x9, xzr
	mov	x10, xzr
	mov	x11, xzr
	mov	x12, xzr
	mov	x13, xzr
	mov	x14, xzr
	mov	x15, xzr
	mov	x16, xzr
	mov	x17, xzr
	ret
.Lgcm_func_end0:
	.size	gcm.aes_cipher.zeroize.elements.zeroize_elements.1, .Lgcm_func_end0-gcm.aes_cipher.zeroize.elements.zeroize_elements.1
                                        // -- End function
	.section	.text.gcm.aes_cipher.zeroize.elements.zeroize_elements.2,"ax",@progbits
	.p2align	2                               // -- Begin function aes_cipher::zeroize::elements::zeroize_elements::<#d3d1c9d97fea966e>
	.type	gcm.aes_cipher.zeroize.elements.zeroize_elements.2,@function
gcm.aes_cipher.zeroize.elements.zeroize_elements.2: // @gcm.aes_cipher.zeroize.elements.zeroize_elements.2
// %bb.0:                               // %start
	sub	sp, sp, #32
	stp	xzr, xzr, [sp, #16]
	add	x8, sp, #8
	str	xzr, [sp, #8]
	//APP
	//NO_APP
	ldar	x8, [x8]
	//APP
	//NO_APP
	lsl	x9, x8, #4
	cmp	x8, x1
	b.hs	.Lgcm_BB1_2
// %bb.1:                               // %then.1.i6
	ldrb	w10, [x0, x9]
	b	.Lgcm_BB1_3
.Lgcm_BB1_2:
	mov	w10, wzr
.Lgcm_BB1_3:                                // %"aes_cipher::zeroize::observe::<#32a0ae3c0a3d48e0>.exit10"
	mov	x11, x1
	mov	x12, x0
.Lgcm_BB1_4:                                // %join.6.i
                                        // =>This Inner Loop Header: Depth=1
	ldr	q0, [sp, #16]
	subs	x11, x11, #1
	str	q0, [x12], #16
	b.ne	.Lgcm_BB1_4
// %bb.5:                               // %"aes_cipher::zeroize::overwrite::<#8898ba818a1b9c8b>.exit"
	cmp	x8, x1
	b.hs	.Lgcm_BB1_7
// %bb.6:                               // %then.1.i
	ldrb	w8, [x0, x9]
	and	w8, w8, w10
	b	.Lgcm_BB1_8
.Lgcm_BB1_7:
	mov	x8, xzr
.Lgcm_BB1_8:                                // %"aes_cipher::zeroize::observe::<#32a0ae3c0a3d48e0>.exit"
	//APP
	//NO_APP
.Lgcm_BB1_9:                                // %atomicrmw.start
                                        // =>This Inner Loop Header: Depth=1
	add	x9, sp, #8
	ldaxr	xzr, [x9]
	stlxr	w10, x8, [x9]
	cbnz	w10, .Lgcm_BB1_9
// %bb.10:                              // %atomicrmw.end
	//APP
	//NO_APP
	add	sp, sp, #32
	movi	v0.2d, #0000000000000000
	movi	v1.2d, #0000000000000000
	movi	v2.2d, #0000000000000000
	movi	v3.2d, #0000000000000000
	movi	v4.2d, #0000000000000000
	movi	v5.2d, #0000000000000000
	movi	v6.2d, #0000000000000000
	movi	v7.2d, #0000000000000000
	movi	v16.2d, #0000000000000000
	movi	v17.2d, #0000000000000000
	movi	v18.2d, #0000000000000000
	movi	v19.2d, #0000000000000000
	movi	v20.2d, #0000000000000000
	movi	v21.2d, #0000000000000000
	movi	v22.2d, #0000000000000000
	movi	v23.2d, #0000000000000000
	movi	v24.2d, #0000000000000000
	movi	v25.2d, #0000000000000000
	movi	v26.2d, #0000000000000000
	movi	v27.2d, #0000000000000000
	movi	v28.2d, #0000000000000000
	movi	v29.2d, #0000000000000000
	movi	v30.2d, #0000000000000000
	movi	v31.2d, #0000000000000000
	fmov	d8, d8
	fmov	d9, d9
	fmov	d10, d10
	fmov	d11, d11
	fmov	d12, d12
	fmov	d13, d13
	fmov	d14, d14
	fmov	d15, d15
	mov	x1, xzr
	mov	x2, xzr
	mov	x3, xzr
	mov	x4, xzr
	mov	x5, xzr
	mov	x6, xzr
	mov	x7, xzr
	mov	x8, xzr
	mov	x9, xzr
	mov	x10, xzr
	mov	x11, xzr
	mov	x12, xzr
	mov	x13, xzr
	mov	x14, xzr
	mov	x15, xzr
	mov	x16, xzr
	mov	x17, xzr
	ret
.Lgcm_func_end1:
	.size	gcm.aes_cipher.zeroize.elements.zeroize_elements.2, .Lgcm_func_end1-gcm.aes_cipher.zeroize.elements.zeroize_elements.2
                                        // -- End function
	.section	.text.gcm.gcm.message_state.MessageZeroize.zeroize,"ax",@progbits
	.p2align	2                               // -- Begin function gcm::message_state::MessageZeroize::zeroize
	.type	gcm.gcm.message_state.MessageZeroize.zeroize,@function
gcm.gcm.message_state.MessageZeroize.zeroize: // @gcm.gcm.message_state.MessageZeroize.zeroize
// %bb.0:                               // %start
	stp	x29, x30, [sp, #-32]!           // 16-byte Folded Spill
	movi	v0.2d, #0000000000000000
	str	x19, [sp, #16]                  // 8-byte Spill
	mov	x29, sp
	mov	x19, x0
	stp	q0, q0, [x0], #32
	bl	gcm.aes_cipher.zeroize.elements.zeroize_elements.3
	add	x0, x19, #48
	bl	gcm.aes_cipher.zeroize.elements.zeroize_elements.3
	add	x0, x19, #64
	ldr	x19, [sp, #16]                  // 8-byte Reload
	ldp	x29, x30, [sp], #32             // 16-byte Folded Reload
	b	gcm.aes_cipher.zeroize.elements.zeroize_elements.3
.Lgcm_func_end2:
	.size	gcm.gcm.message_state.MessageZeroize.zeroize, .Lgcm_func_end2-gcm.gcm.message_state.MessageZeroize.zeroize
                                        // -- End function
	.section	.text.gcm.aes_cipher.zeroize.elements.zeroize_elements.3,"ax",@progbits
	.p2align	2                               // -- Begin function aes_cipher::zeroize::elements::zeroize_elements::<#3b2097f0eef5a37b>
	.type	gcm.aes_cipher.zeroize.elements.zeroize_elements.3,@function
gcm.aes_cipher.zeroize.elements.zeroize_elements.3: // @gcm.aes_cipher.zeroize.elements.zeroize_elements.3
// %bb.0:                               // %start
	sub	sp, sp, #32
	stp	xzr, xzr, [sp, #16]
	add	x8, sp, #8
	str	xzr, [sp, #8]
	//APP
	//NO_APP
	ldar	x8, [x8]
	//APP
	//NO_APP
	cbz	x8, .Lgcm_BB3_2
// %bb.1:                               // %"aes_cipher::zeroize::observe::<#ff6ee9ab78975cb2>.exit8"
	ldr	q0, [sp, #16]
	mov	x8, xzr
	str	q0, [x0]
	b	.Lgcm_BB3_3
.Lgcm_BB3_2:                                // %then.1.i
	ldr	q0, [sp, #16]
	ldrb	w8, [x0]
	str	q0, [x0]
	ldrb	w9, [x0]
	and	w8, w9, w8
	and	x8, x8, #0xff
.Lgcm_BB3_3:                                // %"aes_cipher::zeroize::observe::<#ff6ee9ab78975cb2>.exit"
	//APP
	//NO_APP
.Lgcm_BB3_4:                                // %atomicrmw.start
                                        // =>This Inner Loop Header: Depth=1
	add	x9, sp, #8
	ldaxr	xzr, [x9]
	stlxr	w10, x8, [x9]
	cbnz	w10, .Lgcm_BB3_4
// %bb.5:                               // %atomicrmw.end
	//APP
	//NO_APP
	add	sp, sp, #32
	movi	v0.2d, #0000000000000000
	movi	v1.2d, #0000000000000000
	movi	v2.2d, #0000000000000000
	movi	v3.2d, #0000000000000000
	movi	v4.2d, #0000000000000000
	movi	v5.2d, #0000000000000000
	movi	v6.2d, #0000000000000000
	movi	v7.2d, #0000000000000000
	movi	v16.2d, #0000000000000000
	movi	v17.2d, #0000000000000000
	movi	v18.2d, #0000000000000000
	movi	v19.2d, #0000000000000000
	movi	v20.2d, #0000000000000000
	movi	v21.2d, #0000000000000000
	movi	v22.2d, #0000000000000000
	movi	v23.2d, #0000000000000000
	movi	v24.2d, #0000000000000000
	movi	v25.2d, #0000000000000000
	movi	v26.2d, #0000000000000000
	movi	v27.2d, #0000000000000000
	movi	v28.2d, #0000000000000000
	movi	v29.2d, #0000000000000000
	movi	v30.2d, #0000000000000000
	movi	v31.2d, #0000000000000000
	fmov	d8, d8
	fmov	d9, d9
	fmov	d10, d10
	fmov	d11, d11
	fmov	d12, d12
	fmov	d13, d13
	fmov	d14, d14
	fmov	d15, d15
	mov	x1, xzr
	mov	x2, xzr
	mov	x3, xzr
	mov	x4, xzr
	mov	x5, xzr
	mov	x6, xzr
	mov	x7, xzr
	mov	x8, xzr
	mov	x9, xzr
	mov	x10, xzr
	mov	x11, xzr
	mov	x12, xzr
	mov	x13, xzr
	mov	x14, xzr
	mov	x15, xzr
	mov	x16, xzr
	mov	x17, xzr
	ret
.Lgcm_func_end3:
	.size	gcm.aes_cipher.zeroize.elements.zeroize_elements.3, .Lgcm_func_end3-gcm.aes_cipher.zeroize.elements.zeroize_elements.3
                                        // -- End function
	.section	.rodata.cst16,"aM",@progbits,16
	.p2align	4, 0x0                          // -- Begin function aes_permute::lane_keys::expand_lanes
.Lgcm_CPI4_0:
	.byte	0                               // 0x0
	.byte	1                               // 0x1
	.byte	28                              // 0x1c
	.byte	29                              // 0x1d
	.byte	45                              // 0x2d
	.byte	44                              // 0x2c
	.byte	49                              // 0x31
	.byte	48                              // 0x30
	.byte	39                              // 0x27
	.byte	38                              // 0x26
	.byte	59                              // 0x3b
	.byte	58                              // 0x3a
	.byte	10                              // 0xa
	.byte	11                              // 0xb
	.byte	22                              // 0x16
	.byte	23                              // 0x17
.Lgcm_CPI4_1:
	.byte	0                               // 0x0
	.byte	134                             // 0x86
	.byte	253                             // 0xfd
	.byte	123                             // 0x7b
	.byte	142                             // 0x8e
	.byte	8                               // 0x8
	.byte	115                             // 0x73
	.byte	245                             // 0xf5
	.byte	119                             // 0x77
	.byte	241                             // 0xf1
	.byte	138                             // 0x8a
	.byte	12                              // 0xc
	.byte	249                             // 0xf9
	.byte	127                             // 0x7f
	.byte	4                               // 0x4
	.byte	130                             // 0x82
.Lgcm_CPI4_2:
	.byte	0                               // 0x0
	.byte	1                               // 0x1
	.byte	92                              // 0x5c
	.byte	93                              // 0x5d
	.byte	224                             // 0xe0
	.byte	225                             // 0xe1
	.byte	188                             // 0xbc
	.byte	189                             // 0xbd
	.byte	80                              // 0x50
	.byte	81                              // 0x51
	.byte	12                              // 0xc
	.byte	13                              // 0xd
	.byte	176                             // 0xb0
	.byte	177                             // 0xb1
	.byte	236                             // 0xec
	.byte	237                             // 0xed
.Lgcm_CPI4_3:
	.byte	0                               // 0x0
	.byte	178                             // 0xb2
	.byte	181                             // 0xb5
	.byte	7                               // 0x7
	.byte	58                              // 0x3a
	.byte	136                             // 0x88
	.byte	143                             // 0x8f
	.byte	61                              // 0x3d
	.byte	172                             // 0xac
	.byte	30                              // 0x1e
	.byte	25                              // 0x19
	.byte	171                             // 0xab
	.byte	150                             // 0x96
	.byte	36                              // 0x24
	.byte	35                              // 0x23
	.byte	145                             // 0x91
.Lgcm_CPI4_4:
	.byte	13                              // 0xd
	.byte	14                              // 0xe
	.byte	15                              // 0xf
	.byte	12                              // 0xc
	.byte	13                              // 0xd
	.byte	14                              // 0xe
	.byte	15                              // 0xf
	.byte	12                              // 0xc
	.byte	13                              // 0xd
	.byte	14                              // 0xe
	.byte	15                              // 0xf
	.byte	12                              // 0xc
	.byte	13                              // 0xd
	.byte	14                              // 0xe
	.byte	15                              // 0xf
	.byte	12                              // 0xc
.Lgcm_CPI4_5:
	.byte	128                             // 0x80
	.byte	2                               // 0x2
	.byte	1                               // 0x1
	.byte	15                              // 0xf
	.byte	9                               // 0x9
	.byte	5                               // 0x5
	.byte	14                              // 0xe
	.byte	12                              // 0xc
	.byte	13                              // 0xd
	.byte	4                               // 0x4
	.byte	11                              // 0xb
	.byte	10                              // 0xa
	.byte	7                               // 0x7
	.byte	8                               // 0x8
	.byte	6                               // 0x6
	.byte	3                               // 0x3
.Lgcm_CPI4_6:
	.byte	128                             // 0x80
	.byte	1                               // 0x1
	.byte	9                               // 0x9
	.byte	14                              // 0xe
	.byte	13                              // 0xd
	.byte	11                              // 0xb
	.byte	7                               // 0x7
	.byte	6                               // 0x6
	.byte	15                              // 0xf
	.byte	2                               // 0x2
	.byte	12                              // 0xc
	.byte	5                               // 0x5
	.byte	10                              // 0xa
	.byte	4                               // 0x4
	.byte	3                               // 0x3
	.byte	8                               // 0x8
.Lgcm_CPI4_7:
	.byte	0                               // 0x0
	.byte	195                             // 0xc3
	.byte	79                              // 0x4f
	.byte	12                              // 0xc
	.byte	252                             // 0xfc
	.byte	124                             // 0x7c
	.byte	67                              // 0x43
	.byte	128                             // 0x80
	.byte	207                             // 0xcf
	.byte	51                              // 0x33
	.byte	63                              // 0x3f
	.byte	112                             // 0x70
	.byte	191                             // 0xbf
	.byte	179                             // 0xb3
	.byte	240                             // 0xf0
	.byte	140                             // 0x8c
.Lgcm_CPI4_8:
	.byte	0                               // 0x0
	.byte	230                             // 0xe6
	.byte	114                             // 0x72
	.byte	183                             // 0xb7
	.byte	229                             // 0xe5
	.byte	198                             // 0xc6
	.byte	197                             // 0xc5
	.byte	35                              // 0x23
	.byte	81                              // 0x51
	.byte	180                             // 0xb4
	.byte	3                               // 0x3
	.byte	113                             // 0x71
	.byte	32                              // 0x20
	.byte	151                             // 0x97
	.byte	82                              // 0x52
	.byte	148                             // 0x94
.Lgcm_CPI4_9:
	.byte	255                             // 0xff
	.byte	255                             // 0xff
	.byte	255                             // 0xff
	.byte	255                             // 0xff
	.byte	0                               // 0x0
	.byte	1                               // 0x1
	.byte	2                               // 0x2
	.byte	3                               // 0x3
	.byte	4                               // 0x4
	.byte	5                               // 0x5
	.byte	6                               // 0x6
	.byte	7                               // 0x7
	.byte	8                               // 0x8
	.byte	9                               // 0x9
	.byte	10                              // 0xa
	.byte	11                              // 0xb
.Lgcm_CPI4_10:
	.byte	255                             // 0xff
	.byte	255                             // 0xff
	.byte	255                             // 0xff
	.byte	255                             // 0xff
	.byte	255                             // 0xff
	.byte	255                             // 0xff
	.byte	255                             // 0xff
	.byte	255                             // 0xff
	.byte	0                               // 0x0
	.byte	1                               // 0x1
	.byte	2                               // 0x2
	.byte	3                               // 0x3
	.byte	4                               // 0x4
	.byte	5                               // 0x5
	.byte	6                               // 0x6
	.byte	7                               // 0x7
.Lgcm_CPI4_11:
	.byte	0                               // 0x0
	.byte	13                              // 0xd
	.byte	10                              // 0xa
	.byte	7                               // 0x7
	.byte	4                               // 0x4
	.byte	1                               // 0x1
	.byte	14                              // 0xe
	.byte	11                              // 0xb
	.byte	8                               // 0x8
	.byte	5                               // 0x5
	.byte	2                               // 0x2
	.byte	15                              // 0xf
	.byte	12                              // 0xc
	.byte	9                               // 0x9
	.byte	6                               // 0x6
	.byte	3                               // 0x3
.Lgcm_CPI4_12:
	.byte	224                             // 0xe0
	.byte	110                             // 0x6e
	.byte	110                             // 0x6e
	.byte	110                             // 0x6e
	.byte	110                             // 0x6e
	.byte	110                             // 0x6e
	.byte	110                             // 0x6e
	.byte	110                             // 0x6e
	.byte	110                             // 0x6e
	.byte	110                             // 0x6e
	.byte	110                             // 0x6e
	.byte	110                             // 0x6e
	.byte	110                             // 0x6e
	.byte	110                             // 0x6e
	.byte	110                             // 0x6e
	.byte	110                             // 0x6e
	.section	.text.gcm.aes_permute.lane_keys.expand_lanes,"ax",@progbits
	.p2align	2
	.type	gcm.aes_permute.lane_keys.expand_lanes,@function
gcm.aes_permute.lane_keys.expand_lanes: // @gcm.aes_permute.lane_keys.expand_lanes
// %bb.0:                               // %start
	ldp	d0, d6, [x1]
	movi	v3.16b, #15
	adrp	x8, .Lgcm_CPI4_0
	adrp	x9, .Lgcm_CPI4_1
	cmp	x2, #24
	ldr	q4, [x8, :lo12:.Lgcm_CPI4_0]
	ldr	q5, [x9, :lo12:.Lgcm_CPI4_1]
	mov	v0.d[1], v6.d[0]
	and	v1.16b, v0.16b, v3.16b
	ushr	v0.16b, v0.16b, #4
	tbl	v1.16b, { v4.16b }, v1.16b
	tbl	v0.16b, { v5.16b }, v0.16b
	eor	v0.16b, v0.16b, v1.16b
	b.eq	.Lgcm_BB4_6
// %bb.1:                               // %start
	cmp	x2, #16
	b.ne	.Lgcm_BB4_11
// %bb.2:                               // %then.1.i
	adrp	x8, .Lgcm_CPI4_2
	ushr	v4.16b, v0.16b, #4
	adrp	x9, .Lgcm_CPI4_3
	and	v5.16b, v0.16b, v3.16b
	ldr	q1, [x8, :lo12:.Lgcm_CPI4_2]
	ldr	q2, [x9, :lo12:.Lgcm_CPI4_3]
	adrp	x9, .Lgcm_static.0
	add	x9, x9, :lo12:.Lgcm_static.0
	mov	w8, #48                         // =0x30
	tbl	v4.16b, { v2.16b }, v4.16b
	tbl	v5.16b, { v1.16b }, v5.16b
	eor	v4.16b, v4.16b, v5.16b
	str	q4, [x0], #16
.Lgcm_BB4_3:                                // %join.5.i
                                        // =>This Inner Loop Header: Depth=1
	adrp	x10, .Lgcm_CPI4_4
	ldrb	w12, [x9], #1
	ldr	q4, [x10, :lo12:.Lgcm_CPI4_4]
	adrp	x10, .Lgcm_static.1
	add	x10, x10, :lo12:.Lgcm_static.1
	lsr	x14, x12, #4
	adrp	x11, .Lgcm_static.2
	add	x11, x11, :lo12:.Lgcm_static.2
	tbl	v5.16b, { v0.16b }, v4.16b
	movi	v7.2d, #0000000000000000
	and	x12, x12, #0xf
	adrp	x13, .Lgcm_CPI4_5
	adrp	x15, .Lgcm_CPI4_6
	ldrb	w12, [x10, x12]
	ldrb	w14, [x11, x14]
	ldr	q6, [x13, :lo12:.Lgcm_CPI4_5]
	adrp	x13, .Lgcm_CPI4_10
	ushr	v18.16b, v5.16b, #4
	and	v16.16b, v5.16b, v3.16b
	ldr	q5, [x15, :lo12:.Lgcm_CPI4_6]
	eor	w12, w14, w12
	mov	v7.b[0], w12
	adrp	x12, .Lgcm_CPI4_9
	eor	v17.16b, v18.16b, v16.16b
	tbl	v16.16b, { v6.16b }, v16.16b
	tbl	v19.16b, { v5.16b }, v18.16b
	tbl	v20.16b, { v5.16b }, v17.16b
	eor	v0.16b, v7.16b, v0.16b
	ldr	q7, [x12, :lo12:.Lgcm_CPI4_9]
	eor	v19.16b, v19.16b, v16.16b
	adrp	x12, .Lgcm_CPI4_7
	eor	v16.16b, v20.16b, v16.16b
	tbl	v20.16b, { v0.16b }, v7.16b
	tbl	v19.16b, { v5.16b }, v19.16b
	tbl	v21.16b, { v5.16b }, v16.16b
	ldr	q16, [x12, :lo12:.Lgcm_CPI4_7]
	adrp	x12, .Lgcm_CPI4_8
	eor	v0.16b, v20.16b, v0.16b
	eor	v19.16b, v19.16b, v17.16b
	ldr	q17, [x13, :lo12:.Lgcm_CPI4_10]
	and	x13, x8, #0x30
	add	x8, x8, #48
	cmp	x8, #480
	eor	v20.16b, v21.16b, v18.16b
	tbl	v21.16b, { v16.16b }, v19.16b
	tbl	v22.16b, { v0.16b }, v17.16b
	ldr	q18, [x12, :lo12:.Lgcm_CPI4_8]
	movi	v19.16b, #110
	adrp	x12, .Lgcm_static.3
	add	x12, x12, :lo12:.Lgcm_static.3
	tbl	v20.16b, { v18.16b }, v20.16b
	eor	v21.16b, v21.16b, v22.16b
	eor	v0.16b, v0.16b, v19.16b
	eor	v20.16b, v21.16b, v20.16b
	eor	v0.16b, v20.16b, v0.16b
	ldr	q20, [x12, x13]
	tbl	v21.16b, { v0.16b }, v20.16b
	movi	v20.2d, #0000000000000000
	eor	v21.16b, v21.16b, v19.16b
	str	q21, [x0], #16
	b.ne	.Lgcm_BB4_3
// %bb.4:                               // %join.5.i.peel
	tbl	v4.16b, { v0.16b }, v4.16b
	movi	v3.16b, #15
	ldrb	w9, [x9]
	cmp	x8, #480
	lsr	x13, x9, #4
	and	x9, x9, #0xf
	ldrb	w9, [x10, x9]
	ushr	v21.16b, v4.16b, #4
	and	v4.16b, v4.16b, v3.16b
	ldrb	w10, [x11, x13]
	eor	w9, w10, w9
	eor	v22.16b, v21.16b, v4.16b
	tbl	v4.16b, { v6.16b }, v4.16b
	tbl	v6.16b, { v5.16b }, v21.16b
	mov	v20.b[0], w9
	tbl	v23.16b, { v5.16b }, v22.16b
	eor	v6.16b, v6.16b, v4.16b
	eor	v0.16b, v20.16b, v0.16b
	eor	v4.16b, v23.16b, v4.16b
	tbl	v6.16b, { v5.16b }, v6.16b
	tbl	v7.16b, { v0.16b }, v7.16b
	tbl	v4.16b, { v5.16b }, v4.16b
	eor	v5.16b, v6.16b, v22.16b
	eor	v0.16b, v7.16b, v0.16b
	eor	v4.16b, v4.16b, v21.16b
	tbl	v5.16b, { v16.16b }, v5.16b
	tbl	v6.16b, { v0.16b }, v17.16b
	eor	v0.16b, v0.16b, v19.16b
	tbl	v4.16b, { v18.16b }, v4.16b
	eor	v5.16b, v5.16b, v6.16b
	eor	v4.16b, v5.16b, v4.16b
	eor	v0.16b, v4.16b, v0.16b
	b.ne	.Lgcm_BB4_14
// %bb.5:                               // %then.4.i425.peel
	and	v3.16b, v0.16b, v3.16b
	ushr	v0.16b, v0.16b, #4
	tbl	v1.16b, { v1.16b }, v3.16b
	tbl	v0.16b, { v2.16b }, v0.16b
	movi	v2.16b, #99
	eor	v0.16b, v1.16b, v0.16b
	eor	v0.16b, v0.16b, v2.16b
	b	.Lgcm_BB4_15
.Lgcm_BB4_6:                                // %then.4.i
	ldr	d1, [x1, #16]
	and	v7.16b, v0.16b, v3.16b
	adrp	x8, .Lgcm_CPI4_2
	ushr	v16.16b, v0.16b, #4
	adrp	x9, .Lgcm_CPI4_3
	mov	v6.d[1], v1.d[0]
	ldr	q1, [x8, :lo12:.Lgcm_CPI4_2]
	ldr	q2, [x9, :lo12:.Lgcm_CPI4_3]
	adrp	x8, .Lgcm_static.0+1
	add	x8, x8, :lo12:.Lgcm_static.0+1
	mov	w9, #144                        // =0x90
	tbl	v7.16b, { v1.16b }, v7.16b
	tbl	v16.16b, { v2.16b }, v16.16b
	and	v3.16b, v6.16b, v3.16b
	ushr	v6.16b, v6.16b, #4
	tbl	v3.16b, { v4.16b }, v3.16b
	tbl	v4.16b, { v5.16b }, v6.16b
	eor	v5.16b, v16.16b, v7.16b
	str	q5, [x0], #32
	eor	v4.16b, v4.16b, v3.16b
	b	.Lgcm_BB4_9
.Lgcm_BB4_7:                                // %join.6.i1332.i
                                        //   in Loop: Header=BB4_9 Depth=1
	and	x10, x9, #0x30
	ldr	q3, [x12, x10]
	tbl	v3.16b, { v0.16b }, v3.16b
	eor	v3.16b, v3.16b, v18.16b
.Lgcm_BB4_8:                                // %"aes_permute::lane_keys::stored_key.exit1337.i"
                                        //   in Loop: Header=BB4_9 Depth=1
	tbl	v5.16b, { v4.16b }, v5.16b
	add	x9, x9, #144
	add	x8, x8, #2
	cmp	x9, #720
	str	q3, [x0, #16]
	add	x0, x0, #48
	eor	v4.16b, v5.16b, v4.16b
	tbl	v5.16b, { v4.16b }, v6.16b
	dup	v6.4s, v0.s[1]
	eor	v4.16b, v5.16b, v4.16b
	eor	v4.16b, v4.16b, v6.16b
	b.eq	.Lgcm_BB4_16
.Lgcm_BB4_9:                                // %join.5.i596
                                        // =>This Inner Loop Header: Depth=1
	adrp	x10, .Lgcm_CPI4_4
	movi	v3.16b, #15
	ldurb	w12, [x8, #-1]
	ldr	q7, [x10, :lo12:.Lgcm_CPI4_4]
	adrp	x10, .Lgcm_static.1
	add	x10, x10, :lo12:.Lgcm_static.1
	lsr	x14, x12, #4
	adrp	x11, .Lgcm_static.2
	add	x11, x11, :lo12:.Lgcm_static.2
	tbl	v5.16b, { v4.16b }, v7.16b
	movi	v6.2d, #0000000000000000
	and	x12, x12, #0xf
	adrp	x13, .Lgcm_CPI4_5
	adrp	x15, .Lgcm_CPI4_6
	ldrb	w12, [x10, x12]
	ldrb	w14, [x11, x14]
	ldr	q17, [x13, :lo12:.Lgcm_CPI4_5]
	ldr	q16, [x15, :lo12:.Lgcm_CPI4_6]
	adrp	x13, .Lgcm_CPI4_10
	cmp	x9, #576
	ushr	v18.16b, v5.16b, #4
	and	v5.16b, v5.16b, v3.16b
	eor	w12, w14, w12
	mov	v6.b[0], w12
	adrp	x12, .Lgcm_CPI4_9
	eor	v19.16b, v18.16b, v5.16b
	tbl	v20.16b, { v17.16b }, v5.16b
	tbl	v5.16b, { v16.16b }, v18.16b
	eor	v0.16b, v6.16b, v0.16b
	tbl	v21.16b, { v16.16b }, v19.16b
	eor	v6.16b, v5.16b, v20.16b
	ldr	q5, [x12, :lo12:.Lgcm_CPI4_9]
	adrp	x12, .Lgcm_CPI4_7
	eor	v20.16b, v21.16b, v20.16b
	tbl	v21.16b, { v0.16b }, v5.16b
	tbl	v6.16b, { v16.16b }, v6.16b
	tbl	v20.16b, { v16.16b }, v20.16b
	eor	v21.16b, v21.16b, v0.16b
	eor	v19.16b, v6.16b, v19.16b
	ldr	q0, [x12, :lo12:.Lgcm_CPI4_7]
	ldr	q6, [x13, :lo12:.Lgcm_CPI4_10]
	adrp	x12, .Lgcm_CPI4_8
	eor	v18.16b, v20.16b, v18.16b
	tbl	v20.16b, { v0.16b }, v19.16b
	tbl	v22.16b, { v21.16b }, v6.16b
	ldr	q19, [x12, :lo12:.Lgcm_CPI4_8]
	sub	w12, w9, #96
	and	x13, x12, #0x30
	adrp	x12, .Lgcm_static.3
	add	x12, x12, :lo12:.Lgcm_static.3
	tbl	v23.16b, { v19.16b }, v18.16b
	movi	v18.16b, #110
	eor	v20.16b, v20.16b, v22.16b
	eor	v20.16b, v20.16b, v23.16b
	eor	v21.16b, v21.16b, v18.16b
	eor	v20.16b, v20.16b, v21.16b
	tbl	v21.16b, { v4.16b }, v5.16b
	ext	v22.16b, v4.16b, v20.16b, #8
	eor	v4.16b, v21.16b, v4.16b
	ldr	q21, [x12, x13]
	sub	w13, w9, #48
	and	x13, x13, #0x30
	tbl	v23.16b, { v4.16b }, v6.16b
	tbl	v21.16b, { v22.16b }, v21.16b
	dup	v22.4s, v20.s[1]
	eor	v4.16b, v23.16b, v4.16b
	eor	v21.16b, v21.16b, v18.16b
	eor	v4.16b, v4.16b, v22.16b
	stur	q21, [x0, #-16]
	ldr	q21, [x12, x13]
	tbl	v21.16b, { v4.16b }, v21.16b
	tbl	v7.16b, { v4.16b }, v7.16b
	eor	v21.16b, v21.16b, v18.16b
	ushr	v22.16b, v7.16b, #4
	and	v7.16b, v7.16b, v3.16b
	str	q21, [x0]
	movi	v21.2d, #0000000000000000
	eor	v23.16b, v22.16b, v7.16b
	ldrb	w13, [x8]
	tbl	v7.16b, { v17.16b }, v7.16b
	tbl	v17.16b, { v16.16b }, v22.16b
	lsr	x14, x13, #4
	and	x13, x13, #0xf
	tbl	v24.16b, { v16.16b }, v23.16b
	ldrb	w10, [x10, x13]
	ldrb	w11, [x11, x14]
	eor	v17.16b, v17.16b, v7.16b
	eor	w10, w11, w10
	eor	v7.16b, v24.16b, v7.16b
	mov	v21.b[0], w10
	tbl	v17.16b, { v16.16b }, v17.16b
	tbl	v7.16b, { v16.16b }, v7.16b
	eor	v20.16b, v21.16b, v20.16b
	eor	v16.16b, v17.16b, v23.16b
	eor	v7.16b, v7.16b, v22.16b
	tbl	v21.16b, { v20.16b }, v5.16b
	tbl	v0.16b, { v0.16b }, v16.16b
	tbl	v7.16b, { v19.16b }, v7.16b
	eor	v17.16b, v21.16b, v20.16b
	tbl	v16.16b, { v17.16b }, v6.16b
	eor	v0.16b, v0.16b, v16.16b
	eor	v0.16b, v0.16b, v7.16b
	eor	v7.16b, v17.16b, v18.16b
	eor	v0.16b, v0.16b, v7.16b
	b.ne	.Lgcm_BB4_7
// %bb.10:                              // %then.4.i1334.i
                                        //   in Loop: Header=BB4_9 Depth=1
	and	v3.16b, v0.16b, v3.16b
	ushr	v7.16b, v0.16b, #4
	movi	v16.16b, #99
	tbl	v3.16b, { v1.16b }, v3.16b
	tbl	v7.16b, { v2.16b }, v7.16b
	eor	v3.16b, v3.16b, v7.16b
	eor	v3.16b, v3.16b, v16.16b
	b	.Lgcm_BB4_8
.Lgcm_BB4_11:                               // %else.5.i
	ldr	q1, [x1, #16]
	adrp	x8, .Lgcm_CPI4_2
	ushr	v7.16b, v0.16b, #4
	adrp	x9, .Lgcm_CPI4_3
	and	v16.16b, v0.16b, v3.16b
	mov	w10, #144                       // =0x90
	ushr	v2.16b, v1.16b, #4
	and	v1.16b, v1.16b, v3.16b
	tbl	v5.16b, { v5.16b }, v2.16b
	tbl	v6.16b, { v4.16b }, v1.16b
	movi	v4.16b, #110
	ldr	q1, [x8, :lo12:.Lgcm_CPI4_2]
	ldr	q2, [x9, :lo12:.Lgcm_CPI4_3]
	adrp	x8, .Lgcm_CPI4_11
	ldr	q17, [x8, :lo12:.Lgcm_CPI4_11]
	add	x8, x0, #48
	adrp	x9, .Lgcm_static.0
	add	x9, x9, :lo12:.Lgcm_static.0
	eor	v5.16b, v5.16b, v6.16b
	tbl	v6.16b, { v2.16b }, v7.16b
	tbl	v7.16b, { v1.16b }, v16.16b
	eor	v16.16b, v5.16b, v4.16b
	eor	v6.16b, v6.16b, v7.16b
	tbl	v7.16b, { v16.16b }, v17.16b
	stp	q6, q7, [x0]
.Lgcm_BB4_12:                               // %join.5.i643
                                        // =>This Inner Loop Header: Depth=1
	adrp	x11, .Lgcm_CPI4_4
	adrp	x12, .Lgcm_static.1
	add	x12, x12, :lo12:.Lgcm_static.1
	ldr	q6, [x11, :lo12:.Lgcm_CPI4_4]
	ldrb	w11, [x9], #1
	adrp	x13, .Lgcm_static.2
	add	x13, x13, :lo12:.Lgcm_static.2
	movi	v16.2d, #0000000000000000
	tbl	v7.16b, { v5.16b }, v6.16b
	and	x14, x11, #0xf
	lsr	x11, x11, #4
	ldrb	w12, [x12, x14]
	adrp	x14, .Lgcm_CPI4_5
	ldrb	w11, [x13, x11]
	adrp	x13, .Lgcm_CPI4_6
	ldr	q17, [x14, :lo12:.Lgcm_CPI4_5]
	ushr	v20.16b, v7.16b, #4
	and	v18.16b, v7.16b, v3.16b
	ldr	q7, [x13, :lo12:.Lgcm_CPI4_6]
	eor	w11, w11, w12
	adrp	x12, .Lgcm_CPI4_10
	mov	v16.b[0], w11
	adrp	x11, .Lgcm_CPI4_9
	eor	v19.16b, v20.16b, v18.16b
	tbl	v18.16b, { v17.16b }, v18.16b
	tbl	v21.16b, { v7.16b }, v20.16b
	tbl	v22.16b, { v7.16b }, v19.16b
	eor	v0.16b, v16.16b, v0.16b
	ldr	q16, [x11, :lo12:.Lgcm_CPI4_9]
	eor	v21.16b, v21.16b, v18.16b
	adrp	x11, .Lgcm_CPI4_7
	eor	v18.16b, v22.16b, v18.16b
	tbl	v22.16b, { v0.16b }, v16.16b
	tbl	v21.16b, { v7.16b }, v21.16b
	tbl	v23.16b, { v7.16b }, v18.16b
	ldr	q18, [x11, :lo12:.Lgcm_CPI4_7]
	adrp	x11, .Lgcm_CPI4_8
	eor	v0.16b, v22.16b, v0.16b
	eor	v21.16b, v21.16b, v19.16b
	ldr	q19, [x12, :lo12:.Lgcm_CPI4_10]
	adrp	x12, .Lgcm_static.3
	add	x12, x12, :lo12:.Lgcm_static.3
	eor	v22.16b, v23.16b, v20.16b
	tbl	v21.16b, { v18.16b }, v21.16b
	tbl	v23.16b, { v0.16b }, v19.16b
	ldr	q20, [x11, :lo12:.Lgcm_CPI4_8]
	sub	w11, w10, #48
	and	x11, x11, #0x20
	tbl	v22.16b, { v20.16b }, v22.16b
	eor	v21.16b, v21.16b, v23.16b
	eor	v21.16b, v22.16b, v21.16b
	eor	v21.16b, v21.16b, v0.16b
	eor	v0.16b, v21.16b, v4.16b
	dup	v22.4s, v0.s[3]
	ushr	v23.16b, v22.16b, #4
	and	v22.16b, v22.16b, v3.16b
	eor	v24.16b, v23.16b, v22.16b
	tbl	v22.16b, { v17.16b }, v22.16b
	tbl	v25.16b, { v7.16b }, v23.16b
	tbl	v26.16b, { v7.16b }, v24.16b
	eor	v25.16b, v25.16b, v22.16b
	eor	v22.16b, v26.16b, v22.16b
	tbl	v25.16b, { v7.16b }, v25.16b
	tbl	v26.16b, { v5.16b }, v16.16b
	tbl	v22.16b, { v7.16b }, v22.16b
	eor	v24.16b, v25.16b, v24.16b
	eor	v5.16b, v26.16b, v5.16b
	ldr	q25, [x12, x11]
	and	x11, x10, #0x30
	add	x10, x10, #96
	tbl	v25.16b, { v0.16b }, v25.16b
	cmp	x10, #720
	eor	v22.16b, v22.16b, v23.16b
	tbl	v23.16b, { v18.16b }, v24.16b
	tbl	v24.16b, { v5.16b }, v19.16b
	eor	v5.16b, v5.16b, v4.16b
	tbl	v22.16b, { v20.16b }, v22.16b
	eor	v23.16b, v24.16b, v23.16b
	eor	v24.16b, v25.16b, v4.16b
	eor	v22.16b, v23.16b, v22.16b
	stur	q24, [x8, #-16]
	eor	v5.16b, v22.16b, v5.16b
	ldr	q22, [x12, x11]
	tbl	v22.16b, { v5.16b }, v22.16b
	eor	v22.16b, v22.16b, v4.16b
	str	q22, [x8], #32
	b.ne	.Lgcm_BB4_12
// %bb.13:                              // %"aes_planes::expansion::expand_256::<#05c2c6c54e82e59f>.exit"
	tbl	v0.16b, { v5.16b }, v6.16b
	movi	v3.16b, #15
	adrp	x8, .Lgcm_CPI4_12
	ushr	v4.16b, v0.16b, #4
	and	v0.16b, v0.16b, v3.16b
	eor	v5.16b, v4.16b, v0.16b
	tbl	v0.16b, { v17.16b }, v0.16b
	tbl	v6.16b, { v7.16b }, v4.16b
	ldr	q17, [x8, :lo12:.Lgcm_CPI4_12]
	tbl	v22.16b, { v7.16b }, v5.16b
	eor	v17.16b, v21.16b, v17.16b
	eor	v6.16b, v6.16b, v0.16b
	tbl	v16.16b, { v17.16b }, v16.16b
	eor	v0.16b, v22.16b, v0.16b
	tbl	v6.16b, { v7.16b }, v6.16b
	tbl	v0.16b, { v7.16b }, v0.16b
	movi	v7.16b, #110
	eor	v5.16b, v6.16b, v5.16b
	eor	v6.16b, v16.16b, v17.16b
	eor	v0.16b, v0.16b, v4.16b
	tbl	v4.16b, { v18.16b }, v5.16b
	tbl	v5.16b, { v6.16b }, v19.16b
	tbl	v0.16b, { v20.16b }, v0.16b
	eor	v4.16b, v5.16b, v4.16b
	eor	v0.16b, v4.16b, v0.16b
	eor	v4.16b, v6.16b, v7.16b
	eor	v0.16b, v0.16b, v4.16b
	and	v3.16b, v0.16b, v3.16b
	ushr	v0.16b, v0.16b, #4
	tbl	v1.16b, { v1.16b }, v3.16b
	tbl	v0.16b, { v2.16b }, v0.16b
	movi	v2.16b, #99
	eor	v0.16b, v1.16b, v0.16b
	eor	v0.16b, v0.16b, v2.16b
	str	q0, [x0, #224]
	ret
.Lgcm_BB4_14:                               // %join.6.i.peel
	and	x8, x8, #0x30
	ldr	q1, [x12, x8]
	tbl	v0.16b, { v0.16b }, v1.16b
	movi	v1.16b, #110
	eor	v0.16b, v0.16b, v1.16b
.Lgcm_BB4_15:                               // %"aes_permute::lane_keys::stored_key.exit.peel"
	str	q0, [x0]
.Lgcm_BB4_16:                               // %"aes_planes::expansion::expand::<#05c2c6c54e82e59f>.exit"
	ret
.Lgcm_func_end4:
	.size	gcm.aes_permute.lane_keys.expand_lanes, .Lgcm_func_end4-gcm.aes_permute.lane_keys.expand_lanes
                                        // -- End function
	.section	.text.gcm.gcm.mode.BorrowedGcm.put_pre_counter,"ax",@progbits
	.p2align	2                               // -- Begin function gcm::mode::BorrowedGcm::put_pre_counter::<#c13ce517942629d6>
	.type	gcm.gcm.mode.BorrowedGcm.put_pre_counter,@function
gcm.gcm.mode.BorrowedGcm.put_pre_counter: // @gcm.gcm.mode.BorrowedGcm.put_pre_counter
// %bb.0:                               // %start
	sub	sp, sp, #80
	stp	x20, x19, [sp, #64]             // 16-byte Folded Spill
	mov	x19, x3
	cmp	x2, #12
	stp	x29, x30, [sp, #32]             // 16-byte Folded Spill
	add	x29, sp, #32
	str	x21, [sp, #48]                  // 8-byte Spill
	b.ne	.Lgcm_BB5_2
// %bb.1:                               // %then.1
	ldr	x8, [x1]
	ldr	w9, [x1, #8]
	strb	wzr, [sp, #30]
	strh	wzr, [sp, #28]
	str	x8, [sp, #16]
	str	w9, [sp, #24]
	ldur	x9, [sp, #23]
	str	x8, [sp]
	stur	x9, [sp, #7]
	ldr	x8, [sp]
	str	x8, [x19]
	mov	w8, #1                          // =0x1
	stur	x9, [x19, #7]
	strb	w8, [x19, #15]
	ldp	x20, x19, [sp, #64]             // 16-byte Folded Reload
	ldp	x29, x30, [sp, #32]             // 16-byte Folded Reload
	ldr	x21, [sp, #48]                  // 8-byte Reload
	add	sp, sp, #80
	ret
.Lgcm_BB5_2:                                // %else.2
	ldr	x8, [x0, #32]
	mov	x20, x2
	mov	x21, x0
	mov	x2, xzr
	mov	x3, xzr
	mov	x4, x1
	mov	x0, x8
	mov	x5, x20
	bl	gcm.gcm.hash_room.MultiplesRoomHashRoom.hash_on
	lsl	x8, x20, #43
	lsr	x9, x20, #13
	lsr	x10, x20, #21
	lsr	x11, x20, #5
	stp	xzr, xzr, [sp, #16]
	and	x8, x8, #0xff000000000000
	and	x12, x10, #0xff0000
	orr	x8, x8, x20, lsl #59
	and	x11, x11, #0xff000000
	bfi	x8, x9, #40, #8
	lsr	x9, x20, #37
	bfi	x8, x10, #32, #8
	and	x9, x9, #0xff00
	orr	x10, x11, x12
	lsl	x11, x20, #3
	orr	x9, x10, x9
	orr	x8, x8, x9
	orr	x8, x8, x11, lsr #56
	rev	x8, x8
	eor	x8, x0, x8
	add	x0, sp, #16
	fmov	d0, x8
	mov	v0.d[1], x1
	ldr	x1, [x21, #32]
	rev64	v0.16b, v0.16b
	ext	v0.16b, v0.16b, v0.16b, #8
	bl	gcm.gcm.multiples.Multiples.block_product
	ldp	x9, x8, [sp, #16]
	rev	x8, x8
	fmov	d0, x8
	umov	w8, v0.b[7]
	umov	w10, v0.b[6]
	mov	b3, v0.b[3]
	mov	b4, v0.b[2]
	fmov	s1, w8
	umov	w8, v0.b[5]
	stur	b3, [x19, #12]
	stur	b4, [x19, #13]
	mov	v1.h[1], w10
	umov	w10, v0.b[4]
	mov	v1.h[2], w8
	rev	x8, x9
	fmov	d2, x8
	umov	w8, v0.b[0]
	mov	v1.h[3], w10
	rev64	v2.8b, v2.8b
	xtn	v1.8b, v1.8h
	str	d2, [x19]
	mov	b2, v0.b[1]
	str	s1, [x19, #8]
	stur	b2, [x19, #14]
	strb	w8, [x19, #15]
	ldp	x20, x19, [sp, #64]             // 16-byte Folded Reload
	ldp	x29, x30, [sp, #32]             // 16-byte Folded Reload
	ldr	x21, [sp, #48]                  // 8-byte Reload
	add	sp, sp, #80
	ret
.Lgcm_func_end5:
	.size	gcm.gcm.mode.BorrowedGcm.put_pre_counter, .Lgcm_func_end5-gcm.gcm.mode.BorrowedGcm.put_pre_counter
                                        // -- End function
	.section	.text.gcm.gcm.hash_room.MultiplesRoomHashRoom.hash_on,"ax",@progbits
	.p2align	2                               // -- Begin function gcm::hash_room::MultiplesRoomHashRoom::hash_on
	.type	gcm.gcm.hash_room.MultiplesRoomHashRoom.hash_on,@function
gcm.gcm.hash_room.MultiplesRoomHashRoom.hash_on: // @gcm.gcm.hash_room.MultiplesRoomHashRoom.hash_on
// %bb.0:                               // %start
	sub	sp, sp, #112
	fmov	d0, x2
	mov	x8, #-6148914691236517206       // =0xaaaaaaaaaaaaaaaa
	stp	x22, x21, [sp, #80]             // 16-byte Folded Spill
	movk	x8, #43691
	stp	x29, x30, [sp, #48]             // 16-byte Folded Spill
	add	x29, sp, #48
	umulh	x8, x5, x8
	stp	x20, x19, [sp, #96]             // 16-byte Folded Spill
	mov	x21, x5
	mov	v0.d[1], x3
	mov	x20, x4
	mov	x19, x0
	cmp	x5, #48
	stp	x24, x23, [sp, #64]             // 16-byte Folded Spill
	rev64	v0.16b, v0.16b
	lsr	x22, x8, #5
	ext	v1.16b, v0.16b, v0.16b, #8
	stur	q1, [x29, #-16]
	b.lo	.Lgcm_BB6_4
// %bb.1:                               // %join.5.i.preheader
	add	x23, x20, #32
	mov	x24, x22
.Lgcm_BB6_2:                                // %join.5.i
                                        // =>This Inner Loop Header: Depth=1
	ldp	q2, q1, [x23, #-32]
	sub	x0, x29, #16
	ldur	q0, [x29, #-16]
	mov	x1, x19
	eor	v0.16b, v0.16b, v2.16b
	ldr	q2, [x23], #48
	bl	gcm.gcm.multiples.Multiples.three_products
	subs	x24, x24, #1
	b.ne	.Lgcm_BB6_2
// %bb.3:                               // %"gcm::hash::hash_threes::<#4e0b07d5b1f54653>.exit.loopexit"
	ldur	q1, [x29, #-16]
.Lgcm_BB6_4:                                // %"gcm::hash::hash_threes::<#4e0b07d5b1f54653>.exit"
	add	x8, x22, x22, lsl #1
	stp	xzr, xzr, [sp, #16]
	lsl	x8, x8, #4
	subs	x2, x21, x8
	b.eq	.Lgcm_BB6_17
// %bb.5:                               // %join.3.i
	cmp	x2, #16
	add	x22, x20, x8
	b.hi	.Lgcm_BB6_9
// %bb.6:                               // %then.4.i
	b.eq	.Lgcm_BB6_8
// %bb.7:                               // %join.3.i133
	sub	x0, x29, #16
	mov	x1, x22
	stp	xzr, xzr, [x29, #-16]
	str	q1, [sp]                        // 16-byte Spill
	adrp	x16, :got:memcpy
	ldr	x16, [x16, :got_lo12:memcpy]
	blr	x16
	ldr	q1, [sp]                        // 16-byte Reload
	sub	x22, x29, #16
.Lgcm_BB6_8:                                // %"gcm::hash::zero_filled.exit184"
	ldr	q0, [x22]
	add	x0, sp, #16
	mov	x1, x19
	eor	v0.16b, v0.16b, v1.16b
	bl	gcm.gcm.multiples.Multiples.block_product
	b	.Lgcm_BB6_16
.Lgcm_BB6_9:                                // %join.6.i
	ldr	q0, [x22]
	cmp	x2, #32
	eor	v0.16b, v0.16b, v1.16b
	b.hi	.Lgcm_BB6_13
// %bb.10:                              // %then.7.i
	add	x8, x8, #16
	sub	x2, x21, x8
	add	x1, x20, x8
	cmp	x2, #16
	b.eq	.Lgcm_BB6_12
// %bb.11:                              // %join.3.i79
	sub	x0, x29, #16
	stp	xzr, xzr, [x29, #-16]
	str	q0, [sp]                        // 16-byte Spill
	adrp	x16, :got:memcpy
	ldr	x16, [x16, :got_lo12:memcpy]
	blr	x16
	ldr	q0, [sp]                        // 16-byte Reload
	sub	x1, x29, #16
.Lgcm_BB6_12:                               // %"gcm::hash::zero_filled.exit130"
	ldr	q1, [x1]
	add	x0, sp, #16
	mov	x1, x19
	bl	gcm.gcm.multiples.Multiples.two_products
	b	.Lgcm_BB6_16
.Lgcm_BB6_13:                               // %join.9.i
	add	x8, x8, #32
	sub	x2, x21, x8
	add	x1, x20, x8
	cmp	x2, #16
	b.eq	.Lgcm_BB6_15
// %bb.14:                              // %join.3.i71
	sub	x0, x29, #16
	stp	xzr, xzr, [x29, #-16]
	str	q0, [sp]                        // 16-byte Spill
	adrp	x16, :got:memcpy
	ldr	x16, [x16, :got_lo12:memcpy]
	blr	x16
	ldr	q0, [sp]                        // 16-byte Reload
	sub	x1, x29, #16
.Lgcm_BB6_15:                               // %"gcm::hash::zero_filled.exit"
	ldr	q2, [x1]
	ldr	q1, [x22, #16]
	add	x0, sp, #16
	mov	x1, x19
	bl	gcm.gcm.multiples.Multiples.three_products
.Lgcm_BB6_16:                               // %"gcm::hash::hash_last_group::<#4e0b07d5b1f54653>.exit"
	ldr	q1, [sp, #16]
.Lgcm_BB6_17:                               // %"gcm::hash::hash_last_group::<#4e0b07d5b1f54653>.exit"
	mov	x8, v1.d[1]
	fmov	x9, d1
	ldp	x20, x19, [sp, #96]             // 16-byte Folded Reload
	ldp	x22, x21, [sp, #80]             // 16-byte Folded Reload
	ldp	x24, x23, [sp, #64]             // 16-byte Folded Reload
	rev	x1, x9
	ldp	x29, x30, [sp, #48]             // 16-byte Folded Reload
	rev	x0, x8
	add	sp, sp, #112
	ret
.Lgcm_func_end6:
	.size	gcm.gcm.hash_room.MultiplesRoomHashRoom.hash_on, .Lgcm_func_end6-gcm.gcm.hash_room.MultiplesRoomHashRoom.hash_on
                                        // -- End function
	.section	.rodata.cst16,"aM",@progbits,16
	.p2align	4, 0x0                          // -- Begin function gcm::multiples::Multiples::three_products
.Lgcm_CPI7_0:
	.byte	255                             // 0xff
	.byte	0                               // 0x0
	.byte	1                               // 0x1
	.byte	2                               // 0x2
	.byte	3                               // 0x3
	.byte	4                               // 0x4
	.byte	5                               // 0x5
	.byte	6                               // 0x6
	.byte	7                               // 0x7
	.byte	8                               // 0x8
	.byte	9                               // 0x9
	.byte	10                              // 0xa
	.byte	11                              // 0xb
	.byte	12                              // 0xc
	.byte	13                              // 0xd
	.byte	14                              // 0xe
	.section	.text.gcm.gcm.multiples.Multiples.three_products,"ax",@progbits
	.p2align	2
	.type	gcm.gcm.multiples.Multiples.three_products,@function
gcm.gcm.multiples.Multiples.three_products: // @gcm.gcm.multiples.Multiples.three_products
// %bb.0:                               // %start
	movi	v17.16b, #15
	movi	v3.2d, #0000000000000000
	mov	w8, #8                          // =0x8
	movi	v5.2d, #0000000000000000
	movi	v6.2d, #0000000000000000
	movi	v4.2d, #0000000000000000
	ushr	v7.16b, v0.16b, #4
	and	v0.16b, v0.16b, v17.16b
	and	v16.16b, v1.16b, v17.16b
	ushr	v1.16b, v1.16b, #4
	and	v17.16b, v2.16b, v17.16b
	ushr	v2.16b, v2.16b, #4
.Lgcm_BB7_1:                                // %join.5.i
                                        // =>This Inner Loop Header: Depth=1
	ldp	q22, q23, [x1, #992]
	adrp	x9, .Lgcm_CPI7_0
	ldp	q24, q25, [x1, #736]
	ext	v5.16b, v4.16b, v5.16b, #15
	ldr	q18, [x1, #1504]
	ldr	q19, [x1, #1520]
	ext	v6.16b, v3.16b, v6.16b, #15
	ldr	q20, [x1, #1248]
	ldr	q21, [x1, #1264]
	tbl	v22.16b, { v22.16b }, v16.16b
	ldp	q26, q27, [x1, #480]
	tbl	v18.16b, { v18.16b }, v0.16b
	ldp	q28, q29, [x1, #224]
	tbl	v19.16b, { v19.16b }, v0.16b
	tbl	v20.16b, { v20.16b }, v7.16b
	tbl	v21.16b, { v21.16b }, v7.16b
	tbl	v24.16b, { v24.16b }, v1.16b
	tbl	v23.16b, { v23.16b }, v16.16b
	tbl	v25.16b, { v25.16b }, v1.16b
	tbl	v26.16b, { v26.16b }, v17.16b
	tbl	v27.16b, { v27.16b }, v17.16b
	tbl	v28.16b, { v28.16b }, v2.16b
	tbl	v29.16b, { v29.16b }, v2.16b
	ldr	q30, [x9, :lo12:.Lgcm_CPI7_0]
	sub	x8, x8, #1
	sub	x1, x1, #32
	eor	v18.16b, v20.16b, v18.16b
	eor	v19.16b, v21.16b, v19.16b
	eor	v20.16b, v22.16b, v24.16b
	tbl	v21.16b, { v4.16b }, v30.16b
	tbl	v22.16b, { v3.16b }, v30.16b
	eor	v23.16b, v23.16b, v25.16b
	eor	v24.16b, v26.16b, v28.16b
	eor	v25.16b, v27.16b, v29.16b
	eor	v18.16b, v18.16b, v20.16b
	eor	v19.16b, v19.16b, v23.16b
	eor	v20.16b, v25.16b, v22.16b
	eor	v21.16b, v24.16b, v21.16b
	eor	v3.16b, v19.16b, v20.16b
	eor	v4.16b, v18.16b, v21.16b
	cbnz	x8, .Lgcm_BB7_1
// %bb.2:                               // %"gcm::multiples::shifted_sum::<#21b77b0062812be4>.exit"
	ext	v0.16b, v3.16b, v6.16b, #8
	movi	v1.2d, #0000000000000000
	eor	v0.16b, v0.16b, v5.16b
	mov	v1.d[1], v3.d[0]
	mov	x8, v0.d[1]
	fmov	x9, d0
	eor	v1.16b, v1.16b, v4.16b
	rev	x9, x9
	rev	x8, x8
	lsr	x10, x9, #2
	extr	x11, x9, x8, #1
	extr	x12, x9, x8, #2
	extr	x13, x9, x8, #7
	eor	x10, x10, x9, lsr #1
	eor	x11, x12, x11
	eor	x8, x13, x8
	eor	x8, x11, x8
	eor	x10, x10, x9, lsr #7
	fmov	d0, x8
	eor	x9, x10, x9
	mov	v0.d[1], x9
	rev64	v0.16b, v0.16b
	ext	v0.16b, v0.16b, v0.16b, #8
	eor	v0.16b, v1.16b, v0.16b
	str	q0, [x0]
	ret
.Lgcm_func_end7:
	.size	gcm.gcm.multiples.Multiples.three_products, .Lgcm_func_end7-gcm.gcm.multiples.Multiples.three_products
                                        // -- End function
	.section	.rodata.cst16,"aM",@progbits,16
	.p2align	4, 0x0                          // -- Begin function gcm::multiples::Multiples::block_product
.Lgcm_CPI8_0:
	.byte	255                             // 0xff
	.byte	0                               // 0x0
	.byte	1                               // 0x1
	.byte	2                               // 0x2
	.byte	3                               // 0x3
	.byte	4                               // 0x4
	.byte	5                               // 0x5
	.byte	6                               // 0x6
	.byte	7                               // 0x7
	.byte	8                               // 0x8
	.byte	9                               // 0x9
	.byte	10                              // 0xa
	.byte	11                              // 0xb
	.byte	12                              // 0xc
	.byte	13                              // 0xd
	.byte	14                              // 0xe
	.section	.text.gcm.gcm.multiples.Multiples.block_product,"ax",@progbits
	.p2align	2
	.type	gcm.gcm.multiples.Multiples.block_product,@function
gcm.gcm.multiples.Multiples.block_product: // @gcm.gcm.multiples.Multiples.block_product
// %bb.0:                               // %start
	movi	v5.16b, #15
	movi	v1.2d, #0000000000000000
	add	x8, x1, #480
	movi	v3.2d, #0000000000000000
	movi	v4.2d, #0000000000000000
	mov	w9, #8                          // =0x8
	movi	v2.2d, #0000000000000000
	and	v5.16b, v0.16b, v5.16b
	ushr	v0.16b, v0.16b, #4
.Lgcm_BB8_1:                                // %join.5.i
                                        // =>This Inner Loop Header: Depth=1
	ldp	q6, q7, [x8]
	adrp	x10, .Lgcm_CPI8_0
	ldp	q16, q17, [x8, #-256]
	ext	v3.16b, v2.16b, v3.16b, #15
	ldr	q18, [x10, :lo12:.Lgcm_CPI8_0]
	ext	v4.16b, v1.16b, v4.16b, #15
	sub	x9, x9, #1
	tbl	v6.16b, { v6.16b }, v5.16b
	tbl	v7.16b, { v7.16b }, v5.16b
	sub	x8, x8, #32
	tbl	v16.16b, { v16.16b }, v0.16b
	tbl	v17.16b, { v17.16b }, v0.16b
	tbl	v19.16b, { v2.16b }, v18.16b
	tbl	v18.16b, { v1.16b }, v18.16b
	eor	v6.16b, v16.16b, v6.16b
	eor	v7.16b, v17.16b, v7.16b
	eor	v1.16b, v7.16b, v18.16b
	eor	v2.16b, v6.16b, v19.16b
	cbnz	x9, .Lgcm_BB8_1
// %bb.2:                               // %"gcm::multiples::shifted_sum::<#29e205ae42dcf28f>.exit"
	ext	v0.16b, v1.16b, v4.16b, #8
	eor	v0.16b, v0.16b, v3.16b
	movi	v3.2d, #0000000000000000
	mov	x8, v0.d[1]
	fmov	x9, d0
	mov	v3.d[1], v1.d[0]
	rev	x9, x9
	rev	x8, x8
	lsr	x10, x9, #2
	extr	x11, x9, x8, #1
	extr	x12, x9, x8, #2
	extr	x13, x9, x8, #7
	eor	x10, x10, x9, lsr #1
	eor	v1.16b, v3.16b, v2.16b
	eor	x11, x12, x11
	eor	x8, x13, x8
	eor	x8, x11, x8
	eor	x10, x10, x9, lsr #7
	fmov	d0, x8
	eor	x9, x10, x9
	mov	v0.d[1], x9
	rev64	v0.16b, v0.16b
	ext	v0.16b, v0.16b, v0.16b, #8
	eor	v0.16b, v1.16b, v0.16b
	str	q0, [x0]
	ret
.Lgcm_func_end8:
	.size	gcm.gcm.multiples.Multiples.block_product, .Lgcm_func_end8-gcm.gcm.multiples.Multiples.block_product
                                        // -- End function
	.section	.rodata.cst16,"aM",@progbits,16
	.p2align	4, 0x0                          // -- Begin function gcm::multiples::Multiples::two_products
.Lgcm_CPI9_0:
	.byte	255                             // 0xff
	.byte	0                               // 0x0
	.byte	1                               // 0x1
	.byte	2                               // 0x2
	.byte	3                               // 0x3
	.byte	4                               // 0x4
	.byte	5                               // 0x5
	.byte	6                               // 0x6
	.byte	7                               // 0x7
	.byte	8                               // 0x8
	.byte	9                               // 0x9
	.byte	10                              // 0xa
	.byte	11                              // 0xb
	.byte	12                              // 0xc
	.byte	13                              // 0xd
	.byte	14                              // 0xe
	.section	.text.gcm.gcm.multiples.Multiples.two_products,"ax",@progbits
	.p2align	2
	.type	gcm.gcm.multiples.Multiples.two_products,@function
gcm.gcm.multiples.Multiples.two_products: // @gcm.gcm.multiples.Multiples.two_products
// %bb.0:                               // %start
	movi	v7.16b, #15
	movi	v2.2d, #0000000000000000
	mov	w8, #8                          // =0x8
	movi	v4.2d, #0000000000000000
	movi	v5.2d, #0000000000000000
	movi	v3.2d, #0000000000000000
	and	v6.16b, v0.16b, v7.16b
	ushr	v0.16b, v0.16b, #4
	and	v7.16b, v1.16b, v7.16b
	ushr	v1.16b, v1.16b, #4
.Lgcm_BB9_1:                                // %join.5.i
                                        // =>This Inner Loop Header: Depth=1
	ldp	q16, q17, [x1, #992]
	adrp	x9, .Lgcm_CPI9_0
	ldp	q18, q19, [x1, #736]
	ext	v4.16b, v3.16b, v4.16b, #15
	ldp	q20, q21, [x1, #480]
	ext	v5.16b, v2.16b, v5.16b, #15
	ldp	q22, q23, [x1, #224]
	tbl	v16.16b, { v16.16b }, v6.16b
	tbl	v17.16b, { v17.16b }, v6.16b
	tbl	v18.16b, { v18.16b }, v0.16b
	tbl	v19.16b, { v19.16b }, v0.16b
	tbl	v20.16b, { v20.16b }, v7.16b
	tbl	v21.16b, { v21.16b }, v7.16b
	sub	x8, x8, #1
	tbl	v22.16b, { v22.16b }, v1.16b
	tbl	v23.16b, { v23.16b }, v1.16b
	sub	x1, x1, #32
	eor	v16.16b, v18.16b, v16.16b
	eor	v17.16b, v19.16b, v17.16b
	eor	v18.16b, v20.16b, v22.16b
	eor	v19.16b, v21.16b, v23.16b
	ldr	q20, [x9, :lo12:.Lgcm_CPI9_0]
	tbl	v21.16b, { v3.16b }, v20.16b
	tbl	v20.16b, { v2.16b }, v20.16b
	eor	v16.16b, v16.16b, v18.16b
	eor	v17.16b, v17.16b, v19.16b
	eor	v2.16b, v17.16b, v20.16b
	eor	v3.16b, v16.16b, v21.16b
	cbnz	x8, .Lgcm_BB9_1
// %bb.2:                               // %"gcm::multiples::shifted_sum::<#8860c9ef4de2646f>.exit"
	ext	v0.16b, v2.16b, v5.16b, #8
	movi	v1.2d, #0000000000000000
	eor	v0.16b, v0.16b, v4.16b
	mov	v1.d[1], v2.d[0]
	mov	x8, v0.d[1]
	fmov	x9, d0
	eor	v1.16b, v1.16b, v3.16b
	rev	x9, x9
	rev	x8, x8
	lsr	x10, x9, #2
	extr	x11, x9, x8, #1
	extr	x12, x9, x8, #2
	extr	x13, x9, x8, #7
	eor	x10, x10, x9, lsr #1
	eor	x11, x12, x11
	eor	x8, x13, x8
	eor	x8, x11, x8
	eor	x10, x10, x9, lsr #7
	fmov	d0, x8
	eor	x9, x10, x9
	mov	v0.d[1], x9
	rev64	v0.16b, v0.16b
	ext	v0.16b, v0.16b, v0.16b, #8
	eor	v0.16b, v1.16b, v0.16b
	str	q0, [x0]
	ret
.Lgcm_func_end9:
	.size	gcm.gcm.multiples.Multiples.two_products, .Lgcm_func_end9-gcm.gcm.multiples.Multiples.two_products
                                        // -- End function
	.section	.text.gcm.aes_cipher.zeroize.stack.wipe_stack.512,"ax",@progbits
	.p2align	2                               // -- Begin function aes_cipher::zeroize::stack::wipe_stack::<=512>
	.type	gcm.aes_cipher.zeroize.stack.wipe_stack.512,@function
gcm.aes_cipher.zeroize.stack.wipe_stack.512: // @gcm.aes_cipher.zeroize.stack.wipe_stack.512
// %bb.0:                               // %start
	str	x30, [sp, #-16]!                // 8-byte Folded Spill
	sub	sp, sp, #528
	movi	v0.2d, #0000000000000000
	add	x8, sp, #16
	str	xzr, [sp, #8]
	add	x9, sp, #8
	stp	q0, q0, [x8, #128]
	stp	q0, q0, [x8, #160]
	stp	q0, q0, [x8, #192]
	stp	q0, q0, [x8, #224]
	stp	q0, q0, [x8, #256]
	stp	q0, q0, [x8, #288]
	stp	q0, q0, [x8, #320]
	stp	q0, q0, [x8, #352]
	stp	q0, q0, [x8, #384]
	stp	q0, q0, [x8, #416]
	stp	q0, q0, [x8, #448]
	stp	q0, q0, [x8, #480]
	stp	q0, q0, [sp, #16]
	stp	q0, q0, [sp, #48]
	stp	q0, q0, [sp, #80]
	stp	q0, q0, [sp, #112]
	//APP
	//NO_APP
	ldar	x9, [x9]
	//APP
	//NO_APP
	cmp	x9, #512
	b.hs	.Lgcm_BB10_4
// %bb.1:                               // %then.1
	ldrb	w8, [x8, x9]
	//APP
	//NO_APP
.Lgcm_BB10_2:                               // %atomicrmw.start
                                        // =>This Inner Loop Header: Depth=1
	add	x9, sp, #8
	ldaxr	xzr, [x9]
	stlxr	w10, x8, [x9]
	cbnz	w10, .Lgcm_BB10_2
// %bb.3:                               // %atomicrmw.end
	//APP
	//NO_APP
.Lgcm_BB10_4:                               // %common.ret
	add	sp, sp, #528
	ldr	x30, [sp], #16                  // 8-byte Folded Reload
	ret
.Lgcm_func_end10:
	.size	gcm.aes_cipher.zeroize.stack.wipe_stack.512, .Lgcm_func_end10-gcm.aes_cipher.zeroize.stack.wipe_stack.512
                                        // -- End function
	.section	.text.gcm.gcm.mode.BorrowedGcm.put_tag_so_far,"ax",@progbits
	.p2align	2                               // -- Begin function gcm::mode::BorrowedGcm::put_tag_so_far::<#c13ce517942629d6>
	.type	gcm.gcm.mode.BorrowedGcm.put_tag_so_far,@function
gcm.gcm.mode.BorrowedGcm.put_tag_so_far: // @gcm.gcm.mode.BorrowedGcm.put_tag_so_far
// %bb.0:                               // %start
	sub	sp, sp, #64
	str	x21, [sp, #32]                  // 8-byte Spill
	mov	x21, x1
	add	x1, x1, #32
	stp	x29, x30, [sp, #16]             // 16-byte Folded Spill
	add	x29, sp, #16
	stp	x20, x19, [sp, #48]             // 16-byte Folded Spill
	mov	x19, x2
	mov	x20, x0
	bl	gcm.gcm.tags.put_mask
	ldr	x0, [x20, #32]
	mov	x1, x21
	bl	gcm.gcm.mode.BorrowedGcm.hash_so_far
	ldp	x8, x10, [x21]
	mov	x9, #2305843009213693951        // =0x1fffffffffffffff
	mov	x11, #68719476704               // =0xfffffffe0
	stp	xzr, xzr, [sp]
	cmp	x8, x9
	csel	x8, x8, x9, lo
	cmp	x10, x11
	csel	x9, x10, x11, lo
	lsl	x10, x8, #43
	lsr	x12, x8, #13
	lsl	x11, x9, #43
	lsr	x13, x9, #13
	lsr	x14, x8, #21
	and	x10, x10, #0xff000000000000
	lsr	x15, x8, #5
	and	x11, x11, #0xff000000000000
	orr	x10, x10, x8, lsl #59
	orr	x11, x11, x9, lsl #59
	and	x15, x15, #0xff000000
	bfi	x10, x12, #40, #8
	lsr	x12, x8, #37
	bfi	x11, x13, #40, #8
	lsr	x13, x9, #21
	lsr	x9, x9, #5
	bfi	x10, x14, #32, #8
	and	x14, x14, #0xff0000
	and	x12, x12, #0xff00
	bfi	x11, x13, #32, #8
	orr	x14, x15, x14
	and	x9, x9, #0x7f000000
	orr	x12, x14, x12
	orr	x9, x11, x9
	orr	x10, x10, x12
	rev	x9, x9
	orr	x8, x10, x8, lsr #53
	eor	x9, x9, x0
	mov	x0, sp
	fmov	d0, x9
	rev	x8, x8
	eor	x8, x8, x1
	ldr	x1, [x20, #32]
	mov	v0.d[1], x8
	rev64	v0.16b, v0.16b
	ext	v0.16b, v0.16b, v0.16b, #8
	bl	gcm.gcm.multiples.Multiples.block_product
	ldp	x9, x8, [sp]
	ldr	q1, [x19]
	ldp	x29, x30, [sp, #16]             // 16-byte Folded Reload
	ldr	x21, [sp, #32]                  // 8-byte Reload
	rev	x8, x8
	rev	x9, x9
	fmov	d0, x8
	mov	v0.d[1], x9
	rev64	v0.16b, v0.16b
	ext	v0.16b, v0.16b, v0.16b, #8
	eor	v0.16b, v1.16b, v0.16b
	str	q0, [x19]
	ldp	x20, x19, [sp, #48]             // 16-byte Folded Reload
	add	sp, sp, #64
	ret
.Lgcm_func_end11:
	.size	gcm.gcm.mode.BorrowedGcm.put_tag_so_far, .Lgcm_func_end11-gcm.gcm.mode.BorrowedGcm.put_tag_so_far
                                        // -- End function
	.section	.rodata.cst16,"aM",@progbits,16
	.p2align	4, 0x0                          // -- Begin function gcm::tags::put_mask::<#ed3b81e0963a9ab3>
.Lgcm_CPI12_0:
	.byte	0                               // 0x0
	.byte	1                               // 0x1
	.byte	28                              // 0x1c
	.byte	29                              // 0x1d
	.byte	45                              // 0x2d
	.byte	44                              // 0x2c
	.byte	49                              // 0x31
	.byte	48                              // 0x30
	.byte	39                              // 0x27
	.byte	38                              // 0x26
	.byte	59                              // 0x3b
	.byte	58                              // 0x3a
	.byte	10                              // 0xa
	.byte	11                              // 0xb
	.byte	22                              // 0x16
	.byte	23                              // 0x17
.Lgcm_CPI12_1:
	.byte	0                               // 0x0
	.byte	134                             // 0x86
	.byte	253                             // 0xfd
	.byte	123                             // 0x7b
	.byte	142                             // 0x8e
	.byte	8                               // 0x8
	.byte	115                             // 0x73
	.byte	245                             // 0xf5
	.byte	119                             // 0x77
	.byte	241                             // 0xf1
	.byte	138                             // 0x8a
	.byte	12                              // 0xc
	.byte	249                             // 0xf9
	.byte	127                             // 0x7f
	.byte	4                               // 0x4
	.byte	130                             // 0x82
.Lgcm_CPI12_2:
	.byte	128                             // 0x80
	.byte	2                               // 0x2
	.byte	1                               // 0x1
	.byte	15                              // 0xf
	.byte	9                               // 0x9
	.byte	5                               // 0x5
	.byte	14                              // 0xe
	.byte	12                              // 0xc
	.byte	13                              // 0xd
	.byte	4                               // 0x4
	.byte	11                              // 0xb
	.byte	10                              // 0xa
	.byte	7                               // 0x7
	.byte	8                               // 0x8
	.byte	6                               // 0x6
	.byte	3                               // 0x3
.Lgcm_CPI12_3:
	.byte	128                             // 0x80
	.byte	1                               // 0x1
	.byte	9                               // 0x9
	.byte	14                              // 0xe
	.byte	13                              // 0xd
	.byte	11                              // 0xb
	.byte	7                               // 0x7
	.byte	6                               // 0x6
	.byte	15                              // 0xf
	.byte	2                               // 0x2
	.byte	12                              // 0xc
	.byte	5                               // 0x5
	.byte	10                              // 0xa
	.byte	4                               // 0x4
	.byte	3                               // 0x3
	.byte	8                               // 0x8
.Lgcm_CPI12_4:
	.byte	0                               // 0x0
	.byte	195                             // 0xc3
	.byte	79                              // 0x4f
	.byte	12                              // 0xc
	.byte	252                             // 0xfc
	.byte	124                             // 0x7c
	.byte	67                              // 0x43
	.byte	128                             // 0x80
	.byte	207                             // 0xcf
	.byte	51                              // 0x33
	.byte	63                              // 0x3f
	.byte	112                             // 0x70
	.byte	191                             // 0xbf
	.byte	179                             // 0xb3
	.byte	240                             // 0xf0
	.byte	140                             // 0x8c
.Lgcm_CPI12_5:
	.byte	0                               // 0x0
	.byte	230                             // 0xe6
	.byte	114                             // 0x72
	.byte	183                             // 0xb7
	.byte	229                             // 0xe5
	.byte	198                             // 0xc6
	.byte	197                             // 0xc5
	.byte	35                              // 0x23
	.byte	81                              // 0x51
	.byte	180                             // 0xb4
	.byte	3                               // 0x3
	.byte	113                             // 0x71
	.byte	32                              // 0x20
	.byte	151                             // 0x97
	.byte	82                              // 0x52
	.byte	148                             // 0x94
.Lgcm_CPI12_6:
	.byte	0                               // 0x0
	.byte	124                             // 0x7c
	.byte	32                              // 0x20
	.byte	207                             // 0xcf
	.byte	146                             // 0x92
	.byte	1                               // 0x1
	.byte	239                             // 0xef
	.byte	147                             // 0x93
	.byte	179                             // 0xb3
	.byte	33                              // 0x21
	.byte	238                             // 0xee
	.byte	206                             // 0xce
	.byte	125                             // 0x7d
	.byte	178                             // 0xb2
	.byte	93                              // 0x5d
	.byte	92                              // 0x5c
.Lgcm_CPI12_7:
	.byte	0                               // 0x0
	.byte	209                             // 0xd1
	.byte	229                             // 0xe5
	.byte	247                             // 0xf7
	.byte	230                             // 0xe6
	.byte	37                              // 0x25
	.byte	18                              // 0x12
	.byte	195                             // 0xc3
	.byte	38                              // 0x26
	.byte	192                             // 0xc0
	.byte	55                              // 0x37
	.byte	210                             // 0xd2
	.byte	244                             // 0xf4
	.byte	3                               // 0x3
	.byte	17                              // 0x11
	.byte	52                              // 0x34
.Lgcm_CPI12_8:
	.byte	0                               // 0x0
	.byte	203                             // 0xcb
	.byte	215                             // 0xd7
	.byte	176                             // 0xb0
	.byte	33                              // 0x21
	.byte	141                             // 0x8d
	.byte	103                             // 0x67
	.byte	172                             // 0xac
	.byte	123                             // 0x7b
	.byte	90                              // 0x5a
	.byte	234                             // 0xea
	.byte	61                              // 0x3d
	.byte	70                              // 0x46
	.byte	246                             // 0xf6
	.byte	145                             // 0x91
	.byte	28                              // 0x1c
.Lgcm_CPI12_9:
	.byte	0                               // 0x0
	.byte	159                             // 0x9f
	.byte	97                              // 0x61
	.byte	22                              // 0x16
	.byte	194                             // 0xc2
	.byte	42                              // 0x2a
	.byte	119                             // 0x77
	.byte	232                             // 0xe8
	.byte	137                             // 0x89
	.byte	75                              // 0x4b
	.byte	93                              // 0x5d
	.byte	60                              // 0x3c
	.byte	181                             // 0xb5
	.byte	163                             // 0xa3
	.byte	212                             // 0xd4
	.byte	254                             // 0xfe
	.section	.text.gcm.gcm.tags.put_mask,"ax",@progbits
	.p2align	2
	.type	gcm.gcm.tags.put_mask,@function
gcm.gcm.tags.put_mask: // @gcm.gcm.tags.put_mask
// %bb.0:                               // %start
	ldr	q0, [x1]
	adrp	x9, .Lgcm_CPI12_0
	adrp	x10, .Lgcm_CPI12_1
	ldr	q3, [x9, :lo12:.Lgcm_CPI12_0]
	ldr	q4, [x10, :lo12:.Lgcm_CPI12_1]
	adrp	x11, .Lgcm_CPI12_2
	str	q0, [x2]
	movi	v0.16b, #15
	adrp	x10, .Lgcm_CPI12_3
	ldp	x8, x12, [x0, #16]
	ldr	q1, [x2]
	ldr	q2, [x8]
	sub	x9, x12, #1
	cmp	x9, #2
	eor	v1.16b, v2.16b, v1.16b
	and	v2.16b, v1.16b, v0.16b
	ushr	v1.16b, v1.16b, #4
	tbl	v2.16b, { v3.16b }, v2.16b
	tbl	v1.16b, { v4.16b }, v1.16b
	eor	v1.16b, v1.16b, v2.16b
	b.lo	.Lgcm_BB12_3
// %bb.1:                               // %join.5.i.preheader
	sub	x12, x12, #2
	mov	w13, #16                        // =0x10
.Lgcm_BB12_2:                               // %join.5.i
                                        // =>This Inner Loop Header: Depth=1
	movi	v2.16b, #15
	ushr	v3.16b, v1.16b, #4
	ldr	q4, [x11, :lo12:.Lgcm_CPI12_2]
	ldr	q5, [x10, :lo12:.Lgcm_CPI12_3]
	adrp	x14, .Lgcm_CPI12_4
	adrp	x15, .Lgcm_CPI12_5
	subs	x12, x12, #1
	tbl	v6.16b, { v5.16b }, v3.16b
	and	v1.16b, v1.16b, v2.16b
	eor	v2.16b, v3.16b, v1.16b
	tbl	v1.16b, { v4.16b }, v1.16b
	tbl	v4.16b, { v5.16b }, v2.16b
	eor	v6.16b, v6.16b, v1.16b
	eor	v1.16b, v4.16b, v1.16b
	tbl	v4.16b, { v5.16b }, v6.16b
	tbl	v1.16b, { v5.16b }, v1.16b
	eor	v2.16b, v4.16b, v2.16b
	ldr	q4, [x15, :lo12:.Lgcm_CPI12_5]
	adrp	x15, .Lgcm_CPI12_7
	ldr	q6, [x15, :lo12:.Lgcm_CPI12_7]
	adrp	x15, .Lgcm_static.5
	add	x15, x15, :lo12:.Lgcm_static.5
	eor	v1.16b, v1.16b, v3.16b
	ldr	q3, [x14, :lo12:.Lgcm_CPI12_4]
	adrp	x14, .Lgcm_CPI12_6
	ldr	q5, [x14, :lo12:.Lgcm_CPI12_6]
	and	x14, x13, #0x30
	tbl	v3.16b, { v3.16b }, v2.16b
	tbl	v4.16b, { v4.16b }, v1.16b
	tbl	v2.16b, { v5.16b }, v2.16b
	tbl	v1.16b, { v6.16b }, v1.16b
	eor	v3.16b, v4.16b, v3.16b
	ldr	q4, [x15, x14]
	adrp	x15, .Lgcm_static.6
	add	x15, x15, :lo12:.Lgcm_static.6
	eor	v1.16b, v1.16b, v2.16b
	ldr	q5, [x15, x14]
	tbl	v6.16b, { v3.16b }, v4.16b
	tbl	v2.16b, { v3.16b }, v5.16b
	ldr	q3, [x8, x13]
	add	x13, x13, #16
	eor	v1.16b, v1.16b, v6.16b
	eor	v2.16b, v3.16b, v2.16b
	tbl	v3.16b, { v1.16b }, v4.16b
	eor	v1.16b, v2.16b, v1.16b
	eor	v1.16b, v3.16b, v1.16b
	b.ne	.Lgcm_BB12_2
.Lgcm_BB12_3:                               // %"aes_permute::blocks::process_vector::<#06aaae76f5856d0a>.exit"
	ushr	v2.16b, v1.16b, #4
	and	v0.16b, v1.16b, v0.16b
	ldr	q3, [x11, :lo12:.Lgcm_CPI12_2]
	ldr	q4, [x10, :lo12:.Lgcm_CPI12_3]
	adrp	x10, .Lgcm_CPI12_8
	adrp	x11, .Lgcm_CPI12_9
	lsl	x9, x9, #4
	eor	v1.16b, v2.16b, v0.16b
	tbl	v0.16b, { v3.16b }, v0.16b
	tbl	v3.16b, { v4.16b }, v2.16b
	tbl	v5.16b, { v4.16b }, v1.16b
	eor	v3.16b, v3.16b, v0.16b
	eor	v0.16b, v5.16b, v0.16b
	tbl	v3.16b, { v4.16b }, v3.16b
	tbl	v0.16b, { v4.16b }, v0.16b
	eor	v1.16b, v3.16b, v1.16b
	ldr	q3, [x11, :lo12:.Lgcm_CPI12_9]
	adrp	x11, .Lgcm_static.3
	add	x11, x11, :lo12:.Lgcm_static.3
	eor	v0.16b, v0.16b, v2.16b
	ldr	q2, [x10, :lo12:.Lgcm_CPI12_8]
	and	x10, x9, #0x30
	tbl	v1.16b, { v2.16b }, v1.16b
	tbl	v0.16b, { v3.16b }, v0.16b
	eor	v0.16b, v0.16b, v1.16b
	ldr	q1, [x11, x10]
	tbl	v0.16b, { v0.16b }, v1.16b
	ldr	q1, [x8, x9]
	eor	v0.16b, v0.16b, v1.16b
	str	q0, [x2]
	ret
.Lgcm_func_end12:
	.size	gcm.gcm.tags.put_mask, .Lgcm_func_end12-gcm.gcm.tags.put_mask
                                        // -- End function
	.section	.text.gcm.gcm.mode.BorrowedGcm.hash_so_far,"ax",@progbits
	.p2align	2                               // -- Begin function gcm::mode::BorrowedGcm::hash_so_far::<#c13ce517942629d6>
	.type	gcm.gcm.mode.BorrowedGcm.hash_so_far,@function
gcm.gcm.mode.BorrowedGcm.hash_so_far: // @gcm.gcm.mode.BorrowedGcm.hash_so_far
// %bb.0:                               // %start
	ldr	x9, [x1, #24]
	mov	w8, #8                          // =0x8
	add	x4, x1, #64
	cmp	x9, #1
	ldp	x9, x10, [x1, #48]
	csel	x8, xzr, x8, eq
	ldr	x8, [x1, x8]
	rev	x2, x10
	rev	x3, x9
	and	x5, x8, #0xf
	b	gcm.gcm.hash_room.MultiplesRoomHashRoom.hash_on
.Lgcm_func_end13:
	.size	gcm.gcm.mode.BorrowedGcm.hash_so_far, .Lgcm_func_end13-gcm.gcm.mode.BorrowedGcm.hash_so_far
                                        // -- End function
	.section	.rodata.cst16,"aM",@progbits,16
	.p2align	4, 0x0                          // -- Begin function gcm::mode::put_subkey::<#a407e1eb9411991d>
.Lgcm_CPI14_0:
	.byte	0                               // 0x0
	.byte	1                               // 0x1
	.byte	28                              // 0x1c
	.byte	29                              // 0x1d
	.byte	45                              // 0x2d
	.byte	44                              // 0x2c
	.byte	49                              // 0x31
	.byte	48                              // 0x30
	.byte	39                              // 0x27
	.byte	38                              // 0x26
	.byte	59                              // 0x3b
	.byte	58                              // 0x3a
	.byte	10                              // 0xa
	.byte	11                              // 0xb
	.byte	22                              // 0x16
	.byte	23                              // 0x17
.Lgcm_CPI14_1:
	.byte	0                               // 0x0
	.byte	134                             // 0x86
	.byte	253                             // 0xfd
	.byte	123                             // 0x7b
	.byte	142                             // 0x8e
	.byte	8                               // 0x8
	.byte	115                             // 0x73
	.byte	245                             // 0xf5
	.byte	119                             // 0x77
	.byte	241                             // 0xf1
	.byte	138                             // 0x8a
	.byte	12                              // 0xc
	.byte	249                             // 0xf9
	.byte	127                             // 0x7f
	.byte	4                               // 0x4
	.byte	130                             // 0x82
.Lgcm_CPI14_2:
	.byte	128                             // 0x80
	.byte	2                               // 0x2
	.byte	1                               // 0x1
	.byte	15                              // 0xf
	.byte	9                               // 0x9
	.byte	5                               // 0x5
	.byte	14                              // 0xe
	.byte	12                              // 0xc
	.byte	13                              // 0xd
	.byte	4                               // 0x4
	.byte	11                              // 0xb
	.byte	10                              // 0xa
	.byte	7                               // 0x7
	.byte	8                               // 0x8
	.byte	6                               // 0x6
	.byte	3                               // 0x3
.Lgcm_CPI14_3:
	.byte	128                             // 0x80
	.byte	1                               // 0x1
	.byte	9                               // 0x9
	.byte	14                              // 0xe
	.byte	13                              // 0xd
	.byte	11                              // 0xb
	.byte	7                               // 0x7
	.byte	6                               // 0x6
	.byte	15                              // 0xf
	.byte	2                               // 0x2
	.byte	12                              // 0xc
	.byte	5                               // 0x5
	.byte	10                              // 0xa
	.byte	4                               // 0x4
	.byte	3                               // 0x3
	.byte	8                               // 0x8
.Lgcm_CPI14_4:
	.byte	0                               // 0x0
	.byte	195                             // 0xc3
	.byte	79                              // 0x4f
	.byte	12                              // 0xc
	.byte	252                             // 0xfc
	.byte	124                             // 0x7c
	.byte	67                              // 0x43
	.byte	128                             // 0x80
	.byte	207                             // 0xcf
	.byte	51                              // 0x33
	.byte	63                              // 0x3f
	.byte	112                             // 0x70
	.byte	191                             // 0xbf
	.byte	179                             // 0xb3
	.byte	240                             // 0xf0
	.byte	140                             // 0x8c
.Lgcm_CPI14_5:
	.byte	0                               // 0x0
	.byte	230                             // 0xe6
	.byte	114                             // 0x72
	.byte	183                             // 0xb7
	.byte	229                             // 0xe5
	.byte	198                             // 0xc6
	.byte	197                             // 0xc5
	.byte	35                              // 0x23
	.byte	81                              // 0x51
	.byte	180                             // 0xb4
	.byte	3                               // 0x3
	.byte	113                             // 0x71
	.byte	32                              // 0x20
	.byte	151                             // 0x97
	.byte	82                              // 0x52
	.byte	148                             // 0x94
.Lgcm_CPI14_6:
	.byte	0                               // 0x0
	.byte	124                             // 0x7c
	.byte	32                              // 0x20
	.byte	207                             // 0xcf
	.byte	146                             // 0x92
	.byte	1                               // 0x1
	.byte	239                             // 0xef
	.byte	147                             // 0x93
	.byte	179                             // 0xb3
	.byte	33                              // 0x21
	.byte	238                             // 0xee
	.byte	206                             // 0xce
	.byte	125                             // 0x7d
	.byte	178                             // 0xb2
	.byte	93                              // 0x5d
	.byte	92                              // 0x5c
.Lgcm_CPI14_7:
	.byte	0                               // 0x0
	.byte	209                             // 0xd1
	.byte	229                             // 0xe5
	.byte	247                             // 0xf7
	.byte	230                             // 0xe6
	.byte	37                              // 0x25
	.byte	18                              // 0x12
	.byte	195                             // 0xc3
	.byte	38                              // 0x26
	.byte	192                             // 0xc0
	.byte	55                              // 0x37
	.byte	210                             // 0xd2
	.byte	244                             // 0xf4
	.byte	3                               // 0x3
	.byte	17                              // 0x11
	.byte	52                              // 0x34
.Lgcm_CPI14_8:
	.byte	0                               // 0x0
	.byte	203                             // 0xcb
	.byte	215                             // 0xd7
	.byte	176                             // 0xb0
	.byte	33                              // 0x21
	.byte	141                             // 0x8d
	.byte	103                             // 0x67
	.byte	172                             // 0xac
	.byte	123                             // 0x7b
	.byte	90                              // 0x5a
	.byte	234                             // 0xea
	.byte	61                              // 0x3d
	.byte	70                              // 0x46
	.byte	246                             // 0xf6
	.byte	145                             // 0x91
	.byte	28                              // 0x1c
.Lgcm_CPI14_9:
	.byte	0                               // 0x0
	.byte	159                             // 0x9f
	.byte	97                              // 0x61
	.byte	22                              // 0x16
	.byte	194                             // 0xc2
	.byte	42                              // 0x2a
	.byte	119                             // 0x77
	.byte	232                             // 0xe8
	.byte	137                             // 0x89
	.byte	75                              // 0x4b
	.byte	93                              // 0x5d
	.byte	60                              // 0x3c
	.byte	181                             // 0xb5
	.byte	163                             // 0xa3
	.byte	212                             // 0xd4
	.byte	254                             // 0xfe
	.section	.text.gcm.gcm.mode.put_subkey,"ax",@progbits
	.p2align	2
	.type	gcm.gcm.mode.put_subkey,@function
gcm.gcm.mode.put_subkey: // @gcm.gcm.mode.put_subkey
// %bb.0:                               // %start
	sub	sp, sp, #80
	movi	v0.16b, #15
	ldr	q1, [x0]
	adrp	x8, .Lgcm_CPI14_0
	adrp	x9, .Lgcm_CPI14_1
	ldr	q3, [x8, :lo12:.Lgcm_CPI14_0]
	sub	x8, x1, #1
	ldr	q4, [x9, :lo12:.Lgcm_CPI14_1]
	stp	x20, x19, [sp, #64]             // 16-byte Folded Spill
	mov	x19, x2
	cmp	x8, #2
	adrp	x10, .Lgcm_CPI14_2
	adrp	x9, .Lgcm_CPI14_3
	and	v2.16b, v1.16b, v0.16b
	ushr	v1.16b, v1.16b, #4
	stp	x29, x30, [sp, #16]             // 16-byte Folded Spill
	str	x23, [sp, #32]                  // 8-byte Spill
	add	x29, sp, #16
	stp	x22, x21, [sp, #48]             // 16-byte Folded Spill
	tbl	v2.16b, { v3.16b }, v2.16b
	tbl	v1.16b, { v4.16b }, v1.16b
	stp	xzr, xzr, [sp]
	eor	v1.16b, v1.16b, v2.16b
	b.lo	.Lgcm_BB14_3
// %bb.1:                               // %join.5.i.preheader
	sub	x11, x1, #2
	mov	w12, #16                        // =0x10
.Lgcm_BB14_2:                               // %join.5.i
                                        // =>This Inner Loop Header: Depth=1
	movi	v2.16b, #15
	ushr	v3.16b, v1.16b, #4
	ldr	q4, [x10, :lo12:.Lgcm_CPI14_2]
	ldr	q5, [x9, :lo12:.Lgcm_CPI14_3]
	adrp	x13, .Lgcm_CPI14_4
	adrp	x14, .Lgcm_CPI14_5
	subs	x11, x11, #1
	tbl	v6.16b, { v5.16b }, v3.16b
	and	v1.16b, v1.16b, v2.16b
	eor	v2.16b, v3.16b, v1.16b
	tbl	v1.16b, { v4.16b }, v1.16b
	tbl	v4.16b, { v5.16b }, v2.16b
	eor	v6.16b, v6.16b, v1.16b
	eor	v1.16b, v4.16b, v1.16b
	tbl	v4.16b, { v5.16b }, v6.16b
	tbl	v1.16b, { v5.16b }, v1.16b
	eor	v2.16b, v4.16b, v2.16b
	ldr	q4, [x14, :lo12:.Lgcm_CPI14_5]
	adrp	x14, .Lgcm_CPI14_7
	ldr	q6, [x14, :lo12:.Lgcm_CPI14_7]
	adrp	x14, .Lgcm_static.5
	add	x14, x14, :lo12:.Lgcm_static.5
	eor	v1.16b, v1.16b, v3.16b
	ldr	q3, [x13, :lo12:.Lgcm_CPI14_4]
	adrp	x13, .Lgcm_CPI14_6
	ldr	q5, [x13, :lo12:.Lgcm_CPI14_6]
	and	x13, x12, #0x30
	tbl	v3.16b, { v3.16b }, v2.16b
	tbl	v4.16b, { v4.16b }, v1.16b
	tbl	v2.16b, { v5.16b }, v2.16b
	tbl	v1.16b, { v6.16b }, v1.16b
	eor	v3.16b, v4.16b, v3.16b
	ldr	q4, [x14, x13]
	adrp	x14, .Lgcm_static.6
	add	x14, x14, :lo12:.Lgcm_static.6
	eor	v1.16b, v1.16b, v2.16b
	ldr	q5, [x14, x13]
	tbl	v6.16b, { v3.16b }, v4.16b
	tbl	v2.16b, { v3.16b }, v5.16b
	ldr	q3, [x0, x12]
	add	x12, x12, #16
	eor	v1.16b, v1.16b, v6.16b
	eor	v2.16b, v3.16b, v2.16b
	tbl	v3.16b, { v1.16b }, v4.16b
	eor	v1.16b, v2.16b, v1.16b
	eor	v1.16b, v3.16b, v1.16b
	b.ne	.Lgcm_BB14_2
.Lgcm_BB14_3:                               // %"aes_permute::blocks::process_vector::<#06aaae76f5856d0a>.exit"
	ushr	v2.16b, v1.16b, #4
	and	v0.16b, v1.16b, v0.16b
	ldr	q3, [x10, :lo12:.Lgcm_CPI14_2]
	ldr	q4, [x9, :lo12:.Lgcm_CPI14_3]
	adrp	x9, .Lgcm_CPI14_8
	adrp	x10, .Lgcm_CPI14_9
	lsl	x8, x8, #4
	eor	v1.16b, v2.16b, v0.16b
	tbl	v0.16b, { v3.16b }, v0.16b
	tbl	v3.16b, { v4.16b }, v2.16b
	tbl	v5.16b, { v4.16b }, v1.16b
	eor	v3.16b, v3.16b, v0.16b
	eor	v0.16b, v5.16b, v0.16b
	tbl	v3.16b, { v4.16b }, v3.16b
	tbl	v0.16b, { v4.16b }, v0.16b
	eor	v1.16b, v3.16b, v1.16b
	ldr	q3, [x10, :lo12:.Lgcm_CPI14_9]
	adrp	x10, .Lgcm_static.3
	add	x10, x10, :lo12:.Lgcm_static.3
	eor	v0.16b, v0.16b, v2.16b
	ldr	q2, [x9, :lo12:.Lgcm_CPI14_8]
	and	x9, x8, #0x30
	tbl	v1.16b, { v2.16b }, v1.16b
	tbl	v0.16b, { v3.16b }, v0.16b
	eor	v0.16b, v0.16b, v1.16b
	ldr	q1, [x10, x9]
	tbl	v0.16b, { v0.16b }, v1.16b
	ldr	q1, [x0, x8]
	mov	x0, x19
	eor	v0.16b, v0.16b, v1.16b
	str	q0, [sp]
	ldp	x8, x9, [sp]
	rev	x20, x9
	rev	x21, x8
	mov	x2, x20
	mov	x3, x21
	bl	gcm.gcm.multiples.put_table
	mov	x0, x19
	mov	x2, x20
	mov	x3, x21
	bl	gcm.gcm.multiples.next_power
	mov	x20, x0
	mov	x0, x19
	mov	x3, x1
	mov	x2, x20
	mov	x21, x1
	bl	gcm.gcm.multiples.next_power
	mov	x22, x0
	add	x0, x19, #512
	mov	x2, x20
	mov	x3, x21
	mov	x23, x1
	bl	gcm.gcm.multiples.put_table
	add	x0, x19, #1024
	mov	x2, x22
	mov	x3, x23
	bl	gcm.gcm.multiples.put_table
	mov	x0, sp
	bl	gcm.aes_cipher.zeroize.elements.zeroize_elements.3
	ldp	x20, x19, [sp, #64]             // 16-byte Folded Reload
	ldr	x23, [sp, #32]                  // 8-byte Reload
	ldp	x22, x21, [sp, #48]             // 16-byte Folded Reload
	ldp	x29, x30, [sp, #16]             // 16-byte Folded Reload
	add	sp, sp, #80
	ret
.Lgcm_func_end14:
	.size	gcm.gcm.mode.put_subkey, .Lgcm_func_end14-gcm.gcm.mode.put_subkey
                                        // -- End function
	.section	.rodata.cst16,"aM",@progbits,16
	.p2align	4, 0x0                          // -- Begin function gcm::multiples::next_power
.Lgcm_CPI15_0:
	.byte	255                             // 0xff
	.byte	0                               // 0x0
	.byte	1                               // 0x1
	.byte	2                               // 0x2
	.byte	3                               // 0x3
	.byte	4                               // 0x4
	.byte	5                               // 0x5
	.byte	6                               // 0x6
	.byte	7                               // 0x7
	.byte	8                               // 0x8
	.byte	9                               // 0x9
	.byte	10                              // 0xa
	.byte	11                              // 0xb
	.byte	12                              // 0xc
	.byte	13                              // 0xd
	.byte	14                              // 0xe
	.section	.text.gcm.gcm.multiples.next_power,"ax",@progbits
	.p2align	2
	.type	gcm.gcm.multiples.next_power,@function
gcm.gcm.multiples.next_power:           // @gcm.gcm.multiples.next_power
// %bb.0:                               // %start
	fmov	d0, x2
	movi	v4.16b, #15
	add	x8, x0, #480
	movi	v2.2d, #0000000000000000
	movi	v3.2d, #0000000000000000
	mov	w9, #8                          // =0x8
	movi	v1.2d, #0000000000000000
	mov	v0.d[1], x3
	rev64	v0.16b, v0.16b
	ext	v5.16b, v0.16b, v0.16b, #8
	movi	v0.2d, #0000000000000000
	and	v4.16b, v5.16b, v4.16b
	ushr	v5.16b, v5.16b, #4
.Lgcm_BB15_1:                               // %join.5.i
                                        // =>This Inner Loop Header: Depth=1
	ldp	q6, q7, [x8]
	adrp	x10, .Lgcm_CPI15_0
	ldp	q16, q17, [x8, #-256]
	ext	v2.16b, v1.16b, v2.16b, #15
	ldr	q18, [x10, :lo12:.Lgcm_CPI15_0]
	ext	v3.16b, v0.16b, v3.16b, #15
	sub	x9, x9, #1
	tbl	v6.16b, { v6.16b }, v4.16b
	tbl	v7.16b, { v7.16b }, v4.16b
	sub	x8, x8, #32
	tbl	v16.16b, { v16.16b }, v5.16b
	tbl	v17.16b, { v17.16b }, v5.16b
	tbl	v19.16b, { v1.16b }, v18.16b
	tbl	v18.16b, { v0.16b }, v18.16b
	eor	v6.16b, v16.16b, v6.16b
	eor	v7.16b, v17.16b, v7.16b
	eor	v0.16b, v7.16b, v18.16b
	eor	v1.16b, v6.16b, v19.16b
	cbnz	x9, .Lgcm_BB15_1
// %bb.2:                               // %"gcm::multiples::shifted_sum::<#29e205ae42dcf28f>.exit"
	ext	v3.16b, v0.16b, v3.16b, #8
	eor	v2.16b, v3.16b, v2.16b
	movi	v3.2d, #0000000000000000
	mov	x8, v2.d[1]
	fmov	x9, d2
	mov	v3.d[1], v0.d[0]
	rev	x9, x9
	rev	x8, x8
	lsr	x10, x9, #2
	extr	x11, x9, x8, #1
	extr	x12, x9, x8, #2
	extr	x13, x9, x8, #7
	eor	x10, x10, x9, lsr #1
	eor	v1.16b, v3.16b, v1.16b
	eor	x11, x12, x11
	eor	x8, x13, x8
	eor	x8, x11, x8
	eor	x10, x10, x9, lsr #7
	fmov	d2, x8
	eor	x9, x10, x9
	mov	v2.d[1], x9
	rev64	v2.16b, v2.16b
	ext	v0.16b, v2.16b, v2.16b, #8
	eor	v0.16b, v1.16b, v0.16b
	mov	x8, v0.d[1]
	fmov	x9, d0
	rev	x1, x9
	rev	x0, x8
	ret
.Lgcm_func_end15:
	.size	gcm.gcm.multiples.next_power, .Lgcm_func_end15-gcm.gcm.multiples.next_power
                                        // -- End function
	.section	.rodata.cst16,"aM",@progbits,16
	.p2align	4, 0x0                          // -- Begin function gcm::multiples::put_table
.Lgcm_CPI16_0:
	.byte	255                             // 0xff
	.byte	255                             // 0xff
	.byte	255                             // 0xff
	.byte	255                             // 0xff
	.byte	255                             // 0xff
	.byte	255                             // 0xff
	.byte	255                             // 0xff
	.byte	255                             // 0xff
	.byte	0                               // 0x0
	.byte	0                               // 0x0
	.byte	0                               // 0x0
	.byte	0                               // 0x0
	.byte	0                               // 0x0
	.byte	0                               // 0x0
	.byte	0                               // 0x0
	.byte	0                               // 0x0
.Lgcm_CPI16_1:
	.byte	255                             // 0xff
	.byte	255                             // 0xff
	.byte	255                             // 0xff
	.byte	255                             // 0xff
	.byte	255                             // 0xff
	.byte	255                             // 0xff
	.byte	255                             // 0xff
	.byte	255                             // 0xff
	.byte	8                               // 0x8
	.byte	8                               // 0x8
	.byte	8                               // 0x8
	.byte	8                               // 0x8
	.byte	8                               // 0x8
	.byte	8                               // 0x8
	.byte	8                               // 0x8
	.byte	8                               // 0x8
.Lgcm_CPI16_2:
	.byte	255                             // 0xff
	.byte	255                             // 0xff
	.byte	255                             // 0xff
	.byte	255                             // 0xff
	.byte	8                               // 0x8
	.byte	8                               // 0x8
	.byte	8                               // 0x8
	.byte	8                               // 0x8
	.byte	255                             // 0xff
	.byte	255                             // 0xff
	.byte	255                             // 0xff
	.byte	255                             // 0xff
	.byte	8                               // 0x8
	.byte	8                               // 0x8
	.byte	8                               // 0x8
	.byte	8                               // 0x8
.Lgcm_CPI16_3:
	.byte	255                             // 0xff
	.byte	255                             // 0xff
	.byte	8                               // 0x8
	.byte	8                               // 0x8
	.byte	255                             // 0xff
	.byte	255                             // 0xff
	.byte	8                               // 0x8
	.byte	8                               // 0x8
	.byte	255                             // 0xff
	.byte	255                             // 0xff
	.byte	8                               // 0x8
	.byte	8                               // 0x8
	.byte	255                             // 0xff
	.byte	255                             // 0xff
	.byte	8                               // 0x8
	.byte	8                               // 0x8
.Lgcm_CPI16_4:
	.byte	255                             // 0xff
	.byte	255                             // 0xff
	.byte	255                             // 0xff
	.byte	255                             // 0xff
	.byte	255                             // 0xff
	.byte	255                             // 0xff
	.byte	255                             // 0xff
	.byte	255                             // 0xff
	.byte	1                               // 0x1
	.byte	1                               // 0x1
	.byte	1                               // 0x1
	.byte	1                               // 0x1
	.byte	1                               // 0x1
	.byte	1                               // 0x1
	.byte	1                               // 0x1
	.byte	1                               // 0x1
.Lgcm_CPI16_5:
	.byte	255                             // 0xff
	.byte	255                             // 0xff
	.byte	255                             // 0xff
	.byte	255                             // 0xff
	.byte	1                               // 0x1
	.byte	1                               // 0x1
	.byte	1                               // 0x1
	.byte	1                               // 0x1
	.byte	255                             // 0xff
	.byte	255                             // 0xff
	.byte	255                             // 0xff
	.byte	255                             // 0xff
	.byte	1                               // 0x1
	.byte	1                               // 0x1
	.byte	1                               // 0x1
	.byte	1                               // 0x1
.Lgcm_CPI16_6:
	.byte	255                             // 0xff
	.byte	255                             // 0xff
	.byte	1                               // 0x1
	.byte	1                               // 0x1
	.byte	255                             // 0xff
	.byte	255                             // 0xff
	.byte	1                               // 0x1
	.byte	1                               // 0x1
	.byte	255                             // 0xff
	.byte	255                             // 0xff
	.byte	1                               // 0x1
	.byte	1                               // 0x1
	.byte	255                             // 0xff
	.byte	255                             // 0xff
	.byte	1                               // 0x1
	.byte	1                               // 0x1
.Lgcm_CPI16_7:
	.byte	255                             // 0xff
	.byte	255                             // 0xff
	.byte	255                             // 0xff
	.byte	255                             // 0xff
	.byte	255                             // 0xff
	.byte	255                             // 0xff
	.byte	255                             // 0xff
	.byte	255                             // 0xff
	.byte	9                               // 0x9
	.byte	9                               // 0x9
	.byte	9                               // 0x9
	.byte	9                               // 0x9
	.byte	9                               // 0x9
	.byte	9                               // 0x9
	.byte	9                               // 0x9
	.byte	9                               // 0x9
.Lgcm_CPI16_8:
	.byte	255                             // 0xff
	.byte	255                             // 0xff
	.byte	255                             // 0xff
	.byte	255                             // 0xff
	.byte	9                               // 0x9
	.byte	9                               // 0x9
	.byte	9                               // 0x9
	.byte	9                               // 0x9
	.byte	255                             // 0xff
	.byte	255                             // 0xff
	.byte	255                             // 0xff
	.byte	255                             // 0xff
	.byte	9                               // 0x9
	.byte	9                               // 0x9
	.byte	9                               // 0x9
	.byte	9                               // 0x9
.Lgcm_CPI16_9:
	.byte	255                             // 0xff
	.byte	255                             // 0xff
	.byte	9                               // 0x9
	.byte	9                               // 0x9
	.byte	255                             // 0xff
	.byte	255                             // 0xff
	.byte	9                               // 0x9
	.byte	9                               // 0x9
	.byte	255                             // 0xff
	.byte	255                             // 0xff
	.byte	9                               // 0x9
	.byte	9                               // 0x9
	.byte	255                             // 0xff
	.byte	255                             // 0xff
	.byte	9                               // 0x9
	.byte	9                               // 0x9
.Lgcm_CPI16_10:
	.byte	255                             // 0xff
	.byte	255                             // 0xff
	.byte	255                             // 0xff
	.byte	255                             // 0xff
	.byte	255                             // 0xff
	.byte	255                             // 0xff
	.byte	255                             // 0xff
	.byte	255                             // 0xff
	.byte	2                               // 0x2
	.byte	2                               // 0x2
	.byte	2                               // 0x2
	.byte	2                               // 0x2
	.byte	2                               // 0x2
	.byte	2                               // 0x2
	.byte	2                               // 0x2
	.byte	2                               // 0x2
.Lgcm_CPI16_11:
	.byte	255                             // 0xff
	.byte	255                             // 0xff
	.byte	255                             // 0xff
	.byte	255                             // 0xff
	.byte	2                               // 0x2
	.byte	2                               // 0x2
	.byte	2                               // 0x2
	.byte	2                               // 0x2
	.byte	255                             // 0xff
	.byte	255                             // 0xff
	.byte	255                             // 0xff
	.byte	255                             // 0xff
	.byte	2                               // 0x2
	.byte	2                               // 0x2
	.byte	2                               // 0x2
	.byte	2                               // 0x2
.Lgcm_CPI16_12:
	.byte	255                             // 0xff
	.byte	255                             // 0xff
	.byte	2                               // 0x2
	.byte	2                               // 0x2
	.byte	255                             // 0xff
	.byte	255                             // 0xff
	.byte	2                               // 0x2
	.byte	2                               // 0x2
	.byte	255                             // 0xff
	.byte	255                             // 0xff
	.byte	2                               // 0x2
	.byte	2                               // 0x2
	.byte	255                             // 0xff
	.byte	255                             // 0xff
	.byte	2                               // 0x2
	.byte	2                               // 0x2
.Lgcm_CPI16_13:
	.byte	255                             // 0xff
	.byte	255                             // 0xff
	.byte	255                             // 0xff
	.byte	255                             // 0xff
	.byte	255                             // 0xff
	.byte	255                             // 0xff
	.byte	255                             // 0xff
	.byte	255                             // 0xff
	.byte	10                              // 0xa
	.byte	10                              // 0xa
	.byte	10                              // 0xa
	.byte	10                              // 0xa
	.byte	10                              // 0xa
	.byte	10                              // 0xa
	.byte	10                              // 0xa
	.byte	10                              // 0xa
.Lgcm_CPI16_14:
	.byte	255                             // 0xff
	.byte	255                             // 0xff
	.byte	255                             // 0xff
	.byte	255                             // 0xff
	.byte	10                              // 0xa
	.byte	10                              // 0xa
	.byte	10                              // 0xa
	.byte	10                              // 0xa
	.byte	255                             // 0xff
	.byte	255                             // 0xff
	.byte	255                             // 0xff
	.byte	255                             // 0xff
	.byte	10                              // 0xa
	.byte	10                              // 0xa
	.byte	10                              // 0xa
	.byte	10                              // 0xa
.Lgcm_CPI16_15:
	.byte	255                             // 0xff
	.byte	255                             // 0xff
	.byte	10                              // 0xa
	.byte	10                              // 0xa
	.byte	255                             // 0xff
	.byte	255                             // 0xff
	.byte	10                              // 0xa
	.byte	10                              // 0xa
	.byte	255                             // 0xff
	.byte	255                             // 0xff
	.byte	10                              // 0xa
	.byte	10                              // 0xa
	.byte	255                             // 0xff
	.byte	255                             // 0xff
	.byte	10                              // 0xa
	.byte	10                              // 0xa
.Lgcm_CPI16_16:
	.byte	255                             // 0xff
	.byte	255                             // 0xff
	.byte	255                             // 0xff
	.byte	255                             // 0xff
	.byte	255                             // 0xff
	.byte	255                             // 0xff
	.byte	255                             // 0xff
	.byte	255                             // 0xff
	.byte	3                               // 0x3
	.byte	3                               // 0x3
	.byte	3                               // 0x3
	.byte	3                               // 0x3
	.byte	3                               // 0x3
	.byte	3                               // 0x3
	.byte	3                               // 0x3
	.byte	3                               // 0x3
.Lgcm_CPI16_17:
	.byte	255                             // 0xff
	.byte	255                             // 0xff
	.byte	255                             // 0xff
	.byte	255                             // 0xff
	.byte	3                               // 0x3
	.byte	3                               // 0x3
	.byte	3                               // 0x3
	.byte	3                               // 0x3
	.byte	255                             // 0xff
	.byte	255                             // 0xff
	.byte	255                             // 0xff
	.byte	255                             // 0xff
	.byte	3                               // 0x3
	.byte	3                               // 0x3
	.byte	3                               // 0x3
	.byte	3                               // 0x3
.Lgcm_CPI16_18:
	.byte	255                             // 0xff
	.byte	255                             // 0xff
	.byte	3                               // 0x3
	.byte	3                               // 0x3
	.byte	255                             // 0xff
	.byte	255                             // 0xff
	.byte	3                               // 0x3
	.byte	3                               // 0x3
	.byte	255                             // 0xff
	.byte	255                             // 0xff
	.byte	3                               // 0x3
	.byte	3                               // 0x3
	.byte	255                             // 0xff
	.byte	255                             // 0xff
	.byte	3                               // 0x3
	.byte	3                               // 0x3
.Lgcm_CPI16_19:
	.byte	255                             // 0xff
	.byte	255                             // 0xff
	.byte	255                             // 0xff
	.byte	255                             // 0xff
	.byte	255                             // 0xff
	.byte	255                             // 0xff
	.byte	255                             // 0xff
	.byte	255                             // 0xff
	.byte	11                              // 0xb
	.byte	11                              // 0xb
	.byte	11                              // 0xb
	.byte	11                              // 0xb
	.byte	11                              // 0xb
	.byte	11                              // 0xb
	.byte	11                              // 0xb
	.byte	11                              // 0xb
.Lgcm_CPI16_20:
	.byte	255                             // 0xff
	.byte	255                             // 0xff
	.byte	255                             // 0xff
	.byte	255                             // 0xff
	.byte	11                              // 0xb
	.byte	11                              // 0xb
	.byte	11                              // 0xb
	.byte	11                              // 0xb
	.byte	255                             // 0xff
	.byte	255                             // 0xff
	.byte	255                             // 0xff
	.byte	255                             // 0xff
	.byte	11                              // 0xb
	.byte	11                              // 0xb
	.byte	11                              // 0xb
	.byte	11                              // 0xb
.Lgcm_CPI16_21:
	.byte	255                             // 0xff
	.byte	255                             // 0xff
	.byte	11                              // 0xb
	.byte	11                              // 0xb
	.byte	255                             // 0xff
	.byte	255                             // 0xff
	.byte	11                              // 0xb
	.byte	11                              // 0xb
	.byte	255                             // 0xff
	.byte	255                             // 0xff
	.byte	11                              // 0xb
	.byte	11                              // 0xb
	.byte	255                             // 0xff
	.byte	255                             // 0xff
	.byte	11                              // 0xb
	.byte	11                              // 0xb
.Lgcm_CPI16_22:
	.byte	255                             // 0xff
	.byte	255                             // 0xff
	.byte	255                             // 0xff
	.byte	255                             // 0xff
	.byte	255                             // 0xff
	.byte	255                             // 0xff
	.byte	255                             // 0xff
	.byte	255                             // 0xff
	.byte	4                               // 0x4
	.byte	4                               // 0x4
	.byte	4                               // 0x4
	.byte	4                               // 0x4
	.byte	4                               // 0x4
	.byte	4                               // 0x4
	.byte	4                               // 0x4
	.byte	4                               // 0x4
.Lgcm_CPI16_23:
	.byte	255                             // 0xff
	.byte	255                             // 0xff
	.byte	255                             // 0xff
	.byte	255                             // 0xff
	.byte	4                               // 0x4
	.byte	4                               // 0x4
	.byte	4                               // 0x4
	.byte	4                               // 0x4
	.byte	255                             // 0xff
	.byte	255                             // 0xff
	.byte	255                             // 0xff
	.byte	255                             // 0xff
	.byte	4                               // 0x4
	.byte	4                               // 0x4
	.byte	4                               // 0x4
	.byte	4                               // 0x4
.Lgcm_CPI16_24:
	.byte	255                             // 0xff
	.byte	255                             // 0xff
	.byte	4                               // 0x4
	.byte	4                               // 0x4
	.byte	255                             // 0xff
	.byte	255                             // 0xff
	.byte	4                               // 0x4
	.byte	4                               // 0x4
	.byte	255                             // 0xff
	.byte	255                             // 0xff
	.byte	4                               // 0x4
	.byte	4                               // 0x4
	.byte	255                             // 0xff
	.byte	255                             // 0xff
	.byte	4                               // 0x4
	.byte	4                               // 0x4
.Lgcm_CPI16_25:
	.byte	255                             // 0xff
	.byte	255                             // 0xff
	.byte	255                             // 0xff
	.byte	255                             // 0xff
	.byte	255                             // 0xff
	.byte	255                             // 0xff
	.byte	255                             // 0xff
	.byte	255                             // 0xff
	.byte	12                              // 0xc
	.byte	12                              // 0xc
	.byte	12                              // 0xc
	.byte	12                              // 0xc
	.byte	12                              // 0xc
	.byte	12                              // 0xc
	.byte	12                              // 0xc
	.byte	12                              // 0xc
.Lgcm_CPI16_26:
	.byte	255                             // 0xff
	.byte	255                             // 0xff
	.byte	255                             // 0xff
	.byte	255                             // 0xff
	.byte	12                              // 0xc
	.byte	12                              // 0xc
	.byte	12                              // 0xc
	.byte	12                              // 0xc
	.byte	255                             // 0xff
	.byte	255                             // 0xff
	.byte	255                             // 0xff
	.byte	255                             // 0xff
	.byte	12                              // 0xc
	.byte	12                              // 0xc
	.byte	12                              // 0xc
	.byte	12                              // 0xc
.Lgcm_CPI16_27:
	.byte	255                             // 0xff
	.byte	255                             // 0xff
	.byte	12                              // 0xc
	.byte	12                              // 0xc
	.byte	255                             // 0xff
	.byte	255                             // 0xff
	.byte	12                              // 0xc
	.byte	12                              // 0xc
	.byte	255                             // 0xff
	.byte	255                             // 0xff
	.byte	12                              // 0xc
	.byte	12                              // 0xc
	.byte	255                             // 0xff
	.byte	255                             // 0xff
	.byte	12                              // 0xc
	.byte	12                              // 0xc
.Lgcm_CPI16_28:
	.byte	255                             // 0xff
	.byte	255                             // 0xff
	.byte	255                             // 0xff
	.byte	255                             // 0xff
	.byte	255                             // 0xff
	.byte	255                             // 0xff
	.byte	255                             // 0xff
	.byte	255                             // 0xff
	.byte	5                               // 0x5
	.byte	5                               // 0x5
	.byte	5                               // 0x5
	.byte	5                               // 0x5
	.byte	5                               // 0x5
	.byte	5                               // 0x5
	.byte	5                               // 0x5
	.byte	5                               // 0x5
.Lgcm_CPI16_29:
	.byte	255                             // 0xff
	.byte	255                             // 0xff
	.byte	255                             // 0xff
	.byte	255                             // 0xff
	.byte	5                               // 0x5
	.byte	5                               // 0x5
	.byte	5                               // 0x5
	.byte	5                               // 0x5
	.byte	255                             // 0xff
	.byte	255                             // 0xff
	.byte	255                             // 0xff
	.byte	255                             // 0xff
	.byte	5                               // 0x5
	.byte	5                               // 0x5
	.byte	5                               // 0x5
	.byte	5                               // 0x5
.Lgcm_CPI16_30:
	.byte	255                             // 0xff
	.byte	255                             // 0xff
	.byte	5                               // 0x5
	.byte	5                               // 0x5
	.byte	255                             // 0xff
	.byte	255                             // 0xff
	.byte	5                               // 0x5
	.byte	5                               // 0x5
	.byte	255                             // 0xff
	.byte	255                             // 0xff
	.byte	5                               // 0x5
	.byte	5                               // 0x5
	.byte	255                             // 0xff
	.byte	255                             // 0xff
	.byte	5                               // 0x5
	.byte	5                               // 0x5
.Lgcm_CPI16_31:
	.byte	255                             // 0xff
	.byte	255                             // 0xff
	.byte	255                             // 0xff
	.byte	255                             // 0xff
	.byte	255                             // 0xff
	.byte	255                             // 0xff
	.byte	255                             // 0xff
	.byte	255                             // 0xff
	.byte	13                              // 0xd
	.byte	13                              // 0xd
	.byte	13                              // 0xd
	.byte	13                              // 0xd
	.byte	13                              // 0xd
	.byte	13                              // 0xd
	.byte	13                              // 0xd
	.byte	13                              // 0xd
.Lgcm_CPI16_32:
	.byte	255                             // 0xff
	.byte	255                             // 0xff
	.byte	255                             // 0xff
	.byte	255                             // 0xff
	.byte	13                              // 0xd
	.byte	13                              // 0xd
	.byte	13                              // 0xd
	.byte	13                              // 0xd
	.byte	255                             // 0xff
	.byte	255                             // 0xff
	.byte	255                             // 0xff
	.byte	255                             // 0xff
	.byte	13                              // 0xd
	.byte	13                              // 0xd
	.byte	13                              // 0xd
	.byte	13                              // 0xd
.Lgcm_CPI16_33:
	.byte	255                             // 0xff
	.byte	255                             // 0xff
	.byte	13                              // 0xd
	.byte	13                              // 0xd
	.byte	255                             // 0xff
	.byte	255                             // 0xff
	.byte	13                              // 0xd
	.byte	13                              // 0xd
	.byte	255                             // 0xff
	.byte	255                             // 0xff
	.byte	13                              // 0xd
	.byte	13                              // 0xd
	.byte	255                             // 0xff
	.byte	255                             // 0xff
	.byte	13                              // 0xd
	.byte	13                              // 0xd
.Lgcm_CPI16_34:
	.byte	255                             // 0xff
	.byte	255                             // 0xff
	.byte	255                             // 0xff
	.byte	255                             // 0xff
	.byte	255                             // 0xff
	.byte	255                             // 0xff
	.byte	255                             // 0xff
	.byte	255                             // 0xff
	.byte	6                               // 0x6
	.byte	6                               // 0x6
	.byte	6                               // 0x6
	.byte	6                               // 0x6
	.byte	6                               // 0x6
	.byte	6                               // 0x6
	.byte	6                               // 0x6
	.byte	6                               // 0x6
.Lgcm_CPI16_35:
	.byte	255                             // 0xff
	.byte	255                             // 0xff
	.byte	255                             // 0xff
	.byte	255                             // 0xff
	.byte	6                               // 0x6
	.byte	6                               // 0x6
	.byte	6                               // 0x6
	.byte	6                               // 0x6
	.byte	255                             // 0xff
	.byte	255                             // 0xff
	.byte	255                             // 0xff
	.byte	255                             // 0xff
	.byte	6                               // 0x6
	.byte	6                               // 0x6
	.byte	6                               // 0x6
	.byte	6                               // 0x6
.Lgcm_CPI16_36:
	.byte	255                             // 0xff
	.byte	255                             // 0xff
	.byte	6                               // 0x6
	.byte	6                               // 0x6
	.byte	255                             // 0xff
	.byte	255                             // 0xff
	.byte	6                               // 0x6
	.byte	6                               // 0x6
	.byte	255                             // 0xff
	.byte	255                             // 0xff
	.byte	6                               // 0x6
	.byte	6                               // 0x6
	.byte	255                             // 0xff
	.byte	255                             // 0xff
	.byte	6                               // 0x6
	.byte	6                               // 0x6
.Lgcm_CPI16_37:
	.byte	255                             // 0xff
	.byte	255                             // 0xff
	.byte	255                             // 0xff
	.byte	255                             // 0xff
	.byte	255                             // 0xff
	.byte	255                             // 0xff
	.byte	255                             // 0xff
	.byte	255                             // 0xff
	.byte	14                              // 0xe
	.byte	14                              // 0xe
	.byte	14                              // 0xe
	.byte	14                              // 0xe
	.byte	14                              // 0xe
	.byte	14                              // 0xe
	.byte	14                              // 0xe
	.byte	14                              // 0xe
.Lgcm_CPI16_38:
	.byte	255                             // 0xff
	.byte	255                             // 0xff
	.byte	255                             // 0xff
	.byte	255                             // 0xff
	.byte	14                              // 0xe
	.byte	14                              // 0xe
	.byte	14                              // 0xe
	.byte	14                              // 0xe
	.byte	255                             // 0xff
	.byte	255                             // 0xff
	.byte	255                             // 0xff
	.byte	255                             // 0xff
	.byte	14                              // 0xe
	.byte	14                              // 0xe
	.byte	14                              // 0xe
	.byte	14                              // 0xe
.Lgcm_CPI16_39:
	.byte	255                             // 0xff
	.byte	255                             // 0xff
	.byte	14                              // 0xe
	.byte	14                              // 0xe
	.byte	255                             // 0xff
	.byte	255                             // 0xff
	.byte	14                              // 0xe
	.byte	14                              // 0xe
	.byte	255                             // 0xff
	.byte	255                             // 0xff
	.byte	14                              // 0xe
	.byte	14                              // 0xe
	.byte	255                             // 0xff
	.byte	255                             // 0xff
	.byte	14                              // 0xe
	.byte	14                              // 0xe
.Lgcm_CPI16_40:
	.byte	255                             // 0xff
	.byte	255                             // 0xff
	.byte	255                             // 0xff
	.byte	255                             // 0xff
	.byte	255                             // 0xff
	.byte	255                             // 0xff
	.byte	255                             // 0xff
	.byte	255                             // 0xff
	.byte	7                               // 0x7
	.byte	7                               // 0x7
	.byte	7                               // 0x7
	.byte	7                               // 0x7
	.byte	7                               // 0x7
	.byte	7                               // 0x7
	.byte	7                               // 0x7
	.byte	7                               // 0x7
.Lgcm_CPI16_41:
	.byte	255                             // 0xff
	.byte	255                             // 0xff
	.byte	255                             // 0xff
	.byte	255                             // 0xff
	.byte	7                               // 0x7
	.byte	7                               // 0x7
	.byte	7                               // 0x7
	.byte	7                               // 0x7
	.byte	255                             // 0xff
	.byte	255                             // 0xff
	.byte	255                             // 0xff
	.byte	255                             // 0xff
	.byte	7                               // 0x7
	.byte	7                               // 0x7
	.byte	7                               // 0x7
	.byte	7                               // 0x7
.Lgcm_CPI16_42:
	.byte	255                             // 0xff
	.byte	255                             // 0xff
	.byte	7                               // 0x7
	.byte	7                               // 0x7
	.byte	255                             // 0xff
	.byte	255                             // 0xff
	.byte	7                               // 0x7
	.byte	7                               // 0x7
	.byte	255                             // 0xff
	.byte	255                             // 0xff
	.byte	7                               // 0x7
	.byte	7                               // 0x7
	.byte	255                             // 0xff
	.byte	255                             // 0xff
	.byte	7                               // 0x7
	.byte	7                               // 0x7
.Lgcm_CPI16_43:
	.byte	255                             // 0xff
	.byte	255                             // 0xff
	.byte	255                             // 0xff
	.byte	255                             // 0xff
	.byte	255                             // 0xff
	.byte	255                             // 0xff
	.byte	255                             // 0xff
	.byte	255                             // 0xff
	.byte	15                              // 0xf
	.byte	15                              // 0xf
	.byte	15                              // 0xf
	.byte	15                              // 0xf
	.byte	15                              // 0xf
	.byte	15                              // 0xf
	.byte	15                              // 0xf
	.byte	15                              // 0xf
.Lgcm_CPI16_44:
	.byte	255                             // 0xff
	.byte	255                             // 0xff
	.byte	255                             // 0xff
	.byte	255                             // 0xff
	.byte	15                              // 0xf
	.byte	15                              // 0xf
	.byte	15                              // 0xf
	.byte	15                              // 0xf
	.byte	255                             // 0xff
	.byte	255                             // 0xff
	.byte	255                             // 0xff
	.byte	255                             // 0xff
	.byte	15                              // 0xf
	.byte	15                              // 0xf
	.byte	15                              // 0xf
	.byte	15                              // 0xf
.Lgcm_CPI16_45:
	.byte	255                             // 0xff
	.byte	255                             // 0xff
	.byte	15                              // 0xf
	.byte	15                              // 0xf
	.byte	255                             // 0xff
	.byte	255                             // 0xff
	.byte	15                              // 0xf
	.byte	15                              // 0xf
	.byte	255                             // 0xff
	.byte	255                             // 0xff
	.byte	15                              // 0xf
	.byte	15                              // 0xf
	.byte	255                             // 0xff
	.byte	255                             // 0xff
	.byte	15                              // 0xf
	.byte	15                              // 0xf
.Lgcm_CPI16_46:
	.byte	0                               // 0x0
	.byte	28                              // 0x1c
	.byte	56                              // 0x38
	.byte	36                              // 0x24
	.byte	112                             // 0x70
	.byte	108                             // 0x6c
	.byte	72                              // 0x48
	.byte	84                              // 0x54
	.byte	225                             // 0xe1
	.byte	253                             // 0xfd
	.byte	217                             // 0xd9
	.byte	197                             // 0xc5
	.byte	145                             // 0x91
	.byte	141                             // 0x8d
	.byte	169                             // 0xa9
	.byte	181                             // 0xb5
.Lgcm_CPI16_47:
	.byte	0                               // 0x0
	.byte	32                              // 0x20
	.byte	64                              // 0x40
	.byte	96                              // 0x60
	.byte	128                             // 0x80
	.byte	160                             // 0xa0
	.byte	192                             // 0xc0
	.byte	224                             // 0xe0
	.byte	0                               // 0x0
	.byte	32                              // 0x20
	.byte	64                              // 0x40
	.byte	96                              // 0x60
	.byte	128                             // 0x80
	.byte	160                             // 0xa0
	.byte	192                             // 0xc0
	.byte	224                             // 0xe0
	.section	.text.gcm.gcm.multiples.put_table,"ax",@progbits
	.p2align	2
	.type	gcm.gcm.multiples.put_table,@function
gcm.gcm.multiples.put_table:            // @gcm.gcm.multiples.put_table
// %bb.0:                               // %start
	sbfx	x9, x2, #0, #1
	extr	x10, x3, x2, #1
	mov	x8, #-2233785415175766016       // =0xe100000000000000
	lsr	x11, x3, #1
	fmov	d0, x2
	lsl	x12, x2, #62
	and	x9, x9, x8
	fmov	d1, x10
	lsl	x13, x2, #61
	extr	x14, x11, x10, #1
	eor	x9, x9, x11
	and	x11, x8, x12, asr #63
	lsr	x10, x9, #1
	mov	v0.d[1], x3
	and	x8, x8, x13, asr #63
	mov	v1.d[1], x9
	fmov	d2, x14
	movi	v3.2d, #0x000000ffffffff
	eor	x9, x10, x11
	extr	x10, x10, x14, #1
	adrp	x12, .Lgcm_CPI16_0
	eor	x8, x8, x9, lsr #1
	adrp	x11, .Lgcm_CPI16_4
	ldr	q6, [x12, :lo12:.Lgcm_CPI16_0]
	mov	v2.d[1], x9
	fmov	d5, x10
	rev64	v0.16b, v0.16b
	rev64	v1.16b, v1.16b
	ldr	q21, [x11, :lo12:.Lgcm_CPI16_4]
	movi	v7.2d, #0x00ffff0000ffff
	movi	v4.2d, #0xff00ff00ff00ff
	adrp	x9, .Lgcm_CPI16_2
	adrp	x10, .Lgcm_CPI16_3
	mov	v5.d[1], x8
	adrp	x8, .Lgcm_CPI16_1
	ldr	q20, [x9, :lo12:.Lgcm_CPI16_2]
	rev64	v17.16b, v2.16b
	ext	v0.16b, v0.16b, v0.16b, #8
	ldr	q16, [x8, :lo12:.Lgcm_CPI16_1]
	ext	v2.16b, v1.16b, v1.16b, #8
	adrp	x8, .Lgcm_CPI16_5
	ldr	q19, [x10, :lo12:.Lgcm_CPI16_3]
	adrp	x10, .Lgcm_CPI16_12
	adrp	x9, .Lgcm_CPI16_8
	adrp	x11, .Lgcm_CPI16_40
	rev64	v22.16b, v5.16b
	mvni	v5.8h, #247, lsl #8
	ext	v1.16b, v17.16b, v17.16b, #8
	tbl	v23.16b, { v0.16b }, v6.16b
	tbl	v18.16b, { v0.16b }, v16.16b
	tbl	v6.16b, { v0.16b }, v21.16b
	ldr	q16, [x8, :lo12:.Lgcm_CPI16_5]
	adrp	x8, .Lgcm_CPI16_6
	tbl	v21.16b, { v2.16b }, v3.16b
	ldr	q17, [x8, :lo12:.Lgcm_CPI16_6]
	adrp	x8, .Lgcm_CPI16_7
	ldr	q24, [x8, :lo12:.Lgcm_CPI16_7]
	adrp	x8, .Lgcm_CPI16_10
	ext	v3.16b, v22.16b, v22.16b, #8
	ldr	q22, [x8, :lo12:.Lgcm_CPI16_10]
	adrp	x8, .Lgcm_CPI16_11
	tbl	v7.16b, { v1.16b }, v7.16b
	ldr	q25, [x8, :lo12:.Lgcm_CPI16_11]
	adrp	x8, .Lgcm_CPI16_13
	tbl	v20.16b, { v2.16b }, v20.16b
	eor	v21.16b, v21.16b, v23.16b
	tbl	v22.16b, { v0.16b }, v22.16b
	tbl	v16.16b, { v2.16b }, v16.16b
	tbl	v23.16b, { v2.16b }, v25.16b
	ldr	q25, [x8, :lo12:.Lgcm_CPI16_13]
	adrp	x8, .Lgcm_CPI16_14
	tbl	v4.16b, { v3.16b }, v4.16b
	ldr	q26, [x8, :lo12:.Lgcm_CPI16_14]
	adrp	x8, .Lgcm_CPI16_15
	eor	v7.16b, v21.16b, v7.16b
	ldr	q21, [x10, :lo12:.Lgcm_CPI16_12]
	tbl	v25.16b, { v0.16b }, v25.16b
	tbl	v26.16b, { v2.16b }, v26.16b
	ldr	q27, [x8, :lo12:.Lgcm_CPI16_15]
	eor	v18.16b, v20.16b, v18.16b
	eor	v22.16b, v23.16b, v22.16b
	ldr	q20, [x9, :lo12:.Lgcm_CPI16_8]
	adrp	x8, .Lgcm_CPI16_9
	eor	v4.16b, v7.16b, v4.16b
	tbl	v7.16b, { v1.16b }, v21.16b
	mvni	v21.8h, #253, lsl #8
	tbl	v23.16b, { v1.16b }, v27.16b
	mvni	v27.8h, #245, lsl #8
	tbl	v24.16b, { v0.16b }, v24.16b
	eor	v25.16b, v26.16b, v25.16b
	tbl	v20.16b, { v2.16b }, v20.16b
	ldr	q26, [x8, :lo12:.Lgcm_CPI16_9]
	tbl	v21.16b, { v3.16b }, v21.16b
	adrp	x8, .Lgcm_CPI16_16
	eor	v16.16b, v16.16b, v6.16b
	eor	v7.16b, v22.16b, v7.16b
	tbl	v22.16b, { v3.16b }, v27.16b
	ldr	q6, [x8, :lo12:.Lgcm_CPI16_16]
	eor	v23.16b, v25.16b, v23.16b
	adrp	x8, .Lgcm_CPI16_17
	tbl	v19.16b, { v1.16b }, v19.16b
	tbl	v17.16b, { v1.16b }, v17.16b
	tbl	v25.16b, { v1.16b }, v26.16b
	eor	v20.16b, v20.16b, v24.16b
	eor	v7.16b, v7.16b, v21.16b
	ldr	q21, [x8, :lo12:.Lgcm_CPI16_17]
	adrp	x8, .Lgcm_CPI16_18
	eor	v22.16b, v23.16b, v22.16b
	tbl	v23.16b, { v0.16b }, v6.16b
	mvni	v24.8h, #252, lsl #8
	tbl	v21.16b, { v2.16b }, v21.16b
	eor	v6.16b, v18.16b, v19.16b
	ldr	q18, [x8, :lo12:.Lgcm_CPI16_18]
	adrp	x8, .Lgcm_CPI16_19
	adrp	x9, .Lgcm_CPI16_22
	adrp	x10, .Lgcm_CPI16_24
	stp	q7, q22, [x0, #64]
	eor	v7.16b, v16.16b, v17.16b
	eor	v16.16b, v20.16b, v25.16b
	ldr	q20, [x8, :lo12:.Lgcm_CPI16_19]
	adrp	x8, .Lgcm_CPI16_20
	tbl	v17.16b, { v1.16b }, v18.16b
	eor	v19.16b, v21.16b, v23.16b
	ldr	q21, [x8, :lo12:.Lgcm_CPI16_20]
	adrp	x8, .Lgcm_CPI16_21
	ldr	q22, [x8, :lo12:.Lgcm_CPI16_21]
	adrp	x8, .Lgcm_CPI16_23
	tbl	v20.16b, { v0.16b }, v20.16b
	tbl	v21.16b, { v2.16b }, v21.16b
	tbl	v18.16b, { v3.16b }, v24.16b
	ldr	q23, [x9, :lo12:.Lgcm_CPI16_22]
	ldr	q24, [x8, :lo12:.Lgcm_CPI16_23]
	adrp	x8, .Lgcm_CPI16_25
	adrp	x9, .Lgcm_CPI16_26
	eor	v17.16b, v19.16b, v17.16b
	tbl	v19.16b, { v1.16b }, v22.16b
	tbl	v22.16b, { v0.16b }, v23.16b
	tbl	v23.16b, { v2.16b }, v24.16b
	ldr	q24, [x8, :lo12:.Lgcm_CPI16_25]
	ldr	q25, [x9, :lo12:.Lgcm_CPI16_26]
	mvni	v26.8h, #244, lsl #8
	eor	v20.16b, v21.16b, v20.16b
	ldr	q21, [x10, :lo12:.Lgcm_CPI16_24]
	tbl	v24.16b, { v0.16b }, v24.16b
	tbl	v25.16b, { v2.16b }, v25.16b
	adrp	x8, .Lgcm_CPI16_27
	tbl	v21.16b, { v1.16b }, v21.16b
	mvni	v27.8h, #251, lsl #8
	ldr	q28, [x8, :lo12:.Lgcm_CPI16_27]
	eor	v17.16b, v17.16b, v18.16b
	eor	v18.16b, v23.16b, v22.16b
	tbl	v22.16b, { v3.16b }, v26.16b
	mvni	v26.8h, #243, lsl #8
	tbl	v23.16b, { v1.16b }, v28.16b
	eor	v19.16b, v20.16b, v19.16b
	tbl	v20.16b, { v3.16b }, v27.16b
	eor	v24.16b, v25.16b, v24.16b
	adrp	x8, .Lgcm_CPI16_28
	adrp	x9, .Lgcm_CPI16_29
	eor	v18.16b, v18.16b, v21.16b
	ldr	q25, [x8, :lo12:.Lgcm_CPI16_28]
	tbl	v21.16b, { v3.16b }, v26.16b
	ldr	q26, [x9, :lo12:.Lgcm_CPI16_29]
	adrp	x8, .Lgcm_CPI16_30
	eor	v23.16b, v24.16b, v23.16b
	tbl	v25.16b, { v0.16b }, v25.16b
	mvni	v24.8h, #246, lsl #8
	tbl	v26.16b, { v2.16b }, v26.16b
	eor	v18.16b, v18.16b, v20.16b
	ldr	q20, [x8, :lo12:.Lgcm_CPI16_30]
	adrp	x8, .Lgcm_CPI16_31
	eor	v19.16b, v19.16b, v22.16b
	mvni	v22.8h, #250, lsl #8
	eor	v21.16b, v23.16b, v21.16b
	tbl	v20.16b, { v1.16b }, v20.16b
	ldr	q23, [x8, :lo12:.Lgcm_CPI16_31]
	adrp	x8, .Lgcm_CPI16_32
	tbl	v5.16b, { v3.16b }, v5.16b
	tbl	v24.16b, { v3.16b }, v24.16b
	eor	v25.16b, v26.16b, v25.16b
	ldr	q26, [x8, :lo12:.Lgcm_CPI16_32]
	tbl	v22.16b, { v3.16b }, v22.16b
	tbl	v23.16b, { v0.16b }, v23.16b
	adrp	x8, .Lgcm_CPI16_33
	stp	q17, q19, [x0, #96]
	tbl	v26.16b, { v2.16b }, v26.16b
	ldr	q19, [x8, :lo12:.Lgcm_CPI16_33]
	adrp	x8, .Lgcm_CPI16_34
	eor	v17.16b, v25.16b, v20.16b
	eor	v6.16b, v6.16b, v5.16b
	eor	v5.16b, v16.16b, v24.16b
	tbl	v19.16b, { v1.16b }, v19.16b
	mvni	v27.8h, #254, lsl #8
	ldr	q20, [x8, :lo12:.Lgcm_CPI16_34]
	adrp	x8, .Lgcm_CPI16_35
	stp	q18, q21, [x0, #128]
	adrp	x9, .Lgcm_CPI16_38
	eor	v16.16b, v17.16b, v22.16b
	eor	v17.16b, v26.16b, v23.16b
	ldr	q21, [x8, :lo12:.Lgcm_CPI16_35]
	adrp	x8, .Lgcm_CPI16_37
	ldr	q22, [x9, :lo12:.Lgcm_CPI16_38]
	tbl	v27.16b, { v3.16b }, v27.16b
	tbl	v20.16b, { v0.16b }, v20.16b
	tbl	v21.16b, { v2.16b }, v21.16b
	adrp	x9, .Lgcm_CPI16_43
	eor	v17.16b, v17.16b, v19.16b
	ldr	q19, [x8, :lo12:.Lgcm_CPI16_37]
	adrp	x8, .Lgcm_CPI16_36
	adrp	x10, .Lgcm_CPI16_44
	ldr	q23, [x8, :lo12:.Lgcm_CPI16_36]
	tbl	v22.16b, { v2.16b }, v22.16b
	tbl	v19.16b, { v0.16b }, v19.16b
	adrp	x8, .Lgcm_CPI16_39
	ldr	q24, [x9, :lo12:.Lgcm_CPI16_43]
	ldr	q25, [x10, :lo12:.Lgcm_CPI16_44]
	ldr	q26, [x8, :lo12:.Lgcm_CPI16_39]
	adrp	x8, .Lgcm_CPI16_45
	tbl	v24.16b, { v0.16b }, v24.16b
	eor	v7.16b, v7.16b, v27.16b
	tbl	v23.16b, { v1.16b }, v23.16b
	tbl	v25.16b, { v2.16b }, v25.16b
	ldr	q27, [x11, :lo12:.Lgcm_CPI16_40]
	eor	v20.16b, v21.16b, v20.16b
	tbl	v21.16b, { v1.16b }, v26.16b
	ldr	q26, [x8, :lo12:.Lgcm_CPI16_45]
	adrp	x8, .Lgcm_CPI16_41
	eor	v19.16b, v22.16b, v19.16b
	ldr	q22, [x8, :lo12:.Lgcm_CPI16_41]
	mvni	v18.8h, #242, lsl #8
	tbl	v0.16b, { v0.16b }, v27.16b
	tbl	v26.16b, { v1.16b }, v26.16b
	mvni	v27.8h, #240, lsl #8
	eor	v24.16b, v25.16b, v24.16b
	tbl	v2.16b, { v2.16b }, v22.16b
	adrp	x8, .Lgcm_CPI16_42
	eor	v20.16b, v20.16b, v23.16b
	ldr	q23, [x8, :lo12:.Lgcm_CPI16_42]
	tbl	v18.16b, { v3.16b }, v18.16b
	tbl	v27.16b, { v3.16b }, v27.16b
	mvni	v25.8h, #249, lsl #8
	mvni	v22.8h, #241, lsl #8
	eor	v19.16b, v19.16b, v21.16b
	eor	v21.16b, v24.16b, v26.16b
	tbl	v1.16b, { v1.16b }, v23.16b
	mvni	v23.8h, #248, lsl #8
	eor	v0.16b, v2.16b, v0.16b
	movi	v2.16b, #15
	tbl	v24.16b, { v3.16b }, v25.16b
	tbl	v22.16b, { v3.16b }, v22.16b
	eor	v17.16b, v17.16b, v18.16b
	eor	v18.16b, v21.16b, v27.16b
	adrp	x8, .Lgcm_CPI16_46
	stp	q4, q6, [x0]
	tbl	v3.16b, { v3.16b }, v23.16b
	eor	v0.16b, v0.16b, v1.16b
	stp	q7, q5, [x0, #32]
	stp	q16, q17, [x0, #160]
	ushr	v16.16b, v4.16b, #4
	shl	v4.16b, v4.16b, #4
	and	v1.16b, v18.16b, v2.16b
	ldr	q2, [x8, :lo12:.Lgcm_CPI16_46]
	adrp	x8, .Lgcm_CPI16_47
	eor	v20.16b, v20.16b, v24.16b
	eor	v19.16b, v19.16b, v22.16b
	eor	v0.16b, v0.16b, v3.16b
	ldr	q3, [x8, :lo12:.Lgcm_CPI16_47]
	usra	v4.16b, v7.16b, #4
	tbl	v2.16b, { v2.16b }, v1.16b
	stp	q20, q19, [x0, #192]
	shl	v17.16b, v0.16b, #4
	stp	q0, q18, [x0, #224]
	tbl	v0.16b, { v3.16b }, v1.16b
	shl	v3.16b, v6.16b, #4
	eor	v1.16b, v16.16b, v2.16b
	ldp	q16, q7, [x0, #64]
	usra	v17.16b, v6.16b, #4
	ldp	q2, q6, [x0, #32]
	eor	v0.16b, v4.16b, v0.16b
	usra	v3.16b, v5.16b, #4
	shl	v5.16b, v7.16b, #4
	shl	v2.16b, v2.16b, #4
	shl	v4.16b, v6.16b, #4
	stp	q1, q17, [x0, #256]
	shl	v1.16b, v16.16b, #4
	stp	q0, q3, [x0, #288]
	usra	v2.16b, v16.16b, #4
	ldp	q6, q16, [x0, #96]
	usra	v4.16b, v7.16b, #4
	usra	v1.16b, v6.16b, #4
	usra	v5.16b, v16.16b, #4
	shl	v0.16b, v6.16b, #4
	stp	q2, q4, [x0, #320]
	ldp	q2, q3, [x0, #128]
	ldp	q6, q7, [x0, #160]
	stp	q1, q5, [x0, #352]
	shl	v1.16b, v16.16b, #4
	usra	v0.16b, v2.16b, #4
	shl	v2.16b, v2.16b, #4
	ldp	q4, q5, [x0, #160]
	shl	v7.16b, v7.16b, #4
	usra	v1.16b, v3.16b, #4
	shl	v3.16b, v3.16b, #4
	usra	v2.16b, v4.16b, #4
	shl	v4.16b, v6.16b, #4
	ldp	q6, q16, [x0, #192]
	stp	q0, q1, [x0, #384]
	usra	v3.16b, v5.16b, #4
	shl	v0.16b, v6.16b, #4
	usra	v4.16b, v6.16b, #4
	shl	v5.16b, v16.16b, #4
	ldp	q1, q6, [x0, #224]
	usra	v7.16b, v16.16b, #4
	stp	q2, q3, [x0, #416]
	usra	v0.16b, v1.16b, #4
	usra	v5.16b, v6.16b, #4
	stp	q4, q7, [x0, #448]
	stp	q0, q5, [x0, #480]
	ret
.Lgcm_func_end16:
	.size	gcm.gcm.multiples.put_table, .Lgcm_func_end16-gcm.gcm.multiples.put_table
                                        // -- End function
	.section	.text.gcm.gcm.mode.BorrowedGcm.compare,"ax",@progbits
	.p2align	2                               // -- Begin function gcm::mode::BorrowedGcm::compare::<#c13ce517942629d6>
	.type	gcm.gcm.mode.BorrowedGcm.compare,@function
gcm.gcm.mode.BorrowedGcm.compare: // @gcm.gcm.mode.BorrowedGcm.compare
// %bb.0:                               // %start
	mov	x8, #-2305843009213693952       // =0xe000000000000000
	mov	x9, #-2305843009213693951       // =0xe000000000000001
	add	x8, x2, x8
	cmp	x8, x9
	b.hs	.Lgcm_BB17_2
// %bb.1:
	mov	w0, #1                          // =0x1
	ret
.Lgcm_BB17_2:                               // %else.7
	sub	sp, sp, #96
	lsr	x9, x4, #61
	stp	x20, x19, [sp, #80]             // 16-byte Folded Spill
	mov	x20, x0
	mov	w0, #1                          // =0x1
	stp	x29, x30, [sp, #16]             // 16-byte Folded Spill
	add	x29, sp, #16
	str	x25, [sp, #32]                  // 8-byte Spill
	stp	x24, x23, [sp, #48]             // 16-byte Folded Spill
	stp	x22, x21, [sp, #64]             // 16-byte Folded Spill
	cbnz	x9, .Lgcm_BB17_5
// %bb.3:                               // %else.7
	mov	x9, #68719476704                // =0xfffffffe0
	cmp	x6, x9
	b.hi	.Lgcm_BB17_5
// %bb.4:                               // %after.1
	ldr	x19, [x29, #80]
	mov	x0, x20
	mov	x21, x3
	mov	x22, x7
	mov	x23, x6
	mov	x24, x5
	mov	x3, x19
	mov	x25, x4
	bl	gcm.gcm.mode.BorrowedGcm.put_pre_counter
	mov	x6, sp
	mov	x0, x20
	mov	x1, x19
	mov	x2, x21
	mov	x3, x25
	mov	x4, x24
	mov	x5, x23
	bl	gcm.gcm.mode.BorrowedGcm.put_tag
	mov	x1, sp
	mov	x0, x22
	bl	gcm.aes_cipher.blocks.difference
	cmp	w0, #0
	mov	x0, sp
	cset	w19, ne
	bl	gcm.aes_cipher.zeroize.elements.zeroize_elements.3
	mov	w0, w19
.Lgcm_BB17_5:
	ldp	x20, x19, [sp, #80]             // 16-byte Folded Reload
	ldr	x25, [sp, #32]                  // 8-byte Reload
	ldp	x22, x21, [sp, #64]             // 16-byte Folded Reload
	ldp	x24, x23, [sp, #48]             // 16-byte Folded Reload
	ldp	x29, x30, [sp, #16]             // 16-byte Folded Reload
	add	sp, sp, #96
	ret
.Lgcm_func_end17:
	.size	gcm.gcm.mode.BorrowedGcm.compare, .Lgcm_func_end17-gcm.gcm.mode.BorrowedGcm.compare
                                        // -- End function
	.section	.rodata.cst16,"aM",@progbits,16
	.p2align	4, 0x0                          // -- Begin function gcm::mode::BorrowedGcm::put_tag::<#c13ce517942629d6>
.Lgcm_CPI18_0:
	.xword	3                               // 0x3
	.xword	0                               // 0x0
.Lgcm_CPI18_1:
	.xword	-40                             // 0xffffffffffffffd8
	.xword	-32                             // 0xffffffffffffffe0
.Lgcm_CPI18_2:
	.xword	-56                             // 0xffffffffffffffc8
	.xword	-48                             // 0xffffffffffffffd0
.Lgcm_CPI18_3:
	.xword	-5                              // 0xfffffffffffffffb
	.xword	0                               // 0x0
.Lgcm_CPI18_4:
	.xword	-21                             // 0xffffffffffffffeb
	.xword	-13                             // 0xfffffffffffffff3
	.section	.rodata.cst8,"aM",@progbits,8
	.p2align	3, 0x0
.Lgcm_CPI18_5:
	.byte	0                               // 0x0
	.byte	0                               // 0x0
	.byte	0                               // 0x0
	.byte	0                               // 0x0
	.byte	0                               // 0x0
	.byte	0                               // 0x0
	.byte	0                               // 0x0
	.byte	3                               // 0x3
	.section	.text.gcm.gcm.mode.BorrowedGcm.put_tag,"ax",@progbits
	.p2align	2
	.type	gcm.gcm.mode.BorrowedGcm.put_tag,@function
gcm.gcm.mode.BorrowedGcm.put_tag: // @gcm.gcm.mode.BorrowedGcm.put_tag
// %bb.0:                               // %start
	sub	sp, sp, #160
	stp	x24, x23, [sp, #112]            // 16-byte Folded Spill
	mov	x24, x2
	mov	x2, x6
	stp	x29, x30, [sp, #80]             // 16-byte Folded Spill
	add	x29, sp, #80
	mov	x23, x3
	stp	x26, x25, [sp, #96]             // 16-byte Folded Spill
	stp	x22, x21, [sp, #128]            // 16-byte Folded Spill
	mov	x21, x5
	mov	x22, x0
	stp	x20, x19, [sp, #144]            // 16-byte Folded Spill
	mov	x19, x6
	mov	x20, x4
	bl	gcm.gcm.tags.put_mask
	ldr	x0, [x22, #32]
	mov	x2, xzr
	mov	x3, xzr
	mov	x4, x24
	mov	x5, x23
	bl	gcm.gcm.hash_room.MultiplesRoomHashRoom.hash_on
	lsl	x8, x21, #3
	dup	v0.2d, x23
	adrp	x9, .Lgcm_CPI18_0
	ldr	q1, [x9, :lo12:.Lgcm_CPI18_0]
	adrp	x9, .Lgcm_CPI18_2
	lsl	w23, w21, #3
	dup	v2.2d, x8
	adrp	x8, .Lgcm_CPI18_1
	ldr	x22, [x22, #32]
	ushl	v0.2d, v0.2d, v1.2d
	ldr	q1, [x9, :lo12:.Lgcm_CPI18_2]
	ldr	q5, [x8, :lo12:.Lgcm_CPI18_1]
	adrp	x8, .Lgcm_CPI18_3
	adrp	x9, .Lgcm_CPI18_4
	cmp	x21, #48
	ushl	v3.2d, v2.2d, v1.2d
	ldr	q6, [x8, :lo12:.Lgcm_CPI18_3]
	ldr	q7, [x9, :lo12:.Lgcm_CPI18_4]
	dup	v4.2d, v0.d[1]
	dup	v0.2d, v0.d[0]
	adrp	x9, .Lgcm_CPI18_5
	xtn	v3.2s, v3.2d
	ushl	v1.2d, v0.2d, v1.2d
	ushl	v0.2d, v0.2d, v5.2d
	ushl	v6.2d, v4.2d, v6.2d
	ushl	v4.2d, v4.2d, v7.2d
	mov	w8, v3.s[1]
	uzp1	v0.4s, v1.4s, v0.4s
	ushl	v1.2d, v2.2d, v5.2d
	uzp1	v4.4s, v4.4s, v6.4s
	dup	v2.2d, x21
	xtn	v1.2s, v1.2d
	mov	v3.b[1], w8
	ushl	v2.2d, v2.2d, v7.2d
	uzp1	v0.8h, v0.8h, v4.8h
	ldr	d4, [x9, :lo12:.Lgcm_CPI18_5]
	lsr	x9, x21, #5
	mov	w8, v1.s[1]
	xtn	v2.2s, v2.2d
	mov	v3.b[2], v1.b[0]
	xtn	v0.8b, v0.8h
	mov	v2.b[1], v2.b[4]
	mov	v3.b[3], w8
	mov	x8, #-6148914691236517206       // =0xaaaaaaaaaaaaaaaa
	ushl	v4.8b, v0.8b, v4.8b
	fmov	d0, x0
	movk	x8, #43691
	umulh	x8, x21, x8
	mov	v0.d[1], x1
	mov	v4.s[2], v3.s[0]
	lsr	x24, x8, #5
	rev64	v0.16b, v0.16b
	mov	v4.h[6], v2.h[0]
	ext	v2.16b, v0.16b, v0.16b, #8
	mov	v4.b[14], w9
	stur	q2, [x29, #-16]
	b.lo	.Lgcm_BB18_4
// %bb.1:                               // %join.5.i.i.i.i.preheader
	add	x25, x20, #32
	mov	x26, x24
	str	q4, [sp, #16]                   // 16-byte Spill
.Lgcm_BB18_2:                               // %join.5.i.i.i.i
                                        // =>This Inner Loop Header: Depth=1
	ldp	q2, q1, [x25, #-32]
	sub	x0, x29, #16
	ldur	q0, [x29, #-16]
	mov	x1, x22
	eor	v0.16b, v0.16b, v2.16b
	ldr	q2, [x25], #48
	bl	gcm.gcm.multiples.Multiples.three_products
	subs	x26, x26, #1
	b.ne	.Lgcm_BB18_2
// %bb.3:                               // %"gcm::hash::hash_string_and_end::<#4e0b07d5b1f54653>.exit.loopexit.i.i"
	ldur	q2, [x29, #-16]
	ldr	q4, [sp, #16]                   // 16-byte Reload
.Lgcm_BB18_4:                               // %"gcm::hash::hash_string_and_end::<#4e0b07d5b1f54653>.exit.i.i"
	add	x8, x24, x24, lsl #1
	mov	v4.b[15], w23
	stp	xzr, xzr, [sp, #32]
	lsl	x8, x8, #4
	subs	x2, x21, x8
	b.ne	.Lgcm_BB18_7
// %bb.5:                               // %then.1.i.i.i
	eor	v0.16b, v2.16b, v4.16b
.Lgcm_BB18_6:                               // %"gcm::tags::hash::<#84904cd934dcda78>.exit"
	add	x0, sp, #32
	mov	x1, x22
	bl	gcm.gcm.multiples.Multiples.block_product
	b	.Lgcm_BB18_15
.Lgcm_BB18_7:                               // %join.3.i.i.i
	cmp	x2, #16
	b.hi	.Lgcm_BB18_11
// %bb.8:                               // %then.4.i.i.i
	add	x1, x20, x8
	b.eq	.Lgcm_BB18_10
// %bb.9:                               // %join.3.i45.i.i.i
	sub	x0, x29, #16
	stp	xzr, xzr, [x29, #-16]
	stp	q2, q4, [sp]                    // 32-byte Folded Spill
	adrp	x16, :got:memcpy
	ldr	x16, [x16, :got_lo12:memcpy]
	blr	x16
	ldp	q2, q4, [sp]                    // 32-byte Folded Reload
	sub	x1, x29, #16
.Lgcm_BB18_10:                              // %"gcm::hash::zero_filled.exit.i.i.i"
	ldr	q0, [x1]
	mov	v1.16b, v4.16b
	add	x0, sp, #32
	mov	x1, x22
	eor	v0.16b, v0.16b, v2.16b
	bl	gcm.gcm.multiples.Multiples.two_products
	b	.Lgcm_BB18_15
.Lgcm_BB18_11:                              // %join.6.i.i.i
	cmp	x2, #32
	b.hi	.Lgcm_BB18_16
// %bb.12:                              // %then.7.i.i.i
	ldr	q0, [x20, x8]
	add	x8, x8, #16
	sub	x2, x21, x8
	add	x1, x20, x8
	eor	v0.16b, v0.16b, v2.16b
	cmp	x2, #16
	b.eq	.Lgcm_BB18_14
// %bb.13:                              // %join.3.i52.i.i.i
	sub	x0, x29, #16
	stp	xzr, xzr, [x29, #-16]
	stp	q0, q4, [sp]                    // 32-byte Folded Spill
	adrp	x16, :got:memcpy
	ldr	x16, [x16, :got_lo12:memcpy]
	blr	x16
	ldp	q0, q4, [sp]                    // 32-byte Folded Reload
	sub	x1, x29, #16
.Lgcm_BB18_14:                              // %"gcm::hash::zero_filled.exit103.i.i.i"
	mov	v2.16b, v4.16b
	ldr	q1, [x1]
	add	x0, sp, #32
	mov	x1, x22
	bl	gcm.gcm.multiples.Multiples.three_products
.Lgcm_BB18_15:                              // %"gcm::tags::hash::<#84904cd934dcda78>.exit"
	ldp	x9, x8, [sp, #32]
	ldr	q1, [x19]
	ldp	x22, x21, [sp, #128]            // 16-byte Folded Reload
	ldp	x24, x23, [sp, #112]            // 16-byte Folded Reload
	rev	x8, x8
	rev	x9, x9
	fmov	d0, x8
	ldp	x26, x25, [sp, #96]             // 16-byte Folded Reload
	ldp	x29, x30, [sp, #80]             // 16-byte Folded Reload
	mov	v0.d[1], x9
	rev64	v0.16b, v0.16b
	ext	v0.16b, v0.16b, v0.16b, #8
	eor	v0.16b, v1.16b, v0.16b
	str	q0, [x19]
	ldp	x20, x19, [sp, #144]            // 16-byte Folded Reload
	add	sp, sp, #160
	ret
.Lgcm_BB18_16:                              // %join.9.i.i.i.i
	add	x23, x20, x8
	add	x8, x8, #32
	str	q4, [sp, #16]                   // 16-byte Spill
	ldr	q0, [x23]
	sub	x2, x21, x8
	add	x1, x20, x8
	cmp	x2, #16
	stp	xzr, xzr, [x29, #-32]
	eor	v0.16b, v0.16b, v2.16b
	b.eq	.Lgcm_BB18_18
// %bb.17:                              // %join.3.i106.i.i.i
	sub	x0, x29, #16
	stp	xzr, xzr, [x29, #-16]
	str	q0, [sp]                        // 16-byte Spill
	adrp	x16, :got:memcpy
	ldr	x16, [x16, :got_lo12:memcpy]
	blr	x16
	ldr	q0, [sp]                        // 16-byte Reload
	sub	x1, x29, #16
.Lgcm_BB18_18:                              // %"gcm::hash::hash_last_group::<#4e0b07d5b1f54653>.exit.i.i.i"
	ldr	q2, [x1]
	ldr	q1, [x23, #16]
	sub	x0, x29, #32
	mov	x1, x22
	bl	gcm.gcm.multiples.Multiples.three_products
	ldur	q0, [x29, #-32]
	ldr	q1, [sp, #16]                   // 16-byte Reload
	eor	v0.16b, v0.16b, v1.16b
	b	.Lgcm_BB18_6
.Lgcm_func_end18:
	.size	gcm.gcm.mode.BorrowedGcm.put_tag, .Lgcm_func_end18-gcm.gcm.mode.BorrowedGcm.put_tag
                                        // -- End function
	.section	.text.gcm.aes_cipher.blocks.difference,"ax",@progbits
	.p2align	2                               // -- Begin function aes_cipher::blocks::difference
	.type	gcm.aes_cipher.blocks.difference,@function
gcm.aes_cipher.blocks.difference:       // @gcm.aes_cipher.blocks.difference
// %bb.0:                               // %start
	ldr	q0, [x0]
	ldr	q1, [x1]
	eor	v0.16b, v1.16b, v0.16b
	ext	v1.16b, v0.16b, v0.16b, #8
	orr	v0.8b, v0.8b, v1.8b
	fmov	x8, d0
	orr	x8, x8, x8, lsr #32
	lsr	x9, x8, #16
	orr	w8, w8, w9
	orr	w8, w8, w8, lsr #8
	and	w0, w8, #0xff
	ret
.Lgcm_func_end19:
	.size	gcm.aes_cipher.blocks.difference, .Lgcm_func_end19-gcm.aes_cipher.blocks.difference
                                        // -- End function
	.section	.text.gcm.gcm.gctr.add_gctr,"ax",@progbits
	.p2align	2                               // -- Begin function gcm::gctr::add_gctr::<#ed3b81e0963a9ab3>
	.type	gcm.gcm.gctr.add_gctr,@function
gcm.gcm.gctr.add_gctr: // @gcm.gcm.gctr.add_gctr
// %bb.0:                               // %start
	cbz	x4, .Lgcm_BB20_28
// %bb.1:                               // %then.1
	sub	sp, sp, #432
	stp	x24, x23, [sp, #384]            // 16-byte Folded Spill
	and	x23, x2, #0xf
	mov	w8, #16                         // =0x10
	ldr	q0, [x1]
	sub	x8, x8, x23
	stp	x22, x21, [sp, #400]            // 16-byte Folded Spill
	stp	x20, x19, [sp, #416]            // 16-byte Folded Spill
	mov	x20, x4
	mov	x19, x3
	mov	x22, x2
	mov	x21, x0
	cmp	x4, x8
	stp	x29, x30, [sp, #336]            // 16-byte Folded Spill
	add	x29, sp, #336
	stp	x28, x27, [sp, #352]            // 16-byte Folded Spill
	stp	x26, x25, [sp, #368]            // 16-byte Folded Spill
	str	q0, [sp, #16]
	b.ls	.Lgcm_BB20_4
// %bb.2:                               // %else.2.i
	add	x8, x20, x23
	add	x10, sp, #16
	stp	x19, x20, [sp, #48]
	lsr	x9, x8, #4
	tst	x8, #0xf
	stp	x10, x22, [sp, #32]
	cinc	x8, x9, ne
	cmp	x8, #8
	b.lo	.Lgcm_BB20_13
// %bb.3:                               // %then.1.i.i
	ldp	x0, x1, [x21]
	add	x4, sp, #32
	mov	x2, x0
	mov	x3, x1
	bl	gcm.aes_hybrid.closures.lend_planes.1
	b	.Lgcm_BB20_27
.Lgcm_BB20_4:                               // %then.1.i
	ldp	x10, x8, [sp, #16]
	add	x2, sp, #64
	ldp	x0, x1, [x21, #16]
	mov	w3, #1                          // =0x1
	add	x21, sp, #64
	rev	x8, x8
	add	x9, x8, x22, lsr #4
	and	x8, x8, #0xffffffff00000000
	mov	w9, w9
	orr	x8, x8, x9
	rev	x9, x10
	fmov	d0, x8
	mov	v0.d[1], x9
	rev64	v0.16b, v0.16b
	ext	v0.16b, v0.16b, v0.16b, #8
	str	q0, [sp, #64]
	bl	gcm.aes_permute.blocks.process_on_lanes
	cbz	x23, .Lgcm_BB20_15
// %bb.5:                               // %then.1.i.i.i
	mov	x8, xzr
	orr	x9, x21, x23
.Lgcm_BB20_6:                               // %join.8.i68.i.i
                                        // =>This Inner Loop Header: Depth=1
	ldrb	w10, [x9, x8]
	ldrb	w11, [x19, x8]
	eor	w10, w11, w10
	strb	w10, [x19, x8]
	add	x8, x8, #1
	cmp	x20, x8
	b.ne	.Lgcm_BB20_6
// %bb.7:
	mov	x9, x20
	sub	x8, x20, x20
	cmp	x8, #16
	b.lo	.Lgcm_BB20_9
.Lgcm_BB20_8:                               // %join.8.i.i.i
                                        // =>This Inner Loop Header: Depth=1
	add	x10, x23, x9
	add	x11, sp, #64
	ldr	q0, [x19, x9]
	and	x10, x10, #0xfffffffffffffff0
	sub	x8, x8, #16
	ldr	q1, [x11, x10]
	cmp	x8, #15
	eor	v0.16b, v1.16b, v0.16b
	str	q0, [x19, x9]
	add	x9, x9, #16
	b.hi	.Lgcm_BB20_8
.Lgcm_BB20_9:                               // %after.4.i.i.i
	cmp	x9, x20
	b.hs	.Lgcm_BB20_27
// %bb.10:                              // %then.9.i.i.i
	cbz	x8, .Lgcm_BB20_27
// %bb.11:                              // %iter.check
	add	x10, x9, x23
	cmp	x8, #8
	and	x10, x10, #0xfffffffffffffff0
	b.hs	.Lgcm_BB20_22
// %bb.12:
	mov	x11, xzr
	b	.Lgcm_BB20_25
.Lgcm_BB20_13:                              // %else.2.i.i
	cbz	x23, .Lgcm_BB20_16
// %bb.14:                              // %then.1.i.i10.i
	add	x1, sp, #16
	mov	x0, x21
	mov	x2, x22
	mov	x3, xzr
	mov	x4, x19
	mov	x5, x20
	bl	gcm.aes_ctr.add_in_batches.add_next.2
	mov	x3, x0
	sub	x8, x20, x0
	cmp	x8, #64
	b.hs	.Lgcm_BB20_17
	b	.Lgcm_BB20_20
.Lgcm_BB20_15:
	mov	x9, xzr
	sub	x8, x20, xzr
	cmp	x8, #16
	b.hs	.Lgcm_BB20_8
	b	.Lgcm_BB20_9
.Lgcm_BB20_16:
	mov	x3, xzr
	sub	x8, x20, xzr
	cmp	x8, #64
	b.lo	.Lgcm_BB20_20
.Lgcm_BB20_17:                              // %join.11.lr.ph.i.i.i
	ldp	x9, x8, [sp, #16]
	add	x24, sp, #64
	neg	x26, x3
	add	x28, x3, x22
	add	x23, x19, x3
	rev	x8, x8
	rev	x25, x9
	and	x27, x8, #0xffffffff00000000
	str	x8, [sp, #8]                    // 8-byte Spill
.Lgcm_BB20_18:                              // %join.11.i.i.i
                                        // =>This Inner Loop Header: Depth=1
	ldr	x8, [sp, #8]                    // 8-byte Reload
	movi	v0.2d, #0000000000000000
	add	x2, sp, #64
	ldp	x0, x1, [x21, #16]
	mov	w3, #4                          // =0x4
	add	x8, x8, x28, lsr #4
	mov	w9, w8
	add	w10, w8, #1
	stp	q0, q0, [x24, #64]
	orr	x9, x27, x9
	orr	x10, x27, x10
	stp	q0, q0, [x24, #96]
	fmov	d1, x9
	add	w9, w8, #2
	add	w8, w8, #3
	orr	x9, x27, x9
	orr	x8, x27, x8
	fmov	d2, x10
	fmov	d3, x9
	fmov	d4, x8
	stp	q0, q0, [x24, #128]
	mov	v1.d[1], x25
	stp	q0, q0, [x24, #160]
	mov	v2.d[1], x25
	stp	q0, q0, [x24, #192]
	mov	v3.d[1], x25
	mov	v4.d[1], x25
	stp	q0, q0, [x24, #224]
	rev64	v1.16b, v1.16b
	rev64	v2.16b, v2.16b
	rev64	v3.16b, v3.16b
	rev64	v4.16b, v4.16b
	ext	v1.16b, v1.16b, v1.16b, #8
	ext	v2.16b, v2.16b, v2.16b, #8
	ext	v3.16b, v3.16b, v3.16b, #8
	ext	v0.16b, v4.16b, v4.16b, #8
	stp	q1, q2, [sp, #64]
	stp	q3, q0, [sp, #96]
	bl	gcm.aes_permute.blocks.process_on_lanes
	ldp	q0, q3, [sp, #64]
	sub	x26, x26, #64
	ldp	q1, q2, [x23]
	add	x8, x20, x26
	cmp	x8, #63
	add	x28, x28, #64
	eor	v0.16b, v0.16b, v1.16b
	ldp	q1, q5, [x23, #32]
	eor	v2.16b, v3.16b, v2.16b
	ldp	q4, q3, [sp, #96]
	eor	v1.16b, v4.16b, v1.16b
	eor	v3.16b, v3.16b, v5.16b
	stp	q0, q2, [x23]
	stp	q1, q3, [x23, #32]
	add	x23, x23, #64
	b.hi	.Lgcm_BB20_18
// %bb.19:                              // %loop.13.preheader.i.i.i.loopexit
	neg	x3, x26
.Lgcm_BB20_20:                              // %loop.13.preheader.i.i.i
	cmp	x3, x20
	b.hs	.Lgcm_BB20_27
.Lgcm_BB20_21:                              // %join.16.i.i.i
                                        // =>This Inner Loop Header: Depth=1
	add	x1, sp, #16
	mov	x0, x21
	mov	x2, x22
	mov	x4, x19
	mov	x5, x20
	bl	gcm.aes_ctr.add_in_batches.add_next.2
	mov	x3, x0
	cmp	x0, x20
	b.lo	.Lgcm_BB20_21
	b	.Lgcm_BB20_27
.Lgcm_BB20_22:                              // %vec.epilog.ph
	add	x11, sp, #64
	add	x13, x19, x9
	and	x14, x8, #0x8
	add	x12, x11, x10
	and	x11, x8, #0x8
.Lgcm_BB20_23:                              // %vec.epilog.vector.body
                                        // =>This Inner Loop Header: Depth=1
	ldr	d0, [x12], #8
	ldr	d1, [x13]
	subs	x14, x14, #8
	eor	v0.8b, v1.8b, v0.8b
	str	d0, [x13], #8
	b.ne	.Lgcm_BB20_23
// %bb.24:                              // %vec.epilog.middle.block
	cmp	x8, x11
	b.eq	.Lgcm_BB20_27
.Lgcm_BB20_25:                              // %join.8.i11.i.i.preheader
	add	x9, x9, x11
	add	x10, x11, x10
	add	x12, sp, #64
	sub	x8, x8, x11
	add	x9, x19, x9
	add	x10, x12, x10
.Lgcm_BB20_26:                              // %join.8.i11.i.i
                                        // =>This Inner Loop Header: Depth=1
	ldrb	w11, [x10], #1
	ldrb	w12, [x9]
	subs	x8, x8, #1
	eor	w11, w12, w11
	strb	w11, [x9], #1
	b.ne	.Lgcm_BB20_26
.Lgcm_BB20_27:                              // %"aes_ctr::add_in_batches::add_stream::<#6c41d78f1cdff180>.exit"
	ldp	x20, x19, [sp, #416]            // 16-byte Folded Reload
	ldp	x22, x21, [sp, #400]            // 16-byte Folded Reload
	ldp	x24, x23, [sp, #384]            // 16-byte Folded Reload
	ldp	x26, x25, [sp, #368]            // 16-byte Folded Reload
	ldp	x28, x27, [sp, #352]            // 16-byte Folded Reload
	ldp	x29, x30, [sp, #336]            // 16-byte Folded Reload
	add	sp, sp, #432
.Lgcm_BB20_28:                              // %join.3
	ret
.Lgcm_func_end20:
	.size	gcm.gcm.gctr.add_gctr, .Lgcm_func_end20-gcm.gcm.gctr.add_gctr
                                        // -- End function
	.section	.text.gcm.aes_hybrid.batches.process_on_planes,"ax",@progbits
	.p2align	2                               // -- Begin function aes_hybrid::batches::process_on_planes::<#2a076538018b6fb3>
	.type	gcm.aes_hybrid.batches.process_on_planes,@function
gcm.aes_hybrid.batches.process_on_planes: // @gcm.aes_hybrid.batches.process_on_planes
// %bb.0:                               // %start
	stp	x29, x30, [sp, #-64]!           // 16-byte Folded Spill
	stp	x28, x23, [sp, #16]             // 16-byte Folded Spill
	mov	x29, sp
	stp	x22, x21, [sp, #32]             // 16-byte Folded Spill
	stp	x20, x19, [sp, #48]             // 16-byte Folded Spill
	sub	sp, sp, #1920
	mov	x8, sp
	mov	x20, x2
	mov	x21, x1
	mov	x22, x0
	add	x0, x8, #128
	mov	w1, wzr
	mov	w2, #1792                       // =0x700
	str	xzr, [sp]
	mov	x19, x3
	adrp	x16, :got:memset
	ldr	x16, [x16, :got_lo12:memset]
	blr	x16
	mov	x0, sp
	mov	x1, x22
	mov	x2, x21
	lsl	x23, x21, #3
	bl	gcm.aes_hybrid.plane_keys.store_planes
	mov	x0, sp
	mov	x1, x23
	mov	x2, x20
	mov	x3, x19
	bl	gcm.aes_hybrid.batches.process_batches_and_rest
	mov	x0, sp
	bl	gcm.aes_cipher.zeroize.zeroize_words
	bl	gcm.aes_cipher.zeroize.stack.wipe_stack.1792
	add	sp, sp, #1920
	ldp	x20, x19, [sp, #48]             // 16-byte Folded Reload
	ldp	x22, x21, [sp, #32]             // 16-byte Folded Reload
	ldp	x28, x23, [sp, #16]             // 16-byte Folded Reload
	ldp	x29, x30, [sp], #64             // 16-byte Folded Reload
	ret
.Lgcm_func_end21:
	.size	gcm.aes_hybrid.batches.process_on_planes, .Lgcm_func_end21-gcm.aes_hybrid.batches.process_on_planes
                                        // -- End function
	.section	.rodata.cst16,"aM",@progbits,16
	.p2align	4, 0x0                          // -- Begin function aes_hybrid::plane_keys::store_planes::<#fab3fa1ddd682008>
.Lgcm_CPI22_0:
	.byte	0                               // 0x0
	.byte	4                               // 0x4
	.byte	8                               // 0x8
	.byte	12                              // 0xc
	.byte	1                               // 0x1
	.byte	5                               // 0x5
	.byte	9                               // 0x9
	.byte	13                              // 0xd
	.byte	2                               // 0x2
	.byte	6                               // 0x6
	.byte	10                              // 0xa
	.byte	14                              // 0xe
	.byte	3                               // 0x3
	.byte	7                               // 0x7
	.byte	11                              // 0xb
	.byte	15                              // 0xf
.Lgcm_CPI22_1:
	.byte	0                               // 0x0
	.byte	1                               // 0x1
	.byte	92                              // 0x5c
	.byte	93                              // 0x5d
	.byte	224                             // 0xe0
	.byte	225                             // 0xe1
	.byte	188                             // 0xbc
	.byte	189                             // 0xbd
	.byte	80                              // 0x50
	.byte	81                              // 0x51
	.byte	12                              // 0xc
	.byte	13                              // 0xd
	.byte	176                             // 0xb0
	.byte	177                             // 0xb1
	.byte	236                             // 0xec
	.byte	237                             // 0xed
.Lgcm_CPI22_2:
	.byte	0                               // 0x0
	.byte	178                             // 0xb2
	.byte	181                             // 0xb5
	.byte	7                               // 0x7
	.byte	58                              // 0x3a
	.byte	136                             // 0x88
	.byte	143                             // 0x8f
	.byte	61                              // 0x3d
	.byte	172                             // 0xac
	.byte	30                              // 0x1e
	.byte	25                              // 0x19
	.byte	171                             // 0xab
	.byte	150                             // 0x96
	.byte	36                              // 0x24
	.byte	35                              // 0x23
	.byte	145                             // 0x91
	.section	.text.gcm.aes_hybrid.plane_keys.store_planes,"ax",@progbits
	.p2align	2
	.type	gcm.aes_hybrid.plane_keys.store_planes,@function
gcm.aes_hybrid.plane_keys.store_planes: // @gcm.aes_hybrid.plane_keys.store_planes
// %bb.0:                               // %start
	adrp	x8, .Lgcm_CPI22_0
	ldr	q1, [x1]
	movi	v6.16b, #4
	ldr	q0, [x8, :lo12:.Lgcm_CPI22_0]
	movi	v7.16b, #8
	movi	v4.16b, #16
	movi	v5.16b, #32
	movi	v2.16b, #2
	movi	v3.16b, #64
	tbl	v16.16b, { v1.16b }, v0.16b
	movi	v1.16b, #1
	sub	x8, x2, #1
	cmp	x8, #2
	cmtst	v17.16b, v16.16b, v6.16b
	cmtst	v18.16b, v16.16b, v7.16b
	and	v19.16b, v16.16b, v1.16b
	cmtst	v20.16b, v16.16b, v4.16b
	cmtst	v21.16b, v16.16b, v5.16b
	neg	v19.16b, v19.16b
	stp	q17, q18, [x0, #32]
	cmtst	v17.16b, v16.16b, v2.16b
	cmtst	v18.16b, v16.16b, v3.16b
	cmlt	v16.16b, v16.16b, #0
	stp	q20, q21, [x0, #64]
	stp	q19, q17, [x0]
	stp	q18, q16, [x0, #96]
	b.lo	.Lgcm_BB22_3
// %bb.1:                               // %join.5.lr.ph
	sub	x9, x2, #2
	add	x10, x1, #16
	add	x11, x0, #240
.Lgcm_BB22_2:                               // %join.5
                                        // =>This Inner Loop Header: Depth=1
	movi	v16.16b, #15
	ldr	q17, [x10], #16
	adrp	x12, .Lgcm_CPI22_1
	adrp	x13, .Lgcm_CPI22_2
	movi	v20.16b, #16
	ushr	v18.16b, v17.16b, #4
	ldr	q19, [x13, :lo12:.Lgcm_CPI22_2]
	movi	v21.16b, #32
	movi	v22.16b, #2
	movi	v23.16b, #64
	subs	x9, x9, #1
	and	v16.16b, v17.16b, v16.16b
	ldr	q17, [x12, :lo12:.Lgcm_CPI22_1]
	tbl	v18.16b, { v19.16b }, v18.16b
	movi	v19.16b, #1
	tbl	v16.16b, { v17.16b }, v16.16b
	movi	v17.16b, #4
	eor	v16.16b, v18.16b, v16.16b
	movi	v18.16b, #8
	tbl	v16.16b, { v16.16b }, v0.16b
	cmtst	v17.16b, v16.16b, v17.16b
	cmtst	v18.16b, v16.16b, v18.16b
	and	v19.16b, v16.16b, v19.16b
	cmtst	v20.16b, v16.16b, v20.16b
	cmtst	v21.16b, v16.16b, v21.16b
	neg	v19.16b, v19.16b
	stp	q17, q18, [x11, #-80]
	cmtst	v17.16b, v16.16b, v22.16b
	cmtst	v18.16b, v16.16b, v23.16b
	cmlt	v16.16b, v16.16b, #0
	stp	q20, q21, [x11, #-48]
	stp	q19, q17, [x11, #-112]
	stp	q18, q16, [x11, #-16]
	add	x11, x11, #128
	b.ne	.Lgcm_BB22_2
.Lgcm_BB22_3:                               // %after.1
	ldr	q16, [x1, x8, lsl #4]
	add	x8, x0, x8, lsl #7
	tbl	v0.16b, { v16.16b }, v0.16b
	and	v1.16b, v0.16b, v1.16b
	cmtst	v6.16b, v0.16b, v6.16b
	cmtst	v7.16b, v0.16b, v7.16b
	cmtst	v4.16b, v0.16b, v4.16b
	cmtst	v5.16b, v0.16b, v5.16b
	cmtst	v2.16b, v0.16b, v2.16b
	cmtst	v3.16b, v0.16b, v3.16b
	cmlt	v0.16b, v0.16b, #0
	neg	v1.16b, v1.16b
	stp	q6, q7, [x8, #32]
	stp	q4, q5, [x8, #64]
	stp	q1, q2, [x8]
	stp	q3, q0, [x8, #96]
	ret
.Lgcm_func_end22:
	.size	gcm.aes_hybrid.plane_keys.store_planes, .Lgcm_func_end22-gcm.aes_hybrid.plane_keys.store_planes
                                        // -- End function
	.section	.rodata.cst16,"aM",@progbits,16
	.p2align	4, 0x0                          // -- Begin function aes_hybrid::batches::process_batches_and_rest::<#2a076538018b6fb3>
.Lgcm_CPI23_0:
	.byte	0                               // 0x0
	.byte	4                               // 0x4
	.byte	8                               // 0x8
	.byte	12                              // 0xc
	.byte	1                               // 0x1
	.byte	5                               // 0x5
	.byte	9                               // 0x9
	.byte	13                              // 0xd
	.byte	2                               // 0x2
	.byte	6                               // 0x6
	.byte	10                              // 0xa
	.byte	14                              // 0xe
	.byte	3                               // 0x3
	.byte	7                               // 0x7
	.byte	11                              // 0xb
	.byte	15                              // 0xf
	.section	.text.gcm.aes_hybrid.batches.process_batches_and_rest,"ax",@progbits
	.p2align	2
	.type	gcm.aes_hybrid.batches.process_batches_and_rest,@function
gcm.aes_hybrid.batches.process_batches_and_rest: // @gcm.aes_hybrid.batches.process_batches_and_rest
// %bb.0:                               // %join.5.i.lr.ph
	sub	sp, sp, #224
	lsr	x8, x1, #3
	stp	x26, x25, [sp, #160]            // 16-byte Folded Spill
	mov	x25, xzr
	stp	x24, x23, [sp, #176]            // 16-byte Folded Spill
	and	x24, x3, #0x3ffffff8
	add	x26, x2, #64
	stp	x22, x21, [sp, #192]            // 16-byte Folded Spill
	mov	x22, x2
	mov	x21, x0
	stp	x20, x19, [sp, #208]            // 16-byte Folded Spill
	mov	x20, x3
	mov	x19, x1
	sub	x23, x8, #1
	stp	x29, x30, [sp, #144]            // 16-byte Folded Spill
	add	x29, sp, #144
.Lgcm_BB23_1:                               // %join.5.i
                                        // =>This Inner Loop Header: Depth=1
	adrp	x8, .Lgcm_CPI23_0
	ldp	q0, q3, [x26]
	ldp	q1, q2, [x26, #-64]
	movi	v21.16b, #85
	ldr	q18, [x8, :lo12:.Lgcm_CPI23_0]
	ldp	q4, q7, [x26, #32]
	add	x2, sp, #16
	mov	x0, x21
	mov	x1, x23
	tbl	v1.16b, { v1.16b }, v18.16b
	tbl	v5.16b, { v0.16b }, v18.16b
	tbl	v17.16b, { v3.16b }, v18.16b
	ldp	q0, q6, [x26, #-32]
	tbl	v4.16b, { v4.16b }, v18.16b
	tbl	v7.16b, { v7.16b }, v18.16b
	str	q18, [sp]                       // 16-byte Spill
	tbl	v16.16b, { v0.16b }, v18.16b
	tbl	v0.16b, { v2.16b }, v18.16b
	ushr	v2.16b, v1.16b, #1
	ushr	v3.16b, v5.16b, #1
	tbl	v6.16b, { v6.16b }, v18.16b
	ushr	v19.16b, v4.16b, #1
	ushr	v18.16b, v16.16b, #1
	eor	v2.16b, v0.16b, v2.16b
	eor	v3.16b, v17.16b, v3.16b
	eor	v19.16b, v7.16b, v19.16b
	eor	v18.16b, v6.16b, v18.16b
	and	v2.16b, v2.16b, v21.16b
	and	v20.16b, v3.16b, v21.16b
	and	v19.16b, v19.16b, v21.16b
	and	v18.16b, v18.16b, v21.16b
	add	v3.16b, v2.16b, v2.16b
	add	v21.16b, v20.16b, v20.16b
	add	v23.16b, v19.16b, v19.16b
	eor	v0.16b, v2.16b, v0.16b
	eor	v7.16b, v19.16b, v7.16b
	add	v22.16b, v18.16b, v18.16b
	eor	v3.16b, v3.16b, v1.16b
	eor	v2.16b, v21.16b, v5.16b
	eor	v1.16b, v20.16b, v17.16b
	eor	v5.16b, v18.16b, v6.16b
	eor	v4.16b, v23.16b, v4.16b
	movi	v20.16b, #51
	movi	v23.16b, #15
	eor	v6.16b, v22.16b, v16.16b
	ushr	v16.16b, v0.16b, #2
	ushr	v17.16b, v3.16b, #2
	ushr	v18.16b, v2.16b, #2
	ushr	v19.16b, v1.16b, #2
	eor	v16.16b, v5.16b, v16.16b
	eor	v17.16b, v6.16b, v17.16b
	eor	v18.16b, v4.16b, v18.16b
	eor	v19.16b, v7.16b, v19.16b
	and	v16.16b, v16.16b, v20.16b
	and	v17.16b, v17.16b, v20.16b
	and	v18.16b, v18.16b, v20.16b
	and	v19.16b, v19.16b, v20.16b
	eor	v5.16b, v16.16b, v5.16b
	eor	v6.16b, v17.16b, v6.16b
	shl	v17.16b, v17.16b, #2
	eor	v4.16b, v18.16b, v4.16b
	eor	v7.16b, v19.16b, v7.16b
	shl	v18.16b, v18.16b, #2
	shl	v16.16b, v16.16b, #2
	shl	v19.16b, v19.16b, #2
	ushr	v20.16b, v5.16b, #4
	ushr	v21.16b, v6.16b, #4
	eor	v3.16b, v17.16b, v3.16b
	and	v22.16b, v4.16b, v23.16b
	and	v17.16b, v7.16b, v23.16b
	eor	v2.16b, v18.16b, v2.16b
	eor	v0.16b, v16.16b, v0.16b
	eor	v1.16b, v19.16b, v1.16b
	ushr	v18.16b, v3.16b, #4
	eor	v16.16b, v22.16b, v21.16b
	eor	v17.16b, v17.16b, v20.16b
	and	v19.16b, v2.16b, v23.16b
	ushr	v20.16b, v0.16b, #4
	and	v21.16b, v1.16b, v23.16b
	eor	v18.16b, v19.16b, v18.16b
	shl	v19.16b, v17.16b, #4
	shl	v22.16b, v16.16b, #4
	eor	v20.16b, v21.16b, v20.16b
	eor	v5.16b, v19.16b, v5.16b
	shl	v19.16b, v18.16b, #4
	eor	v2.16b, v18.16b, v2.16b
	shl	v18.16b, v20.16b, #4
	eor	v1.16b, v20.16b, v1.16b
	eor	v6.16b, v22.16b, v6.16b
	eor	v3.16b, v19.16b, v3.16b
	eor	v0.16b, v18.16b, v0.16b
	stp	q6, q5, [sp, #48]
	stp	q2, q1, [sp, #80]
	eor	v2.16b, v16.16b, v4.16b
	eor	v1.16b, v17.16b, v7.16b
	stp	q3, q0, [sp, #16]
	stp	q2, q1, [sp, #112]
	bl	gcm.aes_soft.soft.ciphers.planes.EncryptPlaneCipher.process_planes
	ldp	q0, q4, [sp, #80]
	movi	v20.16b, #85
	ldp	q1, q2, [sp, #16]
	add	x25, x25, #8
	ldp	q3, q16, [sp, #48]
	cmp	x25, x24
	ushr	v6.16b, v0.16b, #1
	ldp	q7, q17, [sp, #112]
	ushr	v5.16b, v1.16b, #1
	ushr	v18.16b, v3.16b, #1
	ushr	v19.16b, v7.16b, #1
	eor	v6.16b, v4.16b, v6.16b
	eor	v5.16b, v2.16b, v5.16b
	eor	v18.16b, v16.16b, v18.16b
	eor	v19.16b, v17.16b, v19.16b
	and	v6.16b, v6.16b, v20.16b
	and	v5.16b, v5.16b, v20.16b
	and	v18.16b, v18.16b, v20.16b
	and	v19.16b, v19.16b, v20.16b
	add	v21.16b, v6.16b, v6.16b
	eor	v4.16b, v6.16b, v4.16b
	add	v20.16b, v5.16b, v5.16b
	eor	v2.16b, v5.16b, v2.16b
	add	v22.16b, v18.16b, v18.16b
	eor	v5.16b, v18.16b, v16.16b
	eor	v0.16b, v21.16b, v0.16b
	eor	v17.16b, v19.16b, v17.16b
	eor	v1.16b, v20.16b, v1.16b
	add	v20.16b, v19.16b, v19.16b
	ushr	v18.16b, v2.16b, #2
	ushr	v19.16b, v4.16b, #2
	eor	v3.16b, v22.16b, v3.16b
	movi	v22.16b, #15
	ushr	v16.16b, v0.16b, #2
	eor	v6.16b, v20.16b, v7.16b
	movi	v20.16b, #51
	eor	v18.16b, v5.16b, v18.16b
	eor	v19.16b, v17.16b, v19.16b
	ushr	v7.16b, v1.16b, #2
	eor	v16.16b, v6.16b, v16.16b
	and	v18.16b, v18.16b, v20.16b
	and	v19.16b, v19.16b, v20.16b
	eor	v7.16b, v3.16b, v7.16b
	and	v16.16b, v16.16b, v20.16b
	eor	v5.16b, v18.16b, v5.16b
	eor	v17.16b, v19.16b, v17.16b
	and	v7.16b, v7.16b, v20.16b
	shl	v18.16b, v18.16b, #2
	shl	v19.16b, v19.16b, #2
	eor	v6.16b, v16.16b, v6.16b
	shl	v16.16b, v16.16b, #2
	ushr	v21.16b, v5.16b, #4
	eor	v3.16b, v7.16b, v3.16b
	shl	v7.16b, v7.16b, #2
	eor	v2.16b, v18.16b, v2.16b
	eor	v4.16b, v19.16b, v4.16b
	eor	v0.16b, v16.16b, v0.16b
	and	v16.16b, v17.16b, v22.16b
	and	v20.16b, v6.16b, v22.16b
	eor	v1.16b, v7.16b, v1.16b
	ushr	v7.16b, v3.16b, #4
	eor	v16.16b, v16.16b, v21.16b
	movi	v21.16b, #15
	and	v19.16b, v0.16b, v22.16b
	eor	v7.16b, v20.16b, v7.16b
	ushr	v18.16b, v1.16b, #4
	ushr	v20.16b, v2.16b, #4
	and	v21.16b, v4.16b, v21.16b
	shl	v22.16b, v7.16b, #4
	eor	v18.16b, v19.16b, v18.16b
	shl	v19.16b, v16.16b, #4
	eor	v6.16b, v7.16b, v6.16b
	eor	v7.16b, v16.16b, v17.16b
	eor	v20.16b, v21.16b, v20.16b
	eor	v3.16b, v22.16b, v3.16b
	eor	v0.16b, v18.16b, v0.16b
	eor	v5.16b, v19.16b, v5.16b
	shl	v19.16b, v18.16b, #4
	eor	v4.16b, v20.16b, v4.16b
	shl	v18.16b, v20.16b, #4
	ldr	q20, [sp]                       // 16-byte Reload
	eor	v1.16b, v19.16b, v1.16b
	tbl	v3.16b, { v3.16b }, v20.16b
	tbl	v5.16b, { v5.16b }, v20.16b
	tbl	v0.16b, { v0.16b }, v20.16b
	tbl	v4.16b, { v4.16b }, v20.16b
	eor	v2.16b, v18.16b, v2.16b
	tbl	v1.16b, { v1.16b }, v20.16b
	stp	q3, q5, [x26, #-32]
	tbl	v2.16b, { v2.16b }, v20.16b
	tbl	v3.16b, { v6.16b }, v20.16b
	stp	q0, q4, [x26]
	tbl	v0.16b, { v7.16b }, v20.16b
	stp	q1, q2, [x26, #-64]
	stp	q3, q0, [x26, #32]
	add	x26, x26, #128
	b.lo	.Lgcm_BB23_1
// %bb.2:                               // %"aes_soft::soft::blocks::slices::process_batches_under::<#083782f7c613e34b>.exit"
	cmp	x24, x20
	b.ne	.Lgcm_BB23_4
// %bb.3:                               // %join.5
	ldp	x20, x19, [sp, #208]            // 16-byte Folded Reload
	ldp	x22, x21, [sp, #192]            // 16-byte Folded Reload
	ldp	x24, x23, [sp, #176]            // 16-byte Folded Reload
	ldp	x26, x25, [sp, #160]            // 16-byte Folded Reload
	ldp	x29, x30, [sp, #144]            // 16-byte Folded Reload
	add	sp, sp, #224
	ret
.Lgcm_BB23_4:                               // %then.3
	add	x2, x22, x24, lsl #4
	and	x3, x20, #0x7
	mov	x0, x21
	mov	x1, x19
	ldp	x20, x19, [sp, #208]            // 16-byte Folded Reload
	ldp	x22, x21, [sp, #192]            // 16-byte Folded Reload
	ldp	x24, x23, [sp, #176]            // 16-byte Folded Reload
	ldp	x26, x25, [sp, #160]            // 16-byte Folded Reload
	ldp	x29, x30, [sp, #144]            // 16-byte Folded Reload
	add	sp, sp, #224
	b	gcm.aes_soft.soft.blocks.filled_up.process_filled_up
.Lgcm_func_end23:
	.size	gcm.aes_hybrid.batches.process_batches_and_rest, .Lgcm_func_end23-gcm.aes_hybrid.batches.process_batches_and_rest
                                        // -- End function
	.section	.rodata.cst16,"aM",@progbits,16
	.p2align	4, 0x0                          // -- Begin function aes_soft::soft::ciphers::planes::process_outlined::<#bddb9db0bc69ed2a>
.Lgcm_CPI24_0:
	.byte	0                               // 0x0
	.byte	4                               // 0x4
	.byte	8                               // 0x8
	.byte	12                              // 0xc
	.byte	1                               // 0x1
	.byte	5                               // 0x5
	.byte	9                               // 0x9
	.byte	13                              // 0xd
	.byte	2                               // 0x2
	.byte	6                               // 0x6
	.byte	10                              // 0xa
	.byte	14                              // 0xe
	.byte	3                               // 0x3
	.byte	7                               // 0x7
	.byte	11                              // 0xb
	.byte	15                              // 0xf
	.section	.text.gcm.aes_soft.soft.ciphers.planes.process_outlined,"ax",@progbits
	.p2align	2
	.type	gcm.aes_soft.soft.ciphers.planes.process_outlined,@function
gcm.aes_soft.soft.ciphers.planes.process_outlined: // @gcm.aes_soft.soft.ciphers.planes.process_outlined
// %bb.0:                               // %start
	sub	sp, sp, #176
	adrp	x9, .Lgcm_CPI24_0
	ldp	q0, q2, [x3]
	ldp	q1, q3, [x3, #64]
	movi	v21.16b, #85
	ldr	q18, [x9, :lo12:.Lgcm_CPI24_0]
	ldp	q5, q6, [x3, #32]
	mov	x8, x2
	str	x19, [sp, #160]                 // 8-byte Spill
	mov	x19, x0
	tbl	v4.16b, { v0.16b }, v18.16b
	tbl	v1.16b, { v1.16b }, v18.16b
	tbl	v17.16b, { v3.16b }, v18.16b
	ldp	q0, q7, [x3, #96]
	tbl	v5.16b, { v5.16b }, v18.16b
	tbl	v6.16b, { v6.16b }, v18.16b
	str	q18, [sp]                       // 16-byte Spill
	add	x2, sp, #16
	mov	x0, x1
	mov	x1, x8
	stp	x29, x30, [sp, #144]            // 16-byte Folded Spill
	tbl	v16.16b, { v0.16b }, v18.16b
	tbl	v0.16b, { v2.16b }, v18.16b
	ushr	v2.16b, v4.16b, #1
	ushr	v3.16b, v1.16b, #1
	tbl	v7.16b, { v7.16b }, v18.16b
	ushr	v18.16b, v5.16b, #1
	add	x29, sp, #144
	ushr	v19.16b, v16.16b, #1
	eor	v2.16b, v0.16b, v2.16b
	eor	v3.16b, v17.16b, v3.16b
	eor	v18.16b, v6.16b, v18.16b
	eor	v19.16b, v7.16b, v19.16b
	and	v2.16b, v2.16b, v21.16b
	and	v20.16b, v3.16b, v21.16b
	and	v18.16b, v18.16b, v21.16b
	and	v19.16b, v19.16b, v21.16b
	add	v3.16b, v2.16b, v2.16b
	add	v21.16b, v20.16b, v20.16b
	add	v22.16b, v18.16b, v18.16b
	eor	v0.16b, v2.16b, v0.16b
	add	v23.16b, v19.16b, v19.16b
	eor	v3.16b, v3.16b, v4.16b
	eor	v2.16b, v21.16b, v1.16b
	eor	v1.16b, v20.16b, v17.16b
	eor	v4.16b, v18.16b, v6.16b
	eor	v5.16b, v22.16b, v5.16b
	eor	v7.16b, v19.16b, v7.16b
	movi	v20.16b, #51
	eor	v6.16b, v23.16b, v16.16b
	ushr	v16.16b, v0.16b, #2
	ushr	v17.16b, v3.16b, #2
	ushr	v18.16b, v2.16b, #2
	ushr	v19.16b, v1.16b, #2
	movi	v23.16b, #15
	eor	v16.16b, v4.16b, v16.16b
	eor	v17.16b, v5.16b, v17.16b
	eor	v18.16b, v6.16b, v18.16b
	eor	v19.16b, v7.16b, v19.16b
	and	v16.16b, v16.16b, v20.16b
	and	v17.16b, v17.16b, v20.16b
	and	v18.16b, v18.16b, v20.16b
	and	v19.16b, v19.16b, v20.16b
	eor	v4.16b, v16.16b, v4.16b
	eor	v5.16b, v17.16b, v5.16b
	shl	v17.16b, v17.16b, #2
	eor	v6.16b, v18.16b, v6.16b
	eor	v7.16b, v19.16b, v7.16b
	shl	v18.16b, v18.16b, #2
	shl	v16.16b, v16.16b, #2
	shl	v19.16b, v19.16b, #2
	ushr	v20.16b, v4.16b, #4
	ushr	v21.16b, v5.16b, #4
	eor	v3.16b, v17.16b, v3.16b
	and	v22.16b, v6.16b, v23.16b
	and	v17.16b, v7.16b, v23.16b
	eor	v2.16b, v18.16b, v2.16b
	eor	v0.16b, v16.16b, v0.16b
	eor	v1.16b, v19.16b, v1.16b
	ushr	v18.16b, v3.16b, #4
	eor	v16.16b, v22.16b, v21.16b
	eor	v17.16b, v17.16b, v20.16b
	and	v19.16b, v2.16b, v23.16b
	ushr	v20.16b, v0.16b, #4
	and	v21.16b, v1.16b, v23.16b
	eor	v18.16b, v19.16b, v18.16b
	shl	v19.16b, v17.16b, #4
	shl	v22.16b, v16.16b, #4
	eor	v20.16b, v21.16b, v20.16b
	eor	v4.16b, v19.16b, v4.16b
	shl	v19.16b, v18.16b, #4
	eor	v2.16b, v18.16b, v2.16b
	shl	v18.16b, v20.16b, #4
	eor	v1.16b, v20.16b, v1.16b
	eor	v5.16b, v22.16b, v5.16b
	eor	v3.16b, v19.16b, v3.16b
	eor	v0.16b, v18.16b, v0.16b
	stp	q5, q4, [sp, #48]
	stp	q2, q1, [sp, #80]
	eor	v2.16b, v16.16b, v6.16b
	eor	v1.16b, v17.16b, v7.16b
	stp	q3, q0, [sp, #16]
	stp	q2, q1, [sp, #112]
	bl	gcm.aes_soft.soft.ciphers.planes.EncryptPlaneCipher.process_planes
	ldp	q0, q4, [sp, #80]
	movi	v20.16b, #85
	ldp	q1, q2, [sp, #16]
	ldp	q3, q16, [sp, #48]
	ushr	v6.16b, v0.16b, #1
	ldp	q7, q17, [sp, #112]
	ushr	v5.16b, v1.16b, #1
	ldp	x29, x30, [sp, #144]            // 16-byte Folded Reload
	ushr	v18.16b, v3.16b, #1
	ushr	v19.16b, v7.16b, #1
	eor	v6.16b, v4.16b, v6.16b
	eor	v5.16b, v2.16b, v5.16b
	eor	v18.16b, v16.16b, v18.16b
	eor	v19.16b, v17.16b, v19.16b
	and	v6.16b, v6.16b, v20.16b
	and	v5.16b, v5.16b, v20.16b
	and	v18.16b, v18.16b, v20.16b
	and	v19.16b, v19.16b, v20.16b
	add	v21.16b, v6.16b, v6.16b
	eor	v4.16b, v6.16b, v4.16b
	add	v20.16b, v5.16b, v5.16b
	eor	v2.16b, v5.16b, v2.16b
	add	v22.16b, v18.16b, v18.16b
	eor	v5.16b, v18.16b, v16.16b
	eor	v0.16b, v21.16b, v0.16b
	eor	v17.16b, v19.16b, v17.16b
	eor	v1.16b, v20.16b, v1.16b
	add	v20.16b, v19.16b, v19.16b
	ushr	v18.16b, v2.16b, #2
	ushr	v19.16b, v4.16b, #2
	eor	v3.16b, v22.16b, v3.16b
	movi	v22.16b, #15
	ushr	v16.16b, v0.16b, #2
	eor	v6.16b, v20.16b, v7.16b
	movi	v20.16b, #51
	eor	v18.16b, v5.16b, v18.16b
	eor	v19.16b, v17.16b, v19.16b
	ushr	v7.16b, v1.16b, #2
	eor	v16.16b, v6.16b, v16.16b
	and	v18.16b, v18.16b, v20.16b
	and	v19.16b, v19.16b, v20.16b
	eor	v7.16b, v3.16b, v7.16b
	and	v16.16b, v16.16b, v20.16b
	eor	v5.16b, v18.16b, v5.16b
	eor	v17.16b, v19.16b, v17.16b
	and	v7.16b, v7.16b, v20.16b
	shl	v18.16b, v18.16b, #2
	shl	v19.16b, v19.16b, #2
	eor	v6.16b, v16.16b, v6.16b
	shl	v16.16b, v16.16b, #2
	ushr	v21.16b, v5.16b, #4
	eor	v3.16b, v7.16b, v3.16b
	shl	v7.16b, v7.16b, #2
	eor	v2.16b, v18.16b, v2.16b
	eor	v4.16b, v19.16b, v4.16b
	eor	v0.16b, v16.16b, v0.16b
	and	v16.16b, v17.16b, v22.16b
	and	v20.16b, v6.16b, v22.16b
	eor	v1.16b, v7.16b, v1.16b
	ushr	v7.16b, v3.16b, #4
	eor	v16.16b, v16.16b, v21.16b
	movi	v21.16b, #15
	and	v19.16b, v0.16b, v22.16b
	eor	v7.16b, v20.16b, v7.16b
	ushr	v18.16b, v1.16b, #4
	ushr	v20.16b, v2.16b, #4
	and	v21.16b, v4.16b, v21.16b
	shl	v22.16b, v7.16b, #4
	eor	v18.16b, v19.16b, v18.16b
	shl	v19.16b, v16.16b, #4
	eor	v6.16b, v7.16b, v6.16b
	eor	v7.16b, v16.16b, v17.16b
	eor	v20.16b, v21.16b, v20.16b
	eor	v3.16b, v22.16b, v3.16b
	eor	v0.16b, v18.16b, v0.16b
	eor	v5.16b, v19.16b, v5.16b
	shl	v19.16b, v18.16b, #4
	eor	v4.16b, v20.16b, v4.16b
	shl	v18.16b, v20.16b, #4
	ldr	q20, [sp]                       // 16-byte Reload
	eor	v1.16b, v19.16b, v1.16b
	tbl	v3.16b, { v3.16b }, v20.16b
	tbl	v5.16b, { v5.16b }, v20.16b
	tbl	v0.16b, { v0.16b }, v20.16b
	tbl	v4.16b, { v4.16b }, v20.16b
	eor	v2.16b, v18.16b, v2.16b
	tbl	v1.16b, { v1.16b }, v20.16b
	stp	q3, q5, [x19, #32]
	tbl	v2.16b, { v2.16b }, v20.16b
	tbl	v3.16b, { v6.16b }, v20.16b
	stp	q0, q4, [x19, #64]
	tbl	v0.16b, { v7.16b }, v20.16b
	stp	q1, q2, [x19]
	stp	q3, q0, [x19, #96]
	ldr	x19, [sp, #160]                 // 8-byte Reload
	add	sp, sp, #176
	ret
.Lgcm_func_end24:
	.size	gcm.aes_soft.soft.ciphers.planes.process_outlined, .Lgcm_func_end24-gcm.aes_soft.soft.ciphers.planes.process_outlined
                                        // -- End function
	.section	.rodata.cst16,"aM",@progbits,16
	.p2align	4, 0x0                          // -- Begin function aes_soft::soft::ciphers::planes::EncryptPlaneCipher::process_planes::<#eab796f82dda8b4f>
.Lgcm_CPI25_0:
	.byte	5                               // 0x5
	.byte	6                               // 0x6
	.byte	7                               // 0x7
	.byte	4                               // 0x4
	.byte	9                               // 0x9
	.byte	10                              // 0xa
	.byte	11                              // 0xb
	.byte	8                               // 0x8
	.byte	13                              // 0xd
	.byte	14                              // 0xe
	.byte	15                              // 0xf
	.byte	12                              // 0xc
	.byte	1                               // 0x1
	.byte	2                               // 0x2
	.byte	3                               // 0x3
	.byte	0                               // 0x0
.Lgcm_CPI25_1:
	.byte	10                              // 0xa
	.byte	11                              // 0xb
	.byte	8                               // 0x8
	.byte	9                               // 0x9
	.byte	14                              // 0xe
	.byte	15                              // 0xf
	.byte	12                              // 0xc
	.byte	13                              // 0xd
	.byte	2                               // 0x2
	.byte	3                               // 0x3
	.byte	0                               // 0x0
	.byte	1                               // 0x1
	.byte	6                               // 0x6
	.byte	7                               // 0x7
	.byte	4                               // 0x4
	.byte	5                               // 0x5
.Lgcm_CPI25_2:
	.byte	6                               // 0x6
	.byte	7                               // 0x7
	.byte	4                               // 0x4
	.byte	5                               // 0x5
	.byte	10                              // 0xa
	.byte	11                              // 0xb
	.byte	8                               // 0x8
	.byte	9                               // 0x9
	.byte	14                              // 0xe
	.byte	15                              // 0xf
	.byte	12                              // 0xc
	.byte	13                              // 0xd
	.byte	2                               // 0x2
	.byte	3                               // 0x3
	.byte	0                               // 0x0
	.byte	1                               // 0x1
.Lgcm_CPI25_3:
	.byte	7                               // 0x7
	.byte	4                               // 0x4
	.byte	5                               // 0x5
	.byte	6                               // 0x6
	.byte	11                              // 0xb
	.byte	8                               // 0x8
	.byte	9                               // 0x9
	.byte	10                              // 0xa
	.byte	15                              // 0xf
	.byte	12                              // 0xc
	.byte	13                              // 0xd
	.byte	14                              // 0xe
	.byte	3                               // 0x3
	.byte	0                               // 0x0
	.byte	1                               // 0x1
	.byte	2                               // 0x2
.Lgcm_CPI25_4:
	.byte	2                               // 0x2
	.byte	3                               // 0x3
	.byte	4                               // 0x4
	.byte	5                               // 0x5
	.byte	6                               // 0x6
	.byte	7                               // 0x7
	.byte	8                               // 0x8
	.byte	9                               // 0x9
	.byte	10                              // 0xa
	.byte	11                              // 0xb
	.byte	12                              // 0xc
	.byte	13                              // 0xd
	.byte	14                              // 0xe
	.byte	15                              // 0xf
	.byte	255                             // 0xff
	.byte	255                             // 0xff
.Lgcm_CPI25_5:
	.byte	255                             // 0xff
	.byte	255                             // 0xff
	.byte	0                               // 0x0
	.byte	1                               // 0x1
	.byte	2                               // 0x2
	.byte	3                               // 0x3
	.byte	4                               // 0x4
	.byte	5                               // 0x5
	.byte	6                               // 0x6
	.byte	7                               // 0x7
	.byte	8                               // 0x8
	.byte	9                               // 0x9
	.byte	10                              // 0xa
	.byte	11                              // 0xb
	.byte	12                              // 0xc
	.byte	13                              // 0xd
	.section	.text.gcm.aes_soft.soft.ciphers.planes.EncryptPlaneCipher.process_planes,"ax",@progbits
	.p2align	2
	.type	gcm.aes_soft.soft.ciphers.planes.EncryptPlaneCipher.process_planes,@function
gcm.aes_soft.soft.ciphers.planes.EncryptPlaneCipher.process_planes: // @gcm.aes_soft.soft.ciphers.planes.EncryptPlaneCipher.process_planes
// %bb.0:                               // %start
	str	d12, [sp, #-48]!                // 8-byte Folded Spill
	ldp	q0, q1, [x2]
	sub	x9, x1, #2
	ldp	q3, q4, [x0]
	lsr	x13, x9, #2
	ldp	q2, q5, [x2, #32]
	adrp	x12, .Lgcm_CPI25_0
	ldp	q6, q7, [x2, #64]
	adrp	x11, .Lgcm_CPI25_1
	ldp	q16, q20, [x2, #96]
	eor	v4.16b, v4.16b, v1.16b
	ldp	q17, q18, [x0, #32]
	eor	v0.16b, v3.16b, v0.16b
	ldp	q19, q21, [x0, #64]
	adrp	x10, .Lgcm_CPI25_2
	ldp	q1, q22, [x0, #96]
	adrp	x8, .Lgcm_CPI25_3
	eor	v3.16b, v17.16b, v2.16b
	eor	v17.16b, v18.16b, v5.16b
	stp	d11, d10, [sp, #16]             // 16-byte Folded Spill
	eor	v5.16b, v19.16b, v6.16b
	eor	v19.16b, v21.16b, v7.16b
	stp	d9, d8, [sp, #32]               // 16-byte Folded Spill
	eor	v18.16b, v1.16b, v16.16b
	eor	v1.16b, v22.16b, v20.16b
	cbz	x13, .Lgcm_BB25_3
// %bb.1:                               // %join.7.preheader
	add	x14, x0, #320
.Lgcm_BB25_2:                               // %join.7
                                        // =>This Inner Loop Header: Depth=1
	eor	v6.16b, v4.16b, v1.16b
	eor	v16.16b, v3.16b, v5.16b
	subs	x13, x13, #1
	eor	v20.16b, v19.16b, v18.16b
	eor	v2.16b, v6.16b, v16.16b
	eor	v19.16b, v0.16b, v20.16b
	eor	v7.16b, v2.16b, v17.16b
	eor	v17.16b, v5.16b, v1.16b
	eor	v27.16b, v7.16b, v18.16b
	eor	v24.16b, v7.16b, v3.16b
	eor	v18.16b, v19.16b, v4.16b
	eor	v4.16b, v3.16b, v1.16b
	eor	v3.16b, v19.16b, v5.16b
	eor	v5.16b, v19.16b, v1.16b
	eor	v7.16b, v27.16b, v17.16b
	eor	v22.16b, v24.16b, v20.16b
	and	v28.16b, v18.16b, v19.16b
	and	v29.16b, v3.16b, v0.16b
	eor	v21.16b, v24.16b, v0.16b
	and	v30.16b, v24.16b, v2.16b
	eor	v25.16b, v7.16b, v20.16b
	eor	v20.16b, v18.16b, v4.16b
	eor	v23.16b, v7.16b, v22.16b
	eor	v26.16b, v7.16b, v0.16b
	eor	v29.16b, v29.16b, v4.16b
	and	v8.16b, v7.16b, v17.16b
	eor	v27.16b, v27.16b, v30.16b
	and	v12.16b, v22.16b, v4.16b
	and	v31.16b, v25.16b, v6.16b
	eor	v28.16b, v25.16b, v28.16b
	and	v9.16b, v21.16b, v20.16b
	and	v10.16b, v23.16b, v16.16b
	and	v11.16b, v26.16b, v5.16b
	eor	v29.16b, v29.16b, v22.16b
	eor	v28.16b, v28.16b, v31.16b
	eor	v27.16b, v27.16b, v9.16b
	eor	v1.16b, v31.16b, v1.16b
	eor	v9.16b, v10.16b, v8.16b
	eor	v10.16b, v25.16b, v11.16b
	eor	v31.16b, v12.16b, v8.16b
	eor	v29.16b, v29.16b, v30.16b
	eor	v28.16b, v28.16b, v6.16b
	eor	v27.16b, v27.16b, v9.16b
	eor	v1.16b, v10.16b, v1.16b
	eor	v30.16b, v28.16b, v9.16b
	eor	v28.16b, v29.16b, v31.16b
	eor	v1.16b, v1.16b, v31.16b
	and	v29.16b, v30.16b, v27.16b
	eor	v31.16b, v1.16b, v30.16b
	eor	v8.16b, v29.16b, v28.16b
	eor	v9.16b, v29.16b, v1.16b
	and	v31.16b, v8.16b, v31.16b
	eor	v8.16b, v27.16b, v28.16b
	eor	v27.16b, v31.16b, v29.16b
	and	v29.16b, v9.16b, v8.16b
	and	v10.16b, v27.16b, v1.16b
	eor	v27.16b, v29.16b, v28.16b
	eor	v28.16b, v31.16b, v1.16b
	eor	v9.16b, v10.16b, v9.16b
	eor	v29.16b, v10.16b, v30.16b
	and	v0.16b, v28.16b, v0.16b
	eor	v31.16b, v27.16b, v28.16b
	and	v26.16b, v27.16b, v26.16b
	and	v3.16b, v28.16b, v3.16b
	and	v5.16b, v27.16b, v5.16b
	and	v1.16b, v9.16b, v27.16b
	eor	v30.16b, v29.16b, v28.16b
	and	v24.16b, v29.16b, v24.16b
	and	v17.16b, v31.16b, v17.16b
	and	v7.16b, v31.16b, v7.16b
	and	v2.16b, v29.16b, v2.16b
	eor	v1.16b, v1.16b, v8.16b
	eor	v0.16b, v24.16b, v0.16b
	and	v21.16b, v30.16b, v21.16b
	and	v20.16b, v30.16b, v20.16b
	eor	v8.16b, v1.16b, v30.16b
	eor	v9.16b, v1.16b, v27.16b
	and	v19.16b, v1.16b, v19.16b
	eor	v26.16b, v0.16b, v26.16b
	and	v18.16b, v1.16b, v18.16b
	eor	v21.16b, v21.16b, v24.16b
	eor	v10.16b, v8.16b, v31.16b
	and	v25.16b, v9.16b, v25.16b
	and	v22.16b, v8.16b, v22.16b
	and	v6.16b, v9.16b, v6.16b
	and	v4.16b, v8.16b, v4.16b
	ldur	q8, [x14, #-80]
	ldp	q29, q31, [x14, #-112]
	and	v16.16b, v10.16b, v16.16b
	eor	v19.16b, v25.16b, v19.16b
	and	v23.16b, v10.16b, v23.16b
	eor	v1.16b, v26.16b, v25.16b
	eor	v0.16b, v22.16b, v0.16b
	eor	v4.16b, v4.16b, v17.16b
	eor	v16.16b, v16.16b, v17.16b
	eor	v22.16b, v19.16b, v23.16b
	eor	v18.16b, v1.16b, v18.16b
	eor	v0.16b, v0.16b, v6.16b
	eor	v20.16b, v16.16b, v20.16b
	eor	v7.16b, v22.16b, v7.16b
	eor	v16.16b, v18.16b, v16.16b
	eor	v17.16b, v0.16b, v22.16b
	eor	v18.16b, v21.16b, v19.16b
	ldr	q19, [x12, :lo12:.Lgcm_CPI25_0]
	ldp	q22, q28, [x14, #-144]
	eor	v2.16b, v20.16b, v2.16b
	eor	v3.16b, v20.16b, v3.16b
	eor	v4.16b, v4.16b, v7.16b
	eor	v5.16b, v17.16b, v5.16b
	eor	v17.16b, v16.16b, v17.16b
	eor	v6.16b, v16.16b, v6.16b
	ldr	q0, [x11, :lo12:.Lgcm_CPI25_1]
	eor	v16.16b, v18.16b, v2.16b
	eor	v20.16b, v2.16b, v7.16b
	eor	v23.16b, v3.16b, v5.16b
	tbl	v24.16b, { v17.16b }, v19.16b
	eor	v5.16b, v4.16b, v5.16b
	tbl	v2.16b, { v6.16b }, v19.16b
	ldp	q18, q21, [x14, #-176]
	eor	v7.16b, v16.16b, v7.16b
	eor	v25.16b, v16.16b, v1.16b
	tbl	v26.16b, { v16.16b }, v19.16b
	tbl	v27.16b, { v20.16b }, v19.16b
	tbl	v30.16b, { v23.16b }, v19.16b
	tbl	v9.16b, { v5.16b }, v19.16b
	eor	v17.16b, v24.16b, v17.16b
	eor	v18.16b, v18.16b, v24.16b
	tbl	v4.16b, { v25.16b }, v19.16b
	tbl	v19.16b, { v7.16b }, v19.16b
	eor	v1.16b, v2.16b, v6.16b
	eor	v6.16b, v28.16b, v26.16b
	eor	v16.16b, v26.16b, v16.16b
	eor	v3.16b, v27.16b, v20.16b
	eor	v20.16b, v30.16b, v23.16b
	tbl	v23.16b, { v17.16b }, v0.16b
	eor	v21.16b, v21.16b, v30.16b
	eor	v24.16b, v8.16b, v27.16b
	eor	v5.16b, v9.16b, v5.16b
	eor	v25.16b, v4.16b, v25.16b
	eor	v7.16b, v19.16b, v7.16b
	tbl	v27.16b, { v16.16b }, v0.16b
	eor	v6.16b, v6.16b, v3.16b
	tbl	v26.16b, { v20.16b }, v0.16b
	tbl	v28.16b, { v3.16b }, v0.16b
	eor	v18.16b, v18.16b, v3.16b
	eor	v22.16b, v22.16b, v3.16b
	eor	v23.16b, v23.16b, v1.16b
	eor	v17.16b, v21.16b, v17.16b
	eor	v21.16b, v24.16b, v7.16b
	eor	v29.16b, v29.16b, v9.16b
	eor	v6.16b, v6.16b, v25.16b
	eor	v19.16b, v31.16b, v19.16b
	ldur	q24, [x14, #-192]
	eor	v20.16b, v22.16b, v20.16b
	eor	v22.16b, v23.16b, v18.16b
	tbl	v18.16b, { v25.16b }, v0.16b
	eor	v26.16b, v26.16b, v17.16b
	tbl	v17.16b, { v5.16b }, v0.16b
	tbl	v7.16b, { v7.16b }, v0.16b
	eor	v6.16b, v27.16b, v6.16b
	eor	v27.16b, v28.16b, v21.16b
	eor	v2.16b, v24.16b, v2.16b
	eor	v16.16b, v29.16b, v16.16b
	eor	v19.16b, v19.16b, v5.16b
	eor	v20.16b, v20.16b, v4.16b
	tbl	v21.16b, { v1.16b }, v0.16b
	eor	v4.16b, v27.16b, v22.16b
	eor	v5.16b, v6.16b, v26.16b
	eor	v2.16b, v2.16b, v3.16b
	eor	v3.16b, v17.16b, v16.16b
	eor	v7.16b, v7.16b, v19.16b
	eor	v16.16b, v18.16b, v20.16b
	eor	v1.16b, v4.16b, v5.16b
	eor	v25.16b, v21.16b, v2.16b
	eor	v19.16b, v3.16b, v7.16b
	eor	v3.16b, v27.16b, v26.16b
	eor	v2.16b, v16.16b, v1.16b
	eor	v16.16b, v27.16b, v6.16b
	eor	v18.16b, v19.16b, v25.16b
	eor	v28.16b, v2.16b, v7.16b
	eor	v23.16b, v2.16b, v26.16b
	eor	v17.16b, v18.16b, v22.16b
	eor	v2.16b, v18.16b, v6.16b
	eor	v6.16b, v18.16b, v27.16b
	eor	v7.16b, v28.16b, v16.16b
	eor	v21.16b, v23.16b, v19.16b
	eor	v20.16b, v23.16b, v25.16b
	and	v29.16b, v17.16b, v18.16b
	and	v30.16b, v23.16b, v1.16b
	and	v8.16b, v2.16b, v25.16b
	eor	v24.16b, v7.16b, v19.16b
	eor	v19.16b, v17.16b, v3.16b
	eor	v22.16b, v7.16b, v21.16b
	eor	v26.16b, v7.16b, v25.16b
	eor	v28.16b, v28.16b, v30.16b
	and	v10.16b, v7.16b, v16.16b
	eor	v8.16b, v8.16b, v3.16b
	eor	v30.16b, v21.16b, v30.16b
	and	v31.16b, v24.16b, v4.16b
	eor	v29.16b, v24.16b, v29.16b
	and	v9.16b, v20.16b, v19.16b
	and	v11.16b, v22.16b, v5.16b
	and	v12.16b, v26.16b, v6.16b
	eor	v30.16b, v8.16b, v30.16b
	eor	v29.16b, v29.16b, v31.16b
	eor	v28.16b, v28.16b, v9.16b
	and	v9.16b, v21.16b, v3.16b
	eor	v11.16b, v11.16b, v10.16b
	eor	v12.16b, v24.16b, v12.16b
	eor	v27.16b, v31.16b, v27.16b
	eor	v29.16b, v29.16b, v4.16b
	eor	v31.16b, v9.16b, v10.16b
	eor	v28.16b, v28.16b, v11.16b
	eor	v27.16b, v12.16b, v27.16b
	eor	v29.16b, v29.16b, v11.16b
	eor	v30.16b, v30.16b, v31.16b
	eor	v31.16b, v27.16b, v31.16b
	and	v27.16b, v29.16b, v28.16b
	eor	v8.16b, v31.16b, v29.16b
	eor	v9.16b, v27.16b, v30.16b
	and	v8.16b, v9.16b, v8.16b
	eor	v9.16b, v28.16b, v30.16b
	eor	v28.16b, v27.16b, v31.16b
	eor	v27.16b, v8.16b, v27.16b
	and	v10.16b, v28.16b, v9.16b
	and	v11.16b, v27.16b, v31.16b
	eor	v27.16b, v10.16b, v30.16b
	eor	v30.16b, v11.16b, v28.16b
	eor	v28.16b, v8.16b, v31.16b
	eor	v29.16b, v11.16b, v29.16b
	and	v26.16b, v27.16b, v26.16b
	and	v6.16b, v27.16b, v6.16b
	and	v30.16b, v30.16b, v27.16b
	eor	v31.16b, v29.16b, v28.16b
	and	v25.16b, v28.16b, v25.16b
	and	v23.16b, v29.16b, v23.16b
	eor	v8.16b, v27.16b, v28.16b
	and	v1.16b, v29.16b, v1.16b
	and	v2.16b, v28.16b, v2.16b
	eor	v30.16b, v30.16b, v9.16b
	and	v20.16b, v31.16b, v20.16b
	and	v19.16b, v31.16b, v19.16b
	eor	v25.16b, v23.16b, v25.16b
	and	v16.16b, v8.16b, v16.16b
	and	v7.16b, v8.16b, v7.16b
	eor	v9.16b, v30.16b, v31.16b
	eor	v10.16b, v30.16b, v27.16b
	and	v18.16b, v30.16b, v18.16b
	eor	v26.16b, v25.16b, v26.16b
	and	v17.16b, v30.16b, v17.16b
	eor	v20.16b, v20.16b, v23.16b
	ldp	q23, q28, [x14, #-16]
	eor	v11.16b, v9.16b, v8.16b
	and	v24.16b, v10.16b, v24.16b
	and	v21.16b, v9.16b, v21.16b
	and	v30.16b, v10.16b, v4.16b
	and	v3.16b, v9.16b, v3.16b
	ldr	q8, [x14, #48]
	ldp	q29, q31, [x14, #16]
	and	v5.16b, v11.16b, v5.16b
	eor	v18.16b, v24.16b, v18.16b
	and	v22.16b, v11.16b, v22.16b
	eor	v4.16b, v26.16b, v24.16b
	eor	v21.16b, v21.16b, v25.16b
	eor	v3.16b, v3.16b, v16.16b
	eor	v5.16b, v5.16b, v16.16b
	eor	v22.16b, v18.16b, v22.16b
	eor	v17.16b, v4.16b, v17.16b
	eor	v21.16b, v21.16b, v30.16b
	eor	v19.16b, v5.16b, v19.16b
	eor	v7.16b, v22.16b, v7.16b
	eor	v5.16b, v17.16b, v5.16b
	eor	v16.16b, v21.16b, v22.16b
	eor	v17.16b, v20.16b, v18.16b
	ldr	q18, [x10, :lo12:.Lgcm_CPI25_2]
	ldp	q20, q22, [x14, #-48]
	eor	v1.16b, v19.16b, v1.16b
	eor	v2.16b, v19.16b, v2.16b
	eor	v3.16b, v3.16b, v7.16b
	eor	v6.16b, v16.16b, v6.16b
	eor	v16.16b, v5.16b, v16.16b
	eor	v19.16b, v5.16b, v30.16b
	eor	v17.16b, v17.16b, v1.16b
	eor	v21.16b, v1.16b, v7.16b
	eor	v24.16b, v2.16b, v6.16b
	tbl	v25.16b, { v16.16b }, v18.16b
	eor	v5.16b, v3.16b, v6.16b
	tbl	v1.16b, { v19.16b }, v18.16b
	eor	v6.16b, v17.16b, v7.16b
	eor	v7.16b, v17.16b, v4.16b
	tbl	v26.16b, { v17.16b }, v18.16b
	tbl	v27.16b, { v21.16b }, v18.16b
	tbl	v30.16b, { v24.16b }, v18.16b
	tbl	v9.16b, { v5.16b }, v18.16b
	eor	v16.16b, v25.16b, v16.16b
	eor	v20.16b, v20.16b, v25.16b
	tbl	v4.16b, { v7.16b }, v18.16b
	tbl	v18.16b, { v6.16b }, v18.16b
	eor	v2.16b, v1.16b, v19.16b
	eor	v19.16b, v28.16b, v26.16b
	eor	v17.16b, v26.16b, v17.16b
	eor	v3.16b, v27.16b, v21.16b
	eor	v21.16b, v30.16b, v24.16b
	ext	v24.16b, v16.16b, v16.16b, #8
	eor	v22.16b, v22.16b, v30.16b
	eor	v25.16b, v8.16b, v27.16b
	eor	v5.16b, v9.16b, v5.16b
	eor	v7.16b, v4.16b, v7.16b
	eor	v6.16b, v18.16b, v6.16b
	ext	v27.16b, v17.16b, v17.16b, #8
	eor	v19.16b, v19.16b, v3.16b
	ext	v26.16b, v21.16b, v21.16b, #8
	ext	v28.16b, v3.16b, v3.16b, #8
	eor	v20.16b, v20.16b, v3.16b
	eor	v23.16b, v23.16b, v3.16b
	eor	v24.16b, v24.16b, v2.16b
	eor	v16.16b, v22.16b, v16.16b
	eor	v22.16b, v25.16b, v6.16b
	eor	v29.16b, v29.16b, v9.16b
	eor	v19.16b, v19.16b, v7.16b
	eor	v18.16b, v31.16b, v18.16b
	ldur	q25, [x14, #-64]
	eor	v21.16b, v23.16b, v21.16b
	eor	v20.16b, v20.16b, v24.16b
	ext	v7.16b, v7.16b, v7.16b, #8
	eor	v24.16b, v16.16b, v26.16b
	ext	v16.16b, v5.16b, v5.16b, #8
	ext	v6.16b, v6.16b, v6.16b, #8
	eor	v19.16b, v19.16b, v27.16b
	eor	v27.16b, v22.16b, v28.16b
	eor	v1.16b, v25.16b, v1.16b
	eor	v17.16b, v29.16b, v17.16b
	eor	v18.16b, v18.16b, v5.16b
	eor	v21.16b, v21.16b, v4.16b
	ext	v2.16b, v2.16b, v2.16b, #8
	eor	v4.16b, v20.16b, v27.16b
	eor	v5.16b, v19.16b, v24.16b
	eor	v3.16b, v1.16b, v3.16b
	eor	v16.16b, v17.16b, v16.16b
	eor	v6.16b, v18.16b, v6.16b
	eor	v7.16b, v21.16b, v7.16b
	eor	v1.16b, v4.16b, v5.16b
	eor	v25.16b, v3.16b, v2.16b
	eor	v3.16b, v27.16b, v24.16b
	eor	v22.16b, v16.16b, v6.16b
	eor	v16.16b, v19.16b, v27.16b
	eor	v2.16b, v7.16b, v1.16b
	eor	v18.16b, v22.16b, v25.16b
	eor	v28.16b, v2.16b, v6.16b
	eor	v23.16b, v2.16b, v24.16b
	eor	v17.16b, v18.16b, v20.16b
	eor	v2.16b, v18.16b, v19.16b
	eor	v6.16b, v18.16b, v27.16b
	eor	v7.16b, v28.16b, v16.16b
	eor	v21.16b, v23.16b, v22.16b
	eor	v20.16b, v23.16b, v25.16b
	and	v29.16b, v17.16b, v18.16b
	eor	v19.16b, v17.16b, v3.16b
	and	v30.16b, v23.16b, v1.16b
	and	v8.16b, v2.16b, v25.16b
	eor	v24.16b, v7.16b, v22.16b
	eor	v22.16b, v7.16b, v21.16b
	eor	v26.16b, v7.16b, v25.16b
	and	v9.16b, v20.16b, v19.16b
	eor	v28.16b, v28.16b, v30.16b
	and	v10.16b, v7.16b, v16.16b
	eor	v8.16b, v8.16b, v3.16b
	eor	v30.16b, v21.16b, v30.16b
	and	v31.16b, v24.16b, v4.16b
	eor	v29.16b, v24.16b, v29.16b
	and	v11.16b, v22.16b, v5.16b
	and	v12.16b, v26.16b, v6.16b
	eor	v28.16b, v28.16b, v9.16b
	eor	v30.16b, v8.16b, v30.16b
	eor	v29.16b, v29.16b, v31.16b
	eor	v27.16b, v31.16b, v27.16b
	and	v31.16b, v21.16b, v3.16b
	eor	v9.16b, v11.16b, v10.16b
	eor	v11.16b, v24.16b, v12.16b
	eor	v29.16b, v29.16b, v4.16b
	eor	v31.16b, v31.16b, v10.16b
	eor	v28.16b, v28.16b, v9.16b
	eor	v27.16b, v11.16b, v27.16b
	eor	v29.16b, v29.16b, v9.16b
	eor	v30.16b, v30.16b, v31.16b
	eor	v31.16b, v27.16b, v31.16b
	and	v27.16b, v29.16b, v28.16b
	eor	v8.16b, v31.16b, v29.16b
	eor	v9.16b, v27.16b, v30.16b
	and	v8.16b, v9.16b, v8.16b
	eor	v9.16b, v28.16b, v30.16b
	eor	v28.16b, v27.16b, v31.16b
	eor	v27.16b, v8.16b, v27.16b
	and	v10.16b, v28.16b, v9.16b
	and	v11.16b, v27.16b, v31.16b
	eor	v27.16b, v10.16b, v30.16b
	eor	v30.16b, v11.16b, v28.16b
	eor	v28.16b, v8.16b, v31.16b
	eor	v29.16b, v11.16b, v29.16b
	and	v26.16b, v27.16b, v26.16b
	and	v6.16b, v27.16b, v6.16b
	and	v30.16b, v30.16b, v27.16b
	eor	v31.16b, v29.16b, v28.16b
	and	v25.16b, v28.16b, v25.16b
	and	v23.16b, v29.16b, v23.16b
	eor	v8.16b, v27.16b, v28.16b
	and	v1.16b, v29.16b, v1.16b
	and	v2.16b, v28.16b, v2.16b
	eor	v30.16b, v30.16b, v9.16b
	and	v20.16b, v31.16b, v20.16b
	and	v19.16b, v31.16b, v19.16b
	eor	v25.16b, v23.16b, v25.16b
	and	v16.16b, v8.16b, v16.16b
	and	v7.16b, v8.16b, v7.16b
	eor	v9.16b, v30.16b, v31.16b
	eor	v10.16b, v30.16b, v27.16b
	and	v18.16b, v30.16b, v18.16b
	eor	v26.16b, v25.16b, v26.16b
	and	v17.16b, v30.16b, v17.16b
	eor	v20.16b, v20.16b, v23.16b
	ldr	q31, [x14, #176]
	eor	v11.16b, v9.16b, v8.16b
	and	v24.16b, v10.16b, v24.16b
	and	v21.16b, v9.16b, v21.16b
	and	v30.16b, v10.16b, v4.16b
	and	v3.16b, v9.16b, v3.16b
	and	v5.16b, v11.16b, v5.16b
	eor	v18.16b, v24.16b, v18.16b
	and	v22.16b, v11.16b, v22.16b
	eor	v4.16b, v26.16b, v24.16b
	eor	v21.16b, v21.16b, v25.16b
	eor	v3.16b, v3.16b, v16.16b
	eor	v5.16b, v5.16b, v16.16b
	eor	v22.16b, v18.16b, v22.16b
	eor	v17.16b, v4.16b, v17.16b
	eor	v21.16b, v21.16b, v30.16b
	eor	v19.16b, v5.16b, v19.16b
	eor	v7.16b, v22.16b, v7.16b
	eor	v5.16b, v17.16b, v5.16b
	eor	v16.16b, v21.16b, v22.16b
	eor	v17.16b, v20.16b, v18.16b
	ldr	q18, [x8, :lo12:.Lgcm_CPI25_3]
	ldp	q22, q27, [x14, #112]
	eor	v1.16b, v19.16b, v1.16b
	eor	v2.16b, v19.16b, v2.16b
	eor	v3.16b, v3.16b, v7.16b
	eor	v6.16b, v16.16b, v6.16b
	eor	v16.16b, v5.16b, v16.16b
	eor	v5.16b, v5.16b, v30.16b
	ldp	q19, q21, [x14, #80]
	eor	v17.16b, v17.16b, v1.16b
	eor	v20.16b, v1.16b, v7.16b
	eor	v23.16b, v2.16b, v6.16b
	tbl	v24.16b, { v16.16b }, v18.16b
	eor	v6.16b, v3.16b, v6.16b
	tbl	v1.16b, { v5.16b }, v18.16b
	ldp	q28, q30, [x14, #144]
	eor	v7.16b, v17.16b, v7.16b
	eor	v4.16b, v17.16b, v4.16b
	tbl	v25.16b, { v17.16b }, v18.16b
	tbl	v26.16b, { v20.16b }, v18.16b
	tbl	v29.16b, { v23.16b }, v18.16b
	tbl	v8.16b, { v6.16b }, v18.16b
	eor	v16.16b, v24.16b, v16.16b
	eor	v19.16b, v19.16b, v24.16b
	tbl	v3.16b, { v4.16b }, v18.16b
	tbl	v18.16b, { v7.16b }, v18.16b
	eor	v2.16b, v1.16b, v5.16b
	eor	v17.16b, v25.16b, v17.16b
	eor	v5.16b, v26.16b, v20.16b
	eor	v20.16b, v27.16b, v25.16b
	eor	v23.16b, v29.16b, v23.16b
	tbl	v25.16b, { v16.16b }, v0.16b
	eor	v21.16b, v21.16b, v29.16b
	eor	v24.16b, v31.16b, v26.16b
	eor	v4.16b, v3.16b, v4.16b
	eor	v7.16b, v18.16b, v7.16b
	tbl	v27.16b, { v17.16b }, v0.16b
	eor	v20.16b, v20.16b, v5.16b
	tbl	v26.16b, { v23.16b }, v0.16b
	tbl	v29.16b, { v5.16b }, v0.16b
	eor	v19.16b, v19.16b, v5.16b
	eor	v22.16b, v22.16b, v5.16b
	eor	v16.16b, v21.16b, v16.16b
	eor	v25.16b, v25.16b, v2.16b
	eor	v21.16b, v24.16b, v7.16b
	eor	v6.16b, v8.16b, v6.16b
	eor	v20.16b, v20.16b, v4.16b
	eor	v28.16b, v28.16b, v8.16b
	eor	v18.16b, v30.16b, v18.16b
	eor	v22.16b, v22.16b, v23.16b
	eor	v23.16b, v16.16b, v26.16b
	ldr	q24, [x14, #64]
	eor	v19.16b, v19.16b, v25.16b
	eor	v26.16b, v21.16b, v29.16b
	tbl	v16.16b, { v6.16b }, v0.16b
	eor	v25.16b, v20.16b, v27.16b
	tbl	v20.16b, { v4.16b }, v0.16b
	tbl	v7.16b, { v7.16b }, v0.16b
	eor	v1.16b, v24.16b, v1.16b
	eor	v17.16b, v28.16b, v17.16b
	eor	v6.16b, v18.16b, v6.16b
	eor	v18.16b, v22.16b, v3.16b
	eor	v3.16b, v19.16b, v26.16b
	tbl	v2.16b, { v2.16b }, v0.16b
	eor	v4.16b, v25.16b, v23.16b
	eor	v1.16b, v1.16b, v5.16b
	eor	v5.16b, v17.16b, v16.16b
	eor	v6.16b, v6.16b, v7.16b
	eor	v7.16b, v18.16b, v20.16b
	eor	v0.16b, v3.16b, v4.16b
	eor	v24.16b, v1.16b, v2.16b
	eor	v17.16b, v5.16b, v6.16b
	eor	v5.16b, v25.16b, v26.16b
	eor	v2.16b, v26.16b, v23.16b
	eor	v1.16b, v7.16b, v0.16b
	eor	v16.16b, v17.16b, v24.16b
	eor	v27.16b, v1.16b, v6.16b
	eor	v21.16b, v1.16b, v23.16b
	eor	v6.16b, v16.16b, v19.16b
	eor	v7.16b, v16.16b, v25.16b
	eor	v1.16b, v27.16b, v5.16b
	eor	v20.16b, v21.16b, v17.16b
	eor	v18.16b, v21.16b, v24.16b
	and	v28.16b, v6.16b, v16.16b
	eor	v19.16b, v6.16b, v2.16b
	and	v29.16b, v21.16b, v0.16b
	and	v31.16b, v7.16b, v24.16b
	eor	v23.16b, v1.16b, v17.16b
	eor	v17.16b, v16.16b, v26.16b
	eor	v22.16b, v1.16b, v20.16b
	eor	v25.16b, v1.16b, v24.16b
	and	v8.16b, v18.16b, v19.16b
	eor	v27.16b, v27.16b, v29.16b
	and	v9.16b, v1.16b, v5.16b
	eor	v31.16b, v31.16b, v2.16b
	eor	v29.16b, v20.16b, v29.16b
	and	v30.16b, v23.16b, v3.16b
	eor	v28.16b, v23.16b, v28.16b
	and	v10.16b, v22.16b, v4.16b
	and	v11.16b, v25.16b, v17.16b
	eor	v27.16b, v27.16b, v8.16b
	eor	v29.16b, v31.16b, v29.16b
	eor	v28.16b, v28.16b, v30.16b
	eor	v26.16b, v30.16b, v26.16b
	and	v30.16b, v20.16b, v2.16b
	eor	v8.16b, v10.16b, v9.16b
	eor	v10.16b, v23.16b, v11.16b
	eor	v28.16b, v28.16b, v3.16b
	eor	v30.16b, v30.16b, v9.16b
	eor	v27.16b, v27.16b, v8.16b
	eor	v26.16b, v10.16b, v26.16b
	eor	v28.16b, v28.16b, v8.16b
	eor	v29.16b, v29.16b, v30.16b
	eor	v26.16b, v26.16b, v30.16b
	and	v30.16b, v28.16b, v27.16b
	eor	v27.16b, v27.16b, v29.16b
	eor	v31.16b, v26.16b, v28.16b
	eor	v8.16b, v30.16b, v29.16b
	and	v31.16b, v8.16b, v31.16b
	eor	v8.16b, v30.16b, v26.16b
	eor	v30.16b, v31.16b, v30.16b
	and	v9.16b, v8.16b, v27.16b
	eor	v31.16b, v31.16b, v26.16b
	and	v30.16b, v30.16b, v26.16b
	eor	v29.16b, v9.16b, v29.16b
	and	v24.16b, v31.16b, v24.16b
	and	v7.16b, v31.16b, v7.16b
	eor	v8.16b, v30.16b, v8.16b
	eor	v26.16b, v30.16b, v28.16b
	and	v25.16b, v29.16b, v25.16b
	and	v17.16b, v29.16b, v17.16b
	and	v28.16b, v8.16b, v29.16b
	eor	v30.16b, v26.16b, v31.16b
	and	v21.16b, v26.16b, v21.16b
	and	v0.16b, v26.16b, v0.16b
	eor	v27.16b, v28.16b, v27.16b
	eor	v28.16b, v29.16b, v31.16b
	eor	v24.16b, v21.16b, v24.16b
	and	v19.16b, v30.16b, v19.16b
	and	v18.16b, v30.16b, v18.16b
	eor	v8.16b, v27.16b, v30.16b
	eor	v9.16b, v27.16b, v29.16b
	eor	v25.16b, v24.16b, v25.16b
	and	v16.16b, v27.16b, v16.16b
	and	v5.16b, v28.16b, v5.16b
	and	v6.16b, v27.16b, v6.16b
	and	v1.16b, v28.16b, v1.16b
	eor	v18.16b, v18.16b, v21.16b
	eor	v10.16b, v8.16b, v28.16b
	and	v23.16b, v9.16b, v23.16b
	and	v20.16b, v8.16b, v20.16b
	and	v9.16b, v9.16b, v3.16b
	and	v2.16b, v8.16b, v2.16b
	and	v4.16b, v10.16b, v4.16b
	eor	v3.16b, v25.16b, v23.16b
	and	v22.16b, v10.16b, v22.16b
	eor	v20.16b, v20.16b, v24.16b
	eor	v16.16b, v23.16b, v16.16b
	eor	v2.16b, v2.16b, v5.16b
	ldp	q23, q24, [x14, #256]
	eor	v4.16b, v4.16b, v5.16b
	eor	v6.16b, v3.16b, v6.16b
	eor	v22.16b, v16.16b, v22.16b
	eor	v20.16b, v20.16b, v9.16b
	eor	v19.16b, v4.16b, v19.16b
	eor	v4.16b, v6.16b, v4.16b
	eor	v20.16b, v20.16b, v22.16b
	eor	v1.16b, v22.16b, v1.16b
	eor	v6.16b, v19.16b, v7.16b
	eor	v7.16b, v18.16b, v16.16b
	eor	v0.16b, v19.16b, v0.16b
	eor	v16.16b, v4.16b, v9.16b
	eor	v5.16b, v20.16b, v17.16b
	eor	v2.16b, v2.16b, v1.16b
	eor	v4.16b, v4.16b, v20.16b
	ldp	q17, q18, [x14, #192]
	eor	v7.16b, v7.16b, v0.16b
	eor	v0.16b, v0.16b, v1.16b
	ext	v19.16b, v16.16b, v16.16b, #4
	eor	v6.16b, v6.16b, v5.16b
	eor	v2.16b, v2.16b, v5.16b
	ext	v22.16b, v4.16b, v4.16b, #4
	ldp	q20, q21, [x14, #224]
	ext	v25.16b, v0.16b, v0.16b, #4
	ext	v26.16b, v7.16b, v7.16b, #4
	eor	v1.16b, v7.16b, v1.16b
	ext	v5.16b, v6.16b, v6.16b, #4
	eor	v3.16b, v7.16b, v3.16b
	eor	v16.16b, v19.16b, v16.16b
	eor	v17.16b, v17.16b, v19.16b
	ext	v19.16b, v2.16b, v2.16b, #4
	eor	v4.16b, v22.16b, v4.16b
	eor	v18.16b, v18.16b, v22.16b
	eor	v0.16b, v25.16b, v0.16b
	eor	v7.16b, v26.16b, v7.16b
	eor	v23.16b, v23.16b, v26.16b
	eor	v6.16b, v5.16b, v6.16b
	eor	v5.16b, v20.16b, v5.16b
	ext	v20.16b, v3.16b, v3.16b, #4
	ext	v26.16b, v1.16b, v1.16b, #4
	eor	v2.16b, v19.16b, v2.16b
	eor	v19.16b, v24.16b, v19.16b
	ldp	q24, q22, [x14, #288]
	eor	v21.16b, v21.16b, v0.16b
	eor	v23.16b, v23.16b, v0.16b
	eor	v5.16b, v5.16b, v4.16b
	ext	v28.16b, v0.16b, v0.16b, #8
	eor	v3.16b, v20.16b, v3.16b
	eor	v17.16b, v17.16b, v0.16b
	eor	v18.16b, v18.16b, v0.16b
	eor	v22.16b, v22.16b, v25.16b
	ext	v25.16b, v4.16b, v4.16b, #8
	eor	v1.16b, v26.16b, v1.16b
	eor	v24.16b, v24.16b, v26.16b
	ext	v26.16b, v6.16b, v6.16b, #8
	eor	v6.16b, v21.16b, v6.16b
	ext	v4.16b, v16.16b, v16.16b, #8
	ext	v21.16b, v7.16b, v7.16b, #8
	ext	v27.16b, v3.16b, v3.16b, #8
	eor	v23.16b, v23.16b, v3.16b
	eor	v7.16b, v19.16b, v7.16b
	add	x14, x14, #512
	eor	v16.16b, v25.16b, v16.16b
	ext	v25.16b, v2.16b, v2.16b, #8
	eor	v6.16b, v6.16b, v20.16b
	ext	v20.16b, v1.16b, v1.16b, #8
	eor	v2.16b, v24.16b, v2.16b
	eor	v1.16b, v22.16b, v1.16b
	eor	v0.16b, v17.16b, v4.16b
	eor	v3.16b, v5.16b, v26.16b
	eor	v5.16b, v23.16b, v21.16b
	eor	v4.16b, v18.16b, v16.16b
	eor	v17.16b, v6.16b, v27.16b
	eor	v19.16b, v7.16b, v25.16b
	eor	v1.16b, v1.16b, v28.16b
	eor	v18.16b, v2.16b, v20.16b
	b.ne	.Lgcm_BB25_2
.Lgcm_BB25_3:                               // %after.3
	eor	v7.16b, v4.16b, v1.16b
	eor	v16.16b, v3.16b, v5.16b
	and	x13, x9, #0xfffffffffffffffc
	eor	v6.16b, v19.16b, v18.16b
	eor	v2.16b, v7.16b, v16.16b
	eor	v19.16b, v0.16b, v6.16b
	eor	v20.16b, v2.16b, v17.16b
	eor	v17.16b, v5.16b, v1.16b
	eor	v5.16b, v19.16b, v5.16b
	eor	v27.16b, v20.16b, v18.16b
	eor	v23.16b, v20.16b, v3.16b
	eor	v18.16b, v19.16b, v4.16b
	eor	v3.16b, v3.16b, v1.16b
	and	v30.16b, v5.16b, v0.16b
	eor	v4.16b, v27.16b, v17.16b
	eor	v22.16b, v23.16b, v6.16b
	and	v28.16b, v18.16b, v19.16b
	eor	v20.16b, v18.16b, v3.16b
	eor	v21.16b, v23.16b, v0.16b
	and	v29.16b, v23.16b, v2.16b
	eor	v30.16b, v30.16b, v3.16b
	eor	v24.16b, v4.16b, v6.16b
	eor	v6.16b, v19.16b, v1.16b
	eor	v25.16b, v4.16b, v22.16b
	eor	v26.16b, v4.16b, v0.16b
	and	v8.16b, v21.16b, v20.16b
	eor	v27.16b, v27.16b, v29.16b
	and	v9.16b, v4.16b, v17.16b
	eor	v30.16b, v30.16b, v22.16b
	and	v31.16b, v24.16b, v7.16b
	eor	v28.16b, v24.16b, v28.16b
	and	v10.16b, v25.16b, v16.16b
	and	v11.16b, v26.16b, v6.16b
	eor	v27.16b, v27.16b, v8.16b
	eor	v29.16b, v30.16b, v29.16b
	eor	v28.16b, v28.16b, v31.16b
	eor	v1.16b, v31.16b, v1.16b
	and	v31.16b, v22.16b, v3.16b
	eor	v8.16b, v10.16b, v9.16b
	eor	v10.16b, v24.16b, v11.16b
	eor	v28.16b, v28.16b, v7.16b
	eor	v31.16b, v31.16b, v9.16b
	eor	v27.16b, v27.16b, v8.16b
	eor	v1.16b, v10.16b, v1.16b
	eor	v28.16b, v28.16b, v8.16b
	eor	v29.16b, v29.16b, v31.16b
	eor	v1.16b, v1.16b, v31.16b
	and	v30.16b, v28.16b, v27.16b
	eor	v31.16b, v1.16b, v28.16b
	eor	v8.16b, v30.16b, v29.16b
	eor	v9.16b, v30.16b, v1.16b
	and	v31.16b, v8.16b, v31.16b
	eor	v8.16b, v27.16b, v29.16b
	eor	v27.16b, v31.16b, v30.16b
	and	v30.16b, v9.16b, v8.16b
	and	v10.16b, v27.16b, v1.16b
	eor	v27.16b, v30.16b, v29.16b
	eor	v30.16b, v31.16b, v1.16b
	eor	v29.16b, v10.16b, v9.16b
	eor	v28.16b, v10.16b, v28.16b
	and	v0.16b, v30.16b, v0.16b
	eor	v31.16b, v27.16b, v30.16b
	and	v26.16b, v27.16b, v26.16b
	and	v5.16b, v30.16b, v5.16b
	and	v6.16b, v27.16b, v6.16b
	and	v1.16b, v29.16b, v27.16b
	eor	v29.16b, v28.16b, v30.16b
	and	v23.16b, v28.16b, v23.16b
	and	v17.16b, v31.16b, v17.16b
	and	v4.16b, v31.16b, v4.16b
	and	v2.16b, v28.16b, v2.16b
	eor	v1.16b, v1.16b, v8.16b
	eor	v0.16b, v23.16b, v0.16b
	and	v21.16b, v29.16b, v21.16b
	and	v20.16b, v29.16b, v20.16b
	eor	v8.16b, v1.16b, v29.16b
	eor	v9.16b, v1.16b, v27.16b
	and	v19.16b, v1.16b, v19.16b
	eor	v26.16b, v0.16b, v26.16b
	and	v18.16b, v1.16b, v18.16b
	eor	v21.16b, v21.16b, v23.16b
	eor	v10.16b, v8.16b, v31.16b
	and	v24.16b, v9.16b, v24.16b
	and	v22.16b, v8.16b, v22.16b
	and	v7.16b, v9.16b, v7.16b
	and	v3.16b, v8.16b, v3.16b
	and	v16.16b, v10.16b, v16.16b
	and	v25.16b, v10.16b, v25.16b
	eor	v19.16b, v24.16b, v19.16b
	eor	v0.16b, v22.16b, v0.16b
	eor	v1.16b, v26.16b, v24.16b
	eor	v3.16b, v3.16b, v17.16b
	eor	v16.16b, v16.16b, v17.16b
	eor	v22.16b, v19.16b, v25.16b
	eor	v17.16b, v21.16b, v19.16b
	eor	v0.16b, v0.16b, v7.16b
	eor	v18.16b, v1.16b, v18.16b
	eor	v20.16b, v16.16b, v20.16b
	eor	v4.16b, v22.16b, v4.16b
	eor	v0.16b, v0.16b, v22.16b
	eor	v16.16b, v18.16b, v16.16b
	eor	v18.16b, v20.16b, v2.16b
	eor	v5.16b, v20.16b, v5.16b
	ldr	q2, [x12, :lo12:.Lgcm_CPI25_0]
	eor	v6.16b, v0.16b, v6.16b
	eor	v7.16b, v16.16b, v7.16b
	eor	v16.16b, v16.16b, v0.16b
	eor	v3.16b, v3.16b, v4.16b
	ldr	q0, [x11, :lo12:.Lgcm_CPI25_1]
	add	x11, x0, x13, lsl #7
	eor	v17.16b, v17.16b, v18.16b
	eor	v18.16b, v18.16b, v4.16b
	eor	v5.16b, v5.16b, v6.16b
	tbl	v19.16b, { v7.16b }, v2.16b
	eor	v3.16b, v3.16b, v6.16b
	tbl	v6.16b, { v16.16b }, v2.16b
	tbl	v25.16b, { v18.16b }, v2.16b
	ldp	q20, q21, [x11, #128]
	tbl	v24.16b, { v5.16b }, v2.16b
	ldp	q22, q23, [x11, #160]
	eor	v4.16b, v17.16b, v4.16b
	eor	v1.16b, v17.16b, v1.16b
	tbl	v26.16b, { v17.16b }, v2.16b
	tbl	v27.16b, { v3.16b }, v2.16b
	eor	v7.16b, v19.16b, v7.16b
	eor	v16.16b, v6.16b, v16.16b
	eor	v18.16b, v25.16b, v18.16b
	eor	v19.16b, v20.16b, v19.16b
	eor	v6.16b, v21.16b, v6.16b
	ldp	q20, q21, [x11, #192]
	eor	v5.16b, v24.16b, v5.16b
	eor	v22.16b, v22.16b, v24.16b
	tbl	v24.16b, { v4.16b }, v2.16b
	tbl	v2.16b, { v1.16b }, v2.16b
	eor	v23.16b, v23.16b, v18.16b
	eor	v17.16b, v26.16b, v17.16b
	eor	v3.16b, v27.16b, v3.16b
	eor	v20.16b, v20.16b, v26.16b
	eor	v21.16b, v21.16b, v27.16b
	tbl	v28.16b, { v18.16b }, v0.16b
	ldp	q27, q26, [x11, #224]
	eor	v22.16b, v22.16b, v16.16b
	tbl	v16.16b, { v16.16b }, v0.16b
	eor	v4.16b, v24.16b, v4.16b
	eor	v1.16b, v2.16b, v1.16b
	eor	v23.16b, v23.16b, v5.16b
	eor	v20.16b, v20.16b, v18.16b
	tbl	v5.16b, { v5.16b }, v0.16b
	eor	v25.16b, v26.16b, v25.16b
	eor	v24.16b, v27.16b, v24.16b
	tbl	v26.16b, { v7.16b }, v0.16b
	eor	v21.16b, v21.16b, v17.16b
	tbl	v17.16b, { v17.16b }, v0.16b
	tbl	v27.16b, { v1.16b }, v0.16b
	eor	v7.16b, v16.16b, v7.16b
	tbl	v16.16b, { v3.16b }, v0.16b
	eor	v2.16b, v23.16b, v2.16b
	tbl	v23.16b, { v4.16b }, v0.16b
	eor	v19.16b, v19.16b, v18.16b
	eor	v6.16b, v6.16b, v18.16b
	eor	v20.16b, v20.16b, v1.16b
	eor	v3.16b, v24.16b, v3.16b
	eor	v24.16b, v25.16b, v4.16b
	eor	v5.16b, v5.16b, v22.16b
	eor	v18.16b, v27.16b, v2.16b
	orr	x11, x13, #0x2
	eor	v1.16b, v26.16b, v19.16b
	eor	v19.16b, v7.16b, v6.16b
	eor	v16.16b, v16.16b, v21.16b
	eor	v4.16b, v17.16b, v20.16b
	eor	v7.16b, v23.16b, v3.16b
	eor	v3.16b, v28.16b, v24.16b
	cmp	x11, x1
	b.hs	.Lgcm_BB25_5
// %bb.4:                               // %then.11
	eor	v6.16b, v3.16b, v19.16b
	eor	v17.16b, v4.16b, v5.16b
	add	x9, x0, x9, lsl #7
	eor	v21.16b, v7.16b, v16.16b
	eor	v2.16b, v6.16b, v17.16b
	eor	v20.16b, v21.16b, v1.16b
	eor	v16.16b, v2.16b, v18.16b
	eor	v18.16b, v3.16b, v4.16b
	eor	v19.16b, v20.16b, v19.16b
	eor	v4.16b, v20.16b, v4.16b
	eor	v28.16b, v16.16b, v7.16b
	eor	v25.16b, v16.16b, v5.16b
	eor	v5.16b, v3.16b, v5.16b
	and	v29.16b, v19.16b, v20.16b
	eor	v7.16b, v20.16b, v3.16b
	and	v8.16b, v4.16b, v1.16b
	eor	v16.16b, v28.16b, v18.16b
	eor	v23.16b, v25.16b, v21.16b
	eor	v22.16b, v25.16b, v1.16b
	and	v30.16b, v25.16b, v2.16b
	eor	v8.16b, v8.16b, v5.16b
	eor	v26.16b, v16.16b, v21.16b
	eor	v21.16b, v19.16b, v5.16b
	eor	v24.16b, v16.16b, v23.16b
	eor	v27.16b, v16.16b, v1.16b
	eor	v28.16b, v28.16b, v30.16b
	and	v10.16b, v16.16b, v18.16b
	eor	v30.16b, v23.16b, v30.16b
	and	v31.16b, v26.16b, v6.16b
	eor	v29.16b, v26.16b, v29.16b
	and	v9.16b, v22.16b, v21.16b
	and	v11.16b, v24.16b, v17.16b
	and	v12.16b, v27.16b, v7.16b
	eor	v30.16b, v8.16b, v30.16b
	eor	v29.16b, v29.16b, v31.16b
	eor	v28.16b, v28.16b, v9.16b
	and	v9.16b, v23.16b, v5.16b
	eor	v11.16b, v11.16b, v10.16b
	eor	v12.16b, v26.16b, v12.16b
	eor	v3.16b, v31.16b, v3.16b
	eor	v29.16b, v29.16b, v6.16b
	eor	v31.16b, v9.16b, v10.16b
	eor	v28.16b, v28.16b, v11.16b
	eor	v3.16b, v12.16b, v3.16b
	eor	v29.16b, v29.16b, v11.16b
	eor	v30.16b, v30.16b, v31.16b
	eor	v31.16b, v3.16b, v31.16b
	and	v3.16b, v29.16b, v28.16b
	eor	v8.16b, v31.16b, v29.16b
	eor	v9.16b, v3.16b, v30.16b
	and	v8.16b, v9.16b, v8.16b
	eor	v9.16b, v28.16b, v30.16b
	eor	v28.16b, v3.16b, v31.16b
	eor	v3.16b, v8.16b, v3.16b
	and	v10.16b, v28.16b, v9.16b
	and	v11.16b, v3.16b, v31.16b
	eor	v3.16b, v10.16b, v30.16b
	eor	v30.16b, v11.16b, v28.16b
	eor	v28.16b, v8.16b, v31.16b
	eor	v29.16b, v11.16b, v29.16b
	and	v27.16b, v3.16b, v27.16b
	and	v30.16b, v30.16b, v3.16b
	eor	v31.16b, v29.16b, v28.16b
	and	v1.16b, v28.16b, v1.16b
	and	v25.16b, v29.16b, v25.16b
	eor	v8.16b, v3.16b, v28.16b
	and	v2.16b, v29.16b, v2.16b
	and	v4.16b, v28.16b, v4.16b
	eor	v30.16b, v30.16b, v9.16b
	and	v22.16b, v31.16b, v22.16b
	and	v21.16b, v31.16b, v21.16b
	eor	v11.16b, v25.16b, v1.16b
	and	v18.16b, v8.16b, v18.16b
	and	v16.16b, v8.16b, v16.16b
	eor	v9.16b, v30.16b, v31.16b
	eor	v10.16b, v30.16b, v3.16b
	and	v20.16b, v30.16b, v20.16b
	eor	v27.16b, v11.16b, v27.16b
	and	v19.16b, v30.16b, v19.16b
	eor	v22.16b, v22.16b, v25.16b
	and	v3.16b, v3.16b, v7.16b
	ldp	q29, q31, [x9, #80]
	eor	v1.16b, v9.16b, v8.16b
	and	v26.16b, v10.16b, v26.16b
	and	v23.16b, v9.16b, v23.16b
	and	v6.16b, v10.16b, v6.16b
	and	v5.16b, v9.16b, v5.16b
	ldr	q8, [x9, #112]
	and	v17.16b, v1.16b, v17.16b
	eor	v20.16b, v26.16b, v20.16b
	and	v24.16b, v1.16b, v24.16b
	eor	v1.16b, v27.16b, v26.16b
	eor	v23.16b, v23.16b, v11.16b
	eor	v5.16b, v5.16b, v18.16b
	eor	v17.16b, v17.16b, v18.16b
	eor	v24.16b, v20.16b, v24.16b
	eor	v18.16b, v22.16b, v20.16b
	eor	v19.16b, v1.16b, v19.16b
	eor	v23.16b, v23.16b, v6.16b
	ldp	q22, q28, [x9, #48]
	eor	v21.16b, v17.16b, v21.16b
	eor	v16.16b, v24.16b, v16.16b
	eor	v7.16b, v19.16b, v17.16b
	eor	v17.16b, v23.16b, v24.16b
	ldr	q19, [x10, :lo12:.Lgcm_CPI25_2]
	eor	v2.16b, v21.16b, v2.16b
	eor	v4.16b, v21.16b, v4.16b
	eor	v5.16b, v5.16b, v16.16b
	eor	v3.16b, v17.16b, v3.16b
	eor	v17.16b, v7.16b, v17.16b
	eor	v6.16b, v7.16b, v6.16b
	eor	v7.16b, v18.16b, v2.16b
	eor	v20.16b, v2.16b, v16.16b
	eor	v23.16b, v4.16b, v3.16b
	tbl	v24.16b, { v17.16b }, v19.16b
	eor	v4.16b, v5.16b, v3.16b
	tbl	v2.16b, { v6.16b }, v19.16b
	ldp	q18, q21, [x9, #16]
	eor	v16.16b, v7.16b, v16.16b
	eor	v25.16b, v7.16b, v1.16b
	tbl	v26.16b, { v7.16b }, v19.16b
	tbl	v27.16b, { v20.16b }, v19.16b
	tbl	v30.16b, { v23.16b }, v19.16b
	tbl	v9.16b, { v4.16b }, v19.16b
	eor	v17.16b, v24.16b, v17.16b
	eor	v18.16b, v18.16b, v24.16b
	tbl	v3.16b, { v25.16b }, v19.16b
	tbl	v19.16b, { v16.16b }, v19.16b
	eor	v1.16b, v2.16b, v6.16b
	eor	v6.16b, v28.16b, v26.16b
	eor	v7.16b, v26.16b, v7.16b
	eor	v5.16b, v27.16b, v20.16b
	eor	v20.16b, v30.16b, v23.16b
	ext	v23.16b, v17.16b, v17.16b, #8
	eor	v21.16b, v21.16b, v30.16b
	eor	v24.16b, v8.16b, v27.16b
	eor	v4.16b, v9.16b, v4.16b
	eor	v25.16b, v3.16b, v25.16b
	eor	v16.16b, v19.16b, v16.16b
	ext	v27.16b, v7.16b, v7.16b, #8
	eor	v6.16b, v6.16b, v5.16b
	ext	v26.16b, v20.16b, v20.16b, #8
	ext	v28.16b, v5.16b, v5.16b, #8
	eor	v18.16b, v18.16b, v5.16b
	eor	v22.16b, v22.16b, v5.16b
	eor	v23.16b, v23.16b, v1.16b
	eor	v17.16b, v21.16b, v17.16b
	eor	v21.16b, v24.16b, v16.16b
	eor	v29.16b, v29.16b, v9.16b
	eor	v6.16b, v6.16b, v25.16b
	eor	v19.16b, v31.16b, v19.16b
	ldr	q24, [x9]
	eor	v20.16b, v22.16b, v20.16b
	eor	v23.16b, v23.16b, v18.16b
	ext	v18.16b, v25.16b, v25.16b, #8
	eor	v26.16b, v26.16b, v17.16b
	ext	v17.16b, v4.16b, v4.16b, #8
	ext	v16.16b, v16.16b, v16.16b, #8
	eor	v6.16b, v27.16b, v6.16b
	eor	v27.16b, v28.16b, v21.16b
	eor	v2.16b, v24.16b, v2.16b
	eor	v7.16b, v29.16b, v7.16b
	eor	v19.16b, v19.16b, v4.16b
	eor	v20.16b, v20.16b, v3.16b
	ext	v21.16b, v1.16b, v1.16b, #8
	eor	v3.16b, v27.16b, v23.16b
	eor	v4.16b, v6.16b, v26.16b
	eor	v2.16b, v2.16b, v5.16b
	eor	v5.16b, v17.16b, v7.16b
	eor	v16.16b, v16.16b, v19.16b
	eor	v7.16b, v18.16b, v20.16b
	eor	v1.16b, v3.16b, v4.16b
	eor	v25.16b, v21.16b, v2.16b
	eor	v19.16b, v5.16b, v16.16b
	eor	v2.16b, v7.16b, v1.16b
	eor	v7.16b, v27.16b, v6.16b
	eor	v18.16b, v19.16b, v25.16b
	eor	v28.16b, v2.16b, v16.16b
	eor	v22.16b, v2.16b, v26.16b
	eor	v2.16b, v27.16b, v26.16b
	eor	v17.16b, v18.16b, v23.16b
	eor	v16.16b, v18.16b, v6.16b
	eor	v6.16b, v18.16b, v27.16b
	eor	v5.16b, v28.16b, v7.16b
	eor	v21.16b, v22.16b, v19.16b
	eor	v20.16b, v22.16b, v25.16b
	and	v29.16b, v17.16b, v18.16b
	and	v30.16b, v22.16b, v1.16b
	and	v8.16b, v16.16b, v25.16b
	eor	v23.16b, v5.16b, v19.16b
	eor	v19.16b, v17.16b, v2.16b
	eor	v24.16b, v5.16b, v21.16b
	eor	v26.16b, v5.16b, v25.16b
	eor	v28.16b, v28.16b, v30.16b
	and	v10.16b, v5.16b, v7.16b
	eor	v8.16b, v8.16b, v2.16b
	eor	v30.16b, v21.16b, v30.16b
	and	v31.16b, v23.16b, v3.16b
	eor	v29.16b, v23.16b, v29.16b
	and	v9.16b, v20.16b, v19.16b
	and	v11.16b, v24.16b, v4.16b
	and	v12.16b, v26.16b, v6.16b
	eor	v30.16b, v8.16b, v30.16b
	eor	v29.16b, v29.16b, v31.16b
	eor	v28.16b, v28.16b, v9.16b
	eor	v27.16b, v31.16b, v27.16b
	and	v31.16b, v21.16b, v2.16b
	eor	v9.16b, v11.16b, v10.16b
	eor	v11.16b, v23.16b, v12.16b
	eor	v29.16b, v29.16b, v3.16b
	eor	v31.16b, v31.16b, v10.16b
	eor	v28.16b, v28.16b, v9.16b
	eor	v27.16b, v11.16b, v27.16b
	eor	v29.16b, v29.16b, v9.16b
	eor	v30.16b, v30.16b, v31.16b
	eor	v31.16b, v27.16b, v31.16b
	and	v27.16b, v29.16b, v28.16b
	eor	v8.16b, v31.16b, v29.16b
	eor	v9.16b, v27.16b, v30.16b
	and	v8.16b, v9.16b, v8.16b
	eor	v9.16b, v28.16b, v30.16b
	eor	v28.16b, v27.16b, v31.16b
	eor	v27.16b, v8.16b, v27.16b
	and	v10.16b, v28.16b, v9.16b
	and	v11.16b, v27.16b, v31.16b
	eor	v27.16b, v10.16b, v30.16b
	eor	v31.16b, v8.16b, v31.16b
	eor	v30.16b, v11.16b, v28.16b
	eor	v28.16b, v11.16b, v29.16b
	eor	v8.16b, v27.16b, v31.16b
	and	v25.16b, v31.16b, v25.16b
	and	v26.16b, v27.16b, v26.16b
	and	v16.16b, v31.16b, v16.16b
	and	v6.16b, v27.16b, v6.16b
	and	v29.16b, v30.16b, v27.16b
	eor	v30.16b, v28.16b, v31.16b
	and	v22.16b, v28.16b, v22.16b
	and	v7.16b, v8.16b, v7.16b
	and	v5.16b, v8.16b, v5.16b
	eor	v29.16b, v29.16b, v9.16b
	eor	v25.16b, v22.16b, v25.16b
	and	v20.16b, v30.16b, v20.16b
	and	v19.16b, v30.16b, v19.16b
	eor	v9.16b, v29.16b, v30.16b
	eor	v10.16b, v29.16b, v27.16b
	and	v18.16b, v29.16b, v18.16b
	eor	v26.16b, v25.16b, v26.16b
	and	v29.16b, v29.16b, v17.16b
	eor	v20.16b, v20.16b, v22.16b
	eor	v11.16b, v9.16b, v8.16b
	and	v23.16b, v10.16b, v23.16b
	and	v21.16b, v9.16b, v21.16b
	and	v17.16b, v10.16b, v3.16b
	and	v2.16b, v9.16b, v2.16b
	and	v4.16b, v11.16b, v4.16b
	and	v24.16b, v11.16b, v24.16b
	eor	v18.16b, v23.16b, v18.16b
	eor	v21.16b, v21.16b, v25.16b
	eor	v3.16b, v26.16b, v23.16b
	and	v25.16b, v28.16b, v1.16b
	eor	v2.16b, v2.16b, v7.16b
	ldr	q1, [x8, :lo12:.Lgcm_CPI25_3]
	lsl	x8, x1, #7
	eor	v4.16b, v4.16b, v7.16b
	eor	v23.16b, v18.16b, v24.16b
	eor	v7.16b, v20.16b, v18.16b
	eor	v21.16b, v21.16b, v17.16b
	eor	v24.16b, v3.16b, v29.16b
	add	x9, x0, x8
	eor	v19.16b, v4.16b, v19.16b
	eor	v5.16b, v23.16b, v5.16b
	eor	v21.16b, v21.16b, v23.16b
	eor	v4.16b, v24.16b, v4.16b
	ldp	q22, q23, [x9, #-96]
	eor	v18.16b, v19.16b, v25.16b
	eor	v16.16b, v19.16b, v16.16b
	eor	v2.16b, v2.16b, v5.16b
	eor	v6.16b, v21.16b, v6.16b
	eor	v17.16b, v4.16b, v17.16b
	eor	v4.16b, v4.16b, v21.16b
	ldp	q19, q20, [x9, #-128]
	eor	v7.16b, v7.16b, v18.16b
	eor	v18.16b, v18.16b, v5.16b
	eor	v16.16b, v16.16b, v6.16b
	tbl	v21.16b, { v17.16b }, v1.16b
	eor	v2.16b, v2.16b, v6.16b
	tbl	v6.16b, { v4.16b }, v1.16b
	tbl	v24.16b, { v18.16b }, v1.16b
	eor	v5.16b, v7.16b, v5.16b
	eor	v3.16b, v7.16b, v3.16b
	tbl	v25.16b, { v16.16b }, v1.16b
	tbl	v26.16b, { v7.16b }, v1.16b
	tbl	v27.16b, { v2.16b }, v1.16b
	eor	v17.16b, v21.16b, v17.16b
	eor	v19.16b, v19.16b, v21.16b
	ldp	q21, q28, [x9, #-64]
	eor	v4.16b, v6.16b, v4.16b
	eor	v18.16b, v24.16b, v18.16b
	eor	v6.16b, v20.16b, v6.16b
	tbl	v20.16b, { v3.16b }, v1.16b
	tbl	v1.16b, { v5.16b }, v1.16b
	eor	v16.16b, v25.16b, v16.16b
	eor	v22.16b, v22.16b, v25.16b
	ldur	q25, [x9, #-16]
	eor	v21.16b, v21.16b, v26.16b
	eor	v7.16b, v26.16b, v7.16b
	eor	v23.16b, v23.16b, v18.16b
	tbl	v26.16b, { v4.16b }, v0.16b
	eor	v2.16b, v27.16b, v2.16b
	eor	v24.16b, v25.16b, v24.16b
	ldur	q25, [x9, #-32]
	eor	v4.16b, v22.16b, v4.16b
	eor	v3.16b, v20.16b, v3.16b
	eor	v5.16b, v1.16b, v5.16b
	eor	v27.16b, v28.16b, v27.16b
	eor	v22.16b, v23.16b, v16.16b
	eor	v21.16b, v21.16b, v18.16b
	eor	v1.16b, v25.16b, v1.16b
	tbl	v23.16b, { v17.16b }, v0.16b
	tbl	v16.16b, { v16.16b }, v0.16b
	eor	v17.16b, v26.16b, v17.16b
	tbl	v25.16b, { v7.16b }, v0.16b
	eor	v19.16b, v19.16b, v18.16b
	eor	v6.16b, v6.16b, v18.16b
	tbl	v26.16b, { v3.16b }, v0.16b
	eor	v20.16b, v22.16b, v20.16b
	tbl	v22.16b, { v2.16b }, v0.16b
	tbl	v18.16b, { v18.16b }, v0.16b
	tbl	v28.16b, { v5.16b }, v0.16b
	eor	v21.16b, v21.16b, v3.16b
	eor	v7.16b, v27.16b, v7.16b
	eor	v2.16b, v1.16b, v2.16b
	eor	v5.16b, v24.16b, v5.16b
	eor	v3.16b, v19.16b, v23.16b
	eor	v0.16b, v6.16b, v17.16b
	eor	v1.16b, v4.16b, v16.16b
	eor	v16.16b, v21.16b, v25.16b
	eor	v6.16b, v20.16b, v26.16b
	eor	v7.16b, v7.16b, v22.16b
	eor	v17.16b, v2.16b, v28.16b
	eor	v26.16b, v5.16b, v18.16b
	b	.Lgcm_BB25_6
.Lgcm_BB25_5:                               // %else.12
	adrp	x8, .Lgcm_CPI25_4
	movi	v23.2d, #0x00ffff00000000
	ldr	q0, [x8, :lo12:.Lgcm_CPI25_4]
	adrp	x8, .Lgcm_CPI25_5
	ldr	q25, [x8, :lo12:.Lgcm_CPI25_5]
	lsl	x8, x1, #7
	tbl	v2.16b, { v1.16b }, v0.16b
	tbl	v6.16b, { v19.16b }, v0.16b
	tbl	v17.16b, { v5.16b }, v0.16b
	tbl	v20.16b, { v18.16b }, v0.16b
	tbl	v21.16b, { v4.16b }, v0.16b
	tbl	v22.16b, { v16.16b }, v0.16b
	tbl	v24.16b, { v7.16b }, v0.16b
	tbl	v0.16b, { v3.16b }, v0.16b
	eor	v2.16b, v2.16b, v1.16b
	eor	v6.16b, v6.16b, v19.16b
	eor	v17.16b, v17.16b, v5.16b
	eor	v20.16b, v20.16b, v18.16b
	eor	v21.16b, v21.16b, v4.16b
	eor	v22.16b, v22.16b, v16.16b
	eor	v24.16b, v24.16b, v7.16b
	eor	v0.16b, v0.16b, v3.16b
	and	v2.16b, v2.16b, v23.16b
	and	v6.16b, v6.16b, v23.16b
	and	v17.16b, v17.16b, v23.16b
	and	v20.16b, v20.16b, v23.16b
	and	v21.16b, v21.16b, v23.16b
	and	v22.16b, v22.16b, v23.16b
	and	v24.16b, v24.16b, v23.16b
	and	v0.16b, v0.16b, v23.16b
	tbl	v26.16b, { v2.16b }, v25.16b
	eor	v1.16b, v1.16b, v2.16b
	tbl	v2.16b, { v6.16b }, v25.16b
	eor	v6.16b, v19.16b, v6.16b
	tbl	v19.16b, { v17.16b }, v25.16b
	eor	v5.16b, v5.16b, v17.16b
	tbl	v17.16b, { v20.16b }, v25.16b
	eor	v18.16b, v18.16b, v20.16b
	tbl	v20.16b, { v21.16b }, v25.16b
	eor	v4.16b, v4.16b, v21.16b
	tbl	v21.16b, { v22.16b }, v25.16b
	tbl	v23.16b, { v24.16b }, v25.16b
	tbl	v25.16b, { v0.16b }, v25.16b
	eor	v22.16b, v16.16b, v22.16b
	eor	v24.16b, v7.16b, v24.16b
	eor	v27.16b, v3.16b, v0.16b
	eor	v3.16b, v1.16b, v26.16b
	eor	v0.16b, v6.16b, v2.16b
	eor	v1.16b, v5.16b, v19.16b
	eor	v6.16b, v18.16b, v17.16b
	eor	v16.16b, v4.16b, v20.16b
	eor	v7.16b, v22.16b, v21.16b
	eor	v17.16b, v24.16b, v23.16b
	eor	v26.16b, v27.16b, v25.16b
.Lgcm_BB25_6:                               // %join.13
	eor	v4.16b, v0.16b, v26.16b
	eor	v5.16b, v1.16b, v16.16b
	add	x8, x0, x8
	eor	v19.16b, v7.16b, v17.16b
	eor	v7.16b, v16.16b, v26.16b
	eor	v2.16b, v4.16b, v5.16b
	eor	v18.16b, v3.16b, v19.16b
	eor	v6.16b, v2.16b, v6.16b
	eor	v16.16b, v18.16b, v16.16b
	eor	v27.16b, v6.16b, v17.16b
	eor	v25.16b, v6.16b, v1.16b
	eor	v6.16b, v18.16b, v0.16b
	eor	v1.16b, v1.16b, v26.16b
	eor	v17.16b, v18.16b, v26.16b
	and	v31.16b, v16.16b, v3.16b
	eor	v0.16b, v27.16b, v7.16b
	eor	v21.16b, v25.16b, v19.16b
	and	v28.16b, v6.16b, v18.16b
	eor	v20.16b, v25.16b, v3.16b
	and	v29.16b, v25.16b, v2.16b
	eor	v31.16b, v31.16b, v1.16b
	eor	v23.16b, v0.16b, v19.16b
	eor	v19.16b, v6.16b, v1.16b
	eor	v22.16b, v0.16b, v21.16b
	eor	v24.16b, v0.16b, v3.16b
	and	v8.16b, v0.16b, v7.16b
	eor	v27.16b, v27.16b, v29.16b
	and	v12.16b, v21.16b, v1.16b
	eor	v29.16b, v21.16b, v29.16b
	and	v30.16b, v23.16b, v4.16b
	eor	v28.16b, v23.16b, v28.16b
	and	v9.16b, v20.16b, v19.16b
	and	v10.16b, v22.16b, v5.16b
	and	v11.16b, v24.16b, v17.16b
	eor	v29.16b, v31.16b, v29.16b
	eor	v28.16b, v28.16b, v30.16b
	eor	v27.16b, v27.16b, v9.16b
	eor	v26.16b, v30.16b, v26.16b
	eor	v9.16b, v10.16b, v8.16b
	eor	v10.16b, v23.16b, v11.16b
	eor	v30.16b, v12.16b, v8.16b
	ldp	q11, q12, [x8]
	eor	v28.16b, v28.16b, v4.16b
	eor	v27.16b, v27.16b, v9.16b
	eor	v26.16b, v10.16b, v26.16b
	eor	v29.16b, v29.16b, v30.16b
	eor	v28.16b, v28.16b, v9.16b
	eor	v30.16b, v26.16b, v30.16b
	and	v26.16b, v28.16b, v27.16b
	eor	v31.16b, v30.16b, v28.16b
	eor	v8.16b, v26.16b, v29.16b
	and	v31.16b, v8.16b, v31.16b
	eor	v8.16b, v27.16b, v29.16b
	eor	v27.16b, v26.16b, v30.16b
	eor	v26.16b, v31.16b, v26.16b
	and	v9.16b, v27.16b, v8.16b
	and	v10.16b, v26.16b, v30.16b
	eor	v26.16b, v9.16b, v29.16b
	eor	v29.16b, v10.16b, v27.16b
	eor	v27.16b, v31.16b, v30.16b
	eor	v28.16b, v10.16b, v28.16b
	and	v24.16b, v26.16b, v24.16b
	and	v17.16b, v26.16b, v17.16b
	and	v29.16b, v29.16b, v26.16b
	eor	v30.16b, v28.16b, v27.16b
	and	v31.16b, v27.16b, v3.16b
	eor	v3.16b, v26.16b, v27.16b
	and	v16.16b, v27.16b, v16.16b
	and	v2.16b, v28.16b, v2.16b
	eor	v29.16b, v29.16b, v8.16b
	and	v8.16b, v28.16b, v25.16b
	and	v20.16b, v30.16b, v20.16b
	and	v7.16b, v3.16b, v7.16b
	and	v19.16b, v30.16b, v19.16b
	and	v0.16b, v3.16b, v0.16b
	eor	v25.16b, v29.16b, v30.16b
	eor	v9.16b, v29.16b, v26.16b
	eor	v31.16b, v8.16b, v31.16b
	and	v18.16b, v29.16b, v18.16b
	and	v6.16b, v29.16b, v6.16b
	eor	v20.16b, v20.16b, v8.16b
	and	v23.16b, v9.16b, v23.16b
	eor	v10.16b, v25.16b, v3.16b
	and	v21.16b, v25.16b, v21.16b
	eor	v24.16b, v31.16b, v24.16b
	and	v4.16b, v9.16b, v4.16b
	and	v1.16b, v25.16b, v1.16b
	and	v5.16b, v10.16b, v5.16b
	eor	v18.16b, v23.16b, v18.16b
	and	v22.16b, v10.16b, v22.16b
	eor	v21.16b, v21.16b, v31.16b
	eor	v23.16b, v24.16b, v23.16b
	ldr	q24, [x8, #80]
	ldp	q31, q9, [x8, #32]
	eor	v5.16b, v5.16b, v7.16b
	eor	v22.16b, v18.16b, v22.16b
	eor	v7.16b, v24.16b, v7.16b
	eor	v21.16b, v21.16b, v4.16b
	eor	v6.16b, v23.16b, v6.16b
	eor	v4.16b, v4.16b, v11.16b
	eor	v3.16b, v16.16b, v31.16b
	eor	v16.16b, v20.16b, v18.16b
	ldr	q18, [x8, #64]
	eor	v19.16b, v5.16b, v19.16b
	eor	v1.16b, v7.16b, v1.16b
	eor	v0.16b, v22.16b, v0.16b
	eor	v21.16b, v21.16b, v22.16b
	eor	v5.16b, v6.16b, v5.16b
	ldp	d11, d10, [sp, #16]             // 16-byte Folded Reload
	eor	v2.16b, v19.16b, v2.16b
	eor	v3.16b, v3.16b, v19.16b
	eor	v1.16b, v1.16b, v0.16b
	eor	v6.16b, v21.16b, v12.16b
	eor	v7.16b, v21.16b, v17.16b
	eor	v17.16b, v23.16b, v9.16b
	eor	v4.16b, v4.16b, v5.16b
	ldp	d9, d8, [sp, #32]               // 16-byte Folded Reload
	eor	v16.16b, v16.16b, v2.16b
	eor	v5.16b, v6.16b, v5.16b
	ldp	q6, q19, [x8, #96]
	eor	v3.16b, v3.16b, v7.16b
	eor	v1.16b, v1.16b, v7.16b
	eor	v6.16b, v0.16b, v6.16b
	stp	q4, q5, [x2]
	eor	v4.16b, v17.16b, v16.16b
	eor	v0.16b, v0.16b, v19.16b
	eor	v17.16b, v16.16b, v18.16b
	stp	q3, q4, [x2, #32]
	eor	v3.16b, v6.16b, v16.16b
	eor	v0.16b, v0.16b, v2.16b
	stp	q17, q1, [x2, #64]
	stp	q3, q0, [x2, #96]
	ldr	d12, [sp], #48                  // 8-byte Folded Reload
	ret
.Lgcm_func_end25:
	.size	gcm.aes_soft.soft.ciphers.planes.EncryptPlaneCipher.process_planes, .Lgcm_func_end25-gcm.aes_soft.soft.ciphers.planes.EncryptPlaneCipher.process_planes
                                        // -- End function
	.section	.text.gcm.aes_soft.soft.blocks.filled_up.process_filled_up,"ax",@progbits
	.p2align	2                               // -- Begin function aes_soft::soft::blocks::filled_up::process_filled_up::<#2a076538018b6fb3>
	.type	gcm.aes_soft.soft.blocks.filled_up.process_filled_up,@function
gcm.aes_soft.soft.blocks.filled_up.process_filled_up: // @gcm.aes_soft.soft.blocks.filled_up.process_filled_up
// %bb.0:                               // %start
	sub	sp, sp, #432
	movi	v0.2d, #0000000000000000
	lsr	x9, x1, #3
	ldr	q1, [x2]
	stp	x29, x30, [sp, #384]            // 16-byte Folded Spill
	add	x29, sp, #384
	mov	x8, x0
	stp	x20, x19, [sp, #416]            // 16-byte Folded Spill
	mov	x20, x2
	str	x28, [sp, #400]                 // 8-byte Spill
	stp	q0, q0, [sp]
	stp	q0, q0, [sp, #32]
	stp	q0, q0, [sp, #64]
	stp	q0, q0, [sp, #96]
	stp	q0, q0, [sp, #128]
	stp	q0, q0, [sp, #160]
	stp	q0, q0, [sp, #192]
	stp	q0, q0, [sp, #224]
	ldr	q0, [x2]
	sub	x2, x9, #1
	stp	q1, q0, [x29, #-128]
	stp	q0, q0, [x29, #-96]
	stp	q0, q0, [x29, #-64]
	stp	q0, q0, [x29, #-32]
	cbz	x3, .Lgcm_BB26_11
// %bb.1:                               // %join.8.i
	ldr	q0, [x20]
	mov	x19, x3
	cmp	x3, #1
	stur	q0, [x29, #-128]
	b.eq	.Lgcm_BB26_8
// %bb.2:                               // %join.8.i.1
	ldr	q0, [x20, #16]
	cmp	x19, #2
	stur	q0, [x29, #-112]
	b.eq	.Lgcm_BB26_8
// %bb.3:                               // %join.8.i.2
	ldr	q0, [x20, #32]
	cmp	x19, #3
	stur	q0, [x29, #-96]
	b.eq	.Lgcm_BB26_8
// %bb.4:                               // %join.8.i.3
	ldr	q0, [x20, #48]
	cmp	x19, #4
	stur	q0, [x29, #-80]
	b.eq	.Lgcm_BB26_8
// %bb.5:                               // %join.8.i.4
	ldr	q0, [x20, #64]
	cmp	x19, #5
	stur	q0, [x29, #-64]
	b.eq	.Lgcm_BB26_8
// %bb.6:                               // %join.8.i.5
	ldr	q0, [x20, #80]
	cmp	x19, #6
	stur	q0, [x29, #-48]
	b.eq	.Lgcm_BB26_8
// %bb.7:                               // %join.8.i.6
	ldr	q0, [x20, #96]
	stur	q0, [x29, #-32]
.Lgcm_BB26_8:                               // %"aes_soft::soft::blocks::filled_up::filled_up::<#65d77337c4222250>.exit"
	mov	x0, sp
	sub	x3, x29, #128
	mov	x1, x8
	bl	gcm.aes_soft.soft.ciphers.planes.process_outlined
	ldp	q0, q1, [sp, #64]
	add	x8, sp, #128
	stp	q0, q1, [sp, #192]
	ldp	q0, q2, [sp, #96]
	stp	q0, q2, [sp, #224]
	ldp	q1, q0, [sp]
	stp	q1, q0, [sp, #128]
	ldp	q2, q0, [sp, #32]
	stp	q2, q0, [sp, #160]
.Lgcm_BB26_9:                               // %join.8.i19
                                        // =>This Inner Loop Header: Depth=1
	ldr	q0, [x8], #16
	subs	x19, x19, #1
	str	q0, [x20], #16
	b.ne	.Lgcm_BB26_9
// %bb.10:                              // %"aes_soft::soft::blocks::filled_up::copy_first::<#65d77337c4222250>.exit"
	ldp	x20, x19, [sp, #416]            // 16-byte Folded Reload
	ldr	x28, [sp, #400]                 // 8-byte Reload
	ldp	x29, x30, [sp, #384]            // 16-byte Folded Reload
	add	sp, sp, #432
	ret
.Lgcm_BB26_11:                              // %"aes_soft::soft::blocks::filled_up::copy_first::<#65d77337c4222250>.exit.critedge"
	mov	x0, sp
	sub	x3, x29, #128
	mov	x1, x8
	bl	gcm.aes_soft.soft.ciphers.planes.process_outlined
	ldp	q0, q1, [sp, #64]
	stp	q0, q1, [sp, #192]
	ldp	q0, q2, [sp, #96]
	stp	q0, q2, [sp, #224]
	ldp	q1, q0, [sp]
	stp	q1, q0, [sp, #128]
	ldp	q2, q0, [sp, #32]
	stp	q2, q0, [sp, #160]
	ldp	x20, x19, [sp, #416]            // 16-byte Folded Reload
	ldr	x28, [sp, #400]                 // 8-byte Reload
	ldp	x29, x30, [sp, #384]            // 16-byte Folded Reload
	add	sp, sp, #432
	ret
.Lgcm_func_end26:
	.size	gcm.aes_soft.soft.blocks.filled_up.process_filled_up, .Lgcm_func_end26-gcm.aes_soft.soft.blocks.filled_up.process_filled_up
                                        // -- End function
	.section	.text.gcm.aes_cipher.zeroize.zeroize_words,"ax",@progbits
	.p2align	2                               // -- Begin function aes_cipher::zeroize::zeroize_words::<#fab3fa1ddd682008>
	.type	gcm.aes_cipher.zeroize.zeroize_words,@function
gcm.aes_cipher.zeroize.zeroize_words: // @gcm.aes_cipher.zeroize.zeroize_words
// %bb.0:                               // %start
	stp	x29, x30, [sp, #-48]!           // 16-byte Folded Spill
	mov	x29, sp
	str	x21, [sp, #16]                  // 8-byte Spill
	stp	x20, x19, [sp, #32]             // 16-byte Folded Spill
	add	x8, x29, #24
	str	xzr, [x29, #24]
	//APP
	//NO_APP
	ldar	x8, [x8]
	//APP
	//NO_APP
	cmp	x8, #120
	b.hs	.Lgcm_BB27_2
// %bb.1:                               // %then.1.i
	lsl	x20, x8, #4
	mov	w1, wzr
	mov	w2, #1920                       // =0x780
	mov	x19, x0
	ldr	w21, [x0, x20]
	adrp	x16, :got:memset
	ldr	x16, [x16, :got_lo12:memset]
	blr	x16
	ldr	w8, [x19, x20]
	and	w8, w21, w8
	and	x8, x8, #0xff
	b	.Lgcm_BB27_3
.Lgcm_BB27_2:                               // %"aes_cipher::zeroize::observe::<#75b1955848bb803f>.exit11"
	mov	w1, wzr
	mov	w2, #1920                       // =0x780
	adrp	x16, :got:memset
	ldr	x16, [x16, :got_lo12:memset]
	blr	x16
	mov	x8, xzr
.Lgcm_BB27_3:                               // %"aes_cipher::zeroize::observe::<#75b1955848bb803f>.exit"
	//APP
	//NO_APP
.Lgcm_BB27_4:                               // %atomicrmw.start
                                        // =>This Inner Loop Header: Depth=1
	add	x9, x29, #24
	ldaxr	xzr, [x9]
	stlxr	w10, x8, [x9]
	cbnz	w10, .Lgcm_BB27_4
// %bb.5:                               // %atomicrmw.end
	//APP
	//NO_APP
	ldp	x20, x19, [sp, #32]             // 16-byte Folded Reload
	ldr	x21, [sp, #16]                  // 8-byte Reload
	ldp	x29, x30, [sp], #48             // 16-byte Folded Reload
	ret
.Lgcm_func_end27:
	.size	gcm.aes_cipher.zeroize.zeroize_words, .Lgcm_func_end27-gcm.aes_cipher.zeroize.zeroize_words
                                        // -- End function
	.section	.text.gcm.aes_cipher.zeroize.stack.wipe_stack.1792,"ax",@progbits
	.p2align	2                               // -- Begin function aes_cipher::zeroize::stack::wipe_stack::<=1792>
	.type	gcm.aes_cipher.zeroize.stack.wipe_stack.1792,@function
gcm.aes_cipher.zeroize.stack.wipe_stack.1792: // @gcm.aes_cipher.zeroize.stack.wipe_stack.1792
// %bb.0:                               // %start
	stp	x29, x30, [sp, #-32]!           // 16-byte Folded Spill
	stp	x28, x19, [sp, #16]             // 16-byte Folded Spill
	mov	x29, sp
	sub	sp, sp, #1808
	add	x0, sp, #16
	mov	w1, wzr
	mov	w2, #1792                       // =0x700
	str	xzr, [sp]
	add	x19, sp, #16
	adrp	x16, :got:memset
	ldr	x16, [x16, :got_lo12:memset]
	blr	x16
	str	xzr, [sp, #8]
	add	x8, sp, #8
	//APP
	//NO_APP
	ldar	x8, [x8]
	//APP
	//NO_APP
	cmp	x8, #1792
	b.hs	.Lgcm_BB28_4
// %bb.1:                               // %then.1
	ldrb	w8, [x19, x8]
	//APP
	//NO_APP
.Lgcm_BB28_2:                               // %atomicrmw.start
                                        // =>This Inner Loop Header: Depth=1
	add	x9, sp, #8
	ldaxr	xzr, [x9]
	stlxr	w10, x8, [x9]
	cbnz	w10, .Lgcm_BB28_2
// %bb.3:                               // %atomicrmw.end
	//APP
	//NO_APP
.Lgcm_BB28_4:                               // %common.ret
	add	sp, sp, #1808
	ldp	x28, x19, [sp, #16]             // 16-byte Folded Reload
	ldp	x29, x30, [sp], #32             // 16-byte Folded Reload
	ret
.Lgcm_func_end28:
	.size	gcm.aes_cipher.zeroize.stack.wipe_stack.1792, .Lgcm_func_end28-gcm.aes_cipher.zeroize.stack.wipe_stack.1792
                                        // -- End function
	.section	.rodata.cst16,"aM",@progbits,16
	.p2align	4, 0x0                          // -- Begin function aes_permute::blocks::process_on_lanes::<#06aaae76f5856d0a>
.Lgcm_CPI29_0:
	.byte	0                               // 0x0
	.byte	1                               // 0x1
	.byte	28                              // 0x1c
	.byte	29                              // 0x1d
	.byte	45                              // 0x2d
	.byte	44                              // 0x2c
	.byte	49                              // 0x31
	.byte	48                              // 0x30
	.byte	39                              // 0x27
	.byte	38                              // 0x26
	.byte	59                              // 0x3b
	.byte	58                              // 0x3a
	.byte	10                              // 0xa
	.byte	11                              // 0xb
	.byte	22                              // 0x16
	.byte	23                              // 0x17
.Lgcm_CPI29_1:
	.byte	0                               // 0x0
	.byte	134                             // 0x86
	.byte	253                             // 0xfd
	.byte	123                             // 0x7b
	.byte	142                             // 0x8e
	.byte	8                               // 0x8
	.byte	115                             // 0x73
	.byte	245                             // 0xf5
	.byte	119                             // 0x77
	.byte	241                             // 0xf1
	.byte	138                             // 0x8a
	.byte	12                              // 0xc
	.byte	249                             // 0xf9
	.byte	127                             // 0x7f
	.byte	4                               // 0x4
	.byte	130                             // 0x82
.Lgcm_CPI29_2:
	.byte	128                             // 0x80
	.byte	2                               // 0x2
	.byte	1                               // 0x1
	.byte	15                              // 0xf
	.byte	9                               // 0x9
	.byte	5                               // 0x5
	.byte	14                              // 0xe
	.byte	12                              // 0xc
	.byte	13                              // 0xd
	.byte	4                               // 0x4
	.byte	11                              // 0xb
	.byte	10                              // 0xa
	.byte	7                               // 0x7
	.byte	8                               // 0x8
	.byte	6                               // 0x6
	.byte	3                               // 0x3
.Lgcm_CPI29_3:
	.byte	128                             // 0x80
	.byte	1                               // 0x1
	.byte	9                               // 0x9
	.byte	14                              // 0xe
	.byte	13                              // 0xd
	.byte	11                              // 0xb
	.byte	7                               // 0x7
	.byte	6                               // 0x6
	.byte	15                              // 0xf
	.byte	2                               // 0x2
	.byte	12                              // 0xc
	.byte	5                               // 0x5
	.byte	10                              // 0xa
	.byte	4                               // 0x4
	.byte	3                               // 0x3
	.byte	8                               // 0x8
.Lgcm_CPI29_4:
	.byte	0                               // 0x0
	.byte	195                             // 0xc3
	.byte	79                              // 0x4f
	.byte	12                              // 0xc
	.byte	252                             // 0xfc
	.byte	124                             // 0x7c
	.byte	67                              // 0x43
	.byte	128                             // 0x80
	.byte	207                             // 0xcf
	.byte	51                              // 0x33
	.byte	63                              // 0x3f
	.byte	112                             // 0x70
	.byte	191                             // 0xbf
	.byte	179                             // 0xb3
	.byte	240                             // 0xf0
	.byte	140                             // 0x8c
.Lgcm_CPI29_5:
	.byte	0                               // 0x0
	.byte	230                             // 0xe6
	.byte	114                             // 0x72
	.byte	183                             // 0xb7
	.byte	229                             // 0xe5
	.byte	198                             // 0xc6
	.byte	197                             // 0xc5
	.byte	35                              // 0x23
	.byte	81                              // 0x51
	.byte	180                             // 0xb4
	.byte	3                               // 0x3
	.byte	113                             // 0x71
	.byte	32                              // 0x20
	.byte	151                             // 0x97
	.byte	82                              // 0x52
	.byte	148                             // 0x94
.Lgcm_CPI29_6:
	.byte	0                               // 0x0
	.byte	124                             // 0x7c
	.byte	32                              // 0x20
	.byte	207                             // 0xcf
	.byte	146                             // 0x92
	.byte	1                               // 0x1
	.byte	239                             // 0xef
	.byte	147                             // 0x93
	.byte	179                             // 0xb3
	.byte	33                              // 0x21
	.byte	238                             // 0xee
	.byte	206                             // 0xce
	.byte	125                             // 0x7d
	.byte	178                             // 0xb2
	.byte	93                              // 0x5d
	.byte	92                              // 0x5c
.Lgcm_CPI29_7:
	.byte	0                               // 0x0
	.byte	209                             // 0xd1
	.byte	229                             // 0xe5
	.byte	247                             // 0xf7
	.byte	230                             // 0xe6
	.byte	37                              // 0x25
	.byte	18                              // 0x12
	.byte	195                             // 0xc3
	.byte	38                              // 0x26
	.byte	192                             // 0xc0
	.byte	55                              // 0x37
	.byte	210                             // 0xd2
	.byte	244                             // 0xf4
	.byte	3                               // 0x3
	.byte	17                              // 0x11
	.byte	52                              // 0x34
.Lgcm_CPI29_8:
	.byte	0                               // 0x0
	.byte	203                             // 0xcb
	.byte	215                             // 0xd7
	.byte	176                             // 0xb0
	.byte	33                              // 0x21
	.byte	141                             // 0x8d
	.byte	103                             // 0x67
	.byte	172                             // 0xac
	.byte	123                             // 0x7b
	.byte	90                              // 0x5a
	.byte	234                             // 0xea
	.byte	61                              // 0x3d
	.byte	70                              // 0x46
	.byte	246                             // 0xf6
	.byte	145                             // 0x91
	.byte	28                              // 0x1c
.Lgcm_CPI29_9:
	.byte	0                               // 0x0
	.byte	159                             // 0x9f
	.byte	97                              // 0x61
	.byte	22                              // 0x16
	.byte	194                             // 0xc2
	.byte	42                              // 0x2a
	.byte	119                             // 0x77
	.byte	232                             // 0xe8
	.byte	137                             // 0x89
	.byte	75                              // 0x4b
	.byte	93                              // 0x5d
	.byte	60                              // 0x3c
	.byte	181                             // 0xb5
	.byte	163                             // 0xa3
	.byte	212                             // 0xd4
	.byte	254                             // 0xfe
	.section	.text.gcm.aes_permute.blocks.process_on_lanes,"ax",@progbits
	.p2align	2
	.type	gcm.aes_permute.blocks.process_on_lanes,@function
gcm.aes_permute.blocks.process_on_lanes: // @gcm.aes_permute.blocks.process_on_lanes
// %bb.0:                               // %start
	stp	x24, x23, [sp, #-48]!           // 16-byte Folded Spill
	adrp	x7, .Lgcm_static.3
	add	x7, x7, :lo12:.Lgcm_static.3
	cmp	x3, #2
	adrp	x8, .Lgcm_CPI29_0
	adrp	x9, .Lgcm_CPI29_1
	adrp	x10, .Lgcm_CPI29_2
	adrp	x11, .Lgcm_CPI29_3
	adrp	x12, .Lgcm_CPI29_8
	adrp	x13, .Lgcm_CPI29_9
	adrp	x14, .Lgcm_CPI29_4
	adrp	x15, .Lgcm_CPI29_5
	adrp	x16, .Lgcm_CPI29_6
	adrp	x17, .Lgcm_static.5
	add	x17, x17, :lo12:.Lgcm_static.5
	adrp	x4, .Lgcm_CPI29_7
	adrp	x5, .Lgcm_static.6
	add	x5, x5, :lo12:.Lgcm_static.6
	stp	x22, x21, [sp, #16]             // 16-byte Folded Spill
	stp	x20, x19, [sp, #32]             // 16-byte Folded Spill
	b.lo	.Lgcm_BB29_6
// %bb.1:                               // %join.5.lr.ph
	sub	x19, x1, #1
	lsl	x20, x19, #4
	and	x6, x20, #0x30
	ldr	q0, [x7, x6]
	mov	x6, xzr
	b	.Lgcm_BB29_3
.Lgcm_BB29_2:                               // %"aes_permute::blocks::process_two_vectors::<#06aaae76f5856d0a>.exit"
                                        //   in Loop: Header=BB29_3 Depth=1
	ushr	v4.16b, v3.16b, #4
	and	v3.16b, v3.16b, v1.16b
	ldr	q6, [x10, :lo12:.Lgcm_CPI29_2]
	ushr	v5.16b, v2.16b, #4
	and	v1.16b, v2.16b, v1.16b
	ldr	q7, [x11, :lo12:.Lgcm_CPI29_3]
	add	x6, x6, #2
	eor	v2.16b, v4.16b, v3.16b
	tbl	v3.16b, { v6.16b }, v3.16b
	tbl	v17.16b, { v7.16b }, v4.16b
	eor	v16.16b, v5.16b, v1.16b
	tbl	v1.16b, { v6.16b }, v1.16b
	tbl	v6.16b, { v7.16b }, v5.16b
	sub	x22, x3, x6
	tbl	v18.16b, { v7.16b }, v2.16b
	cmp	x22, #1
	tbl	v19.16b, { v7.16b }, v16.16b
	eor	v17.16b, v17.16b, v3.16b
	eor	v6.16b, v6.16b, v1.16b
	eor	v3.16b, v18.16b, v3.16b
	tbl	v17.16b, { v7.16b }, v17.16b
	eor	v1.16b, v19.16b, v1.16b
	tbl	v6.16b, { v7.16b }, v6.16b
	tbl	v3.16b, { v7.16b }, v3.16b
	tbl	v1.16b, { v7.16b }, v1.16b
	eor	v2.16b, v17.16b, v2.16b
	ldr	q7, [x12, :lo12:.Lgcm_CPI29_8]
	eor	v6.16b, v6.16b, v16.16b
	eor	v3.16b, v3.16b, v4.16b
	ldr	q4, [x13, :lo12:.Lgcm_CPI29_9]
	tbl	v2.16b, { v7.16b }, v2.16b
	eor	v1.16b, v1.16b, v5.16b
	tbl	v5.16b, { v7.16b }, v6.16b
	tbl	v3.16b, { v4.16b }, v3.16b
	tbl	v1.16b, { v4.16b }, v1.16b
	eor	v2.16b, v3.16b, v2.16b
	ldr	q3, [x0, x20]
	eor	v1.16b, v1.16b, v5.16b
	tbl	v2.16b, { v2.16b }, v0.16b
	tbl	v1.16b, { v1.16b }, v0.16b
	eor	v2.16b, v2.16b, v3.16b
	eor	v1.16b, v1.16b, v3.16b
	stp	q2, q1, [x21]
	b.ls	.Lgcm_BB29_7
.Lgcm_BB29_3:                               // %join.5
                                        // =>This Loop Header: Depth=1
                                        //     Child Loop BB29_5 Depth 2
	add	x21, x2, x6, lsl #4
	ldr	q2, [x0]
	movi	v1.16b, #15
	ldr	q7, [x9, :lo12:.Lgcm_CPI29_1]
	cmp	x19, #2
	ldp	q3, q4, [x21]
	eor	v3.16b, v2.16b, v3.16b
	eor	v2.16b, v2.16b, v4.16b
	ldr	q4, [x8, :lo12:.Lgcm_CPI29_0]
	and	v5.16b, v3.16b, v1.16b
	ushr	v3.16b, v3.16b, #4
	and	v6.16b, v2.16b, v1.16b
	ushr	v2.16b, v2.16b, #4
	tbl	v5.16b, { v4.16b }, v5.16b
	tbl	v3.16b, { v7.16b }, v3.16b
	tbl	v4.16b, { v4.16b }, v6.16b
	tbl	v2.16b, { v7.16b }, v2.16b
	eor	v3.16b, v3.16b, v5.16b
	eor	v2.16b, v2.16b, v4.16b
	b.lo	.Lgcm_BB29_2
// %bb.4:                               // %join.5.i2572.preheader
                                        //   in Loop: Header=BB29_3 Depth=1
	mov	w22, #16                        // =0x10
	sub	x23, x1, #2
.Lgcm_BB29_5:                               // %join.5.i2572
                                        //   Parent Loop BB29_3 Depth=1
                                        // =>  This Inner Loop Header: Depth=2
	movi	v4.16b, #15
	ushr	v5.16b, v3.16b, #4
	ldr	q7, [x10, :lo12:.Lgcm_CPI29_2]
	ushr	v6.16b, v2.16b, #4
	ldr	q16, [x11, :lo12:.Lgcm_CPI29_3]
	and	x24, x22, #0x30
	subs	x23, x23, #1
	tbl	v18.16b, { v16.16b }, v5.16b
	and	v3.16b, v3.16b, v4.16b
	and	v2.16b, v2.16b, v4.16b
	tbl	v20.16b, { v16.16b }, v6.16b
	eor	v4.16b, v5.16b, v3.16b
	eor	v17.16b, v6.16b, v2.16b
	tbl	v3.16b, { v7.16b }, v3.16b
	tbl	v2.16b, { v7.16b }, v2.16b
	tbl	v19.16b, { v16.16b }, v4.16b
	tbl	v7.16b, { v16.16b }, v17.16b
	eor	v18.16b, v18.16b, v3.16b
	eor	v3.16b, v19.16b, v3.16b
	eor	v19.16b, v20.16b, v2.16b
	eor	v2.16b, v7.16b, v2.16b
	tbl	v7.16b, { v16.16b }, v18.16b
	tbl	v3.16b, { v16.16b }, v3.16b
	tbl	v18.16b, { v16.16b }, v19.16b
	tbl	v2.16b, { v16.16b }, v2.16b
	ldr	q16, [x14, :lo12:.Lgcm_CPI29_4]
	ldr	q19, [x4, :lo12:.Lgcm_CPI29_7]
	eor	v4.16b, v7.16b, v4.16b
	eor	v3.16b, v3.16b, v5.16b
	eor	v7.16b, v18.16b, v17.16b
	eor	v2.16b, v2.16b, v6.16b
	ldr	q5, [x15, :lo12:.Lgcm_CPI29_5]
	tbl	v6.16b, { v16.16b }, v4.16b
	ldr	q18, [x16, :lo12:.Lgcm_CPI29_6]
	tbl	v17.16b, { v5.16b }, v3.16b
	tbl	v16.16b, { v16.16b }, v7.16b
	tbl	v5.16b, { v5.16b }, v2.16b
	tbl	v4.16b, { v18.16b }, v4.16b
	tbl	v3.16b, { v19.16b }, v3.16b
	tbl	v7.16b, { v18.16b }, v7.16b
	tbl	v2.16b, { v19.16b }, v2.16b
	eor	v6.16b, v17.16b, v6.16b
	eor	v5.16b, v5.16b, v16.16b
	ldr	q16, [x17, x24]
	eor	v3.16b, v3.16b, v4.16b
	ldr	q4, [x5, x24]
	eor	v2.16b, v2.16b, v7.16b
	tbl	v17.16b, { v6.16b }, v16.16b
	tbl	v18.16b, { v5.16b }, v16.16b
	tbl	v6.16b, { v6.16b }, v4.16b
	tbl	v4.16b, { v5.16b }, v4.16b
	eor	v3.16b, v3.16b, v17.16b
	eor	v2.16b, v2.16b, v18.16b
	eor	v5.16b, v6.16b, v3.16b
	eor	v4.16b, v4.16b, v2.16b
	ldr	q6, [x0, x22]
	tbl	v3.16b, { v3.16b }, v16.16b
	tbl	v2.16b, { v2.16b }, v16.16b
	add	x22, x22, #16
	eor	v5.16b, v5.16b, v6.16b
	eor	v4.16b, v4.16b, v6.16b
	eor	v3.16b, v3.16b, v5.16b
	eor	v2.16b, v2.16b, v4.16b
	b.ne	.Lgcm_BB29_5
	b	.Lgcm_BB29_2
.Lgcm_BB29_6:
	mov	x6, xzr
.Lgcm_BB29_7:                               // %loop.7.preheader
	cmp	x3, x6
	b.ne	.Lgcm_BB29_9
.Lgcm_BB29_8:                               // %after.11
	ldp	x20, x19, [sp, #32]             // 16-byte Folded Reload
	ldp	x22, x21, [sp, #16]             // 16-byte Folded Reload
	ldp	x24, x23, [sp], #48             // 16-byte Folded Reload
	ret
.Lgcm_BB29_9:                               // %join.10.lr.ph
	sub	x19, x1, #1
	sub	x1, x1, #2
	lsl	x20, x19, #4
	and	x21, x20, #0x30
	ldr	q0, [x7, x21]
	b	.Lgcm_BB29_11
.Lgcm_BB29_10:                              // %"aes_permute::blocks::process_vector::<#06aaae76f5856d0a>.exit54"
                                        //   in Loop: Header=BB29_11 Depth=1
	ushr	v3.16b, v2.16b, #4
	and	v1.16b, v2.16b, v1.16b
	ldr	q4, [x10, :lo12:.Lgcm_CPI29_2]
	ldr	q5, [x11, :lo12:.Lgcm_CPI29_3]
	eor	v2.16b, v3.16b, v1.16b
	tbl	v1.16b, { v4.16b }, v1.16b
	tbl	v4.16b, { v5.16b }, v3.16b
	tbl	v6.16b, { v5.16b }, v2.16b
	eor	v4.16b, v4.16b, v1.16b
	eor	v1.16b, v6.16b, v1.16b
	tbl	v4.16b, { v5.16b }, v4.16b
	tbl	v1.16b, { v5.16b }, v1.16b
	eor	v2.16b, v4.16b, v2.16b
	ldr	q4, [x13, :lo12:.Lgcm_CPI29_9]
	eor	v1.16b, v1.16b, v3.16b
	ldr	q3, [x12, :lo12:.Lgcm_CPI29_8]
	tbl	v2.16b, { v3.16b }, v2.16b
	tbl	v1.16b, { v4.16b }, v1.16b
	eor	v1.16b, v1.16b, v2.16b
	ldr	q2, [x0, x20]
	tbl	v1.16b, { v1.16b }, v0.16b
	eor	v1.16b, v1.16b, v2.16b
	str	q1, [x2, x6, lsl #4]
	add	x6, x6, #1
	cmp	x3, x6
	b.eq	.Lgcm_BB29_8
.Lgcm_BB29_11:                              // %join.10
                                        // =>This Loop Header: Depth=1
                                        //     Child Loop BB29_13 Depth 2
	ldr	q2, [x2, x6, lsl #4]
	ldr	q3, [x0]
	movi	v1.16b, #15
	ldr	q4, [x8, :lo12:.Lgcm_CPI29_0]
	ldr	q5, [x9, :lo12:.Lgcm_CPI29_1]
	cmp	x19, #2
	eor	v2.16b, v3.16b, v2.16b
	and	v3.16b, v2.16b, v1.16b
	ushr	v2.16b, v2.16b, #4
	tbl	v3.16b, { v4.16b }, v3.16b
	tbl	v2.16b, { v5.16b }, v2.16b
	eor	v2.16b, v2.16b, v3.16b
	b.lo	.Lgcm_BB29_10
// %bb.12:                              // %join.5.i50.preheader
                                        //   in Loop: Header=BB29_11 Depth=1
	mov	w7, #16                         // =0x10
	mov	x21, x1
.Lgcm_BB29_13:                              // %join.5.i50
                                        //   Parent Loop BB29_11 Depth=1
                                        // =>  This Inner Loop Header: Depth=2
	movi	v3.16b, #15
	ushr	v4.16b, v2.16b, #4
	ldr	q5, [x10, :lo12:.Lgcm_CPI29_2]
	ldr	q6, [x11, :lo12:.Lgcm_CPI29_3]
	and	x22, x7, #0x30
	subs	x21, x21, #1
	tbl	v7.16b, { v6.16b }, v4.16b
	and	v2.16b, v2.16b, v3.16b
	eor	v3.16b, v4.16b, v2.16b
	tbl	v2.16b, { v5.16b }, v2.16b
	tbl	v5.16b, { v6.16b }, v3.16b
	eor	v7.16b, v7.16b, v2.16b
	eor	v2.16b, v5.16b, v2.16b
	tbl	v5.16b, { v6.16b }, v7.16b
	ldr	q7, [x4, :lo12:.Lgcm_CPI29_7]
	tbl	v2.16b, { v6.16b }, v2.16b
	ldr	q6, [x16, :lo12:.Lgcm_CPI29_6]
	eor	v3.16b, v5.16b, v3.16b
	ldr	q5, [x15, :lo12:.Lgcm_CPI29_5]
	eor	v2.16b, v2.16b, v4.16b
	ldr	q4, [x14, :lo12:.Lgcm_CPI29_4]
	tbl	v4.16b, { v4.16b }, v3.16b
	tbl	v3.16b, { v6.16b }, v3.16b
	ldr	q6, [x5, x22]
	tbl	v5.16b, { v5.16b }, v2.16b
	tbl	v2.16b, { v7.16b }, v2.16b
	eor	v4.16b, v5.16b, v4.16b
	ldr	q5, [x17, x22]
	eor	v2.16b, v2.16b, v3.16b
	tbl	v7.16b, { v4.16b }, v5.16b
	tbl	v3.16b, { v4.16b }, v6.16b
	ldr	q4, [x0, x7]
	add	x7, x7, #16
	eor	v2.16b, v2.16b, v7.16b
	eor	v3.16b, v4.16b, v3.16b
	tbl	v4.16b, { v2.16b }, v5.16b
	eor	v2.16b, v3.16b, v2.16b
	eor	v2.16b, v4.16b, v2.16b
	b.ne	.Lgcm_BB29_13
	b	.Lgcm_BB29_10
.Lgcm_func_end29:
	.size	gcm.aes_permute.blocks.process_on_lanes, .Lgcm_func_end29-gcm.aes_permute.blocks.process_on_lanes
                                        // -- End function
	.section	.text.gcm.aes_hybrid.closures.lend_planes.1,"ax",@progbits
	.p2align	2                               // -- Begin function aes_hybrid::closures::lend_planes::<#8383eef3f4ca9323>
	.type	gcm.aes_hybrid.closures.lend_planes.1,@function
gcm.aes_hybrid.closures.lend_planes.1: // @gcm.aes_hybrid.closures.lend_planes.1
// %bb.0:                               // %start
	stp	x29, x30, [sp, #-80]!           // 16-byte Folded Spill
	str	x28, [sp, #16]                  // 8-byte Spill
	mov	x29, sp
	stp	x24, x23, [sp, #32]             // 16-byte Folded Spill
	stp	x22, x21, [sp, #48]             // 16-byte Folded Spill
	stp	x20, x19, [sp, #64]             // 16-byte Folded Spill
	sub	sp, sp, #1952
	add	x8, sp, #32
	mov	x21, x2
	mov	x22, x1
	mov	x23, x0
	add	x0, x8, #128
	mov	w1, wzr
	mov	w2, #1792                       // =0x700
	str	xzr, [sp]
	mov	x19, x4
	mov	x20, x3
	adrp	x16, :got:memset
	ldr	x16, [x16, :got_lo12:memset]
	blr	x16
	add	x0, sp, #32
	mov	x1, x23
	mov	x2, x22
	lsl	x24, x22, #3
	bl	gcm.aes_hybrid.plane_keys.store_planes
	mov	x0, sp
	add	x1, sp, #32
	mov	x2, x24
	mov	x3, x19
	stp	x23, x22, [sp]
	stp	x21, x20, [sp, #16]
	bl	gcm.aes_hybrid.closures.call_to_work.1
	add	x0, sp, #32
	bl	gcm.aes_cipher.zeroize.zeroize_words
	bl	gcm.aes_cipher.zeroize.stack.wipe_stack.2032
	add	sp, sp, #1952
	ldp	x20, x19, [sp, #64]             // 16-byte Folded Reload
	ldr	x28, [sp, #16]                  // 8-byte Reload
	ldp	x22, x21, [sp, #48]             // 16-byte Folded Reload
	ldp	x24, x23, [sp, #32]             // 16-byte Folded Reload
	ldp	x29, x30, [sp], #80             // 16-byte Folded Reload
	ret
.Lgcm_func_end30:
	.size	gcm.aes_hybrid.closures.lend_planes.1, .Lgcm_func_end30-gcm.aes_hybrid.closures.lend_planes.1
                                        // -- End function
	.section	.rodata.cst16,"aM",@progbits,16
	.p2align	4, 0x0                          // -- Begin function aes_hybrid::closures::call_to_work::<#8383eef3f4ca9323>
.Lgcm_CPI31_0:
	.byte	15                              // 0xf
	.byte	11                              // 0xb
	.byte	7                               // 0x7
	.byte	3                               // 0x3
	.byte	14                              // 0xe
	.byte	10                              // 0xa
	.byte	6                               // 0x6
	.byte	2                               // 0x2
	.byte	13                              // 0xd
	.byte	9                               // 0x9
	.byte	5                               // 0x5
	.byte	1                               // 0x1
	.byte	12                              // 0xc
	.byte	8                               // 0x8
	.byte	4                               // 0x4
	.byte	0                               // 0x0
.Lgcm_CPI31_1:
	.byte	0                               // 0x0
	.byte	4                               // 0x4
	.byte	8                               // 0x8
	.byte	12                              // 0xc
	.byte	1                               // 0x1
	.byte	5                               // 0x5
	.byte	9                               // 0x9
	.byte	13                              // 0xd
	.byte	2                               // 0x2
	.byte	6                               // 0x6
	.byte	10                              // 0xa
	.byte	14                              // 0xe
	.byte	3                               // 0x3
	.byte	7                               // 0x7
	.byte	11                              // 0xb
	.byte	15                              // 0xf
	.section	.text.gcm.aes_hybrid.closures.call_to_work.1,"ax",@progbits
	.p2align	2
	.type	gcm.aes_hybrid.closures.call_to_work.1,@function
gcm.aes_hybrid.closures.call_to_work.1: // @gcm.aes_hybrid.closures.call_to_work.1
// %bb.0:                               // %start
	sub	sp, sp, #256
	stp	x20, x19, [sp, #240]            // 16-byte Folded Spill
	ldp	x20, x19, [x3]
	stp	x22, x21, [sp, #224]            // 16-byte Folded Spill
	ldp	x22, x21, [x3, #16]
	stp	x24, x23, [sp, #208]            // 16-byte Folded Spill
	mov	x24, x2
	mov	x23, x1
	tst	x19, #0xf
	stp	x29, x30, [sp, #160]            // 16-byte Folded Spill
	add	x29, sp, #160
	stp	x28, x27, [sp, #176]            // 16-byte Folded Spill
	stp	x26, x25, [sp, #192]            // 16-byte Folded Spill
	stp	x0, x1, [sp, #8]
	str	x2, [sp, #24]
	b.eq	.Lgcm_BB31_5
// %bb.1:                               // %then.1.i.i
	add	x0, sp, #8
	mov	x1, x20
	mov	x2, x19
	mov	x3, xzr
	mov	x4, x22
	mov	x5, x21
	bl	gcm.aes_ctr.add_in_batches.add_next.1
	mov	x3, x0
	sub	x25, x21, x0
	cmp	x25, #128
	b.hs	.Lgcm_BB31_6
.Lgcm_BB31_2:                               // %loop.13.preheader.i.i
	cmp	x3, x21
	b.hs	.Lgcm_BB31_4
.Lgcm_BB31_3:                               // %join.16.i.i
                                        // =>This Inner Loop Header: Depth=1
	add	x0, sp, #8
	mov	x1, x20
	mov	x2, x19
	mov	x4, x22
	mov	x5, x21
	bl	gcm.aes_ctr.add_in_batches.add_next.1
	mov	x3, x0
	cmp	x0, x21
	b.lo	.Lgcm_BB31_3
.Lgcm_BB31_4:                               // %"aes_ctr::add_in_batches::AddStreamBlockCipherEncClosure::call::<#568a98508308736d>.exit"
	ldp	x20, x19, [sp, #240]            // 16-byte Folded Reload
	ldp	x22, x21, [sp, #224]            // 16-byte Folded Reload
	ldp	x24, x23, [sp, #208]            // 16-byte Folded Reload
	ldp	x26, x25, [sp, #192]            // 16-byte Folded Reload
	ldp	x28, x27, [sp, #176]            // 16-byte Folded Reload
	ldp	x29, x30, [sp, #160]            // 16-byte Folded Reload
	add	sp, sp, #256
	ret
.Lgcm_BB31_5:
	mov	x3, xzr
	sub	x25, x21, xzr
	cmp	x25, #128
	b.lo	.Lgcm_BB31_2
.Lgcm_BB31_6:                               // %join.11.lr.ph.i.i
	lsr	x8, x24, #3
	add	x9, x3, x22
	add	x26, sp, #32
	str	x22, [sp]                       // 8-byte Spill
	add	x28, x3, x19
	neg	x27, x3
	sub	x24, x8, #1
	add	x22, x9, #64
.Lgcm_BB31_7:                               // %join.11.i.i
                                        // =>This Inner Loop Header: Depth=1
	ldp	x11, x8, [x20]
	movi	v21.16b, #85
	add	x2, sp, #32
	mov	x0, x23
	mov	x1, x24
	rev	x8, x8
	rev	x11, x11
	add	x9, x8, x28, lsr #4
	and	x8, x8, #0xffffffff00000000
	mov	w10, w9
	add	w12, w9, #1
	add	w13, w9, #2
	orr	x10, x8, x10
	orr	x12, x8, x12
	orr	x13, x8, x13
	fmov	d0, x10
	add	w10, w9, #3
	fmov	d1, x12
	add	w12, w9, #4
	fmov	d2, x13
	add	w13, w9, #5
	orr	x10, x8, x10
	orr	x12, x8, x12
	fmov	d3, x10
	fmov	d4, x12
	orr	x10, x8, x13
	fmov	d5, x10
	add	w10, w9, #6
	mov	v0.d[1], x11
	orr	x10, x8, x10
	add	w9, w9, #7
	mov	v2.d[1], x11
	mov	v4.d[1], x11
	fmov	d6, x10
	adrp	x10, .Lgcm_CPI31_0
	ldr	q7, [x10, :lo12:.Lgcm_CPI31_0]
	orr	x8, x8, x9
	mov	v1.d[1], x11
	mov	v5.d[1], x11
	fmov	d16, x8
	mov	v3.d[1], x11
	mov	v6.d[1], x11
	tbl	v17.16b, { v0.16b }, v7.16b
	tbl	v18.16b, { v2.16b }, v7.16b
	tbl	v4.16b, { v4.16b }, v7.16b
	mov	v16.d[1], x11
	tbl	v0.16b, { v1.16b }, v7.16b
	tbl	v1.16b, { v5.16b }, v7.16b
	tbl	v19.16b, { v3.16b }, v7.16b
	tbl	v6.16b, { v6.16b }, v7.16b
	ushr	v2.16b, v17.16b, #1
	ushr	v3.16b, v18.16b, #1
	ushr	v5.16b, v4.16b, #1
	tbl	v7.16b, { v16.16b }, v7.16b
	eor	v2.16b, v0.16b, v2.16b
	eor	v3.16b, v3.16b, v19.16b
	ushr	v16.16b, v6.16b, #1
	eor	v5.16b, v5.16b, v1.16b
	and	v2.16b, v2.16b, v21.16b
	and	v20.16b, v3.16b, v21.16b
	eor	v16.16b, v16.16b, v7.16b
	and	v5.16b, v5.16b, v21.16b
	add	v3.16b, v2.16b, v2.16b
	add	v22.16b, v20.16b, v20.16b
	eor	v0.16b, v2.16b, v0.16b
	and	v16.16b, v16.16b, v21.16b
	add	v21.16b, v5.16b, v5.16b
	eor	v1.16b, v5.16b, v1.16b
	eor	v3.16b, v3.16b, v17.16b
	eor	v5.16b, v22.16b, v18.16b
	ushr	v17.16b, v0.16b, #2
	add	v23.16b, v16.16b, v16.16b
	eor	v2.16b, v21.16b, v4.16b
	eor	v4.16b, v20.16b, v19.16b
	eor	v7.16b, v16.16b, v7.16b
	ushr	v16.16b, v1.16b, #2
	movi	v20.16b, #51
	ushr	v18.16b, v3.16b, #2
	eor	v6.16b, v23.16b, v6.16b
	ushr	v19.16b, v2.16b, #2
	eor	v17.16b, v4.16b, v17.16b
	eor	v16.16b, v16.16b, v7.16b
	movi	v23.16b, #15
	eor	v18.16b, v5.16b, v18.16b
	eor	v19.16b, v19.16b, v6.16b
	and	v17.16b, v17.16b, v20.16b
	and	v16.16b, v16.16b, v20.16b
	and	v18.16b, v18.16b, v20.16b
	and	v19.16b, v19.16b, v20.16b
	eor	v4.16b, v17.16b, v4.16b
	shl	v17.16b, v17.16b, #2
	eor	v7.16b, v16.16b, v7.16b
	shl	v16.16b, v16.16b, #2
	eor	v5.16b, v18.16b, v5.16b
	shl	v18.16b, v18.16b, #2
	eor	v6.16b, v19.16b, v6.16b
	shl	v19.16b, v19.16b, #2
	ushr	v20.16b, v4.16b, #4
	eor	v0.16b, v17.16b, v0.16b
	eor	v1.16b, v16.16b, v1.16b
	ushr	v21.16b, v5.16b, #4
	eor	v3.16b, v18.16b, v3.16b
	and	v18.16b, v7.16b, v23.16b
	and	v22.16b, v6.16b, v23.16b
	eor	v2.16b, v19.16b, v2.16b
	eor	v17.16b, v18.16b, v20.16b
	ushr	v18.16b, v3.16b, #4
	ushr	v20.16b, v0.16b, #4
	eor	v16.16b, v22.16b, v21.16b
	and	v19.16b, v2.16b, v23.16b
	and	v21.16b, v1.16b, v23.16b
	eor	v18.16b, v19.16b, v18.16b
	eor	v20.16b, v21.16b, v20.16b
	eor	v6.16b, v16.16b, v6.16b
	shl	v22.16b, v16.16b, #4
	shl	v19.16b, v17.16b, #4
	shl	v16.16b, v18.16b, #4
	eor	v2.16b, v18.16b, v2.16b
	str	q6, [sp, #128]
	shl	v6.16b, v20.16b, #4
	eor	v1.16b, v20.16b, v1.16b
	eor	v5.16b, v22.16b, v5.16b
	eor	v4.16b, v19.16b, v4.16b
	eor	v3.16b, v16.16b, v3.16b
	eor	v0.16b, v6.16b, v0.16b
	stp	q2, q1, [sp, #96]
	eor	v2.16b, v17.16b, v7.16b
	stp	q5, q4, [sp, #64]
	stp	q3, q0, [sp, #32]
	str	q2, [x26, #112]
	bl	gcm.aes_soft.soft.ciphers.planes.EncryptPlaneCipher.process_planes
	ldp	q0, q3, [sp, #96]
	movi	v20.16b, #85
	ldp	q1, q2, [sp, #32]
	adrp	x8, .Lgcm_CPI31_1
	ldp	q7, q16, [sp, #64]
	sub	x25, x25, #128
	ushr	v6.16b, v0.16b, #1
	ldr	q4, [sp, #128]
	ldr	q19, [x26, #112]
	ushr	v5.16b, v1.16b, #1
	cmp	x25, #127
	add	x28, x28, #128
	ushr	v17.16b, v7.16b, #1
	ushr	v18.16b, v4.16b, #1
	sub	x27, x27, #128
	eor	v6.16b, v3.16b, v6.16b
	eor	v5.16b, v2.16b, v5.16b
	eor	v17.16b, v16.16b, v17.16b
	eor	v18.16b, v19.16b, v18.16b
	and	v6.16b, v6.16b, v20.16b
	and	v5.16b, v5.16b, v20.16b
	and	v17.16b, v17.16b, v20.16b
	and	v18.16b, v18.16b, v20.16b
	add	v21.16b, v6.16b, v6.16b
	eor	v3.16b, v6.16b, v3.16b
	add	v20.16b, v5.16b, v5.16b
	eor	v2.16b, v5.16b, v2.16b
	add	v22.16b, v17.16b, v17.16b
	add	v23.16b, v18.16b, v18.16b
	eor	v18.16b, v18.16b, v19.16b
	eor	v5.16b, v21.16b, v0.16b
	eor	v0.16b, v17.16b, v16.16b
	ushr	v19.16b, v3.16b, #2
	eor	v1.16b, v20.16b, v1.16b
	movi	v20.16b, #51
	eor	v6.16b, v22.16b, v7.16b
	eor	v4.16b, v23.16b, v4.16b
	ushr	v7.16b, v2.16b, #2
	ushr	v17.16b, v5.16b, #2
	eor	v19.16b, v18.16b, v19.16b
	movi	v22.16b, #15
	ushr	v16.16b, v1.16b, #2
	eor	v7.16b, v0.16b, v7.16b
	eor	v17.16b, v4.16b, v17.16b
	and	v19.16b, v19.16b, v20.16b
	eor	v16.16b, v6.16b, v16.16b
	and	v7.16b, v7.16b, v20.16b
	and	v17.16b, v17.16b, v20.16b
	shl	v21.16b, v19.16b, #2
	eor	v18.16b, v19.16b, v18.16b
	and	v16.16b, v16.16b, v20.16b
	shl	v20.16b, v7.16b, #2
	eor	v7.16b, v7.16b, v0.16b
	eor	v4.16b, v17.16b, v4.16b
	shl	v17.16b, v17.16b, #2
	eor	v3.16b, v21.16b, v3.16b
	eor	v6.16b, v16.16b, v6.16b
	shl	v16.16b, v16.16b, #2
	eor	v0.16b, v20.16b, v2.16b
	and	v19.16b, v4.16b, v22.16b
	eor	v5.16b, v17.16b, v5.16b
	and	v17.16b, v18.16b, v22.16b
	ushr	v2.16b, v6.16b, #4
	eor	v1.16b, v16.16b, v1.16b
	ushr	v16.16b, v7.16b, #4
	ushr	v20.16b, v0.16b, #4
	eor	v2.16b, v19.16b, v2.16b
	and	v19.16b, v3.16b, v22.16b
	ushr	v21.16b, v1.16b, #4
	and	v22.16b, v5.16b, v22.16b
	eor	v16.16b, v17.16b, v16.16b
	shl	v17.16b, v2.16b, #4
	eor	v19.16b, v19.16b, v20.16b
	eor	v2.16b, v2.16b, v4.16b
	eor	v20.16b, v22.16b, v21.16b
	shl	v4.16b, v16.16b, #4
	eor	v16.16b, v16.16b, v18.16b
	eor	v6.16b, v17.16b, v6.16b
	ldr	q17, [x8, :lo12:.Lgcm_CPI31_1]
	shl	v18.16b, v19.16b, #4
	eor	v4.16b, v4.16b, v7.16b
	shl	v7.16b, v20.16b, #4
	eor	v5.16b, v20.16b, v5.16b
	tbl	v2.16b, { v2.16b }, v17.16b
	tbl	v16.16b, { v16.16b }, v17.16b
	eor	v3.16b, v19.16b, v3.16b
	eor	v0.16b, v18.16b, v0.16b
	tbl	v6.16b, { v6.16b }, v17.16b
	eor	v1.16b, v7.16b, v1.16b
	ldp	q18, q7, [x22, #32]
	tbl	v5.16b, { v5.16b }, v17.16b
	tbl	v4.16b, { v4.16b }, v17.16b
	tbl	v3.16b, { v3.16b }, v17.16b
	tbl	v0.16b, { v0.16b }, v17.16b
	eor	v2.16b, v18.16b, v2.16b
	ldp	q19, q18, [x22, #-32]
	eor	v7.16b, v7.16b, v16.16b
	tbl	v1.16b, { v1.16b }, v17.16b
	eor	v6.16b, v6.16b, v19.16b
	ldp	q16, q19, [x22]
	stp	q2, q7, [x22, #32]
	eor	v4.16b, v4.16b, v18.16b
	eor	v2.16b, v5.16b, v16.16b
	ldp	q5, q7, [x22, #-64]
	eor	v3.16b, v19.16b, v3.16b
	stp	q6, q4, [x22, #-32]
	eor	v1.16b, v1.16b, v5.16b
	eor	v0.16b, v0.16b, v7.16b
	stp	q2, q3, [x22]
	stp	q1, q0, [x22, #-64]
	add	x22, x22, #128
	b.hi	.Lgcm_BB31_7
// %bb.8:                               // %loop.13.preheader.i.i.loopexit
	ldr	x22, [sp]                       // 8-byte Reload
	neg	x3, x27
	cmp	x3, x21
	b.lo	.Lgcm_BB31_3
	b	.Lgcm_BB31_4
.Lgcm_func_end31:
	.size	gcm.aes_hybrid.closures.call_to_work.1, .Lgcm_func_end31-gcm.aes_hybrid.closures.call_to_work.1
                                        // -- End function
	.section	.rodata.cst16,"aM",@progbits,16
	.p2align	4, 0x0                          // -- Begin function aes_ctr::add_in_batches::add_next::<#849d7687381e9207>
.Lgcm_CPI32_0:
	.byte	0                               // 0x0
	.byte	4                               // 0x4
	.byte	8                               // 0x8
	.byte	12                              // 0xc
	.byte	1                               // 0x1
	.byte	5                               // 0x5
	.byte	9                               // 0x9
	.byte	13                              // 0xd
	.byte	2                               // 0x2
	.byte	6                               // 0x6
	.byte	10                              // 0xa
	.byte	14                              // 0xe
	.byte	3                               // 0x3
	.byte	7                               // 0x7
	.byte	11                              // 0xb
	.byte	15                              // 0xf
.Lgcm_CPI32_1:
	.byte	0                               // 0x0
	.byte	4                               // 0x4
	.byte	8                               // 0x8
	.byte	19                              // 0x13
	.byte	1                               // 0x1
	.byte	5                               // 0x5
	.byte	9                               // 0x9
	.byte	18                              // 0x12
	.byte	2                               // 0x2
	.byte	6                               // 0x6
	.byte	10                              // 0xa
	.byte	17                              // 0x11
	.byte	3                               // 0x3
	.byte	7                               // 0x7
	.byte	11                              // 0xb
	.byte	16                              // 0x10
.Lgcm_CPI32_2:
	.byte	15                              // 0xf
	.byte	11                              // 0xb
	.byte	7                               // 0x7
	.byte	3                               // 0x3
	.byte	14                              // 0xe
	.byte	10                              // 0xa
	.byte	6                               // 0x6
	.byte	2                               // 0x2
	.byte	13                              // 0xd
	.byte	9                               // 0x9
	.byte	5                               // 0x5
	.byte	1                               // 0x1
	.byte	12                              // 0xc
	.byte	8                               // 0x8
	.byte	4                               // 0x4
	.byte	0                               // 0x0
	.section	.text.gcm.aes_ctr.add_in_batches.add_next.1,"ax",@progbits
	.p2align	2
	.type	gcm.aes_ctr.add_in_batches.add_next.1,@function
gcm.aes_ctr.add_in_batches.add_next.1: // @gcm.aes_ctr.add_in_batches.add_next.1
// %bb.0:                               // %start
	sub	sp, sp, #464
	ldp	x9, x8, [x1]
	add	x11, x3, x2
	stp	x22, x21, [sp, #432]            // 16-byte Folded Spill
	and	x22, x11, #0xf
	movi	v2.2d, #0000000000000000
	str	xzr, [sp, #264]
	mov	x21, x5
	rev	x12, x8
	rev	x9, x9
	add	x8, sp, #16
	add	x10, x12, x11, lsr #4
	and	x11, x12, #0xffffffff00000000
	stp	x28, x23, [sp, #416]            // 16-byte Folded Spill
	stur	q2, [sp, #105]
	mov	w12, w10
	add	w13, w10, #1
	add	w14, w10, #4
	orr	x12, x11, x12
	orr	x13, x11, x13
	orr	x14, x11, x14
	fmov	d5, x12
	fmov	d1, x13
	add	w12, w10, #2
	add	w13, w10, #3
	orr	x12, x11, x12
	stur	q2, [sp, #121]
	orr	x13, x11, x13
	fmov	d4, x12
	add	w12, w10, #5
	mov	v5.d[1], x9
	fmov	d3, x13
	orr	x12, x11, x12
	add	w13, w10, #6
	add	w10, w10, #7
	mov	v1.d[1], x9
	mov	v4.d[1], x9
	fmov	d7, x12
	orr	x12, x11, x13
	mov	v3.d[1], x9
	orr	x10, x11, x10
	fmov	d16, x12
	rev64	v17.16b, v5.16b
	fmov	d5, x14
	fmov	d6, x10
	rev64	v18.16b, v1.16b
	mov	v7.d[1], x9
	stur	q2, [sp, #137]
	rev64	v19.16b, v4.16b
	mov	v16.d[1], x9
	stur	q2, [x8, #233]
	mov	v5.d[1], x9
	rev64	v20.16b, v3.16b
	mov	v6.d[1], x9
	stur	q2, [x8, #217]
	ext	v17.16b, v17.16b, v17.16b, #8
	mov	w9, #128                        // =0x80
	stur	q2, [x8, #201]
	ext	v18.16b, v18.16b, v18.16b, #8
	rev64	v22.16b, v7.16b
	stur	q2, [x8, #185]
	ext	v19.16b, v19.16b, v19.16b, #8
	rev64	v23.16b, v16.16b
	rev64	v21.16b, v5.16b
	stur	q2, [x8, #169]
	sub	x9, x9, x22
	stur	q2, [x8, #153]
	sub	x10, x5, x3
	stur	q2, [x8, #137]
	ext	v2.16b, v20.16b, v20.16b, #8
	rev64	v20.16b, v6.16b
	stp	q17, q18, [sp, #16]
	ext	v17.16b, v22.16b, v22.16b, #8
	ext	v18.16b, v23.16b, v23.16b, #8
	ext	v21.16b, v21.16b, v21.16b, #8
	cmp	x10, x9
	stp	x20, x19, [sp, #448]            // 16-byte Folded Spill
	csel	x23, x10, x9, lo
	mov	x20, x4
	mov	x19, x3
	stp	q19, q2, [sp, #48]
	ext	v2.16b, v20.16b, v20.16b, #8
	add	x9, x23, x22
	cmp	x9, #80
	stp	x29, x30, [sp, #400]            // 16-byte Folded Spill
	add	x29, sp, #400
	stp	q21, q17, [sp, #80]
	stp	q18, q2, [sp, #112]
	b.hi	.Lgcm_BB32_6
// %bb.1:                               // %then.1.i.i
	ldr	x8, [x0]
	add	x9, x9, #15
	add	x2, sp, #16
	lsr	x3, x9, #4
	ldp	x0, x1, [x8, #16]
	bl	gcm.aes_permute.blocks.process_on_lanes
	add	x9, x20, x19
	cbz	x22, .Lgcm_BB32_7
.Lgcm_BB32_2:                               // %then.1.i
	mov	w8, #16                         // =0x10
	sub	x8, x8, x22
	cmp	x23, x8
	csel	x8, x23, x8, lo
	cmp	x21, x19
	b.eq	.Lgcm_BB32_5
// %bb.3:                               // %join.8.i80.lr.ph
	add	x10, sp, #16
	neg	x11, x8
	add	x12, x20, x19
	orr	x10, x10, x22
.Lgcm_BB32_4:                               // %join.8.i80
                                        // =>This Inner Loop Header: Depth=1
	ldrb	w13, [x10], #1
	ldrb	w14, [x12]
	adds	x11, x11, #1
	eor	w13, w14, w13
	strb	w13, [x12], #1
	b.lo	.Lgcm_BB32_4
.Lgcm_BB32_5:                               // %join.3.i
	sub	x10, x23, x8
	cmp	x10, #16
	b.hs	.Lgcm_BB32_8
	b	.Lgcm_BB32_10
.Lgcm_BB32_6:                               // %else.2.i.i
	adrp	x9, .Lgcm_CPI32_0
	ldp	q2, q0, [sp, #16]
	ldr	q18, [x9, :lo12:.Lgcm_CPI32_0]
	adrp	x9, .Lgcm_CPI32_2
	add	x8, x8, #24
	ldr	q17, [x9, :lo12:.Lgcm_CPI32_2]
	adrp	x9, .Lgcm_CPI32_1
	movi	v21.16b, #85
	ld1	{ v0.s }[2], [x8]
	tbl	v2.16b, { v2.16b }, v18.16b
	str	q18, [sp]                       // 16-byte Spill
	tbl	v5.16b, { v5.16b }, v17.16b
	ldr	q18, [x9, :lo12:.Lgcm_CPI32_1]
	tbl	v4.16b, { v4.16b }, v17.16b
	tbl	v16.16b, { v16.16b }, v17.16b
	tbl	v7.16b, { v7.16b }, v17.16b
	tbl	v19.16b, { v3.16b }, v17.16b
	tbl	v0.16b, { v0.16b, v1.16b }, v18.16b
	tbl	v6.16b, { v6.16b }, v17.16b
	sub	x2, x29, #128
	ushr	v1.16b, v2.16b, #1
	ldp	x0, x8, [x0, #8]
	ushr	v18.16b, v5.16b, #1
	ushr	v3.16b, v4.16b, #1
	ushr	v17.16b, v16.16b, #1
	eor	v1.16b, v0.16b, v1.16b
	lsr	x8, x8, #3
	eor	v18.16b, v18.16b, v7.16b
	eor	v3.16b, v3.16b, v19.16b
	eor	v17.16b, v17.16b, v6.16b
	sub	x1, x8, #1
	and	v1.16b, v1.16b, v21.16b
	and	v18.16b, v18.16b, v21.16b
	and	v20.16b, v3.16b, v21.16b
	and	v17.16b, v17.16b, v21.16b
	add	v3.16b, v1.16b, v1.16b
	eor	v0.16b, v1.16b, v0.16b
	add	v21.16b, v18.16b, v18.16b
	add	v22.16b, v20.16b, v20.16b
	eor	v1.16b, v18.16b, v7.16b
	add	v23.16b, v17.16b, v17.16b
	eor	v6.16b, v17.16b, v6.16b
	eor	v3.16b, v3.16b, v2.16b
	eor	v2.16b, v21.16b, v5.16b
	eor	v5.16b, v20.16b, v19.16b
	eor	v4.16b, v22.16b, v4.16b
	eor	v7.16b, v23.16b, v16.16b
	ushr	v16.16b, v0.16b, #2
	ushr	v17.16b, v1.16b, #2
	ushr	v18.16b, v3.16b, #2
	movi	v20.16b, #51
	movi	v23.16b, #15
	ushr	v19.16b, v2.16b, #2
	eor	v16.16b, v16.16b, v5.16b
	eor	v17.16b, v17.16b, v6.16b
	eor	v18.16b, v18.16b, v4.16b
	eor	v19.16b, v19.16b, v7.16b
	and	v16.16b, v16.16b, v20.16b
	and	v17.16b, v17.16b, v20.16b
	and	v18.16b, v18.16b, v20.16b
	and	v19.16b, v19.16b, v20.16b
	eor	v5.16b, v16.16b, v5.16b
	eor	v6.16b, v17.16b, v6.16b
	shl	v16.16b, v16.16b, #2
	eor	v4.16b, v18.16b, v4.16b
	shl	v18.16b, v18.16b, #2
	shl	v17.16b, v17.16b, #2
	eor	v7.16b, v19.16b, v7.16b
	shl	v19.16b, v19.16b, #2
	ushr	v20.16b, v5.16b, #4
	eor	v0.16b, v16.16b, v0.16b
	ushr	v21.16b, v4.16b, #4
	eor	v3.16b, v18.16b, v3.16b
	and	v18.16b, v6.16b, v23.16b
	and	v22.16b, v7.16b, v23.16b
	eor	v2.16b, v19.16b, v2.16b
	eor	v1.16b, v17.16b, v1.16b
	eor	v17.16b, v20.16b, v18.16b
	ushr	v18.16b, v3.16b, #4
	ushr	v20.16b, v0.16b, #4
	eor	v16.16b, v21.16b, v22.16b
	and	v19.16b, v2.16b, v23.16b
	and	v21.16b, v1.16b, v23.16b
	eor	v6.16b, v17.16b, v6.16b
	eor	v18.16b, v18.16b, v19.16b
	eor	v20.16b, v20.16b, v21.16b
	eor	v7.16b, v16.16b, v7.16b
	shl	v22.16b, v16.16b, #4
	shl	v19.16b, v17.16b, #4
	shl	v16.16b, v18.16b, #4
	stp	q7, q6, [x29, #-32]
	shl	v7.16b, v20.16b, #4
	eor	v4.16b, v22.16b, v4.16b
	eor	v5.16b, v19.16b, v5.16b
	eor	v2.16b, v18.16b, v2.16b
	eor	v1.16b, v20.16b, v1.16b
	eor	v3.16b, v16.16b, v3.16b
	eor	v0.16b, v7.16b, v0.16b
	stp	q4, q5, [x29, #-96]
	stp	q2, q1, [x29, #-64]
	stp	q3, q0, [x29, #-128]
	bl	gcm.aes_soft.soft.ciphers.planes.EncryptPlaneCipher.process_planes
	ldp	q0, q4, [x29, #-64]
	movi	v20.16b, #85
	ldp	q1, q2, [x29, #-128]
	ldp	q3, q16, [x29, #-96]
	ushr	v6.16b, v0.16b, #1
	ldp	q7, q17, [x29, #-32]
	ushr	v5.16b, v1.16b, #1
	ushr	v18.16b, v3.16b, #1
	ushr	v19.16b, v7.16b, #1
	eor	v6.16b, v4.16b, v6.16b
	eor	v5.16b, v2.16b, v5.16b
	eor	v18.16b, v16.16b, v18.16b
	eor	v19.16b, v17.16b, v19.16b
	and	v6.16b, v6.16b, v20.16b
	and	v5.16b, v5.16b, v20.16b
	and	v18.16b, v18.16b, v20.16b
	and	v19.16b, v19.16b, v20.16b
	add	v21.16b, v6.16b, v6.16b
	eor	v4.16b, v6.16b, v4.16b
	add	v20.16b, v5.16b, v5.16b
	eor	v2.16b, v5.16b, v2.16b
	add	v22.16b, v18.16b, v18.16b
	eor	v5.16b, v18.16b, v16.16b
	eor	v0.16b, v21.16b, v0.16b
	eor	v17.16b, v19.16b, v17.16b
	eor	v1.16b, v20.16b, v1.16b
	add	v20.16b, v19.16b, v19.16b
	ushr	v18.16b, v2.16b, #2
	ushr	v19.16b, v4.16b, #2
	eor	v3.16b, v22.16b, v3.16b
	movi	v22.16b, #15
	ushr	v16.16b, v0.16b, #2
	eor	v6.16b, v20.16b, v7.16b
	movi	v20.16b, #51
	eor	v18.16b, v5.16b, v18.16b
	eor	v19.16b, v17.16b, v19.16b
	ushr	v7.16b, v1.16b, #2
	eor	v16.16b, v6.16b, v16.16b
	and	v18.16b, v18.16b, v20.16b
	and	v19.16b, v19.16b, v20.16b
	eor	v7.16b, v3.16b, v7.16b
	and	v16.16b, v16.16b, v20.16b
	eor	v5.16b, v18.16b, v5.16b
	eor	v17.16b, v19.16b, v17.16b
	and	v7.16b, v7.16b, v20.16b
	shl	v18.16b, v18.16b, #2
	shl	v19.16b, v19.16b, #2
	eor	v6.16b, v16.16b, v6.16b
	shl	v16.16b, v16.16b, #2
	ushr	v21.16b, v5.16b, #4
	eor	v3.16b, v7.16b, v3.16b
	shl	v7.16b, v7.16b, #2
	eor	v2.16b, v18.16b, v2.16b
	eor	v4.16b, v19.16b, v4.16b
	eor	v0.16b, v16.16b, v0.16b
	and	v16.16b, v17.16b, v22.16b
	and	v20.16b, v6.16b, v22.16b
	eor	v1.16b, v7.16b, v1.16b
	ushr	v7.16b, v3.16b, #4
	eor	v16.16b, v16.16b, v21.16b
	movi	v21.16b, #15
	and	v19.16b, v0.16b, v22.16b
	eor	v7.16b, v20.16b, v7.16b
	ushr	v18.16b, v1.16b, #4
	ushr	v20.16b, v2.16b, #4
	and	v21.16b, v4.16b, v21.16b
	shl	v22.16b, v7.16b, #4
	eor	v18.16b, v19.16b, v18.16b
	shl	v19.16b, v16.16b, #4
	eor	v6.16b, v7.16b, v6.16b
	eor	v7.16b, v16.16b, v17.16b
	eor	v20.16b, v21.16b, v20.16b
	eor	v3.16b, v22.16b, v3.16b
	eor	v0.16b, v18.16b, v0.16b
	eor	v5.16b, v19.16b, v5.16b
	shl	v19.16b, v18.16b, #4
	eor	v4.16b, v20.16b, v4.16b
	shl	v18.16b, v20.16b, #4
	ldr	q20, [sp]                       // 16-byte Reload
	eor	v1.16b, v19.16b, v1.16b
	tbl	v3.16b, { v3.16b }, v20.16b
	tbl	v5.16b, { v5.16b }, v20.16b
	tbl	v0.16b, { v0.16b }, v20.16b
	tbl	v4.16b, { v4.16b }, v20.16b
	eor	v2.16b, v18.16b, v2.16b
	tbl	v1.16b, { v1.16b }, v20.16b
	stp	q3, q5, [sp, #48]
	tbl	v2.16b, { v2.16b }, v20.16b
	tbl	v3.16b, { v6.16b }, v20.16b
	stp	q0, q4, [sp, #80]
	tbl	v0.16b, { v7.16b }, v20.16b
	stp	q1, q2, [sp, #16]
	stp	q3, q0, [sp, #112]
	add	x9, x20, x19
	cbnz	x22, .Lgcm_BB32_2
.Lgcm_BB32_7:
	mov	x8, xzr
	sub	x10, x23, xzr
	cmp	x10, #16
	b.lo	.Lgcm_BB32_10
.Lgcm_BB32_8:                               // %join.8.i.preheader
	add	x11, x8, x22
.Lgcm_BB32_9:                               // %join.8.i
                                        // =>This Inner Loop Header: Depth=1
	and	x12, x11, #0xfffffffffffffff0
	add	x13, sp, #16
	ldr	q0, [x9, x8]
	ldr	q1, [x13, x12]
	sub	x10, x10, #16
	add	x11, x11, #16
	cmp	x10, #15
	eor	v0.16b, v1.16b, v0.16b
	str	q0, [x9, x8]
	add	x8, x8, #16
	b.hi	.Lgcm_BB32_9
.Lgcm_BB32_10:                              // %after.4.i
	cmp	x8, x23
	b.hs	.Lgcm_BB32_19
// %bb.11:                              // %then.9.i
	cbz	x10, .Lgcm_BB32_19
// %bb.12:                              // %iter.check
	add	x11, x8, x22
	cmp	x10, #8
	and	x11, x11, #0xfffffffffffffff0
	b.hs	.Lgcm_BB32_14
// %bb.13:
	mov	x9, xzr
	b	.Lgcm_BB32_17
.Lgcm_BB32_14:                              // %vec.epilog.ph
	add	x12, sp, #16
	add	x13, x9, x8
	and	x9, x10, #0x8
	add	x12, x12, x11
	and	x14, x10, #0x8
.Lgcm_BB32_15:                              // %vec.epilog.vector.body
                                        // =>This Inner Loop Header: Depth=1
	ldr	d0, [x12], #8
	ldr	d1, [x13]
	subs	x14, x14, #8
	eor	v0.8b, v1.8b, v0.8b
	str	d0, [x13], #8
	b.ne	.Lgcm_BB32_15
// %bb.16:                              // %vec.epilog.middle.block
	cmp	x10, x9
	b.eq	.Lgcm_BB32_19
.Lgcm_BB32_17:                              // %join.8.i23.preheader
	add	x11, x9, x11
	add	x12, sp, #16
	add	x13, x8, x9
	add	x14, x20, x19
	add	x8, x12, x11
	sub	x9, x10, x9
	add	x11, x14, x13
.Lgcm_BB32_18:                              // %join.8.i23
                                        // =>This Inner Loop Header: Depth=1
	ldrb	w10, [x8], #1
	ldrb	w12, [x11]
	subs	x9, x9, #1
	eor	w10, w12, w10
	strb	w10, [x11], #1
	b.ne	.Lgcm_BB32_18
.Lgcm_BB32_19:                              // %"aes_ctr::add_blocks::add_blocks.exit"
	add	x0, x23, x19
	ldp	x20, x19, [sp, #448]            // 16-byte Folded Reload
	ldp	x22, x21, [sp, #432]            // 16-byte Folded Reload
	ldp	x28, x23, [sp, #416]            // 16-byte Folded Reload
	ldp	x29, x30, [sp, #400]            // 16-byte Folded Reload
	add	sp, sp, #464
	ret
.Lgcm_func_end32:
	.size	gcm.aes_ctr.add_in_batches.add_next.1, .Lgcm_func_end32-gcm.aes_ctr.add_in_batches.add_next.1
                                        // -- End function
	.section	.text.gcm.aes_cipher.zeroize.stack.wipe_stack.2032,"ax",@progbits
	.p2align	2                               // -- Begin function aes_cipher::zeroize::stack::wipe_stack::<=2032>
	.type	gcm.aes_cipher.zeroize.stack.wipe_stack.2032,@function
gcm.aes_cipher.zeroize.stack.wipe_stack.2032: // @gcm.aes_cipher.zeroize.stack.wipe_stack.2032
// %bb.0:                               // %start
	stp	x29, x30, [sp, #-32]!           // 16-byte Folded Spill
	stp	x28, x19, [sp, #16]             // 16-byte Folded Spill
	mov	x29, sp
	sub	sp, sp, #2048
	add	x0, sp, #16
	mov	w1, wzr
	mov	w2, #2032                       // =0x7f0
	str	xzr, [sp]
	add	x19, sp, #16
	adrp	x16, :got:memset
	ldr	x16, [x16, :got_lo12:memset]
	blr	x16
	str	xzr, [sp, #8]
	add	x8, sp, #8
	//APP
	//NO_APP
	ldar	x8, [x8]
	//APP
	//NO_APP
	cmp	x8, #2032
	b.hs	.Lgcm_BB33_4
// %bb.1:                               // %then.1
	ldrb	w8, [x19, x8]
	//APP
	//NO_APP
.Lgcm_BB33_2:                               // %atomicrmw.start
                                        // =>This Inner Loop Header: Depth=1
	add	x9, sp, #8
	ldaxr	xzr, [x9]
	stlxr	w10, x8, [x9]
	cbnz	w10, .Lgcm_BB33_2
// %bb.3:                               // %atomicrmw.end
	//APP
	//NO_APP
.Lgcm_BB33_4:                               // %common.ret
	add	sp, sp, #2048
	ldp	x28, x19, [sp, #16]             // 16-byte Folded Reload
	ldp	x29, x30, [sp], #32             // 16-byte Folded Reload
	ret
.Lgcm_func_end33:
	.size	gcm.aes_cipher.zeroize.stack.wipe_stack.2032, .Lgcm_func_end33-gcm.aes_cipher.zeroize.stack.wipe_stack.2032
                                        // -- End function
	.section	.text.gcm.aes_ctr.add_in_batches.add_next.2,"ax",@progbits
	.p2align	2                               // -- Begin function aes_ctr::add_in_batches::add_next::<#6a304718cc059ec9>
	.type	gcm.aes_ctr.add_in_batches.add_next.2,@function
gcm.aes_ctr.add_in_batches.add_next.2: // @gcm.aes_ctr.add_in_batches.add_next.2
// %bb.0:                               // %start
	sub	sp, sp, #320
	ldp	x10, x9, [x1]
	add	x8, x3, x2
	stp	x28, x23, [sp, #272]            // 16-byte Folded Spill
	and	x23, x8, #0xf
	movi	v0.2d, #0000000000000000
	stp	x22, x21, [sp, #288]            // 16-byte Folded Spill
	mov	x2, sp
	mov	x21, x5
	rev	x9, x9
	rev	x10, x10
	stp	x20, x19, [sp, #304]            // 16-byte Folded Spill
	add	x11, x9, x8, lsr #4
	and	x9, x9, #0xffffffff00000000
	mov	x19, x3
	stp	q0, q0, [sp, #64]
	mov	x20, x4
	mov	w12, w11
	add	w13, w11, #1
	add	w14, w11, #2
	orr	x12, x9, x12
	add	w11, w11, #3
	orr	x13, x9, x13
	fmov	d1, x12
	orr	x12, x9, x14
	orr	x9, x9, x11
	fmov	d2, x13
	fmov	d3, x12
	fmov	d4, x9
	mov	w9, #64                         // =0x40
	stp	q0, q0, [sp, #96]
	mov	v1.d[1], x10
	sub	x8, x9, x23
	stp	q0, q0, [sp, #128]
	mov	v2.d[1], x10
	mov	v3.d[1], x10
	mov	v4.d[1], x10
	sub	x10, x5, x3
	stp	q0, q0, [sp, #160]
	cmp	x10, x8
	stp	q0, q0, [sp, #192]
	rev64	v1.16b, v1.16b
	csel	x22, x10, x8, lo
	stp	q0, q0, [sp, #224]
	rev64	v2.16b, v2.16b
	rev64	v3.16b, v3.16b
	rev64	v4.16b, v4.16b
	add	x8, x23, x22
	stp	x29, x30, [sp, #256]            // 16-byte Folded Spill
	add	x29, sp, #256
	add	x9, x8, #15
	ldp	x8, x1, [x0, #16]
	ext	v1.16b, v1.16b, v1.16b, #8
	lsr	x3, x9, #4
	ext	v2.16b, v2.16b, v2.16b, #8
	ext	v3.16b, v3.16b, v3.16b, #8
	ext	v0.16b, v4.16b, v4.16b, #8
	mov	x0, x8
	stp	q1, q2, [sp]
	stp	q3, q0, [sp, #32]
	bl	gcm.aes_permute.blocks.process_on_lanes
	add	x9, x20, x19
	cbz	x23, .Lgcm_BB34_5
// %bb.1:                               // %then.1.i
	mov	w8, #16                         // =0x10
	sub	x8, x8, x23
	cmp	x22, x8
	csel	x8, x22, x8, lo
	cmp	x21, x19
	b.eq	.Lgcm_BB34_4
// %bb.2:                               // %join.8.i80.lr.ph
	mov	x10, sp
	neg	x11, x8
	add	x12, x20, x19
	orr	x10, x10, x23
.Lgcm_BB34_3:                               // %join.8.i80
                                        // =>This Inner Loop Header: Depth=1
	ldrb	w13, [x10], #1
	ldrb	w14, [x12]
	adds	x11, x11, #1
	eor	w13, w14, w13
	strb	w13, [x12], #1
	b.lo	.Lgcm_BB34_3
.Lgcm_BB34_4:                               // %join.3.i
	sub	x10, x22, x8
	cmp	x10, #16
	b.hs	.Lgcm_BB34_6
	b	.Lgcm_BB34_8
.Lgcm_BB34_5:
	mov	x8, xzr
	sub	x10, x22, xzr
	cmp	x10, #16
	b.lo	.Lgcm_BB34_8
.Lgcm_BB34_6:                               // %join.8.i.preheader
	add	x11, x8, x23
.Lgcm_BB34_7:                               // %join.8.i
                                        // =>This Inner Loop Header: Depth=1
	and	x12, x11, #0xfffffffffffffff0
	mov	x13, sp
	ldr	q0, [x9, x8]
	ldr	q1, [x13, x12]
	sub	x10, x10, #16
	add	x11, x11, #16
	cmp	x10, #15
	eor	v0.16b, v1.16b, v0.16b
	str	q0, [x9, x8]
	add	x8, x8, #16
	b.hi	.Lgcm_BB34_7
.Lgcm_BB34_8:                               // %after.4.i
	cmp	x8, x22
	b.hs	.Lgcm_BB34_17
// %bb.9:                               // %then.9.i
	cbz	x10, .Lgcm_BB34_17
// %bb.10:                              // %iter.check
	add	x11, x8, x23
	cmp	x10, #8
	and	x11, x11, #0xfffffffffffffff0
	b.hs	.Lgcm_BB34_12
// %bb.11:
	mov	x9, xzr
	b	.Lgcm_BB34_15
.Lgcm_BB34_12:                              // %vec.epilog.ph
	mov	x12, sp
	add	x13, x9, x8
	and	x9, x10, #0x8
	add	x12, x12, x11
	and	x14, x10, #0x8
.Lgcm_BB34_13:                              // %vec.epilog.vector.body
                                        // =>This Inner Loop Header: Depth=1
	ldr	d0, [x12], #8
	ldr	d1, [x13]
	subs	x14, x14, #8
	eor	v0.8b, v1.8b, v0.8b
	str	d0, [x13], #8
	b.ne	.Lgcm_BB34_13
// %bb.14:                              // %vec.epilog.middle.block
	cmp	x10, x9
	b.eq	.Lgcm_BB34_17
.Lgcm_BB34_15:                              // %join.8.i23.preheader
	add	x11, x9, x11
	mov	x12, sp
	add	x13, x8, x9
	add	x14, x20, x19
	add	x8, x12, x11
	sub	x9, x10, x9
	add	x11, x14, x13
.Lgcm_BB34_16:                              // %join.8.i23
                                        // =>This Inner Loop Header: Depth=1
	ldrb	w10, [x8], #1
	ldrb	w12, [x11]
	subs	x9, x9, #1
	eor	w10, w12, w10
	strb	w10, [x11], #1
	b.ne	.Lgcm_BB34_16
.Lgcm_BB34_17:                              // %"aes_ctr::add_blocks::add_blocks.exit"
	add	x0, x22, x19
	ldp	x20, x19, [sp, #304]            // 16-byte Folded Reload
	ldp	x22, x21, [sp, #288]            // 16-byte Folded Reload
	ldp	x28, x23, [sp, #272]            // 16-byte Folded Reload
	ldp	x29, x30, [sp, #256]            // 16-byte Folded Reload
	add	sp, sp, #320
	ret
.Lgcm_func_end34:
	.size	gcm.aes_ctr.add_in_batches.add_next.2, .Lgcm_func_end34-gcm.aes_ctr.add_in_batches.add_next.2
                                        // -- End function
	.section	.text.gcm.aes_cipher.zeroize.stack.wipe_stack.1536,"ax",@progbits
	.p2align	2                               // -- Begin function aes_cipher::zeroize::stack::wipe_stack::<=1536>
	.type	gcm.aes_cipher.zeroize.stack.wipe_stack.1536,@function
gcm.aes_cipher.zeroize.stack.wipe_stack.1536: // @gcm.aes_cipher.zeroize.stack.wipe_stack.1536
// %bb.0:                               // %start
	stp	x29, x30, [sp, #-32]!           // 16-byte Folded Spill
	stp	x28, x19, [sp, #16]             // 16-byte Folded Spill
	mov	x29, sp
	sub	sp, sp, #1552
	add	x0, sp, #16
	mov	w1, wzr
	mov	w2, #1536                       // =0x600
	str	xzr, [sp]
	add	x19, sp, #16
	adrp	x16, :got:memset
	ldr	x16, [x16, :got_lo12:memset]
	blr	x16
	str	xzr, [sp, #8]
	add	x8, sp, #8
	//APP
	//NO_APP
	ldar	x8, [x8]
	//APP
	//NO_APP
	cmp	x8, #1536
	b.hs	.Lgcm_BB35_4
// %bb.1:                               // %then.1
	ldrb	w8, [x19, x8]
	//APP
	//NO_APP
.Lgcm_BB35_2:                               // %atomicrmw.start
                                        // =>This Inner Loop Header: Depth=1
	add	x9, sp, #8
	ldaxr	xzr, [x9]
	stlxr	w10, x8, [x9]
	cbnz	w10, .Lgcm_BB35_2
// %bb.3:                               // %atomicrmw.end
	//APP
	//NO_APP
.Lgcm_BB35_4:                               // %common.ret
	add	sp, sp, #1552
	ldp	x28, x19, [sp, #16]             // 16-byte Folded Reload
	ldp	x29, x30, [sp], #32             // 16-byte Folded Reload
	ret
.Lgcm_func_end35:
	.size	gcm.aes_cipher.zeroize.stack.wipe_stack.1536, .Lgcm_func_end35-gcm.aes_cipher.zeroize.stack.wipe_stack.1536
                                        // -- End function
	.section	.text.gcm.gcm_c.whole.fotsgure_gcm_seal,"ax",@progbits
	.p2align	2                               // -- Begin function gcm_c::whole::fotsgure_gcm_seal
	.type	gcm.gcm_c.whole.fotsgure_gcm_seal,@function
gcm.gcm_c.whole.fotsgure_gcm_seal:      // @gcm.gcm_c.whole.fotsgure_gcm_seal
// %bb.0:                               // %start
	mov	x8, #-2305843009213693952       // =0xe000000000000000
	mov	x9, #-2305843009213693951       // =0xe000000000000001
	add	x8, x2, x8
	cmp	x8, x9
	b.hs	.Lgcm_BB36_2
// %bb.1:
	mov	w0, #3                          // =0x3
	movi	v0.2d, #0000000000000000
	movi	v1.2d, #0000000000000000
	movi	v2.2d, #0000000000000000
	movi	v3.2d, #0000000000000000
	movi	v4.2d, #0000000000000000
	movi	v5.2d, #0000000000000000
	movi	v6.2d, #0000000000000000
	movi	v7.2d, #0000000000000000
	movi	v16.2d, #0000000000000000
	movi	v17.2d, #0000000000000000
	movi	v18.2d, #0000000000000000
	movi	v19.2d, #0000000000000000
	movi	v20.2d, #0000000000000000
	movi	v21.2d, #0000000000000000
	movi	v22.2d, #0000000000000000
	movi	v23.2d, #0000000000000000
	movi	v24.2d, #0000000000000000
	movi	v25.2d, #0000000000000000
	movi	v26.2d, #0000000000000000
	movi	v27.2d, #0000000000000000
	movi	v28.2d, #0000000000000000
	movi	v29.2d, #0000000000000000
	movi	v30.2d, #0000000000000000
	movi	v31.2d, #0000000000000000
	fmov	d8, d8
	fmov	d9, d9
	fmov	d10, d10
	fmov	d11, d11
	fmov	d12, d12
	fmov	d13, d13
	fmov	d14, d14
	fmov	d15, d15
	mov	x1, xzr
	mov	x2, xzr
	mov	x3, xzr
	mov	x4, xzr
	mov	x5, xzr
	mov	x6, xzr
	mov	x7, xzr
	mov	x8, xzr
	mov	x9, xzr
	mov	x10, xzr
	mov	x11, xzr
	mov	x12, xzr
	mov	x13, xzr
	mov	x14, xzr
	mov	x15, xzr
	mov	x16, xzr
	mov	x17, xzr
	ret
.Lgcm_BB36_2:                               // %after.1.i
	lsr	x9, x4, #61
	mov	w8, #5                          // =0x5
	cbnz	x9, .Lgcm_BB36_7
// %bb.3:                               // %after.1.i
	mov	x9, #68719476704                // =0xfffffffe0
	cmp	x6, x9
	b.hi	.Lgcm_BB36_7
// %bb.4:                               // %after.11.i
	ldr	w9, [x0]
	mov	w8, #2                          // =0x2
	cmp	w9, #32
	b.hi	.Lgcm_BB36_7
// %bb.5:                               // %after.11.i
	mov	w10, #1                         // =0x1
	mov	x11, #16842752                  // =0x1010000
	lsl	x10, x10, x9
	movk	x11, #1, lsl #32
	tst	x10, x11
	b.eq	.Lgcm_BB36_7
// %bb.6:                               // %join.3
	sub	sp, sp, #144
	lsr	x8, x9, #2
	stp	x29, x30, [sp, #80]             // 16-byte Folded Spill
	add	x29, sp, #80
	add	x9, x0, #4
	stp	x20, x19, [sp, #128]            // 16-byte Folded Spill
	mov	x19, x3
	add	x8, x8, #7
	str	x9, [sp, #24]
	sub	x3, x29, #16
	stp	x8, x9, [sp, #32]
	add	x9, x0, #244
	add	x0, sp, #24
	str	x23, [sp, #96]                  // 8-byte Spill
	mov	x23, x7
	mov	x20, x6
	stp	x22, x21, [sp, #112]            // 16-byte Folded Spill
	mov	x21, x5
	mov	x22, x4
	stp	x8, x9, [sp, #48]
	bl	gcm.gcm.mode.BorrowedGcm.put_pre_counter
	add	x0, sp, #24
	sub	x1, x29, #16
	mov	w2, #16                         // =0x10
	mov	x3, x21
	mov	x4, x20
	bl	gcm.gcm.gctr.add_gctr
	add	x0, sp, #24
	sub	x1, x29, #16
	add	x6, sp, #8
	mov	x2, x19
	mov	x3, x22
	mov	x4, x21
	mov	x5, x20
	bl	gcm.gcm.mode.BorrowedGcm.put_tag
	sub	x0, x29, #16
	bl	gcm.aes_cipher.zeroize.elements.zeroize_elements.3
	bl	gcm.aes_cipher.zeroize.stack.wipe_stack.1536
	ldur	q0, [sp, #8]
	ldp	x20, x19, [sp, #128]            // 16-byte Folded Reload
	ldp	x22, x21, [sp, #112]            // 16-byte Folded Reload
	mov	w8, wzr
	ldp	x29, x30, [sp, #80]             // 16-byte Folded Reload
	str	q0, [x23]
	ldr	x23, [sp, #96]                  // 8-byte Reload
	add	sp, sp, #144
.Lgcm_BB36_7:                               // %common.ret
	mov	w0, w8
	movi	v0.2d, #0000000000000000
	movi	v1.2d, #0000000000000000
	movi	v2.2d, #0000000000000000
	movi	v3.2d, #0000000000000000
	movi	v4.2d, #0000000000000000
	movi	v5.2d, #0000000000000000
	movi	v6.2d, #0000000000000000
	movi	v7.2d, #0000000000000000
	movi	v16.2d, #0000000000000000
	movi	v17.2d, #0000000000000000
	movi	v18.2d, #0000000000000000
	movi	v19.2d, #0000000000000000
	movi	v20.2d, #0000000000000000
	movi	v21.2d, #0000000000000000
	movi	v22.2d, #0000000000000000
	movi	v23.2d, #0000000000000000
	movi	v24.2d, #0000000000000000
	movi	v25.2d, #0000000000000000
	movi	v26.2d, #0000000000000000
	movi	v27.2d, #0000000000000000
	movi	v28.2d, #0000000000000000
	movi	v29.2d, #0000000000000000
	movi	v30.2d, #0000000000000000
	movi	v31.2d, #0000000000000000
	fmov	d8, d8
	fmov	d9, d9
	fmov	d10, d10
	fmov	d11, d11
	fmov	d12, d12
	fmov	d13, d13
	fmov	d14, d14
	fmov	d15, d15
	mov	x1, xzr
	mov	x2, xzr
	mov	x3, xzr
	mov	x4, xzr
	mov	x5, xzr
	mov	x6, xzr
	mov	x7, xzr
	mov	x8, xzr
	mov	x9, xzr
	mov	x10, xzr
	mov	x11, xzr
	mov	x12, xzr
	mov	x13, xzr
	mov	x14, xzr
	mov	x15, xzr
	mov	x16, xzr
	mov	x17, xzr
	ret
.Lgcm_func_end36:
	.size	gcm.gcm_c.whole.fotsgure_gcm_seal, .Lgcm_func_end36-gcm.gcm_c.whole.fotsgure_gcm_seal
                                        // -- End function
	.section	.text.gcm.gcm_c.whole_to.copy,"ax",@progbits
	.p2align	2                               // -- Begin function gcm_c::whole_to::copy
	.type	gcm.gcm_c.whole_to.copy,@function
gcm.gcm_c.whole_to.copy:                // @gcm.gcm_c.whole_to.copy
// %bb.0:                               // %start
	mov	x8, x1
	sub	x10, x2, x0
	mov	x1, x0
	cmp	x10, x8
	b.hs	.Lgcm_BB37_5
// %bb.1:                               // %iter.check
	cmp	x8, #8
	mov	x9, xzr
	b.lo	.Lgcm_BB37_13
// %bb.2:                               // %iter.check
	cmp	x10, #32
	b.lo	.Lgcm_BB37_13
// %bb.3:                               // %vector.main.loop.iter.check
	cmp	x8, #32
	b.hs	.Lgcm_BB37_6
// %bb.4:
	mov	x9, xzr
	b	.Lgcm_BB37_10
.Lgcm_BB37_5:                               // %apart.2.i.i.i.i.i.i
	mov	x0, x2
	mov	x2, x8
	adrp	x16, :got:memmove
	ldr	x16, [x16, :got_lo12:memmove]
	br	x16
.Lgcm_BB37_6:                               // %vector.ph
	and	x10, x8, #0x18
	and	x9, x8, #0xffffffffffffffe0
	add	x11, x1, #16
	add	x12, x2, #16
	and	x13, x8, #0xffffffffffffffe0
.Lgcm_BB37_7:                               // %vector.body
                                        // =>This Inner Loop Header: Depth=1
	ldp	q0, q1, [x11, #-16]
	subs	x13, x13, #32
	add	x11, x11, #32
	stp	q0, q1, [x12, #-16]
	add	x12, x12, #32
	b.ne	.Lgcm_BB37_7
// %bb.8:                               // %middle.block
	cmp	x8, x9
	b.eq	.Lgcm_BB37_15
// %bb.9:                               // %vec.epilog.iter.check
	cbz	x10, .Lgcm_BB37_13
.Lgcm_BB37_10:                              // %vec.epilog.ph
	mov	x12, x9
	and	x9, x8, #0xfffffffffffffff8
	sub	x10, x12, x9
	add	x11, x1, x12
	add	x12, x2, x12
.Lgcm_BB37_11:                              // %vec.epilog.vector.body
                                        // =>This Inner Loop Header: Depth=1
	ldr	d0, [x11], #8
	adds	x10, x10, #8
	str	d0, [x12], #8
	b.ne	.Lgcm_BB37_11
// %bb.12:                              // %vec.epilog.middle.block
	cmp	x8, x9
	b.eq	.Lgcm_BB37_15
.Lgcm_BB37_13:                              // %join.7.i.i.i.i.i.i.preheader
	sub	x8, x8, x9
	add	x10, x1, x9
	add	x9, x2, x9
.Lgcm_BB37_14:                              // %join.7.i.i.i.i.i.i
                                        // =>This Inner Loop Header: Depth=1
	ldrb	w11, [x10], #1
	subs	x8, x8, #1
	strb	w11, [x9], #1
	b.ne	.Lgcm_BB37_14
.Lgcm_BB37_15:                              // %"core::slice::edits::slice+T::copy_from_slice::<i8,20'core::clone::U8Clone{}>.exit"
	ret
.Lgcm_func_end37:
	.size	gcm.gcm_c.whole_to.copy, .Lgcm_func_end37-gcm.gcm_c.whole_to.copy
                                        // -- End function
	.section	.text.gcm.gcm_siv.course.open_in.1,"ax",@progbits
	.p2align	2                               // -- Begin function gcm_siv::course::open_in::<#b1a7be6fe22fdaa9>
	.type	gcm.gcm_siv.course.open_in.1,@function
gcm.gcm_siv.course.open_in.1: // @gcm.gcm_siv.course.open_in.1
// %bb.0:                               // %start
	stp	x29, x30, [sp, #-96]!           // 16-byte Folded Spill
	stp	x28, x27, [sp, #16]             // 16-byte Folded Spill
	mov	x29, sp
	stp	x26, x25, [sp, #32]             // 16-byte Folded Spill
	stp	x24, x23, [sp, #48]             // 16-byte Folded Spill
	stp	x22, x21, [sp, #64]             // 16-byte Folded Spill
	stp	x20, x19, [sp, #80]             // 16-byte Folded Spill
	sub	sp, sp, #1280
	movi	v0.2d, #0000000000000000
	mov	x24, x2
	mov	x25, x1
	mov	x26, x0
	add	x0, sp, #256
	add	x1, sp, #768
	mov	w2, #512                        // =0x200
	str	xzr, [sp]
	mov	x19, x7
	mov	x20, x6
	mov	x21, x5
	mov	x22, x4
	mov	x23, x3
	str	xzr, [sp, #1272]
	str	xzr, [sp, #1264]
	stp	q0, q0, [sp, #768]
	stp	q0, q0, [sp, #800]
	stp	q0, q0, [sp, #832]
	stp	q0, q0, [sp, #864]
	stp	q0, q0, [sp, #896]
	stp	q0, q0, [sp, #928]
	stp	q0, q0, [sp, #960]
	stp	q0, q0, [sp, #992]
	str	q0, [sp, #1024]
	str	q0, [sp, #1040]
	str	q0, [sp, #1056]
	str	q0, [sp, #1072]
	str	q0, [sp, #1088]
	str	q0, [sp, #1104]
	str	q0, [sp, #1120]
	str	q0, [sp, #1136]
	str	q0, [sp, #1152]
	str	q0, [sp, #1168]
	str	q0, [sp, #1184]
	str	q0, [sp, #1200]
	str	q0, [sp, #1216]
	str	q0, [sp, #1232]
	str	q0, [sp, #1248]
	adrp	x16, :got:memcpy
	ldr	x16, [x16, :got_lo12:memcpy]
	blr	x16
	movi	v0.2d, #0000000000000000
	mov	x3, sp
	add	x4, sp, #256
	mov	x0, x26
	mov	x1, x25
	mov	x2, x24
	mov	x27, sp
	str	wzr, [sp, #240]
	stp	q0, q0, [sp]
	stp	q0, q0, [sp, #32]
	stp	q0, q0, [sp, #64]
	stp	q0, q0, [sp, #96]
	stp	q0, q0, [sp, #128]
	stp	q0, q0, [sp, #160]
	stp	q0, q0, [sp, #192]
	str	q0, [sp, #224]
	bl	gcm.gcm_siv.keys.derive_and_prepare.1
	mov	x0, sp
	add	x1, sp, #256
	mov	x2, x24
	mov	x3, x23
	mov	x4, x22
	mov	x5, x21
	mov	x6, x20
	mov	x7, x19
	bl	gcm.gcm_siv.message.open.1
	mov	w19, w0
	orr	x0, x27, #0x4
	str	wzr, [sp]
	bl	gcm.aes_cipher.zeroize.elements.zeroize_elements.1
	add	x0, sp, #256
	mov	w1, #32                         // =0x20
	bl	gcm.aes_cipher.zeroize.elements.zeroize_elements.2
	bl	gcm.aes_cipher.zeroize.stack.wipe_stack.2816
	mov	w0, w19
	add	sp, sp, #1280
	ldp	x20, x19, [sp, #80]             // 16-byte Folded Reload
	ldp	x22, x21, [sp, #64]             // 16-byte Folded Reload
	ldp	x24, x23, [sp, #48]             // 16-byte Folded Reload
	ldp	x26, x25, [sp, #32]             // 16-byte Folded Reload
	ldp	x28, x27, [sp, #16]             // 16-byte Folded Reload
	ldp	x29, x30, [sp], #96             // 16-byte Folded Reload
	ret
.Lgcm_func_end38:
	.size	gcm.gcm_siv.course.open_in.1, .Lgcm_func_end38-gcm.gcm_siv.course.open_in.1
                                        // -- End function
	.section	.text.gcm.gcm_siv.keys.derive_and_prepare.1,"ax",@progbits
	.p2align	2                               // -- Begin function gcm_siv::keys::derive_and_prepare::<#b1a7be6fe22fdaa9>
	.type	gcm.gcm_siv.keys.derive_and_prepare.1,@function
gcm.gcm_siv.keys.derive_and_prepare.1: // @gcm.gcm_siv.keys.derive_and_prepare.1
// %bb.0:                               // %start
	sub	sp, sp, #240
	movi	v1.2d, #0000000000000000
	stp	xzr, xzr, [sp, #176]
	stp	x20, x19, [sp, #224]            // 16-byte Folded Spill
	mov	x19, x3
	mov	x3, sp
	stp	x29, x30, [sp, #192]            // 16-byte Folded Spill
	add	x29, sp, #192
	mov	x20, x1
	stp	x22, x21, [sp, #208]            // 16-byte Folded Spill
	mov	x21, x4
	mov	x22, sp
	str	q1, [sp, #160]
	stp	q1, q1, [sp, #96]
	stp	q1, q1, [sp, #128]
	ldp	q0, q1, [sp, #128]
	stp	q0, q1, [sp, #32]
	ldp	q2, q0, [sp, #160]
	stp	q2, q0, [sp, #64]
	ldp	q1, q0, [sp, #96]
	stp	q1, q0, [sp]
	bl	gcm.gcm_siv.keys.derive
	ldp	x8, x9, [sp]
	mov	x11, #-2233785415175766016      // =0xe100000000000000
	mov	x0, x21
	sbfx	x10, x8, #0, #1
	extr	x2, x9, x8, #1
	and	x10, x10, x11
	eor	x3, x10, x9, lsr #1
	bl	gcm.gcm.multiples.put_table
	movi	v0.2d, #0000000000000000
	cmp	x20, #16
	add	x0, x19, #4
	stur	q0, [x19, #228]
	stur	q0, [x19, #212]
	stur	q0, [x19, #196]
	stur	q0, [x19, #180]
	stur	q0, [x19, #164]
	stur	q0, [x19, #148]
	stur	q0, [x19, #132]
	stur	q0, [x19, #116]
	stur	q0, [x19, #100]
	stur	q0, [x19, #84]
	stur	q0, [x19, #68]
	stur	q0, [x19, #52]
	stur	q0, [x19, #36]
	stur	q0, [x19, #20]
	b.ne	.Lgcm_BB39_2
// %bb.1:                               // %then.1.i
	add	x1, x22, #16
	mov	w2, #16                         // =0x10
	bl	gcm.aes_permute.lane_keys.expand_lanes
	b	.Lgcm_BB39_3
.Lgcm_BB39_2:                               // %else.2.i
	add	x1, x22, #16
	mov	w2, #32                         // =0x20
	mov	w20, #32                        // =0x20
	bl	gcm.aes_permute.lane_keys.expand_lanes
                                        // kill: def $w20 killed $w20 killed $x20 def $x20
.Lgcm_BB39_3:                               // %"gcm_siv::keys::set_encryption_key::<#66aa1833bfd7fef8>.exit"
	mov	x0, sp
	mov	w1, #6                          // =0x6
	str	w20, [x19]
	bl	gcm.aes_cipher.zeroize.elements.zeroize_elements.4
	ldp	x20, x19, [sp, #224]            // 16-byte Folded Reload
	ldp	x22, x21, [sp, #208]            // 16-byte Folded Reload
	ldp	x29, x30, [sp, #192]            // 16-byte Folded Reload
	add	sp, sp, #240
	ret
.Lgcm_func_end39:
	.size	gcm.gcm_siv.keys.derive_and_prepare.1, .Lgcm_func_end39-gcm.gcm_siv.keys.derive_and_prepare.1
                                        // -- End function
	.section	.text.gcm.gcm_siv.keys.derive,"ax",@progbits
	.p2align	2                               // -- Begin function gcm_siv::keys::derive::<#ed3b81e0963a9ab3>
	.type	gcm.gcm_siv.keys.derive,@function
gcm.gcm_siv.keys.derive: // @gcm.gcm_siv.keys.derive
// %bb.0:                               // %start
	sub	sp, sp, #144
	ldr	x8, [x2]
	stp	x29, x30, [sp, #96]             // 16-byte Folded Spill
	add	x29, sp, #96
	ldr	w9, [x2, #8]
	stp	x22, x21, [sp, #112]            // 16-byte Folded Spill
	cmp	x1, #104
	stur	x8, [x29, #-16]
	stur	x8, [x29, #-32]
	str	x8, [sp, #48]
	mov	x10, x8
	str	x8, [sp, #32]
	str	x8, [sp, #16]
	str	x8, [sp]
	stur	x8, [x3, #4]
	mov	w8, #1                          // =0x1
	stur	w9, [x29, #-8]
	stur	w9, [x29, #-24]
	str	w9, [sp, #56]
	str	w9, [sp, #40]
	str	w9, [sp, #24]
	str	w9, [sp, #8]
	stp	w9, w8, [x3, #12]
	mov	w8, w9
	mov	w9, #2                          // =0x2
	stp	w8, w9, [x3, #28]
	ldr	w8, [sp, #56]
	mov	w9, #3                          // =0x3
	stur	x10, [x3, #20]
	ldr	x10, [sp, #48]
	stp	w8, w9, [x3, #44]
	ldr	w8, [sp, #40]
	mov	w9, #4                          // =0x4
	stur	x10, [x3, #36]
	ldr	x10, [sp, #32]
	stp	w8, w9, [x3, #60]
	ldr	w8, [sp, #24]
	mov	w9, #5                          // =0x5
	stur	x10, [x3, #52]
	ldr	x10, [sp, #16]
	stp	w8, w9, [x3, #76]
	lsr	x9, x1, #3
	ldr	x8, [sp]
	stur	x10, [x3, #68]
	ldr	w10, [sp, #8]
	stp	x20, x19, [sp, #128]            // 16-byte Folded Spill
	mov	x19, x3
	mov	x20, x0
	add	x22, x9, #2
	str	w10, [x3, #92]
	str	wzr, [x3]
	stur	x8, [x3, #84]
	b.hs	.Lgcm_BB40_2
// %bb.1:
	mov	x21, xzr
	b	.Lgcm_BB40_3
.Lgcm_BB40_2:                               // %join.6.i.i
	and	x8, x22, #0x7
	ldp	x0, x1, [x20]
	cmp	x8, #6
	mov	x2, x19
	csel	x8, x8, xzr, lo
	sub	x21, x22, x8
	mov	x3, x21
	bl	gcm.aes_hybrid.batches.process_on_planes
.Lgcm_BB40_3:                               // %"aes_hybrid::borrowed_cipher::BorrowedCipher::process_blocks::<#19237d6279b3cf3a>.exit"
	ldp	x0, x1, [x20, #16]
	add	x2, x19, x21, lsl #4
	sub	x3, x22, x21
	bl	gcm.aes_permute.blocks.process_on_lanes
	ldr	x8, [x19, #16]
	ldr	x9, [x19, #32]
	ldr	x10, [x19, #48]
	ldp	x22, x21, [sp, #112]            // 16-byte Folded Reload
	stp	x8, x9, [x19, #8]
	ldr	x8, [x19, #64]
	ldr	x9, [x19, #80]
	ldp	x29, x30, [sp, #96]             // 16-byte Folded Reload
	stp	x10, x8, [x19, #24]
	str	x9, [x19, #40]
	ldp	x20, x19, [sp, #128]            // 16-byte Folded Reload
	add	sp, sp, #144
	ret
.Lgcm_func_end40:
	.size	gcm.gcm_siv.keys.derive, .Lgcm_func_end40-gcm.gcm_siv.keys.derive
                                        // -- End function
	.section	.text.gcm.aes_cipher.zeroize.elements.zeroize_elements.4,"ax",@progbits
	.p2align	2                               // -- Begin function aes_cipher::zeroize::elements::zeroize_elements::<#82a118249f09cfc6>
	.type	gcm.aes_cipher.zeroize.elements.zeroize_elements.4,@function
gcm.aes_cipher.zeroize.elements.zeroize_elements.4: // @gcm.aes_cipher.zeroize.elements.zeroize_elements.4
// %bb.0:                               // %start
	sub	sp, sp, #32
	stp	xzr, xzr, [sp, #16]
	add	x8, sp, #8
	str	xzr, [sp, #8]
	//APP
	//NO_APP
	ldar	x8, [x8]
	//APP
	//NO_APP
	lsl	x9, x8, #4
	cmp	x8, x1
	b.hs	.Lgcm_BB41_2
// %bb.1:                               // %then.1.i6
	ldrb	w10, [x0, x9]
	ldr	q0, [sp, #16]
	cmp	x1, #1
	str	q0, [x0]
	b.ne	.Lgcm_BB41_3
	b	.Lgcm_BB41_8
.Lgcm_BB41_2:
	mov	w10, wzr
	ldr	q0, [sp, #16]
	cmp	x1, #1
	str	q0, [x0]
	b.eq	.Lgcm_BB41_8
.Lgcm_BB41_3:                               // %join.6.i.1
	ldr	q0, [sp, #16]
	cmp	x1, #2
	str	q0, [x0, #16]
	b.eq	.Lgcm_BB41_8
// %bb.4:                               // %join.6.i.2
	ldr	q0, [sp, #16]
	cmp	x1, #3
	str	q0, [x0, #32]
	b.eq	.Lgcm_BB41_8
// %bb.5:                               // %join.6.i.3
	ldr	q0, [sp, #16]
	cmp	x1, #4
	str	q0, [x0, #48]
	b.eq	.Lgcm_BB41_8
// %bb.6:                               // %join.6.i.4
	ldr	q0, [sp, #16]
	cmp	x1, #5
	str	q0, [x0, #64]
	b.eq	.Lgcm_BB41_8
// %bb.7:                               // %join.6.i.5
	ldr	q0, [sp, #16]
	str	q0, [x0, #80]
.Lgcm_BB41_8:                               // %"aes_cipher::zeroize::overwrite::<#8c2be25e1e7027ab>.exit"
	cmp	x8, x1
	b.hs	.Lgcm_BB41_10
// %bb.9:                               // %then.1.i
	ldrb	w8, [x0, x9]
	and	w8, w8, w10
	b	.Lgcm_BB41_11
.Lgcm_BB41_10:
	mov	x8, xzr
.Lgcm_BB41_11:                              // %"aes_cipher::zeroize::observe::<#aefc49fcc22ee515>.exit"
	//APP
	//NO_APP
.Lgcm_BB41_12:                              // %atomicrmw.start
                                        // =>This Inner Loop Header: Depth=1
	add	x9, sp, #8
	ldaxr	xzr, [x9]
	stlxr	w10, x8, [x9]
	cbnz	w10, .Lgcm_BB41_12
// %bb.13:                              // %atomicrmw.end
	//APP
	//NO_APP
	add	sp, sp, #32
	ret
.Lgcm_func_end41:
	.size	gcm.aes_cipher.zeroize.elements.zeroize_elements.4, .Lgcm_func_end41-gcm.aes_cipher.zeroize.elements.zeroize_elements.4
                                        // -- End function
	.section	.text.gcm.gcm_siv.message.open.1,"ax",@progbits
	.p2align	2                               // -- Begin function gcm_siv::message::open::<#f940bb35374b8583>
	.type	gcm.gcm_siv.message.open.1,@function
gcm.gcm_siv.message.open.1: // @gcm.gcm_siv.message.open.1
// %bb.0:                               // %start
	sub	sp, sp, #96
	stp	x26, x25, [sp, #32]             // 16-byte Folded Spill
	mov	x25, x2
	mov	x26, x1
	stp	x24, x23, [sp, #48]             // 16-byte Folded Spill
	mov	x24, x3
	mov	x1, x7
	mov	x2, x5
	mov	x3, x6
	stp	x29, x30, [sp, #16]             // 16-byte Folded Spill
	stp	x22, x21, [sp, #64]             // 16-byte Folded Spill
	add	x29, sp, #16
	mov	x21, x5
	stp	x20, x19, [sp, #80]             // 16-byte Folded Spill
	mov	x20, x7
	mov	x19, x6
	mov	x23, x4
	mov	x22, x0
	bl	gcm.gcm_siv.message.process_text
	mov	x7, sp
	mov	x0, x22
	mov	x1, x26
	mov	x2, x25
	mov	x3, x24
	mov	x4, x23
	mov	x5, x21
	mov	x6, x19
	stp	xzr, xzr, [sp]
	bl	gcm.gcm_siv.message.put_tag.1
	mov	x1, sp
	mov	x0, x20
	bl	gcm.aes_cipher.blocks.difference
	mov	w23, w0
	mov	x0, sp
	mov	w1, #1                          // =0x1
	bl	gcm.aes_cipher.zeroize.elements.zeroize_elements.4
	cbz	w23, .Lgcm_BB42_2
// %bb.1:                               // %join.3
	mov	x0, x22
	mov	x1, x20
	mov	x2, x21
	mov	x3, x19
	bl	gcm.gcm_siv.message.process_text
.Lgcm_BB42_2:                               // %common.ret
	cmp	w23, #0
	ldp	x20, x19, [sp, #80]             // 16-byte Folded Reload
	ldp	x22, x21, [sp, #64]             // 16-byte Folded Reload
	cset	w0, eq
	ldp	x24, x23, [sp, #48]             // 16-byte Folded Reload
	ldp	x26, x25, [sp, #32]             // 16-byte Folded Reload
	ldp	x29, x30, [sp, #16]             // 16-byte Folded Reload
	add	sp, sp, #96
	ret
.Lgcm_func_end42:
	.size	gcm.gcm_siv.message.open.1, .Lgcm_func_end42-gcm.gcm_siv.message.open.1
                                        // -- End function
	.section	.rodata.cst16,"aM",@progbits,16
	.p2align	4, 0x0                          // -- Begin function gcm_siv::message::put_tag::<#f940bb35374b8583>
.Lgcm_CPI43_0:
	.xword	-8                              // 0xfffffffffffffff8
	.xword	-16                             // 0xfffffffffffffff0
.Lgcm_CPI43_1:
	.xword	-40                             // 0xffffffffffffffd8
	.xword	-48                             // 0xffffffffffffffd0
.Lgcm_CPI43_2:
	.xword	-24                             // 0xffffffffffffffe8
	.xword	-32                             // 0xffffffffffffffe0
.Lgcm_CPI43_3:
	.xword	-16                             // 0xfffffffffffffff0
	.xword	-24                             // 0xffffffffffffffe8
.Lgcm_CPI43_4:
	.xword	-48                             // 0xffffffffffffffd0
	.xword	-56                             // 0xffffffffffffffc8
.Lgcm_CPI43_5:
	.xword	-32                             // 0xffffffffffffffe0
	.xword	-40                             // 0xffffffffffffffd8
.Lgcm_CPI43_6:
	.xword	-56                             // 0xffffffffffffffc8
	.xword	-8                              // 0xfffffffffffffff8
.Lgcm_CPI43_7:
	.byte	255                             // 0xff
	.byte	255                             // 0xff
	.byte	255                             // 0xff
	.byte	255                             // 0xff
	.byte	255                             // 0xff
	.byte	255                             // 0xff
	.byte	255                             // 0xff
	.byte	255                             // 0xff
	.byte	255                             // 0xff
	.byte	255                             // 0xff
	.byte	255                             // 0xff
	.byte	255                             // 0xff
	.byte	255                             // 0xff
	.byte	255                             // 0xff
	.byte	255                             // 0xff
	.byte	127                             // 0x7f
.Lgcm_CPI43_8:
	.byte	0                               // 0x0
	.byte	1                               // 0x1
	.byte	28                              // 0x1c
	.byte	29                              // 0x1d
	.byte	45                              // 0x2d
	.byte	44                              // 0x2c
	.byte	49                              // 0x31
	.byte	48                              // 0x30
	.byte	39                              // 0x27
	.byte	38                              // 0x26
	.byte	59                              // 0x3b
	.byte	58                              // 0x3a
	.byte	10                              // 0xa
	.byte	11                              // 0xb
	.byte	22                              // 0x16
	.byte	23                              // 0x17
.Lgcm_CPI43_9:
	.byte	0                               // 0x0
	.byte	134                             // 0x86
	.byte	253                             // 0xfd
	.byte	123                             // 0x7b
	.byte	142                             // 0x8e
	.byte	8                               // 0x8
	.byte	115                             // 0x73
	.byte	245                             // 0xf5
	.byte	119                             // 0x77
	.byte	241                             // 0xf1
	.byte	138                             // 0x8a
	.byte	12                              // 0xc
	.byte	249                             // 0xf9
	.byte	127                             // 0x7f
	.byte	4                               // 0x4
	.byte	130                             // 0x82
.Lgcm_CPI43_10:
	.byte	128                             // 0x80
	.byte	2                               // 0x2
	.byte	1                               // 0x1
	.byte	15                              // 0xf
	.byte	9                               // 0x9
	.byte	5                               // 0x5
	.byte	14                              // 0xe
	.byte	12                              // 0xc
	.byte	13                              // 0xd
	.byte	4                               // 0x4
	.byte	11                              // 0xb
	.byte	10                              // 0xa
	.byte	7                               // 0x7
	.byte	8                               // 0x8
	.byte	6                               // 0x6
	.byte	3                               // 0x3
.Lgcm_CPI43_11:
	.byte	128                             // 0x80
	.byte	1                               // 0x1
	.byte	9                               // 0x9
	.byte	14                              // 0xe
	.byte	13                              // 0xd
	.byte	11                              // 0xb
	.byte	7                               // 0x7
	.byte	6                               // 0x6
	.byte	15                              // 0xf
	.byte	2                               // 0x2
	.byte	12                              // 0xc
	.byte	5                               // 0x5
	.byte	10                              // 0xa
	.byte	4                               // 0x4
	.byte	3                               // 0x3
	.byte	8                               // 0x8
.Lgcm_CPI43_12:
	.byte	0                               // 0x0
	.byte	195                             // 0xc3
	.byte	79                              // 0x4f
	.byte	12                              // 0xc
	.byte	252                             // 0xfc
	.byte	124                             // 0x7c
	.byte	67                              // 0x43
	.byte	128                             // 0x80
	.byte	207                             // 0xcf
	.byte	51                              // 0x33
	.byte	63                              // 0x3f
	.byte	112                             // 0x70
	.byte	191                             // 0xbf
	.byte	179                             // 0xb3
	.byte	240                             // 0xf0
	.byte	140                             // 0x8c
.Lgcm_CPI43_13:
	.byte	0                               // 0x0
	.byte	230                             // 0xe6
	.byte	114                             // 0x72
	.byte	183                             // 0xb7
	.byte	229                             // 0xe5
	.byte	198                             // 0xc6
	.byte	197                             // 0xc5
	.byte	35                              // 0x23
	.byte	81                              // 0x51
	.byte	180                             // 0xb4
	.byte	3                               // 0x3
	.byte	113                             // 0x71
	.byte	32                              // 0x20
	.byte	151                             // 0x97
	.byte	82                              // 0x52
	.byte	148                             // 0x94
.Lgcm_CPI43_14:
	.byte	0                               // 0x0
	.byte	124                             // 0x7c
	.byte	32                              // 0x20
	.byte	207                             // 0xcf
	.byte	146                             // 0x92
	.byte	1                               // 0x1
	.byte	239                             // 0xef
	.byte	147                             // 0x93
	.byte	179                             // 0xb3
	.byte	33                              // 0x21
	.byte	238                             // 0xee
	.byte	206                             // 0xce
	.byte	125                             // 0x7d
	.byte	178                             // 0xb2
	.byte	93                              // 0x5d
	.byte	92                              // 0x5c
.Lgcm_CPI43_15:
	.byte	0                               // 0x0
	.byte	209                             // 0xd1
	.byte	229                             // 0xe5
	.byte	247                             // 0xf7
	.byte	230                             // 0xe6
	.byte	37                              // 0x25
	.byte	18                              // 0x12
	.byte	195                             // 0xc3
	.byte	38                              // 0x26
	.byte	192                             // 0xc0
	.byte	55                              // 0x37
	.byte	210                             // 0xd2
	.byte	244                             // 0xf4
	.byte	3                               // 0x3
	.byte	17                              // 0x11
	.byte	52                              // 0x34
.Lgcm_CPI43_16:
	.byte	0                               // 0x0
	.byte	203                             // 0xcb
	.byte	215                             // 0xd7
	.byte	176                             // 0xb0
	.byte	33                              // 0x21
	.byte	141                             // 0x8d
	.byte	103                             // 0x67
	.byte	172                             // 0xac
	.byte	123                             // 0x7b
	.byte	90                              // 0x5a
	.byte	234                             // 0xea
	.byte	61                              // 0x3d
	.byte	70                              // 0x46
	.byte	246                             // 0xf6
	.byte	145                             // 0x91
	.byte	28                              // 0x1c
.Lgcm_CPI43_17:
	.byte	0                               // 0x0
	.byte	159                             // 0x9f
	.byte	97                              // 0x61
	.byte	22                              // 0x16
	.byte	194                             // 0xc2
	.byte	42                              // 0x2a
	.byte	119                             // 0x77
	.byte	232                             // 0xe8
	.byte	137                             // 0x89
	.byte	75                              // 0x4b
	.byte	93                              // 0x5d
	.byte	60                              // 0x3c
	.byte	181                             // 0xb5
	.byte	163                             // 0xa3
	.byte	212                             // 0xd4
	.byte	254                             // 0xfe
	.section	.text.gcm.gcm_siv.message.put_tag.1,"ax",@progbits
	.p2align	2
	.type	gcm.gcm_siv.message.put_tag.1,@function
gcm.gcm_siv.message.put_tag.1: // @gcm.gcm_siv.message.put_tag.1
// %bb.0:                               // %start
	sub	sp, sp, #128
	movi	v19.2d, #0000000000000000
	stp	x28, x27, [sp, #48]             // 16-byte Folded Spill
	lsr	x27, x4, #4
	stp	x26, x25, [sp, #64]             // 16-byte Folded Spill
	mov	x25, x5
	mov	x26, x3
	stp	x24, x23, [sp, #80]             // 16-byte Folded Spill
	mov	x23, x6
	mov	x24, x4
	stp	x22, x21, [sp, #96]             // 16-byte Folded Spill
	mov	x21, x2
	mov	x22, x1
	stp	x20, x19, [sp, #112]            // 16-byte Folded Spill
	mov	x19, x7
	mov	x20, x0
	stp	x29, x30, [sp, #32]             // 16-byte Folded Spill
	add	x29, sp, #32
	cbz	x27, .Lgcm_BB43_3
// %bb.1:                               // %join.5.i.i.i.i.preheader
	mov	x28, x26
.Lgcm_BB43_2:                               // %join.5.i.i.i.i
                                        // =>This Inner Loop Header: Depth=1
	ldr	q0, [x28], #16
	add	x0, sp, #16
	mov	x1, x22
	stp	xzr, xzr, [sp, #16]
	rev64	v0.16b, v0.16b
	ext	v0.16b, v0.16b, v0.16b, #8
	eor	v0.16b, v0.16b, v19.16b
	bl	gcm.gcm.multiples.Table.product
	ldr	q19, [sp, #16]
	subs	x27, x27, #1
	b.ne	.Lgcm_BB43_2
.Lgcm_BB43_3:                               // %"gcm::single_blocks::hash_whole::<#a9149335c466a3fd>.exit.i.i.i"
	ands	x27, x24, #0xf
	b.eq	.Lgcm_BB43_5
// %bb.4:                               // %join.3.i.i.i
	mov	w8, #16                         // =0x10
	mov	w1, wzr
	and	x28, x24, #0xfffffffffffffff0
	sub	x2, x8, x27
	add	x8, sp, #16
	str	q19, [sp]                       // 16-byte Spill
	orr	x0, x8, x27
	adrp	x16, :got:memset
	ldr	x16, [x16, :got_lo12:memset]
	blr	x16
	add	x0, sp, #16
	add	x1, x26, x28
	mov	x2, x27
	adrp	x16, :got:memcpy
	ldr	x16, [x16, :got_lo12:memcpy]
	blr	x16
	ldp	q1, q0, [sp]                    // 16-byte Folded Reload
	add	x0, sp, #16
	mov	x1, x22
	stp	xzr, xzr, [sp, #16]
	rev64	v0.16b, v0.16b
	ext	v0.16b, v0.16b, v0.16b, #8
	eor	v0.16b, v0.16b, v1.16b
	bl	gcm.gcm.multiples.Table.product
	ldr	q19, [sp, #16]
.Lgcm_BB43_5:                               // %"gcm::single_blocks::hash_singly::<#a9149335c466a3fd>.exit.i.i"
	lsr	x26, x23, #4
	cbz	x26, .Lgcm_BB43_8
// %bb.6:                               // %join.5.i.i12.i.i.preheader
	mov	x27, x25
.Lgcm_BB43_7:                               // %join.5.i.i12.i.i
                                        // =>This Inner Loop Header: Depth=1
	ldr	q0, [x27], #16
	add	x0, sp, #16
	mov	x1, x22
	stp	xzr, xzr, [sp, #16]
	rev64	v0.16b, v0.16b
	ext	v0.16b, v0.16b, v0.16b, #8
	eor	v0.16b, v0.16b, v19.16b
	bl	gcm.gcm.multiples.Table.product
	ldr	q19, [sp, #16]
	subs	x26, x26, #1
	b.ne	.Lgcm_BB43_7
.Lgcm_BB43_8:                               // %"gcm::single_blocks::hash_whole::<#a9149335c466a3fd>.exit.i23.i.i"
	ands	x26, x23, #0xf
	b.eq	.Lgcm_BB43_10
// %bb.9:                               // %join.3.i27.i.i
	mov	w8, #16                         // =0x10
	mov	w1, wzr
	and	x27, x23, #0xfffffffffffffff0
	sub	x2, x8, x26
	add	x8, sp, #16
	str	q19, [sp]                       // 16-byte Spill
	orr	x0, x8, x26
	adrp	x16, :got:memset
	ldr	x16, [x16, :got_lo12:memset]
	blr	x16
	add	x0, sp, #16
	add	x1, x25, x27
	mov	x2, x26
	adrp	x16, :got:memcpy
	ldr	x16, [x16, :got_lo12:memcpy]
	blr	x16
	ldp	q1, q0, [sp]                    // 16-byte Folded Reload
	add	x0, sp, #16
	mov	x1, x22
	stp	xzr, xzr, [sp, #16]
	rev64	v0.16b, v0.16b
	ext	v0.16b, v0.16b, v0.16b, #8
	eor	v0.16b, v0.16b, v1.16b
	bl	gcm.gcm.multiples.Table.product
	ldr	q19, [sp, #16]
.Lgcm_BB43_10:                              // %"gcm_siv::hash::TableRoomPolyvalRoom::hash.exit"
	fmov	d0, x24
	adrp	x8, .Lgcm_CPI43_0
	adrp	x9, .Lgcm_CPI43_6
	ldr	q2, [x8, :lo12:.Lgcm_CPI43_0]
	adrp	x8, .Lgcm_CPI43_1
	ldr	q5, [x9, :lo12:.Lgcm_CPI43_6]
	ldr	q3, [x8, :lo12:.Lgcm_CPI43_1]
	adrp	x8, .Lgcm_CPI43_2
	adrp	x9, .Lgcm_CPI43_4
	mov	v0.d[1], x23
	ldr	q4, [x8, :lo12:.Lgcm_CPI43_2]
	adrp	x8, .Lgcm_CPI43_3
	ldr	q7, [x8, :lo12:.Lgcm_CPI43_3]
	adrp	x8, .Lgcm_CPI43_5
	ldr	q16, [x9, :lo12:.Lgcm_CPI43_4]
	ldr	q17, [x8, :lo12:.Lgcm_CPI43_5]
	add	x0, sp, #16
	mov	x1, x22
	stp	xzr, xzr, [sp, #16]
	shl	v0.2d, v0.2d, #3
	dup	v1.2d, v0.d[0]
	dup	v6.2d, v0.d[1]
	ushl	v2.2d, v1.2d, v2.2d
	ushl	v3.2d, v1.2d, v3.2d
	ushl	v1.2d, v1.2d, v4.2d
	ushl	v4.2d, v0.2d, v5.2d
	dup	v5.2d, v2.d[0]
	ext	v18.16b, v3.16b, v4.16b, #8
	ext	v3.16b, v1.16b, v3.16b, #8
	ext	v1.16b, v2.16b, v1.16b, #8
	zip2	v2.2d, v0.2d, v4.2d
	ushl	v4.2d, v6.2d, v16.2d
	mov	v5.d[0], v0.d[0]
	ushl	v0.2d, v6.2d, v7.2d
	ushl	v6.2d, v6.2d, v17.2d
	uzp1	v3.4s, v3.4s, v18.4s
	uzp1	v4.4s, v6.4s, v4.4s
	uzp1	v0.4s, v2.4s, v0.4s
	uzp1	v1.4s, v5.4s, v1.4s
	uzp1	v0.8h, v0.8h, v4.8h
	uzp1	v1.8h, v1.8h, v3.8h
	uzp1	v0.16b, v1.16b, v0.16b
	rev64	v0.16b, v0.16b
	ext	v0.16b, v0.16b, v0.16b, #8
	eor	v0.16b, v19.16b, v0.16b
	bl	gcm.gcm.multiples.Table.product
	ldp	x10, x8, [sp, #16]
	mov	w11, #16                        // =0x10
	ldr	d1, [x21]
	rev	x8, x8
	fmov	s0, w8
	lsr	x9, x8, #8
	mov	v0.b[1], w9
	lsr	x9, x8, #16
	mov	v0.b[2], w9
	lsr	x9, x8, #24
	mov	v0.b[3], w9
	lsr	x9, x8, #32
	mov	v0.b[4], w9
	rev	x9, x10
	extr	x10, x9, x8, #40
	mov	v0.b[5], w10
	extr	x10, x9, x8, #48
	extr	x8, x9, x8, #56
	mov	v0.b[6], w10
	adrp	x10, .Lgcm_CPI43_9
	ldr	q4, [x10, :lo12:.Lgcm_CPI43_9]
	mov	v0.b[7], w8
	lsr	x8, x9, #8
	mov	v0.b[8], w9
	mov	v0.b[9], w8
	lsr	x8, x9, #16
	mov	v0.b[10], w8
	lsr	x8, x9, #24
	mov	v0.b[11], w8
	lsr	x8, x9, #32
	mov	v0.b[12], w8
	lsr	x8, x9, #40
	mov	v0.b[13], w8
	lsr	x8, x9, #48
	mov	v0.b[14], w8
	lsr	x8, x9, #56
	add	x9, x21, #8
	ld1	{ v1.s }[2], [x9]
	adrp	x9, .Lgcm_CPI43_8
	ldr	q3, [x9, :lo12:.Lgcm_CPI43_8]
	mov	v0.b[15], w8
	adrp	x8, .Lgcm_CPI43_7
	eor	v0.16b, v1.16b, v0.16b
	ldr	q1, [x8, :lo12:.Lgcm_CPI43_7]
	mov	x8, x20
	and	v1.16b, v0.16b, v1.16b
	movi	v0.16b, #15
	str	q1, [x19]
	ldr	q2, [x8, #4]!
	ldr	w9, [x20], #20
	eor	v1.16b, v2.16b, v1.16b
	lsr	x10, x9, #2
	and	v2.16b, v1.16b, v0.16b
	ushr	v1.16b, v1.16b, #4
	add	x9, x10, #6
	add	x10, x10, #5
	tbl	v2.16b, { v3.16b }, v2.16b
	tbl	v1.16b, { v4.16b }, v1.16b
	eor	v3.16b, v1.16b, v2.16b
.Lgcm_BB43_11:                              // %join.5.i.i
                                        // =>This Inner Loop Header: Depth=1
	ushr	v4.16b, v3.16b, #4
	and	v3.16b, v3.16b, v0.16b
	adrp	x12, .Lgcm_CPI43_10
	adrp	x13, .Lgcm_CPI43_11
	ldr	q2, [x12, :lo12:.Lgcm_CPI43_10]
	adrp	x12, .Lgcm_CPI43_12
	ldr	q1, [x13, :lo12:.Lgcm_CPI43_11]
	adrp	x13, .Lgcm_CPI43_13
	subs	x10, x10, #1
	eor	v5.16b, v4.16b, v3.16b
	tbl	v3.16b, { v2.16b }, v3.16b
	tbl	v6.16b, { v1.16b }, v4.16b
	tbl	v7.16b, { v1.16b }, v5.16b
	eor	v6.16b, v6.16b, v3.16b
	eor	v3.16b, v7.16b, v3.16b
	tbl	v6.16b, { v1.16b }, v6.16b
	tbl	v3.16b, { v1.16b }, v3.16b
	eor	v5.16b, v6.16b, v5.16b
	ldr	q6, [x13, :lo12:.Lgcm_CPI43_13]
	adrp	x13, .Lgcm_CPI43_15
	ldr	q16, [x13, :lo12:.Lgcm_CPI43_15]
	adrp	x13, .Lgcm_static.5
	add	x13, x13, :lo12:.Lgcm_static.5
	eor	v3.16b, v3.16b, v4.16b
	ldr	q4, [x12, :lo12:.Lgcm_CPI43_12]
	adrp	x12, .Lgcm_CPI43_14
	ldr	q7, [x12, :lo12:.Lgcm_CPI43_14]
	and	x12, x11, #0x30
	add	x11, x11, #16
	tbl	v4.16b, { v4.16b }, v5.16b
	tbl	v6.16b, { v6.16b }, v3.16b
	tbl	v5.16b, { v7.16b }, v5.16b
	tbl	v3.16b, { v16.16b }, v3.16b
	eor	v4.16b, v6.16b, v4.16b
	ldr	q6, [x13, x12]
	adrp	x13, .Lgcm_static.6
	add	x13, x13, :lo12:.Lgcm_static.6
	eor	v3.16b, v3.16b, v5.16b
	ldr	q7, [x13, x12]
	ldr	q5, [x20], #16
	tbl	v16.16b, { v4.16b }, v6.16b
	tbl	v4.16b, { v4.16b }, v7.16b
	eor	v3.16b, v3.16b, v16.16b
	eor	v4.16b, v5.16b, v4.16b
	tbl	v5.16b, { v3.16b }, v6.16b
	eor	v3.16b, v4.16b, v3.16b
	eor	v3.16b, v5.16b, v3.16b
	b.ne	.Lgcm_BB43_11
// %bb.12:                              // %"gcm_c::siv::MessageRoomMessageKey::encrypt_block.exit"
	movi	v0.16b, #15
	ushr	v4.16b, v3.16b, #4
	adrp	x10, .Lgcm_CPI43_16
	adrp	x11, .Lgcm_CPI43_17
	lsl	x9, x9, #4
	ldp	x22, x21, [sp, #96]             // 16-byte Folded Reload
	ldp	x24, x23, [sp, #80]             // 16-byte Folded Reload
	and	v0.16b, v3.16b, v0.16b
	ldp	x26, x25, [sp, #64]             // 16-byte Folded Reload
	ldp	x28, x27, [sp, #48]             // 16-byte Folded Reload
	ldp	x29, x30, [sp, #32]             // 16-byte Folded Reload
	eor	v3.16b, v4.16b, v0.16b
	tbl	v0.16b, { v2.16b }, v0.16b
	tbl	v2.16b, { v1.16b }, v4.16b
	tbl	v5.16b, { v1.16b }, v3.16b
	eor	v2.16b, v2.16b, v0.16b
	eor	v0.16b, v5.16b, v0.16b
	tbl	v2.16b, { v1.16b }, v2.16b
	tbl	v0.16b, { v1.16b }, v0.16b
	eor	v1.16b, v2.16b, v3.16b
	ldr	q2, [x10, :lo12:.Lgcm_CPI43_16]
	ldr	q3, [x11, :lo12:.Lgcm_CPI43_17]
	and	x10, x9, #0x30
	adrp	x11, .Lgcm_static.3
	add	x11, x11, :lo12:.Lgcm_static.3
	eor	v0.16b, v0.16b, v4.16b
	tbl	v1.16b, { v2.16b }, v1.16b
	tbl	v0.16b, { v3.16b }, v0.16b
	eor	v0.16b, v0.16b, v1.16b
	ldr	q1, [x11, x10]
	tbl	v0.16b, { v0.16b }, v1.16b
	ldr	q1, [x8, x9]
	eor	v0.16b, v0.16b, v1.16b
	str	q0, [x19]
	ldp	x20, x19, [sp, #112]            // 16-byte Folded Reload
	add	sp, sp, #128
	ret
.Lgcm_func_end43:
	.size	gcm.gcm_siv.message.put_tag.1, .Lgcm_func_end43-gcm.gcm_siv.message.put_tag.1
                                        // -- End function
	.section	.rodata.cst16,"aM",@progbits,16
	.p2align	4, 0x0                          // -- Begin function gcm::multiples::Table::product
.Lgcm_CPI44_0:
	.byte	255                             // 0xff
	.byte	0                               // 0x0
	.byte	1                               // 0x1
	.byte	2                               // 0x2
	.byte	3                               // 0x3
	.byte	4                               // 0x4
	.byte	5                               // 0x5
	.byte	6                               // 0x6
	.byte	7                               // 0x7
	.byte	8                               // 0x8
	.byte	9                               // 0x9
	.byte	10                              // 0xa
	.byte	11                              // 0xb
	.byte	12                              // 0xc
	.byte	13                              // 0xd
	.byte	14                              // 0xe
	.section	.text.gcm.gcm.multiples.Table.product,"ax",@progbits
	.p2align	2
	.type	gcm.gcm.multiples.Table.product,@function
gcm.gcm.multiples.Table.product:       // @gcm.gcm.multiples.Table.product
// %bb.0:                               // %start
	movi	v5.16b, #15
	movi	v1.2d, #0000000000000000
	add	x8, x1, #480
	movi	v3.2d, #0000000000000000
	movi	v4.2d, #0000000000000000
	mov	w9, #8                          // =0x8
	movi	v2.2d, #0000000000000000
	and	v5.16b, v0.16b, v5.16b
	ushr	v0.16b, v0.16b, #4
.Lgcm_BB44_1:                               // %join.5.i
                                        // =>This Inner Loop Header: Depth=1
	ldp	q6, q7, [x8]
	adrp	x10, .Lgcm_CPI44_0
	ldp	q16, q17, [x8, #-256]
	ext	v3.16b, v2.16b, v3.16b, #15
	ldr	q18, [x10, :lo12:.Lgcm_CPI44_0]
	ext	v4.16b, v1.16b, v4.16b, #15
	sub	x9, x9, #1
	tbl	v6.16b, { v6.16b }, v5.16b
	tbl	v7.16b, { v7.16b }, v5.16b
	sub	x8, x8, #32
	tbl	v16.16b, { v16.16b }, v0.16b
	tbl	v17.16b, { v17.16b }, v0.16b
	tbl	v19.16b, { v2.16b }, v18.16b
	tbl	v18.16b, { v1.16b }, v18.16b
	eor	v6.16b, v16.16b, v6.16b
	eor	v7.16b, v17.16b, v7.16b
	eor	v1.16b, v7.16b, v18.16b
	eor	v2.16b, v6.16b, v19.16b
	cbnz	x9, .Lgcm_BB44_1
// %bb.2:                               // %"gcm::multiples::shifted_sum::<#29e205ae42dcf28f>.exit"
	ext	v0.16b, v1.16b, v4.16b, #8
	eor	v0.16b, v0.16b, v3.16b
	movi	v3.2d, #0000000000000000
	mov	x8, v0.d[1]
	fmov	x9, d0
	mov	v3.d[1], v1.d[0]
	rev	x9, x9
	rev	x8, x8
	lsr	x10, x9, #2
	extr	x11, x9, x8, #1
	extr	x12, x9, x8, #2
	extr	x13, x9, x8, #7
	eor	x10, x10, x9, lsr #1
	eor	v1.16b, v3.16b, v2.16b
	eor	x11, x12, x11
	eor	x8, x13, x8
	eor	x8, x11, x8
	eor	x10, x10, x9, lsr #7
	fmov	d0, x8
	eor	x9, x10, x9
	mov	v0.d[1], x9
	rev64	v0.16b, v0.16b
	ext	v0.16b, v0.16b, v0.16b, #8
	eor	v0.16b, v1.16b, v0.16b
	str	q0, [x0]
	ret
.Lgcm_func_end44:
	.size	gcm.gcm.multiples.Table.product, .Lgcm_func_end44-gcm.gcm.multiples.Table.product
                                        // -- End function
	.section	.text.gcm.gcm_siv.message.process_text,"ax",@progbits
	.p2align	2                               // -- Begin function gcm_siv::message::process_text::<#66aa1833bfd7fef8>
	.type	gcm.gcm_siv.message.process_text,@function
gcm.gcm_siv.message.process_text: // @gcm.gcm_siv.message.process_text
// %bb.0:                               // %start
	sub	sp, sp, #432
	stp	x22, x21, [sp, #400]            // 16-byte Folded Spill
	mov	x21, x0
	ldrb	w8, [x1, #15]
	ldr	w10, [x21], #4
	ldr	x9, [x1]
	ldur	x11, [x1, #7]
	stp	x20, x19, [sp, #416]            // 16-byte Folded Spill
	mov	x19, x3
	lsr	x22, x10, #2
	mov	x20, x2
	orr	w8, w8, #0xffffff80
	cmp	x3, #16
	stp	x29, x30, [sp, #336]            // 16-byte Folded Spill
	add	x29, sp, #336
	stp	x28, x27, [sp, #352]            // 16-byte Folded Spill
	stp	x26, x25, [sp, #368]            // 16-byte Folded Spill
	stp	x24, x23, [sp, #384]            // 16-byte Folded Spill
	str	x9, [sp, #16]
	stur	x11, [sp, #23]
	strb	w8, [sp, #31]
	b.hi	.Lgcm_BB45_4
// %bb.1:                               // %then.1.i.i
	ldr	w9, [sp, #16]
	ldur	x10, [x1, #4]
	add	x2, sp, #64
	ldur	w11, [x1, #11]
	add	x1, x22, #7
	mov	x0, x21
	mov	w3, #1                          // =0x1
	str	w9, [sp, #64]
	stur	x10, [sp, #68]
	stur	w11, [sp, #75]
	strb	w8, [sp, #79]
	bl	gcm.aes_permute.blocks.process_on_lanes
	cbz	x19, .Lgcm_BB45_36
// %bb.2:                               // %then.1.i.i
	cmp	x19, #16
	b.ne	.Lgcm_BB45_10
// %bb.3:                               // %after.4.i.thread.i.i.i
	ldr	q0, [x20]
	ldr	q1, [sp, #64]
	eor	v0.16b, v1.16b, v0.16b
	str	q0, [x20]
	b	.Lgcm_BB45_36
.Lgcm_BB45_4:                               // %else.2.i.i
	lsr	x8, x19, #4
	tst	x19, #0xf
	add	x9, sp, #16
	stp	x9, xzr, [sp, #32]
	cinc	x8, x8, ne
	stp	x20, x19, [sp, #48]
	cmp	x8, #8
	b.lo	.Lgcm_BB45_6
// %bb.5:                               // %then.1.i.i.i
	add	x1, x22, #7
	add	x3, x22, #7
	add	x4, sp, #32
	mov	x0, x21
	mov	x2, x21
	bl	gcm.aes_hybrid.closures.lend_planes.2
	b	.Lgcm_BB45_36
.Lgcm_BB45_6:                               // %join.3.i.i.i.i
	subs	x8, x19, #64
	b.lo	.Lgcm_BB45_12
// %bb.7:                               // %join.11.lr.ph.i.i.i.i
	add	x24, sp, #64
	add	x9, sp, #16
	ldr	w25, [sp, #16]
	and	x8, x8, #0xffffffffffffffc0
	orr	x26, x24, #0x4
	orr	x27, x9, #0x4
	str	x20, [sp, #8]                   // 8-byte Spill
	add	x28, x20, #32
	add	x23, x8, #64
	mov	x20, x19
.Lgcm_BB45_8:                               // %join.11.i.i.i.i
                                        // =>This Inner Loop Header: Depth=1
	ldr	x8, [x27]
	movi	v0.2d, #0000000000000000
	ldr	w9, [x27, #8]
	add	w10, w25, #2
	add	w11, w25, #3
	add	x1, x22, #7
	str	x8, [x26]
	add	w8, w25, #1
	add	x2, sp, #64
	str	w9, [x26, #8]
	ldr	w9, [x27, #8]
	mov	x0, x21
	str	w8, [sp, #80]
	ldr	x8, [x27]
	mov	w3, #4                          // =0x4
	stp	q0, q0, [x24, #64]
	stp	q0, q0, [x24, #96]
	stp	q0, q0, [x24, #128]
	stp	q0, q0, [x24, #160]
	stp	q0, q0, [x24, #192]
	stp	q0, q0, [x24, #224]
	str	w25, [sp, #64]
	stur	w9, [x24, #28]
	stur	x8, [x24, #20]
	stur	w9, [x24, #44]
	stur	x8, [x24, #36]
	str	w10, [sp, #96]
	str	w11, [sp, #112]
	stur	w9, [x24, #60]
	stur	x8, [x24, #52]
	bl	gcm.aes_permute.blocks.process_on_lanes
	ldp	q0, q3, [sp, #64]
	sub	x20, x20, #64
	ldp	q1, q2, [x28, #-32]
	cmp	x20, #63
	add	w25, w25, #4
	eor	v0.16b, v0.16b, v1.16b
	ldp	q1, q5, [x28]
	eor	v2.16b, v3.16b, v2.16b
	ldp	q4, q3, [sp, #96]
	eor	v1.16b, v4.16b, v1.16b
	eor	v3.16b, v3.16b, v5.16b
	stp	q0, q2, [x28, #-32]
	stp	q1, q3, [x28], #64
	b.hi	.Lgcm_BB45_8
// %bb.9:
	ldr	x20, [sp, #8]                   // 8-byte Reload
	cmp	x23, x19
	b.lo	.Lgcm_BB45_13
	b	.Lgcm_BB45_36
.Lgcm_BB45_10:                              // %iter.check23
	cmp	x19, #8
	b.hs	.Lgcm_BB45_31
// %bb.11:
	mov	x8, xzr
	b	.Lgcm_BB45_34
.Lgcm_BB45_12:
	mov	x23, xzr
	cmp	xzr, x19
	b.hs	.Lgcm_BB45_36
.Lgcm_BB45_13:                              // %join.16.i.i.i.preheader.i
	ldr	w24, [sp, #16]
	add	x8, sp, #16
	add	x25, sp, #64
	orr	x26, x8, #0x4
	b	.Lgcm_BB45_15
.Lgcm_BB45_14:                              // %"aes_ctr::add_in_batches::add_next::<#67adacb97a8afb93>.exit.i"
                                        //   in Loop: Header=BB45_15 Depth=1
	add	x23, x27, x23
	cmp	x23, x19
	b.hs	.Lgcm_BB45_36
.Lgcm_BB45_15:                              // %join.16.i.i.i.i
                                        // =>This Loop Header: Depth=1
                                        //     Child Loop BB45_18 Depth 2
                                        //     Child Loop BB45_20 Depth 2
                                        //     Child Loop BB45_27 Depth 2
                                        //     Child Loop BB45_30 Depth 2
	ldr	w11, [x26, #8]
	and	x28, x23, #0xf
	sub	x12, x19, x23
	add	x8, x24, x23, lsr #4
	movi	v0.2d, #0000000000000000
	ldr	x9, [x26]
	stur	w11, [x25, #12]
	mov	w11, #64                        // =0x40
	add	x1, x22, #7
	sub	x11, x11, x28
	add	w10, w8, #1
	stur	x9, [x25, #4]
	cmp	x12, x11
	ldr	w9, [x26, #8]
	str	w10, [sp, #80]
	csel	x27, x12, x11, lo
	ldr	x10, [x26]
	str	w8, [sp, #64]
	add	x11, x28, x27
	add	w13, w8, #2
	add	w8, w8, #3
	add	x11, x11, #15
	add	x2, sp, #64
	mov	x0, x21
	lsr	x3, x11, #4
	stp	q0, q0, [x25, #64]
	stp	q0, q0, [x25, #96]
	stp	q0, q0, [x25, #128]
	stp	q0, q0, [x25, #160]
	stp	q0, q0, [x25, #192]
	stp	q0, q0, [x25, #224]
	stur	w9, [x25, #28]
	stur	x10, [x25, #20]
	str	w13, [sp, #96]
	stur	w9, [x25, #44]
	stur	x10, [x25, #36]
	str	w8, [sp, #112]
	stur	w9, [x25, #60]
	stur	x10, [x25, #52]
	bl	gcm.aes_permute.blocks.process_on_lanes
	add	x9, x20, x23
	cbz	x28, .Lgcm_BB45_25
// %bb.16:                              // %then.1.i.i2.i
                                        //   in Loop: Header=BB45_15 Depth=1
	mov	w8, #16                         // =0x10
	sub	x8, x8, x28
	cmp	x27, x8
	csel	x8, x27, x8, lo
	cmp	x19, x23
	b.eq	.Lgcm_BB45_19
// %bb.17:                              // %join.8.i80.lr.ph.i.i
                                        //   in Loop: Header=BB45_15 Depth=1
	add	x10, sp, #64
	add	x11, x20, x23
	mov	x12, x8
	add	x10, x10, x28
.Lgcm_BB45_18:                              // %join.8.i80.i.i
                                        //   Parent Loop BB45_15 Depth=1
                                        // =>  This Inner Loop Header: Depth=2
	ldrb	w13, [x10], #1
	ldrb	w14, [x11]
	subs	x12, x12, #1
	eor	w13, w14, w13
	strb	w13, [x11], #1
	b.ne	.Lgcm_BB45_18
.Lgcm_BB45_19:                              // %join.3.i.i.i
                                        //   in Loop: Header=BB45_15 Depth=1
	sub	x10, x27, x8
	cmp	x10, #16
	b.lo	.Lgcm_BB45_21
.Lgcm_BB45_20:                              // %join.8.i.i.i
                                        //   Parent Loop BB45_15 Depth=1
                                        // =>  This Inner Loop Header: Depth=2
	add	x11, x28, x8
	add	x12, sp, #64
	ldr	q0, [x9, x8]
	and	x11, x11, #0xfffffffffffffff0
	sub	x10, x10, #16
	ldr	q1, [x12, x11]
	cmp	x10, #15
	eor	v0.16b, v1.16b, v0.16b
	str	q0, [x9, x8]
	add	x8, x8, #16
	b.hi	.Lgcm_BB45_20
.Lgcm_BB45_21:                              // %after.4.i.i.i
                                        //   in Loop: Header=BB45_15 Depth=1
	cmp	x8, x27
	b.hs	.Lgcm_BB45_14
// %bb.22:                              // %then.9.i.i.i
                                        //   in Loop: Header=BB45_15 Depth=1
	cbz	x10, .Lgcm_BB45_14
// %bb.23:                              // %iter.check
                                        //   in Loop: Header=BB45_15 Depth=1
	add	x11, x8, x28
	cmp	x10, #8
	and	x11, x11, #0xfffffffffffffff0
	b.hs	.Lgcm_BB45_26
// %bb.24:                              //   in Loop: Header=BB45_15 Depth=1
	mov	x9, xzr
	b	.Lgcm_BB45_29
.Lgcm_BB45_25:                              //   in Loop: Header=BB45_15 Depth=1
	mov	x8, xzr
	sub	x10, x27, xzr
	cmp	x10, #16
	b.hs	.Lgcm_BB45_20
	b	.Lgcm_BB45_21
.Lgcm_BB45_26:                              // %vec.epilog.ph
                                        //   in Loop: Header=BB45_15 Depth=1
	add	x12, sp, #64
	add	x13, x9, x8
	and	x9, x10, #0x8
	add	x12, x12, x11
	and	x14, x10, #0x8
.Lgcm_BB45_27:                              // %vec.epilog.vector.body
                                        //   Parent Loop BB45_15 Depth=1
                                        // =>  This Inner Loop Header: Depth=2
	ldr	d0, [x12], #8
	ldr	d1, [x13]
	subs	x14, x14, #8
	eor	v0.8b, v1.8b, v0.8b
	str	d0, [x13], #8
	b.ne	.Lgcm_BB45_27
// %bb.28:                              // %vec.epilog.middle.block
                                        //   in Loop: Header=BB45_15 Depth=1
	cmp	x10, x9
	b.eq	.Lgcm_BB45_14
.Lgcm_BB45_29:                              // %join.8.i23.i.i.preheader
                                        //   in Loop: Header=BB45_15 Depth=1
	add	x12, x8, x9
	add	x13, x20, x23
	add	x11, x9, x11
	add	x14, sp, #64
	sub	x8, x10, x9
	add	x9, x13, x12
	add	x10, x14, x11
.Lgcm_BB45_30:                              // %join.8.i23.i.i
                                        //   Parent Loop BB45_15 Depth=1
                                        // =>  This Inner Loop Header: Depth=2
	ldrb	w11, [x10], #1
	ldrb	w12, [x9]
	subs	x8, x8, #1
	eor	w11, w12, w11
	strb	w11, [x9], #1
	b.ne	.Lgcm_BB45_30
	b	.Lgcm_BB45_14
.Lgcm_BB45_31:                              // %vec.epilog.ph42
	ldr	d0, [sp, #64]
	ldr	d1, [x20]
	and	x8, x19, #0x18
	cmp	x8, #8
	eor	v0.8b, v1.8b, v0.8b
	str	d0, [x20]
	b.eq	.Lgcm_BB45_33
// %bb.32:                              // %vec.epilog.vector.body45.1
	ldr	d0, [sp, #72]
	ldr	d1, [x20, #8]
	eor	v0.8b, v1.8b, v0.8b
	str	d0, [x20, #8]
.Lgcm_BB45_33:                              // %vec.epilog.middle.block50
	cmp	x19, x8
	b.eq	.Lgcm_BB45_36
.Lgcm_BB45_34:                              // %join.8.i6.i.i.i.preheader
	add	x11, sp, #64
	sub	x9, x19, x8
	add	x10, x20, x8
	add	x8, x11, x8
.Lgcm_BB45_35:                              // %join.8.i6.i.i.i
                                        // =>This Inner Loop Header: Depth=1
	ldrb	w11, [x8], #1
	ldrb	w12, [x10]
	subs	x9, x9, #1
	eor	w11, w12, w11
	strb	w11, [x10], #1
	b.ne	.Lgcm_BB45_35
.Lgcm_BB45_36:                              // %"gcm_siv::counters::add_keystream::<#ed3b81e0963a9ab3>.exit"
	ldp	x20, x19, [sp, #416]            // 16-byte Folded Reload
	ldp	x22, x21, [sp, #400]            // 16-byte Folded Reload
	ldp	x24, x23, [sp, #384]            // 16-byte Folded Reload
	ldp	x26, x25, [sp, #368]            // 16-byte Folded Reload
	ldp	x28, x27, [sp, #352]            // 16-byte Folded Reload
	ldp	x29, x30, [sp, #336]            // 16-byte Folded Reload
	add	sp, sp, #432
	ret
.Lgcm_func_end45:
	.size	gcm.gcm_siv.message.process_text, .Lgcm_func_end45-gcm.gcm_siv.message.process_text
                                        // -- End function
	.section	.text.gcm.aes_hybrid.closures.lend_planes.2,"ax",@progbits
	.p2align	2                               // -- Begin function aes_hybrid::closures::lend_planes::<#4eff1f6a6667429a>
	.type	gcm.aes_hybrid.closures.lend_planes.2,@function
gcm.aes_hybrid.closures.lend_planes.2: // @gcm.aes_hybrid.closures.lend_planes.2
// %bb.0:                               // %start
	stp	x29, x30, [sp, #-80]!           // 16-byte Folded Spill
	str	x28, [sp, #16]                  // 8-byte Spill
	mov	x29, sp
	stp	x24, x23, [sp, #32]             // 16-byte Folded Spill
	stp	x22, x21, [sp, #48]             // 16-byte Folded Spill
	stp	x20, x19, [sp, #64]             // 16-byte Folded Spill
	sub	sp, sp, #1952
	add	x8, sp, #32
	mov	x21, x2
	mov	x22, x1
	mov	x23, x0
	add	x0, x8, #128
	mov	w1, wzr
	mov	w2, #1792                       // =0x700
	str	xzr, [sp]
	mov	x19, x4
	mov	x20, x3
	adrp	x16, :got:memset
	ldr	x16, [x16, :got_lo12:memset]
	blr	x16
	add	x0, sp, #32
	mov	x1, x23
	mov	x2, x22
	lsl	x24, x22, #3
	bl	gcm.aes_hybrid.plane_keys.store_planes
	mov	x0, sp
	add	x1, sp, #32
	mov	x2, x24
	mov	x3, x19
	stp	x23, x22, [sp]
	stp	x21, x20, [sp, #16]
	bl	gcm.aes_hybrid.closures.call_to_work.2
	add	x0, sp, #32
	bl	gcm.aes_cipher.zeroize.zeroize_words
	bl	gcm.aes_cipher.zeroize.stack.wipe_stack.2032
	add	sp, sp, #1952
	ldp	x20, x19, [sp, #64]             // 16-byte Folded Reload
	ldr	x28, [sp, #16]                  // 8-byte Reload
	ldp	x22, x21, [sp, #48]             // 16-byte Folded Reload
	ldp	x24, x23, [sp, #32]             // 16-byte Folded Reload
	ldp	x29, x30, [sp], #80             // 16-byte Folded Reload
	ret
.Lgcm_func_end46:
	.size	gcm.aes_hybrid.closures.lend_planes.2, .Lgcm_func_end46-gcm.aes_hybrid.closures.lend_planes.2
                                        // -- End function
	.section	.rodata.cst16,"aM",@progbits,16
	.p2align	4, 0x0                          // -- Begin function aes_hybrid::closures::call_to_work::<#4eff1f6a6667429a>
.Lgcm_CPI47_0:
	.word	4294967280                      // 0xfffffff0
	.word	4294967272                      // 0xffffffe8
	.zero	4
	.zero	4
.Lgcm_CPI47_1:
	.byte	0                               // 0x0
	.byte	4                               // 0x4
	.byte	8                               // 0x8
	.byte	12                              // 0xc
	.byte	1                               // 0x1
	.byte	5                               // 0x5
	.byte	9                               // 0x9
	.byte	13                              // 0xd
	.byte	2                               // 0x2
	.byte	6                               // 0x6
	.byte	10                              // 0xa
	.byte	14                              // 0xe
	.byte	3                               // 0x3
	.byte	7                               // 0x7
	.byte	11                              // 0xb
	.byte	15                              // 0xf
	.section	.text.gcm.aes_hybrid.closures.call_to_work.2,"ax",@progbits
	.p2align	2
	.type	gcm.aes_hybrid.closures.call_to_work.2,@function
gcm.aes_hybrid.closures.call_to_work.2: // @gcm.aes_hybrid.closures.call_to_work.2
// %bb.0:                               // %start
	sub	sp, sp, #304
	stp	x20, x19, [sp, #288]            // 16-byte Folded Spill
	ldp	x20, x19, [x3]
	stp	x22, x21, [sp, #272]            // 16-byte Folded Spill
	ldp	x22, x21, [x3, #16]
	stp	x24, x23, [sp, #256]            // 16-byte Folded Spill
	mov	x24, x2
	mov	x23, x1
	tst	x19, #0xf
	stp	x29, x30, [sp, #208]            // 16-byte Folded Spill
	add	x29, sp, #208
	stp	x28, x27, [sp, #224]            // 16-byte Folded Spill
	stp	x26, x25, [sp, #240]            // 16-byte Folded Spill
	stp	x0, x1, [sp, #40]
	str	x2, [sp, #56]
	b.eq	.Lgcm_BB47_5
// %bb.1:                               // %then.1.i.i
	add	x0, sp, #40
	mov	x1, x20
	mov	x2, x19
	mov	x3, xzr
	mov	x4, x22
	mov	x5, x21
	bl	gcm.aes_ctr.add_in_batches.add_next.3
	mov	x3, x0
	sub	x25, x21, x0
	cmp	x25, #128
	b.hs	.Lgcm_BB47_6
.Lgcm_BB47_2:                               // %loop.13.preheader.i.i
	cmp	x3, x21
	b.hs	.Lgcm_BB47_4
.Lgcm_BB47_3:                               // %join.16.i.i
                                        // =>This Inner Loop Header: Depth=1
	add	x0, sp, #40
	mov	x1, x20
	mov	x2, x19
	mov	x4, x22
	mov	x5, x21
	bl	gcm.aes_ctr.add_in_batches.add_next.3
	mov	x3, x0
	cmp	x0, x21
	b.lo	.Lgcm_BB47_3
.Lgcm_BB47_4:                               // %"aes_ctr::add_in_batches::AddStreamBlockCipherEncClosure::call::<#ba6e0fd4d3166cbd>.exit"
	ldp	x20, x19, [sp, #288]            // 16-byte Folded Reload
	ldp	x22, x21, [sp, #272]            // 16-byte Folded Reload
	ldp	x24, x23, [sp, #256]            // 16-byte Folded Reload
	ldp	x26, x25, [sp, #240]            // 16-byte Folded Reload
	ldp	x28, x27, [sp, #224]            // 16-byte Folded Reload
	ldp	x29, x30, [sp, #208]            // 16-byte Folded Reload
	add	sp, sp, #304
	ret
.Lgcm_BB47_5:
	mov	x3, xzr
	sub	x25, x21, xzr
	cmp	x25, #128
	b.lo	.Lgcm_BB47_2
.Lgcm_BB47_6:                               // %join.11.lr.ph.i.i
	lsr	x8, x24, #3
	add	x9, x3, x22
	add	x28, x3, x19
	neg	x27, x3
	add	x26, x9, #64
	str	x22, [sp, #8]                   // 8-byte Spill
	sub	x24, x8, #1
.Lgcm_BB47_7:                               // %join.11.i.i
                                        // =>This Inner Loop Header: Depth=1
	ldr	w8, [x20]
	adrp	x9, .Lgcm_CPI47_0
	ldr	s18, [x20, #4]
	ldr	q0, [x9, :lo12:.Lgcm_CPI47_0]
	add	x22, sp, #64
	add	x2, sp, #64
	add	x8, x8, x28, lsr #4
	mov	x0, x23
	mov	x1, x24
	add	w9, w8, #1
	dup	v1.4s, w8
	add	w12, w8, #4
	dup	v2.4s, w9
	lsr	w9, w9, #8
	lsr	w10, w8, #8
	dup	v4.4s, w12
	add	w11, w8, #2
	ushl	v5.4s, v1.4s, v0.4s
	mov	v1.s[1], w10
	add	w10, w8, #5
	ushl	v6.4s, v2.4s, v0.4s
	mov	v2.s[1], w9
	lsr	w9, w12, #8
	dup	v7.4s, w10
	ushl	v17.4s, v4.4s, v0.4s
	dup	v3.4s, w11
	mov	v4.s[1], w9
	add	w9, w8, #6
	lsr	w10, w10, #8
	dup	v20.4s, w9
	lsr	w11, w11, #8
	lsr	w9, w9, #8
	ushl	v19.4s, v7.4s, v0.4s
	mov	v7.s[1], w10
	add	w10, w8, #3
	add	w8, w8, #7
	ushl	v16.4s, v3.4s, v0.4s
	mov	v3.s[1], w11
	dup	v21.4s, w10
	ushl	v22.4s, v20.4s, v0.4s
	mov	v20.s[1], w9
	dup	v23.4s, w8
	lsr	w10, w10, #8
	uzp1	v1.4h, v1.4h, v5.4h
	uzp1	v4.4h, v4.4h, v17.4h
	lsr	w8, w8, #8
	ushll	v5.8h, v18.8b, #0
	ushl	v17.4s, v21.4s, v0.4s
	mov	v21.s[1], w10
	uzp1	v3.4h, v3.4h, v16.4h
	ushl	v0.4s, v23.4s, v0.4s
	mov	v23.s[1], w8
	uzp1	v2.4h, v2.4h, v6.4h
	uzp1	v6.4h, v7.4h, v19.4h
	uzp1	v7.4h, v20.4h, v22.4h
	uzp1	v1.8b, v1.8b, v5.8b
	uzp1	v4.8b, v4.8b, v5.8b
	adrp	x8, .Lgcm_CPI47_1
	uzp1	v16.4h, v21.4h, v17.4h
	ldr	d17, [x20, #8]
	uzp1	v3.8b, v3.8b, v5.8b
	uzp1	v0.4h, v23.4h, v0.4h
	uzp1	v2.8b, v2.8b, v5.8b
	ldr	q18, [x8, :lo12:.Lgcm_CPI47_1]
	uzp1	v6.8b, v6.8b, v5.8b
	uzp1	v7.8b, v7.8b, v5.8b
	mov	v1.d[1], v17.d[0]
	mov	v4.d[1], v17.d[0]
	str	q18, [sp, #16]                  // 16-byte Spill
	movi	v21.16b, #85
	uzp1	v16.8b, v16.8b, v5.8b
	mov	v3.d[1], v17.d[0]
	uzp1	v0.8b, v0.8b, v5.8b
	mov	v2.d[1], v17.d[0]
	mov	v6.d[1], v17.d[0]
	mov	v7.d[1], v17.d[0]
	tbl	v1.16b, { v1.16b }, v18.16b
	tbl	v4.16b, { v4.16b }, v18.16b
	mov	v16.d[1], v17.d[0]
	tbl	v5.16b, { v3.16b }, v18.16b
	mov	v0.d[1], v17.d[0]
	tbl	v2.16b, { v2.16b }, v18.16b
	tbl	v6.16b, { v6.16b }, v18.16b
	tbl	v7.16b, { v7.16b }, v18.16b
	ushr	v3.16b, v1.16b, #1
	ushr	v17.16b, v4.16b, #1
	tbl	v16.16b, { v16.16b }, v18.16b
	tbl	v18.16b, { v0.16b }, v18.16b
	ushr	v0.16b, v5.16b, #1
	eor	v3.16b, v2.16b, v3.16b
	ushr	v19.16b, v7.16b, #1
	eor	v17.16b, v17.16b, v6.16b
	eor	v0.16b, v0.16b, v16.16b
	and	v3.16b, v3.16b, v21.16b
	eor	v19.16b, v19.16b, v18.16b
	and	v17.16b, v17.16b, v21.16b
	and	v20.16b, v0.16b, v21.16b
	eor	v0.16b, v3.16b, v2.16b
	and	v19.16b, v19.16b, v21.16b
	add	v21.16b, v3.16b, v3.16b
	add	v22.16b, v17.16b, v17.16b
	add	v23.16b, v20.16b, v20.16b
	add	v24.16b, v19.16b, v19.16b
	eor	v3.16b, v21.16b, v1.16b
	eor	v2.16b, v22.16b, v4.16b
	eor	v1.16b, v17.16b, v6.16b
	eor	v4.16b, v20.16b, v16.16b
	ushr	v6.16b, v0.16b, #2
	eor	v5.16b, v23.16b, v5.16b
	eor	v18.16b, v19.16b, v18.16b
	movi	v20.16b, #51
	eor	v7.16b, v24.16b, v7.16b
	ushr	v16.16b, v3.16b, #2
	ushr	v17.16b, v2.16b, #2
	ushr	v19.16b, v1.16b, #2
	eor	v6.16b, v4.16b, v6.16b
	movi	v23.16b, #15
	eor	v16.16b, v5.16b, v16.16b
	eor	v17.16b, v17.16b, v7.16b
	eor	v19.16b, v19.16b, v18.16b
	and	v6.16b, v6.16b, v20.16b
	and	v16.16b, v16.16b, v20.16b
	and	v17.16b, v17.16b, v20.16b
	and	v19.16b, v19.16b, v20.16b
	eor	v4.16b, v6.16b, v4.16b
	shl	v6.16b, v6.16b, #2
	eor	v5.16b, v16.16b, v5.16b
	eor	v7.16b, v17.16b, v7.16b
	shl	v16.16b, v16.16b, #2
	eor	v18.16b, v19.16b, v18.16b
	shl	v17.16b, v17.16b, #2
	shl	v19.16b, v19.16b, #2
	ushr	v20.16b, v4.16b, #4
	eor	v0.16b, v6.16b, v0.16b
	ushr	v21.16b, v5.16b, #4
	and	v22.16b, v7.16b, v23.16b
	eor	v3.16b, v16.16b, v3.16b
	and	v16.16b, v18.16b, v23.16b
	eor	v2.16b, v17.16b, v2.16b
	eor	v1.16b, v19.16b, v1.16b
	eor	v6.16b, v22.16b, v21.16b
	ushr	v17.16b, v3.16b, #4
	eor	v16.16b, v16.16b, v20.16b
	and	v19.16b, v2.16b, v23.16b
	ushr	v20.16b, v0.16b, #4
	and	v21.16b, v1.16b, v23.16b
	shl	v22.16b, v6.16b, #4
	eor	v6.16b, v6.16b, v7.16b
	eor	v17.16b, v19.16b, v17.16b
	shl	v19.16b, v16.16b, #4
	eor	v20.16b, v21.16b, v20.16b
	str	q6, [sp, #160]
	eor	v5.16b, v22.16b, v5.16b
	shl	v7.16b, v17.16b, #4
	eor	v2.16b, v17.16b, v2.16b
	eor	v4.16b, v19.16b, v4.16b
	shl	v6.16b, v20.16b, #4
	eor	v1.16b, v20.16b, v1.16b
	eor	v3.16b, v7.16b, v3.16b
	stp	q5, q4, [sp, #96]
	eor	v0.16b, v6.16b, v0.16b
	stp	q2, q1, [sp, #128]
	eor	v2.16b, v16.16b, v18.16b
	stp	q3, q0, [sp, #64]
	str	q2, [x22, #112]
	bl	gcm.aes_soft.soft.ciphers.planes.EncryptPlaneCipher.process_planes
	ldp	q1, q2, [sp, #64]
	movi	v20.16b, #85
	ldp	q0, q4, [sp, #128]
	sub	x25, x25, #128
	ldp	q3, q16, [sp, #96]
	cmp	x25, #127
	ushr	v5.16b, v1.16b, #1
	ldr	q7, [sp, #160]
	ldr	q19, [x22, #112]
	ushr	v6.16b, v0.16b, #1
	add	x28, x28, #128
	sub	x27, x27, #128
	ushr	v17.16b, v3.16b, #1
	ushr	v18.16b, v7.16b, #1
	eor	v5.16b, v2.16b, v5.16b
	eor	v6.16b, v4.16b, v6.16b
	eor	v17.16b, v16.16b, v17.16b
	eor	v18.16b, v19.16b, v18.16b
	and	v5.16b, v5.16b, v20.16b
	and	v6.16b, v6.16b, v20.16b
	and	v17.16b, v17.16b, v20.16b
	and	v18.16b, v18.16b, v20.16b
	add	v20.16b, v5.16b, v5.16b
	eor	v5.16b, v5.16b, v2.16b
	add	v21.16b, v6.16b, v6.16b
	eor	v4.16b, v6.16b, v4.16b
	add	v6.16b, v17.16b, v17.16b
	eor	v1.16b, v20.16b, v1.16b
	add	v20.16b, v18.16b, v18.16b
	eor	v2.16b, v21.16b, v0.16b
	eor	v0.16b, v17.16b, v16.16b
	eor	v16.16b, v18.16b, v19.16b
	ushr	v17.16b, v4.16b, #2
	eor	v3.16b, v6.16b, v3.16b
	ushr	v6.16b, v5.16b, #2
	eor	v7.16b, v20.16b, v7.16b
	movi	v20.16b, #51
	ushr	v18.16b, v1.16b, #2
	ushr	v19.16b, v2.16b, #2
	eor	v17.16b, v16.16b, v17.16b
	eor	v6.16b, v0.16b, v6.16b
	eor	v18.16b, v3.16b, v18.16b
	eor	v19.16b, v7.16b, v19.16b
	and	v17.16b, v17.16b, v20.16b
	and	v6.16b, v6.16b, v20.16b
	and	v18.16b, v18.16b, v20.16b
	and	v19.16b, v19.16b, v20.16b
	shl	v21.16b, v17.16b, #2
	shl	v20.16b, v6.16b, #2
	eor	v6.16b, v6.16b, v0.16b
	eor	v3.16b, v18.16b, v3.16b
	eor	v16.16b, v17.16b, v16.16b
	shl	v17.16b, v18.16b, #2
	eor	v7.16b, v19.16b, v7.16b
	shl	v18.16b, v19.16b, #2
	eor	v4.16b, v21.16b, v4.16b
	movi	v21.16b, #15
	eor	v0.16b, v20.16b, v5.16b
	ushr	v19.16b, v3.16b, #4
	ushr	v5.16b, v6.16b, #4
	eor	v1.16b, v17.16b, v1.16b
	eor	v2.16b, v18.16b, v2.16b
	ushr	v18.16b, v0.16b, #4
	and	v20.16b, v7.16b, v21.16b
	and	v17.16b, v16.16b, v21.16b
	eor	v19.16b, v20.16b, v19.16b
	and	v20.16b, v4.16b, v21.16b
	eor	v5.16b, v17.16b, v5.16b
	ushr	v17.16b, v1.16b, #4
	and	v21.16b, v2.16b, v21.16b
	eor	v18.16b, v20.16b, v18.16b
	shl	v20.16b, v19.16b, #4
	eor	v7.16b, v19.16b, v7.16b
	eor	v17.16b, v21.16b, v17.16b
	shl	v19.16b, v5.16b, #4
	eor	v5.16b, v5.16b, v16.16b
	eor	v3.16b, v20.16b, v3.16b
	ldr	q20, [sp, #16]                  // 16-byte Reload
	eor	v4.16b, v18.16b, v4.16b
	shl	v16.16b, v18.16b, #4
	shl	v18.16b, v17.16b, #4
	eor	v6.16b, v19.16b, v6.16b
	tbl	v7.16b, { v7.16b }, v20.16b
	tbl	v5.16b, { v5.16b }, v20.16b
	eor	v2.16b, v17.16b, v2.16b
	ldp	q17, q19, [x26, #32]
	tbl	v3.16b, { v3.16b }, v20.16b
	eor	v0.16b, v16.16b, v0.16b
	eor	v1.16b, v18.16b, v1.16b
	tbl	v6.16b, { v6.16b }, v20.16b
	tbl	v2.16b, { v2.16b }, v20.16b
	tbl	v4.16b, { v4.16b }, v20.16b
	eor	v7.16b, v17.16b, v7.16b
	eor	v5.16b, v19.16b, v5.16b
	tbl	v1.16b, { v1.16b }, v20.16b
	tbl	v0.16b, { v0.16b }, v20.16b
	ldp	q16, q18, [x26, #-32]
	ldp	q17, q19, [x26]
	stp	q7, q5, [x26, #32]
	ldp	q5, q7, [x26, #-64]
	eor	v3.16b, v3.16b, v16.16b
	eor	v6.16b, v6.16b, v18.16b
	eor	v2.16b, v2.16b, v17.16b
	eor	v4.16b, v19.16b, v4.16b
	eor	v1.16b, v1.16b, v5.16b
	eor	v0.16b, v0.16b, v7.16b
	stp	q3, q6, [x26, #-32]
	stp	q2, q4, [x26]
	stp	q1, q0, [x26, #-64]
	add	x26, x26, #128
	b.hi	.Lgcm_BB47_7
// %bb.8:                               // %loop.13.preheader.i.i.loopexit
	ldr	x22, [sp, #8]                   // 8-byte Reload
	neg	x3, x27
	cmp	x3, x21
	b.lo	.Lgcm_BB47_3
	b	.Lgcm_BB47_4
.Lgcm_func_end47:
	.size	gcm.aes_hybrid.closures.call_to_work.2, .Lgcm_func_end47-gcm.aes_hybrid.closures.call_to_work.2
                                        // -- End function
	.section	.rodata.cst16,"aM",@progbits,16
	.p2align	4, 0x0                          // -- Begin function aes_ctr::add_in_batches::add_next::<#4d6730d4b1bb99fd>
.Lgcm_CPI48_0:
	.word	0                               // 0x0
	.word	4294967288                      // 0xfffffff8
	.word	4294967280                      // 0xfffffff0
	.word	4294967272                      // 0xffffffe8
.Lgcm_CPI48_1:
	.byte	0                               // 0x0
	.byte	4                               // 0x4
	.byte	8                               // 0x8
	.byte	12                              // 0xc
	.byte	1                               // 0x1
	.byte	5                               // 0x5
	.byte	9                               // 0x9
	.byte	13                              // 0xd
	.byte	2                               // 0x2
	.byte	6                               // 0x6
	.byte	10                              // 0xa
	.byte	14                              // 0xe
	.byte	3                               // 0x3
	.byte	7                               // 0x7
	.byte	11                              // 0xb
	.byte	15                              // 0xf
	.section	.text.gcm.aes_ctr.add_in_batches.add_next.3,"ax",@progbits
	.p2align	2
	.type	gcm.aes_ctr.add_in_batches.add_next.3,@function
gcm.aes_ctr.add_in_batches.add_next.3: // @gcm.aes_ctr.add_in_batches.add_next.3
// %bb.0:                               // %start
	sub	sp, sp, #464
	ldr	w8, [x1]
	add	x12, x3, x2
	stp	x28, x23, [sp, #416]            // 16-byte Folded Spill
	ldur	x10, [x1, #4]
	ldr	w14, [x1, #12]
	and	x23, x12, #0xf
	add	x8, x8, x12, lsr #4
	mov	w12, #128                       // =0x80
	ldr	w11, [x1, #12]
	ldur	x13, [x1, #4]
	sub	x12, x12, x23
	sub	x16, x5, x3
	add	w15, w8, #4
	movi	v0.2d, #0000000000000000
	stur	x10, [sp, #20]
	add	w9, w8, #1
	stur	x10, [sp, #36]
	add	w10, w8, #2
	stp	w14, w15, [sp, #76]
	add	w15, w8, #5
	cmp	x16, x12
	stp	x22, x21, [sp, #432]            // 16-byte Folded Spill
	csel	x22, x16, x12, lo
	mov	x21, x5
	stp	w11, w9, [sp, #28]
	add	x12, x22, x23
	stp	w11, w10, [sp, #44]
	add	w11, w8, #3
	cmp	x12, #80
	stur	x13, [sp, #52]
	stur	x13, [sp, #68]
	stp	w14, w15, [sp, #92]
	add	w15, w8, #6
	stur	x13, [sp, #84]
	stur	x13, [sp, #100]
	stur	x13, [sp, #116]
	add	w13, w8, #7
	stp	w14, w11, [sp, #60]
	stp	w14, w15, [sp, #108]
	stp	w14, w13, [sp, #124]
	ldr	w14, [x1, #12]
	ldur	x13, [x1, #4]
	stp	x20, x19, [sp, #448]            // 16-byte Folded Spill
	mov	x20, x4
	mov	x19, x3
	stp	x29, x30, [sp, #400]            // 16-byte Folded Spill
	add	x29, sp, #400
	stp	q0, q0, [sp, #144]
	stp	q0, q0, [sp, #176]
	stp	q0, q0, [sp, #208]
	stp	q0, q0, [sp, #240]
	str	w8, [sp, #16]
	str	w14, [sp, #140]
	stur	x13, [sp, #132]
	b.hi	.Lgcm_BB48_6
// %bb.1:                               // %then.1.i.i
	ldr	x8, [x0]
	add	x9, x12, #15
	add	x2, sp, #16
	lsr	x3, x9, #4
	ldp	x0, x1, [x8, #16]
	bl	gcm.aes_permute.blocks.process_on_lanes
	add	x9, x20, x19
	cbz	x23, .Lgcm_BB48_7
.Lgcm_BB48_2:                               // %then.1.i
	mov	w8, #16                         // =0x10
	sub	x8, x8, x23
	cmp	x22, x8
	csel	x8, x22, x8, lo
	cmp	x21, x19
	b.eq	.Lgcm_BB48_5
// %bb.3:                               // %join.8.i80.lr.ph
	add	x10, sp, #16
	neg	x11, x8
	add	x12, x20, x19
	orr	x10, x10, x23
.Lgcm_BB48_4:                               // %join.8.i80
                                        // =>This Inner Loop Header: Depth=1
	ldrb	w13, [x10], #1
	ldrb	w14, [x12]
	adds	x11, x11, #1
	eor	w13, w14, w13
	strb	w13, [x12], #1
	b.lo	.Lgcm_BB48_4
.Lgcm_BB48_5:                               // %join.3.i
	sub	x10, x22, x8
	cmp	x10, #16
	b.hs	.Lgcm_BB48_8
	b	.Lgcm_BB48_10
.Lgcm_BB48_6:                               // %else.2.i.i
	dup	v0.4s, w8
	adrp	x8, .Lgcm_CPI48_0
	dup	v2.4s, w10
	ldr	q1, [x8, :lo12:.Lgcm_CPI48_0]
	dup	v3.4s, w9
	dup	v4.4s, w11
	ldur	q5, [sp, #52]
	ldr	d6, [sp, #24]
	adrp	x8, .Lgcm_CPI48_1
	ushl	v0.4s, v0.4s, v1.4s
	ushl	v2.4s, v2.4s, v1.4s
	ldr	q19, [x8, :lo12:.Lgcm_CPI48_1]
	ushl	v3.4s, v3.4s, v1.4s
	ushl	v1.4s, v4.4s, v1.4s
	ldur	q4, [sp, #20]
	ldp	q7, q16, [sp, #80]
	str	q19, [sp]                       // 16-byte Spill
	xtn	v0.4h, v0.4s
	xtn	v2.4h, v2.4s
	movi	v21.16b, #85
	xtn	v3.4h, v3.4s
	xtn	v1.4h, v1.4s
	movi	v23.16b, #15
	ldp	x0, x8, [x0, #8]
	sub	x2, x29, #128
	uzp1	v0.8b, v0.8b, v0.8b
	lsr	x8, x8, #3
	sub	x1, x8, #1
	uzp1	v3.8b, v3.8b, v0.8b
	uzp1	v2.8b, v2.8b, v0.8b
	zip1	v0.4s, v0.4s, v4.4s
	ldur	q4, [sp, #36]
	uzp1	v1.8b, v1.8b, v0.8b
	zip1	v3.4s, v3.4s, v4.4s
	zip1	v2.4s, v2.4s, v5.4s
	ldur	q4, [sp, #68]
	mov	v0.d[1], v6.d[0]
	ldr	d5, [sp, #40]
	ldr	d6, [sp, #56]
	zip1	v1.4s, v1.4s, v4.4s
	mov	v3.d[1], v5.d[0]
	mov	v2.d[1], v6.d[0]
	ldr	d4, [sp, #72]
	tbl	v5.16b, { v7.16b }, v19.16b
	tbl	v6.16b, { v0.16b }, v19.16b
	ldp	q0, q7, [sp, #112]
	mov	v1.d[1], v4.d[0]
	tbl	v4.16b, { v2.16b }, v19.16b
	tbl	v17.16b, { v0.16b }, v19.16b
	tbl	v0.16b, { v16.16b }, v19.16b
	tbl	v16.16b, { v3.16b }, v19.16b
	ushr	v2.16b, v5.16b, #1
	ushr	v3.16b, v6.16b, #1
	tbl	v7.16b, { v7.16b }, v19.16b
	tbl	v19.16b, { v1.16b }, v19.16b
	ushr	v18.16b, v17.16b, #1
	eor	v1.16b, v0.16b, v2.16b
	ushr	v2.16b, v4.16b, #1
	eor	v3.16b, v16.16b, v3.16b
	eor	v18.16b, v7.16b, v18.16b
	and	v1.16b, v1.16b, v21.16b
	eor	v2.16b, v19.16b, v2.16b
	and	v20.16b, v3.16b, v21.16b
	and	v18.16b, v18.16b, v21.16b
	add	v3.16b, v1.16b, v1.16b
	and	v21.16b, v2.16b, v21.16b
	add	v2.16b, v20.16b, v20.16b
	eor	v0.16b, v1.16b, v0.16b
	eor	v1.16b, v20.16b, v16.16b
	movi	v20.16b, #51
	add	v22.16b, v18.16b, v18.16b
	eor	v3.16b, v3.16b, v5.16b
	add	v5.16b, v21.16b, v21.16b
	eor	v2.16b, v2.16b, v6.16b
	eor	v6.16b, v18.16b, v7.16b
	ushr	v16.16b, v0.16b, #2
	eor	v18.16b, v21.16b, v19.16b
	ushr	v19.16b, v1.16b, #2
	eor	v7.16b, v22.16b, v17.16b
	ushr	v17.16b, v3.16b, #2
	eor	v4.16b, v5.16b, v4.16b
	ushr	v5.16b, v2.16b, #2
	eor	v16.16b, v6.16b, v16.16b
	eor	v19.16b, v18.16b, v19.16b
	eor	v17.16b, v7.16b, v17.16b
	eor	v5.16b, v4.16b, v5.16b
	and	v16.16b, v16.16b, v20.16b
	and	v19.16b, v19.16b, v20.16b
	and	v17.16b, v17.16b, v20.16b
	and	v5.16b, v5.16b, v20.16b
	eor	v6.16b, v16.16b, v6.16b
	shl	v16.16b, v16.16b, #2
	eor	v18.16b, v19.16b, v18.16b
	shl	v19.16b, v19.16b, #2
	eor	v7.16b, v17.16b, v7.16b
	shl	v17.16b, v17.16b, #2
	eor	v4.16b, v5.16b, v4.16b
	shl	v5.16b, v5.16b, #2
	and	v20.16b, v6.16b, v23.16b
	eor	v0.16b, v16.16b, v0.16b
	eor	v1.16b, v19.16b, v1.16b
	and	v21.16b, v7.16b, v23.16b
	eor	v3.16b, v17.16b, v3.16b
	ushr	v17.16b, v18.16b, #4
	ushr	v22.16b, v4.16b, #4
	eor	v2.16b, v5.16b, v2.16b
	and	v16.16b, v3.16b, v23.16b
	eor	v17.16b, v20.16b, v17.16b
	and	v20.16b, v0.16b, v23.16b
	eor	v5.16b, v21.16b, v22.16b
	ushr	v19.16b, v2.16b, #4
	ushr	v21.16b, v1.16b, #4
	eor	v6.16b, v17.16b, v6.16b
	eor	v16.16b, v16.16b, v19.16b
	shl	v19.16b, v17.16b, #4
	eor	v20.16b, v20.16b, v21.16b
	shl	v22.16b, v5.16b, #4
	eor	v5.16b, v5.16b, v7.16b
	stur	q6, [x29, #-16]
	eor	v7.16b, v19.16b, v18.16b
	shl	v17.16b, v16.16b, #4
	shl	v18.16b, v20.16b, #4
	eor	v4.16b, v22.16b, v4.16b
	eor	v3.16b, v16.16b, v3.16b
	eor	v0.16b, v20.16b, v0.16b
	eor	v2.16b, v17.16b, v2.16b
	eor	v1.16b, v18.16b, v1.16b
	stp	q4, q7, [x29, #-96]
	stur	q3, [x29, #-64]
	stp	q2, q1, [x29, #-128]
	stp	q0, q5, [x29, #-48]
	bl	gcm.aes_soft.soft.ciphers.planes.EncryptPlaneCipher.process_planes
	ldp	q0, q4, [x29, #-64]
	movi	v20.16b, #85
	ldp	q1, q2, [x29, #-128]
	ldp	q3, q16, [x29, #-96]
	ushr	v6.16b, v0.16b, #1
	ldp	q7, q17, [x29, #-32]
	ushr	v5.16b, v1.16b, #1
	ushr	v18.16b, v3.16b, #1
	ushr	v19.16b, v7.16b, #1
	eor	v6.16b, v4.16b, v6.16b
	eor	v5.16b, v2.16b, v5.16b
	eor	v18.16b, v16.16b, v18.16b
	eor	v19.16b, v17.16b, v19.16b
	and	v6.16b, v6.16b, v20.16b
	and	v5.16b, v5.16b, v20.16b
	and	v18.16b, v18.16b, v20.16b
	and	v19.16b, v19.16b, v20.16b
	add	v21.16b, v6.16b, v6.16b
	eor	v4.16b, v6.16b, v4.16b
	add	v20.16b, v5.16b, v5.16b
	eor	v2.16b, v5.16b, v2.16b
	add	v22.16b, v18.16b, v18.16b
	eor	v5.16b, v18.16b, v16.16b
	eor	v0.16b, v21.16b, v0.16b
	eor	v17.16b, v19.16b, v17.16b
	eor	v1.16b, v20.16b, v1.16b
	add	v20.16b, v19.16b, v19.16b
	ushr	v18.16b, v2.16b, #2
	ushr	v19.16b, v4.16b, #2
	eor	v3.16b, v22.16b, v3.16b
	movi	v22.16b, #15
	ushr	v16.16b, v0.16b, #2
	eor	v6.16b, v20.16b, v7.16b
	movi	v20.16b, #51
	eor	v18.16b, v5.16b, v18.16b
	eor	v19.16b, v17.16b, v19.16b
	ushr	v7.16b, v1.16b, #2
	eor	v16.16b, v6.16b, v16.16b
	and	v18.16b, v18.16b, v20.16b
	and	v19.16b, v19.16b, v20.16b
	eor	v7.16b, v3.16b, v7.16b
	and	v16.16b, v16.16b, v20.16b
	eor	v5.16b, v18.16b, v5.16b
	eor	v17.16b, v19.16b, v17.16b
	and	v7.16b, v7.16b, v20.16b
	shl	v18.16b, v18.16b, #2
	shl	v19.16b, v19.16b, #2
	eor	v6.16b, v16.16b, v6.16b
	shl	v16.16b, v16.16b, #2
	ushr	v21.16b, v5.16b, #4
	eor	v3.16b, v7.16b, v3.16b
	shl	v7.16b, v7.16b, #2
	eor	v2.16b, v18.16b, v2.16b
	eor	v4.16b, v19.16b, v4.16b
	eor	v0.16b, v16.16b, v0.16b
	and	v16.16b, v17.16b, v22.16b
	and	v20.16b, v6.16b, v22.16b
	eor	v1.16b, v7.16b, v1.16b
	ushr	v7.16b, v3.16b, #4
	eor	v16.16b, v16.16b, v21.16b
	movi	v21.16b, #15
	and	v19.16b, v0.16b, v22.16b
	eor	v7.16b, v20.16b, v7.16b
	ushr	v18.16b, v1.16b, #4
	ushr	v20.16b, v2.16b, #4
	and	v21.16b, v4.16b, v21.16b
	shl	v22.16b, v7.16b, #4
	eor	v18.16b, v19.16b, v18.16b
	shl	v19.16b, v16.16b, #4
	eor	v6.16b, v7.16b, v6.16b
	eor	v7.16b, v16.16b, v17.16b
	eor	v20.16b, v21.16b, v20.16b
	eor	v3.16b, v22.16b, v3.16b
	eor	v0.16b, v18.16b, v0.16b
	eor	v5.16b, v19.16b, v5.16b
	shl	v19.16b, v18.16b, #4
	eor	v4.16b, v20.16b, v4.16b
	shl	v18.16b, v20.16b, #4
	ldr	q20, [sp]                       // 16-byte Reload
	eor	v1.16b, v19.16b, v1.16b
	tbl	v3.16b, { v3.16b }, v20.16b
	tbl	v5.16b, { v5.16b }, v20.16b
	tbl	v0.16b, { v0.16b }, v20.16b
	tbl	v4.16b, { v4.16b }, v20.16b
	eor	v2.16b, v18.16b, v2.16b
	tbl	v1.16b, { v1.16b }, v20.16b
	stp	q3, q5, [sp, #48]
	tbl	v2.16b, { v2.16b }, v20.16b
	tbl	v3.16b, { v6.16b }, v20.16b
	stp	q0, q4, [sp, #80]
	tbl	v0.16b, { v7.16b }, v20.16b
	stp	q1, q2, [sp, #16]
	stp	q3, q0, [sp, #112]
	add	x9, x20, x19
	cbnz	x23, .Lgcm_BB48_2
.Lgcm_BB48_7:
	mov	x8, xzr
	sub	x10, x22, xzr
	cmp	x10, #16
	b.lo	.Lgcm_BB48_10
.Lgcm_BB48_8:                               // %join.8.i.preheader
	add	x11, x8, x23
.Lgcm_BB48_9:                               // %join.8.i
                                        // =>This Inner Loop Header: Depth=1
	and	x12, x11, #0xfffffffffffffff0
	add	x13, sp, #16
	ldr	q0, [x9, x8]
	ldr	q1, [x13, x12]
	sub	x10, x10, #16
	add	x11, x11, #16
	cmp	x10, #15
	eor	v0.16b, v1.16b, v0.16b
	str	q0, [x9, x8]
	add	x8, x8, #16
	b.hi	.Lgcm_BB48_9
.Lgcm_BB48_10:                              // %after.4.i
	cmp	x8, x22
	b.hs	.Lgcm_BB48_19
// %bb.11:                              // %then.9.i
	cbz	x10, .Lgcm_BB48_19
// %bb.12:                              // %iter.check
	add	x11, x8, x23
	cmp	x10, #8
	and	x11, x11, #0xfffffffffffffff0
	b.hs	.Lgcm_BB48_14
// %bb.13:
	mov	x9, xzr
	b	.Lgcm_BB48_17
.Lgcm_BB48_14:                              // %vec.epilog.ph
	add	x12, sp, #16
	add	x13, x9, x8
	and	x9, x10, #0x8
	add	x12, x12, x11
	and	x14, x10, #0x8
.Lgcm_BB48_15:                              // %vec.epilog.vector.body
                                        // =>This Inner Loop Header: Depth=1
	ldr	d0, [x12], #8
	ldr	d1, [x13]
	subs	x14, x14, #8
	eor	v0.8b, v1.8b, v0.8b
	str	d0, [x13], #8
	b.ne	.Lgcm_BB48_15
// %bb.16:                              // %vec.epilog.middle.block
	cmp	x10, x9
	b.eq	.Lgcm_BB48_19
.Lgcm_BB48_17:                              // %join.8.i23.preheader
	add	x11, x9, x11
	add	x12, sp, #16
	add	x13, x8, x9
	add	x14, x20, x19
	add	x8, x12, x11
	sub	x9, x10, x9
	add	x11, x14, x13
.Lgcm_BB48_18:                              // %join.8.i23
                                        // =>This Inner Loop Header: Depth=1
	ldrb	w10, [x8], #1
	ldrb	w12, [x11]
	subs	x9, x9, #1
	eor	w10, w12, w10
	strb	w10, [x11], #1
	b.ne	.Lgcm_BB48_18
.Lgcm_BB48_19:                              // %"aes_ctr::add_blocks::add_blocks.exit"
	add	x0, x22, x19
	ldp	x20, x19, [sp, #448]            // 16-byte Folded Reload
	ldp	x22, x21, [sp, #432]            // 16-byte Folded Reload
	ldp	x28, x23, [sp, #416]            // 16-byte Folded Reload
	ldp	x29, x30, [sp, #400]            // 16-byte Folded Reload
	add	sp, sp, #464
	ret
.Lgcm_func_end48:
	.size	gcm.aes_ctr.add_in_batches.add_next.3, .Lgcm_func_end48-gcm.aes_ctr.add_in_batches.add_next.3
                                        // -- End function
	.section	.text.gcm.aes_cipher.zeroize.stack.wipe_stack.2816,"ax",@progbits
	.p2align	2                               // -- Begin function aes_cipher::zeroize::stack::wipe_stack::<=2816>
	.type	gcm.aes_cipher.zeroize.stack.wipe_stack.2816,@function
gcm.aes_cipher.zeroize.stack.wipe_stack.2816: // @gcm.aes_cipher.zeroize.stack.wipe_stack.2816
// %bb.0:                               // %start
	stp	x29, x30, [sp, #-32]!           // 16-byte Folded Spill
	stp	x28, x19, [sp, #16]             // 16-byte Folded Spill
	mov	x29, sp
	sub	sp, sp, #2832
	add	x0, sp, #16
	mov	w1, wzr
	mov	w2, #2816                       // =0xb00
	str	xzr, [sp]
	add	x19, sp, #16
	adrp	x16, :got:memset
	ldr	x16, [x16, :got_lo12:memset]
	blr	x16
	str	xzr, [sp, #8]
	add	x8, sp, #8
	//APP
	//NO_APP
	ldar	x8, [x8]
	//APP
	//NO_APP
	cmp	x8, #2816
	b.hs	.Lgcm_BB49_4
// %bb.1:                               // %then.1
	ldrb	w8, [x19, x8]
	//APP
	//NO_APP
.Lgcm_BB49_2:                               // %atomicrmw.start
                                        // =>This Inner Loop Header: Depth=1
	add	x9, sp, #8
	ldaxr	xzr, [x9]
	stlxr	w10, x8, [x9]
	cbnz	w10, .Lgcm_BB49_2
// %bb.3:                               // %atomicrmw.end
	//APP
	//NO_APP
.Lgcm_BB49_4:                               // %common.ret
	add	sp, sp, #2832
	ldp	x28, x19, [sp, #16]             // 16-byte Folded Reload
	ldp	x29, x30, [sp], #32             // 16-byte Folded Reload
	ret
.Lgcm_func_end49:
	.size	gcm.aes_cipher.zeroize.stack.wipe_stack.2816, .Lgcm_func_end49-gcm.aes_cipher.zeroize.stack.wipe_stack.2816
                                        // -- End function
	.section	.text.gcm.gcm_siv.course.open_in.2,"ax",@progbits
	.p2align	2                               // -- Begin function gcm_siv::course::open_in::<#40c030eaacddd0c9>
	.type	gcm.gcm_siv.course.open_in.2,@function
gcm.gcm_siv.course.open_in.2: // @gcm.gcm_siv.course.open_in.2
// %bb.0:                               // %start
	stp	x29, x30, [sp, #-96]!           // 16-byte Folded Spill
	stp	x28, x27, [sp, #16]             // 16-byte Folded Spill
	mov	x29, sp
	stp	x26, x25, [sp, #32]             // 16-byte Folded Spill
	stp	x24, x23, [sp, #48]             // 16-byte Folded Spill
	stp	x22, x21, [sp, #64]             // 16-byte Folded Spill
	stp	x20, x19, [sp, #80]             // 16-byte Folded Spill
	sub	sp, sp, #3072
	str	xzr, [sp], #-256
	movi	v0.2d, #0000000000000000
	mov	x24, x2
	mov	x25, x1
	mov	x26, x0
	add	x0, sp, #1792
	mov	w1, wzr
	mov	w2, #1520                       // =0x5f0
	mov	x19, x7
	mov	x20, x6
	mov	x21, x5
	mov	x22, x4
	mov	x23, x3
	str	q0, [sp, #3312]
	adrp	x16, :got:memset
	ldr	x16, [x16, :got_lo12:memset]
	blr	x16
	add	x0, sp, #256
	add	x1, sp, #1792
	mov	w2, #1536                       // =0x600
	adrp	x16, :got:memcpy
	ldr	x16, [x16, :got_lo12:memcpy]
	blr	x16
	movi	v0.2d, #0000000000000000
	mov	x3, sp
	add	x4, sp, #256
	mov	x0, x26
	mov	x1, x25
	mov	x2, x24
	mov	x27, sp
	str	wzr, [sp, #240]
	stp	q0, q0, [sp]
	stp	q0, q0, [sp, #32]
	stp	q0, q0, [sp, #64]
	stp	q0, q0, [sp, #96]
	stp	q0, q0, [sp, #128]
	stp	q0, q0, [sp, #160]
	stp	q0, q0, [sp, #192]
	str	q0, [sp, #224]
	bl	gcm.gcm_siv.keys.derive_and_prepare.2
	mov	x0, sp
	add	x1, sp, #256
	mov	x2, x24
	mov	x3, x23
	mov	x4, x22
	mov	x5, x21
	mov	x6, x20
	mov	x7, x19
	bl	gcm.gcm_siv.message.open.2
	mov	w19, w0
	orr	x0, x27, #0x4
	str	wzr, [sp]
	bl	gcm.aes_cipher.zeroize.elements.zeroize_elements.1
	add	x0, sp, #256
	mov	w1, #96                         // =0x60
	bl	gcm.aes_cipher.zeroize.elements.zeroize_elements.2
	bl	gcm.aes_cipher.zeroize.stack.wipe_stack.2816
	mov	w0, w19
	add	sp, sp, #3328
	ldp	x20, x19, [sp, #80]             // 16-byte Folded Reload
	ldp	x22, x21, [sp, #64]             // 16-byte Folded Reload
	ldp	x24, x23, [sp, #48]             // 16-byte Folded Reload
	ldp	x26, x25, [sp, #32]             // 16-byte Folded Reload
	ldp	x28, x27, [sp, #16]             // 16-byte Folded Reload
	ldp	x29, x30, [sp], #96             // 16-byte Folded Reload
	ret
.Lgcm_func_end50:
	.size	gcm.gcm_siv.course.open_in.2, .Lgcm_func_end50-gcm.gcm_siv.course.open_in.2
                                        // -- End function
	.section	.text.gcm.gcm_siv.keys.derive_and_prepare.2,"ax",@progbits
	.p2align	2                               // -- Begin function gcm_siv::keys::derive_and_prepare::<#40c030eaacddd0c9>
	.type	gcm.gcm_siv.keys.derive_and_prepare.2,@function
gcm.gcm_siv.keys.derive_and_prepare.2: // @gcm.gcm_siv.keys.derive_and_prepare.2
// %bb.0:                               // %start
	sub	sp, sp, #288
	movi	v1.2d, #0000000000000000
	stp	xzr, xzr, [sp, #176]
	stp	x20, x19, [sp, #272]            // 16-byte Folded Spill
	mov	x19, x3
	mov	x3, sp
	stp	x29, x30, [sp, #192]            // 16-byte Folded Spill
	add	x29, sp, #192
	mov	x20, x1
	str	x28, [sp, #208]                 // 8-byte Spill
	str	q1, [sp, #160]
	stp	q1, q1, [sp, #96]
	stp	q1, q1, [sp, #128]
	ldp	q0, q1, [sp, #128]
	stp	x26, x25, [sp, #224]            // 16-byte Folded Spill
	stp	x24, x23, [sp, #240]            // 16-byte Folded Spill
	mov	x26, sp
	stp	x22, x21, [sp, #256]            // 16-byte Folded Spill
	mov	x21, x4
	stp	q0, q1, [sp, #32]
	ldp	q2, q0, [sp, #160]
	stp	q2, q0, [sp, #64]
	ldp	q1, q0, [sp, #96]
	stp	q1, q0, [sp]
	bl	gcm.gcm_siv.keys.derive
	ldp	x8, x9, [sp]
	mov	x11, #-2233785415175766016      // =0xe100000000000000
	mov	x0, x21
	sbfx	x10, x8, #0, #1
	extr	x22, x9, x8, #1
	and	x10, x10, x11
	mov	x2, x22
	eor	x23, x10, x9, lsr #1
	mov	x3, x23
	bl	gcm.gcm.multiples.put_table
	mov	x0, x21
	mov	x2, x22
	mov	x3, x23
	bl	gcm.gcm.multiples.next_power
	mov	x22, x0
	mov	x0, x21
	mov	x3, x1
	mov	x2, x22
	mov	x23, x1
	bl	gcm.gcm.multiples.next_power
	mov	x24, x0
	add	x0, x21, #512
	mov	x2, x22
	mov	x3, x23
	mov	x25, x1
	bl	gcm.gcm.multiples.put_table
	add	x0, x21, #1024
	mov	x2, x24
	mov	x3, x25
	bl	gcm.gcm.multiples.put_table
	movi	v0.2d, #0000000000000000
	cmp	x20, #16
	add	x0, x19, #4
	stur	q0, [x19, #228]
	stur	q0, [x19, #212]
	stur	q0, [x19, #196]
	stur	q0, [x19, #180]
	stur	q0, [x19, #164]
	stur	q0, [x19, #148]
	stur	q0, [x19, #132]
	stur	q0, [x19, #116]
	stur	q0, [x19, #100]
	stur	q0, [x19, #84]
	stur	q0, [x19, #68]
	stur	q0, [x19, #52]
	stur	q0, [x19, #36]
	stur	q0, [x19, #20]
	b.ne	.Lgcm_BB51_2
// %bb.1:                               // %then.1.i
	add	x1, x26, #16
	mov	w2, #16                         // =0x10
	bl	gcm.aes_permute.lane_keys.expand_lanes
	b	.Lgcm_BB51_3
.Lgcm_BB51_2:                               // %else.2.i
	add	x1, x26, #16
	mov	w2, #32                         // =0x20
	mov	w20, #32                        // =0x20
	bl	gcm.aes_permute.lane_keys.expand_lanes
                                        // kill: def $w20 killed $w20 killed $x20 def $x20
.Lgcm_BB51_3:                               // %"gcm_siv::keys::set_encryption_key::<#66aa1833bfd7fef8>.exit"
	mov	x0, sp
	mov	w1, #6                          // =0x6
	str	w20, [x19]
	bl	gcm.aes_cipher.zeroize.elements.zeroize_elements.4
	ldp	x20, x19, [sp, #272]            // 16-byte Folded Reload
	ldr	x28, [sp, #208]                 // 8-byte Reload
	ldp	x22, x21, [sp, #256]            // 16-byte Folded Reload
	ldp	x24, x23, [sp, #240]            // 16-byte Folded Reload
	ldp	x26, x25, [sp, #224]            // 16-byte Folded Reload
	ldp	x29, x30, [sp, #192]            // 16-byte Folded Reload
	add	sp, sp, #288
	ret
.Lgcm_func_end51:
	.size	gcm.gcm_siv.keys.derive_and_prepare.2, .Lgcm_func_end51-gcm.gcm_siv.keys.derive_and_prepare.2
                                        // -- End function
	.section	.text.gcm.gcm_siv.message.open.2,"ax",@progbits
	.p2align	2                               // -- Begin function gcm_siv::message::open::<#2b34360e0e51af73>
	.type	gcm.gcm_siv.message.open.2,@function
gcm.gcm_siv.message.open.2: // @gcm.gcm_siv.message.open.2
// %bb.0:                               // %start
	sub	sp, sp, #96
	stp	x26, x25, [sp, #32]             // 16-byte Folded Spill
	mov	x25, x2
	mov	x26, x1
	stp	x24, x23, [sp, #48]             // 16-byte Folded Spill
	mov	x24, x3
	mov	x1, x7
	mov	x2, x5
	mov	x3, x6
	stp	x29, x30, [sp, #16]             // 16-byte Folded Spill
	stp	x22, x21, [sp, #64]             // 16-byte Folded Spill
	add	x29, sp, #16
	mov	x21, x5
	stp	x20, x19, [sp, #80]             // 16-byte Folded Spill
	mov	x20, x7
	mov	x19, x6
	mov	x23, x4
	mov	x22, x0
	bl	gcm.gcm_siv.message.process_text
	mov	x7, sp
	mov	x0, x22
	mov	x1, x26
	mov	x2, x25
	mov	x3, x24
	mov	x4, x23
	mov	x5, x21
	mov	x6, x19
	stp	xzr, xzr, [sp]
	bl	gcm.gcm_siv.message.put_tag.2
	mov	x1, sp
	mov	x0, x20
	bl	gcm.aes_cipher.blocks.difference
	mov	w23, w0
	mov	x0, sp
	mov	w1, #1                          // =0x1
	bl	gcm.aes_cipher.zeroize.elements.zeroize_elements.4
	cbz	w23, .Lgcm_BB52_2
// %bb.1:                               // %join.3
	mov	x0, x22
	mov	x1, x20
	mov	x2, x21
	mov	x3, x19
	bl	gcm.gcm_siv.message.process_text
.Lgcm_BB52_2:                               // %common.ret
	cmp	w23, #0
	ldp	x20, x19, [sp, #80]             // 16-byte Folded Reload
	ldp	x22, x21, [sp, #64]             // 16-byte Folded Reload
	cset	w0, eq
	ldp	x24, x23, [sp, #48]             // 16-byte Folded Reload
	ldp	x26, x25, [sp, #32]             // 16-byte Folded Reload
	ldp	x29, x30, [sp, #16]             // 16-byte Folded Reload
	add	sp, sp, #96
	ret
.Lgcm_func_end52:
	.size	gcm.gcm_siv.message.open.2, .Lgcm_func_end52-gcm.gcm_siv.message.open.2
                                        // -- End function
	.section	.rodata.cst16,"aM",@progbits,16
	.p2align	4, 0x0                          // -- Begin function gcm_siv::message::put_tag::<#2b34360e0e51af73>
.Lgcm_CPI53_0:
	.xword	-8                              // 0xfffffffffffffff8
	.xword	-16                             // 0xfffffffffffffff0
.Lgcm_CPI53_1:
	.xword	-40                             // 0xffffffffffffffd8
	.xword	-48                             // 0xffffffffffffffd0
.Lgcm_CPI53_2:
	.xword	-24                             // 0xffffffffffffffe8
	.xword	-32                             // 0xffffffffffffffe0
.Lgcm_CPI53_3:
	.xword	-16                             // 0xfffffffffffffff0
	.xword	-24                             // 0xffffffffffffffe8
.Lgcm_CPI53_4:
	.xword	-48                             // 0xffffffffffffffd0
	.xword	-56                             // 0xffffffffffffffc8
.Lgcm_CPI53_5:
	.xword	-32                             // 0xffffffffffffffe0
	.xword	-40                             // 0xffffffffffffffd8
.Lgcm_CPI53_6:
	.xword	-56                             // 0xffffffffffffffc8
	.xword	-8                              // 0xfffffffffffffff8
.Lgcm_CPI53_7:
	.byte	255                             // 0xff
	.byte	255                             // 0xff
	.byte	255                             // 0xff
	.byte	255                             // 0xff
	.byte	255                             // 0xff
	.byte	255                             // 0xff
	.byte	255                             // 0xff
	.byte	255                             // 0xff
	.byte	255                             // 0xff
	.byte	255                             // 0xff
	.byte	255                             // 0xff
	.byte	255                             // 0xff
	.byte	255                             // 0xff
	.byte	255                             // 0xff
	.byte	255                             // 0xff
	.byte	127                             // 0x7f
.Lgcm_CPI53_8:
	.byte	0                               // 0x0
	.byte	1                               // 0x1
	.byte	28                              // 0x1c
	.byte	29                              // 0x1d
	.byte	45                              // 0x2d
	.byte	44                              // 0x2c
	.byte	49                              // 0x31
	.byte	48                              // 0x30
	.byte	39                              // 0x27
	.byte	38                              // 0x26
	.byte	59                              // 0x3b
	.byte	58                              // 0x3a
	.byte	10                              // 0xa
	.byte	11                              // 0xb
	.byte	22                              // 0x16
	.byte	23                              // 0x17
.Lgcm_CPI53_9:
	.byte	0                               // 0x0
	.byte	134                             // 0x86
	.byte	253                             // 0xfd
	.byte	123                             // 0x7b
	.byte	142                             // 0x8e
	.byte	8                               // 0x8
	.byte	115                             // 0x73
	.byte	245                             // 0xf5
	.byte	119                             // 0x77
	.byte	241                             // 0xf1
	.byte	138                             // 0x8a
	.byte	12                              // 0xc
	.byte	249                             // 0xf9
	.byte	127                             // 0x7f
	.byte	4                               // 0x4
	.byte	130                             // 0x82
.Lgcm_CPI53_10:
	.byte	128                             // 0x80
	.byte	2                               // 0x2
	.byte	1                               // 0x1
	.byte	15                              // 0xf
	.byte	9                               // 0x9
	.byte	5                               // 0x5
	.byte	14                              // 0xe
	.byte	12                              // 0xc
	.byte	13                              // 0xd
	.byte	4                               // 0x4
	.byte	11                              // 0xb
	.byte	10                              // 0xa
	.byte	7                               // 0x7
	.byte	8                               // 0x8
	.byte	6                               // 0x6
	.byte	3                               // 0x3
.Lgcm_CPI53_11:
	.byte	128                             // 0x80
	.byte	1                               // 0x1
	.byte	9                               // 0x9
	.byte	14                              // 0xe
	.byte	13                              // 0xd
	.byte	11                              // 0xb
	.byte	7                               // 0x7
	.byte	6                               // 0x6
	.byte	15                              // 0xf
	.byte	2                               // 0x2
	.byte	12                              // 0xc
	.byte	5                               // 0x5
	.byte	10                              // 0xa
	.byte	4                               // 0x4
	.byte	3                               // 0x3
	.byte	8                               // 0x8
.Lgcm_CPI53_12:
	.byte	0                               // 0x0
	.byte	195                             // 0xc3
	.byte	79                              // 0x4f
	.byte	12                              // 0xc
	.byte	252                             // 0xfc
	.byte	124                             // 0x7c
	.byte	67                              // 0x43
	.byte	128                             // 0x80
	.byte	207                             // 0xcf
	.byte	51                              // 0x33
	.byte	63                              // 0x3f
	.byte	112                             // 0x70
	.byte	191                             // 0xbf
	.byte	179                             // 0xb3
	.byte	240                             // 0xf0
	.byte	140                             // 0x8c
.Lgcm_CPI53_13:
	.byte	0                               // 0x0
	.byte	230                             // 0xe6
	.byte	114                             // 0x72
	.byte	183                             // 0xb7
	.byte	229                             // 0xe5
	.byte	198                             // 0xc6
	.byte	197                             // 0xc5
	.byte	35                              // 0x23
	.byte	81                              // 0x51
	.byte	180                             // 0xb4
	.byte	3                               // 0x3
	.byte	113                             // 0x71
	.byte	32                              // 0x20
	.byte	151                             // 0x97
	.byte	82                              // 0x52
	.byte	148                             // 0x94
.Lgcm_CPI53_14:
	.byte	0                               // 0x0
	.byte	124                             // 0x7c
	.byte	32                              // 0x20
	.byte	207                             // 0xcf
	.byte	146                             // 0x92
	.byte	1                               // 0x1
	.byte	239                             // 0xef
	.byte	147                             // 0x93
	.byte	179                             // 0xb3
	.byte	33                              // 0x21
	.byte	238                             // 0xee
	.byte	206                             // 0xce
	.byte	125                             // 0x7d
	.byte	178                             // 0xb2
	.byte	93                              // 0x5d
	.byte	92                              // 0x5c
.Lgcm_CPI53_15:
	.byte	0                               // 0x0
	.byte	209                             // 0xd1
	.byte	229                             // 0xe5
	.byte	247                             // 0xf7
	.byte	230                             // 0xe6
	.byte	37                              // 0x25
	.byte	18                              // 0x12
	.byte	195                             // 0xc3
	.byte	38                              // 0x26
	.byte	192                             // 0xc0
	.byte	55                              // 0x37
	.byte	210                             // 0xd2
	.byte	244                             // 0xf4
	.byte	3                               // 0x3
	.byte	17                              // 0x11
	.byte	52                              // 0x34
.Lgcm_CPI53_16:
	.byte	0                               // 0x0
	.byte	203                             // 0xcb
	.byte	215                             // 0xd7
	.byte	176                             // 0xb0
	.byte	33                              // 0x21
	.byte	141                             // 0x8d
	.byte	103                             // 0x67
	.byte	172                             // 0xac
	.byte	123                             // 0x7b
	.byte	90                              // 0x5a
	.byte	234                             // 0xea
	.byte	61                              // 0x3d
	.byte	70                              // 0x46
	.byte	246                             // 0xf6
	.byte	145                             // 0x91
	.byte	28                              // 0x1c
.Lgcm_CPI53_17:
	.byte	0                               // 0x0
	.byte	159                             // 0x9f
	.byte	97                              // 0x61
	.byte	22                              // 0x16
	.byte	194                             // 0xc2
	.byte	42                              // 0x2a
	.byte	119                             // 0x77
	.byte	232                             // 0xe8
	.byte	137                             // 0x89
	.byte	75                              // 0x4b
	.byte	93                              // 0x5d
	.byte	60                              // 0x3c
	.byte	181                             // 0xb5
	.byte	163                             // 0xa3
	.byte	212                             // 0xd4
	.byte	254                             // 0xfe
	.section	.text.gcm.gcm_siv.message.put_tag.2,"ax",@progbits
	.p2align	2
	.type	gcm.gcm_siv.message.put_tag.2,@function
gcm.gcm_siv.message.put_tag.2: // @gcm.gcm_siv.message.put_tag.2
// %bb.0:                               // %start
	sub	sp, sp, #176
	mov	x8, #-6148914691236517206       // =0xaaaaaaaaaaaaaaaa
	movi	v19.2d, #0000000000000000
	stp	x20, x19, [sp, #160]            // 16-byte Folded Spill
	movk	x8, #43691
	stp	x29, x30, [sp, #80]             // 16-byte Folded Spill
	add	x29, sp, #80
	umulh	x8, x4, x8
	stp	x28, x27, [sp, #96]             // 16-byte Folded Spill
	mov	x28, x7
	stp	x26, x25, [sp, #112]            // 16-byte Folded Spill
	mov	x25, x4
	mov	x26, x3
	stp	x24, x23, [sp, #128]            // 16-byte Folded Spill
	mov	x24, x6
	mov	x23, x5
	stp	x22, x21, [sp, #144]            // 16-byte Folded Spill
	mov	x21, x2
	mov	x22, x1
	mov	x20, x0
	cmp	x4, #48
	stp	xzr, xzr, [x29, #-16]
	lsr	x19, x8, #5
	b.lo	.Lgcm_BB53_4
// %bb.1:                               // %join.5.i.i2.preheader
	str	x24, [sp, #16]                  // 8-byte Spill
	mov	x24, x23
	mov	x23, x21
	mov	x21, x28
	add	x28, x26, #32
	mov	x27, x19
.Lgcm_BB53_2:                               // %join.5.i.i2
                                        // =>This Inner Loop Header: Depth=1
	ldp	q0, q1, [x28, #-32]
	sub	x0, x29, #16
	ldr	q2, [x28], #48
	ldur	q3, [x29, #-16]
	mov	x1, x22
	rev64	v0.16b, v0.16b
	rev64	v1.16b, v1.16b
	rev64	v2.16b, v2.16b
	ext	v0.16b, v0.16b, v0.16b, #8
	ext	v1.16b, v1.16b, v1.16b, #8
	ext	v2.16b, v2.16b, v2.16b, #8
	eor	v0.16b, v3.16b, v0.16b
	bl	gcm.gcm.multiples.Multiples.three_products
	subs	x27, x27, #1
	b.ne	.Lgcm_BB53_2
// %bb.3:                               // %"gcm::hash::hash_threes::<#1ace2c8123f9d1c9>.exit.loopexit.i"
	ldur	q19, [x29, #-16]
	mov	x28, x21
	mov	x21, x23
	mov	x23, x24
	ldr	x24, [sp, #16]                  // 8-byte Reload
.Lgcm_BB53_4:                               // %"gcm::hash::hash_threes::<#1ace2c8123f9d1c9>.exit.i"
	add	x8, x19, x19, lsl #1
	stp	xzr, xzr, [x29, #-32]
	lsl	x8, x8, #4
	subs	x2, x25, x8
	b.eq	.Lgcm_BB53_17
// %bb.5:                               // %join.3.i.i
	cmp	x2, #16
	add	x27, x26, x8
	b.hi	.Lgcm_BB53_9
// %bb.6:                               // %then.4.i.i
	b.eq	.Lgcm_BB53_8
// %bb.7:                               // %join.3.i.i93.i.i
	sub	x0, x29, #16
	mov	x1, x27
	stp	xzr, xzr, [x29, #-16]
	str	q19, [sp]                       // 16-byte Spill
	adrp	x16, :got:memcpy
	ldr	x16, [x16, :got_lo12:memcpy]
	blr	x16
	ldr	q19, [sp]                       // 16-byte Reload
	sub	x27, x29, #16
.Lgcm_BB53_8:                               // %"gcm::hash::last_block::<#1ace2c8123f9d1c9>.exit147.i.i"
	ldr	q0, [x27]
	sub	x0, x29, #32
	mov	x1, x22
	rev64	v0.16b, v0.16b
	ext	v0.16b, v0.16b, v0.16b, #8
	eor	v0.16b, v0.16b, v19.16b
	bl	gcm.gcm.multiples.Multiples.block_product
	b	.Lgcm_BB53_16
.Lgcm_BB53_9:                               // %join.6.i.i
	ldr	q0, [x27]
	cmp	x2, #32
	rev64	v0.16b, v0.16b
	ext	v0.16b, v0.16b, v0.16b, #8
	eor	v0.16b, v0.16b, v19.16b
	b.hi	.Lgcm_BB53_13
// %bb.10:                              // %then.7.i.i
	add	x8, x8, #16
	sub	x2, x25, x8
	add	x1, x26, x8
	cmp	x2, #16
	b.eq	.Lgcm_BB53_12
// %bb.11:                              // %join.3.i.i34.i.i
	sub	x0, x29, #16
	stp	xzr, xzr, [x29, #-16]
	str	q0, [sp, #16]                   // 16-byte Spill
	adrp	x16, :got:memcpy
	ldr	x16, [x16, :got_lo12:memcpy]
	blr	x16
	ldr	q0, [sp, #16]                   // 16-byte Reload
	sub	x1, x29, #16
.Lgcm_BB53_12:                              // %"gcm::hash::last_block::<#1ace2c8123f9d1c9>.exit88.i.i"
	ldr	q1, [x1]
	sub	x0, x29, #32
	mov	x1, x22
	rev64	v1.16b, v1.16b
	ext	v1.16b, v1.16b, v1.16b, #8
	bl	gcm.gcm.multiples.Multiples.two_products
	b	.Lgcm_BB53_16
.Lgcm_BB53_13:                              // %join.9.i.i
	add	x8, x8, #32
	sub	x2, x25, x8
	add	x1, x26, x8
	cmp	x2, #16
	b.eq	.Lgcm_BB53_15
// %bb.14:                              // %join.3.i.i.i.i
	sub	x0, x29, #16
	stp	xzr, xzr, [x29, #-16]
	str	q0, [sp, #16]                   // 16-byte Spill
	adrp	x16, :got:memcpy
	ldr	x16, [x16, :got_lo12:memcpy]
	blr	x16
	ldr	q0, [sp, #16]                   // 16-byte Reload
	sub	x1, x29, #16
.Lgcm_BB53_15:                              // %"gcm::hash::last_block::<#1ace2c8123f9d1c9>.exit.i.i"
	ldr	q2, [x1]
	ldr	q1, [x27, #16]
	sub	x0, x29, #32
	mov	x1, x22
	rev64	v2.16b, v2.16b
	rev64	v1.16b, v1.16b
	ext	v2.16b, v2.16b, v2.16b, #8
	ext	v1.16b, v1.16b, v1.16b, #8
	bl	gcm.gcm.multiples.Multiples.three_products
.Lgcm_BB53_16:                              // %"gcm::hash::hash_last_group::<#1ace2c8123f9d1c9>.exit.i"
	ldur	q19, [x29, #-32]
.Lgcm_BB53_17:                              // %"gcm::hash::hash_last_group::<#1ace2c8123f9d1c9>.exit.i"
	fmov	d0, x25
	adrp	x8, .Lgcm_CPI53_0
	adrp	x9, .Lgcm_CPI53_6
	ldr	q2, [x8, :lo12:.Lgcm_CPI53_0]
	adrp	x8, .Lgcm_CPI53_1
	ldr	q5, [x9, :lo12:.Lgcm_CPI53_6]
	ldr	q3, [x8, :lo12:.Lgcm_CPI53_1]
	adrp	x8, .Lgcm_CPI53_2
	cmp	x24, #48
	mov	v0.d[1], x24
	ldr	q4, [x8, :lo12:.Lgcm_CPI53_2]
	adrp	x8, .Lgcm_CPI53_3
	stur	q19, [x29, #-16]
	shl	v0.2d, v0.2d, #3
	dup	v1.2d, v0.d[0]
	dup	v7.2d, v0.d[1]
	ushl	v2.2d, v1.2d, v2.2d
	ushl	v3.2d, v1.2d, v3.2d
	ushl	v1.2d, v1.2d, v4.2d
	ushl	v4.2d, v0.2d, v5.2d
	ldr	q5, [x8, :lo12:.Lgcm_CPI53_3]
	adrp	x8, .Lgcm_CPI53_4
	ldr	q16, [x8, :lo12:.Lgcm_CPI53_4]
	adrp	x8, .Lgcm_CPI53_5
	dup	v6.2d, v2.d[0]
	ldr	q17, [x8, :lo12:.Lgcm_CPI53_5]
	mov	x8, #-6148914691236517206       // =0xaaaaaaaaaaaaaaaa
	ext	v18.16b, v3.16b, v4.16b, #8
	ext	v3.16b, v1.16b, v3.16b, #8
	ext	v1.16b, v2.16b, v1.16b, #8
	zip2	v2.2d, v0.2d, v4.2d
	ushl	v4.2d, v7.2d, v16.2d
	movk	x8, #43691
	mov	v6.d[0], v0.d[0]
	ushl	v0.2d, v7.2d, v5.2d
	ushl	v5.2d, v7.2d, v17.2d
	umulh	x8, x24, x8
	uzp1	v3.4s, v3.4s, v18.4s
	uzp1	v4.4s, v5.4s, v4.4s
	uzp1	v0.4s, v2.4s, v0.4s
	uzp1	v1.4s, v6.4s, v1.4s
	lsr	x25, x8, #5
	uzp1	v0.8h, v0.8h, v4.8h
	uzp1	v1.8h, v1.8h, v3.8h
	uzp1	v0.16b, v1.16b, v0.16b
	rev64	v0.16b, v0.16b
	b.lo	.Lgcm_BB53_21
// %bb.18:                              // %join.5.i.i.i.preheader
	add	x26, x23, #32
	mov	x19, x25
	str	q0, [sp, #16]                   // 16-byte Spill
.Lgcm_BB53_19:                              // %join.5.i.i.i
                                        // =>This Inner Loop Header: Depth=1
	ldp	q0, q1, [x26, #-32]
	sub	x0, x29, #16
	ldr	q2, [x26], #48
	ldur	q3, [x29, #-16]
	mov	x1, x22
	rev64	v0.16b, v0.16b
	rev64	v1.16b, v1.16b
	rev64	v2.16b, v2.16b
	ext	v0.16b, v0.16b, v0.16b, #8
	ext	v1.16b, v1.16b, v1.16b, #8
	ext	v2.16b, v2.16b, v2.16b, #8
	eor	v0.16b, v3.16b, v0.16b
	bl	gcm.gcm.multiples.Multiples.three_products
	subs	x19, x19, #1
	b.ne	.Lgcm_BB53_19
// %bb.20:                              // %"gcm::hash::hash_string_and_end::<#1ace2c8123f9d1c9>.exit.loopexit.i"
	ldur	q19, [x29, #-16]
	ldr	q0, [sp, #16]                   // 16-byte Reload
.Lgcm_BB53_21:                              // %"gcm::hash::hash_string_and_end::<#1ace2c8123f9d1c9>.exit.i"
	add	x8, x25, x25, lsl #1
	ext	v2.16b, v0.16b, v0.16b, #8
	stp	xzr, xzr, [sp, #32]
	lsl	x8, x8, #4
	subs	x2, x24, x8
	b.ne	.Lgcm_BB53_24
// %bb.22:                              // %then.1.i139.i
	eor	v0.16b, v19.16b, v2.16b
.Lgcm_BB53_23:                              // %"gcm_siv::hash::MultiplesRoomPolyvalRoom::hash.exit"
	add	x0, sp, #32
	mov	x1, x22
	bl	gcm.gcm.multiples.Multiples.block_product
	b	.Lgcm_BB53_32
.Lgcm_BB53_24:                              // %join.3.i59.i
	cmp	x2, #16
	b.hi	.Lgcm_BB53_28
// %bb.25:                              // %then.4.i137.i
	add	x1, x23, x8
	b.eq	.Lgcm_BB53_27
// %bb.26:                              // %join.3.i.i27.i.i
	sub	x0, x29, #16
	stp	xzr, xzr, [x29, #-16]
	stp	q19, q2, [sp]                   // 32-byte Folded Spill
	adrp	x16, :got:memcpy
	ldr	x16, [x16, :got_lo12:memcpy]
	blr	x16
	ldp	q19, q2, [sp]                   // 32-byte Folded Reload
	sub	x1, x29, #16
.Lgcm_BB53_27:                              // %"gcm::hash::last_block::<#1ace2c8123f9d1c9>.exit81.i.i"
	ldr	q0, [x1]
	mov	v1.16b, v2.16b
	add	x0, sp, #32
	mov	x1, x22
	rev64	v0.16b, v0.16b
	ext	v0.16b, v0.16b, v0.16b, #8
	eor	v0.16b, v0.16b, v19.16b
	bl	gcm.gcm.multiples.Multiples.two_products
	b	.Lgcm_BB53_32
.Lgcm_BB53_28:                              // %join.6.i60.i
	cmp	x2, #32
	b.hi	.Lgcm_BB53_35
// %bb.29:                              // %then.7.i76.i
	ldr	q0, [x23, x8]
	add	x8, x8, #16
	sub	x2, x24, x8
	add	x1, x23, x8
	rev64	v0.16b, v0.16b
	cmp	x2, #16
	ext	v0.16b, v0.16b, v0.16b, #8
	eor	v0.16b, v0.16b, v19.16b
	b.eq	.Lgcm_BB53_31
// %bb.30:                              // %join.3.i.i.i83.i
	sub	x0, x29, #16
	stp	xzr, xzr, [x29, #-16]
	stp	q0, q2, [sp]                    // 32-byte Folded Spill
	adrp	x16, :got:memcpy
	ldr	x16, [x16, :got_lo12:memcpy]
	blr	x16
	ldp	q0, q2, [sp]                    // 32-byte Folded Reload
	sub	x1, x29, #16
.Lgcm_BB53_31:                              // %"gcm::hash::last_block::<#1ace2c8123f9d1c9>.exit.i131.i"
	ldr	q1, [x1]
	add	x0, sp, #32
	mov	x1, x22
	rev64	v1.16b, v1.16b
	ext	v1.16b, v1.16b, v1.16b, #8
	bl	gcm.gcm.multiples.Multiples.three_products
.Lgcm_BB53_32:                              // %"gcm_siv::hash::MultiplesRoomPolyvalRoom::hash.exit"
	ldp	x10, x8, [sp, #32]
	mov	w11, #16                        // =0x10
	ldr	d1, [x21]
	rev	x8, x8
	fmov	s0, w8
	lsr	x9, x8, #8
	mov	v0.b[1], w9
	lsr	x9, x8, #16
	mov	v0.b[2], w9
	lsr	x9, x8, #24
	mov	v0.b[3], w9
	lsr	x9, x8, #32
	mov	v0.b[4], w9
	rev	x9, x10
	extr	x10, x9, x8, #40
	mov	v0.b[5], w10
	extr	x10, x9, x8, #48
	extr	x8, x9, x8, #56
	mov	v0.b[6], w10
	adrp	x10, .Lgcm_CPI53_9
	ldr	q4, [x10, :lo12:.Lgcm_CPI53_9]
	mov	v0.b[7], w8
	lsr	x8, x9, #8
	mov	v0.b[8], w9
	mov	v0.b[9], w8
	lsr	x8, x9, #16
	mov	v0.b[10], w8
	lsr	x8, x9, #24
	mov	v0.b[11], w8
	lsr	x8, x9, #32
	mov	v0.b[12], w8
	lsr	x8, x9, #40
	mov	v0.b[13], w8
	lsr	x8, x9, #48
	mov	v0.b[14], w8
	lsr	x8, x9, #56
	add	x9, x21, #8
	ld1	{ v1.s }[2], [x9]
	adrp	x9, .Lgcm_CPI53_8
	ldr	q3, [x9, :lo12:.Lgcm_CPI53_8]
	mov	v0.b[15], w8
	adrp	x8, .Lgcm_CPI53_7
	eor	v0.16b, v1.16b, v0.16b
	ldr	q1, [x8, :lo12:.Lgcm_CPI53_7]
	mov	x8, x20
	and	v1.16b, v0.16b, v1.16b
	movi	v0.16b, #15
	str	q1, [x28]
	ldr	q2, [x8, #4]!
	ldr	w9, [x20], #20
	eor	v1.16b, v2.16b, v1.16b
	lsr	x10, x9, #2
	and	v2.16b, v1.16b, v0.16b
	ushr	v1.16b, v1.16b, #4
	add	x9, x10, #6
	add	x10, x10, #5
	tbl	v2.16b, { v3.16b }, v2.16b
	tbl	v1.16b, { v4.16b }, v1.16b
	eor	v3.16b, v1.16b, v2.16b
.Lgcm_BB53_33:                              // %join.5.i.i
                                        // =>This Inner Loop Header: Depth=1
	ushr	v4.16b, v3.16b, #4
	and	v3.16b, v3.16b, v0.16b
	adrp	x12, .Lgcm_CPI53_10
	adrp	x13, .Lgcm_CPI53_11
	ldr	q2, [x12, :lo12:.Lgcm_CPI53_10]
	adrp	x12, .Lgcm_CPI53_12
	ldr	q1, [x13, :lo12:.Lgcm_CPI53_11]
	adrp	x13, .Lgcm_CPI53_13
	subs	x10, x10, #1
	eor	v5.16b, v4.16b, v3.16b
	tbl	v3.16b, { v2.16b }, v3.16b
	tbl	v6.16b, { v1.16b }, v4.16b
	tbl	v7.16b, { v1.16b }, v5.16b
	eor	v6.16b, v6.16b, v3.16b
	eor	v3.16b, v7.16b, v3.16b
	tbl	v6.16b, { v1.16b }, v6.16b
	tbl	v3.16b, { v1.16b }, v3.16b
	eor	v5.16b, v6.16b, v5.16b
	ldr	q6, [x13, :lo12:.Lgcm_CPI53_13]
	adrp	x13, .Lgcm_CPI53_15
	ldr	q16, [x13, :lo12:.Lgcm_CPI53_15]
	adrp	x13, .Lgcm_static.5
	add	x13, x13, :lo12:.Lgcm_static.5
	eor	v3.16b, v3.16b, v4.16b
	ldr	q4, [x12, :lo12:.Lgcm_CPI53_12]
	adrp	x12, .Lgcm_CPI53_14
	ldr	q7, [x12, :lo12:.Lgcm_CPI53_14]
	and	x12, x11, #0x30
	add	x11, x11, #16
	tbl	v4.16b, { v4.16b }, v5.16b
	tbl	v6.16b, { v6.16b }, v3.16b
	tbl	v5.16b, { v7.16b }, v5.16b
	tbl	v3.16b, { v16.16b }, v3.16b
	eor	v4.16b, v6.16b, v4.16b
	ldr	q6, [x13, x12]
	adrp	x13, .Lgcm_static.6
	add	x13, x13, :lo12:.Lgcm_static.6
	eor	v3.16b, v3.16b, v5.16b
	ldr	q7, [x13, x12]
	ldr	q5, [x20], #16
	tbl	v16.16b, { v4.16b }, v6.16b
	tbl	v4.16b, { v4.16b }, v7.16b
	eor	v3.16b, v3.16b, v16.16b
	eor	v4.16b, v5.16b, v4.16b
	tbl	v5.16b, { v3.16b }, v6.16b
	eor	v3.16b, v4.16b, v3.16b
	eor	v3.16b, v5.16b, v3.16b
	b.ne	.Lgcm_BB53_33
// %bb.34:                              // %"gcm_c::siv::MessageRoomMessageKey::encrypt_block.exit"
	movi	v0.16b, #15
	ushr	v4.16b, v3.16b, #4
	adrp	x10, .Lgcm_CPI53_16
	adrp	x11, .Lgcm_CPI53_17
	lsl	x9, x9, #4
	ldp	x20, x19, [sp, #160]            // 16-byte Folded Reload
	ldp	x22, x21, [sp, #144]            // 16-byte Folded Reload
	and	v0.16b, v3.16b, v0.16b
	ldp	x24, x23, [sp, #128]            // 16-byte Folded Reload
	ldp	x26, x25, [sp, #112]            // 16-byte Folded Reload
	ldp	x29, x30, [sp, #80]             // 16-byte Folded Reload
	eor	v3.16b, v4.16b, v0.16b
	tbl	v0.16b, { v2.16b }, v0.16b
	tbl	v2.16b, { v1.16b }, v4.16b
	tbl	v5.16b, { v1.16b }, v3.16b
	eor	v2.16b, v2.16b, v0.16b
	eor	v0.16b, v5.16b, v0.16b
	tbl	v2.16b, { v1.16b }, v2.16b
	tbl	v0.16b, { v1.16b }, v0.16b
	eor	v1.16b, v2.16b, v3.16b
	ldr	q2, [x10, :lo12:.Lgcm_CPI53_16]
	ldr	q3, [x11, :lo12:.Lgcm_CPI53_17]
	and	x10, x9, #0x30
	adrp	x11, .Lgcm_static.3
	add	x11, x11, :lo12:.Lgcm_static.3
	eor	v0.16b, v0.16b, v4.16b
	tbl	v1.16b, { v2.16b }, v1.16b
	tbl	v0.16b, { v3.16b }, v0.16b
	eor	v0.16b, v0.16b, v1.16b
	ldr	q1, [x11, x10]
	tbl	v0.16b, { v0.16b }, v1.16b
	ldr	q1, [x8, x9]
	eor	v0.16b, v0.16b, v1.16b
	str	q0, [x28]
	ldp	x28, x27, [sp, #96]             // 16-byte Folded Reload
	add	sp, sp, #176
	ret
.Lgcm_BB53_35:                              // %join.9.i.i.i
	add	x25, x23, x8
	add	x8, x8, #32
	str	q2, [sp, #16]                   // 16-byte Spill
	ldr	q0, [x25]
	sub	x2, x24, x8
	add	x1, x23, x8
	cmp	x2, #16
	stp	xzr, xzr, [x29, #-32]
	rev64	v0.16b, v0.16b
	ext	v0.16b, v0.16b, v0.16b, #8
	eor	v0.16b, v0.16b, v19.16b
	b.eq	.Lgcm_BB53_37
// %bb.36:                              // %join.3.i.i.i.i.i
	sub	x0, x29, #16
	stp	xzr, xzr, [x29, #-16]
	str	q0, [sp]                        // 16-byte Spill
	adrp	x16, :got:memcpy
	ldr	x16, [x16, :got_lo12:memcpy]
	blr	x16
	ldr	q0, [sp]                        // 16-byte Reload
	sub	x1, x29, #16
.Lgcm_BB53_37:                              // %"gcm::hash::hash_last_group::<#1ace2c8123f9d1c9>.exit.i.i"
	ldr	q2, [x1]
	ldr	q1, [x25, #16]
	sub	x0, x29, #32
	mov	x1, x22
	rev64	v2.16b, v2.16b
	rev64	v1.16b, v1.16b
	ext	v2.16b, v2.16b, v2.16b, #8
	ext	v1.16b, v1.16b, v1.16b, #8
	bl	gcm.gcm.multiples.Multiples.three_products
	ldur	q0, [x29, #-32]
	ldr	q1, [sp, #16]                   // 16-byte Reload
	eor	v0.16b, v0.16b, v1.16b
	b	.Lgcm_BB53_23
.Lgcm_func_end53:
	.size	gcm.gcm_siv.message.put_tag.2, .Lgcm_func_end53-gcm.gcm_siv.message.put_tag.2
                                        // -- End function
	.section	.text.gcm.gcm_siv.course.seal_in.1,"ax",@progbits
	.p2align	2                               // -- Begin function gcm_siv::course::seal_in::<#b1a7be6fe22fdaa9>
	.type	gcm.gcm_siv.course.seal_in.1,@function
gcm.gcm_siv.course.seal_in.1: // @gcm.gcm_siv.course.seal_in.1
// %bb.0:                               // %start
	stp	x29, x30, [sp, #-96]!           // 16-byte Folded Spill
	stp	x28, x27, [sp, #16]             // 16-byte Folded Spill
	mov	x29, sp
	stp	x26, x25, [sp, #32]             // 16-byte Folded Spill
	stp	x24, x23, [sp, #48]             // 16-byte Folded Spill
	stp	x22, x21, [sp, #64]             // 16-byte Folded Spill
	stp	x20, x19, [sp, #80]             // 16-byte Folded Spill
	sub	sp, sp, #1296
	movi	v0.2d, #0000000000000000
	mov	x25, x2
	mov	x26, x1
	mov	x19, x0
	add	x0, sp, #272
	add	x1, sp, #784
	mov	w2, #512                        // =0x200
	str	xzr, [sp]
	mov	x20, x7
	mov	x21, x6
	mov	x22, x5
	mov	x23, x4
	mov	x24, x3
	str	xzr, [sp, #1288]
	str	xzr, [sp, #1280]
	stp	q0, q0, [sp, #784]
	stp	q0, q0, [sp, #816]
	stp	q0, q0, [sp, #848]
	stp	q0, q0, [sp, #880]
	stp	q0, q0, [sp, #912]
	stp	q0, q0, [sp, #944]
	stp	q0, q0, [sp, #976]
	stp	q0, q0, [sp, #1008]
	str	q0, [sp, #1040]
	str	q0, [sp, #1056]
	str	q0, [sp, #1072]
	str	q0, [sp, #1088]
	str	q0, [sp, #1104]
	str	q0, [sp, #1120]
	str	q0, [sp, #1136]
	str	q0, [sp, #1152]
	str	q0, [sp, #1168]
	str	q0, [sp, #1184]
	str	q0, [sp, #1200]
	str	q0, [sp, #1216]
	str	q0, [sp, #1232]
	str	q0, [sp, #1248]
	str	q0, [sp, #1264]
	adrp	x16, :got:memcpy
	ldr	x16, [x16, :got_lo12:memcpy]
	blr	x16
	movi	v0.2d, #0000000000000000
	add	x3, sp, #16
	add	x4, sp, #272
	mov	x0, x26
	mov	x1, x25
	mov	x2, x24
	add	x27, sp, #16
	str	wzr, [sp, #256]
	stp	q0, q0, [sp, #16]
	stp	q0, q0, [sp, #48]
	stp	q0, q0, [sp, #80]
	stp	q0, q0, [sp, #112]
	stp	q0, q0, [sp, #144]
	stp	q0, q0, [sp, #176]
	stp	q0, q0, [sp, #208]
	str	q0, [sp, #240]
	bl	gcm.gcm_siv.keys.derive_and_prepare.1
	mov	x0, sp
	add	x1, sp, #16
	add	x2, sp, #272
	mov	x3, x24
	mov	x4, x23
	mov	x5, x22
	mov	x6, x21
	mov	x7, x20
	bl	gcm.gcm_siv.message.seal.1
	orr	x0, x27, #0x4
	str	wzr, [sp, #16]
	bl	gcm.aes_cipher.zeroize.elements.zeroize_elements.1
	add	x0, sp, #272
	mov	w1, #32                         // =0x20
	bl	gcm.aes_cipher.zeroize.elements.zeroize_elements.2
	bl	gcm.aes_cipher.zeroize.stack.wipe_stack.2816
	ldr	q0, [sp]
	str	q0, [x19]
	add	sp, sp, #1296
	ldp	x20, x19, [sp, #80]             // 16-byte Folded Reload
	ldp	x22, x21, [sp, #64]             // 16-byte Folded Reload
	ldp	x24, x23, [sp, #48]             // 16-byte Folded Reload
	ldp	x26, x25, [sp, #32]             // 16-byte Folded Reload
	ldp	x28, x27, [sp, #16]             // 16-byte Folded Reload
	ldp	x29, x30, [sp], #96             // 16-byte Folded Reload
	ret
.Lgcm_func_end54:
	.size	gcm.gcm_siv.course.seal_in.1, .Lgcm_func_end54-gcm.gcm_siv.course.seal_in.1
                                        // -- End function
	.section	.text.gcm.gcm_siv.message.seal.1,"ax",@progbits
	.p2align	2                               // -- Begin function gcm_siv::message::seal::<#f940bb35374b8583>
	.type	gcm.gcm_siv.message.seal.1,@function
gcm.gcm_siv.message.seal.1: // @gcm.gcm_siv.message.seal.1
// %bb.0:                               // %start
	sub	sp, sp, #64
	stp	x20, x19, [sp, #48]             // 16-byte Folded Spill
	mov	x19, x7
	mov	x20, x6
	stp	x22, x21, [sp, #32]             // 16-byte Folded Spill
	mov	x21, x1
	mov	x22, x0
	mov	x7, sp
	mov	x0, x1
	mov	x1, x2
	mov	x2, x3
	mov	x3, x4
	mov	x4, x5
	mov	x5, x6
	mov	x6, x19
	stp	x29, x30, [sp, #16]             // 16-byte Folded Spill
	add	x29, sp, #16
	stp	xzr, xzr, [sp]
	bl	gcm.gcm_siv.message.put_tag.1
	mov	x1, sp
	mov	x0, x21
	mov	x2, x20
	mov	x3, x19
	bl	gcm.gcm_siv.message.process_text
	ldr	q0, [sp]
	ldp	x20, x19, [sp, #48]             // 16-byte Folded Reload
	ldp	x29, x30, [sp, #16]             // 16-byte Folded Reload
	str	q0, [x22]
	ldp	x22, x21, [sp, #32]             // 16-byte Folded Reload
	add	sp, sp, #64
	ret
.Lgcm_func_end55:
	.size	gcm.gcm_siv.message.seal.1, .Lgcm_func_end55-gcm.gcm_siv.message.seal.1
                                        // -- End function
	.section	.text.gcm.gcm_siv.course.seal_in.2,"ax",@progbits
	.p2align	2                               // -- Begin function gcm_siv::course::seal_in::<#40c030eaacddd0c9>
	.type	gcm.gcm_siv.course.seal_in.2,@function
gcm.gcm_siv.course.seal_in.2: // @gcm.gcm_siv.course.seal_in.2
// %bb.0:                               // %start
	stp	x29, x30, [sp, #-96]!           // 16-byte Folded Spill
	stp	x28, x27, [sp, #16]             // 16-byte Folded Spill
	mov	x29, sp
	stp	x26, x25, [sp, #32]             // 16-byte Folded Spill
	stp	x24, x23, [sp, #48]             // 16-byte Folded Spill
	stp	x22, x21, [sp, #64]             // 16-byte Folded Spill
	stp	x20, x19, [sp, #80]             // 16-byte Folded Spill
	sub	sp, sp, #3072
	str	xzr, [sp]
	sub	sp, sp, #272
	movi	v0.2d, #0000000000000000
	mov	x25, x2
	mov	x26, x1
	mov	x19, x0
	add	x0, sp, #1808
	mov	w1, wzr
	mov	w2, #1520                       // =0x5f0
	mov	x20, x7
	mov	x21, x6
	mov	x22, x5
	mov	x23, x4
	mov	x24, x3
	str	q0, [sp, #3328]
	adrp	x16, :got:memset
	ldr	x16, [x16, :got_lo12:memset]
	blr	x16
	add	x0, sp, #272
	add	x1, sp, #1808
	mov	w2, #1536                       // =0x600
	adrp	x16, :got:memcpy
	ldr	x16, [x16, :got_lo12:memcpy]
	blr	x16
	movi	v0.2d, #0000000000000000
	add	x3, sp, #16
	add	x4, sp, #272
	mov	x0, x26
	mov	x1, x25
	mov	x2, x24
	add	x27, sp, #16
	str	wzr, [sp, #256]
	stp	q0, q0, [sp, #16]
	stp	q0, q0, [sp, #48]
	stp	q0, q0, [sp, #80]
	stp	q0, q0, [sp, #112]
	stp	q0, q0, [sp, #144]
	stp	q0, q0, [sp, #176]
	stp	q0, q0, [sp, #208]
	str	q0, [sp, #240]
	bl	gcm.gcm_siv.keys.derive_and_prepare.2
	mov	x0, sp
	add	x1, sp, #16
	add	x2, sp, #272
	mov	x3, x24
	mov	x4, x23
	mov	x5, x22
	mov	x6, x21
	mov	x7, x20
	bl	gcm.gcm_siv.message.seal.2
	orr	x0, x27, #0x4
	str	wzr, [sp, #16]
	bl	gcm.aes_cipher.zeroize.elements.zeroize_elements.1
	add	x0, sp, #272
	mov	w1, #96                         // =0x60
	bl	gcm.aes_cipher.zeroize.elements.zeroize_elements.2
	bl	gcm.aes_cipher.zeroize.stack.wipe_stack.2816
	ldr	q0, [sp]
	str	q0, [x19]
	add	sp, sp, #3344
	ldp	x20, x19, [sp, #80]             // 16-byte Folded Reload
	ldp	x22, x21, [sp, #64]             // 16-byte Folded Reload
	ldp	x24, x23, [sp, #48]             // 16-byte Folded Reload
	ldp	x26, x25, [sp, #32]             // 16-byte Folded Reload
	ldp	x28, x27, [sp, #16]             // 16-byte Folded Reload
	ldp	x29, x30, [sp], #96             // 16-byte Folded Reload
	ret
.Lgcm_func_end56:
	.size	gcm.gcm_siv.course.seal_in.2, .Lgcm_func_end56-gcm.gcm_siv.course.seal_in.2
                                        // -- End function
	.section	.text.gcm.gcm_siv.message.seal.2,"ax",@progbits
	.p2align	2                               // -- Begin function gcm_siv::message::seal::<#2b34360e0e51af73>
	.type	gcm.gcm_siv.message.seal.2,@function
gcm.gcm_siv.message.seal.2: // @gcm.gcm_siv.message.seal.2
// %bb.0:                               // %start
	sub	sp, sp, #64
	stp	x20, x19, [sp, #48]             // 16-byte Folded Spill
	mov	x19, x7
	mov	x20, x6
	stp	x22, x21, [sp, #32]             // 16-byte Folded Spill
	mov	x21, x1
	mov	x22, x0
	mov	x7, sp
	mov	x0, x1
	mov	x1, x2
	mov	x2, x3
	mov	x3, x4
	mov	x4, x5
	mov	x5, x6
	mov	x6, x19
	stp	x29, x30, [sp, #16]             // 16-byte Folded Spill
	add	x29, sp, #16
	stp	xzr, xzr, [sp]
	bl	gcm.gcm_siv.message.put_tag.2
	mov	x1, sp
	mov	x0, x21
	mov	x2, x20
	mov	x3, x19
	bl	gcm.gcm_siv.message.process_text
	ldr	q0, [sp]
	ldp	x20, x19, [sp, #48]             // 16-byte Folded Reload
	ldp	x29, x30, [sp, #16]             // 16-byte Folded Reload
	str	q0, [x22]
	ldp	x22, x21, [sp, #32]             // 16-byte Folded Reload
	add	sp, sp, #64
	ret
.Lgcm_func_end57:
	.size	gcm.gcm_siv.message.seal.2, .Lgcm_func_end57-gcm.gcm_siv.message.seal.2
                                        // -- End function
	.section	.text.gcm.gcm.hash_room.hash_piece,"ax",@progbits
	.p2align	2                               // -- Begin function gcm::hash_room::hash_piece::<#84904cd934dcda78>
	.type	gcm.gcm.hash_room.hash_piece,@function
gcm.gcm.hash_room.hash_piece: // @gcm.gcm.hash_room.hash_piece
// %bb.0:                               // %start
	sub	sp, sp, #112
	mov	w8, #16                         // =0x10
	stp	x20, x19, [sp, #96]             // 16-byte Folded Spill
	mov	x19, x2
	sub	x2, x8, x3
	stp	x24, x23, [sp, #64]             // 16-byte Folded Spill
	subs	x24, x5, x2
	stp	x29, x30, [sp, #16]             // 16-byte Folded Spill
	add	x29, sp, #16
	str	x27, [sp, #32]                  // 8-byte Spill
	stp	x26, x25, [sp, #48]             // 16-byte Folded Spill
	stp	x22, x21, [sp, #80]             // 16-byte Folded Spill
	b.hs	.Lgcm_BB58_7
// %bb.1:                               // %then.1
	add	x0, x19, x3
	sub	x8, x0, x4
	cmp	x8, x5
	b.hs	.Lgcm_BB58_13
// %bb.2:                               // %iter.check205
	cmp	x5, #8
	b.lo	.Lgcm_BB58_4
// %bb.3:                               // %vector.memcheck199
	add	x8, x3, x19
	sub	x8, x8, x4
	cmp	x8, #32
	b.hs	.Lgcm_BB58_20
.Lgcm_BB58_4:
	mov	x8, xzr
.Lgcm_BB58_5:                               // %join.7.i.i.i.i.i.i.preheader
	add	x10, x8, x3
	sub	x9, x5, x8
	add	x8, x4, x8
	add	x10, x19, x10
.Lgcm_BB58_6:                               // %join.7.i.i.i.i.i.i
                                        // =>This Inner Loop Header: Depth=1
	ldrb	w11, [x8], #1
	subs	x9, x9, #1
	strb	w11, [x10], #1
	b.ne	.Lgcm_BB58_6
	b	.Lgcm_BB58_19
.Lgcm_BB58_7:                               // %join.3
	mov	x21, x0
	add	x0, x19, x3
	mov	x20, x1
	ldp	x23, x25, [x1]
	sub	x8, x0, x4
	cmp	x8, x2
	add	x22, x4, x2
	b.hs	.Lgcm_BB58_14
// %bb.8:                               // %iter.check
	cmp	x3, #12
	b.hi	.Lgcm_BB58_10
// %bb.9:                               // %vector.memcheck
	add	x8, x3, x19
	sub	x8, x8, x4
	cmp	x8, #16
	b.hs	.Lgcm_BB58_22
.Lgcm_BB58_10:
	mov	x8, xzr
.Lgcm_BB58_11:                              // %join.7.i.i.i.i.i.i58.preheader
	add	x9, x8, x3
	add	x8, x4, x8
.Lgcm_BB58_12:                              // %join.7.i.i.i.i.i.i58
                                        // =>This Inner Loop Header: Depth=1
	ldrb	w10, [x8], #1
	strb	w10, [x19, x9]
	add	x9, x9, #1
	cmp	x9, #16
	b.ne	.Lgcm_BB58_12
	b	.Lgcm_BB58_15
.Lgcm_BB58_13:                              // %apart.2.i.i.i.i.i.i
	ldp	x20, x19, [sp, #96]             // 16-byte Folded Reload
	mov	x1, x4
	ldp	x22, x21, [sp, #80]             // 16-byte Folded Reload
	mov	x2, x5
	ldp	x24, x23, [sp, #64]             // 16-byte Folded Reload
	ldr	x27, [sp, #32]                  // 8-byte Reload
	ldp	x26, x25, [sp, #48]             // 16-byte Folded Reload
	ldp	x29, x30, [sp, #16]             // 16-byte Folded Reload
	add	sp, sp, #112
	adrp	x16, :got:memmove
	ldr	x16, [x16, :got_lo12:memmove]
	br	x16
.Lgcm_BB58_14:                              // %apart.2.i.i.i.i.i.i57
	mov	x1, x4
	adrp	x16, :got:memmove
	ldr	x16, [x16, :got_lo12:memmove]
	blr	x16
.Lgcm_BB58_15:                              // %"core::slice::edits::slice+T::copy_from_slice::<i8,20'core::clone::U8Clone{}>.exit65"
	ldp	x9, x8, [x19]
	mov	x0, sp
	ldr	x1, [x21]
	stp	xzr, xzr, [sp]
	eor	x8, x8, x25
	eor	x9, x9, x23
	and	x23, x24, #0xfffffffffffffff0
	rev	x8, x8
	rev	x9, x9
	add	x27, x22, x23
	fmov	d0, x8
	and	x24, x24, #0xf
	mov	v0.d[1], x9
	rev64	v0.16b, v0.16b
	ext	v0.16b, v0.16b, v0.16b, #8
	bl	gcm.gcm.multiples.Multiples.block_product
	ldp	x9, x8, [sp]
	sub	x10, x19, x27
	cmp	x10, x24
	rev	x25, x9
	rev	x26, x8
	b.hs	.Lgcm_BB58_17
.Lgcm_BB58_16:                              // %join.7.i.i.i.i.i.i84
                                        // =>This Inner Loop Header: Depth=1
	ldrb	w8, [x27], #1
	subs	x24, x24, #1
	strb	w8, [x19], #1
	b.ne	.Lgcm_BB58_16
	b	.Lgcm_BB58_18
.Lgcm_BB58_17:                              // %apart.2.i.i.i.i.i.i83
	add	x1, x22, x23
	mov	x0, x19
	mov	x2, x24
	adrp	x16, :got:memmove
	ldr	x16, [x16, :got_lo12:memmove]
	blr	x16
.Lgcm_BB58_18:                              // %"core::slice::edits::slice+T::copy_from_slice::<i8,20'core::clone::U8Clone{}>.exit91"
	ldr	x0, [x21]
	mov	x2, x26
	mov	x3, x25
	mov	x4, x22
	mov	x5, x23
	bl	gcm.gcm.hash_room.MultiplesRoomHashRoom.hash_on
	fmov	d0, x0
	mov	v0.d[1], x1
	rev64	v0.16b, v0.16b
	ext	v0.16b, v0.16b, v0.16b, #8
	str	q0, [x20]
.Lgcm_BB58_19:                              // %common.ret
	ldp	x20, x19, [sp, #96]             // 16-byte Folded Reload
	ldr	x27, [sp, #32]                  // 8-byte Reload
	ldp	x22, x21, [sp, #80]             // 16-byte Folded Reload
	ldp	x24, x23, [sp, #64]             // 16-byte Folded Reload
	ldp	x26, x25, [sp, #48]             // 16-byte Folded Reload
	ldp	x29, x30, [sp, #16]             // 16-byte Folded Reload
	add	sp, sp, #112
	ret
.Lgcm_BB58_20:                              // %vector.main.loop.iter.check207
	cmp	x5, #32
	b.hs	.Lgcm_BB58_27
// %bb.21:
	mov	x8, xzr
	b	.Lgcm_BB58_31
.Lgcm_BB58_22:                              // %vector.main.loop.iter.check
	cbz	x3, .Lgcm_BB58_34
// %bb.23:                              // %vec.epilog.ph
	and	x8, x2, #0x1c
	ldr	w9, [x4]
	cmp	x8, #4
	str	w9, [x0]
	b.eq	.Lgcm_BB58_26
// %bb.24:                              // %vec.epilog.vector.body.1
	ldr	w9, [x4, #4]
	cmp	x8, #8
	str	w9, [x0, #4]
	b.eq	.Lgcm_BB58_26
// %bb.25:                              // %vec.epilog.vector.body.2
	ldr	w9, [x4, #8]
	str	w9, [x0, #8]
.Lgcm_BB58_26:                              // %vec.epilog.middle.block
	cmp	x2, x8
	b.eq	.Lgcm_BB58_15
	b	.Lgcm_BB58_11
.Lgcm_BB58_27:                              // %vector.ph208
	add	x11, x3, x19
	and	x9, x5, #0x18
	and	x8, x5, #0xffffffffffffffe0
	add	x10, x4, #16
	add	x11, x11, #16
	and	x12, x5, #0xffffffffffffffe0
.Lgcm_BB58_28:                              // %vector.body211
                                        // =>This Inner Loop Header: Depth=1
	ldp	q0, q1, [x10, #-16]
	subs	x12, x12, #32
	add	x10, x10, #32
	stp	q0, q1, [x11, #-16]
	add	x11, x11, #32
	b.ne	.Lgcm_BB58_28
// %bb.29:                              // %middle.block216
	cmp	x5, x8
	b.eq	.Lgcm_BB58_19
// %bb.30:                              // %vec.epilog.iter.check220
	cbz	x9, .Lgcm_BB58_5
.Lgcm_BB58_31:                              // %vec.epilog.ph222
	mov	x10, x8
	and	x8, x5, #0xfffffffffffffff8
	add	x11, x10, x3
	sub	x9, x10, x8
	add	x10, x4, x10
	add	x11, x19, x11
.Lgcm_BB58_32:                              // %vec.epilog.vector.body225
                                        // =>This Inner Loop Header: Depth=1
	ldr	d0, [x10], #8
	adds	x9, x9, #8
	str	d0, [x11], #8
	b.ne	.Lgcm_BB58_32
// %bb.33:                              // %vec.epilog.middle.block229
	cmp	x5, x8
	b.eq	.Lgcm_BB58_19
	b	.Lgcm_BB58_5
.Lgcm_BB58_34:                              // %vector.body
	ldr	q0, [x4]
	str	q0, [x0]
	b	.Lgcm_BB58_15
.Lgcm_func_end58:
	.size	gcm.gcm.hash_room.hash_piece, .Lgcm_func_end58-gcm.gcm.hash_room.hash_piece
                                        // -- End function
	.section	.text.gcm.gcm.mode.BorrowedGcm.enter_phase,"ax",@progbits
	.p2align	2                               // -- Begin function gcm::mode::BorrowedGcm::enter_phase::<#c13ce517942629d6>
	.type	gcm.gcm.mode.BorrowedGcm.enter_phase,@function
gcm.gcm.mode.BorrowedGcm.enter_phase: // @gcm.gcm.mode.BorrowedGcm.enter_phase
// %bb.0:                               // %start
	stp	x29, x30, [sp, #-32]!           // 16-byte Folded Spill
	ldr	x9, [x1, #24]
	stp	x20, x19, [sp, #16]             // 16-byte Folded Spill
	mov	x19, x1
	mov	x29, sp
                                        // kill: def $w2 killed $w2 def $x2
	cmp	x9, #5
	csel	w9, w9, wzr, lo
	and	w9, w9, #0xff
	cmp	w9, #1
	b.eq	.Lgcm_BB59_4
// %bb.1:                               // %start
	cmp	w9, w2, uxtb
	b.eq	.Lgcm_BB59_4
// %bb.2:
	mov	w1, wzr
	mov	w0, #1                          // =0x1
.Lgcm_BB59_3:                               // %return.4
	ldp	x20, x19, [sp, #16]             // 16-byte Folded Reload
	ldp	x29, x30, [sp], #32             // 16-byte Folded Reload
	ret
.Lgcm_BB59_4:                               // %join.3
	ldr	x10, [x19, #8]
	mov	x11, #68719476704               // =0xfffffffe0
	adds	x10, x3, x10
	csinv	x10, x10, xzr, lo
	cmp	x10, x11
	cset	w1, hi
	cmp	w9, #1
	b.ne	.Lgcm_BB59_7
// %bb.5:                               // %join.3
	mov	x9, x0
	cmp	x10, x11
	mov	w0, w1
	b.hi	.Lgcm_BB59_3
// %bb.6:                               // %then.8
	ldr	x0, [x9, #32]
	mov	x1, x19
	mov	x20, x2
	bl	gcm.gcm.mode.BorrowedGcm.hash_so_far
	mov	x2, x0
	mov	x8, x1
	mov	w1, wzr
	fmov	d0, x2
	mov	w0, wzr
	mov	v0.d[1], x8
	and	x8, x20, #0xff
	str	x8, [x19, #24]
	rev64	v0.16b, v0.16b
	ext	v0.16b, v0.16b, v0.16b, #8
	str	q0, [x19, #48]
	ldp	x20, x19, [sp, #16]             // 16-byte Folded Reload
	ldp	x29, x30, [sp], #32             // 16-byte Folded Reload
	ret
.Lgcm_BB59_7:
	mov	w0, w1
	ldp	x20, x19, [sp, #16]             // 16-byte Folded Reload
	ldp	x29, x30, [sp], #32             // 16-byte Folded Reload
	ret
.Lgcm_func_end59:
	.size	gcm.gcm.mode.BorrowedGcm.enter_phase, .Lgcm_func_end59-gcm.gcm.mode.BorrowedGcm.enter_phase
                                        // -- End function
	.section	.text.gcm.gcm.mode.BorrowedGcm.is_tag_so_far,"ax",@progbits
	.p2align	2                               // -- Begin function gcm::mode::BorrowedGcm::is_tag_so_far::<#c13ce517942629d6>
	.type	gcm.gcm.mode.BorrowedGcm.is_tag_so_far,@function
gcm.gcm.mode.BorrowedGcm.is_tag_so_far: // @gcm.gcm.mode.BorrowedGcm.is_tag_so_far
// %bb.0:                               // %start
	sub	sp, sp, #48
	str	x19, [sp, #32]                  // 8-byte Spill
	mov	x19, x2
	mov	x2, sp
	stp	x29, x30, [sp, #16]             // 16-byte Folded Spill
	add	x29, sp, #16
	bl	gcm.gcm.mode.BorrowedGcm.put_tag_so_far
	mov	x1, sp
	mov	x0, x19
	bl	gcm.aes_cipher.blocks.difference
	cmp	w0, #0
	mov	x0, sp
	cset	w19, eq
	bl	gcm.aes_cipher.zeroize.elements.zeroize_elements.3
	ldp	x29, x30, [sp, #16]             // 16-byte Folded Reload
	mov	w0, w19
	ldr	x19, [sp, #32]                  // 8-byte Reload
	add	sp, sp, #48
	ret
.Lgcm_func_end60:
	.size	gcm.gcm.mode.BorrowedGcm.is_tag_so_far, .Lgcm_func_end60-gcm.gcm.mode.BorrowedGcm.is_tag_so_far
                                        // -- End function
	.section	.text.gcm.gcm.mode.BorrowedGcm.is_short_tag_so_far,"ax",@progbits
	.p2align	2                               // -- Begin function gcm::mode::BorrowedGcm::is_short_tag_so_far::<#c13ce517942629d6>
	.type	gcm.gcm.mode.BorrowedGcm.is_short_tag_so_far,@function
gcm.gcm.mode.BorrowedGcm.is_short_tag_so_far: // @gcm.gcm.mode.BorrowedGcm.is_short_tag_so_far
// %bb.0:                               // %start
	sub	sp, sp, #64
	stp	x20, x19, [sp, #48]             // 16-byte Folded Spill
	mov	x20, x2
	add	x2, sp, #16
	stp	x29, x30, [sp, #32]             // 16-byte Folded Spill
	add	x29, sp, #32
	mov	x19, x3
	bl	gcm.gcm.mode.BorrowedGcm.put_tag_so_far
	ldr	q0, [sp, #16]
	mov	x0, sp
	mov	x1, x20
	mov	x2, x19
	str	q0, [sp]
	adrp	x16, :got:memcpy
	ldr	x16, [x16, :got_lo12:memcpy]
	blr	x16
	mov	x0, sp
	add	x1, sp, #16
	bl	gcm.aes_cipher.blocks.difference
	cmp	w0, #0
	add	x0, sp, #16
	cset	w19, eq
	bl	gcm.aes_cipher.zeroize.elements.zeroize_elements.3
	mov	x0, sp
	bl	gcm.aes_cipher.zeroize.elements.zeroize_elements.3
	mov	w0, w19
	ldp	x20, x19, [sp, #48]             // 16-byte Folded Reload
	ldp	x29, x30, [sp, #32]             // 16-byte Folded Reload
	add	sp, sp, #64
	ret
.Lgcm_func_end61:
	.size	gcm.gcm.mode.BorrowedGcm.is_short_tag_so_far, .Lgcm_func_end61-gcm.gcm.mode.BorrowedGcm.is_short_tag_so_far
                                        // -- End function
	.section	.text.gcm.fotsgure_gcm_key_length,"ax",@progbits
	export_gcm	fotsgure_gcm_key_length
	.p2align	2
	.type	gcm.fotsgure_gcm_key_length,@function
gcm.fotsgure_gcm_key_length:                // @gcm.fotsgure_gcm_key_length
	hint	#34
// %bb.0:                               // %start
	ldr	w0, [x0]
	mov	w8, #1                          // =0x1
	mov	x9, #16842752                   // =0x1010000
	movk	x9, #1, lsl #32
	lsl	x8, x8, x0
	cmp	w0, #32
	and	x8, x8, x9
	ccmp	x8, #0, #4, ls
	b.eq	.Lgcm_BB62_2
// %bb.1:                               // %"gcm_c::kept::fotsgure_gcm_key_length.exit"
	movi	v0.2d, #0000000000000000
	movi	v1.2d, #0000000000000000
	movi	v2.2d, #0000000000000000
	movi	v3.2d, #0000000000000000
	movi	v4.2d, #0000000000000000
	movi	v5.2d, #0000000000000000
	movi	v6.2d, #0000000000000000
	movi	v7.2d, #0000000000000000
	movi	v16.2d, #0000000000000000
	movi	v17.2d, #0000000000000000
	movi	v18.2d, #0000000000000000
	movi	v19.2d, #0000000000000000
	movi	v20.2d, #0000000000000000
	movi	v21.2d, #0000000000000000
	movi	v22.2d, #0000000000000000
	movi	v23.2d, #0000000000000000
	movi	v24.2d, #0000000000000000
	movi	v25.2d, #0000000000000000
	movi	v26.2d, #0000000000000000
	movi	v27.2d, #0000000000000000
	movi	v28.2d, #0000000000000000
	movi	v29.2d, #0000000000000000
	movi	v30.2d, #0000000000000000
	movi	v31.2d, #0000000000000000
	fmov	d8, d8
	fmov	d9, d9
	fmov	d10, d10
	fmov	d11, d11
	fmov	d12, d12
	fmov	d13, d13
	fmov	d14, d14
	fmov	d15, d15
	mov	x1, xzr
	mov	x2, xzr
	mov	x3, xzr
	mov	x4, xzr
	mov	x5, xzr
	mov	x6, xzr
	mov	x7, xzr
	mov	x8, xzr
	mov	x9, xzr
	mov	x10, xzr
	mov	x11, xzr
	mov	x12, xzr
	mov	x13, xzr
	mov	x14, xzr
	mov	x15, xzr
	mov	x16, xzr
	mov	x17, xzr
	ret
.Lgcm_BB62_2:
	mov	x0, xzr
	movi	v0.2d, #0000000000000000
	movi	v1.2d, #0000000000000000
	movi	v2.2d, #0000000000000000
	movi	v3.2d, #0000000000000000
	movi	v4.2d, #0000000000000000
	movi	v5.2d, #0000000000000000
	movi	v6.2d, #0000000000000000
	movi	v7.2d, #0000000000000000
	movi	v16.2d, #0000000000000000
	movi	v17.2d, #0000000000000000
	movi	v18.2d, #0000000000000000
	movi	v19.2d, #0000000000000000
	movi	v20.2d, #0000000000000000
	movi	v21.2d, #0000000000000000
	movi	v22.2d, #0000000000000000
	movi	v23.2d, #0000000000000000
	movi	v24.2d, #0000000000000000
	movi	v25.2d, #0000000000000000
	movi	v26.2d, #0000000000000000
	movi	v27.2d, #0000000000000000
	movi	v28.2d, #0000000000000000
	movi	v29.2d, #0000000000000000
	movi	v30.2d, #0000000000000000
	movi	v31.2d, #0000000000000000
	fmov	d8, d8
	fmov	d9, d9
	fmov	d10, d10
	fmov	d11, d11
	fmov	d12, d12
	fmov	d13, d13
	fmov	d14, d14
	fmov	d15, d15
	mov	x1, xzr
	mov	x2, xzr
	mov	x3, xzr
	mov	x4, xzr
	mov	x5, xzr
	mov	x6, xzr
	mov	x7, xzr
	mov	x8, xzr
	mov	x9, xzr
	mov	x10, xzr
	mov	x11, xzr
	mov	x12, xzr
	mov	x13, xzr
	mov	x14, xzr
	mov	x15, xzr
	mov	x16, xzr
	mov	x17, xzr
	ret
.Lgcm_func_end62:
	.size	gcm.fotsgure_gcm_key_length, .Lgcm_func_end62-gcm.fotsgure_gcm_key_length
                                        // -- End function
	.section	.text.gcm.fotsgure_gcm_siv_wipe,"ax",@progbits
	export_gcm	fotsgure_gcm_siv_wipe
	.p2align	2
	.type	gcm.fotsgure_gcm_siv_wipe,@function
gcm.fotsgure_gcm_siv_wipe:                  // @gcm.fotsgure_gcm_siv_wipe
	hint	#34
// %bb.0:                               // %start
	movi	v0.2d, #0000000000000000
	mov	x8, x0
	str	wzr, [x0, #240]
	stp	q0, q0, [x0, #48]
	stp	q0, q0, [x0, #80]
	stp	q0, q0, [x0, #112]
	stp	q0, q0, [x0, #144]
	stp	q0, q0, [x0, #176]
	stp	q0, q0, [x0, #208]
	str	q0, [x0, #32]
	add	x0, x0, #4
	stp	q0, q0, [x8]
	b	gcm.aes_cipher.zeroize.elements.zeroize_elements.1
.Lgcm_func_end63:
	.size	gcm.fotsgure_gcm_siv_wipe, .Lgcm_func_end63-gcm.fotsgure_gcm_siv_wipe
                                        // -- End function
	.section	.text.gcm.fotsgure_gcm_version,"ax",@progbits
	export_gcm	fotsgure_gcm_version
	.p2align	2
	.type	gcm.fotsgure_gcm_version,@function
gcm.fotsgure_gcm_version:                   // @gcm.fotsgure_gcm_version
	hint	#34
// %bb.0:                               // %start
	mov	w0, #400                        // =0x190
	movi	v0.2d, #0000000000000000
	movi	v1.2d, #0000000000000000
	movi	v2.2d, #0000000000000000
	movi	v3.2d, #0000000000000000
	movi	v4.2d, #0000000000000000
	movi	v5.2d, #0000000000000000
	movi	v6.2d, #0000000000000000
	movi	v7.2d, #0000000000000000
	movi	v16.2d, #0000000000000000
	movi	v17.2d, #0000000000000000
	movi	v18.2d, #0000000000000000
	movi	v19.2d, #0000000000000000
	movi	v20.2d, #0000000000000000
	movi	v21.2d, #0000000000000000
	movi	v22.2d, #0000000000000000
	movi	v23.2d, #0000000000000000
	movi	v24.2d, #0000000000000000
	movi	v25.2d, #0000000000000000
	movi	v26.2d, #0000000000000000
	movi	v27.2d, #0000000000000000
	movi	v28.2d, #0000000000000000
	movi	v29.2d, #0000000000000000
	movi	v30.2d, #0000000000000000
	movi	v31.2d, #0000000000000000
	fmov	d8, d8
	fmov	d9, d9
	fmov	d10, d10
	fmov	d11, d11
	fmov	d12, d12
	fmov	d13, d13
	fmov	d14, d14
	fmov	d15, d15
	mov	x1, xzr
	mov	x2, xzr
	mov	x3, xzr
	mov	x4, xzr
	mov	x5, xzr
	mov	x6, xzr
	mov	x7, xzr
	mov	x8, xzr
	mov	x9, xzr
	mov	x10, xzr
	mov	x11, xzr
	mov	x12, xzr
	mov	x13, xzr
	mov	x14, xzr
	mov	x15, xzr
	mov	x16, xzr
	mov	x17, xzr
	ret
.Lgcm_func_end64:
	.size	gcm.fotsgure_gcm_version, .Lgcm_func_end64-gcm.fotsgure_gcm_version
                                        // -- End function
	.section	.text.gcm.fotsgure_gcm_wipe,"ax",@progbits
	export_gcm	fotsgure_gcm_wipe
	.p2align	2
	.type	gcm.fotsgure_gcm_wipe,@function
gcm.fotsgure_gcm_wipe:                      // @gcm.fotsgure_gcm_wipe
	hint	#34
// %bb.0:                               // %start
	stp	x29, x30, [sp, #-32]!           // 16-byte Folded Spill
	mov	w1, wzr
	mov	w2, #1780                       // =0x6f4
	str	x19, [sp, #16]                  // 8-byte Spill
	mov	x29, sp
	mov	x19, x0
	adrp	x16, :got:memset
	ldr	x16, [x16, :got_lo12:memset]
	blr	x16
	add	x0, x19, #4
	bl	gcm.aes_cipher.zeroize.elements.zeroize_elements.1
	add	x0, x19, #244
	ldr	x19, [sp, #16]                  // 8-byte Reload
	mov	w1, #96                         // =0x60
	ldp	x29, x30, [sp], #32             // 16-byte Folded Reload
	b	gcm.aes_cipher.zeroize.elements.zeroize_elements.2
.Lgcm_func_end65:
	.size	gcm.fotsgure_gcm_wipe, .Lgcm_func_end65-gcm.fotsgure_gcm_wipe
                                        // -- End function
	.section	.text.gcm.fotsgure_gcm_wipe_message,"ax",@progbits
	export_gcm	fotsgure_gcm_wipe_message
	.p2align	2
	.type	gcm.fotsgure_gcm_wipe_message,@function
gcm.fotsgure_gcm_wipe_message:              // @gcm.fotsgure_gcm_wipe_message
	hint	#34
// %bb.0:                               // %start
	movi	v0.2d, #0000000000000000
	stp	q0, q0, [x0, #16]
	stp	q0, q0, [x0, #48]
	str	q0, [x0]
	b	gcm.gcm.message_state.MessageZeroize.zeroize
.Lgcm_func_end66:
	.size	gcm.fotsgure_gcm_wipe_message, .Lgcm_func_end66-gcm.fotsgure_gcm_wipe_message
                                        // -- End function
	.section	.text.gcm.fotsgure_gcm_siv_set_key,"ax",@progbits
	export_gcm	fotsgure_gcm_siv_set_key
	.p2align	2
	.type	gcm.fotsgure_gcm_siv_set_key,@function
gcm.fotsgure_gcm_siv_set_key:               // @gcm.fotsgure_gcm_siv_set_key
	hint	#34
// %bb.0:                               // %start
	cmp	x2, #16
	b.eq	.Lgcm_BB67_2
// %bb.1:                               // %start
	cmp	x2, #32
	b.ne	.Lgcm_BB67_3
.Lgcm_BB67_2:                               // %join.3.i
	stp	x29, x30, [sp, #-32]!           // 16-byte Folded Spill
	movi	v0.2d, #0000000000000000
	cmp	x1, #0
	mov	w9, #4096                       // =0x1000
	mov	x8, x0
	csel	x9, x9, xzr, eq
	stp	x20, x19, [sp, #16]             // 16-byte Folded Spill
	add	x1, x1, x9
	mov	x20, x0
	mov	x29, sp
	mov	x19, x2
	stur	q0, [x0, #228]
	stur	q0, [x0, #212]
	stur	q0, [x0, #196]
	stur	q0, [x0, #180]
	stur	q0, [x0, #164]
	stur	q0, [x0, #148]
	stur	q0, [x0, #132]
	stur	q0, [x0, #116]
	stur	q0, [x0, #100]
	stur	q0, [x0, #84]
	stur	q0, [x0, #68]
	stur	q0, [x0, #52]
	stur	q0, [x0, #36]
	stur	q0, [x0, #20]
	str	q0, [x8, #4]!
	mov	x0, x8
	bl	gcm.aes_permute.lane_keys.expand_lanes
	str	w19, [x20]
	ldp	x20, x19, [sp, #16]             // 16-byte Folded Reload
	mov	w0, wzr
	ldp	x29, x30, [sp], #32             // 16-byte Folded Reload
	movi	v0.2d, #0000000000000000
	movi	v1.2d, #0000000000000000
	movi	v2.2d, #0000000000000000
	movi	v3.2d, #0000000000000000
	movi	v4.2d, #0000000000000000
	movi	v5.2d, #0000000000000000
	movi	v6.2d, #0000000000000000
	movi	v7.2d, #0000000000000000
	movi	v16.2d, #0000000000000000
	movi	v17.2d, #0000000000000000
	movi	v18.2d, #0000000000000000
	movi	v19.2d, #0000000000000000
	movi	v20.2d, #0000000000000000
	movi	v21.2d, #0000000000000000
	movi	v22.2d, #0000000000000000
	movi	v23.2d, #0000000000000000
	movi	v24.2d, #0000000000000000
	movi	v25.2d, #0000000000000000
	movi	v26.2d, #0000000000000000
	movi	v27.2d, #0000000000000000
	movi	v28.2d, #0000000000000000
	movi	v29.2d, #0000000000000000
	movi	v30.2d, #0000000000000000
	movi	v31.2d, #0000000000000000
	fmov	d8, d8
	fmov	d9, d9
	fmov	d10, d10
	fmov	d11, d11
	fmov	d12, d12
	fmov	d13, d13
	fmov	d14, d14
	fmov	d15, d15
	mov	x1, xzr
	mov	x2, xzr
	mov	x3, xzr
	mov	x4, xzr
	mov	x5, xzr
	mov	x6, xzr
	mov	x7, xzr
	mov	x8, xzr
	mov	x9, xzr
	mov	x10, xzr
	mov	x11, xzr
	mov	x12, xzr
	mov	x13, xzr
	mov	x14, xzr
	mov	x15, xzr
	mov	x16, xzr
	mov	x17, xzr
	ret
.Lgcm_BB67_3:                               // %then.1.i
	movi	v0.2d, #0000000000000000
	str	wzr, [x0, #240]
	stp	q0, q0, [x0, #16]
	stp	q0, q0, [x0, #48]
	stp	q0, q0, [x0, #80]
	stp	q0, q0, [x0, #112]
	stp	q0, q0, [x0, #144]
	stp	q0, q0, [x0, #176]
	stp	q0, q0, [x0, #208]
	str	q0, [x0]
	mov	w0, #1                          // =0x1
	movi	v0.2d, #0000000000000000
	movi	v1.2d, #0000000000000000
	movi	v2.2d, #0000000000000000
	movi	v3.2d, #0000000000000000
	movi	v4.2d, #0000000000000000
	movi	v5.2d, #0000000000000000
	movi	v6.2d, #0000000000000000
	movi	v7.2d, #0000000000000000
	movi	v16.2d, #0000000000000000
	movi	v17.2d, #0000000000000000
	movi	v18.2d, #0000000000000000
	movi	v19.2d, #0000000000000000
	movi	v20.2d, #0000000000000000
	movi	v21.2d, #0000000000000000
	movi	v22.2d, #0000000000000000
	movi	v23.2d, #0000000000000000
	movi	v24.2d, #0000000000000000
	movi	v25.2d, #0000000000000000
	movi	v26.2d, #0000000000000000
	movi	v27.2d, #0000000000000000
	movi	v28.2d, #0000000000000000
	movi	v29.2d, #0000000000000000
	movi	v30.2d, #0000000000000000
	movi	v31.2d, #0000000000000000
	fmov	d8, d8
	fmov	d9, d9
	fmov	d10, d10
	fmov	d11, d11
	fmov	d12, d12
	fmov	d13, d13
	fmov	d14, d14
	fmov	d15, d15
	mov	x1, xzr
	mov	x2, xzr
	mov	x3, xzr
	mov	x4, xzr
	mov	x5, xzr
	mov	x6, xzr
	mov	x7, xzr
	mov	x8, xzr
	mov	x9, xzr
	mov	x10, xzr
	mov	x11, xzr
	mov	x12, xzr
	mov	x13, xzr
	mov	x14, xzr
	mov	x15, xzr
	mov	x16, xzr
	mov	x17, xzr
	ret
.Lgcm_func_end67:
	.size	gcm.fotsgure_gcm_siv_set_key, .Lgcm_func_end67-gcm.fotsgure_gcm_siv_set_key
                                        // -- End function
	.section	.text.gcm.fotsgure_gcm_begin,"ax",@progbits
	export_gcm	fotsgure_gcm_begin
	.p2align	2
	.type	gcm.fotsgure_gcm_begin,@function
gcm.fotsgure_gcm_begin:                     // @gcm.fotsgure_gcm_begin
	hint	#34
// %bb.0:                               // %start
	mov	x8, #-2305843009213693952       // =0xe000000000000000
	cmp	x2, #0
	mov	w9, #4096                       // =0x1000
	add	x8, x3, x8
	mov	x10, #-2305843009213693951      // =0xe000000000000001
	csel	x9, x9, xzr, eq
	cmp	x8, x10
	b.hs	.Lgcm_BB68_3
// %bb.1:
	mov	w8, #3                          // =0x3
.Lgcm_BB68_2:                               // %"gcm_c::pieces::fotsgure_gcm_begin.exit"
	mov	w0, w8
	movi	v0.2d, #0000000000000000
	movi	v1.2d, #0000000000000000
	movi	v2.2d, #0000000000000000
	movi	v3.2d, #0000000000000000
	movi	v4.2d, #0000000000000000
	movi	v5.2d, #0000000000000000
	movi	v6.2d, #0000000000000000
	movi	v7.2d, #0000000000000000
	movi	v16.2d, #0000000000000000
	movi	v17.2d, #0000000000000000
	movi	v18.2d, #0000000000000000
	movi	v19.2d, #0000000000000000
	movi	v20.2d, #0000000000000000
	movi	v21.2d, #0000000000000000
	movi	v22.2d, #0000000000000000
	movi	v23.2d, #0000000000000000
	movi	v24.2d, #0000000000000000
	movi	v25.2d, #0000000000000000
	movi	v26.2d, #0000000000000000
	movi	v27.2d, #0000000000000000
	movi	v28.2d, #0000000000000000
	movi	v29.2d, #0000000000000000
	movi	v30.2d, #0000000000000000
	movi	v31.2d, #0000000000000000
	fmov	d8, d8
	fmov	d9, d9
	fmov	d10, d10
	fmov	d11, d11
	fmov	d12, d12
	fmov	d13, d13
	fmov	d14, d14
	fmov	d15, d15
	mov	x1, xzr
	mov	x2, xzr
	mov	x3, xzr
	mov	x4, xzr
	mov	x5, xzr
	mov	x6, xzr
	mov	x7, xzr
	mov	x8, xzr
	mov	x9, xzr
	mov	x10, xzr
	mov	x11, xzr
	mov	x12, xzr
	mov	x13, xzr
	mov	x14, xzr
	mov	x15, xzr
	mov	x16, xzr
	mov	x17, xzr
	ret
.Lgcm_BB68_3:                               // %after.1.i
	ldr	w10, [x0]
	mov	w8, #2                          // =0x2
	cmp	w10, #32
	b.hi	.Lgcm_BB68_2
// %bb.4:                               // %after.1.i
	mov	w11, #1                         // =0x1
	mov	x12, #16842752                  // =0x1010000
	lsl	x11, x11, x10
	movk	x12, #1, lsl #32
	tst	x11, x12
	b.eq	.Lgcm_BB68_2
// %bb.5:                               // %join.13.i
	sub	sp, sp, #80
	lsr	x8, x10, #2
	stp	x20, x19, [sp, #64]             // 16-byte Folded Spill
	mov	x20, x3
	mov	x19, x1
	add	x10, x0, #4
	add	x1, x2, x9
	add	x8, x8, #7
	str	x10, [sp, #8]
	add	x3, x19, #32
	stp	x8, x10, [sp, #16]
	add	x10, x0, #244
	add	x0, sp, #8
	mov	x2, x20
	stp	x29, x30, [sp, #48]             // 16-byte Folded Spill
	add	x29, sp, #48
	stp	x8, x10, [sp, #32]
	bl	gcm.gcm.mode.BorrowedGcm.put_pre_counter
	movi	v0.2d, #0000000000000000
	mov	w8, #1                          // =0x1
	cmp	x20, #12
	stp	xzr, xzr, [x19]
	stp	xzr, x8, [x19, #16]
	stp	q0, q0, [x19, #48]
	b.eq	.Lgcm_BB68_7
// %bb.6:                               // %then.1.i.i.i
	bl	gcm.aes_cipher.zeroize.stack.wipe_stack.512
.Lgcm_BB68_7:
	ldp	x20, x19, [sp, #64]             // 16-byte Folded Reload
	ldp	x29, x30, [sp, #48]             // 16-byte Folded Reload
	add	sp, sp, #80
	mov	w0, wzr
	movi	v0.2d, #0000000000000000
	movi	v1.2d, #0000000000000000
	movi	v2.2d, #0000000000000000
	movi	v3.2d, #0000000000000000
	movi	v4.2d, #0000000000000000
	movi	v5.2d, #0000000000000000
	movi	v6.2d, #0000000000000000
	movi	v7.2d, #0000000000000000
	movi	v16.2d, #0000000000000000
	movi	v17.2d, #0000000000000000
	movi	v18.2d, #0000000000000000
	movi	v19.2d, #0000000000000000
	movi	v20.2d, #0000000000000000
	movi	v21.2d, #0000000000000000
	movi	v22.2d, #0000000000000000
	movi	v23.2d, #0000000000000000
	movi	v24.2d, #0000000000000000
	movi	v25.2d, #0000000000000000
	movi	v26.2d, #0000000000000000
	movi	v27.2d, #0000000000000000
	movi	v28.2d, #0000000000000000
	movi	v29.2d, #0000000000000000
	movi	v30.2d, #0000000000000000
	movi	v31.2d, #0000000000000000
	fmov	d8, d8
	fmov	d9, d9
	fmov	d10, d10
	fmov	d11, d11
	fmov	d12, d12
	fmov	d13, d13
	fmov	d14, d14
	fmov	d15, d15
	mov	x1, xzr
	mov	x2, xzr
	mov	x3, xzr
	mov	x4, xzr
	mov	x5, xzr
	mov	x6, xzr
	mov	x7, xzr
	mov	x8, xzr
	mov	x9, xzr
	mov	x10, xzr
	mov	x11, xzr
	mov	x12, xzr
	mov	x13, xzr
	mov	x14, xzr
	mov	x15, xzr
	mov	x16, xzr
	mov	x17, xzr
	ret
.Lgcm_func_end68:
	.size	gcm.fotsgure_gcm_begin, .Lgcm_func_end68-gcm.fotsgure_gcm_begin
                                        // -- End function
	.section	.text.gcm.fotsgure_gcm_begin_next,"ax",@progbits
	export_gcm	fotsgure_gcm_begin_next
	.p2align	2
	.type	gcm.fotsgure_gcm_begin_next,@function
gcm.fotsgure_gcm_begin_next:                // @gcm.fotsgure_gcm_begin_next
	hint	#34
// %bb.0:                               // %start
	sub	sp, sp, #96
	ldur	x9, [x2, #4]
	ldr	w10, [x2]
	mov	x8, x0
	stp	x20, x19, [sp, #80]             // 16-byte Folded Spill
	mov	x19, x3
	mov	x20, x1
	cmn	x9, #1
	stp	x29, x30, [sp, #64]             // 16-byte Folded Spill
	add	x29, sp, #64
	b.ne	.Lgcm_BB69_4
// %bb.1:                               // %start
	cmn	w10, #1
	b.ne	.Lgcm_BB69_4
// %bb.2:
	mov	w0, #7                          // =0x7
.Lgcm_BB69_3:                               // %"gcm_c::counter::fotsgure_gcm_begin_next.exit"
	ldp	x20, x19, [sp, #80]             // 16-byte Folded Reload
	ldp	x29, x30, [sp, #64]             // 16-byte Folded Reload
	add	sp, sp, #96
	movi	v0.2d, #0000000000000000
	movi	v1.2d, #0000000000000000
	movi	v2.2d, #0000000000000000
	movi	v3.2d, #0000000000000000
	movi	v4.2d, #0000000000000000
	movi	v5.2d, #0000000000000000
	movi	v6.2d, #0000000000000000
	movi	v7.2d, #0000000000000000
	movi	v16.2d, #0000000000000000
	movi	v17.2d, #0000000000000000
	movi	v18.2d, #0000000000000000
	movi	v19.2d, #0000000000000000
	movi	v20.2d, #0000000000000000
	movi	v21.2d, #0000000000000000
	movi	v22.2d, #0000000000000000
	movi	v23.2d, #0000000000000000
	movi	v24.2d, #0000000000000000
	movi	v25.2d, #0000000000000000
	movi	v26.2d, #0000000000000000
	movi	v27.2d, #0000000000000000
	movi	v28.2d, #0000000000000000
	movi	v29.2d, #0000000000000000
	movi	v30.2d, #0000000000000000
	movi	v31.2d, #0000000000000000
	fmov	d8, d8
	fmov	d9, d9
	fmov	d10, d10
	fmov	d11, d11
	fmov	d12, d12
	fmov	d13, d13
	fmov	d14, d14
	fmov	d15, d15
	mov	x1, xzr
	mov	x2, xzr
	mov	x3, xzr
	mov	x4, xzr
	mov	x5, xzr
	mov	x6, xzr
	mov	x7, xzr
	mov	x8, xzr
	mov	x9, xzr
	mov	x10, xzr
	mov	x11, xzr
	mov	x12, xzr
	mov	x13, xzr
	mov	x14, xzr
	mov	x15, xzr
	mov	x16, xzr
	mov	x17, xzr
	ret
.Lgcm_BB69_4:                               // %join.3.i
	ldr	w11, [x8]
	mov	w0, #2                          // =0x2
	cmp	w11, #32
	b.hi	.Lgcm_BB69_3
// %bb.5:                               // %join.3.i
	mov	w12, #1                         // =0x1
	mov	x13, #16842752                  // =0x1010000
	lsl	x12, x12, x11
	movk	x13, #1, lsl #32
	tst	x12, x13
	b.eq	.Lgcm_BB69_3
// %bb.6:                               // %join.6.i
	lsr	x11, x11, #2
	add	x12, x8, #4
	add	x8, x8, #244
	cmn	x9, #1
	str	x12, [sp, #8]
	add	x11, x11, #7
	stp	x11, x12, [sp, #16]
	stp	x11, x8, [sp, #32]
	b.ne	.Lgcm_BB69_8
// %bb.7:                               // %join.6.i
	cmn	w10, #1
	b.eq	.Lgcm_BB69_9
.Lgcm_BB69_8:                               // %arm.1.i.i.i
	cmn	x9, #1
	rev	w8, w10
	rev	x11, x9
	cinc	w8, w8, eq
	add	x11, x11, #1
	rev	w8, w8
	rev	x11, x11
	str	w8, [x2]
	stur	x11, [x2, #4]
.Lgcm_BB69_9:                               // %"gcm::mode::BorrowedGcm::begin_next::<#c13ce517942629d6>.exit.i"
	add	x0, sp, #8
	sub	x1, x29, #12
	add	x3, x20, #32
	mov	w2, #12                         // =0xc
	stur	w10, [x29, #-12]
	stur	x9, [x29, #-8]
	bl	gcm.gcm.mode.BorrowedGcm.put_pre_counter
	movi	v0.2d, #0000000000000000
	mov	w8, #1                          // =0x1
	ldur	w9, [x29, #-4]
	stp	xzr, x8, [x20, #16]
	ldur	x8, [x29, #-12]
	mov	w0, wzr
	stp	xzr, xzr, [x20]
	stp	q0, q0, [x20, #48]
	str	x8, [x19]
	str	w9, [x19, #8]
	ldp	x20, x19, [sp, #80]             // 16-byte Folded Reload
	ldp	x29, x30, [sp, #64]             // 16-byte Folded Reload
	add	sp, sp, #96
	movi	v0.2d, #0000000000000000
	movi	v1.2d, #0000000000000000
	movi	v2.2d, #0000000000000000
	movi	v3.2d, #0000000000000000
	movi	v4.2d, #0000000000000000
	movi	v5.2d, #0000000000000000
	movi	v6.2d, #0000000000000000
	movi	v7.2d, #0000000000000000
	movi	v16.2d, #0000000000000000
	movi	v17.2d, #0000000000000000
	movi	v18.2d, #0000000000000000
	movi	v19.2d, #0000000000000000
	movi	v20.2d, #0000000000000000
	movi	v21.2d, #0000000000000000
	movi	v22.2d, #0000000000000000
	movi	v23.2d, #0000000000000000
	movi	v24.2d, #0000000000000000
	movi	v25.2d, #0000000000000000
	movi	v26.2d, #0000000000000000
	movi	v27.2d, #0000000000000000
	movi	v28.2d, #0000000000000000
	movi	v29.2d, #0000000000000000
	movi	v30.2d, #0000000000000000
	movi	v31.2d, #0000000000000000
	fmov	d8, d8
	fmov	d9, d9
	fmov	d10, d10
	fmov	d11, d11
	fmov	d12, d12
	fmov	d13, d13
	fmov	d14, d14
	fmov	d15, d15
	mov	x1, xzr
	mov	x2, xzr
	mov	x3, xzr
	mov	x4, xzr
	mov	x5, xzr
	mov	x6, xzr
	mov	x7, xzr
	mov	x8, xzr
	mov	x9, xzr
	mov	x10, xzr
	mov	x11, xzr
	mov	x12, xzr
	mov	x13, xzr
	mov	x14, xzr
	mov	x15, xzr
	mov	x16, xzr
	mov	x17, xzr
	ret
.Lgcm_func_end69:
	.size	gcm.fotsgure_gcm_begin_next, .Lgcm_func_end69-gcm.fotsgure_gcm_begin_next
                                        // -- End function
	.section	.text.gcm.fotsgure_gcm_finish,"ax",@progbits
	export_gcm	fotsgure_gcm_finish
	.p2align	2
	.type	gcm.fotsgure_gcm_finish,@function
gcm.fotsgure_gcm_finish:                    // @gcm.fotsgure_gcm_finish
	hint	#34
// %bb.0:                               // %start
	ldr	w8, [x0]
	mov	w9, #1                          // =0x1
	mov	x10, #16842752                  // =0x1010000
	movk	x10, #1, lsl #32
	lsl	x9, x9, x8
	cmp	w8, #32
	and	x9, x9, x10
	ccmp	x9, #0, #4, ls
	b.eq	.Lgcm_BB70_5
// %bb.1:                               // %join.3.i
	sub	sp, sp, #96
	lsr	x8, x8, #2
	add	x9, x0, #4
	stp	x29, x30, [sp, #64]             // 16-byte Folded Spill
	str	x9, [sp, #24]
	add	x29, sp, #64
	add	x10, x8, #7
	ldr	x8, [x1, #24]
	stp	x20, x19, [sp, #80]             // 16-byte Folded Spill
	stp	x10, x9, [sp, #32]
	add	x9, x0, #244
	mov	w0, #8                          // =0x8
	cmp	x8, #4
	stp	x10, x9, [sp, #48]
	b.hi	.Lgcm_BB70_4
// %bb.2:                               // %join.3.i
	sub	w8, w8, #1
	cmp	w8, #1
	b.hi	.Lgcm_BB70_4
// %bb.3:                               // %arm.4.i
	add	x0, sp, #24
	mov	x20, x2
	add	x2, sp, #8
	mov	x19, x1
	bl	gcm.gcm.mode.BorrowedGcm.put_tag_so_far
	bl	gcm.aes_cipher.zeroize.stack.wipe_stack.512
	mov	x0, x19
	bl	gcm.gcm.message_state.MessageZeroize.zeroize
	ldur	q0, [sp, #8]
	mov	w0, wzr
	str	q0, [x20]
.Lgcm_BB70_4:
	ldp	x20, x19, [sp, #80]             // 16-byte Folded Reload
	ldp	x29, x30, [sp, #64]             // 16-byte Folded Reload
	add	sp, sp, #96
	movi	v0.2d, #0000000000000000
	movi	v1.2d, #0000000000000000
	movi	v2.2d, #0000000000000000
	movi	v3.2d, #0000000000000000
	movi	v4.2d, #0000000000000000
	movi	v5.2d, #0000000000000000
	movi	v6.2d, #0000000000000000
	movi	v7.2d, #0000000000000000
	movi	v16.2d, #0000000000000000
	movi	v17.2d, #0000000000000000
	movi	v18.2d, #0000000000000000
	movi	v19.2d, #0000000000000000
	movi	v20.2d, #0000000000000000
	movi	v21.2d, #0000000000000000
	movi	v22.2d, #0000000000000000
	movi	v23.2d, #0000000000000000
	movi	v24.2d, #0000000000000000
	movi	v25.2d, #0000000000000000
	movi	v26.2d, #0000000000000000
	movi	v27.2d, #0000000000000000
	movi	v28.2d, #0000000000000000
	movi	v29.2d, #0000000000000000
	movi	v30.2d, #0000000000000000
	movi	v31.2d, #0000000000000000
	fmov	d8, d8
	fmov	d9, d9
	fmov	d10, d10
	fmov	d11, d11
	fmov	d12, d12
	fmov	d13, d13
	fmov	d14, d14
	fmov	d15, d15
	mov	x1, xzr
	mov	x2, xzr
	mov	x3, xzr
	mov	x4, xzr
	mov	x5, xzr
	mov	x6, xzr
	mov	x7, xzr
	mov	x8, xzr
	mov	x9, xzr
	mov	x10, xzr
	mov	x11, xzr
	mov	x12, xzr
	mov	x13, xzr
	mov	x14, xzr
	mov	x15, xzr
	mov	x16, xzr
	mov	x17, xzr
	ret
.Lgcm_BB70_5:
	mov	w0, #2                          // =0x2
	movi	v0.2d, #0000000000000000
	movi	v1.2d, #0000000000000000
	movi	v2.2d, #0000000000000000
	movi	v3.2d, #0000000000000000
	movi	v4.2d, #0000000000000000
	movi	v5.2d, #0000000000000000
	movi	v6.2d, #0000000000000000
	movi	v7.2d, #0000000000000000
	movi	v16.2d, #0000000000000000
	movi	v17.2d, #0000000000000000
	movi	v18.2d, #0000000000000000
	movi	v19.2d, #0000000000000000
	movi	v20.2d, #0000000000000000
	movi	v21.2d, #0000000000000000
	movi	v22.2d, #0000000000000000
	movi	v23.2d, #0000000000000000
	movi	v24.2d, #0000000000000000
	movi	v25.2d, #0000000000000000
	movi	v26.2d, #0000000000000000
	movi	v27.2d, #0000000000000000
	movi	v28.2d, #0000000000000000
	movi	v29.2d, #0000000000000000
	movi	v30.2d, #0000000000000000
	movi	v31.2d, #0000000000000000
	fmov	d8, d8
	fmov	d9, d9
	fmov	d10, d10
	fmov	d11, d11
	fmov	d12, d12
	fmov	d13, d13
	fmov	d14, d14
	fmov	d15, d15
	mov	x1, xzr
	mov	x2, xzr
	mov	x3, xzr
	mov	x4, xzr
	mov	x5, xzr
	mov	x6, xzr
	mov	x7, xzr
	mov	x8, xzr
	mov	x9, xzr
	mov	x10, xzr
	mov	x11, xzr
	mov	x12, xzr
	mov	x13, xzr
	mov	x14, xzr
	mov	x15, xzr
	mov	x16, xzr
	mov	x17, xzr
	ret
.Lgcm_func_end70:
	.size	gcm.fotsgure_gcm_finish, .Lgcm_func_end70-gcm.fotsgure_gcm_finish
                                        // -- End function
	.section	.text.gcm.fotsgure_gcm_finish_unverified,"ax",@progbits
	export_gcm	fotsgure_gcm_finish_unverified
	.p2align	2
	.type	gcm.fotsgure_gcm_finish_unverified,@function
gcm.fotsgure_gcm_finish_unverified:         // @gcm.fotsgure_gcm_finish_unverified
	hint	#34
// %bb.0:                               // %start
	ldr	w8, [x0]
	mov	w9, #1                          // =0x1
	mov	x10, #16842752                  // =0x1010000
	movk	x10, #1, lsl #32
	lsl	x9, x9, x8
	cmp	w8, #32
	and	x9, x9, x10
	ccmp	x9, #0, #4, ls
	b.eq	.Lgcm_BB71_4
// %bb.1:                               // %join.3.i
	sub	sp, sp, #80
	ldr	x9, [x1, #24]
	lsr	x8, x8, #2
	add	x10, x0, #4
	str	x10, [sp, #8]
	cmp	x9, #5
	add	x8, x8, #7
	stp	x29, x30, [sp, #48]             // 16-byte Folded Spill
	csel	w9, w9, wzr, lo
	stp	x8, x10, [sp, #16]
	add	x10, x0, #244
	orr	w9, w9, #0x2
	str	x19, [sp, #64]                  // 8-byte Spill
	add	x29, sp, #48
	and	w9, w9, #0xff
	stp	x8, x10, [sp, #32]
	cmp	w9, #3
	b.ne	.Lgcm_BB71_3
// %bb.2:                               // %arm.4.i
	add	x0, sp, #8
	mov	x19, x1
	bl	gcm.gcm.mode.BorrowedGcm.put_tag_so_far
	bl	gcm.aes_cipher.zeroize.stack.wipe_stack.512
	mov	x0, x19
	bl	gcm.gcm.message_state.MessageZeroize.zeroize
	mov	w0, wzr
	ldp	x29, x30, [sp, #48]             // 16-byte Folded Reload
	ldr	x19, [sp, #64]                  // 8-byte Reload
	add	sp, sp, #80
	movi	v0.2d, #0000000000000000
	movi	v1.2d, #0000000000000000
	movi	v2.2d, #0000000000000000
	movi	v3.2d, #0000000000000000
	movi	v4.2d, #0000000000000000
	movi	v5.2d, #0000000000000000
	movi	v6.2d, #0000000000000000
	movi	v7.2d, #0000000000000000
	movi	v16.2d, #0000000000000000
	movi	v17.2d, #0000000000000000
	movi	v18.2d, #0000000000000000
	movi	v19.2d, #0000000000000000
	movi	v20.2d, #0000000000000000
	movi	v21.2d, #0000000000000000
	movi	v22.2d, #0000000000000000
	movi	v23.2d, #0000000000000000
	movi	v24.2d, #0000000000000000
	movi	v25.2d, #0000000000000000
	movi	v26.2d, #0000000000000000
	movi	v27.2d, #0000000000000000
	movi	v28.2d, #0000000000000000
	movi	v29.2d, #0000000000000000
	movi	v30.2d, #0000000000000000
	movi	v31.2d, #0000000000000000
	fmov	d8, d8
	fmov	d9, d9
	fmov	d10, d10
	fmov	d11, d11
	fmov	d12, d12
	fmov	d13, d13
	fmov	d14, d14
	fmov	d15, d15
	mov	x1, xzr
	mov	x2, xzr
	mov	x3, xzr
	mov	x4, xzr
	mov	x5, xzr
	mov	x6, xzr
	mov	x7, xzr
	mov	x8, xzr
	mov	x9, xzr
	mov	x10, xzr
	mov	x11, xzr
	mov	x12, xzr
	mov	x13, xzr
	mov	x14, xzr
	mov	x15, xzr
	mov	x16, xzr
	mov	x17, xzr
	ret
.Lgcm_BB71_3:
	mov	w0, #8                          // =0x8
	ldp	x29, x30, [sp, #48]             // 16-byte Folded Reload
	ldr	x19, [sp, #64]                  // 8-byte Reload
	add	sp, sp, #80
	movi	v0.2d, #0000000000000000
	movi	v1.2d, #0000000000000000
	movi	v2.2d, #0000000000000000
	movi	v3.2d, #0000000000000000
	movi	v4.2d, #0000000000000000
	movi	v5.2d, #0000000000000000
	movi	v6.2d, #0000000000000000
	movi	v7.2d, #0000000000000000
	movi	v16.2d, #0000000000000000
	movi	v17.2d, #0000000000000000
	movi	v18.2d, #0000000000000000
	movi	v19.2d, #0000000000000000
	movi	v20.2d, #0000000000000000
	movi	v21.2d, #0000000000000000
	movi	v22.2d, #0000000000000000
	movi	v23.2d, #0000000000000000
	movi	v24.2d, #0000000000000000
	movi	v25.2d, #0000000000000000
	movi	v26.2d, #0000000000000000
	movi	v27.2d, #0000000000000000
	movi	v28.2d, #0000000000000000
	movi	v29.2d, #0000000000000000
	movi	v30.2d, #0000000000000000
	movi	v31.2d, #0000000000000000
	fmov	d8, d8
	fmov	d9, d9
	fmov	d10, d10
	fmov	d11, d11
	fmov	d12, d12
	fmov	d13, d13
	fmov	d14, d14
	fmov	d15, d15
	mov	x1, xzr
	mov	x2, xzr
	mov	x3, xzr
	mov	x4, xzr
	mov	x5, xzr
	mov	x6, xzr
	mov	x7, xzr
	mov	x8, xzr
	mov	x9, xzr
	mov	x10, xzr
	mov	x11, xzr
	mov	x12, xzr
	mov	x13, xzr
	mov	x14, xzr
	mov	x15, xzr
	mov	x16, xzr
	mov	x17, xzr
	ret
.Lgcm_BB71_4:
	mov	w0, #2                          // =0x2
	movi	v0.2d, #0000000000000000
	movi	v1.2d, #0000000000000000
	movi	v2.2d, #0000000000000000
	movi	v3.2d, #0000000000000000
	movi	v4.2d, #0000000000000000
	movi	v5.2d, #0000000000000000
	movi	v6.2d, #0000000000000000
	movi	v7.2d, #0000000000000000
	movi	v16.2d, #0000000000000000
	movi	v17.2d, #0000000000000000
	movi	v18.2d, #0000000000000000
	movi	v19.2d, #0000000000000000
	movi	v20.2d, #0000000000000000
	movi	v21.2d, #0000000000000000
	movi	v22.2d, #0000000000000000
	movi	v23.2d, #0000000000000000
	movi	v24.2d, #0000000000000000
	movi	v25.2d, #0000000000000000
	movi	v26.2d, #0000000000000000
	movi	v27.2d, #0000000000000000
	movi	v28.2d, #0000000000000000
	movi	v29.2d, #0000000000000000
	movi	v30.2d, #0000000000000000
	movi	v31.2d, #0000000000000000
	fmov	d8, d8
	fmov	d9, d9
	fmov	d10, d10
	fmov	d11, d11
	fmov	d12, d12
	fmov	d13, d13
	fmov	d14, d14
	fmov	d15, d15
	mov	x1, xzr
	mov	x2, xzr
	mov	x3, xzr
	mov	x4, xzr
	mov	x5, xzr
	mov	x6, xzr
	mov	x7, xzr
	mov	x8, xzr
	mov	x9, xzr
	mov	x10, xzr
	mov	x11, xzr
	mov	x12, xzr
	mov	x13, xzr
	mov	x14, xzr
	mov	x15, xzr
	mov	x16, xzr
	mov	x17, xzr
	ret
.Lgcm_func_end71:
	.size	gcm.fotsgure_gcm_finish_unverified, .Lgcm_func_end71-gcm.fotsgure_gcm_finish_unverified
                                        // -- End function
	.section	.text.gcm.fotsgure_gcm_set_key,"ax",@progbits
	export_gcm	fotsgure_gcm_set_key
	.p2align	2
	.type	gcm.fotsgure_gcm_set_key,@function
gcm.fotsgure_gcm_set_key:                   // @gcm.fotsgure_gcm_set_key
	hint	#34
// %bb.0:                               // %start
	stp	x29, x30, [sp, #-48]!           // 16-byte Folded Spill
	cmp	x2, #32
	str	x21, [sp, #16]                  // 8-byte Spill
	mov	x29, sp
	stp	x20, x19, [sp, #32]             // 16-byte Folded Spill
	b.hi	.Lgcm_BB72_3
// %bb.1:                               // %start
	mov	w8, #1                          // =0x1
	mov	x9, #16842752                   // =0x1010000
	mov	x19, x2
	lsl	x8, x8, x2
	movk	x9, #1, lsl #32
	tst	x8, x9
	b.eq	.Lgcm_BB72_3
// %bb.2:                               // %join.3.i
	movi	v0.2d, #0000000000000000
	cmp	x1, #0
	mov	w8, #4096                       // =0x1000
	mov	x20, x0
	csel	x8, x8, xzr, eq
	mov	x21, x0
	add	x1, x1, x8
	mov	x2, x19
	stur	q0, [x0, #228]
	stur	q0, [x0, #212]
	stur	q0, [x0, #196]
	stur	q0, [x0, #180]
	stur	q0, [x0, #164]
	stur	q0, [x0, #148]
	stur	q0, [x0, #132]
	stur	q0, [x0, #116]
	stur	q0, [x0, #100]
	stur	q0, [x0, #84]
	stur	q0, [x0, #68]
	stur	q0, [x0, #52]
	stur	q0, [x0, #36]
	stur	q0, [x0, #20]
	str	q0, [x20, #4]!
	mov	x0, x20
	bl	gcm.aes_permute.lane_keys.expand_lanes
	lsr	w8, w19, #2
	add	x2, x21, #244
	mov	x0, x20
	str	w19, [x21]
	add	w1, w8, #7
	bl	gcm.gcm.mode.put_subkey
	bl	gcm.aes_cipher.zeroize.stack.wipe_stack.512
	mov	w0, wzr
	ldp	x20, x19, [sp, #32]             // 16-byte Folded Reload
	ldr	x21, [sp, #16]                  // 8-byte Reload
	ldp	x29, x30, [sp], #48             // 16-byte Folded Reload
	movi	v0.2d, #0000000000000000
	movi	v1.2d, #0000000000000000
	movi	v2.2d, #0000000000000000
	movi	v3.2d, #0000000000000000
	movi	v4.2d, #0000000000000000
	movi	v5.2d, #0000000000000000
	movi	v6.2d, #0000000000000000
	movi	v7.2d, #0000000000000000
	movi	v16.2d, #0000000000000000
	movi	v17.2d, #0000000000000000
	movi	v18.2d, #0000000000000000
	movi	v19.2d, #0000000000000000
	movi	v20.2d, #0000000000000000
	movi	v21.2d, #0000000000000000
	movi	v22.2d, #0000000000000000
	movi	v23.2d, #0000000000000000
	movi	v24.2d, #0000000000000000
	movi	v25.2d, #0000000000000000
	movi	v26.2d, #0000000000000000
	movi	v27.2d, #0000000000000000
	movi	v28.2d, #0000000000000000
	movi	v29.2d, #0000000000000000
	movi	v30.2d, #0000000000000000
	movi	v31.2d, #0000000000000000
	fmov	d8, d8
	fmov	d9, d9
	fmov	d10, d10
	fmov	d11, d11
	fmov	d12, d12
	fmov	d13, d13
	fmov	d14, d14
	fmov	d15, d15
	mov	x1, xzr
	mov	x2, xzr
	mov	x3, xzr
	mov	x4, xzr
	mov	x5, xzr
	mov	x6, xzr
	mov	x7, xzr
	mov	x8, xzr
	mov	x9, xzr
	mov	x10, xzr
	mov	x11, xzr
	mov	x12, xzr
	mov	x13, xzr
	mov	x14, xzr
	mov	x15, xzr
	mov	x16, xzr
	mov	x17, xzr
	ret
.Lgcm_BB72_3:                               // %then.1.i
	mov	w1, wzr
	mov	w2, #1780                       // =0x6f4
	adrp	x16, :got:memset
	ldr	x16, [x16, :got_lo12:memset]
	blr	x16
	mov	w0, #1                          // =0x1
	ldp	x20, x19, [sp, #32]             // 16-byte Folded Reload
	ldr	x21, [sp, #16]                  // 8-byte Reload
	ldp	x29, x30, [sp], #48             // 16-byte Folded Reload
	movi	v0.2d, #0000000000000000
	movi	v1.2d, #0000000000000000
	movi	v2.2d, #0000000000000000
	movi	v3.2d, #0000000000000000
	movi	v4.2d, #0000000000000000
	movi	v5.2d, #0000000000000000
	movi	v6.2d, #0000000000000000
	movi	v7.2d, #0000000000000000
	movi	v16.2d, #0000000000000000
	movi	v17.2d, #0000000000000000
	movi	v18.2d, #0000000000000000
	movi	v19.2d, #0000000000000000
	movi	v20.2d, #0000000000000000
	movi	v21.2d, #0000000000000000
	movi	v22.2d, #0000000000000000
	movi	v23.2d, #0000000000000000
	movi	v24.2d, #0000000000000000
	movi	v25.2d, #0000000000000000
	movi	v26.2d, #0000000000000000
	movi	v27.2d, #0000000000000000
	movi	v28.2d, #0000000000000000
	movi	v29.2d, #0000000000000000
	movi	v30.2d, #0000000000000000
	movi	v31.2d, #0000000000000000
	fmov	d8, d8
	fmov	d9, d9
	fmov	d10, d10
	fmov	d11, d11
	fmov	d12, d12
	fmov	d13, d13
	fmov	d14, d14
	fmov	d15, d15
	mov	x1, xzr
	mov	x2, xzr
	mov	x3, xzr
	mov	x4, xzr
	mov	x5, xzr
	mov	x6, xzr
	mov	x7, xzr
	mov	x8, xzr
	mov	x9, xzr
	mov	x10, xzr
	mov	x11, xzr
	mov	x12, xzr
	mov	x13, xzr
	mov	x14, xzr
	mov	x15, xzr
	mov	x16, xzr
	mov	x17, xzr
	ret
.Lgcm_func_end72:
	.size	gcm.fotsgure_gcm_set_key, .Lgcm_func_end72-gcm.fotsgure_gcm_set_key
                                        // -- End function
	.section	.text.gcm.fotsgure_gcm_set_key_of,"ax",@progbits
	export_gcm	fotsgure_gcm_set_key_of
	.p2align	2
	.type	gcm.fotsgure_gcm_set_key_of,@function
gcm.fotsgure_gcm_set_key_of:                // @gcm.fotsgure_gcm_set_key_of
	hint	#34
// %bb.0:                               // %start
	stp	x29, x30, [sp, #-32]!           // 16-byte Folded Spill
	ldr	w8, [x1]
	mov	w9, #1                          // =0x1
	mov	x10, #16842752                  // =0x1010000
	movk	x10, #1, lsl #32
	str	x19, [sp, #16]                  // 8-byte Spill
	mov	x19, x0
	lsl	x9, x9, x8
	cmp	w8, #32
	mov	x29, sp
	and	x9, x9, x10
	ccmp	x9, #0, #4, ls
	b.eq	.Lgcm_BB73_2
// %bb.1:                               // %join.3.i
	str	w8, [x19]
	lsr	x8, x8, #2
	add	x0, x19, #4
	ldur	q0, [x1, #4]
	ldur	q1, [x1, #20]
	ldur	q2, [x1, #36]
	ldur	q3, [x1, #52]
	ldur	q4, [x1, #68]
	add	x2, x19, #244
	ldur	q5, [x1, #84]
	ldur	q6, [x1, #100]
	ldur	q7, [x1, #116]
	ldur	q16, [x1, #132]
	ldur	q17, [x1, #228]
	ldur	q18, [x1, #148]
	ldur	q19, [x1, #164]
	ldur	q20, [x1, #212]
	ldur	q21, [x1, #180]
	ldur	q22, [x1, #196]
	add	x1, x8, #7
	stur	q17, [x19, #228]
	stur	q20, [x19, #212]
	stur	q22, [x19, #196]
	stur	q21, [x19, #180]
	stur	q19, [x19, #164]
	stur	q18, [x19, #148]
	stur	q16, [x19, #132]
	stur	q7, [x19, #116]
	stur	q6, [x19, #100]
	stur	q5, [x19, #84]
	stur	q4, [x19, #68]
	stur	q3, [x19, #52]
	stur	q2, [x19, #36]
	stur	q1, [x19, #20]
	stur	q0, [x19, #4]
	bl	gcm.gcm.mode.put_subkey
	bl	gcm.aes_cipher.zeroize.stack.wipe_stack.512
	mov	w0, wzr
	ldr	x19, [sp, #16]                  // 8-byte Reload
	ldp	x29, x30, [sp], #32             // 16-byte Folded Reload
	movi	v0.2d, #0000000000000000
	movi	v1.2d, #0000000000000000
	movi	v2.2d, #0000000000000000
	movi	v3.2d, #0000000000000000
	movi	v4.2d, #0000000000000000
	movi	v5.2d, #0000000000000000
	movi	v6.2d, #0000000000000000
	movi	v7.2d, #0000000000000000
	movi	v16.2d, #0000000000000000
	movi	v17.2d, #0000000000000000
	movi	v18.2d, #0000000000000000
	movi	v19.2d, #0000000000000000
	movi	v20.2d, #0000000000000000
	movi	v21.2d, #0000000000000000
	movi	v22.2d, #0000000000000000
	movi	v23.2d, #0000000000000000
	movi	v24.2d, #0000000000000000
	movi	v25.2d, #0000000000000000
	movi	v26.2d, #0000000000000000
	movi	v27.2d, #0000000000000000
	movi	v28.2d, #0000000000000000
	movi	v29.2d, #0000000000000000
	movi	v30.2d, #0000000000000000
	movi	v31.2d, #0000000000000000
	fmov	d8, d8
	fmov	d9, d9
	fmov	d10, d10
	fmov	d11, d11
	fmov	d12, d12
	fmov	d13, d13
	fmov	d14, d14
	fmov	d15, d15
	mov	x1, xzr
	mov	x2, xzr
	mov	x3, xzr
	mov	x4, xzr
	mov	x5, xzr
	mov	x6, xzr
	mov	x7, xzr
	mov	x8, xzr
	mov	x9, xzr
	mov	x10, xzr
	mov	x11, xzr
	mov	x12, xzr
	mov	x13, xzr
	mov	x14, xzr
	mov	x15, xzr
	mov	x16, xzr
	mov	x17, xzr
	ret
.Lgcm_BB73_2:                               // %then.1.i
	mov	x0, x19
	mov	w1, wzr
	mov	w2, #1780                       // =0x6f4
	adrp	x16, :got:memset
	ldr	x16, [x16, :got_lo12:memset]
	blr	x16
	add	x0, x19, #4
	bl	gcm.aes_cipher.zeroize.elements.zeroize_elements.1
	add	x0, x19, #244
	mov	w1, #96                         // =0x60
	bl	gcm.aes_cipher.zeroize.elements.zeroize_elements.2
	mov	w0, #2                          // =0x2
	ldr	x19, [sp, #16]                  // 8-byte Reload
	ldp	x29, x30, [sp], #32             // 16-byte Folded Reload
	movi	v0.2d, #0000000000000000
	movi	v1.2d, #0000000000000000
	movi	v2.2d, #0000000000000000
	movi	v3.2d, #0000000000000000
	movi	v4.2d, #0000000000000000
	movi	v5.2d, #0000000000000000
	movi	v6.2d, #0000000000000000
	movi	v7.2d, #0000000000000000
	movi	v16.2d, #0000000000000000
	movi	v17.2d, #0000000000000000
	movi	v18.2d, #0000000000000000
	movi	v19.2d, #0000000000000000
	movi	v20.2d, #0000000000000000
	movi	v21.2d, #0000000000000000
	movi	v22.2d, #0000000000000000
	movi	v23.2d, #0000000000000000
	movi	v24.2d, #0000000000000000
	movi	v25.2d, #0000000000000000
	movi	v26.2d, #0000000000000000
	movi	v27.2d, #0000000000000000
	movi	v28.2d, #0000000000000000
	movi	v29.2d, #0000000000000000
	movi	v30.2d, #0000000000000000
	movi	v31.2d, #0000000000000000
	fmov	d8, d8
	fmov	d9, d9
	fmov	d10, d10
	fmov	d11, d11
	fmov	d12, d12
	fmov	d13, d13
	fmov	d14, d14
	fmov	d15, d15
	mov	x1, xzr
	mov	x2, xzr
	mov	x3, xzr
	mov	x4, xzr
	mov	x5, xzr
	mov	x6, xzr
	mov	x7, xzr
	mov	x8, xzr
	mov	x9, xzr
	mov	x10, xzr
	mov	x11, xzr
	mov	x12, xzr
	mov	x13, xzr
	mov	x14, xzr
	mov	x15, xzr
	mov	x16, xzr
	mov	x17, xzr
	ret
.Lgcm_func_end73:
	.size	gcm.fotsgure_gcm_set_key_of, .Lgcm_func_end73-gcm.fotsgure_gcm_set_key_of
                                        // -- End function
	.section	.text.gcm.fotsgure_gcm_open,"ax",@progbits
	export_gcm	fotsgure_gcm_open
	.p2align	2
	.type	gcm.fotsgure_gcm_open,@function
gcm.fotsgure_gcm_open:                      // @gcm.fotsgure_gcm_open
	hint	#34
// %bb.0:                               // %start
	sub	sp, sp, #128
	cmp	x1, #0
	mov	w8, #4096                       // =0x1000
	stp	x29, x30, [sp, #80]             // 16-byte Folded Spill
	add	x29, sp, #80
	csel	x9, x8, xzr, eq
	cmp	x3, #0
	ldr	x12, [x29, #48]
	csel	x10, x8, xzr, eq
	cmp	x5, #0
	stp	x20, x19, [sp, #112]            // 16-byte Folded Spill
	csel	x20, x8, xzr, eq
	cmp	x7, #0
	csel	x11, x8, xzr, eq
	cmp	x12, #16
	str	x21, [sp, #96]                  // 8-byte Spill
	b.ne	.Lgcm_BB74_4
// %bb.1:                               // %join.3.i
	mov	x8, #-2305843009213693952       // =0xe000000000000000
	mov	x12, #-2305843009213693951      // =0xe000000000000001
	add	x8, x2, x8
	cmp	x8, x12
	b.hs	.Lgcm_BB74_5
// %bb.2:
	mov	w8, #3                          // =0x3
.Lgcm_BB74_3:                               // %"gcm_c::whole::fotsgure_gcm_open.exit"
	ldp	x20, x19, [sp, #112]            // 16-byte Folded Reload
	mov	w0, w8
	ldp	x29, x30, [sp, #80]             // 16-byte Folded Reload
	ldr	x21, [sp, #96]                  // 8-byte Reload
	add	sp, sp, #128
	movi	v0.2d, #0000000000000000
	movi	v1.2d, #0000000000000000
	movi	v2.2d, #0000000000000000
	movi	v3.2d, #0000000000000000
	movi	v4.2d, #0000000000000000
	movi	v5.2d, #0000000000000000
	movi	v6.2d, #0000000000000000
	movi	v7.2d, #0000000000000000
	movi	v16.2d, #0000000000000000
	movi	v17.2d, #0000000000000000
	movi	v18.2d, #0000000000000000
	movi	v19.2d, #0000000000000000
	movi	v20.2d, #0000000000000000
	movi	v21.2d, #0000000000000000
	movi	v22.2d, #0000000000000000
	movi	v23.2d, #0000000000000000
	movi	v24.2d, #0000000000000000
	movi	v25.2d, #0000000000000000
	movi	v26.2d, #0000000000000000
	movi	v27.2d, #0000000000000000
	movi	v28.2d, #0000000000000000
	movi	v29.2d, #0000000000000000
	movi	v30.2d, #0000000000000000
	movi	v31.2d, #0000000000000000
	fmov	d8, d8
	fmov	d9, d9
	fmov	d10, d10
	fmov	d11, d11
	fmov	d12, d12
	fmov	d13, d13
	fmov	d14, d14
	fmov	d15, d15
	mov	x1, xzr
	mov	x2, xzr
	mov	x3, xzr
	mov	x4, xzr
	mov	x5, xzr
	mov	x6, xzr
	mov	x7, xzr
	mov	x8, xzr
	mov	x9, xzr
	mov	x10, xzr
	mov	x11, xzr
	mov	x12, xzr
	mov	x13, xzr
	mov	x14, xzr
	mov	x15, xzr
	mov	x16, xzr
	mov	x17, xzr
	ret
.Lgcm_BB74_4:
	mov	w8, #4                          // =0x4
	ldp	x20, x19, [sp, #112]            // 16-byte Folded Reload
	mov	w0, w8
	ldp	x29, x30, [sp, #80]             // 16-byte Folded Reload
	ldr	x21, [sp, #96]                  // 8-byte Reload
	add	sp, sp, #128
	movi	v0.2d, #0000000000000000
	movi	v1.2d, #0000000000000000
	movi	v2.2d, #0000000000000000
	movi	v3.2d, #0000000000000000
	movi	v4.2d, #0000000000000000
	movi	v5.2d, #0000000000000000
	movi	v6.2d, #0000000000000000
	movi	v7.2d, #0000000000000000
	movi	v16.2d, #0000000000000000
	movi	v17.2d, #0000000000000000
	movi	v18.2d, #0000000000000000
	movi	v19.2d, #0000000000000000
	movi	v20.2d, #0000000000000000
	movi	v21.2d, #0000000000000000
	movi	v22.2d, #0000000000000000
	movi	v23.2d, #0000000000000000
	movi	v24.2d, #0000000000000000
	movi	v25.2d, #0000000000000000
	movi	v26.2d, #0000000000000000
	movi	v27.2d, #0000000000000000
	movi	v28.2d, #0000000000000000
	movi	v29.2d, #0000000000000000
	movi	v30.2d, #0000000000000000
	movi	v31.2d, #0000000000000000
	fmov	d8, d8
	fmov	d9, d9
	fmov	d10, d10
	fmov	d11, d11
	fmov	d12, d12
	fmov	d13, d13
	fmov	d14, d14
	fmov	d15, d15
	mov	x1, xzr
	mov	x2, xzr
	mov	x3, xzr
	mov	x4, xzr
	mov	x5, xzr
	mov	x6, xzr
	mov	x7, xzr
	mov	x8, xzr
	mov	x9, xzr
	mov	x10, xzr
	mov	x11, xzr
	mov	x12, xzr
	mov	x13, xzr
	mov	x14, xzr
	mov	x15, xzr
	mov	x16, xzr
	mov	x17, xzr
	ret
.Lgcm_BB74_5:                               // %after.1.i.i
	lsr	x12, x4, #61
	mov	w8, #5                          // =0x5
	cbnz	x12, .Lgcm_BB74_3
// %bb.6:                               // %after.1.i.i
	mov	x12, #68719476704               // =0xfffffffe0
	cmp	x6, x12
	b.hi	.Lgcm_BB74_3
// %bb.7:                               // %after.11.i.i
	ldr	w12, [x0]
	mov	w8, #2                          // =0x2
	cmp	w12, #32
	b.hi	.Lgcm_BB74_3
// %bb.8:                               // %after.11.i.i
	mov	w13, #1                         // =0x1
	mov	x14, #16842752                  // =0x1010000
	lsl	x13, x13, x12
	movk	x14, #1, lsl #32
	tst	x13, x14
	b.eq	.Lgcm_BB74_3
// %bb.9:                               // %join.6.i
	lsr	x8, x12, #2
	ldr	q0, [x7, x11]
	add	x11, x0, #4
	str	x11, [sp, #8]
	add	x1, x1, x9
	add	x3, x3, x10
	add	x8, x8, #7
	mov	x21, x5
	add	x5, x5, x20
	stp	x8, x11, [sp, #16]
	add	x11, x0, #244
	add	x0, sp, #8
	stp	x8, x11, [sp, #32]
	sub	x8, x29, #16
	sub	x7, x29, #32
	stur	q0, [x29, #-32]
	mov	x19, x6
	stp	xzr, xzr, [x29, #-16]
	str	x8, [sp]
	bl	gcm.gcm.mode.BorrowedGcm.compare
	and	w8, w0, #0xff
	tbz	w8, #0, .Lgcm_BB74_11
// %bb.10:                              // %arm.8.critedge.i
	sub	x0, x29, #16
	bl	gcm.aes_cipher.zeroize.elements.zeroize_elements.3
	bl	gcm.aes_cipher.zeroize.stack.wipe_stack.1536
	mov	w8, #6                          // =0x6
	ldp	x20, x19, [sp, #112]            // 16-byte Folded Reload
	mov	w0, w8
	ldp	x29, x30, [sp, #80]             // 16-byte Folded Reload
	ldr	x21, [sp, #96]                  // 8-byte Reload
	add	sp, sp, #128
	movi	v0.2d, #0000000000000000
	movi	v1.2d, #0000000000000000
	movi	v2.2d, #0000000000000000
	movi	v3.2d, #0000000000000000
	movi	v4.2d, #0000000000000000
	movi	v5.2d, #0000000000000000
	movi	v6.2d, #0000000000000000
	movi	v7.2d, #0000000000000000
	movi	v16.2d, #0000000000000000
	movi	v17.2d, #0000000000000000
	movi	v18.2d, #0000000000000000
	movi	v19.2d, #0000000000000000
	movi	v20.2d, #0000000000000000
	movi	v21.2d, #0000000000000000
	movi	v22.2d, #0000000000000000
	movi	v23.2d, #0000000000000000
	movi	v24.2d, #0000000000000000
	movi	v25.2d, #0000000000000000
	movi	v26.2d, #0000000000000000
	movi	v27.2d, #0000000000000000
	movi	v28.2d, #0000000000000000
	movi	v29.2d, #0000000000000000
	movi	v30.2d, #0000000000000000
	movi	v31.2d, #0000000000000000
	fmov	d8, d8
	fmov	d9, d9
	fmov	d10, d10
	fmov	d11, d11
	fmov	d12, d12
	fmov	d13, d13
	fmov	d14, d14
	fmov	d15, d15
	mov	x1, xzr
	mov	x2, xzr
	mov	x3, xzr
	mov	x4, xzr
	mov	x5, xzr
	mov	x6, xzr
	mov	x7, xzr
	mov	x8, xzr
	mov	x9, xzr
	mov	x10, xzr
	mov	x11, xzr
	mov	x12, xzr
	mov	x13, xzr
	mov	x14, xzr
	mov	x15, xzr
	mov	x16, xzr
	mov	x17, xzr
	ret
.Lgcm_BB74_11:                              // %then.1.i.i
	add	x0, sp, #8
	sub	x1, x29, #16
	add	x3, x21, x20
	mov	w2, #16                         // =0x10
	mov	x4, x19
	bl	gcm.gcm.gctr.add_gctr
	sub	x0, x29, #16
	bl	gcm.aes_cipher.zeroize.elements.zeroize_elements.3
	bl	gcm.aes_cipher.zeroize.stack.wipe_stack.1536
	mov	w8, wzr
	ldp	x20, x19, [sp, #112]            // 16-byte Folded Reload
	mov	w0, w8
	ldp	x29, x30, [sp, #80]             // 16-byte Folded Reload
	ldr	x21, [sp, #96]                  // 8-byte Reload
	add	sp, sp, #128
	movi	v0.2d, #0000000000000000
	movi	v1.2d, #0000000000000000
	movi	v2.2d, #0000000000000000
	movi	v3.2d, #0000000000000000
	movi	v4.2d, #0000000000000000
	movi	v5.2d, #0000000000000000
	movi	v6.2d, #0000000000000000
	movi	v7.2d, #0000000000000000
	movi	v16.2d, #0000000000000000
	movi	v17.2d, #0000000000000000
	movi	v18.2d, #0000000000000000
	movi	v19.2d, #0000000000000000
	movi	v20.2d, #0000000000000000
	movi	v21.2d, #0000000000000000
	movi	v22.2d, #0000000000000000
	movi	v23.2d, #0000000000000000
	movi	v24.2d, #0000000000000000
	movi	v25.2d, #0000000000000000
	movi	v26.2d, #0000000000000000
	movi	v27.2d, #0000000000000000
	movi	v28.2d, #0000000000000000
	movi	v29.2d, #0000000000000000
	movi	v30.2d, #0000000000000000
	movi	v31.2d, #0000000000000000
	fmov	d8, d8
	fmov	d9, d9
	fmov	d10, d10
	fmov	d11, d11
	fmov	d12, d12
	fmov	d13, d13
	fmov	d14, d14
	fmov	d15, d15
	mov	x1, xzr
	mov	x2, xzr
	mov	x3, xzr
	mov	x4, xzr
	mov	x5, xzr
	mov	x6, xzr
	mov	x7, xzr
	mov	x8, xzr
	mov	x9, xzr
	mov	x10, xzr
	mov	x11, xzr
	mov	x12, xzr
	mov	x13, xzr
	mov	x14, xzr
	mov	x15, xzr
	mov	x16, xzr
	mov	x17, xzr
	ret
.Lgcm_func_end74:
	.size	gcm.fotsgure_gcm_open, .Lgcm_func_end74-gcm.fotsgure_gcm_open
                                        // -- End function
	.section	.text.gcm.fotsgure_gcm_open_to,"ax",@progbits
	export_gcm	fotsgure_gcm_open_to
	.p2align	2
	.type	gcm.fotsgure_gcm_open_to,@function
gcm.fotsgure_gcm_open_to:                   // @gcm.fotsgure_gcm_open_to
	hint	#34
// %bb.0:                               // %start
	sub	sp, sp, #160
	stp	x29, x30, [sp, #80]             // 16-byte Folded Spill
	add	x29, sp, #80
	cmp	x1, #0
	mov	w11, #4096                      // =0x1000
	ldp	x12, x10, [x29, #80]
	csel	x8, x11, xzr, eq
	cmp	x3, #0
	stp	x22, x21, [sp, #128]            // 16-byte Folded Spill
	csel	x9, x11, xzr, eq
	cmp	x5, #0
	str	x25, [sp, #96]                  // 8-byte Spill
	csel	x22, x11, xzr, eq
	cmp	x7, #0
	stp	x24, x23, [sp, #112]            // 16-byte Folded Spill
	csel	x21, x11, xzr, eq
	cmp	x10, #0
	stp	x20, x19, [sp, #144]            // 16-byte Folded Spill
	csel	x11, x11, xzr, eq
	cmp	x6, x12
	b.ne	.Lgcm_BB75_4
// %bb.1:                               // %join.3.i
	ldr	x12, [x29, #96]
	cmp	x12, #16
	b.ne	.Lgcm_BB75_5
// %bb.2:                               // %join.6.i
	mov	x12, #-2305843009213693952      // =0xe000000000000000
	mov	x13, #-2305843009213693951      // =0xe000000000000001
	add	x12, x2, x12
	cmp	x12, x13
	b.hs	.Lgcm_BB75_7
// %bb.3:
	mov	w19, #3                         // =0x3
	b	.Lgcm_BB75_6
.Lgcm_BB75_4:
	mov	w19, #10                        // =0xa
	b	.Lgcm_BB75_6
.Lgcm_BB75_5:
	mov	w19, #4                         // =0x4
.Lgcm_BB75_6:                               // %"gcm_c::whole_to::fotsgure_gcm_open_to.exit"
	mov	w0, w19
	ldp	x20, x19, [sp, #144]            // 16-byte Folded Reload
	ldp	x22, x21, [sp, #128]            // 16-byte Folded Reload
	ldr	x25, [sp, #96]                  // 8-byte Reload
	ldp	x24, x23, [sp, #112]            // 16-byte Folded Reload
	ldp	x29, x30, [sp, #80]             // 16-byte Folded Reload
	add	sp, sp, #160
	movi	v0.2d, #0000000000000000
	movi	v1.2d, #0000000000000000
	movi	v2.2d, #0000000000000000
	movi	v3.2d, #0000000000000000
	movi	v4.2d, #0000000000000000
	movi	v5.2d, #0000000000000000
	movi	v6.2d, #0000000000000000
	movi	v7.2d, #0000000000000000
	movi	v16.2d, #0000000000000000
	movi	v17.2d, #0000000000000000
	movi	v18.2d, #0000000000000000
	movi	v19.2d, #0000000000000000
	movi	v20.2d, #0000000000000000
	movi	v21.2d, #0000000000000000
	movi	v22.2d, #0000000000000000
	movi	v23.2d, #0000000000000000
	movi	v24.2d, #0000000000000000
	movi	v25.2d, #0000000000000000
	movi	v26.2d, #0000000000000000
	movi	v27.2d, #0000000000000000
	movi	v28.2d, #0000000000000000
	movi	v29.2d, #0000000000000000
	movi	v30.2d, #0000000000000000
	movi	v31.2d, #0000000000000000
	fmov	d8, d8
	fmov	d9, d9
	fmov	d10, d10
	fmov	d11, d11
	fmov	d12, d12
	fmov	d13, d13
	fmov	d14, d14
	fmov	d15, d15
	mov	x1, xzr
	mov	x2, xzr
	mov	x3, xzr
	mov	x4, xzr
	mov	x5, xzr
	mov	x6, xzr
	mov	x7, xzr
	mov	x8, xzr
	mov	x9, xzr
	mov	x10, xzr
	mov	x11, xzr
	mov	x12, xzr
	mov	x13, xzr
	mov	x14, xzr
	mov	x15, xzr
	mov	x16, xzr
	mov	x17, xzr
	ret
.Lgcm_BB75_7:                               // %after.1.i.i
	lsr	x12, x4, #61
	mov	w19, #5                         // =0x5
	cbnz	x12, .Lgcm_BB75_6
// %bb.8:                               // %after.1.i.i
	mov	x12, #68719476704               // =0xfffffffe0
	cmp	x6, x12
	b.hi	.Lgcm_BB75_6
// %bb.9:                               // %after.11.i.i
	ldr	w12, [x0]
	mov	w19, #2                         // =0x2
	cmp	w12, #32
	b.hi	.Lgcm_BB75_6
// %bb.10:                              // %after.11.i.i
	mov	w13, #1                         // =0x1
	mov	x14, #16842752                  // =0x1010000
	lsl	x13, x13, x12
	movk	x14, #1, lsl #32
	tst	x13, x14
	b.eq	.Lgcm_BB75_6
// %bb.11:                              // %join.9.i
	ldr	q0, [x10, x11]
	lsr	x10, x12, #2
	add	x11, x0, #4
	str	x11, [sp, #8]
	add	x20, x5, x22
	mov	x23, x7
	add	x10, x10, #7
	add	x19, x7, x21
	add	x1, x1, x8
	stp	x10, x11, [sp, #16]
	add	x11, x0, #244
	add	x0, sp, #8
	stp	x10, x11, [sp, #32]
	sub	x10, x29, #16
	add	x3, x3, x9
	mov	x24, x5
	add	x5, x5, x22
	sub	x7, x29, #32
	stur	q0, [x29, #-32]
	mov	x25, x6
	stp	xzr, xzr, [x29, #-16]
	str	x10, [sp]
	bl	gcm.gcm.mode.BorrowedGcm.compare
	and	w8, w0, #0xff
	tbz	w8, #0, .Lgcm_BB75_17
// %bb.12:                              // %else.2.i.i
	cbz	x25, .Lgcm_BB75_16
// %bb.13:                              // %loop.5.preheader.i.i.i
	subs	x20, x25, #1
	b.eq	.Lgcm_BB75_15
// %bb.14:                              // %join.8.preheader.i.i.i
	mov	x0, x19
	mov	w1, wzr
	mov	x2, x20
	adrp	x16, :got:memset
	ldr	x16, [x16, :got_lo12:memset]
	blr	x16
.Lgcm_BB75_15:                              // %after.4.i.i.i
	strb	wzr, [x19, x20]
.Lgcm_BB75_16:                              // %"gcm::mode::BorrowedGcm::decrypt_to::<#c13ce517942629d6>.exit.i"
	mov	w19, #6                         // =0x6
	b	.Lgcm_BB75_35
.Lgcm_BB75_17:                              // %then.1.i.i
	sub	x8, x19, x20
	mov	x4, x25
	cmp	x8, x25
	b.hs	.Lgcm_BB75_20
// %bb.18:                              // %iter.check
	cmp	x4, #8
	b.hs	.Lgcm_BB75_21
// %bb.19:
	mov	x10, xzr
	mov	x8, x23
	mov	x9, x24
	b	.Lgcm_BB75_32
.Lgcm_BB75_20:                              // %apart.2.i.i.i.i.i.i.i.i
	mov	x0, x19
	mov	x1, x20
	mov	x2, x4
	adrp	x16, :got:memmove
	ldr	x16, [x16, :got_lo12:memmove]
	blr	x16
	mov	x4, x25
	b	.Lgcm_BB75_34
.Lgcm_BB75_21:                              // %vector.memcheck
	add	x10, x21, x23
	add	x11, x22, x24
	mov	x8, x23
	sub	x10, x10, x11
	mov	x9, x24
	cmp	x10, #32
	b.hs	.Lgcm_BB75_23
// %bb.22:
	mov	x10, xzr
	b	.Lgcm_BB75_32
.Lgcm_BB75_23:                              // %vector.main.loop.iter.check
	cmp	x4, #32
	b.hs	.Lgcm_BB75_25
// %bb.24:
	mov	x10, xzr
	b	.Lgcm_BB75_29
.Lgcm_BB75_25:                              // %vector.ph
	add	x12, x22, x9
	add	x13, x21, x8
	and	x11, x4, #0x18
	and	x10, x4, #0xfffffffe0
	add	x12, x12, #16
	add	x13, x13, #16
	and	x14, x4, #0xfffffffe0
.Lgcm_BB75_26:                              // %vector.body
                                        // =>This Inner Loop Header: Depth=1
	ldp	q0, q1, [x12, #-16]
	subs	x14, x14, #32
	add	x12, x12, #32
	stp	q0, q1, [x13, #-16]
	add	x13, x13, #32
	b.ne	.Lgcm_BB75_26
// %bb.27:                              // %middle.block
	cmp	x4, x10
	b.eq	.Lgcm_BB75_34
// %bb.28:                              // %vec.epilog.iter.check
	cbz	x11, .Lgcm_BB75_32
.Lgcm_BB75_29:                              // %vec.epilog.ph
	mov	x11, x10
	and	x10, x4, #0xffffffff8
	add	x12, x22, x11
	add	x13, x21, x11
	sub	x11, x11, x10
	add	x12, x9, x12
	add	x13, x8, x13
.Lgcm_BB75_30:                              // %vec.epilog.vector.body
                                        // =>This Inner Loop Header: Depth=1
	ldr	d0, [x12], #8
	adds	x11, x11, #8
	str	d0, [x13], #8
	b.ne	.Lgcm_BB75_30
// %bb.31:                              // %vec.epilog.middle.block
	cmp	x4, x10
	b.eq	.Lgcm_BB75_34
.Lgcm_BB75_32:                              // %join.7.i.i.i.i.i.i.i.i.preheader
	add	x11, x22, x10
	add	x12, x21, x10
	sub	x10, x4, x10
	add	x9, x9, x11
	add	x8, x8, x12
.Lgcm_BB75_33:                              // %join.7.i.i.i.i.i.i.i.i
                                        // =>This Inner Loop Header: Depth=1
	ldrb	w11, [x9], #1
	subs	x10, x10, #1
	strb	w11, [x8], #1
	b.ne	.Lgcm_BB75_33
.Lgcm_BB75_34:                              // %"core::slice::edits::slice+T::copy_from_slice::<i8,20'core::clone::U8Clone{}>.exit.i.i"
	add	x0, sp, #8
	sub	x1, x29, #16
	mov	w2, #16                         // =0x10
	mov	x3, x19
	bl	gcm.gcm.gctr.add_gctr
	mov	w19, wzr
.Lgcm_BB75_35:                              // %"gcm::mode::BorrowedGcm::decrypt_to::<#c13ce517942629d6>.exit.i"
	sub	x0, x29, #16
	bl	gcm.aes_cipher.zeroize.elements.zeroize_elements.3
	bl	gcm.aes_cipher.zeroize.stack.wipe_stack.1536
	b	.Lgcm_BB75_6
.Lgcm_func_end75:
	.size	gcm.fotsgure_gcm_open_to, .Lgcm_func_end75-gcm.fotsgure_gcm_open_to
                                        // -- End function
	.section	.text.gcm.fotsgure_gcm_seal,"ax",@progbits
	export_gcm	fotsgure_gcm_seal
	.p2align	2
	.type	gcm.fotsgure_gcm_seal,@function
gcm.fotsgure_gcm_seal:                      // @gcm.fotsgure_gcm_seal
	hint	#34
// %bb.0:                               // %start
	cmp	x1, #0
	mov	w8, #4096                       // =0x1000
	csel	x9, x8, xzr, eq
	cmp	x3, #0
	csel	x10, x8, xzr, eq
	cmp	x5, #0
	add	x1, x1, x9
	csel	x8, x8, xzr, eq
	add	x3, x3, x10
	add	x5, x5, x8
	b	gcm.gcm_c.whole.fotsgure_gcm_seal
.Lgcm_func_end76:
	.size	gcm.fotsgure_gcm_seal, .Lgcm_func_end76-gcm.fotsgure_gcm_seal
                                        // -- End function
	.section	.text.gcm.fotsgure_gcm_seal_next,"ax",@progbits
	export_gcm	fotsgure_gcm_seal_next
	.p2align	2
	.type	gcm.fotsgure_gcm_seal_next,@function
gcm.fotsgure_gcm_seal_next:                 // @gcm.fotsgure_gcm_seal_next
	hint	#34
// %bb.0:                               // %start
	ldur	x8, [x1, #4]
	cmn	x8, #1
	b.ne	.Lgcm_BB77_3
// %bb.1:                               // %start
	ldr	w8, [x1]
	cmn	w8, #1
	b.ne	.Lgcm_BB77_3
// %bb.2:
	mov	w0, #7                          // =0x7
	movi	v0.2d, #0000000000000000
	movi	v1.2d, #0000000000000000
	movi	v2.2d, #0000000000000000
	movi	v3.2d, #0000000000000000
	movi	v4.2d, #0000000000000000
	movi	v5.2d, #0000000000000000
	movi	v6.2d, #0000000000000000
	movi	v7.2d, #0000000000000000
	movi	v16.2d, #0000000000000000
	movi	v17.2d, #0000000000000000
	movi	v18.2d, #0000000000000000
	movi	v19.2d, #0000000000000000
	movi	v20.2d, #0000000000000000
	movi	v21.2d, #0000000000000000
	movi	v22.2d, #0000000000000000
	movi	v23.2d, #0000000000000000
	movi	v24.2d, #0000000000000000
	movi	v25.2d, #0000000000000000
	movi	v26.2d, #0000000000000000
	movi	v27.2d, #0000000000000000
	movi	v28.2d, #0000000000000000
	movi	v29.2d, #0000000000000000
	movi	v30.2d, #0000000000000000
	movi	v31.2d, #0000000000000000
	fmov	d8, d8
	fmov	d9, d9
	fmov	d10, d10
	fmov	d11, d11
	fmov	d12, d12
	fmov	d13, d13
	fmov	d14, d14
	fmov	d15, d15
	mov	x1, xzr
	mov	x2, xzr
	mov	x3, xzr
	mov	x4, xzr
	mov	x5, xzr
	mov	x6, xzr
	mov	x7, xzr
	mov	x8, xzr
	mov	x9, xzr
	mov	x10, xzr
	mov	x11, xzr
	mov	x12, xzr
	mov	x13, xzr
	mov	x14, xzr
	mov	x15, xzr
	mov	x16, xzr
	mov	x17, xzr
	ret
.Lgcm_BB77_3:                               // %join.3.i
	stp	x29, x30, [sp, #-32]!           // 16-byte Folded Spill
	cmp	x5, #0
	mov	w8, #4096                       // =0x1000
	stp	x20, x19, [sp, #16]             // 16-byte Folded Spill
	csel	x9, x8, xzr, eq
	cmp	x3, #0
	mov	x19, x2
	csel	x8, x8, xzr, eq
	add	x5, x5, x9
	mov	w2, #12                         // =0xc
	add	x3, x3, x8
	mov	x29, sp
	mov	x20, x1
	bl	gcm.gcm_c.whole.fotsgure_gcm_seal
	cbz	w0, .Lgcm_BB77_5
// %bb.4:
	ldp	x20, x19, [sp, #16]             // 16-byte Folded Reload
	ldp	x29, x30, [sp], #32             // 16-byte Folded Reload
	movi	v0.2d, #0000000000000000
	movi	v1.2d, #0000000000000000
	movi	v2.2d, #0000000000000000
	movi	v3.2d, #0000000000000000
	movi	v4.2d, #0000000000000000
	movi	v5.2d, #0000000000000000
	movi	v6.2d, #0000000000000000
	movi	v7.2d, #0000000000000000
	movi	v16.2d, #0000000000000000
	movi	v17.2d, #0000000000000000
	movi	v18.2d, #0000000000000000
	movi	v19.2d, #0000000000000000
	movi	v20.2d, #0000000000000000
	movi	v21.2d, #0000000000000000
	movi	v22.2d, #0000000000000000
	movi	v23.2d, #0000000000000000
	movi	v24.2d, #0000000000000000
	movi	v25.2d, #0000000000000000
	movi	v26.2d, #0000000000000000
	movi	v27.2d, #0000000000000000
	movi	v28.2d, #0000000000000000
	movi	v29.2d, #0000000000000000
	movi	v30.2d, #0000000000000000
	movi	v31.2d, #0000000000000000
	fmov	d8, d8
	fmov	d9, d9
	fmov	d10, d10
	fmov	d11, d11
	fmov	d12, d12
	fmov	d13, d13
	fmov	d14, d14
	fmov	d15, d15
	mov	x1, xzr
	mov	x2, xzr
	mov	x3, xzr
	mov	x4, xzr
	mov	x5, xzr
	mov	x6, xzr
	mov	x7, xzr
	mov	x8, xzr
	mov	x9, xzr
	mov	x10, xzr
	mov	x11, xzr
	mov	x12, xzr
	mov	x13, xzr
	mov	x14, xzr
	mov	x15, xzr
	mov	x16, xzr
	mov	x17, xzr
	ret
.Lgcm_BB77_5:                               // %then.4.i
	ldur	x8, [x20, #4]
	ldr	w9, [x20]
	mov	x10, x20
	cmn	x8, #1
	b.ne	.Lgcm_BB77_8
// %bb.6:                               // %then.4.i
	cmn	w9, #1
	b.ne	.Lgcm_BB77_8
// %bb.7:                               // %"gcm::counter::Counter::take.exit.i"
	mov	w0, wzr
	str	w9, [x19]
	stur	x8, [x19, #4]
	ldp	x20, x19, [sp, #16]             // 16-byte Folded Reload
	ldp	x29, x30, [sp], #32             // 16-byte Folded Reload
	movi	v0.2d, #0000000000000000
	movi	v1.2d, #0000000000000000
	movi	v2.2d, #0000000000000000
	movi	v3.2d, #0000000000000000
	movi	v4.2d, #0000000000000000
	movi	v5.2d, #0000000000000000
	movi	v6.2d, #0000000000000000
	movi	v7.2d, #0000000000000000
	movi	v16.2d, #0000000000000000
	movi	v17.2d, #0000000000000000
	movi	v18.2d, #0000000000000000
	movi	v19.2d, #0000000000000000
	movi	v20.2d, #0000000000000000
	movi	v21.2d, #0000000000000000
	movi	v22.2d, #0000000000000000
	movi	v23.2d, #0000000000000000
	movi	v24.2d, #0000000000000000
	movi	v25.2d, #0000000000000000
	movi	v26.2d, #0000000000000000
	movi	v27.2d, #0000000000000000
	movi	v28.2d, #0000000000000000
	movi	v29.2d, #0000000000000000
	movi	v30.2d, #0000000000000000
	movi	v31.2d, #0000000000000000
	fmov	d8, d8
	fmov	d9, d9
	fmov	d10, d10
	fmov	d11, d11
	fmov	d12, d12
	fmov	d13, d13
	fmov	d14, d14
	fmov	d15, d15
	mov	x1, xzr
	mov	x2, xzr
	mov	x3, xzr
	mov	x4, xzr
	mov	x5, xzr
	mov	x6, xzr
	mov	x7, xzr
	mov	x8, xzr
	mov	x9, xzr
	mov	x10, xzr
	mov	x11, xzr
	mov	x12, xzr
	mov	x13, xzr
	mov	x14, xzr
	mov	x15, xzr
	mov	x16, xzr
	mov	x17, xzr
	ret
.Lgcm_BB77_8:                               // %arm.1.i.i
	cmn	x8, #1
	rev	w11, w9
	rev	x12, x8
	cinc	w11, w11, eq
	add	x12, x12, #1
	rev	w11, w11
	rev	x12, x12
	str	w11, [x10]
	stur	x12, [x10, #4]
	mov	w0, wzr
	str	w9, [x19]
	stur	x8, [x19, #4]
	ldp	x20, x19, [sp, #16]             // 16-byte Folded Reload
	ldp	x29, x30, [sp], #32             // 16-byte Folded Reload
	movi	v0.2d, #0000000000000000
	movi	v1.2d, #0000000000000000
	movi	v2.2d, #0000000000000000
	movi	v3.2d, #0000000000000000
	movi	v4.2d, #0000000000000000
	movi	v5.2d, #0000000000000000
	movi	v6.2d, #0000000000000000
	movi	v7.2d, #0000000000000000
	movi	v16.2d, #0000000000000000
	movi	v17.2d, #0000000000000000
	movi	v18.2d, #0000000000000000
	movi	v19.2d, #0000000000000000
	movi	v20.2d, #0000000000000000
	movi	v21.2d, #0000000000000000
	movi	v22.2d, #0000000000000000
	movi	v23.2d, #0000000000000000
	movi	v24.2d, #0000000000000000
	movi	v25.2d, #0000000000000000
	movi	v26.2d, #0000000000000000
	movi	v27.2d, #0000000000000000
	movi	v28.2d, #0000000000000000
	movi	v29.2d, #0000000000000000
	movi	v30.2d, #0000000000000000
	movi	v31.2d, #0000000000000000
	fmov	d8, d8
	fmov	d9, d9
	fmov	d10, d10
	fmov	d11, d11
	fmov	d12, d12
	fmov	d13, d13
	fmov	d14, d14
	fmov	d15, d15
	mov	x1, xzr
	mov	x2, xzr
	mov	x3, xzr
	mov	x4, xzr
	mov	x5, xzr
	mov	x6, xzr
	mov	x7, xzr
	mov	x8, xzr
	mov	x9, xzr
	mov	x10, xzr
	mov	x11, xzr
	mov	x12, xzr
	mov	x13, xzr
	mov	x14, xzr
	mov	x15, xzr
	mov	x16, xzr
	mov	x17, xzr
	ret
.Lgcm_func_end77:
	.size	gcm.fotsgure_gcm_seal_next, .Lgcm_func_end77-gcm.fotsgure_gcm_seal_next
                                        // -- End function
	.section	.text.gcm.fotsgure_gcm_seal_to,"ax",@progbits
	export_gcm	fotsgure_gcm_seal_to
	.p2align	2
	.type	gcm.fotsgure_gcm_seal_to,@function
gcm.fotsgure_gcm_seal_to:                   // @gcm.fotsgure_gcm_seal_to
	hint	#34
// %bb.0:                               // %start
	sub	sp, sp, #112
	cmp	x1, #0
	mov	w8, #4096                       // =0x1000
	stp	x29, x30, [sp, #16]             // 16-byte Folded Spill
	stp	x28, x27, [sp, #32]             // 16-byte Folded Spill
	add	x29, sp, #16
	stp	x26, x25, [sp, #48]             // 16-byte Folded Spill
	stp	x24, x23, [sp, #64]             // 16-byte Folded Spill
	csel	x24, x8, xzr, eq
	cmp	x3, #0
	stp	x22, x21, [sp, #80]             // 16-byte Folded Spill
	csel	x25, x8, xzr, eq
	cmp	x5, #0
	stp	x20, x19, [sp, #96]             // 16-byte Folded Spill
	csel	x9, x8, xzr, eq
	cmp	x7, #0
	ldr	x10, [x29, #96]
	csel	x26, x8, xzr, eq
	cmp	x6, x10
	b.ne	.Lgcm_BB78_3
// %bb.1:                               // %join.3.i
	mov	x8, #-2305843009213693952       // =0xe000000000000000
	mov	x10, #-2305843009213693951      // =0xe000000000000001
	add	x8, x2, x8
	cmp	x8, x10
	b.hs	.Lgcm_BB78_5
// %bb.2:
	mov	w8, #3                          // =0x3
	b	.Lgcm_BB78_4
.Lgcm_BB78_3:
	mov	w8, #10                         // =0xa
.Lgcm_BB78_4:                               // %"gcm_c::whole_to::fotsgure_gcm_seal_to.exit"
	ldp	x20, x19, [sp, #96]             // 16-byte Folded Reload
	mov	w0, w8
	ldp	x22, x21, [sp, #80]             // 16-byte Folded Reload
	ldp	x24, x23, [sp, #64]             // 16-byte Folded Reload
	ldp	x26, x25, [sp, #48]             // 16-byte Folded Reload
	ldp	x28, x27, [sp, #32]             // 16-byte Folded Reload
	ldp	x29, x30, [sp, #16]             // 16-byte Folded Reload
	add	sp, sp, #112
	movi	v0.2d, #0000000000000000
	movi	v1.2d, #0000000000000000
	movi	v2.2d, #0000000000000000
	movi	v3.2d, #0000000000000000
	movi	v4.2d, #0000000000000000
	movi	v5.2d, #0000000000000000
	movi	v6.2d, #0000000000000000
	movi	v7.2d, #0000000000000000
	movi	v16.2d, #0000000000000000
	movi	v17.2d, #0000000000000000
	movi	v18.2d, #0000000000000000
	movi	v19.2d, #0000000000000000
	movi	v20.2d, #0000000000000000
	movi	v21.2d, #0000000000000000
	movi	v22.2d, #0000000000000000
	movi	v23.2d, #0000000000000000
	movi	v24.2d, #0000000000000000
	movi	v25.2d, #0000000000000000
	movi	v26.2d, #0000000000000000
	movi	v27.2d, #0000000000000000
	movi	v28.2d, #0000000000000000
	movi	v29.2d, #0000000000000000
	movi	v30.2d, #0000000000000000
	movi	v31.2d, #0000000000000000
	fmov	d8, d8
	fmov	d9, d9
	fmov	d10, d10
	fmov	d11, d11
	fmov	d12, d12
	fmov	d13, d13
	fmov	d14, d14
	fmov	d15, d15
	mov	x1, xzr
	mov	x2, xzr
	mov	x3, xzr
	mov	x4, xzr
	mov	x5, xzr
	mov	x6, xzr
	mov	x7, xzr
	mov	x8, xzr
	mov	x9, xzr
	mov	x10, xzr
	mov	x11, xzr
	mov	x12, xzr
	mov	x13, xzr
	mov	x14, xzr
	mov	x15, xzr
	mov	x16, xzr
	mov	x17, xzr
	ret
.Lgcm_BB78_5:                               // %after.1.i.i
	lsr	x10, x4, #61
	mov	w8, #5                          // =0x5
	cbnz	x10, .Lgcm_BB78_4
// %bb.6:                               // %after.1.i.i
	mov	x10, #68719476704               // =0xfffffffe0
	cmp	x6, x10
	b.hi	.Lgcm_BB78_4
// %bb.7:                               // %after.11.i.i
	ldr	w10, [x0]
	mov	w8, #2                          // =0x2
	cmp	w10, #32
	b.hi	.Lgcm_BB78_4
// %bb.8:                               // %after.11.i.i
	mov	w11, #1                         // =0x1
	lsl	x10, x11, x10
	mov	x11, #16842752                  // =0x1010000
	movk	x11, #1, lsl #32
	tst	x10, x11
	b.eq	.Lgcm_BB78_4
// %bb.9:                               // %join.6.i
	ldr	x8, [x29, #104]
	mov	x20, x0
	add	x0, x5, x9
	mov	x21, x2
	add	x2, x7, x26
	mov	x27, x1
	mov	x1, x6
	str	x8, [sp, #8]                    // 8-byte Spill
	mov	x22, x6
	mov	x28, x7
	mov	x23, x4
	mov	x19, x3
	bl	gcm.gcm_c.whole_to.copy
	add	x1, x27, x24
	add	x3, x19, x25
	add	x5, x28, x26
	mov	x0, x20
	mov	x2, x21
	mov	x4, x23
	mov	x6, x22
	ldp	x20, x19, [sp, #96]             // 16-byte Folded Reload
	ldp	x22, x21, [sp, #80]             // 16-byte Folded Reload
	ldr	x7, [sp, #8]                    // 8-byte Reload
	ldp	x24, x23, [sp, #64]             // 16-byte Folded Reload
	ldp	x26, x25, [sp, #48]             // 16-byte Folded Reload
	ldp	x28, x27, [sp, #32]             // 16-byte Folded Reload
	ldp	x29, x30, [sp, #16]             // 16-byte Folded Reload
	add	sp, sp, #112
	b	gcm.gcm_c.whole.fotsgure_gcm_seal
.Lgcm_func_end78:
	.size	gcm.fotsgure_gcm_seal_to, .Lgcm_func_end78-gcm.fotsgure_gcm_seal_to
                                        // -- End function
	.section	.text.gcm.fotsgure_gcm_siv_open,"ax",@progbits
	export_gcm	fotsgure_gcm_siv_open
	.p2align	2
	.type	gcm.fotsgure_gcm_siv_open,@function
gcm.fotsgure_gcm_siv_open:                  // @gcm.fotsgure_gcm_siv_open
	hint	#34
// %bb.0:                               // %start
	cmp	x2, #0
	mov	w9, #4096                       // =0x1000
	mov	x12, #68719476736               // =0x1000000000
	csel	x10, x9, xzr, eq
	cmp	x4, #0
	csel	x11, x9, xzr, eq
	cmp	x3, x12
	mov	w9, #5                          // =0x5
	b.hi	.Lgcm_BB79_9
// %bb.1:                               // %start
	mov	x7, x6
	mov	x6, x5
	cmp	x5, x12
	b.hi	.Lgcm_BB79_9
// %bb.2:                               // %after.1.i.i
	mov	x8, x1
	ldr	w1, [x0]
	cmp	w1, #32
	b.eq	.Lgcm_BB79_4
// %bb.3:                               // %after.1.i.i
	cmp	w1, #16
	b.ne	.Lgcm_BB79_10
.Lgcm_BB79_4:                               // %join.3.i
	sub	sp, sp, #48
	lsr	x9, x1, #2
	add	x12, x0, #4
	cmp	x3, #160
	stp	x29, x30, [sp, #32]             // 16-byte Folded Spill
	add	x29, sp, #32
	add	x9, x9, #7
	stp	x12, x9, [sp]
	stp	x12, x9, [sp, #16]
	b.hi	.Lgcm_BB79_7
// %bb.5:                               // %join.3.i
	mov	w9, #160                        // =0xa0
	sub	x9, x9, x3
	cmp	x6, x9
	b.hi	.Lgcm_BB79_7
// %bb.6:                               // %then.1.i.i
	mov	x9, x3
	mov	x0, sp
	add	x3, x2, x10
	add	x5, x4, x11
	mov	x2, x8
	mov	x4, x9
	bl	gcm.gcm_siv.course.open_in.1
	b	.Lgcm_BB79_8
.Lgcm_BB79_7:                               // %else.2.i.i
	mov	x9, x3
	mov	x0, sp
	add	x3, x2, x10
	add	x5, x4, x11
	mov	x2, x8
	mov	x4, x9
	bl	gcm.gcm_siv.course.open_in.2
.Lgcm_BB79_8:                               // %"gcm_siv::course::open_message::<#c90a668d6150d2aa>.exit.i"
	ldp	x29, x30, [sp, #32]             // 16-byte Folded Reload
	cmp	w0, #0
	mov	w8, #6                          // =0x6
	csel	w9, wzr, w8, ne
	add	sp, sp, #48
.Lgcm_BB79_9:                               // %"gcm_c::siv::fotsgure_gcm_siv_open.exit"
	mov	w0, w9
	movi	v0.2d, #0000000000000000
	movi	v1.2d, #0000000000000000
	movi	v2.2d, #0000000000000000
	movi	v3.2d, #0000000000000000
	movi	v4.2d, #0000000000000000
	movi	v5.2d, #0000000000000000
	movi	v6.2d, #0000000000000000
	movi	v7.2d, #0000000000000000
	movi	v16.2d, #0000000000000000
	movi	v17.2d, #0000000000000000
	movi	v18.2d, #0000000000000000
	movi	v19.2d, #0000000000000000
	movi	v20.2d, #0000000000000000
	movi	v21.2d, #0000000000000000
	movi	v22.2d, #0000000000000000
	movi	v23.2d, #0000000000000000
	movi	v24.2d, #0000000000000000
	movi	v25.2d, #0000000000000000
	movi	v26.2d, #0000000000000000
	movi	v27.2d, #0000000000000000
	movi	v28.2d, #0000000000000000
	movi	v29.2d, #0000000000000000
	movi	v30.2d, #0000000000000000
	movi	v31.2d, #0000000000000000
	fmov	d8, d8
	fmov	d9, d9
	fmov	d10, d10
	fmov	d11, d11
	fmov	d12, d12
	fmov	d13, d13
	fmov	d14, d14
	fmov	d15, d15
	mov	x1, xzr
	mov	x2, xzr
	mov	x3, xzr
	mov	x4, xzr
	mov	x5, xzr
	mov	x6, xzr
	mov	x7, xzr
	mov	x8, xzr
	mov	x9, xzr
	mov	x10, xzr
	mov	x11, xzr
	mov	x12, xzr
	mov	x13, xzr
	mov	x14, xzr
	mov	x15, xzr
	mov	x16, xzr
	mov	x17, xzr
	ret
.Lgcm_BB79_10:
	mov	w0, #2                          // =0x2
	movi	v0.2d, #0000000000000000
	movi	v1.2d, #0000000000000000
	movi	v2.2d, #0000000000000000
	movi	v3.2d, #0000000000000000
	movi	v4.2d, #0000000000000000
	movi	v5.2d, #0000000000000000
	movi	v6.2d, #0000000000000000
	movi	v7.2d, #0000000000000000
	movi	v16.2d, #0000000000000000
	movi	v17.2d, #0000000000000000
	movi	v18.2d, #0000000000000000
	movi	v19.2d, #0000000000000000
	movi	v20.2d, #0000000000000000
	movi	v21.2d, #0000000000000000
	movi	v22.2d, #0000000000000000
	movi	v23.2d, #0000000000000000
	movi	v24.2d, #0000000000000000
	movi	v25.2d, #0000000000000000
	movi	v26.2d, #0000000000000000
	movi	v27.2d, #0000000000000000
	movi	v28.2d, #0000000000000000
	movi	v29.2d, #0000000000000000
	movi	v30.2d, #0000000000000000
	movi	v31.2d, #0000000000000000
	fmov	d8, d8
	fmov	d9, d9
	fmov	d10, d10
	fmov	d11, d11
	fmov	d12, d12
	fmov	d13, d13
	fmov	d14, d14
	fmov	d15, d15
	mov	x1, xzr
	mov	x2, xzr
	mov	x3, xzr
	mov	x4, xzr
	mov	x5, xzr
	mov	x6, xzr
	mov	x7, xzr
	mov	x8, xzr
	mov	x9, xzr
	mov	x10, xzr
	mov	x11, xzr
	mov	x12, xzr
	mov	x13, xzr
	mov	x14, xzr
	mov	x15, xzr
	mov	x16, xzr
	mov	x17, xzr
	ret
.Lgcm_func_end79:
	.size	gcm.fotsgure_gcm_siv_open, .Lgcm_func_end79-gcm.fotsgure_gcm_siv_open
                                        // -- End function
	.section	.text.gcm.fotsgure_gcm_siv_open_to,"ax",@progbits
	export_gcm	fotsgure_gcm_siv_open_to
	.p2align	2
	.type	gcm.fotsgure_gcm_siv_open_to,@function
gcm.fotsgure_gcm_siv_open_to:               // @gcm.fotsgure_gcm_siv_open_to
	hint	#34
// %bb.0:                               // %start
	sub	sp, sp, #112
	cmp	x2, #0
	mov	w8, #4096                       // =0x1000
	stp	x22, x21, [sp, #80]             // 16-byte Folded Spill
	csel	x21, x8, xzr, eq
	cmp	x4, #0
	stp	x29, x30, [sp, #32]             // 16-byte Folded Spill
	csel	x10, x8, xzr, eq
	cmp	x6, #0
	str	x25, [sp, #48]                  // 8-byte Spill
	csel	x9, x8, xzr, eq
	cmp	x5, x7
	stp	x24, x23, [sp, #64]             // 16-byte Folded Spill
	stp	x20, x19, [sp, #96]             // 16-byte Folded Spill
	add	x29, sp, #32
	b.ne	.Lgcm_BB80_11
// %bb.1:                               // %join.3.i
	mov	x8, #68719476736                // =0x1000000000
	mov	w20, #5                         // =0x5
	cmp	x3, x8
	b.hi	.Lgcm_BB80_12
// %bb.2:                               // %join.3.i
	cmp	x5, x8
	b.hi	.Lgcm_BB80_12
// %bb.3:                               // %after.1.i.i
	ldr	w8, [x0]
	cmp	w8, #32
	b.eq	.Lgcm_BB80_5
// %bb.4:                               // %after.1.i.i
	cmp	w8, #16
	b.ne	.Lgcm_BB80_20
.Lgcm_BB80_5:                               // %join.6.i
	add	x8, x4, x10
	add	x19, x6, x9
	sub	x11, x19, x8
	cmp	x11, x5
	b.hs	.Lgcm_BB80_13
// %bb.6:                               // %iter.check
	cmp	x5, #8
	b.lo	.Lgcm_BB80_8
// %bb.7:                               // %vector.memcheck
	add	x8, x9, x6
	add	x11, x10, x4
	sub	x8, x8, x11
	cmp	x8, #32
	b.hs	.Lgcm_BB80_27
.Lgcm_BB80_8:
	mov	x20, x1
	mov	x8, xzr
.Lgcm_BB80_9:                               // %join.7.i.i.i.i.i.i.i.preheader
	add	x10, x10, x8
	add	x11, x9, x8
	sub	x8, x5, x8
	add	x9, x4, x10
	add	x10, x6, x11
.Lgcm_BB80_10:                              // %join.7.i.i.i.i.i.i.i
                                        // =>This Inner Loop Header: Depth=1
	ldrb	w11, [x9], #1
	subs	x8, x8, #1
	strb	w11, [x10], #1
	b.ne	.Lgcm_BB80_10
	b	.Lgcm_BB80_14
.Lgcm_BB80_11:
	mov	w20, #10                        // =0xa
.Lgcm_BB80_12:                              // %"gcm_c::siv_to::fotsgure_gcm_siv_open_to.exit"
	mov	w0, w20
	ldp	x20, x19, [sp, #96]             // 16-byte Folded Reload
	ldp	x22, x21, [sp, #80]             // 16-byte Folded Reload
	ldr	x25, [sp, #48]                  // 8-byte Reload
	ldp	x24, x23, [sp, #64]             // 16-byte Folded Reload
	ldp	x29, x30, [sp, #32]             // 16-byte Folded Reload
	add	sp, sp, #112
	movi	v0.2d, #0000000000000000
	movi	v1.2d, #0000000000000000
	movi	v2.2d, #0000000000000000
	movi	v3.2d, #0000000000000000
	movi	v4.2d, #0000000000000000
	movi	v5.2d, #0000000000000000
	movi	v6.2d, #0000000000000000
	movi	v7.2d, #0000000000000000
	movi	v16.2d, #0000000000000000
	movi	v17.2d, #0000000000000000
	movi	v18.2d, #0000000000000000
	movi	v19.2d, #0000000000000000
	movi	v20.2d, #0000000000000000
	movi	v21.2d, #0000000000000000
	movi	v22.2d, #0000000000000000
	movi	v23.2d, #0000000000000000
	movi	v24.2d, #0000000000000000
	movi	v25.2d, #0000000000000000
	movi	v26.2d, #0000000000000000
	movi	v27.2d, #0000000000000000
	movi	v28.2d, #0000000000000000
	movi	v29.2d, #0000000000000000
	movi	v30.2d, #0000000000000000
	movi	v31.2d, #0000000000000000
	fmov	d8, d8
	fmov	d9, d9
	fmov	d10, d10
	fmov	d11, d11
	fmov	d12, d12
	fmov	d13, d13
	fmov	d14, d14
	fmov	d15, d15
	mov	x1, xzr
	mov	x2, xzr
	mov	x3, xzr
	mov	x4, xzr
	mov	x5, xzr
	mov	x6, xzr
	mov	x7, xzr
	mov	x8, xzr
	mov	x9, xzr
	mov	x10, xzr
	mov	x11, xzr
	mov	x12, xzr
	mov	x13, xzr
	mov	x14, xzr
	mov	x15, xzr
	mov	x16, xzr
	mov	x17, xzr
	ret
.Lgcm_BB80_13:                              // %apart.2.i.i.i.i.i.i.i
	mov	x20, x1
	mov	x22, x0
	mov	x0, x19
	mov	x1, x8
	mov	x23, x2
	mov	x2, x5
	mov	x24, x5
	mov	x25, x3
	adrp	x16, :got:memmove
	ldr	x16, [x16, :got_lo12:memmove]
	blr	x16
	mov	x0, x22
	mov	x2, x23
	mov	x3, x25
	mov	x5, x24
.Lgcm_BB80_14:                              // %after.1.i.i.i
	ldr	w1, [x0]
	cmp	w1, #32
	b.eq	.Lgcm_BB80_16
// %bb.15:                              // %after.1.i.i.i
	cmp	w1, #16
	b.ne	.Lgcm_BB80_23
.Lgcm_BB80_16:                              // %join.3.i.i
	lsr	x8, x1, #2
	ldr	x7, [x29, #80]
	add	x9, x0, #4
	cmp	x3, #160
	add	x8, x8, #7
	stp	x9, x8, [sp]
	stp	x9, x8, [sp, #16]
	b.hi	.Lgcm_BB80_21
// %bb.17:                              // %join.3.i.i
	mov	w8, #160                        // =0xa0
	sub	x8, x8, x3
	cmp	x5, x8
	b.hi	.Lgcm_BB80_21
// %bb.18:                              // %then.1.i.i.i
	mov	x0, sp
	mov	x4, x3
	add	x3, x2, x21
	mov	x2, x20
	mov	x6, x5
	mov	x5, x19
	mov	x21, x6
	bl	gcm.gcm_siv.course.open_in.1
	tbnz	w0, #0, .Lgcm_BB80_22
.Lgcm_BB80_19:
	mov	w20, #6                         // =0x6
	mov	x5, x21
	cbnz	x21, .Lgcm_BB80_24
	b	.Lgcm_BB80_12
.Lgcm_BB80_20:
	mov	w20, #2                         // =0x2
	b	.Lgcm_BB80_12
.Lgcm_BB80_21:                              // %"gcm_siv::course::open_message::<#c90a668d6150d2aa>.exit.i.i"
	mov	x0, sp
	mov	x4, x3
	add	x3, x2, x21
	mov	x2, x20
	mov	x6, x5
	mov	x5, x19
	mov	x21, x6
	bl	gcm.gcm_siv.course.open_in.2
	cbz	w0, .Lgcm_BB80_19
.Lgcm_BB80_22:                              // %"gcm_c::siv::fotsgure_gcm_siv_open.exit.i"
	mov	w20, wzr
	b	.Lgcm_BB80_12
.Lgcm_BB80_23:
	mov	w20, #2                         // =0x2
	cbz	x5, .Lgcm_BB80_12
.Lgcm_BB80_24:                              // %loop.5.preheader.i.i
	subs	x21, x5, #1
	b.eq	.Lgcm_BB80_26
// %bb.25:                              // %join.8.preheader.i.i
	mov	x0, x19
	mov	w1, wzr
	mov	x2, x21
	adrp	x16, :got:memset
	ldr	x16, [x16, :got_lo12:memset]
	blr	x16
.Lgcm_BB80_26:                              // %after.4.i.i
	strb	wzr, [x19, x21]
	b	.Lgcm_BB80_12
.Lgcm_BB80_27:                              // %vector.main.loop.iter.check
	cmp	x5, #32
	b.hs	.Lgcm_BB80_29
// %bb.28:
	mov	x20, x1
	mov	x8, xzr
	b	.Lgcm_BB80_33
.Lgcm_BB80_29:                              // %vector.ph
	add	x12, x10, x4
	add	x13, x9, x6
	and	x11, x5, #0x18
	and	x8, x5, #0x1fffffffe0
	add	x12, x12, #16
	add	x13, x13, #16
	and	x14, x5, #0x1fffffffe0
.Lgcm_BB80_30:                              // %vector.body
                                        // =>This Inner Loop Header: Depth=1
	ldp	q0, q1, [x12, #-16]
	subs	x14, x14, #32
	add	x12, x12, #32
	stp	q0, q1, [x13, #-16]
	add	x13, x13, #32
	b.ne	.Lgcm_BB80_30
// %bb.31:                              // %middle.block
	mov	x20, x1
	cmp	x5, x8
	b.eq	.Lgcm_BB80_14
// %bb.32:                              // %vec.epilog.iter.check
	cbz	x11, .Lgcm_BB80_9
.Lgcm_BB80_33:                              // %vec.epilog.ph
	mov	x11, x8
	and	x8, x5, #0x1ffffffff8
	add	x12, x10, x11
	add	x13, x9, x11
	sub	x11, x11, x8
	add	x12, x4, x12
	add	x13, x6, x13
.Lgcm_BB80_34:                              // %vec.epilog.vector.body
                                        // =>This Inner Loop Header: Depth=1
	ldr	d0, [x12], #8
	adds	x11, x11, #8
	str	d0, [x13], #8
	b.ne	.Lgcm_BB80_34
// %bb.35:                              // %vec.epilog.middle.block
	cmp	x5, x8
	b.ne	.Lgcm_BB80_9
	b	.Lgcm_BB80_14
.Lgcm_func_end80:
	.size	gcm.fotsgure_gcm_siv_open_to, .Lgcm_func_end80-gcm.fotsgure_gcm_siv_open_to
                                        // -- End function
	.section	.text.gcm.fotsgure_gcm_siv_seal,"ax",@progbits
	export_gcm	fotsgure_gcm_siv_seal
	.p2align	2
	.type	gcm.fotsgure_gcm_siv_seal,@function
gcm.fotsgure_gcm_siv_seal:                  // @gcm.fotsgure_gcm_siv_seal
	hint	#34
// %bb.0:                               // %start
	cmp	x2, #0
	mov	w8, #4096                       // =0x1000
	mov	x11, #68719476736               // =0x1000000000
	csel	x9, x8, xzr, eq
	cmp	x4, #0
	mov	x7, x5
	mov	x5, x3
	csel	x10, x8, xzr, eq
	cmp	x3, x11
	mov	w8, #5                          // =0x5
	b.hi	.Lgcm_BB81_9
// %bb.1:                               // %start
	cmp	x7, x11
	b.hi	.Lgcm_BB81_9
// %bb.2:                               // %after.1.i.i
	ldr	w8, [x0]
	mov	x3, x1
	cmp	w8, #32
	b.eq	.Lgcm_BB81_4
// %bb.3:                               // %after.1.i.i
	cmp	w8, #16
	b.ne	.Lgcm_BB81_10
.Lgcm_BB81_4:                               // %join.3.i
	sub	sp, sp, #80
	lsr	x12, x8, #2
	stp	x29, x30, [sp, #48]             // 16-byte Folded Spill
	add	x29, sp, #48
	str	x19, [sp, #64]                  // 8-byte Spill
	mov	x11, x4
	mov	x19, x6
	add	x13, x0, #4
	add	x12, x12, #7
	cmp	x5, #160
	stp	x13, x12, [sp]
	stp	x13, x12, [sp, #16]
	stp	xzr, xzr, [x29, #-16]
	b.hi	.Lgcm_BB81_7
// %bb.5:                               // %join.3.i
	mov	w12, #160                       // =0xa0
	sub	x12, x12, x5
	cmp	x7, x12
	b.hi	.Lgcm_BB81_7
// %bb.6:                               // %then.1.i.i
	sub	x0, x29, #16
	mov	x1, sp
	add	x4, x2, x9
	add	x6, x11, x10
	mov	x2, x8
	bl	gcm.gcm_siv.course.seal_in.1
	b	.Lgcm_BB81_8
.Lgcm_BB81_7:                               // %else.2.i.i
	sub	x0, x29, #16
	mov	x1, sp
	add	x4, x2, x9
	add	x6, x11, x10
	mov	x2, x8
	bl	gcm.gcm_siv.course.seal_in.2
.Lgcm_BB81_8:                               // %"gcm_siv::course::seal_message::<#c90a668d6150d2aa>.exit.i"
	ldur	q0, [x29, #-16]
	ldp	x29, x30, [sp, #48]             // 16-byte Folded Reload
	mov	w8, wzr
	str	q0, [x19]
	ldr	x19, [sp, #64]                  // 8-byte Reload
	add	sp, sp, #80
.Lgcm_BB81_9:                               // %"gcm_c::siv::fotsgure_gcm_siv_seal.exit"
	mov	w0, w8
	movi	v0.2d, #0000000000000000
	movi	v1.2d, #0000000000000000
	movi	v2.2d, #0000000000000000
	movi	v3.2d, #0000000000000000
	movi	v4.2d, #0000000000000000
	movi	v5.2d, #0000000000000000
	movi	v6.2d, #0000000000000000
	movi	v7.2d, #0000000000000000
	movi	v16.2d, #0000000000000000
	movi	v17.2d, #0000000000000000
	movi	v18.2d, #0000000000000000
	movi	v19.2d, #0000000000000000
	movi	v20.2d, #0000000000000000
	movi	v21.2d, #0000000000000000
	movi	v22.2d, #0000000000000000
	movi	v23.2d, #0000000000000000
	movi	v24.2d, #0000000000000000
	movi	v25.2d, #0000000000000000
	movi	v26.2d, #0000000000000000
	movi	v27.2d, #0000000000000000
	movi	v28.2d, #0000000000000000
	movi	v29.2d, #0000000000000000
	movi	v30.2d, #0000000000000000
	movi	v31.2d, #0000000000000000
	fmov	d8, d8
	fmov	d9, d9
	fmov	d10, d10
	fmov	d11, d11
	fmov	d12, d12
	fmov	d13, d13
	fmov	d14, d14
	fmov	d15, d15
	mov	x1, xzr
	mov	x2, xzr
	mov	x3, xzr
	mov	x4, xzr
	mov	x5, xzr
	mov	x6, xzr
	mov	x7, xzr
	mov	x8, xzr
	mov	x9, xzr
	mov	x10, xzr
	mov	x11, xzr
	mov	x12, xzr
	mov	x13, xzr
	mov	x14, xzr
	mov	x15, xzr
	mov	x16, xzr
	mov	x17, xzr
	ret
.Lgcm_BB81_10:
	mov	w0, #2                          // =0x2
	movi	v0.2d, #0000000000000000
	movi	v1.2d, #0000000000000000
	movi	v2.2d, #0000000000000000
	movi	v3.2d, #0000000000000000
	movi	v4.2d, #0000000000000000
	movi	v5.2d, #0000000000000000
	movi	v6.2d, #0000000000000000
	movi	v7.2d, #0000000000000000
	movi	v16.2d, #0000000000000000
	movi	v17.2d, #0000000000000000
	movi	v18.2d, #0000000000000000
	movi	v19.2d, #0000000000000000
	movi	v20.2d, #0000000000000000
	movi	v21.2d, #0000000000000000
	movi	v22.2d, #0000000000000000
	movi	v23.2d, #0000000000000000
	movi	v24.2d, #0000000000000000
	movi	v25.2d, #0000000000000000
	movi	v26.2d, #0000000000000000
	movi	v27.2d, #0000000000000000
	movi	v28.2d, #0000000000000000
	movi	v29.2d, #0000000000000000
	movi	v30.2d, #0000000000000000
	movi	v31.2d, #0000000000000000
	fmov	d8, d8
	fmov	d9, d9
	fmov	d10, d10
	fmov	d11, d11
	fmov	d12, d12
	fmov	d13, d13
	fmov	d14, d14
	fmov	d15, d15
	mov	x1, xzr
	mov	x2, xzr
	mov	x3, xzr
	mov	x4, xzr
	mov	x5, xzr
	mov	x6, xzr
	mov	x7, xzr
	mov	x8, xzr
	mov	x9, xzr
	mov	x10, xzr
	mov	x11, xzr
	mov	x12, xzr
	mov	x13, xzr
	mov	x14, xzr
	mov	x15, xzr
	mov	x16, xzr
	mov	x17, xzr
	ret
.Lgcm_func_end81:
	.size	gcm.fotsgure_gcm_siv_seal, .Lgcm_func_end81-gcm.fotsgure_gcm_siv_seal
                                        // -- End function
	.section	.text.gcm.fotsgure_gcm_siv_seal_to,"ax",@progbits
	export_gcm	fotsgure_gcm_siv_seal_to
	.p2align	2
	.type	gcm.fotsgure_gcm_siv_seal_to,@function
gcm.fotsgure_gcm_siv_seal_to:               // @gcm.fotsgure_gcm_siv_seal_to
	hint	#34
// %bb.0:                               // %start
	sub	sp, sp, #128
	cmp	x2, #0
	mov	w8, #4096                       // =0x1000
	stp	x22, x21, [sp, #96]             // 16-byte Folded Spill
	csel	x21, x8, xzr, eq
	cmp	x4, #0
	stp	x29, x30, [sp, #48]             // 16-byte Folded Spill
	csel	x10, x8, xzr, eq
	cmp	x6, #0
	str	x25, [sp, #64]                  // 8-byte Spill
	csel	x9, x8, xzr, eq
	cmp	x5, x7
	stp	x24, x23, [sp, #80]             // 16-byte Folded Spill
	stp	x20, x19, [sp, #112]            // 16-byte Folded Spill
	add	x29, sp, #48
	b.ne	.Lgcm_BB82_11
// %bb.1:                               // %join.3.i
	mov	x11, #68719476736               // =0x1000000000
	mov	w8, #5                          // =0x5
	cmp	x3, x11
	b.hi	.Lgcm_BB82_21
// %bb.2:                               // %join.3.i
	cmp	x5, x11
	b.hi	.Lgcm_BB82_21
// %bb.3:                               // %after.1.i.i
	ldr	w8, [x0]
	cmp	w8, #32
	b.eq	.Lgcm_BB82_5
// %bb.4:                               // %after.1.i.i
	cmp	w8, #16
	b.ne	.Lgcm_BB82_18
.Lgcm_BB82_5:                               // %join.6.i
	add	x8, x4, x10
	add	x19, x6, x9
	sub	x11, x19, x8
	cmp	x11, x5
	b.hs	.Lgcm_BB82_12
// %bb.6:                               // %iter.check
	cmp	x5, #8
	b.lo	.Lgcm_BB82_8
// %bb.7:                               // %vector.memcheck
	add	x8, x9, x6
	add	x11, x10, x4
	sub	x8, x8, x11
	cmp	x8, #32
	b.hs	.Lgcm_BB82_22
.Lgcm_BB82_8:
	mov	x20, x1
	mov	x8, xzr
.Lgcm_BB82_9:                               // %join.7.i.i.i.i.i.i.i.preheader
	add	x10, x10, x8
	add	x11, x9, x8
	sub	x8, x5, x8
	add	x9, x4, x10
	add	x10, x6, x11
.Lgcm_BB82_10:                              // %join.7.i.i.i.i.i.i.i
                                        // =>This Inner Loop Header: Depth=1
	ldrb	w11, [x9], #1
	subs	x8, x8, #1
	strb	w11, [x10], #1
	b.ne	.Lgcm_BB82_10
	b	.Lgcm_BB82_13
.Lgcm_BB82_11:
	mov	w8, #10                         // =0xa
	b	.Lgcm_BB82_21
.Lgcm_BB82_12:                              // %apart.2.i.i.i.i.i.i.i
	mov	x20, x1
	mov	x22, x0
	mov	x0, x19
	mov	x1, x8
	mov	x23, x2
	mov	x2, x5
	mov	x24, x5
	mov	x25, x3
	adrp	x16, :got:memmove
	ldr	x16, [x16, :got_lo12:memmove]
	blr	x16
	mov	x0, x22
	mov	x2, x23
	mov	x3, x25
	mov	x5, x24
.Lgcm_BB82_13:                              // %after.1.i.i.i
	ldr	w8, [x0]
	cmp	w8, #32
	b.eq	.Lgcm_BB82_15
// %bb.14:                              // %after.1.i.i.i
	cmp	w8, #16
	b.ne	.Lgcm_BB82_18
.Lgcm_BB82_15:                              // %join.3.i.i
	lsr	x9, x8, #2
	ldr	x22, [x29, #80]
	add	x10, x0, #4
	cmp	x3, #160
	stp	xzr, xzr, [x29, #-16]
	add	x9, x9, #7
	stp	x10, x9, [sp]
	stp	x10, x9, [sp, #16]
	b.hi	.Lgcm_BB82_19
// %bb.16:                              // %join.3.i.i
	mov	w9, #160                        // =0xa0
	sub	x9, x9, x3
	cmp	x5, x9
	b.hi	.Lgcm_BB82_19
// %bb.17:                              // %then.1.i.i.i
	add	x4, x2, x21
	mov	x2, x8
	mov	x8, x3
	sub	x0, x29, #16
	mov	x1, sp
	mov	x3, x20
	mov	x7, x5
	mov	x5, x8
	mov	x6, x19
	bl	gcm.gcm_siv.course.seal_in.1
	b	.Lgcm_BB82_20
.Lgcm_BB82_18:
	mov	w8, #2                          // =0x2
	b	.Lgcm_BB82_21
.Lgcm_BB82_19:                              // %else.2.i.i.i
	add	x4, x2, x21
	mov	x2, x8
	mov	x8, x3
	sub	x0, x29, #16
	mov	x1, sp
	mov	x3, x20
	mov	x7, x5
	mov	x5, x8
	mov	x6, x19
	bl	gcm.gcm_siv.course.seal_in.2
.Lgcm_BB82_20:                              // %"gcm_siv::course::seal_message::<#c90a668d6150d2aa>.exit.i.i"
	ldur	q0, [x29, #-16]
	mov	w8, wzr
	str	q0, [x22]
.Lgcm_BB82_21:                              // %"gcm_c::siv_to::fotsgure_gcm_siv_seal_to.exit"
	ldp	x20, x19, [sp, #112]            // 16-byte Folded Reload
	mov	w0, w8
	ldp	x22, x21, [sp, #96]             // 16-byte Folded Reload
	ldr	x25, [sp, #64]                  // 8-byte Reload
	ldp	x24, x23, [sp, #80]             // 16-byte Folded Reload
	ldp	x29, x30, [sp, #48]             // 16-byte Folded Reload
	add	sp, sp, #128
	movi	v0.2d, #0000000000000000
	movi	v1.2d, #0000000000000000
	movi	v2.2d, #0000000000000000
	movi	v3.2d, #0000000000000000
	movi	v4.2d, #0000000000000000
	movi	v5.2d, #0000000000000000
	movi	v6.2d, #0000000000000000
	movi	v7.2d, #0000000000000000
	movi	v16.2d, #0000000000000000
	movi	v17.2d, #0000000000000000
	movi	v18.2d, #0000000000000000
	movi	v19.2d, #0000000000000000
	movi	v20.2d, #0000000000000000
	movi	v21.2d, #0000000000000000
	movi	v22.2d, #0000000000000000
	movi	v23.2d, #0000000000000000
	movi	v24.2d, #0000000000000000
	movi	v25.2d, #0000000000000000
	movi	v26.2d, #0000000000000000
	movi	v27.2d, #0000000000000000
	movi	v28.2d, #0000000000000000
	movi	v29.2d, #0000000000000000
	movi	v30.2d, #0000000000000000
	movi	v31.2d, #0000000000000000
	fmov	d8, d8
	fmov	d9, d9
	fmov	d10, d10
	fmov	d11, d11
	fmov	d12, d12
	fmov	d13, d13
	fmov	d14, d14
	fmov	d15, d15
	mov	x1, xzr
	mov	x2, xzr
	mov	x3, xzr
	mov	x4, xzr
	mov	x5, xzr
	mov	x6, xzr
	mov	x7, xzr
	mov	x8, xzr
	mov	x9, xzr
	mov	x10, xzr
	mov	x11, xzr
	mov	x12, xzr
	mov	x13, xzr
	mov	x14, xzr
	mov	x15, xzr
	mov	x16, xzr
	mov	x17, xzr
	ret
.Lgcm_BB82_22:                              // %vector.main.loop.iter.check
	cmp	x5, #32
	b.hs	.Lgcm_BB82_24
// %bb.23:
	mov	x20, x1
	mov	x8, xzr
	b	.Lgcm_BB82_28
.Lgcm_BB82_24:                              // %vector.ph
	add	x12, x10, x4
	add	x13, x9, x6
	and	x11, x5, #0x18
	and	x8, x5, #0x1fffffffe0
	add	x12, x12, #16
	add	x13, x13, #16
	and	x14, x5, #0x1fffffffe0
.Lgcm_BB82_25:                              // %vector.body
                                        // =>This Inner Loop Header: Depth=1
	ldp	q0, q1, [x12, #-16]
	subs	x14, x14, #32
	add	x12, x12, #32
	stp	q0, q1, [x13, #-16]
	add	x13, x13, #32
	b.ne	.Lgcm_BB82_25
// %bb.26:                              // %middle.block
	mov	x20, x1
	cmp	x5, x8
	b.eq	.Lgcm_BB82_13
// %bb.27:                              // %vec.epilog.iter.check
	cbz	x11, .Lgcm_BB82_9
.Lgcm_BB82_28:                              // %vec.epilog.ph
	mov	x11, x8
	and	x8, x5, #0x1ffffffff8
	add	x12, x10, x11
	add	x13, x9, x11
	sub	x11, x11, x8
	add	x12, x4, x12
	add	x13, x6, x13
.Lgcm_BB82_29:                              // %vec.epilog.vector.body
                                        // =>This Inner Loop Header: Depth=1
	ldr	d0, [x12], #8
	adds	x11, x11, #8
	str	d0, [x13], #8
	b.ne	.Lgcm_BB82_29
// %bb.30:                              // %vec.epilog.middle.block
	cmp	x5, x8
	b.ne	.Lgcm_BB82_9
	b	.Lgcm_BB82_13
.Lgcm_func_end82:
	.size	gcm.fotsgure_gcm_siv_seal_to, .Lgcm_func_end82-gcm.fotsgure_gcm_siv_seal_to
                                        // -- End function
	.section	.text.gcm.fotsgure_gcm_additional,"ax",@progbits
	export_gcm	fotsgure_gcm_additional
	.p2align	2
	.type	gcm.fotsgure_gcm_additional,@function
gcm.fotsgure_gcm_additional:                // @gcm.fotsgure_gcm_additional
	hint	#34
// %bb.0:                               // %start
	ldr	w10, [x0]
	cmp	x2, #0
	mov	w8, #4096                       // =0x1000
	csel	x9, x8, xzr, eq
	mov	w8, #2                          // =0x2
	cmp	w10, #32
	b.hi	.Lgcm_BB83_8
// %bb.1:                               // %start
	mov	w11, #1                         // =0x1
	mov	x12, #16842752                  // =0x1010000
	lsl	x11, x11, x10
	movk	x12, #1, lsl #32
	tst	x11, x12
	b.eq	.Lgcm_BB83_8
// %bb.2:                               // %join.3.i
	sub	sp, sp, #80
	lsr	x8, x10, #2
	ldr	x11, [x1, #24]
	add	x10, x0, #4
	str	x10, [sp, #8]
	add	x8, x8, #7
	cmp	x11, #1
	stp	x29, x30, [sp, #48]             // 16-byte Folded Spill
	stp	x8, x10, [sp, #16]
	add	x10, x0, #244
	add	x29, sp, #48
	stp	x20, x19, [sp, #64]             // 16-byte Folded Spill
	stp	x8, x10, [sp, #32]
	b.ne	.Lgcm_BB83_5
// %bb.3:                               // %join.3.i.i
	ldr	x8, [x1]
	adds	x10, x3, x8
	csinv	x10, x10, xzr, lo
	lsr	x10, x10, #61
	cbz	x10, .Lgcm_BB83_6
// %bb.4:
	mov	w8, #5                          // =0x5
	b	.Lgcm_BB83_7
.Lgcm_BB83_5:
	mov	w8, #8                          // =0x8
	b	.Lgcm_BB83_7
.Lgcm_BB83_6:                               // %arm.4.i
	add	x10, sp, #8
	mov	x20, x1
	mov	x19, x3
	add	x0, x10, #32
	mov	x10, x2
	add	x1, x1, #48
	add	x2, x20, #64
	and	x3, x8, #0xf
	add	x4, x10, x9
	mov	x5, x19
	bl	gcm.gcm.hash_room.hash_piece
	bl	gcm.aes_cipher.zeroize.stack.wipe_stack.512
	ldr	x9, [x20]
	mov	w8, wzr
	add	x9, x9, x19
	str	x9, [x20]
.Lgcm_BB83_7:
	ldp	x20, x19, [sp, #64]             // 16-byte Folded Reload
	ldp	x29, x30, [sp, #48]             // 16-byte Folded Reload
	add	sp, sp, #80
.Lgcm_BB83_8:                               // %"gcm_c::pieces::fotsgure_gcm_additional.exit"
	mov	w0, w8
	movi	v0.2d, #0000000000000000
	movi	v1.2d, #0000000000000000
	movi	v2.2d, #0000000000000000
	movi	v3.2d, #0000000000000000
	movi	v4.2d, #0000000000000000
	movi	v5.2d, #0000000000000000
	movi	v6.2d, #0000000000000000
	movi	v7.2d, #0000000000000000
	movi	v16.2d, #0000000000000000
	movi	v17.2d, #0000000000000000
	movi	v18.2d, #0000000000000000
	movi	v19.2d, #0000000000000000
	movi	v20.2d, #0000000000000000
	movi	v21.2d, #0000000000000000
	movi	v22.2d, #0000000000000000
	movi	v23.2d, #0000000000000000
	movi	v24.2d, #0000000000000000
	movi	v25.2d, #0000000000000000
	movi	v26.2d, #0000000000000000
	movi	v27.2d, #0000000000000000
	movi	v28.2d, #0000000000000000
	movi	v29.2d, #0000000000000000
	movi	v30.2d, #0000000000000000
	movi	v31.2d, #0000000000000000
	fmov	d8, d8
	fmov	d9, d9
	fmov	d10, d10
	fmov	d11, d11
	fmov	d12, d12
	fmov	d13, d13
	fmov	d14, d14
	fmov	d15, d15
	mov	x1, xzr
	mov	x2, xzr
	mov	x3, xzr
	mov	x4, xzr
	mov	x5, xzr
	mov	x6, xzr
	mov	x7, xzr
	mov	x8, xzr
	mov	x9, xzr
	mov	x10, xzr
	mov	x11, xzr
	mov	x12, xzr
	mov	x13, xzr
	mov	x14, xzr
	mov	x15, xzr
	mov	x16, xzr
	mov	x17, xzr
	ret
.Lgcm_func_end83:
	.size	gcm.fotsgure_gcm_additional, .Lgcm_func_end83-gcm.fotsgure_gcm_additional
                                        // -- End function
	.section	.text.gcm.fotsgure_gcm_decrypt,"ax",@progbits
	export_gcm	fotsgure_gcm_decrypt
	.p2align	2
	.type	gcm.fotsgure_gcm_decrypt,@function
gcm.fotsgure_gcm_decrypt:                   // @gcm.fotsgure_gcm_decrypt
	hint	#34
// %bb.0:                               // %start
	ldr	w10, [x0]
	cmp	x2, #0
	mov	w8, #4096                       // =0x1000
	csel	x9, x8, xzr, eq
	mov	w8, #2                          // =0x2
	cmp	w10, #32
	b.hi	.Lgcm_BB84_8
// %bb.1:                               // %start
	mov	w11, #1                         // =0x1
	mov	x12, #16842752                  // =0x1010000
	lsl	x11, x11, x10
	movk	x12, #1, lsl #32
	tst	x11, x12
	b.eq	.Lgcm_BB84_8
// %bb.2:                               // %join.3.i
	sub	sp, sp, #80
	lsr	x8, x10, #2
	ldr	x11, [x1, #24]
	add	x10, x0, #4
	str	x10, [sp, #8]
	add	x8, x8, #7
	cmp	x11, #4
	stp	x29, x30, [sp, #48]             // 16-byte Folded Spill
	stp	x8, x10, [sp, #16]
	add	x10, x0, #244
	add	x29, sp, #48
	stp	x20, x19, [sp, #64]             // 16-byte Folded Spill
	stp	x8, x10, [sp, #32]
	b.ne	.Lgcm_BB84_5
// %bb.3:                               // %join.3.i.i
	ldp	x10, x8, [x1, #8]
	mov	x12, #68719476704               // =0xfffffffe0
	adds	x11, x3, x8
	csinv	x11, x11, xzr, lo
	cmp	x10, x12
	csel	x10, x10, x12, lo
	cmp	x10, x11
	b.hs	.Lgcm_BB84_6
// %bb.4:
	mov	w8, #5                          // =0x5
	b	.Lgcm_BB84_7
.Lgcm_BB84_5:
	mov	w8, #8                          // =0x8
	b	.Lgcm_BB84_7
.Lgcm_BB84_6:                               // %arm.4.i
	mov	x10, x2
	mov	x19, x3
	add	x0, sp, #8
	mov	x20, x1
	add	x1, x1, #32
	add	x2, x8, #16
	add	x3, x10, x9
	mov	x4, x19
	bl	gcm.gcm.gctr.add_gctr
	ldr	x8, [x20, #16]
	add	x8, x8, x19
	str	x8, [x20, #16]
	bl	gcm.aes_cipher.zeroize.stack.wipe_stack.1536
	mov	w8, wzr
.Lgcm_BB84_7:
	ldp	x20, x19, [sp, #64]             // 16-byte Folded Reload
	ldp	x29, x30, [sp, #48]             // 16-byte Folded Reload
	add	sp, sp, #80
.Lgcm_BB84_8:                               // %"gcm_c::pieces::decrypting::fotsgure_gcm_decrypt.exit"
	mov	w0, w8
	movi	v0.2d, #0000000000000000
	movi	v1.2d, #0000000000000000
	movi	v2.2d, #0000000000000000
	movi	v3.2d, #0000000000000000
	movi	v4.2d, #0000000000000000
	movi	v5.2d, #0000000000000000
	movi	v6.2d, #0000000000000000
	movi	v7.2d, #0000000000000000
	movi	v16.2d, #0000000000000000
	movi	v17.2d, #0000000000000000
	movi	v18.2d, #0000000000000000
	movi	v19.2d, #0000000000000000
	movi	v20.2d, #0000000000000000
	movi	v21.2d, #0000000000000000
	movi	v22.2d, #0000000000000000
	movi	v23.2d, #0000000000000000
	movi	v24.2d, #0000000000000000
	movi	v25.2d, #0000000000000000
	movi	v26.2d, #0000000000000000
	movi	v27.2d, #0000000000000000
	movi	v28.2d, #0000000000000000
	movi	v29.2d, #0000000000000000
	movi	v30.2d, #0000000000000000
	movi	v31.2d, #0000000000000000
	fmov	d8, d8
	fmov	d9, d9
	fmov	d10, d10
	fmov	d11, d11
	fmov	d12, d12
	fmov	d13, d13
	fmov	d14, d14
	fmov	d15, d15
	mov	x1, xzr
	mov	x2, xzr
	mov	x3, xzr
	mov	x4, xzr
	mov	x5, xzr
	mov	x6, xzr
	mov	x7, xzr
	mov	x8, xzr
	mov	x9, xzr
	mov	x10, xzr
	mov	x11, xzr
	mov	x12, xzr
	mov	x13, xzr
	mov	x14, xzr
	mov	x15, xzr
	mov	x16, xzr
	mov	x17, xzr
	ret
.Lgcm_func_end84:
	.size	gcm.fotsgure_gcm_decrypt, .Lgcm_func_end84-gcm.fotsgure_gcm_decrypt
                                        // -- End function
	.section	.text.gcm.fotsgure_gcm_decrypt_unverified,"ax",@progbits
	export_gcm	fotsgure_gcm_decrypt_unverified
	.p2align	2
	.type	gcm.fotsgure_gcm_decrypt_unverified,@function
gcm.fotsgure_gcm_decrypt_unverified:        // @gcm.fotsgure_gcm_decrypt_unverified
	hint	#34
// %bb.0:                               // %start
	sub	sp, sp, #112
	ldr	w9, [x0]
	cmp	x2, #0
	mov	w8, #4096                       // =0x1000
	stp	x22, x21, [sp, #80]             // 16-byte Folded Spill
	csel	x22, x8, xzr, eq
	mov	w8, #2                          // =0x2
	cmp	w9, #32
	stp	x29, x30, [sp, #48]             // 16-byte Folded Spill
	add	x29, sp, #48
	stp	x24, x23, [sp, #64]             // 16-byte Folded Spill
	stp	x20, x19, [sp, #96]             // 16-byte Folded Spill
	b.hi	.Lgcm_BB85_5
// %bb.1:                               // %start
	mov	w10, #1                         // =0x1
	mov	x11, #16842752                  // =0x1010000
	lsl	x10, x10, x9
	movk	x11, #1, lsl #32
	tst	x10, x11
	b.eq	.Lgcm_BB85_5
// %bb.2:                               // %join.3.i
	lsr	x8, x9, #2
	add	x9, x0, #4
	mov	x20, x2
	str	x9, [sp, #8]
	mov	w2, #3                          // =0x3
	mov	x19, x3
	add	x8, x8, #7
	mov	x21, x1
	add	x23, sp, #8
	stp	x8, x9, [sp, #16]
	add	x9, x0, #244
	add	x0, sp, #8
	stp	x8, x9, [sp, #32]
	bl	gcm.gcm.mode.BorrowedGcm.enter_phase
	tst	w0, #0xff
	b.eq	.Lgcm_BB85_4
// %bb.3:                               // %arm.2.i.i
	tst	w1, #0x1
	mov	w8, #8                          // =0x8
	mov	w9, #5                          // =0x5
	csel	w8, w9, w8, ne
	b	.Lgcm_BB85_5
.Lgcm_BB85_4:                               // %arm.1.i.i
	ldr	x24, [x21, #8]
	add	x0, x23, #32
	add	x1, x21, #48
	add	x2, x21, #64
	add	x4, x20, x22
	mov	x5, x19
	and	x3, x24, #0xf
	bl	gcm.gcm.hash_room.hash_piece
	ldr	x8, [x21, #8]
	add	x0, sp, #8
	add	x1, x21, #32
	add	x2, x24, #16
	add	x3, x20, x22
	mov	x4, x19
	add	x8, x8, x19
	str	x8, [x21, #8]
	bl	gcm.gcm.gctr.add_gctr
	bl	gcm.aes_cipher.zeroize.stack.wipe_stack.1536
	mov	w8, wzr
.Lgcm_BB85_5:                               // %"gcm_c::pieces::decrypting::fotsgure_gcm_decrypt_unverified.exit"
	ldp	x20, x19, [sp, #96]             // 16-byte Folded Reload
	mov	w0, w8
	ldp	x22, x21, [sp, #80]             // 16-byte Folded Reload
	ldp	x24, x23, [sp, #64]             // 16-byte Folded Reload
	ldp	x29, x30, [sp, #48]             // 16-byte Folded Reload
	add	sp, sp, #112
	movi	v0.2d, #0000000000000000
	movi	v1.2d, #0000000000000000
	movi	v2.2d, #0000000000000000
	movi	v3.2d, #0000000000000000
	movi	v4.2d, #0000000000000000
	movi	v5.2d, #0000000000000000
	movi	v6.2d, #0000000000000000
	movi	v7.2d, #0000000000000000
	movi	v16.2d, #0000000000000000
	movi	v17.2d, #0000000000000000
	movi	v18.2d, #0000000000000000
	movi	v19.2d, #0000000000000000
	movi	v20.2d, #0000000000000000
	movi	v21.2d, #0000000000000000
	movi	v22.2d, #0000000000000000
	movi	v23.2d, #0000000000000000
	movi	v24.2d, #0000000000000000
	movi	v25.2d, #0000000000000000
	movi	v26.2d, #0000000000000000
	movi	v27.2d, #0000000000000000
	movi	v28.2d, #0000000000000000
	movi	v29.2d, #0000000000000000
	movi	v30.2d, #0000000000000000
	movi	v31.2d, #0000000000000000
	fmov	d8, d8
	fmov	d9, d9
	fmov	d10, d10
	fmov	d11, d11
	fmov	d12, d12
	fmov	d13, d13
	fmov	d14, d14
	fmov	d15, d15
	mov	x1, xzr
	mov	x2, xzr
	mov	x3, xzr
	mov	x4, xzr
	mov	x5, xzr
	mov	x6, xzr
	mov	x7, xzr
	mov	x8, xzr
	mov	x9, xzr
	mov	x10, xzr
	mov	x11, xzr
	mov	x12, xzr
	mov	x13, xzr
	mov	x14, xzr
	mov	x15, xzr
	mov	x16, xzr
	mov	x17, xzr
	ret
.Lgcm_func_end85:
	.size	gcm.fotsgure_gcm_decrypt_unverified, .Lgcm_func_end85-gcm.fotsgure_gcm_decrypt_unverified
                                        // -- End function
	.section	.text.gcm.fotsgure_gcm_encrypt,"ax",@progbits
	export_gcm	fotsgure_gcm_encrypt
	.p2align	2
	.type	gcm.fotsgure_gcm_encrypt,@function
gcm.fotsgure_gcm_encrypt:                   // @gcm.fotsgure_gcm_encrypt
	hint	#34
// %bb.0:                               // %start
	sub	sp, sp, #112
	ldr	w9, [x0]
	cmp	x2, #0
	mov	w8, #4096                       // =0x1000
	stp	x22, x21, [sp, #80]             // 16-byte Folded Spill
	csel	x22, x8, xzr, eq
	mov	w8, #2                          // =0x2
	cmp	w9, #32
	stp	x29, x30, [sp, #48]             // 16-byte Folded Spill
	add	x29, sp, #48
	str	x23, [sp, #64]                  // 8-byte Spill
	stp	x20, x19, [sp, #96]             // 16-byte Folded Spill
	b.hi	.Lgcm_BB86_5
// %bb.1:                               // %start
	mov	w10, #1                         // =0x1
	mov	x11, #16842752                  // =0x1010000
	lsl	x10, x10, x9
	movk	x11, #1, lsl #32
	tst	x10, x11
	b.eq	.Lgcm_BB86_5
// %bb.2:                               // %join.3.i
	lsr	x8, x9, #2
	add	x9, x0, #4
	mov	x21, x2
	str	x9, [sp, #8]
	mov	w2, #2                          // =0x2
	mov	x19, x3
	add	x8, x8, #7
	mov	x20, x1
	add	x23, sp, #8
	stp	x8, x9, [sp, #16]
	add	x9, x0, #244
	add	x0, sp, #8
	stp	x8, x9, [sp, #32]
	bl	gcm.gcm.mode.BorrowedGcm.enter_phase
	tst	w0, #0xff
	b.eq	.Lgcm_BB86_4
// %bb.3:                               // %arm.2.i.i
	tst	w1, #0x1
	mov	w8, #8                          // =0x8
	mov	w9, #5                          // =0x5
	csel	w8, w9, w8, ne
	b	.Lgcm_BB86_5
.Lgcm_BB86_4:                               // %arm.1.i.i
	ldr	x8, [x20, #8]
	add	x0, sp, #8
	add	x1, x20, #32
	add	x3, x21, x22
	mov	x4, x19
	add	x2, x8, #16
	bl	gcm.gcm.gctr.add_gctr
	ldr	x8, [x20, #8]
	add	x0, x23, #32
	add	x1, x20, #48
	add	x2, x20, #64
	add	x4, x21, x22
	mov	x5, x19
	and	x3, x8, #0xf
	bl	gcm.gcm.hash_room.hash_piece
	ldr	x8, [x20, #8]
	add	x8, x8, x19
	str	x8, [x20, #8]
	bl	gcm.aes_cipher.zeroize.stack.wipe_stack.1536
	mov	w8, wzr
.Lgcm_BB86_5:                               // %"gcm_c::pieces::encrypting::fotsgure_gcm_encrypt.exit"
	ldp	x20, x19, [sp, #96]             // 16-byte Folded Reload
	mov	w0, w8
	ldp	x22, x21, [sp, #80]             // 16-byte Folded Reload
	ldr	x23, [sp, #64]                  // 8-byte Reload
	ldp	x29, x30, [sp, #48]             // 16-byte Folded Reload
	add	sp, sp, #112
	movi	v0.2d, #0000000000000000
	movi	v1.2d, #0000000000000000
	movi	v2.2d, #0000000000000000
	movi	v3.2d, #0000000000000000
	movi	v4.2d, #0000000000000000
	movi	v5.2d, #0000000000000000
	movi	v6.2d, #0000000000000000
	movi	v7.2d, #0000000000000000
	movi	v16.2d, #0000000000000000
	movi	v17.2d, #0000000000000000
	movi	v18.2d, #0000000000000000
	movi	v19.2d, #0000000000000000
	movi	v20.2d, #0000000000000000
	movi	v21.2d, #0000000000000000
	movi	v22.2d, #0000000000000000
	movi	v23.2d, #0000000000000000
	movi	v24.2d, #0000000000000000
	movi	v25.2d, #0000000000000000
	movi	v26.2d, #0000000000000000
	movi	v27.2d, #0000000000000000
	movi	v28.2d, #0000000000000000
	movi	v29.2d, #0000000000000000
	movi	v30.2d, #0000000000000000
	movi	v31.2d, #0000000000000000
	fmov	d8, d8
	fmov	d9, d9
	fmov	d10, d10
	fmov	d11, d11
	fmov	d12, d12
	fmov	d13, d13
	fmov	d14, d14
	fmov	d15, d15
	mov	x1, xzr
	mov	x2, xzr
	mov	x3, xzr
	mov	x4, xzr
	mov	x5, xzr
	mov	x6, xzr
	mov	x7, xzr
	mov	x8, xzr
	mov	x9, xzr
	mov	x10, xzr
	mov	x11, xzr
	mov	x12, xzr
	mov	x13, xzr
	mov	x14, xzr
	mov	x15, xzr
	mov	x16, xzr
	mov	x17, xzr
	ret
.Lgcm_func_end86:
	.size	gcm.fotsgure_gcm_encrypt, .Lgcm_func_end86-gcm.fotsgure_gcm_encrypt
                                        // -- End function
	.section	.text.gcm.fotsgure_gcm_verify,"ax",@progbits
	export_gcm	fotsgure_gcm_verify
	.p2align	2
	.type	gcm.fotsgure_gcm_verify,@function
gcm.fotsgure_gcm_verify:                    // @gcm.fotsgure_gcm_verify
	hint	#34
// %bb.0:                               // %start
	sub	sp, sp, #112
	ldr	w9, [x0]
	cmp	x2, #0
	mov	w8, #4096                       // =0x1000
	stp	x22, x21, [sp, #80]             // 16-byte Folded Spill
	csel	x22, x8, xzr, eq
	mov	w8, #2                          // =0x2
	cmp	w9, #32
	stp	x29, x30, [sp, #48]             // 16-byte Folded Spill
	add	x29, sp, #48
	str	x23, [sp, #64]                  // 8-byte Spill
	stp	x20, x19, [sp, #96]             // 16-byte Folded Spill
	b.hi	.Lgcm_BB87_5
// %bb.1:                               // %start
	mov	w10, #1                         // =0x1
	mov	x11, #16842752                  // =0x1010000
	lsl	x10, x10, x9
	movk	x11, #1, lsl #32
	tst	x10, x11
	b.eq	.Lgcm_BB87_5
// %bb.2:                               // %join.3.i
	lsr	x8, x9, #2
	add	x9, x0, #4
	mov	x21, x2
	str	x9, [sp, #8]
	mov	w2, #3                          // =0x3
	mov	x19, x3
	add	x8, x8, #7
	mov	x20, x1
	add	x23, sp, #8
	stp	x8, x9, [sp, #16]
	add	x9, x0, #244
	add	x0, sp, #8
	stp	x8, x9, [sp, #32]
	bl	gcm.gcm.mode.BorrowedGcm.enter_phase
	tst	w0, #0xff
	b.eq	.Lgcm_BB87_4
// %bb.3:                               // %arm.2.i.i
	tst	w1, #0x1
	mov	w8, #8                          // =0x8
	mov	w9, #5                          // =0x5
	csel	w8, w9, w8, ne
	b	.Lgcm_BB87_5
.Lgcm_BB87_4:                               // %arm.1.i.i
	ldr	x8, [x20, #8]
	add	x0, x23, #32
	add	x1, x20, #48
	add	x2, x20, #64
	add	x4, x21, x22
	mov	x5, x19
	and	x3, x8, #0xf
	bl	gcm.gcm.hash_room.hash_piece
	ldr	x8, [x20, #8]
	add	x8, x8, x19
	str	x8, [x20, #8]
	bl	gcm.aes_cipher.zeroize.stack.wipe_stack.512
	mov	w8, wzr
.Lgcm_BB87_5:                               // %"gcm_c::pieces::decrypting::fotsgure_gcm_verify.exit"
	ldp	x20, x19, [sp, #96]             // 16-byte Folded Reload
	mov	w0, w8
	ldp	x22, x21, [sp, #80]             // 16-byte Folded Reload
	ldr	x23, [sp, #64]                  // 8-byte Reload
	ldp	x29, x30, [sp, #48]             // 16-byte Folded Reload
	add	sp, sp, #112
	movi	v0.2d, #0000000000000000
	movi	v1.2d, #0000000000000000
	movi	v2.2d, #0000000000000000
	movi	v3.2d, #0000000000000000
	movi	v4.2d, #0000000000000000
	movi	v5.2d, #0000000000000000
	movi	v6.2d, #0000000000000000
	movi	v7.2d, #0000000000000000
	movi	v16.2d, #0000000000000000
	movi	v17.2d, #0000000000000000
	movi	v18.2d, #0000000000000000
	movi	v19.2d, #0000000000000000
	movi	v20.2d, #0000000000000000
	movi	v21.2d, #0000000000000000
	movi	v22.2d, #0000000000000000
	movi	v23.2d, #0000000000000000
	movi	v24.2d, #0000000000000000
	movi	v25.2d, #0000000000000000
	movi	v26.2d, #0000000000000000
	movi	v27.2d, #0000000000000000
	movi	v28.2d, #0000000000000000
	movi	v29.2d, #0000000000000000
	movi	v30.2d, #0000000000000000
	movi	v31.2d, #0000000000000000
	fmov	d8, d8
	fmov	d9, d9
	fmov	d10, d10
	fmov	d11, d11
	fmov	d12, d12
	fmov	d13, d13
	fmov	d14, d14
	fmov	d15, d15
	mov	x1, xzr
	mov	x2, xzr
	mov	x3, xzr
	mov	x4, xzr
	mov	x5, xzr
	mov	x6, xzr
	mov	x7, xzr
	mov	x8, xzr
	mov	x9, xzr
	mov	x10, xzr
	mov	x11, xzr
	mov	x12, xzr
	mov	x13, xzr
	mov	x14, xzr
	mov	x15, xzr
	mov	x16, xzr
	mov	x17, xzr
	ret
.Lgcm_func_end87:
	.size	gcm.fotsgure_gcm_verify, .Lgcm_func_end87-gcm.fotsgure_gcm_verify
                                        // -- End function
	.section	.rodata.cst16,"aM",@progbits,16
	.p2align	4, 0x0                          // -- Begin function gcm.fotsgure_gcm_accept
.Lgcm_CPI88_0:
	.xword	0                               // 0x0
	.xword	4                               // 0x4
	.section	.text.gcm.fotsgure_gcm_accept,"ax",@progbits
	export_gcm	fotsgure_gcm_accept
	.p2align	2
	.type	gcm.fotsgure_gcm_accept,@function
gcm.fotsgure_gcm_accept:                    // @gcm.fotsgure_gcm_accept
	hint	#34
// %bb.0:                               // %start
	cmp	x2, #0
	mov	w8, #4096                       // =0x1000
	csel	x9, x8, xzr, eq
	cmp	x3, #16
	b.ne	.Lgcm_BB88_6
// %bb.1:                               // %join.3.i
	ldr	w10, [x0]
	mov	w8, #2                          // =0x2
	cmp	w10, #32
	b.hi	.Lgcm_BB88_7
// %bb.2:                               // %join.3.i
	mov	w11, #1                         // =0x1
	mov	x12, #16842752                  // =0x1010000
	lsl	x11, x11, x10
	movk	x12, #1, lsl #32
	tst	x11, x12
	b.eq	.Lgcm_BB88_7
// %bb.3:                               // %join.6.i
	sub	sp, sp, #96
	lsr	x8, x10, #2
	ldr	x10, [x1, #24]
	add	x11, x0, #4
	ldr	q0, [x2, x9]
	add	x12, x0, #244
	stp	x29, x30, [sp, #64]             // 16-byte Folded Spill
	cmp	x10, #5
	add	x8, x8, #7
	stp	x20, x19, [sp, #80]             // 16-byte Folded Spill
	csel	w10, w10, wzr, lo
	stp	x11, x8, [sp, #24]
	add	x29, sp, #64
	orr	w10, w10, #0x2
	stp	x11, x8, [sp, #40]
	and	w8, w10, #0xff
	str	x12, [sp, #56]
	cmp	w8, #3
	str	q0, [sp]
	b.ne	.Lgcm_BB88_8
// %bb.4:                               // %join.3.i.i
	add	x0, sp, #24
	mov	x2, sp
	mov	x20, x1
	bl	gcm.gcm.mode.BorrowedGcm.is_tag_so_far
	mov	w19, w0
	bl	gcm.aes_cipher.zeroize.stack.wipe_stack.1536
	cbz	w19, .Lgcm_BB88_9
// %bb.5:                               // %arm.7.i
	adrp	x9, .Lgcm_CPI88_0
	mov	w8, wzr
	ldr	q0, [x9, :lo12:.Lgcm_CPI88_0]
	str	q0, [x20, #16]
	ldp	x20, x19, [sp, #80]             // 16-byte Folded Reload
	ldp	x29, x30, [sp, #64]             // 16-byte Folded Reload
	add	sp, sp, #96
	mov	w0, w8
	movi	v0.2d, #0000000000000000
	movi	v1.2d, #0000000000000000
	movi	v2.2d, #0000000000000000
	movi	v3.2d, #0000000000000000
	movi	v4.2d, #0000000000000000
	movi	v5.2d, #0000000000000000
	movi	v6.2d, #0000000000000000
	movi	v7.2d, #0000000000000000
	movi	v16.2d, #0000000000000000
	movi	v17.2d, #0000000000000000
	movi	v18.2d, #0000000000000000
	movi	v19.2d, #0000000000000000
	movi	v20.2d, #0000000000000000
	movi	v21.2d, #0000000000000000
	movi	v22.2d, #0000000000000000
	movi	v23.2d, #0000000000000000
	movi	v24.2d, #0000000000000000
	movi	v25.2d, #0000000000000000
	movi	v26.2d, #0000000000000000
	movi	v27.2d, #0000000000000000
	movi	v28.2d, #0000000000000000
	movi	v29.2d, #0000000000000000
	movi	v30.2d, #0000000000000000
	movi	v31.2d, #0000000000000000
	fmov	d8, d8
	fmov	d9, d9
	fmov	d10, d10
	fmov	d11, d11
	fmov	d12, d12
	fmov	d13, d13
	fmov	d14, d14
	fmov	d15, d15
	mov	x1, xzr
	mov	x2, xzr
	mov	x3, xzr
	mov	x4, xzr
	mov	x5, xzr
	mov	x6, xzr
	mov	x7, xzr
	mov	x8, xzr
	mov	x9, xzr
	mov	x10, xzr
	mov	x11, xzr
	mov	x12, xzr
	mov	x13, xzr
	mov	x14, xzr
	mov	x15, xzr
	mov	x16, xzr
	mov	x17, xzr
	ret
.Lgcm_BB88_6:
	mov	w8, #4                          // =0x4
.Lgcm_BB88_7:                               // %"gcm_c::pieces::decrypting::fotsgure_gcm_accept.exit"
	mov	w0, w8
	movi	v0.2d, #0000000000000000
	movi	v1.2d, #0000000000000000
	movi	v2.2d, #0000000000000000
	movi	v3.2d, #0000000000000000
	movi	v4.2d, #0000000000000000
	movi	v5.2d, #0000000000000000
	movi	v6.2d, #0000000000000000
	movi	v7.2d, #0000000000000000
	movi	v16.2d, #0000000000000000
	movi	v17.2d, #0000000000000000
	movi	v18.2d, #0000000000000000
	movi	v19.2d, #0000000000000000
	movi	v20.2d, #0000000000000000
	movi	v21.2d, #0000000000000000
	movi	v22.2d, #0000000000000000
	movi	v23.2d, #0000000000000000
	movi	v24.2d, #0000000000000000
	movi	v25.2d, #0000000000000000
	movi	v26.2d, #0000000000000000
	movi	v27.2d, #0000000000000000
	movi	v28.2d, #0000000000000000
	movi	v29.2d, #0000000000000000
	movi	v30.2d, #0000000000000000
	movi	v31.2d, #0000000000000000
	fmov	d8, d8
	fmov	d9, d9
	fmov	d10, d10
	fmov	d11, d11
	fmov	d12, d12
	fmov	d13, d13
	fmov	d14, d14
	fmov	d15, d15
	mov	x1, xzr
	mov	x2, xzr
	mov	x3, xzr
	mov	x4, xzr
	mov	x5, xzr
	mov	x6, xzr
	mov	x7, xzr
	mov	x8, xzr
	mov	x9, xzr
	mov	x10, xzr
	mov	x11, xzr
	mov	x12, xzr
	mov	x13, xzr
	mov	x14, xzr
	mov	x15, xzr
	mov	x16, xzr
	mov	x17, xzr
	ret
.Lgcm_BB88_8:
	mov	w8, #8                          // =0x8
	ldp	x20, x19, [sp, #80]             // 16-byte Folded Reload
	ldp	x29, x30, [sp, #64]             // 16-byte Folded Reload
	add	sp, sp, #96
	mov	w0, w8
	movi	v0.2d, #0000000000000000
	movi	v1.2d, #0000000000000000
	movi	v2.2d, #0000000000000000
	movi	v3.2d, #0000000000000000
	movi	v4.2d, #0000000000000000
	movi	v5.2d, #0000000000000000
	movi	v6.2d, #0000000000000000
	movi	v7.2d, #0000000000000000
	movi	v16.2d, #0000000000000000
	movi	v17.2d, #0000000000000000
	movi	v18.2d, #0000000000000000
	movi	v19.2d, #0000000000000000
	movi	v20.2d, #0000000000000000
	movi	v21.2d, #0000000000000000
	movi	v22.2d, #0000000000000000
	movi	v23.2d, #0000000000000000
	movi	v24.2d, #0000000000000000
	movi	v25.2d, #0000000000000000
	movi	v26.2d, #0000000000000000
	movi	v27.2d, #0000000000000000
	movi	v28.2d, #0000000000000000
	movi	v29.2d, #0000000000000000
	movi	v30.2d, #0000000000000000
	movi	v31.2d, #0000000000000000
	fmov	d8, d8
	fmov	d9, d9
	fmov	d10, d10
	fmov	d11, d11
	fmov	d12, d12
	fmov	d13, d13
	fmov	d14, d14
	fmov	d15, d15
	mov	x1, xzr
	mov	x2, xzr
	mov	x3, xzr
	mov	x4, xzr
	mov	x5, xzr
	mov	x6, xzr
	mov	x7, xzr
	mov	x8, xzr
	mov	x9, xzr
	mov	x10, xzr
	mov	x11, xzr
	mov	x12, xzr
	mov	x13, xzr
	mov	x14, xzr
	mov	x15, xzr
	mov	x16, xzr
	mov	x17, xzr
	ret
.Lgcm_BB88_9:
	mov	w8, #6                          // =0x6
	ldp	x20, x19, [sp, #80]             // 16-byte Folded Reload
	ldp	x29, x30, [sp, #64]             // 16-byte Folded Reload
	add	sp, sp, #96
	mov	w0, w8
	movi	v0.2d, #0000000000000000
	movi	v1.2d, #0000000000000000
	movi	v2.2d, #0000000000000000
	movi	v3.2d, #0000000000000000
	movi	v4.2d, #0000000000000000
	movi	v5.2d, #0000000000000000
	movi	v6.2d, #0000000000000000
	movi	v7.2d, #0000000000000000
	movi	v16.2d, #0000000000000000
	movi	v17.2d, #0000000000000000
	movi	v18.2d, #0000000000000000
	movi	v19.2d, #0000000000000000
	movi	v20.2d, #0000000000000000
	movi	v21.2d, #0000000000000000
	movi	v22.2d, #0000000000000000
	movi	v23.2d, #0000000000000000
	movi	v24.2d, #0000000000000000
	movi	v25.2d, #0000000000000000
	movi	v26.2d, #0000000000000000
	movi	v27.2d, #0000000000000000
	movi	v28.2d, #0000000000000000
	movi	v29.2d, #0000000000000000
	movi	v30.2d, #0000000000000000
	movi	v31.2d, #0000000000000000
	fmov	d8, d8
	fmov	d9, d9
	fmov	d10, d10
	fmov	d11, d11
	fmov	d12, d12
	fmov	d13, d13
	fmov	d14, d14
	fmov	d15, d15
	mov	x1, xzr
	mov	x2, xzr
	mov	x3, xzr
	mov	x4, xzr
	mov	x5, xzr
	mov	x6, xzr
	mov	x7, xzr
	mov	x8, xzr
	mov	x9, xzr
	mov	x10, xzr
	mov	x11, xzr
	mov	x12, xzr
	mov	x13, xzr
	mov	x14, xzr
	mov	x15, xzr
	mov	x16, xzr
	mov	x17, xzr
	ret
.Lgcm_func_end88:
	.size	gcm.fotsgure_gcm_accept, .Lgcm_func_end88-gcm.fotsgure_gcm_accept
                                        // -- End function
	.section	.rodata.cst16,"aM",@progbits,16
	.p2align	4, 0x0                          // -- Begin function gcm.fotsgure_gcm_accept_short
.Lgcm_CPI89_0:
	.xword	0                               // 0x0
	.xword	4                               // 0x4
	.section	.text.gcm.fotsgure_gcm_accept_short,"ax",@progbits
	export_gcm	fotsgure_gcm_accept_short
	.p2align	2
	.type	gcm.fotsgure_gcm_accept_short,@function
gcm.fotsgure_gcm_accept_short:              // @gcm.fotsgure_gcm_accept_short
	hint	#34
// %bb.0:                               // %start
	cmp	x3, #0
	mov	w8, #4096                       // =0x1000
	csel	x9, x8, xzr, eq
	cmp	x2, #4
	and	x8, x2, #0xfffffffffffffffc
	ccmp	x2, #8, #4, ne
	ccmp	x8, #12, #4, ne
	mov	w8, #4                          // =0x4
	cset	w10, eq
	cmp	x4, x2
	b.ne	.Lgcm_BB89_10
// %bb.1:                               // %start
	cbz	w10, .Lgcm_BB89_10
// %bb.2:                               // %join.3.i
	ldr	w10, [x0]
	mov	w8, #2                          // =0x2
	cmp	w10, #32
	b.hi	.Lgcm_BB89_10
// %bb.3:                               // %join.3.i
	mov	w11, #1                         // =0x1
	mov	x12, #16842752                  // =0x1010000
	lsl	x11, x11, x10
	movk	x12, #1, lsl #32
	tst	x11, x12
	b.eq	.Lgcm_BB89_10
// %bb.4:                               // %join.6.i
	sub	sp, sp, #80
	ldr	x8, [x1, #24]
	lsr	x10, x10, #2
	add	x11, x0, #4
	str	x11, [sp, #8]
	cmp	x8, #5
	add	x10, x10, #7
	stp	x29, x30, [sp, #48]             // 16-byte Folded Spill
	csel	w8, w8, wzr, lo
	stp	x10, x11, [sp, #16]
	add	x11, x0, #244
	orr	w8, w8, #0x2
	stp	x20, x19, [sp, #64]             // 16-byte Folded Spill
	add	x29, sp, #48
	and	w8, w8, #0xff
	stp	x10, x11, [sp, #32]
	cmp	w8, #3
	b.ne	.Lgcm_BB89_7
// %bb.5:                               // %join.7.i.i
	mov	x8, x2
	add	x0, sp, #8
	add	x2, x3, x9
	mov	x3, x8
	mov	x20, x1
	bl	gcm.gcm.mode.BorrowedGcm.is_short_tag_so_far
	mov	w19, w0
	bl	gcm.aes_cipher.zeroize.stack.wipe_stack.1536
	cbz	w19, .Lgcm_BB89_8
// %bb.6:                               // %arm.7.i
	adrp	x9, .Lgcm_CPI89_0
	mov	w8, wzr
	ldr	q0, [x9, :lo12:.Lgcm_CPI89_0]
	str	q0, [x20, #16]
	b	.Lgcm_BB89_9
.Lgcm_BB89_7:
	mov	w8, #8                          // =0x8
	b	.Lgcm_BB89_9
.Lgcm_BB89_8:
	mov	w8, #6                          // =0x6
.Lgcm_BB89_9:
	ldp	x20, x19, [sp, #64]             // 16-byte Folded Reload
	ldp	x29, x30, [sp, #48]             // 16-byte Folded Reload
	add	sp, sp, #80
.Lgcm_BB89_10:                              // %"gcm_c::pieces::decrypting::fotsgure_gcm_accept_short.exit"
	mov	w0, w8
	movi	v0.2d, #0000000000000000
	movi	v1.2d, #0000000000000000
	movi	v2.2d, #0000000000000000
	movi	v3.2d, #0000000000000000
	movi	v4.2d, #0000000000000000
	movi	v5.2d, #0000000000000000
	movi	v6.2d, #0000000000000000
	movi	v7.2d, #0000000000000000
	movi	v16.2d, #0000000000000000
	movi	v17.2d, #0000000000000000
	movi	v18.2d, #0000000000000000
	movi	v19.2d, #0000000000000000
	movi	v20.2d, #0000000000000000
	movi	v21.2d, #0000000000000000
	movi	v22.2d, #0000000000000000
	movi	v23.2d, #0000000000000000
	movi	v24.2d, #0000000000000000
	movi	v25.2d, #0000000000000000
	movi	v26.2d, #0000000000000000
	movi	v27.2d, #0000000000000000
	movi	v28.2d, #0000000000000000
	movi	v29.2d, #0000000000000000
	movi	v30.2d, #0000000000000000
	movi	v31.2d, #0000000000000000
	fmov	d8, d8
	fmov	d9, d9
	fmov	d10, d10
	fmov	d11, d11
	fmov	d12, d12
	fmov	d13, d13
	fmov	d14, d14
	fmov	d15, d15
	mov	x1, xzr
	mov	x2, xzr
	mov	x3, xzr
	mov	x4, xzr
	mov	x5, xzr
	mov	x6, xzr
	mov	x7, xzr
	mov	x8, xzr
	mov	x9, xzr
	mov	x10, xzr
	mov	x11, xzr
	mov	x12, xzr
	mov	x13, xzr
	mov	x14, xzr
	mov	x15, xzr
	mov	x16, xzr
	mov	x17, xzr
	ret
.Lgcm_func_end89:
	.size	gcm.fotsgure_gcm_accept_short, .Lgcm_func_end89-gcm.fotsgure_gcm_accept_short
                                        // -- End function
	.type	.Lgcm_static.0,@object              // @static.0
	.section	.rodata..Lgcm_static.0,"a",@progbits
.Lgcm_static.0:
	.ascii	"\001\002\004\b\020 @\200\0336"
	.size	.Lgcm_static.0, 10

	.type	.Lgcm_static.1,@object              // @static.1
	.section	.rodata.cst16,"aM",@progbits,16
.Lgcm_static.1:
	.ascii	"\000\001\034\035-,10'&;:\n\013\026\027"
	.size	.Lgcm_static.1, 16

	.type	.Lgcm_static.2,@object              // @static.2
.Lgcm_static.2:
	.ascii	"\000\206\375{\216\bs\365w\361\212\f\371\177\004\202"
	.size	.Lgcm_static.2, 16

	.type	.Lgcm_static.3,@object              // @static.3
	.section	.rodata..Lgcm_static.3,"a",@progbits
.Lgcm_static.3:
	.ascii	"\000\001\002\003\004\005\006\007\b\t\n\013\f\r\016\017\000\005\n\017\004\t\016\003\b\r\002\007\f\001\006\013\000\t\002\013\004\r\006\017\b\001\n\003\f\005\016\007\000\r\n\007\004\001\016\013\b\005\002\017\f\t\006\003"
	.size	.Lgcm_static.3, 64

	.type	.Lgcm_static.5,@object              // @static.5
	.section	.rodata..Lgcm_static.5,"a",@progbits
.Lgcm_static.5:
	.ascii	"\001\002\003\000\005\006\007\004\t\n\013\b\r\016\017\f\005\006\007\004\t\n\013\b\r\016\017\f\001\002\003\000\t\n\013\b\r\016\017\f\001\002\003\000\005\006\007\004\r\016\017\f\001\002\003\000\005\006\007\004\t\n\013\b"
	.size	.Lgcm_static.5, 64

	.type	.Lgcm_static.6,@object              // @static.6
	.section	.rodata..Lgcm_static.6,"a",@progbits
.Lgcm_static.6:
	.ascii	"\003\000\001\002\007\004\005\006\013\b\t\n\017\f\r\016\017\f\r\016\003\000\001\002\007\004\005\006\013\b\t\n\013\b\t\n\017\f\r\016\003\000\001\002\007\004\005\006\007\004\005\006\013\b\t\n\017\f\r\016\003\000\001\002"
	.size	.Lgcm_static.6, 64

	.ident	"rattle logic=dac8208d650f15bf3e2dc313a14fa4c783a3acf887bdfab66e1714b038d9e11b"
	.section	".note.GNU-stack","",@progbits

	.ifndef	in_rust
	.section	".note.gnu.property","a",%note
	.p2align	3, 0x0
	.long	4, 16, 5
	.asciz	"GNU"
	.long	0xc0000000, 4, 1, 0
	.endif

	.section	.note.fotsgure,"a",%note
	.p2align	2, 0x0
	.long	9, 116, 1
	.asciz	"Fotsgure"
	.p2align	2, 0x0
	.asciz	"fotsgure_gcm 0.4.0, aarch64/gcm.s, sources SHA-256 7839658995c36f00d13f13ab6f42fa9360d959953d441bf3a57996a9c2aa56dc"
	.p2align	2, 0x0
