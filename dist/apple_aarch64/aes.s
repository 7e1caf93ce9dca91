// Made by tools/dist from the proved crate aes_c; BUILD says from what. Don't edit it.
/* A Rust crate defines in_rust; for x86-64, a static library of both builds defines chosen, and choose_*.c calls these names. */
	.macro	export_aes name
	.ifdef	in_rust
	.globl	_aes.\name
	.private_extern	_aes.\name
	.else
	.globl	_\name
	.set	_\name, _aes.\name
	.endif
	.endm
	.section	__TEXT,__const
	.p2align	4, 0x0                          // -- Begin function aes_permute::lane_keys::expand_lanes
l_aes_CPI0_0:
	.byte	0                               // 0x0
	.byte	1                               // 0x1
	.byte	28                              // 0x1c
	.byte	29                              // 0x1d
	.byte	45                              // 0x2d
	.byte	44                              // 0x2c
	.byte	49                              // 0x31
	.byte	48                              // 0x30
	.byte	39                              // 0x27
	.byte	38                              // 0x26
	.byte	59                              // 0x3b
	.byte	58                              // 0x3a
	.byte	10                              // 0xa
	.byte	11                              // 0xb
	.byte	22                              // 0x16
	.byte	23                              // 0x17
l_aes_CPI0_1:
	.byte	0                               // 0x0
	.byte	134                             // 0x86
	.byte	253                             // 0xfd
	.byte	123                             // 0x7b
	.byte	142                             // 0x8e
	.byte	8                               // 0x8
	.byte	115                             // 0x73
	.byte	245                             // 0xf5
	.byte	119                             // 0x77
	.byte	241                             // 0xf1
	.byte	138                             // 0x8a
	.byte	12                              // 0xc
	.byte	249                             // 0xf9
	.byte	127                             // 0x7f
	.byte	4                               // 0x4
	.byte	130                             // 0x82
l_aes_CPI0_2:
	.byte	0                               // 0x0
	.byte	1                               // 0x1
	.byte	92                              // 0x5c
	.byte	93                              // 0x5d
	.byte	224                             // 0xe0
	.byte	225                             // 0xe1
	.byte	188                             // 0xbc
	.byte	189                             // 0xbd
	.byte	80                              // 0x50
	.byte	81                              // 0x51
	.byte	12                              // 0xc
	.byte	13                              // 0xd
	.byte	176                             // 0xb0
	.byte	177                             // 0xb1
	.byte	236                             // 0xec
	.byte	237                             // 0xed
l_aes_CPI0_3:
	.byte	0                               // 0x0
	.byte	178                             // 0xb2
	.byte	181                             // 0xb5
	.byte	7                               // 0x7
	.byte	58                              // 0x3a
	.byte	136                             // 0x88
	.byte	143                             // 0x8f
	.byte	61                              // 0x3d
	.byte	172                             // 0xac
	.byte	30                              // 0x1e
	.byte	25                              // 0x19
	.byte	171                             // 0xab
	.byte	150                             // 0x96
	.byte	36                              // 0x24
	.byte	35                              // 0x23
	.byte	145                             // 0x91
l_aes_CPI0_4:
	.byte	13                              // 0xd
	.byte	14                              // 0xe
	.byte	15                              // 0xf
	.byte	12                              // 0xc
	.byte	13                              // 0xd
	.byte	14                              // 0xe
	.byte	15                              // 0xf
	.byte	12                              // 0xc
	.byte	13                              // 0xd
	.byte	14                              // 0xe
	.byte	15                              // 0xf
	.byte	12                              // 0xc
	.byte	13                              // 0xd
	.byte	14                              // 0xe
	.byte	15                              // 0xf
	.byte	12                              // 0xc
l_aes_CPI0_5:
	.byte	128                             // 0x80
	.byte	2                               // 0x2
	.byte	1                               // 0x1
	.byte	15                              // 0xf
	.byte	9                               // 0x9
	.byte	5                               // 0x5
	.byte	14                              // 0xe
	.byte	12                              // 0xc
	.byte	13                              // 0xd
	.byte	4                               // 0x4
	.byte	11                              // 0xb
	.byte	10                              // 0xa
	.byte	7                               // 0x7
	.byte	8                               // 0x8
	.byte	6                               // 0x6
	.byte	3                               // 0x3
l_aes_CPI0_6:
	.byte	128                             // 0x80
	.byte	1                               // 0x1
	.byte	9                               // 0x9
	.byte	14                              // 0xe
	.byte	13                              // 0xd
	.byte	11                              // 0xb
	.byte	7                               // 0x7
	.byte	6                               // 0x6
	.byte	15                              // 0xf
	.byte	2                               // 0x2
	.byte	12                              // 0xc
	.byte	5                               // 0x5
	.byte	10                              // 0xa
	.byte	4                               // 0x4
	.byte	3                               // 0x3
	.byte	8                               // 0x8
l_aes_CPI0_7:
	.byte	0                               // 0x0
	.byte	195                             // 0xc3
	.byte	79                              // 0x4f
	.byte	12                              // 0xc
	.byte	252                             // 0xfc
	.byte	124                             // 0x7c
	.byte	67                              // 0x43
	.byte	128                             // 0x80
	.byte	207                             // 0xcf
	.byte	51                              // 0x33
	.byte	63                              // 0x3f
	.byte	112                             // 0x70
	.byte	191                             // 0xbf
	.byte	179                             // 0xb3
	.byte	240                             // 0xf0
	.byte	140                             // 0x8c
l_aes_CPI0_8:
	.byte	0                               // 0x0
	.byte	230                             // 0xe6
	.byte	114                             // 0x72
	.byte	183                             // 0xb7
	.byte	229                             // 0xe5
	.byte	198                             // 0xc6
	.byte	197                             // 0xc5
	.byte	35                              // 0x23
	.byte	81                              // 0x51
	.byte	180                             // 0xb4
	.byte	3                               // 0x3
	.byte	113                             // 0x71
	.byte	32                              // 0x20
	.byte	151                             // 0x97
	.byte	82                              // 0x52
	.byte	148                             // 0x94
l_aes_CPI0_9:
	.byte	255                             // 0xff
	.byte	255                             // 0xff
	.byte	255                             // 0xff
	.byte	255                             // 0xff
	.byte	0                               // 0x0
	.byte	1                               // 0x1
	.byte	2                               // 0x2
	.byte	3                               // 0x3
	.byte	4                               // 0x4
	.byte	5                               // 0x5
	.byte	6                               // 0x6
	.byte	7                               // 0x7
	.byte	8                               // 0x8
	.byte	9                               // 0x9
	.byte	10                              // 0xa
	.byte	11                              // 0xb
l_aes_CPI0_10:
	.byte	255                             // 0xff
	.byte	255                             // 0xff
	.byte	255                             // 0xff
	.byte	255                             // 0xff
	.byte	255                             // 0xff
	.byte	255                             // 0xff
	.byte	255                             // 0xff
	.byte	255                             // 0xff
	.byte	0                               // 0x0
	.byte	1                               // 0x1
	.byte	2                               // 0x2
	.byte	3                               // 0x3
	.byte	4                               // 0x4
	.byte	5                               // 0x5
	.byte	6                               // 0x6
	.byte	7                               // 0x7
l_aes_CPI0_11:
	.byte	0                               // 0x0
	.byte	13                              // 0xd
	.byte	10                              // 0xa
	.byte	7                               // 0x7
	.byte	4                               // 0x4
	.byte	1                               // 0x1
	.byte	14                              // 0xe
	.byte	11                              // 0xb
	.byte	8                               // 0x8
	.byte	5                               // 0x5
	.byte	2                               // 0x2
	.byte	15                              // 0xf
	.byte	12                              // 0xc
	.byte	9                               // 0x9
	.byte	6                               // 0x6
	.byte	3                               // 0x3
l_aes_CPI0_12:
	.byte	224                             // 0xe0
	.byte	110                             // 0x6e
	.byte	110                             // 0x6e
	.byte	110                             // 0x6e
	.byte	110                             // 0x6e
	.byte	110                             // 0x6e
	.byte	110                             // 0x6e
	.byte	110                             // 0x6e
	.byte	110                             // 0x6e
	.byte	110                             // 0x6e
	.byte	110                             // 0x6e
	.byte	110                             // 0x6e
	.byte	110                             // 0x6e
	.byte	110                             // 0x6e
	.byte	110                             // 0x6e
	.byte	110                             // 0x6e
	.section	__TEXT,__text,regular,pure_instructions
	.p2align	2
_aes.aes_permute.lane_keys.expand_lanes: // @_aes.aes_permute.lane_keys.expand_lanes
// %bb.0:                               // %start
	ldp	d0, d6, [x1]
	movi	v3.16b, #15
	adrp	x8, l_aes_CPI0_0@PAGE
	adrp	x9, l_aes_CPI0_1@PAGE
	cmp	x2, #24
	ldr	q4, [x8, l_aes_CPI0_0@PAGEOFF]
	ldr	q5, [x9, l_aes_CPI0_1@PAGEOFF]
	mov	v0.d[1], v6.d[0]
	and	v1.16b, v0.16b, v3.16b
	ushr	v0.16b, v0.16b, #4
	tbl	v1.16b, { v4.16b }, v1.16b
	tbl	v0.16b, { v5.16b }, v0.16b
	eor	v0.16b, v0.16b, v1.16b
	b.eq	Laes_BB0_6
// %bb.1:                               // %start
	cmp	x2, #16
	b.ne	Laes_BB0_11
// %bb.2:                               // %then.1.i
	adrp	x8, l_aes_CPI0_2@PAGE
	ushr	v4.16b, v0.16b, #4
	adrp	x9, l_aes_CPI0_3@PAGE
	and	v5.16b, v0.16b, v3.16b
	ldr	q1, [x8, l_aes_CPI0_2@PAGEOFF]
	ldr	q2, [x9, l_aes_CPI0_3@PAGEOFF]
	adrp	x9, l_aes_static.0@PAGE
	add	x9, x9, l_aes_static.0@PAGEOFF
	mov	w8, #48                         // =0x30
	tbl	v4.16b, { v2.16b }, v4.16b
	tbl	v5.16b, { v1.16b }, v5.16b
	eor	v4.16b, v4.16b, v5.16b
	str	q4, [x0], #16
Laes_BB0_3:                                // %join.5.i
                                        // =>This Inner Loop Header: Depth=1
	adrp	x10, l_aes_CPI0_4@PAGE
	ldrb	w12, [x9], #1
	ldr	q4, [x10, l_aes_CPI0_4@PAGEOFF]
	adrp	x10, l_aes_static.1@PAGE
	add	x10, x10, l_aes_static.1@PAGEOFF
	lsr	x14, x12, #4
	adrp	x11, l_aes_static.2@PAGE
	add	x11, x11, l_aes_static.2@PAGEOFF
	tbl	v5.16b, { v0.16b }, v4.16b
	movi	v7.2d, #0000000000000000
	and	x12, x12, #0xf
	adrp	x13, l_aes_CPI0_5@PAGE
	adrp	x15, l_aes_CPI0_6@PAGE
	ldrb	w12, [x10, x12]
	ldrb	w14, [x11, x14]
	ldr	q6, [x13, l_aes_CPI0_5@PAGEOFF]
	adrp	x13, l_aes_CPI0_10@PAGE
	ushr	v18.16b, v5.16b, #4
	and	v16.16b, v5.16b, v3.16b
	ldr	q5, [x15, l_aes_CPI0_6@PAGEOFF]
	eor	w12, w14, w12
	mov	v7.b[0], w12
	adrp	x12, l_aes_CPI0_9@PAGE
	eor	v17.16b, v18.16b, v16.16b
	tbl	v16.16b, { v6.16b }, v16.16b
	tbl	v19.16b, { v5.16b }, v18.16b
	tbl	v20.16b, { v5.16b }, v17.16b
	eor	v0.16b, v7.16b, v0.16b
	ldr	q7, [x12, l_aes_CPI0_9@PAGEOFF]
	eor	v19.16b, v19.16b, v16.16b
	adrp	x12, l_aes_CPI0_7@PAGE
	eor	v16.16b, v20.16b, v16.16b
	tbl	v20.16b, { v0.16b }, v7.16b
	tbl	v19.16b, { v5.16b }, v19.16b
	tbl	v21.16b, { v5.16b }, v16.16b
	ldr	q16, [x12, l_aes_CPI0_7@PAGEOFF]
	adrp	x12, l_aes_CPI0_8@PAGE
	eor	v0.16b, v20.16b, v0.16b
	eor	v19.16b, v19.16b, v17.16b
	ldr	q17, [x13, l_aes_CPI0_10@PAGEOFF]
	and	x13, x8, #0x30
	add	x8, x8, #48
	cmp	x8, #480
	eor	v20.16b, v21.16b, v18.16b
	tbl	v21.16b, { v16.16b }, v19.16b
	tbl	v22.16b, { v0.16b }, v17.16b
	ldr	q18, [x12, l_aes_CPI0_8@PAGEOFF]
	movi	v19.16b, #110
	adrp	x12, l_aes_static.3@PAGE
	add	x12, x12, l_aes_static.3@PAGEOFF
	tbl	v20.16b, { v18.16b }, v20.16b
	eor	v21.16b, v21.16b, v22.16b
	eor	v0.16b, v0.16b, v19.16b
	eor	v20.16b, v21.16b, v20.16b
	eor	v0.16b, v20.16b, v0.16b
	ldr	q20, [x12, x13]
	tbl	v21.16b, { v0.16b }, v20.16b
	movi	v20.2d, #0000000000000000
	eor	v21.16b, v21.16b, v19.16b
	str	q21, [x0], #16
	b.ne	Laes_BB0_3
// %bb.4:                               // %join.5.i.peel
	tbl	v4.16b, { v0.16b }, v4.16b
	movi	v3.16b, #15
	ldrb	w9, [x9]
	cmp	x8, #480
	lsr	x13, x9, #4
	and	x9, x9, #0xf
	ldrb	w9, [x10, x9]
	ushr	v21.16b, v4.16b, #4
	and	v4.16b, v4.16b, v3.16b
	ldrb	w10, [x11, x13]
	eor	w9, w10, w9
	eor	v22.16b, v21.16b, v4.16b
	tbl	v4.16b, { v6.16b }, v4.16b
	tbl	v6.16b, { v5.16b }, v21.16b
	mov	v20.b[0], w9
	tbl	v23.16b, { v5.16b }, v22.16b
	eor	v6.16b, v6.16b, v4.16b
	eor	v0.16b, v20.16b, v0.16b
	eor	v4.16b, v23.16b, v4.16b
	tbl	v6.16b, { v5.16b }, v6.16b
	tbl	v7.16b, { v0.16b }, v7.16b
	tbl	v4.16b, { v5.16b }, v4.16b
	eor	v5.16b, v6.16b, v22.16b
	eor	v0.16b, v7.16b, v0.16b
	eor	v4.16b, v4.16b, v21.16b
	tbl	v5.16b, { v16.16b }, v5.16b
	tbl	v6.16b, { v0.16b }, v17.16b
	eor	v0.16b, v0.16b, v19.16b
	tbl	v4.16b, { v18.16b }, v4.16b
	eor	v5.16b, v5.16b, v6.16b
	eor	v4.16b, v5.16b, v4.16b
	eor	v0.16b, v4.16b, v0.16b
	b.ne	Laes_BB0_14
// %bb.5:                               // %then.4.i425.peel
	and	v3.16b, v0.16b, v3.16b
	ushr	v0.16b, v0.16b, #4
	tbl	v1.16b, { v1.16b }, v3.16b
	tbl	v0.16b, { v2.16b }, v0.16b
	movi	v2.16b, #99
	eor	v0.16b, v1.16b, v0.16b
	eor	v0.16b, v0.16b, v2.16b
	b	Laes_BB0_15
Laes_BB0_6:                                // %then.4.i
	ldr	d1, [x1, #16]
	and	v7.16b, v0.16b, v3.16b
	adrp	x8, l_aes_CPI0_2@PAGE
	ushr	v16.16b, v0.16b, #4
	adrp	x9, l_aes_CPI0_3@PAGE
	mov	v6.d[1], v1.d[0]
	ldr	q1, [x8, l_aes_CPI0_2@PAGEOFF]
	ldr	q2, [x9, l_aes_CPI0_3@PAGEOFF]
	adrp	x8, l_aes_static.0@PAGE+1
	add	x8, x8, l_aes_static.0@PAGEOFF+1
	mov	w9, #144                        // =0x90
	tbl	v7.16b, { v1.16b }, v7.16b
	tbl	v16.16b, { v2.16b }, v16.16b
	and	v3.16b, v6.16b, v3.16b
	ushr	v6.16b, v6.16b, #4
	tbl	v3.16b, { v4.16b }, v3.16b
	tbl	v4.16b, { v5.16b }, v6.16b
	eor	v5.16b, v16.16b, v7.16b
	str	q5, [x0], #32
	eor	v4.16b, v4.16b, v3.16b
	b	Laes_BB0_9
Laes_BB0_7:                                // %join.6.i1332.i
                                        //   in Loop: Header=BB0_9 Depth=1
	and	x10, x9, #0x30
	ldr	q3, [x12, x10]
	tbl	v3.16b, { v0.16b }, v3.16b
	eor	v3.16b, v3.16b, v18.16b
Laes_BB0_8:                                // %"aes_permute::lane_keys::stored_key.exit1337.i"
                                        //   in Loop: Header=BB0_9 Depth=1
	tbl	v5.16b, { v4.16b }, v5.16b
	add	x9, x9, #144
	add	x8, x8, #2
	cmp	x9, #720
	str	q3, [x0, #16]
	add	x0, x0, #48
	eor	v4.16b, v5.16b, v4.16b
	tbl	v5.16b, { v4.16b }, v6.16b
	dup	v6.4s, v0.s[1]
	eor	v4.16b, v5.16b, v4.16b
	eor	v4.16b, v4.16b, v6.16b
	b.eq	Laes_BB0_16
Laes_BB0_9:                                // %join.5.i596
                                        // =>This Inner Loop Header: Depth=1
	adrp	x10, l_aes_CPI0_4@PAGE
	movi	v3.16b, #15
	ldurb	w12, [x8, #-1]
	ldr	q7, [x10, l_aes_CPI0_4@PAGEOFF]
	adrp	x10, l_aes_static.1@PAGE
	add	x10, x10, l_aes_static.1@PAGEOFF
	lsr	x14, x12, #4
	adrp	x11, l_aes_static.2@PAGE
	add	x11, x11, l_aes_static.2@PAGEOFF
	tbl	v5.16b, { v4.16b }, v7.16b
	movi	v6.2d, #0000000000000000
	and	x12, x12, #0xf
	adrp	x13, l_aes_CPI0_5@PAGE
	adrp	x15, l_aes_CPI0_6@PAGE
	ldrb	w12, [x10, x12]
	ldrb	w14, [x11, x14]
	ldr	q17, [x13, l_aes_CPI0_5@PAGEOFF]
	ldr	q16, [x15, l_aes_CPI0_6@PAGEOFF]
	adrp	x13, l_aes_CPI0_10@PAGE
	cmp	x9, #576
	ushr	v18.16b, v5.16b, #4
	and	v5.16b, v5.16b, v3.16b
	eor	w12, w14, w12
	mov	v6.b[0], w12
	adrp	x12, l_aes_CPI0_9@PAGE
	eor	v19.16b, v18.16b, v5.16b
	tbl	v20.16b, { v17.16b }, v5.16b
	tbl	v5.16b, { v16.16b }, v18.16b
	eor	v0.16b, v6.16b, v0.16b
	tbl	v21.16b, { v16.16b }, v19.16b
	eor	v6.16b, v5.16b, v20.16b
	ldr	q5, [x12, l_aes_CPI0_9@PAGEOFF]
	adrp	x12, l_aes_CPI0_7@PAGE
	eor	v20.16b, v21.16b, v20.16b
	tbl	v21.16b, { v0.16b }, v5.16b
	tbl	v6.16b, { v16.16b }, v6.16b
	tbl	v20.16b, { v16.16b }, v20.16b
	eor	v21.16b, v21.16b, v0.16b
	eor	v19.16b, v6.16b, v19.16b
	ldr	q0, [x12, l_aes_CPI0_7@PAGEOFF]
	ldr	q6, [x13, l_aes_CPI0_10@PAGEOFF]
	adrp	x12, l_aes_CPI0_8@PAGE
	eor	v18.16b, v20.16b, v18.16b
	tbl	v20.16b, { v0.16b }, v19.16b
	tbl	v22.16b, { v21.16b }, v6.16b
	ldr	q19, [x12, l_aes_CPI0_8@PAGEOFF]
	sub	w12, w9, #96
	and	x13, x12, #0x30
	adrp	x12, l_aes_static.3@PAGE
	add	x12, x12, l_aes_static.3@PAGEOFF
	tbl	v23.16b, { v19.16b }, v18.16b
	movi	v18.16b, #110
	eor	v20.16b, v20.16b, v22.16b
	eor	v20.16b, v20.16b, v23.16b
	eor	v21.16b, v21.16b, v18.16b
	eor	v20.16b, v20.16b, v21.16b
	tbl	v21.16b, { v4.16b }, v5.16b
	ext	v22.16b, v4.16b, v20.16b, #8
	eor	v4.16b, v21.16b, v4.16b
	ldr	q21, [x12, x13]
	sub	w13, w9, #48
	and	x13, x13, #0x30
	tbl	v23.16b, { v4.16b }, v6.16b
	tbl	v21.16b, { v22.16b }, v21.16b
	dup	v22.4s, v20.s[1]
	eor	v4.16b, v23.16b, v4.16b
	eor	v21.16b, v21.16b, v18.16b
	eor	v4.16b, v4.16b, v22.16b
	stur	q21, [x0, #-16]
	ldr	q21, [x12, x13]
	tbl	v21.16b, { v4.16b }, v21.16b
	tbl	v7.16b, { v4.16b }, v7.16b
	eor	v21.16b, v21.16b, v18.16b
	ushr	v22.16b, v7.16b, #4
	and	v7.16b, v7.16b, v3.16b
	str	q21, [x0]
	movi	v21.2d, #0000000000000000
	eor	v23.16b, v22.16b, v7.16b
	ldrb	w13, [x8]
	tbl	v7.16b, { v17.16b }, v7.16b
	tbl	v17.16b, { v16.16b }, v22.16b
	lsr	x14, x13, #4
	and	x13, x13, #0xf
	tbl	v24.16b, { v16.16b }, v23.16b
	ldrb	w10, [x10, x13]
	ldrb	w11, [x11, x14]
	eor	v17.16b, v17.16b, v7.16b
	eor	w10, w11, w10
	eor	v7.16b, v24.16b, v7.16b
	mov	v21.b[0], w10
	tbl	v17.16b, { v16.16b }, v17.16b
	tbl	v7.16b, { v16.16b }, v7.16b
	eor	v20.16b, v21.16b, v20.16b
	eor	v16.16b, v17.16b, v23.16b
	eor	v7.16b, v7.16b, v22.16b
	tbl	v21.16b, { v20.16b }, v5.16b
	tbl	v0.16b, { v0.16b }, v16.16b
	tbl	v7.16b, { v19.16b }, v7.16b
	eor	v17.16b, v21.16b, v20.16b
	tbl	v16.16b, { v17.16b }, v6.16b
	eor	v0.16b, v0.16b, v16.16b
	eor	v0.16b, v0.16b, v7.16b
	eor	v7.16b, v17.16b, v18.16b
	eor	v0.16b, v0.16b, v7.16b
	b.ne	Laes_BB0_7
// %bb.10:                              // %then.4.i1334.i
                                        //   in Loop: Header=BB0_9 Depth=1
	and	v3.16b, v0.16b, v3.16b
	ushr	v7.16b, v0.16b, #4
	movi	v16.16b, #99
	tbl	v3.16b, { v1.16b }, v3.16b
	tbl	v7.16b, { v2.16b }, v7.16b
	eor	v3.16b, v3.16b, v7.16b
	eor	v3.16b, v3.16b, v16.16b
	b	Laes_BB0_8
Laes_BB0_11:                               // %else.5.i
	ldr	q1, [x1, #16]
	adrp	x8, l_aes_CPI0_2@PAGE
	ushr	v7.16b, v0.16b, #4
	adrp	x9, l_aes_CPI0_3@PAGE
	and	v16.16b, v0.16b, v3.16b
	mov	w10, #144                       // =0x90
	ushr	v2.16b, v1.16b, #4
	and	v1.16b, v1.16b, v3.16b
	tbl	v5.16b, { v5.16b }, v2.16b
	tbl	v6.16b, { v4.16b }, v1.16b
	movi	v4.16b, #110
	ldr	q1, [x8, l_aes_CPI0_2@PAGEOFF]
	ldr	q2, [x9, l_aes_CPI0_3@PAGEOFF]
	adrp	x8, l_aes_CPI0_11@PAGE
	ldr	q17, [x8, l_aes_CPI0_11@PAGEOFF]
	add	x8, x0, #48
	adrp	x9, l_aes_static.0@PAGE
	add	x9, x9, l_aes_static.0@PAGEOFF
	eor	v5.16b, v5.16b, v6.16b
	tbl	v6.16b, { v2.16b }, v7.16b
	tbl	v7.16b, { v1.16b }, v16.16b
	eor	v16.16b, v5.16b, v4.16b
	eor	v6.16b, v6.16b, v7.16b
	tbl	v7.16b, { v16.16b }, v17.16b
	stp	q6, q7, [x0]
Laes_BB0_12:                               // %join.5.i643
                                        // =>This Inner Loop Header: Depth=1
	adrp	x11, l_aes_CPI0_4@PAGE
	adrp	x12, l_aes_static.1@PAGE
	add	x12, x12, l_aes_static.1@PAGEOFF
	ldr	q6, [x11, l_aes_CPI0_4@PAGEOFF]
	ldrb	w11, [x9], #1
	adrp	x13, l_aes_static.2@PAGE
	add	x13, x13, l_aes_static.2@PAGEOFF
	movi	v16.2d, #0000000000000000
	tbl	v7.16b, { v5.16b }, v6.16b
	and	x14, x11, #0xf
	lsr	x11, x11, #4
	ldrb	w12, [x12, x14]
	adrp	x14, l_aes_CPI0_5@PAGE
	ldrb	w11, [x13, x11]
	adrp	x13, l_aes_CPI0_6@PAGE
	ldr	q17, [x14, l_aes_CPI0_5@PAGEOFF]
	ushr	v20.16b, v7.16b, #4
	and	v18.16b, v7.16b, v3.16b
	ldr	q7, [x13, l_aes_CPI0_6@PAGEOFF]
	eor	w11, w11, w12
	adrp	x12, l_aes_CPI0_10@PAGE
	mov	v16.b[0], w11
	adrp	x11, l_aes_CPI0_9@PAGE
	eor	v19.16b, v20.16b, v18.16b
	tbl	v18.16b, { v17.16b }, v18.16b
	tbl	v21.16b, { v7.16b }, v20.16b
	tbl	v22.16b, { v7.16b }, v19.16b
	eor	v0.16b, v16.16b, v0.16b
	ldr	q16, [x11, l_aes_CPI0_9@PAGEOFF]
	eor	v21.16b, v21.16b, v18.16b
	adrp	x11, l_aes_CPI0_7@PAGE
	eor	v18.16b, v22.16b, v18.16b
	tbl	v22.16b, { v0.16b }, v16.16b
	tbl	v21.16b, { v7.16b }, v21.16b
	tbl	v23.16b, { v7.16b }, v18.16b
	ldr	q18, [x11, l_aes_CPI0_7@PAGEOFF]
	adrp	x11, l_aes_CPI0_8@PAGE
	eor	v0.16b, v22.16b, v0.16b
	eor	v21.16b, v21.16b, v19.16b
	ldr	q19, [x12, l_aes_CPI0_10@PAGEOFF]
	adrp	x12, l_aes_static.3@PAGE
	add	x12, x12, l_aes_static.3@PAGEOFF
	eor	v22.16b, v23.16b, v20.16b
	tbl	v21.16b, { v18.16b }, v21.16b
	tbl	v23.16b, { v0.16b }, v19.16b
	ldr	q20, [x11, l_aes_CPI0_8@PAGEOFF]
	sub	w11, w10, #48
	and	x11, x11, #0x20
	tbl	v22.16b, { v20.16b }, v22.16b
	eor	v21.16b, v21.16b, v23.16b
	eor	v21.16b, v22.16b, v21.16b
	eor	v21.16b, v21.16b, v0.16b
	eor	v0.16b, v21.16b, v4.16b
	dup	v22.4s, v0.s[3]
	ushr	v23.16b, v22.16b, #4
	and	v22.16b, v22.16b, v3.16b
	eor	v24.16b, v23.16b, v22.16b
	tbl	v22.16b, { v17.16b }, v22.16b
	tbl	v25.16b, { v7.16b }, v23.16b
	tbl	v26.16b, { v7.16b }, v24.16b
	eor	v25.16b, v25.16b, v22.16b
	eor	v22.16b, v26.16b, v22.16b
	tbl	v25.16b, { v7.16b }, v25.16b
	tbl	v26.16b, { v5.16b }, v16.16b
	tbl	v22.16b, { v7.16b }, v22.16b
	eor	v24.16b, v25.16b, v24.16b
	eor	v5.16b, v26.16b, v5.16b
	ldr	q25, [x12, x11]
	and	x11, x10, #0x30
	add	x10, x10, #96
	tbl	v25.16b, { v0.16b }, v25.16b
	cmp	x10, #720
	eor	v22.16b, v22.16b, v23.16b
	tbl	v23.16b, { v18.16b }, v24.16b
	tbl	v24.16b, { v5.16b }, v19.16b
	eor	v5.16b, v5.16b, v4.16b
	tbl	v22.16b, { v20.16b }, v22.16b
	eor	v23.16b, v24.16b, v23.16b
	eor	v24.16b, v25.16b, v4.16b
	eor	v22.16b, v23.16b, v22.16b
	stur	q24, [x8, #-16]
	eor	v5.16b, v22.16b, v5.16b
	ldr	q22, [x12, x11]
	tbl	v22.16b, { v5.16b }, v22.16b
	eor	v22.16b, v22.16b, v4.16b
	str	q22, [x8], #32
	b.ne	Laes_BB0_12
// %bb.13:                              // %"aes_planes::expansion::expand_256::<#05c2c6c54e82e59f>.exit"
	tbl	v0.16b, { v5.16b }, v6.16b
	movi	v3.16b, #15
	adrp	x8, l_aes_CPI0_12@PAGE
	ushr	v4.16b, v0.16b, #4
	and	v0.16b, v0.16b, v3.16b
	eor	v5.16b, v4.16b, v0.16b
	tbl	v0.16b, { v17.16b }, v0.16b
	tbl	v6.16b, { v7.16b }, v4.16b
	ldr	q17, [x8, l_aes_CPI0_12@PAGEOFF]
	tbl	v22.16b, { v7.16b }, v5.16b
	eor	v17.16b, v21.16b, v17.16b
	eor	v6.16b, v6.16b, v0.16b
	tbl	v16.16b, { v17.16b }, v16.16b
	eor	v0.16b, v22.16b, v0.16b
	tbl	v6.16b, { v7.16b }, v6.16b
	tbl	v0.16b, { v7.16b }, v0.16b
	movi	v7.16b, #110
	eor	v5.16b, v6.16b, v5.16b
	eor	v6.16b, v16.16b, v17.16b
	eor	v0.16b, v0.16b, v4.16b
	tbl	v4.16b, { v18.16b }, v5.16b
	tbl	v5.16b, { v6.16b }, v19.16b
	tbl	v0.16b, { v20.16b }, v0.16b
	eor	v4.16b, v5.16b, v4.16b
	eor	v0.16b, v4.16b, v0.16b
	eor	v4.16b, v6.16b, v7.16b
	eor	v0.16b, v0.16b, v4.16b
	and	v3.16b, v0.16b, v3.16b
	ushr	v0.16b, v0.16b, #4
	tbl	v1.16b, { v1.16b }, v3.16b
	tbl	v0.16b, { v2.16b }, v0.16b
	movi	v2.16b, #99
	eor	v0.16b, v1.16b, v0.16b
	eor	v0.16b, v0.16b, v2.16b
	str	q0, [x0, #224]
	ret
Laes_BB0_14:                               // %join.6.i.peel
	and	x8, x8, #0x30
	ldr	q1, [x12, x8]
	tbl	v0.16b, { v0.16b }, v1.16b
	movi	v1.16b, #110
	eor	v0.16b, v0.16b, v1.16b
Laes_BB0_15:                               // %"aes_permute::lane_keys::stored_key.exit.peel"
	str	q0, [x0]
Laes_BB0_16:                               // %"aes_planes::expansion::expand::<#05c2c6c54e82e59f>.exit"
	ret
                                        // -- End function
	.section	__TEXT,__text,regular,pure_instructions
	.p2align	2                               // -- Begin function aes_ctr::add_in_batches::add_keystream::<#ef80964e0b8d42c0>
_aes.aes_ctr.add_in_batches.add_keystream: // @_aes.aes_ctr.add_in_batches.add_keystream
// %bb.0:                               // %start
	sub	sp, sp, #416
	stp	x24, x23, [sp, #368]            // 16-byte Folded Spill
	and	x23, x2, #0xf
	mov	w8, #16                         // =0x10
	ldr	q0, [x1]
	sub	x8, x8, x23
	stp	x22, x21, [sp, #384]            // 16-byte Folded Spill
	stp	x20, x19, [sp, #400]            // 16-byte Folded Spill
	mov	x20, x4
	mov	x19, x3
	mov	x22, x2
	mov	x21, x0
	cmp	x4, x8
	stp	x29, x30, [sp, #320]            // 16-byte Folded Spill
	add	x29, sp, #320
	stp	x28, x27, [sp, #336]            // 16-byte Folded Spill
	stp	x26, x25, [sp, #352]            // 16-byte Folded Spill
	str	q0, [sp]
	b.ls	Laes_BB1_3
// %bb.1:                               // %else.2.i
	add	x8, x20, x23
	mov	x10, sp
	stp	x19, x20, [sp, #32]
	lsr	x9, x8, #4
	tst	x8, #0xf
	stp	x10, x22, [sp, #16]
	cinc	x8, x9, ne
	cmp	x8, #8
	b.lo	Laes_BB1_14
// %bb.2:                               // %then.1.i.i
	ldp	x0, x1, [x21]
	add	x4, sp, #16
	mov	x2, x0
	mov	x3, x1
	bl	_aes.aes_hybrid.closures.lend_planes.1
	b	Laes_BB1_27
Laes_BB1_3:                                // %then.1.i
	ldp	x9, x8, [sp]
	add	x2, sp, #48
	ldp	x0, x1, [x21, #16]
	mov	w3, #1                          // =0x1
	rev	x8, x8
	rev	x9, x9
	adds	x8, x8, x22, lsr #4
	cinc	x9, x9, hs
	fmov	d0, x8
	mov	v0.d[1], x9
	rev64	v0.16b, v0.16b
	ext	v0.16b, v0.16b, v0.16b, #8
	str	q0, [sp, #48]
	bl	_aes.aes_permute.blocks.process_on_lanes.1
	mov	x9, xzr
	cbz	x23, Laes_BB1_8
// %bb.4:                               // %then.1.i
	cbz	x20, Laes_BB1_8
// %bb.5:                               // %join.8.i68.lr.ph.i.i
	add	x9, sp, #48
	mov	x8, xzr
	orr	x9, x9, x23
Laes_BB1_6:                                // %join.8.i68.i.i
                                        // =>This Inner Loop Header: Depth=1
	ldrb	w10, [x9, x8]
	ldrb	w11, [x19, x8]
	eor	w10, w11, w10
	strb	w10, [x19, x8]
	add	x8, x8, #1
	cmp	x20, x8
	b.ne	Laes_BB1_6
// %bb.7:
	mov	x9, x20
Laes_BB1_8:                                // %join.3.i.i.i
	sub	x8, x20, x9
	cmp	x8, #16
	b.lo	Laes_BB1_10
Laes_BB1_9:                                // %join.8.i.i.i
                                        // =>This Inner Loop Header: Depth=1
	add	x10, x23, x9
	add	x11, sp, #48
	ldr	q0, [x19, x9]
	and	x10, x10, #0xfffffffffffffff0
	sub	x8, x8, #16
	ldr	q1, [x11, x10]
	cmp	x8, #15
	eor	v0.16b, v1.16b, v0.16b
	str	q0, [x19, x9]
	add	x9, x9, #16
	b.hi	Laes_BB1_9
Laes_BB1_10:                               // %after.4.i.i.i
	cmp	x9, x20
	b.hs	Laes_BB1_27
// %bb.11:                              // %then.9.i.i.i
	cbz	x8, Laes_BB1_27
// %bb.12:                              // %iter.check
	add	x10, x9, x23
	cmp	x8, #8
	and	x10, x10, #0xfffffffffffffff0
	b.hs	Laes_BB1_22
// %bb.13:
	mov	x11, xzr
	b	Laes_BB1_25
Laes_BB1_14:                               // %else.2.i.i
	cbz	x23, Laes_BB1_16
// %bb.15:                              // %then.1.i.i11.i
	mov	x1, sp
	mov	x0, x21
	mov	x2, x22
	mov	x3, xzr
	mov	x4, x19
	mov	x5, x20
	bl	_aes.aes_ctr.add_in_batches.add_next.2
	mov	x3, x0
	sub	x8, x20, x0
	cmp	x8, #64
	b.hs	Laes_BB1_17
	b	Laes_BB1_20
Laes_BB1_16:
	mov	x3, xzr
	sub	x8, x20, xzr
	cmp	x8, #64
	b.lo	Laes_BB1_20
Laes_BB1_17:                               // %join.11.lr.ph.i.i.i
	ldp	x8, x9, [sp]
	add	x23, sp, #48
	neg	x25, x3
	add	x27, x3, x22
	add	x28, x19, x3
	rev	x24, x8
	rev	x26, x9
Laes_BB1_18:                               // %join.11.i.i.i
                                        // =>This Inner Loop Header: Depth=1
	adds	x8, x26, x27, lsr #4
	movi	v0.2d, #0000000000000000
	add	x2, sp, #48
	cinc	x9, x24, hs
	ldp	x0, x1, [x21, #16]
	adds	x10, x8, #1
	fmov	d2, x8
	mov	w3, #4                          // =0x4
	cinc	x11, x9, hs
	fmov	d1, x10
	adds	x10, x8, #2
	cinc	x12, x9, hs
	adds	x13, x8, #3
	fmov	d3, x10
	fmov	d4, x13
	cinc	x8, x9, hs
	mov	v2.d[1], x9
	mov	v1.d[1], x11
	stp	q0, q0, [x23, #64]
	mov	v3.d[1], x12
	stp	q0, q0, [x23, #96]
	mov	v4.d[1], x8
	stp	q0, q0, [x23, #128]
	rev64	v2.16b, v2.16b
	stp	q0, q0, [x23, #160]
	rev64	v1.16b, v1.16b
	stp	q0, q0, [x23, #192]
	rev64	v3.16b, v3.16b
	stp	q0, q0, [x23, #224]
	rev64	v4.16b, v4.16b
	ext	v2.16b, v2.16b, v2.16b, #8
	ext	v1.16b, v1.16b, v1.16b, #8
	ext	v3.16b, v3.16b, v3.16b, #8
	ext	v0.16b, v4.16b, v4.16b, #8
	stp	q2, q1, [sp, #48]
	stp	q3, q0, [sp, #80]
	bl	_aes.aes_permute.blocks.process_on_lanes.1
	ldp	q0, q3, [sp, #48]
	sub	x25, x25, #64
	ldp	q1, q2, [x28]
	add	x8, x20, x25
	cmp	x8, #63
	add	x27, x27, #64
	eor	v0.16b, v0.16b, v1.16b
	ldp	q1, q5, [x28, #32]
	eor	v2.16b, v3.16b, v2.16b
	ldp	q4, q3, [sp, #80]
	eor	v1.16b, v4.16b, v1.16b
	eor	v3.16b, v3.16b, v5.16b
	stp	q0, q2, [x28]
	stp	q1, q3, [x28, #32]
	add	x28, x28, #64
	b.hi	Laes_BB1_18
// %bb.19:                              // %loop.13.preheader.i.i.i.loopexit
	neg	x3, x25
Laes_BB1_20:                               // %loop.13.preheader.i.i.i
	cmp	x3, x20
	b.hs	Laes_BB1_27
Laes_BB1_21:                               // %join.16.i.i.i
                                        // =>This Inner Loop Header: Depth=1
	mov	x1, sp
	mov	x0, x21
	mov	x2, x22
	mov	x4, x19
	mov	x5, x20
	bl	_aes.aes_ctr.add_in_batches.add_next.2
	mov	x3, x0
	cmp	x0, x20
	b.lo	Laes_BB1_21
	b	Laes_BB1_27
Laes_BB1_22:                               // %vec.epilog.ph
	add	x11, sp, #48
	add	x13, x19, x9
	and	x14, x8, #0x8
	add	x12, x11, x10
	and	x11, x8, #0x8
Laes_BB1_23:                               // %vec.epilog.vector.body
                                        // =>This Inner Loop Header: Depth=1
	ldr	d0, [x12], #8
	ldr	d1, [x13]
	subs	x14, x14, #8
	eor	v0.8b, v1.8b, v0.8b
	str	d0, [x13], #8
	b.ne	Laes_BB1_23
// %bb.24:                              // %vec.epilog.middle.block
	cmp	x8, x11
	b.eq	Laes_BB1_27
Laes_BB1_25:                               // %join.8.i11.i.i.preheader
	add	x9, x9, x11
	add	x10, x11, x10
	add	x12, sp, #48
	sub	x8, x8, x11
	add	x9, x19, x9
	add	x10, x12, x10
Laes_BB1_26:                               // %join.8.i11.i.i
                                        // =>This Inner Loop Header: Depth=1
	ldrb	w11, [x10], #1
	ldrb	w12, [x9]
	subs	x8, x8, #1
	eor	w11, w12, w11
	strb	w11, [x9], #1
	b.ne	Laes_BB1_26
Laes_BB1_27:                               // %"aes_ctr::add_in_batches::add_stream::<#c11b85b865c7c27a>.exit"
	ldp	x20, x19, [sp, #400]            // 16-byte Folded Reload
	ldp	x22, x21, [sp, #384]            // 16-byte Folded Reload
	ldp	x24, x23, [sp, #368]            // 16-byte Folded Reload
	ldp	x26, x25, [sp, #352]            // 16-byte Folded Reload
	ldp	x28, x27, [sp, #336]            // 16-byte Folded Reload
	ldp	x29, x30, [sp, #320]            // 16-byte Folded Reload
	add	sp, sp, #416
	ret
                                        // -- End function
	.section	__TEXT,__text,regular,pure_instructions
	.p2align	2                               // -- Begin function aes_hybrid::batches::process_on_planes::<#a60badf655ff5009>
_aes.aes_hybrid.batches.process_on_planes.1: // @_aes.aes_hybrid.batches.process_on_planes.1
// %bb.0:                               // %start
	stp	x29, x30, [sp, #-64]!           // 16-byte Folded Spill
	stp	x28, x23, [sp, #16]             // 16-byte Folded Spill
	mov	x29, sp
	stp	x22, x21, [sp, #32]             // 16-byte Folded Spill
	stp	x20, x19, [sp, #48]             // 16-byte Folded Spill
	sub	sp, sp, #1920
	mov	x8, sp
	mov	x20, x2
	mov	x21, x1
	mov	x22, x0
	add	x0, x8, #128
	mov	w1, wzr
	mov	w2, #1792                       // =0x700
	str	xzr, [sp]
	mov	x19, x3
	adrp	x16, _memset@GOTPAGE
	ldr	x16, [x16, _memset@GOTPAGEOFF]
	blr	x16
	mov	x0, sp
	mov	x1, x22
	mov	x2, x21
	lsl	x23, x21, #3
	bl	_aes.aes_hybrid.plane_keys.store_planes
	mov	x0, sp
	mov	x1, x23
	mov	x2, x20
	mov	x3, x19
	bl	_aes.aes_hybrid.batches.process_batches_and_rest.1
	mov	x0, sp
	bl	_aes.aes_cipher.zeroize.zeroize_words
	bl	_aes.aes_cipher.zeroize.stack.wipe_stack.1792
	add	sp, sp, #1920
	ldp	x20, x19, [sp, #48]             // 16-byte Folded Reload
	ldp	x22, x21, [sp, #32]             // 16-byte Folded Reload
	ldp	x28, x23, [sp, #16]             // 16-byte Folded Reload
	ldp	x29, x30, [sp], #64             // 16-byte Folded Reload
	ret
                                        // -- End function
	.section	__TEXT,__const
	.p2align	4, 0x0                          // -- Begin function aes_hybrid::plane_keys::store_planes::<#e29e0540aa8bc136>
l_aes_CPI3_0:
	.byte	0                               // 0x0
	.byte	4                               // 0x4
	.byte	8                               // 0x8
	.byte	12                              // 0xc
	.byte	1                               // 0x1
	.byte	5                               // 0x5
	.byte	9                               // 0x9
	.byte	13                              // 0xd
	.byte	2                               // 0x2
	.byte	6                               // 0x6
	.byte	10                              // 0xa
	.byte	14                              // 0xe
	.byte	3                               // 0x3
	.byte	7                               // 0x7
	.byte	11                              // 0xb
	.byte	15                              // 0xf
l_aes_CPI3_1:
	.byte	0                               // 0x0
	.byte	1                               // 0x1
	.byte	92                              // 0x5c
	.byte	93                              // 0x5d
	.byte	224                             // 0xe0
	.byte	225                             // 0xe1
	.byte	188                             // 0xbc
	.byte	189                             // 0xbd
	.byte	80                              // 0x50
	.byte	81                              // 0x51
	.byte	12                              // 0xc
	.byte	13                              // 0xd
	.byte	176                             // 0xb0
	.byte	177                             // 0xb1
	.byte	236                             // 0xec
	.byte	237                             // 0xed
l_aes_CPI3_2:
	.byte	0                               // 0x0
	.byte	178                             // 0xb2
	.byte	181                             // 0xb5
	.byte	7                               // 0x7
	.byte	58                              // 0x3a
	.byte	136                             // 0x88
	.byte	143                             // 0x8f
	.byte	61                              // 0x3d
	.byte	172                             // 0xac
	.byte	30                              // 0x1e
	.byte	25                              // 0x19
	.byte	171                             // 0xab
	.byte	150                             // 0x96
	.byte	36                              // 0x24
	.byte	35                              // 0x23
	.byte	145                             // 0x91
	.section	__TEXT,__text,regular,pure_instructions
	.p2align	2
_aes.aes_hybrid.plane_keys.store_planes: // @_aes.aes_hybrid.plane_keys.store_planes
// %bb.0:                               // %start
	adrp	x8, l_aes_CPI3_0@PAGE
	ldr	q1, [x1]
	movi	v6.16b, #4
	ldr	q0, [x8, l_aes_CPI3_0@PAGEOFF]
	movi	v7.16b, #8
	movi	v4.16b, #16
	movi	v5.16b, #32
	movi	v2.16b, #2
	movi	v3.16b, #64
	tbl	v16.16b, { v1.16b }, v0.16b
	movi	v1.16b, #1
	sub	x8, x2, #1
	cmp	x8, #2
	cmtst	v17.16b, v16.16b, v6.16b
	cmtst	v18.16b, v16.16b, v7.16b
	and	v19.16b, v16.16b, v1.16b
	cmtst	v20.16b, v16.16b, v4.16b
	cmtst	v21.16b, v16.16b, v5.16b
	neg	v19.16b, v19.16b
	stp	q17, q18, [x0, #32]
	cmtst	v17.16b, v16.16b, v2.16b
	cmtst	v18.16b, v16.16b, v3.16b
	cmlt	v16.16b, v16.16b, #0
	stp	q20, q21, [x0, #64]
	stp	q19, q17, [x0]
	stp	q18, q16, [x0, #96]
	b.lo	Laes_BB3_3
// %bb.1:                               // %join.5.lr.ph
	sub	x9, x2, #2
	add	x10, x1, #16
	add	x11, x0, #240
Laes_BB3_2:                                // %join.5
                                        // =>This Inner Loop Header: Depth=1
	movi	v16.16b, #15
	ldr	q17, [x10], #16
	adrp	x12, l_aes_CPI3_1@PAGE
	adrp	x13, l_aes_CPI3_2@PAGE
	movi	v20.16b, #16
	ushr	v18.16b, v17.16b, #4
	ldr	q19, [x13, l_aes_CPI3_2@PAGEOFF]
	movi	v21.16b, #32
	movi	v22.16b, #2
	movi	v23.16b, #64
	subs	x9, x9, #1
	and	v16.16b, v17.16b, v16.16b
	ldr	q17, [x12, l_aes_CPI3_1@PAGEOFF]
	tbl	v18.16b, { v19.16b }, v18.16b
	movi	v19.16b, #1
	tbl	v16.16b, { v17.16b }, v16.16b
	movi	v17.16b, #4
	eor	v16.16b, v18.16b, v16.16b
	movi	v18.16b, #8
	tbl	v16.16b, { v16.16b }, v0.16b
	cmtst	v17.16b, v16.16b, v17.16b
	cmtst	v18.16b, v16.16b, v18.16b
	and	v19.16b, v16.16b, v19.16b
	cmtst	v20.16b, v16.16b, v20.16b
	cmtst	v21.16b, v16.16b, v21.16b
	neg	v19.16b, v19.16b
	stp	q17, q18, [x11, #-80]
	cmtst	v17.16b, v16.16b, v22.16b
	cmtst	v18.16b, v16.16b, v23.16b
	cmlt	v16.16b, v16.16b, #0
	stp	q20, q21, [x11, #-48]
	stp	q19, q17, [x11, #-112]
	stp	q18, q16, [x11, #-16]
	add	x11, x11, #128
	b.ne	Laes_BB3_2
Laes_BB3_3:                                // %after.1
	ldr	q16, [x1, x8, lsl #4]
	add	x8, x0, x8, lsl #7
	tbl	v0.16b, { v16.16b }, v0.16b
	and	v1.16b, v0.16b, v1.16b
	cmtst	v6.16b, v0.16b, v6.16b
	cmtst	v7.16b, v0.16b, v7.16b
	cmtst	v4.16b, v0.16b, v4.16b
	cmtst	v5.16b, v0.16b, v5.16b
	cmtst	v2.16b, v0.16b, v2.16b
	cmtst	v3.16b, v0.16b, v3.16b
	cmlt	v0.16b, v0.16b, #0
	neg	v1.16b, v1.16b
	stp	q6, q7, [x8, #32]
	stp	q4, q5, [x8, #64]
	stp	q1, q2, [x8]
	stp	q3, q0, [x8, #96]
	ret
                                        // -- End function
	.section	__TEXT,__const
	.p2align	4, 0x0                          // -- Begin function aes_hybrid::batches::process_batches_and_rest::<#a60badf655ff5009>
l_aes_CPI4_0:
	.byte	0                               // 0x0
	.byte	4                               // 0x4
	.byte	8                               // 0x8
	.byte	12                              // 0xc
	.byte	1                               // 0x1
	.byte	5                               // 0x5
	.byte	9                               // 0x9
	.byte	13                              // 0xd
	.byte	2                               // 0x2
	.byte	6                               // 0x6
	.byte	10                              // 0xa
	.byte	14                              // 0xe
	.byte	3                               // 0x3
	.byte	7                               // 0x7
	.byte	11                              // 0xb
	.byte	15                              // 0xf
	.section	__TEXT,__text,regular,pure_instructions
	.p2align	2
_aes.aes_hybrid.batches.process_batches_and_rest.1: // @_aes.aes_hybrid.batches.process_batches_and_rest.1
// %bb.0:                               // %join.5.i.lr.ph
	sub	sp, sp, #224
	lsr	x8, x1, #3
	stp	x26, x25, [sp, #160]            // 16-byte Folded Spill
	mov	x25, xzr
	stp	x24, x23, [sp, #176]            // 16-byte Folded Spill
	and	x24, x3, #0xfffffffffffffff8
	add	x26, x2, #64
	stp	x22, x21, [sp, #192]            // 16-byte Folded Spill
	mov	x22, x2
	mov	x21, x0
	stp	x20, x19, [sp, #208]            // 16-byte Folded Spill
	mov	x20, x3
	mov	x19, x1
	sub	x23, x8, #1
	stp	x29, x30, [sp, #144]            // 16-byte Folded Spill
	add	x29, sp, #144
Laes_BB4_1:                                // %join.5.i
                                        // =>This Inner Loop Header: Depth=1
	adrp	x8, l_aes_CPI4_0@PAGE
	ldp	q0, q3, [x26]
	ldp	q1, q2, [x26, #-64]
	movi	v21.16b, #85
	ldr	q18, [x8, l_aes_CPI4_0@PAGEOFF]
	ldp	q4, q7, [x26, #32]
	add	x2, sp, #16
	mov	x0, x21
	mov	x1, x23
	tbl	v1.16b, { v1.16b }, v18.16b
	tbl	v5.16b, { v0.16b }, v18.16b
	tbl	v17.16b, { v3.16b }, v18.16b
	ldp	q0, q6, [x26, #-32]
	tbl	v4.16b, { v4.16b }, v18.16b
	tbl	v7.16b, { v7.16b }, v18.16b
	str	q18, [sp]                       // 16-byte Spill
	tbl	v16.16b, { v0.16b }, v18.16b
	tbl	v0.16b, { v2.16b }, v18.16b
	ushr	v2.16b, v1.16b, #1
	ushr	v3.16b, v5.16b, #1
	tbl	v6.16b, { v6.16b }, v18.16b
	ushr	v19.16b, v4.16b, #1
	ushr	v18.16b, v16.16b, #1
	eor	v2.16b, v0.16b, v2.16b
	eor	v3.16b, v17.16b, v3.16b
	eor	v19.16b, v7.16b, v19.16b
	eor	v18.16b, v6.16b, v18.16b
	and	v2.16b, v2.16b, v21.16b
	and	v20.16b, v3.16b, v21.16b
	and	v19.16b, v19.16b, v21.16b
	and	v18.16b, v18.16b, v21.16b
	add	v3.16b, v2.16b, v2.16b
	add	v21.16b, v20.16b, v20.16b
	add	v23.16b, v19.16b, v19.16b
	eor	v0.16b, v2.16b, v0.16b
	eor	v7.16b, v19.16b, v7.16b
	add	v22.16b, v18.16b, v18.16b
	eor	v3.16b, v3.16b, v1.16b
	eor	v2.16b, v21.16b, v5.16b
	eor	v1.16b, v20.16b, v17.16b
	eor	v5.16b, v18.16b, v6.16b
	eor	v4.16b, v23.16b, v4.16b
	movi	v20.16b, #51
	movi	v23.16b, #15
	eor	v6.16b, v22.16b, v16.16b
	ushr	v16.16b, v0.16b, #2
	ushr	v17.16b, v3.16b, #2
	ushr	v18.16b, v2.16b, #2
	ushr	v19.16b, v1.16b, #2
	eor	v16.16b, v5.16b, v16.16b
	eor	v17.16b, v6.16b, v17.16b
	eor	v18.16b, v4.16b, v18.16b
	eor	v19.16b, v7.16b, v19.16b
	and	v16.16b, v16.16b, v20.16b
	and	v17.16b, v17.16b, v20.16b
	and	v18.16b, v18.16b, v20.16b
	and	v19.16b, v19.16b, v20.16b
	eor	v5.16b, v16.16b, v5.16b
	eor	v6.16b, v17.16b, v6.16b
	shl	v17.16b, v17.16b, #2
	eor	v4.16b, v18.16b, v4.16b
	eor	v7.16b, v19.16b, v7.16b
	shl	v18.16b, v18.16b, #2
	shl	v16.16b, v16.16b, #2
	shl	v19.16b, v19.16b, #2
	ushr	v20.16b, v5.16b, #4
	ushr	v21.16b, v6.16b, #4
	eor	v3.16b, v17.16b, v3.16b
	and	v22.16b, v4.16b, v23.16b
	and	v17.16b, v7.16b, v23.16b
	eor	v2.16b, v18.16b, v2.16b
	eor	v0.16b, v16.16b, v0.16b
	eor	v1.16b, v19.16b, v1.16b
	ushr	v18.16b, v3.16b, #4
	eor	v16.16b, v22.16b, v21.16b
	eor	v17.16b, v17.16b, v20.16b
	and	v19.16b, v2.16b, v23.16b
	ushr	v20.16b, v0.16b, #4
	and	v21.16b, v1.16b, v23.16b
	eor	v18.16b, v19.16b, v18.16b
	shl	v19.16b, v17.16b, #4
	shl	v22.16b, v16.16b, #4
	eor	v20.16b, v21.16b, v20.16b
	eor	v5.16b, v19.16b, v5.16b
	shl	v19.16b, v18.16b, #4
	eor	v2.16b, v18.16b, v2.16b
	shl	v18.16b, v20.16b, #4
	eor	v1.16b, v20.16b, v1.16b
	eor	v6.16b, v22.16b, v6.16b
	eor	v3.16b, v19.16b, v3.16b
	eor	v0.16b, v18.16b, v0.16b
	stp	q6, q5, [sp, #48]
	stp	q2, q1, [sp, #80]
	eor	v2.16b, v16.16b, v4.16b
	eor	v1.16b, v17.16b, v7.16b
	stp	q3, q0, [sp, #16]
	stp	q2, q1, [sp, #112]
	bl	_aes.aes_soft.soft.ciphers.planes.EncryptPlaneCipher.process_planes
	ldp	q0, q4, [sp, #80]
	movi	v20.16b, #85
	ldp	q1, q2, [sp, #16]
	add	x25, x25, #8
	ldp	q3, q16, [sp, #48]
	cmp	x25, x24
	ushr	v6.16b, v0.16b, #1
	ldp	q7, q17, [sp, #112]
	ushr	v5.16b, v1.16b, #1
	ushr	v18.16b, v3.16b, #1
	ushr	v19.16b, v7.16b, #1
	eor	v6.16b, v4.16b, v6.16b
	eor	v5.16b, v2.16b, v5.16b
	eor	v18.16b, v16.16b, v18.16b
	eor	v19.16b, v17.16b, v19.16b
	and	v6.16b, v6.16b, v20.16b
	and	v5.16b, v5.16b, v20.16b
	and	v18.16b, v18.16b, v20.16b
	and	v19.16b, v19.16b, v20.16b
	add	v21.16b, v6.16b, v6.16b
	eor	v4.16b, v6.16b, v4.16b
	add	v20.16b, v5.16b, v5.16b
	eor	v2.16b, v5.16b, v2.16b
	add	v22.16b, v18.16b, v18.16b
	eor	v5.16b, v18.16b, v16.16b
	eor	v0.16b, v21.16b, v0.16b
	eor	v17.16b, v19.16b, v17.16b
	eor	v1.16b, v20.16b, v1.16b
	add	v20.16b, v19.16b, v19.16b
	ushr	v18.16b, v2.16b, #2
	ushr	v19.16b, v4.16b, #2
	eor	v3.16b, v22.16b, v3.16b
	movi	v22.16b, #15
	ushr	v16.16b, v0.16b, #2
	eor	v6.16b, v20.16b, v7.16b
	movi	v20.16b, #51
	eor	v18.16b, v5.16b, v18.16b
	eor	v19.16b, v17.16b, v19.16b
	ushr	v7.16b, v1.16b, #2
	eor	v16.16b, v6.16b, v16.16b
	and	v18.16b, v18.16b, v20.16b
	and	v19.16b, v19.16b, v20.16b
	eor	v7.16b, v3.16b, v7.16b
	and	v16.16b, v16.16b, v20.16b
	eor	v5.16b, v18.16b, v5.16b
	eor	v17.16b, v19.16b, v17.16b
	and	v7.16b, v7.16b, v20.16b
	shl	v18.16b, v18.16b, #2
	shl	v19.16b, v19.16b, #2
	eor	v6.16b, v16.16b, v6.16b
	shl	v16.16b, v16.16b, #2
	ushr	v21.16b, v5.16b, #4
	eor	v3.16b, v7.16b, v3.16b
	shl	v7.16b, v7.16b, #2
	eor	v2.16b, v18.16b, v2.16b
	eor	v4.16b, v19.16b, v4.16b
	eor	v0.16b, v16.16b, v0.16b
	and	v16.16b, v17.16b, v22.16b
	and	v20.16b, v6.16b, v22.16b
	eor	v1.16b, v7.16b, v1.16b
	ushr	v7.16b, v3.16b, #4
	eor	v16.16b, v16.16b, v21.16b
	movi	v21.16b, #15
	and	v19.16b, v0.16b, v22.16b
	eor	v7.16b, v20.16b, v7.16b
	ushr	v18.16b, v1.16b, #4
	ushr	v20.16b, v2.16b, #4
	and	v21.16b, v4.16b, v21.16b
	shl	v22.16b, v7.16b, #4
	eor	v18.16b, v19.16b, v18.16b
	shl	v19.16b, v16.16b, #4
	eor	v6.16b, v7.16b, v6.16b
	eor	v7.16b, v16.16b, v17.16b
	eor	v20.16b, v21.16b, v20.16b
	eor	v3.16b, v22.16b, v3.16b
	eor	v0.16b, v18.16b, v0.16b
	eor	v5.16b, v19.16b, v5.16b
	shl	v19.16b, v18.16b, #4
	eor	v4.16b, v20.16b, v4.16b
	shl	v18.16b, v20.16b, #4
	ldr	q20, [sp]                       // 16-byte Reload
	eor	v1.16b, v19.16b, v1.16b
	tbl	v3.16b, { v3.16b }, v20.16b
	tbl	v5.16b, { v5.16b }, v20.16b
	tbl	v0.16b, { v0.16b }, v20.16b
	tbl	v4.16b, { v4.16b }, v20.16b
	eor	v2.16b, v18.16b, v2.16b
	tbl	v1.16b, { v1.16b }, v20.16b
	stp	q3, q5, [x26, #-32]
	tbl	v2.16b, { v2.16b }, v20.16b
	tbl	v3.16b, { v6.16b }, v20.16b
	stp	q0, q4, [x26]
	tbl	v0.16b, { v7.16b }, v20.16b
	stp	q1, q2, [x26, #-64]
	stp	q3, q0, [x26, #32]
	add	x26, x26, #128
	b.lo	Laes_BB4_1
// %bb.2:                               // %"aes_soft::soft::blocks::slices::process_batches_under::<#b3f041e12f379511>.exit"
	cmp	x24, x20
	b.ne	Laes_BB4_4
// %bb.3:                               // %join.5
	ldp	x20, x19, [sp, #208]            // 16-byte Folded Reload
	ldp	x22, x21, [sp, #192]            // 16-byte Folded Reload
	ldp	x24, x23, [sp, #176]            // 16-byte Folded Reload
	ldp	x26, x25, [sp, #160]            // 16-byte Folded Reload
	ldp	x29, x30, [sp, #144]            // 16-byte Folded Reload
	add	sp, sp, #224
	ret
Laes_BB4_4:                                // %then.3
	add	x2, x22, x24, lsl #4
	and	x3, x20, #0x7
	mov	x0, x21
	mov	x1, x19
	ldp	x20, x19, [sp, #208]            // 16-byte Folded Reload
	ldp	x22, x21, [sp, #192]            // 16-byte Folded Reload
	ldp	x24, x23, [sp, #176]            // 16-byte Folded Reload
	ldp	x26, x25, [sp, #160]            // 16-byte Folded Reload
	ldp	x29, x30, [sp, #144]            // 16-byte Folded Reload
	add	sp, sp, #224
	b	_aes.aes_soft.soft.blocks.filled_up.process_filled_up.1
                                        // -- End function
	.section	__TEXT,__const
	.p2align	4, 0x0                          // -- Begin function aes_soft::soft::ciphers::planes::process_outlined::<#1a44e25bef607b64>
l_aes_CPI5_0:
	.byte	0                               // 0x0
	.byte	4                               // 0x4
	.byte	8                               // 0x8
	.byte	12                              // 0xc
	.byte	1                               // 0x1
	.byte	5                               // 0x5
	.byte	9                               // 0x9
	.byte	13                              // 0xd
	.byte	2                               // 0x2
	.byte	6                               // 0x6
	.byte	10                              // 0xa
	.byte	14                              // 0xe
	.byte	3                               // 0x3
	.byte	7                               // 0x7
	.byte	11                              // 0xb
	.byte	15                              // 0xf
	.section	__TEXT,__text,regular,pure_instructions
	.p2align	2
_aes.aes_soft.soft.ciphers.planes.process_outlined.1: // @_aes.aes_soft.soft.ciphers.planes.process_outlined.1
// %bb.0:                               // %start
	sub	sp, sp, #176
	adrp	x9, l_aes_CPI5_0@PAGE
	ldp	q0, q2, [x3]
	ldp	q1, q3, [x3, #64]
	movi	v21.16b, #85
	ldr	q18, [x9, l_aes_CPI5_0@PAGEOFF]
	ldp	q5, q6, [x3, #32]
	mov	x8, x2
	str	x19, [sp, #160]                 // 8-byte Spill
	mov	x19, x0
	tbl	v4.16b, { v0.16b }, v18.16b
	tbl	v1.16b, { v1.16b }, v18.16b
	tbl	v17.16b, { v3.16b }, v18.16b
	ldp	q0, q7, [x3, #96]
	tbl	v5.16b, { v5.16b }, v18.16b
	tbl	v6.16b, { v6.16b }, v18.16b
	str	q18, [sp]                       // 16-byte Spill
	add	x2, sp, #16
	mov	x0, x1
	mov	x1, x8
	stp	x29, x30, [sp, #144]            // 16-byte Folded Spill
	tbl	v16.16b, { v0.16b }, v18.16b
	tbl	v0.16b, { v2.16b }, v18.16b
	ushr	v2.16b, v4.16b, #1
	ushr	v3.16b, v1.16b, #1
	tbl	v7.16b, { v7.16b }, v18.16b
	ushr	v18.16b, v5.16b, #1
	add	x29, sp, #144
	ushr	v19.16b, v16.16b, #1
	eor	v2.16b, v0.16b, v2.16b
	eor	v3.16b, v17.16b, v3.16b
	eor	v18.16b, v6.16b, v18.16b
	eor	v19.16b, v7.16b, v19.16b
	and	v2.16b, v2.16b, v21.16b
	and	v20.16b, v3.16b, v21.16b
	and	v18.16b, v18.16b, v21.16b
	and	v19.16b, v19.16b, v21.16b
	add	v3.16b, v2.16b, v2.16b
	add	v21.16b, v20.16b, v20.16b
	add	v22.16b, v18.16b, v18.16b
	eor	v0.16b, v2.16b, v0.16b
	add	v23.16b, v19.16b, v19.16b
	eor	v3.16b, v3.16b, v4.16b
	eor	v2.16b, v21.16b, v1.16b
	eor	v1.16b, v20.16b, v17.16b
	eor	v4.16b, v18.16b, v6.16b
	eor	v5.16b, v22.16b, v5.16b
	eor	v7.16b, v19.16b, v7.16b
	movi	v20.16b, #51
	eor	v6.16b, v23.16b, v16.16b
	ushr	v16.16b, v0.16b, #2
	ushr	v17.16b, v3.16b, #2
	ushr	v18.16b, v2.16b, #2
	ushr	v19.16b, v1.16b, #2
	movi	v23.16b, #15
	eor	v16.16b, v4.16b, v16.16b
	eor	v17.16b, v5.16b, v17.16b
	eor	v18.16b, v6.16b, v18.16b
	eor	v19.16b, v7.16b, v19.16b
	and	v16.16b, v16.16b, v20.16b
	and	v17.16b, v17.16b, v20.16b
	and	v18.16b, v18.16b, v20.16b
	and	v19.16b, v19.16b, v20.16b
	eor	v4.16b, v16.16b, v4.16b
	eor	v5.16b, v17.16b, v5.16b
	shl	v17.16b, v17.16b, #2
	eor	v6.16b, v18.16b, v6.16b
	eor	v7.16b, v19.16b, v7.16b
	shl	v18.16b, v18.16b, #2
	shl	v16.16b, v16.16b, #2
	shl	v19.16b, v19.16b, #2
	ushr	v20.16b, v4.16b, #4
	ushr	v21.16b, v5.16b, #4
	eor	v3.16b, v17.16b, v3.16b
	and	v22.16b, v6.16b, v23.16b
	and	v17.16b, v7.16b, v23.16b
	eor	v2.16b, v18.16b, v2.16b
	eor	v0.16b, v16.16b, v0.16b
	eor	v1.16b, v19.16b, v1.16b
	ushr	v18.16b, v3.16b, #4
	eor	v16.16b, v22.16b, v21.16b
	eor	v17.16b, v17.16b, v20.16b
	and	v19.16b, v2.16b, v23.16b
	ushr	v20.16b, v0.16b, #4
	and	v21.16b, v1.16b, v23.16b
	eor	v18.16b, v19.16b, v18.16b
	shl	v19.16b, v17.16b, #4
	shl	v22.16b, v16.16b, #4
	eor	v20.16b, v21.16b, v20.16b
	eor	v4.16b, v19.16b, v4.16b
	shl	v19.16b, v18.16b, #4
	eor	v2.16b, v18.16b, v2.16b
	shl	v18.16b, v20.16b, #4
	eor	v1.16b, v20.16b, v1.16b
	eor	v5.16b, v22.16b, v5.16b
	eor	v3.16b, v19.16b, v3.16b
	eor	v0.16b, v18.16b, v0.16b
	stp	q5, q4, [sp, #48]
	stp	q2, q1, [sp, #80]
	eor	v2.16b, v16.16b, v6.16b
	eor	v1.16b, v17.16b, v7.16b
	stp	q3, q0, [sp, #16]
	stp	q2, q1, [sp, #112]
	bl	_aes.aes_soft.soft.ciphers.planes.EncryptPlaneCipher.process_planes
	ldp	q0, q4, [sp, #80]
	movi	v20.16b, #85
	ldp	q1, q2, [sp, #16]
	ldp	q3, q16, [sp, #48]
	ushr	v6.16b, v0.16b, #1
	ldp	q7, q17, [sp, #112]
	ushr	v5.16b, v1.16b, #1
	ldp	x29, x30, [sp, #144]            // 16-byte Folded Reload
	ushr	v18.16b, v3.16b, #1
	ushr	v19.16b, v7.16b, #1
	eor	v6.16b, v4.16b, v6.16b
	eor	v5.16b, v2.16b, v5.16b
	eor	v18.16b, v16.16b, v18.16b
	eor	v19.16b, v17.16b, v19.16b
	and	v6.16b, v6.16b, v20.16b
	and	v5.16b, v5.16b, v20.16b
	and	v18.16b, v18.16b, v20.16b
	and	v19.16b, v19.16b, v20.16b
	add	v21.16b, v6.16b, v6.16b
	eor	v4.16b, v6.16b, v4.16b
	add	v20.16b, v5.16b, v5.16b
	eor	v2.16b, v5.16b, v2.16b
	add	v22.16b, v18.16b, v18.16b
	eor	v5.16b, v18.16b, v16.16b
	eor	v0.16b, v21.16b, v0.16b
	eor	v17.16b, v19.16b, v17.16b
	eor	v1.16b, v20.16b, v1.16b
	add	v20.16b, v19.16b, v19.16b
	ushr	v18.16b, v2.16b, #2
	ushr	v19.16b, v4.16b, #2
	eor	v3.16b, v22.16b, v3.16b
	movi	v22.16b, #15
	ushr	v16.16b, v0.16b, #2
	eor	v6.16b, v20.16b, v7.16b
	movi	v20.16b, #51
	eor	v18.16b, v5.16b, v18.16b
	eor	v19.16b, v17.16b, v19.16b
	ushr	v7.16b, v1.16b, #2
	eor	v16.16b, v6.16b, v16.16b
	and	v18.16b, v18.16b, v20.16b
	and	v19.16b, v19.16b, v20.16b
	eor	v7.16b, v3.16b, v7.16b
	and	v16.16b, v16.16b, v20.16b
	eor	v5.16b, v18.16b, v5.16b
	eor	v17.16b, v19.16b, v17.16b
	and	v7.16b, v7.16b, v20.16b
	shl	v18.16b, v18.16b, #2
	shl	v19.16b, v19.16b, #2
	eor	v6.16b, v16.16b, v6.16b
	shl	v16.16b, v16.16b, #2
	ushr	v21.16b, v5.16b, #4
	eor	v3.16b, v7.16b, v3.16b
	shl	v7.16b, v7.16b, #2
	eor	v2.16b, v18.16b, v2.16b
	eor	v4.16b, v19.16b, v4.16b
	eor	v0.16b, v16.16b, v0.16b
	and	v16.16b, v17.16b, v22.16b
	and	v20.16b, v6.16b, v22.16b
	eor	v1.16b, v7.16b, v1.16b
	ushr	v7.16b, v3.16b, #4
	eor	v16.16b, v16.16b, v21.16b
	movi	v21.16b, #15
	and	v19.16b, v0.16b, v22.16b
	eor	v7.16b, v20.16b, v7.16b
	ushr	v18.16b, v1.16b, #4
	ushr	v20.16b, v2.16b, #4
	and	v21.16b, v4.16b, v21.16b
	shl	v22.16b, v7.16b, #4
	eor	v18.16b, v19.16b, v18.16b
	shl	v19.16b, v16.16b, #4
	eor	v6.16b, v7.16b, v6.16b
	eor	v7.16b, v16.16b, v17.16b
	eor	v20.16b, v21.16b, v20.16b
	eor	v3.16b, v22.16b, v3.16b
	eor	v0.16b, v18.16b, v0.16b
	eor	v5.16b, v19.16b, v5.16b
	shl	v19.16b, v18.16b, #4
	eor	v4.16b, v20.16b, v4.16b
	shl	v18.16b, v20.16b, #4
	ldr	q20, [sp]                       // 16-byte Reload
	eor	v1.16b, v19.16b, v1.16b
	tbl	v3.16b, { v3.16b }, v20.16b
	tbl	v5.16b, { v5.16b }, v20.16b
	tbl	v0.16b, { v0.16b }, v20.16b
	tbl	v4.16b, { v4.16b }, v20.16b
	eor	v2.16b, v18.16b, v2.16b
	tbl	v1.16b, { v1.16b }, v20.16b
	stp	q3, q5, [x19, #32]
	tbl	v2.16b, { v2.16b }, v20.16b
	tbl	v3.16b, { v6.16b }, v20.16b
	stp	q0, q4, [x19, #64]
	tbl	v0.16b, { v7.16b }, v20.16b
	stp	q1, q2, [x19]
	stp	q3, q0, [x19, #96]
	ldr	x19, [sp, #160]                 // 8-byte Reload
	add	sp, sp, #176
	ret
                                        // -- End function
	.section	__TEXT,__const
	.p2align	4, 0x0                          // -- Begin function aes_soft::soft::ciphers::planes::EncryptPlaneCipher::process_planes::<#f2467153fb0a218d>
l_aes_CPI6_0:
	.byte	5                               // 0x5
	.byte	6                               // 0x6
	.byte	7                               // 0x7
	.byte	4                               // 0x4
	.byte	9                               // 0x9
	.byte	10                              // 0xa
	.byte	11                              // 0xb
	.byte	8                               // 0x8
	.byte	13                              // 0xd
	.byte	14                              // 0xe
	.byte	15                              // 0xf
	.byte	12                              // 0xc
	.byte	1                               // 0x1
	.byte	2                               // 0x2
	.byte	3                               // 0x3
	.byte	0                               // 0x0
l_aes_CPI6_1:
	.byte	10                              // 0xa
	.byte	11                              // 0xb
	.byte	8                               // 0x8
	.byte	9                               // 0x9
	.byte	14                              // 0xe
	.byte	15                              // 0xf
	.byte	12                              // 0xc
	.byte	13                              // 0xd
	.byte	2                               // 0x2
	.byte	3                               // 0x3
	.byte	0                               // 0x0
	.byte	1                               // 0x1
	.byte	6                               // 0x6
	.byte	7                               // 0x7
	.byte	4                               // 0x4
	.byte	5                               // 0x5
l_aes_CPI6_2:
	.byte	6                               // 0x6
	.byte	7                               // 0x7
	.byte	4                               // 0x4
	.byte	5                               // 0x5
	.byte	10                              // 0xa
	.byte	11                              // 0xb
	.byte	8                               // 0x8
	.byte	9                               // 0x9
	.byte	14                              // 0xe
	.byte	15                              // 0xf
	.byte	12                              // 0xc
	.byte	13                              // 0xd
	.byte	2                               // 0x2
	.byte	3                               // 0x3
	.byte	0                               // 0x0
	.byte	1                               // 0x1
l_aes_CPI6_3:
	.byte	7                               // 0x7
	.byte	4                               // 0x4
	.byte	5                               // 0x5
	.byte	6                               // 0x6
	.byte	11                              // 0xb
	.byte	8                               // 0x8
	.byte	9                               // 0x9
	.byte	10                              // 0xa
	.byte	15                              // 0xf
	.byte	12                              // 0xc
	.byte	13                              // 0xd
	.byte	14                              // 0xe
	.byte	3                               // 0x3
	.byte	0                               // 0x0
	.byte	1                               // 0x1
	.byte	2                               // 0x2
l_aes_CPI6_4:
	.byte	2                               // 0x2
	.byte	3                               // 0x3
	.byte	4                               // 0x4
	.byte	5                               // 0x5
	.byte	6                               // 0x6
	.byte	7                               // 0x7
	.byte	8                               // 0x8
	.byte	9                               // 0x9
	.byte	10                              // 0xa
	.byte	11                              // 0xb
	.byte	12                              // 0xc
	.byte	13                              // 0xd
	.byte	14                              // 0xe
	.byte	15                              // 0xf
	.byte	255                             // 0xff
	.byte	255                             // 0xff
l_aes_CPI6_5:
	.byte	255                             // 0xff
	.byte	255                             // 0xff
	.byte	0                               // 0x0
	.byte	1                               // 0x1
	.byte	2                               // 0x2
	.byte	3                               // 0x3
	.byte	4                               // 0x4
	.byte	5                               // 0x5
	.byte	6                               // 0x6
	.byte	7                               // 0x7
	.byte	8                               // 0x8
	.byte	9                               // 0x9
	.byte	10                              // 0xa
	.byte	11                              // 0xb
	.byte	12                              // 0xc
	.byte	13                              // 0xd
	.section	__TEXT,__text,regular,pure_instructions
	.p2align	2
_aes.aes_soft.soft.ciphers.planes.EncryptPlaneCipher.process_planes: // @_aes.aes_soft.soft.ciphers.planes.EncryptPlaneCipher.process_planes
// %bb.0:                               // %start
	str	d12, [sp, #-48]!                // 8-byte Folded Spill
	ldp	q0, q1, [x2]
	sub	x9, x1, #2
	ldp	q3, q4, [x0]
	lsr	x13, x9, #2
	ldp	q2, q5, [x2, #32]
	adrp	x12, l_aes_CPI6_0@PAGE
	ldp	q6, q7, [x2, #64]
	adrp	x11, l_aes_CPI6_1@PAGE
	ldp	q16, q20, [x2, #96]
	eor	v4.16b, v4.16b, v1.16b
	ldp	q17, q18, [x0, #32]
	eor	v0.16b, v3.16b, v0.16b
	ldp	q19, q21, [x0, #64]
	adrp	x10, l_aes_CPI6_2@PAGE
	ldp	q1, q22, [x0, #96]
	adrp	x8, l_aes_CPI6_3@PAGE
	eor	v3.16b, v17.16b, v2.16b
	eor	v17.16b, v18.16b, v5.16b
	stp	d11, d10, [sp, #16]             // 16-byte Folded Spill
	eor	v5.16b, v19.16b, v6.16b
	eor	v19.16b, v21.16b, v7.16b
	stp	d9, d8, [sp, #32]               // 16-byte Folded Spill
	eor	v18.16b, v1.16b, v16.16b
	eor	v1.16b, v22.16b, v20.16b
	cbz	x13, Laes_BB6_3
// %bb.1:                               // %join.7.preheader
	add	x14, x0, #320
Laes_BB6_2:                                // %join.7
                                        // =>This Inner Loop Header: Depth=1
	eor	v6.16b, v4.16b, v1.16b
	eor	v16.16b, v3.16b, v5.16b
	subs	x13, x13, #1
	eor	v20.16b, v19.16b, v18.16b
	eor	v2.16b, v6.16b, v16.16b
	eor	v19.16b, v0.16b, v20.16b
	eor	v7.16b, v2.16b, v17.16b
	eor	v17.16b, v5.16b, v1.16b
	eor	v27.16b, v7.16b, v18.16b
	eor	v24.16b, v7.16b, v3.16b
	eor	v18.16b, v19.16b, v4.16b
	eor	v4.16b, v3.16b, v1.16b
	eor	v3.16b, v19.16b, v5.16b
	eor	v5.16b, v19.16b, v1.16b
	eor	v7.16b, v27.16b, v17.16b
	eor	v22.16b, v24.16b, v20.16b
	and	v28.16b, v18.16b, v19.16b
	and	v29.16b, v3.16b, v0.16b
	eor	v21.16b, v24.16b, v0.16b
	and	v30.16b, v24.16b, v2.16b
	eor	v25.16b, v7.16b, v20.16b
	eor	v20.16b, v18.16b, v4.16b
	eor	v23.16b, v7.16b, v22.16b
	eor	v26.16b, v7.16b, v0.16b
	eor	v29.16b, v29.16b, v4.16b
	and	v8.16b, v7.16b, v17.16b
	eor	v27.16b, v27.16b, v30.16b
	and	v12.16b, v22.16b, v4.16b
	and	v31.16b, v25.16b, v6.16b
	eor	v28.16b, v25.16b, v28.16b
	and	v9.16b, v21.16b, v20.16b
	and	v10.16b, v23.16b, v16.16b
	and	v11.16b, v26.16b, v5.16b
	eor	v29.16b, v29.16b, v22.16b
	eor	v28.16b, v28.16b, v31.16b
	eor	v27.16b, v27.16b, v9.16b
	eor	v1.16b, v31.16b, v1.16b
	eor	v9.16b, v10.16b, v8.16b
	eor	v10.16b, v25.16b, v11.16b
	eor	v31.16b, v12.16b, v8.16b
	eor	v29.16b, v29.16b, v30.16b
	eor	v28.16b, v28.16b, v6.16b
	eor	v27.16b, v27.16b, v9.16b
	eor	v1.16b, v10.16b, v1.16b
	eor	v30.16b, v28.16b, v9.16b
	eor	v28.16b, v29.16b, v31.16b
	eor	v1.16b, v1.16b, v31.16b
	and	v29.16b, v30.16b, v27.16b
	eor	v31.16b, v1.16b, v30.16b
	eor	v8.16b, v29.16b, v28.16b
	eor	v9.16b, v29.16b, v1.16b
	and	v31.16b, v8.16b, v31.16b
	eor	v8.16b, v27.16b, v28.16b
	eor	v27.16b, v31.16b, v29.16b
	and	v29.16b, v9.16b, v8.16b
	and	v10.16b, v27.16b, v1.16b
	eor	v27.16b, v29.16b, v28.16b
	eor	v28.16b, v31.16b, v1.16b
	eor	v9.16b, v10.16b, v9.16b
	eor	v29.16b, v10.16b, v30.16b
	and	v0.16b, v28.16b, v0.16b
	eor	v31.16b, v27.16b, v28.16b
	and	v26.16b, v27.16b, v26.16b
	and	v3.16b, v28.16b, v3.16b
	and	v5.16b, v27.16b, v5.16b
	and	v1.16b, v9.16b, v27.16b
	eor	v30.16b, v29.16b, v28.16b
	and	v24.16b, v29.16b, v24.16b
	and	v17.16b, v31.16b, v17.16b
	and	v7.16b, v31.16b, v7.16b
	and	v2.16b, v29.16b, v2.16b
	eor	v1.16b, v1.16b, v8.16b
	eor	v0.16b, v24.16b, v0.16b
	and	v21.16b, v30.16b, v21.16b
	and	v20.16b, v30.16b, v20.16b
	eor	v8.16b, v1.16b, v30.16b
	eor	v9.16b, v1.16b, v27.16b
	and	v19.16b, v1.16b, v19.16b
	eor	v26.16b, v0.16b, v26.16b
	and	v18.16b, v1.16b, v18.16b
	eor	v21.16b, v21.16b, v24.16b
	eor	v10.16b, v8.16b, v31.16b
	and	v25.16b, v9.16b, v25.16b
	and	v22.16b, v8.16b, v22.16b
	and	v6.16b, v9.16b, v6.16b
	and	v4.16b, v8.16b, v4.16b
	ldur	q8, [x14, #-80]
	ldp	q29, q31, [x14, #-112]
	and	v16.16b, v10.16b, v16.16b
	eor	v19.16b, v25.16b, v19.16b
	and	v23.16b, v10.16b, v23.16b
	eor	v1.16b, v26.16b, v25.16b
	eor	v0.16b, v22.16b, v0.16b
	eor	v4.16b, v4.16b, v17.16b
	eor	v16.16b, v16.16b, v17.16b
	eor	v22.16b, v19.16b, v23.16b
	eor	v18.16b, v1.16b, v18.16b
	eor	v0.16b, v0.16b, v6.16b
	eor	v20.16b, v16.16b, v20.16b
	eor	v7.16b, v22.16b, v7.16b
	eor	v16.16b, v18.16b, v16.16b
	eor	v17.16b, v0.16b, v22.16b
	eor	v18.16b, v21.16b, v19.16b
	ldr	q19, [x12, l_aes_CPI6_0@PAGEOFF]
	ldp	q22, q28, [x14, #-144]
	eor	v2.16b, v20.16b, v2.16b
	eor	v3.16b, v20.16b, v3.16b
	eor	v4.16b, v4.16b, v7.16b
	eor	v5.16b, v17.16b, v5.16b
	eor	v17.16b, v16.16b, v17.16b
	eor	v6.16b, v16.16b, v6.16b
	ldr	q0, [x11, l_aes_CPI6_1@PAGEOFF]
	eor	v16.16b, v18.16b, v2.16b
	eor	v20.16b, v2.16b, v7.16b
	eor	v23.16b, v3.16b, v5.16b
	tbl	v24.16b, { v17.16b }, v19.16b
	eor	v5.16b, v4.16b, v5.16b
	tbl	v2.16b, { v6.16b }, v19.16b
	ldp	q18, q21, [x14, #-176]
	eor	v7.16b, v16.16b, v7.16b
	eor	v25.16b, v16.16b, v1.16b
	tbl	v26.16b, { v16.16b }, v19.16b
	tbl	v27.16b, { v20.16b }, v19.16b
	tbl	v30.16b, { v23.16b }, v19.16b
	tbl	v9.16b, { v5.16b }, v19.16b
	eor	v17.16b, v24.16b, v17.16b
	eor	v18.16b, v18.16b, v24.16b
	tbl	v4.16b, { v25.16b }, v19.16b
	tbl	v19.16b, { v7.16b }, v19.16b
	eor	v1.16b, v2.16b, v6.16b
	eor	v6.16b, v28.16b, v26.16b
	eor	v16.16b, v26.16b, v16.16b
	eor	v3.16b, v27.16b, v20.16b
	eor	v20.16b, v30.16b, v23.16b
	tbl	v23.16b, { v17.16b }, v0.16b
	eor	v21.16b, v21.16b, v30.16b
	eor	v24.16b, v8.16b, v27.16b
	eor	v5.16b, v9.16b, v5.16b
	eor	v25.16b, v4.16b, v25.16b
	eor	v7.16b, v19.16b, v7.16b
	tbl	v27.16b, { v16.16b }, v0.16b
	eor	v6.16b, v6.16b, v3.16b
	tbl	v26.16b, { v20.16b }, v0.16b
	tbl	v28.16b, { v3.16b }, v0.16b
	eor	v18.16b, v18.16b, v3.16b
	eor	v22.16b, v22.16b, v3.16b
	eor	v23.16b, v23.16b, v1.16b
	eor	v17.16b, v21.16b, v17.16b
	eor	v21.16b, v24.16b, v7.16b
	eor	v29.16b, v29.16b, v9.16b
	eor	v6.16b, v6.16b, v25.16b
	eor	v19.16b, v31.16b, v19.16b
	ldur	q24, [x14, #-192]
	eor	v20.16b, v22.16b, v20.16b
	eor	v22.16b, v23.16b, v18.16b
	tbl	v18.16b, { v25.16b }, v0.16b
	eor	v26.16b, v26.16b, v17.16b
	tbl	v17.16b, { v5.16b }, v0.16b
	tbl	v7.16b, { v7.16b }, v0.16b
	eor	v6.16b, v27.16b, v6.16b
	eor	v27.16b, v28.16b, v21.16b
	eor	v2.16b, v24.16b, v2.16b
	eor	v16.16b, v29.16b, v16.16b
	eor	v19.16b, v19.16b, v5.16b
	eor	v20.16b, v20.16b, v4.16b
	tbl	v21.16b, { v1.16b }, v0.16b
	eor	v4.16b, v27.16b, v22.16b
	eor	v5.16b, v6.16b, v26.16b
	eor	v2.16b, v2.16b, v3.16b
	eor	v3.16b, v17.16b, v16.16b
	eor	v7.16b, v7.16b, v19.16b
	eor	v16.16b, v18.16b, v20.16b
	eor	v1.16b, v4.16b, v5.16b
	eor	v25.16b, v21.16b, v2.16b
	eor	v19.16b, v3.16b, v7.16b
	eor	v3.16b, v27.16b, v26.16b
	eor	v2.16b, v16.16b, v1.16b
	eor	v16.16b, v27.16b, v6.16b
	eor	v18.16b, v19.16b, v25.16b
	eor	v28.16b, v2.16b, v7.16b
	eor	v23.16b, v2.16b, v26.16b
	eor	v17.16b, v18.16b, v22.16b
	eor	v2.16b, v18.16b, v6.16b
	eor	v6.16b, v18.16b, v27.16b
	eor	v7.16b, v28.16b, v16.16b
	eor	v21.16b, v23.16b, v19.16b
	eor	v20.16b, v23.16b, v25.16b
	and	v29.16b, v17.16b, v18.16b
	and	v30.16b, v23.16b, v1.16b
	and	v8.16b, v2.16b, v25.16b
	eor	v24.16b, v7.16b, v19.16b
	eor	v19.16b, v17.16b, v3.16b
	eor	v22.16b, v7.16b, v21.16b
	eor	v26.16b, v7.16b, v25.16b
	eor	v28.16b, v28.16b, v30.16b
	and	v10.16b, v7.16b, v16.16b
	eor	v8.16b, v8.16b, v3.16b
	eor	v30.16b, v21.16b, v30.16b
	and	v31.16b, v24.16b, v4.16b
	eor	v29.16b, v24.16b, v29.16b
	and	v9.16b, v20.16b, v19.16b
	and	v11.16b, v22.16b, v5.16b
	and	v12.16b, v26.16b, v6.16b
	eor	v30.16b, v8.16b, v30.16b
	eor	v29.16b, v29.16b, v31.16b
	eor	v28.16b, v28.16b, v9.16b
	and	v9.16b, v21.16b, v3.16b
	eor	v11.16b, v11.16b, v10.16b
	eor	v12.16b, v24.16b, v12.16b
	eor	v27.16b, v31.16b, v27.16b
	eor	v29.16b, v29.16b, v4.16b
	eor	v31.16b, v9.16b, v10.16b
	eor	v28.16b, v28.16b, v11.16b
	eor	v27.16b, v12.16b, v27.16b
	eor	v29.16b, v29.16b, v11.16b
	eor	v30.16b, v30.16b, v31.16b
	eor	v31.16b, v27.16b, v31.16b
	and	v27.16b, v29.16b, v28.16b
	eor	v8.16b, v31.16b, v29.16b
	eor	v9.16b, v27.16b, v30.16b
	and	v8.16b, v9.16b, v8.16b
	eor	v9.16b, v28.16b, v30.16b
	eor	v28.16b, v27.16b, v31.16b
	eor	v27.16b, v8.16b, v27.16b
	and	v10.16b, v28.16b, v9.16b
	and	v11.16b, v27.16b, v31.16b
	eor	v27.16b, v10.16b, v30.16b
	eor	v30.16b, v11.16b, v28.16b
	eor	v28.16b, v8.16b, v31.16b
	eor	v29.16b, v11.16b, v29.16b
	and	v26.16b, v27.16b, v26.16b
	and	v6.16b, v27.16b, v6.16b
	and	v30.16b, v30.16b, v27.16b
	eor	v31.16b, v29.16b, v28.16b
	and	v25.16b, v28.16b, v25.16b
	and	v23.16b, v29.16b, v23.16b
	eor	v8.16b, v27.16b, v28.16b
	and	v1.16b, v29.16b, v1.16b
	and	v2.16b, v28.16b, v2.16b
	eor	v30.16b, v30.16b, v9.16b
	and	v20.16b, v31.16b, v20.16b
	and	v19.16b, v31.16b, v19.16b
	eor	v25.16b, v23.16b, v25.16b
	and	v16.16b, v8.16b, v16.16b
	and	v7.16b, v8.16b, v7.16b
	eor	v9.16b, v30.16b, v31.16b
	eor	v10.16b, v30.16b, v27.16b
	and	v18.16b, v30.16b, v18.16b
	eor	v26.16b, v25.16b, v26.16b
	and	v17.16b, v30.16b, v17.16b
	eor	v20.16b, v20.16b, v23.16b
	ldp	q23, q28, [x14, #-16]
	eor	v11.16b, v9.16b, v8.16b
	and	v24.16b, v10.16b, v24.16b
	and	v21.16b, v9.16b, v21.16b
	and	v30.16b, v10.16b, v4.16b
	and	v3.16b, v9.16b, v3.16b
	ldr	q8, [x14, #48]
	ldp	q29, q31, [x14, #16]
	and	v5.16b, v11.16b, v5.16b
	eor	v18.16b, v24.16b, v18.16b
	and	v22.16b, v11.16b, v22.16b
	eor	v4.16b, v26.16b, v24.16b
	eor	v21.16b, v21.16b, v25.16b
	eor	v3.16b, v3.16b, v16.16b
	eor	v5.16b, v5.16b, v16.16b
	eor	v22.16b, v18.16b, v22.16b
	eor	v17.16b, v4.16b, v17.16b
	eor	v21.16b, v21.16b, v30.16b
	eor	v19.16b, v5.16b, v19.16b
	eor	v7.16b, v22.16b, v7.16b
	eor	v5.16b, v17.16b, v5.16b
	eor	v16.16b, v21.16b, v22.16b
	eor	v17.16b, v20.16b, v18.16b
	ldr	q18, [x10, l_aes_CPI6_2@PAGEOFF]
	ldp	q20, q22, [x14, #-48]
	eor	v1.16b, v19.16b, v1.16b
	eor	v2.16b, v19.16b, v2.16b
	eor	v3.16b, v3.16b, v7.16b
	eor	v6.16b, v16.16b, v6.16b
	eor	v16.16b, v5.16b, v16.16b
	eor	v19.16b, v5.16b, v30.16b
	eor	v17.16b, v17.16b, v1.16b
	eor	v21.16b, v1.16b, v7.16b
	eor	v24.16b, v2.16b, v6.16b
	tbl	v25.16b, { v16.16b }, v18.16b
	eor	v5.16b, v3.16b, v6.16b
	tbl	v1.16b, { v19.16b }, v18.16b
	eor	v6.16b, v17.16b, v7.16b
	eor	v7.16b, v17.16b, v4.16b
	tbl	v26.16b, { v17.16b }, v18.16b
	tbl	v27.16b, { v21.16b }, v18.16b
	tbl	v30.16b, { v24.16b }, v18.16b
	tbl	v9.16b, { v5.16b }, v18.16b
	eor	v16.16b, v25.16b, v16.16b
	eor	v20.16b, v20.16b, v25.16b
	tbl	v4.16b, { v7.16b }, v18.16b
	tbl	v18.16b, { v6.16b }, v18.16b
	eor	v2.16b, v1.16b, v19.16b
	eor	v19.16b, v28.16b, v26.16b
	eor	v17.16b, v26.16b, v17.16b
	eor	v3.16b, v27.16b, v21.16b
	eor	v21.16b, v30.16b, v24.16b
	ext	v24.16b, v16.16b, v16.16b, #8
	eor	v22.16b, v22.16b, v30.16b
	eor	v25.16b, v8.16b, v27.16b
	eor	v5.16b, v9.16b, v5.16b
	eor	v7.16b, v4.16b, v7.16b
	eor	v6.16b, v18.16b, v6.16b
	ext	v27.16b, v17.16b, v17.16b, #8
	eor	v19.16b, v19.16b, v3.16b
	ext	v26.16b, v21.16b, v21.16b, #8
	ext	v28.16b, v3.16b, v3.16b, #8
	eor	v20.16b, v20.16b, v3.16b
	eor	v23.16b, v23.16b, v3.16b
	eor	v24.16b, v24.16b, v2.16b
	eor	v16.16b, v22.16b, v16.16b
	eor	v22.16b, v25.16b, v6.16b
	eor	v29.16b, v29.16b, v9.16b
	eor	v19.16b, v19.16b, v7.16b
	eor	v18.16b, v31.16b, v18.16b
	ldur	q25, [x14, #-64]
	eor	v21.16b, v23.16b, v21.16b
	eor	v20.16b, v20.16b, v24.16b
	ext	v7.16b, v7.16b, v7.16b, #8
	eor	v24.16b, v16.16b, v26.16b
	ext	v16.16b, v5.16b, v5.16b, #8
	ext	v6.16b, v6.16b, v6.16b, #8
	eor	v19.16b, v19.16b, v27.16b
	eor	v27.16b, v22.16b, v28.16b
	eor	v1.16b, v25.16b, v1.16b
	eor	v17.16b, v29.16b, v17.16b
	eor	v18.16b, v18.16b, v5.16b
	eor	v21.16b, v21.16b, v4.16b
	ext	v2.16b, v2.16b, v2.16b, #8
	eor	v4.16b, v20.16b, v27.16b
	eor	v5.16b, v19.16b, v24.16b
	eor	v3.16b, v1.16b, v3.16b
	eor	v16.16b, v17.16b, v16.16b
	eor	v6.16b, v18.16b, v6.16b
	eor	v7.16b, v21.16b, v7.16b
	eor	v1.16b, v4.16b, v5.16b
	eor	v25.16b, v3.16b, v2.16b
	eor	v3.16b, v27.16b, v24.16b
	eor	v22.16b, v16.16b, v6.16b
	eor	v16.16b, v19.16b, v27.16b
	eor	v2.16b, v7.16b, v1.16b
	eor	v18.16b, v22.16b, v25.16b
	eor	v28.16b, v2.16b, v6.16b
	eor	v23.16b, v2.16b, v24.16b
	eor	v17.16b, v18.16b, v20.16b
	eor	v2.16b, v18.16b, v19.16b
	eor	v6.16b, v18.16b, v27.16b
	eor	v7.16b, v28.16b, v16.16b
	eor	v21.16b, v23.16b, v22.16b
	eor	v20.16b, v23.16b, v25.16b
	and	v29.16b, v17.16b, v18.16b
	eor	v19.16b, v17.16b, v3.16b
	and	v30.16b, v23.16b, v1.16b
	and	v8.16b, v2.16b, v25.16b
	eor	v24.16b, v7.16b, v22.16b
	eor	v22.16b, v7.16b, v21.16b
	eor	v26.16b, v7.16b, v25.16b
	and	v9.16b, v20.16b, v19.16b
	eor	v28.16b, v28.16b, v30.16b
	and	v10.16b, v7.16b, v16.16b
	eor	v8.16b, v8.16b, v3.16b
	eor	v30.16b, v21.16b, v30.16b
	and	v31.16b, v24.16b, v4.16b
	eor	v29.16b, v24.16b, v29.16b
	and	v11.16b, v22.16b, v5.16b
	and	v12.16b, v26.16b, v6.16b
	eor	v28.16b, v28.16b, v9.16b
	eor	v30.16b, v8.16b, v30.16b
	eor	v29.16b, v29.16b, v31.16b
	eor	v27.16b, v31.16b, v27.16b
	and	v31.16b, v21.16b, v3.16b
	eor	v9.16b, v11.16b, v10.16b
	eor	v11.16b, v24.16b, v12.16b
	eor	v29.16b, v29.16b, v4.16b
	eor	v31.16b, v31.16b, v10.16b
	eor	v28.16b, v28.16b, v9.16b
	eor	v27.16b, v11.16b, v27.16b
	eor	v29.16b, v29.16b, v9.16b
	eor	v30.16b, v30.16b, v31.16b
	eor	v31.16b, v27.16b, v31.16b
	and	v27.16b, v29.16b, v28.16b
	eor	v8.16b, v31.16b, v29.16b
	eor	v9.16b, v27.16b, v30.16b
	and	v8.16b, v9.16b, v8.16b
	eor	v9.16b, v28.16b, v30.16b
	eor	v28.16b, v27.16b, v31.16b
	eor	v27.16b, v8.16b, v27.16b
	and	v10.16b, v28.16b, v9.16b
	and	v11.16b, v27.16b, v31.16b
	eor	v27.16b, v10.16b, v30.16b
	eor	v30.16b, v11.16b, v28.16b
	eor	v28.16b, v8.16b, v31.16b
	eor	v29.16b, v11.16b, v29.16b
	and	v26.16b, v27.16b, v26.16b
	and	v6.16b, v27.16b, v6.16b
	and	v30.16b, v30.16b, v27.16b
	eor	v31.16b, v29.16b, v28.16b
	and	v25.16b, v28.16b, v25.16b
	and	v23.16b, v29.16b, v23.16b
	eor	v8.16b, v27.16b, v28.16b
	and	v1.16b, v29.16b, v1.16b
	and	v2.16b, v28.16b, v2.16b
	eor	v30.16b, v30.16b, v9.16b
	and	v20.16b, v31.16b, v20.16b
	and	v19.16b, v31.16b, v19.16b
	eor	v25.16b, v23.16b, v25.16b
	and	v16.16b, v8.16b, v16.16b
	and	v7.16b, v8.16b, v7.16b
	eor	v9.16b, v30.16b, v31.16b
	eor	v10.16b, v30.16b, v27.16b
	and	v18.16b, v30.16b, v18.16b
	eor	v26.16b, v25.16b, v26.16b
	and	v17.16b, v30.16b, v17.16b
	eor	v20.16b, v20.16b, v23.16b
	ldr	q31, [x14, #176]
	eor	v11.16b, v9.16b, v8.16b
	and	v24.16b, v10.16b, v24.16b
	and	v21.16b, v9.16b, v21.16b
	and	v30.16b, v10.16b, v4.16b
	and	v3.16b, v9.16b, v3.16b
	and	v5.16b, v11.16b, v5.16b
	eor	v18.16b, v24.16b, v18.16b
	and	v22.16b, v11.16b, v22.16b
	eor	v4.16b, v26.16b, v24.16b
	eor	v21.16b, v21.16b, v25.16b
	eor	v3.16b, v3.16b, v16.16b
	eor	v5.16b, v5.16b, v16.16b
	eor	v22.16b, v18.16b, v22.16b
	eor	v17.16b, v4.16b, v17.16b
	eor	v21.16b, v21.16b, v30.16b
	eor	v19.16b, v5.16b, v19.16b
	eor	v7.16b, v22.16b, v7.16b
	eor	v5.16b, v17.16b, v5.16b
	eor	v16.16b, v21.16b, v22.16b
	eor	v17.16b, v20.16b, v18.16b
	ldr	q18, [x8, l_aes_CPI6_3@PAGEOFF]
	ldp	q22, q27, [x14, #112]
	eor	v1.16b, v19.16b, v1.16b
	eor	v2.16b, v19.16b, v2.16b
	eor	v3.16b, v3.16b, v7.16b
	eor	v6.16b, v16.16b, v6.16b
	eor	v16.16b, v5.16b, v16.16b
	eor	v5.16b, v5.16b, v30.16b
	ldp	q19, q21, [x14, #80]
	eor	v17.16b, v17.16b, v1.16b
	eor	v20.16b, v1.16b, v7.16b
	eor	v23.16b, v2.16b, v6.16b
	tbl	v24.16b, { v16.16b }, v18.16b
	eor	v6.16b, v3.16b, v6.16b
	tbl	v1.16b, { v5.16b }, v18.16b
	ldp	q28, q30, [x14, #144]
	eor	v7.16b, v17.16b, v7.16b
	eor	v4.16b, v17.16b, v4.16b
	tbl	v25.16b, { v17.16b }, v18.16b
	tbl	v26.16b, { v20.16b }, v18.16b
	tbl	v29.16b, { v23.16b }, v18.16b
	tbl	v8.16b, { v6.16b }, v18.16b
	eor	v16.16b, v24.16b, v16.16b
	eor	v19.16b, v19.16b, v24.16b
	tbl	v3.16b, { v4.16b }, v18.16b
	tbl	v18.16b, { v7.16b }, v18.16b
	eor	v2.16b, v1.16b, v5.16b
	eor	v17.16b, v25.16b, v17.16b
	eor	v5.16b, v26.16b, v20.16b
	eor	v20.16b, v27.16b, v25.16b
	eor	v23.16b, v29.16b, v23.16b
	tbl	v25.16b, { v16.16b }, v0.16b
	eor	v21.16b, v21.16b, v29.16b
	eor	v24.16b, v31.16b, v26.16b
	eor	v4.16b, v3.16b, v4.16b
	eor	v7.16b, v18.16b, v7.16b
	tbl	v27.16b, { v17.16b }, v0.16b
	eor	v20.16b, v20.16b, v5.16b
	tbl	v26.16b, { v23.16b }, v0.16b
	tbl	v29.16b, { v5.16b }, v0.16b
	eor	v19.16b, v19.16b, v5.16b
	eor	v22.16b, v22.16b, v5.16b
	eor	v16.16b, v21.16b, v16.16b
	eor	v25.16b, v25.16b, v2.16b
	eor	v21.16b, v24.16b, v7.16b
	eor	v6.16b, v8.16b, v6.16b
	eor	v20.16b, v20.16b, v4.16b
	eor	v28.16b, v28.16b, v8.16b
	eor	v18.16b, v30.16b, v18.16b
	eor	v22.16b, v22.16b, v23.16b
	eor	v23.16b, v16.16b, v26.16b
	ldr	q24, [x14, #64]
	eor	v19.16b, v19.16b, v25.16b
	eor	v26.16b, v21.16b, v29.16b
	tbl	v16.16b, { v6.16b }, v0.16b
	eor	v25.16b, v20.16b, v27.16b
	tbl	v20.16b, { v4.16b }, v0.16b
	tbl	v7.16b, { v7.16b }, v0.16b
	eor	v1.16b, v24.16b, v1.16b
	eor	v17.16b, v28.16b, v17.16b
	eor	v6.16b, v18.16b, v6.16b
	eor	v18.16b, v22.16b, v3.16b
	eor	v3.16b, v19.16b, v26.16b
	tbl	v2.16b, { v2.16b }, v0.16b
	eor	v4.16b, v25.16b, v23.16b
	eor	v1.16b, v1.16b, v5.16b
	eor	v5.16b, v17.16b, v16.16b
	eor	v6.16b, v6.16b, v7.16b
	eor	v7.16b, v18.16b, v20.16b
	eor	v0.16b, v3.16b, v4.16b
	eor	v24.16b, v1.16b, v2.16b
	eor	v17.16b, v5.16b, v6.16b
	eor	v5.16b, v25.16b, v26.16b
	eor	v2.16b, v26.16b, v23.16b
	eor	v1.16b, v7.16b, v0.16b
	eor	v16.16b, v17.16b, v24.16b
	eor	v27.16b, v1.16b, v6.16b
	eor	v21.16b, v1.16b, v23.16b
	eor	v6.16b, v16.16b, v19.16b
	eor	v7.16b, v16.16b, v25.16b
	eor	v1.16b, v27.16b, v5.16b
	eor	v20.16b, v21.16b, v17.16b
	eor	v18.16b, v21.16b, v24.16b
	and	v28.16b, v6.16b, v16.16b
	eor	v19.16b, v6.16b, v2.16b
	and	v29.16b, v21.16b, v0.16b
	and	v31.16b, v7.16b, v24.16b
	eor	v23.16b, v1.16b, v17.16b
	eor	v17.16b, v16.16b, v26.16b
	eor	v22.16b, v1.16b, v20.16b
	eor	v25.16b, v1.16b, v24.16b
	and	v8.16b, v18.16b, v19.16b
	eor	v27.16b, v27.16b, v29.16b
	and	v9.16b, v1.16b, v5.16b
	eor	v31.16b, v31.16b, v2.16b
	eor	v29.16b, v20.16b, v29.16b
	and	v30.16b, v23.16b, v3.16b
	eor	v28.16b, v23.16b, v28.16b
	and	v10.16b, v22.16b, v4.16b
	and	v11.16b, v25.16b, v17.16b
	eor	v27.16b, v27.16b, v8.16b
	eor	v29.16b, v31.16b, v29.16b
	eor	v28.16b, v28.16b, v30.16b
	eor	v26.16b, v30.16b, v26.16b
	and	v30.16b, v20.16b, v2.16b
	eor	v8.16b, v10.16b, v9.16b
	eor	v10.16b, v23.16b, v11.16b
	eor	v28.16b, v28.16b, v3.16b
	eor	v30.16b, v30.16b, v9.16b
	eor	v27.16b, v27.16b, v8.16b
	eor	v26.16b, v10.16b, v26.16b
	eor	v28.16b, v28.16b, v8.16b
	eor	v29.16b, v29.16b, v30.16b
	eor	v26.16b, v26.16b, v30.16b
	and	v30.16b, v28.16b, v27.16b
	eor	v27.16b, v27.16b, v29.16b
	eor	v31.16b, v26.16b, v28.16b
	eor	v8.16b, v30.16b, v29.16b
	and	v31.16b, v8.16b, v31.16b
	eor	v8.16b, v30.16b, v26.16b
	eor	v30.16b, v31.16b, v30.16b
	and	v9.16b, v8.16b, v27.16b
	eor	v31.16b, v31.16b, v26.16b
	and	v30.16b, v30.16b, v26.16b
	eor	v29.16b, v9.16b, v29.16b
	and	v24.16b, v31.16b, v24.16b
	and	v7.16b, v31.16b, v7.16b
	eor	v8.16b, v30.16b, v8.16b
	eor	v26.16b, v30.16b, v28.16b
	and	v25.16b, v29.16b, v25.16b
	and	v17.16b, v29.16b, v17.16b
	and	v28.16b, v8.16b, v29.16b
	eor	v30.16b, v26.16b, v31.16b
	and	v21.16b, v26.16b, v21.16b
	and	v0.16b, v26.16b, v0.16b
	eor	v27.16b, v28.16b, v27.16b
	eor	v28.16b, v29.16b, v31.16b
	eor	v24.16b, v21.16b, v24.16b
	and	v19.16b, v30.16b, v19.16b
	and	v18.16b, v30.16b, v18.16b
	eor	v8.16b, v27.16b, v30.16b
	eor	v9.16b, v27.16b, v29.16b
	eor	v25.16b, v24.16b, v25.16b
	and	v16.16b, v27.16b, v16.16b
	and	v5.16b, v28.16b, v5.16b
	and	v6.16b, v27.16b, v6.16b
	and	v1.16b, v28.16b, v1.16b
	eor	v18.16b, v18.16b, v21.16b
	eor	v10.16b, v8.16b, v28.16b
	and	v23.16b, v9.16b, v23.16b
	and	v20.16b, v8.16b, v20.16b
	and	v9.16b, v9.16b, v3.16b
	and	v2.16b, v8.16b, v2.16b
	and	v4.16b, v10.16b, v4.16b
	eor	v3.16b, v25.16b, v23.16b
	and	v22.16b, v10.16b, v22.16b
	eor	v20.16b, v20.16b, v24.16b
	eor	v16.16b, v23.16b, v16.16b
	eor	v2.16b, v2.16b, v5.16b
	ldp	q23, q24, [x14, #256]
	eor	v4.16b, v4.16b, v5.16b
	eor	v6.16b, v3.16b, v6.16b
	eor	v22.16b, v16.16b, v22.16b
	eor	v20.16b, v20.16b, v9.16b
	eor	v19.16b, v4.16b, v19.16b
	eor	v4.16b, v6.16b, v4.16b
	eor	v20.16b, v20.16b, v22.16b
	eor	v1.16b, v22.16b, v1.16b
	eor	v6.16b, v19.16b, v7.16b
	eor	v7.16b, v18.16b, v16.16b
	eor	v0.16b, v19.16b, v0.16b
	eor	v16.16b, v4.16b, v9.16b
	eor	v5.16b, v20.16b, v17.16b
	eor	v2.16b, v2.16b, v1.16b
	eor	v4.16b, v4.16b, v20.16b
	ldp	q17, q18, [x14, #192]
	eor	v7.16b, v7.16b, v0.16b
	eor	v0.16b, v0.16b, v1.16b
	ext	v19.16b, v16.16b, v16.16b, #4
	eor	v6.16b, v6.16b, v5.16b
	eor	v2.16b, v2.16b, v5.16b
	ext	v22.16b, v4.16b, v4.16b, #4
	ldp	q20, q21, [x14, #224]
	ext	v25.16b, v0.16b, v0.16b, #4
	ext	v26.16b, v7.16b, v7.16b, #4
	eor	v1.16b, v7.16b, v1.16b
	ext	v5.16b, v6.16b, v6.16b, #4
	eor	v3.16b, v7.16b, v3.16b
	eor	v16.16b, v19.16b, v16.16b
	eor	v17.16b, v17.16b, v19.16b
	ext	v19.16b, v2.16b, v2.16b, #4
	eor	v4.16b, v22.16b, v4.16b
	eor	v18.16b, v18.16b, v22.16b
	eor	v0.16b, v25.16b, v0.16b
	eor	v7.16b, v26.16b, v7.16b
	eor	v23.16b, v23.16b, v26.16b
	eor	v6.16b, v5.16b, v6.16b
	eor	v5.16b, v20.16b, v5.16b
	ext	v20.16b, v3.16b, v3.16b, #4
	ext	v26.16b, v1.16b, v1.16b, #4
	eor	v2.16b, v19.16b, v2.16b
	eor	v19.16b, v24.16b, v19.16b
	ldp	q24, q22, [x14, #288]
	eor	v21.16b, v21.16b, v0.16b
	eor	v23.16b, v23.16b, v0.16b
	eor	v5.16b, v5.16b, v4.16b
	ext	v28.16b, v0.16b, v0.16b, #8
	eor	v3.16b, v20.16b, v3.16b
	eor	v17.16b, v17.16b, v0.16b
	eor	v18.16b, v18.16b, v0.16b
	eor	v22.16b, v22.16b, v25.16b
	ext	v25.16b, v4.16b, v4.16b, #8
	eor	v1.16b, v26.16b, v1.16b
	eor	v24.16b, v24.16b, v26.16b
	ext	v26.16b, v6.16b, v6.16b, #8
	eor	v6.16b, v21.16b, v6.16b
	ext	v4.16b, v16.16b, v16.16b, #8
	ext	v21.16b, v7.16b, v7.16b, #8
	ext	v27.16b, v3.16b, v3.16b, #8
	eor	v23.16b, v23.16b, v3.16b
	eor	v7.16b, v19.16b, v7.16b
	add	x14, x14, #512
	eor	v16.16b, v25.16b, v16.16b
	ext	v25.16b, v2.16b, v2.16b, #8
	eor	v6.16b, v6.16b, v20.16b
	ext	v20.16b, v1.16b, v1.16b, #8
	eor	v2.16b, v24.16b, v2.16b
	eor	v1.16b, v22.16b, v1.16b
	eor	v0.16b, v17.16b, v4.16b
	eor	v3.16b, v5.16b, v26.16b
	eor	v5.16b, v23.16b, v21.16b
	eor	v4.16b, v18.16b, v16.16b
	eor	v17.16b, v6.16b, v27.16b
	eor	v19.16b, v7.16b, v25.16b
	eor	v1.16b, v1.16b, v28.16b
	eor	v18.16b, v2.16b, v20.16b
	b.ne	Laes_BB6_2
Laes_BB6_3:                                // %after.3
	eor	v7.16b, v4.16b, v1.16b
	eor	v16.16b, v3.16b, v5.16b
	and	x13, x9, #0xfffffffffffffffc
	eor	v6.16b, v19.16b, v18.16b
	eor	v2.16b, v7.16b, v16.16b
	eor	v19.16b, v0.16b, v6.16b
	eor	v20.16b, v2.16b, v17.16b
	eor	v17.16b, v5.16b, v1.16b
	eor	v5.16b, v19.16b, v5.16b
	eor	v27.16b, v20.16b, v18.16b
	eor	v23.16b, v20.16b, v3.16b
	eor	v18.16b, v19.16b, v4.16b
	eor	v3.16b, v3.16b, v1.16b
	and	v30.16b, v5.16b, v0.16b
	eor	v4.16b, v27.16b, v17.16b
	eor	v22.16b, v23.16b, v6.16b
	and	v28.16b, v18.16b, v19.16b
	eor	v20.16b, v18.16b, v3.16b
	eor	v21.16b, v23.16b, v0.16b
	and	v29.16b, v23.16b, v2.16b
	eor	v30.16b, v30.16b, v3.16b
	eor	v24.16b, v4.16b, v6.16b
	eor	v6.16b, v19.16b, v1.16b
	eor	v25.16b, v4.16b, v22.16b
	eor	v26.16b, v4.16b, v0.16b
	and	v8.16b, v21.16b, v20.16b
	eor	v27.16b, v27.16b, v29.16b
	and	v9.16b, v4.16b, v17.16b
	eor	v30.16b, v30.16b, v22.16b
	and	v31.16b, v24.16b, v7.16b
	eor	v28.16b, v24.16b, v28.16b
	and	v10.16b, v25.16b, v16.16b
	and	v11.16b, v26.16b, v6.16b
	eor	v27.16b, v27.16b, v8.16b
	eor	v29.16b, v30.16b, v29.16b
	eor	v28.16b, v28.16b, v31.16b
	eor	v1.16b, v31.16b, v1.16b
	and	v31.16b, v22.16b, v3.16b
	eor	v8.16b, v10.16b, v9.16b
	eor	v10.16b, v24.16b, v11.16b
	eor	v28.16b, v28.16b, v7.16b
	eor	v31.16b, v31.16b, v9.16b
	eor	v27.16b, v27.16b, v8.16b
	eor	v1.16b, v10.16b, v1.16b
	eor	v28.16b, v28.16b, v8.16b
	eor	v29.16b, v29.16b, v31.16b
	eor	v1.16b, v1.16b, v31.16b
	and	v30.16b, v28.16b, v27.16b
	eor	v31.16b, v1.16b, v28.16b
	eor	v8.16b, v30.16b, v29.16b
	eor	v9.16b, v30.16b, v1.16b
	and	v31.16b, v8.16b, v31.16b
	eor	v8.16b, v27.16b, v29.16b
	eor	v27.16b, v31.16b, v30.16b
	and	v30.16b, v9.16b, v8.16b
	and	v10.16b, v27.16b, v1.16b
	eor	v27.16b, v30.16b, v29.16b
	eor	v30.16b, v31.16b, v1.16b
	eor	v29.16b, v10.16b, v9.16b
	eor	v28.16b, v10.16b, v28.16b
	and	v0.16b, v30.16b, v0.16b
	eor	v31.16b, v27.16b, v30.16b
	and	v26.16b, v27.16b, v26.16b
	and	v5.16b, v30.16b, v5.16b
	and	v6.16b, v27.16b, v6.16b
	and	v1.16b, v29.16b, v27.16b
	eor	v29.16b, v28.16b, v30.16b
	and	v23.16b, v28.16b, v23.16b
	and	v17.16b, v31.16b, v17.16b
	and	v4.16b, v31.16b, v4.16b
	and	v2.16b, v28.16b, v2.16b
	eor	v1.16b, v1.16b, v8.16b
	eor	v0.16b, v23.16b, v0.16b
	and	v21.16b, v29.16b, v21.16b
	and	v20.16b, v29.16b, v20.16b
	eor	v8.16b, v1.16b, v29.16b
	eor	v9.16b, v1.16b, v27.16b
	and	v19.16b, v1.16b, v19.16b
	eor	v26.16b, v0.16b, v26.16b
	and	v18.16b, v1.16b, v18.16b
	eor	v21.16b, v21.16b, v23.16b
	eor	v10.16b, v8.16b, v31.16b
	and	v24.16b, v9.16b, v24.16b
	and	v22.16b, v8.16b, v22.16b
	and	v7.16b, v9.16b, v7.16b
	and	v3.16b, v8.16b, v3.16b
	and	v16.16b, v10.16b, v16.16b
	and	v25.16b, v10.16b, v25.16b
	eor	v19.16b, v24.16b, v19.16b
	eor	v0.16b, v22.16b, v0.16b
	eor	v1.16b, v26.16b, v24.16b
	eor	v3.16b, v3.16b, v17.16b
	eor	v16.16b, v16.16b, v17.16b
	eor	v22.16b, v19.16b, v25.16b
	eor	v17.16b, v21.16b, v19.16b
	eor	v0.16b, v0.16b, v7.16b
	eor	v18.16b, v1.16b, v18.16b
	eor	v20.16b, v16.16b, v20.16b
	eor	v4.16b, v22.16b, v4.16b
	eor	v0.16b, v0.16b, v22.16b
	eor	v16.16b, v18.16b, v16.16b
	eor	v18.16b, v20.16b, v2.16b
	eor	v5.16b, v20.16b, v5.16b
	ldr	q2, [x12, l_aes_CPI6_0@PAGEOFF]
	eor	v6.16b, v0.16b, v6.16b
	eor	v7.16b, v16.16b, v7.16b
	eor	v16.16b, v16.16b, v0.16b
	eor	v3.16b, v3.16b, v4.16b
	ldr	q0, [x11, l_aes_CPI6_1@PAGEOFF]
	add	x11, x0, x13, lsl #7
	eor	v17.16b, v17.16b, v18.16b
	eor	v18.16b, v18.16b, v4.16b
	eor	v5.16b, v5.16b, v6.16b
	tbl	v19.16b, { v7.16b }, v2.16b
	eor	v3.16b, v3.16b, v6.16b
	tbl	v6.16b, { v16.16b }, v2.16b
	tbl	v25.16b, { v18.16b }, v2.16b
	ldp	q20, q21, [x11, #128]
	tbl	v24.16b, { v5.16b }, v2.16b
	ldp	q22, q23, [x11, #160]
	eor	v4.16b, v17.16b, v4.16b
	eor	v1.16b, v17.16b, v1.16b
	tbl	v26.16b, { v17.16b }, v2.16b
	tbl	v27.16b, { v3.16b }, v2.16b
	eor	v7.16b, v19.16b, v7.16b
	eor	v16.16b, v6.16b, v16.16b
	eor	v18.16b, v25.16b, v18.16b
	eor	v19.16b, v20.16b, v19.16b
	eor	v6.16b, v21.16b, v6.16b
	ldp	q20, q21, [x11, #192]
	eor	v5.16b, v24.16b, v5.16b
	eor	v22.16b, v22.16b, v24.16b
	tbl	v24.16b, { v4.16b }, v2.16b
	tbl	v2.16b, { v1.16b }, v2.16b
	eor	v23.16b, v23.16b, v18.16b
	eor	v17.16b, v26.16b, v17.16b
	eor	v3.16b, v27.16b, v3.16b
	eor	v20.16b, v20.16b, v26.16b
	eor	v21.16b, v21.16b, v27.16b
	tbl	v28.16b, { v18.16b }, v0.16b
	ldp	q27, q26, [x11, #224]
	eor	v22.16b, v22.16b, v16.16b
	tbl	v16.16b, { v16.16b }, v0.16b
	eor	v4.16b, v24.16b, v4.16b
	eor	v1.16b, v2.16b, v1.16b
	eor	v23.16b, v23.16b, v5.16b
	eor	v20.16b, v20.16b, v18.16b
	tbl	v5.16b, { v5.16b }, v0.16b
	eor	v25.16b, v26.16b, v25.16b
	eor	v24.16b, v27.16b, v24.16b
	tbl	v26.16b, { v7.16b }, v0.16b
	eor	v21.16b, v21.16b, v17.16b
	tbl	v17.16b, { v17.16b }, v0.16b
	tbl	v27.16b, { v1.16b }, v0.16b
	eor	v7.16b, v16.16b, v7.16b
	tbl	v16.16b, { v3.16b }, v0.16b
	eor	v2.16b, v23.16b, v2.16b
	tbl	v23.16b, { v4.16b }, v0.16b
	eor	v19.16b, v19.16b, v18.16b
	eor	v6.16b, v6.16b, v18.16b
	eor	v20.16b, v20.16b, v1.16b
	eor	v3.16b, v24.16b, v3.16b
	eor	v24.16b, v25.16b, v4.16b
	eor	v5.16b, v5.16b, v22.16b
	orr	x11, x13, #0x2
	eor	v1.16b, v26.16b, v19.16b
	eor	v4.16b, v7.16b, v6.16b
	eor	v18.16b, v16.16b, v21.16b
	eor	v7.16b, v17.16b, v20.16b
	eor	v16.16b, v27.16b, v2.16b
	eor	v19.16b, v23.16b, v3.16b
	eor	v3.16b, v28.16b, v24.16b
	cmp	x11, x1
	b.hs	Laes_BB6_5
// %bb.4:                               // %then.11
	eor	v6.16b, v3.16b, v4.16b
	eor	v17.16b, v7.16b, v5.16b
	add	x9, x0, x9, lsl #7
	eor	v21.16b, v19.16b, v18.16b
	eor	v18.16b, v3.16b, v7.16b
	eor	v2.16b, v6.16b, v17.16b
	eor	v20.16b, v21.16b, v1.16b
	eor	v16.16b, v2.16b, v16.16b
	eor	v28.16b, v16.16b, v19.16b
	eor	v25.16b, v16.16b, v5.16b
	eor	v19.16b, v20.16b, v4.16b
	eor	v5.16b, v3.16b, v5.16b
	eor	v4.16b, v20.16b, v7.16b
	eor	v7.16b, v20.16b, v3.16b
	eor	v16.16b, v28.16b, v18.16b
	eor	v23.16b, v25.16b, v21.16b
	and	v29.16b, v19.16b, v20.16b
	eor	v22.16b, v25.16b, v1.16b
	and	v30.16b, v25.16b, v2.16b
	and	v8.16b, v4.16b, v1.16b
	eor	v26.16b, v16.16b, v21.16b
	eor	v21.16b, v19.16b, v5.16b
	eor	v24.16b, v16.16b, v23.16b
	eor	v27.16b, v16.16b, v1.16b
	eor	v28.16b, v28.16b, v30.16b
	and	v10.16b, v16.16b, v18.16b
	eor	v8.16b, v8.16b, v5.16b
	eor	v30.16b, v23.16b, v30.16b
	and	v31.16b, v26.16b, v6.16b
	eor	v29.16b, v26.16b, v29.16b
	and	v9.16b, v22.16b, v21.16b
	and	v11.16b, v24.16b, v17.16b
	and	v12.16b, v27.16b, v7.16b
	eor	v30.16b, v8.16b, v30.16b
	eor	v29.16b, v29.16b, v31.16b
	eor	v28.16b, v28.16b, v9.16b
	and	v9.16b, v23.16b, v5.16b
	eor	v11.16b, v11.16b, v10.16b
	eor	v12.16b, v26.16b, v12.16b
	eor	v3.16b, v31.16b, v3.16b
	eor	v29.16b, v29.16b, v6.16b
	eor	v31.16b, v9.16b, v10.16b
	eor	v28.16b, v28.16b, v11.16b
	eor	v3.16b, v12.16b, v3.16b
	eor	v29.16b, v29.16b, v11.16b
	eor	v30.16b, v30.16b, v31.16b
	eor	v31.16b, v3.16b, v31.16b
	and	v3.16b, v29.16b, v28.16b
	eor	v8.16b, v31.16b, v29.16b
	eor	v9.16b, v3.16b, v30.16b
	and	v8.16b, v9.16b, v8.16b
	eor	v9.16b, v28.16b, v30.16b
	eor	v28.16b, v3.16b, v31.16b
	eor	v3.16b, v8.16b, v3.16b
	and	v10.16b, v28.16b, v9.16b
	and	v11.16b, v3.16b, v31.16b
	eor	v3.16b, v10.16b, v30.16b
	eor	v30.16b, v11.16b, v28.16b
	eor	v28.16b, v8.16b, v31.16b
	eor	v29.16b, v11.16b, v29.16b
	and	v27.16b, v3.16b, v27.16b
	and	v30.16b, v30.16b, v3.16b
	eor	v31.16b, v29.16b, v28.16b
	and	v1.16b, v28.16b, v1.16b
	and	v25.16b, v29.16b, v25.16b
	eor	v8.16b, v3.16b, v28.16b
	and	v2.16b, v29.16b, v2.16b
	and	v4.16b, v28.16b, v4.16b
	eor	v30.16b, v30.16b, v9.16b
	and	v22.16b, v31.16b, v22.16b
	and	v21.16b, v31.16b, v21.16b
	eor	v11.16b, v25.16b, v1.16b
	and	v18.16b, v8.16b, v18.16b
	and	v16.16b, v8.16b, v16.16b
	eor	v9.16b, v30.16b, v31.16b
	eor	v10.16b, v30.16b, v3.16b
	and	v20.16b, v30.16b, v20.16b
	eor	v27.16b, v11.16b, v27.16b
	and	v19.16b, v30.16b, v19.16b
	eor	v22.16b, v22.16b, v25.16b
	and	v3.16b, v3.16b, v7.16b
	ldp	q29, q31, [x9, #80]
	eor	v1.16b, v9.16b, v8.16b
	and	v26.16b, v10.16b, v26.16b
	and	v23.16b, v9.16b, v23.16b
	and	v6.16b, v10.16b, v6.16b
	and	v5.16b, v9.16b, v5.16b
	ldr	q8, [x9, #112]
	and	v17.16b, v1.16b, v17.16b
	eor	v20.16b, v26.16b, v20.16b
	and	v24.16b, v1.16b, v24.16b
	eor	v1.16b, v27.16b, v26.16b
	eor	v23.16b, v23.16b, v11.16b
	eor	v5.16b, v5.16b, v18.16b
	eor	v17.16b, v17.16b, v18.16b
	eor	v24.16b, v20.16b, v24.16b
	eor	v18.16b, v22.16b, v20.16b
	eor	v19.16b, v1.16b, v19.16b
	eor	v23.16b, v23.16b, v6.16b
	ldp	q22, q28, [x9, #48]
	eor	v21.16b, v17.16b, v21.16b
	eor	v16.16b, v24.16b, v16.16b
	eor	v7.16b, v19.16b, v17.16b
	eor	v17.16b, v23.16b, v24.16b
	ldr	q19, [x10, l_aes_CPI6_2@PAGEOFF]
	eor	v2.16b, v21.16b, v2.16b
	eor	v4.16b, v21.16b, v4.16b
	eor	v5.16b, v5.16b, v16.16b
	eor	v3.16b, v17.16b, v3.16b
	eor	v17.16b, v7.16b, v17.16b
	eor	v6.16b, v7.16b, v6.16b
	eor	v7.16b, v18.16b, v2.16b
	eor	v20.16b, v2.16b, v16.16b
	eor	v23.16b, v4.16b, v3.16b
	tbl	v24.16b, { v17.16b }, v19.16b
	eor	v4.16b, v5.16b, v3.16b
	tbl	v2.16b, { v6.16b }, v19.16b
	ldp	q18, q21, [x9, #16]
	eor	v16.16b, v7.16b, v16.16b
	eor	v25.16b, v7.16b, v1.16b
	tbl	v26.16b, { v7.16b }, v19.16b
	tbl	v27.16b, { v20.16b }, v19.16b
	tbl	v30.16b, { v23.16b }, v19.16b
	tbl	v9.16b, { v4.16b }, v19.16b
	eor	v17.16b, v24.16b, v17.16b
	eor	v18.16b, v18.16b, v24.16b
	tbl	v3.16b, { v25.16b }, v19.16b
	tbl	v19.16b, { v16.16b }, v19.16b
	eor	v1.16b, v2.16b, v6.16b
	eor	v6.16b, v28.16b, v26.16b
	eor	v7.16b, v26.16b, v7.16b
	eor	v5.16b, v27.16b, v20.16b
	eor	v20.16b, v30.16b, v23.16b
	ext	v23.16b, v17.16b, v17.16b, #8
	eor	v21.16b, v21.16b, v30.16b
	eor	v24.16b, v8.16b, v27.16b
	eor	v4.16b, v9.16b, v4.16b
	eor	v25.16b, v3.16b, v25.16b
	eor	v16.16b, v19.16b, v16.16b
	ext	v27.16b, v7.16b, v7.16b, #8
	eor	v6.16b, v6.16b, v5.16b
	ext	v26.16b, v20.16b, v20.16b, #8
	ext	v28.16b, v5.16b, v5.16b, #8
	eor	v18.16b, v18.16b, v5.16b
	eor	v22.16b, v22.16b, v5.16b
	eor	v23.16b, v23.16b, v1.16b
	eor	v17.16b, v21.16b, v17.16b
	eor	v21.16b, v24.16b, v16.16b
	eor	v29.16b, v29.16b, v9.16b
	eor	v6.16b, v6.16b, v25.16b
	eor	v19.16b, v31.16b, v19.16b
	ldr	q24, [x9]
	eor	v20.16b, v22.16b, v20.16b
	eor	v23.16b, v23.16b, v18.16b
	ext	v18.16b, v25.16b, v25.16b, #8
	eor	v26.16b, v26.16b, v17.16b
	ext	v17.16b, v4.16b, v4.16b, #8
	ext	v16.16b, v16.16b, v16.16b, #8
	eor	v6.16b, v27.16b, v6.16b
	eor	v27.16b, v28.16b, v21.16b
	eor	v2.16b, v24.16b, v2.16b
	eor	v7.16b, v29.16b, v7.16b
	eor	v19.16b, v19.16b, v4.16b
	eor	v20.16b, v20.16b, v3.16b
	ext	v21.16b, v1.16b, v1.16b, #8
	eor	v3.16b, v27.16b, v23.16b
	eor	v4.16b, v6.16b, v26.16b
	eor	v2.16b, v2.16b, v5.16b
	eor	v5.16b, v17.16b, v7.16b
	eor	v16.16b, v16.16b, v19.16b
	eor	v7.16b, v18.16b, v20.16b
	eor	v1.16b, v3.16b, v4.16b
	eor	v25.16b, v21.16b, v2.16b
	eor	v19.16b, v5.16b, v16.16b
	eor	v2.16b, v7.16b, v1.16b
	eor	v7.16b, v27.16b, v6.16b
	eor	v18.16b, v19.16b, v25.16b
	eor	v28.16b, v2.16b, v16.16b
	eor	v22.16b, v2.16b, v26.16b
	eor	v2.16b, v27.16b, v26.16b
	eor	v17.16b, v18.16b, v23.16b
	eor	v16.16b, v18.16b, v6.16b
	eor	v6.16b, v18.16b, v27.16b
	eor	v5.16b, v28.16b, v7.16b
	eor	v21.16b, v22.16b, v19.16b
	eor	v20.16b, v22.16b, v25.16b
	and	v29.16b, v17.16b, v18.16b
	and	v30.16b, v22.16b, v1.16b
	and	v8.16b, v16.16b, v25.16b
	eor	v23.16b, v5.16b, v19.16b
	eor	v19.16b, v17.16b, v2.16b
	eor	v24.16b, v5.16b, v21.16b
	eor	v26.16b, v5.16b, v25.16b
	eor	v28.16b, v28.16b, v30.16b
	and	v10.16b, v5.16b, v7.16b
	eor	v8.16b, v8.16b, v2.16b
	eor	v30.16b, v21.16b, v30.16b
	and	v31.16b, v23.16b, v3.16b
	eor	v29.16b, v23.16b, v29.16b
	and	v9.16b, v20.16b, v19.16b
	and	v11.16b, v24.16b, v4.16b
	and	v12.16b, v26.16b, v6.16b
	eor	v30.16b, v8.16b, v30.16b
	eor	v29.16b, v29.16b, v31.16b
	eor	v28.16b, v28.16b, v9.16b
	eor	v27.16b, v31.16b, v27.16b
	and	v31.16b, v21.16b, v2.16b
	eor	v9.16b, v11.16b, v10.16b
	eor	v11.16b, v23.16b, v12.16b
	eor	v29.16b, v29.16b, v3.16b
	eor	v31.16b, v31.16b, v10.16b
	eor	v28.16b, v28.16b, v9.16b
	eor	v27.16b, v11.16b, v27.16b
	eor	v29.16b, v29.16b, v9.16b
	eor	v30.16b, v30.16b, v31.16b
	eor	v31.16b, v27.16b, v31.16b
	and	v27.16b, v29.16b, v28.16b
	eor	v8.16b, v31.16b, v29.16b
	eor	v9.16b, v27.16b, v30.16b
	and	v8.16b, v9.16b, v8.16b
	eor	v9.16b, v28.16b, v30.16b
	eor	v28.16b, v27.16b, v31.16b
	eor	v27.16b, v8.16b, v27.16b
	and	v10.16b, v28.16b, v9.16b
	and	v11.16b, v27.16b, v31.16b
	eor	v27.16b, v10.16b, v30.16b
	eor	v31.16b, v8.16b, v31.16b
	eor	v30.16b, v11.16b, v28.16b
	eor	v28.16b, v11.16b, v29.16b
	and	v25.16b, v31.16b, v25.16b
	eor	v8.16b, v27.16b, v31.16b
	and	v26.16b, v27.16b, v26.16b
	and	v16.16b, v31.16b, v16.16b
	and	v6.16b, v27.16b, v6.16b
	and	v29.16b, v30.16b, v27.16b
	eor	v30.16b, v28.16b, v31.16b
	and	v22.16b, v28.16b, v22.16b
	and	v7.16b, v8.16b, v7.16b
	and	v5.16b, v8.16b, v5.16b
	eor	v29.16b, v29.16b, v9.16b
	eor	v25.16b, v22.16b, v25.16b
	and	v20.16b, v30.16b, v20.16b
	and	v19.16b, v30.16b, v19.16b
	eor	v9.16b, v29.16b, v30.16b
	eor	v10.16b, v29.16b, v27.16b
	and	v18.16b, v29.16b, v18.16b
	eor	v26.16b, v25.16b, v26.16b
	and	v29.16b, v29.16b, v17.16b
	eor	v20.16b, v20.16b, v22.16b
	eor	v11.16b, v9.16b, v8.16b
	and	v23.16b, v10.16b, v23.16b
	and	v21.16b, v9.16b, v21.16b
	and	v17.16b, v10.16b, v3.16b
	and	v2.16b, v9.16b, v2.16b
	and	v4.16b, v11.16b, v4.16b
	and	v24.16b, v11.16b, v24.16b
	eor	v18.16b, v23.16b, v18.16b
	eor	v3.16b, v26.16b, v23.16b
	eor	v21.16b, v21.16b, v25.16b
	and	v25.16b, v28.16b, v1.16b
	eor	v2.16b, v2.16b, v7.16b
	ldr	q1, [x8, l_aes_CPI6_3@PAGEOFF]
	lsl	x8, x1, #7
	eor	v4.16b, v4.16b, v7.16b
	eor	v23.16b, v18.16b, v24.16b
	eor	v7.16b, v20.16b, v18.16b
	eor	v24.16b, v3.16b, v29.16b
	eor	v21.16b, v21.16b, v17.16b
	add	x9, x0, x8
	eor	v19.16b, v4.16b, v19.16b
	eor	v5.16b, v23.16b, v5.16b
	eor	v4.16b, v24.16b, v4.16b
	eor	v21.16b, v21.16b, v23.16b
	ldp	q22, q23, [x9, #-96]
	eor	v18.16b, v19.16b, v25.16b
	eor	v16.16b, v19.16b, v16.16b
	eor	v2.16b, v2.16b, v5.16b
	eor	v6.16b, v21.16b, v6.16b
	eor	v17.16b, v4.16b, v17.16b
	eor	v4.16b, v4.16b, v21.16b
	ldp	q19, q20, [x9, #-128]
	eor	v7.16b, v7.16b, v18.16b
	eor	v18.16b, v18.16b, v5.16b
	eor	v16.16b, v16.16b, v6.16b
	tbl	v21.16b, { v17.16b }, v1.16b
	eor	v2.16b, v2.16b, v6.16b
	tbl	v6.16b, { v4.16b }, v1.16b
	tbl	v24.16b, { v18.16b }, v1.16b
	eor	v5.16b, v7.16b, v5.16b
	eor	v3.16b, v7.16b, v3.16b
	tbl	v25.16b, { v16.16b }, v1.16b
	tbl	v26.16b, { v7.16b }, v1.16b
	tbl	v27.16b, { v2.16b }, v1.16b
	eor	v17.16b, v21.16b, v17.16b
	eor	v19.16b, v19.16b, v21.16b
	ldp	q21, q28, [x9, #-64]
	eor	v4.16b, v6.16b, v4.16b
	eor	v18.16b, v24.16b, v18.16b
	eor	v6.16b, v20.16b, v6.16b
	tbl	v20.16b, { v3.16b }, v1.16b
	tbl	v1.16b, { v5.16b }, v1.16b
	eor	v16.16b, v25.16b, v16.16b
	eor	v22.16b, v22.16b, v25.16b
	ldur	q25, [x9, #-16]
	eor	v21.16b, v21.16b, v26.16b
	eor	v7.16b, v26.16b, v7.16b
	eor	v23.16b, v23.16b, v18.16b
	tbl	v26.16b, { v4.16b }, v0.16b
	eor	v2.16b, v27.16b, v2.16b
	eor	v24.16b, v25.16b, v24.16b
	ldur	q25, [x9, #-32]
	eor	v4.16b, v22.16b, v4.16b
	eor	v3.16b, v20.16b, v3.16b
	eor	v5.16b, v1.16b, v5.16b
	eor	v21.16b, v21.16b, v18.16b
	eor	v22.16b, v23.16b, v16.16b
	eor	v27.16b, v28.16b, v27.16b
	eor	v1.16b, v25.16b, v1.16b
	tbl	v23.16b, { v17.16b }, v0.16b
	tbl	v16.16b, { v16.16b }, v0.16b
	eor	v17.16b, v26.16b, v17.16b
	tbl	v25.16b, { v7.16b }, v0.16b
	eor	v19.16b, v19.16b, v18.16b
	eor	v26.16b, v6.16b, v18.16b
	eor	v21.16b, v21.16b, v3.16b
	tbl	v3.16b, { v3.16b }, v0.16b
	eor	v20.16b, v22.16b, v20.16b
	tbl	v22.16b, { v2.16b }, v0.16b
	tbl	v18.16b, { v18.16b }, v0.16b
	tbl	v28.16b, { v5.16b }, v0.16b
	eor	v7.16b, v27.16b, v7.16b
	eor	v2.16b, v1.16b, v2.16b
	eor	v24.16b, v24.16b, v5.16b
	eor	v6.16b, v19.16b, v23.16b
	eor	v0.16b, v26.16b, v17.16b
	eor	v1.16b, v4.16b, v16.16b
	eor	v16.16b, v21.16b, v25.16b
	eor	v17.16b, v20.16b, v3.16b
	eor	v7.16b, v7.16b, v22.16b
	eor	v5.16b, v2.16b, v28.16b
	eor	v26.16b, v24.16b, v18.16b
	b	Laes_BB6_6
Laes_BB6_5:                                // %else.12
	adrp	x8, l_aes_CPI6_4@PAGE
	movi	v24.2d, #0x00ffff00000000
	ldr	q0, [x8, l_aes_CPI6_4@PAGEOFF]
	adrp	x8, l_aes_CPI6_5@PAGE
	ldr	q25, [x8, l_aes_CPI6_5@PAGEOFF]
	lsl	x8, x1, #7
	tbl	v2.16b, { v1.16b }, v0.16b
	tbl	v6.16b, { v4.16b }, v0.16b
	tbl	v17.16b, { v5.16b }, v0.16b
	tbl	v20.16b, { v16.16b }, v0.16b
	tbl	v21.16b, { v7.16b }, v0.16b
	tbl	v22.16b, { v18.16b }, v0.16b
	tbl	v23.16b, { v19.16b }, v0.16b
	tbl	v0.16b, { v3.16b }, v0.16b
	eor	v2.16b, v2.16b, v1.16b
	eor	v6.16b, v6.16b, v4.16b
	eor	v17.16b, v17.16b, v5.16b
	eor	v20.16b, v20.16b, v16.16b
	eor	v21.16b, v21.16b, v7.16b
	eor	v22.16b, v22.16b, v18.16b
	eor	v23.16b, v23.16b, v19.16b
	eor	v0.16b, v0.16b, v3.16b
	and	v2.16b, v2.16b, v24.16b
	and	v6.16b, v6.16b, v24.16b
	and	v17.16b, v17.16b, v24.16b
	and	v20.16b, v20.16b, v24.16b
	and	v21.16b, v21.16b, v24.16b
	and	v22.16b, v22.16b, v24.16b
	and	v23.16b, v23.16b, v24.16b
	and	v0.16b, v0.16b, v24.16b
	tbl	v24.16b, { v2.16b }, v25.16b
	tbl	v26.16b, { v6.16b }, v25.16b
	tbl	v27.16b, { v17.16b }, v25.16b
	tbl	v28.16b, { v20.16b }, v25.16b
	tbl	v29.16b, { v21.16b }, v25.16b
	tbl	v30.16b, { v22.16b }, v25.16b
	tbl	v31.16b, { v23.16b }, v25.16b
	tbl	v25.16b, { v0.16b }, v25.16b
	eor	v19.16b, v19.16b, v23.16b
	eor	v18.16b, v18.16b, v22.16b
	eor	v21.16b, v7.16b, v21.16b
	eor	v20.16b, v16.16b, v20.16b
	eor	v22.16b, v5.16b, v17.16b
	eor	v4.16b, v4.16b, v6.16b
	eor	v2.16b, v1.16b, v2.16b
	eor	v3.16b, v3.16b, v0.16b
	eor	v5.16b, v19.16b, v31.16b
	eor	v7.16b, v18.16b, v30.16b
	eor	v16.16b, v21.16b, v29.16b
	eor	v17.16b, v20.16b, v28.16b
	eor	v1.16b, v22.16b, v27.16b
	eor	v0.16b, v4.16b, v26.16b
	eor	v6.16b, v2.16b, v24.16b
	eor	v26.16b, v3.16b, v25.16b
Laes_BB6_6:                                // %join.13
	eor	v3.16b, v0.16b, v26.16b
	eor	v4.16b, v1.16b, v16.16b
	add	x8, x0, x8
	eor	v19.16b, v7.16b, v5.16b
	eor	v7.16b, v16.16b, v26.16b
	eor	v2.16b, v3.16b, v4.16b
	eor	v18.16b, v6.16b, v19.16b
	eor	v17.16b, v2.16b, v17.16b
	eor	v16.16b, v18.16b, v16.16b
	eor	v27.16b, v17.16b, v5.16b
	eor	v25.16b, v17.16b, v1.16b
	eor	v5.16b, v18.16b, v0.16b
	eor	v1.16b, v1.16b, v26.16b
	eor	v17.16b, v18.16b, v26.16b
	and	v31.16b, v16.16b, v6.16b
	eor	v0.16b, v27.16b, v7.16b
	eor	v21.16b, v25.16b, v19.16b
	and	v28.16b, v5.16b, v18.16b
	eor	v20.16b, v25.16b, v6.16b
	and	v29.16b, v25.16b, v2.16b
	eor	v31.16b, v31.16b, v1.16b
	eor	v23.16b, v0.16b, v19.16b
	eor	v19.16b, v5.16b, v1.16b
	eor	v22.16b, v0.16b, v21.16b
	eor	v24.16b, v0.16b, v6.16b
	and	v8.16b, v0.16b, v7.16b
	eor	v27.16b, v27.16b, v29.16b
	and	v12.16b, v21.16b, v1.16b
	eor	v29.16b, v21.16b, v29.16b
	and	v30.16b, v23.16b, v3.16b
	eor	v28.16b, v23.16b, v28.16b
	and	v9.16b, v20.16b, v19.16b
	and	v10.16b, v22.16b, v4.16b
	and	v11.16b, v24.16b, v17.16b
	eor	v29.16b, v31.16b, v29.16b
	eor	v28.16b, v28.16b, v30.16b
	eor	v27.16b, v27.16b, v9.16b
	eor	v26.16b, v30.16b, v26.16b
	eor	v9.16b, v10.16b, v8.16b
	eor	v10.16b, v23.16b, v11.16b
	eor	v30.16b, v12.16b, v8.16b
	ldp	q11, q12, [x8]
	eor	v28.16b, v28.16b, v3.16b
	eor	v27.16b, v27.16b, v9.16b
	eor	v26.16b, v10.16b, v26.16b
	eor	v29.16b, v29.16b, v30.16b
	eor	v28.16b, v28.16b, v9.16b
	eor	v30.16b, v26.16b, v30.16b
	and	v26.16b, v28.16b, v27.16b
	eor	v31.16b, v30.16b, v28.16b
	eor	v8.16b, v26.16b, v29.16b
	and	v31.16b, v8.16b, v31.16b
	eor	v8.16b, v27.16b, v29.16b
	eor	v27.16b, v26.16b, v30.16b
	eor	v26.16b, v31.16b, v26.16b
	and	v9.16b, v27.16b, v8.16b
	and	v10.16b, v26.16b, v30.16b
	eor	v26.16b, v9.16b, v29.16b
	eor	v29.16b, v10.16b, v27.16b
	eor	v27.16b, v31.16b, v30.16b
	eor	v28.16b, v10.16b, v28.16b
	and	v24.16b, v26.16b, v24.16b
	and	v17.16b, v26.16b, v17.16b
	and	v29.16b, v29.16b, v26.16b
	eor	v30.16b, v28.16b, v27.16b
	and	v31.16b, v27.16b, v6.16b
	eor	v6.16b, v26.16b, v27.16b
	and	v16.16b, v27.16b, v16.16b
	and	v2.16b, v28.16b, v2.16b
	eor	v29.16b, v29.16b, v8.16b
	and	v8.16b, v28.16b, v25.16b
	and	v20.16b, v30.16b, v20.16b
	and	v7.16b, v6.16b, v7.16b
	and	v19.16b, v30.16b, v19.16b
	and	v0.16b, v6.16b, v0.16b
	eor	v25.16b, v29.16b, v30.16b
	eor	v9.16b, v29.16b, v26.16b
	eor	v31.16b, v8.16b, v31.16b
	and	v18.16b, v29.16b, v18.16b
	and	v5.16b, v29.16b, v5.16b
	eor	v20.16b, v20.16b, v8.16b
	and	v23.16b, v9.16b, v23.16b
	eor	v10.16b, v25.16b, v6.16b
	and	v21.16b, v25.16b, v21.16b
	eor	v24.16b, v31.16b, v24.16b
	and	v3.16b, v9.16b, v3.16b
	and	v1.16b, v25.16b, v1.16b
	eor	v18.16b, v23.16b, v18.16b
	and	v22.16b, v10.16b, v22.16b
	eor	v21.16b, v21.16b, v31.16b
	and	v4.16b, v10.16b, v4.16b
	eor	v23.16b, v24.16b, v23.16b
	ldr	q24, [x8, #80]
	ldp	q31, q9, [x8, #32]
	eor	v22.16b, v18.16b, v22.16b
	eor	v21.16b, v21.16b, v3.16b
	eor	v3.16b, v3.16b, v11.16b
	eor	v4.16b, v4.16b, v7.16b
	eor	v5.16b, v23.16b, v5.16b
	eor	v7.16b, v24.16b, v7.16b
	eor	v6.16b, v16.16b, v31.16b
	eor	v16.16b, v20.16b, v18.16b
	ldr	q18, [x8, #64]
	eor	v21.16b, v21.16b, v22.16b
	eor	v0.16b, v22.16b, v0.16b
	eor	v19.16b, v4.16b, v19.16b
	eor	v4.16b, v5.16b, v4.16b
	eor	v1.16b, v7.16b, v1.16b
	ldp	d11, d10, [sp, #16]             // 16-byte Folded Reload
	eor	v5.16b, v21.16b, v12.16b
	eor	v7.16b, v21.16b, v17.16b
	eor	v17.16b, v23.16b, v9.16b
	eor	v2.16b, v19.16b, v2.16b
	eor	v6.16b, v6.16b, v19.16b
	eor	v3.16b, v3.16b, v4.16b
	eor	v1.16b, v1.16b, v0.16b
	ldp	d9, d8, [sp, #32]               // 16-byte Folded Reload
	eor	v4.16b, v5.16b, v4.16b
	ldp	q5, q19, [x8, #96]
	eor	v16.16b, v16.16b, v2.16b
	eor	v6.16b, v6.16b, v7.16b
	eor	v1.16b, v1.16b, v7.16b
	eor	v5.16b, v0.16b, v5.16b
	eor	v0.16b, v0.16b, v19.16b
	stp	q3, q4, [x2]
	eor	v3.16b, v17.16b, v16.16b
	eor	v17.16b, v16.16b, v18.16b
	eor	v4.16b, v5.16b, v16.16b
	eor	v0.16b, v0.16b, v2.16b
	stp	q6, q3, [x2, #32]
	stp	q17, q1, [x2, #64]
	stp	q4, q0, [x2, #96]
	ldr	d12, [sp], #48                  // 8-byte Folded Reload
	ret
                                        // -- End function
	.section	__TEXT,__text,regular,pure_instructions
	.p2align	2                               // -- Begin function aes_soft::soft::blocks::filled_up::process_filled_up::<#a60badf655ff5009>
_aes.aes_soft.soft.blocks.filled_up.process_filled_up.1: // @_aes.aes_soft.soft.blocks.filled_up.process_filled_up.1
// %bb.0:                               // %start
	sub	sp, sp, #432
	movi	v0.2d, #0000000000000000
	lsr	x9, x1, #3
	ldr	q1, [x2]
	stp	x29, x30, [sp, #384]            // 16-byte Folded Spill
	add	x29, sp, #384
	mov	x8, x0
	stp	x20, x19, [sp, #416]            // 16-byte Folded Spill
	mov	x20, x2
	str	x28, [sp, #400]                 // 8-byte Spill
	stp	q0, q0, [sp]
	stp	q0, q0, [sp, #32]
	stp	q0, q0, [sp, #64]
	stp	q0, q0, [sp, #96]
	stp	q0, q0, [sp, #128]
	stp	q0, q0, [sp, #160]
	stp	q0, q0, [sp, #192]
	stp	q0, q0, [sp, #224]
	ldr	q0, [x2]
	sub	x2, x9, #1
	stp	q1, q0, [x29, #-128]
	stp	q0, q0, [x29, #-96]
	stp	q0, q0, [x29, #-64]
	stp	q0, q0, [x29, #-32]
	cbz	x3, Laes_BB7_11
// %bb.1:                               // %join.8.i
	ldr	q0, [x20]
	mov	x19, x3
	cmp	x3, #1
	stur	q0, [x29, #-128]
	b.eq	Laes_BB7_8
// %bb.2:                               // %join.8.i.1
	ldr	q0, [x20, #16]
	cmp	x19, #2
	stur	q0, [x29, #-112]
	b.eq	Laes_BB7_8
// %bb.3:                               // %join.8.i.2
	ldr	q0, [x20, #32]
	cmp	x19, #3
	stur	q0, [x29, #-96]
	b.eq	Laes_BB7_8
// %bb.4:                               // %join.8.i.3
	ldr	q0, [x20, #48]
	cmp	x19, #4
	stur	q0, [x29, #-80]
	b.eq	Laes_BB7_8
// %bb.5:                               // %join.8.i.4
	ldr	q0, [x20, #64]
	cmp	x19, #5
	stur	q0, [x29, #-64]
	b.eq	Laes_BB7_8
// %bb.6:                               // %join.8.i.5
	ldr	q0, [x20, #80]
	cmp	x19, #6
	stur	q0, [x29, #-48]
	b.eq	Laes_BB7_8
// %bb.7:                               // %join.8.i.6
	ldr	q0, [x20, #96]
	stur	q0, [x29, #-32]
Laes_BB7_8:                                // %"aes_soft::soft::blocks::filled_up::filled_up::<#3fb8a7784760496e>.exit"
	mov	x0, sp
	sub	x3, x29, #128
	mov	x1, x8
	bl	_aes.aes_soft.soft.ciphers.planes.process_outlined.1
	ldp	q0, q1, [sp, #64]
	add	x8, sp, #128
	stp	q0, q1, [sp, #192]
	ldp	q0, q2, [sp, #96]
	stp	q0, q2, [sp, #224]
	ldp	q1, q0, [sp]
	stp	q1, q0, [sp, #128]
	ldp	q2, q0, [sp, #32]
	stp	q2, q0, [sp, #160]
Laes_BB7_9:                                // %join.8.i19
                                        // =>This Inner Loop Header: Depth=1
	ldr	q0, [x8], #16
	subs	x19, x19, #1
	str	q0, [x20], #16
	b.ne	Laes_BB7_9
// %bb.10:                              // %"aes_soft::soft::blocks::filled_up::copy_first::<#3fb8a7784760496e>.exit"
	ldp	x20, x19, [sp, #416]            // 16-byte Folded Reload
	ldr	x28, [sp, #400]                 // 8-byte Reload
	ldp	x29, x30, [sp, #384]            // 16-byte Folded Reload
	add	sp, sp, #432
	ret
Laes_BB7_11:                               // %"aes_soft::soft::blocks::filled_up::copy_first::<#3fb8a7784760496e>.exit.critedge"
	mov	x0, sp
	sub	x3, x29, #128
	mov	x1, x8
	bl	_aes.aes_soft.soft.ciphers.planes.process_outlined.1
	ldp	q0, q1, [sp, #64]
	stp	q0, q1, [sp, #192]
	ldp	q0, q2, [sp, #96]
	stp	q0, q2, [sp, #224]
	ldp	q1, q0, [sp]
	stp	q1, q0, [sp, #128]
	ldp	q2, q0, [sp, #32]
	stp	q2, q0, [sp, #160]
	ldp	x20, x19, [sp, #416]            // 16-byte Folded Reload
	ldr	x28, [sp, #400]                 // 8-byte Reload
	ldp	x29, x30, [sp, #384]            // 16-byte Folded Reload
	add	sp, sp, #432
	ret
                                        // -- End function
	.section	__TEXT,__text,regular,pure_instructions
	.p2align	2                               // -- Begin function aes_cipher::zeroize::zeroize_words::<#e29e0540aa8bc136>
_aes.aes_cipher.zeroize.zeroize_words: // @_aes.aes_cipher.zeroize.zeroize_words
// %bb.0:                               // %start
	stp	x29, x30, [sp, #-48]!           // 16-byte Folded Spill
	mov	x29, sp
	str	x21, [sp, #16]                  // 8-byte Spill
	stp	x20, x19, [sp, #32]             // 16-byte Folded Spill
	add	x8, x29, #24
	str	xzr, [x29, #24]
	//APP
	//NO_APP
	ldar	x8, [x8]
	//APP
	//NO_APP
	cmp	x8, #120
	b.hs	Laes_BB8_2
// %bb.1:                               // %then.1.i
	lsl	x20, x8, #4
	mov	w1, wzr
	mov	w2, #1920                       // =0x780
	mov	x19, x0
	ldr	w21, [x0, x20]
	adrp	x16, _memset@GOTPAGE
	ldr	x16, [x16, _memset@GOTPAGEOFF]
	blr	x16
	ldr	w8, [x19, x20]
	and	w8, w21, w8
	and	x8, x8, #0xff
	b	Laes_BB8_3
Laes_BB8_2:                                // %"aes_cipher::zeroize::observe::<#ccfd3525e01c7eaa>.exit11"
	mov	w1, wzr
	mov	w2, #1920                       // =0x780
	adrp	x16, _memset@GOTPAGE
	ldr	x16, [x16, _memset@GOTPAGEOFF]
	blr	x16
	mov	x8, xzr
Laes_BB8_3:                                // %"aes_cipher::zeroize::observe::<#ccfd3525e01c7eaa>.exit"
	//APP
	//NO_APP
Laes_BB8_4:                                // %atomicrmw.start
                                        // =>This Inner Loop Header: Depth=1
	add	x9, x29, #24
	ldaxr	xzr, [x9]
	stlxr	w10, x8, [x9]
	cbnz	w10, Laes_BB8_4
// %bb.5:                               // %atomicrmw.end
	//APP
	//NO_APP
	ldp	x20, x19, [sp, #32]             // 16-byte Folded Reload
	ldr	x21, [sp, #16]                  // 8-byte Reload
	ldp	x29, x30, [sp], #48             // 16-byte Folded Reload
	ret
                                        // -- End function
	.section	__TEXT,__text,regular,pure_instructions
	.p2align	2                               // -- Begin function aes_cipher::zeroize::stack::wipe_stack::<=1792>
_aes.aes_cipher.zeroize.stack.wipe_stack.1792: // @_aes.aes_cipher.zeroize.stack.wipe_stack.1792
// %bb.0:                               // %start
	stp	x29, x30, [sp, #-32]!           // 16-byte Folded Spill
	stp	x28, x19, [sp, #16]             // 16-byte Folded Spill
	mov	x29, sp
	sub	sp, sp, #1808
	add	x0, sp, #16
	mov	w1, wzr
	mov	w2, #1792                       // =0x700
	str	xzr, [sp]
	add	x19, sp, #16
	adrp	x16, _memset@GOTPAGE
	ldr	x16, [x16, _memset@GOTPAGEOFF]
	blr	x16
	str	xzr, [sp, #8]
	add	x8, sp, #8
	//APP
	//NO_APP
	ldar	x8, [x8]
	//APP
	//NO_APP
	cmp	x8, #1792
	b.hs	Laes_BB9_4
// %bb.1:                               // %then.1
	ldrb	w8, [x19, x8]
	//APP
	//NO_APP
Laes_BB9_2:                                // %atomicrmw.start
                                        // =>This Inner Loop Header: Depth=1
	add	x9, sp, #8
	ldaxr	xzr, [x9]
	stlxr	w10, x8, [x9]
	cbnz	w10, Laes_BB9_2
// %bb.3:                               // %atomicrmw.end
	//APP
	//NO_APP
Laes_BB9_4:                                // %common.ret
	add	sp, sp, #1808
	ldp	x28, x19, [sp, #16]             // 16-byte Folded Reload
	ldp	x29, x30, [sp], #32             // 16-byte Folded Reload
	ret
                                        // -- End function
	.section	__TEXT,__const
	.p2align	4, 0x0                          // -- Begin function aes_permute::blocks::process_on_lanes::<#06aaae76f5856d0a>
l_aes_CPI10_0:
	.byte	0                               // 0x0
	.byte	1                               // 0x1
	.byte	28                              // 0x1c
	.byte	29                              // 0x1d
	.byte	45                              // 0x2d
	.byte	44                              // 0x2c
	.byte	49                              // 0x31
	.byte	48                              // 0x30
	.byte	39                              // 0x27
	.byte	38                              // 0x26
	.byte	59                              // 0x3b
	.byte	58                              // 0x3a
	.byte	10                              // 0xa
	.byte	11                              // 0xb
	.byte	22                              // 0x16
	.byte	23                              // 0x17
l_aes_CPI10_1:
	.byte	0                               // 0x0
	.byte	134                             // 0x86
	.byte	253                             // 0xfd
	.byte	123                             // 0x7b
	.byte	142                             // 0x8e
	.byte	8                               // 0x8
	.byte	115                             // 0x73
	.byte	245                             // 0xf5
	.byte	119                             // 0x77
	.byte	241                             // 0xf1
	.byte	138                             // 0x8a
	.byte	12                              // 0xc
	.byte	249                             // 0xf9
	.byte	127                             // 0x7f
	.byte	4                               // 0x4
	.byte	130                             // 0x82
l_aes_CPI10_2:
	.byte	128                             // 0x80
	.byte	2                               // 0x2
	.byte	1                               // 0x1
	.byte	15                              // 0xf
	.byte	9                               // 0x9
	.byte	5                               // 0x5
	.byte	14                              // 0xe
	.byte	12                              // 0xc
	.byte	13                              // 0xd
	.byte	4                               // 0x4
	.byte	11                              // 0xb
	.byte	10                              // 0xa
	.byte	7                               // 0x7
	.byte	8                               // 0x8
	.byte	6                               // 0x6
	.byte	3                               // 0x3
l_aes_CPI10_3:
	.byte	128                             // 0x80
	.byte	1                               // 0x1
	.byte	9                               // 0x9
	.byte	14                              // 0xe
	.byte	13                              // 0xd
	.byte	11                              // 0xb
	.byte	7                               // 0x7
	.byte	6                               // 0x6
	.byte	15                              // 0xf
	.byte	2                               // 0x2
	.byte	12                              // 0xc
	.byte	5                               // 0x5
	.byte	10                              // 0xa
	.byte	4                               // 0x4
	.byte	3                               // 0x3
	.byte	8                               // 0x8
l_aes_CPI10_4:
	.byte	0                               // 0x0
	.byte	195                             // 0xc3
	.byte	79                              // 0x4f
	.byte	12                              // 0xc
	.byte	252                             // 0xfc
	.byte	124                             // 0x7c
	.byte	67                              // 0x43
	.byte	128                             // 0x80
	.byte	207                             // 0xcf
	.byte	51                              // 0x33
	.byte	63                              // 0x3f
	.byte	112                             // 0x70
	.byte	191                             // 0xbf
	.byte	179                             // 0xb3
	.byte	240                             // 0xf0
	.byte	140                             // 0x8c
l_aes_CPI10_5:
	.byte	0                               // 0x0
	.byte	230                             // 0xe6
	.byte	114                             // 0x72
	.byte	183                             // 0xb7
	.byte	229                             // 0xe5
	.byte	198                             // 0xc6
	.byte	197                             // 0xc5
	.byte	35                              // 0x23
	.byte	81                              // 0x51
	.byte	180                             // 0xb4
	.byte	3                               // 0x3
	.byte	113                             // 0x71
	.byte	32                              // 0x20
	.byte	151                             // 0x97
	.byte	82                              // 0x52
	.byte	148                             // 0x94
l_aes_CPI10_6:
	.byte	0                               // 0x0
	.byte	124                             // 0x7c
	.byte	32                              // 0x20
	.byte	207                             // 0xcf
	.byte	146                             // 0x92
	.byte	1                               // 0x1
	.byte	239                             // 0xef
	.byte	147                             // 0x93
	.byte	179                             // 0xb3
	.byte	33                              // 0x21
	.byte	238                             // 0xee
	.byte	206                             // 0xce
	.byte	125                             // 0x7d
	.byte	178                             // 0xb2
	.byte	93                              // 0x5d
	.byte	92                              // 0x5c
l_aes_CPI10_7:
	.byte	0                               // 0x0
	.byte	209                             // 0xd1
	.byte	229                             // 0xe5
	.byte	247                             // 0xf7
	.byte	230                             // 0xe6
	.byte	37                              // 0x25
	.byte	18                              // 0x12
	.byte	195                             // 0xc3
	.byte	38                              // 0x26
	.byte	192                             // 0xc0
	.byte	55                              // 0x37
	.byte	210                             // 0xd2
	.byte	244                             // 0xf4
	.byte	3                               // 0x3
	.byte	17                              // 0x11
	.byte	52                              // 0x34
l_aes_CPI10_8:
	.byte	0                               // 0x0
	.byte	203                             // 0xcb
	.byte	215                             // 0xd7
	.byte	176                             // 0xb0
	.byte	33                              // 0x21
	.byte	141                             // 0x8d
	.byte	103                             // 0x67
	.byte	172                             // 0xac
	.byte	123                             // 0x7b
	.byte	90                              // 0x5a
	.byte	234                             // 0xea
	.byte	61                              // 0x3d
	.byte	70                              // 0x46
	.byte	246                             // 0xf6
	.byte	145                             // 0x91
	.byte	28                              // 0x1c
l_aes_CPI10_9:
	.byte	0                               // 0x0
	.byte	159                             // 0x9f
	.byte	97                              // 0x61
	.byte	22                              // 0x16
	.byte	194                             // 0xc2
	.byte	42                              // 0x2a
	.byte	119                             // 0x77
	.byte	232                             // 0xe8
	.byte	137                             // 0x89
	.byte	75                              // 0x4b
	.byte	93                              // 0x5d
	.byte	60                              // 0x3c
	.byte	181                             // 0xb5
	.byte	163                             // 0xa3
	.byte	212                             // 0xd4
	.byte	254                             // 0xfe
	.section	__TEXT,__text,regular,pure_instructions
	.p2align	2
_aes.aes_permute.blocks.process_on_lanes.1: // @_aes.aes_permute.blocks.process_on_lanes.1
// %bb.0:                               // %start
	stp	x24, x23, [sp, #-48]!           // 16-byte Folded Spill
	adrp	x7, l_aes_static.3@PAGE
	add	x7, x7, l_aes_static.3@PAGEOFF
	cmp	x3, #2
	adrp	x8, l_aes_CPI10_0@PAGE
	adrp	x9, l_aes_CPI10_1@PAGE
	adrp	x10, l_aes_CPI10_2@PAGE
	adrp	x11, l_aes_CPI10_3@PAGE
	adrp	x12, l_aes_CPI10_8@PAGE
	adrp	x13, l_aes_CPI10_9@PAGE
	adrp	x14, l_aes_CPI10_4@PAGE
	adrp	x15, l_aes_CPI10_5@PAGE
	adrp	x16, l_aes_CPI10_6@PAGE
	adrp	x17, l_aes_static.4@PAGE
	add	x17, x17, l_aes_static.4@PAGEOFF
	adrp	x4, l_aes_CPI10_7@PAGE
	adrp	x5, l_aes_static.5@PAGE
	add	x5, x5, l_aes_static.5@PAGEOFF
	stp	x22, x21, [sp, #16]             // 16-byte Folded Spill
	stp	x20, x19, [sp, #32]             // 16-byte Folded Spill
	b.lo	Laes_BB10_6
// %bb.1:                               // %join.5.lr.ph
	sub	x19, x1, #1
	lsl	x20, x19, #4
	and	x6, x20, #0x30
	ldr	q0, [x7, x6]
	mov	x6, xzr
	b	Laes_BB10_3
Laes_BB10_2:                               // %"aes_permute::blocks::process_two_vectors::<#06aaae76f5856d0a>.exit"
                                        //   in Loop: Header=BB10_3 Depth=1
	ushr	v4.16b, v3.16b, #4
	and	v3.16b, v3.16b, v1.16b
	ldr	q6, [x10, l_aes_CPI10_2@PAGEOFF]
	ushr	v5.16b, v2.16b, #4
	and	v1.16b, v2.16b, v1.16b
	ldr	q7, [x11, l_aes_CPI10_3@PAGEOFF]
	add	x6, x6, #2
	eor	v2.16b, v4.16b, v3.16b
	tbl	v3.16b, { v6.16b }, v3.16b
	tbl	v17.16b, { v7.16b }, v4.16b
	eor	v16.16b, v5.16b, v1.16b
	tbl	v1.16b, { v6.16b }, v1.16b
	tbl	v6.16b, { v7.16b }, v5.16b
	sub	x22, x3, x6
	tbl	v18.16b, { v7.16b }, v2.16b
	cmp	x22, #1
	tbl	v19.16b, { v7.16b }, v16.16b
	eor	v17.16b, v17.16b, v3.16b
	eor	v6.16b, v6.16b, v1.16b
	eor	v3.16b, v18.16b, v3.16b
	tbl	v17.16b, { v7.16b }, v17.16b
	eor	v1.16b, v19.16b, v1.16b
	tbl	v6.16b, { v7.16b }, v6.16b
	tbl	v3.16b, { v7.16b }, v3.16b
	tbl	v1.16b, { v7.16b }, v1.16b
	eor	v2.16b, v17.16b, v2.16b
	ldr	q7, [x12, l_aes_CPI10_8@PAGEOFF]
	eor	v6.16b, v6.16b, v16.16b
	eor	v3.16b, v3.16b, v4.16b
	ldr	q4, [x13, l_aes_CPI10_9@PAGEOFF]
	tbl	v2.16b, { v7.16b }, v2.16b
	eor	v1.16b, v1.16b, v5.16b
	tbl	v5.16b, { v7.16b }, v6.16b
	tbl	v3.16b, { v4.16b }, v3.16b
	tbl	v1.16b, { v4.16b }, v1.16b
	eor	v2.16b, v3.16b, v2.16b
	ldr	q3, [x0, x20]
	eor	v1.16b, v1.16b, v5.16b
	tbl	v2.16b, { v2.16b }, v0.16b
	tbl	v1.16b, { v1.16b }, v0.16b
	eor	v2.16b, v2.16b, v3.16b
	eor	v1.16b, v1.16b, v3.16b
	stp	q2, q1, [x21]
	b.ls	Laes_BB10_7
Laes_BB10_3:                               // %join.5
                                        // =>This Loop Header: Depth=1
                                        //     Child Loop BB10_5 Depth 2
	add	x21, x2, x6, lsl #4
	ldr	q2, [x0]
	movi	v1.16b, #15
	ldr	q7, [x9, l_aes_CPI10_1@PAGEOFF]
	cmp	x19, #2
	ldp	q3, q4, [x21]
	eor	v3.16b, v2.16b, v3.16b
	eor	v2.16b, v2.16b, v4.16b
	ldr	q4, [x8, l_aes_CPI10_0@PAGEOFF]
	and	v5.16b, v3.16b, v1.16b
	ushr	v3.16b, v3.16b, #4
	and	v6.16b, v2.16b, v1.16b
	ushr	v2.16b, v2.16b, #4
	tbl	v5.16b, { v4.16b }, v5.16b
	tbl	v3.16b, { v7.16b }, v3.16b
	tbl	v4.16b, { v4.16b }, v6.16b
	tbl	v2.16b, { v7.16b }, v2.16b
	eor	v3.16b, v3.16b, v5.16b
	eor	v2.16b, v2.16b, v4.16b
	b.lo	Laes_BB10_2
// %bb.4:                               // %join.5.i1874.preheader
                                        //   in Loop: Header=BB10_3 Depth=1
	mov	w22, #16                        // =0x10
	sub	x23, x1, #2
Laes_BB10_5:                               // %join.5.i1874
                                        //   Parent Loop BB10_3 Depth=1
                                        // =>  This Inner Loop Header: Depth=2
	movi	v4.16b, #15
	ushr	v5.16b, v3.16b, #4
	ldr	q7, [x10, l_aes_CPI10_2@PAGEOFF]
	ushr	v6.16b, v2.16b, #4
	ldr	q16, [x11, l_aes_CPI10_3@PAGEOFF]
	and	x24, x22, #0x30
	subs	x23, x23, #1
	tbl	v18.16b, { v16.16b }, v5.16b
	and	v3.16b, v3.16b, v4.16b
	and	v2.16b, v2.16b, v4.16b
	tbl	v20.16b, { v16.16b }, v6.16b
	eor	v4.16b, v5.16b, v3.16b
	eor	v17.16b, v6.16b, v2.16b
	tbl	v3.16b, { v7.16b }, v3.16b
	tbl	v2.16b, { v7.16b }, v2.16b
	tbl	v19.16b, { v16.16b }, v4.16b
	tbl	v7.16b, { v16.16b }, v17.16b
	eor	v18.16b, v18.16b, v3.16b
	eor	v3.16b, v19.16b, v3.16b
	eor	v19.16b, v20.16b, v2.16b
	eor	v2.16b, v7.16b, v2.16b
	tbl	v7.16b, { v16.16b }, v18.16b
	tbl	v3.16b, { v16.16b }, v3.16b
	tbl	v18.16b, { v16.16b }, v19.16b
	tbl	v2.16b, { v16.16b }, v2.16b
	ldr	q16, [x14, l_aes_CPI10_4@PAGEOFF]
	ldr	q19, [x4, l_aes_CPI10_7@PAGEOFF]
	eor	v4.16b, v7.16b, v4.16b
	eor	v3.16b, v3.16b, v5.16b
	eor	v7.16b, v18.16b, v17.16b
	eor	v2.16b, v2.16b, v6.16b
	ldr	q5, [x15, l_aes_CPI10_5@PAGEOFF]
	tbl	v6.16b, { v16.16b }, v4.16b
	ldr	q18, [x16, l_aes_CPI10_6@PAGEOFF]
	tbl	v17.16b, { v5.16b }, v3.16b
	tbl	v16.16b, { v16.16b }, v7.16b
	tbl	v5.16b, { v5.16b }, v2.16b
	tbl	v4.16b, { v18.16b }, v4.16b
	tbl	v3.16b, { v19.16b }, v3.16b
	tbl	v7.16b, { v18.16b }, v7.16b
	tbl	v2.16b, { v19.16b }, v2.16b
	eor	v6.16b, v17.16b, v6.16b
	eor	v5.16b, v5.16b, v16.16b
	ldr	q16, [x17, x24]
	eor	v3.16b, v3.16b, v4.16b
	ldr	q4, [x5, x24]
	eor	v2.16b, v2.16b, v7.16b
	tbl	v17.16b, { v6.16b }, v16.16b
	tbl	v18.16b, { v5.16b }, v16.16b
	tbl	v6.16b, { v6.16b }, v4.16b
	tbl	v4.16b, { v5.16b }, v4.16b
	eor	v3.16b, v3.16b, v17.16b
	eor	v2.16b, v2.16b, v18.16b
	eor	v5.16b, v6.16b, v3.16b
	eor	v4.16b, v4.16b, v2.16b
	ldr	q6, [x0, x22]
	tbl	v3.16b, { v3.16b }, v16.16b
	tbl	v2.16b, { v2.16b }, v16.16b
	add	x22, x22, #16
	eor	v5.16b, v5.16b, v6.16b
	eor	v4.16b, v4.16b, v6.16b
	eor	v3.16b, v3.16b, v5.16b
	eor	v2.16b, v2.16b, v4.16b
	b.ne	Laes_BB10_5
	b	Laes_BB10_2
Laes_BB10_6:
	mov	x6, xzr
Laes_BB10_7:                               // %loop.7.preheader
	cmp	x3, x6
	b.ne	Laes_BB10_9
Laes_BB10_8:                               // %after.11
	ldp	x20, x19, [sp, #32]             // 16-byte Folded Reload
	ldp	x22, x21, [sp, #16]             // 16-byte Folded Reload
	ldp	x24, x23, [sp], #48             // 16-byte Folded Reload
	ret
Laes_BB10_9:                               // %join.10.lr.ph
	sub	x19, x1, #1
	sub	x1, x1, #2
	lsl	x20, x19, #4
	and	x21, x20, #0x30
	ldr	q0, [x7, x21]
	b	Laes_BB10_11
Laes_BB10_10:                              // %"aes_permute::blocks::process_vector::<#06aaae76f5856d0a>.exit1750"
                                        //   in Loop: Header=BB10_11 Depth=1
	ushr	v3.16b, v2.16b, #4
	and	v1.16b, v2.16b, v1.16b
	ldr	q4, [x10, l_aes_CPI10_2@PAGEOFF]
	ldr	q5, [x11, l_aes_CPI10_3@PAGEOFF]
	eor	v2.16b, v3.16b, v1.16b
	tbl	v1.16b, { v4.16b }, v1.16b
	tbl	v4.16b, { v5.16b }, v3.16b
	tbl	v6.16b, { v5.16b }, v2.16b
	eor	v4.16b, v4.16b, v1.16b
	eor	v1.16b, v6.16b, v1.16b
	tbl	v4.16b, { v5.16b }, v4.16b
	tbl	v1.16b, { v5.16b }, v1.16b
	eor	v2.16b, v4.16b, v2.16b
	ldr	q4, [x13, l_aes_CPI10_9@PAGEOFF]
	eor	v1.16b, v1.16b, v3.16b
	ldr	q3, [x12, l_aes_CPI10_8@PAGEOFF]
	tbl	v2.16b, { v3.16b }, v2.16b
	tbl	v1.16b, { v4.16b }, v1.16b
	eor	v1.16b, v1.16b, v2.16b
	ldr	q2, [x0, x20]
	tbl	v1.16b, { v1.16b }, v0.16b
	eor	v1.16b, v1.16b, v2.16b
	str	q1, [x2, x6, lsl #4]
	add	x6, x6, #1
	cmp	x3, x6
	b.eq	Laes_BB10_8
Laes_BB10_11:                              // %join.10
                                        // =>This Loop Header: Depth=1
                                        //     Child Loop BB10_13 Depth 2
	ldr	q2, [x2, x6, lsl #4]
	ldr	q3, [x0]
	movi	v1.16b, #15
	ldr	q4, [x8, l_aes_CPI10_0@PAGEOFF]
	ldr	q5, [x9, l_aes_CPI10_1@PAGEOFF]
	cmp	x19, #2
	eor	v2.16b, v3.16b, v2.16b
	and	v3.16b, v2.16b, v1.16b
	ushr	v2.16b, v2.16b, #4
	tbl	v3.16b, { v4.16b }, v3.16b
	tbl	v2.16b, { v5.16b }, v2.16b
	eor	v2.16b, v2.16b, v3.16b
	b.lo	Laes_BB10_10
// %bb.12:                              // %join.5.i1006.preheader
                                        //   in Loop: Header=BB10_11 Depth=1
	mov	w7, #16                         // =0x10
	mov	x21, x1
Laes_BB10_13:                              // %join.5.i1006
                                        //   Parent Loop BB10_11 Depth=1
                                        // =>  This Inner Loop Header: Depth=2
	movi	v3.16b, #15
	ushr	v4.16b, v2.16b, #4
	ldr	q5, [x10, l_aes_CPI10_2@PAGEOFF]
	ldr	q6, [x11, l_aes_CPI10_3@PAGEOFF]
	and	x22, x7, #0x30
	subs	x21, x21, #1
	tbl	v7.16b, { v6.16b }, v4.16b
	and	v2.16b, v2.16b, v3.16b
	eor	v3.16b, v4.16b, v2.16b
	tbl	v2.16b, { v5.16b }, v2.16b
	tbl	v5.16b, { v6.16b }, v3.16b
	eor	v7.16b, v7.16b, v2.16b
	eor	v2.16b, v5.16b, v2.16b
	tbl	v5.16b, { v6.16b }, v7.16b
	ldr	q7, [x4, l_aes_CPI10_7@PAGEOFF]
	tbl	v2.16b, { v6.16b }, v2.16b
	ldr	q6, [x16, l_aes_CPI10_6@PAGEOFF]
	eor	v3.16b, v5.16b, v3.16b
	ldr	q5, [x15, l_aes_CPI10_5@PAGEOFF]
	eor	v2.16b, v2.16b, v4.16b
	ldr	q4, [x14, l_aes_CPI10_4@PAGEOFF]
	tbl	v4.16b, { v4.16b }, v3.16b
	tbl	v3.16b, { v6.16b }, v3.16b
	ldr	q6, [x5, x22]
	tbl	v5.16b, { v5.16b }, v2.16b
	tbl	v2.16b, { v7.16b }, v2.16b
	eor	v4.16b, v5.16b, v4.16b
	ldr	q5, [x17, x22]
	eor	v2.16b, v2.16b, v3.16b
	tbl	v7.16b, { v4.16b }, v5.16b
	tbl	v3.16b, { v4.16b }, v6.16b
	ldr	q4, [x0, x7]
	add	x7, x7, #16
	eor	v2.16b, v2.16b, v7.16b
	eor	v3.16b, v4.16b, v3.16b
	tbl	v4.16b, { v2.16b }, v5.16b
	eor	v2.16b, v3.16b, v2.16b
	eor	v2.16b, v4.16b, v2.16b
	b.ne	Laes_BB10_13
	b	Laes_BB10_10
                                        // -- End function
	.section	__TEXT,__text,regular,pure_instructions
	.p2align	2                               // -- Begin function aes_hybrid::closures::lend_planes::<#b70de9c75faff52b>
_aes.aes_hybrid.closures.lend_planes.1: // @_aes.aes_hybrid.closures.lend_planes.1
// %bb.0:                               // %start
	stp	x29, x30, [sp, #-80]!           // 16-byte Folded Spill
	str	x28, [sp, #16]                  // 8-byte Spill
	mov	x29, sp
	stp	x24, x23, [sp, #32]             // 16-byte Folded Spill
	stp	x22, x21, [sp, #48]             // 16-byte Folded Spill
	stp	x20, x19, [sp, #64]             // 16-byte Folded Spill
	sub	sp, sp, #1952
	add	x8, sp, #32
	mov	x21, x2
	mov	x22, x1
	mov	x23, x0
	add	x0, x8, #128
	mov	w1, wzr
	mov	w2, #1792                       // =0x700
	str	xzr, [sp]
	mov	x19, x4
	mov	x20, x3
	adrp	x16, _memset@GOTPAGE
	ldr	x16, [x16, _memset@GOTPAGEOFF]
	blr	x16
	add	x0, sp, #32
	mov	x1, x23
	mov	x2, x22
	lsl	x24, x22, #3
	bl	_aes.aes_hybrid.plane_keys.store_planes
	mov	x0, sp
	add	x1, sp, #32
	mov	x2, x24
	mov	x3, x19
	stp	x23, x22, [sp]
	stp	x21, x20, [sp, #16]
	bl	_aes.aes_hybrid.closures.call_to_work.1
	add	x0, sp, #32
	bl	_aes.aes_cipher.zeroize.zeroize_words
	bl	_aes.aes_cipher.zeroize.stack.wipe_stack.2032
	add	sp, sp, #1952
	ldp	x20, x19, [sp, #64]             // 16-byte Folded Reload
	ldr	x28, [sp, #16]                  // 8-byte Reload
	ldp	x22, x21, [sp, #48]             // 16-byte Folded Reload
	ldp	x24, x23, [sp, #32]             // 16-byte Folded Reload
	ldp	x29, x30, [sp], #80             // 16-byte Folded Reload
	ret
                                        // -- End function
	.section	__TEXT,__const
	.p2align	4, 0x0                          // -- Begin function aes_hybrid::closures::call_to_work::<#b70de9c75faff52b>
l_aes_CPI12_0:
	.byte	15                              // 0xf
	.byte	11                              // 0xb
	.byte	7                               // 0x7
	.byte	3                               // 0x3
	.byte	14                              // 0xe
	.byte	10                              // 0xa
	.byte	6                               // 0x6
	.byte	2                               // 0x2
	.byte	13                              // 0xd
	.byte	9                               // 0x9
	.byte	5                               // 0x5
	.byte	1                               // 0x1
	.byte	12                              // 0xc
	.byte	8                               // 0x8
	.byte	4                               // 0x4
	.byte	0                               // 0x0
l_aes_CPI12_1:
	.byte	0                               // 0x0
	.byte	4                               // 0x4
	.byte	8                               // 0x8
	.byte	12                              // 0xc
	.byte	1                               // 0x1
	.byte	5                               // 0x5
	.byte	9                               // 0x9
	.byte	13                              // 0xd
	.byte	2                               // 0x2
	.byte	6                               // 0x6
	.byte	10                              // 0xa
	.byte	14                              // 0xe
	.byte	3                               // 0x3
	.byte	7                               // 0x7
	.byte	11                              // 0xb
	.byte	15                              // 0xf
	.section	__TEXT,__text,regular,pure_instructions
	.p2align	2
_aes.aes_hybrid.closures.call_to_work.1: // @_aes.aes_hybrid.closures.call_to_work.1
// %bb.0:                               // %start
	sub	sp, sp, #256
	stp	x20, x19, [sp, #240]            // 16-byte Folded Spill
	ldp	x20, x19, [x3]
	stp	x22, x21, [sp, #224]            // 16-byte Folded Spill
	ldp	x22, x21, [x3, #16]
	stp	x24, x23, [sp, #208]            // 16-byte Folded Spill
	mov	x24, x2
	mov	x23, x1
	tst	x19, #0xf
	stp	x29, x30, [sp, #160]            // 16-byte Folded Spill
	add	x29, sp, #160
	stp	x28, x27, [sp, #176]            // 16-byte Folded Spill
	stp	x26, x25, [sp, #192]            // 16-byte Folded Spill
	stp	x0, x1, [sp, #8]
	str	x2, [sp, #24]
	b.eq	Laes_BB12_5
// %bb.1:                               // %then.1.i.i
	add	x0, sp, #8
	mov	x1, x20
	mov	x2, x19
	mov	x3, xzr
	mov	x4, x22
	mov	x5, x21
	bl	_aes.aes_ctr.add_in_batches.add_next.1
	mov	x3, x0
	sub	x25, x21, x0
	cmp	x25, #128
	b.hs	Laes_BB12_6
Laes_BB12_2:                               // %loop.13.preheader.i.i
	cmp	x3, x21
	b.hs	Laes_BB12_4
Laes_BB12_3:                               // %join.16.i.i
                                        // =>This Inner Loop Header: Depth=1
	add	x0, sp, #8
	mov	x1, x20
	mov	x2, x19
	mov	x4, x22
	mov	x5, x21
	bl	_aes.aes_ctr.add_in_batches.add_next.1
	mov	x3, x0
	cmp	x0, x21
	b.lo	Laes_BB12_3
Laes_BB12_4:                               // %"aes_ctr::add_in_batches::AddStreamBlockCipherEncClosure::call::<#8328edac2e5961b6>.exit"
	ldp	x20, x19, [sp, #240]            // 16-byte Folded Reload
	ldp	x22, x21, [sp, #224]            // 16-byte Folded Reload
	ldp	x24, x23, [sp, #208]            // 16-byte Folded Reload
	ldp	x26, x25, [sp, #192]            // 16-byte Folded Reload
	ldp	x28, x27, [sp, #176]            // 16-byte Folded Reload
	ldp	x29, x30, [sp, #160]            // 16-byte Folded Reload
	add	sp, sp, #256
	ret
Laes_BB12_5:
	mov	x3, xzr
	sub	x25, x21, xzr
	cmp	x25, #128
	b.lo	Laes_BB12_2
Laes_BB12_6:                               // %join.11.lr.ph.i.i
	lsr	x8, x24, #3
	add	x9, x3, x22
	add	x26, sp, #32
	str	x22, [sp]                       // 8-byte Spill
	add	x28, x3, x19
	neg	x27, x3
	sub	x24, x8, #1
	add	x22, x9, #64
Laes_BB12_7:                               // %join.11.i.i
                                        // =>This Inner Loop Header: Depth=1
	ldp	x9, x8, [x20]
	movi	v21.16b, #85
	rev	x8, x8
	adds	x10, x8, x28, lsr #4
	rev	x8, x9
	cinc	x8, x8, hs
	adds	x9, x10, #1
	fmov	d1, x10
	cinc	x11, x8, hs
	adds	x12, x10, #2
	fmov	d3, x9
	cinc	x13, x8, hs
	adds	x14, x10, #3
	fmov	d4, x12
	cinc	x15, x8, hs
	adds	x16, x10, #4
	mov	v1.d[1], x8
	fmov	d0, x16
	cinc	x17, x8, hs
	adds	x0, x10, #5
	cinc	x16, x8, hs
	adds	x1, x10, #6
	fmov	d5, x0
	cinc	x2, x8, hs
	adds	x3, x10, #7
	adrp	x10, l_aes_CPI12_0@PAGE
	mov	v0.d[1], x17
	fmov	d6, x1
	ldr	q2, [x10, l_aes_CPI12_0@PAGEOFF]
	mov	v4.d[1], x13
	mov	v3.d[1], x11
	mov	v5.d[1], x16
	fmov	d7, x14
	tbl	v1.16b, { v1.16b }, v2.16b
	cinc	x8, x8, hs
	mov	v6.d[1], x2
	add	x2, sp, #32
	mov	x0, x23
	tbl	v16.16b, { v0.16b }, v2.16b
	fmov	d0, x3
	mov	x1, x24
	mov	v7.d[1], x15
	tbl	v17.16b, { v4.16b }, v2.16b
	tbl	v18.16b, { v3.16b }, v2.16b
	tbl	v3.16b, { v5.16b }, v2.16b
	mov	v0.d[1], x8
	tbl	v4.16b, { v6.16b }, v2.16b
	ushr	v6.16b, v1.16b, #1
	ushr	v5.16b, v16.16b, #1
	tbl	v7.16b, { v7.16b }, v2.16b
	ushr	v19.16b, v17.16b, #1
	tbl	v20.16b, { v0.16b }, v2.16b
	ushr	v0.16b, v4.16b, #1
	eor	v2.16b, v5.16b, v3.16b
	eor	v5.16b, v18.16b, v6.16b
	eor	v6.16b, v19.16b, v7.16b
	and	v2.16b, v2.16b, v21.16b
	eor	v0.16b, v0.16b, v20.16b
	and	v5.16b, v5.16b, v21.16b
	and	v6.16b, v6.16b, v21.16b
	and	v19.16b, v0.16b, v21.16b
	add	v21.16b, v2.16b, v2.16b
	add	v22.16b, v5.16b, v5.16b
	add	v23.16b, v6.16b, v6.16b
	eor	v0.16b, v2.16b, v3.16b
	eor	v6.16b, v6.16b, v7.16b
	add	v24.16b, v19.16b, v19.16b
	eor	v3.16b, v21.16b, v16.16b
	eor	v2.16b, v22.16b, v1.16b
	eor	v1.16b, v5.16b, v18.16b
	eor	v5.16b, v23.16b, v17.16b
	eor	v16.16b, v19.16b, v20.16b
	ushr	v17.16b, v0.16b, #2
	movi	v20.16b, #51
	movi	v23.16b, #15
	eor	v4.16b, v24.16b, v4.16b
	ushr	v18.16b, v3.16b, #2
	ushr	v19.16b, v2.16b, #2
	ushr	v7.16b, v1.16b, #2
	eor	v17.16b, v17.16b, v16.16b
	eor	v18.16b, v18.16b, v4.16b
	eor	v19.16b, v5.16b, v19.16b
	eor	v7.16b, v6.16b, v7.16b
	and	v17.16b, v17.16b, v20.16b
	and	v18.16b, v18.16b, v20.16b
	and	v19.16b, v19.16b, v20.16b
	and	v7.16b, v7.16b, v20.16b
	eor	v16.16b, v17.16b, v16.16b
	shl	v17.16b, v17.16b, #2
	eor	v4.16b, v18.16b, v4.16b
	eor	v5.16b, v19.16b, v5.16b
	shl	v18.16b, v18.16b, #2
	eor	v6.16b, v7.16b, v6.16b
	shl	v19.16b, v19.16b, #2
	shl	v7.16b, v7.16b, #2
	and	v20.16b, v16.16b, v23.16b
	eor	v0.16b, v17.16b, v0.16b
	and	v21.16b, v4.16b, v23.16b
	ushr	v22.16b, v5.16b, #4
	eor	v3.16b, v18.16b, v3.16b
	ushr	v18.16b, v6.16b, #4
	eor	v2.16b, v19.16b, v2.16b
	eor	v1.16b, v7.16b, v1.16b
	eor	v7.16b, v21.16b, v22.16b
	eor	v17.16b, v20.16b, v18.16b
	and	v18.16b, v3.16b, v23.16b
	ushr	v19.16b, v2.16b, #4
	and	v20.16b, v0.16b, v23.16b
	ushr	v21.16b, v1.16b, #4
	eor	v4.16b, v7.16b, v4.16b
	shl	v22.16b, v7.16b, #4
	eor	v18.16b, v18.16b, v19.16b
	shl	v19.16b, v17.16b, #4
	eor	v20.16b, v20.16b, v21.16b
	str	q4, [sp, #128]
	eor	v5.16b, v22.16b, v5.16b
	shl	v7.16b, v18.16b, #4
	eor	v3.16b, v18.16b, v3.16b
	eor	v6.16b, v19.16b, v6.16b
	shl	v4.16b, v20.16b, #4
	eor	v0.16b, v20.16b, v0.16b
	eor	v2.16b, v7.16b, v2.16b
	stp	q5, q6, [sp, #64]
	eor	v1.16b, v4.16b, v1.16b
	stp	q3, q0, [sp, #96]
	eor	v3.16b, v17.16b, v16.16b
	stp	q2, q1, [sp, #32]
	str	q3, [x26, #112]
	bl	_aes.aes_soft.soft.ciphers.planes.EncryptPlaneCipher.process_planes
	ldp	q0, q3, [sp, #96]
	movi	v20.16b, #85
	ldp	q1, q2, [sp, #32]
	adrp	x8, l_aes_CPI12_1@PAGE
	ldp	q7, q16, [sp, #64]
	sub	x25, x25, #128
	ushr	v6.16b, v0.16b, #1
	ldr	q4, [sp, #128]
	ldr	q19, [x26, #112]
	ushr	v5.16b, v1.16b, #1
	cmp	x25, #127
	add	x28, x28, #128
	ushr	v17.16b, v7.16b, #1
	ushr	v18.16b, v4.16b, #1
	sub	x27, x27, #128
	eor	v6.16b, v3.16b, v6.16b
	eor	v5.16b, v2.16b, v5.16b
	eor	v17.16b, v16.16b, v17.16b
	eor	v18.16b, v19.16b, v18.16b
	and	v6.16b, v6.16b, v20.16b
	and	v5.16b, v5.16b, v20.16b
	and	v17.16b, v17.16b, v20.16b
	and	v18.16b, v18.16b, v20.16b
	add	v21.16b, v6.16b, v6.16b
	eor	v3.16b, v6.16b, v3.16b
	add	v20.16b, v5.16b, v5.16b
	eor	v2.16b, v5.16b, v2.16b
	add	v22.16b, v17.16b, v17.16b
	add	v23.16b, v18.16b, v18.16b
	eor	v18.16b, v18.16b, v19.16b
	eor	v5.16b, v21.16b, v0.16b
	eor	v0.16b, v17.16b, v16.16b
	ushr	v19.16b, v3.16b, #2
	eor	v1.16b, v20.16b, v1.16b
	movi	v20.16b, #51
	eor	v6.16b, v22.16b, v7.16b
	eor	v4.16b, v23.16b, v4.16b
	ushr	v7.16b, v2.16b, #2
	ushr	v17.16b, v5.16b, #2
	eor	v19.16b, v18.16b, v19.16b
	movi	v22.16b, #15
	ushr	v16.16b, v1.16b, #2
	eor	v7.16b, v0.16b, v7.16b
	eor	v17.16b, v4.16b, v17.16b
	and	v19.16b, v19.16b, v20.16b
	eor	v16.16b, v6.16b, v16.16b
	and	v7.16b, v7.16b, v20.16b
	and	v17.16b, v17.16b, v20.16b
	shl	v21.16b, v19.16b, #2
	eor	v18.16b, v19.16b, v18.16b
	and	v16.16b, v16.16b, v20.16b
	shl	v20.16b, v7.16b, #2
	eor	v7.16b, v7.16b, v0.16b
	eor	v4.16b, v17.16b, v4.16b
	shl	v17.16b, v17.16b, #2
	eor	v3.16b, v21.16b, v3.16b
	eor	v6.16b, v16.16b, v6.16b
	shl	v16.16b, v16.16b, #2
	eor	v0.16b, v20.16b, v2.16b
	and	v19.16b, v4.16b, v22.16b
	eor	v5.16b, v17.16b, v5.16b
	and	v17.16b, v18.16b, v22.16b
	ushr	v2.16b, v6.16b, #4
	eor	v1.16b, v16.16b, v1.16b
	ushr	v16.16b, v7.16b, #4
	ushr	v20.16b, v0.16b, #4
	eor	v2.16b, v19.16b, v2.16b
	and	v19.16b, v3.16b, v22.16b
	ushr	v21.16b, v1.16b, #4
	and	v22.16b, v5.16b, v22.16b
	eor	v16.16b, v17.16b, v16.16b
	shl	v17.16b, v2.16b, #4
	eor	v19.16b, v19.16b, v20.16b
	eor	v2.16b, v2.16b, v4.16b
	eor	v20.16b, v22.16b, v21.16b
	shl	v4.16b, v16.16b, #4
	eor	v16.16b, v16.16b, v18.16b
	eor	v6.16b, v17.16b, v6.16b
	ldr	q17, [x8, l_aes_CPI12_1@PAGEOFF]
	shl	v18.16b, v19.16b, #4
	eor	v4.16b, v4.16b, v7.16b
	shl	v7.16b, v20.16b, #4
	eor	v5.16b, v20.16b, v5.16b
	tbl	v2.16b, { v2.16b }, v17.16b
	tbl	v16.16b, { v16.16b }, v17.16b
	eor	v3.16b, v19.16b, v3.16b
	eor	v0.16b, v18.16b, v0.16b
	tbl	v6.16b, { v6.16b }, v17.16b
	eor	v1.16b, v7.16b, v1.16b
	ldp	q18, q7, [x22, #32]
	tbl	v5.16b, { v5.16b }, v17.16b
	tbl	v4.16b, { v4.16b }, v17.16b
	tbl	v3.16b, { v3.16b }, v17.16b
	tbl	v0.16b, { v0.16b }, v17.16b
	eor	v2.16b, v18.16b, v2.16b
	ldp	q19, q18, [x22, #-32]
	eor	v7.16b, v7.16b, v16.16b
	tbl	v1.16b, { v1.16b }, v17.16b
	eor	v6.16b, v6.16b, v19.16b
	ldp	q16, q19, [x22]
	stp	q2, q7, [x22, #32]
	eor	v4.16b, v4.16b, v18.16b
	eor	v2.16b, v5.16b, v16.16b
	ldp	q5, q7, [x22, #-64]
	eor	v3.16b, v19.16b, v3.16b
	stp	q6, q4, [x22, #-32]
	eor	v1.16b, v1.16b, v5.16b
	eor	v0.16b, v0.16b, v7.16b
	stp	q2, q3, [x22]
	stp	q1, q0, [x22, #-64]
	add	x22, x22, #128
	b.hi	Laes_BB12_7
// %bb.8:                               // %loop.13.preheader.i.i.loopexit
	ldr	x22, [sp]                       // 8-byte Reload
	neg	x3, x27
	cmp	x3, x21
	b.lo	Laes_BB12_3
	b	Laes_BB12_4
                                        // -- End function
	.section	__TEXT,__const
	.p2align	4, 0x0                          // -- Begin function aes_ctr::add_in_batches::add_next::<#f3c9f23e0dfa84c8>
l_aes_CPI13_0:
	.byte	0                               // 0x0
	.byte	4                               // 0x4
	.byte	8                               // 0x8
	.byte	12                              // 0xc
	.byte	1                               // 0x1
	.byte	5                               // 0x5
	.byte	9                               // 0x9
	.byte	13                              // 0xd
	.byte	2                               // 0x2
	.byte	6                               // 0x6
	.byte	10                              // 0xa
	.byte	14                              // 0xe
	.byte	3                               // 0x3
	.byte	7                               // 0x7
	.byte	11                              // 0xb
	.byte	15                              // 0xf
l_aes_CPI13_1:
	.byte	0                               // 0x0
	.byte	4                               // 0x4
	.byte	8                               // 0x8
	.byte	19                              // 0x13
	.byte	1                               // 0x1
	.byte	5                               // 0x5
	.byte	9                               // 0x9
	.byte	18                              // 0x12
	.byte	2                               // 0x2
	.byte	6                               // 0x6
	.byte	10                              // 0xa
	.byte	17                              // 0x11
	.byte	3                               // 0x3
	.byte	7                               // 0x7
	.byte	11                              // 0xb
	.byte	16                              // 0x10
l_aes_CPI13_2:
	.byte	15                              // 0xf
	.byte	11                              // 0xb
	.byte	7                               // 0x7
	.byte	3                               // 0x3
	.byte	14                              // 0xe
	.byte	10                              // 0xa
	.byte	6                               // 0x6
	.byte	2                               // 0x2
	.byte	13                              // 0xd
	.byte	9                               // 0x9
	.byte	5                               // 0x5
	.byte	1                               // 0x1
	.byte	12                              // 0xc
	.byte	8                               // 0x8
	.byte	4                               // 0x4
	.byte	0                               // 0x0
	.section	__TEXT,__text,regular,pure_instructions
	.p2align	2
_aes.aes_ctr.add_in_batches.add_next.1: // @_aes.aes_ctr.add_in_batches.add_next.1
// %bb.0:                               // %start
	sub	sp, sp, #464
	add	x8, x3, x2
	ldp	x12, x10, [x1]
	stp	x28, x23, [sp, #416]            // 16-byte Folded Spill
	mov	w9, #128                        // =0x80
	and	x23, x8, #0xf
	sub	x9, x9, x23
	sub	x11, x5, x3
	stp	x22, x21, [sp, #432]            // 16-byte Folded Spill
	cmp	x11, x9
	rev	x10, x10
	movi	v3.2d, #0000000000000000
	csel	x22, x11, x9, lo
	adds	x9, x10, x8, lsr #4
	rev	x8, x12
	cinc	x8, x8, hs
	str	xzr, [sp, #264]
	mov	x21, x5
	adds	x10, x9, #1
	fmov	d5, x9
	stp	x20, x19, [sp, #448]            // 16-byte Folded Spill
	fmov	d1, x10
	cinc	x11, x8, hs
	adds	x10, x9, #2
	fmov	d4, x10
	stur	q3, [sp, #105]
	mov	x20, x4
	mov	v5.d[1], x8
	stur	q3, [sp, #121]
	mov	x19, x3
	mov	v1.d[1], x11
	cinc	x11, x8, hs
	adds	x12, x9, #3
	cinc	x10, x8, hs
	adds	x13, x9, #4
	fmov	d2, x12
	mov	v4.d[1], x11
	cinc	x11, x8, hs
	adds	x14, x9, #5
	cinc	x12, x8, hs
	adds	x15, x9, #6
	fmov	d6, x13
	mov	v2.d[1], x10
	cinc	x10, x8, hs
	adds	x16, x9, #7
	fmov	d7, x14
	fmov	d16, x15
	rev64	v19.16b, v5.16b
	fmov	d5, x16
	cinc	x8, x8, hs
	mov	v6.d[1], x11
	rev64	v17.16b, v4.16b
	rev64	v20.16b, v1.16b
	add	x9, sp, #16
	rev64	v18.16b, v2.16b
	mov	v7.d[1], x12
	mov	v16.d[1], x10
	mov	v5.d[1], x8
	stur	q3, [sp, #137]
	ext	v19.16b, v19.16b, v19.16b, #8
	stur	q3, [x9, #233]
	rev64	v21.16b, v6.16b
	add	x8, x22, x23
	stur	q3, [x9, #217]
	ext	v17.16b, v17.16b, v17.16b, #8
	cmp	x8, #80
	stur	q3, [x9, #201]
	ext	v18.16b, v18.16b, v18.16b, #8
	rev64	v22.16b, v7.16b
	stur	q3, [x9, #185]
	rev64	v23.16b, v16.16b
	stur	q3, [x9, #169]
	ext	v21.16b, v21.16b, v21.16b, #8
	stur	q3, [x9, #153]
	stur	q3, [x9, #137]
	ext	v3.16b, v20.16b, v20.16b, #8
	rev64	v20.16b, v5.16b
	stp	q17, q18, [sp, #48]
	ext	v17.16b, v22.16b, v22.16b, #8
	ext	v18.16b, v23.16b, v23.16b, #8
	stp	x29, x30, [sp, #400]            // 16-byte Folded Spill
	add	x29, sp, #400
	stp	q19, q3, [sp, #16]
	ext	v3.16b, v20.16b, v20.16b, #8
	stp	q21, q17, [sp, #80]
	stp	q18, q3, [sp, #112]
	b.hi	Laes_BB13_6
// %bb.1:                               // %then.1.i.i
	ldr	x9, [x0]
	add	x8, x8, #15
	add	x2, sp, #16
	lsr	x3, x8, #4
	ldp	x0, x1, [x9, #16]
	bl	_aes.aes_permute.blocks.process_on_lanes.1
	add	x9, x20, x19
	cbz	x23, Laes_BB13_7
Laes_BB13_2:                               // %then.1.i
	mov	w8, #16                         // =0x10
	sub	x8, x8, x23
	cmp	x22, x8
	csel	x8, x22, x8, lo
	cmp	x21, x19
	b.eq	Laes_BB13_5
// %bb.3:                               // %join.8.i80.lr.ph
	add	x10, sp, #16
	neg	x11, x8
	add	x12, x20, x19
	orr	x10, x10, x23
Laes_BB13_4:                               // %join.8.i80
                                        // =>This Inner Loop Header: Depth=1
	ldrb	w13, [x10], #1
	ldrb	w14, [x12]
	adds	x11, x11, #1
	eor	w13, w14, w13
	strb	w13, [x12], #1
	b.lo	Laes_BB13_4
Laes_BB13_5:                               // %join.3.i
	sub	x10, x22, x8
	cmp	x10, #16
	b.hs	Laes_BB13_8
	b	Laes_BB13_10
Laes_BB13_6:                               // %else.2.i.i
	adrp	x8, l_aes_CPI13_0@PAGE
	ldp	q3, q0, [sp, #16]
	ldr	q18, [x8, l_aes_CPI13_0@PAGEOFF]
	adrp	x8, l_aes_CPI13_2@PAGE
	movi	v21.16b, #85
	ldr	q17, [x8, l_aes_CPI13_2@PAGEOFF]
	add	x8, x9, #24
	adrp	x9, l_aes_CPI13_1@PAGE
	ld1	{ v0.s }[2], [x8]
	tbl	v3.16b, { v3.16b }, v18.16b
	str	q18, [sp]                       // 16-byte Spill
	tbl	v6.16b, { v6.16b }, v17.16b
	ldr	q18, [x9, l_aes_CPI13_1@PAGEOFF]
	tbl	v4.16b, { v4.16b }, v17.16b
	tbl	v16.16b, { v16.16b }, v17.16b
	tbl	v7.16b, { v7.16b }, v17.16b
	tbl	v19.16b, { v2.16b }, v17.16b
	tbl	v0.16b, { v0.16b, v1.16b }, v18.16b
	tbl	v5.16b, { v5.16b }, v17.16b
	sub	x2, x29, #128
	ushr	v1.16b, v3.16b, #1
	ldp	x0, x8, [x0, #8]
	ushr	v18.16b, v6.16b, #1
	ushr	v2.16b, v4.16b, #1
	ushr	v17.16b, v16.16b, #1
	eor	v1.16b, v0.16b, v1.16b
	lsr	x8, x8, #3
	eor	v18.16b, v18.16b, v7.16b
	eor	v2.16b, v2.16b, v19.16b
	eor	v17.16b, v17.16b, v5.16b
	sub	x1, x8, #1
	and	v1.16b, v1.16b, v21.16b
	and	v18.16b, v18.16b, v21.16b
	and	v20.16b, v2.16b, v21.16b
	and	v17.16b, v17.16b, v21.16b
	add	v2.16b, v1.16b, v1.16b
	eor	v0.16b, v1.16b, v0.16b
	add	v21.16b, v18.16b, v18.16b
	add	v22.16b, v20.16b, v20.16b
	eor	v1.16b, v18.16b, v7.16b
	add	v23.16b, v17.16b, v17.16b
	eor	v5.16b, v17.16b, v5.16b
	eor	v3.16b, v2.16b, v3.16b
	eor	v2.16b, v21.16b, v6.16b
	eor	v6.16b, v20.16b, v19.16b
	eor	v4.16b, v22.16b, v4.16b
	eor	v7.16b, v23.16b, v16.16b
	ushr	v16.16b, v0.16b, #2
	ushr	v17.16b, v1.16b, #2
	ushr	v18.16b, v3.16b, #2
	movi	v20.16b, #51
	movi	v23.16b, #15
	ushr	v19.16b, v2.16b, #2
	eor	v16.16b, v16.16b, v6.16b
	eor	v17.16b, v17.16b, v5.16b
	eor	v18.16b, v18.16b, v4.16b
	eor	v19.16b, v19.16b, v7.16b
	and	v16.16b, v16.16b, v20.16b
	and	v17.16b, v17.16b, v20.16b
	and	v18.16b, v18.16b, v20.16b
	and	v19.16b, v19.16b, v20.16b
	eor	v6.16b, v16.16b, v6.16b
	eor	v5.16b, v17.16b, v5.16b
	shl	v16.16b, v16.16b, #2
	eor	v4.16b, v18.16b, v4.16b
	shl	v18.16b, v18.16b, #2
	shl	v17.16b, v17.16b, #2
	eor	v7.16b, v19.16b, v7.16b
	shl	v19.16b, v19.16b, #2
	ushr	v20.16b, v6.16b, #4
	eor	v0.16b, v16.16b, v0.16b
	ushr	v21.16b, v4.16b, #4
	eor	v3.16b, v18.16b, v3.16b
	and	v18.16b, v5.16b, v23.16b
	and	v22.16b, v7.16b, v23.16b
	eor	v2.16b, v19.16b, v2.16b
	eor	v1.16b, v17.16b, v1.16b
	eor	v17.16b, v20.16b, v18.16b
	ushr	v18.16b, v3.16b, #4
	ushr	v20.16b, v0.16b, #4
	eor	v16.16b, v21.16b, v22.16b
	and	v19.16b, v2.16b, v23.16b
	and	v21.16b, v1.16b, v23.16b
	eor	v5.16b, v17.16b, v5.16b
	eor	v18.16b, v18.16b, v19.16b
	eor	v20.16b, v20.16b, v21.16b
	eor	v7.16b, v16.16b, v7.16b
	shl	v22.16b, v16.16b, #4
	shl	v19.16b, v17.16b, #4
	shl	v16.16b, v18.16b, #4
	stp	q7, q5, [x29, #-32]
	shl	v7.16b, v20.16b, #4
	eor	v4.16b, v22.16b, v4.16b
	eor	v6.16b, v19.16b, v6.16b
	eor	v2.16b, v18.16b, v2.16b
	eor	v1.16b, v20.16b, v1.16b
	eor	v3.16b, v16.16b, v3.16b
	eor	v0.16b, v7.16b, v0.16b
	stp	q4, q6, [x29, #-96]
	stp	q2, q1, [x29, #-64]
	stp	q3, q0, [x29, #-128]
	bl	_aes.aes_soft.soft.ciphers.planes.EncryptPlaneCipher.process_planes
	ldp	q0, q4, [x29, #-64]
	movi	v20.16b, #85
	ldp	q1, q2, [x29, #-128]
	ldp	q3, q16, [x29, #-96]
	ushr	v6.16b, v0.16b, #1
	ldp	q7, q17, [x29, #-32]
	ushr	v5.16b, v1.16b, #1
	ushr	v18.16b, v3.16b, #1
	ushr	v19.16b, v7.16b, #1
	eor	v6.16b, v4.16b, v6.16b
	eor	v5.16b, v2.16b, v5.16b
	eor	v18.16b, v16.16b, v18.16b
	eor	v19.16b, v17.16b, v19.16b
	and	v6.16b, v6.16b, v20.16b
	and	v5.16b, v5.16b, v20.16b
	and	v18.16b, v18.16b, v20.16b
	and	v19.16b, v19.16b, v20.16b
	add	v21.16b, v6.16b, v6.16b
	eor	v4.16b, v6.16b, v4.16b
	add	v20.16b, v5.16b, v5.16b
	eor	v2.16b, v5.16b, v2.16b
	add	v22.16b, v18.16b, v18.16b
	eor	v5.16b, v18.16b, v16.16b
	eor	v0.16b, v21.16b, v0.16b
	eor	v17.16b, v19.16b, v17.16b
	eor	v1.16b, v20.16b, v1.16b
	add	v20.16b, v19.16b, v19.16b
	ushr	v18.16b, v2.16b, #2
	ushr	v19.16b, v4.16b, #2
	eor	v3.16b, v22.16b, v3.16b
	movi	v22.16b, #15
	ushr	v16.16b, v0.16b, #2
	eor	v6.16b, v20.16b, v7.16b
	movi	v20.16b, #51
	eor	v18.16b, v5.16b, v18.16b
	eor	v19.16b, v17.16b, v19.16b
	ushr	v7.16b, v1.16b, #2
	eor	v16.16b, v6.16b, v16.16b
	and	v18.16b, v18.16b, v20.16b
	and	v19.16b, v19.16b, v20.16b
	eor	v7.16b, v3.16b, v7.16b
	and	v16.16b, v16.16b, v20.16b
	eor	v5.16b, v18.16b, v5.16b
	eor	v17.16b, v19.16b, v17.16b
	and	v7.16b, v7.16b, v20.16b
	shl	v18.16b, v18.16b, #2
	shl	v19.16b, v19.16b, #2
	eor	v6.16b, v16.16b, v6.16b
	shl	v16.16b, v16.16b, #2
	ushr	v21.16b, v5.16b, #4
	eor	v3.16b, v7.16b, v3.16b
	shl	v7.16b, v7.16b, #2
	eor	v2.16b, v18.16b, v2.16b
	eor	v4.16b, v19.16b, v4.16b
	eor	v0.16b, v16.16b, v0.16b
	and	v16.16b, v17.16b, v22.16b
	and	v20.16b, v6.16b, v22.16b
	eor	v1.16b, v7.16b, v1.16b
	ushr	v7.16b, v3.16b, #4
	eor	v16.16b, v16.16b, v21.16b
	movi	v21.16b, #15
	and	v19.16b, v0.16b, v22.16b
	eor	v7.16b, v20.16b, v7.16b
	ushr	v18.16b, v1.16b, #4
	ushr	v20.16b, v2.16b, #4
	and	v21.16b, v4.16b, v21.16b
	shl	v22.16b, v7.16b, #4
	eor	v18.16b, v19.16b, v18.16b
	shl	v19.16b, v16.16b, #4
	eor	v6.16b, v7.16b, v6.16b
	eor	v7.16b, v16.16b, v17.16b
	eor	v20.16b, v21.16b, v20.16b
	eor	v3.16b, v22.16b, v3.16b
	eor	v0.16b, v18.16b, v0.16b
	eor	v5.16b, v19.16b, v5.16b
	shl	v19.16b, v18.16b, #4
	eor	v4.16b, v20.16b, v4.16b
	shl	v18.16b, v20.16b, #4
	ldr	q20, [sp]                       // 16-byte Reload
	eor	v1.16b, v19.16b, v1.16b
	tbl	v3.16b, { v3.16b }, v20.16b
	tbl	v5.16b, { v5.16b }, v20.16b
	tbl	v0.16b, { v0.16b }, v20.16b
	tbl	v4.16b, { v4.16b }, v20.16b
	eor	v2.16b, v18.16b, v2.16b
	tbl	v1.16b, { v1.16b }, v20.16b
	stp	q3, q5, [sp, #48]
	tbl	v2.16b, { v2.16b }, v20.16b
	tbl	v3.16b, { v6.16b }, v20.16b
	stp	q0, q4, [sp, #80]
	tbl	v0.16b, { v7.16b }, v20.16b
	stp	q1, q2, [sp, #16]
	stp	q3, q0, [sp, #112]
	add	x9, x20, x19
	cbnz	x23, Laes_BB13_2
Laes_BB13_7:
	mov	x8, xzr
	sub	x10, x22, xzr
	cmp	x10, #16
	b.lo	Laes_BB13_10
Laes_BB13_8:                               // %join.8.i.preheader
	add	x11, x8, x23
Laes_BB13_9:                               // %join.8.i
                                        // =>This Inner Loop Header: Depth=1
	and	x12, x11, #0xfffffffffffffff0
	add	x13, sp, #16
	ldr	q0, [x9, x8]
	ldr	q1, [x13, x12]
	sub	x10, x10, #16
	add	x11, x11, #16
	cmp	x10, #15
	eor	v0.16b, v1.16b, v0.16b
	str	q0, [x9, x8]
	add	x8, x8, #16
	b.hi	Laes_BB13_9
Laes_BB13_10:                              // %after.4.i
	cmp	x8, x22
	b.hs	Laes_BB13_19
// %bb.11:                              // %then.9.i
	cbz	x10, Laes_BB13_19
// %bb.12:                              // %iter.check
	add	x11, x8, x23
	cmp	x10, #8
	and	x11, x11, #0xfffffffffffffff0
	b.hs	Laes_BB13_14
// %bb.13:
	mov	x9, xzr
	b	Laes_BB13_17
Laes_BB13_14:                              // %vec.epilog.ph
	add	x12, sp, #16
	add	x13, x9, x8
	and	x9, x10, #0x8
	add	x12, x12, x11
	and	x14, x10, #0x8
Laes_BB13_15:                              // %vec.epilog.vector.body
                                        // =>This Inner Loop Header: Depth=1
	ldr	d0, [x12], #8
	ldr	d1, [x13]
	subs	x14, x14, #8
	eor	v0.8b, v1.8b, v0.8b
	str	d0, [x13], #8
	b.ne	Laes_BB13_15
// %bb.16:                              // %vec.epilog.middle.block
	cmp	x10, x9
	b.eq	Laes_BB13_19
Laes_BB13_17:                              // %join.8.i23.preheader
	add	x11, x9, x11
	add	x12, sp, #16
	add	x13, x8, x9
	add	x14, x20, x19
	add	x8, x12, x11
	sub	x9, x10, x9
	add	x11, x14, x13
Laes_BB13_18:                              // %join.8.i23
                                        // =>This Inner Loop Header: Depth=1
	ldrb	w10, [x8], #1
	ldrb	w12, [x11]
	subs	x9, x9, #1
	eor	w10, w12, w10
	strb	w10, [x11], #1
	b.ne	Laes_BB13_18
Laes_BB13_19:                              // %"aes_ctr::add_blocks::add_blocks.exit"
	add	x0, x22, x19
	ldp	x20, x19, [sp, #448]            // 16-byte Folded Reload
	ldp	x22, x21, [sp, #432]            // 16-byte Folded Reload
	ldp	x28, x23, [sp, #416]            // 16-byte Folded Reload
	ldp	x29, x30, [sp, #400]            // 16-byte Folded Reload
	add	sp, sp, #464
	ret
                                        // -- End function
	.section	__TEXT,__text,regular,pure_instructions
	.p2align	2                               // -- Begin function aes_cipher::zeroize::stack::wipe_stack::<=2032>
_aes.aes_cipher.zeroize.stack.wipe_stack.2032: // @_aes.aes_cipher.zeroize.stack.wipe_stack.2032
// %bb.0:                               // %start
	stp	x29, x30, [sp, #-32]!           // 16-byte Folded Spill
	stp	x28, x19, [sp, #16]             // 16-byte Folded Spill
	mov	x29, sp
	sub	sp, sp, #2048
	add	x0, sp, #16
	mov	w1, wzr
	mov	w2, #2032                       // =0x7f0
	str	xzr, [sp]
	add	x19, sp, #16
	adrp	x16, _memset@GOTPAGE
	ldr	x16, [x16, _memset@GOTPAGEOFF]
	blr	x16
	str	xzr, [sp, #8]
	add	x8, sp, #8
	//APP
	//NO_APP
	ldar	x8, [x8]
	//APP
	//NO_APP
	cmp	x8, #2032
	b.hs	Laes_BB14_4
// %bb.1:                               // %then.1
	ldrb	w8, [x19, x8]
	//APP
	//NO_APP
Laes_BB14_2:                               // %atomicrmw.start
                                        // =>This Inner Loop Header: Depth=1
	add	x9, sp, #8
	ldaxr	xzr, [x9]
	stlxr	w10, x8, [x9]
	cbnz	w10, Laes_BB14_2
// %bb.3:                               // %atomicrmw.end
	//APP
	//NO_APP
Laes_BB14_4:                               // %common.ret
	add	sp, sp, #2048
	ldp	x28, x19, [sp, #16]             // 16-byte Folded Reload
	ldp	x29, x30, [sp], #32             // 16-byte Folded Reload
	ret
                                        // -- End function
	.section	__TEXT,__text,regular,pure_instructions
	.p2align	2                               // -- Begin function aes_ctr::add_in_batches::add_next::<#2d16df7ebc44f3ac>
_aes.aes_ctr.add_in_batches.add_next.2: // @_aes.aes_ctr.add_in_batches.add_next.2
// %bb.0:                               // %start
	sub	sp, sp, #320
	add	x8, x3, x2
	ldp	x12, x10, [x1]
	stp	x28, x23, [sp, #272]            // 16-byte Folded Spill
	mov	w9, #64                         // =0x40
	and	x23, x8, #0xf
	sub	x11, x5, x3
	sub	x9, x9, x23
	stp	x22, x21, [sp, #288]            // 16-byte Folded Spill
	rev	x10, x10
	cmp	x11, x9
	movi	v0.2d, #0000000000000000
	csel	x22, x11, x9, lo
	adds	x8, x10, x8, lsr #4
	rev	x9, x12
	cinc	x9, x9, hs
	stp	x20, x19, [sp, #304]            // 16-byte Folded Spill
	mov	x19, x3
	adds	x10, x8, #1
	fmov	d2, x8
	mov	x2, sp
	cinc	x11, x9, hs
	fmov	d1, x10
	adds	x10, x8, #2
	cinc	x12, x9, hs
	adds	x13, x8, #3
	fmov	d3, x10
	fmov	d4, x13
	cinc	x8, x9, hs
	mov	v2.d[1], x9
	mov	v1.d[1], x11
	stp	q0, q0, [sp, #64]
	mov	x21, x5
	mov	v3.d[1], x12
	stp	q0, q0, [sp, #96]
	mov	x20, x4
	mov	v4.d[1], x8
	add	x8, x23, x22
	stp	q0, q0, [sp, #128]
	rev64	v2.16b, v2.16b
	add	x8, x8, #15
	stp	q0, q0, [sp, #160]
	rev64	v1.16b, v1.16b
	stp	q0, q0, [sp, #192]
	lsr	x3, x8, #4
	rev64	v3.16b, v3.16b
	stp	q0, q0, [sp, #224]
	rev64	v4.16b, v4.16b
	ldp	x8, x1, [x0, #16]
	ext	v2.16b, v2.16b, v2.16b, #8
	stp	x29, x30, [sp, #256]            // 16-byte Folded Spill
	add	x29, sp, #256
	ext	v1.16b, v1.16b, v1.16b, #8
	ext	v3.16b, v3.16b, v3.16b, #8
	mov	x0, x8
	ext	v0.16b, v4.16b, v4.16b, #8
	stp	q2, q1, [sp]
	stp	q3, q0, [sp, #32]
	bl	_aes.aes_permute.blocks.process_on_lanes.1
	add	x9, x20, x19
	cbz	x23, Laes_BB15_5
// %bb.1:                               // %then.1.i
	mov	w8, #16                         // =0x10
	sub	x8, x8, x23
	cmp	x22, x8
	csel	x8, x22, x8, lo
	cmp	x21, x19
	b.eq	Laes_BB15_4
// %bb.2:                               // %join.8.i80.lr.ph
	mov	x10, sp
	neg	x11, x8
	add	x12, x20, x19
	orr	x10, x10, x23
Laes_BB15_3:                               // %join.8.i80
                                        // =>This Inner Loop Header: Depth=1
	ldrb	w13, [x10], #1
	ldrb	w14, [x12]
	adds	x11, x11, #1
	eor	w13, w14, w13
	strb	w13, [x12], #1
	b.lo	Laes_BB15_3
Laes_BB15_4:                               // %join.3.i
	sub	x10, x22, x8
	cmp	x10, #16
	b.hs	Laes_BB15_6
	b	Laes_BB15_8
Laes_BB15_5:
	mov	x8, xzr
	sub	x10, x22, xzr
	cmp	x10, #16
	b.lo	Laes_BB15_8
Laes_BB15_6:                               // %join.8.i.preheader
	add	x11, x8, x23
Laes_BB15_7:                               // %join.8.i
                                        // =>This Inner Loop Header: Depth=1
	and	x12, x11, #0xfffffffffffffff0
	mov	x13, sp
	ldr	q0, [x9, x8]
	ldr	q1, [x13, x12]
	sub	x10, x10, #16
	add	x11, x11, #16
	cmp	x10, #15
	eor	v0.16b, v1.16b, v0.16b
	str	q0, [x9, x8]
	add	x8, x8, #16
	b.hi	Laes_BB15_7
Laes_BB15_8:                               // %after.4.i
	cmp	x8, x22
	b.hs	Laes_BB15_17
// %bb.9:                               // %then.9.i
	cbz	x10, Laes_BB15_17
// %bb.10:                              // %iter.check
	add	x11, x8, x23
	cmp	x10, #8
	and	x11, x11, #0xfffffffffffffff0
	b.hs	Laes_BB15_12
// %bb.11:
	mov	x9, xzr
	b	Laes_BB15_15
Laes_BB15_12:                              // %vec.epilog.ph
	mov	x12, sp
	add	x13, x9, x8
	and	x9, x10, #0x8
	add	x12, x12, x11
	and	x14, x10, #0x8
Laes_BB15_13:                              // %vec.epilog.vector.body
                                        // =>This Inner Loop Header: Depth=1
	ldr	d0, [x12], #8
	ldr	d1, [x13]
	subs	x14, x14, #8
	eor	v0.8b, v1.8b, v0.8b
	str	d0, [x13], #8
	b.ne	Laes_BB15_13
// %bb.14:                              // %vec.epilog.middle.block
	cmp	x10, x9
	b.eq	Laes_BB15_17
Laes_BB15_15:                              // %join.8.i23.preheader
	add	x11, x9, x11
	mov	x12, sp
	add	x13, x8, x9
	add	x14, x20, x19
	add	x8, x12, x11
	sub	x9, x10, x9
	add	x11, x14, x13
Laes_BB15_16:                              // %join.8.i23
                                        // =>This Inner Loop Header: Depth=1
	ldrb	w10, [x8], #1
	ldrb	w12, [x11]
	subs	x9, x9, #1
	eor	w10, w12, w10
	strb	w10, [x11], #1
	b.ne	Laes_BB15_16
Laes_BB15_17:                              // %"aes_ctr::add_blocks::add_blocks.exit"
	add	x0, x22, x19
	ldp	x20, x19, [sp, #304]            // 16-byte Folded Reload
	ldp	x22, x21, [sp, #288]            // 16-byte Folded Reload
	ldp	x28, x23, [sp, #272]            // 16-byte Folded Reload
	ldp	x29, x30, [sp, #256]            // 16-byte Folded Reload
	add	sp, sp, #320
	ret
                                        // -- End function
	.section	__TEXT,__text,regular,pure_instructions
	.p2align	2                               // -- Begin function aes_cipher::zeroize::elements::zeroize_elements::<#530874d131791bfe>
_aes.aes_cipher.zeroize.elements.zeroize_elements.1: // @_aes.aes_cipher.zeroize.elements.zeroize_elements.1
// %bb.0:                               // %start
	sub	sp, sp, #32
	stp	xzr, xzr, [sp, #16]
	add	x8, sp, #8
	str	xzr, [sp, #8]
	//APP
	//NO_APP
	ldar	x9, [x8]
	//APP
	//NO_APP
	lsl	x8, x9, #4
	cmp	x9, #14
	b.hi	Laes_BB16_2
// %bb.1:                               // %then.1.i6
	ldrb	w10, [x0, x8]
	b	Laes_BB16_3
Laes_BB16_2:
	mov	w10, wzr
Laes_BB16_3:                               // %"aes_cipher::zeroize::observe::<#3f54e6b29a41109e>.exit10"
	ldr	q0, [sp, #16]
	cmp	x9, #14
	stp	q0, q0, [x0]
	stp	q0, q0, [x0, #32]
	stp	q0, q0, [x0, #64]
	stp	q0, q0, [x0, #96]
	stp	q0, q0, [x0, #128]
	stp	q0, q0, [x0, #160]
	stp	q0, q0, [x0, #192]
	str	q0, [x0, #224]
	b.hi	Laes_BB16_5
// %bb.4:                               // %then.1.i
	ldrb	w8, [x0, x8]
	and	w8, w8, w10
	b	Laes_BB16_6
Laes_BB16_5:
	mov	x8, xzr
Laes_BB16_6:                               // %"aes_cipher::zeroize::observe::<#3f54e6b29a41109e>.exit"
	//APP
	//NO_APP
Laes_BB16_7:                               // %atomicrmw.start
                                        // =>This Inner Loop Header: Depth=1
	add	x9, sp, #8
	ldaxr	xzr, [x9]
	stlxr	w10, x8, [x9]
	cbnz	w10, Laes_BB16_7
// %bb.8:                               // %atomicrmw.end
	//APP
	//NO_APP
	add	sp, sp, #32
	movi	v0.2d, #0000000000000000
	movi	v1.2d, #0000000000000000
	movi	v2.2d, #0000000000000000
	movi	v3.2d, #0000000000000000
	movi	v4.2d, #0000000000000000
	movi	v5.2d, #0000000000000000
	movi	v6.2d, #0000000000000000
	movi	v7.2d, #0000000000000000
	movi	v16.2d, #0000000000000000
	movi	v17.2d, #0000000000000000
	movi	v18.2d, #0000000000000000
	movi	v19.2d, #0000000000000000
	movi	v20.2d, #0000000000000000
	movi	v21.2d, #0000000000000000
	movi	v22.2d, #0000000000000000
	movi	v23.2d, #0000000000000000
	movi	v24.2d, #0000000000000000
	movi	v25.2d, #0000000000000000
	movi	v26.2d, #0000000000000000
	movi	v27.2d, #0000000000000000
	movi	v28.2d, #0000000000000000
	movi	v29.2d, #0000000000000000
	movi	v30.2d, #0000000000000000
	movi	v31.2d, #0000000000000000
	fmov	d8, d8
	fmov	d9, d9
	fmov	d10, d10
	fmov	d11, d11
	fmov	d12, d12
	fmov	d13, d13
	fmov	d14, d14
	fmov	d15, d15
	mov	x1, xzr
	mov	x2, xzr
	mov	x3, xzr
	mov	x4, xzr
	mov	x5, xzr
	mov	x6, xzr
	mov	x7, xzr
	mov	x8, xzr
	mov	x9, xzr
	mov	x10, xzr
	mov	x11, xzr
	mov	x12, xzr
	mov	x13, xzr
	mov	x14, xzr
	mov	x15, xzr
	mov	x16, xzr
	mov	x17, xzr
	ret
                                        // -- End function
	.section	__TEXT,__text,regular,pure_instructions
	.p2align	2                               // -- Begin function cmac::tags::tag::<#ef80964e0b8d42c0>
_aes.cmac.tags.tag: // @_aes.cmac.tags.tag
// %bb.0:                               // %start
	sub	sp, sp, #96
	cmp	x3, #0
	str	x23, [sp, #48]                  // 8-byte Spill
	cset	w8, ne
	stp	x22, x21, [sp, #64]             // 16-byte Folded Spill
	mov	x21, x1
	sub	x8, x3, x8
	stp	x20, x19, [sp, #80]             // 16-byte Folded Spill
	mov	x19, x3
	and	x23, x8, #0xfffffffffffffff0
	mov	x22, x0
	mov	x1, sp
	mov	x0, x21
	mov	x3, x23
	stp	x29, x30, [sp, #32]             // 16-byte Folded Spill
	add	x29, sp, #32
	mov	x20, x2
	stp	xzr, xzr, [sp, #16]
	stp	xzr, xzr, [sp]
	bl	_aes.cmac.chaining.chain
	ldp	x1, x2, [x21, #16]
	sub	x5, x19, x23
	add	x0, sp, #16
	mov	x3, sp
	add	x4, x20, x23
	bl	_aes.cmac.tags.tag_at_end
	ldr	q0, [sp, #16]
	ldp	x20, x19, [sp, #80]             // 16-byte Folded Reload
	ldp	x29, x30, [sp, #32]             // 16-byte Folded Reload
	ldr	x23, [sp, #48]                  // 8-byte Reload
	str	q0, [x22]
	ldp	x22, x21, [sp, #64]             // 16-byte Folded Reload
	add	sp, sp, #96
	ret
                                        // -- End function
	.section	__TEXT,__const
	.p2align	4, 0x0                          // -- Begin function cmac::chaining::chain::<#ef80964e0b8d42c0>
l_aes_CPI18_0:
	.byte	0                               // 0x0
	.byte	1                               // 0x1
	.byte	28                              // 0x1c
	.byte	29                              // 0x1d
	.byte	45                              // 0x2d
	.byte	44                              // 0x2c
	.byte	49                              // 0x31
	.byte	48                              // 0x30
	.byte	39                              // 0x27
	.byte	38                              // 0x26
	.byte	59                              // 0x3b
	.byte	58                              // 0x3a
	.byte	10                              // 0xa
	.byte	11                              // 0xb
	.byte	22                              // 0x16
	.byte	23                              // 0x17
l_aes_CPI18_1:
	.byte	0                               // 0x0
	.byte	134                             // 0x86
	.byte	253                             // 0xfd
	.byte	123                             // 0x7b
	.byte	142                             // 0x8e
	.byte	8                               // 0x8
	.byte	115                             // 0x73
	.byte	245                             // 0xf5
	.byte	119                             // 0x77
	.byte	241                             // 0xf1
	.byte	138                             // 0x8a
	.byte	12                              // 0xc
	.byte	249                             // 0xf9
	.byte	127                             // 0x7f
	.byte	4                               // 0x4
	.byte	130                             // 0x82
l_aes_CPI18_2:
	.byte	128                             // 0x80
	.byte	2                               // 0x2
	.byte	1                               // 0x1
	.byte	15                              // 0xf
	.byte	9                               // 0x9
	.byte	5                               // 0x5
	.byte	14                              // 0xe
	.byte	12                              // 0xc
	.byte	13                              // 0xd
	.byte	4                               // 0x4
	.byte	11                              // 0xb
	.byte	10                              // 0xa
	.byte	7                               // 0x7
	.byte	8                               // 0x8
	.byte	6                               // 0x6
	.byte	3                               // 0x3
l_aes_CPI18_3:
	.byte	128                             // 0x80
	.byte	1                               // 0x1
	.byte	9                               // 0x9
	.byte	14                              // 0xe
	.byte	13                              // 0xd
	.byte	11                              // 0xb
	.byte	7                               // 0x7
	.byte	6                               // 0x6
	.byte	15                              // 0xf
	.byte	2                               // 0x2
	.byte	12                              // 0xc
	.byte	5                               // 0x5
	.byte	10                              // 0xa
	.byte	4                               // 0x4
	.byte	3                               // 0x3
	.byte	8                               // 0x8
l_aes_CPI18_4:
	.byte	0                               // 0x0
	.byte	195                             // 0xc3
	.byte	79                              // 0x4f
	.byte	12                              // 0xc
	.byte	252                             // 0xfc
	.byte	124                             // 0x7c
	.byte	67                              // 0x43
	.byte	128                             // 0x80
	.byte	207                             // 0xcf
	.byte	51                              // 0x33
	.byte	63                              // 0x3f
	.byte	112                             // 0x70
	.byte	191                             // 0xbf
	.byte	179                             // 0xb3
	.byte	240                             // 0xf0
	.byte	140                             // 0x8c
l_aes_CPI18_5:
	.byte	0                               // 0x0
	.byte	230                             // 0xe6
	.byte	114                             // 0x72
	.byte	183                             // 0xb7
	.byte	229                             // 0xe5
	.byte	198                             // 0xc6
	.byte	197                             // 0xc5
	.byte	35                              // 0x23
	.byte	81                              // 0x51
	.byte	180                             // 0xb4
	.byte	3                               // 0x3
	.byte	113                             // 0x71
	.byte	32                              // 0x20
	.byte	151                             // 0x97
	.byte	82                              // 0x52
	.byte	148                             // 0x94
l_aes_CPI18_6:
	.byte	0                               // 0x0
	.byte	124                             // 0x7c
	.byte	32                              // 0x20
	.byte	207                             // 0xcf
	.byte	146                             // 0x92
	.byte	1                               // 0x1
	.byte	239                             // 0xef
	.byte	147                             // 0x93
	.byte	179                             // 0xb3
	.byte	33                              // 0x21
	.byte	238                             // 0xee
	.byte	206                             // 0xce
	.byte	125                             // 0x7d
	.byte	178                             // 0xb2
	.byte	93                              // 0x5d
	.byte	92                              // 0x5c
l_aes_CPI18_7:
	.byte	0                               // 0x0
	.byte	209                             // 0xd1
	.byte	229                             // 0xe5
	.byte	247                             // 0xf7
	.byte	230                             // 0xe6
	.byte	37                              // 0x25
	.byte	18                              // 0x12
	.byte	195                             // 0xc3
	.byte	38                              // 0x26
	.byte	192                             // 0xc0
	.byte	55                              // 0x37
	.byte	210                             // 0xd2
	.byte	244                             // 0xf4
	.byte	3                               // 0x3
	.byte	17                              // 0x11
	.byte	52                              // 0x34
l_aes_CPI18_8:
	.byte	0                               // 0x0
	.byte	203                             // 0xcb
	.byte	215                             // 0xd7
	.byte	176                             // 0xb0
	.byte	33                              // 0x21
	.byte	141                             // 0x8d
	.byte	103                             // 0x67
	.byte	172                             // 0xac
	.byte	123                             // 0x7b
	.byte	90                              // 0x5a
	.byte	234                             // 0xea
	.byte	61                              // 0x3d
	.byte	70                              // 0x46
	.byte	246                             // 0xf6
	.byte	145                             // 0x91
	.byte	28                              // 0x1c
l_aes_CPI18_9:
	.byte	0                               // 0x0
	.byte	159                             // 0x9f
	.byte	97                              // 0x61
	.byte	22                              // 0x16
	.byte	194                             // 0xc2
	.byte	42                              // 0x2a
	.byte	119                             // 0x77
	.byte	232                             // 0xe8
	.byte	137                             // 0x89
	.byte	75                              // 0x4b
	.byte	93                              // 0x5d
	.byte	60                              // 0x3c
	.byte	181                             // 0xb5
	.byte	163                             // 0xa3
	.byte	212                             // 0xd4
	.byte	254                             // 0xfe
	.section	__TEXT,__text,regular,pure_instructions
	.p2align	2
_aes.cmac.chaining.chain: // @_aes.cmac.chaining.chain
// %bb.0:                               // %start
	sub	sp, sp, #96
	lsr	x8, x3, #4
	tst	x3, #0xf
	stp	x24, x23, [sp, #48]             // 16-byte Folded Spill
	stp	x29, x30, [sp, #32]             // 16-byte Folded Spill
	add	x29, sp, #32
	cinc	x23, x8, ne
	stp	x22, x21, [sp, #64]             // 16-byte Folded Spill
	stp	x20, x19, [sp, #80]             // 16-byte Folded Spill
	cbz	x3, Laes_BB18_6
// %bb.1:                               // %join.5.lr.ph
	ldr	q0, [x1]
	mov	x19, x3
	mov	x20, x2
	mov	x21, x1
	mov	x22, x0
	mov	x24, xzr
	b	Laes_BB18_3
Laes_BB18_2:                               // %"cmac::chaining::chain_block::<#ef80964e0b8d42c0>.exit"
                                        //   in Loop: Header=BB18_3 Depth=1
	ushr	v2.16b, v1.16b, #4
	and	v0.16b, v1.16b, v0.16b
	ldr	q3, [x11, l_aes_CPI18_2@PAGEOFF]
	ldr	q4, [x10, l_aes_CPI18_3@PAGEOFF]
	adrp	x10, l_aes_CPI18_8@PAGE
	adrp	x11, l_aes_CPI18_9@PAGE
	lsl	x9, x9, #4
	add	x24, x24, #1
	eor	v1.16b, v2.16b, v0.16b
	tbl	v0.16b, { v3.16b }, v0.16b
	tbl	v3.16b, { v4.16b }, v2.16b
	cmp	x24, x23
	tbl	v5.16b, { v4.16b }, v1.16b
	eor	v3.16b, v3.16b, v0.16b
	eor	v0.16b, v5.16b, v0.16b
	tbl	v3.16b, { v4.16b }, v3.16b
	tbl	v0.16b, { v4.16b }, v0.16b
	eor	v1.16b, v3.16b, v1.16b
	ldr	q3, [x11, l_aes_CPI18_9@PAGEOFF]
	adrp	x11, l_aes_static.3@PAGE
	add	x11, x11, l_aes_static.3@PAGEOFF
	eor	v0.16b, v0.16b, v2.16b
	ldr	q2, [x10, l_aes_CPI18_8@PAGEOFF]
	and	x10, x9, #0x30
	tbl	v1.16b, { v2.16b }, v1.16b
	tbl	v0.16b, { v3.16b }, v0.16b
	eor	v0.16b, v0.16b, v1.16b
	ldr	q1, [x11, x10]
	tbl	v0.16b, { v0.16b }, v1.16b
	ldr	q1, [x8, x9]
	eor	v0.16b, v0.16b, v1.16b
	str	q0, [x21]
	b.eq	Laes_BB18_6
Laes_BB18_3:                               // %join.5
                                        // =>This Loop Header: Depth=1
                                        //     Child Loop BB18_5 Depth 2
	lsl	x8, x24, #4
	add	x0, sp, #16
	str	q0, [sp]                        // 16-byte Spill
	stp	xzr, xzr, [sp, #16]
	add	x9, x8, #16
	add	x1, x20, x8
	cmp	x9, x19
	csel	x9, x9, x19, lo
	sub	x2, x9, x8
	adrp	x16, _memcpy@GOTPAGE
	ldr	x16, [x16, _memcpy@GOTPAGEOFF]
	blr	x16
	ldp	q1, q0, [sp]                    // 16-byte Folded Reload
	adrp	x9, l_aes_CPI18_0@PAGE
	adrp	x10, l_aes_CPI18_1@PAGE
	ldr	q3, [x9, l_aes_CPI18_0@PAGEOFF]
	adrp	x11, l_aes_CPI18_2@PAGE
	ldr	q4, [x10, l_aes_CPI18_1@PAGEOFF]
	adrp	x10, l_aes_CPI18_3@PAGE
	eor	v1.16b, v0.16b, v1.16b
	movi	v0.16b, #15
	str	q1, [x21]
	ldp	x8, x12, [x22, #16]
	ldr	q2, [x8]
	sub	x9, x12, #1
	cmp	x9, #2
	eor	v1.16b, v2.16b, v1.16b
	and	v2.16b, v1.16b, v0.16b
	ushr	v1.16b, v1.16b, #4
	tbl	v2.16b, { v3.16b }, v2.16b
	tbl	v1.16b, { v4.16b }, v1.16b
	eor	v1.16b, v1.16b, v2.16b
	b.lo	Laes_BB18_2
// %bb.4:                               // %join.5.i.i.i.preheader
                                        //   in Loop: Header=BB18_3 Depth=1
	sub	x12, x12, #2
	mov	w13, #16                        // =0x10
Laes_BB18_5:                               // %join.5.i.i.i
                                        //   Parent Loop BB18_3 Depth=1
                                        // =>  This Inner Loop Header: Depth=2
	movi	v2.16b, #15
	ushr	v3.16b, v1.16b, #4
	ldr	q4, [x11, l_aes_CPI18_2@PAGEOFF]
	ldr	q5, [x10, l_aes_CPI18_3@PAGEOFF]
	adrp	x14, l_aes_CPI18_4@PAGE
	adrp	x15, l_aes_CPI18_5@PAGE
	subs	x12, x12, #1
	tbl	v6.16b, { v5.16b }, v3.16b
	and	v1.16b, v1.16b, v2.16b
	eor	v2.16b, v3.16b, v1.16b
	tbl	v1.16b, { v4.16b }, v1.16b
	tbl	v4.16b, { v5.16b }, v2.16b
	eor	v6.16b, v6.16b, v1.16b
	eor	v1.16b, v4.16b, v1.16b
	tbl	v4.16b, { v5.16b }, v6.16b
	tbl	v1.16b, { v5.16b }, v1.16b
	eor	v2.16b, v4.16b, v2.16b
	ldr	q4, [x15, l_aes_CPI18_5@PAGEOFF]
	adrp	x15, l_aes_CPI18_7@PAGE
	ldr	q6, [x15, l_aes_CPI18_7@PAGEOFF]
	adrp	x15, l_aes_static.4@PAGE
	add	x15, x15, l_aes_static.4@PAGEOFF
	eor	v1.16b, v1.16b, v3.16b
	ldr	q3, [x14, l_aes_CPI18_4@PAGEOFF]
	adrp	x14, l_aes_CPI18_6@PAGE
	ldr	q5, [x14, l_aes_CPI18_6@PAGEOFF]
	and	x14, x13, #0x30
	tbl	v3.16b, { v3.16b }, v2.16b
	tbl	v4.16b, { v4.16b }, v1.16b
	tbl	v2.16b, { v5.16b }, v2.16b
	tbl	v1.16b, { v6.16b }, v1.16b
	eor	v3.16b, v4.16b, v3.16b
	ldr	q4, [x15, x14]
	adrp	x15, l_aes_static.5@PAGE
	add	x15, x15, l_aes_static.5@PAGEOFF
	eor	v1.16b, v1.16b, v2.16b
	ldr	q5, [x15, x14]
	tbl	v6.16b, { v3.16b }, v4.16b
	tbl	v2.16b, { v3.16b }, v5.16b
	ldr	q3, [x8, x13]
	add	x13, x13, #16
	eor	v1.16b, v1.16b, v6.16b
	eor	v2.16b, v3.16b, v2.16b
	tbl	v3.16b, { v1.16b }, v4.16b
	eor	v1.16b, v2.16b, v1.16b
	eor	v1.16b, v3.16b, v1.16b
	b.ne	Laes_BB18_5
	b	Laes_BB18_2
Laes_BB18_6:                               // %after.1
	ldp	x20, x19, [sp, #80]             // 16-byte Folded Reload
	ldp	x22, x21, [sp, #64]             // 16-byte Folded Reload
	ldp	x24, x23, [sp, #48]             // 16-byte Folded Reload
	ldp	x29, x30, [sp, #32]             // 16-byte Folded Reload
	add	sp, sp, #96
	ret
                                        // -- End function
	.section	__TEXT,__const
	.p2align	4, 0x0                          // -- Begin function cmac::tags::tag_at_end::<#ef80964e0b8d42c0>
l_aes_CPI19_0:
	.byte	0                               // 0x0
	.byte	1                               // 0x1
	.byte	28                              // 0x1c
	.byte	29                              // 0x1d
	.byte	45                              // 0x2d
	.byte	44                              // 0x2c
	.byte	49                              // 0x31
	.byte	48                              // 0x30
	.byte	39                              // 0x27
	.byte	38                              // 0x26
	.byte	59                              // 0x3b
	.byte	58                              // 0x3a
	.byte	10                              // 0xa
	.byte	11                              // 0xb
	.byte	22                              // 0x16
	.byte	23                              // 0x17
l_aes_CPI19_1:
	.byte	0                               // 0x0
	.byte	134                             // 0x86
	.byte	253                             // 0xfd
	.byte	123                             // 0x7b
	.byte	142                             // 0x8e
	.byte	8                               // 0x8
	.byte	115                             // 0x73
	.byte	245                             // 0xf5
	.byte	119                             // 0x77
	.byte	241                             // 0xf1
	.byte	138                             // 0x8a
	.byte	12                              // 0xc
	.byte	249                             // 0xf9
	.byte	127                             // 0x7f
	.byte	4                               // 0x4
	.byte	130                             // 0x82
l_aes_CPI19_2:
	.byte	128                             // 0x80
	.byte	2                               // 0x2
	.byte	1                               // 0x1
	.byte	15                              // 0xf
	.byte	9                               // 0x9
	.byte	5                               // 0x5
	.byte	14                              // 0xe
	.byte	12                              // 0xc
	.byte	13                              // 0xd
	.byte	4                               // 0x4
	.byte	11                              // 0xb
	.byte	10                              // 0xa
	.byte	7                               // 0x7
	.byte	8                               // 0x8
	.byte	6                               // 0x6
	.byte	3                               // 0x3
l_aes_CPI19_3:
	.byte	128                             // 0x80
	.byte	1                               // 0x1
	.byte	9                               // 0x9
	.byte	14                              // 0xe
	.byte	13                              // 0xd
	.byte	11                              // 0xb
	.byte	7                               // 0x7
	.byte	6                               // 0x6
	.byte	15                              // 0xf
	.byte	2                               // 0x2
	.byte	12                              // 0xc
	.byte	5                               // 0x5
	.byte	10                              // 0xa
	.byte	4                               // 0x4
	.byte	3                               // 0x3
	.byte	8                               // 0x8
l_aes_CPI19_4:
	.byte	0                               // 0x0
	.byte	195                             // 0xc3
	.byte	79                              // 0x4f
	.byte	12                              // 0xc
	.byte	252                             // 0xfc
	.byte	124                             // 0x7c
	.byte	67                              // 0x43
	.byte	128                             // 0x80
	.byte	207                             // 0xcf
	.byte	51                              // 0x33
	.byte	63                              // 0x3f
	.byte	112                             // 0x70
	.byte	191                             // 0xbf
	.byte	179                             // 0xb3
	.byte	240                             // 0xf0
	.byte	140                             // 0x8c
l_aes_CPI19_5:
	.byte	0                               // 0x0
	.byte	230                             // 0xe6
	.byte	114                             // 0x72
	.byte	183                             // 0xb7
	.byte	229                             // 0xe5
	.byte	198                             // 0xc6
	.byte	197                             // 0xc5
	.byte	35                              // 0x23
	.byte	81                              // 0x51
	.byte	180                             // 0xb4
	.byte	3                               // 0x3
	.byte	113                             // 0x71
	.byte	32                              // 0x20
	.byte	151                             // 0x97
	.byte	82                              // 0x52
	.byte	148                             // 0x94
l_aes_CPI19_6:
	.byte	0                               // 0x0
	.byte	124                             // 0x7c
	.byte	32                              // 0x20
	.byte	207                             // 0xcf
	.byte	146                             // 0x92
	.byte	1                               // 0x1
	.byte	239                             // 0xef
	.byte	147                             // 0x93
	.byte	179                             // 0xb3
	.byte	33                              // 0x21
	.byte	238                             // 0xee
	.byte	206                             // 0xce
	.byte	125                             // 0x7d
	.byte	178                             // 0xb2
	.byte	93                              // 0x5d
	.byte	92                              // 0x5c
l_aes_CPI19_7:
	.byte	0                               // 0x0
	.byte	209                             // 0xd1
	.byte	229                             // 0xe5
	.byte	247                             // 0xf7
	.byte	230                             // 0xe6
	.byte	37                              // 0x25
	.byte	18                              // 0x12
	.byte	195                             // 0xc3
	.byte	38                              // 0x26
	.byte	192                             // 0xc0
	.byte	55                              // 0x37
	.byte	210                             // 0xd2
	.byte	244                             // 0xf4
	.byte	3                               // 0x3
	.byte	17                              // 0x11
	.byte	52                              // 0x34
l_aes_CPI19_8:
	.byte	0                               // 0x0
	.byte	203                             // 0xcb
	.byte	215                             // 0xd7
	.byte	176                             // 0xb0
	.byte	33                              // 0x21
	.byte	141                             // 0x8d
	.byte	103                             // 0x67
	.byte	172                             // 0xac
	.byte	123                             // 0x7b
	.byte	90                              // 0x5a
	.byte	234                             // 0xea
	.byte	61                              // 0x3d
	.byte	70                              // 0x46
	.byte	246                             // 0xf6
	.byte	145                             // 0x91
	.byte	28                              // 0x1c
l_aes_CPI19_9:
	.byte	0                               // 0x0
	.byte	159                             // 0x9f
	.byte	97                              // 0x61
	.byte	22                              // 0x16
	.byte	194                             // 0xc2
	.byte	42                              // 0x2a
	.byte	119                             // 0x77
	.byte	232                             // 0xe8
	.byte	137                             // 0x89
	.byte	75                              // 0x4b
	.byte	93                              // 0x5d
	.byte	60                              // 0x3c
	.byte	181                             // 0xb5
	.byte	163                             // 0xa3
	.byte	212                             // 0xd4
	.byte	254                             // 0xfe
l_aes_CPI19_10:
	.xword	24                              // 0x18
	.xword	16                              // 0x10
l_aes_CPI19_11:
	.xword	56                              // 0x38
	.xword	48                              // 0x30
l_aes_CPI19_12:
	.xword	8                               // 0x8
	.xword	0                               // 0x0
l_aes_CPI19_13:
	.xword	40                              // 0x28
	.xword	32                              // 0x20
l_aes_CPI19_14:
	.xword	-48                             // 0xffffffffffffffd0
	.xword	-56                             // 0xffffffffffffffc8
l_aes_CPI19_15:
	.xword	-32                             // 0xffffffffffffffe0
	.xword	-40                             // 0xffffffffffffffd8
	.section	__TEXT,__text,regular,pure_instructions
	.p2align	2
_aes.cmac.tags.tag_at_end: // @_aes.cmac.tags.tag_at_end
// %bb.0:                               // %start
	sub	sp, sp, #336
	movi	v0.16b, #15
	ldr	q2, [x1]
	stp	x29, x30, [sp, #240]            // 16-byte Folded Spill
	add	x29, sp, #240
	adrp	x8, l_aes_CPI19_0@PAGE
	adrp	x9, l_aes_CPI19_1@PAGE
	ushr	v1.16b, v2.16b, #4
	stur	q2, [x29, #-80]                 // 16-byte Folded Spill
	ldr	q3, [x8, l_aes_CPI19_0@PAGEOFF]
	ldr	q4, [x9, l_aes_CPI19_1@PAGEOFF]
	sub	x13, x2, #1
	stp	x28, x27, [sp, #256]            // 16-byte Folded Spill
	and	v2.16b, v2.16b, v0.16b
	stp	x26, x25, [sp, #272]            // 16-byte Folded Spill
	adrp	x8, l_aes_CPI19_2@PAGE
	tbl	v1.16b, { v4.16b }, v1.16b
	stp	x24, x23, [sp, #288]            // 16-byte Folded Spill
	mov	x23, x5
	stp	x20, x19, [sp, #320]            // 16-byte Folded Spill
	mov	x20, x1
	cmp	x13, #2
	tbl	v2.16b, { v3.16b }, v2.16b
	adrp	x9, l_aes_CPI19_3@PAGE
	adrp	x24, l_aes_CPI19_4@PAGE
	adrp	x25, l_aes_CPI19_5@PAGE
	adrp	x26, l_aes_CPI19_6@PAGE
	adrp	x27, l_aes_static.4@PAGE
	add	x27, x27, l_aes_static.4@PAGEOFF
	adrp	x28, l_aes_CPI19_7@PAGE
	adrp	x19, l_aes_static.5@PAGE
	add	x19, x19, l_aes_static.5@PAGEOFF
	stp	x22, x21, [sp, #304]            // 16-byte Folded Spill
	eor	v1.16b, v1.16b, v2.16b
	stp	x3, x2, [x29, #-56]             // 16-byte Folded Spill
	stur	x0, [x29, #-40]                 // 8-byte Folded Spill
	stp	q4, q3, [x29, #-112]            // 32-byte Folded Spill
	b.lo	Laes_BB19_3
// %bb.1:                               // %join.5.i.i.i.i.preheader
	sub	x10, x2, #2
	mov	w11, #16                        // =0x10
Laes_BB19_2:                               // %join.5.i.i.i.i
                                        // =>This Inner Loop Header: Depth=1
	movi	v2.16b, #15
	ushr	v3.16b, v1.16b, #4
	ldr	q4, [x8, l_aes_CPI19_2@PAGEOFF]
	ldr	q5, [x9, l_aes_CPI19_3@PAGEOFF]
	and	x12, x11, #0x30
	subs	x10, x10, #1
	tbl	v6.16b, { v5.16b }, v3.16b
	and	v1.16b, v1.16b, v2.16b
	eor	v2.16b, v3.16b, v1.16b
	tbl	v1.16b, { v4.16b }, v1.16b
	tbl	v4.16b, { v5.16b }, v2.16b
	eor	v6.16b, v6.16b, v1.16b
	eor	v1.16b, v4.16b, v1.16b
	tbl	v4.16b, { v5.16b }, v6.16b
	ldr	q6, [x28, l_aes_CPI19_7@PAGEOFF]
	tbl	v1.16b, { v5.16b }, v1.16b
	ldr	q5, [x26, l_aes_CPI19_6@PAGEOFF]
	eor	v2.16b, v4.16b, v2.16b
	ldr	q4, [x25, l_aes_CPI19_5@PAGEOFF]
	eor	v1.16b, v1.16b, v3.16b
	ldr	q3, [x24, l_aes_CPI19_4@PAGEOFF]
	tbl	v3.16b, { v3.16b }, v2.16b
	tbl	v2.16b, { v5.16b }, v2.16b
	ldr	q5, [x19, x12]
	tbl	v4.16b, { v4.16b }, v1.16b
	tbl	v1.16b, { v6.16b }, v1.16b
	eor	v3.16b, v4.16b, v3.16b
	ldr	q4, [x27, x12]
	eor	v1.16b, v1.16b, v2.16b
	tbl	v6.16b, { v3.16b }, v4.16b
	tbl	v2.16b, { v3.16b }, v5.16b
	ldr	q3, [x20, x11]
	add	x11, x11, #16
	eor	v1.16b, v1.16b, v6.16b
	eor	v2.16b, v3.16b, v2.16b
	tbl	v3.16b, { v1.16b }, v4.16b
	eor	v1.16b, v2.16b, v1.16b
	eor	v1.16b, v3.16b, v1.16b
	b.ne	Laes_BB19_2
Laes_BB19_3:                               // %"cmac::subkeys::subkeys::<#ef80964e0b8d42c0>.exit.i"
	ushr	v2.16b, v1.16b, #4
	and	v0.16b, v1.16b, v0.16b
	ldr	q3, [x8, l_aes_CPI19_2@PAGEOFF]
	ldr	q5, [x9, l_aes_CPI19_3@PAGEOFF]
	adrp	x8, l_aes_CPI19_8@PAGE
	adrp	x9, l_aes_CPI19_9@PAGE
	adrp	x10, l_aes_static.3@PAGE
	add	x10, x10, l_aes_static.3@PAGEOFF
	str	x13, [sp, #120]                 // 8-byte Spill
	eor	v1.16b, v2.16b, v0.16b
	stp	q3, q5, [sp, #80]               // 32-byte Folded Spill
	tbl	v0.16b, { v3.16b }, v0.16b
	tbl	v3.16b, { v5.16b }, v2.16b
	mov	w15, #135                       // =0x87
	sub	x0, x29, #32
	mov	x1, x4
	mov	x2, x23
	stp	xzr, xzr, [x29, #-32]
	tbl	v4.16b, { v5.16b }, v1.16b
	eor	v3.16b, v3.16b, v0.16b
	eor	v0.16b, v4.16b, v0.16b
	tbl	v3.16b, { v5.16b }, v3.16b
	tbl	v0.16b, { v5.16b }, v0.16b
	eor	v1.16b, v3.16b, v1.16b
	ldr	q3, [x9, l_aes_CPI19_9@PAGEOFF]
	eor	v0.16b, v0.16b, v2.16b
	ldr	q2, [x8, l_aes_CPI19_8@PAGEOFF]
	lsl	x8, x13, #4
	tbl	v1.16b, { v2.16b }, v1.16b
	and	x9, x8, #0x30
	stp	q3, q2, [sp, #48]               // 32-byte Folded Spill
	tbl	v0.16b, { v3.16b }, v0.16b
	eor	v0.16b, v0.16b, v1.16b
	ldr	q1, [x10, x9]
	str	q1, [sp, #32]                   // 16-byte Spill
	tbl	v0.16b, { v0.16b }, v1.16b
	ldr	q1, [x20, x8]
	str	q1, [sp, #16]                   // 16-byte Spill
	eor	v0.16b, v0.16b, v1.16b
	mov	x8, v0.d[1]
	fmov	x13, d0
	rev	x13, x13
	rev	x8, x8
	and	x15, x15, x13, asr #63
	lsl	x9, x8, #1
	extr	x8, x13, x8, #63
	fmov	d1, x9
	eor	x9, x15, x9
	fmov	d0, x9
	umov	w10, v1.b[6]
	umov	w11, v1.b[4]
	umov	w12, v1.b[7]
	umov	w14, v1.b[2]
	umov	w16, v1.b[5]
	umov	w17, v1.b[3]
	mov	v0.d[1], x8
	bfi	x12, x10, #8, #8
	lsl	w10, w11, #24
	umov	w11, v1.b[1]
	lsl	x13, x14, #40
	lsl	x14, x9, #56
	orr	x9, x12, x10
	str	q0, [sp]                        // 16-byte Spill
	bfi	x9, x16, #16, #8
	orr	x8, x13, x17, lsl #32
	orr	x10, x14, x11, lsl #48
	orr	x21, x9, x8
	orr	x22, x21, x10
	adrp	x16, _memcpy@GOTPAGE
	ldr	x16, [x16, _memcpy@GOTPAGEOFF]
	blr	x16
	cmp	x23, #16
	b.ne	Laes_BB19_5
// %bb.4:                               // %then.1.i
	dup	v0.2d, x21
	adrp	x8, l_aes_CPI19_15@PAGE
	ldr	q3, [sp]                        // 16-byte Reload
	ldr	q1, [x8, l_aes_CPI19_15@PAGEOFF]
	adrp	x8, l_aes_CPI19_14@PAGE
	ldr	q2, [x8, l_aes_CPI19_14@PAGEOFF]
	rev64	v3.16b, v3.16b
	ushl	v0.2d, v0.2d, v1.2d
	dup	v1.2d, x22
	xtn	v0.2s, v0.2d
	ushl	v1.2d, v1.2d, v2.2d
	ext	v2.16b, v3.16b, v3.16b, #8
	xtn	v1.2s, v1.2d
	mov	v0.b[1], v0.b[4]
	mov	v1.b[1], v1.b[4]
	mov	v2.h[6], v0.h[0]
	ldur	q0, [x29, #-32]
	mov	v2.h[7], v1.h[0]
	eor	v1.16b, v0.16b, v2.16b
	b	Laes_BB19_6
Laes_BB19_5:                               // %else.2.i
	ldr	q0, [sp]                        // 16-byte Reload
	adrp	x8, l_aes_CPI19_10@PAGE
	adrp	x9, l_aes_CPI19_11@PAGE
	adrp	x10, l_aes_CPI19_12@PAGE
	ldr	q2, [x8, l_aes_CPI19_10@PAGEOFF]
	adrp	x8, l_aes_CPI19_13@PAGE
	ushll2	v0.8h, v0.16b, #0
	ldr	q5, [x9, l_aes_CPI19_11@PAGEOFF]
	ldr	q6, [x10, l_aes_CPI19_12@PAGEOFF]
	ldr	q7, [x8, l_aes_CPI19_13@PAGEOFF]
	mov	w9, #135                        // =0x87
	rev	x10, x22
	ushll2	v1.4s, v0.8h, #0
	ushll	v0.4s, v0.4h, #0
	ushll	v3.2d, v1.2s, #0
	ushll2	v4.2d, v0.4s, #0
	ushll2	v1.2d, v1.4s, #0
	ushll	v0.2d, v0.2s, #0
	ushl	v2.2d, v3.2d, v2.2d
	ushl	v1.2d, v1.2d, v6.2d
	ushl	v3.2d, v4.2d, v7.2d
	ushl	v0.2d, v0.2d, v5.2d
	orr	v1.16b, v3.16b, v1.16b
	orr	v0.16b, v0.16b, v2.16b
	orr	v0.16b, v0.16b, v1.16b
	ext	v1.16b, v0.16b, v0.16b, #8
	orr	v0.8b, v0.8b, v1.8b
	fmov	x8, d0
	rev	x8, x8
	and	x9, x9, x8, asr #63
	extr	x8, x8, x10, #63
	eor	x9, x9, x10, lsl #1
	fmov	d0, x9
	sub	x9, x29, #32
	mov	v0.d[1], x8
	mov	w8, #128                        // =0x80
	strb	w8, [x9, x23]
	ldur	q1, [x29, #-32]
	rev64	v0.16b, v0.16b
	ext	v0.16b, v0.16b, v0.16b, #8
	eor	v1.16b, v1.16b, v0.16b
Laes_BB19_6:                               // %"cmac::tags::last_block::<#ef80964e0b8d42c0>.exit"
	ldur	x8, [x29, #-56]                 // 8-byte Folded Reload
	ldp	q3, q2, [x29, #-96]             // 32-byte Folded Reload
	ldp	q16, q7, [sp, #80]              // 32-byte Folded Reload
	ldr	q0, [x8]
	ldr	x8, [sp, #120]                  // 8-byte Reload
	eor	v2.16b, v0.16b, v2.16b
	movi	v0.16b, #15
	cmp	x8, #2
	ldur	x8, [x29, #-48]                 // 8-byte Folded Reload
	eor	v1.16b, v1.16b, v2.16b
	and	v2.16b, v1.16b, v0.16b
	ushr	v1.16b, v1.16b, #4
	tbl	v2.16b, { v3.16b }, v2.16b
	ldur	q3, [x29, #-112]                // 16-byte Folded Reload
	tbl	v1.16b, { v3.16b }, v1.16b
	eor	v1.16b, v1.16b, v2.16b
	b.lo	Laes_BB19_9
// %bb.7:                               // %join.5.i.i.preheader
	sub	x8, x8, #2
	mov	w9, #16                         // =0x10
Laes_BB19_8:                               // %join.5.i.i
                                        // =>This Inner Loop Header: Depth=1
	movi	v2.16b, #15
	ushr	v3.16b, v1.16b, #4
	ldr	q6, [x28, l_aes_CPI19_7@PAGEOFF]
	and	x10, x9, #0x30
	subs	x8, x8, #1
	tbl	v4.16b, { v7.16b }, v3.16b
	and	v1.16b, v1.16b, v2.16b
	eor	v2.16b, v3.16b, v1.16b
	tbl	v1.16b, { v16.16b }, v1.16b
	tbl	v5.16b, { v7.16b }, v2.16b
	eor	v4.16b, v4.16b, v1.16b
	eor	v1.16b, v5.16b, v1.16b
	tbl	v4.16b, { v7.16b }, v4.16b
	ldr	q5, [x26, l_aes_CPI19_6@PAGEOFF]
	tbl	v1.16b, { v7.16b }, v1.16b
	eor	v2.16b, v4.16b, v2.16b
	ldr	q4, [x25, l_aes_CPI19_5@PAGEOFF]
	eor	v1.16b, v1.16b, v3.16b
	ldr	q3, [x24, l_aes_CPI19_4@PAGEOFF]
	tbl	v3.16b, { v3.16b }, v2.16b
	tbl	v2.16b, { v5.16b }, v2.16b
	ldr	q5, [x19, x10]
	tbl	v4.16b, { v4.16b }, v1.16b
	tbl	v1.16b, { v6.16b }, v1.16b
	eor	v3.16b, v4.16b, v3.16b
	ldr	q4, [x27, x10]
	eor	v1.16b, v1.16b, v2.16b
	tbl	v6.16b, { v3.16b }, v4.16b
	tbl	v2.16b, { v3.16b }, v5.16b
	ldr	q3, [x20, x9]
	add	x9, x9, #16
	eor	v1.16b, v1.16b, v6.16b
	eor	v2.16b, v3.16b, v2.16b
	tbl	v3.16b, { v1.16b }, v4.16b
	eor	v1.16b, v2.16b, v1.16b
	eor	v1.16b, v3.16b, v1.16b
	b.ne	Laes_BB19_8
Laes_BB19_9:                               // %"aes_permute::blocks::process_block::<#aedbc4fd156a355d>.exit"
	ushr	v2.16b, v1.16b, #4
	and	v0.16b, v1.16b, v0.16b
	ldur	x8, [x29, #-40]                 // 8-byte Folded Reload
	ldp	x20, x19, [sp, #320]            // 16-byte Folded Reload
	ldp	x22, x21, [sp, #304]            // 16-byte Folded Reload
	eor	v1.16b, v2.16b, v0.16b
	tbl	v0.16b, { v16.16b }, v0.16b
	tbl	v3.16b, { v7.16b }, v2.16b
	ldp	x24, x23, [sp, #288]            // 16-byte Folded Reload
	ldp	x26, x25, [sp, #272]            // 16-byte Folded Reload
	tbl	v4.16b, { v7.16b }, v1.16b
	ldp	x28, x27, [sp, #256]            // 16-byte Folded Reload
	eor	v3.16b, v3.16b, v0.16b
	ldp	x29, x30, [sp, #240]            // 16-byte Folded Reload
	eor	v0.16b, v4.16b, v0.16b
	tbl	v3.16b, { v7.16b }, v3.16b
	tbl	v0.16b, { v7.16b }, v0.16b
	eor	v1.16b, v3.16b, v1.16b
	eor	v0.16b, v0.16b, v2.16b
	ldr	q2, [sp, #64]                   // 16-byte Reload
	tbl	v1.16b, { v2.16b }, v1.16b
	ldr	q2, [sp, #48]                   // 16-byte Reload
	tbl	v0.16b, { v2.16b }, v0.16b
	eor	v0.16b, v0.16b, v1.16b
	ldr	q1, [sp, #32]                   // 16-byte Reload
	tbl	v0.16b, { v0.16b }, v1.16b
	ldr	q1, [sp, #16]                   // 16-byte Reload
	eor	v0.16b, v0.16b, v1.16b
	str	q0, [x8]
	add	sp, sp, #336
	ret
                                        // -- End function
	.section	__TEXT,__text,regular,pure_instructions
	.p2align	2                               // -- Begin function aes_cipher::zeroize::stack::wipe_stack::<=768>
_aes.aes_cipher.zeroize.stack.wipe_stack.768: // @_aes.aes_cipher.zeroize.stack.wipe_stack.768
// %bb.0:                               // %start
	stp	x29, x30, [sp, #-32]!           // 16-byte Folded Spill
	stp	x28, x19, [sp, #16]             // 16-byte Folded Spill
	mov	x29, sp
	sub	sp, sp, #784
	add	x0, sp, #16
	mov	w1, wzr
	mov	w2, #768                        // =0x300
	add	x19, sp, #16
	adrp	x16, _memset@GOTPAGE
	ldr	x16, [x16, _memset@GOTPAGEOFF]
	blr	x16
	str	xzr, [sp, #8]
	add	x8, sp, #8
	//APP
	//NO_APP
	ldar	x8, [x8]
	//APP
	//NO_APP
	cmp	x8, #768
	b.hs	Laes_BB20_4
// %bb.1:                               // %then.1
	ldrb	w8, [x19, x8]
	//APP
	//NO_APP
Laes_BB20_2:                               // %atomicrmw.start
                                        // =>This Inner Loop Header: Depth=1
	add	x9, sp, #8
	ldaxr	xzr, [x9]
	stlxr	w10, x8, [x9]
	cbnz	w10, Laes_BB20_2
// %bb.3:                               // %atomicrmw.end
	//APP
	//NO_APP
Laes_BB20_4:                               // %common.ret
	add	sp, sp, #784
	ldp	x28, x19, [sp, #16]             // 16-byte Folded Reload
	ldp	x29, x30, [sp], #32             // 16-byte Folded Reload
	ret
                                        // -- End function
	.section	__TEXT,__text,regular,pure_instructions
	.p2align	2                               // -- Begin function cmac::pieces::MessageZeroize::zeroize
_aes.cmac.pieces.MessageZeroize.zeroize: // @_aes.cmac.pieces.MessageZeroize.zeroize
// %bb.0:                               // %start
	stp	x29, x30, [sp, #-32]!           // 16-byte Folded Spill
	str	x19, [sp, #16]                  // 8-byte Spill
	mov	x29, sp
	mov	x19, x0
	stp	xzr, xzr, [x0], #16
	bl	_aes.aes_cipher.zeroize.elements.zeroize_elements.2
	add	x0, x19, #32
	ldr	x19, [sp, #16]                  // 8-byte Reload
	ldp	x29, x30, [sp], #32             // 16-byte Folded Reload
	b	_aes.aes_cipher.zeroize.elements.zeroize_elements.2
                                        // -- End function
	.section	__TEXT,__text,regular,pure_instructions
	.p2align	2                               // -- Begin function aes_cipher::zeroize::elements::zeroize_elements::<#331496ca003a3905>
_aes.aes_cipher.zeroize.elements.zeroize_elements.2: // @_aes.aes_cipher.zeroize.elements.zeroize_elements.2
// %bb.0:                               // %start
	sub	sp, sp, #32
	stp	xzr, xzr, [sp, #16]
	add	x8, sp, #8
	str	xzr, [sp, #8]
	//APP
	//NO_APP
	ldar	x8, [x8]
	//APP
	//NO_APP
	cbz	x8, Laes_BB22_2
// %bb.1:                               // %"aes_cipher::zeroize::observe::<#38c92a2c69ae69e8>.exit8"
	ldr	q0, [sp, #16]
	mov	x8, xzr
	str	q0, [x0]
	b	Laes_BB22_3
Laes_BB22_2:                               // %then.1.i
	ldr	q0, [sp, #16]
	ldrb	w8, [x0]
	str	q0, [x0]
	ldrb	w9, [x0]
	and	w8, w9, w8
	and	x8, x8, #0xff
Laes_BB22_3:                               // %"aes_cipher::zeroize::observe::<#38c92a2c69ae69e8>.exit"
	//APP
	//NO_APP
Laes_BB22_4:                               // %atomicrmw.start
                                        // =>This Inner Loop Header: Depth=1
	add	x9, sp, #8
	ldaxr	xzr, [x9]
	stlxr	w10, x8, [x9]
	cbnz	w10, Laes_BB22_4
// %bb.5:                               // %atomicrmw.end
	//APP
	//NO_APP
	add	sp, sp, #32
	movi	v0.2d, #0000000000000000
	movi	v1.2d, #0000000000000000
	movi	v2.2d, #0000000000000000
	movi	v3.2d, #0000000000000000
	movi	v4.2d, #0000000000000000
	movi	v5.2d, #0000000000000000
	movi	v6.2d, #0000000000000000
	movi	v7.2d, #0000000000000000
	movi	v16.2d, #0000000000000000
	movi	v17.2d, #0000000000000000
	movi	v18.2d, #0000000000000000
	movi	v19.2d, #0000000000000000
	movi	v20.2d, #0000000000000000
	movi	v21.2d, #0000000000000000
	movi	v22.2d, #0000000000000000
	movi	v23.2d, #0000000000000000
	movi	v24.2d, #0000000000000000
	movi	v25.2d, #0000000000000000
	movi	v26.2d, #0000000000000000
	movi	v27.2d, #0000000000000000
	movi	v28.2d, #0000000000000000
	movi	v29.2d, #0000000000000000
	movi	v30.2d, #0000000000000000
	movi	v31.2d, #0000000000000000
	fmov	d8, d8
	fmov	d9, d9
	fmov	d10, d10
	fmov	d11, d11
	fmov	d12, d12
	fmov	d13, d13
	fmov	d14, d14
	fmov	d15, d15
	mov	x1, xzr
	mov	x2, xzr
	mov	x3, xzr
	mov	x4, xzr
	mov	x5, xzr
	mov	x6, xzr
	mov	x7, xzr
	mov	x8, xzr
	mov	x9, xzr
	mov	x10, xzr
	mov	x11, xzr
	mov	x12, xzr
	mov	x13, xzr
	mov	x14, xzr
	mov	x15, xzr
	mov	x16, xzr
	mov	x17, xzr
	ret
                                        // -- End function
	.section	__TEXT,__text,regular,pure_instructions
	.p2align	2                               // -- Begin function cmac::chain_in_pieces::ChainInPieces::extend::<#ef80964e0b8d42c0>
_aes.cmac.chain_in_pieces.ChainInPieces.extend: // @_aes.cmac.chain_in_pieces.ChainInPieces.extend
// %bb.0:                               // %start
	stp	x29, x30, [sp, #-96]!           // 16-byte Folded Spill
	ldr	x8, [x0]
	mov	w9, #16                         // =0x10
	stp	x28, x27, [sp, #16]             // 16-byte Folded Spill
	stp	x22, x21, [sp, #64]             // 16-byte Folded Spill
	mov	x21, x2
	mov	x22, x3
	cmp	x8, #16
	stp	x20, x19, [sp, #80]             // 16-byte Folded Spill
	mov	x19, x0
	csel	x27, x8, x9, lo
	stp	x26, x25, [sp, #32]             // 16-byte Folded Spill
	mov	x29, sp
	sub	x2, x9, x27
	stp	x24, x23, [sp, #48]             // 16-byte Folded Spill
	subs	x28, x3, x2
	b.ls	Laes_BB23_4
// %bb.1:                               // %join.3
	add	x20, x19, #24
	mov	x24, x1
	add	x25, x21, x2
	add	x9, x20, x27
	sub	x10, x9, x21
	cmp	x10, x2
	b.hs	Laes_BB23_10
// %bb.2:                               // %iter.check75
	cbz	x8, Laes_BB23_12
// %bb.3:
	mov	x8, x21
	mov	x10, x27
	b	Laes_BB23_13
Laes_BB23_4:                               // %then.1
	add	x8, x19, x27
	add	x20, x27, x22
	add	x0, x8, #24
	sub	x8, x0, x21
	cmp	x8, x22
	b.hs	Laes_BB23_11
// %bb.5:                               // %iter.check
	cmp	x22, #8
	b.lo	Laes_BB23_7
// %bb.6:                               // %vector.memcheck
	add	x8, x27, x19
	sub	x8, x8, x21
	add	x8, x8, #24
	cmp	x8, #32
	b.hs	Laes_BB23_23
Laes_BB23_7:
	mov	x8, xzr
Laes_BB23_8:                               // %join.7.i.i.i.i.i.i.preheader
	add	x9, x8, x27
	add	x10, x9, x19
	sub	x9, x22, x8
	add	x8, x21, x8
	add	x10, x10, #24
Laes_BB23_9:                               // %join.7.i.i.i.i.i.i
                                        // =>This Inner Loop Header: Depth=1
	ldrb	w11, [x8], #1
	subs	x9, x9, #1
	strb	w11, [x10], #1
	b.ne	Laes_BB23_9
	b	Laes_BB23_22
Laes_BB23_10:                              // %apart.2.i.i.i.i.i.i28
	add	x0, x20, x27
	mov	x1, x21
	adrp	x16, _memmove@GOTPAGE
	ldr	x16, [x16, _memmove@GOTPAGEOFF]
	blr	x16
	b	Laes_BB23_14
Laes_BB23_11:                              // %apart.2.i.i.i.i.i.i
	mov	x1, x21
	mov	x2, x22
	b	Laes_BB23_21
Laes_BB23_12:                              // %vector.memcheck69
	sub	x8, x19, x21
	mov	x10, x27
	add	x8, x8, #24
	cmp	x8, #32
	mov	x8, x21
	b.hs	Laes_BB23_27
Laes_BB23_13:                              // %join.7.i.i.i.i.i.i29
                                        // =>This Inner Loop Header: Depth=1
	ldrb	w9, [x8], #1
	strb	w9, [x20, x10]
	add	x10, x10, #1
	cmp	x10, #16
	b.ne	Laes_BB23_13
Laes_BB23_14:                              // %"core::slice::edits::slice+T::copy_from_slice::<i8,20'core::clone::U8Clone{}>.exit36"
	sub	x8, x28, #1
	add	x1, x19, #8
	add	x2, x19, #24
	and	x23, x8, #0xfffffffffffffff0
	mov	x0, x24
	mov	w3, #16                         // =0x10
	add	x26, x25, x23
	bl	_aes.cmac.chaining.chain
	add	x1, x19, #8
	mov	x0, x24
	mov	x2, x25
	mov	x3, x23
	bl	_aes.cmac.chaining.chain
	sub	x8, x20, x26
	sub	x20, x28, x23
	cmp	x8, x20
	b.hs	Laes_BB23_20
// %bb.15:                              // %iter.check103
	cmp	x20, #8
	b.lo	Laes_BB23_17
// %bb.16:                              // %vector.memcheck97
	add	x8, x27, x19
	sub	x8, x8, x21
	sub	x8, x8, x23
	add	x8, x8, #8
	cmp	x8, #32
	b.hs	Laes_BB23_25
Laes_BB23_17:
	mov	x8, xzr
Laes_BB23_18:                              // %join.7.i.i.i.i.i.i47.preheader
	add	x9, x22, x27
	add	x10, x8, x23
	add	x11, x8, x19
	sub	x9, x9, x8
	sub	x10, x10, x27
	sub	x9, x9, x23
	add	x10, x10, x21
	sub	x8, x9, #16
	add	x9, x10, #16
	add	x10, x11, #24
Laes_BB23_19:                              // %join.7.i.i.i.i.i.i47
                                        // =>This Inner Loop Header: Depth=1
	ldrb	w11, [x9], #1
	subs	x8, x8, #1
	strb	w11, [x10], #1
	b.ne	Laes_BB23_19
	b	Laes_BB23_22
Laes_BB23_20:                              // %apart.2.i.i.i.i.i.i46
	add	x0, x19, #24
	mov	x1, x26
	mov	x2, x20
Laes_BB23_21:                              // %common.ret
	adrp	x16, _memmove@GOTPAGE
	ldr	x16, [x16, _memmove@GOTPAGEOFF]
	blr	x16
Laes_BB23_22:                              // %common.ret
	str	x20, [x19]
	ldp	x20, x19, [sp, #80]             // 16-byte Folded Reload
	ldp	x22, x21, [sp, #64]             // 16-byte Folded Reload
	ldp	x24, x23, [sp, #48]             // 16-byte Folded Reload
	ldp	x26, x25, [sp, #32]             // 16-byte Folded Reload
	ldp	x28, x27, [sp, #16]             // 16-byte Folded Reload
	ldp	x29, x30, [sp], #96             // 16-byte Folded Reload
	ret
Laes_BB23_23:                              // %vector.main.loop.iter.check
	cmp	x22, #32
	b.hs	Laes_BB23_28
// %bb.24:
	mov	x8, xzr
	b	Laes_BB23_32
Laes_BB23_25:                              // %vector.main.loop.iter.check105
	cmp	x20, #32
	b.hs	Laes_BB23_35
// %bb.26:
	mov	x8, xzr
	b	Laes_BB23_39
Laes_BB23_27:                              // %vec.epilog.vector.body92
	ldr	q0, [x21]
	str	q0, [x9]
	b	Laes_BB23_14
Laes_BB23_28:                              // %vector.ph
	add	x11, x27, x19
	and	x9, x22, #0x18
	and	x8, x22, #0xffffffffffffffe0
	add	x10, x21, #16
	add	x11, x11, #40
	and	x12, x22, #0xffffffffffffffe0
Laes_BB23_29:                              // %vector.body
                                        // =>This Inner Loop Header: Depth=1
	ldp	q0, q1, [x10, #-16]
	subs	x12, x12, #32
	add	x10, x10, #32
	stp	q0, q1, [x11, #-16]
	add	x11, x11, #32
	b.ne	Laes_BB23_29
// %bb.30:                              // %middle.block
	cmp	x22, x8
	b.eq	Laes_BB23_22
// %bb.31:                              // %vec.epilog.iter.check
	cbz	x9, Laes_BB23_8
Laes_BB23_32:                              // %vec.epilog.ph
	mov	x10, x8
	and	x8, x22, #0xfffffffffffffff8
	add	x9, x10, x27
	add	x11, x9, x19
	sub	x9, x10, x8
	add	x10, x21, x10
	add	x11, x11, #24
Laes_BB23_33:                              // %vec.epilog.vector.body
                                        // =>This Inner Loop Header: Depth=1
	ldr	d0, [x10], #8
	adds	x9, x9, #8
	str	d0, [x11], #8
	b.ne	Laes_BB23_33
// %bb.34:                              // %vec.epilog.middle.block
	cmp	x22, x8
	b.eq	Laes_BB23_22
	b	Laes_BB23_8
Laes_BB23_35:                              // %vector.ph106
	sub	x10, x23, x27
	and	x9, x20, #0x18
	and	x8, x20, #0xffffffffffffffe0
	add	x11, x10, x21
	add	x10, x19, #40
	and	x12, x20, #0xffffffffffffffe0
	add	x11, x11, #32
Laes_BB23_36:                              // %vector.body109
                                        // =>This Inner Loop Header: Depth=1
	ldp	q0, q1, [x11, #-16]
	subs	x12, x12, #32
	add	x11, x11, #32
	stp	q0, q1, [x10, #-16]
	add	x10, x10, #32
	b.ne	Laes_BB23_36
// %bb.37:                              // %middle.block114
	cmp	x20, x8
	b.eq	Laes_BB23_22
// %bb.38:                              // %vec.epilog.iter.check118
	cbz	x9, Laes_BB23_18
Laes_BB23_39:                              // %vec.epilog.ph120
	add	x10, x22, x27
	and	x9, x28, #0x7
	add	x11, x8, x23
	sub	x10, x10, x8
	sub	x11, x11, x27
	add	x12, x8, x19
	sub	x10, x10, x9
	add	x11, x11, x21
	sub	x8, x20, x9
	sub	x10, x10, x23
	add	x11, x11, #16
	add	x12, x12, #24
	sub	x10, x10, #16
Laes_BB23_40:                              // %vec.epilog.vector.body123
                                        // =>This Inner Loop Header: Depth=1
	ldr	d0, [x11], #8
	subs	x10, x10, #8
	str	d0, [x12], #8
	b.ne	Laes_BB23_40
// %bb.41:                              // %vec.epilog.middle.block127
	cbnz	x9, Laes_BB23_18
	b	Laes_BB23_22
                                        // -- End function
	.section	__TEXT,__const
	.p2align	4, 0x0                          // -- Begin function aes_c::kept::fotsgure_aes_set_key
l_aes_CPI24_0:
	.byte	0                               // 0x0
	.byte	1                               // 0x1
	.byte	92                              // 0x5c
	.byte	93                              // 0x5d
	.byte	224                             // 0xe0
	.byte	225                             // 0xe1
	.byte	188                             // 0xbc
	.byte	189                             // 0xbd
	.byte	80                              // 0x50
	.byte	81                              // 0x51
	.byte	12                              // 0xc
	.byte	13                              // 0xd
	.byte	176                             // 0xb0
	.byte	177                             // 0xb1
	.byte	236                             // 0xec
	.byte	237                             // 0xed
l_aes_CPI24_1:
	.byte	0                               // 0x0
	.byte	178                             // 0xb2
	.byte	181                             // 0xb5
	.byte	7                               // 0x7
	.byte	58                              // 0x3a
	.byte	136                             // 0x88
	.byte	143                             // 0x8f
	.byte	61                              // 0x3d
	.byte	172                             // 0xac
	.byte	30                              // 0x1e
	.byte	25                              // 0x19
	.byte	171                             // 0xab
	.byte	150                             // 0x96
	.byte	36                              // 0x24
	.byte	35                              // 0x23
	.byte	145                             // 0x91
l_aes_CPI24_2:
	.byte	0                               // 0x0
	.byte	110                             // 0x6e
	.byte	200                             // 0xc8
	.byte	166                             // 0xa6
	.byte	124                             // 0x7c
	.byte	18                              // 0x12
	.byte	180                             // 0xb4
	.byte	218                             // 0xda
	.byte	188                             // 0xbc
	.byte	210                             // 0xd2
	.byte	116                             // 0x74
	.byte	26                              // 0x1a
	.byte	192                             // 0xc0
	.byte	174                             // 0xae
	.byte	8                               // 0x8
	.byte	102                             // 0x66
l_aes_CPI24_3:
	.byte	0                               // 0x0
	.byte	74                              // 0x4a
	.byte	121                             // 0x79
	.byte	51                              // 0x33
	.byte	55                              // 0x37
	.byte	125                             // 0x7d
	.byte	78                              // 0x4e
	.byte	4                               // 0x4
	.byte	217                             // 0xd9
	.byte	147                             // 0x93
	.byte	160                             // 0xa0
	.byte	234                             // 0xea
	.byte	238                             // 0xee
	.byte	164                             // 0xa4
	.byte	151                             // 0x97
	.byte	221                             // 0xdd
l_aes_CPI24_4:
	.byte	0                               // 0x0
	.byte	219                             // 0xdb
	.byte	20                              // 0x14
	.byte	207                             // 0xcf
	.byte	167                             // 0xa7
	.byte	124                             // 0x7c
	.byte	179                             // 0xb3
	.byte	104                             // 0x68
	.byte	168                             // 0xa8
	.byte	115                             // 0x73
	.byte	188                             // 0xbc
	.byte	103                             // 0x67
	.byte	15                              // 0xf
	.byte	212                             // 0xd4
	.byte	27                              // 0x1b
	.byte	192                             // 0xc0
l_aes_CPI24_5:
	.byte	0                               // 0x0
	.byte	237                             // 0xed
	.byte	209                             // 0xd1
	.byte	60                              // 0x3c
	.byte	218                             // 0xda
	.byte	55                              // 0x37
	.byte	11                              // 0xb
	.byte	230                             // 0xe6
	.byte	8                               // 0x8
	.byte	229                             // 0xe5
	.byte	217                             // 0xd9
	.byte	52                              // 0x34
	.byte	210                             // 0xd2
	.byte	63                              // 0x3f
	.byte	3                               // 0x3
	.byte	238                             // 0xee
l_aes_CPI24_6:
	.byte	0                               // 0x0
	.byte	28                              // 0x1c
	.byte	68                              // 0x44
	.byte	88                              // 0x58
	.byte	151                             // 0x97
	.byte	139                             // 0x8b
	.byte	211                             // 0xd3
	.byte	207                             // 0xcf
	.byte	138                             // 0x8a
	.byte	150                             // 0x96
	.byte	206                             // 0xce
	.byte	210                             // 0xd2
	.byte	29                              // 0x1d
	.byte	1                               // 0x1
	.byte	89                              // 0x59
	.byte	69                              // 0x45
l_aes_CPI24_7:
	.byte	0                               // 0x0
	.byte	48                              // 0x30
	.byte	38                              // 0x26
	.byte	22                              // 0x16
	.byte	183                             // 0xb7
	.byte	135                             // 0x87
	.byte	145                             // 0x91
	.byte	161                             // 0xa1
	.byte	65                              // 0x41
	.byte	113                             // 0x71
	.byte	103                             // 0x67
	.byte	87                              // 0x57
	.byte	246                             // 0xf6
	.byte	198                             // 0xc6
	.byte	208                             // 0xd0
	.byte	224                             // 0xe0
	.section	__TEXT,__text,regular,pure_instructions
	.p2align	2
_aes.aes_c.kept.fotsgure_aes_set_key:    // @_aes.aes_c.kept.fotsgure_aes_set_key
// %bb.0:                               // %start
	stp	x29, x30, [sp, #-48]!           // 16-byte Folded Spill
	stp	x20, x19, [sp, #32]             // 16-byte Folded Spill
	cmp	x2, #32
	mov	x19, x0
	stp	x22, x21, [sp, #16]             // 16-byte Folded Spill
	mov	x29, sp
	b.hi	Laes_BB24_5
// %bb.1:                               // %start
	mov	w8, #1                          // =0x1
	mov	x9, #16842752                   // =0x1010000
	mov	x21, x2
	lsl	x8, x8, x2
	movk	x9, #1, lsl #32
	tst	x8, x9
	b.eq	Laes_BB24_5
// %bb.2:                               // %join.3
	movi	v0.2d, #0000000000000000
	mov	x20, x19
	mov	x2, x21
	lsr	x22, x21, #2
	str	q0, [x20, #4]!
	mov	x0, x20
	stur	q0, [x19, #228]
	stur	q0, [x19, #212]
	stur	q0, [x19, #196]
	stur	q0, [x19, #180]
	stur	q0, [x19, #164]
	stur	q0, [x19, #148]
	stur	q0, [x19, #132]
	stur	q0, [x19, #116]
	stur	q0, [x19, #100]
	stur	q0, [x19, #84]
	stur	q0, [x19, #68]
	stur	q0, [x19, #52]
	stur	q0, [x19, #36]
	stur	q0, [x19, #20]
	bl	_aes.aes_permute.lane_keys.expand_lanes
	movi	v0.2d, #0000000000000000
	lsl	x11, x22, #4
	mov	x8, x19
	str	w21, [x19]
	adrp	x12, l_aes_static.3@PAGE
	add	x12, x12, l_aes_static.3@PAGEOFF
	add	x9, x11, #96
	add	x11, x11, #84
	and	x10, x9, #0x30
	str	q0, [x8, #244]!
	stp	q0, q0, [x8, #16]
	stp	q0, q0, [x8, #48]
	stp	q0, q0, [x8, #80]
	stp	q0, q0, [x8, #112]
	stp	q0, q0, [x8, #144]
	stp	q0, q0, [x8, #176]
	stp	q0, q0, [x8, #208]
	ldr	q0, [x12, x10]
	add	x10, x22, #5
	mov	w12, #260                       // =0x104
Laes_BB24_3:                               // %join.5.i
                                        // =>This Inner Loop Header: Depth=1
	ldr	q1, [x19, x11]
	movi	v2.16b, #15
	adrp	x13, l_aes_CPI24_1@PAGE
	ldr	q4, [x13, l_aes_CPI24_1@PAGEOFF]
	adrp	x13, l_aes_CPI24_0@PAGE
	movi	v5.16b, #99
	ushr	v3.16b, v1.16b, #4
	adrp	x14, l_aes_CPI24_5@PAGE
	adrp	x15, l_aes_CPI24_7@PAGE
	sub	x10, x10, #1
	and	v1.16b, v1.16b, v2.16b
	tbl	v3.16b, { v4.16b }, v3.16b
	ldr	q4, [x13, l_aes_CPI24_0@PAGEOFF]
	adrp	x13, l_aes_CPI24_4@PAGE
	tbl	v1.16b, { v4.16b }, v1.16b
	ldr	q4, [x13, l_aes_CPI24_4@PAGEOFF]
	adrp	x13, l_aes_CPI24_2@PAGE
	ldr	q6, [x13, l_aes_CPI24_2@PAGEOFF]
	sub	w13, w11, #4
	sub	x11, x11, #16
	eor	v3.16b, v3.16b, v5.16b
	ldr	q5, [x14, l_aes_CPI24_5@PAGEOFF]
	adrp	x14, l_aes_CPI24_3@PAGE
	ldr	q7, [x14, l_aes_CPI24_3@PAGEOFF]
	and	x13, x13, #0x30
	adrp	x14, l_aes_static.6@PAGE
	add	x14, x14, l_aes_static.6@PAGEOFF
	eor	v1.16b, v1.16b, v3.16b
	and	v3.16b, v1.16b, v2.16b
	ushr	v1.16b, v1.16b, #4
	tbl	v4.16b, { v4.16b }, v3.16b
	tbl	v5.16b, { v5.16b }, v1.16b
	tbl	v3.16b, { v6.16b }, v3.16b
	tbl	v1.16b, { v7.16b }, v1.16b
	eor	v4.16b, v5.16b, v4.16b
	ldr	q5, [x14, x13]
	adrp	x14, l_aes_CPI24_6@PAGE
	eor	v1.16b, v1.16b, v3.16b
	tbl	v4.16b, { v4.16b }, v5.16b
	ldr	q5, [x15, l_aes_CPI24_7@PAGEOFF]
	eor	v1.16b, v1.16b, v4.16b
	ldr	q4, [x14, l_aes_CPI24_6@PAGEOFF]
	adrp	x14, l_aes_static.4@PAGE
	add	x14, x14, l_aes_static.4@PAGEOFF
	and	v2.16b, v1.16b, v2.16b
	ushr	v3.16b, v1.16b, #4
	tbl	v2.16b, { v4.16b }, v2.16b
	tbl	v3.16b, { v5.16b }, v3.16b
	ldr	q4, [x14, x13]
	adrp	x14, l_aes_static.5@PAGE
	add	x14, x14, l_aes_static.5@PAGEOFF
	tbl	v5.16b, { v1.16b }, v4.16b
	eor	v2.16b, v3.16b, v2.16b
	ldr	q3, [x14, x13]
	tbl	v1.16b, { v1.16b }, v3.16b
	movi	v3.16b, #44
	eor	v2.16b, v2.16b, v5.16b
	eor	v1.16b, v1.16b, v2.16b
	tbl	v2.16b, { v2.16b }, v4.16b
	eor	v1.16b, v1.16b, v3.16b
	eor	v1.16b, v2.16b, v1.16b
	tbl	v1.16b, { v1.16b }, v0.16b
	str	q1, [x19, x12]
	add	x12, x12, #16
	cbnz	x10, Laes_BB24_3
// %bb.4:                               // %"aes_permute::lane_keys::invert_lanes.exit"
	ldr	q0, [x20, x9]
	mov	w0, wzr
	ldr	q1, [x20]
	str	q1, [x8, x9]
	str	q0, [x8]
	ldp	x20, x19, [sp, #32]             // 16-byte Folded Reload
	ldp	x22, x21, [sp, #16]             // 16-byte Folded Reload
	ldp	x29, x30, [sp], #48             // 16-byte Folded Reload
	movi	v0.2d, #0000000000000000
	movi	v1.2d, #0000000000000000
	movi	v2.2d, #0000000000000000
	movi	v3.2d, #0000000000000000
	movi	v4.2d, #0000000000000000
	movi	v5.2d, #0000000000000000
	movi	v6.2d, #0000000000000000
	movi	v7.2d, #0000000000000000
	movi	v16.2d, #0000000000000000
	movi	v17.2d, #0000000000000000
	movi	v18.2d, #0000000000000000
	movi	v19.2d, #0000000000000000
	movi	v20.2d, #0000000000000000
	movi	v21.2d, #0000000000000000
	movi	v22.2d, #0000000000000000
	movi	v23.2d, #0000000000000000
	movi	v24.2d, #0000000000000000
	movi	v25.2d, #0000000000000000
	movi	v26.2d, #0000000000000000
	movi	v27.2d, #0000000000000000
	movi	v28.2d, #0000000000000000
	movi	v29.2d, #0000000000000000
	movi	v30.2d, #0000000000000000
	movi	v31.2d, #0000000000000000
	fmov	d8, d8
	fmov	d9, d9
	fmov	d10, d10
	fmov	d11, d11
	fmov	d12, d12
	fmov	d13, d13
	fmov	d14, d14
	fmov	d15, d15
	mov	x1, xzr
	mov	x2, xzr
	mov	x3, xzr
	mov	x4, xzr
	mov	x5, xzr
	mov	x6, xzr
	mov	x7, xzr
	mov	x8, xzr
	mov	x9, xzr
	mov	x10, xzr
	mov	x11, xzr
	mov	x12, xzr
	mov	x13, xzr
	mov	x14, xzr
	mov	x15, xzr
	mov	x16, xzr
	mov	x17, xzr
	ret
Laes_BB24_5:                               // %then.1
	movi	v0.2d, #0000000000000000
	str	wzr, [x19, #480]
	mov	w0, #1                          // =0x1
	stp	q0, q0, [x19]
	stp	q0, q0, [x19, #32]
	stp	q0, q0, [x19, #64]
	stp	q0, q0, [x19, #96]
	stp	q0, q0, [x19, #128]
	stp	q0, q0, [x19, #160]
	stp	q0, q0, [x19, #192]
	stp	q0, q0, [x19, #224]
	stp	q0, q0, [x19, #256]
	stp	q0, q0, [x19, #288]
	stp	q0, q0, [x19, #320]
	stp	q0, q0, [x19, #352]
	stp	q0, q0, [x19, #384]
	stp	q0, q0, [x19, #416]
	stp	q0, q0, [x19, #448]
	ldp	x20, x19, [sp, #32]             // 16-byte Folded Reload
	ldp	x22, x21, [sp, #16]             // 16-byte Folded Reload
	ldp	x29, x30, [sp], #48             // 16-byte Folded Reload
	movi	v0.2d, #0000000000000000
	movi	v1.2d, #0000000000000000
	movi	v2.2d, #0000000000000000
	movi	v3.2d, #0000000000000000
	movi	v4.2d, #0000000000000000
	movi	v5.2d, #0000000000000000
	movi	v6.2d, #0000000000000000
	movi	v7.2d, #0000000000000000
	movi	v16.2d, #0000000000000000
	movi	v17.2d, #0000000000000000
	movi	v18.2d, #0000000000000000
	movi	v19.2d, #0000000000000000
	movi	v20.2d, #0000000000000000
	movi	v21.2d, #0000000000000000
	movi	v22.2d, #0000000000000000
	movi	v23.2d, #0000000000000000
	movi	v24.2d, #0000000000000000
	movi	v25.2d, #0000000000000000
	movi	v26.2d, #0000000000000000
	movi	v27.2d, #0000000000000000
	movi	v28.2d, #0000000000000000
	movi	v29.2d, #0000000000000000
	movi	v30.2d, #0000000000000000
	movi	v31.2d, #0000000000000000
	fmov	d8, d8
	fmov	d9, d9
	fmov	d10, d10
	fmov	d11, d11
	fmov	d12, d12
	fmov	d13, d13
	fmov	d14, d14
	fmov	d15, d15
	mov	x1, xzr
	mov	x2, xzr
	mov	x3, xzr
	mov	x4, xzr
	mov	x5, xzr
	mov	x6, xzr
	mov	x7, xzr
	mov	x8, xzr
	mov	x9, xzr
	mov	x10, xzr
	mov	x11, xzr
	mov	x12, xzr
	mov	x13, xzr
	mov	x14, xzr
	mov	x15, xzr
	mov	x16, xzr
	mov	x17, xzr
	ret
                                        // -- End function
	.section	__TEXT,__text,regular,pure_instructions
	.p2align	2                               // -- Begin function key_wrap::wrapping::wrap::<#ef80964e0b8d42c0>
_aes.key_wrap.wrapping.wrap: // @_aes.key_wrap.wrapping.wrap
// %bb.0:                               // %start
	mov	x9, #-3                         // =0xfffffffffffffffd
	sub	x8, x2, #2
	movk	x9, #63, lsl #48
	cmp	x8, x9
	mov	w8, #1                          // =0x1
	b.hi	Laes_BB25_12
// %bb.1:                               // %start
	add	x9, x2, #1
	cmp	x4, x9
	b.ne	Laes_BB25_12
// %bb.2:                               // %after.1
	cbz	x4, Laes_BB25_9
// %bb.3:                               // %arm.12
	stp	x29, x30, [sp, #-48]!           // 16-byte Folded Spill
	mov	x9, #7378697629483820646        // =0x6666666666666666
	stp	x20, x19, [sp, #32]             // 16-byte Folded Spill
	mov	x19, x3
	eor	x9, x9, #0xc0c0c0c0c0c0c0c0
	lsl	x8, x2, #3
	sub	x20, x4, #1
	str	x9, [x19], #8
	sub	x9, x19, x1
	cmp	x9, x8
	stp	x22, x21, [sp, #16]             // 16-byte Folded Spill
	mov	x29, sp
	b.hs	Laes_BB25_10
// %bb.4:                               // %join.7.i.i.i.i.i.i.preheader
	cmp	x2, #6
	b.lo	Laes_BB25_6
// %bb.5:                               // %vector.memcheck
	sub	x8, x3, x1
	add	x8, x8, #8
	cmp	x8, #32
	b.hs	Laes_BB25_13
Laes_BB25_6:
	mov	x8, xzr
Laes_BB25_7:                               // %join.7.i.i.i.i.i.i.preheader1
	lsl	x9, x8, #3
	sub	x8, x2, x8
	add	x10, x9, x3
	add	x9, x1, x9
	add	x10, x10, #8
Laes_BB25_8:                               // %join.7.i.i.i.i.i.i
                                        // =>This Inner Loop Header: Depth=1
	ldr	x11, [x9], #8
	subs	x8, x8, #1
	str	x11, [x10], #8
	b.ne	Laes_BB25_8
	b	Laes_BB25_11
Laes_BB25_9:
	mov	w0, wzr
	ret
Laes_BB25_10:                              // %apart.2.i.i.i.i.i.i
	mov	x21, x0
	mov	x0, x19
	mov	x2, x8
	mov	x22, x3
	adrp	x16, _memmove@GOTPAGE
	ldr	x16, [x16, _memmove@GOTPAGEOFF]
	blr	x16
	mov	x0, x21
	mov	x3, x22
Laes_BB25_11:                              // %"core::slice::edits::slice+T::copy_from_slice::<#76f67ba6cf9709da>.exit"
	mov	x1, x3
	mov	x2, x19
	mov	x3, x20
	bl	_aes.key_wrap.steps.wrap_in_place
	ldp	x20, x19, [sp, #32]             // 16-byte Folded Reload
	mov	w8, wzr
	ldp	x22, x21, [sp, #16]             // 16-byte Folded Reload
	ldp	x29, x30, [sp], #48             // 16-byte Folded Reload
Laes_BB25_12:                              // %return.10
	mov	w0, w8
	ret
Laes_BB25_13:                              // %vector.ph
	and	x8, x2, #0x3ffffffffffffc
	add	x9, x1, #16
	add	x10, x3, #24
	and	x11, x2, #0x3ffffffffffffc
Laes_BB25_14:                              // %vector.body
                                        // =>This Inner Loop Header: Depth=1
	ldp	q0, q1, [x9, #-16]
	subs	x11, x11, #4
	add	x9, x9, #32
	stp	q0, q1, [x10, #-16]
	add	x10, x10, #32
	b.ne	Laes_BB25_14
// %bb.15:                              // %middle.block
	cmp	x2, x8
	b.eq	Laes_BB25_11
	b	Laes_BB25_7
                                        // -- End function
	.section	__TEXT,__text,regular,pure_instructions
	.p2align	2                               // -- Begin function key_wrap::steps::wrap_in_place::<#ef80964e0b8d42c0>
_aes.key_wrap.steps.wrap_in_place: // @_aes.key_wrap.steps.wrap_in_place
// %bb.0:                               // %start
	cbz	x3, Laes_BB26_14
// %bb.1:                               // %join.5.i.preheader
	stp	x29, x30, [sp, #-80]!           // 16-byte Folded Spill
	str	x25, [sp, #16]                  // 8-byte Spill
	mov	x25, x3
	mov	x29, sp
	stp	x24, x23, [sp, #32]             // 16-byte Folded Spill
	mov	w24, #1                         // =0x1
	mov	x23, x2
	stp	x22, x21, [sp, #48]             // 16-byte Folded Spill
	mov	x21, x1
	mov	x22, x0
	stp	x20, x19, [sp, #64]             // 16-byte Folded Spill
	mov	x19, x3
	mov	x20, x2
Laes_BB26_2:                               // %join.5.i
                                        // =>This Inner Loop Header: Depth=1
	mov	x0, x22
	mov	x1, x21
	mov	x2, x23
	bl	_aes.key_wrap.steps.encrypt_halves
	ldr	x8, [x21]
	rev	x9, x24
	subs	x25, x25, #1
	add	x24, x24, #1
	add	x23, x23, #8
	eor	x8, x8, x9
	str	x8, [x21]
	b.ne	Laes_BB26_2
// %bb.3:                               // %"key_wrap::steps::wrap_turn::<#ef80964e0b8d42c0>.exit.loopexit"
	add	x24, x19, #1
	mov	x23, x20
	mov	x25, x19
Laes_BB26_4:                               // %join.5.i.1
                                        // =>This Inner Loop Header: Depth=1
	mov	x0, x22
	mov	x1, x21
	mov	x2, x23
	bl	_aes.key_wrap.steps.encrypt_halves
	ldr	x8, [x21]
	rev	x9, x24
	subs	x25, x25, #1
	add	x24, x24, #1
	add	x23, x23, #8
	eor	x8, x8, x9
	str	x8, [x21]
	b.ne	Laes_BB26_4
// %bb.5:                               // %"key_wrap::steps::wrap_turn::<#ef80964e0b8d42c0>.exit.loopexit.1"
	mov	w8, #1                          // =0x1
	mov	x23, x20
	mov	x25, x19
	orr	x24, x8, x19, lsl #1
Laes_BB26_6:                               // %join.5.i.2
                                        // =>This Inner Loop Header: Depth=1
	mov	x0, x22
	mov	x1, x21
	mov	x2, x23
	bl	_aes.key_wrap.steps.encrypt_halves
	ldr	x8, [x21]
	rev	x9, x24
	subs	x25, x25, #1
	add	x24, x24, #1
	add	x23, x23, #8
	eor	x8, x8, x9
	str	x8, [x21]
	b.ne	Laes_BB26_6
// %bb.7:                               // %"key_wrap::steps::wrap_turn::<#ef80964e0b8d42c0>.exit.loopexit.2"
	add	x8, x19, x19, lsl #1
	mov	x23, x20
	mov	x25, x19
	add	x24, x8, #1
Laes_BB26_8:                               // %join.5.i.3
                                        // =>This Inner Loop Header: Depth=1
	mov	x0, x22
	mov	x1, x21
	mov	x2, x23
	bl	_aes.key_wrap.steps.encrypt_halves
	ldr	x8, [x21]
	rev	x9, x24
	subs	x25, x25, #1
	add	x24, x24, #1
	add	x23, x23, #8
	eor	x8, x8, x9
	str	x8, [x21]
	b.ne	Laes_BB26_8
// %bb.9:                               // %"key_wrap::steps::wrap_turn::<#ef80964e0b8d42c0>.exit.loopexit.3"
	mov	w8, #1                          // =0x1
	mov	x23, x20
	mov	x25, x19
	orr	x24, x8, x19, lsl #2
Laes_BB26_10:                              // %join.5.i.4
                                        // =>This Inner Loop Header: Depth=1
	mov	x0, x22
	mov	x1, x21
	mov	x2, x23
	bl	_aes.key_wrap.steps.encrypt_halves
	ldr	x8, [x21]
	rev	x9, x24
	subs	x25, x25, #1
	add	x24, x24, #1
	add	x23, x23, #8
	eor	x8, x8, x9
	str	x8, [x21]
	b.ne	Laes_BB26_10
// %bb.11:                              // %"key_wrap::steps::wrap_turn::<#ef80964e0b8d42c0>.exit.loopexit.4"
	add	x8, x19, x19, lsl #2
	add	x23, x8, #1
Laes_BB26_12:                              // %join.5.i.5
                                        // =>This Inner Loop Header: Depth=1
	mov	x0, x22
	mov	x1, x21
	mov	x2, x20
	bl	_aes.key_wrap.steps.encrypt_halves
	ldr	x8, [x21]
	rev	x9, x23
	subs	x19, x19, #1
	add	x23, x23, #1
	add	x20, x20, #8
	eor	x8, x8, x9
	str	x8, [x21]
	b.ne	Laes_BB26_12
// %bb.13:
	ldp	x20, x19, [sp, #64]             // 16-byte Folded Reload
	ldr	x25, [sp, #16]                  // 8-byte Reload
	ldp	x22, x21, [sp, #48]             // 16-byte Folded Reload
	ldp	x24, x23, [sp, #32]             // 16-byte Folded Reload
	ldp	x29, x30, [sp], #80             // 16-byte Folded Reload
Laes_BB26_14:                              // %after.1
	ret
                                        // -- End function
	.section	__TEXT,__const
	.p2align	4, 0x0                          // -- Begin function key_wrap::steps::encrypt_halves::<#ef80964e0b8d42c0>
l_aes_CPI27_0:
	.byte	0                               // 0x0
	.byte	1                               // 0x1
	.byte	28                              // 0x1c
	.byte	29                              // 0x1d
	.byte	45                              // 0x2d
	.byte	44                              // 0x2c
	.byte	49                              // 0x31
	.byte	48                              // 0x30
	.byte	39                              // 0x27
	.byte	38                              // 0x26
	.byte	59                              // 0x3b
	.byte	58                              // 0x3a
	.byte	10                              // 0xa
	.byte	11                              // 0xb
	.byte	22                              // 0x16
	.byte	23                              // 0x17
l_aes_CPI27_1:
	.byte	0                               // 0x0
	.byte	134                             // 0x86
	.byte	253                             // 0xfd
	.byte	123                             // 0x7b
	.byte	142                             // 0x8e
	.byte	8                               // 0x8
	.byte	115                             // 0x73
	.byte	245                             // 0xf5
	.byte	119                             // 0x77
	.byte	241                             // 0xf1
	.byte	138                             // 0x8a
	.byte	12                              // 0xc
	.byte	249                             // 0xf9
	.byte	127                             // 0x7f
	.byte	4                               // 0x4
	.byte	130                             // 0x82
l_aes_CPI27_2:
	.byte	128                             // 0x80
	.byte	2                               // 0x2
	.byte	1                               // 0x1
	.byte	15                              // 0xf
	.byte	9                               // 0x9
	.byte	5                               // 0x5
	.byte	14                              // 0xe
	.byte	12                              // 0xc
	.byte	13                              // 0xd
	.byte	4                               // 0x4
	.byte	11                              // 0xb
	.byte	10                              // 0xa
	.byte	7                               // 0x7
	.byte	8                               // 0x8
	.byte	6                               // 0x6
	.byte	3                               // 0x3
l_aes_CPI27_3:
	.byte	128                             // 0x80
	.byte	1                               // 0x1
	.byte	9                               // 0x9
	.byte	14                              // 0xe
	.byte	13                              // 0xd
	.byte	11                              // 0xb
	.byte	7                               // 0x7
	.byte	6                               // 0x6
	.byte	15                              // 0xf
	.byte	2                               // 0x2
	.byte	12                              // 0xc
	.byte	5                               // 0x5
	.byte	10                              // 0xa
	.byte	4                               // 0x4
	.byte	3                               // 0x3
	.byte	8                               // 0x8
l_aes_CPI27_4:
	.byte	0                               // 0x0
	.byte	195                             // 0xc3
	.byte	79                              // 0x4f
	.byte	12                              // 0xc
	.byte	252                             // 0xfc
	.byte	124                             // 0x7c
	.byte	67                              // 0x43
	.byte	128                             // 0x80
	.byte	207                             // 0xcf
	.byte	51                              // 0x33
	.byte	63                              // 0x3f
	.byte	112                             // 0x70
	.byte	191                             // 0xbf
	.byte	179                             // 0xb3
	.byte	240                             // 0xf0
	.byte	140                             // 0x8c
l_aes_CPI27_5:
	.byte	0                               // 0x0
	.byte	230                             // 0xe6
	.byte	114                             // 0x72
	.byte	183                             // 0xb7
	.byte	229                             // 0xe5
	.byte	198                             // 0xc6
	.byte	197                             // 0xc5
	.byte	35                              // 0x23
	.byte	81                              // 0x51
	.byte	180                             // 0xb4
	.byte	3                               // 0x3
	.byte	113                             // 0x71
	.byte	32                              // 0x20
	.byte	151                             // 0x97
	.byte	82                              // 0x52
	.byte	148                             // 0x94
l_aes_CPI27_6:
	.byte	0                               // 0x0
	.byte	124                             // 0x7c
	.byte	32                              // 0x20
	.byte	207                             // 0xcf
	.byte	146                             // 0x92
	.byte	1                               // 0x1
	.byte	239                             // 0xef
	.byte	147                             // 0x93
	.byte	179                             // 0xb3
	.byte	33                              // 0x21
	.byte	238                             // 0xee
	.byte	206                             // 0xce
	.byte	125                             // 0x7d
	.byte	178                             // 0xb2
	.byte	93                              // 0x5d
	.byte	92                              // 0x5c
l_aes_CPI27_7:
	.byte	0                               // 0x0
	.byte	209                             // 0xd1
	.byte	229                             // 0xe5
	.byte	247                             // 0xf7
	.byte	230                             // 0xe6
	.byte	37                              // 0x25
	.byte	18                              // 0x12
	.byte	195                             // 0xc3
	.byte	38                              // 0x26
	.byte	192                             // 0xc0
	.byte	55                              // 0x37
	.byte	210                             // 0xd2
	.byte	244                             // 0xf4
	.byte	3                               // 0x3
	.byte	17                              // 0x11
	.byte	52                              // 0x34
l_aes_CPI27_8:
	.byte	0                               // 0x0
	.byte	203                             // 0xcb
	.byte	215                             // 0xd7
	.byte	176                             // 0xb0
	.byte	33                              // 0x21
	.byte	141                             // 0x8d
	.byte	103                             // 0x67
	.byte	172                             // 0xac
	.byte	123                             // 0x7b
	.byte	90                              // 0x5a
	.byte	234                             // 0xea
	.byte	61                              // 0x3d
	.byte	70                              // 0x46
	.byte	246                             // 0xf6
	.byte	145                             // 0x91
	.byte	28                              // 0x1c
l_aes_CPI27_9:
	.byte	0                               // 0x0
	.byte	159                             // 0x9f
	.byte	97                              // 0x61
	.byte	22                              // 0x16
	.byte	194                             // 0xc2
	.byte	42                              // 0x2a
	.byte	119                             // 0x77
	.byte	232                             // 0xe8
	.byte	137                             // 0x89
	.byte	75                              // 0x4b
	.byte	93                              // 0x5d
	.byte	60                              // 0x3c
	.byte	181                             // 0xb5
	.byte	163                             // 0xa3
	.byte	212                             // 0xd4
	.byte	254                             // 0xfe
	.section	__TEXT,__text,regular,pure_instructions
	.p2align	2
_aes.key_wrap.steps.encrypt_halves: // @_aes.key_wrap.steps.encrypt_halves
// %bb.0:                               // %start
	ldr	d1, [x1]
	ldp	x8, x12, [x0, #16]
	movi	v0.16b, #15
	adrp	x9, l_aes_CPI27_0@PAGE
	adrp	x10, l_aes_CPI27_1@PAGE
	ld1	{ v1.d }[1], [x2]
	ldr	q3, [x9, l_aes_CPI27_0@PAGEOFF]
	ldr	q4, [x10, l_aes_CPI27_1@PAGEOFF]
	ldr	q2, [x8]
	sub	x9, x12, #1
	adrp	x11, l_aes_CPI27_2@PAGE
	cmp	x9, #2
	adrp	x10, l_aes_CPI27_3@PAGE
	eor	v1.16b, v2.16b, v1.16b
	and	v2.16b, v1.16b, v0.16b
	ushr	v1.16b, v1.16b, #4
	tbl	v2.16b, { v3.16b }, v2.16b
	tbl	v1.16b, { v4.16b }, v1.16b
	eor	v1.16b, v1.16b, v2.16b
	b.lo	Laes_BB27_3
// %bb.1:                               // %join.5.i.i.preheader
	sub	x12, x12, #2
	mov	w13, #16                        // =0x10
Laes_BB27_2:                               // %join.5.i.i
                                        // =>This Inner Loop Header: Depth=1
	movi	v2.16b, #15
	ushr	v3.16b, v1.16b, #4
	ldr	q4, [x11, l_aes_CPI27_2@PAGEOFF]
	ldr	q5, [x10, l_aes_CPI27_3@PAGEOFF]
	adrp	x14, l_aes_CPI27_4@PAGE
	adrp	x15, l_aes_CPI27_5@PAGE
	subs	x12, x12, #1
	tbl	v6.16b, { v5.16b }, v3.16b
	and	v1.16b, v1.16b, v2.16b
	eor	v2.16b, v3.16b, v1.16b
	tbl	v1.16b, { v4.16b }, v1.16b
	tbl	v4.16b, { v5.16b }, v2.16b
	eor	v6.16b, v6.16b, v1.16b
	eor	v1.16b, v4.16b, v1.16b
	tbl	v4.16b, { v5.16b }, v6.16b
	tbl	v1.16b, { v5.16b }, v1.16b
	eor	v2.16b, v4.16b, v2.16b
	ldr	q4, [x15, l_aes_CPI27_5@PAGEOFF]
	adrp	x15, l_aes_CPI27_7@PAGE
	ldr	q6, [x15, l_aes_CPI27_7@PAGEOFF]
	adrp	x15, l_aes_static.4@PAGE
	add	x15, x15, l_aes_static.4@PAGEOFF
	eor	v1.16b, v1.16b, v3.16b
	ldr	q3, [x14, l_aes_CPI27_4@PAGEOFF]
	adrp	x14, l_aes_CPI27_6@PAGE
	ldr	q5, [x14, l_aes_CPI27_6@PAGEOFF]
	and	x14, x13, #0x30
	tbl	v3.16b, { v3.16b }, v2.16b
	tbl	v4.16b, { v4.16b }, v1.16b
	tbl	v2.16b, { v5.16b }, v2.16b
	tbl	v1.16b, { v6.16b }, v1.16b
	eor	v3.16b, v4.16b, v3.16b
	ldr	q4, [x15, x14]
	adrp	x15, l_aes_static.5@PAGE
	add	x15, x15, l_aes_static.5@PAGEOFF
	eor	v1.16b, v1.16b, v2.16b
	ldr	q5, [x15, x14]
	tbl	v6.16b, { v3.16b }, v4.16b
	tbl	v2.16b, { v3.16b }, v5.16b
	ldr	q3, [x8, x13]
	add	x13, x13, #16
	eor	v1.16b, v1.16b, v6.16b
	eor	v2.16b, v3.16b, v2.16b
	tbl	v3.16b, { v1.16b }, v4.16b
	eor	v1.16b, v2.16b, v1.16b
	eor	v1.16b, v3.16b, v1.16b
	b.ne	Laes_BB27_2
Laes_BB27_3:                               // %"aes_permute::blocks::process_block::<#aedbc4fd156a355d>.exit"
	ushr	v2.16b, v1.16b, #4
	and	v0.16b, v1.16b, v0.16b
	ldr	q3, [x11, l_aes_CPI27_2@PAGEOFF]
	ldr	q4, [x10, l_aes_CPI27_3@PAGEOFF]
	adrp	x10, l_aes_CPI27_8@PAGE
	adrp	x11, l_aes_CPI27_9@PAGE
	lsl	x9, x9, #4
	eor	v1.16b, v2.16b, v0.16b
	tbl	v0.16b, { v3.16b }, v0.16b
	tbl	v3.16b, { v4.16b }, v2.16b
	tbl	v5.16b, { v4.16b }, v1.16b
	eor	v3.16b, v3.16b, v0.16b
	eor	v0.16b, v5.16b, v0.16b
	tbl	v3.16b, { v4.16b }, v3.16b
	tbl	v0.16b, { v4.16b }, v0.16b
	eor	v1.16b, v3.16b, v1.16b
	ldr	q3, [x11, l_aes_CPI27_9@PAGEOFF]
	adrp	x11, l_aes_static.3@PAGE
	add	x11, x11, l_aes_static.3@PAGEOFF
	eor	v0.16b, v0.16b, v2.16b
	ldr	q2, [x10, l_aes_CPI27_8@PAGEOFF]
	and	x10, x9, #0x30
	tbl	v1.16b, { v2.16b }, v1.16b
	tbl	v0.16b, { v3.16b }, v0.16b
	eor	v0.16b, v0.16b, v1.16b
	ldr	q1, [x11, x10]
	tbl	v0.16b, { v0.16b }, v1.16b
	ldr	q1, [x8, x9]
	eor	v0.16b, v0.16b, v1.16b
	str	d0, [x1]
	st1	{ v0.d }[1], [x2]
	ret
                                        // -- End function
	.section	__TEXT,__text,regular,pure_instructions
	.p2align	2                               // -- Begin function aes_cipher::zeroize::stack::wipe_stack::<=512>
_aes.aes_cipher.zeroize.stack.wipe_stack.512: // @_aes.aes_cipher.zeroize.stack.wipe_stack.512
// %bb.0:                               // %start
	str	x30, [sp, #-16]!                // 8-byte Folded Spill
	sub	sp, sp, #528
	movi	v0.2d, #0000000000000000
	add	x8, sp, #16
	str	xzr, [sp, #8]
	add	x9, sp, #8
	stp	q0, q0, [x8, #128]
	stp	q0, q0, [x8, #160]
	stp	q0, q0, [x8, #192]
	stp	q0, q0, [x8, #224]
	stp	q0, q0, [x8, #256]
	stp	q0, q0, [x8, #288]
	stp	q0, q0, [x8, #320]
	stp	q0, q0, [x8, #352]
	stp	q0, q0, [x8, #384]
	stp	q0, q0, [x8, #416]
	stp	q0, q0, [x8, #448]
	stp	q0, q0, [x8, #480]
	stp	q0, q0, [sp, #16]
	stp	q0, q0, [sp, #48]
	stp	q0, q0, [sp, #80]
	stp	q0, q0, [sp, #112]
	//APP
	//NO_APP
	ldar	x9, [x9]
	//APP
	//NO_APP
	cmp	x9, #512
	b.hs	Laes_BB28_4
// %bb.1:                               // %then.1
	ldrb	w8, [x8, x9]
	//APP
	//NO_APP
Laes_BB28_2:                               // %atomicrmw.start
                                        // =>This Inner Loop Header: Depth=1
	add	x9, sp, #8
	ldaxr	xzr, [x9]
	stlxr	w10, x8, [x9]
	cbnz	w10, Laes_BB28_2
// %bb.3:                               // %atomicrmw.end
	//APP
	//NO_APP
Laes_BB28_4:                               // %common.ret
	add	sp, sp, #528
	ldr	x30, [sp], #16                  // 8-byte Folded Reload
	movi	v0.2d, #0000000000000000
	movi	v1.2d, #0000000000000000
	movi	v2.2d, #0000000000000000
	movi	v3.2d, #0000000000000000
	movi	v4.2d, #0000000000000000
	movi	v5.2d, #0000000000000000
	movi	v6.2d, #0000000000000000
	movi	v7.2d, #0000000000000000
	movi	v16.2d, #0000000000000000
	movi	v17.2d, #0000000000000000
	movi	v18.2d, #0000000000000000
	movi	v19.2d, #0000000000000000
	movi	v20.2d, #0000000000000000
	movi	v21.2d, #0000000000000000
	movi	v22.2d, #0000000000000000
	movi	v23.2d, #0000000000000000
	movi	v24.2d, #0000000000000000
	movi	v25.2d, #0000000000000000
	movi	v26.2d, #0000000000000000
	movi	v27.2d, #0000000000000000
	movi	v28.2d, #0000000000000000
	movi	v29.2d, #0000000000000000
	movi	v30.2d, #0000000000000000
	movi	v31.2d, #0000000000000000
	fmov	d8, d8
	fmov	d9, d9
	fmov	d10, d10
	fmov	d11, d11
	fmov	d12, d12
	fmov	d13, d13
	fmov	d14, d14
	fmov	d15, d15
	mov	x1, xzr
	mov	x2, xzr
	mov	x3, xzr
	mov	x4, xzr
	mov	x5, xzr
	mov	x6, xzr
	mov	x7, xzr
	mov	x8, xzr
	mov	x9, xzr
	mov	x10, xzr
	mov	x11, xzr
	mov	x12, xzr
	mov	x13, xzr
	mov	x14, xzr
	mov	x15, xzr
	mov	x16, xzr
	mov	x17, xzr
	ret
                                        // -- End function
	.section	__TEXT,__text,regular,pure_instructions
	.p2align	2                               // -- Begin function key_wrap::padded::wrap_padded::<#ef80964e0b8d42c0>
_aes.key_wrap.padded.wrap_padded: // @_aes.key_wrap.padded.wrap_padded
// %bb.0:                               // %start
	sub	x8, x2, #1
	mov	w9, #-2                         // =0xfffffffe
	cmp	x8, x9
	mov	w8, #1                          // =0x1
	b.hi	Laes_BB29_10
// %bb.1:                               // %start
	sub	sp, sp, #96
	add	x9, x2, #7
	stp	x20, x19, [sp, #80]             // 16-byte Folded Spill
	mov	x20, x4
	lsr	x9, x9, #3
	stp	x29, x30, [sp, #16]             // 16-byte Folded Spill
	add	x29, sp, #16
	stp	x26, x25, [sp, #32]             // 16-byte Folded Spill
	add	x9, x9, #1
	stp	x24, x23, [sp, #48]             // 16-byte Folded Spill
	cmp	x4, x9
	stp	x22, x21, [sp, #64]             // 16-byte Folded Spill
	b.ne	Laes_BB29_9
// %bb.2:                               // %arm.5
	mov	x8, #98569499443200             // =0x59a600000000
	mov	x19, x3
	mov	x22, x3
	movk	x8, #42585, lsl #48
	subs	x23, x20, #1
	orr	x8, x2, x8
	rev	x8, x8
	str	x8, [x22], #8
	b.eq	Laes_BB29_7
// %bb.3:                               // %join.5.i.preheader
	mov	x21, x1
	mov	x24, x0
	mov	w25, #1                         // =0x1
Laes_BB29_4:                               // %join.5.i
                                        // =>This Inner Loop Header: Depth=1
	subs	x26, x2, #8
	mov	w8, #8                          // =0x8
	add	x0, sp, #8
	csel	x2, x2, x8, lo
	mov	x1, x21
	str	xzr, [sp, #8]
	adrp	x16, _memcpy@GOTPAGE
	ldr	x16, [x16, _memcpy@GOTPAGEOFF]
	blr	x16
	ldr	x8, [sp, #8]
	add	x21, x21, #8
	mov	x2, x26
	str	x8, [x19, x25, lsl #3]
	add	x25, x25, #1
	cmp	x20, x25
	b.ne	Laes_BB29_4
// %bb.5:                               // %"key_wrap::padded::fill.exit"
	cmp	x23, #1
	mov	x0, x24
	b.ne	Laes_BB29_7
// %bb.6:                               // %then.1.i
	mov	x1, x19
	mov	x2, x22
	bl	_aes.key_wrap.steps.encrypt_halves
	b	Laes_BB29_8
Laes_BB29_7:                               // %else.2.i
	mov	x1, x19
	mov	x2, x22
	mov	x3, x23
	bl	_aes.key_wrap.steps.wrap_in_place
Laes_BB29_8:
	mov	w8, wzr
Laes_BB29_9:
	ldp	x20, x19, [sp, #80]             // 16-byte Folded Reload
	ldp	x22, x21, [sp, #64]             // 16-byte Folded Reload
	ldp	x24, x23, [sp, #48]             // 16-byte Folded Reload
	ldp	x26, x25, [sp, #32]             // 16-byte Folded Reload
	ldp	x29, x30, [sp, #16]             // 16-byte Folded Reload
	add	sp, sp, #96
Laes_BB29_10:                              // %return.4
	mov	w0, w8
	ret
                                        // -- End function
	.section	__TEXT,__text,regular,pure_instructions
	.p2align	2                               // -- Begin function aes_hybrid::closures::lend_planes::<#f679257bbe3eb97f>
_aes.aes_hybrid.closures.lend_planes.2: // @_aes.aes_hybrid.closures.lend_planes.2
// %bb.0:                               // %start
	stp	x29, x30, [sp, #-80]!           // 16-byte Folded Spill
	str	x28, [sp, #16]                  // 8-byte Spill
	mov	x29, sp
	stp	x24, x23, [sp, #32]             // 16-byte Folded Spill
	stp	x22, x21, [sp, #48]             // 16-byte Folded Spill
	stp	x20, x19, [sp, #64]             // 16-byte Folded Spill
	sub	sp, sp, #1952
	add	x8, sp, #32
	mov	x21, x2
	mov	x22, x1
	mov	x23, x0
	add	x0, x8, #128
	mov	w1, wzr
	mov	w2, #1792                       // =0x700
	str	xzr, [sp]
	mov	x19, x4
	mov	x20, x3
	adrp	x16, _memset@GOTPAGE
	ldr	x16, [x16, _memset@GOTPAGEOFF]
	blr	x16
	add	x0, sp, #32
	mov	x1, x23
	mov	x2, x22
	lsl	x24, x22, #3
	bl	_aes.aes_hybrid.plane_keys.store_planes
	mov	x0, sp
	add	x1, sp, #32
	mov	x2, x24
	mov	x3, x19
	stp	x23, x22, [sp]
	stp	x21, x20, [sp, #16]
	bl	_aes.aes_hybrid.closures.call_to_work.2
	add	x0, sp, #32
	bl	_aes.aes_cipher.zeroize.zeroize_words
	bl	_aes.aes_cipher.zeroize.stack.wipe_stack.2032
	add	sp, sp, #1952
	ldp	x20, x19, [sp, #64]             // 16-byte Folded Reload
	ldr	x28, [sp, #16]                  // 8-byte Reload
	ldp	x22, x21, [sp, #48]             // 16-byte Folded Reload
	ldp	x24, x23, [sp, #32]             // 16-byte Folded Reload
	ldp	x29, x30, [sp], #80             // 16-byte Folded Reload
	ret
                                        // -- End function
	.section	__TEXT,__const
	.p2align	4, 0x0                          // -- Begin function aes_hybrid::closures::call_to_work::<#f679257bbe3eb97f>
l_aes_CPI31_0:
	.byte	0                               // 0x0
	.byte	4                               // 0x4
	.byte	8                               // 0x8
	.byte	12                              // 0xc
	.byte	1                               // 0x1
	.byte	5                               // 0x5
	.byte	9                               // 0x9
	.byte	13                              // 0xd
	.byte	2                               // 0x2
	.byte	6                               // 0x6
	.byte	10                              // 0xa
	.byte	14                              // 0xe
	.byte	3                               // 0x3
	.byte	7                               // 0x7
	.byte	11                              // 0xb
	.byte	15                              // 0xf
	.section	__TEXT,__text,regular,pure_instructions
	.p2align	2
_aes.aes_hybrid.closures.call_to_work.2: // @_aes.aes_hybrid.closures.call_to_work.2
// %bb.0:                               // %start
	ldr	x9, [x3, #24]
	cbz	x9, Laes_BB31_12
// %bb.1:                               // %join.5.lr.ph.i.i
	stp	x29, x30, [sp, #-96]!           // 16-byte Folded Spill
	stp	x28, x27, [sp, #16]             // 16-byte Folded Spill
	mov	x29, sp
	stp	x26, x25, [sp, #32]             // 16-byte Folded Spill
	stp	x24, x23, [sp, #48]             // 16-byte Folded Spill
	stp	x22, x21, [sp, #64]             // 16-byte Folded Spill
	stp	x20, x19, [sp, #80]             // 16-byte Folded Spill
	sub	sp, sp, #1232
	str	xzr, [sp]
	lsr	x8, x2, #3
	mov	x19, x3
	ldr	x10, [x3, #16]
	mov	x20, x1
	mov	x21, x0
	mov	x11, xzr
	sub	x22, x8, #1
	add	x8, x10, #64
	str	x10, [sp, #32]                  // 8-byte Spill
	stp	x8, x9, [sp, #8]                // 16-byte Folded Spill
Laes_BB31_2:                               // %join.5.i.i
                                        // =>This Loop Header: Depth=1
                                        //     Child Loop BB31_4 Depth 2
                                        //     Child Loop BB31_7 Depth 2
                                        //     Child Loop BB31_9 Depth 2
	sub	x24, x9, x11
	mov	w8, #64                         // =0x40
	lsl	x26, x11, #4
	cmp	x24, #64
	ldr	x25, [sp, #32]                  // 8-byte Reload
	add	x0, sp, #64
	csel	x28, x24, x8, lo
	mov	w1, wzr
	mov	w2, #1024                       // =0x400
	str	x11, [sp, #40]                  // 8-byte Spill
	lsl	x23, x28, #4
	add	x27, x25, x26
	adrp	x16, _memset@GOTPAGE
	ldr	x16, [x16, _memset@GOTPAGEOFF]
	blr	x16
	add	x0, sp, #64
	add	x1, x25, x26
	mov	x2, x23
	adrp	x16, _memcpy@GOTPAGE
	ldr	x16, [x16, _memcpy@GOTPAGEOFF]
	blr	x16
	cmp	x24, #8
	mov	x23, xzr
	str	x26, [sp, #24]                  // 8-byte Spill
	b.lo	Laes_BB31_5
// %bb.3:                               // %join.5.i.i.i.i.preheader
                                        //   in Loop: Header=BB31_2 Depth=1
	ldr	x8, [sp, #8]                    // 8-byte Reload
	mov	x24, x28
	add	x26, x8, x26
Laes_BB31_4:                               // %join.5.i.i.i.i
                                        //   Parent Loop BB31_2 Depth=1
                                        // =>  This Inner Loop Header: Depth=2
	adrp	x8, l_aes_CPI31_0@PAGE
	ldp	q0, q3, [x26]
	ldp	q1, q2, [x26, #-64]
	movi	v21.16b, #85
	ldr	q18, [x8, l_aes_CPI31_0@PAGEOFF]
	ldp	q4, q7, [x26, #32]
	sub	x2, x29, #144
	mov	x0, x20
	mov	x1, x22
	tbl	v1.16b, { v1.16b }, v18.16b
	tbl	v5.16b, { v0.16b }, v18.16b
	tbl	v17.16b, { v3.16b }, v18.16b
	ldp	q0, q6, [x26, #-32]
	tbl	v4.16b, { v4.16b }, v18.16b
	tbl	v7.16b, { v7.16b }, v18.16b
	str	q18, [sp, #48]                  // 16-byte Spill
	tbl	v16.16b, { v0.16b }, v18.16b
	tbl	v0.16b, { v2.16b }, v18.16b
	ushr	v2.16b, v1.16b, #1
	ushr	v3.16b, v5.16b, #1
	tbl	v6.16b, { v6.16b }, v18.16b
	ushr	v19.16b, v4.16b, #1
	ushr	v18.16b, v16.16b, #1
	eor	v2.16b, v0.16b, v2.16b
	eor	v3.16b, v17.16b, v3.16b
	eor	v19.16b, v7.16b, v19.16b
	eor	v18.16b, v6.16b, v18.16b
	and	v2.16b, v2.16b, v21.16b
	and	v20.16b, v3.16b, v21.16b
	and	v19.16b, v19.16b, v21.16b
	and	v18.16b, v18.16b, v21.16b
	add	v3.16b, v2.16b, v2.16b
	add	v21.16b, v20.16b, v20.16b
	add	v23.16b, v19.16b, v19.16b
	eor	v0.16b, v2.16b, v0.16b
	eor	v7.16b, v19.16b, v7.16b
	add	v22.16b, v18.16b, v18.16b
	eor	v3.16b, v3.16b, v1.16b
	eor	v2.16b, v21.16b, v5.16b
	eor	v1.16b, v20.16b, v17.16b
	eor	v5.16b, v18.16b, v6.16b
	eor	v4.16b, v23.16b, v4.16b
	movi	v20.16b, #51
	movi	v23.16b, #15
	eor	v6.16b, v22.16b, v16.16b
	ushr	v16.16b, v0.16b, #2
	ushr	v17.16b, v3.16b, #2
	ushr	v18.16b, v2.16b, #2
	ushr	v19.16b, v1.16b, #2
	eor	v16.16b, v5.16b, v16.16b
	eor	v17.16b, v6.16b, v17.16b
	eor	v18.16b, v4.16b, v18.16b
	eor	v19.16b, v7.16b, v19.16b
	and	v16.16b, v16.16b, v20.16b
	and	v17.16b, v17.16b, v20.16b
	and	v18.16b, v18.16b, v20.16b
	and	v19.16b, v19.16b, v20.16b
	eor	v5.16b, v16.16b, v5.16b
	eor	v6.16b, v17.16b, v6.16b
	shl	v17.16b, v17.16b, #2
	eor	v4.16b, v18.16b, v4.16b
	eor	v7.16b, v19.16b, v7.16b
	shl	v18.16b, v18.16b, #2
	shl	v16.16b, v16.16b, #2
	shl	v19.16b, v19.16b, #2
	ushr	v20.16b, v5.16b, #4
	ushr	v21.16b, v6.16b, #4
	eor	v3.16b, v17.16b, v3.16b
	and	v22.16b, v4.16b, v23.16b
	and	v17.16b, v7.16b, v23.16b
	eor	v2.16b, v18.16b, v2.16b
	eor	v0.16b, v16.16b, v0.16b
	eor	v1.16b, v19.16b, v1.16b
	ushr	v18.16b, v3.16b, #4
	eor	v16.16b, v22.16b, v21.16b
	eor	v17.16b, v17.16b, v20.16b
	and	v19.16b, v2.16b, v23.16b
	ushr	v20.16b, v0.16b, #4
	and	v21.16b, v1.16b, v23.16b
	eor	v18.16b, v19.16b, v18.16b
	shl	v19.16b, v17.16b, #4
	shl	v22.16b, v16.16b, #4
	eor	v20.16b, v21.16b, v20.16b
	eor	v5.16b, v19.16b, v5.16b
	shl	v19.16b, v18.16b, #4
	eor	v2.16b, v18.16b, v2.16b
	shl	v18.16b, v20.16b, #4
	eor	v1.16b, v20.16b, v1.16b
	eor	v6.16b, v22.16b, v6.16b
	eor	v3.16b, v19.16b, v3.16b
	eor	v0.16b, v18.16b, v0.16b
	stp	q6, q5, [x29, #-112]
	stp	q2, q1, [x29, #-80]
	eor	v2.16b, v16.16b, v4.16b
	eor	v1.16b, v17.16b, v7.16b
	stp	q3, q0, [x29, #-144]
	stp	q2, q1, [x29, #-48]
	bl	_aes.aes_soft.soft.ciphers.planes.DecryptPlaneCipher.process_planes
	ldp	q0, q4, [x29, #-80]
	movi	v20.16b, #85
	ldp	q1, q2, [x29, #-144]
	sub	x24, x24, #8
	ldp	q3, q16, [x29, #-112]
	cmp	x24, #7
	ushr	v6.16b, v0.16b, #1
	ldp	q7, q17, [x29, #-48]
	ushr	v5.16b, v1.16b, #1
	add	x23, x23, #8
	ushr	v18.16b, v3.16b, #1
	ushr	v19.16b, v7.16b, #1
	eor	v6.16b, v4.16b, v6.16b
	eor	v5.16b, v2.16b, v5.16b
	eor	v18.16b, v16.16b, v18.16b
	eor	v19.16b, v17.16b, v19.16b
	and	v6.16b, v6.16b, v20.16b
	and	v5.16b, v5.16b, v20.16b
	and	v18.16b, v18.16b, v20.16b
	and	v19.16b, v19.16b, v20.16b
	add	v21.16b, v6.16b, v6.16b
	eor	v4.16b, v6.16b, v4.16b
	add	v20.16b, v5.16b, v5.16b
	eor	v2.16b, v5.16b, v2.16b
	add	v22.16b, v18.16b, v18.16b
	eor	v5.16b, v18.16b, v16.16b
	eor	v0.16b, v21.16b, v0.16b
	eor	v17.16b, v19.16b, v17.16b
	eor	v1.16b, v20.16b, v1.16b
	add	v20.16b, v19.16b, v19.16b
	ushr	v18.16b, v2.16b, #2
	ushr	v19.16b, v4.16b, #2
	eor	v3.16b, v22.16b, v3.16b
	movi	v22.16b, #15
	ushr	v16.16b, v0.16b, #2
	eor	v6.16b, v20.16b, v7.16b
	movi	v20.16b, #51
	eor	v18.16b, v5.16b, v18.16b
	eor	v19.16b, v17.16b, v19.16b
	ushr	v7.16b, v1.16b, #2
	eor	v16.16b, v6.16b, v16.16b
	and	v18.16b, v18.16b, v20.16b
	and	v19.16b, v19.16b, v20.16b
	eor	v7.16b, v3.16b, v7.16b
	and	v16.16b, v16.16b, v20.16b
	eor	v5.16b, v18.16b, v5.16b
	eor	v17.16b, v19.16b, v17.16b
	and	v7.16b, v7.16b, v20.16b
	shl	v18.16b, v18.16b, #2
	shl	v19.16b, v19.16b, #2
	eor	v6.16b, v16.16b, v6.16b
	shl	v16.16b, v16.16b, #2
	ushr	v21.16b, v5.16b, #4
	eor	v3.16b, v7.16b, v3.16b
	shl	v7.16b, v7.16b, #2
	eor	v2.16b, v18.16b, v2.16b
	eor	v4.16b, v19.16b, v4.16b
	eor	v0.16b, v16.16b, v0.16b
	and	v16.16b, v17.16b, v22.16b
	and	v20.16b, v6.16b, v22.16b
	eor	v1.16b, v7.16b, v1.16b
	ushr	v7.16b, v3.16b, #4
	eor	v16.16b, v16.16b, v21.16b
	movi	v21.16b, #15
	and	v19.16b, v0.16b, v22.16b
	eor	v7.16b, v20.16b, v7.16b
	ushr	v18.16b, v1.16b, #4
	ushr	v20.16b, v2.16b, #4
	and	v21.16b, v4.16b, v21.16b
	shl	v22.16b, v7.16b, #4
	eor	v18.16b, v19.16b, v18.16b
	shl	v19.16b, v16.16b, #4
	eor	v6.16b, v7.16b, v6.16b
	eor	v7.16b, v16.16b, v17.16b
	eor	v20.16b, v21.16b, v20.16b
	eor	v3.16b, v22.16b, v3.16b
	eor	v0.16b, v18.16b, v0.16b
	eor	v5.16b, v19.16b, v5.16b
	shl	v19.16b, v18.16b, #4
	eor	v4.16b, v20.16b, v4.16b
	shl	v18.16b, v20.16b, #4
	ldr	q20, [sp, #48]                  // 16-byte Reload
	eor	v1.16b, v19.16b, v1.16b
	tbl	v3.16b, { v3.16b }, v20.16b
	tbl	v5.16b, { v5.16b }, v20.16b
	tbl	v0.16b, { v0.16b }, v20.16b
	tbl	v4.16b, { v4.16b }, v20.16b
	eor	v2.16b, v18.16b, v2.16b
	tbl	v1.16b, { v1.16b }, v20.16b
	stp	q3, q5, [x26, #-32]
	tbl	v2.16b, { v2.16b }, v20.16b
	tbl	v3.16b, { v6.16b }, v20.16b
	stp	q0, q4, [x26]
	tbl	v0.16b, { v7.16b }, v20.16b
	stp	q1, q2, [x26, #-64]
	stp	q3, q0, [x26, #32]
	add	x26, x26, #128
	b.hi	Laes_BB31_4
Laes_BB31_5:                               // %loop.7.preheader.i.i.i.i
                                        //   in Loop: Header=BB31_2 Depth=1
	subs	x24, x28, x23
	b.ls	Laes_BB31_8
// %bb.6:                               // %join.10.i.i.i.i.preheader
                                        //   in Loop: Header=BB31_2 Depth=1
	ldp	x8, x9, [sp, #24]               // 16-byte Folded Reload
	add	x8, x8, x23, lsl #4
	add	x23, x9, x8
Laes_BB31_7:                               // %join.10.i.i.i.i
                                        //   Parent Loop BB31_2 Depth=1
                                        // =>  This Inner Loop Header: Depth=2
	ldp	x0, x1, [x21, #16]
	mov	x2, x23
	mov	w3, #1                          // =0x1
	bl	_aes.aes_permute.blocks.process_on_lanes.2
	subs	x24, x24, #1
	add	x23, x23, #16
	b.ne	Laes_BB31_7
Laes_BB31_8:                               // %join.7.lr.ph.i.i.i
                                        //   in Loop: Header=BB31_2 Depth=1
	ldr	x11, [sp, #40]                  // 8-byte Reload
	ldr	q0, [x19]
	add	x8, sp, #64
	add	x11, x28, x11
Laes_BB31_9:                               // %join.7.i.i.i
                                        //   Parent Loop BB31_2 Depth=1
                                        // =>  This Inner Loop Header: Depth=2
	ldr	q1, [x27]
	subs	x28, x28, #1
	eor	v1.16b, v1.16b, v0.16b
	ldr	q0, [x8], #16
	str	q1, [x27], #16
	str	q0, [x19]
	b.ne	Laes_BB31_9
// %bb.10:                              // %"cbc::decryption::unchain_part::<#e6bd2e7595c2ce9d>.exit.loopexit.i.i"
                                        //   in Loop: Header=BB31_2 Depth=1
	ldr	x9, [sp, #16]                   // 8-byte Reload
	cmp	x11, x9
	b.lo	Laes_BB31_2
// %bb.11:
	add	sp, sp, #1232
	ldp	x20, x19, [sp, #80]             // 16-byte Folded Reload
	ldp	x22, x21, [sp, #64]             // 16-byte Folded Reload
	ldp	x24, x23, [sp, #48]             // 16-byte Folded Reload
	ldp	x26, x25, [sp, #32]             // 16-byte Folded Reload
	ldp	x28, x27, [sp, #16]             // 16-byte Folded Reload
	ldp	x29, x30, [sp], #96             // 16-byte Folded Reload
Laes_BB31_12:                              // %"cbc::decryption::ChainBlockCipherDecClosure::call::<#e6bd2e7595c2ce9d>.exit"
	ret
                                        // -- End function
	.section	__TEXT,__const
	.p2align	4, 0x0                          // -- Begin function aes_soft::soft::ciphers::planes::process_outlined::<#0cf5cff84c52603c>
l_aes_CPI32_0:
	.byte	0                               // 0x0
	.byte	4                               // 0x4
	.byte	8                               // 0x8
	.byte	12                              // 0xc
	.byte	1                               // 0x1
	.byte	5                               // 0x5
	.byte	9                               // 0x9
	.byte	13                              // 0xd
	.byte	2                               // 0x2
	.byte	6                               // 0x6
	.byte	10                              // 0xa
	.byte	14                              // 0xe
	.byte	3                               // 0x3
	.byte	7                               // 0x7
	.byte	11                              // 0xb
	.byte	15                              // 0xf
	.section	__TEXT,__text,regular,pure_instructions
	.p2align	2
_aes.aes_soft.soft.ciphers.planes.process_outlined.2: // @_aes.aes_soft.soft.ciphers.planes.process_outlined.2
// %bb.0:                               // %start
	sub	sp, sp, #176
	adrp	x9, l_aes_CPI32_0@PAGE
	ldp	q0, q2, [x3]
	ldp	q1, q3, [x3, #64]
	movi	v21.16b, #85
	ldr	q18, [x9, l_aes_CPI32_0@PAGEOFF]
	ldp	q5, q6, [x3, #32]
	mov	x8, x2
	str	x19, [sp, #160]                 // 8-byte Spill
	mov	x19, x0
	tbl	v4.16b, { v0.16b }, v18.16b
	tbl	v1.16b, { v1.16b }, v18.16b
	tbl	v17.16b, { v3.16b }, v18.16b
	ldp	q0, q7, [x3, #96]
	tbl	v5.16b, { v5.16b }, v18.16b
	tbl	v6.16b, { v6.16b }, v18.16b
	str	q18, [sp]                       // 16-byte Spill
	add	x2, sp, #16
	mov	x0, x1
	mov	x1, x8
	stp	x29, x30, [sp, #144]            // 16-byte Folded Spill
	tbl	v16.16b, { v0.16b }, v18.16b
	tbl	v0.16b, { v2.16b }, v18.16b
	ushr	v2.16b, v4.16b, #1
	ushr	v3.16b, v1.16b, #1
	tbl	v7.16b, { v7.16b }, v18.16b
	ushr	v18.16b, v5.16b, #1
	add	x29, sp, #144
	ushr	v19.16b, v16.16b, #1
	eor	v2.16b, v0.16b, v2.16b
	eor	v3.16b, v17.16b, v3.16b
	eor	v18.16b, v6.16b, v18.16b
	eor	v19.16b, v7.16b, v19.16b
	and	v2.16b, v2.16b, v21.16b
	and	v20.16b, v3.16b, v21.16b
	and	v18.16b, v18.16b, v21.16b
	and	v19.16b, v19.16b, v21.16b
	add	v3.16b, v2.16b, v2.16b
	add	v21.16b, v20.16b, v20.16b
	add	v22.16b, v18.16b, v18.16b
	eor	v0.16b, v2.16b, v0.16b
	add	v23.16b, v19.16b, v19.16b
	eor	v3.16b, v3.16b, v4.16b
	eor	v2.16b, v21.16b, v1.16b
	eor	v1.16b, v20.16b, v17.16b
	eor	v4.16b, v18.16b, v6.16b
	eor	v5.16b, v22.16b, v5.16b
	eor	v7.16b, v19.16b, v7.16b
	movi	v20.16b, #51
	eor	v6.16b, v23.16b, v16.16b
	ushr	v16.16b, v0.16b, #2
	ushr	v17.16b, v3.16b, #2
	ushr	v18.16b, v2.16b, #2
	ushr	v19.16b, v1.16b, #2
	movi	v23.16b, #15
	eor	v16.16b, v4.16b, v16.16b
	eor	v17.16b, v5.16b, v17.16b
	eor	v18.16b, v6.16b, v18.16b
	eor	v19.16b, v7.16b, v19.16b
	and	v16.16b, v16.16b, v20.16b
	and	v17.16b, v17.16b, v20.16b
	and	v18.16b, v18.16b, v20.16b
	and	v19.16b, v19.16b, v20.16b
	eor	v4.16b, v16.16b, v4.16b
	eor	v5.16b, v17.16b, v5.16b
	shl	v17.16b, v17.16b, #2
	eor	v6.16b, v18.16b, v6.16b
	eor	v7.16b, v19.16b, v7.16b
	shl	v18.16b, v18.16b, #2
	shl	v16.16b, v16.16b, #2
	shl	v19.16b, v19.16b, #2
	ushr	v20.16b, v4.16b, #4
	ushr	v21.16b, v5.16b, #4
	eor	v3.16b, v17.16b, v3.16b
	and	v22.16b, v6.16b, v23.16b
	and	v17.16b, v7.16b, v23.16b
	eor	v2.16b, v18.16b, v2.16b
	eor	v0.16b, v16.16b, v0.16b
	eor	v1.16b, v19.16b, v1.16b
	ushr	v18.16b, v3.16b, #4
	eor	v16.16b, v22.16b, v21.16b
	eor	v17.16b, v17.16b, v20.16b
	and	v19.16b, v2.16b, v23.16b
	ushr	v20.16b, v0.16b, #4
	and	v21.16b, v1.16b, v23.16b
	eor	v18.16b, v19.16b, v18.16b
	shl	v19.16b, v17.16b, #4
	shl	v22.16b, v16.16b, #4
	eor	v20.16b, v21.16b, v20.16b
	eor	v4.16b, v19.16b, v4.16b
	shl	v19.16b, v18.16b, #4
	eor	v2.16b, v18.16b, v2.16b
	shl	v18.16b, v20.16b, #4
	eor	v1.16b, v20.16b, v1.16b
	eor	v5.16b, v22.16b, v5.16b
	eor	v3.16b, v19.16b, v3.16b
	eor	v0.16b, v18.16b, v0.16b
	stp	q5, q4, [sp, #48]
	stp	q2, q1, [sp, #80]
	eor	v2.16b, v16.16b, v6.16b
	eor	v1.16b, v17.16b, v7.16b
	stp	q3, q0, [sp, #16]
	stp	q2, q1, [sp, #112]
	bl	_aes.aes_soft.soft.ciphers.planes.DecryptPlaneCipher.process_planes
	ldp	q0, q4, [sp, #80]
	movi	v20.16b, #85
	ldp	q1, q2, [sp, #16]
	ldp	q3, q16, [sp, #48]
	ushr	v6.16b, v0.16b, #1
	ldp	q7, q17, [sp, #112]
	ushr	v5.16b, v1.16b, #1
	ldp	x29, x30, [sp, #144]            // 16-byte Folded Reload
	ushr	v18.16b, v3.16b, #1
	ushr	v19.16b, v7.16b, #1
	eor	v6.16b, v4.16b, v6.16b
	eor	v5.16b, v2.16b, v5.16b
	eor	v18.16b, v16.16b, v18.16b
	eor	v19.16b, v17.16b, v19.16b
	and	v6.16b, v6.16b, v20.16b
	and	v5.16b, v5.16b, v20.16b
	and	v18.16b, v18.16b, v20.16b
	and	v19.16b, v19.16b, v20.16b
	add	v21.16b, v6.16b, v6.16b
	eor	v4.16b, v6.16b, v4.16b
	add	v20.16b, v5.16b, v5.16b
	eor	v2.16b, v5.16b, v2.16b
	add	v22.16b, v18.16b, v18.16b
	eor	v5.16b, v18.16b, v16.16b
	eor	v0.16b, v21.16b, v0.16b
	eor	v17.16b, v19.16b, v17.16b
	eor	v1.16b, v20.16b, v1.16b
	add	v20.16b, v19.16b, v19.16b
	ushr	v18.16b, v2.16b, #2
	ushr	v19.16b, v4.16b, #2
	eor	v3.16b, v22.16b, v3.16b
	movi	v22.16b, #15
	ushr	v16.16b, v0.16b, #2
	eor	v6.16b, v20.16b, v7.16b
	movi	v20.16b, #51
	eor	v18.16b, v5.16b, v18.16b
	eor	v19.16b, v17.16b, v19.16b
	ushr	v7.16b, v1.16b, #2
	eor	v16.16b, v6.16b, v16.16b
	and	v18.16b, v18.16b, v20.16b
	and	v19.16b, v19.16b, v20.16b
	eor	v7.16b, v3.16b, v7.16b
	and	v16.16b, v16.16b, v20.16b
	eor	v5.16b, v18.16b, v5.16b
	eor	v17.16b, v19.16b, v17.16b
	and	v7.16b, v7.16b, v20.16b
	shl	v18.16b, v18.16b, #2
	shl	v19.16b, v19.16b, #2
	eor	v6.16b, v16.16b, v6.16b
	shl	v16.16b, v16.16b, #2
	ushr	v21.16b, v5.16b, #4
	eor	v3.16b, v7.16b, v3.16b
	shl	v7.16b, v7.16b, #2
	eor	v2.16b, v18.16b, v2.16b
	eor	v4.16b, v19.16b, v4.16b
	eor	v0.16b, v16.16b, v0.16b
	and	v16.16b, v17.16b, v22.16b
	and	v20.16b, v6.16b, v22.16b
	eor	v1.16b, v7.16b, v1.16b
	ushr	v7.16b, v3.16b, #4
	eor	v16.16b, v16.16b, v21.16b
	movi	v21.16b, #15
	and	v19.16b, v0.16b, v22.16b
	eor	v7.16b, v20.16b, v7.16b
	ushr	v18.16b, v1.16b, #4
	ushr	v20.16b, v2.16b, #4
	and	v21.16b, v4.16b, v21.16b
	shl	v22.16b, v7.16b, #4
	eor	v18.16b, v19.16b, v18.16b
	shl	v19.16b, v16.16b, #4
	eor	v6.16b, v7.16b, v6.16b
	eor	v7.16b, v16.16b, v17.16b
	eor	v20.16b, v21.16b, v20.16b
	eor	v3.16b, v22.16b, v3.16b
	eor	v0.16b, v18.16b, v0.16b
	eor	v5.16b, v19.16b, v5.16b
	shl	v19.16b, v18.16b, #4
	eor	v4.16b, v20.16b, v4.16b
	shl	v18.16b, v20.16b, #4
	ldr	q20, [sp]                       // 16-byte Reload
	eor	v1.16b, v19.16b, v1.16b
	tbl	v3.16b, { v3.16b }, v20.16b
	tbl	v5.16b, { v5.16b }, v20.16b
	tbl	v0.16b, { v0.16b }, v20.16b
	tbl	v4.16b, { v4.16b }, v20.16b
	eor	v2.16b, v18.16b, v2.16b
	tbl	v1.16b, { v1.16b }, v20.16b
	stp	q3, q5, [x19, #32]
	tbl	v2.16b, { v2.16b }, v20.16b
	tbl	v3.16b, { v6.16b }, v20.16b
	stp	q0, q4, [x19, #64]
	tbl	v0.16b, { v7.16b }, v20.16b
	stp	q1, q2, [x19]
	stp	q3, q0, [x19, #96]
	ldr	x19, [sp, #160]                 // 8-byte Reload
	add	sp, sp, #176
	ret
                                        // -- End function
	.section	__TEXT,__const
	.p2align	4, 0x0                          // -- Begin function aes_soft::soft::ciphers::planes::DecryptPlaneCipher::process_planes::<#f2467153fb0a218d>
l_aes_CPI33_0:
	.byte	2                               // 0x2
	.byte	3                               // 0x3
	.byte	4                               // 0x4
	.byte	5                               // 0x5
	.byte	6                               // 0x6
	.byte	7                               // 0x7
	.byte	8                               // 0x8
	.byte	9                               // 0x9
	.byte	10                              // 0xa
	.byte	11                              // 0xb
	.byte	12                              // 0xc
	.byte	13                              // 0xd
	.byte	14                              // 0xe
	.byte	15                              // 0xf
	.byte	255                             // 0xff
	.byte	255                             // 0xff
l_aes_CPI33_1:
	.byte	255                             // 0xff
	.byte	255                             // 0xff
	.byte	0                               // 0x0
	.byte	1                               // 0x1
	.byte	2                               // 0x2
	.byte	3                               // 0x3
	.byte	4                               // 0x4
	.byte	5                               // 0x5
	.byte	6                               // 0x6
	.byte	7                               // 0x7
	.byte	8                               // 0x8
	.byte	9                               // 0x9
	.byte	10                              // 0xa
	.byte	11                              // 0xb
	.byte	12                              // 0xc
	.byte	13                              // 0xd
l_aes_CPI33_2:
	.byte	7                               // 0x7
	.byte	4                               // 0x4
	.byte	5                               // 0x5
	.byte	6                               // 0x6
	.byte	11                              // 0xb
	.byte	8                               // 0x8
	.byte	9                               // 0x9
	.byte	10                              // 0xa
	.byte	15                              // 0xf
	.byte	12                              // 0xc
	.byte	13                              // 0xd
	.byte	14                              // 0xe
	.byte	3                               // 0x3
	.byte	0                               // 0x0
	.byte	1                               // 0x1
	.byte	2                               // 0x2
l_aes_CPI33_3:
	.byte	10                              // 0xa
	.byte	11                              // 0xb
	.byte	8                               // 0x8
	.byte	9                               // 0x9
	.byte	14                              // 0xe
	.byte	15                              // 0xf
	.byte	12                              // 0xc
	.byte	13                              // 0xd
	.byte	2                               // 0x2
	.byte	3                               // 0x3
	.byte	0                               // 0x0
	.byte	1                               // 0x1
	.byte	6                               // 0x6
	.byte	7                               // 0x7
	.byte	4                               // 0x4
	.byte	5                               // 0x5
l_aes_CPI33_4:
	.byte	6                               // 0x6
	.byte	7                               // 0x7
	.byte	4                               // 0x4
	.byte	5                               // 0x5
	.byte	10                              // 0xa
	.byte	11                              // 0xb
	.byte	8                               // 0x8
	.byte	9                               // 0x9
	.byte	14                              // 0xe
	.byte	15                              // 0xf
	.byte	12                              // 0xc
	.byte	13                              // 0xd
	.byte	2                               // 0x2
	.byte	3                               // 0x3
	.byte	0                               // 0x0
	.byte	1                               // 0x1
l_aes_CPI33_5:
	.byte	5                               // 0x5
	.byte	6                               // 0x6
	.byte	7                               // 0x7
	.byte	4                               // 0x4
	.byte	9                               // 0x9
	.byte	10                              // 0xa
	.byte	11                              // 0xb
	.byte	8                               // 0x8
	.byte	13                              // 0xd
	.byte	14                              // 0xe
	.byte	15                              // 0xf
	.byte	12                              // 0xc
	.byte	1                               // 0x1
	.byte	2                               // 0x2
	.byte	3                               // 0x3
	.byte	0                               // 0x0
	.section	__TEXT,__text,regular,pure_instructions
	.p2align	2
_aes.aes_soft.soft.ciphers.planes.DecryptPlaneCipher.process_planes: // @_aes.aes_soft.soft.ciphers.planes.DecryptPlaneCipher.process_planes
// %bb.0:                               // %start
	stp	d15, d14, [sp, #-64]!           // 16-byte Folded Spill
	add	x14, x0, x1, lsl #7
	ldp	q1, q2, [x2]
	ldp	q4, q5, [x2, #64]
	sub	x13, x1, #2
	ldp	q0, q3, [x14]
	and	x12, x13, #0xfffffffffffffffc
	ldp	q6, q7, [x2, #96]
	orr	x9, x12, #0x2
	ldp	q16, q17, [x14, #96]
	lsr	x8, x13, #2
	eor	v20.16b, v0.16b, v1.16b
	ldp	q0, q1, [x2, #32]
	ldp	q18, q19, [x14, #32]
	eor	v2.16b, v3.16b, v2.16b
	ldp	q21, q22, [x14, #64]
	eor	v6.16b, v16.16b, v6.16b
	eor	v24.16b, v17.16b, v7.16b
	stp	d13, d12, [sp, #16]             // 16-byte Folded Spill
	cmp	x9, x1
	eor	v25.16b, v19.16b, v1.16b
	stp	d11, d10, [sp, #32]             // 16-byte Folded Spill
	adrp	x9, l_aes_CPI33_2@PAGE
	eor	v3.16b, v21.16b, v4.16b
	eor	v26.16b, v22.16b, v5.16b
	eor	v4.16b, v18.16b, v0.16b
	eor	v18.16b, v2.16b, v20.16b
	eor	v0.16b, v24.16b, v6.16b
	eor	v27.16b, v6.16b, v2.16b
	eor	v28.16b, v25.16b, v20.16b
	stp	d9, d8, [sp, #48]               // 16-byte Folded Spill
	adrp	x11, l_aes_CPI33_3@PAGE
	eor	v5.16b, v26.16b, v25.16b
	eor	v7.16b, v24.16b, v3.16b
	eor	v1.16b, v3.16b, v25.16b
	eor	v17.16b, v4.16b, v2.16b
	eor	v21.16b, v6.16b, v3.16b
	eor	v29.16b, v26.16b, v4.16b
	eor	v4.16b, v0.16b, v28.16b
	eor	v2.16b, v0.16b, v18.16b
	adrp	x10, l_aes_CPI33_4@PAGE
	eor	v3.16b, v5.16b, v27.16b
	eor	v16.16b, v7.16b, v6.16b
	eor	v23.16b, v1.16b, v18.16b
	eor	v5.16b, v1.16b, v17.16b
	eor	v19.16b, v21.16b, v18.16b
	eor	v22.16b, v24.16b, v29.16b
	eor	v18.16b, v21.16b, v29.16b
	eor	v20.16b, v1.16b, v20.16b
	eor	v6.16b, v16.16b, v25.16b
	and	v29.16b, v16.16b, v7.16b
	and	v30.16b, v3.16b, v23.16b
	eor	v31.16b, v4.16b, v5.16b
	eor	v25.16b, v27.16b, v28.16b
	eor	v24.16b, v19.16b, v26.16b
	eor	v27.16b, v17.16b, v4.16b
	and	v8.16b, v2.16b, v18.16b
	orr	v9.16b, v3.16b, v23.16b
	and	v10.16b, v6.16b, v5.16b
	and	v11.16b, v21.16b, v20.16b
	and	v12.16b, v19.16b, v22.16b
	and	v31.16b, v31.16b, v1.16b
	and	v13.16b, v24.16b, v25.16b
	eor	v17.16b, v4.16b, v17.16b
	eor	v27.16b, v27.16b, v29.16b
	eor	v29.16b, v30.16b, v1.16b
	and	v30.16b, v4.16b, v0.16b
	eor	v9.16b, v9.16b, v11.16b
	eor	v28.16b, v12.16b, v28.16b
	eor	v10.16b, v31.16b, v10.16b
	eor	v27.16b, v27.16b, v8.16b
	eor	v29.16b, v29.16b, v13.16b
	eor	v30.16b, v31.16b, v30.16b
	eor	v28.16b, v28.16b, v8.16b
	eor	v31.16b, v9.16b, v10.16b
	eor	v27.16b, v27.16b, v10.16b
	eor	v26.16b, v29.16b, v26.16b
	eor	v28.16b, v28.16b, v30.16b
	and	v29.16b, v27.16b, v31.16b
	eor	v26.16b, v26.16b, v30.16b
	eor	v30.16b, v27.16b, v28.16b
	and	v9.16b, v28.16b, v31.16b
	and	v27.16b, v27.16b, v26.16b
	eor	v8.16b, v29.16b, v26.16b
	eor	v10.16b, v29.16b, v28.16b
	eor	v31.16b, v26.16b, v31.16b
	and	v27.16b, v27.16b, v30.16b
	and	v8.16b, v8.16b, v30.16b
	eor	v30.16b, v29.16b, v30.16b
	and	v10.16b, v10.16b, v31.16b
	bic	v31.16b, v31.16b, v9.16b
	eor	v28.16b, v8.16b, v28.16b
	eor	v27.16b, v30.16b, v27.16b
	eor	v26.16b, v10.16b, v26.16b
	eor	v29.16b, v31.16b, v29.16b
	eor	v30.16b, v28.16b, v27.16b
	and	v21.16b, v27.16b, v21.16b
	and	v24.16b, v28.16b, v24.16b
	eor	v31.16b, v28.16b, v26.16b
	eor	v8.16b, v27.16b, v29.16b
	eor	v9.16b, v26.16b, v29.16b
	and	v22.16b, v26.16b, v22.16b
	and	v7.16b, v29.16b, v7.16b
	and	v19.16b, v26.16b, v19.16b
	and	v23.16b, v30.16b, v23.16b
	and	v20.16b, v27.16b, v20.16b
	and	v16.16b, v29.16b, v16.16b
	eor	v10.16b, v31.16b, v8.16b
	and	v18.16b, v9.16b, v18.16b
	and	v25.16b, v28.16b, v25.16b
	eor	v7.16b, v22.16b, v7.16b
	and	v17.16b, v31.16b, v17.16b
	and	v3.16b, v30.16b, v3.16b
	eor	v26.16b, v23.16b, v21.16b
	and	v4.16b, v8.16b, v4.16b
	eor	v16.16b, v20.16b, v16.16b
	and	v5.16b, v10.16b, v5.16b
	eor	v27.16b, v18.16b, v24.16b
	and	v6.16b, v10.16b, v6.16b
	and	v2.16b, v9.16b, v2.16b
	and	v0.16b, v8.16b, v0.16b
	and	v1.16b, v31.16b, v1.16b
	eor	v26.16b, v26.16b, v17.16b
	eor	v17.16b, v16.16b, v17.16b
	eor	v24.16b, v3.16b, v24.16b
	eor	v5.16b, v5.16b, v20.16b
	eor	v20.16b, v7.16b, v19.16b
	eor	v7.16b, v7.16b, v21.16b
	eor	v21.16b, v3.16b, v25.16b
	eor	v25.16b, v6.16b, v4.16b
	eor	v28.16b, v2.16b, v0.16b
	eor	v0.16b, v27.16b, v0.16b
	eor	v16.16b, v27.16b, v16.16b
	eor	v3.16b, v6.16b, v3.16b
	eor	v23.16b, v20.16b, v23.16b
	eor	v2.16b, v7.16b, v4.16b
	eor	v5.16b, v5.16b, v26.16b
	eor	v4.16b, v18.16b, v22.16b
	eor	v7.16b, v25.16b, v26.16b
	eor	v17.16b, v21.16b, v17.16b
	eor	v18.16b, v1.16b, v19.16b
	eor	v19.16b, v0.16b, v20.16b
	eor	v6.16b, v23.16b, v25.16b
	eor	v20.16b, v2.16b, v28.16b
	eor	v3.16b, v3.16b, v5.16b
	eor	v2.16b, v16.16b, v7.16b
	eor	v1.16b, v4.16b, v7.16b
	eor	v0.16b, v24.16b, v7.16b
	eor	v4.16b, v19.16b, v5.16b
	eor	v5.16b, v18.16b, v28.16b
	eor	v6.16b, v6.16b, v17.16b
	eor	v7.16b, v20.16b, v17.16b
	b.hs	Laes_BB33_2
// %bb.1:                               // %then.3
	ldp	q16, q18, [x14, #-128]
	add	x13, x0, x13, lsl #7
	ldp	q17, q19, [x14, #-48]
	ldr	q20, [x9, l_aes_CPI33_2@PAGEOFF]
	ldur	q21, [x14, #-64]
	eor	v16.16b, v16.16b, v5.16b
	eor	v3.16b, v18.16b, v3.16b
	eor	v5.16b, v17.16b, v6.16b
	eor	v7.16b, v19.16b, v7.16b
	ldur	q17, [x14, #-16]
	ldp	q6, q19, [x14, #-96]
	eor	v1.16b, v21.16b, v1.16b
	eor	v0.16b, v17.16b, v0.16b
	tbl	v17.16b, { v5.16b }, v20.16b
	tbl	v18.16b, { v7.16b }, v20.16b
	eor	v2.16b, v6.16b, v2.16b
	eor	v4.16b, v19.16b, v4.16b
	tbl	v6.16b, { v16.16b }, v20.16b
	tbl	v19.16b, { v3.16b }, v20.16b
	tbl	v23.16b, { v0.16b }, v20.16b
	tbl	v21.16b, { v2.16b }, v20.16b
	tbl	v22.16b, { v4.16b }, v20.16b
	tbl	v20.16b, { v1.16b }, v20.16b
	eor	v6.16b, v6.16b, v16.16b
	eor	v17.16b, v17.16b, v5.16b
	eor	v18.16b, v18.16b, v7.16b
	eor	v19.16b, v19.16b, v3.16b
	eor	v23.16b, v23.16b, v0.16b
	eor	v21.16b, v21.16b, v2.16b
	eor	v22.16b, v22.16b, v4.16b
	eor	v3.16b, v6.16b, v3.16b
	eor	v7.16b, v17.16b, v7.16b
	eor	v0.16b, v18.16b, v0.16b
	eor	v20.16b, v20.16b, v1.16b
	eor	v2.16b, v19.16b, v2.16b
	eor	v16.16b, v23.16b, v16.16b
	eor	v4.16b, v21.16b, v4.16b
	eor	v1.16b, v22.16b, v1.16b
	eor	v3.16b, v3.16b, v23.16b
	eor	v24.16b, v0.16b, v7.16b
	eor	v21.16b, v0.16b, v21.16b
	eor	v22.16b, v7.16b, v22.16b
	eor	v25.16b, v2.16b, v20.16b
	eor	v17.16b, v0.16b, v17.16b
	eor	v5.16b, v20.16b, v5.16b
	eor	v4.16b, v4.16b, v23.16b
	eor	v1.16b, v1.16b, v23.16b
	eor	v6.16b, v7.16b, v6.16b
	eor	v19.16b, v24.16b, v19.16b
	eor	v20.16b, v21.16b, v16.16b
	eor	v21.16b, v22.16b, v3.16b
	eor	v22.16b, v24.16b, v25.16b
	eor	v23.16b, v23.16b, v5.16b
	ldr	q24, [x11, l_aes_CPI33_3@PAGEOFF]
	eor	v17.16b, v17.16b, v4.16b
	eor	v18.16b, v1.16b, v18.16b
	tbl	v25.16b, { v6.16b }, v24.16b
	tbl	v26.16b, { v19.16b }, v24.16b
	tbl	v27.16b, { v20.16b }, v24.16b
	tbl	v28.16b, { v21.16b }, v24.16b
	tbl	v29.16b, { v22.16b }, v24.16b
	eor	v6.16b, v6.16b, v16.16b
	tbl	v30.16b, { v17.16b }, v24.16b
	tbl	v31.16b, { v18.16b }, v24.16b
	tbl	v24.16b, { v23.16b }, v24.16b
	eor	v3.16b, v3.16b, v19.16b
	eor	v7.16b, v7.16b, v18.16b
	eor	v0.16b, v0.16b, v23.16b
	eor	v4.16b, v4.16b, v21.16b
	eor	v1.16b, v1.16b, v22.16b
	eor	v5.16b, v5.16b, v17.16b
	eor	v2.16b, v2.16b, v20.16b
	eor	v23.16b, v6.16b, v25.16b
	eor	v6.16b, v3.16b, v26.16b
	eor	v7.16b, v7.16b, v31.16b
	eor	v16.16b, v0.16b, v24.16b
	eor	v18.16b, v4.16b, v28.16b
	eor	v1.16b, v1.16b, v29.16b
	eor	v26.16b, v5.16b, v30.16b
	eor	v2.16b, v2.16b, v27.16b
	eor	v24.16b, v6.16b, v23.16b
	eor	v0.16b, v7.16b, v16.16b
	eor	v25.16b, v7.16b, v6.16b
	eor	v4.16b, v26.16b, v18.16b
	eor	v3.16b, v1.16b, v16.16b
	eor	v5.16b, v18.16b, v1.16b
	eor	v21.16b, v2.16b, v6.16b
	eor	v27.16b, v18.16b, v23.16b
	eor	v28.16b, v26.16b, v2.16b
	eor	v22.16b, v7.16b, v1.16b
	eor	v2.16b, v4.16b, v25.16b
	eor	v7.16b, v3.16b, v7.16b
	eor	v20.16b, v5.16b, v24.16b
	eor	v17.16b, v5.16b, v21.16b
	eor	v6.16b, v27.16b, v0.16b
	eor	v19.16b, v28.16b, v16.16b
	eor	v16.16b, v22.16b, v24.16b
	eor	v4.16b, v0.16b, v24.16b
	eor	v24.16b, v5.16b, v23.16b
	eor	v1.16b, v7.16b, v18.16b
	eor	v18.16b, v28.16b, v22.16b
	and	v28.16b, v7.16b, v3.16b
	and	v29.16b, v2.16b, v20.16b
	eor	v30.16b, v6.16b, v17.16b
	eor	v25.16b, v27.16b, v25.16b
	eor	v23.16b, v16.16b, v26.16b
	eor	v31.16b, v21.16b, v6.16b
	orr	v9.16b, v2.16b, v20.16b
	and	v8.16b, v18.16b, v4.16b
	and	v10.16b, v1.16b, v17.16b
	and	v11.16b, v24.16b, v22.16b
	and	v12.16b, v19.16b, v16.16b
	and	v30.16b, v30.16b, v5.16b
	eor	v26.16b, v29.16b, v26.16b
	and	v13.16b, v23.16b, v25.16b
	eor	v28.16b, v31.16b, v28.16b
	and	v29.16b, v6.16b, v0.16b
	eor	v9.16b, v9.16b, v11.16b
	eor	v21.16b, v6.16b, v21.16b
	eor	v31.16b, v30.16b, v10.16b
	eor	v27.16b, v12.16b, v27.16b
	eor	v28.16b, v28.16b, v8.16b
	eor	v26.16b, v13.16b, v26.16b
	eor	v29.16b, v30.16b, v29.16b
	eor	v30.16b, v9.16b, v31.16b
	eor	v27.16b, v27.16b, v8.16b
	eor	v28.16b, v28.16b, v31.16b
	eor	v26.16b, v26.16b, v5.16b
	eor	v27.16b, v27.16b, v29.16b
	and	v31.16b, v28.16b, v30.16b
	eor	v26.16b, v26.16b, v29.16b
	eor	v29.16b, v28.16b, v27.16b
	and	v28.16b, v26.16b, v28.16b
	eor	v8.16b, v31.16b, v26.16b
	eor	v9.16b, v31.16b, v27.16b
	eor	v10.16b, v26.16b, v30.16b
	and	v30.16b, v27.16b, v30.16b
	and	v28.16b, v28.16b, v29.16b
	and	v8.16b, v8.16b, v29.16b
	eor	v29.16b, v31.16b, v29.16b
	and	v9.16b, v9.16b, v10.16b
	bic	v30.16b, v10.16b, v30.16b
	eor	v27.16b, v8.16b, v27.16b
	eor	v28.16b, v29.16b, v28.16b
	eor	v26.16b, v9.16b, v26.16b
	eor	v29.16b, v30.16b, v31.16b
	eor	v8.16b, v28.16b, v27.16b
	and	v22.16b, v28.16b, v22.16b
	eor	v30.16b, v27.16b, v26.16b
	eor	v31.16b, v28.16b, v29.16b
	eor	v10.16b, v26.16b, v29.16b
	and	v28.16b, v28.16b, v24.16b
	and	v24.16b, v27.16b, v25.16b
	and	v25.16b, v29.16b, v3.16b
	and	v20.16b, v8.16b, v20.16b
	and	v7.16b, v29.16b, v7.16b
	and	v21.16b, v30.16b, v21.16b
	eor	v9.16b, v31.16b, v30.16b
	and	v3.16b, v10.16b, v18.16b
	and	v18.16b, v26.16b, v16.16b
	and	v5.16b, v30.16b, v5.16b
	and	v0.16b, v31.16b, v0.16b
	and	v4.16b, v10.16b, v4.16b
	eor	v7.16b, v28.16b, v7.16b
	eor	v11.16b, v21.16b, v22.16b
	and	v12.16b, v9.16b, v17.16b
	and	v17.16b, v26.16b, v19.16b
	and	v19.16b, v27.16b, v23.16b
	and	v26.16b, v8.16b, v2.16b
	and	v27.16b, v31.16b, v6.16b
	ldp	q31, q8, [x13]
	and	v1.16b, v9.16b, v1.16b
	ldp	q9, q10, [x13, #32]
	eor	v16.16b, v11.16b, v20.16b
	eor	v23.16b, v12.16b, v28.16b
	eor	v25.16b, v17.16b, v25.16b
	eor	v6.16b, v3.16b, v19.16b
	eor	v21.16b, v21.16b, v24.16b
	eor	v24.16b, v26.16b, v7.16b
	eor	v4.16b, v0.16b, v4.16b
	eor	v0.16b, v0.16b, v10.16b
	eor	v7.16b, v7.16b, v9.16b
	eor	v2.16b, v23.16b, v16.16b
	ldp	q23, q29, [x13, #96]
	eor	v28.16b, v25.16b, v18.16b
	eor	v18.16b, v31.16b, v18.16b
	eor	v21.16b, v21.16b, v24.16b
	eor	v0.16b, v0.16b, v6.16b
	eor	v6.16b, v7.16b, v6.16b
	eor	v22.16b, v22.16b, v23.16b
	ldp	q23, q30, [x13, #64]
	eor	v19.16b, v19.16b, v29.16b
	eor	v5.16b, v18.16b, v5.16b
	eor	v0.16b, v0.16b, v28.16b
	eor	v20.16b, v20.16b, v30.16b
	eor	v22.16b, v22.16b, v25.16b
	eor	v25.16b, v1.16b, v27.16b
	eor	v19.16b, v19.16b, v26.16b
	eor	v5.16b, v5.16b, v4.16b
	eor	v7.16b, v17.16b, v23.16b
	eor	v0.16b, v0.16b, v2.16b
	eor	v18.16b, v20.16b, v28.16b
	eor	v20.16b, v22.16b, v27.16b
	eor	v22.16b, v26.16b, v8.16b
	eor	v16.16b, v25.16b, v16.16b
	eor	v3.16b, v7.16b, v3.16b
	eor	v18.16b, v18.16b, v25.16b
	eor	v4.16b, v20.16b, v4.16b
	eor	v1.16b, v22.16b, v1.16b
	eor	v17.16b, v19.16b, v16.16b
	ldr	q19, [x10, l_aes_CPI33_4@PAGEOFF]
	eor	v6.16b, v6.16b, v16.16b
	eor	v3.16b, v3.16b, v16.16b
	eor	v18.16b, v18.16b, v21.16b
	eor	v4.16b, v4.16b, v21.16b
	eor	v1.16b, v1.16b, v2.16b
	tbl	v7.16b, { v5.16b }, v19.16b
	tbl	v2.16b, { v17.16b }, v19.16b
	tbl	v22.16b, { v6.16b }, v19.16b
	tbl	v23.16b, { v0.16b }, v19.16b
	tbl	v20.16b, { v18.16b }, v19.16b
	tbl	v21.16b, { v4.16b }, v19.16b
	tbl	v16.16b, { v1.16b }, v19.16b
	tbl	v19.16b, { v3.16b }, v19.16b
	eor	v7.16b, v7.16b, v5.16b
	eor	v2.16b, v2.16b, v17.16b
	eor	v22.16b, v22.16b, v6.16b
	eor	v23.16b, v23.16b, v0.16b
	eor	v20.16b, v20.16b, v18.16b
	eor	v21.16b, v21.16b, v4.16b
	eor	v16.16b, v16.16b, v1.16b
	eor	v1.16b, v7.16b, v1.16b
	eor	v5.16b, v2.16b, v5.16b
	eor	v0.16b, v2.16b, v0.16b
	eor	v19.16b, v19.16b, v3.16b
	eor	v3.16b, v2.16b, v3.16b
	eor	v4.16b, v20.16b, v4.16b
	eor	v17.16b, v21.16b, v17.16b
	eor	v6.16b, v16.16b, v6.16b
	eor	v1.16b, v1.16b, v2.16b
	eor	v0.16b, v0.16b, v22.16b
	eor	v22.16b, v22.16b, v5.16b
	eor	v3.16b, v3.16b, v23.16b
	eor	v18.16b, v19.16b, v18.16b
	eor	v24.16b, v17.16b, v4.16b
	eor	v26.16b, v19.16b, v6.16b
	eor	v20.16b, v20.16b, v17.16b
	eor	v25.16b, v1.16b, v23.16b
	eor	v7.16b, v4.16b, v7.16b
	eor	v19.16b, v22.16b, v17.16b
	eor	v21.16b, v21.16b, v3.16b
	eor	v2.16b, v18.16b, v2.16b
	eor	v16.16b, v24.16b, v16.16b
	eor	v23.16b, v24.16b, v26.16b
	eor	v20.16b, v0.16b, v20.16b
	eor	v22.16b, v25.16b, v4.16b
	ext	v24.16b, v7.16b, v7.16b, #8
	ext	v26.16b, v19.16b, v19.16b, #8
	ext	v30.16b, v21.16b, v21.16b, #8
	ext	v31.16b, v2.16b, v2.16b, #8
	eor	v5.16b, v5.16b, v7.16b
	ext	v25.16b, v16.16b, v16.16b, #8
	ext	v28.16b, v23.16b, v23.16b, #8
	ext	v29.16b, v20.16b, v20.16b, #8
	ext	v27.16b, v22.16b, v22.16b, #8
	eor	v1.16b, v1.16b, v16.16b
	eor	v4.16b, v4.16b, v21.16b
	eor	v2.16b, v2.16b, v17.16b
	eor	v6.16b, v6.16b, v19.16b
	eor	v3.16b, v3.16b, v23.16b
	eor	v7.16b, v18.16b, v20.16b
	eor	v0.16b, v0.16b, v22.16b
	eor	v23.16b, v5.16b, v24.16b
	eor	v5.16b, v1.16b, v25.16b
	eor	v16.16b, v4.16b, v30.16b
	eor	v20.16b, v31.16b, v2.16b
	eor	v2.16b, v6.16b, v26.16b
	eor	v1.16b, v3.16b, v28.16b
	eor	v26.16b, v7.16b, v29.16b
	eor	v6.16b, v0.16b, v27.16b
	eor	v21.16b, v5.16b, v23.16b
	eor	v25.16b, v5.16b, v16.16b
	eor	v0.16b, v16.16b, v20.16b
	eor	v7.16b, v1.16b, v16.16b
	eor	v4.16b, v1.16b, v20.16b
	eor	v22.16b, v26.16b, v2.16b
	eor	v1.16b, v1.16b, v6.16b
	eor	v19.16b, v2.16b, v5.16b
	eor	v27.16b, v6.16b, v23.16b
	eor	v24.16b, v26.16b, v6.16b
	eor	v2.16b, v21.16b, v0.16b
	eor	v16.16b, v4.16b, v16.16b
	eor	v17.16b, v7.16b, v22.16b
	eor	v18.16b, v1.16b, v19.16b
	eor	v22.16b, v22.16b, v20.16b
	eor	v3.16b, v27.16b, v0.16b
	eor	v5.16b, v24.16b, v25.16b
	eor	v20.16b, v1.16b, v21.16b
	eor	v21.16b, v7.16b, v21.16b
	eor	v6.16b, v16.16b, v6.16b
	and	v30.16b, v16.16b, v4.16b
	eor	v23.16b, v1.16b, v23.16b
	eor	v25.16b, v25.16b, v27.16b
	and	v28.16b, v17.16b, v2.16b
	eor	v29.16b, v18.16b, v3.16b
	eor	v31.16b, v19.16b, v3.16b
	and	v8.16b, v20.16b, v5.16b
	eor	v24.16b, v21.16b, v26.16b
	orr	v9.16b, v20.16b, v5.16b
	and	v10.16b, v6.16b, v18.16b
	and	v11.16b, v23.16b, v7.16b
	and	v12.16b, v21.16b, v22.16b
	eor	v19.16b, v3.16b, v19.16b
	and	v29.16b, v29.16b, v1.16b
	eor	v30.16b, v31.16b, v30.16b
	eor	v26.16b, v8.16b, v26.16b
	and	v31.16b, v24.16b, v25.16b
	and	v8.16b, v3.16b, v0.16b
	eor	v9.16b, v9.16b, v11.16b
	eor	v27.16b, v12.16b, v27.16b
	eor	v10.16b, v29.16b, v10.16b
	eor	v30.16b, v30.16b, v28.16b
	eor	v26.16b, v26.16b, v31.16b
	eor	v29.16b, v29.16b, v8.16b
	eor	v27.16b, v27.16b, v28.16b
	eor	v31.16b, v9.16b, v10.16b
	eor	v28.16b, v30.16b, v10.16b
	eor	v26.16b, v26.16b, v1.16b
	eor	v27.16b, v27.16b, v29.16b
	and	v30.16b, v28.16b, v31.16b
	eor	v26.16b, v26.16b, v29.16b
	eor	v8.16b, v28.16b, v27.16b
	eor	v29.16b, v30.16b, v27.16b
	eor	v9.16b, v26.16b, v31.16b
	eor	v10.16b, v30.16b, v26.16b
	and	v28.16b, v26.16b, v28.16b
	and	v31.16b, v27.16b, v31.16b
	and	v10.16b, v10.16b, v8.16b
	and	v29.16b, v29.16b, v9.16b
	and	v28.16b, v28.16b, v8.16b
	eor	v8.16b, v30.16b, v8.16b
	bic	v31.16b, v9.16b, v31.16b
	eor	v27.16b, v10.16b, v27.16b
	eor	v26.16b, v29.16b, v26.16b
	eor	v28.16b, v8.16b, v28.16b
	eor	v29.16b, v31.16b, v30.16b
	eor	v30.16b, v27.16b, v26.16b
	and	v22.16b, v26.16b, v22.16b
	and	v21.16b, v26.16b, v21.16b
	eor	v31.16b, v28.16b, v29.16b
	and	v4.16b, v29.16b, v4.16b
	eor	v10.16b, v26.16b, v29.16b
	eor	v8.16b, v28.16b, v27.16b
	and	v7.16b, v28.16b, v7.16b
	and	v24.16b, v27.16b, v24.16b
	and	v19.16b, v30.16b, v19.16b
	and	v23.16b, v28.16b, v23.16b
	and	v16.16b, v29.16b, v16.16b
	eor	v9.16b, v31.16b, v30.16b
	and	v17.16b, v10.16b, v17.16b
	eor	v4.16b, v22.16b, v4.16b
	and	v25.16b, v27.16b, v25.16b
	and	v20.16b, v8.16b, v20.16b
	and	v5.16b, v8.16b, v5.16b
	eor	v26.16b, v19.16b, v7.16b
	and	v3.16b, v31.16b, v3.16b
	eor	v16.16b, v23.16b, v16.16b
	and	v18.16b, v9.16b, v18.16b
	and	v6.16b, v9.16b, v6.16b
	eor	v27.16b, v17.16b, v24.16b
	and	v2.16b, v10.16b, v2.16b
	and	v0.16b, v31.16b, v0.16b
	and	v1.16b, v30.16b, v1.16b
	eor	v26.16b, v26.16b, v20.16b
	eor	v19.16b, v19.16b, v25.16b
	eor	v25.16b, v5.16b, v16.16b
	eor	v18.16b, v18.16b, v23.16b
	eor	v23.16b, v4.16b, v21.16b
	eor	v4.16b, v4.16b, v7.16b
	eor	v7.16b, v5.16b, v24.16b
	eor	v24.16b, v6.16b, v3.16b
	eor	v28.16b, v0.16b, v2.16b
	eor	v0.16b, v27.16b, v0.16b
	eor	v16.16b, v27.16b, v16.16b
	eor	v5.16b, v6.16b, v5.16b
	eor	v20.16b, v23.16b, v20.16b
	eor	v2.16b, v4.16b, v3.16b
	eor	v18.16b, v18.16b, v26.16b
	eor	v3.16b, v17.16b, v22.16b
	eor	v4.16b, v24.16b, v26.16b
	eor	v6.16b, v19.16b, v25.16b
	eor	v19.16b, v1.16b, v21.16b
	eor	v0.16b, v0.16b, v23.16b
	eor	v17.16b, v20.16b, v24.16b
	eor	v20.16b, v2.16b, v28.16b
	eor	v5.16b, v5.16b, v18.16b
	eor	v2.16b, v16.16b, v4.16b
	eor	v1.16b, v3.16b, v4.16b
	eor	v3.16b, v7.16b, v4.16b
	eor	v4.16b, v0.16b, v18.16b
	eor	v16.16b, v19.16b, v28.16b
	eor	v7.16b, v17.16b, v6.16b
	eor	v6.16b, v20.16b, v6.16b
	b	Laes_BB33_3
Laes_BB33_2:                               // %else.4
	adrp	x13, l_aes_CPI33_0@PAGE
	movi	v24.2d, #0x00ffff00000000
	ldr	q16, [x13, l_aes_CPI33_0@PAGEOFF]
	adrp	x13, l_aes_CPI33_1@PAGE
	ldr	q25, [x13, l_aes_CPI33_1@PAGEOFF]
	tbl	v17.16b, { v5.16b }, v16.16b
	tbl	v18.16b, { v3.16b }, v16.16b
	tbl	v19.16b, { v2.16b }, v16.16b
	tbl	v20.16b, { v4.16b }, v16.16b
	tbl	v21.16b, { v1.16b }, v16.16b
	tbl	v22.16b, { v6.16b }, v16.16b
	tbl	v23.16b, { v7.16b }, v16.16b
	tbl	v16.16b, { v0.16b }, v16.16b
	eor	v17.16b, v17.16b, v5.16b
	eor	v18.16b, v18.16b, v3.16b
	eor	v19.16b, v19.16b, v2.16b
	eor	v20.16b, v20.16b, v4.16b
	eor	v21.16b, v21.16b, v1.16b
	eor	v22.16b, v22.16b, v6.16b
	eor	v23.16b, v23.16b, v7.16b
	eor	v16.16b, v16.16b, v0.16b
	and	v17.16b, v17.16b, v24.16b
	and	v18.16b, v18.16b, v24.16b
	and	v19.16b, v19.16b, v24.16b
	and	v20.16b, v20.16b, v24.16b
	and	v21.16b, v21.16b, v24.16b
	and	v22.16b, v22.16b, v24.16b
	and	v23.16b, v23.16b, v24.16b
	and	v16.16b, v16.16b, v24.16b
	tbl	v24.16b, { v17.16b }, v25.16b
	tbl	v26.16b, { v18.16b }, v25.16b
	tbl	v27.16b, { v19.16b }, v25.16b
	tbl	v28.16b, { v20.16b }, v25.16b
	tbl	v29.16b, { v21.16b }, v25.16b
	tbl	v30.16b, { v22.16b }, v25.16b
	tbl	v31.16b, { v23.16b }, v25.16b
	tbl	v25.16b, { v16.16b }, v25.16b
	eor	v7.16b, v7.16b, v23.16b
	eor	v22.16b, v6.16b, v22.16b
	eor	v1.16b, v1.16b, v21.16b
	eor	v4.16b, v4.16b, v20.16b
	eor	v2.16b, v2.16b, v19.16b
	eor	v3.16b, v3.16b, v18.16b
	eor	v17.16b, v5.16b, v17.16b
	eor	v0.16b, v0.16b, v16.16b
	eor	v6.16b, v7.16b, v31.16b
	eor	v7.16b, v22.16b, v30.16b
	eor	v1.16b, v1.16b, v29.16b
	eor	v4.16b, v4.16b, v28.16b
	eor	v2.16b, v2.16b, v27.16b
	eor	v5.16b, v3.16b, v26.16b
	eor	v16.16b, v17.16b, v24.16b
	eor	v3.16b, v0.16b, v25.16b
Laes_BB33_3:                               // %join.5
	add	x12, x0, x12, lsl #7
	adrp	x13, l_aes_CPI33_5@PAGE
	ldr	q0, [x13, l_aes_CPI33_5@PAGEOFF]
	ldp	q17, q19, [x12, #128]
	ldr	q21, [x12, #192]
	ldp	q18, q20, [x12, #208]
	eor	v1.16b, v21.16b, v1.16b
	eor	v16.16b, v17.16b, v16.16b
	eor	v5.16b, v19.16b, v5.16b
	eor	v6.16b, v20.16b, v6.16b
	ldp	q17, q20, [x12, #160]
	eor	v7.16b, v18.16b, v7.16b
	ldr	q18, [x12, #240]
	tbl	v24.16b, { v1.16b }, v0.16b
	eor	v2.16b, v17.16b, v2.16b
	eor	v4.16b, v20.16b, v4.16b
	eor	v3.16b, v18.16b, v3.16b
	tbl	v17.16b, { v16.16b }, v0.16b
	tbl	v18.16b, { v7.16b }, v0.16b
	tbl	v19.16b, { v6.16b }, v0.16b
	tbl	v20.16b, { v5.16b }, v0.16b
	eor	v24.16b, v24.16b, v1.16b
	tbl	v21.16b, { v2.16b }, v0.16b
	tbl	v22.16b, { v4.16b }, v0.16b
	tbl	v23.16b, { v3.16b }, v0.16b
	eor	v17.16b, v17.16b, v16.16b
	eor	v18.16b, v18.16b, v7.16b
	eor	v19.16b, v19.16b, v6.16b
	eor	v20.16b, v20.16b, v5.16b
	eor	v7.16b, v24.16b, v7.16b
	eor	v21.16b, v21.16b, v2.16b
	eor	v22.16b, v22.16b, v4.16b
	eor	v23.16b, v23.16b, v3.16b
	eor	v5.16b, v17.16b, v5.16b
	eor	v6.16b, v18.16b, v6.16b
	eor	v3.16b, v19.16b, v3.16b
	eor	v2.16b, v20.16b, v2.16b
	eor	v4.16b, v21.16b, v4.16b
	eor	v1.16b, v22.16b, v1.16b
	eor	v16.16b, v23.16b, v16.16b
	eor	v5.16b, v5.16b, v23.16b
	eor	v25.16b, v3.16b, v6.16b
	eor	v21.16b, v3.16b, v21.16b
	eor	v22.16b, v6.16b, v22.16b
	eor	v26.16b, v2.16b, v24.16b
	eor	v18.16b, v3.16b, v18.16b
	eor	v4.16b, v4.16b, v23.16b
	eor	v24.16b, v1.16b, v23.16b
	eor	v17.16b, v6.16b, v17.16b
	eor	v20.16b, v25.16b, v20.16b
	eor	v21.16b, v21.16b, v16.16b
	eor	v23.16b, v23.16b, v7.16b
	eor	v22.16b, v22.16b, v5.16b
	eor	v25.16b, v25.16b, v26.16b
	ldr	q1, [x11, l_aes_CPI33_3@PAGEOFF]
	eor	v18.16b, v18.16b, v4.16b
	eor	v19.16b, v24.16b, v19.16b
	eor	v16.16b, v17.16b, v16.16b
	tbl	v26.16b, { v17.16b }, v1.16b
	tbl	v27.16b, { v20.16b }, v1.16b
	tbl	v28.16b, { v21.16b }, v1.16b
	tbl	v29.16b, { v22.16b }, v1.16b
	tbl	v30.16b, { v25.16b }, v1.16b
	tbl	v9.16b, { v23.16b }, v1.16b
	tbl	v31.16b, { v18.16b }, v1.16b
	tbl	v8.16b, { v19.16b }, v1.16b
	eor	v5.16b, v5.16b, v20.16b
	eor	v6.16b, v6.16b, v19.16b
	eor	v3.16b, v3.16b, v23.16b
	eor	v2.16b, v2.16b, v21.16b
	eor	v17.16b, v24.16b, v25.16b
	eor	v7.16b, v7.16b, v18.16b
	eor	v4.16b, v4.16b, v22.16b
	eor	v25.16b, v16.16b, v26.16b
	eor	v5.16b, v5.16b, v27.16b
	eor	v16.16b, v6.16b, v8.16b
	eor	v22.16b, v3.16b, v9.16b
	eor	v18.16b, v2.16b, v28.16b
	eor	v3.16b, v17.16b, v30.16b
	eor	v28.16b, v7.16b, v31.16b
	eor	v26.16b, v4.16b, v29.16b
	eor	v23.16b, v5.16b, v25.16b
	eor	v2.16b, v16.16b, v22.16b
	eor	v21.16b, v18.16b, v5.16b
	eor	v27.16b, v16.16b, v5.16b
	eor	v24.16b, v28.16b, v18.16b
	eor	v17.16b, v16.16b, v3.16b
	eor	v6.16b, v3.16b, v22.16b
	eor	v3.16b, v26.16b, v3.16b
	eor	v29.16b, v26.16b, v25.16b
	eor	v7.16b, v28.16b, v26.16b
	eor	v4.16b, v2.16b, v23.16b
	eor	v18.16b, v6.16b, v16.16b
	eor	v19.16b, v24.16b, v17.16b
	eor	v24.16b, v24.16b, v22.16b
	eor	v20.16b, v3.16b, v21.16b
	eor	v5.16b, v29.16b, v2.16b
	eor	v7.16b, v7.16b, v27.16b
	eor	v22.16b, v3.16b, v23.16b
	eor	v23.16b, v17.16b, v23.16b
	eor	v25.16b, v3.16b, v25.16b
	eor	v16.16b, v18.16b, v26.16b
	and	v8.16b, v18.16b, v6.16b
	eor	v27.16b, v29.16b, v27.16b
	eor	v31.16b, v5.16b, v20.16b
	eor	v9.16b, v21.16b, v5.16b
	and	v30.16b, v19.16b, v4.16b
	and	v10.16b, v7.16b, v22.16b
	eor	v26.16b, v23.16b, v28.16b
	orr	v11.16b, v7.16b, v22.16b
	and	v12.16b, v16.16b, v20.16b
	and	v13.16b, v25.16b, v17.16b
	and	v14.16b, v24.16b, v23.16b
	and	v31.16b, v31.16b, v3.16b
	eor	v8.16b, v9.16b, v8.16b
	eor	v21.16b, v5.16b, v21.16b
	and	v9.16b, v26.16b, v27.16b
	eor	v28.16b, v10.16b, v28.16b
	and	v10.16b, v5.16b, v2.16b
	eor	v11.16b, v11.16b, v13.16b
	eor	v29.16b, v14.16b, v29.16b
	eor	v12.16b, v31.16b, v12.16b
	eor	v8.16b, v8.16b, v30.16b
	eor	v28.16b, v9.16b, v28.16b
	eor	v31.16b, v31.16b, v10.16b
	eor	v29.16b, v29.16b, v30.16b
	eor	v9.16b, v11.16b, v12.16b
	eor	v30.16b, v8.16b, v12.16b
	eor	v28.16b, v28.16b, v3.16b
	eor	v29.16b, v29.16b, v31.16b
	and	v8.16b, v30.16b, v9.16b
	eor	v28.16b, v28.16b, v31.16b
	eor	v10.16b, v30.16b, v29.16b
	eor	v31.16b, v8.16b, v29.16b
	eor	v11.16b, v28.16b, v9.16b
	eor	v12.16b, v8.16b, v28.16b
	and	v30.16b, v28.16b, v30.16b
	and	v9.16b, v29.16b, v9.16b
	and	v12.16b, v12.16b, v10.16b
	and	v31.16b, v31.16b, v11.16b
	and	v30.16b, v30.16b, v10.16b
	eor	v10.16b, v8.16b, v10.16b
	bic	v9.16b, v11.16b, v9.16b
	eor	v29.16b, v12.16b, v29.16b
	eor	v28.16b, v31.16b, v28.16b
	eor	v30.16b, v10.16b, v30.16b
	eor	v31.16b, v9.16b, v8.16b
	eor	v8.16b, v29.16b, v28.16b
	and	v24.16b, v28.16b, v24.16b
	and	v23.16b, v28.16b, v23.16b
	eor	v9.16b, v30.16b, v31.16b
	and	v6.16b, v31.16b, v6.16b
	eor	v12.16b, v28.16b, v31.16b
	eor	v10.16b, v30.16b, v29.16b
	and	v17.16b, v30.16b, v17.16b
	and	v26.16b, v29.16b, v26.16b
	and	v21.16b, v8.16b, v21.16b
	and	v25.16b, v30.16b, v25.16b
	and	v18.16b, v31.16b, v18.16b
	eor	v11.16b, v9.16b, v8.16b
	and	v19.16b, v12.16b, v19.16b
	eor	v6.16b, v24.16b, v6.16b
	and	v27.16b, v29.16b, v27.16b
	and	v22.16b, v10.16b, v22.16b
	and	v7.16b, v10.16b, v7.16b
	eor	v28.16b, v21.16b, v17.16b
	and	v5.16b, v9.16b, v5.16b
	eor	v18.16b, v25.16b, v18.16b
	and	v20.16b, v11.16b, v20.16b
	and	v16.16b, v11.16b, v16.16b
	eor	v29.16b, v19.16b, v26.16b
	and	v4.16b, v12.16b, v4.16b
	and	v2.16b, v9.16b, v2.16b
	and	v3.16b, v8.16b, v3.16b
	eor	v28.16b, v28.16b, v22.16b
	eor	v21.16b, v21.16b, v27.16b
	eor	v27.16b, v7.16b, v18.16b
	eor	v20.16b, v20.16b, v25.16b
	eor	v25.16b, v6.16b, v23.16b
	eor	v6.16b, v6.16b, v17.16b
	eor	v17.16b, v7.16b, v26.16b
	eor	v26.16b, v16.16b, v5.16b
	eor	v30.16b, v2.16b, v4.16b
	eor	v2.16b, v29.16b, v2.16b
	eor	v18.16b, v29.16b, v18.16b
	eor	v16.16b, v16.16b, v7.16b
	eor	v22.16b, v25.16b, v22.16b
	eor	v4.16b, v6.16b, v5.16b
	eor	v20.16b, v20.16b, v28.16b
	eor	v5.16b, v19.16b, v24.16b
	eor	v6.16b, v26.16b, v28.16b
	eor	v19.16b, v21.16b, v27.16b
	eor	v21.16b, v22.16b, v26.16b
	eor	v22.16b, v3.16b, v23.16b
	eor	v23.16b, v2.16b, v25.16b
	eor	v24.16b, v4.16b, v30.16b
	eor	v7.16b, v18.16b, v6.16b
	eor	v3.16b, v5.16b, v6.16b
	eor	v2.16b, v17.16b, v6.16b
	eor	v16.16b, v16.16b, v20.16b
	eor	v4.16b, v21.16b, v19.16b
	eor	v6.16b, v23.16b, v20.16b
	eor	v17.16b, v22.16b, v30.16b
	eor	v5.16b, v24.16b, v19.16b
	cbz	x8, Laes_BB33_6
// %bb.4:                               // %join.10.preheader
	add	x11, x0, x8, lsl #9
	sub	x11, x11, #128
Laes_BB33_5:                               // %join.10
                                        // =>This Inner Loop Header: Depth=1
	ldp	q18, q19, [x11, #128]
	sub	x8, x8, #1
	ldp	q21, q22, [x11, #192]
	eor	v17.16b, v18.16b, v17.16b
	ldp	q20, q18, [x11, #160]
	eor	v4.16b, v22.16b, v4.16b
	eor	v16.16b, v19.16b, v16.16b
	eor	v3.16b, v21.16b, v3.16b
	eor	v7.16b, v20.16b, v7.16b
	ldp	q23, q20, [x11, #224]
	eor	v6.16b, v18.16b, v6.16b
	ext	v18.16b, v17.16b, v17.16b, #4
	ext	v22.16b, v16.16b, v16.16b, #4
	ext	v25.16b, v3.16b, v3.16b, #4
	eor	v5.16b, v23.16b, v5.16b
	eor	v2.16b, v20.16b, v2.16b
	ext	v19.16b, v7.16b, v7.16b, #4
	ext	v20.16b, v4.16b, v4.16b, #4
	ext	v23.16b, v6.16b, v6.16b, #4
	eor	v18.16b, v18.16b, v17.16b
	eor	v22.16b, v22.16b, v16.16b
	ext	v21.16b, v5.16b, v5.16b, #4
	ext	v24.16b, v2.16b, v2.16b, #4
	eor	v25.16b, v25.16b, v3.16b
	eor	v19.16b, v19.16b, v7.16b
	eor	v20.16b, v20.16b, v4.16b
	eor	v23.16b, v23.16b, v6.16b
	eor	v16.16b, v18.16b, v16.16b
	eor	v7.16b, v22.16b, v7.16b
	eor	v4.16b, v25.16b, v4.16b
	eor	v21.16b, v21.16b, v5.16b
	eor	v24.16b, v24.16b, v2.16b
	eor	v6.16b, v19.16b, v6.16b
	eor	v5.16b, v20.16b, v5.16b
	eor	v3.16b, v23.16b, v3.16b
	eor	v27.16b, v7.16b, v25.16b
	eor	v2.16b, v21.16b, v2.16b
	eor	v17.16b, v24.16b, v17.16b
	eor	v16.16b, v16.16b, v24.16b
	eor	v6.16b, v6.16b, v24.16b
	eor	v23.16b, v5.16b, v23.16b
	eor	v3.16b, v3.16b, v24.16b
	eor	v18.16b, v5.16b, v18.16b
	eor	v24.16b, v24.16b, v4.16b
	eor	v26.16b, v2.16b, v5.16b
	eor	v19.16b, v2.16b, v19.16b
	eor	v20.16b, v2.16b, v20.16b
	eor	v23.16b, v23.16b, v16.16b
	eor	v21.16b, v3.16b, v21.16b
	ext	v9.16b, v24.16b, v24.16b, #8
	eor	v2.16b, v2.16b, v24.16b
	eor	v22.16b, v26.16b, v22.16b
	eor	v19.16b, v19.16b, v17.16b
	eor	v25.16b, v26.16b, v27.16b
	eor	v20.16b, v20.16b, v6.16b
	ext	v26.16b, v18.16b, v18.16b, #8
	ext	v28.16b, v23.16b, v23.16b, #8
	ext	v8.16b, v21.16b, v21.16b, #8
	eor	v17.16b, v18.16b, v17.16b
	eor	v5.16b, v5.16b, v21.16b
	ext	v27.16b, v22.16b, v22.16b, #8
	ext	v29.16b, v19.16b, v19.16b, #8
	ext	v30.16b, v25.16b, v25.16b, #8
	ext	v31.16b, v20.16b, v20.16b, #8
	eor	v16.16b, v16.16b, v22.16b
	eor	v6.16b, v6.16b, v23.16b
	eor	v3.16b, v3.16b, v25.16b
	eor	v4.16b, v4.16b, v20.16b
	eor	v7.16b, v7.16b, v19.16b
	eor	v25.16b, v26.16b, v17.16b
	eor	v17.16b, v5.16b, v8.16b
	eor	v18.16b, v2.16b, v9.16b
	eor	v16.16b, v16.16b, v27.16b
	eor	v21.16b, v6.16b, v28.16b
	eor	v3.16b, v3.16b, v30.16b
	eor	v28.16b, v4.16b, v31.16b
	eor	v6.16b, v7.16b, v29.16b
	eor	v2.16b, v17.16b, v18.16b
	eor	v26.16b, v16.16b, v25.16b
	eor	v29.16b, v17.16b, v16.16b
	eor	v30.16b, v21.16b, v25.16b
	eor	v7.16b, v28.16b, v21.16b
	eor	v5.16b, v3.16b, v18.16b
	eor	v4.16b, v21.16b, v3.16b
	eor	v23.16b, v6.16b, v16.16b
	eor	v27.16b, v28.16b, v6.16b
	eor	v24.16b, v17.16b, v3.16b
	eor	v16.16b, v30.16b, v2.16b
	eor	v6.16b, v7.16b, v29.16b
	eor	v17.16b, v5.16b, v17.16b
	eor	v20.16b, v4.16b, v26.16b
	eor	v19.16b, v4.16b, v23.16b
	eor	v22.16b, v27.16b, v18.16b
	eor	v18.16b, v24.16b, v26.16b
	eor	v7.16b, v2.16b, v26.16b
	eor	v3.16b, v17.16b, v21.16b
	eor	v21.16b, v27.16b, v24.16b
	and	v31.16b, v17.16b, v5.16b
	and	v8.16b, v6.16b, v20.16b
	eor	v27.16b, v4.16b, v25.16b
	eor	v9.16b, v16.16b, v19.16b
	eor	v25.16b, v30.16b, v29.16b
	eor	v26.16b, v18.16b, v28.16b
	eor	v29.16b, v23.16b, v16.16b
	and	v10.16b, v21.16b, v7.16b
	orr	v11.16b, v6.16b, v20.16b
	and	v12.16b, v3.16b, v19.16b
	and	v13.16b, v27.16b, v24.16b
	and	v14.16b, v22.16b, v18.16b
	and	v9.16b, v9.16b, v4.16b
	and	v15.16b, v26.16b, v25.16b
	eor	v29.16b, v29.16b, v31.16b
	eor	v28.16b, v8.16b, v28.16b
	and	v31.16b, v16.16b, v2.16b
	eor	v23.16b, v16.16b, v23.16b
	eor	v8.16b, v9.16b, v12.16b
	eor	v11.16b, v11.16b, v13.16b
	eor	v30.16b, v14.16b, v30.16b
	eor	v29.16b, v29.16b, v10.16b
	eor	v28.16b, v15.16b, v28.16b
	eor	v31.16b, v9.16b, v31.16b
	eor	v9.16b, v11.16b, v8.16b
	eor	v30.16b, v30.16b, v10.16b
	eor	v29.16b, v29.16b, v8.16b
	eor	v28.16b, v28.16b, v4.16b
	eor	v30.16b, v30.16b, v31.16b
	and	v8.16b, v29.16b, v9.16b
	eor	v28.16b, v28.16b, v31.16b
	eor	v31.16b, v29.16b, v30.16b
	and	v29.16b, v28.16b, v29.16b
	eor	v10.16b, v8.16b, v28.16b
	eor	v11.16b, v8.16b, v30.16b
	eor	v12.16b, v28.16b, v9.16b
	and	v9.16b, v30.16b, v9.16b
	and	v29.16b, v29.16b, v31.16b
	and	v10.16b, v10.16b, v31.16b
	eor	v31.16b, v8.16b, v31.16b
	and	v11.16b, v11.16b, v12.16b
	bic	v9.16b, v12.16b, v9.16b
	eor	v30.16b, v10.16b, v30.16b
	eor	v29.16b, v31.16b, v29.16b
	eor	v31.16b, v11.16b, v28.16b
	eor	v8.16b, v9.16b, v8.16b
	eor	v11.16b, v29.16b, v30.16b
	and	v24.16b, v29.16b, v24.16b
	and	v27.16b, v29.16b, v27.16b
	eor	v9.16b, v30.16b, v31.16b
	eor	v10.16b, v29.16b, v8.16b
	eor	v13.16b, v31.16b, v8.16b
	and	v14.16b, v8.16b, v5.16b
	and	v25.16b, v30.16b, v25.16b
	and	v18.16b, v31.16b, v18.16b
	and	v28.16b, v11.16b, v20.16b
	eor	v12.16b, v10.16b, v9.16b
	and	v23.16b, v9.16b, v23.16b
	and	v5.16b, v13.16b, v21.16b
	and	v21.16b, v9.16b, v4.16b
	and	v16.16b, v10.16b, v16.16b
	and	v2.16b, v10.16b, v2.16b
	ldp	q9, q10, [x11]
	and	v7.16b, v13.16b, v7.16b
	and	v29.16b, v12.16b, v19.16b
	and	v19.16b, v31.16b, v22.16b
	and	v22.16b, v30.16b, v26.16b
	ldp	q30, q31, [x11, #96]
	eor	v20.16b, v23.16b, v24.16b
	and	v26.16b, v8.16b, v17.16b
	and	v17.16b, v11.16b, v6.16b
	and	v3.16b, v12.16b, v3.16b
	ldp	q11, q12, [x11, #32]
	eor	v4.16b, v29.16b, v27.16b
	eor	v29.16b, v19.16b, v14.16b
	eor	v24.16b, v24.16b, v30.16b
	eor	v20.16b, v20.16b, v28.16b
	ldp	q30, q8, [x11, #64]
	eor	v26.16b, v27.16b, v26.16b
	eor	v6.16b, v5.16b, v22.16b
	eor	v23.16b, v23.16b, v25.16b
	eor	v7.16b, v2.16b, v7.16b
	eor	v27.16b, v29.16b, v18.16b
	eor	v18.16b, v9.16b, v18.16b
	eor	v24.16b, v24.16b, v29.16b
	eor	v28.16b, v28.16b, v8.16b
	eor	v29.16b, v3.16b, v16.16b
	eor	v25.16b, v17.16b, v26.16b
	eor	v2.16b, v2.16b, v12.16b
	eor	v22.16b, v22.16b, v31.16b
	eor	v4.16b, v4.16b, v20.16b
	eor	v18.16b, v18.16b, v21.16b
	eor	v16.16b, v24.16b, v16.16b
	eor	v24.16b, v17.16b, v10.16b
	eor	v21.16b, v28.16b, v27.16b
	eor	v20.16b, v29.16b, v20.16b
	eor	v26.16b, v26.16b, v11.16b
	eor	v23.16b, v23.16b, v25.16b
	eor	v2.16b, v2.16b, v6.16b
	eor	v17.16b, v22.16b, v17.16b
	eor	v18.16b, v18.16b, v7.16b
	eor	v7.16b, v16.16b, v7.16b
	eor	v3.16b, v24.16b, v3.16b
	eor	v21.16b, v21.16b, v29.16b
	eor	v16.16b, v19.16b, v30.16b
	ldr	q19, [x9, l_aes_CPI33_2@PAGEOFF]
	eor	v6.16b, v26.16b, v6.16b
	eor	v2.16b, v2.16b, v27.16b
	eor	v17.16b, v17.16b, v20.16b
	eor	v7.16b, v7.16b, v23.16b
	eor	v3.16b, v3.16b, v4.16b
	eor	v21.16b, v21.16b, v23.16b
	eor	v5.16b, v16.16b, v5.16b
	tbl	v16.16b, { v18.16b }, v19.16b
	eor	v6.16b, v6.16b, v20.16b
	eor	v2.16b, v2.16b, v4.16b
	tbl	v4.16b, { v17.16b }, v19.16b
	tbl	v23.16b, { v7.16b }, v19.16b
	tbl	v22.16b, { v21.16b }, v19.16b
	eor	v5.16b, v5.16b, v20.16b
	tbl	v20.16b, { v3.16b }, v19.16b
	eor	v16.16b, v16.16b, v18.16b
	tbl	v24.16b, { v6.16b }, v19.16b
	tbl	v25.16b, { v2.16b }, v19.16b
	eor	v4.16b, v4.16b, v17.16b
	tbl	v19.16b, { v5.16b }, v19.16b
	eor	v23.16b, v23.16b, v7.16b
	eor	v22.16b, v22.16b, v21.16b
	eor	v20.16b, v20.16b, v3.16b
	eor	v3.16b, v16.16b, v3.16b
	eor	v24.16b, v24.16b, v6.16b
	eor	v25.16b, v25.16b, v2.16b
	eor	v18.16b, v4.16b, v18.16b
	eor	v2.16b, v4.16b, v2.16b
	eor	v17.16b, v23.16b, v17.16b
	eor	v7.16b, v22.16b, v7.16b
	eor	v19.16b, v19.16b, v5.16b
	eor	v3.16b, v3.16b, v4.16b
	eor	v6.16b, v20.16b, v6.16b
	eor	v5.16b, v4.16b, v5.16b
	eor	v2.16b, v2.16b, v24.16b
	eor	v24.16b, v24.16b, v18.16b
	eor	v22.16b, v22.16b, v17.16b
	eor	v26.16b, v17.16b, v7.16b
	eor	v27.16b, v3.16b, v25.16b
	eor	v16.16b, v7.16b, v16.16b
	eor	v28.16b, v19.16b, v6.16b
	eor	v5.16b, v5.16b, v25.16b
	eor	v19.16b, v19.16b, v21.16b
	eor	v21.16b, v24.16b, v17.16b
	eor	v22.16b, v2.16b, v22.16b
	eor	v20.16b, v26.16b, v20.16b
	eor	v24.16b, v27.16b, v7.16b
	eor	v25.16b, v26.16b, v28.16b
	eor	v23.16b, v23.16b, v5.16b
	eor	v4.16b, v19.16b, v4.16b
	tbl	v26.16b, { v16.16b }, v1.16b
	tbl	v29.16b, { v21.16b }, v1.16b
	tbl	v31.16b, { v22.16b }, v1.16b
	tbl	v27.16b, { v20.16b }, v1.16b
	tbl	v28.16b, { v24.16b }, v1.16b
	eor	v16.16b, v18.16b, v16.16b
	tbl	v30.16b, { v25.16b }, v1.16b
	tbl	v8.16b, { v23.16b }, v1.16b
	tbl	v9.16b, { v4.16b }, v1.16b
	eor	v3.16b, v3.16b, v20.16b
	eor	v7.16b, v7.16b, v23.16b
	eor	v4.16b, v4.16b, v17.16b
	eor	v2.16b, v2.16b, v24.16b
	eor	v5.16b, v5.16b, v25.16b
	eor	v17.16b, v19.16b, v22.16b
	eor	v6.16b, v6.16b, v21.16b
	eor	v25.16b, v16.16b, v26.16b
	eor	v3.16b, v3.16b, v27.16b
	eor	v7.16b, v7.16b, v8.16b
	eor	v18.16b, v9.16b, v4.16b
	eor	v21.16b, v2.16b, v28.16b
	eor	v16.16b, v5.16b, v30.16b
	eor	v28.16b, v17.16b, v31.16b
	eor	v6.16b, v6.16b, v29.16b
	eor	v26.16b, v3.16b, v25.16b
	eor	v2.16b, v7.16b, v18.16b
	eor	v29.16b, v3.16b, v7.16b
	eor	v17.16b, v28.16b, v21.16b
	eor	v5.16b, v16.16b, v18.16b
	eor	v4.16b, v16.16b, v21.16b
	eor	v23.16b, v6.16b, v3.16b
	eor	v30.16b, v21.16b, v25.16b
	eor	v27.16b, v28.16b, v6.16b
	eor	v24.16b, v16.16b, v7.16b
	eor	v6.16b, v17.16b, v29.16b
	eor	v17.16b, v5.16b, v7.16b
	eor	v20.16b, v4.16b, v26.16b
	eor	v19.16b, v4.16b, v23.16b
	eor	v16.16b, v30.16b, v2.16b
	eor	v22.16b, v27.16b, v18.16b
	eor	v18.16b, v24.16b, v26.16b
	eor	v7.16b, v26.16b, v2.16b
	eor	v3.16b, v17.16b, v21.16b
	eor	v21.16b, v24.16b, v27.16b
	and	v31.16b, v17.16b, v5.16b
	and	v8.16b, v20.16b, v6.16b
	eor	v27.16b, v4.16b, v25.16b
	eor	v9.16b, v19.16b, v16.16b
	eor	v25.16b, v29.16b, v30.16b
	eor	v26.16b, v18.16b, v28.16b
	eor	v29.16b, v23.16b, v16.16b
	and	v10.16b, v21.16b, v7.16b
	orr	v11.16b, v20.16b, v6.16b
	and	v12.16b, v3.16b, v19.16b
	and	v13.16b, v27.16b, v24.16b
	and	v14.16b, v18.16b, v22.16b
	and	v9.16b, v9.16b, v4.16b
	and	v15.16b, v26.16b, v25.16b
	eor	v29.16b, v29.16b, v31.16b
	eor	v28.16b, v8.16b, v28.16b
	and	v31.16b, v16.16b, v2.16b
	eor	v23.16b, v16.16b, v23.16b
	eor	v8.16b, v9.16b, v12.16b
	eor	v11.16b, v11.16b, v13.16b
	eor	v30.16b, v14.16b, v30.16b
	eor	v29.16b, v29.16b, v10.16b
	eor	v28.16b, v28.16b, v15.16b
	eor	v31.16b, v9.16b, v31.16b
	eor	v9.16b, v11.16b, v8.16b
	eor	v30.16b, v30.16b, v10.16b
	eor	v29.16b, v29.16b, v8.16b
	eor	v28.16b, v28.16b, v4.16b
	eor	v30.16b, v30.16b, v31.16b
	and	v8.16b, v29.16b, v9.16b
	eor	v28.16b, v28.16b, v31.16b
	eor	v31.16b, v29.16b, v30.16b
	and	v29.16b, v28.16b, v29.16b
	eor	v10.16b, v8.16b, v28.16b
	eor	v11.16b, v8.16b, v30.16b
	eor	v12.16b, v28.16b, v9.16b
	and	v9.16b, v30.16b, v9.16b
	and	v29.16b, v29.16b, v31.16b
	and	v10.16b, v10.16b, v31.16b
	eor	v31.16b, v8.16b, v31.16b
	and	v11.16b, v11.16b, v12.16b
	bic	v9.16b, v12.16b, v9.16b
	eor	v30.16b, v10.16b, v30.16b
	eor	v29.16b, v31.16b, v29.16b
	eor	v31.16b, v11.16b, v28.16b
	eor	v8.16b, v9.16b, v8.16b
	eor	v11.16b, v29.16b, v30.16b
	and	v24.16b, v29.16b, v24.16b
	and	v27.16b, v29.16b, v27.16b
	eor	v9.16b, v30.16b, v31.16b
	eor	v10.16b, v29.16b, v8.16b
	eor	v13.16b, v31.16b, v8.16b
	and	v14.16b, v8.16b, v5.16b
	and	v25.16b, v30.16b, v25.16b
	and	v18.16b, v31.16b, v18.16b
	and	v28.16b, v11.16b, v20.16b
	eor	v12.16b, v10.16b, v9.16b
	and	v23.16b, v9.16b, v23.16b
	and	v5.16b, v13.16b, v21.16b
	and	v21.16b, v9.16b, v4.16b
	and	v16.16b, v10.16b, v16.16b
	and	v2.16b, v10.16b, v2.16b
	ldp	q9, q10, [x11, #-128]
	and	v7.16b, v13.16b, v7.16b
	and	v29.16b, v12.16b, v19.16b
	and	v19.16b, v31.16b, v22.16b
	and	v22.16b, v30.16b, v26.16b
	ldp	q30, q31, [x11, #-32]
	eor	v20.16b, v23.16b, v24.16b
	and	v26.16b, v8.16b, v17.16b
	and	v17.16b, v11.16b, v6.16b
	and	v3.16b, v12.16b, v3.16b
	ldp	q11, q12, [x11, #-96]
	eor	v4.16b, v29.16b, v27.16b
	eor	v29.16b, v19.16b, v14.16b
	eor	v24.16b, v24.16b, v30.16b
	eor	v20.16b, v20.16b, v28.16b
	ldp	q30, q8, [x11, #-64]
	eor	v26.16b, v27.16b, v26.16b
	eor	v6.16b, v5.16b, v22.16b
	eor	v23.16b, v23.16b, v25.16b
	eor	v7.16b, v2.16b, v7.16b
	eor	v27.16b, v29.16b, v18.16b
	eor	v18.16b, v9.16b, v18.16b
	eor	v24.16b, v24.16b, v29.16b
	eor	v28.16b, v28.16b, v8.16b
	eor	v29.16b, v3.16b, v16.16b
	eor	v25.16b, v17.16b, v26.16b
	eor	v2.16b, v2.16b, v12.16b
	eor	v22.16b, v22.16b, v31.16b
	eor	v4.16b, v4.16b, v20.16b
	eor	v18.16b, v18.16b, v21.16b
	eor	v16.16b, v24.16b, v16.16b
	eor	v24.16b, v17.16b, v10.16b
	eor	v21.16b, v28.16b, v27.16b
	eor	v20.16b, v29.16b, v20.16b
	eor	v26.16b, v26.16b, v11.16b
	eor	v23.16b, v23.16b, v25.16b
	eor	v2.16b, v2.16b, v6.16b
	eor	v17.16b, v22.16b, v17.16b
	eor	v18.16b, v18.16b, v7.16b
	eor	v7.16b, v16.16b, v7.16b
	eor	v3.16b, v24.16b, v3.16b
	eor	v21.16b, v21.16b, v29.16b
	eor	v16.16b, v19.16b, v30.16b
	ldr	q19, [x10, l_aes_CPI33_4@PAGEOFF]
	eor	v6.16b, v26.16b, v6.16b
	eor	v2.16b, v2.16b, v27.16b
	eor	v17.16b, v17.16b, v20.16b
	eor	v7.16b, v7.16b, v23.16b
	eor	v3.16b, v3.16b, v4.16b
	eor	v21.16b, v21.16b, v23.16b
	eor	v5.16b, v16.16b, v5.16b
	tbl	v16.16b, { v18.16b }, v19.16b
	eor	v6.16b, v6.16b, v20.16b
	eor	v2.16b, v2.16b, v4.16b
	tbl	v4.16b, { v17.16b }, v19.16b
	tbl	v23.16b, { v7.16b }, v19.16b
	tbl	v22.16b, { v21.16b }, v19.16b
	eor	v5.16b, v5.16b, v20.16b
	tbl	v20.16b, { v3.16b }, v19.16b
	eor	v16.16b, v16.16b, v18.16b
	tbl	v24.16b, { v6.16b }, v19.16b
	tbl	v25.16b, { v2.16b }, v19.16b
	eor	v4.16b, v4.16b, v17.16b
	tbl	v19.16b, { v5.16b }, v19.16b
	eor	v23.16b, v23.16b, v7.16b
	eor	v22.16b, v22.16b, v21.16b
	eor	v20.16b, v20.16b, v3.16b
	eor	v3.16b, v16.16b, v3.16b
	eor	v24.16b, v24.16b, v6.16b
	eor	v25.16b, v25.16b, v2.16b
	eor	v18.16b, v4.16b, v18.16b
	eor	v2.16b, v4.16b, v2.16b
	eor	v17.16b, v23.16b, v17.16b
	eor	v7.16b, v22.16b, v7.16b
	eor	v19.16b, v19.16b, v5.16b
	eor	v3.16b, v3.16b, v4.16b
	eor	v6.16b, v20.16b, v6.16b
	eor	v5.16b, v4.16b, v5.16b
	eor	v2.16b, v2.16b, v24.16b
	eor	v24.16b, v24.16b, v18.16b
	eor	v22.16b, v22.16b, v17.16b
	eor	v26.16b, v17.16b, v7.16b
	eor	v27.16b, v3.16b, v25.16b
	eor	v16.16b, v7.16b, v16.16b
	eor	v28.16b, v19.16b, v6.16b
	eor	v5.16b, v5.16b, v25.16b
	eor	v19.16b, v19.16b, v21.16b
	eor	v21.16b, v24.16b, v17.16b
	eor	v22.16b, v2.16b, v22.16b
	eor	v20.16b, v26.16b, v20.16b
	eor	v24.16b, v27.16b, v7.16b
	eor	v25.16b, v26.16b, v28.16b
	eor	v23.16b, v23.16b, v5.16b
	eor	v4.16b, v19.16b, v4.16b
	ext	v26.16b, v16.16b, v16.16b, #8
	ext	v29.16b, v21.16b, v21.16b, #8
	ext	v31.16b, v22.16b, v22.16b, #8
	ext	v27.16b, v20.16b, v20.16b, #8
	ext	v28.16b, v24.16b, v24.16b, #8
	eor	v16.16b, v18.16b, v16.16b
	ext	v30.16b, v25.16b, v25.16b, #8
	ext	v8.16b, v23.16b, v23.16b, #8
	ext	v9.16b, v4.16b, v4.16b, #8
	eor	v3.16b, v3.16b, v20.16b
	eor	v7.16b, v7.16b, v23.16b
	eor	v4.16b, v4.16b, v17.16b
	eor	v2.16b, v2.16b, v24.16b
	eor	v5.16b, v5.16b, v25.16b
	eor	v17.16b, v19.16b, v22.16b
	eor	v6.16b, v6.16b, v21.16b
	eor	v25.16b, v16.16b, v26.16b
	eor	v3.16b, v3.16b, v27.16b
	eor	v7.16b, v7.16b, v8.16b
	eor	v19.16b, v9.16b, v4.16b
	eor	v26.16b, v2.16b, v28.16b
	eor	v16.16b, v5.16b, v30.16b
	eor	v28.16b, v17.16b, v31.16b
	eor	v6.16b, v6.16b, v29.16b
	eor	v17.16b, v3.16b, v25.16b
	eor	v2.16b, v7.16b, v19.16b
	eor	v27.16b, v3.16b, v7.16b
	eor	v18.16b, v28.16b, v26.16b
	eor	v4.16b, v16.16b, v19.16b
	eor	v5.16b, v16.16b, v26.16b
	eor	v23.16b, v6.16b, v3.16b
	eor	v29.16b, v26.16b, v25.16b
	eor	v24.16b, v16.16b, v7.16b
	eor	v30.16b, v28.16b, v6.16b
	eor	v3.16b, v17.16b, v2.16b
	eor	v6.16b, v18.16b, v27.16b
	eor	v7.16b, v4.16b, v7.16b
	eor	v21.16b, v5.16b, v17.16b
	eor	v18.16b, v5.16b, v23.16b
	eor	v16.16b, v29.16b, v2.16b
	eor	v22.16b, v24.16b, v17.16b
	eor	v20.16b, v30.16b, v19.16b
	eor	v19.16b, v24.16b, v30.16b
	eor	v27.16b, v27.16b, v29.16b
	eor	v17.16b, v7.16b, v26.16b
	and	v30.16b, v7.16b, v4.16b
	and	v31.16b, v21.16b, v6.16b
	eor	v26.16b, v5.16b, v25.16b
	eor	v8.16b, v18.16b, v16.16b
	eor	v25.16b, v22.16b, v28.16b
	eor	v9.16b, v23.16b, v16.16b
	and	v10.16b, v19.16b, v3.16b
	orr	v11.16b, v21.16b, v6.16b
	and	v12.16b, v17.16b, v18.16b
	and	v14.16b, v22.16b, v20.16b
	eor	v28.16b, v31.16b, v28.16b
	and	v13.16b, v26.16b, v24.16b
	and	v8.16b, v8.16b, v5.16b
	and	v15.16b, v25.16b, v27.16b
	eor	v30.16b, v9.16b, v30.16b
	and	v31.16b, v16.16b, v2.16b
	eor	v23.16b, v16.16b, v23.16b
	eor	v29.16b, v14.16b, v29.16b
	eor	v9.16b, v8.16b, v12.16b
	eor	v11.16b, v11.16b, v13.16b
	eor	v28.16b, v28.16b, v15.16b
	eor	v30.16b, v30.16b, v10.16b
	eor	v31.16b, v8.16b, v31.16b
	eor	v29.16b, v29.16b, v10.16b
	eor	v8.16b, v11.16b, v9.16b
	eor	v28.16b, v28.16b, v5.16b
	eor	v30.16b, v30.16b, v9.16b
	eor	v29.16b, v29.16b, v31.16b
	eor	v28.16b, v28.16b, v31.16b
	and	v9.16b, v30.16b, v8.16b
	eor	v31.16b, v30.16b, v29.16b
	and	v30.16b, v28.16b, v30.16b
	eor	v12.16b, v28.16b, v8.16b
	and	v8.16b, v29.16b, v8.16b
	eor	v10.16b, v9.16b, v28.16b
	eor	v11.16b, v9.16b, v29.16b
	and	v30.16b, v30.16b, v31.16b
	bic	v8.16b, v12.16b, v8.16b
	and	v10.16b, v10.16b, v31.16b
	eor	v31.16b, v9.16b, v31.16b
	and	v11.16b, v11.16b, v12.16b
	eor	v8.16b, v8.16b, v9.16b
	eor	v10.16b, v10.16b, v29.16b
	eor	v30.16b, v31.16b, v30.16b
	eor	v31.16b, v11.16b, v28.16b
	eor	v9.16b, v10.16b, v31.16b
	eor	v28.16b, v30.16b, v8.16b
	eor	v11.16b, v30.16b, v10.16b
	and	v29.16b, v30.16b, v24.16b
	and	v24.16b, v10.16b, v27.16b
	and	v26.16b, v30.16b, v26.16b
	eor	v13.16b, v31.16b, v8.16b
	and	v22.16b, v31.16b, v22.16b
	and	v23.16b, v9.16b, v23.16b
	eor	v12.16b, v28.16b, v9.16b
	and	v27.16b, v11.16b, v21.16b
	and	v21.16b, v10.16b, v25.16b
	and	v25.16b, v8.16b, v4.16b
	and	v16.16b, v28.16b, v16.16b
	and	v2.16b, v28.16b, v2.16b
	and	v4.16b, v13.16b, v19.16b
	and	v19.16b, v11.16b, v6.16b
	eor	v30.16b, v23.16b, v29.16b
	and	v14.16b, v12.16b, v18.16b
	and	v18.16b, v9.16b, v5.16b
	ldp	q9, q10, [x11, #-192]
	and	v5.16b, v31.16b, v20.16b
	eor	v23.16b, v23.16b, v24.16b
	ldp	q28, q24, [x11, #-256]
	eor	v20.16b, v30.16b, v27.16b
	eor	v31.16b, v14.16b, v26.16b
	and	v30.16b, v8.16b, v7.16b
	and	v7.16b, v12.16b, v17.16b
	ldp	q11, q12, [x11, #-224]
	eor	v17.16b, v5.16b, v25.16b
	and	v8.16b, v13.16b, v3.16b
	eor	v27.16b, v27.16b, v10.16b
	eor	v3.16b, v31.16b, v20.16b
	ldp	q25, q31, [x11, #-160]
	sub	x11, x11, #512
	eor	v26.16b, v26.16b, v30.16b
	eor	v30.16b, v7.16b, v16.16b
	eor	v6.16b, v4.16b, v21.16b
	eor	v5.16b, v5.16b, v9.16b
	eor	v25.16b, v29.16b, v25.16b
	eor	v29.16b, v17.16b, v22.16b
	eor	v22.16b, v28.16b, v22.16b
	eor	v28.16b, v2.16b, v12.16b
	eor	v21.16b, v21.16b, v31.16b
	eor	v2.16b, v2.16b, v8.16b
	eor	v4.16b, v5.16b, v4.16b
	eor	v17.16b, v25.16b, v17.16b
	eor	v25.16b, v19.16b, v26.16b
	eor	v27.16b, v27.16b, v29.16b
	eor	v18.16b, v22.16b, v18.16b
	eor	v22.16b, v26.16b, v11.16b
	eor	v16.16b, v17.16b, v16.16b
	eor	v17.16b, v30.16b, v20.16b
	eor	v20.16b, v19.16b, v24.16b
	eor	v24.16b, v28.16b, v6.16b
	eor	v19.16b, v21.16b, v19.16b
	eor	v21.16b, v23.16b, v25.16b
	eor	v23.16b, v27.16b, v30.16b
	eor	v6.16b, v22.16b, v6.16b
	eor	v16.16b, v16.16b, v2.16b
	eor	v2.16b, v18.16b, v2.16b
	eor	v7.16b, v20.16b, v7.16b
	eor	v18.16b, v24.16b, v29.16b
	eor	v19.16b, v19.16b, v17.16b
	eor	v4.16b, v4.16b, v17.16b
	eor	v20.16b, v23.16b, v21.16b
	eor	v6.16b, v6.16b, v17.16b
	eor	v16.16b, v16.16b, v21.16b
	eor	v7.16b, v7.16b, v3.16b
	tbl	v5.16b, { v2.16b }, v0.16b
	eor	v3.16b, v18.16b, v3.16b
	tbl	v18.16b, { v19.16b }, v0.16b
	tbl	v25.16b, { v4.16b }, v0.16b
	tbl	v21.16b, { v20.16b }, v0.16b
	tbl	v23.16b, { v6.16b }, v0.16b
	tbl	v22.16b, { v16.16b }, v0.16b
	tbl	v17.16b, { v7.16b }, v0.16b
	eor	v5.16b, v5.16b, v2.16b
	tbl	v24.16b, { v3.16b }, v0.16b
	eor	v18.16b, v18.16b, v19.16b
	eor	v25.16b, v25.16b, v4.16b
	eor	v21.16b, v21.16b, v20.16b
	eor	v23.16b, v23.16b, v6.16b
	eor	v22.16b, v22.16b, v16.16b
	eor	v17.16b, v17.16b, v7.16b
	eor	v7.16b, v5.16b, v7.16b
	eor	v24.16b, v24.16b, v3.16b
	eor	v2.16b, v18.16b, v2.16b
	eor	v3.16b, v18.16b, v3.16b
	eor	v16.16b, v21.16b, v16.16b
	eor	v4.16b, v18.16b, v4.16b
	eor	v20.16b, v25.16b, v20.16b
	eor	v19.16b, v22.16b, v19.16b
	eor	v7.16b, v7.16b, v18.16b
	eor	v6.16b, v17.16b, v6.16b
	eor	v3.16b, v3.16b, v23.16b
	eor	v23.16b, v23.16b, v2.16b
	eor	v4.16b, v4.16b, v24.16b
	eor	v5.16b, v16.16b, v5.16b
	eor	v18.16b, v20.16b, v18.16b
	eor	v26.16b, v19.16b, v16.16b
	eor	v27.16b, v7.16b, v24.16b
	eor	v28.16b, v25.16b, v6.16b
	eor	v21.16b, v21.16b, v19.16b
	eor	v23.16b, v23.16b, v19.16b
	eor	v22.16b, v22.16b, v4.16b
	eor	v2.16b, v2.16b, v5.16b
	tbl	v9.16b, { v18.16b }, v1.16b
	eor	v17.16b, v26.16b, v17.16b
	eor	v24.16b, v27.16b, v16.16b
	eor	v25.16b, v26.16b, v28.16b
	eor	v21.16b, v3.16b, v21.16b
	tbl	v26.16b, { v5.16b }, v1.16b
	tbl	v28.16b, { v23.16b }, v1.16b
	tbl	v8.16b, { v22.16b }, v1.16b
	eor	v6.16b, v6.16b, v23.16b
	tbl	v27.16b, { v17.16b }, v1.16b
	tbl	v29.16b, { v24.16b }, v1.16b
	tbl	v30.16b, { v25.16b }, v1.16b
	tbl	v31.16b, { v21.16b }, v1.16b
	eor	v5.16b, v7.16b, v17.16b
	eor	v7.16b, v16.16b, v22.16b
	eor	v16.16b, v18.16b, v19.16b
	eor	v4.16b, v4.16b, v25.16b
	eor	v17.16b, v20.16b, v21.16b
	eor	v25.16b, v2.16b, v26.16b
	eor	v2.16b, v3.16b, v24.16b
	eor	v18.16b, v6.16b, v28.16b
	eor	v5.16b, v5.16b, v27.16b
	eor	v7.16b, v7.16b, v8.16b
	eor	v16.16b, v9.16b, v16.16b
	eor	v3.16b, v4.16b, v30.16b
	eor	v28.16b, v17.16b, v31.16b
	eor	v26.16b, v2.16b, v29.16b
	eor	v23.16b, v5.16b, v25.16b
	eor	v21.16b, v18.16b, v5.16b
	eor	v27.16b, v5.16b, v7.16b
	eor	v2.16b, v7.16b, v16.16b
	eor	v22.16b, v28.16b, v18.16b
	eor	v17.16b, v3.16b, v7.16b
	eor	v6.16b, v3.16b, v16.16b
	eor	v3.16b, v3.16b, v26.16b
	eor	v29.16b, v26.16b, v25.16b
	eor	v24.16b, v28.16b, v26.16b
	eor	v4.16b, v23.16b, v2.16b
	eor	v19.16b, v17.16b, v22.16b
	eor	v18.16b, v6.16b, v7.16b
	eor	v20.16b, v3.16b, v21.16b
	eor	v5.16b, v29.16b, v2.16b
	eor	v7.16b, v24.16b, v27.16b
	eor	v24.16b, v22.16b, v16.16b
	eor	v22.16b, v3.16b, v23.16b
	eor	v23.16b, v17.16b, v23.16b
	eor	v25.16b, v3.16b, v25.16b
	eor	v27.16b, v27.16b, v29.16b
	eor	v16.16b, v18.16b, v26.16b
	eor	v31.16b, v20.16b, v5.16b
	and	v8.16b, v18.16b, v6.16b
	eor	v9.16b, v21.16b, v5.16b
	and	v10.16b, v22.16b, v7.16b
	and	v30.16b, v19.16b, v4.16b
	eor	v26.16b, v23.16b, v28.16b
	orr	v11.16b, v22.16b, v7.16b
	and	v13.16b, v25.16b, v17.16b
	and	v12.16b, v16.16b, v20.16b
	and	v31.16b, v31.16b, v3.16b
	and	v14.16b, v23.16b, v24.16b
	eor	v8.16b, v9.16b, v8.16b
	eor	v28.16b, v10.16b, v28.16b
	and	v10.16b, v5.16b, v2.16b
	and	v9.16b, v26.16b, v27.16b
	eor	v11.16b, v11.16b, v13.16b
	eor	v21.16b, v5.16b, v21.16b
	eor	v12.16b, v31.16b, v12.16b
	eor	v29.16b, v14.16b, v29.16b
	eor	v8.16b, v8.16b, v30.16b
	eor	v31.16b, v31.16b, v10.16b
	eor	v28.16b, v28.16b, v9.16b
	eor	v9.16b, v11.16b, v12.16b
	eor	v29.16b, v29.16b, v30.16b
	eor	v30.16b, v8.16b, v12.16b
	eor	v28.16b, v28.16b, v3.16b
	eor	v29.16b, v29.16b, v31.16b
	and	v8.16b, v30.16b, v9.16b
	eor	v28.16b, v28.16b, v31.16b
	eor	v10.16b, v30.16b, v29.16b
	eor	v31.16b, v8.16b, v29.16b
	eor	v11.16b, v28.16b, v9.16b
	eor	v12.16b, v8.16b, v28.16b
	and	v30.16b, v28.16b, v30.16b
	and	v9.16b, v29.16b, v9.16b
	and	v12.16b, v12.16b, v10.16b
	and	v31.16b, v31.16b, v11.16b
	and	v30.16b, v30.16b, v10.16b
	eor	v10.16b, v8.16b, v10.16b
	bic	v9.16b, v11.16b, v9.16b
	eor	v29.16b, v12.16b, v29.16b
	eor	v28.16b, v31.16b, v28.16b
	eor	v30.16b, v10.16b, v30.16b
	eor	v31.16b, v9.16b, v8.16b
	eor	v8.16b, v29.16b, v28.16b
	and	v24.16b, v28.16b, v24.16b
	and	v23.16b, v28.16b, v23.16b
	eor	v9.16b, v30.16b, v31.16b
	and	v6.16b, v31.16b, v6.16b
	eor	v12.16b, v28.16b, v31.16b
	eor	v10.16b, v30.16b, v29.16b
	and	v17.16b, v30.16b, v17.16b
	and	v26.16b, v29.16b, v26.16b
	and	v21.16b, v8.16b, v21.16b
	and	v25.16b, v30.16b, v25.16b
	and	v18.16b, v31.16b, v18.16b
	eor	v11.16b, v9.16b, v8.16b
	and	v19.16b, v12.16b, v19.16b
	eor	v6.16b, v24.16b, v6.16b
	and	v27.16b, v29.16b, v27.16b
	and	v22.16b, v10.16b, v22.16b
	and	v7.16b, v10.16b, v7.16b
	eor	v28.16b, v21.16b, v17.16b
	and	v5.16b, v9.16b, v5.16b
	eor	v18.16b, v25.16b, v18.16b
	and	v20.16b, v11.16b, v20.16b
	and	v16.16b, v11.16b, v16.16b
	eor	v29.16b, v19.16b, v26.16b
	and	v4.16b, v12.16b, v4.16b
	and	v2.16b, v9.16b, v2.16b
	and	v3.16b, v8.16b, v3.16b
	eor	v28.16b, v28.16b, v22.16b
	eor	v21.16b, v21.16b, v27.16b
	eor	v27.16b, v7.16b, v18.16b
	eor	v20.16b, v20.16b, v25.16b
	eor	v25.16b, v6.16b, v23.16b
	eor	v6.16b, v6.16b, v17.16b
	eor	v17.16b, v7.16b, v26.16b
	eor	v26.16b, v16.16b, v5.16b
	eor	v30.16b, v2.16b, v4.16b
	eor	v2.16b, v29.16b, v2.16b
	eor	v18.16b, v29.16b, v18.16b
	eor	v16.16b, v16.16b, v7.16b
	eor	v22.16b, v25.16b, v22.16b
	eor	v4.16b, v6.16b, v5.16b
	eor	v20.16b, v20.16b, v28.16b
	eor	v5.16b, v19.16b, v24.16b
	eor	v6.16b, v26.16b, v28.16b
	eor	v19.16b, v21.16b, v27.16b
	eor	v21.16b, v22.16b, v26.16b
	eor	v22.16b, v3.16b, v23.16b
	eor	v23.16b, v2.16b, v25.16b
	eor	v24.16b, v4.16b, v30.16b
	eor	v7.16b, v18.16b, v6.16b
	eor	v3.16b, v5.16b, v6.16b
	eor	v2.16b, v17.16b, v6.16b
	eor	v16.16b, v16.16b, v20.16b
	eor	v4.16b, v21.16b, v19.16b
	eor	v6.16b, v23.16b, v20.16b
	eor	v17.16b, v22.16b, v30.16b
	eor	v5.16b, v24.16b, v19.16b
	cbnz	x8, Laes_BB33_5
Laes_BB33_6:                               // %after.6
	ldp	q0, q1, [x0]
	ldp	d9, d8, [sp, #48]               // 16-byte Folded Reload
	ldp	d11, d10, [sp, #32]             // 16-byte Folded Reload
	eor	v0.16b, v0.16b, v17.16b
	ldp	q17, q18, [x0, #32]
	eor	v1.16b, v1.16b, v16.16b
	ldp	q16, q19, [x0, #64]
	ldp	d13, d12, [sp, #16]             // 16-byte Folded Reload
	eor	v7.16b, v17.16b, v7.16b
	ldp	q17, q20, [x0, #96]
	eor	v6.16b, v18.16b, v6.16b
	stp	q0, q1, [x2]
	eor	v0.16b, v16.16b, v3.16b
	eor	v1.16b, v19.16b, v4.16b
	eor	v3.16b, v17.16b, v5.16b
	eor	v2.16b, v20.16b, v2.16b
	stp	q7, q6, [x2, #32]
	stp	q0, q1, [x2, #64]
	stp	q3, q2, [x2, #96]
	ldp	d15, d14, [sp], #64             // 16-byte Folded Reload
	ret
                                        // -- End function
	.section	__TEXT,__const
	.p2align	4, 0x0                          // -- Begin function aes_permute::blocks::process_on_lanes::<#e7683a4e90f73162>
l_aes_CPI34_0:
	.byte	0                               // 0x0
	.byte	181                             // 0xb5
	.byte	220                             // 0xdc
	.byte	105                             // 0x69
	.byte	219                             // 0xdb
	.byte	110                             // 0x6e
	.byte	7                               // 0x7
	.byte	178                             // 0xb2
	.byte	20                              // 0x14
	.byte	161                             // 0xa1
	.byte	200                             // 0xc8
	.byte	125                             // 0x7d
	.byte	207                             // 0xcf
	.byte	122                             // 0x7a
	.byte	19                              // 0x13
	.byte	166                             // 0xa6
l_aes_CPI34_1:
	.byte	0                               // 0x0
	.byte	167                             // 0xa7
	.byte	168                             // 0xa8
	.byte	15                              // 0xf
	.byte	237                             // 0xed
	.byte	74                              // 0x4a
	.byte	69                              // 0x45
	.byte	226                             // 0xe2
	.byte	209                             // 0xd1
	.byte	118                             // 0x76
	.byte	121                             // 0x79
	.byte	222                             // 0xde
	.byte	60                              // 0x3c
	.byte	155                             // 0x9b
	.byte	148                             // 0x94
	.byte	51                              // 0x33
l_aes_CPI34_2:
	.byte	128                             // 0x80
	.byte	2                               // 0x2
	.byte	1                               // 0x1
	.byte	15                              // 0xf
	.byte	9                               // 0x9
	.byte	5                               // 0x5
	.byte	14                              // 0xe
	.byte	12                              // 0xc
	.byte	13                              // 0xd
	.byte	4                               // 0x4
	.byte	11                              // 0xb
	.byte	10                              // 0xa
	.byte	7                               // 0x7
	.byte	8                               // 0x8
	.byte	6                               // 0x6
	.byte	3                               // 0x3
l_aes_CPI34_3:
	.byte	128                             // 0x80
	.byte	1                               // 0x1
	.byte	9                               // 0x9
	.byte	14                              // 0xe
	.byte	13                              // 0xd
	.byte	11                              // 0xb
	.byte	7                               // 0x7
	.byte	6                               // 0x6
	.byte	15                              // 0xf
	.byte	2                               // 0x2
	.byte	12                              // 0xc
	.byte	5                               // 0x5
	.byte	10                              // 0xa
	.byte	4                               // 0x4
	.byte	3                               // 0x3
	.byte	8                               // 0x8
l_aes_CPI34_4:
	.byte	0                               // 0x0
	.byte	41                              // 0x29
	.byte	235                             // 0xeb
	.byte	82                              // 0x52
	.byte	166                             // 0xa6
	.byte	54                              // 0x36
	.byte	185                             // 0xb9
	.byte	144                             // 0x90
	.byte	123                             // 0x7b
	.byte	221                             // 0xdd
	.byte	143                             // 0x8f
	.byte	100                             // 0x64
	.byte	31                              // 0x1f
	.byte	77                              // 0x4d
	.byte	244                             // 0xf4
	.byte	194                             // 0xc2
l_aes_CPI34_5:
	.byte	0                               // 0x0
	.byte	5                               // 0x5
	.byte	253                             // 0xfd
	.byte	152                             // 0x98
	.byte	223                             // 0xdf
	.byte	191                             // 0xbf
	.byte	101                             // 0x65
	.byte	96                              // 0x60
	.byte	157                             // 0x9d
	.byte	66                              // 0x42
	.byte	218                             // 0xda
	.byte	39                              // 0x27
	.byte	186                             // 0xba
	.byte	34                              // 0x22
	.byte	71                              // 0x47
	.byte	248                             // 0xf8
l_aes_CPI34_6:
	.byte	0                               // 0x0
	.byte	91                              // 0x5b
	.byte	164                             // 0xa4
	.byte	122                             // 0x7a
	.byte	207                             // 0xcf
	.byte	74                              // 0x4a
	.byte	222                             // 0xde
	.byte	133                             // 0x85
	.byte	33                              // 0x21
	.byte	238                             // 0xee
	.byte	148                             // 0x94
	.byte	48                              // 0x30
	.byte	17                              // 0x11
	.byte	107                             // 0x6b
	.byte	181                             // 0xb5
	.byte	255                             // 0xff
l_aes_CPI34_7:
	.byte	0                               // 0x0
	.byte	118                             // 0x76
	.byte	62                              // 0x3e
	.byte	158                             // 0x9e
	.byte	30                              // 0x1e
	.byte	200                             // 0xc8
	.byte	160                             // 0xa0
	.byte	214                             // 0xd6
	.byte	232                             // 0xe8
	.byte	246                             // 0xf6
	.byte	104                             // 0x68
	.byte	86                              // 0x56
	.byte	190                             // 0xbe
	.byte	32                              // 0x20
	.byte	128                             // 0x80
	.byte	72                              // 0x48
l_aes_CPI34_8:
	.byte	0                               // 0x0
	.byte	28                              // 0x1c
	.byte	68                              // 0x44
	.byte	88                              // 0x58
	.byte	151                             // 0x97
	.byte	139                             // 0x8b
	.byte	211                             // 0xd3
	.byte	207                             // 0xcf
	.byte	138                             // 0x8a
	.byte	150                             // 0x96
	.byte	206                             // 0xce
	.byte	210                             // 0xd2
	.byte	29                              // 0x1d
	.byte	1                               // 0x1
	.byte	89                              // 0x59
	.byte	69                              // 0x45
l_aes_CPI34_9:
	.byte	0                               // 0x0
	.byte	48                              // 0x30
	.byte	38                              // 0x26
	.byte	22                              // 0x16
	.byte	183                             // 0xb7
	.byte	135                             // 0x87
	.byte	145                             // 0x91
	.byte	161                             // 0xa1
	.byte	65                              // 0x41
	.byte	113                             // 0x71
	.byte	103                             // 0x67
	.byte	87                              // 0x57
	.byte	246                             // 0xf6
	.byte	198                             // 0xc6
	.byte	208                             // 0xd0
	.byte	224                             // 0xe0
l_aes_CPI34_10:
	.byte	0                               // 0x0
	.byte	59                              // 0x3b
	.byte	228                             // 0xe4
	.byte	200                             // 0xc8
	.byte	3                               // 0x3
	.byte	20                              // 0x14
	.byte	44                              // 0x2c
	.byte	23                              // 0x17
	.byte	243                             // 0xf3
	.byte	240                             // 0xf0
	.byte	56                              // 0x38
	.byte	220                             // 0xdc
	.byte	47                              // 0x2f
	.byte	231                             // 0xe7
	.byte	203                             // 0xcb
	.byte	223                             // 0xdf
l_aes_CPI34_11:
	.byte	0                               // 0x0
	.byte	36                              // 0x24
	.byte	145                             // 0x91
	.byte	25                              // 0x19
	.byte	35                              // 0x23
	.byte	143                             // 0x8f
	.byte	136                             // 0x88
	.byte	172                             // 0xac
	.byte	61                              // 0x3d
	.byte	30                              // 0x1e
	.byte	7                               // 0x7
	.byte	150                             // 0x96
	.byte	171                             // 0xab
	.byte	178                             // 0xb2
	.byte	58                              // 0x3a
	.byte	181                             // 0xb5
	.section	__TEXT,__text,regular,pure_instructions
	.p2align	2
_aes.aes_permute.blocks.process_on_lanes.2: // @_aes.aes_permute.blocks.process_on_lanes.2
// %bb.0:                               // %start
	str	x27, [sp, #-80]!                // 8-byte Folded Spill
	stp	x22, x21, [sp, #48]             // 16-byte Folded Spill
	cmp	x3, #2
	adrp	x21, l_aes_static.3@PAGE
	add	x21, x21, l_aes_static.3@PAGEOFF
	stp	x20, x19, [sp, #64]             // 16-byte Folded Spill
	adrp	x8, l_aes_CPI34_0@PAGE
	adrp	x9, l_aes_CPI34_1@PAGE
	adrp	x10, l_aes_CPI34_2@PAGE
	adrp	x11, l_aes_CPI34_3@PAGE
	adrp	x12, l_aes_CPI34_10@PAGE
	adrp	x13, l_aes_CPI34_11@PAGE
	adrp	x14, l_aes_CPI34_4@PAGE
	adrp	x15, l_aes_CPI34_5@PAGE
	adrp	x16, l_aes_CPI34_6@PAGE
	adrp	x17, l_aes_CPI34_7@PAGE
	adrp	x4, l_aes_static.6@PAGE
	add	x4, x4, l_aes_static.6@PAGEOFF
	adrp	x5, l_aes_CPI34_8@PAGE
	adrp	x6, l_aes_static.4@PAGE
	add	x6, x6, l_aes_static.4@PAGEOFF
	adrp	x7, l_aes_CPI34_9@PAGE
	adrp	x19, l_aes_static.5@PAGE
	add	x19, x19, l_aes_static.5@PAGEOFF
	stp	x26, x25, [sp, #16]             // 16-byte Folded Spill
	stp	x24, x23, [sp, #32]             // 16-byte Folded Spill
	b.lo	Laes_BB34_6
// %bb.1:                               // %join.5.lr.ph
	sub	x22, x1, #1
	add	w20, w22, w22, lsl #1
	ubfiz	x20, x20, #4, #2
	ldr	q0, [x21, x20]
	mov	x20, xzr
	b	Laes_BB34_3
Laes_BB34_2:                               // %"aes_permute::blocks::process_two_vectors::<#e7683a4e90f73162>.exit"
                                        //   in Loop: Header=BB34_3 Depth=1
	ushr	v3.16b, v4.16b, #4
	and	v4.16b, v4.16b, v1.16b
	ldr	q6, [x10, l_aes_CPI34_2@PAGEOFF]
	ushr	v5.16b, v2.16b, #4
	and	v1.16b, v2.16b, v1.16b
	ldr	q7, [x11, l_aes_CPI34_3@PAGEOFF]
	add	x20, x20, #2
	eor	v2.16b, v3.16b, v4.16b
	tbl	v4.16b, { v6.16b }, v4.16b
	tbl	v17.16b, { v7.16b }, v3.16b
	eor	v16.16b, v5.16b, v1.16b
	tbl	v1.16b, { v6.16b }, v1.16b
	tbl	v6.16b, { v7.16b }, v5.16b
	sub	x24, x3, x20
	tbl	v18.16b, { v7.16b }, v2.16b
	cmp	x24, #1
	tbl	v19.16b, { v7.16b }, v16.16b
	eor	v17.16b, v17.16b, v4.16b
	eor	v6.16b, v6.16b, v1.16b
	eor	v4.16b, v18.16b, v4.16b
	tbl	v17.16b, { v7.16b }, v17.16b
	eor	v1.16b, v19.16b, v1.16b
	tbl	v6.16b, { v7.16b }, v6.16b
	tbl	v4.16b, { v7.16b }, v4.16b
	tbl	v1.16b, { v7.16b }, v1.16b
	eor	v2.16b, v17.16b, v2.16b
	ldr	q7, [x12, l_aes_CPI34_10@PAGEOFF]
	eor	v6.16b, v6.16b, v16.16b
	eor	v3.16b, v4.16b, v3.16b
	ldr	q4, [x13, l_aes_CPI34_11@PAGEOFF]
	tbl	v2.16b, { v7.16b }, v2.16b
	eor	v1.16b, v1.16b, v5.16b
	tbl	v5.16b, { v7.16b }, v6.16b
	tbl	v3.16b, { v4.16b }, v3.16b
	tbl	v1.16b, { v4.16b }, v1.16b
	eor	v2.16b, v3.16b, v2.16b
	ldr	q3, [x0, x22, lsl #4]
	eor	v1.16b, v1.16b, v5.16b
	tbl	v2.16b, { v2.16b }, v0.16b
	tbl	v1.16b, { v1.16b }, v0.16b
	eor	v2.16b, v2.16b, v3.16b
	eor	v1.16b, v1.16b, v3.16b
	stp	q2, q1, [x23]
	b.ls	Laes_BB34_7
Laes_BB34_3:                               // %join.5
                                        // =>This Loop Header: Depth=1
                                        //     Child Loop BB34_5 Depth 2
	add	x23, x2, x20, lsl #4
	ldr	q2, [x0]
	movi	v1.16b, #15
	ldr	q7, [x9, l_aes_CPI34_1@PAGEOFF]
	cmp	x22, #2
	ldp	q3, q4, [x23]
	eor	v3.16b, v2.16b, v3.16b
	eor	v2.16b, v2.16b, v4.16b
	ldr	q4, [x8, l_aes_CPI34_0@PAGEOFF]
	and	v5.16b, v3.16b, v1.16b
	ushr	v3.16b, v3.16b, #4
	and	v6.16b, v2.16b, v1.16b
	ushr	v2.16b, v2.16b, #4
	tbl	v5.16b, { v4.16b }, v5.16b
	tbl	v3.16b, { v7.16b }, v3.16b
	tbl	v6.16b, { v4.16b }, v6.16b
	tbl	v2.16b, { v7.16b }, v2.16b
	eor	v4.16b, v3.16b, v5.16b
	eor	v2.16b, v2.16b, v6.16b
	b.lo	Laes_BB34_2
// %bb.4:                               // %join.5.i2098.preheader
                                        //   in Loop: Header=BB34_3 Depth=1
	mov	w24, #48                        // =0x30
	add	x25, x0, #16
	sub	x26, x1, #2
Laes_BB34_5:                               // %join.5.i2098
                                        //   Parent Loop BB34_3 Depth=1
                                        // =>  This Inner Loop Header: Depth=2
	movi	v3.16b, #15
	ushr	v5.16b, v4.16b, #4
	ldr	q16, [x10, l_aes_CPI34_2@PAGEOFF]
	ushr	v6.16b, v2.16b, #4
	ldr	q17, [x11, l_aes_CPI34_3@PAGEOFF]
	and	x27, x24, #0x30
	subs	x26, x26, #1
	add	x24, x24, #48
	tbl	v19.16b, { v17.16b }, v5.16b
	and	v4.16b, v4.16b, v3.16b
	and	v2.16b, v2.16b, v3.16b
	tbl	v21.16b, { v17.16b }, v6.16b
	eor	v7.16b, v5.16b, v4.16b
	eor	v18.16b, v6.16b, v2.16b
	tbl	v4.16b, { v16.16b }, v4.16b
	tbl	v2.16b, { v16.16b }, v2.16b
	tbl	v20.16b, { v17.16b }, v7.16b
	tbl	v16.16b, { v17.16b }, v18.16b
	eor	v19.16b, v19.16b, v4.16b
	eor	v4.16b, v20.16b, v4.16b
	eor	v20.16b, v21.16b, v2.16b
	eor	v2.16b, v16.16b, v2.16b
	tbl	v16.16b, { v17.16b }, v19.16b
	ldr	q21, [x4, x27]
	tbl	v4.16b, { v17.16b }, v4.16b
	tbl	v19.16b, { v17.16b }, v20.16b
	tbl	v2.16b, { v17.16b }, v2.16b
	ldr	q17, [x16, l_aes_CPI34_6@PAGEOFF]
	ldr	q20, [x15, l_aes_CPI34_5@PAGEOFF]
	eor	v7.16b, v16.16b, v7.16b
	eor	v4.16b, v4.16b, v5.16b
	eor	v16.16b, v19.16b, v18.16b
	eor	v2.16b, v2.16b, v6.16b
	ldr	q5, [x17, l_aes_CPI34_7@PAGEOFF]
	tbl	v6.16b, { v17.16b }, v7.16b
	ldr	q19, [x14, l_aes_CPI34_4@PAGEOFF]
	tbl	v18.16b, { v5.16b }, v4.16b
	tbl	v17.16b, { v17.16b }, v16.16b
	tbl	v5.16b, { v5.16b }, v2.16b
	tbl	v7.16b, { v19.16b }, v7.16b
	tbl	v4.16b, { v20.16b }, v4.16b
	tbl	v16.16b, { v19.16b }, v16.16b
	tbl	v2.16b, { v20.16b }, v2.16b
	eor	v6.16b, v18.16b, v6.16b
	eor	v5.16b, v5.16b, v17.16b
	ldr	q17, [x7, l_aes_CPI34_9@PAGEOFF]
	eor	v4.16b, v4.16b, v7.16b
	eor	v2.16b, v2.16b, v16.16b
	tbl	v6.16b, { v6.16b }, v21.16b
	tbl	v5.16b, { v5.16b }, v21.16b
	eor	v4.16b, v4.16b, v6.16b
	eor	v2.16b, v2.16b, v5.16b
	ldr	q5, [x5, l_aes_CPI34_8@PAGEOFF]
	and	v6.16b, v4.16b, v3.16b
	ushr	v7.16b, v4.16b, #4
	and	v3.16b, v2.16b, v3.16b
	ushr	v16.16b, v2.16b, #4
	tbl	v6.16b, { v5.16b }, v6.16b
	tbl	v7.16b, { v17.16b }, v7.16b
	tbl	v3.16b, { v5.16b }, v3.16b
	tbl	v5.16b, { v17.16b }, v16.16b
	ldr	q16, [x6, x27]
	tbl	v17.16b, { v4.16b }, v16.16b
	tbl	v18.16b, { v2.16b }, v16.16b
	eor	v6.16b, v7.16b, v6.16b
	ldr	q7, [x19, x27]
	eor	v3.16b, v5.16b, v3.16b
	tbl	v4.16b, { v4.16b }, v7.16b
	tbl	v2.16b, { v2.16b }, v7.16b
	eor	v5.16b, v6.16b, v17.16b
	ldr	q6, [x25], #16
	eor	v3.16b, v3.16b, v18.16b
	eor	v4.16b, v4.16b, v5.16b
	tbl	v5.16b, { v5.16b }, v16.16b
	eor	v2.16b, v2.16b, v3.16b
	tbl	v3.16b, { v3.16b }, v16.16b
	eor	v4.16b, v4.16b, v6.16b
	eor	v2.16b, v2.16b, v6.16b
	eor	v4.16b, v5.16b, v4.16b
	eor	v2.16b, v3.16b, v2.16b
	b.ne	Laes_BB34_5
	b	Laes_BB34_2
Laes_BB34_6:
	mov	x20, xzr
Laes_BB34_7:                               // %loop.7.preheader
	cmp	x3, x20
	b.ne	Laes_BB34_9
Laes_BB34_8:                               // %after.11
	ldp	x20, x19, [sp, #64]             // 16-byte Folded Reload
	ldp	x22, x21, [sp, #48]             // 16-byte Folded Reload
	ldp	x24, x23, [sp, #32]             // 16-byte Folded Reload
	ldp	x26, x25, [sp, #16]             // 16-byte Folded Reload
	ldr	x27, [sp], #80                  // 8-byte Folded Reload
	ret
Laes_BB34_9:                               // %join.10.lr.ph
	sub	x22, x1, #1
	sub	x1, x1, #2
	add	w23, w22, w22, lsl #1
	ubfiz	x23, x23, #4, #2
	ldr	q0, [x21, x23]
	b	Laes_BB34_11
Laes_BB34_10:                              // %"aes_permute::blocks::process_vector::<#e7683a4e90f73162>.exit2071"
                                        //   in Loop: Header=BB34_11 Depth=1
	ushr	v3.16b, v2.16b, #4
	and	v1.16b, v2.16b, v1.16b
	ldr	q4, [x10, l_aes_CPI34_2@PAGEOFF]
	ldr	q5, [x11, l_aes_CPI34_3@PAGEOFF]
	eor	v2.16b, v3.16b, v1.16b
	tbl	v1.16b, { v4.16b }, v1.16b
	tbl	v4.16b, { v5.16b }, v3.16b
	tbl	v6.16b, { v5.16b }, v2.16b
	eor	v4.16b, v4.16b, v1.16b
	eor	v1.16b, v6.16b, v1.16b
	tbl	v4.16b, { v5.16b }, v4.16b
	tbl	v1.16b, { v5.16b }, v1.16b
	eor	v2.16b, v4.16b, v2.16b
	ldr	q4, [x13, l_aes_CPI34_11@PAGEOFF]
	eor	v1.16b, v1.16b, v3.16b
	ldr	q3, [x12, l_aes_CPI34_10@PAGEOFF]
	tbl	v2.16b, { v3.16b }, v2.16b
	tbl	v1.16b, { v4.16b }, v1.16b
	eor	v1.16b, v1.16b, v2.16b
	ldr	q2, [x0, x22, lsl #4]
	tbl	v1.16b, { v1.16b }, v0.16b
	eor	v1.16b, v1.16b, v2.16b
	str	q1, [x2, x20, lsl #4]
	add	x20, x20, #1
	cmp	x3, x20
	b.eq	Laes_BB34_8
Laes_BB34_11:                              // %join.10
                                        // =>This Loop Header: Depth=1
                                        //     Child Loop BB34_13 Depth 2
	ldr	q2, [x2, x20, lsl #4]
	ldr	q3, [x0]
	movi	v1.16b, #15
	ldr	q4, [x8, l_aes_CPI34_0@PAGEOFF]
	ldr	q5, [x9, l_aes_CPI34_1@PAGEOFF]
	cmp	x22, #2
	eor	v2.16b, v3.16b, v2.16b
	and	v3.16b, v2.16b, v1.16b
	ushr	v2.16b, v2.16b, #4
	tbl	v3.16b, { v4.16b }, v3.16b
	tbl	v2.16b, { v5.16b }, v2.16b
	eor	v2.16b, v2.16b, v3.16b
	b.lo	Laes_BB34_10
// %bb.12:                              // %join.5.i1129.preheader
                                        //   in Loop: Header=BB34_11 Depth=1
	mov	w21, #48                        // =0x30
	mov	x23, x1
	add	x24, x0, #16
Laes_BB34_13:                              // %join.5.i1129
                                        //   Parent Loop BB34_11 Depth=1
                                        // =>  This Inner Loop Header: Depth=2
	movi	v3.16b, #15
	ushr	v4.16b, v2.16b, #4
	ldr	q6, [x10, l_aes_CPI34_2@PAGEOFF]
	ldr	q7, [x11, l_aes_CPI34_3@PAGEOFF]
	and	x25, x21, #0x30
	subs	x23, x23, #1
	add	x21, x21, #48
	and	v2.16b, v2.16b, v3.16b
	eor	v5.16b, v4.16b, v2.16b
	tbl	v2.16b, { v6.16b }, v2.16b
	tbl	v6.16b, { v7.16b }, v4.16b
	tbl	v16.16b, { v7.16b }, v5.16b
	eor	v6.16b, v6.16b, v2.16b
	eor	v2.16b, v16.16b, v2.16b
	tbl	v6.16b, { v7.16b }, v6.16b
	ldr	q16, [x15, l_aes_CPI34_5@PAGEOFF]
	tbl	v2.16b, { v7.16b }, v2.16b
	ldr	q7, [x14, l_aes_CPI34_4@PAGEOFF]
	eor	v5.16b, v6.16b, v5.16b
	ldr	q6, [x17, l_aes_CPI34_7@PAGEOFF]
	eor	v2.16b, v2.16b, v4.16b
	ldr	q4, [x16, l_aes_CPI34_6@PAGEOFF]
	tbl	v4.16b, { v4.16b }, v5.16b
	tbl	v5.16b, { v7.16b }, v5.16b
	tbl	v6.16b, { v6.16b }, v2.16b
	tbl	v2.16b, { v16.16b }, v2.16b
	eor	v4.16b, v6.16b, v4.16b
	ldr	q6, [x4, x25]
	eor	v2.16b, v2.16b, v5.16b
	ldr	q5, [x5, l_aes_CPI34_8@PAGEOFF]
	tbl	v4.16b, { v4.16b }, v6.16b
	ldr	q6, [x7, l_aes_CPI34_9@PAGEOFF]
	eor	v2.16b, v2.16b, v4.16b
	and	v3.16b, v2.16b, v3.16b
	ushr	v4.16b, v2.16b, #4
	tbl	v3.16b, { v5.16b }, v3.16b
	tbl	v4.16b, { v6.16b }, v4.16b
	ldr	q5, [x6, x25]
	ldr	q6, [x19, x25]
	tbl	v7.16b, { v2.16b }, v5.16b
	tbl	v2.16b, { v2.16b }, v6.16b
	eor	v3.16b, v4.16b, v3.16b
	ldr	q4, [x24], #16
	eor	v3.16b, v3.16b, v7.16b
	eor	v2.16b, v4.16b, v2.16b
	tbl	v4.16b, { v3.16b }, v5.16b
	eor	v2.16b, v2.16b, v3.16b
	eor	v2.16b, v4.16b, v2.16b
	b.ne	Laes_BB34_13
	b	Laes_BB34_10
                                        // -- End function
	.section	__TEXT,__text,regular,pure_instructions
	.p2align	2                               // -- Begin function aes_hybrid::batches::process_on_planes::<#0fbbf5e423d2a9b1>
_aes.aes_hybrid.batches.process_on_planes.2: // @_aes.aes_hybrid.batches.process_on_planes.2
// %bb.0:                               // %start
	stp	x29, x30, [sp, #-64]!           // 16-byte Folded Spill
	stp	x28, x23, [sp, #16]             // 16-byte Folded Spill
	mov	x29, sp
	stp	x22, x21, [sp, #32]             // 16-byte Folded Spill
	stp	x20, x19, [sp, #48]             // 16-byte Folded Spill
	sub	sp, sp, #1920
	mov	x8, sp
	mov	x20, x2
	mov	x21, x1
	mov	x22, x0
	add	x0, x8, #128
	mov	w1, wzr
	mov	w2, #1792                       // =0x700
	str	xzr, [sp]
	mov	x19, x3
	adrp	x16, _memset@GOTPAGE
	ldr	x16, [x16, _memset@GOTPAGEOFF]
	blr	x16
	mov	x0, sp
	mov	x1, x22
	mov	x2, x21
	lsl	x23, x21, #3
	bl	_aes.aes_hybrid.plane_keys.store_planes
	mov	x0, sp
	mov	x1, x23
	mov	x2, x20
	mov	x3, x19
	bl	_aes.aes_hybrid.batches.process_batches_and_rest.2
	mov	x0, sp
	bl	_aes.aes_cipher.zeroize.zeroize_words
	bl	_aes.aes_cipher.zeroize.stack.wipe_stack.1792
	add	sp, sp, #1920
	ldp	x20, x19, [sp, #48]             // 16-byte Folded Reload
	ldp	x22, x21, [sp, #32]             // 16-byte Folded Reload
	ldp	x28, x23, [sp, #16]             // 16-byte Folded Reload
	ldp	x29, x30, [sp], #64             // 16-byte Folded Reload
	ret
                                        // -- End function
	.section	__TEXT,__const
	.p2align	4, 0x0                          // -- Begin function aes_hybrid::batches::process_batches_and_rest::<#0fbbf5e423d2a9b1>
l_aes_CPI36_0:
	.byte	0                               // 0x0
	.byte	4                               // 0x4
	.byte	8                               // 0x8
	.byte	12                              // 0xc
	.byte	1                               // 0x1
	.byte	5                               // 0x5
	.byte	9                               // 0x9
	.byte	13                              // 0xd
	.byte	2                               // 0x2
	.byte	6                               // 0x6
	.byte	10                              // 0xa
	.byte	14                              // 0xe
	.byte	3                               // 0x3
	.byte	7                               // 0x7
	.byte	11                              // 0xb
	.byte	15                              // 0xf
	.section	__TEXT,__text,regular,pure_instructions
	.p2align	2
_aes.aes_hybrid.batches.process_batches_and_rest.2: // @_aes.aes_hybrid.batches.process_batches_and_rest.2
// %bb.0:                               // %join.5.i.lr.ph
	sub	sp, sp, #224
	lsr	x8, x1, #3
	stp	x26, x25, [sp, #160]            // 16-byte Folded Spill
	mov	x25, xzr
	stp	x24, x23, [sp, #176]            // 16-byte Folded Spill
	and	x24, x3, #0xfffffffffffffff8
	add	x26, x2, #64
	stp	x22, x21, [sp, #192]            // 16-byte Folded Spill
	mov	x22, x2
	mov	x21, x0
	stp	x20, x19, [sp, #208]            // 16-byte Folded Spill
	mov	x20, x3
	mov	x19, x1
	sub	x23, x8, #1
	stp	x29, x30, [sp, #144]            // 16-byte Folded Spill
	add	x29, sp, #144
Laes_BB36_1:                               // %join.5.i
                                        // =>This Inner Loop Header: Depth=1
	adrp	x8, l_aes_CPI36_0@PAGE
	ldp	q0, q3, [x26]
	ldp	q1, q2, [x26, #-64]
	movi	v21.16b, #85
	ldr	q18, [x8, l_aes_CPI36_0@PAGEOFF]
	ldp	q4, q7, [x26, #32]
	add	x2, sp, #16
	mov	x0, x21
	mov	x1, x23
	tbl	v1.16b, { v1.16b }, v18.16b
	tbl	v5.16b, { v0.16b }, v18.16b
	tbl	v17.16b, { v3.16b }, v18.16b
	ldp	q0, q6, [x26, #-32]
	tbl	v4.16b, { v4.16b }, v18.16b
	tbl	v7.16b, { v7.16b }, v18.16b
	str	q18, [sp]                       // 16-byte Spill
	tbl	v16.16b, { v0.16b }, v18.16b
	tbl	v0.16b, { v2.16b }, v18.16b
	ushr	v2.16b, v1.16b, #1
	ushr	v3.16b, v5.16b, #1
	tbl	v6.16b, { v6.16b }, v18.16b
	ushr	v19.16b, v4.16b, #1
	ushr	v18.16b, v16.16b, #1
	eor	v2.16b, v0.16b, v2.16b
	eor	v3.16b, v17.16b, v3.16b
	eor	v19.16b, v7.16b, v19.16b
	eor	v18.16b, v6.16b, v18.16b
	and	v2.16b, v2.16b, v21.16b
	and	v20.16b, v3.16b, v21.16b
	and	v19.16b, v19.16b, v21.16b
	and	v18.16b, v18.16b, v21.16b
	add	v3.16b, v2.16b, v2.16b
	add	v21.16b, v20.16b, v20.16b
	add	v23.16b, v19.16b, v19.16b
	eor	v0.16b, v2.16b, v0.16b
	eor	v7.16b, v19.16b, v7.16b
	add	v22.16b, v18.16b, v18.16b
	eor	v3.16b, v3.16b, v1.16b
	eor	v2.16b, v21.16b, v5.16b
	eor	v1.16b, v20.16b, v17.16b
	eor	v5.16b, v18.16b, v6.16b
	eor	v4.16b, v23.16b, v4.16b
	movi	v20.16b, #51
	movi	v23.16b, #15
	eor	v6.16b, v22.16b, v16.16b
	ushr	v16.16b, v0.16b, #2
	ushr	v17.16b, v3.16b, #2
	ushr	v18.16b, v2.16b, #2
	ushr	v19.16b, v1.16b, #2
	eor	v16.16b, v5.16b, v16.16b
	eor	v17.16b, v6.16b, v17.16b
	eor	v18.16b, v4.16b, v18.16b
	eor	v19.16b, v7.16b, v19.16b
	and	v16.16b, v16.16b, v20.16b
	and	v17.16b, v17.16b, v20.16b
	and	v18.16b, v18.16b, v20.16b
	and	v19.16b, v19.16b, v20.16b
	eor	v5.16b, v16.16b, v5.16b
	eor	v6.16b, v17.16b, v6.16b
	shl	v17.16b, v17.16b, #2
	eor	v4.16b, v18.16b, v4.16b
	eor	v7.16b, v19.16b, v7.16b
	shl	v18.16b, v18.16b, #2
	shl	v16.16b, v16.16b, #2
	shl	v19.16b, v19.16b, #2
	ushr	v20.16b, v5.16b, #4
	ushr	v21.16b, v6.16b, #4
	eor	v3.16b, v17.16b, v3.16b
	and	v22.16b, v4.16b, v23.16b
	and	v17.16b, v7.16b, v23.16b
	eor	v2.16b, v18.16b, v2.16b
	eor	v0.16b, v16.16b, v0.16b
	eor	v1.16b, v19.16b, v1.16b
	ushr	v18.16b, v3.16b, #4
	eor	v16.16b, v22.16b, v21.16b
	eor	v17.16b, v17.16b, v20.16b
	and	v19.16b, v2.16b, v23.16b
	ushr	v20.16b, v0.16b, #4
	and	v21.16b, v1.16b, v23.16b
	eor	v18.16b, v19.16b, v18.16b
	shl	v19.16b, v17.16b, #4
	shl	v22.16b, v16.16b, #4
	eor	v20.16b, v21.16b, v20.16b
	eor	v5.16b, v19.16b, v5.16b
	shl	v19.16b, v18.16b, #4
	eor	v2.16b, v18.16b, v2.16b
	shl	v18.16b, v20.16b, #4
	eor	v1.16b, v20.16b, v1.16b
	eor	v6.16b, v22.16b, v6.16b
	eor	v3.16b, v19.16b, v3.16b
	eor	v0.16b, v18.16b, v0.16b
	stp	q6, q5, [sp, #48]
	stp	q2, q1, [sp, #80]
	eor	v2.16b, v16.16b, v4.16b
	eor	v1.16b, v17.16b, v7.16b
	stp	q3, q0, [sp, #16]
	stp	q2, q1, [sp, #112]
	bl	_aes.aes_soft.soft.ciphers.planes.DecryptPlaneCipher.process_planes
	ldp	q0, q4, [sp, #80]
	movi	v20.16b, #85
	ldp	q1, q2, [sp, #16]
	add	x25, x25, #8
	ldp	q3, q16, [sp, #48]
	cmp	x25, x24
	ushr	v6.16b, v0.16b, #1
	ldp	q7, q17, [sp, #112]
	ushr	v5.16b, v1.16b, #1
	ushr	v18.16b, v3.16b, #1
	ushr	v19.16b, v7.16b, #1
	eor	v6.16b, v4.16b, v6.16b
	eor	v5.16b, v2.16b, v5.16b
	eor	v18.16b, v16.16b, v18.16b
	eor	v19.16b, v17.16b, v19.16b
	and	v6.16b, v6.16b, v20.16b
	and	v5.16b, v5.16b, v20.16b
	and	v18.16b, v18.16b, v20.16b
	and	v19.16b, v19.16b, v20.16b
	add	v21.16b, v6.16b, v6.16b
	eor	v4.16b, v6.16b, v4.16b
	add	v20.16b, v5.16b, v5.16b
	eor	v2.16b, v5.16b, v2.16b
	add	v22.16b, v18.16b, v18.16b
	eor	v5.16b, v18.16b, v16.16b
	eor	v0.16b, v21.16b, v0.16b
	eor	v17.16b, v19.16b, v17.16b
	eor	v1.16b, v20.16b, v1.16b
	add	v20.16b, v19.16b, v19.16b
	ushr	v18.16b, v2.16b, #2
	ushr	v19.16b, v4.16b, #2
	eor	v3.16b, v22.16b, v3.16b
	movi	v22.16b, #15
	ushr	v16.16b, v0.16b, #2
	eor	v6.16b, v20.16b, v7.16b
	movi	v20.16b, #51
	eor	v18.16b, v5.16b, v18.16b
	eor	v19.16b, v17.16b, v19.16b
	ushr	v7.16b, v1.16b, #2
	eor	v16.16b, v6.16b, v16.16b
	and	v18.16b, v18.16b, v20.16b
	and	v19.16b, v19.16b, v20.16b
	eor	v7.16b, v3.16b, v7.16b
	and	v16.16b, v16.16b, v20.16b
	eor	v5.16b, v18.16b, v5.16b
	eor	v17.16b, v19.16b, v17.16b
	and	v7.16b, v7.16b, v20.16b
	shl	v18.16b, v18.16b, #2
	shl	v19.16b, v19.16b, #2
	eor	v6.16b, v16.16b, v6.16b
	shl	v16.16b, v16.16b, #2
	ushr	v21.16b, v5.16b, #4
	eor	v3.16b, v7.16b, v3.16b
	shl	v7.16b, v7.16b, #2
	eor	v2.16b, v18.16b, v2.16b
	eor	v4.16b, v19.16b, v4.16b
	eor	v0.16b, v16.16b, v0.16b
	and	v16.16b, v17.16b, v22.16b
	and	v20.16b, v6.16b, v22.16b
	eor	v1.16b, v7.16b, v1.16b
	ushr	v7.16b, v3.16b, #4
	eor	v16.16b, v16.16b, v21.16b
	movi	v21.16b, #15
	and	v19.16b, v0.16b, v22.16b
	eor	v7.16b, v20.16b, v7.16b
	ushr	v18.16b, v1.16b, #4
	ushr	v20.16b, v2.16b, #4
	and	v21.16b, v4.16b, v21.16b
	shl	v22.16b, v7.16b, #4
	eor	v18.16b, v19.16b, v18.16b
	shl	v19.16b, v16.16b, #4
	eor	v6.16b, v7.16b, v6.16b
	eor	v7.16b, v16.16b, v17.16b
	eor	v20.16b, v21.16b, v20.16b
	eor	v3.16b, v22.16b, v3.16b
	eor	v0.16b, v18.16b, v0.16b
	eor	v5.16b, v19.16b, v5.16b
	shl	v19.16b, v18.16b, #4
	eor	v4.16b, v20.16b, v4.16b
	shl	v18.16b, v20.16b, #4
	ldr	q20, [sp]                       // 16-byte Reload
	eor	v1.16b, v19.16b, v1.16b
	tbl	v3.16b, { v3.16b }, v20.16b
	tbl	v5.16b, { v5.16b }, v20.16b
	tbl	v0.16b, { v0.16b }, v20.16b
	tbl	v4.16b, { v4.16b }, v20.16b
	eor	v2.16b, v18.16b, v2.16b
	tbl	v1.16b, { v1.16b }, v20.16b
	stp	q3, q5, [x26, #-32]
	tbl	v2.16b, { v2.16b }, v20.16b
	tbl	v3.16b, { v6.16b }, v20.16b
	stp	q0, q4, [x26]
	tbl	v0.16b, { v7.16b }, v20.16b
	stp	q1, q2, [x26, #-64]
	stp	q3, q0, [x26, #32]
	add	x26, x26, #128
	b.lo	Laes_BB36_1
// %bb.2:                               // %"aes_soft::soft::blocks::slices::process_batches_under::<#08d50db34e92a375>.exit"
	cmp	x24, x20
	b.ne	Laes_BB36_4
// %bb.3:                               // %join.5
	ldp	x20, x19, [sp, #208]            // 16-byte Folded Reload
	ldp	x22, x21, [sp, #192]            // 16-byte Folded Reload
	ldp	x24, x23, [sp, #176]            // 16-byte Folded Reload
	ldp	x26, x25, [sp, #160]            // 16-byte Folded Reload
	ldp	x29, x30, [sp, #144]            // 16-byte Folded Reload
	add	sp, sp, #224
	ret
Laes_BB36_4:                               // %then.3
	add	x2, x22, x24, lsl #4
	and	x3, x20, #0x7
	mov	x0, x21
	mov	x1, x19
	ldp	x20, x19, [sp, #208]            // 16-byte Folded Reload
	ldp	x22, x21, [sp, #192]            // 16-byte Folded Reload
	ldp	x24, x23, [sp, #176]            // 16-byte Folded Reload
	ldp	x26, x25, [sp, #160]            // 16-byte Folded Reload
	ldp	x29, x30, [sp, #144]            // 16-byte Folded Reload
	add	sp, sp, #224
	b	_aes.aes_soft.soft.blocks.filled_up.process_filled_up.2
                                        // -- End function
	.section	__TEXT,__text,regular,pure_instructions
	.p2align	2                               // -- Begin function aes_soft::soft::blocks::filled_up::process_filled_up::<#0fbbf5e423d2a9b1>
_aes.aes_soft.soft.blocks.filled_up.process_filled_up.2: // @_aes.aes_soft.soft.blocks.filled_up.process_filled_up.2
// %bb.0:                               // %start
	sub	sp, sp, #432
	movi	v0.2d, #0000000000000000
	lsr	x9, x1, #3
	ldr	q1, [x2]
	stp	x29, x30, [sp, #384]            // 16-byte Folded Spill
	add	x29, sp, #384
	mov	x8, x0
	stp	x20, x19, [sp, #416]            // 16-byte Folded Spill
	mov	x20, x2
	str	x28, [sp, #400]                 // 8-byte Spill
	stp	q0, q0, [sp]
	stp	q0, q0, [sp, #32]
	stp	q0, q0, [sp, #64]
	stp	q0, q0, [sp, #96]
	stp	q0, q0, [sp, #128]
	stp	q0, q0, [sp, #160]
	stp	q0, q0, [sp, #192]
	stp	q0, q0, [sp, #224]
	ldr	q0, [x2]
	sub	x2, x9, #1
	stp	q1, q0, [x29, #-128]
	stp	q0, q0, [x29, #-96]
	stp	q0, q0, [x29, #-64]
	stp	q0, q0, [x29, #-32]
	cbz	x3, Laes_BB37_11
// %bb.1:                               // %join.8.i
	ldr	q0, [x20]
	mov	x19, x3
	cmp	x3, #1
	stur	q0, [x29, #-128]
	b.eq	Laes_BB37_8
// %bb.2:                               // %join.8.i.1
	ldr	q0, [x20, #16]
	cmp	x19, #2
	stur	q0, [x29, #-112]
	b.eq	Laes_BB37_8
// %bb.3:                               // %join.8.i.2
	ldr	q0, [x20, #32]
	cmp	x19, #3
	stur	q0, [x29, #-96]
	b.eq	Laes_BB37_8
// %bb.4:                               // %join.8.i.3
	ldr	q0, [x20, #48]
	cmp	x19, #4
	stur	q0, [x29, #-80]
	b.eq	Laes_BB37_8
// %bb.5:                               // %join.8.i.4
	ldr	q0, [x20, #64]
	cmp	x19, #5
	stur	q0, [x29, #-64]
	b.eq	Laes_BB37_8
// %bb.6:                               // %join.8.i.5
	ldr	q0, [x20, #80]
	cmp	x19, #6
	stur	q0, [x29, #-48]
	b.eq	Laes_BB37_8
// %bb.7:                               // %join.8.i.6
	ldr	q0, [x20, #96]
	stur	q0, [x29, #-32]
Laes_BB37_8:                               // %"aes_soft::soft::blocks::filled_up::filled_up::<#3fb8a7784760496e>.exit"
	mov	x0, sp
	sub	x3, x29, #128
	mov	x1, x8
	bl	_aes.aes_soft.soft.ciphers.planes.process_outlined.2
	ldp	q0, q1, [sp, #64]
	add	x8, sp, #128
	stp	q0, q1, [sp, #192]
	ldp	q0, q2, [sp, #96]
	stp	q0, q2, [sp, #224]
	ldp	q1, q0, [sp]
	stp	q1, q0, [sp, #128]
	ldp	q2, q0, [sp, #32]
	stp	q2, q0, [sp, #160]
Laes_BB37_9:                               // %join.8.i19
                                        // =>This Inner Loop Header: Depth=1
	ldr	q0, [x8], #16
	subs	x19, x19, #1
	str	q0, [x20], #16
	b.ne	Laes_BB37_9
// %bb.10:                              // %"aes_soft::soft::blocks::filled_up::copy_first::<#3fb8a7784760496e>.exit"
	ldp	x20, x19, [sp, #416]            // 16-byte Folded Reload
	ldr	x28, [sp, #400]                 // 8-byte Reload
	ldp	x29, x30, [sp, #384]            // 16-byte Folded Reload
	add	sp, sp, #432
	ret
Laes_BB37_11:                              // %"aes_soft::soft::blocks::filled_up::copy_first::<#3fb8a7784760496e>.exit.critedge"
	mov	x0, sp
	sub	x3, x29, #128
	mov	x1, x8
	bl	_aes.aes_soft.soft.ciphers.planes.process_outlined.2
	ldp	q0, q1, [sp, #64]
	stp	q0, q1, [sp, #192]
	ldp	q0, q2, [sp, #96]
	stp	q0, q2, [sp, #224]
	ldp	q1, q0, [sp]
	stp	q1, q0, [sp, #128]
	ldp	q2, q0, [sp, #32]
	stp	q2, q0, [sp, #160]
	ldp	x20, x19, [sp, #416]            // 16-byte Folded Reload
	ldr	x28, [sp, #400]                 // 8-byte Reload
	ldp	x29, x30, [sp, #384]            // 16-byte Folded Reload
	add	sp, sp, #432
	ret
                                        // -- End function
	.section	__TEXT,__text,regular,pure_instructions
	.p2align	2                               // -- Begin function key_wrap::wrapping::unwrap::<#bc4275ba8002e6b4>
_aes.key_wrap.wrapping.unwrap: // @_aes.key_wrap.wrapping.unwrap
// %bb.0:                               // %start
	mov	x10, #-3                        // =0xfffffffffffffffd
	sub	x9, x4, #2
	mov	w8, wzr
	movk	x10, #63, lsl #48
	cmp	x9, x10
	mov	w9, #1                          // =0x1
	b.hi	Laes_BB38_14
// %bb.1:                               // %start
	sub	sp, sp, #64
	add	x10, x4, #1
	stp	x20, x19, [sp, #48]             // 16-byte Folded Spill
	mov	x20, x4
	cmp	x2, x10
	stp	x29, x30, [sp, #16]             // 16-byte Folded Spill
	add	x29, sp, #16
	stp	x22, x21, [sp, #32]             // 16-byte Folded Spill
	b.ne	Laes_BB38_13
// %bb.2:                               // %after.1
	sub	x9, x2, #1
	add	x10, x1, #8
	mov	x19, x3
	lsl	x8, x9, #3
	sub	x10, x3, x10
	cmp	x10, x8
	b.hs	Laes_BB38_9
// %bb.3:                               // %loop.4.preheader.i.i.i.i.i.i.i.i
	cbz	x9, Laes_BB38_10
// %bb.4:                               // %join.7.i.i.i.i.i.i.i.i.preheader
	cmp	x9, #6
	b.lo	Laes_BB38_6
// %bb.5:                               // %vector.memcheck
	sub	x8, x19, x1
	sub	x8, x8, #8
	cmp	x8, #32
	b.hs	Laes_BB38_15
Laes_BB38_6:
	mov	x8, xzr
Laes_BB38_7:                               // %join.7.i.i.i.i.i.i.i.i.preheader1
	lsl	x10, x8, #3
	mvn	x8, x8
	add	x8, x8, x2
	add	x9, x10, x1
	add	x10, x19, x10
	add	x9, x9, #8
Laes_BB38_8:                               // %join.7.i.i.i.i.i.i.i.i
                                        // =>This Inner Loop Header: Depth=1
	ldr	x11, [x9], #8
	subs	x8, x8, #1
	str	x11, [x10], #8
	b.ne	Laes_BB38_8
	b	Laes_BB38_10
Laes_BB38_9:                               // %apart.2.i.i.i.i.i.i.i.i
	mov	x21, x1
	add	x1, x1, #8
	mov	x22, x0
	mov	x0, x19
	mov	x2, x8
	adrp	x16, _memmove@GOTPAGE
	ldr	x16, [x16, _memmove@GOTPAGEOFF]
	blr	x16
	mov	x1, x21
	mov	x0, x22
Laes_BB38_10:                              // %"key_wrap::wrapping::unwrap_all::<#bc4275ba8002e6b4>.exit"
	ldr	x8, [x1]
	mov	x1, sp
	mov	x2, x19
	mov	x3, x20
	str	x8, [sp]
	bl	_aes.key_wrap.steps.unwrap_in_place
	ldr	x8, [sp]
	mov	x9, #7378697629483820646        // =0x6666666666666666
	adrp	x1, l_aes_static.8@PAGE
	add	x1, x1, l_aes_static.8@PAGEOFF
	eor	x9, x9, #0xc0c0c0c0c0c0c0c0
	mov	x0, sp
	stp	x8, x9, [sp]
	bl	_aes.aes_cipher.blocks.difference
	cbz	w0, Laes_BB38_12
// %bb.11:                              // %loop.5.preheader.i
	lsl	x20, x20, #3
	mov	x0, x19
	mov	w1, wzr
	sub	x2, x20, #8
	adrp	x16, _memset@GOTPAGE
	ldr	x16, [x16, _memset@GOTPAGEOFF]
	blr	x16
	add	x8, x19, x20
	mov	w9, #1                          // =0x1
	stur	xzr, [x8, #-8]
	mov	w8, #1                          // =0x1
	b	Laes_BB38_13
Laes_BB38_12:
	mov	w8, wzr
	mov	w9, wzr
Laes_BB38_13:
	ldp	x20, x19, [sp, #48]             // 16-byte Folded Reload
	ldp	x22, x21, [sp, #32]             // 16-byte Folded Reload
	ldp	x29, x30, [sp, #16]             // 16-byte Folded Reload
	add	sp, sp, #64
Laes_BB38_14:                              // %return.10
	mov	w0, w9
	mov	w1, w8
	ret
Laes_BB38_15:                              // %vector.ph
	and	x8, x9, #0xfffffffffffffffc
	add	x10, x1, #24
	add	x11, x19, #16
	and	x12, x9, #0xfffffffffffffffc
Laes_BB38_16:                              // %vector.body
                                        // =>This Inner Loop Header: Depth=1
	ldp	q0, q1, [x10, #-16]
	subs	x12, x12, #4
	add	x10, x10, #32
	stp	q0, q1, [x11, #-16]
	add	x11, x11, #32
	b.ne	Laes_BB38_16
// %bb.17:                              // %middle.block
	cmp	x9, x8
	b.eq	Laes_BB38_10
	b	Laes_BB38_7
                                        // -- End function
	.section	__TEXT,__text,regular,pure_instructions
	.p2align	2                               // -- Begin function key_wrap::steps::unwrap_in_place::<#bc4275ba8002e6b4>
_aes.key_wrap.steps.unwrap_in_place: // @_aes.key_wrap.steps.unwrap_in_place
// %bb.0:                               // %start
	cbz	x3, Laes_BB39_13
// %bb.1:                               // %join.5.preheader
	stp	x29, x30, [sp, #-80]!           // 16-byte Folded Spill
	stp	x24, x23, [sp, #32]             // 16-byte Folded Spill
	add	x24, x3, x3, lsl #1
	add	x8, x2, x3, lsl #3
	stp	x26, x25, [sp, #16]             // 16-byte Folded Spill
	mov	x26, x3
	mov	x29, sp
	stp	x22, x21, [sp, #48]             // 16-byte Folded Spill
	lsl	x25, x24, #1
	sub	x22, x8, #8
	stp	x20, x19, [sp, #64]             // 16-byte Folded Spill
	mov	x19, x3
	mov	x20, x1
	mov	x21, x0
	mov	x23, x22
Laes_BB39_2:                               // %join.5.i
                                        // =>This Inner Loop Header: Depth=1
	ldr	x8, [x20]
	rev	x9, x25
	mov	x0, x21
	mov	x1, x20
	mov	x2, x23
	eor	x8, x9, x8
	str	x8, [x20]
	bl	_aes.key_wrap.steps.decrypt_halves
	sub	x26, x26, #1
	sub	x25, x25, #1
	sub	x23, x23, #8
	cbnz	x26, Laes_BB39_2
// %bb.3:                               // %"key_wrap::steps::unwrap_turn::<#bc4275ba8002e6b4>.exit.loopexit"
	add	x25, x19, x19, lsl #2
	mov	x23, x22
	mov	x26, x19
Laes_BB39_4:                               // %join.5.i.1
                                        // =>This Inner Loop Header: Depth=1
	ldr	x8, [x20]
	rev	x9, x25
	mov	x0, x21
	mov	x1, x20
	mov	x2, x23
	eor	x8, x9, x8
	str	x8, [x20]
	bl	_aes.key_wrap.steps.decrypt_halves
	sub	x26, x26, #1
	sub	x25, x25, #1
	sub	x23, x23, #8
	cbnz	x26, Laes_BB39_4
// %bb.5:                               // %"key_wrap::steps::unwrap_turn::<#bc4275ba8002e6b4>.exit.loopexit.1"
	lsl	x25, x19, #2
	mov	x23, x22
	mov	x26, x19
Laes_BB39_6:                               // %join.5.i.2
                                        // =>This Inner Loop Header: Depth=1
	ldr	x8, [x20]
	rev	x9, x25
	mov	x0, x21
	mov	x1, x20
	mov	x2, x23
	eor	x8, x9, x8
	str	x8, [x20]
	bl	_aes.key_wrap.steps.decrypt_halves
	sub	x26, x26, #1
	sub	x25, x25, #1
	sub	x23, x23, #8
	cbnz	x26, Laes_BB39_6
// %bb.7:                               // %"key_wrap::steps::unwrap_turn::<#bc4275ba8002e6b4>.exit.loopexit.2"
	mov	x23, x22
	mov	x25, x19
Laes_BB39_8:                               // %join.5.i.3
                                        // =>This Inner Loop Header: Depth=1
	ldr	x8, [x20]
	rev	x9, x24
	mov	x0, x21
	mov	x1, x20
	mov	x2, x23
	eor	x8, x9, x8
	str	x8, [x20]
	bl	_aes.key_wrap.steps.decrypt_halves
	sub	x25, x25, #1
	sub	x24, x24, #1
	sub	x23, x23, #8
	cbnz	x25, Laes_BB39_8
// %bb.9:                               // %"key_wrap::steps::unwrap_turn::<#bc4275ba8002e6b4>.exit.loopexit.3"
	lsl	x24, x19, #1
	mov	x23, x22
	mov	x25, x19
Laes_BB39_10:                              // %join.5.i.4
                                        // =>This Inner Loop Header: Depth=1
	ldr	x8, [x20]
	rev	x9, x24
	mov	x0, x21
	mov	x1, x20
	mov	x2, x23
	eor	x8, x9, x8
	str	x8, [x20]
	bl	_aes.key_wrap.steps.decrypt_halves
	sub	x25, x25, #1
	sub	x24, x24, #1
	sub	x23, x23, #8
	cbnz	x25, Laes_BB39_10
Laes_BB39_11:                              // %join.5.i.5
                                        // =>This Inner Loop Header: Depth=1
	ldr	x8, [x20]
	rev	x9, x19
	mov	x0, x21
	mov	x1, x20
	mov	x2, x22
	eor	x8, x9, x8
	str	x8, [x20]
	bl	_aes.key_wrap.steps.decrypt_halves
	sub	x19, x19, #1
	sub	x22, x22, #8
	cbnz	x19, Laes_BB39_11
// %bb.12:
	ldp	x20, x19, [sp, #64]             // 16-byte Folded Reload
	ldp	x22, x21, [sp, #48]             // 16-byte Folded Reload
	ldp	x24, x23, [sp, #32]             // 16-byte Folded Reload
	ldp	x26, x25, [sp, #16]             // 16-byte Folded Reload
	ldp	x29, x30, [sp], #80             // 16-byte Folded Reload
Laes_BB39_13:                              // %after.1
	ret
                                        // -- End function
	.section	__TEXT,__const
	.p2align	4, 0x0                          // -- Begin function key_wrap::steps::decrypt_halves::<#bc4275ba8002e6b4>
l_aes_CPI40_0:
	.byte	0                               // 0x0
	.byte	181                             // 0xb5
	.byte	220                             // 0xdc
	.byte	105                             // 0x69
	.byte	219                             // 0xdb
	.byte	110                             // 0x6e
	.byte	7                               // 0x7
	.byte	178                             // 0xb2
	.byte	20                              // 0x14
	.byte	161                             // 0xa1
	.byte	200                             // 0xc8
	.byte	125                             // 0x7d
	.byte	207                             // 0xcf
	.byte	122                             // 0x7a
	.byte	19                              // 0x13
	.byte	166                             // 0xa6
l_aes_CPI40_1:
	.byte	0                               // 0x0
	.byte	167                             // 0xa7
	.byte	168                             // 0xa8
	.byte	15                              // 0xf
	.byte	237                             // 0xed
	.byte	74                              // 0x4a
	.byte	69                              // 0x45
	.byte	226                             // 0xe2
	.byte	209                             // 0xd1
	.byte	118                             // 0x76
	.byte	121                             // 0x79
	.byte	222                             // 0xde
	.byte	60                              // 0x3c
	.byte	155                             // 0x9b
	.byte	148                             // 0x94
	.byte	51                              // 0x33
l_aes_CPI40_2:
	.byte	128                             // 0x80
	.byte	2                               // 0x2
	.byte	1                               // 0x1
	.byte	15                              // 0xf
	.byte	9                               // 0x9
	.byte	5                               // 0x5
	.byte	14                              // 0xe
	.byte	12                              // 0xc
	.byte	13                              // 0xd
	.byte	4                               // 0x4
	.byte	11                              // 0xb
	.byte	10                              // 0xa
	.byte	7                               // 0x7
	.byte	8                               // 0x8
	.byte	6                               // 0x6
	.byte	3                               // 0x3
l_aes_CPI40_3:
	.byte	128                             // 0x80
	.byte	1                               // 0x1
	.byte	9                               // 0x9
	.byte	14                              // 0xe
	.byte	13                              // 0xd
	.byte	11                              // 0xb
	.byte	7                               // 0x7
	.byte	6                               // 0x6
	.byte	15                              // 0xf
	.byte	2                               // 0x2
	.byte	12                              // 0xc
	.byte	5                               // 0x5
	.byte	10                              // 0xa
	.byte	4                               // 0x4
	.byte	3                               // 0x3
	.byte	8                               // 0x8
l_aes_CPI40_4:
	.byte	0                               // 0x0
	.byte	41                              // 0x29
	.byte	235                             // 0xeb
	.byte	82                              // 0x52
	.byte	166                             // 0xa6
	.byte	54                              // 0x36
	.byte	185                             // 0xb9
	.byte	144                             // 0x90
	.byte	123                             // 0x7b
	.byte	221                             // 0xdd
	.byte	143                             // 0x8f
	.byte	100                             // 0x64
	.byte	31                              // 0x1f
	.byte	77                              // 0x4d
	.byte	244                             // 0xf4
	.byte	194                             // 0xc2
l_aes_CPI40_5:
	.byte	0                               // 0x0
	.byte	5                               // 0x5
	.byte	253                             // 0xfd
	.byte	152                             // 0x98
	.byte	223                             // 0xdf
	.byte	191                             // 0xbf
	.byte	101                             // 0x65
	.byte	96                              // 0x60
	.byte	157                             // 0x9d
	.byte	66                              // 0x42
	.byte	218                             // 0xda
	.byte	39                              // 0x27
	.byte	186                             // 0xba
	.byte	34                              // 0x22
	.byte	71                              // 0x47
	.byte	248                             // 0xf8
l_aes_CPI40_6:
	.byte	0                               // 0x0
	.byte	91                              // 0x5b
	.byte	164                             // 0xa4
	.byte	122                             // 0x7a
	.byte	207                             // 0xcf
	.byte	74                              // 0x4a
	.byte	222                             // 0xde
	.byte	133                             // 0x85
	.byte	33                              // 0x21
	.byte	238                             // 0xee
	.byte	148                             // 0x94
	.byte	48                              // 0x30
	.byte	17                              // 0x11
	.byte	107                             // 0x6b
	.byte	181                             // 0xb5
	.byte	255                             // 0xff
l_aes_CPI40_7:
	.byte	0                               // 0x0
	.byte	118                             // 0x76
	.byte	62                              // 0x3e
	.byte	158                             // 0x9e
	.byte	30                              // 0x1e
	.byte	200                             // 0xc8
	.byte	160                             // 0xa0
	.byte	214                             // 0xd6
	.byte	232                             // 0xe8
	.byte	246                             // 0xf6
	.byte	104                             // 0x68
	.byte	86                              // 0x56
	.byte	190                             // 0xbe
	.byte	32                              // 0x20
	.byte	128                             // 0x80
	.byte	72                              // 0x48
l_aes_CPI40_8:
	.byte	0                               // 0x0
	.byte	28                              // 0x1c
	.byte	68                              // 0x44
	.byte	88                              // 0x58
	.byte	151                             // 0x97
	.byte	139                             // 0x8b
	.byte	211                             // 0xd3
	.byte	207                             // 0xcf
	.byte	138                             // 0x8a
	.byte	150                             // 0x96
	.byte	206                             // 0xce
	.byte	210                             // 0xd2
	.byte	29                              // 0x1d
	.byte	1                               // 0x1
	.byte	89                              // 0x59
	.byte	69                              // 0x45
l_aes_CPI40_9:
	.byte	0                               // 0x0
	.byte	48                              // 0x30
	.byte	38                              // 0x26
	.byte	22                              // 0x16
	.byte	183                             // 0xb7
	.byte	135                             // 0x87
	.byte	145                             // 0x91
	.byte	161                             // 0xa1
	.byte	65                              // 0x41
	.byte	113                             // 0x71
	.byte	103                             // 0x67
	.byte	87                              // 0x57
	.byte	246                             // 0xf6
	.byte	198                             // 0xc6
	.byte	208                             // 0xd0
	.byte	224                             // 0xe0
l_aes_CPI40_10:
	.byte	0                               // 0x0
	.byte	59                              // 0x3b
	.byte	228                             // 0xe4
	.byte	200                             // 0xc8
	.byte	3                               // 0x3
	.byte	20                              // 0x14
	.byte	44                              // 0x2c
	.byte	23                              // 0x17
	.byte	243                             // 0xf3
	.byte	240                             // 0xf0
	.byte	56                              // 0x38
	.byte	220                             // 0xdc
	.byte	47                              // 0x2f
	.byte	231                             // 0xe7
	.byte	203                             // 0xcb
	.byte	223                             // 0xdf
l_aes_CPI40_11:
	.byte	0                               // 0x0
	.byte	36                              // 0x24
	.byte	145                             // 0x91
	.byte	25                              // 0x19
	.byte	35                              // 0x23
	.byte	143                             // 0x8f
	.byte	136                             // 0x88
	.byte	172                             // 0xac
	.byte	61                              // 0x3d
	.byte	30                              // 0x1e
	.byte	7                               // 0x7
	.byte	150                             // 0x96
	.byte	171                             // 0xab
	.byte	178                             // 0xb2
	.byte	58                              // 0x3a
	.byte	181                             // 0xb5
	.section	__TEXT,__text,regular,pure_instructions
	.p2align	2
_aes.key_wrap.steps.decrypt_halves: // @_aes.key_wrap.steps.decrypt_halves
// %bb.0:                               // %start
	ldr	x9, [x1]
	ldr	x10, [x2]
	movi	v0.16b, #15
	ldp	x8, x13, [x0, #16]
	adrp	x11, l_aes_CPI40_2@PAGE
	stp	x9, x10, [sp, #-32]!
	adrp	x9, l_aes_CPI40_0@PAGE
	adrp	x10, l_aes_CPI40_1@PAGE
	ldr	q2, [sp]
	ldr	q3, [x9, l_aes_CPI40_0@PAGEOFF]
	ldr	q4, [x10, l_aes_CPI40_1@PAGEOFF]
	ldr	q1, [x8]
	sub	x9, x13, #1
	adrp	x10, l_aes_CPI40_3@PAGE
	cmp	x9, #2
	stp	x29, x30, [sp, #16]             // 16-byte Folded Spill
	add	x29, sp, #16
	eor	v1.16b, v1.16b, v2.16b
	and	v2.16b, v1.16b, v0.16b
	ushr	v1.16b, v1.16b, #4
	tbl	v2.16b, { v3.16b }, v2.16b
	tbl	v1.16b, { v4.16b }, v1.16b
	eor	v1.16b, v1.16b, v2.16b
	b.lo	Laes_BB40_3
// %bb.1:                               // %join.5.i.i.preheader
	add	x12, x8, #16
	sub	x13, x13, #2
	mov	w14, #48                        // =0x30
Laes_BB40_2:                               // %join.5.i.i
                                        // =>This Inner Loop Header: Depth=1
	movi	v2.16b, #15
	ushr	v3.16b, v1.16b, #4
	ldr	q5, [x11, l_aes_CPI40_2@PAGEOFF]
	ldr	q6, [x10, l_aes_CPI40_3@PAGEOFF]
	adrp	x15, l_aes_CPI40_6@PAGE
	adrp	x16, l_aes_CPI40_7@PAGE
	adrp	x17, l_aes_CPI40_9@PAGE
	subs	x13, x13, #1
	tbl	v7.16b, { v6.16b }, v3.16b
	and	v1.16b, v1.16b, v2.16b
	eor	v4.16b, v3.16b, v1.16b
	tbl	v1.16b, { v5.16b }, v1.16b
	tbl	v5.16b, { v6.16b }, v4.16b
	eor	v7.16b, v7.16b, v1.16b
	eor	v1.16b, v5.16b, v1.16b
	tbl	v5.16b, { v6.16b }, v7.16b
	tbl	v1.16b, { v6.16b }, v1.16b
	eor	v4.16b, v5.16b, v4.16b
	ldr	q5, [x16, l_aes_CPI40_7@PAGEOFF]
	adrp	x16, l_aes_CPI40_5@PAGE
	ldr	q7, [x16, l_aes_CPI40_5@PAGEOFF]
	adrp	x16, l_aes_static.6@PAGE
	add	x16, x16, l_aes_static.6@PAGEOFF
	eor	v1.16b, v1.16b, v3.16b
	ldr	q3, [x15, l_aes_CPI40_6@PAGEOFF]
	adrp	x15, l_aes_CPI40_4@PAGE
	ldr	q6, [x15, l_aes_CPI40_4@PAGEOFF]
	and	x15, x14, #0x30
	add	x14, x14, #48
	tbl	v3.16b, { v3.16b }, v4.16b
	tbl	v5.16b, { v5.16b }, v1.16b
	tbl	v4.16b, { v6.16b }, v4.16b
	tbl	v1.16b, { v7.16b }, v1.16b
	eor	v3.16b, v5.16b, v3.16b
	ldr	q5, [x16, x15]
	eor	v1.16b, v1.16b, v4.16b
	adrp	x16, l_aes_CPI40_8@PAGE
	ldr	q4, [x16, l_aes_CPI40_8@PAGEOFF]
	adrp	x16, l_aes_static.4@PAGE
	add	x16, x16, l_aes_static.4@PAGEOFF
	tbl	v3.16b, { v3.16b }, v5.16b
	ldr	q5, [x17, l_aes_CPI40_9@PAGEOFF]
	eor	v1.16b, v1.16b, v3.16b
	and	v2.16b, v1.16b, v2.16b
	ushr	v3.16b, v1.16b, #4
	tbl	v2.16b, { v4.16b }, v2.16b
	tbl	v3.16b, { v5.16b }, v3.16b
	ldr	q4, [x16, x15]
	adrp	x16, l_aes_static.5@PAGE
	add	x16, x16, l_aes_static.5@PAGEOFF
	ldr	q5, [x16, x15]
	tbl	v6.16b, { v1.16b }, v4.16b
	eor	v2.16b, v3.16b, v2.16b
	tbl	v1.16b, { v1.16b }, v5.16b
	ldr	q3, [x12], #16
	eor	v2.16b, v2.16b, v6.16b
	eor	v1.16b, v3.16b, v1.16b
	tbl	v3.16b, { v2.16b }, v4.16b
	eor	v1.16b, v1.16b, v2.16b
	eor	v1.16b, v3.16b, v1.16b
	b.ne	Laes_BB40_2
Laes_BB40_3:                               // %"aes_permute::blocks::process_block::<#d2d6b19aefc59415>.exit"
	ushr	v2.16b, v1.16b, #4
	and	v0.16b, v1.16b, v0.16b
	ldr	q3, [x11, l_aes_CPI40_2@PAGEOFF]
	ldr	q4, [x10, l_aes_CPI40_3@PAGEOFF]
	adrp	x10, l_aes_CPI40_10@PAGE
	adrp	x11, l_aes_CPI40_11@PAGE
	mov	x0, sp
	eor	v1.16b, v2.16b, v0.16b
	tbl	v0.16b, { v3.16b }, v0.16b
	tbl	v3.16b, { v4.16b }, v2.16b
	tbl	v5.16b, { v4.16b }, v1.16b
	eor	v3.16b, v3.16b, v0.16b
	eor	v0.16b, v5.16b, v0.16b
	tbl	v3.16b, { v4.16b }, v3.16b
	tbl	v0.16b, { v4.16b }, v0.16b
	eor	v1.16b, v3.16b, v1.16b
	ldr	q3, [x11, l_aes_CPI40_11@PAGEOFF]
	adrp	x11, l_aes_static.3@PAGE
	add	x11, x11, l_aes_static.3@PAGEOFF
	eor	v0.16b, v0.16b, v2.16b
	ldr	q2, [x10, l_aes_CPI40_10@PAGEOFF]
	add	w10, w9, w9, lsl #1
	tbl	v1.16b, { v2.16b }, v1.16b
	ubfiz	x10, x10, #4, #2
	tbl	v0.16b, { v3.16b }, v0.16b
	eor	v0.16b, v0.16b, v1.16b
	ldr	q1, [x11, x10]
	tbl	v0.16b, { v0.16b }, v1.16b
	ldr	q1, [x8, x9, lsl #4]
	eor	v0.16b, v0.16b, v1.16b
	str	q0, [sp]
	ldp	x8, x9, [sp]
	str	x8, [x1]
	str	x9, [x2]
	bl	_aes.aes_cipher.zeroize.elements.zeroize_elements.3
	ldp	x29, x30, [sp, #16]             // 16-byte Folded Reload
	add	sp, sp, #32
	ret
                                        // -- End function
	.section	__TEXT,__text,regular,pure_instructions
	.p2align	2                               // -- Begin function aes_cipher::zeroize::elements::zeroize_elements::<#51e2d7e6a2c2e10f>
_aes.aes_cipher.zeroize.elements.zeroize_elements.3: // @_aes.aes_cipher.zeroize.elements.zeroize_elements.3
// %bb.0:                               // %start
	sub	sp, sp, #32
	stp	xzr, xzr, [sp, #16]
	add	x8, sp, #8
	str	xzr, [sp, #8]
	//APP
	//NO_APP
	ldar	x8, [x8]
	//APP
	//NO_APP
	cbz	x8, Laes_BB41_2
// %bb.1:                               // %"aes_cipher::zeroize::observe::<#b3ccab65b2a1c990>.exit8"
	ldr	q0, [sp, #16]
	mov	x8, xzr
	str	q0, [x0]
	b	Laes_BB41_3
Laes_BB41_2:                               // %then.1.i
	ldr	q0, [sp, #16]
	ldrb	w8, [x0]
	str	q0, [x0]
	ldrb	w9, [x0]
	and	w8, w9, w8
	and	x8, x8, #0xff
Laes_BB41_3:                               // %"aes_cipher::zeroize::observe::<#b3ccab65b2a1c990>.exit"
	//APP
	//NO_APP
Laes_BB41_4:                               // %atomicrmw.start
                                        // =>This Inner Loop Header: Depth=1
	add	x9, sp, #8
	ldaxr	xzr, [x9]
	stlxr	w10, x8, [x9]
	cbnz	w10, Laes_BB41_4
// %bb.5:                               // %atomicrmw.end
	//APP
	//NO_APP
	add	sp, sp, #32
	ret
                                        // -- End function
	.section	__TEXT,__text,regular,pure_instructions
	.p2align	2                               // -- Begin function aes_cipher::blocks::difference
_aes.aes_cipher.blocks.difference:       // @_aes.aes_cipher.blocks.difference
// %bb.0:                               // %start
	ldr	q0, [x0]
	ldr	q1, [x1]
	eor	v0.16b, v1.16b, v0.16b
	ext	v1.16b, v0.16b, v0.16b, #8
	orr	v0.8b, v0.8b, v1.8b
	fmov	x8, d0
	orr	x8, x8, x8, lsr #32
	lsr	x9, x8, #16
	orr	w8, w8, w9
	orr	w8, w8, w8, lsr #8
	and	w0, w8, #0xff
	ret
                                        // -- End function
	.section	__TEXT,__text,regular,pure_instructions
	.p2align	2                               // -- Begin function key_wrap::padded::unwrap_padded::<#bc4275ba8002e6b4>
_aes.key_wrap.padded.unwrap_padded: // @_aes.key_wrap.padded.unwrap_padded
// %bb.0:                               // %start
	sub	sp, sp, #80
	stp	x24, x23, [sp, #32]             // 16-byte Folded Spill
	sub	x23, x5, #1
	lsr	x8, x23, #29
	stp	x20, x19, [sp, #64]             // 16-byte Folded Spill
	mov	x19, x0
	stp	x29, x30, [sp, #16]             // 16-byte Folded Spill
	add	x29, sp, #16
	stp	x22, x21, [sp, #48]             // 16-byte Folded Spill
	cbnz	x8, Laes_BB43_9
// %bb.1:                               // %start
	add	x8, x5, #1
	mov	x21, x5
	cmp	x3, x8
	b.ne	Laes_BB43_9
// %bb.2:                               // %after.1
	sub	x9, x3, #1
	add	x10, x2, #8
	mov	x20, x4
	lsl	x8, x9, #3
	sub	x10, x4, x10
	mov	x22, x1
	cmp	x10, x8
	b.hs	Laes_BB43_10
// %bb.3:                               // %loop.4.preheader.i.i.i.i.i.i.i
	cbz	x9, Laes_BB43_11
// %bb.4:                               // %join.7.i.i.i.i.i.i.i.preheader
	cmp	x9, #6
	b.lo	Laes_BB43_6
// %bb.5:                               // %vector.memcheck
	sub	x8, x20, x2
	sub	x8, x8, #8
	cmp	x8, #32
	b.hs	Laes_BB43_19
Laes_BB43_6:
	mov	x8, xzr
Laes_BB43_7:                               // %join.7.i.i.i.i.i.i.i.preheader1
	lsl	x10, x8, #3
	mvn	x8, x8
	add	x8, x8, x3
	add	x9, x10, x2
	add	x10, x20, x10
	add	x9, x9, #8
Laes_BB43_8:                               // %join.7.i.i.i.i.i.i.i
                                        // =>This Inner Loop Header: Depth=1
	ldr	x11, [x9], #8
	subs	x8, x8, #1
	str	x11, [x10], #8
	b.ne	Laes_BB43_8
	b	Laes_BB43_11
Laes_BB43_9:                               // %join.5
	mov	w8, #1                          // =0x1
	b	Laes_BB43_16
Laes_BB43_10:                              // %apart.2.i.i.i.i.i.i.i
	add	x1, x2, #8
	mov	x0, x20
	mov	x24, x2
	mov	x2, x8
	adrp	x16, _memmove@GOTPAGE
	ldr	x16, [x16, _memmove@GOTPAGEOFF]
	blr	x16
	mov	x2, x24
Laes_BB43_11:                              // %"key_wrap::wrapping::copy_apart.exit"
	ldr	x8, [x2]
	cmp	x21, #1
	add	x1, sp, #8
	mov	x0, x22
	mov	x2, x20
	str	x8, [sp, #8]
	b.ne	Laes_BB43_17
// %bb.12:                              // %then.1.i
	bl	_aes.key_wrap.steps.decrypt_halves
	ldp	w0, w22, [sp, #8]
	mov	x2, x20
	mov	x3, x21
	mov	w1, w22
	bl	_aes.key_wrap.padded.difference
	cbz	x0, Laes_BB43_18
Laes_BB43_13:                              // %loop.5.preheader.i
	cbz	x23, Laes_BB43_15
// %bb.14:                              // %join.8.i.preheader
	lsl	x8, x21, #3
	mov	x0, x20
	mov	w1, wzr
	sub	x2, x8, #8
	adrp	x16, _memset@GOTPAGE
	ldr	x16, [x16, _memset@GOTPAGEOFF]
	blr	x16
Laes_BB43_15:                              // %"core::slice::edits::slice+T::fill::<#1e8902aced0720be>.exit"
	str	xzr, [x20, x23, lsl #3]
	mov	w8, #257                        // =0x101
Laes_BB43_16:                              // %common.ret
	strh	w8, [x19]
	str	wzr, [x19, #4]
	ldp	x20, x19, [sp, #64]             // 16-byte Folded Reload
	ldp	x22, x21, [sp, #48]             // 16-byte Folded Reload
	ldp	x24, x23, [sp, #32]             // 16-byte Folded Reload
	ldp	x29, x30, [sp, #16]             // 16-byte Folded Reload
	add	sp, sp, #80
	ret
Laes_BB43_17:                              // %else.2.i
	mov	x3, x21
	bl	_aes.key_wrap.steps.unwrap_in_place
	ldp	w0, w22, [sp, #8]
	mov	x2, x20
	mov	x3, x21
	mov	w1, w22
	bl	_aes.key_wrap.padded.difference
	cbnz	x0, Laes_BB43_13
Laes_BB43_18:                              // %join.16
	rev	w8, w22
	strh	wzr, [x19]
	str	w8, [x19, #4]
	ldp	x20, x19, [sp, #64]             // 16-byte Folded Reload
	ldp	x22, x21, [sp, #48]             // 16-byte Folded Reload
	ldp	x24, x23, [sp, #32]             // 16-byte Folded Reload
	ldp	x29, x30, [sp, #16]             // 16-byte Folded Reload
	add	sp, sp, #80
	ret
Laes_BB43_19:                              // %vector.ph
	and	x8, x9, #0xfffffffffffffffc
	add	x10, x2, #24
	add	x11, x20, #16
	and	x12, x9, #0xfffffffffffffffc
Laes_BB43_20:                              // %vector.body
                                        // =>This Inner Loop Header: Depth=1
	ldp	q0, q1, [x10, #-16]
	subs	x12, x12, #4
	add	x10, x10, #32
	stp	q0, q1, [x11, #-16]
	add	x11, x11, #32
	b.ne	Laes_BB43_20
// %bb.21:                              // %middle.block
	cmp	x9, x8
	b.eq	Laes_BB43_11
	b	Laes_BB43_7
                                        // -- End function
	.section	__TEXT,__text,regular,pure_instructions
	.p2align	2                               // -- Begin function key_wrap::padded::difference
_aes.key_wrap.padded.difference:         // @_aes.key_wrap.padded.difference
// %bb.0:                               // %start
	stp	x29, x30, [sp, #-80]!           // 16-byte Folded Spill
	lsl	x8, x3, #3
	rev	w9, w1
	stp	x22, x21, [sp, #48]             // 16-byte Folded Spill
	stp	x20, x19, [sp, #64]             // 16-byte Folded Spill
	rev	w20, w0
	mov	w0, wzr
	add	x21, x2, x8
	sub	x19, x8, x9
	str	x25, [sp, #16]                  // 8-byte Spill
	ldurb	w22, [x21, #-1]
	and	w1, w19, #0x7
	stp	x24, x23, [sp, #32]             // 16-byte Folded Spill
	mov	x29, sp
	bl	_aes.key_wrap.padded.mask_below
	ldurb	w23, [x21, #-2]
	and	w22, w0, w22
	and	w1, w19, #0x7
	mov	w0, #1                          // =0x1
	bl	_aes.key_wrap.padded.mask_below
	ldurb	w24, [x21, #-3]
	and	w8, w0, w23
	and	w1, w19, #0x7
	mov	w0, #2                          // =0x2
	orr	w22, w8, w22
	bl	_aes.key_wrap.padded.mask_below
	ldurb	w23, [x21, #-4]
	and	w24, w0, w24
	and	w1, w19, #0x7
	mov	w0, #3                          // =0x3
	bl	_aes.key_wrap.padded.mask_below
	and	w8, w0, w23
	ldurb	w25, [x21, #-5]
	and	w1, w19, #0x7
	orr	w8, w24, w8
	mov	w0, #4                          // =0x4
	orr	w22, w22, w8
	bl	_aes.key_wrap.padded.mask_below
	ldurb	w23, [x21, #-6]
	and	w24, w0, w25
	and	w1, w19, #0x7
	mov	w0, #5                          // =0x5
	bl	_aes.key_wrap.padded.mask_below
	ldurb	w25, [x21, #-7]
	and	w8, w0, w23
	and	w1, w19, #0x7
	mov	w0, #6                          // =0x6
	orr	w23, w24, w8
	bl	_aes.key_wrap.padded.mask_below
	and	w8, w0, w25
	ldurb	w21, [x21, #-8]
	and	w1, w19, #0x7
	orr	w8, w23, w8
	mov	w0, #7                          // =0x7
	orr	w22, w22, w8
	bl	_aes.key_wrap.padded.mask_below
	mov	w8, #42586                      // =0xa65a
	and	w9, w0, w21
	ldr	x25, [sp, #16]                  // 8-byte Reload
	movk	w8, #22950, lsl #16
	orr	w9, w22, w9
	add	w8, w20, w8
	ldp	x22, x21, [sp, #48]             // 16-byte Folded Reload
	orr	x8, x8, x19, lsr #3
	ldp	x20, x19, [sp, #64]             // 16-byte Folded Reload
	ldp	x24, x23, [sp, #32]             // 16-byte Folded Reload
	and	x9, x9, #0xff
	orr	x0, x8, x9
	ldp	x29, x30, [sp], #80             // 16-byte Folded Reload
	ret
                                        // -- End function
	.section	__TEXT,__text,regular,pure_instructions
	.p2align	2                               // -- Begin function key_wrap::padded::mask_below
_aes.key_wrap.padded.mask_below:         // @_aes.key_wrap.padded.mask_below
// %bb.0:                               // %start
	sub	w8, w0, w1
	lsr	w0, w8, #24
	ret
                                        // -- End function
	.section	__TEXT,__const
	.p2align	4, 0x0                          // -- Begin function aes_c::single_rounds::inverse_mixed
l_aes_CPI46_0:
	.byte	0                               // 0x0
	.byte	4                               // 0x4
	.byte	8                               // 0x8
	.byte	12                              // 0xc
	.byte	1                               // 0x1
	.byte	5                               // 0x5
	.byte	9                               // 0x9
	.byte	13                              // 0xd
	.byte	2                               // 0x2
	.byte	6                               // 0x6
	.byte	10                              // 0xa
	.byte	14                              // 0xe
	.byte	3                               // 0x3
	.byte	7                               // 0x7
	.byte	11                              // 0xb
	.byte	15                              // 0xf
	.section	__TEXT,__text,regular,pure_instructions
	.p2align	2
_aes.aes_c.single_rounds.inverse_mixed:  // @_aes.aes_c.single_rounds.inverse_mixed
// %bb.0:                               // %start
	adrp	x8, l_aes_CPI46_0@PAGE
	ldr	q1, [x0]
	movi	v2.16b, #32
	ldr	q0, [x8, l_aes_CPI46_0@PAGEOFF]
	movi	v3.16b, #64
	movi	v4.16b, #1
	movi	v5.16b, #2
	movi	v6.16b, #4
	movi	v7.16b, #8
	tbl	v1.16b, { v1.16b }, v0.16b
	movi	v16.16b, #16
	cmtst	v2.16b, v1.16b, v2.16b
	cmtst	v3.16b, v1.16b, v3.16b
	and	v4.16b, v1.16b, v4.16b
	cmlt	v17.16b, v1.16b, #0
	cmtst	v20.16b, v1.16b, v5.16b
	cmtst	v6.16b, v1.16b, v6.16b
	cmtst	v7.16b, v1.16b, v7.16b
	cmtst	v16.16b, v1.16b, v16.16b
	neg	v18.16b, v4.16b
	ext	v4.16b, v2.16b, v2.16b, #4
	ext	v19.16b, v3.16b, v3.16b, #4
	ext	v5.16b, v17.16b, v17.16b, #4
	ext	v23.16b, v6.16b, v6.16b, #4
	ext	v21.16b, v18.16b, v18.16b, #4
	ext	v24.16b, v7.16b, v7.16b, #4
	eor	v22.16b, v4.16b, v2.16b
	eor	v4.16b, v19.16b, v3.16b
	ext	v19.16b, v20.16b, v20.16b, #4
	eor	v5.16b, v5.16b, v17.16b
	eor	v23.16b, v23.16b, v6.16b
	eor	v21.16b, v21.16b, v18.16b
	eor	v24.16b, v24.16b, v7.16b
	eor	v3.16b, v22.16b, v3.16b
	eor	v1.16b, v4.16b, v17.16b
	ext	v17.16b, v16.16b, v16.16b, #4
	eor	v19.16b, v19.16b, v20.16b
	eor	v18.16b, v5.16b, v18.16b
	eor	v20.16b, v5.16b, v20.16b
	eor	v7.16b, v5.16b, v7.16b
	eor	v25.16b, v1.16b, v3.16b
	eor	v26.16b, v3.16b, v21.16b
	eor	v22.16b, v1.16b, v22.16b
	eor	v6.16b, v19.16b, v6.16b
	eor	v27.16b, v23.16b, v18.16b
	eor	v17.16b, v17.16b, v16.16b
	eor	v20.16b, v21.16b, v20.16b
	eor	v21.16b, v24.16b, v3.16b
	eor	v16.16b, v5.16b, v16.16b
	eor	v19.16b, v25.16b, v19.16b
	ext	v28.16b, v26.16b, v26.16b, #8
	eor	v18.16b, v18.16b, v26.16b
	eor	v26.16b, v27.16b, v1.16b
	eor	v7.16b, v7.16b, v23.16b
	eor	v23.16b, v6.16b, v17.16b
	eor	v21.16b, v21.16b, v20.16b
	eor	v2.16b, v17.16b, v2.16b
	eor	v16.16b, v16.16b, v24.16b
	ext	v27.16b, v19.16b, v19.16b, #8
	eor	v18.16b, v18.16b, v28.16b
	eor	v17.16b, v23.16b, v25.16b
	eor	v22.16b, v22.16b, v7.16b
	ext	v23.16b, v26.16b, v26.16b, #8
	ext	v24.16b, v21.16b, v21.16b, #8
	eor	v6.16b, v6.16b, v26.16b
	eor	v5.16b, v2.16b, v5.16b
	eor	v4.16b, v16.16b, v4.16b
	ushr	v25.16b, v18.16b, #1
	eor	v20.16b, v27.16b, v20.16b
	ext	v26.16b, v17.16b, v17.16b, #8
	ext	v27.16b, v22.16b, v22.16b, #8
	eor	v16.16b, v16.16b, v17.16b
	eor	v6.16b, v6.16b, v23.16b
	eor	v7.16b, v24.16b, v7.16b
	ext	v23.16b, v4.16b, v4.16b, #8
	eor	v17.16b, v20.16b, v25.16b
	ext	v20.16b, v5.16b, v5.16b, #8
	eor	v3.16b, v3.16b, v4.16b
	eor	v16.16b, v16.16b, v26.16b
	eor	v2.16b, v27.16b, v2.16b
	ushr	v4.16b, v6.16b, #1
	eor	v7.16b, v7.16b, v21.16b
	eor	v17.16b, v17.16b, v19.16b
	movi	v19.16b, #170
	eor	v3.16b, v3.16b, v23.16b
	ushr	v21.16b, v16.16b, #1
	eor	v1.16b, v20.16b, v1.16b
	eor	v2.16b, v2.16b, v22.16b
	eor	v4.16b, v7.16b, v4.16b
	add	v17.16b, v17.16b, v17.16b
	ushr	v20.16b, v3.16b, #1
	eor	v1.16b, v1.16b, v5.16b
	eor	v2.16b, v2.16b, v21.16b
	add	v4.16b, v4.16b, v4.16b
	and	v7.16b, v17.16b, v19.16b
	movi	v17.16b, #34
	eor	v1.16b, v1.16b, v20.16b
	add	v2.16b, v2.16b, v2.16b
	eor	v5.16b, v7.16b, v18.16b
	and	v4.16b, v4.16b, v17.16b
	add	v1.16b, v1.16b, v1.16b
	and	v2.16b, v2.16b, v19.16b
	ushr	v7.16b, v5.16b, #2
	eor	v4.16b, v4.16b, v6.16b
	and	v1.16b, v1.16b, v17.16b
	movi	v6.16b, #204
	eor	v2.16b, v2.16b, v16.16b
	eor	v4.16b, v4.16b, v7.16b
	eor	v1.16b, v1.16b, v3.16b
	ushr	v7.16b, v2.16b, #2
	shl	v4.16b, v4.16b, #2
	eor	v1.16b, v1.16b, v7.16b
	and	v3.16b, v4.16b, v6.16b
	shl	v1.16b, v1.16b, #2
	eor	v3.16b, v3.16b, v5.16b
	eor	v1.16b, v1.16b, v2.16b
	ushr	v4.16b, v3.16b, #4
	eor	v1.16b, v1.16b, v4.16b
	shl	v1.16b, v1.16b, #4
	eor	v1.16b, v1.16b, v3.16b
	tbl	v0.16b, { v1.16b }, v0.16b
	str	q0, [x0]
	ret
                                        // -- End function
	.section	__TEXT,__const
	.p2align	4, 0x0                          // -- Begin function aes_c::single_rounds::inverse_round
l_aes_CPI47_0:
	.byte	0                               // 0x0
	.byte	4                               // 0x4
	.byte	8                               // 0x8
	.byte	12                              // 0xc
	.byte	1                               // 0x1
	.byte	5                               // 0x5
	.byte	9                               // 0x9
	.byte	13                              // 0xd
	.byte	2                               // 0x2
	.byte	6                               // 0x6
	.byte	10                              // 0xa
	.byte	14                              // 0xe
	.byte	3                               // 0x3
	.byte	7                               // 0x7
	.byte	11                              // 0xb
	.byte	15                              // 0xf
l_aes_CPI47_1:
	.byte	2                               // 0x2
	.byte	3                               // 0x3
	.byte	4                               // 0x4
	.byte	5                               // 0x5
	.byte	6                               // 0x6
	.byte	7                               // 0x7
	.byte	8                               // 0x8
	.byte	9                               // 0x9
	.byte	10                              // 0xa
	.byte	11                              // 0xb
	.byte	12                              // 0xc
	.byte	13                              // 0xd
	.byte	14                              // 0xe
	.byte	15                              // 0xf
	.byte	255                             // 0xff
	.byte	255                             // 0xff
l_aes_CPI47_2:
	.byte	0                               // 0x0
	.byte	0                               // 0x0
	.byte	0                               // 0x0
	.byte	0                               // 0x0
	.byte	0                               // 0x0
	.byte	255                             // 0xff
	.byte	0                               // 0x0
	.byte	0                               // 0x0
	.byte	255                             // 0xff
	.byte	255                             // 0xff
	.byte	0                               // 0x0
	.byte	0                               // 0x0
	.byte	255                             // 0xff
	.byte	0                               // 0x0
	.byte	0                               // 0x0
	.byte	0                               // 0x0
l_aes_CPI47_3:
	.byte	255                             // 0xff
	.byte	255                             // 0xff
	.byte	0                               // 0x0
	.byte	1                               // 0x1
	.byte	2                               // 0x2
	.byte	3                               // 0x3
	.byte	4                               // 0x4
	.byte	5                               // 0x5
	.byte	6                               // 0x6
	.byte	7                               // 0x7
	.byte	8                               // 0x8
	.byte	9                               // 0x9
	.byte	10                              // 0xa
	.byte	11                              // 0xb
	.byte	12                              // 0xc
	.byte	13                              // 0xd
l_aes_CPI47_4:
	.byte	255                             // 0xff
	.byte	0                               // 0x0
	.byte	1                               // 0x1
	.byte	2                               // 0x2
	.byte	3                               // 0x3
	.byte	4                               // 0x4
	.byte	5                               // 0x5
	.byte	6                               // 0x6
	.byte	7                               // 0x7
	.byte	8                               // 0x8
	.byte	9                               // 0x9
	.byte	10                              // 0xa
	.byte	11                              // 0xb
	.byte	12                              // 0xc
	.byte	13                              // 0xd
	.byte	14                              // 0xe
	.section	__TEXT,__text,regular,pure_instructions
	.p2align	2
_aes.aes_c.single_rounds.inverse_round:  // @_aes.aes_c.single_rounds.inverse_round
// %bb.0:                               // %start
	stp	d13, d12, [sp, #-48]!           // 16-byte Folded Spill
	adrp	x8, l_aes_CPI47_0@PAGE
	ldr	q1, [x0]
	movi	v2.16b, #1
	ldr	q0, [x8, l_aes_CPI47_0@PAGEOFF]
	movi	v3.16b, #2
	movi	v4.16b, #32
	movi	v5.16b, #64
	movi	v6.16b, #8
	movi	v7.16b, #16
	tbl	v1.16b, { v1.16b }, v0.16b
	movi	v16.16b, #4
	stp	d9, d8, [sp, #32]               // 16-byte Folded Spill
	movi	v17.2d, #0xffffffffffffffff
	stp	d11, d10, [sp, #16]             // 16-byte Folded Spill
	adrp	x8, l_aes_CPI47_1@PAGE
	and	v2.16b, v1.16b, v2.16b
	and	v3.16b, v1.16b, v3.16b
	and	v4.16b, v1.16b, v4.16b
	and	v5.16b, v1.16b, v5.16b
	cmtst	v22.16b, v1.16b, v6.16b
	cmtst	v18.16b, v1.16b, v7.16b
	cmtst	v16.16b, v1.16b, v16.16b
	cmlt	v21.16b, v1.16b, #0
	add	v25.16b, v2.16b, v17.16b
	cmeq	v2.16b, v3.16b, #0
	cmeq	v26.16b, v4.16b, #0
	cmeq	v3.16b, v5.16b, #0
	eor	v6.16b, v21.16b, v18.16b
	eor	v7.16b, v18.16b, v22.16b
	eor	v4.16b, v25.16b, v2.16b
	eor	v23.16b, v26.16b, v16.16b
	eor	v20.16b, v16.16b, v2.16b
	eor	v1.16b, v21.16b, v3.16b
	eor	v18.16b, v3.16b, v18.16b
	eor	v28.16b, v25.16b, v22.16b
	eor	v19.16b, v26.16b, v22.16b
	eor	v27.16b, v3.16b, v2.16b
	eor	v16.16b, v6.16b, v3.16b
	eor	v17.16b, v7.16b, v20.16b
	eor	v24.16b, v23.16b, v21.16b
	eor	v21.16b, v7.16b, v4.16b
	eor	v2.16b, v18.16b, v23.16b
	eor	v3.16b, v1.16b, v28.16b
	eor	v23.16b, v18.16b, v4.16b
	eor	v19.16b, v19.16b, v27.16b
	eor	v5.16b, v1.16b, v4.16b
	eor	v4.16b, v16.16b, v22.16b
	and	v31.16b, v16.16b, v6.16b
	eor	v22.16b, v7.16b, v25.16b
	eor	v27.16b, v27.16b, v28.16b
	eor	v30.16b, v3.16b, v17.16b
	eor	v8.16b, v20.16b, v3.16b
	eor	v25.16b, v23.16b, v26.16b
	and	v9.16b, v19.16b, v21.16b
	and	v29.16b, v5.16b, v2.16b
	orr	v10.16b, v19.16b, v21.16b
	and	v11.16b, v4.16b, v17.16b
	and	v12.16b, v22.16b, v18.16b
	and	v13.16b, v23.16b, v24.16b
	and	v30.16b, v30.16b, v7.16b
	eor	v31.16b, v8.16b, v31.16b
	and	v8.16b, v25.16b, v27.16b
	eor	v26.16b, v9.16b, v26.16b
	and	v9.16b, v3.16b, v1.16b
	eor	v20.16b, v3.16b, v20.16b
	eor	v10.16b, v10.16b, v12.16b
	eor	v28.16b, v13.16b, v28.16b
	eor	v11.16b, v30.16b, v11.16b
	eor	v31.16b, v31.16b, v29.16b
	eor	v26.16b, v26.16b, v8.16b
	eor	v30.16b, v30.16b, v9.16b
	eor	v28.16b, v28.16b, v29.16b
	eor	v8.16b, v10.16b, v11.16b
	eor	v29.16b, v31.16b, v11.16b
	eor	v26.16b, v26.16b, v7.16b
	eor	v28.16b, v28.16b, v30.16b
	and	v31.16b, v29.16b, v8.16b
	eor	v26.16b, v26.16b, v30.16b
	eor	v9.16b, v29.16b, v28.16b
	eor	v30.16b, v31.16b, v28.16b
	eor	v10.16b, v26.16b, v8.16b
	eor	v11.16b, v31.16b, v26.16b
	and	v29.16b, v26.16b, v29.16b
	and	v8.16b, v28.16b, v8.16b
	and	v11.16b, v11.16b, v9.16b
	and	v30.16b, v30.16b, v10.16b
	and	v29.16b, v29.16b, v9.16b
	eor	v9.16b, v31.16b, v9.16b
	bic	v8.16b, v10.16b, v8.16b
	eor	v28.16b, v11.16b, v28.16b
	eor	v26.16b, v30.16b, v26.16b
	eor	v29.16b, v9.16b, v29.16b
	eor	v30.16b, v8.16b, v31.16b
	eor	v31.16b, v28.16b, v26.16b
	and	v23.16b, v26.16b, v23.16b
	and	v27.16b, v28.16b, v27.16b
	eor	v8.16b, v29.16b, v30.16b
	eor	v9.16b, v29.16b, v28.16b
	and	v10.16b, v29.16b, v18.16b
	and	v18.16b, v26.16b, v24.16b
	and	v6.16b, v30.16b, v6.16b
	eor	v26.16b, v26.16b, v30.16b
	and	v20.16b, v31.16b, v20.16b
	and	v16.16b, v30.16b, v16.16b
	eor	v24.16b, v8.16b, v31.16b
	and	v31.16b, v31.16b, v7.16b
	and	v7.16b, v9.16b, v19.16b
	and	v19.16b, v29.16b, v22.16b
	eor	v6.16b, v18.16b, v6.16b
	and	v22.16b, v28.16b, v25.16b
	and	v5.16b, v26.16b, v5.16b
	and	v28.16b, v8.16b, v1.16b
	and	v1.16b, v8.16b, v3.16b
	and	v17.16b, v24.16b, v17.16b
	and	v4.16b, v24.16b, v4.16b
	and	v21.16b, v9.16b, v21.16b
	ldp	d9, d8, [sp, #32]               // 16-byte Folded Reload
	eor	v16.16b, v19.16b, v16.16b
	eor	v11.16b, v20.16b, v10.16b
	and	v2.16b, v26.16b, v2.16b
	eor	v5.16b, v28.16b, v5.16b
	eor	v3.16b, v17.16b, v19.16b
	eor	v17.16b, v6.16b, v23.16b
	eor	v6.16b, v6.16b, v10.16b
	eor	v24.16b, v4.16b, v1.16b
	eor	v20.16b, v20.16b, v27.16b
	eor	v26.16b, v7.16b, v16.16b
	eor	v25.16b, v11.16b, v21.16b
	ldp	d11, d10, [sp, #16]             // 16-byte Folded Reload
	eor	v1.16b, v6.16b, v1.16b
	eor	v21.16b, v17.16b, v21.16b
	eor	v19.16b, v31.16b, v23.16b
	eor	v6.16b, v2.16b, v22.16b
	eor	v20.16b, v20.16b, v26.16b
	eor	v4.16b, v4.16b, v7.16b
	eor	v23.16b, v3.16b, v25.16b
	eor	v2.16b, v2.16b, v18.16b
	eor	v26.16b, v1.16b, v5.16b
	eor	v21.16b, v21.16b, v24.16b
	eor	v3.16b, v19.16b, v5.16b
	ldr	q19, [x8, l_aes_CPI47_1@PAGEOFF]
	adrp	x8, l_aes_CPI47_2@PAGE
	eor	v24.16b, v24.16b, v25.16b
	eor	v16.16b, v6.16b, v16.16b
	eor	v25.16b, v6.16b, v28.16b
	eor	v1.16b, v4.16b, v23.16b
	eor	v6.16b, v26.16b, v20.16b
	eor	v5.16b, v21.16b, v20.16b
	eor	v20.16b, v7.16b, v22.16b
	tbl	v4.16b, { v3.16b }, v19.16b
	eor	v7.16b, v16.16b, v24.16b
	eor	v16.16b, v25.16b, v17.16b
	ldr	q25, [x8, l_aes_CPI47_2@PAGEOFF]
	adrp	x8, l_aes_CPI47_3@PAGE
	tbl	v22.16b, { v6.16b }, v19.16b
	tbl	v21.16b, { v5.16b }, v19.16b
	ldr	q27, [x8, l_aes_CPI47_3@PAGEOFF]
	adrp	x8, l_aes_CPI47_4@PAGE
	eor	v20.16b, v20.16b, v24.16b
	eor	v16.16b, v16.16b, v23.16b
	tbl	v23.16b, { v7.16b }, v19.16b
	tbl	v18.16b, { v1.16b }, v19.16b
	eor	v17.16b, v4.16b, v3.16b
	eor	v4.16b, v2.16b, v24.16b
	movi	v2.2d, #0000000000000000
	eor	v22.16b, v22.16b, v6.16b
	tbl	v24.16b, { v20.16b }, v19.16b
	eor	v21.16b, v21.16b, v5.16b
	tbl	v26.16b, { v16.16b }, v19.16b
	and	v17.16b, v17.16b, v25.16b
	eor	v23.16b, v23.16b, v7.16b
	tbl	v19.16b, { v4.16b }, v19.16b
	and	v22.16b, v22.16b, v25.16b
	eor	v18.16b, v18.16b, v1.16b
	and	v21.16b, v21.16b, v25.16b
	eor	v24.16b, v24.16b, v20.16b
	tbl	v28.16b, { v17.16b }, v27.16b
	and	v23.16b, v23.16b, v25.16b
	eor	v26.16b, v26.16b, v16.16b
	tbl	v30.16b, { v22.16b }, v27.16b
	and	v18.16b, v18.16b, v25.16b
	eor	v3.16b, v3.16b, v17.16b
	eor	v17.16b, v19.16b, v4.16b
	tbl	v19.16b, { v21.16b }, v27.16b
	and	v24.16b, v24.16b, v25.16b
	eor	v6.16b, v6.16b, v22.16b
	eor	v21.16b, v5.16b, v21.16b
	tbl	v22.16b, { v23.16b }, v27.16b
	tbl	v29.16b, { v18.16b }, v27.16b
	and	v26.16b, v26.16b, v25.16b
	eor	v5.16b, v3.16b, v28.16b
	eor	v3.16b, v7.16b, v23.16b
	tbl	v23.16b, { v24.16b }, v27.16b
	and	v17.16b, v17.16b, v25.16b
	eor	v7.16b, v6.16b, v30.16b
	eor	v18.16b, v1.16b, v18.16b
	eor	v6.16b, v21.16b, v19.16b
	eor	v20.16b, v20.16b, v24.16b
	tbl	v19.16b, { v26.16b }, v27.16b
	ext	v21.16b, v5.16b, v2.16b, #1
	eor	v1.16b, v3.16b, v22.16b
	tbl	v24.16b, { v17.16b }, v27.16b
	eor	v16.16b, v16.16b, v26.16b
	ldr	q26, [x8, l_aes_CPI47_4@PAGEOFF]
	ext	v22.16b, v7.16b, v2.16b, #1
	eor	v3.16b, v18.16b, v29.16b
	ext	v18.16b, v6.16b, v2.16b, #1
	eor	v4.16b, v4.16b, v17.16b
	eor	v17.16b, v20.16b, v23.16b
	ext	v25.16b, v1.16b, v2.16b, #1
	movi	v20.2d, #0xff00ff00000000
	eor	v16.16b, v16.16b, v19.16b
	eor	v21.16b, v21.16b, v5.16b
	ext	v23.16b, v3.16b, v2.16b, #1
	eor	v19.16b, v22.16b, v7.16b
	ext	v22.16b, v17.16b, v2.16b, #1
	eor	v4.16b, v4.16b, v24.16b
	eor	v18.16b, v18.16b, v6.16b
	eor	v24.16b, v25.16b, v1.16b
	ext	v25.16b, v16.16b, v2.16b, #1
	and	v21.16b, v21.16b, v20.16b
	and	v19.16b, v19.16b, v20.16b
	ext	v2.16b, v4.16b, v2.16b, #1
	eor	v23.16b, v23.16b, v3.16b
	and	v18.16b, v18.16b, v20.16b
	eor	v22.16b, v22.16b, v17.16b
	tbl	v27.16b, { v21.16b }, v26.16b
	eor	v5.16b, v5.16b, v21.16b
	and	v24.16b, v24.16b, v20.16b
	eor	v25.16b, v25.16b, v16.16b
	tbl	v29.16b, { v19.16b }, v26.16b
	eor	v7.16b, v7.16b, v19.16b
	tbl	v28.16b, { v18.16b }, v26.16b
	and	v22.16b, v22.16b, v20.16b
	eor	v6.16b, v6.16b, v18.16b
	eor	v18.16b, v2.16b, v4.16b
	and	v23.16b, v23.16b, v20.16b
	tbl	v21.16b, { v24.16b }, v26.16b
	and	v25.16b, v25.16b, v20.16b
	eor	v5.16b, v5.16b, v27.16b
	eor	v1.16b, v1.16b, v24.16b
	tbl	v30.16b, { v22.16b }, v26.16b
	eor	v7.16b, v7.16b, v29.16b
	eor	v17.16b, v17.16b, v22.16b
	eor	v2.16b, v6.16b, v28.16b
	and	v6.16b, v18.16b, v20.16b
	tbl	v19.16b, { v23.16b }, v26.16b
	tbl	v18.16b, { v25.16b }, v26.16b
	eor	v16.16b, v16.16b, v25.16b
	eor	v3.16b, v3.16b, v23.16b
	ext	v22.16b, v7.16b, v7.16b, #4
	ext	v24.16b, v5.16b, v5.16b, #4
	eor	v21.16b, v1.16b, v21.16b
	ext	v20.16b, v2.16b, v2.16b, #4
	tbl	v23.16b, { v6.16b }, v26.16b
	eor	v17.16b, v17.16b, v30.16b
	eor	v6.16b, v4.16b, v6.16b
	eor	v16.16b, v16.16b, v18.16b
	eor	v18.16b, v3.16b, v19.16b
	ext	v19.16b, v17.16b, v17.16b, #4
	eor	v4.16b, v22.16b, v7.16b
	ext	v22.16b, v21.16b, v21.16b, #4
	eor	v20.16b, v20.16b, v2.16b
	eor	v6.16b, v6.16b, v23.16b
	eor	v23.16b, v24.16b, v5.16b
	ext	v24.16b, v18.16b, v18.16b, #4
	ext	v25.16b, v16.16b, v16.16b, #4
	eor	v1.16b, v4.16b, v17.16b
	eor	v3.16b, v20.16b, v7.16b
	eor	v17.16b, v19.16b, v17.16b
	eor	v19.16b, v18.16b, v23.16b
	ext	v7.16b, v6.16b, v6.16b, #4
	eor	v22.16b, v22.16b, v21.16b
	eor	v18.16b, v24.16b, v18.16b
	eor	v25.16b, v25.16b, v16.16b
	eor	v20.16b, v1.16b, v20.16b
	eor	v24.16b, v3.16b, v1.16b
	eor	v23.16b, v3.16b, v23.16b
	eor	v19.16b, v19.16b, v17.16b
	eor	v5.16b, v17.16b, v5.16b
	eor	v16.16b, v17.16b, v16.16b
	eor	v26.16b, v1.16b, v22.16b
	eor	v7.16b, v7.16b, v6.16b
	eor	v21.16b, v18.16b, v21.16b
	eor	v6.16b, v17.16b, v6.16b
	eor	v18.16b, v24.16b, v18.16b
	ext	v27.16b, v23.16b, v23.16b, #8
	eor	v28.16b, v19.16b, v25.16b
	eor	v23.16b, v5.16b, v23.16b
	eor	v16.16b, v16.16b, v22.16b
	eor	v5.16b, v26.16b, v5.16b
	eor	v22.16b, v21.16b, v7.16b
	eor	v6.16b, v6.16b, v25.16b
	eor	v2.16b, v7.16b, v2.16b
	ext	v26.16b, v18.16b, v18.16b, #8
	eor	v28.16b, v28.16b, v3.16b
	eor	v23.16b, v23.16b, v27.16b
	eor	v20.16b, v20.16b, v16.16b
	eor	v7.16b, v22.16b, v24.16b
	ext	v22.16b, v5.16b, v5.16b, #8
	eor	v5.16b, v21.16b, v5.16b
	ext	v24.16b, v28.16b, v28.16b, #8
	eor	v4.16b, v6.16b, v4.16b
	eor	v17.16b, v2.16b, v17.16b
	ushr	v25.16b, v23.16b, #1
	eor	v19.16b, v26.16b, v19.16b
	ext	v26.16b, v20.16b, v20.16b, #8
	ext	v21.16b, v7.16b, v7.16b, #8
	eor	v6.16b, v6.16b, v7.16b
	eor	v5.16b, v5.16b, v22.16b
	ext	v22.16b, v17.16b, v17.16b, #8
	eor	v3.16b, v3.16b, v4.16b
	eor	v7.16b, v19.16b, v25.16b
	eor	v16.16b, v24.16b, v16.16b
	ext	v19.16b, v4.16b, v4.16b, #8
	eor	v2.16b, v26.16b, v2.16b
	eor	v6.16b, v6.16b, v21.16b
	ushr	v4.16b, v5.16b, #1
	eor	v7.16b, v7.16b, v18.16b
	eor	v16.16b, v16.16b, v28.16b
	movi	v18.16b, #170
	eor	v2.16b, v2.16b, v20.16b
	eor	v3.16b, v3.16b, v19.16b
	eor	v1.16b, v22.16b, v1.16b
	ushr	v21.16b, v6.16b, #1
	add	v7.16b, v7.16b, v7.16b
	eor	v4.16b, v16.16b, v4.16b
	movi	v16.16b, #34
	ushr	v19.16b, v3.16b, #1
	eor	v1.16b, v1.16b, v17.16b
	eor	v2.16b, v2.16b, v21.16b
	and	v7.16b, v7.16b, v18.16b
	add	v4.16b, v4.16b, v4.16b
	eor	v1.16b, v1.16b, v19.16b
	add	v2.16b, v2.16b, v2.16b
	eor	v7.16b, v7.16b, v23.16b
	and	v4.16b, v4.16b, v16.16b
	add	v1.16b, v1.16b, v1.16b
	and	v2.16b, v2.16b, v18.16b
	ushr	v17.16b, v7.16b, #2
	eor	v4.16b, v4.16b, v5.16b
	movi	v5.16b, #204
	and	v1.16b, v1.16b, v16.16b
	eor	v2.16b, v2.16b, v6.16b
	eor	v4.16b, v4.16b, v17.16b
	eor	v1.16b, v1.16b, v3.16b
	ushr	v6.16b, v2.16b, #2
	shl	v4.16b, v4.16b, #2
	eor	v1.16b, v1.16b, v6.16b
	and	v3.16b, v4.16b, v5.16b
	shl	v1.16b, v1.16b, #2
	eor	v3.16b, v3.16b, v7.16b
	eor	v1.16b, v1.16b, v2.16b
	ushr	v4.16b, v3.16b, #4
	eor	v1.16b, v1.16b, v4.16b
	shl	v1.16b, v1.16b, #4
	eor	v1.16b, v1.16b, v3.16b
	tbl	v0.16b, { v1.16b }, v0.16b
	ldr	q1, [x1]
	eor	v0.16b, v0.16b, v1.16b
	str	q0, [x0]
	ldp	d13, d12, [sp], #48             // 16-byte Folded Reload
	ret
                                        // -- End function
	.section	__TEXT,__const
	.p2align	4, 0x0                          // -- Begin function aes_c::single_rounds::inverse_rounds
l_aes_CPI48_0:
	.byte	0                               // 0x0
	.byte	4                               // 0x4
	.byte	8                               // 0x8
	.byte	12                              // 0xc
	.byte	1                               // 0x1
	.byte	5                               // 0x5
	.byte	9                               // 0x9
	.byte	13                              // 0xd
	.byte	2                               // 0x2
	.byte	6                               // 0x6
	.byte	10                              // 0xa
	.byte	14                              // 0xe
	.byte	3                               // 0x3
	.byte	7                               // 0x7
	.byte	11                              // 0xb
	.byte	15                              // 0xf
l_aes_CPI48_1:
	.byte	2                               // 0x2
	.byte	3                               // 0x3
	.byte	4                               // 0x4
	.byte	5                               // 0x5
	.byte	6                               // 0x6
	.byte	7                               // 0x7
	.byte	8                               // 0x8
	.byte	9                               // 0x9
	.byte	10                              // 0xa
	.byte	11                              // 0xb
	.byte	12                              // 0xc
	.byte	13                              // 0xd
	.byte	14                              // 0xe
	.byte	15                              // 0xf
	.byte	255                             // 0xff
	.byte	255                             // 0xff
l_aes_CPI48_2:
	.byte	0                               // 0x0
	.byte	0                               // 0x0
	.byte	0                               // 0x0
	.byte	0                               // 0x0
	.byte	0                               // 0x0
	.byte	255                             // 0xff
	.byte	0                               // 0x0
	.byte	0                               // 0x0
	.byte	255                             // 0xff
	.byte	255                             // 0xff
	.byte	0                               // 0x0
	.byte	0                               // 0x0
	.byte	255                             // 0xff
	.byte	0                               // 0x0
	.byte	0                               // 0x0
	.byte	0                               // 0x0
l_aes_CPI48_3:
	.byte	255                             // 0xff
	.byte	255                             // 0xff
	.byte	0                               // 0x0
	.byte	1                               // 0x1
	.byte	2                               // 0x2
	.byte	3                               // 0x3
	.byte	4                               // 0x4
	.byte	5                               // 0x5
	.byte	6                               // 0x6
	.byte	7                               // 0x7
	.byte	8                               // 0x8
	.byte	9                               // 0x9
	.byte	10                              // 0xa
	.byte	11                              // 0xb
	.byte	12                              // 0xc
	.byte	13                              // 0xd
l_aes_CPI48_4:
	.byte	255                             // 0xff
	.byte	0                               // 0x0
	.byte	1                               // 0x1
	.byte	2                               // 0x2
	.byte	3                               // 0x3
	.byte	4                               // 0x4
	.byte	5                               // 0x5
	.byte	6                               // 0x6
	.byte	7                               // 0x7
	.byte	8                               // 0x8
	.byte	9                               // 0x9
	.byte	10                              // 0xa
	.byte	11                              // 0xb
	.byte	12                              // 0xc
	.byte	13                              // 0xd
	.byte	14                              // 0xe
	.section	__TEXT,__text,regular,pure_instructions
	.p2align	2
_aes.aes_c.single_rounds.inverse_rounds: // @_aes.aes_c.single_rounds.inverse_rounds
// %bb.0:                               // %start
	stp	d15, d14, [sp, #-64]!           // 16-byte Folded Spill
	adrp	x8, l_aes_CPI48_0@PAGE
	ldp	q1, q5, [x0, #64]
	ldp	q2, q3, [x0]
	ldr	q0, [x8, l_aes_CPI48_0@PAGEOFF]
	stp	d9, d8, [sp, #48]               // 16-byte Folded Spill
	adrp	x8, l_aes_CPI48_1@PAGE
	tbl	v7.16b, { v1.16b }, v0.16b
	ldp	q1, q16, [x0, #96]
	tbl	v6.16b, { v2.16b }, v0.16b
	ldp	q4, q2, [x0, #32]
	tbl	v3.16b, { v3.16b }, v0.16b
	tbl	v5.16b, { v5.16b }, v0.16b
	stp	d11, d10, [sp, #32]             // 16-byte Folded Spill
	tbl	v1.16b, { v1.16b }, v0.16b
	tbl	v16.16b, { v16.16b }, v0.16b
	stp	d13, d12, [sp, #16]             // 16-byte Folded Spill
	tbl	v4.16b, { v4.16b }, v0.16b
	ushr	v18.16b, v7.16b, #1
	tbl	v19.16b, { v2.16b }, v0.16b
	ushr	v17.16b, v6.16b, #1
	movi	v2.16b, #85
	ushr	v21.16b, v1.16b, #1
	eor	v18.16b, v5.16b, v18.16b
	ushr	v20.16b, v4.16b, #1
	eor	v17.16b, v3.16b, v17.16b
	eor	v21.16b, v16.16b, v21.16b
	and	v18.16b, v18.16b, v2.16b
	eor	v20.16b, v19.16b, v20.16b
	and	v17.16b, v17.16b, v2.16b
	and	v21.16b, v21.16b, v2.16b
	add	v23.16b, v18.16b, v18.16b
	eor	v5.16b, v18.16b, v5.16b
	and	v20.16b, v20.16b, v2.16b
	add	v22.16b, v17.16b, v17.16b
	eor	v17.16b, v17.16b, v3.16b
	add	v18.16b, v21.16b, v21.16b
	eor	v7.16b, v23.16b, v7.16b
	eor	v16.16b, v21.16b, v16.16b
	add	v3.16b, v20.16b, v20.16b
	eor	v6.16b, v22.16b, v6.16b
	eor	v19.16b, v20.16b, v19.16b
	ushr	v20.16b, v17.16b, #2
	ushr	v21.16b, v5.16b, #2
	eor	v18.16b, v18.16b, v1.16b
	ushr	v22.16b, v7.16b, #2
	eor	v4.16b, v3.16b, v4.16b
	ushr	v1.16b, v6.16b, #2
	movi	v3.16b, #51
	eor	v20.16b, v19.16b, v20.16b
	eor	v21.16b, v16.16b, v21.16b
	eor	v22.16b, v18.16b, v22.16b
	eor	v1.16b, v4.16b, v1.16b
	and	v20.16b, v20.16b, v3.16b
	and	v21.16b, v21.16b, v3.16b
	and	v22.16b, v22.16b, v3.16b
	and	v23.16b, v1.16b, v3.16b
	movi	v1.16b, #15
	shl	v24.16b, v20.16b, #2
	shl	v25.16b, v21.16b, #2
	eor	v19.16b, v20.16b, v19.16b
	shl	v27.16b, v22.16b, #2
	eor	v16.16b, v21.16b, v16.16b
	eor	v18.16b, v22.16b, v18.16b
	shl	v26.16b, v23.16b, #2
	eor	v4.16b, v23.16b, v4.16b
	eor	v17.16b, v24.16b, v17.16b
	eor	v5.16b, v25.16b, v5.16b
	ushr	v20.16b, v19.16b, #4
	eor	v7.16b, v27.16b, v7.16b
	and	v21.16b, v16.16b, v1.16b
	and	v25.16b, v18.16b, v1.16b
	eor	v6.16b, v26.16b, v6.16b
	ushr	v24.16b, v4.16b, #4
	ushr	v22.16b, v17.16b, #4
	and	v23.16b, v5.16b, v1.16b
	and	v27.16b, v7.16b, v1.16b
	eor	v20.16b, v21.16b, v20.16b
	ushr	v26.16b, v6.16b, #4
	eor	v21.16b, v23.16b, v22.16b
	eor	v22.16b, v25.16b, v24.16b
	shl	v24.16b, v20.16b, #4
	eor	v16.16b, v20.16b, v16.16b
	eor	v23.16b, v27.16b, v26.16b
	eor	v5.16b, v5.16b, v21.16b
	shl	v25.16b, v22.16b, #4
	shl	v21.16b, v21.16b, #4
	eor	v27.16b, v22.16b, v18.16b
	eor	v19.16b, v24.16b, v19.16b
	shl	v26.16b, v23.16b, #4
	mvn	v30.16b, v5.16b
	eor	v4.16b, v25.16b, v4.16b
	eor	v5.16b, v26.16b, v6.16b
	eor	v6.16b, v23.16b, v7.16b
	eor	v7.16b, v21.16b, v17.16b
	mvn	v17.16b, v27.16b
	eor	v25.16b, v4.16b, v30.16b
	eor	v18.16b, v19.16b, v30.16b
	mvn	v29.16b, v5.16b
	eor	v28.16b, v7.16b, v27.16b
	eor	v20.16b, v6.16b, v16.16b
	eor	v31.16b, v7.16b, v4.16b
	eor	v22.16b, v6.16b, v17.16b
	eor	v4.16b, v6.16b, v19.16b
	eor	v8.16b, v5.16b, v7.16b
	eor	v5.16b, v16.16b, v17.16b
	eor	v23.16b, v25.16b, v16.16b
	eor	v9.16b, v19.16b, v29.16b
	eor	v6.16b, v18.16b, v28.16b
	eor	v21.16b, v20.16b, v17.16b
	mvn	v26.16b, v31.16b
	eor	v7.16b, v22.16b, v25.16b
	and	v10.16b, v20.16b, v27.16b
	eor	v18.16b, v8.16b, v4.16b
	eor	v24.16b, v8.16b, v22.16b
	eor	v16.16b, v8.16b, v5.16b
	eor	v25.16b, v9.16b, v5.16b
	eor	v17.16b, v21.16b, v19.16b
	eor	v28.16b, v9.16b, v28.16b
	eor	v19.16b, v4.16b, v26.16b
	eor	v29.16b, v4.16b, v29.16b
	eor	v10.16b, v10.16b, v26.16b
	and	v8.16b, v18.16b, v6.16b
	eor	v27.16b, v24.16b, v30.16b
	and	v11.16b, v16.16b, v7.16b
	eor	v31.16b, v25.16b, v31.16b
	orr	v12.16b, v18.16b, v6.16b
	and	v14.16b, v24.16b, v23.16b
	and	v13.16b, v17.16b, v19.16b
	eor	v10.16b, v10.16b, v25.16b
	eor	v26.16b, v25.16b, v26.16b
	and	v15.16b, v27.16b, v28.16b
	eor	v30.16b, v8.16b, v30.16b
	and	v8.16b, v29.16b, v22.16b
	and	v31.16b, v31.16b, v4.16b
	eor	v9.16b, v14.16b, v9.16b
	and	v14.16b, v25.16b, v5.16b
	eor	v10.16b, v10.16b, v11.16b
	eor	v30.16b, v30.16b, v15.16b
	eor	v8.16b, v12.16b, v8.16b
	eor	v12.16b, v31.16b, v13.16b
	eor	v9.16b, v9.16b, v11.16b
	eor	v31.16b, v31.16b, v14.16b
	eor	v30.16b, v30.16b, v4.16b
	eor	v8.16b, v8.16b, v12.16b
	eor	v10.16b, v10.16b, v12.16b
	eor	v9.16b, v9.16b, v31.16b
	eor	v30.16b, v30.16b, v31.16b
	and	v31.16b, v10.16b, v8.16b
	eor	v11.16b, v10.16b, v9.16b
	eor	v12.16b, v30.16b, v8.16b
	and	v10.16b, v10.16b, v30.16b
	and	v8.16b, v9.16b, v8.16b
	eor	v13.16b, v31.16b, v9.16b
	eor	v14.16b, v30.16b, v31.16b
	eor	v15.16b, v31.16b, v11.16b
	and	v10.16b, v11.16b, v10.16b
	bic	v8.16b, v12.16b, v8.16b
	and	v11.16b, v14.16b, v11.16b
	and	v12.16b, v12.16b, v13.16b
	eor	v10.16b, v15.16b, v10.16b
	eor	v31.16b, v8.16b, v31.16b
	eor	v8.16b, v11.16b, v9.16b
	eor	v30.16b, v12.16b, v30.16b
	eor	v9.16b, v10.16b, v31.16b
	and	v22.16b, v10.16b, v22.16b
	and	v12.16b, v31.16b, v20.16b
	eor	v11.16b, v8.16b, v30.16b
	and	v20.16b, v8.16b, v28.16b
	eor	v28.16b, v10.16b, v8.16b
	and	v27.16b, v8.16b, v27.16b
	and	v23.16b, v30.16b, v23.16b
	and	v24.16b, v30.16b, v24.16b
	eor	v30.16b, v30.16b, v31.16b
	and	v29.16b, v10.16b, v29.16b
	and	v21.16b, v31.16b, v21.16b
	and	v26.16b, v11.16b, v26.16b
	eor	v8.16b, v9.16b, v11.16b
	and	v25.16b, v9.16b, v25.16b
	and	v18.16b, v28.16b, v18.16b
	and	v4.16b, v11.16b, v4.16b
	and	v6.16b, v28.16b, v6.16b
	eor	v28.16b, v23.16b, v12.16b
	and	v5.16b, v9.16b, v5.16b
	and	v7.16b, v30.16b, v7.16b
	eor	v31.16b, v26.16b, v22.16b
	and	v19.16b, v8.16b, v19.16b
	and	v16.16b, v30.16b, v16.16b
	and	v17.16b, v8.16b, v17.16b
	eor	v21.16b, v29.16b, v21.16b
	eor	v22.16b, v22.16b, v25.16b
	eor	v4.16b, v4.16b, v24.16b
	eor	v24.16b, v28.16b, v24.16b
	eor	v23.16b, v7.16b, v23.16b
	eor	v19.16b, v19.16b, v29.16b
	eor	v29.16b, v31.16b, v18.16b
	eor	v7.16b, v7.16b, v27.16b
	eor	v16.16b, v5.16b, v16.16b
	eor	v27.16b, v6.16b, v27.16b
	eor	v25.16b, v17.16b, v25.16b
	eor	v18.16b, v24.16b, v18.16b
	ldp	d9, d8, [sp, #48]               // 16-byte Folded Reload
	eor	v30.16b, v19.16b, v29.16b
	eor	v19.16b, v26.16b, v20.16b
	eor	v20.16b, v6.16b, v21.16b
	eor	v6.16b, v17.16b, v6.16b
	ldp	d11, d10, [sp, #32]             // 16-byte Folded Reload
	eor	v17.16b, v28.16b, v22.16b
	eor	v5.16b, v7.16b, v5.16b
	ldr	q22, [x8, l_aes_CPI48_1@PAGEOFF]
	eor	v4.16b, v4.16b, v16.16b
	eor	v26.16b, v25.16b, v29.16b
	adrp	x8, l_aes_CPI48_2@PAGE
	eor	v7.16b, v7.16b, v21.16b
	eor	v20.16b, v19.16b, v20.16b
	eor	v18.16b, v18.16b, v25.16b
	eor	v16.16b, v17.16b, v16.16b
	ldp	d13, d12, [sp, #16]             // 16-byte Folded Reload
	eor	v21.16b, v5.16b, v24.16b
	tbl	v24.16b, { v4.16b }, v22.16b
	eor	v19.16b, v6.16b, v30.16b
	eor	v17.16b, v7.16b, v26.16b
	eor	v18.16b, v18.16b, v20.16b
	eor	v7.16b, v23.16b, v26.16b
	eor	v16.16b, v16.16b, v20.16b
	eor	v5.16b, v27.16b, v26.16b
	eor	v6.16b, v21.16b, v30.16b
	ldr	q21, [x8, l_aes_CPI48_2@PAGEOFF]
	adrp	x8, l_aes_CPI48_3@PAGE
	eor	v20.16b, v24.16b, v4.16b
	ldr	q29, [x8, l_aes_CPI48_3@PAGEOFF]
	adrp	x8, l_aes_CPI48_4@PAGE
	tbl	v23.16b, { v19.16b }, v22.16b
	tbl	v24.16b, { v17.16b }, v22.16b
	tbl	v27.16b, { v18.16b }, v22.16b
	tbl	v28.16b, { v16.16b }, v22.16b
	tbl	v25.16b, { v6.16b }, v22.16b
	tbl	v26.16b, { v7.16b }, v22.16b
	tbl	v22.16b, { v5.16b }, v22.16b
	and	v20.16b, v20.16b, v21.16b
	eor	v23.16b, v23.16b, v19.16b
	eor	v24.16b, v24.16b, v17.16b
	eor	v27.16b, v27.16b, v18.16b
	eor	v28.16b, v28.16b, v16.16b
	eor	v25.16b, v25.16b, v6.16b
	eor	v26.16b, v26.16b, v7.16b
	eor	v22.16b, v22.16b, v5.16b
	eor	v4.16b, v4.16b, v20.16b
	tbl	v20.16b, { v20.16b }, v29.16b
	and	v23.16b, v23.16b, v21.16b
	and	v24.16b, v24.16b, v21.16b
	and	v27.16b, v27.16b, v21.16b
	and	v28.16b, v28.16b, v21.16b
	and	v25.16b, v25.16b, v21.16b
	and	v26.16b, v26.16b, v21.16b
	and	v21.16b, v22.16b, v21.16b
	movi	v22.2d, #0000000000000000
	eor	v19.16b, v19.16b, v23.16b
	tbl	v23.16b, { v23.16b }, v29.16b
	eor	v17.16b, v17.16b, v24.16b
	tbl	v24.16b, { v24.16b }, v29.16b
	eor	v4.16b, v4.16b, v20.16b
	eor	v18.16b, v18.16b, v27.16b
	tbl	v27.16b, { v27.16b }, v29.16b
	eor	v16.16b, v16.16b, v28.16b
	tbl	v28.16b, { v28.16b }, v29.16b
	tbl	v20.16b, { v25.16b }, v29.16b
	eor	v30.16b, v7.16b, v26.16b
	tbl	v26.16b, { v26.16b }, v29.16b
	tbl	v29.16b, { v21.16b }, v29.16b
	eor	v6.16b, v6.16b, v25.16b
	ext	v25.16b, v4.16b, v22.16b, #1
	eor	v19.16b, v19.16b, v23.16b
	eor	v21.16b, v5.16b, v21.16b
	eor	v7.16b, v17.16b, v24.16b
	eor	v18.16b, v18.16b, v27.16b
	eor	v17.16b, v16.16b, v28.16b
	movi	v23.2d, #0xff00ff00000000
	eor	v5.16b, v30.16b, v26.16b
	eor	v16.16b, v6.16b, v20.16b
	eor	v6.16b, v21.16b, v29.16b
	ldr	q29, [x8, l_aes_CPI48_4@PAGEOFF]
	eor	v20.16b, v25.16b, v4.16b
	ext	v21.16b, v19.16b, v22.16b, #1
	ext	v25.16b, v18.16b, v22.16b, #1
	ext	v28.16b, v17.16b, v22.16b, #1
	ext	v24.16b, v7.16b, v22.16b, #1
	ext	v26.16b, v16.16b, v22.16b, #1
	ext	v27.16b, v5.16b, v22.16b, #1
	ext	v22.16b, v6.16b, v22.16b, #1
	and	v20.16b, v20.16b, v23.16b
	eor	v21.16b, v21.16b, v19.16b
	eor	v25.16b, v25.16b, v18.16b
	eor	v28.16b, v28.16b, v17.16b
	eor	v24.16b, v24.16b, v7.16b
	eor	v26.16b, v26.16b, v16.16b
	eor	v27.16b, v27.16b, v5.16b
	eor	v22.16b, v22.16b, v6.16b
	eor	v4.16b, v4.16b, v20.16b
	and	v21.16b, v21.16b, v23.16b
	and	v25.16b, v25.16b, v23.16b
	and	v28.16b, v28.16b, v23.16b
	and	v24.16b, v24.16b, v23.16b
	and	v26.16b, v26.16b, v23.16b
	and	v27.16b, v27.16b, v23.16b
	and	v22.16b, v22.16b, v23.16b
	tbl	v23.16b, { v20.16b }, v29.16b
	eor	v19.16b, v19.16b, v21.16b
	tbl	v21.16b, { v21.16b }, v29.16b
	eor	v18.16b, v18.16b, v25.16b
	tbl	v25.16b, { v25.16b }, v29.16b
	eor	v17.16b, v17.16b, v28.16b
	tbl	v28.16b, { v28.16b }, v29.16b
	tbl	v20.16b, { v24.16b }, v29.16b
	eor	v16.16b, v16.16b, v26.16b
	tbl	v26.16b, { v26.16b }, v29.16b
	eor	v7.16b, v7.16b, v24.16b
	tbl	v24.16b, { v27.16b }, v29.16b
	tbl	v29.16b, { v22.16b }, v29.16b
	eor	v5.16b, v5.16b, v27.16b
	eor	v6.16b, v6.16b, v22.16b
	eor	v19.16b, v19.16b, v21.16b
	eor	v17.16b, v17.16b, v28.16b
	eor	v18.16b, v18.16b, v25.16b
	eor	v4.16b, v4.16b, v23.16b
	eor	v16.16b, v16.16b, v26.16b
	eor	v7.16b, v7.16b, v20.16b
	eor	v5.16b, v5.16b, v24.16b
	eor	v6.16b, v6.16b, v29.16b
	ext	v21.16b, v19.16b, v19.16b, #4
	ext	v22.16b, v18.16b, v18.16b, #4
	ext	v23.16b, v17.16b, v17.16b, #4
	ext	v20.16b, v4.16b, v4.16b, #4
	ext	v24.16b, v7.16b, v7.16b, #4
	ext	v25.16b, v16.16b, v16.16b, #4
	ext	v26.16b, v5.16b, v5.16b, #4
	ext	v27.16b, v6.16b, v6.16b, #4
	eor	v21.16b, v21.16b, v19.16b
	eor	v22.16b, v22.16b, v18.16b
	eor	v23.16b, v23.16b, v17.16b
	eor	v20.16b, v20.16b, v4.16b
	eor	v24.16b, v24.16b, v7.16b
	eor	v25.16b, v25.16b, v16.16b
	eor	v26.16b, v26.16b, v5.16b
	eor	v27.16b, v27.16b, v6.16b
	eor	v7.16b, v21.16b, v7.16b
	eor	v17.16b, v22.16b, v17.16b
	eor	v6.16b, v23.16b, v6.16b
	eor	v19.16b, v19.16b, v20.16b
	eor	v16.16b, v24.16b, v16.16b
	eor	v5.16b, v25.16b, v5.16b
	eor	v29.16b, v7.16b, v26.16b
	eor	v4.16b, v27.16b, v4.16b
	eor	v18.16b, v26.16b, v18.16b
	eor	v28.16b, v6.16b, v17.16b
	eor	v24.16b, v6.16b, v24.16b
	eor	v20.16b, v17.16b, v20.16b
	eor	v16.16b, v16.16b, v27.16b
	eor	v5.16b, v5.16b, v27.16b
	eor	v22.16b, v6.16b, v22.16b
	eor	v19.16b, v19.16b, v27.16b
	eor	v25.16b, v17.16b, v25.16b
	eor	v27.16b, v18.16b, v27.16b
	eor	v21.16b, v28.16b, v21.16b
	eor	v28.16b, v29.16b, v28.16b
	eor	v24.16b, v24.16b, v4.16b
	eor	v22.16b, v22.16b, v16.16b
	eor	v23.16b, v5.16b, v23.16b
	ext	v26.16b, v20.16b, v20.16b, #8
	eor	v4.16b, v4.16b, v20.16b
	eor	v25.16b, v25.16b, v19.16b
	eor	v6.16b, v6.16b, v27.16b
	ext	v20.16b, v28.16b, v28.16b, #8
	eor	v5.16b, v5.16b, v28.16b
	ext	v29.16b, v21.16b, v21.16b, #8
	eor	v19.16b, v19.16b, v21.16b
	ext	v21.16b, v24.16b, v24.16b, #8
	eor	v7.16b, v7.16b, v24.16b
	ext	v24.16b, v22.16b, v22.16b, #8
	eor	v18.16b, v18.16b, v22.16b
	ext	v22.16b, v23.16b, v23.16b, #8
	eor	v4.16b, v4.16b, v26.16b
	eor	v17.16b, v17.16b, v23.16b
	eor	v16.16b, v16.16b, v25.16b
	eor	v5.16b, v5.16b, v20.16b
	ext	v20.16b, v25.16b, v25.16b, #8
	eor	v19.16b, v19.16b, v29.16b
	eor	v7.16b, v7.16b, v21.16b
	ext	v21.16b, v27.16b, v27.16b, #8
	eor	v18.16b, v18.16b, v24.16b
	eor	v17.16b, v17.16b, v22.16b
	ushr	v22.16b, v4.16b, #1
	ushr	v23.16b, v5.16b, #1
	eor	v16.16b, v16.16b, v20.16b
	ushr	v20.16b, v7.16b, #1
	eor	v6.16b, v6.16b, v21.16b
	eor	v21.16b, v19.16b, v22.16b
	eor	v22.16b, v23.16b, v18.16b
	ushr	v23.16b, v17.16b, #1
	eor	v20.16b, v20.16b, v16.16b
	and	v21.16b, v21.16b, v2.16b
	and	v22.16b, v22.16b, v2.16b
	eor	v23.16b, v23.16b, v6.16b
	and	v20.16b, v20.16b, v2.16b
	add	v24.16b, v21.16b, v21.16b
	eor	v19.16b, v21.16b, v19.16b
	add	v25.16b, v22.16b, v22.16b
	and	v2.16b, v23.16b, v2.16b
	eor	v18.16b, v22.16b, v18.16b
	add	v23.16b, v20.16b, v20.16b
	eor	v16.16b, v20.16b, v16.16b
	eor	v4.16b, v24.16b, v4.16b
	eor	v5.16b, v25.16b, v5.16b
	add	v24.16b, v2.16b, v2.16b
	eor	v2.16b, v2.16b, v6.16b
	eor	v7.16b, v23.16b, v7.16b
	ushr	v6.16b, v19.16b, #2
	ushr	v22.16b, v18.16b, #2
	ushr	v20.16b, v4.16b, #2
	eor	v17.16b, v24.16b, v17.16b
	ushr	v21.16b, v5.16b, #2
	eor	v6.16b, v16.16b, v6.16b
	eor	v22.16b, v22.16b, v2.16b
	eor	v20.16b, v7.16b, v20.16b
	eor	v21.16b, v21.16b, v17.16b
	and	v6.16b, v6.16b, v3.16b
	and	v20.16b, v20.16b, v3.16b
	and	v21.16b, v21.16b, v3.16b
	and	v3.16b, v22.16b, v3.16b
	shl	v24.16b, v6.16b, #2
	eor	v6.16b, v6.16b, v16.16b
	shl	v22.16b, v20.16b, #2
	eor	v7.16b, v20.16b, v7.16b
	shl	v23.16b, v21.16b, #2
	shl	v25.16b, v3.16b, #2
	eor	v17.16b, v21.16b, v17.16b
	eor	v19.16b, v24.16b, v19.16b
	eor	v2.16b, v3.16b, v2.16b
	eor	v4.16b, v22.16b, v4.16b
	ushr	v22.16b, v7.16b, #4
	eor	v5.16b, v23.16b, v5.16b
	eor	v18.16b, v25.16b, v18.16b
	and	v23.16b, v17.16b, v1.16b
	ushr	v3.16b, v19.16b, #4
	ushr	v16.16b, v4.16b, #4
	and	v20.16b, v5.16b, v1.16b
	and	v21.16b, v18.16b, v1.16b
	and	v1.16b, v2.16b, v1.16b
	eor	v16.16b, v20.16b, v16.16b
	ushr	v20.16b, v6.16b, #4
	eor	v3.16b, v21.16b, v3.16b
	eor	v21.16b, v23.16b, v22.16b
	eor	v1.16b, v1.16b, v20.16b
	shl	v20.16b, v16.16b, #4
	eor	v18.16b, v3.16b, v18.16b
	shl	v3.16b, v3.16b, #4
	eor	v5.16b, v16.16b, v5.16b
	shl	v16.16b, v21.16b, #4
	eor	v17.16b, v21.16b, v17.16b
	eor	v4.16b, v20.16b, v4.16b
	shl	v20.16b, v1.16b, #4
	eor	v1.16b, v1.16b, v2.16b
	eor	v3.16b, v3.16b, v19.16b
	eor	v7.16b, v16.16b, v7.16b
	tbl	v2.16b, { v5.16b }, v0.16b
	tbl	v18.16b, { v18.16b }, v0.16b
	tbl	v17.16b, { v17.16b }, v0.16b
	eor	v5.16b, v20.16b, v6.16b
	tbl	v4.16b, { v4.16b }, v0.16b
	tbl	v1.16b, { v1.16b }, v0.16b
	tbl	v3.16b, { v3.16b }, v0.16b
	tbl	v6.16b, { v7.16b }, v0.16b
	stp	q18, q17, [x0, #80]
	tbl	v0.16b, { v5.16b }, v0.16b
	str	q1, [x0, #112]
	stp	q4, q3, [x0]
	str	q6, [x0, #32]
	stp	q0, q2, [x0, #48]
	ldr	q1, [x1]
	eor	v1.16b, v1.16b, v4.16b
	str	q1, [x0]
	ldr	q1, [x1, #16]
	eor	v1.16b, v1.16b, v3.16b
	str	q1, [x0, #16]
	ldr	q1, [x1, #32]
	eor	v1.16b, v1.16b, v6.16b
	str	q1, [x0, #32]
	ldr	q1, [x1, #48]
	eor	v0.16b, v1.16b, v0.16b
	str	q0, [x0, #48]
	ldr	q0, [x1, #64]
	eor	v0.16b, v0.16b, v2.16b
	ldp	q1, q2, [x0, #80]
	str	q0, [x0, #64]
	ldr	q0, [x1, #80]
	eor	v0.16b, v0.16b, v1.16b
	str	q0, [x0, #80]
	ldr	q0, [x1, #96]
	eor	v0.16b, v0.16b, v2.16b
	str	q0, [x0, #96]
	ldr	q0, [x0, #112]
	ldr	q1, [x1, #112]
	eor	v0.16b, v1.16b, v0.16b
	str	q0, [x0, #112]
	ldp	d15, d14, [sp], #64             // 16-byte Folded Reload
	ret
                                        // -- End function
	.section	__TEXT,__text,regular,pure_instructions
	.p2align	2                               // -- Begin function cmac::pieces::Message::is_tag_so_far::<#ef80964e0b8d42c0>
_aes.cmac.pieces.Message.is_tag_so_far: // @_aes.cmac.pieces.Message.is_tag_so_far
// %bb.0:                               // %start
	sub	sp, sp, #64
	ldr	x10, [x0, #8]
	mov	x8, x0
	mov	w9, #16                         // =0x10
	stp	x20, x19, [sp, #48]             // 16-byte Folded Spill
	mov	x19, x4
	mov	x20, x3
	cmp	x10, #16
	mov	x0, sp
	add	x3, x8, #16
	csel	x5, x10, x9, lo
	add	x4, x8, #32
	stp	x29, x30, [sp, #32]             // 16-byte Folded Spill
	add	x29, sp, #32
	stp	xzr, xzr, [sp]
	bl	_aes.cmac.tags.tag_at_end
	ldr	q0, [sp]
	add	x0, sp, #16
	mov	x1, x20
	mov	x2, x19
	str	q0, [sp, #16]
	adrp	x16, _memcpy@GOTPAGE
	ldr	x16, [x16, _memcpy@GOTPAGEOFF]
	blr	x16
	add	x0, sp, #16
	mov	x1, sp
	bl	_aes.aes_cipher.blocks.difference
	ldp	x20, x19, [sp, #48]             // 16-byte Folded Reload
	cmp	w0, #0
	ldp	x29, x30, [sp, #32]             // 16-byte Folded Reload
	cset	w0, eq
	add	sp, sp, #64
	ret
                                        // -- End function
	.section	__TEXT,__text,regular,pure_instructions
	.p2align	2                               // -- Begin function cmac::tags::is_tag_start::<#ef80964e0b8d42c0>
_aes.cmac.tags.is_tag_start: // @_aes.cmac.tags.is_tag_start
// %bb.0:                               // %start
	sub	sp, sp, #64
	stp	x20, x19, [sp, #48]             // 16-byte Folded Spill
	mov	x20, x3
	mov	x3, x2
	mov	x2, x1
	mov	x1, x0
	mov	x0, sp
	stp	x29, x30, [sp, #32]             // 16-byte Folded Spill
	add	x29, sp, #32
	mov	x19, x4
	bl	_aes.cmac.tags.tag
	ldr	q0, [sp]
	add	x0, sp, #16
	mov	x1, x20
	mov	x2, x19
	str	q0, [sp, #16]
	adrp	x16, _memcpy@GOTPAGE
	ldr	x16, [x16, _memcpy@GOTPAGEOFF]
	blr	x16
	add	x0, sp, #16
	mov	x1, sp
	bl	_aes.aes_cipher.blocks.difference
	ldp	x20, x19, [sp, #48]             // 16-byte Folded Reload
	cmp	w0, #0
	ldp	x29, x30, [sp, #32]             // 16-byte Folded Reload
	cset	w0, eq
	add	sp, sp, #64
	ret
                                        // -- End function
	.section	__TEXT,__const
	.p2align	4, 0x0                          // -- Begin function aes_c::single_rounds::mixed
l_aes_CPI51_0:
	.byte	0                               // 0x0
	.byte	4                               // 0x4
	.byte	8                               // 0x8
	.byte	12                              // 0xc
	.byte	1                               // 0x1
	.byte	5                               // 0x5
	.byte	9                               // 0x9
	.byte	13                              // 0xd
	.byte	2                               // 0x2
	.byte	6                               // 0x6
	.byte	10                              // 0xa
	.byte	14                              // 0xe
	.byte	3                               // 0x3
	.byte	7                               // 0x7
	.byte	11                              // 0xb
	.byte	15                              // 0xf
	.section	__TEXT,__text,regular,pure_instructions
	.p2align	2
_aes.aes_c.single_rounds.mixed:          // @_aes.aes_c.single_rounds.mixed
// %bb.0:                               // %start
	adrp	x8, l_aes_CPI51_0@PAGE
	ldr	q1, [x0]
	movi	v2.16b, #1
	ldr	q0, [x8, l_aes_CPI51_0@PAGEOFF]
	movi	v5.16b, #4
	movi	v6.16b, #16
	movi	v16.16b, #8
	movi	v20.16b, #64
	tbl	v3.16b, { v1.16b }, v0.16b
	movi	v1.16b, #2
	cmtst	v4.16b, v3.16b, v1.16b
	and	v1.16b, v3.16b, v2.16b
	cmlt	v17.16b, v3.16b, #0
	cmtst	v5.16b, v3.16b, v5.16b
	cmtst	v6.16b, v3.16b, v6.16b
	cmtst	v16.16b, v3.16b, v16.16b
	neg	v7.16b, v1.16b
	movi	v1.16b, #32
	ext	v2.16b, v4.16b, v4.16b, #4
	ext	v21.16b, v5.16b, v5.16b, #4
	ext	v23.16b, v6.16b, v6.16b, #4
	ext	v18.16b, v7.16b, v7.16b, #4
	cmtst	v19.16b, v3.16b, v1.16b
	ext	v1.16b, v17.16b, v17.16b, #4
	cmtst	v3.16b, v3.16b, v20.16b
	eor	v4.16b, v2.16b, v4.16b
	ext	v20.16b, v16.16b, v16.16b, #4
	eor	v5.16b, v21.16b, v5.16b
	eor	v6.16b, v23.16b, v6.16b
	eor	v7.16b, v18.16b, v7.16b
	ext	v22.16b, v4.16b, v4.16b, #8
	eor	v17.16b, v1.16b, v17.16b
	ext	v24.16b, v19.16b, v19.16b, #4
	eor	v16.16b, v20.16b, v16.16b
	ext	v26.16b, v3.16b, v3.16b, #4
	eor	v4.16b, v21.16b, v4.16b
	ext	v25.16b, v7.16b, v7.16b, #8
	eor	v18.16b, v18.16b, v17.16b
	eor	v23.16b, v17.16b, v23.16b
	eor	v20.16b, v17.16b, v20.16b
	eor	v22.16b, v22.16b, v17.16b
	eor	v19.16b, v24.16b, v19.16b
	ext	v28.16b, v16.16b, v16.16b, #8
	eor	v3.16b, v26.16b, v3.16b
	ext	v17.16b, v17.16b, v17.16b, #8
	eor	v18.16b, v18.16b, v25.16b
	ext	v25.16b, v6.16b, v6.16b, #8
	eor	v16.16b, v23.16b, v16.16b
	eor	v7.16b, v22.16b, v7.16b
	ext	v22.16b, v5.16b, v5.16b, #8
	ext	v27.16b, v19.16b, v19.16b, #8
	eor	v5.16b, v20.16b, v5.16b
	ext	v20.16b, v3.16b, v3.16b, #8
	eor	v19.16b, v26.16b, v19.16b
	ushr	v21.16b, v18.16b, #1
	eor	v1.16b, v1.16b, v3.16b
	eor	v2.16b, v7.16b, v2.16b
	eor	v7.16b, v16.16b, v25.16b
	eor	v16.16b, v27.16b, v24.16b
	eor	v4.16b, v4.16b, v22.16b
	eor	v5.16b, v5.16b, v28.16b
	eor	v3.16b, v19.16b, v20.16b
	eor	v1.16b, v17.16b, v1.16b
	eor	v2.16b, v2.16b, v21.16b
	movi	v21.16b, #170
	ushr	v22.16b, v7.16b, #1
	eor	v6.16b, v16.16b, v6.16b
	eor	v5.16b, v5.16b, v4.16b
	movi	v16.16b, #34
	eor	v1.16b, v1.16b, v3.16b
	add	v2.16b, v2.16b, v2.16b
	eor	v6.16b, v6.16b, v22.16b
	add	v5.16b, v5.16b, v5.16b
	add	v1.16b, v1.16b, v1.16b
	and	v2.16b, v2.16b, v21.16b
	add	v6.16b, v6.16b, v6.16b
	and	v5.16b, v5.16b, v16.16b
	and	v1.16b, v1.16b, v16.16b
	eor	v2.16b, v2.16b, v18.16b
	and	v6.16b, v6.16b, v21.16b
	eor	v4.16b, v5.16b, v4.16b
	eor	v1.16b, v1.16b, v3.16b
	ushr	v17.16b, v2.16b, #2
	eor	v5.16b, v6.16b, v7.16b
	movi	v6.16b, #204
	eor	v4.16b, v4.16b, v17.16b
	ushr	v7.16b, v5.16b, #2
	shl	v4.16b, v4.16b, #2
	eor	v1.16b, v1.16b, v7.16b
	and	v3.16b, v4.16b, v6.16b
	shl	v1.16b, v1.16b, #2
	eor	v2.16b, v3.16b, v2.16b
	eor	v1.16b, v1.16b, v5.16b
	ushr	v3.16b, v2.16b, #4
	eor	v1.16b, v1.16b, v3.16b
	shl	v1.16b, v1.16b, #4
	eor	v1.16b, v1.16b, v2.16b
	tbl	v0.16b, { v1.16b }, v0.16b
	str	q0, [x0]
	ret
                                        // -- End function
	.section	__TEXT,__const
	.p2align	4, 0x0                          // -- Begin function aes_c::single_rounds::round
l_aes_CPI52_0:
	.byte	0                               // 0x0
	.byte	4                               // 0x4
	.byte	8                               // 0x8
	.byte	12                              // 0xc
	.byte	1                               // 0x1
	.byte	5                               // 0x5
	.byte	9                               // 0x9
	.byte	13                              // 0xd
	.byte	2                               // 0x2
	.byte	6                               // 0x6
	.byte	10                              // 0xa
	.byte	14                              // 0xe
	.byte	3                               // 0x3
	.byte	7                               // 0x7
	.byte	11                              // 0xb
	.byte	15                              // 0xf
l_aes_CPI52_1:
	.byte	2                               // 0x2
	.byte	3                               // 0x3
	.byte	4                               // 0x4
	.byte	5                               // 0x5
	.byte	6                               // 0x6
	.byte	7                               // 0x7
	.byte	8                               // 0x8
	.byte	9                               // 0x9
	.byte	10                              // 0xa
	.byte	11                              // 0xb
	.byte	12                              // 0xc
	.byte	13                              // 0xd
	.byte	14                              // 0xe
	.byte	15                              // 0xf
	.byte	255                             // 0xff
	.byte	255                             // 0xff
l_aes_CPI52_2:
	.byte	0                               // 0x0
	.byte	0                               // 0x0
	.byte	0                               // 0x0
	.byte	0                               // 0x0
	.byte	255                             // 0xff
	.byte	0                               // 0x0
	.byte	0                               // 0x0
	.byte	0                               // 0x0
	.byte	255                             // 0xff
	.byte	255                             // 0xff
	.byte	0                               // 0x0
	.byte	0                               // 0x0
	.byte	0                               // 0x0
	.byte	255                             // 0xff
	.byte	0                               // 0x0
	.byte	0                               // 0x0
l_aes_CPI52_3:
	.byte	255                             // 0xff
	.byte	255                             // 0xff
	.byte	0                               // 0x0
	.byte	1                               // 0x1
	.byte	2                               // 0x2
	.byte	3                               // 0x3
	.byte	4                               // 0x4
	.byte	5                               // 0x5
	.byte	6                               // 0x6
	.byte	7                               // 0x7
	.byte	8                               // 0x8
	.byte	9                               // 0x9
	.byte	10                              // 0xa
	.byte	11                              // 0xb
	.byte	12                              // 0xc
	.byte	13                              // 0xd
l_aes_CPI52_4:
	.byte	255                             // 0xff
	.byte	0                               // 0x0
	.byte	1                               // 0x1
	.byte	2                               // 0x2
	.byte	3                               // 0x3
	.byte	4                               // 0x4
	.byte	5                               // 0x5
	.byte	6                               // 0x6
	.byte	7                               // 0x7
	.byte	8                               // 0x8
	.byte	9                               // 0x9
	.byte	10                              // 0xa
	.byte	11                              // 0xb
	.byte	12                              // 0xc
	.byte	13                              // 0xd
	.byte	14                              // 0xe
	.section	__TEXT,__text,regular,pure_instructions
	.p2align	2
_aes.aes_c.single_rounds.round:          // @_aes.aes_c.single_rounds.round
// %bb.0:                               // %start
	stp	d13, d12, [sp, #-48]!           // 16-byte Folded Spill
	adrp	x8, l_aes_CPI52_0@PAGE
	ldr	q1, [x0]
	movi	v2.16b, #2
	ldr	q0, [x8, l_aes_CPI52_0@PAGEOFF]
	movi	v3.16b, #4
	movi	v4.16b, #16
	movi	v6.16b, #32
	movi	v16.16b, #1
	stp	d11, d10, [sp, #16]             // 16-byte Folded Spill
	tbl	v5.16b, { v1.16b }, v0.16b
	movi	v1.16b, #8
	stp	d9, d8, [sp, #32]               // 16-byte Folded Spill
	adrp	x8, l_aes_CPI52_1@PAGE
	cmtst	v7.16b, v5.16b, v2.16b
	cmtst	v19.16b, v5.16b, v3.16b
	cmtst	v20.16b, v5.16b, v4.16b
	cmlt	v27.16b, v5.16b, #0
	movi	v4.16b, #64
	and	v1.16b, v5.16b, v1.16b
	and	v6.16b, v5.16b, v6.16b
	eor	v2.16b, v27.16b, v7.16b
	eor	v3.16b, v20.16b, v19.16b
	cmeq	v17.16b, v1.16b, #0
	cmtst	v4.16b, v5.16b, v4.16b
	cmeq	v6.16b, v6.16b, #0
	and	v5.16b, v5.16b, v16.16b
	eor	v1.16b, v2.16b, v3.16b
	neg	v24.16b, v5.16b
	eor	v6.16b, v6.16b, v4.16b
	eor	v16.16b, v17.16b, v1.16b
	mvn	v6.16b, v6.16b
	mvn	v5.16b, v16.16b
	eor	v16.16b, v27.16b, v20.16b
	eor	v18.16b, v6.16b, v24.16b
	eor	v28.16b, v5.16b, v4.16b
	eor	v23.16b, v5.16b, v19.16b
	eor	v4.16b, v27.16b, v19.16b
	eor	v17.16b, v18.16b, v7.16b
	eor	v7.16b, v18.16b, v27.16b
	eor	v5.16b, v28.16b, v16.16b
	eor	v21.16b, v23.16b, v6.16b
	eor	v19.16b, v23.16b, v24.16b
	and	v30.16b, v23.16b, v1.16b
	and	v29.16b, v17.16b, v18.16b
	eor	v25.16b, v5.16b, v6.16b
	eor	v6.16b, v18.16b, v20.16b
	eor	v20.16b, v17.16b, v4.16b
	eor	v22.16b, v5.16b, v21.16b
	eor	v26.16b, v5.16b, v24.16b
	and	v9.16b, v5.16b, v16.16b
	eor	v28.16b, v28.16b, v30.16b
	and	v13.16b, v21.16b, v4.16b
	eor	v30.16b, v21.16b, v30.16b
	and	v31.16b, v25.16b, v2.16b
	eor	v29.16b, v25.16b, v29.16b
	and	v8.16b, v6.16b, v24.16b
	and	v10.16b, v19.16b, v20.16b
	and	v11.16b, v22.16b, v3.16b
	and	v12.16b, v26.16b, v7.16b
	eor	v29.16b, v29.16b, v31.16b
	eor	v8.16b, v8.16b, v4.16b
	eor	v27.16b, v31.16b, v27.16b
	eor	v28.16b, v28.16b, v10.16b
	eor	v10.16b, v11.16b, v9.16b
	eor	v11.16b, v25.16b, v12.16b
	eor	v31.16b, v13.16b, v9.16b
	eor	v29.16b, v29.16b, v2.16b
	eor	v30.16b, v8.16b, v30.16b
	eor	v28.16b, v28.16b, v10.16b
	eor	v27.16b, v11.16b, v27.16b
	eor	v29.16b, v29.16b, v10.16b
	eor	v30.16b, v30.16b, v31.16b
	eor	v31.16b, v27.16b, v31.16b
	and	v27.16b, v29.16b, v28.16b
	eor	v8.16b, v31.16b, v29.16b
	eor	v9.16b, v27.16b, v30.16b
	and	v8.16b, v9.16b, v8.16b
	eor	v9.16b, v28.16b, v30.16b
	eor	v28.16b, v27.16b, v31.16b
	eor	v27.16b, v8.16b, v27.16b
	and	v10.16b, v28.16b, v9.16b
	and	v11.16b, v27.16b, v31.16b
	eor	v27.16b, v10.16b, v30.16b
	eor	v30.16b, v11.16b, v28.16b
	eor	v28.16b, v8.16b, v31.16b
	eor	v29.16b, v11.16b, v29.16b
	and	v26.16b, v27.16b, v26.16b
	and	v7.16b, v27.16b, v7.16b
	and	v30.16b, v30.16b, v27.16b
	eor	v31.16b, v29.16b, v28.16b
	and	v24.16b, v28.16b, v24.16b
	and	v23.16b, v29.16b, v23.16b
	eor	v8.16b, v27.16b, v28.16b
	and	v1.16b, v29.16b, v1.16b
	and	v6.16b, v28.16b, v6.16b
	eor	v30.16b, v30.16b, v9.16b
	and	v20.16b, v31.16b, v20.16b
	and	v19.16b, v31.16b, v19.16b
	eor	v24.16b, v23.16b, v24.16b
	and	v16.16b, v8.16b, v16.16b
	and	v5.16b, v8.16b, v5.16b
	eor	v9.16b, v30.16b, v31.16b
	eor	v10.16b, v30.16b, v27.16b
	and	v18.16b, v30.16b, v18.16b
	eor	v26.16b, v24.16b, v26.16b
	and	v17.16b, v30.16b, v17.16b
	eor	v19.16b, v19.16b, v23.16b
	and	v25.16b, v10.16b, v25.16b
	eor	v11.16b, v9.16b, v8.16b
	and	v21.16b, v9.16b, v21.16b
	and	v30.16b, v10.16b, v2.16b
	and	v4.16b, v9.16b, v4.16b
	ldp	d9, d8, [sp, #32]               // 16-byte Folded Reload
	and	v3.16b, v11.16b, v3.16b
	eor	v18.16b, v25.16b, v18.16b
	and	v22.16b, v11.16b, v22.16b
	eor	v2.16b, v26.16b, v25.16b
	eor	v21.16b, v21.16b, v24.16b
	eor	v4.16b, v16.16b, v4.16b
	ldp	d11, d10, [sp, #16]             // 16-byte Folded Reload
	eor	v3.16b, v3.16b, v16.16b
	eor	v22.16b, v18.16b, v22.16b
	eor	v16.16b, v19.16b, v18.16b
	eor	v17.16b, v2.16b, v17.16b
	eor	v21.16b, v21.16b, v30.16b
	ldr	q19, [x8, l_aes_CPI52_1@PAGEOFF]
	adrp	x8, l_aes_CPI52_2@PAGE
	eor	v5.16b, v22.16b, v5.16b
	eor	v17.16b, v17.16b, v3.16b
	eor	v21.16b, v21.16b, v22.16b
	eor	v3.16b, v3.16b, v20.16b
	eor	v20.16b, v17.16b, v30.16b
	eor	v17.16b, v17.16b, v21.16b
	eor	v1.16b, v3.16b, v1.16b
	eor	v18.16b, v21.16b, v7.16b
	eor	v6.16b, v3.16b, v6.16b
	mvn	v7.16b, v20.16b
	mvn	v17.16b, v17.16b
	eor	v3.16b, v1.16b, v5.16b
	eor	v20.16b, v4.16b, v5.16b
	eor	v1.16b, v16.16b, v1.16b
	eor	v4.16b, v6.16b, v18.16b
	ldr	q6, [x8, l_aes_CPI52_2@PAGEOFF]
	adrp	x8, l_aes_CPI52_3@PAGE
	tbl	v16.16b, { v7.16b }, v19.16b
	tbl	v21.16b, { v17.16b }, v19.16b
	tbl	v22.16b, { v3.16b }, v19.16b
	eor	v18.16b, v20.16b, v18.16b
	eor	v20.16b, v1.16b, v2.16b
	tbl	v23.16b, { v4.16b }, v19.16b
	eor	v2.16b, v5.16b, v1.16b
	tbl	v24.16b, { v1.16b }, v19.16b
	eor	v16.16b, v16.16b, v7.16b
	eor	v21.16b, v21.16b, v17.16b
	eor	v22.16b, v22.16b, v3.16b
	mvn	v5.16b, v18.16b
	tbl	v18.16b, { v20.16b }, v19.16b
	eor	v23.16b, v23.16b, v4.16b
	mvn	v2.16b, v2.16b
	eor	v24.16b, v24.16b, v1.16b
	and	v25.16b, v16.16b, v6.16b
	and	v21.16b, v21.16b, v6.16b
	ldr	q16, [x8, l_aes_CPI52_3@PAGEOFF]
	and	v22.16b, v22.16b, v6.16b
	tbl	v26.16b, { v5.16b }, v19.16b
	and	v23.16b, v23.16b, v6.16b
	eor	v18.16b, v18.16b, v20.16b
	tbl	v19.16b, { v2.16b }, v19.16b
	and	v24.16b, v24.16b, v6.16b
	tbl	v27.16b, { v25.16b }, v16.16b
	tbl	v28.16b, { v21.16b }, v16.16b
	eor	v17.16b, v17.16b, v21.16b
	tbl	v29.16b, { v22.16b }, v16.16b
	eor	v7.16b, v7.16b, v25.16b
	eor	v22.16b, v3.16b, v22.16b
	eor	v21.16b, v26.16b, v5.16b
	tbl	v25.16b, { v23.16b }, v16.16b
	movi	v3.2d, #0000000000000000
	and	v26.16b, v18.16b, v6.16b
	eor	v4.16b, v4.16b, v23.16b
	eor	v19.16b, v19.16b, v2.16b
	eor	v18.16b, v28.16b, v17.16b
	eor	v17.16b, v27.16b, v7.16b
	tbl	v23.16b, { v24.16b }, v16.16b
	eor	v7.16b, v22.16b, v29.16b
	and	v21.16b, v21.16b, v6.16b
	eor	v1.16b, v1.16b, v24.16b
	tbl	v22.16b, { v26.16b }, v16.16b
	eor	v4.16b, v4.16b, v25.16b
	eor	v20.16b, v20.16b, v26.16b
	ext	v25.16b, v17.16b, v3.16b, #1
	ext	v26.16b, v18.16b, v3.16b, #1
	and	v19.16b, v19.16b, v6.16b
	ext	v24.16b, v7.16b, v3.16b, #1
	tbl	v27.16b, { v21.16b }, v16.16b
	movi	v6.2d, #0xff00ff00000000
	ext	v28.16b, v4.16b, v3.16b, #1
	eor	v5.16b, v5.16b, v21.16b
	eor	v21.16b, v1.16b, v23.16b
	eor	v20.16b, v20.16b, v22.16b
	tbl	v16.16b, { v19.16b }, v16.16b
	eor	v2.16b, v2.16b, v19.16b
	eor	v1.16b, v25.16b, v17.16b
	eor	v22.16b, v26.16b, v18.16b
	adrp	x8, l_aes_CPI52_4@PAGE
	eor	v19.16b, v24.16b, v7.16b
	eor	v5.16b, v27.16b, v5.16b
	ldr	q25, [x8, l_aes_CPI52_4@PAGEOFF]
	ext	v23.16b, v20.16b, v3.16b, #1
	eor	v24.16b, v28.16b, v4.16b
	ext	v26.16b, v21.16b, v3.16b, #1
	and	v1.16b, v1.16b, v6.16b
	and	v22.16b, v22.16b, v6.16b
	eor	v2.16b, v16.16b, v2.16b
	and	v19.16b, v19.16b, v6.16b
	ext	v16.16b, v5.16b, v3.16b, #1
	and	v24.16b, v24.16b, v6.16b
	eor	v23.16b, v23.16b, v20.16b
	tbl	v27.16b, { v1.16b }, v25.16b
	tbl	v28.16b, { v22.16b }, v25.16b
	tbl	v29.16b, { v19.16b }, v25.16b
	eor	v18.16b, v18.16b, v22.16b
	eor	v1.16b, v17.16b, v1.16b
	ext	v3.16b, v2.16b, v3.16b, #1
	eor	v7.16b, v7.16b, v19.16b
	eor	v17.16b, v26.16b, v21.16b
	eor	v16.16b, v16.16b, v5.16b
	and	v19.16b, v23.16b, v6.16b
	tbl	v22.16b, { v24.16b }, v25.16b
	eor	v18.16b, v18.16b, v28.16b
	eor	v23.16b, v1.16b, v27.16b
	eor	v1.16b, v4.16b, v24.16b
	eor	v4.16b, v7.16b, v29.16b
	and	v17.16b, v17.16b, v6.16b
	and	v7.16b, v16.16b, v6.16b
	eor	v3.16b, v3.16b, v2.16b
	tbl	v16.16b, { v19.16b }, v25.16b
	eor	v19.16b, v20.16b, v19.16b
	ext	v20.16b, v23.16b, v23.16b, #4
	ext	v24.16b, v18.16b, v18.16b, #4
	eor	v22.16b, v1.16b, v22.16b
	ext	v1.16b, v4.16b, v4.16b, #4
	tbl	v26.16b, { v17.16b }, v25.16b
	eor	v17.16b, v21.16b, v17.16b
	tbl	v21.16b, { v7.16b }, v25.16b
	and	v3.16b, v3.16b, v6.16b
	eor	v5.16b, v5.16b, v7.16b
	eor	v6.16b, v19.16b, v16.16b
	ext	v7.16b, v22.16b, v22.16b, #4
	eor	v16.16b, v20.16b, v23.16b
	eor	v18.16b, v24.16b, v18.16b
	tbl	v19.16b, { v3.16b }, v25.16b
	eor	v4.16b, v1.16b, v4.16b
	eor	v17.16b, v17.16b, v26.16b
	eor	v2.16b, v2.16b, v3.16b
	eor	v3.16b, v5.16b, v21.16b
	ext	v5.16b, v6.16b, v6.16b, #4
	ext	v21.16b, v16.16b, v16.16b, #8
	ext	v23.16b, v18.16b, v18.16b, #8
	eor	v22.16b, v7.16b, v22.16b
	eor	v20.16b, v20.16b, v4.16b
	ext	v25.16b, v17.16b, v17.16b, #4
	eor	v19.16b, v2.16b, v19.16b
	ext	v26.16b, v3.16b, v3.16b, #4
	eor	v7.16b, v7.16b, v18.16b
	eor	v6.16b, v5.16b, v6.16b
	ext	v27.16b, v22.16b, v22.16b, #8
	eor	v2.16b, v21.16b, v20.16b
	eor	v20.16b, v23.16b, v24.16b
	ext	v21.16b, v19.16b, v19.16b, #4
	eor	v17.16b, v25.16b, v17.16b
	eor	v18.16b, v25.16b, v4.16b
	eor	v3.16b, v26.16b, v3.16b
	ext	v23.16b, v6.16b, v6.16b, #8
	eor	v5.16b, v22.16b, v5.16b
	ushr	v24.16b, v2.16b, #1
	eor	v16.16b, v20.16b, v16.16b
	eor	v7.16b, v7.16b, v27.16b
	ext	v20.16b, v17.16b, v17.16b, #8
	eor	v6.16b, v18.16b, v6.16b
	eor	v19.16b, v21.16b, v19.16b
	ext	v25.16b, v3.16b, v3.16b, #8
	eor	v3.16b, v21.16b, v3.16b
	eor	v16.16b, v16.16b, v24.16b
	eor	v23.16b, v23.16b, v4.16b
	ext	v24.16b, v4.16b, v4.16b, #8
	ushr	v18.16b, v7.16b, #1
	ext	v27.16b, v19.16b, v19.16b, #8
	eor	v6.16b, v6.16b, v20.16b
	eor	v20.16b, v25.16b, v26.16b
	eor	v4.16b, v16.16b, v4.16b
	eor	v16.16b, v23.16b, v18.16b
	movi	v18.16b, #170
	eor	v1.16b, v24.16b, v1.16b
	ushr	v21.16b, v6.16b, #1
	eor	v17.16b, v20.16b, v17.16b
	add	v4.16b, v4.16b, v4.16b
	eor	v3.16b, v3.16b, v27.16b
	eor	v5.16b, v16.16b, v5.16b
	movi	v16.16b, #34
	eor	v1.16b, v1.16b, v19.16b
	eor	v17.16b, v17.16b, v21.16b
	and	v4.16b, v4.16b, v18.16b
	ushr	v20.16b, v3.16b, #1
	add	v5.16b, v5.16b, v5.16b
	add	v17.16b, v17.16b, v17.16b
	eor	v2.16b, v4.16b, v2.16b
	eor	v1.16b, v1.16b, v20.16b
	and	v4.16b, v5.16b, v16.16b
	and	v5.16b, v17.16b, v18.16b
	add	v1.16b, v1.16b, v1.16b
	ushr	v17.16b, v2.16b, #2
	eor	v4.16b, v4.16b, v7.16b
	eor	v5.16b, v5.16b, v6.16b
	and	v1.16b, v1.16b, v16.16b
	movi	v6.16b, #204
	eor	v4.16b, v4.16b, v17.16b
	ushr	v7.16b, v5.16b, #2
	eor	v1.16b, v1.16b, v3.16b
	shl	v4.16b, v4.16b, #2
	eor	v1.16b, v1.16b, v7.16b
	and	v3.16b, v4.16b, v6.16b
	shl	v1.16b, v1.16b, #2
	eor	v2.16b, v3.16b, v2.16b
	eor	v1.16b, v1.16b, v5.16b
	ushr	v3.16b, v2.16b, #4
	eor	v1.16b, v1.16b, v3.16b
	shl	v1.16b, v1.16b, #4
	eor	v1.16b, v1.16b, v2.16b
	tbl	v0.16b, { v1.16b }, v0.16b
	ldr	q1, [x1]
	eor	v0.16b, v0.16b, v1.16b
	str	q0, [x0]
	ldp	d13, d12, [sp], #48             // 16-byte Folded Reload
	ret
                                        // -- End function
	.section	__TEXT,__const
	.p2align	4, 0x0                          // -- Begin function aes_c::single_rounds::rounds
l_aes_CPI53_0:
	.byte	0                               // 0x0
	.byte	4                               // 0x4
	.byte	8                               // 0x8
	.byte	12                              // 0xc
	.byte	1                               // 0x1
	.byte	5                               // 0x5
	.byte	9                               // 0x9
	.byte	13                              // 0xd
	.byte	2                               // 0x2
	.byte	6                               // 0x6
	.byte	10                              // 0xa
	.byte	14                              // 0xe
	.byte	3                               // 0x3
	.byte	7                               // 0x7
	.byte	11                              // 0xb
	.byte	15                              // 0xf
l_aes_CPI53_1:
	.byte	2                               // 0x2
	.byte	3                               // 0x3
	.byte	4                               // 0x4
	.byte	5                               // 0x5
	.byte	6                               // 0x6
	.byte	7                               // 0x7
	.byte	8                               // 0x8
	.byte	9                               // 0x9
	.byte	10                              // 0xa
	.byte	11                              // 0xb
	.byte	12                              // 0xc
	.byte	13                              // 0xd
	.byte	14                              // 0xe
	.byte	15                              // 0xf
	.byte	255                             // 0xff
	.byte	255                             // 0xff
l_aes_CPI53_2:
	.byte	0                               // 0x0
	.byte	0                               // 0x0
	.byte	0                               // 0x0
	.byte	0                               // 0x0
	.byte	255                             // 0xff
	.byte	0                               // 0x0
	.byte	0                               // 0x0
	.byte	0                               // 0x0
	.byte	255                             // 0xff
	.byte	255                             // 0xff
	.byte	0                               // 0x0
	.byte	0                               // 0x0
	.byte	0                               // 0x0
	.byte	255                             // 0xff
	.byte	0                               // 0x0
	.byte	0                               // 0x0
l_aes_CPI53_3:
	.byte	255                             // 0xff
	.byte	255                             // 0xff
	.byte	0                               // 0x0
	.byte	1                               // 0x1
	.byte	2                               // 0x2
	.byte	3                               // 0x3
	.byte	4                               // 0x4
	.byte	5                               // 0x5
	.byte	6                               // 0x6
	.byte	7                               // 0x7
	.byte	8                               // 0x8
	.byte	9                               // 0x9
	.byte	10                              // 0xa
	.byte	11                              // 0xb
	.byte	12                              // 0xc
	.byte	13                              // 0xd
l_aes_CPI53_4:
	.byte	255                             // 0xff
	.byte	0                               // 0x0
	.byte	1                               // 0x1
	.byte	2                               // 0x2
	.byte	3                               // 0x3
	.byte	4                               // 0x4
	.byte	5                               // 0x5
	.byte	6                               // 0x6
	.byte	7                               // 0x7
	.byte	8                               // 0x8
	.byte	9                               // 0x9
	.byte	10                              // 0xa
	.byte	11                              // 0xb
	.byte	12                              // 0xc
	.byte	13                              // 0xd
	.byte	14                              // 0xe
	.section	__TEXT,__text,regular,pure_instructions
	.p2align	2
_aes.aes_c.single_rounds.rounds:         // @_aes.aes_c.single_rounds.rounds
// %bb.0:                               // %start
	stp	d15, d14, [sp, #-64]!           // 16-byte Folded Spill
	adrp	x8, l_aes_CPI53_0@PAGE
	ldp	q1, q5, [x0, #64]
	ldp	q2, q3, [x0]
	ldr	q0, [x8, l_aes_CPI53_0@PAGEOFF]
	ldp	q4, q16, [x0, #96]
	adrp	x8, l_aes_CPI53_1@PAGE
	tbl	v7.16b, { v1.16b }, v0.16b
	tbl	v5.16b, { v5.16b }, v0.16b
	stp	d9, d8, [sp, #48]               // 16-byte Folded Spill
	tbl	v6.16b, { v2.16b }, v0.16b
	ldp	q1, q2, [x0, #32]
	tbl	v4.16b, { v4.16b }, v0.16b
	tbl	v3.16b, { v3.16b }, v0.16b
	tbl	v16.16b, { v16.16b }, v0.16b
	stp	d11, d10, [sp, #32]             // 16-byte Folded Spill
	tbl	v1.16b, { v1.16b }, v0.16b
	ushr	v18.16b, v7.16b, #1
	tbl	v19.16b, { v2.16b }, v0.16b
	ushr	v17.16b, v6.16b, #1
	movi	v2.16b, #85
	stp	d13, d12, [sp, #16]             // 16-byte Folded Spill
	ushr	v21.16b, v4.16b, #1
	eor	v18.16b, v5.16b, v18.16b
	ushr	v20.16b, v1.16b, #1
	eor	v17.16b, v3.16b, v17.16b
	eor	v21.16b, v16.16b, v21.16b
	and	v18.16b, v18.16b, v2.16b
	eor	v20.16b, v19.16b, v20.16b
	and	v17.16b, v17.16b, v2.16b
	and	v21.16b, v21.16b, v2.16b
	eor	v5.16b, v18.16b, v5.16b
	and	v20.16b, v20.16b, v2.16b
	eor	v22.16b, v17.16b, v3.16b
	add	v3.16b, v17.16b, v17.16b
	add	v17.16b, v18.16b, v18.16b
	eor	v16.16b, v21.16b, v16.16b
	eor	v18.16b, v20.16b, v19.16b
	add	v19.16b, v20.16b, v20.16b
	add	v20.16b, v21.16b, v21.16b
	eor	v6.16b, v3.16b, v6.16b
	eor	v7.16b, v17.16b, v7.16b
	ushr	v17.16b, v22.16b, #2
	ushr	v21.16b, v5.16b, #2
	movi	v3.16b, #51
	eor	v19.16b, v19.16b, v1.16b
	eor	v4.16b, v20.16b, v4.16b
	ushr	v1.16b, v6.16b, #2
	ushr	v20.16b, v7.16b, #2
	eor	v17.16b, v18.16b, v17.16b
	eor	v21.16b, v16.16b, v21.16b
	eor	v1.16b, v19.16b, v1.16b
	eor	v20.16b, v4.16b, v20.16b
	and	v17.16b, v17.16b, v3.16b
	and	v21.16b, v21.16b, v3.16b
	and	v23.16b, v1.16b, v3.16b
	and	v20.16b, v20.16b, v3.16b
	shl	v24.16b, v17.16b, #2
	shl	v25.16b, v21.16b, #2
	movi	v1.16b, #15
	eor	v17.16b, v17.16b, v18.16b
	eor	v16.16b, v21.16b, v16.16b
	shl	v26.16b, v23.16b, #2
	shl	v27.16b, v20.16b, #2
	eor	v22.16b, v24.16b, v22.16b
	eor	v19.16b, v23.16b, v19.16b
	eor	v4.16b, v20.16b, v4.16b
	eor	v5.16b, v25.16b, v5.16b
	ushr	v24.16b, v17.16b, #4
	and	v25.16b, v16.16b, v1.16b
	eor	v6.16b, v26.16b, v6.16b
	eor	v7.16b, v27.16b, v7.16b
	ushr	v18.16b, v22.16b, #4
	and	v20.16b, v5.16b, v1.16b
	ushr	v21.16b, v19.16b, #4
	and	v23.16b, v4.16b, v1.16b
	ushr	v26.16b, v6.16b, #4
	and	v27.16b, v7.16b, v1.16b
	eor	v18.16b, v20.16b, v18.16b
	eor	v20.16b, v23.16b, v21.16b
	eor	v21.16b, v25.16b, v24.16b
	eor	v23.16b, v27.16b, v26.16b
	shl	v24.16b, v18.16b, #4
	shl	v25.16b, v20.16b, #4
	eor	v30.16b, v21.16b, v16.16b
	eor	v5.16b, v18.16b, v5.16b
	eor	v18.16b, v20.16b, v4.16b
	eor	v26.16b, v23.16b, v7.16b
	eor	v22.16b, v24.16b, v22.16b
	eor	v24.16b, v25.16b, v19.16b
	shl	v19.16b, v21.16b, #4
	eor	v21.16b, v5.16b, v18.16b
	eor	v7.16b, v22.16b, v30.16b
	eor	v16.16b, v26.16b, v24.16b
	eor	v17.16b, v19.16b, v17.16b
	shl	v19.16b, v23.16b, #4
	eor	v4.16b, v7.16b, v16.16b
	eor	v28.16b, v19.16b, v6.16b
	eor	v19.16b, v26.16b, v30.16b
	eor	v6.16b, v24.16b, v30.16b
	eor	v5.16b, v17.16b, v4.16b
	eor	v20.16b, v28.16b, v21.16b
	eor	v31.16b, v5.16b, v18.16b
	eor	v25.16b, v5.16b, v24.16b
	eor	v18.16b, v20.16b, v22.16b
	eor	v5.16b, v20.16b, v26.16b
	eor	v17.16b, v31.16b, v19.16b
	eor	v24.16b, v25.16b, v21.16b
	eor	v23.16b, v25.16b, v28.16b
	and	v8.16b, v18.16b, v20.16b
	eor	v22.16b, v18.16b, v6.16b
	and	v9.16b, v25.16b, v4.16b
	and	v10.16b, v5.16b, v28.16b
	eor	v27.16b, v17.16b, v21.16b
	eor	v21.16b, v20.16b, v30.16b
	eor	v26.16b, v17.16b, v24.16b
	eor	v29.16b, v17.16b, v28.16b
	and	v12.16b, v23.16b, v22.16b
	eor	v31.16b, v31.16b, v9.16b
	eor	v10.16b, v10.16b, v6.16b
	and	v13.16b, v17.16b, v19.16b
	and	v11.16b, v27.16b, v7.16b
	eor	v8.16b, v27.16b, v8.16b
	and	v14.16b, v26.16b, v16.16b
	and	v15.16b, v29.16b, v21.16b
	eor	v31.16b, v31.16b, v12.16b
	and	v12.16b, v24.16b, v6.16b
	eor	v10.16b, v10.16b, v24.16b
	eor	v8.16b, v8.16b, v11.16b
	eor	v14.16b, v14.16b, v13.16b
	eor	v30.16b, v11.16b, v30.16b
	eor	v15.16b, v27.16b, v15.16b
	eor	v11.16b, v12.16b, v13.16b
	eor	v9.16b, v10.16b, v9.16b
	eor	v8.16b, v8.16b, v7.16b
	eor	v31.16b, v31.16b, v14.16b
	eor	v30.16b, v15.16b, v30.16b
	eor	v9.16b, v9.16b, v11.16b
	eor	v8.16b, v8.16b, v14.16b
	eor	v30.16b, v30.16b, v11.16b
	and	v10.16b, v8.16b, v31.16b
	eor	v11.16b, v30.16b, v8.16b
	eor	v12.16b, v10.16b, v9.16b
	and	v11.16b, v12.16b, v11.16b
	eor	v12.16b, v31.16b, v9.16b
	eor	v31.16b, v10.16b, v30.16b
	eor	v10.16b, v11.16b, v10.16b
	and	v13.16b, v31.16b, v12.16b
	and	v10.16b, v10.16b, v30.16b
	eor	v9.16b, v13.16b, v9.16b
	eor	v30.16b, v11.16b, v30.16b
	eor	v13.16b, v10.16b, v31.16b
	eor	v31.16b, v10.16b, v8.16b
	and	v28.16b, v30.16b, v28.16b
	eor	v11.16b, v9.16b, v30.16b
	and	v29.16b, v9.16b, v29.16b
	and	v21.16b, v9.16b, v21.16b
	and	v5.16b, v30.16b, v5.16b
	and	v8.16b, v13.16b, v9.16b
	eor	v10.16b, v31.16b, v30.16b
	and	v25.16b, v31.16b, v25.16b
	and	v19.16b, v11.16b, v19.16b
	and	v17.16b, v11.16b, v17.16b
	and	v4.16b, v31.16b, v4.16b
	eor	v8.16b, v8.16b, v12.16b
	eor	v28.16b, v25.16b, v28.16b
	and	v23.16b, v10.16b, v23.16b
	and	v22.16b, v10.16b, v22.16b
	eor	v12.16b, v8.16b, v10.16b
	eor	v13.16b, v8.16b, v9.16b
	and	v20.16b, v8.16b, v20.16b
	eor	v29.16b, v28.16b, v29.16b
	and	v18.16b, v8.16b, v18.16b
	eor	v23.16b, v23.16b, v25.16b
	eor	v14.16b, v12.16b, v11.16b
	and	v27.16b, v13.16b, v27.16b
	and	v24.16b, v12.16b, v24.16b
	and	v7.16b, v13.16b, v7.16b
	and	v6.16b, v12.16b, v6.16b
	ldp	d13, d12, [sp, #16]             // 16-byte Folded Reload
	and	v16.16b, v14.16b, v16.16b
	eor	v20.16b, v27.16b, v20.16b
	and	v26.16b, v14.16b, v26.16b
	eor	v24.16b, v24.16b, v28.16b
	eor	v27.16b, v29.16b, v27.16b
	eor	v6.16b, v19.16b, v6.16b
	eor	v16.16b, v16.16b, v19.16b
	eor	v26.16b, v20.16b, v26.16b
	eor	v24.16b, v24.16b, v7.16b
	eor	v18.16b, v27.16b, v18.16b
	eor	v22.16b, v16.16b, v22.16b
	eor	v19.16b, v26.16b, v17.16b
	eor	v24.16b, v24.16b, v26.16b
	eor	v16.16b, v18.16b, v16.16b
	eor	v18.16b, v23.16b, v20.16b
	eor	v4.16b, v22.16b, v4.16b
	eor	v17.16b, v22.16b, v5.16b
	eor	v20.16b, v24.16b, v21.16b
	eor	v7.16b, v16.16b, v7.16b
	eor	v16.16b, v16.16b, v24.16b
	eor	v21.16b, v6.16b, v19.16b
	eor	v5.16b, v18.16b, v4.16b
	eor	v6.16b, v17.16b, v20.16b
	mvn	v17.16b, v7.16b
	mvn	v18.16b, v16.16b
	eor	v7.16b, v4.16b, v19.16b
	eor	v20.16b, v21.16b, v20.16b
	ldr	q16, [x8, l_aes_CPI53_1@PAGEOFF]
	eor	v21.16b, v19.16b, v5.16b
	eor	v4.16b, v5.16b, v27.16b
	adrp	x8, l_aes_CPI53_2@PAGE
	tbl	v22.16b, { v17.16b }, v16.16b
	tbl	v23.16b, { v18.16b }, v16.16b
	tbl	v25.16b, { v5.16b }, v16.16b
	mvn	v19.16b, v20.16b
	tbl	v20.16b, { v7.16b }, v16.16b
	tbl	v24.16b, { v6.16b }, v16.16b
	mvn	v21.16b, v21.16b
	tbl	v26.16b, { v4.16b }, v16.16b
	ldr	q27, [x8, l_aes_CPI53_2@PAGEOFF]
	adrp	x8, l_aes_CPI53_3@PAGE
	eor	v22.16b, v22.16b, v17.16b
	eor	v23.16b, v23.16b, v18.16b
	tbl	v28.16b, { v19.16b }, v16.16b
	eor	v20.16b, v20.16b, v7.16b
	tbl	v29.16b, { v21.16b }, v16.16b
	eor	v25.16b, v25.16b, v5.16b
	eor	v26.16b, v26.16b, v4.16b
	ldr	q30, [x8, l_aes_CPI53_3@PAGEOFF]
	eor	v24.16b, v24.16b, v6.16b
	and	v22.16b, v22.16b, v27.16b
	and	v23.16b, v23.16b, v27.16b
	movi	v16.2d, #0000000000000000
	and	v20.16b, v20.16b, v27.16b
	eor	v28.16b, v28.16b, v19.16b
	and	v25.16b, v25.16b, v27.16b
	eor	v29.16b, v29.16b, v21.16b
	and	v26.16b, v26.16b, v27.16b
	and	v24.16b, v24.16b, v27.16b
	tbl	v31.16b, { v22.16b }, v30.16b
	tbl	v8.16b, { v23.16b }, v30.16b
	eor	v17.16b, v17.16b, v22.16b
	tbl	v22.16b, { v20.16b }, v30.16b
	and	v28.16b, v28.16b, v27.16b
	eor	v18.16b, v18.16b, v23.16b
	eor	v7.16b, v7.16b, v20.16b
	tbl	v10.16b, { v25.16b }, v30.16b
	eor	v23.16b, v5.16b, v25.16b
	and	v25.16b, v29.16b, v27.16b
	tbl	v20.16b, { v26.16b }, v30.16b
	tbl	v9.16b, { v24.16b }, v30.16b
	eor	v5.16b, v8.16b, v18.16b
	eor	v18.16b, v19.16b, v28.16b
	eor	v19.16b, v4.16b, v26.16b
	eor	v7.16b, v7.16b, v22.16b
	tbl	v27.16b, { v28.16b }, v30.16b
	eor	v24.16b, v6.16b, v24.16b
	tbl	v22.16b, { v25.16b }, v30.16b
	eor	v6.16b, v31.16b, v17.16b
	eor	v4.16b, v23.16b, v10.16b
	eor	v21.16b, v21.16b, v25.16b
	eor	v19.16b, v19.16b, v20.16b
	adrp	x8, l_aes_CPI53_4@PAGE
	ext	v26.16b, v7.16b, v16.16b, #1
	eor	v17.16b, v24.16b, v9.16b
	ext	v24.16b, v5.16b, v16.16b, #1
	ext	v23.16b, v6.16b, v16.16b, #1
	eor	v18.16b, v27.16b, v18.16b
	ext	v20.16b, v4.16b, v16.16b, #1
	eor	v21.16b, v22.16b, v21.16b
	movi	v27.2d, #0xff00ff00000000
	ext	v28.16b, v19.16b, v16.16b, #1
	ext	v25.16b, v17.16b, v16.16b, #1
	ldr	q29, [x8, l_aes_CPI53_4@PAGEOFF]
	eor	v26.16b, v26.16b, v7.16b
	ext	v22.16b, v18.16b, v16.16b, #1
	eor	v24.16b, v24.16b, v5.16b
	ext	v16.16b, v21.16b, v16.16b, #1
	eor	v23.16b, v23.16b, v6.16b
	eor	v20.16b, v20.16b, v4.16b
	eor	v28.16b, v28.16b, v19.16b
	and	v26.16b, v26.16b, v27.16b
	eor	v25.16b, v25.16b, v17.16b
	and	v24.16b, v24.16b, v27.16b
	and	v23.16b, v23.16b, v27.16b
	eor	v22.16b, v22.16b, v18.16b
	and	v20.16b, v20.16b, v27.16b
	eor	v16.16b, v16.16b, v21.16b
	and	v28.16b, v28.16b, v27.16b
	tbl	v10.16b, { v26.16b }, v29.16b
	eor	v7.16b, v7.16b, v26.16b
	and	v25.16b, v25.16b, v27.16b
	tbl	v30.16b, { v23.16b }, v29.16b
	and	v22.16b, v22.16b, v27.16b
	tbl	v9.16b, { v20.16b }, v29.16b
	and	v16.16b, v16.16b, v27.16b
	eor	v6.16b, v6.16b, v23.16b
	eor	v4.16b, v4.16b, v20.16b
	tbl	v20.16b, { v28.16b }, v29.16b
	eor	v19.16b, v19.16b, v28.16b
	tbl	v31.16b, { v24.16b }, v29.16b
	eor	v7.16b, v7.16b, v10.16b
	tbl	v8.16b, { v25.16b }, v29.16b
	tbl	v23.16b, { v22.16b }, v29.16b
	eor	v18.16b, v18.16b, v22.16b
	tbl	v22.16b, { v16.16b }, v29.16b
	eor	v17.16b, v17.16b, v25.16b
	eor	v5.16b, v5.16b, v24.16b
	eor	v6.16b, v6.16b, v30.16b
	eor	v4.16b, v4.16b, v9.16b
	eor	v16.16b, v21.16b, v16.16b
	eor	v19.16b, v19.16b, v20.16b
	ext	v21.16b, v7.16b, v7.16b, #4
	eor	v17.16b, v17.16b, v8.16b
	eor	v18.16b, v18.16b, v23.16b
	eor	v5.16b, v5.16b, v31.16b
	ext	v20.16b, v6.16b, v6.16b, #4
	ext	v25.16b, v4.16b, v4.16b, #4
	eor	v16.16b, v16.16b, v22.16b
	ext	v22.16b, v19.16b, v19.16b, #4
	eor	v7.16b, v21.16b, v7.16b
	ext	v24.16b, v17.16b, v17.16b, #4
	ext	v26.16b, v18.16b, v18.16b, #4
	ext	v23.16b, v5.16b, v5.16b, #4
	ldp	d9, d8, [sp, #48]               // 16-byte Folded Reload
	ext	v27.16b, v16.16b, v16.16b, #4
	eor	v6.16b, v20.16b, v6.16b
	eor	v4.16b, v25.16b, v4.16b
	eor	v19.16b, v22.16b, v19.16b
	eor	v25.16b, v25.16b, v7.16b
	eor	v20.16b, v20.16b, v7.16b
	eor	v17.16b, v24.16b, v17.16b
	eor	v18.16b, v26.16b, v18.16b
	eor	v5.16b, v23.16b, v5.16b
	ext	v28.16b, v6.16b, v6.16b, #8
	ext	v31.16b, v4.16b, v4.16b, #8
	eor	v16.16b, v27.16b, v16.16b
	eor	v6.16b, v23.16b, v6.16b
	eor	v25.16b, v25.16b, v19.16b
	ext	v30.16b, v17.16b, v17.16b, #8
	ext	v23.16b, v7.16b, v7.16b, #8
	eor	v17.16b, v22.16b, v17.16b
	ext	v29.16b, v5.16b, v5.16b, #8
	eor	v5.16b, v24.16b, v5.16b
	ext	v22.16b, v18.16b, v18.16b, #8
	ext	v24.16b, v16.16b, v16.16b, #8
	eor	v4.16b, v26.16b, v4.16b
	eor	v6.16b, v6.16b, v7.16b
	eor	v18.16b, v27.16b, v18.16b
	eor	v20.16b, v28.16b, v20.16b
	eor	v25.16b, v25.16b, v31.16b
	ext	v19.16b, v19.16b, v19.16b, #8
	eor	v7.16b, v17.16b, v7.16b
	eor	v17.16b, v5.16b, v30.16b
	eor	v5.16b, v23.16b, v21.16b
	eor	v6.16b, v6.16b, v29.16b
	eor	v21.16b, v4.16b, v22.16b
	ushr	v4.16b, v20.16b, #1
	ushr	v22.16b, v25.16b, #1
	eor	v18.16b, v18.16b, v24.16b
	ldp	d11, d10, [sp, #32]             // 16-byte Folded Reload
	eor	v7.16b, v7.16b, v19.16b
	eor	v16.16b, v5.16b, v16.16b
	ushr	v5.16b, v17.16b, #1
	eor	v4.16b, v6.16b, v4.16b
	eor	v19.16b, v22.16b, v21.16b
	ushr	v22.16b, v18.16b, #1
	eor	v5.16b, v7.16b, v5.16b
	and	v4.16b, v4.16b, v2.16b
	and	v19.16b, v19.16b, v2.16b
	eor	v22.16b, v22.16b, v16.16b
	and	v23.16b, v5.16b, v2.16b
	add	v5.16b, v4.16b, v4.16b
	add	v24.16b, v19.16b, v19.16b
	and	v22.16b, v22.16b, v2.16b
	eor	v2.16b, v4.16b, v6.16b
	eor	v6.16b, v19.16b, v21.16b
	add	v26.16b, v23.16b, v23.16b
	eor	v7.16b, v23.16b, v7.16b
	eor	v5.16b, v5.16b, v20.16b
	eor	v4.16b, v24.16b, v25.16b
	add	v20.16b, v22.16b, v22.16b
	ushr	v19.16b, v2.16b, #2
	eor	v16.16b, v22.16b, v16.16b
	eor	v17.16b, v26.16b, v17.16b
	ushr	v21.16b, v5.16b, #2
	ushr	v23.16b, v4.16b, #2
	eor	v18.16b, v20.16b, v18.16b
	ushr	v20.16b, v6.16b, #2
	eor	v19.16b, v7.16b, v19.16b
	eor	v21.16b, v17.16b, v21.16b
	eor	v22.16b, v23.16b, v18.16b
	eor	v20.16b, v20.16b, v16.16b
	and	v19.16b, v19.16b, v3.16b
	and	v21.16b, v21.16b, v3.16b
	and	v22.16b, v22.16b, v3.16b
	and	v3.16b, v20.16b, v3.16b
	eor	v7.16b, v19.16b, v7.16b
	shl	v19.16b, v19.16b, #2
	eor	v17.16b, v21.16b, v17.16b
	shl	v20.16b, v21.16b, #2
	shl	v21.16b, v22.16b, #2
	eor	v16.16b, v3.16b, v16.16b
	shl	v3.16b, v3.16b, #2
	eor	v18.16b, v22.16b, v18.16b
	ushr	v22.16b, v7.16b, #4
	eor	v2.16b, v19.16b, v2.16b
	eor	v5.16b, v20.16b, v5.16b
	eor	v4.16b, v21.16b, v4.16b
	ushr	v23.16b, v17.16b, #4
	and	v20.16b, v16.16b, v1.16b
	eor	v3.16b, v3.16b, v6.16b
	and	v24.16b, v18.16b, v1.16b
	ushr	v19.16b, v5.16b, #4
	and	v21.16b, v4.16b, v1.16b
	eor	v20.16b, v20.16b, v22.16b
	ushr	v22.16b, v2.16b, #4
	and	v1.16b, v3.16b, v1.16b
	eor	v6.16b, v24.16b, v23.16b
	eor	v19.16b, v21.16b, v19.16b
	eor	v1.16b, v1.16b, v22.16b
	shl	v24.16b, v20.16b, #4
	eor	v16.16b, v20.16b, v16.16b
	shl	v23.16b, v6.16b, #4
	eor	v6.16b, v6.16b, v18.16b
	shl	v21.16b, v19.16b, #4
	eor	v4.16b, v19.16b, v4.16b
	shl	v22.16b, v1.16b, #4
	eor	v7.16b, v24.16b, v7.16b
	eor	v1.16b, v1.16b, v3.16b
	eor	v17.16b, v23.16b, v17.16b
	tbl	v6.16b, { v6.16b }, v0.16b
	eor	v5.16b, v21.16b, v5.16b
	tbl	v4.16b, { v4.16b }, v0.16b
	eor	v2.16b, v22.16b, v2.16b
	tbl	v7.16b, { v7.16b }, v0.16b
	tbl	v1.16b, { v1.16b }, v0.16b
	tbl	v3.16b, { v17.16b }, v0.16b
	tbl	v5.16b, { v5.16b }, v0.16b
	tbl	v2.16b, { v2.16b }, v0.16b
	tbl	v0.16b, { v16.16b }, v0.16b
	stp	q4, q1, [x0, #64]
	stp	q3, q7, [x0, #32]
	stp	q5, q2, [x0]
	stp	q6, q0, [x0, #96]
	ldr	q0, [x1]
	eor	v0.16b, v0.16b, v5.16b
	str	q0, [x0]
	ldr	q0, [x1, #16]
	eor	v0.16b, v0.16b, v2.16b
	ldp	q1, q2, [x0, #80]
	str	q0, [x0, #16]
	ldr	q0, [x1, #32]
	eor	v0.16b, v0.16b, v3.16b
	str	q0, [x0, #32]
	ldr	q0, [x1, #48]
	eor	v0.16b, v0.16b, v7.16b
	str	q0, [x0, #48]
	ldr	q0, [x1, #64]
	eor	v0.16b, v0.16b, v4.16b
	str	q0, [x0, #64]
	ldr	q0, [x1, #80]
	eor	v0.16b, v0.16b, v1.16b
	str	q0, [x0, #80]
	ldr	q0, [x1, #96]
	eor	v0.16b, v0.16b, v2.16b
	str	q0, [x0, #96]
	ldr	q0, [x0, #112]
	ldr	q1, [x1, #112]
	eor	v0.16b, v1.16b, v0.16b
	str	q0, [x0, #112]
	ldp	d15, d14, [sp], #64             // 16-byte Folded Reload
	ret
                                        // -- End function
	.section	__TEXT,__text,regular,pure_instructions
	.p2align	2                               // -- Begin function ccm::mode::decrypt::<#ef80964e0b8d42c0>
_aes.ccm.mode.decrypt: // @_aes.ccm.mode.decrypt
// %bb.0:                               // %start
	sub	sp, sp, #176
	stp	x29, x30, [sp, #80]             // 16-byte Folded Spill
	add	x29, sp, #80
	stp	x20, x19, [sp, #160]            // 16-byte Folded Spill
	ldr	x19, [x29, #104]
	stp	x28, x27, [sp, #96]             // 16-byte Folded Spill
	sub	x8, x19, #4
	and	x9, x19, #0x1
	stp	x26, x25, [sp, #112]            // 16-byte Folded Spill
	cmp	x8, #12
	stp	x24, x23, [sp, #128]            // 16-byte Folded Spill
	ccmp	x9, #0, #0, ls
	stp	x22, x21, [sp, #144]            // 16-byte Folded Spill
	b.eq	Laes_BB54_2
// %bb.1:
	mov	w8, wzr
	b	Laes_BB54_7
Laes_BB54_2:                               // %after.1.i
	sub	x8, x3, #14
	cmn	x8, #7
	b.hs	Laes_BB54_4
// %bb.3:
	mov	w8, #1                          // =0x1
	b	Laes_BB54_7
Laes_BB54_4:                               // %"ccm::formatting::check.exit"
	cmp	x3, #7
	b.eq	Laes_BB54_9
// %bb.5:                               // %"ccm::formatting::check.exit"
	lsl	x8, x3, #3
	eor	x8, x8, #0x78
	lsr	x8, x7, x8
	cbz	x8, Laes_BB54_9
// %bb.6:
	mov	w8, #2                          // =0x2
Laes_BB54_7:                               // %arm.1
	mov	w9, #1                          // =0x1
	strb	w8, [x0, #2]
	strh	w9, [x0]
Laes_BB54_8:                               // %common.ret
	ldp	x20, x19, [sp, #160]            // 16-byte Folded Reload
	ldp	x22, x21, [sp, #144]            // 16-byte Folded Reload
	ldp	x24, x23, [sp, #128]            // 16-byte Folded Reload
	ldp	x26, x25, [sp, #112]            // 16-byte Folded Reload
	ldp	x28, x27, [sp, #96]             // 16-byte Folded Reload
	ldp	x29, x30, [sp, #80]             // 16-byte Folded Reload
	add	sp, sp, #176
	ret
Laes_BB54_9:                               // %join.4
	ldr	x8, [x29, #96]
	stp	x8, x0, [sp, #32]               // 16-byte Folded Spill
	sub	x0, x29, #32
	mov	x21, x1
	mov	x1, x2
	mov	x22, x2
	mov	w8, #14                         // =0xe
	mov	x2, x3
	stur	xzr, [x29, #-32]
	sub	w23, w8, w3
	mov	x26, x7
	stur	xzr, [x29, #-25]
	mov	x27, x6
	mov	x28, x3
	mov	x20, x5
	mov	x25, x4
	adrp	x16, _memcpy@GOTPAGE
	ldr	x16, [x16, _memcpy@GOTPAGEOFF]
	blr	x16
	ldur	x8, [x29, #-32]
	ldur	x9, [x29, #-25]
	sub	x1, x29, #16
	mov	x0, x21
	mov	w2, #16                         // =0x10
	mov	x3, x27
	mov	x4, x26
	str	w23, [sp, #20]                  // 4-byte Spill
	sturb	w23, [x29, #-16]
	stur	x8, [x29, #-15]
	stur	x9, [x29, #-8]
	bl	_aes.aes_ctr.add_in_batches.add_keystream
	mov	x0, x21
	mov	x1, x22
	mov	x2, x28
	mov	x3, x19
	mov	x4, x25
	mov	x5, x20
	mov	x6, x27
	mov	x7, x26
	sub	x8, x29, #32
	str	x21, [sp, #24]                  // 8-byte Spill
	mov	x24, x22
	mov	x23, x28
	mov	x22, x27
	mov	x21, x26
	str	x8, [sp]
	bl	_aes.ccm.message.put_tag
	ldur	q0, [x29, #-32]
	ldr	x1, [sp, #32]                   // 8-byte Reload
	sub	x0, x29, #16
	mov	x2, x19
	stur	q0, [x29, #-16]
	adrp	x16, _memcpy@GOTPAGE
	ldr	x16, [x16, _memcpy@GOTPAGEOFF]
	blr	x16
	sub	x0, x29, #16
	sub	x1, x29, #32
	bl	_aes.aes_cipher.blocks.difference
	cbz	w0, Laes_BB54_11
// %bb.10:                              // %join.7
	sub	x0, x29, #32
	mov	x1, x24
	mov	x2, x23
	stur	xzr, [x29, #-32]
	stur	xzr, [x29, #-25]
	adrp	x16, _memcpy@GOTPAGE
	ldr	x16, [x16, _memcpy@GOTPAGEOFF]
	blr	x16
	ldr	w9, [sp, #20]                   // 4-byte Reload
	ldur	x8, [x29, #-32]
	sub	x1, x29, #16
	ldr	x0, [sp, #24]                   // 8-byte Reload
	mov	w2, #16                         // =0x10
	mov	x3, x22
	sturb	w9, [x29, #-16]
	ldur	x9, [x29, #-25]
	mov	x4, x21
	stur	x8, [x29, #-15]
	stur	x9, [x29, #-8]
	bl	_aes.aes_ctr.add_in_batches.add_keystream
	ldr	x9, [sp, #40]                   // 8-byte Reload
	mov	w8, #257                        // =0x101
	strh	w8, [x9]
	strb	wzr, [x9, #2]
	b	Laes_BB54_8
Laes_BB54_11:                              // %then.5
	ldr	x8, [sp, #40]                   // 8-byte Reload
	strh	wzr, [x8]
	strb	wzr, [x8, #2]
	b	Laes_BB54_8
                                        // -- End function
	.section	__TEXT,__const
	.p2align	4, 0x0                          // -- Begin function ccm::message::put_tag::<#ef80964e0b8d42c0>
l_aes_CPI55_0:
	.byte	0                               // 0x0
	.byte	1                               // 0x1
	.byte	28                              // 0x1c
	.byte	29                              // 0x1d
	.byte	45                              // 0x2d
	.byte	44                              // 0x2c
	.byte	49                              // 0x31
	.byte	48                              // 0x30
	.byte	39                              // 0x27
	.byte	38                              // 0x26
	.byte	59                              // 0x3b
	.byte	58                              // 0x3a
	.byte	10                              // 0xa
	.byte	11                              // 0xb
	.byte	22                              // 0x16
	.byte	23                              // 0x17
l_aes_CPI55_1:
	.byte	0                               // 0x0
	.byte	134                             // 0x86
	.byte	253                             // 0xfd
	.byte	123                             // 0x7b
	.byte	142                             // 0x8e
	.byte	8                               // 0x8
	.byte	115                             // 0x73
	.byte	245                             // 0xf5
	.byte	119                             // 0x77
	.byte	241                             // 0xf1
	.byte	138                             // 0x8a
	.byte	12                              // 0xc
	.byte	249                             // 0xf9
	.byte	127                             // 0x7f
	.byte	4                               // 0x4
	.byte	130                             // 0x82
l_aes_CPI55_2:
	.byte	128                             // 0x80
	.byte	2                               // 0x2
	.byte	1                               // 0x1
	.byte	15                              // 0xf
	.byte	9                               // 0x9
	.byte	5                               // 0x5
	.byte	14                              // 0xe
	.byte	12                              // 0xc
	.byte	13                              // 0xd
	.byte	4                               // 0x4
	.byte	11                              // 0xb
	.byte	10                              // 0xa
	.byte	7                               // 0x7
	.byte	8                               // 0x8
	.byte	6                               // 0x6
	.byte	3                               // 0x3
l_aes_CPI55_3:
	.byte	128                             // 0x80
	.byte	1                               // 0x1
	.byte	9                               // 0x9
	.byte	14                              // 0xe
	.byte	13                              // 0xd
	.byte	11                              // 0xb
	.byte	7                               // 0x7
	.byte	6                               // 0x6
	.byte	15                              // 0xf
	.byte	2                               // 0x2
	.byte	12                              // 0xc
	.byte	5                               // 0x5
	.byte	10                              // 0xa
	.byte	4                               // 0x4
	.byte	3                               // 0x3
	.byte	8                               // 0x8
l_aes_CPI55_4:
	.byte	0                               // 0x0
	.byte	195                             // 0xc3
	.byte	79                              // 0x4f
	.byte	12                              // 0xc
	.byte	252                             // 0xfc
	.byte	124                             // 0x7c
	.byte	67                              // 0x43
	.byte	128                             // 0x80
	.byte	207                             // 0xcf
	.byte	51                              // 0x33
	.byte	63                              // 0x3f
	.byte	112                             // 0x70
	.byte	191                             // 0xbf
	.byte	179                             // 0xb3
	.byte	240                             // 0xf0
	.byte	140                             // 0x8c
l_aes_CPI55_5:
	.byte	0                               // 0x0
	.byte	230                             // 0xe6
	.byte	114                             // 0x72
	.byte	183                             // 0xb7
	.byte	229                             // 0xe5
	.byte	198                             // 0xc6
	.byte	197                             // 0xc5
	.byte	35                              // 0x23
	.byte	81                              // 0x51
	.byte	180                             // 0xb4
	.byte	3                               // 0x3
	.byte	113                             // 0x71
	.byte	32                              // 0x20
	.byte	151                             // 0x97
	.byte	82                              // 0x52
	.byte	148                             // 0x94
l_aes_CPI55_6:
	.byte	0                               // 0x0
	.byte	124                             // 0x7c
	.byte	32                              // 0x20
	.byte	207                             // 0xcf
	.byte	146                             // 0x92
	.byte	1                               // 0x1
	.byte	239                             // 0xef
	.byte	147                             // 0x93
	.byte	179                             // 0xb3
	.byte	33                              // 0x21
	.byte	238                             // 0xee
	.byte	206                             // 0xce
	.byte	125                             // 0x7d
	.byte	178                             // 0xb2
	.byte	93                              // 0x5d
	.byte	92                              // 0x5c
l_aes_CPI55_7:
	.byte	0                               // 0x0
	.byte	209                             // 0xd1
	.byte	229                             // 0xe5
	.byte	247                             // 0xf7
	.byte	230                             // 0xe6
	.byte	37                              // 0x25
	.byte	18                              // 0x12
	.byte	195                             // 0xc3
	.byte	38                              // 0x26
	.byte	192                             // 0xc0
	.byte	55                              // 0x37
	.byte	210                             // 0xd2
	.byte	244                             // 0xf4
	.byte	3                               // 0x3
	.byte	17                              // 0x11
	.byte	52                              // 0x34
l_aes_CPI55_8:
	.byte	0                               // 0x0
	.byte	203                             // 0xcb
	.byte	215                             // 0xd7
	.byte	176                             // 0xb0
	.byte	33                              // 0x21
	.byte	141                             // 0x8d
	.byte	103                             // 0x67
	.byte	172                             // 0xac
	.byte	123                             // 0x7b
	.byte	90                              // 0x5a
	.byte	234                             // 0xea
	.byte	61                              // 0x3d
	.byte	70                              // 0x46
	.byte	246                             // 0xf6
	.byte	145                             // 0x91
	.byte	28                              // 0x1c
l_aes_CPI55_9:
	.byte	0                               // 0x0
	.byte	159                             // 0x9f
	.byte	97                              // 0x61
	.byte	22                              // 0x16
	.byte	194                             // 0xc2
	.byte	42                              // 0x2a
	.byte	119                             // 0x77
	.byte	232                             // 0xe8
	.byte	137                             // 0x89
	.byte	75                              // 0x4b
	.byte	93                              // 0x5d
	.byte	60                              // 0x3c
	.byte	181                             // 0xb5
	.byte	163                             // 0xa3
	.byte	212                             // 0xd4
	.byte	254                             // 0xfe
	.section	__TEXT,__text,regular,pure_instructions
	.p2align	2
_aes.ccm.message.put_tag: // @_aes.ccm.message.put_tag
// %bb.0:                               // %start
	sub	sp, sp, #320
	subs	x8, x3, #2
	stp	x29, x30, [sp, #224]            // 16-byte Folded Spill
	add	x29, sp, #224
	csel	x8, xzr, x8, lo
	rev	x9, x7
	stp	x22, x21, [sp, #288]            // 16-byte Folded Spill
	lsl	w8, w8, #2
	mov	x21, x2
	stp	x9, xzr, [x29, #-56]
	cmp	x5, #0
	mov	w9, #78                         // =0x4e
	mov	w10, #14                        // =0xe
	and	w8, w8, #0xf8
	stp	x20, x19, [sp, #304]            // 16-byte Folded Spill
	mov	x22, x0
	ldr	x20, [x29, #96]
	sub	w8, w8, w21
	csel	w9, w10, w9, eq
	sub	x0, x29, #48
	stp	x28, x27, [sp, #240]            // 16-byte Folded Spill
	add	w19, w9, w8
	stp	x26, x25, [sp, #256]            // 16-byte Folded Spill
	mov	x26, x5
	stp	x24, x23, [sp, #272]            // 16-byte Folded Spill
	stur	x6, [x29, #-88]                 // 8-byte Folded Spill
	str	x4, [sp, #24]                   // 8-byte Spill
	stp	x7, x1, [x29, #-80]             // 16-byte Folded Spill
	stur	xzr, [x29, #-41]
	adrp	x16, _memcpy@GOTPAGE
	ldr	x16, [x16, _memcpy@GOTPAGEOFF]
	blr	x16
	sub	x27, x29, #32
	sub	x10, x29, #56
	ldur	x8, [x29, #-48]
	ldur	x9, [x29, #-41]
	mov	w11, #15                        // =0xf
	orr	x12, x27, #0x1
	add	x10, x10, x21
	sub	x2, x11, x21
	add	x0, x12, x21
	sub	x1, x10, #7
	sturb	w19, [x29, #-32]
	stur	x8, [x29, #-31]
	stur	x9, [x29, #-24]
	adrp	x16, _memcpy@GOTPAGE
	ldr	x16, [x16, _memcpy@GOTPAGEOFF]
	blr	x16
	ldur	q1, [x29, #-32]
	movi	v0.16b, #15
	adrp	x9, l_aes_CPI55_0@PAGE
	adrp	x10, l_aes_CPI55_1@PAGE
	ldr	q3, [x9, l_aes_CPI55_0@PAGEOFF]
	mov	x1, x20
	str	q1, [x20]
	ldr	q4, [x10, l_aes_CPI55_1@PAGEOFF]
	adrp	x10, l_aes_CPI55_2@PAGE
	ldp	x8, x12, [x22, #16]
	stur	x22, [x29, #-64]                // 8-byte Folded Spill
	adrp	x11, l_aes_CPI55_3@PAGE
	adrp	x28, l_aes_CPI55_4@PAGE
	adrp	x24, l_aes_CPI55_5@PAGE
	adrp	x25, l_aes_CPI55_6@PAGE
	adrp	x22, l_aes_static.4@PAGE
	add	x22, x22, l_aes_static.4@PAGEOFF
	ldr	q2, [x8]
	sub	x9, x12, #1
	adrp	x23, l_aes_CPI55_7@PAGE
	cmp	x9, #2
	adrp	x19, l_aes_static.5@PAGE
	add	x19, x19, l_aes_static.5@PAGEOFF
	eor	v1.16b, v2.16b, v1.16b
	stp	q4, q3, [sp, #96]               // 32-byte Folded Spill
	and	v2.16b, v1.16b, v0.16b
	ushr	v1.16b, v1.16b, #4
	tbl	v2.16b, { v3.16b }, v2.16b
	tbl	v1.16b, { v4.16b }, v1.16b
	eor	v1.16b, v1.16b, v2.16b
	b.lo	Laes_BB55_3
// %bb.1:                               // %join.5.i.i912.preheader
	sub	x12, x12, #2
	mov	w13, #16                        // =0x10
Laes_BB55_2:                               // %join.5.i.i912
                                        // =>This Inner Loop Header: Depth=1
	movi	v2.16b, #15
	ushr	v3.16b, v1.16b, #4
	ldr	q4, [x10, l_aes_CPI55_2@PAGEOFF]
	ldr	q5, [x11, l_aes_CPI55_3@PAGEOFF]
	and	x14, x13, #0x30
	subs	x12, x12, #1
	tbl	v6.16b, { v5.16b }, v3.16b
	and	v1.16b, v1.16b, v2.16b
	eor	v2.16b, v3.16b, v1.16b
	tbl	v1.16b, { v4.16b }, v1.16b
	tbl	v4.16b, { v5.16b }, v2.16b
	eor	v6.16b, v6.16b, v1.16b
	eor	v1.16b, v4.16b, v1.16b
	tbl	v4.16b, { v5.16b }, v6.16b
	ldr	q6, [x23, l_aes_CPI55_7@PAGEOFF]
	tbl	v1.16b, { v5.16b }, v1.16b
	ldr	q5, [x25, l_aes_CPI55_6@PAGEOFF]
	eor	v2.16b, v4.16b, v2.16b
	ldr	q4, [x24, l_aes_CPI55_5@PAGEOFF]
	eor	v1.16b, v1.16b, v3.16b
	ldr	q3, [x28, l_aes_CPI55_4@PAGEOFF]
	tbl	v3.16b, { v3.16b }, v2.16b
	tbl	v2.16b, { v5.16b }, v2.16b
	ldr	q5, [x19, x14]
	tbl	v4.16b, { v4.16b }, v1.16b
	tbl	v1.16b, { v6.16b }, v1.16b
	eor	v3.16b, v4.16b, v3.16b
	ldr	q4, [x22, x14]
	eor	v1.16b, v1.16b, v2.16b
	tbl	v6.16b, { v3.16b }, v4.16b
	tbl	v2.16b, { v3.16b }, v5.16b
	ldr	q3, [x8, x13]
	add	x13, x13, #16
	eor	v1.16b, v1.16b, v6.16b
	eor	v2.16b, v3.16b, v2.16b
	tbl	v3.16b, { v1.16b }, v4.16b
	eor	v1.16b, v2.16b, v1.16b
	eor	v1.16b, v3.16b, v1.16b
	b.ne	Laes_BB55_2
Laes_BB55_3:                               // %"aes_permute::blocks::process_block::<#aedbc4fd156a355d>.exit1656"
	ushr	v2.16b, v1.16b, #4
	and	v0.16b, v1.16b, v0.16b
	ldr	q3, [x10, l_aes_CPI55_2@PAGEOFF]
	ldr	q5, [x11, l_aes_CPI55_3@PAGEOFF]
	adrp	x10, l_aes_CPI55_8@PAGE
	adrp	x11, l_aes_CPI55_9@PAGE
	lsl	x9, x9, #4
	eor	v1.16b, v2.16b, v0.16b
	stp	q3, q5, [sp, #64]               // 32-byte Folded Spill
	tbl	v0.16b, { v3.16b }, v0.16b
	tbl	v3.16b, { v5.16b }, v2.16b
	tbl	v4.16b, { v5.16b }, v1.16b
	eor	v3.16b, v3.16b, v0.16b
	eor	v0.16b, v4.16b, v0.16b
	tbl	v3.16b, { v5.16b }, v3.16b
	tbl	v0.16b, { v5.16b }, v0.16b
	eor	v1.16b, v3.16b, v1.16b
	ldr	q3, [x11, l_aes_CPI55_9@PAGEOFF]
	adrp	x11, l_aes_static.3@PAGE
	add	x11, x11, l_aes_static.3@PAGEOFF
	eor	v0.16b, v0.16b, v2.16b
	ldr	q2, [x10, l_aes_CPI55_8@PAGEOFF]
	and	x10, x9, #0x30
	tbl	v1.16b, { v2.16b }, v1.16b
	stp	q3, q2, [sp, #32]               // 32-byte Folded Spill
	tbl	v0.16b, { v3.16b }, v0.16b
	eor	v0.16b, v0.16b, v1.16b
	ldr	q1, [x11, x10]
	tbl	v0.16b, { v0.16b }, v1.16b
	ldr	q1, [x8, x9]
	eor	v0.16b, v0.16b, v1.16b
	str	q0, [x1]
	cbz	x26, Laes_BB55_10
// %bb.4:                               // %join.3.i
	lsr	x8, x26, #8
	stp	xzr, xzr, [x29, #-32]
	str	x21, [sp, #16]                  // 8-byte Spill
	cmp	x8, #254
	rev	x8, x26
	b.hi	Laes_BB55_6
// %bb.5:                               // %then.1.i.i
	lsr	x8, x8, #48
	mov	x20, x1
	orr	x0, x27, #0x2
	mov	w9, #14                         // =0xe
	sturh	w8, [x29, #-32]
	b	Laes_BB55_9
Laes_BB55_6:                               // %join.3.i.i
	lsr	x10, x26, #32
	mov	w9, #255                        // =0xff
	mov	x20, x1
	sturb	w9, [x29, #-32]
	cbnz	x10, Laes_BB55_8
// %bb.7:                               // %then.4.i.i
	lsr	x8, x8, #32
	mov	w9, #254                        // =0xfe
	add	x0, x27, #6
	sturb	w9, [x29, #-31]
	mov	w9, #10                         // =0xa
	stur	w8, [x29, #-30]
	b	Laes_BB55_9
Laes_BB55_8:                               // %join.6.i.i
	sturb	w9, [x29, #-31]
	add	x0, x27, #10
	mov	w9, #6                          // =0x6
	stur	x8, [x29, #-30]
Laes_BB55_9:                               // %"ccm::formatting::put_length.exit.i"
	cmp	x9, x26
	csel	x27, x9, x26, lo
	sub	x8, x26, x27
	ldr	x26, [sp, #24]                  // 8-byte Reload
	mov	x2, x27
	str	x8, [sp, #8]                    // 8-byte Spill
	mov	x1, x26
	adrp	x16, _memcpy@GOTPAGE
	ldr	x16, [x16, _memcpy@GOTPAGEOFF]
	blr	x16
	ldur	x21, [x29, #-64]                // 8-byte Folded Reload
	sub	x2, x29, #32
	mov	x1, x20
	mov	w3, #16                         // =0x10
	mov	x0, x21
	bl	_aes.cmac.chaining.chain
	ldr	x3, [sp, #8]                    // 8-byte Reload
	add	x2, x26, x27
	mov	x0, x21
	mov	x1, x20
	bl	_aes.cmac.chaining.chain
	ldr	x21, [sp, #16]                  // 8-byte Reload
	mov	x1, x20
Laes_BB55_10:                              // %"ccm::message::chain_additional::<#ef80964e0b8d42c0>.exit"
	ldur	x27, [x29, #-64]                // 8-byte Folded Reload
	ldp	x2, x3, [x29, #-88]             // 16-byte Folded Reload
	mov	x20, x1
	mov	x0, x27
	bl	_aes.cmac.chaining.chain
	ldur	x1, [x29, #-72]                 // 8-byte Folded Reload
	mov	w8, #14                         // =0xe
	sub	x0, x29, #32
	mov	x2, x21
	stur	xzr, [x29, #-25]
	sub	w26, w8, w21
	stur	xzr, [x29, #-32]
	sub	x21, x29, #32
	adrp	x16, _memcpy@GOTPAGE
	ldr	x16, [x16, _memcpy@GOTPAGEOFF]
	blr	x16
	fmov	s0, w26
	ldur	h1, [x29, #-31]
	ldr	q3, [sp, #112]                  // 16-byte Reload
	ldp	x8, x10, [x27, #16]
	ld1	{ v0.b }[1], [x21]
	ldr	q2, [x8]
	sub	x9, x10, #1
	cmp	x9, #2
	zip1	v0.4h, v0.4h, v1.4h
	ldur	s1, [x29, #-29]
	zip1	v1.2s, v0.2s, v1.2s
	ldur	d0, [x29, #-25]
	mov	v1.d[1], v0.d[0]
	movi	v0.16b, #15
	eor	v1.16b, v2.16b, v1.16b
	and	v2.16b, v1.16b, v0.16b
	ushr	v1.16b, v1.16b, #4
	tbl	v2.16b, { v3.16b }, v2.16b
	ldr	q3, [sp, #96]                   // 16-byte Reload
	tbl	v1.16b, { v3.16b }, v1.16b
	eor	v1.16b, v1.16b, v2.16b
	b.lo	Laes_BB55_13
// %bb.11:                              // %join.5.i.i.preheader
	ldp	q16, q7, [sp, #64]              // 32-byte Folded Reload
	sub	x10, x10, #2
	mov	w11, #16                        // =0x10
Laes_BB55_12:                              // %join.5.i.i
                                        // =>This Inner Loop Header: Depth=1
	movi	v2.16b, #15
	ushr	v3.16b, v1.16b, #4
	ldr	q6, [x23, l_aes_CPI55_7@PAGEOFF]
	and	x12, x11, #0x30
	subs	x10, x10, #1
	tbl	v4.16b, { v7.16b }, v3.16b
	and	v1.16b, v1.16b, v2.16b
	eor	v2.16b, v3.16b, v1.16b
	tbl	v1.16b, { v16.16b }, v1.16b
	tbl	v5.16b, { v7.16b }, v2.16b
	eor	v4.16b, v4.16b, v1.16b
	eor	v1.16b, v5.16b, v1.16b
	tbl	v4.16b, { v7.16b }, v4.16b
	ldr	q5, [x25, l_aes_CPI55_6@PAGEOFF]
	tbl	v1.16b, { v7.16b }, v1.16b
	eor	v2.16b, v4.16b, v2.16b
	ldr	q4, [x24, l_aes_CPI55_5@PAGEOFF]
	eor	v1.16b, v1.16b, v3.16b
	ldr	q3, [x28, l_aes_CPI55_4@PAGEOFF]
	tbl	v3.16b, { v3.16b }, v2.16b
	tbl	v2.16b, { v5.16b }, v2.16b
	ldr	q5, [x19, x12]
	tbl	v4.16b, { v4.16b }, v1.16b
	tbl	v1.16b, { v6.16b }, v1.16b
	eor	v3.16b, v4.16b, v3.16b
	ldr	q4, [x22, x12]
	eor	v1.16b, v1.16b, v2.16b
	tbl	v6.16b, { v3.16b }, v4.16b
	tbl	v2.16b, { v3.16b }, v5.16b
	ldr	q3, [x8, x11]
	add	x11, x11, #16
	eor	v1.16b, v1.16b, v6.16b
	eor	v2.16b, v3.16b, v2.16b
	tbl	v3.16b, { v1.16b }, v4.16b
	eor	v1.16b, v2.16b, v1.16b
	eor	v1.16b, v3.16b, v1.16b
	b.ne	Laes_BB55_12
	b	Laes_BB55_14
Laes_BB55_13:
	ldp	q16, q7, [sp, #64]              // 32-byte Folded Reload
Laes_BB55_14:                              // %"aes_permute::blocks::process_block::<#aedbc4fd156a355d>.exit"
	ushr	v2.16b, v1.16b, #4
	and	v0.16b, v1.16b, v0.16b
	lsl	x9, x9, #4
	adrp	x11, l_aes_static.3@PAGE
	add	x11, x11, l_aes_static.3@PAGEOFF
	and	x10, x9, #0x30
	ldp	x22, x21, [sp, #288]            // 16-byte Folded Reload
	eor	v1.16b, v2.16b, v0.16b
	tbl	v0.16b, { v16.16b }, v0.16b
	tbl	v3.16b, { v7.16b }, v2.16b
	ldp	x24, x23, [sp, #272]            // 16-byte Folded Reload
	ldp	x26, x25, [sp, #256]            // 16-byte Folded Reload
	tbl	v4.16b, { v7.16b }, v1.16b
	ldp	x28, x27, [sp, #240]            // 16-byte Folded Reload
	eor	v3.16b, v3.16b, v0.16b
	ldp	x29, x30, [sp, #224]            // 16-byte Folded Reload
	eor	v0.16b, v4.16b, v0.16b
	tbl	v3.16b, { v7.16b }, v3.16b
	tbl	v0.16b, { v7.16b }, v0.16b
	eor	v1.16b, v3.16b, v1.16b
	ldr	q3, [x20]
	eor	v0.16b, v0.16b, v2.16b
	ldr	q2, [sp, #48]                   // 16-byte Reload
	tbl	v1.16b, { v2.16b }, v1.16b
	ldr	q2, [sp, #32]                   // 16-byte Reload
	tbl	v0.16b, { v2.16b }, v0.16b
	ldr	q2, [x8, x9]
	eor	v0.16b, v0.16b, v1.16b
	ldr	q1, [x11, x10]
	tbl	v0.16b, { v0.16b }, v1.16b
	eor	v1.16b, v2.16b, v3.16b
	eor	v0.16b, v0.16b, v1.16b
	str	q0, [x20]
	ldp	x20, x19, [sp, #304]            // 16-byte Folded Reload
	add	sp, sp, #320
	ret
                                        // -- End function
	.section	__TEXT,__text,regular,pure_instructions
	.p2align	2                               // -- Begin function aes_cipher::zeroize::stack::wipe_stack::<=1024>
_aes.aes_cipher.zeroize.stack.wipe_stack.1024: // @_aes.aes_cipher.zeroize.stack.wipe_stack.1024
// %bb.0:                               // %start
	stp	x29, x30, [sp, #-32]!           // 16-byte Folded Spill
	stp	x28, x19, [sp, #16]             // 16-byte Folded Spill
	mov	x29, sp
	sub	sp, sp, #1040
	add	x0, sp, #16
	mov	w1, wzr
	mov	w2, #1024                       // =0x400
	str	xzr, [sp]
	add	x19, sp, #16
	adrp	x16, _memset@GOTPAGE
	ldr	x16, [x16, _memset@GOTPAGEOFF]
	blr	x16
	str	xzr, [sp, #8]
	add	x8, sp, #8
	//APP
	//NO_APP
	ldar	x8, [x8]
	//APP
	//NO_APP
	cmp	x8, #1024
	b.hs	Laes_BB56_4
// %bb.1:                               // %then.1
	ldrb	w8, [x19, x8]
	//APP
	//NO_APP
Laes_BB56_2:                               // %atomicrmw.start
                                        // =>This Inner Loop Header: Depth=1
	add	x9, sp, #8
	ldaxr	xzr, [x9]
	stlxr	w10, x8, [x9]
	cbnz	w10, Laes_BB56_2
// %bb.3:                               // %atomicrmw.end
	//APP
	//NO_APP
Laes_BB56_4:                               // %common.ret
	add	sp, sp, #1040
	ldp	x28, x19, [sp, #16]             // 16-byte Folded Reload
	ldp	x29, x30, [sp], #32             // 16-byte Folded Reload
	ret
                                        // -- End function
	.section	__TEXT,__text,regular,pure_instructions
	.p2align	2                               // -- Begin function ccm::mode::encrypt::<#ef80964e0b8d42c0>
_aes.ccm.mode.encrypt: // @_aes.ccm.mode.encrypt
// %bb.0:                               // %start
	sub	sp, sp, #144
	stp	x29, x30, [sp, #64]             // 16-byte Folded Spill
	add	x29, sp, #64
	stp	x20, x19, [sp, #128]            // 16-byte Folded Spill
	ldr	x19, [x29, #80]
	stp	x26, x25, [sp, #80]             // 16-byte Folded Spill
	sub	x8, x19, #4
	and	x9, x19, #0x1
	stp	x24, x23, [sp, #96]             // 16-byte Folded Spill
	cmp	x8, #12
	stp	x22, x21, [sp, #112]            // 16-byte Folded Spill
	ccmp	x9, #0, #0, ls
	b.eq	Laes_BB57_2
// %bb.1:
	mov	w1, wzr
	mov	w0, #1                          // =0x1
	b	Laes_BB57_7
Laes_BB57_2:                               // %after.1.i
	sub	x9, x2, #14
	cmn	x9, #7
	b.hs	Laes_BB57_4
// %bb.3:
	mov	w0, #1                          // =0x1
	mov	w1, #1                          // =0x1
	b	Laes_BB57_7
Laes_BB57_4:                               // %"ccm::formatting::check.exit"
	lsl	x9, x2, #3
	cmp	x2, #7
	mov	x20, x0
	eor	x9, x9, #0x78
	lsr	x9, x6, x9
	ccmp	x9, #0, #4, ne
	cset	w0, ne
	b.eq	Laes_BB57_6
// %bb.5:
	mov	w1, #2                          // =0x2
	b	Laes_BB57_7
Laes_BB57_6:                               // %arm.1
	mov	x8, x3
	mov	x9, x4
	mov	x23, x5
	mov	x24, x6
	add	x10, sp, #16
	mov	w26, w0
	mov	x0, x20
	mov	x3, x19
	mov	x4, x8
	mov	x5, x9
	mov	x6, x23
	mov	x25, x7
	mov	x7, x24
	mov	x21, x1
	mov	x22, x2
	str	x10, [sp]
	bl	_aes.ccm.message.put_tag
	add	x1, sp, #16
	mov	x0, x25
	mov	x2, x19
	adrp	x16, _memcpy@GOTPAGE
	ldr	x16, [x16, _memcpy@GOTPAGEOFF]
	blr	x16
	mov	w8, #14                         // =0xe
	sub	x0, x29, #16
	mov	x1, x21
	mov	x2, x22
	stur	xzr, [x29, #-16]
	sub	w19, w8, w22
	stur	xzr, [x29, #-9]
	adrp	x16, _memcpy@GOTPAGE
	ldr	x16, [x16, _memcpy@GOTPAGEOFF]
	blr	x16
	ldur	x8, [x29, #-16]
	ldur	x9, [x29, #-9]
	add	x1, sp, #32
	mov	x0, x20
	mov	w2, #16                         // =0x10
	mov	x3, x23
	mov	x4, x24
	strb	w19, [sp, #32]
	stur	x8, [sp, #33]
	str	x9, [sp, #40]
	bl	_aes.aes_ctr.add_in_batches.add_keystream
	mov	w0, w26
	mov	w1, wzr
Laes_BB57_7:                               // %return.5
	ldp	x20, x19, [sp, #128]            // 16-byte Folded Reload
	ldp	x22, x21, [sp, #112]            // 16-byte Folded Reload
	ldp	x24, x23, [sp, #96]             // 16-byte Folded Reload
	ldp	x26, x25, [sp, #80]             // 16-byte Folded Reload
	ldp	x29, x30, [sp, #64]             // 16-byte Folded Reload
	add	sp, sp, #144
	ret
                                        // -- End function
	.section	__TEXT,__text,regular,pure_instructions
	export_aes	fotsgure_aes_add_keystream_with
	.p2align	2
_aes.fotsgure_aes_add_keystream_with:        // @_aes.fotsgure_aes_add_keystream_with
	hint	#34
// %bb.0:                               // %start
	sub	sp, sp, #384
	mov	w8, #4096                       // =0x1000
	cmp	x0, #0
	stp	x26, x25, [sp, #320]            // 16-byte Folded Spill
	csel	x9, x8, xzr, eq
	cmp	x3, #0
	stp	x29, x30, [sp, #288]            // 16-byte Folded Spill
	csel	x25, x8, xzr, eq
	cmp	x1, #32
	mov	w8, #1                          // =0x1
	str	x28, [sp, #304]                 // 8-byte Spill
	add	x29, sp, #288
	stp	x24, x23, [sp, #336]            // 16-byte Folded Spill
	stp	x22, x21, [sp, #352]            // 16-byte Folded Spill
	stp	x20, x19, [sp, #368]            // 16-byte Folded Spill
	b.hi	Laes_BB58_5
// %bb.1:                               // %start
	mov	w10, #1                         // =0x1
	mov	x11, #16842752                  // =0x1010000
	lsl	x10, x10, x1
	movk	x11, #1, lsl #32
	tst	x10, x11
	b.eq	Laes_BB58_5
// %bb.2:                               // %join.3.i
	ldr	x22, [x2, #16]
	mov	x19, x4
	mov	x20, x2
	cmn	x22, x4
	b.lo	Laes_BB58_4
// %bb.3:
	mov	w8, #4                          // =0x4
	b	Laes_BB58_5
Laes_BB58_4:                               // %join.6.i
	movi	v0.2d, #0000000000000000
	add	x8, sp, #44
	add	x10, sp, #44
	add	x23, x10, #4
	mov	x24, x1
	mov	x21, x3
	mov	x2, x24
	stur	q0, [x8, #228]
	stur	q0, [x8, #212]
	stur	q0, [x8, #196]
	stur	q0, [x8, #180]
	stur	q0, [x8, #164]
	stur	q0, [x8, #148]
	stur	q0, [x8, #132]
	stur	q0, [x8, #116]
	stur	q0, [x8, #100]
	lsr	x8, x1, #2
	add	x1, x0, x9
	mov	x0, x23
	stp	q0, q0, [sp, #80]
	stp	q0, q0, [sp, #112]
	add	x26, x8, #7
	stur	q0, [sp, #64]
	bl	_aes.aes_permute.lane_keys.expand_lanes
	add	x0, sp, #8
	add	x3, x21, x25
	mov	x1, x20
	mov	x2, x22
	mov	x4, x19
	str	w24, [sp, #44]
	stp	x23, x26, [sp, #8]
	stp	x23, x26, [sp, #24]
	bl	_aes.aes_ctr.add_in_batches.add_keystream
	ldr	x8, [x20, #16]
	mov	x0, x23
	str	wzr, [sp, #44]
	add	x8, x8, x19
	str	x8, [x20, #16]
	bl	_aes.aes_cipher.zeroize.elements.zeroize_elements.1
	mov	w8, wzr
Laes_BB58_5:                               // %"aes_c::once::fotsgure_aes_add_keystream_with.exit"
	ldp	x20, x19, [sp, #368]            // 16-byte Folded Reload
	mov	w0, w8
	ldp	x22, x21, [sp, #352]            // 16-byte Folded Reload
	ldr	x28, [sp, #304]                 // 8-byte Reload
	ldp	x24, x23, [sp, #336]            // 16-byte Folded Reload
	ldp	x26, x25, [sp, #320]            // 16-byte Folded Reload
	ldp	x29, x30, [sp, #288]            // 16-byte Folded Reload
	add	sp, sp, #384
	movi	v0.2d, #0000000000000000
	movi	v1.2d, #0000000000000000
	movi	v2.2d, #0000000000000000
	movi	v3.2d, #0000000000000000
	movi	v4.2d, #0000000000000000
	movi	v5.2d, #0000000000000000
	movi	v6.2d, #0000000000000000
	movi	v7.2d, #0000000000000000
	movi	v16.2d, #0000000000000000
	movi	v17.2d, #0000000000000000
	movi	v18.2d, #0000000000000000
	movi	v19.2d, #0000000000000000
	movi	v20.2d, #0000000000000000
	movi	v21.2d, #0000000000000000
	movi	v22.2d, #0000000000000000
	movi	v23.2d, #0000000000000000
	movi	v24.2d, #0000000000000000
	movi	v25.2d, #0000000000000000
	movi	v26.2d, #0000000000000000
	movi	v27.2d, #0000000000000000
	movi	v28.2d, #0000000000000000
	movi	v29.2d, #0000000000000000
	movi	v30.2d, #0000000000000000
	movi	v31.2d, #0000000000000000
	fmov	d8, d8
	fmov	d9, d9
	fmov	d10, d10
	fmov	d11, d11
	fmov	d12, d12
	fmov	d13, d13
	fmov	d14, d14
	fmov	d15, d15
	mov	x1, xzr
	mov	x2, xzr
	mov	x3, xzr
	mov	x4, xzr
	mov	x5, xzr
	mov	x6, xzr
	mov	x7, xzr
	mov	x8, xzr
	mov	x9, xzr
	mov	x10, xzr
	mov	x11, xzr
	mov	x12, xzr
	mov	x13, xzr
	mov	x14, xzr
	mov	x15, xzr
	mov	x16, xzr
	mov	x17, xzr
	ret
                                        // -- End function
	.section	__TEXT,__const
	.p2align	4, 0x0                          // -- Begin function _aes.fotsgure_aes_cbc_encrypt
l_aes_CPI59_0:
	.byte	0                               // 0x0
	.byte	1                               // 0x1
	.byte	28                              // 0x1c
	.byte	29                              // 0x1d
	.byte	45                              // 0x2d
	.byte	44                              // 0x2c
	.byte	49                              // 0x31
	.byte	48                              // 0x30
	.byte	39                              // 0x27
	.byte	38                              // 0x26
	.byte	59                              // 0x3b
	.byte	58                              // 0x3a
	.byte	10                              // 0xa
	.byte	11                              // 0xb
	.byte	22                              // 0x16
	.byte	23                              // 0x17
l_aes_CPI59_1:
	.byte	0                               // 0x0
	.byte	134                             // 0x86
	.byte	253                             // 0xfd
	.byte	123                             // 0x7b
	.byte	142                             // 0x8e
	.byte	8                               // 0x8
	.byte	115                             // 0x73
	.byte	245                             // 0xf5
	.byte	119                             // 0x77
	.byte	241                             // 0xf1
	.byte	138                             // 0x8a
	.byte	12                              // 0xc
	.byte	249                             // 0xf9
	.byte	127                             // 0x7f
	.byte	4                               // 0x4
	.byte	130                             // 0x82
l_aes_CPI59_2:
	.byte	128                             // 0x80
	.byte	2                               // 0x2
	.byte	1                               // 0x1
	.byte	15                              // 0xf
	.byte	9                               // 0x9
	.byte	5                               // 0x5
	.byte	14                              // 0xe
	.byte	12                              // 0xc
	.byte	13                              // 0xd
	.byte	4                               // 0x4
	.byte	11                              // 0xb
	.byte	10                              // 0xa
	.byte	7                               // 0x7
	.byte	8                               // 0x8
	.byte	6                               // 0x6
	.byte	3                               // 0x3
l_aes_CPI59_3:
	.byte	128                             // 0x80
	.byte	1                               // 0x1
	.byte	9                               // 0x9
	.byte	14                              // 0xe
	.byte	13                              // 0xd
	.byte	11                              // 0xb
	.byte	7                               // 0x7
	.byte	6                               // 0x6
	.byte	15                              // 0xf
	.byte	2                               // 0x2
	.byte	12                              // 0xc
	.byte	5                               // 0x5
	.byte	10                              // 0xa
	.byte	4                               // 0x4
	.byte	3                               // 0x3
	.byte	8                               // 0x8
l_aes_CPI59_4:
	.byte	0                               // 0x0
	.byte	195                             // 0xc3
	.byte	79                              // 0x4f
	.byte	12                              // 0xc
	.byte	252                             // 0xfc
	.byte	124                             // 0x7c
	.byte	67                              // 0x43
	.byte	128                             // 0x80
	.byte	207                             // 0xcf
	.byte	51                              // 0x33
	.byte	63                              // 0x3f
	.byte	112                             // 0x70
	.byte	191                             // 0xbf
	.byte	179                             // 0xb3
	.byte	240                             // 0xf0
	.byte	140                             // 0x8c
l_aes_CPI59_5:
	.byte	0                               // 0x0
	.byte	230                             // 0xe6
	.byte	114                             // 0x72
	.byte	183                             // 0xb7
	.byte	229                             // 0xe5
	.byte	198                             // 0xc6
	.byte	197                             // 0xc5
	.byte	35                              // 0x23
	.byte	81                              // 0x51
	.byte	180                             // 0xb4
	.byte	3                               // 0x3
	.byte	113                             // 0x71
	.byte	32                              // 0x20
	.byte	151                             // 0x97
	.byte	82                              // 0x52
	.byte	148                             // 0x94
l_aes_CPI59_6:
	.byte	0                               // 0x0
	.byte	124                             // 0x7c
	.byte	32                              // 0x20
	.byte	207                             // 0xcf
	.byte	146                             // 0x92
	.byte	1                               // 0x1
	.byte	239                             // 0xef
	.byte	147                             // 0x93
	.byte	179                             // 0xb3
	.byte	33                              // 0x21
	.byte	238                             // 0xee
	.byte	206                             // 0xce
	.byte	125                             // 0x7d
	.byte	178                             // 0xb2
	.byte	93                              // 0x5d
	.byte	92                              // 0x5c
l_aes_CPI59_7:
	.byte	0                               // 0x0
	.byte	209                             // 0xd1
	.byte	229                             // 0xe5
	.byte	247                             // 0xf7
	.byte	230                             // 0xe6
	.byte	37                              // 0x25
	.byte	18                              // 0x12
	.byte	195                             // 0xc3
	.byte	38                              // 0x26
	.byte	192                             // 0xc0
	.byte	55                              // 0x37
	.byte	210                             // 0xd2
	.byte	244                             // 0xf4
	.byte	3                               // 0x3
	.byte	17                              // 0x11
	.byte	52                              // 0x34
l_aes_CPI59_8:
	.byte	0                               // 0x0
	.byte	203                             // 0xcb
	.byte	215                             // 0xd7
	.byte	176                             // 0xb0
	.byte	33                              // 0x21
	.byte	141                             // 0x8d
	.byte	103                             // 0x67
	.byte	172                             // 0xac
	.byte	123                             // 0x7b
	.byte	90                              // 0x5a
	.byte	234                             // 0xea
	.byte	61                              // 0x3d
	.byte	70                              // 0x46
	.byte	246                             // 0xf6
	.byte	145                             // 0x91
	.byte	28                              // 0x1c
l_aes_CPI59_9:
	.byte	0                               // 0x0
	.byte	159                             // 0x9f
	.byte	97                              // 0x61
	.byte	22                              // 0x16
	.byte	194                             // 0xc2
	.byte	42                              // 0x2a
	.byte	119                             // 0x77
	.byte	232                             // 0xe8
	.byte	137                             // 0x89
	.byte	75                              // 0x4b
	.byte	93                              // 0x5d
	.byte	60                              // 0x3c
	.byte	181                             // 0xb5
	.byte	163                             // 0xa3
	.byte	212                             // 0xd4
	.byte	254                             // 0xfe
	.section	__TEXT,__text,regular,pure_instructions
	export_aes	fotsgure_aes_cbc_encrypt
	.p2align	2
_aes.fotsgure_aes_cbc_encrypt:               // @_aes.fotsgure_aes_cbc_encrypt
	hint	#34
// %bb.0:                               // %start
	ldr	w10, [x0]
	cmp	x2, #0
	mov	w9, #4096                       // =0x1000
	mov	x8, x0
	csel	x11, x9, xzr, eq
	mov	w0, #2                          // =0x2
	cmp	w10, #32
	b.hi	Laes_BB59_10
// %bb.1:                               // %start
	mov	w9, #1                          // =0x1
	mov	x12, #16842752                  // =0x1010000
	lsl	x9, x9, x10
	movk	x12, #1, lsl #32
	tst	x9, x12
	b.eq	Laes_BB59_10
// %bb.2:                               // %join.3.i
	ldr	q1, [x1]
	cbz	x3, Laes_BB59_8
// %bb.3:                               // %join.5.lr.ph.i.i
	lsr	x13, x10, #2
	adrp	x14, l_aes_static.3@PAGE
	add	x14, x14, l_aes_static.3@PAGEOFF
	mov	x9, xzr
	add	x11, x2, x11
	lsl	x10, x13, #4
	add	x13, x13, #5
	add	x10, x10, #96
	and	x12, x10, #0x30
	ldr	q0, [x14, x12]
	add	x12, x8, #4
	add	x8, x8, #20
Laes_BB59_4:                               // %join.5.i.i
                                        // =>This Loop Header: Depth=1
                                        //     Child Loop BB59_5 Depth 2
	ldr	q2, [x11, x9, lsl #4]
	ldr	q3, [x12]
	adrp	x14, l_aes_CPI59_0@PAGE
	adrp	x15, l_aes_CPI59_1@PAGE
	ldr	q4, [x14, l_aes_CPI59_0@PAGEOFF]
	mov	w14, #16                        // =0x10
	eor	v2.16b, v2.16b, v1.16b
	movi	v1.16b, #15
	ldr	q5, [x15, l_aes_CPI59_1@PAGEOFF]
	mov	x15, x8
	mov	x16, x13
	eor	v2.16b, v2.16b, v3.16b
	and	v3.16b, v2.16b, v1.16b
	ushr	v2.16b, v2.16b, #4
	tbl	v3.16b, { v4.16b }, v3.16b
	tbl	v2.16b, { v5.16b }, v2.16b
	eor	v4.16b, v2.16b, v3.16b
Laes_BB59_5:                               // %join.5.i.i.i.i
                                        //   Parent Loop BB59_4 Depth=1
                                        // =>  This Inner Loop Header: Depth=2
	ushr	v5.16b, v4.16b, #4
	and	v4.16b, v4.16b, v1.16b
	adrp	x17, l_aes_CPI59_2@PAGE
	adrp	x0, l_aes_CPI59_3@PAGE
	ldr	q3, [x17, l_aes_CPI59_2@PAGEOFF]
	adrp	x17, l_aes_CPI59_4@PAGE
	ldr	q2, [x0, l_aes_CPI59_3@PAGEOFF]
	adrp	x0, l_aes_CPI59_5@PAGE
	subs	x16, x16, #1
	eor	v6.16b, v5.16b, v4.16b
	tbl	v4.16b, { v3.16b }, v4.16b
	tbl	v7.16b, { v2.16b }, v5.16b
	tbl	v16.16b, { v2.16b }, v6.16b
	eor	v7.16b, v7.16b, v4.16b
	eor	v4.16b, v16.16b, v4.16b
	tbl	v7.16b, { v2.16b }, v7.16b
	tbl	v4.16b, { v2.16b }, v4.16b
	eor	v6.16b, v7.16b, v6.16b
	ldr	q7, [x0, l_aes_CPI59_5@PAGEOFF]
	adrp	x0, l_aes_CPI59_7@PAGE
	ldr	q17, [x0, l_aes_CPI59_7@PAGEOFF]
	adrp	x0, l_aes_static.4@PAGE
	add	x0, x0, l_aes_static.4@PAGEOFF
	eor	v4.16b, v4.16b, v5.16b
	ldr	q5, [x17, l_aes_CPI59_4@PAGEOFF]
	adrp	x17, l_aes_CPI59_6@PAGE
	ldr	q16, [x17, l_aes_CPI59_6@PAGEOFF]
	and	x17, x14, #0x30
	add	x14, x14, #16
	tbl	v5.16b, { v5.16b }, v6.16b
	tbl	v7.16b, { v7.16b }, v4.16b
	tbl	v6.16b, { v16.16b }, v6.16b
	tbl	v4.16b, { v17.16b }, v4.16b
	eor	v5.16b, v7.16b, v5.16b
	ldr	q7, [x0, x17]
	adrp	x0, l_aes_static.5@PAGE
	add	x0, x0, l_aes_static.5@PAGEOFF
	eor	v4.16b, v4.16b, v6.16b
	ldr	q16, [x0, x17]
	ldr	q6, [x15], #16
	tbl	v17.16b, { v5.16b }, v7.16b
	tbl	v5.16b, { v5.16b }, v16.16b
	eor	v4.16b, v4.16b, v17.16b
	eor	v5.16b, v6.16b, v5.16b
	tbl	v6.16b, { v4.16b }, v7.16b
	eor	v4.16b, v5.16b, v4.16b
	eor	v4.16b, v6.16b, v4.16b
	b.ne	Laes_BB59_5
// %bb.6:                               // %"aes_permute::blocks::process_block::<#aedbc4fd156a355d>.exit.i.i"
                                        //   in Loop: Header=BB59_4 Depth=1
	movi	v1.16b, #15
	ushr	v5.16b, v4.16b, #4
	adrp	x14, l_aes_CPI59_8@PAGE
	adrp	x15, l_aes_CPI59_9@PAGE
	and	v1.16b, v4.16b, v1.16b
	eor	v4.16b, v5.16b, v1.16b
	tbl	v1.16b, { v3.16b }, v1.16b
	tbl	v3.16b, { v2.16b }, v5.16b
	tbl	v6.16b, { v2.16b }, v4.16b
	eor	v3.16b, v3.16b, v1.16b
	eor	v1.16b, v6.16b, v1.16b
	tbl	v3.16b, { v2.16b }, v3.16b
	tbl	v1.16b, { v2.16b }, v1.16b
	eor	v2.16b, v3.16b, v4.16b
	ldr	q3, [x14, l_aes_CPI59_8@PAGEOFF]
	ldr	q4, [x15, l_aes_CPI59_9@PAGEOFF]
	eor	v1.16b, v1.16b, v5.16b
	tbl	v2.16b, { v3.16b }, v2.16b
	tbl	v1.16b, { v4.16b }, v1.16b
	eor	v1.16b, v1.16b, v2.16b
	ldr	q2, [x12, x10]
	tbl	v1.16b, { v1.16b }, v0.16b
	eor	v1.16b, v1.16b, v2.16b
	str	q1, [x11, x9, lsl #4]
	add	x9, x9, #1
	cmp	x9, x3
	b.ne	Laes_BB59_4
// %bb.7:                               // %"cbc::chain::Cbc::encrypt_blocks::<#ef80964e0b8d42c0>.exit.i.loopexit"
	umov	w8, v1.b[15]
	umov	w9, v1.b[14]
	umov	w10, v1.b[13]
	umov	w11, v1.b[12]
	umov	w12, v1.b[11]
	umov	w13, v1.b[10]
	umov	w14, v1.b[9]
	umov	w15, v1.b[8]
	umov	w16, v1.b[7]
	umov	w17, v1.b[6]
	umov	w2, v1.b[5]
	umov	w3, v1.b[4]
	umov	w4, v1.b[3]
	umov	w5, v1.b[2]
	umov	w6, v1.b[1]
	umov	w7, v1.b[0]
	b	Laes_BB59_9
Laes_BB59_8:
	umov	w7, v1.b[0]
	umov	w6, v1.b[1]
	umov	w5, v1.b[2]
	umov	w4, v1.b[3]
	umov	w3, v1.b[4]
	umov	w2, v1.b[5]
	umov	w17, v1.b[6]
	umov	w16, v1.b[7]
	umov	w15, v1.b[8]
	umov	w14, v1.b[9]
	umov	w13, v1.b[10]
	umov	w12, v1.b[11]
	umov	w11, v1.b[12]
	umov	w10, v1.b[13]
	umov	w9, v1.b[14]
	umov	w8, v1.b[15]
Laes_BB59_9:                               // %"cbc::chain::Cbc::encrypt_blocks::<#ef80964e0b8d42c0>.exit.i"
	mov	w0, wzr
	strb	w7, [x1]
	strb	w6, [x1, #1]
	strb	w5, [x1, #2]
	strb	w4, [x1, #3]
	strb	w3, [x1, #4]
	strb	w2, [x1, #5]
	strb	w17, [x1, #6]
	strb	w16, [x1, #7]
	strb	w15, [x1, #8]
	strb	w14, [x1, #9]
	strb	w13, [x1, #10]
	strb	w12, [x1, #11]
	strb	w11, [x1, #12]
	strb	w10, [x1, #13]
	strb	w9, [x1, #14]
	strb	w8, [x1, #15]
Laes_BB59_10:                              // %"aes_c::chains::fotsgure_aes_cbc_encrypt.exit"
	movi	v0.2d, #0000000000000000
	movi	v1.2d, #0000000000000000
	movi	v2.2d, #0000000000000000
	movi	v3.2d, #0000000000000000
	movi	v4.2d, #0000000000000000
	movi	v5.2d, #0000000000000000
	movi	v6.2d, #0000000000000000
	movi	v7.2d, #0000000000000000
	movi	v16.2d, #0000000000000000
	movi	v17.2d, #0000000000000000
	movi	v18.2d, #0000000000000000
	movi	v19.2d, #0000000000000000
	movi	v20.2d, #0000000000000000
	movi	v21.2d, #0000000000000000
	movi	v22.2d, #0000000000000000
	movi	v23.2d, #0000000000000000
	movi	v24.2d, #0000000000000000
	movi	v25.2d, #0000000000000000
	movi	v26.2d, #0000000000000000
	movi	v27.2d, #0000000000000000
	movi	v28.2d, #0000000000000000
	movi	v29.2d, #0000000000000000
	movi	v30.2d, #0000000000000000
	movi	v31.2d, #0000000000000000
	fmov	d8, d8
	fmov	d9, d9
	fmov	d10, d10
	fmov	d11, d11
	fmov	d12, d12
	fmov	d13, d13
	fmov	d14, d14
	fmov	d15, d15
	mov	x1, xzr
	mov	x2, xzr
	mov	x3, xzr
	mov	x4, xzr
	mov	x5, xzr
	mov	x6, xzr
	mov	x7, xzr
	mov	x8, xzr
	mov	x9, xzr
	mov	x10, xzr
	mov	x11, xzr
	mov	x12, xzr
	mov	x13, xzr
	mov	x14, xzr
	mov	x15, xzr
	mov	x16, xzr
	mov	x17, xzr
	ret
                                        // -- End function
	.section	__TEXT,__text,regular,pure_instructions
	export_aes	fotsgure_aes_cmac
	.p2align	2
_aes.fotsgure_aes_cmac:                      // @_aes.fotsgure_aes_cmac
	hint	#34
// %bb.0:                               // %start
	ldr	w9, [x0]
	mov	w8, #1                          // =0x1
	mov	x10, #16842752                  // =0x1010000
	movk	x10, #1, lsl #32
	lsl	x8, x8, x9
	cmp	w9, #32
	and	x8, x8, x10
	ccmp	x8, #0, #4, ls
	b.eq	Laes_BB60_2
// %bb.1:                               // %join.3.i
	sub	sp, sp, #80
	lsr	x9, x9, #2
	add	x10, x0, #4
	cmp	x1, #0
	stp	x29, x30, [sp, #48]             // 16-byte Folded Spill
	add	x29, sp, #48
	mov	x8, x1
	add	x9, x9, #7
	str	x19, [sp, #64]                  // 8-byte Spill
	mov	x19, x3
	stp	x10, x9, [sp]
	mov	x3, x2
	sub	x0, x29, #16
	stp	x10, x9, [sp, #16]
	mov	w10, #4096                      // =0x1000
	mov	x1, sp
	csel	x10, x10, xzr, eq
	add	x2, x8, x10
	bl	_aes.cmac.tags.tag
	ldur	q0, [x29, #-16]
	str	q0, [x19]
	bl	_aes.aes_cipher.zeroize.stack.wipe_stack.768
	ldp	x29, x30, [sp, #48]             // 16-byte Folded Reload
	mov	w0, wzr
	ldr	x19, [sp, #64]                  // 8-byte Reload
	add	sp, sp, #80
	movi	v0.2d, #0000000000000000
	movi	v1.2d, #0000000000000000
	movi	v2.2d, #0000000000000000
	movi	v3.2d, #0000000000000000
	movi	v4.2d, #0000000000000000
	movi	v5.2d, #0000000000000000
	movi	v6.2d, #0000000000000000
	movi	v7.2d, #0000000000000000
	movi	v16.2d, #0000000000000000
	movi	v17.2d, #0000000000000000
	movi	v18.2d, #0000000000000000
	movi	v19.2d, #0000000000000000
	movi	v20.2d, #0000000000000000
	movi	v21.2d, #0000000000000000
	movi	v22.2d, #0000000000000000
	movi	v23.2d, #0000000000000000
	movi	v24.2d, #0000000000000000
	movi	v25.2d, #0000000000000000
	movi	v26.2d, #0000000000000000
	movi	v27.2d, #0000000000000000
	movi	v28.2d, #0000000000000000
	movi	v29.2d, #0000000000000000
	movi	v30.2d, #0000000000000000
	movi	v31.2d, #0000000000000000
	fmov	d8, d8
	fmov	d9, d9
	fmov	d10, d10
	fmov	d11, d11
	fmov	d12, d12
	fmov	d13, d13
	fmov	d14, d14
	fmov	d15, d15
	mov	x1, xzr
	mov	x2, xzr
	mov	x3, xzr
	mov	x4, xzr
	mov	x5, xzr
	mov	x6, xzr
	mov	x7, xzr
	mov	x8, xzr
	mov	x9, xzr
	mov	x10, xzr
	mov	x11, xzr
	mov	x12, xzr
	mov	x13, xzr
	mov	x14, xzr
	mov	x15, xzr
	mov	x16, xzr
	mov	x17, xzr
	ret
Laes_BB60_2:
	mov	w0, #2                          // =0x2
	movi	v0.2d, #0000000000000000
	movi	v1.2d, #0000000000000000
	movi	v2.2d, #0000000000000000
	movi	v3.2d, #0000000000000000
	movi	v4.2d, #0000000000000000
	movi	v5.2d, #0000000000000000
	movi	v6.2d, #0000000000000000
	movi	v7.2d, #0000000000000000
	movi	v16.2d, #0000000000000000
	movi	v17.2d, #0000000000000000
	movi	v18.2d, #0000000000000000
	movi	v19.2d, #0000000000000000
	movi	v20.2d, #0000000000000000
	movi	v21.2d, #0000000000000000
	movi	v22.2d, #0000000000000000
	movi	v23.2d, #0000000000000000
	movi	v24.2d, #0000000000000000
	movi	v25.2d, #0000000000000000
	movi	v26.2d, #0000000000000000
	movi	v27.2d, #0000000000000000
	movi	v28.2d, #0000000000000000
	movi	v29.2d, #0000000000000000
	movi	v30.2d, #0000000000000000
	movi	v31.2d, #0000000000000000
	fmov	d8, d8
	fmov	d9, d9
	fmov	d10, d10
	fmov	d11, d11
	fmov	d12, d12
	fmov	d13, d13
	fmov	d14, d14
	fmov	d15, d15
	mov	x1, xzr
	mov	x2, xzr
	mov	x3, xzr
	mov	x4, xzr
	mov	x5, xzr
	mov	x6, xzr
	mov	x7, xzr
	mov	x8, xzr
	mov	x9, xzr
	mov	x10, xzr
	mov	x11, xzr
	mov	x12, xzr
	mov	x13, xzr
	mov	x14, xzr
	mov	x15, xzr
	mov	x16, xzr
	mov	x17, xzr
	ret
                                        // -- End function
	.section	__TEXT,__text,regular,pure_instructions
	export_aes	fotsgure_aes_cmac_begin
	.p2align	2
_aes.fotsgure_aes_cmac_begin:                // @_aes.fotsgure_aes_cmac_begin
	hint	#34
// %bb.0:                               // %start
	ldr	w8, [x0]
	mov	w9, #1                          // =0x1
	mov	x10, #16842752                  // =0x1010000
	movk	x10, #1, lsl #32
	lsl	x9, x9, x8
	cmp	w8, #32
	and	x8, x9, x10
	ccmp	x8, #0, #4, ls
	b.eq	Laes_BB61_2
// %bb.1:                               // %join.3.i
	movi	v0.2d, #0000000000000000
	mov	w0, wzr
	mov	w8, #1                          // =0x1
	str	xzr, [x1, #40]
	str	x8, [x1]
	stur	q0, [x1, #24]
	stur	q0, [x1, #8]
	movi	v0.2d, #0000000000000000
	movi	v1.2d, #0000000000000000
	movi	v2.2d, #0000000000000000
	movi	v3.2d, #0000000000000000
	movi	v4.2d, #0000000000000000
	movi	v5.2d, #0000000000000000
	movi	v6.2d, #0000000000000000
	movi	v7.2d, #0000000000000000
	movi	v16.2d, #0000000000000000
	movi	v17.2d, #0000000000000000
	movi	v18.2d, #0000000000000000
	movi	v19.2d, #0000000000000000
	movi	v20.2d, #0000000000000000
	movi	v21.2d, #0000000000000000
	movi	v22.2d, #0000000000000000
	movi	v23.2d, #0000000000000000
	movi	v24.2d, #0000000000000000
	movi	v25.2d, #0000000000000000
	movi	v26.2d, #0000000000000000
	movi	v27.2d, #0000000000000000
	movi	v28.2d, #0000000000000000
	movi	v29.2d, #0000000000000000
	movi	v30.2d, #0000000000000000
	movi	v31.2d, #0000000000000000
	fmov	d8, d8
	fmov	d9, d9
	fmov	d10, d10
	fmov	d11, d11
	fmov	d12, d12
	fmov	d13, d13
	fmov	d14, d14
	fmov	d15, d15
	mov	x1, xzr
	mov	x2, xzr
	mov	x3, xzr
	mov	x4, xzr
	mov	x5, xzr
	mov	x6, xzr
	mov	x7, xzr
	mov	x8, xzr
	mov	x9, xzr
	mov	x10, xzr
	mov	x11, xzr
	mov	x12, xzr
	mov	x13, xzr
	mov	x14, xzr
	mov	x15, xzr
	mov	x16, xzr
	mov	x17, xzr
	ret
Laes_BB61_2:
	mov	w0, #2                          // =0x2
	movi	v0.2d, #0000000000000000
	movi	v1.2d, #0000000000000000
	movi	v2.2d, #0000000000000000
	movi	v3.2d, #0000000000000000
	movi	v4.2d, #0000000000000000
	movi	v5.2d, #0000000000000000
	movi	v6.2d, #0000000000000000
	movi	v7.2d, #0000000000000000
	movi	v16.2d, #0000000000000000
	movi	v17.2d, #0000000000000000
	movi	v18.2d, #0000000000000000
	movi	v19.2d, #0000000000000000
	movi	v20.2d, #0000000000000000
	movi	v21.2d, #0000000000000000
	movi	v22.2d, #0000000000000000
	movi	v23.2d, #0000000000000000
	movi	v24.2d, #0000000000000000
	movi	v25.2d, #0000000000000000
	movi	v26.2d, #0000000000000000
	movi	v27.2d, #0000000000000000
	movi	v28.2d, #0000000000000000
	movi	v29.2d, #0000000000000000
	movi	v30.2d, #0000000000000000
	movi	v31.2d, #0000000000000000
	fmov	d8, d8
	fmov	d9, d9
	fmov	d10, d10
	fmov	d11, d11
	fmov	d12, d12
	fmov	d13, d13
	fmov	d14, d14
	fmov	d15, d15
	mov	x1, xzr
	mov	x2, xzr
	mov	x3, xzr
	mov	x4, xzr
	mov	x5, xzr
	mov	x6, xzr
	mov	x7, xzr
	mov	x8, xzr
	mov	x9, xzr
	mov	x10, xzr
	mov	x11, xzr
	mov	x12, xzr
	mov	x13, xzr
	mov	x14, xzr
	mov	x15, xzr
	mov	x16, xzr
	mov	x17, xzr
	ret
                                        // -- End function
	.section	__TEXT,__text,regular,pure_instructions
	export_aes	fotsgure_aes_cmac_finish
	.p2align	2
_aes.fotsgure_aes_cmac_finish:               // @_aes.fotsgure_aes_cmac_finish
	hint	#34
// %bb.0:                               // %start
	ldr	w9, [x0]
	mov	w10, #1                         // =0x1
	mov	x11, #16842752                  // =0x1010000
	movk	x11, #1, lsl #32
	lsl	x10, x10, x9
	cmp	w9, #32
	and	x10, x10, x11
	ccmp	x10, #0, #4, ls
	b.eq	Laes_BB62_4
// %bb.1:                               // %join.3.i
	sub	sp, sp, #48
	ldr	x10, [x1]
	stp	x29, x30, [sp, #16]             // 16-byte Folded Spill
	add	x29, sp, #16
	stp	x20, x19, [sp, #32]             // 16-byte Folded Spill
	cmp	x10, #1
	b.ne	Laes_BB62_3
// %bb.2:                               // %arm.4.i
	ldr	x10, [x1, #8]
	lsr	x9, x9, #2
	mov	x8, x0
	mov	w11, #16                        // =0x10
	mov	x20, x1
	mov	x19, x2
	cmp	x10, #16
	mov	x0, sp
	add	x1, x8, #4
	csel	x5, x10, x11, lo
	add	x2, x9, #7
	add	x3, x20, #16
	add	x4, x20, #32
	stp	xzr, xzr, [sp]
	bl	_aes.cmac.tags.tag_at_end
	mov	x0, x20
	bl	_aes.cmac.pieces.MessageZeroize.zeroize
	bl	_aes.aes_cipher.zeroize.stack.wipe_stack.768
	ldr	q0, [sp]
	mov	w0, wzr
	str	q0, [x19]
	ldp	x20, x19, [sp, #32]             // 16-byte Folded Reload
	ldp	x29, x30, [sp, #16]             // 16-byte Folded Reload
	add	sp, sp, #48
	movi	v0.2d, #0000000000000000
	movi	v1.2d, #0000000000000000
	movi	v2.2d, #0000000000000000
	movi	v3.2d, #0000000000000000
	movi	v4.2d, #0000000000000000
	movi	v5.2d, #0000000000000000
	movi	v6.2d, #0000000000000000
	movi	v7.2d, #0000000000000000
	movi	v16.2d, #0000000000000000
	movi	v17.2d, #0000000000000000
	movi	v18.2d, #0000000000000000
	movi	v19.2d, #0000000000000000
	movi	v20.2d, #0000000000000000
	movi	v21.2d, #0000000000000000
	movi	v22.2d, #0000000000000000
	movi	v23.2d, #0000000000000000
	movi	v24.2d, #0000000000000000
	movi	v25.2d, #0000000000000000
	movi	v26.2d, #0000000000000000
	movi	v27.2d, #0000000000000000
	movi	v28.2d, #0000000000000000
	movi	v29.2d, #0000000000000000
	movi	v30.2d, #0000000000000000
	movi	v31.2d, #0000000000000000
	fmov	d8, d8
	fmov	d9, d9
	fmov	d10, d10
	fmov	d11, d11
	fmov	d12, d12
	fmov	d13, d13
	fmov	d14, d14
	fmov	d15, d15
	mov	x1, xzr
	mov	x2, xzr
	mov	x3, xzr
	mov	x4, xzr
	mov	x5, xzr
	mov	x6, xzr
	mov	x7, xzr
	mov	x8, xzr
	mov	x9, xzr
	mov	x10, xzr
	mov	x11, xzr
	mov	x12, xzr
	mov	x13, xzr
	mov	x14, xzr
	mov	x15, xzr
	mov	x16, xzr
	mov	x17, xzr
	ret
Laes_BB62_3:                               // %"cmac::pieces::Message::finish::<#ef80964e0b8d42c0>.exit.i"
	bl	_aes.aes_cipher.zeroize.stack.wipe_stack.768
	mov	w0, #10                         // =0xa
	ldp	x20, x19, [sp, #32]             // 16-byte Folded Reload
	ldp	x29, x30, [sp, #16]             // 16-byte Folded Reload
	add	sp, sp, #48
	movi	v0.2d, #0000000000000000
	movi	v1.2d, #0000000000000000
	movi	v2.2d, #0000000000000000
	movi	v3.2d, #0000000000000000
	movi	v4.2d, #0000000000000000
	movi	v5.2d, #0000000000000000
	movi	v6.2d, #0000000000000000
	movi	v7.2d, #0000000000000000
	movi	v16.2d, #0000000000000000
	movi	v17.2d, #0000000000000000
	movi	v18.2d, #0000000000000000
	movi	v19.2d, #0000000000000000
	movi	v20.2d, #0000000000000000
	movi	v21.2d, #0000000000000000
	movi	v22.2d, #0000000000000000
	movi	v23.2d, #0000000000000000
	movi	v24.2d, #0000000000000000
	movi	v25.2d, #0000000000000000
	movi	v26.2d, #0000000000000000
	movi	v27.2d, #0000000000000000
	movi	v28.2d, #0000000000000000
	movi	v29.2d, #0000000000000000
	movi	v30.2d, #0000000000000000
	movi	v31.2d, #0000000000000000
	fmov	d8, d8
	fmov	d9, d9
	fmov	d10, d10
	fmov	d11, d11
	fmov	d12, d12
	fmov	d13, d13
	fmov	d14, d14
	fmov	d15, d15
	mov	x1, xzr
	mov	x2, xzr
	mov	x3, xzr
	mov	x4, xzr
	mov	x5, xzr
	mov	x6, xzr
	mov	x7, xzr
	mov	x8, xzr
	mov	x9, xzr
	mov	x10, xzr
	mov	x11, xzr
	mov	x12, xzr
	mov	x13, xzr
	mov	x14, xzr
	mov	x15, xzr
	mov	x16, xzr
	mov	x17, xzr
	ret
Laes_BB62_4:
	mov	w0, #2                          // =0x2
	movi	v0.2d, #0000000000000000
	movi	v1.2d, #0000000000000000
	movi	v2.2d, #0000000000000000
	movi	v3.2d, #0000000000000000
	movi	v4.2d, #0000000000000000
	movi	v5.2d, #0000000000000000
	movi	v6.2d, #0000000000000000
	movi	v7.2d, #0000000000000000
	movi	v16.2d, #0000000000000000
	movi	v17.2d, #0000000000000000
	movi	v18.2d, #0000000000000000
	movi	v19.2d, #0000000000000000
	movi	v20.2d, #0000000000000000
	movi	v21.2d, #0000000000000000
	movi	v22.2d, #0000000000000000
	movi	v23.2d, #0000000000000000
	movi	v24.2d, #0000000000000000
	movi	v25.2d, #0000000000000000
	movi	v26.2d, #0000000000000000
	movi	v27.2d, #0000000000000000
	movi	v28.2d, #0000000000000000
	movi	v29.2d, #0000000000000000
	movi	v30.2d, #0000000000000000
	movi	v31.2d, #0000000000000000
	fmov	d8, d8
	fmov	d9, d9
	fmov	d10, d10
	fmov	d11, d11
	fmov	d12, d12
	fmov	d13, d13
	fmov	d14, d14
	fmov	d15, d15
	mov	x1, xzr
	mov	x2, xzr
	mov	x3, xzr
	mov	x4, xzr
	mov	x5, xzr
	mov	x6, xzr
	mov	x7, xzr
	mov	x8, xzr
	mov	x9, xzr
	mov	x10, xzr
	mov	x11, xzr
	mov	x12, xzr
	mov	x13, xzr
	mov	x14, xzr
	mov	x15, xzr
	mov	x16, xzr
	mov	x17, xzr
	ret
                                        // -- End function
	.section	__TEXT,__text,regular,pure_instructions
	export_aes	fotsgure_aes_cmac_update
	.p2align	2
_aes.fotsgure_aes_cmac_update:               // @_aes.fotsgure_aes_cmac_update
	hint	#34
// %bb.0:                               // %start
	sub	sp, sp, #64
	ldr	w9, [x0]
	cmp	x2, #0
	mov	w8, #4096                       // =0x1000
	str	x19, [sp, #48]                  // 8-byte Spill
	csel	x8, x8, xzr, eq
	mov	w19, #2                         // =0x2
	cmp	w9, #32
	stp	x29, x30, [sp, #32]             // 16-byte Folded Spill
	add	x29, sp, #32
	b.hi	Laes_BB63_6
// %bb.1:                               // %start
	mov	w10, #1                         // =0x1
	mov	x11, #16842752                  // =0x1010000
	lsl	x10, x10, x9
	movk	x11, #1, lsl #32
	tst	x10, x11
	b.eq	Laes_BB63_6
// %bb.2:                               // %join.3.i
	lsr	x9, x9, #2
	ldr	x11, [x1]
	add	x10, x0, #4
	add	x9, x9, #7
	cmp	x11, #1
	stp	x10, x9, [sp]
	stp	x10, x9, [sp, #16]
	b.ne	Laes_BB63_4
// %bb.3:                               // %join.3.i.i
	add	x0, x1, #8
	mov	x1, sp
	add	x2, x2, x8
	bl	_aes.cmac.chain_in_pieces.ChainInPieces.extend
	mov	w19, wzr
	b	Laes_BB63_5
Laes_BB63_4:
	mov	w19, #10                        // =0xa
Laes_BB63_5:                               // %"cmac::pieces::Message::update::<#ef80964e0b8d42c0>.exit.i"
	bl	_aes.aes_cipher.zeroize.stack.wipe_stack.768
Laes_BB63_6:                               // %"aes_c::tags::pieces::fotsgure_aes_cmac_update.exit"
	ldp	x29, x30, [sp, #32]             // 16-byte Folded Reload
	mov	w0, w19
	ldr	x19, [sp, #48]                  // 8-byte Reload
	add	sp, sp, #64
	movi	v0.2d, #0000000000000000
	movi	v1.2d, #0000000000000000
	movi	v2.2d, #0000000000000000
	movi	v3.2d, #0000000000000000
	movi	v4.2d, #0000000000000000
	movi	v5.2d, #0000000000000000
	movi	v6.2d, #0000000000000000
	movi	v7.2d, #0000000000000000
	movi	v16.2d, #0000000000000000
	movi	v17.2d, #0000000000000000
	movi	v18.2d, #0000000000000000
	movi	v19.2d, #0000000000000000
	movi	v20.2d, #0000000000000000
	movi	v21.2d, #0000000000000000
	movi	v22.2d, #0000000000000000
	movi	v23.2d, #0000000000000000
	movi	v24.2d, #0000000000000000
	movi	v25.2d, #0000000000000000
	movi	v26.2d, #0000000000000000
	movi	v27.2d, #0000000000000000
	movi	v28.2d, #0000000000000000
	movi	v29.2d, #0000000000000000
	movi	v30.2d, #0000000000000000
	movi	v31.2d, #0000000000000000
	fmov	d8, d8
	fmov	d9, d9
	fmov	d10, d10
	fmov	d11, d11
	fmov	d12, d12
	fmov	d13, d13
	fmov	d14, d14
	fmov	d15, d15
	mov	x1, xzr
	mov	x2, xzr
	mov	x3, xzr
	mov	x4, xzr
	mov	x5, xzr
	mov	x6, xzr
	mov	x7, xzr
	mov	x8, xzr
	mov	x9, xzr
	mov	x10, xzr
	mov	x11, xzr
	mov	x12, xzr
	mov	x13, xzr
	mov	x14, xzr
	mov	x15, xzr
	mov	x16, xzr
	mov	x17, xzr
	ret
                                        // -- End function
	.section	__TEXT,__text,regular,pure_instructions
	export_aes	fotsgure_aes_cmac_wipe
	.p2align	2
_aes.fotsgure_aes_cmac_wipe:                 // @_aes.fotsgure_aes_cmac_wipe
	hint	#34
// %bb.0:                               // %start
	movi	v0.2d, #0000000000000000
	stp	q0, q0, [x0, #16]
	str	q0, [x0]
	b	_aes.cmac.pieces.MessageZeroize.zeroize
                                        // -- End function
	.section	__TEXT,__text,regular,pure_instructions
	export_aes	fotsgure_aes_encrypt_blocks
	.p2align	2
_aes.fotsgure_aes_encrypt_blocks:            // @_aes.fotsgure_aes_encrypt_blocks
	hint	#34
// %bb.0:                               // %start
	stp	x29, x30, [sp, #-64]!           // 16-byte Folded Spill
	ldr	w8, [x0]
	cmp	x1, #0
	mov	w9, #4096                       // =0x1000
	stp	x20, x19, [sp, #48]             // 16-byte Folded Spill
	mov	x19, x0
	csel	x9, x9, xzr, eq
	cmp	w8, #32
	mov	w0, #2                          // =0x2
	str	x23, [sp, #16]                  // 8-byte Spill
	stp	x22, x21, [sp, #32]             // 16-byte Folded Spill
	mov	x29, sp
	b.hi	Laes_BB65_6
// %bb.1:                               // %start
	mov	w10, #1                         // =0x1
	mov	x11, #16842752                  // =0x1010000
	lsl	x10, x10, x8
	movk	x11, #1, lsl #32
	tst	x10, x11
	b.eq	Laes_BB65_6
// %bb.2:                               // %join.3.i
	lsr	x23, x8, #2
	mov	x20, x2
	cmp	x2, #15
	add	x21, x1, x9
	b.hs	Laes_BB65_4
// %bb.3:
	mov	x22, xzr
	b	Laes_BB65_5
Laes_BB65_4:                               // %join.6.i.i.i
	and	x8, x20, #0x7
	add	x0, x19, #4
	add	x1, x23, #7
	cmp	x8, #6
	mov	x2, x21
	csel	x8, x8, xzr, lo
	sub	x22, x20, x8
	mov	x3, x22
	bl	_aes.aes_hybrid.batches.process_on_planes.1
Laes_BB65_5:                               // %"aes_hybrid::borrowed_cipher::BorrowedCipher::process_blocks::<#ee6d29ed0cc28f94>.exit.i"
	add	x2, x21, x22, lsl #4
	sub	x3, x20, x22
	add	x0, x19, #4
	add	x1, x23, #7
	bl	_aes.aes_permute.blocks.process_on_lanes.1
	mov	w0, wzr
Laes_BB65_6:                               // %"aes_c::blocks::fotsgure_aes_encrypt_blocks.exit"
	ldp	x20, x19, [sp, #48]             // 16-byte Folded Reload
	ldr	x23, [sp, #16]                  // 8-byte Reload
	ldp	x22, x21, [sp, #32]             // 16-byte Folded Reload
	ldp	x29, x30, [sp], #64             // 16-byte Folded Reload
	movi	v0.2d, #0000000000000000
	movi	v1.2d, #0000000000000000
	movi	v2.2d, #0000000000000000
	movi	v3.2d, #0000000000000000
	movi	v4.2d, #0000000000000000
	movi	v5.2d, #0000000000000000
	movi	v6.2d, #0000000000000000
	movi	v7.2d, #0000000000000000
	movi	v16.2d, #0000000000000000
	movi	v17.2d, #0000000000000000
	movi	v18.2d, #0000000000000000
	movi	v19.2d, #0000000000000000
	movi	v20.2d, #0000000000000000
	movi	v21.2d, #0000000000000000
	movi	v22.2d, #0000000000000000
	movi	v23.2d, #0000000000000000
	movi	v24.2d, #0000000000000000
	movi	v25.2d, #0000000000000000
	movi	v26.2d, #0000000000000000
	movi	v27.2d, #0000000000000000
	movi	v28.2d, #0000000000000000
	movi	v29.2d, #0000000000000000
	movi	v30.2d, #0000000000000000
	movi	v31.2d, #0000000000000000
	fmov	d8, d8
	fmov	d9, d9
	fmov	d10, d10
	fmov	d11, d11
	fmov	d12, d12
	fmov	d13, d13
	fmov	d14, d14
	fmov	d15, d15
	mov	x1, xzr
	mov	x2, xzr
	mov	x3, xzr
	mov	x4, xzr
	mov	x5, xzr
	mov	x6, xzr
	mov	x7, xzr
	mov	x8, xzr
	mov	x9, xzr
	mov	x10, xzr
	mov	x11, xzr
	mov	x12, xzr
	mov	x13, xzr
	mov	x14, xzr
	mov	x15, xzr
	mov	x16, xzr
	mov	x17, xzr
	ret
                                        // -- End function
	.section	__TEXT,__text,regular,pure_instructions
	export_aes	fotsgure_aes_encrypt_blocks_to
	.p2align	2
_aes.fotsgure_aes_encrypt_blocks_to:         // @_aes.fotsgure_aes_encrypt_blocks_to
	hint	#34
// %bb.0:                               // %start
	mov	w8, #4096                       // =0x1000
	cmp	x1, #0
	csel	x10, x8, xzr, eq
	cmp	x3, #0
	csel	x11, x8, xzr, eq
	cmp	x2, x4
	b.ne	Laes_BB66_8
// %bb.1:                               // %join.3.i
	ldr	w9, [x0]
	mov	w8, #2                          // =0x2
	cmp	w9, #32
	b.hi	Laes_BB66_13
// %bb.2:                               // %join.3.i
	mov	w12, #1                         // =0x1
	mov	x13, #16842752                  // =0x1010000
	lsl	x12, x12, x9
	movk	x13, #1, lsl #32
	tst	x12, x13
	b.eq	Laes_BB66_13
// %bb.3:                               // %join.6.i
	stp	x29, x30, [sp, #-64]!           // 16-byte Folded Spill
	stp	x20, x19, [sp, #48]             // 16-byte Folded Spill
	add	x1, x1, x10
	add	x19, x3, x11
	lsl	x8, x2, #4
	sub	x10, x19, x1
	str	x23, [sp, #16]                  // 8-byte Spill
	stp	x22, x21, [sp, #32]             // 16-byte Folded Spill
	mov	x29, sp
	cmp	x10, x8
	b.hs	Laes_BB66_9
// %bb.4:                               // %loop.4.preheader.i.i.i.i.i.i.i
	mov	x8, x19
	mov	x10, x2
	cbz	x2, Laes_BB66_11
Laes_BB66_5:                               // %join.7.i.i.i.i.i.i.i
                                        // =>This Inner Loop Header: Depth=1
	ldr	q0, [x1], #16
	subs	x10, x10, #1
	str	q0, [x8], #16
	b.ne	Laes_BB66_5
// %bb.6:                               // %"core::slice::edits::slice+T::copy_from_slice::<#b9e87c6de6ee7501>.exit.i"
	ldr	w8, [x0], #4
	cmp	x2, #15
	lsr	x8, x8, #2
	add	x20, x8, #7
	b.hs	Laes_BB66_10
Laes_BB66_7:
	mov	x21, xzr
	b	Laes_BB66_12
Laes_BB66_8:
	mov	w0, #3                          // =0x3
	movi	v0.2d, #0000000000000000
	movi	v1.2d, #0000000000000000
	movi	v2.2d, #0000000000000000
	movi	v3.2d, #0000000000000000
	movi	v4.2d, #0000000000000000
	movi	v5.2d, #0000000000000000
	movi	v6.2d, #0000000000000000
	movi	v7.2d, #0000000000000000
	movi	v16.2d, #0000000000000000
	movi	v17.2d, #0000000000000000
	movi	v18.2d, #0000000000000000
	movi	v19.2d, #0000000000000000
	movi	v20.2d, #0000000000000000
	movi	v21.2d, #0000000000000000
	movi	v22.2d, #0000000000000000
	movi	v23.2d, #0000000000000000
	movi	v24.2d, #0000000000000000
	movi	v25.2d, #0000000000000000
	movi	v26.2d, #0000000000000000
	movi	v27.2d, #0000000000000000
	movi	v28.2d, #0000000000000000
	movi	v29.2d, #0000000000000000
	movi	v30.2d, #0000000000000000
	movi	v31.2d, #0000000000000000
	fmov	d8, d8
	fmov	d9, d9
	fmov	d10, d10
	fmov	d11, d11
	fmov	d12, d12
	fmov	d13, d13
	fmov	d14, d14
	fmov	d15, d15
	mov	x1, xzr
	mov	x2, xzr
	mov	x3, xzr
	mov	x4, xzr
	mov	x5, xzr
	mov	x6, xzr
	mov	x7, xzr
	mov	x8, xzr
	mov	x9, xzr
	mov	x10, xzr
	mov	x11, xzr
	mov	x12, xzr
	mov	x13, xzr
	mov	x14, xzr
	mov	x15, xzr
	mov	x16, xzr
	mov	x17, xzr
	ret
Laes_BB66_9:                               // %apart.2.i.i.i.i.i.i.i
	mov	x20, x0
	mov	x0, x19
	mov	x21, x2
	mov	x2, x8
	adrp	x16, _memmove@GOTPAGE
	ldr	x16, [x16, _memmove@GOTPAGEOFF]
	blr	x16
	mov	x0, x20
	mov	x2, x21
	ldr	w8, [x0], #4
	cmp	x21, #15
	lsr	x8, x8, #2
	add	x20, x8, #7
	b.lo	Laes_BB66_7
Laes_BB66_10:                              // %join.6.i.i.i
	and	x8, x2, #0x7
	mov	x1, x20
	mov	x23, x2
	cmp	x8, #6
	mov	x22, x0
	csel	x8, x8, xzr, lo
	sub	x21, x2, x8
	mov	x2, x19
	mov	x3, x21
	bl	_aes.aes_hybrid.batches.process_on_planes.1
	mov	x0, x22
	mov	x2, x23
	b	Laes_BB66_12
Laes_BB66_11:                              // %"core::slice::edits::slice+T::copy_from_slice::<#b9e87c6de6ee7501>.exit.thread.i"
	lsr	x8, x9, #2
	mov	x21, xzr
	add	x0, x0, #4
	add	x20, x8, #7
Laes_BB66_12:                              // %"aes_hybrid::borrowed_cipher::BorrowedCipher::process_blocks::<#ee6d29ed0cc28f94>.exit.i"
	add	x8, x19, x21, lsl #4
	sub	x3, x2, x21
	mov	x1, x20
	mov	x2, x8
	bl	_aes.aes_permute.blocks.process_on_lanes.1
	ldp	x20, x19, [sp, #48]             // 16-byte Folded Reload
	mov	w8, wzr
	ldp	x22, x21, [sp, #32]             // 16-byte Folded Reload
	ldr	x23, [sp, #16]                  // 8-byte Reload
	ldp	x29, x30, [sp], #64             // 16-byte Folded Reload
Laes_BB66_13:                              // %"aes_c::blocks::fotsgure_aes_encrypt_blocks_to.exit"
	mov	w0, w8
	movi	v0.2d, #0000000000000000
	movi	v1.2d, #0000000000000000
	movi	v2.2d, #0000000000000000
	movi	v3.2d, #0000000000000000
	movi	v4.2d, #0000000000000000
	movi	v5.2d, #0000000000000000
	movi	v6.2d, #0000000000000000
	movi	v7.2d, #0000000000000000
	movi	v16.2d, #0000000000000000
	movi	v17.2d, #0000000000000000
	movi	v18.2d, #0000000000000000
	movi	v19.2d, #0000000000000000
	movi	v20.2d, #0000000000000000
	movi	v21.2d, #0000000000000000
	movi	v22.2d, #0000000000000000
	movi	v23.2d, #0000000000000000
	movi	v24.2d, #0000000000000000
	movi	v25.2d, #0000000000000000
	movi	v26.2d, #0000000000000000
	movi	v27.2d, #0000000000000000
	movi	v28.2d, #0000000000000000
	movi	v29.2d, #0000000000000000
	movi	v30.2d, #0000000000000000
	movi	v31.2d, #0000000000000000
	fmov	d8, d8
	fmov	d9, d9
	fmov	d10, d10
	fmov	d11, d11
	fmov	d12, d12
	fmov	d13, d13
	fmov	d14, d14
	fmov	d15, d15
	mov	x1, xzr
	mov	x2, xzr
	mov	x3, xzr
	mov	x4, xzr
	mov	x5, xzr
	mov	x6, xzr
	mov	x7, xzr
	mov	x8, xzr
	mov	x9, xzr
	mov	x10, xzr
	mov	x11, xzr
	mov	x12, xzr
	mov	x13, xzr
	mov	x14, xzr
	mov	x15, xzr
	mov	x16, xzr
	mov	x17, xzr
	ret
                                        // -- End function
	.section	__TEXT,__text,regular,pure_instructions
	export_aes	fotsgure_aes_encrypt_blocks_with
	.p2align	2
_aes.fotsgure_aes_encrypt_blocks_with:       // @_aes.fotsgure_aes_encrypt_blocks_with
	hint	#34
// %bb.0:                               // %start
	cmp	x2, #0
	mov	w9, #4096                       // =0x1000
	mov	x8, x0
	csel	x9, x9, xzr, eq
	cmp	x1, #32
	mov	w0, #1                          // =0x1
	b.hi	Laes_BB67_6
// %bb.1:                               // %start
	sub	sp, sp, #336
	mov	w10, #1                         // =0x1
	mov	x11, #16842752                  // =0x1010000
	stp	x20, x19, [sp, #320]            // 16-byte Folded Spill
	lsl	x10, x10, x1
	movk	x11, #1, lsl #32
	mov	x20, x1
	stp	x29, x30, [sp, #256]            // 16-byte Folded Spill
	add	x29, sp, #256
	tst	x10, x11
	str	x28, [sp, #272]                 // 8-byte Spill
	stp	x24, x23, [sp, #288]            // 16-byte Folded Spill
	stp	x22, x21, [sp, #304]            // 16-byte Folded Spill
	b.eq	Laes_BB67_5
// %bb.2:                               // %join.3.i
	movi	v0.2d, #0000000000000000
	add	x21, x2, x9
	cmp	x8, #0
	mov	w9, #4096                       // =0x1000
	add	x23, sp, #12
	add	x10, sp, #12
	csel	x9, x9, xzr, eq
	add	x0, x23, #4
	mov	x2, x20
	add	x1, x8, x9
	mov	x19, x3
	lsr	x24, x20, #2
	stur	q0, [x10, #228]
	stur	q0, [x10, #212]
	stur	q0, [x10, #196]
	stur	q0, [x10, #180]
	stur	q0, [x10, #164]
	stur	q0, [x10, #148]
	stur	q0, [x10, #132]
	stp	q0, q0, [sp, #48]
	stp	q0, q0, [sp, #80]
	stp	q0, q0, [sp, #112]
	stur	q0, [sp, #32]
	bl	_aes.aes_permute.lane_keys.expand_lanes
	mov	x22, xzr
	cmp	x19, #15
	str	w20, [sp, #12]
	b.lo	Laes_BB67_4
// %bb.3:                               // %join.6.i.i.i
	and	x8, x19, #0x7
	add	x0, x23, #4
	add	x1, x24, #7
	cmp	x8, #6
	mov	x2, x21
	csel	x8, x8, xzr, lo
	sub	x22, x19, x8
	mov	x3, x22
	bl	_aes.aes_hybrid.batches.process_on_planes.1
Laes_BB67_4:                               // %"aes_hybrid::borrowed_cipher::BorrowedCipher::process_blocks::<#ee6d29ed0cc28f94>.exit.i"
	add	x2, x21, x22, lsl #4
	sub	x3, x19, x22
	add	x0, x23, #4
	add	x1, x24, #7
	bl	_aes.aes_permute.blocks.process_on_lanes.1
	add	x0, x23, #4
	str	wzr, [sp, #12]
	bl	_aes.aes_cipher.zeroize.elements.zeroize_elements.1
	mov	w0, wzr
Laes_BB67_5:
	ldp	x20, x19, [sp, #320]            // 16-byte Folded Reload
	ldr	x28, [sp, #272]                 // 8-byte Reload
	ldp	x22, x21, [sp, #304]            // 16-byte Folded Reload
	ldp	x24, x23, [sp, #288]            // 16-byte Folded Reload
	ldp	x29, x30, [sp, #256]            // 16-byte Folded Reload
	add	sp, sp, #336
Laes_BB67_6:                               // %"aes_c::once::fotsgure_aes_encrypt_blocks_with.exit"
	movi	v0.2d, #0000000000000000
	movi	v1.2d, #0000000000000000
	movi	v2.2d, #0000000000000000
	movi	v3.2d, #0000000000000000
	movi	v4.2d, #0000000000000000
	movi	v5.2d, #0000000000000000
	movi	v6.2d, #0000000000000000
	movi	v7.2d, #0000000000000000
	movi	v16.2d, #0000000000000000
	movi	v17.2d, #0000000000000000
	movi	v18.2d, #0000000000000000
	movi	v19.2d, #0000000000000000
	movi	v20.2d, #0000000000000000
	movi	v21.2d, #0000000000000000
	movi	v22.2d, #0000000000000000
	movi	v23.2d, #0000000000000000
	movi	v24.2d, #0000000000000000
	movi	v25.2d, #0000000000000000
	movi	v26.2d, #0000000000000000
	movi	v27.2d, #0000000000000000
	movi	v28.2d, #0000000000000000
	movi	v29.2d, #0000000000000000
	movi	v30.2d, #0000000000000000
	movi	v31.2d, #0000000000000000
	fmov	d8, d8
	fmov	d9, d9
	fmov	d10, d10
	fmov	d11, d11
	fmov	d12, d12
	fmov	d13, d13
	fmov	d14, d14
	fmov	d15, d15
	mov	x1, xzr
	mov	x2, xzr
	mov	x3, xzr
	mov	x4, xzr
	mov	x5, xzr
	mov	x6, xzr
	mov	x7, xzr
	mov	x8, xzr
	mov	x9, xzr
	mov	x10, xzr
	mov	x11, xzr
	mov	x12, xzr
	mov	x13, xzr
	mov	x14, xzr
	mov	x15, xzr
	mov	x16, xzr
	mov	x17, xzr
	ret
                                        // -- End function
	.section	__TEXT,__text,regular,pure_instructions
	export_aes	fotsgure_aes_key_length
	.p2align	2
_aes.fotsgure_aes_key_length:                // @_aes.fotsgure_aes_key_length
	hint	#34
// %bb.0:                               // %start
	ldr	w0, [x0]
	mov	w8, #1                          // =0x1
	mov	x9, #16842752                   // =0x1010000
	movk	x9, #1, lsl #32
	lsl	x8, x8, x0
	cmp	w0, #32
	and	x8, x8, x9
	ccmp	x8, #0, #4, ls
	b.eq	Laes_BB68_2
// %bb.1:                               // %"aes_c::kept::fotsgure_aes_key_length.exit"
	movi	v0.2d, #0000000000000000
	movi	v1.2d, #0000000000000000
	movi	v2.2d, #0000000000000000
	movi	v3.2d, #0000000000000000
	movi	v4.2d, #0000000000000000
	movi	v5.2d, #0000000000000000
	movi	v6.2d, #0000000000000000
	movi	v7.2d, #0000000000000000
	movi	v16.2d, #0000000000000000
	movi	v17.2d, #0000000000000000
	movi	v18.2d, #0000000000000000
	movi	v19.2d, #0000000000000000
	movi	v20.2d, #0000000000000000
	movi	v21.2d, #0000000000000000
	movi	v22.2d, #0000000000000000
	movi	v23.2d, #0000000000000000
	movi	v24.2d, #0000000000000000
	movi	v25.2d, #0000000000000000
	movi	v26.2d, #0000000000000000
	movi	v27.2d, #0000000000000000
	movi	v28.2d, #0000000000000000
	movi	v29.2d, #0000000000000000
	movi	v30.2d, #0000000000000000
	movi	v31.2d, #0000000000000000
	fmov	d8, d8
	fmov	d9, d9
	fmov	d10, d10
	fmov	d11, d11
	fmov	d12, d12
	fmov	d13, d13
	fmov	d14, d14
	fmov	d15, d15
	mov	x1, xzr
	mov	x2, xzr
	mov	x3, xzr
	mov	x4, xzr
	mov	x5, xzr
	mov	x6, xzr
	mov	x7, xzr
	mov	x8, xzr
	mov	x9, xzr
	mov	x10, xzr
	mov	x11, xzr
	mov	x12, xzr
	mov	x13, xzr
	mov	x14, xzr
	mov	x15, xzr
	mov	x16, xzr
	mov	x17, xzr
	ret
Laes_BB68_2:
	mov	x0, xzr
	movi	v0.2d, #0000000000000000
	movi	v1.2d, #0000000000000000
	movi	v2.2d, #0000000000000000
	movi	v3.2d, #0000000000000000
	movi	v4.2d, #0000000000000000
	movi	v5.2d, #0000000000000000
	movi	v6.2d, #0000000000000000
	movi	v7.2d, #0000000000000000
	movi	v16.2d, #0000000000000000
	movi	v17.2d, #0000000000000000
	movi	v18.2d, #0000000000000000
	movi	v19.2d, #0000000000000000
	movi	v20.2d, #0000000000000000
	movi	v21.2d, #0000000000000000
	movi	v22.2d, #0000000000000000
	movi	v23.2d, #0000000000000000
	movi	v24.2d, #0000000000000000
	movi	v25.2d, #0000000000000000
	movi	v26.2d, #0000000000000000
	movi	v27.2d, #0000000000000000
	movi	v28.2d, #0000000000000000
	movi	v29.2d, #0000000000000000
	movi	v30.2d, #0000000000000000
	movi	v31.2d, #0000000000000000
	fmov	d8, d8
	fmov	d9, d9
	fmov	d10, d10
	fmov	d11, d11
	fmov	d12, d12
	fmov	d13, d13
	fmov	d14, d14
	fmov	d15, d15
	mov	x1, xzr
	mov	x2, xzr
	mov	x3, xzr
	mov	x4, xzr
	mov	x5, xzr
	mov	x6, xzr
	mov	x7, xzr
	mov	x8, xzr
	mov	x9, xzr
	mov	x10, xzr
	mov	x11, xzr
	mov	x12, xzr
	mov	x13, xzr
	mov	x14, xzr
	mov	x15, xzr
	mov	x16, xzr
	mov	x17, xzr
	ret
                                        // -- End function
	.section	__TEXT,__text,regular,pure_instructions
	export_aes	fotsgure_aes_set_key
	.p2align	2
_aes.fotsgure_aes_set_key:                   // @_aes.fotsgure_aes_set_key
	hint	#34
// %bb.0:                               // %start
	cmp	x1, #0
	mov	w8, #4096                       // =0x1000
	csel	x8, x8, xzr, eq
	add	x1, x1, x8
	b	_aes.aes_c.kept.fotsgure_aes_set_key
                                        // -- End function
	.section	__TEXT,__text,regular,pure_instructions
	export_aes	fotsgure_aes_version
	.p2align	2
_aes.fotsgure_aes_version:                   // @_aes.fotsgure_aes_version
	hint	#34
// %bb.0:                               // %start
	mov	w0, #400                        // =0x190
	movi	v0.2d, #0000000000000000
	movi	v1.2d, #0000000000000000
	movi	v2.2d, #0000000000000000
	movi	v3.2d, #0000000000000000
	movi	v4.2d, #0000000000000000
	movi	v5.2d, #0000000000000000
	movi	v6.2d, #0000000000000000
	movi	v7.2d, #0000000000000000
	movi	v16.2d, #0000000000000000
	movi	v17.2d, #0000000000000000
	movi	v18.2d, #0000000000000000
	movi	v19.2d, #0000000000000000
	movi	v20.2d, #0000000000000000
	movi	v21.2d, #0000000000000000
	movi	v22.2d, #0000000000000000
	movi	v23.2d, #0000000000000000
	movi	v24.2d, #0000000000000000
	movi	v25.2d, #0000000000000000
	movi	v26.2d, #0000000000000000
	movi	v27.2d, #0000000000000000
	movi	v28.2d, #0000000000000000
	movi	v29.2d, #0000000000000000
	movi	v30.2d, #0000000000000000
	movi	v31.2d, #0000000000000000
	fmov	d8, d8
	fmov	d9, d9
	fmov	d10, d10
	fmov	d11, d11
	fmov	d12, d12
	fmov	d13, d13
	fmov	d14, d14
	fmov	d15, d15
	mov	x1, xzr
	mov	x2, xzr
	mov	x3, xzr
	mov	x4, xzr
	mov	x5, xzr
	mov	x6, xzr
	mov	x7, xzr
	mov	x8, xzr
	mov	x9, xzr
	mov	x10, xzr
	mov	x11, xzr
	mov	x12, xzr
	mov	x13, xzr
	mov	x14, xzr
	mov	x15, xzr
	mov	x16, xzr
	mov	x17, xzr
	ret
                                        // -- End function
	.section	__TEXT,__text,regular,pure_instructions
	export_aes	fotsgure_aes_wipe
	.p2align	2
_aes.fotsgure_aes_wipe:                      // @_aes.fotsgure_aes_wipe
	hint	#34
// %bb.0:                               // %start
	stp	x29, x30, [sp, #-32]!           // 16-byte Folded Spill
	movi	v0.2d, #0000000000000000
	str	x19, [sp, #16]                  // 8-byte Spill
	mov	x19, x0
	str	wzr, [x0, #480]
	mov	x29, sp
	stp	q0, q0, [x0]
	stp	q0, q0, [x0, #32]
	stp	q0, q0, [x0, #64]
	stp	q0, q0, [x0, #96]
	stp	q0, q0, [x0, #128]
	stp	q0, q0, [x0, #160]
	stp	q0, q0, [x0, #192]
	stp	q0, q0, [x0, #224]
	stp	q0, q0, [x0, #256]
	stp	q0, q0, [x0, #288]
	stp	q0, q0, [x0, #320]
	stp	q0, q0, [x0, #352]
	stp	q0, q0, [x0, #384]
	stp	q0, q0, [x0, #416]
	stp	q0, q0, [x0, #448]
	add	x0, x0, #4
	bl	_aes.aes_cipher.zeroize.elements.zeroize_elements.1
	add	x0, x19, #244
	ldr	x19, [sp, #16]                  // 8-byte Reload
	ldp	x29, x30, [sp], #32             // 16-byte Folded Reload
	b	_aes.aes_cipher.zeroize.elements.zeroize_elements.1
                                        // -- End function
	.section	__TEXT,__text,regular,pure_instructions
	export_aes	fotsgure_aes_wrap
	.p2align	2
_aes.fotsgure_aes_wrap:                      // @_aes.fotsgure_aes_wrap
	hint	#34
// %bb.0:                               // %start
	ldr	w8, [x0]
	mov	w9, #1                          // =0x1
	mov	x10, #16842752                  // =0x1010000
	movk	x10, #1, lsl #32
	lsl	x9, x9, x8
	cmp	w8, #32
	and	x9, x9, x10
	ccmp	x9, #0, #4, ls
	b.eq	Laes_BB72_2
// %bb.1:                               // %join.3.i
	sub	sp, sp, #64
	lsr	x8, x8, #2
	add	x9, x0, #4
	cmp	x3, #0
	mov	w10, #4096                      // =0x1000
	mov	x0, sp
	stp	x29, x30, [sp, #32]             // 16-byte Folded Spill
	add	x8, x8, #7
	str	x19, [sp, #48]                  // 8-byte Spill
	add	x29, sp, #32
	stp	x9, x8, [sp]
	stp	x9, x8, [sp, #16]
	csel	x9, x10, xzr, eq
	cmp	x1, #0
	csel	x10, x10, xzr, eq
	add	x3, x3, x9
	add	x1, x1, x10
	bl	_aes.key_wrap.wrapping.wrap
	and	w19, w0, #0xff
	bl	_aes.aes_cipher.zeroize.stack.wipe_stack.512
	ldp	x29, x30, [sp, #32]             // 16-byte Folded Reload
	cmp	w19, #0
	mov	w8, #5                          // =0x5
	ldr	x19, [sp, #48]                  // 8-byte Reload
	csel	w0, w8, wzr, ne
	add	sp, sp, #64
	movi	v0.2d, #0000000000000000
	movi	v1.2d, #0000000000000000
	movi	v2.2d, #0000000000000000
	movi	v3.2d, #0000000000000000
	movi	v4.2d, #0000000000000000
	movi	v5.2d, #0000000000000000
	movi	v6.2d, #0000000000000000
	movi	v7.2d, #0000000000000000
	movi	v16.2d, #0000000000000000
	movi	v17.2d, #0000000000000000
	movi	v18.2d, #0000000000000000
	movi	v19.2d, #0000000000000000
	movi	v20.2d, #0000000000000000
	movi	v21.2d, #0000000000000000
	movi	v22.2d, #0000000000000000
	movi	v23.2d, #0000000000000000
	movi	v24.2d, #0000000000000000
	movi	v25.2d, #0000000000000000
	movi	v26.2d, #0000000000000000
	movi	v27.2d, #0000000000000000
	movi	v28.2d, #0000000000000000
	movi	v29.2d, #0000000000000000
	movi	v30.2d, #0000000000000000
	movi	v31.2d, #0000000000000000
	fmov	d8, d8
	fmov	d9, d9
	fmov	d10, d10
	fmov	d11, d11
	fmov	d12, d12
	fmov	d13, d13
	fmov	d14, d14
	fmov	d15, d15
	mov	x1, xzr
	mov	x2, xzr
	mov	x3, xzr
	mov	x4, xzr
	mov	x5, xzr
	mov	x6, xzr
	mov	x7, xzr
	mov	x8, xzr
	mov	x9, xzr
	mov	x10, xzr
	mov	x11, xzr
	mov	x12, xzr
	mov	x13, xzr
	mov	x14, xzr
	mov	x15, xzr
	mov	x16, xzr
	mov	x17, xzr
	ret
Laes_BB72_2:
	mov	w0, #2                          // =0x2
	movi	v0.2d, #0000000000000000
	movi	v1.2d, #0000000000000000
	movi	v2.2d, #0000000000000000
	movi	v3.2d, #0000000000000000
	movi	v4.2d, #0000000000000000
	movi	v5.2d, #0000000000000000
	movi	v6.2d, #0000000000000000
	movi	v7.2d, #0000000000000000
	movi	v16.2d, #0000000000000000
	movi	v17.2d, #0000000000000000
	movi	v18.2d, #0000000000000000
	movi	v19.2d, #0000000000000000
	movi	v20.2d, #0000000000000000
	movi	v21.2d, #0000000000000000
	movi	v22.2d, #0000000000000000
	movi	v23.2d, #0000000000000000
	movi	v24.2d, #0000000000000000
	movi	v25.2d, #0000000000000000
	movi	v26.2d, #0000000000000000
	movi	v27.2d, #0000000000000000
	movi	v28.2d, #0000000000000000
	movi	v29.2d, #0000000000000000
	movi	v30.2d, #0000000000000000
	movi	v31.2d, #0000000000000000
	fmov	d8, d8
	fmov	d9, d9
	fmov	d10, d10
	fmov	d11, d11
	fmov	d12, d12
	fmov	d13, d13
	fmov	d14, d14
	fmov	d15, d15
	mov	x1, xzr
	mov	x2, xzr
	mov	x3, xzr
	mov	x4, xzr
	mov	x5, xzr
	mov	x6, xzr
	mov	x7, xzr
	mov	x8, xzr
	mov	x9, xzr
	mov	x10, xzr
	mov	x11, xzr
	mov	x12, xzr
	mov	x13, xzr
	mov	x14, xzr
	mov	x15, xzr
	mov	x16, xzr
	mov	x17, xzr
	ret
                                        // -- End function
	.section	__TEXT,__text,regular,pure_instructions
	export_aes	fotsgure_aes_wrap_padded
	.p2align	2
_aes.fotsgure_aes_wrap_padded:               // @_aes.fotsgure_aes_wrap_padded
	hint	#34
// %bb.0:                               // %start
	ldr	w8, [x0]
	mov	w9, #1                          // =0x1
	mov	x10, #16842752                  // =0x1010000
	movk	x10, #1, lsl #32
	lsl	x9, x9, x8
	cmp	w8, #32
	and	x9, x9, x10
	ccmp	x9, #0, #4, ls
	b.eq	Laes_BB73_2
// %bb.1:                               // %join.3.i
	sub	sp, sp, #64
	lsr	x8, x8, #2
	add	x9, x0, #4
	cmp	x3, #0
	mov	w10, #4096                      // =0x1000
	mov	x0, sp
	stp	x29, x30, [sp, #32]             // 16-byte Folded Spill
	add	x8, x8, #7
	str	x19, [sp, #48]                  // 8-byte Spill
	add	x29, sp, #32
	stp	x9, x8, [sp]
	stp	x9, x8, [sp, #16]
	csel	x9, x10, xzr, eq
	cmp	x1, #0
	csel	x10, x10, xzr, eq
	add	x3, x3, x9
	add	x1, x1, x10
	bl	_aes.key_wrap.padded.wrap_padded
	and	w19, w0, #0xff
	bl	_aes.aes_cipher.zeroize.stack.wipe_stack.512
	ldp	x29, x30, [sp, #32]             // 16-byte Folded Reload
	cmp	w19, #0
	mov	w8, #5                          // =0x5
	ldr	x19, [sp, #48]                  // 8-byte Reload
	csel	w0, w8, wzr, ne
	add	sp, sp, #64
	movi	v0.2d, #0000000000000000
	movi	v1.2d, #0000000000000000
	movi	v2.2d, #0000000000000000
	movi	v3.2d, #0000000000000000
	movi	v4.2d, #0000000000000000
	movi	v5.2d, #0000000000000000
	movi	v6.2d, #0000000000000000
	movi	v7.2d, #0000000000000000
	movi	v16.2d, #0000000000000000
	movi	v17.2d, #0000000000000000
	movi	v18.2d, #0000000000000000
	movi	v19.2d, #0000000000000000
	movi	v20.2d, #0000000000000000
	movi	v21.2d, #0000000000000000
	movi	v22.2d, #0000000000000000
	movi	v23.2d, #0000000000000000
	movi	v24.2d, #0000000000000000
	movi	v25.2d, #0000000000000000
	movi	v26.2d, #0000000000000000
	movi	v27.2d, #0000000000000000
	movi	v28.2d, #0000000000000000
	movi	v29.2d, #0000000000000000
	movi	v30.2d, #0000000000000000
	movi	v31.2d, #0000000000000000
	fmov	d8, d8
	fmov	d9, d9
	fmov	d10, d10
	fmov	d11, d11
	fmov	d12, d12
	fmov	d13, d13
	fmov	d14, d14
	fmov	d15, d15
	mov	x1, xzr
	mov	x2, xzr
	mov	x3, xzr
	mov	x4, xzr
	mov	x5, xzr
	mov	x6, xzr
	mov	x7, xzr
	mov	x8, xzr
	mov	x9, xzr
	mov	x10, xzr
	mov	x11, xzr
	mov	x12, xzr
	mov	x13, xzr
	mov	x14, xzr
	mov	x15, xzr
	mov	x16, xzr
	mov	x17, xzr
	ret
Laes_BB73_2:
	mov	w0, #2                          // =0x2
	movi	v0.2d, #0000000000000000
	movi	v1.2d, #0000000000000000
	movi	v2.2d, #0000000000000000
	movi	v3.2d, #0000000000000000
	movi	v4.2d, #0000000000000000
	movi	v5.2d, #0000000000000000
	movi	v6.2d, #0000000000000000
	movi	v7.2d, #0000000000000000
	movi	v16.2d, #0000000000000000
	movi	v17.2d, #0000000000000000
	movi	v18.2d, #0000000000000000
	movi	v19.2d, #0000000000000000
	movi	v20.2d, #0000000000000000
	movi	v21.2d, #0000000000000000
	movi	v22.2d, #0000000000000000
	movi	v23.2d, #0000000000000000
	movi	v24.2d, #0000000000000000
	movi	v25.2d, #0000000000000000
	movi	v26.2d, #0000000000000000
	movi	v27.2d, #0000000000000000
	movi	v28.2d, #0000000000000000
	movi	v29.2d, #0000000000000000
	movi	v30.2d, #0000000000000000
	movi	v31.2d, #0000000000000000
	fmov	d8, d8
	fmov	d9, d9
	fmov	d10, d10
	fmov	d11, d11
	fmov	d12, d12
	fmov	d13, d13
	fmov	d14, d14
	fmov	d15, d15
	mov	x1, xzr
	mov	x2, xzr
	mov	x3, xzr
	mov	x4, xzr
	mov	x5, xzr
	mov	x6, xzr
	mov	x7, xzr
	mov	x8, xzr
	mov	x9, xzr
	mov	x10, xzr
	mov	x11, xzr
	mov	x12, xzr
	mov	x13, xzr
	mov	x14, xzr
	mov	x15, xzr
	mov	x16, xzr
	mov	x17, xzr
	ret
                                        // -- End function
	.section	__TEXT,__text,regular,pure_instructions
	export_aes	fotsgure_aes_cbc_decrypt
	.p2align	2
_aes.fotsgure_aes_cbc_decrypt:               // @_aes.fotsgure_aes_cbc_decrypt
	hint	#34
// %bb.0:                               // %start
	stp	x29, x30, [sp, #-96]!           // 16-byte Folded Spill
	stp	x28, x27, [sp, #16]             // 16-byte Folded Spill
	mov	x29, sp
	stp	x26, x25, [sp, #32]             // 16-byte Folded Spill
	stp	x24, x23, [sp, #48]             // 16-byte Folded Spill
	stp	x22, x21, [sp, #64]             // 16-byte Folded Spill
	stp	x20, x19, [sp, #80]             // 16-byte Folded Spill
	sub	sp, sp, #1056
	str	xzr, [sp]
	cmp	x2, #0
	mov	w9, #4096                       // =0x1000
	ldr	w8, [x0]
	mov	x21, x0
	csel	x26, x9, xzr, eq
	mov	w0, #2                          // =0x2
	cmp	w8, #32
	b.hi	Laes_BB74_14
// %bb.1:                               // %start
	mov	w9, #1                          // =0x1
	mov	x10, #16842752                  // =0x1010000
	lsl	x9, x9, x8
	movk	x10, #1, lsl #32
	tst	x9, x10
	b.eq	Laes_BB74_14
// %bb.2:                               // %join.3.i
	ldr	q0, [x1]
	lsr	x25, x8, #2
	mov	x20, x3
	mov	x22, x2
	mov	x19, x1
	add	x24, x2, x26
	cmp	x3, #8
	str	q0, [sp]
	stp	x24, x3, [sp, #16]
	b.lo	Laes_BB74_4
// %bb.3:                               // %then.1.i.i.i
	add	x0, x21, #4
	add	x1, x25, #7
	add	x2, x21, #244
	add	x3, x25, #7
	mov	x4, sp
	bl	_aes.aes_hybrid.closures.lend_planes.2
	b	Laes_BB74_13
Laes_BB74_4:                               // %else.2.i.i.i
	cbz	x20, Laes_BB74_13
// %bb.5:                               // %join.5.lr.ph.i.i.i.i
	lsl	x23, x20, #4
	mov	w8, #1024                       // =0x400
	mov	w1, wzr
	sub	x2, x8, x23
	add	x8, sp, #32
	add	x0, x8, x23
	adrp	x16, _memset@GOTPAGE
	ldr	x16, [x16, _memset@GOTPAGEOFF]
	blr	x16
	add	x0, sp, #32
	add	x1, x22, x26
	mov	x2, x23
	adrp	x16, _memcpy@GOTPAGE
	ldr	x16, [x16, _memcpy@GOTPAGEOFF]
	blr	x16
	cmp	x20, #4
	b.lo	Laes_BB74_7
// %bb.6:                               // %loop.7.preheader.i.i.i.i.loopexit.i.i
	add	x0, x21, #244
	add	x1, x25, #7
	add	x2, x22, x26
	mov	w3, #4                          // =0x4
	mov	w27, #4                         // =0x4
	bl	_aes.aes_permute.blocks.process_on_lanes.2
	subs	x23, x20, x27
	b.hi	Laes_BB74_8
	b	Laes_BB74_10
Laes_BB74_7:
	mov	x27, xzr
	subs	x23, x20, xzr
	b.ls	Laes_BB74_10
Laes_BB74_8:                               // %join.10.i.i.i.i.i.i.preheader
	add	x8, x26, x27, lsl #4
	add	x22, x22, x8
Laes_BB74_9:                               // %join.10.i.i.i.i.i.i
                                        // =>This Inner Loop Header: Depth=1
	add	x0, x21, #244
	add	x1, x25, #7
	mov	x2, x22
	mov	w3, #1                          // =0x1
	bl	_aes.aes_permute.blocks.process_on_lanes.2
	subs	x23, x23, #1
	add	x22, x22, #16
	b.ne	Laes_BB74_9
Laes_BB74_10:                              // %join.7.i.i.i.i.i.preheader
	mov	x9, sp
	add	x8, sp, #32
Laes_BB74_11:                              // %join.7.i.i.i.i.i
                                        // =>This Inner Loop Header: Depth=1
	ldr	q0, [x9]
	ldr	q1, [x24]
	mov	x9, x8
	subs	x20, x20, #1
	add	x8, x8, #16
	eor	v0.16b, v1.16b, v0.16b
	str	q0, [x24], #16
	b.ne	Laes_BB74_11
// %bb.12:                              // %"cbc::decryption::unchain_part::<#625643f3508b39e7>.exit.loopexit.i.i.i.i"
	ldur	q0, [x8, #-16]
	str	q0, [sp]
Laes_BB74_13:                              // %"cbc::chain::Cbc::decrypt_blocks::<#bc4275ba8002e6b4>.exit.i"
	ldr	q0, [sp]
	mov	w0, wzr
	str	q0, [x19]
Laes_BB74_14:                              // %"aes_c::chains::fotsgure_aes_cbc_decrypt.exit"
	add	sp, sp, #1056
	ldp	x20, x19, [sp, #80]             // 16-byte Folded Reload
	ldp	x22, x21, [sp, #64]             // 16-byte Folded Reload
	ldp	x24, x23, [sp, #48]             // 16-byte Folded Reload
	ldp	x26, x25, [sp, #32]             // 16-byte Folded Reload
	ldp	x28, x27, [sp, #16]             // 16-byte Folded Reload
	ldp	x29, x30, [sp], #96             // 16-byte Folded Reload
	movi	v0.2d, #0000000000000000
	movi	v1.2d, #0000000000000000
	movi	v2.2d, #0000000000000000
	movi	v3.2d, #0000000000000000
	movi	v4.2d, #0000000000000000
	movi	v5.2d, #0000000000000000
	movi	v6.2d, #0000000000000000
	movi	v7.2d, #0000000000000000
	movi	v16.2d, #0000000000000000
	movi	v17.2d, #0000000000000000
	movi	v18.2d, #0000000000000000
	movi	v19.2d, #0000000000000000
	movi	v20.2d, #0000000000000000
	movi	v21.2d, #0000000000000000
	movi	v22.2d, #0000000000000000
	movi	v23.2d, #0000000000000000
	movi	v24.2d, #0000000000000000
	movi	v25.2d, #0000000000000000
	movi	v26.2d, #0000000000000000
	movi	v27.2d, #0000000000000000
	movi	v28.2d, #0000000000000000
	movi	v29.2d, #0000000000000000
	movi	v30.2d, #0000000000000000
	movi	v31.2d, #0000000000000000
	fmov	d8, d8
	fmov	d9, d9
	fmov	d10, d10
	fmov	d11, d11
	fmov	d12, d12
	fmov	d13, d13
	fmov	d14, d14
	fmov	d15, d15
	mov	x1, xzr
	mov	x2, xzr
	mov	x3, xzr
	mov	x4, xzr
	mov	x5, xzr
	mov	x6, xzr
	mov	x7, xzr
	mov	x8, xzr
	mov	x9, xzr
	mov	x10, xzr
	mov	x11, xzr
	mov	x12, xzr
	mov	x13, xzr
	mov	x14, xzr
	mov	x15, xzr
	mov	x16, xzr
	mov	x17, xzr
	ret
                                        // -- End function
	.section	__TEXT,__text,regular,pure_instructions
	export_aes	fotsgure_aes_decrypt_blocks
	.p2align	2
_aes.fotsgure_aes_decrypt_blocks:            // @_aes.fotsgure_aes_decrypt_blocks
	hint	#34
// %bb.0:                               // %start
	stp	x29, x30, [sp, #-64]!           // 16-byte Folded Spill
	ldr	w8, [x0]
	cmp	x1, #0
	mov	w9, #4096                       // =0x1000
	stp	x20, x19, [sp, #48]             // 16-byte Folded Spill
	mov	x19, x0
	csel	x9, x9, xzr, eq
	cmp	w8, #32
	mov	w0, #2                          // =0x2
	str	x23, [sp, #16]                  // 8-byte Spill
	stp	x22, x21, [sp, #32]             // 16-byte Folded Spill
	mov	x29, sp
	b.hi	Laes_BB75_6
// %bb.1:                               // %start
	mov	w10, #1                         // =0x1
	mov	x11, #16842752                  // =0x1010000
	lsl	x10, x10, x8
	movk	x11, #1, lsl #32
	tst	x10, x11
	b.eq	Laes_BB75_6
// %bb.2:                               // %join.3.i
	lsr	x23, x8, #2
	mov	x20, x2
	cmp	x2, #15
	add	x21, x1, x9
	b.hs	Laes_BB75_4
// %bb.3:
	mov	x22, xzr
	b	Laes_BB75_5
Laes_BB75_4:                               // %join.6.i.i.i
	and	x8, x20, #0x7
	add	x0, x19, #4
	add	x1, x23, #7
	cmp	x8, #6
	mov	x2, x21
	csel	x8, x8, xzr, lo
	sub	x22, x20, x8
	mov	x3, x22
	bl	_aes.aes_hybrid.batches.process_on_planes.2
Laes_BB75_5:                               // %"aes_hybrid::borrowed_cipher::BorrowedCipher::process_blocks::<#b6eb981607e07ed4>.exit.i"
	add	x2, x21, x22, lsl #4
	sub	x3, x20, x22
	add	x0, x19, #244
	add	x1, x23, #7
	bl	_aes.aes_permute.blocks.process_on_lanes.2
	mov	w0, wzr
Laes_BB75_6:                               // %"aes_c::blocks::fotsgure_aes_decrypt_blocks.exit"
	ldp	x20, x19, [sp, #48]             // 16-byte Folded Reload
	ldr	x23, [sp, #16]                  // 8-byte Reload
	ldp	x22, x21, [sp, #32]             // 16-byte Folded Reload
	ldp	x29, x30, [sp], #64             // 16-byte Folded Reload
	movi	v0.2d, #0000000000000000
	movi	v1.2d, #0000000000000000
	movi	v2.2d, #0000000000000000
	movi	v3.2d, #0000000000000000
	movi	v4.2d, #0000000000000000
	movi	v5.2d, #0000000000000000
	movi	v6.2d, #0000000000000000
	movi	v7.2d, #0000000000000000
	movi	v16.2d, #0000000000000000
	movi	v17.2d, #0000000000000000
	movi	v18.2d, #0000000000000000
	movi	v19.2d, #0000000000000000
	movi	v20.2d, #0000000000000000
	movi	v21.2d, #0000000000000000
	movi	v22.2d, #0000000000000000
	movi	v23.2d, #0000000000000000
	movi	v24.2d, #0000000000000000
	movi	v25.2d, #0000000000000000
	movi	v26.2d, #0000000000000000
	movi	v27.2d, #0000000000000000
	movi	v28.2d, #0000000000000000
	movi	v29.2d, #0000000000000000
	movi	v30.2d, #0000000000000000
	movi	v31.2d, #0000000000000000
	fmov	d8, d8
	fmov	d9, d9
	fmov	d10, d10
	fmov	d11, d11
	fmov	d12, d12
	fmov	d13, d13
	fmov	d14, d14
	fmov	d15, d15
	mov	x1, xzr
	mov	x2, xzr
	mov	x3, xzr
	mov	x4, xzr
	mov	x5, xzr
	mov	x6, xzr
	mov	x7, xzr
	mov	x8, xzr
	mov	x9, xzr
	mov	x10, xzr
	mov	x11, xzr
	mov	x12, xzr
	mov	x13, xzr
	mov	x14, xzr
	mov	x15, xzr
	mov	x16, xzr
	mov	x17, xzr
	ret
                                        // -- End function
	.section	__TEXT,__text,regular,pure_instructions
	export_aes	fotsgure_aes_decrypt_blocks_to
	.p2align	2
_aes.fotsgure_aes_decrypt_blocks_to:         // @_aes.fotsgure_aes_decrypt_blocks_to
	hint	#34
// %bb.0:                               // %start
	mov	w8, #4096                       // =0x1000
	cmp	x1, #0
	csel	x10, x8, xzr, eq
	cmp	x3, #0
	csel	x11, x8, xzr, eq
	cmp	x2, x4
	b.ne	Laes_BB76_8
// %bb.1:                               // %join.3.i
	ldr	w9, [x0]
	mov	w8, #2                          // =0x2
	cmp	w9, #32
	b.hi	Laes_BB76_13
// %bb.2:                               // %join.3.i
	mov	w12, #1                         // =0x1
	mov	x13, #16842752                  // =0x1010000
	lsl	x12, x12, x9
	movk	x13, #1, lsl #32
	tst	x12, x13
	b.eq	Laes_BB76_13
// %bb.3:                               // %join.6.i
	stp	x29, x30, [sp, #-64]!           // 16-byte Folded Spill
	stp	x20, x19, [sp, #48]             // 16-byte Folded Spill
	add	x1, x1, x10
	add	x19, x3, x11
	lsl	x8, x2, #4
	sub	x10, x19, x1
	str	x23, [sp, #16]                  // 8-byte Spill
	stp	x22, x21, [sp, #32]             // 16-byte Folded Spill
	mov	x29, sp
	cmp	x10, x8
	b.hs	Laes_BB76_9
// %bb.4:                               // %loop.4.preheader.i.i.i.i.i.i.i
	mov	x8, x19
	mov	x10, x2
	cbz	x2, Laes_BB76_11
Laes_BB76_5:                               // %join.7.i.i.i.i.i.i.i
                                        // =>This Inner Loop Header: Depth=1
	ldr	q0, [x1], #16
	subs	x10, x10, #1
	str	q0, [x8], #16
	b.ne	Laes_BB76_5
// %bb.6:                               // %"core::slice::edits::slice+T::copy_from_slice::<#b9e87c6de6ee7501>.exit.i"
	ldr	w8, [x0]
	cmp	x2, #15
	lsr	x8, x8, #2
	add	x20, x8, #7
	b.hs	Laes_BB76_10
Laes_BB76_7:
	mov	x21, xzr
	b	Laes_BB76_12
Laes_BB76_8:
	mov	w0, #3                          // =0x3
	movi	v0.2d, #0000000000000000
	movi	v1.2d, #0000000000000000
	movi	v2.2d, #0000000000000000
	movi	v3.2d, #0000000000000000
	movi	v4.2d, #0000000000000000
	movi	v5.2d, #0000000000000000
	movi	v6.2d, #0000000000000000
	movi	v7.2d, #0000000000000000
	movi	v16.2d, #0000000000000000
	movi	v17.2d, #0000000000000000
	movi	v18.2d, #0000000000000000
	movi	v19.2d, #0000000000000000
	movi	v20.2d, #0000000000000000
	movi	v21.2d, #0000000000000000
	movi	v22.2d, #0000000000000000
	movi	v23.2d, #0000000000000000
	movi	v24.2d, #0000000000000000
	movi	v25.2d, #0000000000000000
	movi	v26.2d, #0000000000000000
	movi	v27.2d, #0000000000000000
	movi	v28.2d, #0000000000000000
	movi	v29.2d, #0000000000000000
	movi	v30.2d, #0000000000000000
	movi	v31.2d, #0000000000000000
	fmov	d8, d8
	fmov	d9, d9
	fmov	d10, d10
	fmov	d11, d11
	fmov	d12, d12
	fmov	d13, d13
	fmov	d14, d14
	fmov	d15, d15
	mov	x1, xzr
	mov	x2, xzr
	mov	x3, xzr
	mov	x4, xzr
	mov	x5, xzr
	mov	x6, xzr
	mov	x7, xzr
	mov	x8, xzr
	mov	x9, xzr
	mov	x10, xzr
	mov	x11, xzr
	mov	x12, xzr
	mov	x13, xzr
	mov	x14, xzr
	mov	x15, xzr
	mov	x16, xzr
	mov	x17, xzr
	ret
Laes_BB76_9:                               // %apart.2.i.i.i.i.i.i.i
	mov	x20, x0
	mov	x0, x19
	mov	x21, x2
	mov	x2, x8
	adrp	x16, _memmove@GOTPAGE
	ldr	x16, [x16, _memmove@GOTPAGEOFF]
	blr	x16
	mov	x0, x20
	mov	x2, x21
	ldr	w8, [x20]
	cmp	x21, #15
	lsr	x8, x8, #2
	add	x20, x8, #7
	b.lo	Laes_BB76_7
Laes_BB76_10:                              // %join.6.i.i.i
	and	x8, x2, #0x7
	mov	x22, x0
	add	x0, x0, #4
	cmp	x8, #6
	mov	x1, x20
	mov	x23, x2
	csel	x8, x8, xzr, lo
	sub	x21, x2, x8
	mov	x2, x19
	mov	x3, x21
	bl	_aes.aes_hybrid.batches.process_on_planes.2
	mov	x0, x22
	mov	x2, x23
	b	Laes_BB76_12
Laes_BB76_11:                              // %"core::slice::edits::slice+T::copy_from_slice::<#b9e87c6de6ee7501>.exit.thread.i"
	lsr	x8, x9, #2
	mov	x21, xzr
	add	x20, x8, #7
Laes_BB76_12:                              // %"aes_hybrid::borrowed_cipher::BorrowedCipher::process_blocks::<#b6eb981607e07ed4>.exit.i"
	add	x8, x19, x21, lsl #4
	sub	x3, x2, x21
	add	x0, x0, #244
	mov	x1, x20
	mov	x2, x8
	bl	_aes.aes_permute.blocks.process_on_lanes.2
	ldp	x20, x19, [sp, #48]             // 16-byte Folded Reload
	mov	w8, wzr
	ldp	x22, x21, [sp, #32]             // 16-byte Folded Reload
	ldr	x23, [sp, #16]                  // 8-byte Reload
	ldp	x29, x30, [sp], #64             // 16-byte Folded Reload
Laes_BB76_13:                              // %"aes_c::blocks::fotsgure_aes_decrypt_blocks_to.exit"
	mov	w0, w8
	movi	v0.2d, #0000000000000000
	movi	v1.2d, #0000000000000000
	movi	v2.2d, #0000000000000000
	movi	v3.2d, #0000000000000000
	movi	v4.2d, #0000000000000000
	movi	v5.2d, #0000000000000000
	movi	v6.2d, #0000000000000000
	movi	v7.2d, #0000000000000000
	movi	v16.2d, #0000000000000000
	movi	v17.2d, #0000000000000000
	movi	v18.2d, #0000000000000000
	movi	v19.2d, #0000000000000000
	movi	v20.2d, #0000000000000000
	movi	v21.2d, #0000000000000000
	movi	v22.2d, #0000000000000000
	movi	v23.2d, #0000000000000000
	movi	v24.2d, #0000000000000000
	movi	v25.2d, #0000000000000000
	movi	v26.2d, #0000000000000000
	movi	v27.2d, #0000000000000000
	movi	v28.2d, #0000000000000000
	movi	v29.2d, #0000000000000000
	movi	v30.2d, #0000000000000000
	movi	v31.2d, #0000000000000000
	fmov	d8, d8
	fmov	d9, d9
	fmov	d10, d10
	fmov	d11, d11
	fmov	d12, d12
	fmov	d13, d13
	fmov	d14, d14
	fmov	d15, d15
	mov	x1, xzr
	mov	x2, xzr
	mov	x3, xzr
	mov	x4, xzr
	mov	x5, xzr
	mov	x6, xzr
	mov	x7, xzr
	mov	x8, xzr
	mov	x9, xzr
	mov	x10, xzr
	mov	x11, xzr
	mov	x12, xzr
	mov	x13, xzr
	mov	x14, xzr
	mov	x15, xzr
	mov	x16, xzr
	mov	x17, xzr
	ret
                                        // -- End function
	.section	__TEXT,__text,regular,pure_instructions
	export_aes	fotsgure_aes_decrypt_blocks_with
	.p2align	2
_aes.fotsgure_aes_decrypt_blocks_with:       // @_aes.fotsgure_aes_decrypt_blocks_with
	hint	#34
// %bb.0:                               // %start
	stp	x29, x30, [sp, #-80]!           // 16-byte Folded Spill
	str	x28, [sp, #16]                  // 8-byte Spill
	mov	x29, sp
	stp	x24, x23, [sp, #32]             // 16-byte Folded Spill
	stp	x22, x21, [sp, #48]             // 16-byte Folded Spill
	stp	x20, x19, [sp, #64]             // 16-byte Folded Spill
	sub	sp, sp, #496
	movi	v0.2d, #0000000000000000
	cmp	x0, #0
	mov	w9, #4096                       // =0x1000
	mov	x20, x2
	mov	x8, x0
	csel	x10, x9, xzr, eq
	mov	x2, x1
	cmp	x20, #0
	mov	x0, sp
	add	x1, x8, x10
	mov	x19, x3
	str	wzr, [sp, #480]
	stp	q0, q0, [sp]
	csel	x23, x9, xzr, eq
	mov	x22, sp
	stp	q0, q0, [sp, #32]
	stp	q0, q0, [sp, #64]
	stp	q0, q0, [sp, #96]
	stp	q0, q0, [sp, #128]
	stp	q0, q0, [sp, #160]
	stp	q0, q0, [sp, #192]
	stp	q0, q0, [sp, #224]
	stp	q0, q0, [sp, #256]
	stp	q0, q0, [sp, #288]
	stp	q0, q0, [sp, #320]
	stp	q0, q0, [sp, #352]
	stp	q0, q0, [sp, #384]
	stp	q0, q0, [sp, #416]
	stp	q0, q0, [sp, #448]
	bl	_aes.aes_c.kept.fotsgure_aes_set_key
	cbz	w0, Laes_BB77_2
// %bb.1:
	mov	w21, #1                         // =0x1
	b	Laes_BB77_9
Laes_BB77_2:                               // %join.3.i
	ldr	w8, [sp]
	mov	w21, #2                         // =0x2
	cmp	w8, #32
	b.hi	Laes_BB77_8
// %bb.3:                               // %join.3.i
	mov	w9, #1                          // =0x1
	mov	x10, #16842752                  // =0x1010000
	lsl	x9, x9, x8
	movk	x10, #1, lsl #32
	tst	x9, x10
	b.eq	Laes_BB77_8
// %bb.4:                               // %join.3.i.i
	lsr	x24, x8, #2
	cmp	x19, #15
	add	x20, x20, x23
	b.hs	Laes_BB77_6
// %bb.5:
	mov	x21, xzr
	b	Laes_BB77_7
Laes_BB77_6:                               // %join.6.i.i.i.i
	and	x8, x19, #0x7
	orr	x0, x22, #0x4
	add	x1, x24, #7
	cmp	x8, #6
	mov	x2, x20
	csel	x8, x8, xzr, lo
	sub	x21, x19, x8
	mov	x3, x21
	bl	_aes.aes_hybrid.batches.process_on_planes.2
Laes_BB77_7:                               // %"aes_hybrid::borrowed_cipher::BorrowedCipher::process_blocks::<#b6eb981607e07ed4>.exit.i.i"
	add	x2, x20, x21, lsl #4
	sub	x3, x19, x21
	add	x0, x22, #244
	add	x1, x24, #7
	bl	_aes.aes_permute.blocks.process_on_lanes.2
	mov	w21, wzr
Laes_BB77_8:                               // %"aes_c::blocks::fotsgure_aes_decrypt_blocks.exit.i"
	orr	x0, x22, #0x4
	str	wzr, [sp]
	bl	_aes.aes_cipher.zeroize.elements.zeroize_elements.1
	add	x0, x22, #244
	bl	_aes.aes_cipher.zeroize.elements.zeroize_elements.1
Laes_BB77_9:                               // %"aes_c::once::fotsgure_aes_decrypt_blocks_with.exit"
	mov	w0, w21
	add	sp, sp, #496
	ldp	x20, x19, [sp, #64]             // 16-byte Folded Reload
	ldr	x28, [sp, #16]                  // 8-byte Reload
	ldp	x22, x21, [sp, #48]             // 16-byte Folded Reload
	ldp	x24, x23, [sp, #32]             // 16-byte Folded Reload
	ldp	x29, x30, [sp], #80             // 16-byte Folded Reload
	movi	v0.2d, #0000000000000000
	movi	v1.2d, #0000000000000000
	movi	v2.2d, #0000000000000000
	movi	v3.2d, #0000000000000000
	movi	v4.2d, #0000000000000000
	movi	v5.2d, #0000000000000000
	movi	v6.2d, #0000000000000000
	movi	v7.2d, #0000000000000000
	movi	v16.2d, #0000000000000000
	movi	v17.2d, #0000000000000000
	movi	v18.2d, #0000000000000000
	movi	v19.2d, #0000000000000000
	movi	v20.2d, #0000000000000000
	movi	v21.2d, #0000000000000000
	movi	v22.2d, #0000000000000000
	movi	v23.2d, #0000000000000000
	movi	v24.2d, #0000000000000000
	movi	v25.2d, #0000000000000000
	movi	v26.2d, #0000000000000000
	movi	v27.2d, #0000000000000000
	movi	v28.2d, #0000000000000000
	movi	v29.2d, #0000000000000000
	movi	v30.2d, #0000000000000000
	movi	v31.2d, #0000000000000000
	fmov	d8, d8
	fmov	d9, d9
	fmov	d10, d10
	fmov	d11, d11
	fmov	d12, d12
	fmov	d13, d13
	fmov	d14, d14
	fmov	d15, d15
	mov	x1, xzr
	mov	x2, xzr
	mov	x3, xzr
	mov	x4, xzr
	mov	x5, xzr
	mov	x6, xzr
	mov	x7, xzr
	mov	x8, xzr
	mov	x9, xzr
	mov	x10, xzr
	mov	x11, xzr
	mov	x12, xzr
	mov	x13, xzr
	mov	x14, xzr
	mov	x15, xzr
	mov	x16, xzr
	mov	x17, xzr
	ret
                                        // -- End function
	.section	__TEXT,__text,regular,pure_instructions
	export_aes	fotsgure_aes_unwrap
	.p2align	2
_aes.fotsgure_aes_unwrap:                    // @_aes.fotsgure_aes_unwrap
	hint	#34
// %bb.0:                               // %start
	ldr	w8, [x0]
	mov	w9, #1                          // =0x1
	mov	x10, #16842752                  // =0x1010000
	movk	x10, #1, lsl #32
	lsl	x9, x9, x8
	cmp	w8, #32
	and	x9, x9, x10
	ccmp	x9, #0, #4, ls
	b.eq	Laes_BB78_2
// %bb.1:                               // %join.3.i
	sub	sp, sp, #64
	lsr	x8, x8, #2
	add	x9, x0, #4
	add	x10, x0, #244
	cmp	x3, #0
	mov	x0, sp
	stp	x29, x30, [sp, #32]             // 16-byte Folded Spill
	add	x8, x8, #7
	stp	x20, x19, [sp, #48]             // 16-byte Folded Spill
	add	x29, sp, #32
	stp	x9, x8, [sp]
	mov	w9, #4096                       // =0x1000
	stp	x10, x8, [sp, #16]
	csel	x10, x9, xzr, eq
	cmp	x1, #0
	csel	x9, x9, xzr, eq
	add	x3, x3, x10
	add	x1, x1, x9
	bl	_aes.key_wrap.wrapping.unwrap
	mov	w19, w0
	mov	w20, w1
	bl	_aes.aes_cipher.zeroize.stack.wipe_stack.512
	tst	w20, #0xff
	mov	w8, #5                          // =0x5
	cinc	w8, w8, ne
	tst	w19, #0xff
	ldp	x20, x19, [sp, #48]             // 16-byte Folded Reload
	csel	w0, wzr, w8, eq
	ldp	x29, x30, [sp, #32]             // 16-byte Folded Reload
	add	sp, sp, #64
	movi	v0.2d, #0000000000000000
	movi	v1.2d, #0000000000000000
	movi	v2.2d, #0000000000000000
	movi	v3.2d, #0000000000000000
	movi	v4.2d, #0000000000000000
	movi	v5.2d, #0000000000000000
	movi	v6.2d, #0000000000000000
	movi	v7.2d, #0000000000000000
	movi	v16.2d, #0000000000000000
	movi	v17.2d, #0000000000000000
	movi	v18.2d, #0000000000000000
	movi	v19.2d, #0000000000000000
	movi	v20.2d, #0000000000000000
	movi	v21.2d, #0000000000000000
	movi	v22.2d, #0000000000000000
	movi	v23.2d, #0000000000000000
	movi	v24.2d, #0000000000000000
	movi	v25.2d, #0000000000000000
	movi	v26.2d, #0000000000000000
	movi	v27.2d, #0000000000000000
	movi	v28.2d, #0000000000000000
	movi	v29.2d, #0000000000000000
	movi	v30.2d, #0000000000000000
	movi	v31.2d, #0000000000000000
	fmov	d8, d8
	fmov	d9, d9
	fmov	d10, d10
	fmov	d11, d11
	fmov	d12, d12
	fmov	d13, d13
	fmov	d14, d14
	fmov	d15, d15
	mov	x1, xzr
	mov	x2, xzr
	mov	x3, xzr
	mov	x4, xzr
	mov	x5, xzr
	mov	x6, xzr
	mov	x7, xzr
	mov	x8, xzr
	mov	x9, xzr
	mov	x10, xzr
	mov	x11, xzr
	mov	x12, xzr
	mov	x13, xzr
	mov	x14, xzr
	mov	x15, xzr
	mov	x16, xzr
	mov	x17, xzr
	ret
Laes_BB78_2:
	mov	w0, #2                          // =0x2
	movi	v0.2d, #0000000000000000
	movi	v1.2d, #0000000000000000
	movi	v2.2d, #0000000000000000
	movi	v3.2d, #0000000000000000
	movi	v4.2d, #0000000000000000
	movi	v5.2d, #0000000000000000
	movi	v6.2d, #0000000000000000
	movi	v7.2d, #0000000000000000
	movi	v16.2d, #0000000000000000
	movi	v17.2d, #0000000000000000
	movi	v18.2d, #0000000000000000
	movi	v19.2d, #0000000000000000
	movi	v20.2d, #0000000000000000
	movi	v21.2d, #0000000000000000
	movi	v22.2d, #0000000000000000
	movi	v23.2d, #0000000000000000
	movi	v24.2d, #0000000000000000
	movi	v25.2d, #0000000000000000
	movi	v26.2d, #0000000000000000
	movi	v27.2d, #0000000000000000
	movi	v28.2d, #0000000000000000
	movi	v29.2d, #0000000000000000
	movi	v30.2d, #0000000000000000
	movi	v31.2d, #0000000000000000
	fmov	d8, d8
	fmov	d9, d9
	fmov	d10, d10
	fmov	d11, d11
	fmov	d12, d12
	fmov	d13, d13
	fmov	d14, d14
	fmov	d15, d15
	mov	x1, xzr
	mov	x2, xzr
	mov	x3, xzr
	mov	x4, xzr
	mov	x5, xzr
	mov	x6, xzr
	mov	x7, xzr
	mov	x8, xzr
	mov	x9, xzr
	mov	x10, xzr
	mov	x11, xzr
	mov	x12, xzr
	mov	x13, xzr
	mov	x14, xzr
	mov	x15, xzr
	mov	x16, xzr
	mov	x17, xzr
	ret
                                        // -- End function
	.section	__TEXT,__text,regular,pure_instructions
	export_aes	fotsgure_aes_unwrap_padded
	.p2align	2
_aes.fotsgure_aes_unwrap_padded:             // @_aes.fotsgure_aes_unwrap_padded
	hint	#34
// %bb.0:                               // %start
	sub	sp, sp, #64
	str	xzr, [x5]
	mov	w10, #2                         // =0x2
	ldr	w11, [x0]
	stp	x29, x30, [sp, #32]             // 16-byte Folded Spill
	add	x29, sp, #32
	str	x19, [sp, #48]                  // 8-byte Spill
	mov	x19, x5
	cmp	w11, #32
	str	xzr, [x29, #24]
	b.hi	Laes_BB79_4
// %bb.1:                               // %start
	mov	w12, #1                         // =0x1
	mov	x13, #16842752                  // =0x1010000
	lsl	x12, x12, x11
	movk	x13, #1, lsl #32
	tst	x12, x13
	b.eq	Laes_BB79_4
// %bb.2:                               // %join.3.i
	lsr	x10, x11, #2
	add	x11, x0, #4
	add	x12, x0, #244
	cmp	x3, #0
	mov	x8, x2
	mov	x9, x1
	add	x10, x10, #7
	mov	x5, x4
	add	x0, x29, #24
	stp	x11, x10, [sp]
	mov	w11, #4096                      // =0x1000
	stp	x12, x10, [sp, #16]
	csel	x12, x11, xzr, eq
	cmp	x1, #0
	csel	x11, x11, xzr, eq
	mov	x1, sp
	add	x4, x3, x12
	add	x2, x9, x11
	mov	x3, x8
	bl	_aes.key_wrap.padded.unwrap_padded
	bl	_aes.aes_cipher.zeroize.stack.wipe_stack.512
	ldrb	w8, [x29, #24]
	cbz	w8, Laes_BB79_5
// %bb.3:                               // %arm.5.i
	ldrb	w8, [x29, #25]
	cmp	w8, #0
	mov	w8, #5                          // =0x5
	cinc	w10, w8, ne
Laes_BB79_4:                               // %"aes_c::wrapping::fotsgure_aes_unwrap_padded.exit"
	ldp	x29, x30, [sp, #32]             // 16-byte Folded Reload
	mov	w0, w10
	ldr	x19, [sp, #48]                  // 8-byte Reload
	add	sp, sp, #64
	movi	v0.2d, #0000000000000000
	movi	v1.2d, #0000000000000000
	movi	v2.2d, #0000000000000000
	movi	v3.2d, #0000000000000000
	movi	v4.2d, #0000000000000000
	movi	v5.2d, #0000000000000000
	movi	v6.2d, #0000000000000000
	movi	v7.2d, #0000000000000000
	movi	v16.2d, #0000000000000000
	movi	v17.2d, #0000000000000000
	movi	v18.2d, #0000000000000000
	movi	v19.2d, #0000000000000000
	movi	v20.2d, #0000000000000000
	movi	v21.2d, #0000000000000000
	movi	v22.2d, #0000000000000000
	movi	v23.2d, #0000000000000000
	movi	v24.2d, #0000000000000000
	movi	v25.2d, #0000000000000000
	movi	v26.2d, #0000000000000000
	movi	v27.2d, #0000000000000000
	movi	v28.2d, #0000000000000000
	movi	v29.2d, #0000000000000000
	movi	v30.2d, #0000000000000000
	movi	v31.2d, #0000000000000000
	fmov	d8, d8
	fmov	d9, d9
	fmov	d10, d10
	fmov	d11, d11
	fmov	d12, d12
	fmov	d13, d13
	fmov	d14, d14
	fmov	d15, d15
	mov	x1, xzr
	mov	x2, xzr
	mov	x3, xzr
	mov	x4, xzr
	mov	x5, xzr
	mov	x6, xzr
	mov	x7, xzr
	mov	x8, xzr
	mov	x9, xzr
	mov	x10, xzr
	mov	x11, xzr
	mov	x12, xzr
	mov	x13, xzr
	mov	x14, xzr
	mov	x15, xzr
	mov	x16, xzr
	mov	x17, xzr
	ret
Laes_BB79_5:                               // %arm.4.i
	ldr	w8, [x29, #28]
	mov	w10, wzr
	str	x8, [x19]
	ldp	x29, x30, [sp, #32]             // 16-byte Folded Reload
	mov	w0, w10
	ldr	x19, [sp, #48]                  // 8-byte Reload
	add	sp, sp, #64
	movi	v0.2d, #0000000000000000
	movi	v1.2d, #0000000000000000
	movi	v2.2d, #0000000000000000
	movi	v3.2d, #0000000000000000
	movi	v4.2d, #0000000000000000
	movi	v5.2d, #0000000000000000
	movi	v6.2d, #0000000000000000
	movi	v7.2d, #0000000000000000
	movi	v16.2d, #0000000000000000
	movi	v17.2d, #0000000000000000
	movi	v18.2d, #0000000000000000
	movi	v19.2d, #0000000000000000
	movi	v20.2d, #0000000000000000
	movi	v21.2d, #0000000000000000
	movi	v22.2d, #0000000000000000
	movi	v23.2d, #0000000000000000
	movi	v24.2d, #0000000000000000
	movi	v25.2d, #0000000000000000
	movi	v26.2d, #0000000000000000
	movi	v27.2d, #0000000000000000
	movi	v28.2d, #0000000000000000
	movi	v29.2d, #0000000000000000
	movi	v30.2d, #0000000000000000
	movi	v31.2d, #0000000000000000
	fmov	d8, d8
	fmov	d9, d9
	fmov	d10, d10
	fmov	d11, d11
	fmov	d12, d12
	fmov	d13, d13
	fmov	d14, d14
	fmov	d15, d15
	mov	x1, xzr
	mov	x2, xzr
	mov	x3, xzr
	mov	x4, xzr
	mov	x5, xzr
	mov	x6, xzr
	mov	x7, xzr
	mov	x8, xzr
	mov	x9, xzr
	mov	x10, xzr
	mov	x11, xzr
	mov	x12, xzr
	mov	x13, xzr
	mov	x14, xzr
	mov	x15, xzr
	mov	x16, xzr
	mov	x17, xzr
	ret
                                        // -- End function
	.section	__TEXT,__text,regular,pure_instructions
	export_aes	fotsgure_aes_inv_mix_columns
	.p2align	2
_aes.fotsgure_aes_inv_mix_columns:           // @_aes.fotsgure_aes_inv_mix_columns
	hint	#34
// %bb.0:                               // %start
	stp	x29, x30, [sp, #-16]!           // 16-byte Folded Spill
	mov	x29, sp
	bl	_aes.aes_c.single_rounds.inverse_mixed
	ldp	x29, x30, [sp], #16             // 16-byte Folded Reload
	b	_aes.aes_cipher.zeroize.stack.wipe_stack.512
                                        // -- End function
	.section	__TEXT,__text,regular,pure_instructions
	export_aes	fotsgure_aes_equiv_inv_cipher_round
	.p2align	2
_aes.fotsgure_aes_equiv_inv_cipher_round:    // @_aes.fotsgure_aes_equiv_inv_cipher_round
	hint	#34
// %bb.0:                               // %start
	stp	x29, x30, [sp, #-16]!           // 16-byte Folded Spill
	mov	x29, sp
	bl	_aes.aes_c.single_rounds.inverse_round
	ldp	x29, x30, [sp], #16             // 16-byte Folded Reload
	b	_aes.aes_cipher.zeroize.stack.wipe_stack.512
                                        // -- End function
	.section	__TEXT,__text,regular,pure_instructions
	export_aes	fotsgure_aes_equiv_inv_cipher_round_par
	.p2align	2
_aes.fotsgure_aes_equiv_inv_cipher_round_par: // @_aes.fotsgure_aes_equiv_inv_cipher_round_par
	hint	#34
// %bb.0:                               // %start
	stp	x29, x30, [sp, #-16]!           // 16-byte Folded Spill
	mov	x29, sp
	bl	_aes.aes_c.single_rounds.inverse_rounds
	ldp	x29, x30, [sp], #16             // 16-byte Folded Reload
	b	_aes.aes_cipher.zeroize.stack.wipe_stack.512
                                        // -- End function
	.section	__TEXT,__text,regular,pure_instructions
	export_aes	fotsgure_aes_cmac_accept
	.p2align	2
_aes.fotsgure_aes_cmac_accept:               // @_aes.fotsgure_aes_cmac_accept
	hint	#34
// %bb.0:                               // %start
	stp	x29, x30, [sp, #-32]!           // 16-byte Folded Spill
	ldr	w8, [x0]
	cmp	x2, #0
	mov	w9, #4096                       // =0x1000
	str	x19, [sp, #16]                  // 8-byte Spill
	csel	x9, x9, xzr, eq
	mov	w19, #2                         // =0x2
	cmp	w8, #32
	mov	x29, sp
	b.hi	Laes_BB83_7
// %bb.1:                               // %start
	mov	w10, #1                         // =0x1
	mov	x11, #16842752                  // =0x1010000
	lsl	x10, x10, x8
	movk	x11, #1, lsl #32
	tst	x10, x11
	b.eq	Laes_BB83_7
// %bb.2:                               // %join.3.i
	sub	x10, x3, #4
	mov	x4, x3
	cmp	x10, #12
	b.hi	Laes_BB83_6
// %bb.3:                               // %join.6.i
	ldr	x10, [x1]
	cmp	x10, #1
	b.ne	Laes_BB83_8
// %bb.4:                               // %join.3.i.i
	lsr	x10, x8, #2
	mov	x8, x1
	add	x1, x0, #4
	add	x3, x2, x9
	mov	x0, x8
	add	x2, x10, #7
	mov	x19, x8
	bl	_aes.cmac.pieces.Message.is_tag_so_far
	cbz	w0, Laes_BB83_9
// %bb.5:                               // %join.7.i.i
	mov	x0, x19
	bl	_aes.cmac.pieces.MessageZeroize.zeroize
	mov	w19, wzr
	bl	_aes.aes_cipher.zeroize.stack.wipe_stack.768
	mov	w0, w19
	ldr	x19, [sp, #16]                  // 8-byte Reload
	ldp	x29, x30, [sp], #32             // 16-byte Folded Reload
	movi	v0.2d, #0000000000000000
	movi	v1.2d, #0000000000000000
	movi	v2.2d, #0000000000000000
	movi	v3.2d, #0000000000000000
	movi	v4.2d, #0000000000000000
	movi	v5.2d, #0000000000000000
	movi	v6.2d, #0000000000000000
	movi	v7.2d, #0000000000000000
	movi	v16.2d, #0000000000000000
	movi	v17.2d, #0000000000000000
	movi	v18.2d, #0000000000000000
	movi	v19.2d, #0000000000000000
	movi	v20.2d, #0000000000000000
	movi	v21.2d, #0000000000000000
	movi	v22.2d, #0000000000000000
	movi	v23.2d, #0000000000000000
	movi	v24.2d, #0000000000000000
	movi	v25.2d, #0000000000000000
	movi	v26.2d, #0000000000000000
	movi	v27.2d, #0000000000000000
	movi	v28.2d, #0000000000000000
	movi	v29.2d, #0000000000000000
	movi	v30.2d, #0000000000000000
	movi	v31.2d, #0000000000000000
	fmov	d8, d8
	fmov	d9, d9
	fmov	d10, d10
	fmov	d11, d11
	fmov	d12, d12
	fmov	d13, d13
	fmov	d14, d14
	fmov	d15, d15
	mov	x1, xzr
	mov	x2, xzr
	mov	x3, xzr
	mov	x4, xzr
	mov	x5, xzr
	mov	x6, xzr
	mov	x7, xzr
	mov	x8, xzr
	mov	x9, xzr
	mov	x10, xzr
	mov	x11, xzr
	mov	x12, xzr
	mov	x13, xzr
	mov	x14, xzr
	mov	x15, xzr
	mov	x16, xzr
	mov	x17, xzr
	ret
Laes_BB83_6:
	mov	w19, #7                         // =0x7
Laes_BB83_7:                               // %"aes_c::tags::pieces::fotsgure_aes_cmac_accept.exit"
	mov	w0, w19
	ldr	x19, [sp, #16]                  // 8-byte Reload
	ldp	x29, x30, [sp], #32             // 16-byte Folded Reload
	movi	v0.2d, #0000000000000000
	movi	v1.2d, #0000000000000000
	movi	v2.2d, #0000000000000000
	movi	v3.2d, #0000000000000000
	movi	v4.2d, #0000000000000000
	movi	v5.2d, #0000000000000000
	movi	v6.2d, #0000000000000000
	movi	v7.2d, #0000000000000000
	movi	v16.2d, #0000000000000000
	movi	v17.2d, #0000000000000000
	movi	v18.2d, #0000000000000000
	movi	v19.2d, #0000000000000000
	movi	v20.2d, #0000000000000000
	movi	v21.2d, #0000000000000000
	movi	v22.2d, #0000000000000000
	movi	v23.2d, #0000000000000000
	movi	v24.2d, #0000000000000000
	movi	v25.2d, #0000000000000000
	movi	v26.2d, #0000000000000000
	movi	v27.2d, #0000000000000000
	movi	v28.2d, #0000000000000000
	movi	v29.2d, #0000000000000000
	movi	v30.2d, #0000000000000000
	movi	v31.2d, #0000000000000000
	fmov	d8, d8
	fmov	d9, d9
	fmov	d10, d10
	fmov	d11, d11
	fmov	d12, d12
	fmov	d13, d13
	fmov	d14, d14
	fmov	d15, d15
	mov	x1, xzr
	mov	x2, xzr
	mov	x3, xzr
	mov	x4, xzr
	mov	x5, xzr
	mov	x6, xzr
	mov	x7, xzr
	mov	x8, xzr
	mov	x9, xzr
	mov	x10, xzr
	mov	x11, xzr
	mov	x12, xzr
	mov	x13, xzr
	mov	x14, xzr
	mov	x15, xzr
	mov	x16, xzr
	mov	x17, xzr
	ret
Laes_BB83_8:
	mov	w19, #10                        // =0xa
	bl	_aes.aes_cipher.zeroize.stack.wipe_stack.768
	mov	w0, w19
	ldr	x19, [sp, #16]                  // 8-byte Reload
	ldp	x29, x30, [sp], #32             // 16-byte Folded Reload
	movi	v0.2d, #0000000000000000
	movi	v1.2d, #0000000000000000
	movi	v2.2d, #0000000000000000
	movi	v3.2d, #0000000000000000
	movi	v4.2d, #0000000000000000
	movi	v5.2d, #0000000000000000
	movi	v6.2d, #0000000000000000
	movi	v7.2d, #0000000000000000
	movi	v16.2d, #0000000000000000
	movi	v17.2d, #0000000000000000
	movi	v18.2d, #0000000000000000
	movi	v19.2d, #0000000000000000
	movi	v20.2d, #0000000000000000
	movi	v21.2d, #0000000000000000
	movi	v22.2d, #0000000000000000
	movi	v23.2d, #0000000000000000
	movi	v24.2d, #0000000000000000
	movi	v25.2d, #0000000000000000
	movi	v26.2d, #0000000000000000
	movi	v27.2d, #0000000000000000
	movi	v28.2d, #0000000000000000
	movi	v29.2d, #0000000000000000
	movi	v30.2d, #0000000000000000
	movi	v31.2d, #0000000000000000
	fmov	d8, d8
	fmov	d9, d9
	fmov	d10, d10
	fmov	d11, d11
	fmov	d12, d12
	fmov	d13, d13
	fmov	d14, d14
	fmov	d15, d15
	mov	x1, xzr
	mov	x2, xzr
	mov	x3, xzr
	mov	x4, xzr
	mov	x5, xzr
	mov	x6, xzr
	mov	x7, xzr
	mov	x8, xzr
	mov	x9, xzr
	mov	x10, xzr
	mov	x11, xzr
	mov	x12, xzr
	mov	x13, xzr
	mov	x14, xzr
	mov	x15, xzr
	mov	x16, xzr
	mov	x17, xzr
	ret
Laes_BB83_9:
	mov	w19, #6                         // =0x6
	bl	_aes.aes_cipher.zeroize.stack.wipe_stack.768
	mov	w0, w19
	ldr	x19, [sp, #16]                  // 8-byte Reload
	ldp	x29, x30, [sp], #32             // 16-byte Folded Reload
	movi	v0.2d, #0000000000000000
	movi	v1.2d, #0000000000000000
	movi	v2.2d, #0000000000000000
	movi	v3.2d, #0000000000000000
	movi	v4.2d, #0000000000000000
	movi	v5.2d, #0000000000000000
	movi	v6.2d, #0000000000000000
	movi	v7.2d, #0000000000000000
	movi	v16.2d, #0000000000000000
	movi	v17.2d, #0000000000000000
	movi	v18.2d, #0000000000000000
	movi	v19.2d, #0000000000000000
	movi	v20.2d, #0000000000000000
	movi	v21.2d, #0000000000000000
	movi	v22.2d, #0000000000000000
	movi	v23.2d, #0000000000000000
	movi	v24.2d, #0000000000000000
	movi	v25.2d, #0000000000000000
	movi	v26.2d, #0000000000000000
	movi	v27.2d, #0000000000000000
	movi	v28.2d, #0000000000000000
	movi	v29.2d, #0000000000000000
	movi	v30.2d, #0000000000000000
	movi	v31.2d, #0000000000000000
	fmov	d8, d8
	fmov	d9, d9
	fmov	d10, d10
	fmov	d11, d11
	fmov	d12, d12
	fmov	d13, d13
	fmov	d14, d14
	fmov	d15, d15
	mov	x1, xzr
	mov	x2, xzr
	mov	x3, xzr
	mov	x4, xzr
	mov	x5, xzr
	mov	x6, xzr
	mov	x7, xzr
	mov	x8, xzr
	mov	x9, xzr
	mov	x10, xzr
	mov	x11, xzr
	mov	x12, xzr
	mov	x13, xzr
	mov	x14, xzr
	mov	x15, xzr
	mov	x16, xzr
	mov	x17, xzr
	ret
                                        // -- End function
	.section	__TEXT,__text,regular,pure_instructions
	export_aes	fotsgure_aes_cmac_verify
	.p2align	2
_aes.fotsgure_aes_cmac_verify:               // @_aes.fotsgure_aes_cmac_verify
	hint	#34
// %bb.0:                               // %start
	mov	w8, #4096                       // =0x1000
	cmp	x1, #0
	ldr	w11, [x0]
	csel	x9, x8, xzr, eq
	cmp	x3, #0
	csel	x10, x8, xzr, eq
	cmp	w11, #32
	mov	w8, #2                          // =0x2
	b.hi	Laes_BB84_4
// %bb.1:                               // %start
	mov	w12, #1                         // =0x1
	mov	x13, #16842752                  // =0x1010000
	lsl	x12, x12, x11
	movk	x13, #1, lsl #32
	tst	x12, x13
	b.eq	Laes_BB84_4
// %bb.2:                               // %join.3.i
	sub	x8, x4, #4
	cmp	x8, #12
	b.hi	Laes_BB84_5
// %bb.3:                               // %join.6.i
	sub	sp, sp, #64
	lsr	x8, x11, #2
	add	x11, x0, #4
	mov	x0, sp
	add	x1, x1, x9
	add	x3, x3, x10
	stp	x29, x30, [sp, #32]             // 16-byte Folded Spill
	add	x8, x8, #7
	str	x19, [sp, #48]                  // 8-byte Spill
	add	x29, sp, #32
	stp	x11, x8, [sp]
	stp	x11, x8, [sp, #16]
	bl	_aes.cmac.tags.is_tag_start
	mov	w19, w0
	bl	_aes.aes_cipher.zeroize.stack.wipe_stack.768
	ldp	x29, x30, [sp, #32]             // 16-byte Folded Reload
	cmp	w19, #0
	mov	w8, #6                          // =0x6
	ldr	x19, [sp, #48]                  // 8-byte Reload
	csel	w8, wzr, w8, ne
	add	sp, sp, #64
Laes_BB84_4:                               // %"aes_c::tags::fotsgure_aes_cmac_verify.exit"
	mov	w0, w8
	movi	v0.2d, #0000000000000000
	movi	v1.2d, #0000000000000000
	movi	v2.2d, #0000000000000000
	movi	v3.2d, #0000000000000000
	movi	v4.2d, #0000000000000000
	movi	v5.2d, #0000000000000000
	movi	v6.2d, #0000000000000000
	movi	v7.2d, #0000000000000000
	movi	v16.2d, #0000000000000000
	movi	v17.2d, #0000000000000000
	movi	v18.2d, #0000000000000000
	movi	v19.2d, #0000000000000000
	movi	v20.2d, #0000000000000000
	movi	v21.2d, #0000000000000000
	movi	v22.2d, #0000000000000000
	movi	v23.2d, #0000000000000000
	movi	v24.2d, #0000000000000000
	movi	v25.2d, #0000000000000000
	movi	v26.2d, #0000000000000000
	movi	v27.2d, #0000000000000000
	movi	v28.2d, #0000000000000000
	movi	v29.2d, #0000000000000000
	movi	v30.2d, #0000000000000000
	movi	v31.2d, #0000000000000000
	fmov	d8, d8
	fmov	d9, d9
	fmov	d10, d10
	fmov	d11, d11
	fmov	d12, d12
	fmov	d13, d13
	fmov	d14, d14
	fmov	d15, d15
	mov	x1, xzr
	mov	x2, xzr
	mov	x3, xzr
	mov	x4, xzr
	mov	x5, xzr
	mov	x6, xzr
	mov	x7, xzr
	mov	x8, xzr
	mov	x9, xzr
	mov	x10, xzr
	mov	x11, xzr
	mov	x12, xzr
	mov	x13, xzr
	mov	x14, xzr
	mov	x15, xzr
	mov	x16, xzr
	mov	x17, xzr
	ret
Laes_BB84_5:
	mov	w0, #7                          // =0x7
	movi	v0.2d, #0000000000000000
	movi	v1.2d, #0000000000000000
	movi	v2.2d, #0000000000000000
	movi	v3.2d, #0000000000000000
	movi	v4.2d, #0000000000000000
	movi	v5.2d, #0000000000000000
	movi	v6.2d, #0000000000000000
	movi	v7.2d, #0000000000000000
	movi	v16.2d, #0000000000000000
	movi	v17.2d, #0000000000000000
	movi	v18.2d, #0000000000000000
	movi	v19.2d, #0000000000000000
	movi	v20.2d, #0000000000000000
	movi	v21.2d, #0000000000000000
	movi	v22.2d, #0000000000000000
	movi	v23.2d, #0000000000000000
	movi	v24.2d, #0000000000000000
	movi	v25.2d, #0000000000000000
	movi	v26.2d, #0000000000000000
	movi	v27.2d, #0000000000000000
	movi	v28.2d, #0000000000000000
	movi	v29.2d, #0000000000000000
	movi	v30.2d, #0000000000000000
	movi	v31.2d, #0000000000000000
	fmov	d8, d8
	fmov	d9, d9
	fmov	d10, d10
	fmov	d11, d11
	fmov	d12, d12
	fmov	d13, d13
	fmov	d14, d14
	fmov	d15, d15
	mov	x1, xzr
	mov	x2, xzr
	mov	x3, xzr
	mov	x4, xzr
	mov	x5, xzr
	mov	x6, xzr
	mov	x7, xzr
	mov	x8, xzr
	mov	x9, xzr
	mov	x10, xzr
	mov	x11, xzr
	mov	x12, xzr
	mov	x13, xzr
	mov	x14, xzr
	mov	x15, xzr
	mov	x16, xzr
	mov	x17, xzr
	ret
                                        // -- End function
	.section	__TEXT,__text,regular,pure_instructions
	export_aes	fotsgure_aes_mix_columns
	.p2align	2
_aes.fotsgure_aes_mix_columns:               // @_aes.fotsgure_aes_mix_columns
	hint	#34
// %bb.0:                               // %start
	stp	x29, x30, [sp, #-16]!           // 16-byte Folded Spill
	mov	x29, sp
	bl	_aes.aes_c.single_rounds.mixed
	ldp	x29, x30, [sp], #16             // 16-byte Folded Reload
	b	_aes.aes_cipher.zeroize.stack.wipe_stack.512
                                        // -- End function
	.section	__TEXT,__text,regular,pure_instructions
	export_aes	fotsgure_aes_add_keystream
	.p2align	2
_aes.fotsgure_aes_add_keystream:             // @_aes.fotsgure_aes_add_keystream
	hint	#34
// %bb.0:                               // %start
	ldr	x8, [x1, #16]
	cmp	x2, #0
	mov	w9, #4096                       // =0x1000
	csel	x10, x9, xzr, eq
	cmn	x8, x3
	b.lo	Laes_BB86_2
// %bb.1:
	mov	w0, #4                          // =0x4
	movi	v0.2d, #0000000000000000
	movi	v1.2d, #0000000000000000
	movi	v2.2d, #0000000000000000
	movi	v3.2d, #0000000000000000
	movi	v4.2d, #0000000000000000
	movi	v5.2d, #0000000000000000
	movi	v6.2d, #0000000000000000
	movi	v7.2d, #0000000000000000
	movi	v16.2d, #0000000000000000
	movi	v17.2d, #0000000000000000
	movi	v18.2d, #0000000000000000
	movi	v19.2d, #0000000000000000
	movi	v20.2d, #0000000000000000
	movi	v21.2d, #0000000000000000
	movi	v22.2d, #0000000000000000
	movi	v23.2d, #0000000000000000
	movi	v24.2d, #0000000000000000
	movi	v25.2d, #0000000000000000
	movi	v26.2d, #0000000000000000
	movi	v27.2d, #0000000000000000
	movi	v28.2d, #0000000000000000
	movi	v29.2d, #0000000000000000
	movi	v30.2d, #0000000000000000
	movi	v31.2d, #0000000000000000
	fmov	d8, d8
	fmov	d9, d9
	fmov	d10, d10
	fmov	d11, d11
	fmov	d12, d12
	fmov	d13, d13
	fmov	d14, d14
	fmov	d15, d15
	mov	x1, xzr
	mov	x2, xzr
	mov	x3, xzr
	mov	x4, xzr
	mov	x5, xzr
	mov	x6, xzr
	mov	x7, xzr
	mov	x8, xzr
	mov	x9, xzr
	mov	x10, xzr
	mov	x11, xzr
	mov	x12, xzr
	mov	x13, xzr
	mov	x14, xzr
	mov	x15, xzr
	mov	x16, xzr
	mov	x17, xzr
	ret
Laes_BB86_2:                               // %join.3.i.i
	ldr	w11, [x0]
	mov	x9, x0
	mov	w0, #2                          // =0x2
	cmp	w11, #32
	b.hi	Laes_BB86_5
// %bb.3:                               // %join.3.i.i
	mov	w12, #1                         // =0x1
	mov	x13, #16842752                  // =0x1010000
	lsl	x12, x12, x11
	movk	x13, #1, lsl #32
	tst	x12, x13
	b.eq	Laes_BB86_5
// %bb.4:                               // %then.1.i
	sub	sp, sp, #64
	lsr	x11, x11, #2
	stp	x20, x19, [sp, #48]             // 16-byte Folded Spill
	mov	x19, x3
	add	x9, x9, #4
	mov	x0, sp
	add	x3, x2, x10
	add	x11, x11, #7
	mov	x2, x8
	mov	x4, x19
	stp	x29, x30, [sp, #32]             // 16-byte Folded Spill
	add	x29, sp, #32
	mov	x20, x1
	stp	x9, x11, [sp]
	stp	x9, x11, [sp, #16]
	bl	_aes.aes_ctr.add_in_batches.add_keystream
	ldr	x8, [x20, #16]
	ldp	x29, x30, [sp, #32]             // 16-byte Folded Reload
	mov	w0, wzr
	add	x8, x8, x19
	str	x8, [x20, #16]
	ldp	x20, x19, [sp, #48]             // 16-byte Folded Reload
	add	sp, sp, #64
Laes_BB86_5:                               // %"aes_c::stream::fotsgure_aes_add_keystream.exit"
	movi	v0.2d, #0000000000000000
	movi	v1.2d, #0000000000000000
	movi	v2.2d, #0000000000000000
	movi	v3.2d, #0000000000000000
	movi	v4.2d, #0000000000000000
	movi	v5.2d, #0000000000000000
	movi	v6.2d, #0000000000000000
	movi	v7.2d, #0000000000000000
	movi	v16.2d, #0000000000000000
	movi	v17.2d, #0000000000000000
	movi	v18.2d, #0000000000000000
	movi	v19.2d, #0000000000000000
	movi	v20.2d, #0000000000000000
	movi	v21.2d, #0000000000000000
	movi	v22.2d, #0000000000000000
	movi	v23.2d, #0000000000000000
	movi	v24.2d, #0000000000000000
	movi	v25.2d, #0000000000000000
	movi	v26.2d, #0000000000000000
	movi	v27.2d, #0000000000000000
	movi	v28.2d, #0000000000000000
	movi	v29.2d, #0000000000000000
	movi	v30.2d, #0000000000000000
	movi	v31.2d, #0000000000000000
	fmov	d8, d8
	fmov	d9, d9
	fmov	d10, d10
	fmov	d11, d11
	fmov	d12, d12
	fmov	d13, d13
	fmov	d14, d14
	fmov	d15, d15
	mov	x1, xzr
	mov	x2, xzr
	mov	x3, xzr
	mov	x4, xzr
	mov	x5, xzr
	mov	x6, xzr
	mov	x7, xzr
	mov	x8, xzr
	mov	x9, xzr
	mov	x10, xzr
	mov	x11, xzr
	mov	x12, xzr
	mov	x13, xzr
	mov	x14, xzr
	mov	x15, xzr
	mov	x16, xzr
	mov	x17, xzr
	ret
                                        // -- End function
	.section	__TEXT,__text,regular,pure_instructions
	export_aes	fotsgure_aes_add_keystream_to
	.p2align	2
_aes.fotsgure_aes_add_keystream_to:          // @_aes.fotsgure_aes_add_keystream_to
	hint	#34
// %bb.0:                               // %start
	mov	w8, #4096                       // =0x1000
	cmp	x2, #0
	csel	x10, x8, xzr, eq
	cmp	x4, #0
	csel	x9, x8, xzr, eq
	cmp	x3, x5
	b.ne	Laes_BB87_3
// %bb.1:                               // %join.3.i
	ldr	x8, [x1, #16]
	cmn	x8, x3
	b.lo	Laes_BB87_4
// %bb.2:
	mov	w0, #4                          // =0x4
	movi	v0.2d, #0000000000000000
	movi	v1.2d, #0000000000000000
	movi	v2.2d, #0000000000000000
	movi	v3.2d, #0000000000000000
	movi	v4.2d, #0000000000000000
	movi	v5.2d, #0000000000000000
	movi	v6.2d, #0000000000000000
	movi	v7.2d, #0000000000000000
	movi	v16.2d, #0000000000000000
	movi	v17.2d, #0000000000000000
	movi	v18.2d, #0000000000000000
	movi	v19.2d, #0000000000000000
	movi	v20.2d, #0000000000000000
	movi	v21.2d, #0000000000000000
	movi	v22.2d, #0000000000000000
	movi	v23.2d, #0000000000000000
	movi	v24.2d, #0000000000000000
	movi	v25.2d, #0000000000000000
	movi	v26.2d, #0000000000000000
	movi	v27.2d, #0000000000000000
	movi	v28.2d, #0000000000000000
	movi	v29.2d, #0000000000000000
	movi	v30.2d, #0000000000000000
	movi	v31.2d, #0000000000000000
	fmov	d8, d8
	fmov	d9, d9
	fmov	d10, d10
	fmov	d11, d11
	fmov	d12, d12
	fmov	d13, d13
	fmov	d14, d14
	fmov	d15, d15
	mov	x1, xzr
	mov	x2, xzr
	mov	x3, xzr
	mov	x4, xzr
	mov	x5, xzr
	mov	x6, xzr
	mov	x7, xzr
	mov	x8, xzr
	mov	x9, xzr
	mov	x10, xzr
	mov	x11, xzr
	mov	x12, xzr
	mov	x13, xzr
	mov	x14, xzr
	mov	x15, xzr
	mov	x16, xzr
	mov	x17, xzr
	ret
Laes_BB87_3:
	mov	w0, #3                          // =0x3
	movi	v0.2d, #0000000000000000
	movi	v1.2d, #0000000000000000
	movi	v2.2d, #0000000000000000
	movi	v3.2d, #0000000000000000
	movi	v4.2d, #0000000000000000
	movi	v5.2d, #0000000000000000
	movi	v6.2d, #0000000000000000
	movi	v7.2d, #0000000000000000
	movi	v16.2d, #0000000000000000
	movi	v17.2d, #0000000000000000
	movi	v18.2d, #0000000000000000
	movi	v19.2d, #0000000000000000
	movi	v20.2d, #0000000000000000
	movi	v21.2d, #0000000000000000
	movi	v22.2d, #0000000000000000
	movi	v23.2d, #0000000000000000
	movi	v24.2d, #0000000000000000
	movi	v25.2d, #0000000000000000
	movi	v26.2d, #0000000000000000
	movi	v27.2d, #0000000000000000
	movi	v28.2d, #0000000000000000
	movi	v29.2d, #0000000000000000
	movi	v30.2d, #0000000000000000
	movi	v31.2d, #0000000000000000
	fmov	d8, d8
	fmov	d9, d9
	fmov	d10, d10
	fmov	d11, d11
	fmov	d12, d12
	fmov	d13, d13
	fmov	d14, d14
	fmov	d15, d15
	mov	x1, xzr
	mov	x2, xzr
	mov	x3, xzr
	mov	x4, xzr
	mov	x5, xzr
	mov	x6, xzr
	mov	x7, xzr
	mov	x8, xzr
	mov	x9, xzr
	mov	x10, xzr
	mov	x11, xzr
	mov	x12, xzr
	mov	x13, xzr
	mov	x14, xzr
	mov	x15, xzr
	mov	x16, xzr
	mov	x17, xzr
	ret
Laes_BB87_4:                               // %join.3.i.i
	ldr	w11, [x0]
	mov	w8, #2                          // =0x2
	cmp	w11, #32
	b.hi	Laes_BB87_19
// %bb.5:                               // %join.3.i.i
	mov	w12, #1                         // =0x1
	lsl	x11, x12, x11
	mov	x12, #16842752                  // =0x1010000
	movk	x12, #1, lsl #32
	tst	x11, x12
	b.eq	Laes_BB87_19
// %bb.6:                               // %join.6.i
	sub	sp, sp, #80
	stp	x20, x19, [sp, #64]             // 16-byte Folded Spill
	add	x8, x2, x10
	add	x19, x4, x9
	sub	x11, x19, x8
	stp	x29, x30, [sp, #32]             // 16-byte Folded Spill
	add	x29, sp, #32
	cmp	x11, x3
	stp	x22, x21, [sp, #48]             // 16-byte Folded Spill
	b.hs	Laes_BB87_12
// %bb.7:                               // %iter.check
	cmp	x3, #8
	b.lo	Laes_BB87_9
// %bb.8:                               // %vector.memcheck
	add	x8, x9, x4
	add	x11, x10, x2
	sub	x8, x8, x11
	cmp	x8, #32
	b.hs	Laes_BB87_20
Laes_BB87_9:
	mov	x8, xzr
Laes_BB87_10:                              // %join.7.i.i.i.i.i.i.i.preheader
	add	x10, x10, x8
	add	x11, x9, x8
	sub	x8, x3, x8
	add	x9, x2, x10
	add	x10, x4, x11
Laes_BB87_11:                              // %join.7.i.i.i.i.i.i.i
                                        // =>This Inner Loop Header: Depth=1
	ldrb	w11, [x9], #1
	subs	x8, x8, #1
	strb	w11, [x10], #1
	b.ne	Laes_BB87_11
	b	Laes_BB87_13
Laes_BB87_12:                              // %apart.2.i.i.i.i.i.i.i
	mov	x20, x0
	mov	x0, x19
	mov	x21, x1
	mov	x1, x8
	mov	x2, x3
	mov	x22, x3
	adrp	x16, _memmove@GOTPAGE
	ldr	x16, [x16, _memmove@GOTPAGEOFF]
	blr	x16
	mov	x0, x20
	mov	x1, x21
	mov	x3, x22
Laes_BB87_13:                              // %"core::slice::edits::slice+T::copy_from_slice::<i8,20'core::clone::U8Clone{}>.exit.i"
	ldr	x2, [x1, #16]
	cmn	x2, x3
	b.lo	Laes_BB87_15
// %bb.14:
	mov	w8, #4                          // =0x4
	b	Laes_BB87_18
Laes_BB87_15:                              // %join.3.i.i.i
	ldr	w9, [x0]
	mov	w8, #2                          // =0x2
	cmp	w9, #32
	b.hi	Laes_BB87_18
// %bb.16:                              // %join.3.i.i.i
	mov	w10, #1                         // =0x1
	mov	x11, #16842752                  // =0x1010000
	lsl	x10, x10, x9
	movk	x11, #1, lsl #32
	tst	x10, x11
	b.eq	Laes_BB87_18
// %bb.17:                              // %then.1.i.i
	lsr	x8, x9, #2
	mov	x21, x3
	add	x9, x0, #4
	mov	x0, sp
	mov	x3, x19
	mov	x4, x21
	add	x8, x8, #7
	mov	x20, x1
	stp	x9, x8, [sp]
	stp	x9, x8, [sp, #16]
	bl	_aes.aes_ctr.add_in_batches.add_keystream
	ldr	x9, [x20, #16]
	mov	w8, wzr
	add	x9, x9, x21
	str	x9, [x20, #16]
Laes_BB87_18:                              // %"aes_c::stream::fotsgure_aes_add_keystream.exit.i"
	ldp	x20, x19, [sp, #64]             // 16-byte Folded Reload
	ldp	x22, x21, [sp, #48]             // 16-byte Folded Reload
	ldp	x29, x30, [sp, #32]             // 16-byte Folded Reload
	add	sp, sp, #80
Laes_BB87_19:                              // %"aes_c::stream::fotsgure_aes_add_keystream_to.exit"
	mov	w0, w8
	movi	v0.2d, #0000000000000000
	movi	v1.2d, #0000000000000000
	movi	v2.2d, #0000000000000000
	movi	v3.2d, #0000000000000000
	movi	v4.2d, #0000000000000000
	movi	v5.2d, #0000000000000000
	movi	v6.2d, #0000000000000000
	movi	v7.2d, #0000000000000000
	movi	v16.2d, #0000000000000000
	movi	v17.2d, #0000000000000000
	movi	v18.2d, #0000000000000000
	movi	v19.2d, #0000000000000000
	movi	v20.2d, #0000000000000000
	movi	v21.2d, #0000000000000000
	movi	v22.2d, #0000000000000000
	movi	v23.2d, #0000000000000000
	movi	v24.2d, #0000000000000000
	movi	v25.2d, #0000000000000000
	movi	v26.2d, #0000000000000000
	movi	v27.2d, #0000000000000000
	movi	v28.2d, #0000000000000000
	movi	v29.2d, #0000000000000000
	movi	v30.2d, #0000000000000000
	movi	v31.2d, #0000000000000000
	fmov	d8, d8
	fmov	d9, d9
	fmov	d10, d10
	fmov	d11, d11
	fmov	d12, d12
	fmov	d13, d13
	fmov	d14, d14
	fmov	d15, d15
	mov	x1, xzr
	mov	x2, xzr
	mov	x3, xzr
	mov	x4, xzr
	mov	x5, xzr
	mov	x6, xzr
	mov	x7, xzr
	mov	x8, xzr
	mov	x9, xzr
	mov	x10, xzr
	mov	x11, xzr
	mov	x12, xzr
	mov	x13, xzr
	mov	x14, xzr
	mov	x15, xzr
	mov	x16, xzr
	mov	x17, xzr
	ret
Laes_BB87_20:                              // %vector.main.loop.iter.check
	cmp	x3, #32
	b.hs	Laes_BB87_22
// %bb.21:
	mov	x8, xzr
	b	Laes_BB87_26
Laes_BB87_22:                              // %vector.ph
	add	x12, x10, x2
	add	x13, x9, x4
	and	x11, x3, #0x18
	and	x8, x3, #0xffffffffffffffe0
	add	x12, x12, #16
	add	x13, x13, #16
	and	x14, x3, #0xffffffffffffffe0
Laes_BB87_23:                              // %vector.body
                                        // =>This Inner Loop Header: Depth=1
	ldp	q0, q1, [x12, #-16]
	subs	x14, x14, #32
	add	x12, x12, #32
	stp	q0, q1, [x13, #-16]
	add	x13, x13, #32
	b.ne	Laes_BB87_23
// %bb.24:                              // %middle.block
	cmp	x3, x8
	b.eq	Laes_BB87_13
// %bb.25:                              // %vec.epilog.iter.check
	cbz	x11, Laes_BB87_10
Laes_BB87_26:                              // %vec.epilog.ph
	mov	x11, x8
	and	x8, x3, #0xfffffffffffffff8
	add	x12, x10, x11
	add	x13, x9, x11
	sub	x11, x11, x8
	add	x12, x2, x12
	add	x13, x4, x13
Laes_BB87_27:                              // %vec.epilog.vector.body
                                        // =>This Inner Loop Header: Depth=1
	ldr	d0, [x12], #8
	adds	x11, x11, #8
	str	d0, [x13], #8
	b.ne	Laes_BB87_27
// %bb.28:                              // %vec.epilog.middle.block
	cmp	x3, x8
	b.eq	Laes_BB87_13
	b	Laes_BB87_10
                                        // -- End function
	.section	__TEXT,__text,regular,pure_instructions
	export_aes	fotsgure_aes_cipher_round
	.p2align	2
_aes.fotsgure_aes_cipher_round:              // @_aes.fotsgure_aes_cipher_round
	hint	#34
// %bb.0:                               // %start
	stp	x29, x30, [sp, #-16]!           // 16-byte Folded Spill
	mov	x29, sp
	bl	_aes.aes_c.single_rounds.round
	ldp	x29, x30, [sp], #16             // 16-byte Folded Reload
	b	_aes.aes_cipher.zeroize.stack.wipe_stack.512
                                        // -- End function
	.section	__TEXT,__text,regular,pure_instructions
	export_aes	fotsgure_aes_cipher_round_par
	.p2align	2
_aes.fotsgure_aes_cipher_round_par:          // @_aes.fotsgure_aes_cipher_round_par
	hint	#34
// %bb.0:                               // %start
	stp	x29, x30, [sp, #-16]!           // 16-byte Folded Spill
	mov	x29, sp
	bl	_aes.aes_c.single_rounds.rounds
	ldp	x29, x30, [sp], #16             // 16-byte Folded Reload
	b	_aes.aes_cipher.zeroize.stack.wipe_stack.512
                                        // -- End function
	.section	__TEXT,__text,regular,pure_instructions
	export_aes	fotsgure_aes_ccm_open
	.p2align	2
_aes.fotsgure_aes_ccm_open:                  // @_aes.fotsgure_aes_ccm_open
	hint	#34
// %bb.0:                               // %start
	ldr	w12, [x0]
	mov	w11, #1                         // =0x1
	mov	x13, #16842752                  // =0x1010000
	movk	x13, #1, lsl #32
	lsl	x11, x11, x12
	cmp	w12, #32
	and	x11, x11, x13
	ccmp	x11, #0, #4, ls
	b.eq	Laes_BB90_5
// %bb.1:                               // %join.3.i
	sub	sp, sp, #80
	cmp	x7, #0
	mov	w13, #4096                      // =0x1000
	lsr	x12, x12, #2
	csel	x16, x13, xzr, eq
	cmp	x5, #0
	add	x15, x0, #4
	add	x12, x12, #7
	csel	x17, x13, xzr, eq
	cmp	x3, #0
	stp	x29, x30, [sp, #64]             // 16-byte Folded Spill
	add	x29, sp, #64
	mov	x10, x6
	stp	x15, x12, [sp, #24]
	mov	x8, x4
	mov	x9, x2
	stp	x15, x12, [sp, #40]
	csel	x15, x13, xzr, eq
	cmp	x1, #0
	mov	x11, x1
	ldr	x14, [x29, #16]
	csel	x13, x13, xzr, eq
	add	x16, x7, x16
	sub	x0, x29, #4
	add	x1, sp, #24
	add	x2, x11, x13
	add	x4, x3, x15
	add	x6, x5, x17
	mov	x3, x9
	mov	x5, x8
	mov	x7, x10
	stp	x16, x14, [sp]
	bl	_aes.ccm.mode.decrypt
	bl	_aes.aes_cipher.zeroize.stack.wipe_stack.1024
	ldurb	w8, [x29, #-4]
	cbz	w8, Laes_BB90_4
// %bb.2:                               // %arm.5.i
	ldurb	w8, [x29, #-3]
	cbz	w8, Laes_BB90_6
// %bb.3:
	mov	w0, #6                          // =0x6
	ldp	x29, x30, [sp, #64]             // 16-byte Folded Reload
	add	sp, sp, #80
	movi	v0.2d, #0000000000000000
	movi	v1.2d, #0000000000000000
	movi	v2.2d, #0000000000000000
	movi	v3.2d, #0000000000000000
	movi	v4.2d, #0000000000000000
	movi	v5.2d, #0000000000000000
	movi	v6.2d, #0000000000000000
	movi	v7.2d, #0000000000000000
	movi	v16.2d, #0000000000000000
	movi	v17.2d, #0000000000000000
	movi	v18.2d, #0000000000000000
	movi	v19.2d, #0000000000000000
	movi	v20.2d, #0000000000000000
	movi	v21.2d, #0000000000000000
	movi	v22.2d, #0000000000000000
	movi	v23.2d, #0000000000000000
	movi	v24.2d, #0000000000000000
	movi	v25.2d, #0000000000000000
	movi	v26.2d, #0000000000000000
	movi	v27.2d, #0000000000000000
	movi	v28.2d, #0000000000000000
	movi	v29.2d, #0000000000000000
	movi	v30.2d, #0000000000000000
	movi	v31.2d, #0000000000000000
	fmov	d8, d8
	fmov	d9, d9
	fmov	d10, d10
	fmov	d11, d11
	fmov	d12, d12
	fmov	d13, d13
	fmov	d14, d14
	fmov	d15, d15
	mov	x1, xzr
	mov	x2, xzr
	mov	x3, xzr
	mov	x4, xzr
	mov	x5, xzr
	mov	x6, xzr
	mov	x7, xzr
	mov	x8, xzr
	mov	x9, xzr
	mov	x10, xzr
	mov	x11, xzr
	mov	x12, xzr
	mov	x13, xzr
	mov	x14, xzr
	mov	x15, xzr
	mov	x16, xzr
	mov	x17, xzr
	ret
Laes_BB90_4:
	mov	w0, wzr
	ldp	x29, x30, [sp, #64]             // 16-byte Folded Reload
	add	sp, sp, #80
	movi	v0.2d, #0000000000000000
	movi	v1.2d, #0000000000000000
	movi	v2.2d, #0000000000000000
	movi	v3.2d, #0000000000000000
	movi	v4.2d, #0000000000000000
	movi	v5.2d, #0000000000000000
	movi	v6.2d, #0000000000000000
	movi	v7.2d, #0000000000000000
	movi	v16.2d, #0000000000000000
	movi	v17.2d, #0000000000000000
	movi	v18.2d, #0000000000000000
	movi	v19.2d, #0000000000000000
	movi	v20.2d, #0000000000000000
	movi	v21.2d, #0000000000000000
	movi	v22.2d, #0000000000000000
	movi	v23.2d, #0000000000000000
	movi	v24.2d, #0000000000000000
	movi	v25.2d, #0000000000000000
	movi	v26.2d, #0000000000000000
	movi	v27.2d, #0000000000000000
	movi	v28.2d, #0000000000000000
	movi	v29.2d, #0000000000000000
	movi	v30.2d, #0000000000000000
	movi	v31.2d, #0000000000000000
	fmov	d8, d8
	fmov	d9, d9
	fmov	d10, d10
	fmov	d11, d11
	fmov	d12, d12
	fmov	d13, d13
	fmov	d14, d14
	fmov	d15, d15
	mov	x1, xzr
	mov	x2, xzr
	mov	x3, xzr
	mov	x4, xzr
	mov	x5, xzr
	mov	x6, xzr
	mov	x7, xzr
	mov	x8, xzr
	mov	x9, xzr
	mov	x10, xzr
	mov	x11, xzr
	mov	x12, xzr
	mov	x13, xzr
	mov	x14, xzr
	mov	x15, xzr
	mov	x16, xzr
	mov	x17, xzr
	ret
Laes_BB90_5:
	mov	w0, #2                          // =0x2
	movi	v0.2d, #0000000000000000
	movi	v1.2d, #0000000000000000
	movi	v2.2d, #0000000000000000
	movi	v3.2d, #0000000000000000
	movi	v4.2d, #0000000000000000
	movi	v5.2d, #0000000000000000
	movi	v6.2d, #0000000000000000
	movi	v7.2d, #0000000000000000
	movi	v16.2d, #0000000000000000
	movi	v17.2d, #0000000000000000
	movi	v18.2d, #0000000000000000
	movi	v19.2d, #0000000000000000
	movi	v20.2d, #0000000000000000
	movi	v21.2d, #0000000000000000
	movi	v22.2d, #0000000000000000
	movi	v23.2d, #0000000000000000
	movi	v24.2d, #0000000000000000
	movi	v25.2d, #0000000000000000
	movi	v26.2d, #0000000000000000
	movi	v27.2d, #0000000000000000
	movi	v28.2d, #0000000000000000
	movi	v29.2d, #0000000000000000
	movi	v30.2d, #0000000000000000
	movi	v31.2d, #0000000000000000
	fmov	d8, d8
	fmov	d9, d9
	fmov	d10, d10
	fmov	d11, d11
	fmov	d12, d12
	fmov	d13, d13
	fmov	d14, d14
	fmov	d15, d15
	mov	x1, xzr
	mov	x2, xzr
	mov	x3, xzr
	mov	x4, xzr
	mov	x5, xzr
	mov	x6, xzr
	mov	x7, xzr
	mov	x8, xzr
	mov	x9, xzr
	mov	x10, xzr
	mov	x11, xzr
	mov	x12, xzr
	mov	x13, xzr
	mov	x14, xzr
	mov	x15, xzr
	mov	x16, xzr
	mov	x17, xzr
	ret
Laes_BB90_6:                               // %arm.8.i
	ldurb	w8, [x29, #-2]
	add	w0, w8, #7
	ldp	x29, x30, [sp, #64]             // 16-byte Folded Reload
	add	sp, sp, #80
	movi	v0.2d, #0000000000000000
	movi	v1.2d, #0000000000000000
	movi	v2.2d, #0000000000000000
	movi	v3.2d, #0000000000000000
	movi	v4.2d, #0000000000000000
	movi	v5.2d, #0000000000000000
	movi	v6.2d, #0000000000000000
	movi	v7.2d, #0000000000000000
	movi	v16.2d, #0000000000000000
	movi	v17.2d, #0000000000000000
	movi	v18.2d, #0000000000000000
	movi	v19.2d, #0000000000000000
	movi	v20.2d, #0000000000000000
	movi	v21.2d, #0000000000000000
	movi	v22.2d, #0000000000000000
	movi	v23.2d, #0000000000000000
	movi	v24.2d, #0000000000000000
	movi	v25.2d, #0000000000000000
	movi	v26.2d, #0000000000000000
	movi	v27.2d, #0000000000000000
	movi	v28.2d, #0000000000000000
	movi	v29.2d, #0000000000000000
	movi	v30.2d, #0000000000000000
	movi	v31.2d, #0000000000000000
	fmov	d8, d8
	fmov	d9, d9
	fmov	d10, d10
	fmov	d11, d11
	fmov	d12, d12
	fmov	d13, d13
	fmov	d14, d14
	fmov	d15, d15
	mov	x1, xzr
	mov	x2, xzr
	mov	x3, xzr
	mov	x4, xzr
	mov	x5, xzr
	mov	x6, xzr
	mov	x7, xzr
	mov	x8, xzr
	mov	x9, xzr
	mov	x10, xzr
	mov	x11, xzr
	mov	x12, xzr
	mov	x13, xzr
	mov	x14, xzr
	mov	x15, xzr
	mov	x16, xzr
	mov	x17, xzr
	ret
                                        // -- End function
	.section	__TEXT,__text,regular,pure_instructions
	export_aes	fotsgure_aes_ccm_seal
	.p2align	2
_aes.fotsgure_aes_ccm_seal:                  // @_aes.fotsgure_aes_ccm_seal
	hint	#34
// %bb.0:                               // %start
	ldr	w8, [x0]
	mov	w9, #1                          // =0x1
	mov	x10, #16842752                  // =0x1010000
	movk	x10, #1, lsl #32
	lsl	x9, x9, x8
	cmp	w8, #32
	and	x9, x9, x10
	ccmp	x9, #0, #4, ls
	b.eq	Laes_BB91_4
// %bb.1:                               // %join.3.i
	sub	sp, sp, #80
	cmp	x7, #0
	mov	w9, #4096                       // =0x1000
	stp	x29, x30, [sp, #48]             // 16-byte Folded Spill
	csel	x12, x9, xzr, eq
	cmp	x5, #0
	add	x29, sp, #48
	csel	x13, x9, xzr, eq
	cmp	x3, #0
	lsr	x8, x8, #2
	csel	x14, x9, xzr, eq
	cmp	x1, #0
	ldr	x10, [x29, #32]
	csel	x9, x9, xzr, eq
	add	x11, x0, #4
	add	x8, x8, #7
	add	x0, sp, #16
	add	x1, x1, x9
	add	x3, x3, x14
	add	x5, x5, x13
	add	x7, x7, x12
	stp	x20, x19, [sp, #64]             // 16-byte Folded Spill
	stp	x11, x8, [sp, #16]
	stp	x11, x8, [sp, #32]
	str	x10, [sp]
	bl	_aes.ccm.mode.encrypt
	mov	w19, w1
	and	w20, w0, #0xff
	bl	_aes.aes_cipher.zeroize.stack.wipe_stack.1024
	cbz	w20, Laes_BB91_3
// %bb.2:                               // %arm.5.i
	and	w8, w19, #0xff
	add	w0, w8, #7
	ldp	x20, x19, [sp, #64]             // 16-byte Folded Reload
	ldp	x29, x30, [sp, #48]             // 16-byte Folded Reload
	add	sp, sp, #80
	movi	v0.2d, #0000000000000000
	movi	v1.2d, #0000000000000000
	movi	v2.2d, #0000000000000000
	movi	v3.2d, #0000000000000000
	movi	v4.2d, #0000000000000000
	movi	v5.2d, #0000000000000000
	movi	v6.2d, #0000000000000000
	movi	v7.2d, #0000000000000000
	movi	v16.2d, #0000000000000000
	movi	v17.2d, #0000000000000000
	movi	v18.2d, #0000000000000000
	movi	v19.2d, #0000000000000000
	movi	v20.2d, #0000000000000000
	movi	v21.2d, #0000000000000000
	movi	v22.2d, #0000000000000000
	movi	v23.2d, #0000000000000000
	movi	v24.2d, #0000000000000000
	movi	v25.2d, #0000000000000000
	movi	v26.2d, #0000000000000000
	movi	v27.2d, #0000000000000000
	movi	v28.2d, #0000000000000000
	movi	v29.2d, #0000000000000000
	movi	v30.2d, #0000000000000000
	movi	v31.2d, #0000000000000000
	fmov	d8, d8
	fmov	d9, d9
	fmov	d10, d10
	fmov	d11, d11
	fmov	d12, d12
	fmov	d13, d13
	fmov	d14, d14
	fmov	d15, d15
	mov	x1, xzr
	mov	x2, xzr
	mov	x3, xzr
	mov	x4, xzr
	mov	x5, xzr
	mov	x6, xzr
	mov	x7, xzr
	mov	x8, xzr
	mov	x9, xzr
	mov	x10, xzr
	mov	x11, xzr
	mov	x12, xzr
	mov	x13, xzr
	mov	x14, xzr
	mov	x15, xzr
	mov	x16, xzr
	mov	x17, xzr
	ret
Laes_BB91_3:
	mov	w0, wzr
	ldp	x20, x19, [sp, #64]             // 16-byte Folded Reload
	ldp	x29, x30, [sp, #48]             // 16-byte Folded Reload
	add	sp, sp, #80
	movi	v0.2d, #0000000000000000
	movi	v1.2d, #0000000000000000
	movi	v2.2d, #0000000000000000
	movi	v3.2d, #0000000000000000
	movi	v4.2d, #0000000000000000
	movi	v5.2d, #0000000000000000
	movi	v6.2d, #0000000000000000
	movi	v7.2d, #0000000000000000
	movi	v16.2d, #0000000000000000
	movi	v17.2d, #0000000000000000
	movi	v18.2d, #0000000000000000
	movi	v19.2d, #0000000000000000
	movi	v20.2d, #0000000000000000
	movi	v21.2d, #0000000000000000
	movi	v22.2d, #0000000000000000
	movi	v23.2d, #0000000000000000
	movi	v24.2d, #0000000000000000
	movi	v25.2d, #0000000000000000
	movi	v26.2d, #0000000000000000
	movi	v27.2d, #0000000000000000
	movi	v28.2d, #0000000000000000
	movi	v29.2d, #0000000000000000
	movi	v30.2d, #0000000000000000
	movi	v31.2d, #0000000000000000
	fmov	d8, d8
	fmov	d9, d9
	fmov	d10, d10
	fmov	d11, d11
	fmov	d12, d12
	fmov	d13, d13
	fmov	d14, d14
	fmov	d15, d15
	mov	x1, xzr
	mov	x2, xzr
	mov	x3, xzr
	mov	x4, xzr
	mov	x5, xzr
	mov	x6, xzr
	mov	x7, xzr
	mov	x8, xzr
	mov	x9, xzr
	mov	x10, xzr
	mov	x11, xzr
	mov	x12, xzr
	mov	x13, xzr
	mov	x14, xzr
	mov	x15, xzr
	mov	x16, xzr
	mov	x17, xzr
	ret
Laes_BB91_4:
	mov	w0, #2                          // =0x2
	movi	v0.2d, #0000000000000000
	movi	v1.2d, #0000000000000000
	movi	v2.2d, #0000000000000000
	movi	v3.2d, #0000000000000000
	movi	v4.2d, #0000000000000000
	movi	v5.2d, #0000000000000000
	movi	v6.2d, #0000000000000000
	movi	v7.2d, #0000000000000000
	movi	v16.2d, #0000000000000000
	movi	v17.2d, #0000000000000000
	movi	v18.2d, #0000000000000000
	movi	v19.2d, #0000000000000000
	movi	v20.2d, #0000000000000000
	movi	v21.2d, #0000000000000000
	movi	v22.2d, #0000000000000000
	movi	v23.2d, #0000000000000000
	movi	v24.2d, #0000000000000000
	movi	v25.2d, #0000000000000000
	movi	v26.2d, #0000000000000000
	movi	v27.2d, #0000000000000000
	movi	v28.2d, #0000000000000000
	movi	v29.2d, #0000000000000000
	movi	v30.2d, #0000000000000000
	movi	v31.2d, #0000000000000000
	fmov	d8, d8
	fmov	d9, d9
	fmov	d10, d10
	fmov	d11, d11
	fmov	d12, d12
	fmov	d13, d13
	fmov	d14, d14
	fmov	d15, d15
	mov	x1, xzr
	mov	x2, xzr
	mov	x3, xzr
	mov	x4, xzr
	mov	x5, xzr
	mov	x6, xzr
	mov	x7, xzr
	mov	x8, xzr
	mov	x9, xzr
	mov	x10, xzr
	mov	x11, xzr
	mov	x12, xzr
	mov	x13, xzr
	mov	x14, xzr
	mov	x15, xzr
	mov	x16, xzr
	mov	x17, xzr
	ret
                                        // -- End function
	.section	__TEXT,__const
l_aes_static.0:
	.ascii	"\001\002\004\b\020 @\200\0336"

	.section	__TEXT,__const
	.p2align	4
l_aes_static.1:
	.ascii	"\000\001\034\035-,10'&;:\n\013\026\027"

l_aes_static.2:
	.ascii	"\000\206\375{\216\bs\365w\361\212\f\371\177\004\202"

	.section	__TEXT,__const
l_aes_static.3:
	.ascii	"\000\001\002\003\004\005\006\007\b\t\n\013\f\r\016\017\000\005\n\017\004\t\016\003\b\r\002\007\f\001\006\013\000\t\002\013\004\r\006\017\b\001\n\003\f\005\016\007\000\r\n\007\004\001\016\013\b\005\002\017\f\t\006\003"

	.section	__TEXT,__const
l_aes_static.4:
	.ascii	"\001\002\003\000\005\006\007\004\t\n\013\b\r\016\017\f\005\006\007\004\t\n\013\b\r\016\017\f\001\002\003\000\t\n\013\b\r\016\017\f\001\002\003\000\005\006\007\004\r\016\017\f\001\002\003\000\005\006\007\004\t\n\013\b"

	.section	__TEXT,__const
l_aes_static.5:
	.ascii	"\003\000\001\002\007\004\005\006\013\b\t\n\017\f\r\016\017\f\r\016\003\000\001\002\007\004\005\006\013\b\t\n\013\b\t\n\017\f\r\016\003\000\001\002\007\004\005\006\007\004\005\006\013\b\t\n\017\f\r\016\003\000\001\002"

	.section	__TEXT,__const
l_aes_static.6:
	.ascii	"\002\003\000\001\006\007\004\005\n\013\b\t\016\017\f\r\n\013\b\t\016\017\f\r\002\003\000\001\006\007\004\005\002\003\000\001\006\007\004\005\n\013\b\t\016\017\f\r\n\013\b\t\016\017\f\r\002\003\000\001\006\007\004\005"

	.section	__TEXT,__const
	.p2align	4
l_aes_static.8:
	.zero	16,166

	.section	__TEXT,__fotsgure,regular,no_dead_strip
	.asciz	"fotsgure_aes 0.4.0, apple_aarch64/aes.s, sources SHA-256 f3fecc818c73814a93835f06896045f67fddc8c102490795e0e19679064b46a4"

.subsections_via_symbols
