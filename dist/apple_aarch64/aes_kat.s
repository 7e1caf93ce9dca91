// Made by tools/dist from the proved crate aes_kat_main; BUILD says from what. Don't edit it.
	.section	__TEXT,__const
	.p2align	4, 0x0                          // -- Begin function aes_kat::runs::append_reply_line::<#0e4b5268c400607d>
l_CPI0_0:
	.byte	0                               // 0x0
	.byte	4                               // 0x4
	.byte	8                               // 0x8
	.byte	12                              // 0xc
	.byte	1                               // 0x1
	.byte	5                               // 0x5
	.byte	9                               // 0x9
	.byte	13                              // 0xd
	.byte	2                               // 0x2
	.byte	6                               // 0x6
	.byte	10                              // 0xa
	.byte	14                              // 0xe
	.byte	3                               // 0x3
	.byte	7                               // 0x7
	.byte	11                              // 0xb
	.byte	15                              // 0xf
l_CPI0_1:
	.byte	1                               // 0x1
	.byte	2                               // 0x2
	.byte	4                               // 0x4
	.byte	8                               // 0x8
	.byte	16                              // 0x10
	.byte	32                              // 0x20
	.byte	64                              // 0x40
	.byte	128                             // 0x80
	.byte	1                               // 0x1
	.byte	2                               // 0x2
	.byte	4                               // 0x4
	.byte	8                               // 0x8
	.byte	16                              // 0x10
	.byte	32                              // 0x20
	.byte	64                              // 0x40
	.byte	128                             // 0x80
l_CPI0_2:
	.byte	0                               // 0x0
	.byte	2                               // 0x2
	.byte	4                               // 0x4
	.byte	6                               // 0x6
	.byte	8                               // 0x8
	.byte	10                              // 0xa
	.byte	12                              // 0xc
	.byte	14                              // 0xe
	.byte	1                               // 0x1
	.byte	3                               // 0x3
	.byte	5                               // 0x5
	.byte	7                               // 0x7
	.byte	9                               // 0x9
	.byte	11                              // 0xb
	.byte	13                              // 0xd
	.byte	15                              // 0xf
l_CPI0_3:
	.xword	32                              // 0x20
	.xword	48                              // 0x30
l_CPI0_5:
	.byte	0                               // 0x0
	.byte	1                               // 0x1
	.byte	17                              // 0x11
	.byte	25                              // 0x19
	.byte	18                              // 0x12
	.byte	26                              // 0x1a
	.byte	19                              // 0x13
	.byte	27                              // 0x1b
	.byte	20                              // 0x14
	.byte	28                              // 0x1c
	.byte	21                              // 0x15
	.byte	29                              // 0x1d
	.byte	22                              // 0x16
	.byte	30                              // 0x1e
	.byte	23                              // 0x17
	.byte	31                              // 0x1f
l_CPI0_7:
	.byte	0                               // 0x0
	.byte	0                               // 0x0
	.byte	0                               // 0x0
	.byte	0                               // 0x0
	.byte	0                               // 0x0
	.byte	0                               // 0x0
	.byte	0                               // 0x0
	.byte	0                               // 0x0
	.byte	1                               // 0x1
	.byte	1                               // 0x1
	.byte	1                               // 0x1
	.byte	1                               // 0x1
	.byte	1                               // 0x1
	.byte	1                               // 0x1
	.byte	1                               // 0x1
	.byte	1                               // 0x1
	.section	__TEXT,__const
	.p2align	3, 0x0
l_CPI0_4:
	.byte	1                               // 0x1
	.byte	9                               // 0x9
	.byte	2                               // 0x2
	.byte	10                              // 0xa
	.byte	3                               // 0x3
	.byte	11                              // 0xb
	.byte	4                               // 0x4
	.byte	12                              // 0xc
l_CPI0_6:
	.word	0                               // 0x0
	.word	4294967288                      // 0xfffffff8
	.section	__TEXT,__text,regular,pure_instructions
	.p2align	2
"aes_kat::runs::append_reply_line::<#0e4b5268c400607d>": // @"aes_kat::runs::append_reply_line::<#0e4b5268c400607d>"
// %bb.0:                               // %start
	stp	x29, x30, [sp, #-96]!           // 16-byte Folded Spill
	stp	x28, x27, [sp, #16]             // 16-byte Folded Spill
	mov	x29, sp
	stp	x26, x25, [sp, #32]             // 16-byte Folded Spill
	stp	x24, x23, [sp, #48]             // 16-byte Folded Spill
	stp	x22, x21, [sp, #64]             // 16-byte Folded Spill
	stp	x20, x19, [sp, #80]             // 16-byte Folded Spill
	sub	sp, sp, #3072
	str	xzr, [sp]
	sub	sp, sp, #3072
	str	xzr, [sp]
	sub	sp, sp, #352
	mov	x19, x2
	mov	x23, x1
	mov	x22, x0
	add	x0, sp, #48
	mov	w1, wzr
	mov	w2, #2048                       // =0x800
	bl	_memset
	cbz	x23, LBB0_4
// %bb.1:                               // %join.6.i.i.i.i.i.preheader
	mov	x8, xzr
LBB0_2:                                // %join.6.i.i.i.i.i
                                        // =>This Inner Loop Header: Depth=1
	ldrb	w9, [x22, x8]
	cmp	w9, #32
	b.eq	LBB0_5
// %bb.3:                               // %after.7.i.i.i.i.i
                                        //   in Loop: Header=BB0_2 Depth=1
	add	x8, x8, #1
	cmp	x23, x8
	b.ne	LBB0_2
LBB0_4:
	mov	w25, wzr
	mov	x20, xzr
	mov	x24, xzr
	cmp	x23, #5
	adrp	x1, l_static.13@PAGE
	add	x1, x1, l_static.13@PAGEOFF
	mov	w21, #13                        // =0xd
	b.le	LBB0_6
	b	LBB0_27
LBB0_5:                                // %arm.1.i.i.i.i
	add	x9, x22, x8
	mvn	x10, x8
	mov	w25, #1                         // =0x1
	add	x20, x9, #1
	add	x24, x10, x23
	mov	x23, x8
	cmp	x8, #5
	adrp	x1, l_static.13@PAGE
	add	x1, x1, l_static.13@PAGEOFF
	mov	w21, #13                        // =0xd
	b.gt	LBB0_27
LBB0_6:                                // %"aes_kat::command_names::Command::name.exit.i.i.i.i"
	cmp	x23, #3
	b.eq	LBB0_11
LBB0_7:                                // %"aes_kat::command_names::Command::name.exit.i.i.i.i"
	cmp	x23, #5
	b.ne	LBB0_186
// %bb.8:                               // %join.5.i.preheader.i.i.i.i.2
	ldr	w8, [x22]
	mov	w9, #28530                      // =0x6f72
	movk	w9, #28277, lsl #16
	cmp	w8, w9
	b.ne	LBB0_14
// %bb.9:                               // %"core::cmp::slices::slices_equal::<i8,31'core::cmp::numbers::U8PartialEq{}>.exit.i.i.i.i.2"
	adrp	x0, l_static.5@PAGE
	add	x0, x0, l_static.5@PAGEOFF
	mov	x1, x23
	mov	x2, x22
	bl	"core::cmp::slices::groups_equal::<i8,31'core::cmp::numbers::U8PartialEq{}>"
	tbz	w0, #0, LBB0_14
// %bb.10:
	mov	w9, #2                          // =0x2
	cbnz	w25, LBB0_51
	b	LBB0_185
LBB0_11:                               // %join.5.i.i.i.i.i.i.preheader
	mov	x8, xzr
LBB0_12:                               // %join.5.i.i.i.i.i.i
                                        // =>This Inner Loop Header: Depth=1
	adrp	x9, l_static.3@PAGE
	add	x9, x9, l_static.3@PAGEOFF
	ldrb	w10, [x22, x8]
	ldrb	w9, [x9, x8]
	cmp	w9, w10
	b.ne	LBB0_17
// %bb.13:                              // %join.8.i.i.i.i.i.i
                                        //   in Loop: Header=BB0_12 Depth=1
	add	x8, x8, #1
	cmp	x23, x8
	b.ne	LBB0_12
	b	LBB0_23
LBB0_14:                               // %"aes_kat::command_names::Command::name.exit.i.i.i.i.3"
	cmp	x23, #5
	adrp	x1, l_static.13@PAGE
	add	x1, x1, l_static.13@PAGEOFF
	mov	w21, #13                        // =0xd
	b.gt	LBB0_27
// %bb.15:                              // %"aes_kat::command_names::Command::name.exit.i.i.i.i.3"
	cmp	x23, #3
	b.eq	LBB0_35
// %bb.16:                              // %"aes_kat::command_names::Command::name.exit.i.i.i.i.3"
	cmp	x23, #5
	b.eq	LBB0_46
	b	LBB0_186
LBB0_17:                               // %"core::slice::scan::any_by_one::<#953750c03e87c3e2>.exit.i.i.i.i"
	cmp	x8, x23
	b.hs	LBB0_23
// %bb.18:                              // %"aes_kat::command_names::Command::name.exit.i.i.i.i.1"
	cmp	x23, #5
	adrp	x1, l_static.13@PAGE
	add	x1, x1, l_static.13@PAGEOFF
	mov	w21, #13                        // =0xd
	b.gt	LBB0_27
// %bb.19:                              // %"aes_kat::command_names::Command::name.exit.i.i.i.i.1"
	cmp	x23, #3
	b.ne	LBB0_7
// %bb.20:                              // %join.5.i.i.i.i.i.i.1.preheader
	mov	x8, xzr
LBB0_21:                               // %join.5.i.i.i.i.i.i.1
                                        // =>This Inner Loop Header: Depth=1
	adrp	x9, l_static.4@PAGE
	add	x9, x9, l_static.4@PAGEOFF
	ldrb	w10, [x22, x8]
	ldrb	w9, [x9, x8]
	cmp	w9, w10
	b.ne	LBB0_24
// %bb.22:                              // %join.8.i.i.i.i.i.i.1
                                        //   in Loop: Header=BB0_21 Depth=1
	add	x8, x8, #1
	mov	w9, #1                          // =0x1
	cmp	x23, x8
	b.ne	LBB0_21
	b	LBB0_50
LBB0_23:
	mov	w9, wzr
	cbnz	w25, LBB0_51
	b	LBB0_185
LBB0_24:                               // %"core::slice::scan::any_by_one::<#953750c03e87c3e2>.exit.i.i.i.i.1"
	cmp	x8, x23
	b.hs	LBB0_184
// %bb.25:                              // %"aes_kat::command_names::Command::name.exit.i.i.i.i.2"
	cmp	x23, #5
	adrp	x1, l_static.13@PAGE
	add	x1, x1, l_static.13@PAGEOFF
	mov	w21, #13                        // =0xd
	b.gt	LBB0_27
// %bb.26:                              // %"aes_kat::command_names::Command::name.exit.i.i.i.i.2"
	cmp	x23, #3
	b.ne	LBB0_7
	b	LBB0_35
LBB0_27:                               // %"aes_kat::command_names::Command::name.exit.i.i.i.i.3"
	cmp	x23, #6
	b.eq	LBB0_42
// %bb.28:                              // %"aes_kat::command_names::Command::name.exit.i.i.i.i.3"
	cmp	x23, #8
	b.ne	LBB0_186
// %bb.29:                              // %join.5.i.preheader.i.i.i.i.3
	ldr	w8, [x22]
	mov	w9, #28265                      // =0x6e69
	movk	w9, #29302, lsl #16
	cmp	w8, w9
	b.ne	LBB0_32
// %bb.30:                              // %"core::cmp::slices::slices_equal::<i8,31'core::cmp::numbers::U8PartialEq{}>.exit.i.i.i.i.3"
	adrp	x0, l_static.6@PAGE
	add	x0, x0, l_static.6@PAGEOFF
	mov	x1, x23
	mov	x2, x22
	bl	"core::cmp::slices::groups_equal::<i8,31'core::cmp::numbers::U8PartialEq{}>"
	tbz	w0, #0, LBB0_32
// %bb.31:
	mov	w9, #3                          // =0x3
	cbnz	w25, LBB0_51
	b	LBB0_185
LBB0_32:                               // %"aes_kat::command_names::Command::name.exit.i.i.i.i.4"
	cmp	x23, #6
	b.eq	LBB0_42
// %bb.33:                              // %"aes_kat::command_names::Command::name.exit.i.i.i.i.4"
	cmp	x23, #5
	b.eq	LBB0_46
// %bb.34:                              // %"aes_kat::command_names::Command::name.exit.i.i.i.i.4"
	cmp	x23, #3
	b.ne	LBB0_185
LBB0_35:                               // %join.5.i.i.i.i.i.i.4.preheader
	mov	x8, xzr
LBB0_36:                               // %join.5.i.i.i.i.i.i.4
                                        // =>This Inner Loop Header: Depth=1
	adrp	x9, l_static.7@PAGE
	add	x9, x9, l_static.7@PAGEOFF
	ldrb	w10, [x22, x8]
	ldrb	w9, [x9, x8]
	cmp	w9, w10
	b.ne	LBB0_39
// %bb.37:                              // %join.8.i.i.i.i.i.i.4
                                        //   in Loop: Header=BB0_36 Depth=1
	add	x8, x8, #1
	cmp	x23, x8
	b.ne	LBB0_36
// %bb.38:
	mov	w9, #4                          // =0x4
	cbnz	w25, LBB0_51
	b	LBB0_185
LBB0_39:                               // %"core::slice::scan::any_by_one::<#953750c03e87c3e2>.exit.i.i.i.i.4"
	cmp	x8, x23
	b.hs	LBB0_49
// %bb.40:                              // %"aes_kat::command_names::Command::name.exit.i.i.i.i.5"
	cmp	x23, #5
	b.eq	LBB0_46
// %bb.41:                              // %"aes_kat::command_names::Command::name.exit.i.i.i.i.5"
	cmp	x23, #6
	b.ne	LBB0_185
LBB0_42:                               // %join.5.i.preheader.i.i.i.i.5
	ldr	w8, [x22]
	mov	w9, #28265                      // =0x6e69
	movk	w9, #28022, lsl #16
	cmp	w8, w9
	b.ne	LBB0_45
// %bb.43:                              // %"core::cmp::slices::slices_equal::<i8,31'core::cmp::numbers::U8PartialEq{}>.exit.i.i.i.i.5"
	adrp	x0, l_static.8@PAGE
	add	x0, x0, l_static.8@PAGEOFF
	mov	x1, x23
	mov	x2, x22
	bl	"core::cmp::slices::groups_equal::<i8,31'core::cmp::numbers::U8PartialEq{}>"
	tbz	w0, #0, LBB0_45
// %bb.44:
	mov	w9, #5                          // =0x5
	cbnz	w25, LBB0_51
	b	LBB0_185
LBB0_45:                               // %"aes_kat::command_names::Command::name.exit.i.i.i.i.6"
	cmp	x23, #5
	b.ne	LBB0_185
LBB0_46:                               // %join.5.i.preheader.i.i.i.i.6
	ldr	w8, [x22]
	mov	w9, #25459                      // =0x6373
	movk	w9, #25960, lsl #16
	cmp	w8, w9
	b.ne	LBB0_185
// %bb.47:                              // %"core::cmp::slices::slices_equal::<i8,31'core::cmp::numbers::U8PartialEq{}>.exit.i.i.i.i.6"
	adrp	x0, l_static.9@PAGE
	add	x0, x0, l_static.9@PAGEOFF
	mov	x1, x23
	mov	x2, x22
	bl	"core::cmp::slices::groups_equal::<i8,31'core::cmp::numbers::U8PartialEq{}>"
	cbz	w0, LBB0_185
// %bb.48:
	mov	w9, #6                          // =0x6
	cbnz	w25, LBB0_51
	b	LBB0_185
LBB0_49:
	mov	w9, #4                          // =0x4
LBB0_50:                               // %"aes_kat::command_names::Command::named.exit.i.i.i"
	cbz	w25, LBB0_185
LBB0_51:                               // %arm.7.i.i.i
	cbz	x24, LBB0_55
// %bb.52:                              // %join.6.i.i39.i.i.i.preheader
	mov	x2, xzr
	sub	x22, x24, #1
	add	x21, x20, #1
LBB0_53:                               // %join.6.i.i39.i.i.i
                                        // =>This Inner Loop Header: Depth=1
	ldurb	w8, [x21, #-1]
	cmp	w8, #32
	b.eq	LBB0_57
// %bb.54:                              // %after.7.i.i44.i.i.i
                                        //   in Loop: Header=BB0_53 Depth=1
	sub	x22, x22, #1
	add	x21, x21, #1
	add	x2, x2, #1
	cmn	x22, #1
	b.ne	LBB0_53
LBB0_55:                               // %arm.11.i.i.i
	and	w8, w9, #0x6
	cmp	w8, #2
	b.eq	LBB0_185
// %bb.56:
	mov	x22, xzr
	adrp	x21, l_static.2@PAGE
	add	x21, x21, l_static.2@PAGEOFF
	mov	x2, x24
	b	LBB0_62
LBB0_57:                               // %arm.10.i.i.i
	cbz	x22, LBB0_61
// %bb.58:                              // %join.6.i.i61.i.i.i.preheader
	mov	x8, x21
	mov	x10, x22
LBB0_59:                               // %join.6.i.i61.i.i.i
                                        // =>This Inner Loop Header: Depth=1
	ldrb	w11, [x8], #1
	cmp	w11, #32
	b.eq	LBB0_185
// %bb.60:                              // %after.7.i.i66.i.i.i
                                        //   in Loop: Header=BB0_59 Depth=1
	subs	x10, x10, #1
	b.ne	LBB0_59
LBB0_61:                               // %else.19.i.i.i
	sub	w8, w9, #7
	cmn	w8, #4
	b.hi	LBB0_185
LBB0_62:                               // %arm.1.i.i
	tbnz	w2, #0, LBB0_73
// %bb.63:                              // %then.1.i.i.i
	cbz	x2, LBB0_75
// %bb.64:                              // %join.5.i.i2.i.i.preheader
	mov	w8, #1                          // =0x1
	mov	x10, x20
	mov	x11, x2
	b	LBB0_67
LBB0_65:                               // %after.2.i.i.i.i.i
                                        //   in Loop: Header=BB0_67 Depth=1
	mov	w12, wzr
LBB0_66:                               // %"aes_kat::operands::is_digit.exit.i.i.i.i"
                                        //   in Loop: Header=BB0_67 Depth=1
	subs	x11, x11, #1
	and	w8, w8, w12
	b.eq	LBB0_74
LBB0_67:                               // %join.5.i.i2.i.i
                                        // =>This Inner Loop Header: Depth=1
	ldrb	w13, [x10], #1
	cmp	w13, #48
	b.lo	LBB0_65
// %bb.68:                              // %join.6.i.i.i3.i.i
                                        //   in Loop: Header=BB0_67 Depth=1
	cmp	w13, #58
	b.hs	LBB0_70
// %bb.69:                              //   in Loop: Header=BB0_67 Depth=1
	mov	w12, #1                         // =0x1
	b	LBB0_66
LBB0_70:                               // %join.9.i.i.i.i.i
                                        //   in Loop: Header=BB0_67 Depth=1
	cmp	w13, #65
	b.lo	LBB0_65
// %bb.71:                              // %join.12.i.i.i.i.i
                                        //   in Loop: Header=BB0_67 Depth=1
	cmp	w13, #71
	mov	w12, #1                         // =0x1
	b.lo	LBB0_66
// %bb.72:                              // %join.12.i.i.i.i.i
                                        //   in Loop: Header=BB0_67 Depth=1
	sub	w13, w13, #97
	cmp	w13, #6
	b.hs	LBB0_65
	b	LBB0_66
LBB0_73:
	eor	w8, w2, #0x1
LBB0_74:                               // %"aes_kat::operands::is_hex.exit.i.i"
	tbz	w8, #0, LBB0_94
LBB0_75:                               // %else.8.i.i
	tbnz	w22, #0, LBB0_86
// %bb.76:                              // %then.1.i10.i.i
	cbz	x22, LBB0_88
// %bb.77:                              // %join.5.i.i12.i.i.preheader
	mov	w8, #1                          // =0x1
	mov	x10, x21
	mov	x11, x22
	b	LBB0_80
LBB0_78:                               // %after.2.i.i.i26.i.i
                                        //   in Loop: Header=BB0_80 Depth=1
	mov	w12, wzr
LBB0_79:                               // %"aes_kat::operands::is_digit.exit.i.i27.i.i"
                                        //   in Loop: Header=BB0_80 Depth=1
	subs	x11, x11, #1
	and	w8, w8, w12
	b.eq	LBB0_87
LBB0_80:                               // %join.5.i.i12.i.i
                                        // =>This Inner Loop Header: Depth=1
	ldrb	w13, [x10], #1
	cmp	w13, #48
	b.lo	LBB0_78
// %bb.81:                              // %join.6.i.i.i18.i.i
                                        //   in Loop: Header=BB0_80 Depth=1
	cmp	w13, #58
	b.hs	LBB0_83
// %bb.82:                              //   in Loop: Header=BB0_80 Depth=1
	mov	w12, #1                         // =0x1
	b	LBB0_79
LBB0_83:                               // %join.9.i.i.i20.i.i
                                        //   in Loop: Header=BB0_80 Depth=1
	cmp	w13, #65
	b.lo	LBB0_78
// %bb.84:                              // %join.12.i.i.i22.i.i
                                        //   in Loop: Header=BB0_80 Depth=1
	cmp	w13, #71
	mov	w12, #1                         // =0x1
	b.lo	LBB0_79
// %bb.85:                              // %join.12.i.i.i22.i.i
                                        //   in Loop: Header=BB0_80 Depth=1
	sub	w13, w13, #97
	cmp	w13, #6
	b.hs	LBB0_78
	b	LBB0_79
LBB0_86:
	eor	w8, w22, #0x1
LBB0_87:                               // %"aes_kat::operands::is_hex.exit32.i.i"
	tbz	w8, #0, LBB0_94
LBB0_88:                               // %after.5.i.i
	add	x24, sp, #1, lsl #12            // =4096
	add	x8, sp, #2096
	cmp	w9, #2
	add	x24, x24, #1760
	add	x23, sp, #3248
	str	xzr, [sp, #2216]
	str	xzr, [sp, #2208]
	str	xzr, [sp, #2200]
	str	xzr, [sp, #2192]
	str	xzr, [sp, #2184]
	str	xzr, [sp, #2176]
	str	xzr, [sp, #2168]
	str	xzr, [sp, #2160]
	str	xzr, [sp, #2152]
	str	xzr, [sp, #2144]
	str	xzr, [sp, #2128]
	stur	xzr, [x8, #39]
	str	xzr, [sp, #2112]
	stur	xzr, [x8, #23]
	stur	xzr, [x8, #7]
	str	xzr, [sp, #2096]
	b.le	LBB0_110
// %bb.89:                              // %after.5.i.i
	cmp	w9, #4
	b.gt	LBB0_121
// %bb.90:                              // %after.5.i.i
	cmp	w9, #3
	b.ne	LBB0_161
// %bb.91:                              // %arm.4.i.i.i
	and	x8, x2, #0xfffffffffffffffe
	cmp	x8, #32
	b.ne	LBB0_229
// %bb.92:                              // %join.3.i145.i.i.i
	cmp	x2, #32
	str	xzr, [sp, #3256]
	str	xzr, [sp, #3248]
	b.ne	LBB0_300
// %bb.93:                              // %join.11.i.i.i.i148.i.i.i.preheader
	mov	x8, xzr
	add	x9, x20, #1
	b	LBB0_97
LBB0_94:
	adrp	x1, l_static.14@PAGE
	add	x1, x1, l_static.14@PAGEOFF
	mov	w21, #9                         // =0x9
	b	LBB0_186
LBB0_95:                               // %then.12.i27.i.i.i.i.i191.i.i.i
                                        //   in Loop: Header=BB0_97 Depth=1
	sub	w12, w11, #55
LBB0_96:                               // %arm.12.i.i.i.i179.i.i.i
                                        //   in Loop: Header=BB0_97 Depth=1
	add	w10, w12, w10, lsl #4
	add	x11, sp, #3248
	add	x9, x9, #2
	strb	w10, [x11, x8]
	add	x8, x8, #1
	cmp	x8, #16
	b.eq	LBB0_226
LBB0_97:                               // %join.11.i.i.i.i148.i.i.i
                                        // =>This Inner Loop Header: Depth=1
	ldurb	w12, [x9, #-1]
	subs	w10, w12, #48
	b.lo	LBB0_300
// %bb.98:                              // %join.5.i.i.i.i.i.i156.i.i.i
                                        //   in Loop: Header=BB0_97 Depth=1
	ldrb	w11, [x9]
	cmp	w12, #57
	b.ls	LBB0_104
// %bb.99:                              // %join.8.i.i.i.i.i.i158.i.i.i
                                        //   in Loop: Header=BB0_97 Depth=1
	cmp	w12, #65
	b.lo	LBB0_300
// %bb.100:                             // %join.11.i.i.i.i.i.i160.i.i.i
                                        //   in Loop: Header=BB0_97 Depth=1
	cmp	w12, #70
	b.hi	LBB0_102
// %bb.101:                             // %then.12.i.i.i.i.i.i195.i.i.i
                                        //   in Loop: Header=BB0_97 Depth=1
	sub	w10, w12, #55
	b	LBB0_104
LBB0_102:                              // %join.14.i.i.i.i.i.i162.i.i.i
                                        //   in Loop: Header=BB0_97 Depth=1
	sub	w10, w12, #97
	cmp	w10, #5
	b.hi	LBB0_300
// %bb.103:                             // %then.18.i.i.i.i.i.i164.i.i.i
                                        //   in Loop: Header=BB0_97 Depth=1
	sub	w10, w12, #87
LBB0_104:                              // %arm.1.i.i.i.i.i166.i.i.i
                                        //   in Loop: Header=BB0_97 Depth=1
	subs	w12, w11, #48
	b.lo	LBB0_300
// %bb.105:                             // %join.5.i7.i.i.i.i.i169.i.i.i
                                        //   in Loop: Header=BB0_97 Depth=1
	cmp	w11, #57
	b.ls	LBB0_96
// %bb.106:                             // %join.8.i9.i.i.i.i.i171.i.i.i
                                        //   in Loop: Header=BB0_97 Depth=1
	cmp	w11, #65
	b.lo	LBB0_300
// %bb.107:                             // %join.11.i11.i.i.i.i.i173.i.i.i
                                        //   in Loop: Header=BB0_97 Depth=1
	cmp	w11, #70
	b.ls	LBB0_95
// %bb.108:                             // %join.14.i13.i.i.i.i.i175.i.i.i
                                        //   in Loop: Header=BB0_97 Depth=1
	sub	w12, w11, #97
	cmp	w12, #5
	b.hi	LBB0_300
// %bb.109:                             // %then.18.i25.i.i.i.i.i177.i.i.i
                                        //   in Loop: Header=BB0_97 Depth=1
	sub	w12, w11, #87
	b	LBB0_96
LBB0_110:                              // %after.5.i.i
	add	x25, sp, #1, lsl #12            // =4096
	add	x25, x25, #1072
	cbz	w9, LBB0_140
// %bb.111:                             // %after.5.i.i
	cmp	w9, #1
	b.ne	LBB0_143
// %bb.112:                             // %arm.2.i.i.i
	movi	v0.2d, #0000000000000000
	add	x0, sp, #1, lsl #12             // =4096
	mov	x1, x20
	add	x0, x0, #1072
	strh	wzr, [sp, #5200]
	str	xzr, [sp, #5656]
	str	xzr, [sp, #5648]
	str	q0, [sp, #5168]
	str	q0, [sp, #5184]
	bl	"aes_kat::operands::key_operand"
	ldrb	w8, [x25]
	ldrb	w28, [x25, #1]
	cbnz	w8, LBB0_180
// %bb.113:                             // %arm.1.i22.i.i.i
	ldur	q0, [x25, #2]
	ldur	q1, [x25, #18]
	add	x0, sp, #2224
	mov	w1, wzr
	mov	w2, #1024                       // =0x400
	strb	w28, [x24]
	stur	q0, [x24, #1]
	stur	q1, [x24, #17]
	bl	_memset
	add	x0, sp, #1, lsl #12             // =4096
	add	x3, sp, #2224
	mov	x1, x21
	add	x0, x0, #1552
	mov	x2, x22
	bl	"aes_kat::operands::blocks_operand"
	ldrb	w8, [x25, #480]
	cbnz	w8, LBB0_142
// %bb.114:                             // %arm.7.i33.i.i.i
	movi	v0.2d, #0000000000000000
	ldr	x22, [sp, #5656]
	add	x8, sp, #1, lsl #12             // =4096
	add	x8, x8, #1760
	cmp	w28, #2
	adrp	x21, l_CPI0_6@PAGE
	and	x20, x22, #0xfffffffffffffff8
	adrp	x23, l_CPI0_7@PAGE
	b.eq	LBB0_277
// %bb.115:                             // %arm.7.i33.i.i.i
	cmp	w28, #1
	b.ne	LBB0_290
// %bb.116:                             // %arm.2.i.i50.i.i.i
	add	x0, sp, #3248
	orr	x1, x8, #0x1
	str	q0, [sp, #3472]
	str	q0, [sp, #3456]
	str	q0, [sp, #3440]
	str	q0, [sp, #3424]
	str	q0, [sp, #3408]
	str	q0, [sp, #3392]
	str	q0, [sp, #3376]
	str	q0, [sp, #3360]
	str	q0, [sp, #3344]
	str	q0, [sp, #3328]
	str	q0, [sp, #3312]
	str	q0, [sp, #3296]
	str	q0, [sp, #3280]
	str	q0, [sp, #3264]
	bl	"aes::fixsliced::FixslicedCountsLayers::expand_counted::<#123648e35348170c>"
	ldr	q0, [sp, #3440]
	ldr	q1, [sp, #3456]
	add	x0, sp, #3248
	ldr	q2, [sp, #3472]
	mov	w1, wzr
	mov	w2, #1920                       // =0x780
	str	q0, [sp, #5600]
	ldr	q0, [sp, #3376]
	str	q1, [sp, #5616]
	ldr	q1, [sp, #3392]
	str	q0, [sp, #5536]
	ldr	q0, [sp, #3408]
	str	q2, [sp, #5632]
	ldr	q2, [sp, #3424]
	str	q0, [sp, #5568]
	ldr	q0, [sp, #3328]
	str	q1, [sp, #5552]
	ldr	q1, [sp, #3312]
	str	q0, [sp, #5488]
	ldr	q0, [sp, #3344]
	str	q2, [sp, #5584]
	ldr	q2, [sp, #3360]
	str	q0, [sp, #5504]
	ldr	q0, [sp, #3264]
	str	q1, [sp, #5472]
	ldr	q1, [sp, #3248]
	str	q2, [sp, #5520]
	ldr	q2, [sp, #3296]
	str	q0, [sp, #5424]
	ldr	q0, [sp, #3280]
	str	q1, [sp, #5408]
	str	q2, [sp, #5456]
	str	q0, [sp, #5440]
	bl	_memset
	cbz	x20, LBB0_120
// %bb.117:                             // %join.5.i.i.i.i7.i.i.i.i.i.preheader
	mov	x8, xzr
LBB0_118:                              // %join.5.i.i.i.i7.i.i.i.i.i
                                        // =>This Inner Loop Header: Depth=1
	add	x9, sp, #1, lsl #12             // =4096
	movi	d1, #0x00ffff0000ffff
	add	x9, x9, #1312
	ldrh	w9, [x9, x8, lsl #1]
	dup	v0.2s, w9
	adrp	x9, l_CPI0_1@PAGE
	and	v0.8b, v0.8b, v1.8b
	ldr	d1, [x21, l_CPI0_6@PAGEOFF]
	ushl	v0.2s, v0.2s, v1.2s
	ldr	q1, [x23, l_CPI0_7@PAGEOFF]
	mov	v0.b[1], v0.b[4]
	tbl	v0.16b, { v0.16b }, v1.16b
	ldr	q1, [x9, l_CPI0_1@PAGEOFF]
	add	x9, sp, #3248
	cmtst	v0.16b, v0.16b, v1.16b
	str	q0, [x9, x8, lsl #4]
	add	x8, x8, #1
	cmp	x8, #104
	b.ne	LBB0_118
// %bb.119:                             // %"aes_soft::soft::full::widening::store_widened::<#ac91400744c51dd4>.exit.i.i.i38.i.i.i.i.i"
	add	x0, sp, #3248
	add	x2, sp, #2224
	and	x3, x22, #0xfffffffffffffff8
	mov	w1, #104                        // =0x68
	bl	"aes_soft::soft::blocks::slices::process_batches_outlined::<#7a29a06501f6c419>"
	add	x0, sp, #3248
	bl	"aes_cipher::zeroize::elements::zeroize_elements::<#c76276a60742133e>"
LBB0_120:                              // %"aes_kat::keys::decrypt_sized::<#123648e35348170c>.exit.i.i.i.i.i"
	add	x8, sp, #2224
	add	x0, sp, #1, lsl #12             // =4096
	and	x3, x22, #0x7
	add	x2, x8, x20, lsl #4
	add	x0, x0, #1312
	mov	w1, #104                        // =0x68
	b	LBB0_295
LBB0_121:                              // %after.5.i.i
	cmp	w9, #5
	b.ne	LBB0_179
// %bb.122:                             // %arm.6.i.i.i
	and	x9, x2, #0xfffffffffffffffe
	cmp	x9, #32
	b.ne	LBB0_229
// %bb.123:                             // %join.3.i503.i.i.i
	cmp	x2, #32
	str	xzr, [sp, #3256]
	str	xzr, [sp, #3248]
	b.ne	LBB0_300
// %bb.124:                             // %join.11.i.i.i.i506.i.i.i.preheader
	mov	x9, xzr
	add	x10, x20, #1
	b	LBB0_127
LBB0_125:                              // %then.12.i27.i.i.i.i.i549.i.i.i
                                        //   in Loop: Header=BB0_127 Depth=1
	sub	w13, w12, #55
LBB0_126:                              // %arm.12.i.i.i.i537.i.i.i
                                        //   in Loop: Header=BB0_127 Depth=1
	add	w11, w13, w11, lsl #4
	add	x12, sp, #3248
	add	x10, x10, #2
	strb	w11, [x12, x9]
	add	x9, x9, #1
	cmp	x9, #16
	b.eq	LBB0_245
LBB0_127:                              // %join.11.i.i.i.i506.i.i.i
                                        // =>This Inner Loop Header: Depth=1
	ldurb	w13, [x10, #-1]
	subs	w11, w13, #48
	b.lo	LBB0_300
// %bb.128:                             // %join.5.i.i.i.i.i.i514.i.i.i
                                        //   in Loop: Header=BB0_127 Depth=1
	ldrb	w12, [x10]
	cmp	w13, #57
	b.ls	LBB0_134
// %bb.129:                             // %join.8.i.i.i.i.i.i516.i.i.i
                                        //   in Loop: Header=BB0_127 Depth=1
	cmp	w13, #65
	b.lo	LBB0_300
// %bb.130:                             // %join.11.i.i.i.i.i.i518.i.i.i
                                        //   in Loop: Header=BB0_127 Depth=1
	cmp	w13, #70
	b.hi	LBB0_132
// %bb.131:                             // %then.12.i.i.i.i.i.i553.i.i.i
                                        //   in Loop: Header=BB0_127 Depth=1
	sub	w11, w13, #55
	b	LBB0_134
LBB0_132:                              // %join.14.i.i.i.i.i.i520.i.i.i
                                        //   in Loop: Header=BB0_127 Depth=1
	sub	w11, w13, #97
	cmp	w11, #5
	b.hi	LBB0_300
// %bb.133:                             // %then.18.i.i.i.i.i.i522.i.i.i
                                        //   in Loop: Header=BB0_127 Depth=1
	sub	w11, w13, #87
LBB0_134:                              // %arm.1.i.i.i.i.i524.i.i.i
                                        //   in Loop: Header=BB0_127 Depth=1
	subs	w13, w12, #48
	b.lo	LBB0_300
// %bb.135:                             // %join.5.i7.i.i.i.i.i527.i.i.i
                                        //   in Loop: Header=BB0_127 Depth=1
	cmp	w12, #57
	b.ls	LBB0_126
// %bb.136:                             // %join.8.i9.i.i.i.i.i529.i.i.i
                                        //   in Loop: Header=BB0_127 Depth=1
	cmp	w12, #65
	b.lo	LBB0_300
// %bb.137:                             // %join.11.i11.i.i.i.i.i531.i.i.i
                                        //   in Loop: Header=BB0_127 Depth=1
	cmp	w12, #70
	b.ls	LBB0_125
// %bb.138:                             // %join.14.i13.i.i.i.i.i533.i.i.i
                                        //   in Loop: Header=BB0_127 Depth=1
	sub	w13, w12, #97
	cmp	w13, #5
	b.hi	LBB0_300
// %bb.139:                             // %then.18.i25.i.i.i.i.i535.i.i.i
                                        //   in Loop: Header=BB0_127 Depth=1
	sub	w13, w12, #87
	b	LBB0_126
LBB0_140:                              // %arm.1.i44.i.i
	movi	v0.2d, #0000000000000000
	add	x0, sp, #1, lsl #12             // =4096
	mov	x1, x20
	add	x0, x0, #1072
	strh	wzr, [sp, #5200]
	str	xzr, [sp, #5656]
	str	xzr, [sp, #5648]
	str	q0, [sp, #5168]
	str	q0, [sp, #5184]
	bl	"aes_kat::operands::key_operand"
	ldrb	w8, [x23, #1920]
	ldrb	w28, [x23, #1921]
	cbnz	w8, LBB0_180
// %bb.141:                             // %arm.1.i.i46.i.i
	ldur	q0, [x25, #2]
	ldur	q1, [x25, #18]
	add	x0, sp, #2224
	mov	w1, wzr
	mov	w2, #1024                       // =0x400
	strb	w28, [x25, #688]
	stur	q0, [x24, #1]
	stur	q1, [x24, #17]
	bl	_memset
	add	x0, sp, #1, lsl #12             // =4096
	add	x3, sp, #2224
	mov	x1, x21
	add	x0, x0, #1552
	mov	x2, x22
	bl	"aes_kat::operands::blocks_operand"
	ldrb	w8, [x25, #480]
	cbz	w8, LBB0_258
LBB0_142:                              // %arm.8.i.i.i.i
	ldrb	w28, [x25, #481]
	mov	x21, xzr
	mov	w8, #1                          // =0x1
	b	LBB0_181
LBB0_143:                              // %arm.3.i.i.i
	and	x9, x2, #0xfffffffffffffffe
	cmp	x9, #32
	b.ne	LBB0_229
// %bb.144:                             // %join.3.i.i.i.i
	cmp	x2, #32
	str	xzr, [sp, #3256]
	str	xzr, [sp, #3248]
	b.ne	LBB0_300
// %bb.145:                             // %join.11.i.i.i.i.i.i.i.preheader
	mov	x9, xzr
	add	x10, x20, #1
	b	LBB0_148
LBB0_146:                              // %then.12.i27.i.i.i.i.i.i.i.i
                                        //   in Loop: Header=BB0_148 Depth=1
	sub	w13, w12, #55
LBB0_147:                              // %arm.12.i.i.i.i.i.i.i
                                        //   in Loop: Header=BB0_148 Depth=1
	add	w11, w13, w11, lsl #4
	add	x12, sp, #3248
	add	x10, x10, #2
	strb	w11, [x12, x9]
	add	x9, x9, #1
	cmp	x9, #16
	b.eq	LBB0_208
LBB0_148:                              // %join.11.i.i.i.i.i.i.i
                                        // =>This Inner Loop Header: Depth=1
	ldurb	w13, [x10, #-1]
	subs	w11, w13, #48
	b.lo	LBB0_300
// %bb.149:                             // %join.5.i.i.i.i.i.i58.i.i.i
                                        //   in Loop: Header=BB0_148 Depth=1
	ldrb	w12, [x10]
	cmp	w13, #57
	b.ls	LBB0_155
// %bb.150:                             // %join.8.i.i.i.i.i.i.i.i.i
                                        //   in Loop: Header=BB0_148 Depth=1
	cmp	w13, #65
	b.lo	LBB0_300
// %bb.151:                             // %join.11.i.i.i.i.i.i.i.i.i
                                        //   in Loop: Header=BB0_148 Depth=1
	cmp	w13, #70
	b.hi	LBB0_153
// %bb.152:                             // %then.12.i.i.i.i.i.i.i.i.i
                                        //   in Loop: Header=BB0_148 Depth=1
	sub	w11, w13, #55
	b	LBB0_155
LBB0_153:                              // %join.14.i.i.i.i.i.i.i.i.i
                                        //   in Loop: Header=BB0_148 Depth=1
	sub	w11, w13, #97
	cmp	w11, #5
	b.hi	LBB0_300
// %bb.154:                             // %then.18.i.i.i.i.i.i.i.i.i
                                        //   in Loop: Header=BB0_148 Depth=1
	sub	w11, w13, #87
LBB0_155:                              // %arm.1.i.i.i.i.i.i.i.i
                                        //   in Loop: Header=BB0_148 Depth=1
	subs	w13, w12, #48
	b.lo	LBB0_300
// %bb.156:                             // %join.5.i7.i.i.i.i.i.i.i.i
                                        //   in Loop: Header=BB0_148 Depth=1
	cmp	w12, #57
	b.ls	LBB0_147
// %bb.157:                             // %join.8.i9.i.i.i.i.i.i.i.i
                                        //   in Loop: Header=BB0_148 Depth=1
	cmp	w12, #65
	b.lo	LBB0_300
// %bb.158:                             // %join.11.i11.i.i.i.i.i.i.i.i
                                        //   in Loop: Header=BB0_148 Depth=1
	cmp	w12, #70
	b.ls	LBB0_146
// %bb.159:                             // %join.14.i13.i.i.i.i.i.i.i.i
                                        //   in Loop: Header=BB0_148 Depth=1
	sub	w13, w12, #97
	cmp	w13, #5
	b.hi	LBB0_300
// %bb.160:                             // %then.18.i25.i.i.i.i.i.i.i.i
                                        //   in Loop: Header=BB0_148 Depth=1
	sub	w13, w12, #87
	b	LBB0_147
LBB0_161:                              // %arm.5.i.i.i
	and	x9, x2, #0xfffffffffffffffe
	cmp	x9, #32
	b.ne	LBB0_229
// %bb.162:                             // %join.3.i304.i.i.i
	cmp	x2, #32
	str	xzr, [sp, #3256]
	str	xzr, [sp, #3248]
	b.ne	LBB0_300
// %bb.163:                             // %join.11.i.i.i.i307.i.i.i.preheader
	mov	x9, xzr
	add	x10, x20, #1
	b	LBB0_166
LBB0_164:                              // %then.12.i27.i.i.i.i.i350.i.i.i
                                        //   in Loop: Header=BB0_166 Depth=1
	sub	w13, w12, #55
LBB0_165:                              // %arm.12.i.i.i.i338.i.i.i
                                        //   in Loop: Header=BB0_166 Depth=1
	add	w11, w13, w11, lsl #4
	add	x12, sp, #3248
	add	x10, x10, #2
	strb	w11, [x12, x9]
	add	x9, x9, #1
	cmp	x9, #16
	b.eq	LBB0_246
LBB0_166:                              // %join.11.i.i.i.i307.i.i.i
                                        // =>This Inner Loop Header: Depth=1
	ldurb	w13, [x10, #-1]
	subs	w11, w13, #48
	b.lo	LBB0_300
// %bb.167:                             // %join.5.i.i.i.i.i.i315.i.i.i
                                        //   in Loop: Header=BB0_166 Depth=1
	ldrb	w12, [x10]
	cmp	w13, #57
	b.ls	LBB0_173
// %bb.168:                             // %join.8.i.i.i.i.i.i317.i.i.i
                                        //   in Loop: Header=BB0_166 Depth=1
	cmp	w13, #65
	b.lo	LBB0_300
// %bb.169:                             // %join.11.i.i.i.i.i.i319.i.i.i
                                        //   in Loop: Header=BB0_166 Depth=1
	cmp	w13, #70
	b.hi	LBB0_171
// %bb.170:                             // %then.12.i.i.i.i.i.i354.i.i.i
                                        //   in Loop: Header=BB0_166 Depth=1
	sub	w11, w13, #55
	b	LBB0_173
LBB0_171:                              // %join.14.i.i.i.i.i.i321.i.i.i
                                        //   in Loop: Header=BB0_166 Depth=1
	sub	w11, w13, #97
	cmp	w11, #5
	b.hi	LBB0_300
// %bb.172:                             // %then.18.i.i.i.i.i.i323.i.i.i
                                        //   in Loop: Header=BB0_166 Depth=1
	sub	w11, w13, #87
LBB0_173:                              // %arm.1.i.i.i.i.i325.i.i.i
                                        //   in Loop: Header=BB0_166 Depth=1
	subs	w13, w12, #48
	b.lo	LBB0_300
// %bb.174:                             // %join.5.i7.i.i.i.i.i328.i.i.i
                                        //   in Loop: Header=BB0_166 Depth=1
	cmp	w12, #57
	b.ls	LBB0_165
// %bb.175:                             // %join.8.i9.i.i.i.i.i330.i.i.i
                                        //   in Loop: Header=BB0_166 Depth=1
	cmp	w12, #65
	b.lo	LBB0_300
// %bb.176:                             // %join.11.i11.i.i.i.i.i332.i.i.i
                                        //   in Loop: Header=BB0_166 Depth=1
	cmp	w12, #70
	b.ls	LBB0_164
// %bb.177:                             // %join.14.i13.i.i.i.i.i334.i.i.i
                                        //   in Loop: Header=BB0_166 Depth=1
	sub	w13, w12, #97
	cmp	w13, #5
	b.hi	LBB0_300
// %bb.178:                             // %then.18.i25.i.i.i.i.i336.i.i.i
                                        //   in Loop: Header=BB0_166 Depth=1
	sub	w13, w12, #87
	b	LBB0_165
LBB0_179:                              // %arm.7.i36.i.i
	movi	v0.2d, #0000000000000000
	sub	x0, x29, #80
	mov	x1, x20
	sturh	wzr, [x29, #-48]
	stp	q0, q0, [x29, #-256]
	stp	q0, q0, [x29, #-224]
	stp	q0, q0, [x29, #-192]
	stp	q0, q0, [x29, #-160]
	stp	q0, q0, [x29, #-128]
	stp	q0, q0, [x29, #-80]
	stur	q0, [x29, #-96]
	str	q0, [sp, #6224]
	str	q0, [sp, #6208]
	str	q0, [sp, #6192]
	str	q0, [sp, #6176]
	str	q0, [sp, #6160]
	str	q0, [sp, #6144]
	str	q0, [sp, #6128]
	str	q0, [sp, #6112]
	str	q0, [sp, #6096]
	str	q0, [sp, #6080]
	str	q0, [sp, #6064]
	str	q0, [sp, #6048]
	str	q0, [sp, #6032]
	str	q0, [sp, #6016]
	str	q0, [sp, #6000]
	str	q0, [sp, #5984]
	str	q0, [sp, #5968]
	str	q0, [sp, #5952]
	str	q0, [sp, #5936]
	str	q0, [sp, #5920]
	str	q0, [sp, #5904]
	str	q0, [sp, #5888]
	str	q0, [sp, #5872]
	str	q0, [sp, #5856]
	str	q0, [sp, #5840]
	str	q0, [sp, #5824]
	str	q0, [sp, #5808]
	str	q0, [sp, #5792]
	str	q0, [sp, #5776]
	str	q0, [sp, #5760]
	str	q0, [sp, #5744]
	str	q0, [sp, #5728]
	str	q0, [sp, #5712]
	str	q0, [sp, #5696]
	str	q0, [sp, #5680]
	str	q0, [sp, #5664]
	str	q0, [sp, #5648]
	str	q0, [sp, #5632]
	str	q0, [sp, #5616]
	str	q0, [sp, #5600]
	str	q0, [sp, #5584]
	str	q0, [sp, #5568]
	str	q0, [sp, #5552]
	str	q0, [sp, #5536]
	str	q0, [sp, #5520]
	str	q0, [sp, #5504]
	str	q0, [sp, #5488]
	str	q0, [sp, #5472]
	str	q0, [sp, #5456]
	str	q0, [sp, #5440]
	str	q0, [sp, #5424]
	str	q0, [sp, #5408]
	str	q0, [sp, #5392]
	str	q0, [sp, #5376]
	str	q0, [sp, #5360]
	str	q0, [sp, #5344]
	str	q0, [sp, #5328]
	str	q0, [sp, #5312]
	str	q0, [sp, #5296]
	str	q0, [sp, #5280]
	str	q0, [sp, #5264]
	str	q0, [sp, #5248]
	str	q0, [sp, #5232]
	str	q0, [sp, #5216]
	str	q0, [sp, #5200]
	str	q0, [sp, #5184]
	str	q0, [sp, #5168]
	bl	"aes_kat::operands::key_operand"
	ldrb	w8, [x24, #560]
	ldrb	w28, [x24, #561]
	cbz	w8, LBB0_247
LBB0_180:
	mov	x21, xzr
	mov	w8, #1                          // =0x1
LBB0_181:                              // %"aes_kat::replies::answer.exit.i"
	cbz	w8, LBB0_183
// %bb.182:                             // %switch.lookup
	adrp	x8, "l_switch.table.aes_kat::runs::append_reply_line::<#0e4b5268c400607d>.104.rel"@PAGE
	add	x8, x8, "l_switch.table.aes_kat::runs::append_reply_line::<#0e4b5268c400607d>.104.rel"@PAGEOFF
	adrp	x10, "l_switch.table.aes_kat::runs::append_reply_line::<#0e4b5268c400607d>"@PAGE
	add	x10, x10, "l_switch.table.aes_kat::runs::append_reply_line::<#0e4b5268c400607d>"@PAGEOFF
	ldrsw	x9, [x8, w28, uxtw #2]
	ldr	x21, [x10, w28, uxtw #3]
	add	x1, x8, x9
	b	LBB0_186
LBB0_183:
	mov	w20, wzr
	ldp	x8, x22, [x19, #8]
	sub	x9, x22, x8
	cmp	x21, x9
	b.ls	LBB0_187
	b	LBB0_255
LBB0_184:
	mov	w9, #1                          // =0x1
	cbnz	w25, LBB0_51
LBB0_185:
	adrp	x1, l_static.13@PAGE
	add	x1, x1, l_static.13@PAGEOFF
	mov	w21, #13                        // =0xd
LBB0_186:                              // %"aes_kat::faults::Fault::message.exit.i"
	add	x0, sp, #48
	mov	x2, x21
	bl	_memcpy
	mov	w20, #1                         // =0x1
	ldp	x8, x22, [x19, #8]
	sub	x9, x22, x8
	cmp	x21, x9
	b.hi	LBB0_255
LBB0_187:                              // %join.3.i
	ldr	x23, [x19]
	add	x9, sp, #48
	add	x24, x8, x21
	add	x0, x23, x8
	sub	x9, x0, x9
	cmp	x9, x21
	b.hs	LBB0_193
// %bb.188:                             // %iter.check
	cmp	x21, #8
	b.lo	LBB0_190
// %bb.189:                             // %vector.memcheck
	add	x9, x8, x23
	add	x10, sp, #48
	sub	x9, x9, x10
	cmp	x9, #32
	b.hs	LBB0_197
LBB0_190:
	mov	x9, xzr
LBB0_191:                              // %join.7.i.i.i.preheader
	add	x10, sp, #48
	add	x11, x9, x8
	sub	x8, x21, x9
	add	x9, x10, x9
	add	x10, x23, x11
LBB0_192:                              // %join.7.i.i.i
                                        // =>This Inner Loop Header: Depth=1
	ldrb	w11, [x9], #1
	subs	x8, x8, #1
	strb	w11, [x10], #1
	b.ne	LBB0_192
	b	LBB0_194
LBB0_193:                              // %apart.2.i.i.i
	add	x1, sp, #48
	mov	x2, x21
	bl	_memmove
LBB0_194:                              // %arm.1
	cmp	x22, x24
	stp	x23, x24, [x19]
	str	x22, [x19, #16]
	b.eq	LBB0_206
LBB0_195:                              // %join.3.i9
	mov	w8, #10                         // =0xa
	mov	w0, wzr
	strb	w8, [x23, x24]
	add	x8, x24, #1
	str	x22, [x19, #16]
	stp	x23, x8, [x19]
LBB0_196:                              // %return.5
                                        // kill: def $w0 killed $w0 killed $x0
	mov	w1, w20
	add	sp, sp, #1, lsl #12             // =4096
	add	sp, sp, #2400
	ldp	x20, x19, [sp, #80]             // 16-byte Folded Reload
	ldp	x22, x21, [sp, #64]             // 16-byte Folded Reload
	ldp	x24, x23, [sp, #48]             // 16-byte Folded Reload
	ldp	x26, x25, [sp, #32]             // 16-byte Folded Reload
	ldp	x28, x27, [sp, #16]             // 16-byte Folded Reload
	ldp	x29, x30, [sp], #96             // 16-byte Folded Reload
	ret
LBB0_197:                              // %vector.main.loop.iter.check
	cmp	x21, #32
	b.hs	LBB0_199
// %bb.198:
	mov	x9, xzr
	b	LBB0_203
LBB0_199:                              // %vector.ph
	add	x11, sp, #48
	add	x12, x8, x23
	and	x10, x21, #0x18
	and	x9, x21, #0xffffffffffffffe0
	add	x11, x11, #16
	add	x12, x12, #16
	and	x13, x21, #0xffffffffffffffe0
LBB0_200:                              // %vector.body
                                        // =>This Inner Loop Header: Depth=1
	ldp	q0, q1, [x11, #-16]
	subs	x13, x13, #32
	add	x11, x11, #32
	stp	q0, q1, [x12, #-16]
	add	x12, x12, #32
	b.ne	LBB0_200
// %bb.201:                             // %middle.block
	cmp	x21, x9
	b.eq	LBB0_194
// %bb.202:                             // %vec.epilog.iter.check
	cbz	x10, LBB0_191
LBB0_203:                              // %vec.epilog.ph
	mov	x11, x9
	and	x9, x21, #0xfffffffffffffff8
	add	x12, sp, #48
	add	x13, x8, x11
	sub	x10, x11, x9
	add	x11, x12, x11
	add	x12, x23, x13
LBB0_204:                              // %vec.epilog.vector.body
                                        // =>This Inner Loop Header: Depth=1
	ldr	d0, [x11], #8
	adds	x10, x10, #8
	str	d0, [x12], #8
	b.ne	LBB0_204
// %bb.205:                             // %vec.epilog.middle.block
	cmp	x21, x9
	b.eq	LBB0_194
	b	LBB0_191
LBB0_206:                              // %"std_alloc::vec::Vec::grow::<#b2ae9ec5f5f36c9c>.exit.i28"
	mov	x0, x19
	mov	w1, #1                          // =0x1
	bl	"std_alloc::vec::Vec::grow_amortized::<#b2ae9ec5f5f36c9c>"
	cbz	w0, LBB0_257
// %bb.207:                             // %"std_alloc::vec::Vec::grow::<#b2ae9ec5f5f36c9c>.exit.join.3_crit_edge.i30"
	ldp	x24, x22, [x19, #8]
	ldr	x23, [x19]
	b	LBB0_195
LBB0_208:                              // %arm.10.i43.i.i
	ldur	x9, [x23, #1]
	ldr	x10, [sp, #3256]
	and	x11, x22, #0xfffffffffffffffe
	cmp	x11, #32
	str	x9, [sp, #2128]
	ldrb	w9, [sp, #3248]
	stur	x10, [x8, #39]
	ldr	x10, [sp, #2128]
	strb	w9, [sp, #2208]
	ldur	x9, [x8, #39]
	stur	x10, [x8, #113]
	str	x9, [sp, #2216]
	b.ne	LBB0_229
// %bb.209:                             // %join.3.i72.i.i.i
	cmp	x22, #32
	str	xzr, [sp, #3256]
	str	xzr, [sp, #3248]
	b.ne	LBB0_300
// %bb.210:                             // %join.11.i.i.i.i75.i.i.i.preheader
	mov	x9, xzr
	add	x10, x21, #1
	b	LBB0_213
LBB0_211:                              // %then.12.i27.i.i.i.i.i118.i.i.i
                                        //   in Loop: Header=BB0_213 Depth=1
	sub	w13, w12, #55
LBB0_212:                              // %arm.12.i.i.i.i106.i.i.i
                                        //   in Loop: Header=BB0_213 Depth=1
	add	w11, w13, w11, lsl #4
	add	x12, sp, #3248
	add	x10, x10, #2
	strb	w11, [x12, x9]
	add	x9, x9, #1
	cmp	x9, #16
	b.eq	LBB0_252
LBB0_213:                              // %join.11.i.i.i.i75.i.i.i
                                        // =>This Inner Loop Header: Depth=1
	ldurb	w13, [x10, #-1]
	subs	w11, w13, #48
	b.lo	LBB0_300
// %bb.214:                             // %join.5.i.i.i.i.i.i83.i.i.i
                                        //   in Loop: Header=BB0_213 Depth=1
	ldrb	w12, [x10]
	cmp	w13, #57
	b.ls	LBB0_220
// %bb.215:                             // %join.8.i.i.i.i.i.i85.i.i.i
                                        //   in Loop: Header=BB0_213 Depth=1
	cmp	w13, #65
	b.lo	LBB0_300
// %bb.216:                             // %join.11.i.i.i.i.i.i87.i.i.i
                                        //   in Loop: Header=BB0_213 Depth=1
	cmp	w13, #70
	b.hi	LBB0_218
// %bb.217:                             // %then.12.i.i.i.i.i.i122.i.i.i
                                        //   in Loop: Header=BB0_213 Depth=1
	sub	w11, w13, #55
	b	LBB0_220
LBB0_218:                              // %join.14.i.i.i.i.i.i89.i.i.i
                                        //   in Loop: Header=BB0_213 Depth=1
	sub	w11, w13, #97
	cmp	w11, #5
	b.hi	LBB0_300
// %bb.219:                             // %then.18.i.i.i.i.i.i91.i.i.i
                                        //   in Loop: Header=BB0_213 Depth=1
	sub	w11, w13, #87
LBB0_220:                              // %arm.1.i.i.i.i.i93.i.i.i
                                        //   in Loop: Header=BB0_213 Depth=1
	subs	w13, w12, #48
	b.lo	LBB0_300
// %bb.221:                             // %join.5.i7.i.i.i.i.i96.i.i.i
                                        //   in Loop: Header=BB0_213 Depth=1
	cmp	w12, #57
	b.ls	LBB0_212
// %bb.222:                             // %join.8.i9.i.i.i.i.i98.i.i.i
                                        //   in Loop: Header=BB0_213 Depth=1
	cmp	w12, #65
	b.lo	LBB0_300
// %bb.223:                             // %join.11.i11.i.i.i.i.i100.i.i.i
                                        //   in Loop: Header=BB0_213 Depth=1
	cmp	w12, #70
	b.ls	LBB0_211
// %bb.224:                             // %join.14.i13.i.i.i.i.i102.i.i.i
                                        //   in Loop: Header=BB0_213 Depth=1
	sub	w13, w12, #97
	cmp	w13, #5
	b.hi	LBB0_300
// %bb.225:                             // %then.18.i25.i.i.i.i.i104.i.i.i
                                        //   in Loop: Header=BB0_213 Depth=1
	sub	w13, w12, #87
	b	LBB0_212
LBB0_226:                              // %arm.16.i.i.i
	ldrb	w8, [sp, #3248]
	ldr	q1, [sp, #3248]
	add	x9, sp, #2176
	and	x10, x22, #0xfffffffffffffffe
	orr	x11, x9, #0x1
	strb	w8, [sp, #2176]
	orr	x8, x9, #0x2
	cmp	x10, #32
	st1	{ v1.b }[1], [x11]
	st1	{ v1.b }[2], [x8]
	b.ne	LBB0_229
// %bb.227:                             // %join.3.i216.i.i.i
	cmp	x22, #32
	str	xzr, [sp, #3256]
	str	xzr, [sp, #3248]
	b.ne	LBB0_300
// %bb.228:                             // %join.11.i.i.i.i219.i.i.i.preheader
	mov	x8, xzr
	add	x9, x21, #1
	b	LBB0_232
LBB0_229:                              // %arm.2.thread.i
	adrp	x1, l_static.16@PAGE
	add	x1, x1, l_static.16@PAGEOFF
	mov	w21, #11                        // =0xb
	b	LBB0_186
LBB0_230:                              // %then.12.i27.i.i.i.i.i262.i.i.i
                                        //   in Loop: Header=BB0_232 Depth=1
	sub	w12, w11, #55
LBB0_231:                              // %arm.12.i.i.i.i250.i.i.i
                                        //   in Loop: Header=BB0_232 Depth=1
	add	w10, w12, w10, lsl #4
	add	x11, sp, #3248
	add	x9, x9, #2
	strb	w10, [x11, x8]
	add	x8, x8, #1
	cmp	x8, #16
	b.eq	LBB0_253
LBB0_232:                              // %join.11.i.i.i.i219.i.i.i
                                        // =>This Inner Loop Header: Depth=1
	ldurb	w12, [x9, #-1]
	subs	w10, w12, #48
	b.lo	LBB0_300
// %bb.233:                             // %join.5.i.i.i.i.i.i227.i.i.i
                                        //   in Loop: Header=BB0_232 Depth=1
	ldrb	w11, [x9]
	cmp	w12, #57
	b.ls	LBB0_239
// %bb.234:                             // %join.8.i.i.i.i.i.i229.i.i.i
                                        //   in Loop: Header=BB0_232 Depth=1
	cmp	w12, #65
	b.lo	LBB0_300
// %bb.235:                             // %join.11.i.i.i.i.i.i231.i.i.i
                                        //   in Loop: Header=BB0_232 Depth=1
	cmp	w12, #70
	b.hi	LBB0_237
// %bb.236:                             // %then.12.i.i.i.i.i.i266.i.i.i
                                        //   in Loop: Header=BB0_232 Depth=1
	sub	w10, w12, #55
	b	LBB0_239
LBB0_237:                              // %join.14.i.i.i.i.i.i233.i.i.i
                                        //   in Loop: Header=BB0_232 Depth=1
	sub	w10, w12, #97
	cmp	w10, #5
	b.hi	LBB0_300
// %bb.238:                             // %then.18.i.i.i.i.i.i235.i.i.i
                                        //   in Loop: Header=BB0_232 Depth=1
	sub	w10, w12, #87
LBB0_239:                              // %arm.1.i.i.i.i.i237.i.i.i
                                        //   in Loop: Header=BB0_232 Depth=1
	subs	w12, w11, #48
	b.lo	LBB0_300
// %bb.240:                             // %join.5.i7.i.i.i.i.i240.i.i.i
                                        //   in Loop: Header=BB0_232 Depth=1
	cmp	w11, #57
	b.ls	LBB0_231
// %bb.241:                             // %join.8.i9.i.i.i.i.i242.i.i.i
                                        //   in Loop: Header=BB0_232 Depth=1
	cmp	w11, #65
	b.lo	LBB0_300
// %bb.242:                             // %join.11.i11.i.i.i.i.i244.i.i.i
                                        //   in Loop: Header=BB0_232 Depth=1
	cmp	w11, #70
	b.ls	LBB0_230
// %bb.243:                             // %join.14.i13.i.i.i.i.i246.i.i.i
                                        //   in Loop: Header=BB0_232 Depth=1
	sub	w12, w11, #97
	cmp	w12, #5
	b.hi	LBB0_300
// %bb.244:                             // %then.18.i25.i.i.i.i.i248.i.i.i
                                        //   in Loop: Header=BB0_232 Depth=1
	sub	w12, w11, #87
	b	LBB0_231
LBB0_245:                              // %arm.25.i.i.i
	ldur	x9, [x23, #1]
	ldr	x10, [sp, #3256]
	add	x0, sp, #2144
	str	x9, [sp, #2096]
	ldrb	w9, [sp, #3248]
	stur	x10, [x8, #7]
	ldr	x10, [sp, #2096]
	strb	w9, [sp, #2144]
	ldur	x9, [x8, #7]
	stur	x10, [x8, #49]
	str	x9, [sp, #2152]
	bl	"aes::hazmat::inv_mix_columns"
	add	x0, sp, #2144
	b	LBB0_254
LBB0_246:                              // %arm.22.i.i.i
	ldur	x9, [x23, #1]
	ldr	x10, [sp, #3256]
	movi	v5.16b, #2
	ldr	b0, [sp, #3248]
	movi	v3.16b, #1
	movi	v6.16b, #4
	str	x9, [sp, #2112]
	mov	x9, x10
	movi	v4.16b, #32
	stur	x10, [x8, #23]
	movi	v7.16b, #64
	ldr	x10, [sp, #2112]
	str	x9, [sp, #2168]
	adrp	x9, l_CPI0_0@PAGE
	mov	v0.b[1], w10
	stur	x10, [x8, #65]
	ldr	h1, [sp, #2162]
	zip1	v0.4h, v0.4h, v1.4h
	ldr	s1, [sp, #2164]
	zip1	v0.2s, v0.2s, v1.2s
	ldr	d1, [sp, #2168]
	mov	v0.d[1], v1.d[0]
	ldr	q1, [x9, l_CPI0_0@PAGEOFF]
	adrp	x9, l_CPI0_1@PAGE
	ldr	q2, [x9, l_CPI0_1@PAGEOFF]
	tbl	v16.16b, { v0.16b }, v1.16b
	movi	v0.16b, #8
	movi	v1.16b, #16
	cmlt	v18.16b, v16.16b, #0
	and	v19.16b, v16.16b, v5.16b
	and	v17.16b, v16.16b, v3.16b
	and	v20.16b, v16.16b, v6.16b
	and	v21.16b, v16.16b, v0.16b
	and	v22.16b, v16.16b, v1.16b
	and	v23.16b, v16.16b, v4.16b
	and	v16.16b, v16.16b, v7.16b
	and	v18.16b, v18.16b, v2.16b
	cmeq	v19.16b, v19.16b, #0
	cmeq	v17.16b, v17.16b, #0
	cmeq	v20.16b, v20.16b, #0
	cmeq	v21.16b, v21.16b, #0
	cmeq	v22.16b, v22.16b, #0
	cmeq	v23.16b, v23.16b, #0
	cmeq	v16.16b, v16.16b, #0
	addp	v18.16b, v18.16b, v18.16b
	bic	v19.16b, v2.16b, v19.16b
	bic	v17.16b, v2.16b, v17.16b
	bic	v20.16b, v2.16b, v20.16b
	bic	v21.16b, v2.16b, v21.16b
	bic	v22.16b, v2.16b, v22.16b
	bic	v23.16b, v2.16b, v23.16b
	bic	v16.16b, v2.16b, v16.16b
	addp	v18.16b, v18.16b, v18.16b
	addp	v19.16b, v19.16b, v19.16b
	addp	v17.16b, v17.16b, v17.16b
	addp	v20.16b, v20.16b, v20.16b
	addp	v21.16b, v21.16b, v21.16b
	addp	v22.16b, v22.16b, v22.16b
	addp	v23.16b, v23.16b, v23.16b
	addp	v16.16b, v16.16b, v16.16b
	addp	v18.16b, v18.16b, v18.16b
	addp	v19.16b, v19.16b, v19.16b
	addp	v17.16b, v17.16b, v17.16b
	addp	v20.16b, v20.16b, v20.16b
	addp	v21.16b, v21.16b, v21.16b
	addp	v22.16b, v22.16b, v22.16b
	addp	v23.16b, v23.16b, v23.16b
	addp	v16.16b, v16.16b, v16.16b
	umov	w10, v18.h[0]
	addp	v18.16b, v19.16b, v19.16b
	addp	v17.16b, v17.16b, v17.16b
	addp	v19.16b, v20.16b, v20.16b
	addp	v20.16b, v21.16b, v21.16b
	addp	v21.16b, v22.16b, v22.16b
	addp	v22.16b, v23.16b, v23.16b
	addp	v16.16b, v16.16b, v16.16b
	umov	w14, v18.h[0]
	umov	w13, v17.h[0]
	umov	w15, v19.h[0]
	umov	w16, v20.h[0]
	umov	w17, v21.h[0]
	umov	w0, v22.h[0]
	ubfx	w9, w10, #4, #12
	umov	w1, v16.h[0]
	ubfx	w12, w14, #4, #12
	ubfx	w11, w13, #4, #12
	orr	w9, w9, w10, lsl #12
	ubfx	w2, w15, #4, #12
	ubfx	w3, w16, #4, #12
	ubfx	w4, w17, #4, #12
	ubfx	w5, w0, #4, #12
	orr	w21, w12, w14, lsl #12
	orr	w20, w11, w13, lsl #12
	ubfx	w6, w1, #4, #12
	eor	w7, w9, w10
	orr	w10, w2, w15, lsl #12
	orr	w2, w3, w16, lsl #12
	orr	w3, w4, w17, lsl #12
	orr	w4, w5, w0, lsl #12
	eor	w14, w21, w14
	eor	w13, w20, w13
	eor	w5, w21, w7
	rev	w21, w14
	orr	w11, w6, w1, lsl #12
	eor	w0, w4, w0
	rev	w6, w13
	eor	w13, w13, w21, lsr #16
	eor	w15, w10, w15
	eor	w17, w3, w17
	rev	w25, w0
	rev	w22, w15
	rev	w24, w17
	eor	w6, w20, w6, lsr #16
	eor	w17, w17, w25, lsr #16
	eor	w13, w13, w5
	eor	w14, w14, w22, lsr #16
	eor	w16, w2, w16
	lsl	w13, w13, #16
	eor	w1, w11, w1
	eor	w17, w17, w4
	eor	w4, w6, w7
	rev	w23, w16
	rev	w21, w1
	eor	w16, w16, w24, lsr #16
	eor	w10, w14, w10
	bfxil	x13, x4, #0, #16
	eor	w3, w3, w7
	eor	w15, w15, w23, lsr #16
	eor	w0, w0, w21, lsr #16
	lsl	w17, w17, #16
	and	w10, w10, #0xffff
	eor	w2, w2, w7
	eor	w14, w16, w3
	orr	x10, x13, x10, lsl #32
	rev	w12, w7
	eor	w11, w0, w11
	bfxil	x17, x14, #0, #16
	eor	w13, w15, w2
	eor	w12, w1, w12, lsr #16
	and	w11, w11, #0xffff
	orr	x10, x10, x13, lsl #48
	orr	x11, x17, x11, lsl #32
	add	x0, sp, #2160
	eor	w9, w12, w9
	fmov	d16, x10
	orr	x9, x11, x9, lsl #48
	mov	v16.d[1], x9
	adrp	x9, l_CPI0_2@PAGE
	ldr	q17, [x9, l_CPI0_2@PAGEOFF]
	tbl	v16.16b, { v16.16b }, v17.16b
	and	v6.16b, v16.16b, v6.16b
	and	v5.16b, v16.16b, v5.16b
	and	v3.16b, v16.16b, v3.16b
	and	v7.16b, v16.16b, v7.16b
	cmlt	v17.16b, v16.16b, #0
	and	v0.16b, v16.16b, v0.16b
	and	v4.16b, v16.16b, v4.16b
	and	v1.16b, v16.16b, v1.16b
	cmeq	v6.16b, v6.16b, #0
	cmeq	v5.16b, v5.16b, #0
	cmeq	v3.16b, v3.16b, #0
	cmeq	v7.16b, v7.16b, #0
	and	v16.16b, v17.16b, v2.16b
	cmeq	v0.16b, v0.16b, #0
	cmeq	v4.16b, v4.16b, #0
	cmeq	v1.16b, v1.16b, #0
	bic	v6.16b, v2.16b, v6.16b
	bic	v5.16b, v2.16b, v5.16b
	bic	v3.16b, v2.16b, v3.16b
	bic	v7.16b, v2.16b, v7.16b
	addp	v16.16b, v16.16b, v16.16b
	bic	v0.16b, v2.16b, v0.16b
	bic	v4.16b, v2.16b, v4.16b
	bic	v1.16b, v2.16b, v1.16b
	addp	v6.16b, v6.16b, v6.16b
	addp	v5.16b, v5.16b, v5.16b
	addp	v3.16b, v3.16b, v3.16b
	addp	v2.16b, v7.16b, v7.16b
	addp	v7.16b, v16.16b, v16.16b
	addp	v0.16b, v0.16b, v0.16b
	addp	v4.16b, v4.16b, v4.16b
	addp	v1.16b, v1.16b, v1.16b
	addp	v6.16b, v6.16b, v6.16b
	addp	v5.16b, v5.16b, v5.16b
	addp	v3.16b, v3.16b, v3.16b
	addp	v7.16b, v7.16b, v7.16b
	addp	v2.16b, v2.16b, v2.16b
	addp	v0.16b, v0.16b, v0.16b
	addp	v4.16b, v4.16b, v4.16b
	addp	v1.16b, v1.16b, v1.16b
	addp	v6.16b, v6.16b, v6.16b
	addp	v5.16b, v5.16b, v5.16b
	addp	v3.16b, v3.16b, v3.16b
	addp	v2.16b, v2.16b, v2.16b
	addp	v4.16b, v4.16b, v4.16b
	mov	h6, v6.h[0]
	umov	w9, v5.h[0]
	umov	w10, v3.h[0]
	addp	v5.16b, v0.16b, v0.16b
	movi	v3.2d, #0x0000000000ffff
	addp	v0.16b, v1.16b, v1.16b
	umov	w11, v2.h[0]
	umov	w12, v4.h[0]
	mov	v6.h[2], v7.h[0]
	lsl	w9, w9, #16
	umov	w13, v5.h[0]
	umov	w14, v0.h[0]
	stur	b0, [x8, #65]
	bfxil	x9, x10, #0, #16
	adrp	x10, l_CPI0_3@PAGE
	lsl	x11, x11, #32
	ushll	v1.2d, v6.2s, #0
	fmov	d2, x9
	lsl	w9, w12, #16
	bfxil	x9, x14, #0, #16
	and	v1.16b, v1.16b, v3.16b
	mov	v4.16b, v2.16b
	ldr	q3, [x10, l_CPI0_3@PAGEOFF]
	lsl	x10, x13, #48
	str	b2, [sp, #2160]
	mov	v4.d[1], x11
	ushl	v1.2d, v1.2d, v3.2d
	fmov	d3, x10
	mov	v3.d[1], x9
	mov	b0, v1.b[15]
	orr	v4.16b, v1.16b, v4.16b
	orr	v3.16b, v3.16b, v4.16b
	stur	b0, [x8, #79]
	umov	w9, v3.b[5]
	umov	w10, v3.b[13]
	ext	v6.16b, v3.16b, v3.16b, #8
	fmov	s5, w9
	umov	w9, v3.b[6]
	mov	v4.d[1], v6.d[0]
	mov	v5.h[1], w10
	umov	w10, v3.b[14]
	mov	b3, v3.b[7]
	mov	v5.h[2], w9
	adrp	x9, l_CPI0_4@PAGE
	stur	b3, [x8, #78]
	ldr	d6, [x9, l_CPI0_4@PAGEOFF]
	tbl	v4.8b, { v4.16b }, v6.8b
	mov	v5.h[3], w10
	stur	d4, [x8, #66]
	xtn	v2.8b, v5.8h
	stur	s2, [x8, #74]
	b	LBB0_254
LBB0_247:                              // %arm.1.i576.i.i.i
	sub	x8, x29, #80
	cmp	w28, #2
	ldur	w22, [x8, #2]
	ldur	w24, [x8, #6]
	ldur	w23, [x8, #10]
	ldur	w25, [x8, #14]
	ldur	w27, [x8, #18]
	ldur	w26, [x8, #22]
	b.eq	LBB0_265
// %bb.248:                             // %arm.1.i576.i.i.i
	cmp	w28, #1
	b.ne	LBB0_268
// %bb.249:                             // %arm.6.i.i.i.i
	movi	v0.2d, #0000000000000000
	mov	x20, xzr
	adrp	x8, l_static.10@PAGE+1
	add	x8, x8, l_static.10@PAGEOFF+1
	mov	w9, w25
	mov	w10, w23
	str	w22, [sp, #3248]
	str	w24, [sp, #3252]
	str	q0, [sp, #2416]
	str	q0, [sp, #2400]
	str	q0, [sp, #2384]
	str	q0, [sp, #2368]
	str	q0, [sp, #2352]
	str	q0, [sp, #2336]
	str	q0, [sp, #2320]
	str	q0, [sp, #2304]
	str	q0, [sp, #2288]
	str	q0, [sp, #2272]
	str	q0, [sp, #2256]
	str	q0, [sp, #2240]
	str	q0, [sp, #2224]
	str	q0, [sp, #3440]
	str	q0, [sp, #3424]
	str	q0, [sp, #3408]
	str	q0, [sp, #3392]
	str	q0, [sp, #3376]
	str	q0, [sp, #3360]
	str	q0, [sp, #3344]
	str	q0, [sp, #3328]
	str	q0, [sp, #3312]
	str	q0, [sp, #3296]
	str	q0, [sp, #3280]
	str	q0, [sp, #3264]
	str	w23, [sp, #3256]
	str	w25, [sp, #3260]
LBB0_250:                              // %join.5.i.i.i.i.i.i.i
                                        // =>This Inner Loop Header: Depth=1
	ldurb	w28, [x8, #-1]
	adrp	x1, l_static.12@PAGE
	add	x1, x1, l_static.12@PAGEOFF
	sub	x0, x29, #32
	stp	w10, w9, [sp, #28]              // 8-byte Folded Spill
	mov	w21, w26
	str	x8, [sp, #40]                   // 8-byte Spill
	stp	w23, w25, [x29, #-32]
	stp	w27, w26, [x29, #-24]
	bl	"aes::hazmat::cipher_round"
	sub	x0, x29, #32
	bl	"aes::hazmat::inv_mix_columns"
	sub	x26, x29, #80
	sub	x0, x29, #32
	adrp	x1, l_static.12@PAGE
	add	x1, x1, l_static.12@PAGEOFF
	ldrb	w8, [x26, #57]
	ldrb	w9, [x26, #60]
	ldrb	w10, [x26, #54]
	eor	w8, w8, w28
	orr	w8, w8, w9, lsl #24
	ldrb	w9, [x26, #51]
	orr	w8, w8, w10, lsl #8
	add	x10, sp, #3248
	add	x28, x10, x20
	orr	w8, w8, w9, lsl #16
	stp	w27, w21, [x28, #16]
	eor	w9, w8, w22
	mov	x22, x20
	eor	w8, w9, w24
	stp	w9, w8, [x28, #24]
	eor	w23, w8, w23
	eor	w8, w9, w24
	stp	w9, w8, [sp, #12]               // 8-byte Folded Spill
	eor	w8, w23, w25
	ldr	x9, [sp, #40]                   // 8-byte Reload
	eor	w27, w8, w27
	stp	w23, w8, [x29, #-32]
	stp	w23, w8, [x28, #32]
	eor	w8, w27, w21
	ldrb	w20, [x9]
	stp	w27, w8, [x28, #40]
	stp	w27, w8, [x29, #-24]
	bl	"aes::hazmat::cipher_round"
	sub	x0, x29, #32
	bl	"aes::hazmat::inv_mix_columns"
	ldrb	w8, [x26, #57]
	ldrb	w9, [x26, #60]
	ldrb	w10, [x26, #54]
	eor	w8, w8, w20
	add	x20, x22, #48
	orr	w8, w8, w9, lsl #24
	ldrb	w9, [x26, #51]
	cmp	x20, #192
	orr	w8, w8, w10, lsl #8
	ldr	w10, [sp, #12]                  // 4-byte Reload
	orr	w8, w8, w9, lsl #16
	eor	w22, w8, w10
	eor	w24, w8, w24
	ldr	w10, [sp, #16]                  // 4-byte Reload
	ldp	w8, w9, [sp, #28]               // 8-byte Folded Reload
	eor	w25, w24, w25
	eor	w23, w24, w23
	stp	w22, w24, [x28, #48]
	eor	w27, w25, w27
	eor	w26, w25, w21
	eor	w8, w8, w24
	eor	w9, w24, w9
	eor	w10, w10, w8
	ldr	x8, [sp, #40]                   // 8-byte Reload
	stp	w10, w9, [x28, #56]
	add	x8, x8, #2
	b.ne	LBB0_250
// %bb.251:                             // %"aes::expansion::expand_192.exit.i.i.i.i"
	ldr	q0, [sp, #3408]
	ldr	q1, [sp, #3424]
	add	x0, sp, #1, lsl #12             // =4096
	ldr	q2, [sp, #3440]
	add	x20, sp, #1, lsl #12            // =4096
	add	x0, x0, #1760
	str	q0, [sp, #2384]
	ldr	q0, [sp, #3344]
	add	x2, sp, #48
	str	q1, [sp, #2400]
	ldr	q1, [sp, #3360]
	mov	x1, xzr
	str	q0, [sp, #2320]
	ldr	q0, [sp, #3376]
	add	x20, x20, #1552
	str	q1, [sp, #2336]
	ldr	q1, [sp, #3280]
	add	x22, sp, #48
	str	q0, [sp, #2352]
	ldr	q0, [sp, #3296]
	str	q1, [sp, #2256]
	ldr	q1, [sp, #3264]
	str	q0, [sp, #2272]
	ldr	q0, [sp, #3312]
	str	q2, [sp, #2416]
	ldr	q2, [sp, #3392]
	str	q0, [sp, #2288]
	ldr	q0, [sp, #3248]
	str	q1, [sp, #2240]
	ldr	q1, [sp, #2416]
	str	q0, [sp, #2224]
	ldr	q0, [sp, #2400]
	str	q2, [sp, #2368]
	ldr	q2, [sp, #3328]
	str	q0, [sp, #6032]
	ldr	q0, [sp, #2320]
	str	q1, [sp, #6048]
	ldr	q1, [sp, #2336]
	str	q0, [sp, #5952]
	ldr	q0, [sp, #2352]
	str	q2, [sp, #2304]
	ldr	q2, [sp, #2384]
	str	q0, [sp, #5984]
	ldr	q0, [sp, #2272]
	str	q1, [sp, #5968]
	ldr	q1, [sp, #2256]
	str	q0, [sp, #5904]
	ldr	q0, [sp, #2288]
	str	q2, [sp, #6016]
	ldr	q2, [sp, #2368]
	str	q0, [sp, #5920]
	ldr	q0, [sp, #2224]
	str	q1, [sp, #5888]
	ldr	q1, [sp, #2240]
	str	q0, [sp, #5856]
	ldr	q0, [sp, #6032]
	str	q2, [sp, #6000]
	ldr	q2, [sp, #2304]
	str	q1, [sp, #5872]
	ldr	q1, [sp, #6048]
	str	q0, [sp, #5824]
	ldr	q0, [sp, #5952]
	str	q2, [sp, #5936]
	ldr	q2, [sp, #6016]
	str	q1, [sp, #5840]
	ldr	q1, [sp, #5968]
	ldr	q3, [sp, #5936]
	str	q0, [sp, #5744]
	ldr	q0, [sp, #5984]
	str	q2, [sp, #5808]
	ldr	q2, [sp, #6000]
	str	q1, [sp, #5760]
	ldr	q1, [sp, #5872]
	str	q0, [sp, #5776]
	ldr	q0, [sp, #5888]
	str	q2, [sp, #5792]
	ldr	q2, [sp, #5856]
	str	q1, [sp, #5664]
	ldr	q1, [sp, #5904]
	str	q0, [sp, #5680]
	ldr	q0, [sp, #5920]
	str	q1, [sp, #5696]
	str	q3, [sp, #5728]
	str	q0, [sp, #5712]
	str	q2, [sp, #5648]
	bl	"aes_kat::digits::write_block"
	mov	x8, x0
	mov	w23, #32                        // =0x20
	strb	w23, [x22, x0]
	add	x0, x20, #16
	add	x1, x8, #1
	add	x2, sp, #48
	bl	"aes_kat::digits::write_block"
	mov	x8, x0
	strb	w23, [x22, x0]
	add	x0, x20, #32
	add	x1, x8, #1
	add	x2, sp, #48
	bl	"aes_kat::digits::write_block"
	mov	x8, x0
	strb	w23, [x22, x0]
	add	x0, x20, #48
	add	x1, x8, #1
	add	x2, sp, #48
	bl	"aes_kat::digits::write_block"
	mov	x8, x0
	strb	w23, [x22, x0]
	add	x0, x20, #64
	add	x1, x8, #1
	add	x2, sp, #48
	bl	"aes_kat::digits::write_block"
	mov	x8, x0
	strb	w23, [x22, x0]
	add	x0, x20, #80
	add	x1, x8, #1
	add	x2, sp, #48
	bl	"aes_kat::digits::write_block"
	mov	x8, x0
	strb	w23, [x22, x0]
	add	x0, x20, #96
	add	x1, x8, #1
	add	x2, sp, #48
	bl	"aes_kat::digits::write_block"
	mov	x8, x0
	strb	w23, [x22, x0]
	add	x0, x20, #112
	add	x1, x8, #1
	add	x2, sp, #48
	bl	"aes_kat::digits::write_block"
	mov	x8, x0
	strb	w23, [x22, x0]
	add	x0, x20, #128
	add	x1, x8, #1
	add	x2, sp, #48
	bl	"aes_kat::digits::write_block"
	mov	x8, x0
	strb	w23, [x22, x0]
	add	x0, x20, #144
	add	x1, x8, #1
	add	x2, sp, #48
	bl	"aes_kat::digits::write_block"
	mov	x8, x0
	strb	w23, [x22, x0]
	add	x0, x20, #160
	add	x1, x8, #1
	add	x2, sp, #48
	bl	"aes_kat::digits::write_block"
	mov	x8, x0
	strb	w23, [x22, x0]
	add	x0, x20, #176
	add	x1, x8, #1
	add	x2, sp, #48
	bl	"aes_kat::digits::write_block"
	mov	x8, x0
	strb	w23, [x22, x0]
	add	x0, x20, #192
	b	LBB0_271
LBB0_252:                              // %arm.13.i.i.i
	ldur	x9, [x23, #1]
	ldr	x10, [sp, #3256]
	add	x0, sp, #2208
	add	x1, sp, #2192
	str	x9, [sp, #2128]
	ldrb	w9, [sp, #3248]
	stur	x10, [x8, #39]
	ldr	x10, [sp, #2128]
	strb	w9, [sp, #2192]
	ldur	x9, [x8, #39]
	stur	x10, [x8, #97]
	str	x9, [sp, #2200]
	bl	"aes::hazmat::cipher_round"
	add	x0, sp, #2208
	b	LBB0_254
LBB0_253:                              // %arm.19.i.i.i
	adrp	x8, l_CPI0_0@PAGE
	movi	v0.16b, #1
	movi	v3.16b, #64
	ldr	q2, [x8, l_CPI0_0@PAGEOFF]
	movi	v6.16b, #32
	movi	v4.16b, #8
	movi	v7.16b, #4
	movi	v5.16b, #16
	adrp	x8, l_CPI0_1@PAGE
	tbl	v16.16b, { v1.16b }, v2.16b
	movi	v2.16b, #2
	ldr	q1, [x8, l_CPI0_1@PAGEOFF]
	and	v17.16b, v16.16b, v0.16b
	and	v18.16b, v16.16b, v2.16b
	and	v19.16b, v16.16b, v3.16b
	and	v21.16b, v16.16b, v6.16b
	and	v22.16b, v16.16b, v4.16b
	and	v20.16b, v16.16b, v7.16b
	and	v23.16b, v16.16b, v5.16b
	cmlt	v16.16b, v16.16b, #0
	cmeq	v17.16b, v17.16b, #0
	cmeq	v18.16b, v18.16b, #0
	cmeq	v19.16b, v19.16b, #0
	cmeq	v21.16b, v21.16b, #0
	cmeq	v22.16b, v22.16b, #0
	cmeq	v20.16b, v20.16b, #0
	cmeq	v23.16b, v23.16b, #0
	and	v16.16b, v16.16b, v1.16b
	bic	v17.16b, v1.16b, v17.16b
	bic	v18.16b, v1.16b, v18.16b
	bic	v19.16b, v1.16b, v19.16b
	bic	v21.16b, v1.16b, v21.16b
	bic	v22.16b, v1.16b, v22.16b
	bic	v20.16b, v1.16b, v20.16b
	bic	v23.16b, v1.16b, v23.16b
	addp	v16.16b, v16.16b, v16.16b
	addp	v17.16b, v17.16b, v17.16b
	addp	v18.16b, v18.16b, v18.16b
	addp	v19.16b, v19.16b, v19.16b
	addp	v21.16b, v21.16b, v21.16b
	addp	v22.16b, v22.16b, v22.16b
	addp	v20.16b, v20.16b, v20.16b
	addp	v23.16b, v23.16b, v23.16b
	addp	v16.16b, v16.16b, v16.16b
	addp	v17.16b, v17.16b, v17.16b
	addp	v18.16b, v18.16b, v18.16b
	addp	v19.16b, v19.16b, v19.16b
	addp	v21.16b, v21.16b, v21.16b
	addp	v22.16b, v22.16b, v22.16b
	addp	v20.16b, v20.16b, v20.16b
	addp	v23.16b, v23.16b, v23.16b
	addp	v16.16b, v16.16b, v16.16b
	addp	v17.16b, v17.16b, v17.16b
	addp	v18.16b, v18.16b, v18.16b
	addp	v19.16b, v19.16b, v19.16b
	addp	v21.16b, v21.16b, v21.16b
	addp	v20.16b, v20.16b, v20.16b
	umov	w10, v16.h[0]
	umov	w14, v17.h[0]
	addp	v17.16b, v22.16b, v22.16b
	addp	v22.16b, v23.16b, v23.16b
	umov	w13, v18.h[0]
	umov	w16, v19.h[0]
	umov	w5, v21.h[0]
	umov	w0, v20.h[0]
	umov	w7, v17.h[0]
	umov	w11, v22.h[0]
	eor	w20, w16, w13
	eon	w1, w16, w10
	eor	w6, w13, w14
	eon	w4, w5, w0
	eor	w8, w1, w6
	eon	w12, w5, w7
	eon	w17, w16, w11
	eon	w22, w14, w7
	eor	w15, w12, w20
	eor	w12, w10, w11
	eor	w2, w11, w7
	eor	w9, w10, w4
	eon	w10, w16, w12
	eor	w11, w17, w4
	and	w21, w12, w16
	eor	w4, w0, w13
	eor	w16, w1, w22
	eor	w3, w2, w6
	eon	w13, w4, w2
	eon	w0, w14, w2
	eor	w14, w10, w7
	eor	w30, w16, w4
	eon	w21, w4, w21
	str	w8, [sp, #40]                   // 4-byte Spill
	eor	w6, w17, w6
	and	w23, w8, w11
	orr	w25, w15, w3
	and	w26, w17, w0
	and	w8, w14, w13
	and	w30, w30, w2
	eor	w21, w21, w16
	eor	w20, w20, w22
	eon	w7, w5, w6
	eor	w8, w30, w8
	eor	w25, w25, w26
	eor	w21, w21, w23
	and	w27, w9, w6
	and	w28, w16, w1
	and	w24, w7, w20
	eor	w25, w25, w8
	eor	w8, w21, w8
	and	w21, w15, w3
	eor	w28, w30, w28
	eor	w22, w27, w22
	eor	w21, w21, w24
	eor	w22, w22, w23
	and	w23, w8, w25
	eon	w5, w5, w21
	eor	w21, w2, w28
	eor	w22, w22, w28
	eor	w5, w5, w21
	eor	w26, w8, w22
	eor	w24, w23, w22
	and	w8, w8, w5
	eor	w27, w23, w5
	eor	w21, w25, w5
	and	w8, w8, w26
	and	w27, w27, w26
	eor	w26, w23, w26
	eor	w27, w27, w22
	eor	w8, w26, w8
	and	w24, w24, w21
	eor	w26, w27, w8
	eor	w5, w24, w5
	and	w17, w8, w17
	and	w30, w5, w9
	and	w9, w26, w15
	and	w15, w22, w25
	and	w15, w15, w21
	eor	w21, w23, w21
	eor	w24, w27, w5
	eor	w15, w21, w15
	and	w6, w5, w6
	and	w7, w27, w7
	eor	w5, w5, w15
	and	w0, w8, w0
	eor	w8, w8, w15
	and	w11, w5, w11
	eor	w21, w9, w7
	and	w12, w15, w12
	eor	w22, w24, w8
	and	w10, w15, w10
	eor	w15, w11, w7
	ldr	w7, [sp, #40]                   // 4-byte Reload
	and	w3, w26, w3
	and	w28, w24, w2
	eon	w2, w4, w16
	and	w13, w22, w13
	eor	w4, w3, w17
	and	w2, w24, w2
	and	w16, w8, w16
	eor	w13, w13, w0
	and	w5, w5, w7
	and	w14, w22, w14
	eor	w0, w10, w0
	eor	w23, w30, w12
	and	w12, w8, w1
	eor	w4, w4, w2
	eor	w7, w14, w16
	eor	w22, w28, w6
	eor	w10, w15, w0
	eor	w8, w0, w2
	eor	w0, w5, w12
	and	w20, w27, w20
	eor	w13, w13, w4
	eor	w11, w11, w30
	eor	w4, w7, w4
	eor	w6, w23, w6
	eor	w2, w22, w0
	eor	w20, w9, w20
	eor	w14, w14, w9
	eor	w9, w10, w4
	eor	w10, w11, w4
	eor	w11, w6, w3
	eor	w3, w2, w2, lsr #2
	eor	w15, w15, w12
	mov	w12, #4896                      // =0x1320
	eor	w14, w14, w13
	eor	w15, w15, w6
	eor	w17, w23, w17
	and	w3, w3, w12
	eor	w13, w15, w13
	eor	w15, w17, w16
	orr	w16, w3, w3, lsl #2
	eor	w17, w14, w14, lsr #2
	eor	w15, w15, w0
	eor	w0, w9, w9, lsr #2
	eor	w1, w20, w8
	eor	w11, w11, w7
	eor	w16, w16, w2
	and	w17, w17, w12
	eor	w2, w10, w10, lsr #2
	eor	w11, w11, w1
	eor	w15, w15, w1
	eor	w1, w13, w13, lsr #2
	and	w0, w0, w12
	orr	w17, w17, w17, lsl #2
	orr	w0, w0, w0, lsl #2
	and	w2, w2, w12
	eor	w3, w11, w11, lsr #2
	and	w1, w1, w12
	eor	w14, w17, w14
	orr	w17, w2, w2, lsl #2
	eor	w2, w15, w15, lsr #2
	orr	w1, w1, w1, lsl #2
	eor	w0, w0, w9
	and	w9, w3, w12
	eor	w8, w21, w4
	eor	w10, w17, w10
	orr	w9, w9, w9, lsl #2
	and	w17, w2, w12
	eor	w13, w1, w13
	orr	w17, w17, w17, lsl #2
	eor	w1, w8, w8, lsr #2
	eor	w2, w16, w16, lsr #1
	eor	w11, w9, w11
	mov	w3, #20560                      // =0x5050
	eor	w9, w14, w14, lsr #1
	eor	w15, w17, w15
	and	w12, w1, w12
	and	w17, w2, w3
	orr	w12, w12, w12, lsl #2
	orr	w17, w17, w17, lsl #1
	and	w9, w9, w3
	eor	w2, w13, w13, lsr #1
	orr	w9, w9, w9, lsl #1
	eor	w1, w0, w0, lsr #1
	eor	w12, w12, w8
	eor	w8, w17, w16
	eor	w16, w10, w10, lsr #1
	and	w17, w2, w3
	eor	w9, w9, w14
	and	w14, w1, w3
	orr	w17, w17, w17, lsl #1
	eor	w1, w11, w11, lsr #1
	eor	w4, w12, w12, lsr #1
	orr	w14, w14, w14, lsl #1
	eor	w2, w15, w15, lsr #1
	and	w16, w16, w3
	eor	w13, w17, w13
	and	w17, w1, w3
	and	w1, w4, w3
	orr	w1, w1, w1, lsl #1
	eor	w14, w14, w0
	orr	w16, w16, w16, lsl #1
	and	w0, w2, w3
	orr	w17, w17, w17, lsl #1
	ubfx	w2, w9, #4, #12
	orr	w0, w0, w0, lsl #1
	eor	w12, w1, w12
	eor	w10, w16, w10
	ubfx	w16, w8, #4, #12
	ubfx	w5, w12, #4, #12
	eor	w11, w17, w11
	eor	w15, w0, w15
	ubfx	w0, w14, #4, #12
	ubfx	w3, w11, #4, #12
	orr	w16, w16, w8, lsl #12
	ubfx	w4, w15, #4, #12
	orr	w5, w5, w12, lsl #12
	orr	w17, w2, w9, lsl #12
	ubfx	w1, w13, #4, #12
	ubfx	w2, w10, #4, #12
	orr	w0, w0, w14, lsl #12
	orr	w3, w3, w11, lsl #12
	orr	w4, w4, w15, lsl #12
	eor	w16, w16, w8
	eor	w5, w5, w12
	orr	w1, w1, w13, lsl #12
	orr	w2, w2, w10, lsl #12
	eor	w6, w5, w8
	eor	w8, w9, w16
	eor	w0, w0, w14
	eor	w3, w3, w11
	eor	w4, w4, w15
	eor	w7, w8, w5
	eor	w8, w5, w13
	eor	w17, w17, w9
	eor	w1, w1, w13
	eor	w2, w2, w10
	eor	w9, w8, w0
	eor	w15, w3, w15
	eor	w8, w4, w12
	eor	w10, w1, w10
	eor	w20, w2, w11
	eor	w11, w8, w15
	eor	w13, w17, w14
	eor	w14, w10, w5
	eor	w12, w15, w16
	eor	w16, w11, w17
	eor	w10, w6, w0
	eor	w0, w13, w2
	eor	w2, w14, w4
	rev	w4, w16
	eor	w17, w10, w8
	eor	w10, w7, w1
	eor	w1, w8, w3
	eor	w4, w7, w4, lsr #16
	rev	w3, w12
	eor	w1, w1, w9
	eor	w0, w0, w11
	eor	w11, w20, w5
	rev	w5, w17
	rev	w23, w1
	eor	w3, w6, w3, lsr #16
	eor	w16, w4, w16
	eor	w20, w20, w23, lsr #16
	eor	w13, w13, w5, lsr #16
	lsl	w16, w16, #16
	eor	w10, w10, w15
	rev	w22, w0
	eor	w12, w3, w12
	rev	w21, w10
	rev	w6, w2
	eor	w14, w14, w22, lsr #16
	eor	w1, w20, w1
	eor	w13, w13, w17
	bfxil	x16, x12, #0, #16
	eor	w15, w15, w6, lsr #16
	lsl	w17, w1, #16
	eor	w9, w9, w21, lsr #16
	and	w13, w13, #0xffff
	eor	w14, w14, w0
	orr	x13, x16, x13, lsl #32
	rev	w7, w11
	eor	w12, w15, w2
	bfxil	x17, x14, #0, #16
	eor	w9, w9, w10
	eor	w8, w8, w7, lsr #16
	and	w12, w12, #0xffff
	orr	x9, x13, x9, lsl #48
	add	x0, sp, #2176
	orr	x10, x17, x12, lsl #32
	eor	w8, w8, w11
	fmov	d16, x9
	orr	x8, x10, x8, lsl #48
	mov	v16.d[1], x8
	adrp	x8, l_CPI0_2@PAGE
	ldr	q17, [x8, l_CPI0_2@PAGEOFF]
	tbl	v16.16b, { v16.16b }, v17.16b
	and	v2.16b, v16.16b, v2.16b
	and	v7.16b, v16.16b, v7.16b
	and	v0.16b, v16.16b, v0.16b
	and	v4.16b, v16.16b, v4.16b
	and	v6.16b, v16.16b, v6.16b
	and	v5.16b, v16.16b, v5.16b
	and	v3.16b, v16.16b, v3.16b
	cmlt	v16.16b, v16.16b, #0
	cmeq	v2.16b, v2.16b, #0
	cmeq	v7.16b, v7.16b, #0
	cmeq	v0.16b, v0.16b, #0
	cmeq	v4.16b, v4.16b, #0
	cmeq	v6.16b, v6.16b, #0
	cmeq	v5.16b, v5.16b, #0
	cmeq	v3.16b, v3.16b, #0
	bic	v2.16b, v1.16b, v2.16b
	bic	v7.16b, v1.16b, v7.16b
	bic	v0.16b, v1.16b, v0.16b
	bic	v4.16b, v1.16b, v4.16b
	bic	v6.16b, v1.16b, v6.16b
	bic	v5.16b, v1.16b, v5.16b
	bic	v3.16b, v1.16b, v3.16b
	and	v1.16b, v16.16b, v1.16b
	addp	v2.16b, v2.16b, v2.16b
	addp	v7.16b, v7.16b, v7.16b
	addp	v0.16b, v0.16b, v0.16b
	addp	v4.16b, v4.16b, v4.16b
	addp	v6.16b, v6.16b, v6.16b
	addp	v5.16b, v5.16b, v5.16b
	addp	v3.16b, v3.16b, v3.16b
	addp	v1.16b, v1.16b, v1.16b
	addp	v2.16b, v2.16b, v2.16b
	addp	v7.16b, v7.16b, v7.16b
	addp	v0.16b, v0.16b, v0.16b
	addp	v4.16b, v4.16b, v4.16b
	addp	v6.16b, v6.16b, v6.16b
	addp	v5.16b, v5.16b, v5.16b
	addp	v3.16b, v3.16b, v3.16b
	addp	v1.16b, v1.16b, v1.16b
	addp	v2.16b, v2.16b, v2.16b
	addp	v7.16b, v7.16b, v7.16b
	addp	v0.16b, v0.16b, v0.16b
	addp	v6.16b, v6.16b, v6.16b
	addp	v5.16b, v5.16b, v5.16b
	addp	v3.16b, v3.16b, v3.16b
	addp	v1.16b, v1.16b, v1.16b
	umov	w8, v2.h[0]
	addp	v2.16b, v4.16b, v4.16b
	mov	h4, v7.h[0]
	umov	w10, v0.h[0]
	umov	w9, v6.h[0]
	umov	w12, v5.h[0]
	umov	w13, v3.h[0]
	movi	v0.2d, #0x0000000000ffff
	umov	w11, v2.h[0]
	lsl	w8, w8, #16
	mov	v4.h[2], v1.h[0]
	lsl	w9, w9, #16
	bfxil	x8, x10, #0, #16
	lsl	x10, x11, #48
	bfxil	x9, x12, #0, #16
	lsl	x11, x13, #32
	fmov	d2, x8
	ushll	v1.2d, v4.2s, #0
	adrp	x8, l_CPI0_3@PAGE
	fmov	d3, x10
	mov	v2.d[1], x11
	and	v0.16b, v1.16b, v0.16b
	ldr	q1, [x8, l_CPI0_3@PAGEOFF]
	mov	v3.d[1], x9
	adrp	x8, l_CPI0_5@PAGE
	ushl	v0.2d, v0.2d, v1.2d
	orr	v1.16b, v3.16b, v2.16b
	ldr	q2, [x8, l_CPI0_5@PAGEOFF]
	orr	v1.16b, v1.16b, v0.16b
	mov	v0.16b, v1.16b
	mov	v0.b[1], w12
	tbl	v0.16b, { v0.16b, v1.16b }, v2.16b
	ldr	q1, [sp, #3248]
	eor	v0.16b, v0.16b, v1.16b
	str	q0, [sp, #2176]
LBB0_254:                              // %"aes_kat::replies::answer.exit.thread24.i"
	add	x2, sp, #48
	mov	x1, xzr
	bl	"aes_kat::digits::write_block"
	mov	x21, x0
	mov	w20, wzr
	ldp	x8, x22, [x19, #8]
	sub	x9, x22, x8
	cmp	x0, x9
	b.ls	LBB0_187
LBB0_255:                              // %"std_alloc::vec::Vec::grow::<#b2ae9ec5f5f36c9c>.exit.i"
	mov	x0, x19
	mov	x1, x21
	bl	"std_alloc::vec::Vec::grow_amortized::<#b2ae9ec5f5f36c9c>"
	cbz	w0, LBB0_257
// %bb.256:                             // %"std_alloc::vec::Vec::grow::<#b2ae9ec5f5f36c9c>.exit.join.3_crit_edge.i"
	ldp	x8, x22, [x19, #8]
	b	LBB0_187
LBB0_257:
	mov	w20, wzr
	mov	w0, #1                          // =0x1
	b	LBB0_196
LBB0_258:                              // %arm.7.i.i.i.i
	movi	v0.2d, #0000000000000000
	ldr	x22, [sp, #5656]
	add	x8, sp, #1, lsl #12             // =4096
	cmp	w28, #2
	add	x8, x8, #1760
	and	x20, x22, #0xfffffffffffffff8
	b.eq	LBB0_272
// %bb.259:                             // %arm.7.i.i.i.i
	cmp	w28, #1
	b.ne	LBB0_282
// %bb.260:                             // %arm.2.i.i.i51.i.i
	add	x0, sp, #3248
	orr	x1, x8, #0x1
	str	q0, [sp, #3472]
	str	q0, [sp, #3456]
	str	q0, [sp, #3440]
	str	q0, [sp, #3424]
	str	q0, [sp, #3408]
	str	q0, [sp, #3392]
	str	q0, [sp, #3376]
	str	q0, [sp, #3360]
	str	q0, [sp, #3344]
	str	q0, [sp, #3328]
	str	q0, [sp, #3312]
	str	q0, [sp, #3296]
	str	q0, [sp, #3280]
	str	q0, [sp, #3264]
	bl	"aes::fixsliced::FixslicedCountsLayers::expand_counted::<#123648e35348170c>"
	ldr	q0, [sp, #3440]
	ldr	q1, [sp, #3456]
	add	x0, sp, #3248
	ldr	q2, [sp, #3472]
	mov	w1, wzr
	mov	w2, #1920                       // =0x780
	str	q0, [sp, #5600]
	ldr	q0, [sp, #3376]
	str	q1, [sp, #5616]
	ldr	q1, [sp, #3392]
	str	q0, [sp, #5536]
	ldr	q0, [sp, #3408]
	str	q2, [sp, #5632]
	ldr	q2, [sp, #3424]
	str	q0, [sp, #5568]
	ldr	q0, [sp, #3328]
	str	q1, [sp, #5552]
	ldr	q1, [sp, #3312]
	str	q0, [sp, #5488]
	ldr	q0, [sp, #3344]
	str	q2, [sp, #5584]
	ldr	q2, [sp, #3360]
	str	q0, [sp, #5504]
	ldr	q0, [sp, #3264]
	str	q1, [sp, #5472]
	ldr	q1, [sp, #3248]
	str	q2, [sp, #5520]
	ldr	q2, [sp, #3296]
	str	q0, [sp, #5424]
	ldr	q0, [sp, #3280]
	str	q1, [sp, #5408]
	str	q2, [sp, #5456]
	str	q0, [sp, #5440]
	bl	_memset
	cbz	x20, LBB0_264
// %bb.261:                             // %join.5.i.i.i7.i.i.i.i.i.preheader
	mov	x8, xzr
LBB0_262:                              // %join.5.i.i.i7.i.i.i.i.i
                                        // =>This Inner Loop Header: Depth=1
	add	x9, sp, #1, lsl #12             // =4096
	movi	d1, #0x00ffff0000ffff
	add	x9, x9, #1312
	ldrh	w9, [x9, x8, lsl #1]
	dup	v0.2s, w9
	adrp	x9, l_CPI0_6@PAGE
	and	v0.8b, v0.8b, v1.8b
	ldr	d1, [x9, l_CPI0_6@PAGEOFF]
	adrp	x9, l_CPI0_7@PAGE
	ushl	v0.2s, v0.2s, v1.2s
	ldr	q1, [x9, l_CPI0_7@PAGEOFF]
	adrp	x9, l_CPI0_1@PAGE
	mov	v0.b[1], v0.b[4]
	tbl	v0.16b, { v0.16b }, v1.16b
	ldr	q1, [x9, l_CPI0_1@PAGEOFF]
	add	x9, sp, #3248
	cmtst	v0.16b, v0.16b, v1.16b
	str	q0, [x9, x8, lsl #4]
	add	x8, x8, #1
	cmp	x8, #104
	b.ne	LBB0_262
// %bb.263:                             // %"aes_soft::soft::full::widening::store_widened::<#ac91400744c51dd4>.exit.i.i29.i.i.i.i.i"
	add	x0, sp, #3248
	add	x2, sp, #2224
	and	x3, x22, #0xfffffffffffffff8
	mov	w1, #104                        // =0x68
	bl	"aes_soft::soft::blocks::slices::process_batches_outlined::<#6c9505ca656cc68d>"
	add	x0, sp, #3248
	bl	"aes_cipher::zeroize::elements::zeroize_elements::<#c76276a60742133e>"
LBB0_264:                              // %"aes_kat::keys::encrypt_sized::<#123648e35348170c>.exit.i.i.i.i.i"
	add	x8, sp, #2224
	add	x0, sp, #1, lsl #12             // =4096
	and	x3, x22, #0x7
	add	x2, x8, x20, lsl #4
	add	x0, x0, #1312
	mov	w1, #104                        // =0x68
	b	LBB0_287
LBB0_265:                              // %arm.7.i578.i.i.i
	movi	v0.2d, #0000000000000000
	ldur	w21, [x8, #26]
	ldur	w20, [x8, #30]
	adrp	x8, l_static.10@PAGE
	add	x8, x8, l_static.10@PAGEOFF
	str	xzr, [sp, #32]                  // 8-byte Spill
	str	w22, [sp, #3248]
	str	w24, [sp, #3252]
	str	q0, [sp, #2448]
	str	q0, [sp, #2432]
	str	q0, [sp, #2416]
	str	q0, [sp, #2400]
	str	q0, [sp, #2384]
	str	q0, [sp, #2368]
	str	q0, [sp, #2352]
	str	q0, [sp, #2336]
	str	q0, [sp, #2320]
	str	q0, [sp, #2304]
	str	q0, [sp, #2288]
	str	q0, [sp, #2272]
	str	q0, [sp, #2256]
	str	q0, [sp, #2240]
	str	q0, [sp, #2224]
	str	q0, [sp, #3472]
	str	q0, [sp, #3456]
	str	q0, [sp, #3440]
	str	q0, [sp, #3424]
	str	q0, [sp, #3408]
	str	q0, [sp, #3392]
	str	q0, [sp, #3376]
	str	q0, [sp, #3360]
	str	q0, [sp, #3344]
	str	q0, [sp, #3328]
	str	q0, [sp, #3312]
	str	q0, [sp, #3296]
	str	q0, [sp, #3280]
	str	w23, [sp, #3256]
	str	w25, [sp, #3260]
	str	w27, [sp, #3264]
	str	w26, [sp, #3268]
	str	w21, [sp, #3272]
	str	w20, [sp, #3276]
	str	w23, [sp, #40]                  // 4-byte Spill
LBB0_266:                              // %join.5.i.i.i46.i.i.i.i
                                        // =>This Inner Loop Header: Depth=1
	adrp	x1, l_static.12@PAGE
	add	x1, x1, l_static.12@PAGEOFF
	sub	x0, x29, #32
	str	w27, [sp, #28]                  // 4-byte Spill
	ldrb	w28, [x8], #1
	stp	w27, w26, [x29, #-32]
	str	x8, [sp, #16]                   // 8-byte Spill
	stp	w21, w20, [x29, #-24]
	bl	"aes::hazmat::cipher_round"
	sub	x0, x29, #32
	bl	"aes::hazmat::inv_mix_columns"
	sub	x27, x29, #80
	stp	w24, w25, [sp, #8]              // 8-byte Folded Spill
	sub	x0, x29, #32
	ldrb	w8, [x27, #57]
	ldrb	w9, [x27, #60]
	ldrb	w10, [x27, #54]
	adrp	x1, l_static.12@PAGE
	add	x1, x1, l_static.12@PAGEOFF
	eor	w8, w8, w28
	orr	w8, w8, w9, lsl #24
	ldrb	w9, [x27, #51]
	orr	w8, w8, w10, lsl #8
	orr	w8, w8, w9, lsl #16
	add	x9, sp, #3248
	eor	w23, w8, w22
	ldr	w8, [sp, #40]                   // 4-byte Reload
	mov	w22, w26
	ldr	x26, [sp, #32]                  // 8-byte Reload
	eor	w24, w23, w24
	eor	w8, w24, w8
	stp	w23, w24, [x29, #-32]
	add	x28, x9, x26
	eor	w25, w8, w25
	str	w8, [sp, #40]                   // 4-byte Spill
	stp	w23, w24, [x28, #32]
	stp	w8, w25, [x28, #40]
	stp	w8, w25, [x29, #-24]
	bl	"aes::hazmat::cipher_round"
	sub	x0, x29, #32
	bl	"aes::hazmat::inv_mix_columns"
	ldrb	w8, [x27, #60]
	ldrb	w9, [x27, #57]
	add	x26, x26, #32
	ldrb	w10, [x27, #54]
	str	x26, [sp, #32]                  // 8-byte Spill
	cmp	x26, #192
	orr	w8, w8, w9, lsl #8
	ldrb	w9, [x27, #51]
	ldr	w27, [sp, #28]                  // 4-byte Reload
	orr	w8, w8, w10, lsl #16
	orr	w8, w8, w9, lsl #24
	eor	w27, w8, w27
	ldr	x8, [sp, #16]                   // 8-byte Reload
	eor	w22, w27, w22
	eor	w21, w22, w21
	stp	w27, w22, [x28, #48]
	mov	w26, w22
	eor	w20, w21, w20
	mov	w22, w23
	stp	w21, w20, [x28, #56]
	b.ne	LBB0_266
// %bb.267:                             // %"aes::expansion::expand_256.exit.i.i.i.i"
	adrp	x1, l_static.12@PAGE
	add	x1, x1, l_static.12@PAGEOFF
	sub	x0, x29, #32
	stp	w27, w26, [x29, #-32]
	stp	w21, w20, [x29, #-24]
	bl	"aes::hazmat::cipher_round"
	sub	x0, x29, #32
	bl	"aes::hazmat::inv_mix_columns"
	ldr	q0, [sp, #3440]
	sub	x11, x29, #80
	ldr	q1, [sp, #3456]
	ldrb	w8, [x11, #57]
	ldrb	w9, [x11, #60]
	add	x0, sp, #1, lsl #12             // =4096
	str	q0, [sp, #2416]
	ldr	q0, [sp, #3376]
	add	x20, sp, #1, lsl #12            // =4096
	eor	w8, w8, #0x40
	ldrb	w10, [x11, #54]
	str	q1, [sp, #2432]
	str	q0, [sp, #2352]
	ldr	q0, [sp, #3424]
	orr	w8, w8, w9, lsl #24
	ldrb	w9, [x11, #51]
	ldr	q1, [sp, #3408]
	add	x0, x0, #1312
	str	q0, [sp, #2400]
	ldr	q0, [sp, #3312]
	orr	w8, w8, w10, lsl #8
	ldr	w10, [sp, #8]                   // 4-byte Reload
	str	q1, [sp, #2384]
	add	x2, sp, #48
	str	q0, [sp, #2288]
	ldr	q0, [sp, #3344]
	orr	w8, w8, w9, lsl #16
	ldr	q1, [sp, #3328]
	ldr	q2, [sp, #3392]
	mov	x1, xzr
	str	q0, [sp, #2320]
	ldr	q0, [sp, #3264]
	eor	w9, w8, w22
	eor	w8, w8, w10
	str	w9, [sp, #3472]
	ldr	w9, [sp, #40]                   // 4-byte Reload
	str	q0, [sp, #2240]
	ldr	q0, [sp, #3280]
	add	x20, x20, #1072
	ldr	w10, [sp, #12]                  // 4-byte Reload
	eor	w9, w8, w9
	str	w8, [sp, #3476]
	str	q0, [sp, #2256]
	ldr	q0, [sp, #2416]
	add	x22, sp, #48
	eor	w8, w8, w10
	str	q1, [sp, #2304]
	ldr	q1, [sp, #3248]
	str	q0, [sp, #5600]
	ldr	q0, [sp, #2352]
	str	w9, [sp, #3480]
	str	q0, [sp, #5536]
	ldr	q0, [sp, #2384]
	str	w8, [sp, #3484]
	str	q1, [sp, #2224]
	ldr	q1, [sp, #3472]
	str	q0, [sp, #5568]
	ldr	q0, [sp, #2304]
	str	q2, [sp, #2368]
	ldr	q2, [sp, #3360]
	str	q1, [sp, #2448]
	ldr	q1, [sp, #2432]
	str	q0, [sp, #5488]
	ldr	q0, [sp, #2320]
	str	q2, [sp, #2336]
	ldr	q2, [sp, #3296]
	str	q1, [sp, #5616]
	ldr	q1, [sp, #2368]
	str	q0, [sp, #5504]
	ldr	q0, [sp, #2240]
	str	q2, [sp, #2272]
	ldr	q2, [sp, #2448]
	str	q1, [sp, #5552]
	ldr	q1, [sp, #2288]
	str	q0, [sp, #5424]
	ldr	q0, [sp, #2256]
	str	q2, [sp, #5632]
	ldr	q2, [sp, #2400]
	str	q1, [sp, #5472]
	ldr	q1, [sp, #2224]
	str	q0, [sp, #5440]
	ldr	q0, [sp, #5616]
	str	q2, [sp, #5584]
	ldr	q2, [sp, #2336]
	str	q1, [sp, #5408]
	ldr	q1, [sp, #5600]
	str	q0, [sp, #5376]
	ldr	q0, [sp, #5536]
	str	q2, [sp, #5520]
	ldr	q2, [sp, #2272]
	str	q1, [sp, #5360]
	ldr	q1, [sp, #5552]
	ldr	q3, [sp, #5520]
	str	q0, [sp, #5296]
	ldr	q0, [sp, #5568]
	str	q2, [sp, #5456]
	ldr	q2, [sp, #5632]
	str	q1, [sp, #5312]
	ldr	q1, [sp, #5456]
	str	q0, [sp, #5328]
	ldr	q0, [sp, #5472]
	str	q2, [sp, #5392]
	ldr	q2, [sp, #5584]
	str	q1, [sp, #5216]
	ldr	q1, [sp, #5488]
	str	q0, [sp, #5232]
	ldr	q0, [sp, #5504]
	str	q2, [sp, #5344]
	ldr	q2, [sp, #5440]
	str	q1, [sp, #5248]
	ldr	q1, [sp, #5408]
	str	q0, [sp, #5264]
	ldr	q0, [sp, #5424]
	str	q3, [sp, #5280]
	str	q1, [sp, #5168]
	str	q0, [sp, #5184]
	str	q2, [sp, #5200]
	bl	"aes_kat::digits::write_block"
	mov	x8, x0
	mov	w23, #32                        // =0x20
	strb	w23, [x22, x0]
	add	x0, x20, #16
	add	x1, x8, #1
	add	x2, sp, #48
	bl	"aes_kat::digits::write_block"
	mov	x8, x0
	strb	w23, [x22, x0]
	add	x0, x20, #32
	add	x1, x8, #1
	add	x2, sp, #48
	bl	"aes_kat::digits::write_block"
	mov	x8, x0
	strb	w23, [x22, x0]
	add	x0, x20, #48
	add	x1, x8, #1
	add	x2, sp, #48
	bl	"aes_kat::digits::write_block"
	mov	x8, x0
	strb	w23, [x22, x0]
	add	x0, x20, #64
	add	x1, x8, #1
	add	x2, sp, #48
	bl	"aes_kat::digits::write_block"
	mov	x8, x0
	strb	w23, [x22, x0]
	add	x0, x20, #80
	add	x1, x8, #1
	add	x2, sp, #48
	bl	"aes_kat::digits::write_block"
	mov	x8, x0
	strb	w23, [x22, x0]
	add	x0, x20, #96
	add	x1, x8, #1
	add	x2, sp, #48
	bl	"aes_kat::digits::write_block"
	mov	x8, x0
	strb	w23, [x22, x0]
	add	x0, x20, #112
	add	x1, x8, #1
	add	x2, sp, #48
	bl	"aes_kat::digits::write_block"
	mov	x8, x0
	strb	w23, [x22, x0]
	add	x0, x20, #128
	add	x1, x8, #1
	add	x2, sp, #48
	bl	"aes_kat::digits::write_block"
	mov	x8, x0
	strb	w23, [x22, x0]
	add	x0, x20, #144
	add	x1, x8, #1
	add	x2, sp, #48
	bl	"aes_kat::digits::write_block"
	mov	x8, x0
	strb	w23, [x22, x0]
	add	x0, x20, #160
	add	x1, x8, #1
	add	x2, sp, #48
	bl	"aes_kat::digits::write_block"
	mov	x8, x0
	strb	w23, [x22, x0]
	add	x0, x20, #176
	add	x1, x8, #1
	add	x2, sp, #48
	bl	"aes_kat::digits::write_block"
	mov	x8, x0
	strb	w23, [x22, x0]
	add	x0, x20, #192
	add	x1, x8, #1
	add	x2, sp, #48
	bl	"aes_kat::digits::write_block"
	mov	x8, x0
	strb	w23, [x22, x0]
	add	x0, x20, #208
	add	x1, x8, #1
	add	x2, sp, #48
	bl	"aes_kat::digits::write_block"
	mov	x8, x0
	strb	w23, [x22, x0]
	add	x0, x20, #224
	b	LBB0_271
LBB0_268:                              // %arm.5.i.i.i.i
	movi	v0.2d, #0000000000000000
	mov	x20, xzr
	adrp	x21, l_static.10@PAGE
	add	x21, x21, l_static.10@PAGEOFF
	sub	x27, x29, #80
	str	w22, [sp, #3248]
	str	w24, [sp, #3252]
	str	w23, [sp, #3256]
	str	q0, [sp, #2384]
	str	q0, [sp, #2368]
	str	q0, [sp, #2352]
	str	q0, [sp, #2336]
	str	q0, [sp, #2320]
	str	q0, [sp, #2304]
	str	q0, [sp, #2288]
	str	q0, [sp, #2272]
	str	q0, [sp, #2256]
	str	q0, [sp, #2240]
	str	q0, [sp, #2224]
	str	q0, [sp, #3408]
	str	q0, [sp, #3392]
	str	q0, [sp, #3376]
	str	q0, [sp, #3360]
	str	q0, [sp, #3344]
	str	q0, [sp, #3328]
	str	q0, [sp, #3312]
	str	q0, [sp, #3296]
	str	q0, [sp, #3280]
	str	q0, [sp, #3264]
	str	w25, [sp, #3260]
LBB0_269:                              // %join.5.i.i.i.i37.i.i
                                        // =>This Inner Loop Header: Depth=1
	ldrb	w26, [x21], #1
	adrp	x1, l_static.12@PAGE
	add	x1, x1, l_static.12@PAGEOFF
	sub	x0, x29, #32
	stp	w22, w24, [x29, #-32]
	stp	w23, w25, [x29, #-24]
	bl	"aes::hazmat::cipher_round"
	sub	x0, x29, #32
	bl	"aes::hazmat::inv_mix_columns"
	ldrb	w8, [x27, #57]
	ldrb	w9, [x27, #60]
	ldrb	w10, [x27, #54]
	eor	w8, w8, w26
	orr	w8, w8, w9, lsl #24
	ldrb	w9, [x27, #51]
	orr	w8, w8, w10, lsl #8
	orr	w8, w8, w9, lsl #16
	add	x9, sp, #3248
	eor	w22, w8, w22
	add	x8, x9, x20
	add	x20, x20, #16
	eor	w24, w22, w24
	cmp	x20, #160
	eor	w23, w24, w23
	stp	w22, w24, [x8, #16]
	eor	w25, w23, w25
	stp	w23, w25, [x8, #24]
	b.ne	LBB0_269
// %bb.270:                             // %"aes::expansion::expand_128.exit.i.i.i.i"
	ldr	q0, [sp, #3376]
	ldr	q1, [sp, #3392]
	add	x20, sp, #1, lsl #12            // =4096
	ldr	q2, [sp, #3408]
	sub	x0, x29, #256
	add	x2, sp, #48
	str	q0, [sp, #2352]
	ldr	q0, [sp, #3312]
	mov	x1, xzr
	str	q1, [sp, #2368]
	ldr	q1, [sp, #3328]
	add	x20, x20, #1968
	str	q0, [sp, #2288]
	ldr	q0, [sp, #3344]
	add	x22, sp, #48
	str	q2, [sp, #2384]
	ldr	q2, [sp, #3360]
	str	q0, [sp, #2320]
	ldr	q0, [sp, #3264]
	str	q1, [sp, #2304]
	ldr	q1, [sp, #3248]
	str	q0, [sp, #2240]
	ldr	q0, [sp, #3280]
	str	q2, [sp, #2336]
	ldr	q2, [sp, #3296]
	str	q1, [sp, #2224]
	ldr	q1, [sp, #2352]
	str	q0, [sp, #2256]
	ldr	q0, [sp, #2368]
	str	q2, [sp, #2272]
	ldr	q2, [sp, #2384]
	stp	q1, q0, [x29, #-128]
	ldr	q0, [sp, #2288]
	ldr	q1, [sp, #2304]
	stur	q2, [x29, #-96]
	ldr	q2, [sp, #2336]
	stp	q0, q1, [x29, #-192]
	ldr	q0, [sp, #2320]
	ldr	q1, [sp, #2224]
	stp	q0, q2, [x29, #-160]
	ldr	q0, [sp, #2240]
	ldr	q2, [sp, #2272]
	stp	q1, q0, [x29, #-256]
	ldr	q0, [sp, #2256]
	stp	q0, q2, [x29, #-224]
	ldp	q1, q0, [x29, #-128]
	ldur	q2, [x29, #-96]
	str	q1, [sp, #6192]
	str	q0, [sp, #6208]
	ldp	q0, q1, [x29, #-208]
	str	q2, [sp, #6224]
	str	q0, [sp, #6112]
	ldur	q0, [x29, #-176]
	str	q1, [sp, #6128]
	ldur	q1, [x29, #-256]
	str	q0, [sp, #6144]
	ldp	q0, q3, [x29, #-160]
	str	q1, [sp, #6064]
	str	q0, [sp, #6160]
	ldp	q0, q2, [x29, #-240]
	str	q3, [sp, #6176]
	str	q0, [sp, #6080]
	str	q2, [sp, #6096]
	bl	"aes_kat::digits::write_block"
	mov	x8, x0
	mov	w23, #32                        // =0x20
	strb	w23, [x22, x0]
	add	x0, x20, #16
	add	x1, x8, #1
	add	x2, sp, #48
	bl	"aes_kat::digits::write_block"
	mov	x8, x0
	strb	w23, [x22, x0]
	add	x0, x20, #32
	add	x1, x8, #1
	add	x2, sp, #48
	bl	"aes_kat::digits::write_block"
	mov	x8, x0
	strb	w23, [x22, x0]
	add	x0, x20, #48
	add	x1, x8, #1
	add	x2, sp, #48
	bl	"aes_kat::digits::write_block"
	mov	x8, x0
	strb	w23, [x22, x0]
	add	x0, x20, #64
	add	x1, x8, #1
	add	x2, sp, #48
	bl	"aes_kat::digits::write_block"
	mov	x8, x0
	strb	w23, [x22, x0]
	add	x0, x20, #80
	add	x1, x8, #1
	add	x2, sp, #48
	bl	"aes_kat::digits::write_block"
	mov	x8, x0
	strb	w23, [x22, x0]
	add	x0, x20, #96
	add	x1, x8, #1
	add	x2, sp, #48
	bl	"aes_kat::digits::write_block"
	mov	x8, x0
	strb	w23, [x22, x0]
	add	x0, x20, #112
	add	x1, x8, #1
	add	x2, sp, #48
	bl	"aes_kat::digits::write_block"
	mov	x8, x0
	strb	w23, [x22, x0]
	add	x0, x20, #128
	add	x1, x8, #1
	add	x2, sp, #48
	bl	"aes_kat::digits::write_block"
	mov	x8, x0
	strb	w23, [x22, x0]
	add	x0, x20, #144
	add	x1, x8, #1
	add	x2, sp, #48
	bl	"aes_kat::digits::write_block"
	mov	x8, x0
	strb	w23, [x22, x0]
	add	x0, x20, #160
LBB0_271:                              // %"aes_kat::replies::answer_sched.exit.i.i.i"
	add	x1, x8, #1
	add	x2, sp, #48
	bl	"aes_kat::digits::write_block"
	mov	x21, x0
	mov	w8, wzr
	mov	w28, wzr
	strb	w23, [x22, x0]
	b	LBB0_181
LBB0_272:                              // %arm.3.i.i.i47.i.i
	add	x0, sp, #3248
	orr	x1, x8, #0x1
	str	q0, [sp, #3472]
	str	q0, [sp, #3456]
	str	q0, [sp, #3440]
	str	q0, [sp, #3424]
	str	q0, [sp, #3408]
	str	q0, [sp, #3392]
	str	q0, [sp, #3376]
	str	q0, [sp, #3360]
	str	q0, [sp, #3344]
	str	q0, [sp, #3328]
	str	q0, [sp, #3312]
	str	q0, [sp, #3296]
	str	q0, [sp, #3280]
	str	q0, [sp, #3264]
	bl	"aes::fixsliced::FixslicedCountsLayers::expand_counted::<#7eef6ffa698b135b>"
	ldr	q0, [sp, #3440]
	ldr	q1, [sp, #3456]
	add	x0, sp, #3248
	ldr	q2, [sp, #3472]
	mov	w1, wzr
	mov	w2, #1920                       // =0x780
	str	q0, [sp, #5600]
	ldr	q0, [sp, #3376]
	str	q1, [sp, #5616]
	ldr	q1, [sp, #3392]
	str	q0, [sp, #5536]
	ldr	q0, [sp, #3408]
	str	q2, [sp, #5632]
	ldr	q2, [sp, #3424]
	str	q0, [sp, #5568]
	ldr	q0, [sp, #3328]
	str	q1, [sp, #5552]
	ldr	q1, [sp, #3312]
	str	q0, [sp, #5488]
	ldr	q0, [sp, #3344]
	str	q2, [sp, #5584]
	ldr	q2, [sp, #3360]
	str	q0, [sp, #5504]
	ldr	q0, [sp, #3264]
	str	q1, [sp, #5472]
	ldr	q1, [sp, #3248]
	str	q2, [sp, #5520]
	ldr	q2, [sp, #3296]
	str	q0, [sp, #5424]
	ldr	q0, [sp, #3280]
	str	q1, [sp, #5408]
	str	q2, [sp, #5456]
	str	q0, [sp, #5440]
	bl	_memset
	cbz	x20, LBB0_276
// %bb.273:                             // %join.5.i.i.i39.i.i.i.i.i.preheader
	mov	x8, xzr
LBB0_274:                              // %join.5.i.i.i39.i.i.i.i.i
                                        // =>This Inner Loop Header: Depth=1
	add	x9, sp, #1, lsl #12             // =4096
	movi	d1, #0x00ffff0000ffff
	add	x9, x9, #1312
	ldrh	w9, [x9, x8, lsl #1]
	dup	v0.2s, w9
	adrp	x9, l_CPI0_6@PAGE
	and	v0.8b, v0.8b, v1.8b
	ldr	d1, [x9, l_CPI0_6@PAGEOFF]
	adrp	x9, l_CPI0_7@PAGE
	ushl	v0.2s, v0.2s, v1.2s
	ldr	q1, [x9, l_CPI0_7@PAGEOFF]
	adrp	x9, l_CPI0_1@PAGE
	mov	v0.b[1], v0.b[4]
	tbl	v0.16b, { v0.16b }, v1.16b
	ldr	q1, [x9, l_CPI0_1@PAGEOFF]
	add	x9, sp, #3248
	cmtst	v0.16b, v0.16b, v1.16b
	str	q0, [x9, x8, lsl #4]
	add	x8, x8, #1
	cmp	x8, #120
	b.ne	LBB0_274
// %bb.275:                             // %"aes_soft::soft::full::widening::store_widened::<#ac91400744c51dd4>.exit.i.i70.i.i.i.i.i"
	add	x0, sp, #3248
	add	x2, sp, #2224
	and	x3, x22, #0xfffffffffffffff8
	mov	w1, #120                        // =0x78
	bl	"aes_soft::soft::blocks::slices::process_batches_outlined::<#6c9505ca656cc68d>"
	add	x0, sp, #3248
	bl	"aes_cipher::zeroize::elements::zeroize_elements::<#c76276a60742133e>"
LBB0_276:                              // %"aes_kat::keys::encrypt_sized::<#7eef6ffa698b135b>.exit.i.i.i.i.i"
	add	x8, sp, #2224
	add	x0, sp, #1, lsl #12             // =4096
	and	x3, x22, #0x7
	add	x2, x8, x20, lsl #4
	add	x0, x0, #1312
	mov	w1, #120                        // =0x78
	b	LBB0_287
LBB0_277:                              // %arm.3.i.i36.i.i.i
	add	x0, sp, #3248
	orr	x1, x8, #0x1
	str	q0, [sp, #3472]
	str	q0, [sp, #3456]
	str	q0, [sp, #3440]
	str	q0, [sp, #3424]
	str	q0, [sp, #3408]
	str	q0, [sp, #3392]
	str	q0, [sp, #3376]
	str	q0, [sp, #3360]
	str	q0, [sp, #3344]
	str	q0, [sp, #3328]
	str	q0, [sp, #3312]
	str	q0, [sp, #3296]
	str	q0, [sp, #3280]
	str	q0, [sp, #3264]
	bl	"aes::fixsliced::FixslicedCountsLayers::expand_counted::<#7eef6ffa698b135b>"
	ldr	q0, [sp, #3440]
	ldr	q1, [sp, #3456]
	add	x0, sp, #3248
	ldr	q2, [sp, #3472]
	mov	w1, wzr
	mov	w2, #1920                       // =0x780
	str	q0, [sp, #5600]
	ldr	q0, [sp, #3376]
	str	q1, [sp, #5616]
	ldr	q1, [sp, #3392]
	str	q0, [sp, #5536]
	ldr	q0, [sp, #3408]
	str	q2, [sp, #5632]
	ldr	q2, [sp, #3424]
	str	q0, [sp, #5568]
	ldr	q0, [sp, #3328]
	str	q1, [sp, #5552]
	ldr	q1, [sp, #3312]
	str	q0, [sp, #5488]
	ldr	q0, [sp, #3344]
	str	q2, [sp, #5584]
	ldr	q2, [sp, #3360]
	str	q0, [sp, #5504]
	ldr	q0, [sp, #3264]
	str	q1, [sp, #5472]
	ldr	q1, [sp, #3248]
	str	q2, [sp, #5520]
	ldr	q2, [sp, #3296]
	str	q0, [sp, #5424]
	ldr	q0, [sp, #3280]
	str	q1, [sp, #5408]
	str	q2, [sp, #5456]
	str	q0, [sp, #5440]
	bl	_memset
	cbz	x20, LBB0_281
// %bb.278:                             // %join.5.i.i.i.i48.i.i.i.i.i.preheader
	mov	x8, xzr
LBB0_279:                              // %join.5.i.i.i.i48.i.i.i.i.i
                                        // =>This Inner Loop Header: Depth=1
	add	x9, sp, #1, lsl #12             // =4096
	movi	d1, #0x00ffff0000ffff
	add	x9, x9, #1312
	ldrh	w9, [x9, x8, lsl #1]
	dup	v0.2s, w9
	adrp	x9, l_CPI0_1@PAGE
	and	v0.8b, v0.8b, v1.8b
	ldr	d1, [x21, l_CPI0_6@PAGEOFF]
	ushl	v0.2s, v0.2s, v1.2s
	ldr	q1, [x23, l_CPI0_7@PAGEOFF]
	mov	v0.b[1], v0.b[4]
	tbl	v0.16b, { v0.16b }, v1.16b
	ldr	q1, [x9, l_CPI0_1@PAGEOFF]
	add	x9, sp, #3248
	cmtst	v0.16b, v0.16b, v1.16b
	str	q0, [x9, x8, lsl #4]
	add	x8, x8, #1
	cmp	x8, #120
	b.ne	LBB0_279
// %bb.280:                             // %"aes_soft::soft::full::widening::store_widened::<#ac91400744c51dd4>.exit.i.i.i79.i.i.i.i.i"
	add	x0, sp, #3248
	add	x2, sp, #2224
	and	x3, x22, #0xfffffffffffffff8
	mov	w1, #120                        // =0x78
	bl	"aes_soft::soft::blocks::slices::process_batches_outlined::<#7a29a06501f6c419>"
	add	x0, sp, #3248
	bl	"aes_cipher::zeroize::elements::zeroize_elements::<#c76276a60742133e>"
LBB0_281:                              // %"aes_kat::keys::decrypt_sized::<#7eef6ffa698b135b>.exit.i.i.i.i.i"
	add	x8, sp, #2224
	add	x0, sp, #1, lsl #12             // =4096
	and	x3, x22, #0x7
	add	x2, x8, x20, lsl #4
	add	x0, x0, #1312
	mov	w1, #120                        // =0x78
	b	LBB0_295
LBB0_282:                              // %arm.1.i6.i.i.i.i
	add	x0, sp, #3248
	orr	x1, x8, #0x1
	str	q0, [sp, #3472]
	str	q0, [sp, #3456]
	str	q0, [sp, #3440]
	str	q0, [sp, #3424]
	str	q0, [sp, #3408]
	str	q0, [sp, #3392]
	str	q0, [sp, #3376]
	str	q0, [sp, #3360]
	str	q0, [sp, #3344]
	str	q0, [sp, #3328]
	str	q0, [sp, #3312]
	str	q0, [sp, #3296]
	str	q0, [sp, #3280]
	str	q0, [sp, #3264]
	bl	"aes::fixsliced::FixslicedCountsLayers::expand_counted::<#952d88c9917220e5>"
	ldr	q0, [sp, #3440]
	ldr	q1, [sp, #3456]
	add	x0, sp, #3248
	ldr	q2, [sp, #3472]
	mov	w1, wzr
	mov	w2, #1920                       // =0x780
	str	q0, [sp, #5600]
	ldr	q0, [sp, #3376]
	str	q1, [sp, #5616]
	ldr	q1, [sp, #3392]
	str	q0, [sp, #5536]
	ldr	q0, [sp, #3408]
	str	q2, [sp, #5632]
	ldr	q2, [sp, #3424]
	str	q0, [sp, #5568]
	ldr	q0, [sp, #3328]
	str	q1, [sp, #5552]
	ldr	q1, [sp, #3312]
	str	q0, [sp, #5488]
	ldr	q0, [sp, #3344]
	str	q2, [sp, #5584]
	ldr	q2, [sp, #3360]
	str	q0, [sp, #5504]
	ldr	q0, [sp, #3264]
	str	q1, [sp, #5472]
	ldr	q1, [sp, #3248]
	str	q2, [sp, #5520]
	ldr	q2, [sp, #3296]
	str	q0, [sp, #5424]
	ldr	q0, [sp, #3280]
	str	q1, [sp, #5408]
	str	q2, [sp, #5456]
	str	q0, [sp, #5440]
	bl	_memset
	cbz	x20, LBB0_286
// %bb.283:                             // %join.5.i.i.i.i.i.i.i.i.preheader
	mov	x8, xzr
LBB0_284:                              // %join.5.i.i.i.i.i.i.i.i
                                        // =>This Inner Loop Header: Depth=1
	add	x9, sp, #1, lsl #12             // =4096
	movi	d1, #0x00ffff0000ffff
	add	x9, x9, #1312
	ldrh	w9, [x9, x8, lsl #1]
	dup	v0.2s, w9
	adrp	x9, l_CPI0_6@PAGE
	and	v0.8b, v0.8b, v1.8b
	ldr	d1, [x9, l_CPI0_6@PAGEOFF]
	adrp	x9, l_CPI0_7@PAGE
	ushl	v0.2s, v0.2s, v1.2s
	ldr	q1, [x9, l_CPI0_7@PAGEOFF]
	adrp	x9, l_CPI0_1@PAGE
	mov	v0.b[1], v0.b[4]
	tbl	v0.16b, { v0.16b }, v1.16b
	ldr	q1, [x9, l_CPI0_1@PAGEOFF]
	add	x9, sp, #3248
	cmtst	v0.16b, v0.16b, v1.16b
	str	q0, [x9, x8, lsl #4]
	add	x8, x8, #1
	cmp	x8, #88
	b.ne	LBB0_284
// %bb.285:                             // %"aes_soft::soft::full::widening::store_widened::<#ac91400744c51dd4>.exit.i.i.i.i.i.i.i"
	add	x0, sp, #3248
	add	x2, sp, #2224
	and	x3, x22, #0xfffffffffffffff8
	mov	w1, #88                         // =0x58
	bl	"aes_soft::soft::blocks::slices::process_batches_outlined::<#6c9505ca656cc68d>"
	add	x0, sp, #3248
	bl	"aes_cipher::zeroize::elements::zeroize_elements::<#c76276a60742133e>"
LBB0_286:                              // %"aes_kat::keys::encrypt_sized::<#952d88c9917220e5>.exit.i.i.i.i.i"
	add	x8, sp, #2224
	add	x0, sp, #1, lsl #12             // =4096
	and	x3, x22, #0x7
	add	x2, x8, x20, lsl #4
	add	x0, x0, #1312
	mov	w1, #88                         // =0x58
LBB0_287:                              // %"aes_kat::keys::Key::encrypt.exit.i.i.i.i"
	bl	"aes_soft::soft::blocks::slices::process_batches_outlined::<#c44f11ce38a8a6aa>"
	bl	"aes_cipher::zeroize::stack::wipe_stack::<=1024>"
	ldr	q0, [sp, #5600]
	ldr	q1, [sp, #5616]
	add	x0, sp, #3248
	ldr	q2, [sp, #5632]
	str	q0, [sp, #3440]
	ldr	q0, [sp, #5536]
	str	q1, [sp, #3456]
	ldr	q1, [sp, #5552]
	str	q0, [sp, #3376]
	ldr	q0, [sp, #5568]
	str	q2, [sp, #3472]
	ldr	q2, [sp, #5584]
	str	q0, [sp, #3408]
	ldr	q0, [sp, #5488]
	str	q1, [sp, #3392]
	ldr	q1, [sp, #5472]
	str	q0, [sp, #3328]
	ldr	q0, [sp, #5504]
	str	q2, [sp, #3424]
	ldr	q2, [sp, #5520]
	str	q0, [sp, #3344]
	ldr	q0, [sp, #5424]
	str	q1, [sp, #3312]
	ldr	q1, [sp, #5408]
	str	q2, [sp, #3360]
	ldr	q2, [sp, #5456]
	str	q0, [sp, #3264]
	ldr	q0, [sp, #5440]
	str	q1, [sp, #3248]
	str	q2, [sp, #3296]
	str	q0, [sp, #3280]
	bl	"aes_cipher::zeroize::elements::zeroize_elements::<#1271021761a49af4>"
	cbz	x22, LBB0_299
// %bb.288:                             // %join.6.i.i.i48.i.i.preheader
	mov	x21, xzr
	add	x20, sp, #2224
LBB0_289:                              // %join.6.i.i.i48.i.i
                                        // =>This Inner Loop Header: Depth=1
	add	x2, sp, #48
	mov	x0, x20
	mov	x1, x21
	bl	"aes_kat::digits::write_block"
	mov	x21, x0
	subs	x22, x22, #1
	add	x20, x20, #16
	b.ne	LBB0_289
	b	LBB0_298
LBB0_290:                              // %arm.1.i6.i51.i.i.i
	add	x0, sp, #3248
	orr	x1, x8, #0x1
	str	q0, [sp, #3472]
	str	q0, [sp, #3456]
	str	q0, [sp, #3440]
	str	q0, [sp, #3424]
	str	q0, [sp, #3408]
	str	q0, [sp, #3392]
	str	q0, [sp, #3376]
	str	q0, [sp, #3360]
	str	q0, [sp, #3344]
	str	q0, [sp, #3328]
	str	q0, [sp, #3312]
	str	q0, [sp, #3296]
	str	q0, [sp, #3280]
	str	q0, [sp, #3264]
	bl	"aes::fixsliced::FixslicedCountsLayers::expand_counted::<#952d88c9917220e5>"
	ldr	q0, [sp, #3440]
	ldr	q1, [sp, #3456]
	add	x0, sp, #3248
	ldr	q2, [sp, #3472]
	mov	w1, wzr
	mov	w2, #1920                       // =0x780
	str	q0, [sp, #5600]
	ldr	q0, [sp, #3376]
	str	q1, [sp, #5616]
	ldr	q1, [sp, #3392]
	str	q0, [sp, #5536]
	ldr	q0, [sp, #3408]
	str	q2, [sp, #5632]
	ldr	q2, [sp, #3424]
	str	q0, [sp, #5568]
	ldr	q0, [sp, #3328]
	str	q1, [sp, #5552]
	ldr	q1, [sp, #3312]
	str	q0, [sp, #5488]
	ldr	q0, [sp, #3344]
	str	q2, [sp, #5584]
	ldr	q2, [sp, #3360]
	str	q0, [sp, #5504]
	ldr	q0, [sp, #3264]
	str	q1, [sp, #5472]
	ldr	q1, [sp, #3248]
	str	q2, [sp, #5520]
	ldr	q2, [sp, #3296]
	str	q0, [sp, #5424]
	ldr	q0, [sp, #3280]
	str	q1, [sp, #5408]
	str	q2, [sp, #5456]
	str	q0, [sp, #5440]
	bl	_memset
	cbz	x20, LBB0_294
// %bb.291:                             // %join.5.i.i.i.i.i.i.i.i.i.preheader
	mov	x8, xzr
LBB0_292:                              // %join.5.i.i.i.i.i.i.i.i.i
                                        // =>This Inner Loop Header: Depth=1
	add	x9, sp, #1, lsl #12             // =4096
	movi	d1, #0x00ffff0000ffff
	add	x9, x9, #1312
	ldrh	w9, [x9, x8, lsl #1]
	dup	v0.2s, w9
	adrp	x9, l_CPI0_1@PAGE
	and	v0.8b, v0.8b, v1.8b
	ldr	d1, [x21, l_CPI0_6@PAGEOFF]
	ushl	v0.2s, v0.2s, v1.2s
	ldr	q1, [x23, l_CPI0_7@PAGEOFF]
	mov	v0.b[1], v0.b[4]
	tbl	v0.16b, { v0.16b }, v1.16b
	ldr	q1, [x9, l_CPI0_1@PAGEOFF]
	add	x9, sp, #3248
	cmtst	v0.16b, v0.16b, v1.16b
	str	q0, [x9, x8, lsl #4]
	add	x8, x8, #1
	cmp	x8, #88
	b.ne	LBB0_292
// %bb.293:                             // %"aes_soft::soft::full::widening::store_widened::<#ac91400744c51dd4>.exit.i.i.i.i.i.i.i.i"
	add	x0, sp, #3248
	add	x2, sp, #2224
	and	x3, x22, #0xfffffffffffffff8
	mov	w1, #88                         // =0x58
	bl	"aes_soft::soft::blocks::slices::process_batches_outlined::<#7a29a06501f6c419>"
	add	x0, sp, #3248
	bl	"aes_cipher::zeroize::elements::zeroize_elements::<#c76276a60742133e>"
LBB0_294:                              // %"aes_kat::keys::decrypt_sized::<#952d88c9917220e5>.exit.i.i.i.i.i"
	add	x8, sp, #2224
	add	x0, sp, #1, lsl #12             // =4096
	and	x3, x22, #0x7
	add	x2, x8, x20, lsl #4
	add	x0, x0, #1312
	mov	w1, #88                         // =0x58
LBB0_295:                              // %"aes_kat::keys::Key::decrypt.exit.i.i.i.i"
	bl	"aes_soft::soft::blocks::slices::process_batches_outlined::<#271f1d06ba461252>"
	bl	"aes_cipher::zeroize::stack::wipe_stack::<=1024>"
	ldr	q0, [sp, #5600]
	ldr	q1, [sp, #5616]
	add	x0, sp, #3248
	ldr	q2, [sp, #5632]
	str	q0, [sp, #3440]
	ldr	q0, [sp, #5536]
	str	q1, [sp, #3456]
	ldr	q1, [sp, #5552]
	str	q0, [sp, #3376]
	ldr	q0, [sp, #5568]
	str	q2, [sp, #3472]
	ldr	q2, [sp, #5584]
	str	q0, [sp, #3408]
	ldr	q0, [sp, #5488]
	str	q1, [sp, #3392]
	ldr	q1, [sp, #5472]
	str	q0, [sp, #3328]
	ldr	q0, [sp, #5504]
	str	q2, [sp, #3424]
	ldr	q2, [sp, #5520]
	str	q0, [sp, #3344]
	ldr	q0, [sp, #5424]
	str	q1, [sp, #3312]
	ldr	q1, [sp, #5408]
	str	q2, [sp, #3360]
	ldr	q2, [sp, #5456]
	str	q0, [sp, #3264]
	ldr	q0, [sp, #5440]
	str	q1, [sp, #3248]
	str	q2, [sp, #3296]
	str	q0, [sp, #3280]
	bl	"aes_cipher::zeroize::elements::zeroize_elements::<#1271021761a49af4>"
	cbz	x22, LBB0_299
// %bb.296:                             // %join.6.i.i38.i.i.i.preheader
	mov	x21, xzr
	add	x20, sp, #2224
LBB0_297:                              // %join.6.i.i38.i.i.i
                                        // =>This Inner Loop Header: Depth=1
	add	x2, sp, #48
	mov	x0, x20
	mov	x1, x21
	bl	"aes_kat::digits::write_block"
	mov	x21, x0
	subs	x22, x22, #1
	add	x20, x20, #16
	b.ne	LBB0_297
LBB0_298:
	mov	w8, wzr
	mov	w28, wzr
	b	LBB0_181
LBB0_299:
	mov	w8, wzr
	mov	w28, wzr
	mov	x21, xzr
	b	LBB0_181
LBB0_300:                              // %arm.2.i.i.i.i.i.i
	brk	#0x1
                                        // -- End function
	.section	__TEXT,__const
	.p2align	4, 0x0                          // -- Begin function core::cmp::slices::groups_equal::<i8,31'core::cmp::numbers::U8PartialEq{}>
l_CPI1_0:
	.byte	1                               // 0x1
	.byte	2                               // 0x2
	.byte	4                               // 0x4
	.byte	8                               // 0x8
	.byte	16                              // 0x10
	.byte	32                              // 0x20
	.byte	64                              // 0x40
	.byte	128                             // 0x80
	.byte	1                               // 0x1
	.byte	2                               // 0x2
	.byte	4                               // 0x4
	.byte	8                               // 0x8
	.byte	16                              // 0x10
	.byte	32                              // 0x20
	.byte	64                              // 0x40
	.byte	128                             // 0x80
	.section	__TEXT,__text,regular,pure_instructions
	.p2align	2
"core::cmp::slices::groups_equal::<i8,31'core::cmp::numbers::U8PartialEq{}>": // @"core::cmp::slices::groups_equal::<i8,31'core::cmp::numbers::U8PartialEq{}>"
// %bb.0:                               // %start
	subs	x9, x1, #8
	b.hi	LBB1_2
// %bb.1:                               // %join.5.i.i.preheader
	sub	x8, x1, #4
	ldr	s0, [x0]
	ldr	s1, [x2]
	add	x9, x0, x8
	add	x8, x2, x8
	ld1	{ v0.s }[1], [x9]
	ld1	{ v1.s }[1], [x8]
	fmov	x8, d0
	fmov	x9, d1
	cmp	x8, x9
	cset	w8, ne
	eor	w0, w8, #0x1
	ret
LBB1_2:                                // %join.12.i
	subs	x8, x1, #32
	b.hi	LBB1_4
// %bb.3:                               // %then.13.i
	cmp	x9, #8
	mov	w8, #8                          // =0x8
	mov	w10, #16                        // =0x10
	csel	x8, x9, x8, lo
	cmp	x9, #16
	ldr	d0, [x0]
	ldr	d1, [x2]
	ldr	d2, [x0, x8]
	ldr	d3, [x2, x8]
	csel	x8, x9, x10, lo
	ldr	d5, [x2, x9]
	ldr	d4, [x0, x8]
	mov	v0.d[1], v2.d[0]
	mov	v1.d[1], v3.d[0]
	ldr	d2, [x2, x8]
	ldr	d3, [x0, x9]
	mov	v4.d[1], v3.d[0]
	mov	v2.d[1], v5.d[0]
	cmeq	v0.16b, v0.16b, v1.16b
	cmeq	v1.16b, v4.16b, v2.16b
	b	LBB1_17
LBB1_4:                                // %join.15.i
	cmp	x1, #65
	b.hs	LBB1_6
// %bb.5:                               // %join.5.i.i14.preheader
	ldp	q1, q0, [x0]
	add	x9, x2, x8
	ldp	q3, q2, [x2]
	add	x8, x0, x8
	ldp	q4, q5, [x9]
	cmeq	v1.16b, v1.16b, v3.16b
	cmeq	v0.16b, v0.16b, v2.16b
	ldp	q2, q3, [x8]
	mvn	v1.16b, v1.16b
	mvn	v0.16b, v0.16b
	cmeq	v2.16b, v2.16b, v4.16b
	cmeq	v3.16b, v3.16b, v5.16b
	orn	v0.16b, v0.16b, v3.16b
	orn	v1.16b, v1.16b, v2.16b
	orr	v0.16b, v1.16b, v0.16b
	umaxv	b0, v0.16b
	fmov	w8, s0
	and	w8, w8, #0x1
	eor	w0, w8, #0x1
	ret
LBB1_6:                                // %join.5.i.preheader.i.preheader
	and	x9, x1, #0xffffffffffffffc0
	add	x10, x0, #32
	add	x12, x2, #32
	mov	w11, #32                        // =0x20
	mov	x13, x1
LBB1_7:                                // %vector.ph
                                        // =>This Inner Loop Header: Depth=1
	ldp	q0, q3, [x12, #-32]
	ldp	q1, q2, [x10, #-32]
	ldp	q4, q5, [x12], #64
	cmeq	v0.16b, v1.16b, v0.16b
	cmeq	v1.16b, v2.16b, v3.16b
	ldp	q2, q3, [x10], #64
	mvn	v0.16b, v0.16b
	mvn	v1.16b, v1.16b
	cmeq	v2.16b, v2.16b, v4.16b
	cmeq	v3.16b, v3.16b, v5.16b
	orn	v0.16b, v0.16b, v2.16b
	orn	v1.16b, v1.16b, v3.16b
	orr	v0.16b, v1.16b, v0.16b
	umaxv	b0, v0.16b
	fmov	w14, s0
	tbnz	w14, #0, LBB1_10
// %bb.8:                               // %join.5.i
                                        //   in Loop: Header=BB1_7 Depth=1
	sub	x13, x13, #64
	add	x11, x11, #64
	cmp	x13, #64
	b.hs	LBB1_7
// %bb.9:                               // %"core::slice::scan::skip_groups::<#953750c03e87c3e2>.exit"
	sub	x10, x1, x9
	cmp	x10, #32
	b.hs	LBB1_11
	b	LBB1_16
LBB1_10:                               // %"vector.ph.core::slice::scan::skip_groups::<#953750c03e87c3e2>.exit_crit_edge"
	sub	x9, x11, #32
	sub	x10, x1, x9
	cmp	x10, #32
	b.lo	LBB1_16
LBB1_11:                               // %join.5.i.preheader.i55.preheader
	add	x11, x0, x9
	add	x9, x2, x9
LBB1_12:                               // %join.5.i.preheader.i55
                                        // =>This Inner Loop Header: Depth=1
	ldp	q0, q1, [x11], #32
	ldp	q2, q3, [x9], #32
	adrp	x12, l_CPI1_0@PAGE
	cmeq	v1.16b, v1.16b, v3.16b
	cmeq	v0.16b, v0.16b, v2.16b
	ldr	q2, [x12, l_CPI1_0@PAGEOFF]
	bic	v1.16b, v2.16b, v1.16b
	bic	v0.16b, v2.16b, v0.16b
	ext	v2.16b, v1.16b, v1.16b, #8
	ext	v3.16b, v0.16b, v0.16b, #8
	zip1	v1.16b, v1.16b, v2.16b
	zip1	v0.16b, v0.16b, v3.16b
	addv	h1, v1.8h
	addv	h0, v0.8h
	fmov	w12, s1
	fmov	w13, s0
	orr	w12, w13, w12
	tst	w12, #0xffff
	b.ne	LBB1_14
// %bb.13:                              // %join.5.i70
                                        //   in Loop: Header=BB1_12 Depth=1
	sub	x10, x10, #32
	cmp	x10, #32
	b.hs	LBB1_12
	b	LBB1_16
LBB1_14:                               // %"core::slice::scan::skip_groups::<#953750c03e87c3e2>.exit75"
	cmp	x10, #31
	b.ls	LBB1_16
// %bb.15:
	mov	w8, #1                          // =0x1
	eor	w0, w8, #0x1
	ret
LBB1_16:                               // %join.21.i
	add	x9, x0, x8
	add	x8, x2, x8
	ldp	q0, q3, [x8]
	ldp	q1, q2, [x9]
	cmeq	v0.16b, v1.16b, v0.16b
	cmeq	v1.16b, v2.16b, v3.16b
LBB1_17:                               // %"core::slice::scan::any_by_groups::<#953750c03e87c3e2>.exit"
	mvn	v0.16b, v0.16b
	orn	v0.16b, v0.16b, v1.16b
	umaxv	b0, v0.16b
	fmov	w8, s0
	and	w8, w8, #0x1
	eor	w0, w8, #0x1
	ret
                                        // -- End function
	.section	__TEXT,__text,regular,pure_instructions
	.p2align	2                               // -- Begin function aes_kat::operands::key_operand
"aes_kat::operands::key_operand":       // @"aes_kat::operands::key_operand"
// %bb.0:                               // %start
	sub	sp, sp, #208
	cmp	x2, #64
	stp	xzr, xzr, [sp, #144]
	str	xzr, [sp, #160]
	str	xzr, [sp, #112]
	b.eq	LBB2_35
// %bb.1:                               // %start
	cmp	x2, #48
	b.eq	LBB2_19
// %bb.2:                               // %start
	cmp	x2, #32
	b.ne	LBB2_51
// %bb.3:                               // %arm.1
	mov	x8, xzr
	add	x9, x1, #1
	stp	xzr, xzr, [sp, #176]
	b	LBB2_6
LBB2_4:                                // %then.12.i27.i.i.i.i
                                        //   in Loop: Header=BB2_6 Depth=1
	sub	w12, w11, #55
LBB2_5:                                // %arm.12.i.i.i
                                        //   in Loop: Header=BB2_6 Depth=1
	add	w10, w12, w10, lsl #4
	add	x11, sp, #176
	add	x9, x9, #2
	strb	w10, [x11, x8]
	add	x8, x8, #1
	cmp	x8, #16
	b.eq	LBB2_54
LBB2_6:                                // %join.11.i.i.i
                                        // =>This Inner Loop Header: Depth=1
	ldurb	w12, [x9, #-1]
	subs	w10, w12, #48
	b.lo	LBB2_57
// %bb.7:                               // %join.5.i.i.i.i.i
                                        //   in Loop: Header=BB2_6 Depth=1
	ldrb	w11, [x9]
	cmp	w12, #57
	b.ls	LBB2_13
// %bb.8:                               // %join.8.i.i.i.i.i
                                        //   in Loop: Header=BB2_6 Depth=1
	cmp	w12, #65
	b.lo	LBB2_57
// %bb.9:                               // %join.11.i.i.i.i.i
                                        //   in Loop: Header=BB2_6 Depth=1
	cmp	w12, #70
	b.hi	LBB2_11
// %bb.10:                              // %then.12.i.i.i.i.i
                                        //   in Loop: Header=BB2_6 Depth=1
	sub	w10, w12, #55
	b	LBB2_13
LBB2_11:                               // %join.14.i.i.i.i.i
                                        //   in Loop: Header=BB2_6 Depth=1
	sub	w10, w12, #97
	cmp	w10, #5
	b.hi	LBB2_57
// %bb.12:                              // %then.18.i.i.i.i.i
                                        //   in Loop: Header=BB2_6 Depth=1
	sub	w10, w12, #87
LBB2_13:                               // %arm.1.i.i.i.i
                                        //   in Loop: Header=BB2_6 Depth=1
	subs	w12, w11, #48
	b.lo	LBB2_57
// %bb.14:                              // %join.5.i7.i.i.i.i
                                        //   in Loop: Header=BB2_6 Depth=1
	cmp	w11, #57
	b.ls	LBB2_5
// %bb.15:                              // %join.8.i9.i.i.i.i
                                        //   in Loop: Header=BB2_6 Depth=1
	cmp	w11, #65
	b.lo	LBB2_57
// %bb.16:                              // %join.11.i11.i.i.i.i
                                        //   in Loop: Header=BB2_6 Depth=1
	cmp	w11, #70
	b.ls	LBB2_4
// %bb.17:                              // %join.14.i13.i.i.i.i
                                        //   in Loop: Header=BB2_6 Depth=1
	sub	w12, w11, #97
	cmp	w12, #5
	b.hi	LBB2_57
// %bb.18:                              // %then.18.i25.i.i.i.i
                                        //   in Loop: Header=BB2_6 Depth=1
	sub	w12, w11, #87
	b	LBB2_5
LBB2_19:                               // %arm.2
	mov	x8, xzr
	add	x9, x1, #1
	stp	xzr, xzr, [sp, #176]
	str	xzr, [sp, #192]
	b	LBB2_22
LBB2_20:                               // %then.12.i27.i.i.i.i44
                                        //   in Loop: Header=BB2_22 Depth=1
	sub	w12, w11, #55
LBB2_21:                               // %arm.12.i.i.i37
                                        //   in Loop: Header=BB2_22 Depth=1
	add	w10, w12, w10, lsl #4
	add	x11, sp, #176
	add	x9, x9, #2
	strb	w10, [x11, x8]
	add	x8, x8, #1
	cmp	x8, #24
	b.eq	LBB2_52
LBB2_22:                               // %join.11.i.i.i5
                                        // =>This Inner Loop Header: Depth=1
	ldurb	w12, [x9, #-1]
	subs	w10, w12, #48
	b.lo	LBB2_57
// %bb.23:                              // %join.5.i.i.i.i.i13
                                        //   in Loop: Header=BB2_22 Depth=1
	ldrb	w11, [x9]
	cmp	w12, #57
	b.ls	LBB2_29
// %bb.24:                              // %join.8.i.i.i.i.i15
                                        //   in Loop: Header=BB2_22 Depth=1
	cmp	w12, #65
	b.lo	LBB2_57
// %bb.25:                              // %join.11.i.i.i.i.i17
                                        //   in Loop: Header=BB2_22 Depth=1
	cmp	w12, #70
	b.hi	LBB2_27
// %bb.26:                              // %then.12.i.i.i.i.i48
                                        //   in Loop: Header=BB2_22 Depth=1
	sub	w10, w12, #55
	b	LBB2_29
LBB2_27:                               // %join.14.i.i.i.i.i19
                                        //   in Loop: Header=BB2_22 Depth=1
	sub	w10, w12, #97
	cmp	w10, #5
	b.hi	LBB2_57
// %bb.28:                              // %then.18.i.i.i.i.i22
                                        //   in Loop: Header=BB2_22 Depth=1
	sub	w10, w12, #87
LBB2_29:                               // %arm.1.i.i.i.i24
                                        //   in Loop: Header=BB2_22 Depth=1
	subs	w12, w11, #48
	b.lo	LBB2_57
// %bb.30:                              // %join.5.i7.i.i.i.i27
                                        //   in Loop: Header=BB2_22 Depth=1
	cmp	w11, #57
	b.ls	LBB2_21
// %bb.31:                              // %join.8.i9.i.i.i.i29
                                        //   in Loop: Header=BB2_22 Depth=1
	cmp	w11, #65
	b.lo	LBB2_57
// %bb.32:                              // %join.11.i11.i.i.i.i31
                                        //   in Loop: Header=BB2_22 Depth=1
	cmp	w11, #70
	b.ls	LBB2_20
// %bb.33:                              // %join.14.i13.i.i.i.i33
                                        //   in Loop: Header=BB2_22 Depth=1
	sub	w12, w11, #97
	cmp	w12, #5
	b.hi	LBB2_57
// %bb.34:                              // %then.18.i25.i.i.i.i35
                                        //   in Loop: Header=BB2_22 Depth=1
	sub	w12, w11, #87
	b	LBB2_21
LBB2_35:                               // %arm.3
	movi	v0.2d, #0000000000000000
	mov	x8, xzr
	add	x9, x1, #1
	stp	q0, q0, [sp, #176]
	b	LBB2_38
LBB2_36:                               // %then.12.i27.i.i.i.i92
                                        //   in Loop: Header=BB2_38 Depth=1
	sub	w12, w11, #55
LBB2_37:                               // %arm.12.i.i.i85
                                        //   in Loop: Header=BB2_38 Depth=1
	add	w10, w12, w10, lsl #4
	add	x11, sp, #176
	add	x9, x9, #2
	strb	w10, [x11, x8]
	add	x8, x8, #1
	cmp	x8, #32
	b.eq	LBB2_53
LBB2_38:                               // %join.11.i.i.i53
                                        // =>This Inner Loop Header: Depth=1
	ldurb	w12, [x9, #-1]
	subs	w10, w12, #48
	b.lo	LBB2_57
// %bb.39:                              // %join.5.i.i.i.i.i61
                                        //   in Loop: Header=BB2_38 Depth=1
	ldrb	w11, [x9]
	cmp	w12, #57
	b.ls	LBB2_45
// %bb.40:                              // %join.8.i.i.i.i.i63
                                        //   in Loop: Header=BB2_38 Depth=1
	cmp	w12, #65
	b.lo	LBB2_57
// %bb.41:                              // %join.11.i.i.i.i.i65
                                        //   in Loop: Header=BB2_38 Depth=1
	cmp	w12, #70
	b.hi	LBB2_43
// %bb.42:                              // %then.12.i.i.i.i.i96
                                        //   in Loop: Header=BB2_38 Depth=1
	sub	w10, w12, #55
	b	LBB2_45
LBB2_43:                               // %join.14.i.i.i.i.i67
                                        //   in Loop: Header=BB2_38 Depth=1
	sub	w10, w12, #97
	cmp	w10, #5
	b.hi	LBB2_57
// %bb.44:                              // %then.18.i.i.i.i.i70
                                        //   in Loop: Header=BB2_38 Depth=1
	sub	w10, w12, #87
LBB2_45:                               // %arm.1.i.i.i.i72
                                        //   in Loop: Header=BB2_38 Depth=1
	subs	w12, w11, #48
	b.lo	LBB2_57
// %bb.46:                              // %join.5.i7.i.i.i.i75
                                        //   in Loop: Header=BB2_38 Depth=1
	cmp	w11, #57
	b.ls	LBB2_37
// %bb.47:                              // %join.8.i9.i.i.i.i77
                                        //   in Loop: Header=BB2_38 Depth=1
	cmp	w11, #65
	b.lo	LBB2_57
// %bb.48:                              // %join.11.i11.i.i.i.i79
                                        //   in Loop: Header=BB2_38 Depth=1
	cmp	w11, #70
	b.ls	LBB2_36
// %bb.49:                              // %join.14.i13.i.i.i.i81
                                        //   in Loop: Header=BB2_38 Depth=1
	sub	w12, w11, #97
	cmp	w12, #5
	b.hi	LBB2_57
// %bb.50:                              // %then.18.i25.i.i.i.i83
                                        //   in Loop: Header=BB2_38 Depth=1
	sub	w12, w11, #87
	b	LBB2_37
LBB2_51:
	mov	x8, xzr
	mov	w10, #2                         // =0x2
	mov	w9, #1                          // =0x1
	b	LBB2_56
LBB2_52:                               // %"aes_kat::operands::bytes_of::<=24>.exit"
	ldr	q0, [sp, #176]
	ldr	x11, [sp, #192]
	mov	x8, xzr
	mov	w9, wzr
	mov	w10, #1                         // =0x1
	str	q0, [sp, #64]
	str	x11, [sp, #80]
	str	q0, [sp, #32]
	str	x11, [sp, #48]
	str	q0, [sp, #144]
	b	LBB2_55
LBB2_53:                               // %"aes_kat::operands::bytes_of::<=32>.exit"
	ldp	x11, x8, [sp, #192]
	mov	w9, wzr
	ldr	q0, [sp, #176]
	mov	w10, #2                         // =0x2
	str	q0, [sp]
	str	x11, [sp, #16]
	str	q0, [sp, #144]
	b	LBB2_55
LBB2_54:                               // %"aes_kat::operands::bytes_of::<=16>.exit"
	ldr	q0, [sp, #176]
	ldr	x11, [sp, #112]
	mov	x8, xzr
	mov	w9, wzr
	mov	w10, wzr
	stp	q0, q0, [sp, #128]
	str	q0, [sp, #96]
LBB2_55:                               // %join.5
	str	x11, [sp, #160]
LBB2_56:                               // %join.5
	strb	w9, [x0]
	ldr	q0, [sp, #144]
	ldr	x9, [sp, #160]
	strb	w10, [x0, #1]
	stur	q0, [x0, #2]
	stur	x9, [x0, #18]
	stur	x8, [x0, #26]
	add	sp, sp, #208
	ret
LBB2_57:                               // %arm.2.i.i
	brk	#0x1
                                        // -- End function
	.section	__TEXT,__text,regular,pure_instructions
	.p2align	2                               // -- Begin function aes_kat::operands::blocks_operand
"aes_kat::operands::blocks_operand":    // @"aes_kat::operands::blocks_operand"
// %bb.0:                               // %start
	stp	x29, x30, [sp, #-64]!           // 16-byte Folded Spill
	str	x28, [sp, #16]                  // 8-byte Spill
	mov	x29, sp
	stp	x22, x21, [sp, #32]             // 16-byte Folded Spill
	stp	x20, x19, [sp, #48]             // 16-byte Folded Spill
	sub	sp, sp, #1024
	mov	x21, x2
	mov	x22, x1
	mov	x19, x0
	mov	x0, sp
	mov	w1, wzr
	mov	w2, #1024                       // =0x400
	mov	x20, x3
	bl	_memset
	cmp	x21, #2049
	b.hi	LBB3_20
// %bb.1:                               // %start
	and	x8, x21, #0x1e
	cbnz	x8, LBB3_20
// %bb.2:                               // %after.1
	tbnz	w21, #0, LBB3_27
// %bb.3:                               // %loop.8.preheader.i.i
	lsr	x2, x21, #1
	cbz	x2, LBB3_21
// %bb.4:                               // %join.11.i.i.preheader
	add	x8, x22, #1
	mov	x9, sp
	mov	x10, x2
	b	LBB3_7
LBB3_5:                                // %then.12.i27.i.i.i
                                        //   in Loop: Header=BB3_7 Depth=1
	sub	w13, w12, #55
LBB3_6:                                // %arm.12.i.i
                                        //   in Loop: Header=BB3_7 Depth=1
	add	w11, w13, w11, lsl #4
	subs	x10, x10, #1
	add	x8, x8, #2
	strb	w11, [x9], #1
	b.eq	LBB3_21
LBB3_7:                                // %join.11.i.i
                                        // =>This Inner Loop Header: Depth=1
	ldurb	w13, [x8, #-1]
	subs	w11, w13, #48
	b.lo	LBB3_27
// %bb.8:                               // %join.5.i.i.i.i
                                        //   in Loop: Header=BB3_7 Depth=1
	ldrb	w12, [x8]
	cmp	w13, #57
	b.ls	LBB3_14
// %bb.9:                               // %join.8.i.i.i.i
                                        //   in Loop: Header=BB3_7 Depth=1
	cmp	w13, #65
	b.lo	LBB3_27
// %bb.10:                              // %join.11.i.i.i.i
                                        //   in Loop: Header=BB3_7 Depth=1
	cmp	w13, #70
	b.hi	LBB3_12
// %bb.11:                              // %then.12.i.i.i.i
                                        //   in Loop: Header=BB3_7 Depth=1
	sub	w11, w13, #55
	b	LBB3_14
LBB3_12:                               // %join.14.i.i.i.i
                                        //   in Loop: Header=BB3_7 Depth=1
	sub	w11, w13, #97
	cmp	w11, #5
	b.hi	LBB3_27
// %bb.13:                              // %then.18.i.i.i.i
                                        //   in Loop: Header=BB3_7 Depth=1
	sub	w11, w13, #87
LBB3_14:                               // %arm.1.i.i.i
                                        //   in Loop: Header=BB3_7 Depth=1
	subs	w13, w12, #48
	b.lo	LBB3_27
// %bb.15:                              // %join.5.i7.i.i.i
                                        //   in Loop: Header=BB3_7 Depth=1
	cmp	w12, #57
	b.ls	LBB3_6
// %bb.16:                              // %join.8.i9.i.i.i
                                        //   in Loop: Header=BB3_7 Depth=1
	cmp	w12, #65
	b.lo	LBB3_27
// %bb.17:                              // %join.11.i11.i.i.i
                                        //   in Loop: Header=BB3_7 Depth=1
	cmp	w12, #70
	b.ls	LBB3_5
// %bb.18:                              // %join.14.i13.i.i.i
                                        //   in Loop: Header=BB3_7 Depth=1
	sub	w13, w12, #97
	cmp	w13, #5
	b.hi	LBB3_27
// %bb.19:                              // %then.18.i25.i.i.i
                                        //   in Loop: Header=BB3_7 Depth=1
	sub	w13, w12, #87
	b	LBB3_6
LBB3_20:                               // %join.5
	mov	w8, #769                        // =0x301
	str	xzr, [x19, #8]
	strh	w8, [x19]
	add	sp, sp, #1024
	ldp	x20, x19, [sp, #48]             // 16-byte Folded Reload
	ldr	x28, [sp, #16]                  // 8-byte Reload
	ldp	x22, x21, [sp, #32]             // 16-byte Folded Reload
	ldp	x29, x30, [sp], #64             // 16-byte Folded Reload
	ret
LBB3_21:                               // %"core::result::Result::unwrap::<(),24'hex::error::FromHexError>.exit"
	mov	x8, sp
	lsr	x22, x21, #5
	sub	x8, x20, x8
	cmp	x8, x2
	b.hs	LBB3_25
// %bb.22:                              // %loop.4.preheader.i.i.i.i.i.i
	cbz	x21, LBB3_26
// %bb.23:                              // %join.7.i.i.i.i.i.i.preheader
	mov	x8, sp
	mov	x9, x22
LBB3_24:                               // %join.7.i.i.i.i.i.i
                                        // =>This Inner Loop Header: Depth=1
	ldr	q0, [x8], #16
	subs	x9, x9, #1
	str	q0, [x20], #16
	b.ne	LBB3_24
	b	LBB3_26
LBB3_25:                               // %apart.2.i.i.i.i.i.i
	mov	x1, sp
	mov	x0, x20
	bl	_memcpy
LBB3_26:                               // %"core::slice::edits::slice+T::copy_from_slice::<#151fd5924816ff66>.exit"
	strh	wzr, [x19]
	str	x22, [x19, #8]
	add	sp, sp, #1024
	ldp	x20, x19, [sp, #48]             // 16-byte Folded Reload
	ldr	x28, [sp, #16]                  // 8-byte Reload
	ldp	x22, x21, [sp, #32]             // 16-byte Folded Reload
	ldp	x29, x30, [sp], #64             // 16-byte Folded Reload
	ret
LBB3_27:                               // %arm.2.i
	brk	#0x1
                                        // -- End function
	.section	__TEXT,__const
	.p2align	4, 0x0                          // -- Begin function aes::fixsliced::FixslicedCountsLayers::expand_counted::<#952d88c9917220e5>
l_CPI4_0:
	.hword	65535                           // 0xffff
	.hword	65535                           // 0xffff
	.hword	0                               // 0x0
	.hword	0                               // 0x0
	.hword	0                               // 0x0
	.hword	65535                           // 0xffff
	.hword	65535                           // 0xffff
	.hword	0                               // 0x0
	.section	__TEXT,__text,regular,pure_instructions
	.p2align	2
"aes::fixsliced::FixslicedCountsLayers::expand_counted::<#952d88c9917220e5>": // @"aes::fixsliced::FixslicedCountsLayers::expand_counted::<#952d88c9917220e5>"
// %bb.0:                               // %start
	stp	x29, x30, [sp, #-32]!           // 16-byte Folded Spill
	mov	w2, #16                         // =0x10
	str	x19, [sp, #16]                  // 8-byte Spill
	mov	x29, sp
	mov	x19, x0
	bl	"aes_planes::expansion::expand::<#9aefd798925f8490>"
	ldp	q3, q0, [x19, #16]
	mov	w8, #4896                       // =0x1320
	ldp	q5, q2, [x19, #48]
	dup	v17.8h, w8
	ldp	q20, q6, [x19, #112]
	movi	v1.8h, #5
	ushr	v4.8h, v3.8h, #2
	mov	w8, #8976                       // =0x2310
	movi	v27.8h, #3
	ushr	v16.8h, v5.8h, #2
	dup	v21.8h, w8
	adrp	x8, l_CPI4_0@PAGE
	ushr	v24.8h, v20.8h, #2
	ldr	q28, [x8, l_CPI4_0@PAGEOFF]
	eor	v18.16b, v4.16b, v3.16b
	ldp	q7, q4, [x19, #80]
	eor	v22.16b, v16.16b, v5.16b
	ldp	q23, q16, [x19, #144]
	eor	v24.16b, v24.16b, v20.16b
	eor	v2.16b, v2.16b, v28.16b
	ushr	v19.8h, v7.8h, #2
	and	v18.16b, v18.16b, v17.16b
	ushr	v26.8h, v4.8h, #2
	ushr	v25.8h, v23.8h, #2
	and	v22.16b, v22.16b, v21.16b
	and	v21.16b, v24.16b, v21.16b
	movi	v24.16b, #48
	eor	v19.16b, v19.16b, v7.16b
	mul	v18.8h, v18.8h, v1.8h
	eor	v25.16b, v25.16b, v23.16b
	mul	v22.8h, v22.8h, v1.8h
	and	v19.16b, v19.16b, v17.16b
	eor	v3.16b, v18.16b, v3.16b
	and	v17.16b, v25.16b, v17.16b
	mul	v18.8h, v21.8h, v1.8h
	eor	v5.16b, v22.16b, v5.16b
	ushr	v22.8h, v0.8h, #2
	mul	v19.8h, v19.8h, v1.8h
	ushr	v21.8h, v3.8h, #1
	mul	v17.8h, v17.8h, v1.8h
	eor	v18.16b, v18.16b, v20.16b
	ushr	v25.8h, v5.8h, #1
	eor	v7.16b, v19.16b, v7.16b
	movi	v19.16b, #80
	eor	v20.16b, v21.16b, v3.16b
	eor	v21.16b, v22.16b, v0.16b
	eor	v17.16b, v17.16b, v23.16b
	eor	v23.16b, v25.16b, v5.16b
	eor	v25.16b, v26.16b, v4.16b
	ushr	v26.8h, v18.8h, #1
	eor	v3.16b, v3.16b, v28.16b
	ushr	v22.8h, v7.8h, #1
	eor	v0.16b, v0.16b, v28.16b
	eor	v5.16b, v5.16b, v28.16b
	and	v20.16b, v20.16b, v19.16b
	and	v21.16b, v21.16b, v24.16b
	ushr	v29.8h, v17.8h, #1
	and	v23.16b, v23.16b, v19.16b
	and	v24.16b, v25.16b, v24.16b
	eor	v25.16b, v26.16b, v18.16b
	eor	v22.16b, v22.16b, v7.16b
	eor	v7.16b, v7.16b, v28.16b
	eor	v4.16b, v4.16b, v28.16b
	mul	v20.8h, v20.8h, v27.8h
	mul	v21.8h, v21.8h, v1.8h
	eor	v26.16b, v29.16b, v17.16b
	mul	v23.8h, v23.8h, v27.8h
	and	v25.16b, v25.16b, v19.16b
	mul	v1.8h, v24.8h, v1.8h
	and	v22.16b, v22.16b, v19.16b
	and	v19.16b, v26.16b, v19.16b
	eor	v3.16b, v20.16b, v3.16b
	eor	v0.16b, v21.16b, v0.16b
	mul	v21.8h, v25.8h, v27.8h
	mul	v20.8h, v22.8h, v27.8h
	eor	v5.16b, v23.16b, v5.16b
	stp	q3, q0, [x19, #16]
	eor	v3.16b, v18.16b, v28.16b
	mul	v18.8h, v19.8h, v27.8h
	eor	v0.16b, v1.16b, v4.16b
	eor	v1.16b, v17.16b, v28.16b
	stp	q5, q2, [x19, #48]
	eor	v7.16b, v20.16b, v7.16b
	eor	v2.16b, v21.16b, v3.16b
	eor	v3.16b, v6.16b, v28.16b
	stp	q7, q0, [x19, #80]
	eor	v0.16b, v18.16b, v1.16b
	eor	v1.16b, v16.16b, v28.16b
	stp	q2, q3, [x19, #112]
	stp	q0, q1, [x19, #144]
	ldr	x19, [sp, #16]                  // 8-byte Reload
	ldp	x29, x30, [sp], #32             // 16-byte Folded Reload
	ret
                                        // -- End function
	.section	__TEXT,__const
	.p2align	4, 0x0                          // -- Begin function aes_planes::expansion::expand::<#9aefd798925f8490>
l_CPI5_0:
	.byte	0                               // 0x0
	.byte	4                               // 0x4
	.byte	16                              // 0x10
	.byte	20                              // 0x14
	.byte	1                               // 0x1
	.byte	5                               // 0x5
	.byte	17                              // 0x11
	.byte	21                              // 0x15
	.byte	2                               // 0x2
	.byte	6                               // 0x6
	.byte	18                              // 0x12
	.byte	22                              // 0x16
	.byte	3                               // 0x3
	.byte	7                               // 0x7
	.byte	19                              // 0x13
	.byte	23                              // 0x17
l_CPI5_1:
	.byte	1                               // 0x1
	.byte	2                               // 0x2
	.byte	4                               // 0x4
	.byte	8                               // 0x8
	.byte	16                              // 0x10
	.byte	32                              // 0x20
	.byte	64                              // 0x40
	.byte	128                             // 0x80
	.byte	1                               // 0x1
	.byte	2                               // 0x2
	.byte	4                               // 0x4
	.byte	8                               // 0x8
	.byte	16                              // 0x10
	.byte	32                              // 0x20
	.byte	64                              // 0x40
	.byte	128                             // 0x80
l_CPI5_2:
	.byte	0                               // 0x0
	.byte	4                               // 0x4
	.byte	8                               // 0x8
	.byte	12                              // 0xc
	.byte	1                               // 0x1
	.byte	5                               // 0x5
	.byte	9                               // 0x9
	.byte	13                              // 0xd
	.byte	2                               // 0x2
	.byte	6                               // 0x6
	.byte	10                              // 0xa
	.byte	14                              // 0xe
	.byte	3                               // 0x3
	.byte	7                               // 0x7
	.byte	11                              // 0xb
	.byte	15                              // 0xf
l_CPI5_3:
	.byte	254                             // 0xfe
	.byte	255                             // 0xff
	.byte	254                             // 0xfe
	.byte	255                             // 0xff
	.byte	254                             // 0xfe
	.byte	255                             // 0xff
	.byte	254                             // 0xfe
	.byte	255                             // 0xff
	.byte	254                             // 0xfe
	.byte	255                             // 0xff
	.byte	254                             // 0xfe
	.byte	255                             // 0xff
	.byte	0                               // 0x0
	.byte	1                               // 0x1
	.byte	16                              // 0x10
	.byte	17                              // 0x11
l_CPI5_4:
	.byte	254                             // 0xfe
	.byte	255                             // 0xff
	.byte	254                             // 0xfe
	.byte	255                             // 0xff
	.byte	254                             // 0xfe
	.byte	255                             // 0xff
	.byte	254                             // 0xfe
	.byte	255                             // 0xff
	.byte	0                               // 0x0
	.byte	1                               // 0x1
	.byte	16                              // 0x10
	.byte	17                              // 0x11
	.byte	254                             // 0xfe
	.byte	255                             // 0xff
	.byte	254                             // 0xfe
	.byte	255                             // 0xff
l_CPI5_5:
	.byte	254                             // 0xfe
	.byte	255                             // 0xff
	.byte	254                             // 0xfe
	.byte	255                             // 0xff
	.byte	0                               // 0x0
	.byte	1                               // 0x1
	.byte	16                              // 0x10
	.byte	17                              // 0x11
	.byte	254                             // 0xfe
	.byte	255                             // 0xff
	.byte	254                             // 0xfe
	.byte	255                             // 0xff
	.byte	254                             // 0xfe
	.byte	255                             // 0xff
	.byte	254                             // 0xfe
	.byte	255                             // 0xff
	.section	__TEXT,__text,regular,pure_instructions
	.p2align	2
"aes_planes::expansion::expand::<#9aefd798925f8490>": // @"aes_planes::expansion::expand::<#9aefd798925f8490>"
// %bb.0:                               // %start
	sub	sp, sp, #128
	adrp	x8, l_CPI5_0@PAGE
	ldp	d18, d19, [x1]
	ldr	q21, [x8, l_CPI5_0@PAGEOFF]
	movi	v3.16b, #1
	movi	v2.16b, #2
	movi	v24.16b, #4
	movi	v25.16b, #8
	movi	v26.16b, #16
	tbl	v1.16b, { v18.16b, v19.16b }, v21.16b
	movi	v22.16b, #32
	movi	v27.16b, #64
	adrp	x8, l_CPI5_1@PAGE
	cmp	x2, #24
	str	x30, [sp, #32]                  // 8-byte Spill
	ldr	q0, [x8, l_CPI5_1@PAGEOFF]
	stp	x28, x27, [sp, #48]             // 16-byte Folded Spill
	stp	x26, x25, [sp, #64]             // 16-byte Folded Spill
	and	v4.16b, v1.16b, v3.16b
	and	v5.16b, v1.16b, v2.16b
	and	v6.16b, v1.16b, v24.16b
	and	v7.16b, v1.16b, v25.16b
	and	v16.16b, v1.16b, v26.16b
	and	v17.16b, v1.16b, v22.16b
	and	v23.16b, v1.16b, v27.16b
	cmlt	v1.16b, v1.16b, #0
	stp	x24, x23, [sp, #80]             // 16-byte Folded Spill
	cmeq	v4.16b, v4.16b, #0
	cmeq	v5.16b, v5.16b, #0
	cmeq	v6.16b, v6.16b, #0
	cmeq	v7.16b, v7.16b, #0
	cmeq	v16.16b, v16.16b, #0
	cmeq	v17.16b, v17.16b, #0
	cmeq	v23.16b, v23.16b, #0
	and	v1.16b, v1.16b, v0.16b
	stp	x22, x21, [sp, #96]             // 16-byte Folded Spill
	bic	v4.16b, v0.16b, v4.16b
	bic	v5.16b, v0.16b, v5.16b
	bic	v6.16b, v0.16b, v6.16b
	bic	v7.16b, v0.16b, v7.16b
	bic	v16.16b, v0.16b, v16.16b
	bic	v17.16b, v0.16b, v17.16b
	bic	v23.16b, v0.16b, v23.16b
	addp	v1.16b, v1.16b, v1.16b
	stp	x20, x19, [sp, #112]            // 16-byte Folded Spill
	addp	v4.16b, v4.16b, v4.16b
	addp	v5.16b, v5.16b, v5.16b
	addp	v6.16b, v6.16b, v6.16b
	addp	v7.16b, v7.16b, v7.16b
	addp	v16.16b, v16.16b, v16.16b
	addp	v17.16b, v17.16b, v17.16b
	addp	v23.16b, v23.16b, v23.16b
	addp	v31.16b, v1.16b, v1.16b
	addp	v4.16b, v4.16b, v4.16b
	addp	v5.16b, v5.16b, v5.16b
	addp	v6.16b, v6.16b, v6.16b
	addp	v28.16b, v7.16b, v7.16b
	addp	v16.16b, v16.16b, v16.16b
	addp	v29.16b, v17.16b, v17.16b
	addp	v30.16b, v23.16b, v23.16b
	addp	v17.16b, v4.16b, v4.16b
	addp	v1.16b, v5.16b, v5.16b
	addp	v7.16b, v6.16b, v6.16b
	addp	v23.16b, v28.16b, v28.16b
	addp	v4.16b, v16.16b, v16.16b
	addp	v6.16b, v29.16b, v29.16b
	addp	v16.16b, v30.16b, v30.16b
	addp	v5.16b, v31.16b, v31.16b
	umov	w11, v17.h[0]
	umov	w16, v1.h[0]
	umov	w14, v7.h[0]
	umov	w4, v23.h[0]
	umov	w12, v4.h[0]
	umov	w13, v6.h[0]
	umov	w10, v16.h[0]
	umov	w15, v5.h[0]
	b.eq	LBB5_4
// %bb.1:                               // %start
	cmp	x2, #16
	b.ne	LBB5_6
// %bb.2:                               // %then.1
	mov	x8, xzr
	add	x17, x0, #16
	strh	w11, [x0]
	strh	w16, [x0, #2]
	strh	w14, [x0, #4]
	strh	w4, [x0, #6]
	strh	w12, [x0, #8]
	strh	w13, [x0, #10]
	strh	w10, [x0, #12]
	strh	w15, [x0, #14]
LBB5_3:                                // %join.5.i
                                        // =>This Inner Loop Header: Depth=1
	eor	w1, w10, w13
	eor	w3, w15, w16
	eor	w19, w12, w14
	eor	w5, w1, w11
	eor	w13, w3, w19
	eor	w24, w15, w12
	eor	w0, w5, w12
	eor	w12, w13, w4
	eor	w9, w5, w15
	eor	w4, w12, w10
	eor	w21, w12, w14
	eor	w10, w15, w14
	eor	w14, w4, w24
	and	w2, w0, w11
	eor	w7, w5, w16
	eor	w26, w21, w1
	eor	w25, w14, w11
	eor	w27, w14, w1
	eor	w23, w14, w26
	and	w22, w7, w5
	and	w28, w25, w9
	eor	w9, w5, w15
	eor	w2, w2, w10
	eor	w12, w21, w11
	eor	w16, w7, w10
	and	w6, w14, w24
	and	w20, w21, w13
	and	w1, w23, w19
	str	w9, [sp, #40]                   // 4-byte Spill
	and	w30, w26, w10
	and	w9, w27, w3
	eor	w2, w2, w26
	eor	w22, w27, w22
	eor	w1, w1, w6
	eor	w6, w30, w6
	and	w30, w12, w16
	eor	w4, w4, w20
	eor	w2, w2, w20
	eor	w20, w22, w9
	eor	w4, w4, w30
	eor	w20, w20, w3
	eor	w22, w27, w28
	eor	w9, w9, w15
	eor	w4, w4, w1
	eor	w1, w20, w1
	eor	w9, w22, w9
	eor	w2, w2, w6
	adrp	x28, l_static.10@PAGE
	add	x28, x28, l_static.10@PAGEOFF
	eor	w9, w9, w6
	and	w6, w1, w4
	eor	w20, w6, w2
	eor	w22, w1, w9
	eor	w30, w4, w2
	and	w20, w20, w22
	eor	w22, w6, w9
	movi	v1.2d, #0xffffffffffffffff
	eor	w4, w20, w6
	and	w6, w22, w30
	movi	v2.16b, #17
	and	w15, w4, w9
	eor	w4, w6, w2
	eor	w2, w15, w22
	eor	w22, w20, w9
	ldrb	w9, [x28, x8]
	and	w6, w2, w4
	eor	w2, w15, w1
	and	w11, w22, w11
	eor	w28, w6, w30
	eor	w6, w2, w22
	and	w21, w2, w21
	eor	w1, w28, w6
	eor	w20, w4, w22
	eor	w30, w28, w4
	and	w25, w4, w25
	eor	w11, w21, w11
	and	w27, w30, w27
	eor	w15, w1, w20
	and	w5, w28, w5
	eor	w25, w11, w25
	and	w24, w20, w24
	and	w19, w15, w19
	and	w30, w30, w3
	eor	w3, w27, w5
	and	w5, w28, w7
	eor	w7, w25, w27
	ubfiz	w25, w9, #7, #1
	and	w26, w1, w26
	and	w15, w15, w23
	eor	w23, w19, w24
	eor	w19, w5, w7
	eor	w11, w26, w11
	lsl	w26, w9, #6
	eor	w5, w3, w15
	eor	w15, w23, w19
	eor	w25, w30, w25
	eor	w11, w11, w30
	and	w12, w6, w12
	eor	w25, w25, w15
	eor	w19, w11, w5
	and	w11, w26, #0x80
	fmov	s0, w25
	eor	w11, w19, w11
	lsl	w26, w9, #5
	eor	w11, w11, w15
	and	w15, w6, w16
	and	w14, w20, w14
	and	w16, w26, #0x80
	eor	w15, w23, w15
	and	w10, w1, w10
	mov	v0.h[1], w11
	and	w11, w22, w0
	eor	w14, w5, w14
	eor	w11, w11, w16
	lsl	w16, w9, #4
	add	x8, x8, #1
	eor	w11, w11, w15
	cmp	x8, #10
	mov	v0.h[2], w11
	and	w11, w16, #0x80
	ldr	w16, [sp, #40]                  // 4-byte Reload
	eor	w11, w7, w11
	and	w16, w4, w16
	eor	w16, w19, w16
	mov	v0.h[3], w11
	eor	w11, w21, w12
	and	w12, w2, w13
	lsl	w13, w9, #2
	eor	w11, w11, w3
	eor	w12, w15, w12
	eor	w11, w11, w12
	mov	v1.h[2], w16
	and	w13, w13, #0x80
	eor	w13, w13, w24
	mov	v0.h[4], w11
	eor	w10, w10, w13
	lsl	w13, w9, #1
	eor	w10, w10, w14
	mov	v1.h[3], w11
	eor	w10, w10, w16
	and	w13, w13, #0x80
	mov	v0.h[5], w10
	lsl	w10, w9, #3
	eor	w13, w14, w13
	eor	w11, w13, w11
	and	w9, w9, #0x80
	and	w10, w10, #0x80
	eor	w9, w14, w9
	mov	v1.h[4], w10
	mov	v0.h[6], w11
	mov	v1.h[7], w9
	mov	v0.h[7], w12
	eor	v0.16b, v0.16b, v1.16b
	shl	v1.8h, v0.8h, #9
	usra	v1.8h, v0.8h, #7
	and	v0.16b, v1.16b, v2.16b
	ldur	q1, [x17, #-16]
	eor	v0.16b, v0.16b, v1.16b
	movi	v1.16b, #238
	add	v2.8h, v0.8h, v0.8h
	and	v1.16b, v2.16b, v1.16b
	eor	v0.16b, v1.16b, v0.16b
	movi	v1.16b, #204
	shl	v2.8h, v0.8h, #2
	and	v1.16b, v2.16b, v1.16b
	eor	v0.16b, v1.16b, v0.16b
	umov	w11, v0.h[0]
	umov	w16, v0.h[1]
	umov	w14, v0.h[2]
	umov	w4, v0.h[3]
	umov	w12, v0.h[4]
	umov	w13, v0.h[5]
	umov	w10, v0.h[6]
	umov	w15, v0.h[7]
	str	q0, [x17], #16
	b.ne	LBB5_3
	b	LBB5_9
LBB5_4:                                // %then.4
	ldr	d20, [x1, #16]
	zip1	v7.4h, v7.4h, v23.4h
	mov	w8, w15
	mov	x15, xzr
	strh	w10, [x0, #12]
	adrp	x10, l_static.10@PAGE+1
	add	x10, x10, l_static.10@PAGEOFF+1
	tbl	v18.16b, { v19.16b, v20.16b }, v21.16b
	strh	w11, [x0]
	strh	w16, [x0, #2]
	mov	v7.h[2], v4.h[0]
	strh	w14, [x0, #4]
	strh	w4, [x0, #6]
	and	v19.16b, v18.16b, v24.16b
	and	v20.16b, v18.16b, v25.16b
	and	v3.16b, v18.16b, v3.16b
	and	v21.16b, v18.16b, v26.16b
	and	v24.16b, v18.16b, v27.16b
	and	v2.16b, v18.16b, v2.16b
	and	v22.16b, v18.16b, v22.16b
	cmlt	v18.16b, v18.16b, #0
	mov	v7.h[3], v6.h[0]
	cmeq	v19.16b, v19.16b, #0
	cmeq	v20.16b, v20.16b, #0
	cmeq	v3.16b, v3.16b, #0
	cmeq	v21.16b, v21.16b, #0
	cmeq	v24.16b, v24.16b, #0
	cmeq	v2.16b, v2.16b, #0
	cmeq	v22.16b, v22.16b, #0
	and	v18.16b, v18.16b, v0.16b
	strh	w12, [x0, #8]
	bic	v19.16b, v0.16b, v19.16b
	bic	v20.16b, v0.16b, v20.16b
	bic	v3.16b, v0.16b, v3.16b
	bic	v21.16b, v0.16b, v21.16b
	bic	v24.16b, v0.16b, v24.16b
	bic	v2.16b, v0.16b, v2.16b
	bic	v0.16b, v0.16b, v22.16b
	addp	v18.16b, v18.16b, v18.16b
	strh	w13, [x0, #10]
	addp	v19.16b, v19.16b, v19.16b
	addp	v20.16b, v20.16b, v20.16b
	addp	v3.16b, v3.16b, v3.16b
	addp	v21.16b, v21.16b, v21.16b
	addp	v24.16b, v24.16b, v24.16b
	addp	v2.16b, v2.16b, v2.16b
	addp	v0.16b, v0.16b, v0.16b
	addp	v18.16b, v18.16b, v18.16b
	strh	w8, [x0, #14]
	addp	v19.16b, v19.16b, v19.16b
	addp	v20.16b, v20.16b, v20.16b
	str	x0, [sp, #8]                    // 8-byte Spill
	addp	v22.16b, v3.16b, v3.16b
	addp	v21.16b, v21.16b, v21.16b
	addp	v23.16b, v24.16b, v24.16b
	addp	v19.16b, v19.16b, v19.16b
	addp	v20.16b, v20.16b, v20.16b
	zip1	v3.4h, v19.4h, v20.4h
	addp	v19.16b, v22.16b, v22.16b
	addp	v20.16b, v21.16b, v21.16b
	addp	v21.16b, v23.16b, v23.16b
	addp	v22.16b, v2.16b, v2.16b
	addp	v23.16b, v0.16b, v0.16b
	mov	h2, v17.h[0]
	mov	h0, v16.h[0]
	addp	v17.16b, v18.16b, v18.16b
	mov	h16, v19.h[0]
	mov	h4, v21.h[0]
	mov	v3.h[2], v20.h[0]
	addp	v18.16b, v22.16b, v22.16b
	addp	v19.16b, v23.16b, v23.16b
	mov	v2.h[2], v1.h[0]
	mov	v0.h[2], v5.h[0]
	mov	v16.h[2], v18.h[0]
	mov	v4.h[2], v17.h[0]
	mov	v3.h[3], v19.h[0]
LBB5_5:                                // %join.5.i165
                                        // =>This Inner Loop Header: Depth=1
	umov	w12, v3.h[3]
	umov	w13, v3.h[2]
	str	x15, [sp, #24]                  // 8-byte Spill
	mov	w8, v4.s[1]
	mov	w9, v16.s[1]
	str	x10, [sp, #40]                  // 8-byte Spill
	umov	w14, v3.h[0]
	fmov	w1, s4
	umov	w16, v3.h[1]
	fmov	w11, s16
	movi	v21.8b, #51
	eor	w4, w1, w12
	eor	w23, w8, w9
	eor	w3, w8, w13
	eor	w22, w13, w14
	eor	w6, w4, w11
	eor	w12, w8, w14
	eor	w15, w23, w22
	eor	w17, w6, w13
	eor	w24, w6, w9
	eor	w13, w15, w16
	str	w9, [sp, #20]                   // 4-byte Spill
	eor	w16, w6, w8
	eor	w25, w13, w14
	eor	w13, w13, w1
	and	w5, w17, w11
	eor	w14, w13, w3
	eor	w30, w25, w4
	eor	w1, w24, w12
	eor	w28, w14, w4
	eor	w26, w14, w30
	and	w4, w24, w6
	eor	w2, w25, w11
	and	w7, w25, w15
	and	w19, w14, w3
	eor	w27, w14, w11
	and	w20, w26, w22
	and	w21, w30, w12
	and	w9, w28, w23
	eor	w4, w28, w4
	and	w0, w27, w16
	eor	w20, w20, w19
	eor	w19, w21, w19
	and	w21, w2, w1
	eor	w5, w5, w12
	eor	w13, w13, w7
	eor	w4, w4, w9
	eor	w5, w5, w30
	eor	w13, w13, w21
	eor	w4, w4, w23
	eor	w0, w28, w0
	eor	w8, w9, w8
	eor	w5, w5, w7
	eor	w9, w13, w20
	eor	w13, w4, w20
	eor	w8, w0, w8
	eor	w0, w5, w19
	eor	w8, w8, w19
	and	w4, w13, w9
	eor	w5, w4, w0
	eor	w7, w13, w8
	eor	w19, w4, w8
	and	w5, w5, w7
	eor	w9, w9, w0
	str	w11, [sp, #16]                  // 4-byte Spill
	eor	w4, w5, w4
	and	w7, w19, w9
	eor	w20, w5, w8
	and	w4, w4, w8
	eor	w7, w7, w0
	eor	w0, w4, w19
	eor	w19, w4, w13
	ldurb	w13, [x10, #-1]
	and	w8, w0, w7
	eor	w21, w19, w20
	eor	w5, w7, w20
	eor	w9, w8, w9
	and	w0, w20, w11
	and	w3, w5, w3
	eor	w4, w9, w21
	eor	w8, w9, w7
	and	w6, w9, w6
	and	w10, w4, w30
	and	w30, w8, w23
	and	w23, w19, w25
	and	w28, w8, w28
	eor	w11, w4, w5
	and	w25, w9, w24
	eor	w9, w23, w0
	and	w0, w7, w27
	and	w8, w11, w22
	eor	w22, w28, w6
	and	w11, w11, w26
	eor	w10, w10, w9
	eor	w9, w9, w0
	eor	w6, w22, w11
	lsl	w11, w13, #6
	ubfiz	w0, w13, #7, #1
	eor	w24, w9, w28
	eor	w10, w10, w30
	eor	w26, w8, w3
	eor	w9, w25, w24
	eor	w8, w10, w6
	and	w10, w11, #0x80
	eor	w11, w30, w0
	eor	w9, w26, w9
	eor	w10, w8, w10
	eon	w11, w11, w9
	and	w15, w19, w15
	eon	w9, w10, w9
	lsl	w10, w11, #9
	and	w11, w11, #0x7ff80
	lsl	w0, w9, #9
	and	w9, w9, #0x7ff80
	and	w14, w5, w14
	orr	w10, w10, w11, lsr #7
	and	w11, w7, w16
	lsl	w16, w13, #5
	orr	w9, w0, w9, lsr #7
	lsl	w0, w13, #4
	eor	w8, w8, w11
	fmov	s5, w10
	mov	w10, #4369                      // =0x1111
	and	w16, w16, #0x80
	dup	v1.2s, w10
	and	w10, w21, w2
	and	w0, w0, #0x80
	eor	w10, w23, w10
	lsl	w11, w13, #3
	and	w12, w4, w12
	mov	v5.s[1], w9
	and	w9, w20, w17
	and	w17, w21, w1
	eor	w17, w26, w17
	eor	w9, w9, w16
	mov	w1, #61166                      // =0xeeee
	eor	w9, w9, w17
	eor	w15, w17, w15
	eor	w10, w10, w22
	eor	w9, w9, w8
	eor	w16, w10, w15
	eor	w10, w24, w0
	and	v5.8b, v5.8b, v1.8b
	ubfx	w17, w9, #7, #9
	eor	w10, w10, w16
	lsl	w0, w13, #2
	and	w11, w11, #0x80
	orr	w9, w17, w9, lsl #9
	eor	w11, w16, w11
	eor	v5.8b, v5.8b, v2.8b
	dup	v2.2s, w1
	ubfx	w1, w10, #7, #9
	fmov	s17, w9
	and	w17, w0, #0x80
	orr	w10, w1, w10, lsl #9
	eor	w9, w17, w3
	ubfx	w17, w11, #7, #9
	add	v6.2s, v5.2s, v5.2s
	eor	w9, w12, w9
	mov	w12, v0.s[1]
	mov	v17.h[1], w10
	eor	w10, w6, w14
	orr	w11, w17, w11, lsl #9
	eor	w9, w9, w10
	and	v6.8b, v6.8b, v2.8b
	eon	w8, w9, w8
	ubfx	w9, w8, #7, #9
	mov	v17.h[2], w11
	eor	v5.8b, v6.8b, v5.8b
	orr	w8, w9, w8, lsl #9
	lsl	w9, w13, #1
	and	w13, w13, #0x80
	ushr	v6.2s, v5.2s, #1
	mov	v17.h[3], w8
	and	w8, w9, #0x80
	eor	w8, w10, w8
	mov	w9, #34944                      // =0x8880
	eor	w10, w10, w13
	eor	w8, w8, w16
	eor	w10, w10, w15
	uzp1	v26.4h, v5.4h, v0.4h
	and	v18.8b, v6.8b, v1.8b
	movi	v6.8b, #17
	and	w11, w8, w9
	lsr	w11, w11, #7
	and	w9, w10, w9
	lsr	w9, w9, #7
	eor	v16.8b, v18.8b, v16.8b
	movi	v18.2d, #0000000000000000
	orr	w8, w11, w8, lsl #9
	and	v17.8b, v17.8b, v6.8b
	mvn	w8, w8
	uzp1	v19.4h, v16.4h, v0.4h
	mov	v16.d[1], v16.d[0]
	and	w8, w8, #0x11111111
	mov	v18.h[0], v0.h[0]
	xtn2	v17.8h, v16.4s
	mov	v18.h[1], w12
	mov	v17.h[4], w8
	orr	w8, w9, w10, lsl #9
	mov	v7.d[1], v18.d[0]
	and	w8, w8, #0x11111111
	mov	v17.h[5], w8
	mov	w8, #13107                      // =0x3333
	dup	v22.2s, w8
	mov	w8, #52428                      // =0xcccc
	eor	v16.16b, v17.16b, v7.16b
	movi	v7.16b, #238
	add	v17.8h, v16.8h, v16.8h
	mov	v16.s[3], v19.s[0]
	movi	v19.8b, #238
	and	v17.16b, v17.16b, v7.16b
	eor	v18.16b, v17.16b, v16.16b
	mov	h16, v18.h[4]
	ushr	v17.4h, v18.4h, #1
	ext	v25.16b, v18.16b, v18.16b, #8
	dup	v27.4s, v18.s[0]
	and	v17.8b, v17.8b, v6.8b
	mov	v16.h[2], v18.h[5]
	mov	v27.s[0], v26.s[0]
	eor	v17.8b, v17.8b, v3.8b
	ushr	v3.4h, v3.4h, #2
	ushr	v16.2s, v16.2s, #1
	add	v20.4h, v17.4h, v17.4h
	and	v16.8b, v16.8b, v1.8b
	and	v23.8b, v20.8b, v19.8b
	and	v20.8b, v3.8b, v21.8b
	movi	v3.8b, #204
	movi	v21.16b, #204
	eor	v16.8b, v16.8b, v4.8b
	ushr	v4.2s, v4.2s, #2
	eor	v17.8b, v23.8b, v17.8b
	mov	v20.d[1], v25.d[0]
	add	v24.2s, v16.2s, v16.2s
	and	v4.8b, v4.8b, v22.8b
	and	v22.8b, v24.8b, v2.8b
	shl	v24.4h, v17.4h, #2
	uzp1	v23.4h, v4.4h, v0.4h
	dup	v4.2s, w8
	eor	v25.8b, v22.8b, v16.8b
	shl	v16.8h, v18.8h, #2
	and	v22.8b, v24.8b, v3.8b
	mov	v20.s[2], v23.s[0]
	ext	v18.16b, v18.16b, v0.16b, #4
	shl	v24.2s, v25.2s, #2
	and	v23.16b, v16.16b, v21.16b
	eor	v16.8b, v22.8b, v17.8b
	mov	v27.d[1], v18.d[0]
	and	v17.8b, v24.8b, v4.8b
	eor	v22.16b, v23.16b, v20.16b
	umov	w10, v16.h[2]
	umov	w11, v16.h[0]
	umov	w8, v16.h[3]
	umov	w0, v16.h[1]
	orr	v20.16b, v23.16b, v20.16b
	eor	v17.8b, v17.8b, v25.8b
	umov	w9, v22.h[7]
	umov	w6, v22.h[6]
	movi	v25.2d, #0xffffffffffffffff
	mov	h26, v22.h[6]
	eor	w5, w10, w11
	mov	v20.s[3], v22.s[3]
	mov	w12, v17.s[1]
	fmov	w17, s17
	mov	v26.h[2], v22.h[7]
	eor	w8, w17, w8
	eor	w20, w12, w9
	eor	w7, w8, w6
	eor	w3, w12, w10
	eor	w14, w20, w5
	eor	w15, w7, w10
	eor	w21, w7, w9
	eor	w0, w14, w0
	eor	w13, w12, w11
	and	w10, w15, w6
	eor	w27, w0, w11
	eor	w11, w0, w17
	eor	w1, w21, w13
	eor	w17, w11, w3
	eor	w2, w27, w6
	and	w0, w27, w14
	and	w9, w21, w7
	eor	w10, w10, w13
	eor	w24, w27, w8
	eor	w8, w17, w8
	and	w22, w2, w1
	eor	w11, w11, w0
	eor	w16, w7, w12
	eor	w30, w17, w24
	eor	w28, w17, w6
	eor	w10, w10, w24
	eor	w11, w11, w22
	and	w22, w8, w20
	eor	w9, w8, w9
	and	w4, w17, w3
	and	w19, w24, w13
	and	w23, w30, w5
	eor	w10, w10, w0
	and	w0, w28, w16
	eor	w9, w9, w22
	eor	w19, w19, w4
	eor	w4, w23, w4
	eor	w0, w8, w0
	eor	w22, w22, w12
	eor	w9, w9, w20
	eor	w11, w11, w4
	eor	w0, w0, w22
	eor	w9, w9, w4
	eor	w10, w10, w19
	eor	w0, w0, w19
	and	w4, w9, w11
	eor	w19, w9, w0
	eor	w22, w4, w10
	eor	w11, w11, w10
	and	w19, w22, w19
	eor	w22, w4, w0
	eor	w4, w19, w4
	and	w23, w22, w11
	eor	w26, w19, w0
	and	w4, w4, w0
	eor	w23, w23, w10
	eor	w10, w4, w22
	eor	w19, w4, w9
	eor	w22, w23, w26
	and	w9, w10, w23
	ldr	x10, [sp, #40]                  // 8-byte Reload
	eor	w25, w19, w26
	eor	w9, w9, w11
	and	w14, w19, w14
	and	w16, w23, w16
	ldrb	w4, [x10]
	and	w10, w26, w6
	eor	w6, w9, w25
	and	w11, w9, w7
	and	w0, w9, w21
	eor	w9, w9, w23
	and	w21, w9, w8
	eor	w8, w6, w22
	and	w7, w19, w27
	and	w9, w9, w20
	and	w20, w8, w5
	and	w27, w8, w30
	ubfiz	w5, w4, #7, #1
	and	w8, w23, w28
	eor	w10, w7, w10
	eor	w28, w10, w8
	and	w24, w6, w24
	eor	w8, w21, w11
	eor	w11, w28, w21
	eor	w21, w9, w5
	and	w5, w22, w3
	eor	w10, w24, w10
	eor	w20, w20, w5
	eor	w0, w0, w11
	eor	w9, w10, w9
	lsl	w10, w4, #6
	eor	w0, w20, w0
	eor	w3, w8, w27
	eor	w21, w21, w0
	and	w13, w6, w13
	and	w10, w10, #0x80
	eor	w9, w9, w3
	fmov	s24, w21
	eor	w10, w9, w10
	eor	w9, w9, w16
	eor	w10, w10, w0
	lsl	w0, w4, #5
	mov	v25.h[2], w9
	mov	v24.h[1], w10
	and	w10, w26, w15
	and	w15, w0, #0x80
	and	w0, w25, w1
	eor	w10, w10, w15
	eor	w15, w20, w0
	and	w0, w25, w2
	eor	w10, w10, w15
	eor	w14, w15, w14
	ldr	x15, [sp, #24]                  // 8-byte Reload
	mov	v24.h[2], w10
	lsl	w10, w4, #4
	and	w10, w10, #0x80
	eor	w10, w11, w10
	and	w11, w22, w17
	eor	w17, w7, w0
	mov	v24.h[3], w10
	lsl	w10, w4, #2
	eor	w8, w17, w8
	eor	w8, w8, w14
	eor	w11, w3, w11
	ldr	x0, [sp, #8]                    // 8-byte Reload
	and	w10, w10, #0x80
	mov	v25.h[3], w8
	eor	w10, w10, w5
	mov	v24.h[4], w8
	eor	w10, w13, w10
	eor	w10, w10, w11
	eor	w9, w10, w9
	lsl	w10, w4, #1
	mov	v24.h[5], w9
	lsl	w9, w4, #3
	and	w10, w10, #0x80
	eor	w10, w11, w10
	eor	w8, w10, w8
	and	w9, w9, #0x80
	mov	v25.h[4], w9
	fmov	w9, s5
	mov	v24.h[6], w8
	and	w8, w4, #0x80
	eor	w8, w11, w8
	ldp	w10, w11, [sp, #16]             // 8-byte Folded Reload
	mov	v25.h[7], w8
	mov	w8, v5.s[1]
	lsl	w9, w9, #2
	mov	v24.h[7], w14
	lsr	w10, w10, #2
	and	w9, w9, #0xcccccccc
	lsr	w11, w11, #2
	and	w10, w10, #0x33333333
	lsl	w8, w8, #2
	eor	v24.16b, v24.16b, v25.16b
	movi	v25.16b, #17
	orr	w9, w9, w10
	add	x10, x0, x15
	and	w8, w8, #0xcccccccc
	add	x15, x15, #48
	strh	w9, [x10, #16]
	and	w9, w11, #0x33333333
	cmp	x15, #192
	shl	v18.8h, v24.8h, #9
	orr	w8, w8, w9
	strh	w12, [x10, #46]
	strh	w8, [x10, #18]
	stur	q20, [x10, #20]
	usra	v18.8h, v24.8h, #7
	shl	v24.8h, v27.8h, #2
	stur	d16, [x10, #36]
	str	h17, [x10, #44]
	and	v24.16b, v24.16b, v21.16b
	and	v18.16b, v18.16b, v25.16b
	orr	v18.16b, v24.16b, v18.16b
	eor	v18.16b, v18.16b, v27.16b
	add	v24.8h, v18.8h, v18.8h
	and	v7.16b, v24.16b, v7.16b
	eor	v7.16b, v7.16b, v18.16b
	mov	h18, v7.h[0]
	mov	h24, v7.h[6]
	ext	v25.16b, v7.16b, v7.16b, #4
	mov	v18.h[2], v7.h[1]
	mov	v24.h[2], v7.h[7]
	ushr	v25.4h, v25.4h, #1
	and	v6.8b, v25.8b, v6.8b
	ushr	v18.2s, v18.2s, #1
	ushr	v24.2s, v24.2s, #1
	eor	v6.8b, v6.8b, v16.8b
	and	v18.8b, v18.8b, v1.8b
	and	v1.8b, v24.8b, v1.8b
	add	v24.4h, v6.4h, v6.4h
	eor	v18.8b, v18.8b, v26.8b
	eor	v1.8b, v1.8b, v17.8b
	shl	v26.8h, v7.8h, #2
	and	v19.8b, v24.8b, v19.8b
	add	v25.2s, v18.2s, v18.2s
	add	v5.2s, v1.2s, v1.2s
	eor	v6.8b, v19.8b, v6.8b
	and	v23.8b, v25.8b, v2.8b
	and	v2.8b, v5.8b, v2.8b
	and	v5.16b, v26.16b, v21.16b
	shl	v19.4h, v6.4h, #2
	eor	v18.8b, v23.8b, v18.8b
	eor	v1.8b, v2.8b, v1.8b
	eor	v5.16b, v5.16b, v7.16b
	and	v3.8b, v19.8b, v3.8b
	shl	v7.2s, v18.2s, #2
	shl	v21.2s, v1.2s, #2
	mov	h2, v5.h[0]
	mov	h0, v5.h[6]
	str	q5, [x10, #48]
	ldr	x10, [sp, #40]                  // 8-byte Reload
	eor	v3.8b, v3.8b, v6.8b
	and	v22.8b, v7.8b, v4.8b
	and	v4.8b, v21.8b, v4.8b
	ext	v7.16b, v5.16b, v5.16b, #4
	mov	v2.h[2], v5.h[1]
	add	x10, x10, #2
	mov	v0.h[2], v5.h[7]
	eor	v16.8b, v22.8b, v18.8b
	eor	v4.8b, v4.8b, v1.8b
	b.ne	LBB5_5
	b	LBB5_9
LBB5_6:                                // %else.5
	mov	w8, w15
	adrp	x15, l_CPI5_2@PAGE
	ldr	q1, [x1, #16]
	ldr	q2, [x15, l_CPI5_2@PAGEOFF]
	movi	v4.16b, #4
	movi	v5.16b, #64
	movi	v6.16b, #2
	movi	v7.16b, #8
	movi	v16.16b, #32
	tbl	v1.16b, { v1.16b }, v2.16b
	movi	v2.16b, #16
	adrp	x15, l_CPI5_3@PAGE
	adrp	x17, l_CPI5_5@PAGE
	strh	w11, [x0]
	mov	x9, xzr
	strh	w16, [x0, #2]
	strh	w14, [x0, #4]
	and	v4.16b, v1.16b, v4.16b
	and	v2.16b, v1.16b, v2.16b
	and	v5.16b, v1.16b, v5.16b
	and	v3.16b, v1.16b, v3.16b
	and	v6.16b, v1.16b, v6.16b
	and	v7.16b, v1.16b, v7.16b
	and	v16.16b, v1.16b, v16.16b
	cmlt	v1.16b, v1.16b, #0
	strh	w12, [x0, #8]
	cmeq	v4.16b, v4.16b, #0
	cmeq	v2.16b, v2.16b, #0
	cmeq	v5.16b, v5.16b, #0
	cmeq	v3.16b, v3.16b, #0
	cmeq	v6.16b, v6.16b, #0
	cmeq	v7.16b, v7.16b, #0
	cmeq	v16.16b, v16.16b, #0
	and	v1.16b, v1.16b, v0.16b
	strh	w13, [x0, #10]
	bic	v4.16b, v0.16b, v4.16b
	bic	v2.16b, v0.16b, v2.16b
	bic	v5.16b, v0.16b, v5.16b
	bic	v3.16b, v0.16b, v3.16b
	bic	v6.16b, v0.16b, v6.16b
	bic	v7.16b, v0.16b, v7.16b
	bic	v0.16b, v0.16b, v16.16b
	addp	v1.16b, v1.16b, v1.16b
	ldr	q16, [x15, l_CPI5_3@PAGEOFF]
	addp	v4.16b, v4.16b, v4.16b
	addp	v2.16b, v2.16b, v2.16b
	addp	v5.16b, v5.16b, v5.16b
	addp	v3.16b, v3.16b, v3.16b
	addp	v6.16b, v6.16b, v6.16b
	adrp	x15, l_CPI5_4@PAGE
	addp	v7.16b, v7.16b, v7.16b
	addp	v0.16b, v0.16b, v0.16b
	strh	w8, [x0, #14]
	addp	v4.16b, v4.16b, v4.16b
	addp	v2.16b, v2.16b, v2.16b
	add	x8, x0, #32
	addp	v5.16b, v5.16b, v5.16b
	addp	v3.16b, v3.16b, v3.16b
	strh	w4, [x0, #6]
	addp	v1.16b, v1.16b, v1.16b
	addp	v6.16b, v6.16b, v6.16b
	strh	w10, [x0, #12]
	addp	v7.16b, v7.16b, v7.16b
	addp	v0.16b, v0.16b, v0.16b
	str	x0, [sp, #8]                    // 8-byte Spill
	addp	v17.16b, v5.16b, v5.16b
	addp	v4.16b, v4.16b, v4.16b
	str	x8, [sp, #40]                   // 8-byte Spill
	addp	v19.16b, v2.16b, v2.16b
	addp	v3.16b, v3.16b, v3.16b
	ldr	q2, [x17, l_CPI5_5@PAGEOFF]
	addp	v18.16b, v1.16b, v1.16b
	addp	v1.16b, v6.16b, v6.16b
	addp	v5.16b, v7.16b, v7.16b
	addp	v20.16b, v0.16b, v0.16b
	ldr	q0, [x15, l_CPI5_4@PAGEOFF]
	umov	w1, v4.h[0]
	umov	w11, v3.h[0]
	umov	w12, v19.h[0]
	umov	w2, v17.h[0]
	tbl	v6.16b, { v17.16b, v18.16b }, v16.16b
	zip1	v7.8h, v3.8h, v1.8h
	tbl	v2.16b, { v4.16b, v5.16b }, v2.16b
	tbl	v0.16b, { v19.16b, v20.16b }, v0.16b
	umov	w15, v1.h[0]
	umov	w13, v5.h[0]
	umov	w16, v20.h[0]
	umov	w14, v18.h[0]
	mov	v7.s[1], v2.s[1]
	mov	v0.s[3], v6.s[3]
	mov	v7.d[1], v0.d[1]
	str	q7, [x0, #16]
LBB5_7:                                // %join.5.i350
                                        // =>This Inner Loop Header: Depth=1
	eor	w3, w2, w16
	eor	w4, w14, w15
	eor	w20, w12, w1
	eor	w6, w3, w11
	eor	w16, w4, w20
	eor	w25, w14, w12
	eor	w8, w6, w12
	eor	w12, w16, w13
	eor	w19, w6, w15
	eor	w22, w12, w1
	eor	w2, w12, w2
	and	w5, w8, w11
	eor	w12, w14, w1
	eor	w17, w2, w25
	eor	w0, w22, w3
	eor	w27, w17, w3
	eor	w24, w17, w0
	and	w23, w19, w6
	eor	w5, w5, w12
	str	w8, [sp, #20]                   // 4-byte Spill
	eor	w13, w6, w14
	eor	w15, w22, w11
	eor	w1, w19, w12
	and	w7, w17, w25
	and	w21, w22, w16
	eor	w26, w17, w11
	and	w3, w24, w20
	and	w30, w0, w12
	and	w8, w27, w4
	eor	w5, w5, w0
	eor	w23, w27, w23
	and	w28, w26, w13
	eor	w3, w3, w7
	eor	w7, w30, w7
	and	w30, w15, w1
	eor	w2, w2, w21
	eor	w5, w5, w21
	eor	w21, w23, w8
	eor	w2, w2, w30
	eor	w21, w21, w4
	eor	w23, w27, w28
	eor	w8, w8, w14
	eor	w14, w2, w3
	eor	w2, w21, w3
	eor	w8, w23, w8
	eor	w3, w5, w7
	eor	w8, w8, w7
	and	w5, w2, w14
	eor	w7, w5, w3
	eor	w21, w2, w8
	eor	w30, w14, w3
	and	w7, w7, w21
	eor	w21, w5, w8
	adrp	x28, l_static.10@PAGE
	add	x28, x28, l_static.10@PAGEOFF
	eor	w14, w7, w5
	and	w5, w21, w30
	and	w14, w14, w8
	eor	w5, w5, w3
	eor	w23, w7, w8
	eor	w3, w14, w21
	eor	w21, w5, w23
	str	x9, [sp, #24]                   // 8-byte Spill
	and	w8, w3, w5
	eor	w3, w14, w2
	ldrb	w14, [x28, x9]
	eor	w8, w8, w30
	eor	w7, w3, w23
	and	w30, w23, w11
	eor	w2, w8, w7
	and	w22, w3, w22
	eor	w28, w8, w5
	and	w9, w2, w0
	and	w11, w21, w25
	and	w0, w5, w26
	eor	w25, w22, w30
	and	w27, w28, w27
	eor	w10, w2, w21
	eor	w0, w25, w0
	and	w20, w10, w20
	and	w6, w8, w6
	and	w8, w8, w19
	eor	w0, w0, w27
	and	w10, w10, w24
	ubfiz	w24, w14, #7, #1
	and	w26, w28, w4
	eor	w4, w27, w6
	eor	w20, w20, w11
	eor	w8, w8, w0
	eor	w9, w9, w25
	lsl	w25, w14, #6
	eor	w6, w4, w10
	eor	w8, w20, w8
	eor	w10, w26, w24
	eor	w9, w9, w26
	lsl	w24, w14, #5
	eor	w10, w10, w8
	eor	w19, w9, w6
	and	w9, w25, #0x80
	fmov	s0, w10
	eor	w9, w19, w9
	and	w10, w24, #0x80
	eor	w8, w9, w8
	and	w9, w7, w1
	and	w15, w7, w15
	eor	w9, w20, w9
	movi	v1.2d, #0xffffffffffffffff
	and	w13, w5, w13
	mov	v0.h[1], w8
	ldr	w8, [sp, #20]                   // 4-byte Reload
	eor	w13, w19, w13
	and	w12, w2, w12
	and	w8, w23, w8
	eor	w8, w8, w10
	lsl	w10, w14, #4
	mov	v1.h[2], w13
	eor	w8, w8, w9
	mov	v0.h[2], w8
	and	w8, w10, #0x80
	and	w10, w21, w17
	eor	w8, w0, w8
	eor	w10, w6, w10
	mov	v0.h[3], w8
	eor	w8, w22, w15
	and	w15, w3, w16
	lsl	w16, w14, #2
	eor	w8, w8, w4
	eor	w9, w9, w15
	eor	w8, w8, w9
	and	w15, w16, #0x80
	mov	v1.h[3], w8
	eor	w11, w15, w11
	mov	v0.h[4], w8
	eor	w11, w12, w11
	lsl	w12, w14, #1
	eor	w11, w11, w10
	eor	w11, w11, w13
	and	w12, w12, #0x80
	mov	v0.h[5], w11
	lsl	w11, w14, #3
	eor	w12, w10, w12
	eor	w8, w12, w8
	and	w11, w11, #0x80
	mov	v1.h[4], w11
	mov	v0.h[6], w8
	and	w8, w14, #0x80
	eor	w8, w10, w8
	mov	v1.h[7], w8
	ldr	x8, [sp, #40]                   // 8-byte Reload
	mov	v0.h[7], w9
	str	x8, [sp, #40]                   // 8-byte Spill
	eor	v1.16b, v0.16b, v1.16b
	movi	v0.16b, #17
	shl	v2.8h, v1.8h, #9
	usra	v2.8h, v1.8h, #7
	and	v1.16b, v2.16b, v0.16b
	ldp	q2, q5, [x8, #-32]
	eor	v2.16b, v1.16b, v2.16b
	movi	v1.16b, #238
	add	v3.8h, v2.8h, v2.8h
	and	v3.16b, v3.16b, v1.16b
	eor	v3.16b, v3.16b, v2.16b
	movi	v2.16b, #204
	shl	v4.8h, v3.8h, #2
	and	v4.16b, v4.16b, v2.16b
	eor	v4.16b, v4.16b, v3.16b
	movi	d3, #0x00ffff0000ffff
	umov	w8, v4.h[5]
	umov	w9, v4.h[6]
	umov	w12, v4.h[4]
	umov	w2, v4.h[7]
	umov	w15, v4.h[1]
	umov	w16, v4.h[2]
	umov	w3, v4.h[0]
	umov	w14, v4.h[3]
	eor	w8, w9, w8
	eor	w17, w2, w15
	eor	w1, w12, w16
	eor	w4, w2, w12
	eor	w0, w8, w3
	eor	w11, w17, w1
	eor	w10, w2, w16
	eor	w13, w0, w12
	eor	w12, w11, w14
	eor	w5, w0, w15
	and	w6, w13, w3
	eor	w21, w12, w16
	eor	w9, w12, w9
	eor	w12, w9, w4
	eor	w22, w21, w8
	eor	w6, w6, w10
	and	w7, w5, w0
	and	w19, w21, w11
	and	w23, w12, w4
	eor	w8, w12, w8
	eor	w20, w12, w22
	and	w25, w22, w10
	eor	w6, w6, w22
	eor	w14, w0, w2
	eor	w16, w5, w10
	eor	w15, w21, w3
	eor	w24, w12, w3
	and	w27, w20, w1
	and	w30, w8, w17
	eor	w25, w25, w23
	eor	w6, w6, w19
	eor	w7, w8, w7
	and	w26, w15, w16
	eor	w9, w9, w19
	and	w28, w24, w14
	eor	w19, w27, w23
	eor	w23, w6, w25
	eor	w6, w7, w30
	eor	w9, w9, w26
	eor	w7, w8, w28
	eor	w2, w30, w2
	eor	w6, w6, w17
	eor	w9, w9, w19
	eor	w2, w7, w2
	eor	w19, w6, w19
	eor	w2, w2, w25
	eor	w25, w9, w23
	and	w9, w19, w9
	eor	w6, w19, w2
	eor	w7, w9, w23
	eor	w26, w9, w2
	and	w7, w7, w6
	and	w27, w26, w25
	eor	w9, w7, w9
	eor	w6, w7, w2
	eor	w7, w27, w23
	and	w9, w9, w2
	eor	w2, w7, w6
	and	w23, w6, w3
	eor	w26, w9, w26
	eor	w19, w9, w19
	and	w24, w7, w24
	and	w9, w26, w7
	and	w21, w19, w21
	eor	w26, w19, w6
	eor	w9, w9, w25
	and	w3, w2, w4
	eor	w23, w21, w23
	eor	w4, w9, w26
	eor	w25, w9, w7
	and	w0, w9, w0
	and	w9, w9, w5
	eor	w5, w23, w24
	and	w8, w25, w8
	and	w22, w4, w22
	eor	w24, w4, w2
	and	w17, w25, w17
	and	w1, w24, w1
	eor	w0, w8, w0
	and	w20, w24, w20
	eor	w8, w5, w8
	eor	w5, w22, w23
	fmov	s6, w17
	eor	w1, w1, w3
	eor	w20, w0, w20
	eor	w9, w9, w8
	eor	w5, w5, w17
	eor	w9, w1, w9
	and	w16, w26, w16
	eor	w17, w5, w20
	dup	v7.2s, w9
	and	w15, w26, w15
	mov	v6.s[1], w17
	and	w11, w19, w11
	eor	w15, w21, w15
	and	w10, w4, w10
	eor	w10, w10, w3
	eor	v6.8b, v7.8b, v6.8b
	eor	v6.8b, v6.8b, v3.8b
	mov	w9, v6.s[1]
	mov	v6.h[1], w9
	and	w9, w6, w13
	and	w13, w7, w14
	eor	w14, w1, w16
	eor	w13, w17, w13
	eor	w9, w14, w9
	eor	w11, w14, w11
	eor	w9, w9, w13
	mov	v6.h[2], w9
	eor	w9, w15, w0
	eor	w9, w9, w11
	eor	w8, w9, w8
	mov	v6.h[3], w8
	and	w8, w2, w12
	eor	w8, w20, w8
	eor	w10, w10, w8
	eon	w10, w10, w13
	mov	v6.h[4], w9
	eon	w9, w9, w8
	eor	w8, w11, w8
	mov	v6.h[5], w10
	mov	v6.h[6], w9
	mov	v6.h[7], w8
	ldr	x8, [sp, #24]                   // 8-byte Reload
	add	x8, x8, #1
	mov	x9, x8
	cmp	x8, #6
	ldr	x8, [sp, #40]                   // 8-byte Reload
	ushr	v6.8h, v6.8h, #3
	and	v6.16b, v6.16b, v0.16b
	eor	v5.16b, v6.16b, v5.16b
	add	v6.8h, v5.8h, v5.8h
	and	v6.16b, v6.16b, v1.16b
	eor	v5.16b, v6.16b, v5.16b
	shl	v6.8h, v5.8h, #2
	and	v6.16b, v6.16b, v2.16b
	eor	v5.16b, v6.16b, v5.16b
	umov	w11, v5.h[0]
	umov	w15, v5.h[1]
	umov	w1, v5.h[2]
	umov	w13, v5.h[3]
	umov	w12, v5.h[4]
	umov	w16, v5.h[5]
	umov	w2, v5.h[6]
	umov	w14, v5.h[7]
	stp	q4, q5, [x8], #32
	str	x8, [sp, #40]                   // 8-byte Spill
	b.ne	LBB5_7
// %bb.8:                               // %after.1.i
	eor	w17, w14, w15
	eor	w3, w12, w1
	eor	w5, w2, w16
	eor	w8, w17, w3
	eor	w4, w5, w11
	eor	w7, w14, w12
	eor	w9, w8, w13
	eor	w12, w4, w12
	eor	w19, w4, w15
	eor	w6, w9, w1
	eor	w2, w9, w2
	and	w21, w12, w11
	eor	w9, w14, w1
	eor	w10, w2, w7
	eor	w0, w6, w5
	eor	w24, w10, w5
	eor	w20, w10, w0
	and	w25, w19, w4
	eor	w21, w21, w9
	eor	w13, w4, w14
	eor	w15, w6, w11
	eor	w16, w19, w9
	and	w1, w10, w7
	and	w22, w6, w8
	eor	w23, w10, w11
	and	w5, w20, w3
	and	w27, w0, w9
	and	w28, w24, w17
	eor	w21, w21, w0
	eor	w25, w24, w25
	and	w26, w23, w13
	eor	w5, w5, w1
	eor	w1, w27, w1
	and	w27, w15, w16
	eor	w2, w2, w22
	eor	w21, w21, w22
	eor	w22, w25, w28
	eor	w2, w2, w27
	eor	w25, w24, w26
	eor	w22, w22, w17
	eor	w14, w28, w14
	eor	w2, w2, w5
	eor	w22, w22, w5
	eor	w14, w25, w14
	eor	w5, w21, w1
	eor	w14, w14, w1
	and	w1, w22, w2
	eor	w26, w2, w5
	eor	w21, w1, w5
	eor	w25, w22, w14
	and	w21, w21, w25
	eor	w25, w1, w14
	eor	w1, w21, w1
	and	w2, w25, w26
	eor	w21, w21, w14
	and	w1, w1, w14
	eor	w5, w2, w5
	and	w27, w21, w11
	eor	w2, w1, w25
	and	w12, w21, w12
	and	w13, w5, w13
	and	w14, w2, w5
	eor	w2, w1, w22
	eor	w1, w5, w21
	eor	w25, w14, w26
	eor	w22, w2, w21
	and	w11, w1, w7
	eor	w14, w25, w22
	eor	w26, w25, w5
	and	w7, w5, w23
	eor	w30, w14, w1
	and	w28, w14, w0
	and	w0, w25, w4
	and	w4, w30, w3
	and	w3, w2, w6
	and	w6, w25, w19
	eor	w19, w3, w27
	and	w24, w26, w24
	and	w17, w26, w17
	eor	w7, w19, w7
	eor	w0, w24, w0
	and	w20, w30, w20
	eor	w7, w7, w24
	eor	w19, w28, w19
	fmov	s4, w17
	eor	w4, w4, w11
	eor	w20, w0, w20
	eor	w6, w6, w7
	eor	w19, w19, w17
	eor	w6, w4, w6
	and	w16, w22, w16
	eor	w19, w19, w20
	dup	v5.2s, w6
	eor	w16, w4, w16
	mov	v4.s[1], w19
	eor	w12, w16, w12
	eor	w13, w19, w13
	and	w15, w22, w15
	eor	w12, w12, w13
	and	w8, w2, w8
	eor	w15, w3, w15
	eor	w8, w16, w8
	and	w10, w1, w10
	and	w9, w14, w9
	eor	w10, w20, w10
	eor	v4.8b, v5.8b, v4.8b
	eor	w9, w9, w11
	eor	w9, w9, w10
	eon	w9, w9, w13
	eor	v3.8b, v4.8b, v3.8b
	mov	w17, v3.s[1]
	mov	v3.h[1], w17
	mov	v3.h[2], w12
	eor	w12, w15, w0
	eor	w12, w12, w8
	eor	w8, w8, w10
	eor	w15, w12, w7
	mov	v3.h[3], w15
	mov	v3.h[4], w12
	mov	v3.h[5], w9
	mov	w9, #34824                      // =0x8808
	eor	w9, w10, w9
	eor	w9, w12, w9
	mov	v3.h[6], w9
	mov	v3.h[7], w8
	ldr	x8, [sp, #8]                    // 8-byte Reload
	shl	v4.8h, v3.8h, #9
	usra	v4.8h, v3.8h, #7
	ldr	q3, [x8, #192]
	and	v0.16b, v4.16b, v0.16b
	eor	v0.16b, v0.16b, v3.16b
	add	v3.8h, v0.8h, v0.8h
	and	v1.16b, v3.16b, v1.16b
	eor	v0.16b, v1.16b, v0.16b
	shl	v1.8h, v0.8h, #2
	and	v1.16b, v1.16b, v2.16b
	eor	v0.16b, v1.16b, v0.16b
	str	q0, [x8, #224]
LBB5_9:                                // %join.3
	ldp	x20, x19, [sp, #112]            // 16-byte Folded Reload
	ldr	x30, [sp, #32]                  // 8-byte Reload
	ldp	x22, x21, [sp, #96]             // 16-byte Folded Reload
	ldp	x24, x23, [sp, #80]             // 16-byte Folded Reload
	ldp	x26, x25, [sp, #64]             // 16-byte Folded Reload
	ldp	x28, x27, [sp, #48]             // 16-byte Folded Reload
	add	sp, sp, #128
	ret
                                        // -- End function
	.section	__TEXT,__const
	.p2align	4, 0x0                          // -- Begin function aes_soft::soft::blocks::slices::process_batches_outlined::<#6c9505ca656cc68d>
l_CPI6_0:
	.byte	0                               // 0x0
	.byte	4                               // 0x4
	.byte	8                               // 0x8
	.byte	12                              // 0xc
	.byte	1                               // 0x1
	.byte	5                               // 0x5
	.byte	9                               // 0x9
	.byte	13                              // 0xd
	.byte	2                               // 0x2
	.byte	6                               // 0x6
	.byte	10                              // 0xa
	.byte	14                              // 0xe
	.byte	3                               // 0x3
	.byte	7                               // 0x7
	.byte	11                              // 0xb
	.byte	15                              // 0xf
l_CPI6_1:
	.byte	5                               // 0x5
	.byte	6                               // 0x6
	.byte	7                               // 0x7
	.byte	4                               // 0x4
	.byte	9                               // 0x9
	.byte	10                              // 0xa
	.byte	11                              // 0xb
	.byte	8                               // 0x8
	.byte	13                              // 0xd
	.byte	14                              // 0xe
	.byte	15                              // 0xf
	.byte	12                              // 0xc
	.byte	1                               // 0x1
	.byte	2                               // 0x2
	.byte	3                               // 0x3
	.byte	0                               // 0x0
l_CPI6_2:
	.byte	10                              // 0xa
	.byte	11                              // 0xb
	.byte	8                               // 0x8
	.byte	9                               // 0x9
	.byte	14                              // 0xe
	.byte	15                              // 0xf
	.byte	12                              // 0xc
	.byte	13                              // 0xd
	.byte	2                               // 0x2
	.byte	3                               // 0x3
	.byte	0                               // 0x0
	.byte	1                               // 0x1
	.byte	6                               // 0x6
	.byte	7                               // 0x7
	.byte	4                               // 0x4
	.byte	5                               // 0x5
l_CPI6_3:
	.byte	6                               // 0x6
	.byte	7                               // 0x7
	.byte	4                               // 0x4
	.byte	5                               // 0x5
	.byte	10                              // 0xa
	.byte	11                              // 0xb
	.byte	8                               // 0x8
	.byte	9                               // 0x9
	.byte	14                              // 0xe
	.byte	15                              // 0xf
	.byte	12                              // 0xc
	.byte	13                              // 0xd
	.byte	2                               // 0x2
	.byte	3                               // 0x3
	.byte	0                               // 0x0
	.byte	1                               // 0x1
l_CPI6_4:
	.byte	7                               // 0x7
	.byte	4                               // 0x4
	.byte	5                               // 0x5
	.byte	6                               // 0x6
	.byte	11                              // 0xb
	.byte	8                               // 0x8
	.byte	9                               // 0x9
	.byte	10                              // 0xa
	.byte	15                              // 0xf
	.byte	12                              // 0xc
	.byte	13                              // 0xd
	.byte	14                              // 0xe
	.byte	3                               // 0x3
	.byte	0                               // 0x0
	.byte	1                               // 0x1
	.byte	2                               // 0x2
l_CPI6_5:
	.byte	2                               // 0x2
	.byte	3                               // 0x3
	.byte	4                               // 0x4
	.byte	5                               // 0x5
	.byte	6                               // 0x6
	.byte	7                               // 0x7
	.byte	8                               // 0x8
	.byte	9                               // 0x9
	.byte	10                              // 0xa
	.byte	11                              // 0xb
	.byte	12                              // 0xc
	.byte	13                              // 0xd
	.byte	14                              // 0xe
	.byte	15                              // 0xf
	.byte	255                             // 0xff
	.byte	255                             // 0xff
l_CPI6_6:
	.byte	255                             // 0xff
	.byte	255                             // 0xff
	.byte	0                               // 0x0
	.byte	1                               // 0x1
	.byte	2                               // 0x2
	.byte	3                               // 0x3
	.byte	4                               // 0x4
	.byte	5                               // 0x5
	.byte	6                               // 0x6
	.byte	7                               // 0x7
	.byte	8                               // 0x8
	.byte	9                               // 0x9
	.byte	10                              // 0xa
	.byte	11                              // 0xb
	.byte	12                              // 0xc
	.byte	13                              // 0xd
	.section	__TEXT,__text,regular,pure_instructions
	.p2align	2
"aes_soft::soft::blocks::slices::process_batches_outlined::<#6c9505ca656cc68d>": // @"aes_soft::soft::blocks::slices::process_batches_outlined::<#6c9505ca656cc68d>"
// %bb.0:                               // %start
	sub	sp, sp, #80
	lsr	x9, x1, #3
	mov	x8, xzr
	stp	d15, d14, [sp, #16]             // 16-byte Folded Spill
	stp	d13, d12, [sp, #32]             // 16-byte Folded Spill
	sub	x12, x9, #3
	sub	x9, x9, #1
	stp	d11, d10, [sp, #48]             // 16-byte Folded Spill
	and	x14, x12, #0xc
	lsr	x10, x12, #2
	add	x12, x0, x12, lsl #7
	add	x11, x0, x14, lsl #7
	add	x13, x0, x9, lsl #7
	orr	x14, x14, #0x2
	stp	d9, d8, [sp, #64]               // 16-byte Folded Spill
	b	LBB6_3
LBB6_1:                                // %else.12.i
                                        //   in Loop: Header=BB6_3 Depth=1
	adrp	x16, l_CPI6_5@PAGE
	movi	v23.2d, #0x00ffff00000000
	ldr	q0, [x16, l_CPI6_5@PAGEOFF]
	adrp	x16, l_CPI6_6@PAGE
	ldr	q25, [x16, l_CPI6_6@PAGEOFF]
	tbl	v1.16b, { v2.16b }, v0.16b
	tbl	v3.16b, { v19.16b }, v0.16b
	tbl	v4.16b, { v6.16b }, v0.16b
	tbl	v7.16b, { v22.16b }, v0.16b
	tbl	v17.16b, { v18.16b }, v0.16b
	tbl	v20.16b, { v21.16b }, v0.16b
	tbl	v24.16b, { v16.16b }, v0.16b
	tbl	v0.16b, { v5.16b }, v0.16b
	eor	v1.16b, v1.16b, v2.16b
	eor	v3.16b, v3.16b, v19.16b
	eor	v4.16b, v4.16b, v6.16b
	eor	v7.16b, v7.16b, v22.16b
	eor	v17.16b, v17.16b, v18.16b
	eor	v20.16b, v20.16b, v21.16b
	eor	v24.16b, v24.16b, v16.16b
	eor	v0.16b, v0.16b, v5.16b
	and	v1.16b, v1.16b, v23.16b
	and	v3.16b, v3.16b, v23.16b
	and	v4.16b, v4.16b, v23.16b
	and	v7.16b, v7.16b, v23.16b
	and	v17.16b, v17.16b, v23.16b
	and	v20.16b, v20.16b, v23.16b
	and	v24.16b, v24.16b, v23.16b
	and	v0.16b, v0.16b, v23.16b
	tbl	v26.16b, { v1.16b }, v25.16b
	eor	v1.16b, v2.16b, v1.16b
	tbl	v2.16b, { v3.16b }, v25.16b
	eor	v3.16b, v19.16b, v3.16b
	tbl	v19.16b, { v4.16b }, v25.16b
	tbl	v27.16b, { v7.16b }, v25.16b
	eor	v7.16b, v22.16b, v7.16b
	tbl	v22.16b, { v17.16b }, v25.16b
	eor	v17.16b, v18.16b, v17.16b
	tbl	v18.16b, { v20.16b }, v25.16b
	tbl	v28.16b, { v24.16b }, v25.16b
	tbl	v25.16b, { v0.16b }, v25.16b
	eor	v23.16b, v6.16b, v4.16b
	eor	v20.16b, v21.16b, v20.16b
	eor	v16.16b, v16.16b, v24.16b
	eor	v0.16b, v5.16b, v0.16b
	eor	v6.16b, v1.16b, v26.16b
	eor	v4.16b, v3.16b, v2.16b
	eor	v7.16b, v7.16b, v27.16b
	eor	v3.16b, v17.16b, v22.16b
	eor	v1.16b, v23.16b, v19.16b
	eor	v17.16b, v20.16b, v18.16b
	eor	v19.16b, v16.16b, v28.16b
	eor	v27.16b, v0.16b, v25.16b
LBB6_2:                                // %"aes_soft::soft::ciphers::planes::EncryptPlaneCipher::process_planes::<#dadbdb3fdaf0a1b1>.exit"
                                        //   in Loop: Header=BB6_3 Depth=1
	eor	v5.16b, v4.16b, v27.16b
	eor	v16.16b, v1.16b, v3.16b
	add	x8, x8, #8
	eor	v0.16b, v17.16b, v19.16b
	eor	v18.16b, v3.16b, v27.16b
	cmp	x8, x3
	eor	v2.16b, v5.16b, v16.16b
	eor	v17.16b, v6.16b, v0.16b
	eor	v7.16b, v2.16b, v7.16b
	eor	v28.16b, v7.16b, v19.16b
	eor	v26.16b, v7.16b, v1.16b
	eor	v7.16b, v17.16b, v4.16b
	eor	v1.16b, v1.16b, v27.16b
	eor	v19.16b, v17.16b, v3.16b
	eor	v3.16b, v17.16b, v27.16b
	eor	v4.16b, v28.16b, v18.16b
	eor	v20.16b, v26.16b, v0.16b
	and	v29.16b, v7.16b, v17.16b
	eor	v23.16b, v7.16b, v1.16b
	eor	v24.16b, v26.16b, v6.16b
	and	v31.16b, v19.16b, v6.16b
	eor	v22.16b, v4.16b, v0.16b
	and	v0.16b, v26.16b, v2.16b
	eor	v21.16b, v4.16b, v20.16b
	eor	v25.16b, v4.16b, v6.16b
	and	v8.16b, v4.16b, v18.16b
	and	v9.16b, v24.16b, v23.16b
	eor	v31.16b, v31.16b, v1.16b
	and	v12.16b, v20.16b, v1.16b
	and	v30.16b, v22.16b, v5.16b
	eor	v29.16b, v22.16b, v29.16b
	eor	v28.16b, v28.16b, v0.16b
	and	v10.16b, v21.16b, v16.16b
	and	v11.16b, v25.16b, v3.16b
	eor	v0.16b, v20.16b, v0.16b
	eor	v29.16b, v29.16b, v30.16b
	eor	v28.16b, v28.16b, v9.16b
	eor	v27.16b, v30.16b, v27.16b
	eor	v9.16b, v10.16b, v8.16b
	eor	v10.16b, v22.16b, v11.16b
	eor	v30.16b, v12.16b, v8.16b
	eor	v0.16b, v31.16b, v0.16b
	ldp	q11, q12, [x13]
	eor	v29.16b, v29.16b, v5.16b
	eor	v28.16b, v28.16b, v9.16b
	eor	v27.16b, v10.16b, v27.16b
	eor	v0.16b, v0.16b, v30.16b
	eor	v31.16b, v29.16b, v9.16b
	eor	v29.16b, v27.16b, v30.16b
	and	v27.16b, v31.16b, v28.16b
	eor	v28.16b, v28.16b, v0.16b
	eor	v30.16b, v29.16b, v31.16b
	eor	v8.16b, v27.16b, v0.16b
	and	v30.16b, v8.16b, v30.16b
	eor	v8.16b, v27.16b, v29.16b
	eor	v27.16b, v30.16b, v27.16b
	and	v9.16b, v8.16b, v28.16b
	and	v10.16b, v27.16b, v29.16b
	eor	v27.16b, v9.16b, v0.16b
	eor	v29.16b, v30.16b, v29.16b
	eor	v0.16b, v10.16b, v8.16b
	eor	v30.16b, v10.16b, v31.16b
	eor	v31.16b, v27.16b, v29.16b
	and	v25.16b, v27.16b, v25.16b
	and	v19.16b, v29.16b, v19.16b
	and	v3.16b, v27.16b, v3.16b
	and	v0.16b, v0.16b, v27.16b
	eor	v9.16b, v30.16b, v29.16b
	and	v18.16b, v31.16b, v18.16b
	and	v2.16b, v30.16b, v2.16b
	and	v4.16b, v31.16b, v4.16b
	eor	v8.16b, v0.16b, v28.16b
	and	v0.16b, v29.16b, v6.16b
	and	v6.16b, v30.16b, v26.16b
	and	v24.16b, v9.16b, v24.16b
	and	v23.16b, v9.16b, v23.16b
	eor	v28.16b, v8.16b, v9.16b
	eor	v10.16b, v8.16b, v27.16b
	eor	v0.16b, v6.16b, v0.16b
	and	v17.16b, v8.16b, v17.16b
	and	v7.16b, v8.16b, v7.16b
	eor	v6.16b, v24.16b, v6.16b
	eor	v26.16b, v28.16b, v31.16b
	and	v22.16b, v10.16b, v22.16b
	and	v20.16b, v28.16b, v20.16b
	eor	v25.16b, v0.16b, v25.16b
	and	v5.16b, v10.16b, v5.16b
	and	v1.16b, v28.16b, v1.16b
	ldp	q9, q10, [x13, #64]
	and	v16.16b, v26.16b, v16.16b
	eor	v17.16b, v22.16b, v17.16b
	and	v21.16b, v26.16b, v21.16b
	eor	v0.16b, v20.16b, v0.16b
	eor	v20.16b, v25.16b, v22.16b
	eor	v16.16b, v16.16b, v18.16b
	eor	v21.16b, v17.16b, v21.16b
	eor	v18.16b, v10.16b, v18.16b
	eor	v0.16b, v0.16b, v5.16b
	eor	v7.16b, v20.16b, v7.16b
	eor	v6.16b, v6.16b, v17.16b
	eor	v5.16b, v5.16b, v11.16b
	eor	v22.16b, v16.16b, v23.16b
	ldp	q17, q23, [x13, #32]
	eor	v0.16b, v0.16b, v21.16b
	eor	v1.16b, v18.16b, v1.16b
	eor	v4.16b, v21.16b, v4.16b
	eor	v7.16b, v7.16b, v16.16b
	ldp	q16, q18, [x13, #96]
	eor	v2.16b, v22.16b, v2.16b
	eor	v17.16b, v19.16b, v17.16b
	eor	v20.16b, v20.16b, v23.16b
	eor	v3.16b, v0.16b, v3.16b
	eor	v0.16b, v0.16b, v12.16b
	eor	v1.16b, v1.16b, v4.16b
	eor	v5.16b, v5.16b, v7.16b
	eor	v16.16b, v4.16b, v16.16b
	eor	v4.16b, v4.16b, v18.16b
	eor	v6.16b, v6.16b, v2.16b
	eor	v17.16b, v17.16b, v22.16b
	movi	v18.16b, #85
	eor	v0.16b, v0.16b, v7.16b
	eor	v21.16b, v4.16b, v2.16b
	eor	v19.16b, v6.16b, v9.16b
	eor	v7.16b, v17.16b, v3.16b
	eor	v3.16b, v1.16b, v3.16b
	ushr	v1.16b, v5.16b, #1
	eor	v16.16b, v16.16b, v6.16b
	eor	v6.16b, v20.16b, v6.16b
	ushr	v17.16b, v19.16b, #1
	ushr	v2.16b, v7.16b, #1
	eor	v1.16b, v0.16b, v1.16b
	ushr	v4.16b, v16.16b, #1
	eor	v17.16b, v3.16b, v17.16b
	eor	v2.16b, v6.16b, v2.16b
	and	v1.16b, v1.16b, v18.16b
	eor	v4.16b, v21.16b, v4.16b
	and	v17.16b, v17.16b, v18.16b
	and	v20.16b, v2.16b, v18.16b
	add	v2.16b, v1.16b, v1.16b
	and	v18.16b, v4.16b, v18.16b
	eor	v1.16b, v1.16b, v0.16b
	add	v4.16b, v17.16b, v17.16b
	add	v0.16b, v20.16b, v20.16b
	eor	v3.16b, v17.16b, v3.16b
	eor	v2.16b, v2.16b, v5.16b
	add	v5.16b, v18.16b, v18.16b
	eor	v6.16b, v20.16b, v6.16b
	ushr	v17.16b, v1.16b, #2
	eor	v18.16b, v18.16b, v21.16b
	movi	v20.16b, #51
	eor	v4.16b, v4.16b, v19.16b
	eor	v0.16b, v0.16b, v7.16b
	ushr	v19.16b, v3.16b, #2
	ushr	v7.16b, v2.16b, #2
	eor	v5.16b, v5.16b, v16.16b
	eor	v17.16b, v6.16b, v17.16b
	ushr	v16.16b, v4.16b, #2
	eor	v19.16b, v18.16b, v19.16b
	eor	v7.16b, v0.16b, v7.16b
	and	v17.16b, v17.16b, v20.16b
	eor	v16.16b, v5.16b, v16.16b
	and	v19.16b, v19.16b, v20.16b
	and	v7.16b, v7.16b, v20.16b
	eor	v6.16b, v17.16b, v6.16b
	shl	v17.16b, v17.16b, #2
	and	v16.16b, v16.16b, v20.16b
	movi	v20.16b, #15
	eor	v18.16b, v19.16b, v18.16b
	eor	v0.16b, v7.16b, v0.16b
	shl	v7.16b, v7.16b, #2
	shl	v19.16b, v19.16b, #2
	ushr	v21.16b, v6.16b, #4
	eor	v1.16b, v17.16b, v1.16b
	eor	v5.16b, v16.16b, v5.16b
	shl	v16.16b, v16.16b, #2
	ushr	v22.16b, v0.16b, #4
	eor	v2.16b, v7.16b, v2.16b
	and	v7.16b, v18.16b, v20.16b
	eor	v3.16b, v19.16b, v3.16b
	and	v23.16b, v5.16b, v20.16b
	eor	v4.16b, v16.16b, v4.16b
	ushr	v17.16b, v2.16b, #4
	eor	v7.16b, v7.16b, v21.16b
	ushr	v21.16b, v1.16b, #4
	eor	v16.16b, v23.16b, v22.16b
	and	v19.16b, v4.16b, v20.16b
	and	v20.16b, v3.16b, v20.16b
	shl	v23.16b, v7.16b, #4
	eor	v7.16b, v7.16b, v18.16b
	shl	v22.16b, v16.16b, #4
	eor	v17.16b, v19.16b, v17.16b
	eor	v19.16b, v20.16b, v21.16b
	eor	v6.16b, v23.16b, v6.16b
	eor	v5.16b, v16.16b, v5.16b
	eor	v0.16b, v22.16b, v0.16b
	eor	v4.16b, v17.16b, v4.16b
	eor	v3.16b, v19.16b, v3.16b
	shl	v20.16b, v17.16b, #4
	shl	v21.16b, v19.16b, #4
	ldr	q17, [sp]                       // 16-byte Reload
	tbl	v0.16b, { v0.16b }, v17.16b
	tbl	v6.16b, { v6.16b }, v17.16b
	tbl	v4.16b, { v4.16b }, v17.16b
	tbl	v3.16b, { v3.16b }, v17.16b
	eor	v2.16b, v20.16b, v2.16b
	eor	v1.16b, v21.16b, v1.16b
	tbl	v2.16b, { v2.16b }, v17.16b
	stp	q0, q6, [x15, #32]
	tbl	v0.16b, { v1.16b }, v17.16b
	tbl	v1.16b, { v5.16b }, v17.16b
	stp	q4, q3, [x15, #64]
	tbl	v4.16b, { v7.16b }, v17.16b
	stp	q2, q0, [x15]
	stp	q1, q4, [x15, #96]
	b.hs	LBB6_7
LBB6_3:                                // %join.5.i
                                        // =>This Loop Header: Depth=1
                                        //     Child Loop BB6_4 Depth 2
	add	x15, x2, x8, lsl #4
	adrp	x16, l_CPI6_0@PAGE
	movi	v19.16b, #85
	ldr	q0, [x16, l_CPI6_0@PAGEOFF]
	ldp	q26, q25, [x0, #96]
	ldp	q1, q5, [x15, #64]
	add	x16, x0, #320
	ldp	q2, q3, [x15]
	mov	x17, x10
	ldp	q4, q16, [x15, #32]
	str	q0, [sp]                        // 16-byte Spill
	tbl	v7.16b, { v1.16b }, v0.16b
	ldp	q1, q17, [x15, #96]
	tbl	v2.16b, { v2.16b }, v0.16b
	tbl	v3.16b, { v3.16b }, v0.16b
	tbl	v5.16b, { v5.16b }, v0.16b
	tbl	v18.16b, { v4.16b }, v0.16b
	tbl	v16.16b, { v16.16b }, v0.16b
	tbl	v6.16b, { v1.16b }, v0.16b
	tbl	v17.16b, { v17.16b }, v0.16b
	ushr	v4.16b, v7.16b, #1
	ushr	v1.16b, v2.16b, #1
	ushr	v20.16b, v18.16b, #1
	ushr	v21.16b, v6.16b, #1
	eor	v4.16b, v5.16b, v4.16b
	eor	v1.16b, v3.16b, v1.16b
	eor	v20.16b, v16.16b, v20.16b
	eor	v21.16b, v17.16b, v21.16b
	and	v22.16b, v4.16b, v19.16b
	and	v1.16b, v1.16b, v19.16b
	and	v20.16b, v20.16b, v19.16b
	and	v19.16b, v21.16b, v19.16b
	add	v23.16b, v22.16b, v22.16b
	eor	v5.16b, v22.16b, v5.16b
	add	v21.16b, v1.16b, v1.16b
	eor	v4.16b, v1.16b, v3.16b
	add	v3.16b, v20.16b, v20.16b
	add	v22.16b, v19.16b, v19.16b
	eor	v1.16b, v21.16b, v2.16b
	eor	v2.16b, v23.16b, v7.16b
	eor	v7.16b, v20.16b, v16.16b
	eor	v16.16b, v19.16b, v17.16b
	eor	v3.16b, v3.16b, v18.16b
	ushr	v17.16b, v4.16b, #2
	ushr	v18.16b, v5.16b, #2
	eor	v6.16b, v22.16b, v6.16b
	movi	v21.16b, #51
	ushr	v19.16b, v1.16b, #2
	ushr	v20.16b, v2.16b, #2
	eor	v17.16b, v7.16b, v17.16b
	eor	v18.16b, v16.16b, v18.16b
	eor	v19.16b, v3.16b, v19.16b
	eor	v20.16b, v6.16b, v20.16b
	and	v17.16b, v17.16b, v21.16b
	and	v18.16b, v18.16b, v21.16b
	and	v19.16b, v19.16b, v21.16b
	and	v20.16b, v20.16b, v21.16b
	movi	v21.16b, #15
	shl	v22.16b, v17.16b, #2
	eor	v7.16b, v17.16b, v7.16b
	shl	v23.16b, v18.16b, #2
	eor	v16.16b, v18.16b, v16.16b
	shl	v17.16b, v19.16b, #2
	shl	v24.16b, v20.16b, #2
	eor	v3.16b, v19.16b, v3.16b
	eor	v4.16b, v22.16b, v4.16b
	ldp	q22, q18, [x0, #32]
	eor	v5.16b, v23.16b, v5.16b
	eor	v6.16b, v20.16b, v6.16b
	and	v19.16b, v16.16b, v21.16b
	eor	v1.16b, v17.16b, v1.16b
	eor	v2.16b, v24.16b, v2.16b
	ushr	v17.16b, v7.16b, #4
	ushr	v20.16b, v4.16b, #4
	eor	v16.16b, v16.16b, v25.16b
	eor	v7.16b, v18.16b, v7.16b
	and	v23.16b, v5.16b, v21.16b
	ushr	v18.16b, v3.16b, #4
	eor	v3.16b, v22.16b, v3.16b
	ushr	v24.16b, v1.16b, #4
	and	v25.16b, v2.16b, v21.16b
	and	v21.16b, v6.16b, v21.16b
	eor	v17.16b, v19.16b, v17.16b
	eor	v19.16b, v6.16b, v26.16b
	eor	v20.16b, v23.16b, v20.16b
	ldp	q23, q6, [x0, #64]
	eor	v24.16b, v25.16b, v24.16b
	eor	v18.16b, v21.16b, v18.16b
	ldp	q25, q21, [x0]
	shl	v26.16b, v17.16b, #4
	eor	v5.16b, v5.16b, v6.16b
	eor	v2.16b, v2.16b, v23.16b
	shl	v23.16b, v20.16b, #4
	shl	v27.16b, v24.16b, #4
	eor	v6.16b, v16.16b, v17.16b
	eor	v4.16b, v21.16b, v4.16b
	shl	v21.16b, v18.16b, #4
	eor	v1.16b, v25.16b, v1.16b
	eor	v25.16b, v19.16b, v18.16b
	eor	v18.16b, v5.16b, v20.16b
	eor	v22.16b, v2.16b, v24.16b
	eor	v17.16b, v26.16b, v7.16b
	eor	v24.16b, v21.16b, v3.16b
	eor	v21.16b, v23.16b, v4.16b
	eor	v5.16b, v27.16b, v1.16b
LBB6_4:                                // %join.7.i
                                        //   Parent Loop BB6_3 Depth=1
                                        // =>  This Inner Loop Header: Depth=2
	eor	v2.16b, v6.16b, v21.16b
	eor	v16.16b, v22.16b, v24.16b
	adrp	x1, l_CPI6_1@PAGE
	eor	v18.16b, v25.16b, v18.16b
	subs	x17, x17, #1
	eor	v1.16b, v2.16b, v16.16b
	eor	v23.16b, v18.16b, v5.16b
	eor	v3.16b, v1.16b, v17.16b
	eor	v17.16b, v6.16b, v22.16b
	eor	v19.16b, v23.16b, v21.16b
	eor	v7.16b, v23.16b, v22.16b
	eor	v28.16b, v3.16b, v25.16b
	eor	v25.16b, v3.16b, v24.16b
	eor	v3.16b, v6.16b, v24.16b
	and	v29.16b, v19.16b, v23.16b
	and	v30.16b, v7.16b, v5.16b
	eor	v4.16b, v28.16b, v17.16b
	eor	v24.16b, v25.16b, v18.16b
	eor	v20.16b, v19.16b, v3.16b
	eor	v21.16b, v25.16b, v5.16b
	and	v31.16b, v25.16b, v1.16b
	eor	v30.16b, v30.16b, v3.16b
	eor	v26.16b, v4.16b, v18.16b
	eor	v18.16b, v23.16b, v6.16b
	eor	v22.16b, v4.16b, v24.16b
	eor	v27.16b, v4.16b, v5.16b
	and	v9.16b, v4.16b, v17.16b
	and	v10.16b, v21.16b, v20.16b
	eor	v28.16b, v28.16b, v31.16b
	and	v13.16b, v24.16b, v3.16b
	eor	v30.16b, v30.16b, v24.16b
	and	v8.16b, v26.16b, v2.16b
	eor	v29.16b, v26.16b, v29.16b
	and	v11.16b, v22.16b, v16.16b
	and	v12.16b, v27.16b, v18.16b
	eor	v28.16b, v28.16b, v10.16b
	eor	v30.16b, v30.16b, v31.16b
	eor	v29.16b, v29.16b, v8.16b
	eor	v10.16b, v11.16b, v9.16b
	eor	v6.16b, v8.16b, v6.16b
	eor	v11.16b, v26.16b, v12.16b
	eor	v8.16b, v13.16b, v9.16b
	eor	v29.16b, v29.16b, v2.16b
	eor	v28.16b, v28.16b, v10.16b
	eor	v6.16b, v11.16b, v6.16b
	eor	v30.16b, v30.16b, v8.16b
	eor	v29.16b, v29.16b, v10.16b
	eor	v31.16b, v6.16b, v8.16b
	and	v6.16b, v29.16b, v28.16b
	eor	v8.16b, v31.16b, v29.16b
	eor	v9.16b, v6.16b, v30.16b
	and	v8.16b, v9.16b, v8.16b
	eor	v9.16b, v28.16b, v30.16b
	eor	v28.16b, v6.16b, v31.16b
	eor	v6.16b, v8.16b, v6.16b
	and	v10.16b, v28.16b, v9.16b
	and	v11.16b, v6.16b, v31.16b
	eor	v6.16b, v10.16b, v30.16b
	eor	v30.16b, v11.16b, v28.16b
	eor	v28.16b, v8.16b, v31.16b
	eor	v29.16b, v11.16b, v29.16b
	and	v27.16b, v6.16b, v27.16b
	and	v31.16b, v30.16b, v6.16b
	eor	v30.16b, v29.16b, v28.16b
	and	v5.16b, v28.16b, v5.16b
	and	v25.16b, v29.16b, v25.16b
	eor	v8.16b, v6.16b, v28.16b
	and	v1.16b, v29.16b, v1.16b
	and	v7.16b, v28.16b, v7.16b
	eor	v31.16b, v31.16b, v9.16b
	and	v21.16b, v30.16b, v21.16b
	and	v20.16b, v30.16b, v20.16b
	eor	v5.16b, v25.16b, v5.16b
	and	v17.16b, v8.16b, v17.16b
	and	v4.16b, v8.16b, v4.16b
	eor	v9.16b, v31.16b, v30.16b
	eor	v10.16b, v31.16b, v6.16b
	and	v23.16b, v31.16b, v23.16b
	eor	v27.16b, v5.16b, v27.16b
	and	v19.16b, v31.16b, v19.16b
	eor	v21.16b, v21.16b, v25.16b
	and	v6.16b, v6.16b, v18.16b
	eor	v11.16b, v9.16b, v8.16b
	and	v26.16b, v10.16b, v26.16b
	and	v24.16b, v9.16b, v24.16b
	and	v31.16b, v10.16b, v2.16b
	and	v3.16b, v9.16b, v3.16b
	ldr	q2, [x1, l_CPI6_1@PAGEOFF]
	adrp	x1, l_CPI6_2@PAGE
	and	v12.16b, v11.16b, v16.16b
	eor	v23.16b, v26.16b, v23.16b
	and	v22.16b, v11.16b, v22.16b
	eor	v16.16b, v27.16b, v26.16b
	eor	v5.16b, v24.16b, v5.16b
	eor	v3.16b, v3.16b, v17.16b
	eor	v24.16b, v12.16b, v17.16b
	eor	v22.16b, v23.16b, v22.16b
	eor	v19.16b, v16.16b, v19.16b
	eor	v5.16b, v5.16b, v31.16b
	eor	v20.16b, v24.16b, v20.16b
	eor	v4.16b, v22.16b, v4.16b
	eor	v18.16b, v19.16b, v24.16b
	eor	v5.16b, v5.16b, v22.16b
	eor	v19.16b, v21.16b, v23.16b
	eor	v1.16b, v20.16b, v1.16b
	eor	v17.16b, v5.16b, v6.16b
	eor	v22.16b, v18.16b, v31.16b
	eor	v6.16b, v20.16b, v7.16b
	eor	v7.16b, v18.16b, v5.16b
	eor	v20.16b, v3.16b, v4.16b
	ldur	q31, [x16, #-80]
	eor	v18.16b, v19.16b, v1.16b
	eor	v23.16b, v1.16b, v4.16b
	ldr	q1, [x1, l_CPI6_2@PAGEOFF]
	eor	v24.16b, v6.16b, v17.16b
	tbl	v3.16b, { v22.16b }, v2.16b
	adrp	x1, l_CPI6_3@PAGE
	tbl	v26.16b, { v7.16b }, v2.16b
	ldp	q21, q19, [x16, #-176]
	eor	v27.16b, v18.16b, v4.16b
	eor	v16.16b, v18.16b, v16.16b
	tbl	v28.16b, { v18.16b }, v2.16b
	tbl	v29.16b, { v23.16b }, v2.16b
	ldp	q5, q25, [x16, #-144]
	eor	v17.16b, v20.16b, v17.16b
	tbl	v20.16b, { v24.16b }, v2.16b
	eor	v4.16b, v3.16b, v22.16b
	tbl	v22.16b, { v16.16b }, v2.16b
	tbl	v8.16b, { v27.16b }, v2.16b
	eor	v21.16b, v21.16b, v26.16b
	eor	v25.16b, v25.16b, v28.16b
	eor	v7.16b, v26.16b, v7.16b
	eor	v18.16b, v28.16b, v18.16b
	eor	v23.16b, v29.16b, v23.16b
	tbl	v9.16b, { v17.16b }, v2.16b
	eor	v24.16b, v20.16b, v24.16b
	eor	v21.16b, v21.16b, v4.16b
	eor	v19.16b, v19.16b, v20.16b
	eor	v20.16b, v31.16b, v29.16b
	eor	v16.16b, v22.16b, v16.16b
	eor	v26.16b, v8.16b, v27.16b
	eor	v25.16b, v25.16b, v23.16b
	ldp	q6, q30, [x16, #-112]
	tbl	v27.16b, { v7.16b }, v1.16b
	tbl	v28.16b, { v24.16b }, v1.16b
	tbl	v29.16b, { v18.16b }, v1.16b
	tbl	v31.16b, { v23.16b }, v1.16b
	eor	v21.16b, v21.16b, v23.16b
	eor	v5.16b, v5.16b, v23.16b
	eor	v7.16b, v19.16b, v7.16b
	eor	v19.16b, v25.16b, v16.16b
	eor	v20.16b, v20.16b, v26.16b
	eor	v17.16b, v9.16b, v17.16b
	eor	v6.16b, v6.16b, v9.16b
	eor	v30.16b, v30.16b, v8.16b
	eor	v21.16b, v21.16b, v27.16b
	eor	v5.16b, v5.16b, v24.16b
	ldur	q25, [x16, #-192]
	eor	v24.16b, v7.16b, v28.16b
	eor	v28.16b, v19.16b, v29.16b
	eor	v29.16b, v20.16b, v31.16b
	tbl	v19.16b, { v17.16b }, v1.16b
	eor	v6.16b, v6.16b, v18.16b
	tbl	v16.16b, { v16.16b }, v1.16b
	tbl	v18.16b, { v26.16b }, v1.16b
	eor	v3.16b, v25.16b, v3.16b
	eor	v17.16b, v30.16b, v17.16b
	eor	v20.16b, v5.16b, v22.16b
	eor	v5.16b, v29.16b, v21.16b
	eor	v7.16b, v28.16b, v24.16b
	tbl	v22.16b, { v4.16b }, v1.16b
	eor	v3.16b, v3.16b, v23.16b
	eor	v6.16b, v6.16b, v19.16b
	eor	v18.16b, v17.16b, v18.16b
	eor	v16.16b, v20.16b, v16.16b
	eor	v4.16b, v7.16b, v5.16b
	eor	v17.16b, v28.16b, v29.16b
	eor	v27.16b, v3.16b, v22.16b
	eor	v22.16b, v6.16b, v18.16b
	eor	v3.16b, v16.16b, v4.16b
	eor	v20.16b, v22.16b, v27.16b
	eor	v30.16b, v3.16b, v18.16b
	eor	v25.16b, v3.16b, v24.16b
	eor	v3.16b, v29.16b, v24.16b
	eor	v19.16b, v20.16b, v21.16b
	eor	v6.16b, v30.16b, v17.16b
	eor	v23.16b, v25.16b, v22.16b
	eor	v18.16b, v20.16b, v28.16b
	eor	v16.16b, v20.16b, v29.16b
	and	v8.16b, v25.16b, v4.16b
	and	v31.16b, v19.16b, v20.16b
	eor	v26.16b, v6.16b, v22.16b
	eor	v21.16b, v19.16b, v3.16b
	eor	v22.16b, v25.16b, v27.16b
	eor	v24.16b, v6.16b, v23.16b
	eor	v28.16b, v6.16b, v27.16b
	and	v10.16b, v18.16b, v27.16b
	and	v11.16b, v6.16b, v17.16b
	eor	v30.16b, v30.16b, v8.16b
	and	v9.16b, v26.16b, v5.16b
	eor	v31.16b, v26.16b, v31.16b
	and	v15.16b, v23.16b, v3.16b
	and	v12.16b, v22.16b, v21.16b
	and	v13.16b, v24.16b, v7.16b
	and	v14.16b, v28.16b, v16.16b
	eor	v10.16b, v10.16b, v3.16b
	eor	v8.16b, v23.16b, v8.16b
	eor	v31.16b, v31.16b, v9.16b
	eor	v29.16b, v9.16b, v29.16b
	eor	v9.16b, v15.16b, v11.16b
	eor	v30.16b, v30.16b, v12.16b
	eor	v12.16b, v13.16b, v11.16b
	eor	v13.16b, v26.16b, v14.16b
	eor	v8.16b, v10.16b, v8.16b
	eor	v31.16b, v31.16b, v5.16b
	eor	v30.16b, v30.16b, v12.16b
	eor	v29.16b, v13.16b, v29.16b
	eor	v8.16b, v8.16b, v9.16b
	eor	v31.16b, v31.16b, v12.16b
	eor	v9.16b, v29.16b, v9.16b
	and	v29.16b, v31.16b, v30.16b
	eor	v30.16b, v30.16b, v8.16b
	eor	v10.16b, v9.16b, v31.16b
	eor	v11.16b, v29.16b, v8.16b
	and	v10.16b, v11.16b, v10.16b
	eor	v11.16b, v29.16b, v9.16b
	eor	v29.16b, v10.16b, v29.16b
	and	v12.16b, v11.16b, v30.16b
	and	v13.16b, v29.16b, v9.16b
	eor	v29.16b, v12.16b, v8.16b
	eor	v9.16b, v10.16b, v9.16b
	eor	v8.16b, v13.16b, v11.16b
	eor	v31.16b, v13.16b, v31.16b
	and	v27.16b, v9.16b, v27.16b
	and	v28.16b, v29.16b, v28.16b
	and	v18.16b, v9.16b, v18.16b
	and	v16.16b, v29.16b, v16.16b
	and	v8.16b, v8.16b, v29.16b
	eor	v10.16b, v31.16b, v9.16b
	and	v25.16b, v31.16b, v25.16b
	and	v4.16b, v31.16b, v4.16b
	eor	v30.16b, v8.16b, v30.16b
	eor	v8.16b, v29.16b, v9.16b
	eor	v27.16b, v25.16b, v27.16b
	and	v22.16b, v10.16b, v22.16b
	and	v21.16b, v10.16b, v21.16b
	eor	v11.16b, v30.16b, v10.16b
	eor	v12.16b, v30.16b, v29.16b
	and	v20.16b, v30.16b, v20.16b
	eor	v28.16b, v27.16b, v28.16b
	and	v17.16b, v8.16b, v17.16b
	and	v19.16b, v30.16b, v19.16b
	eor	v22.16b, v22.16b, v25.16b
	and	v6.16b, v8.16b, v6.16b
	eor	v13.16b, v11.16b, v8.16b
	and	v26.16b, v12.16b, v26.16b
	and	v23.16b, v11.16b, v23.16b
	and	v3.16b, v11.16b, v3.16b
	ldr	q8, [x16, #48]
	ldp	q30, q31, [x16, #16]
	and	v14.16b, v13.16b, v7.16b
	and	v7.16b, v12.16b, v5.16b
	eor	v20.16b, v26.16b, v20.16b
	and	v24.16b, v13.16b, v24.16b
	eor	v5.16b, v28.16b, v26.16b
	eor	v23.16b, v23.16b, v27.16b
	eor	v3.16b, v3.16b, v17.16b
	eor	v26.16b, v14.16b, v17.16b
	eor	v24.16b, v20.16b, v24.16b
	eor	v19.16b, v5.16b, v19.16b
	eor	v23.16b, v23.16b, v7.16b
	eor	v20.16b, v22.16b, v20.16b
	eor	v21.16b, v26.16b, v21.16b
	eor	v19.16b, v19.16b, v26.16b
	eor	v23.16b, v23.16b, v24.16b
	eor	v17.16b, v24.16b, v6.16b
	ldp	q6, q29, [x16, #-16]
	eor	v22.16b, v21.16b, v4.16b
	eor	v18.16b, v21.16b, v18.16b
	ldr	q4, [x1, l_CPI6_3@PAGEOFF]
	eor	v16.16b, v23.16b, v16.16b
	eor	v7.16b, v19.16b, v7.16b
	eor	v19.16b, v19.16b, v23.16b
	eor	v23.16b, v3.16b, v17.16b
	ldp	q25, q21, [x16, #-48]
	eor	v20.16b, v20.16b, v22.16b
	eor	v22.16b, v22.16b, v17.16b
	adrp	x1, l_CPI6_4@PAGE
	eor	v18.16b, v18.16b, v16.16b
	tbl	v3.16b, { v7.16b }, v4.16b
	tbl	v24.16b, { v19.16b }, v4.16b
	eor	v16.16b, v23.16b, v16.16b
	eor	v17.16b, v20.16b, v17.16b
	eor	v26.16b, v20.16b, v5.16b
	tbl	v27.16b, { v20.16b }, v4.16b
	tbl	v28.16b, { v22.16b }, v4.16b
	tbl	v23.16b, { v18.16b }, v4.16b
	eor	v5.16b, v3.16b, v7.16b
	eor	v7.16b, v25.16b, v24.16b
	eor	v19.16b, v24.16b, v19.16b
	tbl	v25.16b, { v26.16b }, v4.16b
	tbl	v9.16b, { v17.16b }, v4.16b
	tbl	v10.16b, { v16.16b }, v4.16b
	eor	v29.16b, v29.16b, v27.16b
	eor	v20.16b, v27.16b, v20.16b
	eor	v22.16b, v28.16b, v22.16b
	eor	v18.16b, v23.16b, v18.16b
	eor	v7.16b, v7.16b, v5.16b
	eor	v21.16b, v21.16b, v23.16b
	eor	v23.16b, v8.16b, v28.16b
	ext	v27.16b, v19.16b, v19.16b, #8
	eor	v24.16b, v25.16b, v26.16b
	eor	v17.16b, v9.16b, v17.16b
	eor	v16.16b, v10.16b, v16.16b
	eor	v26.16b, v29.16b, v22.16b
	ext	v28.16b, v18.16b, v18.16b, #8
	ext	v29.16b, v20.16b, v20.16b, #8
	ext	v8.16b, v22.16b, v22.16b, #8
	eor	v7.16b, v7.16b, v22.16b
	eor	v6.16b, v6.16b, v22.16b
	eor	v19.16b, v21.16b, v19.16b
	eor	v23.16b, v23.16b, v17.16b
	eor	v10.16b, v30.16b, v10.16b
	eor	v21.16b, v26.16b, v24.16b
	eor	v31.16b, v31.16b, v9.16b
	ldur	q26, [x16, #-64]
	eor	v7.16b, v7.16b, v27.16b
	eor	v6.16b, v6.16b, v18.16b
	ext	v18.16b, v16.16b, v16.16b, #8
	eor	v19.16b, v19.16b, v28.16b
	eor	v30.16b, v23.16b, v8.16b
	ext	v17.16b, v17.16b, v17.16b, #8
	eor	v29.16b, v21.16b, v29.16b
	ext	v21.16b, v24.16b, v24.16b, #8
	eor	v3.16b, v26.16b, v3.16b
	eor	v20.16b, v10.16b, v20.16b
	eor	v23.16b, v31.16b, v16.16b
	eor	v24.16b, v6.16b, v25.16b
	eor	v6.16b, v7.16b, v30.16b
	ext	v25.16b, v5.16b, v5.16b, #8
	eor	v16.16b, v29.16b, v19.16b
	eor	v3.16b, v3.16b, v22.16b
	eor	v18.16b, v20.16b, v18.16b
	eor	v17.16b, v23.16b, v17.16b
	eor	v20.16b, v24.16b, v21.16b
	eor	v5.16b, v16.16b, v6.16b
	eor	v28.16b, v3.16b, v25.16b
	eor	v22.16b, v18.16b, v17.16b
	eor	v18.16b, v29.16b, v30.16b
	eor	v3.16b, v20.16b, v5.16b
	eor	v21.16b, v22.16b, v28.16b
	eor	v31.16b, v3.16b, v17.16b
	eor	v26.16b, v3.16b, v19.16b
	eor	v3.16b, v30.16b, v19.16b
	eor	v20.16b, v21.16b, v7.16b
	eor	v19.16b, v21.16b, v29.16b
	eor	v17.16b, v21.16b, v30.16b
	eor	v7.16b, v31.16b, v18.16b
	eor	v24.16b, v26.16b, v22.16b
	eor	v23.16b, v26.16b, v28.16b
	and	v8.16b, v20.16b, v21.16b
	and	v9.16b, v26.16b, v5.16b
	and	v11.16b, v19.16b, v28.16b
	eor	v27.16b, v7.16b, v22.16b
	eor	v22.16b, v20.16b, v3.16b
	eor	v25.16b, v7.16b, v24.16b
	eor	v29.16b, v7.16b, v28.16b
	and	v12.16b, v7.16b, v18.16b
	eor	v31.16b, v31.16b, v9.16b
	eor	v11.16b, v11.16b, v3.16b
	and	v0.16b, v24.16b, v3.16b
	eor	v9.16b, v24.16b, v9.16b
	and	v10.16b, v27.16b, v6.16b
	eor	v8.16b, v27.16b, v8.16b
	and	v13.16b, v23.16b, v22.16b
	and	v14.16b, v25.16b, v16.16b
	and	v15.16b, v29.16b, v17.16b
	eor	v0.16b, v0.16b, v12.16b
	eor	v9.16b, v11.16b, v9.16b
	eor	v8.16b, v8.16b, v10.16b
	eor	v31.16b, v31.16b, v13.16b
	eor	v30.16b, v10.16b, v30.16b
	eor	v13.16b, v14.16b, v12.16b
	eor	v14.16b, v27.16b, v15.16b
	eor	v9.16b, v9.16b, v0.16b
	eor	v8.16b, v8.16b, v6.16b
	eor	v31.16b, v31.16b, v13.16b
	eor	v30.16b, v14.16b, v30.16b
	eor	v8.16b, v8.16b, v13.16b
	eor	v0.16b, v30.16b, v0.16b
	and	v30.16b, v8.16b, v31.16b
	eor	v31.16b, v31.16b, v9.16b
	eor	v10.16b, v0.16b, v8.16b
	eor	v11.16b, v30.16b, v9.16b
	and	v10.16b, v11.16b, v10.16b
	eor	v11.16b, v30.16b, v0.16b
	eor	v30.16b, v10.16b, v30.16b
	and	v12.16b, v11.16b, v31.16b
	and	v13.16b, v30.16b, v0.16b
	eor	v30.16b, v12.16b, v9.16b
	eor	v0.16b, v10.16b, v0.16b
	eor	v9.16b, v13.16b, v11.16b
	eor	v8.16b, v13.16b, v8.16b
	and	v28.16b, v0.16b, v28.16b
	and	v29.16b, v30.16b, v29.16b
	and	v17.16b, v30.16b, v17.16b
	and	v9.16b, v9.16b, v30.16b
	eor	v10.16b, v8.16b, v0.16b
	and	v26.16b, v8.16b, v26.16b
	and	v5.16b, v8.16b, v5.16b
	ldr	q8, [x16, #176]
	eor	v31.16b, v9.16b, v31.16b
	eor	v9.16b, v30.16b, v0.16b
	eor	v28.16b, v26.16b, v28.16b
	and	v23.16b, v10.16b, v23.16b
	and	v22.16b, v10.16b, v22.16b
	and	v0.16b, v0.16b, v19.16b
	eor	v11.16b, v31.16b, v10.16b
	eor	v12.16b, v31.16b, v30.16b
	and	v21.16b, v31.16b, v21.16b
	eor	v29.16b, v28.16b, v29.16b
	and	v18.16b, v9.16b, v18.16b
	and	v20.16b, v31.16b, v20.16b
	eor	v23.16b, v23.16b, v26.16b
	and	v7.16b, v9.16b, v7.16b
	eor	v13.16b, v11.16b, v9.16b
	and	v27.16b, v12.16b, v27.16b
	and	v24.16b, v11.16b, v24.16b
	and	v3.16b, v11.16b, v3.16b
	ldp	q30, q31, [x16, #144]
	and	v14.16b, v13.16b, v16.16b
	and	v16.16b, v12.16b, v6.16b
	eor	v21.16b, v27.16b, v21.16b
	and	v25.16b, v13.16b, v25.16b
	eor	v6.16b, v29.16b, v27.16b
	eor	v24.16b, v24.16b, v28.16b
	eor	v27.16b, v14.16b, v18.16b
	eor	v18.16b, v3.16b, v18.16b
	ldr	q3, [x1, l_CPI6_4@PAGEOFF]
	eor	v25.16b, v21.16b, v25.16b
	eor	v20.16b, v6.16b, v20.16b
	eor	v24.16b, v24.16b, v16.16b
	eor	v21.16b, v23.16b, v21.16b
	eor	v22.16b, v27.16b, v22.16b
	eor	v19.16b, v20.16b, v27.16b
	eor	v20.16b, v24.16b, v25.16b
	eor	v24.16b, v25.16b, v7.16b
	ldp	q7, q29, [x16, #112]
	eor	v5.16b, v22.16b, v5.16b
	eor	v0.16b, v22.16b, v0.16b
	eor	v17.16b, v20.16b, v17.16b
	eor	v16.16b, v19.16b, v16.16b
	eor	v19.16b, v19.16b, v20.16b
	eor	v18.16b, v18.16b, v24.16b
	eor	v20.16b, v21.16b, v5.16b
	eor	v22.16b, v5.16b, v24.16b
	eor	v0.16b, v0.16b, v17.16b
	tbl	v5.16b, { v16.16b }, v3.16b
	tbl	v25.16b, { v19.16b }, v3.16b
	ldp	q23, q21, [x16, #80]
	eor	v17.16b, v18.16b, v17.16b
	eor	v24.16b, v20.16b, v24.16b
	eor	v26.16b, v20.16b, v6.16b
	tbl	v27.16b, { v20.16b }, v3.16b
	tbl	v28.16b, { v22.16b }, v3.16b
	tbl	v18.16b, { v0.16b }, v3.16b
	eor	v6.16b, v5.16b, v16.16b
	eor	v16.16b, v23.16b, v25.16b
	eor	v19.16b, v25.16b, v19.16b
	tbl	v23.16b, { v26.16b }, v3.16b
	tbl	v9.16b, { v24.16b }, v3.16b
	tbl	v10.16b, { v17.16b }, v3.16b
	eor	v29.16b, v29.16b, v27.16b
	eor	v20.16b, v27.16b, v20.16b
	eor	v22.16b, v28.16b, v22.16b
	eor	v0.16b, v18.16b, v0.16b
	eor	v16.16b, v16.16b, v6.16b
	eor	v18.16b, v21.16b, v18.16b
	eor	v21.16b, v8.16b, v28.16b
	tbl	v27.16b, { v19.16b }, v1.16b
	eor	v25.16b, v23.16b, v26.16b
	eor	v24.16b, v9.16b, v24.16b
	eor	v17.16b, v10.16b, v17.16b
	eor	v26.16b, v29.16b, v22.16b
	tbl	v28.16b, { v0.16b }, v1.16b
	tbl	v29.16b, { v20.16b }, v1.16b
	tbl	v8.16b, { v22.16b }, v1.16b
	eor	v16.16b, v16.16b, v22.16b
	eor	v7.16b, v7.16b, v22.16b
	eor	v18.16b, v18.16b, v19.16b
	eor	v21.16b, v21.16b, v24.16b
	eor	v30.16b, v30.16b, v10.16b
	eor	v19.16b, v26.16b, v25.16b
	eor	v9.16b, v31.16b, v9.16b
	ldr	q26, [x16, #64]
	eor	v27.16b, v16.16b, v27.16b
	eor	v0.16b, v7.16b, v0.16b
	tbl	v7.16b, { v17.16b }, v1.16b
	eor	v28.16b, v18.16b, v28.16b
	eor	v31.16b, v21.16b, v8.16b
	eor	v18.16b, v30.16b, v20.16b
	eor	v10.16b, v19.16b, v29.16b
	tbl	v19.16b, { v25.16b }, v1.16b
	tbl	v20.16b, { v24.16b }, v1.16b
	eor	v5.16b, v26.16b, v5.16b
	eor	v21.16b, v9.16b, v17.16b
	eor	v0.16b, v0.16b, v23.16b
	eor	v16.16b, v27.16b, v31.16b
	tbl	v6.16b, { v6.16b }, v1.16b
	eor	v7.16b, v18.16b, v7.16b
	eor	v17.16b, v10.16b, v28.16b
	eor	v18.16b, v10.16b, v31.16b
	eor	v22.16b, v5.16b, v22.16b
	eor	v20.16b, v21.16b, v20.16b
	eor	v0.16b, v0.16b, v19.16b
	eor	v5.16b, v17.16b, v16.16b
	eor	v29.16b, v22.16b, v6.16b
	eor	v22.16b, v7.16b, v20.16b
	eor	v6.16b, v31.16b, v28.16b
	eor	v0.16b, v0.16b, v5.16b
	eor	v21.16b, v22.16b, v29.16b
	eor	v8.16b, v0.16b, v20.16b
	eor	v26.16b, v0.16b, v28.16b
	eor	v19.16b, v21.16b, v27.16b
	eor	v20.16b, v21.16b, v10.16b
	eor	v7.16b, v8.16b, v18.16b
	eor	v25.16b, v26.16b, v22.16b
	eor	v24.16b, v26.16b, v29.16b
	and	v0.16b, v19.16b, v21.16b
	eor	v23.16b, v19.16b, v6.16b
	and	v9.16b, v26.16b, v5.16b
	and	v11.16b, v20.16b, v29.16b
	eor	v28.16b, v7.16b, v22.16b
	eor	v22.16b, v21.16b, v31.16b
	eor	v27.16b, v7.16b, v25.16b
	eor	v30.16b, v7.16b, v29.16b
	and	v12.16b, v24.16b, v23.16b
	eor	v8.16b, v8.16b, v9.16b
	and	v13.16b, v7.16b, v18.16b
	eor	v11.16b, v11.16b, v6.16b
	eor	v9.16b, v25.16b, v9.16b
	and	v10.16b, v28.16b, v16.16b
	eor	v0.16b, v28.16b, v0.16b
	and	v14.16b, v27.16b, v17.16b
	and	v15.16b, v30.16b, v22.16b
	eor	v8.16b, v8.16b, v12.16b
	eor	v9.16b, v11.16b, v9.16b
	eor	v0.16b, v0.16b, v10.16b
	eor	v31.16b, v10.16b, v31.16b
	and	v10.16b, v25.16b, v6.16b
	eor	v12.16b, v14.16b, v13.16b
	eor	v14.16b, v28.16b, v15.16b
	eor	v0.16b, v0.16b, v16.16b
	eor	v10.16b, v10.16b, v13.16b
	eor	v8.16b, v8.16b, v12.16b
	eor	v31.16b, v14.16b, v31.16b
	eor	v0.16b, v0.16b, v12.16b
	eor	v9.16b, v9.16b, v10.16b
	eor	v31.16b, v31.16b, v10.16b
	and	v10.16b, v0.16b, v8.16b
	eor	v8.16b, v8.16b, v9.16b
	eor	v11.16b, v31.16b, v0.16b
	eor	v12.16b, v10.16b, v9.16b
	and	v11.16b, v12.16b, v11.16b
	eor	v12.16b, v10.16b, v31.16b
	eor	v10.16b, v11.16b, v10.16b
	and	v13.16b, v12.16b, v8.16b
	eor	v11.16b, v11.16b, v31.16b
	and	v10.16b, v10.16b, v31.16b
	eor	v9.16b, v13.16b, v9.16b
	and	v29.16b, v11.16b, v29.16b
	and	v20.16b, v11.16b, v20.16b
	eor	v12.16b, v10.16b, v12.16b
	eor	v31.16b, v10.16b, v0.16b
	and	v30.16b, v9.16b, v30.16b
	and	v22.16b, v9.16b, v22.16b
	and	v0.16b, v12.16b, v9.16b
	eor	v10.16b, v31.16b, v11.16b
	and	v26.16b, v31.16b, v26.16b
	and	v5.16b, v31.16b, v5.16b
	eor	v0.16b, v0.16b, v8.16b
	eor	v8.16b, v9.16b, v11.16b
	eor	v29.16b, v26.16b, v29.16b
	and	v23.16b, v10.16b, v23.16b
	eor	v12.16b, v0.16b, v10.16b
	eor	v13.16b, v0.16b, v9.16b
	and	v21.16b, v0.16b, v21.16b
	eor	v30.16b, v29.16b, v30.16b
	and	v18.16b, v8.16b, v18.16b
	and	v0.16b, v0.16b, v19.16b
	and	v19.16b, v10.16b, v24.16b
	and	v7.16b, v8.16b, v7.16b
	eor	v14.16b, v12.16b, v8.16b
	and	v28.16b, v13.16b, v28.16b
	and	v25.16b, v12.16b, v25.16b
	and	v13.16b, v13.16b, v16.16b
	and	v6.16b, v12.16b, v6.16b
	eor	v19.16b, v19.16b, v26.16b
	and	v17.16b, v14.16b, v17.16b
	and	v27.16b, v14.16b, v27.16b
	eor	v25.16b, v25.16b, v29.16b
	eor	v21.16b, v28.16b, v21.16b
	eor	v16.16b, v30.16b, v28.16b
	eor	v6.16b, v6.16b, v18.16b
	eor	v17.16b, v17.16b, v18.16b
	eor	v25.16b, v25.16b, v13.16b
	eor	v24.16b, v21.16b, v27.16b
	eor	v0.16b, v16.16b, v0.16b
	eor	v23.16b, v17.16b, v23.16b
	eor	v25.16b, v25.16b, v24.16b
	eor	v0.16b, v0.16b, v17.16b
	eor	v17.16b, v19.16b, v21.16b
	eor	v7.16b, v24.16b, v7.16b
	eor	v5.16b, v23.16b, v5.16b
	eor	v19.16b, v23.16b, v20.16b
	eor	v18.16b, v25.16b, v22.16b
	eor	v20.16b, v0.16b, v13.16b
	eor	v0.16b, v0.16b, v25.16b
	eor	v6.16b, v6.16b, v7.16b
	ldp	q21, q22, [x16, #192]
	eor	v17.16b, v17.16b, v5.16b
	eor	v5.16b, v5.16b, v7.16b
	eor	v19.16b, v19.16b, v18.16b
	ext	v23.16b, v20.16b, v20.16b, #4
	eor	v6.16b, v6.16b, v18.16b
	ext	v18.16b, v0.16b, v0.16b, #4
	ext	v28.16b, v5.16b, v5.16b, #4
	ldp	q24, q25, [x16, #224]
	ext	v26.16b, v19.16b, v19.16b, #4
	eor	v7.16b, v17.16b, v7.16b
	eor	v16.16b, v17.16b, v16.16b
	ext	v27.16b, v17.16b, v17.16b, #4
	ext	v29.16b, v6.16b, v6.16b, #4
	eor	v20.16b, v23.16b, v20.16b
	eor	v21.16b, v21.16b, v23.16b
	ldp	q23, q30, [x16, #256]
	eor	v5.16b, v28.16b, v5.16b
	eor	v0.16b, v18.16b, v0.16b
	eor	v18.16b, v22.16b, v18.16b
	ext	v22.16b, v16.16b, v16.16b, #4
	eor	v19.16b, v26.16b, v19.16b
	eor	v24.16b, v24.16b, v26.16b
	ext	v26.16b, v7.16b, v7.16b, #4
	eor	v23.16b, v23.16b, v27.16b
	eor	v17.16b, v27.16b, v17.16b
	eor	v6.16b, v29.16b, v6.16b
	eor	v27.16b, v30.16b, v29.16b
	eor	v25.16b, v25.16b, v5.16b
	ldp	q29, q30, [x16, #288]
	eor	v18.16b, v18.16b, v20.16b
	eor	v16.16b, v22.16b, v16.16b
	eor	v23.16b, v23.16b, v5.16b
	ext	v20.16b, v20.16b, v20.16b, #8
	eor	v7.16b, v26.16b, v7.16b
	ext	v31.16b, v5.16b, v5.16b, #8
	eor	v21.16b, v21.16b, v5.16b
	eor	v28.16b, v30.16b, v28.16b
	ext	v30.16b, v0.16b, v0.16b, #8
	eor	v0.16b, v24.16b, v0.16b
	ext	v24.16b, v19.16b, v19.16b, #8
	eor	v19.16b, v25.16b, v19.16b
	eor	v26.16b, v29.16b, v26.16b
	ext	v25.16b, v17.16b, v17.16b, #8
	ext	v29.16b, v6.16b, v6.16b, #8
	eor	v23.16b, v23.16b, v16.16b
	ext	v16.16b, v16.16b, v16.16b, #8
	ext	v8.16b, v7.16b, v7.16b, #8
	eor	v18.16b, v18.16b, v5.16b
	eor	v19.16b, v19.16b, v22.16b
	eor	v27.16b, v27.16b, v17.16b
	eor	v6.16b, v26.16b, v6.16b
	eor	v7.16b, v28.16b, v7.16b
	eor	v5.16b, v21.16b, v20.16b
	eor	v24.16b, v0.16b, v24.16b
	eor	v21.16b, v18.16b, v30.16b
	eor	v22.16b, v23.16b, v25.16b
	add	x16, x16, #512
	eor	v17.16b, v19.16b, v16.16b
	eor	v18.16b, v27.16b, v29.16b
	eor	v25.16b, v6.16b, v8.16b
	eor	v6.16b, v7.16b, v31.16b
	b.ne	LBB6_4
// %bb.5:                               // %after.3.i
                                        //   in Loop: Header=BB6_3 Depth=1
	eor	v19.16b, v21.16b, v6.16b
	eor	v20.16b, v22.16b, v24.16b
	cmp	x14, x9
	eor	v0.16b, v25.16b, v18.16b
	eor	v18.16b, v22.16b, v6.16b
	eor	v7.16b, v20.16b, v19.16b
	eor	v23.16b, v0.16b, v5.16b
	eor	v16.16b, v7.16b, v17.16b
	eor	v21.16b, v23.16b, v21.16b
	eor	v22.16b, v23.16b, v22.16b
	eor	v8.16b, v16.16b, v25.16b
	eor	v28.16b, v16.16b, v24.16b
	eor	v16.16b, v24.16b, v6.16b
	and	v9.16b, v21.16b, v23.16b
	eor	v24.16b, v23.16b, v6.16b
	and	v11.16b, v22.16b, v5.16b
	eor	v17.16b, v8.16b, v18.16b
	eor	v27.16b, v28.16b, v0.16b
	eor	v25.16b, v21.16b, v16.16b
	eor	v26.16b, v28.16b, v5.16b
	eor	v11.16b, v11.16b, v16.16b
	eor	v30.16b, v17.16b, v0.16b
	and	v0.16b, v28.16b, v7.16b
	eor	v29.16b, v17.16b, v27.16b
	eor	v31.16b, v17.16b, v5.16b
	and	v12.16b, v26.16b, v25.16b
	and	v13.16b, v17.16b, v18.16b
	and	v10.16b, v30.16b, v19.16b
	eor	v9.16b, v30.16b, v9.16b
	eor	v8.16b, v8.16b, v0.16b
	and	v14.16b, v29.16b, v20.16b
	and	v15.16b, v31.16b, v24.16b
	eor	v0.16b, v27.16b, v0.16b
	eor	v9.16b, v9.16b, v10.16b
	eor	v8.16b, v8.16b, v12.16b
	eor	v6.16b, v10.16b, v6.16b
	and	v10.16b, v27.16b, v16.16b
	eor	v12.16b, v14.16b, v13.16b
	eor	v14.16b, v30.16b, v15.16b
	eor	v0.16b, v11.16b, v0.16b
	eor	v9.16b, v9.16b, v19.16b
	eor	v10.16b, v10.16b, v13.16b
	eor	v8.16b, v8.16b, v12.16b
	eor	v6.16b, v14.16b, v6.16b
	eor	v9.16b, v9.16b, v12.16b
	eor	v0.16b, v0.16b, v10.16b
	eor	v6.16b, v6.16b, v10.16b
	and	v10.16b, v9.16b, v8.16b
	eor	v11.16b, v6.16b, v9.16b
	eor	v8.16b, v8.16b, v0.16b
	eor	v12.16b, v10.16b, v0.16b
	and	v11.16b, v12.16b, v11.16b
	eor	v12.16b, v10.16b, v6.16b
	eor	v10.16b, v11.16b, v10.16b
	and	v13.16b, v12.16b, v8.16b
	eor	v11.16b, v11.16b, v6.16b
	and	v10.16b, v10.16b, v6.16b
	eor	v0.16b, v13.16b, v0.16b
	and	v5.16b, v11.16b, v5.16b
	and	v22.16b, v11.16b, v22.16b
	eor	v12.16b, v10.16b, v12.16b
	eor	v6.16b, v10.16b, v9.16b
	and	v31.16b, v0.16b, v31.16b
	and	v9.16b, v12.16b, v0.16b
	eor	v10.16b, v6.16b, v11.16b
	and	v28.16b, v6.16b, v28.16b
	and	v6.16b, v6.16b, v7.16b
	eor	v8.16b, v9.16b, v8.16b
	eor	v9.16b, v0.16b, v11.16b
	eor	v5.16b, v28.16b, v5.16b
	and	v26.16b, v10.16b, v26.16b
	and	v25.16b, v10.16b, v25.16b
	eor	v12.16b, v8.16b, v10.16b
	eor	v13.16b, v8.16b, v0.16b
	and	v23.16b, v8.16b, v23.16b
	eor	v31.16b, v5.16b, v31.16b
	and	v18.16b, v9.16b, v18.16b
	and	v21.16b, v8.16b, v21.16b
	and	v0.16b, v0.16b, v24.16b
	and	v17.16b, v9.16b, v17.16b
	eor	v24.16b, v26.16b, v28.16b
	eor	v14.16b, v12.16b, v9.16b
	and	v30.16b, v13.16b, v30.16b
	and	v27.16b, v12.16b, v27.16b
	and	v19.16b, v13.16b, v19.16b
	and	v16.16b, v12.16b, v16.16b
	and	v20.16b, v14.16b, v20.16b
	and	v29.16b, v14.16b, v29.16b
	eor	v27.16b, v27.16b, v5.16b
	eor	v23.16b, v30.16b, v23.16b
	eor	v5.16b, v31.16b, v30.16b
	eor	v16.16b, v16.16b, v18.16b
	eor	v20.16b, v20.16b, v18.16b
	eor	v27.16b, v27.16b, v19.16b
	eor	v29.16b, v23.16b, v29.16b
	eor	v21.16b, v5.16b, v21.16b
	eor	v18.16b, v24.16b, v23.16b
	ldp	q23, q24, [x11, #128]
	eor	v7.16b, v20.16b, v25.16b
	eor	v25.16b, v27.16b, v29.16b
	eor	v20.16b, v21.16b, v20.16b
	eor	v17.16b, v29.16b, v17.16b
	eor	v6.16b, v7.16b, v6.16b
	eor	v7.16b, v7.16b, v22.16b
	eor	v0.16b, v25.16b, v0.16b
	eor	v21.16b, v20.16b, v25.16b
	eor	v19.16b, v20.16b, v19.16b
	eor	v16.16b, v16.16b, v17.16b
	eor	v18.16b, v18.16b, v6.16b
	eor	v6.16b, v6.16b, v17.16b
	eor	v7.16b, v7.16b, v0.16b
	tbl	v20.16b, { v19.16b }, v2.16b
	tbl	v22.16b, { v21.16b }, v2.16b
	eor	v0.16b, v16.16b, v0.16b
	ldp	q16, q25, [x11, #160]
	tbl	v28.16b, { v6.16b }, v2.16b
	eor	v17.16b, v18.16b, v17.16b
	eor	v5.16b, v18.16b, v5.16b
	tbl	v26.16b, { v7.16b }, v2.16b
	tbl	v27.16b, { v18.16b }, v2.16b
	tbl	v29.16b, { v0.16b }, v2.16b
	eor	v19.16b, v20.16b, v19.16b
	eor	v21.16b, v22.16b, v21.16b
	eor	v20.16b, v23.16b, v20.16b
	eor	v22.16b, v24.16b, v22.16b
	ldp	q23, q24, [x11, #192]
	eor	v6.16b, v28.16b, v6.16b
	eor	v7.16b, v26.16b, v7.16b
	eor	v16.16b, v16.16b, v26.16b
	tbl	v26.16b, { v5.16b }, v2.16b
	tbl	v2.16b, { v17.16b }, v2.16b
	eor	v18.16b, v27.16b, v18.16b
	eor	v0.16b, v29.16b, v0.16b
	eor	v23.16b, v23.16b, v27.16b
	eor	v24.16b, v24.16b, v29.16b
	eor	v25.16b, v25.16b, v6.16b
	ldp	q27, q29, [x11, #224]
	eor	v16.16b, v16.16b, v21.16b
	eor	v5.16b, v26.16b, v5.16b
	eor	v22.16b, v22.16b, v19.16b
	tbl	v19.16b, { v19.16b }, v1.16b
	eor	v17.16b, v2.16b, v17.16b
	tbl	v30.16b, { v6.16b }, v1.16b
	eor	v20.16b, v20.16b, v6.16b
	eor	v28.16b, v29.16b, v28.16b
	tbl	v29.16b, { v21.16b }, v1.16b
	eor	v21.16b, v23.16b, v6.16b
	tbl	v23.16b, { v7.16b }, v1.16b
	eor	v7.16b, v25.16b, v7.16b
	eor	v2.16b, v27.16b, v2.16b
	tbl	v25.16b, { v18.16b }, v1.16b
	tbl	v27.16b, { v0.16b }, v1.16b
	eor	v22.16b, v22.16b, v6.16b
	eor	v21.16b, v21.16b, v5.16b
	tbl	v5.16b, { v5.16b }, v1.16b
	eor	v24.16b, v24.16b, v18.16b
	eor	v7.16b, v7.16b, v26.16b
	tbl	v26.16b, { v17.16b }, v1.16b
	eor	v0.16b, v2.16b, v0.16b
	eor	v17.16b, v28.16b, v17.16b
	eor	v2.16b, v19.16b, v20.16b
	eor	v19.16b, v29.16b, v22.16b
	eor	v6.16b, v23.16b, v16.16b
	eor	v18.16b, v25.16b, v21.16b
	eor	v21.16b, v27.16b, v24.16b
	eor	v22.16b, v5.16b, v7.16b
	eor	v16.16b, v26.16b, v0.16b
	eor	v5.16b, v30.16b, v17.16b
	b.hs	LBB6_1
// %bb.6:                               // %then.11.i
                                        //   in Loop: Header=BB6_3 Depth=1
	eor	v17.16b, v5.16b, v19.16b
	eor	v20.16b, v18.16b, v6.16b
	eor	v0.16b, v16.16b, v21.16b
	eor	v21.16b, v5.16b, v18.16b
	eor	v7.16b, v17.16b, v20.16b
	eor	v23.16b, v0.16b, v2.16b
	eor	v22.16b, v7.16b, v22.16b
	eor	v31.16b, v22.16b, v16.16b
	eor	v28.16b, v22.16b, v6.16b
	eor	v22.16b, v23.16b, v19.16b
	eor	v6.16b, v5.16b, v6.16b
	eor	v19.16b, v23.16b, v18.16b
	eor	v18.16b, v23.16b, v5.16b
	eor	v16.16b, v31.16b, v21.16b
	eor	v26.16b, v28.16b, v0.16b
	and	v8.16b, v22.16b, v23.16b
	eor	v24.16b, v22.16b, v6.16b
	eor	v25.16b, v28.16b, v2.16b
	and	v10.16b, v19.16b, v2.16b
	eor	v29.16b, v16.16b, v0.16b
	and	v0.16b, v28.16b, v7.16b
	eor	v27.16b, v16.16b, v26.16b
	eor	v30.16b, v16.16b, v2.16b
	and	v11.16b, v25.16b, v24.16b
	and	v12.16b, v16.16b, v21.16b
	eor	v10.16b, v10.16b, v6.16b
	and	v9.16b, v29.16b, v17.16b
	eor	v8.16b, v29.16b, v8.16b
	eor	v31.16b, v31.16b, v0.16b
	and	v13.16b, v27.16b, v20.16b
	and	v14.16b, v30.16b, v18.16b
	eor	v0.16b, v26.16b, v0.16b
	eor	v8.16b, v8.16b, v9.16b
	eor	v31.16b, v31.16b, v11.16b
	eor	v5.16b, v9.16b, v5.16b
	and	v9.16b, v26.16b, v6.16b
	eor	v11.16b, v13.16b, v12.16b
	eor	v13.16b, v29.16b, v14.16b
	eor	v0.16b, v10.16b, v0.16b
	eor	v8.16b, v8.16b, v17.16b
	eor	v9.16b, v9.16b, v12.16b
	eor	v31.16b, v31.16b, v11.16b
	eor	v5.16b, v13.16b, v5.16b
	eor	v8.16b, v8.16b, v11.16b
	eor	v0.16b, v0.16b, v9.16b
	eor	v9.16b, v5.16b, v9.16b
	and	v5.16b, v8.16b, v31.16b
	eor	v10.16b, v9.16b, v8.16b
	eor	v31.16b, v31.16b, v0.16b
	eor	v11.16b, v5.16b, v0.16b
	and	v10.16b, v11.16b, v10.16b
	eor	v11.16b, v5.16b, v9.16b
	eor	v5.16b, v10.16b, v5.16b
	and	v12.16b, v11.16b, v31.16b
	and	v13.16b, v5.16b, v9.16b
	eor	v5.16b, v12.16b, v0.16b
	eor	v9.16b, v10.16b, v9.16b
	eor	v0.16b, v13.16b, v11.16b
	eor	v8.16b, v13.16b, v8.16b
	and	v2.16b, v9.16b, v2.16b
	and	v30.16b, v5.16b, v30.16b
	and	v19.16b, v9.16b, v19.16b
	and	v0.16b, v0.16b, v5.16b
	eor	v10.16b, v8.16b, v9.16b
	and	v28.16b, v8.16b, v28.16b
	and	v7.16b, v8.16b, v7.16b
	eor	v0.16b, v0.16b, v31.16b
	eor	v31.16b, v5.16b, v9.16b
	eor	v13.16b, v28.16b, v2.16b
	and	v25.16b, v10.16b, v25.16b
	and	v24.16b, v10.16b, v24.16b
	eor	v11.16b, v0.16b, v10.16b
	eor	v12.16b, v0.16b, v5.16b
	and	v23.16b, v0.16b, v23.16b
	eor	v30.16b, v13.16b, v30.16b
	and	v21.16b, v31.16b, v21.16b
	and	v0.16b, v0.16b, v22.16b
	eor	v25.16b, v25.16b, v28.16b
	and	v16.16b, v31.16b, v16.16b
	and	v5.16b, v5.16b, v18.16b
	eor	v2.16b, v11.16b, v31.16b
	and	v29.16b, v12.16b, v29.16b
	and	v26.16b, v11.16b, v26.16b
	and	v17.16b, v12.16b, v17.16b
	and	v6.16b, v11.16b, v6.16b
	ldr	q31, [x12, #112]
	and	v20.16b, v2.16b, v20.16b
	eor	v22.16b, v29.16b, v23.16b
	and	v23.16b, v2.16b, v27.16b
	eor	v2.16b, v30.16b, v29.16b
	eor	v26.16b, v26.16b, v13.16b
	ldp	q29, q30, [x12, #80]
	eor	v20.16b, v20.16b, v21.16b
	eor	v23.16b, v22.16b, v23.16b
	eor	v21.16b, v6.16b, v21.16b
	eor	v0.16b, v2.16b, v0.16b
	eor	v26.16b, v26.16b, v17.16b
	ldp	q6, q28, [x12, #48]
	eor	v24.16b, v20.16b, v24.16b
	eor	v16.16b, v23.16b, v16.16b
	eor	v0.16b, v0.16b, v20.16b
	eor	v18.16b, v26.16b, v23.16b
	eor	v20.16b, v25.16b, v22.16b
	eor	v7.16b, v24.16b, v7.16b
	eor	v21.16b, v21.16b, v16.16b
	eor	v22.16b, v18.16b, v5.16b
	eor	v17.16b, v0.16b, v17.16b
	eor	v5.16b, v24.16b, v19.16b
	eor	v0.16b, v0.16b, v18.16b
	eor	v18.16b, v20.16b, v7.16b
	eor	v7.16b, v7.16b, v16.16b
	eor	v23.16b, v5.16b, v22.16b
	tbl	v5.16b, { v17.16b }, v4.16b
	eor	v21.16b, v21.16b, v22.16b
	tbl	v24.16b, { v0.16b }, v4.16b
	ldp	q19, q20, [x12, #16]
	eor	v16.16b, v18.16b, v16.16b
	eor	v25.16b, v18.16b, v2.16b
	tbl	v26.16b, { v18.16b }, v4.16b
	tbl	v27.16b, { v7.16b }, v4.16b
	tbl	v22.16b, { v23.16b }, v4.16b
	eor	v2.16b, v5.16b, v17.16b
	eor	v17.16b, v19.16b, v24.16b
	tbl	v19.16b, { v25.16b }, v4.16b
	tbl	v8.16b, { v16.16b }, v4.16b
	eor	v0.16b, v24.16b, v0.16b
	eor	v18.16b, v26.16b, v18.16b
	tbl	v4.16b, { v21.16b }, v4.16b
	eor	v9.16b, v27.16b, v7.16b
	eor	v7.16b, v28.16b, v26.16b
	eor	v23.16b, v22.16b, v23.16b
	eor	v17.16b, v17.16b, v2.16b
	eor	v20.16b, v20.16b, v22.16b
	eor	v22.16b, v31.16b, v27.16b
	eor	v24.16b, v19.16b, v25.16b
	eor	v16.16b, v8.16b, v16.16b
	ext	v25.16b, v0.16b, v0.16b, #8
	eor	v7.16b, v7.16b, v9.16b
	ext	v26.16b, v23.16b, v23.16b, #8
	ext	v27.16b, v18.16b, v18.16b, #8
	ext	v28.16b, v9.16b, v9.16b, #8
	eor	v17.16b, v17.16b, v9.16b
	eor	v6.16b, v6.16b, v9.16b
	eor	v0.16b, v20.16b, v0.16b
	eor	v20.16b, v22.16b, v16.16b
	eor	v21.16b, v4.16b, v21.16b
	eor	v7.16b, v7.16b, v24.16b
	eor	v4.16b, v29.16b, v4.16b
	eor	v30.16b, v30.16b, v8.16b
	eor	v17.16b, v25.16b, v17.16b
	eor	v6.16b, v6.16b, v23.16b
	ldr	q22, [x12]
	eor	v0.16b, v26.16b, v0.16b
	eor	v29.16b, v28.16b, v20.16b
	ext	v20.16b, v21.16b, v21.16b, #8
	eor	v25.16b, v27.16b, v7.16b
	eor	v4.16b, v4.16b, v18.16b
	ext	v18.16b, v24.16b, v24.16b, #8
	ext	v16.16b, v16.16b, v16.16b, #8
	eor	v5.16b, v22.16b, v5.16b
	eor	v21.16b, v30.16b, v21.16b
	eor	v19.16b, v6.16b, v19.16b
	eor	v6.16b, v29.16b, v17.16b
	ext	v22.16b, v2.16b, v2.16b, #8
	eor	v7.16b, v25.16b, v0.16b
	eor	v4.16b, v20.16b, v4.16b
	eor	v5.16b, v5.16b, v9.16b
	eor	v16.16b, v16.16b, v21.16b
	eor	v18.16b, v18.16b, v19.16b
	eor	v2.16b, v6.16b, v7.16b
	eor	v27.16b, v22.16b, v5.16b
	eor	v20.16b, v4.16b, v16.16b
	eor	v4.16b, v18.16b, v2.16b
	eor	v18.16b, v29.16b, v25.16b
	eor	v21.16b, v20.16b, v27.16b
	eor	v30.16b, v4.16b, v16.16b
	eor	v24.16b, v4.16b, v0.16b
	eor	v4.16b, v29.16b, v0.16b
	eor	v19.16b, v21.16b, v17.16b
	eor	v5.16b, v21.16b, v25.16b
	eor	v17.16b, v21.16b, v29.16b
	eor	v16.16b, v30.16b, v18.16b
	eor	v23.16b, v24.16b, v20.16b
	and	v31.16b, v24.16b, v2.16b
	and	v0.16b, v19.16b, v21.16b
	eor	v22.16b, v19.16b, v4.16b
	and	v9.16b, v5.16b, v27.16b
	eor	v25.16b, v16.16b, v20.16b
	eor	v20.16b, v24.16b, v27.16b
	eor	v26.16b, v16.16b, v23.16b
	eor	v28.16b, v16.16b, v27.16b
	eor	v30.16b, v30.16b, v31.16b
	and	v11.16b, v16.16b, v18.16b
	eor	v9.16b, v9.16b, v4.16b
	eor	v31.16b, v23.16b, v31.16b
	and	v8.16b, v25.16b, v6.16b
	eor	v0.16b, v25.16b, v0.16b
	and	v10.16b, v20.16b, v22.16b
	and	v12.16b, v26.16b, v7.16b
	and	v13.16b, v28.16b, v17.16b
	eor	v31.16b, v9.16b, v31.16b
	eor	v0.16b, v0.16b, v8.16b
	eor	v30.16b, v30.16b, v10.16b
	eor	v29.16b, v8.16b, v29.16b
	and	v8.16b, v23.16b, v4.16b
	eor	v10.16b, v12.16b, v11.16b
	eor	v12.16b, v25.16b, v13.16b
	eor	v0.16b, v0.16b, v6.16b
	eor	v8.16b, v8.16b, v11.16b
	eor	v30.16b, v30.16b, v10.16b
	eor	v29.16b, v12.16b, v29.16b
	eor	v0.16b, v0.16b, v10.16b
	eor	v31.16b, v31.16b, v8.16b
	eor	v8.16b, v29.16b, v8.16b
	and	v29.16b, v0.16b, v30.16b
	eor	v9.16b, v8.16b, v0.16b
	eor	v10.16b, v29.16b, v31.16b
	and	v9.16b, v10.16b, v9.16b
	eor	v10.16b, v30.16b, v31.16b
	eor	v30.16b, v29.16b, v8.16b
	eor	v29.16b, v9.16b, v29.16b
	and	v11.16b, v30.16b, v10.16b
	and	v12.16b, v29.16b, v8.16b
	eor	v29.16b, v11.16b, v31.16b
	eor	v11.16b, v12.16b, v30.16b
	eor	v30.16b, v9.16b, v8.16b
	eor	v31.16b, v12.16b, v0.16b
	and	v28.16b, v29.16b, v28.16b
	and	v17.16b, v29.16b, v17.16b
	and	v0.16b, v11.16b, v29.16b
	eor	v8.16b, v31.16b, v30.16b
	and	v27.16b, v30.16b, v27.16b
	and	v24.16b, v31.16b, v24.16b
	eor	v9.16b, v29.16b, v30.16b
	and	v2.16b, v31.16b, v2.16b
	and	v5.16b, v30.16b, v5.16b
	eor	v0.16b, v0.16b, v10.16b
	and	v22.16b, v8.16b, v22.16b
	and	v20.16b, v8.16b, v20.16b
	eor	v27.16b, v24.16b, v27.16b
	and	v18.16b, v9.16b, v18.16b
	and	v16.16b, v9.16b, v16.16b
	eor	v10.16b, v0.16b, v8.16b
	eor	v11.16b, v0.16b, v29.16b
	and	v21.16b, v0.16b, v21.16b
	eor	v28.16b, v27.16b, v28.16b
	and	v0.16b, v0.16b, v19.16b
	eor	v20.16b, v20.16b, v24.16b
	eor	v12.16b, v10.16b, v9.16b
	and	v25.16b, v11.16b, v25.16b
	and	v23.16b, v10.16b, v23.16b
	and	v19.16b, v11.16b, v6.16b
	and	v4.16b, v10.16b, v4.16b
	and	v7.16b, v12.16b, v7.16b
	and	v26.16b, v12.16b, v26.16b
	eor	v21.16b, v25.16b, v21.16b
	eor	v6.16b, v28.16b, v25.16b
	eor	v23.16b, v23.16b, v27.16b
	eor	v4.16b, v4.16b, v18.16b
	eor	v7.16b, v7.16b, v18.16b
	eor	v25.16b, v21.16b, v26.16b
	eor	v0.16b, v6.16b, v0.16b
	eor	v23.16b, v23.16b, v19.16b
	eor	v22.16b, v7.16b, v22.16b
	eor	v16.16b, v25.16b, v16.16b
	eor	v0.16b, v0.16b, v7.16b
	eor	v7.16b, v23.16b, v25.16b
	eor	v2.16b, v22.16b, v2.16b
	eor	v5.16b, v22.16b, v5.16b
	eor	v4.16b, v4.16b, v16.16b
	eor	v17.16b, v7.16b, v17.16b
	eor	v18.16b, v0.16b, v19.16b
	eor	v19.16b, v20.16b, v21.16b
	eor	v0.16b, v0.16b, v7.16b
	ldp	q22, q23, [x13, #-96]
	eor	v7.16b, v2.16b, v16.16b
	eor	v5.16b, v5.16b, v17.16b
	tbl	v20.16b, { v18.16b }, v3.16b
	eor	v2.16b, v19.16b, v2.16b
	eor	v4.16b, v4.16b, v17.16b
	tbl	v17.16b, { v0.16b }, v3.16b
	ldp	q19, q21, [x13, #-128]
	tbl	v25.16b, { v7.16b }, v3.16b
	tbl	v26.16b, { v2.16b }, v3.16b
	tbl	v24.16b, { v5.16b }, v3.16b
	eor	v6.16b, v2.16b, v6.16b
	eor	v18.16b, v20.16b, v18.16b
	eor	v16.16b, v2.16b, v16.16b
	tbl	v27.16b, { v4.16b }, v3.16b
	eor	v0.16b, v17.16b, v0.16b
	eor	v19.16b, v19.16b, v20.16b
	eor	v17.16b, v21.16b, v17.16b
	ldp	q20, q21, [x13, #-64]
	eor	v7.16b, v25.16b, v7.16b
	eor	v2.16b, v26.16b, v2.16b
	eor	v5.16b, v24.16b, v5.16b
	eor	v22.16b, v22.16b, v24.16b
	ldur	q24, [x13, #-16]
	eor	v4.16b, v27.16b, v4.16b
	eor	v17.16b, v17.16b, v18.16b
	eor	v20.16b, v20.16b, v26.16b
	tbl	v26.16b, { v6.16b }, v3.16b
	tbl	v3.16b, { v16.16b }, v3.16b
	eor	v23.16b, v23.16b, v7.16b
	eor	v24.16b, v24.16b, v25.16b
	ldur	q25, [x13, #-32]
	eor	v21.16b, v21.16b, v27.16b
	tbl	v18.16b, { v18.16b }, v1.16b
	eor	v22.16b, v22.16b, v0.16b
	eor	v20.16b, v20.16b, v7.16b
	tbl	v0.16b, { v0.16b }, v1.16b
	tbl	v28.16b, { v7.16b }, v1.16b
	eor	v6.16b, v26.16b, v6.16b
	eor	v23.16b, v23.16b, v5.16b
	eor	v16.16b, v3.16b, v16.16b
	eor	v3.16b, v25.16b, v3.16b
	tbl	v5.16b, { v5.16b }, v1.16b
	tbl	v25.16b, { v2.16b }, v1.16b
	eor	v19.16b, v19.16b, v7.16b
	eor	v17.16b, v17.16b, v7.16b
	eor	v2.16b, v21.16b, v2.16b
	tbl	v27.16b, { v6.16b }, v1.16b
	eor	v23.16b, v23.16b, v26.16b
	tbl	v26.16b, { v4.16b }, v1.16b
	tbl	v29.16b, { v16.16b }, v1.16b
	eor	v20.16b, v20.16b, v6.16b
	eor	v21.16b, v3.16b, v4.16b
	eor	v16.16b, v24.16b, v16.16b
	eor	v6.16b, v19.16b, v18.16b
	eor	v4.16b, v17.16b, v0.16b
	eor	v1.16b, v22.16b, v5.16b
	eor	v3.16b, v20.16b, v25.16b
	eor	v7.16b, v23.16b, v27.16b
	eor	v17.16b, v2.16b, v26.16b
	eor	v19.16b, v21.16b, v29.16b
	eor	v27.16b, v16.16b, v28.16b
	b	LBB6_2
LBB6_7:                                // %"aes_soft::soft::blocks::slices::process_batches_under::<#6c9505ca656cc68d>.exit"
	ldp	d9, d8, [sp, #64]               // 16-byte Folded Reload
	ldp	d11, d10, [sp, #48]             // 16-byte Folded Reload
	ldp	d13, d12, [sp, #32]             // 16-byte Folded Reload
	ldp	d15, d14, [sp, #16]             // 16-byte Folded Reload
	add	sp, sp, #80
	ret
                                        // -- End function
	.section	__TEXT,__text,regular,pure_instructions
	.p2align	2                               // -- Begin function aes_cipher::zeroize::elements::zeroize_elements::<#c76276a60742133e>
"aes_cipher::zeroize::elements::zeroize_elements::<#c76276a60742133e>": // @"aes_cipher::zeroize::elements::zeroize_elements::<#c76276a60742133e>"
// %bb.0:                               // %start
	stp	x29, x30, [sp, #-48]!           // 16-byte Folded Spill
	mov	x29, sp
	str	x21, [sp, #16]                  // 8-byte Spill
	stp	x20, x19, [sp, #32]             // 16-byte Folded Spill
	add	x8, x29, #24
	str	xzr, [x29, #24]
	//APP
	//NO_APP
	ldar	x8, [x8]
	//APP
	//NO_APP
	cmp	x8, #120
	b.hs	LBB7_2
// %bb.1:                               // %then.1.i
	lsl	x20, x8, #4
	mov	w1, wzr
	mov	w2, #1920                       // =0x780
	mov	x19, x0
	ldr	w21, [x0, x20]
	bl	_memset
	ldr	w8, [x19, x20]
	and	w8, w21, w8
	and	x8, x8, #0xff
	b	LBB7_3
LBB7_2:                                // %"aes_cipher::zeroize::observe::<#9e34c64723791769>.exit11"
	mov	w1, wzr
	mov	w2, #1920                       // =0x780
	bl	_memset
	mov	x8, xzr
LBB7_3:                                // %"aes_cipher::zeroize::observe::<#9e34c64723791769>.exit"
	//APP
	//NO_APP
LBB7_4:                                // %atomicrmw.start
                                        // =>This Inner Loop Header: Depth=1
	add	x9, x29, #24
	ldaxr	xzr, [x9]
	stlxr	w10, x8, [x9]
	cbnz	w10, LBB7_4
// %bb.5:                               // %atomicrmw.end
	//APP
	//NO_APP
	ldp	x20, x19, [sp, #32]             // 16-byte Folded Reload
	ldr	x21, [sp, #16]                  // 8-byte Reload
	ldp	x29, x30, [sp], #48             // 16-byte Folded Reload
	ret
                                        // -- End function
	.section	__TEXT,__text,regular,pure_instructions
	.p2align	2                               // -- Begin function aes_soft::soft::blocks::slices::process_batches_outlined::<#c44f11ce38a8a6aa>
"aes_soft::soft::blocks::slices::process_batches_outlined::<#c44f11ce38a8a6aa>": // @"aes_soft::soft::blocks::slices::process_batches_outlined::<#c44f11ce38a8a6aa>"
// %bb.0:                               // %start
	cbz	x3, LBB8_9
// %bb.1:                               // %join.5.i.lr.ph
	sub	sp, sp, #64
	lsr	x8, x1, #3
	stp	x22, x21, [sp, #32]             // 16-byte Folded Spill
	mov	x22, x3
	stp	x20, x19, [sp, #48]             // 16-byte Folded Spill
	mov	x19, x2
	mov	x20, x0
	sub	x21, x8, #1
	mov	x0, sp
	mov	x1, x20
	mov	x2, x21
	mov	x3, x19
	stp	x29, x30, [sp, #16]             // 16-byte Folded Spill
	add	x29, sp, #16
	stp	xzr, xzr, [sp]
	bl	"aes_soft::soft::ciphers::planes::process_outlined::<#1ace7dc93dd230c5>"
	ldr	q0, [sp]
	cmp	x22, #1
	str	q0, [x19]
	b.eq	LBB8_8
// %bb.2:                               // %join.5.i.1
	mov	x0, sp
	add	x3, x19, #16
	mov	x1, x20
	mov	x2, x21
	stp	xzr, xzr, [sp]
	bl	"aes_soft::soft::ciphers::planes::process_outlined::<#1ace7dc93dd230c5>"
	ldr	q0, [sp]
	cmp	x22, #2
	str	q0, [x19, #16]
	b.eq	LBB8_8
// %bb.3:                               // %join.5.i.2
	mov	x0, sp
	add	x3, x19, #32
	mov	x1, x20
	mov	x2, x21
	stp	xzr, xzr, [sp]
	bl	"aes_soft::soft::ciphers::planes::process_outlined::<#1ace7dc93dd230c5>"
	ldr	q0, [sp]
	cmp	x22, #3
	str	q0, [x19, #32]
	b.eq	LBB8_8
// %bb.4:                               // %join.5.i.3
	mov	x0, sp
	add	x3, x19, #48
	mov	x1, x20
	mov	x2, x21
	stp	xzr, xzr, [sp]
	bl	"aes_soft::soft::ciphers::planes::process_outlined::<#1ace7dc93dd230c5>"
	ldr	q0, [sp]
	cmp	x22, #4
	str	q0, [x19, #48]
	b.eq	LBB8_8
// %bb.5:                               // %join.5.i.4
	mov	x0, sp
	add	x3, x19, #64
	mov	x1, x20
	mov	x2, x21
	stp	xzr, xzr, [sp]
	bl	"aes_soft::soft::ciphers::planes::process_outlined::<#1ace7dc93dd230c5>"
	ldr	q0, [sp]
	cmp	x22, #5
	str	q0, [x19, #64]
	b.eq	LBB8_8
// %bb.6:                               // %join.5.i.5
	mov	x0, sp
	add	x3, x19, #80
	mov	x1, x20
	mov	x2, x21
	stp	xzr, xzr, [sp]
	bl	"aes_soft::soft::ciphers::planes::process_outlined::<#1ace7dc93dd230c5>"
	ldr	q0, [sp]
	cmp	x22, #6
	str	q0, [x19, #80]
	b.eq	LBB8_8
// %bb.7:                               // %join.5.i.6
	mov	x0, sp
	add	x3, x19, #96
	mov	x1, x20
	mov	x2, x21
	stp	xzr, xzr, [sp]
	bl	"aes_soft::soft::ciphers::planes::process_outlined::<#1ace7dc93dd230c5>"
	ldr	q0, [sp]
	str	q0, [x19, #96]
LBB8_8:
	ldp	x20, x19, [sp, #48]             // 16-byte Folded Reload
	ldp	x22, x21, [sp, #32]             // 16-byte Folded Reload
	ldp	x29, x30, [sp, #16]             // 16-byte Folded Reload
	add	sp, sp, #64
LBB8_9:                                // %"aes_soft::soft::blocks::slices::process_batches_under::<#c44f11ce38a8a6aa>.exit"
	ret
                                        // -- End function
	.section	__TEXT,__const
	.p2align	4, 0x0                          // -- Begin function aes_soft::soft::ciphers::planes::process_outlined::<#1ace7dc93dd230c5>
l_CPI9_0:
	.byte	0                               // 0x0
	.byte	4                               // 0x4
	.byte	8                               // 0x8
	.byte	12                              // 0xc
	.byte	1                               // 0x1
	.byte	5                               // 0x5
	.byte	9                               // 0x9
	.byte	13                              // 0xd
	.byte	2                               // 0x2
	.byte	6                               // 0x6
	.byte	10                              // 0xa
	.byte	14                              // 0xe
	.byte	3                               // 0x3
	.byte	7                               // 0x7
	.byte	11                              // 0xb
	.byte	15                              // 0xf
l_CPI9_1:
	.byte	1                               // 0x1
	.byte	2                               // 0x2
	.byte	4                               // 0x4
	.byte	8                               // 0x8
	.byte	16                              // 0x10
	.byte	32                              // 0x20
	.byte	64                              // 0x40
	.byte	128                             // 0x80
	.byte	1                               // 0x1
	.byte	2                               // 0x2
	.byte	4                               // 0x4
	.byte	8                               // 0x8
	.byte	16                              // 0x10
	.byte	32                              // 0x20
	.byte	64                              // 0x40
	.byte	128                             // 0x80
l_CPI9_2:
	.byte	0                               // 0x0
	.byte	2                               // 0x2
	.byte	4                               // 0x4
	.byte	6                               // 0x6
	.byte	8                               // 0x8
	.byte	10                              // 0xa
	.byte	12                              // 0xc
	.byte	14                              // 0xe
	.byte	1                               // 0x1
	.byte	3                               // 0x3
	.byte	5                               // 0x5
	.byte	7                               // 0x7
	.byte	9                               // 0x9
	.byte	11                              // 0xb
	.byte	13                              // 0xd
	.byte	15                              // 0xf
l_CPI9_3:
	.xword	32                              // 0x20
	.xword	48                              // 0x30
	.section	__TEXT,__const
	.p2align	3, 0x0
l_CPI9_4:
	.byte	1                               // 0x1
	.byte	9                               // 0x9
	.byte	2                               // 0x2
	.byte	10                              // 0xa
	.byte	3                               // 0x3
	.byte	11                              // 0xb
	.byte	4                               // 0x4
	.byte	12                              // 0xc
	.section	__TEXT,__text,regular,pure_instructions
	.p2align	2
"aes_soft::soft::ciphers::planes::process_outlined::<#1ace7dc93dd230c5>": // @"aes_soft::soft::ciphers::planes::process_outlined::<#1ace7dc93dd230c5>"
// %bb.0:                               // %start
	sub	sp, sp, #160
	adrp	x8, l_CPI9_0@PAGE
	ldr	q0, [x3]
	movi	v2.16b, #64
	ldr	q1, [x8, l_CPI9_0@PAGEOFF]
	movi	v3.16b, #32
	movi	v5.16b, #16
	movi	v4.16b, #8
	movi	v6.16b, #1
	movi	v7.16b, #2
	tbl	v1.16b, { v0.16b }, v1.16b
	movi	v0.16b, #4
	adrp	x8, l_CPI9_1@PAGE
	ldrh	w12, [x1, #14]
	ldrh	w13, [x1, #12]
	str	x0, [sp, #8]                    // 8-byte Spill
	sub	x0, x2, #2
	stp	x20, x19, [sp, #144]            // 16-byte Folded Spill
	str	x30, [sp, #64]                  // 8-byte Spill
	and	v2.16b, v1.16b, v2.16b
	and	v16.16b, v1.16b, v0.16b
	and	v3.16b, v1.16b, v3.16b
	ldr	q0, [x8, l_CPI9_1@PAGEOFF]
	and	v5.16b, v1.16b, v5.16b
	cmlt	v17.16b, v1.16b, #0
	and	v4.16b, v1.16b, v4.16b
	and	v6.16b, v1.16b, v6.16b
	and	v1.16b, v1.16b, v7.16b
	cmeq	v2.16b, v2.16b, #0
	cmeq	v3.16b, v3.16b, #0
	cmeq	v16.16b, v16.16b, #0
	cmeq	v5.16b, v5.16b, #0
	and	v7.16b, v17.16b, v0.16b
	stp	x28, x27, [sp, #80]             // 16-byte Folded Spill
	cmeq	v4.16b, v4.16b, #0
	cmeq	v6.16b, v6.16b, #0
	cmeq	v1.16b, v1.16b, #0
	bic	v2.16b, v0.16b, v2.16b
	bic	v3.16b, v0.16b, v3.16b
	bic	v16.16b, v0.16b, v16.16b
	bic	v5.16b, v0.16b, v5.16b
	addp	v7.16b, v7.16b, v7.16b
	stp	x26, x25, [sp, #96]             // 16-byte Folded Spill
	bic	v4.16b, v0.16b, v4.16b
	bic	v6.16b, v0.16b, v6.16b
	bic	v1.16b, v0.16b, v1.16b
	addp	v2.16b, v2.16b, v2.16b
	addp	v3.16b, v3.16b, v3.16b
	stp	x24, x23, [sp, #112]            // 16-byte Folded Spill
	addp	v5.16b, v5.16b, v5.16b
	addp	v7.16b, v7.16b, v7.16b
	stp	x22, x21, [sp, #128]            // 16-byte Folded Spill
	addp	v16.16b, v16.16b, v16.16b
	addp	v4.16b, v4.16b, v4.16b
	stp	x0, x2, [sp, #16]               // 16-byte Folded Spill
	addp	v2.16b, v2.16b, v2.16b
	addp	v6.16b, v6.16b, v6.16b
	str	x1, [sp, #32]                   // 8-byte Spill
	addp	v1.16b, v1.16b, v1.16b
	addp	v3.16b, v3.16b, v3.16b
	addp	v5.16b, v5.16b, v5.16b
	addp	v7.16b, v7.16b, v7.16b
	addp	v16.16b, v16.16b, v16.16b
	addp	v4.16b, v4.16b, v4.16b
	addp	v2.16b, v2.16b, v2.16b
	addp	v1.16b, v1.16b, v1.16b
	addp	v3.16b, v3.16b, v3.16b
	addp	v5.16b, v5.16b, v5.16b
	umov	w9, v7.h[0]
	addp	v16.16b, v16.16b, v16.16b
	addp	v4.16b, v4.16b, v4.16b
	umov	w8, v2.h[0]
	addp	v2.16b, v6.16b, v6.16b
	addp	v1.16b, v1.16b, v1.16b
	umov	w11, v3.h[0]
	umov	w15, v5.h[0]
	umov	w10, v16.h[0]
	umov	w14, v4.h[0]
	eor	w16, w9, w12
	ldrh	w9, [x1, #8]
	addp	v2.16b, v2.16b, v2.16b
	eor	w5, w13, w8
	ldrh	w8, [x1, #10]
	lsr	x13, x0, #2
	umov	w17, v1.h[0]
	eor	w7, w9, w15
	ldrh	w9, [x1, #2]
	umov	w12, v2.h[0]
	eor	w4, w8, w11
	ldrh	w8, [x1, #6]
	ldrh	w11, [x1, #4]
	ldrh	w15, [x1]
	eor	w19, w8, w14
	add	x8, x1, #40
	eor	w3, w11, w10
	eor	w17, w9, w17
	str	x8, [sp, #72]                   // 8-byte Spill
	eor	w15, w15, w12
LBB9_1:                                // %join.7.i
                                        // =>This Inner Loop Header: Depth=1
	eor	w2, w4, w5
	eor	w10, w17, w16
	eor	w4, w3, w7
	eor	w9, w10, w4
	eor	w20, w7, w16
	eor	w12, w15, w2
	eor	w11, w9, w19
	eor	w17, w12, w17
	eor	w8, w12, w7
	eor	w6, w11, w3
	eor	w25, w11, w5
	eor	w11, w3, w16
	eor	w22, w25, w20
	eor	w23, w6, w2
	eor	w21, w6, w15
	eor	w19, w22, w23
	eor	w3, w17, w11
	and	w26, w22, w20
	and	w27, w6, w9
	eor	w2, w22, w2
	and	w28, w19, w4
	and	w30, w17, w12
	and	w0, w23, w11
	eor	w7, w12, w16
	and	w24, w8, w15
	eor	w5, w22, w15
	eor	w28, w28, w26
	and	w1, w2, w10
	eor	w0, w0, w26
	and	w26, w21, w3
	eor	w25, w25, w27
	eor	w30, w2, w30
	str	x13, [sp, #56]                  // 8-byte Spill
	and	w13, w5, w7
	eor	w24, w24, w11
	eor	w25, w25, w26
	eor	w26, w30, w1
	eor	w24, w24, w23
	eor	w13, w2, w13
	eor	w26, w26, w10
	eor	w16, w1, w16
	eor	w24, w24, w27
	eor	w1, w25, w28
	eor	w25, w26, w28
	eor	w13, w13, w16
	eor	w16, w24, w0
	eor	w13, w13, w0
	and	w0, w25, w1
	eor	w24, w0, w16
	eor	w26, w13, w25
	eor	w1, w1, w16
	and	w24, w24, w26
	eor	w26, w0, w13
	ldr	x30, [sp, #72]                  // 8-byte Reload
	eor	w0, w24, w0
	and	w27, w26, w1
	and	w0, w0, w13
	eor	w16, w27, w16
	eor	w13, w24, w13
	eor	w26, w0, w26
	eor	w0, w0, w25
	and	w8, w13, w8
	and	w24, w26, w16
	eor	w26, w16, w13
	and	w6, w0, w6
	eor	w1, w24, w1
	eor	w24, w0, w13
	and	w13, w13, w15
	eor	w25, w1, w24
	and	w15, w26, w22
	eor	w27, w1, w16
	and	w22, w25, w23
	eor	w23, w25, w26
	and	w20, w26, w20
	and	w4, w23, w4
	and	w7, w16, w7
	and	w16, w16, w5
	eor	w13, w6, w13
	and	w2, w27, w2
	and	w12, w1, w12
	and	w17, w1, w17
	and	w1, w24, w3
	eor	w4, w4, w20
	eor	w16, w13, w16
	and	w26, w27, w10
	eor	w12, w2, w12
	and	w3, w23, w19
	eor	w1, w4, w1
	eor	w13, w22, w13
	and	w9, w0, w9
	eor	w16, w16, w2
	and	w10, w24, w21
	eor	w3, w12, w3
	eor	w13, w13, w26
	eor	w0, w1, w9
	eor	w9, w16, w17
	eor	w10, w10, w6
	eor	w13, w13, w3
	eor	w17, w9, w4
	eor	w9, w10, w12
	eor	w12, w13, w7
	eor	w22, w17, w26
	eor	w8, w1, w8
	and	w11, w25, w11
	eor	w6, w17, w13
	eor	w13, w3, w15
	ubfx	w15, w22, #5, #11
	eor	w21, w8, w12
	eor	w8, w11, w20
	ubfx	w11, w22, #1, #15
	eor	w10, w9, w0
	eor	w8, w8, w13
	eor	w27, w0, w13
	eor	w9, w10, w13
	orr	w13, w15, w22, lsl #11
	eor	w23, w8, w12
	orr	w8, w11, w22, lsl #15
	mov	w12, #30583                     // =0x7777
	mov	w2, #-30584                     // =0xffff8888
	ubfx	w17, w21, #5, #11
	ubfx	w0, w21, #1, #15
	eor	w7, w10, w16
	and	w11, w13, w12
	ubfx	w13, w6, #5, #11
	ubfx	w15, w6, #1, #15
	and	w8, w8, w2
	ubfx	w4, w10, #5, #11
	ubfx	w5, w10, #1, #15
	orr	w16, w11, w8
	orr	w8, w17, w21, lsl #11
	orr	w11, w0, w21, lsl #15
	ubfx	w17, w7, #5, #11
	orr	w13, w13, w6, lsl #11
	orr	w15, w15, w6, lsl #15
	ubfx	w0, w7, #1, #15
	and	w8, w8, w12
	and	w11, w11, w2
	orr	w1, w17, w7, lsl #11
	and	w13, w13, w12
	and	w15, w15, w2
	orr	w17, w8, w11
	orr	w8, w0, w7, lsl #15
	orr	w3, w13, w15
	and	w11, w1, w12
	orr	w13, w4, w10, lsl #11
	orr	w0, w5, w10, lsl #15
	ubfx	w1, w23, #5, #11
	ubfx	w4, w23, #1, #15
	and	w8, w8, w2
	orr	w14, w11, w8
	and	w8, w13, w12
	and	w11, w0, w2
	orr	w13, w1, w23, lsl #11
	orr	w0, w4, w23, lsl #15
	ubfx	w1, w9, #5, #11
	ubfx	w4, w9, #1, #15
	ubfx	w19, w27, #1, #15
	orr	w20, w8, w11
	orr	w1, w1, w9, lsl #11
	and	w13, w13, w12
	and	w0, w0, w2
	orr	w24, w4, w9, lsl #15
	orr	w19, w19, w27, lsl #15
	eor	w26, w16, w22
	and	w8, w1, w12
	ubfx	w5, w27, #5, #11
	orr	w15, w13, w0
	and	w11, w24, w2
	and	w0, w19, w2
	stp	w15, w14, [sp, #48]             // 8-byte Folded Spill
	orr	w19, w8, w11
	ubfx	w8, w26, #10, #6
	ubfx	w11, w26, #6, #10
	orr	w5, w5, w27, lsl #11
	eor	w25, w14, w7
	eor	w24, w15, w23
	orr	w8, w8, w26, lsl #6
	orr	w11, w11, w26, lsl #10
	mov	w15, #13107                     // =0x3333
	mov	w14, #-13108                    // =0xffffcccc
	and	w13, w5, w12
	eor	w22, w3, w6
	eor	w6, w17, w21
	and	w8, w8, w15
	and	w11, w11, w14
	str	w16, [sp, #44]                  // 4-byte Spill
	orr	w28, w13, w0
	orr	w16, w8, w11
	ubfx	w8, w22, #10, #6
	ubfx	w11, w22, #6, #10
	ubfx	w13, w6, #10, #6
	ubfx	w0, w6, #6, #10
	eor	w21, w20, w10
	eor	w23, w19, w9
	orr	w8, w8, w22, lsl #6
	orr	w11, w11, w22, lsl #10
	orr	w13, w13, w6, lsl #6
	orr	w0, w0, w6, lsl #10
	ubfx	w2, w21, #10, #6
	eor	w7, w28, w27
	and	w8, w8, w15
	and	w11, w11, w14
	and	w13, w13, w15
	and	w0, w0, w14
	ubfx	w27, w25, #6, #10
	ubfx	w12, w21, #6, #10
	orr	w4, w8, w11
	orr	w5, w13, w0
	orr	w11, w2, w21, lsl #6
	ubfx	w0, w24, #6, #10
	ubfx	w2, w23, #6, #10
	ubfx	w10, w7, #6, #10
	ubfx	w1, w25, #10, #6
	orr	w27, w27, w25, lsl #10
	orr	w12, w12, w21, lsl #10
	orr	w0, w0, w24, lsl #10
	orr	w2, w2, w23, lsl #10
	orr	w10, w10, w7, lsl #10
	orr	w1, w1, w25, lsl #6
	ubfx	w9, w7, #10, #6
	and	w27, w27, w14
	ubfx	w13, w24, #10, #6
	and	w12, w12, w14
	and	w0, w0, w14
	and	w2, w2, w14
	ldurh	w8, [x30, #-24]
	and	w10, w10, w14
	ldr	w14, [sp, #44]                  // 4-byte Reload
	and	w1, w1, w15
	orr	w9, w9, w7, lsl #6
	orr	w27, w1, w27
	ubfx	w1, w23, #10, #6
	orr	w13, w13, w24, lsl #6
	eor	w8, w8, w14
	and	w9, w9, w15
	and	w11, w11, w15
	eor	w8, w8, w7
	orr	w1, w1, w23, lsl #6
	and	w13, w13, w15
	orr	w9, w9, w10
	ldurh	w10, [x30, #-22]
	eor	w16, w8, w16
	ldurh	w8, [x30, #-16]
	orr	w11, w11, w12
	orr	w12, w13, w0
	ldurh	w0, [x30, #-20]
	and	w1, w1, w15
	eor	w10, w10, w3
	ldurh	w3, [x30, #-12]
	eor	w8, w8, w20
	orr	w13, w1, w2
	ldurh	w2, [x30, #-14]
	eor	w17, w0, w17
	eor	w8, w8, w7
	ldr	w14, [sp, #48]                  // 4-byte Reload
	ldurh	w0, [x30, #-10]
	eor	w15, w17, w22
	eor	w8, w8, w25
	eor	w17, w3, w19
	ldurh	w1, [x30, #-18]
	eor	w8, w8, w11
	eor	w11, w17, w24
	eor	w17, w2, w14
	eor	w10, w10, w26
	eor	w11, w11, w13
	eor	w13, w0, w28
	eor	w17, w17, w21
	eor	w10, w10, w7
	eor	w13, w13, w23
	eor	w12, w17, w12
	eor	w17, w1, w6
	ldr	w14, [sp, #52]                  // 4-byte Reload
	eor	w10, w10, w4
	eor	w15, w15, w5
	eor	w9, w13, w9
	eor	w13, w17, w7
	eor	w12, w12, w11
	eor	w3, w10, w9
	eor	w4, w8, w15
	eor	w13, w13, w14
	eor	w5, w12, w16
	eor	w17, w3, w4
	eor	w13, w13, w27
	eor	w7, w8, w9
	eor	w24, w5, w8
	eor	w8, w13, w17
	eor	w19, w5, w10
	eor	w6, w8, w15
	eor	w0, w8, w11
	eor	w15, w9, w15
	eor	w26, w0, w7
	eor	w8, w6, w12
	and	w13, w24, w16
	eor	w22, w26, w8
	and	w10, w26, w7
	and	w1, w6, w17
	eor	w11, w26, w12
	and	w12, w22, w4
	and	w2, w19, w5
	and	w27, w8, w15
	eor	w20, w5, w9
	eor	w25, w6, w16
	eor	w21, w19, w15
	eor	w23, w26, w16
	eor	w12, w12, w10
	eor	w13, w13, w15
	eor	w28, w8, w1
	eor	w10, w27, w10
	and	w27, w11, w3
	eor	w0, w0, w1
	eor	w1, w11, w2
	eor	w13, w13, w28
	and	w28, w25, w21
	and	w2, w23, w20
	eor	w1, w1, w27
	eor	w0, w0, w28
	eor	w2, w11, w2
	eor	w1, w1, w3
	eor	w9, w27, w9
	eor	w0, w0, w12
	eor	w12, w1, w12
	eor	w9, w2, w9
	eor	w13, w13, w10
	eor	w9, w9, w10
	and	w10, w12, w0
	eor	w0, w0, w13
	eor	w1, w10, w13
	eor	w2, w9, w12
	mov	w14, #-13108                    // =0xffffcccc
	and	w1, w1, w2
	eor	w2, w10, w9
	eor	w10, w1, w10
	and	w27, w2, w0
	and	w10, w10, w9
	eor	w13, w27, w13
	eor	w9, w1, w9
	eor	w2, w10, w2
	eor	w10, w10, w12
	eor	w27, w13, w9
	and	w1, w2, w13
	and	w6, w10, w6
	eor	w12, w1, w0
	eor	w0, w10, w9
	and	w1, w9, w24
	eor	w2, w12, w0
	and	w9, w9, w16
	eor	w24, w12, w13
	and	w16, w27, w26
	and	w26, w2, w8
	and	w8, w27, w7
	and	w7, w13, w20
	and	w13, w13, w23
	eor	w9, w6, w9
	and	w11, w24, w11
	eor	w28, w2, w27
	and	w5, w12, w5
	eor	w13, w9, w13
	and	w4, w28, w4
	and	w20, w24, w3
	and	w3, w0, w25
	eor	w5, w11, w5
	and	w12, w12, w19
	and	w19, w28, w22
	eor	w11, w13, w11
	eor	w9, w26, w9
	eor	w3, w3, w6
	and	w0, w0, w21
	eor	w4, w4, w8
	eor	w6, w5, w19
	eor	w12, w11, w12
	eor	w9, w9, w20
	eor	w0, w4, w0
	and	w10, w10, w17
	eor	w12, w12, w4
	eor	w9, w9, w6
	eor	w10, w0, w10
	eor	w13, w3, w5
	eor	w4, w9, w7
	eor	w5, w12, w9
	eor	w7, w12, w20
	eor	w9, w0, w1
	eor	w17, w13, w10
	eor	w13, w6, w16
	eor	w19, w9, w4
	ubfx	w9, w7, #6, #10
	ubfx	w12, w7, #2, #14
	eor	w6, w17, w11
	and	w11, w2, w15
	eor	w20, w10, w13
	ubfx	w10, w5, #6, #10
	ubfx	w15, w5, #2, #14
	eor	w8, w11, w8
	orr	w9, w9, w7, lsl #10
	orr	w11, w12, w7, lsl #14
	eor	w3, w17, w13
	eor	w8, w8, w13
	orr	w10, w10, w5, lsl #10
	orr	w12, w15, w5, lsl #14
	mov	w13, #13107                     // =0x3333
	eor	w23, w8, w4
	mov	w0, #13107                      // =0x3333
	and	w8, w9, w13
	and	w9, w11, w14
	and	w10, w10, w13
	and	w11, w12, w14
	ubfx	w12, w19, #6, #10
	orr	w15, w8, w9
	ubfx	w8, w19, #2, #14
	orr	w4, w10, w11
	ubfx	w10, w6, #6, #10
	ubfx	w11, w6, #2, #14
	orr	w9, w12, w19, lsl #10
	ubfx	w12, w17, #6, #10
	orr	w8, w8, w19, lsl #14
	ubfx	w13, w17, #2, #14
	orr	w10, w10, w6, lsl #10
	orr	w11, w11, w6, lsl #14
	and	w9, w9, w0
	orr	w12, w12, w17, lsl #10
	and	w8, w8, w14
	orr	w13, w13, w17, lsl #14
	ldurh	w26, [x30, #-6]
	orr	w21, w9, w8
	and	w8, w10, w0
	and	w9, w11, w14
	and	w10, w12, w0
	and	w11, w13, w14
	ubfx	w12, w23, #6, #10
	orr	w16, w8, w9
	ubfx	w8, w23, #2, #14
	orr	w22, w10, w11
	ubfx	w10, w3, #6, #10
	ubfx	w11, w3, #2, #14
	orr	w9, w12, w23, lsl #10
	orr	w8, w8, w23, lsl #14
	ubfx	w12, w20, #6, #10
	ubfx	w13, w20, #2, #14
	orr	w10, w10, w3, lsl #10
	orr	w11, w11, w3, lsl #14
	and	w9, w9, w0
	and	w8, w8, w14
	orr	w12, w12, w20, lsl #10
	orr	w13, w13, w20, lsl #14
	orr	w8, w9, w8
	and	w9, w10, w0
	and	w10, w11, w14
	orr	w24, w9, w10
	and	w9, w12, w0
	and	w10, w13, w14
	orr	w25, w9, w10
	eor	w9, w15, w7
	eor	w0, w24, w3
	ldurh	w3, [x30, #-8]
	rev	w1, w9
	eor	w11, w22, w17
	eor	w17, w25, w20
	eor	w10, w4, w5
	eor	w5, w21, w19
	eor	w1, w3, w1, lsr #16
	eor	w15, w15, w17
	ldurh	w27, [x30, #-4]
	eor	w12, w16, w6
	rev	w2, w10
	rev	w6, w5
	eor	w15, w1, w15
	ldrh	w1, [x30]
	rev	w19, w11
	eor	w13, w8, w23
	eor	w2, w26, w2, lsr #16
	ldrh	w26, [x30, #2]
	eor	w9, w4, w9
	ldrh	w4, [x30, #4]
	eor	w6, w27, w6, lsr #16
	ldrh	w27, [x30, #6]
	eor	w1, w1, w19, lsr #16
	eor	w19, w22, w17
	rev	w7, w12
	rev	w20, w13
	rev	w23, w0
	rev	w3, w17
	eor	w9, w9, w17
	eor	w12, w19, w12
	eor	w9, w2, w9
	eor	w12, w1, w12
	eor	w1, w4, w23, lsr #16
	eor	w2, w27, w3, lsr #16
	eor	w3, w26, w20, lsr #16
	ldurh	w28, [x30, #-2]
	eor	w13, w24, w13
	eor	w8, w8, w11
	eor	w10, w21, w10
	eor	w0, w25, w0
	eor	w11, w1, w13
	eor	w8, w3, w8
	eor	w10, w6, w10
	eor	w27, w2, w0
	eor	w13, w8, w11
	eor	w8, w28, w7, lsr #16
	eor	w17, w5, w17
	eor	w3, w9, w27
	eor	w4, w12, w10
	eor	w16, w17, w16
	eor	w19, w12, w27
	eor	w17, w3, w4
	eor	w8, w8, w16
	eor	w5, w13, w15
	eor	w8, w8, w17
	eor	w26, w5, w12
	eor	w7, w5, w9
	eor	w6, w8, w10
	eor	w0, w8, w11
	eor	w16, w27, w10
	eor	w25, w0, w19
	eor	w8, w6, w13
	and	w12, w26, w15
	eor	w22, w25, w8
	and	w9, w25, w19
	and	w10, w6, w17
	eor	w11, w25, w13
	and	w13, w22, w4
	and	w1, w7, w5
	and	w2, w8, w16
	eor	w20, w5, w27
	eor	w24, w6, w15
	eor	w21, w7, w16
	eor	w23, w25, w15
	eor	w13, w13, w9
	eor	w12, w12, w16
	eor	w28, w8, w10
	eor	w9, w2, w9
	and	w2, w11, w3
	eor	w10, w0, w10
	eor	w0, w11, w1
	eor	w12, w12, w28
	and	w28, w24, w21
	and	w1, w23, w20
	eor	w0, w0, w2
	eor	w10, w10, w28
	eor	w1, w11, w1
	eor	w0, w0, w3
	eor	w2, w2, w27
	eor	w10, w10, w13
	eor	w13, w0, w13
	eor	w0, w1, w2
	eor	w12, w12, w9
	eor	w9, w0, w9
	and	w0, w13, w10
	eor	w10, w10, w12
	eor	w1, w0, w12
	eor	w2, w9, w13
	and	w1, w1, w2
	eor	w2, w0, w9
	eor	w0, w1, w0
	and	w27, w2, w10
	and	w0, w0, w9
	eor	w12, w27, w12
	eor	w9, w1, w9
	eor	w2, w0, w2
	eor	w13, w0, w13
	and	w0, w9, w26
	and	w2, w2, w12
	eor	w1, w13, w9
	eor	w27, w12, w9
	eor	w10, w2, w10
	and	w9, w9, w15
	and	w6, w13, w6
	eor	w26, w10, w1
	eor	w2, w10, w12
	and	w15, w27, w25
	eor	w25, w26, w27
	and	w20, w12, w20
	and	w12, w12, w23
	eor	w9, w6, w9
	and	w11, w2, w11
	and	w8, w26, w8
	and	w19, w27, w19
	and	w4, w25, w4
	and	w5, w10, w5
	eor	w12, w9, w12
	and	w2, w2, w3
	and	w3, w1, w24
	eor	w5, w11, w5
	and	w10, w10, w7
	and	w1, w1, w21
	and	w7, w25, w22
	eor	w4, w4, w19
	eor	w11, w12, w11
	eor	w8, w8, w9
	eor	w3, w3, w6
	eor	w6, w5, w7
	eor	w1, w4, w1
	and	w13, w13, w17
	eor	w10, w11, w10
	eor	w8, w8, w2
	eor	w12, w1, w13
	eor	w9, w10, w4
	eor	w10, w3, w5
	eor	w8, w8, w6
	eor	w23, w9, w2
	eor	w21, w10, w12
	eor	w13, w8, w20
	eor	w5, w9, w8
	eor	w8, w1, w0
	and	w9, w26, w16
	eor	w10, w6, w15
	eor	w22, w21, w11
	eor	w24, w8, w13
	eor	w8, w9, w19
	ubfx	w9, w23, #7, #9
	ubfx	w11, w23, #3, #13
	eor	w20, w21, w10
	eor	w26, w12, w10
	eor	w8, w8, w10
	ubfx	w10, w5, #7, #9
	ubfx	w12, w5, #3, #13
	orr	w9, w9, w23, lsl #9
	orr	w11, w11, w23, lsl #13
	mov	w7, #4369                       // =0x1111
	mov	w27, #-4370                     // =0xffffeeee
	orr	w10, w10, w5, lsl #9
	orr	w12, w12, w5, lsl #13
	eor	w25, w8, w13
	and	w8, w9, w7
	and	w9, w11, w27
	and	w10, w10, w7
	ubfx	w13, w21, #3, #13
	and	w11, w12, w27
	ubfx	w12, w24, #7, #9
	orr	w17, w8, w9
	ubfx	w8, w24, #3, #13
	orr	w16, w10, w11
	ubfx	w10, w22, #7, #9
	ubfx	w11, w22, #3, #13
	orr	w9, w12, w24, lsl #9
	ubfx	w12, w21, #7, #9
	orr	w8, w8, w24, lsl #13
	orr	w10, w10, w22, lsl #9
	orr	w13, w13, w21, lsl #13
	orr	w11, w11, w22, lsl #13
	and	w9, w9, w7
	orr	w12, w12, w21, lsl #9
	and	w8, w8, w27
	mov	w2, #13107                      // =0x3333
	orr	w3, w9, w8
	and	w8, w10, w7
	and	w9, w11, w27
	and	w10, w12, w7
	and	w11, w13, w27
	ubfx	w12, w25, #7, #9
	orr	w14, w8, w9
	ubfx	w8, w25, #3, #13
	orr	w4, w10, w11
	ubfx	w10, w20, #7, #9
	ubfx	w11, w20, #3, #13
	orr	w9, w12, w25, lsl #9
	orr	w8, w8, w25, lsl #13
	ubfx	w12, w26, #7, #9
	ubfx	w13, w26, #3, #13
	orr	w10, w10, w20, lsl #9
	orr	w11, w11, w20, lsl #13
	and	w9, w9, w7
	and	w8, w8, w27
	orr	w12, w12, w26, lsl #9
	orr	w13, w13, w26, lsl #13
	orr	w6, w9, w8
	and	w8, w10, w7
	and	w9, w11, w27
	orr	w19, w8, w9
	and	w8, w12, w7
	and	w9, w13, w27
	eor	w27, w17, w23
	orr	w7, w8, w9
	eor	w23, w16, w5
	ubfx	w8, w27, #10, #6
	ubfx	w9, w27, #6, #10
	ubfx	w11, w23, #6, #10
	eor	w5, w3, w24
	ubfx	w10, w23, #10, #6
	eor	w24, w6, w25
	orr	w8, w8, w27, lsl #6
	orr	w9, w9, w27, lsl #10
	eor	w25, w19, w20
	eor	w20, w7, w26
	orr	w11, w11, w23, lsl #10
	mov	w26, #-13108                    // =0xffffcccc
	ubfx	w13, w5, #6, #10
	eor	w22, w14, w22
	eor	w21, w4, w21
	and	w8, w8, w2
	orr	w10, w10, w23, lsl #6
	and	w9, w9, w26
	ubfx	w12, w5, #10, #6
	orr	w28, w8, w9
	and	w9, w11, w26
	orr	w11, w13, w5, lsl #10
	ubfx	w13, w22, #6, #10
	ubfx	w0, w21, #10, #6
	and	w8, w10, w2
	orr	w10, w12, w5, lsl #6
	ubfx	w12, w22, #10, #6
	ubfx	w1, w21, #6, #10
	orr	w13, w13, w22, lsl #10
	orr	w0, w0, w21, lsl #6
	and	w10, w10, w2
	and	w11, w11, w26
	orr	w12, w12, w22, lsl #6
	orr	w1, w1, w21, lsl #10
	orr	w15, w10, w11
	and	w10, w13, w26
	and	w11, w0, w2
	ubfx	w13, w24, #10, #6
	ubfx	w0, w24, #6, #10
	str	w14, [sp, #52]                  // 4-byte Spill
	orr	w14, w8, w9
	and	w9, w12, w2
	and	w12, w1, w26
	ubfx	w1, w25, #10, #6
	orr	w26, w9, w10
	orr	w11, w11, w12
	ubfx	w9, w25, #6, #10
	orr	w10, w13, w24, lsl #6
	orr	w12, w0, w24, lsl #10
	mov	w8, #-13108                     // =0xffffcccc
	orr	w13, w1, w25, lsl #6
	ubfx	w0, w20, #10, #6
	ubfx	w1, w20, #6, #10
	orr	w9, w9, w25, lsl #10
	and	w10, w10, w2
	and	w12, w12, w8
	and	w13, w13, w2
	orr	w0, w0, w20, lsl #6
	orr	w1, w1, w20, lsl #10
	orr	w10, w10, w12
	ldrh	w12, [x30, #8]
	and	w9, w9, w8
	orr	w9, w13, w9
	and	w13, w0, w2
	and	w0, w1, w8
	ldrh	w1, [x30, #10]
	eor	w12, w12, w17
	orr	w13, w13, w0
	eor	w12, w12, w20
	ldrh	w17, [x30, #12]
	ldrh	w2, [x30, #18]
	eor	w0, w1, w16
	eor	w16, w12, w28
	ldrh	w12, [x30, #16]
	eor	w0, w0, w27
	eor	w17, w17, w3
	ldrh	w3, [x30, #20]
	eor	w12, w12, w4
	eor	w0, w0, w20
	eor	w17, w17, w23
	eor	w12, w12, w20
	ldrh	w4, [x30, #22]
	eor	w8, w0, w14
	eor	w0, w17, w15
	eor	w12, w12, w22
	eor	w17, w3, w19
	ldrh	w1, [x30, #14]
	eor	w11, w12, w11
	eor	w12, w17, w24
	eor	w17, w2, w6
	eor	w9, w12, w9
	eor	w12, w4, w7
	eor	w17, w17, w21
	eor	w12, w12, w25
	ldr	w14, [sp, #52]                  // 4-byte Reload
	eor	w10, w17, w10
	eor	w17, w1, w5
	eor	w12, w12, w13
	eor	w13, w17, w20
	eor	w10, w10, w9
	eor	w20, w8, w12
	eor	w3, w11, w0
	eor	w13, w13, w14
	eor	w21, w10, w16
	eor	w17, w20, w3
	eor	w13, w13, w26
	eor	w5, w11, w12
	eor	w19, w21, w11
	eor	w11, w13, w17
	eor	w15, w12, w0
	eor	w4, w11, w0
	eor	w9, w11, w9
	and	w13, w19, w16
	eor	w22, w9, w5
	eor	w7, w4, w10
	eor	w25, w21, w8
	eor	w24, w22, w7
	and	w8, w22, w5
	and	w11, w4, w17
	and	w0, w24, w3
	and	w1, w7, w15
	eor	w27, w4, w16
	eor	w26, w25, w15
	eor	w10, w22, w10
	eor	w0, w0, w8
	eor	w8, w1, w8
	eor	w13, w13, w15
	eor	w1, w7, w11
	and	w2, w25, w21
	eor	w6, w21, w12
	eor	w23, w22, w16
	eor	w13, w13, w1
	and	w1, w10, w20
	eor	w9, w9, w11
	and	w11, w27, w26
	eor	w2, w10, w2
	eor	w12, w1, w12
	eor	w9, w9, w11
	and	w11, w23, w6
	eor	w2, w2, w1
	eor	w2, w2, w20
	eor	w11, w10, w11
	eor	w9, w9, w0
	eor	w0, w2, w0
	eor	w11, w11, w12
	eor	w12, w13, w8
	eor	w8, w11, w8
	and	w11, w0, w9
	eor	w9, w9, w12
	eor	w13, w11, w12
	eor	w1, w8, w0
	and	w13, w13, w1
	eor	w1, w11, w8
	eor	w11, w13, w11
	and	w2, w1, w9
	and	w11, w11, w8
	eor	w12, w2, w12
	eor	w8, w13, w8
	eor	w1, w11, w1
	eor	w11, w11, w0
	and	w19, w8, w19
	and	w1, w1, w12
	eor	w0, w11, w8
	and	w16, w8, w16
	eor	w9, w1, w9
	eor	w8, w12, w8
	and	w4, w11, w4
	eor	w13, w9, w12
	and	w1, w9, w21
	and	w2, w9, w25
	eor	w9, w9, w0
	and	w21, w8, w22
	and	w22, w8, w5
	eor	w8, w9, w8
	and	w5, w12, w6
	and	w12, w12, w23
	and	w3, w8, w3
	eor	w16, w4, w16
	and	w10, w13, w10
	and	w13, w13, w20
	and	w20, w0, w27
	and	w0, w0, w26
	eor	w3, w3, w22
	eor	w12, w16, w12
	and	w11, w11, w17
	eor	w17, w20, w4
	and	w4, w9, w7
	eor	w1, w10, w1
	eor	w10, w12, w10
	eor	w0, w3, w0
	and	w8, w8, w24
	eor	w12, w4, w16
	eor	w4, w0, w11
	eor	w11, w10, w2
	eor	w8, w1, w8
	eor	w11, w11, w3
	eor	w16, w17, w1
	eor	w12, w12, w13
	eor	w3, w16, w4
	eor	w13, w11, w13
	eor	w12, w12, w8
	and	w9, w9, w15
	eor	w8, w8, w21
	eor	w17, w12, w5
	eor	w12, w11, w12
	eor	w5, w3, w10
	eor	w9, w9, w22
	ubfx	w10, w13, #4, #12
	eor	w11, w0, w19
	eor	w9, w9, w8
	ubfx	w15, w12, #4, #12
	eor	w0, w4, w8
	eor	w16, w3, w8
	eor	w4, w9, w17
	orr	w9, w10, w13, lsl #12
	ubfx	w8, w0, #4, #12
	eor	w11, w11, w17
	orr	w10, w15, w12, lsl #12
	ubfx	w15, w11, #4, #12
	eor	w13, w9, w13
	ldrh	w1, [x30, #24]
	orr	w8, w8, w0, lsl #12
	ubfx	w17, w5, #4, #12
	eor	w12, w10, w12
	rev	w2, w13
	ldrh	w6, [x30, #26]
	orr	w7, w15, w11, lsl #12
	eor	w1, w1, w2, lsr #16
	rev	w2, w12
	eor	w0, w8, w0
	orr	w19, w17, w5, lsl #12
	eor	w17, w6, w2, lsr #16
	eor	w10, w10, w13
	eor	w9, w9, w0
	ubfx	w2, w3, #4, #12
	eor	w11, w7, w11
	eor	w15, w1, w9
	ldrh	w9, [x30, #28]
	eor	w10, w10, w0
	eor	w17, w17, w10
	rev	w10, w11
	ubfx	w13, w4, #4, #12
	orr	w1, w2, w3, lsl #12
	eor	w9, w9, w10, lsr #16
	eor	w2, w19, w5
	eor	w12, w7, w12
	ldrh	w5, [x30, #30]
	orr	w13, w13, w4, lsl #12
	ubfx	w10, w16, #4, #12
	eor	w6, w1, w3
	eor	w3, w9, w12
	rev	w9, w2
	ldrh	w12, [x30, #32]
	eor	w11, w11, w0
	eor	w9, w5, w9, lsr #16
	rev	w5, w6
	eor	w1, w1, w0
	orr	w10, w10, w16, lsl #12
	eor	w11, w11, w19
	eor	w12, w12, w5, lsr #16
	eor	w5, w13, w4
	eor	w1, w1, w2
	ldrh	w2, [x30, #34]
	eor	w19, w9, w11
	rev	w9, w5
	eor	w16, w10, w16
	eor	w7, w12, w1
	ldrh	w11, [x30, #36]
	eor	w9, w2, w9, lsr #16
	ldrh	w12, [x30, #38]
	eor	w13, w13, w6
	rev	w1, w16
	rev	w0, w0
	eor	w4, w9, w13
	ldr	x13, [sp, #56]                  // 8-byte Reload
	eor	w9, w11, w1, lsr #16
	eor	w11, w12, w0, lsr #16
	eor	w10, w10, w5
	eor	w8, w8, w16
	subs	x13, x13, #1
	add	x30, x30, #64
	eor	w5, w9, w10
	eor	w16, w11, w8
	str	x30, [sp, #72]                  // 8-byte Spill
	b.ne	LBB9_1
// %bb.2:                               // %after.3.i
	eor	w6, w17, w16
	eor	w21, w7, w3
	eor	w9, w5, w4
	eor	w4, w6, w21
	eor	w20, w9, w15
	eor	w22, w7, w16
	eor	w8, w4, w19
	eor	w24, w20, w7
	eor	w17, w20, w17
	eor	w7, w8, w3
	eor	w12, w8, w5
	eor	w14, w16, w3
	eor	w26, w12, w22
	eor	w8, w7, w9
	and	w10, w24, w15
	eor	w5, w26, w8
	and	w13, w7, w4
	and	w0, w26, w22
	eor	w11, w26, w9
	and	w9, w5, w21
	and	w1, w17, w20
	and	w2, w8, w14
	eor	w19, w20, w16
	eor	w3, w17, w14
	eor	w25, w7, w15
	eor	w23, w26, w15
	eor	w9, w9, w0
	eor	w10, w10, w14
	eor	w27, w8, w13
	eor	w0, w2, w0
	and	w2, w11, w6
	eor	w12, w12, w13
	eor	w13, w11, w1
	eor	w10, w10, w27
	and	w27, w25, w3
	and	w1, w23, w19
	eor	w13, w13, w2
	eor	w12, w12, w27
	eor	w1, w11, w1
	eor	w13, w13, w6
	eor	w16, w2, w16
	eor	w12, w12, w9
	eor	w9, w13, w9
	eor	w13, w1, w16
	eor	w10, w10, w0
	eor	w16, w13, w0
	and	w13, w9, w12
	eor	w12, w12, w10
	eor	w0, w13, w10
	eor	w1, w16, w9
	and	w0, w0, w1
	eor	w1, w13, w16
	eor	w13, w0, w13
	and	w2, w1, w12
	and	w27, w13, w16
	eor	w10, w2, w10
	eor	w16, w0, w16
	eor	w1, w27, w1
	eor	w9, w27, w9
	and	w15, w16, w15
	and	w0, w1, w10
	and	w1, w16, w24
	eor	w24, w10, w16
	eor	w12, w0, w12
	eor	w0, w9, w16
	and	w7, w9, w7
	eor	w2, w12, w0
	eor	w27, w12, w10
	and	w19, w10, w19
	eor	w28, w2, w24
	and	w10, w10, w23
	eor	w15, w7, w15
	and	w11, w27, w11
	and	w16, w24, w26
	and	w26, w2, w8
	and	w8, w24, w22
	and	w21, w28, w21
	and	w20, w12, w20
	eor	w10, w15, w10
	and	w22, w27, w6
	and	w6, w0, w25
	eor	w20, w11, w20
	and	w12, w12, w17
	and	w0, w0, w3
	and	w3, w28, w5
	eor	w5, w21, w8
	eor	w15, w26, w15
	eor	w10, w10, w11
	eor	w17, w6, w7
	eor	w3, w20, w3
	eor	w0, w5, w0
	and	w9, w9, w4
	eor	w11, w15, w22
	eor	w12, w10, w12
	eor	w9, w0, w9
	eor	w11, w11, w3
	eor	w12, w12, w5
	eor	w15, w17, w20
	eor	w17, w11, w19
	eor	w5, w15, w9
	eor	w19, w12, w11
	eor	w20, w12, w22
	eor	w11, w3, w16
	eor	w12, w0, w1
	eor	w7, w5, w10
	and	w10, w2, w14
	ubfx	w14, w20, #5, #11
	ubfx	w15, w20, #1, #15
	ubfx	w16, w19, #5, #11
	ubfx	w0, w19, #1, #15
	ldr	x13, [sp, #16]                  // 8-byte Reload
	eor	w21, w12, w17
	eor	w8, w10, w8
	orr	w10, w14, w20, lsl #11
	orr	w12, w15, w20, lsl #15
	orr	w14, w16, w19, lsl #11
	orr	w15, w0, w19, lsl #15
	and	x30, x13, #0xc
	mov	w13, #30583                     // =0x7777
	mov	w2, #-30584                     // =0xffff8888
	eor	w6, w5, w11
	eor	w23, w9, w11
	eor	w8, w8, w11
	and	w9, w10, w13
	and	w10, w12, w2
	and	w11, w14, w13
	and	w12, w15, w2
	eor	w24, w8, w17
	orr	w14, w9, w10
	orr	w15, w11, w12
	ubfx	w8, w21, #5, #11
	ubfx	w9, w21, #1, #15
	ubfx	w10, w7, #5, #11
	ubfx	w11, w7, #1, #15
	ubfx	w12, w5, #5, #11
	ubfx	w16, w5, #1, #15
	orr	w8, w8, w21, lsl #11
	orr	w9, w9, w21, lsl #15
	orr	w10, w10, w7, lsl #11
	orr	w11, w11, w7, lsl #15
	orr	w12, w12, w5, lsl #11
	orr	w16, w16, w5, lsl #15
	and	w8, w8, w13
	and	w9, w9, w2
	and	w10, w10, w13
	and	w11, w11, w2
	and	w12, w12, w13
	and	w17, w16, w2
	orr	w3, w8, w9
	orr	w16, w10, w11
	orr	w17, w12, w17
	ubfx	w8, w24, #5, #11
	ubfx	w9, w24, #1, #15
	ubfx	w10, w6, #5, #11
	ubfx	w11, w6, #1, #15
	ubfx	w12, w23, #5, #11
	ubfx	w0, w23, #1, #15
	orr	w8, w8, w24, lsl #11
	orr	w9, w9, w24, lsl #15
	orr	w10, w10, w6, lsl #11
	orr	w11, w11, w6, lsl #15
	orr	w12, w12, w23, lsl #11
	orr	w0, w0, w23, lsl #15
	and	w8, w8, w13
	and	w9, w9, w2
	and	w10, w10, w13
	and	w11, w11, w2
	and	w1, w12, w13
	and	w0, w0, w2
	eor	w22, w14, w20
	eor	w20, w15, w19
	orr	w4, w8, w9
	orr	w11, w10, w11
	orr	w13, w1, w0
	ubfx	w8, w22, #10, #6
	ubfx	w9, w22, #6, #10
	ubfx	w10, w20, #10, #6
	ubfx	w0, w20, #6, #10
	eor	w19, w3, w21
	str	w11, [sp, #72]                  // 4-byte Spill
	orr	w8, w8, w22, lsl #6
	orr	w9, w9, w22, lsl #10
	orr	w10, w10, w20, lsl #6
	orr	w0, w0, w20, lsl #10
	eor	w6, w11, w6
	mov	w11, #13107                     // =0x3333
	mov	w12, #-13108                    // =0xffffcccc
	ubfx	w1, w19, #10, #6
	ubfx	w2, w19, #6, #10
	eor	w21, w16, w7
	eor	w7, w17, w5
	and	w8, w8, w11
	and	w9, w9, w12
	and	w10, w10, w11
	and	w0, w0, w12
	eor	w5, w4, w24
	orr	w24, w8, w9
	orr	w25, w10, w0
	orr	w8, w1, w19, lsl #6
	orr	w9, w2, w19, lsl #10
	ubfx	w10, w21, #10, #6
	ubfx	w0, w21, #6, #10
	ubfx	w1, w7, #10, #6
	ubfx	w2, w7, #6, #10
	orr	w10, w10, w21, lsl #6
	and	w8, w8, w11
	and	w9, w9, w12
	orr	w0, w0, w21, lsl #10
	orr	w1, w1, w7, lsl #6
	orr	w2, w2, w7, lsl #10
	orr	w26, w8, w9
	and	w8, w10, w11
	ubfx	w28, w6, #10, #6
	and	w10, w0, w12
	and	w0, w1, w11
	and	w1, w2, w12
	ubfx	w2, w5, #6, #10
	stp	w13, w16, [sp, #52]             // 8-byte Folded Spill
	eor	w23, w13, w23
	ubfx	w9, w5, #10, #6
	orr	w16, w8, w10
	ubfx	w10, w6, #6, #10
	orr	w27, w0, w1
	orr	w0, w2, w5, lsl #10
	orr	w1, w28, w6, lsl #6
	ubfx	w2, w23, #10, #6
	ubfx	w28, w23, #6, #10
	ldr	x8, [sp, #32]                   // 8-byte Reload
	orr	w9, w9, w5, lsl #6
	orr	w10, w10, w6, lsl #10
	mov	x13, x30
	add	x30, x8, x30, lsl #4
	orr	w8, w2, w23, lsl #6
	orr	w2, w28, w23, lsl #10
	and	w9, w9, w11
	and	w0, w0, w12
	and	w1, w1, w11
	and	w10, w10, w12
	orr	w0, w9, w0
	orr	w28, w1, w10
	ldrh	w9, [x30, #18]
	and	w8, w8, w11
	and	w10, w2, w12
	ldrh	w1, [x30, #16]
	ldr	w11, [sp, #72]                  // 4-byte Reload
	orr	w8, w8, w10
	ldrh	w10, [x30, #20]
	eor	w9, w9, w15
	ldrh	w15, [x30, #22]
	eor	w14, w1, w14
	ldrh	w1, [x30, #24]
	eor	w10, w10, w3
	eor	w9, w9, w22
	eor	w14, w14, w23
	eor	w10, w10, w20
	eor	w15, w15, w19
	eor	w2, w9, w23
	eor	w17, w1, w17
	eor	w1, w15, w23
	eor	w15, w26, w10
	ldp	w12, w10, [sp, #52]             // 8-byte Folded Reload
	eor	w9, w24, w14
	eor	w14, w25, w2
	ldrh	w2, [x30, #26]
	ldrh	w3, [x30, #30]
	eor	w17, w17, w23
	orr	x13, x13, #0x2
	eor	w10, w1, w10
	eor	w1, w2, w4
	ldrh	w2, [x30, #28]
	eor	w12, w3, w12
	ldr	x4, [sp, #24]                   // 8-byte Reload
	eor	w17, w17, w21
	eor	w11, w2, w11
	eor	w16, w16, w10
	eor	w10, w1, w7
	eor	w1, w11, w5
	eor	w2, w12, w6
	eor	w17, w27, w17
	cmp	x13, x4
	eor	w11, w0, w10
	eor	w12, w28, w1
	eor	w10, w8, w2
	b.hs	LBB9_4
// %bb.3:                               // %then.11.i
	eor	w13, w10, w14
	eor	w4, w17, w15
	eor	w0, w12, w11
	eor	w11, w13, w4
	eor	w3, w0, w9
	eor	w5, w10, w17
	eor	w1, w11, w16
	eor	w14, w3, w14
	eor	w8, w3, w17
	eor	w16, w1, w15
	eor	w1, w1, w12
	eor	w12, w10, w15
	eor	w20, w1, w5
	eor	w21, w16, w0
	and	w24, w16, w11
	eor	w2, w20, w0
	eor	w19, w20, w21
	and	w25, w14, w3
	eor	w17, w3, w10
	eor	w7, w16, w9
	eor	w15, w14, w12
	and	w23, w20, w5
	eor	w6, w20, w9
	and	w0, w19, w4
	and	w27, w21, w12
	and	w28, w2, w13
	eor	w30, w21, w24
	eor	w1, w1, w24
	eor	w24, w2, w25
	and	w22, w8, w9
	and	w26, w6, w17
	eor	w0, w0, w23
	eor	w23, w27, w23
	and	w27, w7, w15
	eor	w24, w24, w28
	eor	w22, w22, w12
	eor	w1, w1, w27
	eor	w24, w24, w13
	eor	w25, w2, w26
	eor	w10, w28, w10
	eor	w22, w22, w30
	eor	w1, w1, w0
	eor	w0, w24, w0
	eor	w10, w25, w10
	eor	w22, w22, w23
	eor	w10, w10, w23
	and	w23, w0, w1
	eor	w1, w1, w22
	eor	w24, w23, w22
	eor	w25, w10, w0
	and	w24, w24, w25
	eor	w25, w23, w10
	eor	w23, w24, w23
	and	w26, w25, w1
	and	w23, w23, w10
	eor	w22, w26, w22
	eor	w10, w24, w10
	eor	w25, w23, w25
	eor	w0, w23, w0
	and	w9, w10, w9
	and	w24, w25, w22
	eor	w23, w0, w10
	and	w16, w0, w16
	eor	w1, w24, w1
	and	w24, w10, w8
	eor	w8, w22, w10
	eor	w25, w1, w23
	eor	w26, w1, w22
	and	w10, w8, w20
	and	w2, w26, w2
	and	w20, w25, w21
	eor	w21, w25, w8
	and	w3, w1, w3
	and	w8, w8, w5
	and	w4, w21, w4
	and	w5, w26, w13
	and	w13, w23, w7
	eor	w3, w2, w3
	and	w14, w1, w14
	and	w1, w21, w19
	and	w6, w22, w6
	eor	w9, w16, w9
	eor	w13, w13, w16
	and	w15, w23, w15
	eor	w4, w4, w8
	eor	w16, w3, w1
	eor	w1, w9, w6
	eor	w15, w4, w15
	and	w11, w0, w11
	eor	w0, w1, w2
	eor	w9, w20, w9
	eor	w1, w15, w11
	eor	w11, w0, w14
	eor	w9, w9, w5
	and	w17, w22, w17
	eor	w14, w11, w4
	eor	w11, w13, w3
	eor	w9, w9, w16
	eor	w10, w16, w10
	eor	w17, w9, w17
	eor	w13, w11, w1
	eor	w16, w14, w9
	eor	w4, w14, w5
	eor	w9, w15, w24
	eor	w3, w13, w0
	eor	w5, w9, w17
	ubfx	w9, w4, #6, #10
	ubfx	w14, w4, #2, #14
	eor	w15, w1, w10
	ubfx	w0, w16, #6, #10
	ubfx	w1, w16, #2, #14
	and	w12, w25, w12
	orr	w14, w14, w4, lsl #14
	eor	w11, w13, w10
	eor	w8, w12, w8
	orr	w12, w9, w4, lsl #10
	orr	w0, w0, w16, lsl #10
	orr	w1, w1, w16, lsl #14
	mov	w9, #13107                      // =0x3333
	eor	w8, w8, w10
	mov	w10, #-13108                    // =0xffffcccc
	and	w12, w12, w9
	and	w0, w0, w9
	and	w14, w14, w10
	and	w1, w1, w10
	eor	w19, w8, w17
	orr	w17, w12, w14
	orr	w14, w0, w1
	ubfx	w8, w5, #6, #10
	ubfx	w12, w5, #2, #14
	ubfx	w0, w3, #6, #10
	ubfx	w1, w3, #2, #14
	ubfx	w6, w13, #2, #14
	ubfx	w2, w13, #6, #10
	orr	w8, w8, w5, lsl #10
	orr	w12, w12, w5, lsl #14
	orr	w0, w0, w3, lsl #10
	orr	w1, w1, w3, lsl #14
	orr	w6, w6, w13, lsl #14
	orr	w2, w2, w13, lsl #10
	and	w8, w8, w9
	and	w12, w12, w10
	and	w0, w0, w9
	and	w1, w1, w10
	and	w7, w6, w10
	orr	w6, w8, w12
	orr	w12, w0, w1
	ubfx	w8, w19, #6, #10
	ubfx	w0, w19, #2, #14
	and	w2, w2, w9
	ubfx	w1, w11, #6, #10
	ubfx	w20, w15, #6, #10
	orr	w7, w2, w7
	ubfx	w2, w11, #2, #14
	orr	w8, w8, w19, lsl #10
	orr	w0, w0, w19, lsl #14
	ubfx	w21, w15, #2, #14
	orr	w1, w1, w11, lsl #10
	orr	w20, w20, w15, lsl #10
	orr	w2, w2, w11, lsl #14
	and	w8, w8, w9
	and	w0, w0, w10
	orr	w21, w21, w15, lsl #14
	and	w1, w1, w9
	and	w22, w20, w9
	orr	w20, w8, w0
	ldr	x8, [sp, #16]                   // 8-byte Reload
	ldr	x9, [sp, #32]                   // 8-byte Reload
	and	w2, w2, w10
	and	w23, w21, w10
	eor	w0, w17, w4
	orr	w21, w1, w2
	eor	w2, w12, w3
	add	x3, x9, x8, lsl #4
	eor	w4, w20, w19
	orr	w22, w22, w23
	rev	w8, w0
	ldrh	w19, [x3]
	eor	w1, w14, w16
	eor	w16, w6, w5
	eor	w5, w21, w11
	eor	w11, w22, w15
	ldrh	w28, [x3, #2]
	eor	w8, w19, w8, lsr #16
	eor	w17, w17, w11
	eor	w13, w7, w13
	rev	w15, w1
	rev	w25, w13
	ldrh	w30, [x3, #4]
	eor	w8, w8, w17
	ldrh	w17, [x3, #8]
	ldrh	w9, [x3, #6]
	eor	w15, w28, w15, lsr #16
	ldrh	w28, [x3, #10]
	eor	w14, w14, w0
	ldrh	w0, [x3, #12]
	ldrh	w3, [x3, #14]
	rev	w23, w16
	rev	w26, w4
	rev	w27, w5
	rev	w19, w11
	eor	w17, w17, w25, lsr #16
	eor	w7, w7, w11
	eor	w14, w14, w11
	rev	w24, w2
	eor	w23, w30, w23, lsr #16
	eor	w1, w6, w1
	eor	w2, w7, w2
	eor	w6, w15, w14
	eor	w14, w0, w27, lsr #16
	eor	w15, w3, w19, lsr #16
	eor	w0, w28, w26, lsr #16
	eor	w17, w17, w2
	eor	w2, w21, w4
	eor	w3, w22, w5
	eor	w13, w20, w13
	eor	w1, w23, w1
	eor	w4, w14, w2
	eor	w2, w15, w3
	eor	w13, w0, w13
	eor	w9, w9, w24, lsr #16
	eor	w11, w16, w11
	eor	w0, w13, w4
	eor	w13, w2, w6
	eor	w14, w17, w1
	eor	w11, w11, w12
	eor	w12, w13, w14
	eor	w15, w0, w8
	eor	w9, w9, w11
	eor	w3, w2, w17
	eor	w21, w15, w17
	eor	w9, w9, w12
	eor	w17, w15, w6
	and	w24, w21, w8
	eor	w16, w9, w1
	eor	w9, w9, w4
	eor	w11, w2, w1
	eor	w20, w9, w3
	eor	w22, w16, w0
	and	w25, w16, w12
	eor	w23, w20, w0
	eor	w7, w20, w22
	and	w26, w17, w15
	eor	w5, w15, w2
	and	w1, w20, w3
	eor	w19, w16, w8
	eor	w4, w17, w11
	eor	w6, w20, w8
	and	w0, w7, w14
	and	w28, w22, w11
	and	w30, w23, w13
	eor	w24, w24, w11
	eor	w9, w9, w25
	eor	w25, w22, w25
	eor	w26, w23, w26
	and	w27, w6, w5
	eor	w0, w0, w1
	eor	w1, w28, w1
	and	w28, w19, w4
	eor	w24, w24, w25
	eor	w25, w26, w30
	eor	w9, w9, w28
	eor	w25, w25, w13
	eor	w26, w23, w27
	eor	w2, w30, w2
	eor	w9, w9, w0
	eor	w0, w25, w0
	eor	w2, w26, w2
	eor	w24, w24, w1
	eor	w1, w2, w1
	and	w2, w0, w9
	eor	w9, w9, w24
	eor	w25, w2, w24
	eor	w26, w1, w0
	and	w25, w25, w26
	eor	w26, w2, w1
	eor	w2, w25, w2
	and	w27, w26, w9
	and	w2, w2, w1
	eor	w24, w27, w24
	eor	w1, w25, w1
	eor	w26, w2, w26
	eor	w0, w2, w0
	and	w2, w1, w21
	and	w26, w26, w24
	eor	w21, w0, w1
	eor	w27, w24, w1
	eor	w9, w26, w9
	and	w8, w1, w8
	and	w16, w0, w16
	eor	w26, w9, w21
	eor	w25, w9, w24
	and	w1, w27, w20
	eor	w20, w26, w27
	and	w6, w24, w6
	eor	w8, w16, w8
	and	w23, w25, w23
	and	w22, w26, w22
	and	w3, w27, w3
	and	w14, w20, w14
	and	w15, w9, w15
	eor	w6, w8, w6
	and	w13, w25, w13
	and	w19, w21, w19
	eor	w15, w23, w15
	and	w9, w9, w17
	and	w4, w21, w4
	and	w7, w20, w7
	eor	w14, w14, w3
	and	w12, w0, w12
	eor	w0, w6, w23
	eor	w8, w22, w8
	eor	w17, w19, w16
	eor	w16, w15, w7
	eor	w19, w14, w4
	eor	w9, w0, w9
	eor	w8, w8, w13
	and	w5, w24, w5
	eor	w12, w19, w12
	eor	w9, w9, w14
	eor	w14, w17, w15
	eor	w8, w8, w16
	eor	w7, w9, w13
	eor	w4, w14, w12
	eor	w14, w16, w1
	eor	w15, w8, w5
	eor	w5, w9, w8
	eor	w9, w19, w2
	and	w11, w26, w11
	eor	w20, w9, w15
	eor	w21, w12, w14
	eor	w9, w11, w3
	ubfx	w11, w7, #7, #9
	ubfx	w12, w7, #3, #13
	eor	w8, w4, w14
	eor	w9, w9, w14
	ubfx	w13, w5, #7, #9
	ubfx	w14, w5, #3, #13
	orr	w11, w11, w7, lsl #9
	orr	w12, w12, w7, lsl #13
	mov	w16, #4369                      // =0x1111
	mov	w19, #-4370                     // =0xffffeeee
	orr	w13, w13, w5, lsl #9
	orr	w14, w14, w5, lsl #13
	eor	w23, w9, w15
	and	w9, w11, w16
	and	w11, w12, w19
	ubfx	w15, w20, #7, #9
	eor	w6, w4, w0
	and	w13, w13, w16
	and	w14, w14, w19
	orr	w11, w9, w11
	ubfx	w9, w20, #3, #13
	orr	w10, w13, w14
	orr	w13, w15, w20, lsl #9
	ubfx	w14, w6, #7, #9
	ubfx	w15, w6, #3, #13
	ubfx	w17, w4, #7, #9
	ubfx	w0, w4, #3, #13
	orr	w9, w9, w20, lsl #13
	orr	w14, w14, w6, lsl #9
	and	w13, w13, w16
	orr	w1, w15, w6, lsl #13
	orr	w17, w17, w4, lsl #9
	orr	w0, w0, w4, lsl #13
	and	w9, w9, w19
	ubfx	w2, w21, #7, #9
	ubfx	w3, w21, #3, #13
	orr	w15, w13, w9
	and	w9, w14, w16
	and	w13, w1, w19
	and	w14, w17, w16
	and	w17, w0, w19
	ubfx	w0, w23, #7, #9
	orr	w13, w9, w13
	ubfx	w9, w23, #3, #13
	orr	w14, w14, w17
	orr	w17, w0, w23, lsl #9
	ubfx	w0, w8, #7, #9
	ubfx	w1, w8, #3, #13
	orr	w9, w9, w23, lsl #13
	orr	w2, w2, w21, lsl #9
	orr	w22, w3, w21, lsl #13
	orr	w0, w0, w8, lsl #9
	orr	w1, w1, w8, lsl #13
	and	w17, w17, w16
	and	w9, w9, w19
	str	w11, [sp, #56]                  // 4-byte Spill
	eor	w6, w13, w6
	orr	w3, w17, w9
	and	w9, w0, w16
	and	w17, w1, w19
	orr	w17, w9, w17
	and	w9, w2, w16
	and	w16, w22, w19
	eor	w22, w11, w7
	orr	w16, w9, w16
	eor	w19, w10, w5
	ubfx	w9, w22, #10, #6
	ubfx	w0, w22, #6, #10
	ubfx	w1, w19, #10, #6
	ubfx	w2, w19, #6, #10
	str	w10, [sp, #72]                  // 4-byte Spill
	mov	w11, #13107                     // =0x3333
	orr	w9, w9, w22, lsl #6
	orr	w0, w0, w22, lsl #10
	mov	w10, #-13108                    // =0xffffcccc
	orr	w1, w1, w19, lsl #6
	orr	w2, w2, w19, lsl #10
	eor	w7, w17, w8
	and	w8, w9, w11
	and	w9, w0, w10
	ubfx	w25, w6, #10, #6
	orr	w26, w8, w9
	ubfx	w8, w6, #6, #10
	eor	w20, w15, w20
	and	w0, w1, w11
	and	w1, w2, w10
	eor	w5, w3, w23
	eor	w23, w16, w21
	ubfx	w2, w20, #10, #6
	ubfx	w24, w20, #6, #10
	orr	w21, w0, w1
	orr	w1, w25, w6, lsl #6
	orr	w8, w8, w6, lsl #10
	eor	w4, w14, w4
	orr	w9, w2, w20, lsl #6
	orr	w0, w24, w20, lsl #10
	ubfx	w2, w4, #10, #6
	ubfx	w24, w4, #6, #10
	and	w1, w1, w11
	and	w8, w8, w10
	and	w9, w9, w11
	and	w0, w0, w10
	orr	w25, w1, w8
	ubfx	w8, w5, #10, #6
	orr	w2, w2, w4, lsl #6
	orr	w27, w24, w4, lsl #10
	ubfx	w1, w5, #6, #10
	orr	w12, w9, w0
	orr	w8, w8, w5, lsl #6
	and	w9, w2, w11
	ubfx	w30, w23, #6, #10
	and	w0, w27, w10
	ubfx	w2, w23, #10, #6
	orr	w27, w9, w0
	ubfx	w9, w7, #10, #6
	orr	w0, w1, w5, lsl #10
	ubfx	w1, w7, #6, #10
	and	w28, w8, w11
	ldr	x8, [sp, #24]                   // 8-byte Reload
	orr	w9, w9, w7, lsl #6
	orr	w30, w30, w23, lsl #10
	orr	w2, w2, w23, lsl #6
	orr	w1, w1, w7, lsl #10
	lsl	x24, x8, #4
	ldr	x8, [sp, #32]                   // 8-byte Reload
	and	w9, w9, w11
	and	w0, w0, w10
	and	w30, w30, w10
	and	w1, w1, w10
	add	x8, x8, x24
	and	w2, w2, w11
	ldurh	w10, [x8, #-16]
	orr	w1, w9, w1
	ldr	w9, [sp, #56]                   // 4-byte Reload
	ldurh	w11, [x8, #-14]
	orr	w0, w28, w0
	orr	w28, w2, w30
	eor	w9, w10, w9
	ldr	w10, [sp, #72]                  // 4-byte Reload
	ldurh	w2, [x8, #-10]
	eor	w9, w9, w23
	eor	w10, w11, w10
	ldurh	w11, [x8, #-12]
	eor	w9, w9, w26
	eor	w10, w10, w22
	ldurh	w22, [x8, #-8]
	eor	w10, w10, w23
	eor	w21, w10, w21
	eor	w10, w11, w15
	eor	w11, w2, w20
	eor	w14, w22, w14
	eor	w11, w11, w23
	ldurh	w2, [x8, #-6]
	eor	w11, w11, w13
	eor	w13, w14, w23
	eor	w10, w10, w19
	eor	w13, w13, w6
	ldurh	w6, [x8, #-4]
	ldurh	w8, [x8, #-2]
	eor	w14, w10, w12
	eor	w15, w11, w25
	eor	w10, w2, w3
	eor	w11, w6, w17
	eor	w8, w8, w16
	eor	w10, w10, w4
	eor	w12, w11, w5
	eor	w8, w8, w7
	eor	w19, w13, w27
	eor	w11, w10, w0
	eor	w2, w12, w1
	eor	w6, w8, w28
	b	LBB9_5
LBB9_4:                                // %else.12.i
	eor	w8, w9, w9, lsr #2
	eor	w0, w14, w14, lsr #2
	eor	w1, w15, w15, lsr #2
	mov	w13, #12336                     // =0x3030
	eor	w2, w16, w16, lsr #2
	eor	w3, w17, w17, lsr #2
	and	w8, w8, w13
	and	w0, w0, w13
	and	w1, w1, w13
	orr	w8, w8, w8, lsl #2
	orr	w0, w0, w0, lsl #2
	orr	w1, w1, w1, lsl #2
	and	w2, w2, w13
	lsl	x24, x4, #4
	eor	w9, w8, w9
	eor	w8, w11, w11, lsr #2
	eor	w21, w0, w14
	eor	w0, w12, w12, lsr #2
	eor	w14, w1, w15
	eor	w15, w10, w10, lsr #2
	and	w1, w3, w13
	and	w8, w8, w13
	and	w0, w0, w13
	and	w13, w15, w13
	orr	w15, w2, w2, lsl #2
	orr	w1, w1, w1, lsl #2
	orr	w8, w8, w8, lsl #2
	orr	w0, w0, w0, lsl #2
	orr	w13, w13, w13, lsl #2
	eor	w15, w15, w16
	eor	w19, w1, w17
	eor	w11, w8, w11
	eor	w2, w0, w12
	eor	w6, w13, w10
LBB9_5:                                // %"aes_soft::soft::ciphers::planes::EncryptPlaneCipher::process_planes::<#e38f99acfded9ac6>.exit"
	eor	w8, w2, w11
	eor	w5, w6, w21
	eor	w11, w19, w14
	eor	w12, w5, w11
	eor	w13, w6, w19
	eor	w4, w8, w9
	eor	w10, w12, w15
	eor	w16, w4, w19
	eor	w7, w4, w21
	eor	w15, w10, w14
	eor	w1, w10, w2
	eor	w10, w6, w14
	eor	w2, w1, w13
	eor	w14, w15, w8
	and	w0, w16, w9
	eor	w3, w2, w14
	and	w22, w15, w12
	and	w23, w2, w13
	and	w25, w3, w11
	and	w26, w14, w10
	eor	w19, w7, w10
	eor	w21, w15, w9
	eor	w8, w2, w8
	eor	w25, w25, w23
	eor	w23, w26, w23
	eor	w0, w0, w10
	eor	w26, w14, w22
	and	w27, w7, w4
	eor	w17, w4, w6
	eor	w20, w2, w9
	eor	w0, w0, w26
	and	w26, w8, w5
	eor	w1, w1, w22
	and	w22, w21, w19
	eor	w27, w8, w27
	eor	w6, w26, w6
	eor	w1, w1, w22
	and	w22, w20, w17
	eor	w27, w27, w26
	eor	w27, w27, w5
	eor	w22, w8, w22
	eor	w1, w1, w25
	eor	w25, w27, w25
	eor	w6, w22, w6
	eor	w0, w0, w23
	eor	w6, w6, w23
	and	w22, w25, w1
	eor	w1, w1, w0
	eor	w23, w22, w0
	eor	w26, w6, w25
	movi	v3.16b, #2
	and	w23, w23, w26
	eor	w26, w22, w6
	movi	v4.16b, #1
	eor	w22, w23, w22
	and	w27, w26, w1
	movi	v5.16b, #64
	and	w22, w22, w6
	eor	w0, w27, w0
	eor	w6, w23, w6
	eor	w26, w22, w26
	eor	w22, w22, w25
	and	w9, w6, w9
	and	w26, w26, w0
	and	w15, w22, w15
	and	w16, w6, w16
	eor	w1, w26, w1
	and	w17, w0, w17
	and	w12, w22, w12
	eor	w23, w1, w0
	and	w4, w1, w4
	and	w7, w1, w7
	and	w8, w23, w8
	and	w5, w23, w5
	eor	w23, w22, w6
	and	w21, w23, w21
	eor	w1, w1, w23
	eor	w6, w0, w6
	and	w0, w0, w20
	eor	w20, w21, w15
	eor	w15, w15, w9
	and	w2, w6, w2
	and	w13, w6, w13
	eor	w6, w1, w6
	eor	w9, w15, w0
	and	w11, w6, w11
	and	w19, w23, w19
	eor	w9, w9, w8
	eor	w0, w8, w4
	eor	w8, w11, w13
	and	w11, w1, w14
	eor	w4, w9, w7
	eor	w14, w8, w19
	eor	w4, w4, w8
	eor	w8, w11, w15
	ldr	x11, [sp, #32]                  // 8-byte Reload
	and	w3, w6, w3
	eor	w8, w8, w5
	and	w10, w1, w10
	eor	w15, w0, w3
	add	x11, x11, x24
	eor	w0, w20, w0
	eor	w3, w8, w15
	eor	w8, w15, w2
	ldrh	w15, [x11, #10]
	ldrh	w7, [x11, #2]
	ldrh	w6, [x11]
	eor	w17, w3, w17
	eor	w13, w15, w13
	ldrh	w15, [x11, #4]
	eor	w12, w14, w12
	eor	w10, w13, w10
	eor	w2, w3, w7
	eor	w1, w5, w6
	eor	w10, w10, w8
	eor	w2, w2, w4
	eor	w15, w16, w15
	ldrh	w16, [x11, #8]
	eor	w10, w10, w17
	eor	w13, w0, w12
	lsl	w0, w2, #16
	lsl	w10, w10, #16
	eor	w1, w1, w4
	eor	w14, w15, w14
	eor	w16, w13, w16
	ldrh	w15, [x11, #12]
	eor	w14, w14, w17
	bfxil	x0, x1, #0, #16
	bfxil	x10, x16, #0, #16
	ldrh	w16, [x11, #6]
	and	w14, w14, #0xffff
	eor	w15, w8, w15
	orr	x14, x0, x14, lsl #32
	ldrh	w11, [x11, #14]
	eor	w15, w15, w13
	eor	w9, w9, w16
	and	w15, w15, #0xffff
	movi	v6.16b, #32
	eor	w9, w9, w13
	eor	w8, w8, w11
	orr	x10, x10, x15, lsl #32
	orr	x9, x14, x9, lsl #48
	eor	w8, w8, w12
	movi	v7.16b, #8
	orr	x8, x10, x8, lsl #48
	movi	v16.16b, #16
	ldr	x30, [sp, #64]                  // 8-byte Reload
	fmov	d1, x9
	ldp	x20, x19, [sp, #144]            // 16-byte Folded Reload
	ldp	x22, x21, [sp, #128]            // 16-byte Folded Reload
	ldp	x24, x23, [sp, #112]            // 16-byte Folded Reload
	mov	v1.d[1], x8
	adrp	x8, l_CPI9_2@PAGE
	ldr	q2, [x8, l_CPI9_2@PAGEOFF]
	ldp	x26, x25, [sp, #96]             // 16-byte Folded Reload
	ldp	x28, x27, [sp, #80]             // 16-byte Folded Reload
	tbl	v1.16b, { v1.16b }, v2.16b
	movi	v2.16b, #4
	and	v2.16b, v1.16b, v2.16b
	and	v3.16b, v1.16b, v3.16b
	and	v4.16b, v1.16b, v4.16b
	and	v5.16b, v1.16b, v5.16b
	cmlt	v17.16b, v1.16b, #0
	and	v6.16b, v1.16b, v6.16b
	and	v7.16b, v1.16b, v7.16b
	and	v1.16b, v1.16b, v16.16b
	cmeq	v2.16b, v2.16b, #0
	cmeq	v3.16b, v3.16b, #0
	cmeq	v4.16b, v4.16b, #0
	cmeq	v5.16b, v5.16b, #0
	and	v16.16b, v17.16b, v0.16b
	cmeq	v6.16b, v6.16b, #0
	cmeq	v7.16b, v7.16b, #0
	cmeq	v1.16b, v1.16b, #0
	bic	v2.16b, v0.16b, v2.16b
	bic	v3.16b, v0.16b, v3.16b
	bic	v4.16b, v0.16b, v4.16b
	bic	v5.16b, v0.16b, v5.16b
	addp	v16.16b, v16.16b, v16.16b
	bic	v6.16b, v0.16b, v6.16b
	bic	v7.16b, v0.16b, v7.16b
	bic	v0.16b, v0.16b, v1.16b
	addp	v2.16b, v2.16b, v2.16b
	addp	v3.16b, v3.16b, v3.16b
	addp	v4.16b, v4.16b, v4.16b
	addp	v1.16b, v5.16b, v5.16b
	addp	v5.16b, v16.16b, v16.16b
	addp	v6.16b, v6.16b, v6.16b
	addp	v7.16b, v7.16b, v7.16b
	addp	v0.16b, v0.16b, v0.16b
	addp	v2.16b, v2.16b, v2.16b
	addp	v3.16b, v3.16b, v3.16b
	addp	v4.16b, v4.16b, v4.16b
	addp	v1.16b, v1.16b, v1.16b
	addp	v5.16b, v5.16b, v5.16b
	addp	v0.16b, v0.16b, v0.16b
	addp	v2.16b, v2.16b, v2.16b
	addp	v3.16b, v3.16b, v3.16b
	addp	v4.16b, v4.16b, v4.16b
	addp	v1.16b, v1.16b, v1.16b
	addp	v0.16b, v0.16b, v0.16b
	mov	h2, v2.h[0]
	umov	w8, v3.h[0]
	addp	v3.16b, v6.16b, v6.16b
	umov	w9, v4.h[0]
	addp	v4.16b, v7.16b, v7.16b
	umov	w10, v1.h[0]
	movi	v1.2d, #0x0000000000ffff
	umov	w12, v0.h[0]
	addp	v3.16b, v3.16b, v3.16b
	mov	v2.h[2], v5.h[0]
	lsl	w8, w8, #16
	addp	v4.16b, v4.16b, v4.16b
	lsl	x10, x10, #32
	bfxil	x8, x9, #0, #16
	umov	w11, v3.h[0]
	umov	w9, v4.h[0]
	ushll	v2.2d, v2.2s, #0
	fmov	d3, x8
	adrp	x8, l_CPI9_3@PAGE
	and	v1.16b, v2.16b, v1.16b
	mov	v4.16b, v3.16b
	ldr	q2, [x8, l_CPI9_3@PAGEOFF]
	lsl	x9, x9, #48
	lsl	w8, w11, #16
	mov	v4.d[1], x10
	ushl	v1.2d, v1.2d, v2.2d
	fmov	d2, x9
	bfxil	x8, x12, #0, #16
	mov	v2.d[1], x8
	orr	v4.16b, v1.16b, v4.16b
	orr	v2.16b, v2.16b, v4.16b
	umov	w8, v2.b[5]
	umov	w9, v2.b[13]
	ext	v6.16b, v2.16b, v2.16b, #8
	fmov	s5, w8
	umov	w8, v2.b[6]
	mov	v4.d[1], v6.d[0]
	mov	v5.h[1], w9
	mov	v5.h[2], w8
	umov	w8, v2.b[14]
	mov	b2, v2.b[7]
	mov	v5.h[3], w8
	adrp	x8, l_CPI9_4@PAGE
	ldr	d6, [x8, l_CPI9_4@PAGEOFF]
	ldr	x8, [sp, #8]                    // 8-byte Reload
	tbl	v4.8b, { v4.16b }, v6.8b
	str	b3, [x8]
	xtn	v3.8b, v5.8h
	stur	b0, [x8, #1]
	mov	b0, v1.b[15]
	stur	b2, [x8, #14]
	stur	d4, [x8, #2]
	stur	s3, [x8, #10]
	stur	b0, [x8, #15]
	add	sp, sp, #160
	ret
                                        // -- End function
	.section	__TEXT,__text,regular,pure_instructions
	.p2align	2                               // -- Begin function aes_cipher::zeroize::stack::wipe_stack::<=1024>
"aes_cipher::zeroize::stack::wipe_stack::<=1024>": // @"aes_cipher::zeroize::stack::wipe_stack::<=1024>"
// %bb.0:                               // %start
	stp	x29, x30, [sp, #-32]!           // 16-byte Folded Spill
	stp	x28, x19, [sp, #16]             // 16-byte Folded Spill
	mov	x29, sp
	sub	sp, sp, #1040
	add	x0, sp, #16
	mov	w1, wzr
	mov	w2, #1024                       // =0x400
	str	xzr, [sp]
	add	x19, sp, #16
	bl	_memset
	str	xzr, [sp, #8]
	add	x8, sp, #8
	//APP
	//NO_APP
	ldar	x8, [x8]
	//APP
	//NO_APP
	cmp	x8, #1024
	b.hs	LBB10_4
// %bb.1:                               // %then.1
	ldrb	w8, [x19, x8]
	//APP
	//NO_APP
LBB10_2:                               // %atomicrmw.start
                                        // =>This Inner Loop Header: Depth=1
	add	x9, sp, #8
	ldaxr	xzr, [x9]
	stlxr	w10, x8, [x9]
	cbnz	w10, LBB10_2
// %bb.3:                               // %atomicrmw.end
	//APP
	//NO_APP
LBB10_4:                               // %common.ret
	add	sp, sp, #1040
	ldp	x28, x19, [sp, #16]             // 16-byte Folded Reload
	ldp	x29, x30, [sp], #32             // 16-byte Folded Reload
	ret
                                        // -- End function
	.section	__TEXT,__text,regular,pure_instructions
	.p2align	2                               // -- Begin function aes_cipher::zeroize::elements::zeroize_elements::<#1271021761a49af4>
"aes_cipher::zeroize::elements::zeroize_elements::<#1271021761a49af4>": // @"aes_cipher::zeroize::elements::zeroize_elements::<#1271021761a49af4>"
// %bb.0:                               // %start
	sub	sp, sp, #16
	str	xzr, [sp, #8]
	add	x8, sp, #8
	//APP
	//NO_APP
	ldar	x8, [x8]
	//APP
	//NO_APP
	cmp	x8, #120
	b.hs	LBB11_2
// %bb.1:                               // %then.1.i
	movi	v0.2d, #0000000000000000
	ldrh	w9, [x0, x8, lsl #1]
	stp	q0, q0, [x0, #16]
	stp	q0, q0, [x0, #48]
	stp	q0, q0, [x0, #80]
	stp	q0, q0, [x0, #112]
	stp	q0, q0, [x0, #144]
	stp	q0, q0, [x0, #176]
	stp	q0, q0, [x0, #208]
	str	q0, [x0]
	ldrh	w8, [x0, x8, lsl #1]
	and	w8, w9, w8
	and	x8, x8, #0xff
	b	LBB11_3
LBB11_2:                               // %"aes_cipher::zeroize::observe::<#046cd638fa353182>.exit11"
	movi	v0.2d, #0000000000000000
	mov	x8, xzr
	stp	q0, q0, [x0, #16]
	stp	q0, q0, [x0, #48]
	stp	q0, q0, [x0, #80]
	stp	q0, q0, [x0, #112]
	stp	q0, q0, [x0, #144]
	stp	q0, q0, [x0, #176]
	stp	q0, q0, [x0, #208]
	str	q0, [x0]
LBB11_3:                               // %"aes_cipher::zeroize::observe::<#046cd638fa353182>.exit"
	//APP
	//NO_APP
LBB11_4:                               // %atomicrmw.start
                                        // =>This Inner Loop Header: Depth=1
	add	x9, sp, #8
	ldaxr	xzr, [x9]
	stlxr	w10, x8, [x9]
	cbnz	w10, LBB11_4
// %bb.5:                               // %atomicrmw.end
	//APP
	//NO_APP
	add	sp, sp, #16
	ret
                                        // -- End function
	.section	__TEXT,__const
	.p2align	4, 0x0                          // -- Begin function aes::fixsliced::FixslicedCountsLayers::expand_counted::<#123648e35348170c>
l_CPI12_0:
	.hword	65535                           // 0xffff
	.hword	65535                           // 0xffff
	.hword	0                               // 0x0
	.hword	0                               // 0x0
	.hword	0                               // 0x0
	.hword	65535                           // 0xffff
	.hword	65535                           // 0xffff
	.hword	0                               // 0x0
	.section	__TEXT,__text,regular,pure_instructions
	.p2align	2
"aes::fixsliced::FixslicedCountsLayers::expand_counted::<#123648e35348170c>": // @"aes::fixsliced::FixslicedCountsLayers::expand_counted::<#123648e35348170c>"
// %bb.0:                               // %start
	stp	x29, x30, [sp, #-32]!           // 16-byte Folded Spill
	mov	w2, #24                         // =0x18
	str	x19, [sp, #16]                  // 8-byte Spill
	mov	x29, sp
	mov	x19, x0
	bl	"aes_planes::expansion::expand::<#9aefd798925f8490>"
	mov	x9, xzr
	add	x8, x19, #16
	b	LBB12_5
LBB12_1:                               // %then.7.i.i
                                        //   in Loop: Header=BB12_5 Depth=1
	mov	w11, #8976                      // =0x2310
LBB12_2:                               // %join.8.i.i
                                        //   in Loop: Header=BB12_5 Depth=1
	eor	v1.16b, v1.16b, v0.16b
	dup	v2.8h, w11
	movi	v3.8h, #5
	and	v1.16b, v1.16b, v2.16b
	movi	v2.16b, #80
	mul	v1.8h, v1.8h, v3.8h
	movi	v3.8h, #3
	eor	v0.16b, v1.16b, v0.16b
	ushr	v1.8h, v0.8h, #1
	eor	v1.16b, v1.16b, v0.16b
LBB12_3:                               // %join.8.i.i
                                        //   in Loop: Header=BB12_5 Depth=1
	and	v1.16b, v1.16b, v2.16b
	mul	v1.8h, v1.8h, v3.8h
	eor	v0.16b, v1.16b, v0.16b
LBB12_4:                               // %join.8.i.i
                                        //   in Loop: Header=BB12_5 Depth=1
	adrp	x11, l_CPI12_0@PAGE
	cmp	x10, #12
	ldr	q1, [x11, l_CPI12_0@PAGEOFF]
	eor	v0.16b, v0.16b, v1.16b
	str	q0, [x8, x9, lsl #4]
	mov	x9, x10
	b.eq	LBB12_11
LBB12_5:                               // %join.5.i.i
                                        // =>This Inner Loop Header: Depth=1
	ldr	q0, [x8, x9, lsl #4]
	cmp	x9, #11
	add	x10, x9, #1
	b.eq	LBB12_4
// %bb.6:                               // %ok.10.i.i
                                        //   in Loop: Header=BB12_5 Depth=1
	and	x11, x10, #0x3
	cmp	x11, #1
	b.gt	LBB12_9
// %bb.7:                               // %ok.10.i.i
                                        //   in Loop: Header=BB12_5 Depth=1
	cbz	x11, LBB12_4
// %bb.8:                               // %then.1.i.i
                                        //   in Loop: Header=BB12_5 Depth=1
	ushr	v1.8h, v0.8h, #2
	mov	w11, #4896                      // =0x1320
	b	LBB12_2
LBB12_9:                               // %ok.10.i.i
                                        //   in Loop: Header=BB12_5 Depth=1
	ushr	v1.8h, v0.8h, #2
	cmp	x11, #2
	b.ne	LBB12_1
// %bb.10:                              // %then.4.i.i
                                        //   in Loop: Header=BB12_5 Depth=1
	movi	v2.16b, #48
	eor	v1.16b, v1.16b, v0.16b
	movi	v3.8h, #5
	b	LBB12_3
LBB12_11:                              // %"aes_soft::soft::plane_room::expand_in_room::<#123648e35348170c>.exit"
	ldr	x19, [sp, #16]                  // 8-byte Reload
	ldp	x29, x30, [sp], #32             // 16-byte Folded Reload
	ret
                                        // -- End function
	.section	__TEXT,__const
	.p2align	4, 0x0                          // -- Begin function aes::fixsliced::FixslicedCountsLayers::expand_counted::<#7eef6ffa698b135b>
l_CPI13_0:
	.hword	65535                           // 0xffff
	.hword	65535                           // 0xffff
	.hword	0                               // 0x0
	.hword	0                               // 0x0
	.hword	0                               // 0x0
	.hword	65535                           // 0xffff
	.hword	65535                           // 0xffff
	.hword	0                               // 0x0
	.section	__TEXT,__text,regular,pure_instructions
	.p2align	2
"aes::fixsliced::FixslicedCountsLayers::expand_counted::<#7eef6ffa698b135b>": // @"aes::fixsliced::FixslicedCountsLayers::expand_counted::<#7eef6ffa698b135b>"
// %bb.0:                               // %start
	stp	x29, x30, [sp, #-32]!           // 16-byte Folded Spill
	mov	w2, #32                         // =0x20
	str	x19, [sp, #16]                  // 8-byte Spill
	mov	x29, sp
	mov	x19, x0
	bl	"aes_planes::expansion::expand::<#9aefd798925f8490>"
	mov	x9, xzr
	add	x8, x19, #16
	b	LBB13_5
LBB13_1:                               // %then.7.i.i
                                        //   in Loop: Header=BB13_5 Depth=1
	mov	w11, #8976                      // =0x2310
LBB13_2:                               // %join.8.i.i
                                        //   in Loop: Header=BB13_5 Depth=1
	eor	v1.16b, v1.16b, v0.16b
	dup	v2.8h, w11
	movi	v3.8h, #5
	and	v1.16b, v1.16b, v2.16b
	movi	v2.16b, #80
	mul	v1.8h, v1.8h, v3.8h
	movi	v3.8h, #3
	eor	v0.16b, v1.16b, v0.16b
	ushr	v1.8h, v0.8h, #1
	eor	v1.16b, v1.16b, v0.16b
LBB13_3:                               // %join.8.i.i
                                        //   in Loop: Header=BB13_5 Depth=1
	and	v1.16b, v1.16b, v2.16b
	mul	v1.8h, v1.8h, v3.8h
	eor	v0.16b, v1.16b, v0.16b
LBB13_4:                               // %join.8.i.i
                                        //   in Loop: Header=BB13_5 Depth=1
	adrp	x11, l_CPI13_0@PAGE
	cmp	x10, #14
	ldr	q1, [x11, l_CPI13_0@PAGEOFF]
	eor	v0.16b, v0.16b, v1.16b
	str	q0, [x8, x9, lsl #4]
	mov	x9, x10
	b.eq	LBB13_11
LBB13_5:                               // %join.5.i.i
                                        // =>This Inner Loop Header: Depth=1
	ldr	q0, [x8, x9, lsl #4]
	cmp	x9, #13
	add	x10, x9, #1
	b.eq	LBB13_4
// %bb.6:                               // %ok.10.i.i
                                        //   in Loop: Header=BB13_5 Depth=1
	and	x11, x10, #0x3
	cmp	x11, #1
	b.gt	LBB13_9
// %bb.7:                               // %ok.10.i.i
                                        //   in Loop: Header=BB13_5 Depth=1
	cbz	x11, LBB13_4
// %bb.8:                               // %then.1.i.i
                                        //   in Loop: Header=BB13_5 Depth=1
	ushr	v1.8h, v0.8h, #2
	mov	w11, #4896                      // =0x1320
	b	LBB13_2
LBB13_9:                               // %ok.10.i.i
                                        //   in Loop: Header=BB13_5 Depth=1
	ushr	v1.8h, v0.8h, #2
	cmp	x11, #2
	b.ne	LBB13_1
// %bb.10:                              // %then.4.i.i
                                        //   in Loop: Header=BB13_5 Depth=1
	movi	v2.16b, #48
	eor	v1.16b, v1.16b, v0.16b
	movi	v3.8h, #5
	b	LBB13_3
LBB13_11:                              // %"aes_soft::soft::plane_room::expand_in_room::<#7eef6ffa698b135b>.exit"
	ldr	x19, [sp, #16]                  // 8-byte Reload
	ldp	x29, x30, [sp], #32             // 16-byte Folded Reload
	ret
                                        // -- End function
	.section	__TEXT,__const
	.p2align	4, 0x0                          // -- Begin function aes_soft::soft::blocks::slices::process_batches_outlined::<#7a29a06501f6c419>
l_CPI14_0:
	.byte	0                               // 0x0
	.byte	4                               // 0x4
	.byte	8                               // 0x8
	.byte	12                              // 0xc
	.byte	1                               // 0x1
	.byte	5                               // 0x5
	.byte	9                               // 0x9
	.byte	13                              // 0xd
	.byte	2                               // 0x2
	.byte	6                               // 0x6
	.byte	10                              // 0xa
	.byte	14                              // 0xe
	.byte	3                               // 0x3
	.byte	7                               // 0x7
	.byte	11                              // 0xb
	.byte	15                              // 0xf
l_CPI14_1:
	.byte	2                               // 0x2
	.byte	3                               // 0x3
	.byte	4                               // 0x4
	.byte	5                               // 0x5
	.byte	6                               // 0x6
	.byte	7                               // 0x7
	.byte	8                               // 0x8
	.byte	9                               // 0x9
	.byte	10                              // 0xa
	.byte	11                              // 0xb
	.byte	12                              // 0xc
	.byte	13                              // 0xd
	.byte	14                              // 0xe
	.byte	15                              // 0xf
	.byte	255                             // 0xff
	.byte	255                             // 0xff
l_CPI14_2:
	.byte	255                             // 0xff
	.byte	255                             // 0xff
	.byte	0                               // 0x0
	.byte	1                               // 0x1
	.byte	2                               // 0x2
	.byte	3                               // 0x3
	.byte	4                               // 0x4
	.byte	5                               // 0x5
	.byte	6                               // 0x6
	.byte	7                               // 0x7
	.byte	8                               // 0x8
	.byte	9                               // 0x9
	.byte	10                              // 0xa
	.byte	11                              // 0xb
	.byte	12                              // 0xc
	.byte	13                              // 0xd
l_CPI14_3:
	.byte	7                               // 0x7
	.byte	4                               // 0x4
	.byte	5                               // 0x5
	.byte	6                               // 0x6
	.byte	11                              // 0xb
	.byte	8                               // 0x8
	.byte	9                               // 0x9
	.byte	10                              // 0xa
	.byte	15                              // 0xf
	.byte	12                              // 0xc
	.byte	13                              // 0xd
	.byte	14                              // 0xe
	.byte	3                               // 0x3
	.byte	0                               // 0x0
	.byte	1                               // 0x1
	.byte	2                               // 0x2
l_CPI14_4:
	.byte	10                              // 0xa
	.byte	11                              // 0xb
	.byte	8                               // 0x8
	.byte	9                               // 0x9
	.byte	14                              // 0xe
	.byte	15                              // 0xf
	.byte	12                              // 0xc
	.byte	13                              // 0xd
	.byte	2                               // 0x2
	.byte	3                               // 0x3
	.byte	0                               // 0x0
	.byte	1                               // 0x1
	.byte	6                               // 0x6
	.byte	7                               // 0x7
	.byte	4                               // 0x4
	.byte	5                               // 0x5
l_CPI14_5:
	.byte	6                               // 0x6
	.byte	7                               // 0x7
	.byte	4                               // 0x4
	.byte	5                               // 0x5
	.byte	10                              // 0xa
	.byte	11                              // 0xb
	.byte	8                               // 0x8
	.byte	9                               // 0x9
	.byte	14                              // 0xe
	.byte	15                              // 0xf
	.byte	12                              // 0xc
	.byte	13                              // 0xd
	.byte	2                               // 0x2
	.byte	3                               // 0x3
	.byte	0                               // 0x0
	.byte	1                               // 0x1
l_CPI14_6:
	.byte	5                               // 0x5
	.byte	6                               // 0x6
	.byte	7                               // 0x7
	.byte	4                               // 0x4
	.byte	9                               // 0x9
	.byte	10                              // 0xa
	.byte	11                              // 0xb
	.byte	8                               // 0x8
	.byte	13                              // 0xd
	.byte	14                              // 0xe
	.byte	15                              // 0xf
	.byte	12                              // 0xc
	.byte	1                               // 0x1
	.byte	2                               // 0x2
	.byte	3                               // 0x3
	.byte	0                               // 0x0
	.section	__TEXT,__text,regular,pure_instructions
	.p2align	2
"aes_soft::soft::blocks::slices::process_batches_outlined::<#7a29a06501f6c419>": // @"aes_soft::soft::blocks::slices::process_batches_outlined::<#7a29a06501f6c419>"
// %bb.0:                               // %start
	sub	sp, sp, #80
	lsr	x9, x1, #3
	mov	x8, xzr
	stp	d15, d14, [sp, #16]             // 16-byte Folded Spill
	stp	d13, d12, [sp, #32]             // 16-byte Folded Spill
	sub	x10, x9, #3
	sub	x9, x9, #1
	stp	d11, d10, [sp, #48]             // 16-byte Folded Spill
	and	x12, x10, #0xc
	lsl	x14, x10, #7
	add	x10, x0, x9, lsl #7
	add	x11, x0, x12, lsl #7
	orr	x12, x12, #0x2
	stp	d9, d8, [sp, #64]               // 16-byte Folded Spill
	add	x13, x0, x14
	and	x14, x14, #0xfffffffffffffe00
LBB14_1:                               // %join.5.i
                                        // =>This Loop Header: Depth=1
                                        //     Child Loop BB14_5 Depth 2
	add	x15, x2, x8, lsl #4
	adrp	x16, l_CPI14_0@PAGE
	movi	v19.16b, #85
	ldr	q0, [x16, l_CPI14_0@PAGEOFF]
	ldp	q25, q26, [x10, #32]
	ldp	q1, q3, [x15]
	cmp	x12, x9
	ldp	q2, q4, [x15, #64]
	adrp	x16, l_CPI14_3@PAGE
	ldp	q5, q7, [x15, #32]
	adrp	x1, l_CPI14_4@PAGE
	tbl	v1.16b, { v1.16b }, v0.16b
	ldp	q6, q17, [x15, #96]
	tbl	v2.16b, { v2.16b }, v0.16b
	tbl	v3.16b, { v3.16b }, v0.16b
	tbl	v4.16b, { v4.16b }, v0.16b
	tbl	v16.16b, { v5.16b }, v0.16b
	tbl	v7.16b, { v7.16b }, v0.16b
	adrp	x17, l_CPI14_5@PAGE
	tbl	v5.16b, { v6.16b }, v0.16b
	tbl	v17.16b, { v17.16b }, v0.16b
	str	q0, [sp]                        // 16-byte Spill
	ushr	v6.16b, v1.16b, #1
	ldp	q31, q8, [x10, #64]
	ushr	v18.16b, v2.16b, #1
	ushr	v20.16b, v16.16b, #1
	ushr	v21.16b, v5.16b, #1
	eor	v6.16b, v3.16b, v6.16b
	eor	v18.16b, v4.16b, v18.16b
	eor	v20.16b, v7.16b, v20.16b
	eor	v21.16b, v17.16b, v21.16b
	and	v6.16b, v6.16b, v19.16b
	and	v18.16b, v18.16b, v19.16b
	and	v20.16b, v20.16b, v19.16b
	and	v19.16b, v21.16b, v19.16b
	add	v21.16b, v6.16b, v6.16b
	eor	v3.16b, v6.16b, v3.16b
	add	v22.16b, v18.16b, v18.16b
	eor	v4.16b, v18.16b, v4.16b
	add	v6.16b, v20.16b, v20.16b
	eor	v7.16b, v20.16b, v7.16b
	add	v18.16b, v19.16b, v19.16b
	eor	v1.16b, v21.16b, v1.16b
	ushr	v20.16b, v3.16b, #2
	eor	v2.16b, v22.16b, v2.16b
	eor	v17.16b, v19.16b, v17.16b
	movi	v21.16b, #51
	eor	v6.16b, v6.16b, v16.16b
	ushr	v16.16b, v4.16b, #2
	movi	v22.16b, #15
	eor	v5.16b, v18.16b, v5.16b
	ushr	v18.16b, v1.16b, #2
	eor	v20.16b, v7.16b, v20.16b
	ushr	v19.16b, v2.16b, #2
	eor	v16.16b, v17.16b, v16.16b
	eor	v18.16b, v6.16b, v18.16b
	and	v20.16b, v20.16b, v21.16b
	eor	v19.16b, v5.16b, v19.16b
	and	v16.16b, v16.16b, v21.16b
	and	v18.16b, v18.16b, v21.16b
	shl	v24.16b, v20.16b, #2
	eor	v7.16b, v20.16b, v7.16b
	and	v19.16b, v19.16b, v21.16b
	ldp	q21, q23, [x10]
	shl	v27.16b, v16.16b, #2
	eor	v16.16b, v16.16b, v17.16b
	shl	v20.16b, v18.16b, #2
	eor	v6.16b, v18.16b, v6.16b
	eor	v3.16b, v24.16b, v3.16b
	shl	v28.16b, v19.16b, #2
	eor	v5.16b, v19.16b, v5.16b
	ushr	v19.16b, v7.16b, #4
	eor	v4.16b, v27.16b, v4.16b
	ldp	q17, q18, [x10, #96]
	eor	v1.16b, v20.16b, v1.16b
	and	v20.16b, v16.16b, v22.16b
	ushr	v24.16b, v3.16b, #4
	eor	v2.16b, v28.16b, v2.16b
	ushr	v28.16b, v6.16b, #4
	and	v29.16b, v5.16b, v22.16b
	and	v27.16b, v4.16b, v22.16b
	eor	v7.16b, v26.16b, v7.16b
	eor	v16.16b, v16.16b, v18.16b
	ushr	v30.16b, v1.16b, #4
	eor	v19.16b, v20.16b, v19.16b
	eor	v5.16b, v5.16b, v17.16b
	and	v22.16b, v2.16b, v22.16b
	eor	v20.16b, v29.16b, v28.16b
	eor	v2.16b, v2.16b, v31.16b
	eor	v18.16b, v27.16b, v24.16b
	eor	v3.16b, v23.16b, v3.16b
	eor	v6.16b, v25.16b, v6.16b
	shl	v17.16b, v19.16b, #4
	eor	v4.16b, v4.16b, v8.16b
	eor	v1.16b, v21.16b, v1.16b
	eor	v22.16b, v22.16b, v30.16b
	shl	v24.16b, v20.16b, #4
	eor	v16.16b, v16.16b, v19.16b
	shl	v23.16b, v18.16b, #4
	eor	v5.16b, v5.16b, v20.16b
	eor	v25.16b, v17.16b, v7.16b
	eor	v26.16b, v4.16b, v18.16b
	shl	v19.16b, v22.16b, #4
	eor	v17.16b, v2.16b, v22.16b
	eor	v4.16b, v24.16b, v6.16b
	eor	v3.16b, v23.16b, v3.16b
	eor	v6.16b, v26.16b, v25.16b
	eor	v23.16b, v19.16b, v1.16b
	eor	v7.16b, v16.16b, v17.16b
	eor	v1.16b, v16.16b, v5.16b
	eor	v19.16b, v26.16b, v4.16b
	eor	v27.16b, v5.16b, v3.16b
	eor	v2.16b, v17.16b, v25.16b
	eor	v18.16b, v4.16b, v3.16b
	eor	v22.16b, v5.16b, v17.16b
	eor	v28.16b, v25.16b, v23.16b
	eor	v4.16b, v3.16b, v23.16b
	eor	v17.16b, v7.16b, v5.16b
	eor	v3.16b, v6.16b, v27.16b
	eor	v20.16b, v16.16b, v19.16b
	eor	v23.16b, v2.16b, v23.16b
	eor	v5.16b, v2.16b, v18.16b
	eor	v19.16b, v22.16b, v19.16b
	eor	v6.16b, v1.16b, v28.16b
	eor	v24.16b, v2.16b, v4.16b
	and	v29.16b, v17.16b, v7.16b
	eor	v21.16b, v22.16b, v4.16b
	eor	v4.16b, v1.16b, v4.16b
	eor	v16.16b, v17.16b, v25.16b
	eor	v27.16b, v27.16b, v28.16b
	and	v11.16b, v22.16b, v23.16b
	eor	v30.16b, v6.16b, v5.16b
	and	v31.16b, v3.16b, v24.16b
	eor	v29.16b, v18.16b, v29.16b
	eor	v25.16b, v21.16b, v26.16b
	and	v8.16b, v4.16b, v19.16b
	orr	v9.16b, v3.16b, v24.16b
	and	v10.16b, v16.16b, v5.16b
	and	v12.16b, v21.16b, v20.16b
	and	v14.16b, v6.16b, v1.16b
	and	v30.16b, v30.16b, v2.16b
	eor	v29.16b, v29.16b, v6.16b
	eor	v31.16b, v31.16b, v2.16b
	and	v13.16b, v25.16b, v27.16b
	eor	v9.16b, v9.16b, v11.16b
	eor	v18.16b, v6.16b, v18.16b
	eor	v28.16b, v12.16b, v28.16b
	eor	v10.16b, v30.16b, v10.16b
	eor	v29.16b, v29.16b, v8.16b
	eor	v30.16b, v30.16b, v14.16b
	eor	v31.16b, v31.16b, v13.16b
	eor	v28.16b, v28.16b, v8.16b
	eor	v9.16b, v9.16b, v10.16b
	eor	v29.16b, v29.16b, v10.16b
	eor	v26.16b, v31.16b, v26.16b
	eor	v28.16b, v28.16b, v30.16b
	and	v31.16b, v29.16b, v9.16b
	eor	v26.16b, v26.16b, v30.16b
	eor	v30.16b, v29.16b, v28.16b
	eor	v10.16b, v31.16b, v28.16b
	and	v29.16b, v29.16b, v26.16b
	eor	v8.16b, v31.16b, v26.16b
	eor	v11.16b, v26.16b, v9.16b
	and	v9.16b, v28.16b, v9.16b
	eor	v12.16b, v31.16b, v30.16b
	and	v29.16b, v29.16b, v30.16b
	and	v30.16b, v8.16b, v30.16b
	and	v8.16b, v10.16b, v11.16b
	bic	v9.16b, v11.16b, v9.16b
	eor	v28.16b, v30.16b, v28.16b
	eor	v29.16b, v12.16b, v29.16b
	eor	v26.16b, v8.16b, v26.16b
	eor	v30.16b, v9.16b, v31.16b
	eor	v31.16b, v28.16b, v29.16b
	eor	v8.16b, v28.16b, v26.16b
	and	v22.16b, v29.16b, v22.16b
	eor	v9.16b, v29.16b, v30.16b
	eor	v10.16b, v26.16b, v30.16b
	and	v20.16b, v26.16b, v20.16b
	and	v7.16b, v30.16b, v7.16b
	and	v21.16b, v26.16b, v21.16b
	and	v25.16b, v28.16b, v25.16b
	and	v24.16b, v31.16b, v24.16b
	and	v23.16b, v29.16b, v23.16b
	and	v18.16b, v8.16b, v18.16b
	eor	v11.16b, v8.16b, v9.16b
	and	v19.16b, v10.16b, v19.16b
	and	v17.16b, v30.16b, v17.16b
	eor	v7.16b, v20.16b, v7.16b
	and	v27.16b, v28.16b, v27.16b
	and	v3.16b, v31.16b, v3.16b
	eor	v26.16b, v24.16b, v22.16b
	and	v6.16b, v9.16b, v6.16b
	and	v4.16b, v10.16b, v4.16b
	and	v5.16b, v11.16b, v5.16b
	eor	v28.16b, v19.16b, v25.16b
	and	v16.16b, v11.16b, v16.16b
	eor	v17.16b, v23.16b, v17.16b
	and	v1.16b, v9.16b, v1.16b
	and	v2.16b, v8.16b, v2.16b
	eor	v26.16b, v26.16b, v18.16b
	eor	v25.16b, v3.16b, v25.16b
	eor	v5.16b, v5.16b, v23.16b
	eor	v23.16b, v7.16b, v21.16b
	eor	v7.16b, v7.16b, v22.16b
	eor	v22.16b, v3.16b, v27.16b
	eor	v27.16b, v16.16b, v6.16b
	eor	v16.16b, v16.16b, v3.16b
	eor	v29.16b, v5.16b, v26.16b
	eor	v5.16b, v17.16b, v18.16b
	eor	v18.16b, v23.16b, v24.16b
	eor	v24.16b, v4.16b, v1.16b
	eor	v1.16b, v28.16b, v1.16b
	eor	v4.16b, v7.16b, v6.16b
	eor	v6.16b, v19.16b, v20.16b
	eor	v7.16b, v27.16b, v26.16b
	eor	v17.16b, v28.16b, v17.16b
	eor	v19.16b, v22.16b, v5.16b
	eor	v5.16b, v18.16b, v27.16b
	eor	v18.16b, v2.16b, v21.16b
	eor	v20.16b, v1.16b, v23.16b
	eor	v21.16b, v4.16b, v24.16b
	eor	v3.16b, v17.16b, v7.16b
	eor	v1.16b, v6.16b, v7.16b
	eor	v2.16b, v25.16b, v7.16b
	eor	v5.16b, v5.16b, v19.16b
	eor	v7.16b, v16.16b, v29.16b
	eor	v16.16b, v18.16b, v24.16b
	eor	v4.16b, v20.16b, v29.16b
	eor	v6.16b, v21.16b, v19.16b
	b.hs	LBB14_3
// %bb.2:                               // %then.3.i
                                        //   in Loop: Header=BB14_1 Depth=1
	ldp	q17, q19, [x10, #-128]
	ldur	q20, [x10, #-16]
	ldr	q21, [x16, l_CPI14_3@PAGEOFF]
	ldur	q22, [x10, #-64]
	eor	v2.16b, v20.16b, v2.16b
	eor	v16.16b, v17.16b, v16.16b
	ldp	q18, q17, [x10, #-48]
	eor	v7.16b, v19.16b, v7.16b
	eor	v1.16b, v22.16b, v1.16b
	tbl	v24.16b, { v2.16b }, v21.16b
	eor	v5.16b, v18.16b, v5.16b
	eor	v6.16b, v17.16b, v6.16b
	ldp	q18, q17, [x10, #-96]
	tbl	v20.16b, { v7.16b }, v21.16b
	tbl	v19.16b, { v6.16b }, v21.16b
	eor	v24.16b, v24.16b, v2.16b
	eor	v3.16b, v18.16b, v3.16b
	eor	v4.16b, v17.16b, v4.16b
	tbl	v17.16b, { v16.16b }, v21.16b
	tbl	v18.16b, { v5.16b }, v21.16b
	eor	v20.16b, v20.16b, v7.16b
	tbl	v22.16b, { v3.16b }, v21.16b
	tbl	v23.16b, { v4.16b }, v21.16b
	tbl	v21.16b, { v1.16b }, v21.16b
	eor	v17.16b, v17.16b, v16.16b
	eor	v19.16b, v19.16b, v6.16b
	eor	v16.16b, v24.16b, v16.16b
	eor	v18.16b, v18.16b, v5.16b
	eor	v22.16b, v22.16b, v3.16b
	eor	v23.16b, v23.16b, v4.16b
	eor	v7.16b, v17.16b, v7.16b
	eor	v6.16b, v18.16b, v6.16b
	eor	v2.16b, v19.16b, v2.16b
	eor	v21.16b, v21.16b, v1.16b
	eor	v3.16b, v20.16b, v3.16b
	eor	v4.16b, v22.16b, v4.16b
	eor	v1.16b, v23.16b, v1.16b
	eor	v7.16b, v7.16b, v24.16b
	eor	v25.16b, v2.16b, v6.16b
	eor	v22.16b, v2.16b, v22.16b
	eor	v23.16b, v6.16b, v23.16b
	eor	v26.16b, v21.16b, v3.16b
	eor	v18.16b, v2.16b, v18.16b
	eor	v5.16b, v21.16b, v5.16b
	eor	v4.16b, v4.16b, v24.16b
	eor	v1.16b, v1.16b, v24.16b
	eor	v17.16b, v6.16b, v17.16b
	eor	v20.16b, v25.16b, v20.16b
	eor	v21.16b, v22.16b, v16.16b
	eor	v22.16b, v23.16b, v7.16b
	eor	v23.16b, v26.16b, v25.16b
	eor	v24.16b, v24.16b, v5.16b
	ldr	q25, [x1, l_CPI14_4@PAGEOFF]
	eor	v18.16b, v18.16b, v4.16b
	eor	v19.16b, v1.16b, v19.16b
	eor	v16.16b, v17.16b, v16.16b
	tbl	v26.16b, { v17.16b }, v25.16b
	tbl	v27.16b, { v20.16b }, v25.16b
	tbl	v28.16b, { v21.16b }, v25.16b
	tbl	v29.16b, { v22.16b }, v25.16b
	tbl	v30.16b, { v23.16b }, v25.16b
	eor	v7.16b, v7.16b, v20.16b
	tbl	v31.16b, { v18.16b }, v25.16b
	tbl	v8.16b, { v19.16b }, v25.16b
	tbl	v25.16b, { v24.16b }, v25.16b
	eor	v6.16b, v6.16b, v19.16b
	eor	v2.16b, v2.16b, v24.16b
	eor	v4.16b, v4.16b, v22.16b
	eor	v1.16b, v1.16b, v23.16b
	eor	v5.16b, v5.16b, v18.16b
	eor	v3.16b, v3.16b, v21.16b
	eor	v24.16b, v16.16b, v26.16b
	eor	v7.16b, v7.16b, v27.16b
	eor	v6.16b, v6.16b, v8.16b
	eor	v2.16b, v2.16b, v25.16b
	eor	v20.16b, v4.16b, v29.16b
	eor	v16.16b, v1.16b, v30.16b
	eor	v27.16b, v5.16b, v31.16b
	eor	v5.16b, v3.16b, v28.16b
	eor	v17.16b, v7.16b, v24.16b
	eor	v1.16b, v6.16b, v2.16b
	eor	v25.16b, v6.16b, v7.16b
	eor	v28.16b, v20.16b, v24.16b
	eor	v18.16b, v27.16b, v20.16b
	eor	v4.16b, v16.16b, v2.16b
	eor	v3.16b, v16.16b, v20.16b
	eor	v22.16b, v5.16b, v7.16b
	eor	v23.16b, v16.16b, v6.16b
	eor	v26.16b, v27.16b, v5.16b
	eor	v7.16b, v28.16b, v1.16b
	eor	v5.16b, v18.16b, v25.16b
	eor	v16.16b, v4.16b, v6.16b
	eor	v19.16b, v3.16b, v17.16b
	eor	v18.16b, v3.16b, v22.16b
	eor	v6.16b, v1.16b, v17.16b
	eor	v17.16b, v23.16b, v17.16b
	eor	v21.16b, v26.16b, v2.16b
	eor	v8.16b, v22.16b, v7.16b
	eor	v22.16b, v7.16b, v22.16b
	eor	v2.16b, v16.16b, v20.16b
	eor	v20.16b, v23.16b, v26.16b
	and	v29.16b, v16.16b, v4.16b
	and	v30.16b, v19.16b, v5.16b
	eor	v26.16b, v3.16b, v24.16b
	eor	v31.16b, v18.16b, v7.16b
	eor	v24.16b, v28.16b, v25.16b
	eor	v25.16b, v17.16b, v27.16b
	orr	v10.16b, v19.16b, v5.16b
	and	v9.16b, v20.16b, v6.16b
	and	v11.16b, v2.16b, v18.16b
	and	v13.16b, v17.16b, v21.16b
	and	v12.16b, v26.16b, v23.16b
	and	v31.16b, v31.16b, v3.16b
	eor	v29.16b, v8.16b, v29.16b
	and	v14.16b, v25.16b, v24.16b
	eor	v27.16b, v30.16b, v27.16b
	and	v30.16b, v7.16b, v1.16b
	eor	v28.16b, v13.16b, v28.16b
	eor	v8.16b, v31.16b, v11.16b
	eor	v10.16b, v10.16b, v12.16b
	eor	v29.16b, v29.16b, v9.16b
	eor	v27.16b, v27.16b, v14.16b
	eor	v30.16b, v31.16b, v30.16b
	eor	v28.16b, v28.16b, v9.16b
	eor	v31.16b, v10.16b, v8.16b
	eor	v29.16b, v29.16b, v8.16b
	eor	v27.16b, v27.16b, v3.16b
	eor	v28.16b, v28.16b, v30.16b
	and	v8.16b, v29.16b, v31.16b
	eor	v27.16b, v27.16b, v30.16b
	eor	v30.16b, v29.16b, v28.16b
	eor	v10.16b, v8.16b, v28.16b
	and	v29.16b, v27.16b, v29.16b
	eor	v9.16b, v8.16b, v27.16b
	eor	v11.16b, v27.16b, v31.16b
	and	v31.16b, v28.16b, v31.16b
	and	v29.16b, v29.16b, v30.16b
	and	v9.16b, v9.16b, v30.16b
	eor	v30.16b, v8.16b, v30.16b
	and	v10.16b, v10.16b, v11.16b
	bic	v31.16b, v11.16b, v31.16b
	eor	v28.16b, v9.16b, v28.16b
	eor	v29.16b, v30.16b, v29.16b
	eor	v30.16b, v10.16b, v27.16b
	eor	v31.16b, v31.16b, v8.16b
	eor	v10.16b, v29.16b, v28.16b
	and	v23.16b, v29.16b, v23.16b
	and	v26.16b, v29.16b, v26.16b
	eor	v8.16b, v28.16b, v30.16b
	eor	v9.16b, v29.16b, v31.16b
	eor	v12.16b, v30.16b, v31.16b
	and	v13.16b, v31.16b, v4.16b
	and	v17.16b, v30.16b, v17.16b
	and	v24.16b, v28.16b, v24.16b
	and	v27.16b, v10.16b, v19.16b
	eor	v11.16b, v9.16b, v8.16b
	and	v22.16b, v8.16b, v22.16b
	and	v4.16b, v12.16b, v20.16b
	and	v20.16b, v8.16b, v3.16b
	and	v7.16b, v9.16b, v7.16b
	and	v1.16b, v9.16b, v1.16b
	ldp	q8, q9, [x13]
	and	v6.16b, v12.16b, v6.16b
	and	v29.16b, v11.16b, v18.16b
	and	v18.16b, v30.16b, v21.16b
	eor	v19.16b, v22.16b, v23.16b
	and	v21.16b, v28.16b, v25.16b
	and	v25.16b, v31.16b, v16.16b
	and	v16.16b, v10.16b, v5.16b
	and	v2.16b, v11.16b, v2.16b
	ldp	q10, q11, [x13, #32]
	eor	v3.16b, v29.16b, v26.16b
	ldp	q29, q30, [x13, #96]
	eor	v28.16b, v18.16b, v13.16b
	eor	v19.16b, v19.16b, v27.16b
	eor	v25.16b, v26.16b, v25.16b
	eor	v5.16b, v4.16b, v21.16b
	eor	v22.16b, v22.16b, v24.16b
	eor	v6.16b, v1.16b, v6.16b
	eor	v23.16b, v23.16b, v29.16b
	ldp	q29, q31, [x13, #64]
	eor	v26.16b, v28.16b, v17.16b
	eor	v17.16b, v8.16b, v17.16b
	eor	v24.16b, v16.16b, v25.16b
	eor	v1.16b, v1.16b, v11.16b
	eor	v21.16b, v21.16b, v30.16b
	eor	v3.16b, v3.16b, v19.16b
	eor	v27.16b, v27.16b, v31.16b
	eor	v23.16b, v23.16b, v28.16b
	eor	v28.16b, v2.16b, v7.16b
	eor	v17.16b, v17.16b, v20.16b
	eor	v25.16b, v25.16b, v10.16b
	eor	v22.16b, v22.16b, v24.16b
	eor	v1.16b, v1.16b, v5.16b
	eor	v20.16b, v27.16b, v26.16b
	eor	v7.16b, v23.16b, v7.16b
	eor	v23.16b, v16.16b, v9.16b
	eor	v19.16b, v28.16b, v19.16b
	eor	v16.16b, v21.16b, v16.16b
	eor	v17.16b, v17.16b, v6.16b
	eor	v5.16b, v25.16b, v5.16b
	eor	v1.16b, v1.16b, v26.16b
	eor	v20.16b, v20.16b, v28.16b
	eor	v6.16b, v7.16b, v6.16b
	eor	v2.16b, v23.16b, v2.16b
	eor	v7.16b, v18.16b, v29.16b
	ldr	q18, [x17, l_CPI14_5@PAGEOFF]
	eor	v16.16b, v16.16b, v19.16b
	eor	v5.16b, v5.16b, v19.16b
	eor	v1.16b, v1.16b, v3.16b
	eor	v20.16b, v20.16b, v22.16b
	eor	v6.16b, v6.16b, v22.16b
	eor	v2.16b, v2.16b, v3.16b
	eor	v4.16b, v7.16b, v4.16b
	tbl	v7.16b, { v17.16b }, v18.16b
	tbl	v3.16b, { v16.16b }, v18.16b
	tbl	v23.16b, { v5.16b }, v18.16b
	tbl	v24.16b, { v1.16b }, v18.16b
	tbl	v21.16b, { v20.16b }, v18.16b
	tbl	v22.16b, { v6.16b }, v18.16b
	eor	v4.16b, v4.16b, v19.16b
	tbl	v19.16b, { v2.16b }, v18.16b
	eor	v7.16b, v7.16b, v17.16b
	eor	v3.16b, v3.16b, v16.16b
	eor	v23.16b, v23.16b, v5.16b
	eor	v24.16b, v24.16b, v1.16b
	tbl	v18.16b, { v4.16b }, v18.16b
	eor	v21.16b, v21.16b, v20.16b
	eor	v22.16b, v22.16b, v6.16b
	eor	v19.16b, v19.16b, v2.16b
	eor	v2.16b, v7.16b, v2.16b
	eor	v17.16b, v3.16b, v17.16b
	eor	v1.16b, v3.16b, v1.16b
	eor	v6.16b, v21.16b, v6.16b
	eor	v16.16b, v22.16b, v16.16b
	eor	v18.16b, v18.16b, v4.16b
	eor	v2.16b, v2.16b, v3.16b
	eor	v5.16b, v19.16b, v5.16b
	eor	v4.16b, v3.16b, v4.16b
	eor	v1.16b, v1.16b, v23.16b
	eor	v23.16b, v17.16b, v23.16b
	eor	v25.16b, v16.16b, v6.16b
	eor	v21.16b, v16.16b, v21.16b
	eor	v7.16b, v6.16b, v7.16b
	eor	v26.16b, v2.16b, v24.16b
	eor	v27.16b, v5.16b, v18.16b
	eor	v18.16b, v18.16b, v20.16b
	eor	v4.16b, v4.16b, v24.16b
	eor	v20.16b, v23.16b, v16.16b
	eor	v19.16b, v25.16b, v19.16b
	eor	v21.16b, v21.16b, v1.16b
	eor	v23.16b, v26.16b, v6.16b
	eor	v24.16b, v27.16b, v25.16b
	eor	v3.16b, v18.16b, v3.16b
	eor	v22.16b, v4.16b, v22.16b
	ext	v25.16b, v7.16b, v7.16b, #8
	ext	v27.16b, v20.16b, v20.16b, #8
	ext	v26.16b, v19.16b, v19.16b, #8
	ext	v30.16b, v21.16b, v21.16b, #8
	eor	v7.16b, v17.16b, v7.16b
	ext	v28.16b, v23.16b, v23.16b, #8
	ext	v29.16b, v24.16b, v24.16b, #8
	ext	v8.16b, v3.16b, v3.16b, #8
	ext	v31.16b, v22.16b, v22.16b, #8
	eor	v2.16b, v2.16b, v19.16b
	eor	v6.16b, v6.16b, v22.16b
	eor	v3.16b, v16.16b, v3.16b
	eor	v5.16b, v5.16b, v20.16b
	eor	v4.16b, v4.16b, v24.16b
	eor	v16.16b, v18.16b, v21.16b
	eor	v1.16b, v1.16b, v23.16b
	eor	v24.16b, v7.16b, v25.16b
	eor	v7.16b, v2.16b, v26.16b
	eor	v6.16b, v6.16b, v31.16b
	eor	v21.16b, v3.16b, v8.16b
	eor	v3.16b, v5.16b, v27.16b
	eor	v2.16b, v4.16b, v29.16b
	eor	v27.16b, v16.16b, v30.16b
	eor	v25.16b, v1.16b, v28.16b
	eor	v22.16b, v7.16b, v24.16b
	eor	v1.16b, v6.16b, v21.16b
	eor	v20.16b, v3.16b, v7.16b
	eor	v29.16b, v7.16b, v6.16b
	eor	v23.16b, v27.16b, v3.16b
	eor	v16.16b, v2.16b, v6.16b
	eor	v5.16b, v2.16b, v21.16b
	eor	v2.16b, v2.16b, v25.16b
	eor	v28.16b, v25.16b, v24.16b
	eor	v26.16b, v27.16b, v25.16b
	eor	v3.16b, v22.16b, v1.16b
	eor	v17.16b, v5.16b, v6.16b
	eor	v18.16b, v16.16b, v23.16b
	eor	v23.16b, v23.16b, v21.16b
	eor	v19.16b, v2.16b, v20.16b
	eor	v4.16b, v28.16b, v1.16b
	eor	v6.16b, v26.16b, v29.16b
	eor	v21.16b, v2.16b, v22.16b
	eor	v22.16b, v16.16b, v22.16b
	eor	v24.16b, v2.16b, v24.16b
	eor	v7.16b, v17.16b, v25.16b
	and	v8.16b, v17.16b, v5.16b
	eor	v26.16b, v29.16b, v28.16b
	eor	v31.16b, v19.16b, v4.16b
	eor	v9.16b, v20.16b, v4.16b
	and	v30.16b, v18.16b, v3.16b
	and	v10.16b, v21.16b, v6.16b
	eor	v25.16b, v22.16b, v27.16b
	orr	v29.16b, v21.16b, v6.16b
	and	v11.16b, v7.16b, v19.16b
	and	v12.16b, v24.16b, v16.16b
	and	v13.16b, v22.16b, v23.16b
	and	v31.16b, v31.16b, v2.16b
	eor	v8.16b, v9.16b, v8.16b
	eor	v20.16b, v4.16b, v20.16b
	and	v9.16b, v25.16b, v26.16b
	eor	v27.16b, v10.16b, v27.16b
	and	v10.16b, v4.16b, v1.16b
	eor	v29.16b, v29.16b, v12.16b
	eor	v28.16b, v13.16b, v28.16b
	eor	v11.16b, v31.16b, v11.16b
	eor	v8.16b, v8.16b, v30.16b
	eor	v27.16b, v27.16b, v9.16b
	eor	v31.16b, v31.16b, v10.16b
	eor	v28.16b, v28.16b, v30.16b
	eor	v29.16b, v29.16b, v11.16b
	eor	v30.16b, v8.16b, v11.16b
	eor	v27.16b, v27.16b, v2.16b
	eor	v28.16b, v28.16b, v31.16b
	and	v8.16b, v30.16b, v29.16b
	eor	v27.16b, v27.16b, v31.16b
	eor	v9.16b, v30.16b, v28.16b
	eor	v31.16b, v8.16b, v28.16b
	eor	v10.16b, v27.16b, v29.16b
	eor	v11.16b, v8.16b, v27.16b
	and	v30.16b, v27.16b, v30.16b
	and	v29.16b, v28.16b, v29.16b
	and	v11.16b, v11.16b, v9.16b
	and	v31.16b, v31.16b, v10.16b
	and	v30.16b, v30.16b, v9.16b
	eor	v9.16b, v8.16b, v9.16b
	bic	v29.16b, v10.16b, v29.16b
	eor	v28.16b, v11.16b, v28.16b
	eor	v27.16b, v31.16b, v27.16b
	eor	v30.16b, v9.16b, v30.16b
	eor	v29.16b, v29.16b, v8.16b
	eor	v31.16b, v28.16b, v27.16b
	and	v23.16b, v27.16b, v23.16b
	and	v22.16b, v27.16b, v22.16b
	eor	v8.16b, v30.16b, v29.16b
	and	v5.16b, v29.16b, v5.16b
	eor	v11.16b, v27.16b, v29.16b
	eor	v9.16b, v30.16b, v28.16b
	and	v16.16b, v30.16b, v16.16b
	and	v25.16b, v28.16b, v25.16b
	and	v20.16b, v31.16b, v20.16b
	and	v24.16b, v30.16b, v24.16b
	and	v17.16b, v29.16b, v17.16b
	eor	v10.16b, v8.16b, v31.16b
	and	v18.16b, v11.16b, v18.16b
	eor	v5.16b, v23.16b, v5.16b
	and	v26.16b, v28.16b, v26.16b
	and	v21.16b, v9.16b, v21.16b
	and	v6.16b, v9.16b, v6.16b
	eor	v27.16b, v20.16b, v16.16b
	and	v4.16b, v8.16b, v4.16b
	eor	v17.16b, v24.16b, v17.16b
	and	v19.16b, v10.16b, v19.16b
	and	v7.16b, v10.16b, v7.16b
	eor	v28.16b, v18.16b, v25.16b
	and	v3.16b, v11.16b, v3.16b
	and	v1.16b, v8.16b, v1.16b
	and	v2.16b, v31.16b, v2.16b
	eor	v27.16b, v27.16b, v21.16b
	eor	v20.16b, v20.16b, v26.16b
	eor	v26.16b, v6.16b, v17.16b
	eor	v19.16b, v19.16b, v24.16b
	eor	v24.16b, v5.16b, v22.16b
	eor	v5.16b, v5.16b, v16.16b
	eor	v16.16b, v6.16b, v25.16b
	eor	v25.16b, v7.16b, v4.16b
	eor	v29.16b, v1.16b, v3.16b
	eor	v1.16b, v28.16b, v1.16b
	eor	v17.16b, v28.16b, v17.16b
	eor	v6.16b, v7.16b, v6.16b
	eor	v21.16b, v24.16b, v21.16b
	eor	v3.16b, v5.16b, v4.16b
	eor	v19.16b, v19.16b, v27.16b
	eor	v4.16b, v18.16b, v23.16b
	eor	v5.16b, v25.16b, v27.16b
	eor	v18.16b, v20.16b, v26.16b
	eor	v20.16b, v21.16b, v25.16b
	eor	v21.16b, v2.16b, v22.16b
	eor	v22.16b, v1.16b, v24.16b
	eor	v23.16b, v3.16b, v29.16b
	eor	v3.16b, v17.16b, v5.16b
	eor	v2.16b, v4.16b, v5.16b
	eor	v7.16b, v16.16b, v5.16b
	eor	v6.16b, v6.16b, v19.16b
	eor	v1.16b, v20.16b, v18.16b
	eor	v4.16b, v22.16b, v19.16b
	eor	v5.16b, v21.16b, v29.16b
	eor	v16.16b, v23.16b, v18.16b
	b	LBB14_4
LBB14_3:                               // %else.4.i
                                        //   in Loop: Header=BB14_1 Depth=1
	adrp	x4, l_CPI14_1@PAGE
	movi	v24.2d, #0x00ffff00000000
	ldr	q17, [x4, l_CPI14_1@PAGEOFF]
	adrp	x4, l_CPI14_2@PAGE
	ldr	q26, [x4, l_CPI14_2@PAGEOFF]
	tbl	v18.16b, { v16.16b }, v17.16b
	tbl	v19.16b, { v7.16b }, v17.16b
	tbl	v20.16b, { v3.16b }, v17.16b
	tbl	v21.16b, { v4.16b }, v17.16b
	tbl	v22.16b, { v1.16b }, v17.16b
	tbl	v23.16b, { v5.16b }, v17.16b
	tbl	v25.16b, { v6.16b }, v17.16b
	tbl	v17.16b, { v2.16b }, v17.16b
	eor	v18.16b, v18.16b, v16.16b
	eor	v19.16b, v19.16b, v7.16b
	eor	v20.16b, v20.16b, v3.16b
	eor	v21.16b, v21.16b, v4.16b
	eor	v22.16b, v22.16b, v1.16b
	eor	v23.16b, v23.16b, v5.16b
	eor	v25.16b, v25.16b, v6.16b
	eor	v17.16b, v17.16b, v2.16b
	and	v18.16b, v18.16b, v24.16b
	and	v19.16b, v19.16b, v24.16b
	and	v20.16b, v20.16b, v24.16b
	and	v21.16b, v21.16b, v24.16b
	and	v22.16b, v22.16b, v24.16b
	and	v23.16b, v23.16b, v24.16b
	and	v25.16b, v25.16b, v24.16b
	and	v17.16b, v17.16b, v24.16b
	tbl	v27.16b, { v18.16b }, v26.16b
	eor	v16.16b, v16.16b, v18.16b
	tbl	v18.16b, { v19.16b }, v26.16b
	eor	v7.16b, v7.16b, v19.16b
	tbl	v19.16b, { v20.16b }, v26.16b
	eor	v3.16b, v3.16b, v20.16b
	tbl	v20.16b, { v21.16b }, v26.16b
	eor	v4.16b, v4.16b, v21.16b
	tbl	v21.16b, { v22.16b }, v26.16b
	eor	v1.16b, v1.16b, v22.16b
	tbl	v22.16b, { v23.16b }, v26.16b
	tbl	v24.16b, { v25.16b }, v26.16b
	tbl	v26.16b, { v17.16b }, v26.16b
	eor	v23.16b, v5.16b, v23.16b
	eor	v25.16b, v6.16b, v25.16b
	eor	v17.16b, v2.16b, v17.16b
	eor	v5.16b, v16.16b, v27.16b
	eor	v6.16b, v7.16b, v18.16b
	eor	v3.16b, v3.16b, v19.16b
	eor	v4.16b, v4.16b, v20.16b
	eor	v2.16b, v1.16b, v21.16b
	eor	v1.16b, v23.16b, v22.16b
	eor	v16.16b, v25.16b, v24.16b
	eor	v7.16b, v17.16b, v26.16b
LBB14_4:                               // %join.10.preheader.i
                                        //   in Loop: Header=BB14_1 Depth=1
	ldp	q17, q18, [x11, #224]
	adrp	x4, l_CPI14_6@PAGE
	ldp	q19, q21, [x11, #144]
	add	x8, x8, #8
	ldr	q22, [x11, #128]
	eor	v16.16b, v17.16b, v16.16b
	ldp	q20, q17, [x11, #192]
	eor	v6.16b, v19.16b, v6.16b
	eor	v3.16b, v21.16b, v3.16b
	eor	v7.16b, v18.16b, v7.16b
	eor	v5.16b, v22.16b, v5.16b
	ldr	q19, [x11, #176]
	eor	v17.16b, v17.16b, v1.16b
	ldr	q1, [x4, l_CPI14_6@PAGEOFF]
	eor	v2.16b, v20.16b, v2.16b
	eor	v4.16b, v19.16b, v4.16b
	tbl	v18.16b, { v16.16b }, v1.16b
	tbl	v19.16b, { v6.16b }, v1.16b
	tbl	v20.16b, { v3.16b }, v1.16b
	tbl	v21.16b, { v17.16b }, v1.16b
	tbl	v22.16b, { v7.16b }, v1.16b
	tbl	v23.16b, { v5.16b }, v1.16b
	tbl	v25.16b, { v2.16b }, v1.16b
	tbl	v24.16b, { v4.16b }, v1.16b
	eor	v18.16b, v18.16b, v16.16b
	eor	v19.16b, v19.16b, v6.16b
	eor	v20.16b, v20.16b, v3.16b
	eor	v21.16b, v21.16b, v17.16b
	eor	v22.16b, v22.16b, v7.16b
	eor	v23.16b, v23.16b, v5.16b
	eor	v25.16b, v25.16b, v2.16b
	eor	v24.16b, v24.16b, v4.16b
	eor	v7.16b, v18.16b, v7.16b
	eor	v3.16b, v19.16b, v3.16b
	eor	v4.16b, v4.16b, v20.16b
	eor	v16.16b, v21.16b, v16.16b
	eor	v5.16b, v22.16b, v5.16b
	eor	v6.16b, v6.16b, v23.16b
	eor	v27.16b, v2.16b, v22.16b
	eor	v17.16b, v25.16b, v17.16b
	ldr	q2, [x1, l_CPI14_4@PAGEOFF]
	eor	v26.16b, v7.16b, v20.16b
	eor	v20.16b, v3.16b, v25.16b
	eor	v4.16b, v4.16b, v22.16b
	eor	v28.16b, v16.16b, v7.16b
	eor	v6.16b, v22.16b, v6.16b
	eor	v21.16b, v21.16b, v7.16b
	mov	x1, x14
	eor	v25.16b, v26.16b, v5.16b
	eor	v26.16b, v27.16b, v24.16b
	eor	v27.16b, v17.16b, v22.16b
	eor	v19.16b, v28.16b, v19.16b
	eor	v22.16b, v16.16b, v24.16b
	eor	v20.16b, v28.16b, v20.16b
	eor	v21.16b, v21.16b, v4.16b
	tbl	v24.16b, { v25.16b }, v2.16b
	eor	v3.16b, v3.16b, v25.16b
	eor	v18.16b, v26.16b, v18.16b
	tbl	v25.16b, { v19.16b }, v2.16b
	eor	v19.16b, v6.16b, v19.16b
	eor	v6.16b, v22.16b, v6.16b
	eor	v22.16b, v16.16b, v23.16b
	tbl	v28.16b, { v27.16b }, v2.16b
	eor	v7.16b, v7.16b, v27.16b
	tbl	v23.16b, { v20.16b }, v2.16b
	eor	v20.16b, v26.16b, v20.16b
	tbl	v26.16b, { v18.16b }, v2.16b
	eor	v16.16b, v16.16b, v18.16b
	tbl	v18.16b, { v6.16b }, v2.16b
	eor	v4.16b, v4.16b, v6.16b
	tbl	v27.16b, { v22.16b }, v2.16b
	tbl	v6.16b, { v21.16b }, v2.16b
	eor	v5.16b, v5.16b, v22.16b
	eor	v30.16b, v7.16b, v28.16b
	eor	v7.16b, v21.16b, v17.16b
	eor	v17.16b, v3.16b, v24.16b
	eor	v20.16b, v20.16b, v23.16b
	eor	v21.16b, v19.16b, v25.16b
	eor	v16.16b, v16.16b, v26.16b
	eor	v25.16b, v4.16b, v18.16b
	eor	v26.16b, v5.16b, v27.16b
	eor	v29.16b, v7.16b, v6.16b
	eor	v19.16b, v20.16b, v30.16b
	eor	v7.16b, v21.16b, v17.16b
	eor	v4.16b, v16.16b, v30.16b
	eor	v3.16b, v20.16b, v25.16b
	eor	v23.16b, v16.16b, v20.16b
	eor	v8.16b, v16.16b, v21.16b
	eor	v28.16b, v25.16b, v26.16b
	eor	v22.16b, v21.16b, v26.16b
	eor	v6.16b, v25.16b, v29.16b
	eor	v18.16b, v19.16b, v16.16b
	eor	v31.16b, v29.16b, v17.16b
	eor	v5.16b, v3.16b, v7.16b
	eor	v27.16b, v3.16b, v26.16b
	eor	v24.16b, v4.16b, v28.16b
	eor	v17.16b, v6.16b, v8.16b
	eor	v6.16b, v3.16b, v22.16b
	eor	v20.16b, v23.16b, v22.16b
	and	v9.16b, v18.16b, v19.16b
	eor	v21.16b, v23.16b, v31.16b
	eor	v22.16b, v4.16b, v22.16b
	eor	v16.16b, v18.16b, v25.16b
	eor	v30.16b, v30.16b, v31.16b
	eor	v10.16b, v24.16b, v5.16b
	eor	v11.16b, v7.16b, v24.16b
	eor	v25.16b, v8.16b, v28.16b
	eor	v26.16b, v20.16b, v29.16b
	and	v31.16b, v17.16b, v6.16b
	and	v13.16b, v27.16b, v23.16b
	and	v8.16b, v21.16b, v22.16b
	and	v12.16b, v16.16b, v5.16b
	and	v14.16b, v20.16b, v30.16b
	and	v10.16b, v10.16b, v3.16b
	eor	v9.16b, v11.16b, v9.16b
	orr	v11.16b, v17.16b, v6.16b
	and	v15.16b, v26.16b, v25.16b
	eor	v29.16b, v31.16b, v29.16b
	eor	v7.16b, v24.16b, v7.16b
	eor	v28.16b, v14.16b, v28.16b
	eor	v31.16b, v10.16b, v12.16b
	eor	v9.16b, v9.16b, v8.16b
	eor	v11.16b, v11.16b, v13.16b
	and	v12.16b, v24.16b, v4.16b
	eor	v29.16b, v29.16b, v15.16b
	eor	v28.16b, v28.16b, v8.16b
	eor	v9.16b, v9.16b, v31.16b
	eor	v31.16b, v11.16b, v31.16b
	eor	v8.16b, v10.16b, v12.16b
	eor	v29.16b, v29.16b, v3.16b
	and	v10.16b, v9.16b, v31.16b
	eor	v11.16b, v28.16b, v8.16b
	eor	v28.16b, v29.16b, v8.16b
	eor	v29.16b, v10.16b, v11.16b
	eor	v8.16b, v28.16b, v31.16b
	and	v31.16b, v11.16b, v31.16b
	and	v29.16b, v29.16b, v8.16b
	bic	v31.16b, v8.16b, v31.16b
	and	v8.16b, v28.16b, v9.16b
	eor	v9.16b, v9.16b, v11.16b
	eor	v29.16b, v29.16b, v28.16b
	eor	v31.16b, v31.16b, v10.16b
	and	v8.16b, v8.16b, v9.16b
	eor	v12.16b, v10.16b, v9.16b
	eor	v10.16b, v10.16b, v28.16b
	and	v28.16b, v29.16b, v30.16b
	and	v19.16b, v31.16b, v19.16b
	and	v18.16b, v31.16b, v18.16b
	eor	v30.16b, v12.16b, v8.16b
	and	v8.16b, v10.16b, v9.16b
	eor	v12.16b, v29.16b, v31.16b
	and	v20.16b, v29.16b, v20.16b
	eor	v19.16b, v28.16b, v19.16b
	and	v23.16b, v30.16b, v23.16b
	eor	v9.16b, v30.16b, v31.16b
	eor	v8.16b, v8.16b, v11.16b
	and	v27.16b, v30.16b, v27.16b
	and	v21.16b, v12.16b, v21.16b
	and	v22.16b, v12.16b, v22.16b
	eor	v10.16b, v19.16b, v23.16b
	and	v11.16b, v9.16b, v24.16b
	eor	v13.16b, v8.16b, v29.16b
	and	v26.16b, v8.16b, v26.16b
	and	v4.16b, v9.16b, v4.16b
	and	v25.16b, v8.16b, v25.16b
	eor	v18.16b, v27.16b, v18.16b
	eor	v19.16b, v19.16b, v20.16b
	eor	v24.16b, v10.16b, v11.16b
	eor	v10.16b, v30.16b, v8.16b
	and	v7.16b, v13.16b, v7.16b
	eor	v30.16b, v9.16b, v13.16b
	eor	v29.16b, v21.16b, v26.16b
	eor	v22.16b, v4.16b, v22.16b
	and	v3.16b, v13.16b, v3.16b
	and	v17.16b, v10.16b, v17.16b
	eor	v23.16b, v7.16b, v23.16b
	and	v6.16b, v10.16b, v6.16b
	and	v5.16b, v30.16b, v5.16b
	and	v16.16b, v30.16b, v16.16b
	eor	v7.16b, v7.16b, v25.16b
	eor	v4.16b, v29.16b, v4.16b
	eor	v24.16b, v24.16b, v22.16b
	eor	v3.16b, v3.16b, v20.16b
	eor	v25.16b, v17.16b, v18.16b
	eor	v23.16b, v23.16b, v6.16b
	eor	v6.16b, v19.16b, v6.16b
	eor	v5.16b, v5.16b, v27.16b
	eor	v27.16b, v16.16b, v11.16b
	eor	v16.16b, v16.16b, v17.16b
	eor	v4.16b, v4.16b, v19.16b
	eor	v17.16b, v17.16b, v26.16b
	eor	v20.16b, v21.16b, v28.16b
	eor	v25.16b, v7.16b, v25.16b
	eor	v21.16b, v29.16b, v18.16b
	eor	v18.16b, v3.16b, v22.16b
	eor	v7.16b, v5.16b, v23.16b
	eor	v6.16b, v6.16b, v27.16b
	eor	v19.16b, v27.16b, v23.16b
	eor	v5.16b, v24.16b, v25.16b
	eor	v4.16b, v4.16b, v7.16b
	eor	v7.16b, v16.16b, v7.16b
	eor	v6.16b, v6.16b, v25.16b
	eor	v3.16b, v17.16b, v19.16b
	eor	v16.16b, v20.16b, v19.16b
	eor	v17.16b, v21.16b, v19.16b
LBB14_5:                               // %join.10.i
                                        //   Parent Loop BB14_1 Depth=1
                                        // =>  This Inner Loop Header: Depth=2
	add	x4, x0, x1
	subs	x1, x1, #512
	ldp	q19, q20, [x4]
	sub	x5, x4, #288
	ldp	q22, q23, [x4, #64]
	eor	v18.16b, v19.16b, v18.16b
	ldp	q21, q19, [x4, #32]
	eor	v6.16b, v23.16b, v6.16b
	eor	v7.16b, v20.16b, v7.16b
	eor	v16.16b, v22.16b, v16.16b
	eor	v17.16b, v21.16b, v17.16b
	ldp	q24, q21, [x4, #96]
	eor	v4.16b, v19.16b, v4.16b
	ext	v19.16b, v18.16b, v18.16b, #4
	ext	v23.16b, v7.16b, v7.16b, #4
	ext	v26.16b, v16.16b, v16.16b, #4
	eor	v5.16b, v24.16b, v5.16b
	eor	v3.16b, v21.16b, v3.16b
	ext	v20.16b, v17.16b, v17.16b, #4
	ext	v21.16b, v6.16b, v6.16b, #4
	ext	v24.16b, v4.16b, v4.16b, #4
	eor	v19.16b, v19.16b, v18.16b
	eor	v23.16b, v23.16b, v7.16b
	ext	v22.16b, v5.16b, v5.16b, #4
	ext	v25.16b, v3.16b, v3.16b, #4
	eor	v26.16b, v26.16b, v16.16b
	eor	v20.16b, v20.16b, v17.16b
	eor	v21.16b, v21.16b, v6.16b
	eor	v24.16b, v24.16b, v4.16b
	eor	v7.16b, v19.16b, v7.16b
	eor	v17.16b, v23.16b, v17.16b
	eor	v6.16b, v26.16b, v6.16b
	eor	v22.16b, v22.16b, v5.16b
	eor	v25.16b, v25.16b, v3.16b
	eor	v4.16b, v20.16b, v4.16b
	eor	v5.16b, v21.16b, v5.16b
	eor	v16.16b, v24.16b, v16.16b
	eor	v28.16b, v26.16b, v17.16b
	eor	v3.16b, v22.16b, v3.16b
	eor	v18.16b, v25.16b, v18.16b
	eor	v7.16b, v7.16b, v25.16b
	eor	v4.16b, v4.16b, v25.16b
	eor	v24.16b, v5.16b, v24.16b
	eor	v16.16b, v16.16b, v25.16b
	eor	v19.16b, v5.16b, v19.16b
	eor	v25.16b, v25.16b, v6.16b
	eor	v27.16b, v3.16b, v5.16b
	eor	v20.16b, v3.16b, v20.16b
	eor	v21.16b, v3.16b, v21.16b
	eor	v24.16b, v24.16b, v7.16b
	eor	v22.16b, v16.16b, v22.16b
	ext	v10.16b, v25.16b, v25.16b, #8
	eor	v3.16b, v3.16b, v25.16b
	eor	v23.16b, v27.16b, v23.16b
	eor	v20.16b, v20.16b, v18.16b
	eor	v26.16b, v28.16b, v27.16b
	eor	v21.16b, v21.16b, v4.16b
	ext	v27.16b, v19.16b, v19.16b, #8
	ext	v29.16b, v24.16b, v24.16b, #8
	ext	v9.16b, v22.16b, v22.16b, #8
	eor	v18.16b, v19.16b, v18.16b
	eor	v5.16b, v5.16b, v22.16b
	ext	v28.16b, v23.16b, v23.16b, #8
	ext	v30.16b, v20.16b, v20.16b, #8
	ext	v31.16b, v26.16b, v26.16b, #8
	ext	v8.16b, v21.16b, v21.16b, #8
	eor	v7.16b, v7.16b, v23.16b
	eor	v4.16b, v4.16b, v24.16b
	eor	v16.16b, v16.16b, v26.16b
	eor	v6.16b, v6.16b, v21.16b
	eor	v17.16b, v17.16b, v20.16b
	eor	v26.16b, v27.16b, v18.16b
	eor	v18.16b, v5.16b, v9.16b
	eor	v19.16b, v3.16b, v10.16b
	eor	v7.16b, v7.16b, v28.16b
	eor	v4.16b, v4.16b, v29.16b
	eor	v16.16b, v16.16b, v31.16b
	eor	v29.16b, v6.16b, v8.16b
	eor	v17.16b, v17.16b, v30.16b
	eor	v3.16b, v18.16b, v19.16b
	eor	v22.16b, v7.16b, v26.16b
	eor	v27.16b, v18.16b, v7.16b
	eor	v30.16b, v4.16b, v26.16b
	eor	v20.16b, v29.16b, v4.16b
	eor	v6.16b, v16.16b, v19.16b
	eor	v5.16b, v16.16b, v4.16b
	eor	v24.16b, v17.16b, v7.16b
	eor	v28.16b, v29.16b, v17.16b
	eor	v25.16b, v16.16b, v18.16b
	eor	v17.16b, v30.16b, v3.16b
	eor	v16.16b, v3.16b, v22.16b
	eor	v7.16b, v20.16b, v27.16b
	eor	v18.16b, v6.16b, v18.16b
	eor	v21.16b, v5.16b, v22.16b
	eor	v20.16b, v5.16b, v24.16b
	eor	v23.16b, v28.16b, v19.16b
	eor	v19.16b, v25.16b, v22.16b
	eor	v22.16b, v25.16b, v28.16b
	eor	v28.16b, v5.16b, v26.16b
	eor	v26.16b, v30.16b, v27.16b
	eor	v4.16b, v18.16b, v4.16b
	and	v31.16b, v18.16b, v6.16b
	and	v8.16b, v21.16b, v7.16b
	eor	v9.16b, v20.16b, v17.16b
	eor	v27.16b, v19.16b, v29.16b
	eor	v10.16b, v24.16b, v17.16b
	and	v11.16b, v22.16b, v16.16b
	orr	v12.16b, v21.16b, v7.16b
	and	v14.16b, v28.16b, v25.16b
	and	v13.16b, v4.16b, v20.16b
	and	v15.16b, v19.16b, v23.16b
	eor	v29.16b, v8.16b, v29.16b
	and	v9.16b, v9.16b, v5.16b
	and	v0.16b, v27.16b, v26.16b
	eor	v31.16b, v10.16b, v31.16b
	and	v8.16b, v17.16b, v3.16b
	eor	v12.16b, v12.16b, v14.16b
	eor	v24.16b, v17.16b, v24.16b
	eor	v30.16b, v15.16b, v30.16b
	eor	v10.16b, v9.16b, v13.16b
	eor	v31.16b, v31.16b, v11.16b
	eor	v0.16b, v29.16b, v0.16b
	eor	v29.16b, v9.16b, v8.16b
	eor	v30.16b, v30.16b, v11.16b
	eor	v8.16b, v12.16b, v10.16b
	eor	v31.16b, v31.16b, v10.16b
	eor	v0.16b, v0.16b, v5.16b
	eor	v30.16b, v30.16b, v29.16b
	and	v9.16b, v31.16b, v8.16b
	eor	v0.16b, v0.16b, v29.16b
	eor	v29.16b, v31.16b, v30.16b
	and	v31.16b, v0.16b, v31.16b
	eor	v10.16b, v9.16b, v0.16b
	eor	v11.16b, v9.16b, v30.16b
	eor	v12.16b, v0.16b, v8.16b
	and	v8.16b, v30.16b, v8.16b
	and	v31.16b, v31.16b, v29.16b
	and	v10.16b, v10.16b, v29.16b
	eor	v29.16b, v9.16b, v29.16b
	and	v11.16b, v11.16b, v12.16b
	bic	v8.16b, v12.16b, v8.16b
	eor	v30.16b, v10.16b, v30.16b
	eor	v31.16b, v29.16b, v31.16b
	eor	v0.16b, v11.16b, v0.16b
	eor	v8.16b, v8.16b, v9.16b
	eor	v11.16b, v31.16b, v30.16b
	and	v25.16b, v31.16b, v25.16b
	and	v28.16b, v31.16b, v28.16b
	eor	v9.16b, v30.16b, v0.16b
	eor	v10.16b, v31.16b, v8.16b
	eor	v13.16b, v0.16b, v8.16b
	and	v14.16b, v8.16b, v6.16b
	and	v26.16b, v30.16b, v26.16b
	and	v29.16b, v11.16b, v21.16b
	eor	v12.16b, v10.16b, v9.16b
	and	v24.16b, v9.16b, v24.16b
	and	v6.16b, v13.16b, v22.16b
	and	v22.16b, v9.16b, v5.16b
	and	v17.16b, v10.16b, v17.16b
	and	v3.16b, v10.16b, v3.16b
	ldp	q9, q10, [x4, #-128]
	and	v16.16b, v13.16b, v16.16b
	and	v31.16b, v12.16b, v20.16b
	and	v20.16b, v0.16b, v23.16b
	and	v23.16b, v30.16b, v27.16b
	eor	v21.16b, v24.16b, v25.16b
	and	v0.16b, v0.16b, v19.16b
	and	v19.16b, v8.16b, v18.16b
	and	v18.16b, v11.16b, v7.16b
	and	v4.16b, v12.16b, v4.16b
	eor	v24.16b, v24.16b, v26.16b
	ldp	q11, q12, [x4, #-96]
	eor	v5.16b, v31.16b, v28.16b
	ldp	q30, q31, [x4, #-32]
	eor	v27.16b, v20.16b, v14.16b
	eor	v21.16b, v21.16b, v29.16b
	eor	v19.16b, v28.16b, v19.16b
	eor	v7.16b, v6.16b, v23.16b
	eor	v16.16b, v3.16b, v16.16b
	eor	v3.16b, v3.16b, v12.16b
	eor	v25.16b, v25.16b, v30.16b
	ldp	q30, q8, [x4, #-64]
	eor	v28.16b, v27.16b, v0.16b
	eor	v0.16b, v9.16b, v0.16b
	eor	v26.16b, v18.16b, v19.16b
	eor	v23.16b, v23.16b, v31.16b
	eor	v19.16b, v19.16b, v11.16b
	eor	v5.16b, v5.16b, v21.16b
	eor	v29.16b, v29.16b, v8.16b
	eor	v25.16b, v25.16b, v27.16b
	eor	v27.16b, v4.16b, v17.16b
	eor	v0.16b, v0.16b, v22.16b
	eor	v24.16b, v24.16b, v26.16b
	eor	v3.16b, v3.16b, v7.16b
	eor	v7.16b, v19.16b, v7.16b
	ldr	q19, [x16, l_CPI14_3@PAGEOFF]
	eor	v22.16b, v29.16b, v28.16b
	eor	v17.16b, v25.16b, v17.16b
	eor	v25.16b, v18.16b, v10.16b
	eor	v21.16b, v27.16b, v21.16b
	eor	v18.16b, v23.16b, v18.16b
	eor	v0.16b, v0.16b, v16.16b
	eor	v3.16b, v3.16b, v28.16b
	eor	v22.16b, v22.16b, v27.16b
	eor	v16.16b, v17.16b, v16.16b
	eor	v4.16b, v25.16b, v4.16b
	eor	v17.16b, v20.16b, v30.16b
	eor	v18.16b, v18.16b, v21.16b
	eor	v7.16b, v7.16b, v21.16b
	eor	v3.16b, v3.16b, v5.16b
	eor	v20.16b, v22.16b, v24.16b
	eor	v16.16b, v16.16b, v24.16b
	eor	v4.16b, v4.16b, v5.16b
	eor	v6.16b, v17.16b, v6.16b
	tbl	v17.16b, { v0.16b }, v19.16b
	tbl	v5.16b, { v18.16b }, v19.16b
	tbl	v24.16b, { v7.16b }, v19.16b
	tbl	v25.16b, { v3.16b }, v19.16b
	tbl	v22.16b, { v20.16b }, v19.16b
	tbl	v23.16b, { v16.16b }, v19.16b
	eor	v6.16b, v6.16b, v21.16b
	tbl	v21.16b, { v4.16b }, v19.16b
	eor	v17.16b, v17.16b, v0.16b
	eor	v5.16b, v5.16b, v18.16b
	eor	v24.16b, v24.16b, v7.16b
	eor	v25.16b, v25.16b, v3.16b
	tbl	v19.16b, { v6.16b }, v19.16b
	eor	v22.16b, v22.16b, v20.16b
	eor	v23.16b, v23.16b, v16.16b
	eor	v21.16b, v21.16b, v4.16b
	eor	v4.16b, v17.16b, v4.16b
	eor	v0.16b, v5.16b, v0.16b
	eor	v3.16b, v5.16b, v3.16b
	eor	v16.16b, v22.16b, v16.16b
	eor	v18.16b, v23.16b, v18.16b
	eor	v19.16b, v19.16b, v6.16b
	eor	v4.16b, v4.16b, v5.16b
	eor	v7.16b, v21.16b, v7.16b
	eor	v6.16b, v5.16b, v6.16b
	eor	v3.16b, v3.16b, v24.16b
	eor	v24.16b, v0.16b, v24.16b
	eor	v26.16b, v18.16b, v16.16b
	eor	v22.16b, v18.16b, v22.16b
	eor	v17.16b, v16.16b, v17.16b
	eor	v27.16b, v4.16b, v25.16b
	eor	v28.16b, v7.16b, v19.16b
	eor	v19.16b, v19.16b, v20.16b
	eor	v6.16b, v6.16b, v25.16b
	eor	v20.16b, v26.16b, v21.16b
	eor	v21.16b, v24.16b, v18.16b
	eor	v22.16b, v22.16b, v3.16b
	eor	v24.16b, v27.16b, v16.16b
	eor	v25.16b, v28.16b, v26.16b
	eor	v5.16b, v19.16b, v5.16b
	eor	v23.16b, v6.16b, v23.16b
	tbl	v26.16b, { v17.16b }, v2.16b
	eor	v0.16b, v0.16b, v17.16b
	tbl	v27.16b, { v20.16b }, v2.16b
	tbl	v28.16b, { v21.16b }, v2.16b
	tbl	v31.16b, { v22.16b }, v2.16b
	tbl	v29.16b, { v24.16b }, v2.16b
	tbl	v30.16b, { v25.16b }, v2.16b
	tbl	v9.16b, { v5.16b }, v2.16b
	tbl	v8.16b, { v23.16b }, v2.16b
	eor	v4.16b, v4.16b, v20.16b
	eor	v16.16b, v16.16b, v23.16b
	eor	v5.16b, v18.16b, v5.16b
	eor	v3.16b, v3.16b, v24.16b
	eor	v6.16b, v6.16b, v25.16b
	eor	v17.16b, v19.16b, v22.16b
	eor	v7.16b, v7.16b, v21.16b
	eor	v0.16b, v0.16b, v26.16b
	eor	v4.16b, v4.16b, v27.16b
	eor	v16.16b, v16.16b, v8.16b
	eor	v19.16b, v5.16b, v9.16b
	eor	v22.16b, v3.16b, v29.16b
	eor	v18.16b, v6.16b, v30.16b
	eor	v29.16b, v17.16b, v31.16b
	eor	v7.16b, v7.16b, v28.16b
	eor	v26.16b, v4.16b, v0.16b
	eor	v3.16b, v16.16b, v19.16b
	eor	v27.16b, v4.16b, v16.16b
	eor	v30.16b, v22.16b, v0.16b
	eor	v17.16b, v29.16b, v22.16b
	eor	v6.16b, v18.16b, v19.16b
	eor	v5.16b, v18.16b, v22.16b
	eor	v24.16b, v7.16b, v4.16b
	eor	v28.16b, v29.16b, v7.16b
	eor	v25.16b, v18.16b, v16.16b
	eor	v7.16b, v17.16b, v27.16b
	eor	v18.16b, v6.16b, v16.16b
	eor	v21.16b, v5.16b, v26.16b
	eor	v20.16b, v5.16b, v24.16b
	eor	v17.16b, v30.16b, v3.16b
	eor	v23.16b, v28.16b, v19.16b
	eor	v19.16b, v25.16b, v26.16b
	eor	v16.16b, v26.16b, v3.16b
	eor	v26.16b, v27.16b, v30.16b
	eor	v4.16b, v18.16b, v22.16b
	eor	v22.16b, v25.16b, v28.16b
	and	v31.16b, v18.16b, v6.16b
	and	v8.16b, v21.16b, v7.16b
	eor	v28.16b, v5.16b, v0.16b
	eor	v0.16b, v20.16b, v17.16b
	eor	v27.16b, v19.16b, v29.16b
	eor	v9.16b, v24.16b, v17.16b
	orr	v11.16b, v21.16b, v7.16b
	and	v10.16b, v22.16b, v16.16b
	and	v12.16b, v4.16b, v20.16b
	and	v14.16b, v19.16b, v23.16b
	and	v13.16b, v28.16b, v25.16b
	and	v0.16b, v0.16b, v5.16b
	eor	v29.16b, v8.16b, v29.16b
	and	v15.16b, v27.16b, v26.16b
	eor	v31.16b, v9.16b, v31.16b
	and	v8.16b, v17.16b, v3.16b
	eor	v30.16b, v14.16b, v30.16b
	eor	v24.16b, v17.16b, v24.16b
	eor	v9.16b, v0.16b, v12.16b
	eor	v11.16b, v11.16b, v13.16b
	eor	v31.16b, v31.16b, v10.16b
	eor	v29.16b, v29.16b, v15.16b
	eor	v0.16b, v0.16b, v8.16b
	eor	v30.16b, v30.16b, v10.16b
	eor	v8.16b, v11.16b, v9.16b
	eor	v31.16b, v31.16b, v9.16b
	eor	v29.16b, v29.16b, v5.16b
	eor	v30.16b, v30.16b, v0.16b
	and	v9.16b, v31.16b, v8.16b
	eor	v0.16b, v29.16b, v0.16b
	eor	v29.16b, v31.16b, v30.16b
	and	v31.16b, v0.16b, v31.16b
	eor	v10.16b, v9.16b, v0.16b
	eor	v11.16b, v9.16b, v30.16b
	eor	v12.16b, v0.16b, v8.16b
	and	v8.16b, v30.16b, v8.16b
	and	v31.16b, v31.16b, v29.16b
	and	v10.16b, v10.16b, v29.16b
	eor	v29.16b, v9.16b, v29.16b
	and	v11.16b, v11.16b, v12.16b
	bic	v8.16b, v12.16b, v8.16b
	eor	v30.16b, v10.16b, v30.16b
	eor	v31.16b, v29.16b, v31.16b
	eor	v0.16b, v11.16b, v0.16b
	eor	v8.16b, v8.16b, v9.16b
	eor	v11.16b, v31.16b, v30.16b
	and	v25.16b, v31.16b, v25.16b
	and	v28.16b, v31.16b, v28.16b
	eor	v9.16b, v30.16b, v0.16b
	eor	v10.16b, v31.16b, v8.16b
	eor	v13.16b, v0.16b, v8.16b
	and	v14.16b, v8.16b, v6.16b
	and	v26.16b, v30.16b, v26.16b
	and	v29.16b, v11.16b, v21.16b
	eor	v12.16b, v10.16b, v9.16b
	and	v24.16b, v9.16b, v24.16b
	and	v6.16b, v13.16b, v22.16b
	and	v22.16b, v9.16b, v5.16b
	and	v17.16b, v10.16b, v17.16b
	and	v3.16b, v10.16b, v3.16b
	ldp	q9, q10, [x4, #-256]
	and	v16.16b, v13.16b, v16.16b
	and	v31.16b, v12.16b, v20.16b
	and	v20.16b, v0.16b, v23.16b
	and	v23.16b, v30.16b, v27.16b
	eor	v21.16b, v24.16b, v25.16b
	and	v0.16b, v0.16b, v19.16b
	and	v19.16b, v8.16b, v18.16b
	and	v18.16b, v11.16b, v7.16b
	and	v4.16b, v12.16b, v4.16b
	eor	v24.16b, v24.16b, v26.16b
	ldp	q11, q12, [x4, #-224]
	eor	v5.16b, v31.16b, v28.16b
	ldp	q30, q31, [x4, #-160]
	eor	v27.16b, v20.16b, v14.16b
	eor	v21.16b, v21.16b, v29.16b
	eor	v19.16b, v28.16b, v19.16b
	eor	v7.16b, v6.16b, v23.16b
	eor	v16.16b, v3.16b, v16.16b
	eor	v3.16b, v3.16b, v12.16b
	eor	v25.16b, v25.16b, v30.16b
	ldp	q30, q8, [x4, #-192]
	eor	v28.16b, v27.16b, v0.16b
	eor	v0.16b, v9.16b, v0.16b
	eor	v26.16b, v18.16b, v19.16b
	eor	v23.16b, v23.16b, v31.16b
	eor	v19.16b, v19.16b, v11.16b
	eor	v5.16b, v5.16b, v21.16b
	eor	v29.16b, v29.16b, v8.16b
	eor	v25.16b, v25.16b, v27.16b
	eor	v27.16b, v4.16b, v17.16b
	eor	v0.16b, v0.16b, v22.16b
	eor	v24.16b, v24.16b, v26.16b
	eor	v3.16b, v3.16b, v7.16b
	eor	v7.16b, v19.16b, v7.16b
	ldr	q19, [x17, l_CPI14_5@PAGEOFF]
	eor	v22.16b, v29.16b, v28.16b
	eor	v17.16b, v25.16b, v17.16b
	eor	v25.16b, v18.16b, v10.16b
	eor	v21.16b, v27.16b, v21.16b
	eor	v18.16b, v23.16b, v18.16b
	eor	v0.16b, v0.16b, v16.16b
	eor	v3.16b, v3.16b, v28.16b
	eor	v22.16b, v22.16b, v27.16b
	eor	v16.16b, v17.16b, v16.16b
	eor	v4.16b, v25.16b, v4.16b
	eor	v17.16b, v20.16b, v30.16b
	eor	v18.16b, v18.16b, v21.16b
	eor	v7.16b, v7.16b, v21.16b
	eor	v3.16b, v3.16b, v5.16b
	eor	v20.16b, v22.16b, v24.16b
	eor	v16.16b, v16.16b, v24.16b
	eor	v4.16b, v4.16b, v5.16b
	eor	v6.16b, v17.16b, v6.16b
	tbl	v17.16b, { v0.16b }, v19.16b
	tbl	v5.16b, { v18.16b }, v19.16b
	tbl	v24.16b, { v7.16b }, v19.16b
	tbl	v25.16b, { v3.16b }, v19.16b
	tbl	v22.16b, { v20.16b }, v19.16b
	tbl	v23.16b, { v16.16b }, v19.16b
	eor	v6.16b, v6.16b, v21.16b
	tbl	v21.16b, { v4.16b }, v19.16b
	eor	v17.16b, v17.16b, v0.16b
	eor	v5.16b, v5.16b, v18.16b
	eor	v24.16b, v24.16b, v7.16b
	eor	v25.16b, v25.16b, v3.16b
	tbl	v19.16b, { v6.16b }, v19.16b
	eor	v22.16b, v22.16b, v20.16b
	eor	v23.16b, v23.16b, v16.16b
	eor	v21.16b, v21.16b, v4.16b
	eor	v4.16b, v17.16b, v4.16b
	eor	v0.16b, v5.16b, v0.16b
	eor	v3.16b, v5.16b, v3.16b
	eor	v16.16b, v22.16b, v16.16b
	eor	v18.16b, v23.16b, v18.16b
	eor	v19.16b, v19.16b, v6.16b
	eor	v4.16b, v4.16b, v5.16b
	eor	v7.16b, v21.16b, v7.16b
	eor	v6.16b, v5.16b, v6.16b
	eor	v3.16b, v3.16b, v24.16b
	eor	v24.16b, v0.16b, v24.16b
	eor	v26.16b, v18.16b, v16.16b
	eor	v22.16b, v18.16b, v22.16b
	eor	v17.16b, v16.16b, v17.16b
	eor	v27.16b, v4.16b, v25.16b
	eor	v28.16b, v7.16b, v19.16b
	eor	v19.16b, v19.16b, v20.16b
	eor	v6.16b, v6.16b, v25.16b
	eor	v20.16b, v26.16b, v21.16b
	eor	v21.16b, v24.16b, v18.16b
	eor	v22.16b, v22.16b, v3.16b
	eor	v24.16b, v27.16b, v16.16b
	eor	v25.16b, v28.16b, v26.16b
	eor	v5.16b, v19.16b, v5.16b
	eor	v23.16b, v6.16b, v23.16b
	ext	v26.16b, v17.16b, v17.16b, #8
	eor	v0.16b, v0.16b, v17.16b
	ext	v27.16b, v20.16b, v20.16b, #8
	ext	v28.16b, v21.16b, v21.16b, #8
	ext	v31.16b, v22.16b, v22.16b, #8
	ext	v29.16b, v24.16b, v24.16b, #8
	ext	v30.16b, v25.16b, v25.16b, #8
	ext	v9.16b, v5.16b, v5.16b, #8
	ext	v8.16b, v23.16b, v23.16b, #8
	eor	v4.16b, v4.16b, v20.16b
	eor	v16.16b, v16.16b, v23.16b
	eor	v5.16b, v18.16b, v5.16b
	eor	v3.16b, v3.16b, v24.16b
	eor	v6.16b, v6.16b, v25.16b
	eor	v17.16b, v19.16b, v22.16b
	eor	v7.16b, v7.16b, v21.16b
	eor	v0.16b, v0.16b, v26.16b
	eor	v18.16b, v4.16b, v27.16b
	eor	v16.16b, v16.16b, v8.16b
	eor	v19.16b, v5.16b, v9.16b
	eor	v21.16b, v3.16b, v29.16b
	eor	v6.16b, v6.16b, v30.16b
	eor	v29.16b, v17.16b, v31.16b
	eor	v7.16b, v7.16b, v28.16b
	eor	v17.16b, v18.16b, v0.16b
	eor	v3.16b, v16.16b, v19.16b
	eor	v25.16b, v18.16b, v16.16b
	eor	v30.16b, v21.16b, v0.16b
	eor	v20.16b, v29.16b, v21.16b
	eor	v5.16b, v6.16b, v19.16b
	eor	v4.16b, v6.16b, v21.16b
	eor	v24.16b, v7.16b, v18.16b
	eor	v26.16b, v6.16b, v16.16b
	eor	v18.16b, v29.16b, v7.16b
	eor	v22.16b, v30.16b, v3.16b
	eor	v7.16b, v17.16b, v3.16b
	eor	v28.16b, v25.16b, v30.16b
	eor	v6.16b, v20.16b, v25.16b
	eor	v16.16b, v5.16b, v16.16b
	eor	v23.16b, v4.16b, v17.16b
	eor	v20.16b, v4.16b, v24.16b
	eor	v17.16b, v26.16b, v17.16b
	eor	v19.16b, v18.16b, v19.16b
	eor	v18.16b, v26.16b, v18.16b
	eor	v27.16b, v4.16b, v0.16b
	eor	v9.16b, v24.16b, v22.16b
	eor	v21.16b, v16.16b, v21.16b
	and	v31.16b, v16.16b, v5.16b
	and	v8.16b, v23.16b, v6.16b
	eor	v0.16b, v20.16b, v22.16b
	eor	v25.16b, v17.16b, v29.16b
	orr	v11.16b, v23.16b, v6.16b
	and	v10.16b, v18.16b, v7.16b
	and	v13.16b, v27.16b, v26.16b
	and	v14.16b, v17.16b, v19.16b
	and	v12.16b, v21.16b, v20.16b
	eor	v31.16b, v9.16b, v31.16b
	eor	v29.16b, v8.16b, v29.16b
	and	v0.16b, v0.16b, v4.16b
	and	v15.16b, v25.16b, v28.16b
	and	v8.16b, v22.16b, v3.16b
	eor	v11.16b, v11.16b, v13.16b
	eor	v30.16b, v14.16b, v30.16b
	eor	v31.16b, v31.16b, v10.16b
	eor	v9.16b, v0.16b, v12.16b
	eor	v29.16b, v29.16b, v15.16b
	eor	v0.16b, v0.16b, v8.16b
	eor	v30.16b, v30.16b, v10.16b
	eor	v8.16b, v11.16b, v9.16b
	eor	v31.16b, v31.16b, v9.16b
	eor	v29.16b, v29.16b, v4.16b
	eor	v30.16b, v30.16b, v0.16b
	and	v9.16b, v31.16b, v8.16b
	eor	v0.16b, v29.16b, v0.16b
	eor	v29.16b, v31.16b, v30.16b
	and	v31.16b, v0.16b, v31.16b
	eor	v10.16b, v9.16b, v0.16b
	eor	v11.16b, v9.16b, v30.16b
	eor	v12.16b, v0.16b, v8.16b
	and	v8.16b, v30.16b, v8.16b
	and	v31.16b, v31.16b, v29.16b
	and	v10.16b, v10.16b, v29.16b
	eor	v29.16b, v9.16b, v29.16b
	and	v11.16b, v11.16b, v12.16b
	bic	v8.16b, v12.16b, v8.16b
	eor	v30.16b, v10.16b, v30.16b
	eor	v29.16b, v29.16b, v31.16b
	eor	v0.16b, v11.16b, v0.16b
	eor	v31.16b, v8.16b, v9.16b
	eor	v9.16b, v22.16b, v24.16b
	eor	v11.16b, v29.16b, v30.16b
	and	v24.16b, v29.16b, v26.16b
	and	v25.16b, v30.16b, v25.16b
	eor	v8.16b, v30.16b, v0.16b
	eor	v10.16b, v29.16b, v31.16b
	and	v29.16b, v29.16b, v27.16b
	eor	v13.16b, v0.16b, v31.16b
	and	v27.16b, v30.16b, v28.16b
	and	v19.16b, v0.16b, v19.16b
	and	v23.16b, v11.16b, v23.16b
	and	v30.16b, v31.16b, v5.16b
	and	v28.16b, v0.16b, v17.16b
	and	v26.16b, v8.16b, v9.16b
	eor	v9.16b, v10.16b, v8.16b
	and	v22.16b, v10.16b, v22.16b
	and	v5.16b, v13.16b, v18.16b
	and	v17.16b, v11.16b, v6.16b
	and	v3.16b, v10.16b, v3.16b
	eor	v0.16b, v19.16b, v30.16b
	and	v30.16b, v13.16b, v7.16b
	eor	v12.16b, v26.16b, v24.16b
	and	v14.16b, v9.16b, v20.16b
	and	v20.16b, v9.16b, v21.16b
	and	v21.16b, v8.16b, v4.16b
	and	v4.16b, v31.16b, v16.16b
	ldr	q31, [x5]
	sub	x5, x4, #384
	eor	v26.16b, v26.16b, v27.16b
	eor	v16.16b, v5.16b, v25.16b
	ldr	q8, [x5]
	sub	x5, x4, #336
	eor	v9.16b, v12.16b, v23.16b
	eor	v12.16b, v14.16b, v29.16b
	eor	v18.16b, v20.16b, v22.16b
	eor	v7.16b, v29.16b, v4.16b
	eor	v24.16b, v24.16b, v31.16b
	eor	v29.16b, v0.16b, v28.16b
	eor	v30.16b, v3.16b, v30.16b
	eor	v6.16b, v12.16b, v9.16b
	eor	v4.16b, v18.16b, v9.16b
	ldr	q9, [x5]
	sub	x5, x4, #304
	eor	v0.16b, v24.16b, v0.16b
	eor	v31.16b, v17.16b, v7.16b
	ldr	q27, [x5]
	sub	x5, x4, #272
	eor	v3.16b, v3.16b, v9.16b
	ldr	q10, [x5]
	sub	x5, x4, #368
	ldr	q24, [x5]
	sub	x5, x4, #352
	sub	x4, x4, #320
	eor	v23.16b, v23.16b, v27.16b
	eor	v27.16b, v8.16b, v28.16b
	ldr	q28, [x5]
	eor	v25.16b, v25.16b, v10.16b
	eor	v0.16b, v0.16b, v22.16b
	ldr	q22, [x4]
	eor	v24.16b, v17.16b, v24.16b
	eor	v7.16b, v7.16b, v28.16b
	eor	v3.16b, v3.16b, v16.16b
	eor	v23.16b, v23.16b, v29.16b
	eor	v21.16b, v27.16b, v21.16b
	eor	v19.16b, v19.16b, v22.16b
	eor	v17.16b, v25.16b, v17.16b
	eor	v25.16b, v26.16b, v31.16b
	eor	v0.16b, v0.16b, v30.16b
	eor	v20.16b, v24.16b, v20.16b
	eor	v7.16b, v7.16b, v16.16b
	eor	v3.16b, v3.16b, v29.16b
	eor	v18.16b, v23.16b, v18.16b
	eor	v21.16b, v21.16b, v30.16b
	eor	v5.16b, v19.16b, v5.16b
	eor	v16.16b, v17.16b, v4.16b
	eor	v0.16b, v0.16b, v25.16b
	eor	v7.16b, v7.16b, v4.16b
	eor	v3.16b, v3.16b, v6.16b
	eor	v17.16b, v18.16b, v25.16b
	eor	v18.16b, v20.16b, v6.16b
	tbl	v19.16b, { v21.16b }, v1.16b
	tbl	v6.16b, { v16.16b }, v1.16b
	tbl	v22.16b, { v0.16b }, v1.16b
	eor	v4.16b, v5.16b, v4.16b
	tbl	v23.16b, { v7.16b }, v1.16b
	tbl	v24.16b, { v3.16b }, v1.16b
	tbl	v20.16b, { v17.16b }, v1.16b
	tbl	v5.16b, { v18.16b }, v1.16b
	eor	v19.16b, v19.16b, v21.16b
	tbl	v25.16b, { v4.16b }, v1.16b
	eor	v6.16b, v6.16b, v16.16b
	eor	v22.16b, v22.16b, v0.16b
	eor	v23.16b, v23.16b, v7.16b
	eor	v24.16b, v24.16b, v3.16b
	eor	v20.16b, v20.16b, v17.16b
	eor	v5.16b, v5.16b, v18.16b
	eor	v18.16b, v19.16b, v18.16b
	eor	v21.16b, v6.16b, v21.16b
	eor	v3.16b, v6.16b, v3.16b
	eor	v16.16b, v22.16b, v16.16b
	eor	v25.16b, v25.16b, v4.16b
	eor	v4.16b, v6.16b, v4.16b
	eor	v0.16b, v20.16b, v0.16b
	eor	v18.16b, v18.16b, v6.16b
	eor	v7.16b, v5.16b, v7.16b
	eor	v3.16b, v3.16b, v23.16b
	eor	v23.16b, v21.16b, v23.16b
	eor	v20.16b, v16.16b, v20.16b
	eor	v4.16b, v4.16b, v24.16b
	eor	v17.16b, v25.16b, v17.16b
	eor	v26.16b, v16.16b, v0.16b
	eor	v27.16b, v18.16b, v24.16b
	eor	v28.16b, v7.16b, v25.16b
	eor	v19.16b, v0.16b, v19.16b
	eor	v23.16b, v23.16b, v16.16b
	eor	v20.16b, v20.16b, v3.16b
	eor	v22.16b, v4.16b, v22.16b
	eor	v6.16b, v17.16b, v6.16b
	eor	v5.16b, v26.16b, v5.16b
	eor	v24.16b, v27.16b, v0.16b
	eor	v25.16b, v28.16b, v26.16b
	tbl	v26.16b, { v19.16b }, v2.16b
	tbl	v28.16b, { v23.16b }, v2.16b
	tbl	v31.16b, { v20.16b }, v2.16b
	tbl	v8.16b, { v22.16b }, v2.16b
	tbl	v9.16b, { v6.16b }, v2.16b
	eor	v19.16b, v21.16b, v19.16b
	tbl	v27.16b, { v5.16b }, v2.16b
	tbl	v30.16b, { v24.16b }, v2.16b
	tbl	v29.16b, { v25.16b }, v2.16b
	eor	v5.16b, v18.16b, v5.16b
	eor	v0.16b, v0.16b, v22.16b
	eor	v6.16b, v16.16b, v6.16b
	eor	v7.16b, v7.16b, v23.16b
	eor	v4.16b, v4.16b, v25.16b
	eor	v16.16b, v17.16b, v20.16b
	eor	v3.16b, v3.16b, v24.16b
	eor	v26.16b, v19.16b, v26.16b
	eor	v5.16b, v5.16b, v27.16b
	eor	v0.16b, v0.16b, v8.16b
	eor	v17.16b, v6.16b, v9.16b
	eor	v6.16b, v7.16b, v28.16b
	eor	v4.16b, v4.16b, v29.16b
	eor	v29.16b, v16.16b, v31.16b
	eor	v27.16b, v3.16b, v30.16b
	eor	v24.16b, v5.16b, v26.16b
	eor	v3.16b, v0.16b, v17.16b
	eor	v28.16b, v5.16b, v0.16b
	eor	v23.16b, v29.16b, v6.16b
	eor	v18.16b, v4.16b, v0.16b
	eor	v7.16b, v4.16b, v17.16b
	eor	v4.16b, v4.16b, v27.16b
	eor	v22.16b, v6.16b, v5.16b
	eor	v30.16b, v27.16b, v26.16b
	eor	v16.16b, v29.16b, v27.16b
	eor	v5.16b, v24.16b, v3.16b
	eor	v19.16b, v7.16b, v0.16b
	eor	v20.16b, v18.16b, v23.16b
	eor	v25.16b, v23.16b, v17.16b
	eor	v21.16b, v4.16b, v22.16b
	eor	v6.16b, v30.16b, v3.16b
	eor	v23.16b, v4.16b, v24.16b
	eor	v16.16b, v16.16b, v28.16b
	eor	v24.16b, v18.16b, v24.16b
	eor	v26.16b, v4.16b, v26.16b
	eor	v17.16b, v19.16b, v27.16b
	and	v8.16b, v19.16b, v7.16b
	eor	v28.16b, v28.16b, v30.16b
	eor	v31.16b, v21.16b, v6.16b
	eor	v9.16b, v22.16b, v6.16b
	and	v0.16b, v20.16b, v5.16b
	and	v10.16b, v23.16b, v16.16b
	eor	v27.16b, v24.16b, v29.16b
	orr	v11.16b, v23.16b, v16.16b
	and	v12.16b, v17.16b, v21.16b
	and	v13.16b, v26.16b, v18.16b
	and	v14.16b, v24.16b, v25.16b
	and	v31.16b, v31.16b, v4.16b
	eor	v8.16b, v9.16b, v8.16b
	eor	v22.16b, v6.16b, v22.16b
	and	v9.16b, v27.16b, v28.16b
	eor	v29.16b, v10.16b, v29.16b
	and	v10.16b, v6.16b, v3.16b
	eor	v11.16b, v11.16b, v13.16b
	eor	v30.16b, v14.16b, v30.16b
	eor	v12.16b, v31.16b, v12.16b
	eor	v8.16b, v8.16b, v0.16b
	eor	v29.16b, v29.16b, v9.16b
	eor	v31.16b, v31.16b, v10.16b
	eor	v0.16b, v30.16b, v0.16b
	eor	v9.16b, v11.16b, v12.16b
	eor	v30.16b, v8.16b, v12.16b
	eor	v29.16b, v29.16b, v4.16b
	eor	v0.16b, v0.16b, v31.16b
	and	v8.16b, v30.16b, v9.16b
	eor	v29.16b, v29.16b, v31.16b
	eor	v10.16b, v30.16b, v0.16b
	eor	v31.16b, v8.16b, v0.16b
	eor	v11.16b, v29.16b, v9.16b
	eor	v12.16b, v8.16b, v29.16b
	and	v30.16b, v29.16b, v30.16b
	and	v9.16b, v0.16b, v9.16b
	and	v12.16b, v12.16b, v10.16b
	and	v31.16b, v31.16b, v11.16b
	and	v30.16b, v30.16b, v10.16b
	eor	v10.16b, v8.16b, v10.16b
	bic	v9.16b, v11.16b, v9.16b
	eor	v0.16b, v12.16b, v0.16b
	eor	v29.16b, v31.16b, v29.16b
	eor	v30.16b, v10.16b, v30.16b
	eor	v31.16b, v9.16b, v8.16b
	eor	v8.16b, v0.16b, v29.16b
	and	v25.16b, v29.16b, v25.16b
	and	v28.16b, v0.16b, v28.16b
	eor	v9.16b, v30.16b, v31.16b
	eor	v10.16b, v30.16b, v0.16b
	and	v18.16b, v30.16b, v18.16b
	and	v7.16b, v31.16b, v7.16b
	eor	v12.16b, v29.16b, v31.16b
	and	v24.16b, v29.16b, v24.16b
	and	v22.16b, v8.16b, v22.16b
	and	v0.16b, v0.16b, v27.16b
	and	v26.16b, v30.16b, v26.16b
	eor	v11.16b, v9.16b, v8.16b
	and	v23.16b, v10.16b, v23.16b
	and	v19.16b, v31.16b, v19.16b
	and	v20.16b, v12.16b, v20.16b
	eor	v7.16b, v25.16b, v7.16b
	and	v16.16b, v10.16b, v16.16b
	eor	v29.16b, v22.16b, v18.16b
	and	v6.16b, v9.16b, v6.16b
	and	v5.16b, v12.16b, v5.16b
	and	v21.16b, v11.16b, v21.16b
	and	v17.16b, v11.16b, v17.16b
	eor	v19.16b, v26.16b, v19.16b
	and	v3.16b, v9.16b, v3.16b
	and	v4.16b, v8.16b, v4.16b
	eor	v22.16b, v22.16b, v28.16b
	eor	v27.16b, v29.16b, v23.16b
	eor	v29.16b, v20.16b, v0.16b
	eor	v0.16b, v16.16b, v0.16b
	eor	v21.16b, v21.16b, v26.16b
	eor	v26.16b, v7.16b, v24.16b
	eor	v7.16b, v7.16b, v18.16b
	eor	v28.16b, v16.16b, v19.16b
	eor	v5.16b, v3.16b, v5.16b
	eor	v3.16b, v29.16b, v3.16b
	eor	v19.16b, v29.16b, v19.16b
	eor	v18.16b, v21.16b, v27.16b
	eor	v21.16b, v17.16b, v6.16b
	eor	v23.16b, v26.16b, v23.16b
	eor	v6.16b, v7.16b, v6.16b
	eor	v7.16b, v20.16b, v25.16b
	eor	v25.16b, v17.16b, v16.16b
	eor	v22.16b, v22.16b, v28.16b
	eor	v20.16b, v21.16b, v27.16b
	eor	v21.16b, v23.16b, v21.16b
	eor	v23.16b, v4.16b, v24.16b
	eor	v4.16b, v3.16b, v26.16b
	eor	v24.16b, v6.16b, v5.16b
	eor	v17.16b, v19.16b, v20.16b
	eor	v16.16b, v7.16b, v20.16b
	eor	v3.16b, v0.16b, v20.16b
	eor	v6.16b, v21.16b, v22.16b
	eor	v7.16b, v25.16b, v18.16b
	eor	v4.16b, v4.16b, v18.16b
	eor	v18.16b, v23.16b, v5.16b
	eor	v5.16b, v24.16b, v22.16b
	b.ne	LBB14_5
// %bb.6:                               // %"aes_soft::soft::ciphers::planes::DecryptPlaneCipher::process_planes::<#dadbdb3fdaf0a1b1>.exit"
                                        //   in Loop: Header=BB14_1 Depth=1
	ldp	q0, q19, [x0, #64]
	cmp	x8, x3
	ldp	q1, q2, [x0]
	ldp	q20, q21, [x0, #96]
	eor	v0.16b, v0.16b, v16.16b
	eor	v6.16b, v19.16b, v6.16b
	movi	v19.16b, #85
	eor	v18.16b, v1.16b, v18.16b
	ldp	q1, q16, [x0, #32]
	eor	v2.16b, v2.16b, v7.16b
	eor	v5.16b, v20.16b, v5.16b
	eor	v20.16b, v21.16b, v3.16b
	eor	v7.16b, v1.16b, v17.16b
	ushr	v1.16b, v18.16b, #1
	ushr	v17.16b, v0.16b, #1
	eor	v16.16b, v16.16b, v4.16b
	ushr	v4.16b, v5.16b, #1
	ushr	v3.16b, v7.16b, #1
	eor	v1.16b, v2.16b, v1.16b
	eor	v17.16b, v6.16b, v17.16b
	eor	v4.16b, v20.16b, v4.16b
	eor	v3.16b, v16.16b, v3.16b
	and	v1.16b, v1.16b, v19.16b
	and	v17.16b, v17.16b, v19.16b
	and	v21.16b, v3.16b, v19.16b
	and	v19.16b, v4.16b, v19.16b
	add	v3.16b, v1.16b, v1.16b
	add	v22.16b, v17.16b, v17.16b
	eor	v1.16b, v1.16b, v2.16b
	eor	v2.16b, v17.16b, v6.16b
	add	v23.16b, v21.16b, v21.16b
	add	v24.16b, v19.16b, v19.16b
	eor	v4.16b, v3.16b, v18.16b
	eor	v3.16b, v22.16b, v0.16b
	eor	v0.16b, v21.16b, v16.16b
	eor	v18.16b, v19.16b, v20.16b
	ushr	v19.16b, v2.16b, #2
	movi	v20.16b, #51
	eor	v6.16b, v23.16b, v7.16b
	eor	v5.16b, v24.16b, v5.16b
	ushr	v7.16b, v1.16b, #2
	ushr	v16.16b, v4.16b, #2
	ushr	v17.16b, v3.16b, #2
	eor	v19.16b, v18.16b, v19.16b
	eor	v7.16b, v0.16b, v7.16b
	eor	v16.16b, v6.16b, v16.16b
	eor	v17.16b, v5.16b, v17.16b
	and	v19.16b, v19.16b, v20.16b
	and	v7.16b, v7.16b, v20.16b
	and	v16.16b, v16.16b, v20.16b
	and	v17.16b, v17.16b, v20.16b
	movi	v20.16b, #15
	eor	v18.16b, v19.16b, v18.16b
	shl	v19.16b, v19.16b, #2
	eor	v0.16b, v7.16b, v0.16b
	shl	v7.16b, v7.16b, #2
	eor	v6.16b, v16.16b, v6.16b
	eor	v5.16b, v17.16b, v5.16b
	shl	v16.16b, v16.16b, #2
	shl	v17.16b, v17.16b, #2
	eor	v2.16b, v19.16b, v2.16b
	ushr	v21.16b, v0.16b, #4
	eor	v1.16b, v7.16b, v1.16b
	ushr	v22.16b, v6.16b, #4
	and	v23.16b, v5.16b, v20.16b
	eor	v4.16b, v16.16b, v4.16b
	and	v16.16b, v18.16b, v20.16b
	eor	v3.16b, v17.16b, v3.16b
	eor	v7.16b, v23.16b, v22.16b
	ushr	v17.16b, v4.16b, #4
	eor	v16.16b, v16.16b, v21.16b
	and	v19.16b, v3.16b, v20.16b
	ushr	v21.16b, v1.16b, #4
	and	v20.16b, v2.16b, v20.16b
	shl	v22.16b, v7.16b, #4
	eor	v5.16b, v7.16b, v5.16b
	shl	v23.16b, v16.16b, #4
	eor	v17.16b, v19.16b, v17.16b
	eor	v7.16b, v16.16b, v18.16b
	eor	v19.16b, v20.16b, v21.16b
	eor	v6.16b, v22.16b, v6.16b
	eor	v0.16b, v23.16b, v0.16b
	eor	v3.16b, v17.16b, v3.16b
	shl	v20.16b, v17.16b, #4
	eor	v2.16b, v19.16b, v2.16b
	shl	v21.16b, v19.16b, #4
	ldr	q17, [sp]                       // 16-byte Reload
	tbl	v6.16b, { v6.16b }, v17.16b
	tbl	v0.16b, { v0.16b }, v17.16b
	tbl	v3.16b, { v3.16b }, v17.16b
	tbl	v2.16b, { v2.16b }, v17.16b
	eor	v4.16b, v20.16b, v4.16b
	eor	v1.16b, v21.16b, v1.16b
	tbl	v4.16b, { v4.16b }, v17.16b
	stp	q6, q0, [x15, #32]
	tbl	v1.16b, { v1.16b }, v17.16b
	tbl	v0.16b, { v5.16b }, v17.16b
	stp	q3, q2, [x15, #64]
	tbl	v3.16b, { v7.16b }, v17.16b
	stp	q4, q1, [x15]
	stp	q0, q3, [x15, #96]
	b.lo	LBB14_1
// %bb.7:                               // %"aes_soft::soft::blocks::slices::process_batches_under::<#7a29a06501f6c419>.exit"
	ldp	d9, d8, [sp, #64]               // 16-byte Folded Reload
	ldp	d11, d10, [sp, #48]             // 16-byte Folded Reload
	ldp	d13, d12, [sp, #32]             // 16-byte Folded Reload
	ldp	d15, d14, [sp, #16]             // 16-byte Folded Reload
	add	sp, sp, #80
	ret
                                        // -- End function
	.section	__TEXT,__text,regular,pure_instructions
	.p2align	2                               // -- Begin function aes_soft::soft::blocks::slices::process_batches_outlined::<#271f1d06ba461252>
"aes_soft::soft::blocks::slices::process_batches_outlined::<#271f1d06ba461252>": // @"aes_soft::soft::blocks::slices::process_batches_outlined::<#271f1d06ba461252>"
// %bb.0:                               // %start
	cbz	x3, LBB15_4
// %bb.1:                               // %join.5.i.lr.ph
	sub	sp, sp, #64
	lsr	x8, x1, #3
	stp	x22, x21, [sp, #32]             // 16-byte Folded Spill
	mov	x21, x0
	stp	x20, x19, [sp, #48]             // 16-byte Folded Spill
	mov	x19, x3
	mov	x20, x2
	sub	x22, x8, #1
	stp	x29, x30, [sp, #16]             // 16-byte Folded Spill
	add	x29, sp, #16
LBB15_2:                               // %join.5.i
                                        // =>This Inner Loop Header: Depth=1
	mov	x0, sp
	mov	x1, x21
	mov	x2, x22
	mov	x3, x20
	stp	xzr, xzr, [sp]
	bl	"aes_soft::soft::ciphers::planes::process_outlined::<#5fb0373690586519>"
	ldr	q0, [sp]
	subs	x19, x19, #1
	str	q0, [x20], #16
	b.ne	LBB15_2
// %bb.3:
	ldp	x20, x19, [sp, #48]             // 16-byte Folded Reload
	ldp	x22, x21, [sp, #32]             // 16-byte Folded Reload
	ldp	x29, x30, [sp, #16]             // 16-byte Folded Reload
	add	sp, sp, #64
LBB15_4:                               // %"aes_soft::soft::blocks::slices::process_batches_under::<#271f1d06ba461252>.exit"
	ret
                                        // -- End function
	.section	__TEXT,__const
	.p2align	4, 0x0                          // -- Begin function aes_soft::soft::ciphers::planes::process_outlined::<#5fb0373690586519>
l_CPI16_0:
	.byte	0                               // 0x0
	.byte	4                               // 0x4
	.byte	8                               // 0x8
	.byte	12                              // 0xc
	.byte	1                               // 0x1
	.byte	5                               // 0x5
	.byte	9                               // 0x9
	.byte	13                              // 0xd
	.byte	2                               // 0x2
	.byte	6                               // 0x6
	.byte	10                              // 0xa
	.byte	14                              // 0xe
	.byte	3                               // 0x3
	.byte	7                               // 0x7
	.byte	11                              // 0xb
	.byte	15                              // 0xf
l_CPI16_1:
	.byte	1                               // 0x1
	.byte	2                               // 0x2
	.byte	4                               // 0x4
	.byte	8                               // 0x8
	.byte	16                              // 0x10
	.byte	32                              // 0x20
	.byte	64                              // 0x40
	.byte	128                             // 0x80
	.byte	1                               // 0x1
	.byte	2                               // 0x2
	.byte	4                               // 0x4
	.byte	8                               // 0x8
	.byte	16                              // 0x10
	.byte	32                              // 0x20
	.byte	64                              // 0x40
	.byte	128                             // 0x80
l_CPI16_2:
	.byte	0                               // 0x0
	.byte	2                               // 0x2
	.byte	4                               // 0x4
	.byte	6                               // 0x6
	.byte	8                               // 0x8
	.byte	10                              // 0xa
	.byte	12                              // 0xc
	.byte	14                              // 0xe
	.byte	1                               // 0x1
	.byte	3                               // 0x3
	.byte	5                               // 0x5
	.byte	7                               // 0x7
	.byte	9                               // 0x9
	.byte	11                              // 0xb
	.byte	13                              // 0xd
	.byte	15                              // 0xf
l_CPI16_3:
	.xword	32                              // 0x20
	.xword	48                              // 0x30
	.section	__TEXT,__const
	.p2align	3, 0x0
l_CPI16_4:
	.byte	1                               // 0x1
	.byte	9                               // 0x9
	.byte	2                               // 0x2
	.byte	10                              // 0xa
	.byte	3                               // 0x3
	.byte	11                              // 0xb
	.byte	4                               // 0x4
	.byte	12                              // 0xc
	.section	__TEXT,__text,regular,pure_instructions
	.p2align	2
"aes_soft::soft::ciphers::planes::process_outlined::<#5fb0373690586519>": // @"aes_soft::soft::ciphers::planes::process_outlined::<#5fb0373690586519>"
// %bb.0:                               // %start
	sub	sp, sp, #128
	adrp	x8, l_CPI16_0@PAGE
	ldr	q0, [x3]
	movi	v2.16b, #1
	ldr	q1, [x8, l_CPI16_0@PAGEOFF]
	movi	v3.16b, #2
	movi	v4.16b, #8
	movi	v5.16b, #16
	movi	v6.16b, #32
	movi	v7.16b, #64
	tbl	v1.16b, { v0.16b }, v1.16b
	movi	v0.16b, #4
	adrp	x8, l_CPI16_1@PAGE
	add	x12, x1, x2, lsl #4
	stp	x20, x19, [sp, #112]            // 16-byte Folded Spill
	sub	x10, x2, #2
	stp	x22, x21, [sp, #96]             // 16-byte Folded Spill
	ldrh	w17, [x12, #2]
	ldrh	w3, [x12, #4]
	ldrh	w4, [x12, #6]
	and	v2.16b, v1.16b, v2.16b
	and	v3.16b, v1.16b, v3.16b
	and	v16.16b, v1.16b, v0.16b
	and	v4.16b, v1.16b, v4.16b
	and	v5.16b, v1.16b, v5.16b
	and	v6.16b, v1.16b, v6.16b
	and	v7.16b, v1.16b, v7.16b
	ldr	q0, [x8, l_CPI16_1@PAGEOFF]
	cmlt	v1.16b, v1.16b, #0
	cmeq	v2.16b, v2.16b, #0
	cmeq	v3.16b, v3.16b, #0
	cmeq	v16.16b, v16.16b, #0
	cmeq	v4.16b, v4.16b, #0
	cmeq	v5.16b, v5.16b, #0
	cmeq	v6.16b, v6.16b, #0
	cmeq	v7.16b, v7.16b, #0
	and	v1.16b, v1.16b, v0.16b
	ldrh	w5, [x12, #8]
	bic	v2.16b, v0.16b, v2.16b
	bic	v3.16b, v0.16b, v3.16b
	bic	v16.16b, v0.16b, v16.16b
	bic	v4.16b, v0.16b, v4.16b
	bic	v5.16b, v0.16b, v5.16b
	bic	v6.16b, v0.16b, v6.16b
	bic	v7.16b, v0.16b, v7.16b
	addp	v1.16b, v1.16b, v1.16b
	ldrh	w19, [x12, #10]
	addp	v2.16b, v2.16b, v2.16b
	addp	v3.16b, v3.16b, v3.16b
	ldrh	w20, [x12, #12]
	addp	v16.16b, v16.16b, v16.16b
	addp	v4.16b, v4.16b, v4.16b
	ldrh	w16, [x12]
	addp	v5.16b, v5.16b, v5.16b
	addp	v6.16b, v6.16b, v6.16b
	ldrh	w21, [x12, #14]
	addp	v2.16b, v2.16b, v2.16b
	addp	v3.16b, v3.16b, v3.16b
	stp	x26, x25, [sp, #64]             // 16-byte Folded Spill
	addp	v7.16b, v7.16b, v7.16b
	addp	v16.16b, v16.16b, v16.16b
	stp	x24, x23, [sp, #80]             // 16-byte Folded Spill
	addp	v4.16b, v4.16b, v4.16b
	addp	v5.16b, v5.16b, v5.16b
	stp	x28, x27, [sp, #48]             // 16-byte Folded Spill
	addp	v2.16b, v2.16b, v2.16b
	addp	v3.16b, v3.16b, v3.16b
	stp	x0, x1, [sp]                    // 16-byte Folded Spill
	addp	v6.16b, v6.16b, v6.16b
	addp	v7.16b, v7.16b, v7.16b
	addp	v1.16b, v1.16b, v1.16b
	addp	v16.16b, v16.16b, v16.16b
	str	x30, [sp, #32]                  // 8-byte Spill
	addp	v4.16b, v4.16b, v4.16b
	addp	v5.16b, v5.16b, v5.16b
	umov	w8, v2.h[0]
	umov	w11, v3.h[0]
	addp	v2.16b, v6.16b, v6.16b
	addp	v3.16b, v7.16b, v7.16b
	addp	v1.16b, v1.16b, v1.16b
	umov	w9, v16.h[0]
	umov	w13, v4.h[0]
	umov	w14, v5.h[0]
	eor	w8, w16, w8
	umov	w15, v2.h[0]
	umov	w6, v3.h[0]
	eor	w22, w17, w11
	umov	w7, v1.h[0]
	eor	w23, w3, w9
	eor	w26, w22, w8
	eor	w24, w4, w13
	eor	w13, w5, w14
	eor	w25, w19, w15
	eor	w14, w20, w6
	eor	w4, w13, w24
	eor	w15, w21, w7
	eor	w16, w25, w23
	eor	w3, w25, w24
	eor	w27, w14, w22
	eor	w9, w15, w14
	eor	w17, w14, w13
	eor	w6, w3, w27
	eor	w3, w15, w16
	eor	w15, w15, w13
	eor	w14, w15, w14
	eor	w19, w23, w22
	eor	w20, w4, w26
	eor	w13, w14, w24
	eor	w24, w24, w8
	eor	w7, w4, w19
	eor	w5, w9, w24
	eor	w21, w4, w8
	eor	w22, w17, w26
	eor	w1, w9, w26
	orr	w23, w6, w20
	eor	w8, w5, w7
	and	w0, w17, w21
	and	w26, w22, w3
	eor	w16, w17, w16
	and	w30, w14, w15
	str	w9, [sp, #16]                   // 4-byte Spill
	and	w11, w13, w7
	and	w9, w5, w9
	and	w8, w8, w4
	eor	w0, w23, w0
	eor	w23, w27, w24
	eor	w26, w26, w24
	eor	w24, w19, w5
	and	w28, w1, w16
	eor	w11, w8, w11
	eor	w9, w8, w9
	and	w8, w6, w20
	eor	w27, w24, w30
	eor	w24, w22, w25
	eor	w30, w26, w28
	and	w26, w24, w23
	eor	w8, w8, w4
	eor	w28, w27, w28
	eor	w8, w8, w26
	and	x26, x10, #0xc
	str	x26, [sp, #40]                  // 8-byte Spill
	eor	w26, w0, w11
	eor	w27, w30, w9
	eor	w30, w28, w11
	eor	w8, w8, w25
	eor	w19, w5, w19
	and	w25, w30, w26
	eor	w28, w8, w9
	sub	x9, x2, #2
	ldr	x8, [sp, #40]                   // 8-byte Reload
	str	x9, [sp, #24]                   // 8-byte Spill
	eor	w9, w30, w27
	and	w11, w30, w28
	eor	w0, w25, w28
	ldr	w10, [sp, #16]                  // 4-byte Reload
	orr	x8, x8, #0x2
	and	w11, w11, w9
	and	w0, w0, w9
	eor	w9, w25, w9
	cmp	x8, x2
	eor	w8, w25, w27
	eor	w2, w28, w26
	eor	w9, w9, w11
	eor	w11, w0, w27
	and	w0, w27, w26
	and	w8, w8, w2
	eor	w26, w11, w9
	bic	w0, w2, w0
	eor	w8, w8, w28
	and	w20, w26, w20
	eor	w0, w0, w25
	and	w2, w11, w23
	and	w23, w11, w24
	eor	w11, w11, w8
	and	w17, w9, w17
	and	w3, w8, w3
	and	w22, w8, w22
	and	w21, w9, w21
	eor	w9, w9, w0
	eor	w8, w8, w0
	and	w4, w11, w4
	and	w19, w11, w19
	and	w15, w0, w15
	eor	w11, w11, w9
	and	w16, w8, w16
	and	w8, w8, w1
	eor	w1, w20, w17
	and	w14, w0, w14
	and	w0, w11, w7
	and	w11, w11, w13
	eor	w13, w1, w19
	and	w1, w9, w5
	eor	w5, w16, w23
	eor	w15, w3, w15
	and	w9, w9, w10
	and	w6, w26, w6
	eor	w0, w0, w21
	eor	w16, w16, w3
	eor	w3, w15, w22
	eor	w8, w8, w9
	eor	w9, w5, w9
	eor	w14, w21, w14
	eor	w7, w6, w2
	eor	w21, w6, w23
	eor	w0, w0, w13
	eor	w6, w11, w6
	eor	w11, w11, w1
	eor	w9, w9, w3
	eor	w4, w4, w22
	eor	w23, w11, w13
	eor	w13, w5, w14
	eor	w5, w9, w0
	ldr	x9, [sp, #24]                   // 8-byte Reload
	eor	w14, w14, w19
	eor	w19, w3, w20
	eor	w14, w7, w14
	eor	w7, w19, w11
	eor	w11, w15, w17
	lsr	x9, x9, #2
	eor	w11, w11, w1
	eor	w2, w13, w23
	eor	w13, w16, w23
	eor	w16, w21, w23
	eor	w15, w6, w0
	str	x9, [sp, #16]                   // 8-byte Spill
	eor	w9, w11, w8
	eor	w11, w4, w8
	eor	w4, w7, w14
	eor	w3, w9, w14
	b.hs	LBB16_2
// %bb.1:                               // %then.3.i
	ldurh	w8, [x12, #-16]
	ldurh	w9, [x12, #-14]
	ldurh	w17, [x12, #-12]
	ldurh	w0, [x12, #-10]
	ldurh	w1, [x12, #-8]
	ldurh	w6, [x12, #-6]
	eor	w14, w8, w11
	eor	w15, w9, w15
	eor	w11, w17, w2
	ldurh	w8, [x12, #-4]
	eor	w2, w0, w5
	eor	w13, w1, w13
	eor	w10, w6, w4
	ubfx	w0, w14, #3, #13
	ubfx	w1, w15, #3, #13
	eor	w4, w8, w3
	ubfx	w8, w15, #7, #9
	ubfx	w17, w14, #7, #9
	ldurh	w9, [x12, #-2]
	orr	w0, w0, w14, lsl #13
	orr	w1, w1, w15, lsl #13
	orr	w8, w8, w15, lsl #9
	orr	w6, w17, w14, lsl #9
	mov	w17, #4369                      // =0x1111
	mov	w3, #-4370                      // =0xffffeeee
	eor	w5, w9, w16
	ubfx	w7, w13, #7, #9
	and	w16, w0, w3
	and	w8, w8, w17
	and	w0, w1, w3
	ubfx	w1, w11, #7, #9
	and	w9, w6, w17
	orr	w6, w8, w0
	ubfx	w8, w11, #3, #13
	orr	w16, w9, w16
	ubfx	w0, w2, #7, #9
	orr	w9, w1, w11, lsl #9
	ubfx	w1, w2, #3, #13
	ubfx	w19, w13, #3, #13
	orr	w8, w8, w11, lsl #13
	orr	w0, w0, w2, lsl #9
	orr	w7, w7, w13, lsl #9
	orr	w1, w1, w2, lsl #13
	orr	w19, w19, w13, lsl #13
	and	w9, w9, w17
	and	w8, w8, w3
	ubfx	w20, w4, #3, #13
	ubfx	w21, w5, #7, #9
	orr	w8, w9, w8
	and	w9, w0, w17
	and	w0, w1, w3
	and	w1, w7, w17
	and	w7, w19, w3
	ubfx	w19, w10, #7, #9
	orr	w9, w9, w0
	orr	w0, w1, w7
	ubfx	w1, w10, #3, #13
	orr	w7, w19, w10, lsl #9
	ubfx	w19, w4, #7, #9
	ubfx	w22, w5, #3, #13
	orr	w1, w1, w10, lsl #13
	orr	w20, w20, w4, lsl #13
	orr	w21, w21, w5, lsl #9
	orr	w19, w19, w4, lsl #9
	orr	w22, w22, w5, lsl #13
	and	w7, w7, w17
	and	w1, w1, w3
	eor	w6, w6, w15
	eor	w8, w8, w11
	orr	w1, w7, w1
	and	w7, w19, w17
	and	w19, w20, w3
	and	w17, w21, w17
	and	w3, w22, w3
	orr	w7, w7, w19
	orr	w17, w17, w3
	eor	w19, w16, w14
	eor	w9, w9, w2
	eor	w22, w7, w4
	eor	w23, w17, w5
	eor	w0, w0, w13
	eor	w1, w1, w10
	eor	w17, w23, w14
	eor	w14, w19, w15
	eor	w15, w8, w2
	eor	w2, w6, w11
	eor	w11, w9, w13
	eor	w13, w22, w5
	eor	w16, w15, w23
	eor	w15, w1, w4
	eor	w8, w13, w8
	eor	w3, w14, w23
	eor	w21, w15, w19
	eor	w19, w8, w17
	eor	w8, w15, w9
	eor	w14, w0, w10
	eor	w10, w13, w15
	eor	w9, w0, w2
	eor	w20, w8, w3
	eor	w8, w13, w1
	eor	w7, w10, w6
	eor	w6, w9, w10
	eor	w5, w8, w16
	ubfx	w8, w21, #10, #6
	ubfx	w9, w21, #6, #10
	ubfx	w0, w7, #10, #6
	ubfx	w1, w7, #6, #10
	eor	w4, w11, w23
	orr	w8, w8, w21, lsl #6
	orr	w9, w9, w21, lsl #10
	mov	w10, #13107                     // =0x3333
	mov	w11, #-13108                    // =0xffffcccc
	orr	w0, w0, w7, lsl #6
	orr	w1, w1, w7, lsl #10
	and	w8, w8, w10
	and	w9, w9, w11
	ubfx	w26, w19, #10, #6
	and	w0, w0, w10
	and	w1, w1, w11
	orr	w25, w8, w9
	ubfx	w8, w19, #6, #10
	orr	w24, w0, w1
	orr	w9, w26, w19, lsl #6
	ubfx	w0, w20, #10, #6
	ubfx	w1, w20, #6, #10
	ubfx	w26, w6, #10, #6
	ubfx	w27, w6, #6, #10
	orr	w8, w8, w19, lsl #10
	and	w9, w9, w10
	orr	w0, w0, w20, lsl #6
	orr	w1, w1, w20, lsl #10
	orr	w26, w26, w6, lsl #6
	orr	w27, w27, w6, lsl #10
	and	w8, w8, w11
	eor	w22, w4, w22
	orr	w8, w9, w8
	and	w9, w0, w10
	and	w0, w1, w11
	and	w1, w26, w10
	and	w26, w27, w11
	ubfx	w27, w5, #10, #6
	eor	w23, w23, w14
	orr	w9, w9, w0
	orr	w0, w1, w26
	ubfx	w1, w5, #6, #10
	orr	w26, w27, w5, lsl #6
	ubfx	w27, w22, #10, #6
	ubfx	w28, w22, #6, #10
	ubfx	w30, w23, #10, #6
	ubfx	w12, w23, #6, #10
	orr	w1, w1, w5, lsl #10
	orr	w27, w27, w22, lsl #6
	and	w26, w26, w10
	orr	w28, w28, w22, lsl #10
	orr	w30, w30, w23, lsl #6
	orr	w12, w12, w23, lsl #10
	and	w1, w1, w11
	eor	w16, w16, w20
	eor	w17, w21, w17
	orr	w1, w26, w1
	and	w26, w27, w10
	and	w27, w28, w11
	and	w28, w30, w10
	and	w12, w12, w11
	eor	w9, w16, w9
	orr	w12, w28, w12
	eor	w16, w4, w6
	eor	w13, w13, w23
	orr	w21, w26, w27
	eor	w25, w17, w25
	eor	w17, w3, w7
	eor	w2, w2, w19
	eor	w15, w15, w22
	eor	w12, w13, w12
	eor	w0, w16, w0
	eor	w24, w17, w24
	eor	w8, w2, w8
	eor	w14, w14, w5
	eor	w17, w15, w21
	eor	w2, w0, w12
	eor	w6, w14, w1
	eor	w13, w17, w12
	eor	w26, w17, w24
	eor	w7, w0, w17
	eor	w17, w2, w17
	eor	w1, w24, w25
	eor	w4, w6, w8
	eor	w15, w6, w9
	eor	w16, w17, w9
	eor	w20, w0, w9
	eor	w22, w8, w24
	eor	w9, w9, w25
	eor	w19, w4, w12
	eor	w5, w20, w22
	eor	w21, w9, w13
	eor	w24, w7, w1
	eor	w14, w13, w1
	eor	w15, w15, w26
	eor	w3, w20, w1
	eor	w23, w20, w25
	eor	w25, w9, w26
	eor	w1, w5, w21
	and	w26, w24, w19
	eor	w4, w7, w4
	and	w12, w17, w2
	orr	w0, w3, w15
	and	w27, w16, w5
	and	w28, w23, w7
	and	w30, w21, w13
	and	w1, w1, w20
	eor	w9, w26, w9
	eor	w26, w22, w21
	and	w8, w4, w14
	eor	w27, w1, w27
	eor	w1, w1, w30
	eor	w30, w24, w6
	eor	w0, w28, w0
	and	w28, w3, w15
	eor	w12, w26, w12
	and	w26, w30, w25
	eor	w12, w12, w8
	eor	w6, w28, w6
	eor	w8, w9, w8
	eor	w9, w12, w27
	eor	w12, w6, w26
	eor	w0, w0, w27
	eor	w12, w12, w20
	eor	w8, w8, w1
	and	w26, w9, w0
	eor	w12, w12, w1
	eor	w1, w9, w8
	eor	w27, w26, w12
	and	w9, w12, w9
	eor	w6, w26, w8
	and	w27, w27, w1
	and	w9, w9, w1
	eor	w1, w26, w1
	eor	w28, w12, w0
	eor	w27, w27, w8
	and	w8, w8, w0
	eor	w9, w1, w9
	and	w6, w6, w28
	and	w8, w8, w28
	eor	w26, w26, w28
	eor	w1, w9, w27
	eor	w12, w6, w12
	eor	w8, w26, w8
	and	w6, w1, w3
	and	w15, w1, w15
	and	w0, w27, w25
	eor	w1, w27, w12
	eor	w25, w21, w22
	and	w7, w9, w7
	and	w23, w9, w23
	eor	w9, w9, w8
	and	w22, w1, w20
	and	w25, w1, w25
	and	w19, w12, w19
	and	w24, w12, w24
	eor	w12, w8, w12
	eor	w1, w9, w1
	and	w3, w27, w30
	eor	w27, w25, w7
	and	w26, w8, w2
	and	w2, w12, w4
	and	w4, w1, w5
	eor	w20, w15, w0
	eor	w0, w27, w6
	and	w12, w12, w14
	eor	w14, w4, w23
	and	w16, w1, w16
	eor	w1, w14, w0
	ldr	x14, [sp, #8]                   // 8-byte Reload
	ldr	x4, [sp, #24]                   // 8-byte Reload
	and	w21, w9, w21
	and	w9, w9, w13
	and	w8, w8, w17
	eor	w5, w12, w9
	eor	w27, w16, w21
	add	x14, x14, x4, lsl #4
	eor	w8, w8, w23
	eor	w23, w26, w19
	eor	w28, w23, w24
	eor	w17, w2, w3
	eor	w25, w8, w25
	ldrh	w13, [x14]
	ldrh	w26, [x14, #2]
	eor	w8, w27, w8
	eor	w4, w27, w0
	ldrh	w30, [x14, #14]
	eor	w12, w13, w24
	ldrh	w13, [x14, #4]
	eor	w24, w15, w26
	eor	w12, w12, w22
	ldrh	w22, [x14, #6]
	eor	w16, w24, w16
	ldrh	w24, [x14, #8]
	eor	w13, w0, w13
	ldrh	w0, [x14, #10]
	eor	w22, w9, w22
	eor	w9, w12, w5
	eor	w8, w13, w8
	eor	w12, w22, w17
	eor	w13, w8, w17
	eor	w8, w19, w24
	eor	w12, w12, w28
	ldrh	w26, [x14, #12]
	eor	w14, w16, w1
	eor	w16, w12, w1
	eor	w8, w8, w2
	eor	w12, w20, w0
	eor	w17, w25, w6
	eor	w2, w8, w4
	ubfx	w0, w9, #6, #10
	eor	w8, w12, w17
	eor	w12, w28, w27
	ubfx	w1, w9, #2, #14
	eor	w17, w8, w12
	eor	w12, w25, w7
	ubfx	w6, w14, #6, #10
	ubfx	w7, w14, #2, #14
	eor	w8, w20, w26
	orr	w0, w0, w9, lsl #10
	eor	w8, w8, w12
	eor	w12, w23, w21
	orr	w1, w1, w9, lsl #14
	orr	w6, w6, w14, lsl #10
	orr	w7, w7, w14, lsl #14
	eor	w12, w12, w5
	eor	w5, w3, w30
	eor	w3, w8, w12
	and	w12, w0, w10
	eor	w8, w5, w15
	and	w0, w1, w11
	and	w1, w6, w10
	and	w5, w7, w11
	eor	w15, w8, w4
	orr	w4, w12, w0
	orr	w5, w1, w5
	ubfx	w8, w13, #6, #10
	ubfx	w12, w13, #2, #14
	ubfx	w0, w16, #6, #10
	ubfx	w1, w16, #2, #14
	ubfx	w6, w2, #6, #10
	ubfx	w7, w2, #2, #14
	orr	w8, w8, w13, lsl #10
	orr	w12, w12, w13, lsl #14
	orr	w0, w0, w16, lsl #10
	orr	w1, w1, w16, lsl #14
	orr	w6, w6, w2, lsl #10
	orr	w7, w7, w2, lsl #14
	and	w8, w8, w10
	and	w12, w12, w11
	and	w0, w0, w10
	and	w1, w1, w11
	and	w6, w6, w10
	and	w7, w7, w11
	orr	w8, w8, w12
	orr	w12, w0, w1
	orr	w0, w6, w7
	ubfx	w1, w17, #6, #10
	ubfx	w6, w17, #2, #14
	ubfx	w7, w3, #6, #10
	ubfx	w19, w3, #2, #14
	ubfx	w20, w15, #6, #10
	ubfx	w21, w15, #2, #14
	orr	w1, w1, w17, lsl #10
	orr	w6, w6, w17, lsl #14
	orr	w7, w7, w3, lsl #10
	orr	w19, w19, w3, lsl #14
	orr	w20, w20, w15, lsl #10
	orr	w21, w21, w15, lsl #14
	and	w1, w1, w10
	and	w6, w6, w11
	and	w7, w7, w10
	and	w19, w19, w11
	and	w10, w20, w10
	and	w11, w21, w11
	orr	w1, w1, w6
	orr	w6, w7, w19
	orr	w10, w10, w11
	eor	w11, w4, w9
	eor	w4, w5, w14
	eor	w1, w1, w17
	eor	w5, w6, w3
	eor	w8, w8, w13
	eor	w0, w0, w2
	eor	w10, w10, w15
	eor	w14, w11, w14
	eor	w13, w4, w13
	eor	w3, w1, w3
	eor	w15, w5, w15
	eor	w12, w12, w16
	eor	w14, w14, w10
	eor	w2, w10, w2
	eor	w17, w0, w17
	eor	w6, w15, w3
	eor	w11, w3, w11
	eor	w0, w13, w0
	eor	w9, w10, w9
	eor	w16, w10, w16
	eor	w2, w2, w12
	eor	w4, w6, w4
	eor	w12, w14, w12
	eor	w0, w0, w6
	rev	w6, w11
	eor	w16, w16, w8
	eor	w8, w8, w9
	eor	w12, w12, w3
	eor	w9, w9, w6, lsr #16
	eor	w8, w8, w15
	rev	w20, w12
	eor	w1, w1, w15
	eor	w10, w17, w10
	rev	w19, w8
	eor	w24, w9, w11
	eor	w11, w16, w20, lsr #16
	eor	w1, w16, w1
	eor	w5, w5, w2
	rev	w21, w0
	rev	w23, w10
	eor	w9, w13, w19, lsr #16
	rev	w7, w4
	rev	w22, w1
	rev	w6, w5
	eor	w10, w10, w23, lsr #16
	eor	w12, w11, w12
	eor	w11, w2, w21, lsr #16
	eor	w14, w14, w7, lsr #16
	eor	w13, w3, w6, lsr #16
	eor	w8, w9, w8
	eor	w9, w17, w22, lsr #16
	eor	w15, w10, w15
	eor	w0, w11, w0
	eor	w16, w14, w4
	eor	w14, w13, w5
	eor	w13, w0, w15
	eor	w22, w9, w1
	eor	w9, w14, w15
	eor	w21, w16, w14
	eor	w11, w22, w12
	eor	w17, w0, w14
	eor	w14, w13, w14
	eor	w1, w16, w24
	eor	w5, w22, w8
	eor	w4, w11, w21
	eor	w11, w14, w12
	eor	w3, w0, w12
	eor	w6, w16, w8
	eor	w12, w12, w24
	eor	w2, w5, w15
	eor	w19, w3, w1
	eor	w15, w17, w5
	eor	w16, w3, w6
	eor	w7, w3, w24
	eor	w5, w12, w9
	eor	w10, w1, w9
	orr	w25, w19, w4
	and	w24, w7, w17
	eor	w20, w17, w1
	eor	w1, w16, w5
	and	w0, w14, w13
	and	w23, w11, w16
	and	w26, w20, w2
	and	w1, w1, w3
	eor	w24, w24, w25
	eor	w25, w5, w6
	and	w8, w15, w10
	eor	w21, w21, w12
	eor	w28, w1, w23
	eor	w23, w20, w22
	eor	w12, w26, w12
	and	w26, w19, w4
	eor	w0, w25, w0
	and	w25, w23, w21
	eor	w22, w26, w22
	eor	w0, w0, w8
	and	w27, w5, w9
	eor	w8, w12, w8
	eor	w12, w0, w28
	eor	w0, w22, w25
	eor	w1, w1, w27
	eor	w24, w24, w28
	eor	w0, w0, w3
	eor	w8, w8, w1
	and	w22, w12, w24
	eor	w0, w0, w1
	eor	w26, w12, w8
	and	w12, w0, w12
	eor	w27, w22, w0
	eor	w25, w22, w8
	and	w12, w12, w26
	and	w27, w27, w26
	eor	w26, w22, w26
	eor	w1, w0, w24
	eor	w12, w26, w12
	eor	w26, w27, w8
	and	w8, w8, w24
	and	w25, w25, w1
	eor	w24, w12, w26
	and	w8, w8, w1
	eor	w1, w22, w1
	eor	w0, w25, w0
	eor	w8, w1, w8
	and	w1, w26, w21
	and	w21, w26, w23
	eor	w22, w26, w0
	eor	w6, w6, w5
	and	w17, w12, w17
	and	w7, w12, w7
	eor	w12, w12, w8
	and	w23, w8, w13
	eor	w13, w8, w0
	and	w6, w22, w6
	and	w8, w8, w14
	and	w14, w13, w15
	eor	w15, w12, w22
	and	w19, w24, w19
	and	w4, w24, w4
	and	w10, w13, w10
	eor	w13, w6, w17
	and	w5, w12, w5
	and	w16, w15, w16
	and	w11, w15, w11
	and	w2, w0, w2
	and	w20, w0, w20
	eor	w0, w4, w21
	eor	w13, w13, w19
	eor	w21, w14, w21
	eor	w16, w16, w7
	eor	w8, w8, w7
	eor	w7, w11, w5
	and	w3, w22, w3
	eor	w15, w16, w13
	eor	w16, w14, w2
	eor	w22, w7, w13
	eor	w13, w21, w8
	and	w9, w12, w9
	eor	w1, w6, w1
	eor	w14, w13, w22
	eor	w13, w16, w22
	eor	w16, w0, w22
	eor	w0, w23, w2
	eor	w2, w3, w20
	eor	w8, w4, w8
	eor	w3, w0, w20
	eor	w17, w0, w17
	eor	w0, w21, w9
	eor	w12, w3, w19
	eor	w9, w10, w9
	eor	w10, w0, w3
	eor	w0, w17, w5
	eor	w11, w11, w4
	eor	w8, w1, w8
	eor	w12, w12, w7
	eor	w0, w0, w9
	eor	w17, w11, w15
	eor	w15, w10, w15
	eor	w11, w2, w9
	eor	w10, w12, w8
	eor	w2, w0, w8
	b	LBB16_3
LBB16_2:                               // %else.4.i
	eor	w8, w11, w11, lsr #2
	eor	w10, w15, w15, lsr #2
	mov	w9, #12336                      // =0x3030
	eor	w12, w2, w2, lsr #2
	eor	w14, w5, w5, lsr #2
	eor	w0, w13, w13, lsr #2
	and	w8, w8, w9
	and	w10, w10, w9
	eor	w1, w4, w4, lsr #2
	orr	w8, w8, w8, lsl #2
	orr	w10, w10, w10, lsl #2
	and	w12, w12, w9
	and	w14, w14, w9
	eor	w11, w8, w11
	eor	w8, w3, w3, lsr #2
	eor	w17, w10, w15
	eor	w10, w16, w16, lsr #2
	and	w15, w0, w9
	and	w0, w1, w9
	and	w8, w8, w9
	orr	w1, w15, w15, lsl #2
	orr	w0, w0, w0, lsl #2
	and	w9, w10, w9
	orr	w10, w12, w12, lsl #2
	orr	w12, w14, w14, lsl #2
	orr	w8, w8, w8, lsl #2
	orr	w9, w9, w9, lsl #2
	eor	w13, w1, w13
	eor	w14, w10, w2
	eor	w15, w12, w5
	eor	w10, w0, w4
	eor	w2, w8, w3
	eor	w16, w9, w16
LBB16_3:                               // %join.10.preheader.i
	ldr	x8, [sp, #40]                   // 8-byte Reload
	ldr	x9, [sp, #8]                    // 8-byte Reload
	add	x3, x9, x8, lsl #4
	mov	w8, #30583                      // =0x7777
	mov	w9, #-30584                     // =0xffff8888
	ldrh	w12, [x3, #18]
	ldrh	w1, [x3, #28]
	ldrh	w0, [x3, #20]
	ldrh	w4, [x3, #30]
	ldrh	w7, [x3, #16]
	eor	w19, w12, w17
	eor	w5, w1, w2
	eor	w6, w0, w14
	eor	w12, w4, w16
	ubfx	w16, w19, #1, #15
	ubfx	w17, w5, #5, #11
	ubfx	w0, w5, #1, #15
	ubfx	w1, w6, #5, #11
	ubfx	w2, w6, #1, #15
	ubfx	w4, w12, #5, #11
	ubfx	w20, w12, #1, #15
	orr	w21, w16, w19, lsl #15
	orr	w16, w17, w5, lsl #11
	orr	w17, w0, w5, lsl #15
	orr	w0, w1, w6, lsl #11
	orr	w1, w2, w6, lsl #15
	orr	w2, w4, w12, lsl #11
	orr	w4, w20, w12, lsl #15
	ubfx	w14, w19, #5, #11
	and	w16, w16, w8
	and	w17, w17, w9
	and	w0, w0, w8
	and	w1, w1, w9
	orr	w16, w16, w17
	and	w17, w2, w8
	and	w2, w4, w9
	orr	w14, w14, w19, lsl #11
	eor	w4, w16, w5
	orr	w0, w0, w1
	orr	w17, w17, w2
	ldrh	w1, [x3, #26]
	eor	w16, w4, w12
	eor	w2, w0, w6
	eor	w17, w17, w12
	eor	w20, w7, w11
	and	w11, w14, w8
	eor	w12, w16, w2
	eor	w14, w17, w20
	and	w0, w21, w9
	eor	w21, w1, w10
	eor	w12, w12, w14
	orr	w11, w11, w0
	ubfx	w1, w21, #5, #11
	ubfx	w7, w21, #1, #15
	ubfx	w0, w12, #10, #6
	eor	w22, w11, w19
	ubfx	w11, w12, #6, #10
	ubfx	w24, w20, #5, #11
	orr	w1, w1, w21, lsl #11
	orr	w7, w7, w21, lsl #15
	ubfx	w25, w20, #1, #15
	orr	w0, w0, w12, lsl #6
	eor	w23, w22, w6
	orr	w6, w11, w12, lsl #10
	mov	w10, #13107                     // =0x3333
	mov	w11, #-13108                    // =0xffffcccc
	and	w1, w1, w8
	and	w7, w7, w9
	orr	w24, w24, w20, lsl #11
	orr	w25, w25, w20, lsl #15
	and	w0, w0, w10
	and	w6, w6, w11
	orr	w1, w1, w7
	orr	w0, w0, w6
	eor	w6, w1, w21
	and	w1, w24, w8
	and	w24, w25, w9
	eor	w7, w6, w5
	eor	w12, w23, w12
	orr	w1, w1, w24
	ldrh	w24, [x3, #24]
	eor	w25, w7, w16
	eor	w5, w12, w0
	eor	w20, w1, w20
	eor	w12, w25, w22
	eor	w13, w24, w13
	eor	w0, w19, w20
	ubfx	w1, w12, #10, #6
	ldrh	w3, [x3, #22]
	ubfx	w19, w13, #5, #11
	ubfx	w26, w13, #1, #15
	eor	w24, w17, w0
	orr	w0, w1, w12, lsl #6
	ubfx	w1, w12, #6, #10
	eor	w22, w3, w15
	orr	w15, w19, w13, lsl #11
	orr	w3, w26, w13, lsl #15
	orr	w1, w1, w12, lsl #10
	ubfx	w19, w22, #5, #11
	ubfx	w26, w22, #1, #15
	and	w15, w15, w8
	and	w3, w3, w9
	and	w0, w0, w10
	orr	w15, w15, w3
	and	w1, w1, w11
	orr	w19, w19, w22, lsl #11
	eor	w15, w15, w13
	orr	w0, w0, w1
	orr	w1, w26, w22, lsl #15
	eor	w3, w23, w15
	and	w19, w19, w8
	eor	w13, w17, w13
	eor	w23, w25, w3
	eor	w3, w15, w21
	and	w1, w1, w9
	ubfx	w15, w23, #10, #6
	ubfx	w21, w23, #6, #10
	eor	w25, w3, w17
	orr	w1, w19, w1
	ubfx	w26, w25, #6, #10
	ubfx	w19, w25, #10, #6
	eor	w1, w1, w22
	orr	w15, w15, w23, lsl #6
	orr	w21, w21, w23, lsl #10
	orr	w26, w26, w25, lsl #10
	eor	w13, w13, w1
	orr	w19, w19, w25, lsl #6
	and	w15, w15, w10
	and	w21, w21, w11
	eor	w4, w13, w4
	orr	w15, w15, w21
	and	w21, w26, w11
	eor	w23, w13, w23
	eor	w13, w16, w25
	ubfx	w25, w4, #10, #6
	ubfx	w26, w4, #6, #10
	eor	w12, w24, w12
	and	w19, w19, w10
	eor	w1, w7, w1
	orr	w19, w19, w21
	eor	w21, w12, w0
	orr	w12, w25, w4, lsl #6
	orr	w0, w26, w4, lsl #10
	eor	w1, w1, w24
	eor	w2, w22, w2
	ubfx	w24, w1, #10, #6
	and	w12, w12, w10
	eor	w17, w2, w17
	and	w0, w0, w11
	eor	w16, w16, w6
	eor	w23, w23, w15
	orr	w12, w12, w0
	eor	w0, w7, w4
	ubfx	w4, w1, #6, #10
	orr	w22, w24, w1, lsl #6
	eor	w7, w7, w20
	eor	w16, w17, w16
	orr	w2, w4, w1, lsl #10
	ubfx	w4, w7, #10, #6
	ubfx	w24, w16, #6, #10
	and	w20, w22, w10
	ubfx	w22, w7, #6, #10
	eor	w17, w17, w1
	orr	w4, w4, w7, lsl #6
	and	w2, w2, w11
	eor	w12, w0, w12
	orr	w6, w22, w7, lsl #10
	ubfx	w22, w16, #10, #6
	orr	w2, w20, w2
	and	w1, w4, w10
	orr	w20, w24, w16, lsl #10
	eor	w0, w17, w2
	and	w4, w6, w11
	orr	w6, w22, w16, lsl #6
	eor	w14, w14, w7
	orr	w17, w1, w4
	eor	w19, w13, w19
	and	w2, w20, w11
	and	w1, w6, w10
	eor	w22, w14, w17
	eor	w8, w23, w19
	orr	w14, w1, w2
	eor	w16, w16, w3
	eor	w1, w0, w22
	eor	w4, w12, w19
	eor	w15, w21, w5
	eor	w25, w16, w14
	eor	w20, w8, w12
	eor	w6, w4, w1
	eor	w7, w23, w12
	eor	w27, w21, w22
	eor	w3, w23, w0
	and	w2, w20, w8
	eor	w9, w20, w0
	eor	w23, w15, w6
	eor	w0, w0, w25
	eor	w12, w12, w21
	eor	w26, w25, w5
	eor	w13, w23, w2
	eor	w24, w3, w22
	eor	w2, w3, w27
	eor	w23, w0, w12
	eor	w22, w19, w26
	eor	w21, w7, w27
	and	w0, w24, w7
	orr	w19, w2, w23
	eor	w16, w7, w26
	eor	w5, w4, w27
	eor	w17, w3, w15
	and	w26, w21, w22
	eor	w0, w0, w19
	and	w27, w2, w23
	eor	w12, w12, w1
	eor	w19, w21, w25
	eor	w14, w17, w6
	eor	w26, w26, w1
	eor	w1, w27, w25
	and	w25, w19, w12
	and	w28, w16, w5
	and	w30, w14, w3
	and	w14, w9, w17
	eor	w1, w1, w25
	and	w25, w6, w4
	eor	w14, w30, w14
	eor	w13, w13, w28
	eor	w26, w26, w28
	eor	w25, w30, w25
	eor	w1, w1, w3
	eor	w13, w13, w14
	eor	w14, w0, w14
	eor	w0, w26, w25
	eor	w1, w1, w25
	and	w25, w13, w14
	and	w26, w0, w14
	eor	w14, w1, w14
	and	w26, w26, w14
	eor	w27, w25, w14
	eor	w30, w25, w1
	eor	w26, w27, w26
	and	w27, w1, w13
	eor	w13, w13, w0
	eor	w28, w25, w13
	eor	w25, w25, w0
	and	w27, w27, w13
	and	w13, w30, w13
	and	w14, w25, w14
	eor	w27, w28, w27
	eor	w13, w13, w0
	eor	w14, w14, w1
	and	w20, w26, w20
	and	w24, w27, w24
	eor	w0, w27, w13
	eor	w1, w13, w14
	eor	w25, w6, w15
	eor	w20, w20, w24
	and	w15, w0, w23
	and	w12, w13, w12
	and	w25, w1, w25
	eor	w23, w15, w20
	eor	w12, w25, w12
	and	w3, w1, w3
	and	w13, w13, w19
	eor	w23, w12, w23
	and	w12, w27, w7
	and	w7, w14, w22
	and	w22, w26, w8
	eor	w27, w27, w26
	eor	w26, w26, w14
	eor	w22, w22, w7
	and	w5, w26, w5
	eor	w1, w27, w1
	and	w26, w26, w16
	and	w4, w27, w4
	and	w14, w14, w21
	eor	w21, w22, w12
	and	w16, w1, w17
	and	w17, w0, w2
	eor	w12, w25, w12
	eor	w0, w26, w13
	and	w6, w27, w6
	eor	w3, w3, w14
	eor	w14, w22, w14
	eor	w16, w16, w24
	and	w1, w1, w9
	eor	w2, w0, w4
	eor	w12, w12, w17
	ldr	x8, [sp, #16]                   // 8-byte Reload
	eor	w5, w5, w4
	eor	w21, w21, w6
	eor	w2, w2, w14
	eor	w14, w14, w17
	eor	w17, w16, w12
	eor	w6, w1, w6
	eor	w1, w1, w15
	eor	w21, w21, w5
	eor	w3, w3, w5
	eor	w16, w2, w17
	eor	w5, w1, w17
	eor	w14, w14, w6
	eor	w13, w15, w13
	eor	w17, w6, w12
	eor	w15, w26, w7
	eor	w0, w0, w20
	lsl	x12, x8, #6
	ldr	x8, [sp, #8]                    // 8-byte Reload
	eor	w2, w21, w23
	eor	w4, w14, w23
	eor	w14, w13, w17
	eor	w15, w15, w17
	eor	w17, w0, w17
LBB16_4:                               // %join.10.i
                                        // =>This Inner Loop Header: Depth=1
	add	x13, x8, x12
	str	x12, [sp, #40]                  // 8-byte Spill
	ldrh	w0, [x13]
	ldrh	w20, [x13, #10]
	ldrh	w1, [x13, #2]
	ldrh	w7, [x13, #6]
	ldrh	w21, [x13, #12]
	ldrh	w22, [x13, #14]
	ldrh	w6, [x13, #4]
	eor	w0, w0, w3
	eor	w4, w20, w4
	ldrh	w19, [x13, #8]
	eor	w1, w1, w5
	eor	w16, w7, w16
	ubfx	w3, w0, #4, #12
	eor	w2, w21, w2
	eor	w14, w22, w14
	ubfx	w20, w4, #4, #12
	eor	w17, w6, w17
	ubfx	w5, w1, #4, #12
	eor	w15, w19, w15
	ubfx	w7, w16, #4, #12
	ubfx	w21, w2, #4, #12
	ubfx	w22, w14, #4, #12
	orr	w3, w3, w0, lsl #12
	ubfx	w6, w17, #4, #12
	ubfx	w19, w15, #4, #12
	orr	w20, w20, w4, lsl #12
	orr	w5, w5, w1, lsl #12
	orr	w7, w7, w16, lsl #12
	orr	w21, w21, w2, lsl #12
	orr	w22, w22, w14, lsl #12
	orr	w6, w6, w17, lsl #12
	orr	w19, w19, w15, lsl #12
	eor	w3, w3, w0
	eor	w20, w20, w4
	eor	w5, w5, w1
	eor	w7, w7, w16
	eor	w21, w21, w2
	eor	w22, w22, w14
	eor	w1, w3, w1
	eor	w2, w20, w2
	eor	w6, w6, w17
	eor	w19, w19, w15
	eor	w1, w1, w22
	eor	w15, w7, w15
	eor	w7, w2, w7
	eor	w16, w6, w16
	eor	w17, w5, w17
	eor	w14, w21, w14
	eor	w7, w7, w1
	eor	w0, w22, w0
	eor	w16, w16, w22
	eor	w15, w15, w22
	eor	w4, w19, w4
	eor	w23, w14, w2
	eor	w6, w14, w6
	eor	w3, w2, w3
	eor	w19, w19, w17
	eor	w20, w14, w20
	rev	w26, w7
	eor	w5, w23, w5
	eor	w6, w6, w0
	eor	w19, w19, w23
	eor	w20, w20, w16
	eor	w21, w15, w21
	eor	w22, w22, w4
	rev	w23, w3
	eor	w16, w16, w26, lsr #16
	rev	w25, w6
	rev	w27, w19
	rev	w28, w20
	eor	w3, w3, w23, lsr #16
	rev	w23, w21
	rev	w30, w22
	rev	w24, w5
	eor	w17, w17, w25, lsr #16
	eor	w2, w2, w23, lsr #16
	eor	w14, w14, w30, lsr #16
	eor	w25, w16, w7
	eor	w16, w4, w28, lsr #16
	eor	w15, w15, w27, lsr #16
	eor	w1, w1, w24, lsr #16
	eor	w0, w3, w0
	eor	w6, w17, w6
	eor	w2, w2, w21
	eor	w3, w14, w22
	eor	w24, w16, w20
	eor	w19, w15, w19
	eor	w1, w1, w5
	eor	w20, w24, w6
	eor	w17, w19, w3
	eor	w7, w19, w2
	eor	w22, w19, w25
	eor	w26, w1, w0
	eor	w14, w2, w3
	eor	w16, w24, w25
	eor	w27, w2, w1
	eor	w2, w17, w2
	eor	w5, w20, w3
	eor	w3, w7, w20
	eor	w23, w6, w1
	eor	w20, w22, w0
	eor	w0, w25, w0
	eor	w4, w16, w27
	eor	w16, w2, w25
	eor	w6, w22, w23
	eor	w21, w0, w14
	eor	w25, w7, w26
	eor	w15, w14, w26
	eor	w19, w22, w26
	eor	w26, w0, w27
	eor	w27, w6, w21
	and	w12, w25, w5
	and	w28, w2, w17
	orr	w30, w19, w4
	and	w8, w16, w6
	and	w9, w20, w7
	and	w10, w21, w14
	and	w27, w27, w22
	eor	w12, w12, w0
	eor	w0, w23, w21
	and	w1, w3, w15
	eor	w8, w27, w8
	eor	w10, w27, w10
	eor	w27, w25, w24
	eor	w9, w9, w30
	and	w30, w19, w4
	eor	w0, w0, w28
	and	w28, w27, w26
	eor	w24, w30, w24
	eor	w0, w0, w1
	eor	w9, w9, w8
	eor	w12, w12, w1
	eor	w8, w0, w8
	eor	w0, w24, w28
	eor	w12, w12, w10
	eor	w0, w0, w22
	and	w1, w8, w9
	eor	w23, w21, w23
	eor	w10, w0, w10
	eor	w0, w8, w12
	eor	w24, w1, w12
	and	w8, w10, w8
	eor	w28, w1, w10
	eor	w30, w10, w9
	and	w8, w8, w0
	and	w28, w28, w0
	eor	w0, w1, w0
	and	w9, w12, w9
	eor	w28, w28, w12
	eor	w8, w0, w8
	and	w24, w24, w30
	and	w9, w9, w30
	eor	w12, w1, w30
	eor	w0, w8, w28
	eor	w10, w24, w10
	eor	w9, w12, w9
	and	w19, w0, w19
	eor	w24, w28, w10
	and	w7, w8, w7
	and	w4, w0, w4
	and	w0, w8, w20
	eor	w8, w8, w9
	and	w11, w24, w22
	and	w23, w24, w23
	and	w22, w10, w5
	and	w25, w10, w25
	and	w17, w9, w17
	eor	w10, w9, w10
	and	w9, w9, w2
	eor	w2, w8, w24
	eor	w1, w23, w7
	and	w6, w2, w6
	eor	w12, w1, w19
	and	w21, w8, w21
	and	w1, w10, w3
	and	w10, w10, w15
	eor	w15, w6, w0
	and	w8, w8, w14
	ldurh	w14, [x13, #-16]
	eor	w24, w15, w12
	eor	w9, w9, w0
	ldurh	w15, [x13, #-14]
	and	w16, w2, w16
	eor	w0, w9, w23
	eor	w23, w17, w22
	ldurh	w17, [x13, #-12]
	eor	w14, w14, w25
	and	w5, w28, w27
	eor	w2, w16, w21
	eor	w10, w10, w8
	ldurh	w27, [x13, #-10]
	eor	w11, w14, w11
	eor	w14, w4, w15
	and	w26, w28, w26
	ldurh	w28, [x13, #-8]
	eor	w15, w14, w16
	eor	w14, w11, w10
	eor	w11, w12, w17
	eor	w9, w2, w9
	eor	w20, w4, w26
	eor	w3, w1, w5
	eor	w26, w23, w25
	ldurh	w25, [x13, #-6]
	eor	w8, w8, w27
	eor	w9, w11, w9
	eor	w16, w15, w24
	eor	w8, w8, w3
	eor	w15, w9, w3
	eor	w9, w22, w28
	eor	w6, w2, w12
	ldurh	w30, [x13, #-4]
	eor	w8, w8, w26
	eor	w9, w9, w1
	eor	w11, w20, w25
	eor	w12, w0, w19
	eor	w3, w8, w24
	eor	w17, w9, w6
	eor	w8, w11, w12
	eor	w9, w26, w2
	eor	w11, w20, w30
	eor	w12, w0, w7
	eor	w2, w8, w9
	eor	w9, w23, w21
	str	w5, [sp, #16]                   // 4-byte Spill
	eor	w8, w11, w12
	eor	w9, w9, w10
	ldurh	w5, [x13, #-2]
	ubfx	w10, w14, #7, #9
	ubfx	w11, w14, #3, #13
	eor	w7, w8, w9
	ubfx	w8, w16, #7, #9
	ubfx	w9, w16, #3, #13
	ldr	w12, [sp, #16]                  // 4-byte Reload
	orr	w10, w10, w14, lsl #9
	orr	w11, w11, w14, lsl #13
	orr	w8, w8, w16, lsl #9
	str	x13, [sp, #24]                  // 8-byte Spill
	eor	w12, w12, w5
	orr	w9, w9, w16, lsl #13
	mov	w5, #4369                       // =0x1111
	eor	w12, w12, w4
	mov	w4, #-4370                      // =0xffffeeee
	and	w10, w10, w5
	and	w11, w11, w4
	and	w8, w8, w5
	and	w9, w9, w4
	eor	w19, w12, w6
	orr	w6, w10, w11
	orr	w20, w8, w9
	ubfx	w8, w15, #7, #9
	ubfx	w9, w15, #3, #13
	ubfx	w10, w3, #7, #9
	ubfx	w11, w3, #3, #13
	ubfx	w12, w17, #7, #9
	ubfx	w13, w17, #3, #13
	orr	w8, w8, w15, lsl #9
	orr	w9, w9, w15, lsl #13
	orr	w10, w10, w3, lsl #9
	orr	w11, w11, w3, lsl #13
	orr	w12, w12, w17, lsl #9
	orr	w13, w13, w17, lsl #13
	and	w8, w8, w5
	and	w9, w9, w4
	and	w10, w10, w5
	and	w11, w11, w4
	and	w12, w12, w5
	and	w13, w13, w4
	orr	w8, w8, w9
	orr	w9, w10, w11
	orr	w10, w12, w13
	ubfx	w11, w2, #7, #9
	ubfx	w12, w2, #3, #13
	ubfx	w13, w7, #7, #9
	ubfx	w0, w7, #3, #13
	ubfx	w1, w19, #7, #9
	ubfx	w21, w19, #3, #13
	orr	w11, w11, w2, lsl #9
	orr	w12, w12, w2, lsl #13
	orr	w13, w13, w7, lsl #9
	orr	w0, w0, w7, lsl #13
	orr	w1, w1, w19, lsl #9
	orr	w21, w21, w19, lsl #13
	and	w11, w11, w5
	and	w12, w12, w4
	and	w13, w13, w5
	and	w0, w0, w4
	and	w1, w1, w5
	and	w4, w21, w4
	orr	w11, w11, w12
	orr	w12, w13, w0
	orr	w13, w1, w4
	eor	w0, w6, w14
	eor	w13, w13, w19
	eor	w1, w20, w16
	eor	w8, w8, w15
	eor	w11, w11, w2
	eor	w12, w12, w7
	eor	w16, w0, w16
	eor	w6, w13, w14
	eor	w14, w13, w3
	eor	w9, w9, w3
	eor	w10, w10, w17
	eor	w4, w16, w13
	eor	w5, w1, w15
	eor	w3, w14, w8
	eor	w14, w13, w17
	eor	w16, w11, w7
	eor	w15, w12, w19
	eor	w17, w14, w9
	eor	w14, w10, w2
	eor	w2, w15, w16
	eor	w8, w8, w6
	eor	w21, w16, w0
	eor	w7, w2, w1
	eor	w9, w4, w9
	eor	w20, w8, w15
	eor	w8, w5, w10
	eor	w19, w9, w16
	eor	w2, w8, w2
	ubfx	w8, w21, #10, #6
	ubfx	w9, w21, #6, #10
	eor	w10, w11, w15
	ubfx	w11, w7, #10, #6
	ubfx	w0, w7, #6, #10
	eor	w22, w3, w10
	orr	w8, w8, w21, lsl #6
	orr	w9, w9, w21, lsl #10
	orr	w10, w11, w7, lsl #6
	eor	w23, w12, w17
	orr	w11, w0, w7, lsl #10
	eor	w24, w14, w13
	mov	w12, #13107                     // =0x3333
	mov	w13, #-13108                    // =0xffffcccc
	and	w8, w8, w12
	and	w9, w9, w13
	and	w10, w10, w12
	ubfx	w12, w20, #10, #6
	and	w11, w11, w13
	orr	w26, w8, w9
	ubfx	w8, w20, #6, #10
	orr	w25, w10, w11
	ubfx	w10, w19, #10, #6
	orr	w9, w12, w20, lsl #6
	ubfx	w11, w19, #6, #10
	ubfx	w12, w2, #10, #6
	ubfx	w13, w2, #6, #10
	orr	w8, w8, w20, lsl #10
	mov	w28, #13107                     // =0x3333
	mov	w30, #-13108                    // =0xffffcccc
	orr	w10, w10, w19, lsl #6
	orr	w11, w11, w19, lsl #10
	orr	w12, w12, w2, lsl #6
	orr	w13, w13, w2, lsl #10
	and	w9, w9, w28
	and	w8, w8, w30
	ubfx	w0, w23, #6, #10
	ubfx	w1, w24, #10, #6
	orr	w8, w9, w8
	and	w9, w10, w28
	and	w10, w11, w30
	and	w11, w12, w28
	and	w12, w13, w30
	ubfx	w13, w22, #10, #6
	orr	w9, w9, w10
	orr	w10, w11, w12
	ubfx	w11, w22, #6, #10
	orr	w12, w13, w22, lsl #6
	ubfx	w13, w23, #10, #6
	ubfx	w27, w24, #6, #10
	orr	w11, w11, w22, lsl #10
	orr	w0, w0, w23, lsl #10
	orr	w1, w1, w24, lsl #6
	orr	w13, w13, w23, lsl #6
	orr	w27, w27, w24, lsl #10
	and	w12, w12, w28
	and	w11, w11, w30
	eor	w17, w17, w2
	eor	w15, w24, w15
	orr	w11, w12, w11
	and	w12, w13, w28
	and	w13, w0, w30
	and	w0, w1, w28
	and	w1, w27, w30
	orr	w12, w12, w13
	orr	w13, w0, w1
	eor	w1, w4, w7
	eor	w3, w3, w19
	eor	w16, w16, w23
	eor	w14, w14, w22
	eor	w13, w15, w13
	eor	w10, w17, w10
	eor	w6, w6, w21
	eor	w4, w5, w20
	eor	w1, w1, w25
	eor	w9, w3, w9
	eor	w12, w16, w12
	eor	w24, w14, w11
	eor	w3, w10, w13
	eor	w0, w6, w26
	eor	w8, w4, w8
	eor	w16, w24, w9
	eor	w26, w1, w12
	eor	w17, w3, w12
	eor	w11, w1, w0
	eor	w14, w12, w13
	eor	w4, w16, w26
	eor	w16, w17, w9
	eor	w20, w10, w9
	eor	w23, w1, w8
	eor	w9, w9, w0
	eor	w2, w24, w8
	eor	w7, w10, w12
	eor	w19, w20, w11
	eor	w6, w20, w23
	eor	w22, w20, w0
	eor	w21, w9, w14
	eor	w5, w2, w13
	orr	w12, w19, w4
	and	w0, w22, w7
	eor	w25, w7, w11
	eor	w1, w6, w21
	eor	w15, w11, w14
	eor	w2, w7, w2
	and	w10, w17, w3
	and	w13, w16, w6
	eor	w11, w26, w9
	and	w26, w25, w5
	and	w27, w21, w14
	and	w1, w1, w20
	eor	w12, w0, w12
	eor	w0, w21, w23
	and	w8, w2, w15
	eor	w13, w1, w13
	eor	w1, w1, w27
	eor	w27, w25, w24
	eor	w9, w26, w9
	and	w26, w19, w4
	eor	w10, w0, w10
	and	w0, w27, w11
	eor	w10, w10, w8
	eor	w24, w26, w24
	eor	w8, w9, w8
	eor	w9, w10, w13
	eor	w10, w24, w0
	eor	w12, w12, w13
	eor	w10, w10, w20
	eor	w8, w8, w1
	and	w13, w9, w12
	eor	w10, w10, w1
	eor	w24, w9, w8
	eor	w26, w13, w10
	eor	w0, w13, w8
	eor	w1, w10, w12
	and	w26, w26, w24
	and	w9, w10, w9
	and	w0, w0, w1
	eor	w26, w26, w8
	and	w8, w8, w12
	and	w9, w9, w24
	eor	w24, w13, w24
	eor	w10, w0, w10
	and	w8, w8, w1
	eor	w13, w13, w1
	eor	w9, w24, w9
	eor	w0, w26, w10
	eor	w8, w13, w8
	eor	w28, w9, w26
	and	w7, w9, w7
	and	w24, w0, w20
	eor	w20, w23, w21
	and	w12, w9, w22
	eor	w9, w9, w8
	and	w23, w0, w20
	and	w20, w10, w5
	and	w25, w10, w25
	and	w13, w8, w3
	eor	w10, w8, w10
	eor	w0, w9, w0
	and	w8, w8, w17
	ldr	x30, [sp, #24]                  // 8-byte Reload
	and	w11, w26, w11
	and	w4, w28, w4
	and	w21, w9, w21
	and	w1, w10, w2
	and	w17, w0, w6
	and	w10, w10, w15
	eor	w8, w8, w12
	and	w9, w9, w14
	eor	w22, w4, w11
	eor	w11, w23, w7
	eor	w17, w17, w12
	eor	w12, w13, w20
	eor	w13, w8, w23
	eor	w23, w10, w9
	ldurh	w10, [x30, #-32]
	ldurh	w14, [x30, #-30]
	and	w19, w28, w19
	and	w16, w0, w16
	ldurh	w15, [x30, #-28]
	ldurh	w3, [x30, #-26]
	eor	w10, w10, w25
	and	w5, w26, w27
	eor	w11, w11, w19
	eor	w0, w16, w21
	eor	w14, w4, w14
	eor	w10, w10, w24
	eor	w2, w1, w5
	ldurh	w27, [x30, #-24]
	eor	w16, w14, w16
	eor	w14, w10, w23
	eor	w9, w9, w3
	eor	w10, w11, w15
	eor	w8, w0, w8
	eor	w26, w12, w25
	ldurh	w25, [x30, #-22]
	eor	w9, w9, w2
	eor	w8, w10, w8
	eor	w17, w17, w11
	eor	w9, w9, w26
	eor	w15, w8, w2
	eor	w8, w20, w27
	eor	w6, w0, w11
	ldurh	w24, [x30, #-20]
	eor	w16, w16, w17
	eor	w17, w9, w17
	eor	w8, w8, w1
	eor	w9, w22, w25
	eor	w10, w13, w19
	eor	w3, w8, w6
	eor	w8, w9, w10
	eor	w9, w26, w0
	eor	w2, w8, w9
	eor	w8, w22, w24
	eor	w9, w13, w7
	ldurh	w28, [x30, #-18]
	eor	w8, w8, w9
	eor	w9, w12, w21
	ubfx	w10, w14, #6, #10
	ubfx	w11, w14, #2, #14
	ubfx	w12, w16, #6, #10
	ubfx	w13, w16, #2, #14
	eor	w9, w9, w23
	eor	w0, w5, w28
	orr	w10, w10, w14, lsl #10
	orr	w11, w11, w14, lsl #14
	orr	w12, w12, w16, lsl #10
	orr	w13, w13, w16, lsl #14
	eor	w5, w8, w9
	eor	w8, w0, w4
	mov	w0, #13107                      // =0x3333
	mov	w1, #-13108                     // =0xffffcccc
	eor	w4, w8, w6
	and	w9, w10, w0
	and	w10, w11, w1
	and	w11, w12, w0
	and	w12, w13, w1
	orr	w6, w9, w10
	ubfx	w8, w15, #6, #10
	orr	w7, w11, w12
	ubfx	w9, w15, #2, #14
	ubfx	w10, w17, #6, #10
	ubfx	w11, w17, #2, #14
	ubfx	w12, w3, #6, #10
	ubfx	w13, w3, #2, #14
	orr	w8, w8, w15, lsl #10
	orr	w9, w9, w15, lsl #14
	orr	w10, w10, w17, lsl #10
	orr	w11, w11, w17, lsl #14
	orr	w12, w12, w3, lsl #10
	orr	w13, w13, w3, lsl #14
	mov	w20, #13107                     // =0x3333
	mov	w21, #-13108                    // =0xffffcccc
	ubfx	w0, w5, #2, #14
	and	w8, w8, w20
	and	w9, w9, w21
	and	w10, w10, w20
	and	w11, w11, w21
	and	w12, w12, w20
	and	w13, w13, w21
	orr	w8, w8, w9
	orr	w9, w10, w11
	orr	w10, w12, w13
	ubfx	w11, w2, #6, #10
	ubfx	w12, w2, #2, #14
	ubfx	w13, w5, #6, #10
	ubfx	w1, w4, #6, #10
	ubfx	w19, w4, #2, #14
	orr	w0, w0, w5, lsl #14
	orr	w11, w11, w2, lsl #10
	orr	w12, w12, w2, lsl #14
	orr	w13, w13, w5, lsl #10
	orr	w1, w1, w4, lsl #10
	orr	w19, w19, w4, lsl #14
	and	w0, w0, w21
	and	w11, w11, w20
	and	w12, w12, w21
	and	w13, w13, w20
	and	w1, w1, w20
	and	w19, w19, w21
	orr	w11, w11, w12
	orr	w12, w13, w0
	orr	w13, w1, w19
	eor	w0, w6, w14
	eor	w1, w7, w16
	eor	w11, w11, w2
	eor	w12, w12, w5
	eor	w8, w8, w15
	eor	w10, w10, w3
	eor	w13, w13, w4
	eor	w16, w0, w16
	eor	w15, w1, w15
	eor	w5, w11, w5
	eor	w4, w12, w4
	eor	w9, w9, w17
	eor	w14, w13, w14
	eor	w16, w16, w13
	eor	w17, w13, w17
	eor	w3, w13, w3
	eor	w2, w10, w2
	eor	w6, w4, w5
	eor	w0, w5, w0
	eor	w10, w15, w10
	eor	w17, w17, w8
	eor	w3, w3, w9
	eor	w8, w8, w14
	eor	w1, w6, w1
	eor	w9, w16, w9
	eor	w10, w10, w6
	rev	w6, w0
	eor	w8, w8, w4
	eor	w9, w9, w5
	eor	w14, w14, w6, lsr #16
	rev	w19, w8
	rev	w20, w9
	eor	w11, w11, w4
	eor	w13, w2, w13
	rev	w7, w1
	eor	w0, w14, w0
	eor	w14, w15, w19, lsr #16
	eor	w15, w17, w20, lsr #16
	eor	w11, w17, w11
	eor	w12, w12, w3
	rev	w21, w10
	rev	w23, w13
	eor	w16, w16, w7, lsr #16
	rev	w22, w11
	rev	w6, w12
	eor	w13, w13, w23, lsr #16
	eor	w9, w15, w9
	eor	w15, w3, w21, lsr #16
	eor	w1, w16, w1
	eor	w16, w5, w6, lsr #16
	eor	w8, w14, w8
	eor	w14, w2, w22, lsr #16
	eor	w13, w13, w4
	eor	w10, w15, w10
	eor	w23, w1, w8
	eor	w12, w16, w12
	eor	w25, w14, w11
	eor	w2, w10, w13
	eor	w16, w25, w9
	eor	w26, w1, w12
	eor	w17, w2, w12
	eor	w11, w1, w0
	eor	w14, w12, w13
	eor	w3, w16, w26
	eor	w16, w17, w9
	eor	w21, w10, w9
	eor	w9, w9, w0
	eor	w4, w25, w8
	eor	w19, w10, w12
	eor	w7, w21, w11
	eor	w5, w21, w23
	eor	w22, w21, w0
	eor	w20, w9, w14
	eor	w6, w4, w13
	orr	w12, w7, w3
	and	w0, w22, w19
	eor	w24, w19, w11
	eor	w1, w5, w20
	eor	w15, w11, w14
	eor	w4, w19, w4
	and	w10, w17, w2
	and	w13, w16, w5
	eor	w11, w26, w9
	and	w27, w24, w6
	and	w26, w20, w14
	and	w1, w1, w21
	eor	w12, w0, w12
	eor	w0, w20, w23
	and	w8, w4, w15
	eor	w13, w1, w13
	eor	w1, w1, w26
	eor	w26, w24, w25
	eor	w9, w27, w9
	and	w27, w7, w3
	eor	w10, w0, w10
	and	w0, w26, w11
	eor	w25, w27, w25
	eor	w10, w10, w8
	eor	w8, w9, w8
	eor	w12, w12, w13
	eor	w9, w10, w13
	eor	w10, w25, w0
	eor	w8, w8, w1
	eor	w10, w10, w21
	and	w13, w9, w12
	eor	w25, w9, w8
	eor	w10, w10, w1
	eor	w0, w13, w8
	eor	w23, w23, w20
	and	w9, w10, w9
	eor	w27, w13, w10
	eor	w1, w10, w12
	and	w9, w9, w25
	and	w27, w27, w25
	eor	w25, w13, w25
	eor	w9, w25, w9
	eor	w25, w27, w8
	and	w8, w8, w12
	and	w0, w0, w1
	and	w8, w8, w1
	eor	w13, w13, w1
	eor	w10, w0, w10
	eor	w0, w9, w25
	eor	w8, w13, w8
	and	w7, w0, w7
	and	w3, w0, w3
	eor	w0, w25, w10
	and	w19, w9, w19
	and	w12, w9, w22
	eor	w9, w9, w8
	and	w11, w25, w11
	and	w27, w0, w21
	and	w23, w0, w23
	and	w21, w10, w6
	and	w24, w10, w24
	eor	w10, w8, w10
	eor	w0, w9, w0
	eor	w22, w3, w11
	eor	w11, w23, w19
	and	w1, w10, w4
	and	w10, w10, w15
	and	w15, w0, w5
	eor	w11, w11, w7
	eor	w15, w15, w12
	and	w13, w8, w2
	and	w20, w9, w20
	and	w8, w8, w17
	and	w16, w0, w16
	eor	w0, w15, w11
	and	w9, w9, w14
	ldurh	w14, [x30, #-44]
	ldurh	w15, [x30, #-42]
	and	w6, w25, w26
	eor	w8, w8, w12
	eor	w12, w16, w20
	eor	w25, w13, w21
	ldurh	w13, [x30, #-48]
	eor	w5, w10, w9
	ldurh	w10, [x30, #-46]
	eor	w17, w1, w6
	eor	w4, w12, w11
	eor	w23, w8, w23
	ldurh	w2, [x30, #-40]
	eor	w9, w9, w15
	eor	w11, w11, w14
	eor	w8, w12, w8
	eor	w26, w25, w24
	eor	w13, w13, w24
	eor	w10, w3, w10
	ldurh	w24, [x30, #-38]
	eor	w9, w9, w17
	eor	w8, w11, w8
	eor	w13, w13, w27
	eor	w10, w10, w16
	eor	w9, w9, w26
	eor	w14, w8, w17
	eor	w8, w21, w2
	ldurh	w27, [x30, #-36]
	eor	w13, w13, w5
	eor	w15, w10, w0
	eor	w16, w9, w0
	eor	w8, w8, w1
	eor	w9, w22, w24
	eor	w10, w23, w7
	eor	w2, w8, w4
	eor	w8, w9, w10
	eor	w9, w26, w12
	ubfx	w10, w13, #5, #11
	ubfx	w11, w13, #1, #15
	ubfx	w12, w15, #5, #11
	ubfx	w0, w15, #1, #15
	ldurh	w28, [x30, #-34]
	eor	w17, w8, w9
	eor	w8, w22, w27
	eor	w9, w23, w19
	orr	w10, w10, w13, lsl #11
	eor	w8, w8, w9
	eor	w9, w25, w20
	orr	w11, w11, w13, lsl #15
	orr	w12, w12, w15, lsl #11
	orr	w0, w0, w15, lsl #15
	eor	w9, w9, w5
	eor	w1, w6, w28
	mov	w20, #30583                     // =0x7777
	mov	w21, #-30584                    // =0xffff8888
	eor	w7, w8, w9
	eor	w8, w1, w3
	and	w9, w10, w20
	and	w10, w11, w21
	and	w11, w12, w20
	and	w12, w0, w21
	eor	w19, w8, w4
	orr	w3, w9, w10
	orr	w4, w11, w12
	ubfx	w8, w14, #5, #11
	ubfx	w9, w14, #1, #15
	ubfx	w10, w16, #5, #11
	ubfx	w11, w16, #1, #15
	ubfx	w12, w2, #5, #11
	ubfx	w0, w2, #1, #15
	orr	w8, w8, w14, lsl #11
	orr	w9, w9, w14, lsl #15
	orr	w10, w10, w16, lsl #11
	orr	w11, w11, w16, lsl #15
	orr	w12, w12, w2, lsl #11
	orr	w0, w0, w2, lsl #15
	and	w8, w8, w20
	and	w9, w9, w21
	and	w10, w10, w20
	and	w11, w11, w21
	and	w12, w12, w20
	and	w0, w0, w21
	orr	w8, w8, w9
	orr	w9, w10, w11
	orr	w10, w12, w0
	ubfx	w11, w17, #5, #11
	ubfx	w12, w17, #1, #15
	ubfx	w0, w7, #5, #11
	ubfx	w1, w7, #1, #15
	ubfx	w5, w19, #5, #11
	ubfx	w6, w19, #1, #15
	orr	w11, w11, w17, lsl #11
	orr	w12, w12, w17, lsl #15
	orr	w0, w0, w7, lsl #11
	orr	w1, w1, w7, lsl #15
	orr	w5, w5, w19, lsl #11
	orr	w6, w6, w19, lsl #15
	and	w11, w11, w20
	and	w12, w12, w21
	and	w0, w0, w20
	and	w1, w1, w21
	and	w5, w5, w20
	and	w6, w6, w21
	orr	w11, w11, w12
	orr	w12, w0, w1
	orr	w0, w5, w6
	eor	w1, w3, w13
	eor	w0, w0, w19
	eor	w21, w4, w15
	eor	w8, w8, w14
	eor	w11, w11, w17
	eor	w12, w12, w7
	eor	w15, w1, w15
	eor	w6, w0, w13
	eor	w13, w0, w16
	eor	w9, w9, w16
	eor	w10, w10, w2
	eor	w3, w15, w0
	eor	w5, w21, w14
	eor	w4, w13, w8
	eor	w13, w0, w2
	eor	w15, w11, w7
	eor	w14, w12, w19
	eor	w16, w13, w9
	eor	w13, w10, w17
	eor	w17, w14, w15
	eor	w8, w8, w6
	eor	w20, w15, w1
	eor	w2, w17, w21
	eor	w9, w3, w9
	eor	w19, w8, w14
	eor	w8, w5, w10
	eor	w7, w9, w15
	eor	w17, w8, w17
	ubfx	w8, w20, #10, #6
	ubfx	w9, w20, #6, #10
	eor	w10, w11, w14
	ubfx	w11, w2, #10, #6
	ubfx	w1, w2, #6, #10
	eor	w21, w4, w10
	orr	w8, w8, w20, lsl #6
	orr	w9, w9, w20, lsl #10
	orr	w10, w11, w2, lsl #6
	eor	w22, w12, w16
	orr	w11, w1, w2, lsl #10
	eor	w23, w13, w0
	mov	w12, #13107                     // =0x3333
	mov	w0, #-13108                     // =0xffffcccc
	and	w8, w8, w12
	and	w9, w9, w0
	and	w10, w10, w12
	ubfx	w12, w19, #10, #6
	and	w11, w11, w0
	orr	w25, w8, w9
	ubfx	w8, w19, #6, #10
	orr	w24, w10, w11
	ubfx	w10, w7, #10, #6
	orr	w9, w12, w19, lsl #6
	ubfx	w11, w7, #6, #10
	ubfx	w12, w17, #10, #6
	ubfx	w0, w17, #6, #10
	orr	w8, w8, w19, lsl #10
	mov	w28, #13107                     // =0x3333
	mov	w30, #-13108                    // =0xffffcccc
	orr	w10, w10, w7, lsl #6
	orr	w11, w11, w7, lsl #10
	orr	w12, w12, w17, lsl #6
	orr	w0, w0, w17, lsl #10
	and	w9, w9, w28
	and	w8, w8, w30
	ubfx	w1, w22, #6, #10
	ubfx	w26, w23, #10, #6
	orr	w8, w9, w8
	and	w9, w10, w28
	and	w10, w11, w30
	and	w11, w12, w28
	and	w12, w0, w30
	ubfx	w0, w21, #10, #6
	orr	w9, w9, w10
	orr	w10, w11, w12
	ubfx	w11, w21, #6, #10
	orr	w12, w0, w21, lsl #6
	ubfx	w0, w22, #10, #6
	ubfx	w27, w23, #6, #10
	orr	w11, w11, w21, lsl #10
	orr	w1, w1, w22, lsl #10
	orr	w26, w26, w23, lsl #6
	orr	w0, w0, w22, lsl #6
	orr	w27, w27, w23, lsl #10
	and	w12, w12, w28
	and	w11, w11, w30
	eor	w6, w6, w20
	eor	w2, w3, w2
	orr	w11, w12, w11
	and	w12, w0, w28
	and	w0, w1, w30
	and	w1, w26, w28
	and	w26, w27, w30
	orr	w12, w12, w0
	orr	w0, w1, w26
	eor	w4, w4, w7
	eor	w16, w16, w17
	eor	w15, w15, w22
	eor	w14, w23, w14
	eor	w13, w13, w21
	eor	w1, w6, w25
	eor	w3, w5, w19
	eor	w7, w2, w24
	eor	w9, w4, w9
	eor	w12, w15, w12
	eor	w15, w14, w0
	eor	w25, w13, w11
	eor	w10, w16, w10
	eor	w8, w3, w8
	eor	w17, w25, w9
	eor	w24, w7, w12
	eor	w16, w10, w15
	eor	w0, w25, w8
	eor	w20, w17, w24
	eor	w17, w16, w12
	eor	w11, w7, w1
	eor	w13, w12, w15
	eor	w6, w0, w15
	eor	w15, w17, w9
	eor	w3, w10, w9
	eor	w7, w7, w8
	eor	w9, w9, w1
	eor	w5, w10, w12
	eor	w22, w3, w11
	eor	w4, w3, w7
	eor	w21, w3, w1
	eor	w19, w9, w13
	eor	w14, w11, w13
	orr	w12, w22, w20
	and	w1, w21, w5
	eor	w23, w5, w11
	eor	w11, w4, w19
	eor	w2, w5, w0
	and	w10, w17, w16
	and	w0, w15, w4
	and	w27, w23, w6
	and	w26, w19, w13
	and	w11, w11, w3
	eor	w12, w1, w12
	eor	w1, w19, w7
	and	w8, w2, w14
	eor	w24, w24, w9
	eor	w0, w11, w0
	eor	w11, w11, w26
	eor	w26, w23, w25
	eor	w9, w27, w9
	and	w27, w22, w20
	eor	w10, w1, w10
	and	w1, w26, w24
	eor	w10, w10, w8
	eor	w25, w27, w25
	eor	w8, w9, w8
	eor	w9, w10, w0
	eor	w10, w25, w1
	eor	w12, w12, w0
	eor	w10, w10, w3
	eor	w8, w8, w11
	and	w0, w9, w12
	eor	w10, w10, w11
	eor	w11, w9, w8
	and	w9, w10, w9
	eor	w25, w0, w10
	eor	w1, w0, w8
	and	w9, w9, w11
	and	w25, w25, w11
	eor	w11, w0, w11
	eor	w25, w25, w8
	eor	w9, w11, w9
	eor	w27, w10, w12
	eor	w11, w9, w25
	and	w8, w8, w12
	and	w1, w1, w27
	and	w22, w11, w22
	and	w20, w11, w20
	and	w8, w8, w27
	eor	w11, w0, w27
	eor	w10, w1, w10
	and	w5, w9, w5
	eor	w8, w11, w8
	eor	w0, w25, w10
	eor	w1, w7, w19
	and	w6, w10, w6
	and	w7, w10, w23
	and	w21, w9, w21
	eor	w9, w9, w8
	eor	w10, w8, w10
	and	w1, w0, w1
	and	w2, w10, w2
	and	w10, w10, w14
	eor	w14, w9, w0
	and	w12, w25, w26
	and	w16, w8, w16
	and	w8, w8, w17
	eor	w17, w1, w5
	and	w19, w9, w19
	and	w4, w14, w4
	and	w23, w14, w15
	and	w3, w0, w3
	eor	w17, w17, w22
	eor	w0, w2, w12
	eor	w14, w4, w21
	eor	w8, w8, w21
	eor	w4, w23, w19
	eor	w21, w14, w17
	eor	w15, w0, w8
	eor	w14, w4, w17
	eor	w12, w20, w12
	eor	w2, w2, w6
	eor	w17, w15, w14
	eor	w15, w2, w14
	eor	w14, w12, w14
	eor	w12, w16, w6
	and	w9, w9, w13
	and	w11, w25, w24
	eor	w16, w12, w7
	eor	w10, w10, w9
	eor	w9, w0, w9
	eor	w12, w12, w5
	eor	w11, w1, w11
	eor	w1, w3, w7
	eor	w8, w20, w8
	eor	w3, w16, w22
	eor	w9, w9, w16
	eor	w12, w12, w19
	eor	w2, w23, w20
	eor	w8, w11, w8
	eor	w11, w3, w4
	eor	w16, w9, w21
	eor	w9, w12, w10
	ldr	x12, [sp, #40]                  // 8-byte Reload
	eor	w5, w2, w21
	eor	w4, w11, w8
	eor	w2, w9, w8
	ldr	x8, [sp, #8]                    // 8-byte Reload
	eor	w3, w1, w10
	subs	x12, x12, #64
	b.ne	LBB16_4
// %bb.5:                               // %"aes_soft::soft::ciphers::planes::DecryptPlaneCipher::process_planes::<#e38f99acfded9ac6>.exit"
	mov	x1, x8
	ldrh	w8, [x8, #2]
	and	w17, w17, #0xffff
	ldrh	w9, [x1]
	ldrh	w10, [x1, #10]
	ldrh	w11, [x1, #4]
	eor	w8, w8, w5
	ldrh	w13, [x1, #8]
	ldrh	w12, [x1, #6]
	lsl	w8, w8, #16
	eor	w9, w9, w3
	eor	w10, w10, w4
	lsl	w10, w10, #16
	eor	w11, w11, w17
	ldrh	w0, [x1, #12]
	bfxil	x8, x9, #0, #16
	eor	w13, w13, w15
	and	w9, w2, #0xffff
	bfxil	x10, x13, #0, #16
	ldrh	w13, [x1, #14]
	eor	w9, w0, w9
	orr	x8, x8, x11, lsl #32
	eor	w11, w12, w16
	movi	v3.16b, #4
	orr	x9, x10, x9, lsl #32
	eor	w10, w13, w14
	movi	v4.16b, #1
	orr	x8, x8, x11, lsl #48
	movi	v5.16b, #64
	movi	v7.16b, #8
	orr	x9, x9, x10, lsl #48
	movi	v6.16b, #32
	movi	v16.16b, #16
	fmov	d1, x8
	adrp	x8, l_CPI16_2@PAGE
	ldr	x30, [sp, #32]                  // 8-byte Reload
	ldr	q2, [x8, l_CPI16_2@PAGEOFF]
	ldp	x20, x19, [sp, #112]            // 16-byte Folded Reload
	ldp	x22, x21, [sp, #96]             // 16-byte Folded Reload
	mov	v1.d[1], x9
	ldp	x24, x23, [sp, #80]             // 16-byte Folded Reload
	ldp	x26, x25, [sp, #64]             // 16-byte Folded Reload
	ldp	x28, x27, [sp, #48]             // 16-byte Folded Reload
	tbl	v1.16b, { v1.16b }, v2.16b
	movi	v2.16b, #2
	and	v3.16b, v1.16b, v3.16b
	and	v2.16b, v1.16b, v2.16b
	and	v4.16b, v1.16b, v4.16b
	and	v5.16b, v1.16b, v5.16b
	cmlt	v17.16b, v1.16b, #0
	and	v7.16b, v1.16b, v7.16b
	and	v6.16b, v1.16b, v6.16b
	and	v1.16b, v1.16b, v16.16b
	cmeq	v3.16b, v3.16b, #0
	cmeq	v2.16b, v2.16b, #0
	cmeq	v4.16b, v4.16b, #0
	cmeq	v5.16b, v5.16b, #0
	and	v16.16b, v17.16b, v0.16b
	cmeq	v7.16b, v7.16b, #0
	cmeq	v6.16b, v6.16b, #0
	cmeq	v1.16b, v1.16b, #0
	bic	v3.16b, v0.16b, v3.16b
	bic	v2.16b, v0.16b, v2.16b
	bic	v4.16b, v0.16b, v4.16b
	bic	v5.16b, v0.16b, v5.16b
	addp	v16.16b, v16.16b, v16.16b
	bic	v7.16b, v0.16b, v7.16b
	bic	v6.16b, v0.16b, v6.16b
	bic	v0.16b, v0.16b, v1.16b
	addp	v3.16b, v3.16b, v3.16b
	addp	v2.16b, v2.16b, v2.16b
	addp	v4.16b, v4.16b, v4.16b
	addp	v1.16b, v5.16b, v5.16b
	addp	v5.16b, v16.16b, v16.16b
	addp	v7.16b, v7.16b, v7.16b
	addp	v6.16b, v6.16b, v6.16b
	addp	v0.16b, v0.16b, v0.16b
	addp	v3.16b, v3.16b, v3.16b
	addp	v2.16b, v2.16b, v2.16b
	addp	v4.16b, v4.16b, v4.16b
	addp	v5.16b, v5.16b, v5.16b
	addp	v1.16b, v1.16b, v1.16b
	addp	v6.16b, v6.16b, v6.16b
	addp	v0.16b, v0.16b, v0.16b
	addp	v3.16b, v3.16b, v3.16b
	addp	v2.16b, v2.16b, v2.16b
	addp	v4.16b, v4.16b, v4.16b
	addp	v1.16b, v1.16b, v1.16b
	addp	v0.16b, v0.16b, v0.16b
	mov	h3, v3.h[0]
	umov	w8, v2.h[0]
	addp	v2.16b, v7.16b, v7.16b
	umov	w9, v4.h[0]
	movi	v4.2d, #0x0000000000ffff
	umov	w10, v1.h[0]
	umov	w13, v0.h[0]
	addp	v2.16b, v2.16b, v2.16b
	mov	v3.h[2], v5.h[0]
	lsl	w8, w8, #16
	addp	v5.16b, v6.16b, v6.16b
	lsl	x10, x10, #32
	bfxil	x8, x9, #0, #16
	umov	w12, v2.h[0]
	adrp	x9, l_CPI16_3@PAGE
	umov	w11, v5.h[0]
	ushll	v1.2d, v3.2s, #0
	fmov	d2, x8
	ldr	q3, [x9, l_CPI16_3@PAGEOFF]
	lsl	x9, x12, #48
	and	v1.16b, v1.16b, v4.16b
	mov	v4.16b, v2.16b
	lsl	w8, w11, #16
	bfxil	x8, x13, #0, #16
	mov	v4.d[1], x10
	ushl	v1.2d, v1.2d, v3.2d
	fmov	d3, x9
	mov	v3.d[1], x8
	orr	v4.16b, v1.16b, v4.16b
	orr	v3.16b, v3.16b, v4.16b
	umov	w8, v3.b[5]
	umov	w9, v3.b[13]
	ext	v6.16b, v3.16b, v3.16b, #8
	fmov	s5, w8
	umov	w8, v3.b[6]
	mov	v4.d[1], v6.d[0]
	mov	v5.h[1], w9
	umov	w9, v3.b[14]
	mov	b3, v3.b[7]
	mov	v5.h[2], w8
	adrp	x8, l_CPI16_4@PAGE
	ldr	d6, [x8, l_CPI16_4@PAGEOFF]
	ldr	x8, [sp]                        // 8-byte Reload
	tbl	v4.8b, { v4.16b }, v6.8b
	str	b2, [x8]
	mov	v5.h[3], w9
	stur	b0, [x8, #1]
	mov	b0, v1.b[15]
	stur	b3, [x8, #14]
	stur	d4, [x8, #2]
	xtn	v2.8b, v5.8h
	stur	b0, [x8, #15]
	stur	s2, [x8, #10]
	add	sp, sp, #128
	ret
                                        // -- End function
	.section	__TEXT,__const
	.p2align	4, 0x0                          // -- Begin function aes::hazmat::cipher_round
l_CPI17_0:
	.byte	0                               // 0x0
	.byte	4                               // 0x4
	.byte	8                               // 0x8
	.byte	12                              // 0xc
	.byte	1                               // 0x1
	.byte	5                               // 0x5
	.byte	9                               // 0x9
	.byte	13                              // 0xd
	.byte	2                               // 0x2
	.byte	6                               // 0x6
	.byte	10                              // 0xa
	.byte	14                              // 0xe
	.byte	3                               // 0x3
	.byte	7                               // 0x7
	.byte	11                              // 0xb
	.byte	15                              // 0xf
l_CPI17_1:
	.byte	1                               // 0x1
	.byte	2                               // 0x2
	.byte	4                               // 0x4
	.byte	8                               // 0x8
	.byte	16                              // 0x10
	.byte	32                              // 0x20
	.byte	64                              // 0x40
	.byte	128                             // 0x80
	.byte	1                               // 0x1
	.byte	2                               // 0x2
	.byte	4                               // 0x4
	.byte	8                               // 0x8
	.byte	16                              // 0x10
	.byte	32                              // 0x20
	.byte	64                              // 0x40
	.byte	128                             // 0x80
l_CPI17_2:
	.byte	0                               // 0x0
	.byte	2                               // 0x2
	.byte	4                               // 0x4
	.byte	6                               // 0x6
	.byte	8                               // 0x8
	.byte	10                              // 0xa
	.byte	12                              // 0xc
	.byte	14                              // 0xe
	.byte	1                               // 0x1
	.byte	3                               // 0x3
	.byte	5                               // 0x5
	.byte	7                               // 0x7
	.byte	9                               // 0x9
	.byte	11                              // 0xb
	.byte	13                              // 0xd
	.byte	15                              // 0xf
l_CPI17_3:
	.xword	32                              // 0x20
	.xword	48                              // 0x30
l_CPI17_4:
	.byte	0                               // 0x0
	.byte	1                               // 0x1
	.byte	17                              // 0x11
	.byte	25                              // 0x19
	.byte	18                              // 0x12
	.byte	26                              // 0x1a
	.byte	19                              // 0x13
	.byte	27                              // 0x1b
	.byte	20                              // 0x14
	.byte	28                              // 0x1c
	.byte	21                              // 0x15
	.byte	29                              // 0x1d
	.byte	22                              // 0x16
	.byte	30                              // 0x1e
	.byte	23                              // 0x17
	.byte	31                              // 0x1f
	.section	__TEXT,__text,regular,pure_instructions
	.p2align	2
"aes::hazmat::cipher_round":            // @"aes::hazmat::cipher_round"
// %bb.0:                               // %start
	sub	sp, sp, #112
	adrp	x8, l_CPI17_0@PAGE
	ldr	q0, [x0]
	movi	v1.16b, #2
	ldr	q2, [x8, l_CPI17_0@PAGEOFF]
	movi	v6.16b, #4
	movi	v4.16b, #16
	movi	v3.16b, #32
	movi	v7.16b, #1
	movi	v5.16b, #8
	tbl	v16.16b, { v0.16b }, v2.16b
	movi	v2.16b, #64
	adrp	x8, l_CPI17_1@PAGE
	ldr	q0, [x8, l_CPI17_1@PAGEOFF]
	stp	x20, x19, [sp, #96]             // 16-byte Folded Spill
	stp	x22, x21, [sp, #80]             // 16-byte Folded Spill
	stp	x24, x23, [sp, #64]             // 16-byte Folded Spill
	and	v17.16b, v16.16b, v1.16b
	and	v20.16b, v16.16b, v6.16b
	and	v21.16b, v16.16b, v4.16b
	and	v18.16b, v16.16b, v3.16b
	and	v19.16b, v16.16b, v2.16b
	and	v22.16b, v16.16b, v7.16b
	and	v23.16b, v16.16b, v5.16b
	cmlt	v16.16b, v16.16b, #0
	stp	x30, x0, [sp, #16]              // 16-byte Folded Spill
	cmeq	v17.16b, v17.16b, #0
	cmeq	v20.16b, v20.16b, #0
	cmeq	v21.16b, v21.16b, #0
	cmeq	v18.16b, v18.16b, #0
	cmeq	v19.16b, v19.16b, #0
	cmeq	v22.16b, v22.16b, #0
	cmeq	v23.16b, v23.16b, #0
	and	v16.16b, v16.16b, v0.16b
	stp	x28, x27, [sp, #32]             // 16-byte Folded Spill
	bic	v17.16b, v0.16b, v17.16b
	bic	v20.16b, v0.16b, v20.16b
	bic	v21.16b, v0.16b, v21.16b
	bic	v18.16b, v0.16b, v18.16b
	bic	v19.16b, v0.16b, v19.16b
	bic	v22.16b, v0.16b, v22.16b
	bic	v23.16b, v0.16b, v23.16b
	addp	v16.16b, v16.16b, v16.16b
	stp	x26, x25, [sp, #48]             // 16-byte Folded Spill
	addp	v17.16b, v17.16b, v17.16b
	addp	v20.16b, v20.16b, v20.16b
	addp	v21.16b, v21.16b, v21.16b
	addp	v18.16b, v18.16b, v18.16b
	addp	v19.16b, v19.16b, v19.16b
	addp	v22.16b, v22.16b, v22.16b
	addp	v23.16b, v23.16b, v23.16b
	addp	v16.16b, v16.16b, v16.16b
	addp	v17.16b, v17.16b, v17.16b
	addp	v20.16b, v20.16b, v20.16b
	addp	v21.16b, v21.16b, v21.16b
	addp	v18.16b, v18.16b, v18.16b
	addp	v19.16b, v19.16b, v19.16b
	addp	v22.16b, v22.16b, v22.16b
	addp	v23.16b, v23.16b, v23.16b
	addp	v16.16b, v16.16b, v16.16b
	addp	v17.16b, v17.16b, v17.16b
	addp	v20.16b, v20.16b, v20.16b
	addp	v21.16b, v21.16b, v21.16b
	addp	v18.16b, v18.16b, v18.16b
	addp	v19.16b, v19.16b, v19.16b
	umov	w20, v16.h[0]
	umov	w15, v17.h[0]
	addp	v17.16b, v22.16b, v22.16b
	addp	v22.16b, v23.16b, v23.16b
	umov	w16, v20.h[0]
	umov	w17, v21.h[0]
	eor	v18.16b, v19.16b, v18.16b
	umov	w4, v19.h[0]
	umov	w12, v22.h[0]
	umov	w14, v17.h[0]
	eor	w11, w20, w15
	umov	w3, v18.h[0]
	eor	w10, w17, w16
	eor	w13, w20, w17
	eor	w8, w20, w16
	eor	w9, w11, w10
	eor	w5, w9, w12
	eor	w22, w5, w4
	eor	w12, w3, w14
	eor	w2, w5, w16
	eor	w7, w22, w13
	eor	w19, w20, w12
	eor	w15, w12, w15
	eor	w16, w7, w14
	eor	w21, w12, w17
	eor	w4, w2, w3
	and	w24, w16, w19
	eor	w16, w7, w14
	eor	w6, w7, w3
	str	w16, [sp, #12]                  // 4-byte Spill
	and	w16, w15, w12
	eor	w5, w2, w14
	and	w23, w2, w9
	and	w26, w21, w14
	eor	w17, w8, w15
	eor	w3, w7, w4
	eor	w28, w8, w4
	and	w0, w6, w11
	eor	w16, w6, w16
	and	w25, w7, w13
	and	w27, w4, w8
	eor	w22, w22, w23
	and	w30, w3, w10
	eor	w28, w28, w26
	and	w26, w5, w17
	eor	w16, w16, w0
	eor	w27, w27, w25
	eor	w25, w30, w25
	eor	w22, w22, w26
	eor	w24, w6, w24
	eor	w0, w0, w20
	eor	w16, w16, w11
	eor	w23, w28, w23
	eor	w20, w22, w25
	eor	w0, w24, w0
	eor	w16, w16, w25
	eor	w22, w23, w27
	eor	w0, w0, w27
	and	w23, w16, w20
	eor	w24, w0, w16
	eor	w25, w23, w22
	eor	w26, w20, w22
	eor	w27, w23, w0
	and	w20, w25, w24
	and	w24, w27, w26
	eor	w23, w20, w23
	eor	w25, w20, w0
	eor	w22, w24, w22
	and	w0, w23, w0
	and	w20, w25, w21
	eor	w21, w22, w25
	eor	w23, w0, w27
	eor	w16, w0, w16
	and	w0, w21, w7
	and	w7, w23, w22
	eor	w23, w16, w25
	eor	w7, w7, w26
	and	w14, w25, w14
	and	w2, w16, w2
	eor	w24, w7, w23
	eor	w25, w7, w22
	and	w12, w7, w12
	and	w15, w7, w15
	eor	w7, w24, w21
	and	w13, w21, w13
	and	w10, w7, w10
	and	w3, w7, w3
	ldr	w7, [sp, #12]                   // 4-byte Reload
	eor	w14, w2, w14
	and	w6, w25, w6
	and	w4, w24, w4
	and	w7, w22, w7
	and	w17, w23, w17
	eor	w10, w10, w13
	and	w9, w16, w9
	eor	w16, w14, w7
	and	w5, w23, w5
	and	w11, w25, w11
	eor	w17, w10, w17
	eor	w14, w4, w14
	eor	w16, w16, w6
	eor	w5, w5, w2
	eor	w12, w6, w12
	eor	w2, w17, w9
	eor	w9, w14, w11
	eor	w14, w16, w15
	eor	w3, w12, w3
	eor	w12, w5, w12
	eor	w14, w14, w10
	eor	w15, w9, w3
	eor	w9, w12, w2
	eor	w12, w3, w0
	eor	w0, w14, w11
	eon	w11, w14, w11
	eor	w10, w9, w16
	and	w16, w24, w8
	eor	w8, w2, w12
	eon	w2, w0, w11, lsr #2
	and	w19, w22, w19
	mov	w11, #8976                      // =0x2310
	eor	w3, w14, w15
	eor	w4, w15, w19
	eon	w14, w14, w15
	and	w15, w2, w11
	eor	w17, w17, w20
	eor	w13, w13, w16
	eon	w0, w0, w15, lsl #2
	eon	w14, w3, w14, lsr #2
	eor	w17, w17, w4
	eor	w13, w13, w12
	eor	w16, w13, w4
	eon	w13, w13, w4
	eor	w4, w17, w17, lsr #2
	eor	w15, w0, w15
	eor	w0, w10, w10, lsr #2
	and	w14, w14, w11
	eor	w5, w9, w9, lsr #2
	eor	w2, w12, w9
	eon	w12, w12, w9
	eon	w3, w3, w14, lsl #2
	eon	w13, w16, w13, lsr #2
	and	w4, w4, w11
	and	w0, w0, w11
	and	w5, w5, w11
	eon	w12, w2, w12, lsr #2
	orr	w4, w4, w4, lsl #2
	orr	w0, w0, w0, lsl #2
	eor	w14, w3, w14
	orr	w3, w5, w5, lsl #2
	and	w13, w13, w11
	and	w12, w12, w11
	eon	w16, w16, w13, lsl #2
	eor	w17, w4, w17
	eor	w10, w0, w10
	eor	w9, w3, w9
	eon	w0, w2, w12, lsl #2
	eor	w2, w8, w8, lsr #2
	eor	w3, w15, w15, lsr #1
	eor	w4, w14, w14, lsr #1
	eor	w13, w16, w13
	mov	w16, #20560                     // =0x5050
	eor	w12, w0, w12
	and	w11, w2, w11
	and	w0, w3, w16
	and	w2, w4, w16
	orr	w11, w11, w11, lsl #2
	orr	w0, w0, w0, lsl #1
	orr	w2, w2, w2, lsl #1
	eor	w3, w17, w17, lsr #1
	eor	w4, w10, w10, lsr #1
	eor	w8, w11, w8
	eor	w11, w0, w15
	eor	w15, w9, w9, lsr #1
	eor	w14, w2, w14
	and	w0, w3, w16
	and	w2, w4, w16
	eor	w3, w13, w13, lsr #1
	orr	w0, w0, w0, lsl #1
	orr	w2, w2, w2, lsl #1
	eor	w4, w12, w12, lsr #1
	eor	w5, w8, w8, lsr #1
	and	w15, w15, w16
	eor	w17, w0, w17
	eor	w0, w2, w10
	orr	w10, w15, w15, lsl #1
	and	w15, w3, w16
	and	w2, w4, w16
	and	w16, w5, w16
	orr	w15, w15, w15, lsl #1
	orr	w16, w16, w16, lsl #1
	orr	w2, w2, w2, lsl #1
	ubfx	w3, w14, #4, #12
	eor	w9, w10, w9
	ubfx	w10, w11, #4, #12
	eor	w13, w15, w13
	eor	w15, w16, w8
	ubfx	w8, w17, #4, #12
	eor	w12, w2, w12
	orr	w2, w3, w14, lsl #12
	ubfx	w3, w9, #4, #12
	orr	w5, w8, w17, lsl #12
	ubfx	w8, w12, #4, #12
	ubfx	w6, w15, #4, #12
	ubfx	w4, w13, #4, #12
	orr	w16, w10, w11, lsl #12
	orr	w3, w3, w9, lsl #12
	orr	w7, w8, w12, lsl #12
	orr	w8, w6, w15, lsl #12
	eor	w14, w2, w14
	orr	w4, w4, w13, lsl #12
	rev	w19, w14
	ubfx	w10, w0, #4, #12
	eor	w11, w16, w11
	eor	w6, w3, w9
	eor	w9, w7, w12
	eor	w12, w8, w15
	eor	w2, w2, w19, lsr #16
	eor	w17, w5, w17
	eor	w13, w4, w13
	rev	w15, w11
	eor	w11, w12, w11
	orr	w10, w10, w0, lsl #12
	rev	w20, w17
	rev	w23, w13
	eor	w15, w16, w15, lsr #16
	eor	w11, w2, w11
	rev	w22, w6
	eor	w5, w5, w20, lsr #16
	eor	w6, w6, w23, lsr #16
	lsl	w11, w11, #16
	eor	w0, w10, w0
	eor	w15, w15, w12
	rev	w24, w9
	rev	w21, w0
	eor	w14, w5, w14
	eor	w2, w3, w22, lsr #16
	eor	w3, w6, w4
	bfxil	x11, x15, #0, #16
	rev	w16, w12
	eor	w17, w17, w21, lsr #16
	eor	w0, w12, w0
	eor	w4, w7, w24, lsr #16
	lsl	w3, w3, #16
	and	w14, w14, #0xffff
	eor	w10, w12, w10
	eor	w12, w2, w0
	eor	w8, w8, w16, lsr #16
	orr	x11, x11, x14, lsl #32
	eor	w13, w4, w13
	bfxil	x3, x12, #0, #16
	eor	w10, w17, w10
	and	w12, w13, #0xffff
	eor	w8, w8, w9
	orr	x9, x11, x10, lsl #48
	orr	x12, x3, x12, lsl #32
	ldp	x20, x19, [sp, #96]             // 16-byte Folded Reload
	fmov	d16, x9
	ldp	x22, x21, [sp, #80]             // 16-byte Folded Reload
	orr	x8, x12, x8, lsl #48
	ldp	x24, x23, [sp, #64]             // 16-byte Folded Reload
	ldp	x26, x25, [sp, #48]             // 16-byte Folded Reload
	mov	v16.d[1], x8
	adrp	x8, l_CPI17_2@PAGE
	ldr	q17, [x8, l_CPI17_2@PAGEOFF]
	ldp	x28, x27, [sp, #32]             // 16-byte Folded Reload
	tbl	v16.16b, { v16.16b }, v17.16b
	and	v1.16b, v16.16b, v1.16b
	and	v6.16b, v16.16b, v6.16b
	and	v7.16b, v16.16b, v7.16b
	and	v5.16b, v16.16b, v5.16b
	and	v3.16b, v16.16b, v3.16b
	and	v4.16b, v16.16b, v4.16b
	and	v2.16b, v16.16b, v2.16b
	cmlt	v16.16b, v16.16b, #0
	cmeq	v1.16b, v1.16b, #0
	cmeq	v6.16b, v6.16b, #0
	cmeq	v7.16b, v7.16b, #0
	cmeq	v5.16b, v5.16b, #0
	cmeq	v3.16b, v3.16b, #0
	cmeq	v4.16b, v4.16b, #0
	cmeq	v2.16b, v2.16b, #0
	bic	v1.16b, v0.16b, v1.16b
	bic	v6.16b, v0.16b, v6.16b
	bic	v7.16b, v0.16b, v7.16b
	bic	v5.16b, v0.16b, v5.16b
	bic	v3.16b, v0.16b, v3.16b
	bic	v4.16b, v0.16b, v4.16b
	bic	v2.16b, v0.16b, v2.16b
	and	v0.16b, v16.16b, v0.16b
	addp	v1.16b, v1.16b, v1.16b
	addp	v6.16b, v6.16b, v6.16b
	addp	v7.16b, v7.16b, v7.16b
	addp	v5.16b, v5.16b, v5.16b
	addp	v3.16b, v3.16b, v3.16b
	addp	v4.16b, v4.16b, v4.16b
	addp	v2.16b, v2.16b, v2.16b
	addp	v0.16b, v0.16b, v0.16b
	addp	v1.16b, v1.16b, v1.16b
	addp	v6.16b, v6.16b, v6.16b
	addp	v7.16b, v7.16b, v7.16b
	addp	v5.16b, v5.16b, v5.16b
	addp	v3.16b, v3.16b, v3.16b
	addp	v4.16b, v4.16b, v4.16b
	addp	v2.16b, v2.16b, v2.16b
	addp	v0.16b, v0.16b, v0.16b
	addp	v1.16b, v1.16b, v1.16b
	addp	v6.16b, v6.16b, v6.16b
	addp	v7.16b, v7.16b, v7.16b
	addp	v3.16b, v3.16b, v3.16b
	addp	v4.16b, v4.16b, v4.16b
	addp	v2.16b, v2.16b, v2.16b
	addp	v0.16b, v0.16b, v0.16b
	umov	w8, v1.h[0]
	addp	v1.16b, v5.16b, v5.16b
	mov	h5, v6.h[0]
	umov	w10, v7.h[0]
	umov	w9, v3.h[0]
	umov	w12, v4.h[0]
	umov	w13, v2.h[0]
	umov	w11, v1.h[0]
	lsl	w8, w8, #16
	mov	v5.h[2], v0.h[0]
	movi	v0.2d, #0x0000000000ffff
	lsl	w9, w9, #16
	bfxil	x8, x10, #0, #16
	lsl	x10, x11, #48
	bfxil	x9, x12, #0, #16
	lsl	x11, x13, #32
	fmov	d2, x8
	ushll	v1.2d, v5.2s, #0
	adrp	x8, l_CPI17_3@PAGE
	fmov	d3, x10
	mov	v2.d[1], x11
	and	v0.16b, v1.16b, v0.16b
	ldr	q1, [x8, l_CPI17_3@PAGEOFF]
	mov	v3.d[1], x9
	adrp	x8, l_CPI17_4@PAGE
	ushl	v0.2d, v0.2d, v1.2d
	orr	v1.16b, v3.16b, v2.16b
	ldr	q2, [x8, l_CPI17_4@PAGEOFF]
	ldp	x30, x8, [sp, #16]              // 16-byte Folded Reload
	orr	v1.16b, v1.16b, v0.16b
	mov	v0.16b, v1.16b
	mov	v0.b[1], w12
	tbl	v0.16b, { v0.16b, v1.16b }, v2.16b
	ldr	q1, [x1]
	eor	v0.16b, v1.16b, v0.16b
	str	q0, [x8]
	add	sp, sp, #112
	ret
                                        // -- End function
	.section	__TEXT,__const
	.p2align	4, 0x0                          // -- Begin function aes::hazmat::inv_mix_columns
l_CPI18_0:
	.byte	0                               // 0x0
	.byte	4                               // 0x4
	.byte	8                               // 0x8
	.byte	12                              // 0xc
	.byte	1                               // 0x1
	.byte	5                               // 0x5
	.byte	9                               // 0x9
	.byte	13                              // 0xd
	.byte	2                               // 0x2
	.byte	6                               // 0x6
	.byte	10                              // 0xa
	.byte	14                              // 0xe
	.byte	3                               // 0x3
	.byte	7                               // 0x7
	.byte	11                              // 0xb
	.byte	15                              // 0xf
l_CPI18_1:
	.byte	1                               // 0x1
	.byte	2                               // 0x2
	.byte	4                               // 0x4
	.byte	8                               // 0x8
	.byte	16                              // 0x10
	.byte	32                              // 0x20
	.byte	64                              // 0x40
	.byte	128                             // 0x80
	.byte	1                               // 0x1
	.byte	2                               // 0x2
	.byte	4                               // 0x4
	.byte	8                               // 0x8
	.byte	16                              // 0x10
	.byte	32                              // 0x20
	.byte	64                              // 0x40
	.byte	128                             // 0x80
l_CPI18_2:
	.byte	0                               // 0x0
	.byte	2                               // 0x2
	.byte	4                               // 0x4
	.byte	6                               // 0x6
	.byte	8                               // 0x8
	.byte	10                              // 0xa
	.byte	12                              // 0xc
	.byte	14                              // 0xe
	.byte	1                               // 0x1
	.byte	3                               // 0x3
	.byte	5                               // 0x5
	.byte	7                               // 0x7
	.byte	9                               // 0x9
	.byte	11                              // 0xb
	.byte	13                              // 0xd
	.byte	15                              // 0xf
l_CPI18_3:
	.xword	32                              // 0x20
	.xword	48                              // 0x30
	.section	__TEXT,__const
	.p2align	3, 0x0
l_CPI18_4:
	.byte	1                               // 0x1
	.byte	9                               // 0x9
	.byte	2                               // 0x2
	.byte	10                              // 0xa
	.byte	3                               // 0x3
	.byte	11                              // 0xb
	.byte	4                               // 0x4
	.byte	12                              // 0xc
	.section	__TEXT,__text,regular,pure_instructions
	.p2align	2
"aes::hazmat::inv_mix_columns":         // @"aes::hazmat::inv_mix_columns"
// %bb.0:                               // %start
	str	x23, [sp, #-48]!                // 8-byte Folded Spill
	adrp	x8, l_CPI18_0@PAGE
	ldr	q0, [x0]
	movi	v3.16b, #1
	ldr	q1, [x8, l_CPI18_0@PAGEOFF]
	movi	v5.16b, #2
	movi	v6.16b, #4
	movi	v4.16b, #32
	movi	v7.16b, #64
	adrp	x8, l_CPI18_1@PAGE
	tbl	v16.16b, { v0.16b }, v1.16b
	movi	v0.16b, #8
	movi	v1.16b, #16
	ldr	q2, [x8, l_CPI18_1@PAGEOFF]
	stp	x20, x19, [sp, #32]             // 16-byte Folded Spill
	stp	x22, x21, [sp, #16]             // 16-byte Folded Spill
	and	v17.16b, v16.16b, v3.16b
	and	v18.16b, v16.16b, v5.16b
	and	v19.16b, v16.16b, v6.16b
	cmlt	v20.16b, v16.16b, #0
	and	v21.16b, v16.16b, v0.16b
	and	v22.16b, v16.16b, v1.16b
	and	v23.16b, v16.16b, v4.16b
	and	v16.16b, v16.16b, v7.16b
	cmeq	v18.16b, v18.16b, #0
	cmeq	v19.16b, v19.16b, #0
	cmeq	v17.16b, v17.16b, #0
	and	v20.16b, v20.16b, v2.16b
	cmeq	v21.16b, v21.16b, #0
	cmeq	v22.16b, v22.16b, #0
	cmeq	v23.16b, v23.16b, #0
	cmeq	v16.16b, v16.16b, #0
	bic	v18.16b, v2.16b, v18.16b
	bic	v19.16b, v2.16b, v19.16b
	bic	v17.16b, v2.16b, v17.16b
	addp	v20.16b, v20.16b, v20.16b
	bic	v21.16b, v2.16b, v21.16b
	bic	v22.16b, v2.16b, v22.16b
	bic	v23.16b, v2.16b, v23.16b
	bic	v16.16b, v2.16b, v16.16b
	addp	v18.16b, v18.16b, v18.16b
	addp	v19.16b, v19.16b, v19.16b
	addp	v17.16b, v17.16b, v17.16b
	addp	v20.16b, v20.16b, v20.16b
	addp	v21.16b, v21.16b, v21.16b
	addp	v22.16b, v22.16b, v22.16b
	addp	v23.16b, v23.16b, v23.16b
	addp	v16.16b, v16.16b, v16.16b
	addp	v18.16b, v18.16b, v18.16b
	addp	v19.16b, v19.16b, v19.16b
	addp	v17.16b, v17.16b, v17.16b
	addp	v20.16b, v20.16b, v20.16b
	addp	v21.16b, v21.16b, v21.16b
	addp	v22.16b, v22.16b, v22.16b
	addp	v23.16b, v23.16b, v23.16b
	addp	v16.16b, v16.16b, v16.16b
	addp	v18.16b, v18.16b, v18.16b
	addp	v19.16b, v19.16b, v19.16b
	addp	v17.16b, v17.16b, v17.16b
	umov	w8, v20.h[0]
	addp	v20.16b, v21.16b, v21.16b
	addp	v21.16b, v22.16b, v22.16b
	addp	v22.16b, v23.16b, v23.16b
	addp	v16.16b, v16.16b, v16.16b
	umov	w10, v18.h[0]
	umov	w12, v19.h[0]
	umov	w9, v17.h[0]
	umov	w13, v20.h[0]
	umov	w14, v21.h[0]
	ubfx	w11, w8, #4, #12
	umov	w15, v22.h[0]
	umov	w16, v16.h[0]
	ubfx	w1, w10, #4, #12
	ubfx	w2, w12, #4, #12
	ubfx	w17, w9, #4, #12
	ubfx	w3, w13, #4, #12
	orr	w11, w11, w8, lsl #12
	ubfx	w4, w14, #4, #12
	ubfx	w5, w15, #4, #12
	ubfx	w6, w16, #4, #12
	orr	w1, w1, w10, lsl #12
	orr	w2, w2, w12, lsl #12
	orr	w3, w3, w13, lsl #12
	eor	w7, w11, w8
	orr	w5, w5, w15, lsl #12
	orr	w6, w6, w16, lsl #12
	orr	w17, w17, w9, lsl #12
	orr	w4, w4, w14, lsl #12
	eor	w11, w7, w9
	eor	w19, w10, w7
	eor	w20, w13, w7
	eor	w10, w1, w10
	eor	w1, w2, w12
	eor	w13, w3, w13
	eor	w2, w5, w15
	eor	w3, w6, w16
	eor	w17, w17, w9
	eor	w5, w12, w10
	eor	w16, w16, w2
	eor	w8, w8, w3
	eor	w12, w1, w11
	eor	w21, w14, w7
	eor	w14, w4, w14
	eor	w4, w19, w17
	eor	w9, w20, w1
	eor	w1, w8, w16
	eor	w19, w8, w12
	eor	w12, w16, w13
	eor	w6, w21, w13
	eor	w15, w15, w14
	eor	w13, w1, w10
	eor	w10, w12, w4
	eor	w12, w14, w5
	eor	w17, w16, w17
	eor	w1, w12, w1
	eor	w12, w7, w15
	rev	w7, w13
	eor	w14, w8, w2
	eor	w2, w6, w3
	rev	w3, w17
	eor	w13, w13, w7, lsr #16
	eor	w14, w14, w9
	eor	w17, w17, w3, lsr #16
	rev	w20, w19
	rev	w23, w14
	rev	w22, w1
	eor	w13, w13, w4
	eor	w15, w15, w23, lsr #16
	eor	w11, w17, w11
	eor	w17, w5, w20, lsr #16
	lsl	w13, w13, #16
	rev	w21, w10
	rev	w3, w2
	eor	w4, w6, w22, lsr #16
	eor	w14, w15, w14
	eor	w15, w17, w19
	bfxil	x13, x11, #0, #16
	eor	w16, w16, w3, lsr #16
	lsl	w14, w14, #16
	eor	w9, w9, w21, lsr #16
	and	w15, w15, #0xffff
	eor	w17, w4, w1
	orr	x13, x13, x15, lsl #32
	rev	w7, w12
	eor	w11, w16, w2
	bfxil	x14, x17, #0, #16
	eor	w9, w9, w10
	eor	w8, w8, w7, lsr #16
	and	w11, w11, #0xffff
	orr	x9, x13, x9, lsl #48
	orr	x10, x14, x11, lsl #32
	ldp	x20, x19, [sp, #32]             // 16-byte Folded Reload
	eor	w8, w8, w12
	fmov	d16, x9
	orr	x8, x10, x8, lsl #48
	ldp	x22, x21, [sp, #16]             // 16-byte Folded Reload
	mov	v16.d[1], x8
	adrp	x8, l_CPI18_2@PAGE
	ldr	q17, [x8, l_CPI18_2@PAGEOFF]
	tbl	v16.16b, { v16.16b }, v17.16b
	and	v6.16b, v16.16b, v6.16b
	and	v5.16b, v16.16b, v5.16b
	and	v3.16b, v16.16b, v3.16b
	and	v7.16b, v16.16b, v7.16b
	cmlt	v17.16b, v16.16b, #0
	and	v0.16b, v16.16b, v0.16b
	and	v4.16b, v16.16b, v4.16b
	and	v1.16b, v16.16b, v1.16b
	cmeq	v6.16b, v6.16b, #0
	cmeq	v5.16b, v5.16b, #0
	cmeq	v3.16b, v3.16b, #0
	cmeq	v7.16b, v7.16b, #0
	and	v16.16b, v17.16b, v2.16b
	cmeq	v0.16b, v0.16b, #0
	cmeq	v4.16b, v4.16b, #0
	cmeq	v1.16b, v1.16b, #0
	bic	v6.16b, v2.16b, v6.16b
	bic	v5.16b, v2.16b, v5.16b
	bic	v3.16b, v2.16b, v3.16b
	bic	v7.16b, v2.16b, v7.16b
	addp	v16.16b, v16.16b, v16.16b
	bic	v0.16b, v2.16b, v0.16b
	bic	v4.16b, v2.16b, v4.16b
	bic	v1.16b, v2.16b, v1.16b
	addp	v6.16b, v6.16b, v6.16b
	addp	v5.16b, v5.16b, v5.16b
	addp	v3.16b, v3.16b, v3.16b
	addp	v2.16b, v7.16b, v7.16b
	addp	v7.16b, v16.16b, v16.16b
	addp	v0.16b, v0.16b, v0.16b
	addp	v4.16b, v4.16b, v4.16b
	addp	v1.16b, v1.16b, v1.16b
	addp	v6.16b, v6.16b, v6.16b
	addp	v5.16b, v5.16b, v5.16b
	addp	v3.16b, v3.16b, v3.16b
	addp	v7.16b, v7.16b, v7.16b
	addp	v2.16b, v2.16b, v2.16b
	addp	v0.16b, v0.16b, v0.16b
	addp	v4.16b, v4.16b, v4.16b
	addp	v1.16b, v1.16b, v1.16b
	addp	v6.16b, v6.16b, v6.16b
	addp	v5.16b, v5.16b, v5.16b
	addp	v3.16b, v3.16b, v3.16b
	addp	v2.16b, v2.16b, v2.16b
	addp	v4.16b, v4.16b, v4.16b
	mov	h6, v6.h[0]
	umov	w8, v5.h[0]
	umov	w9, v3.h[0]
	addp	v5.16b, v0.16b, v0.16b
	movi	v3.2d, #0x0000000000ffff
	addp	v0.16b, v1.16b, v1.16b
	umov	w10, v2.h[0]
	umov	w11, v4.h[0]
	mov	v6.h[2], v7.h[0]
	lsl	w8, w8, #16
	umov	w12, v5.h[0]
	umov	w13, v0.h[0]
	stur	b0, [x0, #1]
	bfxil	x8, x9, #0, #16
	adrp	x9, l_CPI18_3@PAGE
	lsl	x10, x10, #32
	ushll	v1.2d, v6.2s, #0
	fmov	d2, x8
	lsl	w8, w11, #16
	bfxil	x8, x13, #0, #16
	and	v1.16b, v1.16b, v3.16b
	mov	v4.16b, v2.16b
	ldr	q3, [x9, l_CPI18_3@PAGEOFF]
	lsl	x9, x12, #48
	str	b2, [x0]
	mov	v4.d[1], x10
	ushl	v1.2d, v1.2d, v3.2d
	fmov	d3, x9
	mov	v3.d[1], x8
	mov	b0, v1.b[15]
	orr	v4.16b, v1.16b, v4.16b
	orr	v3.16b, v3.16b, v4.16b
	stur	b0, [x0, #15]
	umov	w8, v3.b[5]
	umov	w9, v3.b[13]
	ext	v6.16b, v3.16b, v3.16b, #8
	fmov	s5, w8
	umov	w8, v3.b[6]
	mov	v4.d[1], v6.d[0]
	mov	v5.h[1], w9
	umov	w9, v3.b[14]
	mov	b3, v3.b[7]
	mov	v5.h[2], w8
	adrp	x8, l_CPI18_4@PAGE
	stur	b3, [x0, #14]
	ldr	d6, [x8, l_CPI18_4@PAGEOFF]
	tbl	v4.8b, { v4.16b }, v6.8b
	mov	v5.h[3], w9
	stur	d4, [x0, #2]
	xtn	v2.8b, v5.8h
	stur	s2, [x0, #10]
	ldr	x23, [sp], #48                  // 8-byte Folded Reload
	ret
                                        // -- End function
	.section	__TEXT,__text,regular,pure_instructions
	.p2align	2                               // -- Begin function aes_kat::digits::write_block
"aes_kat::digits::write_block":         // @"aes_kat::digits::write_block"
// %bb.0:                               // %"core::result::Result::unwrap::<(),24'hex::error::FromHexError>.exit"
	ldrb	w10, [x0]
	adrp	x9, l_static.11@PAGE
	add	x9, x9, l_static.11@PAGEOFF
	lsr	x8, x10, #4
	and	x10, x10, #0xf
	ldrb	w11, [x9, x8]
	add	x8, x2, x1
	strb	w11, [x8]
	ldrb	w10, [x9, x10]
	strb	w10, [x8, #1]
	ldrb	w10, [x0, #1]
	lsr	x11, x10, #4
	and	x10, x10, #0xf
	ldrb	w11, [x9, x11]
	strb	w11, [x8, #2]
	ldrb	w10, [x9, x10]
	strb	w10, [x8, #3]
	ldrb	w10, [x0, #2]
	lsr	x11, x10, #4
	and	x10, x10, #0xf
	ldrb	w11, [x9, x11]
	strb	w11, [x8, #4]
	ldrb	w10, [x9, x10]
	strb	w10, [x8, #5]
	ldrb	w10, [x0, #3]
	lsr	x11, x10, #4
	and	x10, x10, #0xf
	ldrb	w11, [x9, x11]
	strb	w11, [x8, #6]
	ldrb	w10, [x9, x10]
	strb	w10, [x8, #7]
	ldrb	w10, [x0, #4]
	lsr	x11, x10, #4
	and	x10, x10, #0xf
	ldrb	w11, [x9, x11]
	strb	w11, [x8, #8]
	ldrb	w10, [x9, x10]
	strb	w10, [x8, #9]
	ldrb	w10, [x0, #5]
	lsr	x11, x10, #4
	and	x10, x10, #0xf
	ldrb	w11, [x9, x11]
	strb	w11, [x8, #10]
	ldrb	w10, [x9, x10]
	strb	w10, [x8, #11]
	ldrb	w10, [x0, #6]
	lsr	x11, x10, #4
	and	x10, x10, #0xf
	ldrb	w11, [x9, x11]
	strb	w11, [x8, #12]
	ldrb	w10, [x9, x10]
	strb	w10, [x8, #13]
	ldrb	w10, [x0, #7]
	lsr	x11, x10, #4
	and	x10, x10, #0xf
	ldrb	w11, [x9, x11]
	strb	w11, [x8, #14]
	ldrb	w10, [x9, x10]
	strb	w10, [x8, #15]
	ldrb	w10, [x0, #8]
	lsr	x11, x10, #4
	and	x10, x10, #0xf
	ldrb	w11, [x9, x11]
	strb	w11, [x8, #16]
	ldrb	w10, [x9, x10]
	strb	w10, [x8, #17]
	ldrb	w10, [x0, #9]
	lsr	x11, x10, #4
	and	x10, x10, #0xf
	ldrb	w11, [x9, x11]
	strb	w11, [x8, #18]
	ldrb	w10, [x9, x10]
	strb	w10, [x8, #19]
	ldrb	w10, [x0, #10]
	lsr	x11, x10, #4
	and	x10, x10, #0xf
	ldrb	w11, [x9, x11]
	strb	w11, [x8, #20]
	ldrb	w10, [x9, x10]
	strb	w10, [x8, #21]
	ldrb	w10, [x0, #11]
	lsr	x11, x10, #4
	and	x10, x10, #0xf
	ldrb	w11, [x9, x11]
	strb	w11, [x8, #22]
	ldrb	w10, [x9, x10]
	strb	w10, [x8, #23]
	ldrb	w10, [x0, #12]
	lsr	x11, x10, #4
	and	x10, x10, #0xf
	ldrb	w11, [x9, x11]
	strb	w11, [x8, #24]
	ldrb	w10, [x9, x10]
	strb	w10, [x8, #25]
	ldrb	w10, [x0, #13]
	lsr	x11, x10, #4
	and	x10, x10, #0xf
	ldrb	w11, [x9, x11]
	strb	w11, [x8, #26]
	ldrb	w10, [x9, x10]
	strb	w10, [x8, #27]
	ldrb	w10, [x0, #14]
	lsr	x11, x10, #4
	and	x10, x10, #0xf
	ldrb	w11, [x9, x11]
	strb	w11, [x8, #28]
	ldrb	w10, [x9, x10]
	strb	w10, [x8, #29]
	ldrb	w10, [x0, #15]
	add	x0, x1, #32
	lsr	x11, x10, #4
	and	x10, x10, #0xf
	ldrb	w11, [x9, x11]
	strb	w11, [x8, #30]
	ldrb	w9, [x9, x10]
	strb	w9, [x8, #31]
	ret
                                        // -- End function
	.section	__TEXT,__text,regular,pure_instructions
	.p2align	2                               // -- Begin function std_alloc::vec::Vec::grow_amortized::<#b2ae9ec5f5f36c9c>
"std_alloc::vec::Vec::grow_amortized::<#b2ae9ec5f5f36c9c>": // @"std_alloc::vec::Vec::grow_amortized::<#b2ae9ec5f5f36c9c>"
// %bb.0:                               // %start
	ldr	x8, [x0, #8]
	cmn	x8, x1
	b.lo	LBB20_2
// %bb.1:
	mov	w0, wzr
	ret
LBB20_2:                               // %join.3
	stp	x29, x30, [sp, #-32]!           // 16-byte Folded Spill
	ldr	x10, [x0, #16]
	add	x9, x8, x1
	mov	w11, #8                         // =0x8
	cmp	x9, #8
	stp	x20, x19, [sp, #16]             // 16-byte Folded Spill
	mov	x29, sp
	lsl	x12, x10, #1
	csel	x11, x9, x11, hi
	lsr	x13, x10, #62
	cmp	x11, x12
	csel	x9, x11, x12, hi
	cmp	x13, #0
	csel	x19, x9, x11, eq
	tbnz	x19, #63, LBB20_7
// %bb.3:                               // %join.3.i
	cbz	x10, LBB20_6
// %bb.4:                               // %then.1.i.i
	mov	x20, x0
	ldr	x0, [x0]
	mov	x1, x8
	mov	x2, x19
	mov	w3, #1                          // =0x1
	bl	_rattle_realloc
	tbz	w0, #0, LBB20_7
LBB20_5:                               // %arm.5.i
	mov	w0, #1                          // =0x1
	str	x1, [x20]
	str	x19, [x20, #16]
	ldp	x20, x19, [sp, #16]             // 16-byte Folded Reload
	ldp	x29, x30, [sp], #32             // 16-byte Folded Reload
	ret
LBB20_6:                               // %"std_alloc::vec::resize::<#b2ae9ec5f5f36c9c>.exit.i"
	mov	x20, x0
	mov	x0, x9
	mov	w1, #1                          // =0x1
	bl	_rattle_alloc
	tbnz	w0, #0, LBB20_5
LBB20_7:
	mov	w0, wzr
	ldp	x20, x19, [sp, #16]             // 16-byte Folded Reload
	ldp	x29, x30, [sp], #32             // 16-byte Folded Reload
	ret
                                        // -- End function
	.section	__TEXT,__const
	.p2align	4, 0x0                          // -- Begin function std_io::io::buffer::Buffer::flush
l_CPI21_0:
	.xword	8458358670138239095             // 0x756220656c6f6877
	.xword	3327647951695996518             // 0x2e2e2e2e72656666
l_CPI21_1:
	.xword	8367798494427701606             // 0x742064656c696166
	.xword	2334399978102268015             // 0x206574697277206f
	.section	__TEXT,__text,regular,pure_instructions
	.p2align	2
"std_io::io::buffer::Buffer::flush":    // @"std_io::io::buffer::Buffer::flush"
// %bb.0:                               // %start
	sub	sp, sp, #128
	stp	x22, x21, [sp, #96]             // 16-byte Folded Spill
	ldr	x22, [x0, #1032]
	stp	x29, x30, [sp, #48]             // 16-byte Folded Spill
	add	x29, sp, #48
	cmp	x22, #1025
	str	x25, [sp, #64]                  // 8-byte Spill
	stp	x24, x23, [sp, #80]             // 16-byte Folded Spill
	stp	x20, x19, [sp, #112]            // 16-byte Folded Spill
	str	xzr, [x0, #1032]
	b.lo	LBB21_2
// %bb.1:
	mov	w0, wzr
	b	LBB21_21
LBB21_2:                               // %join.3
	mov	x24, x0
	mov	x19, x0
	mov	x23, xzr
	ldr	w20, [x24], #4
	add	x25, x22, #64
	b	LBB21_5
LBB21_3:                               // %then.10.i
                                        //   in Loop: Header=BB21_5 Depth=1
	bl	_rattle_errno
	cmp	w0, #4
	b.ne	LBB21_13
// %bb.4:                               // %join.12.i
                                        //   in Loop: Header=BB21_5 Depth=1
	subs	x25, x25, #1
	b.eq	LBB21_9
LBB21_5:                               // %arm.3.i
                                        // =>This Inner Loop Header: Depth=1
	subs	x21, x22, x23
	b.ls	LBB21_11
// %bb.6:                               // %join.9.i
                                        //   in Loop: Header=BB21_5 Depth=1
	add	x1, x24, x23
	mov	w0, w20
	mov	x2, x21
	bl	_write
	tbnz	x0, #63, LBB21_3
// %bb.7:                               // %else.11.i
                                        //   in Loop: Header=BB21_5 Depth=1
	cbz	x0, LBB21_12
// %bb.8:                               // %else.17.i
                                        //   in Loop: Header=BB21_5 Depth=1
	cmp	x0, x21
	csel	x8, x0, x21, lo
	add	x23, x8, x23
	subs	x25, x25, #1
	b.ne	LBB21_5
LBB21_9:                               // %after.1.i
	cmp	x22, x23
	b.ls	LBB21_11
// %bb.10:                              // %"std_io::io::write_to.exit"
	movi	v0.2d, #0000000000000000
	movi	v1.2d, #0000000000000000
	mov	w9, wzr
	mov	w10, wzr
	mov	w8, #35                         // =0x23
	mov	w0, #4                          // =0x4
	b	LBB21_19
LBB21_11:
	mov	w0, #1                          // =0x1
	b	LBB21_21
LBB21_12:                              // %then.16.i
	movi	v2.16b, #46
	adrp	x8, l_CPI21_0@PAGE
	adrp	x9, l_CPI21_1@PAGE
	ldr	q1, [x8, l_CPI21_0@PAGEOFF]
	ldr	q0, [x9, l_CPI21_1@PAGEOFF]
	mov	w10, #2                         // =0x2
	mov	w8, #23                         // =0x17
	mov	w9, #28                         // =0x1c
	stp	q2, q2, [sp, #16]
	str	q2, [sp]
	b	LBB21_20
LBB21_13:                              // %then.13.i
	tbnz	w0, #31, LBB21_17
// %bb.14:                              // %else.2.i.i
	sub	w8, w0, #1
	cmp	w8, #121
	b.hi	LBB21_17
// %bb.15:                              // %else.2.i.i
	adrp	x9, l_JTI21_0@PAGE
	add	x9, x9, l_JTI21_0@PAGEOFF
	adr	x10, LBB21_16
	ldrb	w11, [x9, x8]
	add	x10, x10, x11, lsl #2
	mov	w8, #1                          // =0x1
	br	x10
LBB21_16:                              // %arm.23.i.i.i
	mov	w8, #36                         // =0x24
	b	LBB21_18
LBB21_17:                              // %default.40.i.i.i
	mov	w8, #41                         // =0x29
LBB21_18:                              // %"std_io::io::error::Error::from_raw_os_error.exit"
	movi	v0.2d, #0000000000000000
	mov	w9, wzr
	mov	w10, wzr
	movi	v1.2d, #0000000000000000
LBB21_19:                              // %arm.5
	stp	q0, q0, [sp, #16]
	str	q0, [sp]
LBB21_20:                              // %arm.5
	str	q0, [x19, #1056]
	str	q1, [x19, #1072]
	ldp	q0, q1, [sp]
	strb	w10, [x19, #1048]
	mov	w10, #1                         // =0x1
	str	x10, [x19, #1040]
	str	q0, [x19, #1088]
	ldr	q0, [sp, #32]
	strb	w8, [x19, #1049]
	strb	w9, [x19, #1050]
	strb	wzr, [x19, #1051]
	str	w0, [x19, #1052]
	mov	w0, wzr
	str	q1, [x19, #1104]
	str	q0, [x19, #1120]
LBB21_21:                              // %common.ret
	ldp	x20, x19, [sp, #112]            // 16-byte Folded Reload
	ldr	x25, [sp, #64]                  // 8-byte Reload
	ldp	x22, x21, [sp, #96]             // 16-byte Folded Reload
	ldp	x24, x23, [sp, #80]             // 16-byte Folded Reload
	ldp	x29, x30, [sp, #48]             // 16-byte Folded Reload
	add	sp, sp, #128
	ret
LBB21_22:                              // %arm.38.i.i.i
	mov	w8, #19                         // =0x13
	b	LBB21_18
LBB21_23:                              // %arm.20.i.i.i
	mov	w8, #11                         // =0xb
	b	LBB21_18
LBB21_24:                              // %arm.27.i.i.i
	mov	w8, #8                          // =0x8
	b	LBB21_18
LBB21_25:                              // %arm.15.i.i.i
	mov	w8, #27                         // =0x1b
	b	LBB21_18
LBB21_26:                              // %arm.24.i.i.i
	mov	w8, #16                         // =0x10
	b	LBB21_18
LBB21_27:                              // %arm.35.i.i.i
	mov	w8, #2                          // =0x2
	b	LBB21_18
LBB21_28:                              // %arm.12.i.i.i
	mov	w8, #15                         // =0xf
	b	LBB21_18
LBB21_29:                              // %arm.30.i.i.i
	mov	w8, #5                          // =0x5
	b	LBB21_18
LBB21_30:                              // %arm.31.i.i.i
	mov	w8, #6                          // =0x6
	b	LBB21_18
LBB21_31:                              // %arm.33.i.i.i
	mov	w8, #7                          // =0x7
	b	LBB21_18
LBB21_32:                              // %arm.14.i.i.i
	mov	w8, #29                         // =0x1d
	b	LBB21_18
LBB21_33:                              // %arm.21.i.i.i
	mov	w8, #30                         // =0x1e
	b	LBB21_18
LBB21_34:                              // %arm.2.i.i.i
	mov	w8, wzr
	b	LBB21_18
LBB21_35:                              // %arm.6.i.i.i
	mov	w8, #38                         // =0x26
	b	LBB21_18
LBB21_36:                              // %arm.13.i.i.i
	mov	w8, #20                         // =0x14
	b	LBB21_18
LBB21_37:                              // %arm.25.i.i.i
	mov	w8, #18                         // =0x12
	b	LBB21_18
LBB21_38:                              // %arm.8.i.i.i
	mov	w8, #28                         // =0x1c
	b	LBB21_18
LBB21_39:                              // %arm.9.i.i.i
	mov	w8, #12                         // =0xc
	b	LBB21_18
LBB21_40:                              // %arm.32.i.i.i
	mov	w8, #3                          // =0x3
	b	LBB21_18
LBB21_41:                              // %arm.16.i.i.i
	mov	w8, #24                         // =0x18
	b	LBB21_18
LBB21_42:                              // %arm.39.i.i.i
	mov	w8, #26                         // =0x1a
	b	LBB21_18
LBB21_43:                              // %arm.17.i.i.i
	mov	w8, #25                         // =0x19
	b	LBB21_18
LBB21_44:                              // %arm.4.i.i.i
	mov	w8, #34                         // =0x22
	b	LBB21_18
LBB21_45:                              // %arm.5.i.i.i
	mov	w8, #13                         // =0xd
	b	LBB21_18
LBB21_46:                              // %arm.11.i.i.i
	mov	w8, #14                         // =0xe
	b	LBB21_18
LBB21_47:                              // %arm.10.i.i.i
	mov	w8, #31                         // =0x1f
	b	LBB21_18
LBB21_48:                              // %arm.19.i.i.i
	mov	w8, #32                         // =0x20
	b	LBB21_18
LBB21_49:                              // %arm.36.i.i.i
	mov	w8, #4                          // =0x4
	b	LBB21_18
LBB21_50:                              // %arm.18.i.i.i
	mov	w8, #17                         // =0x11
	b	LBB21_18
LBB21_51:                              // %arm.22.i.i.i
	mov	w8, #33                         // =0x21
	b	LBB21_18
LBB21_52:                              // %arm.29.i.i.i
	mov	w8, #10                         // =0xa
	b	LBB21_18
LBB21_53:                              // %arm.28.i.i.i
	mov	w8, #9                          // =0x9
	b	LBB21_18
LBB21_54:                              // %arm.37.i.i.i
	mov	w8, #39                         // =0x27
	b	LBB21_18
LBB21_55:                              // %arm.34.i.i.i
	mov	w8, #22                         // =0x16
	b	LBB21_18
	.section	__TEXT,__const
l_JTI21_0:
	.byte	(LBB21_18-LBB21_16)>>2
	.byte	(LBB21_34-LBB21_16)>>2
	.byte	(LBB21_17-LBB21_16)>>2
	.byte	(LBB21_17-LBB21_16)>>2
	.byte	(LBB21_17-LBB21_16)>>2
	.byte	(LBB21_17-LBB21_16)>>2
	.byte	(LBB21_44-LBB21_16)>>2
	.byte	(LBB21_17-LBB21_16)>>2
	.byte	(LBB21_17-LBB21_16)>>2
	.byte	(LBB21_17-LBB21_16)>>2
	.byte	(LBB21_45-LBB21_16)>>2
	.byte	(LBB21_35-LBB21_16)>>2
	.byte	(LBB21_18-LBB21_16)>>2
	.byte	(LBB21_17-LBB21_16)>>2
	.byte	(LBB21_17-LBB21_16)>>2
	.byte	(LBB21_38-LBB21_16)>>2
	.byte	(LBB21_39-LBB21_16)>>2
	.byte	(LBB21_47-LBB21_16)>>2
	.byte	(LBB21_17-LBB21_16)>>2
	.byte	(LBB21_46-LBB21_16)>>2
	.byte	(LBB21_28-LBB21_16)>>2
	.byte	(LBB21_36-LBB21_16)>>2
	.byte	(LBB21_17-LBB21_16)>>2
	.byte	(LBB21_17-LBB21_16)>>2
	.byte	(LBB21_17-LBB21_16)>>2
	.byte	(LBB21_32-LBB21_16)>>2
	.byte	(LBB21_25-LBB21_16)>>2
	.byte	(LBB21_41-LBB21_16)>>2
	.byte	(LBB21_43-LBB21_16)>>2
	.byte	(LBB21_50-LBB21_16)>>2
	.byte	(LBB21_48-LBB21_16)>>2
	.byte	(LBB21_23-LBB21_16)>>2
	.byte	(LBB21_17-LBB21_16)>>2
	.byte	(LBB21_17-LBB21_16)>>2
	.byte	(LBB21_33-LBB21_16)>>2
	.byte	(LBB21_51-LBB21_16)>>2
	.byte	(LBB21_17-LBB21_16)>>2
	.byte	(LBB21_16-LBB21_16)>>2
	.byte	(LBB21_26-LBB21_16)>>2
	.byte	(LBB21_37-LBB21_16)>>2
	.byte	(LBB21_17-LBB21_16)>>2
	.byte	(LBB21_17-LBB21_16)>>2
	.byte	(LBB21_17-LBB21_16)>>2
	.byte	(LBB21_17-LBB21_16)>>2
	.byte	(LBB21_17-LBB21_16)>>2
	.byte	(LBB21_17-LBB21_16)>>2
	.byte	(LBB21_17-LBB21_16)>>2
	.byte	(LBB21_17-LBB21_16)>>2
	.byte	(LBB21_17-LBB21_16)>>2
	.byte	(LBB21_17-LBB21_16)>>2
	.byte	(LBB21_17-LBB21_16)>>2
	.byte	(LBB21_17-LBB21_16)>>2
	.byte	(LBB21_17-LBB21_16)>>2
	.byte	(LBB21_17-LBB21_16)>>2
	.byte	(LBB21_17-LBB21_16)>>2
	.byte	(LBB21_17-LBB21_16)>>2
	.byte	(LBB21_17-LBB21_16)>>2
	.byte	(LBB21_17-LBB21_16)>>2
	.byte	(LBB21_17-LBB21_16)>>2
	.byte	(LBB21_17-LBB21_16)>>2
	.byte	(LBB21_17-LBB21_16)>>2
	.byte	(LBB21_17-LBB21_16)>>2
	.byte	(LBB21_17-LBB21_16)>>2
	.byte	(LBB21_17-LBB21_16)>>2
	.byte	(LBB21_17-LBB21_16)>>2
	.byte	(LBB21_17-LBB21_16)>>2
	.byte	(LBB21_17-LBB21_16)>>2
	.byte	(LBB21_17-LBB21_16)>>2
	.byte	(LBB21_17-LBB21_16)>>2
	.byte	(LBB21_17-LBB21_16)>>2
	.byte	(LBB21_17-LBB21_16)>>2
	.byte	(LBB21_17-LBB21_16)>>2
	.byte	(LBB21_17-LBB21_16)>>2
	.byte	(LBB21_17-LBB21_16)>>2
	.byte	(LBB21_17-LBB21_16)>>2
	.byte	(LBB21_17-LBB21_16)>>2
	.byte	(LBB21_17-LBB21_16)>>2
	.byte	(LBB21_17-LBB21_16)>>2
	.byte	(LBB21_17-LBB21_16)>>2
	.byte	(LBB21_17-LBB21_16)>>2
	.byte	(LBB21_17-LBB21_16)>>2
	.byte	(LBB21_17-LBB21_16)>>2
	.byte	(LBB21_17-LBB21_16)>>2
	.byte	(LBB21_17-LBB21_16)>>2
	.byte	(LBB21_17-LBB21_16)>>2
	.byte	(LBB21_17-LBB21_16)>>2
	.byte	(LBB21_17-LBB21_16)>>2
	.byte	(LBB21_17-LBB21_16)>>2
	.byte	(LBB21_17-LBB21_16)>>2
	.byte	(LBB21_17-LBB21_16)>>2
	.byte	(LBB21_17-LBB21_16)>>2
	.byte	(LBB21_17-LBB21_16)>>2
	.byte	(LBB21_17-LBB21_16)>>2
	.byte	(LBB21_17-LBB21_16)>>2
	.byte	(LBB21_16-LBB21_16)>>2
	.byte	(LBB21_17-LBB21_16)>>2
	.byte	(LBB21_17-LBB21_16)>>2
	.byte	(LBB21_24-LBB21_16)>>2
	.byte	(LBB21_53-LBB21_16)>>2
	.byte	(LBB21_52-LBB21_16)>>2
	.byte	(LBB21_29-LBB21_16)>>2
	.byte	(LBB21_17-LBB21_16)>>2
	.byte	(LBB21_30-LBB21_16)>>2
	.byte	(LBB21_40-LBB21_16)>>2
	.byte	(LBB21_17-LBB21_16)>>2
	.byte	(LBB21_17-LBB21_16)>>2
	.byte	(LBB21_31-LBB21_16)>>2
	.byte	(LBB21_17-LBB21_16)>>2
	.byte	(LBB21_17-LBB21_16)>>2
	.byte	(LBB21_55-LBB21_16)>>2
	.byte	(LBB21_27-LBB21_16)>>2
	.byte	(LBB21_17-LBB21_16)>>2
	.byte	(LBB21_49-LBB21_16)>>2
	.byte	(LBB21_17-LBB21_16)>>2
	.byte	(LBB21_54-LBB21_16)>>2
	.byte	(LBB21_22-LBB21_16)>>2
	.byte	(LBB21_17-LBB21_16)>>2
	.byte	(LBB21_17-LBB21_16)>>2
	.byte	(LBB21_17-LBB21_16)>>2
	.byte	(LBB21_17-LBB21_16)>>2
	.byte	(LBB21_17-LBB21_16)>>2
	.byte	(LBB21_42-LBB21_16)>>2
                                        // -- End function
	.section	__TEXT,__const
	.p2align	4, 0x0                          // -- Begin function main
l_CPI22_0:
	.byte	97                              // 0x61
	.byte	101                             // 0x65
	.byte	115                             // 0x73
	.byte	45                              // 0x2d
	.byte	107                             // 0x6b
	.byte	97                              // 0x61
	.byte	116                             // 0x74
	.byte	58                              // 0x3a
	.byte	32                              // 0x20
	.byte	102                             // 0x66
	.byte	97                              // 0x61
	.byte	105                             // 0x69
	.byte	108                             // 0x6c
	.byte	101                             // 0x65
	.byte	100                             // 0x64
	.byte	10                              // 0xa
	.section	__TEXT,__text,regular,pure_instructions
	.globl	_main
	.p2align	2
_main:                                   // @main
// %bb.0:                               // %start
	stp	x29, x30, [sp, #-96]!           // 16-byte Folded Spill
	stp	x28, x27, [sp, #16]             // 16-byte Folded Spill
	mov	x29, sp
	stp	x26, x25, [sp, #32]             // 16-byte Folded Spill
	stp	x24, x23, [sp, #48]             // 16-byte Folded Spill
	stp	x22, x21, [sp, #64]             // 16-byte Folded Spill
	stp	x20, x19, [sp, #80]             // 16-byte Folded Spill
	sub	sp, sp, #1184
	mov	w0, #13                         // =0xd
	mov	w1, #1                          // =0x1
	str	xzr, [sp]
	bl	_signal
	mov	w0, #65536                      // =0x10000
	mov	w1, #1                          // =0x1
	bl	_rattle_alloc
	tbz	w0, #0, LBB22_73
// %bb.1:                               // %arm.1.i.i.i.i.i
	mov	x19, x1
	mov	x0, x1
	mov	w1, wzr
	mov	w2, #65536                      // =0x10000
	bl	_memset
	sub	x8, x29, #9
	mov	w0, wzr
	mov	x1, x19
	mov	w2, #65536                      // =0x10000
	stp	x8, xzr, [sp, #32]
	stp	xzr, x8, [sp, #48]
	stp	x8, xzr, [sp]
	stp	xzr, x8, [sp, #16]
	bl	_read
	tbnz	x0, #63, LBB22_59
// %bb.2:                               // %arm.11.i.i.i.preheader.i.i
	mov	w25, wzr
	cbz	x0, LBB22_60
// %bb.3:                               // %join.16.i.i.i.i.i.preheader
	mov	x26, xzr
	sub	x20, x29, #9
LBB22_4:                               // %join.16.i.i.i.i.i
                                        // =>This Loop Header: Depth=1
                                        //     Child Loop BB22_5 Depth 2
                                        //       Child Loop BB22_6 Depth 3
                                        //       Child Loop BB22_16 Depth 3
                                        //       Child Loop BB22_20 Depth 3
                                        //     Child Loop BB22_51 Depth 2
                                        //     Child Loop BB22_55 Depth 2
                                        //     Child Loop BB22_38 Depth 2
                                        //     Child Loop BB22_42 Depth 2
	cmp	x0, #16, lsl #12                // =65536
	mov	w8, #65536                      // =0x10000
	mov	w28, wzr
	csel	x21, x0, x8, lo
	mov	x24, x20
	mov	x8, x19
	str	xzr, [sp, #8]
LBB22_5:                               // %join.6.i.preheader.i.i.i.i.i.i.i
                                        //   Parent Loop BB22_4 Depth=1
                                        // =>  This Loop Header: Depth=2
                                        //       Child Loop BB22_6 Depth 3
                                        //       Child Loop BB22_16 Depth 3
                                        //       Child Loop BB22_20 Depth 3
	mov	x20, xzr
	mov	x22, x8
LBB22_6:                               // %join.6.i.i.i.i.i.i.i.i
                                        //   Parent Loop BB22_4 Depth=1
                                        //     Parent Loop BB22_5 Depth=2
                                        // =>    This Inner Loop Header: Depth=3
	ldrb	w8, [x22, x20]
	cmp	w8, #10
	b.eq	LBB22_8
// %bb.7:                               // %after.7.i.i.i.i.i.i.i.i
                                        //   in Loop: Header=BB22_6 Depth=3
	add	x20, x20, #1
	cmp	x21, x20
	b.ne	LBB22_6
	b	LBB22_31
LBB22_8:                               // %arm.3.i.i.i.i.i.i.i
                                        //   in Loop: Header=BB22_5 Depth=2
	ldp	x23, x27, [sp, #40]
	sub	x8, x27, x23
	cmp	x20, x8
	b.hi	LBB22_21
// %bb.9:                               // %join.3.i.i2.i.i.i.i.i.i
                                        //   in Loop: Header=BB22_5 Depth=2
	add	x8, x24, x23
	sub	x9, x8, x22
	cmp	x9, x20
	b.hs	LBB22_23
LBB22_10:                              // %iter.check115
                                        //   in Loop: Header=BB22_5 Depth=2
	cmp	x20, #8
	b.lo	LBB22_12
// %bb.11:                              // %vector.memcheck110
                                        //   in Loop: Header=BB22_5 Depth=2
	add	x9, x23, x24
	sub	x9, x9, x22
	cmp	x9, #32
	b.hs	LBB22_13
LBB22_12:                              //   in Loop: Header=BB22_5 Depth=2
	mov	x9, xzr
	b	LBB22_24
LBB22_13:                              // %vector.main.loop.iter.check117
                                        //   in Loop: Header=BB22_5 Depth=2
	cmp	x20, #32
	b.hs	LBB22_15
// %bb.14:                              //   in Loop: Header=BB22_5 Depth=2
	mov	x9, xzr
	b	LBB22_19
LBB22_15:                              // %vector.ph118
                                        //   in Loop: Header=BB22_5 Depth=2
	add	x12, x24, x23
	and	x10, x20, #0x18
	and	x9, x20, #0xffffffffffffffe0
	add	x11, x22, #16
	add	x12, x12, #16
	and	x13, x20, #0xffffffffffffffe0
LBB22_16:                              // %vector.body121
                                        //   Parent Loop BB22_4 Depth=1
                                        //     Parent Loop BB22_5 Depth=2
                                        // =>    This Inner Loop Header: Depth=3
	ldp	q0, q1, [x11, #-16]
	subs	x13, x13, #32
	add	x11, x11, #32
	stp	q0, q1, [x12, #-16]
	add	x12, x12, #32
	b.ne	LBB22_16
// %bb.17:                              // %middle.block126
                                        //   in Loop: Header=BB22_5 Depth=2
	cmp	x20, x9
	b.eq	LBB22_26
// %bb.18:                              // %vec.epilog.iter.check130
                                        //   in Loop: Header=BB22_5 Depth=2
	cbz	x10, LBB22_24
LBB22_19:                              // %vec.epilog.ph132
                                        //   in Loop: Header=BB22_5 Depth=2
	mov	x11, x9
	and	x9, x20, #0xfffffffffffffff8
	add	x12, x23, x11
	sub	x10, x11, x9
	add	x11, x22, x11
	add	x12, x24, x12
LBB22_20:                              // %vec.epilog.vector.body135
                                        //   Parent Loop BB22_4 Depth=1
                                        //     Parent Loop BB22_5 Depth=2
                                        // =>    This Inner Loop Header: Depth=3
	ldr	d0, [x11], #8
	adds	x10, x10, #8
	str	d0, [x12], #8
	b.ne	LBB22_20
	b	LBB22_25
LBB22_21:                              // %"std_alloc::vec::Vec::grow::<#b2ae9ec5f5f36c9c>.exit.i.i.i.i.i.i.i.i"
                                        //   in Loop: Header=BB22_5 Depth=2
	add	x0, sp, #32
	mov	x1, x20
	bl	"std_alloc::vec::Vec::grow_amortized::<#b2ae9ec5f5f36c9c>"
	cbz	w0, LBB22_67
// %bb.22:                              // %"std_alloc::vec::Vec::grow::<#b2ae9ec5f5f36c9c>.exit.join.3_crit_edge.i.i.i.i.i.i.i.i"
                                        //   in Loop: Header=BB22_5 Depth=2
	ldp	x23, x27, [sp, #40]
	ldr	x24, [sp, #32]
	add	x8, x24, x23
	sub	x9, x8, x22
	cmp	x9, x20
	b.lo	LBB22_10
LBB22_23:                              // %apart.2.i.i.i.i.i.i.i.i.i.i
                                        //   in Loop: Header=BB22_5 Depth=2
	add	x0, x24, x23
	mov	x1, x22
	mov	x2, x20
	bl	_memmove
	b	LBB22_26
LBB22_24:                              // %join.7.i.i.i.i.i.i.i.i.i.i
                                        //   in Loop: Header=BB22_5 Depth=2
	ldrb	w10, [x22, x9]
	strb	w10, [x8, x9]
	add	x9, x9, #1
LBB22_25:                              // %join.7.i.i.i.i.i.i.i.i.i.i
                                        //   in Loop: Header=BB22_5 Depth=2
	cmp	x20, x9
	b.ne	LBB22_24
LBB22_26:                              // %arm.7.i.i.i.i.i.i.i
                                        //   in Loop: Header=BB22_5 Depth=2
	add	x23, x23, x20
	mov	x2, sp
	mov	x0, x24
	mov	x1, x23
	stp	x23, x27, [sp, #40]
	bl	"aes_kat::runs::append_reply_line::<#0e4b5268c400607d>"
	tst	w0, #0xff
	b.ne	LBB22_67
// %bb.27:                              // %arm.11.i.i.i.i.i.i.i
                                        //   in Loop: Header=BB22_5 Depth=2
	cbz	x23, LBB22_29
// %bb.28:                              // %join.3.i.i.i.i.i.i.i.i.i
                                        //   in Loop: Header=BB22_5 Depth=2
	str	xzr, [sp, #40]
LBB22_29:                              // %"std_alloc::vec::Vec::clear::<#3b0deb8d82301eeb>.exit.i.i.i.i.i.i.i"
                                        //   in Loop: Header=BB22_5 Depth=2
	mvn	x8, x20
	sub	x9, x21, #1
	add	x10, x22, x20
	add	x21, x8, x21
	cmp	x9, x20
	add	x8, x10, #1
	orr	w28, w28, w1
	b.ne	LBB22_5
// %bb.30:                              // %join.3.i12.thread.i.i.i.i.i.i.i
                                        //   in Loop: Header=BB22_4 Depth=1
	add	x8, x22, x20
	mov	x23, xzr
	mov	x21, xzr
	add	x9, sp, #32
	add	x22, x8, #1
	mov	x20, x24
	stp	xzr, xzr, [x9, #8]
	b	LBB22_39
LBB22_31:                              // %after.1.i.i.i.i.i.i.i
                                        //   in Loop: Header=BB22_4 Depth=1
	ldp	x8, x27, [sp, #40]
	sub	x9, x27, x8
	cmp	x21, x9
	b.hi	LBB22_57
// %bb.32:                              //   in Loop: Header=BB22_4 Depth=1
	mov	x20, x24
LBB22_33:                              // %join.3.i12.i.i.i.i.i.i.i
                                        //   in Loop: Header=BB22_4 Depth=1
	add	x24, x20, x8
	add	x10, sp, #32
	add	x23, x8, x21
	sub	x9, x24, x22
	stp	xzr, xzr, [x10, #8]
	cmp	x9, x21
	b.hs	LBB22_39
// %bb.34:                              // %iter.check
                                        //   in Loop: Header=BB22_4 Depth=1
	cmp	x21, #8
	b.lo	LBB22_36
// %bb.35:                              // %vector.memcheck
                                        //   in Loop: Header=BB22_4 Depth=1
	add	x9, x8, x20
	sub	x9, x9, x22
	cmp	x9, #32
	b.hs	LBB22_48
LBB22_36:                              //   in Loop: Header=BB22_4 Depth=1
	mov	x9, xzr
LBB22_37:                              // %join.7.i.i.i25.i.i.i.i.i.i.i.preheader
                                        //   in Loop: Header=BB22_4 Depth=1
	sub	x10, x21, x9
	add	x11, x22, x9
	add	x8, x9, x8
LBB22_38:                              // %join.7.i.i.i25.i.i.i.i.i.i.i
                                        //   Parent Loop BB22_4 Depth=1
                                        // =>  This Inner Loop Header: Depth=2
	ldrb	w9, [x11], #1
	subs	x10, x10, #1
	strb	w9, [x20, x8]
	add	x8, x8, #1
	b.ne	LBB22_38
	b	LBB22_40
LBB22_39:                              // %apart.2.i.i.i22.i.i.i.i.i.i.i
                                        //   in Loop: Header=BB22_4 Depth=1
	mov	x0, x24
	mov	x1, x22
	mov	x2, x21
	bl	_memmove
LBB22_40:                              // %arm.1.i68.i.i.i.i.i
                                        //   in Loop: Header=BB22_4 Depth=1
	ldr	x21, [sp, #8]
	stp	x20, x23, [sp, #32]
	str	x27, [sp, #48]
	cbz	x21, LBB22_45
// %bb.41:                              // %join.5.i.preheader.i70.i.i.i.i.i
                                        //   in Loop: Header=BB22_4 Depth=1
	ldr	x22, [sp]
LBB22_42:                              // %join.5.i.i71.i.i.i.i.i
                                        //   Parent Loop BB22_4 Depth=1
                                        // =>  This Inner Loop Header: Depth=2
	mov	w0, #1                          // =0x1
	mov	x1, x22
	mov	x2, x21
	bl	_write
	tbnz	x0, #63, LBB22_66
// %bb.43:                              // %"std::io::stdio::StdoutWrite::write.exit.i.i76.i.i.i.i.i"
                                        //   in Loop: Header=BB22_42 Depth=2
	cbz	x0, LBB22_67
// %bb.44:                              // %join.13.i.i78.i.i.i.i.i
                                        //   in Loop: Header=BB22_42 Depth=2
	cmp	x0, x21
	csel	x8, x0, x21, lo
	subs	x21, x21, x8
	add	x22, x22, x8
	b.ne	LBB22_42
LBB22_45:                              // %arm.20.i.i.i.i.i
                                        //   in Loop: Header=BB22_4 Depth=1
	add	x26, x26, #1
	cmn	x26, #1
	b.eq	LBB22_75
// %bb.46:                              // %join.10.i.i.i.i.i
                                        //   in Loop: Header=BB22_4 Depth=1
	mov	w0, wzr
	mov	x1, x19
	mov	w2, #65536                      // =0x10000
	bl	_read
	tbnz	x0, #63, LBB22_79
// %bb.47:                              // %arm.11.i.i.i.i.i
                                        //   in Loop: Header=BB22_4 Depth=1
	orr	w25, w25, w28
	cbnz	x0, LBB22_4
	b	LBB22_80
LBB22_48:                              // %vector.main.loop.iter.check
                                        //   in Loop: Header=BB22_4 Depth=1
	cmp	x21, #32
	b.hs	LBB22_50
// %bb.49:                              //   in Loop: Header=BB22_4 Depth=1
	mov	x9, xzr
	b	LBB22_54
LBB22_50:                              // %vector.ph
                                        //   in Loop: Header=BB22_4 Depth=1
	add	x12, x20, x8
	and	x10, x21, #0x18
	and	x9, x21, #0xffffffffffffffe0
	add	x11, x22, #16
	add	x12, x12, #16
	and	x13, x21, #0xffffffffffffffe0
LBB22_51:                              // %vector.body
                                        //   Parent Loop BB22_4 Depth=1
                                        // =>  This Inner Loop Header: Depth=2
	ldp	q0, q1, [x11, #-16]
	subs	x13, x13, #32
	add	x11, x11, #32
	stp	q0, q1, [x12, #-16]
	add	x12, x12, #32
	b.ne	LBB22_51
// %bb.52:                              // %middle.block
                                        //   in Loop: Header=BB22_4 Depth=1
	cmp	x21, x9
	b.eq	LBB22_40
// %bb.53:                              // %vec.epilog.iter.check
                                        //   in Loop: Header=BB22_4 Depth=1
	cbz	x10, LBB22_37
LBB22_54:                              // %vec.epilog.ph
                                        //   in Loop: Header=BB22_4 Depth=1
	mov	x12, x9
	and	x9, x21, #0xfffffffffffffff8
	sub	x10, x12, x9
	add	x11, x22, x12
	add	x12, x8, x12
LBB22_55:                              // %vec.epilog.vector.body
                                        //   Parent Loop BB22_4 Depth=1
                                        // =>  This Inner Loop Header: Depth=2
	ldr	d0, [x11], #8
	adds	x10, x10, #8
	str	d0, [x20, x12]
	add	x12, x12, #8
	b.ne	LBB22_55
// %bb.56:                              // %vec.epilog.middle.block
                                        //   in Loop: Header=BB22_4 Depth=1
	cmp	x21, x9
	b.eq	LBB22_40
	b	LBB22_37
LBB22_57:                              // %"std_alloc::vec::Vec::grow::<#b2ae9ec5f5f36c9c>.exit.i32.i.i.i.i.i.i.i"
                                        //   in Loop: Header=BB22_4 Depth=1
	add	x0, sp, #32
	mov	x1, x21
	bl	"std_alloc::vec::Vec::grow_amortized::<#b2ae9ec5f5f36c9c>"
	cbz	w0, LBB22_67
// %bb.58:                              // %"std_alloc::vec::Vec::grow::<#b2ae9ec5f5f36c9c>.exit.join.3_crit_edge.i34.i.i.i.i.i.i.i"
                                        //   in Loop: Header=BB22_4 Depth=1
	ldp	x8, x27, [sp, #40]
	ldr	x20, [sp, #32]
	b	LBB22_33
LBB22_59:                              // %"std_alloc::vec::Vec::drop::<#d3b6d5c5bad96b2d>.exit.i.i.thread.i.i.i"
	bl	_rattle_errno
	b	LBB22_72
LBB22_60:                              // %then.14.i.i.i.thread.i.i
	mov	w21, wzr
	str	xzr, [sp, #8]
	sub	x20, x29, #9
LBB22_61:                              // %arm.17.i.i.i.i.i
	ldr	x8, [sp, #16]
	cbz	x8, LBB22_63
// %bb.62:                              // %then.1.i.i.i31.i.i.i.i.i
	ldr	x0, [sp]
	bl	_rattle_dealloc
LBB22_63:                              // %"std_alloc::vec::Vec::drop::<#d3b6d5c5bad96b2d>.exit33.i.i.i.i.i"
	ldr	x8, [sp, #48]
	orr	w21, w25, w21
	cbz	x8, LBB22_65
// %bb.64:                              // %then.1.i.i.i37.i.i.i.i.i
	mov	x0, x20
	bl	_rattle_dealloc
LBB22_65:
	mov	x0, x19
	bl	_rattle_dealloc
	and	w19, w21, #0x1
	b	LBB22_74
LBB22_66:                              // %"std::io::stdio::StdoutWrite::write.exit.thread.i.i83.i.i.i.i.i"
	bl	_rattle_errno
LBB22_67:                              // %arm.21.i.i.i.i.i
	ldr	x8, [sp, #16]
	cbz	x8, LBB22_69
// %bb.68:                              // %then.1.i.i.i91.i.i.i.i.i
	ldr	x0, [sp]
	bl	_rattle_dealloc
LBB22_69:                              // %"std_alloc::vec::Vec::drop::<#d3b6d5c5bad96b2d>.exit93.i.i.i.i.i"
	ldr	x8, [sp, #48]
	cbz	x8, LBB22_72
// %bb.70:                              // %then.1.i.i.i97.i.i.i.i.i
	ldr	x0, [sp, #32]
LBB22_71:                              // %"std_alloc::vec::Vec::drop::<#d3b6d5c5bad96b2d>.exit123.i.i.i.i.i"
	bl	_rattle_dealloc
LBB22_72:                              // %"std_alloc::vec::Vec::drop::<#d3b6d5c5bad96b2d>.exit123.i.i.i.i.i"
	mov	x0, x19
	bl	_rattle_dealloc
LBB22_73:                              // %then.1.i.i.i
	add	x8, sp, #32
	mov	w1, wzr
	mov	w2, #1012                       // =0x3f4
	add	x0, x8, #20
	bl	_memset
	movi	v0.2d, #0000000000000000
	adrp	x8, l_CPI22_0@PAGE
	mov	w19, #2                         // =0x2
	ldr	q1, [x8, l_CPI22_0@PAGEOFF]
	mov	w9, #16                         // =0x10
	add	x0, sp, #32
	str	w19, [sp, #32]
	str	x9, [sp, #1064]
	stur	q1, [sp, #36]
	str	q0, [sp, #1072]
	str	q0, [sp, #1088]
	str	q0, [sp, #1104]
	str	q0, [sp, #1120]
	str	q0, [sp, #1136]
	str	q0, [sp, #1152]
	bl	"std_io::io::buffer::Buffer::flush"
LBB22_74:                              // %"aes_kat_main::main+start.exit"
	mov	w0, w19
	add	sp, sp, #1184
	ldp	x20, x19, [sp, #80]             // 16-byte Folded Reload
	ldp	x22, x21, [sp, #64]             // 16-byte Folded Reload
	ldp	x24, x23, [sp, #48]             // 16-byte Folded Reload
	ldp	x26, x25, [sp, #32]             // 16-byte Folded Reload
	ldp	x28, x27, [sp, #16]             // 16-byte Folded Reload
	ldp	x29, x30, [sp], #96             // 16-byte Folded Reload
	ret
LBB22_75:                              // %after.6.i.i.i.i.i
	ldr	x8, [sp, #16]
	cbz	x8, LBB22_77
LBB22_76:                              // %then.1.i.i.i11.i.i.i.i.i
	ldr	x0, [sp]
	bl	_rattle_dealloc
LBB22_77:                              // %"std_alloc::vec::Vec::drop::<#d3b6d5c5bad96b2d>.exit.i.i.i.i.i"
	cbz	x27, LBB22_72
LBB22_78:                              // %then.1.i.i.i115.i.i.i.i.i
	mov	x0, x20
	b	LBB22_71
LBB22_79:                              // %arm.12.i.i.i.i.i
	ldr	x21, [sp, #16]
	bl	_rattle_errno
	cbnz	x21, LBB22_76
	b	LBB22_77
LBB22_80:                              // %then.14.i.i.i.i.i
	str	xzr, [sp, #8]
	cbz	x23, LBB22_85
// %bb.81:                              // %"aes_kat::runs::answer_rest::<#0e4b5268c400607d>.exit.i.i.i.i.i.i"
	mov	x2, sp
	mov	x0, x20
	mov	x1, x23
	bl	"aes_kat::runs::append_reply_line::<#0e4b5268c400607d>"
	tst	w0, #0xff
	b.eq	LBB22_86
LBB22_82:                              // %arm.18.i.i.i.i.i
	ldr	x8, [sp, #16]
	cbz	x8, LBB22_84
// %bb.83:                              // %then.1.i.i.i49.i.i.i.i.i
	ldr	x0, [sp]
	bl	_rattle_dealloc
LBB22_84:                              // %"std_alloc::vec::Vec::drop::<#d3b6d5c5bad96b2d>.exit51.i.i.i.i.i"
	ldr	x8, [sp, #48]
	cbnz	x8, LBB22_78
	b	LBB22_72
LBB22_85:
	mov	w21, wzr
	b	LBB22_61
LBB22_86:                              // %arm.1.i27.i.i.i.i.i
	ldr	x22, [sp, #8]
	mov	w21, w1
	cbz	x22, LBB22_61
// %bb.87:                              // %join.5.i.preheader.i.i.i.i.i.i
	ldr	x23, [sp]
LBB22_88:                              // %join.5.i.i.i.i.i.i.i
                                        // =>This Inner Loop Header: Depth=1
	mov	w0, #1                          // =0x1
	mov	x1, x23
	mov	x2, x22
	bl	_write
	tbnz	x0, #63, LBB22_91
// %bb.89:                              // %"std::io::stdio::StdoutWrite::write.exit.i.i.i.i.i.i.i"
                                        //   in Loop: Header=BB22_88 Depth=1
	cbz	x0, LBB22_82
// %bb.90:                              // %join.13.i.i.i.i.i.i.i
                                        //   in Loop: Header=BB22_88 Depth=1
	cmp	x0, x22
	csel	x8, x0, x22, lo
	subs	x22, x22, x8
	add	x23, x23, x8
	b.ne	LBB22_88
	b	LBB22_61
LBB22_91:                              // %"std::io::stdio::StdoutWrite::write.exit.thread.i.i.i.i.i.i.i"
	bl	_rattle_errno
	b	LBB22_82
                                        // -- End function
	.section	__TEXT,__const
l_static.2:

	.section	__TEXT,__const
l_static.3:
	.ascii	"enc"

	.section	__TEXT,__const
l_static.4:
	.ascii	"dec"

	.section	__TEXT,__const
l_static.5:
	.ascii	"round"

	.section	__TEXT,__const
	.p2align	3
l_static.6:
	.ascii	"invround"

	.section	__TEXT,__const
l_static.7:
	.ascii	"mix"

	.section	__TEXT,__const
l_static.8:
	.ascii	"invmix"

	.section	__TEXT,__const
l_static.9:
	.ascii	"sched"

	.section	__TEXT,__const
l_static.10:
	.ascii	"\001\002\004\b\020 @\200\0336"

	.section	__TEXT,__const
	.p2align	4
l_static.11:
	.ascii	"0123456789abcdef"

l_static.12:
	.zero	16

	.section	__TEXT,__const
l_static.13:
	.ascii	"error command"

	.section	__TEXT,__const
l_static.14:
	.ascii	"error hex"

	.section	__TEXT,__const
l_static.15:
	.ascii	"error key"

	.section	__TEXT,__const
l_static.16:
	.ascii	"error block"

	.section	__TEXT,__const
	.p2align	3, 0x0
"l_switch.table.aes_kat::runs::append_reply_line::<#0e4b5268c400607d>":
	.xword	13                              // 0xd
	.xword	9                               // 0x9
	.xword	9                               // 0x9
	.xword	11                              // 0xb

	.section	__TEXT,__const
	.p2align	2, 0x0
"l_switch.table.aes_kat::runs::append_reply_line::<#0e4b5268c400607d>.104.rel":
	.word	l_static.13-"l_switch.table.aes_kat::runs::append_reply_line::<#0e4b5268c400607d>.104.rel"
	.word	l_static.14-"l_switch.table.aes_kat::runs::append_reply_line::<#0e4b5268c400607d>.104.rel"
	.word	l_static.15-"l_switch.table.aes_kat::runs::append_reply_line::<#0e4b5268c400607d>.104.rel"
	.word	l_static.16-"l_switch.table.aes_kat::runs::append_reply_line::<#0e4b5268c400607d>.104.rel"

.subsections_via_symbols
